; ModuleID = '<stdin>'
source_filename = "interpreter.c"
target datalayout = "e-m:e-p270:32:32-p271:32:32-p272:64:64-i64:64-f80:128-n8:16:32:64-S128"
target triple = "x86_64-unknown-linux-gnu"

%struct.machine = type { [16 x i32], i32, i32, i32 }

@program = internal unnamed_addr constant [35 x i16] [i16 0, i16 1, i16 1, i16 8, i16 0, i16 32, i16 9, i16 0, i16 3, i16 4, i16 1, i16 0, i16 1000, i16 5, i16 6, i16 2, i16 2, i16 0, i16 10, i16 9, i16 0, i16 0, i16 1, i16 10, i16 9, i16 0, i16 1, i16 3, i16 1, i16 0, i16 5, i16 5, i16 6, i16 22, i16 11], align 16
@letters = internal unnamed_addr constant [6 x i8] c"halt\0A\00", align 1

; Function Attrs: nounwind uwtable
define dso_local i32 @main() local_unnamed_addr #0 {
  %1 = alloca %struct.machine, align 4
  call void @llvm.lifetime.start.p0(i64 76, ptr %1) #4
  call void @llvm.memset.p0.i64(ptr align 4 %1, i8 0, i64 76, i1 false)
  br label %2

2:                                                ; preds = %2, %0
  %3 = call fastcc i32 @step(ptr noundef %1) #5
  %4 = icmp ne i32 %3, 0
  br i1 %4, label %2, label %5, !llvm.loop !5

5:                                                ; preds = %2
  %6 = getelementptr inbounds %struct.machine, ptr %1, i32 0, i32 3
  %7 = load i32, ptr %6, align 4, !tbaa !8
  %8 = sub nsw i32 %7, 50
  call void @llvm.lifetime.end.p0(i64 76, ptr %1) #4
  ret i32 %8
}

; Function Attrs: nocallback nofree nosync nounwind willreturn memory(argmem: readwrite)
declare void @llvm.lifetime.start.p0(i64 immarg, ptr nocapture) #1

; Function Attrs: nocallback nofree nounwind willreturn memory(argmem: write)
declare void @llvm.memset.p0.i64(ptr nocapture writeonly, i8, i64, i1 immarg) #2

; Function Attrs: nounwind uwtable
define internal fastcc i32 @step(ptr noundef %0) unnamed_addr #0 {
  %2 = getelementptr inbounds %struct.machine, ptr %0, i32 0, i32 3
  %3 = load i32, ptr %2, align 4, !tbaa !8
  %4 = add nsw i32 %3, 1
  store i32 %4, ptr %2, align 4, !tbaa !8
  %5 = getelementptr inbounds %struct.machine, ptr %0, i32 0, i32 2
  %6 = load i32, ptr %5, align 4, !tbaa !13
  %7 = add nsw i32 %6, 1
  store i32 %7, ptr %5, align 4, !tbaa !13
  %8 = sext i32 %6 to i64
  %9 = getelementptr inbounds [35 x i16], ptr @program, i64 0, i64 %8
  %10 = load i16, ptr %9, align 2, !tbaa !14
  %11 = sext i16 %10 to i32
  switch i32 %11, label %60 [
    i32 0, label %12
    i32 1, label %18
    i32 2, label %20
    i32 3, label %22
    i32 4, label %26
    i32 5, label %30
    i32 6, label %35
    i32 7, label %44
    i32 8, label %49
    i32 9, label %51
    i32 10, label %54
    i32 11, label %61
  ]

12:                                               ; preds = %1
  %13 = add nsw i32 %7, 1
  store i32 %13, ptr %5, align 4, !tbaa !13
  %14 = sext i32 %7 to i64
  %15 = getelementptr inbounds [35 x i16], ptr @program, i64 0, i64 %14
  %16 = load i16, ptr %15, align 2, !tbaa !14
  %17 = sext i16 %16 to i32
  call fastcc void @push(ptr noundef %0, i32 noundef %17) #5
  br label %60

18:                                               ; preds = %1
  %19 = call fastcc i32 @pop(ptr noundef %0) #5
  call fastcc void @push(ptr noundef %0, i32 noundef %19) #5
  call fastcc void @push(ptr noundef %0, i32 noundef %19) #5
  br label %60

20:                                               ; preds = %1
  %21 = call fastcc i32 @pop(ptr noundef %0) #5
  br label %60

22:                                               ; preds = %1
  %23 = call fastcc i32 @pop(ptr noundef %0) #5
  %24 = call fastcc i32 @pop(ptr noundef %0) #5
  %25 = add nsw i32 %24, %23
  call fastcc void @push(ptr noundef %0, i32 noundef %25) #5
  br label %60

26:                                               ; preds = %1
  %27 = call fastcc i32 @pop(ptr noundef %0) #5
  %28 = call fastcc i32 @pop(ptr noundef %0) #5
  %29 = mul nsw i32 %28, %27
  call fastcc void @push(ptr noundef %0, i32 noundef %29) #5
  br label %60

30:                                               ; preds = %1
  %31 = call fastcc i32 @pop(ptr noundef %0) #5
  %32 = call fastcc i32 @pop(ptr noundef %0) #5
  %33 = icmp slt i32 %32, %31
  %34 = zext i1 %33 to i32
  call fastcc void @push(ptr noundef %0, i32 noundef %34) #5
  br label %60

35:                                               ; preds = %1
  %36 = add nsw i32 %7, 1
  store i32 %36, ptr %5, align 4, !tbaa !13
  %37 = sext i32 %7 to i64
  %38 = getelementptr inbounds [35 x i16], ptr @program, i64 0, i64 %37
  %39 = load i16, ptr %38, align 2, !tbaa !14
  %40 = sext i16 %39 to i32
  %41 = call fastcc i32 @pop(ptr noundef %0) #5
  %42 = icmp ne i32 %41, 0
  br i1 %42, label %43, label %60

43:                                               ; preds = %35
  store i32 %40, ptr %5, align 4, !tbaa !13
  br label %60

44:                                               ; preds = %1
  %45 = sext i32 %7 to i64
  %46 = getelementptr inbounds [35 x i16], ptr @program, i64 0, i64 %45
  %47 = load i16, ptr %46, align 2, !tbaa !14
  %48 = sext i16 %47 to i32
  store i32 %48, ptr %5, align 4, !tbaa !13
  br label %60

49:                                               ; preds = %1
  %50 = call fastcc i32 @pop(ptr noundef %0) #5
  call fastcc void @number(i32 noundef %50) #5
  br label %60

51:                                               ; preds = %1
  %52 = call fastcc i32 @pop(ptr noundef %0) #5
  %53 = call i32 @putchar(i32 noundef %52) #5
  br label %60

54:                                               ; preds = %1
  %55 = call fastcc i32 @pop(ptr noundef %0) #5
  %56 = sext i32 %55 to i64
  %57 = getelementptr inbounds [6 x i8], ptr @letters, i64 0, i64 %56
  %58 = load i8, ptr %57, align 1, !tbaa !16
  %59 = sext i8 %58 to i32
  call fastcc void @push(ptr noundef %0, i32 noundef %59) #5
  br label %60

60:                                               ; preds = %35, %43, %54, %51, %49, %44, %30, %26, %22, %20, %18, %12, %1
  br label %61

61:                                               ; preds = %1, %60
  %.0 = phi i32 [ 1, %60 ], [ 0, %1 ]
  ret i32 %.0
}

; Function Attrs: nocallback nofree nosync nounwind willreturn memory(argmem: readwrite)
declare void @llvm.lifetime.end.p0(i64 immarg, ptr nocapture) #1

; Function Attrs: nounwind uwtable
define internal fastcc void @push(ptr noundef %0, i32 noundef %1) unnamed_addr #0 {
  %3 = getelementptr inbounds %struct.machine, ptr %0, i32 0, i32 1
  %4 = load i32, ptr %3, align 4, !tbaa !17
  %5 = icmp eq i32 %4, 16
  br i1 %5, label %6, label %7

6:                                                ; preds = %2
  call void @abort() #5
  %.pre = load i32, ptr %3, align 4, !tbaa !17
  br label %7

7:                                                ; preds = %6, %2
  %8 = phi i32 [ %.pre, %6 ], [ %4, %2 ]
  %9 = add nsw i32 %8, 1
  store i32 %9, ptr %3, align 4, !tbaa !17
  %10 = sext i32 %8 to i64
  %11 = getelementptr inbounds [16 x i32], ptr %0, i64 0, i64 %10
  store i32 %1, ptr %11, align 4, !tbaa !18
  ret void
}

; Function Attrs: nounwind uwtable
define internal fastcc i32 @pop(ptr noundef %0) unnamed_addr #0 {
  %2 = getelementptr inbounds %struct.machine, ptr %0, i32 0, i32 1
  %3 = load i32, ptr %2, align 4, !tbaa !17
  %4 = icmp eq i32 %3, 0
  br i1 %4, label %5, label %6

5:                                                ; preds = %1
  call void @abort() #5
  %.pre = load i32, ptr %2, align 4, !tbaa !17
  br label %6

6:                                                ; preds = %5, %1
  %7 = phi i32 [ %.pre, %5 ], [ %3, %1 ]
  %8 = add nsw i32 %7, -1
  store i32 %8, ptr %2, align 4, !tbaa !17
  %9 = sext i32 %8 to i64
  %10 = getelementptr inbounds [16 x i32], ptr %0, i64 0, i64 %9
  %11 = load i32, ptr %10, align 4, !tbaa !18
  ret i32 %11
}

; Function Attrs: nounwind uwtable
define internal fastcc void @number(i32 noundef %0) unnamed_addr #0 {
  %2 = icmp sge i32 %0, 10
  br i1 %2, label %3, label %5

3:                                                ; preds = %1
  %4 = sdiv i32 %0, 10
  call fastcc void @number(i32 noundef %4) #5
  br label %5

5:                                                ; preds = %3, %1
  %6 = srem i32 %0, 10
  %7 = add nsw i32 48, %6
  %8 = call i32 @putchar(i32 noundef %7) #5
  ret void
}

declare i32 @putchar(i32 noundef) local_unnamed_addr #3

declare void @abort() local_unnamed_addr #3

attributes #0 = { nounwind uwtable "min-legal-vector-width"="0" "no-builtins" "no-jump-tables"="true" "no-trapping-math"="true" "stack-protector-buffer-size"="8" "target-cpu"="x86-64" "target-features"="+cx8,+fxsr,+mmx,+sse,+sse2,+x87" "tune-cpu"="generic" }
attributes #1 = { nocallback nofree nosync nounwind willreturn memory(argmem: readwrite) }
attributes #2 = { nocallback nofree nounwind willreturn memory(argmem: write) }
attributes #3 = { "no-builtins" "no-trapping-math"="true" "stack-protector-buffer-size"="8" "target-cpu"="x86-64" "target-features"="+cx8,+fxsr,+mmx,+sse,+sse2,+x87" "tune-cpu"="generic" }
attributes #4 = { nounwind }
attributes #5 = { nobuiltin "no-builtins" }

!llvm.module.flags = !{!0, !1, !2, !3}
!llvm.ident = !{!4}

!0 = !{i32 1, !"wchar_size", i32 4}
!1 = !{i32 8, !"PIC Level", i32 2}
!2 = !{i32 7, !"PIE Level", i32 2}
!3 = !{i32 7, !"uwtable", i32 2}
!4 = !{!"Debian clang version 16.0.6 (15~deb12u1)"}
!5 = distinct !{!5, !6, !7}
!6 = !{!"llvm.loop.mustprogress"}
!7 = !{!"llvm.loop.unroll.disable"}
!8 = !{!9, !12, i64 72}
!9 = !{!"machine", !10, i64 0, !12, i64 64, !12, i64 68, !12, i64 72}
!10 = !{!"omnipotent char", !11, i64 0}
!11 = !{!"Simple C/C++ TBAA"}
!12 = !{!"int", !10, i64 0}
!13 = !{!9, !12, i64 68}
!14 = !{!15, !15, i64 0}
!15 = !{!"short", !10, i64 0}
!16 = !{!10, !10, i64 0}
!17 = !{!9, !12, i64 64}
!18 = !{!12, !12, i64 0}
