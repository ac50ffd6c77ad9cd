; ModuleID = '<stdin>'
source_filename = "heap.c"
target datalayout = "e-m:e-p270:32:32-p271:32:32-p272:64:64-i64:64-f80:128-n8:16:32:64-S128"
target triple = "x86_64-unknown-linux-gnu"

%struct.stack = type { ptr, i32, i32 }

@.str = private unnamed_addr constant [7 x i8] c"zeros \00", align 1
@.str.1 = private unnamed_addr constant [6 x i8] c"dirt \00", align 1
@.str.2 = private unnamed_addr constant [6 x i8] c"same \00", align 1
@.str.3 = private unnamed_addr constant [7 x i8] c"other \00", align 1
@.str.4 = private unnamed_addr constant [5 x i8] c"room\00", align 1
@.str.5 = private unnamed_addr constant [5 x i8] c"none\00", align 1

; Function Attrs: nounwind uwtable
define dso_local i32 @main() local_unnamed_addr #0 {
  %1 = alloca %struct.stack, align 8
  %2 = alloca ptr, align 8
  %3 = alloca ptr, align 8
  %4 = alloca ptr, align 8
  %5 = alloca ptr, align 8
  call void @llvm.lifetime.start.p0(i64 16, ptr %1) #4
  call void @llvm.memset.p0.i64(ptr align 8 %1, i8 0, i64 16, i1 false)
  br label %6

6:                                                ; preds = %8, %0
  %.0 = phi i32 [ 0, %0 ], [ %10, %8 ]
  %7 = icmp slt i32 %.0, 10
  br i1 %7, label %8, label %11

8:                                                ; preds = %6
  %9 = mul nsw i32 %.0, %.0
  call fastcc void @push(ptr noundef %1, i32 noundef %9) #5
  %10 = add nsw i32 %.0, 1
  br label %6, !llvm.loop !5

11:                                               ; preds = %6, %15
  %.024 = phi i32 [ %20, %15 ], [ 0, %6 ]
  %12 = getelementptr inbounds %struct.stack, ptr %1, i32 0, i32 1
  %13 = load i32, ptr %12, align 8, !tbaa !8
  %14 = icmp ult i32 %.024, %13
  br i1 %14, label %15, label %25

15:                                               ; preds = %11
  %16 = load ptr, ptr %1, align 8, !tbaa !14
  %17 = zext i32 %.024 to i64
  %18 = getelementptr inbounds i32, ptr %16, i64 %17
  %19 = load i32, ptr %18, align 4, !tbaa !15
  call fastcc void @number(i32 noundef %19) #5
  %20 = add i32 %.024, 1
  %21 = load i32, ptr %12, align 8, !tbaa !8
  %22 = icmp ult i32 %20, %21
  %23 = select i1 %22, i32 32, i32 10
  %24 = call i32 @putchar(i32 noundef %23) #5
  br label %11, !llvm.loop !16

25:                                               ; preds = %11
  %26 = call ptr @calloc(i64 noundef 25, i64 noundef 40) #5
  %27 = icmp ne ptr %26, null
  br i1 %27, label %29, label %28

28:                                               ; preds = %25
  call void @abort() #5
  br label %29

29:                                               ; preds = %28, %25
  br label %30

30:                                               ; preds = %32, %29
  %.023 = phi i32 [ 0, %29 ], [ %37, %32 ]
  %.022 = phi i32 [ 0, %29 ], [ %38, %32 ]
  %31 = icmp slt i32 %.022, 1000
  br i1 %31, label %32, label %39

32:                                               ; preds = %30
  %33 = sext i32 %.022 to i64
  %34 = getelementptr inbounds i8, ptr %26, i64 %33
  %35 = load i8, ptr %34, align 1, !tbaa !17
  %36 = zext i8 %35 to i32
  %37 = add i32 %.023, %36
  %38 = add nsw i32 %.022, 1
  br label %30, !llvm.loop !18

39:                                               ; preds = %30
  %40 = icmp eq i32 %.023, 0
  %41 = select i1 %40, ptr @.str, ptr @.str.1
  call fastcc void @word(ptr noundef %41) #5
  call void @free(ptr noundef %26) #5
  call void @llvm.lifetime.start.p0(i64 8, ptr %2)
  %42 = call ptr @malloc(i64 noundef 100) #5
  store volatile ptr %42, ptr %2, align 8, !tbaa !19
  call void @llvm.lifetime.start.p0(i64 8, ptr %3)
  %43 = call ptr @malloc(i64 noundef 8) #5
  store volatile ptr %43, ptr %3, align 8, !tbaa !19
  %.0.5 = load volatile ptr, ptr %2, align 8, !tbaa !19
  %.0.6 = load volatile ptr, ptr %2, align 8, !tbaa !19
  call void @free(ptr noundef %.0.6) #5
  call void @llvm.lifetime.start.p0(i64 8, ptr %4)
  %44 = call ptr @malloc(i64 noundef 90) #5
  store volatile ptr %44, ptr %4, align 8, !tbaa !19
  %.0.1 = load volatile ptr, ptr %4, align 8, !tbaa !19
  %45 = icmp eq ptr %.0.1, %.0.5
  %46 = select i1 %45, ptr @.str.2, ptr @.str.3
  call fastcc void @word(ptr noundef %46) #5
  %.0.2 = load volatile ptr, ptr %4, align 8, !tbaa !19
  call void @free(ptr noundef %.0.2) #5
  %.0.4 = load volatile ptr, ptr %3, align 8, !tbaa !19
  call void @free(ptr noundef %.0.4) #5
  call void @llvm.lifetime.start.p0(i64 8, ptr %5)
  %47 = call ptr @malloc(i64 noundef 1879048192) #5
  store volatile ptr %47, ptr %5, align 8, !tbaa !19
  %.0. = load volatile ptr, ptr %5, align 8, !tbaa !19
  %48 = icmp ne ptr %.0., null
  %49 = select i1 %48, ptr @.str.4, ptr @.str.5
  %50 = call i32 @puts(ptr noundef %49) #5
  %51 = load ptr, ptr %1, align 8, !tbaa !14
  call void @free(ptr noundef %51) #5
  %52 = load i32, ptr %12, align 8, !tbaa !8
  call void @llvm.lifetime.end.p0(i64 8, ptr %5)
  call void @llvm.lifetime.end.p0(i64 8, ptr %4)
  call void @llvm.lifetime.end.p0(i64 8, ptr %3)
  call void @llvm.lifetime.end.p0(i64 8, ptr %2)
  call void @llvm.lifetime.end.p0(i64 16, ptr %1) #4
  ret i32 %52
}

; Function Attrs: nocallback nofree nosync nounwind willreturn memory(argmem: readwrite)
declare void @llvm.lifetime.start.p0(i64 immarg, ptr nocapture) #1

; Function Attrs: nocallback nofree nounwind willreturn memory(argmem: write)
declare void @llvm.memset.p0.i64(ptr nocapture writeonly, i8, i64, i1 immarg) #2

; Function Attrs: nounwind uwtable
define internal fastcc void @push(ptr noundef %0, i32 noundef %1) unnamed_addr #0 {
  %3 = getelementptr inbounds %struct.stack, ptr %0, i32 0, i32 1
  %4 = load i32, ptr %3, align 8, !tbaa !8
  %5 = getelementptr inbounds %struct.stack, ptr %0, i32 0, i32 2
  %6 = load i32, ptr %5, align 4, !tbaa !20
  %7 = icmp eq i32 %4, %6
  br i1 %7, label %8, label %._crit_edge

._crit_edge:                                      ; preds = %2
  %.pre = load ptr, ptr %0, align 8, !tbaa !14
  br label %30

8:                                                ; preds = %2
  %9 = icmp ne i32 %4, 0
  %10 = mul i32 2, %4
  %11 = select i1 %9, i32 %10, i32 2
  %12 = zext i32 %11 to i64
  %13 = mul i64 %12, 4
  %14 = call ptr @malloc(i64 noundef %13) #5
  %15 = icmp ne ptr %14, null
  br i1 %15, label %17, label %16

16:                                               ; preds = %8
  call void @exit(i32 noundef 99) #5
  br label %17

17:                                               ; preds = %16, %8
  br label %18

18:                                               ; preds = %21, %17
  %.0 = phi i32 [ 0, %17 ], [ %27, %21 ]
  %19 = load i32, ptr %3, align 8, !tbaa !8
  %20 = icmp ult i32 %.0, %19
  br i1 %20, label %21, label %28

21:                                               ; preds = %18
  %22 = load ptr, ptr %0, align 8, !tbaa !14
  %23 = zext i32 %.0 to i64
  %24 = getelementptr inbounds i32, ptr %22, i64 %23
  %25 = load i32, ptr %24, align 4, !tbaa !15
  %26 = getelementptr inbounds i32, ptr %14, i64 %23
  store i32 %25, ptr %26, align 4, !tbaa !15
  %27 = add i32 %.0, 1
  br label %18, !llvm.loop !21

28:                                               ; preds = %18
  %29 = load ptr, ptr %0, align 8, !tbaa !14
  call void @free(ptr noundef %29) #5
  store ptr %14, ptr %0, align 8, !tbaa !14
  store i32 %11, ptr %5, align 4, !tbaa !20
  %.pre20 = load i32, ptr %3, align 8, !tbaa !8
  br label %30

30:                                               ; preds = %._crit_edge, %28
  %31 = phi i32 [ %4, %._crit_edge ], [ %.pre20, %28 ]
  %32 = phi ptr [ %.pre, %._crit_edge ], [ %14, %28 ]
  %33 = add i32 %31, 1
  store i32 %33, ptr %3, align 8, !tbaa !8
  %34 = zext i32 %31 to i64
  %35 = getelementptr inbounds i32, ptr %32, i64 %34
  store i32 %1, ptr %35, align 4, !tbaa !15
  ret void
}

; Function Attrs: nocallback nofree nosync nounwind willreturn memory(argmem: readwrite)
declare void @llvm.lifetime.end.p0(i64 immarg, ptr nocapture) #1

; Function Attrs: nounwind uwtable
define internal fastcc void @number(i32 noundef %0) unnamed_addr #0 {
  %2 = icmp sge i32 %0, 10
  br i1 %2, label %3, label %5

3:                                                ; preds = %1
  %4 = sdiv i32 %0, 10
  call fastcc void @number(i32 noundef %4) #5
  br label %5

5:                                                ; preds = %3, %1
  %6 = srem i32 %0, 10
  %7 = add nsw i32 48, %6
  %8 = call i32 @putchar(i32 noundef %7) #5
  ret void
}

declare i32 @putchar(i32 noundef) local_unnamed_addr #3

declare ptr @calloc(i64 noundef, i64 noundef) local_unnamed_addr #3

declare void @abort() local_unnamed_addr #3

; Function Attrs: nounwind uwtable
define internal fastcc void @word(ptr noundef %0) unnamed_addr #0 {
  br label %2

2:                                                ; preds = %5, %1
  %.0 = phi ptr [ %0, %1 ], [ %6, %5 ]
  %3 = load i8, ptr %.0, align 1, !tbaa !17
  %4 = icmp ne i8 %3, 0
  br i1 %4, label %5, label %9

5:                                                ; preds = %2
  %6 = getelementptr inbounds i8, ptr %.0, i32 1
  %7 = sext i8 %3 to i32
  %8 = call i32 @putchar(i32 noundef %7) #5
  br label %2, !llvm.loop !22

9:                                                ; preds = %2
  ret void
}

declare void @free(ptr noundef) local_unnamed_addr #3

declare ptr @malloc(i64 noundef) local_unnamed_addr #3

declare i32 @puts(ptr noundef) local_unnamed_addr #3

declare void @exit(i32 noundef) local_unnamed_addr #3

attributes #0 = { nounwind uwtable "min-legal-vector-width"="0" "no-builtins" "no-jump-tables"="true" "no-trapping-math"="true" "stack-protector-buffer-size"="8" "target-cpu"="x86-64" "target-features"="+cx8,+fxsr,+mmx,+sse,+sse2,+x87" "tune-cpu"="generic" }
attributes #1 = { nocallback nofree nosync nounwind willreturn memory(argmem: readwrite) }
attributes #2 = { nocallback nofree nounwind willreturn memory(argmem: write) }
attributes #3 = { "no-builtins" "no-trapping-math"="true" "stack-protector-buffer-size"="8" "target-cpu"="x86-64" "target-features"="+cx8,+fxsr,+mmx,+sse,+sse2,+x87" "tune-cpu"="generic" }
attributes #4 = { nounwind }
attributes #5 = { nobuiltin "no-builtins" }

!llvm.module.flags = !{!0, !1, !2, !3}
!llvm.ident = !{!4}

!0 = !{i32 1, !"wchar_size", i32 4}
!1 = !{i32 8, !"PIC Level", i32 2}
!2 = !{i32 7, !"PIE Level", i32 2}
!3 = !{i32 7, !"uwtable", i32 2}
!4 = !{!"Debian clang version 16.0.6 (15~deb12u1)"}
!5 = distinct !{!5, !6, !7}
!6 = !{!"llvm.loop.mustprogress"}
!7 = !{!"llvm.loop.unroll.disable"}
!8 = !{!9, !13, i64 8}
!9 = !{!"stack", !10, i64 0, !13, i64 8, !13, i64 12}
!10 = !{!"any pointer", !11, i64 0}
!11 = !{!"omnipotent char", !12, i64 0}
!12 = !{!"Simple C/C++ TBAA"}
!13 = !{!"int", !11, i64 0}
!14 = !{!9, !10, i64 0}
!15 = !{!13, !13, i64 0}
!16 = distinct !{!16, !6, !7}
!17 = !{!11, !11, i64 0}
!18 = distinct !{!18, !6, !7}
!19 = !{!10, !10, i64 0}
!20 = !{!9, !13, i64 12}
!21 = distinct !{!21, !6, !7}
!22 = distinct !{!22, !6, !7}
