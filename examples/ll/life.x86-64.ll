; ModuleID = '<stdin>'
source_filename = "life.c"
target datalayout = "e-m:e-p270:32:32-p271:32:32-p272:64:64-i64:64-f80:128-n8:16:32:64-S128"
target triple = "x86_64-unknown-linux-gnu"

@grid = internal global [8 x i8] c"@ \E0\00\00\00\00\00", align 1

; Function Attrs: nounwind uwtable
define dso_local i32 @main() local_unnamed_addr #0 {
  br label %1

1:                                                ; preds = %3, %0
  %.014 = phi i32 [ 0, %0 ], [ %4, %3 ]
  %2 = icmp slt i32 %.014, 4
  br i1 %2, label %3, label %5

3:                                                ; preds = %1
  call fastcc void @round() #4
  %4 = add nsw i32 %.014, 1
  br label %1, !llvm.loop !5

5:                                                ; preds = %1, %17
  %.015 = phi i32 [ %.1, %17 ], [ 0, %1 ]
  %.013 = phi i32 [ %19, %17 ], [ 0, %1 ]
  %6 = icmp slt i32 %.013, 8
  br i1 %6, label %7, label %20

7:                                                ; preds = %5, %9
  %.1 = phi i32 [ %11, %9 ], [ %.015, %5 ]
  %.0 = phi i32 [ %16, %9 ], [ 0, %5 ]
  %8 = icmp slt i32 %.0, 8
  br i1 %8, label %9, label %17

9:                                                ; preds = %7
  %10 = call fastcc i32 @alive(ptr noundef @grid, i32 noundef %.013, i32 noundef %.0) #4
  %11 = add nsw i32 %.1, %10
  %12 = call fastcc i32 @alive(ptr noundef @grid, i32 noundef %.013, i32 noundef %.0) #4
  %13 = icmp ne i32 %12, 0
  %14 = select i1 %13, i32 111, i32 46
  %15 = call i32 @putchar(i32 noundef %14) #4
  %16 = add nsw i32 %.0, 1
  br label %7, !llvm.loop !8

17:                                               ; preds = %7
  %18 = call i32 @putchar(i32 noundef 10) #4
  %19 = add nsw i32 %.013, 1
  br label %5, !llvm.loop !9

20:                                               ; preds = %5
  ret i32 %.015
}

; Function Attrs: nocallback nofree nosync nounwind willreturn memory(argmem: readwrite)
declare void @llvm.lifetime.start.p0(i64 immarg, ptr nocapture) #1

; Function Attrs: nounwind uwtable
define internal fastcc void @round() unnamed_addr #0 {
  %1 = alloca [8 x i8], align 1
  call void @llvm.lifetime.start.p0(i64 8, ptr %1) #5
  call void @llvm.memset.p0.i64(ptr align 1 %1, i8 0, i64 8, i1 false)
  br label %2

2:                                                ; preds = %37, %0
  %.029 = phi i32 [ 0, %0 ], [ %38, %37 ]
  %3 = icmp slt i32 %.029, 8
  br i1 %3, label %4, label %39

4:                                                ; preds = %2, %35
  %.028 = phi i32 [ %36, %35 ], [ 0, %2 ]
  %5 = icmp slt i32 %.028, 8
  br i1 %5, label %6, label %37

6:                                                ; preds = %4
  %7 = call fastcc i32 @alive(ptr noundef @grid, i32 noundef %.029, i32 noundef %.028) #4
  %8 = sub nsw i32 0, %7
  br label %9

9:                                                ; preds = %19, %6
  %.027 = phi i32 [ %8, %6 ], [ %.1, %19 ]
  %.026 = phi i32 [ -1, %6 ], [ %20, %19 ]
  %10 = icmp sle i32 %.026, 1
  br i1 %10, label %11, label %21

11:                                               ; preds = %9, %13
  %.1 = phi i32 [ %17, %13 ], [ %.027, %9 ]
  %.025 = phi i32 [ %18, %13 ], [ -1, %9 ]
  %12 = icmp sle i32 %.025, 1
  br i1 %12, label %13, label %19

13:                                               ; preds = %11
  %14 = add nsw i32 %.029, %.026
  %15 = add nsw i32 %.028, %.025
  %16 = call fastcc i32 @alive(ptr noundef @grid, i32 noundef %14, i32 noundef %15) #4
  %17 = add nsw i32 %.1, %16
  %18 = add nsw i32 %.025, 1
  br label %11, !llvm.loop !10

19:                                               ; preds = %11
  %20 = add nsw i32 %.026, 1
  br label %9, !llvm.loop !11

21:                                               ; preds = %9
  switch i32 %.027, label %35 [
    i32 3, label %25
    i32 2, label %22
  ]

22:                                               ; preds = %21
  %23 = call fastcc i32 @alive(ptr noundef @grid, i32 noundef %.029, i32 noundef %.028) #4
  %24 = icmp ne i32 %23, 0
  br i1 %24, label %25, label %35

25:                                               ; preds = %21, %22
  %26 = ashr i32 128, %.028
  %27 = trunc i32 %26 to i8
  %28 = zext i8 %27 to i32
  %29 = sext i32 %.029 to i64
  %30 = getelementptr inbounds [8 x i8], ptr %1, i64 0, i64 %29
  %31 = load i8, ptr %30, align 1, !tbaa !12
  %32 = zext i8 %31 to i32
  %33 = or i32 %32, %28
  %34 = trunc i32 %33 to i8
  store i8 %34, ptr %30, align 1, !tbaa !12
  br label %35

35:                                               ; preds = %22, %25, %21
  %36 = add nsw i32 %.028, 1
  br label %4, !llvm.loop !15

37:                                               ; preds = %4
  %38 = add nsw i32 %.029, 1
  br label %2, !llvm.loop !16

39:                                               ; preds = %2, %41
  %.0 = phi i32 [ %46, %41 ], [ 0, %2 ]
  %40 = icmp slt i32 %.0, 8
  br i1 %40, label %41, label %47

41:                                               ; preds = %39
  %42 = sext i32 %.0 to i64
  %43 = getelementptr inbounds [8 x i8], ptr %1, i64 0, i64 %42
  %44 = load i8, ptr %43, align 1, !tbaa !12
  %45 = getelementptr inbounds [8 x i8], ptr @grid, i64 0, i64 %42
  store i8 %44, ptr %45, align 1, !tbaa !12
  %46 = add nsw i32 %.0, 1
  br label %39, !llvm.loop !17

47:                                               ; preds = %39
  call void @llvm.lifetime.end.p0(i64 8, ptr %1) #5
  ret void
}

; Function Attrs: nocallback nofree nosync nounwind willreturn memory(argmem: readwrite)
declare void @llvm.lifetime.end.p0(i64 immarg, ptr nocapture) #1

; Function Attrs: nounwind uwtable
define internal fastcc i32 @alive(ptr noundef %0, i32 noundef %1, i32 noundef %2) unnamed_addr #0 {
  %4 = and i32 %1, 7
  %5 = sext i32 %4 to i64
  %6 = getelementptr inbounds i8, ptr %0, i64 %5
  %7 = load i8, ptr %6, align 1, !tbaa !12
  %8 = zext i8 %7 to i32
  %9 = and i32 %2, 7
  %10 = sub nsw i32 7, %9
  %11 = ashr i32 %8, %10
  %12 = and i32 %11, 1
  ret i32 %12
}

declare i32 @putchar(i32 noundef) local_unnamed_addr #2

; Function Attrs: nocallback nofree nounwind willreturn memory(argmem: write)
declare void @llvm.memset.p0.i64(ptr nocapture writeonly, i8, i64, i1 immarg) #3

attributes #0 = { nounwind uwtable "min-legal-vector-width"="0" "no-builtins" "no-jump-tables"="true" "no-trapping-math"="true" "stack-protector-buffer-size"="8" "target-cpu"="x86-64" "target-features"="+cx8,+fxsr,+mmx,+sse,+sse2,+x87" "tune-cpu"="generic" }
attributes #1 = { nocallback nofree nosync nounwind willreturn memory(argmem: readwrite) }
attributes #2 = { "no-builtins" "no-trapping-math"="true" "stack-protector-buffer-size"="8" "target-cpu"="x86-64" "target-features"="+cx8,+fxsr,+mmx,+sse,+sse2,+x87" "tune-cpu"="generic" }
attributes #3 = { nocallback nofree nounwind willreturn memory(argmem: write) }
attributes #4 = { nobuiltin "no-builtins" }
attributes #5 = { nounwind }

!llvm.module.flags = !{!0, !1, !2, !3}
!llvm.ident = !{!4}

!0 = !{i32 1, !"wchar_size", i32 4}
!1 = !{i32 8, !"PIC Level", i32 2}
!2 = !{i32 7, !"PIE Level", i32 2}
!3 = !{i32 7, !"uwtable", i32 2}
!4 = !{!"Debian clang version 16.0.6 (15~deb12u1)"}
!5 = distinct !{!5, !6, !7}
!6 = !{!"llvm.loop.mustprogress"}
!7 = !{!"llvm.loop.unroll.disable"}
!8 = distinct !{!8, !6, !7}
!9 = distinct !{!9, !6, !7}
!10 = distinct !{!10, !6, !7}
!11 = distinct !{!11, !6, !7}
!12 = !{!13, !13, i64 0}
!13 = !{!"omnipotent char", !14, i64 0}
!14 = !{!"Simple C/C++ TBAA"}
!15 = distinct !{!15, !6, !7}
!16 = distinct !{!16, !6, !7}
!17 = distinct !{!17, !6, !7}
