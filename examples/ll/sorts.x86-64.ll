; ModuleID = '<stdin>'
source_filename = "sorts.c"
target datalayout = "e-m:e-p270:32:32-p271:32:32-p272:64:64-i64:64-f80:128-n8:16:32:64-S128"
target triple = "x86_64-unknown-linux-gnu"

@given = internal unnamed_addr constant [12 x i32] [i32 34, i32 -4, i32 8, i32 0, i32 55, i32 1, i32 13, i32 -9, i32 3, i32 21, i32 2, i32 5], align 16

; Function Attrs: nounwind uwtable
define dso_local i32 @main() local_unnamed_addr #0 {
  %1 = alloca [3 x [12 x i32]], align 16
  call void @llvm.lifetime.start.p0(i64 144, ptr %1) #3
  br label %2

2:                                                ; preds = %14, %0
  %.012 = phi i32 [ 0, %0 ], [ %15, %14 ]
  %3 = icmp slt i32 %.012, 3
  br i1 %3, label %4, label %16

4:                                                ; preds = %2, %6
  %.011 = phi i32 [ %13, %6 ], [ 0, %2 ]
  %5 = icmp slt i32 %.011, 12
  br i1 %5, label %6, label %14

6:                                                ; preds = %4
  %7 = sext i32 %.011 to i64
  %8 = getelementptr inbounds [12 x i32], ptr @given, i64 0, i64 %7
  %9 = load i32, ptr %8, align 4, !tbaa !5
  %10 = sext i32 %.012 to i64
  %11 = getelementptr inbounds [3 x [12 x i32]], ptr %1, i64 0, i64 %10
  %12 = getelementptr inbounds [12 x i32], ptr %11, i64 0, i64 %7
  store i32 %9, ptr %12, align 4, !tbaa !5
  %13 = add nsw i32 %.011, 1
  br label %4, !llvm.loop !9

14:                                               ; preds = %4
  %15 = add nsw i32 %.012, 1
  br label %2, !llvm.loop !12

16:                                               ; preds = %2
  call fastcc void @insertion(ptr noundef %1, i32 noundef 12) #4
  %17 = getelementptr inbounds [3 x [12 x i32]], ptr %1, i64 0, i64 1
  call fastcc void @shell(ptr noundef %17, i32 noundef 12) #4
  %18 = getelementptr inbounds [3 x [12 x i32]], ptr %1, i64 0, i64 2
  %19 = getelementptr inbounds i32, ptr %18, i64 12
  call fastcc void @quick(ptr noundef %18, ptr noundef %19) #4
  br label %20

20:                                               ; preds = %22, %16
  %.0 = phi i32 [ 0, %16 ], [ %25, %22 ]
  %21 = icmp slt i32 %.0, 3
  br i1 %21, label %22, label %26

22:                                               ; preds = %20
  %23 = sext i32 %.0 to i64
  %24 = getelementptr inbounds [3 x [12 x i32]], ptr %1, i64 0, i64 %23
  call fastcc void @show(ptr noundef %24, i32 noundef 12) #4
  %25 = add nsw i32 %.0, 1
  br label %20, !llvm.loop !13

26:                                               ; preds = %20
  call void @llvm.lifetime.end.p0(i64 144, ptr %1) #3
  ret i32 12
}

; Function Attrs: nocallback nofree nosync nounwind willreturn memory(argmem: readwrite)
declare void @llvm.lifetime.start.p0(i64 immarg, ptr nocapture) #1

; Function Attrs: nocallback nofree nosync nounwind willreturn memory(argmem: readwrite)
declare void @llvm.lifetime.end.p0(i64 immarg, ptr nocapture) #1

; Function Attrs: nounwind uwtable
define internal fastcc void @insertion(ptr noundef %0, i32 noundef %1) unnamed_addr #0 {
  br label %3

3:                                                ; preds = %.critedge, %2
  %.017 = phi i32 [ 1, %2 ], [ %23, %.critedge ]
  %4 = icmp slt i32 %.017, %1
  br i1 %4, label %5, label %24

5:                                                ; preds = %3
  %6 = sext i32 %.017 to i64
  %7 = getelementptr inbounds i32, ptr %0, i64 %6
  %8 = load i32, ptr %7, align 4, !tbaa !5
  br label %9

9:                                                ; preds = %17, %5
  %.0 = phi i32 [ %.017, %5 ], [ %20, %17 ]
  %10 = icmp sgt i32 %.0, 0
  br i1 %10, label %11, label %.critedge

11:                                               ; preds = %9
  %12 = sub nsw i32 %.0, 1
  %13 = sext i32 %12 to i64
  %14 = getelementptr inbounds i32, ptr %0, i64 %13
  %15 = load i32, ptr %14, align 4, !tbaa !5
  %16 = icmp sgt i32 %15, %8
  br i1 %16, label %17, label %.critedge

17:                                               ; preds = %11
  %18 = sext i32 %.0 to i64
  %19 = getelementptr inbounds i32, ptr %0, i64 %18
  store i32 %15, ptr %19, align 4, !tbaa !5
  %20 = add nsw i32 %.0, -1
  br label %9, !llvm.loop !14

.critedge:                                        ; preds = %9, %11
  %21 = sext i32 %.0 to i64
  %22 = getelementptr inbounds i32, ptr %0, i64 %21
  store i32 %8, ptr %22, align 4, !tbaa !5
  %23 = add nsw i32 %.017, 1
  br label %3, !llvm.loop !15

24:                                               ; preds = %3
  ret void
}

; Function Attrs: nounwind uwtable
define internal fastcc void @shell(ptr noundef %0, i32 noundef %1) unnamed_addr #0 {
  %3 = sdiv i32 %1, 2
  br label %4

4:                                                ; preds = %21, %2
  %.0 = phi i32 [ %3, %2 ], [ %22, %21 ]
  %5 = icmp sgt i32 %.0, 0
  br i1 %5, label %6, label %23

6:                                                ; preds = %4, %.critedge
  %.028 = phi i32 [ %20, %.critedge ], [ %.0, %4 ]
  %7 = icmp slt i32 %.028, %1
  br i1 %7, label %8, label %21

8:                                                ; preds = %6, %19
  %.027 = phi i32 [ %11, %19 ], [ %.028, %6 ]
  %9 = icmp sge i32 %.027, %.0
  br i1 %9, label %10, label %.critedge

10:                                               ; preds = %8
  %11 = sub nsw i32 %.027, %.0
  %12 = sext i32 %11 to i64
  %13 = getelementptr inbounds i32, ptr %0, i64 %12
  %14 = load i32, ptr %13, align 4, !tbaa !5
  %15 = sext i32 %.027 to i64
  %16 = getelementptr inbounds i32, ptr %0, i64 %15
  %17 = load i32, ptr %16, align 4, !tbaa !5
  %18 = icmp sgt i32 %14, %17
  br i1 %18, label %19, label %.critedge

19:                                               ; preds = %10
  store i32 %14, ptr %16, align 4, !tbaa !5
  store i32 %17, ptr %13, align 4, !tbaa !5
  br label %8, !llvm.loop !16

.critedge:                                        ; preds = %8, %10
  %20 = add nsw i32 %.028, 1
  br label %6, !llvm.loop !17

21:                                               ; preds = %6
  %22 = sdiv i32 %.0, 2
  br label %4, !llvm.loop !18

23:                                               ; preds = %4
  ret void
}

; Function Attrs: nounwind uwtable
define internal fastcc void @quick(ptr noundef %0, ptr noundef %1) unnamed_addr #0 {
  %3 = ptrtoint ptr %1 to i64
  %4 = ptrtoint ptr %0 to i64
  %5 = sub i64 %3, %4
  %6 = sdiv exact i64 %5, 4
  %7 = icmp slt i64 %6, 2
  br i1 %7, label %33, label %8

8:                                                ; preds = %2
  %9 = sdiv i64 %6, 2
  %10 = getelementptr inbounds i32, ptr %0, i64 %9
  %11 = load i32, ptr %10, align 4, !tbaa !5
  %12 = getelementptr inbounds i32, ptr %1, i64 -1
  br label %13

13:                                               ; preds = %30, %8
  %.025 = phi ptr [ %12, %8 ], [ %.227, %30 ]
  %.0 = phi ptr [ %0, %8 ], [ %.2, %30 ]
  %14 = icmp ule ptr %.0, %.025
  br i1 %14, label %15, label %31

15:                                               ; preds = %13, %18
  %.1 = phi ptr [ %19, %18 ], [ %.0, %13 ]
  %16 = load i32, ptr %.1, align 4, !tbaa !5
  %17 = icmp slt i32 %16, %11
  br i1 %17, label %18, label %20

18:                                               ; preds = %15
  %19 = getelementptr inbounds i32, ptr %.1, i32 1
  br label %15, !llvm.loop !19

20:                                               ; preds = %15, %23
  %.126 = phi ptr [ %24, %23 ], [ %.025, %15 ]
  %21 = load i32, ptr %.126, align 4, !tbaa !5
  %22 = icmp sgt i32 %21, %11
  br i1 %22, label %23, label %25

23:                                               ; preds = %20
  %24 = getelementptr inbounds i32, ptr %.126, i32 -1
  br label %20, !llvm.loop !20

25:                                               ; preds = %20
  %26 = icmp ule ptr %.1, %.126
  br i1 %26, label %27, label %30

27:                                               ; preds = %25
  %28 = getelementptr inbounds i32, ptr %.1, i32 1
  store i32 %21, ptr %.1, align 4, !tbaa !5
  %29 = getelementptr inbounds i32, ptr %.126, i32 -1
  store i32 %16, ptr %.126, align 4, !tbaa !5
  br label %30

30:                                               ; preds = %27, %25
  %.227 = phi ptr [ %29, %27 ], [ %.126, %25 ]
  %.2 = phi ptr [ %28, %27 ], [ %.1, %25 ]
  br label %13, !llvm.loop !21

31:                                               ; preds = %13
  %32 = getelementptr inbounds i32, ptr %.025, i64 1
  call fastcc void @quick(ptr noundef %0, ptr noundef %32) #4
  call fastcc void @quick(ptr noundef %.0, ptr noundef %1) #4
  br label %33

33:                                               ; preds = %2, %31
  ret void
}

; Function Attrs: nounwind uwtable
define internal fastcc void @show(ptr noundef %0, i32 noundef %1) unnamed_addr #0 {
  br label %3

3:                                                ; preds = %9, %2
  %.0 = phi i32 [ 0, %2 ], [ %13, %9 ]
  %4 = icmp slt i32 %.0, %1
  br i1 %4, label %5, label %14

5:                                                ; preds = %3
  %6 = icmp sgt i32 %.0, 0
  br i1 %6, label %7, label %9

7:                                                ; preds = %5
  %8 = call i32 @putchar(i32 noundef 32) #4
  br label %9

9:                                                ; preds = %7, %5
  %10 = sext i32 %.0 to i64
  %11 = getelementptr inbounds i32, ptr %0, i64 %10
  %12 = load i32, ptr %11, align 4, !tbaa !5
  call fastcc void @number(i32 noundef %12) #4
  %13 = add nsw i32 %.0, 1
  br label %3, !llvm.loop !22

14:                                               ; preds = %3
  %15 = call i32 @putchar(i32 noundef 10) #4
  ret void
}

declare i32 @putchar(i32 noundef) local_unnamed_addr #2

; Function Attrs: nounwind uwtable
define internal fastcc void @number(i32 noundef %0) unnamed_addr #0 {
  %2 = icmp slt i32 %0, 0
  br i1 %2, label %3, label %6

3:                                                ; preds = %1
  %4 = call i32 @putchar(i32 noundef 45) #4
  %5 = sub i32 0, %0
  br label %6

6:                                                ; preds = %3, %1
  %.0 = phi i32 [ %5, %3 ], [ %0, %1 ]
  %7 = icmp uge i32 %.0, 10
  br i1 %7, label %8, label %10

8:                                                ; preds = %6
  %9 = udiv i32 %.0, 10
  call fastcc void @number(i32 noundef %9) #4
  br label %10

10:                                               ; preds = %8, %6
  %11 = urem i32 %.0, 10
  %12 = add i32 48, %11
  %13 = call i32 @putchar(i32 noundef %12) #4
  ret void
}

attributes #0 = { nounwind uwtable "min-legal-vector-width"="0" "no-builtins" "no-jump-tables"="true" "no-trapping-math"="true" "stack-protector-buffer-size"="8" "target-cpu"="x86-64" "target-features"="+cx8,+fxsr,+mmx,+sse,+sse2,+x87" "tune-cpu"="generic" }
attributes #1 = { nocallback nofree nosync nounwind willreturn memory(argmem: readwrite) }
attributes #2 = { "no-builtins" "no-trapping-math"="true" "stack-protector-buffer-size"="8" "target-cpu"="x86-64" "target-features"="+cx8,+fxsr,+mmx,+sse,+sse2,+x87" "tune-cpu"="generic" }
attributes #3 = { nounwind }
attributes #4 = { nobuiltin "no-builtins" }

!llvm.module.flags = !{!0, !1, !2, !3}
!llvm.ident = !{!4}

!0 = !{i32 1, !"wchar_size", i32 4}
!1 = !{i32 8, !"PIC Level", i32 2}
!2 = !{i32 7, !"PIE Level", i32 2}
!3 = !{i32 7, !"uwtable", i32 2}
!4 = !{!"Debian clang version 16.0.6 (15~deb12u1)"}
!5 = !{!6, !6, i64 0}
!6 = !{!"int", !7, i64 0}
!7 = !{!"omnipotent char", !8, i64 0}
!8 = !{!"Simple C/C++ TBAA"}
!9 = distinct !{!9, !10, !11}
!10 = !{!"llvm.loop.mustprogress"}
!11 = !{!"llvm.loop.unroll.disable"}
!12 = distinct !{!12, !10, !11}
!13 = distinct !{!13, !10, !11}
!14 = distinct !{!14, !10, !11}
!15 = distinct !{!15, !10, !11}
!16 = distinct !{!16, !10, !11}
!17 = distinct !{!17, !10, !11}
!18 = distinct !{!18, !10, !11}
!19 = distinct !{!19, !10, !11}
!20 = distinct !{!20, !10, !11}
!21 = distinct !{!21, !10, !11}
!22 = distinct !{!22, !10, !11}
