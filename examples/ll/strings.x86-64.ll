; ModuleID = '<stdin>'
source_filename = "strings.c"
target datalayout = "e-m:e-p270:32:32-p271:32:32-p272:64:64-i64:64-f80:128-n8:16:32:64-S128"
target triple = "x86_64-unknown-linux-gnu"

@__const.main.text = private unnamed_addr constant [32 x i8] c"offload\00\00\00\00\00\00\00\00\00\00\00\00\00\00\00\00\00\00\00\00\00\00\00\00\00", align 16
@__const.main.upper = private unnamed_addr constant [32 x i8] c"native offload\00\00\00\00\00\00\00\00\00\00\00\00\00\00\00\00\00\00", align 16
@.str = private unnamed_addr constant [2 x i8] c" \00", align 1
@.str.1 = private unnamed_addr constant [7 x i8] c"native\00", align 1
@.str.2 = private unnamed_addr constant [7 x i8] c"server\00", align 1
@main.pairs = internal unnamed_addr constant [3 x [2 x ptr]] [[2 x ptr] [ptr @.str.3, ptr @.str.4], [2 x ptr] [ptr @.str.5, ptr @.str.5], [2 x ptr] [ptr @.str.6, ptr @.str.7]], align 16
@.str.3 = private unnamed_addr constant [4 x i8] c"abc\00", align 1
@.str.4 = private unnamed_addr constant [4 x i8] c"abd\00", align 1
@.str.5 = private unnamed_addr constant [5 x i8] c"same\00", align 1
@.str.6 = private unnamed_addr constant [2 x i8] c"b\00", align 1
@.str.7 = private unnamed_addr constant [2 x i8] c"a\00", align 1

; Function Attrs: nounwind uwtable
define dso_local i32 @main() local_unnamed_addr #0 {
  %1 = alloca [32 x i8], align 16
  %2 = alloca [32 x i8], align 16
  call void @llvm.lifetime.start.p0(i64 32, ptr %1) #4
  call void @llvm.memcpy.p0.p0.i64(ptr align 16 %1, ptr align 16 @__const.main.text, i64 32, i1 false)
  call void @llvm.lifetime.start.p0(i64 32, ptr %2) #4
  call void @llvm.memcpy.p0.p0.i64(ptr align 16 %2, ptr align 16 @__const.main.upper, i64 32, i1 false)
  %3 = call fastcc ptr @join(ptr noundef %1, ptr noundef @.str) #5
  %4 = call fastcc ptr @join(ptr noundef %3, ptr noundef @.str.1) #5
  %5 = call i32 @puts(ptr noundef %1) #5
  %6 = call fastcc i32 @length(ptr noundef %1) #5
  %7 = call fastcc i32 @find(ptr noundef %1, ptr noundef @.str.1) #5
  %8 = call fastcc i32 @find(ptr noundef %1, ptr noundef @.str.2) #5
  call fastcc void @turn(ptr noundef %1) #5
  %9 = call i32 @puts(ptr noundef %1) #5
  br label %10

10:                                               ; preds = %20, %0
  %11 = phi i8 [ 110, %0 ], [ %.pre, %20 ]
  %.012 = phi ptr [ %2, %0 ], [ %21, %20 ]
  %12 = icmp ne i8 %11, 0
  br i1 %12, label %13, label %22

13:                                               ; preds = %10
  %14 = sext i8 %11 to i32
  %15 = icmp sge i32 %14, 97
  %16 = icmp sle i32 %14, 122
  %or.cond = and i1 %15, %16
  br i1 %or.cond, label %17, label %20

17:                                               ; preds = %13
  %18 = sub nsw i32 %14, 32
  %19 = trunc i32 %18 to i8
  store i8 %19, ptr %.012, align 1, !tbaa !5
  br label %20

20:                                               ; preds = %13, %17
  %21 = getelementptr inbounds i8, ptr %.012, i32 1
  %.pre = load i8, ptr %21, align 1, !tbaa !5
  br label %10, !llvm.loop !8

22:                                               ; preds = %10
  %23 = call i32 @puts(ptr noundef %2) #5
  call fastcc void @number(i32 noundef %6) #5
  br label %24

24:                                               ; preds = %26, %22
  %.0 = phi i32 [ 0, %22 ], [ %34, %26 ]
  %25 = icmp slt i32 %.0, 3
  br i1 %25, label %26, label %35

26:                                               ; preds = %24
  %27 = call i32 @putchar(i32 noundef 32) #5
  %28 = sext i32 %.0 to i64
  %29 = getelementptr inbounds [3 x [2 x ptr]], ptr @main.pairs, i64 0, i64 %28
  %30 = load ptr, ptr %29, align 16, !tbaa !11
  %31 = getelementptr inbounds [2 x ptr], ptr %29, i64 0, i64 1
  %32 = load ptr, ptr %31, align 8, !tbaa !11
  %33 = call fastcc i32 @compare(ptr noundef %30, ptr noundef %32) #5
  call fastcc void @number(i32 noundef %33) #5
  %34 = add nsw i32 %.0, 1
  br label %24, !llvm.loop !13

35:                                               ; preds = %24
  %36 = call i32 @putchar(i32 noundef 10) #5
  call fastcc void @number(i32 noundef %7) #5
  %37 = call i32 @putchar(i32 noundef 32) #5
  call fastcc void @number(i32 noundef %8) #5
  %38 = call i32 @putchar(i32 noundef 10) #5
  call void @llvm.lifetime.end.p0(i64 32, ptr %2) #4
  call void @llvm.lifetime.end.p0(i64 32, ptr %1) #4
  ret i32 %6
}

; Function Attrs: nocallback nofree nosync nounwind willreturn memory(argmem: readwrite)
declare void @llvm.lifetime.start.p0(i64 immarg, ptr nocapture) #1

; Function Attrs: nocallback nofree nounwind willreturn memory(argmem: readwrite)
declare void @llvm.memcpy.p0.p0.i64(ptr noalias nocapture writeonly, ptr noalias nocapture readonly, i64, i1 immarg) #2

; Function Attrs: nounwind uwtable
define internal fastcc ptr @join(ptr noundef %0, ptr noundef %1) unnamed_addr #0 {
  br label %3

3:                                                ; preds = %6, %2
  %.05 = phi ptr [ %0, %2 ], [ %7, %6 ]
  %4 = load i8, ptr %.05, align 1, !tbaa !5
  %5 = icmp ne i8 %4, 0
  br i1 %5, label %6, label %8

6:                                                ; preds = %3
  %7 = getelementptr inbounds i8, ptr %.05, i32 1
  br label %3, !llvm.loop !14

8:                                                ; preds = %8, %3
  %.1 = phi ptr [ %.05, %3 ], [ %11, %8 ]
  %.0 = phi ptr [ %1, %3 ], [ %9, %8 ]
  %9 = getelementptr inbounds i8, ptr %.0, i32 1
  %10 = load i8, ptr %.0, align 1, !tbaa !5
  %11 = getelementptr inbounds i8, ptr %.1, i32 1
  store i8 %10, ptr %.1, align 1, !tbaa !5
  %12 = icmp ne i8 %10, 0
  br i1 %12, label %8, label %13, !llvm.loop !15

13:                                               ; preds = %8
  %14 = getelementptr inbounds i8, ptr %11, i64 -1
  ret ptr %14
}

declare i32 @puts(ptr noundef) local_unnamed_addr #3

; Function Attrs: nounwind uwtable
define internal fastcc i32 @length(ptr noundef %0) unnamed_addr #0 {
  br label %2

2:                                                ; preds = %7, %1
  %.0 = phi i32 [ 0, %1 ], [ %8, %7 ]
  %3 = sext i32 %.0 to i64
  %4 = getelementptr inbounds i8, ptr %0, i64 %3
  %5 = load i8, ptr %4, align 1, !tbaa !5
  %6 = icmp ne i8 %5, 0
  br i1 %6, label %7, label %9

7:                                                ; preds = %2
  %8 = add nsw i32 %.0, 1
  br label %2, !llvm.loop !16

9:                                                ; preds = %2
  ret i32 %.0
}

; Function Attrs: nounwind uwtable
define internal fastcc i32 @find(ptr noundef %0, ptr noundef %1) unnamed_addr #0 {
  br label %3

3:                                                ; preds = %24, %2
  %.018 = phi i32 [ undef, %2 ], [ %.018..017, %24 ]
  %.017 = phi i32 [ 0, %2 ], [ %25, %24 ]
  %4 = sext i32 %.017 to i64
  %5 = getelementptr inbounds i8, ptr %0, i64 %4
  %6 = load i8, ptr %5, align 1, !tbaa !5
  %7 = icmp ne i8 %6, 0
  br i1 %7, label %8, label %26

8:                                                ; preds = %3, %21
  %.0 = phi i32 [ %22, %21 ], [ 0, %3 ]
  %9 = sext i32 %.0 to i64
  %10 = getelementptr inbounds i8, ptr %1, i64 %9
  %11 = load i8, ptr %10, align 1, !tbaa !5
  %12 = sext i8 %11 to i32
  %13 = icmp ne i32 %12, 0
  br i1 %13, label %14, label %.critedge

14:                                               ; preds = %8
  %15 = add nsw i32 %.017, %.0
  %16 = sext i32 %15 to i64
  %17 = getelementptr inbounds i8, ptr %0, i64 %16
  %18 = load i8, ptr %17, align 1, !tbaa !5
  %19 = sext i8 %18 to i32
  %20 = icmp eq i32 %19, %12
  br i1 %20, label %21, label %.critedge

21:                                               ; preds = %14
  %22 = add nsw i32 %.0, 1
  br label %8, !llvm.loop !17

.critedge:                                        ; preds = %8, %14
  %23 = icmp ne i8 %11, 0
  %.018..017 = select i1 %23, i32 %.018, i32 %.017
  %. = select i1 %23, i32 0, i32 1
  br i1 %23, label %24, label %26

24:                                               ; preds = %.critedge
  %25 = add nsw i32 %.017, 1
  br label %3, !llvm.loop !18

26:                                               ; preds = %3, %.critedge
  %.2 = phi i32 [ %.018..017, %.critedge ], [ %.018, %3 ]
  %.1 = phi i32 [ %., %.critedge ], [ 2, %3 ]
  switch i32 %.1, label %29 [
    i32 2, label %27
    i32 1, label %28
  ]

27:                                               ; preds = %26
  br label %28

28:                                               ; preds = %27, %26
  %.3 = phi i32 [ %.2, %26 ], [ -1, %27 ]
  ret i32 %.3

29:                                               ; preds = %26
  unreachable
}

; Function Attrs: nounwind uwtable
define internal fastcc void @turn(ptr noundef %0) unnamed_addr #0 {
  %2 = call fastcc i32 @length(ptr noundef %0) #5
  %3 = sub nsw i32 %2, 1
  br label %4

4:                                                ; preds = %6, %1
  %.013 = phi i32 [ %3, %1 ], [ %14, %6 ]
  %.0 = phi i32 [ 0, %1 ], [ %13, %6 ]
  %5 = icmp slt i32 %.0, %.013
  br i1 %5, label %6, label %15

6:                                                ; preds = %4
  %7 = sext i32 %.0 to i64
  %8 = getelementptr inbounds i8, ptr %0, i64 %7
  %9 = load i8, ptr %8, align 1, !tbaa !5
  %10 = sext i32 %.013 to i64
  %11 = getelementptr inbounds i8, ptr %0, i64 %10
  %12 = load i8, ptr %11, align 1, !tbaa !5
  store i8 %12, ptr %8, align 1, !tbaa !5
  store i8 %9, ptr %11, align 1, !tbaa !5
  %13 = add nsw i32 %.0, 1
  %14 = add nsw i32 %.013, -1
  br label %4, !llvm.loop !19

15:                                               ; preds = %4
  ret void
}

; Function Attrs: nocallback nofree nosync nounwind willreturn memory(argmem: readwrite)
declare void @llvm.lifetime.end.p0(i64 immarg, ptr nocapture) #1

; Function Attrs: nounwind uwtable
define internal fastcc void @number(i32 noundef %0) unnamed_addr #0 {
  %2 = icmp slt i32 %0, 0
  br i1 %2, label %3, label %6

3:                                                ; preds = %1
  %4 = call i32 @putchar(i32 noundef 45) #5
  %5 = sub nsw i32 0, %0
  br label %6

6:                                                ; preds = %3, %1
  %.0 = phi i32 [ %5, %3 ], [ %0, %1 ]
  %7 = icmp sge i32 %.0, 10
  br i1 %7, label %8, label %10

8:                                                ; preds = %6
  %9 = sdiv i32 %.0, 10
  call fastcc void @number(i32 noundef %9) #5
  br label %10

10:                                               ; preds = %8, %6
  %11 = srem i32 %.0, 10
  %12 = add nsw i32 48, %11
  %13 = call i32 @putchar(i32 noundef %12) #5
  ret void
}

declare i32 @putchar(i32 noundef) local_unnamed_addr #3

; Function Attrs: nounwind uwtable
define internal fastcc i32 @compare(ptr noundef %0, ptr noundef %1) unnamed_addr #0 {
  br label %3

3:                                                ; preds = %11, %2
  %.09 = phi ptr [ %0, %2 ], [ %13, %11 ]
  %.0 = phi ptr [ %1, %2 ], [ %12, %11 ]
  %4 = load i8, ptr %.09, align 1, !tbaa !5
  %5 = sext i8 %4 to i32
  %6 = icmp ne i32 %5, 0
  br i1 %6, label %7, label %..critedge_crit_edge

..critedge_crit_edge:                             ; preds = %3
  %.pre = load i8, ptr %.0, align 1, !tbaa !5
  %.pre10 = sext i8 %.pre to i32
  br label %.critedge

7:                                                ; preds = %3
  %8 = load i8, ptr %.0, align 1, !tbaa !5
  %9 = sext i8 %8 to i32
  %10 = icmp eq i32 %5, %9
  br i1 %10, label %11, label %.critedge

11:                                               ; preds = %7
  %12 = getelementptr inbounds i8, ptr %.0, i32 1
  %13 = getelementptr inbounds i8, ptr %.09, i32 1
  br label %3, !llvm.loop !20

.critedge:                                        ; preds = %..critedge_crit_edge, %7
  %.pre-phi = phi i32 [ %.pre10, %..critedge_crit_edge ], [ %9, %7 ]
  %14 = phi i8 [ %.pre, %..critedge_crit_edge ], [ %8, %7 ]
  %15 = icmp slt i32 %5, %.pre-phi
  %16 = icmp sgt i32 %5, %.pre-phi
  %17 = zext i1 %16 to i32
  %18 = select i1 %15, i32 -1, i32 %17
  ret i32 %18
}

attributes #0 = { nounwind uwtable "min-legal-vector-width"="0" "no-builtins" "no-jump-tables"="true" "no-trapping-math"="true" "stack-protector-buffer-size"="8" "target-cpu"="x86-64" "target-features"="+cx8,+fxsr,+mmx,+sse,+sse2,+x87" "tune-cpu"="generic" }
attributes #1 = { nocallback nofree nosync nounwind willreturn memory(argmem: readwrite) }
attributes #2 = { nocallback nofree nounwind willreturn memory(argmem: readwrite) }
attributes #3 = { "no-builtins" "no-trapping-math"="true" "stack-protector-buffer-size"="8" "target-cpu"="x86-64" "target-features"="+cx8,+fxsr,+mmx,+sse,+sse2,+x87" "tune-cpu"="generic" }
attributes #4 = { nounwind }
attributes #5 = { nobuiltin "no-builtins" }

!llvm.module.flags = !{!0, !1, !2, !3}
!llvm.ident = !{!4}

!0 = !{i32 1, !"wchar_size", i32 4}
!1 = !{i32 8, !"PIC Level", i32 2}
!2 = !{i32 7, !"PIE Level", i32 2}
!3 = !{i32 7, !"uwtable", i32 2}
!4 = !{!"Debian clang version 16.0.6 (15~deb12u1)"}
!5 = !{!6, !6, i64 0}
!6 = !{!"omnipotent char", !7, i64 0}
!7 = !{!"Simple C/C++ TBAA"}
!8 = distinct !{!8, !9, !10}
!9 = !{!"llvm.loop.mustprogress"}
!10 = !{!"llvm.loop.unroll.disable"}
!11 = !{!12, !12, i64 0}
!12 = !{!"any pointer", !6, i64 0}
!13 = distinct !{!13, !9, !10}
!14 = distinct !{!14, !9, !10}
!15 = distinct !{!15, !9, !10}
!16 = distinct !{!16, !9, !10}
!17 = distinct !{!17, !9, !10}
!18 = distinct !{!18, !9, !10}
!19 = distinct !{!19, !9, !10}
!20 = distinct !{!20, !9, !10}
