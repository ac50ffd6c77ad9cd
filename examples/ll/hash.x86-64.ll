; ModuleID = '<stdin>'
source_filename = "hash.c"
target datalayout = "e-m:e-p270:32:32-p271:32:32-p272:64:64-i64:64-f80:128-n8:16:32:64-S128"
target triple = "x86_64-unknown-linux-gnu"

%struct.slot = type { ptr, i32, i32 }

@text = internal unnamed_addr constant [61 x i8] c"the server asks the device for the page and the server waits\00", align 16
@kept = internal global [80 x i8] zeroinitializer, align 16
@main.asked = internal unnamed_addr constant [5 x ptr] [ptr @.str, ptr @.str.1, ptr @.str.2, ptr @.str.3, ptr @.str.4], align 16
@.str = private unnamed_addr constant [4 x i8] c"the\00", align 1
@.str.1 = private unnamed_addr constant [7 x i8] c"server\00", align 1
@.str.2 = private unnamed_addr constant [7 x i8] c"device\00", align 1
@.str.3 = private unnamed_addr constant [5 x i8] c"page\00", align 1
@.str.4 = private unnamed_addr constant [5 x i8] c"link\00", align 1
@table = internal global [16 x %struct.slot] zeroinitializer, align 16

; Function Attrs: nounwind uwtable
define dso_local i32 @main() local_unnamed_addr #0 {
  br label %1

1:                                                ; preds = %17, %0
  %.015 = phi i32 [ 0, %0 ], [ %.1, %17 ]
  %.014 = phi i32 [ 0, %0 ], [ %.pre-phi, %17 ]
  %2 = zext i32 %.014 to i64
  %3 = icmp ult i64 %2, 61
  br i1 %3, label %4, label %18

4:                                                ; preds = %1
  %5 = getelementptr inbounds [61 x i8], ptr @text, i64 0, i64 %2
  %6 = load i8, ptr %5, align 1, !tbaa !5
  %7 = sext i8 %6 to i32
  %8 = icmp eq i32 %7, 32
  %. = select i1 %8, i32 0, i32 %7
  %9 = trunc i32 %. to i8
  %10 = getelementptr inbounds [80 x i8], ptr @kept, i64 0, i64 %2
  store i8 %9, ptr %10, align 1, !tbaa !5
  %11 = sext i8 %9 to i32
  %12 = icmp eq i32 %11, 0
  br i1 %12, label %13, label %._crit_edge

._crit_edge:                                      ; preds = %4
  %.pre = add i32 %.014, 1
  br label %17

13:                                               ; preds = %4
  %14 = sext i32 %.015 to i64
  %15 = getelementptr inbounds [80 x i8], ptr @kept, i64 0, i64 %14
  call fastcc void @count(ptr noundef %15) #2
  %16 = add i32 %.014, 1
  br label %17

17:                                               ; preds = %._crit_edge, %13
  %.pre-phi = phi i32 [ %.pre, %._crit_edge ], [ %16, %13 ]
  %.1 = phi i32 [ %16, %13 ], [ %.015, %._crit_edge ]
  br label %1, !llvm.loop !8

18:                                               ; preds = %1, %20
  %.013 = phi i32 [ %25, %20 ], [ 0, %1 ]
  %.0 = phi i32 [ %26, %20 ], [ 0, %1 ]
  %19 = icmp slt i32 %.0, 5
  br i1 %19, label %20, label %27

20:                                               ; preds = %18
  %21 = sext i32 %.0 to i64
  %22 = getelementptr inbounds [5 x ptr], ptr @main.asked, i64 0, i64 %21
  %23 = load ptr, ptr %22, align 8, !tbaa !11
  %24 = call fastcc i32 @show(ptr noundef %23) #2
  %25 = add nsw i32 %.013, %24
  %26 = add nsw i32 %.0, 1
  br label %18, !llvm.loop !13

27:                                               ; preds = %18
  ret i32 %.013
}

; Function Attrs: nounwind uwtable
define internal fastcc void @count(ptr noundef %0) unnamed_addr #0 {
  %2 = call fastcc ptr @slot_of(ptr noundef %0) #2
  store ptr %0, ptr %2, align 8, !tbaa !14
  %3 = call fastcc i32 @hash(ptr noundef %0) #2
  %4 = getelementptr inbounds %struct.slot, ptr %2, i32 0, i32 1
  store i32 %3, ptr %4, align 8, !tbaa !17
  %5 = getelementptr inbounds %struct.slot, ptr %2, i32 0, i32 2
  %6 = load i32, ptr %5, align 4, !tbaa !18
  %7 = add nsw i32 %6, 1
  store i32 %7, ptr %5, align 4, !tbaa !18
  ret void
}

; Function Attrs: nounwind uwtable
define internal fastcc i32 @show(ptr noundef %0) unnamed_addr #0 {
  %2 = call fastcc ptr @slot_of(ptr noundef %0) #2
  br label %3

3:                                                ; preds = %6, %1
  %.0 = phi ptr [ %0, %1 ], [ %9, %6 ]
  %4 = load i8, ptr %.0, align 1, !tbaa !5
  %5 = icmp ne i8 %4, 0
  br i1 %5, label %6, label %10

6:                                                ; preds = %3
  %7 = sext i8 %4 to i32
  %8 = call i32 @putchar(i32 noundef %7) #2
  %9 = getelementptr inbounds i8, ptr %.0, i32 1
  br label %3, !llvm.loop !19

10:                                               ; preds = %3
  %11 = call i32 @putchar(i32 noundef 32) #2
  %12 = load ptr, ptr %2, align 8, !tbaa !14
  %13 = icmp ne ptr %12, null
  br i1 %13, label %14, label %18

14:                                               ; preds = %10
  %15 = getelementptr inbounds %struct.slot, ptr %2, i32 0, i32 2
  %16 = load i32, ptr %15, align 4, !tbaa !18
  %17 = add nsw i32 48, %16
  br label %18

18:                                               ; preds = %10, %14
  %19 = phi i32 [ %17, %14 ], [ 45, %10 ]
  %20 = call i32 @putchar(i32 noundef %19) #2
  %21 = call i32 @putchar(i32 noundef 10) #2
  %22 = getelementptr inbounds %struct.slot, ptr %2, i32 0, i32 2
  %23 = load i32, ptr %22, align 4, !tbaa !18
  ret i32 %23
}

; Function Attrs: nounwind uwtable
define internal fastcc ptr @slot_of(ptr noundef %0) unnamed_addr #0 {
  %2 = call fastcc i32 @hash(ptr noundef %0) #2
  %3 = urem i32 %2, 16
  br label %4

4:                                                ; preds = %18, %1
  %.012 = phi i32 [ %3, %1 ], [ %20, %18 ]
  %.011 = phi ptr [ undef, %1 ], [ %.1, %18 ]
  %5 = zext i32 %.012 to i64
  %6 = getelementptr inbounds [16 x %struct.slot], ptr @table, i64 0, i64 %5
  %7 = load ptr, ptr %6, align 8, !tbaa !14
  %8 = icmp ne ptr %7, null
  br i1 %8, label %9, label %17

9:                                                ; preds = %4
  %10 = getelementptr inbounds %struct.slot, ptr %6, i32 0, i32 1
  %11 = load i32, ptr %10, align 8, !tbaa !17
  %12 = icmp eq i32 %11, %2
  br i1 %12, label %13, label %16

13:                                               ; preds = %9
  %14 = call fastcc i32 @same(ptr noundef %7, ptr noundef %0) #2
  %15 = icmp ne i32 %14, 0
  br i1 %15, label %17, label %16

16:                                               ; preds = %13, %9
  br label %17

17:                                               ; preds = %4, %13, %16
  %.1 = phi ptr [ %.011, %16 ], [ %6, %13 ], [ %6, %4 ]
  %.0 = phi i32 [ 0, %16 ], [ 1, %13 ], [ 1, %4 ]
  %cond = icmp eq i32 %.0, 0
  br i1 %cond, label %18, label %21

18:                                               ; preds = %17
  %19 = add i32 %.012, 1
  %20 = urem i32 %19, 16
  br label %4, !llvm.loop !20

21:                                               ; preds = %17
  ret ptr %.1
}

; Function Attrs: nounwind uwtable
define internal fastcc i32 @hash(ptr noundef %0) unnamed_addr #0 {
  br label %2

2:                                                ; preds = %5, %1
  %.03 = phi ptr [ %0, %1 ], [ %6, %5 ]
  %.0 = phi i32 [ -2128831035, %1 ], [ %9, %5 ]
  %3 = load i8, ptr %.03, align 1, !tbaa !5
  %4 = icmp ne i8 %3, 0
  br i1 %4, label %5, label %10

5:                                                ; preds = %2
  %6 = getelementptr inbounds i8, ptr %.03, i32 1
  %7 = zext i8 %3 to i32
  %8 = xor i32 %.0, %7
  %9 = mul i32 %8, 16777619
  br label %2, !llvm.loop !21

10:                                               ; preds = %2
  ret i32 %.0
}

; Function Attrs: nounwind uwtable
define internal fastcc i32 @same(ptr noundef %0, ptr noundef %1) unnamed_addr #0 {
  br label %3

3:                                                ; preds = %11, %2
  %.07 = phi ptr [ %0, %2 ], [ %13, %11 ]
  %.0 = phi ptr [ %1, %2 ], [ %12, %11 ]
  %4 = load i8, ptr %.07, align 1, !tbaa !5
  %5 = sext i8 %4 to i32
  %6 = icmp ne i32 %5, 0
  br i1 %6, label %7, label %..critedge_crit_edge

..critedge_crit_edge:                             ; preds = %3
  %.pre = load i8, ptr %.0, align 1, !tbaa !5
  %.pre8 = sext i8 %.pre to i32
  br label %.critedge

7:                                                ; preds = %3
  %8 = load i8, ptr %.0, align 1, !tbaa !5
  %9 = sext i8 %8 to i32
  %10 = icmp eq i32 %5, %9
  br i1 %10, label %11, label %.critedge

11:                                               ; preds = %7
  %12 = getelementptr inbounds i8, ptr %.0, i32 1
  %13 = getelementptr inbounds i8, ptr %.07, i32 1
  br label %3, !llvm.loop !22

.critedge:                                        ; preds = %..critedge_crit_edge, %7
  %.pre-phi = phi i32 [ %.pre8, %..critedge_crit_edge ], [ %9, %7 ]
  %14 = phi i8 [ %.pre, %..critedge_crit_edge ], [ %8, %7 ]
  %15 = icmp eq i32 %5, %.pre-phi
  %16 = zext i1 %15 to i32
  ret i32 %16
}

declare i32 @putchar(i32 noundef) local_unnamed_addr #1

attributes #0 = { nounwind uwtable "min-legal-vector-width"="0" "no-builtins" "no-jump-tables"="true" "no-trapping-math"="true" "stack-protector-buffer-size"="8" "target-cpu"="x86-64" "target-features"="+cx8,+fxsr,+mmx,+sse,+sse2,+x87" "tune-cpu"="generic" }
attributes #1 = { "no-builtins" "no-trapping-math"="true" "stack-protector-buffer-size"="8" "target-cpu"="x86-64" "target-features"="+cx8,+fxsr,+mmx,+sse,+sse2,+x87" "tune-cpu"="generic" }
attributes #2 = { nobuiltin "no-builtins" }

!llvm.module.flags = !{!0, !1, !2, !3}
!llvm.ident = !{!4}

!0 = !{i32 1, !"wchar_size", i32 4}
!1 = !{i32 8, !"PIC Level", i32 2}
!2 = !{i32 7, !"PIE Level", i32 2}
!3 = !{i32 7, !"uwtable", i32 2}
!4 = !{!"Debian clang version 16.0.6 (15~deb12u1)"}
!5 = !{!6, !6, i64 0}
!6 = !{!"omnipotent char", !7, i64 0}
!7 = !{!"Simple C/C++ TBAA"}
!8 = distinct !{!8, !9, !10}
!9 = !{!"llvm.loop.mustprogress"}
!10 = !{!"llvm.loop.unroll.disable"}
!11 = !{!12, !12, i64 0}
!12 = !{!"any pointer", !6, i64 0}
!13 = distinct !{!13, !9, !10}
!14 = !{!15, !12, i64 0}
!15 = !{!"slot", !12, i64 0, !16, i64 8, !16, i64 12}
!16 = !{!"int", !6, i64 0}
!17 = !{!15, !16, i64 8}
!18 = !{!15, !16, i64 12}
!19 = distinct !{!19, !9, !10}
!20 = distinct !{!20, !10}
!21 = distinct !{!21, !9, !10}
!22 = distinct !{!22, !9, !10}
