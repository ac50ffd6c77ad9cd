; ModuleID = '<stdin>'
source_filename = "switches.c"
target datalayout = "e-m:e-p270:32:32-p271:32:32-p272:64:64-i64:64-f80:128-n8:16:32:64-S128"
target triple = "x86_64-unknown-linux-gnu"

@calls = internal unnamed_addr global i32 0, align 4
@.str = private unnamed_addr constant [9 x i8] c"eixak4.#\00", align 1
@.str.1 = private unnamed_addr constant [5 x i8] c"zero\00", align 1
@.str.2 = private unnamed_addr constant [4 x i8] c"one\00", align 1
@.str.3 = private unnamed_addr constant [4 x i8] c"two\00", align 1
@.str.4 = private unnamed_addr constant [5 x i8] c"many\00", align 1
@.str.5 = private unnamed_addr constant [4 x i8] c"low\00", align 1
@.str.6 = private unnamed_addr constant [5 x i8] c"high\00", align 1
@.str.7 = private unnamed_addr constant [6 x i8] c"other\00", align 1
@.str.8 = private unnamed_addr constant [5 x i8] c"huge\00", align 1
@.str.9 = private unnamed_addr constant [6 x i8] c"small\00", align 1

; Function Attrs: nounwind uwtable
define dso_local i32 @main() local_unnamed_addr #0 {
  br label %1

1:                                                ; preds = %3, %0
  %.011 = phi i32 [ 0, %0 ], [ %7, %3 ]
  %2 = icmp slt i32 %.011, 4
  br i1 %2, label %3, label %8

3:                                                ; preds = %1
  %4 = call fastcc ptr @dense(i32 noundef %.011) #2
  %5 = icmp eq i32 %.011, 3
  %6 = zext i1 %5 to i32
  call fastcc void @word(ptr noundef %4, i32 noundef %6) #2
  %7 = add nsw i32 %.011, 1
  br label %1, !llvm.loop !5

8:                                                ; preds = %1
  %9 = call fastcc ptr @sparse(i32 noundef -1000000) #2
  call fastcc void @word(ptr noundef %9, i32 noundef 0) #2
  %10 = call fastcc ptr @sparse(i32 noundef 2000000000) #2
  call fastcc void @word(ptr noundef %10, i32 noundef 0) #2
  %11 = call fastcc ptr @sparse(i32 noundef 7) #2
  call fastcc void @word(ptr noundef %11, i32 noundef 1) #2
  br label %12

12:                                               ; preds = %14, %8
  %.010 = phi i32 [ 1, %8 ], [ %21, %14 ]
  %13 = icmp sle i32 %.010, 3
  br i1 %13, label %14, label %24

14:                                               ; preds = %12
  %15 = call fastcc i32 @falling(i32 noundef %.010) #2
  %16 = add nsw i32 48, %15
  %17 = call i32 @putchar(i32 noundef %16) #2
  %18 = icmp eq i32 %.010, 3
  %19 = select i1 %18, i32 10, i32 32
  %20 = call i32 @putchar(i32 noundef %19) #2
  %21 = add nsw i32 %.010, 1
  %22 = load i32, ptr @calls, align 4, !tbaa !8
  %23 = add nsw i32 %22, 1
  store i32 %23, ptr @calls, align 4, !tbaa !8
  br label %12, !llvm.loop !12

24:                                               ; preds = %12
  %25 = call fastcc ptr @wide(i64 noundef 1250999896491) #2
  call fastcc void @word(ptr noundef %25, i32 noundef 0) #2
  %26 = call fastcc ptr @wide(i64 noundef 3) #2
  call fastcc void @word(ptr noundef %26, i32 noundef 1) #2
  br label %27

27:                                               ; preds = %30, %24
  %.0 = phi ptr [ @.str, %24 ], [ %34, %30 ]
  %28 = load i8, ptr %.0, align 1, !tbaa !13
  %29 = icmp ne i8 %28, 0
  br i1 %29, label %30, label %35

30:                                               ; preds = %27
  %31 = call fastcc signext i8 @sort_of(i8 noundef signext %28) #2
  %32 = sext i8 %31 to i32
  %33 = call i32 @putchar(i32 noundef %32) #2
  %34 = getelementptr inbounds i8, ptr %.0, i32 1
  br label %27, !llvm.loop !14

35:                                               ; preds = %27
  %36 = call i32 @putchar(i32 noundef 10) #2
  %37 = load i32, ptr @calls, align 4, !tbaa !8
  %38 = add nsw i32 %37, 5
  ret i32 %38
}

; Function Attrs: nounwind uwtable
define internal fastcc void @word(ptr noundef %0, i32 noundef %1) unnamed_addr #0 {
  %3 = load i32, ptr @calls, align 4, !tbaa !8
  %4 = add nsw i32 %3, 1
  store i32 %4, ptr @calls, align 4, !tbaa !8
  br label %5

5:                                                ; preds = %8, %2
  %.0 = phi ptr [ %0, %2 ], [ %9, %8 ]
  %6 = load i8, ptr %.0, align 1, !tbaa !13
  %7 = icmp ne i8 %6, 0
  br i1 %7, label %8, label %12

8:                                                ; preds = %5
  %9 = getelementptr inbounds i8, ptr %.0, i32 1
  %10 = sext i8 %6 to i32
  %11 = call i32 @putchar(i32 noundef %10) #2
  br label %5, !llvm.loop !15

12:                                               ; preds = %5
  %13 = icmp ne i32 %1, 0
  %14 = select i1 %13, i32 10, i32 32
  %15 = call i32 @putchar(i32 noundef %14) #2
  ret void
}

; Function Attrs: nounwind uwtable
define internal fastcc ptr @dense(i32 noundef %0) unnamed_addr #0 {
  switch i32 %0, label %4 [
    i32 0, label %5
    i32 1, label %2
    i32 2, label %3
  ]

2:                                                ; preds = %1
  br label %5

3:                                                ; preds = %1
  br label %5

4:                                                ; preds = %1
  br label %5

5:                                                ; preds = %1, %4, %3, %2
  %.0 = phi ptr [ @.str.4, %4 ], [ @.str.3, %3 ], [ @.str.2, %2 ], [ @.str.1, %1 ]
  ret ptr %.0
}

; Function Attrs: nounwind uwtable
define internal fastcc ptr @sparse(i32 noundef %0) unnamed_addr #0 {
  %switch.selectcmp = icmp eq i32 %0, 2000000000
  %switch.select = select i1 %switch.selectcmp, ptr @.str.6, ptr @.str.7
  %switch.selectcmp1 = icmp eq i32 %0, -1000000
  %switch.select2 = select i1 %switch.selectcmp1, ptr @.str.5, ptr %switch.select
  ret ptr %switch.select2
}

declare i32 @putchar(i32 noundef) local_unnamed_addr #1

; Function Attrs: nounwind uwtable
define internal fastcc i32 @falling(i32 noundef %0) unnamed_addr #0 {
  switch i32 %0, label %7 [
    i32 1, label %2
    i32 2, label %3
    i32 3, label %5
  ]

2:                                                ; preds = %1
  br label %3

3:                                                ; preds = %2, %1
  %.0 = phi i32 [ 0, %1 ], [ 1, %2 ]
  %4 = add nsw i32 %.0, 2
  br label %5

5:                                                ; preds = %3, %1
  %.1 = phi i32 [ 0, %1 ], [ %4, %3 ]
  %6 = add nsw i32 %.1, 4
  br label %7

7:                                                ; preds = %5, %1
  %.2 = phi i32 [ 0, %1 ], [ %6, %5 ]
  ret i32 %.2
}

; Function Attrs: nounwind uwtable
define internal fastcc ptr @wide(i64 noundef %0) unnamed_addr #0 {
  %cond = icmp eq i64 %0, 1250999896491
  %.str.8..str.9 = select i1 %cond, ptr @.str.8, ptr @.str.9
  ret ptr %.str.8..str.9
}

; Function Attrs: nounwind uwtable
define internal fastcc signext i8 @sort_of(i8 noundef signext %0) unnamed_addr #0 {
  %2 = sext i8 %0 to i32
  switch i32 %2, label %5 [
    i32 97, label %10
    i32 101, label %10
    i32 105, label %10
    i32 111, label %10
    i32 117, label %10
    i32 48, label %3
    i32 49, label %3
    i32 50, label %3
    i32 51, label %3
    i32 52, label %3
    i32 53, label %3
    i32 54, label %3
    i32 55, label %3
    i32 56, label %3
    i32 57, label %3
    i32 46, label %4
    i32 44, label %4
    i32 33, label %4
  ]

3:                                                ; preds = %1, %1, %1, %1, %1, %1, %1, %1, %1, %1
  br label %10

4:                                                ; preds = %1, %1, %1
  br label %10

5:                                                ; preds = %1
  %6 = icmp sge i32 %2, 97
  %7 = icmp sle i32 %2, 122
  %spec.select = select i1 %6, i1 %7, i1 false
  %8 = select i1 %spec.select, i32 99, i32 63
  %9 = trunc i32 %8 to i8
  br label %10

10:                                               ; preds = %1, %1, %1, %1, %1, %5, %4, %3
  %.0 = phi i8 [ %9, %5 ], [ 112, %4 ], [ 100, %3 ], [ 118, %1 ], [ 118, %1 ], [ 118, %1 ], [ 118, %1 ], [ 118, %1 ]
  ret i8 %.0
}

attributes #0 = { nounwind uwtable "min-legal-vector-width"="0" "no-builtins" "no-jump-tables"="true" "no-trapping-math"="true" "stack-protector-buffer-size"="8" "target-cpu"="x86-64" "target-features"="+cx8,+fxsr,+mmx,+sse,+sse2,+x87" "tune-cpu"="generic" }
attributes #1 = { "no-builtins" "no-trapping-math"="true" "stack-protector-buffer-size"="8" "target-cpu"="x86-64" "target-features"="+cx8,+fxsr,+mmx,+sse,+sse2,+x87" "tune-cpu"="generic" }
attributes #2 = { nobuiltin "no-builtins" }

!llvm.module.flags = !{!0, !1, !2, !3}
!llvm.ident = !{!4}

!0 = !{i32 1, !"wchar_size", i32 4}
!1 = !{i32 8, !"PIC Level", i32 2}
!2 = !{i32 7, !"PIE Level", i32 2}
!3 = !{i32 7, !"uwtable", i32 2}
!4 = !{!"Debian clang version 16.0.6 (15~deb12u1)"}
!5 = distinct !{!5, !6, !7}
!6 = !{!"llvm.loop.mustprogress"}
!7 = !{!"llvm.loop.unroll.disable"}
!8 = !{!9, !9, i64 0}
!9 = !{!"int", !10, i64 0}
!10 = !{!"omnipotent char", !11, i64 0}
!11 = !{!"Simple C/C++ TBAA"}
!12 = distinct !{!12, !6, !7}
!13 = !{!10, !10, i64 0}
!14 = distinct !{!14, !6, !7}
!15 = distinct !{!15, !6, !7}
