; ModuleID = '<stdin>'
source_filename = "sieve.c"
target datalayout = "e-m:e-p270:32:32-p271:32:32-p272:64:64-i64:64-f80:128-n8:16:32:64-S128"
target triple = "x86_64-unknown-linux-gnu"

@struck = internal unnamed_addr global [100 x i8] zeroinitializer, align 16

; Function Attrs: nounwind uwtable
define dso_local i32 @main() local_unnamed_addr #0 {
  br label %1

1:                                                ; preds = %3, %0
  %.014 = phi i32 [ 0, %0 ], [ %6, %3 ]
  %2 = icmp slt i32 %.014, 100
  br i1 %2, label %3, label %7

3:                                                ; preds = %1
  %4 = sext i32 %.014 to i64
  %5 = getelementptr inbounds [100 x i8], ptr @struck, i64 0, i64 %4
  store i8 1, ptr %5, align 1, !tbaa !5
  %6 = add nsw i32 %.014, 2
  br label %1, !llvm.loop !8

7:                                                ; preds = %1, %15
  %.013 = phi i32 [ %16, %15 ], [ 3, %1 ]
  %8 = icmp slt i32 %.013, 100
  br i1 %8, label %9, label %17

9:                                                ; preds = %7
  %10 = sext i32 %.013 to i64
  %11 = getelementptr inbounds [100 x i8], ptr @struck, i64 0, i64 %10
  %12 = load i8, ptr %11, align 1, !tbaa !5
  %13 = icmp ne i8 %12, 0
  br i1 %13, label %15, label %14

14:                                               ; preds = %9
  call fastcc void @strike_each(i32 noundef %.013) #2
  br label %15

15:                                               ; preds = %9, %14
  %16 = add nsw i32 %.013, 1
  br label %7, !llvm.loop !11

17:                                               ; preds = %7, %30
  %.015 = phi i32 [ %.1, %30 ], [ 0, %7 ]
  %.0 = phi i32 [ %31, %30 ], [ 1, %7 ]
  %18 = icmp slt i32 %.0, 100
  br i1 %18, label %19, label %32

19:                                               ; preds = %17
  %20 = sext i32 %.0 to i64
  %21 = getelementptr inbounds [100 x i8], ptr @struck, i64 0, i64 %20
  %22 = load i8, ptr %21, align 1, !tbaa !5
  %23 = icmp ne i8 %22, 0
  br i1 %23, label %30, label %24

24:                                               ; preds = %19
  %25 = add nsw i32 %.015, 1
  %26 = icmp ne i32 %.015, 0
  br i1 %26, label %27, label %29

27:                                               ; preds = %24
  %28 = call i32 @putchar(i32 noundef 32) #2
  br label %29

29:                                               ; preds = %27, %24
  call fastcc void @number(i32 noundef %.0) #2
  br label %30

30:                                               ; preds = %19, %29
  %.1 = phi i32 [ %.015, %19 ], [ %25, %29 ]
  %31 = add nsw i32 %.0, 1
  br label %17, !llvm.loop !12

32:                                               ; preds = %17
  %33 = call i32 @putchar(i32 noundef 10) #2
  ret i32 %.015
}

; Function Attrs: nounwind uwtable
define internal fastcc void @strike_each(i32 noundef %0) unnamed_addr #0 {
  br label %2

2:                                                ; preds = %13, %1
  %.06 = phi i32 [ 0, %1 ], [ %.2, %13 ]
  %.0 = phi i32 [ 1, %1 ], [ %14, %13 ]
  %3 = icmp slt i32 %.0, 100
  br i1 %3, label %4, label %15

4:                                                ; preds = %2
  %5 = sext i32 %.0 to i64
  %6 = getelementptr inbounds [100 x i8], ptr @struck, i64 0, i64 %5
  %7 = load i8, ptr %6, align 1, !tbaa !5
  %8 = icmp ne i8 %7, 0
  br i1 %8, label %13, label %9

9:                                                ; preds = %4
  %10 = add nsw i32 %.06, 1
  %11 = icmp eq i32 %10, %0
  br i1 %11, label %12, label %13

12:                                               ; preds = %9
  store i8 1, ptr %6, align 1, !tbaa !5
  br label %13

13:                                               ; preds = %9, %12, %4
  %.2 = phi i32 [ %.06, %4 ], [ 0, %12 ], [ %10, %9 ]
  %14 = add nsw i32 %.0, 1
  br label %2, !llvm.loop !13

15:                                               ; preds = %2
  ret void
}

declare i32 @putchar(i32 noundef) local_unnamed_addr #1

; Function Attrs: nounwind uwtable
define internal fastcc void @number(i32 noundef %0) unnamed_addr #0 {
  %2 = icmp uge i32 %0, 10
  br i1 %2, label %3, label %5

3:                                                ; preds = %1
  %4 = udiv i32 %0, 10
  call fastcc void @number(i32 noundef %4) #2
  br label %5

5:                                                ; preds = %3, %1
  %6 = urem i32 %0, 10
  %7 = add i32 48, %6
  %8 = call i32 @putchar(i32 noundef %7) #2
  ret void
}

attributes #0 = { nounwind uwtable "min-legal-vector-width"="0" "no-builtins" "no-jump-tables"="true" "no-trapping-math"="true" "stack-protector-buffer-size"="8" "target-cpu"="x86-64" "target-features"="+cx8,+fxsr,+mmx,+sse,+sse2,+x87" "tune-cpu"="generic" }
attributes #1 = { "no-builtins" "no-trapping-math"="true" "stack-protector-buffer-size"="8" "target-cpu"="x86-64" "target-features"="+cx8,+fxsr,+mmx,+sse,+sse2,+x87" "tune-cpu"="generic" }
attributes #2 = { nobuiltin "no-builtins" }

!llvm.module.flags = !{!0, !1, !2, !3}
!llvm.ident = !{!4}

!0 = !{i32 1, !"wchar_size", i32 4}
!1 = !{i32 8, !"PIC Level", i32 2}
!2 = !{i32 7, !"PIE Level", i32 2}
!3 = !{i32 7, !"uwtable", i32 2}
!4 = !{!"Debian clang version 16.0.6 (15~deb12u1)"}
!5 = !{!6, !6, i64 0}
!6 = !{!"omnipotent char", !7, i64 0}
!7 = !{!"Simple C/C++ TBAA"}
!8 = distinct !{!8, !9, !10}
!9 = !{!"llvm.loop.mustprogress"}
!10 = !{!"llvm.loop.unroll.disable"}
!11 = distinct !{!11, !9, !10}
!12 = distinct !{!12, !9, !10}
!13 = distinct !{!13, !9, !10}
