; ModuleID = '<stdin>'
source_filename = "words.c"
target datalayout = "e-m:e-p270:32:32-p271:32:32-p272:64:64-i64:64-f80:128-n8:16:32:64-S128"
target triple = "x86_64-unknown-linux-gnu"

@now = internal unnamed_addr global [32 x i8] zeroinitializer, align 16
@longest = internal global [32 x i8] zeroinitializer, align 16

; Function Attrs: nounwind uwtable
define dso_local i32 @main() local_unnamed_addr #0 {
  br label %1

1:                                                ; preds = %20, %0
  %.026 = phi i32 [ 0, %0 ], [ %.127, %20 ]
  %.025 = phi i32 [ 0, %0 ], [ %5, %20 ]
  %.023 = phi i32 [ 0, %0 ], [ %.2, %20 ]
  %.021 = phi i32 [ 0, %0 ], [ %.122, %20 ]
  %.0 = phi i32 [ 0, %0 ], [ %spec.select, %20 ]
  %2 = call i32 @getchar() #2
  %3 = icmp sge i32 %2, 0
  br i1 %3, label %4, label %21

4:                                                ; preds = %1
  %5 = add i32 %.025, 1
  %6 = icmp eq i32 %2, 10
  %7 = add i32 %.0, 1
  %spec.select = select i1 %6, i32 %7, i32 %.0
  switch i32 %2, label %13 [
    i32 32, label %8
    i32 10, label %8
    i32 9, label %8
  ]

8:                                                ; preds = %4, %4, %4
  %9 = icmp sgt i32 %.023, 0
  %10 = zext i1 %9 to i32
  %11 = add i32 %.026, %10
  %12 = call fastcc i32 @keep(i32 noundef %.023, i32 noundef %.021) #2
  br label %20

13:                                               ; preds = %4
  %14 = icmp slt i32 %.023, 31
  br i1 %14, label %15, label %20

15:                                               ; preds = %13
  %16 = trunc i32 %2 to i8
  %17 = add nsw i32 %.023, 1
  %18 = sext i32 %.023 to i64
  %19 = getelementptr inbounds [32 x i8], ptr @now, i64 0, i64 %18
  store i8 %16, ptr %19, align 1, !tbaa !5
  br label %20

20:                                               ; preds = %13, %15, %8
  %.127 = phi i32 [ %11, %8 ], [ %.026, %15 ], [ %.026, %13 ]
  %.2 = phi i32 [ 0, %8 ], [ %17, %15 ], [ %.023, %13 ]
  %.122 = phi i32 [ %12, %8 ], [ %.021, %15 ], [ %.021, %13 ]
  br label %1, !llvm.loop !8

21:                                               ; preds = %1
  %22 = icmp sgt i32 %.023, 0
  %23 = zext i1 %22 to i32
  %24 = add i32 %.026, %23
  %25 = call fastcc i32 @keep(i32 noundef %.023, i32 noundef %.021) #2
  call fastcc void @number(i32 noundef %.0) #2
  %26 = call i32 @putchar(i32 noundef 32) #2
  call fastcc void @number(i32 noundef %24) #2
  %27 = call i32 @putchar(i32 noundef 32) #2
  call fastcc void @number(i32 noundef %.025) #2
  %28 = call i32 @putchar(i32 noundef 10) #2
  %29 = call i32 @puts(ptr noundef @longest) #2
  ret i32 %25
}

declare i32 @getchar() local_unnamed_addr #1

; Function Attrs: nounwind uwtable
define internal fastcc i32 @keep(i32 noundef %0, i32 noundef %1) unnamed_addr #0 {
  %3 = icmp sle i32 %0, %1
  br i1 %3, label %21, label %4

4:                                                ; preds = %2, %6
  %.0 = phi i32 [ %17, %6 ], [ 0, %2 ]
  %5 = icmp slt i32 %.0, %0
  br i1 %5, label %6, label %18

6:                                                ; preds = %4
  %7 = sext i32 %.0 to i64
  %8 = getelementptr inbounds [32 x i8], ptr @now, i64 0, i64 %7
  %9 = load i8, ptr %8, align 1, !tbaa !5
  %10 = sext i8 %9 to i32
  %11 = icmp sge i32 %10, 97
  %12 = icmp sle i32 %10, 122
  %or.cond = and i1 %11, %12
  %13 = sub nsw i32 %10, 32
  %14 = select i1 %or.cond, i32 %13, i32 %10
  %15 = trunc i32 %14 to i8
  %16 = getelementptr inbounds [32 x i8], ptr @longest, i64 0, i64 %7
  store i8 %15, ptr %16, align 1, !tbaa !5
  %17 = add nsw i32 %.0, 1
  br label %4, !llvm.loop !11

18:                                               ; preds = %4
  %19 = sext i32 %0 to i64
  %20 = getelementptr inbounds [32 x i8], ptr @longest, i64 0, i64 %19
  store i8 0, ptr %20, align 1, !tbaa !5
  br label %21

21:                                               ; preds = %2, %18
  %.014 = phi i32 [ %0, %18 ], [ %1, %2 ]
  ret i32 %.014
}

; Function Attrs: nounwind uwtable
define internal fastcc void @number(i32 noundef %0) unnamed_addr #0 {
  %2 = icmp uge i32 %0, 10
  br i1 %2, label %3, label %5

3:                                                ; preds = %1
  %4 = udiv i32 %0, 10
  call fastcc void @number(i32 noundef %4) #2
  br label %5

5:                                                ; preds = %3, %1
  %6 = urem i32 %0, 10
  %7 = add i32 48, %6
  %8 = call i32 @putchar(i32 noundef %7) #2
  ret void
}

declare i32 @putchar(i32 noundef) local_unnamed_addr #1

declare i32 @puts(ptr noundef) local_unnamed_addr #1

attributes #0 = { nounwind uwtable "min-legal-vector-width"="0" "no-builtins" "no-jump-tables"="true" "no-trapping-math"="true" "stack-protector-buffer-size"="8" "target-cpu"="x86-64" "target-features"="+cx8,+fxsr,+mmx,+sse,+sse2,+x87" "tune-cpu"="generic" }
attributes #1 = { "no-builtins" "no-trapping-math"="true" "stack-protector-buffer-size"="8" "target-cpu"="x86-64" "target-features"="+cx8,+fxsr,+mmx,+sse,+sse2,+x87" "tune-cpu"="generic" }
attributes #2 = { nobuiltin "no-builtins" }

!llvm.module.flags = !{!0, !1, !2, !3}
!llvm.ident = !{!4}

!0 = !{i32 1, !"wchar_size", i32 4}
!1 = !{i32 8, !"PIC Level", i32 2}
!2 = !{i32 7, !"PIE Level", i32 2}
!3 = !{i32 7, !"uwtable", i32 2}
!4 = !{!"Debian clang version 16.0.6 (15~deb12u1)"}
!5 = !{!6, !6, i64 0}
!6 = !{!"omnipotent char", !7, i64 0}
!7 = !{!"Simple C/C++ TBAA"}
!8 = distinct !{!8, !9, !10}
!9 = !{!"llvm.loop.mustprogress"}
!10 = !{!"llvm.loop.unroll.disable"}
!11 = distinct !{!11, !9, !10}
