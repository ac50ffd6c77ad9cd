; ModuleID = '<stdin>'
source_filename = "crc.c"
target datalayout = "e-m:e-p270:32:32-p271:32:32-p272:64:64-i64:64-f80:128-n8:16:32:64-S128"
target triple = "x86_64-unknown-linux-gnu"

@text = internal constant [10 x i8] c"123456789\00", align 1
@.str = private unnamed_addr constant [17 x i8] c"0123456789ABCDEF\00", align 1
@table = internal unnamed_addr global [256 x i32] zeroinitializer, align 16

; Function Attrs: nounwind uwtable
define dso_local i32 @main() local_unnamed_addr #0 {
  %1 = call fastcc i32 @by_bits(ptr noundef @text) #2
  call fastcc void @show(i32 noundef %1) #2
  %2 = call fastcc i32 @by_table(ptr noundef @text) #2
  call fastcc void @show(i32 noundef %2) #2
  %3 = call fastcc zeroext i16 @short_crc(ptr noundef @text) #2
  %4 = zext i16 %3 to i32
  call fastcc void @show(i32 noundef %4) #2
  %5 = call fastcc i32 @sums(ptr noundef @text, i32 noundef 1, i32 noundef 65521, i32 noundef 16) #2
  call fastcc void @show(i32 noundef %5) #2
  %6 = call fastcc i32 @sums(ptr noundef @text, i32 noundef 0, i32 noundef 255, i32 noundef 8) #2
  call fastcc void @show(i32 noundef %6) #2
  %7 = and i32 %1, 255
  ret i32 %7
}

; Function Attrs: nounwind uwtable
define internal fastcc i32 @by_bits(ptr noundef %0) unnamed_addr #0 {
  br label %2

2:                                                ; preds = %17, %1
  %.010 = phi ptr [ %0, %1 ], [ %18, %17 ]
  %.09 = phi i32 [ -1, %1 ], [ %.1, %17 ]
  %3 = load i8, ptr %.010, align 1, !tbaa !5
  %4 = icmp ne i8 %3, 0
  br i1 %4, label %5, label %19

5:                                                ; preds = %2
  %6 = zext i8 %3 to i32
  %7 = xor i32 %.09, %6
  br label %8

8:                                                ; preds = %10, %5
  %.1 = phi i32 [ %7, %5 ], [ %15, %10 ]
  %.0 = phi i32 [ 0, %5 ], [ %16, %10 ]
  %9 = icmp slt i32 %.0, 8
  br i1 %9, label %10, label %17

10:                                               ; preds = %8
  %11 = and i32 %.1, 1
  %12 = icmp ne i32 %11, 0
  %13 = lshr i32 %.1, 1
  %14 = xor i32 %13, -306674912
  %15 = select i1 %12, i32 %14, i32 %13
  %16 = add nsw i32 %.0, 1
  br label %8, !llvm.loop !8

17:                                               ; preds = %8
  %18 = getelementptr inbounds i8, ptr %.010, i32 1
  br label %2, !llvm.loop !11

19:                                               ; preds = %2
  %20 = xor i32 %.09, -1
  ret i32 %20
}

; Function Attrs: nounwind uwtable
define internal fastcc void @show(i32 noundef %0) unnamed_addr #0 {
  call fastcc void @hexadecimal(i32 noundef %0) #2
  %2 = call i32 @putchar(i32 noundef 10) #2
  ret void
}

; Function Attrs: nounwind uwtable
define internal fastcc i32 @by_table(ptr noundef %0) unnamed_addr #0 {
  br label %2

2:                                                ; preds = %13, %1
  %.015 = phi i32 [ 0, %1 ], [ %16, %13 ]
  %3 = icmp ult i32 %.015, 256
  br i1 %3, label %4, label %17

4:                                                ; preds = %2, %6
  %.014 = phi i32 [ %11, %6 ], [ %.015, %2 ]
  %.013 = phi i32 [ %12, %6 ], [ 0, %2 ]
  %5 = icmp slt i32 %.013, 8
  br i1 %5, label %6, label %13

6:                                                ; preds = %4
  %7 = lshr i32 %.014, 1
  %8 = and i32 %.014, 1
  %9 = sub i32 0, %8
  %10 = and i32 -306674912, %9
  %11 = xor i32 %7, %10
  %12 = add nsw i32 %.013, 1
  br label %4, !llvm.loop !12

13:                                               ; preds = %4
  %14 = zext i32 %.015 to i64
  %15 = getelementptr inbounds [256 x i32], ptr @table, i64 0, i64 %14
  store i32 %.014, ptr %15, align 4, !tbaa !13
  %16 = add i32 %.015, 1
  br label %2, !llvm.loop !15

17:                                               ; preds = %2, %20
  %.016 = phi ptr [ %22, %20 ], [ %0, %2 ]
  %.0 = phi i32 [ %29, %20 ], [ -1, %2 ]
  %18 = load i8, ptr %.016, align 1, !tbaa !5
  %19 = icmp ne i8 %18, 0
  br i1 %19, label %20, label %30

20:                                               ; preds = %17
  %21 = lshr i32 %.0, 8
  %22 = getelementptr inbounds i8, ptr %.016, i32 1
  %23 = zext i8 %18 to i32
  %24 = xor i32 %.0, %23
  %25 = and i32 %24, 255
  %26 = zext i32 %25 to i64
  %27 = getelementptr inbounds [256 x i32], ptr @table, i64 0, i64 %26
  %28 = load i32, ptr %27, align 4, !tbaa !13
  %29 = xor i32 %21, %28
  br label %17, !llvm.loop !16

30:                                               ; preds = %17
  %31 = xor i32 %.0, -1
  ret i32 %31
}

; Function Attrs: nounwind uwtable
define internal fastcc zeroext i16 @short_crc(ptr noundef %0) unnamed_addr #0 {
  br label %2

2:                                                ; preds = %24, %1
  %.010 = phi ptr [ %0, %1 ], [ %25, %24 ]
  %.09 = phi i16 [ -1, %1 ], [ %.1, %24 ]
  %3 = load i8, ptr %.010, align 1, !tbaa !5
  %4 = icmp ne i8 %3, 0
  br i1 %4, label %5, label %26

5:                                                ; preds = %2
  %6 = zext i8 %3 to i32
  %7 = shl i32 %6, 8
  %8 = trunc i32 %7 to i16
  %9 = zext i16 %8 to i32
  %10 = zext i16 %.09 to i32
  %11 = xor i32 %10, %9
  %12 = trunc i32 %11 to i16
  br label %13

13:                                               ; preds = %15, %5
  %.1 = phi i16 [ %12, %5 ], [ %22, %15 ]
  %.0 = phi i32 [ 0, %5 ], [ %23, %15 ]
  %14 = icmp slt i32 %.0, 8
  br i1 %14, label %15, label %24

15:                                               ; preds = %13
  %16 = zext i16 %.1 to i32
  %17 = and i32 %16, 32768
  %18 = icmp ne i32 %17, 0
  %19 = shl i32 %16, 1
  %20 = xor i32 %19, 4129
  %21 = select i1 %18, i32 %20, i32 %19
  %22 = trunc i32 %21 to i16
  %23 = add nsw i32 %.0, 1
  br label %13, !llvm.loop !17

24:                                               ; preds = %13
  %25 = getelementptr inbounds i8, ptr %.010, i32 1
  br label %2, !llvm.loop !18

26:                                               ; preds = %2
  ret i16 %.09
}

; Function Attrs: nounwind uwtable
define internal fastcc i32 @sums(ptr noundef %0, i32 noundef %1, i32 noundef %2, i32 noundef %3) unnamed_addr #0 {
  br label %5

5:                                                ; preds = %8, %4
  %.012 = phi ptr [ %0, %4 ], [ %14, %8 ]
  %.011 = phi i32 [ %1, %4 ], [ %11, %8 ]
  %.0 = phi i32 [ 0, %4 ], [ %13, %8 ]
  %6 = load i8, ptr %.012, align 1, !tbaa !5
  %7 = icmp ne i8 %6, 0
  br i1 %7, label %8, label %15

8:                                                ; preds = %5
  %9 = zext i8 %6 to i32
  %10 = add i32 %.011, %9
  %11 = urem i32 %10, %2
  %12 = add i32 %.0, %11
  %13 = urem i32 %12, %2
  %14 = getelementptr inbounds i8, ptr %.012, i32 1
  br label %5, !llvm.loop !19

15:                                               ; preds = %5
  %16 = shl i32 %.0, %3
  %17 = or i32 %16, %.011
  ret i32 %17
}

; Function Attrs: nounwind uwtable
define internal fastcc void @hexadecimal(i32 noundef %0) unnamed_addr #0 {
  %2 = icmp uge i32 %0, 16
  br i1 %2, label %3, label %5

3:                                                ; preds = %1
  %4 = udiv i32 %0, 16
  call fastcc void @hexadecimal(i32 noundef %4) #2
  br label %5

5:                                                ; preds = %3, %1
  %6 = urem i32 %0, 16
  %7 = zext i32 %6 to i64
  %8 = getelementptr inbounds [17 x i8], ptr @.str, i64 0, i64 %7
  %9 = load i8, ptr %8, align 1, !tbaa !5
  %10 = sext i8 %9 to i32
  %11 = call i32 @putchar(i32 noundef %10) #2
  ret void
}

declare i32 @putchar(i32 noundef) local_unnamed_addr #1

attributes #0 = { nounwind uwtable "min-legal-vector-width"="0" "no-builtins" "no-jump-tables"="true" "no-trapping-math"="true" "stack-protector-buffer-size"="8" "target-cpu"="x86-64" "target-features"="+cx8,+fxsr,+mmx,+sse,+sse2,+x87" "tune-cpu"="generic" }
attributes #1 = { "no-builtins" "no-trapping-math"="true" "stack-protector-buffer-size"="8" "target-cpu"="x86-64" "target-features"="+cx8,+fxsr,+mmx,+sse,+sse2,+x87" "tune-cpu"="generic" }
attributes #2 = { nobuiltin "no-builtins" }

!llvm.module.flags = !{!0, !1, !2, !3}
!llvm.ident = !{!4}

!0 = !{i32 1, !"wchar_size", i32 4}
!1 = !{i32 8, !"PIC Level", i32 2}
!2 = !{i32 7, !"PIE Level", i32 2}
!3 = !{i32 7, !"uwtable", i32 2}
!4 = !{!"Debian clang version 16.0.6 (15~deb12u1)"}
!5 = !{!6, !6, i64 0}
!6 = !{!"omnipotent char", !7, i64 0}
!7 = !{!"Simple C/C++ TBAA"}
!8 = distinct !{!8, !9, !10}
!9 = !{!"llvm.loop.mustprogress"}
!10 = !{!"llvm.loop.unroll.disable"}
!11 = distinct !{!11, !9, !10}
!12 = distinct !{!12, !9, !10}
!13 = !{!14, !14, i64 0}
!14 = !{!"int", !6, i64 0}
!15 = distinct !{!15, !9, !10}
!16 = distinct !{!16, !9, !10}
!17 = distinct !{!17, !9, !10}
!18 = distinct !{!18, !9, !10}
!19 = distinct !{!19, !9, !10}
