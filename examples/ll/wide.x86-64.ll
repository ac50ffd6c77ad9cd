; ModuleID = '<stdin>'
source_filename = "wide.c"
target datalayout = "e-m:e-p270:32:32-p271:32:32-p272:64:64-i64:64-f80:128-n8:16:32:64-S128"
target triple = "x86_64-unknown-linux-gnu"

@minus = internal global i64 -38, align 8
@five = internal global i64 5, align 8
@most = internal global i64 -1, align 8

; Function Attrs: nounwind uwtable
define dso_local i32 @main() local_unnamed_addr #0 {
  %1 = call fastcc i64 @factorial(i32 noundef 20) #2
  call fastcc void @number(i64 noundef %1) #2
  call fastcc void @gap(i32 noundef 1) #2
  %2 = load volatile i64, ptr @minus, align 8, !tbaa !5
  %3 = load volatile i64, ptr @five, align 8, !tbaa !5
  %4 = sdiv i64 %2, %3
  call fastcc void @signed_number(i64 noundef %4) #2
  call fastcc void @gap(i32 noundef 0) #2
  %5 = load volatile i64, ptr @minus, align 8, !tbaa !5
  %6 = load volatile i64, ptr @five, align 8, !tbaa !5
  %7 = srem i64 %5, %6
  call fastcc void @signed_number(i64 noundef %7) #2
  call fastcc void @gap(i32 noundef 0) #2
  %8 = load volatile i64, ptr @most, align 8, !tbaa !5
  %9 = urem i64 %8, 10
  %10 = add nsw i64 %9, 4
  call fastcc void @signed_number(i64 noundef %10) #2
  call fastcc void @gap(i32 noundef 0) #2
  %11 = load volatile i64, ptr @most, align 8, !tbaa !5
  %12 = udiv i64 %11, 3
  call fastcc void @number(i64 noundef %12) #2
  call fastcc void @gap(i32 noundef 1) #2
  %13 = load volatile i64, ptr @minus, align 8, !tbaa !5
  %14 = ashr i64 %13, 40
  call fastcc void @signed_number(i64 noundef %14) #2
  call fastcc void @gap(i32 noundef 0) #2
  %15 = load volatile i64, ptr @most, align 8, !tbaa !5
  %16 = lshr i64 %15, 63
  call fastcc void @number(i64 noundef %16) #2
  call fastcc void @gap(i32 noundef 0) #2
  %17 = load volatile i64, ptr @most, align 8, !tbaa !5
  %18 = lshr i64 %17, 32
  %19 = add i64 %18, 1
  %20 = lshr i64 %19, 16
  call fastcc void @number(i64 noundef %20) #2
  call fastcc void @gap(i32 noundef 1) #2
  %21 = call fastcc i64 @high(i64 noundef 1000000000000000, i64 noundef 1000000000000000) #2
  call fastcc void @number(i64 noundef %21) #2
  call fastcc void @gap(i32 noundef 0) #2
  call fastcc void @number(i64 noundef 5076944270305263616) #2
  call fastcc void @gap(i32 noundef 1) #2
  %22 = call fastcc i64 @factorial(i32 noundef 20) #2
  %23 = call fastcc i64 @factorial(i32 noundef 19) #2
  %24 = udiv i64 %22, %23
  %25 = trunc i64 %24 to i32
  %26 = mul nsw i32 %25, 2
  %27 = add nsw i32 %26, 2
  ret i32 %27
}

; Function Attrs: nounwind uwtable
define internal fastcc void @number(i64 noundef %0) unnamed_addr #0 {
  %2 = icmp uge i64 %0, 10
  br i1 %2, label %3, label %5

3:                                                ; preds = %1
  %4 = udiv i64 %0, 10
  call fastcc void @number(i64 noundef %4) #2
  br label %5

5:                                                ; preds = %3, %1
  %6 = urem i64 %0, 10
  %7 = trunc i64 %6 to i32
  %8 = add nsw i32 48, %7
  %9 = call i32 @putchar(i32 noundef %8) #2
  ret void
}

; Function Attrs: nounwind uwtable
define internal fastcc i64 @factorial(i32 noundef %0) unnamed_addr #0 {
  br label %2

2:                                                ; preds = %4, %1
  %.06 = phi i64 [ 1, %1 ], [ %6, %4 ]
  %.0 = phi i32 [ 2, %1 ], [ %7, %4 ]
  %3 = icmp ule i32 %.0, %0
  br i1 %3, label %4, label %8

4:                                                ; preds = %2
  %5 = zext i32 %.0 to i64
  %6 = mul i64 %.06, %5
  %7 = add i32 %.0, 1
  br label %2, !llvm.loop !9

8:                                                ; preds = %2
  ret i64 %.06
}

; Function Attrs: nounwind uwtable
define internal fastcc void @gap(i32 noundef %0) unnamed_addr #0 {
  %2 = icmp ne i32 %0, 0
  %3 = select i1 %2, i32 10, i32 32
  %4 = call i32 @putchar(i32 noundef %3) #2
  ret void
}

; Function Attrs: nounwind uwtable
define internal fastcc void @signed_number(i64 noundef %0) unnamed_addr #0 {
  %2 = icmp slt i64 %0, 0
  br i1 %2, label %3, label %6

3:                                                ; preds = %1
  %4 = call i32 @putchar(i32 noundef 45) #2
  %5 = sub i64 0, %0
  call fastcc void @number(i64 noundef %5) #2
  br label %7

6:                                                ; preds = %1
  call fastcc void @number(i64 noundef %0) #2
  br label %7

7:                                                ; preds = %6, %3
  ret void
}

; Function Attrs: nounwind uwtable
define internal fastcc i64 @high(i64 noundef %0, i64 noundef %1) unnamed_addr #0 {
  %3 = trunc i64 %0 to i32
  %4 = zext i32 %3 to i64
  %5 = lshr i64 %0, 32
  %6 = trunc i64 %1 to i32
  %7 = zext i32 %6 to i64
  %8 = lshr i64 %1, 32
  %9 = mul i64 %5, %7
  %10 = mul i64 %4, %7
  %11 = lshr i64 %10, 32
  %12 = add i64 %9, %11
  %13 = mul i64 %4, %8
  %14 = trunc i64 %12 to i32
  %15 = zext i32 %14 to i64
  %16 = add i64 %13, %15
  %17 = mul i64 %5, %8
  %18 = lshr i64 %12, 32
  %19 = add i64 %17, %18
  %20 = lshr i64 %16, 32
  %21 = add i64 %19, %20
  ret i64 %21
}

declare i32 @putchar(i32 noundef) local_unnamed_addr #1

attributes #0 = { nounwind uwtable "min-legal-vector-width"="0" "no-builtins" "no-jump-tables"="true" "no-trapping-math"="true" "stack-protector-buffer-size"="8" "target-cpu"="x86-64" "target-features"="+cx8,+fxsr,+mmx,+sse,+sse2,+x87" "tune-cpu"="generic" }
attributes #1 = { "no-builtins" "no-trapping-math"="true" "stack-protector-buffer-size"="8" "target-cpu"="x86-64" "target-features"="+cx8,+fxsr,+mmx,+sse,+sse2,+x87" "tune-cpu"="generic" }
attributes #2 = { nobuiltin "no-builtins" }

!llvm.module.flags = !{!0, !1, !2, !3}
!llvm.ident = !{!4}

!0 = !{i32 1, !"wchar_size", i32 4}
!1 = !{i32 8, !"PIC Level", i32 2}
!2 = !{i32 7, !"PIE Level", i32 2}
!3 = !{i32 7, !"uwtable", i32 2}
!4 = !{!"Debian clang version 16.0.6 (15~deb12u1)"}
!5 = !{!6, !6, i64 0}
!6 = !{!"long long", !7, i64 0}
!7 = !{!"omnipotent char", !8, i64 0}
!8 = !{!"Simple C/C++ TBAA"}
!9 = distinct !{!9, !10, !11}
!10 = !{!"llvm.loop.mustprogress"}
!11 = !{!"llvm.loop.unroll.disable"}
