; ModuleID = 'wide.c'
source_filename = "wide.c"
target datalayout = "e-m:e-p:32:32-Fi8-i64:64-v128:64:128-a:0:32-n32-S64"
target triple = "armv7-unknown-linux-gnueabi"

@minus = internal global i64 -38, align 8
@five = internal global i64 5, align 8
@most = internal global i64 -1, align 8

; Function Attrs: nofree nounwind
define dso_local noundef range(i32 -2147483646, -2147483648) i32 @main() local_unnamed_addr #0 {
  tail call fastcc void @number(i64 noundef 2432902008176640000)
  %1 = tail call i32 @putchar(i32 noundef 10)
  %2 = load volatile i64, ptr @minus, align 8, !tbaa !5
  %3 = load volatile i64, ptr @five, align 8, !tbaa !5
  %4 = sdiv i64 %2, %3
  %5 = icmp slt i64 %4, 0
  br i1 %5, label %6, label %9

6:                                                ; preds = %0
  %7 = tail call i32 @putchar(i32 noundef 45)
  %8 = sub i64 0, %4
  br label %9

9:                                                ; preds = %0, %6
  %10 = phi i64 [ %8, %6 ], [ %4, %0 ]
  tail call fastcc void @number(i64 noundef %10)
  %11 = tail call i32 @putchar(i32 noundef 32)
  %12 = load volatile i64, ptr @minus, align 8, !tbaa !5
  %13 = load volatile i64, ptr @five, align 8, !tbaa !5
  %14 = srem i64 %12, %13
  %15 = icmp slt i64 %14, 0
  br i1 %15, label %16, label %19

16:                                               ; preds = %9
  %17 = tail call i32 @putchar(i32 noundef 45)
  %18 = sub nsw i64 0, %14
  br label %19

19:                                               ; preds = %9, %16
  %20 = phi i64 [ %18, %16 ], [ %14, %9 ]
  tail call fastcc void @number(i64 noundef %20)
  %21 = tail call i32 @putchar(i32 noundef 32)
  %22 = load volatile i64, ptr @most, align 8, !tbaa !5
  %23 = urem i64 %22, 10
  %24 = add nuw nsw i64 %23, 4
  tail call fastcc void @number(i64 noundef %24)
  %25 = tail call i32 @putchar(i32 noundef 32)
  %26 = load volatile i64, ptr @most, align 8, !tbaa !5
  %27 = udiv i64 %26, 3
  tail call fastcc void @number(i64 noundef %27)
  %28 = tail call i32 @putchar(i32 noundef 10)
  %29 = load volatile i64, ptr @minus, align 8, !tbaa !5
  %30 = ashr i64 %29, 40
  %31 = icmp slt i64 %30, 0
  br i1 %31, label %32, label %35

32:                                               ; preds = %19
  %33 = tail call i32 @putchar(i32 noundef 45)
  %34 = sub nsw i64 0, %30
  br label %35

35:                                               ; preds = %19, %32
  %36 = phi i64 [ %34, %32 ], [ %30, %19 ]
  tail call fastcc void @number(i64 noundef %36)
  %37 = tail call i32 @putchar(i32 noundef 32)
  %38 = load volatile i64, ptr @most, align 8, !tbaa !5
  %39 = lshr i64 %38, 63
  tail call fastcc void @number(i64 noundef %39)
  %40 = tail call i32 @putchar(i32 noundef 32)
  %41 = load volatile i64, ptr @most, align 8, !tbaa !5
  %42 = lshr i64 %41, 32
  %43 = add nuw nsw i64 %42, 1
  %44 = lshr i64 %43, 16
  tail call fastcc void @number(i64 noundef %44)
  %45 = tail call i32 @putchar(i32 noundef 10)
  tail call fastcc void @number(i64 noundef 54210108624)
  %46 = tail call i32 @putchar(i32 noundef 32)
  tail call fastcc void @number(i64 noundef 5076944270305263616)
  %47 = tail call i32 @putchar(i32 noundef 10)
  ret i32 42
}

; Function Attrs: nofree nounwind
define internal fastcc void @number(i64 noundef %0) unnamed_addr #0 {
  %2 = icmp ugt i64 %0, 9
  br i1 %2, label %3, label %5

3:                                                ; preds = %1
  %4 = udiv i64 %0, 10
  tail call fastcc void @number(i64 noundef %4)
  br label %5

5:                                                ; preds = %3, %1
  %6 = urem i64 %0, 10
  %7 = trunc nuw nsw i64 %6 to i32
  %8 = or disjoint i32 %7, 48
  %9 = tail call i32 @putchar(i32 noundef %8)
  ret void
}

; Function Attrs: nofree nounwind
declare noundef i32 @putchar(i32 noundef) local_unnamed_addr #0

attributes #0 = { nofree nounwind "no-trapping-math"="true" "stack-protector-buffer-size"="8" "target-cpu"="generic" "target-features"="+armv7-a,+dsp,+soft-float,-aes,-bf16,-d32,-dotprod,-fp-armv8,-fp-armv8d16,-fp-armv8d16sp,-fp-armv8sp,-fp16,-fp16fml,-fp64,-fpregs,-fullfp16,-mve,-mve.fp,-neon,-sha2,-thumb-mode,-vfp2,-vfp2sp,-vfp3,-vfp3d16,-vfp3d16sp,-vfp3sp,-vfp4,-vfp4d16,-vfp4d16sp,-vfp4sp" "use-soft-float"="true" }

!llvm.module.flags = !{!0, !1, !2, !3}
!llvm.ident = !{!4}

!0 = !{i32 1, !"wchar_size", i32 4}
!1 = !{i32 1, !"min_enum_size", i32 4}
!2 = !{i32 8, !"PIC Level", i32 2}
!3 = !{i32 7, !"PIE Level", i32 2}
!4 = !{!"Debian clang version 19.1.7 (3~deb12u1)"}
!5 = !{!6, !6, i64 0}
!6 = !{!"long long", !7, i64 0}
!7 = !{!"omnipotent char", !8, i64 0}
!8 = !{!"Simple C/C++ TBAA"}
