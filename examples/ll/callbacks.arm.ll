; ModuleID = 'callbacks.c'
source_filename = "callbacks.c"
target datalayout = "e-m:e-p:32:32-Fi8-i64:64-v128:64:128-a:0:32-n32-S64"
target triple = "armv7-unknown-linux-gnueabi"

; Function Attrs: nofree nounwind
define dso_local noundef i32 @main() local_unnamed_addr #0 {
  tail call fastcc void @number(i32 noundef 12)
  %1 = tail call i32 @putchar(i32 noundef 32)
  %2 = tail call i32 @putchar(i32 noundef 52)
  %3 = tail call i32 @putchar(i32 noundef 32)
  tail call fastcc void @number(i32 noundef 32)
  %4 = tail call i32 @putchar(i32 noundef 32)
  %5 = tail call i32 @putchar(i32 noundef 50)
  %6 = tail call i32 @putchar(i32 noundef 32)
  %7 = tail call i32 @putchar(i32 noundef 48)
  %8 = tail call i32 @putchar(i32 noundef 10)
  %9 = tail call i32 @putchar(i32 noundef 49)
  %10 = tail call i32 @putchar(i32 noundef 32)
  %11 = tail call i32 @putchar(i32 noundef 52)
  %12 = tail call i32 @putchar(i32 noundef 32)
  %13 = tail call i32 @putchar(i32 noundef 57)
  %14 = tail call i32 @putchar(i32 noundef 32)
  tail call fastcc void @number(i32 noundef 16)
  %15 = tail call i32 @putchar(i32 noundef 32)
  tail call fastcc void @number(i32 noundef 25)
  %16 = tail call i32 @putchar(i32 noundef 32)
  tail call fastcc void @number(i32 noundef 36)
  %17 = tail call i32 @putchar(i32 noundef 10)
  tail call fastcc void @number(i32 noundef 91)
  %18 = tail call i32 @putchar(i32 noundef 10)
  %19 = tail call i32 @putchar(i32 noundef 54)
  %20 = tail call i32 @putchar(i32 noundef 32)
  %21 = tail call i32 @putchar(i32 noundef 53)
  %22 = tail call i32 @putchar(i32 noundef 32)
  %23 = tail call i32 @putchar(i32 noundef 52)
  %24 = tail call i32 @putchar(i32 noundef 32)
  %25 = tail call i32 @putchar(i32 noundef 51)
  %26 = tail call i32 @putchar(i32 noundef 32)
  %27 = tail call i32 @putchar(i32 noundef 50)
  %28 = tail call i32 @putchar(i32 noundef 32)
  %29 = tail call i32 @putchar(i32 noundef 49)
  %30 = tail call i32 @putchar(i32 noundef 10)
  ret i32 91
}

; Function Attrs: nofree nounwind
define internal fastcc void @number(i32 noundef %0) unnamed_addr #0 {
  %2 = icmp sgt i32 %0, 9
  br i1 %2, label %3, label %5

3:                                                ; preds = %1
  %4 = udiv i32 %0, 10
  tail call fastcc void @number(i32 noundef %4)
  br label %5

5:                                                ; preds = %3, %1
  %6 = srem i32 %0, 10
  %7 = add nsw i32 %6, 48
  %8 = tail call i32 @putchar(i32 noundef %7)
  ret void
}

; Function Attrs: nofree nounwind
declare noundef i32 @putchar(i32 noundef) local_unnamed_addr #0

attributes #0 = { nofree nounwind "no-trapping-math"="true" "stack-protector-buffer-size"="8" "target-cpu"="generic" "target-features"="+armv7-a,+dsp,+soft-float,-aes,-bf16,-d32,-dotprod,-fp-armv8,-fp-armv8d16,-fp-armv8d16sp,-fp-armv8sp,-fp16,-fp16fml,-fp64,-fpregs,-fullfp16,-mve,-mve.fp,-neon,-sha2,-thumb-mode,-vfp2,-vfp2sp,-vfp3,-vfp3d16,-vfp3d16sp,-vfp3sp,-vfp4,-vfp4d16,-vfp4d16sp,-vfp4sp" "use-soft-float"="true" }

!llvm.module.flags = !{!0, !1, !2, !3}
!llvm.ident = !{!4}

!0 = !{i32 1, !"wchar_size", i32 4}
!1 = !{i32 1, !"min_enum_size", i32 4}
!2 = !{i32 8, !"PIC Level", i32 2}
!3 = !{i32 7, !"PIE Level", i32 2}
!4 = !{!"Debian clang version 19.1.7 (3~deb12u1)"}
