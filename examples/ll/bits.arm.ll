; ModuleID = 'bits.c'
source_filename = "bits.c"
target datalayout = "e-m:e-p:32:32-Fi8-i64:64-v128:64:128-a:0:32-n32-S64"
target triple = "armv7-unknown-linux-gnueabi"

@.str = private unnamed_addr constant [17 x i8] c"0123456789ABCDEF\00", align 1

; Function Attrs: nofree nounwind
define dso_local noundef i32 @main() local_unnamed_addr #0 {
  tail call fastcc void @number(i32 noundef 13, i32 noundef 10)
  %1 = tail call i32 @putchar(i32 noundef 32)
  tail call fastcc void @number(i32 noundef 1, i32 noundef 10)
  %2 = tail call i32 @putchar(i32 noundef 32)
  tail call fastcc void @number(i32 noundef 11336, i32 noundef 16)
  %3 = tail call i32 @putchar(i32 noundef 32)
  tail call fastcc void @number(i32 noundef 24, i32 noundef 10)
  %4 = tail call i32 @putchar(i32 noundef 32)
  tail call fastcc void @number(i32 noundef 9, i32 noundef 10)
  %5 = tail call i32 @putchar(i32 noundef 32)
  tail call fastcc void @number(i32 noundef 28, i32 noundef 10)
  %6 = tail call i32 @putchar(i32 noundef 32)
  tail call fastcc void @number(i32 noundef 3, i32 noundef 10)
  %7 = tail call i32 @putchar(i32 noundef 32)
  tail call fastcc void @number(i32 noundef 591751041, i32 noundef 16)
  %8 = tail call i32 @putchar(i32 noundef 32)
  tail call fastcc void @number(i32 noundef 46368, i32 noundef 10)
  %9 = tail call i32 @putchar(i32 noundef 10)
  ret i32 13
}

; Function Attrs: nofree nounwind
define internal fastcc void @number(i32 noundef %0, i32 noundef %1) unnamed_addr #0 {
  %3 = icmp ult i32 %0, %1
  br i1 %3, label %6, label %4

4:                                                ; preds = %2
  %5 = udiv i32 %0, %1
  tail call fastcc void @number(i32 noundef %5, i32 noundef %1)
  br label %6

6:                                                ; preds = %4, %2
  %7 = urem i32 %0, %1
  %8 = getelementptr inbounds [17 x i8], ptr @.str, i32 0, i32 %7
  %9 = load i8, ptr %8, align 1, !tbaa !5
  %10 = zext i8 %9 to i32
  %11 = tail call i32 @putchar(i32 noundef %10)
  ret void
}

; Function Attrs: nofree nounwind
declare noundef i32 @putchar(i32 noundef) local_unnamed_addr #0

attributes #0 = { nofree nounwind "no-trapping-math"="true" "stack-protector-buffer-size"="8" "target-cpu"="generic" "target-features"="+armv7-a,+dsp,+soft-float,-aes,-bf16,-d32,-dotprod,-fp-armv8,-fp-armv8d16,-fp-armv8d16sp,-fp-armv8sp,-fp16,-fp16fml,-fp64,-fpregs,-fullfp16,-mve,-mve.fp,-neon,-sha2,-thumb-mode,-vfp2,-vfp2sp,-vfp3,-vfp3d16,-vfp3d16sp,-vfp3sp,-vfp4,-vfp4d16,-vfp4d16sp,-vfp4sp" "use-soft-float"="true" }

!llvm.module.flags = !{!0, !1, !2, !3}
!llvm.ident = !{!4}

!0 = !{i32 1, !"wchar_size", i32 4}
!1 = !{i32 1, !"min_enum_size", i32 4}
!2 = !{i32 8, !"PIC Level", i32 2}
!3 = !{i32 7, !"PIE Level", i32 2}
!4 = !{!"Debian clang version 19.1.7 (3~deb12u1)"}
!5 = !{!6, !6, i64 0}
!6 = !{!"omnipotent char", !7, i64 0}
!7 = !{!"Simple C/C++ TBAA"}
