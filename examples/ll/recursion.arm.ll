; ModuleID = 'recursion.c'
source_filename = "recursion.c"
target datalayout = "e-m:e-p:32:32-Fi8-i64:64-v128:64:128-a:0:32-n32-S64"
target triple = "armv7-unknown-linux-gnueabi"

@moves = internal unnamed_addr global i32 0, align 4

; Function Attrs: nofree nounwind
define dso_local i32 @main() local_unnamed_addr #0 {
  tail call fastcc void @hanoi(i32 noundef 3, i8 noundef zeroext 97, i8 noundef zeroext 98, i8 noundef zeroext 99)
  %1 = tail call i32 @putchar(i32 noundef 10)
  %2 = tail call fastcc i32 @ackermann(i32 noundef 3, i32 noundef 3)
  br label %3

3:                                                ; preds = %5, %0
  %4 = phi i32 [ 7, %0 ], [ %6, %5 ]
  switch i32 %4, label %5 [
    i32 0, label %8
    i32 1, label %7
  ]

5:                                                ; preds = %3
  %6 = add nsw i32 %4, -2
  br label %3

7:                                                ; preds = %3
  br label %8

8:                                                ; preds = %3, %7
  %9 = phi i32 [ 0, %7 ], [ 1, %3 ]
  br label %10

10:                                               ; preds = %10, %8
  %11 = phi i32 [ %13, %10 ], [ 462, %8 ]
  %12 = phi i32 [ %11, %10 ], [ 1071, %8 ]
  %13 = urem i32 %12, %11
  %14 = icmp eq i32 %13, 0
  br i1 %14, label %15, label %10

15:                                               ; preds = %10
  tail call fastcc void @number(i32 noundef %2)
  %16 = tail call i32 @putchar(i32 noundef 32)
  tail call fastcc void @number(i32 noundef 1)
  %17 = tail call i32 @putchar(i32 noundef 32)
  tail call fastcc void @number(i32 noundef %9)
  %18 = tail call i32 @putchar(i32 noundef 32)
  tail call fastcc void @number(i32 noundef %11)
  %19 = tail call i32 @putchar(i32 noundef 10)
  ret i32 %2
}

; Function Attrs: nofree nounwind
define internal fastcc void @hanoi(i32 noundef %0, i8 noundef zeroext %1, i8 noundef zeroext %2, i8 noundef zeroext %3) unnamed_addr #0 {
  %5 = icmp eq i32 %0, 0
  br i1 %5, label %23, label %6

6:                                                ; preds = %4
  %7 = zext nneg i8 %2 to i32
  br label %8

8:                                                ; preds = %6, %18
  %9 = phi i8 [ %3, %6 ], [ %10, %18 ]
  %10 = phi i8 [ %1, %6 ], [ %9, %18 ]
  %11 = phi i32 [ %0, %6 ], [ %12, %18 ]
  %12 = add nsw i32 %11, -1
  tail call fastcc void @hanoi(i32 noundef %12, i8 noundef zeroext %10, i8 noundef zeroext %9, i8 noundef zeroext %2)
  %13 = load i32, ptr @moves, align 4, !tbaa !5
  %14 = add nsw i32 %13, 1
  store i32 %14, ptr @moves, align 4, !tbaa !5
  %15 = icmp eq i32 %13, 0
  br i1 %15, label %18, label %16

16:                                               ; preds = %8
  %17 = tail call i32 @putchar(i32 noundef 32)
  br label %18

18:                                               ; preds = %16, %8
  %19 = zext nneg i8 %10 to i32
  %20 = tail call i32 @putchar(i32 noundef %19)
  %21 = tail call i32 @putchar(i32 noundef %7)
  %22 = icmp eq i32 %12, 0
  br i1 %22, label %23, label %8

23:                                               ; preds = %18, %4
  ret void
}

; Function Attrs: nofree nounwind
declare noundef i32 @putchar(i32 noundef) local_unnamed_addr #0

; Function Attrs: nofree nosync nounwind memory(none)
define internal fastcc i32 @ackermann(i32 noundef %0, i32 noundef %1) unnamed_addr #1 {
  %3 = icmp eq i32 %0, 0
  br i1 %3, label %4, label %7

4:                                                ; preds = %15, %2
  %5 = phi i32 [ %1, %2 ], [ %16, %15 ]
  %6 = add i32 %5, 1
  ret i32 %6

7:                                                ; preds = %2, %15
  %8 = phi i32 [ %16, %15 ], [ %1, %2 ]
  %9 = phi i32 [ %10, %15 ], [ %0, %2 ]
  %10 = add nsw i32 %9, -1
  %11 = icmp eq i32 %8, 0
  br i1 %11, label %15, label %12

12:                                               ; preds = %7
  %13 = add i32 %8, -1
  %14 = tail call fastcc i32 @ackermann(i32 noundef %9, i32 noundef %13)
  br label %15

15:                                               ; preds = %7, %12
  %16 = phi i32 [ %14, %12 ], [ 1, %7 ]
  %17 = icmp eq i32 %10, 0
  br i1 %17, label %4, label %7
}

; Function Attrs: nofree nounwind
define internal fastcc void @number(i32 noundef %0) unnamed_addr #0 {
  %2 = icmp ugt i32 %0, 9
  br i1 %2, label %3, label %5

3:                                                ; preds = %1
  %4 = udiv i32 %0, 10
  tail call fastcc void @number(i32 noundef %4)
  br label %5

5:                                                ; preds = %3, %1
  %6 = urem i32 %0, 10
  %7 = or disjoint i32 %6, 48
  %8 = tail call i32 @putchar(i32 noundef %7)
  ret void
}

attributes #0 = { nofree nounwind "no-trapping-math"="true" "stack-protector-buffer-size"="8" "target-cpu"="generic" "target-features"="+armv7-a,+dsp,+soft-float,-aes,-bf16,-d32,-dotprod,-fp-armv8,-fp-armv8d16,-fp-armv8d16sp,-fp-armv8sp,-fp16,-fp16fml,-fp64,-fpregs,-fullfp16,-mve,-mve.fp,-neon,-sha2,-thumb-mode,-vfp2,-vfp2sp,-vfp3,-vfp3d16,-vfp3d16sp,-vfp3sp,-vfp4,-vfp4d16,-vfp4d16sp,-vfp4sp" "use-soft-float"="true" }
attributes #1 = { nofree nosync nounwind memory(none) "no-trapping-math"="true" "stack-protector-buffer-size"="8" "target-cpu"="generic" "target-features"="+armv7-a,+dsp,+soft-float,-aes,-bf16,-d32,-dotprod,-fp-armv8,-fp-armv8d16,-fp-armv8d16sp,-fp-armv8sp,-fp16,-fp16fml,-fp64,-fpregs,-fullfp16,-mve,-mve.fp,-neon,-sha2,-thumb-mode,-vfp2,-vfp2sp,-vfp3,-vfp3d16,-vfp3d16sp,-vfp3sp,-vfp4,-vfp4d16,-vfp4d16sp,-vfp4sp" "use-soft-float"="true" }

!llvm.module.flags = !{!0, !1, !2, !3}
!llvm.ident = !{!4}

!0 = !{i32 1, !"wchar_size", i32 4}
!1 = !{i32 1, !"min_enum_size", i32 4}
!2 = !{i32 8, !"PIC Level", i32 2}
!3 = !{i32 7, !"PIE Level", i32 2}
!4 = !{!"Debian clang version 19.1.7 (3~deb12u1)"}
!5 = !{!6, !6, i64 0}
!6 = !{!"int", !7, i64 0}
!7 = !{!"omnipotent char", !8, i64 0}
!8 = !{!"Simple C/C++ TBAA"}
