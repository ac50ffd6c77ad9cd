; ModuleID = 'sieve.c'
source_filename = "sieve.c"
target datalayout = "e-m:e-p:32:32-Fi8-i64:64-v128:64:128-a:0:32-n32-S64"
target triple = "armv7-unknown-linux-gnueabi"

@struck = internal unnamed_addr global [100 x i8] zeroinitializer, align 1

; Function Attrs: nofree nounwind
define dso_local i32 @main() local_unnamed_addr #0 {
  br label %1

1:                                                ; preds = %0, %1
  %2 = phi i32 [ 0, %0 ], [ %4, %1 ]
  %3 = getelementptr inbounds [100 x i8], ptr @struck, i32 0, i32 %2
  store i8 1, ptr %3, align 1, !tbaa !5
  %4 = add nuw nsw i32 %2, 2
  %5 = icmp ult i32 %2, 98
  br i1 %5, label %1, label %6, !llvm.loop !8

6:                                                ; preds = %1, %25
  %7 = phi i32 [ %26, %25 ], [ 3, %1 ]
  %8 = getelementptr inbounds [100 x i8], ptr @struck, i32 0, i32 %7
  %9 = load i8, ptr %8, align 1, !tbaa !5
  %10 = icmp eq i8 %9, 0
  br i1 %10, label %11, label %25

11:                                               ; preds = %6, %21
  %12 = phi i32 [ %23, %21 ], [ 1, %6 ]
  %13 = phi i32 [ %22, %21 ], [ 0, %6 ]
  %14 = getelementptr inbounds [100 x i8], ptr @struck, i32 0, i32 %12
  %15 = load i8, ptr %14, align 1, !tbaa !5
  %16 = icmp eq i8 %15, 0
  br i1 %16, label %17, label %21

17:                                               ; preds = %11
  %18 = add nsw i32 %13, 1
  %19 = icmp eq i32 %18, %7
  br i1 %19, label %20, label %21

20:                                               ; preds = %17
  store i8 1, ptr %14, align 1, !tbaa !5
  br label %21

21:                                               ; preds = %20, %17, %11
  %22 = phi i32 [ %13, %11 ], [ 0, %20 ], [ %18, %17 ]
  %23 = add nuw nsw i32 %12, 1
  %24 = icmp eq i32 %23, 100
  br i1 %24, label %25, label %11, !llvm.loop !10

25:                                               ; preds = %21, %6
  %26 = add nuw nsw i32 %7, 1
  %27 = icmp eq i32 %26, 100
  br i1 %27, label %30, label %6, !llvm.loop !11

28:                                               ; preds = %42
  %29 = tail call i32 @putchar(i32 noundef 10)
  ret i32 %43

30:                                               ; preds = %25, %42
  %31 = phi i32 [ %44, %42 ], [ 1, %25 ]
  %32 = phi i32 [ %43, %42 ], [ 0, %25 ]
  %33 = getelementptr inbounds [100 x i8], ptr @struck, i32 0, i32 %31
  %34 = load i8, ptr %33, align 1, !tbaa !5
  %35 = icmp eq i8 %34, 0
  br i1 %35, label %36, label %42

36:                                               ; preds = %30
  %37 = add nsw i32 %32, 1
  %38 = icmp eq i32 %32, 0
  br i1 %38, label %41, label %39

39:                                               ; preds = %36
  %40 = tail call i32 @putchar(i32 noundef 32)
  br label %41

41:                                               ; preds = %39, %36
  tail call fastcc void @number(i32 noundef %31)
  br label %42

42:                                               ; preds = %30, %41
  %43 = phi i32 [ %32, %30 ], [ %37, %41 ]
  %44 = add nuw nsw i32 %31, 1
  %45 = icmp eq i32 %44, 100
  br i1 %45, label %28, label %30, !llvm.loop !12
}

; Function Attrs: nofree nounwind
declare noundef i32 @putchar(i32 noundef) local_unnamed_addr #0

; Function Attrs: nofree nounwind
define internal fastcc void @number(i32 noundef %0) unnamed_addr #0 {
  %2 = icmp ugt i32 %0, 9
  br i1 %2, label %3, label %5

3:                                                ; preds = %1
  %4 = udiv i32 %0, 10
  tail call fastcc void @number(i32 noundef %4)
  br label %5

5:                                                ; preds = %3, %1
  %6 = urem i32 %0, 10
  %7 = or disjoint i32 %6, 48
  %8 = tail call i32 @putchar(i32 noundef %7)
  ret void
}

attributes #0 = { nofree nounwind "no-trapping-math"="true" "stack-protector-buffer-size"="8" "target-cpu"="generic" "target-features"="+armv7-a,+dsp,+soft-float,-aes,-bf16,-d32,-dotprod,-fp-armv8,-fp-armv8d16,-fp-armv8d16sp,-fp-armv8sp,-fp16,-fp16fml,-fp64,-fpregs,-fullfp16,-mve,-mve.fp,-neon,-sha2,-thumb-mode,-vfp2,-vfp2sp,-vfp3,-vfp3d16,-vfp3d16sp,-vfp3sp,-vfp4,-vfp4d16,-vfp4d16sp,-vfp4sp" "use-soft-float"="true" }

!llvm.module.flags = !{!0, !1, !2, !3}
!llvm.ident = !{!4}

!0 = !{i32 1, !"wchar_size", i32 4}
!1 = !{i32 1, !"min_enum_size", i32 4}
!2 = !{i32 8, !"PIC Level", i32 2}
!3 = !{i32 7, !"PIE Level", i32 2}
!4 = !{!"Debian clang version 19.1.7 (3~deb12u1)"}
!5 = !{!6, !6, i64 0}
!6 = !{!"omnipotent char", !7, i64 0}
!7 = !{!"Simple C/C++ TBAA"}
!8 = distinct !{!8, !9}
!9 = !{!"llvm.loop.mustprogress"}
!10 = distinct !{!10, !9}
!11 = distinct !{!11, !9}
!12 = distinct !{!12, !9}
