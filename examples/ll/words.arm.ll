; ModuleID = 'words.c'
source_filename = "words.c"
target datalayout = "e-m:e-p:32:32-Fi8-i64:64-v128:64:128-a:0:32-n32-S64"
target triple = "armv7-unknown-linux-gnueabi"

@now = internal unnamed_addr global [32 x i8] zeroinitializer, align 1
@longest = internal global [32 x i8] zeroinitializer, align 1

; Function Attrs: nofree nounwind
define dso_local range(i32 0, -2147483648) i32 @main() local_unnamed_addr #0 {
  %1 = tail call i32 @getchar()
  %2 = icmp sgt i32 %1, -1
  br i1 %2, label %3, label %66

3:                                                ; preds = %0, %43
  %4 = phi i32 [ %47, %43 ], [ %1, %0 ]
  %5 = phi i32 [ %13, %43 ], [ 0, %0 ]
  %6 = phi i32 [ %46, %43 ], [ 0, %0 ]
  %7 = phi i32 [ %45, %43 ], [ 0, %0 ]
  %8 = phi i32 [ %10, %43 ], [ 0, %0 ]
  %9 = phi i32 [ %44, %43 ], [ 0, %0 ]
  %10 = add i32 %8, 1
  %11 = icmp eq i32 %4, 10
  %12 = zext i1 %11 to i32
  %13 = add i32 %5, %12
  switch i32 %4, label %31 [
    i32 32, label %14
    i32 10, label %14
    i32 9, label %14
  ]

14:                                               ; preds = %3, %3, %3
  %15 = icmp sgt i32 %7, 0
  %16 = zext i1 %15 to i32
  %17 = add i32 %9, %16
  %18 = icmp sgt i32 %7, %6
  br i1 %18, label %19, label %43

19:                                               ; preds = %14
  br i1 %15, label %20, label %36

20:                                               ; preds = %19, %20
  %21 = phi i32 [ %29, %20 ], [ 0, %19 ]
  %22 = getelementptr inbounds [32 x i8], ptr @now, i32 0, i32 %21
  %23 = load i8, ptr %22, align 1, !tbaa !5
  %24 = add i8 %23, -97
  %25 = icmp ult i8 %24, 26
  %26 = add nsw i8 %23, -32
  %27 = select i1 %25, i8 %26, i8 %23
  %28 = getelementptr inbounds [32 x i8], ptr @longest, i32 0, i32 %21
  store i8 %27, ptr %28, align 1, !tbaa !5
  %29 = add nuw nsw i32 %21, 1
  %30 = icmp eq i32 %29, %7
  br i1 %30, label %36, label %20, !llvm.loop !8

31:                                               ; preds = %3
  %32 = icmp slt i32 %7, 31
  br i1 %32, label %33, label %43

33:                                               ; preds = %31
  %34 = trunc i32 %4 to i8
  %35 = add nsw i32 %7, 1
  br label %36

36:                                               ; preds = %20, %19, %33
  %37 = phi ptr [ @now, %33 ], [ @longest, %19 ], [ @longest, %20 ]
  %38 = phi i8 [ %34, %33 ], [ 0, %19 ], [ 0, %20 ]
  %39 = phi i32 [ %9, %33 ], [ %17, %19 ], [ %17, %20 ]
  %40 = phi i32 [ %35, %33 ], [ 0, %19 ], [ 0, %20 ]
  %41 = phi i32 [ %6, %33 ], [ %7, %19 ], [ %7, %20 ]
  %42 = getelementptr inbounds [32 x i8], ptr %37, i32 0, i32 %7
  store i8 %38, ptr %42, align 1, !tbaa !5
  br label %43

43:                                               ; preds = %36, %14, %31
  %44 = phi i32 [ %9, %31 ], [ %17, %14 ], [ %39, %36 ]
  %45 = phi i32 [ %7, %31 ], [ 0, %14 ], [ %40, %36 ]
  %46 = phi i32 [ %6, %31 ], [ %6, %14 ], [ %41, %36 ]
  %47 = tail call i32 @getchar()
  %48 = icmp sgt i32 %47, -1
  br i1 %48, label %3, label %49, !llvm.loop !10

49:                                               ; preds = %43
  %50 = icmp sgt i32 %45, 0
  %51 = icmp sgt i32 %45, %46
  br i1 %51, label %52, label %66

52:                                               ; preds = %49
  br i1 %50, label %55, label %53

53:                                               ; preds = %55, %52
  %54 = getelementptr inbounds [32 x i8], ptr @longest, i32 0, i32 %45
  store i8 0, ptr %54, align 1, !tbaa !5
  br label %66

55:                                               ; preds = %52, %55
  %56 = phi i32 [ %64, %55 ], [ 0, %52 ]
  %57 = getelementptr inbounds [32 x i8], ptr @now, i32 0, i32 %56
  %58 = load i8, ptr %57, align 1, !tbaa !5
  %59 = add i8 %58, -97
  %60 = icmp ult i8 %59, 26
  %61 = add nsw i8 %58, -32
  %62 = select i1 %60, i8 %61, i8 %58
  %63 = getelementptr inbounds [32 x i8], ptr @longest, i32 0, i32 %56
  store i8 %62, ptr %63, align 1, !tbaa !5
  %64 = add nuw nsw i32 %56, 1
  %65 = icmp eq i32 %64, %45
  br i1 %65, label %53, label %55, !llvm.loop !8

66:                                               ; preds = %0, %49, %53
  %67 = phi i1 [ %50, %53 ], [ %50, %49 ], [ false, %0 ]
  %68 = phi i32 [ %13, %53 ], [ %13, %49 ], [ 0, %0 ]
  %69 = phi i32 [ %10, %53 ], [ %10, %49 ], [ 0, %0 ]
  %70 = phi i32 [ %44, %53 ], [ %44, %49 ], [ 0, %0 ]
  %71 = phi i32 [ %45, %53 ], [ %46, %49 ], [ 0, %0 ]
  %72 = zext i1 %67 to i32
  %73 = add i32 %70, %72
  tail call fastcc void @number(i32 noundef %68)
  %74 = tail call i32 @putchar(i32 noundef 32)
  tail call fastcc void @number(i32 noundef %73)
  %75 = tail call i32 @putchar(i32 noundef 32)
  tail call fastcc void @number(i32 noundef %69)
  %76 = tail call i32 @putchar(i32 noundef 10)
  %77 = tail call i32 @puts(ptr noundef nonnull dereferenceable(1) @longest)
  ret i32 %71
}

; Function Attrs: nofree nounwind
declare noundef i32 @getchar() local_unnamed_addr #0

; Function Attrs: nofree nounwind
define internal fastcc void @number(i32 noundef %0) unnamed_addr #0 {
  %2 = icmp ugt i32 %0, 9
  br i1 %2, label %3, label %5

3:                                                ; preds = %1
  %4 = udiv i32 %0, 10
  tail call fastcc void @number(i32 noundef %4)
  br label %5

5:                                                ; preds = %3, %1
  %6 = urem i32 %0, 10
  %7 = or disjoint i32 %6, 48
  %8 = tail call i32 @putchar(i32 noundef %7)
  ret void
}

; Function Attrs: nofree nounwind
declare noundef i32 @putchar(i32 noundef) local_unnamed_addr #0

; Function Attrs: nofree nounwind
declare noundef i32 @puts(ptr nocapture noundef readonly) local_unnamed_addr #0

attributes #0 = { nofree nounwind "no-trapping-math"="true" "stack-protector-buffer-size"="8" "target-cpu"="generic" "target-features"="+armv7-a,+dsp,+soft-float,-aes,-bf16,-d32,-dotprod,-fp-armv8,-fp-armv8d16,-fp-armv8d16sp,-fp-armv8sp,-fp16,-fp16fml,-fp64,-fpregs,-fullfp16,-mve,-mve.fp,-neon,-sha2,-thumb-mode,-vfp2,-vfp2sp,-vfp3,-vfp3d16,-vfp3d16sp,-vfp3sp,-vfp4,-vfp4d16,-vfp4d16sp,-vfp4sp" "use-soft-float"="true" }

!llvm.module.flags = !{!0, !1, !2, !3}
!llvm.ident = !{!4}

!0 = !{i32 1, !"wchar_size", i32 4}
!1 = !{i32 1, !"min_enum_size", i32 4}
!2 = !{i32 8, !"PIC Level", i32 2}
!3 = !{i32 7, !"PIE Level", i32 2}
!4 = !{!"Debian clang version 19.1.7 (3~deb12u1)"}
!5 = !{!6, !6, i64 0}
!6 = !{!"omnipotent char", !7, i64 0}
!7 = !{!"Simple C/C++ TBAA"}
!8 = distinct !{!8, !9}
!9 = !{!"llvm.loop.mustprogress"}
!10 = distinct !{!10, !9}
