; ModuleID = 'calculator.c'
source_filename = "calculator.c"
target datalayout = "e-m:e-p:32:32-Fi8-i64:64-v128:64:128-a:0:32-n32-S64"
target triple = "armv7-unknown-linux-gnueabi"

%struct.reader = type { i32, i8 }

@.str = private unnamed_addr constant [6 x i8] c"error\00", align 1

; Function Attrs: nofree nounwind
define dso_local i32 @main() local_unnamed_addr #0 {
  %1 = alloca %struct.reader, align 4
  call void @llvm.lifetime.start.p0(i64 8, ptr nonnull %1) #2
  %2 = tail call i32 @getchar()
  store i32 %2, ptr %1, align 4, !tbaa !5
  %3 = icmp sgt i32 %2, -1
  br i1 %3, label %4, label %22

4:                                                ; preds = %0
  %5 = getelementptr inbounds i8, ptr %1, i32 4
  br label %6

6:                                                ; preds = %4, %18
  %7 = phi i32 [ 0, %4 ], [ %20, %18 ]
  store i8 0, ptr %5, align 4, !tbaa !11
  %8 = call fastcc i32 @sum(ptr noundef nonnull %1)
  %9 = load i8, ptr %5, align 4, !tbaa !11, !range !12, !noundef !13
  %10 = trunc nuw i8 %9 to i1
  %11 = load i32, ptr %1, align 4
  %12 = icmp ne i32 %11, 10
  %13 = select i1 %10, i1 true, i1 %12
  br i1 %13, label %14, label %16

14:                                               ; preds = %6
  %15 = tail call i32 @puts(ptr noundef nonnull dereferenceable(1) @.str)
  br label %18

16:                                               ; preds = %6
  tail call fastcc void @number(i32 noundef %8)
  %17 = tail call i32 @putchar(i32 noundef 10)
  br label %18

18:                                               ; preds = %16, %14
  %19 = tail call i32 @getchar()
  store i32 %19, ptr %1, align 4, !tbaa !5
  %20 = add nuw nsw i32 %7, 1
  %21 = icmp sgt i32 %19, -1
  br i1 %21, label %6, label %22, !llvm.loop !14

22:                                               ; preds = %18, %0
  %23 = phi i32 [ 0, %0 ], [ %20, %18 ]
  call void @llvm.lifetime.end.p0(i64 8, ptr nonnull %1) #2
  ret i32 %23
}

; Function Attrs: mustprogress nocallback nofree nosync nounwind willreturn memory(argmem: readwrite)
declare void @llvm.lifetime.start.p0(i64 immarg, ptr nocapture) #1

; Function Attrs: nofree nounwind
declare noundef i32 @getchar() local_unnamed_addr #0

; Function Attrs: nofree nounwind
define internal fastcc i32 @sum(ptr nocapture noundef %0) unnamed_addr #0 {
  %2 = tail call fastcc i32 @factor(ptr noundef %0)
  %3 = getelementptr inbounds i8, ptr %0, i32 4
  br label %4

4:                                                ; preds = %17, %1
  %5 = phi i32 [ %2, %1 ], [ %18, %17 ]
  br label %6

6:                                                ; preds = %4, %21
  %7 = load i32, ptr %0, align 4, !tbaa !5
  switch i32 %7, label %8 [
    i32 42, label %11
    i32 47, label %11
    i32 37, label %11
  ]

8:                                                ; preds = %6
  %9 = getelementptr inbounds i8, ptr %0, i32 4
  %10 = getelementptr inbounds i8, ptr %0, i32 4
  br label %28

11:                                               ; preds = %6, %6, %6
  %12 = tail call i32 @getchar()
  store i32 %12, ptr %0, align 4, !tbaa !5
  %13 = tail call fastcc i32 @factor(ptr noundef nonnull %0)
  %14 = icmp eq i32 %7, 42
  br i1 %14, label %15, label %19

15:                                               ; preds = %11
  %16 = mul nsw i32 %13, %5
  br label %17

17:                                               ; preds = %15, %24, %26
  %18 = phi i32 [ %27, %26 ], [ %25, %24 ], [ %16, %15 ]
  br label %4, !llvm.loop !17

19:                                               ; preds = %11
  %20 = icmp eq i32 %13, 0
  br i1 %20, label %21, label %22

21:                                               ; preds = %19
  store i8 1, ptr %3, align 4, !tbaa !11
  br label %6, !llvm.loop !17

22:                                               ; preds = %19
  %23 = icmp eq i32 %7, 47
  br i1 %23, label %24, label %26

24:                                               ; preds = %22
  %25 = sdiv i32 %5, %13
  br label %17

26:                                               ; preds = %22
  %27 = srem i32 %5, %13
  br label %17

28:                                               ; preds = %8, %79
  %29 = phi i32 [ %81, %79 ], [ %5, %8 ]
  %30 = load i32, ptr %0, align 4, !tbaa !5
  switch i32 %30, label %82 [
    i32 43, label %31
    i32 45, label %31
  ]

31:                                               ; preds = %28, %28
  %32 = tail call i32 @getchar()
  store i32 %32, ptr %0, align 4, !tbaa !5
  %33 = icmp eq i32 %30, 43
  %34 = tail call fastcc i32 @factor(ptr noundef nonnull %0)
  br i1 %33, label %35, label %66

35:                                               ; preds = %31, %45
  %36 = phi i32 [ %46, %45 ], [ %34, %31 ]
  br label %37

37:                                               ; preds = %35, %49
  %38 = load i32, ptr %0, align 4, !tbaa !5
  switch i32 %38, label %79 [
    i32 42, label %39
    i32 47, label %39
    i32 37, label %39
  ]

39:                                               ; preds = %37, %37, %37
  %40 = tail call i32 @getchar()
  store i32 %40, ptr %0, align 4, !tbaa !5
  %41 = tail call fastcc i32 @factor(ptr noundef nonnull %0)
  %42 = icmp eq i32 %38, 42
  br i1 %42, label %43, label %47

43:                                               ; preds = %39
  %44 = mul nsw i32 %41, %36
  br label %45

45:                                               ; preds = %43, %52, %54
  %46 = phi i32 [ %55, %54 ], [ %53, %52 ], [ %44, %43 ]
  br label %35, !llvm.loop !17

47:                                               ; preds = %39
  %48 = icmp eq i32 %41, 0
  br i1 %48, label %49, label %50

49:                                               ; preds = %47
  store i8 1, ptr %10, align 4, !tbaa !11
  br label %37, !llvm.loop !17

50:                                               ; preds = %47
  %51 = icmp eq i32 %38, 47
  br i1 %51, label %52, label %54

52:                                               ; preds = %50
  %53 = sdiv i32 %36, %41
  br label %45

54:                                               ; preds = %50
  %55 = srem i32 %36, %41
  br label %45

56:                                               ; preds = %66, %70
  %57 = load i32, ptr %0, align 4, !tbaa !5
  switch i32 %57, label %77 [
    i32 42, label %58
    i32 47, label %58
    i32 37, label %58
  ]

58:                                               ; preds = %56, %56, %56
  %59 = tail call i32 @getchar()
  store i32 %59, ptr %0, align 4, !tbaa !5
  %60 = tail call fastcc i32 @factor(ptr noundef nonnull %0)
  %61 = icmp eq i32 %57, 42
  br i1 %61, label %62, label %68

62:                                               ; preds = %58
  %63 = mul nsw i32 %60, %67
  br label %64

64:                                               ; preds = %62, %73, %75
  %65 = phi i32 [ %76, %75 ], [ %74, %73 ], [ %63, %62 ]
  br label %66, !llvm.loop !17

66:                                               ; preds = %31, %64
  %67 = phi i32 [ %65, %64 ], [ %34, %31 ]
  br label %56

68:                                               ; preds = %58
  %69 = icmp eq i32 %60, 0
  br i1 %69, label %70, label %71

70:                                               ; preds = %68
  store i8 1, ptr %9, align 4, !tbaa !11
  br label %56, !llvm.loop !17

71:                                               ; preds = %68
  %72 = icmp eq i32 %57, 47
  br i1 %72, label %73, label %75

73:                                               ; preds = %71
  %74 = sdiv i32 %67, %60
  br label %64

75:                                               ; preds = %71
  %76 = srem i32 %67, %60
  br label %64

77:                                               ; preds = %56
  %78 = sub nsw i32 0, %67
  br label %79

79:                                               ; preds = %37, %77
  %80 = phi i32 [ %78, %77 ], [ %36, %37 ]
  %81 = add nsw i32 %80, %29
  br label %28, !llvm.loop !18

82:                                               ; preds = %28
  ret i32 %29
}

; Function Attrs: nofree nounwind
declare noundef i32 @puts(ptr nocapture noundef readonly) local_unnamed_addr #0

; Function Attrs: nofree nounwind
define internal fastcc void @number(i32 noundef %0) unnamed_addr #0 {
  %2 = icmp slt i32 %0, 0
  br i1 %2, label %3, label %5

3:                                                ; preds = %1
  %4 = tail call i32 @putchar(i32 noundef 45)
  br label %5

5:                                                ; preds = %3, %1
  %6 = add i32 %0, -10
  %7 = icmp ult i32 %6, -19
  br i1 %7, label %8, label %12

8:                                                ; preds = %5
  %9 = sdiv i32 %0, -10
  %10 = udiv i32 %0, 10
  %11 = select i1 %2, i32 %9, i32 %10
  tail call fastcc void @number(i32 noundef %11)
  br label %12

12:                                               ; preds = %5, %8
  %13 = srem i32 %0, 10
  %14 = sub nsw i32 0, %13
  %15 = urem i32 %0, 10
  %16 = select i1 %2, i32 %14, i32 %15
  %17 = add nuw nsw i32 %16, 48
  %18 = tail call i32 @putchar(i32 noundef %17)
  ret void
}

; Function Attrs: nofree nounwind
declare noundef i32 @putchar(i32 noundef) local_unnamed_addr #0

; Function Attrs: mustprogress nocallback nofree nosync nounwind willreturn memory(argmem: readwrite)
declare void @llvm.lifetime.end.p0(i64 immarg, ptr nocapture) #1

; Function Attrs: nofree nounwind
define internal fastcc i32 @factor(ptr nocapture noundef %0) unnamed_addr #0 {
  %2 = load i32, ptr %0, align 4, !tbaa !5
  switch i32 %2, label %19 [
    i32 45, label %5
    i32 40, label %9
  ]

3:                                                ; preds = %9, %19, %29, %5
  %4 = phi i32 [ %8, %5 ], [ %11, %9 ], [ 0, %19 ], [ %34, %29 ]
  ret i32 %4

5:                                                ; preds = %1
  %6 = tail call i32 @getchar()
  store i32 %6, ptr %0, align 4, !tbaa !5
  %7 = tail call fastcc i32 @factor(ptr noundef nonnull %0)
  %8 = sub nsw i32 0, %7
  br label %3

9:                                                ; preds = %1
  %10 = tail call i32 @getchar()
  store i32 %10, ptr %0, align 4, !tbaa !5
  %11 = tail call fastcc i32 @sum(ptr noundef nonnull %0)
  %12 = load i32, ptr %0, align 4, !tbaa !5
  %13 = icmp ne i32 %12, 41
  %14 = getelementptr inbounds i8, ptr %0, i32 4
  %15 = load i8, ptr %14, align 4, !tbaa !11, !range !12, !noundef !13
  %16 = zext i1 %13 to i8
  %17 = or i8 %15, %16
  store i8 %17, ptr %14, align 4, !tbaa !11
  %18 = tail call i32 @getchar()
  store i32 %18, ptr %0, align 4, !tbaa !5
  br label %3

19:                                               ; preds = %1
  %20 = add i32 %2, -58
  %21 = icmp ult i32 %20, -10
  %22 = zext i1 %21 to i8
  %23 = getelementptr inbounds i8, ptr %0, i32 4
  %24 = load i8, ptr %23, align 4, !tbaa !11, !range !12, !noundef !13
  %25 = or i8 %24, %22
  store i8 %25, ptr %23, align 4, !tbaa !11
  %26 = load i32, ptr %0, align 4, !tbaa !5
  %27 = add i32 %26, -48
  %28 = icmp ult i32 %27, 10
  br i1 %28, label %29, label %3

29:                                               ; preds = %19, %29
  %30 = phi i32 [ %35, %29 ], [ %26, %19 ]
  %31 = phi i32 [ %34, %29 ], [ 0, %19 ]
  %32 = mul nsw i32 %31, 10
  %33 = add i32 %30, -48
  %34 = add i32 %33, %32
  %35 = tail call i32 @getchar()
  store i32 %35, ptr %0, align 4, !tbaa !5
  %36 = add i32 %35, -48
  %37 = icmp ult i32 %36, 10
  br i1 %37, label %29, label %3, !llvm.loop !19
}

attributes #0 = { nofree nounwind "no-trapping-math"="true" "stack-protector-buffer-size"="8" "target-cpu"="generic" "target-features"="+armv7-a,+dsp,+soft-float,-aes,-bf16,-d32,-dotprod,-fp-armv8,-fp-armv8d16,-fp-armv8d16sp,-fp-armv8sp,-fp16,-fp16fml,-fp64,-fpregs,-fullfp16,-mve,-mve.fp,-neon,-sha2,-thumb-mode,-vfp2,-vfp2sp,-vfp3,-vfp3d16,-vfp3d16sp,-vfp3sp,-vfp4,-vfp4d16,-vfp4d16sp,-vfp4sp" "use-soft-float"="true" }
attributes #1 = { mustprogress nocallback nofree nosync nounwind willreturn memory(argmem: readwrite) }
attributes #2 = { nounwind }

!llvm.module.flags = !{!0, !1, !2, !3}
!llvm.ident = !{!4}

!0 = !{i32 1, !"wchar_size", i32 4}
!1 = !{i32 1, !"min_enum_size", i32 4}
!2 = !{i32 8, !"PIC Level", i32 2}
!3 = !{i32 7, !"PIE Level", i32 2}
!4 = !{!"Debian clang version 19.1.7 (3~deb12u1)"}
!5 = !{!6, !7, i64 0}
!6 = !{!"reader", !7, i64 0, !10, i64 4}
!7 = !{!"int", !8, i64 0}
!8 = !{!"omnipotent char", !9, i64 0}
!9 = !{!"Simple C/C++ TBAA"}
!10 = !{!"_Bool", !8, i64 0}
!11 = !{!6, !10, i64 4}
!12 = !{i8 0, i8 2}
!13 = !{}
!14 = distinct !{!14, !15, !16}
!15 = !{!"llvm.loop.mustprogress"}
!16 = !{!"llvm.loop.unroll.disable"}
!17 = distinct !{!17, !15, !16}
!18 = distinct !{!18, !15, !16}
!19 = distinct !{!19, !15, !16}
