; ModuleID = 'maze.c'
source_filename = "maze.c"
target datalayout = "e-m:e-p:32:32-Fi8-i64:64-v128:64:128-a:0:32-n32-S64"
target triple = "armv7-unknown-linux-gnueabi"

%struct.place = type { i8, i8 }

@maze = internal global [7 x [10 x i8]] [[10 x i8] c"#########\00", [10 x i8] c"# #   # #\00", [10 x i8] c"# # # # #\00", [10 x i8] c"#   #   #\00", [10 x i8] c"### ### #\00", [10 x i8] c"#       #\00", [10 x i8] c"#########\00"], align 1
@distance = internal unnamed_addr global [7 x [9 x i8]] zeroinitializer, align 1
@ring = internal unnamed_addr global [16 x %struct.place] zeroinitializer, align 2

; Function Attrs: nofree nounwind
define dso_local range(i32 -1, 255) i32 @main() local_unnamed_addr #0 {
  %1 = alloca %struct.place, align 2
  call void @llvm.lifetime.start.p0(i64 2, ptr nonnull %1) #3
  store i16 1797, ptr %1, align 2
  store i16 257, ptr @ring, align 2
  store i8 1, ptr getelementptr inbounds (i8, ptr @distance, i32 10), align 1, !tbaa !5
  br label %2

2:                                                ; preds = %83, %0
  %3 = phi i32 [ 0, %0 ], [ %85, %83 ]
  %4 = phi i32 [ 1, %0 ], [ %84, %83 ]
  %5 = and i32 %3, 15
  %6 = getelementptr inbounds [16 x %struct.place], ptr @ring, i32 0, i32 %5
  %7 = load i8, ptr %6, align 2, !tbaa !5
  %8 = getelementptr inbounds i8, ptr %6, i32 1
  %9 = load i8, ptr %8, align 1, !tbaa !5
  %10 = sext i8 %7 to i32
  %11 = sext i8 %9 to i32
  %12 = getelementptr inbounds [7 x [9 x i8]], ptr @distance, i32 0, i32 %10, i32 %11
  %13 = add i8 %9, 1
  %14 = sext i8 %13 to i32
  %15 = getelementptr inbounds [7 x [10 x i8]], ptr @maze, i32 0, i32 %10, i32 %14
  %16 = load i8, ptr %15, align 1, !tbaa !5
  %17 = icmp eq i8 %16, 35
  br i1 %17, label %29, label %18

18:                                               ; preds = %2
  %19 = getelementptr inbounds [7 x [9 x i8]], ptr @distance, i32 0, i32 %10, i32 %14
  %20 = load i8, ptr %19, align 1, !tbaa !5
  %21 = icmp eq i8 %20, 0
  br i1 %21, label %22, label %29

22:                                               ; preds = %18
  %23 = load i8, ptr %12, align 1, !tbaa !5
  %24 = add i8 %23, 1
  store i8 %24, ptr %19, align 1, !tbaa !5
  %25 = add i32 %4, 1
  %26 = and i32 %4, 15
  %27 = getelementptr inbounds [16 x %struct.place], ptr @ring, i32 0, i32 %26
  store i8 %7, ptr %27, align 2, !tbaa !5
  %28 = getelementptr inbounds i8, ptr %27, i32 1
  store i8 %13, ptr %28, align 1, !tbaa !5
  br label %29

29:                                               ; preds = %22, %18, %2
  %30 = phi i32 [ %25, %22 ], [ %4, %18 ], [ %4, %2 ]
  %31 = add i8 %7, 1
  %32 = sext i8 %31 to i32
  %33 = getelementptr inbounds [7 x [10 x i8]], ptr @maze, i32 0, i32 %32, i32 %11
  %34 = load i8, ptr %33, align 1, !tbaa !5
  %35 = icmp eq i8 %34, 35
  br i1 %35, label %47, label %36

36:                                               ; preds = %29
  %37 = getelementptr inbounds [7 x [9 x i8]], ptr @distance, i32 0, i32 %32, i32 %11
  %38 = load i8, ptr %37, align 1, !tbaa !5
  %39 = icmp eq i8 %38, 0
  br i1 %39, label %40, label %47

40:                                               ; preds = %36
  %41 = load i8, ptr %12, align 1, !tbaa !5
  %42 = add i8 %41, 1
  store i8 %42, ptr %37, align 1, !tbaa !5
  %43 = add i32 %30, 1
  %44 = and i32 %30, 15
  %45 = getelementptr inbounds [16 x %struct.place], ptr @ring, i32 0, i32 %44
  store i8 %31, ptr %45, align 2, !tbaa !5
  %46 = getelementptr inbounds i8, ptr %45, i32 1
  store i8 %9, ptr %46, align 1, !tbaa !5
  br label %47

47:                                               ; preds = %40, %36, %29
  %48 = phi i32 [ %43, %40 ], [ %30, %36 ], [ %30, %29 ]
  %49 = add i8 %9, -1
  %50 = sext i8 %49 to i32
  %51 = getelementptr inbounds [7 x [10 x i8]], ptr @maze, i32 0, i32 %10, i32 %50
  %52 = load i8, ptr %51, align 1, !tbaa !5
  %53 = icmp eq i8 %52, 35
  br i1 %53, label %65, label %54

54:                                               ; preds = %47
  %55 = getelementptr inbounds [7 x [9 x i8]], ptr @distance, i32 0, i32 %10, i32 %50
  %56 = load i8, ptr %55, align 1, !tbaa !5
  %57 = icmp eq i8 %56, 0
  br i1 %57, label %58, label %65

58:                                               ; preds = %54
  %59 = load i8, ptr %12, align 1, !tbaa !5
  %60 = add i8 %59, 1
  store i8 %60, ptr %55, align 1, !tbaa !5
  %61 = add i32 %48, 1
  %62 = and i32 %48, 15
  %63 = getelementptr inbounds [16 x %struct.place], ptr @ring, i32 0, i32 %62
  store i8 %7, ptr %63, align 2, !tbaa !5
  %64 = getelementptr inbounds i8, ptr %63, i32 1
  store i8 %49, ptr %64, align 1, !tbaa !5
  br label %65

65:                                               ; preds = %58, %54, %47
  %66 = phi i32 [ %61, %58 ], [ %48, %54 ], [ %48, %47 ]
  %67 = add i8 %7, -1
  %68 = sext i8 %67 to i32
  %69 = getelementptr inbounds [7 x [10 x i8]], ptr @maze, i32 0, i32 %68, i32 %11
  %70 = load i8, ptr %69, align 1, !tbaa !5
  %71 = icmp eq i8 %70, 35
  br i1 %71, label %83, label %72

72:                                               ; preds = %65
  %73 = getelementptr inbounds [7 x [9 x i8]], ptr @distance, i32 0, i32 %68, i32 %11
  %74 = load i8, ptr %73, align 1, !tbaa !5
  %75 = icmp eq i8 %74, 0
  br i1 %75, label %76, label %83

76:                                               ; preds = %72
  %77 = load i8, ptr %12, align 1, !tbaa !5
  %78 = add i8 %77, 1
  store i8 %78, ptr %73, align 1, !tbaa !5
  %79 = add i32 %66, 1
  %80 = and i32 %66, 15
  %81 = getelementptr inbounds [16 x %struct.place], ptr @ring, i32 0, i32 %80
  store i8 %67, ptr %81, align 2, !tbaa !5
  %82 = getelementptr inbounds i8, ptr %81, i32 1
  store i8 %9, ptr %82, align 1, !tbaa !5
  br label %83

83:                                               ; preds = %76, %72, %65
  %84 = phi i32 [ %79, %76 ], [ %66, %72 ], [ %66, %65 ]
  %85 = add i32 %3, 1
  %86 = icmp eq i32 %85, %84
  br i1 %86, label %87, label %2, !llvm.loop !8

87:                                               ; preds = %83
  call fastcc void @draw(ptr noundef nonnull %1)
  %88 = tail call i32 @puts(ptr noundef nonnull dereferenceable(1) @maze)
  %89 = tail call i32 @puts(ptr noundef nonnull dereferenceable(1) getelementptr inbounds (i8, ptr @maze, i32 10))
  %90 = tail call i32 @puts(ptr noundef nonnull dereferenceable(1) getelementptr inbounds (i8, ptr @maze, i32 20))
  %91 = tail call i32 @puts(ptr noundef nonnull dereferenceable(1) getelementptr inbounds (i8, ptr @maze, i32 30))
  %92 = tail call i32 @puts(ptr noundef nonnull dereferenceable(1) getelementptr inbounds (i8, ptr @maze, i32 40))
  %93 = tail call i32 @puts(ptr noundef nonnull dereferenceable(1) getelementptr inbounds (i8, ptr @maze, i32 50))
  %94 = tail call i32 @puts(ptr noundef nonnull dereferenceable(1) getelementptr inbounds (i8, ptr @maze, i32 60))
  %95 = load i8, ptr getelementptr inbounds (i8, ptr @distance, i32 52), align 1, !tbaa !5
  %96 = zext i8 %95 to i32
  %97 = add nsw i32 %96, -1
  %98 = icmp ugt i8 %95, 10
  br i1 %98, label %99, label %103

99:                                               ; preds = %87
  %100 = udiv i32 %97, 10
  %101 = add nuw nsw i32 %100, 48
  %102 = tail call i32 @putchar(i32 noundef %101)
  br label %103

103:                                              ; preds = %99, %87
  %104 = trunc nsw i32 %97 to i16
  %105 = srem i16 %104, 10
  %106 = add nsw i16 %105, 48
  %107 = zext nneg i16 %106 to i32
  %108 = tail call i32 @putchar(i32 noundef %107)
  %109 = tail call i32 @putchar(i32 noundef 10)
  call void @llvm.lifetime.end.p0(i64 2, ptr nonnull %1) #3
  ret i32 %97
}

; Function Attrs: mustprogress nocallback nofree nosync nounwind willreturn memory(argmem: readwrite)
declare void @llvm.lifetime.start.p0(i64 immarg, ptr nocapture) #1

; Function Attrs: nofree nosync nounwind memory(readwrite, argmem: read, inaccessiblemem: none)
define internal fastcc void @draw(ptr nocapture noundef readonly %0) unnamed_addr #2 {
  %2 = alloca %struct.place, align 1
  %3 = load i8, ptr %0, align 1, !tbaa !10
  %4 = sext i8 %3 to i32
  %5 = getelementptr inbounds i8, ptr %0, i32 1
  %6 = load i8, ptr %5, align 1, !tbaa !12
  %7 = sext i8 %6 to i32
  %8 = getelementptr inbounds [7 x [10 x i8]], ptr @maze, i32 0, i32 %4, i32 %7
  store i8 42, ptr %8, align 1, !tbaa !5
  %9 = load i8, ptr %0, align 1, !tbaa !10
  %10 = getelementptr inbounds i8, ptr %2, i32 1
  %11 = load i8, ptr %5, align 1, !tbaa !12
  %12 = sext i8 %9 to i32
  %13 = sext i8 %11 to i32
  %14 = getelementptr inbounds [7 x [9 x i8]], ptr @distance, i32 0, i32 %12, i32 %13
  %15 = load i8, ptr %14, align 1, !tbaa !5
  %16 = zext i8 %15 to i32
  call void @llvm.lifetime.start.p0(i64 2, ptr nonnull %2) #3
  store i8 %9, ptr %2, align 1, !tbaa !10
  %17 = add i8 %11, 1
  store i8 %17, ptr %10, align 1, !tbaa !12
  %18 = sext i8 %17 to i32
  %19 = getelementptr inbounds [7 x [9 x i8]], ptr @distance, i32 0, i32 %12, i32 %18
  %20 = load i8, ptr %19, align 1, !tbaa !5
  %21 = zext i8 %20 to i32
  %22 = add nuw nsw i32 %21, 1
  %23 = icmp eq i32 %22, %16
  br i1 %23, label %24, label %28

24:                                               ; preds = %44, %36, %28, %1
  %25 = icmp ugt i8 %15, 1
  br i1 %25, label %26, label %27

26:                                               ; preds = %24
  call fastcc void @draw(ptr noundef nonnull %2)
  br label %27

27:                                               ; preds = %24, %26
  call void @llvm.lifetime.end.p0(i64 2, ptr nonnull %2) #3
  br label %53

28:                                               ; preds = %1
  call void @llvm.lifetime.end.p0(i64 2, ptr nonnull %2) #3
  call void @llvm.lifetime.start.p0(i64 2, ptr nonnull %2) #3
  %29 = add i8 %9, 1
  store i8 %29, ptr %2, align 1, !tbaa !10
  store i8 %11, ptr %10, align 1, !tbaa !12
  %30 = sext i8 %29 to i32
  %31 = getelementptr inbounds [7 x [9 x i8]], ptr @distance, i32 0, i32 %30, i32 %13
  %32 = load i8, ptr %31, align 1, !tbaa !5
  %33 = zext i8 %32 to i32
  %34 = add nuw nsw i32 %33, 1
  %35 = icmp eq i32 %34, %16
  br i1 %35, label %24, label %36

36:                                               ; preds = %28
  call void @llvm.lifetime.end.p0(i64 2, ptr nonnull %2) #3
  call void @llvm.lifetime.start.p0(i64 2, ptr nonnull %2) #3
  store i8 %9, ptr %2, align 1, !tbaa !10
  %37 = add i8 %11, -1
  store i8 %37, ptr %10, align 1, !tbaa !12
  %38 = sext i8 %37 to i32
  %39 = getelementptr inbounds [7 x [9 x i8]], ptr @distance, i32 0, i32 %12, i32 %38
  %40 = load i8, ptr %39, align 1, !tbaa !5
  %41 = zext i8 %40 to i32
  %42 = add nuw nsw i32 %41, 1
  %43 = icmp eq i32 %42, %16
  br i1 %43, label %24, label %44

44:                                               ; preds = %36
  call void @llvm.lifetime.end.p0(i64 2, ptr nonnull %2) #3
  call void @llvm.lifetime.start.p0(i64 2, ptr nonnull %2) #3
  %45 = add i8 %9, -1
  store i8 %45, ptr %2, align 1, !tbaa !10
  store i8 %11, ptr %10, align 1, !tbaa !12
  %46 = sext i8 %45 to i32
  %47 = getelementptr inbounds [7 x [9 x i8]], ptr @distance, i32 0, i32 %46, i32 %13
  %48 = load i8, ptr %47, align 1, !tbaa !5
  %49 = zext i8 %48 to i32
  %50 = add nuw nsw i32 %49, 1
  %51 = icmp eq i32 %50, %16
  br i1 %51, label %24, label %52

52:                                               ; preds = %44
  call void @llvm.lifetime.end.p0(i64 2, ptr nonnull %2) #3
  br label %53

53:                                               ; preds = %52, %27
  ret void
}

; Function Attrs: nofree nounwind
declare noundef i32 @puts(ptr nocapture noundef readonly) local_unnamed_addr #0

; Function Attrs: mustprogress nocallback nofree nosync nounwind willreturn memory(argmem: readwrite)
declare void @llvm.lifetime.end.p0(i64 immarg, ptr nocapture) #1

; Function Attrs: nofree nounwind
declare noundef i32 @putchar(i32 noundef) local_unnamed_addr #0

attributes #0 = { nofree nounwind "no-trapping-math"="true" "stack-protector-buffer-size"="8" "target-cpu"="generic" "target-features"="+armv7-a,+dsp,+soft-float,-aes,-bf16,-d32,-dotprod,-fp-armv8,-fp-armv8d16,-fp-armv8d16sp,-fp-armv8sp,-fp16,-fp16fml,-fp64,-fpregs,-fullfp16,-mve,-mve.fp,-neon,-sha2,-thumb-mode,-vfp2,-vfp2sp,-vfp3,-vfp3d16,-vfp3d16sp,-vfp3sp,-vfp4,-vfp4d16,-vfp4d16sp,-vfp4sp" "use-soft-float"="true" }
attributes #1 = { mustprogress nocallback nofree nosync nounwind willreturn memory(argmem: readwrite) }
attributes #2 = { nofree nosync nounwind memory(readwrite, argmem: read, inaccessiblemem: none) "no-trapping-math"="true" "stack-protector-buffer-size"="8" "target-cpu"="generic" "target-features"="+armv7-a,+dsp,+soft-float,-aes,-bf16,-d32,-dotprod,-fp-armv8,-fp-armv8d16,-fp-armv8d16sp,-fp-armv8sp,-fp16,-fp16fml,-fp64,-fpregs,-fullfp16,-mve,-mve.fp,-neon,-sha2,-thumb-mode,-vfp2,-vfp2sp,-vfp3,-vfp3d16,-vfp3d16sp,-vfp3sp,-vfp4,-vfp4d16,-vfp4d16sp,-vfp4sp" "use-soft-float"="true" }
attributes #3 = { nounwind }

!llvm.module.flags = !{!0, !1, !2, !3}
!llvm.ident = !{!4}

!0 = !{i32 1, !"wchar_size", i32 4}
!1 = !{i32 1, !"min_enum_size", i32 4}
!2 = !{i32 8, !"PIC Level", i32 2}
!3 = !{i32 7, !"PIE Level", i32 2}
!4 = !{!"Debian clang version 19.1.7 (3~deb12u1)"}
!5 = !{!6, !6, i64 0}
!6 = !{!"omnipotent char", !7, i64 0}
!7 = !{!"Simple C/C++ TBAA"}
!8 = distinct !{!8, !9}
!9 = !{!"llvm.loop.mustprogress"}
!10 = !{!11, !6, i64 0}
!11 = !{!"place", !6, i64 0, !6, i64 1}
!12 = !{!11, !6, i64 1}
