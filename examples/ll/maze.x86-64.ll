; ModuleID = '<stdin>'
source_filename = "maze.c"
target datalayout = "e-m:e-p270:32:32-p271:32:32-p272:64:64-i64:64-f80:128-n8:16:32:64-S128"
target triple = "x86_64-unknown-linux-gnu"

%struct.place = type { i8, i8 }

@__const.main.start = private unnamed_addr constant %struct.place { i8 1, i8 1 }, align 1
@__const.main.end = private unnamed_addr constant %struct.place { i8 5, i8 7 }, align 1
@maze = internal global [7 x [10 x i8]] [[10 x i8] c"#########\00", [10 x i8] c"# #   # #\00", [10 x i8] c"# # # # #\00", [10 x i8] c"#   #   #\00", [10 x i8] c"### ### #\00", [10 x i8] c"#       #\00", [10 x i8] c"#########\00"], align 16
@distance = internal unnamed_addr global [7 x [9 x i8]] zeroinitializer, align 16
@ring = internal unnamed_addr global [16 x %struct.place] zeroinitializer, align 16
@moves = internal unnamed_addr constant [4 x %struct.place] [%struct.place { i8 0, i8 1 }, %struct.place { i8 1, i8 0 }, %struct.place { i8 0, i8 -1 }, %struct.place { i8 -1, i8 0 }], align 1

; Function Attrs: nounwind uwtable
define dso_local i32 @main() local_unnamed_addr #0 {
  %1 = alloca %struct.place, align 1
  %2 = alloca %struct.place, align 1
  call void @llvm.lifetime.start.p0(i64 2, ptr %1) #4
  call void @llvm.memcpy.p0.p0.i64(ptr align 1 %1, ptr align 1 @__const.main.start, i64 2, i1 false)
  call void @llvm.lifetime.start.p0(i64 2, ptr %2) #4
  call void @llvm.memcpy.p0.p0.i64(ptr align 1 %2, ptr align 1 @__const.main.end, i64 2, i1 false)
  call fastcc void @flood(ptr noundef %1) #5
  call fastcc void @draw(ptr noundef %2) #5
  br label %3

3:                                                ; preds = %5, %0
  %.0 = phi i32 [ 0, %0 ], [ %9, %5 ]
  %4 = icmp slt i32 %.0, 7
  br i1 %4, label %5, label %10

5:                                                ; preds = %3
  %6 = sext i32 %.0 to i64
  %7 = getelementptr inbounds [7 x [10 x i8]], ptr @maze, i64 0, i64 %6
  %8 = call i32 @puts(ptr noundef %7) #5
  %9 = add nsw i32 %.0, 1
  br label %3, !llvm.loop !5

10:                                               ; preds = %3
  %11 = load i8, ptr %2, align 1, !tbaa !8
  %12 = sext i8 %11 to i64
  %13 = getelementptr inbounds [7 x [9 x i8]], ptr @distance, i64 0, i64 %12
  %14 = getelementptr inbounds %struct.place, ptr %2, i32 0, i32 1
  %15 = load i8, ptr %14, align 1, !tbaa !12
  %16 = sext i8 %15 to i64
  %17 = getelementptr inbounds [9 x i8], ptr %13, i64 0, i64 %16
  %18 = load i8, ptr %17, align 1, !tbaa !13
  %19 = zext i8 %18 to i32
  %20 = sub nsw i32 %19, 1
  %21 = icmp sge i32 %20, 10
  br i1 %21, label %22, label %26

22:                                               ; preds = %10
  %23 = sdiv i32 %20, 10
  %24 = add nsw i32 48, %23
  %25 = call i32 @putchar(i32 noundef %24) #5
  br label %26

26:                                               ; preds = %22, %10
  %27 = srem i32 %20, 10
  %28 = add nsw i32 48, %27
  %29 = call i32 @putchar(i32 noundef %28) #5
  %30 = call i32 @putchar(i32 noundef 10) #5
  call void @llvm.lifetime.end.p0(i64 2, ptr %2) #4
  call void @llvm.lifetime.end.p0(i64 2, ptr %1) #4
  ret i32 %20
}

; Function Attrs: nocallback nofree nosync nounwind willreturn memory(argmem: readwrite)
declare void @llvm.lifetime.start.p0(i64 immarg, ptr nocapture) #1

; Function Attrs: nocallback nofree nounwind willreturn memory(argmem: readwrite)
declare void @llvm.memcpy.p0.p0.i64(ptr noalias nocapture writeonly, ptr noalias nocapture readonly, i64, i1 immarg) #2

; Function Attrs: nounwind uwtable
define internal fastcc void @flood(ptr noundef %0) unnamed_addr #0 {
  call void @llvm.memcpy.p0.p0.i64(ptr align 2 @ring, ptr align 1 %0, i64 2, i1 false), !tbaa.struct !14
  %2 = load i8, ptr %0, align 1, !tbaa !8
  %3 = sext i8 %2 to i64
  %4 = getelementptr inbounds [7 x [9 x i8]], ptr @distance, i64 0, i64 %3
  %5 = getelementptr inbounds %struct.place, ptr %0, i32 0, i32 1
  %6 = load i8, ptr %5, align 1, !tbaa !12
  %7 = sext i8 %6 to i64
  %8 = getelementptr inbounds [9 x i8], ptr %4, i64 0, i64 %7
  store i8 1, ptr %8, align 1, !tbaa !13
  br label %9

9:                                                ; preds = %16, %1
  %.019 = phi i32 [ 1, %1 ], [ %.1, %16 ]
  %.0 = phi i32 [ 0, %1 ], [ %12, %16 ]
  %10 = icmp ne i32 %.0, %.019
  br i1 %10, label %11, label %60

11:                                               ; preds = %9
  %12 = add i32 %.0, 1
  %13 = urem i32 %.0, 16
  %14 = zext i32 %13 to i64
  %15 = getelementptr inbounds [16 x %struct.place], ptr @ring, i64 0, i64 %14
  %.sroa.09.0.copyload = load i8, ptr %15, align 2, !tbaa.struct !14
  %.sroa.5.0..sroa_idx = getelementptr inbounds i8, ptr %15, i64 1
  %.sroa.5.0.copyload = load i8, ptr %.sroa.5.0..sroa_idx, align 1, !tbaa.struct !15
  br label %16

16:                                               ; preds = %58, %11
  %.021 = phi i32 [ 0, %11 ], [ %59, %58 ]
  %.1 = phi i32 [ %.019, %11 ], [ %.2, %58 ]
  %17 = icmp slt i32 %.021, 4
  br i1 %17, label %18, label %9, !llvm.loop !16

18:                                               ; preds = %16
  %19 = sext i8 %.sroa.09.0.copyload to i32
  %20 = sext i32 %.021 to i64
  %21 = getelementptr inbounds [4 x %struct.place], ptr @moves, i64 0, i64 %20
  %22 = load i8, ptr %21, align 1, !tbaa !8
  %23 = sext i8 %22 to i32
  %24 = add nsw i32 %19, %23
  %25 = trunc i32 %24 to i8
  %26 = sext i8 %.sroa.5.0.copyload to i32
  %27 = getelementptr inbounds %struct.place, ptr %21, i32 0, i32 1
  %28 = load i8, ptr %27, align 1, !tbaa !12
  %29 = sext i8 %28 to i32
  %30 = add nsw i32 %26, %29
  %31 = trunc i32 %30 to i8
  %32 = sext i8 %25 to i64
  %33 = getelementptr inbounds [7 x [10 x i8]], ptr @maze, i64 0, i64 %32
  %34 = sext i8 %31 to i64
  %35 = getelementptr inbounds [10 x i8], ptr %33, i64 0, i64 %34
  %36 = load i8, ptr %35, align 1, !tbaa !13
  %37 = sext i8 %36 to i32
  %38 = icmp eq i32 %37, 35
  br i1 %38, label %58, label %39

39:                                               ; preds = %18
  %40 = getelementptr inbounds [7 x [9 x i8]], ptr @distance, i64 0, i64 %32
  %41 = getelementptr inbounds [9 x i8], ptr %40, i64 0, i64 %34
  %42 = load i8, ptr %41, align 1, !tbaa !13
  %43 = zext i8 %42 to i32
  %44 = icmp ne i32 %43, 0
  br i1 %44, label %58, label %45

45:                                               ; preds = %39
  %46 = sext i8 %.sroa.09.0.copyload to i64
  %47 = getelementptr inbounds [7 x [9 x i8]], ptr @distance, i64 0, i64 %46
  %48 = sext i8 %.sroa.5.0.copyload to i64
  %49 = getelementptr inbounds [9 x i8], ptr %47, i64 0, i64 %48
  %50 = load i8, ptr %49, align 1, !tbaa !13
  %51 = zext i8 %50 to i32
  %52 = add nsw i32 %51, 1
  %53 = trunc i32 %52 to i8
  store i8 %53, ptr %41, align 1, !tbaa !13
  %54 = add i32 %.1, 1
  %55 = urem i32 %.1, 16
  %56 = zext i32 %55 to i64
  %57 = getelementptr inbounds [16 x %struct.place], ptr @ring, i64 0, i64 %56
  store i8 %25, ptr %57, align 2, !tbaa.struct !14
  %.sroa.7.0..sroa_idx = getelementptr inbounds i8, ptr %57, i64 1
  store i8 %31, ptr %.sroa.7.0..sroa_idx, align 1, !tbaa.struct !15
  br label %58

58:                                               ; preds = %45, %39, %18
  %.2 = phi i32 [ %54, %45 ], [ %.1, %39 ], [ %.1, %18 ]
  %59 = add nsw i32 %.021, 1
  br label %16, !llvm.loop !17

60:                                               ; preds = %9
  ret void
}

; Function Attrs: nounwind uwtable
define internal fastcc void @draw(ptr noundef %0) unnamed_addr #0 {
  %2 = alloca %struct.place, align 1
  %3 = load i8, ptr %0, align 1, !tbaa !8
  %4 = sext i8 %3 to i64
  %5 = getelementptr inbounds [7 x [10 x i8]], ptr @maze, i64 0, i64 %4
  %6 = getelementptr inbounds %struct.place, ptr %0, i32 0, i32 1
  %7 = load i8, ptr %6, align 1, !tbaa !12
  %8 = sext i8 %7 to i64
  %9 = getelementptr inbounds [10 x i8], ptr %5, i64 0, i64 %8
  store i8 42, ptr %9, align 1, !tbaa !13
  br label %10

10:                                               ; preds = %47, %1
  %.013 = phi i32 [ 0, %1 ], [ %48, %47 ]
  %11 = icmp slt i32 %.013, 4
  br i1 %11, label %12, label %49

12:                                               ; preds = %10
  call void @llvm.lifetime.start.p0(i64 2, ptr %2) #4
  %13 = load i8, ptr %0, align 1, !tbaa !8
  %14 = sext i8 %13 to i32
  %15 = sext i32 %.013 to i64
  %16 = getelementptr inbounds [4 x %struct.place], ptr @moves, i64 0, i64 %15
  %17 = load i8, ptr %16, align 1, !tbaa !8
  %18 = sext i8 %17 to i32
  %19 = add nsw i32 %14, %18
  %20 = trunc i32 %19 to i8
  store i8 %20, ptr %2, align 1, !tbaa !8
  %21 = getelementptr inbounds %struct.place, ptr %2, i32 0, i32 1
  %22 = load i8, ptr %6, align 1, !tbaa !12
  %23 = sext i8 %22 to i32
  %24 = getelementptr inbounds %struct.place, ptr %16, i32 0, i32 1
  %25 = load i8, ptr %24, align 1, !tbaa !12
  %26 = sext i8 %25 to i32
  %27 = add nsw i32 %23, %26
  %28 = trunc i32 %27 to i8
  store i8 %28, ptr %21, align 1, !tbaa !12
  %29 = sext i8 %20 to i64
  %30 = getelementptr inbounds [7 x [9 x i8]], ptr @distance, i64 0, i64 %29
  %31 = sext i8 %28 to i64
  %32 = getelementptr inbounds [9 x i8], ptr %30, i64 0, i64 %31
  %33 = load i8, ptr %32, align 1, !tbaa !13
  %34 = zext i8 %33 to i32
  %35 = add nsw i32 %34, 1
  %36 = sext i8 %13 to i64
  %37 = getelementptr inbounds [7 x [9 x i8]], ptr @distance, i64 0, i64 %36
  %38 = sext i8 %22 to i64
  %39 = getelementptr inbounds [9 x i8], ptr %37, i64 0, i64 %38
  %40 = load i8, ptr %39, align 1, !tbaa !13
  %41 = zext i8 %40 to i32
  %42 = icmp eq i32 %35, %41
  br i1 %42, label %43, label %46

43:                                               ; preds = %12
  %44 = icmp sgt i32 %35, 1
  br i1 %44, label %45, label %46

45:                                               ; preds = %43
  call fastcc void @draw(ptr noundef %2) #5
  br label %46

46:                                               ; preds = %12, %43, %45
  %.0 = phi i32 [ 1, %45 ], [ 1, %43 ], [ 0, %12 ]
  call void @llvm.lifetime.end.p0(i64 2, ptr %2) #4
  %cond = icmp eq i32 %.0, 0
  br i1 %cond, label %47, label %49

47:                                               ; preds = %46
  %48 = add nsw i32 %.013, 1
  br label %10, !llvm.loop !18

49:                                               ; preds = %46, %10
  ret void
}

declare i32 @puts(ptr noundef) local_unnamed_addr #3

; Function Attrs: nocallback nofree nosync nounwind willreturn memory(argmem: readwrite)
declare void @llvm.lifetime.end.p0(i64 immarg, ptr nocapture) #1

declare i32 @putchar(i32 noundef) local_unnamed_addr #3

attributes #0 = { nounwind uwtable "min-legal-vector-width"="0" "no-builtins" "no-jump-tables"="true" "no-trapping-math"="true" "stack-protector-buffer-size"="8" "target-cpu"="x86-64" "target-features"="+cx8,+fxsr,+mmx,+sse,+sse2,+x87" "tune-cpu"="generic" }
attributes #1 = { nocallback nofree nosync nounwind willreturn memory(argmem: readwrite) }
attributes #2 = { nocallback nofree nounwind willreturn memory(argmem: readwrite) }
attributes #3 = { "no-builtins" "no-trapping-math"="true" "stack-protector-buffer-size"="8" "target-cpu"="x86-64" "target-features"="+cx8,+fxsr,+mmx,+sse,+sse2,+x87" "tune-cpu"="generic" }
attributes #4 = { nounwind }
attributes #5 = { nobuiltin "no-builtins" }

!llvm.module.flags = !{!0, !1, !2, !3}
!llvm.ident = !{!4}

!0 = !{i32 1, !"wchar_size", i32 4}
!1 = !{i32 8, !"PIC Level", i32 2}
!2 = !{i32 7, !"PIE Level", i32 2}
!3 = !{i32 7, !"uwtable", i32 2}
!4 = !{!"Debian clang version 16.0.6 (15~deb12u1)"}
!5 = distinct !{!5, !6, !7}
!6 = !{!"llvm.loop.mustprogress"}
!7 = !{!"llvm.loop.unroll.disable"}
!8 = !{!9, !10, i64 0}
!9 = !{!"place", !10, i64 0, !10, i64 1}
!10 = !{!"omnipotent char", !11, i64 0}
!11 = !{!"Simple C/C++ TBAA"}
!12 = !{!9, !10, i64 1}
!13 = !{!10, !10, i64 0}
!14 = !{i64 0, i64 1, !13, i64 1, i64 1, !13}
!15 = !{i64 0, i64 1, !13}
!16 = distinct !{!16, !6, !7}
!17 = distinct !{!17, !6, !7}
!18 = distinct !{!18, !6, !7}
