; ModuleID = '<stdin>'
source_filename = "matrix.c"
target datalayout = "e-m:e-p270:32:32-p271:32:32-p272:64:64-i64:64-f80:128-n8:16:32:64-S128"
target triple = "x86_64-unknown-linux-gnu"

%struct.matrix = type { i32, i32, [3 x [3 x i32]] }

@a = internal constant %struct.matrix { i32 2, i32 3, [3 x [3 x i32]] [[3 x i32] [i32 1, i32 2, i32 3], [3 x i32] [i32 4, i32 5, i32 6], [3 x i32] zeroinitializer] }, align 4
@b = internal constant %struct.matrix { i32 3, i32 2, [3 x [3 x i32]] [[3 x i32] [i32 7, i32 8, i32 0], [3 x i32] [i32 9, i32 10, i32 0], [3 x i32] [i32 11, i32 12, i32 0]] }, align 4

; Function Attrs: nounwind uwtable
define dso_local i32 @main() local_unnamed_addr #0 {
  %1 = alloca %struct.matrix, align 4
  %2 = alloca %struct.matrix, align 4
  %3 = alloca %struct.matrix, align 4
  %4 = alloca %struct.matrix, align 4
  call void @llvm.lifetime.start.p0(i64 44, ptr %1) #5
  call void @llvm.lifetime.start.p0(i64 44, ptr %2) #5
  call void @llvm.lifetime.start.p0(i64 44, ptr %3) #5
  call void @llvm.memset.p0.i64(ptr align 4 %3, i8 0, i64 44, i1 false)
  store i32 2, ptr %3, align 4
  %5 = getelementptr inbounds %struct.matrix, ptr %3, i32 0, i32 1
  store i32 2, ptr %5, align 4
  %6 = getelementptr inbounds %struct.matrix, ptr %3, i32 0, i32 2
  store i32 1, ptr %6, align 4
  %7 = getelementptr inbounds [3 x [3 x i32]], ptr %6, i32 0, i32 1
  %8 = getelementptr inbounds [3 x i32], ptr %7, i32 0, i32 1
  store i32 1, ptr %8, align 4
  call void @llvm.lifetime.start.p0(i64 44, ptr %4) #5
  call void @llvm.memset.p0.i64(ptr align 4 %4, i8 0, i64 44, i1 false)
  store i32 2, ptr %4, align 4
  %9 = getelementptr inbounds %struct.matrix, ptr %4, i32 0, i32 1
  store i32 2, ptr %9, align 4
  %10 = getelementptr inbounds %struct.matrix, ptr %4, i32 0, i32 2
  store i32 1, ptr %10, align 4
  %11 = getelementptr inbounds [3 x i32], ptr %10, i32 0, i32 1
  store i32 1, ptr %11, align 4
  %12 = getelementptr inbounds [3 x [3 x i32]], ptr %10, i32 0, i32 1
  store i32 1, ptr %12, align 4
  call fastcc void @product(ptr noundef %1, ptr noundef @a, ptr noundef @b) #6
  call fastcc void @show(ptr noundef %1) #6
  call fastcc void @transpose(ptr noundef %2, ptr noundef %1) #6
  call fastcc void @show(ptr noundef %2) #6
  br label %13

13:                                               ; preds = %19, %0
  %.0 = phi i32 [ 10, %0 ], [ %20, %19 ]
  %14 = icmp ne i32 %.0, 0
  br i1 %14, label %15, label %21

15:                                               ; preds = %13
  %16 = and i32 %.0, 1
  %17 = icmp ne i32 %16, 0
  br i1 %17, label %18, label %19

18:                                               ; preds = %15
  call fastcc void @product(ptr noundef %3, ptr noundef %3, ptr noundef %4) #6
  br label %19

19:                                               ; preds = %18, %15
  call fastcc void @product(ptr noundef %4, ptr noundef %4, ptr noundef %4) #6
  %20 = udiv i32 %.0, 2
  br label %13, !llvm.loop !5

21:                                               ; preds = %13
  call fastcc void @show(ptr noundef %3) #6
  %22 = load i32, ptr %6, align 4, !tbaa !8
  %23 = load i32, ptr %8, align 4, !tbaa !8
  %24 = add nsw i32 %22, %23
  call void @llvm.lifetime.end.p0(i64 44, ptr %4) #5
  call void @llvm.lifetime.end.p0(i64 44, ptr %3) #5
  call void @llvm.lifetime.end.p0(i64 44, ptr %2) #5
  call void @llvm.lifetime.end.p0(i64 44, ptr %1) #5
  ret i32 %24
}

; Function Attrs: nocallback nofree nosync nounwind willreturn memory(argmem: readwrite)
declare void @llvm.lifetime.start.p0(i64 immarg, ptr nocapture) #1

; Function Attrs: nocallback nofree nounwind willreturn memory(argmem: write)
declare void @llvm.memset.p0.i64(ptr nocapture writeonly, i8, i64, i1 immarg) #2

; Function Attrs: nounwind uwtable
define internal fastcc void @product(ptr noundef %0, ptr noundef %1, ptr noundef %2) unnamed_addr #0 {
  %4 = alloca %struct.matrix, align 4
  call void @llvm.lifetime.start.p0(i64 44, ptr %4) #5
  call void @llvm.memset.p0.i64(ptr align 4 %4, i8 0, i64 44, i1 false)
  %5 = load i32, ptr %1, align 4, !tbaa !12
  store i32 %5, ptr %4, align 4, !tbaa !12
  %6 = getelementptr inbounds %struct.matrix, ptr %4, i32 0, i32 1
  %7 = getelementptr inbounds %struct.matrix, ptr %2, i32 0, i32 1
  %8 = load i32, ptr %7, align 4, !tbaa !14
  store i32 %8, ptr %6, align 4, !tbaa !14
  %9 = getelementptr inbounds %struct.matrix, ptr %4, i32 0, i32 2
  br label %10

10:                                               ; preds = %36, %3
  %.020 = phi i32 [ 0, %3 ], [ %37, %36 ]
  %11 = icmp slt i32 %.020, %5
  br i1 %11, label %12, label %38

12:                                               ; preds = %10, %34
  %.019 = phi i32 [ %35, %34 ], [ 0, %10 ]
  %13 = icmp slt i32 %.019, %8
  br i1 %13, label %._crit_edge, label %36

._crit_edge:                                      ; preds = %12
  %.phi.trans.insert = getelementptr inbounds %struct.matrix, ptr %1, i32 0, i32 1
  %.pre = load i32, ptr %.phi.trans.insert, align 4, !tbaa !14
  br label %14

14:                                               ; preds = %._crit_edge, %16
  %.0 = phi i32 [ %33, %16 ], [ 0, %._crit_edge ]
  %15 = icmp slt i32 %.0, %.pre
  br i1 %15, label %16, label %34

16:                                               ; preds = %14
  %17 = getelementptr inbounds %struct.matrix, ptr %1, i32 0, i32 2
  %18 = sext i32 %.020 to i64
  %19 = getelementptr inbounds [3 x [3 x i32]], ptr %17, i64 0, i64 %18
  %20 = sext i32 %.0 to i64
  %21 = getelementptr inbounds [3 x i32], ptr %19, i64 0, i64 %20
  %22 = load i32, ptr %21, align 4, !tbaa !8
  %23 = getelementptr inbounds %struct.matrix, ptr %2, i32 0, i32 2
  %24 = getelementptr inbounds [3 x [3 x i32]], ptr %23, i64 0, i64 %20
  %25 = sext i32 %.019 to i64
  %26 = getelementptr inbounds [3 x i32], ptr %24, i64 0, i64 %25
  %27 = load i32, ptr %26, align 4, !tbaa !8
  %28 = mul nsw i32 %22, %27
  %29 = getelementptr inbounds [3 x [3 x i32]], ptr %9, i64 0, i64 %18
  %30 = getelementptr inbounds [3 x i32], ptr %29, i64 0, i64 %25
  %31 = load i32, ptr %30, align 4, !tbaa !8
  %32 = add nsw i32 %31, %28
  store i32 %32, ptr %30, align 4, !tbaa !8
  %33 = add nsw i32 %.0, 1
  br label %14, !llvm.loop !15

34:                                               ; preds = %14
  %35 = add nsw i32 %.019, 1
  br label %12, !llvm.loop !16

36:                                               ; preds = %12
  %37 = add nsw i32 %.020, 1
  br label %10, !llvm.loop !17

38:                                               ; preds = %10
  call void @llvm.memcpy.p0.p0.i64(ptr align 4 %0, ptr align 4 %4, i64 44, i1 false), !tbaa.struct !18
  call void @llvm.lifetime.end.p0(i64 44, ptr %4) #5
  ret void
}

; Function Attrs: nounwind uwtable
define internal fastcc void @show(ptr noundef %0) unnamed_addr #0 {
  br label %2

2:                                                ; preds = %21, %1
  %.010 = phi i32 [ 0, %1 ], [ %22, %21 ]
  %3 = load i32, ptr %0, align 4, !tbaa !12
  %4 = icmp slt i32 %.010, %3
  br i1 %4, label %5, label %23

5:                                                ; preds = %2, %9
  %.0 = phi i32 [ %16, %9 ], [ 0, %2 ]
  %6 = getelementptr inbounds %struct.matrix, ptr %0, i32 0, i32 1
  %7 = load i32, ptr %6, align 4, !tbaa !14
  %8 = icmp slt i32 %.0, %7
  br i1 %8, label %9, label %21

9:                                                ; preds = %5
  %10 = getelementptr inbounds %struct.matrix, ptr %0, i32 0, i32 2
  %11 = sext i32 %.010 to i64
  %12 = getelementptr inbounds [3 x [3 x i32]], ptr %10, i64 0, i64 %11
  %13 = sext i32 %.0 to i64
  %14 = getelementptr inbounds [3 x i32], ptr %12, i64 0, i64 %13
  %15 = load i32, ptr %14, align 4, !tbaa !8
  call fastcc void @number(i32 noundef %15) #6
  %16 = add nsw i32 %.0, 1
  %17 = load i32, ptr %6, align 4, !tbaa !14
  %18 = icmp slt i32 %16, %17
  %19 = select i1 %18, i32 32, i32 10
  %20 = call i32 @putchar(i32 noundef %19) #6
  br label %5, !llvm.loop !20

21:                                               ; preds = %5
  %22 = add nsw i32 %.010, 1
  br label %2, !llvm.loop !21

23:                                               ; preds = %2
  %24 = call i32 @putchar(i32 noundef 10) #6
  ret void
}

; Function Attrs: nounwind uwtable
define internal fastcc void @transpose(ptr noundef %0, ptr noundef %1) unnamed_addr #0 {
  %3 = getelementptr inbounds %struct.matrix, ptr %1, i32 0, i32 1
  %4 = load i32, ptr %3, align 4, !tbaa !14
  store i32 %4, ptr %0, align 4, !tbaa !12
  %5 = load i32, ptr %1, align 4, !tbaa !12
  %6 = getelementptr inbounds %struct.matrix, ptr %0, i32 0, i32 1
  store i32 %5, ptr %6, align 4, !tbaa !14
  br label %7

7:                                                ; preds = %24, %2
  %8 = phi i32 [ %5, %2 ], [ %.pre, %24 ]
  %.015 = phi i32 [ 0, %2 ], [ %25, %24 ]
  %9 = icmp slt i32 %.015, %8
  br i1 %9, label %10, label %26

10:                                               ; preds = %7, %13
  %.0 = phi i32 [ %23, %13 ], [ 0, %7 ]
  %11 = load i32, ptr %3, align 4, !tbaa !14
  %12 = icmp slt i32 %.0, %11
  br i1 %12, label %13, label %24

13:                                               ; preds = %10
  %14 = getelementptr inbounds %struct.matrix, ptr %1, i32 0, i32 2
  %15 = sext i32 %.015 to i64
  %16 = getelementptr inbounds [3 x [3 x i32]], ptr %14, i64 0, i64 %15
  %17 = sext i32 %.0 to i64
  %18 = getelementptr inbounds [3 x i32], ptr %16, i64 0, i64 %17
  %19 = load i32, ptr %18, align 4, !tbaa !8
  %20 = getelementptr inbounds %struct.matrix, ptr %0, i32 0, i32 2
  %21 = getelementptr inbounds [3 x [3 x i32]], ptr %20, i64 0, i64 %17
  %22 = getelementptr inbounds [3 x i32], ptr %21, i64 0, i64 %15
  store i32 %19, ptr %22, align 4, !tbaa !8
  %23 = add nsw i32 %.0, 1
  br label %10, !llvm.loop !22

24:                                               ; preds = %10
  %25 = add nsw i32 %.015, 1
  %.pre = load i32, ptr %1, align 4, !tbaa !12
  br label %7, !llvm.loop !23

26:                                               ; preds = %7
  ret void
}

; Function Attrs: nocallback nofree nosync nounwind willreturn memory(argmem: readwrite)
declare void @llvm.lifetime.end.p0(i64 immarg, ptr nocapture) #1

; Function Attrs: nocallback nofree nounwind willreturn memory(argmem: readwrite)
declare void @llvm.memcpy.p0.p0.i64(ptr noalias nocapture writeonly, ptr noalias nocapture readonly, i64, i1 immarg) #3

; Function Attrs: nounwind uwtable
define internal fastcc void @number(i32 noundef %0) unnamed_addr #0 {
  %2 = icmp sge i32 %0, 10
  br i1 %2, label %3, label %5

3:                                                ; preds = %1
  %4 = sdiv i32 %0, 10
  call fastcc void @number(i32 noundef %4) #6
  br label %5

5:                                                ; preds = %3, %1
  %6 = srem i32 %0, 10
  %7 = add nsw i32 48, %6
  %8 = call i32 @putchar(i32 noundef %7) #6
  ret void
}

declare i32 @putchar(i32 noundef) local_unnamed_addr #4

attributes #0 = { nounwind uwtable "min-legal-vector-width"="0" "no-builtins" "no-jump-tables"="true" "no-trapping-math"="true" "stack-protector-buffer-size"="8" "target-cpu"="x86-64" "target-features"="+cx8,+fxsr,+mmx,+sse,+sse2,+x87" "tune-cpu"="generic" }
attributes #1 = { nocallback nofree nosync nounwind willreturn memory(argmem: readwrite) }
attributes #2 = { nocallback nofree nounwind willreturn memory(argmem: write) }
attributes #3 = { nocallback nofree nounwind willreturn memory(argmem: readwrite) }
attributes #4 = { "no-builtins" "no-trapping-math"="true" "stack-protector-buffer-size"="8" "target-cpu"="x86-64" "target-features"="+cx8,+fxsr,+mmx,+sse,+sse2,+x87" "tune-cpu"="generic" }
attributes #5 = { nounwind }
attributes #6 = { nobuiltin "no-builtins" }

!llvm.module.flags = !{!0, !1, !2, !3}
!llvm.ident = !{!4}

!0 = !{i32 1, !"wchar_size", i32 4}
!1 = !{i32 8, !"PIC Level", i32 2}
!2 = !{i32 7, !"PIE Level", i32 2}
!3 = !{i32 7, !"uwtable", i32 2}
!4 = !{!"Debian clang version 16.0.6 (15~deb12u1)"}
!5 = distinct !{!5, !6, !7}
!6 = !{!"llvm.loop.mustprogress"}
!7 = !{!"llvm.loop.unroll.disable"}
!8 = !{!9, !9, i64 0}
!9 = !{!"int", !10, i64 0}
!10 = !{!"omnipotent char", !11, i64 0}
!11 = !{!"Simple C/C++ TBAA"}
!12 = !{!13, !9, i64 0}
!13 = !{!"matrix", !9, i64 0, !9, i64 4, !10, i64 8}
!14 = !{!13, !9, i64 4}
!15 = distinct !{!15, !6, !7}
!16 = distinct !{!16, !6, !7}
!17 = distinct !{!17, !6, !7}
!18 = !{i64 0, i64 4, !8, i64 4, i64 4, !8, i64 8, i64 36, !19}
!19 = !{!10, !10, i64 0}
!20 = distinct !{!20, !6, !7}
!21 = distinct !{!21, !6, !7}
!22 = distinct !{!22, !6, !7}
!23 = distinct !{!23, !6, !7}
