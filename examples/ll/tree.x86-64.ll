; ModuleID = '<stdin>'
source_filename = "tree.c"
target datalayout = "e-m:e-p270:32:32-p271:32:32-p272:64:64-i64:64-f80:128-n8:16:32:64-S128"
target triple = "x86_64-unknown-linux-gnu"

%struct.node = type { i64, [2 x ptr] }

@main.keys = internal unnamed_addr constant [10 x i8] c"2\1EF\14(<P\0A\19\1E", align 1
@count = internal unnamed_addr global i32 0, align 4

; Function Attrs: nounwind uwtable
define dso_local i32 @main() local_unnamed_addr #0 {
  %1 = alloca ptr, align 8
  call void @llvm.lifetime.start.p0(i64 8, ptr %1) #3
  store ptr null, ptr %1, align 8, !tbaa !5
  br label %2

2:                                                ; preds = %5, %0
  %.0 = phi i32 [ 0, %0 ], [ %9, %5 ]
  %3 = zext i32 %.0 to i64
  %4 = icmp ult i64 %3, 10
  br i1 %4, label %5, label %10

5:                                                ; preds = %2
  %6 = getelementptr inbounds [10 x i8], ptr @main.keys, i64 0, i64 %3
  %7 = load i8, ptr %6, align 1, !tbaa !9
  %8 = sext i8 %7 to i64
  call fastcc void @enter(ptr noundef %1, i64 noundef %8) #4
  %9 = add i32 %.0, 1
  br label %2, !llvm.loop !10

10:                                               ; preds = %2
  %11 = load ptr, ptr %1, align 8, !tbaa !5
  call fastcc void @walk(ptr noundef %11) #4
  %12 = call i32 @putchar(i32 noundef 10) #4
  %13 = load ptr, ptr %1, align 8, !tbaa !5
  %14 = call fastcc i32 @depth(ptr noundef %13) #4
  %15 = add nsw i32 48, %14
  %16 = call i32 @putchar(i32 noundef %15) #4
  %17 = call i32 @putchar(i32 noundef 10) #4
  call fastcc void @leave(ptr noundef %1, i64 noundef 30) #4
  call fastcc void @leave(ptr noundef %1, i64 noundef 99) #4
  store i32 0, ptr @count, align 4, !tbaa !13
  %18 = load ptr, ptr %1, align 8, !tbaa !5
  call fastcc void @walk(ptr noundef %18) #4
  %19 = call i32 @putchar(i32 noundef 10) #4
  %20 = load i32, ptr @count, align 4, !tbaa !13
  call void @exit(i32 noundef %20) #4
  call void @llvm.lifetime.end.p0(i64 8, ptr %1) #3
  ret i32 0
}

; Function Attrs: nocallback nofree nosync nounwind willreturn memory(argmem: readwrite)
declare void @llvm.lifetime.start.p0(i64 immarg, ptr nocapture) #1

; Function Attrs: nounwind uwtable
define internal fastcc void @enter(ptr noundef %0, i64 noundef %1) unnamed_addr #0 {
  %3 = call fastcc ptr @place_of(ptr noundef %0, i64 noundef %1) #4
  %4 = load ptr, ptr %3, align 8, !tbaa !5
  %5 = icmp ne ptr %4, null
  br i1 %5, label %12, label %6

6:                                                ; preds = %2
  %7 = call ptr @calloc(i64 noundef 1, i64 noundef 24) #4
  store ptr %7, ptr %3, align 8, !tbaa !5
  %8 = icmp ne ptr %7, null
  br i1 %8, label %10, label %9

9:                                                ; preds = %6
  call void @abort() #4
  %.pre = load ptr, ptr %3, align 8, !tbaa !5
  br label %10

10:                                               ; preds = %9, %6
  %11 = phi ptr [ %.pre, %9 ], [ %7, %6 ]
  store i64 %1, ptr %11, align 8, !tbaa !15
  br label %12

12:                                               ; preds = %10, %2
  ret void
}

; Function Attrs: nocallback nofree nosync nounwind willreturn memory(argmem: readwrite)
declare void @llvm.lifetime.end.p0(i64 immarg, ptr nocapture) #1

; Function Attrs: nounwind uwtable
define internal fastcc void @walk(ptr noundef %0) unnamed_addr #0 {
  %2 = icmp ne ptr %0, null
  br i1 %2, label %3, label %24

3:                                                ; preds = %1
  %4 = getelementptr inbounds %struct.node, ptr %0, i32 0, i32 1
  %5 = load ptr, ptr %4, align 8, !tbaa !5
  call fastcc void @walk(ptr noundef %5) #4
  %6 = load i32, ptr @count, align 4, !tbaa !13
  %7 = add nsw i32 %6, 1
  store i32 %7, ptr @count, align 4, !tbaa !13
  %8 = icmp ne i32 %6, 0
  br i1 %8, label %9, label %11

9:                                                ; preds = %3
  %10 = call i32 @putchar(i32 noundef 32) #4
  br label %11

11:                                               ; preds = %9, %3
  %12 = load i64, ptr %0, align 8, !tbaa !15
  %13 = sdiv i64 %12, 10
  %14 = trunc i64 %13 to i32
  %15 = add nsw i32 48, %14
  %16 = call i32 @putchar(i32 noundef %15) #4
  %17 = load i64, ptr %0, align 8, !tbaa !15
  %18 = srem i64 %17, 10
  %19 = trunc i64 %18 to i32
  %20 = add nsw i32 48, %19
  %21 = call i32 @putchar(i32 noundef %20) #4
  %22 = getelementptr inbounds [2 x ptr], ptr %4, i64 0, i64 1
  %23 = load ptr, ptr %22, align 8, !tbaa !5
  call fastcc void @walk(ptr noundef %23) #4
  br label %24

24:                                               ; preds = %1, %11
  ret void
}

declare i32 @putchar(i32 noundef) local_unnamed_addr #2

; Function Attrs: nounwind uwtable
define internal fastcc i32 @depth(ptr noundef %0) unnamed_addr #0 {
  %2 = icmp ne ptr %0, null
  br i1 %2, label %3, label %12

3:                                                ; preds = %1
  %4 = getelementptr inbounds %struct.node, ptr %0, i32 0, i32 1
  %5 = load ptr, ptr %4, align 8, !tbaa !5
  %6 = call fastcc i32 @depth(ptr noundef %5) #4
  %7 = getelementptr inbounds [2 x ptr], ptr %4, i64 0, i64 1
  %8 = load ptr, ptr %7, align 8, !tbaa !5
  %9 = call fastcc i32 @depth(ptr noundef %8) #4
  %10 = icmp sgt i32 %6, %9
  %. = select i1 %10, i32 %6, i32 %9
  %11 = add nsw i32 1, %.
  br label %12

12:                                               ; preds = %1, %3
  %.0 = phi i32 [ %11, %3 ], [ -1, %1 ]
  ret i32 %.0
}

; Function Attrs: nounwind uwtable
define internal fastcc void @leave(ptr noundef %0, i64 noundef %1) unnamed_addr #0 {
  %3 = call fastcc ptr @place_of(ptr noundef %0, i64 noundef %1) #4
  %4 = load ptr, ptr %3, align 8, !tbaa !5
  %5 = icmp ne ptr %4, null
  br i1 %5, label %6, label %33

6:                                                ; preds = %2
  %7 = getelementptr inbounds %struct.node, ptr %4, i32 0, i32 1
  %8 = load ptr, ptr %7, align 8, !tbaa !5
  %9 = icmp ne ptr %8, null
  br i1 %9, label %10, label %._crit_edge

._crit_edge:                                      ; preds = %6
  %.phi.trans.insert = getelementptr inbounds [2 x ptr], ptr %7, i64 0, i64 1
  %.pre = load ptr, ptr %.phi.trans.insert, align 8, !tbaa !5
  br label %24

10:                                               ; preds = %6
  %11 = getelementptr inbounds [2 x ptr], ptr %7, i64 0, i64 1
  %12 = load ptr, ptr %11, align 8, !tbaa !5
  %13 = icmp ne ptr %12, null
  br i1 %13, label %14, label %24

14:                                               ; preds = %14, %10
  %15 = phi ptr [ %12, %10 ], [ %17, %14 ]
  %.022 = phi ptr [ %11, %10 ], [ %16, %14 ]
  %16 = getelementptr inbounds %struct.node, ptr %15, i32 0, i32 1
  %17 = load ptr, ptr %16, align 8, !tbaa !5
  %18 = icmp ne ptr %17, null
  br i1 %18, label %14, label %19, !llvm.loop !18

19:                                               ; preds = %14
  %20 = getelementptr inbounds [2 x ptr], ptr %16, i64 0, i64 1
  %21 = load ptr, ptr %20, align 8, !tbaa !5
  store ptr %21, ptr %.022, align 8, !tbaa !5
  %22 = load ptr, ptr %7, align 8, !tbaa !5
  store ptr %22, ptr %16, align 8, !tbaa !5
  %23 = load ptr, ptr %11, align 8, !tbaa !5
  store ptr %23, ptr %20, align 8, !tbaa !5
  store ptr %15, ptr %3, align 8, !tbaa !5
  br label %32

24:                                               ; preds = %._crit_edge, %10
  %25 = phi ptr [ %.pre, %._crit_edge ], [ null, %10 ]
  %26 = getelementptr inbounds [2 x ptr], ptr %7, i64 0, i64 1
  %27 = icmp ne ptr %25, null
  %28 = zext i1 %27 to i32
  %29 = sext i32 %28 to i64
  %30 = getelementptr inbounds [2 x ptr], ptr %7, i64 0, i64 %29
  %31 = load ptr, ptr %30, align 8, !tbaa !5
  store ptr %31, ptr %3, align 8, !tbaa !5
  br label %32

32:                                               ; preds = %24, %19
  call void @free(ptr noundef %4) #4
  br label %33

33:                                               ; preds = %32, %2
  ret void
}

declare void @exit(i32 noundef) local_unnamed_addr #2

; Function Attrs: nounwind uwtable
define internal fastcc ptr @place_of(ptr noundef %0, i64 noundef %1) unnamed_addr #0 {
  br label %3

3:                                                ; preds = %9, %2
  %.0 = phi ptr [ %0, %2 ], [ %14, %9 ]
  %4 = load ptr, ptr %.0, align 8, !tbaa !5
  %5 = icmp ne ptr %4, null
  br i1 %5, label %6, label %.critedge

6:                                                ; preds = %3
  %7 = load i64, ptr %4, align 8, !tbaa !15
  %8 = icmp ne i64 %7, %1
  br i1 %8, label %9, label %.critedge

9:                                                ; preds = %6
  %10 = getelementptr inbounds %struct.node, ptr %4, i32 0, i32 1
  %11 = icmp sgt i64 %1, %7
  %12 = zext i1 %11 to i32
  %13 = sext i32 %12 to i64
  %14 = getelementptr inbounds [2 x ptr], ptr %10, i64 0, i64 %13
  br label %3, !llvm.loop !19

.critedge:                                        ; preds = %3, %6
  ret ptr %.0
}

declare ptr @calloc(i64 noundef, i64 noundef) local_unnamed_addr #2

declare void @abort() local_unnamed_addr #2

declare void @free(ptr noundef) local_unnamed_addr #2

attributes #0 = { nounwind uwtable "min-legal-vector-width"="0" "no-builtins" "no-jump-tables"="true" "no-trapping-math"="true" "stack-protector-buffer-size"="8" "target-cpu"="x86-64" "target-features"="+cx8,+fxsr,+mmx,+sse,+sse2,+x87" "tune-cpu"="generic" }
attributes #1 = { nocallback nofree nosync nounwind willreturn memory(argmem: readwrite) }
attributes #2 = { "no-builtins" "no-trapping-math"="true" "stack-protector-buffer-size"="8" "target-cpu"="x86-64" "target-features"="+cx8,+fxsr,+mmx,+sse,+sse2,+x87" "tune-cpu"="generic" }
attributes #3 = { nounwind }
attributes #4 = { nobuiltin "no-builtins" }

!llvm.module.flags = !{!0, !1, !2, !3}
!llvm.ident = !{!4}

!0 = !{i32 1, !"wchar_size", i32 4}
!1 = !{i32 8, !"PIC Level", i32 2}
!2 = !{i32 7, !"PIE Level", i32 2}
!3 = !{i32 7, !"uwtable", i32 2}
!4 = !{!"Debian clang version 16.0.6 (15~deb12u1)"}
!5 = !{!6, !6, i64 0}
!6 = !{!"any pointer", !7, i64 0}
!7 = !{!"omnipotent char", !8, i64 0}
!8 = !{!"Simple C/C++ TBAA"}
!9 = !{!7, !7, i64 0}
!10 = distinct !{!10, !11, !12}
!11 = !{!"llvm.loop.mustprogress"}
!12 = !{!"llvm.loop.unroll.disable"}
!13 = !{!14, !14, i64 0}
!14 = !{!"int", !7, i64 0}
!15 = !{!16, !17, i64 0}
!16 = !{!"node", !17, i64 0, !7, i64 8}
!17 = !{!"long long", !7, i64 0}
!18 = distinct !{!18, !11, !12}
!19 = distinct !{!19, !11, !12}
