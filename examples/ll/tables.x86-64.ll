; ModuleID = '<stdin>'
source_filename = "tables.c"
target datalayout = "e-m:e-p270:32:32-p271:32:32-p272:64:64-i64:64-f80:128-n8:16:32:64-S128"
target triple = "x86_64-unknown-linux-gnu"

%struct.tree = type { ptr, ptr, ptr }

@leaf = internal constant %struct.tree { ptr @.str, ptr null, ptr null }, align 8
@root = internal constant %struct.tree { ptr @.str.1, ptr @leaf, ptr @leaf }, align 8
@forest = dso_local local_unnamed_addr constant [2 x [2 x ptr]] [[2 x ptr] [ptr @leaf, ptr null], [2 x ptr] [ptr null, ptr @root]], align 16
@days = internal unnamed_addr constant [3 x ptr] [ptr @.str.2, ptr @.str.3, ptr @.str.4], align 16
@.str = private unnamed_addr constant [5 x i8] c"leaf\00", align 1
@.str.1 = private unnamed_addr constant [5 x i8] c"root\00", align 1
@.str.2 = private unnamed_addr constant [4 x i8] c"mon\00", align 1
@.str.3 = private unnamed_addr constant [4 x i8] c"tue\00", align 1
@.str.4 = private unnamed_addr constant [4 x i8] c"wed\00", align 1

; Function Attrs: nounwind uwtable
define dso_local i32 @main() local_unnamed_addr #0 {
  %1 = alloca [4 x i32], align 16
  %2 = alloca [4 x i32], align 16
  br label %3

3:                                                ; preds = %5, %0
  %.013 = phi i32 [ 0, %0 ], [ %12, %5 ]
  %4 = icmp slt i32 %.013, 3
  br i1 %4, label %5, label %13

5:                                                ; preds = %3
  %6 = sext i32 %.013 to i64
  %7 = getelementptr inbounds [3 x ptr], ptr @days, i64 0, i64 %6
  %8 = load ptr, ptr %7, align 8, !tbaa !5
  call fastcc void @word(ptr noundef %8) #3
  %9 = icmp slt i32 %.013, 2
  %10 = select i1 %9, i32 32, i32 10
  %11 = call i32 @putchar(i32 noundef %10) #3
  %12 = add nsw i32 %.013, 1
  br label %3, !llvm.loop !9

13:                                               ; preds = %3
  %14 = add nsw i32 1, 2
  call void @llvm.lifetime.start.p0(i64 16, ptr %1) #4
  store i32 %14, ptr %1, align 4, !tbaa !12
  %15 = getelementptr inbounds i32, ptr %1, i64 1
  store i32 28, ptr %15, align 4, !tbaa !12
  %16 = getelementptr inbounds i32, ptr %15, i64 1
  store i32 0, ptr %16, align 4, !tbaa !12
  %17 = getelementptr inbounds i32, ptr %16, i64 1
  store i32 31, ptr %17, align 4, !tbaa !12
  br label %18

18:                                               ; preds = %20, %13
  %.012 = phi i32 [ 0, %13 ], [ %27, %20 ]
  %19 = icmp slt i32 %.012, 4
  br i1 %19, label %20, label %28

20:                                               ; preds = %18
  %21 = sext i32 %.012 to i64
  %22 = getelementptr inbounds [4 x i32], ptr %1, i64 0, i64 %21
  %23 = load i32, ptr %22, align 4, !tbaa !12
  call fastcc void @number(i32 noundef %23) #3
  %24 = icmp slt i32 %.012, 3
  %25 = select i1 %24, i32 32, i32 10
  %26 = call i32 @putchar(i32 noundef %25) #3
  %27 = add nsw i32 %.012, 1
  br label %18, !llvm.loop !14

28:                                               ; preds = %18
  call fastcc void @walk(ptr noundef @root) #3
  %29 = call i32 @putchar(i32 noundef 99) #3
  %30 = call i32 @putchar(i32 noundef 100) #3
  %31 = call i32 @putchar(i32 noundef 32) #3
  call fastcc void @number(i32 noundef 6) #3
  %32 = call i32 @putchar(i32 noundef 10) #3
  call void @llvm.lifetime.start.p0(i64 16, ptr %2) #4
  %33 = zext i8 7 to i32
  store i32 %33, ptr %2, align 4, !tbaa !12
  %34 = getelementptr inbounds i32, ptr %2, i64 1
  %35 = zext i16 0 to i32
  store i32 %35, ptr %34, align 4, !tbaa !12
  %36 = getelementptr inbounds i32, ptr %34, i64 1
  %37 = zext i8 9 to i32
  store i32 %37, ptr %36, align 4, !tbaa !12
  %38 = getelementptr inbounds i32, ptr %36, i64 1
  %39 = zext i16 258 to i32
  store i32 %39, ptr %38, align 4, !tbaa !12
  br label %40

40:                                               ; preds = %42, %28
  %.0 = phi i32 [ 0, %28 ], [ %49, %42 ]
  %41 = icmp slt i32 %.0, 4
  br i1 %41, label %42, label %50

42:                                               ; preds = %40
  %43 = sext i32 %.0 to i64
  %44 = getelementptr inbounds [4 x i32], ptr %2, i64 0, i64 %43
  %45 = load i32, ptr %44, align 4, !tbaa !12
  call fastcc void @number(i32 noundef %45) #3
  %46 = icmp slt i32 %.0, 3
  %47 = select i1 %46, i32 32, i32 10
  %48 = call i32 @putchar(i32 noundef %47) #3
  %49 = add nsw i32 %.0, 1
  br label %40, !llvm.loop !15

50:                                               ; preds = %40
  call void @llvm.lifetime.end.p0(i64 16, ptr %2) #4
  call void @llvm.lifetime.end.p0(i64 16, ptr %1) #4
  ret i32 62
}

; Function Attrs: nocallback nofree nosync nounwind willreturn memory(argmem: readwrite)
declare void @llvm.lifetime.start.p0(i64 immarg, ptr nocapture) #1

; Function Attrs: nounwind uwtable
define internal fastcc void @word(ptr noundef %0) unnamed_addr #0 {
  br label %2

2:                                                ; preds = %5, %1
  %.0 = phi ptr [ %0, %1 ], [ %6, %5 ]
  %3 = load i8, ptr %.0, align 1, !tbaa !16
  %4 = icmp ne i8 %3, 0
  br i1 %4, label %5, label %9

5:                                                ; preds = %2
  %6 = getelementptr inbounds i8, ptr %.0, i32 1
  %7 = sext i8 %3 to i32
  %8 = call i32 @putchar(i32 noundef %7) #3
  br label %2, !llvm.loop !17

9:                                                ; preds = %2
  ret void
}

declare i32 @putchar(i32 noundef) local_unnamed_addr #2

; Function Attrs: nocallback nofree nosync nounwind willreturn memory(argmem: readwrite)
declare void @llvm.lifetime.end.p0(i64 immarg, ptr nocapture) #1

; Function Attrs: nounwind uwtable
define internal fastcc void @number(i32 noundef %0) unnamed_addr #0 {
  %2 = icmp sge i32 %0, 10
  br i1 %2, label %3, label %5

3:                                                ; preds = %1
  %4 = sdiv i32 %0, 10
  call fastcc void @number(i32 noundef %4) #3
  br label %5

5:                                                ; preds = %3, %1
  %6 = srem i32 %0, 10
  %7 = add nsw i32 48, %6
  %8 = call i32 @putchar(i32 noundef %7) #3
  ret void
}

; Function Attrs: nounwind uwtable
define internal fastcc void @walk(ptr noundef %0) unnamed_addr #0 {
  %2 = icmp ne ptr %0, null
  br i1 %2, label %3, label %12

3:                                                ; preds = %1
  %4 = getelementptr inbounds %struct.tree, ptr %0, i32 0, i32 1
  %5 = load ptr, ptr %4, align 8, !tbaa !18
  call fastcc void @walk(ptr noundef %5) #3
  %6 = getelementptr inbounds %struct.tree, ptr %0, i32 0, i32 2
  %7 = load ptr, ptr %6, align 8, !tbaa !20
  call fastcc void @walk(ptr noundef %7) #3
  %8 = load ptr, ptr %0, align 8, !tbaa !21
  call fastcc void @word(ptr noundef %8) #3
  %9 = icmp eq ptr %0, @root
  %10 = select i1 %9, i32 10, i32 32
  %11 = call i32 @putchar(i32 noundef %10) #3
  br label %12

12:                                               ; preds = %1, %3
  ret void
}

attributes #0 = { nounwind uwtable "min-legal-vector-width"="0" "no-builtins" "no-jump-tables"="true" "no-trapping-math"="true" "stack-protector-buffer-size"="8" "target-cpu"="x86-64" "target-features"="+cx8,+fxsr,+mmx,+sse,+sse2,+x87" "tune-cpu"="generic" }
attributes #1 = { nocallback nofree nosync nounwind willreturn memory(argmem: readwrite) }
attributes #2 = { "no-builtins" "no-trapping-math"="true" "stack-protector-buffer-size"="8" "target-cpu"="x86-64" "target-features"="+cx8,+fxsr,+mmx,+sse,+sse2,+x87" "tune-cpu"="generic" }
attributes #3 = { nobuiltin "no-builtins" }
attributes #4 = { nounwind }

!llvm.module.flags = !{!0, !1, !2, !3}
!llvm.ident = !{!4}

!0 = !{i32 1, !"wchar_size", i32 4}
!1 = !{i32 8, !"PIC Level", i32 2}
!2 = !{i32 7, !"PIE Level", i32 2}
!3 = !{i32 7, !"uwtable", i32 2}
!4 = !{!"Debian clang version 16.0.6 (15~deb12u1)"}
!5 = !{!6, !6, i64 0}
!6 = !{!"any pointer", !7, i64 0}
!7 = !{!"omnipotent char", !8, i64 0}
!8 = !{!"Simple C/C++ TBAA"}
!9 = distinct !{!9, !10, !11}
!10 = !{!"llvm.loop.mustprogress"}
!11 = !{!"llvm.loop.unroll.disable"}
!12 = !{!13, !13, i64 0}
!13 = !{!"int", !7, i64 0}
!14 = distinct !{!14, !10, !11}
!15 = distinct !{!15, !10, !11}
!16 = !{!7, !7, i64 0}
!17 = distinct !{!17, !10, !11}
!18 = !{!19, !6, i64 8}
!19 = !{!"tree", !6, i64 0, !6, i64 8, !6, i64 16}
!20 = !{!19, !6, i64 16}
!21 = !{!19, !6, i64 0}
