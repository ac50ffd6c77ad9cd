; ModuleID = '<stdin>'
source_filename = "calculator.c"
target datalayout = "e-m:e-p270:32:32-p271:32:32-p272:64:64-i64:64-f80:128-n8:16:32:64-S128"
target triple = "x86_64-unknown-linux-gnu"

%struct.reader = type { i32, i8 }

@.str = private unnamed_addr constant [6 x i8] c"error\00", align 1

; Function Attrs: nounwind uwtable
define dso_local i32 @main() local_unnamed_addr #0 {
  %1 = alloca %struct.reader, align 4
  call void @llvm.lifetime.start.p0(i64 8, ptr %1) #3
  %2 = call i32 @getchar() #4
  store i32 %2, ptr %1, align 4, !tbaa !5
  br label %3

3:                                                ; preds = %17, %0
  %4 = phi i32 [ %2, %0 ], [ %18, %17 ]
  %.0 = phi i32 [ 0, %0 ], [ %19, %17 ]
  %5 = icmp sge i32 %4, 0
  br i1 %5, label %6, label %20

6:                                                ; preds = %3
  %7 = getelementptr inbounds %struct.reader, ptr %1, i32 0, i32 1
  store i8 0, ptr %7, align 4, !tbaa !11
  %8 = call fastcc i32 @sum(ptr noundef %1) #4
  %9 = load i8, ptr %7, align 4, !tbaa !11, !range !12, !noundef !13
  %10 = trunc i8 %9 to i1
  %11 = load i32, ptr %1, align 4
  %12 = icmp ne i32 %11, 10
  %or.cond = select i1 %10, i1 true, i1 %12
  br i1 %or.cond, label %13, label %15

13:                                               ; preds = %6
  %14 = call i32 @puts(ptr noundef @.str) #4
  br label %17

15:                                               ; preds = %6
  call fastcc void @number(i32 noundef %8) #4
  %16 = call i32 @putchar(i32 noundef 10) #4
  br label %17

17:                                               ; preds = %13, %15
  %18 = call i32 @getchar() #4
  store i32 %18, ptr %1, align 4, !tbaa !5
  %19 = add nsw i32 %.0, 1
  br label %3, !llvm.loop !14

20:                                               ; preds = %3
  call void @llvm.lifetime.end.p0(i64 8, ptr %1) #3
  ret i32 %.0
}

; Function Attrs: nocallback nofree nosync nounwind willreturn memory(argmem: readwrite)
declare void @llvm.lifetime.start.p0(i64 immarg, ptr nocapture) #1

declare i32 @getchar() local_unnamed_addr #2

; Function Attrs: nounwind uwtable
define internal fastcc i32 @sum(ptr noundef %0) unnamed_addr #0 {
  %2 = call fastcc i32 @product(ptr noundef %0) #4
  br label %3

3:                                                ; preds = %13, %1
  %.0 = phi i32 [ %2, %1 ], [ %15, %13 ]
  %4 = load i32, ptr %0, align 4, !tbaa !5
  switch i32 %4, label %16 [
    i32 45, label %5
    i32 43, label %5
  ]

5:                                                ; preds = %3, %3
  %6 = call i32 @getchar() #4
  store i32 %6, ptr %0, align 4, !tbaa !5
  %7 = icmp eq i32 %4, 43
  br i1 %7, label %8, label %10

8:                                                ; preds = %5
  %9 = call fastcc i32 @product(ptr noundef %0) #4
  br label %13

10:                                               ; preds = %5
  %11 = call fastcc i32 @product(ptr noundef %0) #4
  %12 = sub nsw i32 0, %11
  br label %13

13:                                               ; preds = %10, %8
  %14 = phi i32 [ %9, %8 ], [ %12, %10 ]
  %15 = add nsw i32 %.0, %14
  br label %3, !llvm.loop !17

16:                                               ; preds = %3
  ret i32 %.0
}

declare i32 @puts(ptr noundef) local_unnamed_addr #2

; Function Attrs: nounwind uwtable
define internal fastcc void @number(i32 noundef %0) unnamed_addr #0 {
  %2 = icmp slt i32 %0, 0
  br i1 %2, label %3, label %5

3:                                                ; preds = %1
  %4 = call i32 @putchar(i32 noundef 45) #4
  br label %5

5:                                                ; preds = %3, %1
  %6 = icmp sge i32 %0, 10
  %7 = icmp sle i32 %0, -10
  %or.cond = or i1 %6, %7
  br i1 %or.cond, label %8, label %16

8:                                                ; preds = %5
  br i1 %2, label %9, label %12

9:                                                ; preds = %8
  %10 = sdiv i32 %0, 10
  %11 = sub nsw i32 0, %10
  br label %14

12:                                               ; preds = %8
  %13 = sdiv i32 %0, 10
  br label %14

14:                                               ; preds = %12, %9
  %15 = phi i32 [ %11, %9 ], [ %13, %12 ]
  call fastcc void @number(i32 noundef %15) #4
  br label %16

16:                                               ; preds = %5, %14
  br i1 %2, label %17, label %20

17:                                               ; preds = %16
  %18 = srem i32 %0, 10
  %19 = sub nsw i32 0, %18
  br label %22

20:                                               ; preds = %16
  %21 = srem i32 %0, 10
  br label %22

22:                                               ; preds = %20, %17
  %23 = phi i32 [ %19, %17 ], [ %21, %20 ]
  %24 = add nsw i32 48, %23
  %25 = call i32 @putchar(i32 noundef %24) #4
  ret void
}

declare i32 @putchar(i32 noundef) local_unnamed_addr #2

; Function Attrs: nocallback nofree nosync nounwind willreturn memory(argmem: readwrite)
declare void @llvm.lifetime.end.p0(i64 immarg, ptr nocapture) #1

; Function Attrs: nounwind uwtable
define internal fastcc i32 @product(ptr noundef %0) unnamed_addr #0 {
  %2 = call fastcc i32 @factor(ptr noundef %0) #4
  br label %3

3:                                                ; preds = %21, %1
  %.0 = phi i32 [ %2, %1 ], [ %.2, %21 ]
  %4 = load i32, ptr %0, align 4, !tbaa !5
  switch i32 %4, label %5 [
    i32 42, label %.critedge
    i32 47, label %.critedge
    i32 37, label %.critedge
  ]

5:                                                ; preds = %3
  ret i32 %.0

.critedge:                                        ; preds = %3, %3, %3
  %6 = call i32 @getchar() #4
  store i32 %6, ptr %0, align 4, !tbaa !5
  %7 = call fastcc i32 @factor(ptr noundef %0) #4
  %8 = icmp eq i32 %4, 42
  br i1 %8, label %9, label %11

9:                                                ; preds = %.critedge
  %10 = mul nsw i32 %.0, %7
  br label %21

11:                                               ; preds = %.critedge
  %12 = icmp eq i32 %7, 0
  br i1 %12, label %13, label %15

13:                                               ; preds = %11
  %14 = getelementptr inbounds %struct.reader, ptr %0, i32 0, i32 1
  store i8 1, ptr %14, align 4, !tbaa !11
  br label %21

15:                                               ; preds = %11
  %16 = icmp eq i32 %4, 47
  br i1 %16, label %17, label %19

17:                                               ; preds = %15
  %18 = sdiv i32 %.0, %7
  br label %21

19:                                               ; preds = %15
  %20 = srem i32 %.0, %7
  br label %21

21:                                               ; preds = %13, %19, %17, %9
  %.2 = phi i32 [ %10, %9 ], [ %.0, %13 ], [ %18, %17 ], [ %20, %19 ]
  br label %3, !llvm.loop !18
}

; Function Attrs: nounwind uwtable
define internal fastcc i32 @factor(ptr noundef %0) unnamed_addr #0 {
  %2 = load i32, ptr %0, align 4, !tbaa !5
  switch i32 %2, label %21 [
    i32 45, label %3
    i32 40, label %7
  ]

3:                                                ; preds = %1
  %4 = call i32 @getchar() #4
  store i32 %4, ptr %0, align 4, !tbaa !5
  %5 = call fastcc i32 @factor(ptr noundef %0) #4
  %6 = sub nsw i32 0, %5
  br label %41

7:                                                ; preds = %1
  %8 = call i32 @getchar() #4
  store i32 %8, ptr %0, align 4, !tbaa !5
  %9 = call fastcc i32 @sum(ptr noundef %0) #4
  %10 = load i32, ptr %0, align 4, !tbaa !5
  %11 = icmp ne i32 %10, 41
  %12 = zext i1 %11 to i32
  %13 = getelementptr inbounds %struct.reader, ptr %0, i32 0, i32 1
  %14 = load i8, ptr %13, align 4, !tbaa !11, !range !12, !noundef !13
  %15 = trunc i8 %14 to i1
  %16 = zext i1 %15 to i32
  %17 = or i32 %16, %12
  %18 = icmp ne i32 %17, 0
  %19 = zext i1 %18 to i8
  store i8 %19, ptr %13, align 4, !tbaa !11
  %20 = call i32 @getchar() #4
  store i32 %20, ptr %0, align 4, !tbaa !5
  br label %41

21:                                               ; preds = %1
  %22 = icmp slt i32 %2, 48
  %23 = icmp sgt i32 %2, 57
  %spec.select = select i1 %22, i1 true, i1 %23
  %24 = zext i1 %spec.select to i32
  %25 = getelementptr inbounds %struct.reader, ptr %0, i32 0, i32 1
  %26 = load i8, ptr %25, align 4, !tbaa !11, !range !12, !noundef !13
  %27 = trunc i8 %26 to i1
  %28 = zext i1 %27 to i32
  %29 = or i32 %28, %24
  %30 = icmp ne i32 %29, 0
  %31 = zext i1 %30 to i8
  store i8 %31, ptr %25, align 4, !tbaa !11
  br label %32

32:                                               ; preds = %36, %21
  %33 = phi i32 [ %2, %21 ], [ %40, %36 ]
  %.0 = phi i32 [ 0, %21 ], [ %39, %36 ]
  %34 = icmp sge i32 %33, 48
  %35 = icmp sle i32 %33, 57
  %spec.select20 = select i1 %34, i1 %35, i1 false
  br i1 %spec.select20, label %36, label %41

36:                                               ; preds = %32
  %37 = mul nsw i32 10, %.0
  %38 = add nsw i32 %37, %33
  %39 = sub nsw i32 %38, 48
  %40 = call i32 @getchar() #4
  store i32 %40, ptr %0, align 4, !tbaa !5
  br label %32, !llvm.loop !19

41:                                               ; preds = %32, %7, %3
  %.019 = phi i32 [ %6, %3 ], [ %9, %7 ], [ %.0, %32 ]
  ret i32 %.019
}

attributes #0 = { nounwind uwtable "min-legal-vector-width"="0" "no-builtins" "no-jump-tables"="true" "no-trapping-math"="true" "stack-protector-buffer-size"="8" "target-cpu"="x86-64" "target-features"="+cx8,+fxsr,+mmx,+sse,+sse2,+x87" "tune-cpu"="generic" }
attributes #1 = { nocallback nofree nosync nounwind willreturn memory(argmem: readwrite) }
attributes #2 = { "no-builtins" "no-trapping-math"="true" "stack-protector-buffer-size"="8" "target-cpu"="x86-64" "target-features"="+cx8,+fxsr,+mmx,+sse,+sse2,+x87" "tune-cpu"="generic" }
attributes #3 = { nounwind }
attributes #4 = { nobuiltin "no-builtins" }

!llvm.module.flags = !{!0, !1, !2, !3}
!llvm.ident = !{!4}

!0 = !{i32 1, !"wchar_size", i32 4}
!1 = !{i32 8, !"PIC Level", i32 2}
!2 = !{i32 7, !"PIE Level", i32 2}
!3 = !{i32 7, !"uwtable", i32 2}
!4 = !{!"Debian clang version 16.0.6 (15~deb12u1)"}
!5 = !{!6, !7, i64 0}
!6 = !{!"reader", !7, i64 0, !10, i64 4}
!7 = !{!"int", !8, i64 0}
!8 = !{!"omnipotent char", !9, i64 0}
!9 = !{!"Simple C/C++ TBAA"}
!10 = !{!"_Bool", !8, i64 0}
!11 = !{!6, !10, i64 4}
!12 = !{i8 0, i8 2}
!13 = !{}
!14 = distinct !{!14, !15, !16}
!15 = !{!"llvm.loop.mustprogress"}
!16 = !{!"llvm.loop.unroll.disable"}
!17 = distinct !{!17, !15, !16}
!18 = distinct !{!18, !15, !16}
!19 = distinct !{!19, !15, !16}
