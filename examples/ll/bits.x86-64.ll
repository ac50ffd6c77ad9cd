; ModuleID = '<stdin>'
source_filename = "bits.c"
target datalayout = "e-m:e-p270:32:32-p271:32:32-p272:64:64-i64:64-f80:128-n8:16:32:64-S128"
target triple = "x86_64-unknown-linux-gnu"

@.str = private unnamed_addr constant [17 x i8] c"0123456789ABCDEF\00", align 1

; Function Attrs: nounwind uwtable
define dso_local i32 @main() local_unnamed_addr #0 {
  %1 = alloca [9 x i32], align 16
  %2 = call fastcc i32 @count(i32 noundef 305419896) #3
  call void @llvm.lifetime.start.p0(i64 36, ptr %1) #4
  store i32 %2, ptr %1, align 4, !tbaa !5
  %3 = getelementptr inbounds i32, ptr %1, i64 1
  %4 = call fastcc i32 @parity(i32 noundef 305419896) #3
  store i32 %4, ptr %3, align 4, !tbaa !5
  %5 = getelementptr inbounds i32, ptr %3, i64 1
  %6 = call fastcc i32 @turned(i32 noundef 4660, i32 noundef 16) #3
  store i32 %6, ptr %5, align 4, !tbaa !5
  %7 = getelementptr inbounds i32, ptr %5, i64 1
  %8 = call fastcc i32 @gray(i32 noundef 16) #3
  store i32 %8, ptr %7, align 4, !tbaa !5
  %9 = getelementptr inbounds i32, ptr %7, i64 1
  %10 = call fastcc i32 @from_gray(i32 noundef 13) #3
  store i32 %10, ptr %9, align 4, !tbaa !5
  %11 = getelementptr inbounds i32, ptr %9, i64 1
  %12 = call fastcc i32 @highest(i32 noundef 305419896) #3
  store i32 %12, ptr %11, align 4, !tbaa !5
  %13 = getelementptr inbounds i32, ptr %11, i64 1
  %14 = call fastcc i32 @lowest(i32 noundef 305419896) #3
  store i32 %14, ptr %13, align 4, !tbaa !5
  %15 = getelementptr inbounds i32, ptr %13, i64 1
  %16 = call fastcc i32 @left(i32 noundef 305419896, i32 noundef 36) #3
  store i32 %16, ptr %15, align 4, !tbaa !5
  %17 = getelementptr inbounds i32, ptr %15, i64 1
  %18 = call fastcc i32 @root(i32 noundef -2144975872) #3
  store i32 %18, ptr %17, align 4, !tbaa !5
  br label %19

19:                                               ; preds = %21, %0
  %.0 = phi i32 [ 0, %0 ], [ %31, %21 ]
  %20 = icmp slt i32 %.0, 9
  br i1 %20, label %21, label %32

21:                                               ; preds = %19
  %22 = sext i32 %.0 to i64
  %23 = getelementptr inbounds [9 x i32], ptr %1, i64 0, i64 %22
  %24 = load i32, ptr %23, align 4, !tbaa !5
  %25 = icmp eq i32 %.0, 2
  %26 = icmp eq i32 %.0, 7
  %spec.select = select i1 %25, i1 true, i1 %26
  %27 = select i1 %spec.select, i32 16, i32 10
  call fastcc void @number(i32 noundef %24, i32 noundef %27) #3
  %28 = icmp slt i32 %.0, 8
  %29 = select i1 %28, i32 32, i32 10
  %30 = call i32 @putchar(i32 noundef %29) #3
  %31 = add nsw i32 %.0, 1
  br label %19, !llvm.loop !9

32:                                               ; preds = %19
  call void @llvm.lifetime.end.p0(i64 36, ptr %1) #4
  ret i32 %2
}

; Function Attrs: nocallback nofree nosync nounwind willreturn memory(argmem: readwrite)
declare void @llvm.lifetime.start.p0(i64 immarg, ptr nocapture) #1

; Function Attrs: nounwind uwtable
define internal fastcc i32 @count(i32 noundef %0) unnamed_addr #0 {
  br label %2

2:                                                ; preds = %4, %1
  %.05 = phi i32 [ %0, %1 ], [ %7, %4 ]
  %.0 = phi i32 [ 0, %1 ], [ %5, %4 ]
  %3 = icmp ne i32 %.05, 0
  br i1 %3, label %4, label %8

4:                                                ; preds = %2
  %5 = add i32 %.0, 1
  %6 = sub i32 %.05, 1
  %7 = and i32 %.05, %6
  br label %2, !llvm.loop !12

8:                                                ; preds = %2
  ret i32 %.0
}

; Function Attrs: nounwind uwtable
define internal fastcc i32 @parity(i32 noundef %0) unnamed_addr #0 {
  br label %2

2:                                                ; preds = %4, %1
  %.06 = phi i32 [ %0, %1 ], [ %6, %4 ]
  %.0 = phi i32 [ 16, %1 ], [ %7, %4 ]
  %3 = icmp ne i32 %.0, 0
  br i1 %3, label %4, label %8

4:                                                ; preds = %2
  %5 = lshr i32 %.06, %.0
  %6 = xor i32 %.06, %5
  %7 = sdiv i32 %.0, 2
  br label %2, !llvm.loop !13

8:                                                ; preds = %2
  %9 = and i32 %.06, 1
  ret i32 %9
}

; Function Attrs: nounwind uwtable
define internal fastcc i32 @turned(i32 noundef %0, i32 noundef %1) unnamed_addr #0 {
  br label %3

3:                                                ; preds = %5, %2
  %.09 = phi i32 [ 0, %2 ], [ %.1, %5 ]
  %.0 = phi i32 [ 0, %2 ], [ %13, %5 ]
  %4 = icmp slt i32 %.0, %1
  br i1 %4, label %5, label %14

5:                                                ; preds = %3
  %6 = lshr i32 %0, %.0
  %7 = and i32 %6, 1
  %8 = icmp ne i32 %7, 0
  %9 = sub nsw i32 %1, 1
  %10 = sub nsw i32 %9, %.0
  %11 = shl i32 1, %10
  %12 = or i32 %.09, %11
  %.1 = select i1 %8, i32 %12, i32 %.09
  %13 = add nsw i32 %.0, 1
  br label %3, !llvm.loop !14

14:                                               ; preds = %3
  ret i32 %.09
}

; Function Attrs: nounwind uwtable
define internal fastcc i32 @gray(i32 noundef %0) unnamed_addr #0 {
  %2 = lshr i32 %0, 1
  %3 = xor i32 %0, %2
  ret i32 %3
}

; Function Attrs: nounwind uwtable
define internal fastcc i32 @from_gray(i32 noundef %0) unnamed_addr #0 {
  br label %2

2:                                                ; preds = %4, %1
  %.05 = phi i32 [ %0, %1 ], [ %6, %4 ]
  %.0 = phi i32 [ 0, %1 ], [ %5, %4 ]
  %3 = icmp ne i32 %.05, 0
  br i1 %3, label %4, label %7

4:                                                ; preds = %2
  %5 = xor i32 %.0, %.05
  %6 = lshr i32 %.05, 1
  br label %2, !llvm.loop !15

7:                                                ; preds = %2
  ret i32 %.0
}

; Function Attrs: nounwind uwtable
define internal fastcc i32 @highest(i32 noundef %0) unnamed_addr #0 {
  br label %2

2:                                                ; preds = %4, %1
  %.04 = phi i32 [ %0, %1 ], [ %6, %4 ]
  %.0 = phi i32 [ -1, %1 ], [ %5, %4 ]
  %3 = icmp ne i32 %.04, 0
  br i1 %3, label %4, label %7

4:                                                ; preds = %2
  %5 = add nsw i32 %.0, 1
  %6 = lshr i32 %.04, 1
  br label %2, !llvm.loop !16

7:                                                ; preds = %2
  ret i32 %.0
}

; Function Attrs: nounwind uwtable
define internal fastcc i32 @lowest(i32 noundef %0) unnamed_addr #0 {
  br label %2

2:                                                ; preds = %6, %1
  %.04 = phi i32 [ %0, %1 ], [ %8, %6 ]
  %.0 = phi i32 [ 0, %1 ], [ %7, %6 ]
  %3 = and i32 %.04, 1
  %4 = icmp ne i32 %3, 0
  %5 = xor i1 %4, true
  br i1 %5, label %6, label %9

6:                                                ; preds = %2
  %7 = add nsw i32 %.0, 1
  %8 = lshr i32 %.04, 1
  br label %2, !llvm.loop !17

9:                                                ; preds = %2
  ret i32 %.0
}

; Function Attrs: nounwind uwtable
define internal fastcc i32 @left(i32 noundef %0, i32 noundef %1) unnamed_addr #0 {
  %3 = and i32 %1, 31
  %4 = shl i32 %0, %3
  %5 = icmp ne i32 %3, 0
  %6 = sub i32 32, %3
  %7 = lshr i32 %0, %6
  %8 = or i32 %4, %7
  %9 = select i1 %5, i32 %8, i32 %4
  ret i32 %9
}

; Function Attrs: nounwind uwtable
define internal fastcc i32 @root(i32 noundef %0) unnamed_addr #0 {
  br label %2

2:                                                ; preds = %4, %1
  %.010 = phi i32 [ 0, %1 ], [ %spec.select, %4 ]
  %.0 = phi i32 [ 32768, %1 ], [ %8, %4 ]
  %3 = icmp ne i32 %.0, 0
  br i1 %3, label %4, label %9

4:                                                ; preds = %2
  %5 = or i32 %.010, %.0
  %6 = mul i32 %5, %5
  %7 = icmp ule i32 %6, %0
  %spec.select = select i1 %7, i32 %5, i32 %.010
  %8 = lshr i32 %.0, 1
  br label %2, !llvm.loop !18

9:                                                ; preds = %2
  ret i32 %.010
}

; Function Attrs: nounwind uwtable
define internal fastcc void @number(i32 noundef %0, i32 noundef %1) unnamed_addr #0 {
  %3 = icmp uge i32 %0, %1
  br i1 %3, label %4, label %6

4:                                                ; preds = %2
  %5 = udiv i32 %0, %1
  call fastcc void @number(i32 noundef %5, i32 noundef %1) #3
  br label %6

6:                                                ; preds = %4, %2
  %7 = urem i32 %0, %1
  %8 = zext i32 %7 to i64
  %9 = getelementptr inbounds [17 x i8], ptr @.str, i64 0, i64 %8
  %10 = load i8, ptr %9, align 1, !tbaa !19
  %11 = sext i8 %10 to i32
  %12 = call i32 @putchar(i32 noundef %11) #3
  ret void
}

declare i32 @putchar(i32 noundef) local_unnamed_addr #2

; Function Attrs: nocallback nofree nosync nounwind willreturn memory(argmem: readwrite)
declare void @llvm.lifetime.end.p0(i64 immarg, ptr nocapture) #1

attributes #0 = { nounwind uwtable "min-legal-vector-width"="0" "no-builtins" "no-jump-tables"="true" "no-trapping-math"="true" "stack-protector-buffer-size"="8" "target-cpu"="x86-64" "target-features"="+cx8,+fxsr,+mmx,+sse,+sse2,+x87" "tune-cpu"="generic" }
attributes #1 = { nocallback nofree nosync nounwind willreturn memory(argmem: readwrite) }
attributes #2 = { "no-builtins" "no-trapping-math"="true" "stack-protector-buffer-size"="8" "target-cpu"="x86-64" "target-features"="+cx8,+fxsr,+mmx,+sse,+sse2,+x87" "tune-cpu"="generic" }
attributes #3 = { nobuiltin "no-builtins" }
attributes #4 = { nounwind }

!llvm.module.flags = !{!0, !1, !2, !3}
!llvm.ident = !{!4}

!0 = !{i32 1, !"wchar_size", i32 4}
!1 = !{i32 8, !"PIC Level", i32 2}
!2 = !{i32 7, !"PIE Level", i32 2}
!3 = !{i32 7, !"uwtable", i32 2}
!4 = !{!"Debian clang version 16.0.6 (15~deb12u1)"}
!5 = !{!6, !6, i64 0}
!6 = !{!"int", !7, i64 0}
!7 = !{!"omnipotent char", !8, i64 0}
!8 = !{!"Simple C/C++ TBAA"}
!9 = distinct !{!9, !10, !11}
!10 = !{!"llvm.loop.mustprogress"}
!11 = !{!"llvm.loop.unroll.disable"}
!12 = distinct !{!12, !10, !11}
!13 = distinct !{!13, !10, !11}
!14 = distinct !{!14, !10, !11}
!15 = distinct !{!15, !10, !11}
!16 = distinct !{!16, !10, !11}
!17 = distinct !{!17, !10, !11}
!18 = distinct !{!18, !10, !11}
!19 = !{!7, !7, i64 0}
