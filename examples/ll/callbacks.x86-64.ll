; ModuleID = '<stdin>'
source_filename = "callbacks.c"
target datalayout = "e-m:e-p270:32:32-p271:32:32-p272:64:64-i64:64-f80:128-n8:16:32:64-S128"
target triple = "x86_64-unknown-linux-gnu"

@__const.main.numbers = private unnamed_addr constant [6 x i32] [i32 1, i32 2, i32 3, i32 4, i32 5, i32 6], align 16
@table = internal unnamed_addr constant [5 x ptr] [ptr @add, ptr @sub, ptr @mul, ptr @quotient, ptr @rest], align 16

; Function Attrs: nounwind uwtable
define dso_local i32 @main() local_unnamed_addr #0 {
  %1 = alloca [5 x i32], align 16
  %2 = alloca [6 x i32], align 16
  %3 = alloca [6 x i32], align 16
  %4 = alloca i32, align 4
  call void @llvm.lifetime.start.p0(i64 20, ptr %1) #4
  call void @llvm.lifetime.start.p0(i64 24, ptr %2) #4
  call void @llvm.memcpy.p0.p0.i64(ptr align 16 %2, ptr align 16 @__const.main.numbers, i64 24, i1 false)
  call void @llvm.lifetime.start.p0(i64 24, ptr %3) #4
  br label %5

5:                                                ; preds = %7, %0
  %.0 = phi i32 [ 0, %0 ], [ %13, %7 ]
  %6 = icmp slt i32 %.0, 5
  br i1 %6, label %7, label %14

7:                                                ; preds = %5
  %8 = sext i32 %.0 to i64
  %9 = getelementptr inbounds [5 x ptr], ptr @table, i64 0, i64 %8
  %10 = load ptr, ptr %9, align 8, !tbaa !5
  %11 = call i32 %10(i32 noundef 8, i32 noundef 4) #5
  %12 = getelementptr inbounds [5 x i32], ptr %1, i64 0, i64 %8
  store i32 %11, ptr %12, align 4, !tbaa !9
  %13 = add nsw i32 %.0, 1
  br label %5, !llvm.loop !11

14:                                               ; preds = %5
  call fastcc void @show(ptr noundef %1, i32 noundef 5) #5
  call fastcc void @map(ptr noundef %3, ptr noundef %2, i32 noundef 6, ptr noundef @square) #5
  call fastcc void @show(ptr noundef %3, i32 noundef 6) #5
  call void @llvm.lifetime.start.p0(i64 4, ptr %4) #4
  %15 = call fastcc i32 @fold(ptr noundef %3, i32 noundef 6, i32 noundef 0, ptr noundef @add) #5
  store i32 %15, ptr %4, align 4, !tbaa !9
  call fastcc void @show(ptr noundef %4, i32 noundef 1) #5
  call fastcc void @sort(ptr noundef %2, i32 noundef 6, ptr noundef @later) #5
  call fastcc void @show(ptr noundef %2, i32 noundef 6) #5
  %16 = load i32, ptr %4, align 4, !tbaa !9
  call void @llvm.lifetime.end.p0(i64 4, ptr %4) #4
  call void @llvm.lifetime.end.p0(i64 24, ptr %3) #4
  call void @llvm.lifetime.end.p0(i64 24, ptr %2) #4
  call void @llvm.lifetime.end.p0(i64 20, ptr %1) #4
  ret i32 %16
}

; Function Attrs: nocallback nofree nosync nounwind willreturn memory(argmem: readwrite)
declare void @llvm.lifetime.start.p0(i64 immarg, ptr nocapture) #1

; Function Attrs: nocallback nofree nounwind willreturn memory(argmem: readwrite)
declare void @llvm.memcpy.p0.p0.i64(ptr noalias nocapture writeonly, ptr noalias nocapture readonly, i64, i1 immarg) #2

; Function Attrs: nocallback nofree nosync nounwind willreturn memory(argmem: readwrite)
declare void @llvm.lifetime.end.p0(i64 immarg, ptr nocapture) #1

; Function Attrs: nounwind uwtable
define internal fastcc void @show(ptr noundef %0, i32 noundef %1) unnamed_addr #0 {
  br label %3

3:                                                ; preds = %5, %2
  %.0 = phi i32 [ 0, %2 ], [ %9, %5 ]
  %4 = icmp slt i32 %.0, %1
  br i1 %4, label %5, label %13

5:                                                ; preds = %3
  %6 = sext i32 %.0 to i64
  %7 = getelementptr inbounds i32, ptr %0, i64 %6
  %8 = load i32, ptr %7, align 4, !tbaa !9
  call fastcc void @number(i32 noundef %8) #5
  %9 = add nsw i32 %.0, 1
  %10 = icmp slt i32 %9, %1
  %11 = select i1 %10, i32 32, i32 10
  %12 = call i32 @putchar(i32 noundef %11) #5
  br label %3, !llvm.loop !14

13:                                               ; preds = %3
  ret void
}

; Function Attrs: nounwind uwtable
define internal fastcc void @map(ptr noundef %0, ptr noundef %1, i32 noundef %2, ptr noundef %3) unnamed_addr #0 {
  br label %5

5:                                                ; preds = %7, %4
  %.0 = phi i32 [ 0, %4 ], [ %13, %7 ]
  %6 = icmp slt i32 %.0, %2
  br i1 %6, label %7, label %14

7:                                                ; preds = %5
  %8 = sext i32 %.0 to i64
  %9 = getelementptr inbounds i32, ptr %1, i64 %8
  %10 = load i32, ptr %9, align 4, !tbaa !9
  %11 = call i32 %3(i32 noundef %10) #5
  %12 = getelementptr inbounds i32, ptr %0, i64 %8
  store i32 %11, ptr %12, align 4, !tbaa !9
  %13 = add nsw i32 %.0, 1
  br label %5, !llvm.loop !15

14:                                               ; preds = %5
  ret void
}

; Function Attrs: nounwind uwtable
define internal i32 @square(i32 noundef %0) #0 {
  %2 = mul nsw i32 %0, %0
  ret i32 %2
}

; Function Attrs: nounwind uwtable
define internal fastcc i32 @fold(ptr noundef %0, i32 noundef %1, i32 noundef %2, ptr noundef %3) unnamed_addr #0 {
  br label %5

5:                                                ; preds = %8, %4
  %.05 = phi i32 [ %1, %4 ], [ %6, %8 ]
  %.04 = phi i32 [ %2, %4 ], [ %11, %8 ]
  %.0 = phi ptr [ %0, %4 ], [ %9, %8 ]
  %6 = add nsw i32 %.05, -1
  %7 = icmp ne i32 %.05, 0
  br i1 %7, label %8, label %12

8:                                                ; preds = %5
  %9 = getelementptr inbounds i32, ptr %.0, i32 1
  %10 = load i32, ptr %.0, align 4, !tbaa !9
  %11 = call i32 %3(i32 noundef %.04, i32 noundef %10) #5
  br label %5, !llvm.loop !16

12:                                               ; preds = %5
  ret i32 %.04
}

; Function Attrs: nounwind uwtable
define internal i32 @add(i32 noundef %0, i32 noundef %1) #0 {
  %3 = add nsw i32 %0, %1
  ret i32 %3
}

; Function Attrs: nounwind uwtable
define internal fastcc void @sort(ptr noundef %0, i32 noundef %1, ptr noundef %2) unnamed_addr #0 {
  br label %4

4:                                                ; preds = %22, %3
  %.0 = phi i32 [ 0, %3 ], [ %23, %22 ]
  %5 = icmp slt i32 %.0, %1
  br i1 %5, label %6, label %24

6:                                                ; preds = %4, %21
  %.019 = phi i32 [ %7, %21 ], [ 0, %4 ]
  %7 = add nsw i32 %.019, 1
  %8 = icmp slt i32 %7, %1
  br i1 %8, label %9, label %22

9:                                                ; preds = %6
  %10 = sext i32 %.019 to i64
  %11 = getelementptr inbounds i32, ptr %0, i64 %10
  %12 = load i32, ptr %11, align 4, !tbaa !9
  %13 = sext i32 %7 to i64
  %14 = getelementptr inbounds i32, ptr %0, i64 %13
  %15 = load i32, ptr %14, align 4, !tbaa !9
  %16 = call i32 %2(i32 noundef %12, i32 noundef %15) #5
  %17 = icmp ne i32 %16, 0
  br i1 %17, label %18, label %21

18:                                               ; preds = %9
  %19 = load i32, ptr %11, align 4, !tbaa !9
  %20 = load i32, ptr %14, align 4, !tbaa !9
  store i32 %20, ptr %11, align 4, !tbaa !9
  store i32 %19, ptr %14, align 4, !tbaa !9
  br label %21

21:                                               ; preds = %9, %18
  br label %6, !llvm.loop !17

22:                                               ; preds = %6
  %23 = add nsw i32 %.0, 1
  br label %4, !llvm.loop !18

24:                                               ; preds = %4
  ret void
}

; Function Attrs: nounwind uwtable
define internal i32 @later(i32 noundef %0, i32 noundef %1) #0 {
  %3 = icmp sgt i32 %1, %0
  %4 = zext i1 %3 to i32
  ret i32 %4
}

; Function Attrs: nounwind uwtable
define internal i32 @sub(i32 noundef %0, i32 noundef %1) #0 {
  %3 = sub nsw i32 %0, %1
  ret i32 %3
}

; Function Attrs: nounwind uwtable
define internal i32 @mul(i32 noundef %0, i32 noundef %1) #0 {
  %3 = mul nsw i32 %0, %1
  ret i32 %3
}

; Function Attrs: nounwind uwtable
define internal i32 @quotient(i32 noundef %0, i32 noundef %1) #0 {
  %3 = sdiv i32 %0, %1
  ret i32 %3
}

; Function Attrs: nounwind uwtable
define internal i32 @rest(i32 noundef %0, i32 noundef %1) #0 {
  %3 = srem i32 %0, %1
  ret i32 %3
}

; Function Attrs: nounwind uwtable
define internal fastcc void @number(i32 noundef %0) unnamed_addr #0 {
  %2 = icmp sge i32 %0, 10
  br i1 %2, label %3, label %5

3:                                                ; preds = %1
  %4 = sdiv i32 %0, 10
  call fastcc void @number(i32 noundef %4) #5
  br label %5

5:                                                ; preds = %3, %1
  %6 = srem i32 %0, 10
  %7 = add nsw i32 48, %6
  %8 = call i32 @putchar(i32 noundef %7) #5
  ret void
}

declare i32 @putchar(i32 noundef) local_unnamed_addr #3

attributes #0 = { nounwind uwtable "min-legal-vector-width"="0" "no-builtins" "no-jump-tables"="true" "no-trapping-math"="true" "stack-protector-buffer-size"="8" "target-cpu"="x86-64" "target-features"="+cx8,+fxsr,+mmx,+sse,+sse2,+x87" "tune-cpu"="generic" }
attributes #1 = { nocallback nofree nosync nounwind willreturn memory(argmem: readwrite) }
attributes #2 = { nocallback nofree nounwind willreturn memory(argmem: readwrite) }
attributes #3 = { "no-builtins" "no-trapping-math"="true" "stack-protector-buffer-size"="8" "target-cpu"="x86-64" "target-features"="+cx8,+fxsr,+mmx,+sse,+sse2,+x87" "tune-cpu"="generic" }
attributes #4 = { nounwind }
attributes #5 = { nobuiltin "no-builtins" }

!llvm.module.flags = !{!0, !1, !2, !3}
!llvm.ident = !{!4}

!0 = !{i32 1, !"wchar_size", i32 4}
!1 = !{i32 8, !"PIC Level", i32 2}
!2 = !{i32 7, !"PIE Level", i32 2}
!3 = !{i32 7, !"uwtable", i32 2}
!4 = !{!"Debian clang version 16.0.6 (15~deb12u1)"}
!5 = !{!6, !6, i64 0}
!6 = !{!"any pointer", !7, i64 0}
!7 = !{!"omnipotent char", !8, i64 0}
!8 = !{!"Simple C/C++ TBAA"}
!9 = !{!10, !10, i64 0}
!10 = !{!"int", !7, i64 0}
!11 = distinct !{!11, !12, !13}
!12 = !{!"llvm.loop.mustprogress"}
!13 = !{!"llvm.loop.unroll.disable"}
!14 = distinct !{!14, !12, !13}
!15 = distinct !{!15, !12, !13}
!16 = distinct !{!16, !12, !13}
!17 = distinct !{!17, !12, !13}
!18 = distinct !{!18, !12, !13}
