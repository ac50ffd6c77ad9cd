; ModuleID = '<stdin>'
source_filename = "recursion.c"
target datalayout = "e-m:e-p270:32:32-p271:32:32-p272:64:64-i64:64-f80:128-n8:16:32:64-S128"
target triple = "x86_64-unknown-linux-gnu"

@moves = internal unnamed_addr global i32 0, align 4

; Function Attrs: nounwind uwtable
define dso_local i32 @main() local_unnamed_addr #0 {
  %1 = alloca [4 x i32], align 16
  call fastcc void @hanoi(i32 noundef 3, i8 noundef signext 97, i8 noundef signext 98, i8 noundef signext 99) #3
  %2 = call i32 @putchar(i32 noundef 10) #3
  %3 = call fastcc i32 @ackermann(i32 noundef 3, i32 noundef 3) #3
  call void @llvm.lifetime.start.p0(i64 16, ptr %1) #4
  store i32 %3, ptr %1, align 4, !tbaa !5
  %4 = getelementptr inbounds i32, ptr %1, i64 1
  %5 = call fastcc i32 @even(i32 noundef 10) #3
  store i32 %5, ptr %4, align 4, !tbaa !5
  %6 = getelementptr inbounds i32, ptr %4, i64 1
  %7 = call fastcc i32 @even(i32 noundef 7) #3
  store i32 %7, ptr %6, align 4, !tbaa !5
  %8 = getelementptr inbounds i32, ptr %6, i64 1
  %9 = call fastcc i32 @divisor(i32 noundef 1071, i32 noundef 462) #3
  store i32 %9, ptr %8, align 4, !tbaa !5
  br label %10

10:                                               ; preds = %12, %0
  %.0 = phi i32 [ 0, %0 ], [ %19, %12 ]
  %11 = icmp slt i32 %.0, 4
  br i1 %11, label %12, label %20

12:                                               ; preds = %10
  %13 = sext i32 %.0 to i64
  %14 = getelementptr inbounds [4 x i32], ptr %1, i64 0, i64 %13
  %15 = load i32, ptr %14, align 4, !tbaa !5
  call fastcc void @number(i32 noundef %15) #3
  %16 = icmp slt i32 %.0, 3
  %17 = select i1 %16, i32 32, i32 10
  %18 = call i32 @putchar(i32 noundef %17) #3
  %19 = add nsw i32 %.0, 1
  br label %10, !llvm.loop !9

20:                                               ; preds = %10
  call void @llvm.lifetime.end.p0(i64 16, ptr %1) #4
  ret i32 %3
}

; Function Attrs: nounwind uwtable
define internal fastcc void @hanoi(i32 noundef %0, i8 noundef signext %1, i8 noundef signext %2, i8 noundef signext %3) unnamed_addr #0 {
  %5 = icmp eq i32 %0, 0
  br i1 %5, label %18, label %6

6:                                                ; preds = %4
  %7 = sub nsw i32 %0, 1
  call fastcc void @hanoi(i32 noundef %7, i8 noundef signext %1, i8 noundef signext %3, i8 noundef signext %2) #3
  %8 = load i32, ptr @moves, align 4, !tbaa !5
  %9 = add nsw i32 %8, 1
  store i32 %9, ptr @moves, align 4, !tbaa !5
  %10 = icmp ne i32 %8, 0
  br i1 %10, label %11, label %13

11:                                               ; preds = %6
  %12 = call i32 @putchar(i32 noundef 32) #3
  br label %13

13:                                               ; preds = %11, %6
  %14 = sext i8 %1 to i32
  %15 = call i32 @putchar(i32 noundef %14) #3
  %16 = sext i8 %2 to i32
  %17 = call i32 @putchar(i32 noundef %16) #3
  call fastcc void @hanoi(i32 noundef %7, i8 noundef signext %3, i8 noundef signext %2, i8 noundef signext %1) #3
  br label %18

18:                                               ; preds = %4, %13
  ret void
}

declare i32 @putchar(i32 noundef) local_unnamed_addr #1

; Function Attrs: nocallback nofree nosync nounwind willreturn memory(argmem: readwrite)
declare void @llvm.lifetime.start.p0(i64 immarg, ptr nocapture) #2

; Function Attrs: nounwind uwtable
define internal fastcc i32 @ackermann(i32 noundef %0, i32 noundef %1) unnamed_addr #0 {
  %3 = icmp eq i32 %0, 0
  br i1 %3, label %4, label %6

4:                                                ; preds = %2
  %5 = add i32 %1, 1
  br label %15

6:                                                ; preds = %2
  %7 = sub i32 %0, 1
  %8 = icmp eq i32 %1, 0
  br i1 %8, label %12, label %9

9:                                                ; preds = %6
  %10 = sub i32 %1, 1
  %11 = call fastcc i32 @ackermann(i32 noundef %0, i32 noundef %10) #3
  br label %12

12:                                               ; preds = %6, %9
  %13 = phi i32 [ %11, %9 ], [ 1, %6 ]
  %14 = call fastcc i32 @ackermann(i32 noundef %7, i32 noundef %13) #3
  br label %15

15:                                               ; preds = %12, %4
  %.0 = phi i32 [ %5, %4 ], [ %14, %12 ]
  ret i32 %.0
}

; Function Attrs: nounwind uwtable
define internal fastcc i32 @even(i32 noundef %0) unnamed_addr #0 {
  %2 = icmp eq i32 %0, 0
  br i1 %2, label %7, label %3

3:                                                ; preds = %1
  %4 = sub i32 %0, 1
  %5 = call fastcc i32 @odd(i32 noundef %4) #3
  %6 = icmp ne i32 %5, 0
  br label %7

7:                                                ; preds = %3, %1
  %8 = phi i1 [ true, %1 ], [ %6, %3 ]
  %9 = zext i1 %8 to i32
  ret i32 %9
}

; Function Attrs: nounwind uwtable
define internal fastcc i32 @divisor(i32 noundef %0, i32 noundef %1) unnamed_addr #0 {
  %3 = icmp eq i32 %1, 0
  br i1 %3, label %7, label %4

4:                                                ; preds = %2
  %5 = urem i32 %0, %1
  %6 = call fastcc i32 @divisor(i32 noundef %1, i32 noundef %5) #3
  br label %7

7:                                                ; preds = %2, %4
  %8 = phi i32 [ %6, %4 ], [ %0, %2 ]
  ret i32 %8
}

; Function Attrs: nounwind uwtable
define internal fastcc void @number(i32 noundef %0) unnamed_addr #0 {
  %2 = icmp uge i32 %0, 10
  br i1 %2, label %3, label %5

3:                                                ; preds = %1
  %4 = udiv i32 %0, 10
  call fastcc void @number(i32 noundef %4) #3
  br label %5

5:                                                ; preds = %3, %1
  %6 = urem i32 %0, 10
  %7 = add i32 48, %6
  %8 = call i32 @putchar(i32 noundef %7) #3
  ret void
}

; Function Attrs: nocallback nofree nosync nounwind willreturn memory(argmem: readwrite)
declare void @llvm.lifetime.end.p0(i64 immarg, ptr nocapture) #2

; Function Attrs: nounwind uwtable
define internal fastcc i32 @odd(i32 noundef %0) unnamed_addr #0 {
  %2 = icmp ne i32 %0, 0
  br i1 %2, label %3, label %7

3:                                                ; preds = %1
  %4 = sub i32 %0, 1
  %5 = call fastcc i32 @even(i32 noundef %4) #3
  %6 = icmp ne i32 %5, 0
  br label %7

7:                                                ; preds = %3, %1
  %8 = phi i1 [ false, %1 ], [ %6, %3 ]
  %9 = zext i1 %8 to i32
  ret i32 %9
}

attributes #0 = { nounwind uwtable "min-legal-vector-width"="0" "no-builtins" "no-jump-tables"="true" "no-trapping-math"="true" "stack-protector-buffer-size"="8" "target-cpu"="x86-64" "target-features"="+cx8,+fxsr,+mmx,+sse,+sse2,+x87" "tune-cpu"="generic" }
attributes #1 = { "no-builtins" "no-trapping-math"="true" "stack-protector-buffer-size"="8" "target-cpu"="x86-64" "target-features"="+cx8,+fxsr,+mmx,+sse,+sse2,+x87" "tune-cpu"="generic" }
attributes #2 = { nocallback nofree nosync nounwind willreturn memory(argmem: readwrite) }
attributes #3 = { nobuiltin "no-builtins" }
attributes #4 = { nounwind }

!llvm.module.flags = !{!0, !1, !2, !3}
!llvm.ident = !{!4}

!0 = !{i32 1, !"wchar_size", i32 4}
!1 = !{i32 8, !"PIC Level", i32 2}
!2 = !{i32 7, !"PIE Level", i32 2}
!3 = !{i32 7, !"uwtable", i32 2}
!4 = !{!"Debian clang version 16.0.6 (15~deb12u1)"}
!5 = !{!6, !6, i64 0}
!6 = !{!"int", !7, i64 0}
!7 = !{!"omnipotent char", !8, i64 0}
!8 = !{!"Simple C/C++ TBAA"}
!9 = distinct !{!9, !10, !11}
!10 = !{!"llvm.loop.mustprogress"}
!11 = !{!"llvm.loop.unroll.disable"}
