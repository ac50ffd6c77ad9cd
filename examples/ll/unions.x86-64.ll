; ModuleID = '<stdin>'
source_filename = "unions.c"
target datalayout = "e-m:e-p270:32:32-p271:32:32-p272:64:64-i64:64-f80:128-n8:16:32:64-S128"
target triple = "x86_64-unknown-linux-gnu"

%union.word = type { i64 }
%struct.value = type { i32, %union.anon }
%union.anon = type { i32 }

@word = internal unnamed_addr constant %union.word { i64 72623859790382856 }, align 8
@values = internal global <{ { i32, { i8, [3 x i8] } }, %struct.value, { i32, { i8, [3 x i8] } } }> <{ { i32, { i8, [3 x i8] } } { i32 0, { i8, [3 x i8] } { i8 7, [3 x i8] undef } }, %struct.value { i32 1, %union.anon { i32 -3 } }, { i32, { i8, [3 x i8] } } { i32 2, { i8, [3 x i8] } { i8 120, [3 x i8] undef } } }>, align 16

; Function Attrs: nounwind uwtable
define dso_local i32 @main() local_unnamed_addr #0 {
  br label %1

1:                                                ; preds = %3, %0
  %.014 = phi i32 [ 0, %0 ], [ %14, %3 ]
  %.013 = phi i32 [ 0, %0 ], [ %8, %3 ]
  %2 = icmp slt i32 %.014, 8
  br i1 %2, label %3, label %15

3:                                                ; preds = %1
  %4 = sext i32 %.014 to i64
  %5 = getelementptr inbounds [8 x i8], ptr @word, i64 0, i64 %4
  %6 = load i8, ptr %5, align 1, !tbaa !5
  %7 = zext i8 %6 to i32
  %8 = add nsw i32 %.013, %7
  %9 = add nsw i32 48, %7
  %10 = call i32 @putchar(i32 noundef %9) #2
  %11 = icmp slt i32 %.014, 7
  %12 = select i1 %11, i32 32, i32 10
  %13 = call i32 @putchar(i32 noundef %12) #2
  %14 = add nsw i32 %.014, 1
  br label %1, !llvm.loop !8

15:                                               ; preds = %1
  %.sroa.4.0.insert.ext = zext i32 84281096 to i64
  %.sroa.4.0.insert.shift = shl i64 %.sroa.4.0.insert.ext, 32
  %.sroa.0.0.insert.ext = zext i32 16909060 to i64
  %.sroa.0.0.insert.insert = or i64 %.sroa.4.0.insert.shift, %.sroa.0.0.insert.ext
  %16 = icmp ne i64 %.sroa.0.0.insert.insert, 361984551007945476
  br i1 %16, label %26, label %17

17:                                               ; preds = %15, %19
  %.0 = phi i32 [ %25, %19 ], [ 0, %15 ]
  %18 = icmp slt i32 %.0, 3
  br i1 %18, label %19, label %26

19:                                               ; preds = %17
  %20 = sext i32 %.0 to i64
  %21 = getelementptr inbounds [3 x %struct.value], ptr @values, i64 0, i64 %20
  call fastcc void @show(ptr noundef %21) #2
  %22 = icmp slt i32 %.0, 2
  %23 = select i1 %22, i32 32, i32 10
  %24 = call i32 @putchar(i32 noundef %23) #2
  %25 = add nsw i32 %.0, 1
  br label %17, !llvm.loop !11

26:                                               ; preds = %17, %15
  %.012 = phi i32 [ 1, %15 ], [ %.013, %17 ]
  ret i32 %.012
}

declare i32 @putchar(i32 noundef) local_unnamed_addr #1

; Function Attrs: nounwind uwtable
define internal fastcc void @show(ptr noundef %0) unnamed_addr #0 {
  %2 = load i32, ptr %0, align 4, !tbaa !12
  switch i32 %2, label %27 [
    i32 0, label %3
    i32 1, label %9
    i32 2, label %22
  ]

3:                                                ; preds = %1
  %4 = getelementptr inbounds %struct.value, ptr %0, i32 0, i32 1
  %5 = load i8, ptr %4, align 4, !tbaa !5
  %6 = zext i8 %5 to i32
  %7 = add nsw i32 48, %6
  %8 = call i32 @putchar(i32 noundef %7) #2
  br label %27

9:                                                ; preds = %1
  %10 = getelementptr inbounds %struct.value, ptr %0, i32 0, i32 1
  %11 = load i32, ptr %10, align 4, !tbaa !5
  %12 = icmp slt i32 %11, 0
  br i1 %12, label %13, label %15

13:                                               ; preds = %9
  %14 = call i32 @putchar(i32 noundef 45) #2
  %.pre = load i32, ptr %10, align 4, !tbaa !5
  br label %15

15:                                               ; preds = %13, %9
  %16 = phi i32 [ %.pre, %13 ], [ %11, %9 ]
  %17 = icmp slt i32 %16, 0
  %18 = sub nsw i32 0, %16
  %19 = select i1 %17, i32 %18, i32 %16
  %20 = add nsw i32 48, %19
  %21 = call i32 @putchar(i32 noundef %20) #2
  br label %27

22:                                               ; preds = %1
  %23 = getelementptr inbounds %struct.value, ptr %0, i32 0, i32 1
  %24 = load i8, ptr %23, align 4, !tbaa !5
  %25 = sext i8 %24 to i32
  %26 = call i32 @putchar(i32 noundef %25) #2
  br label %27

27:                                               ; preds = %22, %15, %3, %1
  ret void
}

attributes #0 = { nounwind uwtable "min-legal-vector-width"="0" "no-builtins" "no-jump-tables"="true" "no-trapping-math"="true" "stack-protector-buffer-size"="8" "target-cpu"="x86-64" "target-features"="+cx8,+fxsr,+mmx,+sse,+sse2,+x87" "tune-cpu"="generic" }
attributes #1 = { "no-builtins" "no-trapping-math"="true" "stack-protector-buffer-size"="8" "target-cpu"="x86-64" "target-features"="+cx8,+fxsr,+mmx,+sse,+sse2,+x87" "tune-cpu"="generic" }
attributes #2 = { nobuiltin "no-builtins" }

!llvm.module.flags = !{!0, !1, !2, !3}
!llvm.ident = !{!4}

!0 = !{i32 1, !"wchar_size", i32 4}
!1 = !{i32 8, !"PIC Level", i32 2}
!2 = !{i32 7, !"PIE Level", i32 2}
!3 = !{i32 7, !"uwtable", i32 2}
!4 = !{!"Debian clang version 16.0.6 (15~deb12u1)"}
!5 = !{!6, !6, i64 0}
!6 = !{!"omnipotent char", !7, i64 0}
!7 = !{!"Simple C/C++ TBAA"}
!8 = distinct !{!8, !9, !10}
!9 = !{!"llvm.loop.mustprogress"}
!10 = !{!"llvm.loop.unroll.disable"}
!11 = distinct !{!11, !9, !10}
!12 = !{!13, !6, i64 0}
!13 = !{!"value", !6, i64 0, !6, i64 4}
