; ModuleID = '<stdin>'
source_filename = "volatile.c"
target datalayout = "e-m:e-p270:32:32-p271:32:32-p272:64:64-i64:64-f80:128-n8:16:32:64-S128"
target triple = "x86_64-unknown-linux-gnu"

@narrow = internal global i8 0, align 1
@middle = internal global i16 0, align 2
@word = internal global i32 0, align 4
@wide = internal global i64 0, align 8
@ticks = internal global [2 x i32] zeroinitializer, align 4
@ready = internal global i8 0, align 1
@.str = private unnamed_addr constant [6 x i8] c"idle \00", align 1
@.str.1 = private unnamed_addr constant [6 x i8] c"busy \00", align 1
@.str.2 = private unnamed_addr constant [6 x i8] c"done\0A\00", align 1
@.str.3 = private unnamed_addr constant [7 x i8] c"stuck\0A\00", align 1

; Function Attrs: nounwind uwtable
define dso_local i32 @main() local_unnamed_addr #0 {
  store volatile i8 -1, ptr @narrow, align 1, !tbaa !5
  store volatile i16 -2, ptr @middle, align 2, !tbaa !8
  store volatile i32 -3, ptr @word, align 4, !tbaa !10
  %1 = load volatile i8, ptr @narrow, align 1, !tbaa !5
  %2 = sext i8 %1 to i64
  %3 = load volatile i8, ptr @narrow, align 1, !tbaa !5
  %4 = zext i8 %3 to i64
  call fastcc void @pair(i64 noundef %2, i64 noundef %4, i8 noundef signext 32) #2
  %5 = load volatile i16, ptr @middle, align 2, !tbaa !8
  %6 = sext i16 %5 to i64
  %7 = load volatile i16, ptr @middle, align 2, !tbaa !8
  %8 = zext i16 %7 to i64
  call fastcc void @pair(i64 noundef %6, i64 noundef %8, i8 noundef signext 32) #2
  %9 = load volatile i32, ptr @word, align 4, !tbaa !10
  %10 = sext i32 %9 to i64
  %11 = load volatile i32, ptr @word, align 4, !tbaa !10
  %12 = zext i32 %11 to i64
  call fastcc void @pair(i64 noundef %10, i64 noundef %12, i8 noundef signext 10) #2
  store volatile i64 0, ptr @wide, align 8, !tbaa !12
  br label %13

13:                                               ; preds = %16, %0
  %14 = load volatile i32, ptr @ticks, align 4, !tbaa !10
  %15 = icmp ult i32 %14, 10
  br i1 %15, label %16, label %26

16:                                               ; preds = %13
  %17 = load volatile i32, ptr @ticks, align 4, !tbaa !10
  %18 = zext i32 %17 to i64
  %19 = load volatile i64, ptr @wide, align 8, !tbaa !12
  %20 = add nsw i64 %19, %18
  store volatile i64 %20, ptr @wide, align 8, !tbaa !12
  %21 = load volatile i32, ptr @ticks, align 4, !tbaa !10
  %22 = add i32 %21, 1
  store volatile i32 %22, ptr @ticks, align 4, !tbaa !10
  %23 = load volatile i32, ptr @ticks, align 4, !tbaa !10
  %24 = load volatile i32, ptr @ticks, align 4, !tbaa !10
  %25 = mul i32 %23, %24
  store volatile i32 %25, ptr getelementptr inbounds ([2 x i32], ptr @ticks, i64 0, i64 1), align 4, !tbaa !10
  br label %13, !llvm.loop !14

26:                                               ; preds = %13
  %27 = load volatile i32, ptr @ticks, align 4, !tbaa !10
  %28 = zext i32 %27 to i64
  %29 = load volatile i64, ptr @wide, align 8, !tbaa !12
  call fastcc void @pair(i64 noundef %28, i64 noundef %29, i8 noundef signext 10) #2
  %30 = load volatile i8, ptr @ready, align 1, !tbaa !17, !range !19, !noundef !20
  %31 = trunc i8 %30 to i1
  %32 = select i1 %31, ptr @.str, ptr @.str.1
  call fastcc void @say(ptr noundef %32) #2
  %33 = load volatile i32, ptr getelementptr inbounds ([2 x i32], ptr @ticks, i64 0, i64 1), align 4, !tbaa !10
  %34 = icmp ne i32 %33, 0
  %35 = zext i1 %34 to i8
  store volatile i8 %35, ptr @ready, align 1, !tbaa !17
  %36 = load volatile i8, ptr @ready, align 1, !tbaa !17, !range !19, !noundef !20
  %37 = trunc i8 %36 to i1
  %38 = select i1 %37, ptr @.str.2, ptr @.str.3
  call fastcc void @say(ptr noundef %38) #2
  %39 = load volatile i64, ptr @wide, align 8, !tbaa !12
  %40 = load volatile i32, ptr @ticks, align 4, !tbaa !10
  %41 = zext i32 %40 to i64
  %42 = add nsw i64 %39, %41
  %43 = trunc i64 %42 to i32
  ret i32 %43
}

; Function Attrs: nounwind uwtable
define internal fastcc void @pair(i64 noundef %0, i64 noundef %1, i8 noundef signext %2) unnamed_addr #0 {
  call fastcc void @number(i64 noundef %0) #2
  %4 = call i32 @putchar(i32 noundef 32) #2
  call fastcc void @number(i64 noundef %1) #2
  %5 = sext i8 %2 to i32
  %6 = call i32 @putchar(i32 noundef %5) #2
  ret void
}

; Function Attrs: nounwind uwtable
define internal fastcc void @say(ptr noundef %0) unnamed_addr #0 {
  br label %2

2:                                                ; preds = %5, %1
  %.0 = phi ptr [ %0, %1 ], [ %6, %5 ]
  %3 = load i8, ptr %.0, align 1, !tbaa !5
  %4 = icmp ne i8 %3, 0
  br i1 %4, label %5, label %9

5:                                                ; preds = %2
  %6 = getelementptr inbounds i8, ptr %.0, i32 1
  %7 = sext i8 %3 to i32
  %8 = call i32 @putchar(i32 noundef %7) #2
  br label %2, !llvm.loop !21

9:                                                ; preds = %2
  ret void
}

; Function Attrs: nounwind uwtable
define internal fastcc void @number(i64 noundef %0) unnamed_addr #0 {
  %2 = icmp slt i64 %0, 0
  br i1 %2, label %3, label %6

3:                                                ; preds = %1
  %4 = call i32 @putchar(i32 noundef 45) #2
  %5 = sub nsw i64 0, %0
  br label %6

6:                                                ; preds = %3, %1
  %.0 = phi i64 [ %5, %3 ], [ %0, %1 ]
  %7 = icmp sge i64 %.0, 10
  br i1 %7, label %8, label %10

8:                                                ; preds = %6
  %9 = sdiv i64 %.0, 10
  call fastcc void @number(i64 noundef %9) #2
  br label %10

10:                                               ; preds = %8, %6
  %11 = srem i64 %.0, 10
  %12 = trunc i64 %11 to i32
  %13 = add nsw i32 48, %12
  %14 = call i32 @putchar(i32 noundef %13) #2
  ret void
}

declare i32 @putchar(i32 noundef) local_unnamed_addr #1

attributes #0 = { nounwind uwtable "min-legal-vector-width"="0" "no-builtins" "no-jump-tables"="true" "no-trapping-math"="true" "stack-protector-buffer-size"="8" "target-cpu"="x86-64" "target-features"="+cx8,+fxsr,+mmx,+sse,+sse2,+x87" "tune-cpu"="generic" }
attributes #1 = { "no-builtins" "no-trapping-math"="true" "stack-protector-buffer-size"="8" "target-cpu"="x86-64" "target-features"="+cx8,+fxsr,+mmx,+sse,+sse2,+x87" "tune-cpu"="generic" }
attributes #2 = { nobuiltin "no-builtins" }

!llvm.module.flags = !{!0, !1, !2, !3}
!llvm.ident = !{!4}

!0 = !{i32 1, !"wchar_size", i32 4}
!1 = !{i32 8, !"PIC Level", i32 2}
!2 = !{i32 7, !"PIE Level", i32 2}
!3 = !{i32 7, !"uwtable", i32 2}
!4 = !{!"Debian clang version 16.0.6 (15~deb12u1)"}
!5 = !{!6, !6, i64 0}
!6 = !{!"omnipotent char", !7, i64 0}
!7 = !{!"Simple C/C++ TBAA"}
!8 = !{!9, !9, i64 0}
!9 = !{!"short", !6, i64 0}
!10 = !{!11, !11, i64 0}
!11 = !{!"int", !6, i64 0}
!12 = !{!13, !13, i64 0}
!13 = !{!"long long", !6, i64 0}
!14 = distinct !{!14, !15, !16}
!15 = !{!"llvm.loop.mustprogress"}
!16 = !{!"llvm.loop.unroll.disable"}
!17 = !{!18, !18, i64 0}
!18 = !{!"_Bool", !6, i64 0}
!19 = !{i8 0, i8 2}
!20 = !{}
!21 = distinct !{!21, !15, !16}
