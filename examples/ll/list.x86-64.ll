; ModuleID = '<stdin>'
source_filename = "list.c"
target datalayout = "e-m:e-p270:32:32-p271:32:32-p272:64:64-i64:64-f80:128-n8:16:32:64-S128"
target triple = "x86_64-unknown-linux-gnu"

%struct.node = type { ptr, i32 }

@main.values = internal unnamed_addr constant [9 x i8] c"\05\03\09\01\07\02\08\06\04", align 1

; Function Attrs: nounwind uwtable
define dso_local i32 @main() local_unnamed_addr #0 {
  br label %1

1:                                                ; preds = %4, %0
  %.08 = phi ptr [ null, %0 ], [ %8, %4 ]
  %.0 = phi i32 [ 0, %0 ], [ %9, %4 ]
  %2 = zext i32 %.0 to i64
  %3 = icmp ult i64 %2, 9
  br i1 %3, label %4, label %10

4:                                                ; preds = %1
  %5 = getelementptr inbounds [9 x i8], ptr @main.values, i64 0, i64 %2
  %6 = load i8, ptr %5, align 1, !tbaa !5
  %7 = sext i8 %6 to i32
  %8 = call fastcc ptr @insert(ptr noundef %.08, i32 noundef %7) #2
  %9 = add i32 %.0, 1
  br label %1, !llvm.loop !8

10:                                               ; preds = %1
  %11 = call fastcc i32 @show(ptr noundef %.08) #2
  %12 = call fastcc ptr @turn(ptr noundef %.08) #2
  %13 = call fastcc i32 @show(ptr noundef %12) #2
  %14 = call fastcc ptr @without_even(ptr noundef %12) #2
  %15 = call fastcc i32 @show(ptr noundef %14) #2
  ret i32 %15
}

; Function Attrs: nounwind uwtable
define internal fastcc ptr @insert(ptr noundef %0, i32 noundef %1) unnamed_addr #0 {
  %3 = alloca ptr, align 8
  store ptr %0, ptr %3, align 8, !tbaa !11
  %4 = call ptr @malloc(i64 noundef 16) #2
  %5 = icmp ne ptr %4, null
  br i1 %5, label %7, label %6

6:                                                ; preds = %2
  call void @exit(i32 noundef 99) #2
  br label %7

7:                                                ; preds = %6, %2
  br label %8

8:                                                ; preds = %15, %7
  %9 = phi ptr [ %0, %7 ], [ %.pre, %15 ]
  %.0 = phi ptr [ %3, %7 ], [ %9, %15 ]
  %10 = icmp ne ptr %9, null
  br i1 %10, label %11, label %.critedge

11:                                               ; preds = %8
  %12 = getelementptr inbounds %struct.node, ptr %9, i32 0, i32 1
  %13 = load i32, ptr %12, align 8, !tbaa !13
  %14 = icmp slt i32 %13, %1
  br i1 %14, label %15, label %.critedge

15:                                               ; preds = %11
  %.pre = load ptr, ptr %9, align 8, !tbaa !11
  br label %8, !llvm.loop !16

.critedge:                                        ; preds = %8, %11
  %16 = getelementptr inbounds %struct.node, ptr %4, i32 0, i32 1
  store i32 %1, ptr %16, align 8, !tbaa !13
  store ptr %9, ptr %4, align 8, !tbaa !17
  store ptr %4, ptr %.0, align 8, !tbaa !11
  %.0. = load ptr, ptr %3, align 8, !tbaa !11
  ret ptr %.0.
}

; Function Attrs: nounwind uwtable
define internal fastcc i32 @show(ptr noundef %0) unnamed_addr #0 {
  br label %2

2:                                                ; preds = %4, %1
  %.06 = phi ptr [ %0, %1 ], [ %15, %4 ]
  %.0 = phi i32 [ 0, %1 ], [ %14, %4 ]
  %3 = icmp ne ptr %.06, null
  br i1 %3, label %4, label %16

4:                                                ; preds = %2
  %5 = getelementptr inbounds %struct.node, ptr %.06, i32 0, i32 1
  %6 = load i32, ptr %5, align 8, !tbaa !13
  %7 = add nsw i32 48, %6
  %8 = call i32 @putchar(i32 noundef %7) #2
  %9 = load ptr, ptr %.06, align 8, !tbaa !17
  %10 = icmp ne ptr %9, null
  %11 = select i1 %10, i32 32, i32 10
  %12 = call i32 @putchar(i32 noundef %11) #2
  %13 = load i32, ptr %5, align 8, !tbaa !13
  %14 = add nsw i32 %.0, %13
  %15 = load ptr, ptr %.06, align 8, !tbaa !17
  br label %2, !llvm.loop !18

16:                                               ; preds = %2
  ret i32 %.0
}

; Function Attrs: nounwind uwtable
define internal fastcc ptr @turn(ptr noundef %0) unnamed_addr #0 {
  br label %2

2:                                                ; preds = %4, %1
  %.07 = phi ptr [ null, %1 ], [ %.0, %4 ]
  %.0 = phi ptr [ %0, %1 ], [ %5, %4 ]
  %3 = icmp ne ptr %.0, null
  br i1 %3, label %4, label %6

4:                                                ; preds = %2
  %5 = load ptr, ptr %.0, align 8, !tbaa !17
  store ptr %.07, ptr %.0, align 8, !tbaa !17
  br label %2, !llvm.loop !19

6:                                                ; preds = %2
  ret ptr %.07
}

; Function Attrs: nounwind uwtable
define internal fastcc ptr @without_even(ptr noundef %0) unnamed_addr #0 {
  %2 = alloca ptr, align 8
  store ptr %0, ptr %2, align 8, !tbaa !11
  br label %3

3:                                                ; preds = %13, %1
  %4 = phi ptr [ %0, %1 ], [ %.pre, %13 ]
  %.0 = phi ptr [ %2, %1 ], [ %.1, %13 ]
  %5 = icmp ne ptr %4, null
  br i1 %5, label %6, label %14

6:                                                ; preds = %3
  %7 = getelementptr inbounds %struct.node, ptr %4, i32 0, i32 1
  %8 = load i32, ptr %7, align 8, !tbaa !13
  %9 = srem i32 %8, 2
  %10 = icmp eq i32 %9, 0
  br i1 %10, label %11, label %13

11:                                               ; preds = %6
  %12 = load ptr, ptr %4, align 8, !tbaa !17
  store ptr %12, ptr %.0, align 8, !tbaa !11
  call void @free(ptr noundef %4) #2
  br label %13

13:                                               ; preds = %6, %11
  %.1 = phi ptr [ %.0, %11 ], [ %4, %6 ]
  %.pre = load ptr, ptr %.1, align 8, !tbaa !11
  br label %3, !llvm.loop !20

14:                                               ; preds = %3
  %.0. = load ptr, ptr %2, align 8, !tbaa !11
  ret ptr %.0.
}

declare ptr @malloc(i64 noundef) local_unnamed_addr #1

declare void @exit(i32 noundef) local_unnamed_addr #1

declare i32 @putchar(i32 noundef) local_unnamed_addr #1

declare void @free(ptr noundef) local_unnamed_addr #1

attributes #0 = { nounwind uwtable "min-legal-vector-width"="0" "no-builtins" "no-jump-tables"="true" "no-trapping-math"="true" "stack-protector-buffer-size"="8" "target-cpu"="x86-64" "target-features"="+cx8,+fxsr,+mmx,+sse,+sse2,+x87" "tune-cpu"="generic" }
attributes #1 = { "no-builtins" "no-trapping-math"="true" "stack-protector-buffer-size"="8" "target-cpu"="x86-64" "target-features"="+cx8,+fxsr,+mmx,+sse,+sse2,+x87" "tune-cpu"="generic" }
attributes #2 = { nobuiltin "no-builtins" }

!llvm.module.flags = !{!0, !1, !2, !3}
!llvm.ident = !{!4}

!0 = !{i32 1, !"wchar_size", i32 4}
!1 = !{i32 8, !"PIC Level", i32 2}
!2 = !{i32 7, !"PIE Level", i32 2}
!3 = !{i32 7, !"uwtable", i32 2}
!4 = !{!"Debian clang version 16.0.6 (15~deb12u1)"}
!5 = !{!6, !6, i64 0}
!6 = !{!"omnipotent char", !7, i64 0}
!7 = !{!"Simple C/C++ TBAA"}
!8 = distinct !{!8, !9, !10}
!9 = !{!"llvm.loop.mustprogress"}
!10 = !{!"llvm.loop.unroll.disable"}
!11 = !{!12, !12, i64 0}
!12 = !{!"any pointer", !6, i64 0}
!13 = !{!14, !15, i64 8}
!14 = !{!"node", !12, i64 0, !15, i64 8}
!15 = !{!"int", !6, i64 0}
!16 = distinct !{!16, !9, !10}
!17 = !{!14, !12, i64 0}
!18 = distinct !{!18, !9, !10}
!19 = distinct !{!19, !9, !10}
!20 = distinct !{!20, !9, !10}
