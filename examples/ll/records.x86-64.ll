; ModuleID = '<stdin>'
source_filename = "records.c"
target datalayout = "e-m:e-p270:32:32-p271:32:32-p272:64:64-i64:64-f80:128-n8:16:32:64-S128"
target triple = "x86_64-unknown-linux-gnu"

%struct.shop = type { [3 x %struct.item], ptr, i8 }
%struct.item = type { [5 x i8], %struct.price, i64, ptr }
%struct.price = type { i16, i8 }

@shop = internal global %struct.shop zeroinitializer, align 8
@.str = private unnamed_addr constant [4 x i8] c"tea\00", align 1
@.str.1 = private unnamed_addr constant [5 x i8] c"rice\00", align 1
@.str.2 = private unnamed_addr constant [5 x i8] c"salt\00", align 1
@.str.3 = private unnamed_addr constant [5 x i8] c"all \00", align 1

; Function Attrs: nounwind uwtable
define dso_local i32 @main() local_unnamed_addr #0 {
  %.sroa.0 = alloca [16 x i8], align 8
  call fastcc void @fill(ptr noundef @shop, ptr noundef @.str, i16 noundef signext 150, i8 noundef zeroext 3) #4
  call fastcc void @fill(ptr noundef getelementptr inbounds ([3 x %struct.item], ptr @shop, i64 0, i64 1), ptr noundef @.str.1, i16 noundef signext 129, i8 noundef zeroext 10) #4
  call fastcc void @fill(ptr noundef getelementptr inbounds ([3 x %struct.item], ptr @shop, i64 0, i64 2), ptr noundef @.str.2, i16 noundef signext 100, i8 noundef zeroext 1) #4
  br label %1

1:                                                ; preds = %3, %0
  %.0 = phi i32 [ 0, %0 ], [ %4, %3 ]
  %2 = icmp slt i32 %.0, 2
  br i1 %2, label %3, label %10

3:                                                ; preds = %1
  %4 = add nsw i32 %.0, 1
  %5 = sext i32 %4 to i64
  %6 = getelementptr inbounds [3 x %struct.item], ptr @shop, i64 0, i64 %5
  %7 = sext i32 %.0 to i64
  %8 = getelementptr inbounds [3 x %struct.item], ptr @shop, i64 0, i64 %7
  %9 = getelementptr inbounds %struct.item, ptr %8, i32 0, i32 3
  store ptr %6, ptr %9, align 8, !tbaa !5
  br label %1, !llvm.loop !13

10:                                               ; preds = %1
  store ptr @shop, ptr getelementptr inbounds (%struct.shop, ptr @shop, i32 0, i32 1), align 8, !tbaa !16
  store i8 1, ptr getelementptr inbounds (%struct.shop, ptr @shop, i32 0, i32 2), align 8, !tbaa !19
  br label %11

11:                                               ; preds = %15, %10
  %12 = phi i8 [ 1, %10 ], [ %.pre, %15 ]
  %.08 = phi ptr [ @shop, %10 ], [ %21, %15 ]
  %13 = trunc i8 %12 to i1
  %14 = icmp ne ptr %.08, null
  %spec.select = select i1 %13, i1 %14, i1 false
  br i1 %spec.select, label %15, label %22

15:                                               ; preds = %11
  call fastcc void @text(ptr noundef %.08) #4
  %16 = call i32 @putchar(i32 noundef 32) #4
  %17 = getelementptr inbounds %struct.item, ptr %.08, i32 0, i32 2
  %18 = load i64, ptr %17, align 8, !tbaa !20
  call fastcc void @number(i64 noundef %18) #4
  %19 = call i32 @putchar(i32 noundef 10) #4
  %20 = getelementptr inbounds %struct.item, ptr %.08, i32 0, i32 3
  %21 = load ptr, ptr %20, align 8, !tbaa !5
  %.pre = load i8, ptr getelementptr inbounds (%struct.shop, ptr @shop, i32 0, i32 2), align 8, !tbaa !19, !range !21
  br label %11, !llvm.loop !22

22:                                               ; preds = %11
  call void @llvm.lifetime.start.p0(i64 16, ptr %.sroa.0)
  call void @llvm.memcpy.p0.p0.i64(ptr align 8 %.sroa.0, ptr align 8 getelementptr inbounds ([3 x %struct.item], ptr @shop, i64 0, i64 1), i64 16, i1 false), !tbaa.struct !23
  %23 = call fastcc i64 @sum(ptr noundef @shop) #4
  call fastcc void @text(ptr noundef @.str.3) #4
  call fastcc void @number(i64 noundef %23) #4
  %24 = call i32 @putchar(i32 noundef 10) #4
  %25 = sub nsw i64 %23, 1782
  %26 = trunc i64 %25 to i32
  call void @llvm.lifetime.end.p0(i64 16, ptr %.sroa.0)
  ret i32 %26
}

; Function Attrs: nounwind uwtable
define internal fastcc void @fill(ptr noundef %0, ptr noundef %1, i16 noundef signext %2, i8 noundef zeroext %3) unnamed_addr #0 {
  br label %5

5:                                                ; preds = %12, %4
  %.0 = phi i32 [ 0, %4 ], [ %14, %12 ]
  %6 = sext i32 %.0 to i64
  %7 = getelementptr inbounds i8, ptr %1, i64 %6
  %8 = load i8, ptr %7, align 1, !tbaa !24
  %9 = sext i8 %8 to i32
  %10 = icmp ne i32 %9, 0
  %11 = icmp slt i32 %.0, 4
  %spec.select = select i1 %10, i1 %11, i1 false
  br i1 %spec.select, label %12, label %15

12:                                               ; preds = %5
  %13 = getelementptr inbounds [5 x i8], ptr %0, i64 0, i64 %6
  store i8 %8, ptr %13, align 1, !tbaa !24
  %14 = add nsw i32 %.0, 1
  br label %5, !llvm.loop !28

15:                                               ; preds = %5
  %16 = getelementptr inbounds [5 x i8], ptr %0, i64 0, i64 %6
  store i8 0, ptr %16, align 1, !tbaa !24
  %17 = getelementptr inbounds %struct.item, ptr %0, i32 0, i32 1
  store i16 %2, ptr %17, align 2, !tbaa !29
  %18 = getelementptr inbounds %struct.price, ptr %17, i32 0, i32 1
  store i8 %3, ptr %18, align 2, !tbaa !30
  %19 = sext i16 %2 to i64
  %20 = zext i8 %3 to i64
  %21 = mul nsw i64 %19, %20
  %22 = getelementptr inbounds %struct.item, ptr %0, i32 0, i32 2
  store i64 %21, ptr %22, align 8, !tbaa !20
  ret void
}

; Function Attrs: nocallback nofree nosync nounwind willreturn memory(argmem: readwrite)
declare void @llvm.lifetime.start.p0(i64 immarg, ptr nocapture) #1

; Function Attrs: nocallback nofree nosync nounwind willreturn memory(argmem: readwrite)
declare void @llvm.lifetime.end.p0(i64 immarg, ptr nocapture) #1

; Function Attrs: nounwind uwtable
define internal fastcc void @text(ptr noundef %0) unnamed_addr #0 {
  br label %2

2:                                                ; preds = %5, %1
  %.0 = phi ptr [ %0, %1 ], [ %6, %5 ]
  %3 = load i8, ptr %.0, align 1, !tbaa !24
  %4 = icmp ne i8 %3, 0
  br i1 %4, label %5, label %9

5:                                                ; preds = %2
  %6 = getelementptr inbounds i8, ptr %.0, i32 1
  %7 = sext i8 %3 to i32
  %8 = call i32 @putchar(i32 noundef %7) #4
  br label %2, !llvm.loop !31

9:                                                ; preds = %2
  ret void
}

declare i32 @putchar(i32 noundef) local_unnamed_addr #2

; Function Attrs: nounwind uwtable
define internal fastcc void @number(i64 noundef %0) unnamed_addr #0 {
  %2 = icmp sge i64 %0, 10
  br i1 %2, label %3, label %5

3:                                                ; preds = %1
  %4 = sdiv i64 %0, 10
  call fastcc void @number(i64 noundef %4) #4
  br label %5

5:                                                ; preds = %3, %1
  %6 = srem i64 %0, 10
  %7 = trunc i64 %6 to i32
  %8 = add nsw i32 48, %7
  %9 = call i32 @putchar(i32 noundef %8) #4
  ret void
}

; Function Attrs: nocallback nofree nounwind willreturn memory(argmem: readwrite)
declare void @llvm.memcpy.p0.p0.i64(ptr noalias nocapture writeonly, ptr noalias nocapture readonly, i64, i1 immarg) #3

; Function Attrs: nounwind uwtable
define internal fastcc i64 @sum(ptr noundef %0) unnamed_addr #0 {
  %2 = getelementptr inbounds %struct.shop, ptr %0, i32 0, i32 1
  %3 = load ptr, ptr %2, align 8, !tbaa !16
  br label %4

4:                                                ; preds = %6, %1
  %.05 = phi i64 [ 0, %1 ], [ %9, %6 ]
  %.0 = phi ptr [ %3, %1 ], [ %11, %6 ]
  %5 = icmp ne ptr %.0, null
  br i1 %5, label %6, label %12

6:                                                ; preds = %4
  %7 = getelementptr inbounds %struct.item, ptr %.0, i32 0, i32 2
  %8 = load i64, ptr %7, align 8, !tbaa !20
  %9 = add nsw i64 %.05, %8
  %10 = getelementptr inbounds %struct.item, ptr %.0, i32 0, i32 3
  %11 = load ptr, ptr %10, align 8, !tbaa !5
  br label %4, !llvm.loop !32

12:                                               ; preds = %4
  ret i64 %.05
}

attributes #0 = { nounwind uwtable "min-legal-vector-width"="0" "no-builtins" "no-jump-tables"="true" "no-trapping-math"="true" "stack-protector-buffer-size"="8" "target-cpu"="x86-64" "target-features"="+cx8,+fxsr,+mmx,+sse,+sse2,+x87" "tune-cpu"="generic" }
attributes #1 = { nocallback nofree nosync nounwind willreturn memory(argmem: readwrite) }
attributes #2 = { "no-builtins" "no-trapping-math"="true" "stack-protector-buffer-size"="8" "target-cpu"="x86-64" "target-features"="+cx8,+fxsr,+mmx,+sse,+sse2,+x87" "tune-cpu"="generic" }
attributes #3 = { nocallback nofree nounwind willreturn memory(argmem: readwrite) }
attributes #4 = { nobuiltin "no-builtins" }

!llvm.module.flags = !{!0, !1, !2, !3}
!llvm.ident = !{!4}

!0 = !{i32 1, !"wchar_size", i32 4}
!1 = !{i32 8, !"PIC Level", i32 2}
!2 = !{i32 7, !"PIE Level", i32 2}
!3 = !{i32 7, !"uwtable", i32 2}
!4 = !{!"Debian clang version 16.0.6 (15~deb12u1)"}
!5 = !{!6, !12, i64 24}
!6 = !{!"item", !7, i64 0, !9, i64 6, !11, i64 16, !12, i64 24}
!7 = !{!"omnipotent char", !8, i64 0}
!8 = !{!"Simple C/C++ TBAA"}
!9 = !{!"price", !10, i64 0, !7, i64 2}
!10 = !{!"short", !7, i64 0}
!11 = !{!"long long", !7, i64 0}
!12 = !{!"any pointer", !7, i64 0}
!13 = distinct !{!13, !14, !15}
!14 = !{!"llvm.loop.mustprogress"}
!15 = !{!"llvm.loop.unroll.disable"}
!16 = !{!17, !12, i64 96}
!17 = !{!"shop", !7, i64 0, !12, i64 96, !18, i64 104}
!18 = !{!"_Bool", !7, i64 0}
!19 = !{!17, !18, i64 104}
!20 = !{!6, !11, i64 16}
!21 = !{i8 0, i8 2}
!22 = distinct !{!22, !14, !15}
!23 = !{i64 0, i64 5, !24, i64 6, i64 2, !25, i64 8, i64 1, !24, i64 16, i64 8, !26, i64 24, i64 8, !27}
!24 = !{!7, !7, i64 0}
!25 = !{!10, !10, i64 0}
!26 = !{!11, !11, i64 0}
!27 = !{!12, !12, i64 0}
!28 = distinct !{!28, !14, !15}
!29 = !{!6, !10, i64 6}
!30 = !{!6, !7, i64 8}
!31 = distinct !{!31, !14, !15}
!32 = distinct !{!32, !14, !15}
