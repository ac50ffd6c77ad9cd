; ModuleID = 'records.c'
source_filename = "records.c"
target datalayout = "e-m:e-p:32:32-Fi8-i64:64-v128:64:128-a:0:32-n32-S64"
target triple = "armv7-unknown-linux-gnueabi"

%struct.shop = type { [3 x %struct.item], ptr, i8 }
%struct.item = type { [5 x i8], %struct.price, i64, ptr }
%struct.price = type { i16, i8 }

@shop = internal global %struct.shop zeroinitializer, align 8

; Function Attrs: nofree nounwind
define dso_local i32 @main() local_unnamed_addr #0 {
  store i8 116, ptr @shop, align 8, !tbaa !5
  store i8 101, ptr getelementptr inbounds (i8, ptr @shop, i32 1), align 1, !tbaa !5
  store i8 97, ptr getelementptr inbounds (i8, ptr @shop, i32 2), align 2, !tbaa !5
  store i8 0, ptr getelementptr inbounds (i8, ptr @shop, i32 3), align 1, !tbaa !5
  store i16 150, ptr getelementptr inbounds (i8, ptr @shop, i32 6), align 2, !tbaa !8
  store i8 3, ptr getelementptr inbounds (i8, ptr @shop, i32 8), align 8, !tbaa !14
  store i64 450, ptr getelementptr inbounds (i8, ptr @shop, i32 16), align 8, !tbaa !15
  store i8 114, ptr getelementptr inbounds (i8, ptr @shop, i32 32), align 8, !tbaa !5
  store i8 105, ptr getelementptr inbounds (i8, ptr @shop, i32 33), align 1, !tbaa !5
  store i8 99, ptr getelementptr inbounds (i8, ptr @shop, i32 34), align 2, !tbaa !5
  store i8 101, ptr getelementptr inbounds (i8, ptr @shop, i32 35), align 1, !tbaa !5
  store i8 0, ptr getelementptr inbounds (i8, ptr @shop, i32 36), align 4, !tbaa !5
  store i16 129, ptr getelementptr inbounds (i8, ptr @shop, i32 38), align 2, !tbaa !8
  store i8 10, ptr getelementptr inbounds (i8, ptr @shop, i32 40), align 8, !tbaa !14
  store i64 1290, ptr getelementptr inbounds (i8, ptr @shop, i32 48), align 8, !tbaa !15
  store i8 115, ptr getelementptr inbounds (i8, ptr @shop, i32 64), align 8, !tbaa !5
  store i8 97, ptr getelementptr inbounds (i8, ptr @shop, i32 65), align 1, !tbaa !5
  store i8 108, ptr getelementptr inbounds (i8, ptr @shop, i32 66), align 2, !tbaa !5
  store i8 116, ptr getelementptr inbounds (i8, ptr @shop, i32 67), align 1, !tbaa !5
  store i8 0, ptr getelementptr inbounds (i8, ptr @shop, i32 68), align 4, !tbaa !5
  store i16 100, ptr getelementptr inbounds (i8, ptr @shop, i32 70), align 2, !tbaa !8
  store i8 1, ptr getelementptr inbounds (i8, ptr @shop, i32 72), align 8, !tbaa !14
  store i64 100, ptr getelementptr inbounds (i8, ptr @shop, i32 80), align 8, !tbaa !15
  store ptr getelementptr inbounds (i8, ptr @shop, i32 32), ptr getelementptr inbounds (i8, ptr @shop, i32 24), align 8, !tbaa !16
  store ptr getelementptr inbounds (i8, ptr @shop, i32 64), ptr getelementptr inbounds (i8, ptr @shop, i32 56), align 8, !tbaa !16
  store ptr @shop, ptr getelementptr inbounds (i8, ptr @shop, i32 96), align 8, !tbaa !17
  store i8 1, ptr getelementptr inbounds (i8, ptr @shop, i32 100), align 4, !tbaa !20
  br label %22

1:                                                ; preds = %34
  %2 = load ptr, ptr getelementptr inbounds (i8, ptr @shop, i32 96), align 8, !tbaa !21
  %3 = icmp eq ptr %2, null
  br i1 %3, label %13, label %4

4:                                                ; preds = %1, %4
  %5 = phi ptr [ %11, %4 ], [ %2, %1 ]
  %6 = phi i64 [ %9, %4 ], [ 0, %1 ]
  %7 = getelementptr inbounds i8, ptr %5, i32 16
  %8 = load i64, ptr %7, align 8, !tbaa !15
  %9 = add nsw i64 %8, %6
  %10 = getelementptr inbounds i8, ptr %5, i32 24
  %11 = load ptr, ptr %10, align 8, !tbaa !21
  %12 = icmp eq ptr %11, null
  br i1 %12, label %13, label %4, !llvm.loop !22

13:                                               ; preds = %4, %1
  %14 = phi i64 [ 0, %1 ], [ %9, %4 ]
  %15 = tail call i32 @putchar(i32 noundef 97)
  %16 = tail call i32 @putchar(i32 noundef 108)
  %17 = tail call i32 @putchar(i32 noundef 108)
  %18 = tail call i32 @putchar(i32 noundef 32)
  tail call fastcc void @number(i64 noundef %14)
  %19 = tail call i32 @putchar(i32 noundef 10)
  %20 = trunc i64 %14 to i32
  %21 = add i32 %20, -1782
  ret i32 %21

22:                                               ; preds = %0, %34
  %23 = phi ptr [ %40, %34 ], [ @shop, %0 ]
  %24 = load i8, ptr %23, align 1, !tbaa !5
  %25 = icmp eq i8 %24, 0
  br i1 %25, label %34, label %26

26:                                               ; preds = %22, %26
  %27 = phi i8 [ %32, %26 ], [ %24, %22 ]
  %28 = phi ptr [ %29, %26 ], [ %23, %22 ]
  %29 = getelementptr inbounds i8, ptr %28, i32 1
  %30 = zext i8 %27 to i32
  %31 = tail call i32 @putchar(i32 noundef %30)
  %32 = load i8, ptr %29, align 1, !tbaa !5
  %33 = icmp eq i8 %32, 0
  br i1 %33, label %34, label %26, !llvm.loop !24

34:                                               ; preds = %26, %22
  %35 = tail call i32 @putchar(i32 noundef 32)
  %36 = getelementptr inbounds i8, ptr %23, i32 16
  %37 = load i64, ptr %36, align 8, !tbaa !15
  tail call fastcc void @number(i64 noundef %37)
  %38 = tail call i32 @putchar(i32 noundef 10)
  %39 = getelementptr inbounds i8, ptr %23, i32 24
  %40 = load ptr, ptr %39, align 8, !tbaa !16
  %41 = load i8, ptr getelementptr inbounds (i8, ptr @shop, i32 100), align 4, !tbaa !20, !range !25, !noundef !26
  %42 = trunc nuw i8 %41 to i1
  %43 = icmp ne ptr %40, null
  %44 = select i1 %42, i1 %43, i1 false
  br i1 %44, label %22, label %1, !llvm.loop !27
}

; Function Attrs: nofree nounwind
declare noundef i32 @putchar(i32 noundef) local_unnamed_addr #0

; Function Attrs: nofree nounwind
define internal fastcc void @number(i64 noundef %0) unnamed_addr #0 {
  %2 = icmp sgt i64 %0, 9
  br i1 %2, label %3, label %5

3:                                                ; preds = %1
  %4 = udiv i64 %0, 10
  tail call fastcc void @number(i64 noundef %4)
  br label %5

5:                                                ; preds = %3, %1
  %6 = srem i64 %0, 10
  %7 = trunc nsw i64 %6 to i32
  %8 = add nsw i32 %7, 48
  %9 = tail call i32 @putchar(i32 noundef %8)
  ret void
}

attributes #0 = { nofree nounwind "no-trapping-math"="true" "stack-protector-buffer-size"="8" "target-cpu"="generic" "target-features"="+armv7-a,+dsp,+soft-float,-aes,-bf16,-d32,-dotprod,-fp-armv8,-fp-armv8d16,-fp-armv8d16sp,-fp-armv8sp,-fp16,-fp16fml,-fp64,-fpregs,-fullfp16,-mve,-mve.fp,-neon,-sha2,-thumb-mode,-vfp2,-vfp2sp,-vfp3,-vfp3d16,-vfp3d16sp,-vfp3sp,-vfp4,-vfp4d16,-vfp4d16sp,-vfp4sp" "use-soft-float"="true" }

!llvm.module.flags = !{!0, !1, !2, !3}
!llvm.ident = !{!4}

!0 = !{i32 1, !"wchar_size", i32 4}
!1 = !{i32 1, !"min_enum_size", i32 4}
!2 = !{i32 8, !"PIC Level", i32 2}
!3 = !{i32 7, !"PIE Level", i32 2}
!4 = !{!"Debian clang version 19.1.7 (3~deb12u1)"}
!5 = !{!6, !6, i64 0}
!6 = !{!"omnipotent char", !7, i64 0}
!7 = !{!"Simple C/C++ TBAA"}
!8 = !{!9, !11, i64 6}
!9 = !{!"item", !6, i64 0, !10, i64 6, !12, i64 16, !13, i64 24}
!10 = !{!"price", !11, i64 0, !6, i64 2}
!11 = !{!"short", !6, i64 0}
!12 = !{!"long long", !6, i64 0}
!13 = !{!"any pointer", !6, i64 0}
!14 = !{!9, !6, i64 8}
!15 = !{!9, !12, i64 16}
!16 = !{!9, !13, i64 24}
!17 = !{!18, !13, i64 96}
!18 = !{!"shop", !6, i64 0, !13, i64 96, !19, i64 100}
!19 = !{!"_Bool", !6, i64 0}
!20 = !{!18, !19, i64 100}
!21 = !{!13, !13, i64 0}
!22 = distinct !{!22, !23}
!23 = !{!"llvm.loop.mustprogress"}
!24 = distinct !{!24, !23}
!25 = !{i8 0, i8 2}
!26 = !{}
!27 = distinct !{!27, !23}
