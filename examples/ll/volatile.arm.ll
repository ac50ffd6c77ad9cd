; ModuleID = 'volatile.c'
source_filename = "volatile.c"
target datalayout = "e-m:e-p:32:32-Fi8-i64:64-v128:64:128-a:0:32-n32-S64"
target triple = "armv7-unknown-linux-gnueabi"

@narrow = internal global i8 0, align 1
@middle = internal global i16 0, align 2
@word = internal global i32 0, align 4
@wide = internal global i64 0, align 8
@ticks = internal global [2 x i32] zeroinitializer, align 4
@ready = internal global i8 0, align 1
@.str = private unnamed_addr constant [6 x i8] c"idle \00", align 1
@.str.1 = private unnamed_addr constant [6 x i8] c"busy \00", align 1
@.str.2 = private unnamed_addr constant [6 x i8] c"done\0A\00", align 1
@.str.3 = private unnamed_addr constant [7 x i8] c"stuck\0A\00", align 1

; Function Attrs: nofree nounwind
define dso_local i32 @main() local_unnamed_addr #0 {
  store volatile i8 -1, ptr @narrow, align 1, !tbaa !5
  store volatile i16 -2, ptr @middle, align 2, !tbaa !8
  store volatile i32 -3, ptr @word, align 4, !tbaa !10
  %1 = load volatile i8, ptr @narrow, align 1, !tbaa !5
  %2 = sext i8 %1 to i64
  %3 = load volatile i8, ptr @narrow, align 1, !tbaa !5
  %4 = zext i8 %3 to i64
  tail call fastcc void @number(i64 noundef %2)
  %5 = tail call i32 @putchar(i32 noundef 32)
  tail call fastcc void @number(i64 noundef %4)
  %6 = tail call i32 @putchar(i32 noundef 32)
  %7 = load volatile i16, ptr @middle, align 2, !tbaa !8
  %8 = sext i16 %7 to i64
  %9 = load volatile i16, ptr @middle, align 2, !tbaa !8
  %10 = zext i16 %9 to i64
  tail call fastcc void @number(i64 noundef %8)
  %11 = tail call i32 @putchar(i32 noundef 32)
  tail call fastcc void @number(i64 noundef %10)
  %12 = tail call i32 @putchar(i32 noundef 32)
  %13 = load volatile i32, ptr @word, align 4, !tbaa !10
  %14 = sext i32 %13 to i64
  %15 = load volatile i32, ptr @word, align 4, !tbaa !10
  %16 = zext i32 %15 to i64
  tail call fastcc void @number(i64 noundef %14)
  %17 = tail call i32 @putchar(i32 noundef 32)
  tail call fastcc void @number(i64 noundef %16)
  %18 = tail call i32 @putchar(i32 noundef 10)
  store volatile i64 0, ptr @wide, align 8, !tbaa !12
  %19 = load volatile i32, ptr @ticks, align 4, !tbaa !10
  %20 = icmp ult i32 %19, 10
  br i1 %20, label %21, label %33

21:                                               ; preds = %0, %21
  %22 = load volatile i32, ptr @ticks, align 4, !tbaa !10
  %23 = zext i32 %22 to i64
  %24 = load volatile i64, ptr @wide, align 8, !tbaa !12
  %25 = add nsw i64 %24, %23
  store volatile i64 %25, ptr @wide, align 8, !tbaa !12
  %26 = load volatile i32, ptr @ticks, align 4, !tbaa !10
  %27 = add i32 %26, 1
  store volatile i32 %27, ptr @ticks, align 4, !tbaa !10
  %28 = load volatile i32, ptr @ticks, align 4, !tbaa !10
  %29 = load volatile i32, ptr @ticks, align 4, !tbaa !10
  %30 = mul i32 %29, %28
  store volatile i32 %30, ptr getelementptr inbounds (i8, ptr @ticks, i32 4), align 4, !tbaa !10
  %31 = load volatile i32, ptr @ticks, align 4, !tbaa !10
  %32 = icmp ult i32 %31, 10
  br i1 %32, label %21, label %33, !llvm.loop !14

33:                                               ; preds = %21, %0
  %34 = load volatile i32, ptr @ticks, align 4, !tbaa !10
  %35 = zext i32 %34 to i64
  %36 = load volatile i64, ptr @wide, align 8, !tbaa !12
  tail call fastcc void @number(i64 noundef %35)
  %37 = tail call i32 @putchar(i32 noundef 32)
  tail call fastcc void @number(i64 noundef %36)
  %38 = tail call i32 @putchar(i32 noundef 10)
  %39 = load volatile i8, ptr @ready, align 1, !tbaa !16, !range !18, !noundef !19
  %40 = trunc nuw i8 %39 to i1
  %41 = select i1 %40, ptr @.str, ptr @.str.1
  %42 = load i8, ptr %41, align 1, !tbaa !5
  %43 = icmp eq i8 %42, 0
  br i1 %43, label %52, label %44

44:                                               ; preds = %33, %44
  %45 = phi i8 [ %50, %44 ], [ %42, %33 ]
  %46 = phi ptr [ %47, %44 ], [ %41, %33 ]
  %47 = getelementptr inbounds i8, ptr %46, i32 1
  %48 = zext i8 %45 to i32
  %49 = tail call i32 @putchar(i32 noundef %48)
  %50 = load i8, ptr %47, align 1, !tbaa !5
  %51 = icmp eq i8 %50, 0
  br i1 %51, label %52, label %44, !llvm.loop !20

52:                                               ; preds = %44, %33
  %53 = load volatile i32, ptr getelementptr inbounds (i8, ptr @ticks, i32 4), align 4, !tbaa !10
  %54 = icmp ne i32 %53, 0
  %55 = zext i1 %54 to i8
  store volatile i8 %55, ptr @ready, align 1, !tbaa !16
  %56 = load volatile i8, ptr @ready, align 1, !tbaa !16, !range !18, !noundef !19
  %57 = trunc nuw i8 %56 to i1
  %58 = select i1 %57, ptr @.str.2, ptr @.str.3
  %59 = load i8, ptr %58, align 1, !tbaa !5
  %60 = icmp eq i8 %59, 0
  br i1 %60, label %69, label %61

61:                                               ; preds = %52, %61
  %62 = phi i8 [ %67, %61 ], [ %59, %52 ]
  %63 = phi ptr [ %64, %61 ], [ %58, %52 ]
  %64 = getelementptr inbounds i8, ptr %63, i32 1
  %65 = zext i8 %62 to i32
  %66 = tail call i32 @putchar(i32 noundef %65)
  %67 = load i8, ptr %64, align 1, !tbaa !5
  %68 = icmp eq i8 %67, 0
  br i1 %68, label %69, label %61, !llvm.loop !20

69:                                               ; preds = %61, %52
  %70 = load volatile i64, ptr @wide, align 8, !tbaa !12
  %71 = load volatile i32, ptr @ticks, align 4, !tbaa !10
  %72 = trunc i64 %70 to i32
  %73 = add i32 %71, %72
  ret i32 %73
}

; Function Attrs: nofree nounwind
define internal fastcc void @number(i64 noundef %0) unnamed_addr #0 {
  %2 = icmp slt i64 %0, 0
  br i1 %2, label %3, label %6

3:                                                ; preds = %1
  %4 = tail call i32 @putchar(i32 noundef 45)
  %5 = sub nsw i64 0, %0
  br label %6

6:                                                ; preds = %3, %1
  %7 = phi i64 [ %5, %3 ], [ %0, %1 ]
  %8 = icmp ugt i64 %7, 9
  br i1 %8, label %9, label %11

9:                                                ; preds = %6
  %10 = udiv i64 %7, 10
  tail call fastcc void @number(i64 noundef %10)
  br label %11

11:                                               ; preds = %9, %6
  %12 = urem i64 %7, 10
  %13 = trunc nuw nsw i64 %12 to i32
  %14 = or disjoint i32 %13, 48
  %15 = tail call i32 @putchar(i32 noundef %14)
  ret void
}

; Function Attrs: nofree nounwind
declare noundef i32 @putchar(i32 noundef) local_unnamed_addr #0

attributes #0 = { nofree nounwind "no-trapping-math"="true" "stack-protector-buffer-size"="8" "target-cpu"="generic" "target-features"="+armv7-a,+dsp,+soft-float,-aes,-bf16,-d32,-dotprod,-fp-armv8,-fp-armv8d16,-fp-armv8d16sp,-fp-armv8sp,-fp16,-fp16fml,-fp64,-fpregs,-fullfp16,-mve,-mve.fp,-neon,-sha2,-thumb-mode,-vfp2,-vfp2sp,-vfp3,-vfp3d16,-vfp3d16sp,-vfp3sp,-vfp4,-vfp4d16,-vfp4d16sp,-vfp4sp" "use-soft-float"="true" }

!llvm.module.flags = !{!0, !1, !2, !3}
!llvm.ident = !{!4}

!0 = !{i32 1, !"wchar_size", i32 4}
!1 = !{i32 1, !"min_enum_size", i32 4}
!2 = !{i32 8, !"PIC Level", i32 2}
!3 = !{i32 7, !"PIE Level", i32 2}
!4 = !{!"Debian clang version 19.1.7 (3~deb12u1)"}
!5 = !{!6, !6, i64 0}
!6 = !{!"omnipotent char", !7, i64 0}
!7 = !{!"Simple C/C++ TBAA"}
!8 = !{!9, !9, i64 0}
!9 = !{!"short", !6, i64 0}
!10 = !{!11, !11, i64 0}
!11 = !{!"int", !6, i64 0}
!12 = !{!13, !13, i64 0}
!13 = !{!"long long", !6, i64 0}
!14 = distinct !{!14, !15}
!15 = !{!"llvm.loop.mustprogress"}
!16 = !{!17, !17, i64 0}
!17 = !{!"_Bool", !6, i64 0}
!18 = !{i8 0, i8 2}
!19 = !{}
!20 = distinct !{!20, !15}
