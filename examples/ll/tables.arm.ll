; ModuleID = 'tables.c'
source_filename = "tables.c"
target datalayout = "e-m:e-p:32:32-Fi8-i64:64-v128:64:128-a:0:32-n32-S64"
target triple = "armv7-unknown-linux-gnueabi"

%struct.tree = type { ptr, ptr, ptr }

@leaf = internal constant %struct.tree { ptr @.str, ptr null, ptr null }, align 4
@root = internal constant %struct.tree { ptr @.str.1, ptr @leaf, ptr @leaf }, align 4
@forest = dso_local local_unnamed_addr constant [2 x [2 x ptr]] [[2 x ptr] [ptr @leaf, ptr null], [2 x ptr] [ptr null, ptr @root]], align 4
@.str = private unnamed_addr constant [5 x i8] c"leaf\00", align 1
@.str.1 = private unnamed_addr constant [5 x i8] c"root\00", align 1

; Function Attrs: nofree nounwind
define dso_local noundef i32 @main() local_unnamed_addr #0 {
  %1 = tail call i32 @putchar(i32 noundef 109)
  %2 = tail call i32 @putchar(i32 noundef 111)
  %3 = tail call i32 @putchar(i32 noundef 110)
  %4 = tail call i32 @putchar(i32 noundef 32)
  %5 = tail call i32 @putchar(i32 noundef 116)
  %6 = tail call i32 @putchar(i32 noundef 117)
  %7 = tail call i32 @putchar(i32 noundef 101)
  %8 = tail call i32 @putchar(i32 noundef 32)
  %9 = tail call i32 @putchar(i32 noundef 119)
  %10 = tail call i32 @putchar(i32 noundef 101)
  %11 = tail call i32 @putchar(i32 noundef 100)
  %12 = tail call i32 @putchar(i32 noundef 10)
  tail call fastcc void @number(i32 noundef 3)
  %13 = tail call i32 @putchar(i32 noundef 32)
  tail call fastcc void @number(i32 noundef 28)
  %14 = tail call i32 @putchar(i32 noundef 32)
  tail call fastcc void @number(i32 noundef 0)
  %15 = tail call i32 @putchar(i32 noundef 32)
  tail call fastcc void @number(i32 noundef 31)
  %16 = tail call i32 @putchar(i32 noundef 10)
  tail call fastcc void @walk(ptr noundef nonnull @root)
  %17 = tail call i32 @putchar(i32 noundef 99)
  %18 = tail call i32 @putchar(i32 noundef 100)
  %19 = tail call i32 @putchar(i32 noundef 32)
  %20 = tail call i32 @putchar(i32 noundef 54)
  %21 = tail call i32 @putchar(i32 noundef 10)
  tail call fastcc void @number(i32 noundef 7)
  %22 = tail call i32 @putchar(i32 noundef 32)
  tail call fastcc void @number(i32 noundef 0)
  %23 = tail call i32 @putchar(i32 noundef 32)
  tail call fastcc void @number(i32 noundef 9)
  %24 = tail call i32 @putchar(i32 noundef 32)
  tail call fastcc void @number(i32 noundef 258)
  %25 = tail call i32 @putchar(i32 noundef 10)
  ret i32 62
}

; Function Attrs: nofree nounwind
declare noundef i32 @putchar(i32 noundef) local_unnamed_addr #0

; Function Attrs: nofree nounwind
define internal fastcc void @number(i32 noundef %0) unnamed_addr #0 {
  %2 = icmp sgt i32 %0, 9
  br i1 %2, label %3, label %5

3:                                                ; preds = %1
  %4 = udiv i32 %0, 10
  tail call fastcc void @number(i32 noundef %4)
  br label %5

5:                                                ; preds = %3, %1
  %6 = srem i32 %0, 10
  %7 = add nsw i32 %6, 48
  %8 = tail call i32 @putchar(i32 noundef %7)
  ret void
}

; Function Attrs: nofree nounwind
define internal fastcc void @walk(ptr noundef readonly %0) unnamed_addr #0 {
  %2 = icmp eq ptr %0, null
  br i1 %2, label %23, label %3

3:                                                ; preds = %1
  %4 = getelementptr inbounds i8, ptr %0, i32 4
  %5 = load ptr, ptr %4, align 4, !tbaa !5
  tail call fastcc void @walk(ptr noundef %5)
  %6 = getelementptr inbounds i8, ptr %0, i32 8
  %7 = load ptr, ptr %6, align 4, !tbaa !10
  tail call fastcc void @walk(ptr noundef %7)
  %8 = load ptr, ptr %0, align 4, !tbaa !11
  %9 = load i8, ptr %8, align 1, !tbaa !12
  %10 = icmp eq i8 %9, 0
  br i1 %10, label %19, label %11

11:                                               ; preds = %3, %11
  %12 = phi i8 [ %17, %11 ], [ %9, %3 ]
  %13 = phi ptr [ %14, %11 ], [ %8, %3 ]
  %14 = getelementptr inbounds i8, ptr %13, i32 1
  %15 = zext i8 %12 to i32
  %16 = tail call i32 @putchar(i32 noundef %15)
  %17 = load i8, ptr %14, align 1, !tbaa !12
  %18 = icmp eq i8 %17, 0
  br i1 %18, label %19, label %11, !llvm.loop !13

19:                                               ; preds = %11, %3
  %20 = icmp eq ptr %0, @root
  %21 = select i1 %20, i32 10, i32 32
  %22 = tail call i32 @putchar(i32 noundef %21)
  br label %23

23:                                               ; preds = %1, %19
  ret void
}

attributes #0 = { nofree nounwind "no-trapping-math"="true" "stack-protector-buffer-size"="8" "target-cpu"="generic" "target-features"="+armv7-a,+dsp,+soft-float,-aes,-bf16,-d32,-dotprod,-fp-armv8,-fp-armv8d16,-fp-armv8d16sp,-fp-armv8sp,-fp16,-fp16fml,-fp64,-fpregs,-fullfp16,-mve,-mve.fp,-neon,-sha2,-thumb-mode,-vfp2,-vfp2sp,-vfp3,-vfp3d16,-vfp3d16sp,-vfp3sp,-vfp4,-vfp4d16,-vfp4d16sp,-vfp4sp" "use-soft-float"="true" }

!llvm.module.flags = !{!0, !1, !2, !3}
!llvm.ident = !{!4}

!0 = !{i32 1, !"wchar_size", i32 4}
!1 = !{i32 1, !"min_enum_size", i32 4}
!2 = !{i32 8, !"PIC Level", i32 2}
!3 = !{i32 7, !"PIE Level", i32 2}
!4 = !{!"Debian clang version 19.1.7 (3~deb12u1)"}
!5 = !{!6, !7, i64 4}
!6 = !{!"tree", !7, i64 0, !7, i64 4, !7, i64 8}
!7 = !{!"any pointer", !8, i64 0}
!8 = !{!"omnipotent char", !9, i64 0}
!9 = !{!"Simple C/C++ TBAA"}
!10 = !{!6, !7, i64 8}
!11 = !{!6, !7, i64 0}
!12 = !{!8, !8, i64 0}
!13 = distinct !{!13, !14}
!14 = !{!"llvm.loop.mustprogress"}
