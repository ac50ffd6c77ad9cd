; ModuleID = 'tree.c'
source_filename = "tree.c"
target datalayout = "e-m:e-p:32:32-Fi8-i64:64-v128:64:128-a:0:32-n32-S64"
target triple = "armv7-unknown-linux-gnueabi"

@main.keys = internal unnamed_addr constant [10 x i8] c"2\1EF\14(<P\0A\19\1E", align 1
@count = internal unnamed_addr global i32 0, align 4

; Function Attrs: noreturn nounwind
define dso_local noundef i32 @main() local_unnamed_addr #0 {
  %1 = alloca ptr, align 4
  call void @llvm.lifetime.start.p0(i64 4, ptr nonnull %1) #9
  store ptr null, ptr %1, align 4, !tbaa !5
  br label %11

2:                                                ; preds = %41
  tail call fastcc void @walk(ptr noundef %44)
  %3 = tail call i32 @putchar(i32 noundef 10)
  %4 = tail call fastcc i32 @depth(ptr noundef %44)
  %5 = add nsw i32 %4, 48
  %6 = tail call i32 @putchar(i32 noundef %5)
  %7 = tail call i32 @putchar(i32 noundef 10)
  call fastcc void @leave(ptr noundef nonnull %1, i64 noundef 30)
  call fastcc void @leave(ptr noundef nonnull %1, i64 noundef 99)
  store i32 0, ptr @count, align 4, !tbaa !9
  %8 = load ptr, ptr %1, align 4, !tbaa !5
  tail call fastcc void @walk(ptr noundef %8)
  %9 = tail call i32 @putchar(i32 noundef 10)
  %10 = load i32, ptr @count, align 4, !tbaa !9
  tail call void @exit(i32 noundef %10) #10
  unreachable

11:                                               ; preds = %41, %0
  %12 = phi ptr [ null, %0 ], [ %44, %41 ]
  %13 = phi i32 [ 0, %0 ], [ %42, %41 ]
  %14 = getelementptr inbounds [10 x i8], ptr @main.keys, i32 0, i32 %13
  %15 = load i8, ptr %14, align 1, !tbaa !11
  %16 = sext i8 %15 to i64
  %17 = icmp eq ptr %12, null
  br i1 %17, label %35, label %18

18:                                               ; preds = %11
  %19 = load i64, ptr %12, align 8, !tbaa !12
  %20 = icmp eq i64 %19, %16
  br i1 %20, label %41, label %24

21:                                               ; preds = %24
  %22 = load i64, ptr %31, align 8, !tbaa !12
  %23 = icmp eq i64 %22, %16
  br i1 %23, label %41, label %24, !llvm.loop !15

24:                                               ; preds = %18, %21
  %25 = phi i64 [ %22, %21 ], [ %19, %18 ]
  %26 = phi ptr [ %31, %21 ], [ %12, %18 ]
  %27 = getelementptr inbounds i8, ptr %26, i32 8
  %28 = icmp slt i64 %25, %16
  %29 = zext i1 %28 to i32
  %30 = getelementptr inbounds [2 x ptr], ptr %27, i32 0, i32 %29
  %31 = load ptr, ptr %30, align 4, !tbaa !5
  %32 = icmp eq ptr %31, null
  br i1 %32, label %33, label %21, !llvm.loop !15

33:                                               ; preds = %24
  %34 = getelementptr inbounds [2 x ptr], ptr %27, i32 0, i32 %29
  br label %35

35:                                               ; preds = %33, %11
  %36 = phi ptr [ %1, %11 ], [ %34, %33 ]
  %37 = tail call dereferenceable_or_null(16) ptr @calloc(i32 noundef 1, i32 noundef 16) #11
  store ptr %37, ptr %36, align 4, !tbaa !5
  %38 = icmp eq ptr %37, null
  br i1 %38, label %39, label %40

39:                                               ; preds = %35
  tail call void @abort() #10
  unreachable

40:                                               ; preds = %35
  store i64 %16, ptr %37, align 8, !tbaa !12
  br label %41

41:                                               ; preds = %21, %18, %40
  %42 = add nuw nsw i32 %13, 1
  %43 = icmp eq i32 %42, 10
  %44 = load ptr, ptr %1, align 4, !tbaa !5
  br i1 %43, label %2, label %11, !llvm.loop !17
}

; Function Attrs: mustprogress nocallback nofree nosync nounwind willreturn memory(argmem: readwrite)
declare void @llvm.lifetime.start.p0(i64 immarg, ptr nocapture) #1

; Function Attrs: nofree nounwind
define internal fastcc void @walk(ptr noundef readonly %0) unnamed_addr #2 {
  %2 = icmp eq ptr %0, null
  br i1 %2, label %26, label %3

3:                                                ; preds = %1, %12
  %4 = phi ptr [ %24, %12 ], [ %0, %1 ]
  %5 = getelementptr inbounds i8, ptr %4, i32 8
  %6 = load ptr, ptr %5, align 8, !tbaa !5
  tail call fastcc void @walk(ptr noundef %6)
  %7 = load i32, ptr @count, align 4, !tbaa !9
  %8 = add nsw i32 %7, 1
  store i32 %8, ptr @count, align 4, !tbaa !9
  %9 = icmp eq i32 %7, 0
  br i1 %9, label %12, label %10

10:                                               ; preds = %3
  %11 = tail call i32 @putchar(i32 noundef 32)
  br label %12

12:                                               ; preds = %10, %3
  %13 = load i64, ptr %4, align 8, !tbaa !12
  %14 = sdiv i64 %13, 10
  %15 = trunc i64 %14 to i32
  %16 = add nsw i32 %15, 48
  %17 = tail call i32 @putchar(i32 noundef %16)
  %18 = load i64, ptr %4, align 8, !tbaa !12
  %19 = srem i64 %18, 10
  %20 = trunc nsw i64 %19 to i32
  %21 = add nsw i32 %20, 48
  %22 = tail call i32 @putchar(i32 noundef %21)
  %23 = getelementptr inbounds i8, ptr %4, i32 12
  %24 = load ptr, ptr %23, align 4, !tbaa !5
  %25 = icmp eq ptr %24, null
  br i1 %25, label %26, label %3

26:                                               ; preds = %12, %1
  ret void
}

; Function Attrs: nofree nounwind
declare noundef i32 @putchar(i32 noundef) local_unnamed_addr #2

; Function Attrs: nofree nosync nounwind memory(read, inaccessiblemem: none)
define internal fastcc i32 @depth(ptr noundef readonly %0) unnamed_addr #3 {
  %2 = icmp eq ptr %0, null
  br i1 %2, label %3, label %5

3:                                                ; preds = %1, %5
  %4 = phi i32 [ %13, %5 ], [ -1, %1 ]
  ret i32 %4

5:                                                ; preds = %1
  %6 = getelementptr inbounds i8, ptr %0, i32 8
  %7 = load ptr, ptr %6, align 8, !tbaa !5
  %8 = tail call fastcc i32 @depth(ptr noundef %7)
  %9 = getelementptr inbounds i8, ptr %0, i32 12
  %10 = load ptr, ptr %9, align 4, !tbaa !5
  %11 = tail call fastcc i32 @depth(ptr noundef %10)
  %12 = tail call i32 @llvm.smax.i32(i32 %8, i32 %11)
  %13 = add nsw i32 %12, 1
  br label %3
}

; Function Attrs: nounwind
define internal fastcc void @leave(ptr nocapture noundef %0, i64 noundef %1) unnamed_addr #4 {
  %3 = load ptr, ptr %0, align 4, !tbaa !5
  %4 = icmp eq ptr %3, null
  br i1 %4, label %52, label %5

5:                                                ; preds = %2
  %6 = load i64, ptr %3, align 8, !tbaa !12
  %7 = icmp eq i64 %6, %1
  br i1 %7, label %22, label %11

8:                                                ; preds = %11
  %9 = load i64, ptr %18, align 8, !tbaa !12
  %10 = icmp eq i64 %9, %1
  br i1 %10, label %20, label %11, !llvm.loop !15

11:                                               ; preds = %5, %8
  %12 = phi i64 [ %9, %8 ], [ %6, %5 ]
  %13 = phi ptr [ %18, %8 ], [ %3, %5 ]
  %14 = getelementptr inbounds i8, ptr %13, i32 8
  %15 = icmp slt i64 %12, %1
  %16 = zext i1 %15 to i32
  %17 = getelementptr inbounds [2 x ptr], ptr %14, i32 0, i32 %16
  %18 = load ptr, ptr %17, align 4, !tbaa !5
  %19 = icmp eq ptr %18, null
  br i1 %19, label %52, label %8, !llvm.loop !15

20:                                               ; preds = %8
  %21 = getelementptr inbounds [2 x ptr], ptr %14, i32 0, i32 %16
  br label %22

22:                                               ; preds = %20, %5
  %23 = phi ptr [ %3, %5 ], [ %18, %20 ]
  %24 = phi ptr [ %0, %5 ], [ %21, %20 ]
  %25 = getelementptr inbounds i8, ptr %23, i32 8
  %26 = load ptr, ptr %25, align 8, !tbaa !5
  %27 = icmp eq ptr %26, null
  %28 = getelementptr inbounds i8, ptr %23, i32 12
  %29 = load ptr, ptr %28, align 4, !tbaa !5
  br i1 %27, label %30, label %33

30:                                               ; preds = %22
  %31 = icmp ne ptr %29, null
  %32 = zext i1 %31 to i32
  br label %46

33:                                               ; preds = %22
  %34 = icmp eq ptr %29, null
  br i1 %34, label %46, label %35

35:                                               ; preds = %33, %35
  %36 = phi ptr [ %39, %35 ], [ %29, %33 ]
  %37 = phi ptr [ %38, %35 ], [ %28, %33 ]
  %38 = getelementptr inbounds i8, ptr %36, i32 8
  %39 = load ptr, ptr %38, align 8, !tbaa !5
  %40 = icmp eq ptr %39, null
  br i1 %40, label %41, label %35, !llvm.loop !18

41:                                               ; preds = %35
  %42 = getelementptr inbounds i8, ptr %36, i32 12
  %43 = load ptr, ptr %42, align 4, !tbaa !5
  store ptr %43, ptr %37, align 4, !tbaa !5
  %44 = load ptr, ptr %25, align 8, !tbaa !5
  store ptr %44, ptr %38, align 8, !tbaa !5
  %45 = load ptr, ptr %28, align 4, !tbaa !5
  store ptr %45, ptr %42, align 4, !tbaa !5
  br label %50

46:                                               ; preds = %30, %33
  %47 = phi i32 [ %32, %30 ], [ 0, %33 ]
  %48 = getelementptr inbounds [2 x ptr], ptr %25, i32 0, i32 %47
  %49 = load ptr, ptr %48, align 4, !tbaa !5
  br label %50

50:                                               ; preds = %46, %41
  %51 = phi ptr [ %49, %46 ], [ %36, %41 ]
  store ptr %51, ptr %24, align 4, !tbaa !5
  tail call void @free(ptr noundef nonnull %23)
  br label %52

52:                                               ; preds = %11, %2, %50
  ret void
}

; Function Attrs: noreturn
declare void @exit(i32 noundef) local_unnamed_addr #5

; Function Attrs: mustprogress nofree nounwind willreturn allockind("alloc,zeroed") allocsize(0,1) memory(inaccessiblemem: readwrite)
declare noalias noundef ptr @calloc(i32 noundef, i32 noundef) local_unnamed_addr #6

; Function Attrs: noreturn nounwind
declare void @abort() local_unnamed_addr #0

; Function Attrs: mustprogress nounwind willreturn allockind("free") memory(argmem: readwrite, inaccessiblemem: readwrite)
declare void @free(ptr allocptr nocapture noundef) local_unnamed_addr #7

; Function Attrs: nocallback nofree nosync nounwind speculatable willreturn memory(none)
declare i32 @llvm.smax.i32(i32, i32) #8

attributes #0 = { noreturn nounwind "no-trapping-math"="true" "stack-protector-buffer-size"="8" "target-cpu"="generic" "target-features"="+armv7-a,+dsp,+soft-float,-aes,-bf16,-d32,-dotprod,-fp-armv8,-fp-armv8d16,-fp-armv8d16sp,-fp-armv8sp,-fp16,-fp16fml,-fp64,-fpregs,-fullfp16,-mve,-mve.fp,-neon,-sha2,-thumb-mode,-vfp2,-vfp2sp,-vfp3,-vfp3d16,-vfp3d16sp,-vfp3sp,-vfp4,-vfp4d16,-vfp4d16sp,-vfp4sp" "use-soft-float"="true" }
attributes #1 = { mustprogress nocallback nofree nosync nounwind willreturn memory(argmem: readwrite) }
attributes #2 = { nofree nounwind "no-trapping-math"="true" "stack-protector-buffer-size"="8" "target-cpu"="generic" "target-features"="+armv7-a,+dsp,+soft-float,-aes,-bf16,-d32,-dotprod,-fp-armv8,-fp-armv8d16,-fp-armv8d16sp,-fp-armv8sp,-fp16,-fp16fml,-fp64,-fpregs,-fullfp16,-mve,-mve.fp,-neon,-sha2,-thumb-mode,-vfp2,-vfp2sp,-vfp3,-vfp3d16,-vfp3d16sp,-vfp3sp,-vfp4,-vfp4d16,-vfp4d16sp,-vfp4sp" "use-soft-float"="true" }
attributes #3 = { nofree nosync nounwind memory(read, inaccessiblemem: none) "no-trapping-math"="true" "stack-protector-buffer-size"="8" "target-cpu"="generic" "target-features"="+armv7-a,+dsp,+soft-float,-aes,-bf16,-d32,-dotprod,-fp-armv8,-fp-armv8d16,-fp-armv8d16sp,-fp-armv8sp,-fp16,-fp16fml,-fp64,-fpregs,-fullfp16,-mve,-mve.fp,-neon,-sha2,-thumb-mode,-vfp2,-vfp2sp,-vfp3,-vfp3d16,-vfp3d16sp,-vfp3sp,-vfp4,-vfp4d16,-vfp4d16sp,-vfp4sp" "use-soft-float"="true" }
attributes #4 = { nounwind "no-trapping-math"="true" "stack-protector-buffer-size"="8" "target-cpu"="generic" "target-features"="+armv7-a,+dsp,+soft-float,-aes,-bf16,-d32,-dotprod,-fp-armv8,-fp-armv8d16,-fp-armv8d16sp,-fp-armv8sp,-fp16,-fp16fml,-fp64,-fpregs,-fullfp16,-mve,-mve.fp,-neon,-sha2,-thumb-mode,-vfp2,-vfp2sp,-vfp3,-vfp3d16,-vfp3d16sp,-vfp3sp,-vfp4,-vfp4d16,-vfp4d16sp,-vfp4sp" "use-soft-float"="true" }
attributes #5 = { noreturn "no-trapping-math"="true" "stack-protector-buffer-size"="8" "target-cpu"="generic" "target-features"="+armv7-a,+dsp,+soft-float,-aes,-bf16,-d32,-dotprod,-fp-armv8,-fp-armv8d16,-fp-armv8d16sp,-fp-armv8sp,-fp16,-fp16fml,-fp64,-fpregs,-fullfp16,-mve,-mve.fp,-neon,-sha2,-thumb-mode,-vfp2,-vfp2sp,-vfp3,-vfp3d16,-vfp3d16sp,-vfp3sp,-vfp4,-vfp4d16,-vfp4d16sp,-vfp4sp" "use-soft-float"="true" }
attributes #6 = { mustprogress nofree nounwind willreturn allockind("alloc,zeroed") allocsize(0,1) memory(inaccessiblemem: readwrite) "alloc-family"="malloc" "no-trapping-math"="true" "stack-protector-buffer-size"="8" "target-cpu"="generic" "target-features"="+armv7-a,+dsp,+soft-float,-aes,-bf16,-d32,-dotprod,-fp-armv8,-fp-armv8d16,-fp-armv8d16sp,-fp-armv8sp,-fp16,-fp16fml,-fp64,-fpregs,-fullfp16,-mve,-mve.fp,-neon,-sha2,-thumb-mode,-vfp2,-vfp2sp,-vfp3,-vfp3d16,-vfp3d16sp,-vfp3sp,-vfp4,-vfp4d16,-vfp4d16sp,-vfp4sp" "use-soft-float"="true" }
attributes #7 = { mustprogress nounwind willreturn allockind("free") memory(argmem: readwrite, inaccessiblemem: readwrite) "alloc-family"="malloc" "no-trapping-math"="true" "stack-protector-buffer-size"="8" "target-cpu"="generic" "target-features"="+armv7-a,+dsp,+soft-float,-aes,-bf16,-d32,-dotprod,-fp-armv8,-fp-armv8d16,-fp-armv8d16sp,-fp-armv8sp,-fp16,-fp16fml,-fp64,-fpregs,-fullfp16,-mve,-mve.fp,-neon,-sha2,-thumb-mode,-vfp2,-vfp2sp,-vfp3,-vfp3d16,-vfp3d16sp,-vfp3sp,-vfp4,-vfp4d16,-vfp4d16sp,-vfp4sp" "use-soft-float"="true" }
attributes #8 = { nocallback nofree nosync nounwind speculatable willreturn memory(none) }
attributes #9 = { nounwind }
attributes #10 = { noreturn nounwind }
attributes #11 = { allocsize(0,1) }

!llvm.module.flags = !{!0, !1, !2, !3}
!llvm.ident = !{!4}

!0 = !{i32 1, !"wchar_size", i32 4}
!1 = !{i32 1, !"min_enum_size", i32 4}
!2 = !{i32 8, !"PIC Level", i32 2}
!3 = !{i32 7, !"PIE Level", i32 2}
!4 = !{!"Debian clang version 19.1.7 (3~deb12u1)"}
!5 = !{!6, !6, i64 0}
!6 = !{!"any pointer", !7, i64 0}
!7 = !{!"omnipotent char", !8, i64 0}
!8 = !{!"Simple C/C++ TBAA"}
!9 = !{!10, !10, i64 0}
!10 = !{!"int", !7, i64 0}
!11 = !{!7, !7, i64 0}
!12 = !{!13, !14, i64 0}
!13 = !{!"node", !14, i64 0, !7, i64 8}
!14 = !{!"long long", !7, i64 0}
!15 = distinct !{!15, !16}
!16 = !{!"llvm.loop.mustprogress"}
!17 = distinct !{!17, !16}
!18 = distinct !{!18, !16}
