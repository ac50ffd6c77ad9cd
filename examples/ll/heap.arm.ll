; ModuleID = 'heap.c'
source_filename = "heap.c"
target datalayout = "e-m:e-p:32:32-Fi8-i64:64-v128:64:128-a:0:32-n32-S64"
target triple = "armv7-unknown-linux-gnueabi"

@.str = private unnamed_addr constant [7 x i8] c"zeros \00", align 1
@.str.1 = private unnamed_addr constant [6 x i8] c"dirt \00", align 1
@.str.2 = private unnamed_addr constant [6 x i8] c"same \00", align 1
@.str.3 = private unnamed_addr constant [7 x i8] c"other \00", align 1
@.str.4 = private unnamed_addr constant [5 x i8] c"room\00", align 1
@.str.5 = private unnamed_addr constant [5 x i8] c"none\00", align 1

; Function Attrs: nounwind
define dso_local noundef i32 @main() local_unnamed_addr #0 {
  %1 = alloca ptr, align 4
  %2 = alloca ptr, align 4
  %3 = alloca ptr, align 4
  %4 = alloca ptr, align 4
  br label %5

5:                                                ; preds = %0, %28
  %6 = phi i32 [ 0, %0 ], [ %31, %28 ]
  %7 = phi i32 [ 0, %0 ], [ %30, %28 ]
  %8 = phi ptr [ null, %0 ], [ %29, %28 ]
  %9 = mul nuw nsw i32 %6, %6
  %10 = icmp eq i32 %6, %7
  br i1 %10, label %11, label %28

11:                                               ; preds = %5
  %12 = icmp eq i32 %6, 0
  %13 = shl nuw i32 %6, 1
  %14 = select i1 %12, i32 2, i32 %13
  %15 = shl i32 %14, 2
  %16 = tail call ptr @malloc(i32 noundef %15) #8
  %17 = icmp eq ptr %16, null
  br i1 %17, label %19, label %18

18:                                               ; preds = %11
  br i1 %12, label %20, label %21

19:                                               ; preds = %11
  tail call void @exit(i32 noundef 99) #9
  unreachable

20:                                               ; preds = %21, %18
  tail call void @free(ptr noundef %8)
  br label %28

21:                                               ; preds = %18, %21
  %22 = phi i32 [ %26, %21 ], [ 0, %18 ]
  %23 = getelementptr inbounds i32, ptr %8, i32 %22
  %24 = load i32, ptr %23, align 4, !tbaa !5
  %25 = getelementptr inbounds i32, ptr %16, i32 %22
  store i32 %24, ptr %25, align 4, !tbaa !5
  %26 = add nuw nsw i32 %22, 1
  %27 = icmp eq i32 %26, %6
  br i1 %27, label %20, label %21, !llvm.loop !9

28:                                               ; preds = %5, %20
  %29 = phi ptr [ %16, %20 ], [ %8, %5 ]
  %30 = phi i32 [ %14, %20 ], [ %7, %5 ]
  %31 = add nuw nsw i32 %6, 1
  %32 = getelementptr inbounds i32, ptr %29, i32 %6
  store i32 %9, ptr %32, align 4, !tbaa !5
  %33 = icmp eq i32 %31, 10
  br i1 %33, label %34, label %5, !llvm.loop !11

34:                                               ; preds = %28
  %35 = load i32, ptr %29, align 4, !tbaa !5
  tail call fastcc void @number(i32 noundef %35)
  %36 = tail call i32 @putchar(i32 noundef 32)
  %37 = getelementptr inbounds i8, ptr %29, i32 4
  %38 = load i32, ptr %37, align 4, !tbaa !5
  tail call fastcc void @number(i32 noundef %38)
  %39 = tail call i32 @putchar(i32 noundef 32)
  %40 = getelementptr inbounds i8, ptr %29, i32 8
  %41 = load i32, ptr %40, align 4, !tbaa !5
  tail call fastcc void @number(i32 noundef %41)
  %42 = tail call i32 @putchar(i32 noundef 32)
  %43 = getelementptr inbounds i8, ptr %29, i32 12
  %44 = load i32, ptr %43, align 4, !tbaa !5
  tail call fastcc void @number(i32 noundef %44)
  %45 = tail call i32 @putchar(i32 noundef 32)
  %46 = getelementptr inbounds i8, ptr %29, i32 16
  %47 = load i32, ptr %46, align 4, !tbaa !5
  tail call fastcc void @number(i32 noundef %47)
  %48 = tail call i32 @putchar(i32 noundef 32)
  %49 = getelementptr inbounds i8, ptr %29, i32 20
  %50 = load i32, ptr %49, align 4, !tbaa !5
  tail call fastcc void @number(i32 noundef %50)
  %51 = tail call i32 @putchar(i32 noundef 32)
  %52 = getelementptr inbounds i8, ptr %29, i32 24
  %53 = load i32, ptr %52, align 4, !tbaa !5
  tail call fastcc void @number(i32 noundef %53)
  %54 = tail call i32 @putchar(i32 noundef 32)
  %55 = getelementptr inbounds i8, ptr %29, i32 28
  %56 = load i32, ptr %55, align 4, !tbaa !5
  tail call fastcc void @number(i32 noundef %56)
  %57 = tail call i32 @putchar(i32 noundef 32)
  %58 = getelementptr inbounds i8, ptr %29, i32 32
  %59 = load i32, ptr %58, align 4, !tbaa !5
  tail call fastcc void @number(i32 noundef %59)
  %60 = tail call i32 @putchar(i32 noundef 32)
  %61 = getelementptr inbounds i8, ptr %29, i32 36
  %62 = load i32, ptr %61, align 4, !tbaa !5
  tail call fastcc void @number(i32 noundef %62)
  %63 = tail call i32 @putchar(i32 noundef 10)
  %64 = tail call dereferenceable_or_null(1000) ptr @calloc(i32 noundef 25, i32 noundef 40) #10
  %65 = icmp eq ptr %64, null
  br i1 %65, label %66, label %107

66:                                               ; preds = %34
  tail call void @abort() #9
  unreachable

67:                                               ; preds = %107
  %68 = icmp eq i32 %113, 0
  %69 = select i1 %68, ptr @.str, ptr @.str.1
  %70 = load i8, ptr %69, align 1, !tbaa !12
  %71 = icmp eq i8 %70, 0
  br i1 %71, label %80, label %72

72:                                               ; preds = %67, %72
  %73 = phi i8 [ %78, %72 ], [ %70, %67 ]
  %74 = phi ptr [ %75, %72 ], [ %69, %67 ]
  %75 = getelementptr inbounds i8, ptr %74, i32 1
  %76 = zext i8 %73 to i32
  %77 = tail call i32 @putchar(i32 noundef %76)
  %78 = load i8, ptr %75, align 1, !tbaa !12
  %79 = icmp eq i8 %78, 0
  br i1 %79, label %80, label %72, !llvm.loop !13

80:                                               ; preds = %72, %67
  tail call void @free(ptr noundef %64)
  call void @llvm.lifetime.start.p0(i64 4, ptr nonnull %1)
  %81 = tail call dereferenceable_or_null(100) ptr @malloc(i32 noundef 100) #8
  store volatile ptr %81, ptr %1, align 4, !tbaa !14
  call void @llvm.lifetime.start.p0(i64 4, ptr nonnull %2)
  %82 = tail call dereferenceable_or_null(8) ptr @malloc(i32 noundef 8) #8
  store volatile ptr %82, ptr %2, align 4, !tbaa !14
  %83 = load volatile ptr, ptr %1, align 4, !tbaa !14
  %84 = load volatile ptr, ptr %1, align 4, !tbaa !14
  tail call void @free(ptr noundef %84)
  call void @llvm.lifetime.start.p0(i64 4, ptr nonnull %3)
  %85 = tail call dereferenceable_or_null(90) ptr @malloc(i32 noundef 90) #8
  store volatile ptr %85, ptr %3, align 4, !tbaa !14
  %86 = load volatile ptr, ptr %3, align 4, !tbaa !14
  %87 = icmp eq ptr %86, %83
  %88 = select i1 %87, ptr @.str.2, ptr @.str.3
  %89 = load i8, ptr %88, align 1, !tbaa !12
  %90 = icmp eq i8 %89, 0
  br i1 %90, label %99, label %91

91:                                               ; preds = %80, %91
  %92 = phi i8 [ %97, %91 ], [ %89, %80 ]
  %93 = phi ptr [ %94, %91 ], [ %88, %80 ]
  %94 = getelementptr inbounds i8, ptr %93, i32 1
  %95 = zext i8 %92 to i32
  %96 = tail call i32 @putchar(i32 noundef %95)
  %97 = load i8, ptr %94, align 1, !tbaa !12
  %98 = icmp eq i8 %97, 0
  br i1 %98, label %99, label %91, !llvm.loop !13

99:                                               ; preds = %91, %80
  %100 = load volatile ptr, ptr %3, align 4, !tbaa !14
  tail call void @free(ptr noundef %100)
  %101 = load volatile ptr, ptr %2, align 4, !tbaa !14
  tail call void @free(ptr noundef %101)
  call void @llvm.lifetime.start.p0(i64 4, ptr nonnull %4)
  %102 = tail call dereferenceable_or_null(1879048192) ptr @malloc(i32 noundef 1879048192) #8
  store volatile ptr %102, ptr %4, align 4, !tbaa !14
  %103 = load volatile ptr, ptr %4, align 4, !tbaa !14
  %104 = icmp eq ptr %103, null
  %105 = select i1 %104, ptr @.str.5, ptr @.str.4
  %106 = tail call i32 @puts(ptr noundef nonnull dereferenceable(1) %105)
  tail call void @free(ptr noundef %29)
  call void @llvm.lifetime.end.p0(i64 4, ptr nonnull %4)
  call void @llvm.lifetime.end.p0(i64 4, ptr nonnull %3)
  call void @llvm.lifetime.end.p0(i64 4, ptr nonnull %2)
  call void @llvm.lifetime.end.p0(i64 4, ptr nonnull %1)
  ret i32 10

107:                                              ; preds = %34, %107
  %108 = phi i32 [ %114, %107 ], [ 0, %34 ]
  %109 = phi i32 [ %113, %107 ], [ 0, %34 ]
  %110 = getelementptr inbounds i8, ptr %64, i32 %108
  %111 = load i8, ptr %110, align 1, !tbaa !12
  %112 = zext i8 %111 to i32
  %113 = add i32 %109, %112
  %114 = add nuw nsw i32 %108, 1
  %115 = icmp eq i32 %114, 1000
  br i1 %115, label %67, label %107, !llvm.loop !16
}

; Function Attrs: mustprogress nocallback nofree nosync nounwind willreturn memory(argmem: readwrite)
declare void @llvm.lifetime.start.p0(i64 immarg, ptr nocapture) #1

; Function Attrs: mustprogress nocallback nofree nosync nounwind willreturn memory(argmem: readwrite)
declare void @llvm.lifetime.end.p0(i64 immarg, ptr nocapture) #1

; Function Attrs: nofree nounwind
define internal fastcc void @number(i32 noundef %0) unnamed_addr #2 {
  %2 = icmp sgt i32 %0, 9
  br i1 %2, label %3, label %5

3:                                                ; preds = %1
  %4 = udiv i32 %0, 10
  tail call fastcc void @number(i32 noundef %4)
  br label %5

5:                                                ; preds = %3, %1
  %6 = srem i32 %0, 10
  %7 = add nsw i32 %6, 48
  %8 = tail call i32 @putchar(i32 noundef %7)
  ret void
}

; Function Attrs: nofree nounwind
declare noundef i32 @putchar(i32 noundef) local_unnamed_addr #2

; Function Attrs: mustprogress nofree nounwind willreturn allockind("alloc,zeroed") allocsize(0,1) memory(inaccessiblemem: readwrite)
declare noalias noundef ptr @calloc(i32 noundef, i32 noundef) local_unnamed_addr #3

; Function Attrs: noreturn nounwind
declare void @abort() local_unnamed_addr #4

; Function Attrs: mustprogress nounwind willreturn allockind("free") memory(argmem: readwrite, inaccessiblemem: readwrite)
declare void @free(ptr allocptr nocapture noundef) local_unnamed_addr #5

; Function Attrs: mustprogress nofree nounwind willreturn allockind("alloc,uninitialized") allocsize(0) memory(inaccessiblemem: readwrite)
declare noalias noundef ptr @malloc(i32 noundef) local_unnamed_addr #6

; Function Attrs: nofree nounwind
declare noundef i32 @puts(ptr nocapture noundef readonly) local_unnamed_addr #2

; Function Attrs: noreturn
declare void @exit(i32 noundef) local_unnamed_addr #7

attributes #0 = { nounwind "no-trapping-math"="true" "stack-protector-buffer-size"="8" "target-cpu"="generic" "target-features"="+armv7-a,+dsp,+soft-float,-aes,-bf16,-d32,-dotprod,-fp-armv8,-fp-armv8d16,-fp-armv8d16sp,-fp-armv8sp,-fp16,-fp16fml,-fp64,-fpregs,-fullfp16,-mve,-mve.fp,-neon,-sha2,-thumb-mode,-vfp2,-vfp2sp,-vfp3,-vfp3d16,-vfp3d16sp,-vfp3sp,-vfp4,-vfp4d16,-vfp4d16sp,-vfp4sp" "use-soft-float"="true" }
attributes #1 = { mustprogress nocallback nofree nosync nounwind willreturn memory(argmem: readwrite) }
attributes #2 = { nofree nounwind "no-trapping-math"="true" "stack-protector-buffer-size"="8" "target-cpu"="generic" "target-features"="+armv7-a,+dsp,+soft-float,-aes,-bf16,-d32,-dotprod,-fp-armv8,-fp-armv8d16,-fp-armv8d16sp,-fp-armv8sp,-fp16,-fp16fml,-fp64,-fpregs,-fullfp16,-mve,-mve.fp,-neon,-sha2,-thumb-mode,-vfp2,-vfp2sp,-vfp3,-vfp3d16,-vfp3d16sp,-vfp3sp,-vfp4,-vfp4d16,-vfp4d16sp,-vfp4sp" "use-soft-float"="true" }
attributes #3 = { mustprogress nofree nounwind willreturn allockind("alloc,zeroed") allocsize(0,1) memory(inaccessiblemem: readwrite) "alloc-family"="malloc" "no-trapping-math"="true" "stack-protector-buffer-size"="8" "target-cpu"="generic" "target-features"="+armv7-a,+dsp,+soft-float,-aes,-bf16,-d32,-dotprod,-fp-armv8,-fp-armv8d16,-fp-armv8d16sp,-fp-armv8sp,-fp16,-fp16fml,-fp64,-fpregs,-fullfp16,-mve,-mve.fp,-neon,-sha2,-thumb-mode,-vfp2,-vfp2sp,-vfp3,-vfp3d16,-vfp3d16sp,-vfp3sp,-vfp4,-vfp4d16,-vfp4d16sp,-vfp4sp" "use-soft-float"="true" }
attributes #4 = { noreturn nounwind "no-trapping-math"="true" "stack-protector-buffer-size"="8" "target-cpu"="generic" "target-features"="+armv7-a,+dsp,+soft-float,-aes,-bf16,-d32,-dotprod,-fp-armv8,-fp-armv8d16,-fp-armv8d16sp,-fp-armv8sp,-fp16,-fp16fml,-fp64,-fpregs,-fullfp16,-mve,-mve.fp,-neon,-sha2,-thumb-mode,-vfp2,-vfp2sp,-vfp3,-vfp3d16,-vfp3d16sp,-vfp3sp,-vfp4,-vfp4d16,-vfp4d16sp,-vfp4sp" "use-soft-float"="true" }
attributes #5 = { mustprogress nounwind willreturn allockind("free") memory(argmem: readwrite, inaccessiblemem: readwrite) "alloc-family"="malloc" "no-trapping-math"="true" "stack-protector-buffer-size"="8" "target-cpu"="generic" "target-features"="+armv7-a,+dsp,+soft-float,-aes,-bf16,-d32,-dotprod,-fp-armv8,-fp-armv8d16,-fp-armv8d16sp,-fp-armv8sp,-fp16,-fp16fml,-fp64,-fpregs,-fullfp16,-mve,-mve.fp,-neon,-sha2,-thumb-mode,-vfp2,-vfp2sp,-vfp3,-vfp3d16,-vfp3d16sp,-vfp3sp,-vfp4,-vfp4d16,-vfp4d16sp,-vfp4sp" "use-soft-float"="true" }
attributes #6 = { mustprogress nofree nounwind willreturn allockind("alloc,uninitialized") allocsize(0) memory(inaccessiblemem: readwrite) "alloc-family"="malloc" "no-trapping-math"="true" "stack-protector-buffer-size"="8" "target-cpu"="generic" "target-features"="+armv7-a,+dsp,+soft-float,-aes,-bf16,-d32,-dotprod,-fp-armv8,-fp-armv8d16,-fp-armv8d16sp,-fp-armv8sp,-fp16,-fp16fml,-fp64,-fpregs,-fullfp16,-mve,-mve.fp,-neon,-sha2,-thumb-mode,-vfp2,-vfp2sp,-vfp3,-vfp3d16,-vfp3d16sp,-vfp3sp,-vfp4,-vfp4d16,-vfp4d16sp,-vfp4sp" "use-soft-float"="true" }
attributes #7 = { noreturn "no-trapping-math"="true" "stack-protector-buffer-size"="8" "target-cpu"="generic" "target-features"="+armv7-a,+dsp,+soft-float,-aes,-bf16,-d32,-dotprod,-fp-armv8,-fp-armv8d16,-fp-armv8d16sp,-fp-armv8sp,-fp16,-fp16fml,-fp64,-fpregs,-fullfp16,-mve,-mve.fp,-neon,-sha2,-thumb-mode,-vfp2,-vfp2sp,-vfp3,-vfp3d16,-vfp3d16sp,-vfp3sp,-vfp4,-vfp4d16,-vfp4d16sp,-vfp4sp" "use-soft-float"="true" }
attributes #8 = { allocsize(0) }
attributes #9 = { noreturn nounwind }
attributes #10 = { allocsize(0,1) }

!llvm.module.flags = !{!0, !1, !2, !3}
!llvm.ident = !{!4}

!0 = !{i32 1, !"wchar_size", i32 4}
!1 = !{i32 1, !"min_enum_size", i32 4}
!2 = !{i32 8, !"PIC Level", i32 2}
!3 = !{i32 7, !"PIE Level", i32 2}
!4 = !{!"Debian clang version 19.1.7 (3~deb12u1)"}
!5 = !{!6, !6, i64 0}
!6 = !{!"int", !7, i64 0}
!7 = !{!"omnipotent char", !8, i64 0}
!8 = !{!"Simple C/C++ TBAA"}
!9 = distinct !{!9, !10}
!10 = !{!"llvm.loop.mustprogress"}
!11 = distinct !{!11, !10}
!12 = !{!7, !7, i64 0}
!13 = distinct !{!13, !10}
!14 = !{!15, !15, i64 0}
!15 = !{!"any pointer", !7, i64 0}
!16 = distinct !{!16, !10}
