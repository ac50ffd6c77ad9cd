; ModuleID = 'list.c'
source_filename = "list.c"
target datalayout = "e-m:e-p:32:32-Fi8-i64:64-v128:64:128-a:0:32-n32-S64"
target triple = "armv7-unknown-linux-gnueabi"

@main.values = internal unnamed_addr constant [9 x i8] c"\05\03\09\01\07\02\08\06\04", align 1

; Function Attrs: nounwind
define dso_local i32 @main() local_unnamed_addr #0 {
  %1 = alloca ptr, align 4
  %2 = alloca ptr, align 4
  br label %68

3:                                                ; preds = %91
  %4 = icmp eq ptr %95, null
  br i1 %4, label %66, label %5

5:                                                ; preds = %3, %5
  %6 = phi ptr [ %15, %5 ], [ %95, %3 ]
  %7 = getelementptr inbounds i8, ptr %6, i32 4
  %8 = load i32, ptr %7, align 4, !tbaa !5
  %9 = add nsw i32 %8, 48
  %10 = tail call i32 @putchar(i32 noundef %9)
  %11 = load ptr, ptr %6, align 4, !tbaa !11
  %12 = icmp eq ptr %11, null
  %13 = select i1 %12, i32 10, i32 32
  %14 = tail call i32 @putchar(i32 noundef %13)
  %15 = load ptr, ptr %6, align 4, !tbaa !11
  %16 = icmp eq ptr %15, null
  br i1 %16, label %17, label %5, !llvm.loop !12

17:                                               ; preds = %5, %17
  %18 = phi ptr [ %20, %17 ], [ %95, %5 ]
  %19 = phi ptr [ %18, %17 ], [ null, %5 ]
  %20 = load ptr, ptr %18, align 4, !tbaa !11
  store ptr %19, ptr %18, align 4, !tbaa !11
  %21 = icmp eq ptr %20, null
  br i1 %21, label %22, label %17, !llvm.loop !14

22:                                               ; preds = %17, %22
  %23 = phi ptr [ %32, %22 ], [ %18, %17 ]
  %24 = getelementptr inbounds i8, ptr %23, i32 4
  %25 = load i32, ptr %24, align 4, !tbaa !5
  %26 = add nsw i32 %25, 48
  %27 = tail call i32 @putchar(i32 noundef %26)
  %28 = load ptr, ptr %23, align 4, !tbaa !11
  %29 = icmp eq ptr %28, null
  %30 = select i1 %29, i32 10, i32 32
  %31 = tail call i32 @putchar(i32 noundef %30)
  %32 = load ptr, ptr %23, align 4, !tbaa !11
  %33 = icmp eq ptr %32, null
  br i1 %33, label %34, label %22, !llvm.loop !12

34:                                               ; preds = %22
  call void @llvm.lifetime.start.p0(i64 4, ptr nonnull %2)
  store ptr %18, ptr %2, align 4, !tbaa !15
  br label %35

35:                                               ; preds = %34, %44
  %36 = phi ptr [ %45, %44 ], [ %2, %34 ]
  %37 = phi ptr [ %46, %44 ], [ %18, %34 ]
  %38 = getelementptr inbounds i8, ptr %37, i32 4
  %39 = load i32, ptr %38, align 4, !tbaa !5
  %40 = and i32 %39, 1
  %41 = icmp eq i32 %40, 0
  br i1 %41, label %42, label %44

42:                                               ; preds = %35
  %43 = load ptr, ptr %37, align 4, !tbaa !11
  store ptr %43, ptr %36, align 4, !tbaa !15
  tail call void @free(ptr noundef nonnull %37)
  br label %44

44:                                               ; preds = %42, %35
  %45 = phi ptr [ %36, %42 ], [ %37, %35 ]
  %46 = load ptr, ptr %45, align 4, !tbaa !15
  %47 = icmp eq ptr %46, null
  br i1 %47, label %48, label %35, !llvm.loop !16

48:                                               ; preds = %44
  %49 = load ptr, ptr %2, align 4, !tbaa !15
  call void @llvm.lifetime.end.p0(i64 4, ptr nonnull %2)
  %50 = icmp eq ptr %49, null
  br i1 %50, label %66, label %51

51:                                               ; preds = %48, %51
  %52 = phi i32 [ %63, %51 ], [ 0, %48 ]
  %53 = phi ptr [ %64, %51 ], [ %49, %48 ]
  %54 = getelementptr inbounds i8, ptr %53, i32 4
  %55 = load i32, ptr %54, align 4, !tbaa !5
  %56 = add nsw i32 %55, 48
  %57 = tail call i32 @putchar(i32 noundef %56)
  %58 = load ptr, ptr %53, align 4, !tbaa !11
  %59 = icmp eq ptr %58, null
  %60 = select i1 %59, i32 10, i32 32
  %61 = tail call i32 @putchar(i32 noundef %60)
  %62 = load i32, ptr %54, align 4, !tbaa !5
  %63 = add nsw i32 %62, %52
  %64 = load ptr, ptr %53, align 4, !tbaa !11
  %65 = icmp eq ptr %64, null
  br i1 %65, label %66, label %51, !llvm.loop !12

66:                                               ; preds = %51, %3, %48
  %67 = phi i32 [ 0, %48 ], [ 0, %3 ], [ %63, %51 ]
  ret i32 %67

68:                                               ; preds = %0, %91
  %69 = phi i32 [ 0, %0 ], [ %96, %91 ]
  %70 = phi ptr [ null, %0 ], [ %95, %91 ]
  %71 = getelementptr inbounds [9 x i8], ptr @main.values, i32 0, i32 %69
  %72 = load i8, ptr %71, align 1, !tbaa !17
  %73 = sext i8 %72 to i32
  call void @llvm.lifetime.start.p0(i64 4, ptr nonnull %1)
  store ptr %70, ptr %1, align 4, !tbaa !15
  %74 = tail call dereferenceable_or_null(8) ptr @malloc(i32 noundef 8) #6
  %75 = icmp eq ptr %74, null
  br i1 %75, label %82, label %76

76:                                               ; preds = %68
  %77 = icmp eq ptr %70, null
  br i1 %77, label %91, label %78

78:                                               ; preds = %76
  %79 = getelementptr inbounds i8, ptr %70, i32 4
  %80 = load i32, ptr %79, align 4, !tbaa !5
  %81 = icmp slt i32 %80, %73
  br i1 %81, label %83, label %91, !llvm.loop !18

82:                                               ; preds = %68
  tail call void @exit(i32 noundef 99) #7
  unreachable

83:                                               ; preds = %78, %87
  %84 = phi ptr [ %85, %87 ], [ %70, %78 ]
  %85 = load ptr, ptr %84, align 4, !tbaa !15
  %86 = icmp eq ptr %85, null
  br i1 %86, label %91, label %87

87:                                               ; preds = %83
  %88 = getelementptr inbounds i8, ptr %85, i32 4
  %89 = load i32, ptr %88, align 4, !tbaa !5
  %90 = icmp slt i32 %89, %73
  br i1 %90, label %83, label %91, !llvm.loop !18

91:                                               ; preds = %87, %83, %78, %76
  %92 = phi ptr [ null, %76 ], [ %70, %78 ], [ %85, %87 ], [ null, %83 ]
  %93 = phi ptr [ %1, %76 ], [ %1, %78 ], [ %84, %83 ], [ %84, %87 ]
  %94 = getelementptr inbounds i8, ptr %74, i32 4
  store i32 %73, ptr %94, align 4, !tbaa !5
  store ptr %92, ptr %74, align 4, !tbaa !11
  store ptr %74, ptr %93, align 4, !tbaa !15
  %95 = load ptr, ptr %1, align 4, !tbaa !15
  call void @llvm.lifetime.end.p0(i64 4, ptr nonnull %1)
  %96 = add nuw nsw i32 %69, 1
  %97 = icmp eq i32 %96, 9
  br i1 %97, label %3, label %68, !llvm.loop !19
}

; Function Attrs: mustprogress nofree nounwind willreturn allockind("alloc,uninitialized") allocsize(0) memory(inaccessiblemem: readwrite)
declare noalias noundef ptr @malloc(i32 noundef) local_unnamed_addr #1

; Function Attrs: noreturn
declare void @exit(i32 noundef) local_unnamed_addr #2

; Function Attrs: nofree nounwind
declare noundef i32 @putchar(i32 noundef) local_unnamed_addr #3

; Function Attrs: mustprogress nounwind willreturn allockind("free") memory(argmem: readwrite, inaccessiblemem: readwrite)
declare void @free(ptr allocptr nocapture noundef) local_unnamed_addr #4

; Function Attrs: nocallback nofree nosync nounwind willreturn memory(argmem: readwrite)
declare void @llvm.lifetime.start.p0(i64 immarg, ptr nocapture) #5

; Function Attrs: nocallback nofree nosync nounwind willreturn memory(argmem: readwrite)
declare void @llvm.lifetime.end.p0(i64 immarg, ptr nocapture) #5

attributes #0 = { nounwind "no-trapping-math"="true" "stack-protector-buffer-size"="8" "target-cpu"="generic" "target-features"="+armv7-a,+dsp,+soft-float,-aes,-bf16,-d32,-dotprod,-fp-armv8,-fp-armv8d16,-fp-armv8d16sp,-fp-armv8sp,-fp16,-fp16fml,-fp64,-fpregs,-fullfp16,-mve,-mve.fp,-neon,-sha2,-thumb-mode,-vfp2,-vfp2sp,-vfp3,-vfp3d16,-vfp3d16sp,-vfp3sp,-vfp4,-vfp4d16,-vfp4d16sp,-vfp4sp" "use-soft-float"="true" }
attributes #1 = { mustprogress nofree nounwind willreturn allockind("alloc,uninitialized") allocsize(0) memory(inaccessiblemem: readwrite) "alloc-family"="malloc" "no-trapping-math"="true" "stack-protector-buffer-size"="8" "target-cpu"="generic" "target-features"="+armv7-a,+dsp,+soft-float,-aes,-bf16,-d32,-dotprod,-fp-armv8,-fp-armv8d16,-fp-armv8d16sp,-fp-armv8sp,-fp16,-fp16fml,-fp64,-fpregs,-fullfp16,-mve,-mve.fp,-neon,-sha2,-thumb-mode,-vfp2,-vfp2sp,-vfp3,-vfp3d16,-vfp3d16sp,-vfp3sp,-vfp4,-vfp4d16,-vfp4d16sp,-vfp4sp" "use-soft-float"="true" }
attributes #2 = { noreturn "no-trapping-math"="true" "stack-protector-buffer-size"="8" "target-cpu"="generic" "target-features"="+armv7-a,+dsp,+soft-float,-aes,-bf16,-d32,-dotprod,-fp-armv8,-fp-armv8d16,-fp-armv8d16sp,-fp-armv8sp,-fp16,-fp16fml,-fp64,-fpregs,-fullfp16,-mve,-mve.fp,-neon,-sha2,-thumb-mode,-vfp2,-vfp2sp,-vfp3,-vfp3d16,-vfp3d16sp,-vfp3sp,-vfp4,-vfp4d16,-vfp4d16sp,-vfp4sp" "use-soft-float"="true" }
attributes #3 = { nofree nounwind "no-trapping-math"="true" "stack-protector-buffer-size"="8" "target-cpu"="generic" "target-features"="+armv7-a,+dsp,+soft-float,-aes,-bf16,-d32,-dotprod,-fp-armv8,-fp-armv8d16,-fp-armv8d16sp,-fp-armv8sp,-fp16,-fp16fml,-fp64,-fpregs,-fullfp16,-mve,-mve.fp,-neon,-sha2,-thumb-mode,-vfp2,-vfp2sp,-vfp3,-vfp3d16,-vfp3d16sp,-vfp3sp,-vfp4,-vfp4d16,-vfp4d16sp,-vfp4sp" "use-soft-float"="true" }
attributes #4 = { mustprogress nounwind willreturn allockind("free") memory(argmem: readwrite, inaccessiblemem: readwrite) "alloc-family"="malloc" "no-trapping-math"="true" "stack-protector-buffer-size"="8" "target-cpu"="generic" "target-features"="+armv7-a,+dsp,+soft-float,-aes,-bf16,-d32,-dotprod,-fp-armv8,-fp-armv8d16,-fp-armv8d16sp,-fp-armv8sp,-fp16,-fp16fml,-fp64,-fpregs,-fullfp16,-mve,-mve.fp,-neon,-sha2,-thumb-mode,-vfp2,-vfp2sp,-vfp3,-vfp3d16,-vfp3d16sp,-vfp3sp,-vfp4,-vfp4d16,-vfp4d16sp,-vfp4sp" "use-soft-float"="true" }
attributes #5 = { nocallback nofree nosync nounwind willreturn memory(argmem: readwrite) }
attributes #6 = { allocsize(0) }
attributes #7 = { noreturn nounwind }

!llvm.module.flags = !{!0, !1, !2, !3}
!llvm.ident = !{!4}

!0 = !{i32 1, !"wchar_size", i32 4}
!1 = !{i32 1, !"min_enum_size", i32 4}
!2 = !{i32 8, !"PIC Level", i32 2}
!3 = !{i32 7, !"PIE Level", i32 2}
!4 = !{!"Debian clang version 19.1.7 (3~deb12u1)"}
!5 = !{!6, !10, i64 4}
!6 = !{!"node", !7, i64 0, !10, i64 4}
!7 = !{!"any pointer", !8, i64 0}
!8 = !{!"omnipotent char", !9, i64 0}
!9 = !{!"Simple C/C++ TBAA"}
!10 = !{!"int", !8, i64 0}
!11 = !{!6, !7, i64 0}
!12 = distinct !{!12, !13}
!13 = !{!"llvm.loop.mustprogress"}
!14 = distinct !{!14, !13}
!15 = !{!7, !7, i64 0}
!16 = distinct !{!16, !13}
!17 = !{!8, !8, i64 0}
!18 = distinct !{!18, !13}
!19 = distinct !{!19, !13}
