; ModuleID = 'matrix.c'
source_filename = "matrix.c"
target datalayout = "e-m:e-p:32:32-Fi8-i64:64-v128:64:128-a:0:32-n32-S64"
target triple = "armv7-unknown-linux-gnueabi"

%struct.matrix = type { i32, i32, [3 x [3 x i32]] }

; Function Attrs: nofree nounwind
define dso_local i32 @main() local_unnamed_addr #0 {
  %1 = alloca %struct.matrix, align 4
  %2 = alloca %struct.matrix, align 4
  %3 = alloca %struct.matrix, align 4
  %4 = alloca %struct.matrix, align 4
  %5 = alloca %struct.matrix, align 4
  call void @llvm.lifetime.start.p0(i64 44, ptr nonnull %3) #4
  call void @llvm.lifetime.start.p0(i64 44, ptr nonnull %4) #4
  %6 = getelementptr inbounds i8, ptr %4, i32 12
  call void @llvm.memset.p0.i32(ptr noundef nonnull align 4 dereferenceable(44) %6, i8 0, i32 32, i1 false)
  store i32 2, ptr %4, align 4
  %7 = getelementptr inbounds i8, ptr %4, i32 4
  store i32 2, ptr %7, align 4
  %8 = getelementptr inbounds i8, ptr %4, i32 8
  store i32 1, ptr %8, align 4
  %9 = getelementptr inbounds i8, ptr %4, i32 24
  store i32 1, ptr %9, align 4
  call void @llvm.lifetime.start.p0(i64 44, ptr nonnull %5) #4
  %10 = getelementptr inbounds i8, ptr %5, i32 16
  call void @llvm.memset.p0.i32(ptr noundef nonnull align 4 dereferenceable(44) %10, i8 0, i32 28, i1 false)
  store i32 2, ptr %5, align 4
  %11 = getelementptr inbounds i8, ptr %5, i32 4
  store i32 2, ptr %11, align 4
  %12 = getelementptr inbounds i8, ptr %5, i32 8
  store i32 1, ptr %12, align 4
  %13 = getelementptr inbounds i8, ptr %5, i32 12
  store i32 1, ptr %13, align 4
  %14 = getelementptr inbounds i8, ptr %5, i32 20
  store i32 1, ptr %14, align 4
  tail call fastcc void @number(i32 noundef 58)
  %15 = tail call i32 @putchar(i32 noundef 32)
  tail call fastcc void @number(i32 noundef 64)
  %16 = tail call i32 @putchar(i32 noundef 10)
  tail call fastcc void @number(i32 noundef 139)
  %17 = tail call i32 @putchar(i32 noundef 32)
  tail call fastcc void @number(i32 noundef 154)
  %18 = tail call i32 @putchar(i32 noundef 10)
  %19 = tail call i32 @putchar(i32 noundef 10)
  store i32 2, ptr %3, align 4, !tbaa !5
  %20 = getelementptr inbounds i8, ptr %3, i32 4
  store i32 2, ptr %20, align 4, !tbaa !10
  %21 = getelementptr inbounds i8, ptr %3, i32 8
  store i32 58, ptr %21, align 4, !tbaa !11
  %22 = getelementptr inbounds i8, ptr %3, i32 20
  store i32 64, ptr %22, align 4, !tbaa !11
  %23 = getelementptr inbounds i8, ptr %3, i32 12
  store i32 139, ptr %23, align 4, !tbaa !11
  %24 = getelementptr inbounds i8, ptr %3, i32 24
  store i32 154, ptr %24, align 4, !tbaa !11
  %25 = load i32, ptr %3, align 4, !tbaa !5
  %26 = icmp sgt i32 %25, 0
  br i1 %26, label %27, label %45

27:                                               ; preds = %0
  %28 = getelementptr inbounds i8, ptr %3, i32 8
  %29 = load i32, ptr %20, align 4, !tbaa !10
  %30 = icmp sgt i32 %29, 0
  br label %31

31:                                               ; preds = %33, %27
  %32 = phi i32 [ 0, %27 ], [ %34, %33 ]
  br i1 %30, label %36, label %33

33:                                               ; preds = %36, %31
  %34 = add nuw nsw i32 %32, 1
  %35 = icmp eq i32 %34, %25
  br i1 %35, label %45, label %31, !llvm.loop !12

36:                                               ; preds = %31, %36
  %37 = phi i32 [ %40, %36 ], [ 0, %31 ]
  %38 = getelementptr inbounds [3 x [3 x i32]], ptr %28, i32 0, i32 %32, i32 %37
  %39 = load i32, ptr %38, align 4, !tbaa !11
  tail call fastcc void @number(i32 noundef %39)
  %40 = add nuw nsw i32 %37, 1
  %41 = icmp slt i32 %40, %29
  %42 = select i1 %41, i32 32, i32 10
  %43 = tail call i32 @putchar(i32 noundef %42)
  %44 = icmp eq i32 %40, %29
  br i1 %44, label %33, label %36, !llvm.loop !14

45:                                               ; preds = %33, %0
  %46 = tail call i32 @putchar(i32 noundef 10)
  %47 = getelementptr inbounds i8, ptr %1, i32 8
  %48 = getelementptr inbounds i8, ptr %1, i32 4
  %49 = getelementptr inbounds i8, ptr %2, i32 8
  %50 = getelementptr inbounds i8, ptr %2, i32 4
  br label %76

51:                                               ; preds = %142
  %52 = load i32, ptr %4, align 4, !tbaa !5
  %53 = icmp sgt i32 %52, 0
  br i1 %53, label %54, label %71

54:                                               ; preds = %51
  %55 = load i32, ptr %7, align 4, !tbaa !10
  %56 = icmp sgt i32 %55, 0
  br label %57

57:                                               ; preds = %59, %54
  %58 = phi i32 [ 0, %54 ], [ %60, %59 ]
  br i1 %56, label %62, label %59

59:                                               ; preds = %62, %57
  %60 = add nuw nsw i32 %58, 1
  %61 = icmp eq i32 %60, %52
  br i1 %61, label %71, label %57, !llvm.loop !12

62:                                               ; preds = %57, %62
  %63 = phi i32 [ %66, %62 ], [ 0, %57 ]
  %64 = getelementptr inbounds [3 x [3 x i32]], ptr %8, i32 0, i32 %58, i32 %63
  %65 = load i32, ptr %64, align 4, !tbaa !11
  tail call fastcc void @number(i32 noundef %65)
  %66 = add nuw nsw i32 %63, 1
  %67 = icmp slt i32 %66, %55
  %68 = select i1 %67, i32 32, i32 10
  %69 = tail call i32 @putchar(i32 noundef %68)
  %70 = icmp eq i32 %66, %55
  br i1 %70, label %59, label %62, !llvm.loop !14

71:                                               ; preds = %59, %51
  %72 = tail call i32 @putchar(i32 noundef 10)
  %73 = load i32, ptr %8, align 4, !tbaa !11
  %74 = load i32, ptr %9, align 4, !tbaa !11
  %75 = add nsw i32 %74, %73
  call void @llvm.lifetime.end.p0(i64 44, ptr nonnull %5) #4
  call void @llvm.lifetime.end.p0(i64 44, ptr nonnull %4) #4
  call void @llvm.lifetime.end.p0(i64 44, ptr nonnull %3) #4
  ret i32 %75

76:                                               ; preds = %45, %142
  %77 = phi i32 [ 10, %45 ], [ %143, %142 ]
  %78 = and i32 %77, 1
  %79 = icmp eq i32 %78, 0
  %80 = load i32, ptr %11, align 4, !tbaa !10
  br i1 %79, label %114, label %81

81:                                               ; preds = %76
  call void @llvm.lifetime.start.p0(i64 44, ptr nonnull %2) #4
  call void @llvm.memset.p0.i64(ptr noundef nonnull align 4 dereferenceable(44) %49, i8 0, i64 36, i1 false)
  %82 = load i32, ptr %4, align 4, !tbaa !5
  store i32 %82, ptr %2, align 4, !tbaa !5
  store i32 %80, ptr %50, align 4, !tbaa !10
  %83 = icmp sgt i32 %82, 0
  br i1 %83, label %84, label %113

84:                                               ; preds = %81
  %85 = icmp sgt i32 %80, 0
  %86 = load i32, ptr %7, align 4
  %87 = icmp sgt i32 %86, 0
  br label %88

88:                                               ; preds = %95, %84
  %89 = phi i32 [ 0, %84 ], [ %96, %95 ]
  br i1 %85, label %90, label %95

90:                                               ; preds = %88, %99
  %91 = phi i32 [ %100, %99 ], [ 0, %88 ]
  br i1 %87, label %92, label %99

92:                                               ; preds = %90
  %93 = getelementptr inbounds [3 x [3 x i32]], ptr %49, i32 0, i32 %89, i32 %91
  %94 = load i32, ptr %93, align 4, !tbaa !11
  br label %102

95:                                               ; preds = %99, %88
  %96 = add nuw nsw i32 %89, 1
  %97 = icmp eq i32 %96, %82
  br i1 %97, label %113, label %88, !llvm.loop !15

98:                                               ; preds = %102
  store i32 %110, ptr %93, align 4, !tbaa !11
  br label %99

99:                                               ; preds = %98, %90
  %100 = add nuw nsw i32 %91, 1
  %101 = icmp eq i32 %100, %80
  br i1 %101, label %95, label %90, !llvm.loop !16

102:                                              ; preds = %102, %92
  %103 = phi i32 [ %94, %92 ], [ %110, %102 ]
  %104 = phi i32 [ 0, %92 ], [ %111, %102 ]
  %105 = getelementptr inbounds [3 x [3 x i32]], ptr %8, i32 0, i32 %89, i32 %104
  %106 = load i32, ptr %105, align 4, !tbaa !11
  %107 = getelementptr inbounds [3 x [3 x i32]], ptr %12, i32 0, i32 %104, i32 %91
  %108 = load i32, ptr %107, align 4, !tbaa !11
  %109 = mul nsw i32 %108, %106
  %110 = add nsw i32 %109, %103
  %111 = add nuw nsw i32 %104, 1
  %112 = icmp eq i32 %111, %86
  br i1 %112, label %98, label %102, !llvm.loop !17

113:                                              ; preds = %95, %81
  call void @llvm.memcpy.p0.p0.i32(ptr noundef nonnull align 4 dereferenceable(44) %4, ptr noundef nonnull align 4 dereferenceable(44) %2, i32 44, i1 false), !tbaa.struct !18
  call void @llvm.lifetime.end.p0(i64 44, ptr nonnull %2) #4
  br label %114

114:                                              ; preds = %113, %76
  call void @llvm.lifetime.start.p0(i64 44, ptr nonnull %1) #4
  call void @llvm.memset.p0.i64(ptr noundef nonnull align 4 dereferenceable(44) %47, i8 0, i64 36, i1 false)
  %115 = load i32, ptr %5, align 4, !tbaa !5
  store i32 %115, ptr %1, align 4, !tbaa !5
  store i32 %80, ptr %48, align 4, !tbaa !10
  %116 = icmp sgt i32 %115, 0
  br i1 %116, label %117, label %142

117:                                              ; preds = %114
  %118 = icmp sgt i32 %80, 0
  br label %119

119:                                              ; preds = %125, %117
  %120 = phi i32 [ 0, %117 ], [ %126, %125 ]
  br i1 %118, label %121, label %125

121:                                              ; preds = %119, %128
  %122 = phi i32 [ %129, %128 ], [ 0, %119 ]
  %123 = getelementptr inbounds [3 x [3 x i32]], ptr %47, i32 0, i32 %120, i32 %122
  %124 = load i32, ptr %123, align 4, !tbaa !11
  br label %131

125:                                              ; preds = %128, %119
  %126 = add nuw nsw i32 %120, 1
  %127 = icmp eq i32 %126, %115
  br i1 %127, label %142, label %119, !llvm.loop !15

128:                                              ; preds = %131
  store i32 %139, ptr %123, align 4, !tbaa !11
  %129 = add nuw nsw i32 %122, 1
  %130 = icmp eq i32 %129, %80
  br i1 %130, label %125, label %121, !llvm.loop !16

131:                                              ; preds = %131, %121
  %132 = phi i32 [ %124, %121 ], [ %139, %131 ]
  %133 = phi i32 [ 0, %121 ], [ %140, %131 ]
  %134 = getelementptr inbounds [3 x [3 x i32]], ptr %12, i32 0, i32 %120, i32 %133
  %135 = load i32, ptr %134, align 4, !tbaa !11
  %136 = getelementptr inbounds [3 x [3 x i32]], ptr %12, i32 0, i32 %133, i32 %122
  %137 = load i32, ptr %136, align 4, !tbaa !11
  %138 = mul nsw i32 %137, %135
  %139 = add nsw i32 %138, %132
  %140 = add nuw nsw i32 %133, 1
  %141 = icmp eq i32 %140, %80
  br i1 %141, label %128, label %131, !llvm.loop !17

142:                                              ; preds = %125, %114
  call void @llvm.memcpy.p0.p0.i32(ptr noundef nonnull align 4 dereferenceable(44) %5, ptr noundef nonnull align 4 dereferenceable(44) %1, i32 44, i1 false), !tbaa.struct !18
  call void @llvm.lifetime.end.p0(i64 44, ptr nonnull %1) #4
  %143 = lshr i32 %77, 1
  %144 = icmp ult i32 %77, 2
  br i1 %144, label %51, label %76, !llvm.loop !20
}

; Function Attrs: mustprogress nocallback nofree nosync nounwind willreturn memory(argmem: readwrite)
declare void @llvm.lifetime.start.p0(i64 immarg, ptr nocapture) #1

; Function Attrs: mustprogress nocallback nofree nounwind willreturn memory(argmem: write)
declare void @llvm.memset.p0.i32(ptr nocapture writeonly, i8, i32, i1 immarg) #2

; Function Attrs: mustprogress nocallback nofree nosync nounwind willreturn memory(argmem: readwrite)
declare void @llvm.lifetime.end.p0(i64 immarg, ptr nocapture) #1

; Function Attrs: mustprogress nocallback nofree nounwind willreturn memory(argmem: write)
declare void @llvm.memset.p0.i64(ptr nocapture writeonly, i8, i64, i1 immarg) #2

; Function Attrs: mustprogress nocallback nofree nounwind willreturn memory(argmem: readwrite)
declare void @llvm.memcpy.p0.p0.i32(ptr noalias nocapture writeonly, ptr noalias nocapture readonly, i32, i1 immarg) #3

; Function Attrs: nofree nounwind
define internal fastcc void @number(i32 noundef %0) unnamed_addr #0 {
  %2 = icmp sgt i32 %0, 9
  br i1 %2, label %3, label %5

3:                                                ; preds = %1
  %4 = udiv i32 %0, 10
  tail call fastcc void @number(i32 noundef %4)
  br label %5

5:                                                ; preds = %3, %1
  %6 = srem i32 %0, 10
  %7 = add nsw i32 %6, 48
  %8 = tail call i32 @putchar(i32 noundef %7)
  ret void
}

; Function Attrs: nofree nounwind
declare noundef i32 @putchar(i32 noundef) local_unnamed_addr #0

attributes #0 = { nofree nounwind "no-trapping-math"="true" "stack-protector-buffer-size"="8" "target-cpu"="generic" "target-features"="+armv7-a,+dsp,+soft-float,-aes,-bf16,-d32,-dotprod,-fp-armv8,-fp-armv8d16,-fp-armv8d16sp,-fp-armv8sp,-fp16,-fp16fml,-fp64,-fpregs,-fullfp16,-mve,-mve.fp,-neon,-sha2,-thumb-mode,-vfp2,-vfp2sp,-vfp3,-vfp3d16,-vfp3d16sp,-vfp3sp,-vfp4,-vfp4d16,-vfp4d16sp,-vfp4sp" "use-soft-float"="true" }
attributes #1 = { mustprogress nocallback nofree nosync nounwind willreturn memory(argmem: readwrite) }
attributes #2 = { mustprogress nocallback nofree nounwind willreturn memory(argmem: write) }
attributes #3 = { mustprogress nocallback nofree nounwind willreturn memory(argmem: readwrite) }
attributes #4 = { nounwind }

!llvm.module.flags = !{!0, !1, !2, !3}
!llvm.ident = !{!4}

!0 = !{i32 1, !"wchar_size", i32 4}
!1 = !{i32 1, !"min_enum_size", i32 4}
!2 = !{i32 8, !"PIC Level", i32 2}
!3 = !{i32 7, !"PIE Level", i32 2}
!4 = !{!"Debian clang version 19.1.7 (3~deb12u1)"}
!5 = !{!6, !7, i64 0}
!6 = !{!"matrix", !7, i64 0, !7, i64 4, !8, i64 8}
!7 = !{!"int", !8, i64 0}
!8 = !{!"omnipotent char", !9, i64 0}
!9 = !{!"Simple C/C++ TBAA"}
!10 = !{!6, !7, i64 4}
!11 = !{!7, !7, i64 0}
!12 = distinct !{!12, !13}
!13 = !{!"llvm.loop.mustprogress"}
!14 = distinct !{!14, !13}
!15 = distinct !{!15, !13}
!16 = distinct !{!16, !13}
!17 = distinct !{!17, !13}
!18 = !{i64 0, i64 4, !11, i64 4, i64 4, !11, i64 8, i64 36, !19}
!19 = !{!8, !8, i64 0}
!20 = distinct !{!20, !13}
