; ModuleID = 'strings.c'
source_filename = "strings.c"
target datalayout = "e-m:e-p:32:32-Fi8-i64:64-v128:64:128-a:0:32-n32-S64"
target triple = "armv7-unknown-linux-gnueabi"

@__const.main.text = private unnamed_addr constant [32 x i8] c"offload\00\00\00\00\00\00\00\00\00\00\00\00\00\00\00\00\00\00\00\00\00\00\00\00\00", align 1
@__const.main.upper = private unnamed_addr constant [32 x i8] c"native offload\00\00\00\00\00\00\00\00\00\00\00\00\00\00\00\00\00\00", align 1
@.str.1 = private unnamed_addr constant [7 x i8] c"native\00", align 1

; Function Attrs: nofree nounwind
define dso_local i32 @main() local_unnamed_addr #0 {
  %1 = alloca [32 x i8], align 1
  %2 = alloca [32 x i8], align 1
  call void @llvm.lifetime.start.p0(i64 32, ptr nonnull %1) #3
  call void @llvm.memcpy.p0.p0.i32(ptr noundef nonnull align 1 dereferenceable(32) %1, ptr noundef nonnull align 1 dereferenceable(32) @__const.main.text, i32 32, i1 false)
  call void @llvm.lifetime.start.p0(i64 32, ptr nonnull %2) #3
  call void @llvm.memcpy.p0.p0.i32(ptr noundef nonnull align 1 dereferenceable(32) %2, ptr noundef nonnull align 1 dereferenceable(32) @__const.main.upper, i32 32, i1 false)
  %3 = getelementptr inbounds i8, ptr %1, i32 1
  br label %4

4:                                                ; preds = %4, %0
  %5 = phi ptr [ %10, %4 ], [ %3, %0 ]
  %6 = phi ptr [ %9, %4 ], [ %1, %0 ]
  %7 = load i8, ptr %6, align 1, !tbaa !5
  %8 = icmp eq i8 %7, 0
  %9 = getelementptr inbounds i8, ptr %6, i32 1
  %10 = getelementptr i8, ptr %5, i32 1
  br i1 %8, label %11, label %4, !llvm.loop !8

11:                                               ; preds = %4
  store i16 32, ptr %6, align 1, !tbaa !5
  call void @llvm.memcpy.p0.p0.i32(ptr noundef nonnull align 1 dereferenceable(7) %5, ptr noundef nonnull align 1 dereferenceable(7) @.str.1, i32 7, i1 false), !tbaa !5
  %12 = call i32 @puts(ptr noundef nonnull dereferenceable(1) %1)
  br label %13

13:                                               ; preds = %13, %11
  %14 = phi i32 [ 0, %11 ], [ %18, %13 ]
  %15 = getelementptr inbounds i8, ptr %1, i32 %14
  %16 = load i8, ptr %15, align 1, !tbaa !5
  %17 = icmp eq i8 %16, 0
  %18 = add nuw nsw i32 %14, 1
  br i1 %17, label %19, label %13, !llvm.loop !10

19:                                               ; preds = %13
  %20 = load i8, ptr %1, align 1, !tbaa !5
  %21 = icmp eq i8 %20, 0
  br i1 %21, label %84, label %22

22:                                               ; preds = %19, %47
  %23 = phi i8 [ %50, %47 ], [ %20, %19 ]
  %24 = phi i32 [ %48, %47 ], [ 0, %19 ]
  %25 = getelementptr inbounds i8, ptr %1, i32 %24
  %26 = icmp eq i8 %23, 110
  br i1 %26, label %27, label %47

27:                                               ; preds = %22
  %28 = getelementptr inbounds i8, ptr %25, i32 1
  %29 = load i8, ptr %28, align 1, !tbaa !5
  %30 = icmp eq i8 %29, 97
  br i1 %30, label %31, label %47

31:                                               ; preds = %27
  %32 = getelementptr inbounds i8, ptr %25, i32 2
  %33 = load i8, ptr %32, align 1, !tbaa !5
  %34 = icmp eq i8 %33, 116
  br i1 %34, label %35, label %47

35:                                               ; preds = %31
  %36 = getelementptr inbounds i8, ptr %25, i32 3
  %37 = load i8, ptr %36, align 1, !tbaa !5
  %38 = icmp eq i8 %37, 105
  br i1 %38, label %39, label %47

39:                                               ; preds = %35
  %40 = getelementptr inbounds i8, ptr %25, i32 4
  %41 = load i8, ptr %40, align 1, !tbaa !5
  %42 = icmp eq i8 %41, 118
  br i1 %42, label %43, label %47

43:                                               ; preds = %39
  %44 = getelementptr inbounds i8, ptr %25, i32 5
  %45 = load i8, ptr %44, align 1, !tbaa !5
  %46 = icmp eq i8 %45, 101
  br i1 %46, label %52, label %47

47:                                               ; preds = %22, %43, %39, %35, %31, %27
  %48 = add nuw nsw i32 %24, 1
  %49 = getelementptr inbounds i8, ptr %1, i32 %48
  %50 = load i8, ptr %49, align 1, !tbaa !5
  %51 = icmp eq i8 %50, 0
  br i1 %51, label %52, label %22, !llvm.loop !11

52:                                               ; preds = %47, %43
  %53 = phi i32 [ %24, %43 ], [ -1, %47 ]
  br label %54

54:                                               ; preds = %52, %79
  %55 = phi i8 [ %82, %79 ], [ %20, %52 ]
  %56 = phi i32 [ %80, %79 ], [ 0, %52 ]
  %57 = getelementptr inbounds i8, ptr %1, i32 %56
  %58 = icmp eq i8 %55, 115
  br i1 %58, label %59, label %79

59:                                               ; preds = %54
  %60 = getelementptr inbounds i8, ptr %57, i32 1
  %61 = load i8, ptr %60, align 1, !tbaa !5
  %62 = icmp eq i8 %61, 101
  br i1 %62, label %63, label %79

63:                                               ; preds = %59
  %64 = getelementptr inbounds i8, ptr %57, i32 2
  %65 = load i8, ptr %64, align 1, !tbaa !5
  %66 = icmp eq i8 %65, 114
  br i1 %66, label %67, label %79

67:                                               ; preds = %63
  %68 = getelementptr inbounds i8, ptr %57, i32 3
  %69 = load i8, ptr %68, align 1, !tbaa !5
  %70 = icmp eq i8 %69, 118
  br i1 %70, label %71, label %79

71:                                               ; preds = %67
  %72 = getelementptr inbounds i8, ptr %57, i32 4
  %73 = load i8, ptr %72, align 1, !tbaa !5
  %74 = icmp eq i8 %73, 101
  br i1 %74, label %75, label %79

75:                                               ; preds = %71
  %76 = getelementptr inbounds i8, ptr %57, i32 5
  %77 = load i8, ptr %76, align 1, !tbaa !5
  %78 = icmp eq i8 %77, 114
  br i1 %78, label %84, label %79

79:                                               ; preds = %54, %75, %71, %67, %63, %59
  %80 = add nuw nsw i32 %56, 1
  %81 = getelementptr inbounds i8, ptr %1, i32 %80
  %82 = load i8, ptr %81, align 1, !tbaa !5
  %83 = icmp eq i8 %82, 0
  br i1 %83, label %84, label %54, !llvm.loop !11

84:                                               ; preds = %79, %75, %19
  %85 = phi i32 [ -1, %19 ], [ %53, %75 ], [ %53, %79 ]
  %86 = phi i32 [ -1, %19 ], [ -1, %79 ], [ %56, %75 ]
  br label %87

87:                                               ; preds = %87, %84
  %88 = phi i32 [ 0, %84 ], [ %92, %87 ]
  %89 = getelementptr inbounds i8, ptr %1, i32 %88
  %90 = load i8, ptr %89, align 1, !tbaa !5
  %91 = icmp eq i8 %90, 0
  %92 = add nuw nsw i32 %88, 1
  br i1 %91, label %93, label %87, !llvm.loop !10

93:                                               ; preds = %87
  %94 = icmp ugt i32 %88, 1
  br i1 %94, label %95, label %107

95:                                               ; preds = %93
  %96 = add nsw i32 %88, -1
  br label %97

97:                                               ; preds = %97, %95
  %98 = phi i32 [ %105, %97 ], [ %96, %95 ]
  %99 = phi i32 [ %104, %97 ], [ 0, %95 ]
  %100 = getelementptr inbounds i8, ptr %1, i32 %99
  %101 = load i8, ptr %100, align 1, !tbaa !5
  %102 = getelementptr inbounds i8, ptr %1, i32 %98
  %103 = load i8, ptr %102, align 1, !tbaa !5
  store i8 %103, ptr %100, align 1, !tbaa !5
  store i8 %101, ptr %102, align 1, !tbaa !5
  %104 = add nuw nsw i32 %99, 1
  %105 = add nsw i32 %98, -1
  %106 = icmp slt i32 %104, %105
  br i1 %106, label %97, label %107, !llvm.loop !12

107:                                              ; preds = %97, %93
  %108 = call i32 @puts(ptr noundef nonnull dereferenceable(1) %1)
  br label %109

109:                                              ; preds = %107, %116
  %110 = phi i8 [ %118, %116 ], [ 110, %107 ]
  %111 = phi ptr [ %117, %116 ], [ %2, %107 ]
  %112 = add i8 %110, -97
  %113 = icmp ult i8 %112, 26
  br i1 %113, label %114, label %116

114:                                              ; preds = %109
  %115 = add nsw i8 %110, -32
  store i8 %115, ptr %111, align 1, !tbaa !5
  br label %116

116:                                              ; preds = %109, %114
  %117 = getelementptr inbounds i8, ptr %111, i32 1
  %118 = load i8, ptr %117, align 1, !tbaa !5
  %119 = icmp eq i8 %118, 0
  br i1 %119, label %120, label %109, !llvm.loop !13

120:                                              ; preds = %116
  %121 = call i32 @puts(ptr noundef nonnull dereferenceable(1) %2)
  tail call fastcc void @number(i32 noundef %14)
  %122 = tail call i32 @putchar(i32 noundef 32)
  tail call fastcc void @number(i32 noundef -1)
  %123 = tail call i32 @putchar(i32 noundef 32)
  tail call fastcc void @number(i32 noundef 0)
  %124 = tail call i32 @putchar(i32 noundef 32)
  tail call fastcc void @number(i32 noundef 1)
  %125 = tail call i32 @putchar(i32 noundef 10)
  tail call fastcc void @number(i32 noundef %85)
  %126 = tail call i32 @putchar(i32 noundef 32)
  tail call fastcc void @number(i32 noundef %86)
  %127 = tail call i32 @putchar(i32 noundef 10)
  call void @llvm.lifetime.end.p0(i64 32, ptr nonnull %2) #3
  call void @llvm.lifetime.end.p0(i64 32, ptr nonnull %1) #3
  ret i32 %14
}

; Function Attrs: mustprogress nocallback nofree nosync nounwind willreturn memory(argmem: readwrite)
declare void @llvm.lifetime.start.p0(i64 immarg, ptr nocapture) #1

; Function Attrs: mustprogress nocallback nofree nounwind willreturn memory(argmem: readwrite)
declare void @llvm.memcpy.p0.p0.i32(ptr noalias nocapture writeonly, ptr noalias nocapture readonly, i32, i1 immarg) #2

; Function Attrs: nofree nounwind
declare noundef i32 @puts(ptr nocapture noundef readonly) local_unnamed_addr #0

; Function Attrs: mustprogress nocallback nofree nosync nounwind willreturn memory(argmem: readwrite)
declare void @llvm.lifetime.end.p0(i64 immarg, ptr nocapture) #1

; Function Attrs: nofree nounwind
define internal fastcc void @number(i32 noundef %0) unnamed_addr #0 {
  %2 = icmp slt i32 %0, 0
  br i1 %2, label %3, label %6

3:                                                ; preds = %1
  %4 = tail call i32 @putchar(i32 noundef 45)
  %5 = sub nsw i32 0, %0
  br label %6

6:                                                ; preds = %3, %1
  %7 = phi i32 [ %5, %3 ], [ %0, %1 ]
  %8 = icmp ugt i32 %7, 9
  br i1 %8, label %9, label %11

9:                                                ; preds = %6
  %10 = udiv i32 %7, 10
  tail call fastcc void @number(i32 noundef %10)
  br label %11

11:                                               ; preds = %9, %6
  %12 = urem i32 %7, 10
  %13 = or disjoint i32 %12, 48
  %14 = tail call i32 @putchar(i32 noundef %13)
  ret void
}

; Function Attrs: nofree nounwind
declare noundef i32 @putchar(i32 noundef) local_unnamed_addr #0

attributes #0 = { nofree nounwind "no-trapping-math"="true" "stack-protector-buffer-size"="8" "target-cpu"="generic" "target-features"="+armv7-a,+dsp,+soft-float,-aes,-bf16,-d32,-dotprod,-fp-armv8,-fp-armv8d16,-fp-armv8d16sp,-fp-armv8sp,-fp16,-fp16fml,-fp64,-fpregs,-fullfp16,-mve,-mve.fp,-neon,-sha2,-thumb-mode,-vfp2,-vfp2sp,-vfp3,-vfp3d16,-vfp3d16sp,-vfp3sp,-vfp4,-vfp4d16,-vfp4d16sp,-vfp4sp" "use-soft-float"="true" }
attributes #1 = { mustprogress nocallback nofree nosync nounwind willreturn memory(argmem: readwrite) }
attributes #2 = { mustprogress nocallback nofree nounwind willreturn memory(argmem: readwrite) }
attributes #3 = { nounwind }

!llvm.module.flags = !{!0, !1, !2, !3}
!llvm.ident = !{!4}

!0 = !{i32 1, !"wchar_size", i32 4}
!1 = !{i32 1, !"min_enum_size", i32 4}
!2 = !{i32 8, !"PIC Level", i32 2}
!3 = !{i32 7, !"PIE Level", i32 2}
!4 = !{!"Debian clang version 19.1.7 (3~deb12u1)"}
!5 = !{!6, !6, i64 0}
!6 = !{!"omnipotent char", !7, i64 0}
!7 = !{!"Simple C/C++ TBAA"}
!8 = distinct !{!8, !9}
!9 = !{!"llvm.loop.mustprogress"}
!10 = distinct !{!10, !9}
!11 = distinct !{!11, !9}
!12 = distinct !{!12, !9}
!13 = distinct !{!13, !9}
