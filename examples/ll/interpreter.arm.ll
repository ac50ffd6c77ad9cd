; ModuleID = 'interpreter.c'
source_filename = "interpreter.c"
target datalayout = "e-m:e-p:32:32-Fi8-i64:64-v128:64:128-a:0:32-n32-S64"
target triple = "armv7-unknown-linux-gnueabi"

%struct.machine = type { [16 x i32], i32, i32, i32 }

@program = internal unnamed_addr constant [35 x i16] [i16 0, i16 1, i16 1, i16 8, i16 0, i16 32, i16 9, i16 0, i16 3, i16 4, i16 1, i16 0, i16 1000, i16 5, i16 6, i16 2, i16 2, i16 0, i16 10, i16 9, i16 0, i16 0, i16 1, i16 10, i16 9, i16 0, i16 1, i16 3, i16 1, i16 0, i16 5, i16 5, i16 6, i16 22, i16 11], align 2
@letters = internal unnamed_addr constant [6 x i8] c"halt\0A\00", align 1

; Function Attrs: nounwind
define dso_local range(i32 -2147483648, 2147483598) i32 @main() local_unnamed_addr #0 {
  %1 = alloca %struct.machine, align 4
  call void @llvm.lifetime.start.p0(i64 76, ptr nonnull %1) #5
  call void @llvm.memset.p0.i32(ptr noundef nonnull align 4 dereferenceable(76) %1, i8 0, i32 68, i1 false)
  %2 = getelementptr inbounds i8, ptr %1, i32 72
  %3 = getelementptr inbounds i8, ptr %1, i32 68
  %4 = getelementptr inbounds i8, ptr %1, i32 64
  br label %5

5:                                                ; preds = %150, %0
  %6 = phi i32 [ %152, %150 ], [ 0, %0 ]
  %7 = phi i32 [ %151, %150 ], [ 0, %0 ]
  %8 = add nsw i32 %7, 1
  store i32 %8, ptr %2, align 4, !tbaa !5
  %9 = add nsw i32 %6, 1
  store i32 %9, ptr %3, align 4, !tbaa !10
  %10 = getelementptr inbounds [35 x i16], ptr @program, i32 0, i32 %6
  %11 = load i16, ptr %10, align 2, !tbaa !11
  switch i16 %11, label %150 [
    i16 0, label %12
    i16 1, label %23
    i16 2, label %40
    i16 3, label %46
    i16 4, label %64
    i16 5, label %82
    i16 6, label %101
    i16 7, label %115
    i16 8, label %119
    i16 9, label %127
    i16 10, label %136
    i16 11, label %153
  ]

12:                                               ; preds = %5
  %13 = add nsw i32 %6, 2
  store i32 %13, ptr %3, align 4, !tbaa !10
  %14 = load i32, ptr %4, align 4, !tbaa !13
  %15 = icmp eq i32 %14, 16
  br i1 %15, label %16, label %17

16:                                               ; preds = %12
  tail call void @abort() #6
  unreachable

17:                                               ; preds = %12
  %18 = getelementptr inbounds [35 x i16], ptr @program, i32 0, i32 %9
  %19 = load i16, ptr %18, align 2, !tbaa !11
  %20 = sext i16 %19 to i32
  %21 = add nsw i32 %14, 1
  store i32 %21, ptr %4, align 4, !tbaa !13
  %22 = getelementptr inbounds [16 x i32], ptr %1, i32 0, i32 %14
  store i32 %20, ptr %22, align 4, !tbaa !14
  br label %150

23:                                               ; preds = %5
  %24 = load i32, ptr %4, align 4, !tbaa !13
  %25 = icmp eq i32 %24, 0
  br i1 %25, label %26, label %27

26:                                               ; preds = %23
  tail call void @abort() #6
  unreachable

27:                                               ; preds = %23
  %28 = add nsw i32 %24, -1
  store i32 %28, ptr %4, align 4, !tbaa !13
  %29 = getelementptr inbounds [16 x i32], ptr %1, i32 0, i32 %28
  %30 = load i32, ptr %29, align 4, !tbaa !14
  %31 = icmp eq i32 %28, 16
  br i1 %31, label %32, label %33

32:                                               ; preds = %27
  tail call void @abort() #6
  unreachable

33:                                               ; preds = %27
  store i32 %24, ptr %4, align 4, !tbaa !13
  store i32 %30, ptr %29, align 4, !tbaa !14
  %34 = load i32, ptr %4, align 4, !tbaa !13
  %35 = icmp eq i32 %34, 16
  br i1 %35, label %36, label %37

36:                                               ; preds = %33
  tail call void @abort() #6
  unreachable

37:                                               ; preds = %33
  %38 = add nsw i32 %34, 1
  store i32 %38, ptr %4, align 4, !tbaa !13
  %39 = getelementptr inbounds [16 x i32], ptr %1, i32 0, i32 %34
  store i32 %30, ptr %39, align 4, !tbaa !14
  br label %150

40:                                               ; preds = %5
  %41 = load i32, ptr %4, align 4, !tbaa !13
  %42 = icmp eq i32 %41, 0
  br i1 %42, label %43, label %44

43:                                               ; preds = %40
  tail call void @abort() #6
  unreachable

44:                                               ; preds = %40
  %45 = add nsw i32 %41, -1
  store i32 %45, ptr %4, align 4, !tbaa !13
  br label %150

46:                                               ; preds = %5
  %47 = load i32, ptr %4, align 4, !tbaa !13
  %48 = icmp eq i32 %47, 0
  br i1 %48, label %49, label %50

49:                                               ; preds = %46
  tail call void @abort() #6
  unreachable

50:                                               ; preds = %46
  %51 = add nsw i32 %47, -1
  store i32 %51, ptr %4, align 4, !tbaa !13
  %52 = icmp eq i32 %51, 0
  br i1 %52, label %53, label %54

53:                                               ; preds = %50
  tail call void @abort() #6
  unreachable

54:                                               ; preds = %50
  %55 = getelementptr inbounds [16 x i32], ptr %1, i32 0, i32 %51
  %56 = load i32, ptr %55, align 4, !tbaa !14
  %57 = add nsw i32 %47, -2
  store i32 %57, ptr %4, align 4, !tbaa !13
  %58 = icmp eq i32 %57, 16
  br i1 %58, label %59, label %60

59:                                               ; preds = %54
  tail call void @abort() #6
  unreachable

60:                                               ; preds = %54
  %61 = getelementptr inbounds [16 x i32], ptr %1, i32 0, i32 %57
  %62 = load i32, ptr %61, align 4, !tbaa !14
  %63 = add nsw i32 %62, %56
  store i32 %51, ptr %4, align 4, !tbaa !13
  store i32 %63, ptr %61, align 4, !tbaa !14
  br label %150

64:                                               ; preds = %5
  %65 = load i32, ptr %4, align 4, !tbaa !13
  %66 = icmp eq i32 %65, 0
  br i1 %66, label %67, label %68

67:                                               ; preds = %64
  tail call void @abort() #6
  unreachable

68:                                               ; preds = %64
  %69 = add nsw i32 %65, -1
  store i32 %69, ptr %4, align 4, !tbaa !13
  %70 = icmp eq i32 %69, 0
  br i1 %70, label %71, label %72

71:                                               ; preds = %68
  tail call void @abort() #6
  unreachable

72:                                               ; preds = %68
  %73 = getelementptr inbounds [16 x i32], ptr %1, i32 0, i32 %69
  %74 = load i32, ptr %73, align 4, !tbaa !14
  %75 = add nsw i32 %65, -2
  store i32 %75, ptr %4, align 4, !tbaa !13
  %76 = icmp eq i32 %75, 16
  br i1 %76, label %77, label %78

77:                                               ; preds = %72
  tail call void @abort() #6
  unreachable

78:                                               ; preds = %72
  %79 = getelementptr inbounds [16 x i32], ptr %1, i32 0, i32 %75
  %80 = load i32, ptr %79, align 4, !tbaa !14
  %81 = mul nsw i32 %80, %74
  store i32 %69, ptr %4, align 4, !tbaa !13
  store i32 %81, ptr %79, align 4, !tbaa !14
  br label %150

82:                                               ; preds = %5
  %83 = load i32, ptr %4, align 4, !tbaa !13
  %84 = icmp eq i32 %83, 0
  br i1 %84, label %85, label %86

85:                                               ; preds = %82
  tail call void @abort() #6
  unreachable

86:                                               ; preds = %82
  %87 = add nsw i32 %83, -1
  store i32 %87, ptr %4, align 4, !tbaa !13
  %88 = icmp eq i32 %87, 0
  br i1 %88, label %89, label %90

89:                                               ; preds = %86
  tail call void @abort() #6
  unreachable

90:                                               ; preds = %86
  %91 = getelementptr inbounds [16 x i32], ptr %1, i32 0, i32 %87
  %92 = load i32, ptr %91, align 4, !tbaa !14
  %93 = add nsw i32 %83, -2
  store i32 %93, ptr %4, align 4, !tbaa !13
  %94 = icmp eq i32 %93, 16
  br i1 %94, label %95, label %96

95:                                               ; preds = %90
  tail call void @abort() #6
  unreachable

96:                                               ; preds = %90
  %97 = getelementptr inbounds [16 x i32], ptr %1, i32 0, i32 %93
  %98 = load i32, ptr %97, align 4, !tbaa !14
  %99 = icmp slt i32 %98, %92
  %100 = zext i1 %99 to i32
  store i32 %87, ptr %4, align 4, !tbaa !13
  store i32 %100, ptr %97, align 4, !tbaa !14
  br label %150

101:                                              ; preds = %5
  %102 = add nsw i32 %6, 2
  store i32 %102, ptr %3, align 4, !tbaa !10
  %103 = getelementptr inbounds [35 x i16], ptr @program, i32 0, i32 %9
  %104 = load i16, ptr %103, align 2, !tbaa !11
  %105 = load i32, ptr %4, align 4, !tbaa !13
  %106 = icmp eq i32 %105, 0
  br i1 %106, label %107, label %108

107:                                              ; preds = %101
  tail call void @abort() #6
  unreachable

108:                                              ; preds = %101
  %109 = add nsw i32 %105, -1
  store i32 %109, ptr %4, align 4, !tbaa !13
  %110 = getelementptr inbounds [16 x i32], ptr %1, i32 0, i32 %109
  %111 = load i32, ptr %110, align 4, !tbaa !14
  %112 = icmp eq i32 %111, 0
  br i1 %112, label %150, label %113

113:                                              ; preds = %108
  %114 = sext i16 %104 to i32
  store i32 %114, ptr %3, align 4, !tbaa !10
  br label %150

115:                                              ; preds = %5
  %116 = getelementptr inbounds [35 x i16], ptr @program, i32 0, i32 %9
  %117 = load i16, ptr %116, align 2, !tbaa !11
  %118 = sext i16 %117 to i32
  store i32 %118, ptr %3, align 4, !tbaa !10
  br label %150

119:                                              ; preds = %5
  %120 = load i32, ptr %4, align 4, !tbaa !13
  %121 = icmp eq i32 %120, 0
  br i1 %121, label %122, label %123

122:                                              ; preds = %119
  tail call void @abort() #6
  unreachable

123:                                              ; preds = %119
  %124 = add nsw i32 %120, -1
  store i32 %124, ptr %4, align 4, !tbaa !13
  %125 = getelementptr inbounds [16 x i32], ptr %1, i32 0, i32 %124
  %126 = load i32, ptr %125, align 4, !tbaa !14
  tail call fastcc void @number(i32 noundef %126)
  br label %150

127:                                              ; preds = %5
  %128 = load i32, ptr %4, align 4, !tbaa !13
  %129 = icmp eq i32 %128, 0
  br i1 %129, label %130, label %131

130:                                              ; preds = %127
  tail call void @abort() #6
  unreachable

131:                                              ; preds = %127
  %132 = add nsw i32 %128, -1
  store i32 %132, ptr %4, align 4, !tbaa !13
  %133 = getelementptr inbounds [16 x i32], ptr %1, i32 0, i32 %132
  %134 = load i32, ptr %133, align 4, !tbaa !14
  %135 = tail call i32 @putchar(i32 noundef %134)
  br label %150

136:                                              ; preds = %5
  %137 = load i32, ptr %4, align 4, !tbaa !13
  %138 = icmp eq i32 %137, 0
  br i1 %138, label %139, label %140

139:                                              ; preds = %136
  tail call void @abort() #6
  unreachable

140:                                              ; preds = %136
  %141 = add nsw i32 %137, -1
  store i32 %141, ptr %4, align 4, !tbaa !13
  %142 = icmp eq i32 %141, 16
  br i1 %142, label %143, label %144

143:                                              ; preds = %140
  tail call void @abort() #6
  unreachable

144:                                              ; preds = %140
  %145 = getelementptr inbounds [16 x i32], ptr %1, i32 0, i32 %141
  %146 = load i32, ptr %145, align 4, !tbaa !14
  %147 = getelementptr inbounds [6 x i8], ptr @letters, i32 0, i32 %146
  %148 = load i8, ptr %147, align 1, !tbaa !15
  %149 = zext i8 %148 to i32
  store i32 %137, ptr %4, align 4, !tbaa !13
  store i32 %149, ptr %145, align 4, !tbaa !14
  br label %150

150:                                              ; preds = %5, %17, %37, %44, %60, %78, %96, %108, %113, %115, %123, %131, %144
  %151 = load i32, ptr %2, align 4, !tbaa !5
  %152 = load i32, ptr %3, align 4, !tbaa !10
  br label %5, !llvm.loop !16

153:                                              ; preds = %5
  %154 = add nsw i32 %7, -49
  call void @llvm.lifetime.end.p0(i64 76, ptr nonnull %1) #5
  ret i32 %154
}

; Function Attrs: mustprogress nocallback nofree nosync nounwind willreturn memory(argmem: readwrite)
declare void @llvm.lifetime.start.p0(i64 immarg, ptr nocapture) #1

; Function Attrs: mustprogress nocallback nofree nounwind willreturn memory(argmem: write)
declare void @llvm.memset.p0.i32(ptr nocapture writeonly, i8, i32, i1 immarg) #2

; Function Attrs: mustprogress nocallback nofree nosync nounwind willreturn memory(argmem: readwrite)
declare void @llvm.lifetime.end.p0(i64 immarg, ptr nocapture) #1

; Function Attrs: nofree nounwind
define internal fastcc void @number(i32 noundef %0) unnamed_addr #3 {
  %2 = icmp sgt i32 %0, 9
  br i1 %2, label %3, label %5

3:                                                ; preds = %1
  %4 = udiv i32 %0, 10
  tail call fastcc void @number(i32 noundef %4)
  br label %5

5:                                                ; preds = %3, %1
  %6 = srem i32 %0, 10
  %7 = add nsw i32 %6, 48
  %8 = tail call i32 @putchar(i32 noundef %7)
  ret void
}

; Function Attrs: nofree nounwind
declare noundef i32 @putchar(i32 noundef) local_unnamed_addr #3

; Function Attrs: noreturn nounwind
declare void @abort() local_unnamed_addr #4

attributes #0 = { nounwind "no-trapping-math"="true" "stack-protector-buffer-size"="8" "target-cpu"="generic" "target-features"="+armv7-a,+dsp,+soft-float,-aes,-bf16,-d32,-dotprod,-fp-armv8,-fp-armv8d16,-fp-armv8d16sp,-fp-armv8sp,-fp16,-fp16fml,-fp64,-fpregs,-fullfp16,-mve,-mve.fp,-neon,-sha2,-thumb-mode,-vfp2,-vfp2sp,-vfp3,-vfp3d16,-vfp3d16sp,-vfp3sp,-vfp4,-vfp4d16,-vfp4d16sp,-vfp4sp" "use-soft-float"="true" }
attributes #1 = { mustprogress nocallback nofree nosync nounwind willreturn memory(argmem: readwrite) }
attributes #2 = { mustprogress nocallback nofree nounwind willreturn memory(argmem: write) }
attributes #3 = { nofree nounwind "no-trapping-math"="true" "stack-protector-buffer-size"="8" "target-cpu"="generic" "target-features"="+armv7-a,+dsp,+soft-float,-aes,-bf16,-d32,-dotprod,-fp-armv8,-fp-armv8d16,-fp-armv8d16sp,-fp-armv8sp,-fp16,-fp16fml,-fp64,-fpregs,-fullfp16,-mve,-mve.fp,-neon,-sha2,-thumb-mode,-vfp2,-vfp2sp,-vfp3,-vfp3d16,-vfp3d16sp,-vfp3sp,-vfp4,-vfp4d16,-vfp4d16sp,-vfp4sp" "use-soft-float"="true" }
attributes #4 = { noreturn nounwind "no-trapping-math"="true" "stack-protector-buffer-size"="8" "target-cpu"="generic" "target-features"="+armv7-a,+dsp,+soft-float,-aes,-bf16,-d32,-dotprod,-fp-armv8,-fp-armv8d16,-fp-armv8d16sp,-fp-armv8sp,-fp16,-fp16fml,-fp64,-fpregs,-fullfp16,-mve,-mve.fp,-neon,-sha2,-thumb-mode,-vfp2,-vfp2sp,-vfp3,-vfp3d16,-vfp3d16sp,-vfp3sp,-vfp4,-vfp4d16,-vfp4d16sp,-vfp4sp" "use-soft-float"="true" }
attributes #5 = { nounwind }
attributes #6 = { noreturn nounwind }

!llvm.module.flags = !{!0, !1, !2, !3}
!llvm.ident = !{!4}

!0 = !{i32 1, !"wchar_size", i32 4}
!1 = !{i32 1, !"min_enum_size", i32 4}
!2 = !{i32 8, !"PIC Level", i32 2}
!3 = !{i32 7, !"PIE Level", i32 2}
!4 = !{!"Debian clang version 19.1.7 (3~deb12u1)"}
!5 = !{!6, !9, i64 72}
!6 = !{!"machine", !7, i64 0, !9, i64 64, !9, i64 68, !9, i64 72}
!7 = !{!"omnipotent char", !8, i64 0}
!8 = !{!"Simple C/C++ TBAA"}
!9 = !{!"int", !7, i64 0}
!10 = !{!6, !9, i64 68}
!11 = !{!12, !12, i64 0}
!12 = !{!"short", !7, i64 0}
!13 = !{!6, !9, i64 64}
!14 = !{!9, !9, i64 0}
!15 = !{!7, !7, i64 0}
!16 = distinct !{!16, !17}
!17 = !{!"llvm.loop.mustprogress"}
