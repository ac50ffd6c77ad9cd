; ModuleID = 'life.c'
source_filename = "life.c"
target datalayout = "e-m:e-p:32:32-Fi8-i64:64-v128:64:128-a:0:32-n32-S64"
target triple = "armv7-unknown-linux-gnueabi"

@grid = internal unnamed_addr global [8 x i8] c"@ \E0\00\00\00\00\00", align 8

; Function Attrs: nofree nounwind
define dso_local i32 @main() local_unnamed_addr #0 {
  %1 = alloca [8 x i8], align 8
  br label %2

2:                                                ; preds = %0, %166
  %3 = phi i32 [ 0, %0 ], [ %168, %166 ]
  call void @llvm.lifetime.start.p0(i64 8, ptr nonnull %1) #2
  store i64 0, ptr %1, align 8
  br label %4

4:                                                ; preds = %164, %2
  %5 = phi i32 [ 0, %2 ], [ %23, %164 ]
  %6 = getelementptr inbounds i8, ptr @grid, i32 %5
  %7 = load i8, ptr %6, align 1, !tbaa !5
  %8 = zext i8 %7 to i32
  %9 = getelementptr inbounds [8 x i8], ptr %1, i32 0, i32 %5
  %10 = lshr i32 %8, 7
  %11 = add nuw nsw i32 %5, 7
  %12 = and i32 %11, 7
  %13 = getelementptr inbounds i8, ptr @grid, i32 %12
  %14 = load i8, ptr %13, align 1, !tbaa !5
  %15 = zext i8 %14 to i32
  %16 = and i32 %15, 1
  %17 = lshr i32 %15, 7
  %18 = lshr i32 %15, 6
  %19 = and i32 %18, 1
  %20 = and i32 %8, 1
  %21 = lshr i32 %8, 6
  %22 = and i32 %21, 1
  %23 = add nuw nsw i32 %5, 1
  %24 = and i32 %23, 7
  %25 = getelementptr inbounds i8, ptr @grid, i32 %24
  %26 = load i8, ptr %25, align 1, !tbaa !5
  %27 = zext i8 %26 to i32
  %28 = and i32 %27, 1
  %29 = lshr i32 %27, 7
  %30 = lshr i32 %27, 6
  %31 = and i32 %30, 1
  %32 = add nuw nsw i32 %28, %20
  %33 = add nuw nsw i32 %32, %16
  %34 = add nuw nsw i32 %33, %17
  %35 = add nuw nsw i32 %34, %22
  %36 = add nuw nsw i32 %35, %19
  %37 = add nuw nsw i32 %36, %29
  %38 = add nuw nsw i32 %37, %31
  switch i32 %38, label %44 [
    i32 3, label %41
    i32 2, label %39
  ]

39:                                               ; preds = %4
  %40 = icmp sgt i8 %7, -1
  br i1 %40, label %44, label %41

41:                                               ; preds = %39, %4
  %42 = load i8, ptr %9, align 1, !tbaa !5
  %43 = or i8 %42, -128
  store i8 %43, ptr %9, align 1, !tbaa !5
  br label %44

44:                                               ; preds = %41, %39, %4
  %45 = lshr i32 %15, 5
  %46 = and i32 %45, 1
  %47 = lshr i32 %8, 5
  %48 = and i32 %47, 1
  %49 = lshr i32 %27, 5
  %50 = and i32 %49, 1
  %51 = add nuw nsw i32 %17, %10
  %52 = add nuw nsw i32 %51, %48
  %53 = add nuw nsw i32 %52, %19
  %54 = add nuw nsw i32 %53, %46
  %55 = add nuw nsw i32 %54, %29
  %56 = add nuw nsw i32 %55, %31
  %57 = add nuw nsw i32 %56, %50
  switch i32 %57, label %63 [
    i32 3, label %60
    i32 2, label %58
  ]

58:                                               ; preds = %44
  %59 = icmp eq i32 %22, 0
  br i1 %59, label %63, label %60

60:                                               ; preds = %58, %44
  %61 = load i8, ptr %9, align 1, !tbaa !5
  %62 = or i8 %61, 64
  store i8 %62, ptr %9, align 1, !tbaa !5
  br label %63

63:                                               ; preds = %60, %58, %44
  %64 = lshr i32 %15, 4
  %65 = and i32 %64, 1
  %66 = lshr i32 %8, 4
  %67 = and i32 %66, 1
  %68 = lshr i32 %27, 4
  %69 = and i32 %68, 1
  %70 = add nuw nsw i32 %67, %22
  %71 = add nuw nsw i32 %70, %19
  %72 = add nuw nsw i32 %71, %46
  %73 = add nuw nsw i32 %72, %65
  %74 = add nuw nsw i32 %73, %31
  %75 = add nuw nsw i32 %74, %50
  %76 = add nuw nsw i32 %75, %69
  switch i32 %76, label %82 [
    i32 3, label %79
    i32 2, label %77
  ]

77:                                               ; preds = %63
  %78 = icmp eq i32 %48, 0
  br i1 %78, label %82, label %79

79:                                               ; preds = %77, %63
  %80 = load i8, ptr %9, align 1, !tbaa !5
  %81 = or i8 %80, 32
  store i8 %81, ptr %9, align 1, !tbaa !5
  br label %82

82:                                               ; preds = %79, %77, %63
  %83 = lshr i32 %15, 3
  %84 = and i32 %83, 1
  %85 = lshr i32 %8, 3
  %86 = and i32 %85, 1
  %87 = lshr i32 %27, 3
  %88 = and i32 %87, 1
  %89 = add nuw nsw i32 %86, %48
  %90 = add nuw nsw i32 %89, %46
  %91 = add nuw nsw i32 %90, %65
  %92 = add nuw nsw i32 %91, %84
  %93 = add nuw nsw i32 %92, %50
  %94 = add nuw nsw i32 %93, %69
  %95 = add nuw nsw i32 %94, %88
  switch i32 %95, label %101 [
    i32 3, label %98
    i32 2, label %96
  ]

96:                                               ; preds = %82
  %97 = icmp eq i32 %67, 0
  br i1 %97, label %101, label %98

98:                                               ; preds = %96, %82
  %99 = load i8, ptr %9, align 1, !tbaa !5
  %100 = or i8 %99, 16
  store i8 %100, ptr %9, align 1, !tbaa !5
  br label %101

101:                                              ; preds = %98, %96, %82
  %102 = lshr i32 %15, 2
  %103 = and i32 %102, 1
  %104 = lshr i32 %8, 2
  %105 = and i32 %104, 1
  %106 = lshr i32 %27, 2
  %107 = and i32 %106, 1
  %108 = add nuw nsw i32 %105, %67
  %109 = add nuw nsw i32 %108, %65
  %110 = add nuw nsw i32 %109, %84
  %111 = add nuw nsw i32 %110, %103
  %112 = add nuw nsw i32 %111, %69
  %113 = add nuw nsw i32 %112, %88
  %114 = add nuw nsw i32 %113, %107
  switch i32 %114, label %120 [
    i32 3, label %117
    i32 2, label %115
  ]

115:                                              ; preds = %101
  %116 = icmp eq i32 %86, 0
  br i1 %116, label %120, label %117

117:                                              ; preds = %115, %101
  %118 = load i8, ptr %9, align 1, !tbaa !5
  %119 = or i8 %118, 8
  store i8 %119, ptr %9, align 1, !tbaa !5
  br label %120

120:                                              ; preds = %117, %115, %101
  %121 = lshr i32 %15, 1
  %122 = and i32 %121, 1
  %123 = lshr i32 %8, 1
  %124 = and i32 %123, 1
  %125 = lshr i32 %27, 1
  %126 = and i32 %125, 1
  %127 = add nuw nsw i32 %124, %86
  %128 = add nuw nsw i32 %127, %84
  %129 = add nuw nsw i32 %128, %103
  %130 = add nuw nsw i32 %129, %122
  %131 = add nuw nsw i32 %130, %88
  %132 = add nuw nsw i32 %131, %107
  %133 = add nuw nsw i32 %132, %126
  switch i32 %133, label %139 [
    i32 3, label %136
    i32 2, label %134
  ]

134:                                              ; preds = %120
  %135 = icmp eq i32 %105, 0
  br i1 %135, label %139, label %136

136:                                              ; preds = %134, %120
  %137 = load i8, ptr %9, align 1, !tbaa !5
  %138 = or i8 %137, 4
  store i8 %138, ptr %9, align 1, !tbaa !5
  br label %139

139:                                              ; preds = %136, %134, %120
  %140 = add nuw nsw i32 %16, %20
  %141 = add nuw nsw i32 %140, %105
  %142 = add nuw nsw i32 %141, %103
  %143 = add nuw nsw i32 %142, %122
  %144 = add nuw nsw i32 %143, %28
  %145 = add nuw nsw i32 %144, %107
  %146 = add nuw nsw i32 %145, %126
  switch i32 %146, label %152 [
    i32 3, label %149
    i32 2, label %147
  ]

147:                                              ; preds = %139
  %148 = icmp eq i32 %124, 0
  br i1 %148, label %152, label %149

149:                                              ; preds = %147, %139
  %150 = load i8, ptr %9, align 1, !tbaa !5
  %151 = or i8 %150, 2
  store i8 %151, ptr %9, align 1, !tbaa !5
  br label %152

152:                                              ; preds = %149, %147, %139
  %153 = add nuw nsw i32 %51, %16
  %154 = add nuw nsw i32 %153, %124
  %155 = add nuw nsw i32 %154, %122
  %156 = add nuw nsw i32 %155, %28
  %157 = add nuw nsw i32 %156, %29
  %158 = add nuw nsw i32 %157, %126
  switch i32 %158, label %164 [
    i32 3, label %161
    i32 2, label %159
  ]

159:                                              ; preds = %152
  %160 = icmp eq i32 %20, 0
  br i1 %160, label %164, label %161

161:                                              ; preds = %159, %152
  %162 = load i8, ptr %9, align 1, !tbaa !5
  %163 = or i8 %162, 1
  store i8 %163, ptr %9, align 1, !tbaa !5
  br label %164

164:                                              ; preds = %161, %159, %152
  %165 = icmp eq i32 %23, 8
  br i1 %165, label %166, label %4, !llvm.loop !8

166:                                              ; preds = %164
  %167 = load i64, ptr %1, align 8, !tbaa !5
  store i64 %167, ptr @grid, align 8, !tbaa !5
  call void @llvm.lifetime.end.p0(i64 8, ptr nonnull %1) #2
  %168 = add nuw nsw i32 %3, 1
  %169 = icmp eq i32 %168, 4
  br i1 %169, label %170, label %2, !llvm.loop !10

170:                                              ; preds = %166, %170
  %171 = phi i32 [ %237, %170 ], [ 0, %166 ]
  %172 = phi i32 [ %232, %170 ], [ 0, %166 ]
  %173 = getelementptr inbounds i8, ptr @grid, i32 %171
  %174 = load i8, ptr %173, align 1, !tbaa !5
  %175 = lshr i8 %174, 7
  %176 = zext nneg i8 %175 to i32
  %177 = add nsw i32 %172, %176
  %178 = icmp sgt i8 %174, -1
  %179 = select i1 %178, i32 46, i32 111
  %180 = tail call i32 @putchar(i32 noundef %179)
  %181 = load i8, ptr %173, align 1, !tbaa !5
  %182 = lshr i8 %181, 6
  %183 = and i8 %182, 1
  %184 = zext nneg i8 %183 to i32
  %185 = add nsw i32 %177, %184
  %186 = icmp eq i8 %183, 0
  %187 = select i1 %186, i32 46, i32 111
  %188 = tail call i32 @putchar(i32 noundef %187)
  %189 = load i8, ptr %173, align 1, !tbaa !5
  %190 = lshr i8 %189, 5
  %191 = and i8 %190, 1
  %192 = zext nneg i8 %191 to i32
  %193 = add nsw i32 %185, %192
  %194 = icmp eq i8 %191, 0
  %195 = select i1 %194, i32 46, i32 111
  %196 = tail call i32 @putchar(i32 noundef %195)
  %197 = load i8, ptr %173, align 1, !tbaa !5
  %198 = lshr i8 %197, 4
  %199 = and i8 %198, 1
  %200 = zext nneg i8 %199 to i32
  %201 = add nsw i32 %193, %200
  %202 = icmp eq i8 %199, 0
  %203 = select i1 %202, i32 46, i32 111
  %204 = tail call i32 @putchar(i32 noundef %203)
  %205 = load i8, ptr %173, align 1, !tbaa !5
  %206 = lshr i8 %205, 3
  %207 = and i8 %206, 1
  %208 = zext nneg i8 %207 to i32
  %209 = add nsw i32 %201, %208
  %210 = icmp eq i8 %207, 0
  %211 = select i1 %210, i32 46, i32 111
  %212 = tail call i32 @putchar(i32 noundef %211)
  %213 = load i8, ptr %173, align 1, !tbaa !5
  %214 = lshr i8 %213, 2
  %215 = and i8 %214, 1
  %216 = zext nneg i8 %215 to i32
  %217 = add nsw i32 %209, %216
  %218 = icmp eq i8 %215, 0
  %219 = select i1 %218, i32 46, i32 111
  %220 = tail call i32 @putchar(i32 noundef %219)
  %221 = load i8, ptr %173, align 1, !tbaa !5
  %222 = lshr i8 %221, 1
  %223 = and i8 %222, 1
  %224 = zext nneg i8 %223 to i32
  %225 = add nsw i32 %217, %224
  %226 = icmp eq i8 %223, 0
  %227 = select i1 %226, i32 46, i32 111
  %228 = tail call i32 @putchar(i32 noundef %227)
  %229 = load i8, ptr %173, align 1, !tbaa !5
  %230 = and i8 %229, 1
  %231 = zext nneg i8 %230 to i32
  %232 = add nsw i32 %225, %231
  %233 = icmp eq i8 %230, 0
  %234 = select i1 %233, i32 46, i32 111
  %235 = tail call i32 @putchar(i32 noundef %234)
  %236 = tail call i32 @putchar(i32 noundef 10)
  %237 = add nuw nsw i32 %171, 1
  %238 = icmp eq i32 %237, 8
  br i1 %238, label %239, label %170, !llvm.loop !11

239:                                              ; preds = %170
  ret i32 %232
}

; Function Attrs: mustprogress nocallback nofree nosync nounwind willreturn memory(argmem: readwrite)
declare void @llvm.lifetime.start.p0(i64 immarg, ptr nocapture) #1

; Function Attrs: mustprogress nocallback nofree nosync nounwind willreturn memory(argmem: readwrite)
declare void @llvm.lifetime.end.p0(i64 immarg, ptr nocapture) #1

; Function Attrs: nofree nounwind
declare noundef i32 @putchar(i32 noundef) local_unnamed_addr #0

attributes #0 = { nofree nounwind "no-trapping-math"="true" "stack-protector-buffer-size"="8" "target-cpu"="generic" "target-features"="+armv7-a,+dsp,+soft-float,-aes,-bf16,-d32,-dotprod,-fp-armv8,-fp-armv8d16,-fp-armv8d16sp,-fp-armv8sp,-fp16,-fp16fml,-fp64,-fpregs,-fullfp16,-mve,-mve.fp,-neon,-sha2,-thumb-mode,-vfp2,-vfp2sp,-vfp3,-vfp3d16,-vfp3d16sp,-vfp3sp,-vfp4,-vfp4d16,-vfp4d16sp,-vfp4sp" "use-soft-float"="true" }
attributes #1 = { mustprogress nocallback nofree nosync nounwind willreturn memory(argmem: readwrite) }
attributes #2 = { nounwind }

!llvm.module.flags = !{!0, !1, !2, !3}
!llvm.ident = !{!4}

!0 = !{i32 1, !"wchar_size", i32 4}
!1 = !{i32 1, !"min_enum_size", i32 4}
!2 = !{i32 8, !"PIC Level", i32 2}
!3 = !{i32 7, !"PIE Level", i32 2}
!4 = !{!"Debian clang version 19.1.7 (3~deb12u1)"}
!5 = !{!6, !6, i64 0}
!6 = !{!"omnipotent char", !7, i64 0}
!7 = !{!"Simple C/C++ TBAA"}
!8 = distinct !{!8, !9}
!9 = !{!"llvm.loop.mustprogress"}
!10 = distinct !{!10, !9}
!11 = distinct !{!11, !9}
