; ModuleID = 'sorts.c'
source_filename = "sorts.c"
target datalayout = "e-m:e-p:32:32-Fi8-i64:64-v128:64:128-a:0:32-n32-S64"
target triple = "armv7-unknown-linux-gnueabi"

@given = internal unnamed_addr constant [12 x i32] [i32 34, i32 -4, i32 8, i32 0, i32 55, i32 1, i32 13, i32 -9, i32 3, i32 21, i32 2, i32 5], align 4

; Function Attrs: nofree nounwind
define dso_local noundef i32 @main() local_unnamed_addr #0 {
  %1 = alloca [3 x [12 x i32]], align 4
  call void @llvm.lifetime.start.p0(i64 144, ptr nonnull %1) #4
  %2 = getelementptr inbounds i8, ptr %1, i32 8
  %3 = getelementptr inbounds i8, ptr %1, i32 16
  %4 = getelementptr inbounds i8, ptr %1, i32 24
  %5 = getelementptr inbounds i8, ptr %1, i32 32
  %6 = getelementptr inbounds i8, ptr %1, i32 40
  call void @llvm.memcpy.p0.p0.i32(ptr noundef nonnull align 4 dereferenceable(48) %1, ptr noundef nonnull align 4 dereferenceable(48) @given, i32 48, i1 false), !tbaa !5
  %7 = getelementptr inbounds i8, ptr %1, i32 48
  call void @llvm.memcpy.p0.p0.i32(ptr noundef nonnull align 4 dereferenceable(48) %7, ptr noundef nonnull align 4 dereferenceable(48) @given, i32 48, i1 false), !tbaa !5
  %8 = getelementptr inbounds i8, ptr %1, i32 96
  call void @llvm.memcpy.p0.p0.i32(ptr noundef nonnull align 4 dereferenceable(48) %8, ptr noundef nonnull align 4 dereferenceable(48) @given, i32 48, i1 false), !tbaa !5
  %9 = getelementptr inbounds i8, ptr %1, i32 4
  %10 = getelementptr inbounds i8, ptr %1, i32 12
  %11 = getelementptr inbounds i8, ptr %1, i32 20
  %12 = getelementptr inbounds i8, ptr %1, i32 28
  %13 = getelementptr inbounds i8, ptr %1, i32 36
  %14 = getelementptr inbounds i8, ptr %1, i32 44
  store i32 -4, ptr %1, align 4, !tbaa !5
  store i32 34, ptr %2, align 4, !tbaa !5
  store i32 8, ptr %9, align 4, !tbaa !5
  store i32 34, ptr %10, align 4, !tbaa !5
  store i32 8, ptr %2, align 4, !tbaa !5
  store i32 0, ptr %9, align 4, !tbaa !5
  %15 = load i32, ptr %10, align 4, !tbaa !5
  %16 = icmp sgt i32 %15, 55
  br i1 %16, label %17, label %24

17:                                               ; preds = %0
  store i32 %15, ptr %3, align 4, !tbaa !5
  %18 = load i32, ptr %2, align 4, !tbaa !5
  %19 = icmp sgt i32 %18, 55
  br i1 %19, label %20, label %24

20:                                               ; preds = %17
  store i32 %18, ptr %10, align 4, !tbaa !5
  %21 = load i32, ptr %9, align 4, !tbaa !5
  %22 = icmp sgt i32 %21, 55
  br i1 %22, label %23, label %24

23:                                               ; preds = %20
  store i32 %21, ptr %2, align 4, !tbaa !5
  br label %24

24:                                               ; preds = %23, %20, %17, %0
  %25 = phi ptr [ %3, %0 ], [ %10, %17 ], [ %2, %20 ], [ %9, %23 ]
  store i32 55, ptr %25, align 4, !tbaa !5
  %26 = load i32, ptr %3, align 4, !tbaa !5
  %27 = icmp sgt i32 %26, 1
  br i1 %27, label %28, label %38

28:                                               ; preds = %24
  store i32 %26, ptr %11, align 4, !tbaa !5
  %29 = load i32, ptr %10, align 4, !tbaa !5
  %30 = icmp sgt i32 %29, 1
  br i1 %30, label %31, label %38

31:                                               ; preds = %28
  store i32 %29, ptr %3, align 4, !tbaa !5
  %32 = load i32, ptr %2, align 4, !tbaa !5
  %33 = icmp sgt i32 %32, 1
  br i1 %33, label %34, label %38

34:                                               ; preds = %31
  store i32 %32, ptr %10, align 4, !tbaa !5
  %35 = load i32, ptr %9, align 4, !tbaa !5
  %36 = icmp sgt i32 %35, 1
  br i1 %36, label %37, label %38

37:                                               ; preds = %34
  store i32 %35, ptr %2, align 4, !tbaa !5
  br label %38

38:                                               ; preds = %37, %34, %31, %28, %24
  %39 = phi ptr [ %11, %24 ], [ %3, %28 ], [ %10, %31 ], [ %2, %34 ], [ %9, %37 ]
  store i32 1, ptr %39, align 4, !tbaa !5
  %40 = load i32, ptr %11, align 4, !tbaa !5
  %41 = icmp sgt i32 %40, 13
  br i1 %41, label %42, label %55

42:                                               ; preds = %38
  store i32 %40, ptr %4, align 4, !tbaa !5
  %43 = load i32, ptr %3, align 4, !tbaa !5
  %44 = icmp sgt i32 %43, 13
  br i1 %44, label %45, label %55

45:                                               ; preds = %42
  store i32 %43, ptr %11, align 4, !tbaa !5
  %46 = load i32, ptr %10, align 4, !tbaa !5
  %47 = icmp sgt i32 %46, 13
  br i1 %47, label %48, label %55

48:                                               ; preds = %45
  store i32 %46, ptr %3, align 4, !tbaa !5
  %49 = load i32, ptr %2, align 4, !tbaa !5
  %50 = icmp sgt i32 %49, 13
  br i1 %50, label %51, label %55

51:                                               ; preds = %48
  store i32 %49, ptr %10, align 4, !tbaa !5
  %52 = load i32, ptr %9, align 4, !tbaa !5
  %53 = icmp sgt i32 %52, 13
  br i1 %53, label %54, label %55

54:                                               ; preds = %51
  store i32 %52, ptr %2, align 4, !tbaa !5
  br label %55

55:                                               ; preds = %54, %51, %48, %45, %42, %38
  %56 = phi ptr [ %4, %38 ], [ %11, %42 ], [ %3, %45 ], [ %10, %48 ], [ %2, %51 ], [ %9, %54 ]
  store i32 13, ptr %56, align 4, !tbaa !5
  %57 = load i32, ptr %4, align 4, !tbaa !5
  %58 = icmp sgt i32 %57, -9
  br i1 %58, label %59, label %75

59:                                               ; preds = %55
  store i32 %57, ptr %12, align 4, !tbaa !5
  %60 = load i32, ptr %11, align 4, !tbaa !5
  %61 = icmp sgt i32 %60, -9
  br i1 %61, label %62, label %75

62:                                               ; preds = %59
  store i32 %60, ptr %4, align 4, !tbaa !5
  %63 = load i32, ptr %3, align 4, !tbaa !5
  %64 = icmp sgt i32 %63, -9
  br i1 %64, label %65, label %75

65:                                               ; preds = %62
  store i32 %63, ptr %11, align 4, !tbaa !5
  %66 = load i32, ptr %10, align 4, !tbaa !5
  %67 = icmp sgt i32 %66, -9
  br i1 %67, label %68, label %75

68:                                               ; preds = %65
  store i32 %66, ptr %3, align 4, !tbaa !5
  %69 = load i32, ptr %2, align 4, !tbaa !5
  %70 = icmp sgt i32 %69, -9
  br i1 %70, label %71, label %75

71:                                               ; preds = %68
  store i32 %69, ptr %10, align 4, !tbaa !5
  %72 = load i32, ptr %9, align 4, !tbaa !5
  %73 = icmp sgt i32 %72, -9
  br i1 %73, label %74, label %75

74:                                               ; preds = %71
  store i32 %72, ptr %2, align 4, !tbaa !5
  store i32 -4, ptr %9, align 4, !tbaa !5
  br label %75

75:                                               ; preds = %74, %71, %68, %65, %62, %59, %55
  %76 = phi ptr [ %12, %55 ], [ %4, %59 ], [ %11, %62 ], [ %3, %65 ], [ %10, %68 ], [ %2, %71 ], [ %1, %74 ]
  store i32 -9, ptr %76, align 4, !tbaa !5
  %77 = load i32, ptr %12, align 4, !tbaa !5
  %78 = icmp sgt i32 %77, 3
  br i1 %78, label %79, label %101

79:                                               ; preds = %75
  store i32 %77, ptr %5, align 4, !tbaa !5
  %80 = load i32, ptr %4, align 4, !tbaa !5
  %81 = icmp sgt i32 %80, 3
  br i1 %81, label %82, label %101

82:                                               ; preds = %79
  store i32 %80, ptr %12, align 4, !tbaa !5
  %83 = load i32, ptr %11, align 4, !tbaa !5
  %84 = icmp sgt i32 %83, 3
  br i1 %84, label %85, label %101

85:                                               ; preds = %82
  store i32 %83, ptr %4, align 4, !tbaa !5
  %86 = load i32, ptr %3, align 4, !tbaa !5
  %87 = icmp sgt i32 %86, 3
  br i1 %87, label %88, label %101

88:                                               ; preds = %85
  store i32 %86, ptr %11, align 4, !tbaa !5
  %89 = load i32, ptr %10, align 4, !tbaa !5
  %90 = icmp sgt i32 %89, 3
  br i1 %90, label %91, label %101

91:                                               ; preds = %88
  store i32 %89, ptr %3, align 4, !tbaa !5
  %92 = load i32, ptr %2, align 4, !tbaa !5
  %93 = icmp sgt i32 %92, 3
  br i1 %93, label %94, label %101

94:                                               ; preds = %91
  store i32 %92, ptr %10, align 4, !tbaa !5
  %95 = load i32, ptr %9, align 4, !tbaa !5
  %96 = icmp sgt i32 %95, 3
  br i1 %96, label %97, label %101

97:                                               ; preds = %94
  store i32 %95, ptr %2, align 4, !tbaa !5
  %98 = load i32, ptr %1, align 4, !tbaa !5
  %99 = icmp sgt i32 %98, 3
  br i1 %99, label %100, label %101

100:                                              ; preds = %97
  store i32 %98, ptr %9, align 4, !tbaa !5
  br label %101

101:                                              ; preds = %100, %97, %94, %91, %88, %85, %82, %79, %75
  %102 = phi ptr [ %5, %75 ], [ %12, %79 ], [ %4, %82 ], [ %11, %85 ], [ %3, %88 ], [ %10, %91 ], [ %2, %94 ], [ %9, %97 ], [ %1, %100 ]
  store i32 3, ptr %102, align 4, !tbaa !5
  %103 = load i32, ptr %5, align 4, !tbaa !5
  %104 = icmp sgt i32 %103, 21
  br i1 %104, label %105, label %130

105:                                              ; preds = %101
  store i32 %103, ptr %13, align 4, !tbaa !5
  %106 = load i32, ptr %12, align 4, !tbaa !5
  %107 = icmp sgt i32 %106, 21
  br i1 %107, label %108, label %130

108:                                              ; preds = %105
  store i32 %106, ptr %5, align 4, !tbaa !5
  %109 = load i32, ptr %4, align 4, !tbaa !5
  %110 = icmp sgt i32 %109, 21
  br i1 %110, label %111, label %130

111:                                              ; preds = %108
  store i32 %109, ptr %12, align 4, !tbaa !5
  %112 = load i32, ptr %11, align 4, !tbaa !5
  %113 = icmp sgt i32 %112, 21
  br i1 %113, label %114, label %130

114:                                              ; preds = %111
  store i32 %112, ptr %4, align 4, !tbaa !5
  %115 = load i32, ptr %3, align 4, !tbaa !5
  %116 = icmp sgt i32 %115, 21
  br i1 %116, label %117, label %130

117:                                              ; preds = %114
  store i32 %115, ptr %11, align 4, !tbaa !5
  %118 = load i32, ptr %10, align 4, !tbaa !5
  %119 = icmp sgt i32 %118, 21
  br i1 %119, label %120, label %130

120:                                              ; preds = %117
  store i32 %118, ptr %3, align 4, !tbaa !5
  %121 = load i32, ptr %2, align 4, !tbaa !5
  %122 = icmp sgt i32 %121, 21
  br i1 %122, label %123, label %130

123:                                              ; preds = %120
  store i32 %121, ptr %10, align 4, !tbaa !5
  %124 = load i32, ptr %9, align 4, !tbaa !5
  %125 = icmp sgt i32 %124, 21
  br i1 %125, label %126, label %130

126:                                              ; preds = %123
  store i32 %124, ptr %2, align 4, !tbaa !5
  %127 = load i32, ptr %1, align 4, !tbaa !5
  %128 = icmp sgt i32 %127, 21
  br i1 %128, label %129, label %130

129:                                              ; preds = %126
  store i32 %127, ptr %9, align 4, !tbaa !5
  br label %130

130:                                              ; preds = %129, %126, %123, %120, %117, %114, %111, %108, %105, %101
  %131 = phi ptr [ %13, %101 ], [ %5, %105 ], [ %12, %108 ], [ %4, %111 ], [ %11, %114 ], [ %3, %117 ], [ %10, %120 ], [ %2, %123 ], [ %9, %126 ], [ %1, %129 ]
  store i32 21, ptr %131, align 4, !tbaa !5
  %132 = load i32, ptr %13, align 4, !tbaa !5
  %133 = icmp sgt i32 %132, 2
  br i1 %133, label %134, label %162

134:                                              ; preds = %130
  store i32 %132, ptr %6, align 4, !tbaa !5
  %135 = load i32, ptr %5, align 4, !tbaa !5
  %136 = icmp sgt i32 %135, 2
  br i1 %136, label %137, label %162

137:                                              ; preds = %134
  store i32 %135, ptr %13, align 4, !tbaa !5
  %138 = load i32, ptr %12, align 4, !tbaa !5
  %139 = icmp sgt i32 %138, 2
  br i1 %139, label %140, label %162

140:                                              ; preds = %137
  store i32 %138, ptr %5, align 4, !tbaa !5
  %141 = load i32, ptr %4, align 4, !tbaa !5
  %142 = icmp sgt i32 %141, 2
  br i1 %142, label %143, label %162

143:                                              ; preds = %140
  store i32 %141, ptr %12, align 4, !tbaa !5
  %144 = load i32, ptr %11, align 4, !tbaa !5
  %145 = icmp sgt i32 %144, 2
  br i1 %145, label %146, label %162

146:                                              ; preds = %143
  store i32 %144, ptr %4, align 4, !tbaa !5
  %147 = load i32, ptr %3, align 4, !tbaa !5
  %148 = icmp sgt i32 %147, 2
  br i1 %148, label %149, label %162

149:                                              ; preds = %146
  store i32 %147, ptr %11, align 4, !tbaa !5
  %150 = load i32, ptr %10, align 4, !tbaa !5
  %151 = icmp sgt i32 %150, 2
  br i1 %151, label %152, label %162

152:                                              ; preds = %149
  store i32 %150, ptr %3, align 4, !tbaa !5
  %153 = load i32, ptr %2, align 4, !tbaa !5
  %154 = icmp sgt i32 %153, 2
  br i1 %154, label %155, label %162

155:                                              ; preds = %152
  store i32 %153, ptr %10, align 4, !tbaa !5
  %156 = load i32, ptr %9, align 4, !tbaa !5
  %157 = icmp sgt i32 %156, 2
  br i1 %157, label %158, label %162

158:                                              ; preds = %155
  store i32 %156, ptr %2, align 4, !tbaa !5
  %159 = load i32, ptr %1, align 4, !tbaa !5
  %160 = icmp sgt i32 %159, 2
  br i1 %160, label %161, label %162

161:                                              ; preds = %158
  store i32 %159, ptr %9, align 4, !tbaa !5
  br label %162

162:                                              ; preds = %161, %158, %155, %152, %149, %146, %143, %140, %137, %134, %130
  %163 = phi ptr [ %6, %130 ], [ %13, %134 ], [ %5, %137 ], [ %12, %140 ], [ %4, %143 ], [ %11, %146 ], [ %3, %149 ], [ %10, %152 ], [ %2, %155 ], [ %9, %158 ], [ %1, %161 ]
  store i32 2, ptr %163, align 4, !tbaa !5
  %164 = load i32, ptr %6, align 4, !tbaa !5
  %165 = icmp sgt i32 %164, 5
  br i1 %165, label %166, label %197

166:                                              ; preds = %162
  store i32 %164, ptr %14, align 4, !tbaa !5
  %167 = load i32, ptr %13, align 4, !tbaa !5
  %168 = icmp sgt i32 %167, 5
  br i1 %168, label %169, label %197

169:                                              ; preds = %166
  store i32 %167, ptr %6, align 4, !tbaa !5
  %170 = load i32, ptr %5, align 4, !tbaa !5
  %171 = icmp sgt i32 %170, 5
  br i1 %171, label %172, label %197

172:                                              ; preds = %169
  store i32 %170, ptr %13, align 4, !tbaa !5
  %173 = load i32, ptr %12, align 4, !tbaa !5
  %174 = icmp sgt i32 %173, 5
  br i1 %174, label %175, label %197

175:                                              ; preds = %172
  store i32 %173, ptr %5, align 4, !tbaa !5
  %176 = load i32, ptr %4, align 4, !tbaa !5
  %177 = icmp sgt i32 %176, 5
  br i1 %177, label %178, label %197

178:                                              ; preds = %175
  store i32 %176, ptr %12, align 4, !tbaa !5
  %179 = load i32, ptr %11, align 4, !tbaa !5
  %180 = icmp sgt i32 %179, 5
  br i1 %180, label %181, label %197

181:                                              ; preds = %178
  store i32 %179, ptr %4, align 4, !tbaa !5
  %182 = load i32, ptr %3, align 4, !tbaa !5
  %183 = icmp sgt i32 %182, 5
  br i1 %183, label %184, label %197

184:                                              ; preds = %181
  store i32 %182, ptr %11, align 4, !tbaa !5
  %185 = load i32, ptr %10, align 4, !tbaa !5
  %186 = icmp sgt i32 %185, 5
  br i1 %186, label %187, label %197

187:                                              ; preds = %184
  store i32 %185, ptr %3, align 4, !tbaa !5
  %188 = load i32, ptr %2, align 4, !tbaa !5
  %189 = icmp sgt i32 %188, 5
  br i1 %189, label %190, label %197

190:                                              ; preds = %187
  store i32 %188, ptr %10, align 4, !tbaa !5
  %191 = load i32, ptr %9, align 4, !tbaa !5
  %192 = icmp sgt i32 %191, 5
  br i1 %192, label %193, label %197

193:                                              ; preds = %190
  store i32 %191, ptr %2, align 4, !tbaa !5
  %194 = load i32, ptr %1, align 4, !tbaa !5
  %195 = icmp sgt i32 %194, 5
  br i1 %195, label %196, label %197

196:                                              ; preds = %193
  store i32 %194, ptr %9, align 4, !tbaa !5
  br label %197

197:                                              ; preds = %162, %166, %169, %172, %175, %178, %181, %184, %187, %190, %193, %196
  %198 = phi ptr [ %14, %162 ], [ %6, %166 ], [ %13, %169 ], [ %5, %172 ], [ %12, %175 ], [ %4, %178 ], [ %11, %181 ], [ %3, %184 ], [ %10, %187 ], [ %2, %190 ], [ %9, %193 ], [ %1, %196 ]
  store i32 5, ptr %198, align 4, !tbaa !5
  %199 = getelementptr inbounds i8, ptr %1, i32 72
  %200 = getelementptr inbounds i8, ptr %1, i32 52
  %201 = getelementptr inbounds i8, ptr %1, i32 76
  %202 = getelementptr inbounds i8, ptr %1, i32 56
  %203 = getelementptr inbounds i8, ptr %1, i32 80
  %204 = getelementptr inbounds i8, ptr %1, i32 60
  %205 = getelementptr inbounds i8, ptr %1, i32 84
  %206 = getelementptr inbounds i8, ptr %1, i32 64
  %207 = getelementptr inbounds i8, ptr %1, i32 88
  %208 = getelementptr inbounds i8, ptr %1, i32 68
  %209 = getelementptr inbounds i8, ptr %1, i32 92
  store i32 -9, ptr %7, align 4, !tbaa !5
  store i32 1, ptr %204, align 4, !tbaa !5
  store i32 0, ptr %202, align 4, !tbaa !5
  store i32 -4, ptr %200, align 4, !tbaa !5
  store i32 3, ptr %208, align 4, !tbaa !5
  store i32 2, ptr %206, align 4, !tbaa !5
  store i32 5, ptr %199, align 4, !tbaa !5
  store i32 55, ptr %209, align 4, !tbaa !5
  store i32 34, ptr %207, align 4, !tbaa !5
  store i32 21, ptr %205, align 4, !tbaa !5
  store i32 13, ptr %203, align 4, !tbaa !5
  store i32 8, ptr %201, align 4, !tbaa !5
  %210 = getelementptr inbounds i8, ptr %1, i32 144
  call fastcc void @quick(ptr noundef nonnull %8, ptr noundef nonnull %210)
  br label %212

211:                                              ; preds = %212
  call void @llvm.lifetime.end.p0(i64 144, ptr nonnull %1) #4
  ret i32 12

212:                                              ; preds = %197, %212
  %213 = phi i32 [ 0, %197 ], [ %250, %212 ]
  %214 = getelementptr inbounds [3 x [12 x i32]], ptr %1, i32 0, i32 %213
  %215 = load i32, ptr %214, align 4, !tbaa !5
  call fastcc void @number(i32 noundef %215)
  %216 = call i32 @putchar(i32 noundef 32)
  %217 = getelementptr inbounds i8, ptr %214, i32 4
  %218 = load i32, ptr %217, align 4, !tbaa !5
  call fastcc void @number(i32 noundef %218)
  %219 = call i32 @putchar(i32 noundef 32)
  %220 = getelementptr inbounds i8, ptr %214, i32 8
  %221 = load i32, ptr %220, align 4, !tbaa !5
  call fastcc void @number(i32 noundef %221)
  %222 = call i32 @putchar(i32 noundef 32)
  %223 = getelementptr inbounds i8, ptr %214, i32 12
  %224 = load i32, ptr %223, align 4, !tbaa !5
  call fastcc void @number(i32 noundef %224)
  %225 = call i32 @putchar(i32 noundef 32)
  %226 = getelementptr inbounds i8, ptr %214, i32 16
  %227 = load i32, ptr %226, align 4, !tbaa !5
  call fastcc void @number(i32 noundef %227)
  %228 = call i32 @putchar(i32 noundef 32)
  %229 = getelementptr inbounds i8, ptr %214, i32 20
  %230 = load i32, ptr %229, align 4, !tbaa !5
  call fastcc void @number(i32 noundef %230)
  %231 = call i32 @putchar(i32 noundef 32)
  %232 = getelementptr inbounds i8, ptr %214, i32 24
  %233 = load i32, ptr %232, align 4, !tbaa !5
  call fastcc void @number(i32 noundef %233)
  %234 = call i32 @putchar(i32 noundef 32)
  %235 = getelementptr inbounds i8, ptr %214, i32 28
  %236 = load i32, ptr %235, align 4, !tbaa !5
  call fastcc void @number(i32 noundef %236)
  %237 = call i32 @putchar(i32 noundef 32)
  %238 = getelementptr inbounds i8, ptr %214, i32 32
  %239 = load i32, ptr %238, align 4, !tbaa !5
  call fastcc void @number(i32 noundef %239)
  %240 = call i32 @putchar(i32 noundef 32)
  %241 = getelementptr inbounds i8, ptr %214, i32 36
  %242 = load i32, ptr %241, align 4, !tbaa !5
  call fastcc void @number(i32 noundef %242)
  %243 = call i32 @putchar(i32 noundef 32)
  %244 = getelementptr inbounds i8, ptr %214, i32 40
  %245 = load i32, ptr %244, align 4, !tbaa !5
  call fastcc void @number(i32 noundef %245)
  %246 = call i32 @putchar(i32 noundef 32)
  %247 = getelementptr inbounds i8, ptr %214, i32 44
  %248 = load i32, ptr %247, align 4, !tbaa !5
  call fastcc void @number(i32 noundef %248)
  %249 = call i32 @putchar(i32 noundef 10)
  %250 = add nuw nsw i32 %213, 1
  %251 = icmp eq i32 %250, 3
  br i1 %251, label %211, label %212, !llvm.loop !9
}

; Function Attrs: mustprogress nocallback nofree nosync nounwind willreturn memory(argmem: readwrite)
declare void @llvm.lifetime.start.p0(i64 immarg, ptr nocapture) #1

; Function Attrs: mustprogress nocallback nofree nosync nounwind willreturn memory(argmem: readwrite)
declare void @llvm.lifetime.end.p0(i64 immarg, ptr nocapture) #1

; Function Attrs: nofree nosync nounwind memory(readwrite, inaccessiblemem: none)
define internal fastcc void @quick(ptr noundef %0, ptr noundef %1) unnamed_addr #2 {
  %3 = ptrtoint ptr %1 to i32
  %4 = ptrtoint ptr %0 to i32
  %5 = sub i32 %3, %4
  %6 = ashr exact i32 %5, 2
  %7 = icmp slt i32 %6, 2
  br i1 %7, label %45, label %8

8:                                                ; preds = %2
  %9 = getelementptr inbounds i8, ptr %1, i32 -4
  br label %10

10:                                               ; preds = %8, %37
  %11 = phi i32 [ %6, %8 ], [ %43, %37 ]
  %12 = phi ptr [ %0, %8 ], [ %39, %37 ]
  %13 = lshr i32 %11, 1
  %14 = getelementptr inbounds i32, ptr %12, i32 %13
  %15 = load i32, ptr %14, align 4, !tbaa !5
  %16 = icmp ugt ptr %12, %9
  br i1 %16, label %37, label %17

17:                                               ; preds = %10, %33
  %18 = phi ptr [ %35, %33 ], [ %12, %10 ]
  %19 = phi ptr [ %34, %33 ], [ %9, %10 ]
  br label %20

20:                                               ; preds = %20, %17
  %21 = phi ptr [ %24, %20 ], [ %18, %17 ]
  %22 = load i32, ptr %21, align 4, !tbaa !5
  %23 = icmp slt i32 %22, %15
  %24 = getelementptr inbounds i8, ptr %21, i32 4
  br i1 %23, label %20, label %25, !llvm.loop !11

25:                                               ; preds = %20, %25
  %26 = phi ptr [ %29, %25 ], [ %19, %20 ]
  %27 = load i32, ptr %26, align 4, !tbaa !5
  %28 = icmp sgt i32 %27, %15
  %29 = getelementptr inbounds i8, ptr %26, i32 -4
  br i1 %28, label %25, label %30, !llvm.loop !12

30:                                               ; preds = %25
  %31 = icmp ugt ptr %21, %26
  br i1 %31, label %33, label %32

32:                                               ; preds = %30
  store i32 %27, ptr %21, align 4, !tbaa !5
  store i32 %22, ptr %26, align 4, !tbaa !5
  br label %33

33:                                               ; preds = %32, %30
  %34 = phi ptr [ %29, %32 ], [ %26, %30 ]
  %35 = phi ptr [ %24, %32 ], [ %21, %30 ]
  %36 = icmp ugt ptr %35, %34
  br i1 %36, label %37, label %17, !llvm.loop !13

37:                                               ; preds = %33, %10
  %38 = phi ptr [ %9, %10 ], [ %34, %33 ]
  %39 = phi ptr [ %12, %10 ], [ %35, %33 ]
  %40 = getelementptr inbounds i8, ptr %38, i32 4
  tail call fastcc void @quick(ptr noundef %12, ptr noundef nonnull %40)
  %41 = ptrtoint ptr %39 to i32
  %42 = sub i32 %3, %41
  %43 = ashr exact i32 %42, 2
  %44 = icmp slt i32 %43, 2
  br i1 %44, label %45, label %10

45:                                               ; preds = %37, %2
  ret void
}

; Function Attrs: nofree nounwind
declare noundef i32 @putchar(i32 noundef) local_unnamed_addr #0

; Function Attrs: nofree nounwind
define internal fastcc void @number(i32 noundef %0) unnamed_addr #0 {
  %2 = icmp slt i32 %0, 0
  br i1 %2, label %3, label %6

3:                                                ; preds = %1
  %4 = tail call i32 @putchar(i32 noundef 45)
  %5 = sub i32 0, %0
  br label %6

6:                                                ; preds = %3, %1
  %7 = phi i32 [ %5, %3 ], [ %0, %1 ]
  %8 = icmp ugt i32 %7, 9
  br i1 %8, label %9, label %11

9:                                                ; preds = %6
  %10 = udiv i32 %7, 10
  tail call fastcc void @number(i32 noundef %10)
  br label %11

11:                                               ; preds = %9, %6
  %12 = urem i32 %7, 10
  %13 = or disjoint i32 %12, 48
  %14 = tail call i32 @putchar(i32 noundef %13)
  ret void
}

; Function Attrs: nocallback nofree nounwind willreturn memory(argmem: readwrite)
declare void @llvm.memcpy.p0.p0.i32(ptr noalias nocapture writeonly, ptr noalias nocapture readonly, i32, i1 immarg) #3

attributes #0 = { nofree nounwind "no-trapping-math"="true" "stack-protector-buffer-size"="8" "target-cpu"="generic" "target-features"="+armv7-a,+dsp,+soft-float,-aes,-bf16,-d32,-dotprod,-fp-armv8,-fp-armv8d16,-fp-armv8d16sp,-fp-armv8sp,-fp16,-fp16fml,-fp64,-fpregs,-fullfp16,-mve,-mve.fp,-neon,-sha2,-thumb-mode,-vfp2,-vfp2sp,-vfp3,-vfp3d16,-vfp3d16sp,-vfp3sp,-vfp4,-vfp4d16,-vfp4d16sp,-vfp4sp" "use-soft-float"="true" }
attributes #1 = { mustprogress nocallback nofree nosync nounwind willreturn memory(argmem: readwrite) }
attributes #2 = { nofree nosync nounwind memory(readwrite, inaccessiblemem: none) "no-trapping-math"="true" "stack-protector-buffer-size"="8" "target-cpu"="generic" "target-features"="+armv7-a,+dsp,+soft-float,-aes,-bf16,-d32,-dotprod,-fp-armv8,-fp-armv8d16,-fp-armv8d16sp,-fp-armv8sp,-fp16,-fp16fml,-fp64,-fpregs,-fullfp16,-mve,-mve.fp,-neon,-sha2,-thumb-mode,-vfp2,-vfp2sp,-vfp3,-vfp3d16,-vfp3d16sp,-vfp3sp,-vfp4,-vfp4d16,-vfp4d16sp,-vfp4sp" "use-soft-float"="true" }
attributes #3 = { nocallback nofree nounwind willreturn memory(argmem: readwrite) }
attributes #4 = { nounwind }

!llvm.module.flags = !{!0, !1, !2, !3}
!llvm.ident = !{!4}

!0 = !{i32 1, !"wchar_size", i32 4}
!1 = !{i32 1, !"min_enum_size", i32 4}
!2 = !{i32 8, !"PIC Level", i32 2}
!3 = !{i32 7, !"PIE Level", i32 2}
!4 = !{!"Debian clang version 19.1.7 (3~deb12u1)"}
!5 = !{!6, !6, i64 0}
!6 = !{!"int", !7, i64 0}
!7 = !{!"omnipotent char", !8, i64 0}
!8 = !{!"Simple C/C++ TBAA"}
!9 = distinct !{!9, !10}
!10 = !{!"llvm.loop.mustprogress"}
!11 = distinct !{!11, !10}
!12 = distinct !{!12, !10}
!13 = distinct !{!13, !10}
