source_filename = "bits.c"
target datalayout = "e-m:e-p270:32:32-p271:32:32-p272:64:64-i64:64-i128:128-f80:128-n8:16:32:64-S128"
target triple = "x86_64-unknown-linux-gnu"

%struct.code = type { [256 x i8], [256 x i32] }
%struct.__stream = type { i8, i8, i8, i8, ptr, i64 }
%struct.heap = type { [256 x ptr], i32 }

@text = internal global [4000 x i8] zeroinitializer, align 16
@main.code = internal global %struct.code zeroinitializer, align 4
@.str = private unnamed_addr constant [16 x i8] c"nothing to code\00", align 1
@lengths = internal unnamed_addr global ptr null, align 8
@.str.1 = private unnamed_addr constant [56 x i8] c"%zu bytes, %d symbols, %zu bits, %zu.%02zu bits a byte\0A\00", align 1
@.str.2 = private unnamed_addr constant [7 x i8] c"begins\00", align 1
@.str.3 = private unnamed_addr constant [6 x i8] c" %02x\00", align 1
@.str.4 = private unnamed_addr constant [2 x i8] c"\0A\00", align 1
@.str.5 = private unnamed_addr constant [10 x i8] c"read back\00", align 1
@.str.6 = private unnamed_addr constant [8 x i8] c"damaged\00", align 1
@.str.7 = private unnamed_addr constant [21 x i8] c"%5u  %-16s %2u bits\0A\00", align 1
@.str.8 = private unnamed_addr constant [6 x i8] c"%c   \00", align 1
@.str.9 = private unnamed_addr constant [5 x i8] c"\\n  \00", align 1
@.str.10 = private unnamed_addr constant [7 x i8] c"x%02X \00", align 1
@.str.13 = private unnamed_addr constant [1 x i8] zeroinitializer, align 1
@.str.1.14 = private unnamed_addr constant [7 x i8] c"(null)\00", align 1
@.str.2.19 = private unnamed_addr constant [2 x i8] c"-\00", align 1
@.str.3.20 = private unnamed_addr constant [2 x i8] c"+\00", align 1
@.str.4.18 = private unnamed_addr constant [2 x i8] c" \00", align 1
@.str.5.25 = private unnamed_addr constant [3 x i8] c"0X\00", align 1
@.str.6.24 = private unnamed_addr constant [3 x i8] c"0x\00", align 1
@.str.8.23 = private unnamed_addr constant [17 x i8] c"0123456789ABCDEF\00", align 1
@.str.9.17 = private unnamed_addr constant [17 x i8] c"0123456789abcdef\00", align 1
@__streams = internal global [3 x %struct.__stream] [%struct.__stream zeroinitializer, %struct.__stream { i8 1, i8 0, i8 0, i8 0, ptr null, i64 0 }, %struct.__stream { i8 2, i8 0, i8 0, i8 0, ptr null, i64 0 }], align 16

; Function Attrs: nounwind uwtable
define dso_local i32 @main() local_unnamed_addr #0 {
  %1 = alloca [33 x i8], align 16
  %2 = alloca %struct.heap, align 8
  %3 = alloca [256 x i32], align 16
  %4 = alloca [256 x i32], align 16
  %5 = tail call i64 @fread(ptr noundef nonnull @text, i64 noundef 1, i64 noundef 4000, ptr noundef nonnull @__streams)
  call void @llvm.lifetime.start.p0(i64 1024, ptr nonnull %3) #14
  call void @llvm.memset.p0.i64(ptr noundef nonnull align 16 dereferenceable(1024) %3, i8 0, i64 1024, i1 false)
  %6 = icmp eq i64 %5, 0
  br i1 %6, label %7, label %262

7:                                                ; preds = %262, %0
  call void @llvm.lifetime.start.p0(i64 2056, ptr nonnull %2) #14
  call void @llvm.memset.p0.i64(ptr noundef nonnull align 8 dereferenceable(2056) %2, i8 0, i64 2056, i1 false)
  tail call void @llvm.memset.p0.i64(ptr noundef nonnull align 4 dereferenceable(1280) @main.code, i8 0, i64 1280, i1 false)
  %8 = getelementptr inbounds i8, ptr %2, i64 2048
  %9 = load i32, ptr %8, align 8, !tbaa !5
  br label %10

10:                                               ; preds = %49, %7
  %11 = phi i64 [ 0, %7 ], [ %51, %49 ]
  %12 = phi i32 [ %9, %7 ], [ %50, %49 ]
  %13 = getelementptr inbounds i32, ptr %3, i64 %11
  %14 = load i32, ptr %13, align 4, !tbaa !10
  %15 = icmp eq i32 %14, 0
  br i1 %15, label %49, label %16

16:                                               ; preds = %10
  %17 = tail call dereferenceable_or_null(24) ptr @__sized_calloc(i64 noundef 1, i64 noundef 24) #15
  %18 = icmp eq ptr %17, null
  br i1 %18, label %260, label %19

19:                                               ; preds = %16
  store i32 %14, ptr %17, align 8, !tbaa !11
  %20 = trunc i64 %11 to i16
  %21 = getelementptr inbounds i8, ptr %17, i64 4
  store i16 %20, ptr %21, align 4, !tbaa !15
  %22 = add nsw i32 %12, 1
  %23 = icmp sgt i32 %12, 0
  br i1 %23, label %24, label %45

24:                                               ; preds = %41, %19
  %25 = phi i32 [ %27, %41 ], [ %12, %19 ]
  %26 = add nsw i32 %25, -1
  %27 = lshr i32 %26, 1
  %28 = zext nneg i32 %27 to i64
  %29 = getelementptr inbounds [256 x ptr], ptr %2, i64 0, i64 %28
  %30 = load ptr, ptr %29, align 8, !tbaa !16
  %31 = load i32, ptr %30, align 8, !tbaa !11
  %32 = icmp eq i32 %14, %31
  br i1 %32, label %35, label %33

33:                                               ; preds = %24
  %34 = icmp ult i32 %14, %31
  br label %39

35:                                               ; preds = %24
  %36 = getelementptr inbounds i8, ptr %30, i64 4
  %37 = load i16, ptr %36, align 4, !tbaa !15
  %38 = icmp sgt i16 %37, %20
  br label %39

39:                                               ; preds = %35, %33
  %40 = phi i1 [ %34, %33 ], [ %38, %35 ]
  br i1 %40, label %41, label %45

41:                                               ; preds = %39
  %42 = zext nneg i32 %25 to i64
  %43 = getelementptr inbounds [256 x ptr], ptr %2, i64 0, i64 %42
  store ptr %30, ptr %43, align 8, !tbaa !16
  %44 = icmp ult i32 %26, 2
  br i1 %44, label %45, label %24, !llvm.loop !17

45:                                               ; preds = %41, %39, %19
  %46 = phi i32 [ %12, %19 ], [ %25, %39 ], [ %27, %41 ]
  %47 = sext i32 %46 to i64
  %48 = getelementptr inbounds [256 x ptr], ptr %2, i64 0, i64 %47
  store ptr %17, ptr %48, align 8, !tbaa !16
  br label %49

49:                                               ; preds = %45, %10
  %50 = phi i32 [ %22, %45 ], [ %12, %10 ]
  %51 = add nuw nsw i64 %11, 1
  %52 = icmp eq i64 %51, 256
  br i1 %52, label %53, label %10, !llvm.loop !20

53:                                               ; preds = %49
  store i32 %50, ptr %8, align 8, !tbaa !5
  %54 = icmp eq i32 %50, 0
  br i1 %54, label %272, label %55

55:                                               ; preds = %53
  %56 = icmp sgt i32 %50, 1
  br i1 %56, label %57, label %232

57:                                               ; preds = %55
  %58 = zext nneg i32 %50 to i64
  br label %59

59:                                               ; preds = %227, %57
  %60 = phi i64 [ %58, %57 ], [ %62, %227 ]
  %61 = load ptr, ptr %2, align 8, !tbaa !16
  %62 = add nsw i64 %60, -1
  %63 = getelementptr inbounds [256 x ptr], ptr %2, i64 0, i64 %62
  %64 = load ptr, ptr %63, align 8, !tbaa !16
  %65 = icmp eq i64 %60, 2
  br i1 %65, label %122, label %66

66:                                               ; preds = %59
  %67 = load i32, ptr %64, align 8, !tbaa !11
  %68 = getelementptr inbounds i8, ptr %64, i64 4
  br label %69

69:                                               ; preds = %112, %66
  %70 = phi i32 [ 1, %66 ], [ %116, %112 ]
  %71 = phi i32 [ 0, %66 ], [ %115, %112 ]
  %72 = phi i32 [ 0, %66 ], [ %97, %112 ]
  %73 = add nsw i32 %71, 2
  %74 = sext i32 %73 to i64
  %75 = icmp sgt i64 %62, %74
  br i1 %75, label %76, label %96

76:                                               ; preds = %69
  %77 = getelementptr inbounds [256 x ptr], ptr %2, i64 0, i64 %74
  %78 = load ptr, ptr %77, align 8, !tbaa !16
  %79 = sext i32 %70 to i64
  %80 = getelementptr inbounds [256 x ptr], ptr %2, i64 0, i64 %79
  %81 = load ptr, ptr %80, align 8, !tbaa !16
  %82 = load i32, ptr %78, align 8, !tbaa !11
  %83 = load i32, ptr %81, align 8, !tbaa !11
  %84 = icmp eq i32 %82, %83
  br i1 %84, label %87, label %85

85:                                               ; preds = %76
  %86 = icmp ult i32 %82, %83
  br label %93

87:                                               ; preds = %76
  %88 = getelementptr inbounds i8, ptr %78, i64 4
  %89 = load i16, ptr %88, align 4, !tbaa !15
  %90 = getelementptr inbounds i8, ptr %81, i64 4
  %91 = load i16, ptr %90, align 4, !tbaa !15
  %92 = icmp slt i16 %89, %91
  br label %93

93:                                               ; preds = %87, %85
  %94 = phi i1 [ %86, %85 ], [ %92, %87 ]
  %95 = select i1 %94, i32 %73, i32 %70
  br label %96

96:                                               ; preds = %93, %69
  %97 = phi i32 [ %70, %69 ], [ %95, %93 ]
  %98 = sext i32 %97 to i64
  %99 = getelementptr inbounds [256 x ptr], ptr %2, i64 0, i64 %98
  %100 = load ptr, ptr %99, align 8, !tbaa !16
  %101 = load i32, ptr %100, align 8, !tbaa !11
  %102 = icmp eq i32 %101, %67
  br i1 %102, label %105, label %103

103:                                              ; preds = %96
  %104 = icmp ult i32 %101, %67
  br label %110

105:                                              ; preds = %96
  %106 = getelementptr inbounds i8, ptr %100, i64 4
  %107 = load i16, ptr %106, align 4, !tbaa !15
  %108 = load i16, ptr %68, align 4, !tbaa !15
  %109 = icmp slt i16 %107, %108
  br label %110

110:                                              ; preds = %105, %103
  %111 = phi i1 [ %104, %103 ], [ %109, %105 ]
  br i1 %111, label %112, label %119

112:                                              ; preds = %110
  %113 = sext i32 %72 to i64
  %114 = getelementptr inbounds [256 x ptr], ptr %2, i64 0, i64 %113
  store ptr %100, ptr %114, align 8, !tbaa !16
  %115 = shl nsw i32 %97, 1
  %116 = or disjoint i32 %115, 1
  %117 = sext i32 %116 to i64
  %118 = icmp sgt i64 %62, %117
  br i1 %118, label %69, label %119, !llvm.loop !21

119:                                              ; preds = %112, %110
  %120 = phi i32 [ %97, %112 ], [ %72, %110 ]
  %121 = sext i32 %120 to i64
  br label %122

122:                                              ; preds = %119, %59
  %123 = phi i64 [ 0, %59 ], [ %121, %119 ]
  %124 = getelementptr inbounds [256 x ptr], ptr %2, i64 0, i64 %123
  store ptr %64, ptr %124, align 8, !tbaa !16
  %125 = load ptr, ptr %2, align 8, !tbaa !16
  %126 = add nsw i64 %60, -2
  %127 = getelementptr inbounds [256 x ptr], ptr %2, i64 0, i64 %126
  %128 = load ptr, ptr %127, align 8, !tbaa !16
  %129 = icmp sgt i64 %60, 3
  br i1 %129, label %130, label %186

130:                                              ; preds = %122
  %131 = load i32, ptr %128, align 8, !tbaa !11
  %132 = getelementptr inbounds i8, ptr %128, i64 4
  br label %133

133:                                              ; preds = %176, %130
  %134 = phi i32 [ 1, %130 ], [ %180, %176 ]
  %135 = phi i32 [ 0, %130 ], [ %179, %176 ]
  %136 = phi i32 [ 0, %130 ], [ %161, %176 ]
  %137 = add nsw i32 %135, 2
  %138 = sext i32 %137 to i64
  %139 = icmp sgt i64 %126, %138
  br i1 %139, label %140, label %160

140:                                              ; preds = %133
  %141 = getelementptr inbounds [256 x ptr], ptr %2, i64 0, i64 %138
  %142 = load ptr, ptr %141, align 8, !tbaa !16
  %143 = sext i32 %134 to i64
  %144 = getelementptr inbounds [256 x ptr], ptr %2, i64 0, i64 %143
  %145 = load ptr, ptr %144, align 8, !tbaa !16
  %146 = load i32, ptr %142, align 8, !tbaa !11
  %147 = load i32, ptr %145, align 8, !tbaa !11
  %148 = icmp eq i32 %146, %147
  br i1 %148, label %151, label %149

149:                                              ; preds = %140
  %150 = icmp ult i32 %146, %147
  br label %157

151:                                              ; preds = %140
  %152 = getelementptr inbounds i8, ptr %142, i64 4
  %153 = load i16, ptr %152, align 4, !tbaa !15
  %154 = getelementptr inbounds i8, ptr %145, i64 4
  %155 = load i16, ptr %154, align 4, !tbaa !15
  %156 = icmp slt i16 %153, %155
  br label %157

157:                                              ; preds = %151, %149
  %158 = phi i1 [ %150, %149 ], [ %156, %151 ]
  %159 = select i1 %158, i32 %137, i32 %134
  br label %160

160:                                              ; preds = %157, %133
  %161 = phi i32 [ %134, %133 ], [ %159, %157 ]
  %162 = sext i32 %161 to i64
  %163 = getelementptr inbounds [256 x ptr], ptr %2, i64 0, i64 %162
  %164 = load ptr, ptr %163, align 8, !tbaa !16
  %165 = load i32, ptr %164, align 8, !tbaa !11
  %166 = icmp eq i32 %165, %131
  br i1 %166, label %169, label %167

167:                                              ; preds = %160
  %168 = icmp ult i32 %165, %131
  br label %174

169:                                              ; preds = %160
  %170 = getelementptr inbounds i8, ptr %164, i64 4
  %171 = load i16, ptr %170, align 4, !tbaa !15
  %172 = load i16, ptr %132, align 4, !tbaa !15
  %173 = icmp slt i16 %171, %172
  br label %174

174:                                              ; preds = %169, %167
  %175 = phi i1 [ %168, %167 ], [ %173, %169 ]
  br i1 %175, label %176, label %183

176:                                              ; preds = %174
  %177 = sext i32 %136 to i64
  %178 = getelementptr inbounds [256 x ptr], ptr %2, i64 0, i64 %177
  store ptr %164, ptr %178, align 8, !tbaa !16
  %179 = shl nsw i32 %161, 1
  %180 = or disjoint i32 %179, 1
  %181 = sext i32 %180 to i64
  %182 = icmp sgt i64 %126, %181
  br i1 %182, label %133, label %183, !llvm.loop !22

183:                                              ; preds = %176, %174
  %184 = phi i32 [ %161, %176 ], [ %136, %174 ]
  %185 = sext i32 %184 to i64
  br label %186

186:                                              ; preds = %183, %122
  %187 = phi i64 [ 0, %122 ], [ %185, %183 ]
  %188 = getelementptr inbounds [256 x ptr], ptr %2, i64 0, i64 %187
  store ptr %128, ptr %188, align 8, !tbaa !16
  %189 = tail call dereferenceable_or_null(24) ptr @__sized_malloc(i64 noundef 24) #16
  %190 = icmp eq ptr %189, null
  br i1 %190, label %191, label %193

191:                                              ; preds = %186
  %192 = trunc nuw nsw i64 %126 to i32
  store i32 %192, ptr %8, align 8, !tbaa !5
  tail call void @abort() #17
  unreachable

193:                                              ; preds = %186
  %194 = load i32, ptr %61, align 8, !tbaa !11
  %195 = load i32, ptr %125, align 8, !tbaa !11
  %196 = add i32 %195, %194
  store i32 %196, ptr %189, align 8, !tbaa !11
  %197 = getelementptr inbounds i8, ptr %61, i64 4
  %198 = load i16, ptr %197, align 4, !tbaa !15
  %199 = getelementptr inbounds i8, ptr %125, i64 4
  %200 = load i16, ptr %199, align 4, !tbaa !15
  %201 = tail call i16 @llvm.smin.i16(i16 %198, i16 %200)
  %202 = getelementptr inbounds i8, ptr %189, i64 4
  store i16 %201, ptr %202, align 4, !tbaa !15
  %203 = getelementptr inbounds i8, ptr %189, i64 8
  store ptr %61, ptr %203, align 8, !tbaa !23
  %204 = getelementptr inbounds i8, ptr %189, i64 16
  store ptr %125, ptr %204, align 8, !tbaa !24
  %205 = trunc nuw nsw i64 %126 to i32
  br i1 %65, label %227, label %206

206:                                              ; preds = %223, %193
  %207 = phi i32 [ %209, %223 ], [ %205, %193 ]
  %208 = add nsw i32 %207, -1
  %209 = lshr i32 %208, 1
  %210 = zext nneg i32 %209 to i64
  %211 = getelementptr inbounds [256 x ptr], ptr %2, i64 0, i64 %210
  %212 = load ptr, ptr %211, align 8, !tbaa !16
  %213 = load i32, ptr %212, align 8, !tbaa !11
  %214 = icmp eq i32 %196, %213
  br i1 %214, label %217, label %215

215:                                              ; preds = %206
  %216 = icmp ult i32 %196, %213
  br label %221

217:                                              ; preds = %206
  %218 = getelementptr inbounds i8, ptr %212, i64 4
  %219 = load i16, ptr %218, align 4, !tbaa !15
  %220 = icmp slt i16 %201, %219
  br label %221

221:                                              ; preds = %217, %215
  %222 = phi i1 [ %216, %215 ], [ %220, %217 ]
  br i1 %222, label %223, label %227

223:                                              ; preds = %221
  %224 = zext nneg i32 %207 to i64
  %225 = getelementptr inbounds [256 x ptr], ptr %2, i64 0, i64 %224
  store ptr %212, ptr %225, align 8, !tbaa !16
  %226 = icmp ult i32 %208, 2
  br i1 %226, label %227, label %206, !llvm.loop !25

227:                                              ; preds = %223, %221, %193
  %228 = phi i32 [ %205, %193 ], [ %207, %221 ], [ %209, %223 ]
  %229 = sext i32 %228 to i64
  %230 = getelementptr inbounds [256 x ptr], ptr %2, i64 0, i64 %229
  store ptr %189, ptr %230, align 8, !tbaa !16
  %231 = icmp sgt i64 %60, 2
  br i1 %231, label %59, label %232, !llvm.loop !26

232:                                              ; preds = %227, %55
  %233 = phi i32 [ %50, %55 ], [ 1, %227 ]
  store i32 %233, ptr %8, align 8, !tbaa !5
  %234 = load ptr, ptr %2, align 8, !tbaa !16
  %235 = add nsw i32 %233, -1
  store i32 %235, ptr %8, align 8, !tbaa !5
  %236 = sext i32 %235 to i64
  %237 = getelementptr inbounds [256 x ptr], ptr %2, i64 0, i64 %236
  %238 = load ptr, ptr %237, align 8, !tbaa !16
  store ptr %238, ptr %2, align 8, !tbaa !16
  tail call fastcc void @measure(ptr noundef %234, i32 noundef 0)
  br label %239

239:                                              ; preds = %242, %232
  %240 = phi i32 [ 1, %232 ], [ %244, %242 ]
  %241 = phi i32 [ 0, %232 ], [ %243, %242 ]
  br label %246

242:                                              ; preds = %256
  %243 = shl i32 %257, 1
  %244 = add nuw nsw i32 %240, 1
  %245 = icmp eq i32 %244, 33
  br i1 %245, label %261, label %239, !llvm.loop !27

246:                                              ; preds = %256, %239
  %247 = phi i64 [ 0, %239 ], [ %258, %256 ]
  %248 = phi i32 [ %241, %239 ], [ %257, %256 ]
  %249 = getelementptr inbounds [256 x i8], ptr @main.code, i64 0, i64 %247
  %250 = load i8, ptr %249, align 1, !tbaa !28
  %251 = zext i8 %250 to i32
  %252 = icmp eq i32 %240, %251
  br i1 %252, label %253, label %256

253:                                              ; preds = %246
  %254 = add i32 %248, 1
  %255 = getelementptr inbounds [256 x i32], ptr getelementptr inbounds (i8, ptr @main.code, i64 256), i64 0, i64 %247
  store i32 %248, ptr %255, align 4, !tbaa !10
  br label %256

256:                                              ; preds = %253, %246
  %257 = phi i32 [ %254, %253 ], [ %248, %246 ]
  %258 = add nuw nsw i64 %247, 1
  %259 = icmp eq i64 %258, 256
  br i1 %259, label %242, label %246, !llvm.loop !29

260:                                              ; preds = %16
  store i32 %12, ptr %8, align 8, !tbaa !5
  br label %272

261:                                              ; preds = %242
  call void @llvm.lifetime.end.p0(i64 2056, ptr nonnull %2) #14
  call void @llvm.lifetime.start.p0(i64 1024, ptr nonnull %4) #14
  br label %279

262:                                              ; preds = %262, %0
  %263 = phi i64 [ %270, %262 ], [ 0, %0 ]
  %264 = getelementptr inbounds [4000 x i8], ptr @text, i64 0, i64 %263
  %265 = load i8, ptr %264, align 1, !tbaa !28
  %266 = zext i8 %265 to i64
  %267 = getelementptr inbounds [256 x i32], ptr %3, i64 0, i64 %266
  %268 = load i32, ptr %267, align 4, !tbaa !10
  %269 = add i32 %268, 1
  store i32 %269, ptr %267, align 4, !tbaa !10
  %270 = add nuw i64 %263, 1
  %271 = icmp eq i64 %270, %5
  br i1 %271, label %7, label %262, !llvm.loop !30

272:                                              ; preds = %260, %53
  call void @llvm.lifetime.end.p0(i64 2056, ptr nonnull %2) #14
  %273 = tail call i32 @puts(ptr noundef nonnull dereferenceable(1) @.str)
  br label %519

274:                                              ; preds = %290
  store ptr @main.code, ptr @lengths, align 8, !tbaa !16
  %275 = sext i32 %291 to i64
  call void @qsort(ptr noundef nonnull %4, i64 noundef %275, i64 noundef 4, ptr noundef nonnull @by_length) #14
  %276 = icmp sgt i32 %291, 0
  br i1 %276, label %277, label %294

277:                                              ; preds = %274
  %278 = zext nneg i32 %291 to i64
  br label %371

279:                                              ; preds = %290, %261
  %280 = phi i64 [ 0, %261 ], [ %292, %290 ]
  %281 = phi i32 [ 0, %261 ], [ %291, %290 ]
  %282 = getelementptr inbounds [256 x i32], ptr %3, i64 0, i64 %280
  %283 = load i32, ptr %282, align 4, !tbaa !10
  %284 = icmp eq i32 %283, 0
  br i1 %284, label %290, label %285

285:                                              ; preds = %279
  %286 = add nsw i32 %281, 1
  %287 = sext i32 %281 to i64
  %288 = getelementptr inbounds [256 x i32], ptr %4, i64 0, i64 %287
  %289 = trunc nuw nsw i64 %280 to i32
  store i32 %289, ptr %288, align 4, !tbaa !10
  br label %290

290:                                              ; preds = %285, %279
  %291 = phi i32 [ %286, %285 ], [ %281, %279 ]
  %292 = add nuw nsw i64 %280, 1
  %293 = icmp eq i64 %292, 256
  br i1 %293, label %274, label %279, !llvm.loop !31

294:                                              ; preds = %415, %274
  br i1 %6, label %352, label %295

295:                                              ; preds = %346, %294
  %296 = phi ptr [ %347, %346 ], [ null, %294 ]
  %297 = phi i64 [ %348, %346 ], [ 0, %294 ]
  %298 = phi i64 [ %349, %346 ], [ 0, %294 ]
  %299 = phi i64 [ %350, %346 ], [ 0, %294 ]
  %300 = getelementptr inbounds i8, ptr @text, i64 %299
  %301 = load i8, ptr %300, align 1, !tbaa !28
  %302 = zext i8 %301 to i64
  %303 = getelementptr inbounds [256 x i32], ptr getelementptr inbounds (i8, ptr @main.code, i64 256), i64 0, i64 %302
  %304 = load i32, ptr %303, align 4, !tbaa !10
  %305 = getelementptr inbounds [256 x i8], ptr @main.code, i64 0, i64 %302
  %306 = load i8, ptr %305, align 1, !tbaa !28
  %307 = icmp eq i8 %306, 0
  br i1 %307, label %346, label %308

308:                                              ; preds = %295
  %309 = zext i8 %306 to i32
  br label %310

310:                                              ; preds = %332, %308
  %311 = phi ptr [ %296, %308 ], [ %333, %332 ]
  %312 = phi i64 [ %297, %308 ], [ %344, %332 ]
  %313 = phi i64 [ %298, %308 ], [ %334, %332 ]
  %314 = phi i32 [ %309, %308 ], [ %315, %332 ]
  %315 = add nsw i32 %314, -1
  %316 = lshr i32 %304, %315
  %317 = and i32 %316, 1
  %318 = shl i64 %313, 3
  %319 = icmp eq i64 %312, %318
  br i1 %319, label %320, label %332

320:                                              ; preds = %310
  %321 = icmp eq i64 %313, 0
  %322 = shl i64 %313, 1
  %323 = select i1 %321, i64 32, i64 %322
  %324 = call ptr @realloc(ptr noundef %311, i64 noundef %323) #18
  %325 = icmp eq ptr %324, null
  br i1 %325, label %326, label %327

326:                                              ; preds = %320
  call void @abort() #17
  unreachable

327:                                              ; preds = %320
  %328 = icmp ult i64 %313, %323
  br i1 %328, label %329, label %332

329:                                              ; preds = %327
  %330 = getelementptr i8, ptr %324, i64 %313
  %331 = sub i64 %323, %313
  call void @llvm.memset.p0.i64(ptr align 1 %330, i8 0, i64 %331, i1 false), !tbaa !28
  br label %332

332:                                              ; preds = %329, %327, %310
  %333 = phi ptr [ %311, %310 ], [ %324, %329 ], [ %324, %327 ]
  %334 = phi i64 [ %313, %310 ], [ %323, %329 ], [ %323, %327 ]
  %335 = trunc i64 %312 to i32
  %336 = and i32 %335, 7
  %337 = xor i32 %336, 7
  %338 = shl nuw nsw i32 %317, %337
  %339 = lshr i64 %312, 3
  %340 = getelementptr inbounds i8, ptr %333, i64 %339
  %341 = load i8, ptr %340, align 1, !tbaa !28
  %342 = trunc nuw i32 %338 to i8
  %343 = or i8 %341, %342
  store i8 %343, ptr %340, align 1, !tbaa !28
  %344 = add i64 %312, 1
  %345 = icmp eq i32 %315, 0
  br i1 %345, label %346, label %310, !llvm.loop !32

346:                                              ; preds = %332, %295
  %347 = phi ptr [ %296, %295 ], [ %333, %332 ]
  %348 = phi i64 [ %297, %295 ], [ %344, %332 ]
  %349 = phi i64 [ %298, %295 ], [ %334, %332 ]
  %350 = add nuw i64 %299, 1
  %351 = icmp eq i64 %350, %5
  br i1 %351, label %352, label %295, !llvm.loop !33

352:                                              ; preds = %346, %294
  %353 = phi ptr [ null, %294 ], [ %347, %346 ]
  %354 = phi i64 [ 0, %294 ], [ %348, %346 ]
  %355 = udiv i64 %354, %5
  %356 = urem i64 %354, %5
  %357 = mul i64 %356, 100
  %358 = udiv i64 %357, %5
  %359 = call i32 @__print_unsigned(ptr nonnull getelementptr inbounds (i8, ptr @__streams, i64 24), i64 %5, i32 10, i32 0, i32 0, i32 -1) #14
  %360 = call i32 @__print_text(ptr nonnull getelementptr inbounds (i8, ptr @__streams, i64 24), ptr nonnull getelementptr inbounds (i8, ptr @.str.1, i64 3), i64 8) #14
  %361 = call i32 @__print_signed(ptr nonnull getelementptr inbounds (i8, ptr @__streams, i64 24), i64 %275, i32 0, i32 0, i32 -1) #14
  %362 = call i32 @__print_text(ptr nonnull getelementptr inbounds (i8, ptr @__streams, i64 24), ptr nonnull getelementptr inbounds (i8, ptr @.str.1, i64 13), i64 10) #14
  %363 = call i32 @__print_unsigned(ptr nonnull getelementptr inbounds (i8, ptr @__streams, i64 24), i64 %354, i32 10, i32 0, i32 0, i32 -1) #14
  %364 = call i32 @__print_text(ptr nonnull getelementptr inbounds (i8, ptr @__streams, i64 24), ptr nonnull getelementptr inbounds (i8, ptr @.str.1, i64 26), i64 7) #14
  %365 = call i32 @__print_unsigned(ptr nonnull getelementptr inbounds (i8, ptr @__streams, i64 24), i64 %355, i32 10, i32 0, i32 0, i32 -1) #14
  %366 = call i32 @__print_text(ptr nonnull getelementptr inbounds (i8, ptr @__streams, i64 24), ptr nonnull getelementptr inbounds (i8, ptr @.str.1, i64 36), i64 1) #14
  %367 = call i32 @__print_unsigned(ptr nonnull getelementptr inbounds (i8, ptr @__streams, i64 24), i64 %358, i32 10, i32 16, i32 2, i32 -1) #14
  %368 = call i32 @__print_text(ptr nonnull getelementptr inbounds (i8, ptr @__streams, i64 24), ptr nonnull getelementptr inbounds (i8, ptr @.str.1, i64 42), i64 13) #14
  %369 = call i32 @__print_text(ptr nonnull getelementptr inbounds (i8, ptr @__streams, i64 24), ptr nonnull @.str.2, i64 6) #14
  %370 = icmp eq i64 %354, 0
  br i1 %370, label %429, label %433

371:                                              ; preds = %415, %277
  %372 = phi i64 [ 0, %277 ], [ %427, %415 ]
  %373 = getelementptr inbounds [256 x i32], ptr %4, i64 0, i64 %372
  %374 = load i32, ptr %373, align 4, !tbaa !10
  call void @llvm.lifetime.start.p0(i64 33, ptr nonnull %1) #14
  %375 = sext i32 %374 to i64
  %376 = getelementptr inbounds [256 x i8], ptr @main.code, i64 0, i64 %375
  %377 = load i8, ptr %376, align 1, !tbaa !28
  %378 = zext i8 %377 to i32
  %379 = icmp eq i8 %377, 0
  br i1 %379, label %384, label %380

380:                                              ; preds = %371
  %381 = getelementptr inbounds [256 x i32], ptr getelementptr inbounds (i8, ptr @main.code, i64 256), i64 0, i64 %375
  %382 = load i32, ptr %381, align 4, !tbaa !10
  %383 = zext i8 %377 to i64
  br label %403

384:                                              ; preds = %403, %371
  %385 = zext i8 %377 to i64
  %386 = getelementptr inbounds [33 x i8], ptr %1, i64 0, i64 %385
  store i8 0, ptr %386, align 1, !tbaa !28
  %387 = call i32 @isprint(i32 noundef %374) #19
  %388 = icmp ne i32 %387, 0
  %389 = icmp ne i32 %374, 32
  %390 = and i1 %389, %388
  br i1 %390, label %391, label %394

391:                                              ; preds = %384
  %392 = call i32 @__print_character(ptr nonnull getelementptr inbounds (i8, ptr @__streams, i64 24), i32 %374, i32 0, i32 0) #14
  %393 = call i32 @__print_text(ptr nonnull getelementptr inbounds (i8, ptr @__streams, i64 24), ptr nonnull getelementptr inbounds (i8, ptr @.str.8, i64 2), i64 3) #14
  br label %415

394:                                              ; preds = %384
  %395 = icmp eq i32 %374, 10
  br i1 %395, label %396, label %398

396:                                              ; preds = %394
  %397 = call i32 @__print_text(ptr nonnull getelementptr inbounds (i8, ptr @__streams, i64 24), ptr nonnull @.str.9, i64 4) #14
  br label %415

398:                                              ; preds = %394
  %399 = call i32 @__print_text(ptr nonnull getelementptr inbounds (i8, ptr @__streams, i64 24), ptr nonnull @.str.10, i64 1) #14
  %400 = zext i32 %374 to i64
  %401 = call i32 @__print_unsigned(ptr nonnull getelementptr inbounds (i8, ptr @__streams, i64 24), i64 %400, i32 16, i32 48, i32 2, i32 -1) #14
  %402 = call i32 @__print_text(ptr nonnull getelementptr inbounds (i8, ptr @__streams, i64 24), ptr nonnull getelementptr inbounds (i8, ptr @.str.10, i64 5), i64 1) #14
  br label %415

403:                                              ; preds = %403, %380
  %404 = phi i64 [ 0, %380 ], [ %413, %403 ]
  %405 = trunc nuw nsw i64 %404 to i32
  %406 = xor i32 %405, -1
  %407 = add nsw i32 %406, %378
  %408 = shl nuw i32 1, %407
  %409 = and i32 %408, %382
  %410 = icmp eq i32 %409, 0
  %411 = select i1 %410, i8 48, i8 49
  %412 = getelementptr inbounds [33 x i8], ptr %1, i64 0, i64 %404
  store i8 %411, ptr %412, align 1, !tbaa !28
  %413 = add nuw nsw i64 %404, 1
  %414 = icmp eq i64 %413, %383
  br i1 %414, label %384, label %403, !llvm.loop !34

415:                                              ; preds = %398, %396, %391
  %416 = getelementptr inbounds i32, ptr %3, i64 %375
  %417 = load i32, ptr %416, align 4, !tbaa !10
  %418 = load i8, ptr %376, align 1, !tbaa !28
  %419 = zext i32 %417 to i64
  %420 = call i32 @__print_unsigned(ptr nonnull getelementptr inbounds (i8, ptr @__streams, i64 24), i64 %419, i32 10, i32 0, i32 5, i32 -1) #14
  %421 = call i32 @__print_text(ptr nonnull getelementptr inbounds (i8, ptr @__streams, i64 24), ptr nonnull getelementptr inbounds (i8, ptr @.str.7, i64 3), i64 2) #14
  %422 = call i32 @__print_string(ptr nonnull getelementptr inbounds (i8, ptr @__streams, i64 24), ptr nonnull %1, i32 1, i32 16, i32 -1) #14
  %423 = call i32 @__print_text(ptr nonnull getelementptr inbounds (i8, ptr @__streams, i64 24), ptr nonnull getelementptr inbounds (i8, ptr @.str.7, i64 10), i64 1) #14
  %424 = zext i8 %418 to i64
  %425 = call i32 @__print_unsigned(ptr nonnull getelementptr inbounds (i8, ptr @__streams, i64 24), i64 %424, i32 10, i32 0, i32 2, i32 -1) #14
  %426 = call i32 @__print_text(ptr nonnull getelementptr inbounds (i8, ptr @__streams, i64 24), ptr nonnull getelementptr inbounds (i8, ptr @.str.7, i64 14), i64 6) #14
  call void @llvm.lifetime.end.p0(i64 33, ptr nonnull %1) #14
  %427 = add nuw nsw i64 %372, 1
  %428 = icmp eq i64 %427, %278
  br i1 %428, label %294, label %371, !llvm.loop !35

429:                                              ; preds = %433, %352
  %430 = call i32 @__print_text(ptr nonnull getelementptr inbounds (i8, ptr @__streams, i64 24), ptr nonnull @.str.4, i64 1) #14
  %431 = call ptr @__sized_malloc(i64 noundef %5) #16
  %432 = icmp eq ptr %431, null
  br i1 %432, label %517, label %445

433:                                              ; preds = %433, %352
  %434 = phi i64 [ %440, %433 ], [ 0, %352 ]
  %435 = getelementptr inbounds i8, ptr %353, i64 %434
  %436 = load i8, ptr %435, align 1, !tbaa !28
  %437 = call i32 @__print_text(ptr nonnull getelementptr inbounds (i8, ptr @__streams, i64 24), ptr nonnull @.str.3, i64 1) #14
  %438 = zext i8 %436 to i64
  %439 = call i32 @__print_unsigned(ptr nonnull getelementptr inbounds (i8, ptr @__streams, i64 24), i64 %438, i32 16, i32 16, i32 2, i32 -1) #14
  %440 = add nuw nsw i64 %434, 1
  %441 = icmp ult i64 %434, 7
  %442 = shl i64 %440, 3
  %443 = icmp ult i64 %442, %354
  %444 = select i1 %441, i1 %443, i1 false
  br i1 %444, label %433, label %429, !llvm.loop !36

445:                                              ; preds = %499, %429
  %446 = phi i64 [ %470, %499 ], [ 0, %429 ]
  %447 = phi i64 [ %502, %499 ], [ 0, %429 ]
  br label %451

448:                                              ; preds = %492
  %449 = add nuw nsw i32 %455, 1
  %450 = icmp eq i32 %449, 33
  br i1 %450, label %496, label %451, !llvm.loop !37

451:                                              ; preds = %448, %445
  %452 = phi i64 [ %446, %445 ], [ %470, %448 ]
  %453 = phi i64 [ %446, %445 ], [ %471, %448 ]
  %454 = phi i32 [ undef, %445 ], [ %495, %448 ]
  %455 = phi i32 [ 1, %445 ], [ %449, %448 ]
  %456 = phi i32 [ 0, %445 ], [ %493, %448 ]
  %457 = icmp eq i64 %453, %354
  br i1 %457, label %469, label %458

458:                                              ; preds = %451
  %459 = lshr i64 %453, 3
  %460 = getelementptr inbounds i8, ptr %353, i64 %459
  %461 = load i8, ptr %460, align 1, !tbaa !28
  %462 = zext i8 %461 to i32
  %463 = trunc i64 %453 to i32
  %464 = and i32 %463, 7
  %465 = xor i32 %464, 7
  %466 = lshr i32 %462, %465
  %467 = and i32 %466, 1
  %468 = add i64 %453, 1
  br label %469

469:                                              ; preds = %458, %451
  %470 = phi i64 [ %452, %451 ], [ %468, %458 ]
  %471 = phi i64 [ %453, %451 ], [ %468, %458 ]
  %472 = phi i32 [ -1, %451 ], [ %467, %458 ]
  %473 = icmp slt i32 %472, 0
  br i1 %473, label %492, label %474

474:                                              ; preds = %469
  %475 = shl i32 %456, 1
  %476 = or i32 %472, %475
  br label %477

477:                                              ; preds = %487, %474
  %478 = phi i64 [ 0, %474 ], [ %488, %487 ]
  %479 = getelementptr inbounds [256 x i8], ptr @main.code, i64 0, i64 %478
  %480 = load i8, ptr %479, align 1, !tbaa !28
  %481 = zext i8 %480 to i32
  %482 = icmp eq i32 %455, %481
  br i1 %482, label %483, label %487

483:                                              ; preds = %477
  %484 = getelementptr inbounds [256 x i32], ptr getelementptr inbounds (i8, ptr @main.code, i64 256), i64 0, i64 %478
  %485 = load i32, ptr %484, align 4, !tbaa !10
  %486 = icmp eq i32 %485, %476
  br i1 %486, label %490, label %487

487:                                              ; preds = %483, %477
  %488 = add nuw nsw i64 %478, 1
  %489 = icmp eq i64 %488, 256
  br i1 %489, label %492, label %477, !llvm.loop !38

490:                                              ; preds = %483
  %491 = trunc nuw nsw i64 %478 to i32
  br label %492

492:                                              ; preds = %490, %487, %469
  %493 = phi i32 [ %456, %469 ], [ %476, %490 ], [ %476, %487 ]
  %494 = phi i1 [ false, %469 ], [ false, %490 ], [ true, %487 ]
  %495 = phi i32 [ -1, %469 ], [ %491, %490 ], [ %454, %487 ]
  br i1 %494, label %448, label %496

496:                                              ; preds = %492, %448
  %497 = phi i32 [ %495, %492 ], [ -1, %448 ]
  %498 = icmp sgt i32 %497, -1
  br i1 %498, label %499, label %504

499:                                              ; preds = %496
  %500 = trunc i32 %497 to i8
  %501 = getelementptr inbounds i8, ptr %431, i64 %447
  store i8 %500, ptr %501, align 1, !tbaa !28
  %502 = add nuw i64 %447, 1
  %503 = icmp eq i64 %502, %5
  br i1 %503, label %504, label %445, !llvm.loop !39

504:                                              ; preds = %499, %496
  %505 = phi i64 [ %447, %496 ], [ %5, %499 ]
  %506 = icmp eq i64 %505, %5
  br i1 %506, label %507, label %512

507:                                              ; preds = %504
  %508 = call i32 @bcmp(ptr nonnull %431, ptr nonnull @text, i64 %5)
  %509 = icmp eq i32 %508, 0
  %510 = icmp eq i64 %470, %354
  %511 = select i1 %509, i1 %510, i1 false
  br label %512

512:                                              ; preds = %507, %504
  %513 = phi i1 [ false, %504 ], [ %511, %507 ]
  %514 = select i1 %513, ptr @.str.5, ptr @.str.6
  %515 = call i32 @puts(ptr noundef nonnull dereferenceable(1) %514)
  call void @__sized_free(ptr noundef %431)
  call void @__sized_free(ptr noundef %353)
  %516 = select i1 %513, i32 %291, i32 1
  br label %517

517:                                              ; preds = %512, %429
  %518 = phi i32 [ %516, %512 ], [ 2, %429 ]
  call void @llvm.lifetime.end.p0(i64 1024, ptr nonnull %4) #14
  br label %519

519:                                              ; preds = %517, %272
  %520 = phi i32 [ %518, %517 ], [ 1, %272 ]
  call void @llvm.lifetime.end.p0(i64 1024, ptr nonnull %3) #14
  ret i32 %520
}

; Function Attrs: nounwind optsize uwtable
define internal i64 @fread(ptr noalias nocapture noundef writeonly %0, i64 noundef %1, i64 noundef %2, ptr noalias nocapture noundef %3) local_unnamed_addr #1 {
  %5 = mul i64 %2, %1
  %6 = icmp eq i64 %5, 0
  br i1 %6, label %11, label %7

7:                                                ; preds = %14, %4
  %8 = phi i64 [ %17, %14 ], [ 0, %4 ]
  %9 = tail call i32 @fgetc(ptr noundef %3) #20
  %10 = icmp eq i32 %9, -1
  br i1 %10, label %11, label %14

11:                                               ; preds = %14, %7, %4
  %12 = phi i64 [ 0, %4 ], [ %5, %14 ], [ %8, %7 ]
  %13 = icmp eq i64 %1, 0
  br i1 %13, label %21, label %19

14:                                               ; preds = %7
  %15 = trunc i32 %9 to i8
  %16 = getelementptr inbounds i8, ptr %0, i64 %8
  store i8 %15, ptr %16, align 1, !tbaa !28
  %17 = add nuw i64 %8, 1
  %18 = icmp eq i64 %17, %5
  br i1 %18, label %11, label %7, !llvm.loop !40

19:                                               ; preds = %11
  %20 = udiv i64 %12, %1
  br label %21

21:                                               ; preds = %19, %11
  %22 = phi i64 [ %20, %19 ], [ 0, %11 ]
  ret i64 %22
}

; Function Attrs: nocallback nofree nosync nounwind willreturn memory(argmem: readwrite)
declare void @llvm.lifetime.start.p0(i64 immarg, ptr nocapture) #2

; Function Attrs: nocallback nofree nounwind willreturn memory(argmem: write)
declare void @llvm.memset.p0.i64(ptr nocapture writeonly, i8, i64, i1 immarg) #3

; Function Attrs: noinline nounwind optsize uwtable
define internal ptr @__sized_calloc(i64 noundef %0, i64 noundef %1) #4 {
  %3 = icmp eq i64 %1, 0
  br i1 %3, label %7, label %4

4:                                                ; preds = %2
  %5 = udiv i64 -17, %1
  %6 = icmp ult i64 %5, %0
  br i1 %6, label %14, label %7

7:                                                ; preds = %4, %2
  %8 = mul i64 %1, %0
  %9 = add i64 %8, 16
  %10 = tail call ptr @calloc(i64 noundef %9, i64 noundef 1) #21
  %11 = icmp eq ptr %10, null
  br i1 %11, label %14, label %12

12:                                               ; preds = %7
  %13 = getelementptr inbounds i8, ptr %10, i64 16
  store i64 %8, ptr %10, align 8, !tbaa !41
  br label %14

14:                                               ; preds = %12, %7, %4
  %15 = phi ptr [ null, %4 ], [ %13, %12 ], [ null, %7 ]
  ret ptr %15
}

; Function Attrs: noinline nounwind optsize uwtable
define internal ptr @__sized_malloc(i64 noundef %0) local_unnamed_addr #4 {
  %2 = icmp ult i64 %0, -16
  br i1 %2, label %3, label %9

3:                                                ; preds = %1
  %4 = add nuw i64 %0, 16
  %5 = tail call ptr @malloc(i64 noundef %4) #21
  %6 = icmp eq ptr %5, null
  br i1 %6, label %9, label %7

7:                                                ; preds = %3
  %8 = getelementptr inbounds i8, ptr %5, i64 16
  store i64 %0, ptr %5, align 8, !tbaa !41
  br label %9

9:                                                ; preds = %7, %3, %1
  %10 = phi ptr [ %8, %7 ], [ null, %3 ], [ null, %1 ]
  ret ptr %10
}

; Function Attrs: noreturn nounwind
declare dso_local void @abort() local_unnamed_addr #5

; Function Attrs: nocallback nofree nosync nounwind speculatable willreturn memory(none)
declare i16 @llvm.smin.i16(i16, i16) #6

; Function Attrs: nounwind uwtable
define internal fastcc void @measure(ptr nocapture noundef %0, i32 noundef %1) unnamed_addr #0 {
  %3 = getelementptr inbounds i8, ptr %0, i64 8
  %4 = load ptr, ptr %3, align 8, !tbaa !23
  %5 = icmp eq ptr %4, null
  br i1 %5, label %10, label %6

6:                                                ; preds = %2
  %7 = add i32 %1, 1
  tail call fastcc void @measure(ptr noundef nonnull %4, i32 noundef %7)
  %8 = getelementptr inbounds i8, ptr %0, i64 16
  %9 = load ptr, ptr %8, align 8, !tbaa !24
  tail call fastcc void @measure(ptr noundef %9, i32 noundef %7)
  br label %17

10:                                               ; preds = %2
  %11 = tail call i32 @llvm.umax.i32(i32 %1, i32 1)
  %12 = trunc i32 %11 to i8
  %13 = getelementptr inbounds i8, ptr %0, i64 4
  %14 = load i16, ptr %13, align 4, !tbaa !15
  %15 = sext i16 %14 to i64
  %16 = getelementptr inbounds [256 x i8], ptr @main.code, i64 0, i64 %15
  store i8 %12, ptr %16, align 1, !tbaa !28
  br label %17

17:                                               ; preds = %10, %6
  tail call void @__sized_free(ptr noundef %0)
  ret void
}

; Function Attrs: nocallback nofree nosync nounwind willreturn memory(argmem: readwrite)
declare void @llvm.lifetime.end.p0(i64 immarg, ptr nocapture) #2

; Function Attrs: nofree nounwind
declare dso_local noundef i32 @puts(ptr nocapture noundef readonly) local_unnamed_addr #7

; Function Attrs: mustprogress nofree norecurse nosync nounwind willreturn memory(read, inaccessiblemem: none) uwtable
define internal i32 @by_length(ptr nocapture noundef readonly %0, ptr nocapture noundef readonly %1) #8 {
  %3 = load i32, ptr %0, align 4, !tbaa !10
  %4 = load i32, ptr %1, align 4, !tbaa !10
  %5 = load ptr, ptr @lengths, align 8, !tbaa !16
  %6 = sext i32 %3 to i64
  %7 = getelementptr inbounds i8, ptr %5, i64 %6
  %8 = load i8, ptr %7, align 1, !tbaa !28
  %9 = sext i32 %4 to i64
  %10 = getelementptr inbounds i8, ptr %5, i64 %9
  %11 = load i8, ptr %10, align 1, !tbaa !28
  %12 = icmp eq i8 %8, %11
  %13 = zext i8 %11 to i32
  %14 = zext i8 %8 to i32
  %15 = sub nsw i32 %14, %13
  %16 = sub nsw i32 %3, %4
  %17 = select i1 %12, i32 %16, i32 %15
  ret i32 %17
}

; Function Attrs: nounwind optsize uwtable
define internal void @qsort(ptr noundef %0, i64 noundef %1, i64 noundef %2, ptr noundef %3) local_unnamed_addr #1 {
  %5 = icmp ult i64 %1, 2
  %6 = icmp eq i64 %2, 0
  %7 = or i1 %5, %6
  br i1 %7, label %35, label %8

8:                                                ; preds = %4
  %9 = lshr i64 %1, 1
  %10 = mul i64 %9, %2
  %11 = tail call ptr @__sized_malloc(i64 noundef %10) #21
  %12 = icmp eq ptr %11, null
  br i1 %12, label %13, label %34

13:                                               ; preds = %13, %8
  %14 = phi i64 [ %15, %13 ], [ %9, %8 ]
  %15 = add nsw i64 %14, -1
  tail call fastcc void @sink(ptr noundef %0, i64 noundef %15, i64 noundef %1, i64 noundef %2, ptr noundef readonly %3) #20
  %16 = icmp eq i64 %15, 0
  br i1 %16, label %17, label %13, !llvm.loop !43

17:                                               ; preds = %32, %13
  %18 = phi i64 [ %19, %32 ], [ %1, %13 ]
  %19 = add i64 %18, -1
  %20 = mul i64 %19, %2
  %21 = getelementptr inbounds i8, ptr %0, i64 %20
  br label %22

22:                                               ; preds = %22, %17
  %23 = phi ptr [ %29, %22 ], [ %0, %17 ]
  %24 = phi i64 [ %26, %22 ], [ %2, %17 ]
  %25 = phi ptr [ %30, %22 ], [ %21, %17 ]
  %26 = add i64 %24, -1
  %27 = load i8, ptr %23, align 1, !tbaa !28
  %28 = load i8, ptr %25, align 1, !tbaa !28
  %29 = getelementptr inbounds i8, ptr %23, i64 1
  store i8 %28, ptr %23, align 1, !tbaa !28
  %30 = getelementptr inbounds i8, ptr %25, i64 1
  store i8 %27, ptr %25, align 1, !tbaa !28
  %31 = icmp eq i64 %26, 0
  br i1 %31, label %32, label %22, !llvm.loop !44

32:                                               ; preds = %22
  tail call fastcc void @sink(ptr noundef %0, i64 noundef 0, i64 noundef %19, i64 noundef %2, ptr noundef readonly %3) #20
  %33 = icmp ugt i64 %19, 1
  br i1 %33, label %17, label %35, !llvm.loop !45

34:                                               ; preds = %8
  tail call fastcc void @merge_sort(ptr noundef %0, i64 noundef %1, i64 noundef %2, ptr noundef %3, ptr noundef nonnull %11) #20
  tail call void @__sized_free(ptr noundef nonnull %11) #21
  br label %35

35:                                               ; preds = %34, %32, %4
  ret void
}

; Function Attrs: nounwind optsize uwtable
define internal ptr @realloc(ptr noundef %0, i64 noundef %1) local_unnamed_addr #1 {
  %3 = icmp eq ptr %0, null
  br i1 %3, label %4, label %6

4:                                                ; preds = %2
  %5 = tail call ptr @__sized_malloc(i64 noundef %1) #20
  br label %28

6:                                                ; preds = %2
  %7 = icmp eq i64 %1, 0
  br i1 %7, label %8, label %9

8:                                                ; preds = %6
  tail call void @__sized_free(ptr noundef nonnull %0) #20
  br label %28

9:                                                ; preds = %6
  %10 = tail call ptr @__sized_malloc(i64 noundef %1) #20
  %11 = icmp eq ptr %10, null
  br i1 %11, label %28, label %12

12:                                               ; preds = %9
  %13 = getelementptr inbounds i8, ptr %0, i64 -16
  %14 = load i64, ptr %13, align 8, !tbaa !41
  %15 = icmp eq i64 %14, 0
  br i1 %15, label %27, label %16

16:                                               ; preds = %12
  %17 = tail call i64 @llvm.umin.i64(i64 %14, i64 %1)
  br label %18

18:                                               ; preds = %18, %16
  %19 = phi ptr [ %23, %18 ], [ %0, %16 ]
  %20 = phi ptr [ %25, %18 ], [ %10, %16 ]
  %21 = phi i64 [ %22, %18 ], [ %17, %16 ]
  %22 = add i64 %21, -1
  %23 = getelementptr inbounds i8, ptr %19, i64 1
  %24 = load i8, ptr %19, align 1, !tbaa !28, !alias.scope !46, !noalias !49
  %25 = getelementptr inbounds i8, ptr %20, i64 1
  store i8 %24, ptr %20, align 1, !tbaa !28, !alias.scope !49, !noalias !46
  %26 = icmp eq i64 %22, 0
  br i1 %26, label %27, label %18, !llvm.loop !51

27:                                               ; preds = %18, %12
  tail call void @__sized_free(ptr noundef nonnull %0) #20
  br label %28

28:                                               ; preds = %27, %9, %8, %4
  %29 = phi ptr [ null, %8 ], [ %5, %4 ], [ %10, %27 ], [ null, %9 ]
  ret ptr %29
}

; Function Attrs: nounwind optsize uwtable
define internal i32 @__print_unsigned(ptr nocapture noundef %0, i64 noundef %1, i32 noundef %2, i32 noundef %3, i32 noundef %4, i32 noundef %5) local_unnamed_addr #1 {
  %7 = alloca [24 x i8], align 16
  call void @llvm.lifetime.start.p0(i64 24, ptr nonnull %7) #14
  %8 = and i32 %3, 32
  %9 = icmp eq i32 %8, 0
  %10 = select i1 %9, ptr @.str.9.17, ptr @.str.8.23
  %11 = icmp ult i64 %1, 4294967296
  br i1 %11, label %14, label %12

12:                                               ; preds = %6
  %13 = zext i32 %2 to i64
  br label %29

14:                                               ; preds = %6
  %15 = icmp eq i64 %1, 0
  br i1 %15, label %39, label %16

16:                                               ; preds = %14
  %17 = trunc nuw i64 %1 to i32
  br label %18

18:                                               ; preds = %18, %16
  %19 = phi i32 [ %27, %18 ], [ %17, %16 ]
  %20 = phi i64 [ %25, %18 ], [ 24, %16 ]
  %21 = urem i32 %19, %2
  %22 = zext i32 %21 to i64
  %23 = getelementptr inbounds i8, ptr %10, i64 %22
  %24 = load i8, ptr %23, align 1, !tbaa !28
  %25 = add nsw i64 %20, -1
  %26 = getelementptr inbounds i8, ptr %7, i64 %25
  store i8 %24, ptr %26, align 1, !tbaa !28
  %27 = udiv i32 %19, %2
  %28 = icmp ult i32 %19, %2
  br i1 %28, label %39, label %18, !llvm.loop !52

29:                                               ; preds = %29, %12
  %30 = phi i64 [ 24, %12 ], [ %35, %29 ]
  %31 = phi i64 [ %1, %12 ], [ %37, %29 ]
  %32 = urem i64 %31, %13
  %33 = getelementptr inbounds i8, ptr %10, i64 %32
  %34 = load i8, ptr %33, align 1, !tbaa !28
  %35 = add nsw i64 %30, -1
  %36 = getelementptr inbounds i8, ptr %7, i64 %35
  store i8 %34, ptr %36, align 1, !tbaa !28
  %37 = udiv i64 %31, %13
  %38 = icmp ult i64 %31, %13
  br i1 %38, label %39, label %29, !llvm.loop !53

39:                                               ; preds = %29, %18, %14
  %40 = phi i64 [ 24, %14 ], [ %25, %18 ], [ %35, %29 ]
  %41 = icmp eq i64 %1, 0
  %42 = icmp ne i32 %5, 0
  %43 = and i1 %41, %42
  br i1 %43, label %44, label %47

44:                                               ; preds = %39
  %45 = add nsw i64 %40, -1
  %46 = getelementptr inbounds i8, ptr %7, i64 %45
  store i8 48, ptr %46, align 1, !tbaa !28
  br label %47

47:                                               ; preds = %44, %39
  %48 = phi i64 [ %45, %44 ], [ %40, %39 ]
  %49 = getelementptr inbounds i8, ptr %7, i64 %48
  %50 = and i32 %3, 8
  %51 = icmp ne i32 %50, 0
  %52 = icmp eq i32 %2, 8
  %53 = and i1 %52, %51
  br i1 %53, label %54, label %65

54:                                               ; preds = %47
  %55 = sub nsw i64 24, %48
  %56 = sext i32 %5 to i64
  %57 = icmp slt i64 %55, %56
  br i1 %57, label %65, label %58

58:                                               ; preds = %54
  %59 = icmp eq i64 %48, 24
  br i1 %59, label %63, label %60

60:                                               ; preds = %58
  %61 = load i8, ptr %49, align 1, !tbaa !28
  %62 = icmp eq i8 %61, 48
  br i1 %62, label %65, label %63

63:                                               ; preds = %60, %58
  %64 = getelementptr inbounds i8, ptr %49, i64 -1
  store i8 48, ptr %64, align 1, !tbaa !28
  br label %65

65:                                               ; preds = %63, %60, %54, %47
  %66 = phi ptr [ %64, %63 ], [ %49, %60 ], [ %49, %54 ], [ %49, %47 ]
  %67 = getelementptr inbounds i8, ptr %7, i64 24
  %68 = icmp eq i32 %2, 16
  %69 = icmp ne i64 %1, 0
  %70 = and i1 %69, %68
  %71 = and i1 %70, %51
  %72 = select i1 %9, ptr @.str.6.24, ptr @.str.5.25
  %73 = select i1 %71, ptr %72, ptr @.str.13
  %74 = ptrtoint ptr %67 to i64
  %75 = ptrtoint ptr %66 to i64
  %76 = sub i64 %74, %75
  %77 = trunc i64 %76 to i32
  %78 = call fastcc i32 @number(ptr noundef %0, ptr noundef nonnull %73, ptr noundef nonnull %66, i32 noundef %77, i32 noundef %3, i32 noundef %4, i32 noundef %5) #20
  call void @llvm.lifetime.end.p0(i64 24, ptr nonnull %7) #14
  ret i32 %78
}

; Function Attrs: nounwind optsize uwtable
define internal noundef i32 @__print_text(ptr nocapture noundef %0, ptr nocapture noundef readonly %1, i64 noundef %2) local_unnamed_addr #1 {
  %4 = load i8, ptr %0, align 8, !tbaa !54, !alias.scope !56, !noalias !59
  %5 = icmp eq i8 %4, 0
  %6 = icmp eq i64 %2, 0
  %7 = or i1 %6, %5
  br i1 %7, label %16, label %8

8:                                                ; preds = %8, %3
  %9 = phi i64 [ %14, %8 ], [ 0, %3 ]
  %10 = getelementptr inbounds i8, ptr %1, i64 %9
  %11 = load i8, ptr %10, align 1, !tbaa !28, !alias.scope !59, !noalias !56
  %12 = zext i8 %11 to i32
  %13 = tail call i32 @fputc(i32 noundef %12, ptr noundef nonnull %0) #20, !noalias !59
  %14 = add nuw i64 %9, 1
  %15 = icmp eq i64 %14, %2
  br i1 %15, label %16, label %8, !llvm.loop !61

16:                                               ; preds = %8, %3
  %17 = trunc i64 %2 to i32
  ret i32 %17
}

; Function Attrs: nounwind optsize uwtable
define internal i32 @__print_signed(ptr nocapture noundef %0, i64 noundef %1, i32 noundef %2, i32 noundef %3, i32 noundef %4) local_unnamed_addr #1 {
  %6 = alloca [24 x i8], align 16
  call void @llvm.lifetime.start.p0(i64 24, ptr nonnull %6) #14
  %7 = getelementptr inbounds i8, ptr %6, i64 24
  %8 = icmp slt i64 %1, 0
  %9 = lshr i64 %1, 63
  %10 = icmp ne i64 %9, 0
  %11 = sub i64 0, %1
  %12 = select i1 %10, i64 %11, i64 %1
  %13 = icmp ult i64 %12, 4294967296
  br i1 %13, label %14, label %28

14:                                               ; preds = %5
  %15 = icmp eq i64 %1, 0
  br i1 %15, label %37, label %16

16:                                               ; preds = %14
  %17 = trunc nuw i64 %12 to i32
  br label %18

18:                                               ; preds = %18, %16
  %19 = phi i32 [ %26, %18 ], [ %17, %16 ]
  %20 = phi ptr [ %25, %18 ], [ %7, %16 ]
  %21 = urem i32 %19, 10
  %22 = zext nneg i32 %21 to i64
  %23 = getelementptr inbounds i8, ptr @.str.9.17, i64 %22
  %24 = load i8, ptr %23, align 1, !tbaa !28
  %25 = getelementptr inbounds i8, ptr %20, i64 -1
  store i8 %24, ptr %25, align 1, !tbaa !28
  %26 = udiv i32 %19, 10
  %27 = icmp ult i32 %19, 10
  br i1 %27, label %37, label %18, !llvm.loop !52

28:                                               ; preds = %28, %5
  %29 = phi ptr [ %34, %28 ], [ %7, %5 ]
  %30 = phi i64 [ %35, %28 ], [ %12, %5 ]
  %31 = urem i64 %30, 10
  %32 = getelementptr inbounds i8, ptr @.str.9.17, i64 %31
  %33 = load i8, ptr %32, align 1, !tbaa !28
  %34 = getelementptr inbounds i8, ptr %29, i64 -1
  store i8 %33, ptr %34, align 1, !tbaa !28
  %35 = udiv i64 %30, 10
  %36 = icmp ult i64 %30, 10
  br i1 %36, label %37, label %28, !llvm.loop !53

37:                                               ; preds = %28, %18, %14
  %38 = phi ptr [ %7, %14 ], [ %25, %18 ], [ %34, %28 ]
  %39 = icmp eq i64 %1, 0
  %40 = icmp ne i32 %4, 0
  %41 = and i1 %39, %40
  br i1 %41, label %42, label %44

42:                                               ; preds = %37
  %43 = getelementptr inbounds i8, ptr %38, i64 -1
  store i8 48, ptr %43, align 1, !tbaa !28
  br label %45

44:                                               ; preds = %37
  br i1 %8, label %53, label %45

45:                                               ; preds = %44, %42
  %46 = phi ptr [ %43, %42 ], [ %38, %44 ]
  %47 = and i32 %2, 2
  %48 = icmp eq i32 %47, 0
  br i1 %48, label %49, label %53

49:                                               ; preds = %45
  %50 = and i32 %2, 4
  %51 = icmp eq i32 %50, 0
  %52 = select i1 %51, ptr @.str.13, ptr @.str.4.18
  br label %53

53:                                               ; preds = %49, %45, %44
  %54 = phi ptr [ %38, %44 ], [ %46, %49 ], [ %46, %45 ]
  %55 = phi ptr [ @.str.2.19, %44 ], [ %52, %49 ], [ @.str.3.20, %45 ]
  %56 = ptrtoint ptr %7 to i64
  %57 = ptrtoint ptr %54 to i64
  %58 = sub i64 %56, %57
  %59 = trunc i64 %58 to i32
  %60 = call fastcc i32 @number(ptr noundef %0, ptr noundef nonnull %55, ptr noundef nonnull %54, i32 noundef %59, i32 noundef %2, i32 noundef %3, i32 noundef %4) #20
  call void @llvm.lifetime.end.p0(i64 24, ptr nonnull %6) #14
  ret i32 %60
}

; Function Attrs: mustprogress nofree norecurse nosync nounwind optsize willreturn memory(none) uwtable
define internal range(i32 0, 2) i32 @isprint(i32 noundef %0) local_unnamed_addr #9 {
  %2 = add i32 %0, -32
  %3 = icmp ult i32 %2, 95
  %4 = zext i1 %3 to i32
  ret i32 %4
}

; Function Attrs: nounwind optsize uwtable
define internal i32 @__print_character(ptr nocapture noundef %0, i32 noundef %1, i32 noundef %2, i32 noundef %3) local_unnamed_addr #1 {
  %5 = alloca i8, align 1
  call void @llvm.lifetime.start.p0(i64 1, ptr nonnull %5) #14
  %6 = trunc i32 %1 to i8
  store i8 %6, ptr %5, align 1, !tbaa !28
  %7 = call fastcc i32 @padded(ptr noundef %0, ptr noundef nonnull %5, i32 noundef 1, i32 noundef %2, i32 noundef %3) #20
  call void @llvm.lifetime.end.p0(i64 1, ptr nonnull %5) #14
  ret i32 %7
}

; Function Attrs: nounwind optsize uwtable
define internal i32 @__print_string(ptr nocapture noundef %0, ptr noundef %1, i32 noundef %2, i32 noundef %3, i32 noundef %4) local_unnamed_addr #1 {
  %6 = icmp eq ptr %1, null
  %7 = icmp ult i32 %4, 6
  %8 = select i1 %7, ptr @.str.13, ptr @.str.1.14
  %9 = select i1 %6, ptr %8, ptr %1
  %10 = icmp slt i32 %4, 0
  br i1 %10, label %11, label %20

11:                                               ; preds = %11, %5
  %12 = phi ptr [ %15, %11 ], [ %9, %5 ]
  %13 = load i8, ptr %12, align 1, !tbaa !28
  %14 = icmp eq i8 %13, 0
  %15 = getelementptr inbounds i8, ptr %12, i64 1
  br i1 %14, label %16, label %11, !llvm.loop !62

16:                                               ; preds = %11
  %17 = ptrtoint ptr %12 to i64
  %18 = ptrtoint ptr %9 to i64
  %19 = sub i64 %17, %18
  br label %31

20:                                               ; preds = %5
  %21 = zext nneg i32 %4 to i64
  %22 = icmp eq i32 %4, 0
  br i1 %22, label %31, label %23

23:                                               ; preds = %28, %20
  %24 = phi i64 [ %29, %28 ], [ 0, %20 ]
  %25 = getelementptr inbounds i8, ptr %9, i64 %24
  %26 = load i8, ptr %25, align 1, !tbaa !28
  %27 = icmp eq i8 %26, 0
  br i1 %27, label %31, label %28

28:                                               ; preds = %23
  %29 = add nuw nsw i64 %24, 1
  %30 = icmp eq i64 %29, %21
  br i1 %30, label %31, label %23, !llvm.loop !63

31:                                               ; preds = %28, %23, %20, %16
  %32 = phi i64 [ %19, %16 ], [ 0, %20 ], [ %24, %23 ], [ %21, %28 ]
  %33 = trunc i64 %32 to i32
  %34 = tail call fastcc i32 @padded(ptr noundef %0, ptr noundef nonnull %9, i32 noundef %33, i32 noundef %2, i32 noundef %3) #20
  ret i32 %34
}

; Function Attrs: nofree norecurse nosync nounwind optsize memory(read, inaccessiblemem: none) uwtable
define internal range(i32 -1, 2) i32 @bcmp(ptr nocapture noundef readonly %0, ptr nocapture noundef readonly %1, i64 noundef %2) local_unnamed_addr #10 {
  %4 = icmp eq i64 %2, 0
  br i1 %4, label %20, label %5

5:                                                ; preds = %15, %3
  %6 = phi ptr [ %18, %15 ], [ %1, %3 ]
  %7 = phi ptr [ %17, %15 ], [ %0, %3 ]
  %8 = phi i64 [ %16, %15 ], [ %2, %3 ]
  %9 = load i8, ptr %7, align 1, !tbaa !28
  %10 = load i8, ptr %6, align 1, !tbaa !28
  %11 = icmp eq i8 %9, %10
  br i1 %11, label %15, label %12

12:                                               ; preds = %5
  %13 = icmp ult i8 %9, %10
  %14 = select i1 %13, i32 -1, i32 1
  br label %20

15:                                               ; preds = %5
  %16 = add i64 %8, -1
  %17 = getelementptr inbounds i8, ptr %7, i64 1
  %18 = getelementptr inbounds i8, ptr %6, i64 1
  %19 = icmp eq i64 %16, 0
  br i1 %19, label %20, label %5, !llvm.loop !64

20:                                               ; preds = %15, %12, %3
  %21 = phi i32 [ %14, %12 ], [ 0, %3 ], [ 0, %15 ]
  ret i32 %21
}

; Function Attrs: noinline nounwind optsize uwtable
define internal void @__sized_free(ptr noundef %0) local_unnamed_addr #4 {
  %2 = icmp eq ptr %0, null
  br i1 %2, label %5, label %3

3:                                                ; preds = %1
  %4 = getelementptr inbounds i8, ptr %0, i64 -16
  tail call void @free(ptr noundef nonnull %4) #21
  br label %5

5:                                                ; preds = %3, %1
  ret void
}

; Function Attrs: mustprogress nounwind willreturn allockind("free") memory(argmem: readwrite, inaccessiblemem: readwrite)
declare dso_local void @free(ptr allocptr nocapture noundef) local_unnamed_addr #11

; Function Attrs: nounwind optsize uwtable
define internal fastcc i32 @padded(ptr nocapture noundef %0, ptr nocapture noundef readonly %1, i32 noundef %2, i32 noundef %3, i32 noundef %4) unnamed_addr #1 {
  %6 = icmp slt i32 %4, 0
  %7 = lshr i32 %4, 31
  %8 = icmp ne i32 %7, 0
  %9 = sub i32 0, %4
  %10 = select i1 %8, i32 %9, i32 %4
  %11 = sub nsw i32 %10, %2
  %12 = and i32 %3, 1
  %13 = icmp ne i32 %12, 0
  %14 = or i1 %6, %13
  br i1 %14, label %24, label %15

15:                                               ; preds = %5
  %16 = icmp sgt i32 %11, 0
  br i1 %16, label %17, label %22

17:                                               ; preds = %17, %15
  %18 = phi i32 [ %20, %17 ], [ 0, %15 ]
  %19 = tail call i32 @fputc(i32 noundef 32, ptr noundef %0) #20
  %20 = add nuw nsw i32 %18, 1
  %21 = icmp eq i32 %20, %11
  br i1 %21, label %22, label %17, !llvm.loop !65

22:                                               ; preds = %17, %15
  %23 = tail call noundef i32 @llvm.smax.i32(i32 %11, i32 0)
  br label %24

24:                                               ; preds = %22, %5
  %25 = phi i32 [ %23, %22 ], [ 0, %5 ]
  %26 = sext i32 %2 to i64
  %27 = load i8, ptr %0, align 8, !tbaa !54, !alias.scope !66, !noalias !69
  %28 = icmp eq i8 %27, 0
  %29 = icmp eq i32 %2, 0
  %30 = or i1 %29, %28
  br i1 %30, label %39, label %31

31:                                               ; preds = %31, %24
  %32 = phi i64 [ %37, %31 ], [ 0, %24 ]
  %33 = getelementptr inbounds i8, ptr %1, i64 %32
  %34 = load i8, ptr %33, align 1, !tbaa !28, !alias.scope !69, !noalias !66
  %35 = zext i8 %34 to i32
  %36 = tail call i32 @fputc(i32 noundef %35, ptr noundef nonnull %0) #20, !noalias !69
  %37 = add nuw i64 %32, 1
  %38 = icmp eq i64 %37, %26
  br i1 %38, label %39, label %31, !llvm.loop !61

39:                                               ; preds = %31, %24
  br i1 %14, label %40, label %49

40:                                               ; preds = %39
  %41 = icmp sgt i32 %11, 0
  br i1 %41, label %42, label %47

42:                                               ; preds = %42, %40
  %43 = phi i32 [ %45, %42 ], [ 0, %40 ]
  %44 = tail call i32 @fputc(i32 noundef 32, ptr noundef nonnull %0) #20
  %45 = add nuw nsw i32 %43, 1
  %46 = icmp eq i32 %45, %11
  br i1 %46, label %47, label %42, !llvm.loop !65

47:                                               ; preds = %42, %40
  %48 = tail call noundef i32 @llvm.smax.i32(i32 %11, i32 0)
  br label %49

49:                                               ; preds = %47, %39
  %50 = phi i32 [ %48, %47 ], [ 0, %39 ]
  %51 = add nsw i32 %25, %2
  %52 = add nsw i32 %51, %50
  ret i32 %52
}

; Function Attrs: nounwind optsize uwtable
define internal range(i32 -1, 256) i32 @fputc(i32 noundef %0, ptr nocapture noundef %1) local_unnamed_addr #1 {
  %3 = load i8, ptr %1, align 8, !tbaa !54
  switch i8 %3, label %17 [
    i8 1, label %4
    i8 3, label %6
    i8 0, label %19
  ]

4:                                                ; preds = %2
  %5 = tail call i32 @putchar(i32 noundef %0) #21
  br label %17

6:                                                ; preds = %2
  %7 = getelementptr inbounds i8, ptr %1, i64 16
  %8 = load i64, ptr %7, align 8, !tbaa !71
  %9 = icmp eq i64 %8, 0
  br i1 %9, label %17, label %10

10:                                               ; preds = %6
  %11 = trunc i32 %0 to i8
  %12 = getelementptr inbounds i8, ptr %1, i64 8
  %13 = load ptr, ptr %12, align 8, !tbaa !72
  %14 = getelementptr inbounds i8, ptr %13, i64 1
  store ptr %14, ptr %12, align 8, !tbaa !72
  store i8 %11, ptr %13, align 1, !tbaa !28
  %15 = load i64, ptr %7, align 8, !tbaa !71
  %16 = add i64 %15, -1
  store i64 %16, ptr %7, align 8, !tbaa !71
  br label %17

17:                                               ; preds = %10, %6, %4, %2
  %18 = and i32 %0, 255
  br label %19

19:                                               ; preds = %17, %2
  %20 = phi i32 [ %18, %17 ], [ -1, %2 ]
  ret i32 %20
}

; Function Attrs: nocallback nofree nosync nounwind speculatable willreturn memory(none)
declare i32 @llvm.smax.i32(i32, i32) #6

; Function Attrs: optsize
declare dso_local i32 @putchar(i32 noundef) local_unnamed_addr #12

; Function Attrs: nounwind optsize uwtable
define internal fastcc i32 @number(ptr nocapture noundef %0, ptr noundef %1, ptr nocapture noundef readonly %2, i32 noundef %3, i32 noundef %4, i32 noundef %5, i32 noundef %6) unnamed_addr #1 {
  br label %8

8:                                                ; preds = %8, %7
  %9 = phi ptr [ %1, %7 ], [ %12, %8 ]
  %10 = load i8, ptr %9, align 1, !tbaa !28
  %11 = icmp eq i8 %10, 0
  %12 = getelementptr inbounds i8, ptr %9, i64 1
  br i1 %11, label %13, label %8, !llvm.loop !62

13:                                               ; preds = %8
  %14 = ptrtoint ptr %9 to i64
  %15 = ptrtoint ptr %1 to i64
  %16 = sub i64 %14, %15
  %17 = trunc i64 %16 to i32
  %18 = sub nsw i32 %6, %3
  %19 = lshr i32 %5, 31
  %20 = icmp ne i32 %19, 0
  %21 = sub i32 0, %5
  %22 = select i1 %20, i32 %21, i32 %5
  %23 = tail call i32 @llvm.smax.i32(i32 %18, i32 0)
  %24 = icmp slt i32 %6, 0
  %25 = and i32 %4, 16
  %26 = icmp ne i32 %25, 0
  %27 = and i1 %26, %24
  %28 = and i32 %4, 1
  %29 = or i32 %19, %28
  %30 = icmp eq i32 %29, 0
  %31 = and i1 %27, %30
  %32 = add i32 %17, %3
  %33 = icmp sgt i32 %22, %32
  %34 = select i1 %31, i1 %33, i1 false
  %35 = sub i32 %22, %32
  %36 = select i1 %34, i32 %35, i32 %23
  %37 = add i32 %32, %36
  %38 = sub i32 %22, %37
  br i1 %30, label %39, label %48

39:                                               ; preds = %13
  %40 = icmp sgt i32 %38, 0
  br i1 %40, label %41, label %46

41:                                               ; preds = %41, %39
  %42 = phi i32 [ %44, %41 ], [ 0, %39 ]
  %43 = tail call i32 @fputc(i32 noundef 32, ptr noundef %0) #20
  %44 = add nuw nsw i32 %42, 1
  %45 = icmp eq i32 %44, %38
  br i1 %45, label %46, label %41, !llvm.loop !65

46:                                               ; preds = %41, %39
  %47 = tail call noundef i32 @llvm.smax.i32(i32 %38, i32 0)
  br label %48

48:                                               ; preds = %46, %13
  %49 = phi i32 [ 0, %13 ], [ %47, %46 ]
  %50 = shl i64 %16, 32
  %51 = ashr exact i64 %50, 32
  %52 = load i8, ptr %0, align 8, !tbaa !54, !alias.scope !73, !noalias !76
  %53 = icmp eq i8 %52, 0
  %54 = icmp eq i64 %50, 0
  %55 = or i1 %54, %53
  br i1 %55, label %64, label %56

56:                                               ; preds = %56, %48
  %57 = phi i64 [ %62, %56 ], [ 0, %48 ]
  %58 = getelementptr inbounds i8, ptr %1, i64 %57
  %59 = load i8, ptr %58, align 1, !tbaa !28, !alias.scope !76, !noalias !73
  %60 = zext i8 %59 to i32
  %61 = tail call i32 @fputc(i32 noundef %60, ptr noundef nonnull %0) #20, !noalias !76
  %62 = add nuw i64 %57, 1
  %63 = icmp eq i64 %62, %51
  br i1 %63, label %64, label %56, !llvm.loop !61

64:                                               ; preds = %56, %48
  %65 = icmp sgt i32 %36, 0
  br i1 %65, label %66, label %71

66:                                               ; preds = %66, %64
  %67 = phi i32 [ %69, %66 ], [ 0, %64 ]
  %68 = tail call i32 @fputc(i32 noundef 48, ptr noundef nonnull %0) #20
  %69 = add nuw nsw i32 %67, 1
  %70 = icmp eq i32 %69, %36
  br i1 %70, label %71, label %66, !llvm.loop !65

71:                                               ; preds = %66, %64
  %72 = tail call noundef i32 @llvm.smax.i32(i32 %36, i32 0)
  %73 = sext i32 %3 to i64
  %74 = load i8, ptr %0, align 8, !tbaa !54, !alias.scope !78, !noalias !81
  %75 = icmp eq i8 %74, 0
  %76 = icmp eq i32 %3, 0
  %77 = or i1 %76, %75
  br i1 %77, label %86, label %78

78:                                               ; preds = %78, %71
  %79 = phi i64 [ %84, %78 ], [ 0, %71 ]
  %80 = getelementptr inbounds i8, ptr %2, i64 %79
  %81 = load i8, ptr %80, align 1, !tbaa !28, !alias.scope !81, !noalias !78
  %82 = zext i8 %81 to i32
  %83 = tail call i32 @fputc(i32 noundef %82, ptr noundef nonnull %0) #20, !noalias !81
  %84 = add nuw i64 %79, 1
  %85 = icmp eq i64 %84, %73
  br i1 %85, label %86, label %78, !llvm.loop !61

86:                                               ; preds = %78, %71
  %87 = add i32 %32, %72
  %88 = add i32 %87, %49
  br i1 %30, label %99, label %89

89:                                               ; preds = %86
  %90 = icmp sgt i32 %38, 0
  br i1 %90, label %91, label %96

91:                                               ; preds = %91, %89
  %92 = phi i32 [ %94, %91 ], [ 0, %89 ]
  %93 = tail call i32 @fputc(i32 noundef 32, ptr noundef nonnull %0) #20
  %94 = add nuw nsw i32 %92, 1
  %95 = icmp eq i32 %94, %38
  br i1 %95, label %96, label %91, !llvm.loop !65

96:                                               ; preds = %91, %89
  %97 = tail call noundef i32 @llvm.smax.i32(i32 %38, i32 0)
  %98 = add nsw i32 %88, %97
  br label %99

99:                                               ; preds = %96, %86
  %100 = phi i32 [ %98, %96 ], [ %88, %86 ]
  ret i32 %100
}

; Function Attrs: nocallback nofree nosync nounwind speculatable willreturn memory(none)
declare i64 @llvm.umin.i64(i64, i64) #6

; Function Attrs: nounwind optsize uwtable
define internal fastcc void @sink(ptr noundef %0, i64 noundef %1, i64 noundef %2, i64 noundef %3, ptr nocapture noundef readonly %4) unnamed_addr #1 {
  %6 = shl i64 %1, 1
  %7 = or disjoint i64 %6, 1
  %8 = icmp ult i64 %7, %2
  br i1 %8, label %9, label %48

9:                                                ; preds = %5
  %10 = icmp eq i64 %3, 0
  br label %11

11:                                               ; preds = %44, %9
  %12 = phi i64 [ %7, %9 ], [ %46, %44 ]
  %13 = phi i64 [ %6, %9 ], [ %45, %44 ]
  %14 = phi i64 [ %1, %9 ], [ %26, %44 ]
  %15 = add nuw i64 %13, 2
  %16 = icmp ult i64 %15, %2
  br i1 %16, label %17, label %25

17:                                               ; preds = %11
  %18 = mul i64 %12, %3
  %19 = getelementptr inbounds i8, ptr %0, i64 %18
  %20 = mul i64 %15, %3
  %21 = getelementptr inbounds i8, ptr %0, i64 %20
  %22 = tail call i32 %4(ptr noundef %19, ptr noundef %21) #21
  %23 = icmp slt i32 %22, 0
  %24 = select i1 %23, i64 %15, i64 %12
  br label %25

25:                                               ; preds = %17, %11
  %26 = phi i64 [ %12, %11 ], [ %24, %17 ]
  %27 = mul i64 %14, %3
  %28 = getelementptr inbounds i8, ptr %0, i64 %27
  %29 = mul i64 %26, %3
  %30 = getelementptr inbounds i8, ptr %0, i64 %29
  %31 = tail call i32 %4(ptr noundef %28, ptr noundef %30) #21
  %32 = icmp sgt i32 %31, -1
  br i1 %32, label %48, label %33

33:                                               ; preds = %25
  br i1 %10, label %44, label %34

34:                                               ; preds = %34, %33
  %35 = phi ptr [ %41, %34 ], [ %28, %33 ]
  %36 = phi i64 [ %38, %34 ], [ %3, %33 ]
  %37 = phi ptr [ %42, %34 ], [ %30, %33 ]
  %38 = add i64 %36, -1
  %39 = load i8, ptr %35, align 1, !tbaa !28
  %40 = load i8, ptr %37, align 1, !tbaa !28
  %41 = getelementptr inbounds i8, ptr %35, i64 1
  store i8 %40, ptr %35, align 1, !tbaa !28
  %42 = getelementptr inbounds i8, ptr %37, i64 1
  store i8 %39, ptr %37, align 1, !tbaa !28
  %43 = icmp eq i64 %38, 0
  br i1 %43, label %44, label %34, !llvm.loop !44

44:                                               ; preds = %34, %33
  %45 = shl i64 %26, 1
  %46 = or disjoint i64 %45, 1
  %47 = icmp ult i64 %46, %2
  br i1 %47, label %11, label %48, !llvm.loop !83

48:                                               ; preds = %44, %25, %5
  ret void
}

; Function Attrs: nounwind optsize uwtable
define internal fastcc void @merge_sort(ptr noundef %0, i64 noundef %1, i64 noundef %2, ptr noundef %3, ptr noundef %4) unnamed_addr #1 {
  %6 = icmp ult i64 %1, 2
  br i1 %6, label %85, label %7

7:                                                ; preds = %5
  %8 = lshr i64 %1, 1
  tail call fastcc void @merge_sort(ptr noundef %0, i64 noundef %8, i64 noundef %2, ptr noundef %3, ptr noundef %4) #20
  %9 = mul i64 %8, %2
  %10 = getelementptr inbounds i8, ptr %0, i64 %9
  %11 = sub i64 %1, %8
  tail call fastcc void @merge_sort(ptr noundef %10, i64 noundef %11, i64 noundef %2, ptr noundef %3, ptr noundef %4) #20
  %12 = icmp eq i64 %9, 0
  br i1 %12, label %22, label %13

13:                                               ; preds = %13, %7
  %14 = phi ptr [ %18, %13 ], [ %0, %7 ]
  %15 = phi ptr [ %20, %13 ], [ %4, %7 ]
  %16 = phi i64 [ %17, %13 ], [ %9, %7 ]
  %17 = add i64 %16, -1
  %18 = getelementptr inbounds i8, ptr %14, i64 1
  %19 = load i8, ptr %14, align 1, !tbaa !28, !alias.scope !84, !noalias !87
  %20 = getelementptr inbounds i8, ptr %15, i64 1
  store i8 %19, ptr %15, align 1, !tbaa !28, !alias.scope !87, !noalias !84
  %21 = icmp eq i64 %17, 0
  br i1 %21, label %22, label %13, !llvm.loop !51

22:                                               ; preds = %13, %7
  %23 = icmp eq i64 %11, 0
  br i1 %23, label %71, label %24

24:                                               ; preds = %22
  %25 = icmp eq i64 %2, 0
  br label %26

26:                                               ; preds = %60, %24
  %27 = phi ptr [ %0, %24 ], [ %65, %60 ]
  %28 = phi ptr [ %4, %24 ], [ %64, %60 ]
  %29 = phi i64 [ %11, %24 ], [ %63, %60 ]
  %30 = phi ptr [ %10, %24 ], [ %62, %60 ]
  %31 = phi i64 [ %8, %24 ], [ %61, %60 ]
  %32 = tail call i32 %3(ptr noundef %28, ptr noundef %30) #21
  %33 = icmp slt i32 %32, 1
  br i1 %33, label %34, label %47

34:                                               ; preds = %26
  br i1 %25, label %44, label %35

35:                                               ; preds = %35, %34
  %36 = phi ptr [ %40, %35 ], [ %28, %34 ]
  %37 = phi ptr [ %42, %35 ], [ %27, %34 ]
  %38 = phi i64 [ %39, %35 ], [ %2, %34 ]
  %39 = add i64 %38, -1
  %40 = getelementptr inbounds i8, ptr %36, i64 1
  %41 = load i8, ptr %36, align 1, !tbaa !28, !alias.scope !89, !noalias !92
  %42 = getelementptr inbounds i8, ptr %37, i64 1
  store i8 %41, ptr %37, align 1, !tbaa !28, !alias.scope !92, !noalias !89
  %43 = icmp eq i64 %39, 0
  br i1 %43, label %44, label %35, !llvm.loop !51

44:                                               ; preds = %35, %34
  %45 = getelementptr inbounds i8, ptr %28, i64 %2
  %46 = add nsw i64 %31, -1
  br label %60

47:                                               ; preds = %26
  br i1 %25, label %57, label %48

48:                                               ; preds = %48, %47
  %49 = phi ptr [ %53, %48 ], [ %30, %47 ]
  %50 = phi ptr [ %55, %48 ], [ %27, %47 ]
  %51 = phi i64 [ %52, %48 ], [ %2, %47 ]
  %52 = add i64 %51, -1
  %53 = getelementptr inbounds i8, ptr %49, i64 1
  %54 = load i8, ptr %49, align 1, !tbaa !28, !alias.scope !94, !noalias !97
  %55 = getelementptr inbounds i8, ptr %50, i64 1
  store i8 %54, ptr %50, align 1, !tbaa !28, !alias.scope !97, !noalias !94
  %56 = icmp eq i64 %52, 0
  br i1 %56, label %57, label %48, !llvm.loop !51

57:                                               ; preds = %48, %47
  %58 = getelementptr inbounds i8, ptr %30, i64 %2
  %59 = add i64 %29, -1
  br label %60

60:                                               ; preds = %57, %44
  %61 = phi i64 [ %46, %44 ], [ %31, %57 ]
  %62 = phi ptr [ %30, %44 ], [ %58, %57 ]
  %63 = phi i64 [ %29, %44 ], [ %59, %57 ]
  %64 = phi ptr [ %45, %44 ], [ %28, %57 ]
  %65 = getelementptr inbounds i8, ptr %27, i64 %2
  %66 = icmp ne i64 %61, 0
  %67 = icmp ne i64 %63, 0
  %68 = select i1 %66, i1 %67, i1 false
  br i1 %68, label %26, label %69, !llvm.loop !99

69:                                               ; preds = %60
  %70 = mul i64 %61, %2
  br label %71

71:                                               ; preds = %69, %22
  %72 = phi i64 [ %70, %69 ], [ %9, %22 ]
  %73 = phi ptr [ %64, %69 ], [ %4, %22 ]
  %74 = phi ptr [ %65, %69 ], [ %0, %22 ]
  %75 = icmp eq i64 %72, 0
  br i1 %75, label %85, label %76

76:                                               ; preds = %76, %71
  %77 = phi ptr [ %81, %76 ], [ %73, %71 ]
  %78 = phi ptr [ %83, %76 ], [ %74, %71 ]
  %79 = phi i64 [ %80, %76 ], [ %72, %71 ]
  %80 = add i64 %79, -1
  %81 = getelementptr inbounds i8, ptr %77, i64 1
  %82 = load i8, ptr %77, align 1, !tbaa !28, !alias.scope !100, !noalias !103
  %83 = getelementptr inbounds i8, ptr %78, i64 1
  store i8 %82, ptr %78, align 1, !tbaa !28, !alias.scope !103, !noalias !100
  %84 = icmp eq i64 %80, 0
  br i1 %84, label %85, label %76, !llvm.loop !51

85:                                               ; preds = %76, %71, %5
  ret void
}

; Function Attrs: nocallback nofree nosync nounwind speculatable willreturn memory(none)
declare i32 @llvm.umax.i32(i32, i32) #6

; Function Attrs: mustprogress nofree nounwind willreturn allockind("alloc,uninitialized") allocsize(0) memory(inaccessiblemem: readwrite)
declare dso_local noalias noundef ptr @malloc(i64 noundef) local_unnamed_addr #13

; Function Attrs: optsize
declare dso_local ptr @calloc(i64 noundef, i64 noundef) local_unnamed_addr #12

; Function Attrs: nounwind optsize uwtable
define internal i32 @fgetc(ptr nocapture noundef %0) local_unnamed_addr #1 {
  %2 = load i8, ptr %0, align 8, !tbaa !54
  %3 = icmp eq i8 %2, 0
  br i1 %3, label %4, label %20

4:                                                ; preds = %1
  %5 = getelementptr inbounds i8, ptr %0, i64 2
  %6 = load i8, ptr %5, align 2, !tbaa !105
  %7 = icmp eq i8 %6, 0
  br i1 %7, label %12, label %8

8:                                                ; preds = %4
  store i8 0, ptr %5, align 2, !tbaa !105
  %9 = getelementptr inbounds i8, ptr %0, i64 3
  %10 = load i8, ptr %9, align 1, !tbaa !106
  %11 = zext i8 %10 to i32
  br label %20

12:                                               ; preds = %4
  %13 = getelementptr inbounds i8, ptr %0, i64 1
  %14 = load i8, ptr %13, align 1, !tbaa !107
  %15 = icmp eq i8 %14, 0
  br i1 %15, label %16, label %20

16:                                               ; preds = %12
  %17 = tail call i32 @getchar() #21
  %18 = icmp eq i32 %17, -1
  br i1 %18, label %19, label %20

19:                                               ; preds = %16
  store i8 1, ptr %13, align 1, !tbaa !107
  br label %20

20:                                               ; preds = %19, %16, %12, %8, %1
  %21 = phi i32 [ %11, %8 ], [ -1, %1 ], [ -1, %12 ], [ -1, %19 ], [ %17, %16 ]
  ret i32 %21
}

; Function Attrs: optsize
declare dso_local i32 @getchar() local_unnamed_addr #12

attributes #0 = { nounwind uwtable "min-legal-vector-width"="0" "no-trapping-math"="true" "stack-protector-buffer-size"="8" "target-cpu"="x86-64" "target-features"="+cmov,+cx8,+fxsr,+mmx,+sse,+sse2,+x87" "tune-cpu"="generic" }
attributes #1 = { nounwind optsize uwtable "min-legal-vector-width"="0" "no-builtins" "no-jump-tables"="true" "no-trapping-math"="true" "stack-protector-buffer-size"="8" "target-cpu"="x86-64" "target-features"="+cmov,+cx8,+fxsr,+mmx,+sse,+sse2,+x87" "tune-cpu"="generic" }
attributes #2 = { nocallback nofree nosync nounwind willreturn memory(argmem: readwrite) }
attributes #3 = { nocallback nofree nounwind willreturn memory(argmem: write) }
attributes #4 = { noinline nounwind optsize uwtable "min-legal-vector-width"="0" "no-builtins" "no-jump-tables"="true" "no-trapping-math"="true" "stack-protector-buffer-size"="8" "target-cpu"="x86-64" "target-features"="+cmov,+cx8,+fxsr,+mmx,+sse,+sse2,+x87" "tune-cpu"="generic" }
attributes #5 = { noreturn nounwind "no-trapping-math"="true" "stack-protector-buffer-size"="8" "target-cpu"="x86-64" "target-features"="+cmov,+cx8,+fxsr,+mmx,+sse,+sse2,+x87" "tune-cpu"="generic" }
attributes #6 = { nocallback nofree nosync nounwind speculatable willreturn memory(none) }
attributes #7 = { nofree nounwind "no-trapping-math"="true" "stack-protector-buffer-size"="8" "target-cpu"="x86-64" "target-features"="+cmov,+cx8,+fxsr,+mmx,+sse,+sse2,+x87" "tune-cpu"="generic" }
attributes #8 = { mustprogress nofree norecurse nosync nounwind willreturn memory(read, inaccessiblemem: none) uwtable "min-legal-vector-width"="0" "no-trapping-math"="true" "stack-protector-buffer-size"="8" "target-cpu"="x86-64" "target-features"="+cmov,+cx8,+fxsr,+mmx,+sse,+sse2,+x87" "tune-cpu"="generic" }
attributes #9 = { mustprogress nofree norecurse nosync nounwind optsize willreturn memory(none) uwtable "min-legal-vector-width"="0" "no-builtins" "no-jump-tables"="true" "no-trapping-math"="true" "stack-protector-buffer-size"="8" "target-cpu"="x86-64" "target-features"="+cmov,+cx8,+fxsr,+mmx,+sse,+sse2,+x87" "tune-cpu"="generic" }
attributes #10 = { nofree norecurse nosync nounwind optsize memory(read, inaccessiblemem: none) uwtable "min-legal-vector-width"="0" "no-builtins" "no-jump-tables"="true" "no-trapping-math"="true" "stack-protector-buffer-size"="8" "target-cpu"="x86-64" "target-features"="+cmov,+cx8,+fxsr,+mmx,+sse,+sse2,+x87" "tune-cpu"="generic" }
attributes #11 = { mustprogress nounwind willreturn allockind("free") memory(argmem: readwrite, inaccessiblemem: readwrite) "alloc-family"="malloc" "no-trapping-math"="true" "stack-protector-buffer-size"="8" "target-cpu"="x86-64" "target-features"="+cmov,+cx8,+fxsr,+mmx,+sse,+sse2,+x87" "tune-cpu"="generic" }
attributes #12 = { optsize "no-builtins" "no-trapping-math"="true" "stack-protector-buffer-size"="8" "target-cpu"="x86-64" "target-features"="+cmov,+cx8,+fxsr,+mmx,+sse,+sse2,+x87" "tune-cpu"="generic" }
attributes #13 = { mustprogress nofree nounwind willreturn allockind("alloc,uninitialized") allocsize(0) memory(inaccessiblemem: readwrite) "alloc-family"="malloc" "no-trapping-math"="true" "stack-protector-buffer-size"="8" "target-cpu"="x86-64" "target-features"="+cmov,+cx8,+fxsr,+mmx,+sse,+sse2,+x87" "tune-cpu"="generic" }
attributes #14 = { nounwind }
attributes #15 = { allocsize(0,1) }
attributes #16 = { allocsize(0) }
attributes #17 = { noreturn nounwind }
attributes #18 = { allocsize(1) }
attributes #19 = { nounwind willreturn memory(read) }
attributes #20 = { nobuiltin optsize "no-builtins" }
attributes #21 = { nobuiltin nounwind optsize "no-builtins" }

!llvm.ident = !{!0, !0, !0, !0, !0, !0}
!llvm.module.flags = !{!1, !2, !3, !4}

!0 = !{!"Debian clang version 19.1.7 (3~deb12u1)"}
!1 = !{i32 7, !"Dwarf Version", i32 5}
!2 = !{i32 2, !"Debug Info Version", i32 3}
!3 = !{i32 1, !"wchar_size", i32 4}
!4 = !{i32 7, !"uwtable", i32 2}
!5 = !{!6, !9, i64 2048}
!6 = !{!"heap", !7, i64 0, !9, i64 2048}
!7 = !{!"omnipotent char", !8, i64 0}
!8 = !{!"Simple C/C++ TBAA"}
!9 = !{!"int", !7, i64 0}
!10 = !{!9, !9, i64 0}
!11 = !{!12, !9, i64 0}
!12 = !{!"node", !9, i64 0, !13, i64 4, !14, i64 8, !14, i64 16}
!13 = !{!"short", !7, i64 0}
!14 = !{!"any pointer", !7, i64 0}
!15 = !{!12, !13, i64 4}
!16 = !{!14, !14, i64 0}
!17 = distinct !{!17, !18, !19}
!18 = !{!"llvm.loop.mustprogress"}
!19 = !{!"llvm.loop.unroll.disable"}
!20 = distinct !{!20, !18, !19}
!21 = distinct !{!21, !18, !19}
!22 = distinct !{!22, !18, !19}
!23 = !{!12, !14, i64 8}
!24 = !{!12, !14, i64 16}
!25 = distinct !{!25, !18, !19}
!26 = distinct !{!26, !18, !19}
!27 = distinct !{!27, !18, !19}
!28 = !{!7, !7, i64 0}
!29 = distinct !{!29, !18, !19}
!30 = distinct !{!30, !18, !19}
!31 = distinct !{!31, !18, !19}
!32 = distinct !{!32, !18, !19}
!33 = distinct !{!33, !18, !19}
!34 = distinct !{!34, !18, !19}
!35 = distinct !{!35, !18, !19}
!36 = distinct !{!36, !18, !19}
!37 = distinct !{!37, !18, !19}
!38 = distinct !{!38, !18, !19}
!39 = distinct !{!39, !18, !19}
!40 = distinct !{!40, !18}
!41 = !{!42, !42, i64 0}
!42 = !{!"long", !7, i64 0}
!43 = distinct !{!43, !18}
!44 = distinct !{!44, !18}
!45 = distinct !{!45, !18}
!46 = !{!47}
!47 = distinct !{!47, !48, !"memcpy: %from"}
!48 = distinct !{!48, !"memcpy"}
!49 = !{!50}
!50 = distinct !{!50, !48, !"memcpy: %to"}
!51 = distinct !{!51, !18}
!52 = distinct !{!52, !18}
!53 = distinct !{!53, !18}
!54 = !{!55, !7, i64 0}
!55 = !{!"__stream", !7, i64 0, !7, i64 1, !7, i64 2, !7, i64 3, !14, i64 8, !42, i64 16}
!56 = !{!57}
!57 = distinct !{!57, !58, !"fwrite: %stream"}
!58 = distinct !{!58, !"fwrite"}
!59 = !{!60}
!60 = distinct !{!60, !58, !"fwrite: %from"}
!61 = distinct !{!61, !18}
!62 = distinct !{!62, !18}
!63 = distinct !{!63, !18}
!64 = distinct !{!64, !18}
!65 = distinct !{!65, !18}
!66 = !{!67}
!67 = distinct !{!67, !68, !"fwrite: %stream"}
!68 = distinct !{!68, !"fwrite"}
!69 = !{!70}
!70 = distinct !{!70, !68, !"fwrite: %from"}
!71 = !{!55, !42, i64 16}
!72 = !{!55, !14, i64 8}
!73 = !{!74}
!74 = distinct !{!74, !75, !"fwrite: %stream"}
!75 = distinct !{!75, !"fwrite"}
!76 = !{!77}
!77 = distinct !{!77, !75, !"fwrite: %from"}
!78 = !{!79}
!79 = distinct !{!79, !80, !"fwrite: %stream"}
!80 = distinct !{!80, !"fwrite"}
!81 = !{!82}
!82 = distinct !{!82, !80, !"fwrite: %from"}
!83 = distinct !{!83, !18}
!84 = !{!85}
!85 = distinct !{!85, !86, !"memcpy: %from"}
!86 = distinct !{!86, !"memcpy"}
!87 = !{!88}
!88 = distinct !{!88, !86, !"memcpy: %to"}
!89 = !{!90}
!90 = distinct !{!90, !91, !"memcpy: %from"}
!91 = distinct !{!91, !"memcpy"}
!92 = !{!93}
!93 = distinct !{!93, !91, !"memcpy: %to"}
!94 = !{!95}
!95 = distinct !{!95, !96, !"memcpy: %from"}
!96 = distinct !{!96, !"memcpy"}
!97 = !{!98}
!98 = distinct !{!98, !96, !"memcpy: %to"}
!99 = distinct !{!99, !18}
!100 = !{!101}
!101 = distinct !{!101, !102, !"memcpy: %from"}
!102 = distinct !{!102, !"memcpy"}
!103 = !{!104}
!104 = distinct !{!104, !102, !"memcpy: %to"}
!105 = !{!55, !7, i64 2}
!106 = !{!55, !7, i64 3}
!107 = !{!55, !7, i64 1}
