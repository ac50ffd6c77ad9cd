source_filename = "bits.c"
target datalayout = "e-m:e-p:32:32-Fi8-i64:64-v128:64:128-a:0:32-n32-S64"
target triple = "armv7-unknown-linux-gnueabi"

%struct.code = type { [256 x i8], [256 x i32] }
%struct.__stream = type { i8, i8, i8, i8, ptr, i32 }
%struct.heap = type { [256 x ptr], i32 }

@text = internal global [4000 x i8] zeroinitializer, align 1
@main.code = internal global %struct.code zeroinitializer, align 4
@.str = private unnamed_addr constant [16 x i8] c"nothing to code\00", align 1
@lengths = internal unnamed_addr global ptr null, align 4
@.str.1 = private unnamed_addr constant [56 x i8] c"%zu bytes, %d symbols, %zu bits, %zu.%02zu bits a byte\0A\00", align 1
@.str.2 = private unnamed_addr constant [7 x i8] c"begins\00", align 1
@.str.3 = private unnamed_addr constant [6 x i8] c" %02x\00", align 1
@.str.4 = private unnamed_addr constant [2 x i8] c"\0A\00", align 1
@.str.5 = private unnamed_addr constant [10 x i8] c"read back\00", align 1
@.str.6 = private unnamed_addr constant [8 x i8] c"damaged\00", align 1
@.str.7 = private unnamed_addr constant [21 x i8] c"%5u  %-16s %2u bits\0A\00", align 1
@.str.8 = private unnamed_addr constant [6 x i8] c"%c   \00", align 1
@.str.9 = private unnamed_addr constant [5 x i8] c"\\n  \00", align 1
@.str.10 = private unnamed_addr constant [7 x i8] c"x%02X \00", align 1
@.str.13 = private unnamed_addr constant [1 x i8] zeroinitializer, align 1
@.str.1.14 = private unnamed_addr constant [7 x i8] c"(null)\00", align 1
@.str.2.19 = private unnamed_addr constant [2 x i8] c"-\00", align 1
@.str.3.20 = private unnamed_addr constant [2 x i8] c"+\00", align 1
@.str.4.18 = private unnamed_addr constant [2 x i8] c" \00", align 1
@.str.5.25 = private unnamed_addr constant [3 x i8] c"0X\00", align 1
@.str.6.24 = private unnamed_addr constant [3 x i8] c"0x\00", align 1
@.str.8.23 = private unnamed_addr constant [17 x i8] c"0123456789ABCDEF\00", align 1
@.str.9.17 = private unnamed_addr constant [17 x i8] c"0123456789abcdef\00", align 1
@__streams = internal global [3 x %struct.__stream] [%struct.__stream zeroinitializer, %struct.__stream { i8 1, i8 0, i8 0, i8 0, ptr null, i32 0 }, %struct.__stream { i8 2, i8 0, i8 0, i8 0, ptr null, i32 0 }], align 4

; Function Attrs: nounwind
define dso_local i32 @main() local_unnamed_addr #0 {
  %1 = alloca [33 x i8], align 1
  %2 = alloca %struct.heap, align 4
  %3 = alloca [256 x i32], align 4
  %4 = alloca [256 x i32], align 4
  %5 = tail call i32 @fread(ptr noundef nonnull @text, i32 noundef 1, i32 noundef 4000, ptr noundef nonnull @__streams)
  call void @llvm.lifetime.start.p0(i64 1024, ptr nonnull %3) #14
  call void @llvm.memset.p0.i32(ptr noundef nonnull align 4 dereferenceable(1024) %3, i8 0, i32 1024, i1 false)
  %6 = icmp eq i32 %5, 0
  br i1 %6, label %7, label %224

7:                                                ; preds = %224, %0
  call void @llvm.lifetime.start.p0(i64 1028, ptr nonnull %2) #14
  call void @llvm.memset.p0.i32(ptr noundef nonnull align 4 dereferenceable(1028) %2, i8 0, i32 1028, i1 false)
  tail call void @llvm.memset.p0.i32(ptr noundef nonnull align 4 dereferenceable(1280) @main.code, i8 0, i32 1280, i1 false)
  br label %8

8:                                                ; preds = %42, %7
  %9 = phi i32 [ 0, %7 ], [ %43, %42 ]
  %10 = phi i32 [ 0, %7 ], [ %44, %42 ]
  %11 = getelementptr inbounds i32, ptr %3, i32 %10
  %12 = load i32, ptr %11, align 4, !tbaa !5
  %13 = icmp eq i32 %12, 0
  br i1 %13, label %42, label %14

14:                                               ; preds = %8
  %15 = tail call dereferenceable_or_null(16) ptr @__sized_calloc(i32 noundef 1, i32 noundef 16) #15
  %16 = icmp eq ptr %15, null
  br i1 %16, label %234, label %17

17:                                               ; preds = %14
  store i32 %12, ptr %15, align 4, !tbaa !9
  %18 = trunc nuw i32 %10 to i16
  %19 = getelementptr inbounds i8, ptr %15, i32 4
  store i16 %18, ptr %19, align 4, !tbaa !13
  %20 = add nsw i32 %9, 1
  %21 = icmp sgt i32 %9, 0
  br i1 %21, label %22, label %39

22:                                               ; preds = %36, %17
  %23 = phi i32 [ %25, %36 ], [ %9, %17 ]
  %24 = add nsw i32 %23, -1
  %25 = lshr i32 %24, 1
  %26 = getelementptr inbounds [256 x ptr], ptr %2, i32 0, i32 %25
  %27 = load ptr, ptr %26, align 4, !tbaa !14
  %28 = load i32, ptr %27, align 4, !tbaa !9
  %29 = icmp eq i32 %12, %28
  br i1 %29, label %32, label %30

30:                                               ; preds = %22
  %31 = icmp ult i32 %12, %28
  br i1 %31, label %36, label %39

32:                                               ; preds = %22
  %33 = getelementptr inbounds i8, ptr %27, i32 4
  %34 = load i16, ptr %33, align 4, !tbaa !13
  %35 = icmp sgt i16 %34, %18
  br i1 %35, label %36, label %39

36:                                               ; preds = %32, %30
  %37 = getelementptr inbounds [256 x ptr], ptr %2, i32 0, i32 %23
  store ptr %27, ptr %37, align 4, !tbaa !14
  %38 = icmp ult i32 %24, 2
  br i1 %38, label %39, label %22, !llvm.loop !15

39:                                               ; preds = %36, %32, %30, %17
  %40 = phi i32 [ %9, %17 ], [ %23, %30 ], [ %25, %36 ], [ %23, %32 ]
  %41 = getelementptr inbounds [256 x ptr], ptr %2, i32 0, i32 %40
  store ptr %15, ptr %41, align 4, !tbaa !14
  br label %42

42:                                               ; preds = %39, %8
  %43 = phi i32 [ %20, %39 ], [ %9, %8 ]
  %44 = add nuw nsw i32 %10, 1
  %45 = icmp eq i32 %44, 256
  br i1 %45, label %46, label %8, !llvm.loop !17

46:                                               ; preds = %42
  %47 = icmp eq i32 %43, 0
  br i1 %47, label %234, label %48

48:                                               ; preds = %46
  %49 = icmp sgt i32 %43, 1
  br i1 %49, label %50, label %201

50:                                               ; preds = %197, %48
  %51 = phi i32 [ %53, %197 ], [ %43, %48 ]
  %52 = load ptr, ptr %2, align 4, !tbaa !14
  %53 = add nsw i32 %51, -1
  %54 = getelementptr inbounds [256 x ptr], ptr %2, i32 0, i32 %53
  %55 = load ptr, ptr %54, align 4, !tbaa !14
  %56 = icmp eq i32 %51, 2
  br i1 %56, label %57, label %58

57:                                               ; preds = %50
  store ptr %55, ptr %2, align 4, !tbaa !14
  br label %158

58:                                               ; preds = %50
  %59 = load i32, ptr %55, align 4, !tbaa !9
  %60 = getelementptr inbounds i8, ptr %55, i32 4
  br label %61

61:                                               ; preds = %99, %58
  %62 = phi i32 [ 1, %58 ], [ %102, %99 ]
  %63 = phi i32 [ 0, %58 ], [ %101, %99 ]
  %64 = phi i32 [ 0, %58 ], [ %87, %99 ]
  %65 = add nsw i32 %63, 2
  %66 = icmp slt i32 %65, %53
  br i1 %66, label %67, label %86

67:                                               ; preds = %61
  %68 = getelementptr inbounds [256 x ptr], ptr %2, i32 0, i32 %65
  %69 = load ptr, ptr %68, align 4, !tbaa !14
  %70 = getelementptr inbounds [256 x ptr], ptr %2, i32 0, i32 %62
  %71 = load ptr, ptr %70, align 4, !tbaa !14
  %72 = load i32, ptr %69, align 4, !tbaa !9
  %73 = load i32, ptr %71, align 4, !tbaa !9
  %74 = icmp eq i32 %72, %73
  br i1 %74, label %77, label %75

75:                                               ; preds = %67
  %76 = icmp ult i32 %72, %73
  br label %83

77:                                               ; preds = %67
  %78 = getelementptr inbounds i8, ptr %69, i32 4
  %79 = load i16, ptr %78, align 4, !tbaa !13
  %80 = getelementptr inbounds i8, ptr %71, i32 4
  %81 = load i16, ptr %80, align 4, !tbaa !13
  %82 = icmp slt i16 %79, %81
  br label %83

83:                                               ; preds = %77, %75
  %84 = phi i1 [ %76, %75 ], [ %82, %77 ]
  %85 = select i1 %84, i32 %65, i32 %62
  br label %86

86:                                               ; preds = %83, %61
  %87 = phi i32 [ %62, %61 ], [ %85, %83 ]
  %88 = getelementptr inbounds [256 x ptr], ptr %2, i32 0, i32 %87
  %89 = load ptr, ptr %88, align 4, !tbaa !14
  %90 = load i32, ptr %89, align 4, !tbaa !9
  %91 = icmp eq i32 %90, %59
  br i1 %91, label %94, label %92

92:                                               ; preds = %86
  %93 = icmp ult i32 %90, %59
  br i1 %93, label %99, label %104

94:                                               ; preds = %86
  %95 = getelementptr inbounds i8, ptr %89, i32 4
  %96 = load i16, ptr %95, align 4, !tbaa !13
  %97 = load i16, ptr %60, align 4, !tbaa !13
  %98 = icmp slt i16 %96, %97
  br i1 %98, label %99, label %104

99:                                               ; preds = %94, %92
  %100 = getelementptr inbounds [256 x ptr], ptr %2, i32 0, i32 %64
  store ptr %89, ptr %100, align 4, !tbaa !14
  %101 = shl nsw i32 %87, 1
  %102 = or disjoint i32 %101, 1
  %103 = icmp slt i32 %102, %53
  br i1 %103, label %61, label %104, !llvm.loop !18

104:                                              ; preds = %99, %94, %92
  %105 = phi i32 [ %64, %92 ], [ %64, %94 ], [ %87, %99 ]
  %106 = getelementptr inbounds [256 x ptr], ptr %2, i32 0, i32 %105
  store ptr %55, ptr %106, align 4, !tbaa !14
  %107 = load ptr, ptr %2, align 4, !tbaa !14
  %108 = add nsw i32 %51, -2
  %109 = getelementptr inbounds [256 x ptr], ptr %2, i32 0, i32 %108
  %110 = load ptr, ptr %109, align 4, !tbaa !14
  %111 = icmp sgt i32 %51, 3
  br i1 %111, label %112, label %158

112:                                              ; preds = %104
  %113 = load i32, ptr %110, align 4, !tbaa !9
  %114 = getelementptr inbounds i8, ptr %110, i32 4
  br label %115

115:                                              ; preds = %153, %112
  %116 = phi i32 [ 1, %112 ], [ %156, %153 ]
  %117 = phi i32 [ 0, %112 ], [ %155, %153 ]
  %118 = phi i32 [ 0, %112 ], [ %141, %153 ]
  %119 = add nsw i32 %117, 2
  %120 = icmp slt i32 %119, %108
  br i1 %120, label %121, label %140

121:                                              ; preds = %115
  %122 = getelementptr inbounds [256 x ptr], ptr %2, i32 0, i32 %119
  %123 = load ptr, ptr %122, align 4, !tbaa !14
  %124 = getelementptr inbounds [256 x ptr], ptr %2, i32 0, i32 %116
  %125 = load ptr, ptr %124, align 4, !tbaa !14
  %126 = load i32, ptr %123, align 4, !tbaa !9
  %127 = load i32, ptr %125, align 4, !tbaa !9
  %128 = icmp eq i32 %126, %127
  br i1 %128, label %131, label %129

129:                                              ; preds = %121
  %130 = icmp ult i32 %126, %127
  br label %137

131:                                              ; preds = %121
  %132 = getelementptr inbounds i8, ptr %123, i32 4
  %133 = load i16, ptr %132, align 4, !tbaa !13
  %134 = getelementptr inbounds i8, ptr %125, i32 4
  %135 = load i16, ptr %134, align 4, !tbaa !13
  %136 = icmp slt i16 %133, %135
  br label %137

137:                                              ; preds = %131, %129
  %138 = phi i1 [ %130, %129 ], [ %136, %131 ]
  %139 = select i1 %138, i32 %119, i32 %116
  br label %140

140:                                              ; preds = %137, %115
  %141 = phi i32 [ %116, %115 ], [ %139, %137 ]
  %142 = getelementptr inbounds [256 x ptr], ptr %2, i32 0, i32 %141
  %143 = load ptr, ptr %142, align 4, !tbaa !14
  %144 = load i32, ptr %143, align 4, !tbaa !9
  %145 = icmp eq i32 %144, %113
  br i1 %145, label %148, label %146

146:                                              ; preds = %140
  %147 = icmp ult i32 %144, %113
  br i1 %147, label %153, label %158

148:                                              ; preds = %140
  %149 = getelementptr inbounds i8, ptr %143, i32 4
  %150 = load i16, ptr %149, align 4, !tbaa !13
  %151 = load i16, ptr %114, align 4, !tbaa !13
  %152 = icmp slt i16 %150, %151
  br i1 %152, label %153, label %158

153:                                              ; preds = %148, %146
  %154 = getelementptr inbounds [256 x ptr], ptr %2, i32 0, i32 %118
  store ptr %143, ptr %154, align 4, !tbaa !14
  %155 = shl nsw i32 %141, 1
  %156 = or disjoint i32 %155, 1
  %157 = icmp slt i32 %156, %108
  br i1 %157, label %115, label %158, !llvm.loop !19

158:                                              ; preds = %153, %148, %146, %104, %57
  %159 = phi i32 [ %108, %104 ], [ 0, %57 ], [ %108, %146 ], [ %108, %148 ], [ %108, %153 ]
  %160 = phi ptr [ %110, %104 ], [ %55, %57 ], [ %110, %146 ], [ %110, %148 ], [ %110, %153 ]
  %161 = phi ptr [ %107, %104 ], [ %55, %57 ], [ %107, %146 ], [ %107, %148 ], [ %107, %153 ]
  %162 = phi i32 [ 0, %104 ], [ 0, %57 ], [ %141, %153 ], [ %118, %148 ], [ %118, %146 ]
  %163 = getelementptr inbounds [256 x ptr], ptr %2, i32 0, i32 %162
  store ptr %160, ptr %163, align 4, !tbaa !14
  %164 = tail call dereferenceable_or_null(16) ptr @__sized_malloc(i32 noundef 16) #16
  %165 = icmp eq ptr %164, null
  br i1 %165, label %166, label %167

166:                                              ; preds = %158
  tail call void @abort() #17
  unreachable

167:                                              ; preds = %158
  %168 = load i32, ptr %52, align 4, !tbaa !9
  %169 = load i32, ptr %161, align 4, !tbaa !9
  %170 = add i32 %169, %168
  store i32 %170, ptr %164, align 4, !tbaa !9
  %171 = getelementptr inbounds i8, ptr %52, i32 4
  %172 = load i16, ptr %171, align 4, !tbaa !13
  %173 = getelementptr inbounds i8, ptr %161, i32 4
  %174 = load i16, ptr %173, align 4, !tbaa !13
  %175 = tail call i16 @llvm.smin.i16(i16 %172, i16 %174)
  %176 = getelementptr inbounds i8, ptr %164, i32 4
  store i16 %175, ptr %176, align 4, !tbaa !13
  %177 = getelementptr inbounds i8, ptr %164, i32 8
  store ptr %52, ptr %177, align 4, !tbaa !20
  %178 = getelementptr inbounds i8, ptr %164, i32 12
  store ptr %161, ptr %178, align 4, !tbaa !21
  %179 = icmp sgt i32 %159, 0
  br i1 %179, label %180, label %197

180:                                              ; preds = %194, %167
  %181 = phi i32 [ %183, %194 ], [ %159, %167 ]
  %182 = add nsw i32 %181, -1
  %183 = lshr i32 %182, 1
  %184 = getelementptr inbounds [256 x ptr], ptr %2, i32 0, i32 %183
  %185 = load ptr, ptr %184, align 4, !tbaa !14
  %186 = load i32, ptr %185, align 4, !tbaa !9
  %187 = icmp eq i32 %170, %186
  br i1 %187, label %190, label %188

188:                                              ; preds = %180
  %189 = icmp ult i32 %170, %186
  br i1 %189, label %194, label %197

190:                                              ; preds = %180
  %191 = getelementptr inbounds i8, ptr %185, i32 4
  %192 = load i16, ptr %191, align 4, !tbaa !13
  %193 = icmp slt i16 %175, %192
  br i1 %193, label %194, label %197

194:                                              ; preds = %190, %188
  %195 = getelementptr inbounds [256 x ptr], ptr %2, i32 0, i32 %181
  store ptr %185, ptr %195, align 4, !tbaa !14
  %196 = icmp ult i32 %182, 2
  br i1 %196, label %197, label %180, !llvm.loop !22

197:                                              ; preds = %194, %190, %188, %167
  %198 = phi i32 [ %159, %167 ], [ %181, %188 ], [ %183, %194 ], [ %181, %190 ]
  %199 = getelementptr inbounds [256 x ptr], ptr %2, i32 0, i32 %198
  store ptr %164, ptr %199, align 4, !tbaa !14
  %200 = icmp sgt i32 %51, 2
  br i1 %200, label %50, label %201, !llvm.loop !23

201:                                              ; preds = %197, %48
  %202 = load ptr, ptr %2, align 4, !tbaa !14
  tail call fastcc void @measure(ptr noundef %202, i32 noundef 0)
  br label %203

203:                                              ; preds = %206, %201
  %204 = phi i32 [ 1, %201 ], [ %208, %206 ]
  %205 = phi i32 [ 0, %201 ], [ %207, %206 ]
  br label %210

206:                                              ; preds = %220
  %207 = shl i32 %221, 1
  %208 = add nuw nsw i32 %204, 1
  %209 = icmp eq i32 %208, 33
  br i1 %209, label %236, label %203, !llvm.loop !24

210:                                              ; preds = %220, %203
  %211 = phi i32 [ 0, %203 ], [ %222, %220 ]
  %212 = phi i32 [ %205, %203 ], [ %221, %220 ]
  %213 = getelementptr inbounds [256 x i8], ptr @main.code, i32 0, i32 %211
  %214 = load i8, ptr %213, align 1, !tbaa !25
  %215 = zext i8 %214 to i32
  %216 = icmp eq i32 %204, %215
  br i1 %216, label %217, label %220

217:                                              ; preds = %210
  %218 = add i32 %212, 1
  %219 = getelementptr inbounds [256 x i32], ptr getelementptr inbounds (i8, ptr @main.code, i32 256), i32 0, i32 %211
  store i32 %212, ptr %219, align 4, !tbaa !5
  br label %220

220:                                              ; preds = %217, %210
  %221 = phi i32 [ %218, %217 ], [ %212, %210 ]
  %222 = add nuw nsw i32 %211, 1
  %223 = icmp eq i32 %222, 256
  br i1 %223, label %206, label %210, !llvm.loop !26

224:                                              ; preds = %224, %0
  %225 = phi i32 [ %232, %224 ], [ 0, %0 ]
  %226 = getelementptr inbounds [4000 x i8], ptr @text, i32 0, i32 %225
  %227 = load i8, ptr %226, align 1, !tbaa !25
  %228 = zext i8 %227 to i32
  %229 = getelementptr inbounds [256 x i32], ptr %3, i32 0, i32 %228
  %230 = load i32, ptr %229, align 4, !tbaa !5
  %231 = add i32 %230, 1
  store i32 %231, ptr %229, align 4, !tbaa !5
  %232 = add nuw i32 %225, 1
  %233 = icmp eq i32 %232, %5
  br i1 %233, label %7, label %224, !llvm.loop !27

234:                                              ; preds = %46, %14
  call void @llvm.lifetime.end.p0(i64 1028, ptr nonnull %2) #14
  %235 = tail call i32 @puts(ptr noundef nonnull dereferenceable(1) @.str)
  br label %507

236:                                              ; preds = %206
  call void @llvm.lifetime.end.p0(i64 1028, ptr nonnull %2) #14
  call void @llvm.lifetime.start.p0(i64 1024, ptr nonnull %4) #14
  br label %239

237:                                              ; preds = %248
  store ptr @main.code, ptr @lengths, align 4, !tbaa !14
  call void @qsort(ptr noundef nonnull %4, i32 noundef %249, i32 noundef 4, ptr noundef nonnull @by_length) #14
  %238 = icmp sgt i32 %249, 0
  br i1 %238, label %335, label %252

239:                                              ; preds = %248, %236
  %240 = phi i32 [ 0, %236 ], [ %250, %248 ]
  %241 = phi i32 [ 0, %236 ], [ %249, %248 ]
  %242 = getelementptr inbounds [256 x i32], ptr %3, i32 0, i32 %240
  %243 = load i32, ptr %242, align 4, !tbaa !5
  %244 = icmp eq i32 %243, 0
  br i1 %244, label %248, label %245

245:                                              ; preds = %239
  %246 = add nsw i32 %241, 1
  %247 = getelementptr inbounds [256 x i32], ptr %4, i32 0, i32 %241
  store i32 %240, ptr %247, align 4, !tbaa !5
  br label %248

248:                                              ; preds = %245, %239
  %249 = phi i32 [ %246, %245 ], [ %241, %239 ]
  %250 = add nuw nsw i32 %240, 1
  %251 = icmp eq i32 %250, 256
  br i1 %251, label %237, label %239, !llvm.loop !28

252:                                              ; preds = %375, %237
  br i1 %6, label %309, label %253

253:                                              ; preds = %303, %252
  %254 = phi ptr [ %304, %303 ], [ null, %252 ]
  %255 = phi i32 [ %305, %303 ], [ 0, %252 ]
  %256 = phi i32 [ %306, %303 ], [ 0, %252 ]
  %257 = phi i32 [ %307, %303 ], [ 0, %252 ]
  %258 = getelementptr inbounds i8, ptr @text, i32 %257
  %259 = load i8, ptr %258, align 1, !tbaa !25
  %260 = zext i8 %259 to i32
  %261 = getelementptr inbounds [256 x i32], ptr getelementptr inbounds (i8, ptr @main.code, i32 256), i32 0, i32 %260
  %262 = load i32, ptr %261, align 4, !tbaa !5
  %263 = getelementptr inbounds [256 x i8], ptr @main.code, i32 0, i32 %260
  %264 = load i8, ptr %263, align 1, !tbaa !25
  %265 = icmp eq i8 %264, 0
  br i1 %265, label %303, label %266

266:                                              ; preds = %253
  %267 = zext i8 %264 to i32
  br label %268

268:                                              ; preds = %290, %266
  %269 = phi ptr [ %254, %266 ], [ %291, %290 ]
  %270 = phi i32 [ %255, %266 ], [ %301, %290 ]
  %271 = phi i32 [ %256, %266 ], [ %292, %290 ]
  %272 = phi i32 [ %267, %266 ], [ %273, %290 ]
  %273 = add nsw i32 %272, -1
  %274 = lshr i32 %262, %273
  %275 = and i32 %274, 1
  %276 = shl i32 %271, 3
  %277 = icmp eq i32 %270, %276
  br i1 %277, label %278, label %290

278:                                              ; preds = %268
  %279 = icmp eq i32 %271, 0
  %280 = shl i32 %271, 1
  %281 = select i1 %279, i32 32, i32 %280
  %282 = call ptr @realloc(ptr noundef %269, i32 noundef %281) #18
  %283 = icmp eq ptr %282, null
  br i1 %283, label %284, label %285

284:                                              ; preds = %278
  call void @abort() #17
  unreachable

285:                                              ; preds = %278
  %286 = icmp ult i32 %271, %281
  br i1 %286, label %287, label %290

287:                                              ; preds = %285
  %288 = getelementptr i8, ptr %282, i32 %271
  %289 = sub i32 %281, %271
  call void @llvm.memset.p0.i32(ptr align 1 %288, i8 0, i32 %289, i1 false), !tbaa !25
  br label %290

290:                                              ; preds = %287, %285, %268
  %291 = phi ptr [ %269, %268 ], [ %282, %287 ], [ %282, %285 ]
  %292 = phi i32 [ %271, %268 ], [ %281, %287 ], [ %281, %285 ]
  %293 = and i32 %270, 7
  %294 = xor i32 %293, 7
  %295 = shl nuw nsw i32 %275, %294
  %296 = lshr i32 %270, 3
  %297 = getelementptr inbounds i8, ptr %291, i32 %296
  %298 = load i8, ptr %297, align 1, !tbaa !25
  %299 = trunc nuw i32 %295 to i8
  %300 = or i8 %298, %299
  store i8 %300, ptr %297, align 1, !tbaa !25
  %301 = add i32 %270, 1
  %302 = icmp eq i32 %273, 0
  br i1 %302, label %303, label %268, !llvm.loop !29

303:                                              ; preds = %290, %253
  %304 = phi ptr [ %254, %253 ], [ %291, %290 ]
  %305 = phi i32 [ %255, %253 ], [ %301, %290 ]
  %306 = phi i32 [ %256, %253 ], [ %292, %290 ]
  %307 = add nuw i32 %257, 1
  %308 = icmp eq i32 %307, %5
  br i1 %308, label %309, label %253, !llvm.loop !30

309:                                              ; preds = %303, %252
  %310 = phi ptr [ null, %252 ], [ %304, %303 ]
  %311 = phi i32 [ 0, %252 ], [ %305, %303 ]
  %312 = freeze i32 %311
  %313 = udiv i32 %312, %5
  %314 = mul i32 %313, %5
  %315 = sub i32 %312, %314
  %316 = mul i32 %315, 100
  %317 = udiv i32 %316, %5
  %318 = zext i32 %5 to i64
  %319 = call i32 @__print_unsigned(ptr nonnull getelementptr inbounds (i8, ptr @__streams, i32 12), i64 %318, i32 10, i32 0, i32 0, i32 -1) #14
  %320 = call i32 @__print_text(ptr nonnull getelementptr inbounds (i8, ptr @__streams, i32 12), ptr nonnull getelementptr inbounds (i8, ptr @.str.1, i32 3), i32 8) #14
  %321 = sext i32 %249 to i64
  %322 = call i32 @__print_signed(ptr nonnull getelementptr inbounds (i8, ptr @__streams, i32 12), i64 %321, i32 0, i32 0, i32 -1) #14
  %323 = call i32 @__print_text(ptr nonnull getelementptr inbounds (i8, ptr @__streams, i32 12), ptr nonnull getelementptr inbounds (i8, ptr @.str.1, i32 13), i32 10) #14
  %324 = zext i32 %311 to i64
  %325 = call i32 @__print_unsigned(ptr nonnull getelementptr inbounds (i8, ptr @__streams, i32 12), i64 %324, i32 10, i32 0, i32 0, i32 -1) #14
  %326 = call i32 @__print_text(ptr nonnull getelementptr inbounds (i8, ptr @__streams, i32 12), ptr nonnull getelementptr inbounds (i8, ptr @.str.1, i32 26), i32 7) #14
  %327 = zext i32 %313 to i64
  %328 = call i32 @__print_unsigned(ptr nonnull getelementptr inbounds (i8, ptr @__streams, i32 12), i64 %327, i32 10, i32 0, i32 0, i32 -1) #14
  %329 = call i32 @__print_text(ptr nonnull getelementptr inbounds (i8, ptr @__streams, i32 12), ptr nonnull getelementptr inbounds (i8, ptr @.str.1, i32 36), i32 1) #14
  %330 = zext i32 %317 to i64
  %331 = call i32 @__print_unsigned(ptr nonnull getelementptr inbounds (i8, ptr @__streams, i32 12), i64 %330, i32 10, i32 16, i32 2, i32 -1) #14
  %332 = call i32 @__print_text(ptr nonnull getelementptr inbounds (i8, ptr @__streams, i32 12), ptr nonnull getelementptr inbounds (i8, ptr @.str.1, i32 42), i32 13) #14
  %333 = call i32 @__print_text(ptr nonnull getelementptr inbounds (i8, ptr @__streams, i32 12), ptr nonnull @.str.2, i32 6) #14
  %334 = icmp eq i32 %311, 0
  br i1 %334, label %389, label %393

335:                                              ; preds = %375, %237
  %336 = phi i32 [ %387, %375 ], [ 0, %237 ]
  %337 = getelementptr inbounds [256 x i32], ptr %4, i32 0, i32 %336
  %338 = load i32, ptr %337, align 4, !tbaa !5
  call void @llvm.lifetime.start.p0(i64 33, ptr nonnull %1) #14
  %339 = getelementptr inbounds [256 x i8], ptr @main.code, i32 0, i32 %338
  %340 = load i8, ptr %339, align 1, !tbaa !25
  %341 = zext i8 %340 to i32
  %342 = icmp eq i8 %340, 0
  br i1 %342, label %346, label %343

343:                                              ; preds = %335
  %344 = getelementptr inbounds [256 x i32], ptr getelementptr inbounds (i8, ptr @main.code, i32 256), i32 0, i32 %338
  %345 = load i32, ptr %344, align 4, !tbaa !5
  br label %364

346:                                              ; preds = %364, %335
  %347 = getelementptr inbounds [33 x i8], ptr %1, i32 0, i32 %341
  store i8 0, ptr %347, align 1, !tbaa !25
  %348 = call i32 @isprint(i32 noundef %338) #19
  %349 = icmp ne i32 %348, 0
  %350 = icmp ne i32 %338, 32
  %351 = and i1 %350, %349
  br i1 %351, label %352, label %355

352:                                              ; preds = %346
  %353 = call i32 @__print_character(ptr nonnull getelementptr inbounds (i8, ptr @__streams, i32 12), i32 %338, i32 0, i32 0) #14
  %354 = call i32 @__print_text(ptr nonnull getelementptr inbounds (i8, ptr @__streams, i32 12), ptr nonnull getelementptr inbounds (i8, ptr @.str.8, i32 2), i32 3) #14
  br label %375

355:                                              ; preds = %346
  %356 = icmp eq i32 %338, 10
  br i1 %356, label %357, label %359

357:                                              ; preds = %355
  %358 = call i32 @__print_text(ptr nonnull getelementptr inbounds (i8, ptr @__streams, i32 12), ptr nonnull @.str.9, i32 4) #14
  br label %375

359:                                              ; preds = %355
  %360 = call i32 @__print_text(ptr nonnull getelementptr inbounds (i8, ptr @__streams, i32 12), ptr nonnull @.str.10, i32 1) #14
  %361 = zext i32 %338 to i64
  %362 = call i32 @__print_unsigned(ptr nonnull getelementptr inbounds (i8, ptr @__streams, i32 12), i64 %361, i32 16, i32 48, i32 2, i32 -1) #14
  %363 = call i32 @__print_text(ptr nonnull getelementptr inbounds (i8, ptr @__streams, i32 12), ptr nonnull getelementptr inbounds (i8, ptr @.str.10, i32 5), i32 1) #14
  br label %375

364:                                              ; preds = %364, %343
  %365 = phi i32 [ 0, %343 ], [ %373, %364 ]
  %366 = xor i32 %365, -1
  %367 = add nsw i32 %366, %341
  %368 = shl nuw i32 1, %367
  %369 = and i32 %368, %345
  %370 = icmp eq i32 %369, 0
  %371 = select i1 %370, i8 48, i8 49
  %372 = getelementptr inbounds [33 x i8], ptr %1, i32 0, i32 %365
  store i8 %371, ptr %372, align 1, !tbaa !25
  %373 = add nuw nsw i32 %365, 1
  %374 = icmp eq i32 %373, %341
  br i1 %374, label %346, label %364, !llvm.loop !31

375:                                              ; preds = %359, %357, %352
  %376 = getelementptr inbounds i32, ptr %3, i32 %338
  %377 = load i32, ptr %376, align 4, !tbaa !5
  %378 = load i8, ptr %339, align 1, !tbaa !25
  %379 = zext i32 %377 to i64
  %380 = call i32 @__print_unsigned(ptr nonnull getelementptr inbounds (i8, ptr @__streams, i32 12), i64 %379, i32 10, i32 0, i32 5, i32 -1) #14
  %381 = call i32 @__print_text(ptr nonnull getelementptr inbounds (i8, ptr @__streams, i32 12), ptr nonnull getelementptr inbounds (i8, ptr @.str.7, i32 3), i32 2) #14
  %382 = call i32 @__print_string(ptr nonnull getelementptr inbounds (i8, ptr @__streams, i32 12), ptr nonnull %1, i32 1, i32 16, i32 -1) #14
  %383 = call i32 @__print_text(ptr nonnull getelementptr inbounds (i8, ptr @__streams, i32 12), ptr nonnull getelementptr inbounds (i8, ptr @.str.7, i32 10), i32 1) #14
  %384 = zext i8 %378 to i64
  %385 = call i32 @__print_unsigned(ptr nonnull getelementptr inbounds (i8, ptr @__streams, i32 12), i64 %384, i32 10, i32 0, i32 2, i32 -1) #14
  %386 = call i32 @__print_text(ptr nonnull getelementptr inbounds (i8, ptr @__streams, i32 12), ptr nonnull getelementptr inbounds (i8, ptr @.str.7, i32 14), i32 6) #14
  call void @llvm.lifetime.end.p0(i64 33, ptr nonnull %1) #14
  %387 = add nuw nsw i32 %336, 1
  %388 = icmp eq i32 %387, %249
  br i1 %388, label %252, label %335, !llvm.loop !32

389:                                              ; preds = %441, %434, %427, %420, %413, %406, %399, %393, %309
  %390 = call i32 @__print_text(ptr nonnull getelementptr inbounds (i8, ptr @__streams, i32 12), ptr nonnull @.str.4, i32 1) #14
  %391 = call ptr @__sized_malloc(i32 noundef %5) #16
  %392 = icmp eq ptr %391, null
  br i1 %392, label %505, label %447

393:                                              ; preds = %309
  %394 = load i8, ptr %310, align 1, !tbaa !25
  %395 = call i32 @__print_text(ptr nonnull getelementptr inbounds (i8, ptr @__streams, i32 12), ptr nonnull @.str.3, i32 1) #14
  %396 = zext i8 %394 to i64
  %397 = call i32 @__print_unsigned(ptr nonnull getelementptr inbounds (i8, ptr @__streams, i32 12), i64 %396, i32 16, i32 16, i32 2, i32 -1) #14
  %398 = icmp ugt i32 %311, 8
  br i1 %398, label %399, label %389, !llvm.loop !33

399:                                              ; preds = %393
  %400 = getelementptr inbounds i8, ptr %310, i32 1
  %401 = load i8, ptr %400, align 1, !tbaa !25
  %402 = call i32 @__print_text(ptr nonnull getelementptr inbounds (i8, ptr @__streams, i32 12), ptr nonnull @.str.3, i32 1) #14
  %403 = zext i8 %401 to i64
  %404 = call i32 @__print_unsigned(ptr nonnull getelementptr inbounds (i8, ptr @__streams, i32 12), i64 %403, i32 16, i32 16, i32 2, i32 -1) #14
  %405 = icmp ugt i32 %311, 16
  br i1 %405, label %406, label %389, !llvm.loop !33

406:                                              ; preds = %399
  %407 = getelementptr inbounds i8, ptr %310, i32 2
  %408 = load i8, ptr %407, align 1, !tbaa !25
  %409 = call i32 @__print_text(ptr nonnull getelementptr inbounds (i8, ptr @__streams, i32 12), ptr nonnull @.str.3, i32 1) #14
  %410 = zext i8 %408 to i64
  %411 = call i32 @__print_unsigned(ptr nonnull getelementptr inbounds (i8, ptr @__streams, i32 12), i64 %410, i32 16, i32 16, i32 2, i32 -1) #14
  %412 = icmp ugt i32 %311, 24
  br i1 %412, label %413, label %389, !llvm.loop !33

413:                                              ; preds = %406
  %414 = getelementptr inbounds i8, ptr %310, i32 3
  %415 = load i8, ptr %414, align 1, !tbaa !25
  %416 = call i32 @__print_text(ptr nonnull getelementptr inbounds (i8, ptr @__streams, i32 12), ptr nonnull @.str.3, i32 1) #14
  %417 = zext i8 %415 to i64
  %418 = call i32 @__print_unsigned(ptr nonnull getelementptr inbounds (i8, ptr @__streams, i32 12), i64 %417, i32 16, i32 16, i32 2, i32 -1) #14
  %419 = icmp ugt i32 %311, 32
  br i1 %419, label %420, label %389, !llvm.loop !33

420:                                              ; preds = %413
  %421 = getelementptr inbounds i8, ptr %310, i32 4
  %422 = load i8, ptr %421, align 1, !tbaa !25
  %423 = call i32 @__print_text(ptr nonnull getelementptr inbounds (i8, ptr @__streams, i32 12), ptr nonnull @.str.3, i32 1) #14
  %424 = zext i8 %422 to i64
  %425 = call i32 @__print_unsigned(ptr nonnull getelementptr inbounds (i8, ptr @__streams, i32 12), i64 %424, i32 16, i32 16, i32 2, i32 -1) #14
  %426 = icmp ugt i32 %311, 40
  br i1 %426, label %427, label %389, !llvm.loop !33

427:                                              ; preds = %420
  %428 = getelementptr inbounds i8, ptr %310, i32 5
  %429 = load i8, ptr %428, align 1, !tbaa !25
  %430 = call i32 @__print_text(ptr nonnull getelementptr inbounds (i8, ptr @__streams, i32 12), ptr nonnull @.str.3, i32 1) #14
  %431 = zext i8 %429 to i64
  %432 = call i32 @__print_unsigned(ptr nonnull getelementptr inbounds (i8, ptr @__streams, i32 12), i64 %431, i32 16, i32 16, i32 2, i32 -1) #14
  %433 = icmp ugt i32 %311, 48
  br i1 %433, label %434, label %389, !llvm.loop !33

434:                                              ; preds = %427
  %435 = getelementptr inbounds i8, ptr %310, i32 6
  %436 = load i8, ptr %435, align 1, !tbaa !25
  %437 = call i32 @__print_text(ptr nonnull getelementptr inbounds (i8, ptr @__streams, i32 12), ptr nonnull @.str.3, i32 1) #14
  %438 = zext i8 %436 to i64
  %439 = call i32 @__print_unsigned(ptr nonnull getelementptr inbounds (i8, ptr @__streams, i32 12), i64 %438, i32 16, i32 16, i32 2, i32 -1) #14
  %440 = icmp ugt i32 %311, 56
  br i1 %440, label %441, label %389, !llvm.loop !33

441:                                              ; preds = %434
  %442 = getelementptr inbounds i8, ptr %310, i32 7
  %443 = load i8, ptr %442, align 1, !tbaa !25
  %444 = call i32 @__print_text(ptr nonnull getelementptr inbounds (i8, ptr @__streams, i32 12), ptr nonnull @.str.3, i32 1) #14
  %445 = zext i8 %443 to i64
  %446 = call i32 @__print_unsigned(ptr nonnull getelementptr inbounds (i8, ptr @__streams, i32 12), i64 %445, i32 16, i32 16, i32 2, i32 -1) #14
  br label %389

447:                                              ; preds = %483, %389
  %448 = phi i32 [ %464, %483 ], [ 0, %389 ]
  %449 = phi i32 [ %486, %483 ], [ 0, %389 ]
  br label %450

450:                                              ; preds = %480, %447
  %451 = phi i32 [ %448, %447 ], [ %464, %480 ]
  %452 = phi i32 [ 1, %447 ], [ %481, %480 ]
  %453 = phi i32 [ 0, %447 ], [ %466, %480 ]
  %454 = icmp eq i32 %451, %311
  br i1 %454, label %490, label %455

455:                                              ; preds = %450
  %456 = lshr i32 %451, 3
  %457 = getelementptr inbounds i8, ptr %310, i32 %456
  %458 = load i8, ptr %457, align 1, !tbaa !25
  %459 = zext i8 %458 to i32
  %460 = and i32 %451, 7
  %461 = xor i32 %460, 7
  %462 = lshr i32 %459, %461
  %463 = and i32 %462, 1
  %464 = add i32 %451, 1
  %465 = shl i32 %453, 1
  %466 = or disjoint i32 %463, %465
  br label %467

467:                                              ; preds = %477, %455
  %468 = phi i32 [ 0, %455 ], [ %478, %477 ]
  %469 = getelementptr inbounds [256 x i8], ptr @main.code, i32 0, i32 %468
  %470 = load i8, ptr %469, align 1, !tbaa !25
  %471 = zext i8 %470 to i32
  %472 = icmp eq i32 %452, %471
  br i1 %472, label %473, label %477

473:                                              ; preds = %467
  %474 = getelementptr inbounds [256 x i32], ptr getelementptr inbounds (i8, ptr @main.code, i32 256), i32 0, i32 %468
  %475 = load i32, ptr %474, align 4, !tbaa !5
  %476 = icmp eq i32 %475, %466
  br i1 %476, label %483, label %477

477:                                              ; preds = %473, %467
  %478 = add nuw nsw i32 %468, 1
  %479 = icmp eq i32 %478, 256
  br i1 %479, label %480, label %467, !llvm.loop !34

480:                                              ; preds = %477
  %481 = add nuw nsw i32 %452, 1
  %482 = icmp eq i32 %481, 33
  br i1 %482, label %488, label %450, !llvm.loop !35

483:                                              ; preds = %473
  %484 = trunc i32 %468 to i8
  %485 = getelementptr inbounds i8, ptr %391, i32 %449
  store i8 %484, ptr %485, align 1, !tbaa !25
  %486 = add nuw i32 %449, 1
  %487 = icmp eq i32 %486, %5
  br i1 %487, label %493, label %447, !llvm.loop !36

488:                                              ; preds = %480
  %489 = add i32 %448, 32
  br label %490

490:                                              ; preds = %488, %450
  %491 = phi i32 [ %489, %488 ], [ %311, %450 ]
  %492 = icmp eq i32 %449, %5
  br i1 %492, label %493, label %501

493:                                              ; preds = %490, %483
  %494 = phi i32 [ %491, %490 ], [ %464, %483 ]
  %495 = call i32 @bcmp(ptr nonnull %391, ptr nonnull @text, i32 %5)
  %496 = icmp eq i32 %495, 0
  br i1 %496, label %497, label %501

497:                                              ; preds = %493
  %498 = icmp eq i32 %494, %311
  %499 = select i1 %498, i32 %249, i32 1
  %500 = select i1 %498, ptr @.str.5, ptr @.str.6
  br label %501

501:                                              ; preds = %497, %493, %490
  %502 = phi i32 [ 1, %493 ], [ 1, %490 ], [ %499, %497 ]
  %503 = phi ptr [ @.str.6, %493 ], [ @.str.6, %490 ], [ %500, %497 ]
  %504 = call i32 @puts(ptr noundef nonnull dereferenceable(1) %503)
  call void @__sized_free(ptr noundef %391)
  call void @__sized_free(ptr noundef %310)
  br label %505

505:                                              ; preds = %501, %389
  %506 = phi i32 [ 2, %389 ], [ %502, %501 ]
  call void @llvm.lifetime.end.p0(i64 1024, ptr nonnull %4) #14
  br label %507

507:                                              ; preds = %505, %234
  %508 = phi i32 [ %506, %505 ], [ 1, %234 ]
  call void @llvm.lifetime.end.p0(i64 1024, ptr nonnull %3) #14
  ret i32 %508
}

; Function Attrs: nounwind optsize
define internal i32 @fread(ptr noalias nocapture noundef writeonly %0, i32 noundef %1, i32 noundef %2, ptr noalias nocapture noundef %3) local_unnamed_addr #1 {
  %5 = mul i32 %2, %1
  %6 = icmp eq i32 %5, 0
  br i1 %6, label %11, label %7

7:                                                ; preds = %14, %4
  %8 = phi i32 [ %17, %14 ], [ 0, %4 ]
  %9 = tail call i32 @fgetc(ptr noundef %3) #20
  %10 = icmp eq i32 %9, -1
  br i1 %10, label %11, label %14

11:                                               ; preds = %14, %7, %4
  %12 = phi i32 [ 0, %4 ], [ %5, %14 ], [ %8, %7 ]
  %13 = icmp eq i32 %1, 0
  br i1 %13, label %21, label %19

14:                                               ; preds = %7
  %15 = trunc i32 %9 to i8
  %16 = getelementptr inbounds i8, ptr %0, i32 %8
  store i8 %15, ptr %16, align 1, !tbaa !25
  %17 = add nuw i32 %8, 1
  %18 = icmp eq i32 %17, %5
  br i1 %18, label %11, label %7, !llvm.loop !37

19:                                               ; preds = %11
  %20 = udiv i32 %12, %1
  br label %21

21:                                               ; preds = %19, %11
  %22 = phi i32 [ %20, %19 ], [ 0, %11 ]
  ret i32 %22
}

; Function Attrs: nocallback nofree nosync nounwind willreturn memory(argmem: readwrite)
declare void @llvm.lifetime.start.p0(i64 immarg, ptr nocapture) #2

; Function Attrs: nocallback nofree nounwind willreturn memory(argmem: write)
declare void @llvm.memset.p0.i32(ptr nocapture writeonly, i8, i32, i1 immarg) #3

; Function Attrs: noinline nounwind optsize
define internal ptr @__sized_calloc(i32 noundef %0, i32 noundef %1) #4 {
  %3 = icmp eq i32 %1, 0
  br i1 %3, label %7, label %4

4:                                                ; preds = %2
  %5 = udiv i32 -17, %1
  %6 = icmp ult i32 %5, %0
  br i1 %6, label %14, label %7

7:                                                ; preds = %4, %2
  %8 = mul i32 %1, %0
  %9 = add i32 %8, 16
  %10 = tail call ptr @calloc(i32 noundef %9, i32 noundef 1) #21
  %11 = icmp eq ptr %10, null
  br i1 %11, label %14, label %12

12:                                               ; preds = %7
  %13 = getelementptr inbounds i8, ptr %10, i32 16
  store i32 %8, ptr %10, align 4, !tbaa !5
  br label %14

14:                                               ; preds = %12, %7, %4
  %15 = phi ptr [ null, %4 ], [ %13, %12 ], [ null, %7 ]
  ret ptr %15
}

; Function Attrs: noinline nounwind optsize
define internal ptr @__sized_malloc(i32 noundef %0) local_unnamed_addr #4 {
  %2 = icmp ult i32 %0, -16
  br i1 %2, label %3, label %9

3:                                                ; preds = %1
  %4 = add nuw i32 %0, 16
  %5 = tail call ptr @malloc(i32 noundef %4) #21
  %6 = icmp eq ptr %5, null
  br i1 %6, label %9, label %7

7:                                                ; preds = %3
  %8 = getelementptr inbounds i8, ptr %5, i32 16
  store i32 %0, ptr %5, align 4, !tbaa !5
  br label %9

9:                                                ; preds = %7, %3, %1
  %10 = phi ptr [ %8, %7 ], [ null, %3 ], [ null, %1 ]
  ret ptr %10
}

; Function Attrs: noreturn nounwind
declare dso_local void @abort() local_unnamed_addr #5

; Function Attrs: nocallback nofree nosync nounwind speculatable willreturn memory(none)
declare i16 @llvm.smin.i16(i16, i16) #6

; Function Attrs: nounwind
define internal fastcc void @measure(ptr nocapture noundef %0, i32 noundef %1) unnamed_addr #0 {
  %3 = getelementptr inbounds i8, ptr %0, i32 8
  %4 = load ptr, ptr %3, align 4, !tbaa !20
  %5 = icmp eq ptr %4, null
  br i1 %5, label %10, label %6

6:                                                ; preds = %2
  %7 = add i32 %1, 1
  tail call fastcc void @measure(ptr noundef nonnull %4, i32 noundef %7)
  %8 = getelementptr inbounds i8, ptr %0, i32 12
  %9 = load ptr, ptr %8, align 4, !tbaa !21
  tail call fastcc void @measure(ptr noundef %9, i32 noundef %7)
  br label %17

10:                                               ; preds = %2
  %11 = tail call i32 @llvm.umax.i32(i32 %1, i32 1)
  %12 = trunc i32 %11 to i8
  %13 = getelementptr inbounds i8, ptr %0, i32 4
  %14 = load i16, ptr %13, align 4, !tbaa !13
  %15 = sext i16 %14 to i32
  %16 = getelementptr inbounds [256 x i8], ptr @main.code, i32 0, i32 %15
  store i8 %12, ptr %16, align 1, !tbaa !25
  br label %17

17:                                               ; preds = %10, %6
  tail call void @__sized_free(ptr noundef nonnull %0)
  ret void
}

; Function Attrs: nocallback nofree nosync nounwind willreturn memory(argmem: readwrite)
declare void @llvm.lifetime.end.p0(i64 immarg, ptr nocapture) #2

; Function Attrs: nofree nounwind
declare dso_local noundef i32 @puts(ptr nocapture noundef readonly) local_unnamed_addr #7

; Function Attrs: mustprogress nofree norecurse nosync nounwind willreturn memory(read, inaccessiblemem: none)
define internal i32 @by_length(ptr nocapture noundef readonly %0, ptr nocapture noundef readonly %1) #8 {
  %3 = load i32, ptr %0, align 4, !tbaa !5
  %4 = load i32, ptr %1, align 4, !tbaa !5
  %5 = load ptr, ptr @lengths, align 4, !tbaa !14
  %6 = getelementptr inbounds i8, ptr %5, i32 %3
  %7 = load i8, ptr %6, align 1, !tbaa !25
  %8 = getelementptr inbounds i8, ptr %5, i32 %4
  %9 = load i8, ptr %8, align 1, !tbaa !25
  %10 = icmp eq i8 %7, %9
  %11 = zext i8 %9 to i32
  %12 = zext i8 %7 to i32
  %13 = sub nsw i32 %12, %11
  %14 = sub nsw i32 %3, %4
  %15 = select i1 %10, i32 %14, i32 %13
  ret i32 %15
}

; Function Attrs: nounwind optsize
define internal void @qsort(ptr noundef %0, i32 noundef %1, i32 noundef %2, ptr noundef %3) local_unnamed_addr #1 {
  %5 = icmp ult i32 %1, 2
  %6 = icmp eq i32 %2, 0
  %7 = or i1 %5, %6
  br i1 %7, label %35, label %8

8:                                                ; preds = %4
  %9 = lshr i32 %1, 1
  %10 = mul i32 %9, %2
  %11 = tail call ptr @__sized_malloc(i32 noundef %10) #21
  %12 = icmp eq ptr %11, null
  br i1 %12, label %13, label %34

13:                                               ; preds = %13, %8
  %14 = phi i32 [ %15, %13 ], [ %9, %8 ]
  %15 = add nsw i32 %14, -1
  tail call fastcc void @sink(ptr noundef %0, i32 noundef %15, i32 noundef %1, i32 noundef %2, ptr noundef readonly %3) #20
  %16 = icmp eq i32 %15, 0
  br i1 %16, label %17, label %13, !llvm.loop !38

17:                                               ; preds = %32, %13
  %18 = phi i32 [ %19, %32 ], [ %1, %13 ]
  %19 = add i32 %18, -1
  %20 = mul i32 %19, %2
  %21 = getelementptr inbounds i8, ptr %0, i32 %20
  br label %22

22:                                               ; preds = %22, %17
  %23 = phi ptr [ %29, %22 ], [ %0, %17 ]
  %24 = phi i32 [ %26, %22 ], [ %2, %17 ]
  %25 = phi ptr [ %30, %22 ], [ %21, %17 ]
  %26 = add i32 %24, -1
  %27 = load i8, ptr %23, align 1, !tbaa !25
  %28 = load i8, ptr %25, align 1, !tbaa !25
  %29 = getelementptr inbounds i8, ptr %23, i32 1
  store i8 %28, ptr %23, align 1, !tbaa !25
  %30 = getelementptr inbounds i8, ptr %25, i32 1
  store i8 %27, ptr %25, align 1, !tbaa !25
  %31 = icmp eq i32 %26, 0
  br i1 %31, label %32, label %22, !llvm.loop !39

32:                                               ; preds = %22
  tail call fastcc void @sink(ptr noundef %0, i32 noundef 0, i32 noundef %19, i32 noundef %2, ptr noundef readonly %3) #20
  %33 = icmp ugt i32 %19, 1
  br i1 %33, label %17, label %35, !llvm.loop !40

34:                                               ; preds = %8
  tail call fastcc void @merge_sort(ptr noundef %0, i32 noundef %1, i32 noundef %2, ptr noundef %3, ptr noundef nonnull %11) #20
  tail call void @__sized_free(ptr noundef nonnull %11) #21
  br label %35

35:                                               ; preds = %34, %32, %4
  ret void
}

; Function Attrs: nounwind optsize
define internal ptr @realloc(ptr noundef %0, i32 noundef %1) local_unnamed_addr #1 {
  %3 = icmp eq ptr %0, null
  br i1 %3, label %4, label %6

4:                                                ; preds = %2
  %5 = tail call ptr @__sized_malloc(i32 noundef %1) #20
  br label %28

6:                                                ; preds = %2
  %7 = icmp eq i32 %1, 0
  br i1 %7, label %8, label %9

8:                                                ; preds = %6
  tail call void @__sized_free(ptr noundef nonnull %0) #20
  br label %28

9:                                                ; preds = %6
  %10 = tail call ptr @__sized_malloc(i32 noundef %1) #20
  %11 = icmp eq ptr %10, null
  br i1 %11, label %28, label %12

12:                                               ; preds = %9
  %13 = getelementptr inbounds i8, ptr %0, i32 -16
  %14 = load i32, ptr %13, align 4, !tbaa !5
  %15 = icmp eq i32 %14, 0
  br i1 %15, label %27, label %16

16:                                               ; preds = %12
  %17 = tail call i32 @llvm.umin.i32(i32 %14, i32 %1)
  br label %18

18:                                               ; preds = %18, %16
  %19 = phi ptr [ %23, %18 ], [ %0, %16 ]
  %20 = phi ptr [ %25, %18 ], [ %10, %16 ]
  %21 = phi i32 [ %22, %18 ], [ %17, %16 ]
  %22 = add i32 %21, -1
  %23 = getelementptr inbounds i8, ptr %19, i32 1
  %24 = load i8, ptr %19, align 1, !tbaa !25, !alias.scope !41, !noalias !44
  %25 = getelementptr inbounds i8, ptr %20, i32 1
  store i8 %24, ptr %20, align 1, !tbaa !25, !alias.scope !44, !noalias !41
  %26 = icmp eq i32 %22, 0
  br i1 %26, label %27, label %18, !llvm.loop !46

27:                                               ; preds = %18, %12
  tail call void @__sized_free(ptr noundef nonnull %0) #20
  br label %28

28:                                               ; preds = %27, %9, %8, %4
  %29 = phi ptr [ null, %8 ], [ %5, %4 ], [ %10, %27 ], [ null, %9 ]
  ret ptr %29
}

; Function Attrs: nounwind optsize
define internal i32 @__print_unsigned(ptr nocapture noundef %0, i64 noundef %1, i32 noundef %2, i32 noundef %3, i32 noundef %4, i32 noundef %5) local_unnamed_addr #1 {
  %7 = alloca [24 x i8], align 1
  call void @llvm.lifetime.start.p0(i64 24, ptr nonnull %7) #14
  %8 = and i32 %3, 32
  %9 = icmp eq i32 %8, 0
  %10 = select i1 %9, ptr @.str.9.17, ptr @.str.8.23
  %11 = icmp ult i64 %1, 4294967296
  br i1 %11, label %14, label %12

12:                                               ; preds = %6
  %13 = zext i32 %2 to i64
  br label %29

14:                                               ; preds = %6
  %15 = trunc nuw i64 %1 to i32
  %16 = icmp eq i32 %15, 0
  br i1 %16, label %41, label %17

17:                                               ; preds = %17, %14
  %18 = phi i32 [ %21, %17 ], [ %15, %14 ]
  %19 = phi i32 [ %26, %17 ], [ 24, %14 ]
  %20 = freeze i32 %18
  %21 = udiv i32 %20, %2
  %22 = mul i32 %21, %2
  %23 = sub i32 %20, %22
  %24 = getelementptr inbounds i8, ptr %10, i32 %23
  %25 = load i8, ptr %24, align 1, !tbaa !25
  %26 = add nsw i32 %19, -1
  %27 = getelementptr inbounds i8, ptr %7, i32 %26
  store i8 %25, ptr %27, align 1, !tbaa !25
  %28 = icmp ult i32 %18, %2
  br i1 %28, label %41, label %17, !llvm.loop !47

29:                                               ; preds = %29, %12
  %30 = phi i32 [ 24, %12 ], [ %38, %29 ]
  %31 = phi i64 [ %1, %12 ], [ %32, %29 ]
  %32 = udiv i64 %31, %13
  %33 = mul i64 %32, %13
  %34 = sub i64 %31, %33
  %35 = trunc nuw i64 %34 to i32
  %36 = getelementptr inbounds i8, ptr %10, i32 %35
  %37 = load i8, ptr %36, align 1, !tbaa !25
  %38 = add nsw i32 %30, -1
  %39 = getelementptr inbounds i8, ptr %7, i32 %38
  store i8 %37, ptr %39, align 1, !tbaa !25
  %40 = icmp ult i64 %31, %13
  br i1 %40, label %41, label %29, !llvm.loop !48

41:                                               ; preds = %29, %17, %14
  %42 = phi i32 [ 24, %14 ], [ %26, %17 ], [ %38, %29 ]
  %43 = icmp eq i64 %1, 0
  %44 = icmp ne i32 %5, 0
  %45 = and i1 %43, %44
  br i1 %45, label %46, label %49

46:                                               ; preds = %41
  %47 = add nsw i32 %42, -1
  %48 = getelementptr inbounds i8, ptr %7, i32 %47
  store i8 48, ptr %48, align 1, !tbaa !25
  br label %49

49:                                               ; preds = %46, %41
  %50 = phi i32 [ %47, %46 ], [ %42, %41 ]
  %51 = getelementptr inbounds i8, ptr %7, i32 %50
  %52 = and i32 %3, 8
  %53 = icmp ne i32 %52, 0
  %54 = icmp eq i32 %2, 8
  %55 = and i1 %54, %53
  %56 = sub nsw i32 24, %50
  %57 = icmp sge i32 %56, %5
  %58 = select i1 %55, i1 %57, i1 false
  br i1 %58, label %59, label %66

59:                                               ; preds = %49
  %60 = icmp eq i32 %50, 24
  br i1 %60, label %64, label %61

61:                                               ; preds = %59
  %62 = load i8, ptr %51, align 1, !tbaa !25
  %63 = icmp eq i8 %62, 48
  br i1 %63, label %66, label %64

64:                                               ; preds = %61, %59
  %65 = getelementptr inbounds i8, ptr %51, i32 -1
  store i8 48, ptr %65, align 1, !tbaa !25
  br label %66

66:                                               ; preds = %64, %61, %49
  %67 = phi ptr [ %65, %64 ], [ %51, %61 ], [ %51, %49 ]
  %68 = getelementptr inbounds i8, ptr %7, i32 24
  %69 = ptrtoint ptr %68 to i32
  %70 = icmp eq i32 %2, 16
  %71 = icmp ne i64 %1, 0
  %72 = and i1 %71, %70
  %73 = and i1 %72, %53
  %74 = select i1 %9, ptr @.str.6.24, ptr @.str.5.25
  %75 = select i1 %73, ptr %74, ptr @.str.13
  %76 = ptrtoint ptr %67 to i32
  %77 = sub i32 %69, %76
  %78 = call fastcc i32 @number(ptr noundef %0, ptr noundef nonnull %75, ptr noundef nonnull %67, i32 noundef %77, i32 noundef %3, i32 noundef %4, i32 noundef %5) #20
  call void @llvm.lifetime.end.p0(i64 24, ptr nonnull %7) #14
  ret i32 %78
}

; Function Attrs: nounwind optsize
define internal noundef i32 @__print_text(ptr nocapture noundef %0, ptr nocapture noundef readonly %1, i32 noundef returned %2) local_unnamed_addr #1 {
  %4 = load i8, ptr %0, align 4, !tbaa !49, !alias.scope !51, !noalias !54
  %5 = icmp eq i8 %4, 0
  %6 = icmp eq i32 %2, 0
  %7 = or i1 %6, %5
  br i1 %7, label %16, label %8

8:                                                ; preds = %8, %3
  %9 = phi i32 [ %14, %8 ], [ 0, %3 ]
  %10 = getelementptr inbounds i8, ptr %1, i32 %9
  %11 = load i8, ptr %10, align 1, !tbaa !25, !alias.scope !54, !noalias !51
  %12 = zext i8 %11 to i32
  %13 = tail call i32 @fputc(i32 noundef %12, ptr noundef nonnull %0) #20, !noalias !54
  %14 = add nuw i32 %9, 1
  %15 = icmp eq i32 %14, %2
  br i1 %15, label %16, label %8, !llvm.loop !56

16:                                               ; preds = %8, %3
  ret i32 %2
}

; Function Attrs: nounwind optsize
define internal i32 @__print_signed(ptr nocapture noundef %0, i64 noundef %1, i32 noundef %2, i32 noundef %3, i32 noundef %4) local_unnamed_addr #1 {
  %6 = alloca [24 x i8], align 1
  call void @llvm.lifetime.start.p0(i64 24, ptr nonnull %6) #14
  %7 = getelementptr inbounds i8, ptr %6, i32 24
  %8 = icmp slt i64 %1, 0
  %9 = lshr i64 %1, 63
  %10 = icmp ne i64 %9, 0
  %11 = sub i64 0, %1
  %12 = select i1 %10, i64 %11, i64 %1
  %13 = icmp ult i64 %12, 4294967296
  br i1 %13, label %14, label %28

14:                                               ; preds = %5
  %15 = trunc nuw i64 %12 to i32
  %16 = icmp eq i32 %15, 0
  br i1 %16, label %39, label %17

17:                                               ; preds = %17, %14
  %18 = phi i32 [ %21, %17 ], [ %15, %14 ]
  %19 = phi ptr [ %26, %17 ], [ %7, %14 ]
  %20 = freeze i32 %18
  %21 = udiv i32 %20, 10
  %22 = mul i32 %21, 10
  %23 = sub i32 %20, %22
  %24 = getelementptr inbounds i8, ptr @.str.9.17, i32 %23
  %25 = load i8, ptr %24, align 1, !tbaa !25
  %26 = getelementptr inbounds i8, ptr %19, i32 -1
  store i8 %25, ptr %26, align 1, !tbaa !25
  %27 = icmp ult i32 %18, 10
  br i1 %27, label %39, label %17, !llvm.loop !47

28:                                               ; preds = %28, %5
  %29 = phi ptr [ %37, %28 ], [ %7, %5 ]
  %30 = phi i64 [ %31, %28 ], [ %12, %5 ]
  %31 = udiv i64 %30, 10
  %32 = mul i64 %31, 10
  %33 = sub i64 %30, %32
  %34 = trunc nuw nsw i64 %33 to i32
  %35 = getelementptr inbounds i8, ptr @.str.9.17, i32 %34
  %36 = load i8, ptr %35, align 1, !tbaa !25
  %37 = getelementptr inbounds i8, ptr %29, i32 -1
  store i8 %36, ptr %37, align 1, !tbaa !25
  %38 = icmp ult i64 %30, 10
  br i1 %38, label %39, label %28, !llvm.loop !48

39:                                               ; preds = %28, %17, %14
  %40 = phi ptr [ %7, %14 ], [ %26, %17 ], [ %37, %28 ]
  %41 = icmp eq i64 %1, 0
  %42 = icmp ne i32 %4, 0
  %43 = and i1 %41, %42
  br i1 %43, label %44, label %46

44:                                               ; preds = %39
  %45 = getelementptr inbounds i8, ptr %40, i32 -1
  store i8 48, ptr %45, align 1, !tbaa !25
  br label %47

46:                                               ; preds = %39
  br i1 %8, label %55, label %47

47:                                               ; preds = %46, %44
  %48 = phi ptr [ %45, %44 ], [ %40, %46 ]
  %49 = and i32 %2, 2
  %50 = icmp eq i32 %49, 0
  br i1 %50, label %51, label %55

51:                                               ; preds = %47
  %52 = and i32 %2, 4
  %53 = icmp eq i32 %52, 0
  %54 = select i1 %53, ptr @.str.13, ptr @.str.4.18
  br label %55

55:                                               ; preds = %51, %47, %46
  %56 = phi ptr [ %40, %46 ], [ %48, %51 ], [ %48, %47 ]
  %57 = phi ptr [ @.str.2.19, %46 ], [ %54, %51 ], [ @.str.3.20, %47 ]
  %58 = ptrtoint ptr %7 to i32
  %59 = ptrtoint ptr %56 to i32
  %60 = sub i32 %58, %59
  %61 = call fastcc i32 @number(ptr noundef %0, ptr noundef nonnull %57, ptr noundef nonnull %56, i32 noundef %60, i32 noundef %2, i32 noundef %3, i32 noundef %4) #20
  call void @llvm.lifetime.end.p0(i64 24, ptr nonnull %6) #14
  ret i32 %61
}

; Function Attrs: mustprogress nofree norecurse nosync nounwind optsize willreturn memory(none)
define internal range(i32 0, 2) i32 @isprint(i32 noundef %0) local_unnamed_addr #9 {
  %2 = add i32 %0, -32
  %3 = icmp ult i32 %2, 95
  %4 = zext i1 %3 to i32
  ret i32 %4
}

; Function Attrs: nounwind optsize
define internal i32 @__print_character(ptr nocapture noundef %0, i32 noundef %1, i32 noundef %2, i32 noundef %3) local_unnamed_addr #1 {
  %5 = alloca i8, align 1
  call void @llvm.lifetime.start.p0(i64 1, ptr nonnull %5) #14
  %6 = trunc i32 %1 to i8
  store i8 %6, ptr %5, align 1, !tbaa !25
  %7 = call fastcc i32 @padded(ptr noundef %0, ptr noundef nonnull %5, i32 noundef 1, i32 noundef %2, i32 noundef %3) #20
  call void @llvm.lifetime.end.p0(i64 1, ptr nonnull %5) #14
  ret i32 %7
}

; Function Attrs: nounwind optsize
define internal i32 @__print_string(ptr nocapture noundef %0, ptr noundef %1, i32 noundef %2, i32 noundef %3, i32 noundef %4) local_unnamed_addr #1 {
  %6 = icmp eq ptr %1, null
  %7 = icmp ult i32 %4, 6
  %8 = select i1 %7, ptr @.str.13, ptr @.str.1.14
  %9 = select i1 %6, ptr %8, ptr %1
  %10 = icmp slt i32 %4, 0
  br i1 %10, label %11, label %20

11:                                               ; preds = %11, %5
  %12 = phi ptr [ %15, %11 ], [ %9, %5 ]
  %13 = load i8, ptr %12, align 1, !tbaa !25
  %14 = icmp eq i8 %13, 0
  %15 = getelementptr inbounds i8, ptr %12, i32 1
  br i1 %14, label %16, label %11, !llvm.loop !57

16:                                               ; preds = %11
  %17 = ptrtoint ptr %12 to i32
  %18 = ptrtoint ptr %9 to i32
  %19 = sub i32 %17, %18
  br label %30

20:                                               ; preds = %5
  %21 = icmp eq i32 %4, 0
  br i1 %21, label %30, label %22

22:                                               ; preds = %27, %20
  %23 = phi i32 [ %28, %27 ], [ 0, %20 ]
  %24 = getelementptr inbounds i8, ptr %9, i32 %23
  %25 = load i8, ptr %24, align 1, !tbaa !25
  %26 = icmp eq i8 %25, 0
  br i1 %26, label %30, label %27

27:                                               ; preds = %22
  %28 = add nuw nsw i32 %23, 1
  %29 = icmp eq i32 %28, %4
  br i1 %29, label %30, label %22, !llvm.loop !58

30:                                               ; preds = %27, %22, %20, %16
  %31 = phi i32 [ %19, %16 ], [ 0, %20 ], [ %23, %22 ], [ %4, %27 ]
  %32 = tail call fastcc i32 @padded(ptr noundef %0, ptr noundef nonnull %9, i32 noundef %31, i32 noundef %2, i32 noundef %3) #20
  ret i32 %32
}

; Function Attrs: nofree norecurse nosync nounwind optsize memory(read, inaccessiblemem: none)
define internal range(i32 -1, 2) i32 @bcmp(ptr nocapture noundef readonly %0, ptr nocapture noundef readonly %1, i32 noundef %2) local_unnamed_addr #10 {
  %4 = icmp eq i32 %2, 0
  br i1 %4, label %20, label %5

5:                                                ; preds = %15, %3
  %6 = phi ptr [ %18, %15 ], [ %1, %3 ]
  %7 = phi ptr [ %17, %15 ], [ %0, %3 ]
  %8 = phi i32 [ %16, %15 ], [ %2, %3 ]
  %9 = load i8, ptr %7, align 1, !tbaa !25
  %10 = load i8, ptr %6, align 1, !tbaa !25
  %11 = icmp eq i8 %9, %10
  br i1 %11, label %15, label %12

12:                                               ; preds = %5
  %13 = icmp ult i8 %9, %10
  %14 = select i1 %13, i32 -1, i32 1
  br label %20

15:                                               ; preds = %5
  %16 = add i32 %8, -1
  %17 = getelementptr inbounds i8, ptr %7, i32 1
  %18 = getelementptr inbounds i8, ptr %6, i32 1
  %19 = icmp eq i32 %16, 0
  br i1 %19, label %20, label %5, !llvm.loop !59

20:                                               ; preds = %15, %12, %3
  %21 = phi i32 [ %14, %12 ], [ 0, %3 ], [ 0, %15 ]
  ret i32 %21
}

; Function Attrs: noinline nounwind optsize
define internal void @__sized_free(ptr noundef %0) local_unnamed_addr #4 {
  %2 = icmp eq ptr %0, null
  br i1 %2, label %5, label %3

3:                                                ; preds = %1
  %4 = getelementptr inbounds i8, ptr %0, i32 -16
  tail call void @free(ptr noundef nonnull %4) #21
  br label %5

5:                                                ; preds = %3, %1
  ret void
}

; Function Attrs: mustprogress nounwind willreturn allockind("free") memory(argmem: readwrite, inaccessiblemem: readwrite)
declare dso_local void @free(ptr allocptr nocapture noundef) local_unnamed_addr #11

; Function Attrs: nounwind optsize
define internal fastcc i32 @padded(ptr nocapture noundef %0, ptr nocapture noundef readonly %1, i32 noundef %2, i32 noundef %3, i32 noundef %4) unnamed_addr #1 {
  %6 = icmp slt i32 %4, 0
  %7 = lshr i32 %4, 31
  %8 = icmp ne i32 %7, 0
  %9 = sub i32 0, %4
  %10 = select i1 %8, i32 %9, i32 %4
  %11 = sub nsw i32 %10, %2
  %12 = and i32 %3, 1
  %13 = icmp ne i32 %12, 0
  %14 = or i1 %6, %13
  br i1 %14, label %24, label %15

15:                                               ; preds = %5
  %16 = icmp sgt i32 %11, 0
  br i1 %16, label %17, label %22

17:                                               ; preds = %17, %15
  %18 = phi i32 [ %20, %17 ], [ 0, %15 ]
  %19 = tail call i32 @fputc(i32 noundef 32, ptr noundef %0) #20
  %20 = add nuw nsw i32 %18, 1
  %21 = icmp eq i32 %20, %11
  br i1 %21, label %22, label %17, !llvm.loop !60

22:                                               ; preds = %17, %15
  %23 = tail call noundef i32 @llvm.smax.i32(i32 %11, i32 0)
  br label %24

24:                                               ; preds = %22, %5
  %25 = phi i32 [ %23, %22 ], [ 0, %5 ]
  %26 = load i8, ptr %0, align 4, !tbaa !49, !alias.scope !61, !noalias !64
  %27 = icmp eq i8 %26, 0
  %28 = icmp eq i32 %2, 0
  %29 = or i1 %28, %27
  br i1 %29, label %38, label %30

30:                                               ; preds = %30, %24
  %31 = phi i32 [ %36, %30 ], [ 0, %24 ]
  %32 = getelementptr inbounds i8, ptr %1, i32 %31
  %33 = load i8, ptr %32, align 1, !tbaa !25, !alias.scope !64, !noalias !61
  %34 = zext i8 %33 to i32
  %35 = tail call i32 @fputc(i32 noundef %34, ptr noundef nonnull %0) #20, !noalias !64
  %36 = add nuw i32 %31, 1
  %37 = icmp eq i32 %36, %2
  br i1 %37, label %38, label %30, !llvm.loop !56

38:                                               ; preds = %30, %24
  br i1 %14, label %39, label %48

39:                                               ; preds = %38
  %40 = icmp sgt i32 %11, 0
  br i1 %40, label %41, label %46

41:                                               ; preds = %41, %39
  %42 = phi i32 [ %44, %41 ], [ 0, %39 ]
  %43 = tail call i32 @fputc(i32 noundef 32, ptr noundef nonnull %0) #20
  %44 = add nuw nsw i32 %42, 1
  %45 = icmp eq i32 %44, %11
  br i1 %45, label %46, label %41, !llvm.loop !60

46:                                               ; preds = %41, %39
  %47 = tail call noundef i32 @llvm.smax.i32(i32 %11, i32 0)
  br label %48

48:                                               ; preds = %46, %38
  %49 = phi i32 [ %47, %46 ], [ 0, %38 ]
  %50 = add nsw i32 %25, %2
  %51 = add nsw i32 %50, %49
  ret i32 %51
}

; Function Attrs: nounwind optsize
define internal range(i32 -1, 256) i32 @fputc(i32 noundef %0, ptr nocapture noundef %1) local_unnamed_addr #1 {
  %3 = load i8, ptr %1, align 4, !tbaa !49
  switch i8 %3, label %17 [
    i8 1, label %4
    i8 3, label %6
    i8 0, label %19
  ]

4:                                                ; preds = %2
  %5 = tail call i32 @putchar(i32 noundef %0) #21
  br label %17

6:                                                ; preds = %2
  %7 = getelementptr inbounds i8, ptr %1, i32 8
  %8 = load i32, ptr %7, align 4, !tbaa !66
  %9 = icmp eq i32 %8, 0
  br i1 %9, label %17, label %10

10:                                               ; preds = %6
  %11 = trunc i32 %0 to i8
  %12 = getelementptr inbounds i8, ptr %1, i32 4
  %13 = load ptr, ptr %12, align 4, !tbaa !67
  %14 = getelementptr inbounds i8, ptr %13, i32 1
  store ptr %14, ptr %12, align 4, !tbaa !67
  store i8 %11, ptr %13, align 1, !tbaa !25
  %15 = load i32, ptr %7, align 4, !tbaa !66
  %16 = add i32 %15, -1
  store i32 %16, ptr %7, align 4, !tbaa !66
  br label %17

17:                                               ; preds = %10, %6, %4, %2
  %18 = and i32 %0, 255
  br label %19

19:                                               ; preds = %17, %2
  %20 = phi i32 [ %18, %17 ], [ -1, %2 ]
  ret i32 %20
}

; Function Attrs: nocallback nofree nosync nounwind speculatable willreturn memory(none)
declare i32 @llvm.smax.i32(i32, i32) #6

; Function Attrs: optsize
declare dso_local i32 @putchar(i32 noundef) local_unnamed_addr #12

; Function Attrs: nounwind optsize
define internal fastcc i32 @number(ptr nocapture noundef %0, ptr noundef %1, ptr nocapture noundef readonly %2, i32 noundef %3, i32 noundef %4, i32 noundef %5, i32 noundef %6) unnamed_addr #1 {
  br label %8

8:                                                ; preds = %8, %7
  %9 = phi ptr [ %1, %7 ], [ %12, %8 ]
  %10 = load i8, ptr %9, align 1, !tbaa !25
  %11 = icmp eq i8 %10, 0
  %12 = getelementptr inbounds i8, ptr %9, i32 1
  br i1 %11, label %13, label %8, !llvm.loop !57

13:                                               ; preds = %8
  %14 = ptrtoint ptr %9 to i32
  %15 = ptrtoint ptr %1 to i32
  %16 = sub i32 %14, %15
  %17 = sub nsw i32 %6, %3
  %18 = lshr i32 %5, 31
  %19 = icmp ne i32 %18, 0
  %20 = sub i32 0, %5
  %21 = select i1 %19, i32 %20, i32 %5
  %22 = tail call i32 @llvm.smax.i32(i32 %17, i32 0)
  %23 = icmp slt i32 %6, 0
  %24 = and i32 %4, 16
  %25 = icmp ne i32 %24, 0
  %26 = and i1 %25, %23
  %27 = and i32 %4, 1
  %28 = or i32 %18, %27
  %29 = icmp eq i32 %28, 0
  %30 = and i1 %26, %29
  %31 = add i32 %16, %3
  %32 = icmp sgt i32 %21, %31
  %33 = select i1 %30, i1 %32, i1 false
  %34 = sub i32 %21, %31
  %35 = select i1 %33, i32 %34, i32 %22
  %36 = add i32 %31, %35
  %37 = sub i32 %21, %36
  br i1 %29, label %38, label %47

38:                                               ; preds = %13
  %39 = icmp sgt i32 %37, 0
  br i1 %39, label %40, label %45

40:                                               ; preds = %40, %38
  %41 = phi i32 [ %43, %40 ], [ 0, %38 ]
  %42 = tail call i32 @fputc(i32 noundef 32, ptr noundef %0) #20
  %43 = add nuw nsw i32 %41, 1
  %44 = icmp eq i32 %43, %37
  br i1 %44, label %45, label %40, !llvm.loop !60

45:                                               ; preds = %40, %38
  %46 = tail call noundef i32 @llvm.smax.i32(i32 %37, i32 0)
  br label %47

47:                                               ; preds = %45, %13
  %48 = phi i32 [ 0, %13 ], [ %46, %45 ]
  %49 = load i8, ptr %0, align 4, !tbaa !49, !alias.scope !68, !noalias !71
  %50 = icmp eq i8 %49, 0
  %51 = icmp eq ptr %9, %1
  %52 = or i1 %51, %50
  br i1 %52, label %61, label %53

53:                                               ; preds = %53, %47
  %54 = phi i32 [ %59, %53 ], [ 0, %47 ]
  %55 = getelementptr inbounds i8, ptr %1, i32 %54
  %56 = load i8, ptr %55, align 1, !tbaa !25, !alias.scope !71, !noalias !68
  %57 = zext i8 %56 to i32
  %58 = tail call i32 @fputc(i32 noundef %57, ptr noundef nonnull %0) #20, !noalias !71
  %59 = add nuw i32 %54, 1
  %60 = icmp eq i32 %59, %16
  br i1 %60, label %61, label %53, !llvm.loop !56

61:                                               ; preds = %53, %47
  %62 = icmp sgt i32 %35, 0
  br i1 %62, label %63, label %68

63:                                               ; preds = %63, %61
  %64 = phi i32 [ %66, %63 ], [ 0, %61 ]
  %65 = tail call i32 @fputc(i32 noundef 48, ptr noundef nonnull %0) #20
  %66 = add nuw nsw i32 %64, 1
  %67 = icmp eq i32 %66, %35
  br i1 %67, label %68, label %63, !llvm.loop !60

68:                                               ; preds = %63, %61
  %69 = tail call noundef i32 @llvm.smax.i32(i32 %35, i32 0)
  %70 = load i8, ptr %0, align 4, !tbaa !49, !alias.scope !73, !noalias !76
  %71 = icmp eq i8 %70, 0
  %72 = icmp eq i32 %3, 0
  %73 = or i1 %72, %71
  br i1 %73, label %82, label %74

74:                                               ; preds = %74, %68
  %75 = phi i32 [ %80, %74 ], [ 0, %68 ]
  %76 = getelementptr inbounds i8, ptr %2, i32 %75
  %77 = load i8, ptr %76, align 1, !tbaa !25, !alias.scope !76, !noalias !73
  %78 = zext i8 %77 to i32
  %79 = tail call i32 @fputc(i32 noundef %78, ptr noundef nonnull %0) #20, !noalias !76
  %80 = add nuw i32 %75, 1
  %81 = icmp eq i32 %80, %3
  br i1 %81, label %82, label %74, !llvm.loop !56

82:                                               ; preds = %74, %68
  %83 = add i32 %31, %69
  %84 = add i32 %83, %48
  br i1 %29, label %95, label %85

85:                                               ; preds = %82
  %86 = icmp sgt i32 %37, 0
  br i1 %86, label %87, label %92

87:                                               ; preds = %87, %85
  %88 = phi i32 [ %90, %87 ], [ 0, %85 ]
  %89 = tail call i32 @fputc(i32 noundef 32, ptr noundef nonnull %0) #20
  %90 = add nuw nsw i32 %88, 1
  %91 = icmp eq i32 %90, %37
  br i1 %91, label %92, label %87, !llvm.loop !60

92:                                               ; preds = %87, %85
  %93 = tail call noundef i32 @llvm.smax.i32(i32 %37, i32 0)
  %94 = add nsw i32 %84, %93
  br label %95

95:                                               ; preds = %92, %82
  %96 = phi i32 [ %94, %92 ], [ %84, %82 ]
  ret i32 %96
}

; Function Attrs: nocallback nofree nosync nounwind speculatable willreturn memory(none)
declare i32 @llvm.umin.i32(i32, i32) #6

; Function Attrs: nounwind optsize
define internal fastcc void @sink(ptr noundef %0, i32 noundef %1, i32 noundef %2, i32 noundef %3, ptr nocapture noundef readonly %4) unnamed_addr #1 {
  %6 = shl i32 %1, 1
  %7 = or disjoint i32 %6, 1
  %8 = icmp ult i32 %7, %2
  br i1 %8, label %9, label %48

9:                                                ; preds = %5
  %10 = icmp eq i32 %3, 0
  br label %11

11:                                               ; preds = %44, %9
  %12 = phi i32 [ %7, %9 ], [ %46, %44 ]
  %13 = phi i32 [ %6, %9 ], [ %45, %44 ]
  %14 = phi i32 [ %1, %9 ], [ %26, %44 ]
  %15 = add nuw i32 %13, 2
  %16 = icmp ult i32 %15, %2
  br i1 %16, label %17, label %25

17:                                               ; preds = %11
  %18 = mul i32 %12, %3
  %19 = getelementptr inbounds i8, ptr %0, i32 %18
  %20 = mul i32 %15, %3
  %21 = getelementptr inbounds i8, ptr %0, i32 %20
  %22 = tail call i32 %4(ptr noundef %19, ptr noundef %21) #21
  %23 = icmp slt i32 %22, 0
  %24 = select i1 %23, i32 %15, i32 %12
  br label %25

25:                                               ; preds = %17, %11
  %26 = phi i32 [ %12, %11 ], [ %24, %17 ]
  %27 = mul i32 %14, %3
  %28 = getelementptr inbounds i8, ptr %0, i32 %27
  %29 = mul i32 %26, %3
  %30 = getelementptr inbounds i8, ptr %0, i32 %29
  %31 = tail call i32 %4(ptr noundef %28, ptr noundef %30) #21
  %32 = icmp sgt i32 %31, -1
  br i1 %32, label %48, label %33

33:                                               ; preds = %25
  br i1 %10, label %44, label %34

34:                                               ; preds = %34, %33
  %35 = phi ptr [ %41, %34 ], [ %28, %33 ]
  %36 = phi i32 [ %38, %34 ], [ %3, %33 ]
  %37 = phi ptr [ %42, %34 ], [ %30, %33 ]
  %38 = add i32 %36, -1
  %39 = load i8, ptr %35, align 1, !tbaa !25
  %40 = load i8, ptr %37, align 1, !tbaa !25
  %41 = getelementptr inbounds i8, ptr %35, i32 1
  store i8 %40, ptr %35, align 1, !tbaa !25
  %42 = getelementptr inbounds i8, ptr %37, i32 1
  store i8 %39, ptr %37, align 1, !tbaa !25
  %43 = icmp eq i32 %38, 0
  br i1 %43, label %44, label %34, !llvm.loop !39

44:                                               ; preds = %34, %33
  %45 = shl i32 %26, 1
  %46 = or disjoint i32 %45, 1
  %47 = icmp ult i32 %46, %2
  br i1 %47, label %11, label %48, !llvm.loop !78

48:                                               ; preds = %44, %25, %5
  ret void
}

; Function Attrs: nounwind optsize
define internal fastcc void @merge_sort(ptr noundef %0, i32 noundef %1, i32 noundef %2, ptr noundef %3, ptr noundef %4) unnamed_addr #1 {
  %6 = icmp ult i32 %1, 2
  br i1 %6, label %85, label %7

7:                                                ; preds = %5
  %8 = lshr i32 %1, 1
  tail call fastcc void @merge_sort(ptr noundef %0, i32 noundef %8, i32 noundef %2, ptr noundef %3, ptr noundef %4) #20
  %9 = mul i32 %8, %2
  %10 = getelementptr inbounds i8, ptr %0, i32 %9
  %11 = sub i32 %1, %8
  tail call fastcc void @merge_sort(ptr noundef %10, i32 noundef %11, i32 noundef %2, ptr noundef %3, ptr noundef %4) #20
  %12 = icmp eq i32 %9, 0
  br i1 %12, label %22, label %13

13:                                               ; preds = %13, %7
  %14 = phi ptr [ %18, %13 ], [ %0, %7 ]
  %15 = phi ptr [ %20, %13 ], [ %4, %7 ]
  %16 = phi i32 [ %17, %13 ], [ %9, %7 ]
  %17 = add i32 %16, -1
  %18 = getelementptr inbounds i8, ptr %14, i32 1
  %19 = load i8, ptr %14, align 1, !tbaa !25, !alias.scope !79, !noalias !82
  %20 = getelementptr inbounds i8, ptr %15, i32 1
  store i8 %19, ptr %15, align 1, !tbaa !25, !alias.scope !82, !noalias !79
  %21 = icmp eq i32 %17, 0
  br i1 %21, label %22, label %13, !llvm.loop !46

22:                                               ; preds = %13, %7
  %23 = icmp eq i32 %11, 0
  br i1 %23, label %71, label %24

24:                                               ; preds = %22
  %25 = icmp eq i32 %2, 0
  br label %26

26:                                               ; preds = %60, %24
  %27 = phi ptr [ %0, %24 ], [ %65, %60 ]
  %28 = phi ptr [ %4, %24 ], [ %64, %60 ]
  %29 = phi i32 [ %11, %24 ], [ %63, %60 ]
  %30 = phi ptr [ %10, %24 ], [ %62, %60 ]
  %31 = phi i32 [ %8, %24 ], [ %61, %60 ]
  %32 = tail call i32 %3(ptr noundef %28, ptr noundef %30) #21
  %33 = icmp slt i32 %32, 1
  br i1 %33, label %34, label %47

34:                                               ; preds = %26
  br i1 %25, label %44, label %35

35:                                               ; preds = %35, %34
  %36 = phi ptr [ %40, %35 ], [ %28, %34 ]
  %37 = phi ptr [ %42, %35 ], [ %27, %34 ]
  %38 = phi i32 [ %39, %35 ], [ %2, %34 ]
  %39 = add i32 %38, -1
  %40 = getelementptr inbounds i8, ptr %36, i32 1
  %41 = load i8, ptr %36, align 1, !tbaa !25, !alias.scope !84, !noalias !87
  %42 = getelementptr inbounds i8, ptr %37, i32 1
  store i8 %41, ptr %37, align 1, !tbaa !25, !alias.scope !87, !noalias !84
  %43 = icmp eq i32 %39, 0
  br i1 %43, label %44, label %35, !llvm.loop !46

44:                                               ; preds = %35, %34
  %45 = getelementptr inbounds i8, ptr %28, i32 %2
  %46 = add nsw i32 %31, -1
  br label %60

47:                                               ; preds = %26
  br i1 %25, label %57, label %48

48:                                               ; preds = %48, %47
  %49 = phi ptr [ %53, %48 ], [ %30, %47 ]
  %50 = phi ptr [ %55, %48 ], [ %27, %47 ]
  %51 = phi i32 [ %52, %48 ], [ %2, %47 ]
  %52 = add i32 %51, -1
  %53 = getelementptr inbounds i8, ptr %49, i32 1
  %54 = load i8, ptr %49, align 1, !tbaa !25, !alias.scope !89, !noalias !92
  %55 = getelementptr inbounds i8, ptr %50, i32 1
  store i8 %54, ptr %50, align 1, !tbaa !25, !alias.scope !92, !noalias !89
  %56 = icmp eq i32 %52, 0
  br i1 %56, label %57, label %48, !llvm.loop !46

57:                                               ; preds = %48, %47
  %58 = getelementptr inbounds i8, ptr %30, i32 %2
  %59 = add i32 %29, -1
  br label %60

60:                                               ; preds = %57, %44
  %61 = phi i32 [ %46, %44 ], [ %31, %57 ]
  %62 = phi ptr [ %30, %44 ], [ %58, %57 ]
  %63 = phi i32 [ %29, %44 ], [ %59, %57 ]
  %64 = phi ptr [ %45, %44 ], [ %28, %57 ]
  %65 = getelementptr inbounds i8, ptr %27, i32 %2
  %66 = icmp ne i32 %61, 0
  %67 = icmp ne i32 %63, 0
  %68 = select i1 %66, i1 %67, i1 false
  br i1 %68, label %26, label %69, !llvm.loop !94

69:                                               ; preds = %60
  %70 = mul i32 %61, %2
  br label %71

71:                                               ; preds = %69, %22
  %72 = phi i32 [ %70, %69 ], [ %9, %22 ]
  %73 = phi ptr [ %64, %69 ], [ %4, %22 ]
  %74 = phi ptr [ %65, %69 ], [ %0, %22 ]
  %75 = icmp eq i32 %72, 0
  br i1 %75, label %85, label %76

76:                                               ; preds = %76, %71
  %77 = phi ptr [ %81, %76 ], [ %73, %71 ]
  %78 = phi ptr [ %83, %76 ], [ %74, %71 ]
  %79 = phi i32 [ %80, %76 ], [ %72, %71 ]
  %80 = add i32 %79, -1
  %81 = getelementptr inbounds i8, ptr %77, i32 1
  %82 = load i8, ptr %77, align 1, !tbaa !25, !alias.scope !95, !noalias !98
  %83 = getelementptr inbounds i8, ptr %78, i32 1
  store i8 %82, ptr %78, align 1, !tbaa !25, !alias.scope !98, !noalias !95
  %84 = icmp eq i32 %80, 0
  br i1 %84, label %85, label %76, !llvm.loop !46

85:                                               ; preds = %76, %71, %5
  ret void
}

; Function Attrs: nocallback nofree nosync nounwind speculatable willreturn memory(none)
declare i32 @llvm.umax.i32(i32, i32) #6

; Function Attrs: mustprogress nofree nounwind willreturn allockind("alloc,uninitialized") allocsize(0) memory(inaccessiblemem: readwrite)
declare dso_local noalias noundef ptr @malloc(i32 noundef) local_unnamed_addr #13

; Function Attrs: optsize
declare dso_local ptr @calloc(i32 noundef, i32 noundef) local_unnamed_addr #12

; Function Attrs: nounwind optsize
define internal i32 @fgetc(ptr nocapture noundef %0) local_unnamed_addr #1 {
  %2 = load i8, ptr %0, align 4, !tbaa !49
  %3 = icmp eq i8 %2, 0
  br i1 %3, label %4, label %20

4:                                                ; preds = %1
  %5 = getelementptr inbounds i8, ptr %0, i32 2
  %6 = load i8, ptr %5, align 2, !tbaa !100
  %7 = icmp eq i8 %6, 0
  br i1 %7, label %12, label %8

8:                                                ; preds = %4
  store i8 0, ptr %5, align 2, !tbaa !100
  %9 = getelementptr inbounds i8, ptr %0, i32 3
  %10 = load i8, ptr %9, align 1, !tbaa !101
  %11 = zext i8 %10 to i32
  br label %20

12:                                               ; preds = %4
  %13 = getelementptr inbounds i8, ptr %0, i32 1
  %14 = load i8, ptr %13, align 1, !tbaa !102
  %15 = icmp eq i8 %14, 0
  br i1 %15, label %16, label %20

16:                                               ; preds = %12
  %17 = tail call i32 @getchar() #21
  %18 = icmp eq i32 %17, -1
  br i1 %18, label %19, label %20

19:                                               ; preds = %16
  store i8 1, ptr %13, align 1, !tbaa !102
  br label %20

20:                                               ; preds = %19, %16, %12, %8, %1
  %21 = phi i32 [ %11, %8 ], [ -1, %1 ], [ -1, %12 ], [ -1, %19 ], [ %17, %16 ]
  ret i32 %21
}

; Function Attrs: optsize
declare dso_local i32 @getchar() local_unnamed_addr #12

attributes #0 = { nounwind "no-trapping-math"="true" "stack-protector-buffer-size"="8" "target-cpu"="generic" "target-features"="+armv7-a,+dsp,+soft-float,-aes,-bf16,-d32,-dotprod,-fp-armv8,-fp-armv8d16,-fp-armv8d16sp,-fp-armv8sp,-fp16,-fp16fml,-fp64,-fpregs,-fullfp16,-mve,-mve.fp,-neon,-sha2,-thumb-mode,-vfp2,-vfp2sp,-vfp3,-vfp3d16,-vfp3d16sp,-vfp3sp,-vfp4,-vfp4d16,-vfp4d16sp,-vfp4sp" "use-soft-float"="true" }
attributes #1 = { nounwind optsize "no-builtins" "no-jump-tables"="true" "no-trapping-math"="true" "stack-protector-buffer-size"="8" "target-cpu"="generic" "target-features"="+armv7-a,+dsp,+soft-float,-aes,-bf16,-d32,-dotprod,-fp-armv8,-fp-armv8d16,-fp-armv8d16sp,-fp-armv8sp,-fp16,-fp16fml,-fp64,-fpregs,-fullfp16,-mve,-mve.fp,-neon,-sha2,-thumb-mode,-vfp2,-vfp2sp,-vfp3,-vfp3d16,-vfp3d16sp,-vfp3sp,-vfp4,-vfp4d16,-vfp4d16sp,-vfp4sp" "use-soft-float"="true" }
attributes #2 = { nocallback nofree nosync nounwind willreturn memory(argmem: readwrite) }
attributes #3 = { nocallback nofree nounwind willreturn memory(argmem: write) }
attributes #4 = { noinline nounwind optsize "no-builtins" "no-jump-tables"="true" "no-trapping-math"="true" "stack-protector-buffer-size"="8" "target-cpu"="generic" "target-features"="+armv7-a,+dsp,+soft-float,-aes,-bf16,-d32,-dotprod,-fp-armv8,-fp-armv8d16,-fp-armv8d16sp,-fp-armv8sp,-fp16,-fp16fml,-fp64,-fpregs,-fullfp16,-mve,-mve.fp,-neon,-sha2,-thumb-mode,-vfp2,-vfp2sp,-vfp3,-vfp3d16,-vfp3d16sp,-vfp3sp,-vfp4,-vfp4d16,-vfp4d16sp,-vfp4sp" "use-soft-float"="true" }
attributes #5 = { noreturn nounwind "no-trapping-math"="true" "stack-protector-buffer-size"="8" "target-cpu"="generic" "target-features"="+armv7-a,+dsp,+soft-float,-aes,-bf16,-d32,-dotprod,-fp-armv8,-fp-armv8d16,-fp-armv8d16sp,-fp-armv8sp,-fp16,-fp16fml,-fp64,-fpregs,-fullfp16,-mve,-mve.fp,-neon,-sha2,-thumb-mode,-vfp2,-vfp2sp,-vfp3,-vfp3d16,-vfp3d16sp,-vfp3sp,-vfp4,-vfp4d16,-vfp4d16sp,-vfp4sp" "use-soft-float"="true" }
attributes #6 = { nocallback nofree nosync nounwind speculatable willreturn memory(none) }
attributes #7 = { nofree nounwind "no-trapping-math"="true" "stack-protector-buffer-size"="8" "target-cpu"="generic" "target-features"="+armv7-a,+dsp,+soft-float,-aes,-bf16,-d32,-dotprod,-fp-armv8,-fp-armv8d16,-fp-armv8d16sp,-fp-armv8sp,-fp16,-fp16fml,-fp64,-fpregs,-fullfp16,-mve,-mve.fp,-neon,-sha2,-thumb-mode,-vfp2,-vfp2sp,-vfp3,-vfp3d16,-vfp3d16sp,-vfp3sp,-vfp4,-vfp4d16,-vfp4d16sp,-vfp4sp" "use-soft-float"="true" }
attributes #8 = { mustprogress nofree norecurse nosync nounwind willreturn memory(read, inaccessiblemem: none) "no-trapping-math"="true" "stack-protector-buffer-size"="8" "target-cpu"="generic" "target-features"="+armv7-a,+dsp,+soft-float,-aes,-bf16,-d32,-dotprod,-fp-armv8,-fp-armv8d16,-fp-armv8d16sp,-fp-armv8sp,-fp16,-fp16fml,-fp64,-fpregs,-fullfp16,-mve,-mve.fp,-neon,-sha2,-thumb-mode,-vfp2,-vfp2sp,-vfp3,-vfp3d16,-vfp3d16sp,-vfp3sp,-vfp4,-vfp4d16,-vfp4d16sp,-vfp4sp" "use-soft-float"="true" }
attributes #9 = { mustprogress nofree norecurse nosync nounwind optsize willreturn memory(none) "no-builtins" "no-jump-tables"="true" "no-trapping-math"="true" "stack-protector-buffer-size"="8" "target-cpu"="generic" "target-features"="+armv7-a,+dsp,+soft-float,-aes,-bf16,-d32,-dotprod,-fp-armv8,-fp-armv8d16,-fp-armv8d16sp,-fp-armv8sp,-fp16,-fp16fml,-fp64,-fpregs,-fullfp16,-mve,-mve.fp,-neon,-sha2,-thumb-mode,-vfp2,-vfp2sp,-vfp3,-vfp3d16,-vfp3d16sp,-vfp3sp,-vfp4,-vfp4d16,-vfp4d16sp,-vfp4sp" "use-soft-float"="true" }
attributes #10 = { nofree norecurse nosync nounwind optsize memory(read, inaccessiblemem: none) "no-builtins" "no-jump-tables"="true" "no-trapping-math"="true" "stack-protector-buffer-size"="8" "target-cpu"="generic" "target-features"="+armv7-a,+dsp,+soft-float,-aes,-bf16,-d32,-dotprod,-fp-armv8,-fp-armv8d16,-fp-armv8d16sp,-fp-armv8sp,-fp16,-fp16fml,-fp64,-fpregs,-fullfp16,-mve,-mve.fp,-neon,-sha2,-thumb-mode,-vfp2,-vfp2sp,-vfp3,-vfp3d16,-vfp3d16sp,-vfp3sp,-vfp4,-vfp4d16,-vfp4d16sp,-vfp4sp" "use-soft-float"="true" }
attributes #11 = { mustprogress nounwind willreturn allockind("free") memory(argmem: readwrite, inaccessiblemem: readwrite) "alloc-family"="malloc" "no-trapping-math"="true" "stack-protector-buffer-size"="8" "target-cpu"="generic" "target-features"="+armv7-a,+dsp,+soft-float,-aes,-bf16,-d32,-dotprod,-fp-armv8,-fp-armv8d16,-fp-armv8d16sp,-fp-armv8sp,-fp16,-fp16fml,-fp64,-fpregs,-fullfp16,-mve,-mve.fp,-neon,-sha2,-thumb-mode,-vfp2,-vfp2sp,-vfp3,-vfp3d16,-vfp3d16sp,-vfp3sp,-vfp4,-vfp4d16,-vfp4d16sp,-vfp4sp" "use-soft-float"="true" }
attributes #12 = { optsize "no-builtins" "no-trapping-math"="true" "stack-protector-buffer-size"="8" "target-cpu"="generic" "target-features"="+armv7-a,+dsp,+soft-float,-aes,-bf16,-d32,-dotprod,-fp-armv8,-fp-armv8d16,-fp-armv8d16sp,-fp-armv8sp,-fp16,-fp16fml,-fp64,-fpregs,-fullfp16,-mve,-mve.fp,-neon,-sha2,-thumb-mode,-vfp2,-vfp2sp,-vfp3,-vfp3d16,-vfp3d16sp,-vfp3sp,-vfp4,-vfp4d16,-vfp4d16sp,-vfp4sp" "use-soft-float"="true" }
attributes #13 = { mustprogress nofree nounwind willreturn allockind("alloc,uninitialized") allocsize(0) memory(inaccessiblemem: readwrite) "alloc-family"="malloc" "no-trapping-math"="true" "stack-protector-buffer-size"="8" "target-cpu"="generic" "target-features"="+armv7-a,+dsp,+soft-float,-aes,-bf16,-d32,-dotprod,-fp-armv8,-fp-armv8d16,-fp-armv8d16sp,-fp-armv8sp,-fp16,-fp16fml,-fp64,-fpregs,-fullfp16,-mve,-mve.fp,-neon,-sha2,-thumb-mode,-vfp2,-vfp2sp,-vfp3,-vfp3d16,-vfp3d16sp,-vfp3sp,-vfp4,-vfp4d16,-vfp4d16sp,-vfp4sp" "use-soft-float"="true" }
attributes #14 = { nounwind }
attributes #15 = { allocsize(0,1) }
attributes #16 = { allocsize(0) }
attributes #17 = { noreturn nounwind }
attributes #18 = { allocsize(1) }
attributes #19 = { nounwind willreturn memory(read) }
attributes #20 = { nobuiltin optsize "no-builtins" }
attributes #21 = { nobuiltin nounwind optsize "no-builtins" }

!llvm.ident = !{!0, !0, !0, !0, !0, !0}
!llvm.module.flags = !{!1, !2, !3, !4}

!0 = !{!"Debian clang version 19.1.7 (3~deb12u1)"}
!1 = !{i32 7, !"Dwarf Version", i32 5}
!2 = !{i32 2, !"Debug Info Version", i32 3}
!3 = !{i32 1, !"wchar_size", i32 4}
!4 = !{i32 1, !"min_enum_size", i32 4}
!5 = !{!6, !6, i64 0}
!6 = !{!"int", !7, i64 0}
!7 = !{!"omnipotent char", !8, i64 0}
!8 = !{!"Simple C/C++ TBAA"}
!9 = !{!10, !6, i64 0}
!10 = !{!"node", !6, i64 0, !11, i64 4, !12, i64 8, !12, i64 12}
!11 = !{!"short", !7, i64 0}
!12 = !{!"any pointer", !7, i64 0}
!13 = !{!10, !11, i64 4}
!14 = !{!12, !12, i64 0}
!15 = distinct !{!15, !16}
!16 = !{!"llvm.loop.mustprogress"}
!17 = distinct !{!17, !16}
!18 = distinct !{!18, !16}
!19 = distinct !{!19, !16}
!20 = !{!10, !12, i64 8}
!21 = !{!10, !12, i64 12}
!22 = distinct !{!22, !16}
!23 = distinct !{!23, !16}
!24 = distinct !{!24, !16}
!25 = !{!7, !7, i64 0}
!26 = distinct !{!26, !16}
!27 = distinct !{!27, !16}
!28 = distinct !{!28, !16}
!29 = distinct !{!29, !16}
!30 = distinct !{!30, !16}
!31 = distinct !{!31, !16}
!32 = distinct !{!32, !16}
!33 = distinct !{!33, !16}
!34 = distinct !{!34, !16}
!35 = distinct !{!35, !16}
!36 = distinct !{!36, !16}
!37 = distinct !{!37, !16}
!38 = distinct !{!38, !16}
!39 = distinct !{!39, !16}
!40 = distinct !{!40, !16}
!41 = !{!42}
!42 = distinct !{!42, !43, !"memcpy: %from"}
!43 = distinct !{!43, !"memcpy"}
!44 = !{!45}
!45 = distinct !{!45, !43, !"memcpy: %to"}
!46 = distinct !{!46, !16}
!47 = distinct !{!47, !16}
!48 = distinct !{!48, !16}
!49 = !{!50, !7, i64 0}
!50 = !{!"__stream", !7, i64 0, !7, i64 1, !7, i64 2, !7, i64 3, !12, i64 4, !6, i64 8}
!51 = !{!52}
!52 = distinct !{!52, !53, !"fwrite: %stream"}
!53 = distinct !{!53, !"fwrite"}
!54 = !{!55}
!55 = distinct !{!55, !53, !"fwrite: %from"}
!56 = distinct !{!56, !16}
!57 = distinct !{!57, !16}
!58 = distinct !{!58, !16}
!59 = distinct !{!59, !16}
!60 = distinct !{!60, !16}
!61 = !{!62}
!62 = distinct !{!62, !63, !"fwrite: %stream"}
!63 = distinct !{!63, !"fwrite"}
!64 = !{!65}
!65 = distinct !{!65, !63, !"fwrite: %from"}
!66 = !{!50, !6, i64 8}
!67 = !{!50, !12, i64 4}
!68 = !{!69}
!69 = distinct !{!69, !70, !"fwrite: %stream"}
!70 = distinct !{!70, !"fwrite"}
!71 = !{!72}
!72 = distinct !{!72, !70, !"fwrite: %from"}
!73 = !{!74}
!74 = distinct !{!74, !75, !"fwrite: %stream"}
!75 = distinct !{!75, !"fwrite"}
!76 = !{!77}
!77 = distinct !{!77, !75, !"fwrite: %from"}
!78 = distinct !{!78, !16}
!79 = !{!80}
!80 = distinct !{!80, !81, !"memcpy: %from"}
!81 = distinct !{!81, !"memcpy"}
!82 = !{!83}
!83 = distinct !{!83, !81, !"memcpy: %to"}
!84 = !{!85}
!85 = distinct !{!85, !86, !"memcpy: %from"}
!86 = distinct !{!86, !"memcpy"}
!87 = !{!88}
!88 = distinct !{!88, !86, !"memcpy: %to"}
!89 = !{!90}
!90 = distinct !{!90, !91, !"memcpy: %from"}
!91 = distinct !{!91, !"memcpy"}
!92 = !{!93}
!93 = distinct !{!93, !91, !"memcpy: %to"}
!94 = distinct !{!94, !16}
!95 = !{!96}
!96 = distinct !{!96, !97, !"memcpy: %from"}
!97 = distinct !{!97, !"memcpy"}
!98 = !{!99}
!99 = distinct !{!99, !97, !"memcpy: %to"}
!100 = !{!50, !7, i64 2}
!101 = !{!50, !7, i64 3}
!102 = !{!50, !7, i64 1}
