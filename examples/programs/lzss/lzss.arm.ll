source_filename = "buffer.c"
target datalayout = "e-m:e-p:32:32-Fi8-i64:64-v128:64:128-a:0:32-n32-S64"
target triple = "armv7-unknown-linux-gnueabi"

%struct.packer = type { ptr, i32, [1024 x i32], [4096 x i32], ptr, i32, i32 }
%struct.__stream = type { i8, i8, i8, i8, ptr, i32 }
%struct.buffer = type { ptr, i32, i32 }

@.str = private unnamed_addr constant [15 x i8] c"out of memory\0A\00", align 1
@.str.1 = private unnamed_addr constant [36 x i8] c"%zu bytes become %zu, %zu per cent\0A\00", align 1
@.str.1.2 = private unnamed_addr constant [8 x i8] c"refused\00", align 1
@.str.2 = private unnamed_addr constant [26 x i8] c"checksums %08x %08x %08x\0A\00", align 1
@.str.3 = private unnamed_addr constant [6 x i8] c"equal\00", align 1
@.str.4 = private unnamed_addr constant [10 x i8] c"different\00", align 1
@.str.5 = private unnamed_addr constant [7 x i8] c"%04zx \00", align 1
@.str.6 = private unnamed_addr constant [6 x i8] c" %02x\00", align 1
@.str.7 = private unnamed_addr constant [2 x i8] c"\0A\00", align 1
@.str.8 = private unnamed_addr constant [45 x i8] c"damaged: %d refused, %d differ, %d the same\0A\00", align 1
@lzss_pack.it = internal unnamed_addr global %struct.packer zeroinitializer, align 4
@.str.9 = private unnamed_addr constant [52 x i8] c"distance > 0 && distance < WINDOW && length <= MOST\00", align 1
@.str.1.10 = private unnamed_addr constant [9 x i8] c"./pack.c\00", align 1
@__func__.lzss_pack = private unnamed_addr constant [10 x i8] c"lzss_pack\00", align 1
@.str.10 = private unnamed_addr constant [1 x i8] zeroinitializer, align 1
@.str.2.12 = private unnamed_addr constant [2 x i8] c"-\00", align 1
@.str.3.13 = private unnamed_addr constant [2 x i8] c"+\00", align 1
@.str.4.11 = private unnamed_addr constant [2 x i8] c" \00", align 1
@.str.5.18 = private unnamed_addr constant [3 x i8] c"0X\00", align 1
@.str.6.17 = private unnamed_addr constant [3 x i8] c"0x\00", align 1
@.str.8.16 = private unnamed_addr constant [17 x i8] c"0123456789ABCDEF\00", align 1
@.str.9.9 = private unnamed_addr constant [17 x i8] c"0123456789abcdef\00", align 1
@__streams = internal global [3 x %struct.__stream] [%struct.__stream zeroinitializer, %struct.__stream { i8 1, i8 0, i8 0, i8 0, ptr null, i32 0 }, %struct.__stream { i8 2, i8 0, i8 0, i8 0, ptr null, i32 0 }], align 4

; Function Attrs: nounwind
define dso_local range(i32 0, 2) i32 @main() local_unnamed_addr #0 {
  %1 = alloca %struct.buffer, align 4
  %2 = alloca [100 x i8], align 1
  %3 = alloca %struct.buffer, align 4
  %4 = alloca %struct.buffer, align 4
  call void @llvm.lifetime.start.p0(i64 12, ptr nonnull %3) #13
  call void @llvm.memset.p0.i32(ptr noundef nonnull align 4 dereferenceable(12) %3, i8 0, i32 12, i1 false)
  call void @llvm.lifetime.start.p0(i64 12, ptr nonnull %4) #13
  call void @llvm.memset.p0.i32(ptr noundef nonnull align 4 dereferenceable(12) %4, i8 0, i32 12, i1 false)
  call void @llvm.lifetime.start.p0(i64 100, ptr nonnull %2) #13
  %5 = call i32 @fread(ptr noundef nonnull %2, i32 noundef 1, i32 noundef 100, ptr noundef nonnull @__streams)
  %6 = icmp eq i32 %5, 0
  br i1 %6, label %38, label %10

7:                                                ; preds = %31
  %8 = call i32 @fread(ptr noundef nonnull %2, i32 noundef 1, i32 noundef 100, ptr noundef nonnull @__streams)
  %9 = icmp eq i32 %8, 0
  br i1 %9, label %38, label %10, !llvm.loop !5

10:                                               ; preds = %7, %0
  %11 = phi ptr [ %32, %7 ], [ null, %0 ]
  %12 = phi i32 [ %34, %7 ], [ 0, %0 ]
  %13 = phi i32 [ %33, %7 ], [ 0, %0 ]
  %14 = phi i32 [ %8, %7 ], [ %5, %0 ]
  br label %15

15:                                               ; preds = %31, %10
  %16 = phi ptr [ %11, %10 ], [ %32, %31 ]
  %17 = phi i32 [ %12, %10 ], [ %34, %31 ]
  %18 = phi i32 [ %13, %10 ], [ %33, %31 ]
  %19 = phi i32 [ 0, %10 ], [ %36, %31 ]
  %20 = getelementptr inbounds [100 x i8], ptr %2, i32 0, i32 %19
  %21 = load i8, ptr %20, align 1, !tbaa !7
  %22 = icmp eq i32 %17, %18
  br i1 %22, label %23, label %31

23:                                               ; preds = %15
  %24 = icmp eq i32 %17, 0
  %25 = shl i32 %17, 1
  %26 = select i1 %24, i32 64, i32 %25
  %27 = tail call ptr @realloc(ptr noundef %16, i32 noundef %26) #14
  %28 = icmp eq ptr %27, null
  br i1 %28, label %29, label %31

29:                                               ; preds = %23
  %30 = tail call i32 @__print_text(ptr nonnull getelementptr inbounds (i8, ptr @__streams, i32 24), ptr nonnull @.str, i32 14) #13
  tail call void @exit(i32 noundef 2) #15
  unreachable

31:                                               ; preds = %23, %15
  %32 = phi ptr [ %16, %15 ], [ %27, %23 ]
  %33 = phi i32 [ %18, %15 ], [ %26, %23 ]
  %34 = add i32 %17, 1
  %35 = getelementptr inbounds i8, ptr %32, i32 %17
  store i8 %21, ptr %35, align 1, !tbaa !7
  %36 = add nuw i32 %19, 1
  %37 = icmp eq i32 %36, %14
  br i1 %37, label %7, label %15, !llvm.loop !10

38:                                               ; preds = %7, %0
  %39 = phi ptr [ null, %0 ], [ %32, %7 ]
  %40 = phi i32 [ 0, %0 ], [ %34, %7 ]
  call void @llvm.lifetime.end.p0(i64 100, ptr nonnull %2) #13
  tail call void @llvm.memset.p0.i32(ptr noundef nonnull align 4 dereferenceable(20500) getelementptr inbounds (i8, ptr @lzss_pack.it, i32 4104), i8 0, i32 16392, i1 false)
  tail call void @llvm.memset.p0.i32(ptr noundef nonnull align 4 dereferenceable(4096) getelementptr inbounds (i8, ptr @lzss_pack.it, i32 8), i8 -1, i32 4096, i1 false), !tbaa !11
  store ptr %39, ptr @lzss_pack.it, align 4, !tbaa !13
  store i32 %40, ptr getelementptr inbounds (i8, ptr @lzss_pack.it, i32 4), align 4, !tbaa !16
  store ptr %3, ptr getelementptr inbounds (i8, ptr @lzss_pack.it, i32 20488), align 4, !tbaa !17
  store i32 8, ptr getelementptr inbounds (i8, ptr @lzss_pack.it, i32 20496), align 4, !tbaa !18
  %41 = icmp eq i32 %40, 0
  %42 = getelementptr inbounds i8, ptr %3, i32 4
  br i1 %41, label %43, label %45

43:                                               ; preds = %38
  %44 = load i32, ptr %42, align 4, !tbaa !19
  br label %266

45:                                               ; preds = %38
  %46 = getelementptr inbounds i8, ptr %3, i32 8
  br label %49

47:                                               ; preds = %260
  %48 = icmp ult i32 %237, %40
  br i1 %48, label %49, label %262, !llvm.loop !21

49:                                               ; preds = %47, %45
  %50 = phi ptr [ %39, %45 ], [ %232, %47 ]
  %51 = phi i32 [ %40, %45 ], [ %231, %47 ]
  %52 = phi i32 [ 0, %45 ], [ %237, %47 ]
  %53 = sub i32 %51, %52
  %54 = call i32 @llvm.umin.i32(i32 %53, i32 18)
  %55 = icmp ult i32 %53, 3
  br i1 %55, label %112, label %56

56:                                               ; preds = %49
  %57 = getelementptr inbounds i8, ptr %50, i32 %52
  %58 = load i8, ptr %57, align 1, !tbaa !7
  %59 = zext i8 %58 to i32
  %60 = getelementptr inbounds i8, ptr %57, i32 1
  %61 = load i8, ptr %60, align 1, !tbaa !7
  %62 = zext i8 %61 to i32
  %63 = shl nuw nsw i32 %62, 8
  %64 = or disjoint i32 %63, %59
  %65 = getelementptr inbounds i8, ptr %57, i32 2
  %66 = load i8, ptr %65, align 1, !tbaa !7
  %67 = zext i8 %66 to i32
  %68 = shl nuw nsw i32 %67, 16
  %69 = or disjoint i32 %64, %68
  %70 = mul i32 %69, -1640531535
  %71 = lshr i32 %70, 22
  %72 = getelementptr inbounds [1024 x i32], ptr getelementptr inbounds (i8, ptr @lzss_pack.it, i32 8), i32 0, i32 %71
  %73 = load i32, ptr %72, align 4, !tbaa !11
  %74 = icmp eq i32 %73, -1
  br i1 %74, label %112, label %75

75:                                               ; preds = %102, %56
  %76 = phi i32 [ %105, %102 ], [ 0, %56 ]
  %77 = phi i32 [ %110, %102 ], [ %73, %56 ]
  %78 = phi i32 [ %109, %102 ], [ 0, %56 ]
  %79 = phi i32 [ %106, %102 ], [ 0, %56 ]
  %80 = sub i32 %52, %77
  %81 = icmp ult i32 %80, 4096
  %82 = icmp ult i32 %78, 48
  %83 = select i1 %81, i1 %82, i1 false
  br i1 %83, label %90, label %84

84:                                               ; preds = %102, %75
  %85 = phi i32 [ %105, %102 ], [ %76, %75 ]
  %86 = phi i32 [ %106, %102 ], [ %79, %75 ]
  %87 = freeze i32 %86
  %88 = icmp ugt i32 %87, 2
  %89 = select i1 %88, i32 %87, i32 0
  br label %112

90:                                               ; preds = %75
  %91 = getelementptr inbounds i8, ptr %50, i32 %77
  br label %92

92:                                               ; preds = %99, %90
  %93 = phi i32 [ %100, %99 ], [ 0, %90 ]
  %94 = getelementptr inbounds i8, ptr %91, i32 %93
  %95 = load i8, ptr %94, align 1, !tbaa !7
  %96 = getelementptr inbounds i8, ptr %57, i32 %93
  %97 = load i8, ptr %96, align 1, !tbaa !7
  %98 = icmp eq i8 %95, %97
  br i1 %98, label %99, label %102

99:                                               ; preds = %92
  %100 = add nuw i32 %93, 1
  %101 = icmp eq i32 %100, %54
  br i1 %101, label %102, label %92, !llvm.loop !22

102:                                              ; preds = %99, %92
  %103 = phi i32 [ %54, %99 ], [ %93, %92 ]
  %104 = icmp ugt i32 %103, %79
  %105 = select i1 %104, i32 %80, i32 %76
  %106 = call i32 @llvm.umax.i32(i32 %103, i32 %79)
  %107 = srem i32 %77, 4096
  %108 = getelementptr inbounds [4096 x i32], ptr getelementptr inbounds (i8, ptr @lzss_pack.it, i32 4104), i32 0, i32 %107
  %109 = add nuw nsw i32 %78, 1
  %110 = load i32, ptr %108, align 4, !tbaa !11
  %111 = icmp eq i32 %110, -1
  br i1 %111, label %84, label %75, !llvm.loop !23

112:                                              ; preds = %84, %56, %49
  %113 = phi i32 [ 0, %49 ], [ 0, %56 ], [ %85, %84 ]
  %114 = phi i32 [ 0, %49 ], [ 0, %56 ], [ %89, %84 ]
  %115 = icmp ne i32 %114, 0
  %116 = zext i1 %115 to i32
  %117 = load i32, ptr getelementptr inbounds (i8, ptr @lzss_pack.it, i32 20496), align 4, !tbaa !18
  %118 = icmp eq i32 %117, 8
  %119 = load ptr, ptr getelementptr inbounds (i8, ptr @lzss_pack.it, i32 20488), align 4, !tbaa !17
  br i1 %118, label %120, label %144

120:                                              ; preds = %112
  %121 = getelementptr inbounds i8, ptr %119, i32 4
  %122 = load i32, ptr %121, align 4, !tbaa !19
  store i32 %122, ptr getelementptr inbounds (i8, ptr @lzss_pack.it, i32 20492), align 4, !tbaa !24
  store i32 0, ptr getelementptr inbounds (i8, ptr @lzss_pack.it, i32 20496), align 4, !tbaa !18
  %123 = getelementptr inbounds i8, ptr %119, i32 8
  %124 = load i32, ptr %123, align 4, !tbaa !25
  %125 = icmp eq i32 %122, %124
  %126 = load ptr, ptr %119, align 4, !tbaa !26
  br i1 %125, label %127, label %137

127:                                              ; preds = %120
  %128 = icmp eq i32 %122, 0
  %129 = shl i32 %122, 1
  %130 = select i1 %128, i32 64, i32 %129
  store i32 %130, ptr %123, align 4, !tbaa !25
  %131 = call ptr @realloc(ptr noundef %126, i32 noundef %130) #14
  %132 = icmp eq ptr %131, null
  br i1 %132, label %133, label %135

133:                                              ; preds = %127
  %134 = call i32 @__print_text(ptr nonnull getelementptr inbounds (i8, ptr @__streams, i32 24), ptr nonnull @.str, i32 14) #13
  call void @exit(i32 noundef 2) #15
  unreachable

135:                                              ; preds = %127
  store ptr %131, ptr %119, align 4, !tbaa !26
  %136 = load i32, ptr %121, align 4, !tbaa !19
  br label %137

137:                                              ; preds = %135, %120
  %138 = phi i32 [ %136, %135 ], [ %122, %120 ]
  %139 = phi ptr [ %131, %135 ], [ %126, %120 ]
  %140 = add i32 %138, 1
  store i32 %140, ptr %121, align 4, !tbaa !19
  %141 = getelementptr inbounds i8, ptr %139, i32 %138
  store i8 0, ptr %141, align 1, !tbaa !7
  %142 = load i32, ptr getelementptr inbounds (i8, ptr @lzss_pack.it, i32 20496), align 4, !tbaa !18
  %143 = load ptr, ptr getelementptr inbounds (i8, ptr @lzss_pack.it, i32 20488), align 4, !tbaa !17
  br label %144

144:                                              ; preds = %137, %112
  %145 = phi ptr [ %143, %137 ], [ %119, %112 ]
  %146 = phi i32 [ %142, %137 ], [ %117, %112 ]
  %147 = add nsw i32 %146, 1
  store i32 %147, ptr getelementptr inbounds (i8, ptr @lzss_pack.it, i32 20496), align 4, !tbaa !18
  %148 = shl nuw i32 %116, %146
  %149 = load ptr, ptr %145, align 4, !tbaa !26
  %150 = load i32, ptr getelementptr inbounds (i8, ptr @lzss_pack.it, i32 20492), align 4, !tbaa !24
  %151 = getelementptr inbounds i8, ptr %149, i32 %150
  %152 = load i8, ptr %151, align 1, !tbaa !7
  %153 = trunc i32 %148 to i8
  %154 = or i8 %152, %153
  store i8 %154, ptr %151, align 1, !tbaa !7
  %155 = icmp eq i32 %114, 0
  br i1 %155, label %156, label %178

156:                                              ; preds = %144
  %157 = getelementptr inbounds i8, ptr %39, i32 %52
  %158 = load i8, ptr %157, align 1, !tbaa !7
  %159 = load i32, ptr %42, align 4, !tbaa !19
  %160 = load i32, ptr %46, align 4, !tbaa !25
  %161 = icmp eq i32 %159, %160
  %162 = load ptr, ptr %3, align 4, !tbaa !26
  br i1 %161, label %163, label %173

163:                                              ; preds = %156
  %164 = icmp eq i32 %159, 0
  %165 = shl i32 %159, 1
  %166 = select i1 %164, i32 64, i32 %165
  store i32 %166, ptr %46, align 4, !tbaa !25
  %167 = call ptr @realloc(ptr noundef %162, i32 noundef %166) #14
  %168 = icmp eq ptr %167, null
  br i1 %168, label %169, label %171

169:                                              ; preds = %163
  %170 = call i32 @__print_text(ptr nonnull getelementptr inbounds (i8, ptr @__streams, i32 24), ptr nonnull @.str, i32 14) #13
  call void @exit(i32 noundef 2) #15
  unreachable

171:                                              ; preds = %163
  store ptr %167, ptr %3, align 4, !tbaa !26
  %172 = load i32, ptr %42, align 4, !tbaa !19
  br label %173

173:                                              ; preds = %171, %156
  %174 = phi i32 [ %172, %171 ], [ %159, %156 ]
  %175 = phi ptr [ %167, %171 ], [ %162, %156 ]
  %176 = add i32 %174, 1
  store i32 %176, ptr %42, align 4, !tbaa !19
  %177 = getelementptr inbounds i8, ptr %175, i32 %174
  store i8 %158, ptr %177, align 1, !tbaa !7
  br label %229

178:                                              ; preds = %144
  %179 = add i32 %113, -1
  %180 = icmp ult i32 %179, 4095
  %181 = icmp ult i32 %114, 19
  %182 = and i1 %180, %181
  br i1 %182, label %184, label %183

183:                                              ; preds = %178
  call void @__assert_fail(ptr noundef nonnull @.str.9, ptr noundef nonnull @.str.1.10, i32 noundef 80, ptr noundef nonnull @__func__.lzss_pack) #15
  unreachable

184:                                              ; preds = %178
  %185 = trunc i32 %113 to i8
  %186 = load i32, ptr %42, align 4, !tbaa !19
  %187 = load i32, ptr %46, align 4, !tbaa !25
  %188 = icmp eq i32 %186, %187
  %189 = load ptr, ptr %3, align 4, !tbaa !26
  br i1 %188, label %190, label %200

190:                                              ; preds = %184
  %191 = icmp eq i32 %186, 0
  %192 = shl i32 %186, 1
  %193 = select i1 %191, i32 64, i32 %192
  store i32 %193, ptr %46, align 4, !tbaa !25
  %194 = call ptr @realloc(ptr noundef %189, i32 noundef %193) #14
  %195 = icmp eq ptr %194, null
  br i1 %195, label %196, label %198

196:                                              ; preds = %190
  %197 = call i32 @__print_text(ptr nonnull getelementptr inbounds (i8, ptr @__streams, i32 24), ptr nonnull @.str, i32 14) #13
  call void @exit(i32 noundef 2) #15
  unreachable

198:                                              ; preds = %190
  store ptr %194, ptr %3, align 4, !tbaa !26
  %199 = load i32, ptr %42, align 4, !tbaa !19
  br label %200

200:                                              ; preds = %198, %184
  %201 = phi i32 [ %199, %198 ], [ %186, %184 ]
  %202 = phi ptr [ %194, %198 ], [ %189, %184 ]
  %203 = add i32 %201, 1
  store i32 %203, ptr %42, align 4, !tbaa !19
  %204 = getelementptr inbounds i8, ptr %202, i32 %201
  store i8 %185, ptr %204, align 1, !tbaa !7
  %205 = lshr i32 %113, 4
  %206 = and i32 %205, 240
  %207 = add nuw nsw i32 %114, 253
  %208 = or i32 %206, %207
  %209 = trunc i32 %208 to i8
  %210 = load i32, ptr %42, align 4, !tbaa !19
  %211 = load i32, ptr %46, align 4, !tbaa !25
  %212 = icmp eq i32 %210, %211
  %213 = load ptr, ptr %3, align 4, !tbaa !26
  br i1 %212, label %214, label %224

214:                                              ; preds = %200
  %215 = icmp eq i32 %210, 0
  %216 = shl i32 %210, 1
  %217 = select i1 %215, i32 64, i32 %216
  store i32 %217, ptr %46, align 4, !tbaa !25
  %218 = call ptr @realloc(ptr noundef %213, i32 noundef %217) #14
  %219 = icmp eq ptr %218, null
  br i1 %219, label %220, label %222

220:                                              ; preds = %214
  %221 = call i32 @__print_text(ptr nonnull getelementptr inbounds (i8, ptr @__streams, i32 24), ptr nonnull @.str, i32 14) #13
  call void @exit(i32 noundef 2) #15
  unreachable

222:                                              ; preds = %214
  store ptr %218, ptr %3, align 4, !tbaa !26
  %223 = load i32, ptr %42, align 4, !tbaa !19
  br label %224

224:                                              ; preds = %222, %200
  %225 = phi i32 [ %223, %222 ], [ %210, %200 ]
  %226 = phi ptr [ %218, %222 ], [ %213, %200 ]
  %227 = add i32 %225, 1
  store i32 %227, ptr %42, align 4, !tbaa !19
  %228 = getelementptr inbounds i8, ptr %226, i32 %225
  store i8 %209, ptr %228, align 1, !tbaa !7
  br label %229

229:                                              ; preds = %224, %173
  %230 = phi i32 [ 1, %173 ], [ %114, %224 ]
  %231 = load i32, ptr getelementptr inbounds (i8, ptr @lzss_pack.it, i32 4), align 4, !tbaa !16
  %232 = load ptr, ptr @lzss_pack.it, align 4
  br label %233

233:                                              ; preds = %260, %229
  %234 = phi i32 [ %230, %229 ], [ %236, %260 ]
  %235 = phi i32 [ %52, %229 ], [ %237, %260 ]
  %236 = add i32 %234, -1
  %237 = add i32 %235, 1
  %238 = add i32 %235, 3
  %239 = icmp ugt i32 %238, %231
  br i1 %239, label %260, label %240

240:                                              ; preds = %233
  %241 = getelementptr inbounds i8, ptr %232, i32 %235
  %242 = load i8, ptr %241, align 1, !tbaa !7
  %243 = zext i8 %242 to i32
  %244 = getelementptr inbounds i8, ptr %241, i32 1
  %245 = load i8, ptr %244, align 1, !tbaa !7
  %246 = zext i8 %245 to i32
  %247 = shl nuw nsw i32 %246, 8
  %248 = or disjoint i32 %247, %243
  %249 = getelementptr inbounds i8, ptr %241, i32 2
  %250 = load i8, ptr %249, align 1, !tbaa !7
  %251 = zext i8 %250 to i32
  %252 = shl nuw nsw i32 %251, 16
  %253 = or disjoint i32 %248, %252
  %254 = mul i32 %253, -1640531535
  %255 = lshr i32 %254, 22
  %256 = getelementptr inbounds [1024 x i32], ptr getelementptr inbounds (i8, ptr @lzss_pack.it, i32 8), i32 0, i32 %255
  %257 = load i32, ptr %256, align 4, !tbaa !11
  %258 = and i32 %235, 4095
  %259 = getelementptr inbounds [4096 x i32], ptr getelementptr inbounds (i8, ptr @lzss_pack.it, i32 4104), i32 0, i32 %258
  store i32 %257, ptr %259, align 4, !tbaa !11
  store i32 %235, ptr %256, align 4, !tbaa !11
  br label %260

260:                                              ; preds = %240, %233
  %261 = icmp eq i32 %236, 0
  br i1 %261, label %47, label %233, !llvm.loop !27

262:                                              ; preds = %47
  %263 = load i32, ptr %42, align 4, !tbaa !19
  %264 = mul i32 %263, 100
  %265 = udiv i32 %264, %40
  br label %266

266:                                              ; preds = %262, %43
  %267 = phi i32 [ %263, %262 ], [ %44, %43 ]
  %268 = phi i32 [ %265, %262 ], [ 100, %43 ]
  %269 = zext i32 %40 to i64
  %270 = call i32 @__print_unsigned(ptr nonnull getelementptr inbounds (i8, ptr @__streams, i32 12), i64 %269, i32 10, i32 0, i32 0, i32 -1) #13
  %271 = call i32 @__print_text(ptr nonnull getelementptr inbounds (i8, ptr @__streams, i32 12), ptr nonnull getelementptr inbounds (i8, ptr @.str.1, i32 3), i32 14) #13
  %272 = zext i32 %267 to i64
  %273 = call i32 @__print_unsigned(ptr nonnull getelementptr inbounds (i8, ptr @__streams, i32 12), i64 %272, i32 10, i32 0, i32 0, i32 -1) #13
  %274 = call i32 @__print_text(ptr nonnull getelementptr inbounds (i8, ptr @__streams, i32 12), ptr nonnull getelementptr inbounds (i8, ptr @.str.1, i32 20), i32 2) #13
  %275 = zext i32 %268 to i64
  %276 = call i32 @__print_unsigned(ptr nonnull getelementptr inbounds (i8, ptr @__streams, i32 12), i64 %275, i32 10, i32 0, i32 0, i32 -1) #13
  %277 = call i32 @__print_text(ptr nonnull getelementptr inbounds (i8, ptr @__streams, i32 12), ptr nonnull getelementptr inbounds (i8, ptr @.str.1, i32 25), i32 10) #13
  %278 = load i32, ptr %42, align 4, !tbaa !19
  %279 = icmp eq i32 %278, 0
  br i1 %279, label %307, label %280

280:                                              ; preds = %291, %266
  %281 = phi i32 [ %297, %291 ], [ 16, %266 ]
  %282 = phi i32 [ %286, %291 ], [ 0, %266 ]
  %283 = zext nneg i32 %282 to i64
  %284 = call i32 @__print_unsigned(ptr nonnull getelementptr inbounds (i8, ptr @__streams, i32 12), i64 %283, i32 16, i32 16, i32 4, i32 -1) #13
  %285 = call i32 @__print_text(ptr nonnull getelementptr inbounds (i8, ptr @__streams, i32 12), ptr nonnull getelementptr inbounds (i8, ptr @.str.5, i32 5), i32 1) #13
  %286 = add nuw nsw i32 %282, 16
  br label %287

287:                                              ; preds = %298, %280
  %288 = phi i32 [ %282, %280 ], [ %305, %298 ]
  %289 = load i32, ptr %42, align 4, !tbaa !19
  %290 = icmp ult i32 %288, %289
  br i1 %290, label %298, label %291

291:                                              ; preds = %298, %287
  %292 = call i32 @__print_text(ptr nonnull getelementptr inbounds (i8, ptr @__streams, i32 12), ptr nonnull @.str.7, i32 1) #13
  %293 = load i32, ptr %42, align 4, !tbaa !19
  %294 = icmp ult i32 %286, %293
  %295 = icmp ult i32 %282, 48
  %296 = and i1 %295, %294
  %297 = add nuw nsw i32 %281, 16
  br i1 %296, label %280, label %307, !llvm.loop !28

298:                                              ; preds = %287
  %299 = load ptr, ptr %3, align 4, !tbaa !26
  %300 = getelementptr inbounds i8, ptr %299, i32 %288
  %301 = load i8, ptr %300, align 1, !tbaa !7
  %302 = call i32 @__print_text(ptr nonnull getelementptr inbounds (i8, ptr @__streams, i32 12), ptr nonnull @.str.6, i32 1) #13
  %303 = zext i8 %301 to i64
  %304 = call i32 @__print_unsigned(ptr nonnull getelementptr inbounds (i8, ptr @__streams, i32 12), i64 %303, i32 16, i32 16, i32 2, i32 -1) #13
  %305 = add nuw nsw i32 %288, 1
  %306 = icmp eq i32 %305, %281
  br i1 %306, label %291, label %287, !llvm.loop !29

307:                                              ; preds = %291, %266
  %308 = phi i32 [ 0, %266 ], [ %293, %291 ]
  %309 = load ptr, ptr %3, align 4, !tbaa !26
  %310 = call fastcc i32 @lzss_unpack(ptr noundef nonnull %4, ptr noundef %309, i32 noundef %308)
  %311 = icmp eq i32 %310, 0
  br i1 %311, label %312, label %314

312:                                              ; preds = %307
  %313 = call i32 @puts(ptr noundef nonnull dereferenceable(1) @.str.1.2)
  br label %456

314:                                              ; preds = %307
  br i1 %41, label %331, label %318

315:                                              ; preds = %318
  %316 = shl nuw i32 %328, 16
  %317 = or disjoint i32 %316, %326
  br label %331

318:                                              ; preds = %318, %314
  %319 = phi i32 [ %329, %318 ], [ 0, %314 ]
  %320 = phi i32 [ %328, %318 ], [ 0, %314 ]
  %321 = phi i32 [ %326, %318 ], [ 1, %314 ]
  %322 = getelementptr inbounds i8, ptr %39, i32 %319
  %323 = load i8, ptr %322, align 1, !tbaa !7
  %324 = zext i8 %323 to i32
  %325 = add nuw nsw i32 %321, %324
  %326 = urem i32 %325, 65521
  %327 = add nuw nsw i32 %326, %320
  %328 = urem i32 %327, 65521
  %329 = add nuw i32 %319, 1
  %330 = icmp eq i32 %329, %40
  br i1 %330, label %315, label %318, !llvm.loop !30

331:                                              ; preds = %315, %314
  %332 = phi i32 [ 1, %314 ], [ %317, %315 ]
  %333 = load ptr, ptr %3, align 4, !tbaa !26
  %334 = load i32, ptr %42, align 4, !tbaa !19
  %335 = icmp eq i32 %334, 0
  br i1 %335, label %352, label %339

336:                                              ; preds = %339
  %337 = shl nuw i32 %349, 16
  %338 = or disjoint i32 %337, %347
  br label %352

339:                                              ; preds = %339, %331
  %340 = phi i32 [ %350, %339 ], [ 0, %331 ]
  %341 = phi i32 [ %349, %339 ], [ 0, %331 ]
  %342 = phi i32 [ %347, %339 ], [ 1, %331 ]
  %343 = getelementptr inbounds i8, ptr %333, i32 %340
  %344 = load i8, ptr %343, align 1, !tbaa !7
  %345 = zext i8 %344 to i32
  %346 = add nuw nsw i32 %342, %345
  %347 = urem i32 %346, 65521
  %348 = add nuw nsw i32 %347, %341
  %349 = urem i32 %348, 65521
  %350 = add nuw i32 %340, 1
  %351 = icmp eq i32 %350, %334
  br i1 %351, label %336, label %339, !llvm.loop !31

352:                                              ; preds = %336, %331
  %353 = phi i32 [ 1, %331 ], [ %338, %336 ]
  %354 = load ptr, ptr %4, align 4, !tbaa !26
  %355 = getelementptr inbounds i8, ptr %4, i32 4
  %356 = load i32, ptr %355, align 4, !tbaa !19
  %357 = icmp eq i32 %356, 0
  br i1 %357, label %374, label %361

358:                                              ; preds = %361
  %359 = shl nuw i32 %371, 16
  %360 = or disjoint i32 %359, %369
  br label %374

361:                                              ; preds = %361, %352
  %362 = phi i32 [ %372, %361 ], [ 0, %352 ]
  %363 = phi i32 [ %371, %361 ], [ 0, %352 ]
  %364 = phi i32 [ %369, %361 ], [ 1, %352 ]
  %365 = getelementptr inbounds i8, ptr %354, i32 %362
  %366 = load i8, ptr %365, align 1, !tbaa !7
  %367 = zext i8 %366 to i32
  %368 = add nuw nsw i32 %364, %367
  %369 = urem i32 %368, 65521
  %370 = add nuw nsw i32 %369, %363
  %371 = urem i32 %370, 65521
  %372 = add nuw i32 %362, 1
  %373 = icmp eq i32 %372, %356
  br i1 %373, label %358, label %361, !llvm.loop !32

374:                                              ; preds = %358, %352
  %375 = phi i32 [ 1, %352 ], [ %360, %358 ]
  %376 = call i32 @__print_text(ptr nonnull getelementptr inbounds (i8, ptr @__streams, i32 12), ptr nonnull @.str.2, i32 10) #13
  %377 = zext i32 %332 to i64
  %378 = call i32 @__print_unsigned(ptr nonnull getelementptr inbounds (i8, ptr @__streams, i32 12), i64 %377, i32 16, i32 16, i32 8, i32 -1) #13
  %379 = call i32 @__print_text(ptr nonnull getelementptr inbounds (i8, ptr @__streams, i32 12), ptr nonnull getelementptr inbounds (i8, ptr @.str.2, i32 14), i32 1) #13
  %380 = zext i32 %353 to i64
  %381 = call i32 @__print_unsigned(ptr nonnull getelementptr inbounds (i8, ptr @__streams, i32 12), i64 %380, i32 16, i32 16, i32 8, i32 -1) #13
  %382 = call i32 @__print_text(ptr nonnull getelementptr inbounds (i8, ptr @__streams, i32 12), ptr nonnull getelementptr inbounds (i8, ptr @.str.2, i32 19), i32 1) #13
  %383 = zext i32 %375 to i64
  %384 = call i32 @__print_unsigned(ptr nonnull getelementptr inbounds (i8, ptr @__streams, i32 12), i64 %383, i32 16, i32 16, i32 8, i32 -1) #13
  %385 = call i32 @__print_text(ptr nonnull getelementptr inbounds (i8, ptr @__streams, i32 12), ptr nonnull getelementptr inbounds (i8, ptr @.str.2, i32 24), i32 1) #13
  %386 = icmp eq i32 %356, %40
  br i1 %386, label %387, label %393

387:                                              ; preds = %374
  %388 = call i32 @bcmp(ptr %354, ptr %39, i32 %40)
  %389 = freeze i32 %388
  %390 = icmp ne i32 %389, 0
  %391 = select i1 %390, ptr @.str.4, ptr @.str.3
  %392 = zext i1 %390 to i32
  br label %393

393:                                              ; preds = %387, %374
  %394 = phi i32 [ 1, %374 ], [ %392, %387 ]
  %395 = phi ptr [ @.str.4, %374 ], [ %391, %387 ]
  %396 = call i32 @puts(ptr noundef nonnull dereferenceable(1) %395)
  %397 = load i32, ptr %42, align 4, !tbaa !19
  %398 = icmp eq i32 %397, 0
  br i1 %398, label %439, label %399

399:                                              ; preds = %393
  %400 = getelementptr inbounds i8, ptr %1, i32 4
  br label %401

401:                                              ; preds = %427, %399
  %402 = phi i32 [ 0, %399 ], [ %436, %427 ]
  %403 = phi i32 [ 0, %399 ], [ %430, %427 ]
  %404 = phi i32 [ 0, %399 ], [ %429, %427 ]
  %405 = phi i32 [ 0, %399 ], [ %428, %427 ]
  call void @llvm.lifetime.start.p0(i64 12, ptr nonnull %1) #13
  call void @llvm.memset.p0.i32(ptr noundef nonnull align 4 dereferenceable(12) %1, i8 0, i32 12, i1 false)
  %406 = load ptr, ptr %3, align 4, !tbaa !26
  %407 = getelementptr inbounds i8, ptr %406, i32 %402
  %408 = load i8, ptr %407, align 1, !tbaa !7
  %409 = xor i8 %408, 85
  store i8 %409, ptr %407, align 1, !tbaa !7
  %410 = load ptr, ptr %3, align 4, !tbaa !26
  %411 = load i32, ptr %42, align 4, !tbaa !19
  %412 = call fastcc i32 @lzss_unpack(ptr noundef nonnull %1, ptr noundef %410, i32 noundef %411)
  %413 = icmp eq i32 %412, 0
  br i1 %413, label %414, label %416

414:                                              ; preds = %401
  %415 = add nsw i32 %405, 1
  br label %427

416:                                              ; preds = %401
  %417 = load i32, ptr %400, align 4, !tbaa !19
  %418 = icmp eq i32 %417, %40
  br i1 %418, label %419, label %425

419:                                              ; preds = %416
  %420 = load ptr, ptr %1, align 4, !tbaa !26
  %421 = call i32 @bcmp(ptr %420, ptr %39, i32 %40)
  %422 = icmp eq i32 %421, 0
  br i1 %422, label %423, label %425

423:                                              ; preds = %419
  %424 = add nsw i32 %403, 1
  br label %427

425:                                              ; preds = %419, %416
  %426 = add nsw i32 %404, 1
  br label %427

427:                                              ; preds = %425, %423, %414
  %428 = phi i32 [ %405, %423 ], [ %405, %425 ], [ %415, %414 ]
  %429 = phi i32 [ %404, %423 ], [ %426, %425 ], [ %404, %414 ]
  %430 = phi i32 [ %424, %423 ], [ %403, %425 ], [ %403, %414 ]
  %431 = load ptr, ptr %3, align 4, !tbaa !26
  %432 = getelementptr inbounds i8, ptr %431, i32 %402
  %433 = load i8, ptr %432, align 1, !tbaa !7
  %434 = xor i8 %433, 85
  store i8 %434, ptr %432, align 1, !tbaa !7
  %435 = load ptr, ptr %1, align 4, !tbaa !26
  call void @__sized_free(ptr noundef %435)
  call void @llvm.lifetime.end.p0(i64 12, ptr nonnull %1) #13
  %436 = add i32 %402, 7
  %437 = load i32, ptr %42, align 4, !tbaa !19
  %438 = icmp ult i32 %436, %437
  br i1 %438, label %401, label %439, !llvm.loop !33

439:                                              ; preds = %427, %393
  %440 = phi i32 [ 0, %393 ], [ %428, %427 ]
  %441 = phi i32 [ 0, %393 ], [ %429, %427 ]
  %442 = phi i32 [ 0, %393 ], [ %430, %427 ]
  %443 = call i32 @__print_text(ptr nonnull getelementptr inbounds (i8, ptr @__streams, i32 12), ptr nonnull @.str.8, i32 9) #13
  %444 = sext i32 %440 to i64
  %445 = call i32 @__print_signed(ptr nonnull getelementptr inbounds (i8, ptr @__streams, i32 12), i64 %444, i32 0, i32 0, i32 -1) #13
  %446 = call i32 @__print_text(ptr nonnull getelementptr inbounds (i8, ptr @__streams, i32 12), ptr nonnull getelementptr inbounds (i8, ptr @.str.8, i32 11), i32 10) #13
  %447 = sext i32 %441 to i64
  %448 = call i32 @__print_signed(ptr nonnull getelementptr inbounds (i8, ptr @__streams, i32 12), i64 %447, i32 0, i32 0, i32 -1) #13
  %449 = call i32 @__print_text(ptr nonnull getelementptr inbounds (i8, ptr @__streams, i32 12), ptr nonnull getelementptr inbounds (i8, ptr @.str.8, i32 23), i32 9) #13
  %450 = sext i32 %442 to i64
  %451 = call i32 @__print_signed(ptr nonnull getelementptr inbounds (i8, ptr @__streams, i32 12), i64 %450, i32 0, i32 0, i32 -1) #13
  %452 = call i32 @__print_text(ptr nonnull getelementptr inbounds (i8, ptr @__streams, i32 12), ptr nonnull getelementptr inbounds (i8, ptr @.str.8, i32 34), i32 10) #13
  call void @__sized_free(ptr noundef %39)
  %453 = load ptr, ptr %3, align 4, !tbaa !26
  call void @__sized_free(ptr noundef %453)
  store ptr null, ptr %3, align 4, !tbaa !26
  %454 = getelementptr inbounds i8, ptr %3, i32 8
  store i32 0, ptr %454, align 4, !tbaa !25
  store i32 0, ptr %42, align 4, !tbaa !19
  %455 = load ptr, ptr %4, align 4, !tbaa !26
  call void @__sized_free(ptr noundef %455)
  br label %456

456:                                              ; preds = %439, %312
  %457 = phi i32 [ %394, %439 ], [ 1, %312 ]
  call void @llvm.lifetime.end.p0(i64 12, ptr nonnull %4) #13
  call void @llvm.lifetime.end.p0(i64 12, ptr nonnull %3) #13
  ret i32 %457
}

; Function Attrs: nocallback nofree nosync nounwind willreturn memory(argmem: readwrite)
declare void @llvm.lifetime.start.p0(i64 immarg, ptr nocapture) #1

; Function Attrs: nocallback nofree nounwind willreturn memory(argmem: write)
declare void @llvm.memset.p0.i32(ptr nocapture writeonly, i8, i32, i1 immarg) #2

; Function Attrs: nounwind optsize
define internal i32 @fread(ptr noalias nocapture noundef writeonly %0, i32 noundef %1, i32 noundef %2, ptr noalias nocapture noundef %3) local_unnamed_addr #3 {
  %5 = mul i32 %2, %1
  %6 = icmp eq i32 %5, 0
  br i1 %6, label %11, label %7

7:                                                ; preds = %14, %4
  %8 = phi i32 [ %17, %14 ], [ 0, %4 ]
  %9 = tail call i32 @fgetc(ptr noundef %3) #16
  %10 = icmp eq i32 %9, -1
  br i1 %10, label %11, label %14

11:                                               ; preds = %14, %7, %4
  %12 = phi i32 [ 0, %4 ], [ %5, %14 ], [ %8, %7 ]
  %13 = icmp eq i32 %1, 0
  br i1 %13, label %21, label %19

14:                                               ; preds = %7
  %15 = trunc i32 %9 to i8
  %16 = getelementptr inbounds i8, ptr %0, i32 %8
  store i8 %15, ptr %16, align 1, !tbaa !7
  %17 = add nuw i32 %8, 1
  %18 = icmp eq i32 %17, %5
  br i1 %18, label %11, label %7, !llvm.loop !34

19:                                               ; preds = %11
  %20 = udiv i32 %12, %1
  br label %21

21:                                               ; preds = %19, %11
  %22 = phi i32 [ %20, %19 ], [ 0, %11 ]
  ret i32 %22
}

; Function Attrs: nounwind optsize
define internal ptr @realloc(ptr noundef %0, i32 noundef %1) local_unnamed_addr #3 {
  %3 = icmp eq ptr %0, null
  br i1 %3, label %4, label %6

4:                                                ; preds = %2
  %5 = tail call ptr @__sized_malloc(i32 noundef %1) #16
  br label %28

6:                                                ; preds = %2
  %7 = icmp eq i32 %1, 0
  br i1 %7, label %8, label %9

8:                                                ; preds = %6
  tail call void @__sized_free(ptr noundef nonnull %0) #16
  br label %28

9:                                                ; preds = %6
  %10 = tail call ptr @__sized_malloc(i32 noundef %1) #16
  %11 = icmp eq ptr %10, null
  br i1 %11, label %28, label %12

12:                                               ; preds = %9
  %13 = getelementptr inbounds i8, ptr %0, i32 -16
  %14 = load i32, ptr %13, align 4, !tbaa !11
  %15 = icmp eq i32 %14, 0
  br i1 %15, label %27, label %16

16:                                               ; preds = %12
  %17 = tail call i32 @llvm.umin.i32(i32 %14, i32 %1)
  br label %18

18:                                               ; preds = %18, %16
  %19 = phi ptr [ %23, %18 ], [ %0, %16 ]
  %20 = phi ptr [ %25, %18 ], [ %10, %16 ]
  %21 = phi i32 [ %22, %18 ], [ %17, %16 ]
  %22 = add i32 %21, -1
  %23 = getelementptr inbounds i8, ptr %19, i32 1
  %24 = load i8, ptr %19, align 1, !tbaa !7, !alias.scope !35, !noalias !38
  %25 = getelementptr inbounds i8, ptr %20, i32 1
  store i8 %24, ptr %20, align 1, !tbaa !7, !alias.scope !38, !noalias !35
  %26 = icmp eq i32 %22, 0
  br i1 %26, label %27, label %18, !llvm.loop !40

27:                                               ; preds = %18, %12
  tail call void @__sized_free(ptr noundef nonnull %0) #16
  br label %28

28:                                               ; preds = %27, %9, %8, %4
  %29 = phi ptr [ null, %8 ], [ %5, %4 ], [ %10, %27 ], [ null, %9 ]
  ret ptr %29
}

; Function Attrs: nounwind optsize
define internal noundef i32 @__print_text(ptr nocapture noundef %0, ptr nocapture noundef readonly %1, i32 noundef returned %2) local_unnamed_addr #3 {
  %4 = load i8, ptr %0, align 4, !tbaa !41, !alias.scope !43, !noalias !46
  %5 = icmp eq i8 %4, 0
  %6 = icmp eq i32 %2, 0
  %7 = or i1 %6, %5
  br i1 %7, label %16, label %8

8:                                                ; preds = %8, %3
  %9 = phi i32 [ %14, %8 ], [ 0, %3 ]
  %10 = getelementptr inbounds i8, ptr %1, i32 %9
  %11 = load i8, ptr %10, align 1, !tbaa !7, !alias.scope !46, !noalias !43
  %12 = zext i8 %11 to i32
  %13 = tail call i32 @fputc(i32 noundef %12, ptr noundef nonnull %0) #16, !noalias !46
  %14 = add nuw i32 %9, 1
  %15 = icmp eq i32 %14, %2
  br i1 %15, label %16, label %8, !llvm.loop !48

16:                                               ; preds = %8, %3
  ret i32 %2
}

; Function Attrs: noreturn
declare dso_local void @exit(i32 noundef) local_unnamed_addr #4

; Function Attrs: nocallback nofree nosync nounwind willreturn memory(argmem: readwrite)
declare void @llvm.lifetime.end.p0(i64 immarg, ptr nocapture) #1

; Function Attrs: nocallback nofree nosync nounwind speculatable willreturn memory(none)
declare i32 @llvm.umin.i32(i32, i32) #5

; Function Attrs: nocallback nofree nosync nounwind speculatable willreturn memory(none)
declare i32 @llvm.umax.i32(i32, i32) #5

; Function Attrs: noreturn nounwind optsize
define internal void @__assert_fail(ptr nocapture noundef readnone %0, ptr nocapture noundef readnone %1, i32 noundef %2, ptr nocapture noundef readnone %3) local_unnamed_addr #6 {
  tail call void @abort() #17
  unreachable
}

; Function Attrs: nounwind optsize
define internal i32 @__print_unsigned(ptr nocapture noundef %0, i64 noundef %1, i32 noundef %2, i32 noundef %3, i32 noundef %4, i32 noundef %5) local_unnamed_addr #3 {
  %7 = alloca [24 x i8], align 1
  call void @llvm.lifetime.start.p0(i64 24, ptr nonnull %7) #13
  %8 = and i32 %3, 32
  %9 = icmp eq i32 %8, 0
  %10 = select i1 %9, ptr @.str.9.9, ptr @.str.8.16
  %11 = icmp ult i64 %1, 4294967296
  br i1 %11, label %14, label %12

12:                                               ; preds = %6
  %13 = zext i32 %2 to i64
  br label %29

14:                                               ; preds = %6
  %15 = trunc nuw i64 %1 to i32
  %16 = icmp eq i32 %15, 0
  br i1 %16, label %41, label %17

17:                                               ; preds = %17, %14
  %18 = phi i32 [ %21, %17 ], [ %15, %14 ]
  %19 = phi i32 [ %26, %17 ], [ 24, %14 ]
  %20 = freeze i32 %18
  %21 = udiv i32 %20, %2
  %22 = mul i32 %21, %2
  %23 = sub i32 %20, %22
  %24 = getelementptr inbounds i8, ptr %10, i32 %23
  %25 = load i8, ptr %24, align 1, !tbaa !7
  %26 = add nsw i32 %19, -1
  %27 = getelementptr inbounds i8, ptr %7, i32 %26
  store i8 %25, ptr %27, align 1, !tbaa !7
  %28 = icmp ult i32 %18, %2
  br i1 %28, label %41, label %17, !llvm.loop !49

29:                                               ; preds = %29, %12
  %30 = phi i32 [ 24, %12 ], [ %38, %29 ]
  %31 = phi i64 [ %1, %12 ], [ %32, %29 ]
  %32 = udiv i64 %31, %13
  %33 = mul i64 %32, %13
  %34 = sub i64 %31, %33
  %35 = trunc nuw i64 %34 to i32
  %36 = getelementptr inbounds i8, ptr %10, i32 %35
  %37 = load i8, ptr %36, align 1, !tbaa !7
  %38 = add nsw i32 %30, -1
  %39 = getelementptr inbounds i8, ptr %7, i32 %38
  store i8 %37, ptr %39, align 1, !tbaa !7
  %40 = icmp ult i64 %31, %13
  br i1 %40, label %41, label %29, !llvm.loop !50

41:                                               ; preds = %29, %17, %14
  %42 = phi i32 [ 24, %14 ], [ %26, %17 ], [ %38, %29 ]
  %43 = icmp eq i64 %1, 0
  %44 = icmp ne i32 %5, 0
  %45 = and i1 %43, %44
  br i1 %45, label %46, label %49

46:                                               ; preds = %41
  %47 = add nsw i32 %42, -1
  %48 = getelementptr inbounds i8, ptr %7, i32 %47
  store i8 48, ptr %48, align 1, !tbaa !7
  br label %49

49:                                               ; preds = %46, %41
  %50 = phi i32 [ %47, %46 ], [ %42, %41 ]
  %51 = getelementptr inbounds i8, ptr %7, i32 %50
  %52 = and i32 %3, 8
  %53 = icmp ne i32 %52, 0
  %54 = icmp eq i32 %2, 8
  %55 = and i1 %54, %53
  %56 = sub nsw i32 24, %50
  %57 = icmp sge i32 %56, %5
  %58 = select i1 %55, i1 %57, i1 false
  br i1 %58, label %59, label %66

59:                                               ; preds = %49
  %60 = icmp eq i32 %50, 24
  br i1 %60, label %64, label %61

61:                                               ; preds = %59
  %62 = load i8, ptr %51, align 1, !tbaa !7
  %63 = icmp eq i8 %62, 48
  br i1 %63, label %66, label %64

64:                                               ; preds = %61, %59
  %65 = getelementptr inbounds i8, ptr %51, i32 -1
  store i8 48, ptr %65, align 1, !tbaa !7
  br label %66

66:                                               ; preds = %64, %61, %49
  %67 = phi ptr [ %65, %64 ], [ %51, %61 ], [ %51, %49 ]
  %68 = getelementptr inbounds i8, ptr %7, i32 24
  %69 = ptrtoint ptr %68 to i32
  %70 = icmp eq i32 %2, 16
  %71 = icmp ne i64 %1, 0
  %72 = and i1 %71, %70
  %73 = and i1 %72, %53
  %74 = select i1 %9, ptr @.str.6.17, ptr @.str.5.18
  %75 = select i1 %73, ptr %74, ptr @.str.10
  %76 = ptrtoint ptr %67 to i32
  %77 = sub i32 %69, %76
  %78 = call fastcc i32 @number(ptr noundef %0, ptr noundef nonnull %75, ptr noundef nonnull %67, i32 noundef %77, i32 noundef %3, i32 noundef %4, i32 noundef %5) #16
  call void @llvm.lifetime.end.p0(i64 24, ptr nonnull %7) #13
  ret i32 %78
}

; Function Attrs: nounwind
define internal fastcc noundef i32 @lzss_unpack(ptr nocapture noundef %0, ptr nocapture noundef readonly %1, i32 noundef %2) unnamed_addr #0 {
  %4 = getelementptr inbounds i8, ptr %0, i32 4
  %5 = load i32, ptr %4, align 4, !tbaa !19
  %6 = icmp eq i32 %2, 0
  br i1 %6, label %103, label %7

7:                                                ; preds = %3
  %8 = getelementptr inbounds i8, ptr %0, i32 8
  br label %12

9:                                                ; preds = %97, %12
  %10 = phi i32 [ %14, %12 ], [ %98, %97 ]
  %11 = icmp ult i32 %10, %2
  br i1 %11, label %12, label %103

12:                                               ; preds = %9, %7
  %13 = phi i32 [ 0, %7 ], [ %10, %9 ]
  %14 = add nuw i32 %13, 1
  %15 = icmp ult i32 %14, %2
  br i1 %15, label %16, label %9

16:                                               ; preds = %12
  %17 = getelementptr inbounds i8, ptr %1, i32 %13
  %18 = load i8, ptr %17, align 1, !tbaa !7
  %19 = zext i8 %18 to i32
  br label %20

20:                                               ; preds = %97, %16
  %21 = phi i32 [ 0, %16 ], [ %99, %97 ]
  %22 = phi i32 [ %14, %16 ], [ %98, %97 ]
  %23 = shl nuw nsw i32 1, %21
  %24 = and i32 %23, %19
  %25 = icmp eq i32 %24, 0
  br i1 %25, label %26, label %49

26:                                               ; preds = %20
  %27 = add nuw i32 %22, 1
  %28 = getelementptr inbounds i8, ptr %1, i32 %22
  %29 = load i8, ptr %28, align 1, !tbaa !7
  %30 = load i32, ptr %4, align 4, !tbaa !19
  %31 = load i32, ptr %8, align 4, !tbaa !25
  %32 = icmp eq i32 %30, %31
  %33 = load ptr, ptr %0, align 4, !tbaa !26
  br i1 %32, label %34, label %44

34:                                               ; preds = %26
  %35 = icmp eq i32 %30, 0
  %36 = shl i32 %30, 1
  %37 = select i1 %35, i32 64, i32 %36
  store i32 %37, ptr %8, align 4, !tbaa !25
  %38 = tail call ptr @realloc(ptr noundef %33, i32 noundef %37) #14
  %39 = icmp eq ptr %38, null
  br i1 %39, label %40, label %42

40:                                               ; preds = %34
  %41 = tail call i32 @__print_text(ptr nonnull getelementptr inbounds (i8, ptr @__streams, i32 24), ptr nonnull @.str, i32 14) #13
  tail call void @exit(i32 noundef 2) #15
  unreachable

42:                                               ; preds = %34
  store ptr %38, ptr %0, align 4, !tbaa !26
  %43 = load i32, ptr %4, align 4, !tbaa !19
  br label %44

44:                                               ; preds = %42, %26
  %45 = phi i32 [ %43, %42 ], [ %30, %26 ]
  %46 = phi ptr [ %38, %42 ], [ %33, %26 ]
  %47 = add i32 %45, 1
  store i32 %47, ptr %4, align 4, !tbaa !19
  %48 = getelementptr inbounds i8, ptr %46, i32 %45
  store i8 %29, ptr %48, align 1, !tbaa !7
  br label %97

49:                                               ; preds = %20
  %50 = sub i32 %2, %22
  %51 = icmp ult i32 %50, 2
  br i1 %51, label %103, label %52

52:                                               ; preds = %49
  %53 = getelementptr inbounds i8, ptr %1, i32 %22
  %54 = load i8, ptr %53, align 1, !tbaa !7
  %55 = zext i8 %54 to i32
  %56 = getelementptr i8, ptr %53, i32 1
  %57 = load i8, ptr %56, align 1, !tbaa !7
  %58 = zext i8 %57 to i32
  %59 = shl nuw nsw i32 %58, 4
  %60 = and i32 %59, 3840
  %61 = or disjoint i32 %60, %55
  %62 = add i32 %22, 2
  %63 = icmp eq i32 %61, 0
  br i1 %63, label %103, label %64

64:                                               ; preds = %52
  %65 = load i32, ptr %4, align 4, !tbaa !19
  %66 = sub i32 %65, %5
  %67 = icmp ugt i32 %61, %66
  br i1 %67, label %103, label %68

68:                                               ; preds = %64
  %69 = and i32 %58, 15
  %70 = add nuw nsw i32 %69, 3
  br label %71

71:                                               ; preds = %91, %68
  %72 = phi i32 [ %73, %91 ], [ %70, %68 ]
  %73 = add nsw i32 %72, -1
  %74 = load ptr, ptr %0, align 4, !tbaa !26
  %75 = load i32, ptr %4, align 4, !tbaa !19
  %76 = sub i32 %75, %61
  %77 = getelementptr inbounds i8, ptr %74, i32 %76
  %78 = load i8, ptr %77, align 1, !tbaa !7
  %79 = load i32, ptr %8, align 4, !tbaa !25
  %80 = icmp eq i32 %75, %79
  br i1 %80, label %81, label %91

81:                                               ; preds = %71
  %82 = icmp eq i32 %75, 0
  %83 = shl i32 %75, 1
  %84 = select i1 %82, i32 64, i32 %83
  store i32 %84, ptr %8, align 4, !tbaa !25
  %85 = tail call ptr @realloc(ptr noundef nonnull %74, i32 noundef %84) #14
  %86 = icmp eq ptr %85, null
  br i1 %86, label %87, label %89

87:                                               ; preds = %81
  %88 = tail call i32 @__print_text(ptr nonnull getelementptr inbounds (i8, ptr @__streams, i32 24), ptr nonnull @.str, i32 14) #13
  tail call void @exit(i32 noundef 2) #15
  unreachable

89:                                               ; preds = %81
  store ptr %85, ptr %0, align 4, !tbaa !26
  %90 = load i32, ptr %4, align 4, !tbaa !19
  br label %91

91:                                               ; preds = %89, %71
  %92 = phi i32 [ %90, %89 ], [ %75, %71 ]
  %93 = phi ptr [ %85, %89 ], [ %74, %71 ]
  %94 = add i32 %92, 1
  store i32 %94, ptr %4, align 4, !tbaa !19
  %95 = getelementptr inbounds i8, ptr %93, i32 %92
  store i8 %78, ptr %95, align 1, !tbaa !7
  %96 = icmp eq i32 %73, 0
  br i1 %96, label %97, label %71, !llvm.loop !51

97:                                               ; preds = %91, %44
  %98 = phi i32 [ %27, %44 ], [ %62, %91 ]
  %99 = add nuw nsw i32 %21, 1
  %100 = icmp ugt i32 %21, 6
  %101 = icmp uge i32 %98, %2
  %102 = select i1 %100, i1 true, i1 %101
  br i1 %102, label %9, label %20, !llvm.loop !52

103:                                              ; preds = %64, %52, %49, %9, %3
  %104 = phi i32 [ 1, %3 ], [ 0, %64 ], [ 0, %52 ], [ 0, %49 ], [ 1, %9 ]
  ret i32 %104
}

; Function Attrs: nofree nounwind
declare dso_local noundef i32 @puts(ptr nocapture noundef readonly) local_unnamed_addr #7

; Function Attrs: nofree norecurse nosync nounwind optsize memory(read, inaccessiblemem: none)
define internal range(i32 -1, 2) i32 @bcmp(ptr nocapture noundef readonly %0, ptr nocapture noundef readonly %1, i32 noundef %2) local_unnamed_addr #8 {
  %4 = icmp eq i32 %2, 0
  br i1 %4, label %20, label %5

5:                                                ; preds = %15, %3
  %6 = phi ptr [ %18, %15 ], [ %1, %3 ]
  %7 = phi ptr [ %17, %15 ], [ %0, %3 ]
  %8 = phi i32 [ %16, %15 ], [ %2, %3 ]
  %9 = load i8, ptr %7, align 1, !tbaa !7
  %10 = load i8, ptr %6, align 1, !tbaa !7
  %11 = icmp eq i8 %9, %10
  br i1 %11, label %15, label %12

12:                                               ; preds = %5
  %13 = icmp ult i8 %9, %10
  %14 = select i1 %13, i32 -1, i32 1
  br label %20

15:                                               ; preds = %5
  %16 = add i32 %8, -1
  %17 = getelementptr inbounds i8, ptr %7, i32 1
  %18 = getelementptr inbounds i8, ptr %6, i32 1
  %19 = icmp eq i32 %16, 0
  br i1 %19, label %20, label %5, !llvm.loop !53

20:                                               ; preds = %15, %12, %3
  %21 = phi i32 [ %14, %12 ], [ 0, %3 ], [ 0, %15 ]
  ret i32 %21
}

; Function Attrs: noinline nounwind optsize
define internal void @__sized_free(ptr noundef %0) local_unnamed_addr #9 {
  %2 = icmp eq ptr %0, null
  br i1 %2, label %5, label %3

3:                                                ; preds = %1
  %4 = getelementptr inbounds i8, ptr %0, i32 -16
  tail call void @free(ptr noundef nonnull %4) #18
  br label %5

5:                                                ; preds = %3, %1
  ret void
}

; Function Attrs: nounwind optsize
define internal i32 @__print_signed(ptr nocapture noundef %0, i64 noundef %1, i32 noundef %2, i32 noundef %3, i32 noundef %4) local_unnamed_addr #3 {
  %6 = alloca [24 x i8], align 1
  call void @llvm.lifetime.start.p0(i64 24, ptr nonnull %6) #13
  %7 = getelementptr inbounds i8, ptr %6, i32 24
  %8 = icmp slt i64 %1, 0
  %9 = lshr i64 %1, 63
  %10 = icmp ne i64 %9, 0
  %11 = sub i64 0, %1
  %12 = select i1 %10, i64 %11, i64 %1
  %13 = icmp ult i64 %12, 4294967296
  br i1 %13, label %14, label %28

14:                                               ; preds = %5
  %15 = trunc nuw i64 %12 to i32
  %16 = icmp eq i32 %15, 0
  br i1 %16, label %39, label %17

17:                                               ; preds = %17, %14
  %18 = phi i32 [ %21, %17 ], [ %15, %14 ]
  %19 = phi ptr [ %26, %17 ], [ %7, %14 ]
  %20 = freeze i32 %18
  %21 = udiv i32 %20, 10
  %22 = mul i32 %21, 10
  %23 = sub i32 %20, %22
  %24 = getelementptr inbounds i8, ptr @.str.9.9, i32 %23
  %25 = load i8, ptr %24, align 1, !tbaa !7
  %26 = getelementptr inbounds i8, ptr %19, i32 -1
  store i8 %25, ptr %26, align 1, !tbaa !7
  %27 = icmp ult i32 %18, 10
  br i1 %27, label %39, label %17, !llvm.loop !49

28:                                               ; preds = %28, %5
  %29 = phi ptr [ %37, %28 ], [ %7, %5 ]
  %30 = phi i64 [ %31, %28 ], [ %12, %5 ]
  %31 = udiv i64 %30, 10
  %32 = mul i64 %31, 10
  %33 = sub i64 %30, %32
  %34 = trunc nuw nsw i64 %33 to i32
  %35 = getelementptr inbounds i8, ptr @.str.9.9, i32 %34
  %36 = load i8, ptr %35, align 1, !tbaa !7
  %37 = getelementptr inbounds i8, ptr %29, i32 -1
  store i8 %36, ptr %37, align 1, !tbaa !7
  %38 = icmp ult i64 %30, 10
  br i1 %38, label %39, label %28, !llvm.loop !50

39:                                               ; preds = %28, %17, %14
  %40 = phi ptr [ %7, %14 ], [ %26, %17 ], [ %37, %28 ]
  %41 = icmp eq i64 %1, 0
  %42 = icmp ne i32 %4, 0
  %43 = and i1 %41, %42
  br i1 %43, label %44, label %46

44:                                               ; preds = %39
  %45 = getelementptr inbounds i8, ptr %40, i32 -1
  store i8 48, ptr %45, align 1, !tbaa !7
  br label %47

46:                                               ; preds = %39
  br i1 %8, label %55, label %47

47:                                               ; preds = %46, %44
  %48 = phi ptr [ %45, %44 ], [ %40, %46 ]
  %49 = and i32 %2, 2
  %50 = icmp eq i32 %49, 0
  br i1 %50, label %51, label %55

51:                                               ; preds = %47
  %52 = and i32 %2, 4
  %53 = icmp eq i32 %52, 0
  %54 = select i1 %53, ptr @.str.10, ptr @.str.4.11
  br label %55

55:                                               ; preds = %51, %47, %46
  %56 = phi ptr [ %40, %46 ], [ %48, %51 ], [ %48, %47 ]
  %57 = phi ptr [ @.str.2.12, %46 ], [ %54, %51 ], [ @.str.3.13, %47 ]
  %58 = ptrtoint ptr %7 to i32
  %59 = ptrtoint ptr %56 to i32
  %60 = sub i32 %58, %59
  %61 = call fastcc i32 @number(ptr noundef %0, ptr noundef nonnull %57, ptr noundef nonnull %56, i32 noundef %60, i32 noundef %2, i32 noundef %3, i32 noundef %4) #16
  call void @llvm.lifetime.end.p0(i64 24, ptr nonnull %6) #13
  ret i32 %61
}

; Function Attrs: nounwind optsize
define internal fastcc i32 @number(ptr nocapture noundef %0, ptr noundef %1, ptr nocapture noundef readonly %2, i32 noundef %3, i32 noundef %4, i32 noundef %5, i32 noundef %6) unnamed_addr #3 {
  br label %8

8:                                                ; preds = %8, %7
  %9 = phi ptr [ %1, %7 ], [ %12, %8 ]
  %10 = load i8, ptr %9, align 1, !tbaa !7
  %11 = icmp eq i8 %10, 0
  %12 = getelementptr inbounds i8, ptr %9, i32 1
  br i1 %11, label %13, label %8, !llvm.loop !54

13:                                               ; preds = %8
  %14 = ptrtoint ptr %9 to i32
  %15 = ptrtoint ptr %1 to i32
  %16 = sub i32 %14, %15
  %17 = sub nsw i32 %6, %3
  %18 = lshr i32 %5, 31
  %19 = icmp ne i32 %18, 0
  %20 = sub i32 0, %5
  %21 = select i1 %19, i32 %20, i32 %5
  %22 = tail call i32 @llvm.smax.i32(i32 %17, i32 0)
  %23 = icmp slt i32 %6, 0
  %24 = and i32 %4, 16
  %25 = icmp ne i32 %24, 0
  %26 = and i1 %25, %23
  %27 = and i32 %4, 1
  %28 = or i32 %18, %27
  %29 = icmp eq i32 %28, 0
  %30 = and i1 %26, %29
  %31 = add i32 %16, %3
  %32 = icmp sgt i32 %21, %31
  %33 = select i1 %30, i1 %32, i1 false
  %34 = sub i32 %21, %31
  %35 = select i1 %33, i32 %34, i32 %22
  %36 = add i32 %31, %35
  %37 = sub i32 %21, %36
  br i1 %29, label %38, label %47

38:                                               ; preds = %13
  %39 = icmp sgt i32 %37, 0
  br i1 %39, label %40, label %45

40:                                               ; preds = %40, %38
  %41 = phi i32 [ %43, %40 ], [ 0, %38 ]
  %42 = tail call i32 @fputc(i32 noundef 32, ptr noundef %0) #16
  %43 = add nuw nsw i32 %41, 1
  %44 = icmp eq i32 %43, %37
  br i1 %44, label %45, label %40, !llvm.loop !55

45:                                               ; preds = %40, %38
  %46 = tail call noundef i32 @llvm.smax.i32(i32 %37, i32 0)
  br label %47

47:                                               ; preds = %45, %13
  %48 = phi i32 [ 0, %13 ], [ %46, %45 ]
  %49 = load i8, ptr %0, align 4, !tbaa !41, !alias.scope !56, !noalias !59
  %50 = icmp eq i8 %49, 0
  %51 = icmp eq ptr %9, %1
  %52 = or i1 %51, %50
  br i1 %52, label %61, label %53

53:                                               ; preds = %53, %47
  %54 = phi i32 [ %59, %53 ], [ 0, %47 ]
  %55 = getelementptr inbounds i8, ptr %1, i32 %54
  %56 = load i8, ptr %55, align 1, !tbaa !7, !alias.scope !59, !noalias !56
  %57 = zext i8 %56 to i32
  %58 = tail call i32 @fputc(i32 noundef %57, ptr noundef nonnull %0) #16, !noalias !59
  %59 = add nuw i32 %54, 1
  %60 = icmp eq i32 %59, %16
  br i1 %60, label %61, label %53, !llvm.loop !48

61:                                               ; preds = %53, %47
  %62 = icmp sgt i32 %35, 0
  br i1 %62, label %63, label %68

63:                                               ; preds = %63, %61
  %64 = phi i32 [ %66, %63 ], [ 0, %61 ]
  %65 = tail call i32 @fputc(i32 noundef 48, ptr noundef nonnull %0) #16
  %66 = add nuw nsw i32 %64, 1
  %67 = icmp eq i32 %66, %35
  br i1 %67, label %68, label %63, !llvm.loop !55

68:                                               ; preds = %63, %61
  %69 = tail call noundef i32 @llvm.smax.i32(i32 %35, i32 0)
  %70 = load i8, ptr %0, align 4, !tbaa !41, !alias.scope !61, !noalias !64
  %71 = icmp eq i8 %70, 0
  %72 = icmp eq i32 %3, 0
  %73 = or i1 %72, %71
  br i1 %73, label %82, label %74

74:                                               ; preds = %74, %68
  %75 = phi i32 [ %80, %74 ], [ 0, %68 ]
  %76 = getelementptr inbounds i8, ptr %2, i32 %75
  %77 = load i8, ptr %76, align 1, !tbaa !7, !alias.scope !64, !noalias !61
  %78 = zext i8 %77 to i32
  %79 = tail call i32 @fputc(i32 noundef %78, ptr noundef nonnull %0) #16, !noalias !64
  %80 = add nuw i32 %75, 1
  %81 = icmp eq i32 %80, %3
  br i1 %81, label %82, label %74, !llvm.loop !48

82:                                               ; preds = %74, %68
  %83 = add i32 %31, %69
  %84 = add i32 %83, %48
  br i1 %29, label %95, label %85

85:                                               ; preds = %82
  %86 = icmp sgt i32 %37, 0
  br i1 %86, label %87, label %92

87:                                               ; preds = %87, %85
  %88 = phi i32 [ %90, %87 ], [ 0, %85 ]
  %89 = tail call i32 @fputc(i32 noundef 32, ptr noundef nonnull %0) #16
  %90 = add nuw nsw i32 %88, 1
  %91 = icmp eq i32 %90, %37
  br i1 %91, label %92, label %87, !llvm.loop !55

92:                                               ; preds = %87, %85
  %93 = tail call noundef i32 @llvm.smax.i32(i32 %37, i32 0)
  %94 = add nsw i32 %84, %93
  br label %95

95:                                               ; preds = %92, %82
  %96 = phi i32 [ %94, %92 ], [ %84, %82 ]
  ret i32 %96
}

; Function Attrs: nocallback nofree nosync nounwind speculatable willreturn memory(none)
declare i32 @llvm.smax.i32(i32, i32) #5

; Function Attrs: nounwind optsize
define internal range(i32 -1, 256) i32 @fputc(i32 noundef %0, ptr nocapture noundef %1) local_unnamed_addr #3 {
  %3 = load i8, ptr %1, align 4, !tbaa !41
  switch i8 %3, label %17 [
    i8 1, label %4
    i8 3, label %6
    i8 0, label %19
  ]

4:                                                ; preds = %2
  %5 = tail call i32 @putchar(i32 noundef %0) #18
  br label %17

6:                                                ; preds = %2
  %7 = getelementptr inbounds i8, ptr %1, i32 8
  %8 = load i32, ptr %7, align 4, !tbaa !66
  %9 = icmp eq i32 %8, 0
  br i1 %9, label %17, label %10

10:                                               ; preds = %6
  %11 = trunc i32 %0 to i8
  %12 = getelementptr inbounds i8, ptr %1, i32 4
  %13 = load ptr, ptr %12, align 4, !tbaa !67
  %14 = getelementptr inbounds i8, ptr %13, i32 1
  store ptr %14, ptr %12, align 4, !tbaa !67
  store i8 %11, ptr %13, align 1, !tbaa !7
  %15 = load i32, ptr %7, align 4, !tbaa !66
  %16 = add i32 %15, -1
  store i32 %16, ptr %7, align 4, !tbaa !66
  br label %17

17:                                               ; preds = %10, %6, %4, %2
  %18 = and i32 %0, 255
  br label %19

19:                                               ; preds = %17, %2
  %20 = phi i32 [ %18, %17 ], [ -1, %2 ]
  ret i32 %20
}

; Function Attrs: optsize
declare dso_local i32 @putchar(i32 noundef) local_unnamed_addr #10

; Function Attrs: mustprogress nounwind willreturn allockind("free") memory(argmem: readwrite, inaccessiblemem: readwrite)
declare dso_local void @free(ptr allocptr nocapture noundef) local_unnamed_addr #11

; Function Attrs: noreturn optsize
declare dso_local void @abort() local_unnamed_addr #12

; Function Attrs: noinline nounwind optsize
define internal ptr @__sized_malloc(i32 noundef %0) local_unnamed_addr #9 {
  %2 = icmp ult i32 %0, -16
  br i1 %2, label %3, label %9

3:                                                ; preds = %1
  %4 = add nuw i32 %0, 16
  %5 = tail call ptr @malloc(i32 noundef %4) #18
  %6 = icmp eq ptr %5, null
  br i1 %6, label %9, label %7

7:                                                ; preds = %3
  %8 = getelementptr inbounds i8, ptr %5, i32 16
  store i32 %0, ptr %5, align 4, !tbaa !11
  br label %9

9:                                                ; preds = %7, %3, %1
  %10 = phi ptr [ %8, %7 ], [ null, %3 ], [ null, %1 ]
  ret ptr %10
}

; Function Attrs: optsize
declare dso_local ptr @malloc(i32 noundef) local_unnamed_addr #10

; Function Attrs: nounwind optsize
define internal i32 @fgetc(ptr nocapture noundef %0) local_unnamed_addr #3 {
  %2 = load i8, ptr %0, align 4, !tbaa !41
  %3 = icmp eq i8 %2, 0
  br i1 %3, label %4, label %20

4:                                                ; preds = %1
  %5 = getelementptr inbounds i8, ptr %0, i32 2
  %6 = load i8, ptr %5, align 2, !tbaa !68
  %7 = icmp eq i8 %6, 0
  br i1 %7, label %12, label %8

8:                                                ; preds = %4
  store i8 0, ptr %5, align 2, !tbaa !68
  %9 = getelementptr inbounds i8, ptr %0, i32 3
  %10 = load i8, ptr %9, align 1, !tbaa !69
  %11 = zext i8 %10 to i32
  br label %20

12:                                               ; preds = %4
  %13 = getelementptr inbounds i8, ptr %0, i32 1
  %14 = load i8, ptr %13, align 1, !tbaa !70
  %15 = icmp eq i8 %14, 0
  br i1 %15, label %16, label %20

16:                                               ; preds = %12
  %17 = tail call i32 @getchar() #18
  %18 = icmp eq i32 %17, -1
  br i1 %18, label %19, label %20

19:                                               ; preds = %16
  store i8 1, ptr %13, align 1, !tbaa !70
  br label %20

20:                                               ; preds = %19, %16, %12, %8, %1
  %21 = phi i32 [ %11, %8 ], [ -1, %1 ], [ -1, %12 ], [ -1, %19 ], [ %17, %16 ]
  ret i32 %21
}

; Function Attrs: optsize
declare dso_local i32 @getchar() local_unnamed_addr #10

attributes #0 = { nounwind "no-trapping-math"="true" "stack-protector-buffer-size"="8" "target-cpu"="generic" "target-features"="+armv7-a,+dsp,+soft-float,-aes,-bf16,-d32,-dotprod,-fp-armv8,-fp-armv8d16,-fp-armv8d16sp,-fp-armv8sp,-fp16,-fp16fml,-fp64,-fpregs,-fullfp16,-mve,-mve.fp,-neon,-sha2,-thumb-mode,-vfp2,-vfp2sp,-vfp3,-vfp3d16,-vfp3d16sp,-vfp3sp,-vfp4,-vfp4d16,-vfp4d16sp,-vfp4sp" "use-soft-float"="true" }
attributes #1 = { nocallback nofree nosync nounwind willreturn memory(argmem: readwrite) }
attributes #2 = { nocallback nofree nounwind willreturn memory(argmem: write) }
attributes #3 = { nounwind optsize "no-builtins" "no-jump-tables"="true" "no-trapping-math"="true" "stack-protector-buffer-size"="8" "target-cpu"="generic" "target-features"="+armv7-a,+dsp,+soft-float,-aes,-bf16,-d32,-dotprod,-fp-armv8,-fp-armv8d16,-fp-armv8d16sp,-fp-armv8sp,-fp16,-fp16fml,-fp64,-fpregs,-fullfp16,-mve,-mve.fp,-neon,-sha2,-thumb-mode,-vfp2,-vfp2sp,-vfp3,-vfp3d16,-vfp3d16sp,-vfp3sp,-vfp4,-vfp4d16,-vfp4d16sp,-vfp4sp" "use-soft-float"="true" }
attributes #4 = { noreturn "no-trapping-math"="true" "stack-protector-buffer-size"="8" "target-cpu"="generic" "target-features"="+armv7-a,+dsp,+soft-float,-aes,-bf16,-d32,-dotprod,-fp-armv8,-fp-armv8d16,-fp-armv8d16sp,-fp-armv8sp,-fp16,-fp16fml,-fp64,-fpregs,-fullfp16,-mve,-mve.fp,-neon,-sha2,-thumb-mode,-vfp2,-vfp2sp,-vfp3,-vfp3d16,-vfp3d16sp,-vfp3sp,-vfp4,-vfp4d16,-vfp4d16sp,-vfp4sp" "use-soft-float"="true" }
attributes #5 = { nocallback nofree nosync nounwind speculatable willreturn memory(none) }
attributes #6 = { noreturn nounwind optsize "no-builtins" "no-jump-tables"="true" "no-trapping-math"="true" "stack-protector-buffer-size"="8" "target-cpu"="generic" "target-features"="+armv7-a,+dsp,+soft-float,-aes,-bf16,-d32,-dotprod,-fp-armv8,-fp-armv8d16,-fp-armv8d16sp,-fp-armv8sp,-fp16,-fp16fml,-fp64,-fpregs,-fullfp16,-mve,-mve.fp,-neon,-sha2,-thumb-mode,-vfp2,-vfp2sp,-vfp3,-vfp3d16,-vfp3d16sp,-vfp3sp,-vfp4,-vfp4d16,-vfp4d16sp,-vfp4sp" "use-soft-float"="true" }
attributes #7 = { nofree nounwind "no-trapping-math"="true" "stack-protector-buffer-size"="8" "target-cpu"="generic" "target-features"="+armv7-a,+dsp,+soft-float,-aes,-bf16,-d32,-dotprod,-fp-armv8,-fp-armv8d16,-fp-armv8d16sp,-fp-armv8sp,-fp16,-fp16fml,-fp64,-fpregs,-fullfp16,-mve,-mve.fp,-neon,-sha2,-thumb-mode,-vfp2,-vfp2sp,-vfp3,-vfp3d16,-vfp3d16sp,-vfp3sp,-vfp4,-vfp4d16,-vfp4d16sp,-vfp4sp" "use-soft-float"="true" }
attributes #8 = { nofree norecurse nosync nounwind optsize memory(read, inaccessiblemem: none) "no-builtins" "no-jump-tables"="true" "no-trapping-math"="true" "stack-protector-buffer-size"="8" "target-cpu"="generic" "target-features"="+armv7-a,+dsp,+soft-float,-aes,-bf16,-d32,-dotprod,-fp-armv8,-fp-armv8d16,-fp-armv8d16sp,-fp-armv8sp,-fp16,-fp16fml,-fp64,-fpregs,-fullfp16,-mve,-mve.fp,-neon,-sha2,-thumb-mode,-vfp2,-vfp2sp,-vfp3,-vfp3d16,-vfp3d16sp,-vfp3sp,-vfp4,-vfp4d16,-vfp4d16sp,-vfp4sp" "use-soft-float"="true" }
attributes #9 = { noinline nounwind optsize "no-builtins" "no-jump-tables"="true" "no-trapping-math"="true" "stack-protector-buffer-size"="8" "target-cpu"="generic" "target-features"="+armv7-a,+dsp,+soft-float,-aes,-bf16,-d32,-dotprod,-fp-armv8,-fp-armv8d16,-fp-armv8d16sp,-fp-armv8sp,-fp16,-fp16fml,-fp64,-fpregs,-fullfp16,-mve,-mve.fp,-neon,-sha2,-thumb-mode,-vfp2,-vfp2sp,-vfp3,-vfp3d16,-vfp3d16sp,-vfp3sp,-vfp4,-vfp4d16,-vfp4d16sp,-vfp4sp" "use-soft-float"="true" }
attributes #10 = { optsize "no-builtins" "no-trapping-math"="true" "stack-protector-buffer-size"="8" "target-cpu"="generic" "target-features"="+armv7-a,+dsp,+soft-float,-aes,-bf16,-d32,-dotprod,-fp-armv8,-fp-armv8d16,-fp-armv8d16sp,-fp-armv8sp,-fp16,-fp16fml,-fp64,-fpregs,-fullfp16,-mve,-mve.fp,-neon,-sha2,-thumb-mode,-vfp2,-vfp2sp,-vfp3,-vfp3d16,-vfp3d16sp,-vfp3sp,-vfp4,-vfp4d16,-vfp4d16sp,-vfp4sp" "use-soft-float"="true" }
attributes #11 = { mustprogress nounwind willreturn allockind("free") memory(argmem: readwrite, inaccessiblemem: readwrite) "alloc-family"="malloc" "no-trapping-math"="true" "stack-protector-buffer-size"="8" "target-cpu"="generic" "target-features"="+armv7-a,+dsp,+soft-float,-aes,-bf16,-d32,-dotprod,-fp-armv8,-fp-armv8d16,-fp-armv8d16sp,-fp-armv8sp,-fp16,-fp16fml,-fp64,-fpregs,-fullfp16,-mve,-mve.fp,-neon,-sha2,-thumb-mode,-vfp2,-vfp2sp,-vfp3,-vfp3d16,-vfp3d16sp,-vfp3sp,-vfp4,-vfp4d16,-vfp4d16sp,-vfp4sp" "use-soft-float"="true" }
attributes #12 = { noreturn optsize "no-builtins" "no-trapping-math"="true" "stack-protector-buffer-size"="8" "target-cpu"="generic" "target-features"="+armv7-a,+dsp,+soft-float,-aes,-bf16,-d32,-dotprod,-fp-armv8,-fp-armv8d16,-fp-armv8d16sp,-fp-armv8sp,-fp16,-fp16fml,-fp64,-fpregs,-fullfp16,-mve,-mve.fp,-neon,-sha2,-thumb-mode,-vfp2,-vfp2sp,-vfp3,-vfp3d16,-vfp3d16sp,-vfp3sp,-vfp4,-vfp4d16,-vfp4d16sp,-vfp4sp" "use-soft-float"="true" }
attributes #13 = { nounwind }
attributes #14 = { allocsize(1) }
attributes #15 = { noreturn nounwind }
attributes #16 = { nobuiltin optsize "no-builtins" }
attributes #17 = { nobuiltin noreturn nounwind optsize "no-builtins" }
attributes #18 = { nobuiltin nounwind optsize "no-builtins" }

!llvm.ident = !{!0, !0, !0, !0, !0, !0, !0}
!llvm.module.flags = !{!1, !2, !3, !4}

!0 = !{!"Debian clang version 19.1.7 (3~deb12u1)"}
!1 = !{i32 7, !"Dwarf Version", i32 5}
!2 = !{i32 2, !"Debug Info Version", i32 3}
!3 = !{i32 1, !"wchar_size", i32 4}
!4 = !{i32 1, !"min_enum_size", i32 4}
!5 = distinct !{!5, !6}
!6 = !{!"llvm.loop.mustprogress"}
!7 = !{!8, !8, i64 0}
!8 = !{!"omnipotent char", !9, i64 0}
!9 = !{!"Simple C/C++ TBAA"}
!10 = distinct !{!10, !6}
!11 = !{!12, !12, i64 0}
!12 = !{!"int", !8, i64 0}
!13 = !{!14, !15, i64 0}
!14 = !{!"packer", !15, i64 0, !12, i64 4, !8, i64 8, !8, i64 4104, !15, i64 20488, !12, i64 20492, !12, i64 20496}
!15 = !{!"any pointer", !8, i64 0}
!16 = !{!14, !12, i64 4}
!17 = !{!14, !15, i64 20488}
!18 = !{!14, !12, i64 20496}
!19 = !{!20, !12, i64 4}
!20 = !{!"buffer", !15, i64 0, !12, i64 4, !12, i64 8}
!21 = distinct !{!21, !6}
!22 = distinct !{!22, !6}
!23 = distinct !{!23, !6}
!24 = !{!14, !12, i64 20492}
!25 = !{!20, !12, i64 8}
!26 = !{!20, !15, i64 0}
!27 = distinct !{!27, !6}
!28 = distinct !{!28, !6}
!29 = distinct !{!29, !6}
!30 = distinct !{!30, !6}
!31 = distinct !{!31, !6}
!32 = distinct !{!32, !6}
!33 = distinct !{!33, !6}
!34 = distinct !{!34, !6}
!35 = !{!36}
!36 = distinct !{!36, !37, !"memcpy: %from"}
!37 = distinct !{!37, !"memcpy"}
!38 = !{!39}
!39 = distinct !{!39, !37, !"memcpy: %to"}
!40 = distinct !{!40, !6}
!41 = !{!42, !8, i64 0}
!42 = !{!"__stream", !8, i64 0, !8, i64 1, !8, i64 2, !8, i64 3, !15, i64 4, !12, i64 8}
!43 = !{!44}
!44 = distinct !{!44, !45, !"fwrite: %stream"}
!45 = distinct !{!45, !"fwrite"}
!46 = !{!47}
!47 = distinct !{!47, !45, !"fwrite: %from"}
!48 = distinct !{!48, !6}
!49 = distinct !{!49, !6}
!50 = distinct !{!50, !6}
!51 = distinct !{!51, !6}
!52 = distinct !{!52, !6}
!53 = distinct !{!53, !6}
!54 = distinct !{!54, !6}
!55 = distinct !{!55, !6}
!56 = !{!57}
!57 = distinct !{!57, !58, !"fwrite: %stream"}
!58 = distinct !{!58, !"fwrite"}
!59 = !{!60}
!60 = distinct !{!60, !58, !"fwrite: %from"}
!61 = !{!62}
!62 = distinct !{!62, !63, !"fwrite: %stream"}
!63 = distinct !{!63, !"fwrite"}
!64 = !{!65}
!65 = distinct !{!65, !63, !"fwrite: %from"}
!66 = !{!42, !12, i64 8}
!67 = !{!42, !15, i64 4}
!68 = !{!42, !8, i64 2}
!69 = !{!42, !8, i64 3}
!70 = !{!42, !8, i64 1}
