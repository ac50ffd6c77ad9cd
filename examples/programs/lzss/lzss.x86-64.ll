source_filename = "buffer.c"
target datalayout = "e-m:e-p270:32:32-p271:32:32-p272:64:64-i64:64-i128:128-f80:128-n8:16:32:64-S128"
target triple = "x86_64-unknown-linux-gnu"

%struct.packer = type { ptr, i64, [1024 x i32], [4096 x i32], ptr, i64, i32 }
%struct.__stream = type { i8, i8, i8, i8, ptr, i64 }
%struct.buffer = type { ptr, i64, i64 }

@.str = private unnamed_addr constant [15 x i8] c"out of memory\0A\00", align 1
@.str.1 = private unnamed_addr constant [36 x i8] c"%zu bytes become %zu, %zu per cent\0A\00", align 1
@.str.1.2 = private unnamed_addr constant [8 x i8] c"refused\00", align 1
@.str.2 = private unnamed_addr constant [26 x i8] c"checksums %08x %08x %08x\0A\00", align 1
@.str.3 = private unnamed_addr constant [6 x i8] c"equal\00", align 1
@.str.4 = private unnamed_addr constant [10 x i8] c"different\00", align 1
@.str.5 = private unnamed_addr constant [7 x i8] c"%04zx \00", align 1
@.str.6 = private unnamed_addr constant [6 x i8] c" %02x\00", align 1
@.str.7 = private unnamed_addr constant [2 x i8] c"\0A\00", align 1
@.str.8 = private unnamed_addr constant [45 x i8] c"damaged: %d refused, %d differ, %d the same\0A\00", align 1
@lzss_pack.it = internal unnamed_addr global %struct.packer zeroinitializer, align 8
@.str.9 = private unnamed_addr constant [52 x i8] c"distance > 0 && distance < WINDOW && length <= MOST\00", align 1
@.str.1.10 = private unnamed_addr constant [9 x i8] c"./pack.c\00", align 1
@__func__.lzss_pack = private unnamed_addr constant [10 x i8] c"lzss_pack\00", align 1
@.str.10 = private unnamed_addr constant [1 x i8] zeroinitializer, align 1
@.str.2.12 = private unnamed_addr constant [2 x i8] c"-\00", align 1
@.str.3.13 = private unnamed_addr constant [2 x i8] c"+\00", align 1
@.str.4.11 = private unnamed_addr constant [2 x i8] c" \00", align 1
@.str.5.18 = private unnamed_addr constant [3 x i8] c"0X\00", align 1
@.str.6.17 = private unnamed_addr constant [3 x i8] c"0x\00", align 1
@.str.8.16 = private unnamed_addr constant [17 x i8] c"0123456789ABCDEF\00", align 1
@.str.9.9 = private unnamed_addr constant [17 x i8] c"0123456789abcdef\00", align 1
@__streams = internal global [3 x %struct.__stream] [%struct.__stream zeroinitializer, %struct.__stream { i8 1, i8 0, i8 0, i8 0, ptr null, i64 0 }, %struct.__stream { i8 2, i8 0, i8 0, i8 0, ptr null, i64 0 }], align 16

; Function Attrs: nounwind uwtable
define dso_local range(i32 0, 2) i32 @main() local_unnamed_addr #0 {
  %1 = alloca %struct.buffer, align 8
  %2 = alloca [100 x i8], align 16
  %3 = alloca %struct.buffer, align 8
  %4 = alloca %struct.buffer, align 8
  call void @llvm.lifetime.start.p0(i64 24, ptr nonnull %3) #13
  call void @llvm.memset.p0.i64(ptr noundef nonnull align 8 dereferenceable(24) %3, i8 0, i64 24, i1 false)
  call void @llvm.lifetime.start.p0(i64 24, ptr nonnull %4) #13
  call void @llvm.memset.p0.i64(ptr noundef nonnull align 8 dereferenceable(24) %4, i8 0, i64 24, i1 false)
  call void @llvm.lifetime.start.p0(i64 100, ptr nonnull %2) #13
  %5 = call i64 @fread(ptr noundef nonnull %2, i64 noundef 1, i64 noundef 100, ptr noundef nonnull @__streams)
  %6 = icmp eq i64 %5, 0
  br i1 %6, label %39, label %10

7:                                                ; preds = %32
  %8 = call i64 @fread(ptr noundef nonnull %2, i64 noundef 1, i64 noundef 100, ptr noundef nonnull @__streams)
  %9 = icmp eq i64 %8, 0
  br i1 %9, label %39, label %10, !llvm.loop !5

10:                                               ; preds = %7, %0
  %11 = phi ptr [ %33, %7 ], [ null, %0 ]
  %12 = phi i64 [ %35, %7 ], [ 0, %0 ]
  %13 = phi i64 [ %34, %7 ], [ 0, %0 ]
  %14 = phi i64 [ %8, %7 ], [ %5, %0 ]
  %15 = tail call i64 @llvm.umax.i64(i64 %14, i64 1)
  br label %16

16:                                               ; preds = %32, %10
  %17 = phi ptr [ %11, %10 ], [ %33, %32 ]
  %18 = phi i64 [ %12, %10 ], [ %35, %32 ]
  %19 = phi i64 [ %13, %10 ], [ %34, %32 ]
  %20 = phi i64 [ 0, %10 ], [ %37, %32 ]
  %21 = getelementptr inbounds [100 x i8], ptr %2, i64 0, i64 %20
  %22 = load i8, ptr %21, align 1, !tbaa !8
  %23 = icmp eq i64 %18, %19
  br i1 %23, label %24, label %32

24:                                               ; preds = %16
  %25 = icmp eq i64 %19, 0
  %26 = shl i64 %19, 1
  %27 = select i1 %25, i64 64, i64 %26
  %28 = tail call ptr @realloc(ptr noundef %17, i64 noundef %27) #14
  %29 = icmp eq ptr %28, null
  br i1 %29, label %30, label %32

30:                                               ; preds = %24
  %31 = tail call i32 @__print_text(ptr nonnull getelementptr inbounds (i8, ptr @__streams, i64 48), ptr nonnull @.str, i64 14) #13
  tail call void @exit(i32 noundef 2) #15
  unreachable

32:                                               ; preds = %24, %16
  %33 = phi ptr [ %17, %16 ], [ %28, %24 ]
  %34 = phi i64 [ %19, %16 ], [ %27, %24 ]
  %35 = add i64 %18, 1
  %36 = getelementptr inbounds i8, ptr %33, i64 %18
  store i8 %22, ptr %36, align 1, !tbaa !8
  %37 = add nuw i64 %20, 1
  %38 = icmp eq i64 %37, %15
  br i1 %38, label %7, label %16, !llvm.loop !11

39:                                               ; preds = %7, %0
  %40 = phi ptr [ null, %0 ], [ %33, %7 ]
  %41 = phi i64 [ 0, %0 ], [ %35, %7 ]
  call void @llvm.lifetime.end.p0(i64 100, ptr nonnull %2) #13
  tail call void @llvm.memset.p0.i64(ptr noundef nonnull align 8 dereferenceable(20520) @lzss_pack.it, i8 0, i64 20520, i1 false)
  tail call void @llvm.memset.p0.i64(ptr noundef nonnull align 8 dereferenceable(4096) getelementptr inbounds (i8, ptr @lzss_pack.it, i64 16), i8 -1, i64 4096, i1 false), !tbaa !12
  store ptr %40, ptr @lzss_pack.it, align 8, !tbaa !14
  store i64 %41, ptr getelementptr inbounds (i8, ptr @lzss_pack.it, i64 8), align 8, !tbaa !18
  store ptr %3, ptr getelementptr inbounds (i8, ptr @lzss_pack.it, i64 20496), align 8, !tbaa !19
  store i32 8, ptr getelementptr inbounds (i8, ptr @lzss_pack.it, i64 20512), align 8, !tbaa !20
  %42 = icmp eq i64 %41, 0
  br i1 %42, label %254, label %43

43:                                               ; preds = %39
  %44 = getelementptr inbounds i8, ptr %3, i64 8
  %45 = getelementptr inbounds i8, ptr %3, i64 16
  br label %48

46:                                               ; preds = %252
  %47 = icmp ult i64 %227, %41
  br i1 %47, label %48, label %254, !llvm.loop !21

48:                                               ; preds = %46, %43
  %49 = phi i64 [ 0, %43 ], [ %227, %46 ]
  %50 = load i64, ptr getelementptr inbounds (i8, ptr @lzss_pack.it, i64 8), align 8, !tbaa !18
  %51 = sub i64 %50, %49
  %52 = call i64 @llvm.umin.i64(i64 %51, i64 18)
  %53 = icmp ult i64 %51, 3
  br i1 %53, label %113, label %54

54:                                               ; preds = %48
  %55 = load ptr, ptr @lzss_pack.it, align 8, !tbaa !14
  %56 = getelementptr inbounds i8, ptr %55, i64 %49
  %57 = load i8, ptr %56, align 1, !tbaa !8
  %58 = zext i8 %57 to i64
  %59 = getelementptr inbounds i8, ptr %56, i64 1
  %60 = load i8, ptr %59, align 1, !tbaa !8
  %61 = zext i8 %60 to i64
  %62 = shl nuw nsw i64 %61, 8
  %63 = or disjoint i64 %62, %58
  %64 = getelementptr inbounds i8, ptr %56, i64 2
  %65 = load i8, ptr %64, align 1, !tbaa !8
  %66 = zext i8 %65 to i64
  %67 = shl nuw nsw i64 %66, 16
  %68 = or disjoint i64 %63, %67
  %69 = mul nuw nsw i64 %68, 2654435761
  %70 = lshr i64 %69, 22
  %71 = and i64 %70, 1023
  %72 = getelementptr inbounds [1024 x i32], ptr getelementptr inbounds (i8, ptr @lzss_pack.it, i64 16), i64 0, i64 %71
  %73 = load i32, ptr %72, align 4, !tbaa !12
  %74 = icmp eq i32 %73, -1
  br i1 %74, label %85, label %75

75:                                               ; preds = %102, %54
  %76 = phi i64 [ %105, %102 ], [ 0, %54 ]
  %77 = phi i32 [ %111, %102 ], [ %73, %54 ]
  %78 = phi i32 [ %110, %102 ], [ 0, %54 ]
  %79 = phi i64 [ %106, %102 ], [ 0, %54 ]
  %80 = sext i32 %77 to i64
  %81 = sub i64 %49, %80
  %82 = icmp ult i64 %81, 4096
  %83 = icmp ult i32 %78, 48
  %84 = select i1 %82, i1 %83, i1 false
  br i1 %84, label %90, label %85

85:                                               ; preds = %102, %75, %54
  %86 = phi i64 [ 0, %54 ], [ %105, %102 ], [ %76, %75 ]
  %87 = phi i64 [ 0, %54 ], [ %106, %102 ], [ %79, %75 ]
  %88 = icmp ugt i64 %87, 2
  %89 = select i1 %88, i64 %87, i64 0
  br label %113

90:                                               ; preds = %75
  %91 = getelementptr inbounds i8, ptr %55, i64 %80
  br label %92

92:                                               ; preds = %99, %90
  %93 = phi i64 [ %100, %99 ], [ 0, %90 ]
  %94 = getelementptr inbounds i8, ptr %91, i64 %93
  %95 = load i8, ptr %94, align 1, !tbaa !8
  %96 = getelementptr inbounds i8, ptr %56, i64 %93
  %97 = load i8, ptr %96, align 1, !tbaa !8
  %98 = icmp eq i8 %95, %97
  br i1 %98, label %99, label %102

99:                                               ; preds = %92
  %100 = add nuw i64 %93, 1
  %101 = icmp eq i64 %100, %52
  br i1 %101, label %102, label %92, !llvm.loop !22

102:                                              ; preds = %99, %92
  %103 = phi i64 [ %93, %92 ], [ %52, %99 ]
  %104 = icmp ugt i64 %103, %79
  %105 = select i1 %104, i64 %81, i64 %76
  %106 = call i64 @llvm.umax.i64(i64 %103, i64 %79)
  %107 = srem i32 %77, 4096
  %108 = sext i32 %107 to i64
  %109 = getelementptr inbounds [4096 x i32], ptr getelementptr inbounds (i8, ptr @lzss_pack.it, i64 4112), i64 0, i64 %108
  %110 = add nuw nsw i32 %78, 1
  %111 = load i32, ptr %109, align 4, !tbaa !12
  %112 = icmp eq i32 %111, -1
  br i1 %112, label %85, label %75, !llvm.loop !23

113:                                              ; preds = %85, %48
  %114 = phi i64 [ 0, %48 ], [ %86, %85 ]
  %115 = phi i64 [ 0, %48 ], [ %89, %85 ]
  %116 = icmp ne i64 %115, 0
  %117 = zext i1 %116 to i32
  %118 = load i32, ptr getelementptr inbounds (i8, ptr @lzss_pack.it, i64 20512), align 8, !tbaa !20
  %119 = icmp eq i32 %118, 8
  br i1 %119, label %120, label %142

120:                                              ; preds = %113
  %121 = load ptr, ptr getelementptr inbounds (i8, ptr @lzss_pack.it, i64 20496), align 8, !tbaa !19
  %122 = getelementptr inbounds i8, ptr %121, i64 8
  %123 = load i64, ptr %122, align 8, !tbaa !24
  store i64 %123, ptr getelementptr inbounds (i8, ptr @lzss_pack.it, i64 20504), align 8, !tbaa !26
  store i32 0, ptr getelementptr inbounds (i8, ptr @lzss_pack.it, i64 20512), align 8, !tbaa !20
  %124 = getelementptr inbounds i8, ptr %121, i64 16
  %125 = load i64, ptr %124, align 8, !tbaa !27
  %126 = icmp eq i64 %123, %125
  br i1 %126, label %127, label %137

127:                                              ; preds = %120
  %128 = icmp eq i64 %125, 0
  %129 = shl i64 %125, 1
  %130 = select i1 %128, i64 64, i64 %129
  store i64 %130, ptr %124, align 8, !tbaa !27
  %131 = load ptr, ptr %121, align 8, !tbaa !28
  %132 = call ptr @realloc(ptr noundef %131, i64 noundef %130) #14
  %133 = icmp eq ptr %132, null
  br i1 %133, label %134, label %136

134:                                              ; preds = %127
  %135 = call i32 @__print_text(ptr nonnull getelementptr inbounds (i8, ptr @__streams, i64 48), ptr nonnull @.str, i64 14) #13
  call void @exit(i32 noundef 2) #15
  unreachable

136:                                              ; preds = %127
  store ptr %132, ptr %121, align 8, !tbaa !28
  br label %137

137:                                              ; preds = %136, %120
  %138 = load ptr, ptr %121, align 8, !tbaa !28
  %139 = load i64, ptr %122, align 8, !tbaa !24
  %140 = add i64 %139, 1
  store i64 %140, ptr %122, align 8, !tbaa !24
  %141 = getelementptr inbounds i8, ptr %138, i64 %139
  store i8 0, ptr %141, align 1, !tbaa !8
  br label %142

142:                                              ; preds = %137, %113
  %143 = load i32, ptr getelementptr inbounds (i8, ptr @lzss_pack.it, i64 20512), align 8, !tbaa !20
  %144 = add nsw i32 %143, 1
  store i32 %144, ptr getelementptr inbounds (i8, ptr @lzss_pack.it, i64 20512), align 8, !tbaa !20
  %145 = shl nuw i32 %117, %143
  %146 = load ptr, ptr getelementptr inbounds (i8, ptr @lzss_pack.it, i64 20496), align 8, !tbaa !19
  %147 = load ptr, ptr %146, align 8, !tbaa !28
  %148 = load i64, ptr getelementptr inbounds (i8, ptr @lzss_pack.it, i64 20504), align 8, !tbaa !26
  %149 = getelementptr inbounds i8, ptr %147, i64 %148
  %150 = load i8, ptr %149, align 1, !tbaa !8
  %151 = trunc i32 %145 to i8
  %152 = or i8 %150, %151
  store i8 %152, ptr %149, align 1, !tbaa !8
  %153 = icmp eq i64 %115, 0
  br i1 %153, label %154, label %170

154:                                              ; preds = %142
  %155 = getelementptr inbounds i8, ptr %40, i64 %49
  %156 = load i8, ptr %155, align 1, !tbaa !8
  %157 = load i64, ptr %44, align 8, !tbaa !24
  %158 = load i64, ptr %45, align 8, !tbaa !27
  %159 = icmp eq i64 %157, %158
  br i1 %159, label %160, label %214

160:                                              ; preds = %154
  %161 = icmp eq i64 %158, 0
  %162 = shl i64 %158, 1
  %163 = select i1 %161, i64 64, i64 %162
  store i64 %163, ptr %45, align 8, !tbaa !27
  %164 = load ptr, ptr %3, align 8, !tbaa !28
  %165 = call ptr @realloc(ptr noundef %164, i64 noundef %163) #14
  %166 = icmp eq ptr %165, null
  br i1 %166, label %167, label %169

167:                                              ; preds = %160
  %168 = call i32 @__print_text(ptr nonnull getelementptr inbounds (i8, ptr @__streams, i64 48), ptr nonnull @.str, i64 14) #13
  call void @exit(i32 noundef 2) #15
  unreachable

169:                                              ; preds = %160
  store ptr %165, ptr %3, align 8, !tbaa !28
  br label %214

170:                                              ; preds = %142
  %171 = add i64 %114, -1
  %172 = icmp ult i64 %171, 4095
  %173 = icmp ult i64 %115, 19
  %174 = and i1 %172, %173
  br i1 %174, label %176, label %175

175:                                              ; preds = %170
  call void @__assert_fail(ptr noundef nonnull @.str.9, ptr noundef nonnull @.str.1.10, i32 noundef 80, ptr noundef nonnull @__func__.lzss_pack) #15
  unreachable

176:                                              ; preds = %170
  %177 = trunc i64 %114 to i8
  %178 = load i64, ptr %44, align 8, !tbaa !24
  %179 = load i64, ptr %45, align 8, !tbaa !27
  %180 = icmp eq i64 %178, %179
  br i1 %180, label %181, label %191

181:                                              ; preds = %176
  %182 = icmp eq i64 %179, 0
  %183 = shl i64 %179, 1
  %184 = select i1 %182, i64 64, i64 %183
  store i64 %184, ptr %45, align 8, !tbaa !27
  %185 = load ptr, ptr %3, align 8, !tbaa !28
  %186 = call ptr @realloc(ptr noundef %185, i64 noundef %184) #14
  %187 = icmp eq ptr %186, null
  br i1 %187, label %188, label %190

188:                                              ; preds = %181
  %189 = call i32 @__print_text(ptr nonnull getelementptr inbounds (i8, ptr @__streams, i64 48), ptr nonnull @.str, i64 14) #13
  call void @exit(i32 noundef 2) #15
  unreachable

190:                                              ; preds = %181
  store ptr %186, ptr %3, align 8, !tbaa !28
  br label %191

191:                                              ; preds = %190, %176
  %192 = load ptr, ptr %3, align 8, !tbaa !28
  %193 = load i64, ptr %44, align 8, !tbaa !24
  %194 = add i64 %193, 1
  store i64 %194, ptr %44, align 8, !tbaa !24
  %195 = getelementptr inbounds i8, ptr %192, i64 %193
  store i8 %177, ptr %195, align 1, !tbaa !8
  %196 = lshr i64 %114, 4
  %197 = and i64 %196, 240
  %198 = add nuw nsw i64 %115, 253
  %199 = or i64 %197, %198
  %200 = trunc i64 %199 to i8
  %201 = load i64, ptr %44, align 8, !tbaa !24
  %202 = load i64, ptr %45, align 8, !tbaa !27
  %203 = icmp eq i64 %201, %202
  br i1 %203, label %204, label %214

204:                                              ; preds = %191
  %205 = icmp eq i64 %202, 0
  %206 = shl i64 %202, 1
  %207 = select i1 %205, i64 64, i64 %206
  store i64 %207, ptr %45, align 8, !tbaa !27
  %208 = load ptr, ptr %3, align 8, !tbaa !28
  %209 = call ptr @realloc(ptr noundef %208, i64 noundef %207) #14
  %210 = icmp eq ptr %209, null
  br i1 %210, label %211, label %213

211:                                              ; preds = %204
  %212 = call i32 @__print_text(ptr nonnull getelementptr inbounds (i8, ptr @__streams, i64 48), ptr nonnull @.str, i64 14) #13
  call void @exit(i32 noundef 2) #15
  unreachable

213:                                              ; preds = %204
  store ptr %209, ptr %3, align 8, !tbaa !28
  br label %214

214:                                              ; preds = %213, %191, %169, %154
  %215 = phi i8 [ %156, %169 ], [ %156, %154 ], [ %200, %213 ], [ %200, %191 ]
  %216 = phi i64 [ 1, %169 ], [ 1, %154 ], [ %115, %213 ], [ %115, %191 ]
  %217 = load ptr, ptr %3, align 8, !tbaa !28
  %218 = load i64, ptr %44, align 8, !tbaa !24
  %219 = add i64 %218, 1
  store i64 %219, ptr %44, align 8, !tbaa !24
  %220 = getelementptr inbounds i8, ptr %217, i64 %218
  store i8 %215, ptr %220, align 1, !tbaa !8
  %221 = load i64, ptr getelementptr inbounds (i8, ptr @lzss_pack.it, i64 8), align 8, !tbaa !18
  %222 = load ptr, ptr @lzss_pack.it, align 8
  br label %223

223:                                              ; preds = %252, %214
  %224 = phi i64 [ %216, %214 ], [ %226, %252 ]
  %225 = phi i64 [ %49, %214 ], [ %227, %252 ]
  %226 = add i64 %224, -1
  %227 = add i64 %225, 1
  %228 = add i64 %225, 3
  %229 = icmp ugt i64 %228, %221
  br i1 %229, label %252, label %230

230:                                              ; preds = %223
  %231 = getelementptr inbounds i8, ptr %222, i64 %225
  %232 = load i8, ptr %231, align 1, !tbaa !8
  %233 = zext i8 %232 to i64
  %234 = getelementptr inbounds i8, ptr %231, i64 1
  %235 = load i8, ptr %234, align 1, !tbaa !8
  %236 = zext i8 %235 to i64
  %237 = shl nuw nsw i64 %236, 8
  %238 = or disjoint i64 %237, %233
  %239 = getelementptr inbounds i8, ptr %231, i64 2
  %240 = load i8, ptr %239, align 1, !tbaa !8
  %241 = zext i8 %240 to i64
  %242 = shl nuw nsw i64 %241, 16
  %243 = or disjoint i64 %238, %242
  %244 = mul nuw nsw i64 %243, 2654435761
  %245 = lshr i64 %244, 22
  %246 = and i64 %245, 1023
  %247 = getelementptr inbounds [1024 x i32], ptr getelementptr inbounds (i8, ptr @lzss_pack.it, i64 16), i64 0, i64 %246
  %248 = load i32, ptr %247, align 4, !tbaa !12
  %249 = and i64 %225, 4095
  %250 = getelementptr inbounds [4096 x i32], ptr getelementptr inbounds (i8, ptr @lzss_pack.it, i64 4112), i64 0, i64 %249
  store i32 %248, ptr %250, align 4, !tbaa !12
  %251 = trunc i64 %225 to i32
  store i32 %251, ptr %247, align 4, !tbaa !12
  br label %252

252:                                              ; preds = %230, %223
  %253 = icmp eq i64 %226, 0
  br i1 %253, label %46, label %223, !llvm.loop !29

254:                                              ; preds = %46, %39
  %255 = getelementptr inbounds i8, ptr %3, i64 8
  %256 = load i64, ptr %255, align 8, !tbaa !24
  br i1 %42, label %260, label %257

257:                                              ; preds = %254
  %258 = mul i64 %256, 100
  %259 = udiv i64 %258, %41
  br label %260

260:                                              ; preds = %257, %254
  %261 = phi i64 [ %259, %257 ], [ 100, %254 ]
  %262 = call i32 @__print_unsigned(ptr nonnull getelementptr inbounds (i8, ptr @__streams, i64 24), i64 %41, i32 10, i32 0, i32 0, i32 -1) #13
  %263 = call i32 @__print_text(ptr nonnull getelementptr inbounds (i8, ptr @__streams, i64 24), ptr nonnull getelementptr inbounds (i8, ptr @.str.1, i64 3), i64 14) #13
  %264 = call i32 @__print_unsigned(ptr nonnull getelementptr inbounds (i8, ptr @__streams, i64 24), i64 %256, i32 10, i32 0, i32 0, i32 -1) #13
  %265 = call i32 @__print_text(ptr nonnull getelementptr inbounds (i8, ptr @__streams, i64 24), ptr nonnull getelementptr inbounds (i8, ptr @.str.1, i64 20), i64 2) #13
  %266 = call i32 @__print_unsigned(ptr nonnull getelementptr inbounds (i8, ptr @__streams, i64 24), i64 %261, i32 10, i32 0, i32 0, i32 -1) #13
  %267 = call i32 @__print_text(ptr nonnull getelementptr inbounds (i8, ptr @__streams, i64 24), ptr nonnull getelementptr inbounds (i8, ptr @.str.1, i64 25), i64 10) #13
  %268 = load i64, ptr %255, align 8, !tbaa !24
  %269 = icmp eq i64 %268, 0
  br i1 %269, label %296, label %270

270:                                              ; preds = %280, %260
  %271 = phi i64 [ %286, %280 ], [ 16, %260 ]
  %272 = phi i64 [ %275, %280 ], [ 0, %260 ]
  %273 = call i32 @__print_unsigned(ptr nonnull getelementptr inbounds (i8, ptr @__streams, i64 24), i64 %272, i32 16, i32 16, i32 4, i32 -1) #13
  %274 = call i32 @__print_text(ptr nonnull getelementptr inbounds (i8, ptr @__streams, i64 24), ptr nonnull getelementptr inbounds (i8, ptr @.str.5, i64 5), i64 1) #13
  %275 = add nuw nsw i64 %272, 16
  br label %276

276:                                              ; preds = %287, %270
  %277 = phi i64 [ %272, %270 ], [ %294, %287 ]
  %278 = load i64, ptr %255, align 8, !tbaa !24
  %279 = icmp ult i64 %277, %278
  br i1 %279, label %287, label %280

280:                                              ; preds = %287, %276
  %281 = call i32 @__print_text(ptr nonnull getelementptr inbounds (i8, ptr @__streams, i64 24), ptr nonnull @.str.7, i64 1) #13
  %282 = load i64, ptr %255, align 8, !tbaa !24
  %283 = icmp ult i64 %275, %282
  %284 = icmp ult i64 %272, 48
  %285 = and i1 %284, %283
  %286 = add nuw nsw i64 %271, 16
  br i1 %285, label %270, label %296, !llvm.loop !30

287:                                              ; preds = %276
  %288 = load ptr, ptr %3, align 8, !tbaa !28
  %289 = getelementptr inbounds i8, ptr %288, i64 %277
  %290 = load i8, ptr %289, align 1, !tbaa !8
  %291 = call i32 @__print_text(ptr nonnull getelementptr inbounds (i8, ptr @__streams, i64 24), ptr nonnull @.str.6, i64 1) #13
  %292 = zext i8 %290 to i64
  %293 = call i32 @__print_unsigned(ptr nonnull getelementptr inbounds (i8, ptr @__streams, i64 24), i64 %292, i32 16, i32 16, i32 2, i32 -1) #13
  %294 = add nuw nsw i64 %277, 1
  %295 = icmp eq i64 %294, %271
  br i1 %295, label %280, label %276, !llvm.loop !31

296:                                              ; preds = %280, %260
  %297 = load ptr, ptr %3, align 8, !tbaa !28
  %298 = load i64, ptr %255, align 8, !tbaa !24
  %299 = call fastcc i32 @lzss_unpack(ptr noundef nonnull %4, ptr noundef %297, i64 noundef %298)
  %300 = icmp eq i32 %299, 0
  br i1 %300, label %301, label %303

301:                                              ; preds = %296
  %302 = call i32 @puts(ptr noundef nonnull dereferenceable(1) @.str.1.2)
  br label %444

303:                                              ; preds = %296
  br i1 %42, label %321, label %308

304:                                              ; preds = %308
  %305 = shl nuw i32 %318, 16
  %306 = or disjoint i32 %305, %316
  %307 = zext i32 %306 to i64
  br label %321

308:                                              ; preds = %308, %303
  %309 = phi i64 [ %319, %308 ], [ 0, %303 ]
  %310 = phi i32 [ %318, %308 ], [ 0, %303 ]
  %311 = phi i32 [ %316, %308 ], [ 1, %303 ]
  %312 = getelementptr inbounds i8, ptr %40, i64 %309
  %313 = load i8, ptr %312, align 1, !tbaa !8
  %314 = zext i8 %313 to i32
  %315 = add nuw nsw i32 %311, %314
  %316 = urem i32 %315, 65521
  %317 = add nuw nsw i32 %316, %310
  %318 = urem i32 %317, 65521
  %319 = add nuw i64 %309, 1
  %320 = icmp eq i64 %319, %41
  br i1 %320, label %304, label %308, !llvm.loop !32

321:                                              ; preds = %304, %303
  %322 = phi i64 [ 1, %303 ], [ %307, %304 ]
  %323 = load ptr, ptr %3, align 8, !tbaa !28
  %324 = load i64, ptr %255, align 8, !tbaa !24
  %325 = icmp eq i64 %324, 0
  br i1 %325, label %343, label %330

326:                                              ; preds = %330
  %327 = shl nuw i32 %340, 16
  %328 = or disjoint i32 %327, %338
  %329 = zext i32 %328 to i64
  br label %343

330:                                              ; preds = %330, %321
  %331 = phi i64 [ %341, %330 ], [ 0, %321 ]
  %332 = phi i32 [ %340, %330 ], [ 0, %321 ]
  %333 = phi i32 [ %338, %330 ], [ 1, %321 ]
  %334 = getelementptr inbounds i8, ptr %323, i64 %331
  %335 = load i8, ptr %334, align 1, !tbaa !8
  %336 = zext i8 %335 to i32
  %337 = add nuw nsw i32 %333, %336
  %338 = urem i32 %337, 65521
  %339 = add nuw nsw i32 %338, %332
  %340 = urem i32 %339, 65521
  %341 = add nuw i64 %331, 1
  %342 = icmp eq i64 %341, %324
  br i1 %342, label %326, label %330, !llvm.loop !33

343:                                              ; preds = %326, %321
  %344 = phi i64 [ 1, %321 ], [ %329, %326 ]
  %345 = load ptr, ptr %4, align 8, !tbaa !28
  %346 = getelementptr inbounds i8, ptr %4, i64 8
  %347 = load i64, ptr %346, align 8, !tbaa !24
  %348 = icmp eq i64 %347, 0
  br i1 %348, label %366, label %353

349:                                              ; preds = %353
  %350 = shl nuw i32 %363, 16
  %351 = or disjoint i32 %350, %361
  %352 = zext i32 %351 to i64
  br label %366

353:                                              ; preds = %353, %343
  %354 = phi i64 [ %364, %353 ], [ 0, %343 ]
  %355 = phi i32 [ %363, %353 ], [ 0, %343 ]
  %356 = phi i32 [ %361, %353 ], [ 1, %343 ]
  %357 = getelementptr inbounds i8, ptr %345, i64 %354
  %358 = load i8, ptr %357, align 1, !tbaa !8
  %359 = zext i8 %358 to i32
  %360 = add nuw nsw i32 %356, %359
  %361 = urem i32 %360, 65521
  %362 = add nuw nsw i32 %361, %355
  %363 = urem i32 %362, 65521
  %364 = add nuw i64 %354, 1
  %365 = icmp eq i64 %364, %347
  br i1 %365, label %349, label %353, !llvm.loop !34

366:                                              ; preds = %349, %343
  %367 = phi i64 [ 1, %343 ], [ %352, %349 ]
  %368 = call i32 @__print_text(ptr nonnull getelementptr inbounds (i8, ptr @__streams, i64 24), ptr nonnull @.str.2, i64 10) #13
  %369 = call i32 @__print_unsigned(ptr nonnull getelementptr inbounds (i8, ptr @__streams, i64 24), i64 %322, i32 16, i32 16, i32 8, i32 -1) #13
  %370 = call i32 @__print_text(ptr nonnull getelementptr inbounds (i8, ptr @__streams, i64 24), ptr nonnull getelementptr inbounds (i8, ptr @.str.2, i64 14), i64 1) #13
  %371 = call i32 @__print_unsigned(ptr nonnull getelementptr inbounds (i8, ptr @__streams, i64 24), i64 %344, i32 16, i32 16, i32 8, i32 -1) #13
  %372 = call i32 @__print_text(ptr nonnull getelementptr inbounds (i8, ptr @__streams, i64 24), ptr nonnull getelementptr inbounds (i8, ptr @.str.2, i64 19), i64 1) #13
  %373 = call i32 @__print_unsigned(ptr nonnull getelementptr inbounds (i8, ptr @__streams, i64 24), i64 %367, i32 16, i32 16, i32 8, i32 -1) #13
  %374 = call i32 @__print_text(ptr nonnull getelementptr inbounds (i8, ptr @__streams, i64 24), ptr nonnull getelementptr inbounds (i8, ptr @.str.2, i64 24), i64 1) #13
  %375 = icmp eq i64 %347, %41
  br i1 %375, label %376, label %379

376:                                              ; preds = %366
  %377 = call i32 @bcmp(ptr %345, ptr %40, i64 %41)
  %378 = icmp eq i32 %377, 0
  br label %379

379:                                              ; preds = %376, %366
  %380 = phi i1 [ false, %366 ], [ %378, %376 ]
  %381 = select i1 %380, ptr @.str.3, ptr @.str.4
  %382 = call i32 @puts(ptr noundef nonnull dereferenceable(1) %381)
  %383 = load i64, ptr %255, align 8, !tbaa !24
  %384 = icmp eq i64 %383, 0
  br i1 %384, label %429, label %385

385:                                              ; preds = %379
  %386 = getelementptr inbounds i8, ptr %1, i64 8
  br label %391

387:                                              ; preds = %417
  %388 = sext i32 %418 to i64
  %389 = sext i32 %419 to i64
  %390 = sext i32 %420 to i64
  br label %429

391:                                              ; preds = %417, %385
  %392 = phi i64 [ 0, %385 ], [ %426, %417 ]
  %393 = phi i32 [ 0, %385 ], [ %420, %417 ]
  %394 = phi i32 [ 0, %385 ], [ %419, %417 ]
  %395 = phi i32 [ 0, %385 ], [ %418, %417 ]
  call void @llvm.lifetime.start.p0(i64 24, ptr nonnull %1) #13
  call void @llvm.memset.p0.i64(ptr noundef nonnull align 8 dereferenceable(24) %1, i8 0, i64 24, i1 false)
  %396 = load ptr, ptr %3, align 8, !tbaa !28
  %397 = getelementptr inbounds i8, ptr %396, i64 %392
  %398 = load i8, ptr %397, align 1, !tbaa !8
  %399 = xor i8 %398, 85
  store i8 %399, ptr %397, align 1, !tbaa !8
  %400 = load ptr, ptr %3, align 8, !tbaa !28
  %401 = load i64, ptr %255, align 8, !tbaa !24
  %402 = call fastcc i32 @lzss_unpack(ptr noundef nonnull %1, ptr noundef %400, i64 noundef %401)
  %403 = icmp eq i32 %402, 0
  br i1 %403, label %404, label %406

404:                                              ; preds = %391
  %405 = add nsw i32 %395, 1
  br label %417

406:                                              ; preds = %391
  %407 = load i64, ptr %386, align 8, !tbaa !24
  %408 = icmp eq i64 %407, %41
  br i1 %408, label %409, label %415

409:                                              ; preds = %406
  %410 = load ptr, ptr %1, align 8, !tbaa !28
  %411 = call i32 @bcmp(ptr %410, ptr %40, i64 %407)
  %412 = icmp eq i32 %411, 0
  br i1 %412, label %413, label %415

413:                                              ; preds = %409
  %414 = add nsw i32 %393, 1
  br label %417

415:                                              ; preds = %409, %406
  %416 = add nsw i32 %394, 1
  br label %417

417:                                              ; preds = %415, %413, %404
  %418 = phi i32 [ %395, %413 ], [ %395, %415 ], [ %405, %404 ]
  %419 = phi i32 [ %394, %413 ], [ %416, %415 ], [ %394, %404 ]
  %420 = phi i32 [ %414, %413 ], [ %393, %415 ], [ %393, %404 ]
  %421 = load ptr, ptr %3, align 8, !tbaa !28
  %422 = getelementptr inbounds i8, ptr %421, i64 %392
  %423 = load i8, ptr %422, align 1, !tbaa !8
  %424 = xor i8 %423, 85
  store i8 %424, ptr %422, align 1, !tbaa !8
  %425 = load ptr, ptr %1, align 8, !tbaa !28
  call void @__sized_free(ptr noundef %425)
  call void @llvm.memset.p0.i64(ptr noundef nonnull align 8 dereferenceable(24) %1, i8 0, i64 24, i1 false)
  call void @llvm.lifetime.end.p0(i64 24, ptr nonnull %1) #13
  %426 = add i64 %392, 7
  %427 = load i64, ptr %255, align 8, !tbaa !24
  %428 = icmp ult i64 %426, %427
  br i1 %428, label %391, label %387, !llvm.loop !35

429:                                              ; preds = %387, %379
  %430 = phi i64 [ 0, %379 ], [ %388, %387 ]
  %431 = phi i64 [ 0, %379 ], [ %389, %387 ]
  %432 = phi i64 [ 0, %379 ], [ %390, %387 ]
  %433 = call i32 @__print_text(ptr nonnull getelementptr inbounds (i8, ptr @__streams, i64 24), ptr nonnull @.str.8, i64 9) #13
  %434 = call i32 @__print_signed(ptr nonnull getelementptr inbounds (i8, ptr @__streams, i64 24), i64 %430, i32 0, i32 0, i32 -1) #13
  %435 = call i32 @__print_text(ptr nonnull getelementptr inbounds (i8, ptr @__streams, i64 24), ptr nonnull getelementptr inbounds (i8, ptr @.str.8, i64 11), i64 10) #13
  %436 = call i32 @__print_signed(ptr nonnull getelementptr inbounds (i8, ptr @__streams, i64 24), i64 %431, i32 0, i32 0, i32 -1) #13
  %437 = call i32 @__print_text(ptr nonnull getelementptr inbounds (i8, ptr @__streams, i64 24), ptr nonnull getelementptr inbounds (i8, ptr @.str.8, i64 23), i64 9) #13
  %438 = call i32 @__print_signed(ptr nonnull getelementptr inbounds (i8, ptr @__streams, i64 24), i64 %432, i32 0, i32 0, i32 -1) #13
  %439 = call i32 @__print_text(ptr nonnull getelementptr inbounds (i8, ptr @__streams, i64 24), ptr nonnull getelementptr inbounds (i8, ptr @.str.8, i64 34), i64 10) #13
  call void @__sized_free(ptr noundef %40)
  %440 = load ptr, ptr %3, align 8, !tbaa !28
  call void @__sized_free(ptr noundef %440)
  call void @llvm.memset.p0.i64(ptr noundef nonnull align 8 dereferenceable(24) %3, i8 0, i64 24, i1 false)
  %441 = load ptr, ptr %4, align 8, !tbaa !28
  call void @__sized_free(ptr noundef %441)
  call void @llvm.memset.p0.i64(ptr noundef nonnull align 8 dereferenceable(24) %4, i8 0, i64 24, i1 false)
  %442 = xor i1 %380, true
  %443 = zext i1 %442 to i32
  br label %444

444:                                              ; preds = %429, %301
  %445 = phi i32 [ %443, %429 ], [ 1, %301 ]
  call void @llvm.lifetime.end.p0(i64 24, ptr nonnull %4) #13
  call void @llvm.lifetime.end.p0(i64 24, ptr nonnull %3) #13
  ret i32 %445
}

; Function Attrs: nocallback nofree nosync nounwind willreturn memory(argmem: readwrite)
declare void @llvm.lifetime.start.p0(i64 immarg, ptr nocapture) #1

; Function Attrs: nocallback nofree nounwind willreturn memory(argmem: write)
declare void @llvm.memset.p0.i64(ptr nocapture writeonly, i8, i64, i1 immarg) #2

; Function Attrs: nounwind optsize uwtable
define internal i64 @fread(ptr noalias nocapture noundef writeonly %0, i64 noundef %1, i64 noundef %2, ptr noalias nocapture noundef %3) local_unnamed_addr #3 {
  %5 = mul i64 %2, %1
  %6 = icmp eq i64 %5, 0
  br i1 %6, label %11, label %7

7:                                                ; preds = %14, %4
  %8 = phi i64 [ %17, %14 ], [ 0, %4 ]
  %9 = tail call i32 @fgetc(ptr noundef %3) #16
  %10 = icmp eq i32 %9, -1
  br i1 %10, label %11, label %14

11:                                               ; preds = %14, %7, %4
  %12 = phi i64 [ 0, %4 ], [ %5, %14 ], [ %8, %7 ]
  %13 = icmp eq i64 %1, 0
  br i1 %13, label %21, label %19

14:                                               ; preds = %7
  %15 = trunc i32 %9 to i8
  %16 = getelementptr inbounds i8, ptr %0, i64 %8
  store i8 %15, ptr %16, align 1, !tbaa !8
  %17 = add nuw i64 %8, 1
  %18 = icmp eq i64 %17, %5
  br i1 %18, label %11, label %7, !llvm.loop !36

19:                                               ; preds = %11
  %20 = udiv i64 %12, %1
  br label %21

21:                                               ; preds = %19, %11
  %22 = phi i64 [ %20, %19 ], [ 0, %11 ]
  ret i64 %22
}

; Function Attrs: nocallback nofree nosync nounwind speculatable willreturn memory(none)
declare i64 @llvm.umax.i64(i64, i64) #4

; Function Attrs: nounwind optsize uwtable
define internal ptr @realloc(ptr noundef %0, i64 noundef %1) local_unnamed_addr #3 {
  %3 = icmp eq ptr %0, null
  br i1 %3, label %4, label %6

4:                                                ; preds = %2
  %5 = tail call ptr @__sized_malloc(i64 noundef %1) #16
  br label %28

6:                                                ; preds = %2
  %7 = icmp eq i64 %1, 0
  br i1 %7, label %8, label %9

8:                                                ; preds = %6
  tail call void @__sized_free(ptr noundef nonnull %0) #16
  br label %28

9:                                                ; preds = %6
  %10 = tail call ptr @__sized_malloc(i64 noundef %1) #16
  %11 = icmp eq ptr %10, null
  br i1 %11, label %28, label %12

12:                                               ; preds = %9
  %13 = getelementptr inbounds i8, ptr %0, i64 -16
  %14 = load i64, ptr %13, align 8, !tbaa !37
  %15 = icmp eq i64 %14, 0
  br i1 %15, label %27, label %16

16:                                               ; preds = %12
  %17 = tail call i64 @llvm.umin.i64(i64 %14, i64 %1)
  br label %18

18:                                               ; preds = %18, %16
  %19 = phi ptr [ %23, %18 ], [ %0, %16 ]
  %20 = phi ptr [ %25, %18 ], [ %10, %16 ]
  %21 = phi i64 [ %22, %18 ], [ %17, %16 ]
  %22 = add i64 %21, -1
  %23 = getelementptr inbounds i8, ptr %19, i64 1
  %24 = load i8, ptr %19, align 1, !tbaa !8, !alias.scope !38, !noalias !41
  %25 = getelementptr inbounds i8, ptr %20, i64 1
  store i8 %24, ptr %20, align 1, !tbaa !8, !alias.scope !41, !noalias !38
  %26 = icmp eq i64 %22, 0
  br i1 %26, label %27, label %18, !llvm.loop !43

27:                                               ; preds = %18, %12
  tail call void @__sized_free(ptr noundef nonnull %0) #16
  br label %28

28:                                               ; preds = %27, %9, %8, %4
  %29 = phi ptr [ null, %8 ], [ %5, %4 ], [ %10, %27 ], [ null, %9 ]
  ret ptr %29
}

; Function Attrs: nounwind optsize uwtable
define internal noundef i32 @__print_text(ptr nocapture noundef %0, ptr nocapture noundef readonly %1, i64 noundef %2) local_unnamed_addr #3 {
  %4 = load i8, ptr %0, align 8, !tbaa !44, !alias.scope !46, !noalias !49
  %5 = icmp eq i8 %4, 0
  %6 = icmp eq i64 %2, 0
  %7 = or i1 %6, %5
  br i1 %7, label %16, label %8

8:                                                ; preds = %8, %3
  %9 = phi i64 [ %14, %8 ], [ 0, %3 ]
  %10 = getelementptr inbounds i8, ptr %1, i64 %9
  %11 = load i8, ptr %10, align 1, !tbaa !8, !alias.scope !49, !noalias !46
  %12 = zext i8 %11 to i32
  %13 = tail call i32 @fputc(i32 noundef %12, ptr noundef nonnull %0) #16, !noalias !49
  %14 = add nuw i64 %9, 1
  %15 = icmp eq i64 %14, %2
  br i1 %15, label %16, label %8, !llvm.loop !51

16:                                               ; preds = %8, %3
  %17 = trunc i64 %2 to i32
  ret i32 %17
}

; Function Attrs: noreturn
declare dso_local void @exit(i32 noundef) local_unnamed_addr #5

; Function Attrs: nocallback nofree nosync nounwind willreturn memory(argmem: readwrite)
declare void @llvm.lifetime.end.p0(i64 immarg, ptr nocapture) #1

; Function Attrs: nocallback nofree nosync nounwind speculatable willreturn memory(none)
declare i64 @llvm.umin.i64(i64, i64) #4

; Function Attrs: noreturn nounwind optsize uwtable
define internal void @__assert_fail(ptr nocapture noundef readnone %0, ptr nocapture noundef readnone %1, i32 noundef %2, ptr nocapture noundef readnone %3) local_unnamed_addr #6 {
  tail call void @abort() #17
  unreachable
}

; Function Attrs: nounwind optsize uwtable
define internal i32 @__print_unsigned(ptr nocapture noundef %0, i64 noundef %1, i32 noundef %2, i32 noundef %3, i32 noundef %4, i32 noundef %5) local_unnamed_addr #3 {
  %7 = alloca [24 x i8], align 16
  call void @llvm.lifetime.start.p0(i64 24, ptr nonnull %7) #13
  %8 = and i32 %3, 32
  %9 = icmp eq i32 %8, 0
  %10 = select i1 %9, ptr @.str.9.9, ptr @.str.8.16
  %11 = icmp ult i64 %1, 4294967296
  br i1 %11, label %14, label %12

12:                                               ; preds = %6
  %13 = zext i32 %2 to i64
  br label %29

14:                                               ; preds = %6
  %15 = icmp eq i64 %1, 0
  br i1 %15, label %39, label %16

16:                                               ; preds = %14
  %17 = trunc nuw i64 %1 to i32
  br label %18

18:                                               ; preds = %18, %16
  %19 = phi i32 [ %27, %18 ], [ %17, %16 ]
  %20 = phi i64 [ %25, %18 ], [ 24, %16 ]
  %21 = urem i32 %19, %2
  %22 = zext i32 %21 to i64
  %23 = getelementptr inbounds i8, ptr %10, i64 %22
  %24 = load i8, ptr %23, align 1, !tbaa !8
  %25 = add nsw i64 %20, -1
  %26 = getelementptr inbounds i8, ptr %7, i64 %25
  store i8 %24, ptr %26, align 1, !tbaa !8
  %27 = udiv i32 %19, %2
  %28 = icmp ult i32 %19, %2
  br i1 %28, label %39, label %18, !llvm.loop !52

29:                                               ; preds = %29, %12
  %30 = phi i64 [ 24, %12 ], [ %35, %29 ]
  %31 = phi i64 [ %1, %12 ], [ %37, %29 ]
  %32 = urem i64 %31, %13
  %33 = getelementptr inbounds i8, ptr %10, i64 %32
  %34 = load i8, ptr %33, align 1, !tbaa !8
  %35 = add nsw i64 %30, -1
  %36 = getelementptr inbounds i8, ptr %7, i64 %35
  store i8 %34, ptr %36, align 1, !tbaa !8
  %37 = udiv i64 %31, %13
  %38 = icmp ult i64 %31, %13
  br i1 %38, label %39, label %29, !llvm.loop !53

39:                                               ; preds = %29, %18, %14
  %40 = phi i64 [ 24, %14 ], [ %25, %18 ], [ %35, %29 ]
  %41 = icmp eq i64 %1, 0
  %42 = icmp ne i32 %5, 0
  %43 = and i1 %41, %42
  br i1 %43, label %44, label %47

44:                                               ; preds = %39
  %45 = add nsw i64 %40, -1
  %46 = getelementptr inbounds i8, ptr %7, i64 %45
  store i8 48, ptr %46, align 1, !tbaa !8
  br label %47

47:                                               ; preds = %44, %39
  %48 = phi i64 [ %45, %44 ], [ %40, %39 ]
  %49 = getelementptr inbounds i8, ptr %7, i64 %48
  %50 = and i32 %3, 8
  %51 = icmp ne i32 %50, 0
  %52 = icmp eq i32 %2, 8
  %53 = and i1 %52, %51
  br i1 %53, label %54, label %65

54:                                               ; preds = %47
  %55 = sub nsw i64 24, %48
  %56 = sext i32 %5 to i64
  %57 = icmp slt i64 %55, %56
  br i1 %57, label %65, label %58

58:                                               ; preds = %54
  %59 = icmp eq i64 %48, 24
  br i1 %59, label %63, label %60

60:                                               ; preds = %58
  %61 = load i8, ptr %49, align 1, !tbaa !8
  %62 = icmp eq i8 %61, 48
  br i1 %62, label %65, label %63

63:                                               ; preds = %60, %58
  %64 = getelementptr inbounds i8, ptr %49, i64 -1
  store i8 48, ptr %64, align 1, !tbaa !8
  br label %65

65:                                               ; preds = %63, %60, %54, %47
  %66 = phi ptr [ %64, %63 ], [ %49, %60 ], [ %49, %54 ], [ %49, %47 ]
  %67 = getelementptr inbounds i8, ptr %7, i64 24
  %68 = icmp eq i32 %2, 16
  %69 = icmp ne i64 %1, 0
  %70 = and i1 %69, %68
  %71 = and i1 %70, %51
  %72 = select i1 %9, ptr @.str.6.17, ptr @.str.5.18
  %73 = select i1 %71, ptr %72, ptr @.str.10
  %74 = ptrtoint ptr %67 to i64
  %75 = ptrtoint ptr %66 to i64
  %76 = sub i64 %74, %75
  %77 = trunc i64 %76 to i32
  %78 = call fastcc i32 @number(ptr noundef %0, ptr noundef nonnull %73, ptr noundef nonnull %66, i32 noundef %77, i32 noundef %3, i32 noundef %4, i32 noundef %5) #16
  call void @llvm.lifetime.end.p0(i64 24, ptr nonnull %7) #13
  ret i32 %78
}

; Function Attrs: nounwind uwtable
define internal fastcc noundef i32 @lzss_unpack(ptr nocapture noundef %0, ptr nocapture noundef readonly %1, i64 noundef %2) unnamed_addr #0 {
  %4 = getelementptr inbounds i8, ptr %0, i64 8
  %5 = load i64, ptr %4, align 8, !tbaa !24
  %6 = getelementptr inbounds i8, ptr %0, i64 16
  br label %7

7:                                                ; preds = %101, %3
  %8 = phi i64 [ 0, %3 ], [ %103, %101 ]
  %9 = icmp ult i64 %8, %2
  br i1 %9, label %10, label %104

10:                                               ; preds = %7
  %11 = add nuw i64 %8, 1
  %12 = icmp uge i64 %11, %2
  br i1 %12, label %101, label %13

13:                                               ; preds = %10
  %14 = getelementptr inbounds i8, ptr %1, i64 %8
  %15 = load i8, ptr %14, align 1, !tbaa !8
  %16 = zext i8 %15 to i32
  br label %17

17:                                               ; preds = %95, %13
  %18 = phi i1 [ false, %13 ], [ %100, %95 ]
  %19 = phi i32 [ 0, %13 ], [ %97, %95 ]
  %20 = phi i64 [ %11, %13 ], [ %96, %95 ]
  %21 = shl nuw nsw i32 1, %19
  %22 = and i32 %21, %16
  %23 = icmp eq i32 %22, 0
  br i1 %23, label %24, label %46

24:                                               ; preds = %17
  %25 = add i64 %20, 1
  %26 = getelementptr inbounds i8, ptr %1, i64 %20
  %27 = load i8, ptr %26, align 1, !tbaa !8
  %28 = load i64, ptr %4, align 8, !tbaa !24
  %29 = load i64, ptr %6, align 8, !tbaa !27
  %30 = icmp eq i64 %28, %29
  br i1 %30, label %31, label %41

31:                                               ; preds = %24
  %32 = icmp eq i64 %29, 0
  %33 = shl i64 %29, 1
  %34 = select i1 %32, i64 64, i64 %33
  store i64 %34, ptr %6, align 8, !tbaa !27
  %35 = load ptr, ptr %0, align 8, !tbaa !28
  %36 = tail call ptr @realloc(ptr noundef %35, i64 noundef %34) #14
  %37 = icmp eq ptr %36, null
  br i1 %37, label %38, label %40

38:                                               ; preds = %31
  %39 = tail call i32 @__print_text(ptr nonnull getelementptr inbounds (i8, ptr @__streams, i64 48), ptr nonnull @.str, i64 14) #13
  tail call void @exit(i32 noundef 2) #15
  unreachable

40:                                               ; preds = %31
  store ptr %36, ptr %0, align 8, !tbaa !28
  br label %41

41:                                               ; preds = %40, %24
  %42 = load ptr, ptr %0, align 8, !tbaa !28
  %43 = load i64, ptr %4, align 8, !tbaa !24
  %44 = add i64 %43, 1
  store i64 %44, ptr %4, align 8, !tbaa !24
  %45 = getelementptr inbounds i8, ptr %42, i64 %43
  store i8 %27, ptr %45, align 1, !tbaa !8
  br label %95

46:                                               ; preds = %17
  %47 = sub i64 %2, %20
  %48 = icmp ult i64 %47, 2
  br i1 %48, label %101, label %49

49:                                               ; preds = %46
  %50 = getelementptr inbounds i8, ptr %1, i64 %20
  %51 = load i8, ptr %50, align 1, !tbaa !8
  %52 = getelementptr i8, ptr %50, i64 1
  %53 = load i8, ptr %52, align 1, !tbaa !8
  %54 = zext i8 %53 to i32
  %55 = shl nuw nsw i32 %54, 4
  %56 = and i32 %55, 3840
  %57 = zext i8 %51 to i32
  %58 = or disjoint i32 %56, %57
  %59 = zext nneg i32 %58 to i64
  %60 = add i64 %20, 2
  %61 = icmp eq i32 %58, 0
  br i1 %61, label %101, label %62

62:                                               ; preds = %49
  %63 = load i64, ptr %4, align 8, !tbaa !24
  %64 = sub i64 %63, %5
  %65 = icmp ult i64 %64, %59
  br i1 %65, label %101, label %66

66:                                               ; preds = %62
  %67 = and i32 %54, 15
  %68 = add nuw nsw i32 %67, 3
  %69 = zext nneg i32 %68 to i64
  br label %70

70:                                               ; preds = %89, %66
  %71 = phi i64 [ %72, %89 ], [ %69, %66 ]
  %72 = add nsw i64 %71, -1
  %73 = load ptr, ptr %0, align 8, !tbaa !28
  %74 = load i64, ptr %4, align 8, !tbaa !24
  %75 = sub i64 %74, %59
  %76 = getelementptr inbounds i8, ptr %73, i64 %75
  %77 = load i8, ptr %76, align 1, !tbaa !8
  %78 = load i64, ptr %6, align 8, !tbaa !27
  %79 = icmp eq i64 %74, %78
  br i1 %79, label %80, label %89

80:                                               ; preds = %70
  %81 = icmp eq i64 %78, 0
  %82 = shl i64 %78, 1
  %83 = select i1 %81, i64 64, i64 %82
  store i64 %83, ptr %6, align 8, !tbaa !27
  %84 = tail call ptr @realloc(ptr noundef %73, i64 noundef %83) #14
  %85 = icmp eq ptr %84, null
  br i1 %85, label %86, label %88

86:                                               ; preds = %80
  %87 = tail call i32 @__print_text(ptr nonnull getelementptr inbounds (i8, ptr @__streams, i64 48), ptr nonnull @.str, i64 14) #13
  tail call void @exit(i32 noundef 2) #15
  unreachable

88:                                               ; preds = %80
  store ptr %84, ptr %0, align 8, !tbaa !28
  br label %89

89:                                               ; preds = %88, %70
  %90 = load ptr, ptr %0, align 8, !tbaa !28
  %91 = load i64, ptr %4, align 8, !tbaa !24
  %92 = add i64 %91, 1
  store i64 %92, ptr %4, align 8, !tbaa !24
  %93 = getelementptr inbounds i8, ptr %90, i64 %91
  store i8 %77, ptr %93, align 1, !tbaa !8
  %94 = icmp eq i64 %72, 0
  br i1 %94, label %95, label %70, !llvm.loop !54

95:                                               ; preds = %89, %41
  %96 = phi i64 [ %25, %41 ], [ %60, %89 ]
  %97 = add nuw nsw i32 %19, 1
  %98 = icmp ugt i32 %19, 6
  %99 = icmp uge i64 %96, %2
  %100 = select i1 %98, i1 true, i1 %99
  br i1 %100, label %101, label %17, !llvm.loop !55

101:                                              ; preds = %95, %62, %49, %46, %10
  %102 = phi i1 [ %12, %10 ], [ %100, %95 ], [ %18, %46 ], [ %18, %49 ], [ %18, %62 ]
  %103 = phi i64 [ %11, %10 ], [ %96, %95 ], [ %20, %46 ], [ %60, %49 ], [ %60, %62 ]
  br i1 %102, label %7, label %104, !llvm.loop !56

104:                                              ; preds = %101, %7
  %105 = phi i32 [ 0, %101 ], [ 1, %7 ]
  ret i32 %105
}

; Function Attrs: nofree nounwind
declare dso_local noundef i32 @puts(ptr nocapture noundef readonly) local_unnamed_addr #7

; Function Attrs: nofree norecurse nosync nounwind optsize memory(read, inaccessiblemem: none) uwtable
define internal range(i32 -1, 2) i32 @bcmp(ptr nocapture noundef readonly %0, ptr nocapture noundef readonly %1, i64 noundef %2) local_unnamed_addr #8 {
  %4 = icmp eq i64 %2, 0
  br i1 %4, label %20, label %5

5:                                                ; preds = %15, %3
  %6 = phi ptr [ %18, %15 ], [ %1, %3 ]
  %7 = phi ptr [ %17, %15 ], [ %0, %3 ]
  %8 = phi i64 [ %16, %15 ], [ %2, %3 ]
  %9 = load i8, ptr %7, align 1, !tbaa !8
  %10 = load i8, ptr %6, align 1, !tbaa !8
  %11 = icmp eq i8 %9, %10
  br i1 %11, label %15, label %12

12:                                               ; preds = %5
  %13 = icmp ult i8 %9, %10
  %14 = select i1 %13, i32 -1, i32 1
  br label %20

15:                                               ; preds = %5
  %16 = add i64 %8, -1
  %17 = getelementptr inbounds i8, ptr %7, i64 1
  %18 = getelementptr inbounds i8, ptr %6, i64 1
  %19 = icmp eq i64 %16, 0
  br i1 %19, label %20, label %5, !llvm.loop !57

20:                                               ; preds = %15, %12, %3
  %21 = phi i32 [ %14, %12 ], [ 0, %3 ], [ 0, %15 ]
  ret i32 %21
}

; Function Attrs: noinline nounwind optsize uwtable
define internal void @__sized_free(ptr noundef %0) local_unnamed_addr #9 {
  %2 = icmp eq ptr %0, null
  br i1 %2, label %5, label %3

3:                                                ; preds = %1
  %4 = getelementptr inbounds i8, ptr %0, i64 -16
  tail call void @free(ptr noundef nonnull %4) #18
  br label %5

5:                                                ; preds = %3, %1
  ret void
}

; Function Attrs: nounwind optsize uwtable
define internal i32 @__print_signed(ptr nocapture noundef %0, i64 noundef %1, i32 noundef %2, i32 noundef %3, i32 noundef %4) local_unnamed_addr #3 {
  %6 = alloca [24 x i8], align 16
  call void @llvm.lifetime.start.p0(i64 24, ptr nonnull %6) #13
  %7 = getelementptr inbounds i8, ptr %6, i64 24
  %8 = icmp slt i64 %1, 0
  %9 = lshr i64 %1, 63
  %10 = icmp ne i64 %9, 0
  %11 = sub i64 0, %1
  %12 = select i1 %10, i64 %11, i64 %1
  %13 = icmp ult i64 %12, 4294967296
  br i1 %13, label %14, label %28

14:                                               ; preds = %5
  %15 = icmp eq i64 %1, 0
  br i1 %15, label %37, label %16

16:                                               ; preds = %14
  %17 = trunc nuw i64 %12 to i32
  br label %18

18:                                               ; preds = %18, %16
  %19 = phi i32 [ %26, %18 ], [ %17, %16 ]
  %20 = phi ptr [ %25, %18 ], [ %7, %16 ]
  %21 = urem i32 %19, 10
  %22 = zext nneg i32 %21 to i64
  %23 = getelementptr inbounds i8, ptr @.str.9.9, i64 %22
  %24 = load i8, ptr %23, align 1, !tbaa !8
  %25 = getelementptr inbounds i8, ptr %20, i64 -1
  store i8 %24, ptr %25, align 1, !tbaa !8
  %26 = udiv i32 %19, 10
  %27 = icmp ult i32 %19, 10
  br i1 %27, label %37, label %18, !llvm.loop !52

28:                                               ; preds = %28, %5
  %29 = phi ptr [ %34, %28 ], [ %7, %5 ]
  %30 = phi i64 [ %35, %28 ], [ %12, %5 ]
  %31 = urem i64 %30, 10
  %32 = getelementptr inbounds i8, ptr @.str.9.9, i64 %31
  %33 = load i8, ptr %32, align 1, !tbaa !8
  %34 = getelementptr inbounds i8, ptr %29, i64 -1
  store i8 %33, ptr %34, align 1, !tbaa !8
  %35 = udiv i64 %30, 10
  %36 = icmp ult i64 %30, 10
  br i1 %36, label %37, label %28, !llvm.loop !53

37:                                               ; preds = %28, %18, %14
  %38 = phi ptr [ %7, %14 ], [ %25, %18 ], [ %34, %28 ]
  %39 = icmp eq i64 %1, 0
  %40 = icmp ne i32 %4, 0
  %41 = and i1 %39, %40
  br i1 %41, label %42, label %44

42:                                               ; preds = %37
  %43 = getelementptr inbounds i8, ptr %38, i64 -1
  store i8 48, ptr %43, align 1, !tbaa !8
  br label %45

44:                                               ; preds = %37
  br i1 %8, label %53, label %45

45:                                               ; preds = %44, %42
  %46 = phi ptr [ %43, %42 ], [ %38, %44 ]
  %47 = and i32 %2, 2
  %48 = icmp eq i32 %47, 0
  br i1 %48, label %49, label %53

49:                                               ; preds = %45
  %50 = and i32 %2, 4
  %51 = icmp eq i32 %50, 0
  %52 = select i1 %51, ptr @.str.10, ptr @.str.4.11
  br label %53

53:                                               ; preds = %49, %45, %44
  %54 = phi ptr [ %38, %44 ], [ %46, %49 ], [ %46, %45 ]
  %55 = phi ptr [ @.str.2.12, %44 ], [ %52, %49 ], [ @.str.3.13, %45 ]
  %56 = ptrtoint ptr %7 to i64
  %57 = ptrtoint ptr %54 to i64
  %58 = sub i64 %56, %57
  %59 = trunc i64 %58 to i32
  %60 = call fastcc i32 @number(ptr noundef %0, ptr noundef nonnull %55, ptr noundef nonnull %54, i32 noundef %59, i32 noundef %2, i32 noundef %3, i32 noundef %4) #16
  call void @llvm.lifetime.end.p0(i64 24, ptr nonnull %6) #13
  ret i32 %60
}

; Function Attrs: nounwind optsize uwtable
define internal fastcc i32 @number(ptr nocapture noundef %0, ptr noundef %1, ptr nocapture noundef readonly %2, i32 noundef %3, i32 noundef %4, i32 noundef %5, i32 noundef %6) unnamed_addr #3 {
  br label %8

8:                                                ; preds = %8, %7
  %9 = phi ptr [ %1, %7 ], [ %12, %8 ]
  %10 = load i8, ptr %9, align 1, !tbaa !8
  %11 = icmp eq i8 %10, 0
  %12 = getelementptr inbounds i8, ptr %9, i64 1
  br i1 %11, label %13, label %8, !llvm.loop !58

13:                                               ; preds = %8
  %14 = ptrtoint ptr %9 to i64
  %15 = ptrtoint ptr %1 to i64
  %16 = sub i64 %14, %15
  %17 = trunc i64 %16 to i32
  %18 = sub nsw i32 %6, %3
  %19 = lshr i32 %5, 31
  %20 = icmp ne i32 %19, 0
  %21 = sub i32 0, %5
  %22 = select i1 %20, i32 %21, i32 %5
  %23 = tail call i32 @llvm.smax.i32(i32 %18, i32 0)
  %24 = icmp slt i32 %6, 0
  %25 = and i32 %4, 16
  %26 = icmp ne i32 %25, 0
  %27 = and i1 %26, %24
  %28 = and i32 %4, 1
  %29 = or i32 %19, %28
  %30 = icmp eq i32 %29, 0
  %31 = and i1 %27, %30
  %32 = add i32 %17, %3
  %33 = icmp sgt i32 %22, %32
  %34 = select i1 %31, i1 %33, i1 false
  %35 = sub i32 %22, %32
  %36 = select i1 %34, i32 %35, i32 %23
  %37 = add i32 %32, %36
  %38 = sub i32 %22, %37
  br i1 %30, label %39, label %48

39:                                               ; preds = %13
  %40 = icmp sgt i32 %38, 0
  br i1 %40, label %41, label %46

41:                                               ; preds = %41, %39
  %42 = phi i32 [ %44, %41 ], [ 0, %39 ]
  %43 = tail call i32 @fputc(i32 noundef 32, ptr noundef %0) #16
  %44 = add nuw nsw i32 %42, 1
  %45 = icmp eq i32 %44, %38
  br i1 %45, label %46, label %41, !llvm.loop !59

46:                                               ; preds = %41, %39
  %47 = tail call noundef i32 @llvm.smax.i32(i32 %38, i32 0)
  br label %48

48:                                               ; preds = %46, %13
  %49 = phi i32 [ 0, %13 ], [ %47, %46 ]
  %50 = shl i64 %16, 32
  %51 = ashr exact i64 %50, 32
  %52 = load i8, ptr %0, align 8, !tbaa !44, !alias.scope !60, !noalias !63
  %53 = icmp eq i8 %52, 0
  %54 = icmp eq i64 %50, 0
  %55 = or i1 %54, %53
  br i1 %55, label %64, label %56

56:                                               ; preds = %56, %48
  %57 = phi i64 [ %62, %56 ], [ 0, %48 ]
  %58 = getelementptr inbounds i8, ptr %1, i64 %57
  %59 = load i8, ptr %58, align 1, !tbaa !8, !alias.scope !63, !noalias !60
  %60 = zext i8 %59 to i32
  %61 = tail call i32 @fputc(i32 noundef %60, ptr noundef nonnull %0) #16, !noalias !63
  %62 = add nuw i64 %57, 1
  %63 = icmp eq i64 %62, %51
  br i1 %63, label %64, label %56, !llvm.loop !51

64:                                               ; preds = %56, %48
  %65 = icmp sgt i32 %36, 0
  br i1 %65, label %66, label %71

66:                                               ; preds = %66, %64
  %67 = phi i32 [ %69, %66 ], [ 0, %64 ]
  %68 = tail call i32 @fputc(i32 noundef 48, ptr noundef nonnull %0) #16
  %69 = add nuw nsw i32 %67, 1
  %70 = icmp eq i32 %69, %36
  br i1 %70, label %71, label %66, !llvm.loop !59

71:                                               ; preds = %66, %64
  %72 = tail call noundef i32 @llvm.smax.i32(i32 %36, i32 0)
  %73 = sext i32 %3 to i64
  %74 = load i8, ptr %0, align 8, !tbaa !44, !alias.scope !65, !noalias !68
  %75 = icmp eq i8 %74, 0
  %76 = icmp eq i32 %3, 0
  %77 = or i1 %76, %75
  br i1 %77, label %86, label %78

78:                                               ; preds = %78, %71
  %79 = phi i64 [ %84, %78 ], [ 0, %71 ]
  %80 = getelementptr inbounds i8, ptr %2, i64 %79
  %81 = load i8, ptr %80, align 1, !tbaa !8, !alias.scope !68, !noalias !65
  %82 = zext i8 %81 to i32
  %83 = tail call i32 @fputc(i32 noundef %82, ptr noundef nonnull %0) #16, !noalias !68
  %84 = add nuw i64 %79, 1
  %85 = icmp eq i64 %84, %73
  br i1 %85, label %86, label %78, !llvm.loop !51

86:                                               ; preds = %78, %71
  %87 = add i32 %32, %72
  %88 = add i32 %87, %49
  br i1 %30, label %99, label %89

89:                                               ; preds = %86
  %90 = icmp sgt i32 %38, 0
  br i1 %90, label %91, label %96

91:                                               ; preds = %91, %89
  %92 = phi i32 [ %94, %91 ], [ 0, %89 ]
  %93 = tail call i32 @fputc(i32 noundef 32, ptr noundef nonnull %0) #16
  %94 = add nuw nsw i32 %92, 1
  %95 = icmp eq i32 %94, %38
  br i1 %95, label %96, label %91, !llvm.loop !59

96:                                               ; preds = %91, %89
  %97 = tail call noundef i32 @llvm.smax.i32(i32 %38, i32 0)
  %98 = add nsw i32 %88, %97
  br label %99

99:                                               ; preds = %96, %86
  %100 = phi i32 [ %98, %96 ], [ %88, %86 ]
  ret i32 %100
}

; Function Attrs: nocallback nofree nosync nounwind speculatable willreturn memory(none)
declare i32 @llvm.smax.i32(i32, i32) #4

; Function Attrs: nounwind optsize uwtable
define internal range(i32 -1, 256) i32 @fputc(i32 noundef %0, ptr nocapture noundef %1) local_unnamed_addr #3 {
  %3 = load i8, ptr %1, align 8, !tbaa !44
  switch i8 %3, label %17 [
    i8 1, label %4
    i8 3, label %6
    i8 0, label %19
  ]

4:                                                ; preds = %2
  %5 = tail call i32 @putchar(i32 noundef %0) #18
  br label %17

6:                                                ; preds = %2
  %7 = getelementptr inbounds i8, ptr %1, i64 16
  %8 = load i64, ptr %7, align 8, !tbaa !70
  %9 = icmp eq i64 %8, 0
  br i1 %9, label %17, label %10

10:                                               ; preds = %6
  %11 = trunc i32 %0 to i8
  %12 = getelementptr inbounds i8, ptr %1, i64 8
  %13 = load ptr, ptr %12, align 8, !tbaa !71
  %14 = getelementptr inbounds i8, ptr %13, i64 1
  store ptr %14, ptr %12, align 8, !tbaa !71
  store i8 %11, ptr %13, align 1, !tbaa !8
  %15 = load i64, ptr %7, align 8, !tbaa !70
  %16 = add i64 %15, -1
  store i64 %16, ptr %7, align 8, !tbaa !70
  br label %17

17:                                               ; preds = %10, %6, %4, %2
  %18 = and i32 %0, 255
  br label %19

19:                                               ; preds = %17, %2
  %20 = phi i32 [ %18, %17 ], [ -1, %2 ]
  ret i32 %20
}

; Function Attrs: optsize
declare dso_local i32 @putchar(i32 noundef) local_unnamed_addr #10

; Function Attrs: mustprogress nounwind willreturn allockind("free") memory(argmem: readwrite, inaccessiblemem: readwrite)
declare dso_local void @free(ptr allocptr nocapture noundef) local_unnamed_addr #11

; Function Attrs: noreturn optsize
declare dso_local void @abort() local_unnamed_addr #12

; Function Attrs: noinline nounwind optsize uwtable
define internal ptr @__sized_malloc(i64 noundef %0) local_unnamed_addr #9 {
  %2 = icmp ult i64 %0, -16
  br i1 %2, label %3, label %9

3:                                                ; preds = %1
  %4 = add nuw i64 %0, 16
  %5 = tail call ptr @malloc(i64 noundef %4) #18
  %6 = icmp eq ptr %5, null
  br i1 %6, label %9, label %7

7:                                                ; preds = %3
  %8 = getelementptr inbounds i8, ptr %5, i64 16
  store i64 %0, ptr %5, align 8, !tbaa !37
  br label %9

9:                                                ; preds = %7, %3, %1
  %10 = phi ptr [ %8, %7 ], [ null, %3 ], [ null, %1 ]
  ret ptr %10
}

; Function Attrs: optsize
declare dso_local ptr @malloc(i64 noundef) local_unnamed_addr #10

; Function Attrs: nounwind optsize uwtable
define internal i32 @fgetc(ptr nocapture noundef %0) local_unnamed_addr #3 {
  %2 = load i8, ptr %0, align 8, !tbaa !44
  %3 = icmp eq i8 %2, 0
  br i1 %3, label %4, label %20

4:                                                ; preds = %1
  %5 = getelementptr inbounds i8, ptr %0, i64 2
  %6 = load i8, ptr %5, align 2, !tbaa !72
  %7 = icmp eq i8 %6, 0
  br i1 %7, label %12, label %8

8:                                                ; preds = %4
  store i8 0, ptr %5, align 2, !tbaa !72
  %9 = getelementptr inbounds i8, ptr %0, i64 3
  %10 = load i8, ptr %9, align 1, !tbaa !73
  %11 = zext i8 %10 to i32
  br label %20

12:                                               ; preds = %4
  %13 = getelementptr inbounds i8, ptr %0, i64 1
  %14 = load i8, ptr %13, align 1, !tbaa !74
  %15 = icmp eq i8 %14, 0
  br i1 %15, label %16, label %20

16:                                               ; preds = %12
  %17 = tail call i32 @getchar() #18
  %18 = icmp eq i32 %17, -1
  br i1 %18, label %19, label %20

19:                                               ; preds = %16
  store i8 1, ptr %13, align 1, !tbaa !74
  br label %20

20:                                               ; preds = %19, %16, %12, %8, %1
  %21 = phi i32 [ %11, %8 ], [ -1, %1 ], [ -1, %12 ], [ -1, %19 ], [ %17, %16 ]
  ret i32 %21
}

; Function Attrs: optsize
declare dso_local i32 @getchar() local_unnamed_addr #10

attributes #0 = { nounwind uwtable "min-legal-vector-width"="0" "no-trapping-math"="true" "stack-protector-buffer-size"="8" "target-cpu"="x86-64" "target-features"="+cmov,+cx8,+fxsr,+mmx,+sse,+sse2,+x87" "tune-cpu"="generic" }
attributes #1 = { nocallback nofree nosync nounwind willreturn memory(argmem: readwrite) }
attributes #2 = { nocallback nofree nounwind willreturn memory(argmem: write) }
attributes #3 = { nounwind optsize uwtable "min-legal-vector-width"="0" "no-builtins" "no-jump-tables"="true" "no-trapping-math"="true" "stack-protector-buffer-size"="8" "target-cpu"="x86-64" "target-features"="+cmov,+cx8,+fxsr,+mmx,+sse,+sse2,+x87" "tune-cpu"="generic" }
attributes #4 = { nocallback nofree nosync nounwind speculatable willreturn memory(none) }
attributes #5 = { noreturn "no-trapping-math"="true" "stack-protector-buffer-size"="8" "target-cpu"="x86-64" "target-features"="+cmov,+cx8,+fxsr,+mmx,+sse,+sse2,+x87" "tune-cpu"="generic" }
attributes #6 = { noreturn nounwind optsize uwtable "min-legal-vector-width"="0" "no-builtins" "no-jump-tables"="true" "no-trapping-math"="true" "stack-protector-buffer-size"="8" "target-cpu"="x86-64" "target-features"="+cmov,+cx8,+fxsr,+mmx,+sse,+sse2,+x87" "tune-cpu"="generic" }
attributes #7 = { nofree nounwind "no-trapping-math"="true" "stack-protector-buffer-size"="8" "target-cpu"="x86-64" "target-features"="+cmov,+cx8,+fxsr,+mmx,+sse,+sse2,+x87" "tune-cpu"="generic" }
attributes #8 = { nofree norecurse nosync nounwind optsize memory(read, inaccessiblemem: none) uwtable "min-legal-vector-width"="0" "no-builtins" "no-jump-tables"="true" "no-trapping-math"="true" "stack-protector-buffer-size"="8" "target-cpu"="x86-64" "target-features"="+cmov,+cx8,+fxsr,+mmx,+sse,+sse2,+x87" "tune-cpu"="generic" }
attributes #9 = { noinline nounwind optsize uwtable "min-legal-vector-width"="0" "no-builtins" "no-jump-tables"="true" "no-trapping-math"="true" "stack-protector-buffer-size"="8" "target-cpu"="x86-64" "target-features"="+cmov,+cx8,+fxsr,+mmx,+sse,+sse2,+x87" "tune-cpu"="generic" }
attributes #10 = { optsize "no-builtins" "no-trapping-math"="true" "stack-protector-buffer-size"="8" "target-cpu"="x86-64" "target-features"="+cmov,+cx8,+fxsr,+mmx,+sse,+sse2,+x87" "tune-cpu"="generic" }
attributes #11 = { mustprogress nounwind willreturn allockind("free") memory(argmem: readwrite, inaccessiblemem: readwrite) "alloc-family"="malloc" "no-trapping-math"="true" "stack-protector-buffer-size"="8" "target-cpu"="x86-64" "target-features"="+cmov,+cx8,+fxsr,+mmx,+sse,+sse2,+x87" "tune-cpu"="generic" }
attributes #12 = { noreturn optsize "no-builtins" "no-trapping-math"="true" "stack-protector-buffer-size"="8" "target-cpu"="x86-64" "target-features"="+cmov,+cx8,+fxsr,+mmx,+sse,+sse2,+x87" "tune-cpu"="generic" }
attributes #13 = { nounwind }
attributes #14 = { allocsize(1) }
attributes #15 = { noreturn nounwind }
attributes #16 = { nobuiltin optsize "no-builtins" }
attributes #17 = { nobuiltin noreturn nounwind optsize "no-builtins" }
attributes #18 = { nobuiltin nounwind optsize "no-builtins" }

!llvm.ident = !{!0, !0, !0, !0, !0, !0, !0}
!llvm.module.flags = !{!1, !2, !3, !4}

!0 = !{!"Debian clang version 19.1.7 (3~deb12u1)"}
!1 = !{i32 7, !"Dwarf Version", i32 5}
!2 = !{i32 2, !"Debug Info Version", i32 3}
!3 = !{i32 1, !"wchar_size", i32 4}
!4 = !{i32 7, !"uwtable", i32 2}
!5 = distinct !{!5, !6, !7}
!6 = !{!"llvm.loop.mustprogress"}
!7 = !{!"llvm.loop.unroll.disable"}
!8 = !{!9, !9, i64 0}
!9 = !{!"omnipotent char", !10, i64 0}
!10 = !{!"Simple C/C++ TBAA"}
!11 = distinct !{!11, !6, !7}
!12 = !{!13, !13, i64 0}
!13 = !{!"int", !9, i64 0}
!14 = !{!15, !16, i64 0}
!15 = !{!"packer", !16, i64 0, !17, i64 8, !9, i64 16, !9, i64 4112, !16, i64 20496, !17, i64 20504, !13, i64 20512}
!16 = !{!"any pointer", !9, i64 0}
!17 = !{!"long", !9, i64 0}
!18 = !{!15, !17, i64 8}
!19 = !{!15, !16, i64 20496}
!20 = !{!15, !13, i64 20512}
!21 = distinct !{!21, !6, !7}
!22 = distinct !{!22, !6, !7}
!23 = distinct !{!23, !6, !7}
!24 = !{!25, !17, i64 8}
!25 = !{!"buffer", !16, i64 0, !17, i64 8, !17, i64 16}
!26 = !{!15, !17, i64 20504}
!27 = !{!25, !17, i64 16}
!28 = !{!25, !16, i64 0}
!29 = distinct !{!29, !6, !7}
!30 = distinct !{!30, !6, !7}
!31 = distinct !{!31, !6, !7}
!32 = distinct !{!32, !6, !7}
!33 = distinct !{!33, !6, !7}
!34 = distinct !{!34, !6, !7}
!35 = distinct !{!35, !6, !7}
!36 = distinct !{!36, !6}
!37 = !{!17, !17, i64 0}
!38 = !{!39}
!39 = distinct !{!39, !40, !"memcpy: %from"}
!40 = distinct !{!40, !"memcpy"}
!41 = !{!42}
!42 = distinct !{!42, !40, !"memcpy: %to"}
!43 = distinct !{!43, !6}
!44 = !{!45, !9, i64 0}
!45 = !{!"__stream", !9, i64 0, !9, i64 1, !9, i64 2, !9, i64 3, !16, i64 8, !17, i64 16}
!46 = !{!47}
!47 = distinct !{!47, !48, !"fwrite: %stream"}
!48 = distinct !{!48, !"fwrite"}
!49 = !{!50}
!50 = distinct !{!50, !48, !"fwrite: %from"}
!51 = distinct !{!51, !6}
!52 = distinct !{!52, !6}
!53 = distinct !{!53, !6}
!54 = distinct !{!54, !6, !7}
!55 = distinct !{!55, !6, !7}
!56 = distinct !{!56, !6, !7}
!57 = distinct !{!57, !6}
!58 = distinct !{!58, !6}
!59 = distinct !{!59, !6}
!60 = !{!61}
!61 = distinct !{!61, !62, !"fwrite: %stream"}
!62 = distinct !{!62, !"fwrite"}
!63 = !{!64}
!64 = distinct !{!64, !62, !"fwrite: %from"}
!65 = !{!66}
!66 = distinct !{!66, !67, !"fwrite: %stream"}
!67 = distinct !{!67, !"fwrite"}
!68 = !{!69}
!69 = distinct !{!69, !67, !"fwrite: %from"}
!70 = !{!45, !17, i64 16}
!71 = !{!45, !16, i64 8}
!72 = !{!45, !9, i64 2}
!73 = !{!45, !9, i64 3}
!74 = !{!45, !9, i64 1}
