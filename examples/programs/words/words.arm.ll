source_filename = "main.c"
target datalayout = "e-m:e-p:32:32-Fi8-i64:64-v128:64:128-a:0:32-n32-S64"
target triple = "armv7-unknown-linux-gnueabi"

%struct.__stream = type { i8, i8, i8, i8, ptr, i32 }
%struct.table = type { ptr, i32, i32, i32 }

@.str = private unnamed_addr constant [35 x i8] c"%u lines, %u words, %zu different\0A\00", align 1
@usual = internal unnamed_addr constant [9 x ptr] [ptr @.str.6, ptr @.str.7, ptr @.str.8, ptr @.str.9, ptr @.str.10, ptr @.str.11, ptr @.str.12, ptr @.str.13, ptr @.str.14], align 4
@.str.1 = private unnamed_addr constant [8 x i8] c"machine\00", align 1
@.str.2 = private unnamed_addr constant [13 x i8] c"machine: %s\0A\00", align 1
@.str.3 = private unnamed_addr constant [6 x i8] c"there\00", align 1
@.str.4 = private unnamed_addr constant [10 x i8] c"not there\00", align 1
@.str.5 = private unnamed_addr constant [15 x i8] c"from %s to %s\0A\00", align 1
@.str.6 = private unnamed_addr constant [4 x i8] c"the\00", align 1
@.str.7 = private unnamed_addr constant [4 x i8] c"and\00", align 1
@.str.8 = private unnamed_addr constant [3 x i8] c"of\00", align 1
@.str.9 = private unnamed_addr constant [2 x i8] c"a\00", align 1
@.str.10 = private unnamed_addr constant [3 x i8] c"to\00", align 1
@.str.11 = private unnamed_addr constant [3 x i8] c"in\00", align 1
@.str.12 = private unnamed_addr constant [3 x i8] c"is\00", align 1
@.str.13 = private unnamed_addr constant [3 x i8] c"it\00", align 1
@.str.14 = private unnamed_addr constant [5 x i8] c"that\00", align 1
@.str.15 = private unnamed_addr constant [32 x i8] c"%4u  %-14.14s first in line %u\0A\00", align 1
@.str.16 = private unnamed_addr constant [7 x i8] c"%2d%c \00", align 1
@.str.17 = private unnamed_addr constant [5 x i8] c" %u\0A\00", align 1
@.str.18 = private unnamed_addr constant [1 x i8] zeroinitializer, align 1
@.str.1.19 = private unnamed_addr constant [7 x i8] c"(null)\00", align 1
@.str.2.26 = private unnamed_addr constant [2 x i8] c"-\00", align 1
@.str.3.27 = private unnamed_addr constant [2 x i8] c"+\00", align 1
@.str.4.25 = private unnamed_addr constant [2 x i8] c" \00", align 1
@.str.5.32 = private unnamed_addr constant [3 x i8] c"0X\00", align 1
@.str.6.31 = private unnamed_addr constant [3 x i8] c"0x\00", align 1
@__streams = internal global [3 x %struct.__stream] [%struct.__stream zeroinitializer, %struct.__stream { i8 1, i8 0, i8 0, i8 0, ptr null, i32 0 }, %struct.__stream { i8 2, i8 0, i8 0, i8 0, ptr null, i32 0 }], align 4
@.str.8.30 = private unnamed_addr constant [17 x i8] c"0123456789ABCDEF\00", align 1
@.str.9.24 = private unnamed_addr constant [17 x i8] c"0123456789abcdef\00", align 1

; Function Attrs: nounwind
define dso_local range(i32 -99, 100) i32 @main() local_unnamed_addr #0 {
  %1 = alloca [12 x i32], align 4
  %2 = alloca [400 x i8], align 1
  %3 = alloca [24 x i8], align 1
  call void @llvm.lifetime.start.p0(i64 400, ptr nonnull %2) #15
  call void @llvm.lifetime.start.p0(i64 24, ptr nonnull %3) #15
  %4 = call ptr @fgets(ptr noundef nonnull %2, i32 noundef 400, ptr noundef nonnull @__streams)
  %5 = icmp eq ptr %4, null
  br i1 %5, label %178, label %6

6:                                                ; preds = %60, %0
  %7 = phi i32 [ %12, %60 ], [ 0, %0 ]
  %8 = phi i32 [ %64, %60 ], [ 0, %0 ]
  %9 = phi i32 [ %63, %60 ], [ 0, %0 ]
  %10 = phi i32 [ %62, %60 ], [ 0, %0 ]
  %11 = phi ptr [ %61, %60 ], [ null, %0 ]
  %12 = add i32 %7, 1
  %13 = load i8, ptr %2, align 1, !tbaa !5
  %14 = icmp eq i8 %13, 0
  br i1 %14, label %60, label %15

15:                                               ; preds = %174, %6
  %16 = phi i8 [ %176, %174 ], [ %13, %6 ]
  %17 = phi i32 [ %175, %174 ], [ %8, %6 ]
  %18 = phi ptr [ %34, %174 ], [ %2, %6 ]
  %19 = phi i32 [ %166, %174 ], [ %9, %6 ]
  %20 = phi i32 [ %119, %174 ], [ %10, %6 ]
  %21 = phi ptr [ %118, %174 ], [ %11, %6 ]
  br label %22

22:                                               ; preds = %28, %15
  %23 = phi i8 [ %30, %28 ], [ %16, %15 ]
  %24 = phi ptr [ %29, %28 ], [ %18, %15 ]
  %25 = zext i8 %23 to i32
  %26 = call i32 @isalnum(i32 noundef %25) #16
  %27 = icmp eq i32 %26, 0
  br i1 %27, label %28, label %32

28:                                               ; preds = %22
  %29 = getelementptr inbounds i8, ptr %24, i32 1
  %30 = load i8, ptr %29, align 1, !tbaa !5
  %31 = icmp eq i8 %30, 0
  br i1 %31, label %60, label %22, !llvm.loop !8

32:                                               ; preds = %55, %22
  %33 = phi i8 [ %59, %55 ], [ %23, %22 ]
  %34 = phi ptr [ %58, %55 ], [ %24, %22 ]
  %35 = phi ptr [ %56, %55 ], [ %3, %22 ]
  %36 = phi i32 [ %57, %55 ], [ 24, %22 ]
  %37 = zext i8 %33 to i32
  %38 = call i32 @isalnum(i32 noundef %37) #16
  %39 = icmp eq i32 %38, 0
  br i1 %39, label %40, label %48

40:                                               ; preds = %32
  %41 = icmp eq i8 %33, 39
  br i1 %41, label %42, label %67

42:                                               ; preds = %40
  %43 = getelementptr inbounds i8, ptr %34, i32 1
  %44 = load i8, ptr %43, align 1, !tbaa !5
  %45 = zext i8 %44 to i32
  %46 = call i32 @isalpha(i32 noundef %45) #16
  %47 = icmp eq i32 %46, 0
  br i1 %47, label %67, label %48

48:                                               ; preds = %42, %32
  %49 = icmp sgt i32 %36, 1
  br i1 %49, label %50, label %55

50:                                               ; preds = %48
  %51 = call i32 @tolower(i32 noundef %37) #16
  %52 = trunc i32 %51 to i8
  %53 = getelementptr inbounds i8, ptr %35, i32 1
  store i8 %52, ptr %35, align 1, !tbaa !5
  %54 = add nsw i32 %36, -1
  br label %55

55:                                               ; preds = %50, %48
  %56 = phi ptr [ %53, %50 ], [ %35, %48 ]
  %57 = phi i32 [ %54, %50 ], [ %36, %48 ]
  %58 = getelementptr inbounds i8, ptr %34, i32 1
  %59 = load i8, ptr %58, align 1, !tbaa !5
  br label %32, !llvm.loop !10

60:                                               ; preds = %174, %28, %6
  %61 = phi ptr [ %11, %6 ], [ %21, %28 ], [ %118, %174 ]
  %62 = phi i32 [ %10, %6 ], [ %20, %28 ], [ %119, %174 ]
  %63 = phi i32 [ %9, %6 ], [ %19, %28 ], [ %166, %174 ]
  %64 = phi i32 [ %8, %6 ], [ %17, %28 ], [ %175, %174 ]
  %65 = call ptr @fgets(ptr noundef nonnull %2, i32 noundef 400, ptr noundef nonnull @__streams)
  %66 = icmp eq ptr %65, null
  br i1 %66, label %178, label %6, !llvm.loop !11

67:                                               ; preds = %42, %40
  store i8 0, ptr %35, align 1, !tbaa !5
  %68 = shl i32 %19, 2
  %69 = mul i32 %20, 3
  %70 = icmp ult i32 %68, %69
  br i1 %70, label %117, label %71

71:                                               ; preds = %67
  %72 = icmp eq i32 %20, 0
  %73 = shl i32 %20, 1
  %74 = select i1 %72, i32 16, i32 %73
  %75 = call ptr @calloc(i32 noundef %74, i32 noundef 16) #17
  %76 = icmp eq ptr %75, null
  br i1 %76, label %80, label %77

77:                                               ; preds = %71
  br i1 %72, label %116, label %78

78:                                               ; preds = %77
  %79 = add i32 %73, -1
  br label %81

80:                                               ; preds = %71
  call void @abort() #18
  unreachable

81:                                               ; preds = %112, %78
  %82 = phi i32 [ %20, %78 ], [ %113, %112 ]
  %83 = phi i32 [ 0, %78 ], [ %114, %112 ]
  %84 = getelementptr inbounds %struct.table, ptr %21, i32 %83
  %85 = load ptr, ptr %84, align 4, !tbaa !12
  %86 = icmp eq ptr %85, null
  br i1 %86, label %112, label %87

87:                                               ; preds = %81
  %88 = getelementptr inbounds i8, ptr %84, i32 4
  %89 = load i32, ptr %88, align 4, !tbaa !16
  %90 = and i32 %89, %79
  %91 = getelementptr inbounds %struct.table, ptr %75, i32 %90
  %92 = load ptr, ptr %91, align 4, !tbaa !12
  %93 = icmp eq ptr %92, null
  br i1 %93, label %110, label %94

94:                                               ; preds = %104, %87
  %95 = phi ptr [ %108, %104 ], [ %92, %87 ]
  %96 = phi ptr [ %107, %104 ], [ %91, %87 ]
  %97 = phi i32 [ %106, %104 ], [ %90, %87 ]
  %98 = getelementptr inbounds i8, ptr %96, i32 4
  %99 = load i32, ptr %98, align 4, !tbaa !16
  %100 = icmp eq i32 %99, %89
  br i1 %100, label %101, label %104

101:                                              ; preds = %94
  %102 = call i32 @strcmp(ptr noundef nonnull dereferenceable(1) %95, ptr noundef nonnull readonly dereferenceable(1) %85) #15
  %103 = icmp eq i32 %102, 0
  br i1 %103, label %110, label %104

104:                                              ; preds = %101, %94
  %105 = add i32 %97, 1
  %106 = and i32 %105, %79
  %107 = getelementptr inbounds %struct.table, ptr %75, i32 %106
  %108 = load ptr, ptr %107, align 4, !tbaa !12
  %109 = icmp eq ptr %108, null
  br i1 %109, label %110, label %94

110:                                              ; preds = %104, %101, %87
  %111 = phi ptr [ %91, %87 ], [ %107, %104 ], [ %96, %101 ]
  call void @llvm.memcpy.p0.p0.i32(ptr noundef nonnull align 4 dereferenceable(16) %111, ptr noundef nonnull align 4 dereferenceable(16) %84, i32 16, i1 false), !tbaa.struct !17
  br label %112

112:                                              ; preds = %110, %81
  %113 = phi i32 [ %82, %81 ], [ %20, %110 ]
  %114 = add nuw i32 %83, 1
  %115 = icmp ult i32 %114, %113
  br i1 %115, label %81, label %116, !llvm.loop !20

116:                                              ; preds = %112, %77
  call void @free(ptr noundef %21)
  br label %117

117:                                              ; preds = %116, %67
  %118 = phi ptr [ %21, %67 ], [ %75, %116 ]
  %119 = phi i32 [ %20, %67 ], [ %74, %116 ]
  %120 = load i8, ptr %3, align 1, !tbaa !5
  %121 = icmp eq i8 %120, 0
  br i1 %121, label %132, label %122

122:                                              ; preds = %122, %117
  %123 = phi i8 [ %130, %122 ], [ %120, %117 ]
  %124 = phi i32 [ %128, %122 ], [ -2128831035, %117 ]
  %125 = phi ptr [ %129, %122 ], [ %3, %117 ]
  %126 = zext i8 %123 to i32
  %127 = xor i32 %124, %126
  %128 = mul i32 %127, 16777619
  %129 = getelementptr inbounds i8, ptr %125, i32 1
  %130 = load i8, ptr %129, align 1, !tbaa !5
  %131 = icmp eq i8 %130, 0
  br i1 %131, label %132, label %122, !llvm.loop !21

132:                                              ; preds = %122, %117
  %133 = phi i32 [ -2128831035, %117 ], [ %128, %122 ]
  %134 = lshr i32 %133, 15
  %135 = xor i32 %134, %133
  %136 = add i32 %119, -1
  %137 = and i32 %135, %136
  %138 = getelementptr inbounds %struct.table, ptr %118, i32 %137
  %139 = load ptr, ptr %138, align 4, !tbaa !12
  %140 = icmp eq ptr %139, null
  br i1 %140, label %157, label %141

141:                                              ; preds = %151, %132
  %142 = phi ptr [ %155, %151 ], [ %139, %132 ]
  %143 = phi ptr [ %154, %151 ], [ %138, %132 ]
  %144 = phi i32 [ %153, %151 ], [ %137, %132 ]
  %145 = getelementptr inbounds i8, ptr %143, i32 4
  %146 = load i32, ptr %145, align 4, !tbaa !16
  %147 = icmp eq i32 %146, %135
  br i1 %147, label %148, label %151

148:                                              ; preds = %141
  %149 = call i32 @strcmp(ptr noundef nonnull dereferenceable(1) %142, ptr noundef nonnull readonly dereferenceable(1) %3) #15
  %150 = icmp eq i32 %149, 0
  br i1 %150, label %165, label %151

151:                                              ; preds = %148, %141
  %152 = add i32 %144, 1
  %153 = and i32 %152, %136
  %154 = getelementptr inbounds %struct.table, ptr %118, i32 %153
  %155 = load ptr, ptr %154, align 4, !tbaa !12
  %156 = icmp eq ptr %155, null
  br i1 %156, label %157, label %141

157:                                              ; preds = %151, %132
  %158 = phi ptr [ %138, %132 ], [ %154, %151 ]
  %159 = call ptr @strdup(ptr noundef nonnull readonly %3) #15
  store ptr %159, ptr %158, align 4, !tbaa !12
  %160 = icmp eq ptr %159, null
  br i1 %160, label %161, label %162

161:                                              ; preds = %157
  call void @abort() #18
  unreachable

162:                                              ; preds = %157
  %163 = getelementptr inbounds i8, ptr %158, i32 4
  store i32 %135, ptr %163, align 4, !tbaa !16
  %164 = add i32 %19, 1
  br label %165

165:                                              ; preds = %162, %148
  %166 = phi i32 [ %164, %162 ], [ %19, %148 ]
  %167 = phi ptr [ %158, %162 ], [ %143, %148 ]
  %168 = getelementptr inbounds i8, ptr %167, i32 8
  %169 = load i32, ptr %168, align 4, !tbaa !22
  %170 = add i32 %169, 1
  store i32 %170, ptr %168, align 4, !tbaa !22
  %171 = icmp eq i32 %169, 0
  br i1 %171, label %172, label %174

172:                                              ; preds = %165
  %173 = getelementptr inbounds i8, ptr %167, i32 12
  store i32 %12, ptr %173, align 4, !tbaa !23
  br label %174

174:                                              ; preds = %172, %165
  %175 = add i32 %17, 1
  %176 = load i8, ptr %34, align 1, !tbaa !5
  %177 = icmp eq i8 %176, 0
  br i1 %177, label %60, label %15, !llvm.loop !24

178:                                              ; preds = %60, %0
  %179 = phi ptr [ null, %0 ], [ %61, %60 ]
  %180 = phi i32 [ 0, %0 ], [ %62, %60 ]
  %181 = phi i32 [ 0, %0 ], [ %63, %60 ]
  %182 = phi i32 [ 0, %0 ], [ %64, %60 ]
  %183 = phi i32 [ 0, %0 ], [ %12, %60 ]
  %184 = zext i32 %183 to i64
  %185 = call i32 @__print_unsigned(ptr nonnull getelementptr inbounds (i8, ptr @__streams, i32 12), i64 %184, i32 10, i32 0, i32 0, i32 -1) #15
  %186 = call i32 @__print_text(ptr nonnull getelementptr inbounds (i8, ptr @__streams, i32 12), ptr nonnull getelementptr inbounds (i8, ptr @.str, i32 2), i32 8) #15
  %187 = zext i32 %182 to i64
  %188 = call i32 @__print_unsigned(ptr nonnull getelementptr inbounds (i8, ptr @__streams, i32 12), i64 %187, i32 10, i32 0, i32 0, i32 -1) #15
  %189 = call i32 @__print_text(ptr nonnull getelementptr inbounds (i8, ptr @__streams, i32 12), ptr nonnull getelementptr inbounds (i8, ptr @.str, i32 12), i32 8) #15
  %190 = zext i32 %181 to i64
  %191 = call i32 @__print_unsigned(ptr nonnull getelementptr inbounds (i8, ptr @__streams, i32 12), i64 %190, i32 10, i32 0, i32 0, i32 -1) #15
  %192 = call i32 @__print_text(ptr nonnull getelementptr inbounds (i8, ptr @__streams, i32 12), ptr nonnull getelementptr inbounds (i8, ptr @.str, i32 23), i32 11) #15
  %193 = icmp eq i32 %180, 0
  %194 = add i32 %180, -1
  %195 = ptrtoint ptr %179 to i32
  br label %284

196:                                              ; preds = %358
  %197 = shl i32 %359, 2
  %198 = call ptr @malloc(i32 noundef %197) #19
  %199 = icmp eq ptr %198, null
  br i1 %199, label %201, label %200

200:                                              ; preds = %196
  br i1 %193, label %215, label %202

201:                                              ; preds = %196
  call void @abort() #18
  unreachable

202:                                              ; preds = %211, %200
  %203 = phi i32 [ %213, %211 ], [ 0, %200 ]
  %204 = phi i32 [ %212, %211 ], [ 0, %200 ]
  %205 = getelementptr inbounds %struct.table, ptr %179, i32 %203
  %206 = load ptr, ptr %205, align 4, !tbaa !12
  %207 = icmp eq ptr %206, null
  br i1 %207, label %211, label %208

208:                                              ; preds = %202
  %209 = add i32 %204, 1
  %210 = getelementptr inbounds ptr, ptr %198, i32 %204
  store ptr %205, ptr %210, align 4, !tbaa !18
  br label %211

211:                                              ; preds = %208, %202
  %212 = phi i32 [ %209, %208 ], [ %204, %202 ]
  %213 = add nuw i32 %203, 1
  %214 = icmp eq i32 %213, %180
  br i1 %214, label %215, label %202, !llvm.loop !25

215:                                              ; preds = %211, %200
  call void @qsort(ptr noundef nonnull %198, i32 noundef %359, i32 noundef 4, ptr noundef nonnull @by_count) #15
  %216 = call i32 @llvm.umin.i32(i32 %359, i32 15)
  %217 = icmp eq i32 %359, 0
  br i1 %217, label %218, label %219

218:                                              ; preds = %215
  call void @llvm.lifetime.start.p0(i64 48, ptr nonnull %1) #15
  call void @llvm.memset.p0.i32(ptr noundef nonnull align 4 dereferenceable(48) %1, i8 0, i32 48, i1 false)
  br label %253

219:                                              ; preds = %219, %215
  %220 = phi i32 [ %236, %219 ], [ 0, %215 ]
  %221 = getelementptr inbounds ptr, ptr %198, i32 %220
  %222 = load ptr, ptr %221, align 4, !tbaa !18
  %223 = getelementptr inbounds i8, ptr %222, i32 8
  %224 = load i32, ptr %223, align 4, !tbaa !22
  %225 = load ptr, ptr %222, align 4, !tbaa !12
  %226 = getelementptr inbounds i8, ptr %222, i32 12
  %227 = load i32, ptr %226, align 4, !tbaa !23
  %228 = zext i32 %224 to i64
  %229 = call i32 @__print_unsigned(ptr nonnull getelementptr inbounds (i8, ptr @__streams, i32 12), i64 %228, i32 10, i32 0, i32 4, i32 -1) #15
  %230 = call i32 @__print_text(ptr nonnull getelementptr inbounds (i8, ptr @__streams, i32 12), ptr nonnull getelementptr inbounds (i8, ptr @.str.15, i32 3), i32 2) #15
  %231 = call i32 @__print_string(ptr nonnull getelementptr inbounds (i8, ptr @__streams, i32 12), ptr %225, i32 1, i32 14, i32 14) #15
  %232 = call i32 @__print_text(ptr nonnull getelementptr inbounds (i8, ptr @__streams, i32 12), ptr nonnull getelementptr inbounds (i8, ptr @.str.15, i32 13), i32 15) #15
  %233 = zext i32 %227 to i64
  %234 = call i32 @__print_unsigned(ptr nonnull getelementptr inbounds (i8, ptr @__streams, i32 12), i64 %233, i32 10, i32 0, i32 0, i32 -1) #15
  %235 = call i32 @__print_text(ptr nonnull getelementptr inbounds (i8, ptr @__streams, i32 12), ptr nonnull getelementptr inbounds (i8, ptr @.str.15, i32 30), i32 1) #15
  %236 = add nuw nsw i32 %220, 1
  %237 = icmp eq i32 %236, %216
  br i1 %237, label %238, label %219, !llvm.loop !26

238:                                              ; preds = %219
  call void @llvm.lifetime.start.p0(i64 48, ptr nonnull %1) #15
  call void @llvm.memset.p0.i32(ptr noundef nonnull align 4 dereferenceable(48) %1, i8 0, i32 48, i1 false)
  br label %239

239:                                              ; preds = %239, %238
  %240 = phi i32 [ %251, %239 ], [ 0, %238 ]
  %241 = getelementptr inbounds ptr, ptr %198, i32 %240
  %242 = load ptr, ptr %241, align 4, !tbaa !18
  %243 = load ptr, ptr %242, align 4, !tbaa !12
  %244 = call i32 @strlen(ptr noundef nonnull dereferenceable(1) %243) #15
  %245 = getelementptr inbounds i8, ptr %242, i32 8
  %246 = load i32, ptr %245, align 4, !tbaa !22
  %247 = call i32 @llvm.umin.i32(i32 %244, i32 11)
  %248 = getelementptr inbounds [12 x i32], ptr %1, i32 0, i32 %247
  %249 = load i32, ptr %248, align 4, !tbaa !19
  %250 = add i32 %249, %246
  store i32 %250, ptr %248, align 4, !tbaa !19
  %251 = add nuw i32 %240, 1
  %252 = icmp eq i32 %251, %359
  br i1 %252, label %253, label %239, !llvm.loop !27

253:                                              ; preds = %239, %218
  br label %254

254:                                              ; preds = %265, %253
  %255 = phi i32 [ %270, %265 ], [ 1, %253 ]
  %256 = icmp eq i32 %255, 11
  %257 = select i1 %256, i32 43, i32 32
  %258 = zext nneg i32 %255 to i64
  %259 = call i32 @__print_signed(ptr nonnull getelementptr inbounds (i8, ptr @__streams, i32 12), i64 %258, i32 0, i32 2, i32 -1) #15
  %260 = call i32 @__print_character(ptr nonnull getelementptr inbounds (i8, ptr @__streams, i32 12), i32 %257, i32 0, i32 0) #15
  %261 = call i32 @__print_text(ptr nonnull getelementptr inbounds (i8, ptr @__streams, i32 12), ptr nonnull getelementptr inbounds (i8, ptr @.str.16, i32 5), i32 1) #15
  %262 = getelementptr inbounds [12 x i32], ptr %1, i32 0, i32 %255
  %263 = load i32, ptr %262, align 4, !tbaa !19
  %264 = icmp eq i32 %263, 0
  br i1 %264, label %265, label %272

265:                                              ; preds = %272, %254
  %266 = call i32 @__print_text(ptr nonnull getelementptr inbounds (i8, ptr @__streams, i32 12), ptr nonnull @.str.17, i32 1) #15
  %267 = zext i32 %263 to i64
  %268 = call i32 @__print_unsigned(ptr nonnull getelementptr inbounds (i8, ptr @__streams, i32 12), i64 %267, i32 10, i32 0, i32 0, i32 -1) #15
  %269 = call i32 @__print_text(ptr nonnull getelementptr inbounds (i8, ptr @__streams, i32 12), ptr nonnull getelementptr inbounds (i8, ptr @.str.17, i32 3), i32 1) #15
  %270 = add nuw nsw i32 %255, 1
  %271 = icmp eq i32 %270, 12
  br i1 %271, label %277, label %254, !llvm.loop !28

272:                                              ; preds = %272, %254
  %273 = phi i32 [ %275, %272 ], [ 0, %254 ]
  %274 = call i32 @putchar(i32 noundef 42)
  %275 = add i32 %273, 4
  %276 = icmp ult i32 %275, %263
  br i1 %276, label %272, label %265, !llvm.loop !29

277:                                              ; preds = %265
  call void @llvm.lifetime.end.p0(i64 48, ptr nonnull %1) #15
  call void @qsort(ptr noundef nonnull %198, i32 noundef %359, i32 noundef 4, ptr noundef nonnull @by_alphabet) #15
  %278 = call ptr @bsearch(ptr noundef nonnull @.str.1, ptr noundef nonnull %198, i32 noundef %359, i32 noundef 4, ptr noundef nonnull @by_word) #15
  %279 = icmp eq ptr %278, null
  %280 = select i1 %279, ptr @.str.4, ptr @.str.3
  %281 = call i32 @__print_text(ptr nonnull getelementptr inbounds (i8, ptr @__streams, i32 12), ptr nonnull @.str.2, i32 9) #15
  %282 = call i32 @__print_string(ptr nonnull getelementptr inbounds (i8, ptr @__streams, i32 12), ptr nonnull %280, i32 0, i32 0, i32 -1) #15
  %283 = call i32 @__print_text(ptr nonnull getelementptr inbounds (i8, ptr @__streams, i32 12), ptr nonnull getelementptr inbounds (i8, ptr @.str.2, i32 11), i32 1) #15
  br i1 %217, label %374, label %362

284:                                              ; preds = %358, %178
  %285 = phi i32 [ 0, %178 ], [ %360, %358 ]
  %286 = phi i32 [ %181, %178 ], [ %359, %358 ]
  %287 = getelementptr inbounds [9 x ptr], ptr @usual, i32 0, i32 %285
  %288 = load ptr, ptr %287, align 4, !tbaa !18
  br i1 %193, label %358, label %289

289:                                              ; preds = %284
  %290 = load i8, ptr %288, align 1, !tbaa !5
  %291 = icmp eq i8 %290, 0
  br i1 %291, label %302, label %292

292:                                              ; preds = %292, %289
  %293 = phi i8 [ %300, %292 ], [ %290, %289 ]
  %294 = phi i32 [ %298, %292 ], [ -2128831035, %289 ]
  %295 = phi ptr [ %299, %292 ], [ %288, %289 ]
  %296 = zext i8 %293 to i32
  %297 = xor i32 %294, %296
  %298 = mul i32 %297, 16777619
  %299 = getelementptr inbounds i8, ptr %295, i32 1
  %300 = load i8, ptr %299, align 1, !tbaa !5
  %301 = icmp eq i8 %300, 0
  br i1 %301, label %302, label %292, !llvm.loop !30

302:                                              ; preds = %292, %289
  %303 = phi i32 [ -2128831035, %289 ], [ %298, %292 ]
  %304 = lshr i32 %303, 15
  %305 = xor i32 %304, %303
  %306 = and i32 %305, %194
  %307 = getelementptr inbounds %struct.table, ptr %179, i32 %306
  %308 = load ptr, ptr %307, align 4, !tbaa !12
  %309 = icmp eq ptr %308, null
  br i1 %309, label %358, label %310

310:                                              ; preds = %320, %302
  %311 = phi ptr [ %324, %320 ], [ %308, %302 ]
  %312 = phi ptr [ %323, %320 ], [ %307, %302 ]
  %313 = phi i32 [ %322, %320 ], [ %306, %302 ]
  %314 = getelementptr inbounds i8, ptr %312, i32 4
  %315 = load i32, ptr %314, align 4, !tbaa !16
  %316 = icmp eq i32 %315, %305
  br i1 %316, label %317, label %320

317:                                              ; preds = %310
  %318 = call i32 @strcmp(ptr noundef nonnull dereferenceable(1) %311, ptr noundef nonnull readonly dereferenceable(1) %288) #15
  %319 = icmp eq i32 %318, 0
  br i1 %319, label %326, label %320

320:                                              ; preds = %317, %310
  %321 = add i32 %313, 1
  %322 = and i32 %321, %194
  %323 = getelementptr inbounds %struct.table, ptr %179, i32 %322
  %324 = load ptr, ptr %323, align 4, !tbaa !12
  %325 = icmp eq ptr %324, null
  br i1 %325, label %358, label %310

326:                                              ; preds = %317
  call void @free(ptr noundef nonnull %311)
  store ptr null, ptr %312, align 4, !tbaa !12
  %327 = add i32 %286, -1
  %328 = ptrtoint ptr %312 to i32
  %329 = sub i32 %328, %195
  %330 = ashr exact i32 %329, 4
  %331 = add nsw i32 %330, 1
  %332 = and i32 %331, %194
  %333 = getelementptr inbounds %struct.table, ptr %179, i32 %332
  %334 = load ptr, ptr %333, align 4, !tbaa !12
  %335 = icmp eq ptr %334, null
  br i1 %335, label %358, label %336

336:                                              ; preds = %351, %326
  %337 = phi ptr [ %355, %351 ], [ %333, %326 ]
  %338 = phi i32 [ %354, %351 ], [ %332, %326 ]
  %339 = phi i32 [ %352, %351 ], [ %330, %326 ]
  %340 = getelementptr inbounds i8, ptr %337, i32 4
  %341 = load i32, ptr %340, align 4, !tbaa !16
  %342 = and i32 %341, %194
  %343 = sub i32 %338, %342
  %344 = and i32 %343, %194
  %345 = sub i32 %338, %339
  %346 = and i32 %345, %194
  %347 = icmp ult i32 %344, %346
  br i1 %347, label %351, label %348

348:                                              ; preds = %336
  %349 = getelementptr inbounds %struct.table, ptr %179, i32 %339
  call void @llvm.memcpy.p0.p0.i32(ptr noundef nonnull align 4 dereferenceable(16) %349, ptr noundef nonnull align 4 dereferenceable(16) %337, i32 16, i1 false), !tbaa.struct !17
  %350 = getelementptr inbounds %struct.table, ptr %179, i32 %338
  store ptr null, ptr %350, align 4, !tbaa !12
  br label %351

351:                                              ; preds = %348, %336
  %352 = phi i32 [ %338, %348 ], [ %339, %336 ]
  %353 = add i32 %338, 1
  %354 = and i32 %353, %194
  %355 = getelementptr inbounds %struct.table, ptr %179, i32 %354
  %356 = load ptr, ptr %355, align 4, !tbaa !12
  %357 = icmp eq ptr %356, null
  br i1 %357, label %358, label %336, !llvm.loop !31

358:                                              ; preds = %351, %326, %320, %302, %284
  %359 = phi i32 [ %286, %284 ], [ %286, %302 ], [ %327, %326 ], [ %327, %351 ], [ %286, %320 ]
  %360 = add nuw nsw i32 %285, 1
  %361 = icmp eq i32 %360, 9
  br i1 %361, label %196, label %284, !llvm.loop !32

362:                                              ; preds = %277
  %363 = load ptr, ptr %198, align 4, !tbaa !18
  %364 = load ptr, ptr %363, align 4, !tbaa !12
  %365 = getelementptr ptr, ptr %198, i32 %359
  %366 = getelementptr i8, ptr %365, i32 -4
  %367 = load ptr, ptr %366, align 4, !tbaa !18
  %368 = load ptr, ptr %367, align 4, !tbaa !12
  %369 = call i32 @__print_text(ptr nonnull getelementptr inbounds (i8, ptr @__streams, i32 12), ptr nonnull @.str.5, i32 5) #15
  %370 = call i32 @__print_string(ptr nonnull getelementptr inbounds (i8, ptr @__streams, i32 12), ptr %364, i32 0, i32 0, i32 -1) #15
  %371 = call i32 @__print_text(ptr nonnull getelementptr inbounds (i8, ptr @__streams, i32 12), ptr nonnull getelementptr inbounds (i8, ptr @.str.5, i32 7), i32 4) #15
  %372 = call i32 @__print_string(ptr nonnull getelementptr inbounds (i8, ptr @__streams, i32 12), ptr %368, i32 0, i32 0, i32 -1) #15
  %373 = call i32 @__print_text(ptr nonnull getelementptr inbounds (i8, ptr @__streams, i32 12), ptr nonnull getelementptr inbounds (i8, ptr @.str.5, i32 13), i32 1) #15
  br label %374

374:                                              ; preds = %362, %277
  call void @free(ptr noundef %198)
  br i1 %193, label %381, label %375

375:                                              ; preds = %375, %374
  %376 = phi i32 [ %379, %375 ], [ 0, %374 ]
  %377 = getelementptr inbounds %struct.table, ptr %179, i32 %376
  %378 = load ptr, ptr %377, align 4, !tbaa !12
  call void @free(ptr noundef %378)
  %379 = add nuw i32 %376, 1
  %380 = icmp eq i32 %379, %180
  br i1 %380, label %381, label %375, !llvm.loop !33

381:                                              ; preds = %375, %374
  %382 = srem i32 %359, 100
  call void @free(ptr noundef %179)
  call void @llvm.lifetime.end.p0(i64 24, ptr nonnull %3) #15
  call void @llvm.lifetime.end.p0(i64 400, ptr nonnull %2) #15
  ret i32 %382
}

; Function Attrs: nocallback nofree nosync nounwind willreturn memory(argmem: readwrite)
declare void @llvm.lifetime.start.p0(i64 immarg, ptr nocapture) #1

; Function Attrs: nounwind optsize
define internal noundef ptr @fgets(ptr noalias noundef writeonly %0, i32 noundef %1, ptr noalias nocapture noundef %2) local_unnamed_addr #2 {
  %4 = icmp slt i32 %1, 1
  br i1 %4, label %23, label %5

5:                                                ; preds = %3
  %6 = icmp eq i32 %1, 1
  br i1 %6, label %21, label %7

7:                                                ; preds = %12, %5
  %8 = phi i32 [ %13, %12 ], [ %1, %5 ]
  %9 = phi ptr [ %15, %12 ], [ %0, %5 ]
  %10 = tail call i32 @fgetc(ptr noundef %2) #20
  %11 = icmp eq i32 %10, -1
  br i1 %11, label %19, label %12

12:                                               ; preds = %7
  %13 = add nsw i32 %8, -1
  %14 = trunc i32 %10 to i8
  %15 = getelementptr inbounds i8, ptr %9, i32 1
  store i8 %14, ptr %9, align 1, !tbaa !5
  %16 = icmp sgt i32 %8, 2
  %17 = icmp ne i32 %10, 10
  %18 = and i1 %16, %17
  br i1 %18, label %7, label %21, !llvm.loop !34

19:                                               ; preds = %7
  %20 = icmp eq ptr %9, %0
  br i1 %20, label %23, label %21

21:                                               ; preds = %19, %12, %5
  %22 = phi ptr [ %9, %19 ], [ %0, %5 ], [ %15, %12 ]
  store i8 0, ptr %22, align 1, !tbaa !5
  br label %23

23:                                               ; preds = %21, %19, %3
  %24 = phi ptr [ %0, %21 ], [ null, %3 ], [ null, %19 ]
  ret ptr %24
}

; Function Attrs: mustprogress nofree norecurse nosync nounwind optsize willreturn memory(none)
define internal range(i32 0, 2) i32 @isalnum(i32 noundef %0) local_unnamed_addr #3 {
  %2 = and i32 %0, -33
  %3 = add i32 %2, -65
  %4 = icmp ult i32 %3, 26
  %5 = add i32 %0, -48
  %6 = icmp ult i32 %5, 10
  %7 = or i1 %6, %4
  %8 = zext i1 %7 to i32
  ret i32 %8
}

; Function Attrs: mustprogress nofree norecurse nosync nounwind optsize willreturn memory(none)
define internal range(i32 0, 2) i32 @isalpha(i32 noundef %0) local_unnamed_addr #3 {
  %2 = and i32 %0, -33
  %3 = add i32 %2, -65
  %4 = icmp ult i32 %3, 26
  %5 = zext i1 %4 to i32
  ret i32 %5
}

; Function Attrs: mustprogress nofree norecurse nosync nounwind optsize willreturn memory(none)
define internal i32 @tolower(i32 noundef %0) local_unnamed_addr #3 {
  %2 = add i32 %0, -91
  %3 = icmp ult i32 %2, -26
  %4 = add nuw nsw i32 %0, 32
  %5 = select i1 %3, i32 %0, i32 %4
  ret i32 %5
}

; Function Attrs: mustprogress nofree nounwind willreturn allockind("alloc,zeroed") allocsize(0,1) memory(inaccessiblemem: readwrite)
declare dso_local noalias noundef ptr @calloc(i32 noundef, i32 noundef) local_unnamed_addr #4

; Function Attrs: noreturn nounwind
declare dso_local void @abort() local_unnamed_addr #5

; Function Attrs: nofree norecurse nosync nounwind optsize memory(read, inaccessiblemem: none)
define internal range(i32 -1, 2) i32 @strcmp(ptr nocapture noundef readonly %0, ptr nocapture noundef readonly %1) local_unnamed_addr #6 {
  %3 = load i8, ptr %0, align 1, !tbaa !5
  %4 = icmp eq i8 %3, 0
  br i1 %4, label %16, label %5

5:                                                ; preds = %11, %2
  %6 = phi i8 [ %14, %11 ], [ %3, %2 ]
  %7 = phi ptr [ %13, %11 ], [ %1, %2 ]
  %8 = phi ptr [ %12, %11 ], [ %0, %2 ]
  %9 = load i8, ptr %7, align 1, !tbaa !5
  %10 = icmp eq i8 %6, %9
  br i1 %10, label %11, label %16

11:                                               ; preds = %5
  %12 = getelementptr inbounds i8, ptr %8, i32 1
  %13 = getelementptr inbounds i8, ptr %7, i32 1
  %14 = load i8, ptr %12, align 1, !tbaa !5
  %15 = icmp eq i8 %14, 0
  br i1 %15, label %16, label %5, !llvm.loop !35

16:                                               ; preds = %11, %5, %2
  %17 = phi ptr [ %1, %2 ], [ %13, %11 ], [ %7, %5 ]
  %18 = phi i8 [ 0, %2 ], [ 0, %11 ], [ %6, %5 ]
  %19 = load i8, ptr %17, align 1, !tbaa !5
  %20 = icmp ult i8 %18, %19
  %21 = icmp ugt i8 %18, %19
  %22 = zext i1 %21 to i32
  %23 = select i1 %20, i32 -1, i32 %22
  ret i32 %23
}

; Function Attrs: nocallback nofree nounwind willreturn memory(argmem: readwrite)
declare void @llvm.memcpy.p0.p0.i32(ptr noalias nocapture writeonly, ptr noalias nocapture readonly, i32, i1 immarg) #7

; Function Attrs: mustprogress nounwind willreturn allockind("free") memory(argmem: readwrite, inaccessiblemem: readwrite)
declare dso_local void @free(ptr allocptr nocapture noundef) local_unnamed_addr #8

; Function Attrs: nounwind optsize
define internal ptr @strdup(ptr nocapture noundef readonly %0) local_unnamed_addr #2 {
  %2 = tail call ptr @strndup(ptr noundef %0, i32 noundef -1) #20
  ret ptr %2
}

; Function Attrs: nounwind optsize
define internal i32 @__print_unsigned(ptr nocapture noundef %0, i64 noundef %1, i32 noundef %2, i32 noundef %3, i32 noundef %4, i32 noundef %5) local_unnamed_addr #2 {
  %7 = alloca [24 x i8], align 1
  call void @llvm.lifetime.start.p0(i64 24, ptr nonnull %7) #15
  %8 = and i32 %3, 32
  %9 = icmp eq i32 %8, 0
  %10 = select i1 %9, ptr @.str.9.24, ptr @.str.8.30
  %11 = icmp ult i64 %1, 4294967296
  br i1 %11, label %14, label %12

12:                                               ; preds = %6
  %13 = zext i32 %2 to i64
  br label %29

14:                                               ; preds = %6
  %15 = trunc nuw i64 %1 to i32
  %16 = icmp eq i32 %15, 0
  br i1 %16, label %41, label %17

17:                                               ; preds = %17, %14
  %18 = phi i32 [ %21, %17 ], [ %15, %14 ]
  %19 = phi i32 [ %26, %17 ], [ 24, %14 ]
  %20 = freeze i32 %18
  %21 = udiv i32 %20, %2
  %22 = mul i32 %21, %2
  %23 = sub i32 %20, %22
  %24 = getelementptr inbounds i8, ptr %10, i32 %23
  %25 = load i8, ptr %24, align 1, !tbaa !5
  %26 = add nsw i32 %19, -1
  %27 = getelementptr inbounds i8, ptr %7, i32 %26
  store i8 %25, ptr %27, align 1, !tbaa !5
  %28 = icmp ult i32 %18, %2
  br i1 %28, label %41, label %17, !llvm.loop !36

29:                                               ; preds = %29, %12
  %30 = phi i32 [ 24, %12 ], [ %38, %29 ]
  %31 = phi i64 [ %1, %12 ], [ %32, %29 ]
  %32 = udiv i64 %31, %13
  %33 = mul i64 %32, %13
  %34 = sub i64 %31, %33
  %35 = trunc nuw i64 %34 to i32
  %36 = getelementptr inbounds i8, ptr %10, i32 %35
  %37 = load i8, ptr %36, align 1, !tbaa !5
  %38 = add nsw i32 %30, -1
  %39 = getelementptr inbounds i8, ptr %7, i32 %38
  store i8 %37, ptr %39, align 1, !tbaa !5
  %40 = icmp ult i64 %31, %13
  br i1 %40, label %41, label %29, !llvm.loop !37

41:                                               ; preds = %29, %17, %14
  %42 = phi i32 [ 24, %14 ], [ %26, %17 ], [ %38, %29 ]
  %43 = icmp eq i64 %1, 0
  %44 = icmp ne i32 %5, 0
  %45 = and i1 %43, %44
  br i1 %45, label %46, label %49

46:                                               ; preds = %41
  %47 = add nsw i32 %42, -1
  %48 = getelementptr inbounds i8, ptr %7, i32 %47
  store i8 48, ptr %48, align 1, !tbaa !5
  br label %49

49:                                               ; preds = %46, %41
  %50 = phi i32 [ %47, %46 ], [ %42, %41 ]
  %51 = getelementptr inbounds i8, ptr %7, i32 %50
  %52 = and i32 %3, 8
  %53 = icmp ne i32 %52, 0
  %54 = icmp eq i32 %2, 8
  %55 = and i1 %54, %53
  %56 = sub nsw i32 24, %50
  %57 = icmp sge i32 %56, %5
  %58 = select i1 %55, i1 %57, i1 false
  br i1 %58, label %59, label %66

59:                                               ; preds = %49
  %60 = icmp eq i32 %50, 24
  br i1 %60, label %64, label %61

61:                                               ; preds = %59
  %62 = load i8, ptr %51, align 1, !tbaa !5
  %63 = icmp eq i8 %62, 48
  br i1 %63, label %66, label %64

64:                                               ; preds = %61, %59
  %65 = getelementptr inbounds i8, ptr %51, i32 -1
  store i8 48, ptr %65, align 1, !tbaa !5
  br label %66

66:                                               ; preds = %64, %61, %49
  %67 = phi ptr [ %65, %64 ], [ %51, %61 ], [ %51, %49 ]
  %68 = getelementptr inbounds i8, ptr %7, i32 24
  %69 = ptrtoint ptr %68 to i32
  %70 = icmp eq i32 %2, 16
  %71 = icmp ne i64 %1, 0
  %72 = and i1 %71, %70
  %73 = and i1 %72, %53
  %74 = select i1 %9, ptr @.str.6.31, ptr @.str.5.32
  %75 = select i1 %73, ptr %74, ptr @.str.18
  %76 = ptrtoint ptr %67 to i32
  %77 = sub i32 %69, %76
  %78 = call fastcc i32 @number(ptr noundef %0, ptr noundef nonnull %75, ptr noundef nonnull %67, i32 noundef %77, i32 noundef %3, i32 noundef %4, i32 noundef %5) #20
  call void @llvm.lifetime.end.p0(i64 24, ptr nonnull %7) #15
  ret i32 %78
}

; Function Attrs: nounwind optsize
define internal noundef i32 @__print_text(ptr nocapture noundef %0, ptr nocapture noundef readonly %1, i32 noundef returned %2) local_unnamed_addr #2 {
  %4 = load i8, ptr %0, align 4, !tbaa !38, !alias.scope !40, !noalias !43
  %5 = icmp eq i8 %4, 0
  %6 = icmp eq i32 %2, 0
  %7 = or i1 %6, %5
  br i1 %7, label %16, label %8

8:                                                ; preds = %8, %3
  %9 = phi i32 [ %14, %8 ], [ 0, %3 ]
  %10 = getelementptr inbounds i8, ptr %1, i32 %9
  %11 = load i8, ptr %10, align 1, !tbaa !5, !alias.scope !43, !noalias !40
  %12 = zext i8 %11 to i32
  %13 = tail call i32 @fputc(i32 noundef %12, ptr noundef nonnull %0) #20, !noalias !43
  %14 = add nuw i32 %9, 1
  %15 = icmp eq i32 %14, %2
  br i1 %15, label %16, label %8, !llvm.loop !45

16:                                               ; preds = %8, %3
  ret i32 %2
}

; Function Attrs: mustprogress nofree nounwind willreturn allockind("alloc,uninitialized") allocsize(0) memory(inaccessiblemem: readwrite)
declare dso_local noalias noundef ptr @malloc(i32 noundef) local_unnamed_addr #9

; Function Attrs: mustprogress nofree nounwind willreturn memory(read, inaccessiblemem: none)
define internal i32 @by_count(ptr nocapture noundef readonly %0, ptr nocapture noundef readonly %1) #10 {
  %3 = load ptr, ptr %0, align 4, !tbaa !18
  %4 = load ptr, ptr %1, align 4, !tbaa !18
  %5 = getelementptr inbounds i8, ptr %3, i32 8
  %6 = load i32, ptr %5, align 4, !tbaa !22
  %7 = getelementptr inbounds i8, ptr %4, i32 8
  %8 = load i32, ptr %7, align 4, !tbaa !22
  %9 = icmp eq i32 %6, %8
  br i1 %9, label %13, label %10

10:                                               ; preds = %2
  %11 = icmp ult i32 %6, %8
  %12 = select i1 %11, i32 1, i32 -1
  br label %17

13:                                               ; preds = %2
  %14 = load ptr, ptr %3, align 4, !tbaa !12
  %15 = load ptr, ptr %4, align 4, !tbaa !12
  %16 = tail call i32 @strcmp(ptr noundef nonnull dereferenceable(1) %14, ptr noundef nonnull dereferenceable(1) %15) #15
  br label %17

17:                                               ; preds = %13, %10
  %18 = phi i32 [ %12, %10 ], [ %16, %13 ]
  ret i32 %18
}

; Function Attrs: nounwind optsize
define internal void @qsort(ptr noundef %0, i32 noundef %1, i32 noundef %2, ptr noundef %3) local_unnamed_addr #2 {
  %5 = icmp ult i32 %1, 2
  %6 = icmp eq i32 %2, 0
  %7 = or i1 %5, %6
  br i1 %7, label %35, label %8

8:                                                ; preds = %4
  %9 = lshr i32 %1, 1
  %10 = mul i32 %9, %2
  %11 = tail call ptr @malloc(i32 noundef %10) #21
  %12 = icmp eq ptr %11, null
  br i1 %12, label %13, label %34

13:                                               ; preds = %13, %8
  %14 = phi i32 [ %15, %13 ], [ %9, %8 ]
  %15 = add nsw i32 %14, -1
  tail call fastcc void @sink(ptr noundef %0, i32 noundef %15, i32 noundef %1, i32 noundef %2, ptr noundef readonly %3) #20
  %16 = icmp eq i32 %15, 0
  br i1 %16, label %17, label %13, !llvm.loop !46

17:                                               ; preds = %32, %13
  %18 = phi i32 [ %19, %32 ], [ %1, %13 ]
  %19 = add i32 %18, -1
  %20 = mul i32 %19, %2
  %21 = getelementptr inbounds i8, ptr %0, i32 %20
  br label %22

22:                                               ; preds = %22, %17
  %23 = phi ptr [ %29, %22 ], [ %0, %17 ]
  %24 = phi i32 [ %26, %22 ], [ %2, %17 ]
  %25 = phi ptr [ %30, %22 ], [ %21, %17 ]
  %26 = add i32 %24, -1
  %27 = load i8, ptr %23, align 1, !tbaa !5
  %28 = load i8, ptr %25, align 1, !tbaa !5
  %29 = getelementptr inbounds i8, ptr %23, i32 1
  store i8 %28, ptr %23, align 1, !tbaa !5
  %30 = getelementptr inbounds i8, ptr %25, i32 1
  store i8 %27, ptr %25, align 1, !tbaa !5
  %31 = icmp eq i32 %26, 0
  br i1 %31, label %32, label %22, !llvm.loop !47

32:                                               ; preds = %22
  tail call fastcc void @sink(ptr noundef %0, i32 noundef 0, i32 noundef %19, i32 noundef %2, ptr noundef readonly %3) #20
  %33 = icmp ugt i32 %19, 1
  br i1 %33, label %17, label %35, !llvm.loop !48

34:                                               ; preds = %8
  tail call fastcc void @merge_sort(ptr noundef %0, i32 noundef %1, i32 noundef %2, ptr noundef %3, ptr noundef nonnull %11) #20
  tail call void @free(ptr noundef nonnull %11) #21
  br label %35

35:                                               ; preds = %34, %32, %4
  ret void
}

; Function Attrs: nocallback nofree nosync nounwind speculatable willreturn memory(none)
declare i32 @llvm.umin.i32(i32, i32) #11

; Function Attrs: nocallback nofree nounwind willreturn memory(argmem: write)
declare void @llvm.memset.p0.i32(ptr nocapture writeonly, i8, i32, i1 immarg) #12

; Function Attrs: nounwind optsize
define internal i32 @__print_string(ptr nocapture noundef %0, ptr noundef %1, i32 noundef %2, i32 noundef %3, i32 noundef %4) local_unnamed_addr #2 {
  %6 = icmp eq ptr %1, null
  %7 = icmp ult i32 %4, 6
  %8 = select i1 %7, ptr @.str.18, ptr @.str.1.19
  %9 = select i1 %6, ptr %8, ptr %1
  %10 = icmp slt i32 %4, 0
  br i1 %10, label %11, label %20

11:                                               ; preds = %11, %5
  %12 = phi ptr [ %15, %11 ], [ %9, %5 ]
  %13 = load i8, ptr %12, align 1, !tbaa !5
  %14 = icmp eq i8 %13, 0
  %15 = getelementptr inbounds i8, ptr %12, i32 1
  br i1 %14, label %16, label %11, !llvm.loop !49

16:                                               ; preds = %11
  %17 = ptrtoint ptr %12 to i32
  %18 = ptrtoint ptr %9 to i32
  %19 = sub i32 %17, %18
  br label %30

20:                                               ; preds = %5
  %21 = icmp eq i32 %4, 0
  br i1 %21, label %30, label %22

22:                                               ; preds = %27, %20
  %23 = phi i32 [ %28, %27 ], [ 0, %20 ]
  %24 = getelementptr inbounds i8, ptr %9, i32 %23
  %25 = load i8, ptr %24, align 1, !tbaa !5
  %26 = icmp eq i8 %25, 0
  br i1 %26, label %30, label %27

27:                                               ; preds = %22
  %28 = add nuw nsw i32 %23, 1
  %29 = icmp eq i32 %28, %4
  br i1 %29, label %30, label %22, !llvm.loop !50

30:                                               ; preds = %27, %22, %20, %16
  %31 = phi i32 [ %19, %16 ], [ 0, %20 ], [ %23, %22 ], [ %4, %27 ]
  %32 = tail call fastcc i32 @padded(ptr noundef %0, ptr noundef nonnull %9, i32 noundef %31, i32 noundef %2, i32 noundef %3) #20
  ret i32 %32
}

; Function Attrs: nofree norecurse nosync nounwind optsize memory(read, inaccessiblemem: none)
define internal noundef i32 @strlen(ptr noundef %0) local_unnamed_addr #6 {
  br label %2

2:                                                ; preds = %2, %1
  %3 = phi ptr [ %0, %1 ], [ %6, %2 ]
  %4 = load i8, ptr %3, align 1, !tbaa !5
  %5 = icmp eq i8 %4, 0
  %6 = getelementptr inbounds i8, ptr %3, i32 1
  br i1 %5, label %7, label %2, !llvm.loop !49

7:                                                ; preds = %2
  %8 = ptrtoint ptr %3 to i32
  %9 = ptrtoint ptr %0 to i32
  %10 = sub i32 %8, %9
  ret i32 %10
}

; Function Attrs: nounwind optsize
define internal i32 @__print_signed(ptr nocapture noundef %0, i64 noundef %1, i32 noundef %2, i32 noundef %3, i32 noundef %4) local_unnamed_addr #2 {
  %6 = alloca [24 x i8], align 1
  call void @llvm.lifetime.start.p0(i64 24, ptr nonnull %6) #15
  %7 = getelementptr inbounds i8, ptr %6, i32 24
  %8 = icmp slt i64 %1, 0
  %9 = lshr i64 %1, 63
  %10 = icmp ne i64 %9, 0
  %11 = sub i64 0, %1
  %12 = select i1 %10, i64 %11, i64 %1
  %13 = icmp ult i64 %12, 4294967296
  br i1 %13, label %14, label %28

14:                                               ; preds = %5
  %15 = trunc nuw i64 %12 to i32
  %16 = icmp eq i32 %15, 0
  br i1 %16, label %39, label %17

17:                                               ; preds = %17, %14
  %18 = phi i32 [ %21, %17 ], [ %15, %14 ]
  %19 = phi ptr [ %26, %17 ], [ %7, %14 ]
  %20 = freeze i32 %18
  %21 = udiv i32 %20, 10
  %22 = mul i32 %21, 10
  %23 = sub i32 %20, %22
  %24 = getelementptr inbounds i8, ptr @.str.9.24, i32 %23
  %25 = load i8, ptr %24, align 1, !tbaa !5
  %26 = getelementptr inbounds i8, ptr %19, i32 -1
  store i8 %25, ptr %26, align 1, !tbaa !5
  %27 = icmp ult i32 %18, 10
  br i1 %27, label %39, label %17, !llvm.loop !36

28:                                               ; preds = %28, %5
  %29 = phi ptr [ %37, %28 ], [ %7, %5 ]
  %30 = phi i64 [ %31, %28 ], [ %12, %5 ]
  %31 = udiv i64 %30, 10
  %32 = mul i64 %31, 10
  %33 = sub i64 %30, %32
  %34 = trunc nuw nsw i64 %33 to i32
  %35 = getelementptr inbounds i8, ptr @.str.9.24, i32 %34
  %36 = load i8, ptr %35, align 1, !tbaa !5
  %37 = getelementptr inbounds i8, ptr %29, i32 -1
  store i8 %36, ptr %37, align 1, !tbaa !5
  %38 = icmp ult i64 %30, 10
  br i1 %38, label %39, label %28, !llvm.loop !37

39:                                               ; preds = %28, %17, %14
  %40 = phi ptr [ %7, %14 ], [ %26, %17 ], [ %37, %28 ]
  %41 = icmp eq i64 %1, 0
  %42 = icmp ne i32 %4, 0
  %43 = and i1 %41, %42
  br i1 %43, label %44, label %46

44:                                               ; preds = %39
  %45 = getelementptr inbounds i8, ptr %40, i32 -1
  store i8 48, ptr %45, align 1, !tbaa !5
  br label %47

46:                                               ; preds = %39
  br i1 %8, label %55, label %47

47:                                               ; preds = %46, %44
  %48 = phi ptr [ %45, %44 ], [ %40, %46 ]
  %49 = and i32 %2, 2
  %50 = icmp eq i32 %49, 0
  br i1 %50, label %51, label %55

51:                                               ; preds = %47
  %52 = and i32 %2, 4
  %53 = icmp eq i32 %52, 0
  %54 = select i1 %53, ptr @.str.18, ptr @.str.4.25
  br label %55

55:                                               ; preds = %51, %47, %46
  %56 = phi ptr [ %40, %46 ], [ %48, %51 ], [ %48, %47 ]
  %57 = phi ptr [ @.str.2.26, %46 ], [ %54, %51 ], [ @.str.3.27, %47 ]
  %58 = ptrtoint ptr %7 to i32
  %59 = ptrtoint ptr %56 to i32
  %60 = sub i32 %58, %59
  %61 = call fastcc i32 @number(ptr noundef %0, ptr noundef nonnull %57, ptr noundef nonnull %56, i32 noundef %60, i32 noundef %2, i32 noundef %3, i32 noundef %4) #20
  call void @llvm.lifetime.end.p0(i64 24, ptr nonnull %6) #15
  ret i32 %61
}

; Function Attrs: nounwind optsize
define internal i32 @__print_character(ptr nocapture noundef %0, i32 noundef %1, i32 noundef %2, i32 noundef %3) local_unnamed_addr #2 {
  %5 = alloca i8, align 1
  call void @llvm.lifetime.start.p0(i64 1, ptr nonnull %5) #15
  %6 = trunc i32 %1 to i8
  store i8 %6, ptr %5, align 1, !tbaa !5
  %7 = call fastcc i32 @padded(ptr noundef %0, ptr noundef nonnull %5, i32 noundef 1, i32 noundef %2, i32 noundef %3) #20
  call void @llvm.lifetime.end.p0(i64 1, ptr nonnull %5) #15
  ret i32 %7
}

; Function Attrs: nofree nounwind
declare dso_local noundef i32 @putchar(i32 noundef) local_unnamed_addr #13

; Function Attrs: nocallback nofree nosync nounwind willreturn memory(argmem: readwrite)
declare void @llvm.lifetime.end.p0(i64 immarg, ptr nocapture) #1

; Function Attrs: mustprogress nofree nounwind willreturn memory(read, inaccessiblemem: none)
define internal i32 @by_alphabet(ptr nocapture noundef readonly %0, ptr nocapture noundef readonly %1) #10 {
  %3 = load ptr, ptr %0, align 4, !tbaa !18
  %4 = load ptr, ptr %3, align 4, !tbaa !12
  %5 = load ptr, ptr %1, align 4, !tbaa !18
  %6 = load ptr, ptr %5, align 4, !tbaa !12
  %7 = tail call i32 @strcmp(ptr noundef nonnull dereferenceable(1) %4, ptr noundef nonnull dereferenceable(1) %6) #15
  ret i32 %7
}

; Function Attrs: mustprogress nofree nounwind willreturn memory(read, inaccessiblemem: none)
define internal i32 @by_word(ptr nocapture noundef readonly %0, ptr nocapture noundef readonly %1) #10 {
  %3 = load ptr, ptr %1, align 4, !tbaa !18
  %4 = load ptr, ptr %3, align 4, !tbaa !12
  %5 = tail call i32 @strcmp(ptr noundef nonnull dereferenceable(1) %0, ptr noundef nonnull dereferenceable(1) %4) #15
  ret i32 %5
}

; Function Attrs: nounwind optsize
define internal noundef ptr @bsearch(ptr noundef %0, ptr noundef %1, i32 noundef %2, i32 noundef %3, ptr nocapture noundef readonly %4) local_unnamed_addr #2 {
  br label %6

6:                                                ; preds = %10, %5
  %7 = phi i32 [ %2, %5 ], [ %19, %10 ]
  %8 = phi i32 [ 0, %5 ], [ %20, %10 ]
  %9 = icmp ult i32 %8, %7
  br i1 %9, label %10, label %21

10:                                               ; preds = %6
  %11 = add i32 %8, %7
  %12 = lshr i32 %11, 1
  %13 = mul i32 %12, %3
  %14 = getelementptr inbounds i8, ptr %1, i32 %13
  %15 = tail call i32 %4(ptr noundef %0, ptr noundef %14) #21
  %16 = icmp eq i32 %15, 0
  %17 = icmp slt i32 %15, 0
  %18 = add nuw i32 %12, 1
  %19 = select i1 %17, i32 %12, i32 %7
  %20 = select i1 %17, i32 %8, i32 %18
  br i1 %16, label %21, label %6, !llvm.loop !51

21:                                               ; preds = %10, %6
  %22 = phi ptr [ %14, %10 ], [ null, %6 ]
  ret ptr %22
}

; Function Attrs: nounwind optsize
define internal fastcc i32 @padded(ptr nocapture noundef %0, ptr nocapture noundef readonly %1, i32 noundef %2, i32 noundef %3, i32 noundef %4) unnamed_addr #2 {
  %6 = icmp slt i32 %4, 0
  %7 = lshr i32 %4, 31
  %8 = icmp ne i32 %7, 0
  %9 = sub i32 0, %4
  %10 = select i1 %8, i32 %9, i32 %4
  %11 = sub nsw i32 %10, %2
  %12 = and i32 %3, 1
  %13 = icmp ne i32 %12, 0
  %14 = or i1 %6, %13
  br i1 %14, label %24, label %15

15:                                               ; preds = %5
  %16 = icmp sgt i32 %11, 0
  br i1 %16, label %17, label %22

17:                                               ; preds = %17, %15
  %18 = phi i32 [ %20, %17 ], [ 0, %15 ]
  %19 = tail call i32 @fputc(i32 noundef 32, ptr noundef %0) #20
  %20 = add nuw nsw i32 %18, 1
  %21 = icmp eq i32 %20, %11
  br i1 %21, label %22, label %17, !llvm.loop !52

22:                                               ; preds = %17, %15
  %23 = tail call noundef i32 @llvm.smax.i32(i32 %11, i32 0)
  br label %24

24:                                               ; preds = %22, %5
  %25 = phi i32 [ %23, %22 ], [ 0, %5 ]
  %26 = load i8, ptr %0, align 4, !tbaa !38, !alias.scope !53, !noalias !56
  %27 = icmp eq i8 %26, 0
  %28 = icmp eq i32 %2, 0
  %29 = or i1 %28, %27
  br i1 %29, label %38, label %30

30:                                               ; preds = %30, %24
  %31 = phi i32 [ %36, %30 ], [ 0, %24 ]
  %32 = getelementptr inbounds i8, ptr %1, i32 %31
  %33 = load i8, ptr %32, align 1, !tbaa !5, !alias.scope !56, !noalias !53
  %34 = zext i8 %33 to i32
  %35 = tail call i32 @fputc(i32 noundef %34, ptr noundef nonnull %0) #20, !noalias !56
  %36 = add nuw i32 %31, 1
  %37 = icmp eq i32 %36, %2
  br i1 %37, label %38, label %30, !llvm.loop !45

38:                                               ; preds = %30, %24
  br i1 %14, label %39, label %48

39:                                               ; preds = %38
  %40 = icmp sgt i32 %11, 0
  br i1 %40, label %41, label %46

41:                                               ; preds = %41, %39
  %42 = phi i32 [ %44, %41 ], [ 0, %39 ]
  %43 = tail call i32 @fputc(i32 noundef 32, ptr noundef nonnull %0) #20
  %44 = add nuw nsw i32 %42, 1
  %45 = icmp eq i32 %44, %11
  br i1 %45, label %46, label %41, !llvm.loop !52

46:                                               ; preds = %41, %39
  %47 = tail call noundef i32 @llvm.smax.i32(i32 %11, i32 0)
  br label %48

48:                                               ; preds = %46, %38
  %49 = phi i32 [ %47, %46 ], [ 0, %38 ]
  %50 = add nsw i32 %25, %2
  %51 = add nsw i32 %50, %49
  ret i32 %51
}

; Function Attrs: nounwind optsize
define internal range(i32 -1, 256) i32 @fputc(i32 noundef %0, ptr nocapture noundef %1) local_unnamed_addr #2 {
  %3 = load i8, ptr %1, align 4, !tbaa !38
  switch i8 %3, label %17 [
    i8 1, label %4
    i8 3, label %6
    i8 0, label %19
  ]

4:                                                ; preds = %2
  %5 = tail call i32 @putchar(i32 noundef %0) #21
  br label %17

6:                                                ; preds = %2
  %7 = getelementptr inbounds i8, ptr %1, i32 8
  %8 = load i32, ptr %7, align 4, !tbaa !58
  %9 = icmp eq i32 %8, 0
  br i1 %9, label %17, label %10

10:                                               ; preds = %6
  %11 = trunc i32 %0 to i8
  %12 = getelementptr inbounds i8, ptr %1, i32 4
  %13 = load ptr, ptr %12, align 4, !tbaa !59
  %14 = getelementptr inbounds i8, ptr %13, i32 1
  store ptr %14, ptr %12, align 4, !tbaa !59
  store i8 %11, ptr %13, align 1, !tbaa !5
  %15 = load i32, ptr %7, align 4, !tbaa !58
  %16 = add i32 %15, -1
  store i32 %16, ptr %7, align 4, !tbaa !58
  br label %17

17:                                               ; preds = %10, %6, %4, %2
  %18 = and i32 %0, 255
  br label %19

19:                                               ; preds = %17, %2
  %20 = phi i32 [ %18, %17 ], [ -1, %2 ]
  ret i32 %20
}

; Function Attrs: nocallback nofree nosync nounwind speculatable willreturn memory(none)
declare i32 @llvm.smax.i32(i32, i32) #11

; Function Attrs: nounwind optsize
define internal fastcc i32 @number(ptr nocapture noundef %0, ptr noundef %1, ptr nocapture noundef readonly %2, i32 noundef %3, i32 noundef %4, i32 noundef %5, i32 noundef %6) unnamed_addr #2 {
  br label %8

8:                                                ; preds = %8, %7
  %9 = phi ptr [ %1, %7 ], [ %12, %8 ]
  %10 = load i8, ptr %9, align 1, !tbaa !5
  %11 = icmp eq i8 %10, 0
  %12 = getelementptr inbounds i8, ptr %9, i32 1
  br i1 %11, label %13, label %8, !llvm.loop !49

13:                                               ; preds = %8
  %14 = ptrtoint ptr %9 to i32
  %15 = ptrtoint ptr %1 to i32
  %16 = sub i32 %14, %15
  %17 = sub nsw i32 %6, %3
  %18 = lshr i32 %5, 31
  %19 = icmp ne i32 %18, 0
  %20 = sub i32 0, %5
  %21 = select i1 %19, i32 %20, i32 %5
  %22 = tail call i32 @llvm.smax.i32(i32 %17, i32 0)
  %23 = icmp slt i32 %6, 0
  %24 = and i32 %4, 16
  %25 = icmp ne i32 %24, 0
  %26 = and i1 %25, %23
  %27 = and i32 %4, 1
  %28 = or i32 %18, %27
  %29 = icmp eq i32 %28, 0
  %30 = and i1 %26, %29
  %31 = add i32 %16, %3
  %32 = icmp sgt i32 %21, %31
  %33 = select i1 %30, i1 %32, i1 false
  %34 = sub i32 %21, %31
  %35 = select i1 %33, i32 %34, i32 %22
  %36 = add i32 %31, %35
  %37 = sub i32 %21, %36
  br i1 %29, label %38, label %47

38:                                               ; preds = %13
  %39 = icmp sgt i32 %37, 0
  br i1 %39, label %40, label %45

40:                                               ; preds = %40, %38
  %41 = phi i32 [ %43, %40 ], [ 0, %38 ]
  %42 = tail call i32 @fputc(i32 noundef 32, ptr noundef %0) #20
  %43 = add nuw nsw i32 %41, 1
  %44 = icmp eq i32 %43, %37
  br i1 %44, label %45, label %40, !llvm.loop !52

45:                                               ; preds = %40, %38
  %46 = tail call noundef i32 @llvm.smax.i32(i32 %37, i32 0)
  br label %47

47:                                               ; preds = %45, %13
  %48 = phi i32 [ 0, %13 ], [ %46, %45 ]
  %49 = load i8, ptr %0, align 4, !tbaa !38, !alias.scope !60, !noalias !63
  %50 = icmp eq i8 %49, 0
  %51 = icmp eq ptr %9, %1
  %52 = or i1 %51, %50
  br i1 %52, label %61, label %53

53:                                               ; preds = %53, %47
  %54 = phi i32 [ %59, %53 ], [ 0, %47 ]
  %55 = getelementptr inbounds i8, ptr %1, i32 %54
  %56 = load i8, ptr %55, align 1, !tbaa !5, !alias.scope !63, !noalias !60
  %57 = zext i8 %56 to i32
  %58 = tail call i32 @fputc(i32 noundef %57, ptr noundef nonnull %0) #20, !noalias !63
  %59 = add nuw i32 %54, 1
  %60 = icmp eq i32 %59, %16
  br i1 %60, label %61, label %53, !llvm.loop !45

61:                                               ; preds = %53, %47
  %62 = icmp sgt i32 %35, 0
  br i1 %62, label %63, label %68

63:                                               ; preds = %63, %61
  %64 = phi i32 [ %66, %63 ], [ 0, %61 ]
  %65 = tail call i32 @fputc(i32 noundef 48, ptr noundef nonnull %0) #20
  %66 = add nuw nsw i32 %64, 1
  %67 = icmp eq i32 %66, %35
  br i1 %67, label %68, label %63, !llvm.loop !52

68:                                               ; preds = %63, %61
  %69 = tail call noundef i32 @llvm.smax.i32(i32 %35, i32 0)
  %70 = load i8, ptr %0, align 4, !tbaa !38, !alias.scope !65, !noalias !68
  %71 = icmp eq i8 %70, 0
  %72 = icmp eq i32 %3, 0
  %73 = or i1 %72, %71
  br i1 %73, label %82, label %74

74:                                               ; preds = %74, %68
  %75 = phi i32 [ %80, %74 ], [ 0, %68 ]
  %76 = getelementptr inbounds i8, ptr %2, i32 %75
  %77 = load i8, ptr %76, align 1, !tbaa !5, !alias.scope !68, !noalias !65
  %78 = zext i8 %77 to i32
  %79 = tail call i32 @fputc(i32 noundef %78, ptr noundef nonnull %0) #20, !noalias !68
  %80 = add nuw i32 %75, 1
  %81 = icmp eq i32 %80, %3
  br i1 %81, label %82, label %74, !llvm.loop !45

82:                                               ; preds = %74, %68
  %83 = add i32 %31, %69
  %84 = add i32 %83, %48
  br i1 %29, label %95, label %85

85:                                               ; preds = %82
  %86 = icmp sgt i32 %37, 0
  br i1 %86, label %87, label %92

87:                                               ; preds = %87, %85
  %88 = phi i32 [ %90, %87 ], [ 0, %85 ]
  %89 = tail call i32 @fputc(i32 noundef 32, ptr noundef nonnull %0) #20
  %90 = add nuw nsw i32 %88, 1
  %91 = icmp eq i32 %90, %37
  br i1 %91, label %92, label %87, !llvm.loop !52

92:                                               ; preds = %87, %85
  %93 = tail call noundef i32 @llvm.smax.i32(i32 %37, i32 0)
  %94 = add nsw i32 %84, %93
  br label %95

95:                                               ; preds = %92, %82
  %96 = phi i32 [ %94, %92 ], [ %84, %82 ]
  ret i32 %96
}

; Function Attrs: nounwind optsize
define internal fastcc void @sink(ptr noundef %0, i32 noundef %1, i32 noundef %2, i32 noundef %3, ptr nocapture noundef readonly %4) unnamed_addr #2 {
  %6 = shl i32 %1, 1
  %7 = or disjoint i32 %6, 1
  %8 = icmp ult i32 %7, %2
  br i1 %8, label %9, label %48

9:                                                ; preds = %5
  %10 = icmp eq i32 %3, 0
  br label %11

11:                                               ; preds = %44, %9
  %12 = phi i32 [ %7, %9 ], [ %46, %44 ]
  %13 = phi i32 [ %6, %9 ], [ %45, %44 ]
  %14 = phi i32 [ %1, %9 ], [ %26, %44 ]
  %15 = add nuw i32 %13, 2
  %16 = icmp ult i32 %15, %2
  br i1 %16, label %17, label %25

17:                                               ; preds = %11
  %18 = mul i32 %12, %3
  %19 = getelementptr inbounds i8, ptr %0, i32 %18
  %20 = mul i32 %15, %3
  %21 = getelementptr inbounds i8, ptr %0, i32 %20
  %22 = tail call i32 %4(ptr noundef %19, ptr noundef %21) #21
  %23 = icmp slt i32 %22, 0
  %24 = select i1 %23, i32 %15, i32 %12
  br label %25

25:                                               ; preds = %17, %11
  %26 = phi i32 [ %12, %11 ], [ %24, %17 ]
  %27 = mul i32 %14, %3
  %28 = getelementptr inbounds i8, ptr %0, i32 %27
  %29 = mul i32 %26, %3
  %30 = getelementptr inbounds i8, ptr %0, i32 %29
  %31 = tail call i32 %4(ptr noundef %28, ptr noundef %30) #21
  %32 = icmp sgt i32 %31, -1
  br i1 %32, label %48, label %33

33:                                               ; preds = %25
  br i1 %10, label %44, label %34

34:                                               ; preds = %34, %33
  %35 = phi ptr [ %41, %34 ], [ %28, %33 ]
  %36 = phi i32 [ %38, %34 ], [ %3, %33 ]
  %37 = phi ptr [ %42, %34 ], [ %30, %33 ]
  %38 = add i32 %36, -1
  %39 = load i8, ptr %35, align 1, !tbaa !5
  %40 = load i8, ptr %37, align 1, !tbaa !5
  %41 = getelementptr inbounds i8, ptr %35, i32 1
  store i8 %40, ptr %35, align 1, !tbaa !5
  %42 = getelementptr inbounds i8, ptr %37, i32 1
  store i8 %39, ptr %37, align 1, !tbaa !5
  %43 = icmp eq i32 %38, 0
  br i1 %43, label %44, label %34, !llvm.loop !47

44:                                               ; preds = %34, %33
  %45 = shl i32 %26, 1
  %46 = or disjoint i32 %45, 1
  %47 = icmp ult i32 %46, %2
  br i1 %47, label %11, label %48, !llvm.loop !70

48:                                               ; preds = %44, %25, %5
  ret void
}

; Function Attrs: nounwind optsize
define internal fastcc void @merge_sort(ptr noundef %0, i32 noundef %1, i32 noundef %2, ptr noundef %3, ptr noundef %4) unnamed_addr #2 {
  %6 = icmp ult i32 %1, 2
  br i1 %6, label %85, label %7

7:                                                ; preds = %5
  %8 = lshr i32 %1, 1
  tail call fastcc void @merge_sort(ptr noundef %0, i32 noundef %8, i32 noundef %2, ptr noundef %3, ptr noundef %4) #20
  %9 = mul i32 %8, %2
  %10 = getelementptr inbounds i8, ptr %0, i32 %9
  %11 = sub i32 %1, %8
  tail call fastcc void @merge_sort(ptr noundef %10, i32 noundef %11, i32 noundef %2, ptr noundef %3, ptr noundef %4) #20
  %12 = icmp eq i32 %9, 0
  br i1 %12, label %22, label %13

13:                                               ; preds = %13, %7
  %14 = phi ptr [ %18, %13 ], [ %0, %7 ]
  %15 = phi ptr [ %20, %13 ], [ %4, %7 ]
  %16 = phi i32 [ %17, %13 ], [ %9, %7 ]
  %17 = add i32 %16, -1
  %18 = getelementptr inbounds i8, ptr %14, i32 1
  %19 = load i8, ptr %14, align 1, !tbaa !5, !alias.scope !71, !noalias !74
  %20 = getelementptr inbounds i8, ptr %15, i32 1
  store i8 %19, ptr %15, align 1, !tbaa !5, !alias.scope !74, !noalias !71
  %21 = icmp eq i32 %17, 0
  br i1 %21, label %22, label %13, !llvm.loop !76

22:                                               ; preds = %13, %7
  %23 = icmp eq i32 %11, 0
  br i1 %23, label %71, label %24

24:                                               ; preds = %22
  %25 = icmp eq i32 %2, 0
  br label %26

26:                                               ; preds = %60, %24
  %27 = phi ptr [ %0, %24 ], [ %65, %60 ]
  %28 = phi ptr [ %4, %24 ], [ %64, %60 ]
  %29 = phi i32 [ %11, %24 ], [ %63, %60 ]
  %30 = phi ptr [ %10, %24 ], [ %62, %60 ]
  %31 = phi i32 [ %8, %24 ], [ %61, %60 ]
  %32 = tail call i32 %3(ptr noundef %28, ptr noundef %30) #21
  %33 = icmp slt i32 %32, 1
  br i1 %33, label %34, label %47

34:                                               ; preds = %26
  br i1 %25, label %44, label %35

35:                                               ; preds = %35, %34
  %36 = phi ptr [ %40, %35 ], [ %28, %34 ]
  %37 = phi ptr [ %42, %35 ], [ %27, %34 ]
  %38 = phi i32 [ %39, %35 ], [ %2, %34 ]
  %39 = add i32 %38, -1
  %40 = getelementptr inbounds i8, ptr %36, i32 1
  %41 = load i8, ptr %36, align 1, !tbaa !5, !alias.scope !77, !noalias !80
  %42 = getelementptr inbounds i8, ptr %37, i32 1
  store i8 %41, ptr %37, align 1, !tbaa !5, !alias.scope !80, !noalias !77
  %43 = icmp eq i32 %39, 0
  br i1 %43, label %44, label %35, !llvm.loop !76

44:                                               ; preds = %35, %34
  %45 = getelementptr inbounds i8, ptr %28, i32 %2
  %46 = add nsw i32 %31, -1
  br label %60

47:                                               ; preds = %26
  br i1 %25, label %57, label %48

48:                                               ; preds = %48, %47
  %49 = phi ptr [ %53, %48 ], [ %30, %47 ]
  %50 = phi ptr [ %55, %48 ], [ %27, %47 ]
  %51 = phi i32 [ %52, %48 ], [ %2, %47 ]
  %52 = add i32 %51, -1
  %53 = getelementptr inbounds i8, ptr %49, i32 1
  %54 = load i8, ptr %49, align 1, !tbaa !5, !alias.scope !82, !noalias !85
  %55 = getelementptr inbounds i8, ptr %50, i32 1
  store i8 %54, ptr %50, align 1, !tbaa !5, !alias.scope !85, !noalias !82
  %56 = icmp eq i32 %52, 0
  br i1 %56, label %57, label %48, !llvm.loop !76

57:                                               ; preds = %48, %47
  %58 = getelementptr inbounds i8, ptr %30, i32 %2
  %59 = add i32 %29, -1
  br label %60

60:                                               ; preds = %57, %44
  %61 = phi i32 [ %46, %44 ], [ %31, %57 ]
  %62 = phi ptr [ %30, %44 ], [ %58, %57 ]
  %63 = phi i32 [ %29, %44 ], [ %59, %57 ]
  %64 = phi ptr [ %45, %44 ], [ %28, %57 ]
  %65 = getelementptr inbounds i8, ptr %27, i32 %2
  %66 = icmp ne i32 %61, 0
  %67 = icmp ne i32 %63, 0
  %68 = select i1 %66, i1 %67, i1 false
  br i1 %68, label %26, label %69, !llvm.loop !87

69:                                               ; preds = %60
  %70 = mul i32 %61, %2
  br label %71

71:                                               ; preds = %69, %22
  %72 = phi i32 [ %70, %69 ], [ %9, %22 ]
  %73 = phi ptr [ %64, %69 ], [ %4, %22 ]
  %74 = phi ptr [ %65, %69 ], [ %0, %22 ]
  %75 = icmp eq i32 %72, 0
  br i1 %75, label %85, label %76

76:                                               ; preds = %76, %71
  %77 = phi ptr [ %81, %76 ], [ %73, %71 ]
  %78 = phi ptr [ %83, %76 ], [ %74, %71 ]
  %79 = phi i32 [ %80, %76 ], [ %72, %71 ]
  %80 = add i32 %79, -1
  %81 = getelementptr inbounds i8, ptr %77, i32 1
  %82 = load i8, ptr %77, align 1, !tbaa !5, !alias.scope !88, !noalias !91
  %83 = getelementptr inbounds i8, ptr %78, i32 1
  store i8 %82, ptr %78, align 1, !tbaa !5, !alias.scope !91, !noalias !88
  %84 = icmp eq i32 %80, 0
  br i1 %84, label %85, label %76, !llvm.loop !76

85:                                               ; preds = %76, %71, %5
  ret void
}

; Function Attrs: nounwind optsize
define internal ptr @strndup(ptr nocapture noundef readonly %0, i32 noundef %1) local_unnamed_addr #2 {
  %3 = icmp eq i32 %1, 0
  br i1 %3, label %12, label %4

4:                                                ; preds = %9, %2
  %5 = phi i32 [ %10, %9 ], [ 0, %2 ]
  %6 = getelementptr inbounds i8, ptr %0, i32 %5
  %7 = load i8, ptr %6, align 1, !tbaa !5
  %8 = icmp eq i8 %7, 0
  br i1 %8, label %12, label %9

9:                                                ; preds = %4
  %10 = add nuw i32 %5, 1
  %11 = icmp eq i32 %10, %1
  br i1 %11, label %12, label %4, !llvm.loop !50

12:                                               ; preds = %9, %4, %2
  %13 = phi i32 [ 0, %2 ], [ %5, %4 ], [ %1, %9 ]
  %14 = add i32 %13, 1
  %15 = tail call ptr @malloc(i32 noundef %14) #21
  %16 = icmp eq ptr %15, null
  br i1 %16, label %30, label %17

17:                                               ; preds = %12
  %18 = icmp eq i32 %13, 0
  br i1 %18, label %28, label %19

19:                                               ; preds = %19, %17
  %20 = phi ptr [ %24, %19 ], [ %0, %17 ]
  %21 = phi ptr [ %26, %19 ], [ %15, %17 ]
  %22 = phi i32 [ %23, %19 ], [ %13, %17 ]
  %23 = add i32 %22, -1
  %24 = getelementptr inbounds i8, ptr %20, i32 1
  %25 = load i8, ptr %20, align 1, !tbaa !5, !alias.scope !93, !noalias !96
  %26 = getelementptr inbounds i8, ptr %21, i32 1
  store i8 %25, ptr %21, align 1, !tbaa !5, !alias.scope !96, !noalias !93
  %27 = icmp eq i32 %23, 0
  br i1 %27, label %28, label %19, !llvm.loop !76

28:                                               ; preds = %19, %17
  %29 = getelementptr inbounds i8, ptr %15, i32 %13
  store i8 0, ptr %29, align 1, !tbaa !5
  br label %30

30:                                               ; preds = %28, %12
  ret ptr %15
}

; Function Attrs: nounwind optsize
define internal i32 @fgetc(ptr nocapture noundef %0) local_unnamed_addr #2 {
  %2 = load i8, ptr %0, align 4, !tbaa !38
  %3 = icmp eq i8 %2, 0
  br i1 %3, label %4, label %20

4:                                                ; preds = %1
  %5 = getelementptr inbounds i8, ptr %0, i32 2
  %6 = load i8, ptr %5, align 2, !tbaa !98
  %7 = icmp eq i8 %6, 0
  br i1 %7, label %12, label %8

8:                                                ; preds = %4
  store i8 0, ptr %5, align 2, !tbaa !98
  %9 = getelementptr inbounds i8, ptr %0, i32 3
  %10 = load i8, ptr %9, align 1, !tbaa !99
  %11 = zext i8 %10 to i32
  br label %20

12:                                               ; preds = %4
  %13 = getelementptr inbounds i8, ptr %0, i32 1
  %14 = load i8, ptr %13, align 1, !tbaa !100
  %15 = icmp eq i8 %14, 0
  br i1 %15, label %16, label %20

16:                                               ; preds = %12
  %17 = tail call i32 @getchar() #21
  %18 = icmp eq i32 %17, -1
  br i1 %18, label %19, label %20

19:                                               ; preds = %16
  store i8 1, ptr %13, align 1, !tbaa !100
  br label %20

20:                                               ; preds = %19, %16, %12, %8, %1
  %21 = phi i32 [ %11, %8 ], [ -1, %1 ], [ -1, %12 ], [ -1, %19 ], [ %17, %16 ]
  ret i32 %21
}

; Function Attrs: optsize
declare dso_local i32 @getchar() local_unnamed_addr #14

attributes #0 = { nounwind "no-trapping-math"="true" "stack-protector-buffer-size"="8" "target-cpu"="generic" "target-features"="+armv7-a,+dsp,+soft-float,-aes,-bf16,-d32,-dotprod,-fp-armv8,-fp-armv8d16,-fp-armv8d16sp,-fp-armv8sp,-fp16,-fp16fml,-fp64,-fpregs,-fullfp16,-mve,-mve.fp,-neon,-sha2,-thumb-mode,-vfp2,-vfp2sp,-vfp3,-vfp3d16,-vfp3d16sp,-vfp3sp,-vfp4,-vfp4d16,-vfp4d16sp,-vfp4sp" "use-soft-float"="true" }
attributes #1 = { nocallback nofree nosync nounwind willreturn memory(argmem: readwrite) }
attributes #2 = { nounwind optsize "no-builtins" "no-jump-tables"="true" "no-trapping-math"="true" "stack-protector-buffer-size"="8" "target-cpu"="generic" "target-features"="+armv7-a,+dsp,+soft-float,-aes,-bf16,-d32,-dotprod,-fp-armv8,-fp-armv8d16,-fp-armv8d16sp,-fp-armv8sp,-fp16,-fp16fml,-fp64,-fpregs,-fullfp16,-mve,-mve.fp,-neon,-sha2,-thumb-mode,-vfp2,-vfp2sp,-vfp3,-vfp3d16,-vfp3d16sp,-vfp3sp,-vfp4,-vfp4d16,-vfp4d16sp,-vfp4sp" "use-soft-float"="true" }
attributes #3 = { mustprogress nofree norecurse nosync nounwind optsize willreturn memory(none) "no-builtins" "no-jump-tables"="true" "no-trapping-math"="true" "stack-protector-buffer-size"="8" "target-cpu"="generic" "target-features"="+armv7-a,+dsp,+soft-float,-aes,-bf16,-d32,-dotprod,-fp-armv8,-fp-armv8d16,-fp-armv8d16sp,-fp-armv8sp,-fp16,-fp16fml,-fp64,-fpregs,-fullfp16,-mve,-mve.fp,-neon,-sha2,-thumb-mode,-vfp2,-vfp2sp,-vfp3,-vfp3d16,-vfp3d16sp,-vfp3sp,-vfp4,-vfp4d16,-vfp4d16sp,-vfp4sp" "use-soft-float"="true" }
attributes #4 = { mustprogress nofree nounwind willreturn allockind("alloc,zeroed") allocsize(0,1) memory(inaccessiblemem: readwrite) "alloc-family"="malloc" "no-trapping-math"="true" "stack-protector-buffer-size"="8" "target-cpu"="generic" "target-features"="+armv7-a,+dsp,+soft-float,-aes,-bf16,-d32,-dotprod,-fp-armv8,-fp-armv8d16,-fp-armv8d16sp,-fp-armv8sp,-fp16,-fp16fml,-fp64,-fpregs,-fullfp16,-mve,-mve.fp,-neon,-sha2,-thumb-mode,-vfp2,-vfp2sp,-vfp3,-vfp3d16,-vfp3d16sp,-vfp3sp,-vfp4,-vfp4d16,-vfp4d16sp,-vfp4sp" "use-soft-float"="true" }
attributes #5 = { noreturn nounwind "no-trapping-math"="true" "stack-protector-buffer-size"="8" "target-cpu"="generic" "target-features"="+armv7-a,+dsp,+soft-float,-aes,-bf16,-d32,-dotprod,-fp-armv8,-fp-armv8d16,-fp-armv8d16sp,-fp-armv8sp,-fp16,-fp16fml,-fp64,-fpregs,-fullfp16,-mve,-mve.fp,-neon,-sha2,-thumb-mode,-vfp2,-vfp2sp,-vfp3,-vfp3d16,-vfp3d16sp,-vfp3sp,-vfp4,-vfp4d16,-vfp4d16sp,-vfp4sp" "use-soft-float"="true" }
attributes #6 = { nofree norecurse nosync nounwind optsize memory(read, inaccessiblemem: none) "no-builtins" "no-jump-tables"="true" "no-trapping-math"="true" "stack-protector-buffer-size"="8" "target-cpu"="generic" "target-features"="+armv7-a,+dsp,+soft-float,-aes,-bf16,-d32,-dotprod,-fp-armv8,-fp-armv8d16,-fp-armv8d16sp,-fp-armv8sp,-fp16,-fp16fml,-fp64,-fpregs,-fullfp16,-mve,-mve.fp,-neon,-sha2,-thumb-mode,-vfp2,-vfp2sp,-vfp3,-vfp3d16,-vfp3d16sp,-vfp3sp,-vfp4,-vfp4d16,-vfp4d16sp,-vfp4sp" "use-soft-float"="true" }
attributes #7 = { nocallback nofree nounwind willreturn memory(argmem: readwrite) }
attributes #8 = { mustprogress nounwind willreturn allockind("free") memory(argmem: readwrite, inaccessiblemem: readwrite) "alloc-family"="malloc" "no-trapping-math"="true" "stack-protector-buffer-size"="8" "target-cpu"="generic" "target-features"="+armv7-a,+dsp,+soft-float,-aes,-bf16,-d32,-dotprod,-fp-armv8,-fp-armv8d16,-fp-armv8d16sp,-fp-armv8sp,-fp16,-fp16fml,-fp64,-fpregs,-fullfp16,-mve,-mve.fp,-neon,-sha2,-thumb-mode,-vfp2,-vfp2sp,-vfp3,-vfp3d16,-vfp3d16sp,-vfp3sp,-vfp4,-vfp4d16,-vfp4d16sp,-vfp4sp" "use-soft-float"="true" }
attributes #9 = { mustprogress nofree nounwind willreturn allockind("alloc,uninitialized") allocsize(0) memory(inaccessiblemem: readwrite) "alloc-family"="malloc" "no-trapping-math"="true" "stack-protector-buffer-size"="8" "target-cpu"="generic" "target-features"="+armv7-a,+dsp,+soft-float,-aes,-bf16,-d32,-dotprod,-fp-armv8,-fp-armv8d16,-fp-armv8d16sp,-fp-armv8sp,-fp16,-fp16fml,-fp64,-fpregs,-fullfp16,-mve,-mve.fp,-neon,-sha2,-thumb-mode,-vfp2,-vfp2sp,-vfp3,-vfp3d16,-vfp3d16sp,-vfp3sp,-vfp4,-vfp4d16,-vfp4d16sp,-vfp4sp" "use-soft-float"="true" }
attributes #10 = { mustprogress nofree nounwind willreturn memory(read, inaccessiblemem: none) "no-trapping-math"="true" "stack-protector-buffer-size"="8" "target-cpu"="generic" "target-features"="+armv7-a,+dsp,+soft-float,-aes,-bf16,-d32,-dotprod,-fp-armv8,-fp-armv8d16,-fp-armv8d16sp,-fp-armv8sp,-fp16,-fp16fml,-fp64,-fpregs,-fullfp16,-mve,-mve.fp,-neon,-sha2,-thumb-mode,-vfp2,-vfp2sp,-vfp3,-vfp3d16,-vfp3d16sp,-vfp3sp,-vfp4,-vfp4d16,-vfp4d16sp,-vfp4sp" "use-soft-float"="true" }
attributes #11 = { nocallback nofree nosync nounwind speculatable willreturn memory(none) }
attributes #12 = { nocallback nofree nounwind willreturn memory(argmem: write) }
attributes #13 = { nofree nounwind "no-trapping-math"="true" "stack-protector-buffer-size"="8" "target-cpu"="generic" "target-features"="+armv7-a,+dsp,+soft-float,-aes,-bf16,-d32,-dotprod,-fp-armv8,-fp-armv8d16,-fp-armv8d16sp,-fp-armv8sp,-fp16,-fp16fml,-fp64,-fpregs,-fullfp16,-mve,-mve.fp,-neon,-sha2,-thumb-mode,-vfp2,-vfp2sp,-vfp3,-vfp3d16,-vfp3d16sp,-vfp3sp,-vfp4,-vfp4d16,-vfp4d16sp,-vfp4sp" "use-soft-float"="true" }
attributes #14 = { optsize "no-builtins" "no-trapping-math"="true" "stack-protector-buffer-size"="8" "target-cpu"="generic" "target-features"="+armv7-a,+dsp,+soft-float,-aes,-bf16,-d32,-dotprod,-fp-armv8,-fp-armv8d16,-fp-armv8d16sp,-fp-armv8sp,-fp16,-fp16fml,-fp64,-fpregs,-fullfp16,-mve,-mve.fp,-neon,-sha2,-thumb-mode,-vfp2,-vfp2sp,-vfp3,-vfp3d16,-vfp3d16sp,-vfp3sp,-vfp4,-vfp4d16,-vfp4d16sp,-vfp4sp" "use-soft-float"="true" }
attributes #15 = { nounwind }
attributes #16 = { nounwind willreturn memory(read) }
attributes #17 = { allocsize(0,1) }
attributes #18 = { noreturn nounwind }
attributes #19 = { allocsize(0) }
attributes #20 = { nobuiltin optsize "no-builtins" }
attributes #21 = { nobuiltin nounwind optsize "no-builtins" }

!llvm.ident = !{!0, !0, !0, !0, !0}
!llvm.module.flags = !{!1, !2, !3, !4}

!0 = !{!"Debian clang version 19.1.7 (3~deb12u1)"}
!1 = !{i32 7, !"Dwarf Version", i32 5}
!2 = !{i32 2, !"Debug Info Version", i32 3}
!3 = !{i32 1, !"wchar_size", i32 4}
!4 = !{i32 1, !"min_enum_size", i32 4}
!5 = !{!6, !6, i64 0}
!6 = !{!"omnipotent char", !7, i64 0}
!7 = !{!"Simple C/C++ TBAA"}
!8 = distinct !{!8, !9}
!9 = !{!"llvm.loop.mustprogress"}
!10 = distinct !{!10, !9}
!11 = distinct !{!11, !9}
!12 = !{!13, !14, i64 0}
!13 = !{!"entry", !14, i64 0, !15, i64 4, !15, i64 8, !15, i64 12}
!14 = !{!"any pointer", !6, i64 0}
!15 = !{!"int", !6, i64 0}
!16 = !{!13, !15, i64 4}
!17 = !{i64 0, i64 4, !18, i64 4, i64 4, !19, i64 8, i64 4, !19, i64 12, i64 4, !19}
!18 = !{!14, !14, i64 0}
!19 = !{!15, !15, i64 0}
!20 = distinct !{!20, !9}
!21 = distinct !{!21, !9}
!22 = !{!13, !15, i64 8}
!23 = !{!13, !15, i64 12}
!24 = distinct !{!24, !9}
!25 = distinct !{!25, !9}
!26 = distinct !{!26, !9}
!27 = distinct !{!27, !9}
!28 = distinct !{!28, !9}
!29 = distinct !{!29, !9}
!30 = distinct !{!30, !9}
!31 = distinct !{!31, !9}
!32 = distinct !{!32, !9}
!33 = distinct !{!33, !9}
!34 = distinct !{!34, !9}
!35 = distinct !{!35, !9}
!36 = distinct !{!36, !9}
!37 = distinct !{!37, !9}
!38 = !{!39, !6, i64 0}
!39 = !{!"__stream", !6, i64 0, !6, i64 1, !6, i64 2, !6, i64 3, !14, i64 4, !15, i64 8}
!40 = !{!41}
!41 = distinct !{!41, !42, !"fwrite: %stream"}
!42 = distinct !{!42, !"fwrite"}
!43 = !{!44}
!44 = distinct !{!44, !42, !"fwrite: %from"}
!45 = distinct !{!45, !9}
!46 = distinct !{!46, !9}
!47 = distinct !{!47, !9}
!48 = distinct !{!48, !9}
!49 = distinct !{!49, !9}
!50 = distinct !{!50, !9}
!51 = distinct !{!51, !9}
!52 = distinct !{!52, !9}
!53 = !{!54}
!54 = distinct !{!54, !55, !"fwrite: %stream"}
!55 = distinct !{!55, !"fwrite"}
!56 = !{!57}
!57 = distinct !{!57, !55, !"fwrite: %from"}
!58 = !{!39, !15, i64 8}
!59 = !{!39, !14, i64 4}
!60 = !{!61}
!61 = distinct !{!61, !62, !"fwrite: %stream"}
!62 = distinct !{!62, !"fwrite"}
!63 = !{!64}
!64 = distinct !{!64, !62, !"fwrite: %from"}
!65 = !{!66}
!66 = distinct !{!66, !67, !"fwrite: %stream"}
!67 = distinct !{!67, !"fwrite"}
!68 = !{!69}
!69 = distinct !{!69, !67, !"fwrite: %from"}
!70 = distinct !{!70, !9}
!71 = !{!72}
!72 = distinct !{!72, !73, !"memcpy: %from"}
!73 = distinct !{!73, !"memcpy"}
!74 = !{!75}
!75 = distinct !{!75, !73, !"memcpy: %to"}
!76 = distinct !{!76, !9}
!77 = !{!78}
!78 = distinct !{!78, !79, !"memcpy: %from"}
!79 = distinct !{!79, !"memcpy"}
!80 = !{!81}
!81 = distinct !{!81, !79, !"memcpy: %to"}
!82 = !{!83}
!83 = distinct !{!83, !84, !"memcpy: %from"}
!84 = distinct !{!84, !"memcpy"}
!85 = !{!86}
!86 = distinct !{!86, !84, !"memcpy: %to"}
!87 = distinct !{!87, !9}
!88 = !{!89}
!89 = distinct !{!89, !90, !"memcpy: %from"}
!90 = distinct !{!90, !"memcpy"}
!91 = !{!92}
!92 = distinct !{!92, !90, !"memcpy: %to"}
!93 = !{!94}
!94 = distinct !{!94, !95, !"memcpy: %from"}
!95 = distinct !{!95, !"memcpy"}
!96 = !{!97}
!97 = distinct !{!97, !95, !"memcpy: %to"}
!98 = !{!39, !6, i64 2}
!99 = !{!39, !6, i64 3}
!100 = !{!39, !6, i64 1}
