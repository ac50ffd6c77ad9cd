source_filename = "main.c"
target datalayout = "e-m:e-p270:32:32-p271:32:32-p272:64:64-i64:64-i128:128-f80:128-n8:16:32:64-S128"
target triple = "x86_64-unknown-linux-gnu"

%struct.__stream = type { i8, i8, i8, i8, ptr, i64 }
%struct.entry = type { ptr, i32, i32, i32 }

@.str = private unnamed_addr constant [35 x i8] c"%u lines, %u words, %zu different\0A\00", align 1
@usual = internal unnamed_addr constant [9 x ptr] [ptr @.str.6, ptr @.str.7, ptr @.str.8, ptr @.str.9, ptr @.str.10, ptr @.str.11, ptr @.str.12, ptr @.str.13, ptr @.str.14], align 16
@.str.1 = private unnamed_addr constant [8 x i8] c"machine\00", align 1
@.str.2 = private unnamed_addr constant [13 x i8] c"machine: %s\0A\00", align 1
@.str.3 = private unnamed_addr constant [6 x i8] c"there\00", align 1
@.str.4 = private unnamed_addr constant [10 x i8] c"not there\00", align 1
@.str.5 = private unnamed_addr constant [15 x i8] c"from %s to %s\0A\00", align 1
@.str.6 = private unnamed_addr constant [4 x i8] c"the\00", align 1
@.str.7 = private unnamed_addr constant [4 x i8] c"and\00", align 1
@.str.8 = private unnamed_addr constant [3 x i8] c"of\00", align 1
@.str.9 = private unnamed_addr constant [2 x i8] c"a\00", align 1
@.str.10 = private unnamed_addr constant [3 x i8] c"to\00", align 1
@.str.11 = private unnamed_addr constant [3 x i8] c"in\00", align 1
@.str.12 = private unnamed_addr constant [3 x i8] c"is\00", align 1
@.str.13 = private unnamed_addr constant [3 x i8] c"it\00", align 1
@.str.14 = private unnamed_addr constant [5 x i8] c"that\00", align 1
@.str.15 = private unnamed_addr constant [32 x i8] c"%4u  %-14.14s first in line %u\0A\00", align 1
@.str.16 = private unnamed_addr constant [7 x i8] c"%2d%c \00", align 1
@.str.17 = private unnamed_addr constant [5 x i8] c" %u\0A\00", align 1
@.str.18 = private unnamed_addr constant [1 x i8] zeroinitializer, align 1
@.str.1.19 = private unnamed_addr constant [7 x i8] c"(null)\00", align 1
@.str.2.26 = private unnamed_addr constant [2 x i8] c"-\00", align 1
@.str.3.27 = private unnamed_addr constant [2 x i8] c"+\00", align 1
@.str.4.25 = private unnamed_addr constant [2 x i8] c" \00", align 1
@.str.5.32 = private unnamed_addr constant [3 x i8] c"0X\00", align 1
@.str.6.31 = private unnamed_addr constant [3 x i8] c"0x\00", align 1
@__streams = internal global [3 x %struct.__stream] [%struct.__stream zeroinitializer, %struct.__stream { i8 1, i8 0, i8 0, i8 0, ptr null, i64 0 }, %struct.__stream { i8 2, i8 0, i8 0, i8 0, ptr null, i64 0 }], align 16
@.str.8.30 = private unnamed_addr constant [17 x i8] c"0123456789ABCDEF\00", align 1
@.str.9.24 = private unnamed_addr constant [17 x i8] c"0123456789abcdef\00", align 1

; Function Attrs: nounwind uwtable
define dso_local range(i32 -99, 100) i32 @main() local_unnamed_addr #0 {
  %1 = alloca [12 x i32], align 16
  %2 = alloca [400 x i8], align 16
  %3 = alloca [24 x i8], align 16
  call void @llvm.lifetime.start.p0(i64 400, ptr nonnull %2) #15
  call void @llvm.lifetime.start.p0(i64 24, ptr nonnull %3) #15
  %4 = call ptr @fgets(ptr noundef nonnull %2, i32 noundef 400, ptr noundef nonnull @__streams)
  %5 = icmp eq ptr %4, null
  br i1 %5, label %190, label %9

6:                                                ; preds = %71
  %7 = call ptr @fgets(ptr noundef nonnull %2, i32 noundef 400, ptr noundef nonnull @__streams)
  %8 = icmp eq ptr %7, null
  br i1 %8, label %187, label %9, !llvm.loop !5

9:                                                ; preds = %6, %0
  %10 = phi i32 [ %15, %6 ], [ 0, %0 ]
  %11 = phi i32 [ %21, %6 ], [ 0, %0 ]
  %12 = phi i64 [ %19, %6 ], [ 0, %0 ]
  %13 = phi i64 [ %18, %6 ], [ 0, %0 ]
  %14 = phi ptr [ %17, %6 ], [ null, %0 ]
  %15 = add i32 %10, 1
  br label %16

16:                                               ; preds = %185, %9
  %17 = phi ptr [ %14, %9 ], [ %125, %185 ]
  %18 = phi i64 [ %13, %9 ], [ %126, %185 ]
  %19 = phi i64 [ %12, %9 ], [ %178, %185 ]
  %20 = phi ptr [ %2, %9 ], [ %72, %185 ]
  %21 = phi i32 [ %11, %9 ], [ %186, %185 ]
  %22 = load i8, ptr %20, align 1, !tbaa !8
  %23 = icmp eq i8 %22, 0
  br i1 %23, label %71, label %24

24:                                               ; preds = %16
  %25 = zext i8 %22 to i32
  %26 = call i32 @isalnum(i32 noundef %25) #16
  %27 = icmp eq i32 %26, 0
  br i1 %27, label %32, label %37

28:                                               ; preds = %32
  %29 = zext i8 %35 to i32
  %30 = call i32 @isalnum(i32 noundef %29) #16
  %31 = icmp eq i32 %30, 0
  br i1 %31, label %32, label %37, !llvm.loop !11

32:                                               ; preds = %28, %24
  %33 = phi ptr [ %34, %28 ], [ %20, %24 ]
  %34 = getelementptr inbounds i8, ptr %33, i64 1
  %35 = load i8, ptr %34, align 1, !tbaa !8
  %36 = icmp eq i8 %35, 0
  br i1 %36, label %71, label %28, !llvm.loop !11

37:                                               ; preds = %28, %24
  %38 = phi ptr [ %20, %24 ], [ %34, %28 ]
  br label %39

39:                                               ; preds = %66, %37
  %40 = phi ptr [ %69, %66 ], [ %38, %37 ]
  %41 = phi ptr [ %67, %66 ], [ %3, %37 ]
  %42 = phi i32 [ %68, %66 ], [ 24, %37 ]
  %43 = load i8, ptr %40, align 1, !tbaa !8
  %44 = zext i8 %43 to i32
  %45 = call i32 @isalnum(i32 noundef %44) #16
  %46 = icmp eq i32 %45, 0
  br i1 %46, label %47, label %56

47:                                               ; preds = %39
  %48 = icmp eq i8 %43, 39
  br i1 %48, label %49, label %56

49:                                               ; preds = %47
  %50 = getelementptr inbounds i8, ptr %40, i64 1
  %51 = load i8, ptr %50, align 1, !tbaa !8
  %52 = zext i8 %51 to i32
  %53 = call i32 @isalpha(i32 noundef %52) #16
  %54 = icmp ne i32 %53, 0
  %55 = zext i1 %54 to i32
  br label %56

56:                                               ; preds = %49, %47, %39
  %57 = phi i32 [ 1, %39 ], [ 0, %47 ], [ %55, %49 ]
  %58 = icmp eq i32 %57, 0
  br i1 %58, label %70, label %59

59:                                               ; preds = %56
  %60 = icmp sgt i32 %42, 1
  br i1 %60, label %61, label %66

61:                                               ; preds = %59
  %62 = call i32 @tolower(i32 noundef %44) #16
  %63 = trunc i32 %62 to i8
  %64 = getelementptr inbounds i8, ptr %41, i64 1
  store i8 %63, ptr %41, align 1, !tbaa !8
  %65 = add nsw i32 %42, -1
  br label %66

66:                                               ; preds = %61, %59
  %67 = phi ptr [ %64, %61 ], [ %41, %59 ]
  %68 = phi i32 [ %65, %61 ], [ %42, %59 ]
  %69 = getelementptr inbounds i8, ptr %40, i64 1
  br label %39, !llvm.loop !12

70:                                               ; preds = %56
  store i8 0, ptr %41, align 1, !tbaa !8
  br label %71

71:                                               ; preds = %70, %32, %16
  %72 = phi ptr [ %40, %70 ], [ null, %16 ], [ null, %32 ]
  %73 = icmp eq ptr %72, null
  br i1 %73, label %6, label %74

74:                                               ; preds = %71
  %75 = shl i64 %19, 2
  %76 = mul i64 %18, 3
  %77 = icmp ult i64 %75, %76
  br i1 %77, label %124, label %78

78:                                               ; preds = %74
  %79 = icmp eq i64 %18, 0
  %80 = shl i64 %18, 1
  %81 = select i1 %79, i64 16, i64 %80
  %82 = call ptr @calloc(i64 noundef %81, i64 noundef 24) #17
  %83 = icmp eq ptr %82, null
  br i1 %83, label %88, label %84

84:                                               ; preds = %78
  br i1 %79, label %123, label %85

85:                                               ; preds = %84
  %86 = add i64 %81, 4294967295
  %87 = add i64 %81, -1
  br label %89

88:                                               ; preds = %78
  call void @abort() #18
  unreachable

89:                                               ; preds = %120, %85
  %90 = phi i64 [ 0, %85 ], [ %121, %120 ]
  %91 = getelementptr inbounds %struct.entry, ptr %17, i64 %90
  %92 = load ptr, ptr %91, align 8, !tbaa !13
  %93 = icmp eq ptr %92, null
  br i1 %93, label %120, label %94

94:                                               ; preds = %89
  %95 = getelementptr inbounds i8, ptr %91, i64 8
  %96 = load i32, ptr %95, align 8, !tbaa !17
  %97 = zext i32 %96 to i64
  %98 = and i64 %86, %97
  br label %99

99:                                               ; preds = %116, %94
  %100 = phi i64 [ %98, %94 ], [ %118, %116 ]
  %101 = phi ptr [ undef, %94 ], [ %114, %116 ]
  %102 = getelementptr inbounds %struct.entry, ptr %82, i64 %100
  %103 = load ptr, ptr %102, align 8, !tbaa !13
  %104 = icmp eq ptr %103, null
  br i1 %104, label %113, label %105

105:                                              ; preds = %99
  %106 = getelementptr inbounds i8, ptr %102, i64 8
  %107 = load i32, ptr %106, align 8, !tbaa !17
  %108 = icmp eq i32 %107, %96
  br i1 %108, label %109, label %112

109:                                              ; preds = %105
  %110 = call i32 @strcmp(ptr noundef nonnull dereferenceable(1) %103, ptr noundef nonnull readonly dereferenceable(1) %92) #15
  %111 = icmp eq i32 %110, 0
  br i1 %111, label %113, label %112

112:                                              ; preds = %109, %105
  br label %113

113:                                              ; preds = %112, %109, %99
  %114 = phi ptr [ %101, %112 ], [ %102, %109 ], [ %102, %99 ]
  %115 = phi i1 [ true, %112 ], [ false, %109 ], [ false, %99 ]
  br i1 %115, label %116, label %119

116:                                              ; preds = %113
  %117 = add i64 %100, 1
  %118 = and i64 %117, %87
  br label %99, !llvm.loop !18

119:                                              ; preds = %113
  call void @llvm.memcpy.p0.p0.i64(ptr noundef nonnull align 8 dereferenceable(24) %114, ptr noundef nonnull align 8 dereferenceable(24) %91, i64 24, i1 false), !tbaa.struct !19
  br label %120

120:                                              ; preds = %119, %89
  %121 = add nuw i64 %90, 1
  %122 = icmp eq i64 %121, %18
  br i1 %122, label %123, label %89, !llvm.loop !22

123:                                              ; preds = %120, %84
  call void @free(ptr noundef %17)
  br label %124

124:                                              ; preds = %123, %74
  %125 = phi ptr [ %17, %74 ], [ %82, %123 ]
  %126 = phi i64 [ %18, %74 ], [ %81, %123 ]
  %127 = load i8, ptr %3, align 16, !tbaa !8
  %128 = icmp eq i8 %127, 0
  br i1 %128, label %139, label %129

129:                                              ; preds = %129, %124
  %130 = phi i8 [ %137, %129 ], [ %127, %124 ]
  %131 = phi i32 [ %135, %129 ], [ -2128831035, %124 ]
  %132 = phi ptr [ %136, %129 ], [ %3, %124 ]
  %133 = zext i8 %130 to i32
  %134 = xor i32 %131, %133
  %135 = mul i32 %134, 16777619
  %136 = getelementptr inbounds i8, ptr %132, i64 1
  %137 = load i8, ptr %136, align 1, !tbaa !8
  %138 = icmp eq i8 %137, 0
  br i1 %138, label %139, label %129, !llvm.loop !23

139:                                              ; preds = %129, %124
  %140 = phi i32 [ -2128831035, %124 ], [ %135, %129 ]
  %141 = lshr i32 %140, 15
  %142 = xor i32 %141, %140
  %143 = zext i32 %142 to i64
  %144 = add i64 %126, 4294967295
  %145 = and i64 %144, %143
  %146 = add i64 %126, -1
  br label %147

147:                                              ; preds = %164, %139
  %148 = phi i64 [ %145, %139 ], [ %166, %164 ]
  %149 = phi ptr [ undef, %139 ], [ %162, %164 ]
  %150 = getelementptr inbounds %struct.entry, ptr %125, i64 %148
  %151 = load ptr, ptr %150, align 8, !tbaa !13
  %152 = icmp eq ptr %151, null
  br i1 %152, label %161, label %153

153:                                              ; preds = %147
  %154 = getelementptr inbounds i8, ptr %150, i64 8
  %155 = load i32, ptr %154, align 8, !tbaa !17
  %156 = icmp eq i32 %155, %142
  br i1 %156, label %157, label %160

157:                                              ; preds = %153
  %158 = call i32 @strcmp(ptr noundef nonnull dereferenceable(1) %151, ptr noundef nonnull readonly dereferenceable(1) %3) #15
  %159 = icmp eq i32 %158, 0
  br i1 %159, label %161, label %160

160:                                              ; preds = %157, %153
  br label %161

161:                                              ; preds = %160, %157, %147
  %162 = phi ptr [ %149, %160 ], [ %150, %157 ], [ %150, %147 ]
  %163 = phi i1 [ true, %160 ], [ false, %157 ], [ false, %147 ]
  br i1 %163, label %164, label %167

164:                                              ; preds = %161
  %165 = add i64 %148, 1
  %166 = and i64 %165, %146
  br label %147, !llvm.loop !24

167:                                              ; preds = %161
  %168 = load ptr, ptr %162, align 8, !tbaa !13
  %169 = icmp eq ptr %168, null
  br i1 %169, label %170, label %177

170:                                              ; preds = %167
  %171 = call ptr @strdup(ptr noundef nonnull readonly %3) #15
  store ptr %171, ptr %162, align 8, !tbaa !13
  %172 = icmp eq ptr %171, null
  br i1 %172, label %173, label %174

173:                                              ; preds = %170
  call void @abort() #18
  unreachable

174:                                              ; preds = %170
  %175 = getelementptr inbounds i8, ptr %162, i64 8
  store i32 %142, ptr %175, align 8, !tbaa !17
  %176 = add i64 %19, 1
  br label %177

177:                                              ; preds = %174, %167
  %178 = phi i64 [ %176, %174 ], [ %19, %167 ]
  %179 = getelementptr inbounds i8, ptr %162, i64 12
  %180 = load i32, ptr %179, align 4, !tbaa !25
  %181 = add i32 %180, 1
  store i32 %181, ptr %179, align 4, !tbaa !25
  %182 = icmp eq i32 %180, 0
  br i1 %182, label %183, label %185

183:                                              ; preds = %177
  %184 = getelementptr inbounds i8, ptr %162, i64 16
  store i32 %15, ptr %184, align 8, !tbaa !26
  br label %185

185:                                              ; preds = %183, %177
  %186 = add i32 %21, 1
  br label %16, !llvm.loop !27

187:                                              ; preds = %6
  %188 = zext i32 %15 to i64
  %189 = zext i32 %21 to i64
  br label %190

190:                                              ; preds = %187, %0
  %191 = phi ptr [ null, %0 ], [ %17, %187 ]
  %192 = phi i64 [ 0, %0 ], [ %18, %187 ]
  %193 = phi i64 [ 0, %0 ], [ %19, %187 ]
  %194 = phi i64 [ 0, %0 ], [ %189, %187 ]
  %195 = phi i64 [ 0, %0 ], [ %188, %187 ]
  %196 = call i32 @__print_unsigned(ptr nonnull getelementptr inbounds (i8, ptr @__streams, i64 24), i64 %195, i32 10, i32 0, i32 0, i32 -1) #15
  %197 = call i32 @__print_text(ptr nonnull getelementptr inbounds (i8, ptr @__streams, i64 24), ptr nonnull getelementptr inbounds (i8, ptr @.str, i64 2), i64 8) #15
  %198 = call i32 @__print_unsigned(ptr nonnull getelementptr inbounds (i8, ptr @__streams, i64 24), i64 %194, i32 10, i32 0, i32 0, i32 -1) #15
  %199 = call i32 @__print_text(ptr nonnull getelementptr inbounds (i8, ptr @__streams, i64 24), ptr nonnull getelementptr inbounds (i8, ptr @.str, i64 12), i64 8) #15
  %200 = call i32 @__print_unsigned(ptr nonnull getelementptr inbounds (i8, ptr @__streams, i64 24), i64 %193, i32 10, i32 0, i32 0, i32 -1) #15
  %201 = call i32 @__print_text(ptr nonnull getelementptr inbounds (i8, ptr @__streams, i64 24), ptr nonnull getelementptr inbounds (i8, ptr @.str, i64 23), i64 11) #15
  %202 = icmp eq i64 %192, 0
  %203 = add i64 %192, 4294967295
  %204 = add i64 %192, -1
  %205 = ptrtoint ptr %191 to i64
  br label %293

206:                                              ; preds = %373
  %207 = shl i64 %374, 3
  %208 = call ptr @malloc(i64 noundef %207) #19
  %209 = icmp eq ptr %208, null
  br i1 %209, label %211, label %210

210:                                              ; preds = %206
  br i1 %202, label %225, label %212

211:                                              ; preds = %206
  call void @abort() #18
  unreachable

212:                                              ; preds = %221, %210
  %213 = phi i64 [ %223, %221 ], [ 0, %210 ]
  %214 = phi i64 [ %222, %221 ], [ 0, %210 ]
  %215 = getelementptr inbounds %struct.entry, ptr %191, i64 %213
  %216 = load ptr, ptr %215, align 8, !tbaa !13
  %217 = icmp eq ptr %216, null
  br i1 %217, label %221, label %218

218:                                              ; preds = %212
  %219 = add i64 %214, 1
  %220 = getelementptr inbounds ptr, ptr %208, i64 %214
  store ptr %215, ptr %220, align 8, !tbaa !20
  br label %221

221:                                              ; preds = %218, %212
  %222 = phi i64 [ %219, %218 ], [ %214, %212 ]
  %223 = add nuw i64 %213, 1
  %224 = icmp eq i64 %223, %192
  br i1 %224, label %225, label %212, !llvm.loop !28

225:                                              ; preds = %221, %210
  call void @qsort(ptr noundef nonnull %208, i64 noundef %374, i64 noundef 8, ptr noundef nonnull @by_count) #15
  %226 = call i64 @llvm.umin.i64(i64 %374, i64 15)
  %227 = icmp eq i64 %374, 0
  br i1 %227, label %248, label %228

228:                                              ; preds = %228, %225
  %229 = phi i64 [ %245, %228 ], [ 0, %225 ]
  %230 = getelementptr inbounds ptr, ptr %208, i64 %229
  %231 = load ptr, ptr %230, align 8, !tbaa !20
  %232 = getelementptr inbounds i8, ptr %231, i64 12
  %233 = load i32, ptr %232, align 4, !tbaa !25
  %234 = load ptr, ptr %231, align 8, !tbaa !13
  %235 = getelementptr inbounds i8, ptr %231, i64 16
  %236 = load i32, ptr %235, align 8, !tbaa !26
  %237 = zext i32 %233 to i64
  %238 = call i32 @__print_unsigned(ptr nonnull getelementptr inbounds (i8, ptr @__streams, i64 24), i64 %237, i32 10, i32 0, i32 4, i32 -1) #15
  %239 = call i32 @__print_text(ptr nonnull getelementptr inbounds (i8, ptr @__streams, i64 24), ptr nonnull getelementptr inbounds (i8, ptr @.str.15, i64 3), i64 2) #15
  %240 = call i32 @__print_string(ptr nonnull getelementptr inbounds (i8, ptr @__streams, i64 24), ptr %234, i32 1, i32 14, i32 14) #15
  %241 = call i32 @__print_text(ptr nonnull getelementptr inbounds (i8, ptr @__streams, i64 24), ptr nonnull getelementptr inbounds (i8, ptr @.str.15, i64 13), i64 15) #15
  %242 = zext i32 %236 to i64
  %243 = call i32 @__print_unsigned(ptr nonnull getelementptr inbounds (i8, ptr @__streams, i64 24), i64 %242, i32 10, i32 0, i32 0, i32 -1) #15
  %244 = call i32 @__print_text(ptr nonnull getelementptr inbounds (i8, ptr @__streams, i64 24), ptr nonnull getelementptr inbounds (i8, ptr @.str.15, i64 30), i64 1) #15
  %245 = add nuw nsw i64 %229, 1
  %246 = icmp eq i64 %245, %226
  br i1 %246, label %247, label %228, !llvm.loop !29

247:                                              ; preds = %228
  call void @llvm.lifetime.start.p0(i64 48, ptr nonnull %1) #15
  call void @llvm.memset.p0.i64(ptr noundef nonnull align 16 dereferenceable(48) %1, i8 0, i64 48, i1 false)
  br i1 %227, label %263, label %249

248:                                              ; preds = %225
  call void @llvm.lifetime.start.p0(i64 48, ptr nonnull %1) #15
  call void @llvm.memset.p0.i64(ptr noundef nonnull align 16 dereferenceable(48) %1, i8 0, i64 48, i1 false)
  br label %263

249:                                              ; preds = %249, %247
  %250 = phi i64 [ %261, %249 ], [ 0, %247 ]
  %251 = getelementptr inbounds ptr, ptr %208, i64 %250
  %252 = load ptr, ptr %251, align 8, !tbaa !20
  %253 = load ptr, ptr %252, align 8, !tbaa !13
  %254 = call i64 @strlen(ptr noundef nonnull dereferenceable(1) %253) #15
  %255 = getelementptr inbounds i8, ptr %252, i64 12
  %256 = load i32, ptr %255, align 4, !tbaa !25
  %257 = call i64 @llvm.umin.i64(i64 %254, i64 11)
  %258 = getelementptr inbounds [12 x i32], ptr %1, i64 0, i64 %257
  %259 = load i32, ptr %258, align 4, !tbaa !21
  %260 = add i32 %259, %256
  store i32 %260, ptr %258, align 4, !tbaa !21
  %261 = add nuw i64 %250, 1
  %262 = icmp eq i64 %261, %374
  br i1 %262, label %263, label %249, !llvm.loop !30

263:                                              ; preds = %249, %248, %247
  br label %264

264:                                              ; preds = %274, %263
  %265 = phi i64 [ %279, %274 ], [ 1, %263 ]
  %266 = icmp eq i64 %265, 11
  %267 = select i1 %266, i32 43, i32 32
  %268 = call i32 @__print_signed(ptr nonnull getelementptr inbounds (i8, ptr @__streams, i64 24), i64 %265, i32 0, i32 2, i32 -1) #15
  %269 = call i32 @__print_character(ptr nonnull getelementptr inbounds (i8, ptr @__streams, i64 24), i32 %267, i32 0, i32 0) #15
  %270 = call i32 @__print_text(ptr nonnull getelementptr inbounds (i8, ptr @__streams, i64 24), ptr nonnull getelementptr inbounds (i8, ptr @.str.16, i64 5), i64 1) #15
  %271 = getelementptr inbounds [12 x i32], ptr %1, i64 0, i64 %265
  %272 = load i32, ptr %271, align 4, !tbaa !21
  %273 = icmp eq i32 %272, 0
  br i1 %273, label %274, label %281

274:                                              ; preds = %281, %264
  %275 = call i32 @__print_text(ptr nonnull getelementptr inbounds (i8, ptr @__streams, i64 24), ptr nonnull @.str.17, i64 1) #15
  %276 = zext i32 %272 to i64
  %277 = call i32 @__print_unsigned(ptr nonnull getelementptr inbounds (i8, ptr @__streams, i64 24), i64 %276, i32 10, i32 0, i32 0, i32 -1) #15
  %278 = call i32 @__print_text(ptr nonnull getelementptr inbounds (i8, ptr @__streams, i64 24), ptr nonnull getelementptr inbounds (i8, ptr @.str.17, i64 3), i64 1) #15
  %279 = add nuw nsw i64 %265, 1
  %280 = icmp eq i64 %279, 12
  br i1 %280, label %286, label %264, !llvm.loop !31

281:                                              ; preds = %281, %264
  %282 = phi i32 [ %284, %281 ], [ 0, %264 ]
  %283 = call i32 @putchar(i32 noundef 42)
  %284 = add i32 %282, 4
  %285 = icmp ult i32 %284, %272
  br i1 %285, label %281, label %274, !llvm.loop !32

286:                                              ; preds = %274
  call void @llvm.lifetime.end.p0(i64 48, ptr nonnull %1) #15
  call void @qsort(ptr noundef nonnull %208, i64 noundef %374, i64 noundef 8, ptr noundef nonnull @by_alphabet) #15
  %287 = call ptr @bsearch(ptr noundef nonnull @.str.1, ptr noundef nonnull %208, i64 noundef %374, i64 noundef 8, ptr noundef nonnull @by_word) #15
  %288 = icmp eq ptr %287, null
  %289 = select i1 %288, ptr @.str.4, ptr @.str.3
  %290 = call i32 @__print_text(ptr nonnull getelementptr inbounds (i8, ptr @__streams, i64 24), ptr nonnull @.str.2, i64 9) #15
  %291 = call i32 @__print_string(ptr nonnull getelementptr inbounds (i8, ptr @__streams, i64 24), ptr nonnull %289, i32 0, i32 0, i32 -1) #15
  %292 = call i32 @__print_text(ptr nonnull getelementptr inbounds (i8, ptr @__streams, i64 24), ptr nonnull getelementptr inbounds (i8, ptr @.str.2, i64 11), i64 1) #15
  br i1 %227, label %389, label %377

293:                                              ; preds = %373, %190
  %294 = phi i64 [ 0, %190 ], [ %375, %373 ]
  %295 = phi i64 [ %193, %190 ], [ %374, %373 ]
  %296 = getelementptr inbounds [9 x ptr], ptr @usual, i64 0, i64 %294
  %297 = load ptr, ptr %296, align 8, !tbaa !20
  br i1 %202, label %373, label %298

298:                                              ; preds = %293
  %299 = load i8, ptr %297, align 1, !tbaa !8
  %300 = icmp eq i8 %299, 0
  br i1 %300, label %311, label %301

301:                                              ; preds = %301, %298
  %302 = phi i8 [ %309, %301 ], [ %299, %298 ]
  %303 = phi i32 [ %307, %301 ], [ -2128831035, %298 ]
  %304 = phi ptr [ %308, %301 ], [ %297, %298 ]
  %305 = zext i8 %302 to i32
  %306 = xor i32 %303, %305
  %307 = mul i32 %306, 16777619
  %308 = getelementptr inbounds i8, ptr %304, i64 1
  %309 = load i8, ptr %308, align 1, !tbaa !8
  %310 = icmp eq i8 %309, 0
  br i1 %310, label %311, label %301, !llvm.loop !33

311:                                              ; preds = %301, %298
  %312 = phi i32 [ -2128831035, %298 ], [ %307, %301 ]
  %313 = lshr i32 %312, 15
  %314 = xor i32 %313, %312
  %315 = zext i32 %314 to i64
  %316 = and i64 %203, %315
  br label %317

317:                                              ; preds = %334, %311
  %318 = phi i64 [ %316, %311 ], [ %336, %334 ]
  %319 = phi ptr [ undef, %311 ], [ %332, %334 ]
  %320 = getelementptr inbounds %struct.entry, ptr %191, i64 %318
  %321 = load ptr, ptr %320, align 8, !tbaa !13
  %322 = icmp eq ptr %321, null
  br i1 %322, label %331, label %323

323:                                              ; preds = %317
  %324 = getelementptr inbounds i8, ptr %320, i64 8
  %325 = load i32, ptr %324, align 8, !tbaa !17
  %326 = icmp eq i32 %325, %314
  br i1 %326, label %327, label %330

327:                                              ; preds = %323
  %328 = call i32 @strcmp(ptr noundef nonnull dereferenceable(1) %321, ptr noundef nonnull readonly dereferenceable(1) %297) #15
  %329 = icmp eq i32 %328, 0
  br i1 %329, label %331, label %330

330:                                              ; preds = %327, %323
  br label %331

331:                                              ; preds = %330, %327, %317
  %332 = phi ptr [ %319, %330 ], [ %320, %327 ], [ %320, %317 ]
  %333 = phi i1 [ true, %330 ], [ false, %327 ], [ false, %317 ]
  br i1 %333, label %334, label %337

334:                                              ; preds = %331
  %335 = add i64 %318, 1
  %336 = and i64 %335, %204
  br label %317, !llvm.loop !34

337:                                              ; preds = %331
  %338 = load ptr, ptr %332, align 8, !tbaa !13
  %339 = icmp eq ptr %338, null
  br i1 %339, label %373, label %340

340:                                              ; preds = %337
  call void @free(ptr noundef %338)
  store ptr null, ptr %332, align 8, !tbaa !13
  %341 = add i64 %295, -1
  %342 = ptrtoint ptr %332 to i64
  %343 = sub i64 %342, %205
  %344 = sdiv exact i64 %343, 24
  %345 = add nsw i64 %344, 1
  %346 = and i64 %345, %204
  %347 = getelementptr inbounds %struct.entry, ptr %191, i64 %346
  %348 = load ptr, ptr %347, align 8, !tbaa !13
  %349 = icmp eq ptr %348, null
  br i1 %349, label %373, label %350

350:                                              ; preds = %366, %340
  %351 = phi ptr [ %370, %366 ], [ %347, %340 ]
  %352 = phi i64 [ %369, %366 ], [ %346, %340 ]
  %353 = phi i64 [ %367, %366 ], [ %344, %340 ]
  %354 = getelementptr inbounds i8, ptr %351, i64 8
  %355 = load i32, ptr %354, align 8, !tbaa !17
  %356 = zext i32 %355 to i64
  %357 = and i64 %204, %356
  %358 = sub i64 %352, %357
  %359 = and i64 %358, %204
  %360 = sub i64 %352, %353
  %361 = and i64 %360, %204
  %362 = icmp ult i64 %359, %361
  br i1 %362, label %366, label %363

363:                                              ; preds = %350
  %364 = getelementptr inbounds %struct.entry, ptr %191, i64 %353
  call void @llvm.memcpy.p0.p0.i64(ptr noundef nonnull align 8 dereferenceable(24) %364, ptr noundef nonnull align 8 dereferenceable(24) %351, i64 24, i1 false), !tbaa.struct !19
  %365 = getelementptr inbounds %struct.entry, ptr %191, i64 %352
  store ptr null, ptr %365, align 8, !tbaa !13
  br label %366

366:                                              ; preds = %363, %350
  %367 = phi i64 [ %352, %363 ], [ %353, %350 ]
  %368 = add i64 %352, 1
  %369 = and i64 %368, %204
  %370 = getelementptr inbounds %struct.entry, ptr %191, i64 %369
  %371 = load ptr, ptr %370, align 8, !tbaa !13
  %372 = icmp eq ptr %371, null
  br i1 %372, label %373, label %350, !llvm.loop !35

373:                                              ; preds = %366, %340, %337, %293
  %374 = phi i64 [ %295, %293 ], [ %295, %337 ], [ %341, %340 ], [ %341, %366 ]
  %375 = add nuw nsw i64 %294, 1
  %376 = icmp eq i64 %375, 9
  br i1 %376, label %206, label %293, !llvm.loop !36

377:                                              ; preds = %286
  %378 = load ptr, ptr %208, align 8, !tbaa !20
  %379 = load ptr, ptr %378, align 8, !tbaa !13
  %380 = getelementptr ptr, ptr %208, i64 %374
  %381 = getelementptr i8, ptr %380, i64 -8
  %382 = load ptr, ptr %381, align 8, !tbaa !20
  %383 = load ptr, ptr %382, align 8, !tbaa !13
  %384 = call i32 @__print_text(ptr nonnull getelementptr inbounds (i8, ptr @__streams, i64 24), ptr nonnull @.str.5, i64 5) #15
  %385 = call i32 @__print_string(ptr nonnull getelementptr inbounds (i8, ptr @__streams, i64 24), ptr %379, i32 0, i32 0, i32 -1) #15
  %386 = call i32 @__print_text(ptr nonnull getelementptr inbounds (i8, ptr @__streams, i64 24), ptr nonnull getelementptr inbounds (i8, ptr @.str.5, i64 7), i64 4) #15
  %387 = call i32 @__print_string(ptr nonnull getelementptr inbounds (i8, ptr @__streams, i64 24), ptr %383, i32 0, i32 0, i32 -1) #15
  %388 = call i32 @__print_text(ptr nonnull getelementptr inbounds (i8, ptr @__streams, i64 24), ptr nonnull getelementptr inbounds (i8, ptr @.str.5, i64 13), i64 1) #15
  br label %389

389:                                              ; preds = %377, %286
  call void @free(ptr noundef %208)
  br i1 %202, label %396, label %390

390:                                              ; preds = %390, %389
  %391 = phi i64 [ %394, %390 ], [ 0, %389 ]
  %392 = getelementptr inbounds %struct.entry, ptr %191, i64 %391
  %393 = load ptr, ptr %392, align 8, !tbaa !13
  call void @free(ptr noundef %393)
  %394 = add nuw i64 %391, 1
  %395 = icmp eq i64 %394, %192
  br i1 %395, label %396, label %390, !llvm.loop !37

396:                                              ; preds = %390, %389
  %397 = trunc i64 %374 to i32
  %398 = srem i32 %397, 100
  call void @free(ptr noundef %191)
  call void @llvm.lifetime.end.p0(i64 24, ptr nonnull %3) #15
  call void @llvm.lifetime.end.p0(i64 400, ptr nonnull %2) #15
  ret i32 %398
}

; Function Attrs: nocallback nofree nosync nounwind willreturn memory(argmem: readwrite)
declare void @llvm.lifetime.start.p0(i64 immarg, ptr nocapture) #1

; Function Attrs: nounwind optsize uwtable
define internal noundef ptr @fgets(ptr noalias noundef writeonly %0, i32 noundef %1, ptr noalias nocapture noundef %2) local_unnamed_addr #2 {
  %4 = icmp slt i32 %1, 1
  br i1 %4, label %23, label %5

5:                                                ; preds = %3
  %6 = icmp eq i32 %1, 1
  br i1 %6, label %21, label %7

7:                                                ; preds = %12, %5
  %8 = phi i32 [ %13, %12 ], [ %1, %5 ]
  %9 = phi ptr [ %15, %12 ], [ %0, %5 ]
  %10 = tail call i32 @fgetc(ptr noundef %2) #20
  %11 = icmp eq i32 %10, -1
  br i1 %11, label %19, label %12

12:                                               ; preds = %7
  %13 = add nsw i32 %8, -1
  %14 = trunc i32 %10 to i8
  %15 = getelementptr inbounds i8, ptr %9, i64 1
  store i8 %14, ptr %9, align 1, !tbaa !8
  %16 = icmp sgt i32 %8, 2
  %17 = icmp ne i32 %10, 10
  %18 = and i1 %16, %17
  br i1 %18, label %7, label %21, !llvm.loop !38

19:                                               ; preds = %7
  %20 = icmp eq ptr %9, %0
  br i1 %20, label %23, label %21

21:                                               ; preds = %19, %12, %5
  %22 = phi ptr [ %9, %19 ], [ %0, %5 ], [ %15, %12 ]
  store i8 0, ptr %22, align 1, !tbaa !8
  br label %23

23:                                               ; preds = %21, %19, %3
  %24 = phi ptr [ %0, %21 ], [ null, %3 ], [ null, %19 ]
  ret ptr %24
}

; Function Attrs: mustprogress nofree norecurse nosync nounwind optsize willreturn memory(none) uwtable
define internal range(i32 0, 2) i32 @isalnum(i32 noundef %0) local_unnamed_addr #3 {
  %2 = and i32 %0, -33
  %3 = add i32 %2, -65
  %4 = icmp ult i32 %3, 26
  %5 = add i32 %0, -48
  %6 = icmp ult i32 %5, 10
  %7 = or i1 %6, %4
  %8 = zext i1 %7 to i32
  ret i32 %8
}

; Function Attrs: mustprogress nofree norecurse nosync nounwind optsize willreturn memory(none) uwtable
define internal range(i32 0, 2) i32 @isalpha(i32 noundef %0) local_unnamed_addr #3 {
  %2 = and i32 %0, -33
  %3 = add i32 %2, -65
  %4 = icmp ult i32 %3, 26
  %5 = zext i1 %4 to i32
  ret i32 %5
}

; Function Attrs: mustprogress nofree norecurse nosync nounwind optsize willreturn memory(none) uwtable
define internal i32 @tolower(i32 noundef %0) local_unnamed_addr #3 {
  %2 = add i32 %0, -91
  %3 = icmp ult i32 %2, -26
  %4 = add nuw nsw i32 %0, 32
  %5 = select i1 %3, i32 %0, i32 %4
  ret i32 %5
}

; Function Attrs: mustprogress nofree nounwind willreturn allockind("alloc,zeroed") allocsize(0,1) memory(inaccessiblemem: readwrite)
declare dso_local noalias noundef ptr @calloc(i64 noundef, i64 noundef) local_unnamed_addr #4

; Function Attrs: noreturn nounwind
declare dso_local void @abort() local_unnamed_addr #5

; Function Attrs: nofree norecurse nosync nounwind optsize memory(read, inaccessiblemem: none) uwtable
define internal range(i32 -1, 2) i32 @strcmp(ptr nocapture noundef readonly %0, ptr nocapture noundef readonly %1) local_unnamed_addr #6 {
  %3 = load i8, ptr %0, align 1, !tbaa !8
  %4 = icmp eq i8 %3, 0
  br i1 %4, label %16, label %5

5:                                                ; preds = %11, %2
  %6 = phi i8 [ %14, %11 ], [ %3, %2 ]
  %7 = phi ptr [ %13, %11 ], [ %1, %2 ]
  %8 = phi ptr [ %12, %11 ], [ %0, %2 ]
  %9 = load i8, ptr %7, align 1, !tbaa !8
  %10 = icmp eq i8 %6, %9
  br i1 %10, label %11, label %16

11:                                               ; preds = %5
  %12 = getelementptr inbounds i8, ptr %8, i64 1
  %13 = getelementptr inbounds i8, ptr %7, i64 1
  %14 = load i8, ptr %12, align 1, !tbaa !8
  %15 = icmp eq i8 %14, 0
  br i1 %15, label %16, label %5, !llvm.loop !39

16:                                               ; preds = %11, %5, %2
  %17 = phi ptr [ %1, %2 ], [ %13, %11 ], [ %7, %5 ]
  %18 = phi i8 [ 0, %2 ], [ 0, %11 ], [ %6, %5 ]
  %19 = load i8, ptr %17, align 1, !tbaa !8
  %20 = icmp ult i8 %18, %19
  %21 = icmp ugt i8 %18, %19
  %22 = zext i1 %21 to i32
  %23 = select i1 %20, i32 -1, i32 %22
  ret i32 %23
}

; Function Attrs: nocallback nofree nounwind willreturn memory(argmem: readwrite)
declare void @llvm.memcpy.p0.p0.i64(ptr noalias nocapture writeonly, ptr noalias nocapture readonly, i64, i1 immarg) #7

; Function Attrs: mustprogress nounwind willreturn allockind("free") memory(argmem: readwrite, inaccessiblemem: readwrite)
declare dso_local void @free(ptr allocptr nocapture noundef) local_unnamed_addr #8

; Function Attrs: nounwind optsize uwtable
define internal ptr @strdup(ptr nocapture noundef readonly %0) local_unnamed_addr #2 {
  %2 = tail call ptr @strndup(ptr noundef %0, i64 noundef -1) #20
  ret ptr %2
}

; Function Attrs: nounwind optsize uwtable
define internal i32 @__print_unsigned(ptr nocapture noundef %0, i64 noundef %1, i32 noundef %2, i32 noundef %3, i32 noundef %4, i32 noundef %5) local_unnamed_addr #2 {
  %7 = alloca [24 x i8], align 16
  call void @llvm.lifetime.start.p0(i64 24, ptr nonnull %7) #15
  %8 = and i32 %3, 32
  %9 = icmp eq i32 %8, 0
  %10 = select i1 %9, ptr @.str.9.24, ptr @.str.8.30
  %11 = icmp ult i64 %1, 4294967296
  br i1 %11, label %14, label %12

12:                                               ; preds = %6
  %13 = zext i32 %2 to i64
  br label %29

14:                                               ; preds = %6
  %15 = icmp eq i64 %1, 0
  br i1 %15, label %39, label %16

16:                                               ; preds = %14
  %17 = trunc nuw i64 %1 to i32
  br label %18

18:                                               ; preds = %18, %16
  %19 = phi i32 [ %27, %18 ], [ %17, %16 ]
  %20 = phi i64 [ %25, %18 ], [ 24, %16 ]
  %21 = urem i32 %19, %2
  %22 = zext i32 %21 to i64
  %23 = getelementptr inbounds i8, ptr %10, i64 %22
  %24 = load i8, ptr %23, align 1, !tbaa !8
  %25 = add nsw i64 %20, -1
  %26 = getelementptr inbounds i8, ptr %7, i64 %25
  store i8 %24, ptr %26, align 1, !tbaa !8
  %27 = udiv i32 %19, %2
  %28 = icmp ult i32 %19, %2
  br i1 %28, label %39, label %18, !llvm.loop !40

29:                                               ; preds = %29, %12
  %30 = phi i64 [ 24, %12 ], [ %35, %29 ]
  %31 = phi i64 [ %1, %12 ], [ %37, %29 ]
  %32 = urem i64 %31, %13
  %33 = getelementptr inbounds i8, ptr %10, i64 %32
  %34 = load i8, ptr %33, align 1, !tbaa !8
  %35 = add nsw i64 %30, -1
  %36 = getelementptr inbounds i8, ptr %7, i64 %35
  store i8 %34, ptr %36, align 1, !tbaa !8
  %37 = udiv i64 %31, %13
  %38 = icmp ult i64 %31, %13
  br i1 %38, label %39, label %29, !llvm.loop !41

39:                                               ; preds = %29, %18, %14
  %40 = phi i64 [ 24, %14 ], [ %25, %18 ], [ %35, %29 ]
  %41 = icmp eq i64 %1, 0
  %42 = icmp ne i32 %5, 0
  %43 = and i1 %41, %42
  br i1 %43, label %44, label %47

44:                                               ; preds = %39
  %45 = add nsw i64 %40, -1
  %46 = getelementptr inbounds i8, ptr %7, i64 %45
  store i8 48, ptr %46, align 1, !tbaa !8
  br label %47

47:                                               ; preds = %44, %39
  %48 = phi i64 [ %45, %44 ], [ %40, %39 ]
  %49 = getelementptr inbounds i8, ptr %7, i64 %48
  %50 = and i32 %3, 8
  %51 = icmp ne i32 %50, 0
  %52 = icmp eq i32 %2, 8
  %53 = and i1 %52, %51
  br i1 %53, label %54, label %65

54:                                               ; preds = %47
  %55 = sub nsw i64 24, %48
  %56 = sext i32 %5 to i64
  %57 = icmp slt i64 %55, %56
  br i1 %57, label %65, label %58

58:                                               ; preds = %54
  %59 = icmp eq i64 %48, 24
  br i1 %59, label %63, label %60

60:                                               ; preds = %58
  %61 = load i8, ptr %49, align 1, !tbaa !8
  %62 = icmp eq i8 %61, 48
  br i1 %62, label %65, label %63

63:                                               ; preds = %60, %58
  %64 = getelementptr inbounds i8, ptr %49, i64 -1
  store i8 48, ptr %64, align 1, !tbaa !8
  br label %65

65:                                               ; preds = %63, %60, %54, %47
  %66 = phi ptr [ %64, %63 ], [ %49, %60 ], [ %49, %54 ], [ %49, %47 ]
  %67 = getelementptr inbounds i8, ptr %7, i64 24
  %68 = icmp eq i32 %2, 16
  %69 = icmp ne i64 %1, 0
  %70 = and i1 %69, %68
  %71 = and i1 %70, %51
  %72 = select i1 %9, ptr @.str.6.31, ptr @.str.5.32
  %73 = select i1 %71, ptr %72, ptr @.str.18
  %74 = ptrtoint ptr %67 to i64
  %75 = ptrtoint ptr %66 to i64
  %76 = sub i64 %74, %75
  %77 = trunc i64 %76 to i32
  %78 = call fastcc i32 @number(ptr noundef %0, ptr noundef nonnull %73, ptr noundef nonnull %66, i32 noundef %77, i32 noundef %3, i32 noundef %4, i32 noundef %5) #20
  call void @llvm.lifetime.end.p0(i64 24, ptr nonnull %7) #15
  ret i32 %78
}

; Function Attrs: nounwind optsize uwtable
define internal noundef i32 @__print_text(ptr nocapture noundef %0, ptr nocapture noundef readonly %1, i64 noundef %2) local_unnamed_addr #2 {
  %4 = load i8, ptr %0, align 8, !tbaa !42, !alias.scope !45, !noalias !48
  %5 = icmp eq i8 %4, 0
  %6 = icmp eq i64 %2, 0
  %7 = or i1 %6, %5
  br i1 %7, label %16, label %8

8:                                                ; preds = %8, %3
  %9 = phi i64 [ %14, %8 ], [ 0, %3 ]
  %10 = getelementptr inbounds i8, ptr %1, i64 %9
  %11 = load i8, ptr %10, align 1, !tbaa !8, !alias.scope !48, !noalias !45
  %12 = zext i8 %11 to i32
  %13 = tail call i32 @fputc(i32 noundef %12, ptr noundef nonnull %0) #20, !noalias !48
  %14 = add nuw i64 %9, 1
  %15 = icmp eq i64 %14, %2
  br i1 %15, label %16, label %8, !llvm.loop !50

16:                                               ; preds = %8, %3
  %17 = trunc i64 %2 to i32
  ret i32 %17
}

; Function Attrs: mustprogress nofree nounwind willreturn allockind("alloc,uninitialized") allocsize(0) memory(inaccessiblemem: readwrite)
declare dso_local noalias noundef ptr @malloc(i64 noundef) local_unnamed_addr #9

; Function Attrs: mustprogress nofree nounwind willreturn memory(read, inaccessiblemem: none) uwtable
define internal i32 @by_count(ptr nocapture noundef readonly %0, ptr nocapture noundef readonly %1) #10 {
  %3 = load ptr, ptr %0, align 8, !tbaa !20
  %4 = load ptr, ptr %1, align 8, !tbaa !20
  %5 = getelementptr inbounds i8, ptr %3, i64 12
  %6 = load i32, ptr %5, align 4, !tbaa !25
  %7 = getelementptr inbounds i8, ptr %4, i64 12
  %8 = load i32, ptr %7, align 4, !tbaa !25
  %9 = icmp eq i32 %6, %8
  br i1 %9, label %13, label %10

10:                                               ; preds = %2
  %11 = icmp ult i32 %6, %8
  %12 = select i1 %11, i32 1, i32 -1
  br label %17

13:                                               ; preds = %2
  %14 = load ptr, ptr %3, align 8, !tbaa !13
  %15 = load ptr, ptr %4, align 8, !tbaa !13
  %16 = tail call i32 @strcmp(ptr noundef nonnull dereferenceable(1) %14, ptr noundef nonnull dereferenceable(1) %15) #15
  br label %17

17:                                               ; preds = %13, %10
  %18 = phi i32 [ %12, %10 ], [ %16, %13 ]
  ret i32 %18
}

; Function Attrs: nounwind optsize uwtable
define internal void @qsort(ptr noundef %0, i64 noundef %1, i64 noundef %2, ptr noundef %3) local_unnamed_addr #2 {
  %5 = icmp ult i64 %1, 2
  %6 = icmp eq i64 %2, 0
  %7 = or i1 %5, %6
  br i1 %7, label %35, label %8

8:                                                ; preds = %4
  %9 = lshr i64 %1, 1
  %10 = mul i64 %9, %2
  %11 = tail call ptr @malloc(i64 noundef %10) #21
  %12 = icmp eq ptr %11, null
  br i1 %12, label %13, label %34

13:                                               ; preds = %13, %8
  %14 = phi i64 [ %15, %13 ], [ %9, %8 ]
  %15 = add nsw i64 %14, -1
  tail call fastcc void @sink(ptr noundef %0, i64 noundef %15, i64 noundef %1, i64 noundef %2, ptr noundef readonly %3) #20
  %16 = icmp eq i64 %15, 0
  br i1 %16, label %17, label %13, !llvm.loop !51

17:                                               ; preds = %32, %13
  %18 = phi i64 [ %19, %32 ], [ %1, %13 ]
  %19 = add i64 %18, -1
  %20 = mul i64 %19, %2
  %21 = getelementptr inbounds i8, ptr %0, i64 %20
  br label %22

22:                                               ; preds = %22, %17
  %23 = phi ptr [ %29, %22 ], [ %0, %17 ]
  %24 = phi i64 [ %26, %22 ], [ %2, %17 ]
  %25 = phi ptr [ %30, %22 ], [ %21, %17 ]
  %26 = add i64 %24, -1
  %27 = load i8, ptr %23, align 1, !tbaa !8
  %28 = load i8, ptr %25, align 1, !tbaa !8
  %29 = getelementptr inbounds i8, ptr %23, i64 1
  store i8 %28, ptr %23, align 1, !tbaa !8
  %30 = getelementptr inbounds i8, ptr %25, i64 1
  store i8 %27, ptr %25, align 1, !tbaa !8
  %31 = icmp eq i64 %26, 0
  br i1 %31, label %32, label %22, !llvm.loop !52

32:                                               ; preds = %22
  tail call fastcc void @sink(ptr noundef %0, i64 noundef 0, i64 noundef %19, i64 noundef %2, ptr noundef readonly %3) #20
  %33 = icmp ugt i64 %19, 1
  br i1 %33, label %17, label %35, !llvm.loop !53

34:                                               ; preds = %8
  tail call fastcc void @merge_sort(ptr noundef %0, i64 noundef %1, i64 noundef %2, ptr noundef %3, ptr noundef nonnull %11) #20
  tail call void @free(ptr noundef nonnull %11) #21
  br label %35

35:                                               ; preds = %34, %32, %4
  ret void
}

; Function Attrs: nocallback nofree nosync nounwind speculatable willreturn memory(none)
declare i64 @llvm.umin.i64(i64, i64) #11

; Function Attrs: nounwind optsize uwtable
define internal i32 @__print_string(ptr nocapture noundef %0, ptr noundef %1, i32 noundef %2, i32 noundef %3, i32 noundef %4) local_unnamed_addr #2 {
  %6 = icmp eq ptr %1, null
  %7 = icmp ult i32 %4, 6
  %8 = select i1 %7, ptr @.str.18, ptr @.str.1.19
  %9 = select i1 %6, ptr %8, ptr %1
  %10 = icmp slt i32 %4, 0
  br i1 %10, label %11, label %20

11:                                               ; preds = %11, %5
  %12 = phi ptr [ %15, %11 ], [ %9, %5 ]
  %13 = load i8, ptr %12, align 1, !tbaa !8
  %14 = icmp eq i8 %13, 0
  %15 = getelementptr inbounds i8, ptr %12, i64 1
  br i1 %14, label %16, label %11, !llvm.loop !54

16:                                               ; preds = %11
  %17 = ptrtoint ptr %12 to i64
  %18 = ptrtoint ptr %9 to i64
  %19 = sub i64 %17, %18
  br label %31

20:                                               ; preds = %5
  %21 = zext nneg i32 %4 to i64
  %22 = icmp eq i32 %4, 0
  br i1 %22, label %31, label %23

23:                                               ; preds = %28, %20
  %24 = phi i64 [ %29, %28 ], [ 0, %20 ]
  %25 = getelementptr inbounds i8, ptr %9, i64 %24
  %26 = load i8, ptr %25, align 1, !tbaa !8
  %27 = icmp eq i8 %26, 0
  br i1 %27, label %31, label %28

28:                                               ; preds = %23
  %29 = add nuw nsw i64 %24, 1
  %30 = icmp eq i64 %29, %21
  br i1 %30, label %31, label %23, !llvm.loop !55

31:                                               ; preds = %28, %23, %20, %16
  %32 = phi i64 [ %19, %16 ], [ 0, %20 ], [ %24, %23 ], [ %21, %28 ]
  %33 = trunc i64 %32 to i32
  %34 = tail call fastcc i32 @padded(ptr noundef %0, ptr noundef nonnull %9, i32 noundef %33, i32 noundef %2, i32 noundef %3) #20
  ret i32 %34
}

; Function Attrs: nocallback nofree nounwind willreturn memory(argmem: write)
declare void @llvm.memset.p0.i64(ptr nocapture writeonly, i8, i64, i1 immarg) #12

; Function Attrs: nofree norecurse nosync nounwind optsize memory(read, inaccessiblemem: none) uwtable
define internal noundef i64 @strlen(ptr noundef %0) local_unnamed_addr #6 {
  br label %2

2:                                                ; preds = %2, %1
  %3 = phi ptr [ %0, %1 ], [ %6, %2 ]
  %4 = load i8, ptr %3, align 1, !tbaa !8
  %5 = icmp eq i8 %4, 0
  %6 = getelementptr inbounds i8, ptr %3, i64 1
  br i1 %5, label %7, label %2, !llvm.loop !54

7:                                                ; preds = %2
  %8 = ptrtoint ptr %3 to i64
  %9 = ptrtoint ptr %0 to i64
  %10 = sub i64 %8, %9
  ret i64 %10
}

; Function Attrs: nounwind optsize uwtable
define internal i32 @__print_signed(ptr nocapture noundef %0, i64 noundef %1, i32 noundef %2, i32 noundef %3, i32 noundef %4) local_unnamed_addr #2 {
  %6 = alloca [24 x i8], align 16
  call void @llvm.lifetime.start.p0(i64 24, ptr nonnull %6) #15
  %7 = getelementptr inbounds i8, ptr %6, i64 24
  %8 = icmp slt i64 %1, 0
  %9 = lshr i64 %1, 63
  %10 = icmp ne i64 %9, 0
  %11 = sub i64 0, %1
  %12 = select i1 %10, i64 %11, i64 %1
  %13 = icmp ult i64 %12, 4294967296
  br i1 %13, label %14, label %28

14:                                               ; preds = %5
  %15 = icmp eq i64 %1, 0
  br i1 %15, label %37, label %16

16:                                               ; preds = %14
  %17 = trunc nuw i64 %12 to i32
  br label %18

18:                                               ; preds = %18, %16
  %19 = phi i32 [ %26, %18 ], [ %17, %16 ]
  %20 = phi ptr [ %25, %18 ], [ %7, %16 ]
  %21 = urem i32 %19, 10
  %22 = zext nneg i32 %21 to i64
  %23 = getelementptr inbounds i8, ptr @.str.9.24, i64 %22
  %24 = load i8, ptr %23, align 1, !tbaa !8
  %25 = getelementptr inbounds i8, ptr %20, i64 -1
  store i8 %24, ptr %25, align 1, !tbaa !8
  %26 = udiv i32 %19, 10
  %27 = icmp ult i32 %19, 10
  br i1 %27, label %37, label %18, !llvm.loop !40

28:                                               ; preds = %28, %5
  %29 = phi ptr [ %34, %28 ], [ %7, %5 ]
  %30 = phi i64 [ %35, %28 ], [ %12, %5 ]
  %31 = urem i64 %30, 10
  %32 = getelementptr inbounds i8, ptr @.str.9.24, i64 %31
  %33 = load i8, ptr %32, align 1, !tbaa !8
  %34 = getelementptr inbounds i8, ptr %29, i64 -1
  store i8 %33, ptr %34, align 1, !tbaa !8
  %35 = udiv i64 %30, 10
  %36 = icmp ult i64 %30, 10
  br i1 %36, label %37, label %28, !llvm.loop !41

37:                                               ; preds = %28, %18, %14
  %38 = phi ptr [ %7, %14 ], [ %25, %18 ], [ %34, %28 ]
  %39 = icmp eq i64 %1, 0
  %40 = icmp ne i32 %4, 0
  %41 = and i1 %39, %40
  br i1 %41, label %42, label %44

42:                                               ; preds = %37
  %43 = getelementptr inbounds i8, ptr %38, i64 -1
  store i8 48, ptr %43, align 1, !tbaa !8
  br label %45

44:                                               ; preds = %37
  br i1 %8, label %53, label %45

45:                                               ; preds = %44, %42
  %46 = phi ptr [ %43, %42 ], [ %38, %44 ]
  %47 = and i32 %2, 2
  %48 = icmp eq i32 %47, 0
  br i1 %48, label %49, label %53

49:                                               ; preds = %45
  %50 = and i32 %2, 4
  %51 = icmp eq i32 %50, 0
  %52 = select i1 %51, ptr @.str.18, ptr @.str.4.25
  br label %53

53:                                               ; preds = %49, %45, %44
  %54 = phi ptr [ %38, %44 ], [ %46, %49 ], [ %46, %45 ]
  %55 = phi ptr [ @.str.2.26, %44 ], [ %52, %49 ], [ @.str.3.27, %45 ]
  %56 = ptrtoint ptr %7 to i64
  %57 = ptrtoint ptr %54 to i64
  %58 = sub i64 %56, %57
  %59 = trunc i64 %58 to i32
  %60 = call fastcc i32 @number(ptr noundef %0, ptr noundef nonnull %55, ptr noundef nonnull %54, i32 noundef %59, i32 noundef %2, i32 noundef %3, i32 noundef %4) #20
  call void @llvm.lifetime.end.p0(i64 24, ptr nonnull %6) #15
  ret i32 %60
}

; Function Attrs: nounwind optsize uwtable
define internal i32 @__print_character(ptr nocapture noundef %0, i32 noundef %1, i32 noundef %2, i32 noundef %3) local_unnamed_addr #2 {
  %5 = alloca i8, align 1
  call void @llvm.lifetime.start.p0(i64 1, ptr nonnull %5) #15
  %6 = trunc i32 %1 to i8
  store i8 %6, ptr %5, align 1, !tbaa !8
  %7 = call fastcc i32 @padded(ptr noundef %0, ptr noundef nonnull %5, i32 noundef 1, i32 noundef %2, i32 noundef %3) #20
  call void @llvm.lifetime.end.p0(i64 1, ptr nonnull %5) #15
  ret i32 %7
}

; Function Attrs: nofree nounwind
declare dso_local noundef i32 @putchar(i32 noundef) local_unnamed_addr #13

; Function Attrs: nocallback nofree nosync nounwind willreturn memory(argmem: readwrite)
declare void @llvm.lifetime.end.p0(i64 immarg, ptr nocapture) #1

; Function Attrs: mustprogress nofree nounwind willreturn memory(read, inaccessiblemem: none) uwtable
define internal i32 @by_alphabet(ptr nocapture noundef readonly %0, ptr nocapture noundef readonly %1) #10 {
  %3 = load ptr, ptr %0, align 8, !tbaa !20
  %4 = load ptr, ptr %3, align 8, !tbaa !13
  %5 = load ptr, ptr %1, align 8, !tbaa !20
  %6 = load ptr, ptr %5, align 8, !tbaa !13
  %7 = tail call i32 @strcmp(ptr noundef nonnull dereferenceable(1) %4, ptr noundef nonnull dereferenceable(1) %6) #15
  ret i32 %7
}

; Function Attrs: mustprogress nofree nounwind willreturn memory(read, inaccessiblemem: none) uwtable
define internal i32 @by_word(ptr nocapture noundef readonly %0, ptr nocapture noundef readonly %1) #10 {
  %3 = load ptr, ptr %1, align 8, !tbaa !20
  %4 = load ptr, ptr %3, align 8, !tbaa !13
  %5 = tail call i32 @strcmp(ptr noundef nonnull dereferenceable(1) %0, ptr noundef nonnull dereferenceable(1) %4) #15
  ret i32 %5
}

; Function Attrs: nounwind optsize uwtable
define internal noundef ptr @bsearch(ptr noundef %0, ptr noundef %1, i64 noundef %2, i64 noundef %3, ptr nocapture noundef readonly %4) local_unnamed_addr #2 {
  br label %6

6:                                                ; preds = %10, %5
  %7 = phi i64 [ %2, %5 ], [ %19, %10 ]
  %8 = phi i64 [ 0, %5 ], [ %20, %10 ]
  %9 = icmp ult i64 %8, %7
  br i1 %9, label %10, label %21

10:                                               ; preds = %6
  %11 = add i64 %8, %7
  %12 = lshr i64 %11, 1
  %13 = mul i64 %12, %3
  %14 = getelementptr inbounds i8, ptr %1, i64 %13
  %15 = tail call i32 %4(ptr noundef %0, ptr noundef %14) #21
  %16 = icmp eq i32 %15, 0
  %17 = icmp slt i32 %15, 0
  %18 = add nuw i64 %12, 1
  %19 = select i1 %17, i64 %12, i64 %7
  %20 = select i1 %17, i64 %8, i64 %18
  br i1 %16, label %21, label %6, !llvm.loop !56

21:                                               ; preds = %10, %6
  %22 = phi ptr [ %14, %10 ], [ null, %6 ]
  ret ptr %22
}

; Function Attrs: nounwind optsize uwtable
define internal fastcc i32 @padded(ptr nocapture noundef %0, ptr nocapture noundef readonly %1, i32 noundef %2, i32 noundef %3, i32 noundef %4) unnamed_addr #2 {
  %6 = icmp slt i32 %4, 0
  %7 = lshr i32 %4, 31
  %8 = icmp ne i32 %7, 0
  %9 = sub i32 0, %4
  %10 = select i1 %8, i32 %9, i32 %4
  %11 = sub nsw i32 %10, %2
  %12 = and i32 %3, 1
  %13 = icmp ne i32 %12, 0
  %14 = or i1 %6, %13
  br i1 %14, label %24, label %15

15:                                               ; preds = %5
  %16 = icmp sgt i32 %11, 0
  br i1 %16, label %17, label %22

17:                                               ; preds = %17, %15
  %18 = phi i32 [ %20, %17 ], [ 0, %15 ]
  %19 = tail call i32 @fputc(i32 noundef 32, ptr noundef %0) #20
  %20 = add nuw nsw i32 %18, 1
  %21 = icmp eq i32 %20, %11
  br i1 %21, label %22, label %17, !llvm.loop !57

22:                                               ; preds = %17, %15
  %23 = tail call noundef i32 @llvm.smax.i32(i32 %11, i32 0)
  br label %24

24:                                               ; preds = %22, %5
  %25 = phi i32 [ %23, %22 ], [ 0, %5 ]
  %26 = sext i32 %2 to i64
  %27 = load i8, ptr %0, align 8, !tbaa !42, !alias.scope !58, !noalias !61
  %28 = icmp eq i8 %27, 0
  %29 = icmp eq i32 %2, 0
  %30 = or i1 %29, %28
  br i1 %30, label %39, label %31

31:                                               ; preds = %31, %24
  %32 = phi i64 [ %37, %31 ], [ 0, %24 ]
  %33 = getelementptr inbounds i8, ptr %1, i64 %32
  %34 = load i8, ptr %33, align 1, !tbaa !8, !alias.scope !61, !noalias !58
  %35 = zext i8 %34 to i32
  %36 = tail call i32 @fputc(i32 noundef %35, ptr noundef nonnull %0) #20, !noalias !61
  %37 = add nuw i64 %32, 1
  %38 = icmp eq i64 %37, %26
  br i1 %38, label %39, label %31, !llvm.loop !50

39:                                               ; preds = %31, %24
  br i1 %14, label %40, label %49

40:                                               ; preds = %39
  %41 = icmp sgt i32 %11, 0
  br i1 %41, label %42, label %47

42:                                               ; preds = %42, %40
  %43 = phi i32 [ %45, %42 ], [ 0, %40 ]
  %44 = tail call i32 @fputc(i32 noundef 32, ptr noundef nonnull %0) #20
  %45 = add nuw nsw i32 %43, 1
  %46 = icmp eq i32 %45, %11
  br i1 %46, label %47, label %42, !llvm.loop !57

47:                                               ; preds = %42, %40
  %48 = tail call noundef i32 @llvm.smax.i32(i32 %11, i32 0)
  br label %49

49:                                               ; preds = %47, %39
  %50 = phi i32 [ %48, %47 ], [ 0, %39 ]
  %51 = add nsw i32 %25, %2
  %52 = add nsw i32 %51, %50
  ret i32 %52
}

; Function Attrs: nounwind optsize uwtable
define internal range(i32 -1, 256) i32 @fputc(i32 noundef %0, ptr nocapture noundef %1) local_unnamed_addr #2 {
  %3 = load i8, ptr %1, align 8, !tbaa !42
  switch i8 %3, label %17 [
    i8 1, label %4
    i8 3, label %6
    i8 0, label %19
  ]

4:                                                ; preds = %2
  %5 = tail call i32 @putchar(i32 noundef %0) #21
  br label %17

6:                                                ; preds = %2
  %7 = getelementptr inbounds i8, ptr %1, i64 16
  %8 = load i64, ptr %7, align 8, !tbaa !63
  %9 = icmp eq i64 %8, 0
  br i1 %9, label %17, label %10

10:                                               ; preds = %6
  %11 = trunc i32 %0 to i8
  %12 = getelementptr inbounds i8, ptr %1, i64 8
  %13 = load ptr, ptr %12, align 8, !tbaa !64
  %14 = getelementptr inbounds i8, ptr %13, i64 1
  store ptr %14, ptr %12, align 8, !tbaa !64
  store i8 %11, ptr %13, align 1, !tbaa !8
  %15 = load i64, ptr %7, align 8, !tbaa !63
  %16 = add i64 %15, -1
  store i64 %16, ptr %7, align 8, !tbaa !63
  br label %17

17:                                               ; preds = %10, %6, %4, %2
  %18 = and i32 %0, 255
  br label %19

19:                                               ; preds = %17, %2
  %20 = phi i32 [ %18, %17 ], [ -1, %2 ]
  ret i32 %20
}

; Function Attrs: nocallback nofree nosync nounwind speculatable willreturn memory(none)
declare i32 @llvm.smax.i32(i32, i32) #11

; Function Attrs: nounwind optsize uwtable
define internal fastcc i32 @number(ptr nocapture noundef %0, ptr noundef %1, ptr nocapture noundef readonly %2, i32 noundef %3, i32 noundef %4, i32 noundef %5, i32 noundef %6) unnamed_addr #2 {
  br label %8

8:                                                ; preds = %8, %7
  %9 = phi ptr [ %1, %7 ], [ %12, %8 ]
  %10 = load i8, ptr %9, align 1, !tbaa !8
  %11 = icmp eq i8 %10, 0
  %12 = getelementptr inbounds i8, ptr %9, i64 1
  br i1 %11, label %13, label %8, !llvm.loop !54

13:                                               ; preds = %8
  %14 = ptrtoint ptr %9 to i64
  %15 = ptrtoint ptr %1 to i64
  %16 = sub i64 %14, %15
  %17 = trunc i64 %16 to i32
  %18 = sub nsw i32 %6, %3
  %19 = lshr i32 %5, 31
  %20 = icmp ne i32 %19, 0
  %21 = sub i32 0, %5
  %22 = select i1 %20, i32 %21, i32 %5
  %23 = tail call i32 @llvm.smax.i32(i32 %18, i32 0)
  %24 = icmp slt i32 %6, 0
  %25 = and i32 %4, 16
  %26 = icmp ne i32 %25, 0
  %27 = and i1 %26, %24
  %28 = and i32 %4, 1
  %29 = or i32 %19, %28
  %30 = icmp eq i32 %29, 0
  %31 = and i1 %27, %30
  %32 = add i32 %17, %3
  %33 = icmp sgt i32 %22, %32
  %34 = select i1 %31, i1 %33, i1 false
  %35 = sub i32 %22, %32
  %36 = select i1 %34, i32 %35, i32 %23
  %37 = add i32 %32, %36
  %38 = sub i32 %22, %37
  br i1 %30, label %39, label %48

39:                                               ; preds = %13
  %40 = icmp sgt i32 %38, 0
  br i1 %40, label %41, label %46

41:                                               ; preds = %41, %39
  %42 = phi i32 [ %44, %41 ], [ 0, %39 ]
  %43 = tail call i32 @fputc(i32 noundef 32, ptr noundef %0) #20
  %44 = add nuw nsw i32 %42, 1
  %45 = icmp eq i32 %44, %38
  br i1 %45, label %46, label %41, !llvm.loop !57

46:                                               ; preds = %41, %39
  %47 = tail call noundef i32 @llvm.smax.i32(i32 %38, i32 0)
  br label %48

48:                                               ; preds = %46, %13
  %49 = phi i32 [ 0, %13 ], [ %47, %46 ]
  %50 = shl i64 %16, 32
  %51 = ashr exact i64 %50, 32
  %52 = load i8, ptr %0, align 8, !tbaa !42, !alias.scope !65, !noalias !68
  %53 = icmp eq i8 %52, 0
  %54 = icmp eq i64 %50, 0
  %55 = or i1 %54, %53
  br i1 %55, label %64, label %56

56:                                               ; preds = %56, %48
  %57 = phi i64 [ %62, %56 ], [ 0, %48 ]
  %58 = getelementptr inbounds i8, ptr %1, i64 %57
  %59 = load i8, ptr %58, align 1, !tbaa !8, !alias.scope !68, !noalias !65
  %60 = zext i8 %59 to i32
  %61 = tail call i32 @fputc(i32 noundef %60, ptr noundef nonnull %0) #20, !noalias !68
  %62 = add nuw i64 %57, 1
  %63 = icmp eq i64 %62, %51
  br i1 %63, label %64, label %56, !llvm.loop !50

64:                                               ; preds = %56, %48
  %65 = icmp sgt i32 %36, 0
  br i1 %65, label %66, label %71

66:                                               ; preds = %66, %64
  %67 = phi i32 [ %69, %66 ], [ 0, %64 ]
  %68 = tail call i32 @fputc(i32 noundef 48, ptr noundef nonnull %0) #20
  %69 = add nuw nsw i32 %67, 1
  %70 = icmp eq i32 %69, %36
  br i1 %70, label %71, label %66, !llvm.loop !57

71:                                               ; preds = %66, %64
  %72 = tail call noundef i32 @llvm.smax.i32(i32 %36, i32 0)
  %73 = sext i32 %3 to i64
  %74 = load i8, ptr %0, align 8, !tbaa !42, !alias.scope !70, !noalias !73
  %75 = icmp eq i8 %74, 0
  %76 = icmp eq i32 %3, 0
  %77 = or i1 %76, %75
  br i1 %77, label %86, label %78

78:                                               ; preds = %78, %71
  %79 = phi i64 [ %84, %78 ], [ 0, %71 ]
  %80 = getelementptr inbounds i8, ptr %2, i64 %79
  %81 = load i8, ptr %80, align 1, !tbaa !8, !alias.scope !73, !noalias !70
  %82 = zext i8 %81 to i32
  %83 = tail call i32 @fputc(i32 noundef %82, ptr noundef nonnull %0) #20, !noalias !73
  %84 = add nuw i64 %79, 1
  %85 = icmp eq i64 %84, %73
  br i1 %85, label %86, label %78, !llvm.loop !50

86:                                               ; preds = %78, %71
  %87 = add i32 %32, %72
  %88 = add i32 %87, %49
  br i1 %30, label %99, label %89

89:                                               ; preds = %86
  %90 = icmp sgt i32 %38, 0
  br i1 %90, label %91, label %96

91:                                               ; preds = %91, %89
  %92 = phi i32 [ %94, %91 ], [ 0, %89 ]
  %93 = tail call i32 @fputc(i32 noundef 32, ptr noundef nonnull %0) #20
  %94 = add nuw nsw i32 %92, 1
  %95 = icmp eq i32 %94, %38
  br i1 %95, label %96, label %91, !llvm.loop !57

96:                                               ; preds = %91, %89
  %97 = tail call noundef i32 @llvm.smax.i32(i32 %38, i32 0)
  %98 = add nsw i32 %88, %97
  br label %99

99:                                               ; preds = %96, %86
  %100 = phi i32 [ %98, %96 ], [ %88, %86 ]
  ret i32 %100
}

; Function Attrs: nounwind optsize uwtable
define internal fastcc void @sink(ptr noundef %0, i64 noundef %1, i64 noundef %2, i64 noundef %3, ptr nocapture noundef readonly %4) unnamed_addr #2 {
  %6 = shl i64 %1, 1
  %7 = or disjoint i64 %6, 1
  %8 = icmp ult i64 %7, %2
  br i1 %8, label %9, label %48

9:                                                ; preds = %5
  %10 = icmp eq i64 %3, 0
  br label %11

11:                                               ; preds = %44, %9
  %12 = phi i64 [ %7, %9 ], [ %46, %44 ]
  %13 = phi i64 [ %6, %9 ], [ %45, %44 ]
  %14 = phi i64 [ %1, %9 ], [ %26, %44 ]
  %15 = add nuw i64 %13, 2
  %16 = icmp ult i64 %15, %2
  br i1 %16, label %17, label %25

17:                                               ; preds = %11
  %18 = mul i64 %12, %3
  %19 = getelementptr inbounds i8, ptr %0, i64 %18
  %20 = mul i64 %15, %3
  %21 = getelementptr inbounds i8, ptr %0, i64 %20
  %22 = tail call i32 %4(ptr noundef %19, ptr noundef %21) #21
  %23 = icmp slt i32 %22, 0
  %24 = select i1 %23, i64 %15, i64 %12
  br label %25

25:                                               ; preds = %17, %11
  %26 = phi i64 [ %12, %11 ], [ %24, %17 ]
  %27 = mul i64 %14, %3
  %28 = getelementptr inbounds i8, ptr %0, i64 %27
  %29 = mul i64 %26, %3
  %30 = getelementptr inbounds i8, ptr %0, i64 %29
  %31 = tail call i32 %4(ptr noundef %28, ptr noundef %30) #21
  %32 = icmp sgt i32 %31, -1
  br i1 %32, label %48, label %33

33:                                               ; preds = %25
  br i1 %10, label %44, label %34

34:                                               ; preds = %34, %33
  %35 = phi ptr [ %41, %34 ], [ %28, %33 ]
  %36 = phi i64 [ %38, %34 ], [ %3, %33 ]
  %37 = phi ptr [ %42, %34 ], [ %30, %33 ]
  %38 = add i64 %36, -1
  %39 = load i8, ptr %35, align 1, !tbaa !8
  %40 = load i8, ptr %37, align 1, !tbaa !8
  %41 = getelementptr inbounds i8, ptr %35, i64 1
  store i8 %40, ptr %35, align 1, !tbaa !8
  %42 = getelementptr inbounds i8, ptr %37, i64 1
  store i8 %39, ptr %37, align 1, !tbaa !8
  %43 = icmp eq i64 %38, 0
  br i1 %43, label %44, label %34, !llvm.loop !52

44:                                               ; preds = %34, %33
  %45 = shl i64 %26, 1
  %46 = or disjoint i64 %45, 1
  %47 = icmp ult i64 %46, %2
  br i1 %47, label %11, label %48, !llvm.loop !75

48:                                               ; preds = %44, %25, %5
  ret void
}

; Function Attrs: nounwind optsize uwtable
define internal fastcc void @merge_sort(ptr noundef %0, i64 noundef %1, i64 noundef %2, ptr noundef %3, ptr noundef %4) unnamed_addr #2 {
  %6 = icmp ult i64 %1, 2
  br i1 %6, label %85, label %7

7:                                                ; preds = %5
  %8 = lshr i64 %1, 1
  tail call fastcc void @merge_sort(ptr noundef %0, i64 noundef %8, i64 noundef %2, ptr noundef %3, ptr noundef %4) #20
  %9 = mul i64 %8, %2
  %10 = getelementptr inbounds i8, ptr %0, i64 %9
  %11 = sub i64 %1, %8
  tail call fastcc void @merge_sort(ptr noundef %10, i64 noundef %11, i64 noundef %2, ptr noundef %3, ptr noundef %4) #20
  %12 = icmp eq i64 %9, 0
  br i1 %12, label %22, label %13

13:                                               ; preds = %13, %7
  %14 = phi ptr [ %18, %13 ], [ %0, %7 ]
  %15 = phi ptr [ %20, %13 ], [ %4, %7 ]
  %16 = phi i64 [ %17, %13 ], [ %9, %7 ]
  %17 = add i64 %16, -1
  %18 = getelementptr inbounds i8, ptr %14, i64 1
  %19 = load i8, ptr %14, align 1, !tbaa !8, !alias.scope !76, !noalias !79
  %20 = getelementptr inbounds i8, ptr %15, i64 1
  store i8 %19, ptr %15, align 1, !tbaa !8, !alias.scope !79, !noalias !76
  %21 = icmp eq i64 %17, 0
  br i1 %21, label %22, label %13, !llvm.loop !81

22:                                               ; preds = %13, %7
  %23 = icmp eq i64 %11, 0
  br i1 %23, label %71, label %24

24:                                               ; preds = %22
  %25 = icmp eq i64 %2, 0
  br label %26

26:                                               ; preds = %60, %24
  %27 = phi ptr [ %0, %24 ], [ %65, %60 ]
  %28 = phi ptr [ %4, %24 ], [ %64, %60 ]
  %29 = phi i64 [ %11, %24 ], [ %63, %60 ]
  %30 = phi ptr [ %10, %24 ], [ %62, %60 ]
  %31 = phi i64 [ %8, %24 ], [ %61, %60 ]
  %32 = tail call i32 %3(ptr noundef %28, ptr noundef %30) #21
  %33 = icmp slt i32 %32, 1
  br i1 %33, label %34, label %47

34:                                               ; preds = %26
  br i1 %25, label %44, label %35

35:                                               ; preds = %35, %34
  %36 = phi ptr [ %40, %35 ], [ %28, %34 ]
  %37 = phi ptr [ %42, %35 ], [ %27, %34 ]
  %38 = phi i64 [ %39, %35 ], [ %2, %34 ]
  %39 = add i64 %38, -1
  %40 = getelementptr inbounds i8, ptr %36, i64 1
  %41 = load i8, ptr %36, align 1, !tbaa !8, !alias.scope !82, !noalias !85
  %42 = getelementptr inbounds i8, ptr %37, i64 1
  store i8 %41, ptr %37, align 1, !tbaa !8, !alias.scope !85, !noalias !82
  %43 = icmp eq i64 %39, 0
  br i1 %43, label %44, label %35, !llvm.loop !81

44:                                               ; preds = %35, %34
  %45 = getelementptr inbounds i8, ptr %28, i64 %2
  %46 = add nsw i64 %31, -1
  br label %60

47:                                               ; preds = %26
  br i1 %25, label %57, label %48

48:                                               ; preds = %48, %47
  %49 = phi ptr [ %53, %48 ], [ %30, %47 ]
  %50 = phi ptr [ %55, %48 ], [ %27, %47 ]
  %51 = phi i64 [ %52, %48 ], [ %2, %47 ]
  %52 = add i64 %51, -1
  %53 = getelementptr inbounds i8, ptr %49, i64 1
  %54 = load i8, ptr %49, align 1, !tbaa !8, !alias.scope !87, !noalias !90
  %55 = getelementptr inbounds i8, ptr %50, i64 1
  store i8 %54, ptr %50, align 1, !tbaa !8, !alias.scope !90, !noalias !87
  %56 = icmp eq i64 %52, 0
  br i1 %56, label %57, label %48, !llvm.loop !81

57:                                               ; preds = %48, %47
  %58 = getelementptr inbounds i8, ptr %30, i64 %2
  %59 = add i64 %29, -1
  br label %60

60:                                               ; preds = %57, %44
  %61 = phi i64 [ %46, %44 ], [ %31, %57 ]
  %62 = phi ptr [ %30, %44 ], [ %58, %57 ]
  %63 = phi i64 [ %29, %44 ], [ %59, %57 ]
  %64 = phi ptr [ %45, %44 ], [ %28, %57 ]
  %65 = getelementptr inbounds i8, ptr %27, i64 %2
  %66 = icmp ne i64 %61, 0
  %67 = icmp ne i64 %63, 0
  %68 = select i1 %66, i1 %67, i1 false
  br i1 %68, label %26, label %69, !llvm.loop !92

69:                                               ; preds = %60
  %70 = mul i64 %61, %2
  br label %71

71:                                               ; preds = %69, %22
  %72 = phi i64 [ %70, %69 ], [ %9, %22 ]
  %73 = phi ptr [ %64, %69 ], [ %4, %22 ]
  %74 = phi ptr [ %65, %69 ], [ %0, %22 ]
  %75 = icmp eq i64 %72, 0
  br i1 %75, label %85, label %76

76:                                               ; preds = %76, %71
  %77 = phi ptr [ %81, %76 ], [ %73, %71 ]
  %78 = phi ptr [ %83, %76 ], [ %74, %71 ]
  %79 = phi i64 [ %80, %76 ], [ %72, %71 ]
  %80 = add i64 %79, -1
  %81 = getelementptr inbounds i8, ptr %77, i64 1
  %82 = load i8, ptr %77, align 1, !tbaa !8, !alias.scope !93, !noalias !96
  %83 = getelementptr inbounds i8, ptr %78, i64 1
  store i8 %82, ptr %78, align 1, !tbaa !8, !alias.scope !96, !noalias !93
  %84 = icmp eq i64 %80, 0
  br i1 %84, label %85, label %76, !llvm.loop !81

85:                                               ; preds = %76, %71, %5
  ret void
}

; Function Attrs: nounwind optsize uwtable
define internal ptr @strndup(ptr nocapture noundef readonly %0, i64 noundef %1) local_unnamed_addr #2 {
  %3 = icmp eq i64 %1, 0
  br i1 %3, label %12, label %4

4:                                                ; preds = %9, %2
  %5 = phi i64 [ %10, %9 ], [ 0, %2 ]
  %6 = getelementptr inbounds i8, ptr %0, i64 %5
  %7 = load i8, ptr %6, align 1, !tbaa !8
  %8 = icmp eq i8 %7, 0
  br i1 %8, label %12, label %9

9:                                                ; preds = %4
  %10 = add nuw i64 %5, 1
  %11 = icmp eq i64 %10, %1
  br i1 %11, label %12, label %4, !llvm.loop !55

12:                                               ; preds = %9, %4, %2
  %13 = phi i64 [ 0, %2 ], [ %5, %4 ], [ %1, %9 ]
  %14 = add i64 %13, 1
  %15 = tail call ptr @malloc(i64 noundef %14) #21
  %16 = icmp eq ptr %15, null
  br i1 %16, label %30, label %17

17:                                               ; preds = %12
  %18 = icmp eq i64 %13, 0
  br i1 %18, label %28, label %19

19:                                               ; preds = %19, %17
  %20 = phi ptr [ %24, %19 ], [ %0, %17 ]
  %21 = phi ptr [ %26, %19 ], [ %15, %17 ]
  %22 = phi i64 [ %23, %19 ], [ %13, %17 ]
  %23 = add i64 %22, -1
  %24 = getelementptr inbounds i8, ptr %20, i64 1
  %25 = load i8, ptr %20, align 1, !tbaa !8, !alias.scope !98, !noalias !101
  %26 = getelementptr inbounds i8, ptr %21, i64 1
  store i8 %25, ptr %21, align 1, !tbaa !8, !alias.scope !101, !noalias !98
  %27 = icmp eq i64 %23, 0
  br i1 %27, label %28, label %19, !llvm.loop !81

28:                                               ; preds = %19, %17
  %29 = getelementptr inbounds i8, ptr %15, i64 %13
  store i8 0, ptr %29, align 1, !tbaa !8
  br label %30

30:                                               ; preds = %28, %12
  ret ptr %15
}

; Function Attrs: nounwind optsize uwtable
define internal i32 @fgetc(ptr nocapture noundef %0) local_unnamed_addr #2 {
  %2 = load i8, ptr %0, align 8, !tbaa !42
  %3 = icmp eq i8 %2, 0
  br i1 %3, label %4, label %20

4:                                                ; preds = %1
  %5 = getelementptr inbounds i8, ptr %0, i64 2
  %6 = load i8, ptr %5, align 2, !tbaa !103
  %7 = icmp eq i8 %6, 0
  br i1 %7, label %12, label %8

8:                                                ; preds = %4
  store i8 0, ptr %5, align 2, !tbaa !103
  %9 = getelementptr inbounds i8, ptr %0, i64 3
  %10 = load i8, ptr %9, align 1, !tbaa !104
  %11 = zext i8 %10 to i32
  br label %20

12:                                               ; preds = %4
  %13 = getelementptr inbounds i8, ptr %0, i64 1
  %14 = load i8, ptr %13, align 1, !tbaa !105
  %15 = icmp eq i8 %14, 0
  br i1 %15, label %16, label %20

16:                                               ; preds = %12
  %17 = tail call i32 @getchar() #21
  %18 = icmp eq i32 %17, -1
  br i1 %18, label %19, label %20

19:                                               ; preds = %16
  store i8 1, ptr %13, align 1, !tbaa !105
  br label %20

20:                                               ; preds = %19, %16, %12, %8, %1
  %21 = phi i32 [ %11, %8 ], [ -1, %1 ], [ -1, %12 ], [ -1, %19 ], [ %17, %16 ]
  ret i32 %21
}

; Function Attrs: optsize
declare dso_local i32 @getchar() local_unnamed_addr #14

attributes #0 = { nounwind uwtable "min-legal-vector-width"="0" "no-trapping-math"="true" "stack-protector-buffer-size"="8" "target-cpu"="x86-64" "target-features"="+cmov,+cx8,+fxsr,+mmx,+sse,+sse2,+x87" "tune-cpu"="generic" }
attributes #1 = { nocallback nofree nosync nounwind willreturn memory(argmem: readwrite) }
attributes #2 = { nounwind optsize uwtable "min-legal-vector-width"="0" "no-builtins" "no-jump-tables"="true" "no-trapping-math"="true" "stack-protector-buffer-size"="8" "target-cpu"="x86-64" "target-features"="+cmov,+cx8,+fxsr,+mmx,+sse,+sse2,+x87" "tune-cpu"="generic" }
attributes #3 = { mustprogress nofree norecurse nosync nounwind optsize willreturn memory(none) uwtable "min-legal-vector-width"="0" "no-builtins" "no-jump-tables"="true" "no-trapping-math"="true" "stack-protector-buffer-size"="8" "target-cpu"="x86-64" "target-features"="+cmov,+cx8,+fxsr,+mmx,+sse,+sse2,+x87" "tune-cpu"="generic" }
attributes #4 = { mustprogress nofree nounwind willreturn allockind("alloc,zeroed") allocsize(0,1) memory(inaccessiblemem: readwrite) "alloc-family"="malloc" "no-trapping-math"="true" "stack-protector-buffer-size"="8" "target-cpu"="x86-64" "target-features"="+cmov,+cx8,+fxsr,+mmx,+sse,+sse2,+x87" "tune-cpu"="generic" }
attributes #5 = { noreturn nounwind "no-trapping-math"="true" "stack-protector-buffer-size"="8" "target-cpu"="x86-64" "target-features"="+cmov,+cx8,+fxsr,+mmx,+sse,+sse2,+x87" "tune-cpu"="generic" }
attributes #6 = { nofree norecurse nosync nounwind optsize memory(read, inaccessiblemem: none) uwtable "min-legal-vector-width"="0" "no-builtins" "no-jump-tables"="true" "no-trapping-math"="true" "stack-protector-buffer-size"="8" "target-cpu"="x86-64" "target-features"="+cmov,+cx8,+fxsr,+mmx,+sse,+sse2,+x87" "tune-cpu"="generic" }
attributes #7 = { nocallback nofree nounwind willreturn memory(argmem: readwrite) }
attributes #8 = { mustprogress nounwind willreturn allockind("free") memory(argmem: readwrite, inaccessiblemem: readwrite) "alloc-family"="malloc" "no-trapping-math"="true" "stack-protector-buffer-size"="8" "target-cpu"="x86-64" "target-features"="+cmov,+cx8,+fxsr,+mmx,+sse,+sse2,+x87" "tune-cpu"="generic" }
attributes #9 = { mustprogress nofree nounwind willreturn allockind("alloc,uninitialized") allocsize(0) memory(inaccessiblemem: readwrite) "alloc-family"="malloc" "no-trapping-math"="true" "stack-protector-buffer-size"="8" "target-cpu"="x86-64" "target-features"="+cmov,+cx8,+fxsr,+mmx,+sse,+sse2,+x87" "tune-cpu"="generic" }
attributes #10 = { mustprogress nofree nounwind willreturn memory(read, inaccessiblemem: none) uwtable "min-legal-vector-width"="0" "no-trapping-math"="true" "stack-protector-buffer-size"="8" "target-cpu"="x86-64" "target-features"="+cmov,+cx8,+fxsr,+mmx,+sse,+sse2,+x87" "tune-cpu"="generic" }
attributes #11 = { nocallback nofree nosync nounwind speculatable willreturn memory(none) }
attributes #12 = { nocallback nofree nounwind willreturn memory(argmem: write) }
attributes #13 = { nofree nounwind "no-trapping-math"="true" "stack-protector-buffer-size"="8" "target-cpu"="x86-64" "target-features"="+cmov,+cx8,+fxsr,+mmx,+sse,+sse2,+x87" "tune-cpu"="generic" }
attributes #14 = { optsize "no-builtins" "no-trapping-math"="true" "stack-protector-buffer-size"="8" "target-cpu"="x86-64" "target-features"="+cmov,+cx8,+fxsr,+mmx,+sse,+sse2,+x87" "tune-cpu"="generic" }
attributes #15 = { nounwind }
attributes #16 = { nounwind willreturn memory(read) }
attributes #17 = { allocsize(0,1) }
attributes #18 = { noreturn nounwind }
attributes #19 = { allocsize(0) }
attributes #20 = { nobuiltin optsize "no-builtins" }
attributes #21 = { nobuiltin nounwind optsize "no-builtins" }

!llvm.ident = !{!0, !0, !0, !0, !0}
!llvm.module.flags = !{!1, !2, !3, !4}

!0 = !{!"Debian clang version 19.1.7 (3~deb12u1)"}
!1 = !{i32 7, !"Dwarf Version", i32 5}
!2 = !{i32 2, !"Debug Info Version", i32 3}
!3 = !{i32 1, !"wchar_size", i32 4}
!4 = !{i32 7, !"uwtable", i32 2}
!5 = distinct !{!5, !6, !7}
!6 = !{!"llvm.loop.mustprogress"}
!7 = !{!"llvm.loop.unroll.disable"}
!8 = !{!9, !9, i64 0}
!9 = !{!"omnipotent char", !10, i64 0}
!10 = !{!"Simple C/C++ TBAA"}
!11 = distinct !{!11, !6, !7}
!12 = distinct !{!12, !6, !7}
!13 = !{!14, !15, i64 0}
!14 = !{!"entry", !15, i64 0, !16, i64 8, !16, i64 12, !16, i64 16}
!15 = !{!"any pointer", !9, i64 0}
!16 = !{!"int", !9, i64 0}
!17 = !{!14, !16, i64 8}
!18 = distinct !{!18, !7}
!19 = !{i64 0, i64 8, !20, i64 8, i64 4, !21, i64 12, i64 4, !21, i64 16, i64 4, !21}
!20 = !{!15, !15, i64 0}
!21 = !{!16, !16, i64 0}
!22 = distinct !{!22, !6, !7}
!23 = distinct !{!23, !6, !7}
!24 = distinct !{!24, !7}
!25 = !{!14, !16, i64 12}
!26 = !{!14, !16, i64 16}
!27 = distinct !{!27, !6, !7}
!28 = distinct !{!28, !6, !7}
!29 = distinct !{!29, !6, !7}
!30 = distinct !{!30, !6, !7}
!31 = distinct !{!31, !6, !7}
!32 = distinct !{!32, !6, !7}
!33 = distinct !{!33, !6, !7}
!34 = distinct !{!34, !7}
!35 = distinct !{!35, !6, !7}
!36 = distinct !{!36, !6, !7}
!37 = distinct !{!37, !6, !7}
!38 = distinct !{!38, !6}
!39 = distinct !{!39, !6}
!40 = distinct !{!40, !6}
!41 = distinct !{!41, !6}
!42 = !{!43, !9, i64 0}
!43 = !{!"__stream", !9, i64 0, !9, i64 1, !9, i64 2, !9, i64 3, !15, i64 8, !44, i64 16}
!44 = !{!"long", !9, i64 0}
!45 = !{!46}
!46 = distinct !{!46, !47, !"fwrite: %stream"}
!47 = distinct !{!47, !"fwrite"}
!48 = !{!49}
!49 = distinct !{!49, !47, !"fwrite: %from"}
!50 = distinct !{!50, !6}
!51 = distinct !{!51, !6}
!52 = distinct !{!52, !6}
!53 = distinct !{!53, !6}
!54 = distinct !{!54, !6}
!55 = distinct !{!55, !6}
!56 = distinct !{!56, !6}
!57 = distinct !{!57, !6}
!58 = !{!59}
!59 = distinct !{!59, !60, !"fwrite: %stream"}
!60 = distinct !{!60, !"fwrite"}
!61 = !{!62}
!62 = distinct !{!62, !60, !"fwrite: %from"}
!63 = !{!43, !44, i64 16}
!64 = !{!43, !15, i64 8}
!65 = !{!66}
!66 = distinct !{!66, !67, !"fwrite: %stream"}
!67 = distinct !{!67, !"fwrite"}
!68 = !{!69}
!69 = distinct !{!69, !67, !"fwrite: %from"}
!70 = !{!71}
!71 = distinct !{!71, !72, !"fwrite: %stream"}
!72 = distinct !{!72, !"fwrite"}
!73 = !{!74}
!74 = distinct !{!74, !72, !"fwrite: %from"}
!75 = distinct !{!75, !6}
!76 = !{!77}
!77 = distinct !{!77, !78, !"memcpy: %from"}
!78 = distinct !{!78, !"memcpy"}
!79 = !{!80}
!80 = distinct !{!80, !78, !"memcpy: %to"}
!81 = distinct !{!81, !6}
!82 = !{!83}
!83 = distinct !{!83, !84, !"memcpy: %from"}
!84 = distinct !{!84, !"memcpy"}
!85 = !{!86}
!86 = distinct !{!86, !84, !"memcpy: %to"}
!87 = !{!88}
!88 = distinct !{!88, !89, !"memcpy: %from"}
!89 = distinct !{!89, !"memcpy"}
!90 = !{!91}
!91 = distinct !{!91, !89, !"memcpy: %to"}
!92 = distinct !{!92, !6}
!93 = !{!94}
!94 = distinct !{!94, !95, !"memcpy: %from"}
!95 = distinct !{!95, !"memcpy"}
!96 = !{!97}
!97 = distinct !{!97, !95, !"memcpy: %to"}
!98 = !{!99}
!99 = distinct !{!99, !100, !"memcpy: %from"}
!100 = distinct !{!100, !"memcpy"}
!101 = !{!102}
!102 = distinct !{!102, !100, !"memcpy: %to"}
!103 = !{!43, !9, i64 2}
!104 = !{!43, !9, i64 3}
!105 = !{!43, !9, i64 1}
