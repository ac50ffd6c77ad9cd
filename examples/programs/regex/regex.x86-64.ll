source_filename = "compile.c"
target datalayout = "e-m:e-p270:32:32-p271:32:32-p272:64:64-i64:64-i128:128-f80:128-n8:16:32:64-S128"
target triple = "x86_64-unknown-linux-gnu"

%struct.regex = type { [400 x %struct.step], i32, i32, [24 x [32 x i8]], i32, ptr, i64 }
%struct.step = type { i32, i32, i32, i32 }
%struct.states = type { [400 x i32], [400 x i8], i32, i32 }
%struct.__stream = type { i8, i8, i8, i8, ptr, i64 }
%struct.reader = type { ptr, ptr, ptr }
%struct.part = type { i32, i32 }

@.str = private unnamed_addr constant [28 x i8] c"a group that was not opened\00", align 1
@.str.2 = private unnamed_addr constant [27 x i8] c"a group that is not closed\00", align 1
@.str.3 = private unnamed_addr constant [18 x i8] c"nothing to repeat\00", align 1
@.str.4 = private unnamed_addr constant [23 x i8] c"a backslash at the end\00", align 1
@.str.5 = private unnamed_addr constant [14 x i8] c"too many sets\00", align 1
@.str.6 = private unnamed_addr constant [28 x i8] c"a range that runs backwards\00", align 1
@.str.7 = private unnamed_addr constant [25 x i8] c"a set that is not closed\00", align 1
@.str.8 = private unnamed_addr constant [9 x i8] c"too long\00", align 1
@.str.9 = private unnamed_addr constant [2 x i8] c"\0A\00", align 1
@.str.1.10 = private unnamed_addr constant [33 x i8] c"%d matches, %d patterns refused\0A\00", align 1
@.str.2.16 = private unnamed_addr constant [5 x i8] c"/%s/\00", align 1
@regex = internal global %struct.regex zeroinitializer, align 8
@.str.3.17 = private unnamed_addr constant [21 x i8] c"  %d steps, %d sets\0A\00", align 1
@.str.4.18 = private unnamed_addr constant [13 x i8] c"  %s at %zu\0A\00", align 1
@.str.7.15 = private unnamed_addr constant [8 x i8] c"  %s%s\0A\00", align 1
@.str.8.13 = private unnamed_addr constant [1 x i8] zeroinitializer, align 1
@.str.9.14 = private unnamed_addr constant [3 x i8] c"- \00", align 1
@match_at.states = internal global [2 x %struct.states] zeroinitializer, align 16
@.str.10 = private unnamed_addr constant [1 x i8] zeroinitializer, align 1
@.str.1 = private unnamed_addr constant [7 x i8] c"(null)\00", align 1
@.str.2.17 = private unnamed_addr constant [2 x i8] c"-\00", align 1
@.str.3.18 = private unnamed_addr constant [2 x i8] c"+\00", align 1
@.str.4.16 = private unnamed_addr constant [2 x i8] c" \00", align 1
@.str.5.23 = private unnamed_addr constant [3 x i8] c"0X\00", align 1
@.str.6.22 = private unnamed_addr constant [3 x i8] c"0x\00", align 1
@__streams = internal global [3 x %struct.__stream] [%struct.__stream zeroinitializer, %struct.__stream { i8 1, i8 0, i8 0, i8 0, ptr null, i64 0 }, %struct.__stream { i8 2, i8 0, i8 0, i8 0, ptr null, i64 0 }], align 16
@.str.8.21 = private unnamed_addr constant [17 x i8] c"0123456789ABCDEF\00", align 1
@.str.9.15 = private unnamed_addr constant [17 x i8] c"0123456789abcdef\00", align 1

; Function Attrs: nounwind uwtable
define dso_local i32 @main() local_unnamed_addr #0 {
  %1 = alloca [300 x i8], align 16
  %2 = alloca %struct.reader, align 8
  %3 = alloca %struct.part, align 4
  %4 = alloca [200 x i8], align 16
  call void @llvm.lifetime.start.p0(i64 200, ptr nonnull %4) #9
  %5 = call ptr @fgets(ptr noundef nonnull %4, i32 noundef 200, ptr noundef nonnull @__streams)
  %6 = icmp eq ptr %5, null
  br i1 %6, label %253, label %7

7:                                                ; preds = %0
  %8 = getelementptr inbounds i8, ptr %4, i64 1
  %9 = getelementptr inbounds i8, ptr %2, i64 8
  %10 = getelementptr inbounds i8, ptr %2, i64 16
  %11 = getelementptr inbounds i8, ptr %3, i64 4
  br label %12

12:                                               ; preds = %245, %7
  %13 = phi i32 [ 0, %7 ], [ %248, %245 ]
  %14 = phi i32 [ 0, %7 ], [ %247, %245 ]
  %15 = phi i32 [ 0, %7 ], [ %246, %245 ]
  %16 = call i64 @strcspn(ptr noundef nonnull %4, ptr noundef nonnull @.str.9)
  %17 = getelementptr inbounds [200 x i8], ptr %4, i64 0, i64 %16
  store i8 0, ptr %17, align 1, !tbaa !5
  %18 = load i8, ptr %4, align 16, !tbaa !5
  %19 = icmp eq i8 %18, 47
  br i1 %19, label %20, label %98

20:                                               ; preds = %12
  %21 = call i32 @__print_text(ptr nonnull getelementptr inbounds (i8, ptr @__streams, i64 24), ptr nonnull @.str.2.16, i64 1) #9
  %22 = call i32 @__print_string(ptr nonnull getelementptr inbounds (i8, ptr @__streams, i64 24), ptr nonnull %8, i32 0, i32 0, i32 -1) #9
  %23 = call i32 @__print_text(ptr nonnull getelementptr inbounds (i8, ptr @__streams, i64 24), ptr nonnull getelementptr inbounds (i8, ptr @.str.2.16, i64 3), i64 1) #9
  call void @llvm.lifetime.start.p0(i64 24, ptr nonnull %2) #9
  store ptr @regex, ptr %2, align 8, !tbaa !8
  store ptr %8, ptr %9, align 8, !tbaa !11
  store ptr %8, ptr %10, align 8, !tbaa !12
  call void @llvm.lifetime.start.p0(i64 8, ptr nonnull %3) #9
  call void @llvm.memset.p0.i64(ptr noundef nonnull align 8 dereferenceable(7200) @regex, i8 0, i64 7200, i1 false)
  call fastcc void @alternatives(ptr noundef nonnull %2, ptr noundef nonnull %3)
  %24 = load ptr, ptr getelementptr inbounds (i8, ptr @regex, i64 7184), align 8, !tbaa !13
  %25 = icmp eq ptr %24, null
  br i1 %25, label %26, label %41

26:                                               ; preds = %20
  %27 = load ptr, ptr %10, align 8, !tbaa !12
  %28 = load i8, ptr %27, align 1, !tbaa !5
  %29 = icmp eq i8 %28, 41
  br i1 %29, label %30, label %41

30:                                               ; preds = %26
  %31 = load ptr, ptr %2, align 8, !tbaa !8
  %32 = getelementptr inbounds i8, ptr %31, i64 7184
  %33 = load ptr, ptr %32, align 8, !tbaa !13
  %34 = icmp eq ptr %33, null
  br i1 %34, label %35, label %41

35:                                               ; preds = %30
  store ptr @.str, ptr %32, align 8, !tbaa !13
  %36 = load ptr, ptr %9, align 8, !tbaa !11
  %37 = ptrtoint ptr %27 to i64
  %38 = ptrtoint ptr %36 to i64
  %39 = sub i64 %37, %38
  %40 = getelementptr inbounds i8, ptr %31, i64 7192
  store i64 %39, ptr %40, align 8, !tbaa !17
  br label %41

41:                                               ; preds = %35, %30, %26, %20
  %42 = load ptr, ptr getelementptr inbounds (i8, ptr @regex, i64 7184), align 8, !tbaa !13
  %43 = icmp eq ptr %42, null
  br i1 %43, label %44, label %85

44:                                               ; preds = %41
  %45 = load i32, ptr %3, align 4, !tbaa !18
  store i32 %45, ptr getelementptr inbounds (i8, ptr @regex, i64 6404), align 4, !tbaa !20
  %46 = load ptr, ptr %2, align 8, !tbaa !8
  %47 = getelementptr inbounds i8, ptr %46, i64 6400
  %48 = load i32, ptr %47, align 8, !tbaa !21
  %49 = icmp eq i32 %48, 400
  br i1 %49, label %50, label %61

50:                                               ; preds = %44
  %51 = getelementptr inbounds i8, ptr %46, i64 7184
  %52 = load ptr, ptr %51, align 8, !tbaa !13
  %53 = icmp eq ptr %52, null
  br i1 %53, label %54, label %68

54:                                               ; preds = %50
  store ptr @.str.8, ptr %51, align 8, !tbaa !13
  %55 = load ptr, ptr %10, align 8, !tbaa !12
  %56 = load ptr, ptr %9, align 8, !tbaa !11
  %57 = ptrtoint ptr %55 to i64
  %58 = ptrtoint ptr %56 to i64
  %59 = sub i64 %57, %58
  %60 = getelementptr inbounds i8, ptr %46, i64 7192
  store i64 %59, ptr %60, align 8, !tbaa !17
  br label %68

61:                                               ; preds = %44
  %62 = sext i32 %48 to i64
  %63 = getelementptr inbounds [400 x %struct.step], ptr %46, i64 0, i64 %62
  store i32 7, ptr %63, align 4, !tbaa !22
  %64 = getelementptr inbounds i8, ptr %63, i64 4
  store i32 0, ptr %64, align 4, !tbaa !24
  %65 = getelementptr inbounds i8, ptr %63, i64 12
  store i32 -1, ptr %65, align 4, !tbaa !25
  %66 = getelementptr inbounds i8, ptr %63, i64 8
  store i32 -1, ptr %66, align 4, !tbaa !26
  %67 = add nsw i32 %48, 1
  store i32 %67, ptr %47, align 8, !tbaa !21
  br label %68

68:                                               ; preds = %61, %54, %50
  %69 = phi i32 [ %48, %61 ], [ 0, %50 ], [ 0, %54 ]
  %70 = load i32, ptr %11, align 4, !tbaa !27
  %71 = sext i32 %70 to i64
  %72 = getelementptr inbounds [400 x %struct.step], ptr @regex, i64 0, i64 %71, i32 2
  store i32 %69, ptr %72, align 8, !tbaa !26
  %73 = load ptr, ptr getelementptr inbounds (i8, ptr @regex, i64 7184), align 8, !tbaa !13
  %74 = icmp eq ptr %73, null
  call void @llvm.lifetime.end.p0(i64 8, ptr nonnull %3) #9
  call void @llvm.lifetime.end.p0(i64 24, ptr nonnull %2) #9
  br i1 %74, label %75, label %86

75:                                               ; preds = %68
  %76 = load i32, ptr getelementptr inbounds (i8, ptr @regex, i64 6400), align 8, !tbaa !21
  %77 = load i32, ptr getelementptr inbounds (i8, ptr @regex, i64 7176), align 8, !tbaa !28
  %78 = call i32 @__print_text(ptr nonnull getelementptr inbounds (i8, ptr @__streams, i64 24), ptr nonnull @.str.3.17, i64 2) #9
  %79 = sext i32 %76 to i64
  %80 = call i32 @__print_signed(ptr nonnull getelementptr inbounds (i8, ptr @__streams, i64 24), i64 %79, i32 0, i32 0, i32 -1) #9
  %81 = call i32 @__print_text(ptr nonnull getelementptr inbounds (i8, ptr @__streams, i64 24), ptr nonnull getelementptr inbounds (i8, ptr @.str.3.17, i64 4), i64 8) #9
  %82 = sext i32 %77 to i64
  %83 = call i32 @__print_signed(ptr nonnull getelementptr inbounds (i8, ptr @__streams, i64 24), i64 %82, i32 0, i32 0, i32 -1) #9
  %84 = call i32 @__print_text(ptr nonnull getelementptr inbounds (i8, ptr @__streams, i64 24), ptr nonnull getelementptr inbounds (i8, ptr @.str.3.17, i64 14), i64 6) #9
  br label %94

85:                                               ; preds = %41
  call void @llvm.lifetime.end.p0(i64 8, ptr nonnull %3) #9
  call void @llvm.lifetime.end.p0(i64 24, ptr nonnull %2) #9
  br label %86

86:                                               ; preds = %85, %68
  %87 = load ptr, ptr getelementptr inbounds (i8, ptr @regex, i64 7184), align 8, !tbaa !13
  %88 = load i64, ptr getelementptr inbounds (i8, ptr @regex, i64 7192), align 8, !tbaa !17
  %89 = call i32 @__print_text(ptr nonnull getelementptr inbounds (i8, ptr @__streams, i64 24), ptr nonnull @.str.4.18, i64 2) #9
  %90 = call i32 @__print_string(ptr nonnull getelementptr inbounds (i8, ptr @__streams, i64 24), ptr %87, i32 0, i32 0, i32 -1) #9
  %91 = call i32 @__print_text(ptr nonnull getelementptr inbounds (i8, ptr @__streams, i64 24), ptr nonnull getelementptr inbounds (i8, ptr @.str.4.18, i64 4), i64 4) #9
  %92 = call i32 @__print_unsigned(ptr nonnull getelementptr inbounds (i8, ptr @__streams, i64 24), i64 %88, i32 10, i32 0, i32 0, i32 -1) #9
  %93 = call i32 @__print_text(ptr nonnull getelementptr inbounds (i8, ptr @__streams, i64 24), ptr nonnull getelementptr inbounds (i8, ptr @.str.4.18, i64 11), i64 1) #9
  br label %94

94:                                               ; preds = %86, %75
  %95 = phi i32 [ 1, %75 ], [ 0, %86 ]
  %96 = xor i32 %95, 1
  %97 = add nsw i32 %96, %13
  br label %245

98:                                               ; preds = %12
  %99 = icmp eq i32 %15, 0
  br i1 %99, label %245, label %100

100:                                              ; preds = %98
  call void @llvm.lifetime.start.p0(i64 300, ptr nonnull %1) #9
  store i8 0, ptr %1, align 16, !tbaa !5
  br label %101

101:                                              ; preds = %231, %100
  %102 = phi i64 [ undef, %100 ], [ %194, %231 ]
  %103 = phi ptr [ %4, %100 ], [ %232, %231 ]
  %104 = phi i32 [ 0, %100 ], [ %233, %231 ]
  br label %105

105:                                              ; preds = %193, %101
  %106 = phi i64 [ %102, %101 ], [ %194, %193 ]
  %107 = phi i64 [ 0, %101 ], [ %197, %193 ]
  %108 = phi i64 [ undef, %101 ], [ %195, %193 ]
  call void @llvm.memset.p0.i64(ptr noundef nonnull align 16 dereferenceable(408) getelementptr inbounds (i8, ptr @match_at.states, i64 1600), i8 0, i64 408, i1 false)
  %109 = load i32, ptr getelementptr inbounds (i8, ptr @regex, i64 6404), align 4, !tbaa !20
  %110 = icmp eq i64 %107, 0
  %111 = zext i1 %110 to i32
  %112 = getelementptr inbounds i8, ptr %103, i64 %107
  %113 = load i8, ptr %112, align 1, !tbaa !5
  %114 = icmp eq i8 %113, 0
  %115 = zext i1 %114 to i32
  call fastcc void @enter(ptr noundef nonnull @match_at.states, i32 noundef %109, i32 noundef %111, i32 noundef %115)
  br label %116

116:                                              ; preds = %182, %105
  %117 = phi i64 [ -1, %105 ], [ %125, %182 ]
  %118 = phi i64 [ 0, %105 ], [ %186, %182 ]
  %119 = phi ptr [ getelementptr inbounds (i8, ptr @match_at.states, i64 2008), %105 ], [ %183, %182 ]
  %120 = phi ptr [ @match_at.states, %105 ], [ %184, %182 ]
  %121 = phi i64 [ undef, %105 ], [ %185, %182 ]
  %122 = getelementptr inbounds i8, ptr %120, i64 2004
  %123 = load i32, ptr %122, align 4, !tbaa !29
  %124 = icmp eq i32 %123, 0
  %125 = select i1 %124, i64 %117, i64 %118
  %126 = getelementptr i8, ptr %112, i64 %118
  %127 = load i8, ptr %126, align 1, !tbaa !5
  %128 = getelementptr inbounds i8, ptr %120, i64 2000
  %129 = load i32, ptr %128, align 4, !tbaa !31
  %130 = icmp ne i32 %129, 0
  %131 = icmp ne i8 %127, 0
  %132 = select i1 %130, i1 %131, i1 false
  br i1 %132, label %133, label %182

133:                                              ; preds = %116
  %134 = getelementptr inbounds i8, ptr %119, i64 1600
  call void @llvm.memset.p0.i64(ptr noundef nonnull align 4 dereferenceable(408) %134, i8 0, i64 408, i1 false)
  %135 = load i32, ptr %128, align 4, !tbaa !31
  %136 = icmp sgt i32 %135, 0
  br i1 %136, label %137, label %182

137:                                              ; preds = %133
  %138 = zext i8 %127 to i32
  %139 = lshr i32 %138, 3
  %140 = zext nneg i32 %139 to i64
  %141 = and i32 %138, 7
  %142 = icmp ne i8 %127, 10
  %143 = zext i1 %142 to i32
  %144 = getelementptr i8, ptr %126, i64 1
  br label %145

145:                                              ; preds = %177, %137
  %146 = phi i64 [ 0, %137 ], [ %178, %177 ]
  %147 = getelementptr inbounds [400 x i32], ptr %120, i64 0, i64 %146
  %148 = load i32, ptr %147, align 4, !tbaa !32
  %149 = sext i32 %148 to i64
  %150 = getelementptr inbounds [400 x %struct.step], ptr @regex, i64 0, i64 %149
  %151 = load i32, ptr %150, align 8, !tbaa !22
  switch i32 %151, label %168 [
    i32 0, label %152
    i32 1, label %158
    i32 2, label %159
  ]

152:                                              ; preds = %145
  %153 = getelementptr inbounds i8, ptr %150, i64 4
  %154 = load i32, ptr %153, align 4, !tbaa !24
  %155 = trunc i32 %154 to i8
  %156 = icmp eq i8 %127, %155
  %157 = zext i1 %156 to i32
  br label %168

158:                                              ; preds = %145
  br label %168

159:                                              ; preds = %145
  %160 = getelementptr inbounds i8, ptr %150, i64 4
  %161 = load i32, ptr %160, align 4, !tbaa !24
  %162 = sext i32 %161 to i64
  %163 = getelementptr inbounds [24 x [32 x i8]], ptr getelementptr inbounds (i8, ptr @regex, i64 6408), i64 0, i64 %162, i64 %140
  %164 = load i8, ptr %163, align 1, !tbaa !5
  %165 = zext i8 %164 to i32
  %166 = lshr i32 %165, %141
  %167 = and i32 %166, 1
  br label %168

168:                                              ; preds = %159, %158, %152, %145
  %169 = phi i32 [ %167, %159 ], [ %143, %158 ], [ %157, %152 ], [ 0, %145 ]
  %170 = icmp eq i32 %169, 0
  br i1 %170, label %177, label %171

171:                                              ; preds = %168
  %172 = getelementptr inbounds i8, ptr %150, i64 8
  %173 = load i32, ptr %172, align 8, !tbaa !26
  %174 = load i8, ptr %144, align 1, !tbaa !5
  %175 = icmp eq i8 %174, 0
  %176 = zext i1 %175 to i32
  call fastcc void @enter(ptr noundef %119, i32 noundef %173, i32 noundef 0, i32 noundef %176)
  br label %177

177:                                              ; preds = %171, %168
  %178 = add nuw nsw i64 %146, 1
  %179 = load i32, ptr %128, align 4, !tbaa !31
  %180 = sext i32 %179 to i64
  %181 = icmp slt i64 %178, %180
  br i1 %181, label %145, label %182, !llvm.loop !33

182:                                              ; preds = %177, %133, %116
  %183 = phi ptr [ %119, %116 ], [ %120, %133 ], [ %120, %177 ]
  %184 = phi ptr [ %120, %116 ], [ %119, %133 ], [ %119, %177 ]
  %185 = phi i64 [ %125, %116 ], [ %121, %133 ], [ %121, %177 ]
  %186 = add i64 %118, 1
  br i1 %132, label %116, label %187, !llvm.loop !36

187:                                              ; preds = %182
  %188 = icmp sgt i64 %185, -1
  br i1 %188, label %193, label %189

189:                                              ; preds = %187
  %190 = load i8, ptr %112, align 1, !tbaa !5
  %191 = icmp ne i8 %190, 0
  %192 = select i1 %191, i64 %108, i64 -1
  br label %193

193:                                              ; preds = %189, %187
  %194 = phi i64 [ %106, %189 ], [ %107, %187 ]
  %195 = phi i64 [ %192, %189 ], [ %185, %187 ]
  %196 = phi i1 [ %191, %189 ], [ false, %187 ]
  %197 = add i64 %107, 1
  br i1 %196, label %105, label %198, !llvm.loop !37

198:                                              ; preds = %193
  %199 = icmp slt i64 %195, 0
  br i1 %199, label %231, label %200

200:                                              ; preds = %198
  %201 = call i64 @strlen(ptr noundef nonnull dereferenceable(1) %1) #9
  %202 = call i64 @strlen(ptr noundef nonnull dereferenceable(1) %103) #9
  %203 = add i64 %201, -297
  %204 = add i64 %203, %202
  %205 = icmp ult i64 %204, -301
  br i1 %205, label %231, label %206

206:                                              ; preds = %200
  %207 = call ptr @strncat(ptr noundef nonnull dereferenceable(1) %1, ptr noundef %103, i64 noundef %194) #9
  %208 = call i64 @strlen(ptr nonnull dereferenceable(1) %1)
  %209 = getelementptr inbounds i8, ptr %1, i64 %208
  store i16 91, ptr %209, align 1
  %210 = getelementptr inbounds i8, ptr %103, i64 %194
  %211 = call ptr @strncat(ptr noundef nonnull dereferenceable(1) %1, ptr noundef %210, i64 noundef %195) #9
  %212 = call i64 @strlen(ptr nonnull dereferenceable(1) %1)
  %213 = getelementptr inbounds i8, ptr %1, i64 %212
  store i16 93, ptr %213, align 1
  %214 = add nsw i32 %104, 1
  %215 = add i64 %195, %194
  %216 = getelementptr inbounds i8, ptr %103, i64 %215
  %217 = icmp eq i64 %195, 0
  br i1 %217, label %231, label %218

218:                                              ; preds = %206
  %219 = load i8, ptr %216, align 1, !tbaa !5
  %220 = icmp eq i8 %219, 0
  %221 = load i8, ptr %4, align 16
  %222 = icmp eq i8 %221, 0
  %223 = select i1 %220, i1 true, i1 %222
  br i1 %223, label %231, label %224

224:                                              ; preds = %218
  %225 = load i32, ptr getelementptr inbounds (i8, ptr @regex, i64 6404), align 4, !tbaa !20
  %226 = sext i32 %225 to i64
  %227 = getelementptr inbounds [400 x %struct.step], ptr @regex, i64 0, i64 %226
  %228 = load i32, ptr %227, align 8, !tbaa !22
  %229 = icmp eq i32 %228, 3
  %230 = select i1 %229, i32 2, i32 0
  br label %231

231:                                              ; preds = %224, %218, %206, %200, %198
  %232 = phi ptr [ %103, %200 ], [ %103, %198 ], [ %216, %218 ], [ %216, %206 ], [ %216, %224 ]
  %233 = phi i32 [ %104, %200 ], [ %104, %198 ], [ %214, %218 ], [ %214, %206 ], [ %214, %224 ]
  %234 = phi i32 [ 2, %200 ], [ 2, %198 ], [ 2, %218 ], [ 2, %206 ], [ %230, %224 ]
  %235 = icmp eq i32 %234, 0
  br i1 %235, label %101, label %236

236:                                              ; preds = %231
  %237 = call ptr @strcat(ptr noundef nonnull dereferenceable(1) %1, ptr noundef nonnull dereferenceable(1) %232) #9
  %238 = icmp eq i32 %233, 0
  %239 = select i1 %238, ptr @.str.9.14, ptr @.str.8.13
  %240 = call i32 @__print_text(ptr nonnull getelementptr inbounds (i8, ptr @__streams, i64 24), ptr nonnull @.str.7.15, i64 2) #9
  %241 = call i32 @__print_string(ptr nonnull getelementptr inbounds (i8, ptr @__streams, i64 24), ptr nonnull %239, i32 0, i32 0, i32 -1) #9
  %242 = call i32 @__print_string(ptr nonnull getelementptr inbounds (i8, ptr @__streams, i64 24), ptr nonnull %1, i32 0, i32 0, i32 -1) #9
  %243 = call i32 @__print_text(ptr nonnull getelementptr inbounds (i8, ptr @__streams, i64 24), ptr nonnull getelementptr inbounds (i8, ptr @.str.7.15, i64 6), i64 1) #9
  call void @llvm.lifetime.end.p0(i64 300, ptr nonnull %1) #9
  %244 = add nsw i32 %233, %14
  br label %245

245:                                              ; preds = %236, %98, %94
  %246 = phi i32 [ %95, %94 ], [ 1, %236 ], [ 0, %98 ]
  %247 = phi i32 [ %14, %94 ], [ %244, %236 ], [ %14, %98 ]
  %248 = phi i32 [ %97, %94 ], [ %13, %236 ], [ %13, %98 ]
  %249 = call ptr @fgets(ptr noundef nonnull %4, i32 noundef 200, ptr noundef nonnull @__streams)
  %250 = icmp eq ptr %249, null
  br i1 %250, label %251, label %12, !llvm.loop !38

251:                                              ; preds = %245
  %252 = sext i32 %248 to i64
  br label %253

253:                                              ; preds = %251, %0
  %254 = phi i32 [ 0, %0 ], [ %247, %251 ]
  %255 = phi i64 [ 0, %0 ], [ %252, %251 ]
  %256 = sext i32 %254 to i64
  %257 = call i32 @__print_signed(ptr nonnull getelementptr inbounds (i8, ptr @__streams, i64 24), i64 %256, i32 0, i32 0, i32 -1) #9
  %258 = call i32 @__print_text(ptr nonnull getelementptr inbounds (i8, ptr @__streams, i64 24), ptr nonnull getelementptr inbounds (i8, ptr @.str.1.10, i64 2), i64 10) #9
  %259 = call i32 @__print_signed(ptr nonnull getelementptr inbounds (i8, ptr @__streams, i64 24), i64 %255, i32 0, i32 0, i32 -1) #9
  %260 = call i32 @__print_text(ptr nonnull getelementptr inbounds (i8, ptr @__streams, i64 24), ptr nonnull getelementptr inbounds (i8, ptr @.str.1.10, i64 14), i64 18) #9
  call void @llvm.lifetime.end.p0(i64 200, ptr nonnull %4) #9
  ret i32 %254
}

; Function Attrs: nocallback nofree nosync nounwind willreturn memory(argmem: readwrite)
declare void @llvm.lifetime.start.p0(i64 immarg, ptr nocapture) #1

; Function Attrs: nounwind optsize uwtable
define internal noundef ptr @fgets(ptr noalias noundef writeonly %0, i32 noundef %1, ptr noalias nocapture noundef %2) local_unnamed_addr #2 {
  %4 = icmp slt i32 %1, 1
  br i1 %4, label %23, label %5

5:                                                ; preds = %3
  %6 = icmp eq i32 %1, 1
  br i1 %6, label %21, label %7

7:                                                ; preds = %12, %5
  %8 = phi i32 [ %13, %12 ], [ %1, %5 ]
  %9 = phi ptr [ %15, %12 ], [ %0, %5 ]
  %10 = tail call i32 @fgetc(ptr noundef %2) #10
  %11 = icmp eq i32 %10, -1
  br i1 %11, label %19, label %12

12:                                               ; preds = %7
  %13 = add nsw i32 %8, -1
  %14 = trunc i32 %10 to i8
  %15 = getelementptr inbounds i8, ptr %9, i64 1
  store i8 %14, ptr %9, align 1, !tbaa !5
  %16 = icmp sgt i32 %8, 2
  %17 = icmp ne i32 %10, 10
  %18 = and i1 %16, %17
  br i1 %18, label %7, label %21, !llvm.loop !39

19:                                               ; preds = %7
  %20 = icmp eq ptr %9, %0
  br i1 %20, label %23, label %21

21:                                               ; preds = %19, %12, %5
  %22 = phi ptr [ %9, %19 ], [ %0, %5 ], [ %15, %12 ]
  store i8 0, ptr %22, align 1, !tbaa !5
  br label %23

23:                                               ; preds = %21, %19, %3
  %24 = phi ptr [ %0, %21 ], [ null, %3 ], [ null, %19 ]
  ret ptr %24
}

; Function Attrs: nofree norecurse nosync nounwind optsize memory(read, inaccessiblemem: none) uwtable
define internal i64 @strcspn(ptr nocapture noundef readonly %0, ptr nocapture noundef readonly %1) local_unnamed_addr #3 {
  %3 = tail call fastcc i64 @span(ptr noundef %0, ptr noundef %1, i32 noundef 0) #10
  ret i64 %3
}

; Function Attrs: nounwind optsize uwtable
define internal noundef i32 @__print_text(ptr nocapture noundef %0, ptr nocapture noundef readonly %1, i64 noundef %2) local_unnamed_addr #2 {
  %4 = load i8, ptr %0, align 8, !tbaa !40, !alias.scope !42, !noalias !45
  %5 = icmp eq i8 %4, 0
  %6 = icmp eq i64 %2, 0
  %7 = or i1 %6, %5
  br i1 %7, label %16, label %8

8:                                                ; preds = %8, %3
  %9 = phi i64 [ %14, %8 ], [ 0, %3 ]
  %10 = getelementptr inbounds i8, ptr %1, i64 %9
  %11 = load i8, ptr %10, align 1, !tbaa !5, !alias.scope !45, !noalias !42
  %12 = zext i8 %11 to i32
  %13 = tail call i32 @fputc(i32 noundef %12, ptr noundef nonnull %0) #10, !noalias !45
  %14 = add nuw i64 %9, 1
  %15 = icmp eq i64 %14, %2
  br i1 %15, label %16, label %8, !llvm.loop !47

16:                                               ; preds = %8, %3
  %17 = trunc i64 %2 to i32
  ret i32 %17
}

; Function Attrs: nounwind optsize uwtable
define internal i32 @__print_string(ptr nocapture noundef %0, ptr noundef %1, i32 noundef %2, i32 noundef %3, i32 noundef %4) local_unnamed_addr #2 {
  %6 = icmp eq ptr %1, null
  %7 = icmp ult i32 %4, 6
  %8 = select i1 %7, ptr @.str.10, ptr @.str.1
  %9 = select i1 %6, ptr %8, ptr %1
  %10 = icmp slt i32 %4, 0
  br i1 %10, label %11, label %20

11:                                               ; preds = %11, %5
  %12 = phi ptr [ %15, %11 ], [ %9, %5 ]
  %13 = load i8, ptr %12, align 1, !tbaa !5
  %14 = icmp eq i8 %13, 0
  %15 = getelementptr inbounds i8, ptr %12, i64 1
  br i1 %14, label %16, label %11, !llvm.loop !48

16:                                               ; preds = %11
  %17 = ptrtoint ptr %12 to i64
  %18 = ptrtoint ptr %9 to i64
  %19 = sub i64 %17, %18
  br label %31

20:                                               ; preds = %5
  %21 = zext nneg i32 %4 to i64
  %22 = icmp eq i32 %4, 0
  br i1 %22, label %31, label %23

23:                                               ; preds = %28, %20
  %24 = phi i64 [ %29, %28 ], [ 0, %20 ]
  %25 = getelementptr inbounds i8, ptr %9, i64 %24
  %26 = load i8, ptr %25, align 1, !tbaa !5
  %27 = icmp eq i8 %26, 0
  br i1 %27, label %31, label %28

28:                                               ; preds = %23
  %29 = add nuw nsw i64 %24, 1
  %30 = icmp eq i64 %29, %21
  br i1 %30, label %31, label %23, !llvm.loop !49

31:                                               ; preds = %28, %23, %20, %16
  %32 = phi i64 [ %19, %16 ], [ 0, %20 ], [ %24, %23 ], [ %21, %28 ]
  %33 = trunc i64 %32 to i32
  %34 = tail call fastcc i32 @padded(ptr noundef %0, ptr noundef nonnull %9, i32 noundef %33, i32 noundef %2, i32 noundef %3) #10
  ret i32 %34
}

; Function Attrs: nocallback nofree nounwind willreturn memory(argmem: write)
declare void @llvm.memset.p0.i64(ptr nocapture writeonly, i8, i64, i1 immarg) #4

; Function Attrs: nofree nosync nounwind memory(readwrite, inaccessiblemem: none) uwtable
define internal fastcc void @alternatives(ptr nocapture noundef %0, ptr nocapture noundef %1) unnamed_addr #5 {
  %3 = alloca %struct.part, align 8
  %4 = alloca %struct.part, align 8
  %5 = load ptr, ptr %0, align 8, !tbaa !8
  %6 = getelementptr inbounds i8, ptr %5, i64 6400
  %7 = load i32, ptr %6, align 8, !tbaa !21
  %8 = icmp eq i32 %7, 400
  br i1 %8, label %9, label %22

9:                                                ; preds = %2
  %10 = getelementptr inbounds i8, ptr %5, i64 7184
  %11 = load ptr, ptr %10, align 8, !tbaa !13
  %12 = icmp eq ptr %11, null
  br i1 %12, label %13, label %29

13:                                               ; preds = %9
  store ptr @.str.8, ptr %10, align 8, !tbaa !13
  %14 = getelementptr inbounds i8, ptr %0, i64 16
  %15 = load ptr, ptr %14, align 8, !tbaa !12
  %16 = getelementptr inbounds i8, ptr %0, i64 8
  %17 = load ptr, ptr %16, align 8, !tbaa !11
  %18 = ptrtoint ptr %15 to i64
  %19 = ptrtoint ptr %17 to i64
  %20 = sub i64 %18, %19
  %21 = getelementptr inbounds i8, ptr %5, i64 7192
  store i64 %20, ptr %21, align 8, !tbaa !17
  br label %29

22:                                               ; preds = %2
  %23 = sext i32 %7 to i64
  %24 = getelementptr inbounds [400 x %struct.step], ptr %5, i64 0, i64 %23
  store i32 6, ptr %24, align 4, !tbaa !22
  %25 = getelementptr inbounds i8, ptr %24, i64 4
  store i32 0, ptr %25, align 4, !tbaa !24
  %26 = getelementptr inbounds i8, ptr %24, i64 12
  store i32 -1, ptr %26, align 4, !tbaa !25
  %27 = getelementptr inbounds i8, ptr %24, i64 8
  store i32 -1, ptr %27, align 4, !tbaa !26
  %28 = add nsw i32 %7, 1
  store i32 %28, ptr %6, align 8, !tbaa !21
  br label %29

29:                                               ; preds = %22, %13, %9
  %30 = phi i32 [ %7, %22 ], [ 0, %9 ], [ 0, %13 ]
  %31 = getelementptr inbounds i8, ptr %1, i64 4
  store i32 %30, ptr %31, align 4, !tbaa !27
  store i32 %30, ptr %1, align 4, !tbaa !18
  %32 = load ptr, ptr %0, align 8, !tbaa !8
  %33 = getelementptr inbounds i8, ptr %32, i64 7184
  %34 = load ptr, ptr %33, align 8, !tbaa !13
  %35 = icmp eq ptr %34, null
  br i1 %35, label %36, label %53

36:                                               ; preds = %29
  %37 = getelementptr inbounds i8, ptr %0, i64 16
  %38 = getelementptr inbounds i8, ptr %4, i64 4
  br label %39

39:                                               ; preds = %42, %36
  %40 = load ptr, ptr %37, align 8, !tbaa !12
  %41 = load i8, ptr %40, align 1, !tbaa !5
  switch i8 %41, label %42 [
    i8 0, label %53
    i8 124, label %53
    i8 41, label %53
  ]

42:                                               ; preds = %39
  call void @llvm.lifetime.start.p0(i64 8, ptr nonnull %4) #9
  store i64 0, ptr %4, align 8
  call fastcc void @repeated(ptr noundef nonnull %0, ptr noundef nonnull %4)
  %43 = load i32, ptr %4, align 8, !tbaa !18
  %44 = load ptr, ptr %0, align 8, !tbaa !8
  %45 = load i32, ptr %31, align 4, !tbaa !27
  %46 = sext i32 %45 to i64
  %47 = getelementptr inbounds [400 x %struct.step], ptr %44, i64 0, i64 %46, i32 2
  store i32 %43, ptr %47, align 8, !tbaa !26
  %48 = load i32, ptr %38, align 4, !tbaa !27
  store i32 %48, ptr %31, align 4, !tbaa !27
  call void @llvm.lifetime.end.p0(i64 8, ptr nonnull %4) #9
  %49 = load ptr, ptr %0, align 8, !tbaa !8
  %50 = getelementptr inbounds i8, ptr %49, i64 7184
  %51 = load ptr, ptr %50, align 8, !tbaa !13
  %52 = icmp eq ptr %51, null
  br i1 %52, label %39, label %53, !llvm.loop !50

53:                                               ; preds = %42, %39, %39, %39, %29
  %54 = getelementptr inbounds i8, ptr %0, i64 16
  %55 = load ptr, ptr %0, align 8, !tbaa !8
  %56 = getelementptr inbounds i8, ptr %55, i64 7184
  %57 = load ptr, ptr %56, align 8, !tbaa !13
  %58 = icmp eq ptr %57, null
  br i1 %58, label %59, label %167

59:                                               ; preds = %53
  %60 = getelementptr inbounds i8, ptr %0, i64 8
  %61 = getelementptr inbounds i8, ptr %3, i64 4
  br label %62

62:                                               ; preds = %151, %59
  %63 = phi ptr [ %56, %59 ], [ %164, %151 ]
  %64 = phi ptr [ %55, %59 ], [ %163, %151 ]
  %65 = load ptr, ptr %54, align 8, !tbaa !12
  %66 = load i8, ptr %65, align 1, !tbaa !5
  %67 = icmp eq i8 %66, 124
  br i1 %67, label %68, label %167

68:                                               ; preds = %62
  %69 = getelementptr inbounds i8, ptr %65, i64 1
  store ptr %69, ptr %54, align 8, !tbaa !12
  %70 = getelementptr inbounds i8, ptr %64, i64 6400
  %71 = load i32, ptr %70, align 8, !tbaa !21
  %72 = icmp eq i32 %71, 400
  br i1 %72, label %73, label %79

73:                                               ; preds = %68
  store ptr @.str.8, ptr %63, align 8, !tbaa !13
  %74 = load ptr, ptr %60, align 8, !tbaa !11
  %75 = ptrtoint ptr %69 to i64
  %76 = ptrtoint ptr %74 to i64
  %77 = sub i64 %75, %76
  %78 = getelementptr inbounds i8, ptr %64, i64 7192
  store i64 %77, ptr %78, align 8, !tbaa !17
  br label %86

79:                                               ; preds = %68
  %80 = sext i32 %71 to i64
  %81 = getelementptr inbounds [400 x %struct.step], ptr %64, i64 0, i64 %80
  store i32 6, ptr %81, align 4, !tbaa !22
  %82 = getelementptr inbounds i8, ptr %81, i64 4
  store i32 0, ptr %82, align 4, !tbaa !24
  %83 = getelementptr inbounds i8, ptr %81, i64 12
  store i32 -1, ptr %83, align 4, !tbaa !25
  %84 = getelementptr inbounds i8, ptr %81, i64 8
  store i32 -1, ptr %84, align 4, !tbaa !26
  %85 = add nsw i32 %71, 1
  store i32 %85, ptr %70, align 8, !tbaa !21
  br label %86

86:                                               ; preds = %79, %73
  %87 = phi i32 [ %71, %79 ], [ 0, %73 ]
  %88 = load ptr, ptr %0, align 8, !tbaa !8
  %89 = getelementptr inbounds i8, ptr %88, i64 7184
  %90 = load ptr, ptr %89, align 8, !tbaa !13
  %91 = icmp eq ptr %90, null
  br i1 %91, label %92, label %107

92:                                               ; preds = %98, %86
  %93 = phi i1 [ %106, %98 ], [ %91, %86 ]
  %94 = phi ptr [ %100, %98 ], [ %88, %86 ]
  %95 = phi i32 [ %103, %98 ], [ %87, %86 ]
  %96 = load ptr, ptr %54, align 8, !tbaa !12
  %97 = load i8, ptr %96, align 1, !tbaa !5
  switch i8 %97, label %98 [
    i8 0, label %107
    i8 124, label %107
    i8 41, label %107
  ]

98:                                               ; preds = %92
  call void @llvm.lifetime.start.p0(i64 8, ptr nonnull %3) #9
  store i64 0, ptr %3, align 8
  call fastcc void @repeated(ptr noundef nonnull %0, ptr noundef nonnull %3)
  %99 = load i32, ptr %3, align 8, !tbaa !18
  %100 = load ptr, ptr %0, align 8, !tbaa !8
  %101 = sext i32 %95 to i64
  %102 = getelementptr inbounds [400 x %struct.step], ptr %100, i64 0, i64 %101, i32 2
  store i32 %99, ptr %102, align 8, !tbaa !26
  %103 = load i32, ptr %61, align 4, !tbaa !27
  call void @llvm.lifetime.end.p0(i64 8, ptr nonnull %3) #9
  %104 = getelementptr inbounds i8, ptr %100, i64 7184
  %105 = load ptr, ptr %104, align 8, !tbaa !13
  %106 = icmp eq ptr %105, null
  br i1 %106, label %92, label %107, !llvm.loop !51

107:                                              ; preds = %98, %92, %92, %92, %86
  %108 = phi ptr [ %88, %86 ], [ %94, %92 ], [ %94, %92 ], [ %94, %92 ], [ %100, %98 ]
  %109 = phi i32 [ %87, %86 ], [ %95, %92 ], [ %95, %92 ], [ %95, %92 ], [ %103, %98 ]
  %110 = phi i1 [ %91, %86 ], [ %93, %92 ], [ %93, %92 ], [ %93, %92 ], [ %106, %98 ]
  %111 = getelementptr inbounds i8, ptr %108, i64 7184
  %112 = getelementptr inbounds i8, ptr %108, i64 6400
  %113 = load i32, ptr %112, align 8, !tbaa !21
  %114 = icmp eq i32 %113, 400
  br i1 %114, label %115, label %123

115:                                              ; preds = %107
  br i1 %110, label %116, label %130

116:                                              ; preds = %115
  store ptr @.str.8, ptr %111, align 8, !tbaa !13
  %117 = load ptr, ptr %54, align 8, !tbaa !12
  %118 = load ptr, ptr %60, align 8, !tbaa !11
  %119 = ptrtoint ptr %117 to i64
  %120 = ptrtoint ptr %118 to i64
  %121 = sub i64 %119, %120
  %122 = getelementptr inbounds i8, ptr %108, i64 7192
  store i64 %121, ptr %122, align 8, !tbaa !17
  br label %130

123:                                              ; preds = %107
  %124 = sext i32 %113 to i64
  %125 = getelementptr inbounds [400 x %struct.step], ptr %108, i64 0, i64 %124
  store i32 5, ptr %125, align 4, !tbaa !22
  %126 = getelementptr inbounds i8, ptr %125, i64 4
  store i32 0, ptr %126, align 4, !tbaa !24
  %127 = getelementptr inbounds i8, ptr %125, i64 12
  store i32 -1, ptr %127, align 4, !tbaa !25
  %128 = getelementptr inbounds i8, ptr %125, i64 8
  store i32 -1, ptr %128, align 4, !tbaa !26
  %129 = add nsw i32 %113, 1
  store i32 %129, ptr %112, align 8, !tbaa !21
  br label %130

130:                                              ; preds = %123, %116, %115
  %131 = phi i32 [ %113, %123 ], [ 0, %115 ], [ 0, %116 ]
  %132 = load i32, ptr %112, align 8, !tbaa !21
  %133 = icmp eq i32 %132, 400
  br i1 %133, label %134, label %144

134:                                              ; preds = %130
  %135 = load ptr, ptr %111, align 8, !tbaa !13
  %136 = icmp eq ptr %135, null
  br i1 %136, label %137, label %151

137:                                              ; preds = %134
  store ptr @.str.8, ptr %111, align 8, !tbaa !13
  %138 = load ptr, ptr %54, align 8, !tbaa !12
  %139 = load ptr, ptr %60, align 8, !tbaa !11
  %140 = ptrtoint ptr %138 to i64
  %141 = ptrtoint ptr %139 to i64
  %142 = sub i64 %140, %141
  %143 = getelementptr inbounds i8, ptr %108, i64 7192
  store i64 %142, ptr %143, align 8, !tbaa !17
  br label %151

144:                                              ; preds = %130
  %145 = sext i32 %132 to i64
  %146 = getelementptr inbounds [400 x %struct.step], ptr %108, i64 0, i64 %145
  store i32 6, ptr %146, align 4, !tbaa !22
  %147 = getelementptr inbounds i8, ptr %146, i64 4
  store i32 0, ptr %147, align 4, !tbaa !24
  %148 = getelementptr inbounds i8, ptr %146, i64 12
  store i32 -1, ptr %148, align 4, !tbaa !25
  %149 = getelementptr inbounds i8, ptr %146, i64 8
  store i32 -1, ptr %149, align 4, !tbaa !26
  %150 = add nsw i32 %132, 1
  store i32 %150, ptr %112, align 8, !tbaa !21
  br label %151

151:                                              ; preds = %144, %137, %134
  %152 = phi i32 [ %132, %144 ], [ 0, %134 ], [ 0, %137 ]
  %153 = load i32, ptr %1, align 4, !tbaa !18
  %154 = sext i32 %131 to i64
  %155 = getelementptr inbounds %struct.step, ptr %108, i64 %154
  %156 = getelementptr inbounds i8, ptr %155, i64 8
  store i32 %153, ptr %156, align 4, !tbaa !26
  %157 = getelementptr inbounds i8, ptr %155, i64 12
  store i32 %87, ptr %157, align 4, !tbaa !25
  %158 = sext i32 %109 to i64
  %159 = getelementptr inbounds %struct.step, ptr %108, i64 %158, i32 2
  store i32 %152, ptr %159, align 4, !tbaa !26
  %160 = load i32, ptr %31, align 4, !tbaa !27
  %161 = sext i32 %160 to i64
  %162 = getelementptr inbounds %struct.step, ptr %108, i64 %161, i32 2
  store i32 %152, ptr %162, align 4, !tbaa !26
  store i32 %131, ptr %1, align 4, !tbaa !18
  store i32 %152, ptr %31, align 4, !tbaa !27
  %163 = load ptr, ptr %0, align 8, !tbaa !8
  %164 = getelementptr inbounds i8, ptr %163, i64 7184
  %165 = load ptr, ptr %164, align 8, !tbaa !13
  %166 = icmp eq ptr %165, null
  br i1 %166, label %62, label %167, !llvm.loop !52

167:                                              ; preds = %151, %62, %53
  ret void
}

; Function Attrs: nocallback nofree nosync nounwind willreturn memory(argmem: readwrite)
declare void @llvm.lifetime.end.p0(i64 immarg, ptr nocapture) #1

; Function Attrs: nounwind optsize uwtable
define internal i32 @__print_signed(ptr nocapture noundef %0, i64 noundef %1, i32 noundef %2, i32 noundef %3, i32 noundef %4) local_unnamed_addr #2 {
  %6 = alloca [24 x i8], align 16
  call void @llvm.lifetime.start.p0(i64 24, ptr nonnull %6) #9
  %7 = getelementptr inbounds i8, ptr %6, i64 24
  %8 = icmp slt i64 %1, 0
  %9 = lshr i64 %1, 63
  %10 = icmp ne i64 %9, 0
  %11 = sub i64 0, %1
  %12 = select i1 %10, i64 %11, i64 %1
  %13 = icmp ult i64 %12, 4294967296
  br i1 %13, label %14, label %28

14:                                               ; preds = %5
  %15 = icmp eq i64 %1, 0
  br i1 %15, label %37, label %16

16:                                               ; preds = %14
  %17 = trunc nuw i64 %12 to i32
  br label %18

18:                                               ; preds = %18, %16
  %19 = phi i32 [ %26, %18 ], [ %17, %16 ]
  %20 = phi ptr [ %25, %18 ], [ %7, %16 ]
  %21 = urem i32 %19, 10
  %22 = zext nneg i32 %21 to i64
  %23 = getelementptr inbounds i8, ptr @.str.9.15, i64 %22
  %24 = load i8, ptr %23, align 1, !tbaa !5
  %25 = getelementptr inbounds i8, ptr %20, i64 -1
  store i8 %24, ptr %25, align 1, !tbaa !5
  %26 = udiv i32 %19, 10
  %27 = icmp ult i32 %19, 10
  br i1 %27, label %37, label %18, !llvm.loop !53

28:                                               ; preds = %28, %5
  %29 = phi ptr [ %34, %28 ], [ %7, %5 ]
  %30 = phi i64 [ %35, %28 ], [ %12, %5 ]
  %31 = urem i64 %30, 10
  %32 = getelementptr inbounds i8, ptr @.str.9.15, i64 %31
  %33 = load i8, ptr %32, align 1, !tbaa !5
  %34 = getelementptr inbounds i8, ptr %29, i64 -1
  store i8 %33, ptr %34, align 1, !tbaa !5
  %35 = udiv i64 %30, 10
  %36 = icmp ult i64 %30, 10
  br i1 %36, label %37, label %28, !llvm.loop !54

37:                                               ; preds = %28, %18, %14
  %38 = phi ptr [ %7, %14 ], [ %25, %18 ], [ %34, %28 ]
  %39 = icmp eq i64 %1, 0
  %40 = icmp ne i32 %4, 0
  %41 = and i1 %39, %40
  br i1 %41, label %42, label %44

42:                                               ; preds = %37
  %43 = getelementptr inbounds i8, ptr %38, i64 -1
  store i8 48, ptr %43, align 1, !tbaa !5
  br label %45

44:                                               ; preds = %37
  br i1 %8, label %53, label %45

45:                                               ; preds = %44, %42
  %46 = phi ptr [ %43, %42 ], [ %38, %44 ]
  %47 = and i32 %2, 2
  %48 = icmp eq i32 %47, 0
  br i1 %48, label %49, label %53

49:                                               ; preds = %45
  %50 = and i32 %2, 4
  %51 = icmp eq i32 %50, 0
  %52 = select i1 %51, ptr @.str.10, ptr @.str.4.16
  br label %53

53:                                               ; preds = %49, %45, %44
  %54 = phi ptr [ %38, %44 ], [ %46, %49 ], [ %46, %45 ]
  %55 = phi ptr [ @.str.2.17, %44 ], [ %52, %49 ], [ @.str.3.18, %45 ]
  %56 = ptrtoint ptr %7 to i64
  %57 = ptrtoint ptr %54 to i64
  %58 = sub i64 %56, %57
  %59 = trunc i64 %58 to i32
  %60 = call fastcc i32 @number(ptr noundef %0, ptr noundef nonnull %55, ptr noundef nonnull %54, i32 noundef %59, i32 noundef %2, i32 noundef %3, i32 noundef %4) #10
  call void @llvm.lifetime.end.p0(i64 24, ptr nonnull %6) #9
  ret i32 %60
}

; Function Attrs: nounwind optsize uwtable
define internal i32 @__print_unsigned(ptr nocapture noundef %0, i64 noundef %1, i32 noundef %2, i32 noundef %3, i32 noundef %4, i32 noundef %5) local_unnamed_addr #2 {
  %7 = alloca [24 x i8], align 16
  call void @llvm.lifetime.start.p0(i64 24, ptr nonnull %7) #9
  %8 = and i32 %3, 32
  %9 = icmp eq i32 %8, 0
  %10 = select i1 %9, ptr @.str.9.15, ptr @.str.8.21
  %11 = icmp ult i64 %1, 4294967296
  br i1 %11, label %14, label %12

12:                                               ; preds = %6
  %13 = zext i32 %2 to i64
  br label %29

14:                                               ; preds = %6
  %15 = icmp eq i64 %1, 0
  br i1 %15, label %39, label %16

16:                                               ; preds = %14
  %17 = trunc nuw i64 %1 to i32
  br label %18

18:                                               ; preds = %18, %16
  %19 = phi i32 [ %27, %18 ], [ %17, %16 ]
  %20 = phi i64 [ %25, %18 ], [ 24, %16 ]
  %21 = urem i32 %19, %2
  %22 = zext i32 %21 to i64
  %23 = getelementptr inbounds i8, ptr %10, i64 %22
  %24 = load i8, ptr %23, align 1, !tbaa !5
  %25 = add nsw i64 %20, -1
  %26 = getelementptr inbounds i8, ptr %7, i64 %25
  store i8 %24, ptr %26, align 1, !tbaa !5
  %27 = udiv i32 %19, %2
  %28 = icmp ult i32 %19, %2
  br i1 %28, label %39, label %18, !llvm.loop !53

29:                                               ; preds = %29, %12
  %30 = phi i64 [ 24, %12 ], [ %35, %29 ]
  %31 = phi i64 [ %1, %12 ], [ %37, %29 ]
  %32 = urem i64 %31, %13
  %33 = getelementptr inbounds i8, ptr %10, i64 %32
  %34 = load i8, ptr %33, align 1, !tbaa !5
  %35 = add nsw i64 %30, -1
  %36 = getelementptr inbounds i8, ptr %7, i64 %35
  store i8 %34, ptr %36, align 1, !tbaa !5
  %37 = udiv i64 %31, %13
  %38 = icmp ult i64 %31, %13
  br i1 %38, label %39, label %29, !llvm.loop !54

39:                                               ; preds = %29, %18, %14
  %40 = phi i64 [ 24, %14 ], [ %25, %18 ], [ %35, %29 ]
  %41 = icmp eq i64 %1, 0
  %42 = icmp ne i32 %5, 0
  %43 = and i1 %41, %42
  br i1 %43, label %44, label %47

44:                                               ; preds = %39
  %45 = add nsw i64 %40, -1
  %46 = getelementptr inbounds i8, ptr %7, i64 %45
  store i8 48, ptr %46, align 1, !tbaa !5
  br label %47

47:                                               ; preds = %44, %39
  %48 = phi i64 [ %45, %44 ], [ %40, %39 ]
  %49 = getelementptr inbounds i8, ptr %7, i64 %48
  %50 = and i32 %3, 8
  %51 = icmp ne i32 %50, 0
  %52 = icmp eq i32 %2, 8
  %53 = and i1 %52, %51
  br i1 %53, label %54, label %65

54:                                               ; preds = %47
  %55 = sub nsw i64 24, %48
  %56 = sext i32 %5 to i64
  %57 = icmp slt i64 %55, %56
  br i1 %57, label %65, label %58

58:                                               ; preds = %54
  %59 = icmp eq i64 %48, 24
  br i1 %59, label %63, label %60

60:                                               ; preds = %58
  %61 = load i8, ptr %49, align 1, !tbaa !5
  %62 = icmp eq i8 %61, 48
  br i1 %62, label %65, label %63

63:                                               ; preds = %60, %58
  %64 = getelementptr inbounds i8, ptr %49, i64 -1
  store i8 48, ptr %64, align 1, !tbaa !5
  br label %65

65:                                               ; preds = %63, %60, %54, %47
  %66 = phi ptr [ %64, %63 ], [ %49, %60 ], [ %49, %54 ], [ %49, %47 ]
  %67 = getelementptr inbounds i8, ptr %7, i64 24
  %68 = icmp eq i32 %2, 16
  %69 = icmp ne i64 %1, 0
  %70 = and i1 %69, %68
  %71 = and i1 %70, %51
  %72 = select i1 %9, ptr @.str.6.22, ptr @.str.5.23
  %73 = select i1 %71, ptr %72, ptr @.str.10
  %74 = ptrtoint ptr %67 to i64
  %75 = ptrtoint ptr %66 to i64
  %76 = sub i64 %74, %75
  %77 = trunc i64 %76 to i32
  %78 = call fastcc i32 @number(ptr noundef %0, ptr noundef nonnull %73, ptr noundef nonnull %66, i32 noundef %77, i32 noundef %3, i32 noundef %4, i32 noundef %5) #10
  call void @llvm.lifetime.end.p0(i64 24, ptr nonnull %7) #9
  ret i32 %78
}

; Function Attrs: nofree nosync nounwind memory(readwrite, inaccessiblemem: none) uwtable
define internal fastcc void @enter(ptr nocapture noundef %0, i32 noundef %1, i32 noundef %2, i32 noundef %3) unnamed_addr #5 {
  %5 = getelementptr inbounds i8, ptr %0, i64 1600
  %6 = getelementptr inbounds i8, ptr %0, i64 2004
  %7 = icmp eq i32 %3, 0
  %8 = icmp eq i32 %2, 0
  %9 = getelementptr inbounds i8, ptr %0, i64 2000
  br label %10

10:                                               ; preds = %43, %4
  %11 = phi i32 [ %1, %4 ], [ %44, %43 ]
  %12 = icmp sgt i32 %11, -1
  br i1 %12, label %13, label %46

13:                                               ; preds = %10
  %14 = zext nneg i32 %11 to i64
  %15 = getelementptr inbounds [400 x i8], ptr %5, i64 0, i64 %14
  %16 = load i8, ptr %15, align 1, !tbaa !5
  %17 = icmp eq i8 %16, 0
  br i1 %17, label %18, label %46

18:                                               ; preds = %13
  %19 = getelementptr inbounds [400 x %struct.step], ptr @regex, i64 0, i64 %14
  store i8 1, ptr %15, align 1, !tbaa !5
  %20 = load i32, ptr %19, align 8, !tbaa !22
  switch i32 %20, label %38 [
    i32 5, label %21
    i32 6, label %26
    i32 3, label %29
    i32 4, label %33
    i32 7, label %37
  ]

21:                                               ; preds = %18
  %22 = getelementptr inbounds i8, ptr %19, i64 8
  %23 = load i32, ptr %22, align 8, !tbaa !26
  tail call fastcc void @enter(ptr noundef %0, i32 noundef %23, i32 noundef %2, i32 noundef %3)
  %24 = getelementptr inbounds i8, ptr %19, i64 12
  %25 = load i32, ptr %24, align 4, !tbaa !25
  br label %43, !llvm.loop !55

26:                                               ; preds = %18
  %27 = getelementptr inbounds i8, ptr %19, i64 8
  %28 = load i32, ptr %27, align 8, !tbaa !26
  br label %43, !llvm.loop !55

29:                                               ; preds = %18
  br i1 %8, label %43, label %30

30:                                               ; preds = %29
  %31 = getelementptr inbounds i8, ptr %19, i64 8
  %32 = load i32, ptr %31, align 8, !tbaa !26
  br label %43, !llvm.loop !55

33:                                               ; preds = %18
  br i1 %7, label %43, label %34

34:                                               ; preds = %33
  %35 = getelementptr inbounds i8, ptr %19, i64 8
  %36 = load i32, ptr %35, align 8, !tbaa !26
  br label %43, !llvm.loop !55

37:                                               ; preds = %18
  store i32 1, ptr %6, align 4, !tbaa !29
  br label %43

38:                                               ; preds = %18
  %39 = load i32, ptr %9, align 4, !tbaa !31
  %40 = add nsw i32 %39, 1
  store i32 %40, ptr %9, align 4, !tbaa !31
  %41 = sext i32 %39 to i64
  %42 = getelementptr inbounds [400 x i32], ptr %0, i64 0, i64 %41
  store i32 %11, ptr %42, align 4, !tbaa !32
  br label %43

43:                                               ; preds = %38, %37, %34, %33, %30, %29, %26, %21
  %44 = phi i32 [ %11, %38 ], [ %11, %37 ], [ %36, %34 ], [ %32, %30 ], [ %28, %26 ], [ %25, %21 ], [ %11, %29 ], [ %11, %33 ]
  %45 = phi i1 [ false, %38 ], [ false, %37 ], [ true, %34 ], [ true, %30 ], [ true, %26 ], [ true, %21 ], [ false, %29 ], [ false, %33 ]
  br i1 %45, label %10, label %46

46:                                               ; preds = %43, %13, %10
  ret void
}

; Function Attrs: nofree norecurse nosync nounwind optsize memory(read, inaccessiblemem: none) uwtable
define internal noundef i64 @strlen(ptr noundef %0) local_unnamed_addr #3 {
  br label %2

2:                                                ; preds = %2, %1
  %3 = phi ptr [ %0, %1 ], [ %6, %2 ]
  %4 = load i8, ptr %3, align 1, !tbaa !5
  %5 = icmp eq i8 %4, 0
  %6 = getelementptr inbounds i8, ptr %3, i64 1
  br i1 %5, label %7, label %2, !llvm.loop !48

7:                                                ; preds = %2
  %8 = ptrtoint ptr %3 to i64
  %9 = ptrtoint ptr %0 to i64
  %10 = sub i64 %8, %9
  ret i64 %10
}

; Function Attrs: nofree norecurse nosync nounwind optsize uwtable
define internal noundef ptr @strncat(ptr noalias noundef returned %0, ptr noalias nocapture noundef readonly %1, i64 noundef %2) local_unnamed_addr #6 {
  br label %4

4:                                                ; preds = %4, %3
  %5 = phi ptr [ %0, %3 ], [ %8, %4 ]
  %6 = load i8, ptr %5, align 1, !tbaa !5
  %7 = icmp eq i8 %6, 0
  %8 = getelementptr inbounds i8, ptr %5, i64 1
  br i1 %7, label %9, label %4, !llvm.loop !48

9:                                                ; preds = %4
  %10 = ptrtoint ptr %5 to i64
  %11 = ptrtoint ptr %0 to i64
  %12 = sub i64 %10, %11
  %13 = getelementptr inbounds i8, ptr %0, i64 %12
  %14 = icmp eq i64 %2, 0
  br i1 %14, label %36, label %15

15:                                               ; preds = %20, %9
  %16 = phi i64 [ %21, %20 ], [ 0, %9 ]
  %17 = getelementptr inbounds i8, ptr %1, i64 %16
  %18 = load i8, ptr %17, align 1, !tbaa !5
  %19 = icmp eq i8 %18, 0
  br i1 %19, label %23, label %20

20:                                               ; preds = %15
  %21 = add nuw i64 %16, 1
  %22 = icmp eq i64 %21, %2
  br i1 %22, label %25, label %15, !llvm.loop !49

23:                                               ; preds = %15
  %24 = icmp eq i64 %16, 0
  br i1 %24, label %36, label %25

25:                                               ; preds = %23, %20
  %26 = phi i64 [ %16, %23 ], [ %2, %20 ]
  br label %27

27:                                               ; preds = %27, %25
  %28 = phi ptr [ %32, %27 ], [ %1, %25 ]
  %29 = phi ptr [ %34, %27 ], [ %13, %25 ]
  %30 = phi i64 [ %31, %27 ], [ %26, %25 ]
  %31 = add i64 %30, -1
  %32 = getelementptr inbounds i8, ptr %28, i64 1
  %33 = load i8, ptr %28, align 1, !tbaa !5, !alias.scope !56, !noalias !59
  %34 = getelementptr inbounds i8, ptr %29, i64 1
  store i8 %33, ptr %29, align 1, !tbaa !5, !alias.scope !59, !noalias !56
  %35 = icmp eq i64 %31, 0
  br i1 %35, label %36, label %27, !llvm.loop !61

36:                                               ; preds = %27, %23, %9
  %37 = phi i64 [ 0, %23 ], [ 0, %9 ], [ %26, %27 ]
  %38 = getelementptr inbounds i8, ptr %13, i64 %37
  store i8 0, ptr %38, align 1, !tbaa !5
  ret ptr %0
}

; Function Attrs: nofree norecurse nosync nounwind optsize uwtable
define internal noundef ptr @strcat(ptr noalias noundef returned %0, ptr noalias nocapture noundef readonly %1) local_unnamed_addr #6 {
  br label %3

3:                                                ; preds = %3, %2
  %4 = phi ptr [ %0, %2 ], [ %7, %3 ]
  %5 = load i8, ptr %4, align 1, !tbaa !5
  %6 = icmp eq i8 %5, 0
  %7 = getelementptr inbounds i8, ptr %4, i64 1
  br i1 %6, label %8, label %3, !llvm.loop !48

8:                                                ; preds = %3
  %9 = ptrtoint ptr %4 to i64
  %10 = ptrtoint ptr %0 to i64
  %11 = sub i64 %9, %10
  %12 = getelementptr inbounds i8, ptr %0, i64 %11
  %13 = load i8, ptr %1, align 1, !tbaa !5, !alias.scope !62, !noalias !65
  store i8 %13, ptr %12, align 1, !tbaa !5, !alias.scope !65, !noalias !62
  %14 = icmp eq i8 %13, 0
  br i1 %14, label %22, label %15

15:                                               ; preds = %15, %8
  %16 = phi ptr [ %18, %15 ], [ %1, %8 ]
  %17 = phi ptr [ %19, %15 ], [ %12, %8 ]
  %18 = getelementptr inbounds i8, ptr %16, i64 1
  %19 = getelementptr inbounds i8, ptr %17, i64 1
  %20 = load i8, ptr %18, align 1, !tbaa !5, !alias.scope !62, !noalias !65
  store i8 %20, ptr %19, align 1, !tbaa !5, !alias.scope !65, !noalias !62
  %21 = icmp eq i8 %20, 0
  br i1 %21, label %22, label %15, !llvm.loop !67

22:                                               ; preds = %15, %8
  ret ptr %0
}

; Function Attrs: nounwind optsize uwtable
define internal fastcc i32 @number(ptr nocapture noundef %0, ptr noundef %1, ptr nocapture noundef readonly %2, i32 noundef %3, i32 noundef %4, i32 noundef %5, i32 noundef %6) unnamed_addr #2 {
  br label %8

8:                                                ; preds = %8, %7
  %9 = phi ptr [ %1, %7 ], [ %12, %8 ]
  %10 = load i8, ptr %9, align 1, !tbaa !5
  %11 = icmp eq i8 %10, 0
  %12 = getelementptr inbounds i8, ptr %9, i64 1
  br i1 %11, label %13, label %8, !llvm.loop !48

13:                                               ; preds = %8
  %14 = ptrtoint ptr %9 to i64
  %15 = ptrtoint ptr %1 to i64
  %16 = sub i64 %14, %15
  %17 = trunc i64 %16 to i32
  %18 = sub nsw i32 %6, %3
  %19 = lshr i32 %5, 31
  %20 = icmp ne i32 %19, 0
  %21 = sub i32 0, %5
  %22 = select i1 %20, i32 %21, i32 %5
  %23 = tail call i32 @llvm.smax.i32(i32 %18, i32 0)
  %24 = icmp slt i32 %6, 0
  %25 = and i32 %4, 16
  %26 = icmp ne i32 %25, 0
  %27 = and i1 %26, %24
  %28 = and i32 %4, 1
  %29 = or i32 %19, %28
  %30 = icmp eq i32 %29, 0
  %31 = and i1 %27, %30
  %32 = add i32 %17, %3
  %33 = icmp sgt i32 %22, %32
  %34 = select i1 %31, i1 %33, i1 false
  %35 = sub i32 %22, %32
  %36 = select i1 %34, i32 %35, i32 %23
  %37 = add i32 %32, %36
  %38 = sub i32 %22, %37
  br i1 %30, label %39, label %48

39:                                               ; preds = %13
  %40 = icmp sgt i32 %38, 0
  br i1 %40, label %41, label %46

41:                                               ; preds = %41, %39
  %42 = phi i32 [ %44, %41 ], [ 0, %39 ]
  %43 = tail call i32 @fputc(i32 noundef 32, ptr noundef %0) #10
  %44 = add nuw nsw i32 %42, 1
  %45 = icmp eq i32 %44, %38
  br i1 %45, label %46, label %41, !llvm.loop !68

46:                                               ; preds = %41, %39
  %47 = tail call noundef i32 @llvm.smax.i32(i32 %38, i32 0)
  br label %48

48:                                               ; preds = %46, %13
  %49 = phi i32 [ 0, %13 ], [ %47, %46 ]
  %50 = shl i64 %16, 32
  %51 = ashr exact i64 %50, 32
  %52 = load i8, ptr %0, align 8, !tbaa !40, !alias.scope !69, !noalias !72
  %53 = icmp eq i8 %52, 0
  %54 = icmp eq i64 %50, 0
  %55 = or i1 %54, %53
  br i1 %55, label %64, label %56

56:                                               ; preds = %56, %48
  %57 = phi i64 [ %62, %56 ], [ 0, %48 ]
  %58 = getelementptr inbounds i8, ptr %1, i64 %57
  %59 = load i8, ptr %58, align 1, !tbaa !5, !alias.scope !72, !noalias !69
  %60 = zext i8 %59 to i32
  %61 = tail call i32 @fputc(i32 noundef %60, ptr noundef nonnull %0) #10, !noalias !72
  %62 = add nuw i64 %57, 1
  %63 = icmp eq i64 %62, %51
  br i1 %63, label %64, label %56, !llvm.loop !47

64:                                               ; preds = %56, %48
  %65 = icmp sgt i32 %36, 0
  br i1 %65, label %66, label %71

66:                                               ; preds = %66, %64
  %67 = phi i32 [ %69, %66 ], [ 0, %64 ]
  %68 = tail call i32 @fputc(i32 noundef 48, ptr noundef nonnull %0) #10
  %69 = add nuw nsw i32 %67, 1
  %70 = icmp eq i32 %69, %36
  br i1 %70, label %71, label %66, !llvm.loop !68

71:                                               ; preds = %66, %64
  %72 = tail call noundef i32 @llvm.smax.i32(i32 %36, i32 0)
  %73 = sext i32 %3 to i64
  %74 = load i8, ptr %0, align 8, !tbaa !40, !alias.scope !74, !noalias !77
  %75 = icmp eq i8 %74, 0
  %76 = icmp eq i32 %3, 0
  %77 = or i1 %76, %75
  br i1 %77, label %86, label %78

78:                                               ; preds = %78, %71
  %79 = phi i64 [ %84, %78 ], [ 0, %71 ]
  %80 = getelementptr inbounds i8, ptr %2, i64 %79
  %81 = load i8, ptr %80, align 1, !tbaa !5, !alias.scope !77, !noalias !74
  %82 = zext i8 %81 to i32
  %83 = tail call i32 @fputc(i32 noundef %82, ptr noundef nonnull %0) #10, !noalias !77
  %84 = add nuw i64 %79, 1
  %85 = icmp eq i64 %84, %73
  br i1 %85, label %86, label %78, !llvm.loop !47

86:                                               ; preds = %78, %71
  %87 = add i32 %32, %72
  %88 = add i32 %87, %49
  br i1 %30, label %99, label %89

89:                                               ; preds = %86
  %90 = icmp sgt i32 %38, 0
  br i1 %90, label %91, label %96

91:                                               ; preds = %91, %89
  %92 = phi i32 [ %94, %91 ], [ 0, %89 ]
  %93 = tail call i32 @fputc(i32 noundef 32, ptr noundef nonnull %0) #10
  %94 = add nuw nsw i32 %92, 1
  %95 = icmp eq i32 %94, %38
  br i1 %95, label %96, label %91, !llvm.loop !68

96:                                               ; preds = %91, %89
  %97 = tail call noundef i32 @llvm.smax.i32(i32 %38, i32 0)
  %98 = add nsw i32 %88, %97
  br label %99

99:                                               ; preds = %96, %86
  %100 = phi i32 [ %98, %96 ], [ %88, %86 ]
  ret i32 %100
}

; Function Attrs: nocallback nofree nosync nounwind speculatable willreturn memory(none)
declare i32 @llvm.smax.i32(i32, i32) #7

; Function Attrs: nounwind optsize uwtable
define internal range(i32 -1, 256) i32 @fputc(i32 noundef %0, ptr nocapture noundef %1) local_unnamed_addr #2 {
  %3 = load i8, ptr %1, align 8, !tbaa !40
  switch i8 %3, label %17 [
    i8 1, label %4
    i8 3, label %6
    i8 0, label %19
  ]

4:                                                ; preds = %2
  %5 = tail call i32 @putchar(i32 noundef %0) #11
  br label %17

6:                                                ; preds = %2
  %7 = getelementptr inbounds i8, ptr %1, i64 16
  %8 = load i64, ptr %7, align 8, !tbaa !79
  %9 = icmp eq i64 %8, 0
  br i1 %9, label %17, label %10

10:                                               ; preds = %6
  %11 = trunc i32 %0 to i8
  %12 = getelementptr inbounds i8, ptr %1, i64 8
  %13 = load ptr, ptr %12, align 8, !tbaa !80
  %14 = getelementptr inbounds i8, ptr %13, i64 1
  store ptr %14, ptr %12, align 8, !tbaa !80
  store i8 %11, ptr %13, align 1, !tbaa !5
  %15 = load i64, ptr %7, align 8, !tbaa !79
  %16 = add i64 %15, -1
  store i64 %16, ptr %7, align 8, !tbaa !79
  br label %17

17:                                               ; preds = %10, %6, %4, %2
  %18 = and i32 %0, 255
  br label %19

19:                                               ; preds = %17, %2
  %20 = phi i32 [ %18, %17 ], [ -1, %2 ]
  ret i32 %20
}

; Function Attrs: optsize
declare dso_local i32 @putchar(i32 noundef) local_unnamed_addr #8

; Function Attrs: nofree nosync nounwind memory(readwrite, inaccessiblemem: none) uwtable
define internal fastcc void @repeated(ptr nocapture noundef %0, ptr nocapture noundef %1) unnamed_addr #5 {
  %3 = getelementptr inbounds i8, ptr %0, i64 16
  %4 = load ptr, ptr %3, align 8, !tbaa !12
  %5 = getelementptr inbounds i8, ptr %4, i64 1
  store ptr %5, ptr %3, align 8, !tbaa !12
  %6 = load i8, ptr %4, align 1, !tbaa !5
  switch i8 %6, label %404 [
    i8 40, label %7
    i8 91, label %25
    i8 46, label %174
    i8 94, label %224
    i8 36, label %274
    i8 42, label %324
    i8 43, label %324
    i8 63, label %324
    i8 92, label %336
  ]

7:                                                ; preds = %2
  tail call fastcc void @alternatives(ptr noundef %0, ptr noundef %1)
  %8 = load ptr, ptr %3, align 8, !tbaa !12
  %9 = load i8, ptr %8, align 1, !tbaa !5
  %10 = icmp eq i8 %9, 41
  br i1 %10, label %23, label %11

11:                                               ; preds = %7
  %12 = load ptr, ptr %0, align 8, !tbaa !8
  %13 = getelementptr inbounds i8, ptr %12, i64 7184
  %14 = load ptr, ptr %13, align 8, !tbaa !13
  %15 = icmp eq ptr %14, null
  br i1 %15, label %16, label %455

16:                                               ; preds = %11
  store ptr @.str.2, ptr %13, align 8, !tbaa !13
  %17 = getelementptr inbounds i8, ptr %0, i64 8
  %18 = load ptr, ptr %17, align 8, !tbaa !11
  %19 = ptrtoint ptr %8 to i64
  %20 = ptrtoint ptr %18 to i64
  %21 = sub i64 %19, %20
  %22 = getelementptr inbounds i8, ptr %12, i64 7192
  store i64 %21, ptr %22, align 8, !tbaa !17
  br label %455

23:                                               ; preds = %7
  %24 = getelementptr inbounds i8, ptr %8, i64 1
  store ptr %24, ptr %3, align 8, !tbaa !12
  br label %455

25:                                               ; preds = %2
  %26 = load ptr, ptr %0, align 8, !tbaa !8
  %27 = getelementptr inbounds i8, ptr %26, i64 7176
  %28 = load i32, ptr %27, align 8, !tbaa !28
  %29 = icmp eq i32 %28, 24
  br i1 %29, label %30, label %41

30:                                               ; preds = %25
  %31 = getelementptr inbounds i8, ptr %26, i64 7184
  %32 = load ptr, ptr %31, align 8, !tbaa !13
  %33 = icmp eq ptr %32, null
  br i1 %33, label %34, label %455

34:                                               ; preds = %30
  store ptr @.str.5, ptr %31, align 8, !tbaa !13
  %35 = getelementptr inbounds i8, ptr %0, i64 8
  %36 = load ptr, ptr %35, align 8, !tbaa !11
  %37 = ptrtoint ptr %5 to i64
  %38 = ptrtoint ptr %36 to i64
  %39 = sub i64 %37, %38
  %40 = getelementptr inbounds i8, ptr %26, i64 7192
  store i64 %39, ptr %40, align 8, !tbaa !17
  br label %455

41:                                               ; preds = %25
  %42 = getelementptr inbounds i8, ptr %26, i64 6408
  %43 = add nsw i32 %28, 1
  store i32 %43, ptr %27, align 8, !tbaa !28
  %44 = sext i32 %28 to i64
  %45 = getelementptr inbounds [24 x [32 x i8]], ptr %42, i64 0, i64 %44
  tail call void @llvm.memset.p0.i64(ptr noundef nonnull align 1 dereferenceable(32) %45, i8 0, i64 32, i1 false)
  %46 = load ptr, ptr %3, align 8, !tbaa !12
  %47 = load i8, ptr %46, align 1, !tbaa !5
  %48 = icmp eq i8 %47, 94
  br i1 %48, label %49, label %51

49:                                               ; preds = %41
  %50 = getelementptr inbounds i8, ptr %46, i64 1
  store ptr %50, ptr %3, align 8, !tbaa !12
  br label %51

51:                                               ; preds = %49, %41
  %52 = getelementptr inbounds i8, ptr %0, i64 8
  br label %53

53:                                               ; preds = %102, %51
  %54 = phi i1 [ true, %51 ], [ false, %102 ]
  %55 = load ptr, ptr %3, align 8, !tbaa !12
  %56 = load i8, ptr %55, align 1, !tbaa !5
  %57 = icmp ne i8 %56, 0
  %58 = icmp ne i8 %56, 93
  %59 = or i1 %54, %58
  %60 = and i1 %57, %59
  %61 = getelementptr inbounds i8, ptr %55, i64 1
  store ptr %61, ptr %3, align 8, !tbaa !12
  %62 = load i8, ptr %55, align 1, !tbaa !5
  br i1 %60, label %63, label %103

63:                                               ; preds = %53
  %64 = load i8, ptr %61, align 1, !tbaa !5
  %65 = icmp eq i8 %64, 45
  br i1 %65, label %66, label %71

66:                                               ; preds = %63
  %67 = getelementptr inbounds i8, ptr %55, i64 2
  %68 = load i8, ptr %67, align 1, !tbaa !5
  switch i8 %68, label %69 [
    i8 0, label %71
    i8 93, label %71
  ]

69:                                               ; preds = %66
  %70 = getelementptr inbounds i8, ptr %55, i64 3
  store ptr %70, ptr %3, align 8, !tbaa !12
  br label %71

71:                                               ; preds = %69, %66, %66, %63
  %72 = phi i8 [ %68, %69 ], [ %62, %66 ], [ %62, %63 ], [ %62, %66 ]
  %73 = icmp ult i8 %72, %62
  br i1 %73, label %74, label %86

74:                                               ; preds = %71
  %75 = load ptr, ptr %0, align 8, !tbaa !8
  %76 = getelementptr inbounds i8, ptr %75, i64 7184
  %77 = load ptr, ptr %76, align 8, !tbaa !13
  %78 = icmp eq ptr %77, null
  br i1 %78, label %79, label %102

79:                                               ; preds = %74
  store ptr @.str.6, ptr %76, align 8, !tbaa !13
  %80 = load ptr, ptr %3, align 8, !tbaa !12
  %81 = load ptr, ptr %52, align 8, !tbaa !11
  %82 = ptrtoint ptr %80 to i64
  %83 = ptrtoint ptr %81 to i64
  %84 = sub i64 %82, %83
  %85 = getelementptr inbounds i8, ptr %75, i64 7192
  store i64 %84, ptr %85, align 8, !tbaa !17
  br label %102

86:                                               ; preds = %71
  %87 = zext i8 %72 to i32
  %88 = zext i8 %62 to i32
  br label %89

89:                                               ; preds = %89, %86
  %90 = phi i32 [ %88, %86 ], [ %100, %89 ]
  %91 = and i32 %90, 7
  %92 = shl nuw nsw i32 1, %91
  %93 = lshr i32 %90, 3
  %94 = and i32 %93, 31
  %95 = zext nneg i32 %94 to i64
  %96 = getelementptr inbounds i8, ptr %45, i64 %95
  %97 = load i8, ptr %96, align 1, !tbaa !5
  %98 = trunc nuw i32 %92 to i8
  %99 = or i8 %97, %98
  store i8 %99, ptr %96, align 1, !tbaa !5
  %100 = add nuw nsw i32 %90, 1
  %101 = icmp eq i32 %90, %87
  br i1 %101, label %102, label %89, !llvm.loop !81

102:                                              ; preds = %89, %79, %74
  br i1 %73, label %455, label %53, !llvm.loop !82

103:                                              ; preds = %53
  %104 = icmp eq i8 %62, 93
  br i1 %104, label %116, label %105

105:                                              ; preds = %103
  store ptr %55, ptr %3, align 8, !tbaa !12
  %106 = load ptr, ptr %0, align 8, !tbaa !8
  %107 = getelementptr inbounds i8, ptr %106, i64 7184
  %108 = load ptr, ptr %107, align 8, !tbaa !13
  %109 = icmp eq ptr %108, null
  br i1 %109, label %110, label %455

110:                                              ; preds = %105
  store ptr @.str.7, ptr %107, align 8, !tbaa !13
  %111 = load ptr, ptr %52, align 8, !tbaa !11
  %112 = ptrtoint ptr %55 to i64
  %113 = ptrtoint ptr %111 to i64
  %114 = sub i64 %112, %113
  %115 = getelementptr inbounds i8, ptr %106, i64 7192
  store i64 %114, ptr %115, align 8, !tbaa !17
  br label %455

116:                                              ; preds = %103
  br i1 %48, label %117, label %124

117:                                              ; preds = %117, %116
  %118 = phi i64 [ %122, %117 ], [ 0, %116 ]
  %119 = getelementptr inbounds i8, ptr %45, i64 %118
  %120 = load i8, ptr %119, align 1, !tbaa !5
  %121 = xor i8 %120, -1
  store i8 %121, ptr %119, align 1, !tbaa !5
  %122 = add nuw nsw i64 %118, 1
  %123 = icmp eq i64 %122, 32
  br i1 %123, label %124, label %117, !llvm.loop !83

124:                                              ; preds = %117, %116
  %125 = load ptr, ptr %0, align 8, !tbaa !8
  %126 = getelementptr inbounds i8, ptr %125, i64 6400
  %127 = load i32, ptr %126, align 8, !tbaa !21
  %128 = icmp eq i32 %127, 400
  br i1 %128, label %129, label %140

129:                                              ; preds = %124
  %130 = getelementptr inbounds i8, ptr %125, i64 7184
  %131 = load ptr, ptr %130, align 8, !tbaa !13
  %132 = icmp eq ptr %131, null
  br i1 %132, label %133, label %147

133:                                              ; preds = %129
  store ptr @.str.8, ptr %130, align 8, !tbaa !13
  %134 = load ptr, ptr %3, align 8, !tbaa !12
  %135 = load ptr, ptr %52, align 8, !tbaa !11
  %136 = ptrtoint ptr %134 to i64
  %137 = ptrtoint ptr %135 to i64
  %138 = sub i64 %136, %137
  %139 = getelementptr inbounds i8, ptr %125, i64 7192
  store i64 %138, ptr %139, align 8, !tbaa !17
  br label %147

140:                                              ; preds = %124
  %141 = sext i32 %127 to i64
  %142 = getelementptr inbounds [400 x %struct.step], ptr %125, i64 0, i64 %141
  store i32 2, ptr %142, align 4, !tbaa !22
  %143 = getelementptr inbounds i8, ptr %142, i64 4
  store i32 %28, ptr %143, align 4, !tbaa !24
  %144 = getelementptr inbounds i8, ptr %142, i64 12
  store i32 -1, ptr %144, align 4, !tbaa !25
  %145 = getelementptr inbounds i8, ptr %142, i64 8
  store i32 -1, ptr %145, align 4, !tbaa !26
  %146 = add nsw i32 %127, 1
  store i32 %146, ptr %126, align 8, !tbaa !21
  br label %147

147:                                              ; preds = %140, %133, %129
  %148 = phi i32 [ %127, %140 ], [ 0, %129 ], [ 0, %133 ]
  store i32 %148, ptr %1, align 4, !tbaa !18
  %149 = load i32, ptr %126, align 8, !tbaa !21
  %150 = icmp eq i32 %149, 400
  br i1 %150, label %151, label %162

151:                                              ; preds = %147
  %152 = getelementptr inbounds i8, ptr %125, i64 7184
  %153 = load ptr, ptr %152, align 8, !tbaa !13
  %154 = icmp eq ptr %153, null
  br i1 %154, label %155, label %169

155:                                              ; preds = %151
  store ptr @.str.8, ptr %152, align 8, !tbaa !13
  %156 = load ptr, ptr %3, align 8, !tbaa !12
  %157 = load ptr, ptr %52, align 8, !tbaa !11
  %158 = ptrtoint ptr %156 to i64
  %159 = ptrtoint ptr %157 to i64
  %160 = sub i64 %158, %159
  %161 = getelementptr inbounds i8, ptr %125, i64 7192
  store i64 %160, ptr %161, align 8, !tbaa !17
  br label %169

162:                                              ; preds = %147
  %163 = sext i32 %149 to i64
  %164 = getelementptr inbounds [400 x %struct.step], ptr %125, i64 0, i64 %163
  store i32 6, ptr %164, align 4, !tbaa !22
  %165 = getelementptr inbounds i8, ptr %164, i64 4
  store i32 0, ptr %165, align 4, !tbaa !24
  %166 = getelementptr inbounds i8, ptr %164, i64 12
  store i32 -1, ptr %166, align 4, !tbaa !25
  %167 = getelementptr inbounds i8, ptr %164, i64 8
  store i32 -1, ptr %167, align 4, !tbaa !26
  %168 = add nsw i32 %149, 1
  store i32 %168, ptr %126, align 8, !tbaa !21
  br label %169

169:                                              ; preds = %162, %155, %151
  %170 = phi i32 [ %149, %162 ], [ 0, %151 ], [ 0, %155 ]
  %171 = getelementptr inbounds i8, ptr %1, i64 4
  store i32 %170, ptr %171, align 4, !tbaa !27
  %172 = sext i32 %148 to i64
  %173 = getelementptr inbounds [400 x %struct.step], ptr %125, i64 0, i64 %172, i32 2
  store i32 %170, ptr %173, align 8, !tbaa !26
  br label %455

174:                                              ; preds = %2
  %175 = load ptr, ptr %0, align 8, !tbaa !8
  %176 = getelementptr inbounds i8, ptr %175, i64 6400
  %177 = load i32, ptr %176, align 8, !tbaa !21
  %178 = icmp eq i32 %177, 400
  br i1 %178, label %179, label %190

179:                                              ; preds = %174
  %180 = getelementptr inbounds i8, ptr %175, i64 7184
  %181 = load ptr, ptr %180, align 8, !tbaa !13
  %182 = icmp eq ptr %181, null
  br i1 %182, label %183, label %197

183:                                              ; preds = %179
  store ptr @.str.8, ptr %180, align 8, !tbaa !13
  %184 = getelementptr inbounds i8, ptr %0, i64 8
  %185 = load ptr, ptr %184, align 8, !tbaa !11
  %186 = ptrtoint ptr %5 to i64
  %187 = ptrtoint ptr %185 to i64
  %188 = sub i64 %186, %187
  %189 = getelementptr inbounds i8, ptr %175, i64 7192
  store i64 %188, ptr %189, align 8, !tbaa !17
  br label %197

190:                                              ; preds = %174
  %191 = sext i32 %177 to i64
  %192 = getelementptr inbounds [400 x %struct.step], ptr %175, i64 0, i64 %191
  store i32 1, ptr %192, align 4, !tbaa !22
  %193 = getelementptr inbounds i8, ptr %192, i64 4
  store i32 0, ptr %193, align 4, !tbaa !24
  %194 = getelementptr inbounds i8, ptr %192, i64 12
  store i32 -1, ptr %194, align 4, !tbaa !25
  %195 = getelementptr inbounds i8, ptr %192, i64 8
  store i32 -1, ptr %195, align 4, !tbaa !26
  %196 = add nsw i32 %177, 1
  store i32 %196, ptr %176, align 8, !tbaa !21
  br label %197

197:                                              ; preds = %190, %183, %179
  %198 = phi i32 [ %177, %190 ], [ 0, %179 ], [ 0, %183 ]
  store i32 %198, ptr %1, align 4, !tbaa !18
  %199 = load i32, ptr %176, align 8, !tbaa !21
  %200 = icmp eq i32 %199, 400
  br i1 %200, label %201, label %212

201:                                              ; preds = %197
  %202 = getelementptr inbounds i8, ptr %175, i64 7184
  %203 = load ptr, ptr %202, align 8, !tbaa !13
  %204 = icmp eq ptr %203, null
  br i1 %204, label %205, label %219

205:                                              ; preds = %201
  store ptr @.str.8, ptr %202, align 8, !tbaa !13
  %206 = getelementptr inbounds i8, ptr %0, i64 8
  %207 = load ptr, ptr %206, align 8, !tbaa !11
  %208 = ptrtoint ptr %5 to i64
  %209 = ptrtoint ptr %207 to i64
  %210 = sub i64 %208, %209
  %211 = getelementptr inbounds i8, ptr %175, i64 7192
  store i64 %210, ptr %211, align 8, !tbaa !17
  br label %219

212:                                              ; preds = %197
  %213 = sext i32 %199 to i64
  %214 = getelementptr inbounds [400 x %struct.step], ptr %175, i64 0, i64 %213
  store i32 6, ptr %214, align 4, !tbaa !22
  %215 = getelementptr inbounds i8, ptr %214, i64 4
  store i32 0, ptr %215, align 4, !tbaa !24
  %216 = getelementptr inbounds i8, ptr %214, i64 12
  store i32 -1, ptr %216, align 4, !tbaa !25
  %217 = getelementptr inbounds i8, ptr %214, i64 8
  store i32 -1, ptr %217, align 4, !tbaa !26
  %218 = add nsw i32 %199, 1
  store i32 %218, ptr %176, align 8, !tbaa !21
  br label %219

219:                                              ; preds = %212, %205, %201
  %220 = phi i32 [ %199, %212 ], [ 0, %201 ], [ 0, %205 ]
  %221 = getelementptr inbounds i8, ptr %1, i64 4
  store i32 %220, ptr %221, align 4, !tbaa !27
  %222 = sext i32 %198 to i64
  %223 = getelementptr inbounds [400 x %struct.step], ptr %175, i64 0, i64 %222, i32 2
  store i32 %220, ptr %223, align 8, !tbaa !26
  br label %455

224:                                              ; preds = %2
  %225 = load ptr, ptr %0, align 8, !tbaa !8
  %226 = getelementptr inbounds i8, ptr %225, i64 6400
  %227 = load i32, ptr %226, align 8, !tbaa !21
  %228 = icmp eq i32 %227, 400
  br i1 %228, label %229, label %240

229:                                              ; preds = %224
  %230 = getelementptr inbounds i8, ptr %225, i64 7184
  %231 = load ptr, ptr %230, align 8, !tbaa !13
  %232 = icmp eq ptr %231, null
  br i1 %232, label %233, label %247

233:                                              ; preds = %229
  store ptr @.str.8, ptr %230, align 8, !tbaa !13
  %234 = getelementptr inbounds i8, ptr %0, i64 8
  %235 = load ptr, ptr %234, align 8, !tbaa !11
  %236 = ptrtoint ptr %5 to i64
  %237 = ptrtoint ptr %235 to i64
  %238 = sub i64 %236, %237
  %239 = getelementptr inbounds i8, ptr %225, i64 7192
  store i64 %238, ptr %239, align 8, !tbaa !17
  br label %247

240:                                              ; preds = %224
  %241 = sext i32 %227 to i64
  %242 = getelementptr inbounds [400 x %struct.step], ptr %225, i64 0, i64 %241
  store i32 3, ptr %242, align 4, !tbaa !22
  %243 = getelementptr inbounds i8, ptr %242, i64 4
  store i32 0, ptr %243, align 4, !tbaa !24
  %244 = getelementptr inbounds i8, ptr %242, i64 12
  store i32 -1, ptr %244, align 4, !tbaa !25
  %245 = getelementptr inbounds i8, ptr %242, i64 8
  store i32 -1, ptr %245, align 4, !tbaa !26
  %246 = add nsw i32 %227, 1
  store i32 %246, ptr %226, align 8, !tbaa !21
  br label %247

247:                                              ; preds = %240, %233, %229
  %248 = phi i32 [ %227, %240 ], [ 0, %229 ], [ 0, %233 ]
  store i32 %248, ptr %1, align 4, !tbaa !18
  %249 = load i32, ptr %226, align 8, !tbaa !21
  %250 = icmp eq i32 %249, 400
  br i1 %250, label %251, label %262

251:                                              ; preds = %247
  %252 = getelementptr inbounds i8, ptr %225, i64 7184
  %253 = load ptr, ptr %252, align 8, !tbaa !13
  %254 = icmp eq ptr %253, null
  br i1 %254, label %255, label %269

255:                                              ; preds = %251
  store ptr @.str.8, ptr %252, align 8, !tbaa !13
  %256 = getelementptr inbounds i8, ptr %0, i64 8
  %257 = load ptr, ptr %256, align 8, !tbaa !11
  %258 = ptrtoint ptr %5 to i64
  %259 = ptrtoint ptr %257 to i64
  %260 = sub i64 %258, %259
  %261 = getelementptr inbounds i8, ptr %225, i64 7192
  store i64 %260, ptr %261, align 8, !tbaa !17
  br label %269

262:                                              ; preds = %247
  %263 = sext i32 %249 to i64
  %264 = getelementptr inbounds [400 x %struct.step], ptr %225, i64 0, i64 %263
  store i32 6, ptr %264, align 4, !tbaa !22
  %265 = getelementptr inbounds i8, ptr %264, i64 4
  store i32 0, ptr %265, align 4, !tbaa !24
  %266 = getelementptr inbounds i8, ptr %264, i64 12
  store i32 -1, ptr %266, align 4, !tbaa !25
  %267 = getelementptr inbounds i8, ptr %264, i64 8
  store i32 -1, ptr %267, align 4, !tbaa !26
  %268 = add nsw i32 %249, 1
  store i32 %268, ptr %226, align 8, !tbaa !21
  br label %269

269:                                              ; preds = %262, %255, %251
  %270 = phi i32 [ %249, %262 ], [ 0, %251 ], [ 0, %255 ]
  %271 = getelementptr inbounds i8, ptr %1, i64 4
  store i32 %270, ptr %271, align 4, !tbaa !27
  %272 = sext i32 %248 to i64
  %273 = getelementptr inbounds [400 x %struct.step], ptr %225, i64 0, i64 %272, i32 2
  store i32 %270, ptr %273, align 8, !tbaa !26
  br label %455

274:                                              ; preds = %2
  %275 = load ptr, ptr %0, align 8, !tbaa !8
  %276 = getelementptr inbounds i8, ptr %275, i64 6400
  %277 = load i32, ptr %276, align 8, !tbaa !21
  %278 = icmp eq i32 %277, 400
  br i1 %278, label %279, label %290

279:                                              ; preds = %274
  %280 = getelementptr inbounds i8, ptr %275, i64 7184
  %281 = load ptr, ptr %280, align 8, !tbaa !13
  %282 = icmp eq ptr %281, null
  br i1 %282, label %283, label %297

283:                                              ; preds = %279
  store ptr @.str.8, ptr %280, align 8, !tbaa !13
  %284 = getelementptr inbounds i8, ptr %0, i64 8
  %285 = load ptr, ptr %284, align 8, !tbaa !11
  %286 = ptrtoint ptr %5 to i64
  %287 = ptrtoint ptr %285 to i64
  %288 = sub i64 %286, %287
  %289 = getelementptr inbounds i8, ptr %275, i64 7192
  store i64 %288, ptr %289, align 8, !tbaa !17
  br label %297

290:                                              ; preds = %274
  %291 = sext i32 %277 to i64
  %292 = getelementptr inbounds [400 x %struct.step], ptr %275, i64 0, i64 %291
  store i32 4, ptr %292, align 4, !tbaa !22
  %293 = getelementptr inbounds i8, ptr %292, i64 4
  store i32 0, ptr %293, align 4, !tbaa !24
  %294 = getelementptr inbounds i8, ptr %292, i64 12
  store i32 -1, ptr %294, align 4, !tbaa !25
  %295 = getelementptr inbounds i8, ptr %292, i64 8
  store i32 -1, ptr %295, align 4, !tbaa !26
  %296 = add nsw i32 %277, 1
  store i32 %296, ptr %276, align 8, !tbaa !21
  br label %297

297:                                              ; preds = %290, %283, %279
  %298 = phi i32 [ %277, %290 ], [ 0, %279 ], [ 0, %283 ]
  store i32 %298, ptr %1, align 4, !tbaa !18
  %299 = load i32, ptr %276, align 8, !tbaa !21
  %300 = icmp eq i32 %299, 400
  br i1 %300, label %301, label %312

301:                                              ; preds = %297
  %302 = getelementptr inbounds i8, ptr %275, i64 7184
  %303 = load ptr, ptr %302, align 8, !tbaa !13
  %304 = icmp eq ptr %303, null
  br i1 %304, label %305, label %319

305:                                              ; preds = %301
  store ptr @.str.8, ptr %302, align 8, !tbaa !13
  %306 = getelementptr inbounds i8, ptr %0, i64 8
  %307 = load ptr, ptr %306, align 8, !tbaa !11
  %308 = ptrtoint ptr %5 to i64
  %309 = ptrtoint ptr %307 to i64
  %310 = sub i64 %308, %309
  %311 = getelementptr inbounds i8, ptr %275, i64 7192
  store i64 %310, ptr %311, align 8, !tbaa !17
  br label %319

312:                                              ; preds = %297
  %313 = sext i32 %299 to i64
  %314 = getelementptr inbounds [400 x %struct.step], ptr %275, i64 0, i64 %313
  store i32 6, ptr %314, align 4, !tbaa !22
  %315 = getelementptr inbounds i8, ptr %314, i64 4
  store i32 0, ptr %315, align 4, !tbaa !24
  %316 = getelementptr inbounds i8, ptr %314, i64 12
  store i32 -1, ptr %316, align 4, !tbaa !25
  %317 = getelementptr inbounds i8, ptr %314, i64 8
  store i32 -1, ptr %317, align 4, !tbaa !26
  %318 = add nsw i32 %299, 1
  store i32 %318, ptr %276, align 8, !tbaa !21
  br label %319

319:                                              ; preds = %312, %305, %301
  %320 = phi i32 [ %299, %312 ], [ 0, %301 ], [ 0, %305 ]
  %321 = getelementptr inbounds i8, ptr %1, i64 4
  store i32 %320, ptr %321, align 4, !tbaa !27
  %322 = sext i32 %298 to i64
  %323 = getelementptr inbounds [400 x %struct.step], ptr %275, i64 0, i64 %322, i32 2
  store i32 %320, ptr %323, align 8, !tbaa !26
  br label %455

324:                                              ; preds = %2, %2, %2
  store ptr %4, ptr %3, align 8, !tbaa !12
  %325 = load ptr, ptr %0, align 8, !tbaa !8
  %326 = getelementptr inbounds i8, ptr %325, i64 7184
  %327 = load ptr, ptr %326, align 8, !tbaa !13
  %328 = icmp eq ptr %327, null
  br i1 %328, label %329, label %455

329:                                              ; preds = %324
  store ptr @.str.3, ptr %326, align 8, !tbaa !13
  %330 = getelementptr inbounds i8, ptr %0, i64 8
  %331 = load ptr, ptr %330, align 8, !tbaa !11
  %332 = ptrtoint ptr %4 to i64
  %333 = ptrtoint ptr %331 to i64
  %334 = sub i64 %332, %333
  %335 = getelementptr inbounds i8, ptr %325, i64 7192
  store i64 %334, ptr %335, align 8, !tbaa !17
  br label %455

336:                                              ; preds = %2
  %337 = load i8, ptr %5, align 1, !tbaa !5
  %338 = icmp eq i8 %337, 0
  br i1 %338, label %339, label %351

339:                                              ; preds = %336
  %340 = load ptr, ptr %0, align 8, !tbaa !8
  %341 = getelementptr inbounds i8, ptr %340, i64 7184
  %342 = load ptr, ptr %341, align 8, !tbaa !13
  %343 = icmp eq ptr %342, null
  br i1 %343, label %344, label %455

344:                                              ; preds = %339
  store ptr @.str.4, ptr %341, align 8, !tbaa !13
  %345 = getelementptr inbounds i8, ptr %0, i64 8
  %346 = load ptr, ptr %345, align 8, !tbaa !11
  %347 = ptrtoint ptr %5 to i64
  %348 = ptrtoint ptr %346 to i64
  %349 = sub i64 %347, %348
  %350 = getelementptr inbounds i8, ptr %340, i64 7192
  store i64 %349, ptr %350, align 8, !tbaa !17
  br label %455

351:                                              ; preds = %336
  %352 = getelementptr inbounds i8, ptr %4, i64 2
  store ptr %352, ptr %3, align 8, !tbaa !12
  %353 = load ptr, ptr %0, align 8, !tbaa !8
  %354 = getelementptr inbounds i8, ptr %353, i64 6400
  %355 = load i32, ptr %354, align 8, !tbaa !21
  %356 = icmp eq i32 %355, 400
  br i1 %356, label %357, label %368

357:                                              ; preds = %351
  %358 = getelementptr inbounds i8, ptr %353, i64 7184
  %359 = load ptr, ptr %358, align 8, !tbaa !13
  %360 = icmp eq ptr %359, null
  br i1 %360, label %361, label %377

361:                                              ; preds = %357
  store ptr @.str.8, ptr %358, align 8, !tbaa !13
  %362 = getelementptr inbounds i8, ptr %0, i64 8
  %363 = load ptr, ptr %362, align 8, !tbaa !11
  %364 = ptrtoint ptr %352 to i64
  %365 = ptrtoint ptr %363 to i64
  %366 = sub i64 %364, %365
  %367 = getelementptr inbounds i8, ptr %353, i64 7192
  store i64 %366, ptr %367, align 8, !tbaa !17
  br label %377

368:                                              ; preds = %351
  %369 = load i8, ptr %5, align 1, !tbaa !5
  %370 = sext i8 %369 to i32
  %371 = sext i32 %355 to i64
  %372 = getelementptr inbounds [400 x %struct.step], ptr %353, i64 0, i64 %371
  store i32 0, ptr %372, align 4, !tbaa !22
  %373 = getelementptr inbounds i8, ptr %372, i64 4
  store i32 %370, ptr %373, align 4, !tbaa !24
  %374 = getelementptr inbounds i8, ptr %372, i64 12
  store i32 -1, ptr %374, align 4, !tbaa !25
  %375 = getelementptr inbounds i8, ptr %372, i64 8
  store i32 -1, ptr %375, align 4, !tbaa !26
  %376 = add nsw i32 %355, 1
  store i32 %376, ptr %354, align 8, !tbaa !21
  br label %377

377:                                              ; preds = %368, %361, %357
  %378 = phi i32 [ %355, %368 ], [ 0, %357 ], [ 0, %361 ]
  store i32 %378, ptr %1, align 4, !tbaa !18
  %379 = load i32, ptr %354, align 8, !tbaa !21
  %380 = icmp eq i32 %379, 400
  br i1 %380, label %381, label %392

381:                                              ; preds = %377
  %382 = getelementptr inbounds i8, ptr %353, i64 7184
  %383 = load ptr, ptr %382, align 8, !tbaa !13
  %384 = icmp eq ptr %383, null
  br i1 %384, label %385, label %399

385:                                              ; preds = %381
  store ptr @.str.8, ptr %382, align 8, !tbaa !13
  %386 = getelementptr inbounds i8, ptr %0, i64 8
  %387 = load ptr, ptr %386, align 8, !tbaa !11
  %388 = ptrtoint ptr %352 to i64
  %389 = ptrtoint ptr %387 to i64
  %390 = sub i64 %388, %389
  %391 = getelementptr inbounds i8, ptr %353, i64 7192
  store i64 %390, ptr %391, align 8, !tbaa !17
  br label %399

392:                                              ; preds = %377
  %393 = sext i32 %379 to i64
  %394 = getelementptr inbounds [400 x %struct.step], ptr %353, i64 0, i64 %393
  store i32 6, ptr %394, align 4, !tbaa !22
  %395 = getelementptr inbounds i8, ptr %394, i64 4
  store i32 0, ptr %395, align 4, !tbaa !24
  %396 = getelementptr inbounds i8, ptr %394, i64 12
  store i32 -1, ptr %396, align 4, !tbaa !25
  %397 = getelementptr inbounds i8, ptr %394, i64 8
  store i32 -1, ptr %397, align 4, !tbaa !26
  %398 = add nsw i32 %379, 1
  store i32 %398, ptr %354, align 8, !tbaa !21
  br label %399

399:                                              ; preds = %392, %385, %381
  %400 = phi i32 [ %379, %392 ], [ 0, %381 ], [ 0, %385 ]
  %401 = getelementptr inbounds i8, ptr %1, i64 4
  store i32 %400, ptr %401, align 4, !tbaa !27
  %402 = sext i32 %378 to i64
  %403 = getelementptr inbounds [400 x %struct.step], ptr %353, i64 0, i64 %402, i32 2
  store i32 %400, ptr %403, align 8, !tbaa !26
  br label %455

404:                                              ; preds = %2
  %405 = load ptr, ptr %0, align 8, !tbaa !8
  %406 = getelementptr inbounds i8, ptr %405, i64 6400
  %407 = load i32, ptr %406, align 8, !tbaa !21
  %408 = icmp eq i32 %407, 400
  br i1 %408, label %409, label %420

409:                                              ; preds = %404
  %410 = getelementptr inbounds i8, ptr %405, i64 7184
  %411 = load ptr, ptr %410, align 8, !tbaa !13
  %412 = icmp eq ptr %411, null
  br i1 %412, label %413, label %428

413:                                              ; preds = %409
  store ptr @.str.8, ptr %410, align 8, !tbaa !13
  %414 = getelementptr inbounds i8, ptr %0, i64 8
  %415 = load ptr, ptr %414, align 8, !tbaa !11
  %416 = ptrtoint ptr %5 to i64
  %417 = ptrtoint ptr %415 to i64
  %418 = sub i64 %416, %417
  %419 = getelementptr inbounds i8, ptr %405, i64 7192
  store i64 %418, ptr %419, align 8, !tbaa !17
  br label %428

420:                                              ; preds = %404
  %421 = sext i8 %6 to i32
  %422 = sext i32 %407 to i64
  %423 = getelementptr inbounds [400 x %struct.step], ptr %405, i64 0, i64 %422
  store i32 0, ptr %423, align 4, !tbaa !22
  %424 = getelementptr inbounds i8, ptr %423, i64 4
  store i32 %421, ptr %424, align 4, !tbaa !24
  %425 = getelementptr inbounds i8, ptr %423, i64 12
  store i32 -1, ptr %425, align 4, !tbaa !25
  %426 = getelementptr inbounds i8, ptr %423, i64 8
  store i32 -1, ptr %426, align 4, !tbaa !26
  %427 = add nsw i32 %407, 1
  store i32 %427, ptr %406, align 8, !tbaa !21
  br label %428

428:                                              ; preds = %420, %413, %409
  %429 = phi i32 [ %407, %420 ], [ 0, %409 ], [ 0, %413 ]
  store i32 %429, ptr %1, align 4, !tbaa !18
  %430 = load i32, ptr %406, align 8, !tbaa !21
  %431 = icmp eq i32 %430, 400
  br i1 %431, label %432, label %443

432:                                              ; preds = %428
  %433 = getelementptr inbounds i8, ptr %405, i64 7184
  %434 = load ptr, ptr %433, align 8, !tbaa !13
  %435 = icmp eq ptr %434, null
  br i1 %435, label %436, label %450

436:                                              ; preds = %432
  store ptr @.str.8, ptr %433, align 8, !tbaa !13
  %437 = getelementptr inbounds i8, ptr %0, i64 8
  %438 = load ptr, ptr %437, align 8, !tbaa !11
  %439 = ptrtoint ptr %5 to i64
  %440 = ptrtoint ptr %438 to i64
  %441 = sub i64 %439, %440
  %442 = getelementptr inbounds i8, ptr %405, i64 7192
  store i64 %441, ptr %442, align 8, !tbaa !17
  br label %450

443:                                              ; preds = %428
  %444 = sext i32 %430 to i64
  %445 = getelementptr inbounds [400 x %struct.step], ptr %405, i64 0, i64 %444
  store i32 6, ptr %445, align 4, !tbaa !22
  %446 = getelementptr inbounds i8, ptr %445, i64 4
  store i32 0, ptr %446, align 4, !tbaa !24
  %447 = getelementptr inbounds i8, ptr %445, i64 12
  store i32 -1, ptr %447, align 4, !tbaa !25
  %448 = getelementptr inbounds i8, ptr %445, i64 8
  store i32 -1, ptr %448, align 4, !tbaa !26
  %449 = add nsw i32 %430, 1
  store i32 %449, ptr %406, align 8, !tbaa !21
  br label %450

450:                                              ; preds = %443, %436, %432
  %451 = phi i32 [ %430, %443 ], [ 0, %432 ], [ 0, %436 ]
  %452 = getelementptr inbounds i8, ptr %1, i64 4
  store i32 %451, ptr %452, align 4, !tbaa !27
  %453 = sext i32 %429 to i64
  %454 = getelementptr inbounds [400 x %struct.step], ptr %405, i64 0, i64 %453, i32 2
  store i32 %451, ptr %454, align 8, !tbaa !26
  br label %455

455:                                              ; preds = %450, %399, %344, %339, %329, %324, %319, %269, %219, %169, %110, %105, %102, %34, %30, %23, %16, %11
  %456 = load ptr, ptr %0, align 8, !tbaa !8
  %457 = getelementptr inbounds i8, ptr %456, i64 7184
  %458 = load ptr, ptr %457, align 8, !tbaa !13
  %459 = icmp eq ptr %458, null
  br i1 %459, label %460, label %530

460:                                              ; preds = %455
  %461 = getelementptr inbounds i8, ptr %456, i64 6400
  %462 = getelementptr inbounds i8, ptr %0, i64 8
  %463 = getelementptr inbounds i8, ptr %456, i64 7192
  %464 = getelementptr inbounds i8, ptr %1, i64 4
  %465 = load ptr, ptr %3, align 8, !tbaa !12
  br label %466

466:                                              ; preds = %514, %460
  %467 = phi ptr [ %465, %460 ], [ %479, %514 ]
  %468 = phi ptr [ %458, %460 ], [ %515, %514 ]
  %469 = load i8, ptr %467, align 1, !tbaa !5
  %470 = icmp eq i8 %469, 0
  br i1 %470, label %530, label %471

471:                                              ; preds = %466
  %472 = zext nneg i8 %469 to i64
  %473 = icmp ugt i8 %469, 63
  %474 = shl nuw i64 1, %472
  %475 = and i64 %474, -9223358842715242495
  %476 = icmp eq i64 %475, 0
  %477 = select i1 %473, i1 true, i1 %476
  br i1 %477, label %530, label %478

478:                                              ; preds = %471
  %479 = getelementptr inbounds i8, ptr %467, i64 1
  store ptr %479, ptr %3, align 8, !tbaa !12
  %480 = load i8, ptr %467, align 1, !tbaa !5
  %481 = load i32, ptr %461, align 8, !tbaa !21
  %482 = icmp eq i32 %481, 400
  br i1 %482, label %483, label %488

483:                                              ; preds = %478
  store ptr @.str.8, ptr %457, align 8, !tbaa !13
  %484 = load ptr, ptr %462, align 8, !tbaa !11
  %485 = ptrtoint ptr %479 to i64
  %486 = ptrtoint ptr %484 to i64
  %487 = sub i64 %485, %486
  store i64 %487, ptr %463, align 8, !tbaa !17
  br label %495

488:                                              ; preds = %478
  %489 = sext i32 %481 to i64
  %490 = getelementptr inbounds [400 x %struct.step], ptr %456, i64 0, i64 %489
  store i32 5, ptr %490, align 4, !tbaa !22
  %491 = getelementptr inbounds i8, ptr %490, i64 4
  store i32 0, ptr %491, align 4, !tbaa !24
  %492 = getelementptr inbounds i8, ptr %490, i64 12
  store i32 -1, ptr %492, align 4, !tbaa !25
  %493 = getelementptr inbounds i8, ptr %490, i64 8
  store i32 -1, ptr %493, align 4, !tbaa !26
  %494 = add nsw i32 %481, 1
  store i32 %494, ptr %461, align 8, !tbaa !21
  br label %495

495:                                              ; preds = %488, %483
  %496 = phi ptr [ %468, %488 ], [ @.str.8, %483 ]
  %497 = phi i32 [ %481, %488 ], [ 0, %483 ]
  %498 = load i32, ptr %461, align 8, !tbaa !21
  %499 = icmp eq i32 %498, 400
  br i1 %499, label %500, label %507

500:                                              ; preds = %495
  %501 = icmp eq ptr %496, null
  br i1 %501, label %502, label %514

502:                                              ; preds = %500
  store ptr @.str.8, ptr %457, align 8, !tbaa !13
  %503 = load ptr, ptr %462, align 8, !tbaa !11
  %504 = ptrtoint ptr %479 to i64
  %505 = ptrtoint ptr %503 to i64
  %506 = sub i64 %504, %505
  store i64 %506, ptr %463, align 8, !tbaa !17
  br label %514

507:                                              ; preds = %495
  %508 = sext i32 %498 to i64
  %509 = getelementptr inbounds [400 x %struct.step], ptr %456, i64 0, i64 %508
  store i32 6, ptr %509, align 4, !tbaa !22
  %510 = getelementptr inbounds i8, ptr %509, i64 4
  store i32 0, ptr %510, align 4, !tbaa !24
  %511 = getelementptr inbounds i8, ptr %509, i64 12
  store i32 -1, ptr %511, align 4, !tbaa !25
  %512 = getelementptr inbounds i8, ptr %509, i64 8
  store i32 -1, ptr %512, align 4, !tbaa !26
  %513 = add nsw i32 %498, 1
  store i32 %513, ptr %461, align 8, !tbaa !21
  br label %514

514:                                              ; preds = %507, %502, %500
  %515 = phi ptr [ %496, %507 ], [ %496, %500 ], [ @.str.8, %502 ]
  %516 = phi i32 [ %498, %507 ], [ 0, %500 ], [ 0, %502 ]
  %517 = load i32, ptr %1, align 4, !tbaa !18
  %518 = sext i32 %497 to i64
  %519 = getelementptr inbounds %struct.step, ptr %456, i64 %518
  %520 = getelementptr inbounds i8, ptr %519, i64 8
  store i32 %517, ptr %520, align 4, !tbaa !26
  %521 = getelementptr inbounds i8, ptr %519, i64 12
  store i32 %516, ptr %521, align 4, !tbaa !25
  %522 = icmp eq i8 %480, 63
  %523 = select i1 %522, i32 %516, i32 %497
  %524 = load i32, ptr %464, align 4, !tbaa !27
  %525 = sext i32 %524 to i64
  %526 = getelementptr inbounds %struct.step, ptr %456, i64 %525, i32 2
  store i32 %523, ptr %526, align 4, !tbaa !26
  %527 = icmp eq i8 %480, 43
  %528 = select i1 %527, i32 %517, i32 %497
  store i32 %528, ptr %1, align 4, !tbaa !18
  store i32 %516, ptr %464, align 4, !tbaa !27
  %529 = icmp eq ptr %515, null
  br i1 %529, label %466, label %530, !llvm.loop !84

530:                                              ; preds = %514, %471, %466, %455
  ret void
}

; Function Attrs: nounwind optsize uwtable
define internal fastcc i32 @padded(ptr nocapture noundef %0, ptr nocapture noundef readonly %1, i32 noundef %2, i32 noundef %3, i32 noundef %4) unnamed_addr #2 {
  %6 = icmp slt i32 %4, 0
  %7 = lshr i32 %4, 31
  %8 = icmp ne i32 %7, 0
  %9 = sub i32 0, %4
  %10 = select i1 %8, i32 %9, i32 %4
  %11 = sub nsw i32 %10, %2
  %12 = and i32 %3, 1
  %13 = icmp ne i32 %12, 0
  %14 = or i1 %6, %13
  br i1 %14, label %24, label %15

15:                                               ; preds = %5
  %16 = icmp sgt i32 %11, 0
  br i1 %16, label %17, label %22

17:                                               ; preds = %17, %15
  %18 = phi i32 [ %20, %17 ], [ 0, %15 ]
  %19 = tail call i32 @fputc(i32 noundef 32, ptr noundef %0) #10
  %20 = add nuw nsw i32 %18, 1
  %21 = icmp eq i32 %20, %11
  br i1 %21, label %22, label %17, !llvm.loop !68

22:                                               ; preds = %17, %15
  %23 = tail call noundef i32 @llvm.smax.i32(i32 %11, i32 0)
  br label %24

24:                                               ; preds = %22, %5
  %25 = phi i32 [ %23, %22 ], [ 0, %5 ]
  %26 = sext i32 %2 to i64
  %27 = load i8, ptr %0, align 8, !tbaa !40, !alias.scope !85, !noalias !88
  %28 = icmp eq i8 %27, 0
  %29 = icmp eq i32 %2, 0
  %30 = or i1 %29, %28
  br i1 %30, label %39, label %31

31:                                               ; preds = %31, %24
  %32 = phi i64 [ %37, %31 ], [ 0, %24 ]
  %33 = getelementptr inbounds i8, ptr %1, i64 %32
  %34 = load i8, ptr %33, align 1, !tbaa !5, !alias.scope !88, !noalias !85
  %35 = zext i8 %34 to i32
  %36 = tail call i32 @fputc(i32 noundef %35, ptr noundef nonnull %0) #10, !noalias !88
  %37 = add nuw i64 %32, 1
  %38 = icmp eq i64 %37, %26
  br i1 %38, label %39, label %31, !llvm.loop !47

39:                                               ; preds = %31, %24
  br i1 %14, label %40, label %49

40:                                               ; preds = %39
  %41 = icmp sgt i32 %11, 0
  br i1 %41, label %42, label %47

42:                                               ; preds = %42, %40
  %43 = phi i32 [ %45, %42 ], [ 0, %40 ]
  %44 = tail call i32 @fputc(i32 noundef 32, ptr noundef nonnull %0) #10
  %45 = add nuw nsw i32 %43, 1
  %46 = icmp eq i32 %45, %11
  br i1 %46, label %47, label %42, !llvm.loop !68

47:                                               ; preds = %42, %40
  %48 = tail call noundef i32 @llvm.smax.i32(i32 %11, i32 0)
  br label %49

49:                                               ; preds = %47, %39
  %50 = phi i32 [ %48, %47 ], [ 0, %39 ]
  %51 = add nsw i32 %25, %2
  %52 = add nsw i32 %51, %50
  ret i32 %52
}

; Function Attrs: nofree norecurse nosync nounwind optsize memory(read, inaccessiblemem: none) uwtable
define internal fastcc i64 @span(ptr nocapture noundef readonly %0, ptr nocapture noundef readonly %1, i32 noundef %2) unnamed_addr #3 {
  %4 = alloca [256 x i8], align 16
  call void @llvm.lifetime.start.p0(i64 256, ptr nonnull %4) #9
  br label %5

5:                                                ; preds = %5, %3
  %6 = phi ptr [ %4, %3 ], [ %9, %5 ]
  %7 = phi i64 [ 256, %3 ], [ %8, %5 ]
  %8 = add nsw i64 %7, -1
  %9 = getelementptr inbounds i8, ptr %6, i64 1
  store i8 0, ptr %6, align 1, !tbaa !5
  %10 = icmp eq i64 %8, 0
  br i1 %10, label %11, label %5, !llvm.loop !90

11:                                               ; preds = %5
  %12 = load i8, ptr %1, align 1, !tbaa !5
  %13 = icmp eq i8 %12, 0
  br i1 %13, label %14, label %17

14:                                               ; preds = %17, %11
  %15 = load i8, ptr %0, align 1, !tbaa !5
  %16 = icmp eq i8 %15, 0
  br i1 %16, label %38, label %25

17:                                               ; preds = %17, %11
  %18 = phi i8 [ %23, %17 ], [ %12, %11 ]
  %19 = phi ptr [ %20, %17 ], [ %1, %11 ]
  %20 = getelementptr inbounds i8, ptr %19, i64 1
  %21 = zext i8 %18 to i64
  %22 = getelementptr inbounds [256 x i8], ptr %4, i64 0, i64 %21
  store i8 1, ptr %22, align 1, !tbaa !5
  %23 = load i8, ptr %20, align 1, !tbaa !5
  %24 = icmp eq i8 %23, 0
  br i1 %24, label %14, label %17, !llvm.loop !91

25:                                               ; preds = %33, %14
  %26 = phi i8 [ %36, %33 ], [ %15, %14 ]
  %27 = phi i64 [ %34, %33 ], [ 0, %14 ]
  %28 = zext i8 %26 to i64
  %29 = getelementptr inbounds [256 x i8], ptr %4, i64 0, i64 %28
  %30 = load i8, ptr %29, align 1, !tbaa !5
  %31 = zext i8 %30 to i32
  %32 = icmp eq i32 %31, %2
  br i1 %32, label %33, label %38

33:                                               ; preds = %25
  %34 = add i64 %27, 1
  %35 = getelementptr inbounds i8, ptr %0, i64 %34
  %36 = load i8, ptr %35, align 1, !tbaa !5
  %37 = icmp eq i8 %36, 0
  br i1 %37, label %38, label %25, !llvm.loop !92

38:                                               ; preds = %33, %25, %14
  %39 = phi i64 [ 0, %14 ], [ %34, %33 ], [ %27, %25 ]
  call void @llvm.lifetime.end.p0(i64 256, ptr nonnull %4) #9
  ret i64 %39
}

; Function Attrs: nounwind optsize uwtable
define internal i32 @fgetc(ptr nocapture noundef %0) local_unnamed_addr #2 {
  %2 = load i8, ptr %0, align 8, !tbaa !40
  %3 = icmp eq i8 %2, 0
  br i1 %3, label %4, label %20

4:                                                ; preds = %1
  %5 = getelementptr inbounds i8, ptr %0, i64 2
  %6 = load i8, ptr %5, align 2, !tbaa !93
  %7 = icmp eq i8 %6, 0
  br i1 %7, label %12, label %8

8:                                                ; preds = %4
  store i8 0, ptr %5, align 2, !tbaa !93
  %9 = getelementptr inbounds i8, ptr %0, i64 3
  %10 = load i8, ptr %9, align 1, !tbaa !94
  %11 = zext i8 %10 to i32
  br label %20

12:                                               ; preds = %4
  %13 = getelementptr inbounds i8, ptr %0, i64 1
  %14 = load i8, ptr %13, align 1, !tbaa !95
  %15 = icmp eq i8 %14, 0
  br i1 %15, label %16, label %20

16:                                               ; preds = %12
  %17 = tail call i32 @getchar() #11
  %18 = icmp eq i32 %17, -1
  br i1 %18, label %19, label %20

19:                                               ; preds = %16
  store i8 1, ptr %13, align 1, !tbaa !95
  br label %20

20:                                               ; preds = %19, %16, %12, %8, %1
  %21 = phi i32 [ %11, %8 ], [ -1, %1 ], [ -1, %12 ], [ -1, %19 ], [ %17, %16 ]
  ret i32 %21
}

; Function Attrs: optsize
declare dso_local i32 @getchar() local_unnamed_addr #8

attributes #0 = { nounwind uwtable "min-legal-vector-width"="0" "no-trapping-math"="true" "stack-protector-buffer-size"="8" "target-cpu"="x86-64" "target-features"="+cmov,+cx8,+fxsr,+mmx,+sse,+sse2,+x87" "tune-cpu"="generic" }
attributes #1 = { nocallback nofree nosync nounwind willreturn memory(argmem: readwrite) }
attributes #2 = { nounwind optsize uwtable "min-legal-vector-width"="0" "no-builtins" "no-jump-tables"="true" "no-trapping-math"="true" "stack-protector-buffer-size"="8" "target-cpu"="x86-64" "target-features"="+cmov,+cx8,+fxsr,+mmx,+sse,+sse2,+x87" "tune-cpu"="generic" }
attributes #3 = { nofree norecurse nosync nounwind optsize memory(read, inaccessiblemem: none) uwtable "min-legal-vector-width"="0" "no-builtins" "no-jump-tables"="true" "no-trapping-math"="true" "stack-protector-buffer-size"="8" "target-cpu"="x86-64" "target-features"="+cmov,+cx8,+fxsr,+mmx,+sse,+sse2,+x87" "tune-cpu"="generic" }
attributes #4 = { nocallback nofree nounwind willreturn memory(argmem: write) }
attributes #5 = { nofree nosync nounwind memory(readwrite, inaccessiblemem: none) uwtable "min-legal-vector-width"="0" "no-trapping-math"="true" "stack-protector-buffer-size"="8" "target-cpu"="x86-64" "target-features"="+cmov,+cx8,+fxsr,+mmx,+sse,+sse2,+x87" "tune-cpu"="generic" }
attributes #6 = { nofree norecurse nosync nounwind optsize uwtable "min-legal-vector-width"="0" "no-builtins" "no-jump-tables"="true" "no-trapping-math"="true" "stack-protector-buffer-size"="8" "target-cpu"="x86-64" "target-features"="+cmov,+cx8,+fxsr,+mmx,+sse,+sse2,+x87" "tune-cpu"="generic" }
attributes #7 = { nocallback nofree nosync nounwind speculatable willreturn memory(none) }
attributes #8 = { optsize "no-builtins" "no-trapping-math"="true" "stack-protector-buffer-size"="8" "target-cpu"="x86-64" "target-features"="+cmov,+cx8,+fxsr,+mmx,+sse,+sse2,+x87" "tune-cpu"="generic" }
attributes #9 = { nounwind }
attributes #10 = { nobuiltin optsize "no-builtins" }
attributes #11 = { nobuiltin nounwind optsize "no-builtins" }

!llvm.ident = !{!0, !0, !0, !0, !0}
!llvm.module.flags = !{!1, !2, !3, !4}

!0 = !{!"Debian clang version 19.1.7 (3~deb12u1)"}
!1 = !{i32 7, !"Dwarf Version", i32 5}
!2 = !{i32 2, !"Debug Info Version", i32 3}
!3 = !{i32 1, !"wchar_size", i32 4}
!4 = !{i32 7, !"uwtable", i32 2}
!5 = !{!6, !6, i64 0}
!6 = !{!"omnipotent char", !7, i64 0}
!7 = !{!"Simple C/C++ TBAA"}
!8 = !{!9, !10, i64 0}
!9 = !{!"reader", !10, i64 0, !10, i64 8, !10, i64 16}
!10 = !{!"any pointer", !6, i64 0}
!11 = !{!9, !10, i64 8}
!12 = !{!9, !10, i64 16}
!13 = !{!14, !10, i64 7184}
!14 = !{!"regex", !6, i64 0, !15, i64 6400, !15, i64 6404, !6, i64 6408, !15, i64 7176, !10, i64 7184, !16, i64 7192}
!15 = !{!"int", !6, i64 0}
!16 = !{!"long", !6, i64 0}
!17 = !{!14, !16, i64 7192}
!18 = !{!19, !15, i64 0}
!19 = !{!"part", !15, i64 0, !15, i64 4}
!20 = !{!14, !15, i64 6404}
!21 = !{!14, !15, i64 6400}
!22 = !{!23, !15, i64 0}
!23 = !{!"step", !15, i64 0, !15, i64 4, !15, i64 8, !15, i64 12}
!24 = !{!23, !15, i64 4}
!25 = !{!23, !15, i64 12}
!26 = !{!23, !15, i64 8}
!27 = !{!19, !15, i64 4}
!28 = !{!14, !15, i64 7176}
!29 = !{!30, !15, i64 2004}
!30 = !{!"states", !6, i64 0, !6, i64 1600, !15, i64 2000, !15, i64 2004}
!31 = !{!30, !15, i64 2000}
!32 = !{!15, !15, i64 0}
!33 = distinct !{!33, !34, !35}
!34 = !{!"llvm.loop.mustprogress"}
!35 = !{!"llvm.loop.unroll.disable"}
!36 = distinct !{!36, !35}
!37 = distinct !{!37, !35}
!38 = distinct !{!38, !34, !35}
!39 = distinct !{!39, !34}
!40 = !{!41, !6, i64 0}
!41 = !{!"__stream", !6, i64 0, !6, i64 1, !6, i64 2, !6, i64 3, !10, i64 8, !16, i64 16}
!42 = !{!43}
!43 = distinct !{!43, !44, !"fwrite: %stream"}
!44 = distinct !{!44, !"fwrite"}
!45 = !{!46}
!46 = distinct !{!46, !44, !"fwrite: %from"}
!47 = distinct !{!47, !34}
!48 = distinct !{!48, !34}
!49 = distinct !{!49, !34}
!50 = distinct !{!50, !34, !35}
!51 = distinct !{!51, !34, !35}
!52 = distinct !{!52, !34, !35}
!53 = distinct !{!53, !34}
!54 = distinct !{!54, !34}
!55 = distinct !{!55, !34, !35}
!56 = !{!57}
!57 = distinct !{!57, !58, !"memcpy: %from"}
!58 = distinct !{!58, !"memcpy"}
!59 = !{!60}
!60 = distinct !{!60, !58, !"memcpy: %to"}
!61 = distinct !{!61, !34}
!62 = !{!63}
!63 = distinct !{!63, !64, !"stpcpy: %from"}
!64 = distinct !{!64, !"stpcpy"}
!65 = !{!66}
!66 = distinct !{!66, !64, !"stpcpy: %to"}
!67 = distinct !{!67, !34}
!68 = distinct !{!68, !34}
!69 = !{!70}
!70 = distinct !{!70, !71, !"fwrite: %stream"}
!71 = distinct !{!71, !"fwrite"}
!72 = !{!73}
!73 = distinct !{!73, !71, !"fwrite: %from"}
!74 = !{!75}
!75 = distinct !{!75, !76, !"fwrite: %stream"}
!76 = distinct !{!76, !"fwrite"}
!77 = !{!78}
!78 = distinct !{!78, !76, !"fwrite: %from"}
!79 = !{!41, !16, i64 16}
!80 = !{!41, !10, i64 8}
!81 = distinct !{!81, !34, !35}
!82 = distinct !{!82, !34, !35}
!83 = distinct !{!83, !34, !35}
!84 = distinct !{!84, !34, !35}
!85 = !{!86}
!86 = distinct !{!86, !87, !"fwrite: %stream"}
!87 = distinct !{!87, !"fwrite"}
!88 = !{!89}
!89 = distinct !{!89, !87, !"fwrite: %from"}
!90 = distinct !{!90, !34}
!91 = distinct !{!91, !34}
!92 = distinct !{!92, !34}
!93 = !{!41, !6, i64 2}
!94 = !{!41, !6, i64 3}
!95 = !{!41, !6, i64 1}
