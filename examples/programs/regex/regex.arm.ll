source_filename = "compile.c"
target datalayout = "e-m:e-p:32:32-Fi8-i64:64-v128:64:128-a:0:32-n32-S64"
target triple = "armv7-unknown-linux-gnueabi"

%struct.regex = type { [400 x %struct.step], i32, i32, [24 x [32 x i8]], i32, ptr, i32 }
%struct.step = type { i32, i32, i32, i32 }
%struct.states = type { [400 x i32], [400 x i8], i32, i32 }
%struct.__stream = type { i8, i8, i8, i8, ptr, i32 }
%struct.reader = type { ptr, ptr, ptr }
%struct.part = type { i32, i32 }

@.str = private unnamed_addr constant [28 x i8] c"a group that was not opened\00", align 1
@.str.1 = private unnamed_addr constant [4 x i8] c"*+?\00", align 1
@.str.2 = private unnamed_addr constant [27 x i8] c"a group that is not closed\00", align 1
@.str.3 = private unnamed_addr constant [18 x i8] c"nothing to repeat\00", align 1
@.str.4 = private unnamed_addr constant [23 x i8] c"a backslash at the end\00", align 1
@.str.5 = private unnamed_addr constant [14 x i8] c"too many sets\00", align 1
@.str.6 = private unnamed_addr constant [28 x i8] c"a range that runs backwards\00", align 1
@.str.7 = private unnamed_addr constant [25 x i8] c"a set that is not closed\00", align 1
@.str.8 = private unnamed_addr constant [9 x i8] c"too long\00", align 1
@.str.9 = private unnamed_addr constant [2 x i8] c"\0A\00", align 1
@.str.1.10 = private unnamed_addr constant [33 x i8] c"%d matches, %d patterns refused\0A\00", align 1
@.str.2.16 = private unnamed_addr constant [5 x i8] c"/%s/\00", align 1
@regex = internal global %struct.regex zeroinitializer, align 4
@.str.3.17 = private unnamed_addr constant [21 x i8] c"  %d steps, %d sets\0A\00", align 1
@.str.4.18 = private unnamed_addr constant [13 x i8] c"  %s at %zu\0A\00", align 1
@.str.7.15 = private unnamed_addr constant [8 x i8] c"  %s%s\0A\00", align 1
@.str.8.13 = private unnamed_addr constant [1 x i8] zeroinitializer, align 1
@.str.9.14 = private unnamed_addr constant [3 x i8] c"- \00", align 1
@match_at.states = internal global [2 x %struct.states] zeroinitializer, align 4
@.str.10 = private unnamed_addr constant [1 x i8] zeroinitializer, align 1
@.str.1.11 = private unnamed_addr constant [7 x i8] c"(null)\00", align 1
@.str.2.18 = private unnamed_addr constant [2 x i8] c"-\00", align 1
@.str.3.19 = private unnamed_addr constant [2 x i8] c"+\00", align 1
@.str.4.17 = private unnamed_addr constant [2 x i8] c" \00", align 1
@.str.5.24 = private unnamed_addr constant [3 x i8] c"0X\00", align 1
@.str.6.23 = private unnamed_addr constant [3 x i8] c"0x\00", align 1
@__streams = internal global [3 x %struct.__stream] [%struct.__stream zeroinitializer, %struct.__stream { i8 1, i8 0, i8 0, i8 0, ptr null, i32 0 }, %struct.__stream { i8 2, i8 0, i8 0, i8 0, ptr null, i32 0 }], align 4
@.str.8.22 = private unnamed_addr constant [17 x i8] c"0123456789ABCDEF\00", align 1
@.str.9.16 = private unnamed_addr constant [17 x i8] c"0123456789abcdef\00", align 1

; Function Attrs: nounwind
define dso_local i32 @main() local_unnamed_addr #0 {
  %1 = alloca [300 x i8], align 1
  %2 = alloca %struct.reader, align 4
  %3 = alloca %struct.part, align 4
  %4 = alloca [200 x i8], align 1
  call void @llvm.lifetime.start.p0(i64 200, ptr nonnull %4) #10
  %5 = call ptr @fgets(ptr noundef nonnull %4, i32 noundef 200, ptr noundef nonnull @__streams)
  %6 = icmp eq ptr %5, null
  br i1 %6, label %244, label %7

7:                                                ; preds = %0
  %8 = getelementptr inbounds i8, ptr %4, i32 1
  %9 = getelementptr inbounds i8, ptr %2, i32 4
  %10 = getelementptr inbounds i8, ptr %2, i32 8
  %11 = getelementptr inbounds i8, ptr %3, i32 4
  br label %12

12:                                               ; preds = %238, %7
  %13 = phi i32 [ 0, %7 ], [ %241, %238 ]
  %14 = phi i32 [ 0, %7 ], [ %240, %238 ]
  %15 = phi i32 [ 0, %7 ], [ %239, %238 ]
  %16 = call i32 @strcspn(ptr noundef nonnull %4, ptr noundef nonnull @.str.9)
  %17 = getelementptr inbounds [200 x i8], ptr %4, i32 0, i32 %16
  store i8 0, ptr %17, align 1, !tbaa !5
  %18 = load i8, ptr %4, align 1, !tbaa !5
  %19 = icmp eq i8 %18, 47
  br i1 %19, label %20, label %97

20:                                               ; preds = %12
  %21 = call i32 @__print_text(ptr nonnull getelementptr inbounds (i8, ptr @__streams, i32 12), ptr nonnull @.str.2.16, i32 1) #10
  %22 = call i32 @__print_string(ptr nonnull getelementptr inbounds (i8, ptr @__streams, i32 12), ptr nonnull %8, i32 0, i32 0, i32 -1) #10
  %23 = call i32 @__print_text(ptr nonnull getelementptr inbounds (i8, ptr @__streams, i32 12), ptr nonnull getelementptr inbounds (i8, ptr @.str.2.16, i32 3), i32 1) #10
  call void @llvm.lifetime.start.p0(i64 12, ptr nonnull %2) #10
  store ptr @regex, ptr %2, align 4, !tbaa !8
  store ptr %8, ptr %9, align 4, !tbaa !11
  store ptr %8, ptr %10, align 4, !tbaa !12
  call void @llvm.lifetime.start.p0(i64 8, ptr nonnull %3) #10
  call void @llvm.memset.p0.i32(ptr noundef nonnull align 4 dereferenceable(7188) @regex, i8 0, i32 7188, i1 false)
  call fastcc void @alternatives(ptr noundef nonnull %2, ptr noundef nonnull %3)
  %24 = load ptr, ptr getelementptr inbounds (i8, ptr @regex, i32 7180), align 4, !tbaa !13
  %25 = icmp eq ptr %24, null
  br i1 %25, label %26, label %58

26:                                               ; preds = %20
  %27 = load ptr, ptr %10, align 4, !tbaa !12
  %28 = load i8, ptr %27, align 1, !tbaa !5
  %29 = icmp eq i8 %28, 41
  %30 = load ptr, ptr %2, align 4, !tbaa !8
  br i1 %29, label %31, label %43

31:                                               ; preds = %26
  %32 = getelementptr inbounds i8, ptr %30, i32 7180
  %33 = load ptr, ptr %32, align 4, !tbaa !13
  %34 = icmp eq ptr %33, null
  br i1 %34, label %35, label %43

35:                                               ; preds = %31
  store ptr @.str, ptr %32, align 4, !tbaa !13
  %36 = load ptr, ptr %9, align 4, !tbaa !11
  %37 = ptrtoint ptr %27 to i32
  %38 = ptrtoint ptr %36 to i32
  %39 = sub i32 %37, %38
  %40 = getelementptr inbounds i8, ptr %30, i32 7184
  store i32 %39, ptr %40, align 4, !tbaa !16
  %41 = load ptr, ptr getelementptr inbounds (i8, ptr @regex, i32 7180), align 4, !tbaa !13
  %42 = icmp eq ptr %41, null
  br i1 %42, label %43, label %58

43:                                               ; preds = %35, %31, %26
  %44 = load i32, ptr %3, align 4, !tbaa !17
  store i32 %44, ptr getelementptr inbounds (i8, ptr @regex, i32 6404), align 4, !tbaa !19
  %45 = getelementptr inbounds i8, ptr %30, i32 6400
  %46 = load i32, ptr %45, align 4, !tbaa !20
  %47 = icmp eq i32 %46, 400
  br i1 %47, label %48, label %52

48:                                               ; preds = %43
  %49 = getelementptr inbounds i8, ptr %30, i32 7180
  %50 = load ptr, ptr %49, align 4, !tbaa !13
  %51 = icmp eq ptr %50, null
  br i1 %51, label %64, label %60

52:                                               ; preds = %43
  %53 = getelementptr inbounds [400 x %struct.step], ptr %30, i32 0, i32 %46
  store i32 7, ptr %53, align 4, !tbaa !21
  %54 = getelementptr inbounds i8, ptr %53, i32 4
  store i32 0, ptr %54, align 4, !tbaa !23
  %55 = getelementptr inbounds i8, ptr %53, i32 12
  store i32 -1, ptr %55, align 4, !tbaa !24
  %56 = getelementptr inbounds i8, ptr %53, i32 8
  store i32 -1, ptr %56, align 4, !tbaa !25
  %57 = add nsw i32 %46, 1
  store i32 %57, ptr %45, align 4, !tbaa !20
  br label %60

58:                                               ; preds = %35, %20
  %59 = phi ptr [ %41, %35 ], [ %24, %20 ]
  call void @llvm.lifetime.end.p0(i64 8, ptr nonnull %3) #10
  call void @llvm.lifetime.end.p0(i64 12, ptr nonnull %2) #10
  br label %84

60:                                               ; preds = %52, %48
  %61 = phi i32 [ 0, %48 ], [ %46, %52 ]
  %62 = load i32, ptr %11, align 4, !tbaa !26
  %63 = getelementptr inbounds [400 x %struct.step], ptr @regex, i32 0, i32 %62, i32 2
  store i32 %61, ptr %63, align 4, !tbaa !25
  call void @llvm.lifetime.end.p0(i64 8, ptr nonnull %3) #10
  call void @llvm.lifetime.end.p0(i64 12, ptr nonnull %2) #10
  br label %74

64:                                               ; preds = %48
  store ptr @.str.8, ptr %49, align 4, !tbaa !13
  %65 = load ptr, ptr %9, align 4, !tbaa !11
  %66 = ptrtoint ptr %27 to i32
  %67 = ptrtoint ptr %65 to i32
  %68 = sub i32 %66, %67
  %69 = getelementptr inbounds i8, ptr %30, i32 7184
  store i32 %68, ptr %69, align 4, !tbaa !16
  %70 = load ptr, ptr getelementptr inbounds (i8, ptr @regex, i32 7180), align 4, !tbaa !13
  %71 = icmp eq ptr %70, null
  %72 = load i32, ptr %11, align 4, !tbaa !26
  %73 = getelementptr inbounds [400 x %struct.step], ptr @regex, i32 0, i32 %72, i32 2
  store i32 0, ptr %73, align 4, !tbaa !25
  call void @llvm.lifetime.end.p0(i64 8, ptr nonnull %3) #10
  call void @llvm.lifetime.end.p0(i64 12, ptr nonnull %2) #10
  br i1 %71, label %74, label %84

74:                                               ; preds = %64, %60
  %75 = load i32, ptr getelementptr inbounds (i8, ptr @regex, i32 6400), align 4, !tbaa !20
  %76 = load i32, ptr getelementptr inbounds (i8, ptr @regex, i32 7176), align 4, !tbaa !27
  %77 = call i32 @__print_text(ptr nonnull getelementptr inbounds (i8, ptr @__streams, i32 12), ptr nonnull @.str.3.17, i32 2) #10
  %78 = sext i32 %75 to i64
  %79 = call i32 @__print_signed(ptr nonnull getelementptr inbounds (i8, ptr @__streams, i32 12), i64 %78, i32 0, i32 0, i32 -1) #10
  %80 = call i32 @__print_text(ptr nonnull getelementptr inbounds (i8, ptr @__streams, i32 12), ptr nonnull getelementptr inbounds (i8, ptr @.str.3.17, i32 4), i32 8) #10
  %81 = sext i32 %76 to i64
  %82 = call i32 @__print_signed(ptr nonnull getelementptr inbounds (i8, ptr @__streams, i32 12), i64 %81, i32 0, i32 0, i32 -1) #10
  %83 = call i32 @__print_text(ptr nonnull getelementptr inbounds (i8, ptr @__streams, i32 12), ptr nonnull getelementptr inbounds (i8, ptr @.str.3.17, i32 14), i32 6) #10
  br label %93

84:                                               ; preds = %64, %58
  %85 = phi ptr [ %59, %58 ], [ %70, %64 ]
  %86 = load i32, ptr getelementptr inbounds (i8, ptr @regex, i32 7184), align 4, !tbaa !16
  %87 = call i32 @__print_text(ptr nonnull getelementptr inbounds (i8, ptr @__streams, i32 12), ptr nonnull @.str.4.18, i32 2) #10
  %88 = call i32 @__print_string(ptr nonnull getelementptr inbounds (i8, ptr @__streams, i32 12), ptr nonnull %85, i32 0, i32 0, i32 -1) #10
  %89 = call i32 @__print_text(ptr nonnull getelementptr inbounds (i8, ptr @__streams, i32 12), ptr nonnull getelementptr inbounds (i8, ptr @.str.4.18, i32 4), i32 4) #10
  %90 = zext i32 %86 to i64
  %91 = call i32 @__print_unsigned(ptr nonnull getelementptr inbounds (i8, ptr @__streams, i32 12), i64 %90, i32 10, i32 0, i32 0, i32 -1) #10
  %92 = call i32 @__print_text(ptr nonnull getelementptr inbounds (i8, ptr @__streams, i32 12), ptr nonnull getelementptr inbounds (i8, ptr @.str.4.18, i32 11), i32 1) #10
  br label %93

93:                                               ; preds = %84, %74
  %94 = phi i32 [ 1, %74 ], [ 0, %84 ]
  %95 = xor i32 %94, 1
  %96 = add nsw i32 %95, %13
  br label %238

97:                                               ; preds = %12
  %98 = icmp eq i32 %15, 0
  br i1 %98, label %238, label %99

99:                                               ; preds = %97
  call void @llvm.lifetime.start.p0(i64 300, ptr nonnull %1) #10
  store i8 0, ptr %1, align 1, !tbaa !5
  br label %100

100:                                              ; preds = %222, %99
  %101 = phi i8 [ %18, %99 ], [ %217, %222 ]
  %102 = phi ptr [ %4, %99 ], [ %214, %222 ]
  %103 = phi i32 [ 0, %99 ], [ %212, %222 ]
  br label %104

104:                                              ; preds = %195, %100
  %105 = phi i8 [ %101, %100 ], [ %198, %195 ]
  %106 = phi i32 [ 0, %100 ], [ %196, %195 ]
  call void @llvm.memset.p0.i64(ptr noundef nonnull align 4 dereferenceable(408) getelementptr inbounds (i8, ptr @match_at.states, i32 1600), i8 0, i64 408, i1 false)
  %107 = load i32, ptr getelementptr inbounds (i8, ptr @regex, i32 6404), align 4, !tbaa !19
  %108 = icmp eq i32 %106, 0
  %109 = zext i1 %108 to i32
  %110 = getelementptr i8, ptr %102, i32 %106
  %111 = icmp eq i8 %105, 0
  %112 = zext i1 %111 to i32
  call fastcc void @enter(ptr noundef nonnull @match_at.states, i32 noundef %107, i32 noundef %109, i32 noundef %112)
  %113 = load i32, ptr getelementptr inbounds (i8, ptr @match_at.states, i32 2004), align 4, !tbaa !28
  %114 = icmp eq i32 %113, 0
  %115 = sext i1 %114 to i32
  %116 = load i8, ptr %110, align 1, !tbaa !5
  %117 = load i32, ptr getelementptr inbounds (i8, ptr @match_at.states, i32 2000), align 4, !tbaa !30
  %118 = icmp ne i32 %117, 0
  %119 = icmp ne i8 %116, 0
  %120 = select i1 %118, i1 %119, i1 false
  br i1 %120, label %121, label %189

121:                                              ; preds = %104
  %122 = getelementptr i8, ptr %110, i32 1
  br label %137

123:                                              ; preds = %185
  %124 = getelementptr inbounds i8, ptr %142, i32 2004
  %125 = load i32, ptr %124, align 4, !tbaa !28
  %126 = getelementptr inbounds i8, ptr %142, i32 2000
  %127 = load i32, ptr %126, align 4, !tbaa !30
  %128 = add i32 %143, 1
  %129 = freeze i32 %125
  %130 = icmp eq i32 %129, 0
  %131 = select i1 %130, i32 %140, i32 %128
  %132 = getelementptr i8, ptr %110, i32 %128
  %133 = load i8, ptr %132, align 1, !tbaa !5
  %134 = icmp ne i32 %127, 0
  %135 = icmp ne i8 %133, 0
  %136 = select i1 %134, i1 %135, i1 false
  br i1 %136, label %137, label %189

137:                                              ; preds = %123, %121
  %138 = phi ptr [ %126, %123 ], [ getelementptr inbounds (i8, ptr @match_at.states, i32 2000), %121 ]
  %139 = phi i8 [ %133, %123 ], [ %116, %121 ]
  %140 = phi i32 [ %131, %123 ], [ %115, %121 ]
  %141 = phi ptr [ %142, %123 ], [ @match_at.states, %121 ]
  %142 = phi ptr [ %141, %123 ], [ getelementptr inbounds (i8, ptr @match_at.states, i32 2008), %121 ]
  %143 = phi i32 [ %128, %123 ], [ 0, %121 ]
  %144 = getelementptr inbounds i8, ptr %142, i32 1600
  call void @llvm.memset.p0.i64(ptr noundef nonnull align 4 dereferenceable(408) %144, i8 0, i64 408, i1 false)
  %145 = load i32, ptr %138, align 4, !tbaa !30
  %146 = icmp sgt i32 %145, 0
  br i1 %146, label %147, label %189

147:                                              ; preds = %137
  %148 = zext i8 %139 to i32
  %149 = lshr i32 %148, 3
  %150 = and i32 %148, 7
  %151 = icmp ne i8 %139, 10
  %152 = zext i1 %151 to i32
  %153 = getelementptr i8, ptr %122, i32 %143
  br label %154

154:                                              ; preds = %185, %147
  %155 = phi i32 [ %145, %147 ], [ %186, %185 ]
  %156 = phi i32 [ 0, %147 ], [ %187, %185 ]
  %157 = getelementptr inbounds [400 x i32], ptr %141, i32 0, i32 %156
  %158 = load i32, ptr %157, align 4, !tbaa !31
  %159 = getelementptr inbounds [400 x %struct.step], ptr @regex, i32 0, i32 %158
  %160 = load i32, ptr %159, align 4, !tbaa !21
  switch i32 %160, label %185 [
    i32 0, label %161
    i32 1, label %175
    i32 2, label %167
  ]

161:                                              ; preds = %154
  %162 = getelementptr inbounds i8, ptr %159, i32 4
  %163 = load i32, ptr %162, align 4, !tbaa !23
  %164 = trunc i32 %163 to i8
  %165 = icmp eq i8 %139, %164
  %166 = zext i1 %165 to i32
  br label %175

167:                                              ; preds = %154
  %168 = getelementptr inbounds i8, ptr %159, i32 4
  %169 = load i32, ptr %168, align 4, !tbaa !23
  %170 = getelementptr inbounds [24 x [32 x i8]], ptr getelementptr inbounds (i8, ptr @regex, i32 6408), i32 0, i32 %169, i32 %149
  %171 = load i8, ptr %170, align 1, !tbaa !5
  %172 = zext i8 %171 to i32
  %173 = lshr i32 %172, %150
  %174 = and i32 %173, 1
  br label %175

175:                                              ; preds = %167, %161, %154
  %176 = phi i32 [ %174, %167 ], [ %166, %161 ], [ %152, %154 ]
  %177 = icmp eq i32 %176, 0
  br i1 %177, label %185, label %178

178:                                              ; preds = %175
  %179 = getelementptr inbounds i8, ptr %159, i32 8
  %180 = load i32, ptr %179, align 4, !tbaa !25
  %181 = load i8, ptr %153, align 1, !tbaa !5
  %182 = icmp eq i8 %181, 0
  %183 = zext i1 %182 to i32
  call fastcc void @enter(ptr noundef %142, i32 noundef %180, i32 noundef 0, i32 noundef %183)
  %184 = load i32, ptr %138, align 4, !tbaa !30
  br label %185

185:                                              ; preds = %178, %175, %154
  %186 = phi i32 [ %155, %154 ], [ %184, %178 ], [ %155, %175 ]
  %187 = add nuw nsw i32 %156, 1
  %188 = icmp slt i32 %187, %186
  br i1 %188, label %154, label %123, !llvm.loop !32

189:                                              ; preds = %137, %123, %104
  %190 = phi i32 [ %115, %104 ], [ %140, %137 ], [ %131, %123 ]
  %191 = icmp sgt i32 %190, -1
  br i1 %191, label %199, label %192

192:                                              ; preds = %189
  %193 = load i8, ptr %110, align 1, !tbaa !5
  %194 = icmp eq i8 %193, 0
  br i1 %194, label %227, label %195

195:                                              ; preds = %192
  %196 = add i32 %106, 1
  %197 = getelementptr i8, ptr %102, i32 %196
  %198 = load i8, ptr %197, align 1, !tbaa !5
  br label %104

199:                                              ; preds = %189
  %200 = call i32 @strlen(ptr noundef nonnull dereferenceable(1) %1) #10
  %201 = call i32 @strlen(ptr noundef nonnull dereferenceable(1) %102) #10
  %202 = add i32 %200, -297
  %203 = add i32 %202, %201
  %204 = icmp ult i32 %203, -301
  br i1 %204, label %227, label %205

205:                                              ; preds = %199
  %206 = call ptr @strncat(ptr noundef nonnull dereferenceable(1) %1, ptr noundef nonnull %102, i32 noundef %106) #10
  %207 = call i32 @strlen(ptr nonnull dereferenceable(1) %1)
  %208 = getelementptr inbounds i8, ptr %1, i32 %207
  store i16 91, ptr %208, align 1
  %209 = call ptr @strncat(ptr noundef nonnull dereferenceable(1) %1, ptr noundef nonnull %110, i32 noundef %190) #10
  %210 = call i32 @strlen(ptr nonnull dereferenceable(1) %1)
  %211 = getelementptr inbounds i8, ptr %1, i32 %210
  store i16 93, ptr %211, align 1
  %212 = add nuw nsw i32 %103, 1
  %213 = add i32 %190, %106
  %214 = getelementptr inbounds i8, ptr %102, i32 %213
  %215 = icmp eq i32 %190, 0
  br i1 %215, label %227, label %216

216:                                              ; preds = %205
  %217 = load i8, ptr %214, align 1, !tbaa !5
  %218 = icmp eq i8 %217, 0
  %219 = load i8, ptr %4, align 1
  %220 = icmp eq i8 %219, 0
  %221 = select i1 %218, i1 true, i1 %220
  br i1 %221, label %227, label %222

222:                                              ; preds = %216
  %223 = load i32, ptr getelementptr inbounds (i8, ptr @regex, i32 6404), align 4, !tbaa !19
  %224 = getelementptr inbounds [400 x %struct.step], ptr @regex, i32 0, i32 %223
  %225 = load i32, ptr %224, align 4, !tbaa !21
  %226 = icmp eq i32 %225, 3
  br i1 %226, label %227, label %100

227:                                              ; preds = %222, %216, %205, %199, %192
  %228 = phi ptr [ %102, %192 ], [ %214, %205 ], [ %214, %216 ], [ %102, %199 ], [ %214, %222 ]
  %229 = phi i32 [ %103, %192 ], [ %212, %205 ], [ %212, %216 ], [ %103, %199 ], [ %212, %222 ]
  %230 = call ptr @strcat(ptr noundef nonnull dereferenceable(1) %1, ptr noundef nonnull dereferenceable(1) %228) #10
  %231 = icmp eq i32 %229, 0
  %232 = select i1 %231, ptr @.str.9.14, ptr @.str.8.13
  %233 = call i32 @__print_text(ptr nonnull getelementptr inbounds (i8, ptr @__streams, i32 12), ptr nonnull @.str.7.15, i32 2) #10
  %234 = call i32 @__print_string(ptr nonnull getelementptr inbounds (i8, ptr @__streams, i32 12), ptr nonnull %232, i32 0, i32 0, i32 -1) #10
  %235 = call i32 @__print_string(ptr nonnull getelementptr inbounds (i8, ptr @__streams, i32 12), ptr nonnull %1, i32 0, i32 0, i32 -1) #10
  %236 = call i32 @__print_text(ptr nonnull getelementptr inbounds (i8, ptr @__streams, i32 12), ptr nonnull getelementptr inbounds (i8, ptr @.str.7.15, i32 6), i32 1) #10
  call void @llvm.lifetime.end.p0(i64 300, ptr nonnull %1) #10
  %237 = add nsw i32 %229, %14
  br label %238

238:                                              ; preds = %227, %97, %93
  %239 = phi i32 [ %94, %93 ], [ 1, %227 ], [ 0, %97 ]
  %240 = phi i32 [ %14, %93 ], [ %237, %227 ], [ %14, %97 ]
  %241 = phi i32 [ %96, %93 ], [ %13, %227 ], [ %13, %97 ]
  %242 = call ptr @fgets(ptr noundef nonnull %4, i32 noundef 200, ptr noundef nonnull @__streams)
  %243 = icmp eq ptr %242, null
  br i1 %243, label %244, label %12, !llvm.loop !34

244:                                              ; preds = %238, %0
  %245 = phi i32 [ 0, %0 ], [ %240, %238 ]
  %246 = phi i32 [ 0, %0 ], [ %241, %238 ]
  %247 = sext i32 %245 to i64
  %248 = call i32 @__print_signed(ptr nonnull getelementptr inbounds (i8, ptr @__streams, i32 12), i64 %247, i32 0, i32 0, i32 -1) #10
  %249 = call i32 @__print_text(ptr nonnull getelementptr inbounds (i8, ptr @__streams, i32 12), ptr nonnull getelementptr inbounds (i8, ptr @.str.1.10, i32 2), i32 10) #10
  %250 = sext i32 %246 to i64
  %251 = call i32 @__print_signed(ptr nonnull getelementptr inbounds (i8, ptr @__streams, i32 12), i64 %250, i32 0, i32 0, i32 -1) #10
  %252 = call i32 @__print_text(ptr nonnull getelementptr inbounds (i8, ptr @__streams, i32 12), ptr nonnull getelementptr inbounds (i8, ptr @.str.1.10, i32 14), i32 18) #10
  call void @llvm.lifetime.end.p0(i64 200, ptr nonnull %4) #10
  ret i32 %245
}

; Function Attrs: nocallback nofree nosync nounwind willreturn memory(argmem: readwrite)
declare void @llvm.lifetime.start.p0(i64 immarg, ptr nocapture) #1

; Function Attrs: nounwind optsize
define internal noundef ptr @fgets(ptr noalias noundef writeonly %0, i32 noundef %1, ptr noalias nocapture noundef %2) local_unnamed_addr #2 {
  %4 = icmp slt i32 %1, 1
  br i1 %4, label %23, label %5

5:                                                ; preds = %3
  %6 = icmp eq i32 %1, 1
  br i1 %6, label %21, label %7

7:                                                ; preds = %12, %5
  %8 = phi i32 [ %13, %12 ], [ %1, %5 ]
  %9 = phi ptr [ %15, %12 ], [ %0, %5 ]
  %10 = tail call i32 @fgetc(ptr noundef %2) #11
  %11 = icmp eq i32 %10, -1
  br i1 %11, label %19, label %12

12:                                               ; preds = %7
  %13 = add nsw i32 %8, -1
  %14 = trunc i32 %10 to i8
  %15 = getelementptr inbounds i8, ptr %9, i32 1
  store i8 %14, ptr %9, align 1, !tbaa !5
  %16 = icmp sgt i32 %8, 2
  %17 = icmp ne i32 %10, 10
  %18 = and i1 %16, %17
  br i1 %18, label %7, label %21, !llvm.loop !35

19:                                               ; preds = %7
  %20 = icmp eq ptr %9, %0
  br i1 %20, label %23, label %21

21:                                               ; preds = %19, %12, %5
  %22 = phi ptr [ %9, %19 ], [ %0, %5 ], [ %15, %12 ]
  store i8 0, ptr %22, align 1, !tbaa !5
  br label %23

23:                                               ; preds = %21, %19, %3
  %24 = phi ptr [ %0, %21 ], [ null, %3 ], [ null, %19 ]
  ret ptr %24
}

; Function Attrs: nofree norecurse nosync nounwind optsize memory(read, inaccessiblemem: none)
define internal i32 @strcspn(ptr nocapture noundef readonly %0, ptr nocapture noundef readonly %1) local_unnamed_addr #3 {
  %3 = tail call fastcc i32 @span(ptr noundef %0, ptr noundef %1, i32 noundef 0) #11
  ret i32 %3
}

; Function Attrs: nounwind optsize
define internal noundef i32 @__print_text(ptr nocapture noundef %0, ptr nocapture noundef readonly %1, i32 noundef returned %2) local_unnamed_addr #2 {
  %4 = load i8, ptr %0, align 4, !tbaa !36, !alias.scope !38, !noalias !41
  %5 = icmp eq i8 %4, 0
  %6 = icmp eq i32 %2, 0
  %7 = or i1 %6, %5
  br i1 %7, label %16, label %8

8:                                                ; preds = %8, %3
  %9 = phi i32 [ %14, %8 ], [ 0, %3 ]
  %10 = getelementptr inbounds i8, ptr %1, i32 %9
  %11 = load i8, ptr %10, align 1, !tbaa !5, !alias.scope !41, !noalias !38
  %12 = zext i8 %11 to i32
  %13 = tail call i32 @fputc(i32 noundef %12, ptr noundef nonnull %0) #11, !noalias !41
  %14 = add nuw i32 %9, 1
  %15 = icmp eq i32 %14, %2
  br i1 %15, label %16, label %8, !llvm.loop !43

16:                                               ; preds = %8, %3
  ret i32 %2
}

; Function Attrs: nounwind optsize
define internal i32 @__print_string(ptr nocapture noundef %0, ptr noundef %1, i32 noundef %2, i32 noundef %3, i32 noundef %4) local_unnamed_addr #2 {
  %6 = icmp eq ptr %1, null
  %7 = icmp ult i32 %4, 6
  %8 = select i1 %7, ptr @.str.10, ptr @.str.1.11
  %9 = select i1 %6, ptr %8, ptr %1
  %10 = icmp slt i32 %4, 0
  br i1 %10, label %11, label %20

11:                                               ; preds = %11, %5
  %12 = phi ptr [ %15, %11 ], [ %9, %5 ]
  %13 = load i8, ptr %12, align 1, !tbaa !5
  %14 = icmp eq i8 %13, 0
  %15 = getelementptr inbounds i8, ptr %12, i32 1
  br i1 %14, label %16, label %11, !llvm.loop !44

16:                                               ; preds = %11
  %17 = ptrtoint ptr %12 to i32
  %18 = ptrtoint ptr %9 to i32
  %19 = sub i32 %17, %18
  br label %30

20:                                               ; preds = %5
  %21 = icmp eq i32 %4, 0
  br i1 %21, label %30, label %22

22:                                               ; preds = %27, %20
  %23 = phi i32 [ %28, %27 ], [ 0, %20 ]
  %24 = getelementptr inbounds i8, ptr %9, i32 %23
  %25 = load i8, ptr %24, align 1, !tbaa !5
  %26 = icmp eq i8 %25, 0
  br i1 %26, label %30, label %27

27:                                               ; preds = %22
  %28 = add nuw nsw i32 %23, 1
  %29 = icmp eq i32 %28, %4
  br i1 %29, label %30, label %22, !llvm.loop !45

30:                                               ; preds = %27, %22, %20, %16
  %31 = phi i32 [ %19, %16 ], [ 0, %20 ], [ %23, %22 ], [ %4, %27 ]
  %32 = tail call fastcc i32 @padded(ptr noundef %0, ptr noundef nonnull %9, i32 noundef %31, i32 noundef %2, i32 noundef %3) #11
  ret i32 %32
}

; Function Attrs: nocallback nofree nounwind willreturn memory(argmem: write)
declare void @llvm.memset.p0.i32(ptr nocapture writeonly, i8, i32, i1 immarg) #4

; Function Attrs: nofree nounwind memory(readwrite, inaccessiblemem: none)
define internal fastcc void @alternatives(ptr nocapture noundef %0, ptr nocapture noundef %1) unnamed_addr #5 {
  %3 = alloca %struct.part, align 8
  %4 = alloca %struct.part, align 8
  %5 = load ptr, ptr %0, align 4, !tbaa !8
  %6 = getelementptr inbounds i8, ptr %5, i32 6400
  %7 = load i32, ptr %6, align 4, !tbaa !20
  %8 = icmp eq i32 %7, 400
  br i1 %8, label %9, label %24

9:                                                ; preds = %2
  %10 = getelementptr inbounds i8, ptr %5, i32 7180
  %11 = load ptr, ptr %10, align 4, !tbaa !13
  %12 = icmp eq ptr %11, null
  br i1 %12, label %13, label %22

13:                                               ; preds = %9
  store ptr @.str.8, ptr %10, align 4, !tbaa !13
  %14 = getelementptr inbounds i8, ptr %0, i32 8
  %15 = load ptr, ptr %14, align 4, !tbaa !12
  %16 = getelementptr inbounds i8, ptr %0, i32 4
  %17 = load ptr, ptr %16, align 4, !tbaa !11
  %18 = ptrtoint ptr %15 to i32
  %19 = ptrtoint ptr %17 to i32
  %20 = sub i32 %18, %19
  %21 = getelementptr inbounds i8, ptr %5, i32 7184
  store i32 %20, ptr %21, align 4, !tbaa !16
  br label %22

22:                                               ; preds = %13, %9
  %23 = getelementptr inbounds i8, ptr %1, i32 4
  store i32 0, ptr %23, align 4, !tbaa !26
  store i32 0, ptr %1, align 4, !tbaa !17
  br label %50

24:                                               ; preds = %2
  %25 = getelementptr inbounds [400 x %struct.step], ptr %5, i32 0, i32 %7
  store i32 6, ptr %25, align 4, !tbaa !21
  %26 = getelementptr inbounds i8, ptr %25, i32 4
  store i32 0, ptr %26, align 4, !tbaa !23
  %27 = getelementptr inbounds i8, ptr %25, i32 12
  store i32 -1, ptr %27, align 4, !tbaa !24
  %28 = getelementptr inbounds i8, ptr %25, i32 8
  store i32 -1, ptr %28, align 4, !tbaa !25
  %29 = add nsw i32 %7, 1
  store i32 %29, ptr %6, align 4, !tbaa !20
  %30 = getelementptr inbounds i8, ptr %5, i32 7180
  %31 = load ptr, ptr %30, align 4, !tbaa !13
  %32 = icmp eq ptr %31, null
  %33 = getelementptr inbounds i8, ptr %1, i32 4
  store i32 %7, ptr %33, align 4, !tbaa !26
  store i32 %7, ptr %1, align 4, !tbaa !17
  br i1 %32, label %34, label %50

34:                                               ; preds = %24
  %35 = getelementptr inbounds i8, ptr %0, i32 8
  %36 = getelementptr inbounds i8, ptr %4, i32 4
  br label %37

37:                                               ; preds = %41, %34
  %38 = phi ptr [ %5, %34 ], [ %43, %41 ]
  %39 = load ptr, ptr %35, align 4, !tbaa !12
  %40 = load i8, ptr %39, align 1, !tbaa !5
  switch i8 %40, label %41 [
    i8 0, label %50
    i8 124, label %50
    i8 41, label %50
  ]

41:                                               ; preds = %37
  call void @llvm.lifetime.start.p0(i64 8, ptr nonnull %4) #10
  store i64 0, ptr %4, align 8
  call fastcc void @repeated(ptr noundef nonnull %0, ptr noundef nonnull %4)
  %42 = load i32, ptr %4, align 8, !tbaa !17
  %43 = load ptr, ptr %0, align 4, !tbaa !8
  %44 = load i32, ptr %33, align 4, !tbaa !26
  %45 = getelementptr inbounds [400 x %struct.step], ptr %43, i32 0, i32 %44, i32 2
  store i32 %42, ptr %45, align 4, !tbaa !25
  %46 = load i32, ptr %36, align 4, !tbaa !26
  store i32 %46, ptr %33, align 4, !tbaa !26
  call void @llvm.lifetime.end.p0(i64 8, ptr nonnull %4) #10
  %47 = getelementptr inbounds i8, ptr %43, i32 7180
  %48 = load ptr, ptr %47, align 4, !tbaa !13
  %49 = icmp eq ptr %48, null
  br i1 %49, label %37, label %50, !llvm.loop !46

50:                                               ; preds = %41, %37, %37, %37, %24, %22
  %51 = phi ptr [ %33, %24 ], [ %23, %22 ], [ %33, %41 ], [ %33, %37 ], [ %33, %37 ], [ %33, %37 ]
  %52 = phi ptr [ %5, %24 ], [ %5, %22 ], [ %38, %37 ], [ %38, %37 ], [ %38, %37 ], [ %43, %41 ]
  %53 = getelementptr inbounds i8, ptr %0, i32 8
  %54 = getelementptr inbounds i8, ptr %52, i32 7180
  %55 = load ptr, ptr %54, align 4, !tbaa !13
  %56 = icmp eq ptr %55, null
  br i1 %56, label %57, label %165

57:                                               ; preds = %50
  %58 = getelementptr inbounds i8, ptr %0, i32 4
  %59 = getelementptr inbounds i8, ptr %3, i32 4
  br label %60

60:                                               ; preds = %149, %57
  %61 = phi ptr [ %52, %57 ], [ %151, %149 ]
  %62 = phi ptr [ %54, %57 ], [ %162, %149 ]
  %63 = load ptr, ptr %53, align 4, !tbaa !12
  %64 = load i8, ptr %63, align 1, !tbaa !5
  %65 = icmp eq i8 %64, 124
  br i1 %65, label %66, label %165

66:                                               ; preds = %60
  %67 = getelementptr inbounds i8, ptr %63, i32 1
  store ptr %67, ptr %53, align 4, !tbaa !12
  %68 = getelementptr inbounds i8, ptr %61, i32 6400
  %69 = load i32, ptr %68, align 4, !tbaa !20
  %70 = icmp eq i32 %69, 400
  br i1 %70, label %77, label %71

71:                                               ; preds = %66
  %72 = getelementptr inbounds [400 x %struct.step], ptr %61, i32 0, i32 %69
  store i32 6, ptr %72, align 4, !tbaa !21
  %73 = getelementptr inbounds i8, ptr %72, i32 4
  store i32 0, ptr %73, align 4, !tbaa !23
  %74 = getelementptr inbounds i8, ptr %72, i32 12
  store i32 -1, ptr %74, align 4, !tbaa !24
  %75 = getelementptr inbounds i8, ptr %72, i32 8
  store i32 -1, ptr %75, align 4, !tbaa !25
  %76 = add nsw i32 %69, 1
  store i32 %76, ptr %68, align 4, !tbaa !20
  br label %86

77:                                               ; preds = %66
  store ptr @.str.8, ptr %62, align 4, !tbaa !13
  %78 = load ptr, ptr %58, align 4, !tbaa !11
  %79 = ptrtoint ptr %67 to i32
  %80 = ptrtoint ptr %78 to i32
  %81 = sub i32 %79, %80
  %82 = getelementptr inbounds i8, ptr %61, i32 7184
  store i32 %81, ptr %82, align 4, !tbaa !16
  %83 = getelementptr inbounds i8, ptr %61, i32 7180
  %84 = load ptr, ptr %83, align 4, !tbaa !13
  %85 = icmp eq ptr %84, null
  br i1 %85, label %86, label %149

86:                                               ; preds = %77, %71
  %87 = phi i32 [ %69, %71 ], [ 0, %77 ]
  %88 = getelementptr inbounds i8, ptr %61, i32 7180
  br label %89

89:                                               ; preds = %95, %86
  %90 = phi ptr [ %97, %95 ], [ %61, %86 ]
  %91 = phi ptr [ %100, %95 ], [ %88, %86 ]
  %92 = phi i32 [ %99, %95 ], [ %87, %86 ]
  %93 = load ptr, ptr %53, align 4, !tbaa !12
  %94 = load i8, ptr %93, align 1, !tbaa !5
  switch i8 %94, label %95 [
    i8 0, label %103
    i8 124, label %103
    i8 41, label %103
  ]

95:                                               ; preds = %89
  call void @llvm.lifetime.start.p0(i64 8, ptr nonnull %3) #10
  store i64 0, ptr %3, align 8
  call fastcc void @repeated(ptr noundef nonnull %0, ptr noundef nonnull %3)
  %96 = load i32, ptr %3, align 8, !tbaa !17
  %97 = load ptr, ptr %0, align 4, !tbaa !8
  %98 = getelementptr inbounds [400 x %struct.step], ptr %97, i32 0, i32 %92, i32 2
  store i32 %96, ptr %98, align 4, !tbaa !25
  %99 = load i32, ptr %59, align 4, !tbaa !26
  call void @llvm.lifetime.end.p0(i64 8, ptr nonnull %3) #10
  %100 = getelementptr inbounds i8, ptr %97, i32 7180
  %101 = load ptr, ptr %100, align 4, !tbaa !13
  %102 = icmp eq ptr %101, null
  br i1 %102, label %89, label %107, !llvm.loop !47

103:                                              ; preds = %89, %89, %89
  %104 = getelementptr inbounds i8, ptr %90, i32 6400
  %105 = load i32, ptr %104, align 4, !tbaa !20
  %106 = icmp eq i32 %105, 400
  br i1 %106, label %111, label %117

107:                                              ; preds = %95
  %108 = getelementptr inbounds i8, ptr %97, i32 6400
  %109 = load i32, ptr %108, align 4, !tbaa !20
  %110 = icmp eq i32 %109, 400
  br i1 %110, label %129, label %117

111:                                              ; preds = %103
  store ptr @.str.8, ptr %91, align 4, !tbaa !13
  %112 = load ptr, ptr %58, align 4, !tbaa !11
  %113 = ptrtoint ptr %93 to i32
  %114 = ptrtoint ptr %112 to i32
  %115 = sub i32 %113, %114
  %116 = getelementptr inbounds i8, ptr %90, i32 7184
  store i32 %115, ptr %116, align 4, !tbaa !16
  br label %129

117:                                              ; preds = %107, %103
  %118 = phi ptr [ %97, %107 ], [ %90, %103 ]
  %119 = phi i32 [ %99, %107 ], [ %92, %103 ]
  %120 = phi ptr [ %100, %107 ], [ %91, %103 ]
  %121 = phi i32 [ %109, %107 ], [ %105, %103 ]
  %122 = phi ptr [ %108, %107 ], [ %104, %103 ]
  %123 = getelementptr inbounds [400 x %struct.step], ptr %118, i32 0, i32 %121
  store i32 5, ptr %123, align 4, !tbaa !21
  %124 = getelementptr inbounds i8, ptr %123, i32 4
  store i32 0, ptr %124, align 4, !tbaa !23
  %125 = getelementptr inbounds i8, ptr %123, i32 12
  store i32 -1, ptr %125, align 4, !tbaa !24
  %126 = getelementptr inbounds i8, ptr %123, i32 8
  store i32 -1, ptr %126, align 4, !tbaa !25
  %127 = add nsw i32 %121, 1
  store i32 %127, ptr %122, align 4, !tbaa !20
  %128 = icmp eq i32 %127, 400
  br i1 %128, label %129, label %143

129:                                              ; preds = %117, %111, %107
  %130 = phi ptr [ %90, %111 ], [ %97, %107 ], [ %118, %117 ]
  %131 = phi i32 [ %92, %111 ], [ %99, %107 ], [ %119, %117 ]
  %132 = phi ptr [ %91, %111 ], [ %100, %107 ], [ %120, %117 ]
  %133 = phi i32 [ 0, %111 ], [ 0, %107 ], [ 399, %117 ]
  %134 = load ptr, ptr %132, align 4, !tbaa !13
  %135 = icmp eq ptr %134, null
  br i1 %135, label %136, label %149

136:                                              ; preds = %129
  store ptr @.str.8, ptr %132, align 4, !tbaa !13
  %137 = load ptr, ptr %53, align 4, !tbaa !12
  %138 = load ptr, ptr %58, align 4, !tbaa !11
  %139 = ptrtoint ptr %137 to i32
  %140 = ptrtoint ptr %138 to i32
  %141 = sub i32 %139, %140
  %142 = getelementptr inbounds i8, ptr %130, i32 7184
  store i32 %141, ptr %142, align 4, !tbaa !16
  br label %149

143:                                              ; preds = %117
  %144 = getelementptr inbounds [400 x %struct.step], ptr %118, i32 0, i32 %127
  store i32 6, ptr %144, align 4, !tbaa !21
  %145 = getelementptr inbounds i8, ptr %144, i32 4
  store i32 0, ptr %145, align 4, !tbaa !23
  %146 = getelementptr inbounds i8, ptr %144, i32 12
  store i32 -1, ptr %146, align 4, !tbaa !24
  %147 = getelementptr inbounds i8, ptr %144, i32 8
  store i32 -1, ptr %147, align 4, !tbaa !25
  %148 = add nsw i32 %121, 2
  store i32 %148, ptr %122, align 4, !tbaa !20
  br label %149

149:                                              ; preds = %143, %136, %129, %77
  %150 = phi i32 [ %87, %143 ], [ %87, %129 ], [ %87, %136 ], [ 0, %77 ]
  %151 = phi ptr [ %118, %143 ], [ %130, %129 ], [ %130, %136 ], [ %61, %77 ]
  %152 = phi i32 [ %119, %143 ], [ %131, %129 ], [ %131, %136 ], [ 0, %77 ]
  %153 = phi i32 [ %121, %143 ], [ %133, %129 ], [ %133, %136 ], [ 0, %77 ]
  %154 = phi i32 [ %127, %143 ], [ 0, %129 ], [ 0, %136 ], [ 0, %77 ]
  %155 = load i32, ptr %1, align 4, !tbaa !17
  %156 = getelementptr inbounds %struct.step, ptr %151, i32 %153
  %157 = getelementptr inbounds i8, ptr %156, i32 8
  store i32 %155, ptr %157, align 4, !tbaa !25
  %158 = getelementptr inbounds i8, ptr %156, i32 12
  store i32 %150, ptr %158, align 4, !tbaa !24
  %159 = getelementptr inbounds %struct.step, ptr %151, i32 %152, i32 2
  store i32 %154, ptr %159, align 4, !tbaa !25
  %160 = load i32, ptr %51, align 4, !tbaa !26
  %161 = getelementptr inbounds %struct.step, ptr %151, i32 %160, i32 2
  store i32 %154, ptr %161, align 4, !tbaa !25
  store i32 %153, ptr %1, align 4, !tbaa !17
  store i32 %154, ptr %51, align 4, !tbaa !26
  %162 = getelementptr inbounds i8, ptr %151, i32 7180
  %163 = load ptr, ptr %162, align 4, !tbaa !13
  %164 = icmp eq ptr %163, null
  br i1 %164, label %60, label %165, !llvm.loop !48

165:                                              ; preds = %149, %60, %50
  ret void
}

; Function Attrs: nocallback nofree nosync nounwind willreturn memory(argmem: readwrite)
declare void @llvm.lifetime.end.p0(i64 immarg, ptr nocapture) #1

; Function Attrs: nounwind optsize
define internal i32 @__print_signed(ptr nocapture noundef %0, i64 noundef %1, i32 noundef %2, i32 noundef %3, i32 noundef %4) local_unnamed_addr #2 {
  %6 = alloca [24 x i8], align 1
  call void @llvm.lifetime.start.p0(i64 24, ptr nonnull %6) #10
  %7 = getelementptr inbounds i8, ptr %6, i32 24
  %8 = icmp slt i64 %1, 0
  %9 = lshr i64 %1, 63
  %10 = icmp ne i64 %9, 0
  %11 = sub i64 0, %1
  %12 = select i1 %10, i64 %11, i64 %1
  %13 = icmp ult i64 %12, 4294967296
  br i1 %13, label %14, label %28

14:                                               ; preds = %5
  %15 = trunc nuw i64 %12 to i32
  %16 = icmp eq i32 %15, 0
  br i1 %16, label %39, label %17

17:                                               ; preds = %17, %14
  %18 = phi i32 [ %21, %17 ], [ %15, %14 ]
  %19 = phi ptr [ %26, %17 ], [ %7, %14 ]
  %20 = freeze i32 %18
  %21 = udiv i32 %20, 10
  %22 = mul i32 %21, 10
  %23 = sub i32 %20, %22
  %24 = getelementptr inbounds i8, ptr @.str.9.16, i32 %23
  %25 = load i8, ptr %24, align 1, !tbaa !5
  %26 = getelementptr inbounds i8, ptr %19, i32 -1
  store i8 %25, ptr %26, align 1, !tbaa !5
  %27 = icmp ult i32 %18, 10
  br i1 %27, label %39, label %17, !llvm.loop !49

28:                                               ; preds = %28, %5
  %29 = phi ptr [ %37, %28 ], [ %7, %5 ]
  %30 = phi i64 [ %31, %28 ], [ %12, %5 ]
  %31 = udiv i64 %30, 10
  %32 = mul i64 %31, 10
  %33 = sub i64 %30, %32
  %34 = trunc nuw nsw i64 %33 to i32
  %35 = getelementptr inbounds i8, ptr @.str.9.16, i32 %34
  %36 = load i8, ptr %35, align 1, !tbaa !5
  %37 = getelementptr inbounds i8, ptr %29, i32 -1
  store i8 %36, ptr %37, align 1, !tbaa !5
  %38 = icmp ult i64 %30, 10
  br i1 %38, label %39, label %28, !llvm.loop !50

39:                                               ; preds = %28, %17, %14
  %40 = phi ptr [ %7, %14 ], [ %26, %17 ], [ %37, %28 ]
  %41 = icmp eq i64 %1, 0
  %42 = icmp ne i32 %4, 0
  %43 = and i1 %41, %42
  br i1 %43, label %44, label %46

44:                                               ; preds = %39
  %45 = getelementptr inbounds i8, ptr %40, i32 -1
  store i8 48, ptr %45, align 1, !tbaa !5
  br label %47

46:                                               ; preds = %39
  br i1 %8, label %55, label %47

47:                                               ; preds = %46, %44
  %48 = phi ptr [ %45, %44 ], [ %40, %46 ]
  %49 = and i32 %2, 2
  %50 = icmp eq i32 %49, 0
  br i1 %50, label %51, label %55

51:                                               ; preds = %47
  %52 = and i32 %2, 4
  %53 = icmp eq i32 %52, 0
  %54 = select i1 %53, ptr @.str.10, ptr @.str.4.17
  br label %55

55:                                               ; preds = %51, %47, %46
  %56 = phi ptr [ %40, %46 ], [ %48, %51 ], [ %48, %47 ]
  %57 = phi ptr [ @.str.2.18, %46 ], [ %54, %51 ], [ @.str.3.19, %47 ]
  %58 = ptrtoint ptr %7 to i32
  %59 = ptrtoint ptr %56 to i32
  %60 = sub i32 %58, %59
  %61 = call fastcc i32 @number(ptr noundef %0, ptr noundef nonnull %57, ptr noundef nonnull %56, i32 noundef %60, i32 noundef %2, i32 noundef %3, i32 noundef %4) #11
  call void @llvm.lifetime.end.p0(i64 24, ptr nonnull %6) #10
  ret i32 %61
}

; Function Attrs: nounwind optsize
define internal i32 @__print_unsigned(ptr nocapture noundef %0, i64 noundef %1, i32 noundef %2, i32 noundef %3, i32 noundef %4, i32 noundef %5) local_unnamed_addr #2 {
  %7 = alloca [24 x i8], align 1
  call void @llvm.lifetime.start.p0(i64 24, ptr nonnull %7) #10
  %8 = and i32 %3, 32
  %9 = icmp eq i32 %8, 0
  %10 = select i1 %9, ptr @.str.9.16, ptr @.str.8.22
  %11 = icmp ult i64 %1, 4294967296
  br i1 %11, label %14, label %12

12:                                               ; preds = %6
  %13 = zext i32 %2 to i64
  br label %29

14:                                               ; preds = %6
  %15 = trunc nuw i64 %1 to i32
  %16 = icmp eq i32 %15, 0
  br i1 %16, label %41, label %17

17:                                               ; preds = %17, %14
  %18 = phi i32 [ %21, %17 ], [ %15, %14 ]
  %19 = phi i32 [ %26, %17 ], [ 24, %14 ]
  %20 = freeze i32 %18
  %21 = udiv i32 %20, %2
  %22 = mul i32 %21, %2
  %23 = sub i32 %20, %22
  %24 = getelementptr inbounds i8, ptr %10, i32 %23
  %25 = load i8, ptr %24, align 1, !tbaa !5
  %26 = add nsw i32 %19, -1
  %27 = getelementptr inbounds i8, ptr %7, i32 %26
  store i8 %25, ptr %27, align 1, !tbaa !5
  %28 = icmp ult i32 %18, %2
  br i1 %28, label %41, label %17, !llvm.loop !49

29:                                               ; preds = %29, %12
  %30 = phi i32 [ 24, %12 ], [ %38, %29 ]
  %31 = phi i64 [ %1, %12 ], [ %32, %29 ]
  %32 = udiv i64 %31, %13
  %33 = mul i64 %32, %13
  %34 = sub i64 %31, %33
  %35 = trunc nuw i64 %34 to i32
  %36 = getelementptr inbounds i8, ptr %10, i32 %35
  %37 = load i8, ptr %36, align 1, !tbaa !5
  %38 = add nsw i32 %30, -1
  %39 = getelementptr inbounds i8, ptr %7, i32 %38
  store i8 %37, ptr %39, align 1, !tbaa !5
  %40 = icmp ult i64 %31, %13
  br i1 %40, label %41, label %29, !llvm.loop !50

41:                                               ; preds = %29, %17, %14
  %42 = phi i32 [ 24, %14 ], [ %26, %17 ], [ %38, %29 ]
  %43 = icmp eq i64 %1, 0
  %44 = icmp ne i32 %5, 0
  %45 = and i1 %43, %44
  br i1 %45, label %46, label %49

46:                                               ; preds = %41
  %47 = add nsw i32 %42, -1
  %48 = getelementptr inbounds i8, ptr %7, i32 %47
  store i8 48, ptr %48, align 1, !tbaa !5
  br label %49

49:                                               ; preds = %46, %41
  %50 = phi i32 [ %47, %46 ], [ %42, %41 ]
  %51 = getelementptr inbounds i8, ptr %7, i32 %50
  %52 = and i32 %3, 8
  %53 = icmp ne i32 %52, 0
  %54 = icmp eq i32 %2, 8
  %55 = and i1 %54, %53
  %56 = sub nsw i32 24, %50
  %57 = icmp sge i32 %56, %5
  %58 = select i1 %55, i1 %57, i1 false
  br i1 %58, label %59, label %66

59:                                               ; preds = %49
  %60 = icmp eq i32 %50, 24
  br i1 %60, label %64, label %61

61:                                               ; preds = %59
  %62 = load i8, ptr %51, align 1, !tbaa !5
  %63 = icmp eq i8 %62, 48
  br i1 %63, label %66, label %64

64:                                               ; preds = %61, %59
  %65 = getelementptr inbounds i8, ptr %51, i32 -1
  store i8 48, ptr %65, align 1, !tbaa !5
  br label %66

66:                                               ; preds = %64, %61, %49
  %67 = phi ptr [ %65, %64 ], [ %51, %61 ], [ %51, %49 ]
  %68 = getelementptr inbounds i8, ptr %7, i32 24
  %69 = ptrtoint ptr %68 to i32
  %70 = icmp eq i32 %2, 16
  %71 = icmp ne i64 %1, 0
  %72 = and i1 %71, %70
  %73 = and i1 %72, %53
  %74 = select i1 %9, ptr @.str.6.23, ptr @.str.5.24
  %75 = select i1 %73, ptr %74, ptr @.str.10
  %76 = ptrtoint ptr %67 to i32
  %77 = sub i32 %69, %76
  %78 = call fastcc i32 @number(ptr noundef %0, ptr noundef nonnull %75, ptr noundef nonnull %67, i32 noundef %77, i32 noundef %3, i32 noundef %4, i32 noundef %5) #11
  call void @llvm.lifetime.end.p0(i64 24, ptr nonnull %7) #10
  ret i32 %78
}

; Function Attrs: nocallback nofree nounwind willreturn memory(argmem: write)
declare void @llvm.memset.p0.i64(ptr nocapture writeonly, i8, i64, i1 immarg) #4

; Function Attrs: nofree nosync nounwind memory(readwrite, inaccessiblemem: none)
define internal fastcc void @enter(ptr nocapture noundef %0, i32 noundef %1, i32 noundef %2, i32 noundef %3) unnamed_addr #6 {
  %5 = icmp sgt i32 %1, -1
  br i1 %5, label %6, label %35

6:                                                ; preds = %4
  %7 = getelementptr inbounds i8, ptr %0, i32 1600
  %8 = icmp eq i32 %3, 0
  %9 = icmp eq i32 %2, 0
  br label %10

10:                                               ; preds = %30, %6
  %11 = phi i32 [ %1, %6 ], [ %33, %30 ]
  %12 = getelementptr inbounds [400 x i8], ptr %7, i32 0, i32 %11
  %13 = load i8, ptr %12, align 1, !tbaa !5
  %14 = icmp eq i8 %13, 0
  br i1 %14, label %15, label %35

15:                                               ; preds = %10
  %16 = getelementptr inbounds [400 x %struct.step], ptr @regex, i32 0, i32 %11
  store i8 1, ptr %12, align 1, !tbaa !5
  %17 = load i32, ptr %16, align 4, !tbaa !21
  switch i32 %17, label %25 [
    i32 5, label %18
    i32 6, label %30
    i32 3, label %21
    i32 4, label %22
    i32 7, label %23
  ], !llvm.loop !51

18:                                               ; preds = %15
  %19 = getelementptr inbounds i8, ptr %16, i32 8
  %20 = load i32, ptr %19, align 4, !tbaa !25
  tail call fastcc void @enter(ptr noundef nonnull %0, i32 noundef %20, i32 noundef %2, i32 noundef %3)
  br label %30, !llvm.loop !51

21:                                               ; preds = %15
  br i1 %9, label %35, label %30, !llvm.loop !51

22:                                               ; preds = %15
  br i1 %8, label %35, label %30, !llvm.loop !51

23:                                               ; preds = %15
  %24 = getelementptr inbounds i8, ptr %0, i32 2004
  store i32 1, ptr %24, align 4, !tbaa !28
  br label %35

25:                                               ; preds = %15
  %26 = getelementptr inbounds i8, ptr %0, i32 2000
  %27 = load i32, ptr %26, align 4, !tbaa !30
  %28 = add nsw i32 %27, 1
  store i32 %28, ptr %26, align 4, !tbaa !30
  %29 = getelementptr inbounds [400 x i32], ptr %0, i32 0, i32 %27
  store i32 %11, ptr %29, align 4, !tbaa !31
  br label %35

30:                                               ; preds = %22, %21, %18, %15
  %31 = phi i32 [ 12, %18 ], [ 8, %15 ], [ 8, %21 ], [ 8, %22 ]
  %32 = getelementptr inbounds i8, ptr %16, i32 %31
  %33 = load i32, ptr %32, align 4, !tbaa !31
  %34 = icmp sgt i32 %33, -1
  br i1 %34, label %10, label %35

35:                                               ; preds = %30, %25, %23, %22, %21, %10, %4
  ret void
}

; Function Attrs: nofree norecurse nosync nounwind optsize memory(read, inaccessiblemem: none)
define internal noundef i32 @strlen(ptr noundef %0) local_unnamed_addr #3 {
  br label %2

2:                                                ; preds = %2, %1
  %3 = phi ptr [ %0, %1 ], [ %6, %2 ]
  %4 = load i8, ptr %3, align 1, !tbaa !5
  %5 = icmp eq i8 %4, 0
  %6 = getelementptr inbounds i8, ptr %3, i32 1
  br i1 %5, label %7, label %2, !llvm.loop !44

7:                                                ; preds = %2
  %8 = ptrtoint ptr %3 to i32
  %9 = ptrtoint ptr %0 to i32
  %10 = sub i32 %8, %9
  ret i32 %10
}

; Function Attrs: nofree norecurse nosync nounwind optsize
define internal noundef ptr @strncat(ptr noalias noundef returned %0, ptr noalias nocapture noundef readonly %1, i32 noundef %2) local_unnamed_addr #7 {
  br label %4

4:                                                ; preds = %4, %3
  %5 = phi ptr [ %0, %3 ], [ %8, %4 ]
  %6 = load i8, ptr %5, align 1, !tbaa !5
  %7 = icmp eq i8 %6, 0
  %8 = getelementptr inbounds i8, ptr %5, i32 1
  br i1 %7, label %9, label %4, !llvm.loop !44

9:                                                ; preds = %4
  %10 = ptrtoint ptr %5 to i32
  %11 = ptrtoint ptr %0 to i32
  %12 = sub i32 %10, %11
  %13 = getelementptr inbounds i8, ptr %0, i32 %12
  %14 = icmp eq i32 %2, 0
  br i1 %14, label %36, label %15

15:                                               ; preds = %20, %9
  %16 = phi i32 [ %21, %20 ], [ 0, %9 ]
  %17 = getelementptr inbounds i8, ptr %1, i32 %16
  %18 = load i8, ptr %17, align 1, !tbaa !5
  %19 = icmp eq i8 %18, 0
  br i1 %19, label %23, label %20

20:                                               ; preds = %15
  %21 = add nuw i32 %16, 1
  %22 = icmp eq i32 %21, %2
  br i1 %22, label %25, label %15, !llvm.loop !45

23:                                               ; preds = %15
  %24 = icmp eq i32 %16, 0
  br i1 %24, label %36, label %25

25:                                               ; preds = %23, %20
  %26 = phi i32 [ %16, %23 ], [ %2, %20 ]
  br label %27

27:                                               ; preds = %27, %25
  %28 = phi ptr [ %32, %27 ], [ %1, %25 ]
  %29 = phi ptr [ %34, %27 ], [ %13, %25 ]
  %30 = phi i32 [ %31, %27 ], [ %26, %25 ]
  %31 = add i32 %30, -1
  %32 = getelementptr inbounds i8, ptr %28, i32 1
  %33 = load i8, ptr %28, align 1, !tbaa !5, !alias.scope !52, !noalias !55
  %34 = getelementptr inbounds i8, ptr %29, i32 1
  store i8 %33, ptr %29, align 1, !tbaa !5, !alias.scope !55, !noalias !52
  %35 = icmp eq i32 %31, 0
  br i1 %35, label %36, label %27, !llvm.loop !57

36:                                               ; preds = %27, %23, %9
  %37 = phi i32 [ 0, %23 ], [ 0, %9 ], [ %26, %27 ]
  %38 = getelementptr inbounds i8, ptr %13, i32 %37
  store i8 0, ptr %38, align 1, !tbaa !5
  ret ptr %0
}

; Function Attrs: nofree norecurse nosync nounwind optsize
define internal noundef ptr @strcat(ptr noalias noundef returned %0, ptr noalias nocapture noundef readonly %1) local_unnamed_addr #7 {
  br label %3

3:                                                ; preds = %3, %2
  %4 = phi ptr [ %0, %2 ], [ %7, %3 ]
  %5 = load i8, ptr %4, align 1, !tbaa !5
  %6 = icmp eq i8 %5, 0
  %7 = getelementptr inbounds i8, ptr %4, i32 1
  br i1 %6, label %8, label %3, !llvm.loop !44

8:                                                ; preds = %3
  %9 = ptrtoint ptr %4 to i32
  %10 = ptrtoint ptr %0 to i32
  %11 = sub i32 %9, %10
  %12 = getelementptr inbounds i8, ptr %0, i32 %11
  %13 = load i8, ptr %1, align 1, !tbaa !5, !alias.scope !58, !noalias !61
  store i8 %13, ptr %12, align 1, !tbaa !5, !alias.scope !61, !noalias !58
  %14 = icmp eq i8 %13, 0
  br i1 %14, label %22, label %15

15:                                               ; preds = %15, %8
  %16 = phi ptr [ %18, %15 ], [ %1, %8 ]
  %17 = phi ptr [ %19, %15 ], [ %12, %8 ]
  %18 = getelementptr inbounds i8, ptr %16, i32 1
  %19 = getelementptr inbounds i8, ptr %17, i32 1
  %20 = load i8, ptr %18, align 1, !tbaa !5, !alias.scope !58, !noalias !61
  store i8 %20, ptr %19, align 1, !tbaa !5, !alias.scope !61, !noalias !58
  %21 = icmp eq i8 %20, 0
  br i1 %21, label %22, label %15, !llvm.loop !63

22:                                               ; preds = %15, %8
  ret ptr %0
}

; Function Attrs: nounwind optsize
define internal fastcc i32 @number(ptr nocapture noundef %0, ptr noundef %1, ptr nocapture noundef readonly %2, i32 noundef %3, i32 noundef %4, i32 noundef %5, i32 noundef %6) unnamed_addr #2 {
  br label %8

8:                                                ; preds = %8, %7
  %9 = phi ptr [ %1, %7 ], [ %12, %8 ]
  %10 = load i8, ptr %9, align 1, !tbaa !5
  %11 = icmp eq i8 %10, 0
  %12 = getelementptr inbounds i8, ptr %9, i32 1
  br i1 %11, label %13, label %8, !llvm.loop !44

13:                                               ; preds = %8
  %14 = ptrtoint ptr %9 to i32
  %15 = ptrtoint ptr %1 to i32
  %16 = sub i32 %14, %15
  %17 = sub nsw i32 %6, %3
  %18 = lshr i32 %5, 31
  %19 = icmp ne i32 %18, 0
  %20 = sub i32 0, %5
  %21 = select i1 %19, i32 %20, i32 %5
  %22 = tail call i32 @llvm.smax.i32(i32 %17, i32 0)
  %23 = icmp slt i32 %6, 0
  %24 = and i32 %4, 16
  %25 = icmp ne i32 %24, 0
  %26 = and i1 %25, %23
  %27 = and i32 %4, 1
  %28 = or i32 %18, %27
  %29 = icmp eq i32 %28, 0
  %30 = and i1 %26, %29
  %31 = add i32 %16, %3
  %32 = icmp sgt i32 %21, %31
  %33 = select i1 %30, i1 %32, i1 false
  %34 = sub i32 %21, %31
  %35 = select i1 %33, i32 %34, i32 %22
  %36 = add i32 %31, %35
  %37 = sub i32 %21, %36
  br i1 %29, label %38, label %47

38:                                               ; preds = %13
  %39 = icmp sgt i32 %37, 0
  br i1 %39, label %40, label %45

40:                                               ; preds = %40, %38
  %41 = phi i32 [ %43, %40 ], [ 0, %38 ]
  %42 = tail call i32 @fputc(i32 noundef 32, ptr noundef %0) #11
  %43 = add nuw nsw i32 %41, 1
  %44 = icmp eq i32 %43, %37
  br i1 %44, label %45, label %40, !llvm.loop !64

45:                                               ; preds = %40, %38
  %46 = tail call noundef i32 @llvm.smax.i32(i32 %37, i32 0)
  br label %47

47:                                               ; preds = %45, %13
  %48 = phi i32 [ 0, %13 ], [ %46, %45 ]
  %49 = load i8, ptr %0, align 4, !tbaa !36, !alias.scope !65, !noalias !68
  %50 = icmp eq i8 %49, 0
  %51 = icmp eq ptr %9, %1
  %52 = or i1 %51, %50
  br i1 %52, label %61, label %53

53:                                               ; preds = %53, %47
  %54 = phi i32 [ %59, %53 ], [ 0, %47 ]
  %55 = getelementptr inbounds i8, ptr %1, i32 %54
  %56 = load i8, ptr %55, align 1, !tbaa !5, !alias.scope !68, !noalias !65
  %57 = zext i8 %56 to i32
  %58 = tail call i32 @fputc(i32 noundef %57, ptr noundef nonnull %0) #11, !noalias !68
  %59 = add nuw i32 %54, 1
  %60 = icmp eq i32 %59, %16
  br i1 %60, label %61, label %53, !llvm.loop !43

61:                                               ; preds = %53, %47
  %62 = icmp sgt i32 %35, 0
  br i1 %62, label %63, label %68

63:                                               ; preds = %63, %61
  %64 = phi i32 [ %66, %63 ], [ 0, %61 ]
  %65 = tail call i32 @fputc(i32 noundef 48, ptr noundef nonnull %0) #11
  %66 = add nuw nsw i32 %64, 1
  %67 = icmp eq i32 %66, %35
  br i1 %67, label %68, label %63, !llvm.loop !64

68:                                               ; preds = %63, %61
  %69 = tail call noundef i32 @llvm.smax.i32(i32 %35, i32 0)
  %70 = load i8, ptr %0, align 4, !tbaa !36, !alias.scope !70, !noalias !73
  %71 = icmp eq i8 %70, 0
  %72 = icmp eq i32 %3, 0
  %73 = or i1 %72, %71
  br i1 %73, label %82, label %74

74:                                               ; preds = %74, %68
  %75 = phi i32 [ %80, %74 ], [ 0, %68 ]
  %76 = getelementptr inbounds i8, ptr %2, i32 %75
  %77 = load i8, ptr %76, align 1, !tbaa !5, !alias.scope !73, !noalias !70
  %78 = zext i8 %77 to i32
  %79 = tail call i32 @fputc(i32 noundef %78, ptr noundef nonnull %0) #11, !noalias !73
  %80 = add nuw i32 %75, 1
  %81 = icmp eq i32 %80, %3
  br i1 %81, label %82, label %74, !llvm.loop !43

82:                                               ; preds = %74, %68
  %83 = add i32 %31, %69
  %84 = add i32 %83, %48
  br i1 %29, label %95, label %85

85:                                               ; preds = %82
  %86 = icmp sgt i32 %37, 0
  br i1 %86, label %87, label %92

87:                                               ; preds = %87, %85
  %88 = phi i32 [ %90, %87 ], [ 0, %85 ]
  %89 = tail call i32 @fputc(i32 noundef 32, ptr noundef nonnull %0) #11
  %90 = add nuw nsw i32 %88, 1
  %91 = icmp eq i32 %90, %37
  br i1 %91, label %92, label %87, !llvm.loop !64

92:                                               ; preds = %87, %85
  %93 = tail call noundef i32 @llvm.smax.i32(i32 %37, i32 0)
  %94 = add nsw i32 %84, %93
  br label %95

95:                                               ; preds = %92, %82
  %96 = phi i32 [ %94, %92 ], [ %84, %82 ]
  ret i32 %96
}

; Function Attrs: nocallback nofree nosync nounwind speculatable willreturn memory(none)
declare i32 @llvm.smax.i32(i32, i32) #8

; Function Attrs: nounwind optsize
define internal range(i32 -1, 256) i32 @fputc(i32 noundef %0, ptr nocapture noundef %1) local_unnamed_addr #2 {
  %3 = load i8, ptr %1, align 4, !tbaa !36
  switch i8 %3, label %17 [
    i8 1, label %4
    i8 3, label %6
    i8 0, label %19
  ]

4:                                                ; preds = %2
  %5 = tail call i32 @putchar(i32 noundef %0) #12
  br label %17

6:                                                ; preds = %2
  %7 = getelementptr inbounds i8, ptr %1, i32 8
  %8 = load i32, ptr %7, align 4, !tbaa !75
  %9 = icmp eq i32 %8, 0
  br i1 %9, label %17, label %10

10:                                               ; preds = %6
  %11 = trunc i32 %0 to i8
  %12 = getelementptr inbounds i8, ptr %1, i32 4
  %13 = load ptr, ptr %12, align 4, !tbaa !76
  %14 = getelementptr inbounds i8, ptr %13, i32 1
  store ptr %14, ptr %12, align 4, !tbaa !76
  store i8 %11, ptr %13, align 1, !tbaa !5
  %15 = load i32, ptr %7, align 4, !tbaa !75
  %16 = add i32 %15, -1
  store i32 %16, ptr %7, align 4, !tbaa !75
  br label %17

17:                                               ; preds = %10, %6, %4, %2
  %18 = and i32 %0, 255
  br label %19

19:                                               ; preds = %17, %2
  %20 = phi i32 [ %18, %17 ], [ -1, %2 ]
  ret i32 %20
}

; Function Attrs: optsize
declare dso_local i32 @putchar(i32 noundef) local_unnamed_addr #9

; Function Attrs: nofree nounwind memory(readwrite, inaccessiblemem: none)
define internal fastcc void @repeated(ptr nocapture noundef %0, ptr nocapture noundef %1) unnamed_addr #5 {
  %3 = getelementptr inbounds i8, ptr %0, i32 8
  %4 = load ptr, ptr %3, align 4, !tbaa !12
  %5 = getelementptr inbounds i8, ptr %4, i32 1
  store ptr %5, ptr %3, align 4, !tbaa !12
  %6 = load i8, ptr %4, align 1, !tbaa !5
  switch i8 %6, label %475 [
    i8 40, label %7
    i8 91, label %26
    i8 46, label %261
    i8 94, label %307
    i8 36, label %353
    i8 42, label %399
    i8 43, label %399
    i8 63, label %399
    i8 92, label %411
  ]

7:                                                ; preds = %2
  tail call fastcc void @alternatives(ptr noundef nonnull %0, ptr noundef %1)
  %8 = load ptr, ptr %3, align 4, !tbaa !12
  %9 = load i8, ptr %8, align 1, !tbaa !5
  %10 = icmp eq i8 %9, 41
  br i1 %10, label %23, label %11

11:                                               ; preds = %7
  %12 = load ptr, ptr %0, align 4, !tbaa !8
  %13 = getelementptr inbounds i8, ptr %12, i32 7180
  %14 = load ptr, ptr %13, align 4, !tbaa !13
  %15 = icmp eq ptr %14, null
  br i1 %15, label %16, label %522

16:                                               ; preds = %11
  store ptr @.str.2, ptr %13, align 4, !tbaa !13
  %17 = getelementptr inbounds i8, ptr %0, i32 4
  %18 = load ptr, ptr %17, align 4, !tbaa !11
  %19 = ptrtoint ptr %8 to i32
  %20 = ptrtoint ptr %18 to i32
  %21 = sub i32 %19, %20
  %22 = getelementptr inbounds i8, ptr %12, i32 7184
  store i32 %21, ptr %22, align 4, !tbaa !16
  br label %522

23:                                               ; preds = %7
  %24 = getelementptr inbounds i8, ptr %8, i32 1
  store ptr %24, ptr %3, align 4, !tbaa !12
  %25 = load ptr, ptr %0, align 4, !tbaa !8
  br label %522

26:                                               ; preds = %2
  %27 = load ptr, ptr %0, align 4, !tbaa !8
  %28 = getelementptr inbounds i8, ptr %27, i32 7176
  %29 = load i32, ptr %28, align 4, !tbaa !27
  %30 = icmp eq i32 %29, 24
  br i1 %30, label %31, label %42

31:                                               ; preds = %26
  %32 = getelementptr inbounds i8, ptr %27, i32 7180
  %33 = load ptr, ptr %32, align 4, !tbaa !13
  %34 = icmp eq ptr %33, null
  br i1 %34, label %35, label %522

35:                                               ; preds = %31
  store ptr @.str.5, ptr %32, align 4, !tbaa !13
  %36 = getelementptr inbounds i8, ptr %0, i32 4
  %37 = load ptr, ptr %36, align 4, !tbaa !11
  %38 = ptrtoint ptr %5 to i32
  %39 = ptrtoint ptr %37 to i32
  %40 = sub i32 %38, %39
  %41 = getelementptr inbounds i8, ptr %27, i32 7184
  store i32 %40, ptr %41, align 4, !tbaa !16
  br label %522

42:                                               ; preds = %26
  %43 = getelementptr inbounds i8, ptr %27, i32 6408
  %44 = add nsw i32 %29, 1
  store i32 %44, ptr %28, align 4, !tbaa !27
  %45 = getelementptr inbounds [24 x [32 x i8]], ptr %43, i32 0, i32 %29
  tail call void @llvm.memset.p0.i32(ptr noundef nonnull align 1 dereferenceable(32) %45, i8 0, i32 32, i1 false)
  %46 = load ptr, ptr %3, align 4, !tbaa !12
  %47 = load i8, ptr %46, align 1, !tbaa !5
  %48 = icmp eq i8 %47, 94
  br i1 %48, label %49, label %52

49:                                               ; preds = %42
  %50 = getelementptr inbounds i8, ptr %46, i32 1
  store ptr %50, ptr %3, align 4, !tbaa !12
  %51 = load i8, ptr %50, align 1, !tbaa !5
  br label %52

52:                                               ; preds = %49, %42
  %53 = phi i8 [ %51, %49 ], [ %47, %42 ]
  %54 = phi ptr [ %50, %49 ], [ %46, %42 ]
  %55 = icmp eq i8 %53, 0
  br i1 %55, label %99, label %59

56:                                               ; preds = %87
  %57 = load ptr, ptr %3, align 4, !tbaa !12
  %58 = load i8, ptr %57, align 1, !tbaa !5
  switch i8 %58, label %59 [
    i8 93, label %99
    i8 0, label %99
  ]

59:                                               ; preds = %56, %52
  %60 = phi ptr [ %57, %56 ], [ %54, %52 ]
  %61 = getelementptr inbounds i8, ptr %60, i32 1
  store ptr %61, ptr %3, align 4, !tbaa !12
  %62 = load i8, ptr %60, align 1, !tbaa !5
  %63 = load i8, ptr %61, align 1, !tbaa !5
  %64 = icmp eq i8 %63, 45
  br i1 %64, label %65, label %83

65:                                               ; preds = %59
  %66 = getelementptr inbounds i8, ptr %60, i32 2
  %67 = load i8, ptr %66, align 1, !tbaa !5
  switch i8 %67, label %68 [
    i8 0, label %83
    i8 93, label %83
  ]

68:                                               ; preds = %65
  %69 = getelementptr inbounds i8, ptr %60, i32 3
  store ptr %69, ptr %3, align 4, !tbaa !12
  %70 = icmp ult i8 %67, %62
  br i1 %70, label %71, label %83

71:                                               ; preds = %68
  %72 = load ptr, ptr %0, align 4, !tbaa !8
  %73 = getelementptr inbounds i8, ptr %72, i32 7180
  %74 = load ptr, ptr %73, align 4, !tbaa !13
  %75 = icmp eq ptr %74, null
  br i1 %75, label %76, label %522

76:                                               ; preds = %71
  store ptr @.str.6, ptr %73, align 4, !tbaa !13
  %77 = getelementptr inbounds i8, ptr %0, i32 4
  %78 = load ptr, ptr %77, align 4, !tbaa !11
  %79 = ptrtoint ptr %69 to i32
  %80 = ptrtoint ptr %78 to i32
  %81 = sub i32 %79, %80
  %82 = getelementptr inbounds i8, ptr %72, i32 7184
  store i32 %81, ptr %82, align 4, !tbaa !16
  br label %522

83:                                               ; preds = %68, %65, %65, %59
  %84 = phi i8 [ %62, %65 ], [ %62, %65 ], [ %62, %59 ], [ %67, %68 ]
  %85 = zext i8 %62 to i32
  %86 = zext i8 %84 to i32
  br label %87

87:                                               ; preds = %87, %83
  %88 = phi i32 [ %97, %87 ], [ %85, %83 ]
  %89 = and i32 %88, 7
  %90 = shl nuw nsw i32 1, %89
  %91 = lshr i32 %88, 3
  %92 = and i32 %91, 31
  %93 = getelementptr inbounds i8, ptr %45, i32 %92
  %94 = load i8, ptr %93, align 1, !tbaa !5
  %95 = trunc nuw i32 %90 to i8
  %96 = or i8 %94, %95
  store i8 %96, ptr %93, align 1, !tbaa !5
  %97 = add nuw nsw i32 %88, 1
  %98 = icmp eq i32 %88, %86
  br i1 %98, label %56, label %87, !llvm.loop !77

99:                                               ; preds = %56, %56, %52
  %100 = phi ptr [ %54, %52 ], [ %57, %56 ], [ %57, %56 ]
  %101 = getelementptr inbounds i8, ptr %100, i32 1
  store ptr %101, ptr %3, align 4, !tbaa !12
  %102 = load i8, ptr %100, align 1, !tbaa !5
  %103 = icmp eq i8 %102, 93
  br i1 %103, label %116, label %104

104:                                              ; preds = %99
  store ptr %100, ptr %3, align 4, !tbaa !12
  %105 = load ptr, ptr %0, align 4, !tbaa !8
  %106 = getelementptr inbounds i8, ptr %105, i32 7180
  %107 = load ptr, ptr %106, align 4, !tbaa !13
  %108 = icmp eq ptr %107, null
  br i1 %108, label %109, label %522

109:                                              ; preds = %104
  store ptr @.str.7, ptr %106, align 4, !tbaa !13
  %110 = getelementptr inbounds i8, ptr %0, i32 4
  %111 = load ptr, ptr %110, align 4, !tbaa !11
  %112 = ptrtoint ptr %100 to i32
  %113 = ptrtoint ptr %111 to i32
  %114 = sub i32 %112, %113
  %115 = getelementptr inbounds i8, ptr %105, i32 7184
  store i32 %114, ptr %115, align 4, !tbaa !16
  br label %522

116:                                              ; preds = %99
  br i1 %48, label %117, label %213

117:                                              ; preds = %116
  %118 = load i8, ptr %45, align 1, !tbaa !5
  %119 = xor i8 %118, -1
  store i8 %119, ptr %45, align 1, !tbaa !5
  %120 = getelementptr inbounds i8, ptr %45, i32 1
  %121 = load i8, ptr %120, align 1, !tbaa !5
  %122 = xor i8 %121, -1
  store i8 %122, ptr %120, align 1, !tbaa !5
  %123 = getelementptr inbounds i8, ptr %45, i32 2
  %124 = load i8, ptr %123, align 1, !tbaa !5
  %125 = xor i8 %124, -1
  store i8 %125, ptr %123, align 1, !tbaa !5
  %126 = getelementptr inbounds i8, ptr %45, i32 3
  %127 = load i8, ptr %126, align 1, !tbaa !5
  %128 = xor i8 %127, -1
  store i8 %128, ptr %126, align 1, !tbaa !5
  %129 = getelementptr inbounds i8, ptr %45, i32 4
  %130 = load i8, ptr %129, align 1, !tbaa !5
  %131 = xor i8 %130, -1
  store i8 %131, ptr %129, align 1, !tbaa !5
  %132 = getelementptr inbounds i8, ptr %45, i32 5
  %133 = load i8, ptr %132, align 1, !tbaa !5
  %134 = xor i8 %133, -1
  store i8 %134, ptr %132, align 1, !tbaa !5
  %135 = getelementptr inbounds i8, ptr %45, i32 6
  %136 = load i8, ptr %135, align 1, !tbaa !5
  %137 = xor i8 %136, -1
  store i8 %137, ptr %135, align 1, !tbaa !5
  %138 = getelementptr inbounds i8, ptr %45, i32 7
  %139 = load i8, ptr %138, align 1, !tbaa !5
  %140 = xor i8 %139, -1
  store i8 %140, ptr %138, align 1, !tbaa !5
  %141 = getelementptr inbounds i8, ptr %45, i32 8
  %142 = load i8, ptr %141, align 1, !tbaa !5
  %143 = xor i8 %142, -1
  store i8 %143, ptr %141, align 1, !tbaa !5
  %144 = getelementptr inbounds i8, ptr %45, i32 9
  %145 = load i8, ptr %144, align 1, !tbaa !5
  %146 = xor i8 %145, -1
  store i8 %146, ptr %144, align 1, !tbaa !5
  %147 = getelementptr inbounds i8, ptr %45, i32 10
  %148 = load i8, ptr %147, align 1, !tbaa !5
  %149 = xor i8 %148, -1
  store i8 %149, ptr %147, align 1, !tbaa !5
  %150 = getelementptr inbounds i8, ptr %45, i32 11
  %151 = load i8, ptr %150, align 1, !tbaa !5
  %152 = xor i8 %151, -1
  store i8 %152, ptr %150, align 1, !tbaa !5
  %153 = getelementptr inbounds i8, ptr %45, i32 12
  %154 = load i8, ptr %153, align 1, !tbaa !5
  %155 = xor i8 %154, -1
  store i8 %155, ptr %153, align 1, !tbaa !5
  %156 = getelementptr inbounds i8, ptr %45, i32 13
  %157 = load i8, ptr %156, align 1, !tbaa !5
  %158 = xor i8 %157, -1
  store i8 %158, ptr %156, align 1, !tbaa !5
  %159 = getelementptr inbounds i8, ptr %45, i32 14
  %160 = load i8, ptr %159, align 1, !tbaa !5
  %161 = xor i8 %160, -1
  store i8 %161, ptr %159, align 1, !tbaa !5
  %162 = getelementptr inbounds i8, ptr %45, i32 15
  %163 = load i8, ptr %162, align 1, !tbaa !5
  %164 = xor i8 %163, -1
  store i8 %164, ptr %162, align 1, !tbaa !5
  %165 = getelementptr inbounds i8, ptr %45, i32 16
  %166 = load i8, ptr %165, align 1, !tbaa !5
  %167 = xor i8 %166, -1
  store i8 %167, ptr %165, align 1, !tbaa !5
  %168 = getelementptr inbounds i8, ptr %45, i32 17
  %169 = load i8, ptr %168, align 1, !tbaa !5
  %170 = xor i8 %169, -1
  store i8 %170, ptr %168, align 1, !tbaa !5
  %171 = getelementptr inbounds i8, ptr %45, i32 18
  %172 = load i8, ptr %171, align 1, !tbaa !5
  %173 = xor i8 %172, -1
  store i8 %173, ptr %171, align 1, !tbaa !5
  %174 = getelementptr inbounds i8, ptr %45, i32 19
  %175 = load i8, ptr %174, align 1, !tbaa !5
  %176 = xor i8 %175, -1
  store i8 %176, ptr %174, align 1, !tbaa !5
  %177 = getelementptr inbounds i8, ptr %45, i32 20
  %178 = load i8, ptr %177, align 1, !tbaa !5
  %179 = xor i8 %178, -1
  store i8 %179, ptr %177, align 1, !tbaa !5
  %180 = getelementptr inbounds i8, ptr %45, i32 21
  %181 = load i8, ptr %180, align 1, !tbaa !5
  %182 = xor i8 %181, -1
  store i8 %182, ptr %180, align 1, !tbaa !5
  %183 = getelementptr inbounds i8, ptr %45, i32 22
  %184 = load i8, ptr %183, align 1, !tbaa !5
  %185 = xor i8 %184, -1
  store i8 %185, ptr %183, align 1, !tbaa !5
  %186 = getelementptr inbounds i8, ptr %45, i32 23
  %187 = load i8, ptr %186, align 1, !tbaa !5
  %188 = xor i8 %187, -1
  store i8 %188, ptr %186, align 1, !tbaa !5
  %189 = getelementptr inbounds i8, ptr %45, i32 24
  %190 = load i8, ptr %189, align 1, !tbaa !5
  %191 = xor i8 %190, -1
  store i8 %191, ptr %189, align 1, !tbaa !5
  %192 = getelementptr inbounds i8, ptr %45, i32 25
  %193 = load i8, ptr %192, align 1, !tbaa !5
  %194 = xor i8 %193, -1
  store i8 %194, ptr %192, align 1, !tbaa !5
  %195 = getelementptr inbounds i8, ptr %45, i32 26
  %196 = load i8, ptr %195, align 1, !tbaa !5
  %197 = xor i8 %196, -1
  store i8 %197, ptr %195, align 1, !tbaa !5
  %198 = getelementptr inbounds i8, ptr %45, i32 27
  %199 = load i8, ptr %198, align 1, !tbaa !5
  %200 = xor i8 %199, -1
  store i8 %200, ptr %198, align 1, !tbaa !5
  %201 = getelementptr inbounds i8, ptr %45, i32 28
  %202 = load i8, ptr %201, align 1, !tbaa !5
  %203 = xor i8 %202, -1
  store i8 %203, ptr %201, align 1, !tbaa !5
  %204 = getelementptr inbounds i8, ptr %45, i32 29
  %205 = load i8, ptr %204, align 1, !tbaa !5
  %206 = xor i8 %205, -1
  store i8 %206, ptr %204, align 1, !tbaa !5
  %207 = getelementptr inbounds i8, ptr %45, i32 30
  %208 = load i8, ptr %207, align 1, !tbaa !5
  %209 = xor i8 %208, -1
  store i8 %209, ptr %207, align 1, !tbaa !5
  %210 = getelementptr inbounds i8, ptr %45, i32 31
  %211 = load i8, ptr %210, align 1, !tbaa !5
  %212 = xor i8 %211, -1
  store i8 %212, ptr %210, align 1, !tbaa !5
  br label %213

213:                                              ; preds = %117, %116
  %214 = load ptr, ptr %0, align 4, !tbaa !8
  %215 = getelementptr inbounds i8, ptr %214, i32 6400
  %216 = load i32, ptr %215, align 4, !tbaa !20
  %217 = icmp eq i32 %216, 400
  br i1 %217, label %218, label %231

218:                                              ; preds = %213
  %219 = getelementptr inbounds i8, ptr %214, i32 7180
  %220 = load ptr, ptr %219, align 4, !tbaa !13
  %221 = icmp eq ptr %220, null
  br i1 %221, label %222, label %230

222:                                              ; preds = %218
  store ptr @.str.8, ptr %219, align 4, !tbaa !13
  %223 = load ptr, ptr %3, align 4, !tbaa !12
  %224 = getelementptr inbounds i8, ptr %0, i32 4
  %225 = load ptr, ptr %224, align 4, !tbaa !11
  %226 = ptrtoint ptr %223 to i32
  %227 = ptrtoint ptr %225 to i32
  %228 = sub i32 %226, %227
  %229 = getelementptr inbounds i8, ptr %214, i32 7184
  store i32 %228, ptr %229, align 4, !tbaa !16
  br label %230

230:                                              ; preds = %222, %218
  store i32 0, ptr %1, align 4, !tbaa !17
  br label %256

231:                                              ; preds = %213
  %232 = getelementptr inbounds [400 x %struct.step], ptr %214, i32 0, i32 %216
  store i32 2, ptr %232, align 4, !tbaa !21
  %233 = getelementptr inbounds i8, ptr %232, i32 4
  store i32 %29, ptr %233, align 4, !tbaa !23
  %234 = getelementptr inbounds i8, ptr %232, i32 12
  store i32 -1, ptr %234, align 4, !tbaa !24
  %235 = getelementptr inbounds i8, ptr %232, i32 8
  store i32 -1, ptr %235, align 4, !tbaa !25
  %236 = add nsw i32 %216, 1
  store i32 %236, ptr %215, align 4, !tbaa !20
  store i32 %216, ptr %1, align 4, !tbaa !17
  %237 = icmp eq i32 %236, 400
  br i1 %237, label %238, label %250

238:                                              ; preds = %231
  %239 = getelementptr inbounds i8, ptr %214, i32 7180
  %240 = load ptr, ptr %239, align 4, !tbaa !13
  %241 = icmp eq ptr %240, null
  br i1 %241, label %242, label %256

242:                                              ; preds = %238
  store ptr @.str.8, ptr %239, align 4, !tbaa !13
  %243 = load ptr, ptr %3, align 4, !tbaa !12
  %244 = getelementptr inbounds i8, ptr %0, i32 4
  %245 = load ptr, ptr %244, align 4, !tbaa !11
  %246 = ptrtoint ptr %243 to i32
  %247 = ptrtoint ptr %245 to i32
  %248 = sub i32 %246, %247
  %249 = getelementptr inbounds i8, ptr %214, i32 7184
  store i32 %248, ptr %249, align 4, !tbaa !16
  br label %256

250:                                              ; preds = %231
  %251 = getelementptr inbounds [400 x %struct.step], ptr %214, i32 0, i32 %236
  store i32 6, ptr %251, align 4, !tbaa !21
  %252 = getelementptr inbounds i8, ptr %251, i32 4
  store i32 0, ptr %252, align 4, !tbaa !23
  %253 = getelementptr inbounds i8, ptr %251, i32 12
  store i32 -1, ptr %253, align 4, !tbaa !24
  %254 = getelementptr inbounds i8, ptr %251, i32 8
  store i32 -1, ptr %254, align 4, !tbaa !25
  %255 = add nsw i32 %216, 2
  store i32 %255, ptr %215, align 4, !tbaa !20
  br label %256

256:                                              ; preds = %250, %242, %238, %230
  %257 = phi i32 [ %216, %250 ], [ 399, %238 ], [ 399, %242 ], [ 0, %230 ]
  %258 = phi i32 [ %236, %250 ], [ 0, %238 ], [ 0, %242 ], [ 0, %230 ]
  %259 = getelementptr inbounds i8, ptr %1, i32 4
  store i32 %258, ptr %259, align 4, !tbaa !26
  %260 = getelementptr inbounds [400 x %struct.step], ptr %214, i32 0, i32 %257, i32 2
  store i32 %258, ptr %260, align 4, !tbaa !25
  br label %522

261:                                              ; preds = %2
  %262 = load ptr, ptr %0, align 4, !tbaa !8
  %263 = getelementptr inbounds i8, ptr %262, i32 6400
  %264 = load i32, ptr %263, align 4, !tbaa !20
  %265 = icmp eq i32 %264, 400
  br i1 %265, label %266, label %278

266:                                              ; preds = %261
  %267 = getelementptr inbounds i8, ptr %262, i32 7180
  %268 = load ptr, ptr %267, align 4, !tbaa !13
  %269 = icmp eq ptr %268, null
  br i1 %269, label %270, label %277

270:                                              ; preds = %266
  store ptr @.str.8, ptr %267, align 4, !tbaa !13
  %271 = getelementptr inbounds i8, ptr %0, i32 4
  %272 = load ptr, ptr %271, align 4, !tbaa !11
  %273 = ptrtoint ptr %5 to i32
  %274 = ptrtoint ptr %272 to i32
  %275 = sub i32 %273, %274
  %276 = getelementptr inbounds i8, ptr %262, i32 7184
  store i32 %275, ptr %276, align 4, !tbaa !16
  br label %277

277:                                              ; preds = %270, %266
  store i32 0, ptr %1, align 4, !tbaa !17
  br label %302

278:                                              ; preds = %261
  %279 = getelementptr inbounds [400 x %struct.step], ptr %262, i32 0, i32 %264
  store i32 1, ptr %279, align 4, !tbaa !21
  %280 = getelementptr inbounds i8, ptr %279, i32 4
  store i32 0, ptr %280, align 4, !tbaa !23
  %281 = getelementptr inbounds i8, ptr %279, i32 12
  store i32 -1, ptr %281, align 4, !tbaa !24
  %282 = getelementptr inbounds i8, ptr %279, i32 8
  store i32 -1, ptr %282, align 4, !tbaa !25
  %283 = add nsw i32 %264, 1
  store i32 %283, ptr %263, align 4, !tbaa !20
  store i32 %264, ptr %1, align 4, !tbaa !17
  %284 = icmp eq i32 %283, 400
  br i1 %284, label %285, label %296

285:                                              ; preds = %278
  %286 = getelementptr inbounds i8, ptr %262, i32 7180
  %287 = load ptr, ptr %286, align 4, !tbaa !13
  %288 = icmp eq ptr %287, null
  br i1 %288, label %289, label %302

289:                                              ; preds = %285
  store ptr @.str.8, ptr %286, align 4, !tbaa !13
  %290 = getelementptr inbounds i8, ptr %0, i32 4
  %291 = load ptr, ptr %290, align 4, !tbaa !11
  %292 = ptrtoint ptr %5 to i32
  %293 = ptrtoint ptr %291 to i32
  %294 = sub i32 %292, %293
  %295 = getelementptr inbounds i8, ptr %262, i32 7184
  store i32 %294, ptr %295, align 4, !tbaa !16
  br label %302

296:                                              ; preds = %278
  %297 = getelementptr inbounds [400 x %struct.step], ptr %262, i32 0, i32 %283
  store i32 6, ptr %297, align 4, !tbaa !21
  %298 = getelementptr inbounds i8, ptr %297, i32 4
  store i32 0, ptr %298, align 4, !tbaa !23
  %299 = getelementptr inbounds i8, ptr %297, i32 12
  store i32 -1, ptr %299, align 4, !tbaa !24
  %300 = getelementptr inbounds i8, ptr %297, i32 8
  store i32 -1, ptr %300, align 4, !tbaa !25
  %301 = add nsw i32 %264, 2
  store i32 %301, ptr %263, align 4, !tbaa !20
  br label %302

302:                                              ; preds = %296, %289, %285, %277
  %303 = phi i32 [ %264, %296 ], [ 399, %285 ], [ 399, %289 ], [ 0, %277 ]
  %304 = phi i32 [ %283, %296 ], [ 0, %285 ], [ 0, %289 ], [ 0, %277 ]
  %305 = getelementptr inbounds i8, ptr %1, i32 4
  store i32 %304, ptr %305, align 4, !tbaa !26
  %306 = getelementptr inbounds [400 x %struct.step], ptr %262, i32 0, i32 %303, i32 2
  store i32 %304, ptr %306, align 4, !tbaa !25
  br label %522

307:                                              ; preds = %2
  %308 = load ptr, ptr %0, align 4, !tbaa !8
  %309 = getelementptr inbounds i8, ptr %308, i32 6400
  %310 = load i32, ptr %309, align 4, !tbaa !20
  %311 = icmp eq i32 %310, 400
  br i1 %311, label %312, label %324

312:                                              ; preds = %307
  %313 = getelementptr inbounds i8, ptr %308, i32 7180
  %314 = load ptr, ptr %313, align 4, !tbaa !13
  %315 = icmp eq ptr %314, null
  br i1 %315, label %316, label %323

316:                                              ; preds = %312
  store ptr @.str.8, ptr %313, align 4, !tbaa !13
  %317 = getelementptr inbounds i8, ptr %0, i32 4
  %318 = load ptr, ptr %317, align 4, !tbaa !11
  %319 = ptrtoint ptr %5 to i32
  %320 = ptrtoint ptr %318 to i32
  %321 = sub i32 %319, %320
  %322 = getelementptr inbounds i8, ptr %308, i32 7184
  store i32 %321, ptr %322, align 4, !tbaa !16
  br label %323

323:                                              ; preds = %316, %312
  store i32 0, ptr %1, align 4, !tbaa !17
  br label %348

324:                                              ; preds = %307
  %325 = getelementptr inbounds [400 x %struct.step], ptr %308, i32 0, i32 %310
  store i32 3, ptr %325, align 4, !tbaa !21
  %326 = getelementptr inbounds i8, ptr %325, i32 4
  store i32 0, ptr %326, align 4, !tbaa !23
  %327 = getelementptr inbounds i8, ptr %325, i32 12
  store i32 -1, ptr %327, align 4, !tbaa !24
  %328 = getelementptr inbounds i8, ptr %325, i32 8
  store i32 -1, ptr %328, align 4, !tbaa !25
  %329 = add nsw i32 %310, 1
  store i32 %329, ptr %309, align 4, !tbaa !20
  store i32 %310, ptr %1, align 4, !tbaa !17
  %330 = icmp eq i32 %329, 400
  br i1 %330, label %331, label %342

331:                                              ; preds = %324
  %332 = getelementptr inbounds i8, ptr %308, i32 7180
  %333 = load ptr, ptr %332, align 4, !tbaa !13
  %334 = icmp eq ptr %333, null
  br i1 %334, label %335, label %348

335:                                              ; preds = %331
  store ptr @.str.8, ptr %332, align 4, !tbaa !13
  %336 = getelementptr inbounds i8, ptr %0, i32 4
  %337 = load ptr, ptr %336, align 4, !tbaa !11
  %338 = ptrtoint ptr %5 to i32
  %339 = ptrtoint ptr %337 to i32
  %340 = sub i32 %338, %339
  %341 = getelementptr inbounds i8, ptr %308, i32 7184
  store i32 %340, ptr %341, align 4, !tbaa !16
  br label %348

342:                                              ; preds = %324
  %343 = getelementptr inbounds [400 x %struct.step], ptr %308, i32 0, i32 %329
  store i32 6, ptr %343, align 4, !tbaa !21
  %344 = getelementptr inbounds i8, ptr %343, i32 4
  store i32 0, ptr %344, align 4, !tbaa !23
  %345 = getelementptr inbounds i8, ptr %343, i32 12
  store i32 -1, ptr %345, align 4, !tbaa !24
  %346 = getelementptr inbounds i8, ptr %343, i32 8
  store i32 -1, ptr %346, align 4, !tbaa !25
  %347 = add nsw i32 %310, 2
  store i32 %347, ptr %309, align 4, !tbaa !20
  br label %348

348:                                              ; preds = %342, %335, %331, %323
  %349 = phi i32 [ %310, %342 ], [ 399, %331 ], [ 399, %335 ], [ 0, %323 ]
  %350 = phi i32 [ %329, %342 ], [ 0, %331 ], [ 0, %335 ], [ 0, %323 ]
  %351 = getelementptr inbounds i8, ptr %1, i32 4
  store i32 %350, ptr %351, align 4, !tbaa !26
  %352 = getelementptr inbounds [400 x %struct.step], ptr %308, i32 0, i32 %349, i32 2
  store i32 %350, ptr %352, align 4, !tbaa !25
  br label %522

353:                                              ; preds = %2
  %354 = load ptr, ptr %0, align 4, !tbaa !8
  %355 = getelementptr inbounds i8, ptr %354, i32 6400
  %356 = load i32, ptr %355, align 4, !tbaa !20
  %357 = icmp eq i32 %356, 400
  br i1 %357, label %358, label %370

358:                                              ; preds = %353
  %359 = getelementptr inbounds i8, ptr %354, i32 7180
  %360 = load ptr, ptr %359, align 4, !tbaa !13
  %361 = icmp eq ptr %360, null
  br i1 %361, label %362, label %369

362:                                              ; preds = %358
  store ptr @.str.8, ptr %359, align 4, !tbaa !13
  %363 = getelementptr inbounds i8, ptr %0, i32 4
  %364 = load ptr, ptr %363, align 4, !tbaa !11
  %365 = ptrtoint ptr %5 to i32
  %366 = ptrtoint ptr %364 to i32
  %367 = sub i32 %365, %366
  %368 = getelementptr inbounds i8, ptr %354, i32 7184
  store i32 %367, ptr %368, align 4, !tbaa !16
  br label %369

369:                                              ; preds = %362, %358
  store i32 0, ptr %1, align 4, !tbaa !17
  br label %394

370:                                              ; preds = %353
  %371 = getelementptr inbounds [400 x %struct.step], ptr %354, i32 0, i32 %356
  store i32 4, ptr %371, align 4, !tbaa !21
  %372 = getelementptr inbounds i8, ptr %371, i32 4
  store i32 0, ptr %372, align 4, !tbaa !23
  %373 = getelementptr inbounds i8, ptr %371, i32 12
  store i32 -1, ptr %373, align 4, !tbaa !24
  %374 = getelementptr inbounds i8, ptr %371, i32 8
  store i32 -1, ptr %374, align 4, !tbaa !25
  %375 = add nsw i32 %356, 1
  store i32 %375, ptr %355, align 4, !tbaa !20
  store i32 %356, ptr %1, align 4, !tbaa !17
  %376 = icmp eq i32 %375, 400
  br i1 %376, label %377, label %388

377:                                              ; preds = %370
  %378 = getelementptr inbounds i8, ptr %354, i32 7180
  %379 = load ptr, ptr %378, align 4, !tbaa !13
  %380 = icmp eq ptr %379, null
  br i1 %380, label %381, label %394

381:                                              ; preds = %377
  store ptr @.str.8, ptr %378, align 4, !tbaa !13
  %382 = getelementptr inbounds i8, ptr %0, i32 4
  %383 = load ptr, ptr %382, align 4, !tbaa !11
  %384 = ptrtoint ptr %5 to i32
  %385 = ptrtoint ptr %383 to i32
  %386 = sub i32 %384, %385
  %387 = getelementptr inbounds i8, ptr %354, i32 7184
  store i32 %386, ptr %387, align 4, !tbaa !16
  br label %394

388:                                              ; preds = %370
  %389 = getelementptr inbounds [400 x %struct.step], ptr %354, i32 0, i32 %375
  store i32 6, ptr %389, align 4, !tbaa !21
  %390 = getelementptr inbounds i8, ptr %389, i32 4
  store i32 0, ptr %390, align 4, !tbaa !23
  %391 = getelementptr inbounds i8, ptr %389, i32 12
  store i32 -1, ptr %391, align 4, !tbaa !24
  %392 = getelementptr inbounds i8, ptr %389, i32 8
  store i32 -1, ptr %392, align 4, !tbaa !25
  %393 = add nsw i32 %356, 2
  store i32 %393, ptr %355, align 4, !tbaa !20
  br label %394

394:                                              ; preds = %388, %381, %377, %369
  %395 = phi i32 [ %356, %388 ], [ 399, %377 ], [ 399, %381 ], [ 0, %369 ]
  %396 = phi i32 [ %375, %388 ], [ 0, %377 ], [ 0, %381 ], [ 0, %369 ]
  %397 = getelementptr inbounds i8, ptr %1, i32 4
  store i32 %396, ptr %397, align 4, !tbaa !26
  %398 = getelementptr inbounds [400 x %struct.step], ptr %354, i32 0, i32 %395, i32 2
  store i32 %396, ptr %398, align 4, !tbaa !25
  br label %522

399:                                              ; preds = %2, %2, %2
  store ptr %4, ptr %3, align 4, !tbaa !12
  %400 = load ptr, ptr %0, align 4, !tbaa !8
  %401 = getelementptr inbounds i8, ptr %400, i32 7180
  %402 = load ptr, ptr %401, align 4, !tbaa !13
  %403 = icmp eq ptr %402, null
  br i1 %403, label %404, label %522

404:                                              ; preds = %399
  store ptr @.str.3, ptr %401, align 4, !tbaa !13
  %405 = getelementptr inbounds i8, ptr %0, i32 4
  %406 = load ptr, ptr %405, align 4, !tbaa !11
  %407 = ptrtoint ptr %4 to i32
  %408 = ptrtoint ptr %406 to i32
  %409 = sub i32 %407, %408
  %410 = getelementptr inbounds i8, ptr %400, i32 7184
  store i32 %409, ptr %410, align 4, !tbaa !16
  br label %522

411:                                              ; preds = %2
  %412 = load i8, ptr %5, align 1, !tbaa !5
  %413 = icmp eq i8 %412, 0
  br i1 %413, label %414, label %426

414:                                              ; preds = %411
  %415 = load ptr, ptr %0, align 4, !tbaa !8
  %416 = getelementptr inbounds i8, ptr %415, i32 7180
  %417 = load ptr, ptr %416, align 4, !tbaa !13
  %418 = icmp eq ptr %417, null
  br i1 %418, label %419, label %522

419:                                              ; preds = %414
  store ptr @.str.4, ptr %416, align 4, !tbaa !13
  %420 = getelementptr inbounds i8, ptr %0, i32 4
  %421 = load ptr, ptr %420, align 4, !tbaa !11
  %422 = ptrtoint ptr %5 to i32
  %423 = ptrtoint ptr %421 to i32
  %424 = sub i32 %422, %423
  %425 = getelementptr inbounds i8, ptr %415, i32 7184
  store i32 %424, ptr %425, align 4, !tbaa !16
  br label %522

426:                                              ; preds = %411
  %427 = getelementptr inbounds i8, ptr %4, i32 2
  store ptr %427, ptr %3, align 4, !tbaa !12
  %428 = load ptr, ptr %0, align 4, !tbaa !8
  %429 = getelementptr inbounds i8, ptr %428, i32 6400
  %430 = load i32, ptr %429, align 4, !tbaa !20
  %431 = icmp eq i32 %430, 400
  br i1 %431, label %432, label %444

432:                                              ; preds = %426
  %433 = getelementptr inbounds i8, ptr %428, i32 7180
  %434 = load ptr, ptr %433, align 4, !tbaa !13
  %435 = icmp eq ptr %434, null
  br i1 %435, label %436, label %443

436:                                              ; preds = %432
  store ptr @.str.8, ptr %433, align 4, !tbaa !13
  %437 = getelementptr inbounds i8, ptr %0, i32 4
  %438 = load ptr, ptr %437, align 4, !tbaa !11
  %439 = ptrtoint ptr %427 to i32
  %440 = ptrtoint ptr %438 to i32
  %441 = sub i32 %439, %440
  %442 = getelementptr inbounds i8, ptr %428, i32 7184
  store i32 %441, ptr %442, align 4, !tbaa !16
  br label %443

443:                                              ; preds = %436, %432
  store i32 0, ptr %1, align 4, !tbaa !17
  br label %470

444:                                              ; preds = %426
  %445 = load i8, ptr %5, align 1, !tbaa !5
  %446 = zext i8 %445 to i32
  %447 = getelementptr inbounds [400 x %struct.step], ptr %428, i32 0, i32 %430
  store i32 0, ptr %447, align 4, !tbaa !21
  %448 = getelementptr inbounds i8, ptr %447, i32 4
  store i32 %446, ptr %448, align 4, !tbaa !23
  %449 = getelementptr inbounds i8, ptr %447, i32 12
  store i32 -1, ptr %449, align 4, !tbaa !24
  %450 = getelementptr inbounds i8, ptr %447, i32 8
  store i32 -1, ptr %450, align 4, !tbaa !25
  %451 = add nsw i32 %430, 1
  store i32 %451, ptr %429, align 4, !tbaa !20
  store i32 %430, ptr %1, align 4, !tbaa !17
  %452 = icmp eq i32 %451, 400
  br i1 %452, label %453, label %464

453:                                              ; preds = %444
  %454 = getelementptr inbounds i8, ptr %428, i32 7180
  %455 = load ptr, ptr %454, align 4, !tbaa !13
  %456 = icmp eq ptr %455, null
  br i1 %456, label %457, label %470

457:                                              ; preds = %453
  store ptr @.str.8, ptr %454, align 4, !tbaa !13
  %458 = getelementptr inbounds i8, ptr %0, i32 4
  %459 = load ptr, ptr %458, align 4, !tbaa !11
  %460 = ptrtoint ptr %427 to i32
  %461 = ptrtoint ptr %459 to i32
  %462 = sub i32 %460, %461
  %463 = getelementptr inbounds i8, ptr %428, i32 7184
  store i32 %462, ptr %463, align 4, !tbaa !16
  br label %470

464:                                              ; preds = %444
  %465 = getelementptr inbounds [400 x %struct.step], ptr %428, i32 0, i32 %451
  store i32 6, ptr %465, align 4, !tbaa !21
  %466 = getelementptr inbounds i8, ptr %465, i32 4
  store i32 0, ptr %466, align 4, !tbaa !23
  %467 = getelementptr inbounds i8, ptr %465, i32 12
  store i32 -1, ptr %467, align 4, !tbaa !24
  %468 = getelementptr inbounds i8, ptr %465, i32 8
  store i32 -1, ptr %468, align 4, !tbaa !25
  %469 = add nsw i32 %430, 2
  store i32 %469, ptr %429, align 4, !tbaa !20
  br label %470

470:                                              ; preds = %464, %457, %453, %443
  %471 = phi i32 [ %430, %464 ], [ 399, %453 ], [ 399, %457 ], [ 0, %443 ]
  %472 = phi i32 [ %451, %464 ], [ 0, %453 ], [ 0, %457 ], [ 0, %443 ]
  %473 = getelementptr inbounds i8, ptr %1, i32 4
  store i32 %472, ptr %473, align 4, !tbaa !26
  %474 = getelementptr inbounds [400 x %struct.step], ptr %428, i32 0, i32 %471, i32 2
  store i32 %472, ptr %474, align 4, !tbaa !25
  br label %522

475:                                              ; preds = %2
  %476 = load ptr, ptr %0, align 4, !tbaa !8
  %477 = getelementptr inbounds i8, ptr %476, i32 6400
  %478 = load i32, ptr %477, align 4, !tbaa !20
  %479 = icmp eq i32 %478, 400
  br i1 %479, label %480, label %492

480:                                              ; preds = %475
  %481 = getelementptr inbounds i8, ptr %476, i32 7180
  %482 = load ptr, ptr %481, align 4, !tbaa !13
  %483 = icmp eq ptr %482, null
  br i1 %483, label %484, label %491

484:                                              ; preds = %480
  store ptr @.str.8, ptr %481, align 4, !tbaa !13
  %485 = getelementptr inbounds i8, ptr %0, i32 4
  %486 = load ptr, ptr %485, align 4, !tbaa !11
  %487 = ptrtoint ptr %5 to i32
  %488 = ptrtoint ptr %486 to i32
  %489 = sub i32 %487, %488
  %490 = getelementptr inbounds i8, ptr %476, i32 7184
  store i32 %489, ptr %490, align 4, !tbaa !16
  br label %491

491:                                              ; preds = %484, %480
  store i32 0, ptr %1, align 4, !tbaa !17
  br label %517

492:                                              ; preds = %475
  %493 = zext i8 %6 to i32
  %494 = getelementptr inbounds [400 x %struct.step], ptr %476, i32 0, i32 %478
  store i32 0, ptr %494, align 4, !tbaa !21
  %495 = getelementptr inbounds i8, ptr %494, i32 4
  store i32 %493, ptr %495, align 4, !tbaa !23
  %496 = getelementptr inbounds i8, ptr %494, i32 12
  store i32 -1, ptr %496, align 4, !tbaa !24
  %497 = getelementptr inbounds i8, ptr %494, i32 8
  store i32 -1, ptr %497, align 4, !tbaa !25
  %498 = add nsw i32 %478, 1
  store i32 %498, ptr %477, align 4, !tbaa !20
  store i32 %478, ptr %1, align 4, !tbaa !17
  %499 = icmp eq i32 %498, 400
  br i1 %499, label %500, label %511

500:                                              ; preds = %492
  %501 = getelementptr inbounds i8, ptr %476, i32 7180
  %502 = load ptr, ptr %501, align 4, !tbaa !13
  %503 = icmp eq ptr %502, null
  br i1 %503, label %504, label %517

504:                                              ; preds = %500
  store ptr @.str.8, ptr %501, align 4, !tbaa !13
  %505 = getelementptr inbounds i8, ptr %0, i32 4
  %506 = load ptr, ptr %505, align 4, !tbaa !11
  %507 = ptrtoint ptr %5 to i32
  %508 = ptrtoint ptr %506 to i32
  %509 = sub i32 %507, %508
  %510 = getelementptr inbounds i8, ptr %476, i32 7184
  store i32 %509, ptr %510, align 4, !tbaa !16
  br label %517

511:                                              ; preds = %492
  %512 = getelementptr inbounds [400 x %struct.step], ptr %476, i32 0, i32 %498
  store i32 6, ptr %512, align 4, !tbaa !21
  %513 = getelementptr inbounds i8, ptr %512, i32 4
  store i32 0, ptr %513, align 4, !tbaa !23
  %514 = getelementptr inbounds i8, ptr %512, i32 12
  store i32 -1, ptr %514, align 4, !tbaa !24
  %515 = getelementptr inbounds i8, ptr %512, i32 8
  store i32 -1, ptr %515, align 4, !tbaa !25
  %516 = add nsw i32 %478, 2
  store i32 %516, ptr %477, align 4, !tbaa !20
  br label %517

517:                                              ; preds = %511, %504, %500, %491
  %518 = phi i32 [ %478, %511 ], [ 399, %500 ], [ 399, %504 ], [ 0, %491 ]
  %519 = phi i32 [ %498, %511 ], [ 0, %500 ], [ 0, %504 ], [ 0, %491 ]
  %520 = getelementptr inbounds i8, ptr %1, i32 4
  store i32 %519, ptr %520, align 4, !tbaa !26
  %521 = getelementptr inbounds [400 x %struct.step], ptr %476, i32 0, i32 %518, i32 2
  store i32 %519, ptr %521, align 4, !tbaa !25
  br label %522

522:                                              ; preds = %517, %470, %419, %414, %404, %399, %394, %348, %302, %256, %109, %104, %76, %71, %35, %31, %23, %16, %11
  %523 = phi ptr [ %415, %419 ], [ %415, %414 ], [ %400, %404 ], [ %400, %399 ], [ %214, %256 ], [ %105, %109 ], [ %105, %104 ], [ %72, %76 ], [ %72, %71 ], [ %27, %35 ], [ %27, %31 ], [ %12, %16 ], [ %12, %11 ], [ %25, %23 ], [ %262, %302 ], [ %308, %348 ], [ %354, %394 ], [ %428, %470 ], [ %476, %517 ]
  %524 = getelementptr inbounds i8, ptr %523, i32 7180
  %525 = load ptr, ptr %524, align 4, !tbaa !13
  %526 = icmp eq ptr %525, null
  br i1 %526, label %527, label %583

527:                                              ; preds = %522
  %528 = getelementptr inbounds i8, ptr %523, i32 6400
  %529 = getelementptr inbounds i8, ptr %0, i32 4
  %530 = getelementptr inbounds i8, ptr %523, i32 7184
  %531 = getelementptr inbounds i8, ptr %1, i32 4
  %532 = load ptr, ptr %3, align 4, !tbaa !12
  br label %533

533:                                              ; preds = %569, %527
  %534 = phi ptr [ %532, %527 ], [ %542, %569 ]
  %535 = load i8, ptr %534, align 1, !tbaa !5
  %536 = icmp eq i8 %535, 0
  br i1 %536, label %583, label %537

537:                                              ; preds = %533
  %538 = zext i8 %535 to i32
  %539 = tail call ptr @memchr(ptr noundef nonnull dereferenceable(1) @.str.1, i32 %538, i32 4)
  %540 = icmp eq ptr %539, null
  br i1 %540, label %583, label %541

541:                                              ; preds = %537
  %542 = getelementptr inbounds i8, ptr %534, i32 1
  store ptr %542, ptr %3, align 4, !tbaa !12
  %543 = load i8, ptr %534, align 1, !tbaa !5
  %544 = load i32, ptr %528, align 4, !tbaa !20
  %545 = icmp eq i32 %544, 400
  br i1 %545, label %546, label %551

546:                                              ; preds = %541
  store ptr @.str.8, ptr %524, align 4, !tbaa !13
  %547 = load ptr, ptr %529, align 4, !tbaa !11
  %548 = ptrtoint ptr %542 to i32
  %549 = ptrtoint ptr %547 to i32
  %550 = sub i32 %548, %549
  store i32 %550, ptr %530, align 4, !tbaa !16
  br label %569

551:                                              ; preds = %541
  %552 = getelementptr inbounds [400 x %struct.step], ptr %523, i32 0, i32 %544
  store i32 5, ptr %552, align 4, !tbaa !21
  %553 = getelementptr inbounds i8, ptr %552, i32 4
  store i32 0, ptr %553, align 4, !tbaa !23
  %554 = getelementptr inbounds i8, ptr %552, i32 12
  store i32 -1, ptr %554, align 4, !tbaa !24
  %555 = getelementptr inbounds i8, ptr %552, i32 8
  store i32 -1, ptr %555, align 4, !tbaa !25
  %556 = add nsw i32 %544, 1
  store i32 %556, ptr %528, align 4, !tbaa !20
  %557 = icmp eq i32 %556, 400
  br i1 %557, label %558, label %563

558:                                              ; preds = %551
  store ptr @.str.8, ptr %524, align 4, !tbaa !13
  %559 = load ptr, ptr %529, align 4, !tbaa !11
  %560 = ptrtoint ptr %542 to i32
  %561 = ptrtoint ptr %559 to i32
  %562 = sub i32 %560, %561
  store i32 %562, ptr %530, align 4, !tbaa !16
  br label %569

563:                                              ; preds = %551
  %564 = getelementptr inbounds [400 x %struct.step], ptr %523, i32 0, i32 %556
  store i32 6, ptr %564, align 4, !tbaa !21
  %565 = getelementptr inbounds i8, ptr %564, i32 4
  store i32 0, ptr %565, align 4, !tbaa !23
  %566 = getelementptr inbounds i8, ptr %564, i32 12
  store i32 -1, ptr %566, align 4, !tbaa !24
  %567 = getelementptr inbounds i8, ptr %564, i32 8
  store i32 -1, ptr %567, align 4, !tbaa !25
  %568 = add nsw i32 %544, 2
  store i32 %568, ptr %528, align 4, !tbaa !20
  br label %569

569:                                              ; preds = %563, %558, %546
  %570 = phi i32 [ %544, %563 ], [ 399, %558 ], [ 0, %546 ]
  %571 = phi i1 [ true, %563 ], [ false, %558 ], [ false, %546 ]
  %572 = phi i32 [ %556, %563 ], [ 0, %558 ], [ 0, %546 ]
  %573 = load i32, ptr %1, align 4, !tbaa !17
  %574 = getelementptr inbounds %struct.step, ptr %523, i32 %570
  %575 = getelementptr inbounds i8, ptr %574, i32 8
  store i32 %573, ptr %575, align 4, !tbaa !25
  %576 = getelementptr inbounds i8, ptr %574, i32 12
  store i32 %572, ptr %576, align 4, !tbaa !24
  %577 = icmp eq i8 %543, 63
  %578 = select i1 %577, i32 %572, i32 %570
  %579 = load i32, ptr %531, align 4, !tbaa !26
  %580 = getelementptr inbounds %struct.step, ptr %523, i32 %579, i32 2
  store i32 %578, ptr %580, align 4, !tbaa !25
  %581 = icmp eq i8 %543, 43
  %582 = select i1 %581, i32 %573, i32 %570
  store i32 %582, ptr %1, align 4, !tbaa !17
  store i32 %572, ptr %531, align 4, !tbaa !26
  br i1 %571, label %533, label %583, !llvm.loop !78

583:                                              ; preds = %569, %537, %533, %522
  ret void
}

; Function Attrs: nofree norecurse nosync nounwind optsize memory(read, inaccessiblemem: none)
define internal noundef ptr @memchr(ptr noundef readonly %0, i32 noundef %1, i32 noundef %2) local_unnamed_addr #3 {
  %4 = icmp eq i32 %2, 0
  br i1 %4, label %16, label %5

5:                                                ; preds = %3
  %6 = trunc i32 %1 to i8
  br label %7

7:                                                ; preds = %12, %5
  %8 = phi ptr [ %0, %5 ], [ %14, %12 ]
  %9 = phi i32 [ %2, %5 ], [ %13, %12 ]
  %10 = load i8, ptr %8, align 1, !tbaa !5
  %11 = icmp eq i8 %10, %6
  br i1 %11, label %16, label %12

12:                                               ; preds = %7
  %13 = add i32 %9, -1
  %14 = getelementptr inbounds i8, ptr %8, i32 1
  %15 = icmp eq i32 %13, 0
  br i1 %15, label %16, label %7, !llvm.loop !79

16:                                               ; preds = %12, %7, %3
  %17 = phi ptr [ null, %3 ], [ null, %12 ], [ %8, %7 ]
  ret ptr %17
}

; Function Attrs: nounwind optsize
define internal fastcc i32 @padded(ptr nocapture noundef %0, ptr nocapture noundef readonly %1, i32 noundef %2, i32 noundef %3, i32 noundef %4) unnamed_addr #2 {
  %6 = icmp slt i32 %4, 0
  %7 = lshr i32 %4, 31
  %8 = icmp ne i32 %7, 0
  %9 = sub i32 0, %4
  %10 = select i1 %8, i32 %9, i32 %4
  %11 = sub nsw i32 %10, %2
  %12 = and i32 %3, 1
  %13 = icmp ne i32 %12, 0
  %14 = or i1 %6, %13
  br i1 %14, label %24, label %15

15:                                               ; preds = %5
  %16 = icmp sgt i32 %11, 0
  br i1 %16, label %17, label %22

17:                                               ; preds = %17, %15
  %18 = phi i32 [ %20, %17 ], [ 0, %15 ]
  %19 = tail call i32 @fputc(i32 noundef 32, ptr noundef %0) #11
  %20 = add nuw nsw i32 %18, 1
  %21 = icmp eq i32 %20, %11
  br i1 %21, label %22, label %17, !llvm.loop !64

22:                                               ; preds = %17, %15
  %23 = tail call noundef i32 @llvm.smax.i32(i32 %11, i32 0)
  br label %24

24:                                               ; preds = %22, %5
  %25 = phi i32 [ %23, %22 ], [ 0, %5 ]
  %26 = load i8, ptr %0, align 4, !tbaa !36, !alias.scope !80, !noalias !83
  %27 = icmp eq i8 %26, 0
  %28 = icmp eq i32 %2, 0
  %29 = or i1 %28, %27
  br i1 %29, label %38, label %30

30:                                               ; preds = %30, %24
  %31 = phi i32 [ %36, %30 ], [ 0, %24 ]
  %32 = getelementptr inbounds i8, ptr %1, i32 %31
  %33 = load i8, ptr %32, align 1, !tbaa !5, !alias.scope !83, !noalias !80
  %34 = zext i8 %33 to i32
  %35 = tail call i32 @fputc(i32 noundef %34, ptr noundef nonnull %0) #11, !noalias !83
  %36 = add nuw i32 %31, 1
  %37 = icmp eq i32 %36, %2
  br i1 %37, label %38, label %30, !llvm.loop !43

38:                                               ; preds = %30, %24
  br i1 %14, label %39, label %48

39:                                               ; preds = %38
  %40 = icmp sgt i32 %11, 0
  br i1 %40, label %41, label %46

41:                                               ; preds = %41, %39
  %42 = phi i32 [ %44, %41 ], [ 0, %39 ]
  %43 = tail call i32 @fputc(i32 noundef 32, ptr noundef nonnull %0) #11
  %44 = add nuw nsw i32 %42, 1
  %45 = icmp eq i32 %44, %11
  br i1 %45, label %46, label %41, !llvm.loop !64

46:                                               ; preds = %41, %39
  %47 = tail call noundef i32 @llvm.smax.i32(i32 %11, i32 0)
  br label %48

48:                                               ; preds = %46, %38
  %49 = phi i32 [ %47, %46 ], [ 0, %38 ]
  %50 = add nsw i32 %25, %2
  %51 = add nsw i32 %50, %49
  ret i32 %51
}

; Function Attrs: nofree norecurse nosync nounwind optsize memory(read, inaccessiblemem: none)
define internal fastcc i32 @span(ptr nocapture noundef readonly %0, ptr nocapture noundef readonly %1, i32 noundef %2) unnamed_addr #3 {
  %4 = alloca [256 x i8], align 1
  call void @llvm.lifetime.start.p0(i64 256, ptr nonnull %4) #10
  br label %5

5:                                                ; preds = %5, %3
  %6 = phi ptr [ %4, %3 ], [ %9, %5 ]
  %7 = phi i32 [ 256, %3 ], [ %8, %5 ]
  %8 = add nsw i32 %7, -1
  %9 = getelementptr inbounds i8, ptr %6, i32 1
  store i8 0, ptr %6, align 1, !tbaa !5
  %10 = icmp eq i32 %8, 0
  br i1 %10, label %11, label %5, !llvm.loop !85

11:                                               ; preds = %5
  %12 = load i8, ptr %1, align 1, !tbaa !5
  %13 = icmp eq i8 %12, 0
  br i1 %13, label %14, label %17

14:                                               ; preds = %17, %11
  %15 = load i8, ptr %0, align 1, !tbaa !5
  %16 = icmp eq i8 %15, 0
  br i1 %16, label %38, label %25

17:                                               ; preds = %17, %11
  %18 = phi i8 [ %23, %17 ], [ %12, %11 ]
  %19 = phi ptr [ %20, %17 ], [ %1, %11 ]
  %20 = getelementptr inbounds i8, ptr %19, i32 1
  %21 = zext i8 %18 to i32
  %22 = getelementptr inbounds [256 x i8], ptr %4, i32 0, i32 %21
  store i8 1, ptr %22, align 1, !tbaa !5
  %23 = load i8, ptr %20, align 1, !tbaa !5
  %24 = icmp eq i8 %23, 0
  br i1 %24, label %14, label %17, !llvm.loop !86

25:                                               ; preds = %33, %14
  %26 = phi i8 [ %36, %33 ], [ %15, %14 ]
  %27 = phi i32 [ %34, %33 ], [ 0, %14 ]
  %28 = zext i8 %26 to i32
  %29 = getelementptr inbounds [256 x i8], ptr %4, i32 0, i32 %28
  %30 = load i8, ptr %29, align 1, !tbaa !5
  %31 = zext i8 %30 to i32
  %32 = icmp eq i32 %31, %2
  br i1 %32, label %33, label %38

33:                                               ; preds = %25
  %34 = add i32 %27, 1
  %35 = getelementptr inbounds i8, ptr %0, i32 %34
  %36 = load i8, ptr %35, align 1, !tbaa !5
  %37 = icmp eq i8 %36, 0
  br i1 %37, label %38, label %25, !llvm.loop !87

38:                                               ; preds = %33, %25, %14
  %39 = phi i32 [ 0, %14 ], [ %34, %33 ], [ %27, %25 ]
  call void @llvm.lifetime.end.p0(i64 256, ptr nonnull %4) #10
  ret i32 %39
}

; Function Attrs: nounwind optsize
define internal i32 @fgetc(ptr nocapture noundef %0) local_unnamed_addr #2 {
  %2 = load i8, ptr %0, align 4, !tbaa !36
  %3 = icmp eq i8 %2, 0
  br i1 %3, label %4, label %20

4:                                                ; preds = %1
  %5 = getelementptr inbounds i8, ptr %0, i32 2
  %6 = load i8, ptr %5, align 2, !tbaa !88
  %7 = icmp eq i8 %6, 0
  br i1 %7, label %12, label %8

8:                                                ; preds = %4
  store i8 0, ptr %5, align 2, !tbaa !88
  %9 = getelementptr inbounds i8, ptr %0, i32 3
  %10 = load i8, ptr %9, align 1, !tbaa !89
  %11 = zext i8 %10 to i32
  br label %20

12:                                               ; preds = %4
  %13 = getelementptr inbounds i8, ptr %0, i32 1
  %14 = load i8, ptr %13, align 1, !tbaa !90
  %15 = icmp eq i8 %14, 0
  br i1 %15, label %16, label %20

16:                                               ; preds = %12
  %17 = tail call i32 @getchar() #12
  %18 = icmp eq i32 %17, -1
  br i1 %18, label %19, label %20

19:                                               ; preds = %16
  store i8 1, ptr %13, align 1, !tbaa !90
  br label %20

20:                                               ; preds = %19, %16, %12, %8, %1
  %21 = phi i32 [ %11, %8 ], [ -1, %1 ], [ -1, %12 ], [ -1, %19 ], [ %17, %16 ]
  ret i32 %21
}

; Function Attrs: optsize
declare dso_local i32 @getchar() local_unnamed_addr #9

attributes #0 = { nounwind "no-trapping-math"="true" "stack-protector-buffer-size"="8" "target-cpu"="generic" "target-features"="+armv7-a,+dsp,+soft-float,-aes,-bf16,-d32,-dotprod,-fp-armv8,-fp-armv8d16,-fp-armv8d16sp,-fp-armv8sp,-fp16,-fp16fml,-fp64,-fpregs,-fullfp16,-mve,-mve.fp,-neon,-sha2,-thumb-mode,-vfp2,-vfp2sp,-vfp3,-vfp3d16,-vfp3d16sp,-vfp3sp,-vfp4,-vfp4d16,-vfp4d16sp,-vfp4sp" "use-soft-float"="true" }
attributes #1 = { nocallback nofree nosync nounwind willreturn memory(argmem: readwrite) }
attributes #2 = { nounwind optsize "no-builtins" "no-jump-tables"="true" "no-trapping-math"="true" "stack-protector-buffer-size"="8" "target-cpu"="generic" "target-features"="+armv7-a,+dsp,+soft-float,-aes,-bf16,-d32,-dotprod,-fp-armv8,-fp-armv8d16,-fp-armv8d16sp,-fp-armv8sp,-fp16,-fp16fml,-fp64,-fpregs,-fullfp16,-mve,-mve.fp,-neon,-sha2,-thumb-mode,-vfp2,-vfp2sp,-vfp3,-vfp3d16,-vfp3d16sp,-vfp3sp,-vfp4,-vfp4d16,-vfp4d16sp,-vfp4sp" "use-soft-float"="true" }
attributes #3 = { nofree norecurse nosync nounwind optsize memory(read, inaccessiblemem: none) "no-builtins" "no-jump-tables"="true" "no-trapping-math"="true" "stack-protector-buffer-size"="8" "target-cpu"="generic" "target-features"="+armv7-a,+dsp,+soft-float,-aes,-bf16,-d32,-dotprod,-fp-armv8,-fp-armv8d16,-fp-armv8d16sp,-fp-armv8sp,-fp16,-fp16fml,-fp64,-fpregs,-fullfp16,-mve,-mve.fp,-neon,-sha2,-thumb-mode,-vfp2,-vfp2sp,-vfp3,-vfp3d16,-vfp3d16sp,-vfp3sp,-vfp4,-vfp4d16,-vfp4d16sp,-vfp4sp" "use-soft-float"="true" }
attributes #4 = { nocallback nofree nounwind willreturn memory(argmem: write) }
attributes #5 = { nofree nounwind memory(readwrite, inaccessiblemem: none) "no-trapping-math"="true" "stack-protector-buffer-size"="8" "target-cpu"="generic" "target-features"="+armv7-a,+dsp,+soft-float,-aes,-bf16,-d32,-dotprod,-fp-armv8,-fp-armv8d16,-fp-armv8d16sp,-fp-armv8sp,-fp16,-fp16fml,-fp64,-fpregs,-fullfp16,-mve,-mve.fp,-neon,-sha2,-thumb-mode,-vfp2,-vfp2sp,-vfp3,-vfp3d16,-vfp3d16sp,-vfp3sp,-vfp4,-vfp4d16,-vfp4d16sp,-vfp4sp" "use-soft-float"="true" }
attributes #6 = { nofree nosync nounwind memory(readwrite, inaccessiblemem: none) "no-trapping-math"="true" "stack-protector-buffer-size"="8" "target-cpu"="generic" "target-features"="+armv7-a,+dsp,+soft-float,-aes,-bf16,-d32,-dotprod,-fp-armv8,-fp-armv8d16,-fp-armv8d16sp,-fp-armv8sp,-fp16,-fp16fml,-fp64,-fpregs,-fullfp16,-mve,-mve.fp,-neon,-sha2,-thumb-mode,-vfp2,-vfp2sp,-vfp3,-vfp3d16,-vfp3d16sp,-vfp3sp,-vfp4,-vfp4d16,-vfp4d16sp,-vfp4sp" "use-soft-float"="true" }
attributes #7 = { nofree norecurse nosync nounwind optsize "no-builtins" "no-jump-tables"="true" "no-trapping-math"="true" "stack-protector-buffer-size"="8" "target-cpu"="generic" "target-features"="+armv7-a,+dsp,+soft-float,-aes,-bf16,-d32,-dotprod,-fp-armv8,-fp-armv8d16,-fp-armv8d16sp,-fp-armv8sp,-fp16,-fp16fml,-fp64,-fpregs,-fullfp16,-mve,-mve.fp,-neon,-sha2,-thumb-mode,-vfp2,-vfp2sp,-vfp3,-vfp3d16,-vfp3d16sp,-vfp3sp,-vfp4,-vfp4d16,-vfp4d16sp,-vfp4sp" "use-soft-float"="true" }
attributes #8 = { nocallback nofree nosync nounwind speculatable willreturn memory(none) }
attributes #9 = { optsize "no-builtins" "no-trapping-math"="true" "stack-protector-buffer-size"="8" "target-cpu"="generic" "target-features"="+armv7-a,+dsp,+soft-float,-aes,-bf16,-d32,-dotprod,-fp-armv8,-fp-armv8d16,-fp-armv8d16sp,-fp-armv8sp,-fp16,-fp16fml,-fp64,-fpregs,-fullfp16,-mve,-mve.fp,-neon,-sha2,-thumb-mode,-vfp2,-vfp2sp,-vfp3,-vfp3d16,-vfp3d16sp,-vfp3sp,-vfp4,-vfp4d16,-vfp4d16sp,-vfp4sp" "use-soft-float"="true" }
attributes #10 = { nounwind }
attributes #11 = { nobuiltin optsize "no-builtins" }
attributes #12 = { nobuiltin nounwind optsize "no-builtins" }

!llvm.ident = !{!0, !0, !0, !0, !0}
!llvm.module.flags = !{!1, !2, !3, !4}

!0 = !{!"Debian clang version 19.1.7 (3~deb12u1)"}
!1 = !{i32 7, !"Dwarf Version", i32 5}
!2 = !{i32 2, !"Debug Info Version", i32 3}
!3 = !{i32 1, !"wchar_size", i32 4}
!4 = !{i32 1, !"min_enum_size", i32 4}
!5 = !{!6, !6, i64 0}
!6 = !{!"omnipotent char", !7, i64 0}
!7 = !{!"Simple C/C++ TBAA"}
!8 = !{!9, !10, i64 0}
!9 = !{!"reader", !10, i64 0, !10, i64 4, !10, i64 8}
!10 = !{!"any pointer", !6, i64 0}
!11 = !{!9, !10, i64 4}
!12 = !{!9, !10, i64 8}
!13 = !{!14, !10, i64 7180}
!14 = !{!"regex", !6, i64 0, !15, i64 6400, !15, i64 6404, !6, i64 6408, !15, i64 7176, !10, i64 7180, !15, i64 7184}
!15 = !{!"int", !6, i64 0}
!16 = !{!14, !15, i64 7184}
!17 = !{!18, !15, i64 0}
!18 = !{!"part", !15, i64 0, !15, i64 4}
!19 = !{!14, !15, i64 6404}
!20 = !{!14, !15, i64 6400}
!21 = !{!22, !15, i64 0}
!22 = !{!"step", !15, i64 0, !15, i64 4, !15, i64 8, !15, i64 12}
!23 = !{!22, !15, i64 4}
!24 = !{!22, !15, i64 12}
!25 = !{!22, !15, i64 8}
!26 = !{!18, !15, i64 4}
!27 = !{!14, !15, i64 7176}
!28 = !{!29, !15, i64 2004}
!29 = !{!"states", !6, i64 0, !6, i64 1600, !15, i64 2000, !15, i64 2004}
!30 = !{!29, !15, i64 2000}
!31 = !{!15, !15, i64 0}
!32 = distinct !{!32, !33}
!33 = !{!"llvm.loop.mustprogress"}
!34 = distinct !{!34, !33}
!35 = distinct !{!35, !33}
!36 = !{!37, !6, i64 0}
!37 = !{!"__stream", !6, i64 0, !6, i64 1, !6, i64 2, !6, i64 3, !10, i64 4, !15, i64 8}
!38 = !{!39}
!39 = distinct !{!39, !40, !"fwrite: %stream"}
!40 = distinct !{!40, !"fwrite"}
!41 = !{!42}
!42 = distinct !{!42, !40, !"fwrite: %from"}
!43 = distinct !{!43, !33}
!44 = distinct !{!44, !33}
!45 = distinct !{!45, !33}
!46 = distinct !{!46, !33}
!47 = distinct !{!47, !33}
!48 = distinct !{!48, !33}
!49 = distinct !{!49, !33}
!50 = distinct !{!50, !33}
!51 = distinct !{!51, !33}
!52 = !{!53}
!53 = distinct !{!53, !54, !"memcpy: %from"}
!54 = distinct !{!54, !"memcpy"}
!55 = !{!56}
!56 = distinct !{!56, !54, !"memcpy: %to"}
!57 = distinct !{!57, !33}
!58 = !{!59}
!59 = distinct !{!59, !60, !"stpcpy: %from"}
!60 = distinct !{!60, !"stpcpy"}
!61 = !{!62}
!62 = distinct !{!62, !60, !"stpcpy: %to"}
!63 = distinct !{!63, !33}
!64 = distinct !{!64, !33}
!65 = !{!66}
!66 = distinct !{!66, !67, !"fwrite: %stream"}
!67 = distinct !{!67, !"fwrite"}
!68 = !{!69}
!69 = distinct !{!69, !67, !"fwrite: %from"}
!70 = !{!71}
!71 = distinct !{!71, !72, !"fwrite: %stream"}
!72 = distinct !{!72, !"fwrite"}
!73 = !{!74}
!74 = distinct !{!74, !72, !"fwrite: %from"}
!75 = !{!37, !15, i64 8}
!76 = !{!37, !10, i64 4}
!77 = distinct !{!77, !33}
!78 = distinct !{!78, !33}
!79 = distinct !{!79, !33}
!80 = !{!81}
!81 = distinct !{!81, !82, !"fwrite: %stream"}
!82 = distinct !{!82, !"fwrite"}
!83 = !{!84}
!84 = distinct !{!84, !82, !"fwrite: %from"}
!85 = distinct !{!85, !33}
!86 = distinct !{!86, !33}
!87 = distinct !{!87, !33}
!88 = !{!37, !6, i64 2}
!89 = !{!37, !6, i64 3}
!90 = !{!37, !6, i64 1}
