source_filename = "bignum.c"
target datalayout = "e-m:e-p270:32:32-p271:32:32-p272:64:64-i64:64-i128:128-f80:128-n8:16:32:64-S128"
target triple = "x86_64-unknown-linux-gnu"

%struct.number = type { i32, [120 x i32] }
%struct.__stream = type { i8, i8, i8, i8, ptr, i64 }

@main.line = internal global [1000 x i8] zeroinitializer, align 16
@.str = private unnamed_addr constant [19 x i8] c"not understood: %s\00", align 1
@answer.a = internal global %struct.number zeroinitializer, align 4
@answer.b = internal global %struct.number zeroinitializer, align 4
@answer.made = internal global %struct.number zeroinitializer, align 4
@.str.1 = private unnamed_addr constant [11 x i8] c"(left %u) \00", align 1
@.str.2 = private unnamed_addr constant [15 x i8] c"it->n < PIECES\00", align 1
@.str.3 = private unnamed_addr constant [34 x i8] c"examples/programs/bignum/bignum.c\00", align 1
@__func__.push = private unnamed_addr constant [5 x i8] c"push\00", align 1
@fibonacci.next = internal unnamed_addr global %struct.number zeroinitializer, align 4
@power.square = internal global %struct.number zeroinitializer, align 4
@power.made = internal global %struct.number zeroinitializer, align 4
@.str.4 = private unnamed_addr constant [15 x i8] c"i + k < PIECES\00", align 1
@__func__.multiply = private unnamed_addr constant [9 x i8] c"multiply\00", align 1
@show.text = internal global [1090 x i8] zeroinitializer, align 16
@.str.5 = private unnamed_addr constant [22 x i8] c"\0A  %d digits, sum %d\0A\00", align 1
@.str.9 = private unnamed_addr constant [1 x i8] zeroinitializer, align 1
@.str.1.10 = private unnamed_addr constant [7 x i8] c"(null)\00", align 1
@.str.2.15 = private unnamed_addr constant [2 x i8] c"-\00", align 1
@.str.3.16 = private unnamed_addr constant [2 x i8] c"+\00", align 1
@.str.4.14 = private unnamed_addr constant [2 x i8] c" \00", align 1
@.str.5.19 = private unnamed_addr constant [3 x i8] c"0X\00", align 1
@.str.6 = private unnamed_addr constant [3 x i8] c"0x\00", align 1
@memory = internal global %struct.__stream zeroinitializer, align 8
@__streams = internal global [3 x %struct.__stream] [%struct.__stream zeroinitializer, %struct.__stream { i8 1, i8 0, i8 0, i8 0, ptr null, i64 0 }, %struct.__stream { i8 2, i8 0, i8 0, i8 0, ptr null, i64 0 }], align 16
@.str.8 = private unnamed_addr constant [17 x i8] c"0123456789ABCDEF\00", align 1
@.str.9.13 = private unnamed_addr constant [17 x i8] c"0123456789abcdef\00", align 1

; Function Attrs: nounwind uwtable
define dso_local i32 @main() local_unnamed_addr #0 {
  %1 = alloca %struct.number, align 4
  %2 = tail call ptr @fgets(ptr noundef nonnull @main.line, i32 noundef 1000, ptr noundef nonnull @__streams)
  %3 = icmp eq ptr %2, null
  br i1 %3, label %334, label %4

4:                                                ; preds = %330, %0
  %5 = phi i32 [ %331, %330 ], [ 0, %0 ]
  %6 = tail call fastcc ptr @read_number(ptr noundef nonnull @answer.a, ptr noundef nonnull @main.line)
  br label %7

7:                                                ; preds = %10, %4
  %8 = phi ptr [ %6, %4 ], [ %11, %10 ]
  %9 = load i8, ptr %8, align 1, !tbaa !5
  switch i8 %9, label %12 [
    i8 32, label %10
    i8 0, label %15
  ]

10:                                               ; preds = %7
  %11 = getelementptr inbounds i8, ptr %8, i64 1
  br label %7, !llvm.loop !8

12:                                               ; preds = %7
  %13 = getelementptr inbounds i8, ptr %8, i64 1
  %14 = sext i8 %9 to i32
  br label %15

15:                                               ; preds = %12, %7
  %16 = phi ptr [ %13, %12 ], [ %8, %7 ]
  %17 = phi i32 [ %14, %12 ], [ 0, %7 ]
  %18 = tail call fastcc ptr @read_number(ptr noundef nonnull @answer.b, ptr noundef nonnull %16)
  %19 = load i32, ptr @answer.a, align 4, !tbaa !11
  %20 = icmp eq i32 %19, 0
  %21 = load i32, ptr getelementptr inbounds (i8, ptr @answer.a, i64 4), align 4
  %22 = select i1 %20, i32 0, i32 %21
  %23 = load i32, ptr @answer.b, align 4, !tbaa !11
  %24 = icmp eq i32 %23, 0
  %25 = load i32, ptr getelementptr inbounds (i8, ptr @answer.b, i64 4), align 4
  %26 = select i1 %24, i32 0, i32 %25
  switch i32 %17, label %327 [
    i32 33, label %27
    i32 102, label %92
    i32 94, label %155
    i32 42, label %178
    i32 43, label %179
    i32 47, label %215
  ]

27:                                               ; preds = %15
  store i32 2, ptr @answer.made, align 4, !tbaa !11
  store i32 1, ptr getelementptr inbounds (i8, ptr @answer.made, i64 4), align 4, !tbaa !14
  store i32 0, ptr getelementptr inbounds (i8, ptr @answer.made, i64 8), align 4, !tbaa !14
  br label %28

28:                                               ; preds = %34, %27
  %29 = phi i64 [ 2, %27 ], [ %30, %34 ]
  %30 = add nsw i64 %29, -1
  %31 = getelementptr inbounds [120 x i32], ptr getelementptr inbounds (i8, ptr @answer.made, i64 4), i64 0, i64 %30
  %32 = load i32, ptr %31, align 4, !tbaa !14
  %33 = icmp eq i32 %32, 0
  br i1 %33, label %34, label %37

34:                                               ; preds = %28
  %35 = trunc nuw nsw i64 %30 to i32
  store i32 %35, ptr @answer.made, align 4, !tbaa !11
  %36 = icmp ugt i64 %29, 1
  br i1 %36, label %28, label %37, !llvm.loop !15

37:                                               ; preds = %34, %28
  %38 = icmp ult i32 %22, 2
  br i1 %38, label %253, label %39

39:                                               ; preds = %89, %37
  %40 = phi i32 [ %90, %89 ], [ 2, %37 ]
  %41 = load i32, ptr @answer.made, align 4, !tbaa !11
  %42 = icmp sgt i32 %41, 0
  br i1 %42, label %43, label %46

43:                                               ; preds = %39
  %44 = zext i32 %40 to i64
  %45 = zext nneg i32 %41 to i64
  br label %49

46:                                               ; preds = %49, %39
  %47 = phi i64 [ 0, %39 ], [ %59, %49 ]
  %48 = icmp eq i64 %47, 0
  br i1 %48, label %75, label %62

49:                                               ; preds = %49, %43
  %50 = phi i64 [ 0, %43 ], [ %60, %49 ]
  %51 = phi i64 [ 0, %43 ], [ %59, %49 ]
  %52 = getelementptr inbounds [120 x i32], ptr getelementptr inbounds (i8, ptr @answer.made, i64 4), i64 0, i64 %50
  %53 = load i32, ptr %52, align 4, !tbaa !14
  %54 = zext i32 %53 to i64
  %55 = mul nuw i64 %54, %44
  %56 = add i64 %55, %51
  %57 = urem i64 %56, 1000000000
  %58 = trunc nuw nsw i64 %57 to i32
  store i32 %58, ptr %52, align 4, !tbaa !14
  %59 = udiv i64 %56, 1000000000
  %60 = add nuw nsw i64 %50, 1
  %61 = icmp eq i64 %60, %45
  br i1 %61, label %46, label %49, !llvm.loop !16

62:                                               ; preds = %67, %46
  %63 = phi i64 [ %73, %67 ], [ %47, %46 ]
  %64 = load i32, ptr @answer.made, align 4, !tbaa !11
  %65 = icmp slt i32 %64, 120
  br i1 %65, label %67, label %66

66:                                               ; preds = %62
  tail call void @__assert_fail(ptr noundef nonnull @.str.2, ptr noundef nonnull @.str.3, i32 noundef 32, ptr noundef nonnull @__func__.push) #13
  unreachable

67:                                               ; preds = %62
  %68 = urem i64 %63, 1000000000
  %69 = trunc nuw nsw i64 %68 to i32
  %70 = add nsw i32 %64, 1
  store i32 %70, ptr @answer.made, align 4, !tbaa !11
  %71 = sext i32 %64 to i64
  %72 = getelementptr inbounds [120 x i32], ptr getelementptr inbounds (i8, ptr @answer.made, i64 4), i64 0, i64 %71
  store i32 %69, ptr %72, align 4, !tbaa !14
  %73 = udiv i64 %63, 1000000000
  %74 = icmp ult i64 %63, 1000000000
  br i1 %74, label %75, label %62, !llvm.loop !17

75:                                               ; preds = %67, %46
  %76 = load i32, ptr @answer.made, align 4, !tbaa !11
  %77 = icmp sgt i32 %76, 0
  br i1 %77, label %78, label %89

78:                                               ; preds = %75
  %79 = zext nneg i32 %76 to i64
  br label %80

80:                                               ; preds = %86, %78
  %81 = phi i64 [ %79, %78 ], [ %82, %86 ]
  %82 = add nsw i64 %81, -1
  %83 = getelementptr inbounds [120 x i32], ptr getelementptr inbounds (i8, ptr @answer.made, i64 4), i64 0, i64 %82
  %84 = load i32, ptr %83, align 4, !tbaa !14
  %85 = icmp eq i32 %84, 0
  br i1 %85, label %86, label %89

86:                                               ; preds = %80
  %87 = trunc nuw nsw i64 %82 to i32
  store i32 %87, ptr @answer.made, align 4, !tbaa !11
  %88 = icmp sgt i64 %81, 1
  br i1 %88, label %80, label %89, !llvm.loop !18

89:                                               ; preds = %86, %80, %75
  %90 = add i32 %40, 1
  %91 = icmp ugt i32 %90, %22
  br i1 %91, label %253, label %39, !llvm.loop !19

92:                                               ; preds = %15
  store i32 2, ptr @answer.made, align 4, !tbaa !11
  store i32 0, ptr getelementptr inbounds (i8, ptr @answer.made, i64 4), align 4, !tbaa !14
  store i32 0, ptr getelementptr inbounds (i8, ptr @answer.made, i64 8), align 4, !tbaa !14
  br label %93

93:                                               ; preds = %99, %92
  %94 = phi i64 [ 2, %92 ], [ %95, %99 ]
  %95 = add nsw i64 %94, -1
  %96 = getelementptr inbounds [120 x i32], ptr getelementptr inbounds (i8, ptr @answer.made, i64 4), i64 0, i64 %95
  %97 = load i32, ptr %96, align 4, !tbaa !14
  %98 = icmp eq i32 %97, 0
  br i1 %98, label %99, label %102

99:                                               ; preds = %93
  %100 = trunc nuw nsw i64 %95 to i32
  store i32 %100, ptr @answer.made, align 4, !tbaa !11
  %101 = icmp ugt i64 %94, 1
  br i1 %101, label %93, label %102, !llvm.loop !20

102:                                              ; preds = %99, %93
  store i32 2, ptr @fibonacci.next, align 4, !tbaa !11
  store i32 1, ptr getelementptr inbounds (i8, ptr @fibonacci.next, i64 4), align 4, !tbaa !14
  store i32 0, ptr getelementptr inbounds (i8, ptr @fibonacci.next, i64 8), align 4, !tbaa !14
  br label %103

103:                                              ; preds = %109, %102
  %104 = phi i64 [ 2, %102 ], [ %105, %109 ]
  %105 = add nsw i64 %104, -1
  %106 = getelementptr inbounds [120 x i32], ptr getelementptr inbounds (i8, ptr @fibonacci.next, i64 4), i64 0, i64 %105
  %107 = load i32, ptr %106, align 4, !tbaa !14
  %108 = icmp eq i32 %107, 0
  br i1 %108, label %109, label %112

109:                                              ; preds = %103
  %110 = trunc nuw nsw i64 %105 to i32
  store i32 %110, ptr @fibonacci.next, align 4, !tbaa !11
  %111 = icmp ugt i64 %104, 1
  br i1 %111, label %103, label %112, !llvm.loop !21

112:                                              ; preds = %109, %103
  %113 = icmp eq i32 %22, 0
  br i1 %113, label %253, label %114

114:                                              ; preds = %153, %112
  %115 = phi i32 [ %116, %153 ], [ %22, %112 ]
  %116 = add i32 %115, -1
  call void @llvm.lifetime.start.p0(i64 484, ptr nonnull %1)
  call void @llvm.memcpy.p0.p0.i64(ptr noundef nonnull align 4 dereferenceable(484) %1, ptr noundef nonnull align 4 dereferenceable(484) @fibonacci.next, i64 484, i1 false), !tbaa.struct !22
  %117 = load i32, ptr @answer.made, align 4, !tbaa !11
  %118 = icmp sgt i32 %117, 0
  br i1 %118, label %119, label %153

119:                                              ; preds = %114
  %120 = zext nneg i32 %117 to i64
  br label %121

121:                                              ; preds = %142, %119
  %122 = phi i64 [ %149, %142 ], [ 0, %119 ]
  %123 = phi i32 [ %146, %142 ], [ 0, %119 ]
  %124 = load i32, ptr @fibonacci.next, align 4, !tbaa !11
  %125 = zext i32 %124 to i64
  %126 = icmp eq i64 %122, %125
  br i1 %126, label %127, label %134

127:                                              ; preds = %121
  %128 = icmp slt i32 %124, 120
  br i1 %128, label %130, label %129

129:                                              ; preds = %127
  tail call void @__assert_fail(ptr noundef nonnull @.str.2, ptr noundef nonnull @.str.3, i32 noundef 32, ptr noundef nonnull @__func__.push) #13
  unreachable

130:                                              ; preds = %127
  %131 = add nsw i32 %124, 1
  store i32 %131, ptr @fibonacci.next, align 4, !tbaa !11
  %132 = sext i32 %124 to i64
  %133 = getelementptr inbounds [120 x i32], ptr getelementptr inbounds (i8, ptr @fibonacci.next, i64 4), i64 0, i64 %132
  store i32 0, ptr %133, align 4, !tbaa !14
  br label %134

134:                                              ; preds = %130, %121
  %135 = getelementptr inbounds [120 x i32], ptr getelementptr inbounds (i8, ptr @fibonacci.next, i64 4), i64 0, i64 %122
  %136 = load i32, ptr %135, align 4, !tbaa !14
  %137 = add i32 %136, %123
  %138 = icmp ult i64 %122, %120
  br i1 %138, label %139, label %142

139:                                              ; preds = %134
  %140 = getelementptr inbounds [120 x i32], ptr getelementptr inbounds (i8, ptr @answer.made, i64 4), i64 0, i64 %122
  %141 = load i32, ptr %140, align 4, !tbaa !14
  br label %142

142:                                              ; preds = %139, %134
  %143 = phi i32 [ %141, %139 ], [ 0, %134 ]
  %144 = add i32 %137, %143
  %145 = icmp ugt i32 %144, 999999999
  %146 = zext i1 %145 to i32
  %147 = add i32 %144, -1000000000
  %148 = select i1 %145, i32 %147, i32 %144
  store i32 %148, ptr %135, align 4, !tbaa !14
  %149 = add nuw nsw i64 %122, 1
  %150 = trunc nuw i64 %149 to i32
  %151 = icmp sgt i32 %117, %150
  %152 = select i1 %151, i1 true, i1 %145
  br i1 %152, label %121, label %153, !llvm.loop !23

153:                                              ; preds = %142, %114
  call void @llvm.memcpy.p0.p0.i64(ptr noundef nonnull align 4 dereferenceable(484) @answer.made, ptr noundef nonnull align 4 dereferenceable(484) %1, i64 484, i1 false), !tbaa.struct !22
  call void @llvm.lifetime.end.p0(i64 484, ptr nonnull %1)
  %154 = icmp eq i32 %116, 0
  br i1 %154, label %253, label %114, !llvm.loop !24

155:                                              ; preds = %15
  tail call void @llvm.memcpy.p0.p0.i64(ptr noundef nonnull align 4 dereferenceable(484) @power.square, ptr noundef nonnull align 4 dereferenceable(484) @answer.a, i64 484, i1 false), !tbaa.struct !22
  store i32 2, ptr @answer.made, align 4, !tbaa !11
  store i32 1, ptr getelementptr inbounds (i8, ptr @answer.made, i64 4), align 4, !tbaa !14
  store i32 0, ptr getelementptr inbounds (i8, ptr @answer.made, i64 8), align 4, !tbaa !14
  br label %156

156:                                              ; preds = %162, %155
  %157 = phi i64 [ 2, %155 ], [ %158, %162 ]
  %158 = add nsw i64 %157, -1
  %159 = getelementptr inbounds [120 x i32], ptr getelementptr inbounds (i8, ptr @answer.made, i64 4), i64 0, i64 %158
  %160 = load i32, ptr %159, align 4, !tbaa !14
  %161 = icmp eq i32 %160, 0
  br i1 %161, label %162, label %165

162:                                              ; preds = %156
  %163 = trunc nuw nsw i64 %158 to i32
  store i32 %163, ptr @answer.made, align 4, !tbaa !11
  %164 = icmp ugt i64 %157, 1
  br i1 %164, label %156, label %165, !llvm.loop !25

165:                                              ; preds = %162, %156
  %166 = icmp eq i32 %26, 0
  br i1 %166, label %253, label %167

167:                                              ; preds = %175, %165
  %168 = phi i32 [ %176, %175 ], [ %26, %165 ]
  %169 = and i32 %168, 1
  %170 = icmp eq i32 %169, 0
  br i1 %170, label %172, label %171

171:                                              ; preds = %167
  tail call fastcc void @multiply(ptr noundef nonnull @power.made, ptr noundef nonnull @answer.made, ptr noundef nonnull @power.square)
  tail call void @llvm.memcpy.p0.p0.i64(ptr noundef nonnull align 4 dereferenceable(484) @answer.made, ptr noundef nonnull align 4 dereferenceable(484) @power.made, i64 484, i1 false), !tbaa.struct !22
  br label %172

172:                                              ; preds = %171, %167
  %173 = icmp eq i32 %168, 1
  br i1 %173, label %175, label %174

174:                                              ; preds = %172
  tail call fastcc void @multiply(ptr noundef nonnull @power.made, ptr noundef nonnull @power.square, ptr noundef nonnull @power.square)
  tail call void @llvm.memcpy.p0.p0.i64(ptr noundef nonnull align 4 dereferenceable(484) @power.square, ptr noundef nonnull align 4 dereferenceable(484) @power.made, i64 484, i1 false), !tbaa.struct !22
  br label %175

175:                                              ; preds = %174, %172
  %176 = lshr i32 %168, 1
  %177 = icmp ult i32 %168, 2
  br i1 %177, label %253, label %167, !llvm.loop !26

178:                                              ; preds = %15
  tail call fastcc void @multiply(ptr noundef nonnull @answer.made, ptr noundef nonnull @answer.a, ptr noundef nonnull @answer.b)
  br label %253

179:                                              ; preds = %15
  tail call void @llvm.memcpy.p0.p0.i64(ptr noundef nonnull align 4 dereferenceable(484) @answer.made, ptr noundef nonnull align 4 dereferenceable(484) @answer.a, i64 484, i1 false), !tbaa.struct !22
  %180 = icmp sgt i32 %23, 0
  br i1 %180, label %181, label %253

181:                                              ; preds = %179
  %182 = zext nneg i32 %23 to i64
  br label %183

183:                                              ; preds = %204, %181
  %184 = phi i64 [ %211, %204 ], [ 0, %181 ]
  %185 = phi i32 [ %208, %204 ], [ 0, %181 ]
  %186 = load i32, ptr @answer.made, align 4, !tbaa !11
  %187 = zext i32 %186 to i64
  %188 = icmp eq i64 %184, %187
  br i1 %188, label %189, label %196

189:                                              ; preds = %183
  %190 = icmp slt i32 %186, 120
  br i1 %190, label %192, label %191

191:                                              ; preds = %189
  tail call void @__assert_fail(ptr noundef nonnull @.str.2, ptr noundef nonnull @.str.3, i32 noundef 32, ptr noundef nonnull @__func__.push) #13
  unreachable

192:                                              ; preds = %189
  %193 = add nsw i32 %186, 1
  store i32 %193, ptr @answer.made, align 4, !tbaa !11
  %194 = sext i32 %186 to i64
  %195 = getelementptr inbounds [120 x i32], ptr getelementptr inbounds (i8, ptr @answer.made, i64 4), i64 0, i64 %194
  store i32 0, ptr %195, align 4, !tbaa !14
  br label %196

196:                                              ; preds = %192, %183
  %197 = getelementptr inbounds [120 x i32], ptr getelementptr inbounds (i8, ptr @answer.made, i64 4), i64 0, i64 %184
  %198 = load i32, ptr %197, align 4, !tbaa !14
  %199 = add i32 %198, %185
  %200 = icmp ult i64 %184, %182
  br i1 %200, label %201, label %204

201:                                              ; preds = %196
  %202 = getelementptr inbounds [120 x i32], ptr getelementptr inbounds (i8, ptr @answer.b, i64 4), i64 0, i64 %184
  %203 = load i32, ptr %202, align 4, !tbaa !14
  br label %204

204:                                              ; preds = %201, %196
  %205 = phi i32 [ %203, %201 ], [ 0, %196 ]
  %206 = add i32 %199, %205
  %207 = icmp ugt i32 %206, 999999999
  %208 = zext i1 %207 to i32
  %209 = add i32 %206, -1000000000
  %210 = select i1 %207, i32 %209, i32 %206
  store i32 %210, ptr %197, align 4, !tbaa !14
  %211 = add nuw nsw i64 %184, 1
  %212 = trunc nuw i64 %211 to i32
  %213 = icmp sgt i32 %23, %212
  %214 = select i1 %213, i1 true, i1 %207
  br i1 %214, label %183, label %253, !llvm.loop !27

215:                                              ; preds = %15
  %216 = icmp eq i32 %26, 0
  br i1 %216, label %327, label %217

217:                                              ; preds = %215
  tail call void @llvm.memcpy.p0.p0.i64(ptr noundef nonnull align 4 dereferenceable(484) @answer.made, ptr noundef nonnull align 4 dereferenceable(484) @answer.a, i64 484, i1 false), !tbaa.struct !22
  %218 = load i32, ptr @answer.made, align 4, !tbaa !11
  %219 = icmp sgt i32 %218, 0
  br i1 %219, label %220, label %223

220:                                              ; preds = %217
  %221 = zext i32 %26 to i64
  %222 = zext nneg i32 %218 to i64
  br label %236

223:                                              ; preds = %236, %217
  %224 = phi i64 [ 0, %217 ], [ %247, %236 ]
  br i1 %219, label %225, label %249

225:                                              ; preds = %223
  %226 = zext nneg i32 %218 to i64
  br label %227

227:                                              ; preds = %233, %225
  %228 = phi i64 [ %226, %225 ], [ %229, %233 ]
  %229 = add nsw i64 %228, -1
  %230 = getelementptr inbounds [120 x i32], ptr getelementptr inbounds (i8, ptr @answer.made, i64 4), i64 0, i64 %229
  %231 = load i32, ptr %230, align 4, !tbaa !14
  %232 = icmp eq i32 %231, 0
  br i1 %232, label %233, label %249

233:                                              ; preds = %227
  %234 = trunc nuw nsw i64 %229 to i32
  store i32 %234, ptr @answer.made, align 4, !tbaa !11
  %235 = icmp sgt i64 %228, 1
  br i1 %235, label %227, label %249, !llvm.loop !28

236:                                              ; preds = %236, %220
  %237 = phi i64 [ %222, %220 ], [ %239, %236 ]
  %238 = phi i64 [ 0, %220 ], [ %247, %236 ]
  %239 = add nsw i64 %237, -1
  %240 = mul nuw nsw i64 %238, 1000000000
  %241 = getelementptr inbounds [120 x i32], ptr getelementptr inbounds (i8, ptr @answer.made, i64 4), i64 0, i64 %239
  %242 = load i32, ptr %241, align 4, !tbaa !14
  %243 = zext i32 %242 to i64
  %244 = add nuw nsw i64 %240, %243
  %245 = udiv i64 %244, %221
  %246 = trunc i64 %245 to i32
  store i32 %246, ptr %241, align 4, !tbaa !14
  %247 = urem i64 %244, %221
  %248 = icmp sgt i64 %237, 1
  br i1 %248, label %236, label %223, !llvm.loop !29

249:                                              ; preds = %233, %227, %223
  %250 = tail call i32 @__print_text(ptr nonnull getelementptr inbounds (i8, ptr @__streams, i64 24), ptr nonnull @.str.1, i64 6) #14
  %251 = tail call i32 @__print_unsigned(ptr nonnull getelementptr inbounds (i8, ptr @__streams, i64 24), i64 %224, i32 10, i32 0, i32 0, i32 -1) #14
  %252 = tail call i32 @__print_text(ptr nonnull getelementptr inbounds (i8, ptr @__streams, i64 24), ptr nonnull getelementptr inbounds (i8, ptr @.str.1, i64 8), i64 2) #14
  br label %253

253:                                              ; preds = %249, %204, %179, %178, %175, %165, %153, %112, %89, %37
  %254 = load i32, ptr @answer.made, align 4, !tbaa !11
  %255 = icmp eq i32 %254, 0
  br i1 %255, label %262, label %256

256:                                              ; preds = %253
  %257 = add nsw i32 %254, -1
  %258 = sext i32 %257 to i64
  %259 = getelementptr inbounds [120 x i32], ptr getelementptr inbounds (i8, ptr @answer.made, i64 4), i64 0, i64 %258
  %260 = load i32, ptr %259, align 4, !tbaa !14
  %261 = zext i32 %260 to i64
  br label %262

262:                                              ; preds = %256, %253
  %263 = phi i64 [ %261, %256 ], [ 0, %253 ]
  %264 = tail call ptr @__print_open(ptr nonnull @show.text, i64 -1) #14
  %265 = tail call i32 @__print_unsigned(ptr %264, i64 %263, i32 10, i32 0, i32 0, i32 -1) #14
  %266 = tail call i32 @__print_close(ptr %264, i64 -1) #14
  %267 = add i32 %266, %265
  %268 = sext i32 %267 to i64
  %269 = getelementptr inbounds i8, ptr @show.text, i64 %268
  %270 = load i32, ptr @answer.made, align 4, !tbaa !11
  %271 = icmp sgt i32 %270, 1
  br i1 %271, label %272, label %289

272:                                              ; preds = %262
  %273 = add nsw i32 %270, -2
  %274 = zext i32 %273 to i64
  br label %275

275:                                              ; preds = %275, %272
  %276 = phi i64 [ %274, %272 ], [ %287, %275 ]
  %277 = phi ptr [ %269, %272 ], [ %286, %275 ]
  %278 = getelementptr inbounds [120 x i32], ptr getelementptr inbounds (i8, ptr @answer.made, i64 4), i64 0, i64 %276
  %279 = load i32, ptr %278, align 4, !tbaa !14
  %280 = tail call ptr @__print_open(ptr %277, i64 -1) #14
  %281 = zext i32 %279 to i64
  %282 = tail call i32 @__print_unsigned(ptr %280, i64 %281, i32 10, i32 16, i32 9, i32 -1) #14
  %283 = tail call i32 @__print_close(ptr %280, i64 -1) #14
  %284 = add i32 %283, %282
  %285 = sext i32 %284 to i64
  %286 = getelementptr inbounds i8, ptr %277, i64 %285
  %287 = add nsw i64 %276, -1
  %288 = icmp sgt i64 %276, 0
  br i1 %288, label %275, label %289, !llvm.loop !30

289:                                              ; preds = %275, %262
  %290 = phi ptr [ %269, %262 ], [ %286, %275 ]
  %291 = ptrtoint ptr %290 to i64
  %292 = trunc i64 %291 to i32
  %293 = sub i32 %292, ptrtoint (ptr @show.text to i32)
  %294 = icmp sgt i32 %293, 0
  br i1 %294, label %295, label %318

295:                                              ; preds = %289
  %296 = zext nneg i32 %293 to i64
  br label %299

297:                                              ; preds = %316
  %298 = sext i32 %306 to i64
  br label %318

299:                                              ; preds = %316, %295
  %300 = phi i64 [ 0, %295 ], [ %308, %316 ]
  %301 = phi i32 [ 0, %295 ], [ %306, %316 ]
  %302 = getelementptr inbounds [1090 x i8], ptr @show.text, i64 0, i64 %300
  %303 = load i8, ptr %302, align 1, !tbaa !5
  %304 = sext i8 %303 to i32
  %305 = add i32 %301, -48
  %306 = add i32 %305, %304
  %307 = tail call i32 @putchar(i32 noundef %304)
  %308 = add nuw nsw i64 %300, 1
  %309 = trunc nuw nsw i64 %308 to i32
  %310 = urem i32 %309, 60
  %311 = icmp eq i32 %310, 0
  %312 = icmp ult i64 %308, %296
  %313 = and i1 %312, %311
  br i1 %313, label %314, label %316

314:                                              ; preds = %299
  %315 = tail call i32 @putchar(i32 noundef 10)
  br label %316

316:                                              ; preds = %314, %299
  %317 = icmp eq i64 %308, %296
  br i1 %317, label %297, label %299, !llvm.loop !31

318:                                              ; preds = %297, %289
  %319 = phi i64 [ 0, %289 ], [ %298, %297 ]
  %320 = tail call i32 @__print_text(ptr nonnull getelementptr inbounds (i8, ptr @__streams, i64 24), ptr nonnull @.str.5, i64 3) #14
  %321 = sext i32 %293 to i64
  %322 = tail call i32 @__print_signed(ptr nonnull getelementptr inbounds (i8, ptr @__streams, i64 24), i64 %321, i32 0, i32 0, i32 -1) #14
  %323 = tail call i32 @__print_text(ptr nonnull getelementptr inbounds (i8, ptr @__streams, i64 24), ptr nonnull getelementptr inbounds (i8, ptr @.str.5, i64 5), i64 13) #14
  %324 = tail call i32 @__print_signed(ptr nonnull getelementptr inbounds (i8, ptr @__streams, i64 24), i64 %319, i32 0, i32 0, i32 -1) #14
  %325 = tail call i32 @__print_text(ptr nonnull getelementptr inbounds (i8, ptr @__streams, i64 24), ptr nonnull getelementptr inbounds (i8, ptr @.str.5, i64 20), i64 1) #14
  %326 = add nsw i32 %5, 1
  br label %330

327:                                              ; preds = %215, %15
  %328 = tail call i32 @__print_text(ptr nonnull getelementptr inbounds (i8, ptr @__streams, i64 24), ptr nonnull @.str, i64 16) #14
  %329 = tail call i32 @__print_string(ptr nonnull getelementptr inbounds (i8, ptr @__streams, i64 24), ptr nonnull @main.line, i32 0, i32 0, i32 -1) #14
  br label %330

330:                                              ; preds = %327, %318
  %331 = phi i32 [ %326, %318 ], [ %5, %327 ]
  %332 = tail call ptr @fgets(ptr noundef nonnull @main.line, i32 noundef 1000, ptr noundef nonnull @__streams)
  %333 = icmp eq ptr %332, null
  br i1 %333, label %334, label %4, !llvm.loop !32

334:                                              ; preds = %330, %0
  %335 = phi i32 [ 0, %0 ], [ %331, %330 ]
  ret i32 %335
}

; Function Attrs: nounwind optsize uwtable
define internal noundef ptr @fgets(ptr noalias noundef writeonly %0, i32 noundef %1, ptr noalias nocapture noundef %2) local_unnamed_addr #1 {
  %4 = icmp slt i32 %1, 1
  br i1 %4, label %23, label %5

5:                                                ; preds = %3
  %6 = icmp eq i32 %1, 1
  br i1 %6, label %21, label %7

7:                                                ; preds = %12, %5
  %8 = phi i32 [ %13, %12 ], [ %1, %5 ]
  %9 = phi ptr [ %15, %12 ], [ %0, %5 ]
  %10 = tail call i32 @fgetc(ptr noundef %2) #15
  %11 = icmp eq i32 %10, -1
  br i1 %11, label %19, label %12

12:                                               ; preds = %7
  %13 = add nsw i32 %8, -1
  %14 = trunc i32 %10 to i8
  %15 = getelementptr inbounds i8, ptr %9, i64 1
  store i8 %14, ptr %9, align 1, !tbaa !5
  %16 = icmp sgt i32 %8, 2
  %17 = icmp ne i32 %10, 10
  %18 = and i1 %16, %17
  br i1 %18, label %7, label %21, !llvm.loop !33

19:                                               ; preds = %7
  %20 = icmp eq ptr %9, %0
  br i1 %20, label %23, label %21

21:                                               ; preds = %19, %12, %5
  %22 = phi ptr [ %9, %19 ], [ %0, %5 ], [ %15, %12 ]
  store i8 0, ptr %22, align 1, !tbaa !5
  br label %23

23:                                               ; preds = %21, %19, %3
  %24 = phi ptr [ %0, %21 ], [ null, %3 ], [ null, %19 ]
  ret ptr %24
}

; Function Attrs: nounwind uwtable
define internal fastcc noundef ptr @read_number(ptr nocapture noundef %0, ptr noundef readonly %1) unnamed_addr #0 {
  store i32 2, ptr %0, align 4, !tbaa !11
  %3 = getelementptr inbounds i8, ptr %0, i64 4
  store i32 0, ptr %3, align 4, !tbaa !14
  %4 = getelementptr inbounds i8, ptr %0, i64 8
  store i32 0, ptr %4, align 4, !tbaa !14
  br label %5

5:                                                ; preds = %11, %2
  %6 = phi i64 [ 2, %2 ], [ %7, %11 ]
  %7 = add nsw i64 %6, -1
  %8 = getelementptr inbounds [120 x i32], ptr %3, i64 0, i64 %7
  %9 = load i32, ptr %8, align 4, !tbaa !14
  %10 = icmp eq i32 %9, 0
  br i1 %10, label %11, label %14

11:                                               ; preds = %5
  %12 = trunc nuw nsw i64 %7 to i32
  store i32 %12, ptr %0, align 4, !tbaa !11
  %13 = icmp ugt i64 %6, 1
  br i1 %13, label %5, label %14, !llvm.loop !34

14:                                               ; preds = %11, %5
  br label %15

15:                                               ; preds = %15, %14
  %16 = phi ptr [ %21, %15 ], [ %1, %14 ]
  %17 = load i8, ptr %16, align 1, !tbaa !5
  %18 = zext i8 %17 to i32
  %19 = tail call i32 @isspace(i32 noundef %18) #16
  %20 = icmp eq i32 %19, 0
  %21 = getelementptr inbounds i8, ptr %16, i64 1
  br i1 %20, label %22, label %15, !llvm.loop !35

22:                                               ; preds = %15
  %23 = add nsw i32 %18, -48
  %24 = icmp ult i32 %23, 10
  br i1 %24, label %25, label %84

25:                                               ; preds = %78, %22
  %26 = phi i8 [ %80, %78 ], [ %17, %22 ]
  %27 = phi ptr [ %79, %78 ], [ %16, %22 ]
  %28 = sext i8 %26 to i64
  %29 = add nsw i64 %28, 4294967248
  %30 = and i64 %29, 4294967295
  %31 = load i32, ptr %0, align 4, !tbaa !11
  %32 = icmp sgt i32 %31, 0
  br i1 %32, label %33, label %35

33:                                               ; preds = %25
  %34 = zext nneg i32 %31 to i64
  br label %38

35:                                               ; preds = %38, %25
  %36 = phi i64 [ %30, %25 ], [ %48, %38 ]
  %37 = icmp eq i64 %36, 0
  br i1 %37, label %64, label %51

38:                                               ; preds = %38, %33
  %39 = phi i64 [ 0, %33 ], [ %49, %38 ]
  %40 = phi i64 [ %30, %33 ], [ %48, %38 ]
  %41 = getelementptr inbounds [120 x i32], ptr %3, i64 0, i64 %39
  %42 = load i32, ptr %41, align 4, !tbaa !14
  %43 = zext i32 %42 to i64
  %44 = mul nuw nsw i64 %43, 10
  %45 = add nuw nsw i64 %44, %40
  %46 = urem i64 %45, 1000000000
  %47 = trunc nuw nsw i64 %46 to i32
  store i32 %47, ptr %41, align 4, !tbaa !14
  %48 = udiv i64 %45, 1000000000
  %49 = add nuw nsw i64 %39, 1
  %50 = icmp eq i64 %49, %34
  br i1 %50, label %35, label %38, !llvm.loop !36

51:                                               ; preds = %56, %35
  %52 = phi i64 [ %62, %56 ], [ %36, %35 ]
  %53 = load i32, ptr %0, align 4, !tbaa !11
  %54 = icmp slt i32 %53, 120
  br i1 %54, label %56, label %55

55:                                               ; preds = %51
  tail call void @__assert_fail(ptr noundef nonnull @.str.2, ptr noundef nonnull @.str.3, i32 noundef 32, ptr noundef nonnull @__func__.push) #13
  unreachable

56:                                               ; preds = %51
  %57 = urem i64 %52, 1000000000
  %58 = trunc nuw nsw i64 %57 to i32
  %59 = add nsw i32 %53, 1
  store i32 %59, ptr %0, align 4, !tbaa !11
  %60 = sext i32 %53 to i64
  %61 = getelementptr inbounds [120 x i32], ptr %3, i64 0, i64 %60
  store i32 %58, ptr %61, align 4, !tbaa !14
  %62 = udiv i64 %52, 1000000000
  %63 = icmp ult i64 %52, 1000000000
  br i1 %63, label %64, label %51, !llvm.loop !37

64:                                               ; preds = %56, %35
  %65 = load i32, ptr %0, align 4, !tbaa !11
  %66 = icmp sgt i32 %65, 0
  br i1 %66, label %67, label %78

67:                                               ; preds = %64
  %68 = zext nneg i32 %65 to i64
  br label %69

69:                                               ; preds = %75, %67
  %70 = phi i64 [ %68, %67 ], [ %71, %75 ]
  %71 = add nsw i64 %70, -1
  %72 = getelementptr inbounds [120 x i32], ptr %3, i64 0, i64 %71
  %73 = load i32, ptr %72, align 4, !tbaa !14
  %74 = icmp eq i32 %73, 0
  br i1 %74, label %75, label %78

75:                                               ; preds = %69
  %76 = trunc nuw nsw i64 %71 to i32
  store i32 %76, ptr %0, align 4, !tbaa !11
  %77 = icmp sgt i64 %70, 1
  br i1 %77, label %69, label %78, !llvm.loop !38

78:                                               ; preds = %75, %69, %64
  %79 = getelementptr inbounds i8, ptr %27, i64 1
  %80 = load i8, ptr %79, align 1, !tbaa !5
  %81 = zext i8 %80 to i32
  %82 = add nsw i32 %81, -48
  %83 = icmp ult i32 %82, 10
  br i1 %83, label %25, label %84, !llvm.loop !39

84:                                               ; preds = %78, %22
  %85 = phi ptr [ %16, %22 ], [ %79, %78 ]
  ret ptr %85
}

; Function Attrs: noreturn nounwind optsize uwtable
define internal void @__assert_fail(ptr nocapture noundef readnone %0, ptr nocapture noundef readnone %1, i32 noundef %2, ptr nocapture noundef readnone %3) local_unnamed_addr #2 {
  tail call void @abort() #17
  unreachable
}

; Function Attrs: nocallback nofree nosync nounwind willreturn memory(argmem: readwrite)
declare void @llvm.lifetime.start.p0(i64 immarg, ptr nocapture) #3

; Function Attrs: nocallback nofree nounwind willreturn memory(argmem: readwrite)
declare void @llvm.memcpy.p0.p0.i64(ptr noalias nocapture writeonly, ptr noalias nocapture readonly, i64, i1 immarg) #4

; Function Attrs: nocallback nofree nosync nounwind willreturn memory(argmem: readwrite)
declare void @llvm.lifetime.end.p0(i64 immarg, ptr nocapture) #3

; Function Attrs: nounwind uwtable
define internal fastcc void @multiply(ptr nocapture noundef %0, ptr nocapture noundef readonly %1, ptr nocapture noundef readonly %2) unnamed_addr #0 {
  tail call void @llvm.memset.p0.i64(ptr noundef nonnull align 4 dereferenceable(484) %0, i8 0, i64 484, i1 false)
  %4 = load i32, ptr %1, align 4, !tbaa !11
  %5 = icmp sgt i32 %4, 0
  br i1 %5, label %6, label %21

6:                                                ; preds = %3
  %7 = getelementptr inbounds i8, ptr %0, i64 4
  %8 = getelementptr inbounds i8, ptr %1, i64 4
  %9 = getelementptr inbounds i8, ptr %2, i64 4
  br label %10

10:                                               ; preds = %40, %6
  %11 = phi i64 [ 0, %6 ], [ %41, %40 ]
  %12 = phi i32 [ 0, %6 ], [ %45, %40 ]
  %13 = load i32, ptr %2, align 4, !tbaa !11
  %14 = icmp sgt i32 %13, 0
  br i1 %14, label %15, label %40

15:                                               ; preds = %10
  %16 = trunc nuw nsw i64 %11 to i32
  %17 = tail call i32 @llvm.umax.i32(i32 %16, i32 120)
  %18 = add i32 %17, %12
  %19 = getelementptr inbounds [120 x i32], ptr %8, i64 0, i64 %11
  %20 = zext i32 %18 to i64
  br label %46

21:                                               ; preds = %40, %3
  %22 = phi i32 [ %4, %3 ], [ %42, %40 ]
  %23 = load i32, ptr %2, align 4, !tbaa !11
  %24 = add nsw i32 %23, %22
  %25 = tail call i32 @llvm.smin.i32(i32 %24, i32 120)
  store i32 %25, ptr %0, align 4, !tbaa !11
  %26 = getelementptr inbounds i8, ptr %0, i64 4
  %27 = icmp sgt i32 %24, 0
  br i1 %27, label %28, label %39

28:                                               ; preds = %21
  %29 = zext nneg i32 %25 to i64
  br label %30

30:                                               ; preds = %36, %28
  %31 = phi i64 [ %29, %28 ], [ %32, %36 ]
  %32 = add nsw i64 %31, -1
  %33 = getelementptr inbounds [120 x i32], ptr %26, i64 0, i64 %32
  %34 = load i32, ptr %33, align 4, !tbaa !14
  %35 = icmp eq i32 %34, 0
  br i1 %35, label %36, label %39

36:                                               ; preds = %30
  %37 = trunc nuw nsw i64 %32 to i32
  store i32 %37, ptr %0, align 4, !tbaa !11
  %38 = icmp sgt i64 %31, 1
  br i1 %38, label %30, label %39, !llvm.loop !40

39:                                               ; preds = %36, %30, %21
  ret void

40:                                               ; preds = %62, %10
  %41 = add nuw nsw i64 %11, 1
  %42 = load i32, ptr %1, align 4, !tbaa !11
  %43 = sext i32 %42 to i64
  %44 = icmp slt i64 %41, %43
  %45 = add nsw i32 %12, -1
  br i1 %44, label %10, label %21, !llvm.loop !41

46:                                               ; preds = %62, %15
  %47 = phi i64 [ 0, %15 ], [ %71, %62 ]
  %48 = phi i1 [ true, %15 ], [ %74, %62 ]
  %49 = phi i64 [ 0, %15 ], [ %70, %62 ]
  %50 = icmp eq i64 %47, %20
  br i1 %50, label %51, label %52

51:                                               ; preds = %46
  tail call void @__assert_fail(ptr noundef nonnull @.str.4, ptr noundef nonnull @.str.3, i32 noundef 65, ptr noundef nonnull @__func__.multiply) #13
  unreachable

52:                                               ; preds = %46
  %53 = add nuw nsw i64 %47, %11
  %54 = getelementptr inbounds [120 x i32], ptr %7, i64 0, i64 %53
  %55 = load i32, ptr %54, align 4, !tbaa !14
  %56 = zext i32 %55 to i64
  %57 = load i32, ptr %19, align 4, !tbaa !14
  %58 = zext i32 %57 to i64
  br i1 %48, label %59, label %62

59:                                               ; preds = %52
  %60 = getelementptr inbounds [120 x i32], ptr %9, i64 0, i64 %47
  %61 = load i32, ptr %60, align 4, !tbaa !14
  br label %62

62:                                               ; preds = %59, %52
  %63 = phi i32 [ %61, %59 ], [ 0, %52 ]
  %64 = zext i32 %63 to i64
  %65 = mul nuw i64 %64, %58
  %66 = add nuw nsw i64 %49, %56
  %67 = add i64 %66, %65
  %68 = urem i64 %67, 1000000000
  %69 = trunc nuw nsw i64 %68 to i32
  store i32 %69, ptr %54, align 4, !tbaa !14
  %70 = udiv i64 %67, 1000000000
  %71 = add nuw nsw i64 %47, 1
  %72 = load i32, ptr %2, align 4, !tbaa !11
  %73 = sext i32 %72 to i64
  %74 = icmp slt i64 %71, %73
  %75 = icmp ugt i64 %67, 999999999
  %76 = select i1 %74, i1 true, i1 %75
  br i1 %76, label %46, label %40, !llvm.loop !42
}

; Function Attrs: nounwind optsize uwtable
define internal noundef i32 @__print_text(ptr nocapture noundef %0, ptr nocapture noundef readonly %1, i64 noundef %2) local_unnamed_addr #1 {
  %4 = load i8, ptr %0, align 8, !tbaa !43, !alias.scope !47, !noalias !50
  %5 = icmp eq i8 %4, 0
  %6 = icmp eq i64 %2, 0
  %7 = or i1 %6, %5
  br i1 %7, label %16, label %8

8:                                                ; preds = %8, %3
  %9 = phi i64 [ %14, %8 ], [ 0, %3 ]
  %10 = getelementptr inbounds i8, ptr %1, i64 %9
  %11 = load i8, ptr %10, align 1, !tbaa !5, !alias.scope !50, !noalias !47
  %12 = zext i8 %11 to i32
  %13 = tail call i32 @fputc(i32 noundef %12, ptr noundef nonnull %0) #15, !noalias !50
  %14 = add nuw i64 %9, 1
  %15 = icmp eq i64 %14, %2
  br i1 %15, label %16, label %8, !llvm.loop !52

16:                                               ; preds = %8, %3
  %17 = trunc i64 %2 to i32
  ret i32 %17
}

; Function Attrs: nounwind optsize uwtable
define internal i32 @__print_unsigned(ptr nocapture noundef %0, i64 noundef %1, i32 noundef %2, i32 noundef %3, i32 noundef %4, i32 noundef %5) local_unnamed_addr #1 {
  %7 = alloca [24 x i8], align 16
  call void @llvm.lifetime.start.p0(i64 24, ptr nonnull %7) #14
  %8 = and i32 %3, 32
  %9 = icmp eq i32 %8, 0
  %10 = select i1 %9, ptr @.str.9.13, ptr @.str.8
  %11 = icmp ult i64 %1, 4294967296
  br i1 %11, label %14, label %12

12:                                               ; preds = %6
  %13 = zext i32 %2 to i64
  br label %29

14:                                               ; preds = %6
  %15 = icmp eq i64 %1, 0
  br i1 %15, label %39, label %16

16:                                               ; preds = %14
  %17 = trunc nuw i64 %1 to i32
  br label %18

18:                                               ; preds = %18, %16
  %19 = phi i32 [ %27, %18 ], [ %17, %16 ]
  %20 = phi i64 [ %25, %18 ], [ 24, %16 ]
  %21 = urem i32 %19, %2
  %22 = zext i32 %21 to i64
  %23 = getelementptr inbounds i8, ptr %10, i64 %22
  %24 = load i8, ptr %23, align 1, !tbaa !5
  %25 = add nsw i64 %20, -1
  %26 = getelementptr inbounds i8, ptr %7, i64 %25
  store i8 %24, ptr %26, align 1, !tbaa !5
  %27 = udiv i32 %19, %2
  %28 = icmp ult i32 %19, %2
  br i1 %28, label %39, label %18, !llvm.loop !53

29:                                               ; preds = %29, %12
  %30 = phi i64 [ 24, %12 ], [ %35, %29 ]
  %31 = phi i64 [ %1, %12 ], [ %37, %29 ]
  %32 = urem i64 %31, %13
  %33 = getelementptr inbounds i8, ptr %10, i64 %32
  %34 = load i8, ptr %33, align 1, !tbaa !5
  %35 = add nsw i64 %30, -1
  %36 = getelementptr inbounds i8, ptr %7, i64 %35
  store i8 %34, ptr %36, align 1, !tbaa !5
  %37 = udiv i64 %31, %13
  %38 = icmp ult i64 %31, %13
  br i1 %38, label %39, label %29, !llvm.loop !54

39:                                               ; preds = %29, %18, %14
  %40 = phi i64 [ 24, %14 ], [ %25, %18 ], [ %35, %29 ]
  %41 = icmp eq i64 %1, 0
  %42 = icmp ne i32 %5, 0
  %43 = and i1 %41, %42
  br i1 %43, label %44, label %47

44:                                               ; preds = %39
  %45 = add nsw i64 %40, -1
  %46 = getelementptr inbounds i8, ptr %7, i64 %45
  store i8 48, ptr %46, align 1, !tbaa !5
  br label %47

47:                                               ; preds = %44, %39
  %48 = phi i64 [ %45, %44 ], [ %40, %39 ]
  %49 = getelementptr inbounds i8, ptr %7, i64 %48
  %50 = and i32 %3, 8
  %51 = icmp ne i32 %50, 0
  %52 = icmp eq i32 %2, 8
  %53 = and i1 %52, %51
  br i1 %53, label %54, label %65

54:                                               ; preds = %47
  %55 = sub nsw i64 24, %48
  %56 = sext i32 %5 to i64
  %57 = icmp slt i64 %55, %56
  br i1 %57, label %65, label %58

58:                                               ; preds = %54
  %59 = icmp eq i64 %48, 24
  br i1 %59, label %63, label %60

60:                                               ; preds = %58
  %61 = load i8, ptr %49, align 1, !tbaa !5
  %62 = icmp eq i8 %61, 48
  br i1 %62, label %65, label %63

63:                                               ; preds = %60, %58
  %64 = getelementptr inbounds i8, ptr %49, i64 -1
  store i8 48, ptr %64, align 1, !tbaa !5
  br label %65

65:                                               ; preds = %63, %60, %54, %47
  %66 = phi ptr [ %64, %63 ], [ %49, %60 ], [ %49, %54 ], [ %49, %47 ]
  %67 = getelementptr inbounds i8, ptr %7, i64 24
  %68 = icmp eq i32 %2, 16
  %69 = icmp ne i64 %1, 0
  %70 = and i1 %69, %68
  %71 = and i1 %70, %51
  %72 = select i1 %9, ptr @.str.6, ptr @.str.5.19
  %73 = select i1 %71, ptr %72, ptr @.str.9
  %74 = ptrtoint ptr %67 to i64
  %75 = ptrtoint ptr %66 to i64
  %76 = sub i64 %74, %75
  %77 = trunc i64 %76 to i32
  %78 = call fastcc i32 @number(ptr noundef %0, ptr noundef nonnull %73, ptr noundef nonnull %66, i32 noundef %77, i32 noundef %3, i32 noundef %4, i32 noundef %5) #15
  call void @llvm.lifetime.end.p0(i64 24, ptr nonnull %7) #14
  ret i32 %78
}

; Function Attrs: nofree norecurse nosync nounwind optsize willreturn memory(write, argmem: none, inaccessiblemem: none) uwtable
define internal noundef nonnull ptr @__print_open(ptr noundef %0, i64 noundef %1) local_unnamed_addr #5 {
  store i8 3, ptr @memory, align 8, !tbaa !43
  store ptr %0, ptr getelementptr inbounds (i8, ptr @memory, i64 8), align 8, !tbaa !55
  %3 = icmp ult i64 %1, 1
  %4 = sub i64 %1, 1
  %5 = select i1 %3, i64 0, i64 %4
  store i64 %5, ptr getelementptr inbounds (i8, ptr @memory, i64 16), align 8, !tbaa !56
  ret ptr @memory
}

; Function Attrs: mustprogress nofree norecurse nosync nounwind optsize willreturn memory(write, argmem: readwrite, inaccessiblemem: none) uwtable
define internal noundef i32 @__print_close(ptr nocapture noundef readonly %0, i64 noundef %1) local_unnamed_addr #6 {
  %3 = icmp eq i64 %1, 0
  br i1 %3, label %7, label %4

4:                                                ; preds = %2
  %5 = getelementptr inbounds i8, ptr %0, i64 8
  %6 = load ptr, ptr %5, align 8, !tbaa !55
  store i8 0, ptr %6, align 1, !tbaa !5
  br label %7

7:                                                ; preds = %4, %2
  ret i32 0
}

; Function Attrs: nofree nounwind
declare dso_local noundef i32 @putchar(i32 noundef) local_unnamed_addr #7

; Function Attrs: nounwind optsize uwtable
define internal i32 @__print_signed(ptr nocapture noundef %0, i64 noundef %1, i32 noundef %2, i32 noundef %3, i32 noundef %4) local_unnamed_addr #1 {
  %6 = alloca [24 x i8], align 16
  call void @llvm.lifetime.start.p0(i64 24, ptr nonnull %6) #14
  %7 = getelementptr inbounds i8, ptr %6, i64 24
  %8 = icmp slt i64 %1, 0
  %9 = lshr i64 %1, 63
  %10 = icmp ne i64 %9, 0
  %11 = sub i64 0, %1
  %12 = select i1 %10, i64 %11, i64 %1
  %13 = icmp ult i64 %12, 4294967296
  br i1 %13, label %14, label %28

14:                                               ; preds = %5
  %15 = icmp eq i64 %1, 0
  br i1 %15, label %37, label %16

16:                                               ; preds = %14
  %17 = trunc nuw i64 %12 to i32
  br label %18

18:                                               ; preds = %18, %16
  %19 = phi i32 [ %26, %18 ], [ %17, %16 ]
  %20 = phi ptr [ %25, %18 ], [ %7, %16 ]
  %21 = urem i32 %19, 10
  %22 = zext nneg i32 %21 to i64
  %23 = getelementptr inbounds i8, ptr @.str.9.13, i64 %22
  %24 = load i8, ptr %23, align 1, !tbaa !5
  %25 = getelementptr inbounds i8, ptr %20, i64 -1
  store i8 %24, ptr %25, align 1, !tbaa !5
  %26 = udiv i32 %19, 10
  %27 = icmp ult i32 %19, 10
  br i1 %27, label %37, label %18, !llvm.loop !53

28:                                               ; preds = %28, %5
  %29 = phi ptr [ %34, %28 ], [ %7, %5 ]
  %30 = phi i64 [ %35, %28 ], [ %12, %5 ]
  %31 = urem i64 %30, 10
  %32 = getelementptr inbounds i8, ptr @.str.9.13, i64 %31
  %33 = load i8, ptr %32, align 1, !tbaa !5
  %34 = getelementptr inbounds i8, ptr %29, i64 -1
  store i8 %33, ptr %34, align 1, !tbaa !5
  %35 = udiv i64 %30, 10
  %36 = icmp ult i64 %30, 10
  br i1 %36, label %37, label %28, !llvm.loop !54

37:                                               ; preds = %28, %18, %14
  %38 = phi ptr [ %7, %14 ], [ %25, %18 ], [ %34, %28 ]
  %39 = icmp eq i64 %1, 0
  %40 = icmp ne i32 %4, 0
  %41 = and i1 %39, %40
  br i1 %41, label %42, label %44

42:                                               ; preds = %37
  %43 = getelementptr inbounds i8, ptr %38, i64 -1
  store i8 48, ptr %43, align 1, !tbaa !5
  br label %45

44:                                               ; preds = %37
  br i1 %8, label %53, label %45

45:                                               ; preds = %44, %42
  %46 = phi ptr [ %43, %42 ], [ %38, %44 ]
  %47 = and i32 %2, 2
  %48 = icmp eq i32 %47, 0
  br i1 %48, label %49, label %53

49:                                               ; preds = %45
  %50 = and i32 %2, 4
  %51 = icmp eq i32 %50, 0
  %52 = select i1 %51, ptr @.str.9, ptr @.str.4.14
  br label %53

53:                                               ; preds = %49, %45, %44
  %54 = phi ptr [ %38, %44 ], [ %46, %49 ], [ %46, %45 ]
  %55 = phi ptr [ @.str.2.15, %44 ], [ %52, %49 ], [ @.str.3.16, %45 ]
  %56 = ptrtoint ptr %7 to i64
  %57 = ptrtoint ptr %54 to i64
  %58 = sub i64 %56, %57
  %59 = trunc i64 %58 to i32
  %60 = call fastcc i32 @number(ptr noundef %0, ptr noundef nonnull %55, ptr noundef nonnull %54, i32 noundef %59, i32 noundef %2, i32 noundef %3, i32 noundef %4) #15
  call void @llvm.lifetime.end.p0(i64 24, ptr nonnull %6) #14
  ret i32 %60
}

; Function Attrs: nounwind optsize uwtable
define internal i32 @__print_string(ptr nocapture noundef %0, ptr noundef %1, i32 noundef %2, i32 noundef %3, i32 noundef %4) local_unnamed_addr #1 {
  %6 = icmp eq ptr %1, null
  %7 = icmp ult i32 %4, 6
  %8 = select i1 %7, ptr @.str.9, ptr @.str.1.10
  %9 = select i1 %6, ptr %8, ptr %1
  %10 = icmp slt i32 %4, 0
  br i1 %10, label %11, label %20

11:                                               ; preds = %11, %5
  %12 = phi ptr [ %15, %11 ], [ %9, %5 ]
  %13 = load i8, ptr %12, align 1, !tbaa !5
  %14 = icmp eq i8 %13, 0
  %15 = getelementptr inbounds i8, ptr %12, i64 1
  br i1 %14, label %16, label %11, !llvm.loop !57

16:                                               ; preds = %11
  %17 = ptrtoint ptr %12 to i64
  %18 = ptrtoint ptr %9 to i64
  %19 = sub i64 %17, %18
  br label %31

20:                                               ; preds = %5
  %21 = zext nneg i32 %4 to i64
  %22 = icmp eq i32 %4, 0
  br i1 %22, label %31, label %23

23:                                               ; preds = %28, %20
  %24 = phi i64 [ %29, %28 ], [ 0, %20 ]
  %25 = getelementptr inbounds i8, ptr %9, i64 %24
  %26 = load i8, ptr %25, align 1, !tbaa !5
  %27 = icmp eq i8 %26, 0
  br i1 %27, label %31, label %28

28:                                               ; preds = %23
  %29 = add nuw nsw i64 %24, 1
  %30 = icmp eq i64 %29, %21
  br i1 %30, label %31, label %23, !llvm.loop !58

31:                                               ; preds = %28, %23, %20, %16
  %32 = phi i64 [ %19, %16 ], [ 0, %20 ], [ %24, %23 ], [ %21, %28 ]
  %33 = trunc i64 %32 to i32
  %34 = tail call fastcc i32 @padded(ptr noundef %0, ptr noundef nonnull %9, i32 noundef %33, i32 noundef %2, i32 noundef %3) #15
  ret i32 %34
}

; Function Attrs: nounwind optsize uwtable
define internal fastcc i32 @padded(ptr nocapture noundef %0, ptr nocapture noundef readonly %1, i32 noundef %2, i32 noundef %3, i32 noundef %4) unnamed_addr #1 {
  %6 = icmp slt i32 %4, 0
  %7 = lshr i32 %4, 31
  %8 = icmp ne i32 %7, 0
  %9 = sub i32 0, %4
  %10 = select i1 %8, i32 %9, i32 %4
  %11 = sub nsw i32 %10, %2
  %12 = and i32 %3, 1
  %13 = icmp ne i32 %12, 0
  %14 = or i1 %6, %13
  br i1 %14, label %24, label %15

15:                                               ; preds = %5
  %16 = icmp sgt i32 %11, 0
  br i1 %16, label %17, label %22

17:                                               ; preds = %17, %15
  %18 = phi i32 [ %20, %17 ], [ 0, %15 ]
  %19 = tail call i32 @fputc(i32 noundef 32, ptr noundef %0) #15
  %20 = add nuw nsw i32 %18, 1
  %21 = icmp eq i32 %20, %11
  br i1 %21, label %22, label %17, !llvm.loop !59

22:                                               ; preds = %17, %15
  %23 = tail call noundef i32 @llvm.smax.i32(i32 %11, i32 0)
  br label %24

24:                                               ; preds = %22, %5
  %25 = phi i32 [ %23, %22 ], [ 0, %5 ]
  %26 = sext i32 %2 to i64
  %27 = load i8, ptr %0, align 8, !tbaa !43, !alias.scope !60, !noalias !63
  %28 = icmp eq i8 %27, 0
  %29 = icmp eq i32 %2, 0
  %30 = or i1 %29, %28
  br i1 %30, label %39, label %31

31:                                               ; preds = %31, %24
  %32 = phi i64 [ %37, %31 ], [ 0, %24 ]
  %33 = getelementptr inbounds i8, ptr %1, i64 %32
  %34 = load i8, ptr %33, align 1, !tbaa !5, !alias.scope !63, !noalias !60
  %35 = zext i8 %34 to i32
  %36 = tail call i32 @fputc(i32 noundef %35, ptr noundef nonnull %0) #15, !noalias !63
  %37 = add nuw i64 %32, 1
  %38 = icmp eq i64 %37, %26
  br i1 %38, label %39, label %31, !llvm.loop !52

39:                                               ; preds = %31, %24
  br i1 %14, label %40, label %49

40:                                               ; preds = %39
  %41 = icmp sgt i32 %11, 0
  br i1 %41, label %42, label %47

42:                                               ; preds = %42, %40
  %43 = phi i32 [ %45, %42 ], [ 0, %40 ]
  %44 = tail call i32 @fputc(i32 noundef 32, ptr noundef nonnull %0) #15
  %45 = add nuw nsw i32 %43, 1
  %46 = icmp eq i32 %45, %11
  br i1 %46, label %47, label %42, !llvm.loop !59

47:                                               ; preds = %42, %40
  %48 = tail call noundef i32 @llvm.smax.i32(i32 %11, i32 0)
  br label %49

49:                                               ; preds = %47, %39
  %50 = phi i32 [ %48, %47 ], [ 0, %39 ]
  %51 = add nsw i32 %25, %2
  %52 = add nsw i32 %51, %50
  ret i32 %52
}

; Function Attrs: nounwind optsize uwtable
define internal range(i32 -1, 256) i32 @fputc(i32 noundef %0, ptr nocapture noundef %1) local_unnamed_addr #1 {
  %3 = load i8, ptr %1, align 8, !tbaa !43
  switch i8 %3, label %17 [
    i8 1, label %4
    i8 3, label %6
    i8 0, label %19
  ]

4:                                                ; preds = %2
  %5 = tail call i32 @putchar(i32 noundef %0) #18
  br label %17

6:                                                ; preds = %2
  %7 = getelementptr inbounds i8, ptr %1, i64 16
  %8 = load i64, ptr %7, align 8, !tbaa !56
  %9 = icmp eq i64 %8, 0
  br i1 %9, label %17, label %10

10:                                               ; preds = %6
  %11 = trunc i32 %0 to i8
  %12 = getelementptr inbounds i8, ptr %1, i64 8
  %13 = load ptr, ptr %12, align 8, !tbaa !55
  %14 = getelementptr inbounds i8, ptr %13, i64 1
  store ptr %14, ptr %12, align 8, !tbaa !55
  store i8 %11, ptr %13, align 1, !tbaa !5
  %15 = load i64, ptr %7, align 8, !tbaa !56
  %16 = add i64 %15, -1
  store i64 %16, ptr %7, align 8, !tbaa !56
  br label %17

17:                                               ; preds = %10, %6, %4, %2
  %18 = and i32 %0, 255
  br label %19

19:                                               ; preds = %17, %2
  %20 = phi i32 [ %18, %17 ], [ -1, %2 ]
  ret i32 %20
}

; Function Attrs: nocallback nofree nosync nounwind speculatable willreturn memory(none)
declare i32 @llvm.smax.i32(i32, i32) #8

; Function Attrs: nounwind optsize uwtable
define internal fastcc i32 @number(ptr nocapture noundef %0, ptr noundef %1, ptr nocapture noundef readonly %2, i32 noundef %3, i32 noundef %4, i32 noundef %5, i32 noundef %6) unnamed_addr #1 {
  br label %8

8:                                                ; preds = %8, %7
  %9 = phi ptr [ %1, %7 ], [ %12, %8 ]
  %10 = load i8, ptr %9, align 1, !tbaa !5
  %11 = icmp eq i8 %10, 0
  %12 = getelementptr inbounds i8, ptr %9, i64 1
  br i1 %11, label %13, label %8, !llvm.loop !57

13:                                               ; preds = %8
  %14 = ptrtoint ptr %9 to i64
  %15 = ptrtoint ptr %1 to i64
  %16 = sub i64 %14, %15
  %17 = trunc i64 %16 to i32
  %18 = sub nsw i32 %6, %3
  %19 = lshr i32 %5, 31
  %20 = icmp ne i32 %19, 0
  %21 = sub i32 0, %5
  %22 = select i1 %20, i32 %21, i32 %5
  %23 = tail call i32 @llvm.smax.i32(i32 %18, i32 0)
  %24 = icmp slt i32 %6, 0
  %25 = and i32 %4, 16
  %26 = icmp ne i32 %25, 0
  %27 = and i1 %26, %24
  %28 = and i32 %4, 1
  %29 = or i32 %19, %28
  %30 = icmp eq i32 %29, 0
  %31 = and i1 %27, %30
  %32 = add i32 %17, %3
  %33 = icmp sgt i32 %22, %32
  %34 = select i1 %31, i1 %33, i1 false
  %35 = sub i32 %22, %32
  %36 = select i1 %34, i32 %35, i32 %23
  %37 = add i32 %32, %36
  %38 = sub i32 %22, %37
  br i1 %30, label %39, label %48

39:                                               ; preds = %13
  %40 = icmp sgt i32 %38, 0
  br i1 %40, label %41, label %46

41:                                               ; preds = %41, %39
  %42 = phi i32 [ %44, %41 ], [ 0, %39 ]
  %43 = tail call i32 @fputc(i32 noundef 32, ptr noundef %0) #15
  %44 = add nuw nsw i32 %42, 1
  %45 = icmp eq i32 %44, %38
  br i1 %45, label %46, label %41, !llvm.loop !59

46:                                               ; preds = %41, %39
  %47 = tail call noundef i32 @llvm.smax.i32(i32 %38, i32 0)
  br label %48

48:                                               ; preds = %46, %13
  %49 = phi i32 [ 0, %13 ], [ %47, %46 ]
  %50 = shl i64 %16, 32
  %51 = ashr exact i64 %50, 32
  %52 = load i8, ptr %0, align 8, !tbaa !43, !alias.scope !65, !noalias !68
  %53 = icmp eq i8 %52, 0
  %54 = icmp eq i64 %50, 0
  %55 = or i1 %54, %53
  br i1 %55, label %64, label %56

56:                                               ; preds = %56, %48
  %57 = phi i64 [ %62, %56 ], [ 0, %48 ]
  %58 = getelementptr inbounds i8, ptr %1, i64 %57
  %59 = load i8, ptr %58, align 1, !tbaa !5, !alias.scope !68, !noalias !65
  %60 = zext i8 %59 to i32
  %61 = tail call i32 @fputc(i32 noundef %60, ptr noundef nonnull %0) #15, !noalias !68
  %62 = add nuw i64 %57, 1
  %63 = icmp eq i64 %62, %51
  br i1 %63, label %64, label %56, !llvm.loop !52

64:                                               ; preds = %56, %48
  %65 = icmp sgt i32 %36, 0
  br i1 %65, label %66, label %71

66:                                               ; preds = %66, %64
  %67 = phi i32 [ %69, %66 ], [ 0, %64 ]
  %68 = tail call i32 @fputc(i32 noundef 48, ptr noundef nonnull %0) #15
  %69 = add nuw nsw i32 %67, 1
  %70 = icmp eq i32 %69, %36
  br i1 %70, label %71, label %66, !llvm.loop !59

71:                                               ; preds = %66, %64
  %72 = tail call noundef i32 @llvm.smax.i32(i32 %36, i32 0)
  %73 = sext i32 %3 to i64
  %74 = load i8, ptr %0, align 8, !tbaa !43, !alias.scope !70, !noalias !73
  %75 = icmp eq i8 %74, 0
  %76 = icmp eq i32 %3, 0
  %77 = or i1 %76, %75
  br i1 %77, label %86, label %78

78:                                               ; preds = %78, %71
  %79 = phi i64 [ %84, %78 ], [ 0, %71 ]
  %80 = getelementptr inbounds i8, ptr %2, i64 %79
  %81 = load i8, ptr %80, align 1, !tbaa !5, !alias.scope !73, !noalias !70
  %82 = zext i8 %81 to i32
  %83 = tail call i32 @fputc(i32 noundef %82, ptr noundef nonnull %0) #15, !noalias !73
  %84 = add nuw i64 %79, 1
  %85 = icmp eq i64 %84, %73
  br i1 %85, label %86, label %78, !llvm.loop !52

86:                                               ; preds = %78, %71
  %87 = add i32 %32, %72
  %88 = add i32 %87, %49
  br i1 %30, label %99, label %89

89:                                               ; preds = %86
  %90 = icmp sgt i32 %38, 0
  br i1 %90, label %91, label %96

91:                                               ; preds = %91, %89
  %92 = phi i32 [ %94, %91 ], [ 0, %89 ]
  %93 = tail call i32 @fputc(i32 noundef 32, ptr noundef nonnull %0) #15
  %94 = add nuw nsw i32 %92, 1
  %95 = icmp eq i32 %94, %38
  br i1 %95, label %96, label %91, !llvm.loop !59

96:                                               ; preds = %91, %89
  %97 = tail call noundef i32 @llvm.smax.i32(i32 %38, i32 0)
  %98 = add nsw i32 %88, %97
  br label %99

99:                                               ; preds = %96, %86
  %100 = phi i32 [ %98, %96 ], [ %88, %86 ]
  ret i32 %100
}

; Function Attrs: nocallback nofree nounwind willreturn memory(argmem: write)
declare void @llvm.memset.p0.i64(ptr nocapture writeonly, i8, i64, i1 immarg) #9

; Function Attrs: nocallback nofree nosync nounwind speculatable willreturn memory(none)
declare i32 @llvm.umax.i32(i32, i32) #8

; Function Attrs: nocallback nofree nosync nounwind speculatable willreturn memory(none)
declare i32 @llvm.smin.i32(i32, i32) #8

; Function Attrs: noreturn optsize
declare dso_local void @abort() local_unnamed_addr #10

; Function Attrs: mustprogress nofree norecurse nosync nounwind optsize willreturn memory(none) uwtable
define internal range(i32 0, 2) i32 @isspace(i32 noundef %0) local_unnamed_addr #11 {
  %2 = icmp eq i32 %0, 32
  %3 = add i32 %0, -9
  %4 = icmp ult i32 %3, 5
  %5 = or i1 %2, %4
  %6 = zext i1 %5 to i32
  ret i32 %6
}

; Function Attrs: nounwind optsize uwtable
define internal i32 @fgetc(ptr nocapture noundef %0) local_unnamed_addr #1 {
  %2 = load i8, ptr %0, align 8, !tbaa !43
  %3 = icmp eq i8 %2, 0
  br i1 %3, label %4, label %20

4:                                                ; preds = %1
  %5 = getelementptr inbounds i8, ptr %0, i64 2
  %6 = load i8, ptr %5, align 2, !tbaa !75
  %7 = icmp eq i8 %6, 0
  br i1 %7, label %12, label %8

8:                                                ; preds = %4
  store i8 0, ptr %5, align 2, !tbaa !75
  %9 = getelementptr inbounds i8, ptr %0, i64 3
  %10 = load i8, ptr %9, align 1, !tbaa !76
  %11 = zext i8 %10 to i32
  br label %20

12:                                               ; preds = %4
  %13 = getelementptr inbounds i8, ptr %0, i64 1
  %14 = load i8, ptr %13, align 1, !tbaa !77
  %15 = icmp eq i8 %14, 0
  br i1 %15, label %16, label %20

16:                                               ; preds = %12
  %17 = tail call i32 @getchar() #18
  %18 = icmp eq i32 %17, -1
  br i1 %18, label %19, label %20

19:                                               ; preds = %16
  store i8 1, ptr %13, align 1, !tbaa !77
  br label %20

20:                                               ; preds = %19, %16, %12, %8, %1
  %21 = phi i32 [ %11, %8 ], [ -1, %1 ], [ -1, %12 ], [ -1, %19 ], [ %17, %16 ]
  ret i32 %21
}

; Function Attrs: optsize
declare dso_local i32 @getchar() local_unnamed_addr #12

attributes #0 = { nounwind uwtable "min-legal-vector-width"="0" "no-trapping-math"="true" "stack-protector-buffer-size"="8" "target-cpu"="x86-64" "target-features"="+cmov,+cx8,+fxsr,+mmx,+sse,+sse2,+x87" "tune-cpu"="generic" }
attributes #1 = { nounwind optsize uwtable "min-legal-vector-width"="0" "no-builtins" "no-jump-tables"="true" "no-trapping-math"="true" "stack-protector-buffer-size"="8" "target-cpu"="x86-64" "target-features"="+cmov,+cx8,+fxsr,+mmx,+sse,+sse2,+x87" "tune-cpu"="generic" }
attributes #2 = { noreturn nounwind optsize uwtable "min-legal-vector-width"="0" "no-builtins" "no-jump-tables"="true" "no-trapping-math"="true" "stack-protector-buffer-size"="8" "target-cpu"="x86-64" "target-features"="+cmov,+cx8,+fxsr,+mmx,+sse,+sse2,+x87" "tune-cpu"="generic" }
attributes #3 = { nocallback nofree nosync nounwind willreturn memory(argmem: readwrite) }
attributes #4 = { nocallback nofree nounwind willreturn memory(argmem: readwrite) }
attributes #5 = { nofree norecurse nosync nounwind optsize willreturn memory(write, argmem: none, inaccessiblemem: none) uwtable "min-legal-vector-width"="0" "no-builtins" "no-jump-tables"="true" "no-trapping-math"="true" "stack-protector-buffer-size"="8" "target-cpu"="x86-64" "target-features"="+cmov,+cx8,+fxsr,+mmx,+sse,+sse2,+x87" "tune-cpu"="generic" }
attributes #6 = { mustprogress nofree norecurse nosync nounwind optsize willreturn memory(write, argmem: readwrite, inaccessiblemem: none) uwtable "min-legal-vector-width"="0" "no-builtins" "no-jump-tables"="true" "no-trapping-math"="true" "stack-protector-buffer-size"="8" "target-cpu"="x86-64" "target-features"="+cmov,+cx8,+fxsr,+mmx,+sse,+sse2,+x87" "tune-cpu"="generic" }
attributes #7 = { nofree nounwind "no-trapping-math"="true" "stack-protector-buffer-size"="8" "target-cpu"="x86-64" "target-features"="+cmov,+cx8,+fxsr,+mmx,+sse,+sse2,+x87" "tune-cpu"="generic" }
attributes #8 = { nocallback nofree nosync nounwind speculatable willreturn memory(none) }
attributes #9 = { nocallback nofree nounwind willreturn memory(argmem: write) }
attributes #10 = { noreturn optsize "no-builtins" "no-trapping-math"="true" "stack-protector-buffer-size"="8" "target-cpu"="x86-64" "target-features"="+cmov,+cx8,+fxsr,+mmx,+sse,+sse2,+x87" "tune-cpu"="generic" }
attributes #11 = { mustprogress nofree norecurse nosync nounwind optsize willreturn memory(none) uwtable "min-legal-vector-width"="0" "no-builtins" "no-jump-tables"="true" "no-trapping-math"="true" "stack-protector-buffer-size"="8" "target-cpu"="x86-64" "target-features"="+cmov,+cx8,+fxsr,+mmx,+sse,+sse2,+x87" "tune-cpu"="generic" }
attributes #12 = { optsize "no-builtins" "no-trapping-math"="true" "stack-protector-buffer-size"="8" "target-cpu"="x86-64" "target-features"="+cmov,+cx8,+fxsr,+mmx,+sse,+sse2,+x87" "tune-cpu"="generic" }
attributes #13 = { noreturn nounwind }
attributes #14 = { nounwind }
attributes #15 = { nobuiltin optsize "no-builtins" }
attributes #16 = { nounwind willreturn memory(read) }
attributes #17 = { nobuiltin noreturn nounwind optsize "no-builtins" }
attributes #18 = { nobuiltin nounwind optsize "no-builtins" }

!llvm.ident = !{!0, !0, !0}
!llvm.module.flags = !{!1, !2, !3, !4}

!0 = !{!"Debian clang version 19.1.7 (3~deb12u1)"}
!1 = !{i32 7, !"Dwarf Version", i32 5}
!2 = !{i32 2, !"Debug Info Version", i32 3}
!3 = !{i32 1, !"wchar_size", i32 4}
!4 = !{i32 7, !"uwtable", i32 2}
!5 = !{!6, !6, i64 0}
!6 = !{!"omnipotent char", !7, i64 0}
!7 = !{!"Simple C/C++ TBAA"}
!8 = distinct !{!8, !9, !10}
!9 = !{!"llvm.loop.mustprogress"}
!10 = !{!"llvm.loop.unroll.disable"}
!11 = !{!12, !13, i64 0}
!12 = !{!"number", !13, i64 0, !6, i64 4}
!13 = !{!"int", !6, i64 0}
!14 = !{!13, !13, i64 0}
!15 = distinct !{!15, !9, !10}
!16 = distinct !{!16, !9, !10}
!17 = distinct !{!17, !9, !10}
!18 = distinct !{!18, !9, !10}
!19 = distinct !{!19, !9, !10}
!20 = distinct !{!20, !9, !10}
!21 = distinct !{!21, !9, !10}
!22 = !{i64 0, i64 4, !14, i64 4, i64 480, !5}
!23 = distinct !{!23, !9, !10}
!24 = distinct !{!24, !9, !10}
!25 = distinct !{!25, !9, !10}
!26 = distinct !{!26, !9, !10}
!27 = distinct !{!27, !9, !10}
!28 = distinct !{!28, !9, !10}
!29 = distinct !{!29, !9, !10}
!30 = distinct !{!30, !9, !10}
!31 = distinct !{!31, !9, !10}
!32 = distinct !{!32, !9, !10}
!33 = distinct !{!33, !9}
!34 = distinct !{!34, !9, !10}
!35 = distinct !{!35, !9, !10}
!36 = distinct !{!36, !9, !10}
!37 = distinct !{!37, !9, !10}
!38 = distinct !{!38, !9, !10}
!39 = distinct !{!39, !9, !10}
!40 = distinct !{!40, !9, !10}
!41 = distinct !{!41, !9, !10}
!42 = distinct !{!42, !9, !10}
!43 = !{!44, !6, i64 0}
!44 = !{!"__stream", !6, i64 0, !6, i64 1, !6, i64 2, !6, i64 3, !45, i64 8, !46, i64 16}
!45 = !{!"any pointer", !6, i64 0}
!46 = !{!"long", !6, i64 0}
!47 = !{!48}
!48 = distinct !{!48, !49, !"fwrite: %stream"}
!49 = distinct !{!49, !"fwrite"}
!50 = !{!51}
!51 = distinct !{!51, !49, !"fwrite: %from"}
!52 = distinct !{!52, !9}
!53 = distinct !{!53, !9}
!54 = distinct !{!54, !9}
!55 = !{!44, !45, i64 8}
!56 = !{!44, !46, i64 16}
!57 = distinct !{!57, !9}
!58 = distinct !{!58, !9}
!59 = distinct !{!59, !9}
!60 = !{!61}
!61 = distinct !{!61, !62, !"fwrite: %stream"}
!62 = distinct !{!62, !"fwrite"}
!63 = !{!64}
!64 = distinct !{!64, !62, !"fwrite: %from"}
!65 = !{!66}
!66 = distinct !{!66, !67, !"fwrite: %stream"}
!67 = distinct !{!67, !"fwrite"}
!68 = !{!69}
!69 = distinct !{!69, !67, !"fwrite: %from"}
!70 = !{!71}
!71 = distinct !{!71, !72, !"fwrite: %stream"}
!72 = distinct !{!72, !"fwrite"}
!73 = !{!74}
!74 = distinct !{!74, !72, !"fwrite: %from"}
!75 = !{!44, !6, i64 2}
!76 = !{!44, !6, i64 3}
!77 = !{!44, !6, i64 1}
