source_filename = "bignum.c"
target datalayout = "e-m:e-p:32:32-Fi8-i64:64-v128:64:128-a:0:32-n32-S64"
target triple = "armv7-unknown-linux-gnueabi"

%struct.number = type { i32, [120 x i32] }
%struct.__stream = type { i8, i8, i8, i8, ptr, i32 }

@main.line = internal global [1000 x i8] zeroinitializer, align 1
@.str = private unnamed_addr constant [19 x i8] c"not understood: %s\00", align 1
@answer.a = internal global %struct.number zeroinitializer, align 4
@answer.b = internal global %struct.number zeroinitializer, align 4
@answer.made = internal global %struct.number zeroinitializer, align 4
@.str.1 = private unnamed_addr constant [11 x i8] c"(left %u) \00", align 1
@.str.2 = private unnamed_addr constant [15 x i8] c"it->n < PIECES\00", align 1
@.str.3 = private unnamed_addr constant [11 x i8] c"./bignum.c\00", align 1
@__func__.push = private unnamed_addr constant [5 x i8] c"push\00", align 1
@fibonacci.next = internal unnamed_addr global %struct.number zeroinitializer, align 4
@power.square = internal global %struct.number zeroinitializer, align 4
@power.made = internal global %struct.number zeroinitializer, align 4
@.str.4 = private unnamed_addr constant [15 x i8] c"i + k < PIECES\00", align 1
@__func__.multiply = private unnamed_addr constant [9 x i8] c"multiply\00", align 1
@show.text = internal global [1090 x i8] zeroinitializer, align 1
@.str.5 = private unnamed_addr constant [22 x i8] c"\0A  %d digits, sum %d\0A\00", align 1
@.str.9 = private unnamed_addr constant [1 x i8] zeroinitializer, align 1
@.str.1.10 = private unnamed_addr constant [7 x i8] c"(null)\00", align 1
@.str.2.15 = private unnamed_addr constant [2 x i8] c"-\00", align 1
@.str.3.16 = private unnamed_addr constant [2 x i8] c"+\00", align 1
@.str.4.14 = private unnamed_addr constant [2 x i8] c" \00", align 1
@.str.5.19 = private unnamed_addr constant [3 x i8] c"0X\00", align 1
@.str.6 = private unnamed_addr constant [3 x i8] c"0x\00", align 1
@memory = internal global %struct.__stream zeroinitializer, align 4
@__streams = internal global [3 x %struct.__stream] [%struct.__stream zeroinitializer, %struct.__stream { i8 1, i8 0, i8 0, i8 0, ptr null, i32 0 }, %struct.__stream { i8 2, i8 0, i8 0, i8 0, ptr null, i32 0 }], align 4
@.str.8 = private unnamed_addr constant [17 x i8] c"0123456789ABCDEF\00", align 1
@.str.9.13 = private unnamed_addr constant [17 x i8] c"0123456789abcdef\00", align 1

; Function Attrs: nounwind
define dso_local i32 @main() local_unnamed_addr #0 {
  %1 = alloca %struct.number, align 4
  %2 = tail call ptr @fgets(ptr noundef nonnull @main.line, i32 noundef 1000, ptr noundef nonnull @__streams)
  %3 = icmp eq ptr %2, null
  br i1 %3, label %291, label %4

4:                                                ; preds = %287, %0
  %5 = phi i32 [ %288, %287 ], [ 0, %0 ]
  %6 = tail call fastcc ptr @read_number(ptr noundef nonnull @answer.a, ptr noundef nonnull @main.line)
  br label %7

7:                                                ; preds = %12, %4
  %8 = phi ptr [ %6, %4 ], [ %13, %12 ]
  %9 = load i8, ptr %8, align 1, !tbaa !5
  switch i8 %9, label %14 [
    i8 32, label %12
    i8 0, label %10
  ]

10:                                               ; preds = %7
  %11 = tail call fastcc ptr @read_number(ptr noundef nonnull @answer.b, ptr noundef nonnull %8)
  br label %284

12:                                               ; preds = %7
  %13 = getelementptr inbounds i8, ptr %8, i32 1
  br label %7, !llvm.loop !8

14:                                               ; preds = %7
  %15 = getelementptr inbounds i8, ptr %8, i32 1
  %16 = tail call fastcc ptr @read_number(ptr noundef nonnull @answer.b, ptr noundef nonnull %15)
  %17 = load i32, ptr @answer.a, align 4, !tbaa !10
  %18 = icmp eq i32 %17, 0
  %19 = load i32, ptr getelementptr inbounds (i8, ptr @answer.a, i32 4), align 4
  %20 = select i1 %18, i32 0, i32 %19
  %21 = load i32, ptr @answer.b, align 4, !tbaa !10
  %22 = icmp eq i32 %21, 0
  %23 = load i32, ptr getelementptr inbounds (i8, ptr @answer.b, i32 4), align 4
  %24 = select i1 %22, i32 0, i32 %23
  switch i8 %9, label %284 [
    i8 33, label %25
    i8 102, label %80
    i8 94, label %128
    i8 42, label %140
    i8 43, label %141
    i8 47, label %178
  ]

25:                                               ; preds = %14
  store i32 1, ptr getelementptr inbounds (i8, ptr @answer.made, i32 4), align 4, !tbaa !13
  store i32 0, ptr getelementptr inbounds (i8, ptr @answer.made, i32 8), align 4, !tbaa !13
  store i32 1, ptr @answer.made, align 4, !tbaa !10
  %26 = icmp ult i32 %20, 2
  br i1 %26, label %226, label %27

27:                                               ; preds = %76, %25
  %28 = phi i32 [ %77, %76 ], [ 1, %25 ]
  %29 = phi i32 [ %78, %76 ], [ 2, %25 ]
  %30 = icmp sgt i32 %28, 0
  br i1 %30, label %31, label %76

31:                                               ; preds = %27
  %32 = zext i32 %29 to i64
  br label %35

33:                                               ; preds = %35
  %34 = icmp ult i64 %42, 1000000000
  br i1 %34, label %65, label %50

35:                                               ; preds = %35, %31
  %36 = phi i32 [ 0, %31 ], [ %48, %35 ]
  %37 = phi i64 [ 0, %31 ], [ %44, %35 ]
  %38 = getelementptr inbounds [120 x i32], ptr getelementptr inbounds (i8, ptr @answer.made, i32 4), i32 0, i32 %36
  %39 = load i32, ptr %38, align 4, !tbaa !13
  %40 = zext i32 %39 to i64
  %41 = mul nuw i64 %40, %32
  %42 = add i64 %41, %37
  %43 = freeze i64 %42
  %44 = udiv i64 %43, 1000000000
  %45 = mul i64 %44, 1000000000
  %46 = sub i64 %43, %45
  %47 = trunc nuw nsw i64 %46 to i32
  store i32 %47, ptr %38, align 4, !tbaa !13
  %48 = add nuw nsw i32 %36, 1
  %49 = icmp eq i32 %48, %28
  br i1 %49, label %33, label %35, !llvm.loop !14

50:                                               ; preds = %55, %33
  %51 = phi i64 [ %56, %55 ], [ %44, %33 ]
  %52 = load i32, ptr @answer.made, align 4, !tbaa !10
  %53 = icmp slt i32 %52, 120
  br i1 %53, label %55, label %54

54:                                               ; preds = %50
  tail call void @__assert_fail(ptr noundef nonnull @.str.2, ptr noundef nonnull @.str.3, i32 noundef 32, ptr noundef nonnull @__func__.push) #13
  unreachable

55:                                               ; preds = %50
  %56 = udiv i64 %51, 1000000000
  %57 = mul i64 %56, 1000000000
  %58 = sub i64 %51, %57
  %59 = trunc nuw nsw i64 %58 to i32
  %60 = add nsw i32 %52, 1
  store i32 %60, ptr @answer.made, align 4, !tbaa !10
  %61 = getelementptr inbounds [120 x i32], ptr getelementptr inbounds (i8, ptr @answer.made, i32 4), i32 0, i32 %52
  store i32 %59, ptr %61, align 4, !tbaa !13
  %62 = icmp ult i64 %51, 1000000000
  br i1 %62, label %63, label %50, !llvm.loop !15

63:                                               ; preds = %55
  %64 = load i32, ptr @answer.made, align 4, !tbaa !10
  br label %65

65:                                               ; preds = %63, %33
  %66 = phi i32 [ %64, %63 ], [ %28, %33 ]
  %67 = icmp sgt i32 %66, 0
  br i1 %67, label %68, label %76

68:                                               ; preds = %74, %65
  %69 = phi i32 [ %70, %74 ], [ %66, %65 ]
  %70 = add nsw i32 %69, -1
  %71 = getelementptr inbounds [120 x i32], ptr getelementptr inbounds (i8, ptr @answer.made, i32 4), i32 0, i32 %70
  %72 = load i32, ptr %71, align 4, !tbaa !13
  %73 = icmp eq i32 %72, 0
  br i1 %73, label %74, label %76

74:                                               ; preds = %68
  store i32 %70, ptr @answer.made, align 4, !tbaa !10
  %75 = icmp ugt i32 %69, 1
  br i1 %75, label %68, label %76, !llvm.loop !16

76:                                               ; preds = %74, %68, %65, %27
  %77 = phi i32 [ %28, %27 ], [ %66, %65 ], [ %69, %68 ], [ 0, %74 ]
  %78 = add i32 %29, 1
  %79 = icmp ugt i32 %78, %20
  br i1 %79, label %219, label %27, !llvm.loop !17

80:                                               ; preds = %14
  store i32 0, ptr getelementptr inbounds (i8, ptr @answer.made, i32 4), align 4, !tbaa !13
  store i32 0, ptr getelementptr inbounds (i8, ptr @answer.made, i32 8), align 4, !tbaa !13
  store i32 0, ptr @answer.made, align 4, !tbaa !10
  store i32 1, ptr getelementptr inbounds (i8, ptr @fibonacci.next, i32 4), align 4, !tbaa !13
  store i32 0, ptr getelementptr inbounds (i8, ptr @fibonacci.next, i32 8), align 4, !tbaa !13
  store i32 1, ptr @fibonacci.next, align 4, !tbaa !10
  %81 = icmp eq i32 %20, 0
  br i1 %81, label %226, label %84

82:                                               ; preds = %125
  %83 = load i32, ptr @answer.made, align 4, !tbaa !10
  br label %84

84:                                               ; preds = %82, %80
  %85 = phi i32 [ %83, %82 ], [ 0, %80 ]
  %86 = phi i32 [ %88, %82 ], [ %19, %80 ]
  %87 = phi i32 [ %126, %82 ], [ 1, %80 ]
  %88 = add i32 %86, -1
  call void @llvm.lifetime.start.p0(i64 484, ptr nonnull %1)
  call void @llvm.memcpy.p0.p0.i32(ptr noundef nonnull align 4 dereferenceable(484) %1, ptr noundef nonnull align 4 dereferenceable(484) @fibonacci.next, i32 484, i1 false), !tbaa.struct !18
  %89 = icmp sgt i32 %85, 0
  br i1 %89, label %90, label %125

90:                                               ; preds = %115, %84
  %91 = phi i32 [ %106, %115 ], [ %87, %84 ]
  %92 = phi i32 [ %107, %115 ], [ %87, %84 ]
  %93 = phi i32 [ %119, %115 ], [ 0, %84 ]
  %94 = phi i32 [ %122, %115 ], [ 0, %84 ]
  %95 = icmp eq i32 %94, %92
  br i1 %95, label %99, label %96

96:                                               ; preds = %90
  %97 = getelementptr inbounds [120 x i32], ptr getelementptr inbounds (i8, ptr @fibonacci.next, i32 4), i32 0, i32 %94
  %98 = load i32, ptr %97, align 4, !tbaa !13
  br label %105

99:                                               ; preds = %90
  %100 = icmp ult i32 %92, 120
  br i1 %100, label %102, label %101

101:                                              ; preds = %99
  tail call void @__assert_fail(ptr noundef nonnull @.str.2, ptr noundef nonnull @.str.3, i32 noundef 32, ptr noundef nonnull @__func__.push) #13
  unreachable

102:                                              ; preds = %99
  %103 = add nuw nsw i32 %92, 1
  store i32 %103, ptr @fibonacci.next, align 4, !tbaa !10
  %104 = getelementptr inbounds [120 x i32], ptr getelementptr inbounds (i8, ptr @fibonacci.next, i32 4), i32 0, i32 %92
  store i32 0, ptr %104, align 4, !tbaa !13
  br label %105

105:                                              ; preds = %102, %96
  %106 = phi i32 [ %91, %96 ], [ %103, %102 ]
  %107 = phi i32 [ %92, %96 ], [ %103, %102 ]
  %108 = phi i32 [ %98, %96 ], [ 0, %102 ]
  %109 = getelementptr inbounds [120 x i32], ptr getelementptr inbounds (i8, ptr @fibonacci.next, i32 4), i32 0, i32 %94
  %110 = add i32 %108, %93
  %111 = icmp slt i32 %94, %85
  br i1 %111, label %112, label %115

112:                                              ; preds = %105
  %113 = getelementptr inbounds [120 x i32], ptr getelementptr inbounds (i8, ptr @answer.made, i32 4), i32 0, i32 %94
  %114 = load i32, ptr %113, align 4, !tbaa !13
  br label %115

115:                                              ; preds = %112, %105
  %116 = phi i32 [ %114, %112 ], [ 0, %105 ]
  %117 = add i32 %110, %116
  %118 = icmp ugt i32 %117, 999999999
  %119 = zext i1 %118 to i32
  %120 = add i32 %117, -1000000000
  %121 = select i1 %118, i32 %120, i32 %117
  store i32 %121, ptr %109, align 4, !tbaa !13
  %122 = add nuw nsw i32 %94, 1
  %123 = icmp slt i32 %122, %85
  %124 = select i1 %123, i1 true, i1 %118
  br i1 %124, label %90, label %125, !llvm.loop !19

125:                                              ; preds = %115, %84
  %126 = phi i32 [ %87, %84 ], [ %106, %115 ]
  call void @llvm.memcpy.p0.p0.i32(ptr noundef nonnull align 4 dereferenceable(484) @answer.made, ptr noundef nonnull align 4 dereferenceable(484) %1, i32 484, i1 false), !tbaa.struct !18
  call void @llvm.lifetime.end.p0(i64 484, ptr nonnull %1)
  %127 = icmp eq i32 %88, 0
  br i1 %127, label %219, label %82, !llvm.loop !20

128:                                              ; preds = %14
  tail call void @llvm.memcpy.p0.p0.i32(ptr noundef nonnull align 4 dereferenceable(484) @power.square, ptr noundef nonnull align 4 dereferenceable(484) @answer.a, i32 484, i1 false), !tbaa.struct !18
  store i32 1, ptr getelementptr inbounds (i8, ptr @answer.made, i32 4), align 4, !tbaa !13
  store i32 0, ptr getelementptr inbounds (i8, ptr @answer.made, i32 8), align 4, !tbaa !13
  store i32 1, ptr @answer.made, align 4, !tbaa !10
  %129 = icmp eq i32 %24, 0
  br i1 %129, label %226, label %130

130:                                              ; preds = %137, %128
  %131 = phi i32 [ %138, %137 ], [ %23, %128 ]
  %132 = and i32 %131, 1
  %133 = icmp eq i32 %132, 0
  br i1 %133, label %135, label %134

134:                                              ; preds = %130
  tail call fastcc void @multiply(ptr noundef nonnull @power.made, ptr noundef nonnull @answer.made, ptr noundef nonnull @power.square)
  tail call void @llvm.memcpy.p0.p0.i32(ptr noundef nonnull align 4 dereferenceable(484) @answer.made, ptr noundef nonnull align 4 dereferenceable(484) @power.made, i32 484, i1 false), !tbaa.struct !18
  br label %135

135:                                              ; preds = %134, %130
  %136 = icmp eq i32 %131, 1
  br i1 %136, label %219, label %137

137:                                              ; preds = %135
  tail call fastcc void @multiply(ptr noundef nonnull @power.made, ptr noundef nonnull @power.square, ptr noundef nonnull @power.square)
  tail call void @llvm.memcpy.p0.p0.i32(ptr noundef nonnull align 4 dereferenceable(484) @power.square, ptr noundef nonnull align 4 dereferenceable(484) @power.made, i32 484, i1 false), !tbaa.struct !18
  %138 = lshr i32 %131, 1
  %139 = icmp eq i32 %131, 0
  br i1 %139, label %219, label %130, !llvm.loop !21

140:                                              ; preds = %14
  tail call fastcc void @multiply(ptr noundef nonnull @answer.made, ptr noundef nonnull @answer.a, ptr noundef nonnull @answer.b)
  br label %219

141:                                              ; preds = %14
  tail call void @llvm.memcpy.p0.p0.i32(ptr noundef nonnull align 4 dereferenceable(484) @answer.made, ptr noundef nonnull align 4 dereferenceable(484) @answer.a, i32 484, i1 false), !tbaa.struct !18
  %142 = icmp sgt i32 %21, 0
  br i1 %142, label %143, label %219

143:                                              ; preds = %141
  %144 = load i32, ptr @answer.made, align 4, !tbaa !10
  br label %145

145:                                              ; preds = %168, %143
  %146 = phi i32 [ %160, %168 ], [ %144, %143 ]
  %147 = phi i32 [ %172, %168 ], [ 0, %143 ]
  %148 = phi i32 [ %175, %168 ], [ 0, %143 ]
  %149 = icmp eq i32 %148, %146
  br i1 %149, label %153, label %150

150:                                              ; preds = %145
  %151 = getelementptr inbounds [120 x i32], ptr getelementptr inbounds (i8, ptr @answer.made, i32 4), i32 0, i32 %148
  %152 = load i32, ptr %151, align 4, !tbaa !13
  br label %159

153:                                              ; preds = %145
  %154 = icmp ult i32 %146, 120
  br i1 %154, label %156, label %155

155:                                              ; preds = %153
  tail call void @__assert_fail(ptr noundef nonnull @.str.2, ptr noundef nonnull @.str.3, i32 noundef 32, ptr noundef nonnull @__func__.push) #13
  unreachable

156:                                              ; preds = %153
  %157 = add nuw nsw i32 %146, 1
  store i32 %157, ptr @answer.made, align 4, !tbaa !10
  %158 = getelementptr inbounds [120 x i32], ptr getelementptr inbounds (i8, ptr @answer.made, i32 4), i32 0, i32 %146
  store i32 0, ptr %158, align 4, !tbaa !13
  br label %159

159:                                              ; preds = %156, %150
  %160 = phi i32 [ %146, %150 ], [ %157, %156 ]
  %161 = phi i32 [ %152, %150 ], [ 0, %156 ]
  %162 = getelementptr inbounds [120 x i32], ptr getelementptr inbounds (i8, ptr @answer.made, i32 4), i32 0, i32 %148
  %163 = add i32 %161, %147
  %164 = icmp slt i32 %148, %21
  br i1 %164, label %165, label %168

165:                                              ; preds = %159
  %166 = getelementptr inbounds [120 x i32], ptr getelementptr inbounds (i8, ptr @answer.b, i32 4), i32 0, i32 %148
  %167 = load i32, ptr %166, align 4, !tbaa !13
  br label %168

168:                                              ; preds = %165, %159
  %169 = phi i32 [ %167, %165 ], [ 0, %159 ]
  %170 = add i32 %163, %169
  %171 = icmp ugt i32 %170, 999999999
  %172 = zext i1 %171 to i32
  %173 = add i32 %170, -1000000000
  %174 = select i1 %171, i32 %173, i32 %170
  store i32 %174, ptr %162, align 4, !tbaa !13
  %175 = add nuw nsw i32 %148, 1
  %176 = icmp slt i32 %175, %21
  %177 = select i1 %176, i1 true, i1 %171
  br i1 %177, label %145, label %219, !llvm.loop !22

178:                                              ; preds = %14
  %179 = icmp eq i32 %24, 0
  br i1 %179, label %284, label %180

180:                                              ; preds = %178
  tail call void @llvm.memcpy.p0.p0.i32(ptr noundef nonnull align 4 dereferenceable(484) @answer.made, ptr noundef nonnull align 4 dereferenceable(484) @answer.a, i32 484, i1 false), !tbaa.struct !18
  %181 = load i32, ptr @answer.made, align 4, !tbaa !10
  %182 = icmp sgt i32 %181, 0
  br i1 %182, label %183, label %213

183:                                              ; preds = %180
  %184 = zext i32 %24 to i64
  br label %197

185:                                              ; preds = %197
  %186 = trunc nuw i64 %211 to i32
  %187 = load i32, ptr @answer.made, align 4, !tbaa !10
  %188 = icmp sgt i32 %187, 0
  br i1 %188, label %189, label %213

189:                                              ; preds = %195, %185
  %190 = phi i32 [ %191, %195 ], [ %187, %185 ]
  %191 = add nsw i32 %190, -1
  %192 = getelementptr inbounds [120 x i32], ptr getelementptr inbounds (i8, ptr @answer.made, i32 4), i32 0, i32 %191
  %193 = load i32, ptr %192, align 4, !tbaa !13
  %194 = icmp eq i32 %193, 0
  br i1 %194, label %195, label %213

195:                                              ; preds = %189
  store i32 %191, ptr @answer.made, align 4, !tbaa !10
  %196 = icmp ugt i32 %190, 1
  br i1 %196, label %189, label %213, !llvm.loop !23

197:                                              ; preds = %197, %183
  %198 = phi i32 [ %181, %183 ], [ %200, %197 ]
  %199 = phi i64 [ 0, %183 ], [ %211, %197 ]
  %200 = add nsw i32 %198, -1
  %201 = mul nuw nsw i64 %199, 1000000000
  %202 = getelementptr inbounds [120 x i32], ptr getelementptr inbounds (i8, ptr @answer.made, i32 4), i32 0, i32 %200
  %203 = load i32, ptr %202, align 4, !tbaa !13
  %204 = zext i32 %203 to i64
  %205 = add nuw nsw i64 %201, %204
  %206 = freeze i64 %205
  %207 = freeze i64 %184
  %208 = udiv i64 %206, %207
  %209 = trunc i64 %208 to i32
  store i32 %209, ptr %202, align 4, !tbaa !13
  %210 = mul i64 %208, %207
  %211 = sub i64 %206, %210
  %212 = icmp ugt i32 %198, 1
  br i1 %212, label %197, label %185, !llvm.loop !24

213:                                              ; preds = %195, %189, %185, %180
  %214 = phi i32 [ %186, %185 ], [ 0, %180 ], [ %186, %189 ], [ %186, %195 ]
  %215 = tail call i32 @__print_text(ptr nonnull getelementptr inbounds (i8, ptr @__streams, i32 12), ptr nonnull @.str.1, i32 6) #14
  %216 = zext i32 %214 to i64
  %217 = tail call i32 @__print_unsigned(ptr nonnull getelementptr inbounds (i8, ptr @__streams, i32 12), i64 %216, i32 10, i32 0, i32 0, i32 -1) #14
  %218 = tail call i32 @__print_text(ptr nonnull getelementptr inbounds (i8, ptr @__streams, i32 12), ptr nonnull getelementptr inbounds (i8, ptr @.str.1, i32 8), i32 2) #14
  br label %219

219:                                              ; preds = %213, %168, %141, %140, %137, %135, %125, %76
  %220 = load i32, ptr @answer.made, align 4, !tbaa !10
  %221 = icmp eq i32 %220, 0
  br i1 %221, label %226, label %222

222:                                              ; preds = %219
  %223 = add nsw i32 %220, -1
  %224 = getelementptr inbounds [120 x i32], ptr getelementptr inbounds (i8, ptr @answer.made, i32 4), i32 0, i32 %223
  %225 = load i32, ptr %224, align 4, !tbaa !13
  br label %226

226:                                              ; preds = %222, %219, %128, %80, %25
  %227 = phi i32 [ 0, %219 ], [ 0, %80 ], [ %225, %222 ], [ 1, %128 ], [ 1, %25 ]
  %228 = tail call ptr @__print_open(ptr nonnull @show.text, i32 -1) #14
  %229 = zext i32 %227 to i64
  %230 = tail call i32 @__print_unsigned(ptr %228, i64 %229, i32 10, i32 0, i32 0, i32 -1) #14
  %231 = tail call i32 @__print_close(ptr %228, i32 -1) #14
  %232 = getelementptr i8, ptr @show.text, i32 %230
  %233 = getelementptr i8, ptr %232, i32 %231
  %234 = load i32, ptr @answer.made, align 4, !tbaa !10
  %235 = icmp sgt i32 %234, 1
  br i1 %235, label %236, label %251

236:                                              ; preds = %226
  %237 = add nsw i32 %234, -2
  br label %238

238:                                              ; preds = %238, %236
  %239 = phi i32 [ %249, %238 ], [ %237, %236 ]
  %240 = phi ptr [ %248, %238 ], [ %233, %236 ]
  %241 = getelementptr inbounds [120 x i32], ptr getelementptr inbounds (i8, ptr @answer.made, i32 4), i32 0, i32 %239
  %242 = load i32, ptr %241, align 4, !tbaa !13
  %243 = tail call ptr @__print_open(ptr %240, i32 -1) #14
  %244 = zext i32 %242 to i64
  %245 = tail call i32 @__print_unsigned(ptr %243, i64 %244, i32 10, i32 16, i32 9, i32 -1) #14
  %246 = tail call i32 @__print_close(ptr %243, i32 -1) #14
  %247 = add i32 %246, %245
  %248 = getelementptr inbounds i8, ptr %240, i32 %247
  %249 = add nsw i32 %239, -1
  %250 = icmp eq i32 %239, 0
  br i1 %250, label %251, label %238, !llvm.loop !25

251:                                              ; preds = %238, %226
  %252 = phi ptr [ %233, %226 ], [ %248, %238 ]
  %253 = ptrtoint ptr %252 to i32
  %254 = sub i32 %253, ptrtoint (ptr @show.text to i32)
  %255 = icmp sgt i32 %254, 0
  br i1 %255, label %256, label %274

256:                                              ; preds = %272, %251
  %257 = phi i32 [ %265, %272 ], [ 0, %251 ]
  %258 = phi i32 [ %263, %272 ], [ 0, %251 ]
  %259 = getelementptr inbounds [1090 x i8], ptr @show.text, i32 0, i32 %257
  %260 = load i8, ptr %259, align 1, !tbaa !5
  %261 = zext i8 %260 to i32
  %262 = add i32 %258, -48
  %263 = add i32 %262, %261
  %264 = tail call i32 @putchar(i32 noundef %261)
  %265 = add nuw nsw i32 %257, 1
  %266 = urem i32 %265, 60
  %267 = icmp eq i32 %266, 0
  %268 = icmp slt i32 %265, %254
  %269 = and i1 %268, %267
  br i1 %269, label %270, label %272

270:                                              ; preds = %256
  %271 = tail call i32 @putchar(i32 noundef 10)
  br label %272

272:                                              ; preds = %270, %256
  %273 = icmp eq i32 %265, %254
  br i1 %273, label %274, label %256, !llvm.loop !26

274:                                              ; preds = %272, %251
  %275 = phi i32 [ 0, %251 ], [ %263, %272 ]
  %276 = tail call i32 @__print_text(ptr nonnull getelementptr inbounds (i8, ptr @__streams, i32 12), ptr nonnull @.str.5, i32 3) #14
  %277 = sext i32 %254 to i64
  %278 = tail call i32 @__print_signed(ptr nonnull getelementptr inbounds (i8, ptr @__streams, i32 12), i64 %277, i32 0, i32 0, i32 -1) #14
  %279 = tail call i32 @__print_text(ptr nonnull getelementptr inbounds (i8, ptr @__streams, i32 12), ptr nonnull getelementptr inbounds (i8, ptr @.str.5, i32 5), i32 13) #14
  %280 = sext i32 %275 to i64
  %281 = tail call i32 @__print_signed(ptr nonnull getelementptr inbounds (i8, ptr @__streams, i32 12), i64 %280, i32 0, i32 0, i32 -1) #14
  %282 = tail call i32 @__print_text(ptr nonnull getelementptr inbounds (i8, ptr @__streams, i32 12), ptr nonnull getelementptr inbounds (i8, ptr @.str.5, i32 20), i32 1) #14
  %283 = add nsw i32 %5, 1
  br label %287

284:                                              ; preds = %178, %14, %10
  %285 = tail call i32 @__print_text(ptr nonnull getelementptr inbounds (i8, ptr @__streams, i32 12), ptr nonnull @.str, i32 16) #14
  %286 = tail call i32 @__print_string(ptr nonnull getelementptr inbounds (i8, ptr @__streams, i32 12), ptr nonnull @main.line, i32 0, i32 0, i32 -1) #14
  br label %287

287:                                              ; preds = %284, %274
  %288 = phi i32 [ %283, %274 ], [ %5, %284 ]
  %289 = tail call ptr @fgets(ptr noundef nonnull @main.line, i32 noundef 1000, ptr noundef nonnull @__streams)
  %290 = icmp eq ptr %289, null
  br i1 %290, label %291, label %4, !llvm.loop !27

291:                                              ; preds = %287, %0
  %292 = phi i32 [ 0, %0 ], [ %288, %287 ]
  ret i32 %292
}

; Function Attrs: nounwind optsize
define internal noundef ptr @fgets(ptr noalias noundef writeonly %0, i32 noundef %1, ptr noalias nocapture noundef %2) local_unnamed_addr #1 {
  %4 = icmp slt i32 %1, 1
  br i1 %4, label %23, label %5

5:                                                ; preds = %3
  %6 = icmp eq i32 %1, 1
  br i1 %6, label %21, label %7

7:                                                ; preds = %12, %5
  %8 = phi i32 [ %13, %12 ], [ %1, %5 ]
  %9 = phi ptr [ %15, %12 ], [ %0, %5 ]
  %10 = tail call i32 @fgetc(ptr noundef %2) #15
  %11 = icmp eq i32 %10, -1
  br i1 %11, label %19, label %12

12:                                               ; preds = %7
  %13 = add nsw i32 %8, -1
  %14 = trunc i32 %10 to i8
  %15 = getelementptr inbounds i8, ptr %9, i32 1
  store i8 %14, ptr %9, align 1, !tbaa !5
  %16 = icmp sgt i32 %8, 2
  %17 = icmp ne i32 %10, 10
  %18 = and i1 %16, %17
  br i1 %18, label %7, label %21, !llvm.loop !28

19:                                               ; preds = %7
  %20 = icmp eq ptr %9, %0
  br i1 %20, label %23, label %21

21:                                               ; preds = %19, %12, %5
  %22 = phi ptr [ %9, %19 ], [ %0, %5 ], [ %15, %12 ]
  store i8 0, ptr %22, align 1, !tbaa !5
  br label %23

23:                                               ; preds = %21, %19, %3
  %24 = phi ptr [ %0, %21 ], [ null, %3 ], [ null, %19 ]
  ret ptr %24
}

; Function Attrs: nounwind
define internal fastcc noundef ptr @read_number(ptr nocapture noundef %0, ptr noundef readonly %1) unnamed_addr #0 {
  %3 = getelementptr inbounds i8, ptr %0, i32 4
  store i32 0, ptr %3, align 4, !tbaa !13
  %4 = getelementptr inbounds i8, ptr %0, i32 8
  store i32 0, ptr %4, align 4, !tbaa !13
  store i32 0, ptr %0, align 4, !tbaa !10
  br label %5

5:                                                ; preds = %5, %2
  %6 = phi ptr [ %1, %2 ], [ %11, %5 ]
  %7 = load i8, ptr %6, align 1, !tbaa !5
  %8 = zext i8 %7 to i32
  %9 = tail call i32 @isspace(i32 noundef %8) #16
  %10 = icmp eq i32 %9, 0
  %11 = getelementptr inbounds i8, ptr %6, i32 1
  br i1 %10, label %12, label %5, !llvm.loop !29

12:                                               ; preds = %5
  %13 = add nsw i32 %8, -48
  %14 = icmp ult i32 %13, 10
  br i1 %14, label %15, label %73

15:                                               ; preds = %66, %12
  %16 = phi i32 [ %67, %66 ], [ 0, %12 ]
  %17 = phi i32 [ %71, %66 ], [ %13, %12 ]
  %18 = phi ptr [ %68, %66 ], [ %6, %12 ]
  %19 = zext nneg i32 %17 to i64
  %20 = icmp sgt i32 %16, 0
  br i1 %20, label %24, label %21

21:                                               ; preds = %24, %15
  %22 = phi i64 [ %19, %15 ], [ %33, %24 ]
  %23 = icmp eq i64 %22, 0
  br i1 %23, label %55, label %39

24:                                               ; preds = %24, %15
  %25 = phi i32 [ %37, %24 ], [ 0, %15 ]
  %26 = phi i64 [ %33, %24 ], [ %19, %15 ]
  %27 = getelementptr inbounds [120 x i32], ptr %3, i32 0, i32 %25
  %28 = load i32, ptr %27, align 4, !tbaa !13
  %29 = zext i32 %28 to i64
  %30 = mul nuw nsw i64 %29, 10
  %31 = add nuw nsw i64 %30, %26
  %32 = freeze i64 %31
  %33 = udiv i64 %32, 1000000000
  %34 = mul i64 %33, 1000000000
  %35 = sub i64 %32, %34
  %36 = trunc nuw nsw i64 %35 to i32
  store i32 %36, ptr %27, align 4, !tbaa !13
  %37 = add nuw nsw i32 %25, 1
  %38 = icmp eq i32 %37, %16
  br i1 %38, label %21, label %24, !llvm.loop !30

39:                                               ; preds = %44, %21
  %40 = phi i64 [ %46, %44 ], [ %22, %21 ]
  %41 = load i32, ptr %0, align 4, !tbaa !10
  %42 = icmp slt i32 %41, 120
  br i1 %42, label %44, label %43

43:                                               ; preds = %39
  tail call void @__assert_fail(ptr noundef nonnull @.str.2, ptr noundef nonnull @.str.3, i32 noundef 32, ptr noundef nonnull @__func__.push) #13
  unreachable

44:                                               ; preds = %39
  %45 = freeze i64 %40
  %46 = udiv i64 %45, 1000000000
  %47 = mul i64 %46, 1000000000
  %48 = sub i64 %45, %47
  %49 = trunc nuw nsw i64 %48 to i32
  %50 = add nsw i32 %41, 1
  store i32 %50, ptr %0, align 4, !tbaa !10
  %51 = getelementptr inbounds [120 x i32], ptr %3, i32 0, i32 %41
  store i32 %49, ptr %51, align 4, !tbaa !13
  %52 = icmp ult i64 %40, 1000000000
  br i1 %52, label %53, label %39, !llvm.loop !31

53:                                               ; preds = %44
  %54 = load i32, ptr %0, align 4, !tbaa !10
  br label %55

55:                                               ; preds = %53, %21
  %56 = phi i32 [ %54, %53 ], [ %16, %21 ]
  %57 = icmp sgt i32 %56, 0
  br i1 %57, label %58, label %66

58:                                               ; preds = %64, %55
  %59 = phi i32 [ %60, %64 ], [ %56, %55 ]
  %60 = add nsw i32 %59, -1
  %61 = getelementptr inbounds [120 x i32], ptr %3, i32 0, i32 %60
  %62 = load i32, ptr %61, align 4, !tbaa !13
  %63 = icmp eq i32 %62, 0
  br i1 %63, label %64, label %66

64:                                               ; preds = %58
  store i32 %60, ptr %0, align 4, !tbaa !10
  %65 = icmp ugt i32 %59, 1
  br i1 %65, label %58, label %66, !llvm.loop !32

66:                                               ; preds = %64, %58, %55
  %67 = phi i32 [ %56, %55 ], [ %59, %58 ], [ 0, %64 ]
  %68 = getelementptr inbounds i8, ptr %18, i32 1
  %69 = load i8, ptr %68, align 1, !tbaa !5
  %70 = zext i8 %69 to i32
  %71 = add nsw i32 %70, -48
  %72 = icmp ult i32 %71, 10
  br i1 %72, label %15, label %73, !llvm.loop !33

73:                                               ; preds = %66, %12
  %74 = phi ptr [ %6, %12 ], [ %68, %66 ]
  ret ptr %74
}

; Function Attrs: noreturn nounwind optsize
define internal void @__assert_fail(ptr nocapture noundef readnone %0, ptr nocapture noundef readnone %1, i32 noundef %2, ptr nocapture noundef readnone %3) local_unnamed_addr #2 {
  tail call void @abort() #17
  unreachable
}

; Function Attrs: nocallback nofree nosync nounwind willreturn memory(argmem: readwrite)
declare void @llvm.lifetime.start.p0(i64 immarg, ptr nocapture) #3

; Function Attrs: nocallback nofree nounwind willreturn memory(argmem: readwrite)
declare void @llvm.memcpy.p0.p0.i32(ptr noalias nocapture writeonly, ptr noalias nocapture readonly, i32, i1 immarg) #4

; Function Attrs: nocallback nofree nosync nounwind willreturn memory(argmem: readwrite)
declare void @llvm.lifetime.end.p0(i64 immarg, ptr nocapture) #3

; Function Attrs: nounwind
define internal fastcc void @multiply(ptr nocapture noundef %0, ptr nocapture noundef readonly %1, ptr nocapture noundef readonly %2) unnamed_addr #0 {
  tail call void @llvm.memset.p0.i32(ptr noundef nonnull align 4 dereferenceable(484) %0, i8 0, i32 484, i1 false)
  %4 = load i32, ptr %1, align 4, !tbaa !10
  %5 = icmp sgt i32 %4, 0
  %6 = load i32, ptr %2, align 4, !tbaa !10
  br i1 %5, label %7, label %21

7:                                                ; preds = %3
  %8 = getelementptr inbounds i8, ptr %0, i32 4
  %9 = getelementptr inbounds i8, ptr %1, i32 4
  %10 = getelementptr inbounds i8, ptr %2, i32 4
  br label %11

11:                                               ; preds = %39, %7
  %12 = phi i32 [ %4, %7 ], [ %40, %39 ]
  %13 = phi i32 [ %6, %7 ], [ %41, %39 ]
  %14 = phi i32 [ 0, %7 ], [ %44, %39 ]
  %15 = phi i32 [ 0, %7 ], [ %42, %39 ]
  %16 = tail call i32 @llvm.umax.i32(i32 %15, i32 120)
  %17 = add i32 %16, %14
  %18 = icmp sgt i32 %13, 0
  br i1 %18, label %19, label %39

19:                                               ; preds = %11
  %20 = getelementptr inbounds [120 x i32], ptr %9, i32 0, i32 %15
  br label %45

21:                                               ; preds = %39, %3
  %22 = phi i32 [ %6, %3 ], [ %41, %39 ]
  %23 = phi i32 [ %4, %3 ], [ %40, %39 ]
  %24 = add nsw i32 %22, %23
  %25 = tail call i32 @llvm.smin.i32(i32 %24, i32 120)
  store i32 %25, ptr %0, align 4, !tbaa !10
  %26 = getelementptr inbounds i8, ptr %0, i32 4
  %27 = icmp sgt i32 %24, 0
  br i1 %27, label %28, label %36

28:                                               ; preds = %34, %21
  %29 = phi i32 [ %30, %34 ], [ %25, %21 ]
  %30 = add nsw i32 %29, -1
  %31 = getelementptr inbounds [120 x i32], ptr %26, i32 0, i32 %30
  %32 = load i32, ptr %31, align 4, !tbaa !13
  %33 = icmp eq i32 %32, 0
  br i1 %33, label %34, label %36

34:                                               ; preds = %28
  store i32 %30, ptr %0, align 4, !tbaa !10
  %35 = icmp ugt i32 %29, 1
  br i1 %35, label %28, label %36, !llvm.loop !34

36:                                               ; preds = %34, %28, %21
  ret void

37:                                               ; preds = %61
  %38 = load i32, ptr %1, align 4, !tbaa !10
  br label %39

39:                                               ; preds = %37, %11
  %40 = phi i32 [ %38, %37 ], [ %12, %11 ]
  %41 = phi i32 [ %73, %37 ], [ %13, %11 ]
  %42 = add nuw nsw i32 %15, 1
  %43 = icmp slt i32 %42, %40
  %44 = add nsw i32 %14, -1
  br i1 %43, label %11, label %21, !llvm.loop !35

45:                                               ; preds = %61, %19
  %46 = phi i1 [ true, %19 ], [ %74, %61 ]
  %47 = phi i32 [ 0, %19 ], [ %72, %61 ]
  %48 = phi i64 [ 0, %19 ], [ %68, %61 ]
  %49 = icmp eq i32 %47, %17
  br i1 %49, label %50, label %51

50:                                               ; preds = %45
  tail call void @__assert_fail(ptr noundef nonnull @.str.4, ptr noundef nonnull @.str.3, i32 noundef 65, ptr noundef nonnull @__func__.multiply) #13
  unreachable

51:                                               ; preds = %45
  %52 = add nuw nsw i32 %47, %15
  %53 = getelementptr inbounds [120 x i32], ptr %8, i32 0, i32 %52
  %54 = load i32, ptr %53, align 4, !tbaa !13
  %55 = zext i32 %54 to i64
  %56 = load i32, ptr %20, align 4, !tbaa !13
  %57 = zext i32 %56 to i64
  br i1 %46, label %58, label %61

58:                                               ; preds = %51
  %59 = getelementptr inbounds [120 x i32], ptr %10, i32 0, i32 %47
  %60 = load i32, ptr %59, align 4, !tbaa !13
  br label %61

61:                                               ; preds = %58, %51
  %62 = phi i32 [ %60, %58 ], [ 0, %51 ]
  %63 = zext i32 %62 to i64
  %64 = mul nuw i64 %63, %57
  %65 = add nuw nsw i64 %48, %55
  %66 = add i64 %65, %64
  %67 = freeze i64 %66
  %68 = udiv i64 %67, 1000000000
  %69 = mul i64 %68, 1000000000
  %70 = sub i64 %67, %69
  %71 = trunc nuw nsw i64 %70 to i32
  store i32 %71, ptr %53, align 4, !tbaa !13
  %72 = add nuw nsw i32 %47, 1
  %73 = load i32, ptr %2, align 4, !tbaa !10
  %74 = icmp slt i32 %72, %73
  %75 = icmp ugt i64 %66, 999999999
  %76 = select i1 %74, i1 true, i1 %75
  br i1 %76, label %45, label %37, !llvm.loop !36
}

; Function Attrs: nounwind optsize
define internal noundef i32 @__print_text(ptr nocapture noundef %0, ptr nocapture noundef readonly %1, i32 noundef returned %2) local_unnamed_addr #1 {
  %4 = load i8, ptr %0, align 4, !tbaa !37, !alias.scope !40, !noalias !43
  %5 = icmp eq i8 %4, 0
  %6 = icmp eq i32 %2, 0
  %7 = or i1 %6, %5
  br i1 %7, label %16, label %8

8:                                                ; preds = %8, %3
  %9 = phi i32 [ %14, %8 ], [ 0, %3 ]
  %10 = getelementptr inbounds i8, ptr %1, i32 %9
  %11 = load i8, ptr %10, align 1, !tbaa !5, !alias.scope !43, !noalias !40
  %12 = zext i8 %11 to i32
  %13 = tail call i32 @fputc(i32 noundef %12, ptr noundef nonnull %0) #15, !noalias !43
  %14 = add nuw i32 %9, 1
  %15 = icmp eq i32 %14, %2
  br i1 %15, label %16, label %8, !llvm.loop !45

16:                                               ; preds = %8, %3
  ret i32 %2
}

; Function Attrs: nounwind optsize
define internal i32 @__print_unsigned(ptr nocapture noundef %0, i64 noundef %1, i32 noundef %2, i32 noundef %3, i32 noundef %4, i32 noundef %5) local_unnamed_addr #1 {
  %7 = alloca [24 x i8], align 1
  call void @llvm.lifetime.start.p0(i64 24, ptr nonnull %7) #14
  %8 = and i32 %3, 32
  %9 = icmp eq i32 %8, 0
  %10 = select i1 %9, ptr @.str.9.13, ptr @.str.8
  %11 = icmp ult i64 %1, 4294967296
  br i1 %11, label %14, label %12

12:                                               ; preds = %6
  %13 = zext i32 %2 to i64
  br label %29

14:                                               ; preds = %6
  %15 = trunc nuw i64 %1 to i32
  %16 = icmp eq i32 %15, 0
  br i1 %16, label %41, label %17

17:                                               ; preds = %17, %14
  %18 = phi i32 [ %21, %17 ], [ %15, %14 ]
  %19 = phi i32 [ %26, %17 ], [ 24, %14 ]
  %20 = freeze i32 %18
  %21 = udiv i32 %20, %2
  %22 = mul i32 %21, %2
  %23 = sub i32 %20, %22
  %24 = getelementptr inbounds i8, ptr %10, i32 %23
  %25 = load i8, ptr %24, align 1, !tbaa !5
  %26 = add nsw i32 %19, -1
  %27 = getelementptr inbounds i8, ptr %7, i32 %26
  store i8 %25, ptr %27, align 1, !tbaa !5
  %28 = icmp ult i32 %18, %2
  br i1 %28, label %41, label %17, !llvm.loop !46

29:                                               ; preds = %29, %12
  %30 = phi i32 [ 24, %12 ], [ %38, %29 ]
  %31 = phi i64 [ %1, %12 ], [ %32, %29 ]
  %32 = udiv i64 %31, %13
  %33 = mul i64 %32, %13
  %34 = sub i64 %31, %33
  %35 = trunc nuw i64 %34 to i32
  %36 = getelementptr inbounds i8, ptr %10, i32 %35
  %37 = load i8, ptr %36, align 1, !tbaa !5
  %38 = add nsw i32 %30, -1
  %39 = getelementptr inbounds i8, ptr %7, i32 %38
  store i8 %37, ptr %39, align 1, !tbaa !5
  %40 = icmp ult i64 %31, %13
  br i1 %40, label %41, label %29, !llvm.loop !47

41:                                               ; preds = %29, %17, %14
  %42 = phi i32 [ 24, %14 ], [ %26, %17 ], [ %38, %29 ]
  %43 = icmp eq i64 %1, 0
  %44 = icmp ne i32 %5, 0
  %45 = and i1 %43, %44
  br i1 %45, label %46, label %49

46:                                               ; preds = %41
  %47 = add nsw i32 %42, -1
  %48 = getelementptr inbounds i8, ptr %7, i32 %47
  store i8 48, ptr %48, align 1, !tbaa !5
  br label %49

49:                                               ; preds = %46, %41
  %50 = phi i32 [ %47, %46 ], [ %42, %41 ]
  %51 = getelementptr inbounds i8, ptr %7, i32 %50
  %52 = and i32 %3, 8
  %53 = icmp ne i32 %52, 0
  %54 = icmp eq i32 %2, 8
  %55 = and i1 %54, %53
  %56 = sub nsw i32 24, %50
  %57 = icmp sge i32 %56, %5
  %58 = select i1 %55, i1 %57, i1 false
  br i1 %58, label %59, label %66

59:                                               ; preds = %49
  %60 = icmp eq i32 %50, 24
  br i1 %60, label %64, label %61

61:                                               ; preds = %59
  %62 = load i8, ptr %51, align 1, !tbaa !5
  %63 = icmp eq i8 %62, 48
  br i1 %63, label %66, label %64

64:                                               ; preds = %61, %59
  %65 = getelementptr inbounds i8, ptr %51, i32 -1
  store i8 48, ptr %65, align 1, !tbaa !5
  br label %66

66:                                               ; preds = %64, %61, %49
  %67 = phi ptr [ %65, %64 ], [ %51, %61 ], [ %51, %49 ]
  %68 = getelementptr inbounds i8, ptr %7, i32 24
  %69 = ptrtoint ptr %68 to i32
  %70 = icmp eq i32 %2, 16
  %71 = icmp ne i64 %1, 0
  %72 = and i1 %71, %70
  %73 = and i1 %72, %53
  %74 = select i1 %9, ptr @.str.6, ptr @.str.5.19
  %75 = select i1 %73, ptr %74, ptr @.str.9
  %76 = ptrtoint ptr %67 to i32
  %77 = sub i32 %69, %76
  %78 = call fastcc i32 @number(ptr noundef %0, ptr noundef nonnull %75, ptr noundef nonnull %67, i32 noundef %77, i32 noundef %3, i32 noundef %4, i32 noundef %5) #15
  call void @llvm.lifetime.end.p0(i64 24, ptr nonnull %7) #14
  ret i32 %78
}

; Function Attrs: nofree norecurse nosync nounwind optsize willreturn memory(write, argmem: none, inaccessiblemem: none)
define internal noundef nonnull ptr @__print_open(ptr noundef %0, i32 noundef %1) local_unnamed_addr #5 {
  store i8 3, ptr @memory, align 4, !tbaa !37
  store ptr %0, ptr getelementptr inbounds (i8, ptr @memory, i32 4), align 4, !tbaa !48
  %3 = icmp ult i32 %1, 1
  %4 = sub i32 %1, 1
  %5 = select i1 %3, i32 0, i32 %4
  store i32 %5, ptr getelementptr inbounds (i8, ptr @memory, i32 8), align 4, !tbaa !49
  ret ptr @memory
}

; Function Attrs: mustprogress nofree norecurse nosync nounwind optsize willreturn memory(write, argmem: readwrite, inaccessiblemem: none)
define internal noundef i32 @__print_close(ptr nocapture noundef readonly %0, i32 noundef %1) local_unnamed_addr #6 {
  %3 = icmp eq i32 %1, 0
  br i1 %3, label %7, label %4

4:                                                ; preds = %2
  %5 = getelementptr inbounds i8, ptr %0, i32 4
  %6 = load ptr, ptr %5, align 4, !tbaa !48
  store i8 0, ptr %6, align 1, !tbaa !5
  br label %7

7:                                                ; preds = %4, %2
  ret i32 0
}

; Function Attrs: nofree nounwind
declare dso_local noundef i32 @putchar(i32 noundef) local_unnamed_addr #7

; Function Attrs: nounwind optsize
define internal i32 @__print_signed(ptr nocapture noundef %0, i64 noundef %1, i32 noundef %2, i32 noundef %3, i32 noundef %4) local_unnamed_addr #1 {
  %6 = alloca [24 x i8], align 1
  call void @llvm.lifetime.start.p0(i64 24, ptr nonnull %6) #14
  %7 = getelementptr inbounds i8, ptr %6, i32 24
  %8 = icmp slt i64 %1, 0
  %9 = lshr i64 %1, 63
  %10 = icmp ne i64 %9, 0
  %11 = sub i64 0, %1
  %12 = select i1 %10, i64 %11, i64 %1
  %13 = icmp ult i64 %12, 4294967296
  br i1 %13, label %14, label %28

14:                                               ; preds = %5
  %15 = trunc nuw i64 %12 to i32
  %16 = icmp eq i32 %15, 0
  br i1 %16, label %39, label %17

17:                                               ; preds = %17, %14
  %18 = phi i32 [ %21, %17 ], [ %15, %14 ]
  %19 = phi ptr [ %26, %17 ], [ %7, %14 ]
  %20 = freeze i32 %18
  %21 = udiv i32 %20, 10
  %22 = mul i32 %21, 10
  %23 = sub i32 %20, %22
  %24 = getelementptr inbounds i8, ptr @.str.9.13, i32 %23
  %25 = load i8, ptr %24, align 1, !tbaa !5
  %26 = getelementptr inbounds i8, ptr %19, i32 -1
  store i8 %25, ptr %26, align 1, !tbaa !5
  %27 = icmp ult i32 %18, 10
  br i1 %27, label %39, label %17, !llvm.loop !46

28:                                               ; preds = %28, %5
  %29 = phi ptr [ %37, %28 ], [ %7, %5 ]
  %30 = phi i64 [ %31, %28 ], [ %12, %5 ]
  %31 = udiv i64 %30, 10
  %32 = mul i64 %31, 10
  %33 = sub i64 %30, %32
  %34 = trunc nuw nsw i64 %33 to i32
  %35 = getelementptr inbounds i8, ptr @.str.9.13, i32 %34
  %36 = load i8, ptr %35, align 1, !tbaa !5
  %37 = getelementptr inbounds i8, ptr %29, i32 -1
  store i8 %36, ptr %37, align 1, !tbaa !5
  %38 = icmp ult i64 %30, 10
  br i1 %38, label %39, label %28, !llvm.loop !47

39:                                               ; preds = %28, %17, %14
  %40 = phi ptr [ %7, %14 ], [ %26, %17 ], [ %37, %28 ]
  %41 = icmp eq i64 %1, 0
  %42 = icmp ne i32 %4, 0
  %43 = and i1 %41, %42
  br i1 %43, label %44, label %46

44:                                               ; preds = %39
  %45 = getelementptr inbounds i8, ptr %40, i32 -1
  store i8 48, ptr %45, align 1, !tbaa !5
  br label %47

46:                                               ; preds = %39
  br i1 %8, label %55, label %47

47:                                               ; preds = %46, %44
  %48 = phi ptr [ %45, %44 ], [ %40, %46 ]
  %49 = and i32 %2, 2
  %50 = icmp eq i32 %49, 0
  br i1 %50, label %51, label %55

51:                                               ; preds = %47
  %52 = and i32 %2, 4
  %53 = icmp eq i32 %52, 0
  %54 = select i1 %53, ptr @.str.9, ptr @.str.4.14
  br label %55

55:                                               ; preds = %51, %47, %46
  %56 = phi ptr [ %40, %46 ], [ %48, %51 ], [ %48, %47 ]
  %57 = phi ptr [ @.str.2.15, %46 ], [ %54, %51 ], [ @.str.3.16, %47 ]
  %58 = ptrtoint ptr %7 to i32
  %59 = ptrtoint ptr %56 to i32
  %60 = sub i32 %58, %59
  %61 = call fastcc i32 @number(ptr noundef %0, ptr noundef nonnull %57, ptr noundef nonnull %56, i32 noundef %60, i32 noundef %2, i32 noundef %3, i32 noundef %4) #15
  call void @llvm.lifetime.end.p0(i64 24, ptr nonnull %6) #14
  ret i32 %61
}

; Function Attrs: nounwind optsize
define internal i32 @__print_string(ptr nocapture noundef %0, ptr noundef %1, i32 noundef %2, i32 noundef %3, i32 noundef %4) local_unnamed_addr #1 {
  %6 = icmp eq ptr %1, null
  %7 = icmp ult i32 %4, 6
  %8 = select i1 %7, ptr @.str.9, ptr @.str.1.10
  %9 = select i1 %6, ptr %8, ptr %1
  %10 = icmp slt i32 %4, 0
  br i1 %10, label %11, label %20

11:                                               ; preds = %11, %5
  %12 = phi ptr [ %15, %11 ], [ %9, %5 ]
  %13 = load i8, ptr %12, align 1, !tbaa !5
  %14 = icmp eq i8 %13, 0
  %15 = getelementptr inbounds i8, ptr %12, i32 1
  br i1 %14, label %16, label %11, !llvm.loop !50

16:                                               ; preds = %11
  %17 = ptrtoint ptr %12 to i32
  %18 = ptrtoint ptr %9 to i32
  %19 = sub i32 %17, %18
  br label %30

20:                                               ; preds = %5
  %21 = icmp eq i32 %4, 0
  br i1 %21, label %30, label %22

22:                                               ; preds = %27, %20
  %23 = phi i32 [ %28, %27 ], [ 0, %20 ]
  %24 = getelementptr inbounds i8, ptr %9, i32 %23
  %25 = load i8, ptr %24, align 1, !tbaa !5
  %26 = icmp eq i8 %25, 0
  br i1 %26, label %30, label %27

27:                                               ; preds = %22
  %28 = add nuw nsw i32 %23, 1
  %29 = icmp eq i32 %28, %4
  br i1 %29, label %30, label %22, !llvm.loop !51

30:                                               ; preds = %27, %22, %20, %16
  %31 = phi i32 [ %19, %16 ], [ 0, %20 ], [ %23, %22 ], [ %4, %27 ]
  %32 = tail call fastcc i32 @padded(ptr noundef %0, ptr noundef nonnull %9, i32 noundef %31, i32 noundef %2, i32 noundef %3) #15
  ret i32 %32
}

; Function Attrs: nounwind optsize
define internal fastcc i32 @padded(ptr nocapture noundef %0, ptr nocapture noundef readonly %1, i32 noundef %2, i32 noundef %3, i32 noundef %4) unnamed_addr #1 {
  %6 = icmp slt i32 %4, 0
  %7 = lshr i32 %4, 31
  %8 = icmp ne i32 %7, 0
  %9 = sub i32 0, %4
  %10 = select i1 %8, i32 %9, i32 %4
  %11 = sub nsw i32 %10, %2
  %12 = and i32 %3, 1
  %13 = icmp ne i32 %12, 0
  %14 = or i1 %6, %13
  br i1 %14, label %24, label %15

15:                                               ; preds = %5
  %16 = icmp sgt i32 %11, 0
  br i1 %16, label %17, label %22

17:                                               ; preds = %17, %15
  %18 = phi i32 [ %20, %17 ], [ 0, %15 ]
  %19 = tail call i32 @fputc(i32 noundef 32, ptr noundef %0) #15
  %20 = add nuw nsw i32 %18, 1
  %21 = icmp eq i32 %20, %11
  br i1 %21, label %22, label %17, !llvm.loop !52

22:                                               ; preds = %17, %15
  %23 = tail call noundef i32 @llvm.smax.i32(i32 %11, i32 0)
  br label %24

24:                                               ; preds = %22, %5
  %25 = phi i32 [ %23, %22 ], [ 0, %5 ]
  %26 = load i8, ptr %0, align 4, !tbaa !37, !alias.scope !53, !noalias !56
  %27 = icmp eq i8 %26, 0
  %28 = icmp eq i32 %2, 0
  %29 = or i1 %28, %27
  br i1 %29, label %38, label %30

30:                                               ; preds = %30, %24
  %31 = phi i32 [ %36, %30 ], [ 0, %24 ]
  %32 = getelementptr inbounds i8, ptr %1, i32 %31
  %33 = load i8, ptr %32, align 1, !tbaa !5, !alias.scope !56, !noalias !53
  %34 = zext i8 %33 to i32
  %35 = tail call i32 @fputc(i32 noundef %34, ptr noundef nonnull %0) #15, !noalias !56
  %36 = add nuw i32 %31, 1
  %37 = icmp eq i32 %36, %2
  br i1 %37, label %38, label %30, !llvm.loop !45

38:                                               ; preds = %30, %24
  br i1 %14, label %39, label %48

39:                                               ; preds = %38
  %40 = icmp sgt i32 %11, 0
  br i1 %40, label %41, label %46

41:                                               ; preds = %41, %39
  %42 = phi i32 [ %44, %41 ], [ 0, %39 ]
  %43 = tail call i32 @fputc(i32 noundef 32, ptr noundef nonnull %0) #15
  %44 = add nuw nsw i32 %42, 1
  %45 = icmp eq i32 %44, %11
  br i1 %45, label %46, label %41, !llvm.loop !52

46:                                               ; preds = %41, %39
  %47 = tail call noundef i32 @llvm.smax.i32(i32 %11, i32 0)
  br label %48

48:                                               ; preds = %46, %38
  %49 = phi i32 [ %47, %46 ], [ 0, %38 ]
  %50 = add nsw i32 %25, %2
  %51 = add nsw i32 %50, %49
  ret i32 %51
}

; Function Attrs: nounwind optsize
define internal range(i32 -1, 256) i32 @fputc(i32 noundef %0, ptr nocapture noundef %1) local_unnamed_addr #1 {
  %3 = load i8, ptr %1, align 4, !tbaa !37
  switch i8 %3, label %17 [
    i8 1, label %4
    i8 3, label %6
    i8 0, label %19
  ]

4:                                                ; preds = %2
  %5 = tail call i32 @putchar(i32 noundef %0) #18
  br label %17

6:                                                ; preds = %2
  %7 = getelementptr inbounds i8, ptr %1, i32 8
  %8 = load i32, ptr %7, align 4, !tbaa !49
  %9 = icmp eq i32 %8, 0
  br i1 %9, label %17, label %10

10:                                               ; preds = %6
  %11 = trunc i32 %0 to i8
  %12 = getelementptr inbounds i8, ptr %1, i32 4
  %13 = load ptr, ptr %12, align 4, !tbaa !48
  %14 = getelementptr inbounds i8, ptr %13, i32 1
  store ptr %14, ptr %12, align 4, !tbaa !48
  store i8 %11, ptr %13, align 1, !tbaa !5
  %15 = load i32, ptr %7, align 4, !tbaa !49
  %16 = add i32 %15, -1
  store i32 %16, ptr %7, align 4, !tbaa !49
  br label %17

17:                                               ; preds = %10, %6, %4, %2
  %18 = and i32 %0, 255
  br label %19

19:                                               ; preds = %17, %2
  %20 = phi i32 [ %18, %17 ], [ -1, %2 ]
  ret i32 %20
}

; Function Attrs: nocallback nofree nosync nounwind speculatable willreturn memory(none)
declare i32 @llvm.smax.i32(i32, i32) #8

; Function Attrs: nounwind optsize
define internal fastcc i32 @number(ptr nocapture noundef %0, ptr noundef %1, ptr nocapture noundef readonly %2, i32 noundef %3, i32 noundef %4, i32 noundef %5, i32 noundef %6) unnamed_addr #1 {
  br label %8

8:                                                ; preds = %8, %7
  %9 = phi ptr [ %1, %7 ], [ %12, %8 ]
  %10 = load i8, ptr %9, align 1, !tbaa !5
  %11 = icmp eq i8 %10, 0
  %12 = getelementptr inbounds i8, ptr %9, i32 1
  br i1 %11, label %13, label %8, !llvm.loop !50

13:                                               ; preds = %8
  %14 = ptrtoint ptr %9 to i32
  %15 = ptrtoint ptr %1 to i32
  %16 = sub i32 %14, %15
  %17 = sub nsw i32 %6, %3
  %18 = lshr i32 %5, 31
  %19 = icmp ne i32 %18, 0
  %20 = sub i32 0, %5
  %21 = select i1 %19, i32 %20, i32 %5
  %22 = tail call i32 @llvm.smax.i32(i32 %17, i32 0)
  %23 = icmp slt i32 %6, 0
  %24 = and i32 %4, 16
  %25 = icmp ne i32 %24, 0
  %26 = and i1 %25, %23
  %27 = and i32 %4, 1
  %28 = or i32 %18, %27
  %29 = icmp eq i32 %28, 0
  %30 = and i1 %26, %29
  %31 = add i32 %16, %3
  %32 = icmp sgt i32 %21, %31
  %33 = select i1 %30, i1 %32, i1 false
  %34 = sub i32 %21, %31
  %35 = select i1 %33, i32 %34, i32 %22
  %36 = add i32 %31, %35
  %37 = sub i32 %21, %36
  br i1 %29, label %38, label %47

38:                                               ; preds = %13
  %39 = icmp sgt i32 %37, 0
  br i1 %39, label %40, label %45

40:                                               ; preds = %40, %38
  %41 = phi i32 [ %43, %40 ], [ 0, %38 ]
  %42 = tail call i32 @fputc(i32 noundef 32, ptr noundef %0) #15
  %43 = add nuw nsw i32 %41, 1
  %44 = icmp eq i32 %43, %37
  br i1 %44, label %45, label %40, !llvm.loop !52

45:                                               ; preds = %40, %38
  %46 = tail call noundef i32 @llvm.smax.i32(i32 %37, i32 0)
  br label %47

47:                                               ; preds = %45, %13
  %48 = phi i32 [ 0, %13 ], [ %46, %45 ]
  %49 = load i8, ptr %0, align 4, !tbaa !37, !alias.scope !58, !noalias !61
  %50 = icmp eq i8 %49, 0
  %51 = icmp eq ptr %9, %1
  %52 = or i1 %51, %50
  br i1 %52, label %61, label %53

53:                                               ; preds = %53, %47
  %54 = phi i32 [ %59, %53 ], [ 0, %47 ]
  %55 = getelementptr inbounds i8, ptr %1, i32 %54
  %56 = load i8, ptr %55, align 1, !tbaa !5, !alias.scope !61, !noalias !58
  %57 = zext i8 %56 to i32
  %58 = tail call i32 @fputc(i32 noundef %57, ptr noundef nonnull %0) #15, !noalias !61
  %59 = add nuw i32 %54, 1
  %60 = icmp eq i32 %59, %16
  br i1 %60, label %61, label %53, !llvm.loop !45

61:                                               ; preds = %53, %47
  %62 = icmp sgt i32 %35, 0
  br i1 %62, label %63, label %68

63:                                               ; preds = %63, %61
  %64 = phi i32 [ %66, %63 ], [ 0, %61 ]
  %65 = tail call i32 @fputc(i32 noundef 48, ptr noundef nonnull %0) #15
  %66 = add nuw nsw i32 %64, 1
  %67 = icmp eq i32 %66, %35
  br i1 %67, label %68, label %63, !llvm.loop !52

68:                                               ; preds = %63, %61
  %69 = tail call noundef i32 @llvm.smax.i32(i32 %35, i32 0)
  %70 = load i8, ptr %0, align 4, !tbaa !37, !alias.scope !63, !noalias !66
  %71 = icmp eq i8 %70, 0
  %72 = icmp eq i32 %3, 0
  %73 = or i1 %72, %71
  br i1 %73, label %82, label %74

74:                                               ; preds = %74, %68
  %75 = phi i32 [ %80, %74 ], [ 0, %68 ]
  %76 = getelementptr inbounds i8, ptr %2, i32 %75
  %77 = load i8, ptr %76, align 1, !tbaa !5, !alias.scope !66, !noalias !63
  %78 = zext i8 %77 to i32
  %79 = tail call i32 @fputc(i32 noundef %78, ptr noundef nonnull %0) #15, !noalias !66
  %80 = add nuw i32 %75, 1
  %81 = icmp eq i32 %80, %3
  br i1 %81, label %82, label %74, !llvm.loop !45

82:                                               ; preds = %74, %68
  %83 = add i32 %31, %69
  %84 = add i32 %83, %48
  br i1 %29, label %95, label %85

85:                                               ; preds = %82
  %86 = icmp sgt i32 %37, 0
  br i1 %86, label %87, label %92

87:                                               ; preds = %87, %85
  %88 = phi i32 [ %90, %87 ], [ 0, %85 ]
  %89 = tail call i32 @fputc(i32 noundef 32, ptr noundef nonnull %0) #15
  %90 = add nuw nsw i32 %88, 1
  %91 = icmp eq i32 %90, %37
  br i1 %91, label %92, label %87, !llvm.loop !52

92:                                               ; preds = %87, %85
  %93 = tail call noundef i32 @llvm.smax.i32(i32 %37, i32 0)
  %94 = add nsw i32 %84, %93
  br label %95

95:                                               ; preds = %92, %82
  %96 = phi i32 [ %94, %92 ], [ %84, %82 ]
  ret i32 %96
}

; Function Attrs: nocallback nofree nounwind willreturn memory(argmem: write)
declare void @llvm.memset.p0.i32(ptr nocapture writeonly, i8, i32, i1 immarg) #9

; Function Attrs: nocallback nofree nosync nounwind speculatable willreturn memory(none)
declare i32 @llvm.umax.i32(i32, i32) #8

; Function Attrs: nocallback nofree nosync nounwind speculatable willreturn memory(none)
declare i32 @llvm.smin.i32(i32, i32) #8

; Function Attrs: noreturn optsize
declare dso_local void @abort() local_unnamed_addr #10

; Function Attrs: mustprogress nofree norecurse nosync nounwind optsize willreturn memory(none)
define internal range(i32 0, 2) i32 @isspace(i32 noundef %0) local_unnamed_addr #11 {
  %2 = icmp eq i32 %0, 32
  %3 = add i32 %0, -9
  %4 = icmp ult i32 %3, 5
  %5 = or i1 %2, %4
  %6 = zext i1 %5 to i32
  ret i32 %6
}

; Function Attrs: nounwind optsize
define internal i32 @fgetc(ptr nocapture noundef %0) local_unnamed_addr #1 {
  %2 = load i8, ptr %0, align 4, !tbaa !37
  %3 = icmp eq i8 %2, 0
  br i1 %3, label %4, label %20

4:                                                ; preds = %1
  %5 = getelementptr inbounds i8, ptr %0, i32 2
  %6 = load i8, ptr %5, align 2, !tbaa !68
  %7 = icmp eq i8 %6, 0
  br i1 %7, label %12, label %8

8:                                                ; preds = %4
  store i8 0, ptr %5, align 2, !tbaa !68
  %9 = getelementptr inbounds i8, ptr %0, i32 3
  %10 = load i8, ptr %9, align 1, !tbaa !69
  %11 = zext i8 %10 to i32
  br label %20

12:                                               ; preds = %4
  %13 = getelementptr inbounds i8, ptr %0, i32 1
  %14 = load i8, ptr %13, align 1, !tbaa !70
  %15 = icmp eq i8 %14, 0
  br i1 %15, label %16, label %20

16:                                               ; preds = %12
  %17 = tail call i32 @getchar() #18
  %18 = icmp eq i32 %17, -1
  br i1 %18, label %19, label %20

19:                                               ; preds = %16
  store i8 1, ptr %13, align 1, !tbaa !70
  br label %20

20:                                               ; preds = %19, %16, %12, %8, %1
  %21 = phi i32 [ %11, %8 ], [ -1, %1 ], [ -1, %12 ], [ -1, %19 ], [ %17, %16 ]
  ret i32 %21
}

; Function Attrs: optsize
declare dso_local i32 @getchar() local_unnamed_addr #12

attributes #0 = { nounwind "no-trapping-math"="true" "stack-protector-buffer-size"="8" "target-cpu"="generic" "target-features"="+armv7-a,+dsp,+soft-float,-aes,-bf16,-d32,-dotprod,-fp-armv8,-fp-armv8d16,-fp-armv8d16sp,-fp-armv8sp,-fp16,-fp16fml,-fp64,-fpregs,-fullfp16,-mve,-mve.fp,-neon,-sha2,-thumb-mode,-vfp2,-vfp2sp,-vfp3,-vfp3d16,-vfp3d16sp,-vfp3sp,-vfp4,-vfp4d16,-vfp4d16sp,-vfp4sp" "use-soft-float"="true" }
attributes #1 = { nounwind optsize "no-builtins" "no-jump-tables"="true" "no-trapping-math"="true" "stack-protector-buffer-size"="8" "target-cpu"="generic" "target-features"="+armv7-a,+dsp,+soft-float,-aes,-bf16,-d32,-dotprod,-fp-armv8,-fp-armv8d16,-fp-armv8d16sp,-fp-armv8sp,-fp16,-fp16fml,-fp64,-fpregs,-fullfp16,-mve,-mve.fp,-neon,-sha2,-thumb-mode,-vfp2,-vfp2sp,-vfp3,-vfp3d16,-vfp3d16sp,-vfp3sp,-vfp4,-vfp4d16,-vfp4d16sp,-vfp4sp" "use-soft-float"="true" }
attributes #2 = { noreturn nounwind optsize "no-builtins" "no-jump-tables"="true" "no-trapping-math"="true" "stack-protector-buffer-size"="8" "target-cpu"="generic" "target-features"="+armv7-a,+dsp,+soft-float,-aes,-bf16,-d32,-dotprod,-fp-armv8,-fp-armv8d16,-fp-armv8d16sp,-fp-armv8sp,-fp16,-fp16fml,-fp64,-fpregs,-fullfp16,-mve,-mve.fp,-neon,-sha2,-thumb-mode,-vfp2,-vfp2sp,-vfp3,-vfp3d16,-vfp3d16sp,-vfp3sp,-vfp4,-vfp4d16,-vfp4d16sp,-vfp4sp" "use-soft-float"="true" }
attributes #3 = { nocallback nofree nosync nounwind willreturn memory(argmem: readwrite) }
attributes #4 = { nocallback nofree nounwind willreturn memory(argmem: readwrite) }
attributes #5 = { nofree norecurse nosync nounwind optsize willreturn memory(write, argmem: none, inaccessiblemem: none) "no-builtins" "no-jump-tables"="true" "no-trapping-math"="true" "stack-protector-buffer-size"="8" "target-cpu"="generic" "target-features"="+armv7-a,+dsp,+soft-float,-aes,-bf16,-d32,-dotprod,-fp-armv8,-fp-armv8d16,-fp-armv8d16sp,-fp-armv8sp,-fp16,-fp16fml,-fp64,-fpregs,-fullfp16,-mve,-mve.fp,-neon,-sha2,-thumb-mode,-vfp2,-vfp2sp,-vfp3,-vfp3d16,-vfp3d16sp,-vfp3sp,-vfp4,-vfp4d16,-vfp4d16sp,-vfp4sp" "use-soft-float"="true" }
attributes #6 = { mustprogress nofree norecurse nosync nounwind optsize willreturn memory(write, argmem: readwrite, inaccessiblemem: none) "no-builtins" "no-jump-tables"="true" "no-trapping-math"="true" "stack-protector-buffer-size"="8" "target-cpu"="generic" "target-features"="+armv7-a,+dsp,+soft-float,-aes,-bf16,-d32,-dotprod,-fp-armv8,-fp-armv8d16,-fp-armv8d16sp,-fp-armv8sp,-fp16,-fp16fml,-fp64,-fpregs,-fullfp16,-mve,-mve.fp,-neon,-sha2,-thumb-mode,-vfp2,-vfp2sp,-vfp3,-vfp3d16,-vfp3d16sp,-vfp3sp,-vfp4,-vfp4d16,-vfp4d16sp,-vfp4sp" "use-soft-float"="true" }
attributes #7 = { nofree nounwind "no-trapping-math"="true" "stack-protector-buffer-size"="8" "target-cpu"="generic" "target-features"="+armv7-a,+dsp,+soft-float,-aes,-bf16,-d32,-dotprod,-fp-armv8,-fp-armv8d16,-fp-armv8d16sp,-fp-armv8sp,-fp16,-fp16fml,-fp64,-fpregs,-fullfp16,-mve,-mve.fp,-neon,-sha2,-thumb-mode,-vfp2,-vfp2sp,-vfp3,-vfp3d16,-vfp3d16sp,-vfp3sp,-vfp4,-vfp4d16,-vfp4d16sp,-vfp4sp" "use-soft-float"="true" }
attributes #8 = { nocallback nofree nosync nounwind speculatable willreturn memory(none) }
attributes #9 = { nocallback nofree nounwind willreturn memory(argmem: write) }
attributes #10 = { noreturn optsize "no-builtins" "no-trapping-math"="true" "stack-protector-buffer-size"="8" "target-cpu"="generic" "target-features"="+armv7-a,+dsp,+soft-float,-aes,-bf16,-d32,-dotprod,-fp-armv8,-fp-armv8d16,-fp-armv8d16sp,-fp-armv8sp,-fp16,-fp16fml,-fp64,-fpregs,-fullfp16,-mve,-mve.fp,-neon,-sha2,-thumb-mode,-vfp2,-vfp2sp,-vfp3,-vfp3d16,-vfp3d16sp,-vfp3sp,-vfp4,-vfp4d16,-vfp4d16sp,-vfp4sp" "use-soft-float"="true" }
attributes #11 = { mustprogress nofree norecurse nosync nounwind optsize willreturn memory(none) "no-builtins" "no-jump-tables"="true" "no-trapping-math"="true" "stack-protector-buffer-size"="8" "target-cpu"="generic" "target-features"="+armv7-a,+dsp,+soft-float,-aes,-bf16,-d32,-dotprod,-fp-armv8,-fp-armv8d16,-fp-armv8d16sp,-fp-armv8sp,-fp16,-fp16fml,-fp64,-fpregs,-fullfp16,-mve,-mve.fp,-neon,-sha2,-thumb-mode,-vfp2,-vfp2sp,-vfp3,-vfp3d16,-vfp3d16sp,-vfp3sp,-vfp4,-vfp4d16,-vfp4d16sp,-vfp4sp" "use-soft-float"="true" }
attributes #12 = { optsize "no-builtins" "no-trapping-math"="true" "stack-protector-buffer-size"="8" "target-cpu"="generic" "target-features"="+armv7-a,+dsp,+soft-float,-aes,-bf16,-d32,-dotprod,-fp-armv8,-fp-armv8d16,-fp-armv8d16sp,-fp-armv8sp,-fp16,-fp16fml,-fp64,-fpregs,-fullfp16,-mve,-mve.fp,-neon,-sha2,-thumb-mode,-vfp2,-vfp2sp,-vfp3,-vfp3d16,-vfp3d16sp,-vfp3sp,-vfp4,-vfp4d16,-vfp4d16sp,-vfp4sp" "use-soft-float"="true" }
attributes #13 = { noreturn nounwind }
attributes #14 = { nounwind }
attributes #15 = { nobuiltin optsize "no-builtins" }
attributes #16 = { nounwind willreturn memory(read) }
attributes #17 = { nobuiltin noreturn nounwind optsize "no-builtins" }
attributes #18 = { nobuiltin nounwind optsize "no-builtins" }

!llvm.ident = !{!0, !0, !0}
!llvm.module.flags = !{!1, !2, !3, !4}

!0 = !{!"Debian clang version 19.1.7 (3~deb12u1)"}
!1 = !{i32 7, !"Dwarf Version", i32 5}
!2 = !{i32 2, !"Debug Info Version", i32 3}
!3 = !{i32 1, !"wchar_size", i32 4}
!4 = !{i32 1, !"min_enum_size", i32 4}
!5 = !{!6, !6, i64 0}
!6 = !{!"omnipotent char", !7, i64 0}
!7 = !{!"Simple C/C++ TBAA"}
!8 = distinct !{!8, !9}
!9 = !{!"llvm.loop.mustprogress"}
!10 = !{!11, !12, i64 0}
!11 = !{!"number", !12, i64 0, !6, i64 4}
!12 = !{!"int", !6, i64 0}
!13 = !{!12, !12, i64 0}
!14 = distinct !{!14, !9}
!15 = distinct !{!15, !9}
!16 = distinct !{!16, !9}
!17 = distinct !{!17, !9}
!18 = !{i64 0, i64 4, !13, i64 4, i64 480, !5}
!19 = distinct !{!19, !9}
!20 = distinct !{!20, !9}
!21 = distinct !{!21, !9}
!22 = distinct !{!22, !9}
!23 = distinct !{!23, !9}
!24 = distinct !{!24, !9}
!25 = distinct !{!25, !9}
!26 = distinct !{!26, !9}
!27 = distinct !{!27, !9}
!28 = distinct !{!28, !9}
!29 = distinct !{!29, !9}
!30 = distinct !{!30, !9}
!31 = distinct !{!31, !9}
!32 = distinct !{!32, !9}
!33 = distinct !{!33, !9}
!34 = distinct !{!34, !9}
!35 = distinct !{!35, !9}
!36 = distinct !{!36, !9}
!37 = !{!38, !6, i64 0}
!38 = !{!"__stream", !6, i64 0, !6, i64 1, !6, i64 2, !6, i64 3, !39, i64 4, !12, i64 8}
!39 = !{!"any pointer", !6, i64 0}
!40 = !{!41}
!41 = distinct !{!41, !42, !"fwrite: %stream"}
!42 = distinct !{!42, !"fwrite"}
!43 = !{!44}
!44 = distinct !{!44, !42, !"fwrite: %from"}
!45 = distinct !{!45, !9}
!46 = distinct !{!46, !9}
!47 = distinct !{!47, !9}
!48 = !{!38, !39, i64 4}
!49 = !{!38, !12, i64 8}
!50 = distinct !{!50, !9}
!51 = distinct !{!51, !9}
!52 = distinct !{!52, !9}
!53 = !{!54}
!54 = distinct !{!54, !55, !"fwrite: %stream"}
!55 = distinct !{!55, !"fwrite"}
!56 = !{!57}
!57 = distinct !{!57, !55, !"fwrite: %from"}
!58 = !{!59}
!59 = distinct !{!59, !60, !"fwrite: %stream"}
!60 = distinct !{!60, !"fwrite"}
!61 = !{!62}
!62 = distinct !{!62, !60, !"fwrite: %from"}
!63 = !{!64}
!64 = distinct !{!64, !65, !"fwrite: %stream"}
!65 = distinct !{!65, !"fwrite"}
!66 = !{!67}
!67 = distinct !{!67, !65, !"fwrite: %from"}
!68 = !{!38, !6, i64 2}
!69 = !{!38, !6, i64 3}
!70 = !{!38, !6, i64 1}
