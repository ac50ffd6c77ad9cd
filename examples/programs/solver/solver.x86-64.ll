source_filename = "solver.c"
target datalayout = "e-m:e-p270:32:32-p271:32:32-p272:64:64-i64:64-i128:128-f80:128-n8:16:32:64-S128"
target triple = "x86_64-unknown-linux-gnu"

%struct.system = type { i32, [12 x [13 x i64]] }
%struct.__stream = type { i8, i8, i8, i8, ptr, i64 }

@main.given = internal global %struct.system zeroinitializer, align 8
@main.used = internal unnamed_addr global %struct.system zeroinitializer, align 8
@.str = private unnamed_addr constant [13 x i8] c"%d unknowns:\00", align 1
@.str.1 = private unnamed_addr constant [20 x i8] c" no single solution\00", align 1
@.str.2 = private unnamed_addr constant [11 x i8] c"  (within \00", align 1
@.str.3 = private unnamed_addr constant [2 x i8] c")\00", align 1
@.str.4 = private unnamed_addr constant [12 x i8] c"%s%lu.%03lu\00", align 1
@.str.5 = private unnamed_addr constant [2 x i8] c"-\00", align 1
@.str.6 = private unnamed_addr constant [1 x i8] zeroinitializer, align 1
@.str.9 = private unnamed_addr constant [1 x i8] zeroinitializer, align 1
@.str.1.10 = private unnamed_addr constant [7 x i8] c"(null)\00", align 1
@.str.2.15 = private unnamed_addr constant [2 x i8] c"-\00", align 1
@.str.3.16 = private unnamed_addr constant [2 x i8] c"+\00", align 1
@.str.4.14 = private unnamed_addr constant [2 x i8] c" \00", align 1
@.str.5.20 = private unnamed_addr constant [3 x i8] c"0X\00", align 1
@.str.6.19 = private unnamed_addr constant [3 x i8] c"0x\00", align 1
@__streams = internal global [3 x %struct.__stream] [%struct.__stream zeroinitializer, %struct.__stream { i8 1, i8 0, i8 0, i8 0, ptr null, i64 0 }, %struct.__stream { i8 2, i8 0, i8 0, i8 0, ptr null, i64 0 }], align 16
@.str.8 = private unnamed_addr constant [17 x i8] c"0123456789ABCDEF\00", align 1
@.str.9.13 = private unnamed_addr constant [17 x i8] c"0123456789abcdef\00", align 1

; Function Attrs: nounwind uwtable
define dso_local i32 @main() local_unnamed_addr #0 {
  %1 = alloca i64, align 8
  %2 = alloca [12 x i64], align 16
  br label %3

3:                                                ; preds = %242, %0
  %4 = phi i32 [ 0, %0 ], [ %243, %242 ]
  call void @llvm.lifetime.start.p0(i64 8, ptr nonnull %1) #11
  %5 = call fastcc i32 @read_number(ptr noundef nonnull %1)
  %6 = icmp eq i32 %5, 0
  br i1 %6, label %38, label %7

7:                                                ; preds = %3
  %8 = load i64, ptr %1, align 8, !tbaa !5
  %9 = lshr i64 %8, 16
  %10 = trunc i64 %9 to i32
  store i32 %10, ptr @main.given, align 8, !tbaa !9
  %11 = add i32 %10, -13
  %12 = icmp ult i32 %11, -12
  br i1 %12, label %38, label %13

13:                                               ; preds = %7
  %14 = icmp slt i32 %10, 1
  br i1 %14, label %35, label %15

15:                                               ; preds = %30, %13
  %16 = phi i64 [ %31, %30 ], [ 0, %13 ]
  %17 = phi i1 [ %34, %30 ], [ %14, %13 ]
  %18 = load i32, ptr @main.given, align 8, !tbaa !9
  %19 = icmp slt i32 %18, 0
  br i1 %19, label %30, label %25

20:                                               ; preds = %25
  %21 = add nuw nsw i64 %26, 1
  %22 = load i32, ptr @main.given, align 8, !tbaa !9
  %23 = sext i32 %22 to i64
  %24 = icmp slt i64 %26, %23
  br i1 %24, label %25, label %30, !llvm.loop !12

25:                                               ; preds = %20, %15
  %26 = phi i64 [ %21, %20 ], [ 0, %15 ]
  %27 = getelementptr inbounds [12 x [13 x i64]], ptr getelementptr inbounds (i8, ptr @main.given, i64 8), i64 0, i64 %16, i64 %26
  %28 = tail call fastcc i32 @read_number(ptr noundef nonnull %27)
  %29 = icmp eq i32 %28, 0
  br i1 %29, label %35, label %20

30:                                               ; preds = %20, %15
  %31 = add nuw nsw i64 %16, 1
  %32 = load i32, ptr @main.given, align 8, !tbaa !9
  %33 = sext i32 %32 to i64
  %34 = icmp sge i64 %31, %33
  br i1 %34, label %35, label %15, !llvm.loop !15

35:                                               ; preds = %30, %25, %13
  %36 = phi i1 [ %14, %13 ], [ %17, %25 ], [ %34, %30 ]
  %37 = zext i1 %36 to i32
  br label %38

38:                                               ; preds = %35, %7, %3
  %39 = phi i32 [ 0, %3 ], [ 0, %7 ], [ %37, %35 ]
  call void @llvm.lifetime.end.p0(i64 8, ptr nonnull %1) #11
  %40 = icmp eq i32 %39, 0
  br i1 %40, label %244, label %41

41:                                               ; preds = %38
  call void @llvm.lifetime.start.p0(i64 96, ptr nonnull %2) #11
  call void @llvm.memset.p0.i64(ptr noundef nonnull align 16 dereferenceable(96) %2, i8 0, i64 96, i1 false)
  tail call void @llvm.memcpy.p0.p0.i64(ptr noundef nonnull align 8 dereferenceable(1256) @main.used, ptr noundef nonnull align 8 dereferenceable(1256) @main.given, i64 1256, i1 false), !tbaa.struct !16
  %42 = load i32, ptr @main.given, align 8, !tbaa !9
  %43 = sext i32 %42 to i64
  %44 = tail call i32 @__print_signed(ptr nonnull getelementptr inbounds (i8, ptr @__streams, i64 24), i64 %43, i32 0, i32 0, i32 -1) #11
  %45 = tail call i32 @__print_text(ptr nonnull getelementptr inbounds (i8, ptr @__streams, i64 24), ptr nonnull getelementptr inbounds (i8, ptr @.str, i64 2), i64 10) #11
  %46 = load i32, ptr @main.used, align 8, !tbaa !9
  %47 = icmp slt i32 %46, 1
  br i1 %47, label %156, label %48

48:                                               ; preds = %41
  %49 = add nuw i32 %46, 1
  %50 = zext i32 %49 to i64
  %51 = zext nneg i32 %46 to i64
  br label %55

52:                                               ; preds = %111, %101
  %53 = add nuw nsw i64 %57, 1
  %54 = icmp eq i64 %59, %51
  br i1 %54, label %126, label %55, !llvm.loop !19

55:                                               ; preds = %52, %48
  %56 = phi i64 [ 0, %48 ], [ %59, %52 ]
  %57 = phi i64 [ 1, %48 ], [ %53, %52 ]
  %58 = phi i1 [ true, %48 ], [ %60, %52 ]
  %59 = add nuw nsw i64 %56, 1
  %60 = icmp ult i64 %59, %51
  %61 = trunc nuw nsw i64 %56 to i32
  br i1 %60, label %72, label %62

62:                                               ; preds = %72, %55
  %63 = phi i32 [ %61, %55 ], [ %90, %72 ]
  %64 = sext i32 %63 to i64
  %65 = getelementptr inbounds [12 x [13 x i64]], ptr getelementptr inbounds (i8, ptr @main.used, i64 8), i64 0, i64 %64, i64 %56
  %66 = load i64, ptr %65, align 8, !tbaa !5
  %67 = lshr i64 %66, 63
  %68 = icmp ne i64 %67, 0
  %69 = sub i64 0, %66
  %70 = select i1 %68, i64 %69, i64 %66
  %71 = icmp ugt i64 %70, 15
  br i1 %71, label %93, label %125

72:                                               ; preds = %72, %55
  %73 = phi i64 [ %91, %72 ], [ %57, %55 ]
  %74 = phi i32 [ %90, %72 ], [ %61, %55 ]
  %75 = getelementptr inbounds [12 x [13 x i64]], ptr getelementptr inbounds (i8, ptr @main.used, i64 8), i64 0, i64 %73, i64 %56
  %76 = load i64, ptr %75, align 8, !tbaa !5
  %77 = lshr i64 %76, 63
  %78 = icmp ne i64 %77, 0
  %79 = sub i64 0, %76
  %80 = select i1 %78, i64 %79, i64 %76
  %81 = sext i32 %74 to i64
  %82 = getelementptr inbounds [12 x [13 x i64]], ptr getelementptr inbounds (i8, ptr @main.used, i64 8), i64 0, i64 %81, i64 %56
  %83 = load i64, ptr %82, align 8, !tbaa !5
  %84 = lshr i64 %83, 63
  %85 = icmp ne i64 %84, 0
  %86 = sub i64 0, %83
  %87 = select i1 %85, i64 %86, i64 %83
  %88 = icmp ugt i64 %80, %87
  %89 = trunc nuw nsw i64 %73 to i32
  %90 = select i1 %88, i32 %89, i32 %74
  %91 = add nuw nsw i64 %73, 1
  %92 = icmp eq i64 %91, %51
  br i1 %92, label %62, label %72, !llvm.loop !20

93:                                               ; preds = %93, %62
  %94 = phi i64 [ %99, %93 ], [ 0, %62 ]
  %95 = getelementptr inbounds [12 x [13 x i64]], ptr getelementptr inbounds (i8, ptr @main.used, i64 8), i64 0, i64 %56, i64 %94
  %96 = load i64, ptr %95, align 8, !tbaa !5
  %97 = getelementptr inbounds [12 x [13 x i64]], ptr getelementptr inbounds (i8, ptr @main.used, i64 8), i64 0, i64 %64, i64 %94
  %98 = load i64, ptr %97, align 8, !tbaa !5
  store i64 %98, ptr %95, align 8, !tbaa !5
  store i64 %96, ptr %97, align 8, !tbaa !5
  %99 = add nuw nsw i64 %94, 1
  %100 = icmp eq i64 %99, %50
  br i1 %100, label %101, label %93, !llvm.loop !21

101:                                              ; preds = %93
  br i1 %60, label %102, label %52

102:                                              ; preds = %101
  %103 = getelementptr inbounds [12 x [13 x i64]], ptr getelementptr inbounds (i8, ptr @main.used, i64 8), i64 0, i64 %56, i64 %56
  br label %104

104:                                              ; preds = %111, %102
  %105 = phi i64 [ %57, %102 ], [ %112, %111 ]
  %106 = getelementptr inbounds [12 x [13 x i64]], ptr getelementptr inbounds (i8, ptr @main.used, i64 8), i64 0, i64 %105, i64 %56
  %107 = load i64, ptr %106, align 8, !tbaa !5
  %108 = load i64, ptr %103, align 8, !tbaa !5
  %109 = shl nsw i64 %107, 16
  %110 = sdiv i64 %109, %108
  br label %114

111:                                              ; preds = %114
  %112 = add nuw nsw i64 %105, 1
  %113 = icmp eq i64 %112, %51
  br i1 %113, label %52, label %104, !llvm.loop !22

114:                                              ; preds = %114, %104
  %115 = phi i64 [ %56, %104 ], [ %123, %114 ]
  %116 = getelementptr inbounds [12 x [13 x i64]], ptr getelementptr inbounds (i8, ptr @main.used, i64 8), i64 0, i64 %56, i64 %115
  %117 = load i64, ptr %116, align 8, !tbaa !5
  %118 = mul nsw i64 %117, %110
  %119 = sdiv i64 %118, -65536
  %120 = getelementptr inbounds [12 x [13 x i64]], ptr getelementptr inbounds (i8, ptr @main.used, i64 8), i64 0, i64 %105, i64 %115
  %121 = load i64, ptr %120, align 8, !tbaa !5
  %122 = add i64 %119, %121
  store i64 %122, ptr %120, align 8, !tbaa !5
  %123 = add nuw nsw i64 %115, 1
  %124 = icmp eq i64 %123, %50
  br i1 %124, label %111, label %114, !llvm.loop !23

125:                                              ; preds = %62
  br i1 %58, label %154, label %126

126:                                              ; preds = %125, %52
  br label %127

127:                                              ; preds = %133, %126
  %128 = phi i64 [ %51, %126 ], [ %129, %133 ]
  %129 = add nsw i64 %128, -1
  %130 = getelementptr inbounds [12 x [13 x i64]], ptr getelementptr inbounds (i8, ptr @main.used, i64 8), i64 0, i64 %129, i64 %51
  %131 = load i64, ptr %130, align 8, !tbaa !5
  %132 = icmp slt i64 %128, %51
  br i1 %132, label %141, label %133

133:                                              ; preds = %141, %127
  %134 = phi i64 [ %131, %127 ], [ %150, %141 ]
  %135 = getelementptr inbounds [12 x [13 x i64]], ptr getelementptr inbounds (i8, ptr @main.used, i64 8), i64 0, i64 %129, i64 %129
  %136 = load i64, ptr %135, align 8, !tbaa !5
  %137 = shl nsw i64 %134, 16
  %138 = sdiv i64 %137, %136
  %139 = getelementptr inbounds i64, ptr %2, i64 %129
  store i64 %138, ptr %139, align 8, !tbaa !5
  %140 = icmp sgt i64 %128, 1
  br i1 %140, label %127, label %156, !llvm.loop !24

141:                                              ; preds = %141, %127
  %142 = phi i64 [ %151, %141 ], [ %128, %127 ]
  %143 = phi i64 [ %150, %141 ], [ %131, %127 ]
  %144 = getelementptr inbounds [12 x [13 x i64]], ptr getelementptr inbounds (i8, ptr @main.used, i64 8), i64 0, i64 %129, i64 %142
  %145 = load i64, ptr %144, align 8, !tbaa !5
  %146 = getelementptr inbounds i64, ptr %2, i64 %142
  %147 = load i64, ptr %146, align 8, !tbaa !5
  %148 = mul nsw i64 %147, %145
  %149 = sdiv i64 %148, -65536
  %150 = add i64 %149, %143
  %151 = add nuw nsw i64 %142, 1
  %152 = trunc nuw i64 %151 to i32
  %153 = icmp sgt i32 %46, %152
  br i1 %153, label %141, label %133, !llvm.loop !25

154:                                              ; preds = %125
  %155 = tail call i32 @puts(ptr noundef nonnull dereferenceable(1) @.str.1)
  br label %242, !llvm.loop !26

156:                                              ; preds = %133, %41
  %157 = load i32, ptr @main.given, align 8, !tbaa !9
  %158 = icmp sgt i32 %157, 0
  br i1 %158, label %211, label %159

159:                                              ; preds = %211, %156
  %160 = tail call i32 @__print_text(ptr nonnull getelementptr inbounds (i8, ptr @__streams, i64 24), ptr nonnull @.str.2, i64 10) #11
  %161 = load i32, ptr @main.given, align 8, !tbaa !9
  %162 = icmp sgt i32 %161, 0
  br i1 %162, label %163, label %191

163:                                              ; preds = %159
  %164 = zext nneg i32 %161 to i64
  br label %165

165:                                              ; preds = %171, %163
  %166 = phi i64 [ 0, %163 ], [ %177, %171 ]
  %167 = phi i64 [ 0, %163 ], [ %176, %171 ]
  %168 = getelementptr inbounds [12 x [13 x i64]], ptr getelementptr inbounds (i8, ptr @main.given, i64 8), i64 0, i64 %166, i64 %164
  %169 = load i64, ptr %168, align 8, !tbaa !5
  %170 = sub nsw i64 0, %169
  br label %179

171:                                              ; preds = %179
  %172 = lshr i64 %188, 63
  %173 = icmp ne i64 %172, 0
  %174 = sub i64 0, %188
  %175 = select i1 %173, i64 %174, i64 %188
  %176 = tail call i64 @llvm.smax.i64(i64 %175, i64 %167)
  %177 = add nuw nsw i64 %166, 1
  %178 = icmp eq i64 %177, %164
  br i1 %178, label %191, label %165, !llvm.loop !27

179:                                              ; preds = %179, %165
  %180 = phi i64 [ 0, %165 ], [ %189, %179 ]
  %181 = phi i64 [ %170, %165 ], [ %188, %179 ]
  %182 = getelementptr inbounds [12 x [13 x i64]], ptr getelementptr inbounds (i8, ptr @main.given, i64 8), i64 0, i64 %166, i64 %180
  %183 = load i64, ptr %182, align 8, !tbaa !5
  %184 = getelementptr inbounds i64, ptr %2, i64 %180
  %185 = load i64, ptr %184, align 8, !tbaa !5
  %186 = mul nsw i64 %185, %183
  %187 = sdiv i64 %186, 65536
  %188 = add nsw i64 %187, %181
  %189 = add nuw nsw i64 %180, 1
  %190 = icmp eq i64 %189, %164
  br i1 %190, label %171, label %179, !llvm.loop !28

191:                                              ; preds = %171, %159
  %192 = phi i64 [ 0, %159 ], [ %176, %171 ]
  %193 = lshr i64 %192, 63
  %194 = icmp ne i64 %193, 0
  %195 = sub i64 0, %192
  %196 = select i1 %194, i64 %195, i64 %192
  %197 = and i64 %196, 65535
  %198 = mul nuw nsw i64 %197, 1000
  %199 = add nuw nsw i64 %198, 32768
  %200 = lshr i64 %196, 16
  %201 = udiv i64 %199, 65536000
  %202 = add nuw nsw i64 %201, %200
  %203 = lshr i64 %199, 16
  %204 = urem i64 %203, 1000
  %205 = tail call i32 @__print_string(ptr nonnull getelementptr inbounds (i8, ptr @__streams, i64 24), ptr nonnull @.str.6, i32 0, i32 0, i32 -1) #11
  %206 = tail call i32 @__print_unsigned(ptr nonnull getelementptr inbounds (i8, ptr @__streams, i64 24), i64 %202, i32 10, i32 0, i32 0, i32 -1) #11
  %207 = tail call i32 @__print_text(ptr nonnull getelementptr inbounds (i8, ptr @__streams, i64 24), ptr nonnull getelementptr inbounds (i8, ptr @.str.4, i64 5), i64 1) #11
  %208 = tail call i32 @__print_unsigned(ptr nonnull getelementptr inbounds (i8, ptr @__streams, i64 24), i64 %204, i32 10, i32 16, i32 3, i32 -1) #11
  %209 = tail call i32 @puts(ptr noundef nonnull dereferenceable(1) @.str.3)
  %210 = add nsw i32 %4, 1
  br label %242

211:                                              ; preds = %211, %156
  %212 = phi i64 [ %238, %211 ], [ 0, %156 ]
  %213 = tail call i32 @putchar(i32 noundef 32)
  %214 = getelementptr inbounds [12 x i64], ptr %2, i64 0, i64 %212
  %215 = load i64, ptr %214, align 8, !tbaa !5
  %216 = lshr i64 %215, 63
  %217 = icmp ne i64 %216, 0
  %218 = sub i64 0, %215
  %219 = select i1 %217, i64 %218, i64 %215
  %220 = and i64 %219, 65535
  %221 = mul nuw nsw i64 %220, 1000
  %222 = add nuw nsw i64 %221, 32768
  %223 = lshr i64 %219, 16
  %224 = udiv i64 %222, 65536000
  %225 = add nuw nsw i64 %224, %223
  %226 = icmp slt i64 %215, 0
  %227 = icmp ne i64 %225, 0
  %228 = icmp ugt i64 %220, 32
  %229 = select i1 %227, i1 true, i1 %228
  %230 = select i1 %226, i1 %229, i1 false
  %231 = select i1 %230, ptr @.str.5, ptr @.str.6
  %232 = lshr i64 %222, 16
  %233 = urem i64 %232, 1000
  %234 = tail call i32 @__print_string(ptr nonnull getelementptr inbounds (i8, ptr @__streams, i64 24), ptr nonnull %231, i32 0, i32 0, i32 -1) #11
  %235 = tail call i32 @__print_unsigned(ptr nonnull getelementptr inbounds (i8, ptr @__streams, i64 24), i64 %225, i32 10, i32 0, i32 0, i32 -1) #11
  %236 = tail call i32 @__print_text(ptr nonnull getelementptr inbounds (i8, ptr @__streams, i64 24), ptr nonnull getelementptr inbounds (i8, ptr @.str.4, i64 5), i64 1) #11
  %237 = tail call i32 @__print_unsigned(ptr nonnull getelementptr inbounds (i8, ptr @__streams, i64 24), i64 %233, i32 10, i32 16, i32 3, i32 -1) #11
  %238 = add nuw nsw i64 %212, 1
  %239 = load i32, ptr @main.given, align 8, !tbaa !9
  %240 = sext i32 %239 to i64
  %241 = icmp slt i64 %238, %240
  br i1 %241, label %211, label %159, !llvm.loop !29

242:                                              ; preds = %191, %154
  %243 = phi i32 [ %210, %191 ], [ %4, %154 ]
  call void @llvm.lifetime.end.p0(i64 96, ptr nonnull %2) #11
  br label %3

244:                                              ; preds = %38
  ret i32 %4
}

; Function Attrs: nocallback nofree nosync nounwind willreturn memory(argmem: readwrite)
declare void @llvm.lifetime.start.p0(i64 immarg, ptr nocapture) #1

; Function Attrs: nofree nounwind uwtable
define internal fastcc range(i32 0, 2) i32 @read_number(ptr nocapture noundef writeonly %0) unnamed_addr #2 {
  br label %2

2:                                                ; preds = %5, %1
  %3 = tail call i32 @fgetc(ptr noundef nonnull @__streams)
  %4 = icmp eq i32 %3, -1
  br i1 %4, label %8, label %5

5:                                                ; preds = %2
  %6 = tail call i32 @isspace(i32 noundef %3) #12
  %7 = icmp eq i32 %6, 0
  br i1 %7, label %8, label %2, !llvm.loop !30

8:                                                ; preds = %5, %2
  %9 = icmp eq i32 %3, 45
  br i1 %9, label %10, label %12

10:                                               ; preds = %8
  %11 = tail call i32 @fgetc(ptr noundef nonnull @__streams)
  br label %12

12:                                               ; preds = %10, %8
  %13 = phi i32 [ %11, %10 ], [ %3, %8 ]
  %14 = add i32 %13, -48
  %15 = icmp ult i32 %14, 10
  br i1 %15, label %16, label %59

16:                                               ; preds = %16, %12
  %17 = phi i32 [ %23, %16 ], [ %14, %12 ]
  %18 = phi i64 [ %21, %16 ], [ 0, %12 ]
  %19 = mul nsw i64 %18, 10
  %20 = zext nneg i32 %17 to i64
  %21 = add nsw i64 %19, %20
  %22 = tail call i32 @fgetc(ptr noundef nonnull @__streams)
  %23 = add i32 %22, -48
  %24 = icmp ult i32 %23, 10
  br i1 %24, label %16, label %25, !llvm.loop !31

25:                                               ; preds = %16
  %26 = shl nsw i64 %21, 16
  %27 = icmp eq i32 %22, 46
  br i1 %27, label %28, label %50

28:                                               ; preds = %25
  %29 = tail call i32 @fgetc(ptr noundef nonnull @__streams)
  %30 = add i32 %29, -48
  %31 = icmp ult i32 %30, 10
  br i1 %31, label %32, label %50

32:                                               ; preds = %42, %28
  %33 = phi i32 [ %46, %42 ], [ %30, %28 ]
  %34 = phi i64 [ %44, %42 ], [ 1, %28 ]
  %35 = phi i64 [ %43, %42 ], [ 0, %28 ]
  %36 = icmp slt i64 %34, 1000000000
  br i1 %36, label %37, label %42

37:                                               ; preds = %32
  %38 = mul nsw i64 %35, 10
  %39 = zext nneg i32 %33 to i64
  %40 = add nsw i64 %38, %39
  %41 = mul nsw i64 %34, 10
  br label %42

42:                                               ; preds = %37, %32
  %43 = phi i64 [ %40, %37 ], [ %35, %32 ]
  %44 = phi i64 [ %41, %37 ], [ %34, %32 ]
  %45 = tail call i32 @fgetc(ptr noundef nonnull @__streams)
  %46 = add i32 %45, -48
  %47 = icmp ult i32 %46, 10
  br i1 %47, label %32, label %48, !llvm.loop !32

48:                                               ; preds = %42
  %49 = shl nsw i64 %43, 16
  br label %50

50:                                               ; preds = %48, %28, %25
  %51 = phi i32 [ %22, %25 ], [ %29, %28 ], [ %45, %48 ]
  %52 = phi i64 [ 0, %25 ], [ 0, %28 ], [ %49, %48 ]
  %53 = phi i64 [ 1, %25 ], [ 1, %28 ], [ %44, %48 ]
  %54 = tail call i32 @ungetc(i32 noundef %51, ptr noundef nonnull @__streams)
  %55 = sdiv i64 %52, %53
  %56 = add nsw i64 %55, %26
  %57 = sub nsw i64 0, %56
  %58 = select i1 %9, i64 %57, i64 %56
  store i64 %58, ptr %0, align 8, !tbaa !5
  br label %59

59:                                               ; preds = %50, %12
  %60 = phi i32 [ 1, %50 ], [ 0, %12 ]
  ret i32 %60
}

; Function Attrs: nocallback nofree nosync nounwind willreturn memory(argmem: readwrite)
declare void @llvm.lifetime.end.p0(i64 immarg, ptr nocapture) #1

; Function Attrs: nocallback nofree nounwind willreturn memory(argmem: write)
declare void @llvm.memset.p0.i64(ptr nocapture writeonly, i8, i64, i1 immarg) #3

; Function Attrs: nocallback nofree nounwind willreturn memory(argmem: readwrite)
declare void @llvm.memcpy.p0.p0.i64(ptr noalias nocapture writeonly, ptr noalias nocapture readonly, i64, i1 immarg) #4

; Function Attrs: nounwind optsize uwtable
define internal i32 @__print_signed(ptr nocapture noundef %0, i64 noundef %1, i32 noundef %2, i32 noundef %3, i32 noundef %4) local_unnamed_addr #5 {
  %6 = alloca [24 x i8], align 16
  call void @llvm.lifetime.start.p0(i64 24, ptr nonnull %6) #11
  %7 = getelementptr inbounds i8, ptr %6, i64 24
  %8 = icmp slt i64 %1, 0
  %9 = lshr i64 %1, 63
  %10 = icmp ne i64 %9, 0
  %11 = sub i64 0, %1
  %12 = select i1 %10, i64 %11, i64 %1
  %13 = icmp ult i64 %12, 4294967296
  br i1 %13, label %14, label %28

14:                                               ; preds = %5
  %15 = icmp eq i64 %1, 0
  br i1 %15, label %37, label %16

16:                                               ; preds = %14
  %17 = trunc nuw i64 %12 to i32
  br label %18

18:                                               ; preds = %18, %16
  %19 = phi i32 [ %26, %18 ], [ %17, %16 ]
  %20 = phi ptr [ %25, %18 ], [ %7, %16 ]
  %21 = urem i32 %19, 10
  %22 = zext nneg i32 %21 to i64
  %23 = getelementptr inbounds i8, ptr @.str.9.13, i64 %22
  %24 = load i8, ptr %23, align 1, !tbaa !18
  %25 = getelementptr inbounds i8, ptr %20, i64 -1
  store i8 %24, ptr %25, align 1, !tbaa !18
  %26 = udiv i32 %19, 10
  %27 = icmp ult i32 %19, 10
  br i1 %27, label %37, label %18, !llvm.loop !33

28:                                               ; preds = %28, %5
  %29 = phi ptr [ %34, %28 ], [ %7, %5 ]
  %30 = phi i64 [ %35, %28 ], [ %12, %5 ]
  %31 = urem i64 %30, 10
  %32 = getelementptr inbounds i8, ptr @.str.9.13, i64 %31
  %33 = load i8, ptr %32, align 1, !tbaa !18
  %34 = getelementptr inbounds i8, ptr %29, i64 -1
  store i8 %33, ptr %34, align 1, !tbaa !18
  %35 = udiv i64 %30, 10
  %36 = icmp ult i64 %30, 10
  br i1 %36, label %37, label %28, !llvm.loop !34

37:                                               ; preds = %28, %18, %14
  %38 = phi ptr [ %7, %14 ], [ %25, %18 ], [ %34, %28 ]
  %39 = icmp eq i64 %1, 0
  %40 = icmp ne i32 %4, 0
  %41 = and i1 %39, %40
  br i1 %41, label %42, label %44

42:                                               ; preds = %37
  %43 = getelementptr inbounds i8, ptr %38, i64 -1
  store i8 48, ptr %43, align 1, !tbaa !18
  br label %45

44:                                               ; preds = %37
  br i1 %8, label %53, label %45

45:                                               ; preds = %44, %42
  %46 = phi ptr [ %43, %42 ], [ %38, %44 ]
  %47 = and i32 %2, 2
  %48 = icmp eq i32 %47, 0
  br i1 %48, label %49, label %53

49:                                               ; preds = %45
  %50 = and i32 %2, 4
  %51 = icmp eq i32 %50, 0
  %52 = select i1 %51, ptr @.str.9, ptr @.str.4.14
  br label %53

53:                                               ; preds = %49, %45, %44
  %54 = phi ptr [ %38, %44 ], [ %46, %49 ], [ %46, %45 ]
  %55 = phi ptr [ @.str.2.15, %44 ], [ %52, %49 ], [ @.str.3.16, %45 ]
  %56 = ptrtoint ptr %7 to i64
  %57 = ptrtoint ptr %54 to i64
  %58 = sub i64 %56, %57
  %59 = trunc i64 %58 to i32
  %60 = call fastcc i32 @number(ptr noundef %0, ptr noundef nonnull %55, ptr noundef nonnull %54, i32 noundef %59, i32 noundef %2, i32 noundef %3, i32 noundef %4) #13
  call void @llvm.lifetime.end.p0(i64 24, ptr nonnull %6) #11
  ret i32 %60
}

; Function Attrs: nounwind optsize uwtable
define internal noundef i32 @__print_text(ptr nocapture noundef %0, ptr nocapture noundef readonly %1, i64 noundef %2) local_unnamed_addr #5 {
  %4 = load i8, ptr %0, align 8, !tbaa !35, !alias.scope !38, !noalias !41
  %5 = icmp eq i8 %4, 0
  %6 = icmp eq i64 %2, 0
  %7 = or i1 %6, %5
  br i1 %7, label %16, label %8

8:                                                ; preds = %8, %3
  %9 = phi i64 [ %14, %8 ], [ 0, %3 ]
  %10 = getelementptr inbounds i8, ptr %1, i64 %9
  %11 = load i8, ptr %10, align 1, !tbaa !18, !alias.scope !41, !noalias !38
  %12 = zext i8 %11 to i32
  %13 = tail call i32 @fputc(i32 noundef %12, ptr noundef nonnull %0) #13, !noalias !41
  %14 = add nuw i64 %9, 1
  %15 = icmp eq i64 %14, %2
  br i1 %15, label %16, label %8, !llvm.loop !43

16:                                               ; preds = %8, %3
  %17 = trunc i64 %2 to i32
  ret i32 %17
}

; Function Attrs: nofree nounwind
declare dso_local noundef i32 @puts(ptr nocapture noundef readonly) local_unnamed_addr #6

; Function Attrs: nocallback nofree nosync nounwind speculatable willreturn memory(none)
declare i64 @llvm.smax.i64(i64, i64) #7

; Function Attrs: nounwind optsize uwtable
define internal i32 @__print_string(ptr nocapture noundef %0, ptr noundef %1, i32 noundef %2, i32 noundef %3, i32 noundef %4) local_unnamed_addr #5 {
  %6 = icmp eq ptr %1, null
  %7 = icmp ult i32 %4, 6
  %8 = select i1 %7, ptr @.str.9, ptr @.str.1.10
  %9 = select i1 %6, ptr %8, ptr %1
  %10 = icmp slt i32 %4, 0
  br i1 %10, label %11, label %20

11:                                               ; preds = %11, %5
  %12 = phi ptr [ %15, %11 ], [ %9, %5 ]
  %13 = load i8, ptr %12, align 1, !tbaa !18
  %14 = icmp eq i8 %13, 0
  %15 = getelementptr inbounds i8, ptr %12, i64 1
  br i1 %14, label %16, label %11, !llvm.loop !44

16:                                               ; preds = %11
  %17 = ptrtoint ptr %12 to i64
  %18 = ptrtoint ptr %9 to i64
  %19 = sub i64 %17, %18
  br label %31

20:                                               ; preds = %5
  %21 = zext nneg i32 %4 to i64
  %22 = icmp eq i32 %4, 0
  br i1 %22, label %31, label %23

23:                                               ; preds = %28, %20
  %24 = phi i64 [ %29, %28 ], [ 0, %20 ]
  %25 = getelementptr inbounds i8, ptr %9, i64 %24
  %26 = load i8, ptr %25, align 1, !tbaa !18
  %27 = icmp eq i8 %26, 0
  br i1 %27, label %31, label %28

28:                                               ; preds = %23
  %29 = add nuw nsw i64 %24, 1
  %30 = icmp eq i64 %29, %21
  br i1 %30, label %31, label %23, !llvm.loop !45

31:                                               ; preds = %28, %23, %20, %16
  %32 = phi i64 [ %19, %16 ], [ 0, %20 ], [ %24, %23 ], [ %21, %28 ]
  %33 = trunc i64 %32 to i32
  %34 = tail call fastcc i32 @padded(ptr noundef %0, ptr noundef nonnull %9, i32 noundef %33, i32 noundef %2, i32 noundef %3) #13
  ret i32 %34
}

; Function Attrs: nounwind optsize uwtable
define internal i32 @__print_unsigned(ptr nocapture noundef %0, i64 noundef %1, i32 noundef %2, i32 noundef %3, i32 noundef %4, i32 noundef %5) local_unnamed_addr #5 {
  %7 = alloca [24 x i8], align 16
  call void @llvm.lifetime.start.p0(i64 24, ptr nonnull %7) #11
  %8 = and i32 %3, 32
  %9 = icmp eq i32 %8, 0
  %10 = select i1 %9, ptr @.str.9.13, ptr @.str.8
  %11 = icmp ult i64 %1, 4294967296
  br i1 %11, label %14, label %12

12:                                               ; preds = %6
  %13 = zext i32 %2 to i64
  br label %29

14:                                               ; preds = %6
  %15 = icmp eq i64 %1, 0
  br i1 %15, label %39, label %16

16:                                               ; preds = %14
  %17 = trunc nuw i64 %1 to i32
  br label %18

18:                                               ; preds = %18, %16
  %19 = phi i32 [ %27, %18 ], [ %17, %16 ]
  %20 = phi i64 [ %25, %18 ], [ 24, %16 ]
  %21 = urem i32 %19, %2
  %22 = zext i32 %21 to i64
  %23 = getelementptr inbounds i8, ptr %10, i64 %22
  %24 = load i8, ptr %23, align 1, !tbaa !18
  %25 = add nsw i64 %20, -1
  %26 = getelementptr inbounds i8, ptr %7, i64 %25
  store i8 %24, ptr %26, align 1, !tbaa !18
  %27 = udiv i32 %19, %2
  %28 = icmp ult i32 %19, %2
  br i1 %28, label %39, label %18, !llvm.loop !33

29:                                               ; preds = %29, %12
  %30 = phi i64 [ 24, %12 ], [ %35, %29 ]
  %31 = phi i64 [ %1, %12 ], [ %37, %29 ]
  %32 = urem i64 %31, %13
  %33 = getelementptr inbounds i8, ptr %10, i64 %32
  %34 = load i8, ptr %33, align 1, !tbaa !18
  %35 = add nsw i64 %30, -1
  %36 = getelementptr inbounds i8, ptr %7, i64 %35
  store i8 %34, ptr %36, align 1, !tbaa !18
  %37 = udiv i64 %31, %13
  %38 = icmp ult i64 %31, %13
  br i1 %38, label %39, label %29, !llvm.loop !34

39:                                               ; preds = %29, %18, %14
  %40 = phi i64 [ 24, %14 ], [ %25, %18 ], [ %35, %29 ]
  %41 = icmp eq i64 %1, 0
  %42 = icmp ne i32 %5, 0
  %43 = and i1 %41, %42
  br i1 %43, label %44, label %47

44:                                               ; preds = %39
  %45 = add nsw i64 %40, -1
  %46 = getelementptr inbounds i8, ptr %7, i64 %45
  store i8 48, ptr %46, align 1, !tbaa !18
  br label %47

47:                                               ; preds = %44, %39
  %48 = phi i64 [ %45, %44 ], [ %40, %39 ]
  %49 = getelementptr inbounds i8, ptr %7, i64 %48
  %50 = and i32 %3, 8
  %51 = icmp ne i32 %50, 0
  %52 = icmp eq i32 %2, 8
  %53 = and i1 %52, %51
  br i1 %53, label %54, label %65

54:                                               ; preds = %47
  %55 = sub nsw i64 24, %48
  %56 = sext i32 %5 to i64
  %57 = icmp slt i64 %55, %56
  br i1 %57, label %65, label %58

58:                                               ; preds = %54
  %59 = icmp eq i64 %48, 24
  br i1 %59, label %63, label %60

60:                                               ; preds = %58
  %61 = load i8, ptr %49, align 1, !tbaa !18
  %62 = icmp eq i8 %61, 48
  br i1 %62, label %65, label %63

63:                                               ; preds = %60, %58
  %64 = getelementptr inbounds i8, ptr %49, i64 -1
  store i8 48, ptr %64, align 1, !tbaa !18
  br label %65

65:                                               ; preds = %63, %60, %54, %47
  %66 = phi ptr [ %64, %63 ], [ %49, %60 ], [ %49, %54 ], [ %49, %47 ]
  %67 = getelementptr inbounds i8, ptr %7, i64 24
  %68 = icmp eq i32 %2, 16
  %69 = icmp ne i64 %1, 0
  %70 = and i1 %69, %68
  %71 = and i1 %70, %51
  %72 = select i1 %9, ptr @.str.6.19, ptr @.str.5.20
  %73 = select i1 %71, ptr %72, ptr @.str.9
  %74 = ptrtoint ptr %67 to i64
  %75 = ptrtoint ptr %66 to i64
  %76 = sub i64 %74, %75
  %77 = trunc i64 %76 to i32
  %78 = call fastcc i32 @number(ptr noundef %0, ptr noundef nonnull %73, ptr noundef nonnull %66, i32 noundef %77, i32 noundef %3, i32 noundef %4, i32 noundef %5) #13
  call void @llvm.lifetime.end.p0(i64 24, ptr nonnull %7) #11
  ret i32 %78
}

; Function Attrs: nofree nounwind
declare dso_local noundef i32 @putchar(i32 noundef) local_unnamed_addr #6

; Function Attrs: nounwind optsize uwtable
define internal fastcc i32 @number(ptr nocapture noundef %0, ptr noundef %1, ptr nocapture noundef readonly %2, i32 noundef %3, i32 noundef %4, i32 noundef %5, i32 noundef %6) unnamed_addr #5 {
  br label %8

8:                                                ; preds = %8, %7
  %9 = phi ptr [ %1, %7 ], [ %12, %8 ]
  %10 = load i8, ptr %9, align 1, !tbaa !18
  %11 = icmp eq i8 %10, 0
  %12 = getelementptr inbounds i8, ptr %9, i64 1
  br i1 %11, label %13, label %8, !llvm.loop !44

13:                                               ; preds = %8
  %14 = ptrtoint ptr %9 to i64
  %15 = ptrtoint ptr %1 to i64
  %16 = sub i64 %14, %15
  %17 = trunc i64 %16 to i32
  %18 = sub nsw i32 %6, %3
  %19 = lshr i32 %5, 31
  %20 = icmp ne i32 %19, 0
  %21 = sub i32 0, %5
  %22 = select i1 %20, i32 %21, i32 %5
  %23 = tail call i32 @llvm.smax.i32(i32 %18, i32 0)
  %24 = icmp slt i32 %6, 0
  %25 = and i32 %4, 16
  %26 = icmp ne i32 %25, 0
  %27 = and i1 %26, %24
  %28 = and i32 %4, 1
  %29 = or i32 %19, %28
  %30 = icmp eq i32 %29, 0
  %31 = and i1 %27, %30
  %32 = add i32 %17, %3
  %33 = icmp sgt i32 %22, %32
  %34 = select i1 %31, i1 %33, i1 false
  %35 = sub i32 %22, %32
  %36 = select i1 %34, i32 %35, i32 %23
  %37 = add i32 %32, %36
  %38 = sub i32 %22, %37
  br i1 %30, label %39, label %48

39:                                               ; preds = %13
  %40 = icmp sgt i32 %38, 0
  br i1 %40, label %41, label %46

41:                                               ; preds = %41, %39
  %42 = phi i32 [ %44, %41 ], [ 0, %39 ]
  %43 = tail call i32 @fputc(i32 noundef 32, ptr noundef %0) #13
  %44 = add nuw nsw i32 %42, 1
  %45 = icmp eq i32 %44, %38
  br i1 %45, label %46, label %41, !llvm.loop !46

46:                                               ; preds = %41, %39
  %47 = tail call noundef i32 @llvm.smax.i32(i32 %38, i32 0)
  br label %48

48:                                               ; preds = %46, %13
  %49 = phi i32 [ 0, %13 ], [ %47, %46 ]
  %50 = shl i64 %16, 32
  %51 = ashr exact i64 %50, 32
  %52 = load i8, ptr %0, align 8, !tbaa !35, !alias.scope !47, !noalias !50
  %53 = icmp eq i8 %52, 0
  %54 = icmp eq i64 %50, 0
  %55 = or i1 %54, %53
  br i1 %55, label %64, label %56

56:                                               ; preds = %56, %48
  %57 = phi i64 [ %62, %56 ], [ 0, %48 ]
  %58 = getelementptr inbounds i8, ptr %1, i64 %57
  %59 = load i8, ptr %58, align 1, !tbaa !18, !alias.scope !50, !noalias !47
  %60 = zext i8 %59 to i32
  %61 = tail call i32 @fputc(i32 noundef %60, ptr noundef nonnull %0) #13, !noalias !50
  %62 = add nuw i64 %57, 1
  %63 = icmp eq i64 %62, %51
  br i1 %63, label %64, label %56, !llvm.loop !43

64:                                               ; preds = %56, %48
  %65 = icmp sgt i32 %36, 0
  br i1 %65, label %66, label %71

66:                                               ; preds = %66, %64
  %67 = phi i32 [ %69, %66 ], [ 0, %64 ]
  %68 = tail call i32 @fputc(i32 noundef 48, ptr noundef nonnull %0) #13
  %69 = add nuw nsw i32 %67, 1
  %70 = icmp eq i32 %69, %36
  br i1 %70, label %71, label %66, !llvm.loop !46

71:                                               ; preds = %66, %64
  %72 = tail call noundef i32 @llvm.smax.i32(i32 %36, i32 0)
  %73 = sext i32 %3 to i64
  %74 = load i8, ptr %0, align 8, !tbaa !35, !alias.scope !52, !noalias !55
  %75 = icmp eq i8 %74, 0
  %76 = icmp eq i32 %3, 0
  %77 = or i1 %76, %75
  br i1 %77, label %86, label %78

78:                                               ; preds = %78, %71
  %79 = phi i64 [ %84, %78 ], [ 0, %71 ]
  %80 = getelementptr inbounds i8, ptr %2, i64 %79
  %81 = load i8, ptr %80, align 1, !tbaa !18, !alias.scope !55, !noalias !52
  %82 = zext i8 %81 to i32
  %83 = tail call i32 @fputc(i32 noundef %82, ptr noundef nonnull %0) #13, !noalias !55
  %84 = add nuw i64 %79, 1
  %85 = icmp eq i64 %84, %73
  br i1 %85, label %86, label %78, !llvm.loop !43

86:                                               ; preds = %78, %71
  %87 = add i32 %32, %72
  %88 = add i32 %87, %49
  br i1 %30, label %99, label %89

89:                                               ; preds = %86
  %90 = icmp sgt i32 %38, 0
  br i1 %90, label %91, label %96

91:                                               ; preds = %91, %89
  %92 = phi i32 [ %94, %91 ], [ 0, %89 ]
  %93 = tail call i32 @fputc(i32 noundef 32, ptr noundef nonnull %0) #13
  %94 = add nuw nsw i32 %92, 1
  %95 = icmp eq i32 %94, %38
  br i1 %95, label %96, label %91, !llvm.loop !46

96:                                               ; preds = %91, %89
  %97 = tail call noundef i32 @llvm.smax.i32(i32 %38, i32 0)
  %98 = add nsw i32 %88, %97
  br label %99

99:                                               ; preds = %96, %86
  %100 = phi i32 [ %98, %96 ], [ %88, %86 ]
  ret i32 %100
}

; Function Attrs: nocallback nofree nosync nounwind speculatable willreturn memory(none)
declare i32 @llvm.smax.i32(i32, i32) #7

; Function Attrs: nounwind optsize uwtable
define internal range(i32 -1, 256) i32 @fputc(i32 noundef %0, ptr nocapture noundef %1) local_unnamed_addr #5 {
  %3 = load i8, ptr %1, align 8, !tbaa !35
  switch i8 %3, label %17 [
    i8 1, label %4
    i8 3, label %6
    i8 0, label %19
  ]

4:                                                ; preds = %2
  %5 = tail call i32 @putchar(i32 noundef %0) #14
  br label %17

6:                                                ; preds = %2
  %7 = getelementptr inbounds i8, ptr %1, i64 16
  %8 = load i64, ptr %7, align 8, !tbaa !57
  %9 = icmp eq i64 %8, 0
  br i1 %9, label %17, label %10

10:                                               ; preds = %6
  %11 = trunc i32 %0 to i8
  %12 = getelementptr inbounds i8, ptr %1, i64 8
  %13 = load ptr, ptr %12, align 8, !tbaa !58
  %14 = getelementptr inbounds i8, ptr %13, i64 1
  store ptr %14, ptr %12, align 8, !tbaa !58
  store i8 %11, ptr %13, align 1, !tbaa !18
  %15 = load i64, ptr %7, align 8, !tbaa !57
  %16 = add i64 %15, -1
  store i64 %16, ptr %7, align 8, !tbaa !57
  br label %17

17:                                               ; preds = %10, %6, %4, %2
  %18 = and i32 %0, 255
  br label %19

19:                                               ; preds = %17, %2
  %20 = phi i32 [ %18, %17 ], [ -1, %2 ]
  ret i32 %20
}

; Function Attrs: nounwind optsize uwtable
define internal fastcc i32 @padded(ptr nocapture noundef %0, ptr nocapture noundef readonly %1, i32 noundef %2, i32 noundef %3, i32 noundef %4) unnamed_addr #5 {
  %6 = icmp slt i32 %4, 0
  %7 = lshr i32 %4, 31
  %8 = icmp ne i32 %7, 0
  %9 = sub i32 0, %4
  %10 = select i1 %8, i32 %9, i32 %4
  %11 = sub nsw i32 %10, %2
  %12 = and i32 %3, 1
  %13 = icmp ne i32 %12, 0
  %14 = or i1 %6, %13
  br i1 %14, label %24, label %15

15:                                               ; preds = %5
  %16 = icmp sgt i32 %11, 0
  br i1 %16, label %17, label %22

17:                                               ; preds = %17, %15
  %18 = phi i32 [ %20, %17 ], [ 0, %15 ]
  %19 = tail call i32 @fputc(i32 noundef 32, ptr noundef %0) #13
  %20 = add nuw nsw i32 %18, 1
  %21 = icmp eq i32 %20, %11
  br i1 %21, label %22, label %17, !llvm.loop !46

22:                                               ; preds = %17, %15
  %23 = tail call noundef i32 @llvm.smax.i32(i32 %11, i32 0)
  br label %24

24:                                               ; preds = %22, %5
  %25 = phi i32 [ %23, %22 ], [ 0, %5 ]
  %26 = sext i32 %2 to i64
  %27 = load i8, ptr %0, align 8, !tbaa !35, !alias.scope !59, !noalias !62
  %28 = icmp eq i8 %27, 0
  %29 = icmp eq i32 %2, 0
  %30 = or i1 %29, %28
  br i1 %30, label %39, label %31

31:                                               ; preds = %31, %24
  %32 = phi i64 [ %37, %31 ], [ 0, %24 ]
  %33 = getelementptr inbounds i8, ptr %1, i64 %32
  %34 = load i8, ptr %33, align 1, !tbaa !18, !alias.scope !62, !noalias !59
  %35 = zext i8 %34 to i32
  %36 = tail call i32 @fputc(i32 noundef %35, ptr noundef nonnull %0) #13, !noalias !62
  %37 = add nuw i64 %32, 1
  %38 = icmp eq i64 %37, %26
  br i1 %38, label %39, label %31, !llvm.loop !43

39:                                               ; preds = %31, %24
  br i1 %14, label %40, label %49

40:                                               ; preds = %39
  %41 = icmp sgt i32 %11, 0
  br i1 %41, label %42, label %47

42:                                               ; preds = %42, %40
  %43 = phi i32 [ %45, %42 ], [ 0, %40 ]
  %44 = tail call i32 @fputc(i32 noundef 32, ptr noundef nonnull %0) #13
  %45 = add nuw nsw i32 %43, 1
  %46 = icmp eq i32 %45, %11
  br i1 %46, label %47, label %42, !llvm.loop !46

47:                                               ; preds = %42, %40
  %48 = tail call noundef i32 @llvm.smax.i32(i32 %11, i32 0)
  br label %49

49:                                               ; preds = %47, %39
  %50 = phi i32 [ %48, %47 ], [ 0, %39 ]
  %51 = add nsw i32 %25, %2
  %52 = add nsw i32 %51, %50
  ret i32 %52
}

; Function Attrs: nounwind optsize uwtable
define internal i32 @fgetc(ptr nocapture noundef %0) local_unnamed_addr #5 {
  %2 = load i8, ptr %0, align 8, !tbaa !35
  %3 = icmp eq i8 %2, 0
  br i1 %3, label %4, label %20

4:                                                ; preds = %1
  %5 = getelementptr inbounds i8, ptr %0, i64 2
  %6 = load i8, ptr %5, align 2, !tbaa !64
  %7 = icmp eq i8 %6, 0
  br i1 %7, label %12, label %8

8:                                                ; preds = %4
  store i8 0, ptr %5, align 2, !tbaa !64
  %9 = getelementptr inbounds i8, ptr %0, i64 3
  %10 = load i8, ptr %9, align 1, !tbaa !65
  %11 = zext i8 %10 to i32
  br label %20

12:                                               ; preds = %4
  %13 = getelementptr inbounds i8, ptr %0, i64 1
  %14 = load i8, ptr %13, align 1, !tbaa !66
  %15 = icmp eq i8 %14, 0
  br i1 %15, label %16, label %20

16:                                               ; preds = %12
  %17 = tail call i32 @getchar() #14
  %18 = icmp eq i32 %17, -1
  br i1 %18, label %19, label %20

19:                                               ; preds = %16
  store i8 1, ptr %13, align 1, !tbaa !66
  br label %20

20:                                               ; preds = %19, %16, %12, %8, %1
  %21 = phi i32 [ %11, %8 ], [ -1, %1 ], [ -1, %12 ], [ -1, %19 ], [ %17, %16 ]
  ret i32 %21
}

; Function Attrs: mustprogress nofree norecurse nosync nounwind optsize willreturn memory(none) uwtable
define internal range(i32 0, 2) i32 @isspace(i32 noundef %0) local_unnamed_addr #8 {
  %2 = icmp eq i32 %0, 32
  %3 = add i32 %0, -9
  %4 = icmp ult i32 %3, 5
  %5 = or i1 %2, %4
  %6 = zext i1 %5 to i32
  ret i32 %6
}

; Function Attrs: mustprogress nofree norecurse nosync nounwind optsize willreturn memory(argmem: readwrite) uwtable
define internal range(i32 -1, 256) i32 @ungetc(i32 noundef %0, ptr nocapture noundef %1) local_unnamed_addr #9 {
  %3 = icmp eq i32 %0, -1
  br i1 %3, label %16, label %4

4:                                                ; preds = %2
  %5 = load i8, ptr %1, align 8, !tbaa !35
  %6 = icmp eq i8 %5, 0
  br i1 %6, label %7, label %16

7:                                                ; preds = %4
  %8 = getelementptr inbounds i8, ptr %1, i64 2
  %9 = load i8, ptr %8, align 2, !tbaa !64
  %10 = icmp eq i8 %9, 0
  br i1 %10, label %11, label %16

11:                                               ; preds = %7
  store i8 1, ptr %8, align 2, !tbaa !64
  %12 = trunc i32 %0 to i8
  %13 = getelementptr inbounds i8, ptr %1, i64 3
  store i8 %12, ptr %13, align 1, !tbaa !65
  %14 = getelementptr inbounds i8, ptr %1, i64 1
  store i8 0, ptr %14, align 1, !tbaa !66
  %15 = and i32 %0, 255
  br label %16

16:                                               ; preds = %11, %7, %4, %2
  %17 = phi i32 [ %15, %11 ], [ -1, %7 ], [ -1, %4 ], [ -1, %2 ]
  ret i32 %17
}

; Function Attrs: optsize
declare dso_local i32 @getchar() local_unnamed_addr #10

attributes #0 = { nounwind uwtable "min-legal-vector-width"="0" "no-jump-tables"="true" "no-trapping-math"="true" "stack-protector-buffer-size"="8" "target-cpu"="x86-64" "target-features"="+cmov,+cx8,+fxsr,+mmx,+sse,+sse2,+x87" "tune-cpu"="generic" }
attributes #1 = { nocallback nofree nosync nounwind willreturn memory(argmem: readwrite) }
attributes #2 = { nofree nounwind uwtable "min-legal-vector-width"="0" "no-trapping-math"="true" "stack-protector-buffer-size"="8" "target-cpu"="x86-64" "target-features"="+cmov,+cx8,+fxsr,+mmx,+sse,+sse2,+x87" "tune-cpu"="generic" }
attributes #3 = { nocallback nofree nounwind willreturn memory(argmem: write) }
attributes #4 = { nocallback nofree nounwind willreturn memory(argmem: readwrite) }
attributes #5 = { nounwind optsize uwtable "min-legal-vector-width"="0" "no-builtins" "no-jump-tables"="true" "no-trapping-math"="true" "stack-protector-buffer-size"="8" "target-cpu"="x86-64" "target-features"="+cmov,+cx8,+fxsr,+mmx,+sse,+sse2,+x87" "tune-cpu"="generic" }
attributes #6 = { nofree nounwind "no-trapping-math"="true" "stack-protector-buffer-size"="8" "target-cpu"="x86-64" "target-features"="+cmov,+cx8,+fxsr,+mmx,+sse,+sse2,+x87" "tune-cpu"="generic" }
attributes #7 = { nocallback nofree nosync nounwind speculatable willreturn memory(none) }
attributes #8 = { mustprogress nofree norecurse nosync nounwind optsize willreturn memory(none) uwtable "min-legal-vector-width"="0" "no-builtins" "no-jump-tables"="true" "no-trapping-math"="true" "stack-protector-buffer-size"="8" "target-cpu"="x86-64" "target-features"="+cmov,+cx8,+fxsr,+mmx,+sse,+sse2,+x87" "tune-cpu"="generic" }
attributes #9 = { mustprogress nofree norecurse nosync nounwind optsize willreturn memory(argmem: readwrite) uwtable "min-legal-vector-width"="0" "no-builtins" "no-jump-tables"="true" "no-trapping-math"="true" "stack-protector-buffer-size"="8" "target-cpu"="x86-64" "target-features"="+cmov,+cx8,+fxsr,+mmx,+sse,+sse2,+x87" "tune-cpu"="generic" }
attributes #10 = { optsize "no-builtins" "no-trapping-math"="true" "stack-protector-buffer-size"="8" "target-cpu"="x86-64" "target-features"="+cmov,+cx8,+fxsr,+mmx,+sse,+sse2,+x87" "tune-cpu"="generic" }
attributes #11 = { nounwind }
attributes #12 = { nounwind willreturn memory(read) }
attributes #13 = { nobuiltin optsize "no-builtins" }
attributes #14 = { nobuiltin nounwind optsize "no-builtins" }

!llvm.ident = !{!0, !0, !0}
!llvm.module.flags = !{!1, !2, !3, !4}

!0 = !{!"Debian clang version 19.1.7 (3~deb12u1)"}
!1 = !{i32 7, !"Dwarf Version", i32 5}
!2 = !{i32 2, !"Debug Info Version", i32 3}
!3 = !{i32 1, !"wchar_size", i32 4}
!4 = !{i32 7, !"uwtable", i32 2}
!5 = !{!6, !6, i64 0}
!6 = !{!"long", !7, i64 0}
!7 = !{!"omnipotent char", !8, i64 0}
!8 = !{!"Simple C/C++ TBAA"}
!9 = !{!10, !11, i64 0}
!10 = !{!"system", !11, i64 0, !7, i64 8}
!11 = !{!"int", !7, i64 0}
!12 = distinct !{!12, !13, !14}
!13 = !{!"llvm.loop.mustprogress"}
!14 = !{!"llvm.loop.unroll.disable"}
!15 = distinct !{!15, !13, !14}
!16 = !{i64 0, i64 4, !17, i64 8, i64 1248, !18}
!17 = !{!11, !11, i64 0}
!18 = !{!7, !7, i64 0}
!19 = distinct !{!19, !13, !14}
!20 = distinct !{!20, !13, !14}
!21 = distinct !{!21, !13, !14}
!22 = distinct !{!22, !13, !14}
!23 = distinct !{!23, !13, !14}
!24 = distinct !{!24, !13, !14}
!25 = distinct !{!25, !13, !14}
!26 = distinct !{!26, !13, !14}
!27 = distinct !{!27, !13, !14}
!28 = distinct !{!28, !13, !14}
!29 = distinct !{!29, !13, !14}
!30 = distinct !{!30, !13, !14}
!31 = distinct !{!31, !13, !14}
!32 = distinct !{!32, !13, !14}
!33 = distinct !{!33, !13}
!34 = distinct !{!34, !13}
!35 = !{!36, !7, i64 0}
!36 = !{!"__stream", !7, i64 0, !7, i64 1, !7, i64 2, !7, i64 3, !37, i64 8, !6, i64 16}
!37 = !{!"any pointer", !7, i64 0}
!38 = !{!39}
!39 = distinct !{!39, !40, !"fwrite: %stream"}
!40 = distinct !{!40, !"fwrite"}
!41 = !{!42}
!42 = distinct !{!42, !40, !"fwrite: %from"}
!43 = distinct !{!43, !13}
!44 = distinct !{!44, !13}
!45 = distinct !{!45, !13}
!46 = distinct !{!46, !13}
!47 = !{!48}
!48 = distinct !{!48, !49, !"fwrite: %stream"}
!49 = distinct !{!49, !"fwrite"}
!50 = !{!51}
!51 = distinct !{!51, !49, !"fwrite: %from"}
!52 = !{!53}
!53 = distinct !{!53, !54, !"fwrite: %stream"}
!54 = distinct !{!54, !"fwrite"}
!55 = !{!56}
!56 = distinct !{!56, !54, !"fwrite: %from"}
!57 = !{!36, !6, i64 16}
!58 = !{!36, !37, i64 8}
!59 = !{!60}
!60 = distinct !{!60, !61, !"fwrite: %stream"}
!61 = distinct !{!61, !"fwrite"}
!62 = !{!63}
!63 = distinct !{!63, !61, !"fwrite: %from"}
!64 = !{!36, !7, i64 2}
!65 = !{!36, !7, i64 3}
!66 = !{!36, !7, i64 1}
