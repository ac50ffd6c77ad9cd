source_filename = "solver.c"
target datalayout = "e-m:e-p:32:32-Fi8-i64:64-v128:64:128-a:0:32-n32-S64"
target triple = "armv7-unknown-linux-gnueabi"

%struct.system = type { i32, [12 x [13 x i64]] }
%struct.__stream = type { i8, i8, i8, i8, ptr, i32 }

@main.given = internal global %struct.system zeroinitializer, align 8
@main.used = internal unnamed_addr global %struct.system zeroinitializer, align 8
@.str = private unnamed_addr constant [13 x i8] c"%d unknowns:\00", align 1
@.str.1 = private unnamed_addr constant [20 x i8] c" no single solution\00", align 1
@.str.2 = private unnamed_addr constant [11 x i8] c"  (within \00", align 1
@.str.3 = private unnamed_addr constant [2 x i8] c")\00", align 1
@.str.4 = private unnamed_addr constant [14 x i8] c"%s%llu.%03llu\00", align 1
@.str.5 = private unnamed_addr constant [2 x i8] c"-\00", align 1
@.str.6 = private unnamed_addr constant [1 x i8] zeroinitializer, align 1
@.str.9 = private unnamed_addr constant [1 x i8] zeroinitializer, align 1
@.str.1.10 = private unnamed_addr constant [7 x i8] c"(null)\00", align 1
@.str.2.15 = private unnamed_addr constant [2 x i8] c"-\00", align 1
@.str.3.16 = private unnamed_addr constant [2 x i8] c"+\00", align 1
@.str.4.14 = private unnamed_addr constant [2 x i8] c" \00", align 1
@.str.5.20 = private unnamed_addr constant [3 x i8] c"0X\00", align 1
@.str.6.19 = private unnamed_addr constant [3 x i8] c"0x\00", align 1
@__streams = internal global [3 x %struct.__stream] [%struct.__stream zeroinitializer, %struct.__stream { i8 1, i8 0, i8 0, i8 0, ptr null, i32 0 }, %struct.__stream { i8 2, i8 0, i8 0, i8 0, ptr null, i32 0 }], align 4
@.str.8 = private unnamed_addr constant [17 x i8] c"0123456789ABCDEF\00", align 1
@.str.9.13 = private unnamed_addr constant [17 x i8] c"0123456789abcdef\00", align 1

; Function Attrs: nounwind
define dso_local i32 @main() local_unnamed_addr #0 {
  %1 = alloca i64, align 8
  %2 = alloca [12 x i64], align 8
  call void @llvm.lifetime.start.p0(i64 8, ptr nonnull %1) #10
  %3 = call fastcc i32 @read_number(ptr noundef nonnull %1)
  %4 = icmp eq i32 %3, 0
  br i1 %4, label %220, label %5

5:                                                ; preds = %216, %0
  %6 = phi i32 [ %217, %216 ], [ 0, %0 ]
  %7 = load i64, ptr %1, align 8, !tbaa !5
  %8 = lshr i64 %7, 16
  %9 = trunc i64 %8 to i32
  store i32 %9, ptr @main.given, align 8, !tbaa !9
  %10 = add i32 %9, -13
  %11 = icmp ult i32 %10, -12
  br i1 %11, label %220, label %12

12:                                               ; preds = %25, %5
  %13 = phi i32 [ %26, %25 ], [ %9, %5 ]
  %14 = phi i32 [ %27, %25 ], [ 0, %5 ]
  %15 = icmp slt i32 %13, 0
  br i1 %15, label %25, label %20

16:                                               ; preds = %20
  %17 = add nuw nsw i32 %21, 1
  %18 = load i32, ptr @main.given, align 8, !tbaa !9
  %19 = icmp slt i32 %21, %18
  br i1 %19, label %20, label %25, !llvm.loop !12

20:                                               ; preds = %16, %12
  %21 = phi i32 [ %17, %16 ], [ 0, %12 ]
  %22 = getelementptr inbounds [12 x [13 x i64]], ptr getelementptr inbounds (i8, ptr @main.given, i32 8), i32 0, i32 %14, i32 %21
  %23 = tail call fastcc i32 @read_number(ptr noundef nonnull %22)
  %24 = icmp eq i32 %23, 0
  br i1 %24, label %220, label %16

25:                                               ; preds = %16, %12
  %26 = phi i32 [ %13, %12 ], [ %18, %16 ]
  %27 = add nuw nsw i32 %14, 1
  %28 = icmp slt i32 %27, %26
  br i1 %28, label %12, label %29, !llvm.loop !14

29:                                               ; preds = %25
  call void @llvm.lifetime.end.p0(i64 8, ptr nonnull %1) #10
  call void @llvm.lifetime.start.p0(i64 96, ptr nonnull %2) #10
  call void @llvm.memset.p0.i32(ptr noundef nonnull align 8 dereferenceable(96) %2, i8 0, i32 96, i1 false)
  tail call void @llvm.memcpy.p0.p0.i32(ptr noundef nonnull align 8 dereferenceable(1256) @main.used, ptr noundef nonnull align 8 dereferenceable(1256) @main.given, i32 1256, i1 false), !tbaa.struct !15
  %30 = sext i32 %26 to i64
  %31 = tail call i32 @__print_signed(ptr nonnull getelementptr inbounds (i8, ptr @__streams, i32 12), i64 %30, i32 0, i32 0, i32 -1) #10
  %32 = tail call i32 @__print_text(ptr nonnull getelementptr inbounds (i8, ptr @__streams, i32 12), ptr nonnull getelementptr inbounds (i8, ptr @.str, i32 2), i32 10) #10
  %33 = load i32, ptr @main.used, align 8, !tbaa !9
  %34 = icmp sgt i32 %33, 0
  br i1 %34, label %37, label %127

35:                                               ; preds = %87, %77
  %36 = icmp eq i32 %39, %33
  br i1 %36, label %101, label %37, !llvm.loop !18

37:                                               ; preds = %35, %29
  %38 = phi i32 [ %39, %35 ], [ 0, %29 ]
  %39 = add nuw nsw i32 %38, 1
  %40 = icmp slt i32 %39, %33
  br i1 %40, label %50, label %41

41:                                               ; preds = %50, %37
  %42 = phi i32 [ %38, %37 ], [ %66, %50 ]
  %43 = getelementptr inbounds [12 x [13 x i64]], ptr getelementptr inbounds (i8, ptr @main.used, i32 8), i32 0, i32 %42, i32 %38
  %44 = load i64, ptr %43, align 8, !tbaa !5
  %45 = lshr i64 %44, 63
  %46 = icmp ne i64 %45, 0
  %47 = sub i64 0, %44
  %48 = select i1 %46, i64 %47, i64 %44
  %49 = icmp ugt i64 %48, 15
  br i1 %49, label %69, label %130

50:                                               ; preds = %50, %37
  %51 = phi i32 [ %67, %50 ], [ %39, %37 ]
  %52 = phi i32 [ %66, %50 ], [ %38, %37 ]
  %53 = getelementptr inbounds [12 x [13 x i64]], ptr getelementptr inbounds (i8, ptr @main.used, i32 8), i32 0, i32 %51, i32 %38
  %54 = load i64, ptr %53, align 8, !tbaa !5
  %55 = lshr i64 %54, 63
  %56 = icmp ne i64 %55, 0
  %57 = sub i64 0, %54
  %58 = select i1 %56, i64 %57, i64 %54
  %59 = getelementptr inbounds [12 x [13 x i64]], ptr getelementptr inbounds (i8, ptr @main.used, i32 8), i32 0, i32 %52, i32 %38
  %60 = load i64, ptr %59, align 8, !tbaa !5
  %61 = lshr i64 %60, 63
  %62 = icmp ne i64 %61, 0
  %63 = sub i64 0, %60
  %64 = select i1 %62, i64 %63, i64 %60
  %65 = icmp ugt i64 %58, %64
  %66 = select i1 %65, i32 %51, i32 %52
  %67 = add nuw nsw i32 %51, 1
  %68 = icmp eq i32 %67, %33
  br i1 %68, label %41, label %50, !llvm.loop !19

69:                                               ; preds = %69, %41
  %70 = phi i32 [ %75, %69 ], [ 0, %41 ]
  %71 = getelementptr inbounds [12 x [13 x i64]], ptr getelementptr inbounds (i8, ptr @main.used, i32 8), i32 0, i32 %38, i32 %70
  %72 = load i64, ptr %71, align 8, !tbaa !5
  %73 = getelementptr inbounds [12 x [13 x i64]], ptr getelementptr inbounds (i8, ptr @main.used, i32 8), i32 0, i32 %42, i32 %70
  %74 = load i64, ptr %73, align 8, !tbaa !5
  store i64 %74, ptr %71, align 8, !tbaa !5
  store i64 %72, ptr %73, align 8, !tbaa !5
  %75 = add nuw i32 %70, 1
  %76 = icmp eq i32 %70, %33
  br i1 %76, label %77, label %69, !llvm.loop !20

77:                                               ; preds = %69
  br i1 %40, label %78, label %35

78:                                               ; preds = %77
  %79 = getelementptr inbounds [12 x [13 x i64]], ptr getelementptr inbounds (i8, ptr @main.used, i32 8), i32 0, i32 %38, i32 %38
  br label %80

80:                                               ; preds = %87, %78
  %81 = phi i32 [ %39, %78 ], [ %88, %87 ]
  %82 = getelementptr inbounds [12 x [13 x i64]], ptr getelementptr inbounds (i8, ptr @main.used, i32 8), i32 0, i32 %81, i32 %38
  %83 = load i64, ptr %82, align 8, !tbaa !5
  %84 = load i64, ptr %79, align 8, !tbaa !5
  %85 = shl nsw i64 %83, 16
  %86 = sdiv i64 %85, %84
  br label %90

87:                                               ; preds = %90
  %88 = add nuw nsw i32 %81, 1
  %89 = icmp eq i32 %88, %33
  br i1 %89, label %35, label %80, !llvm.loop !21

90:                                               ; preds = %90, %80
  %91 = phi i32 [ %99, %90 ], [ %38, %80 ]
  %92 = getelementptr inbounds [12 x [13 x i64]], ptr getelementptr inbounds (i8, ptr @main.used, i32 8), i32 0, i32 %38, i32 %91
  %93 = load i64, ptr %92, align 8, !tbaa !5
  %94 = mul nsw i64 %93, %86
  %95 = sdiv i64 %94, -65536
  %96 = getelementptr inbounds [12 x [13 x i64]], ptr getelementptr inbounds (i8, ptr @main.used, i32 8), i32 0, i32 %81, i32 %91
  %97 = load i64, ptr %96, align 8, !tbaa !5
  %98 = add i64 %95, %97
  store i64 %98, ptr %96, align 8, !tbaa !5
  %99 = add nuw i32 %91, 1
  %100 = icmp eq i32 %91, %33
  br i1 %100, label %87, label %90, !llvm.loop !22

101:                                              ; preds = %107, %35
  %102 = phi i32 [ %103, %107 ], [ %33, %35 ]
  %103 = add nsw i32 %102, -1
  %104 = getelementptr inbounds [12 x [13 x i64]], ptr getelementptr inbounds (i8, ptr @main.used, i32 8), i32 0, i32 %103, i32 %33
  %105 = load i64, ptr %104, align 8, !tbaa !5
  %106 = icmp slt i32 %102, %33
  br i1 %106, label %115, label %107

107:                                              ; preds = %115, %101
  %108 = phi i64 [ %105, %101 ], [ %124, %115 ]
  %109 = getelementptr inbounds [12 x [13 x i64]], ptr getelementptr inbounds (i8, ptr @main.used, i32 8), i32 0, i32 %103, i32 %103
  %110 = load i64, ptr %109, align 8, !tbaa !5
  %111 = shl nsw i64 %108, 16
  %112 = sdiv i64 %111, %110
  %113 = getelementptr inbounds i64, ptr %2, i32 %103
  store i64 %112, ptr %113, align 8, !tbaa !5
  %114 = icmp sgt i32 %102, 1
  br i1 %114, label %101, label %127, !llvm.loop !23

115:                                              ; preds = %115, %101
  %116 = phi i32 [ %125, %115 ], [ %102, %101 ]
  %117 = phi i64 [ %124, %115 ], [ %105, %101 ]
  %118 = getelementptr inbounds [12 x [13 x i64]], ptr getelementptr inbounds (i8, ptr @main.used, i32 8), i32 0, i32 %103, i32 %116
  %119 = load i64, ptr %118, align 8, !tbaa !5
  %120 = getelementptr inbounds i64, ptr %2, i32 %116
  %121 = load i64, ptr %120, align 8, !tbaa !5
  %122 = mul nsw i64 %121, %119
  %123 = sdiv i64 %122, -65536
  %124 = add i64 %123, %117
  %125 = add nuw nsw i32 %116, 1
  %126 = icmp eq i32 %125, %33
  br i1 %126, label %107, label %115, !llvm.loop !24

127:                                              ; preds = %107, %29
  %128 = load i32, ptr @main.given, align 8, !tbaa !9
  %129 = icmp sgt i32 %128, 0
  br i1 %129, label %182, label %132

130:                                              ; preds = %41
  %131 = tail call i32 @puts(ptr noundef nonnull dereferenceable(1) @.str.1)
  br label %216, !llvm.loop !25

132:                                              ; preds = %182, %127
  %133 = tail call i32 @__print_text(ptr nonnull getelementptr inbounds (i8, ptr @__streams, i32 12), ptr nonnull @.str.2, i32 10) #10
  %134 = load i32, ptr @main.given, align 8, !tbaa !9
  %135 = icmp sgt i32 %134, 0
  br i1 %135, label %136, label %162

136:                                              ; preds = %142, %132
  %137 = phi i32 [ %148, %142 ], [ 0, %132 ]
  %138 = phi i64 [ %147, %142 ], [ 0, %132 ]
  %139 = getelementptr inbounds [12 x [13 x i64]], ptr getelementptr inbounds (i8, ptr @main.given, i32 8), i32 0, i32 %137, i32 %134
  %140 = load i64, ptr %139, align 8, !tbaa !5
  %141 = sub nsw i64 0, %140
  br label %150

142:                                              ; preds = %150
  %143 = lshr i64 %159, 63
  %144 = icmp ne i64 %143, 0
  %145 = sub i64 0, %159
  %146 = select i1 %144, i64 %145, i64 %159
  %147 = tail call i64 @llvm.smax.i64(i64 %146, i64 %138)
  %148 = add nuw nsw i32 %137, 1
  %149 = icmp eq i32 %148, %134
  br i1 %149, label %162, label %136, !llvm.loop !26

150:                                              ; preds = %150, %136
  %151 = phi i32 [ %160, %150 ], [ 0, %136 ]
  %152 = phi i64 [ %159, %150 ], [ %141, %136 ]
  %153 = getelementptr inbounds [12 x [13 x i64]], ptr getelementptr inbounds (i8, ptr @main.given, i32 8), i32 0, i32 %137, i32 %151
  %154 = load i64, ptr %153, align 8, !tbaa !5
  %155 = getelementptr inbounds i64, ptr %2, i32 %151
  %156 = load i64, ptr %155, align 8, !tbaa !5
  %157 = mul nsw i64 %156, %154
  %158 = sdiv i64 %157, 65536
  %159 = add nsw i64 %158, %152
  %160 = add nuw nsw i32 %151, 1
  %161 = icmp eq i32 %160, %134
  br i1 %161, label %142, label %150, !llvm.loop !27

162:                                              ; preds = %142, %132
  %163 = phi i64 [ 0, %132 ], [ %147, %142 ]
  %164 = freeze i64 %163
  %165 = and i64 %164, 65535
  %166 = mul nuw nsw i64 %165, 1000
  %167 = add nuw nsw i64 %166, 32768
  %168 = lshr i64 %164, 16
  %169 = icmp ugt i64 %165, 65503
  %170 = zext i1 %169 to i64
  %171 = add nuw nsw i64 %168, %170
  %172 = lshr i64 %167, 16
  %173 = add nsw i64 %172, -1000
  %174 = icmp ult i64 %165, 65504
  %175 = select i1 %174, i64 %172, i64 %173
  %176 = tail call i32 @__print_string(ptr nonnull getelementptr inbounds (i8, ptr @__streams, i32 12), ptr nonnull @.str.6, i32 0, i32 0, i32 -1) #10
  %177 = tail call i32 @__print_unsigned(ptr nonnull getelementptr inbounds (i8, ptr @__streams, i32 12), i64 %171, i32 10, i32 0, i32 0, i32 -1) #10
  %178 = tail call i32 @__print_text(ptr nonnull getelementptr inbounds (i8, ptr @__streams, i32 12), ptr nonnull getelementptr inbounds (i8, ptr @.str.4, i32 6), i32 1) #10
  %179 = tail call i32 @__print_unsigned(ptr nonnull getelementptr inbounds (i8, ptr @__streams, i32 12), i64 %175, i32 10, i32 16, i32 3, i32 -1) #10
  %180 = tail call i32 @puts(ptr noundef nonnull dereferenceable(1) @.str.3)
  %181 = add nsw i32 %6, 1
  br label %216

182:                                              ; preds = %182, %127
  %183 = phi i32 [ %213, %182 ], [ 0, %127 ]
  %184 = tail call i32 @putchar(i32 noundef 32)
  %185 = getelementptr inbounds [12 x i64], ptr %2, i32 0, i32 %183
  %186 = load i64, ptr %185, align 8, !tbaa !5
  %187 = lshr i64 %186, 63
  %188 = icmp ne i64 %187, 0
  %189 = sub i64 0, %186
  %190 = select i1 %188, i64 %189, i64 %186
  %191 = freeze i64 %190
  %192 = and i64 %191, 65535
  %193 = mul nuw nsw i64 %192, 1000
  %194 = add nuw nsw i64 %193, 32768
  %195 = lshr i64 %191, 16
  %196 = icmp ugt i64 %192, 65503
  %197 = zext i1 %196 to i64
  %198 = add nuw nsw i64 %195, %197
  %199 = icmp slt i64 %186, 0
  %200 = icmp ne i64 %198, 0
  %201 = icmp ugt i64 %192, 32
  %202 = or i1 %201, %200
  %203 = select i1 %199, i1 %202, i1 false
  %204 = select i1 %203, ptr @.str.5, ptr @.str.6
  %205 = lshr i64 %194, 16
  %206 = add nsw i64 %205, -1000
  %207 = icmp ult i64 %192, 65504
  %208 = select i1 %207, i64 %205, i64 %206
  %209 = tail call i32 @__print_string(ptr nonnull getelementptr inbounds (i8, ptr @__streams, i32 12), ptr nonnull %204, i32 0, i32 0, i32 -1) #10
  %210 = tail call i32 @__print_unsigned(ptr nonnull getelementptr inbounds (i8, ptr @__streams, i32 12), i64 %198, i32 10, i32 0, i32 0, i32 -1) #10
  %211 = tail call i32 @__print_text(ptr nonnull getelementptr inbounds (i8, ptr @__streams, i32 12), ptr nonnull getelementptr inbounds (i8, ptr @.str.4, i32 6), i32 1) #10
  %212 = tail call i32 @__print_unsigned(ptr nonnull getelementptr inbounds (i8, ptr @__streams, i32 12), i64 %208, i32 10, i32 16, i32 3, i32 -1) #10
  %213 = add nuw nsw i32 %183, 1
  %214 = load i32, ptr @main.given, align 8, !tbaa !9
  %215 = icmp slt i32 %213, %214
  br i1 %215, label %182, label %132, !llvm.loop !28

216:                                              ; preds = %162, %130
  %217 = phi i32 [ %181, %162 ], [ %6, %130 ]
  call void @llvm.lifetime.end.p0(i64 96, ptr nonnull %2) #10
  call void @llvm.lifetime.start.p0(i64 8, ptr nonnull %1) #10
  %218 = call fastcc i32 @read_number(ptr noundef nonnull %1)
  %219 = icmp eq i32 %218, 0
  br i1 %219, label %220, label %5

220:                                              ; preds = %216, %20, %5, %0
  %221 = phi i32 [ 0, %0 ], [ %6, %20 ], [ %6, %5 ], [ %217, %216 ]
  call void @llvm.lifetime.end.p0(i64 8, ptr nonnull %1) #10
  ret i32 %221
}

; Function Attrs: nocallback nofree nosync nounwind willreturn memory(argmem: readwrite)
declare void @llvm.lifetime.start.p0(i64 immarg, ptr nocapture) #1

; Function Attrs: nofree nounwind
define internal fastcc range(i32 0, 2) i32 @read_number(ptr nocapture noundef writeonly %0) unnamed_addr #2 {
  br label %2

2:                                                ; preds = %5, %1
  %3 = tail call i32 @fgetc(ptr noundef nonnull @__streams)
  %4 = icmp eq i32 %3, -1
  br i1 %4, label %59, label %5

5:                                                ; preds = %2
  %6 = tail call i32 @isspace(i32 noundef %3) #11
  %7 = icmp eq i32 %6, 0
  br i1 %7, label %8, label %2, !llvm.loop !29

8:                                                ; preds = %5
  %9 = icmp eq i32 %3, 45
  br i1 %9, label %10, label %12

10:                                               ; preds = %8
  %11 = tail call i32 @fgetc(ptr noundef nonnull @__streams)
  br label %12

12:                                               ; preds = %10, %8
  %13 = phi i32 [ %11, %10 ], [ %3, %8 ]
  %14 = add i32 %13, -48
  %15 = icmp ult i32 %14, 10
  br i1 %15, label %16, label %59

16:                                               ; preds = %16, %12
  %17 = phi i32 [ %23, %16 ], [ %14, %12 ]
  %18 = phi i64 [ %21, %16 ], [ 0, %12 ]
  %19 = mul nsw i64 %18, 10
  %20 = zext nneg i32 %17 to i64
  %21 = add nsw i64 %19, %20
  %22 = tail call i32 @fgetc(ptr noundef nonnull @__streams)
  %23 = add i32 %22, -48
  %24 = icmp ult i32 %23, 10
  br i1 %24, label %16, label %25, !llvm.loop !30

25:                                               ; preds = %16
  %26 = icmp eq i32 %22, 46
  br i1 %26, label %27, label %49

27:                                               ; preds = %25
  %28 = tail call i32 @fgetc(ptr noundef nonnull @__streams)
  %29 = add i32 %28, -48
  %30 = icmp ult i32 %29, 10
  br i1 %30, label %31, label %49

31:                                               ; preds = %41, %27
  %32 = phi i32 [ %45, %41 ], [ %29, %27 ]
  %33 = phi i64 [ %43, %41 ], [ 1, %27 ]
  %34 = phi i64 [ %42, %41 ], [ 0, %27 ]
  %35 = icmp slt i64 %33, 1000000000
  br i1 %35, label %36, label %41

36:                                               ; preds = %31
  %37 = mul nsw i64 %34, 10
  %38 = zext nneg i32 %32 to i64
  %39 = add nsw i64 %37, %38
  %40 = mul nsw i64 %33, 10
  br label %41

41:                                               ; preds = %36, %31
  %42 = phi i64 [ %39, %36 ], [ %34, %31 ]
  %43 = phi i64 [ %40, %36 ], [ %33, %31 ]
  %44 = tail call i32 @fgetc(ptr noundef nonnull @__streams)
  %45 = add i32 %44, -48
  %46 = icmp ult i32 %45, 10
  br i1 %46, label %31, label %47, !llvm.loop !31

47:                                               ; preds = %41
  %48 = shl nsw i64 %42, 16
  br label %49

49:                                               ; preds = %47, %27, %25
  %50 = phi i32 [ %22, %25 ], [ %28, %27 ], [ %44, %47 ]
  %51 = phi i64 [ 0, %25 ], [ 0, %27 ], [ %48, %47 ]
  %52 = phi i64 [ 1, %25 ], [ 1, %27 ], [ %43, %47 ]
  %53 = tail call i32 @ungetc(i32 noundef %50, ptr noundef nonnull @__streams)
  %54 = shl nsw i64 %21, 16
  %55 = sdiv i64 %51, %52
  %56 = add nsw i64 %55, %54
  %57 = sub nsw i64 0, %56
  %58 = select i1 %9, i64 %57, i64 %56
  store i64 %58, ptr %0, align 8, !tbaa !5
  br label %59

59:                                               ; preds = %49, %12, %2
  %60 = phi i32 [ 1, %49 ], [ 0, %12 ], [ 0, %2 ]
  ret i32 %60
}

; Function Attrs: nocallback nofree nosync nounwind willreturn memory(argmem: readwrite)
declare void @llvm.lifetime.end.p0(i64 immarg, ptr nocapture) #1

; Function Attrs: nocallback nofree nounwind willreturn memory(argmem: write)
declare void @llvm.memset.p0.i32(ptr nocapture writeonly, i8, i32, i1 immarg) #3

; Function Attrs: nocallback nofree nounwind willreturn memory(argmem: readwrite)
declare void @llvm.memcpy.p0.p0.i32(ptr noalias nocapture writeonly, ptr noalias nocapture readonly, i32, i1 immarg) #4

; Function Attrs: nounwind optsize
define internal i32 @__print_signed(ptr nocapture noundef %0, i64 noundef %1, i32 noundef %2, i32 noundef %3, i32 noundef %4) local_unnamed_addr #5 {
  %6 = alloca [24 x i8], align 1
  call void @llvm.lifetime.start.p0(i64 24, ptr nonnull %6) #10
  %7 = getelementptr inbounds i8, ptr %6, i32 24
  %8 = icmp slt i64 %1, 0
  %9 = lshr i64 %1, 63
  %10 = icmp ne i64 %9, 0
  %11 = sub i64 0, %1
  %12 = select i1 %10, i64 %11, i64 %1
  %13 = icmp ult i64 %12, 4294967296
  br i1 %13, label %14, label %28

14:                                               ; preds = %5
  %15 = trunc nuw i64 %12 to i32
  %16 = icmp eq i32 %15, 0
  br i1 %16, label %39, label %17

17:                                               ; preds = %17, %14
  %18 = phi i32 [ %21, %17 ], [ %15, %14 ]
  %19 = phi ptr [ %26, %17 ], [ %7, %14 ]
  %20 = freeze i32 %18
  %21 = udiv i32 %20, 10
  %22 = mul i32 %21, 10
  %23 = sub i32 %20, %22
  %24 = getelementptr inbounds i8, ptr @.str.9.13, i32 %23
  %25 = load i8, ptr %24, align 1, !tbaa !17
  %26 = getelementptr inbounds i8, ptr %19, i32 -1
  store i8 %25, ptr %26, align 1, !tbaa !17
  %27 = icmp ult i32 %18, 10
  br i1 %27, label %39, label %17, !llvm.loop !32

28:                                               ; preds = %28, %5
  %29 = phi ptr [ %37, %28 ], [ %7, %5 ]
  %30 = phi i64 [ %31, %28 ], [ %12, %5 ]
  %31 = udiv i64 %30, 10
  %32 = mul i64 %31, 10
  %33 = sub i64 %30, %32
  %34 = trunc nuw nsw i64 %33 to i32
  %35 = getelementptr inbounds i8, ptr @.str.9.13, i32 %34
  %36 = load i8, ptr %35, align 1, !tbaa !17
  %37 = getelementptr inbounds i8, ptr %29, i32 -1
  store i8 %36, ptr %37, align 1, !tbaa !17
  %38 = icmp ult i64 %30, 10
  br i1 %38, label %39, label %28, !llvm.loop !33

39:                                               ; preds = %28, %17, %14
  %40 = phi ptr [ %7, %14 ], [ %26, %17 ], [ %37, %28 ]
  %41 = icmp eq i64 %1, 0
  %42 = icmp ne i32 %4, 0
  %43 = and i1 %41, %42
  br i1 %43, label %44, label %46

44:                                               ; preds = %39
  %45 = getelementptr inbounds i8, ptr %40, i32 -1
  store i8 48, ptr %45, align 1, !tbaa !17
  br label %47

46:                                               ; preds = %39
  br i1 %8, label %55, label %47

47:                                               ; preds = %46, %44
  %48 = phi ptr [ %45, %44 ], [ %40, %46 ]
  %49 = and i32 %2, 2
  %50 = icmp eq i32 %49, 0
  br i1 %50, label %51, label %55

51:                                               ; preds = %47
  %52 = and i32 %2, 4
  %53 = icmp eq i32 %52, 0
  %54 = select i1 %53, ptr @.str.9, ptr @.str.4.14
  br label %55

55:                                               ; preds = %51, %47, %46
  %56 = phi ptr [ %40, %46 ], [ %48, %51 ], [ %48, %47 ]
  %57 = phi ptr [ @.str.2.15, %46 ], [ %54, %51 ], [ @.str.3.16, %47 ]
  %58 = ptrtoint ptr %7 to i32
  %59 = ptrtoint ptr %56 to i32
  %60 = sub i32 %58, %59
  %61 = call fastcc i32 @number(ptr noundef %0, ptr noundef nonnull %57, ptr noundef nonnull %56, i32 noundef %60, i32 noundef %2, i32 noundef %3, i32 noundef %4) #12
  call void @llvm.lifetime.end.p0(i64 24, ptr nonnull %6) #10
  ret i32 %61
}

; Function Attrs: nounwind optsize
define internal noundef i32 @__print_text(ptr nocapture noundef %0, ptr nocapture noundef readonly %1, i32 noundef returned %2) local_unnamed_addr #5 {
  %4 = load i8, ptr %0, align 4, !tbaa !34, !alias.scope !37, !noalias !40
  %5 = icmp eq i8 %4, 0
  %6 = icmp eq i32 %2, 0
  %7 = or i1 %6, %5
  br i1 %7, label %16, label %8

8:                                                ; preds = %8, %3
  %9 = phi i32 [ %14, %8 ], [ 0, %3 ]
  %10 = getelementptr inbounds i8, ptr %1, i32 %9
  %11 = load i8, ptr %10, align 1, !tbaa !17, !alias.scope !40, !noalias !37
  %12 = zext i8 %11 to i32
  %13 = tail call i32 @fputc(i32 noundef %12, ptr noundef nonnull %0) #12, !noalias !40
  %14 = add nuw i32 %9, 1
  %15 = icmp eq i32 %14, %2
  br i1 %15, label %16, label %8, !llvm.loop !42

16:                                               ; preds = %8, %3
  ret i32 %2
}

; Function Attrs: nofree nounwind
declare dso_local noundef i32 @puts(ptr nocapture noundef readonly) local_unnamed_addr #2

; Function Attrs: nocallback nofree nosync nounwind speculatable willreturn memory(none)
declare i64 @llvm.smax.i64(i64, i64) #6

; Function Attrs: nounwind optsize
define internal i32 @__print_string(ptr nocapture noundef %0, ptr noundef %1, i32 noundef %2, i32 noundef %3, i32 noundef %4) local_unnamed_addr #5 {
  %6 = icmp eq ptr %1, null
  %7 = icmp ult i32 %4, 6
  %8 = select i1 %7, ptr @.str.9, ptr @.str.1.10
  %9 = select i1 %6, ptr %8, ptr %1
  %10 = icmp slt i32 %4, 0
  br i1 %10, label %11, label %20

11:                                               ; preds = %11, %5
  %12 = phi ptr [ %15, %11 ], [ %9, %5 ]
  %13 = load i8, ptr %12, align 1, !tbaa !17
  %14 = icmp eq i8 %13, 0
  %15 = getelementptr inbounds i8, ptr %12, i32 1
  br i1 %14, label %16, label %11, !llvm.loop !43

16:                                               ; preds = %11
  %17 = ptrtoint ptr %12 to i32
  %18 = ptrtoint ptr %9 to i32
  %19 = sub i32 %17, %18
  br label %30

20:                                               ; preds = %5
  %21 = icmp eq i32 %4, 0
  br i1 %21, label %30, label %22

22:                                               ; preds = %27, %20
  %23 = phi i32 [ %28, %27 ], [ 0, %20 ]
  %24 = getelementptr inbounds i8, ptr %9, i32 %23
  %25 = load i8, ptr %24, align 1, !tbaa !17
  %26 = icmp eq i8 %25, 0
  br i1 %26, label %30, label %27

27:                                               ; preds = %22
  %28 = add nuw nsw i32 %23, 1
  %29 = icmp eq i32 %28, %4
  br i1 %29, label %30, label %22, !llvm.loop !44

30:                                               ; preds = %27, %22, %20, %16
  %31 = phi i32 [ %19, %16 ], [ 0, %20 ], [ %23, %22 ], [ %4, %27 ]
  %32 = tail call fastcc i32 @padded(ptr noundef %0, ptr noundef nonnull %9, i32 noundef %31, i32 noundef %2, i32 noundef %3) #12
  ret i32 %32
}

; Function Attrs: nounwind optsize
define internal i32 @__print_unsigned(ptr nocapture noundef %0, i64 noundef %1, i32 noundef %2, i32 noundef %3, i32 noundef %4, i32 noundef %5) local_unnamed_addr #5 {
  %7 = alloca [24 x i8], align 1
  call void @llvm.lifetime.start.p0(i64 24, ptr nonnull %7) #10
  %8 = and i32 %3, 32
  %9 = icmp eq i32 %8, 0
  %10 = select i1 %9, ptr @.str.9.13, ptr @.str.8
  %11 = icmp ult i64 %1, 4294967296
  br i1 %11, label %14, label %12

12:                                               ; preds = %6
  %13 = zext i32 %2 to i64
  br label %29

14:                                               ; preds = %6
  %15 = trunc nuw i64 %1 to i32
  %16 = icmp eq i32 %15, 0
  br i1 %16, label %41, label %17

17:                                               ; preds = %17, %14
  %18 = phi i32 [ %21, %17 ], [ %15, %14 ]
  %19 = phi i32 [ %26, %17 ], [ 24, %14 ]
  %20 = freeze i32 %18
  %21 = udiv i32 %20, %2
  %22 = mul i32 %21, %2
  %23 = sub i32 %20, %22
  %24 = getelementptr inbounds i8, ptr %10, i32 %23
  %25 = load i8, ptr %24, align 1, !tbaa !17
  %26 = add nsw i32 %19, -1
  %27 = getelementptr inbounds i8, ptr %7, i32 %26
  store i8 %25, ptr %27, align 1, !tbaa !17
  %28 = icmp ult i32 %18, %2
  br i1 %28, label %41, label %17, !llvm.loop !32

29:                                               ; preds = %29, %12
  %30 = phi i32 [ 24, %12 ], [ %38, %29 ]
  %31 = phi i64 [ %1, %12 ], [ %32, %29 ]
  %32 = udiv i64 %31, %13
  %33 = mul i64 %32, %13
  %34 = sub i64 %31, %33
  %35 = trunc nuw i64 %34 to i32
  %36 = getelementptr inbounds i8, ptr %10, i32 %35
  %37 = load i8, ptr %36, align 1, !tbaa !17
  %38 = add nsw i32 %30, -1
  %39 = getelementptr inbounds i8, ptr %7, i32 %38
  store i8 %37, ptr %39, align 1, !tbaa !17
  %40 = icmp ult i64 %31, %13
  br i1 %40, label %41, label %29, !llvm.loop !33

41:                                               ; preds = %29, %17, %14
  %42 = phi i32 [ 24, %14 ], [ %26, %17 ], [ %38, %29 ]
  %43 = icmp eq i64 %1, 0
  %44 = icmp ne i32 %5, 0
  %45 = and i1 %43, %44
  br i1 %45, label %46, label %49

46:                                               ; preds = %41
  %47 = add nsw i32 %42, -1
  %48 = getelementptr inbounds i8, ptr %7, i32 %47
  store i8 48, ptr %48, align 1, !tbaa !17
  br label %49

49:                                               ; preds = %46, %41
  %50 = phi i32 [ %47, %46 ], [ %42, %41 ]
  %51 = getelementptr inbounds i8, ptr %7, i32 %50
  %52 = and i32 %3, 8
  %53 = icmp ne i32 %52, 0
  %54 = icmp eq i32 %2, 8
  %55 = and i1 %54, %53
  %56 = sub nsw i32 24, %50
  %57 = icmp sge i32 %56, %5
  %58 = select i1 %55, i1 %57, i1 false
  br i1 %58, label %59, label %66

59:                                               ; preds = %49
  %60 = icmp eq i32 %50, 24
  br i1 %60, label %64, label %61

61:                                               ; preds = %59
  %62 = load i8, ptr %51, align 1, !tbaa !17
  %63 = icmp eq i8 %62, 48
  br i1 %63, label %66, label %64

64:                                               ; preds = %61, %59
  %65 = getelementptr inbounds i8, ptr %51, i32 -1
  store i8 48, ptr %65, align 1, !tbaa !17
  br label %66

66:                                               ; preds = %64, %61, %49
  %67 = phi ptr [ %65, %64 ], [ %51, %61 ], [ %51, %49 ]
  %68 = getelementptr inbounds i8, ptr %7, i32 24
  %69 = ptrtoint ptr %68 to i32
  %70 = icmp eq i32 %2, 16
  %71 = icmp ne i64 %1, 0
  %72 = and i1 %71, %70
  %73 = and i1 %72, %53
  %74 = select i1 %9, ptr @.str.6.19, ptr @.str.5.20
  %75 = select i1 %73, ptr %74, ptr @.str.9
  %76 = ptrtoint ptr %67 to i32
  %77 = sub i32 %69, %76
  %78 = call fastcc i32 @number(ptr noundef %0, ptr noundef nonnull %75, ptr noundef nonnull %67, i32 noundef %77, i32 noundef %3, i32 noundef %4, i32 noundef %5) #12
  call void @llvm.lifetime.end.p0(i64 24, ptr nonnull %7) #10
  ret i32 %78
}

; Function Attrs: nofree nounwind
declare dso_local noundef i32 @putchar(i32 noundef) local_unnamed_addr #2

; Function Attrs: nounwind optsize
define internal fastcc i32 @number(ptr nocapture noundef %0, ptr noundef %1, ptr nocapture noundef readonly %2, i32 noundef %3, i32 noundef %4, i32 noundef %5, i32 noundef %6) unnamed_addr #5 {
  br label %8

8:                                                ; preds = %8, %7
  %9 = phi ptr [ %1, %7 ], [ %12, %8 ]
  %10 = load i8, ptr %9, align 1, !tbaa !17
  %11 = icmp eq i8 %10, 0
  %12 = getelementptr inbounds i8, ptr %9, i32 1
  br i1 %11, label %13, label %8, !llvm.loop !43

13:                                               ; preds = %8
  %14 = ptrtoint ptr %9 to i32
  %15 = ptrtoint ptr %1 to i32
  %16 = sub i32 %14, %15
  %17 = sub nsw i32 %6, %3
  %18 = lshr i32 %5, 31
  %19 = icmp ne i32 %18, 0
  %20 = sub i32 0, %5
  %21 = select i1 %19, i32 %20, i32 %5
  %22 = tail call i32 @llvm.smax.i32(i32 %17, i32 0)
  %23 = icmp slt i32 %6, 0
  %24 = and i32 %4, 16
  %25 = icmp ne i32 %24, 0
  %26 = and i1 %25, %23
  %27 = and i32 %4, 1
  %28 = or i32 %18, %27
  %29 = icmp eq i32 %28, 0
  %30 = and i1 %26, %29
  %31 = add i32 %16, %3
  %32 = icmp sgt i32 %21, %31
  %33 = select i1 %30, i1 %32, i1 false
  %34 = sub i32 %21, %31
  %35 = select i1 %33, i32 %34, i32 %22
  %36 = add i32 %31, %35
  %37 = sub i32 %21, %36
  br i1 %29, label %38, label %47

38:                                               ; preds = %13
  %39 = icmp sgt i32 %37, 0
  br i1 %39, label %40, label %45

40:                                               ; preds = %40, %38
  %41 = phi i32 [ %43, %40 ], [ 0, %38 ]
  %42 = tail call i32 @fputc(i32 noundef 32, ptr noundef %0) #12
  %43 = add nuw nsw i32 %41, 1
  %44 = icmp eq i32 %43, %37
  br i1 %44, label %45, label %40, !llvm.loop !45

45:                                               ; preds = %40, %38
  %46 = tail call noundef i32 @llvm.smax.i32(i32 %37, i32 0)
  br label %47

47:                                               ; preds = %45, %13
  %48 = phi i32 [ 0, %13 ], [ %46, %45 ]
  %49 = load i8, ptr %0, align 4, !tbaa !34, !alias.scope !46, !noalias !49
  %50 = icmp eq i8 %49, 0
  %51 = icmp eq ptr %9, %1
  %52 = or i1 %51, %50
  br i1 %52, label %61, label %53

53:                                               ; preds = %53, %47
  %54 = phi i32 [ %59, %53 ], [ 0, %47 ]
  %55 = getelementptr inbounds i8, ptr %1, i32 %54
  %56 = load i8, ptr %55, align 1, !tbaa !17, !alias.scope !49, !noalias !46
  %57 = zext i8 %56 to i32
  %58 = tail call i32 @fputc(i32 noundef %57, ptr noundef nonnull %0) #12, !noalias !49
  %59 = add nuw i32 %54, 1
  %60 = icmp eq i32 %59, %16
  br i1 %60, label %61, label %53, !llvm.loop !42

61:                                               ; preds = %53, %47
  %62 = icmp sgt i32 %35, 0
  br i1 %62, label %63, label %68

63:                                               ; preds = %63, %61
  %64 = phi i32 [ %66, %63 ], [ 0, %61 ]
  %65 = tail call i32 @fputc(i32 noundef 48, ptr noundef nonnull %0) #12
  %66 = add nuw nsw i32 %64, 1
  %67 = icmp eq i32 %66, %35
  br i1 %67, label %68, label %63, !llvm.loop !45

68:                                               ; preds = %63, %61
  %69 = tail call noundef i32 @llvm.smax.i32(i32 %35, i32 0)
  %70 = load i8, ptr %0, align 4, !tbaa !34, !alias.scope !51, !noalias !54
  %71 = icmp eq i8 %70, 0
  %72 = icmp eq i32 %3, 0
  %73 = or i1 %72, %71
  br i1 %73, label %82, label %74

74:                                               ; preds = %74, %68
  %75 = phi i32 [ %80, %74 ], [ 0, %68 ]
  %76 = getelementptr inbounds i8, ptr %2, i32 %75
  %77 = load i8, ptr %76, align 1, !tbaa !17, !alias.scope !54, !noalias !51
  %78 = zext i8 %77 to i32
  %79 = tail call i32 @fputc(i32 noundef %78, ptr noundef nonnull %0) #12, !noalias !54
  %80 = add nuw i32 %75, 1
  %81 = icmp eq i32 %80, %3
  br i1 %81, label %82, label %74, !llvm.loop !42

82:                                               ; preds = %74, %68
  %83 = add i32 %31, %69
  %84 = add i32 %83, %48
  br i1 %29, label %95, label %85

85:                                               ; preds = %82
  %86 = icmp sgt i32 %37, 0
  br i1 %86, label %87, label %92

87:                                               ; preds = %87, %85
  %88 = phi i32 [ %90, %87 ], [ 0, %85 ]
  %89 = tail call i32 @fputc(i32 noundef 32, ptr noundef nonnull %0) #12
  %90 = add nuw nsw i32 %88, 1
  %91 = icmp eq i32 %90, %37
  br i1 %91, label %92, label %87, !llvm.loop !45

92:                                               ; preds = %87, %85
  %93 = tail call noundef i32 @llvm.smax.i32(i32 %37, i32 0)
  %94 = add nsw i32 %84, %93
  br label %95

95:                                               ; preds = %92, %82
  %96 = phi i32 [ %94, %92 ], [ %84, %82 ]
  ret i32 %96
}

; Function Attrs: nocallback nofree nosync nounwind speculatable willreturn memory(none)
declare i32 @llvm.smax.i32(i32, i32) #6

; Function Attrs: nounwind optsize
define internal range(i32 -1, 256) i32 @fputc(i32 noundef %0, ptr nocapture noundef %1) local_unnamed_addr #5 {
  %3 = load i8, ptr %1, align 4, !tbaa !34
  switch i8 %3, label %17 [
    i8 1, label %4
    i8 3, label %6
    i8 0, label %19
  ]

4:                                                ; preds = %2
  %5 = tail call i32 @putchar(i32 noundef %0) #13
  br label %17

6:                                                ; preds = %2
  %7 = getelementptr inbounds i8, ptr %1, i32 8
  %8 = load i32, ptr %7, align 4, !tbaa !56
  %9 = icmp eq i32 %8, 0
  br i1 %9, label %17, label %10

10:                                               ; preds = %6
  %11 = trunc i32 %0 to i8
  %12 = getelementptr inbounds i8, ptr %1, i32 4
  %13 = load ptr, ptr %12, align 4, !tbaa !57
  %14 = getelementptr inbounds i8, ptr %13, i32 1
  store ptr %14, ptr %12, align 4, !tbaa !57
  store i8 %11, ptr %13, align 1, !tbaa !17
  %15 = load i32, ptr %7, align 4, !tbaa !56
  %16 = add i32 %15, -1
  store i32 %16, ptr %7, align 4, !tbaa !56
  br label %17

17:                                               ; preds = %10, %6, %4, %2
  %18 = and i32 %0, 255
  br label %19

19:                                               ; preds = %17, %2
  %20 = phi i32 [ %18, %17 ], [ -1, %2 ]
  ret i32 %20
}

; Function Attrs: nounwind optsize
define internal fastcc i32 @padded(ptr nocapture noundef %0, ptr nocapture noundef readonly %1, i32 noundef %2, i32 noundef %3, i32 noundef %4) unnamed_addr #5 {
  %6 = icmp slt i32 %4, 0
  %7 = lshr i32 %4, 31
  %8 = icmp ne i32 %7, 0
  %9 = sub i32 0, %4
  %10 = select i1 %8, i32 %9, i32 %4
  %11 = sub nsw i32 %10, %2
  %12 = and i32 %3, 1
  %13 = icmp ne i32 %12, 0
  %14 = or i1 %6, %13
  br i1 %14, label %24, label %15

15:                                               ; preds = %5
  %16 = icmp sgt i32 %11, 0
  br i1 %16, label %17, label %22

17:                                               ; preds = %17, %15
  %18 = phi i32 [ %20, %17 ], [ 0, %15 ]
  %19 = tail call i32 @fputc(i32 noundef 32, ptr noundef %0) #12
  %20 = add nuw nsw i32 %18, 1
  %21 = icmp eq i32 %20, %11
  br i1 %21, label %22, label %17, !llvm.loop !45

22:                                               ; preds = %17, %15
  %23 = tail call noundef i32 @llvm.smax.i32(i32 %11, i32 0)
  br label %24

24:                                               ; preds = %22, %5
  %25 = phi i32 [ %23, %22 ], [ 0, %5 ]
  %26 = load i8, ptr %0, align 4, !tbaa !34, !alias.scope !58, !noalias !61
  %27 = icmp eq i8 %26, 0
  %28 = icmp eq i32 %2, 0
  %29 = or i1 %28, %27
  br i1 %29, label %38, label %30

30:                                               ; preds = %30, %24
  %31 = phi i32 [ %36, %30 ], [ 0, %24 ]
  %32 = getelementptr inbounds i8, ptr %1, i32 %31
  %33 = load i8, ptr %32, align 1, !tbaa !17, !alias.scope !61, !noalias !58
  %34 = zext i8 %33 to i32
  %35 = tail call i32 @fputc(i32 noundef %34, ptr noundef nonnull %0) #12, !noalias !61
  %36 = add nuw i32 %31, 1
  %37 = icmp eq i32 %36, %2
  br i1 %37, label %38, label %30, !llvm.loop !42

38:                                               ; preds = %30, %24
  br i1 %14, label %39, label %48

39:                                               ; preds = %38
  %40 = icmp sgt i32 %11, 0
  br i1 %40, label %41, label %46

41:                                               ; preds = %41, %39
  %42 = phi i32 [ %44, %41 ], [ 0, %39 ]
  %43 = tail call i32 @fputc(i32 noundef 32, ptr noundef nonnull %0) #12
  %44 = add nuw nsw i32 %42, 1
  %45 = icmp eq i32 %44, %11
  br i1 %45, label %46, label %41, !llvm.loop !45

46:                                               ; preds = %41, %39
  %47 = tail call noundef i32 @llvm.smax.i32(i32 %11, i32 0)
  br label %48

48:                                               ; preds = %46, %38
  %49 = phi i32 [ %47, %46 ], [ 0, %38 ]
  %50 = add nsw i32 %25, %2
  %51 = add nsw i32 %50, %49
  ret i32 %51
}

; Function Attrs: nounwind optsize
define internal i32 @fgetc(ptr nocapture noundef %0) local_unnamed_addr #5 {
  %2 = load i8, ptr %0, align 4, !tbaa !34
  %3 = icmp eq i8 %2, 0
  br i1 %3, label %4, label %20

4:                                                ; preds = %1
  %5 = getelementptr inbounds i8, ptr %0, i32 2
  %6 = load i8, ptr %5, align 2, !tbaa !63
  %7 = icmp eq i8 %6, 0
  br i1 %7, label %12, label %8

8:                                                ; preds = %4
  store i8 0, ptr %5, align 2, !tbaa !63
  %9 = getelementptr inbounds i8, ptr %0, i32 3
  %10 = load i8, ptr %9, align 1, !tbaa !64
  %11 = zext i8 %10 to i32
  br label %20

12:                                               ; preds = %4
  %13 = getelementptr inbounds i8, ptr %0, i32 1
  %14 = load i8, ptr %13, align 1, !tbaa !65
  %15 = icmp eq i8 %14, 0
  br i1 %15, label %16, label %20

16:                                               ; preds = %12
  %17 = tail call i32 @getchar() #13
  %18 = icmp eq i32 %17, -1
  br i1 %18, label %19, label %20

19:                                               ; preds = %16
  store i8 1, ptr %13, align 1, !tbaa !65
  br label %20

20:                                               ; preds = %19, %16, %12, %8, %1
  %21 = phi i32 [ %11, %8 ], [ -1, %1 ], [ -1, %12 ], [ -1, %19 ], [ %17, %16 ]
  ret i32 %21
}

; Function Attrs: mustprogress nofree norecurse nosync nounwind optsize willreturn memory(none)
define internal range(i32 0, 2) i32 @isspace(i32 noundef %0) local_unnamed_addr #7 {
  %2 = icmp eq i32 %0, 32
  %3 = add i32 %0, -9
  %4 = icmp ult i32 %3, 5
  %5 = or i1 %2, %4
  %6 = zext i1 %5 to i32
  ret i32 %6
}

; Function Attrs: mustprogress nofree norecurse nosync nounwind optsize willreturn memory(argmem: readwrite)
define internal range(i32 -1, 256) i32 @ungetc(i32 noundef %0, ptr nocapture noundef %1) local_unnamed_addr #8 {
  %3 = icmp eq i32 %0, -1
  br i1 %3, label %16, label %4

4:                                                ; preds = %2
  %5 = load i8, ptr %1, align 4, !tbaa !34
  %6 = icmp eq i8 %5, 0
  br i1 %6, label %7, label %16

7:                                                ; preds = %4
  %8 = getelementptr inbounds i8, ptr %1, i32 2
  %9 = load i8, ptr %8, align 2, !tbaa !63
  %10 = icmp eq i8 %9, 0
  br i1 %10, label %11, label %16

11:                                               ; preds = %7
  store i8 1, ptr %8, align 2, !tbaa !63
  %12 = trunc i32 %0 to i8
  %13 = getelementptr inbounds i8, ptr %1, i32 3
  store i8 %12, ptr %13, align 1, !tbaa !64
  %14 = getelementptr inbounds i8, ptr %1, i32 1
  store i8 0, ptr %14, align 1, !tbaa !65
  %15 = and i32 %0, 255
  br label %16

16:                                               ; preds = %11, %7, %4, %2
  %17 = phi i32 [ %15, %11 ], [ -1, %7 ], [ -1, %4 ], [ -1, %2 ]
  ret i32 %17
}

; Function Attrs: optsize
declare dso_local i32 @getchar() local_unnamed_addr #9

attributes #0 = { nounwind "no-jump-tables"="true" "no-trapping-math"="true" "stack-protector-buffer-size"="8" "target-cpu"="generic" "target-features"="+armv7-a,+dsp,+soft-float,-aes,-bf16,-d32,-dotprod,-fp-armv8,-fp-armv8d16,-fp-armv8d16sp,-fp-armv8sp,-fp16,-fp16fml,-fp64,-fpregs,-fullfp16,-mve,-mve.fp,-neon,-sha2,-thumb-mode,-vfp2,-vfp2sp,-vfp3,-vfp3d16,-vfp3d16sp,-vfp3sp,-vfp4,-vfp4d16,-vfp4d16sp,-vfp4sp" "use-soft-float"="true" }
attributes #1 = { nocallback nofree nosync nounwind willreturn memory(argmem: readwrite) }
attributes #2 = { nofree nounwind "no-trapping-math"="true" "stack-protector-buffer-size"="8" "target-cpu"="generic" "target-features"="+armv7-a,+dsp,+soft-float,-aes,-bf16,-d32,-dotprod,-fp-armv8,-fp-armv8d16,-fp-armv8d16sp,-fp-armv8sp,-fp16,-fp16fml,-fp64,-fpregs,-fullfp16,-mve,-mve.fp,-neon,-sha2,-thumb-mode,-vfp2,-vfp2sp,-vfp3,-vfp3d16,-vfp3d16sp,-vfp3sp,-vfp4,-vfp4d16,-vfp4d16sp,-vfp4sp" "use-soft-float"="true" }
attributes #3 = { nocallback nofree nounwind willreturn memory(argmem: write) }
attributes #4 = { nocallback nofree nounwind willreturn memory(argmem: readwrite) }
attributes #5 = { nounwind optsize "no-builtins" "no-jump-tables"="true" "no-trapping-math"="true" "stack-protector-buffer-size"="8" "target-cpu"="generic" "target-features"="+armv7-a,+dsp,+soft-float,-aes,-bf16,-d32,-dotprod,-fp-armv8,-fp-armv8d16,-fp-armv8d16sp,-fp-armv8sp,-fp16,-fp16fml,-fp64,-fpregs,-fullfp16,-mve,-mve.fp,-neon,-sha2,-thumb-mode,-vfp2,-vfp2sp,-vfp3,-vfp3d16,-vfp3d16sp,-vfp3sp,-vfp4,-vfp4d16,-vfp4d16sp,-vfp4sp" "use-soft-float"="true" }
attributes #6 = { nocallback nofree nosync nounwind speculatable willreturn memory(none) }
attributes #7 = { mustprogress nofree norecurse nosync nounwind optsize willreturn memory(none) "no-builtins" "no-jump-tables"="true" "no-trapping-math"="true" "stack-protector-buffer-size"="8" "target-cpu"="generic" "target-features"="+armv7-a,+dsp,+soft-float,-aes,-bf16,-d32,-dotprod,-fp-armv8,-fp-armv8d16,-fp-armv8d16sp,-fp-armv8sp,-fp16,-fp16fml,-fp64,-fpregs,-fullfp16,-mve,-mve.fp,-neon,-sha2,-thumb-mode,-vfp2,-vfp2sp,-vfp3,-vfp3d16,-vfp3d16sp,-vfp3sp,-vfp4,-vfp4d16,-vfp4d16sp,-vfp4sp" "use-soft-float"="true" }
attributes #8 = { mustprogress nofree norecurse nosync nounwind optsize willreturn memory(argmem: readwrite) "no-builtins" "no-jump-tables"="true" "no-trapping-math"="true" "stack-protector-buffer-size"="8" "target-cpu"="generic" "target-features"="+armv7-a,+dsp,+soft-float,-aes,-bf16,-d32,-dotprod,-fp-armv8,-fp-armv8d16,-fp-armv8d16sp,-fp-armv8sp,-fp16,-fp16fml,-fp64,-fpregs,-fullfp16,-mve,-mve.fp,-neon,-sha2,-thumb-mode,-vfp2,-vfp2sp,-vfp3,-vfp3d16,-vfp3d16sp,-vfp3sp,-vfp4,-vfp4d16,-vfp4d16sp,-vfp4sp" "use-soft-float"="true" }
attributes #9 = { optsize "no-builtins" "no-trapping-math"="true" "stack-protector-buffer-size"="8" "target-cpu"="generic" "target-features"="+armv7-a,+dsp,+soft-float,-aes,-bf16,-d32,-dotprod,-fp-armv8,-fp-armv8d16,-fp-armv8d16sp,-fp-armv8sp,-fp16,-fp16fml,-fp64,-fpregs,-fullfp16,-mve,-mve.fp,-neon,-sha2,-thumb-mode,-vfp2,-vfp2sp,-vfp3,-vfp3d16,-vfp3d16sp,-vfp3sp,-vfp4,-vfp4d16,-vfp4d16sp,-vfp4sp" "use-soft-float"="true" }
attributes #10 = { nounwind }
attributes #11 = { nounwind willreturn memory(read) }
attributes #12 = { nobuiltin optsize "no-builtins" }
attributes #13 = { nobuiltin nounwind optsize "no-builtins" }

!llvm.ident = !{!0, !0, !0}
!llvm.module.flags = !{!1, !2, !3, !4}

!0 = !{!"Debian clang version 19.1.7 (3~deb12u1)"}
!1 = !{i32 7, !"Dwarf Version", i32 5}
!2 = !{i32 2, !"Debug Info Version", i32 3}
!3 = !{i32 1, !"wchar_size", i32 4}
!4 = !{i32 1, !"min_enum_size", i32 4}
!5 = !{!6, !6, i64 0}
!6 = !{!"long long", !7, i64 0}
!7 = !{!"omnipotent char", !8, i64 0}
!8 = !{!"Simple C/C++ TBAA"}
!9 = !{!10, !11, i64 0}
!10 = !{!"system", !11, i64 0, !7, i64 8}
!11 = !{!"int", !7, i64 0}
!12 = distinct !{!12, !13}
!13 = !{!"llvm.loop.mustprogress"}
!14 = distinct !{!14, !13}
!15 = !{i64 0, i64 4, !16, i64 8, i64 1248, !17}
!16 = !{!11, !11, i64 0}
!17 = !{!7, !7, i64 0}
!18 = distinct !{!18, !13}
!19 = distinct !{!19, !13}
!20 = distinct !{!20, !13}
!21 = distinct !{!21, !13}
!22 = distinct !{!22, !13}
!23 = distinct !{!23, !13}
!24 = distinct !{!24, !13}
!25 = distinct !{!25, !13}
!26 = distinct !{!26, !13}
!27 = distinct !{!27, !13}
!28 = distinct !{!28, !13}
!29 = distinct !{!29, !13}
!30 = distinct !{!30, !13}
!31 = distinct !{!31, !13}
!32 = distinct !{!32, !13}
!33 = distinct !{!33, !13}
!34 = !{!35, !7, i64 0}
!35 = !{!"__stream", !7, i64 0, !7, i64 1, !7, i64 2, !7, i64 3, !36, i64 4, !11, i64 8}
!36 = !{!"any pointer", !7, i64 0}
!37 = !{!38}
!38 = distinct !{!38, !39, !"fwrite: %stream"}
!39 = distinct !{!39, !"fwrite"}
!40 = !{!41}
!41 = distinct !{!41, !39, !"fwrite: %from"}
!42 = distinct !{!42, !13}
!43 = distinct !{!43, !13}
!44 = distinct !{!44, !13}
!45 = distinct !{!45, !13}
!46 = !{!47}
!47 = distinct !{!47, !48, !"fwrite: %stream"}
!48 = distinct !{!48, !"fwrite"}
!49 = !{!50}
!50 = distinct !{!50, !48, !"fwrite: %from"}
!51 = !{!52}
!52 = distinct !{!52, !53, !"fwrite: %stream"}
!53 = distinct !{!53, !"fwrite"}
!54 = !{!55}
!55 = distinct !{!55, !53, !"fwrite: %from"}
!56 = !{!35, !11, i64 8}
!57 = !{!35, !36, i64 4}
!58 = !{!59}
!59 = distinct !{!59, !60, !"fwrite: %stream"}
!60 = distinct !{!60, !"fwrite"}
!61 = !{!62}
!62 = distinct !{!62, !60, !"fwrite: %from"}
!63 = !{!35, !7, i64 2}
!64 = !{!35, !7, i64 3}
!65 = !{!35, !7, i64 1}
