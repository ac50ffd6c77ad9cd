source_filename = "colony.c"
target datalayout = "e-m:e-p270:32:32-p271:32:32-p272:64:64-i64:64-i128:128-f80:128-n8:16:32:64-S128"
target triple = "x86_64-unknown-linux-gnu"

%struct.world = type { [32 x i64] }
%struct.__stream = type { i8, i8, i8, i8, ptr, i64 }

@main.worlds = internal global [2 x %struct.world] zeroinitializer, align 16
@main.seen = internal unnamed_addr global [200 x i64] zeroinitializer, align 16
@.str = private unnamed_addr constant [14 x i8] c"nothing lives\00", align 1
@.str.1 = private unnamed_addr constant [14 x i8] c"as %d before\0A\00", align 1
@.str.2 = private unnamed_addr constant [17 x i8] c"digest %08x%08x\0A\00", align 1
@.str.3 = private unnamed_addr constant [25 x i8] c"generation %d, %d alive\0A\00", align 1
@.str.10 = private unnamed_addr constant [1 x i8] zeroinitializer, align 1
@.str.2.11 = private unnamed_addr constant [2 x i8] c"-\00", align 1
@.str.3.12 = private unnamed_addr constant [2 x i8] c"+\00", align 1
@.str.4 = private unnamed_addr constant [2 x i8] c" \00", align 1
@.str.5 = private unnamed_addr constant [3 x i8] c"0X\00", align 1
@.str.6 = private unnamed_addr constant [3 x i8] c"0x\00", align 1
@__streams = internal global [3 x %struct.__stream] [%struct.__stream zeroinitializer, %struct.__stream { i8 1, i8 0, i8 0, i8 0, ptr null, i64 0 }, %struct.__stream { i8 2, i8 0, i8 0, i8 0, ptr null, i64 0 }], align 16
@.str.8 = private unnamed_addr constant [17 x i8] c"0123456789ABCDEF\00", align 1
@.str.9 = private unnamed_addr constant [17 x i8] c"0123456789abcdef\00", align 1

; Function Attrs: nounwind uwtable
define dso_local range(i32 -255, 256) i32 @main() local_unnamed_addr #0 {
  %1 = alloca [256 x i8], align 16
  call void @llvm.lifetime.start.p0(i64 256, ptr nonnull %1) #8
  tail call void @llvm.memset.p0.i64(ptr noundef nonnull align 16 dereferenceable(256) @main.worlds, i8 0, i64 256, i1 false)
  br label %2

2:                                                ; preds = %18, %0
  %3 = phi i32 [ 0, %0 ], [ %19, %18 ]
  %4 = phi i64 [ 0, %0 ], [ %20, %18 ]
  br label %5

5:                                                ; preds = %8, %2
  %6 = call ptr @fgets(ptr noundef nonnull %1, i32 noundef 256, ptr noundef nonnull @__streams)
  %7 = icmp eq ptr %6, null
  br i1 %7, label %31, label %8

8:                                                ; preds = %5
  %9 = load i8, ptr %1, align 16, !tbaa !5
  %10 = icmp eq i8 %9, 33
  br i1 %10, label %5, label %11, !llvm.loop !8

11:                                               ; preds = %8
  %12 = getelementptr inbounds [32 x i64], ptr @main.worlds, i64 0, i64 %4
  br label %13

13:                                               ; preds = %27, %11
  %14 = phi i64 [ 0, %11 ], [ %29, %27 ]
  %15 = phi i32 [ %3, %11 ], [ %28, %27 ]
  %16 = getelementptr inbounds [256 x i8], ptr %1, i64 0, i64 %14
  %17 = load i8, ptr %16, align 1, !tbaa !5
  switch i8 %17, label %27 [
    i8 0, label %18
    i8 10, label %18
    i8 35, label %22
    i8 79, label %22
  ]

18:                                               ; preds = %27, %13, %13
  %19 = phi i32 [ %15, %13 ], [ %15, %13 ], [ %28, %27 ]
  %20 = add nuw nsw i64 %4, 1
  %21 = icmp eq i64 %20, 32
  br i1 %21, label %31, label %2, !llvm.loop !11

22:                                               ; preds = %13, %13
  %23 = shl nuw i64 1, %14
  %24 = load i64, ptr %12, align 8, !tbaa !12
  %25 = or i64 %24, %23
  store i64 %25, ptr %12, align 8, !tbaa !12
  %26 = add nsw i32 %15, 1
  br label %27

27:                                               ; preds = %22, %13
  %28 = phi i32 [ %26, %22 ], [ %15, %13 ]
  %29 = add nuw nsw i64 %14, 1
  %30 = icmp eq i64 %29, 64
  br i1 %30, label %18, label %13, !llvm.loop !14

31:                                               ; preds = %18, %5
  %32 = phi i32 [ %3, %5 ], [ %19, %18 ]
  call void @llvm.lifetime.end.p0(i64 256, ptr nonnull %1) #8
  %33 = icmp eq i32 %32, 0
  br i1 %33, label %34, label %36

34:                                               ; preds = %31
  %35 = call i32 @puts(ptr noundef nonnull dereferenceable(1) @.str)
  br label %200

36:                                               ; preds = %31
  call fastcc void @show(ptr noundef nonnull @main.worlds, i32 noundef 0)
  br label %37

37:                                               ; preds = %136, %36
  %38 = phi i64 [ 0, %36 ], [ %137, %136 ]
  %39 = phi ptr [ getelementptr inbounds (i8, ptr @main.worlds, i64 256), %36 ], [ %40, %136 ]
  %40 = phi ptr [ @main.worlds, %36 ], [ %39, %136 ]
  br label %41

41:                                               ; preds = %41, %37
  %42 = phi i64 [ %50, %41 ], [ 0, %37 ]
  %43 = phi i64 [ %49, %41 ], [ 1469598103934665603, %37 ]
  %44 = getelementptr inbounds [32 x i64], ptr %40, i64 0, i64 %42
  %45 = load i64, ptr %44, align 8, !tbaa !12
  %46 = xor i64 %45, %43
  %47 = mul i64 %46, 1099511628211
  %48 = lshr i64 %47, 29
  %49 = xor i64 %48, %47
  %50 = add nuw nsw i64 %42, 1
  %51 = icmp eq i64 %50, 32
  br i1 %51, label %52, label %41, !llvm.loop !15

52:                                               ; preds = %41
  %53 = getelementptr inbounds [200 x i64], ptr @main.seen, i64 0, i64 %38
  store i64 %49, ptr %53, align 8, !tbaa !12
  %54 = icmp eq i64 %38, 0
  br i1 %54, label %55, label %58

55:                                               ; preds = %58, %52
  %56 = phi i32 [ 0, %52 ], [ %66, %58 ]
  %57 = phi i1 [ true, %52 ], [ %69, %58 ]
  br i1 %57, label %71, label %139

58:                                               ; preds = %58, %52
  %59 = phi i64 [ %67, %58 ], [ 1, %52 ]
  %60 = phi i32 [ %66, %58 ], [ 0, %52 ]
  %61 = sub nsw i64 %38, %59
  %62 = getelementptr inbounds [200 x i64], ptr @main.seen, i64 0, i64 %61
  %63 = load i64, ptr %62, align 8, !tbaa !12
  %64 = icmp eq i64 %63, %49
  %65 = trunc nuw nsw i64 %59 to i32
  %66 = select i1 %64, i32 %65, i32 %60
  %67 = add nuw nsw i64 %59, 1
  %68 = icmp ult i64 %59, %38
  %69 = icmp eq i32 %66, 0
  %70 = select i1 %68, i1 %69, i1 false
  br i1 %70, label %58, label %55, !llvm.loop !16

71:                                               ; preds = %71, %55
  %72 = phi i64 [ %79, %71 ], [ 0, %55 ]
  %73 = add nuw nsw i64 %72, 31
  %74 = and i64 %73, 31
  %75 = getelementptr inbounds [32 x i64], ptr %40, i64 0, i64 %74
  %76 = load i64, ptr %75, align 8, !tbaa !12
  %77 = getelementptr inbounds [32 x i64], ptr %40, i64 0, i64 %72
  %78 = load i64, ptr %77, align 8, !tbaa !12
  %79 = add nuw nsw i64 %72, 1
  %80 = and i64 %79, 31
  %81 = getelementptr inbounds [32 x i64], ptr %40, i64 0, i64 %80
  %82 = load i64, ptr %81, align 8, !tbaa !12
  %83 = shl i64 %76, 1
  %84 = lshr i64 %76, 1
  %85 = lshr i64 %84, 62
  %86 = or i64 %83, %85
  %87 = and i64 %86, %76
  %88 = xor i64 %86, %76
  %89 = shl i64 %76, 63
  %90 = or i64 %89, %84
  %91 = and i64 %88, %90
  %92 = xor i64 %88, %90
  %93 = xor i64 %91, %87
  %94 = shl i64 %78, 1
  %95 = lshr i64 %78, 1
  %96 = lshr i64 %95, 62
  %97 = or i64 %94, %96
  %98 = and i64 %92, %97
  %99 = xor i64 %92, %97
  %100 = and i64 %98, %87
  %101 = xor i64 %93, %98
  %102 = shl i64 %78, 63
  %103 = or i64 %102, %95
  %104 = and i64 %99, %103
  %105 = xor i64 %99, %103
  %106 = and i64 %104, %93
  %107 = xor i64 %101, %104
  %108 = shl i64 %82, 1
  %109 = lshr i64 %82, 1
  %110 = lshr i64 %109, 62
  %111 = or i64 %108, %110
  %112 = and i64 %105, %111
  %113 = xor i64 %105, %111
  %114 = and i64 %112, %101
  %115 = xor i64 %107, %112
  %116 = and i64 %113, %82
  %117 = xor i64 %113, %82
  %118 = and i64 %116, %107
  %119 = xor i64 %115, %116
  %120 = shl i64 %82, 63
  %121 = or i64 %120, %109
  %122 = and i64 %117, %121
  %123 = xor i64 %117, %121
  %124 = and i64 %122, %115
  %125 = xor i64 %119, %122
  %126 = xor i64 %100, %106
  %127 = xor i64 %126, %114
  %128 = xor i64 %127, %118
  %129 = xor i64 %128, %124
  %130 = xor i64 %129, -1
  %131 = or i64 %123, %78
  %132 = and i64 %131, %125
  %133 = and i64 %132, %130
  %134 = getelementptr inbounds [32 x i64], ptr %39, i64 0, i64 %72
  store i64 %133, ptr %134, align 8, !tbaa !12
  %135 = icmp eq i64 %79, 32
  br i1 %135, label %136, label %71, !llvm.loop !17

136:                                              ; preds = %71
  %137 = add nuw nsw i64 %38, 1
  %138 = icmp eq i64 %137, 200
  br i1 %138, label %141, label %37, !llvm.loop !18

139:                                              ; preds = %55
  %140 = trunc nuw nsw i64 %38 to i32
  br label %141

141:                                              ; preds = %139, %136
  %142 = phi ptr [ %40, %139 ], [ %39, %136 ]
  %143 = phi i32 [ %140, %139 ], [ 200, %136 ]
  %144 = phi i32 [ %56, %139 ], [ 0, %136 ]
  call fastcc void @show(ptr noundef %142, i32 noundef %143)
  %145 = icmp eq i32 %144, 0
  br i1 %145, label %151, label %146

146:                                              ; preds = %141
  %147 = call i32 @__print_text(ptr nonnull getelementptr inbounds (i8, ptr @__streams, i64 24), ptr nonnull @.str.1, i64 3) #8
  %148 = sext i32 %144 to i64
  %149 = call i32 @__print_signed(ptr nonnull getelementptr inbounds (i8, ptr @__streams, i64 24), i64 %148, i32 0, i32 0, i32 -1) #8
  %150 = call i32 @__print_text(ptr nonnull getelementptr inbounds (i8, ptr @__streams, i64 24), ptr nonnull getelementptr inbounds (i8, ptr @.str.1, i64 5), i64 8) #8
  br label %151

151:                                              ; preds = %146, %141
  br label %152

152:                                              ; preds = %152, %151
  %153 = phi i64 [ %161, %152 ], [ 0, %151 ]
  %154 = phi i64 [ %160, %152 ], [ 1469598103934665603, %151 ]
  %155 = getelementptr inbounds [32 x i64], ptr %142, i64 0, i64 %153
  %156 = load i64, ptr %155, align 8, !tbaa !12
  %157 = xor i64 %156, %154
  %158 = mul i64 %157, 1099511628211
  %159 = lshr i64 %158, 29
  %160 = xor i64 %159, %158
  %161 = add nuw nsw i64 %153, 1
  %162 = icmp eq i64 %161, 32
  br i1 %162, label %163, label %152, !llvm.loop !19

163:                                              ; preds = %163, %152
  %164 = phi i64 [ %172, %163 ], [ 0, %152 ]
  %165 = phi i64 [ %171, %163 ], [ 1469598103934665603, %152 ]
  %166 = getelementptr inbounds [32 x i64], ptr %142, i64 0, i64 %164
  %167 = load i64, ptr %166, align 8, !tbaa !12
  %168 = xor i64 %167, %165
  %169 = mul i64 %168, 1099511628211
  %170 = lshr i64 %169, 29
  %171 = xor i64 %170, %169
  %172 = add nuw nsw i64 %164, 1
  %173 = icmp eq i64 %172, 32
  br i1 %173, label %174, label %163, !llvm.loop !20

174:                                              ; preds = %163
  %175 = lshr i64 %160, 32
  %176 = call i32 @__print_text(ptr nonnull getelementptr inbounds (i8, ptr @__streams, i64 24), ptr nonnull @.str.2, i64 7) #8
  %177 = call i32 @__print_unsigned(ptr nonnull getelementptr inbounds (i8, ptr @__streams, i64 24), i64 %175, i32 16, i32 16, i32 8, i32 -1) #8
  %178 = and i64 %171, 4294967295
  %179 = call i32 @__print_unsigned(ptr nonnull getelementptr inbounds (i8, ptr @__streams, i64 24), i64 %178, i32 16, i32 16, i32 8, i32 -1) #8
  %180 = call i32 @__print_text(ptr nonnull getelementptr inbounds (i8, ptr @__streams, i64 24), ptr nonnull getelementptr inbounds (i8, ptr @.str.2, i64 15), i64 1) #8
  br label %181

181:                                              ; preds = %187, %174
  %182 = phi i64 [ 0, %174 ], [ %189, %187 ]
  %183 = phi i32 [ 0, %174 ], [ %188, %187 ]
  %184 = getelementptr inbounds [32 x i64], ptr %142, i64 0, i64 %182
  %185 = load i64, ptr %184, align 8, !tbaa !12
  %186 = icmp eq i64 %185, 0
  br i1 %186, label %187, label %191

187:                                              ; preds = %191, %181
  %188 = phi i32 [ %183, %181 ], [ %194, %191 ]
  %189 = add nuw nsw i64 %182, 1
  %190 = icmp eq i64 %189, 32
  br i1 %190, label %198, label %181, !llvm.loop !21

191:                                              ; preds = %191, %181
  %192 = phi i64 [ %196, %191 ], [ %185, %181 ]
  %193 = phi i32 [ %194, %191 ], [ %183, %181 ]
  %194 = add nsw i32 %193, 1
  %195 = add i64 %192, -1
  %196 = and i64 %195, %192
  %197 = icmp eq i64 %196, 0
  br i1 %197, label %187, label %191, !llvm.loop !22

198:                                              ; preds = %187
  %199 = srem i32 %188, 256
  br label %200

200:                                              ; preds = %198, %34
  %201 = phi i32 [ 0, %34 ], [ %199, %198 ]
  ret i32 %201
}

; Function Attrs: nocallback nofree nosync nounwind willreturn memory(argmem: readwrite)
declare void @llvm.lifetime.start.p0(i64 immarg, ptr nocapture) #1

; Function Attrs: nocallback nofree nounwind willreturn memory(argmem: write)
declare void @llvm.memset.p0.i64(ptr nocapture writeonly, i8, i64, i1 immarg) #2

; Function Attrs: nounwind optsize uwtable
define internal noundef ptr @fgets(ptr noalias noundef writeonly %0, i32 noundef %1, ptr noalias nocapture noundef %2) local_unnamed_addr #3 {
  %4 = icmp slt i32 %1, 1
  br i1 %4, label %23, label %5

5:                                                ; preds = %3
  %6 = icmp eq i32 %1, 1
  br i1 %6, label %21, label %7

7:                                                ; preds = %12, %5
  %8 = phi i32 [ %13, %12 ], [ %1, %5 ]
  %9 = phi ptr [ %15, %12 ], [ %0, %5 ]
  %10 = tail call i32 @fgetc(ptr noundef %2) #9
  %11 = icmp eq i32 %10, -1
  br i1 %11, label %19, label %12

12:                                               ; preds = %7
  %13 = add nsw i32 %8, -1
  %14 = trunc i32 %10 to i8
  %15 = getelementptr inbounds i8, ptr %9, i64 1
  store i8 %14, ptr %9, align 1, !tbaa !5
  %16 = icmp sgt i32 %8, 2
  %17 = icmp ne i32 %10, 10
  %18 = and i1 %16, %17
  br i1 %18, label %7, label %21, !llvm.loop !23

19:                                               ; preds = %7
  %20 = icmp eq ptr %9, %0
  br i1 %20, label %23, label %21

21:                                               ; preds = %19, %12, %5
  %22 = phi ptr [ %9, %19 ], [ %0, %5 ], [ %15, %12 ]
  store i8 0, ptr %22, align 1, !tbaa !5
  br label %23

23:                                               ; preds = %21, %19, %3
  %24 = phi ptr [ %0, %21 ], [ null, %3 ], [ null, %19 ]
  ret ptr %24
}

; Function Attrs: nocallback nofree nosync nounwind willreturn memory(argmem: readwrite)
declare void @llvm.lifetime.end.p0(i64 immarg, ptr nocapture) #1

; Function Attrs: nofree nounwind
declare dso_local noundef i32 @puts(ptr nocapture noundef readonly) local_unnamed_addr #4

; Function Attrs: nounwind uwtable
define internal fastcc void @show(ptr nocapture noundef readonly %0, i32 noundef %1) unnamed_addr #5 {
  %3 = alloca [66 x i8], align 16
  br label %4

4:                                                ; preds = %10, %2
  %5 = phi i64 [ 0, %2 ], [ %12, %10 ]
  %6 = phi i32 [ 0, %2 ], [ %11, %10 ]
  %7 = getelementptr inbounds [32 x i64], ptr %0, i64 0, i64 %5
  %8 = load i64, ptr %7, align 8, !tbaa !12
  %9 = icmp eq i64 %8, 0
  br i1 %9, label %10, label %14

10:                                               ; preds = %14, %4
  %11 = phi i32 [ %6, %4 ], [ %17, %14 ]
  %12 = add nuw nsw i64 %5, 1
  %13 = icmp eq i64 %12, 32
  br i1 %13, label %21, label %4, !llvm.loop !24

14:                                               ; preds = %14, %4
  %15 = phi i64 [ %19, %14 ], [ %8, %4 ]
  %16 = phi i32 [ %17, %14 ], [ %6, %4 ]
  %17 = add nsw i32 %16, 1
  %18 = add i64 %15, -1
  %19 = and i64 %18, %15
  %20 = icmp eq i64 %19, 0
  br i1 %20, label %10, label %14, !llvm.loop !25

21:                                               ; preds = %10
  %22 = tail call i32 @__print_text(ptr nonnull getelementptr inbounds (i8, ptr @__streams, i64 24), ptr nonnull @.str.3, i64 11) #8
  %23 = sext i32 %1 to i64
  %24 = tail call i32 @__print_signed(ptr nonnull getelementptr inbounds (i8, ptr @__streams, i64 24), i64 %23, i32 0, i32 0, i32 -1) #8
  %25 = tail call i32 @__print_text(ptr nonnull getelementptr inbounds (i8, ptr @__streams, i64 24), ptr nonnull getelementptr inbounds (i8, ptr @.str.3, i64 13), i64 2) #8
  %26 = sext i32 %11 to i64
  %27 = tail call i32 @__print_signed(ptr nonnull getelementptr inbounds (i8, ptr @__streams, i64 24), i64 %26, i32 0, i32 0, i32 -1) #8
  %28 = tail call i32 @__print_text(ptr nonnull getelementptr inbounds (i8, ptr @__streams, i64 24), ptr nonnull getelementptr inbounds (i8, ptr @.str.3, i64 17), i64 7) #8
  br label %29

29:                                               ; preds = %35, %21
  %30 = phi i32 [ 31, %21 ], [ %36, %35 ]
  %31 = zext nneg i32 %30 to i64
  %32 = getelementptr inbounds [32 x i64], ptr %0, i64 0, i64 %31
  %33 = load i64, ptr %32, align 8, !tbaa !12
  %34 = icmp eq i64 %33, 0
  br i1 %34, label %35, label %38

35:                                               ; preds = %29
  %36 = add nsw i32 %30, -1
  %37 = icmp ugt i32 %30, 1
  br i1 %37, label %29, label %38, !llvm.loop !26

38:                                               ; preds = %35, %29
  %39 = phi i32 [ 0, %35 ], [ %30, %29 ]
  %40 = icmp slt i32 %39, 0
  br i1 %40, label %44, label %41

41:                                               ; preds = %38
  %42 = add nuw nsw i32 %39, 1
  %43 = zext nneg i32 %42 to i64
  br label %45

44:                                               ; preds = %49, %38
  ret void

45:                                               ; preds = %49, %41
  %46 = phi i64 [ 0, %41 ], [ %55, %49 ]
  call void @llvm.lifetime.start.p0(i64 66, ptr nonnull %3) #8
  %47 = getelementptr inbounds [32 x i64], ptr %0, i64 0, i64 %46
  %48 = load i64, ptr %47, align 8, !tbaa !12
  br label %57

49:                                               ; preds = %84
  %50 = add nsw i32 %85, 1
  %51 = sext i32 %85 to i64
  %52 = getelementptr inbounds [66 x i8], ptr %3, i64 0, i64 %51
  store i8 10, ptr %52, align 1, !tbaa !5
  %53 = sext i32 %50 to i64
  %54 = call i64 @fwrite(ptr noundef nonnull %3, i64 noundef 1, i64 noundef %53, ptr noundef nonnull getelementptr inbounds (i8, ptr @__streams, i64 24))
  call void @llvm.lifetime.end.p0(i64 66, ptr nonnull %3) #8
  %55 = add nuw nsw i64 %46, 1
  %56 = icmp eq i64 %55, %43
  br i1 %56, label %44, label %45, !llvm.loop !27

57:                                               ; preds = %84, %45
  %58 = phi i64 [ 0, %45 ], [ %86, %84 ]
  %59 = phi i32 [ 0, %45 ], [ %85, %84 ]
  %60 = shl nuw i64 1, %58
  %61 = and i64 %48, %60
  %62 = icmp eq i64 %61, 0
  br i1 %62, label %84, label %63

63:                                               ; preds = %57
  %64 = sext i32 %59 to i64
  %65 = icmp sgt i64 %58, %64
  br i1 %65, label %66, label %79

66:                                               ; preds = %63
  %67 = getelementptr i8, ptr %3, i64 %64
  %68 = trunc i64 %58 to i32
  %69 = xor i32 %59, -1
  %70 = add i32 %69, %68
  %71 = zext i32 %70 to i64
  %72 = add nuw nsw i64 %71, 1
  call void @llvm.memset.p0.i64(ptr noundef nonnull align 1 dereferenceable(1) %67, i8 46, i64 %72, i1 false), !tbaa !5
  br label %73

73:                                               ; preds = %73, %66
  %74 = phi i64 [ %64, %66 ], [ %75, %73 ]
  %75 = add nsw i64 %74, 1
  %76 = icmp eq i64 %75, %58
  br i1 %76, label %77, label %73, !llvm.loop !28

77:                                               ; preds = %73
  %78 = trunc nsw i64 %75 to i32
  br label %79

79:                                               ; preds = %77, %63
  %80 = phi i32 [ %59, %63 ], [ %78, %77 ]
  %81 = add nsw i32 %80, 1
  %82 = sext i32 %80 to i64
  %83 = getelementptr inbounds [66 x i8], ptr %3, i64 0, i64 %82
  store i8 35, ptr %83, align 1, !tbaa !5
  br label %84

84:                                               ; preds = %79, %57
  %85 = phi i32 [ %81, %79 ], [ %59, %57 ]
  %86 = add nuw nsw i64 %58, 1
  %87 = icmp eq i64 %86, 64
  br i1 %87, label %49, label %57, !llvm.loop !29
}

; Function Attrs: nounwind optsize uwtable
define internal noundef i32 @__print_text(ptr nocapture noundef %0, ptr nocapture noundef readonly %1, i64 noundef %2) local_unnamed_addr #3 {
  %4 = load i8, ptr %0, align 8, !tbaa !30, !alias.scope !33, !noalias !36
  %5 = icmp eq i8 %4, 0
  %6 = icmp eq i64 %2, 0
  %7 = or i1 %6, %5
  br i1 %7, label %16, label %8

8:                                                ; preds = %8, %3
  %9 = phi i64 [ %14, %8 ], [ 0, %3 ]
  %10 = getelementptr inbounds i8, ptr %1, i64 %9
  %11 = load i8, ptr %10, align 1, !tbaa !5, !alias.scope !36, !noalias !33
  %12 = zext i8 %11 to i32
  %13 = tail call i32 @fputc(i32 noundef %12, ptr noundef nonnull %0) #9, !noalias !36
  %14 = add nuw i64 %9, 1
  %15 = icmp eq i64 %14, %2
  br i1 %15, label %16, label %8, !llvm.loop !38

16:                                               ; preds = %8, %3
  %17 = trunc i64 %2 to i32
  ret i32 %17
}

; Function Attrs: nounwind optsize uwtable
define internal i32 @__print_signed(ptr nocapture noundef %0, i64 noundef %1, i32 noundef %2, i32 noundef %3, i32 noundef %4) local_unnamed_addr #3 {
  %6 = alloca [24 x i8], align 16
  call void @llvm.lifetime.start.p0(i64 24, ptr nonnull %6) #8
  %7 = getelementptr inbounds i8, ptr %6, i64 24
  %8 = icmp slt i64 %1, 0
  %9 = lshr i64 %1, 63
  %10 = icmp ne i64 %9, 0
  %11 = sub i64 0, %1
  %12 = select i1 %10, i64 %11, i64 %1
  %13 = icmp ult i64 %12, 4294967296
  br i1 %13, label %14, label %28

14:                                               ; preds = %5
  %15 = icmp eq i64 %1, 0
  br i1 %15, label %37, label %16

16:                                               ; preds = %14
  %17 = trunc nuw i64 %12 to i32
  br label %18

18:                                               ; preds = %18, %16
  %19 = phi i32 [ %26, %18 ], [ %17, %16 ]
  %20 = phi ptr [ %25, %18 ], [ %7, %16 ]
  %21 = urem i32 %19, 10
  %22 = zext nneg i32 %21 to i64
  %23 = getelementptr inbounds i8, ptr @.str.9, i64 %22
  %24 = load i8, ptr %23, align 1, !tbaa !5
  %25 = getelementptr inbounds i8, ptr %20, i64 -1
  store i8 %24, ptr %25, align 1, !tbaa !5
  %26 = udiv i32 %19, 10
  %27 = icmp ult i32 %19, 10
  br i1 %27, label %37, label %18, !llvm.loop !39

28:                                               ; preds = %28, %5
  %29 = phi ptr [ %34, %28 ], [ %7, %5 ]
  %30 = phi i64 [ %35, %28 ], [ %12, %5 ]
  %31 = urem i64 %30, 10
  %32 = getelementptr inbounds i8, ptr @.str.9, i64 %31
  %33 = load i8, ptr %32, align 1, !tbaa !5
  %34 = getelementptr inbounds i8, ptr %29, i64 -1
  store i8 %33, ptr %34, align 1, !tbaa !5
  %35 = udiv i64 %30, 10
  %36 = icmp ult i64 %30, 10
  br i1 %36, label %37, label %28, !llvm.loop !40

37:                                               ; preds = %28, %18, %14
  %38 = phi ptr [ %7, %14 ], [ %25, %18 ], [ %34, %28 ]
  %39 = icmp eq i64 %1, 0
  %40 = icmp ne i32 %4, 0
  %41 = and i1 %39, %40
  br i1 %41, label %42, label %44

42:                                               ; preds = %37
  %43 = getelementptr inbounds i8, ptr %38, i64 -1
  store i8 48, ptr %43, align 1, !tbaa !5
  br label %45

44:                                               ; preds = %37
  br i1 %8, label %53, label %45

45:                                               ; preds = %44, %42
  %46 = phi ptr [ %43, %42 ], [ %38, %44 ]
  %47 = and i32 %2, 2
  %48 = icmp eq i32 %47, 0
  br i1 %48, label %49, label %53

49:                                               ; preds = %45
  %50 = and i32 %2, 4
  %51 = icmp eq i32 %50, 0
  %52 = select i1 %51, ptr @.str.10, ptr @.str.4
  br label %53

53:                                               ; preds = %49, %45, %44
  %54 = phi ptr [ %38, %44 ], [ %46, %49 ], [ %46, %45 ]
  %55 = phi ptr [ @.str.2.11, %44 ], [ %52, %49 ], [ @.str.3.12, %45 ]
  %56 = ptrtoint ptr %7 to i64
  %57 = ptrtoint ptr %54 to i64
  %58 = sub i64 %56, %57
  %59 = trunc i64 %58 to i32
  %60 = call fastcc i32 @number(ptr noundef %0, ptr noundef nonnull %55, ptr noundef nonnull %54, i32 noundef %59, i32 noundef %2, i32 noundef %3, i32 noundef %4) #9
  call void @llvm.lifetime.end.p0(i64 24, ptr nonnull %6) #8
  ret i32 %60
}

; Function Attrs: nounwind optsize uwtable
define internal i32 @__print_unsigned(ptr nocapture noundef %0, i64 noundef %1, i32 noundef %2, i32 noundef %3, i32 noundef %4, i32 noundef %5) local_unnamed_addr #3 {
  %7 = alloca [24 x i8], align 16
  call void @llvm.lifetime.start.p0(i64 24, ptr nonnull %7) #8
  %8 = and i32 %3, 32
  %9 = icmp eq i32 %8, 0
  %10 = select i1 %9, ptr @.str.9, ptr @.str.8
  %11 = icmp ult i64 %1, 4294967296
  br i1 %11, label %14, label %12

12:                                               ; preds = %6
  %13 = zext i32 %2 to i64
  br label %29

14:                                               ; preds = %6
  %15 = icmp eq i64 %1, 0
  br i1 %15, label %39, label %16

16:                                               ; preds = %14
  %17 = trunc nuw i64 %1 to i32
  br label %18

18:                                               ; preds = %18, %16
  %19 = phi i32 [ %27, %18 ], [ %17, %16 ]
  %20 = phi i64 [ %25, %18 ], [ 24, %16 ]
  %21 = urem i32 %19, %2
  %22 = zext i32 %21 to i64
  %23 = getelementptr inbounds i8, ptr %10, i64 %22
  %24 = load i8, ptr %23, align 1, !tbaa !5
  %25 = add nsw i64 %20, -1
  %26 = getelementptr inbounds i8, ptr %7, i64 %25
  store i8 %24, ptr %26, align 1, !tbaa !5
  %27 = udiv i32 %19, %2
  %28 = icmp ult i32 %19, %2
  br i1 %28, label %39, label %18, !llvm.loop !39

29:                                               ; preds = %29, %12
  %30 = phi i64 [ 24, %12 ], [ %35, %29 ]
  %31 = phi i64 [ %1, %12 ], [ %37, %29 ]
  %32 = urem i64 %31, %13
  %33 = getelementptr inbounds i8, ptr %10, i64 %32
  %34 = load i8, ptr %33, align 1, !tbaa !5
  %35 = add nsw i64 %30, -1
  %36 = getelementptr inbounds i8, ptr %7, i64 %35
  store i8 %34, ptr %36, align 1, !tbaa !5
  %37 = udiv i64 %31, %13
  %38 = icmp ult i64 %31, %13
  br i1 %38, label %39, label %29, !llvm.loop !40

39:                                               ; preds = %29, %18, %14
  %40 = phi i64 [ 24, %14 ], [ %25, %18 ], [ %35, %29 ]
  %41 = icmp eq i64 %1, 0
  %42 = icmp ne i32 %5, 0
  %43 = and i1 %41, %42
  br i1 %43, label %44, label %47

44:                                               ; preds = %39
  %45 = add nsw i64 %40, -1
  %46 = getelementptr inbounds i8, ptr %7, i64 %45
  store i8 48, ptr %46, align 1, !tbaa !5
  br label %47

47:                                               ; preds = %44, %39
  %48 = phi i64 [ %45, %44 ], [ %40, %39 ]
  %49 = getelementptr inbounds i8, ptr %7, i64 %48
  %50 = and i32 %3, 8
  %51 = icmp ne i32 %50, 0
  %52 = icmp eq i32 %2, 8
  %53 = and i1 %52, %51
  br i1 %53, label %54, label %65

54:                                               ; preds = %47
  %55 = sub nsw i64 24, %48
  %56 = sext i32 %5 to i64
  %57 = icmp slt i64 %55, %56
  br i1 %57, label %65, label %58

58:                                               ; preds = %54
  %59 = icmp eq i64 %48, 24
  br i1 %59, label %63, label %60

60:                                               ; preds = %58
  %61 = load i8, ptr %49, align 1, !tbaa !5
  %62 = icmp eq i8 %61, 48
  br i1 %62, label %65, label %63

63:                                               ; preds = %60, %58
  %64 = getelementptr inbounds i8, ptr %49, i64 -1
  store i8 48, ptr %64, align 1, !tbaa !5
  br label %65

65:                                               ; preds = %63, %60, %54, %47
  %66 = phi ptr [ %64, %63 ], [ %49, %60 ], [ %49, %54 ], [ %49, %47 ]
  %67 = getelementptr inbounds i8, ptr %7, i64 24
  %68 = icmp eq i32 %2, 16
  %69 = icmp ne i64 %1, 0
  %70 = and i1 %69, %68
  %71 = and i1 %70, %51
  %72 = select i1 %9, ptr @.str.6, ptr @.str.5
  %73 = select i1 %71, ptr %72, ptr @.str.10
  %74 = ptrtoint ptr %67 to i64
  %75 = ptrtoint ptr %66 to i64
  %76 = sub i64 %74, %75
  %77 = trunc i64 %76 to i32
  %78 = call fastcc i32 @number(ptr noundef %0, ptr noundef nonnull %73, ptr noundef nonnull %66, i32 noundef %77, i32 noundef %3, i32 noundef %4, i32 noundef %5) #9
  call void @llvm.lifetime.end.p0(i64 24, ptr nonnull %7) #8
  ret i32 %78
}

; Function Attrs: nounwind optsize uwtable
define internal fastcc i32 @number(ptr nocapture noundef %0, ptr noundef %1, ptr nocapture noundef readonly %2, i32 noundef %3, i32 noundef %4, i32 noundef %5, i32 noundef %6) unnamed_addr #3 {
  br label %8

8:                                                ; preds = %8, %7
  %9 = phi ptr [ %1, %7 ], [ %12, %8 ]
  %10 = load i8, ptr %9, align 1, !tbaa !5
  %11 = icmp eq i8 %10, 0
  %12 = getelementptr inbounds i8, ptr %9, i64 1
  br i1 %11, label %13, label %8, !llvm.loop !41

13:                                               ; preds = %8
  %14 = ptrtoint ptr %9 to i64
  %15 = ptrtoint ptr %1 to i64
  %16 = sub i64 %14, %15
  %17 = trunc i64 %16 to i32
  %18 = sub nsw i32 %6, %3
  %19 = lshr i32 %5, 31
  %20 = icmp ne i32 %19, 0
  %21 = sub i32 0, %5
  %22 = select i1 %20, i32 %21, i32 %5
  %23 = tail call i32 @llvm.smax.i32(i32 %18, i32 0)
  %24 = icmp slt i32 %6, 0
  %25 = and i32 %4, 16
  %26 = icmp ne i32 %25, 0
  %27 = and i1 %26, %24
  %28 = and i32 %4, 1
  %29 = or i32 %19, %28
  %30 = icmp eq i32 %29, 0
  %31 = and i1 %27, %30
  %32 = add i32 %17, %3
  %33 = icmp sgt i32 %22, %32
  %34 = select i1 %31, i1 %33, i1 false
  %35 = sub i32 %22, %32
  %36 = select i1 %34, i32 %35, i32 %23
  %37 = add i32 %32, %36
  %38 = sub i32 %22, %37
  br i1 %30, label %39, label %48

39:                                               ; preds = %13
  %40 = icmp sgt i32 %38, 0
  br i1 %40, label %41, label %46

41:                                               ; preds = %41, %39
  %42 = phi i32 [ %44, %41 ], [ 0, %39 ]
  %43 = tail call i32 @fputc(i32 noundef 32, ptr noundef %0) #9
  %44 = add nuw nsw i32 %42, 1
  %45 = icmp eq i32 %44, %38
  br i1 %45, label %46, label %41, !llvm.loop !42

46:                                               ; preds = %41, %39
  %47 = tail call noundef i32 @llvm.smax.i32(i32 %38, i32 0)
  br label %48

48:                                               ; preds = %46, %13
  %49 = phi i32 [ 0, %13 ], [ %47, %46 ]
  %50 = shl i64 %16, 32
  %51 = ashr exact i64 %50, 32
  %52 = load i8, ptr %0, align 8, !tbaa !30, !alias.scope !43, !noalias !46
  %53 = icmp eq i8 %52, 0
  %54 = icmp eq i64 %50, 0
  %55 = or i1 %54, %53
  br i1 %55, label %64, label %56

56:                                               ; preds = %56, %48
  %57 = phi i64 [ %62, %56 ], [ 0, %48 ]
  %58 = getelementptr inbounds i8, ptr %1, i64 %57
  %59 = load i8, ptr %58, align 1, !tbaa !5, !alias.scope !46, !noalias !43
  %60 = zext i8 %59 to i32
  %61 = tail call i32 @fputc(i32 noundef %60, ptr noundef nonnull %0) #9, !noalias !46
  %62 = add nuw i64 %57, 1
  %63 = icmp eq i64 %62, %51
  br i1 %63, label %64, label %56, !llvm.loop !38

64:                                               ; preds = %56, %48
  %65 = icmp sgt i32 %36, 0
  br i1 %65, label %66, label %71

66:                                               ; preds = %66, %64
  %67 = phi i32 [ %69, %66 ], [ 0, %64 ]
  %68 = tail call i32 @fputc(i32 noundef 48, ptr noundef nonnull %0) #9
  %69 = add nuw nsw i32 %67, 1
  %70 = icmp eq i32 %69, %36
  br i1 %70, label %71, label %66, !llvm.loop !42

71:                                               ; preds = %66, %64
  %72 = tail call noundef i32 @llvm.smax.i32(i32 %36, i32 0)
  %73 = sext i32 %3 to i64
  %74 = load i8, ptr %0, align 8, !tbaa !30, !alias.scope !48, !noalias !51
  %75 = icmp eq i8 %74, 0
  %76 = icmp eq i32 %3, 0
  %77 = or i1 %76, %75
  br i1 %77, label %86, label %78

78:                                               ; preds = %78, %71
  %79 = phi i64 [ %84, %78 ], [ 0, %71 ]
  %80 = getelementptr inbounds i8, ptr %2, i64 %79
  %81 = load i8, ptr %80, align 1, !tbaa !5, !alias.scope !51, !noalias !48
  %82 = zext i8 %81 to i32
  %83 = tail call i32 @fputc(i32 noundef %82, ptr noundef nonnull %0) #9, !noalias !51
  %84 = add nuw i64 %79, 1
  %85 = icmp eq i64 %84, %73
  br i1 %85, label %86, label %78, !llvm.loop !38

86:                                               ; preds = %78, %71
  %87 = add i32 %32, %72
  %88 = add i32 %87, %49
  br i1 %30, label %99, label %89

89:                                               ; preds = %86
  %90 = icmp sgt i32 %38, 0
  br i1 %90, label %91, label %96

91:                                               ; preds = %91, %89
  %92 = phi i32 [ %94, %91 ], [ 0, %89 ]
  %93 = tail call i32 @fputc(i32 noundef 32, ptr noundef nonnull %0) #9
  %94 = add nuw nsw i32 %92, 1
  %95 = icmp eq i32 %94, %38
  br i1 %95, label %96, label %91, !llvm.loop !42

96:                                               ; preds = %91, %89
  %97 = tail call noundef i32 @llvm.smax.i32(i32 %38, i32 0)
  %98 = add nsw i32 %88, %97
  br label %99

99:                                               ; preds = %96, %86
  %100 = phi i32 [ %98, %96 ], [ %88, %86 ]
  ret i32 %100
}

; Function Attrs: nocallback nofree nosync nounwind speculatable willreturn memory(none)
declare i32 @llvm.smax.i32(i32, i32) #6

; Function Attrs: nounwind optsize uwtable
define internal range(i32 -1, 256) i32 @fputc(i32 noundef %0, ptr nocapture noundef %1) local_unnamed_addr #3 {
  %3 = load i8, ptr %1, align 8, !tbaa !30
  switch i8 %3, label %17 [
    i8 1, label %4
    i8 3, label %6
    i8 0, label %19
  ]

4:                                                ; preds = %2
  %5 = tail call i32 @putchar(i32 noundef %0) #10
  br label %17

6:                                                ; preds = %2
  %7 = getelementptr inbounds i8, ptr %1, i64 16
  %8 = load i64, ptr %7, align 8, !tbaa !53
  %9 = icmp eq i64 %8, 0
  br i1 %9, label %17, label %10

10:                                               ; preds = %6
  %11 = trunc i32 %0 to i8
  %12 = getelementptr inbounds i8, ptr %1, i64 8
  %13 = load ptr, ptr %12, align 8, !tbaa !54
  %14 = getelementptr inbounds i8, ptr %13, i64 1
  store ptr %14, ptr %12, align 8, !tbaa !54
  store i8 %11, ptr %13, align 1, !tbaa !5
  %15 = load i64, ptr %7, align 8, !tbaa !53
  %16 = add i64 %15, -1
  store i64 %16, ptr %7, align 8, !tbaa !53
  br label %17

17:                                               ; preds = %10, %6, %4, %2
  %18 = and i32 %0, 255
  br label %19

19:                                               ; preds = %17, %2
  %20 = phi i32 [ %18, %17 ], [ -1, %2 ]
  ret i32 %20
}

; Function Attrs: optsize
declare dso_local i32 @putchar(i32 noundef) local_unnamed_addr #7

; Function Attrs: nounwind optsize uwtable
define internal noundef i64 @fwrite(ptr noalias nocapture noundef readonly %0, i64 noundef %1, i64 noundef %2, ptr noalias nocapture noundef %3) local_unnamed_addr #3 {
  %5 = load i8, ptr %3, align 8, !tbaa !30
  %6 = icmp eq i8 %5, 0
  br i1 %6, label %21, label %7

7:                                                ; preds = %4
  %8 = mul i64 %2, %1
  %9 = icmp eq i64 %8, 0
  br i1 %9, label %10, label %13

10:                                               ; preds = %13, %7
  %11 = icmp eq i64 %1, 0
  %12 = select i1 %11, i64 0, i64 %2
  br label %21

13:                                               ; preds = %13, %7
  %14 = phi i64 [ %19, %13 ], [ 0, %7 ]
  %15 = getelementptr inbounds i8, ptr %0, i64 %14
  %16 = load i8, ptr %15, align 1, !tbaa !5
  %17 = zext i8 %16 to i32
  %18 = tail call i32 @fputc(i32 noundef %17, ptr noundef nonnull %3) #9
  %19 = add nuw i64 %14, 1
  %20 = icmp eq i64 %19, %8
  br i1 %20, label %10, label %13, !llvm.loop !38

21:                                               ; preds = %10, %4
  %22 = phi i64 [ %12, %10 ], [ 0, %4 ]
  ret i64 %22
}

; Function Attrs: nounwind optsize uwtable
define internal i32 @fgetc(ptr nocapture noundef %0) local_unnamed_addr #3 {
  %2 = load i8, ptr %0, align 8, !tbaa !30
  %3 = icmp eq i8 %2, 0
  br i1 %3, label %4, label %20

4:                                                ; preds = %1
  %5 = getelementptr inbounds i8, ptr %0, i64 2
  %6 = load i8, ptr %5, align 2, !tbaa !55
  %7 = icmp eq i8 %6, 0
  br i1 %7, label %12, label %8

8:                                                ; preds = %4
  store i8 0, ptr %5, align 2, !tbaa !55
  %9 = getelementptr inbounds i8, ptr %0, i64 3
  %10 = load i8, ptr %9, align 1, !tbaa !56
  %11 = zext i8 %10 to i32
  br label %20

12:                                               ; preds = %4
  %13 = getelementptr inbounds i8, ptr %0, i64 1
  %14 = load i8, ptr %13, align 1, !tbaa !57
  %15 = icmp eq i8 %14, 0
  br i1 %15, label %16, label %20

16:                                               ; preds = %12
  %17 = tail call i32 @getchar() #10
  %18 = icmp eq i32 %17, -1
  br i1 %18, label %19, label %20

19:                                               ; preds = %16
  store i8 1, ptr %13, align 1, !tbaa !57
  br label %20

20:                                               ; preds = %19, %16, %12, %8, %1
  %21 = phi i32 [ %11, %8 ], [ -1, %1 ], [ -1, %12 ], [ -1, %19 ], [ %17, %16 ]
  ret i32 %21
}

; Function Attrs: optsize
declare dso_local i32 @getchar() local_unnamed_addr #7

attributes #0 = { nounwind uwtable "min-legal-vector-width"="0" "no-jump-tables"="true" "no-trapping-math"="true" "stack-protector-buffer-size"="8" "target-cpu"="x86-64" "target-features"="+cmov,+cx8,+fxsr,+mmx,+sse,+sse2,+x87" "tune-cpu"="generic" }
attributes #1 = { nocallback nofree nosync nounwind willreturn memory(argmem: readwrite) }
attributes #2 = { nocallback nofree nounwind willreturn memory(argmem: write) }
attributes #3 = { nounwind optsize uwtable "min-legal-vector-width"="0" "no-builtins" "no-jump-tables"="true" "no-trapping-math"="true" "stack-protector-buffer-size"="8" "target-cpu"="x86-64" "target-features"="+cmov,+cx8,+fxsr,+mmx,+sse,+sse2,+x87" "tune-cpu"="generic" }
attributes #4 = { nofree nounwind "no-trapping-math"="true" "stack-protector-buffer-size"="8" "target-cpu"="x86-64" "target-features"="+cmov,+cx8,+fxsr,+mmx,+sse,+sse2,+x87" "tune-cpu"="generic" }
attributes #5 = { nounwind uwtable "min-legal-vector-width"="0" "no-trapping-math"="true" "stack-protector-buffer-size"="8" "target-cpu"="x86-64" "target-features"="+cmov,+cx8,+fxsr,+mmx,+sse,+sse2,+x87" "tune-cpu"="generic" }
attributes #6 = { nocallback nofree nosync nounwind speculatable willreturn memory(none) }
attributes #7 = { optsize "no-builtins" "no-trapping-math"="true" "stack-protector-buffer-size"="8" "target-cpu"="x86-64" "target-features"="+cmov,+cx8,+fxsr,+mmx,+sse,+sse2,+x87" "tune-cpu"="generic" }
attributes #8 = { nounwind }
attributes #9 = { nobuiltin optsize "no-builtins" }
attributes #10 = { nobuiltin nounwind optsize "no-builtins" }

!llvm.ident = !{!0, !0, !0}
!llvm.module.flags = !{!1, !2, !3, !4}

!0 = !{!"Debian clang version 19.1.7 (3~deb12u1)"}
!1 = !{i32 7, !"Dwarf Version", i32 5}
!2 = !{i32 2, !"Debug Info Version", i32 3}
!3 = !{i32 1, !"wchar_size", i32 4}
!4 = !{i32 7, !"uwtable", i32 2}
!5 = !{!6, !6, i64 0}
!6 = !{!"omnipotent char", !7, i64 0}
!7 = !{!"Simple C/C++ TBAA"}
!8 = distinct !{!8, !9, !10}
!9 = !{!"llvm.loop.mustprogress"}
!10 = !{!"llvm.loop.unroll.disable"}
!11 = distinct !{!11, !9, !10}
!12 = !{!13, !13, i64 0}
!13 = !{!"long", !6, i64 0}
!14 = distinct !{!14, !9, !10}
!15 = distinct !{!15, !9, !10}
!16 = distinct !{!16, !9, !10}
!17 = distinct !{!17, !9, !10}
!18 = distinct !{!18, !9, !10}
!19 = distinct !{!19, !9, !10}
!20 = distinct !{!20, !9, !10}
!21 = distinct !{!21, !9, !10}
!22 = distinct !{!22, !9, !10}
!23 = distinct !{!23, !9}
!24 = distinct !{!24, !9, !10}
!25 = distinct !{!25, !9, !10}
!26 = distinct !{!26, !9, !10}
!27 = distinct !{!27, !9, !10}
!28 = distinct !{!28, !9, !10}
!29 = distinct !{!29, !9, !10}
!30 = !{!31, !6, i64 0}
!31 = !{!"__stream", !6, i64 0, !6, i64 1, !6, i64 2, !6, i64 3, !32, i64 8, !13, i64 16}
!32 = !{!"any pointer", !6, i64 0}
!33 = !{!34}
!34 = distinct !{!34, !35, !"fwrite: %stream"}
!35 = distinct !{!35, !"fwrite"}
!36 = !{!37}
!37 = distinct !{!37, !35, !"fwrite: %from"}
!38 = distinct !{!38, !9}
!39 = distinct !{!39, !9}
!40 = distinct !{!40, !9}
!41 = distinct !{!41, !9}
!42 = distinct !{!42, !9}
!43 = !{!44}
!44 = distinct !{!44, !45, !"fwrite: %stream"}
!45 = distinct !{!45, !"fwrite"}
!46 = !{!47}
!47 = distinct !{!47, !45, !"fwrite: %from"}
!48 = !{!49}
!49 = distinct !{!49, !50, !"fwrite: %stream"}
!50 = distinct !{!50, !"fwrite"}
!51 = !{!52}
!52 = distinct !{!52, !50, !"fwrite: %from"}
!53 = !{!31, !13, i64 16}
!54 = !{!31, !32, i64 8}
!55 = !{!31, !6, i64 2}
!56 = !{!31, !6, i64 3}
!57 = !{!31, !6, i64 1}
