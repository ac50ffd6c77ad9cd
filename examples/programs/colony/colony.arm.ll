source_filename = "colony.c"
target datalayout = "e-m:e-p:32:32-Fi8-i64:64-v128:64:128-a:0:32-n32-S64"
target triple = "armv7-unknown-linux-gnueabi"

%struct.world = type { [32 x i64] }
%struct.__stream = type { i8, i8, i8, i8, ptr, i32 }

@main.worlds = internal global [2 x %struct.world] zeroinitializer, align 8
@main.seen = internal unnamed_addr global [200 x i64] zeroinitializer, align 8
@.str = private unnamed_addr constant [14 x i8] c"nothing lives\00", align 1
@.str.1 = private unnamed_addr constant [14 x i8] c"as %d before\0A\00", align 1
@.str.2 = private unnamed_addr constant [17 x i8] c"digest %08x%08x\0A\00", align 1
@.str.3 = private unnamed_addr constant [25 x i8] c"generation %d, %d alive\0A\00", align 1
@.str.10 = private unnamed_addr constant [1 x i8] zeroinitializer, align 1
@.str.2.11 = private unnamed_addr constant [2 x i8] c"-\00", align 1
@.str.3.12 = private unnamed_addr constant [2 x i8] c"+\00", align 1
@.str.4 = private unnamed_addr constant [2 x i8] c" \00", align 1
@.str.5 = private unnamed_addr constant [3 x i8] c"0X\00", align 1
@.str.6 = private unnamed_addr constant [3 x i8] c"0x\00", align 1
@__streams = internal global [3 x %struct.__stream] [%struct.__stream zeroinitializer, %struct.__stream { i8 1, i8 0, i8 0, i8 0, ptr null, i32 0 }, %struct.__stream { i8 2, i8 0, i8 0, i8 0, ptr null, i32 0 }], align 4
@.str.8 = private unnamed_addr constant [17 x i8] c"0123456789ABCDEF\00", align 1
@.str.9 = private unnamed_addr constant [17 x i8] c"0123456789abcdef\00", align 1

; Function Attrs: nounwind
define dso_local range(i32 -255, 256) i32 @main() local_unnamed_addr #0 {
  %1 = alloca [256 x i8], align 1
  call void @llvm.lifetime.start.p0(i64 256, ptr nonnull %1) #8
  tail call void @llvm.memset.p0.i32(ptr noundef nonnull align 8 dereferenceable(256) @main.worlds, i8 0, i32 256, i1 false)
  br label %2

2:                                                ; preds = %18, %0
  %3 = phi i32 [ 0, %0 ], [ %19, %18 ]
  %4 = phi i32 [ 0, %0 ], [ %20, %18 ]
  br label %5

5:                                                ; preds = %8, %2
  %6 = call ptr @fgets(ptr noundef nonnull %1, i32 noundef 256, ptr noundef nonnull @__streams)
  %7 = icmp eq ptr %6, null
  br i1 %7, label %32, label %8

8:                                                ; preds = %5
  %9 = load i8, ptr %1, align 1, !tbaa !5
  %10 = icmp eq i8 %9, 33
  br i1 %10, label %5, label %11, !llvm.loop !8

11:                                               ; preds = %8
  %12 = getelementptr inbounds [32 x i64], ptr @main.worlds, i32 0, i32 %4
  br label %13

13:                                               ; preds = %28, %11
  %14 = phi i32 [ 0, %11 ], [ %30, %28 ]
  %15 = phi i32 [ %3, %11 ], [ %29, %28 ]
  %16 = getelementptr inbounds [256 x i8], ptr %1, i32 0, i32 %14
  %17 = load i8, ptr %16, align 1, !tbaa !5
  switch i8 %17, label %28 [
    i8 0, label %18
    i8 10, label %18
    i8 35, label %22
    i8 79, label %22
  ]

18:                                               ; preds = %28, %13, %13
  %19 = phi i32 [ %15, %13 ], [ %15, %13 ], [ %29, %28 ]
  %20 = add nuw nsw i32 %4, 1
  %21 = icmp eq i32 %20, 32
  br i1 %21, label %32, label %2, !llvm.loop !10

22:                                               ; preds = %13, %13
  %23 = zext nneg i32 %14 to i64
  %24 = shl nuw i64 1, %23
  %25 = load i64, ptr %12, align 8, !tbaa !11
  %26 = or i64 %25, %24
  store i64 %26, ptr %12, align 8, !tbaa !11
  %27 = add nsw i32 %15, 1
  br label %28

28:                                               ; preds = %22, %13
  %29 = phi i32 [ %27, %22 ], [ %15, %13 ]
  %30 = add nuw nsw i32 %14, 1
  %31 = icmp eq i32 %30, 64
  br i1 %31, label %18, label %13, !llvm.loop !13

32:                                               ; preds = %18, %5
  %33 = phi i32 [ %3, %5 ], [ %19, %18 ]
  call void @llvm.lifetime.end.p0(i64 256, ptr nonnull %1) #8
  %34 = icmp eq i32 %33, 0
  br i1 %34, label %35, label %37

35:                                               ; preds = %32
  %36 = call i32 @puts(ptr noundef nonnull dereferenceable(1) @.str)
  br label %191

37:                                               ; preds = %32
  call fastcc void @show(ptr noundef nonnull @main.worlds, i32 noundef 0)
  br label %38

38:                                               ; preds = %133, %37
  %39 = phi i32 [ 0, %37 ], [ %134, %133 ]
  %40 = phi ptr [ getelementptr inbounds (i8, ptr @main.worlds, i32 256), %37 ], [ %41, %133 ]
  %41 = phi ptr [ @main.worlds, %37 ], [ %40, %133 ]
  br label %43

42:                                               ; preds = %133
  call fastcc void @show(ptr noundef nonnull %40, i32 noundef 200)
  br label %141

43:                                               ; preds = %43, %38
  %44 = phi i32 [ %52, %43 ], [ 0, %38 ]
  %45 = phi i64 [ %51, %43 ], [ 1469598103934665603, %38 ]
  %46 = getelementptr inbounds [32 x i64], ptr %41, i32 0, i32 %44
  %47 = load i64, ptr %46, align 8, !tbaa !11
  %48 = xor i64 %47, %45
  %49 = mul i64 %48, 1099511628211
  %50 = lshr i64 %49, 29
  %51 = xor i64 %50, %49
  %52 = add nuw nsw i32 %44, 1
  %53 = icmp eq i32 %52, 32
  br i1 %53, label %54, label %43, !llvm.loop !14

54:                                               ; preds = %43
  %55 = getelementptr inbounds [200 x i64], ptr @main.seen, i32 0, i32 %39
  store i64 %51, ptr %55, align 8, !tbaa !11
  %56 = icmp eq i32 %39, 0
  br i1 %56, label %58, label %59

57:                                               ; preds = %59
  br i1 %64, label %58, label %136

58:                                               ; preds = %57, %54
  br label %68

59:                                               ; preds = %59, %54
  %60 = phi i32 [ %65, %59 ], [ 1, %54 ]
  %61 = sub nsw i32 %39, %60
  %62 = getelementptr inbounds [200 x i64], ptr @main.seen, i32 0, i32 %61
  %63 = load i64, ptr %62, align 8, !tbaa !11
  %64 = icmp ne i64 %63, %51
  %65 = add nuw nsw i32 %60, 1
  %66 = icmp ult i32 %60, %39
  %67 = select i1 %66, i1 %64, i1 false
  br i1 %67, label %59, label %57, !llvm.loop !15

68:                                               ; preds = %68, %58
  %69 = phi i32 [ %76, %68 ], [ 0, %58 ]
  %70 = add nuw nsw i32 %69, 31
  %71 = and i32 %70, 31
  %72 = getelementptr inbounds [32 x i64], ptr %41, i32 0, i32 %71
  %73 = load i64, ptr %72, align 8, !tbaa !11
  %74 = getelementptr inbounds [32 x i64], ptr %41, i32 0, i32 %69
  %75 = load i64, ptr %74, align 8, !tbaa !11
  %76 = add nuw nsw i32 %69, 1
  %77 = and i32 %76, 31
  %78 = getelementptr inbounds [32 x i64], ptr %41, i32 0, i32 %77
  %79 = load i64, ptr %78, align 8, !tbaa !11
  %80 = shl i64 %73, 1
  %81 = lshr i64 %73, 1
  %82 = lshr i64 %81, 62
  %83 = or i64 %80, %82
  %84 = and i64 %83, %73
  %85 = xor i64 %83, %73
  %86 = shl i64 %73, 63
  %87 = or i64 %86, %81
  %88 = and i64 %85, %87
  %89 = xor i64 %85, %87
  %90 = xor i64 %88, %84
  %91 = shl i64 %75, 1
  %92 = lshr i64 %75, 1
  %93 = lshr i64 %92, 62
  %94 = or i64 %91, %93
  %95 = and i64 %89, %94
  %96 = xor i64 %89, %94
  %97 = and i64 %95, %84
  %98 = xor i64 %90, %95
  %99 = shl i64 %75, 63
  %100 = or i64 %99, %92
  %101 = and i64 %96, %100
  %102 = xor i64 %96, %100
  %103 = and i64 %101, %90
  %104 = xor i64 %98, %101
  %105 = shl i64 %79, 1
  %106 = lshr i64 %79, 1
  %107 = lshr i64 %106, 62
  %108 = or i64 %105, %107
  %109 = and i64 %102, %108
  %110 = xor i64 %102, %108
  %111 = and i64 %109, %98
  %112 = xor i64 %104, %109
  %113 = and i64 %110, %79
  %114 = xor i64 %110, %79
  %115 = and i64 %113, %104
  %116 = xor i64 %112, %113
  %117 = shl i64 %79, 63
  %118 = or i64 %117, %106
  %119 = and i64 %114, %118
  %120 = xor i64 %114, %118
  %121 = and i64 %119, %112
  %122 = xor i64 %116, %119
  %123 = xor i64 %97, %103
  %124 = xor i64 %123, %111
  %125 = xor i64 %124, %115
  %126 = xor i64 %125, %121
  %127 = xor i64 %126, -1
  %128 = or i64 %120, %75
  %129 = and i64 %128, %122
  %130 = and i64 %129, %127
  %131 = getelementptr inbounds [32 x i64], ptr %40, i32 0, i32 %69
  store i64 %130, ptr %131, align 8, !tbaa !11
  %132 = icmp eq i32 %76, 32
  br i1 %132, label %133, label %68, !llvm.loop !16

133:                                              ; preds = %68
  %134 = add nuw nsw i32 %39, 1
  %135 = icmp eq i32 %134, 200
  br i1 %135, label %42, label %38, !llvm.loop !17

136:                                              ; preds = %57
  call fastcc void @show(ptr noundef %41, i32 noundef %39)
  %137 = call i32 @__print_text(ptr nonnull getelementptr inbounds (i8, ptr @__streams, i32 12), ptr nonnull @.str.1, i32 3) #8
  %138 = zext nneg i32 %60 to i64
  %139 = call i32 @__print_signed(ptr nonnull getelementptr inbounds (i8, ptr @__streams, i32 12), i64 %138, i32 0, i32 0, i32 -1) #8
  %140 = call i32 @__print_text(ptr nonnull getelementptr inbounds (i8, ptr @__streams, i32 12), ptr nonnull getelementptr inbounds (i8, ptr @.str.1, i32 5), i32 8) #8
  br label %141

141:                                              ; preds = %136, %42
  %142 = phi ptr [ %40, %42 ], [ %41, %136 ]
  br label %143

143:                                              ; preds = %143, %141
  %144 = phi i32 [ 0, %141 ], [ %152, %143 ]
  %145 = phi i64 [ 1469598103934665603, %141 ], [ %151, %143 ]
  %146 = getelementptr inbounds [32 x i64], ptr %142, i32 0, i32 %144
  %147 = load i64, ptr %146, align 8, !tbaa !11
  %148 = xor i64 %147, %145
  %149 = mul i64 %148, 1099511628211
  %150 = lshr i64 %149, 29
  %151 = xor i64 %150, %149
  %152 = add nuw nsw i32 %144, 1
  %153 = icmp eq i32 %152, 32
  br i1 %153, label %154, label %143, !llvm.loop !18

154:                                              ; preds = %154, %143
  %155 = phi i32 [ %163, %154 ], [ 0, %143 ]
  %156 = phi i64 [ %162, %154 ], [ 1469598103934665603, %143 ]
  %157 = getelementptr inbounds [32 x i64], ptr %142, i32 0, i32 %155
  %158 = load i64, ptr %157, align 8, !tbaa !11
  %159 = xor i64 %158, %156
  %160 = mul i64 %159, 1099511628211
  %161 = lshr i64 %160, 29
  %162 = xor i64 %161, %160
  %163 = add nuw nsw i32 %155, 1
  %164 = icmp eq i32 %163, 32
  br i1 %164, label %165, label %154, !llvm.loop !19

165:                                              ; preds = %154
  %166 = lshr i64 %151, 32
  %167 = call i32 @__print_text(ptr nonnull getelementptr inbounds (i8, ptr @__streams, i32 12), ptr nonnull @.str.2, i32 7) #8
  %168 = call i32 @__print_unsigned(ptr nonnull getelementptr inbounds (i8, ptr @__streams, i32 12), i64 %166, i32 16, i32 16, i32 8, i32 -1) #8
  %169 = and i64 %162, 4294967295
  %170 = call i32 @__print_unsigned(ptr nonnull getelementptr inbounds (i8, ptr @__streams, i32 12), i64 %169, i32 16, i32 16, i32 8, i32 -1) #8
  %171 = call i32 @__print_text(ptr nonnull getelementptr inbounds (i8, ptr @__streams, i32 12), ptr nonnull getelementptr inbounds (i8, ptr @.str.2, i32 15), i32 1) #8
  br label %172

172:                                              ; preds = %178, %165
  %173 = phi i32 [ 0, %165 ], [ %180, %178 ]
  %174 = phi i32 [ 0, %165 ], [ %179, %178 ]
  %175 = getelementptr inbounds [32 x i64], ptr %142, i32 0, i32 %173
  %176 = load i64, ptr %175, align 8, !tbaa !11
  %177 = icmp eq i64 %176, 0
  br i1 %177, label %178, label %182

178:                                              ; preds = %182, %172
  %179 = phi i32 [ %174, %172 ], [ %185, %182 ]
  %180 = add nuw nsw i32 %173, 1
  %181 = icmp eq i32 %180, 32
  br i1 %181, label %189, label %172, !llvm.loop !20

182:                                              ; preds = %182, %172
  %183 = phi i64 [ %187, %182 ], [ %176, %172 ]
  %184 = phi i32 [ %185, %182 ], [ %174, %172 ]
  %185 = add nsw i32 %184, 1
  %186 = add i64 %183, -1
  %187 = and i64 %186, %183
  %188 = icmp eq i64 %187, 0
  br i1 %188, label %178, label %182, !llvm.loop !21

189:                                              ; preds = %178
  %190 = srem i32 %179, 256
  br label %191

191:                                              ; preds = %189, %35
  %192 = phi i32 [ 0, %35 ], [ %190, %189 ]
  ret i32 %192
}

; Function Attrs: nocallback nofree nosync nounwind willreturn memory(argmem: readwrite)
declare void @llvm.lifetime.start.p0(i64 immarg, ptr nocapture) #1

; Function Attrs: nocallback nofree nounwind willreturn memory(argmem: write)
declare void @llvm.memset.p0.i32(ptr nocapture writeonly, i8, i32, i1 immarg) #2

; Function Attrs: nounwind optsize
define internal noundef ptr @fgets(ptr noalias noundef writeonly %0, i32 noundef %1, ptr noalias nocapture noundef %2) local_unnamed_addr #3 {
  %4 = icmp slt i32 %1, 1
  br i1 %4, label %23, label %5

5:                                                ; preds = %3
  %6 = icmp eq i32 %1, 1
  br i1 %6, label %21, label %7

7:                                                ; preds = %12, %5
  %8 = phi i32 [ %13, %12 ], [ %1, %5 ]
  %9 = phi ptr [ %15, %12 ], [ %0, %5 ]
  %10 = tail call i32 @fgetc(ptr noundef %2) #9
  %11 = icmp eq i32 %10, -1
  br i1 %11, label %19, label %12

12:                                               ; preds = %7
  %13 = add nsw i32 %8, -1
  %14 = trunc i32 %10 to i8
  %15 = getelementptr inbounds i8, ptr %9, i32 1
  store i8 %14, ptr %9, align 1, !tbaa !5
  %16 = icmp sgt i32 %8, 2
  %17 = icmp ne i32 %10, 10
  %18 = and i1 %16, %17
  br i1 %18, label %7, label %21, !llvm.loop !22

19:                                               ; preds = %7
  %20 = icmp eq ptr %9, %0
  br i1 %20, label %23, label %21

21:                                               ; preds = %19, %12, %5
  %22 = phi ptr [ %9, %19 ], [ %0, %5 ], [ %15, %12 ]
  store i8 0, ptr %22, align 1, !tbaa !5
  br label %23

23:                                               ; preds = %21, %19, %3
  %24 = phi ptr [ %0, %21 ], [ null, %3 ], [ null, %19 ]
  ret ptr %24
}

; Function Attrs: nocallback nofree nosync nounwind willreturn memory(argmem: readwrite)
declare void @llvm.lifetime.end.p0(i64 immarg, ptr nocapture) #1

; Function Attrs: nofree nounwind
declare dso_local noundef i32 @puts(ptr nocapture noundef readonly) local_unnamed_addr #4

; Function Attrs: nounwind
define internal fastcc void @show(ptr nocapture noundef readonly %0, i32 noundef %1) unnamed_addr #5 {
  %3 = alloca [66 x i8], align 1
  br label %4

4:                                                ; preds = %10, %2
  %5 = phi i32 [ 0, %2 ], [ %12, %10 ]
  %6 = phi i32 [ 0, %2 ], [ %11, %10 ]
  %7 = getelementptr inbounds [32 x i64], ptr %0, i32 0, i32 %5
  %8 = load i64, ptr %7, align 8, !tbaa !11
  %9 = icmp eq i64 %8, 0
  br i1 %9, label %10, label %14

10:                                               ; preds = %14, %4
  %11 = phi i32 [ %6, %4 ], [ %17, %14 ]
  %12 = add nuw nsw i32 %5, 1
  %13 = icmp eq i32 %12, 32
  br i1 %13, label %21, label %4, !llvm.loop !23

14:                                               ; preds = %14, %4
  %15 = phi i64 [ %19, %14 ], [ %8, %4 ]
  %16 = phi i32 [ %17, %14 ], [ %6, %4 ]
  %17 = add nsw i32 %16, 1
  %18 = add i64 %15, -1
  %19 = and i64 %18, %15
  %20 = icmp eq i64 %19, 0
  br i1 %20, label %10, label %14, !llvm.loop !24

21:                                               ; preds = %10
  %22 = tail call i32 @__print_text(ptr nonnull getelementptr inbounds (i8, ptr @__streams, i32 12), ptr nonnull @.str.3, i32 11) #8
  %23 = sext i32 %1 to i64
  %24 = tail call i32 @__print_signed(ptr nonnull getelementptr inbounds (i8, ptr @__streams, i32 12), i64 %23, i32 0, i32 0, i32 -1) #8
  %25 = tail call i32 @__print_text(ptr nonnull getelementptr inbounds (i8, ptr @__streams, i32 12), ptr nonnull getelementptr inbounds (i8, ptr @.str.3, i32 13), i32 2) #8
  %26 = sext i32 %11 to i64
  %27 = tail call i32 @__print_signed(ptr nonnull getelementptr inbounds (i8, ptr @__streams, i32 12), i64 %26, i32 0, i32 0, i32 -1) #8
  %28 = tail call i32 @__print_text(ptr nonnull getelementptr inbounds (i8, ptr @__streams, i32 12), ptr nonnull getelementptr inbounds (i8, ptr @.str.3, i32 17), i32 7) #8
  br label %29

29:                                               ; preds = %34, %21
  %30 = phi i32 [ 31, %21 ], [ %35, %34 ]
  %31 = getelementptr inbounds [32 x i64], ptr %0, i32 0, i32 %30
  %32 = load i64, ptr %31, align 8, !tbaa !11
  %33 = icmp eq i64 %32, 0
  br i1 %33, label %34, label %37

34:                                               ; preds = %29
  %35 = add nsw i32 %30, -1
  %36 = icmp ugt i32 %30, 1
  br i1 %36, label %29, label %39, !llvm.loop !25

37:                                               ; preds = %29
  %38 = icmp slt i32 %30, 0
  br i1 %38, label %41, label %39

39:                                               ; preds = %37, %34
  %40 = phi i32 [ %30, %37 ], [ 0, %34 ]
  br label %42

41:                                               ; preds = %46, %37
  ret void

42:                                               ; preds = %46, %39
  %43 = phi i32 [ %50, %46 ], [ 0, %39 ]
  call void @llvm.lifetime.start.p0(i64 66, ptr nonnull %3) #8
  %44 = getelementptr inbounds [32 x i64], ptr %0, i32 0, i32 %43
  %45 = load i64, ptr %44, align 8, !tbaa !11
  br label %52

46:                                               ; preds = %68
  %47 = add nsw i32 %69, 1
  %48 = getelementptr inbounds [66 x i8], ptr %3, i32 0, i32 %69
  store i8 10, ptr %48, align 1, !tbaa !5
  %49 = call i32 @fwrite(ptr noundef nonnull %3, i32 noundef 1, i32 noundef %47, ptr noundef nonnull getelementptr inbounds (i8, ptr @__streams, i32 12))
  call void @llvm.lifetime.end.p0(i64 66, ptr nonnull %3) #8
  %50 = add nuw nsw i32 %43, 1
  %51 = icmp eq i32 %43, %40
  br i1 %51, label %41, label %42, !llvm.loop !26

52:                                               ; preds = %68, %42
  %53 = phi i32 [ 0, %42 ], [ %70, %68 ]
  %54 = phi i32 [ 0, %42 ], [ %69, %68 ]
  %55 = zext nneg i32 %53 to i64
  %56 = shl nuw i64 1, %55
  %57 = and i64 %45, %56
  %58 = icmp eq i64 %57, 0
  br i1 %58, label %68, label %59

59:                                               ; preds = %52
  %60 = icmp slt i32 %54, %53
  br i1 %60, label %61, label %64

61:                                               ; preds = %59
  %62 = getelementptr i8, ptr %3, i32 %54
  %63 = sub i32 %53, %54
  call void @llvm.memset.p0.i32(ptr align 1 %62, i8 46, i32 %63, i1 false), !tbaa !5
  br label %64

64:                                               ; preds = %61, %59
  %65 = phi i32 [ %54, %59 ], [ %53, %61 ]
  %66 = add nsw i32 %65, 1
  %67 = getelementptr inbounds [66 x i8], ptr %3, i32 0, i32 %65
  store i8 35, ptr %67, align 1, !tbaa !5
  br label %68

68:                                               ; preds = %64, %52
  %69 = phi i32 [ %66, %64 ], [ %54, %52 ]
  %70 = add nuw nsw i32 %53, 1
  %71 = icmp eq i32 %70, 64
  br i1 %71, label %46, label %52, !llvm.loop !27
}

; Function Attrs: nounwind optsize
define internal noundef i32 @__print_text(ptr nocapture noundef %0, ptr nocapture noundef readonly %1, i32 noundef returned %2) local_unnamed_addr #3 {
  %4 = load i8, ptr %0, align 4, !tbaa !28, !alias.scope !32, !noalias !35
  %5 = icmp eq i8 %4, 0
  %6 = icmp eq i32 %2, 0
  %7 = or i1 %6, %5
  br i1 %7, label %16, label %8

8:                                                ; preds = %8, %3
  %9 = phi i32 [ %14, %8 ], [ 0, %3 ]
  %10 = getelementptr inbounds i8, ptr %1, i32 %9
  %11 = load i8, ptr %10, align 1, !tbaa !5, !alias.scope !35, !noalias !32
  %12 = zext i8 %11 to i32
  %13 = tail call i32 @fputc(i32 noundef %12, ptr noundef nonnull %0) #9, !noalias !35
  %14 = add nuw i32 %9, 1
  %15 = icmp eq i32 %14, %2
  br i1 %15, label %16, label %8, !llvm.loop !37

16:                                               ; preds = %8, %3
  ret i32 %2
}

; Function Attrs: nounwind optsize
define internal i32 @__print_signed(ptr nocapture noundef %0, i64 noundef %1, i32 noundef %2, i32 noundef %3, i32 noundef %4) local_unnamed_addr #3 {
  %6 = alloca [24 x i8], align 1
  call void @llvm.lifetime.start.p0(i64 24, ptr nonnull %6) #8
  %7 = getelementptr inbounds i8, ptr %6, i32 24
  %8 = icmp slt i64 %1, 0
  %9 = lshr i64 %1, 63
  %10 = icmp ne i64 %9, 0
  %11 = sub i64 0, %1
  %12 = select i1 %10, i64 %11, i64 %1
  %13 = icmp ult i64 %12, 4294967296
  br i1 %13, label %14, label %28

14:                                               ; preds = %5
  %15 = trunc nuw i64 %12 to i32
  %16 = icmp eq i32 %15, 0
  br i1 %16, label %39, label %17

17:                                               ; preds = %17, %14
  %18 = phi i32 [ %21, %17 ], [ %15, %14 ]
  %19 = phi ptr [ %26, %17 ], [ %7, %14 ]
  %20 = freeze i32 %18
  %21 = udiv i32 %20, 10
  %22 = mul i32 %21, 10
  %23 = sub i32 %20, %22
  %24 = getelementptr inbounds i8, ptr @.str.9, i32 %23
  %25 = load i8, ptr %24, align 1, !tbaa !5
  %26 = getelementptr inbounds i8, ptr %19, i32 -1
  store i8 %25, ptr %26, align 1, !tbaa !5
  %27 = icmp ult i32 %18, 10
  br i1 %27, label %39, label %17, !llvm.loop !38

28:                                               ; preds = %28, %5
  %29 = phi ptr [ %37, %28 ], [ %7, %5 ]
  %30 = phi i64 [ %31, %28 ], [ %12, %5 ]
  %31 = udiv i64 %30, 10
  %32 = mul i64 %31, 10
  %33 = sub i64 %30, %32
  %34 = trunc nuw nsw i64 %33 to i32
  %35 = getelementptr inbounds i8, ptr @.str.9, i32 %34
  %36 = load i8, ptr %35, align 1, !tbaa !5
  %37 = getelementptr inbounds i8, ptr %29, i32 -1
  store i8 %36, ptr %37, align 1, !tbaa !5
  %38 = icmp ult i64 %30, 10
  br i1 %38, label %39, label %28, !llvm.loop !39

39:                                               ; preds = %28, %17, %14
  %40 = phi ptr [ %7, %14 ], [ %26, %17 ], [ %37, %28 ]
  %41 = icmp eq i64 %1, 0
  %42 = icmp ne i32 %4, 0
  %43 = and i1 %41, %42
  br i1 %43, label %44, label %46

44:                                               ; preds = %39
  %45 = getelementptr inbounds i8, ptr %40, i32 -1
  store i8 48, ptr %45, align 1, !tbaa !5
  br label %47

46:                                               ; preds = %39
  br i1 %8, label %55, label %47

47:                                               ; preds = %46, %44
  %48 = phi ptr [ %45, %44 ], [ %40, %46 ]
  %49 = and i32 %2, 2
  %50 = icmp eq i32 %49, 0
  br i1 %50, label %51, label %55

51:                                               ; preds = %47
  %52 = and i32 %2, 4
  %53 = icmp eq i32 %52, 0
  %54 = select i1 %53, ptr @.str.10, ptr @.str.4
  br label %55

55:                                               ; preds = %51, %47, %46
  %56 = phi ptr [ %40, %46 ], [ %48, %51 ], [ %48, %47 ]
  %57 = phi ptr [ @.str.2.11, %46 ], [ %54, %51 ], [ @.str.3.12, %47 ]
  %58 = ptrtoint ptr %7 to i32
  %59 = ptrtoint ptr %56 to i32
  %60 = sub i32 %58, %59
  %61 = call fastcc i32 @number(ptr noundef %0, ptr noundef nonnull %57, ptr noundef nonnull %56, i32 noundef %60, i32 noundef %2, i32 noundef %3, i32 noundef %4) #9
  call void @llvm.lifetime.end.p0(i64 24, ptr nonnull %6) #8
  ret i32 %61
}

; Function Attrs: nounwind optsize
define internal i32 @__print_unsigned(ptr nocapture noundef %0, i64 noundef %1, i32 noundef %2, i32 noundef %3, i32 noundef %4, i32 noundef %5) local_unnamed_addr #3 {
  %7 = alloca [24 x i8], align 1
  call void @llvm.lifetime.start.p0(i64 24, ptr nonnull %7) #8
  %8 = and i32 %3, 32
  %9 = icmp eq i32 %8, 0
  %10 = select i1 %9, ptr @.str.9, ptr @.str.8
  %11 = icmp ult i64 %1, 4294967296
  br i1 %11, label %14, label %12

12:                                               ; preds = %6
  %13 = zext i32 %2 to i64
  br label %29

14:                                               ; preds = %6
  %15 = trunc nuw i64 %1 to i32
  %16 = icmp eq i32 %15, 0
  br i1 %16, label %41, label %17

17:                                               ; preds = %17, %14
  %18 = phi i32 [ %21, %17 ], [ %15, %14 ]
  %19 = phi i32 [ %26, %17 ], [ 24, %14 ]
  %20 = freeze i32 %18
  %21 = udiv i32 %20, %2
  %22 = mul i32 %21, %2
  %23 = sub i32 %20, %22
  %24 = getelementptr inbounds i8, ptr %10, i32 %23
  %25 = load i8, ptr %24, align 1, !tbaa !5
  %26 = add nsw i32 %19, -1
  %27 = getelementptr inbounds i8, ptr %7, i32 %26
  store i8 %25, ptr %27, align 1, !tbaa !5
  %28 = icmp ult i32 %18, %2
  br i1 %28, label %41, label %17, !llvm.loop !38

29:                                               ; preds = %29, %12
  %30 = phi i32 [ 24, %12 ], [ %38, %29 ]
  %31 = phi i64 [ %1, %12 ], [ %32, %29 ]
  %32 = udiv i64 %31, %13
  %33 = mul i64 %32, %13
  %34 = sub i64 %31, %33
  %35 = trunc nuw i64 %34 to i32
  %36 = getelementptr inbounds i8, ptr %10, i32 %35
  %37 = load i8, ptr %36, align 1, !tbaa !5
  %38 = add nsw i32 %30, -1
  %39 = getelementptr inbounds i8, ptr %7, i32 %38
  store i8 %37, ptr %39, align 1, !tbaa !5
  %40 = icmp ult i64 %31, %13
  br i1 %40, label %41, label %29, !llvm.loop !39

41:                                               ; preds = %29, %17, %14
  %42 = phi i32 [ 24, %14 ], [ %26, %17 ], [ %38, %29 ]
  %43 = icmp eq i64 %1, 0
  %44 = icmp ne i32 %5, 0
  %45 = and i1 %43, %44
  br i1 %45, label %46, label %49

46:                                               ; preds = %41
  %47 = add nsw i32 %42, -1
  %48 = getelementptr inbounds i8, ptr %7, i32 %47
  store i8 48, ptr %48, align 1, !tbaa !5
  br label %49

49:                                               ; preds = %46, %41
  %50 = phi i32 [ %47, %46 ], [ %42, %41 ]
  %51 = getelementptr inbounds i8, ptr %7, i32 %50
  %52 = and i32 %3, 8
  %53 = icmp ne i32 %52, 0
  %54 = icmp eq i32 %2, 8
  %55 = and i1 %54, %53
  %56 = sub nsw i32 24, %50
  %57 = icmp sge i32 %56, %5
  %58 = select i1 %55, i1 %57, i1 false
  br i1 %58, label %59, label %66

59:                                               ; preds = %49
  %60 = icmp eq i32 %50, 24
  br i1 %60, label %64, label %61

61:                                               ; preds = %59
  %62 = load i8, ptr %51, align 1, !tbaa !5
  %63 = icmp eq i8 %62, 48
  br i1 %63, label %66, label %64

64:                                               ; preds = %61, %59
  %65 = getelementptr inbounds i8, ptr %51, i32 -1
  store i8 48, ptr %65, align 1, !tbaa !5
  br label %66

66:                                               ; preds = %64, %61, %49
  %67 = phi ptr [ %65, %64 ], [ %51, %61 ], [ %51, %49 ]
  %68 = getelementptr inbounds i8, ptr %7, i32 24
  %69 = ptrtoint ptr %68 to i32
  %70 = icmp eq i32 %2, 16
  %71 = icmp ne i64 %1, 0
  %72 = and i1 %71, %70
  %73 = and i1 %72, %53
  %74 = select i1 %9, ptr @.str.6, ptr @.str.5
  %75 = select i1 %73, ptr %74, ptr @.str.10
  %76 = ptrtoint ptr %67 to i32
  %77 = sub i32 %69, %76
  %78 = call fastcc i32 @number(ptr noundef %0, ptr noundef nonnull %75, ptr noundef nonnull %67, i32 noundef %77, i32 noundef %3, i32 noundef %4, i32 noundef %5) #9
  call void @llvm.lifetime.end.p0(i64 24, ptr nonnull %7) #8
  ret i32 %78
}

; Function Attrs: nounwind optsize
define internal fastcc i32 @number(ptr nocapture noundef %0, ptr noundef %1, ptr nocapture noundef readonly %2, i32 noundef %3, i32 noundef %4, i32 noundef %5, i32 noundef %6) unnamed_addr #3 {
  br label %8

8:                                                ; preds = %8, %7
  %9 = phi ptr [ %1, %7 ], [ %12, %8 ]
  %10 = load i8, ptr %9, align 1, !tbaa !5
  %11 = icmp eq i8 %10, 0
  %12 = getelementptr inbounds i8, ptr %9, i32 1
  br i1 %11, label %13, label %8, !llvm.loop !40

13:                                               ; preds = %8
  %14 = ptrtoint ptr %9 to i32
  %15 = ptrtoint ptr %1 to i32
  %16 = sub i32 %14, %15
  %17 = sub nsw i32 %6, %3
  %18 = lshr i32 %5, 31
  %19 = icmp ne i32 %18, 0
  %20 = sub i32 0, %5
  %21 = select i1 %19, i32 %20, i32 %5
  %22 = tail call i32 @llvm.smax.i32(i32 %17, i32 0)
  %23 = icmp slt i32 %6, 0
  %24 = and i32 %4, 16
  %25 = icmp ne i32 %24, 0
  %26 = and i1 %25, %23
  %27 = and i32 %4, 1
  %28 = or i32 %18, %27
  %29 = icmp eq i32 %28, 0
  %30 = and i1 %26, %29
  %31 = add i32 %16, %3
  %32 = icmp sgt i32 %21, %31
  %33 = select i1 %30, i1 %32, i1 false
  %34 = sub i32 %21, %31
  %35 = select i1 %33, i32 %34, i32 %22
  %36 = add i32 %31, %35
  %37 = sub i32 %21, %36
  br i1 %29, label %38, label %47

38:                                               ; preds = %13
  %39 = icmp sgt i32 %37, 0
  br i1 %39, label %40, label %45

40:                                               ; preds = %40, %38
  %41 = phi i32 [ %43, %40 ], [ 0, %38 ]
  %42 = tail call i32 @fputc(i32 noundef 32, ptr noundef %0) #9
  %43 = add nuw nsw i32 %41, 1
  %44 = icmp eq i32 %43, %37
  br i1 %44, label %45, label %40, !llvm.loop !41

45:                                               ; preds = %40, %38
  %46 = tail call noundef i32 @llvm.smax.i32(i32 %37, i32 0)
  br label %47

47:                                               ; preds = %45, %13
  %48 = phi i32 [ 0, %13 ], [ %46, %45 ]
  %49 = load i8, ptr %0, align 4, !tbaa !28, !alias.scope !42, !noalias !45
  %50 = icmp eq i8 %49, 0
  %51 = icmp eq ptr %9, %1
  %52 = or i1 %51, %50
  br i1 %52, label %61, label %53

53:                                               ; preds = %53, %47
  %54 = phi i32 [ %59, %53 ], [ 0, %47 ]
  %55 = getelementptr inbounds i8, ptr %1, i32 %54
  %56 = load i8, ptr %55, align 1, !tbaa !5, !alias.scope !45, !noalias !42
  %57 = zext i8 %56 to i32
  %58 = tail call i32 @fputc(i32 noundef %57, ptr noundef nonnull %0) #9, !noalias !45
  %59 = add nuw i32 %54, 1
  %60 = icmp eq i32 %59, %16
  br i1 %60, label %61, label %53, !llvm.loop !37

61:                                               ; preds = %53, %47
  %62 = icmp sgt i32 %35, 0
  br i1 %62, label %63, label %68

63:                                               ; preds = %63, %61
  %64 = phi i32 [ %66, %63 ], [ 0, %61 ]
  %65 = tail call i32 @fputc(i32 noundef 48, ptr noundef nonnull %0) #9
  %66 = add nuw nsw i32 %64, 1
  %67 = icmp eq i32 %66, %35
  br i1 %67, label %68, label %63, !llvm.loop !41

68:                                               ; preds = %63, %61
  %69 = tail call noundef i32 @llvm.smax.i32(i32 %35, i32 0)
  %70 = load i8, ptr %0, align 4, !tbaa !28, !alias.scope !47, !noalias !50
  %71 = icmp eq i8 %70, 0
  %72 = icmp eq i32 %3, 0
  %73 = or i1 %72, %71
  br i1 %73, label %82, label %74

74:                                               ; preds = %74, %68
  %75 = phi i32 [ %80, %74 ], [ 0, %68 ]
  %76 = getelementptr inbounds i8, ptr %2, i32 %75
  %77 = load i8, ptr %76, align 1, !tbaa !5, !alias.scope !50, !noalias !47
  %78 = zext i8 %77 to i32
  %79 = tail call i32 @fputc(i32 noundef %78, ptr noundef nonnull %0) #9, !noalias !50
  %80 = add nuw i32 %75, 1
  %81 = icmp eq i32 %80, %3
  br i1 %81, label %82, label %74, !llvm.loop !37

82:                                               ; preds = %74, %68
  %83 = add i32 %31, %69
  %84 = add i32 %83, %48
  br i1 %29, label %95, label %85

85:                                               ; preds = %82
  %86 = icmp sgt i32 %37, 0
  br i1 %86, label %87, label %92

87:                                               ; preds = %87, %85
  %88 = phi i32 [ %90, %87 ], [ 0, %85 ]
  %89 = tail call i32 @fputc(i32 noundef 32, ptr noundef nonnull %0) #9
  %90 = add nuw nsw i32 %88, 1
  %91 = icmp eq i32 %90, %37
  br i1 %91, label %92, label %87, !llvm.loop !41

92:                                               ; preds = %87, %85
  %93 = tail call noundef i32 @llvm.smax.i32(i32 %37, i32 0)
  %94 = add nsw i32 %84, %93
  br label %95

95:                                               ; preds = %92, %82
  %96 = phi i32 [ %94, %92 ], [ %84, %82 ]
  ret i32 %96
}

; Function Attrs: nocallback nofree nosync nounwind speculatable willreturn memory(none)
declare i32 @llvm.smax.i32(i32, i32) #6

; Function Attrs: nounwind optsize
define internal range(i32 -1, 256) i32 @fputc(i32 noundef %0, ptr nocapture noundef %1) local_unnamed_addr #3 {
  %3 = load i8, ptr %1, align 4, !tbaa !28
  switch i8 %3, label %17 [
    i8 1, label %4
    i8 3, label %6
    i8 0, label %19
  ]

4:                                                ; preds = %2
  %5 = tail call i32 @putchar(i32 noundef %0) #10
  br label %17

6:                                                ; preds = %2
  %7 = getelementptr inbounds i8, ptr %1, i32 8
  %8 = load i32, ptr %7, align 4, !tbaa !52
  %9 = icmp eq i32 %8, 0
  br i1 %9, label %17, label %10

10:                                               ; preds = %6
  %11 = trunc i32 %0 to i8
  %12 = getelementptr inbounds i8, ptr %1, i32 4
  %13 = load ptr, ptr %12, align 4, !tbaa !53
  %14 = getelementptr inbounds i8, ptr %13, i32 1
  store ptr %14, ptr %12, align 4, !tbaa !53
  store i8 %11, ptr %13, align 1, !tbaa !5
  %15 = load i32, ptr %7, align 4, !tbaa !52
  %16 = add i32 %15, -1
  store i32 %16, ptr %7, align 4, !tbaa !52
  br label %17

17:                                               ; preds = %10, %6, %4, %2
  %18 = and i32 %0, 255
  br label %19

19:                                               ; preds = %17, %2
  %20 = phi i32 [ %18, %17 ], [ -1, %2 ]
  ret i32 %20
}

; Function Attrs: optsize
declare dso_local i32 @putchar(i32 noundef) local_unnamed_addr #7

; Function Attrs: nounwind optsize
define internal noundef i32 @fwrite(ptr noalias nocapture noundef readonly %0, i32 noundef %1, i32 noundef %2, ptr noalias nocapture noundef %3) local_unnamed_addr #3 {
  %5 = load i8, ptr %3, align 4, !tbaa !28
  %6 = icmp eq i8 %5, 0
  br i1 %6, label %21, label %7

7:                                                ; preds = %4
  %8 = mul i32 %2, %1
  %9 = icmp eq i32 %8, 0
  br i1 %9, label %10, label %13

10:                                               ; preds = %13, %7
  %11 = icmp eq i32 %1, 0
  %12 = select i1 %11, i32 0, i32 %2
  br label %21

13:                                               ; preds = %13, %7
  %14 = phi i32 [ %19, %13 ], [ 0, %7 ]
  %15 = getelementptr inbounds i8, ptr %0, i32 %14
  %16 = load i8, ptr %15, align 1, !tbaa !5
  %17 = zext i8 %16 to i32
  %18 = tail call i32 @fputc(i32 noundef %17, ptr noundef nonnull %3) #9
  %19 = add nuw i32 %14, 1
  %20 = icmp eq i32 %19, %8
  br i1 %20, label %10, label %13, !llvm.loop !37

21:                                               ; preds = %10, %4
  %22 = phi i32 [ %12, %10 ], [ 0, %4 ]
  ret i32 %22
}

; Function Attrs: nounwind optsize
define internal i32 @fgetc(ptr nocapture noundef %0) local_unnamed_addr #3 {
  %2 = load i8, ptr %0, align 4, !tbaa !28
  %3 = icmp eq i8 %2, 0
  br i1 %3, label %4, label %20

4:                                                ; preds = %1
  %5 = getelementptr inbounds i8, ptr %0, i32 2
  %6 = load i8, ptr %5, align 2, !tbaa !54
  %7 = icmp eq i8 %6, 0
  br i1 %7, label %12, label %8

8:                                                ; preds = %4
  store i8 0, ptr %5, align 2, !tbaa !54
  %9 = getelementptr inbounds i8, ptr %0, i32 3
  %10 = load i8, ptr %9, align 1, !tbaa !55
  %11 = zext i8 %10 to i32
  br label %20

12:                                               ; preds = %4
  %13 = getelementptr inbounds i8, ptr %0, i32 1
  %14 = load i8, ptr %13, align 1, !tbaa !56
  %15 = icmp eq i8 %14, 0
  br i1 %15, label %16, label %20

16:                                               ; preds = %12
  %17 = tail call i32 @getchar() #10
  %18 = icmp eq i32 %17, -1
  br i1 %18, label %19, label %20

19:                                               ; preds = %16
  store i8 1, ptr %13, align 1, !tbaa !56
  br label %20

20:                                               ; preds = %19, %16, %12, %8, %1
  %21 = phi i32 [ %11, %8 ], [ -1, %1 ], [ -1, %12 ], [ -1, %19 ], [ %17, %16 ]
  ret i32 %21
}

; Function Attrs: optsize
declare dso_local i32 @getchar() local_unnamed_addr #7

attributes #0 = { nounwind "no-jump-tables"="true" "no-trapping-math"="true" "stack-protector-buffer-size"="8" "target-cpu"="generic" "target-features"="+armv7-a,+dsp,+soft-float,-aes,-bf16,-d32,-dotprod,-fp-armv8,-fp-armv8d16,-fp-armv8d16sp,-fp-armv8sp,-fp16,-fp16fml,-fp64,-fpregs,-fullfp16,-mve,-mve.fp,-neon,-sha2,-thumb-mode,-vfp2,-vfp2sp,-vfp3,-vfp3d16,-vfp3d16sp,-vfp3sp,-vfp4,-vfp4d16,-vfp4d16sp,-vfp4sp" "use-soft-float"="true" }
attributes #1 = { nocallback nofree nosync nounwind willreturn memory(argmem: readwrite) }
attributes #2 = { nocallback nofree nounwind willreturn memory(argmem: write) }
attributes #3 = { nounwind optsize "no-builtins" "no-jump-tables"="true" "no-trapping-math"="true" "stack-protector-buffer-size"="8" "target-cpu"="generic" "target-features"="+armv7-a,+dsp,+soft-float,-aes,-bf16,-d32,-dotprod,-fp-armv8,-fp-armv8d16,-fp-armv8d16sp,-fp-armv8sp,-fp16,-fp16fml,-fp64,-fpregs,-fullfp16,-mve,-mve.fp,-neon,-sha2,-thumb-mode,-vfp2,-vfp2sp,-vfp3,-vfp3d16,-vfp3d16sp,-vfp3sp,-vfp4,-vfp4d16,-vfp4d16sp,-vfp4sp" "use-soft-float"="true" }
attributes #4 = { nofree nounwind "no-trapping-math"="true" "stack-protector-buffer-size"="8" "target-cpu"="generic" "target-features"="+armv7-a,+dsp,+soft-float,-aes,-bf16,-d32,-dotprod,-fp-armv8,-fp-armv8d16,-fp-armv8d16sp,-fp-armv8sp,-fp16,-fp16fml,-fp64,-fpregs,-fullfp16,-mve,-mve.fp,-neon,-sha2,-thumb-mode,-vfp2,-vfp2sp,-vfp3,-vfp3d16,-vfp3d16sp,-vfp3sp,-vfp4,-vfp4d16,-vfp4d16sp,-vfp4sp" "use-soft-float"="true" }
attributes #5 = { nounwind "no-trapping-math"="true" "stack-protector-buffer-size"="8" "target-cpu"="generic" "target-features"="+armv7-a,+dsp,+soft-float,-aes,-bf16,-d32,-dotprod,-fp-armv8,-fp-armv8d16,-fp-armv8d16sp,-fp-armv8sp,-fp16,-fp16fml,-fp64,-fpregs,-fullfp16,-mve,-mve.fp,-neon,-sha2,-thumb-mode,-vfp2,-vfp2sp,-vfp3,-vfp3d16,-vfp3d16sp,-vfp3sp,-vfp4,-vfp4d16,-vfp4d16sp,-vfp4sp" "use-soft-float"="true" }
attributes #6 = { nocallback nofree nosync nounwind speculatable willreturn memory(none) }
attributes #7 = { optsize "no-builtins" "no-trapping-math"="true" "stack-protector-buffer-size"="8" "target-cpu"="generic" "target-features"="+armv7-a,+dsp,+soft-float,-aes,-bf16,-d32,-dotprod,-fp-armv8,-fp-armv8d16,-fp-armv8d16sp,-fp-armv8sp,-fp16,-fp16fml,-fp64,-fpregs,-fullfp16,-mve,-mve.fp,-neon,-sha2,-thumb-mode,-vfp2,-vfp2sp,-vfp3,-vfp3d16,-vfp3d16sp,-vfp3sp,-vfp4,-vfp4d16,-vfp4d16sp,-vfp4sp" "use-soft-float"="true" }
attributes #8 = { nounwind }
attributes #9 = { nobuiltin optsize "no-builtins" }
attributes #10 = { nobuiltin nounwind optsize "no-builtins" }

!llvm.ident = !{!0, !0, !0}
!llvm.module.flags = !{!1, !2, !3, !4}

!0 = !{!"Debian clang version 19.1.7 (3~deb12u1)"}
!1 = !{i32 7, !"Dwarf Version", i32 5}
!2 = !{i32 2, !"Debug Info Version", i32 3}
!3 = !{i32 1, !"wchar_size", i32 4}
!4 = !{i32 1, !"min_enum_size", i32 4}
!5 = !{!6, !6, i64 0}
!6 = !{!"omnipotent char", !7, i64 0}
!7 = !{!"Simple C/C++ TBAA"}
!8 = distinct !{!8, !9}
!9 = !{!"llvm.loop.mustprogress"}
!10 = distinct !{!10, !9}
!11 = !{!12, !12, i64 0}
!12 = !{!"long long", !6, i64 0}
!13 = distinct !{!13, !9}
!14 = distinct !{!14, !9}
!15 = distinct !{!15, !9}
!16 = distinct !{!16, !9}
!17 = distinct !{!17, !9}
!18 = distinct !{!18, !9}
!19 = distinct !{!19, !9}
!20 = distinct !{!20, !9}
!21 = distinct !{!21, !9}
!22 = distinct !{!22, !9}
!23 = distinct !{!23, !9}
!24 = distinct !{!24, !9}
!25 = distinct !{!25, !9}
!26 = distinct !{!26, !9}
!27 = distinct !{!27, !9}
!28 = !{!29, !6, i64 0}
!29 = !{!"__stream", !6, i64 0, !6, i64 1, !6, i64 2, !6, i64 3, !30, i64 4, !31, i64 8}
!30 = !{!"any pointer", !6, i64 0}
!31 = !{!"int", !6, i64 0}
!32 = !{!33}
!33 = distinct !{!33, !34, !"fwrite: %stream"}
!34 = distinct !{!34, !"fwrite"}
!35 = !{!36}
!36 = distinct !{!36, !34, !"fwrite: %from"}
!37 = distinct !{!37, !9}
!38 = distinct !{!38, !9}
!39 = distinct !{!39, !9}
!40 = distinct !{!40, !9}
!41 = distinct !{!41, !9}
!42 = !{!43}
!43 = distinct !{!43, !44, !"fwrite: %stream"}
!44 = distinct !{!44, !"fwrite"}
!45 = !{!46}
!46 = distinct !{!46, !44, !"fwrite: %from"}
!47 = !{!48}
!48 = distinct !{!48, !49, !"fwrite: %stream"}
!49 = distinct !{!49, !"fwrite"}
!50 = !{!51}
!51 = distinct !{!51, !49, !"fwrite: %from"}
!52 = !{!29, !31, i64 8}
!53 = !{!29, !30, i64 4}
!54 = !{!29, !6, i64 2}
!55 = !{!29, !6, i64 3}
!56 = !{!29, !6, i64 1}
