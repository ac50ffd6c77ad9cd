source_filename = "sha256.c"
target datalayout = "e-m:e-p:32:32-Fi8-i64:64-v128:64:128-a:0:32-n32-S64"
target triple = "armv7-unknown-linux-gnueabi"

%struct.__stream = type { i8, i8, i8, i8, ptr, i32 }
%struct.sha256 = type { [8 x i32], i64, [64 x i8], i32 }

@main.text = internal global [8192 x i8] zeroinitializer, align 1
@main.line = internal global [256 x i8] zeroinitializer, align 1
@.str = private unnamed_addr constant [2 x i8] c"\0A\00", align 1
@.str.1 = private unnamed_addr constant [6 x i8] c"(all)\00", align 1
@.str.2 = private unnamed_addr constant [4 x i8] c"key\00", align 1
@.str.3 = private unnamed_addr constant [19 x i8] c"(all, under a key)\00", align 1
@begin.first = internal unnamed_addr constant [8 x i32] [i32 1779033703, i32 -1150833019, i32 1013904242, i32 -1521486534, i32 1359893119, i32 -1694144372, i32 528734635, i32 1541459225], align 4
@constants = internal unnamed_addr constant [64 x i32] [i32 1116352408, i32 1899447441, i32 -1245643825, i32 -373957723, i32 961987163, i32 1508970993, i32 -1841331548, i32 -1424204075, i32 -670586216, i32 310598401, i32 607225278, i32 1426881987, i32 1925078388, i32 -2132889090, i32 -1680079193, i32 -1046744716, i32 -459576895, i32 -272742522, i32 264347078, i32 604807628, i32 770255983, i32 1249150122, i32 1555081692, i32 1996064986, i32 -1740746414, i32 -1473132947, i32 -1341970488, i32 -1084653625, i32 -958395405, i32 -710438585, i32 113926993, i32 338241895, i32 666307205, i32 773529912, i32 1294757372, i32 1396182291, i32 1695183700, i32 1986661051, i32 -2117940946, i32 -1838011259, i32 -1564481375, i32 -1474664885, i32 -1035236496, i32 -949202525, i32 -778901479, i32 -694614492, i32 -200395387, i32 275423344, i32 430227734, i32 506948616, i32 659060556, i32 883997877, i32 958139571, i32 1322822218, i32 1537002063, i32 1747873779, i32 1955562222, i32 2024104815, i32 -2067236844, i32 -1933114872, i32 -1866530822, i32 -1538233109, i32 -1090935817, i32 -965641998], align 4
@.str.4 = private unnamed_addr constant [2 x i8] c"\80\00", align 1
@.str.5 = private unnamed_addr constant [1 x i8] zeroinitializer, align 1
@.str.7 = private unnamed_addr constant [6 x i8] c"  %s\0A\00", align 1
@.str.8 = private unnamed_addr constant [1 x i8] zeroinitializer, align 1
@.str.1.9 = private unnamed_addr constant [7 x i8] c"(null)\00", align 1
@.str.5.15 = private unnamed_addr constant [3 x i8] c"0X\00", align 1
@.str.6 = private unnamed_addr constant [3 x i8] c"0x\00", align 1
@__streams = internal global [3 x %struct.__stream] [%struct.__stream zeroinitializer, %struct.__stream { i8 1, i8 0, i8 0, i8 0, ptr null, i32 0 }, %struct.__stream { i8 2, i8 0, i8 0, i8 0, ptr null, i32 0 }], align 4
@.str.8.14 = private unnamed_addr constant [17 x i8] c"0123456789ABCDEF\00", align 1
@.str.9 = private unnamed_addr constant [17 x i8] c"0123456789abcdef\00", align 1

; Function Attrs: nounwind
define dso_local range(i32 0, 256) i32 @main() local_unnamed_addr #0 {
  %1 = alloca [64 x i8], align 1
  %2 = alloca [64 x i8], align 1
  %3 = alloca %struct.sha256, align 8
  %4 = alloca %struct.sha256, align 8
  %5 = alloca %struct.sha256, align 8
  %6 = alloca [32 x i8], align 1
  call void @llvm.lifetime.start.p0(i64 32, ptr nonnull %6) #10
  %7 = tail call ptr @fgets(ptr noundef nonnull @main.line, i32 noundef 256, ptr noundef nonnull @__streams)
  %8 = icmp eq ptr %7, null
  br i1 %8, label %36, label %9

9:                                                ; preds = %0
  %10 = getelementptr inbounds i8, ptr %5, i32 32
  %11 = getelementptr inbounds i8, ptr %5, i32 104
  br label %12

12:                                               ; preds = %30, %9
  %13 = phi i32 [ 0, %9 ], [ %15, %30 ]
  %14 = tail call i32 @strlen(ptr noundef nonnull dereferenceable(1) @main.line) #10
  %15 = add i32 %14, %13
  %16 = icmp ult i32 %15, 8193
  br i1 %16, label %17, label %81

17:                                               ; preds = %12
  %18 = getelementptr inbounds i8, ptr @main.text, i32 %13
  tail call void @llvm.memcpy.p0.p0.i32(ptr nonnull align 1 %18, ptr nonnull align 1 @main.line, i32 %14, i1 false)
  %19 = tail call i32 @strcspn(ptr noundef nonnull @main.line, ptr noundef nonnull @.str)
  %20 = getelementptr inbounds [256 x i8], ptr @main.line, i32 0, i32 %19
  store i8 0, ptr %20, align 1, !tbaa !5
  %21 = tail call i32 @strlen(ptr noundef nonnull dereferenceable(1) @main.line) #10
  call void @llvm.lifetime.start.p0(i64 112, ptr nonnull %5) #10
  call void @llvm.memcpy.p0.p0.i32(ptr noundef nonnull align 8 dereferenceable(32) %5, ptr noundef nonnull align 4 dereferenceable(32) @begin.first, i32 32, i1 false)
  store i64 0, ptr %10, align 8, !tbaa !8
  store i32 0, ptr %11, align 8, !tbaa !12
  call fastcc void @add(ptr noundef nonnull %5, ptr noundef nonnull readonly @main.line, i32 noundef %21)
  call fastcc void @end(ptr noundef nonnull %5, ptr noundef nonnull %6)
  call void @llvm.lifetime.end.p0(i64 112, ptr nonnull %5) #10
  br label %22

22:                                               ; preds = %22, %17
  %23 = phi i32 [ 0, %17 ], [ %28, %22 ]
  %24 = getelementptr inbounds i8, ptr %6, i32 %23
  %25 = load i8, ptr %24, align 1, !tbaa !5
  %26 = zext i8 %25 to i64
  %27 = tail call i32 @__print_unsigned(ptr nonnull getelementptr inbounds (i8, ptr @__streams, i32 12), i64 %26, i32 16, i32 16, i32 2, i32 -1) #10
  %28 = add nuw nsw i32 %23, 1
  %29 = icmp eq i32 %28, 32
  br i1 %29, label %30, label %22, !llvm.loop !13

30:                                               ; preds = %22
  %31 = tail call i32 @__print_text(ptr nonnull getelementptr inbounds (i8, ptr @__streams, i32 12), ptr nonnull @.str.7, i32 2) #10
  %32 = tail call i32 @__print_string(ptr nonnull getelementptr inbounds (i8, ptr @__streams, i32 12), ptr nonnull @main.line, i32 0, i32 0, i32 -1) #10
  %33 = tail call i32 @__print_text(ptr nonnull getelementptr inbounds (i8, ptr @__streams, i32 12), ptr nonnull getelementptr inbounds (i8, ptr @.str.7, i32 4), i32 1) #10
  %34 = tail call ptr @fgets(ptr noundef nonnull @main.line, i32 noundef 256, ptr noundef nonnull @__streams)
  %35 = icmp eq ptr %34, null
  br i1 %35, label %36, label %12

36:                                               ; preds = %30, %0
  %37 = phi i32 [ 0, %0 ], [ %15, %30 ]
  call void @llvm.lifetime.start.p0(i64 112, ptr nonnull %4) #10
  call void @llvm.memcpy.p0.p0.i32(ptr noundef nonnull align 8 dereferenceable(32) %4, ptr noundef nonnull align 4 dereferenceable(32) @begin.first, i32 32, i1 false)
  %38 = getelementptr inbounds i8, ptr %4, i32 32
  store i64 0, ptr %38, align 8, !tbaa !8
  %39 = getelementptr inbounds i8, ptr %4, i32 104
  store i32 0, ptr %39, align 8, !tbaa !12
  call fastcc void @add(ptr noundef nonnull %4, ptr noundef nonnull readonly @main.text, i32 noundef %37)
  call fastcc void @end(ptr noundef nonnull %4, ptr noundef nonnull %6)
  call void @llvm.lifetime.end.p0(i64 112, ptr nonnull %4) #10
  br label %40

40:                                               ; preds = %40, %36
  %41 = phi i32 [ 0, %36 ], [ %46, %40 ]
  %42 = getelementptr inbounds i8, ptr %6, i32 %41
  %43 = load i8, ptr %42, align 1, !tbaa !5
  %44 = zext i8 %43 to i64
  %45 = tail call i32 @__print_unsigned(ptr nonnull getelementptr inbounds (i8, ptr @__streams, i32 12), i64 %44, i32 16, i32 16, i32 2, i32 -1) #10
  %46 = add nuw nsw i32 %41, 1
  %47 = icmp eq i32 %46, 32
  br i1 %47, label %48, label %40, !llvm.loop !15

48:                                               ; preds = %40
  %49 = tail call i32 @__print_text(ptr nonnull getelementptr inbounds (i8, ptr @__streams, i32 12), ptr nonnull @.str.7, i32 2) #10
  %50 = tail call i32 @__print_string(ptr nonnull getelementptr inbounds (i8, ptr @__streams, i32 12), ptr nonnull @.str.1, i32 0, i32 0, i32 -1) #10
  %51 = tail call i32 @__print_text(ptr nonnull getelementptr inbounds (i8, ptr @__streams, i32 12), ptr nonnull getelementptr inbounds (i8, ptr @.str.7, i32 4), i32 1) #10
  call void @llvm.lifetime.start.p0(i64 64, ptr nonnull %1) #10
  call void @llvm.lifetime.start.p0(i64 64, ptr nonnull %2) #10
  call void @llvm.lifetime.start.p0(i64 112, ptr nonnull %3) #10
  %52 = getelementptr inbounds i8, ptr %1, i32 3
  call void @llvm.memset.p0.i32(ptr noundef nonnull align 1 dereferenceable(61) %52, i8 0, i32 61, i1 false)
  call void @llvm.memcpy.p0.p0.i32(ptr noundef nonnull align 1 dereferenceable(3) %1, ptr noundef nonnull align 1 dereferenceable(3) @.str.2, i32 3, i1 false)
  %53 = getelementptr inbounds i8, ptr %2, i32 3
  call void @llvm.memset.p0.i32(ptr noundef nonnull align 1 dereferenceable(61) %53, i8 0, i32 61, i1 false)
  call void @llvm.memcpy.p0.p0.i32(ptr noundef nonnull align 1 dereferenceable(3) %2, ptr noundef nonnull align 1 dereferenceable(3) @.str.2, i32 3, i1 false)
  br label %54

54:                                               ; preds = %54, %48
  %55 = phi i32 [ 0, %48 ], [ %62, %54 ]
  %56 = getelementptr inbounds [64 x i8], ptr %1, i32 0, i32 %55
  %57 = load i8, ptr %56, align 1, !tbaa !5
  %58 = xor i8 %57, 54
  store i8 %58, ptr %56, align 1, !tbaa !5
  %59 = getelementptr inbounds [64 x i8], ptr %2, i32 0, i32 %55
  %60 = load i8, ptr %59, align 1, !tbaa !5
  %61 = xor i8 %60, 92
  store i8 %61, ptr %59, align 1, !tbaa !5
  %62 = add nuw nsw i32 %55, 1
  %63 = icmp eq i32 %62, 64
  br i1 %63, label %64, label %54, !llvm.loop !16

64:                                               ; preds = %54
  call void @llvm.memcpy.p0.p0.i32(ptr noundef nonnull align 8 dereferenceable(32) %3, ptr noundef nonnull align 4 dereferenceable(32) @begin.first, i32 32, i1 false)
  %65 = getelementptr inbounds i8, ptr %3, i32 32
  store i64 0, ptr %65, align 8, !tbaa !8
  %66 = getelementptr inbounds i8, ptr %3, i32 104
  store i32 0, ptr %66, align 8, !tbaa !12
  call fastcc void @add(ptr noundef nonnull %3, ptr noundef nonnull %1, i32 noundef 64)
  call fastcc void @add(ptr noundef nonnull %3, ptr noundef nonnull @main.text, i32 noundef %37)
  call fastcc void @end(ptr noundef nonnull %3, ptr noundef nonnull %6)
  call void @llvm.memcpy.p0.p0.i32(ptr noundef nonnull align 8 dereferenceable(32) %3, ptr noundef nonnull align 4 dereferenceable(32) @begin.first, i32 32, i1 false)
  store i64 0, ptr %65, align 8, !tbaa !8
  store i32 0, ptr %66, align 8, !tbaa !12
  call fastcc void @add(ptr noundef nonnull %3, ptr noundef nonnull %2, i32 noundef 64)
  call fastcc void @add(ptr noundef nonnull %3, ptr noundef nonnull %6, i32 noundef 32)
  call fastcc void @end(ptr noundef nonnull %3, ptr noundef nonnull %6)
  call void @llvm.lifetime.end.p0(i64 112, ptr nonnull %3) #10
  call void @llvm.lifetime.end.p0(i64 64, ptr nonnull %2) #10
  call void @llvm.lifetime.end.p0(i64 64, ptr nonnull %1) #10
  br label %67

67:                                               ; preds = %67, %64
  %68 = phi i32 [ 0, %64 ], [ %73, %67 ]
  %69 = getelementptr inbounds i8, ptr %6, i32 %68
  %70 = load i8, ptr %69, align 1, !tbaa !5
  %71 = zext i8 %70 to i64
  %72 = tail call i32 @__print_unsigned(ptr nonnull getelementptr inbounds (i8, ptr @__streams, i32 12), i64 %71, i32 16, i32 16, i32 2, i32 -1) #10
  %73 = add nuw nsw i32 %68, 1
  %74 = icmp eq i32 %73, 32
  br i1 %74, label %75, label %67, !llvm.loop !17

75:                                               ; preds = %67
  %76 = tail call i32 @__print_text(ptr nonnull getelementptr inbounds (i8, ptr @__streams, i32 12), ptr nonnull @.str.7, i32 2) #10
  %77 = tail call i32 @__print_string(ptr nonnull getelementptr inbounds (i8, ptr @__streams, i32 12), ptr nonnull @.str.3, i32 0, i32 0, i32 -1) #10
  %78 = tail call i32 @__print_text(ptr nonnull getelementptr inbounds (i8, ptr @__streams, i32 12), ptr nonnull getelementptr inbounds (i8, ptr @.str.7, i32 4), i32 1) #10
  %79 = load i8, ptr %6, align 1, !tbaa !5
  %80 = zext i8 %79 to i32
  br label %81

81:                                               ; preds = %75, %12
  %82 = phi i32 [ %80, %75 ], [ 1, %12 ]
  call void @llvm.lifetime.end.p0(i64 32, ptr nonnull %6) #10
  ret i32 %82
}

; Function Attrs: nocallback nofree nosync nounwind willreturn memory(argmem: readwrite)
declare void @llvm.lifetime.start.p0(i64 immarg, ptr nocapture) #1

; Function Attrs: nounwind optsize
define internal noundef ptr @fgets(ptr noalias noundef writeonly %0, i32 noundef %1, ptr noalias nocapture noundef %2) local_unnamed_addr #2 {
  %4 = icmp slt i32 %1, 1
  br i1 %4, label %23, label %5

5:                                                ; preds = %3
  %6 = icmp eq i32 %1, 1
  br i1 %6, label %21, label %7

7:                                                ; preds = %12, %5
  %8 = phi i32 [ %13, %12 ], [ %1, %5 ]
  %9 = phi ptr [ %15, %12 ], [ %0, %5 ]
  %10 = tail call i32 @fgetc(ptr noundef %2) #11
  %11 = icmp eq i32 %10, -1
  br i1 %11, label %19, label %12

12:                                               ; preds = %7
  %13 = add nsw i32 %8, -1
  %14 = trunc i32 %10 to i8
  %15 = getelementptr inbounds i8, ptr %9, i32 1
  store i8 %14, ptr %9, align 1, !tbaa !5
  %16 = icmp sgt i32 %8, 2
  %17 = icmp ne i32 %10, 10
  %18 = and i1 %16, %17
  br i1 %18, label %7, label %21, !llvm.loop !18

19:                                               ; preds = %7
  %20 = icmp eq ptr %9, %0
  br i1 %20, label %23, label %21

21:                                               ; preds = %19, %12, %5
  %22 = phi ptr [ %9, %19 ], [ %0, %5 ], [ %15, %12 ]
  store i8 0, ptr %22, align 1, !tbaa !5
  br label %23

23:                                               ; preds = %21, %19, %3
  %24 = phi ptr [ %0, %21 ], [ null, %3 ], [ null, %19 ]
  ret ptr %24
}

; Function Attrs: nofree norecurse nosync nounwind optsize memory(read, inaccessiblemem: none)
define internal noundef i32 @strlen(ptr noundef %0) local_unnamed_addr #3 {
  br label %2

2:                                                ; preds = %2, %1
  %3 = phi ptr [ %0, %1 ], [ %6, %2 ]
  %4 = load i8, ptr %3, align 1, !tbaa !5
  %5 = icmp eq i8 %4, 0
  %6 = getelementptr inbounds i8, ptr %3, i32 1
  br i1 %5, label %7, label %2, !llvm.loop !19

7:                                                ; preds = %2
  %8 = ptrtoint ptr %3 to i32
  %9 = ptrtoint ptr %0 to i32
  %10 = sub i32 %8, %9
  ret i32 %10
}

; Function Attrs: nocallback nofree nounwind willreturn memory(argmem: readwrite)
declare void @llvm.memcpy.p0.p0.i32(ptr noalias nocapture writeonly, ptr noalias nocapture readonly, i32, i1 immarg) #4

; Function Attrs: nofree norecurse nosync nounwind optsize memory(read, inaccessiblemem: none)
define internal i32 @strcspn(ptr nocapture noundef readonly %0, ptr nocapture noundef readonly %1) local_unnamed_addr #3 {
  %3 = tail call fastcc i32 @span(ptr noundef %0, ptr noundef %1, i32 noundef 0) #11
  ret i32 %3
}

; Function Attrs: nofree norecurse nosync nounwind memory(readwrite, inaccessiblemem: none)
define internal fastcc void @add(ptr nocapture noundef %0, ptr nocapture noundef readonly %1, i32 noundef %2) unnamed_addr #5 {
  %4 = alloca [64 x i32], align 4
  %5 = alloca [8 x i32], align 4
  %6 = zext i32 %2 to i64
  %7 = getelementptr inbounds i8, ptr %0, i32 32
  %8 = load i64, ptr %7, align 8, !tbaa !8
  %9 = add i64 %8, %6
  store i64 %9, ptr %7, align 8, !tbaa !8
  %10 = icmp eq i32 %2, 0
  br i1 %10, label %190, label %11

11:                                               ; preds = %3
  %12 = getelementptr inbounds i8, ptr %0, i32 104
  %13 = getelementptr inbounds i8, ptr %0, i32 40
  %14 = getelementptr inbounds i8, ptr %0, i32 4
  %15 = getelementptr inbounds i8, ptr %0, i32 8
  %16 = getelementptr inbounds i8, ptr %0, i32 12
  %17 = getelementptr inbounds i8, ptr %0, i32 16
  %18 = getelementptr inbounds i8, ptr %0, i32 20
  %19 = getelementptr inbounds i8, ptr %0, i32 24
  %20 = getelementptr inbounds i8, ptr %0, i32 28
  %21 = load i32, ptr %12, align 8, !tbaa !12
  %22 = getelementptr inbounds i8, ptr %5, i32 16
  %23 = getelementptr inbounds i8, ptr %5, i32 20
  %24 = getelementptr inbounds i8, ptr %5, i32 24
  %25 = getelementptr inbounds i8, ptr %5, i32 4
  %26 = getelementptr inbounds i8, ptr %5, i32 8
  %27 = getelementptr inbounds i8, ptr %5, i32 28
  %28 = getelementptr inbounds i8, ptr %5, i32 12
  br label %29

29:                                               ; preds = %187, %11
  %30 = phi i32 [ %21, %11 ], [ %188, %187 ]
  %31 = phi i32 [ %2, %11 ], [ %39, %187 ]
  %32 = phi ptr [ %1, %11 ], [ %38, %187 ]
  %33 = sub i32 64, %30
  %34 = tail call i32 @llvm.umin.i32(i32 %33, i32 %31)
  %35 = getelementptr inbounds i8, ptr %13, i32 %30
  tail call void @llvm.memcpy.p0.p0.i32(ptr nonnull align 1 %35, ptr align 1 %32, i32 %34, i1 false)
  %36 = load i32, ptr %12, align 8, !tbaa !12
  %37 = add i32 %36, %34
  store i32 %37, ptr %12, align 8, !tbaa !12
  %38 = getelementptr inbounds i8, ptr %32, i32 %34
  %39 = sub i32 %31, %34
  %40 = icmp eq i32 %37, 64
  br i1 %40, label %41, label %187

41:                                               ; preds = %29
  call void @llvm.lifetime.start.p0(i64 256, ptr nonnull %4) #10
  call void @llvm.lifetime.start.p0(i64 32, ptr nonnull %5)
  br label %42

42:                                               ; preds = %42, %41
  %43 = phi i32 [ 0, %41 ], [ %64, %42 ]
  %44 = shl nuw nsw i32 %43, 2
  %45 = getelementptr inbounds i8, ptr %13, i32 %44
  %46 = load i8, ptr %45, align 1, !tbaa !5
  %47 = zext i8 %46 to i32
  %48 = shl nuw i32 %47, 24
  %49 = getelementptr inbounds i8, ptr %45, i32 1
  %50 = load i8, ptr %49, align 1, !tbaa !5
  %51 = zext i8 %50 to i32
  %52 = shl nuw nsw i32 %51, 16
  %53 = or disjoint i32 %52, %48
  %54 = getelementptr inbounds i8, ptr %45, i32 2
  %55 = load i8, ptr %54, align 1, !tbaa !5
  %56 = zext i8 %55 to i32
  %57 = shl nuw nsw i32 %56, 8
  %58 = or disjoint i32 %53, %57
  %59 = getelementptr inbounds i8, ptr %45, i32 3
  %60 = load i8, ptr %59, align 1, !tbaa !5
  %61 = zext i8 %60 to i32
  %62 = or disjoint i32 %58, %61
  %63 = getelementptr inbounds [64 x i32], ptr %4, i32 0, i32 %43
  store i32 %62, ptr %63, align 4, !tbaa !20
  %64 = add nuw nsw i32 %43, 1
  %65 = icmp eq i32 %64, 16
  br i1 %65, label %66, label %42, !llvm.loop !21

66:                                               ; preds = %42
  %67 = load i32, ptr %4, align 4, !tbaa !20
  br label %71

68:                                               ; preds = %71
  call void @llvm.memcpy.p0.p0.i32(ptr noundef nonnull align 4 dereferenceable(32) %5, ptr noundef nonnull align 4 dereferenceable(32) %0, i32 32, i1 false)
  %69 = load i32, ptr %5, align 4, !tbaa !20
  %70 = load i32, ptr %22, align 4, !tbaa !20
  br label %109

71:                                               ; preds = %71, %66
  %72 = phi i32 [ %76, %71 ], [ %67, %66 ]
  %73 = phi i32 [ %107, %71 ], [ 16, %66 ]
  %74 = add nsw i32 %73, -15
  %75 = getelementptr inbounds [64 x i32], ptr %4, i32 0, i32 %74
  %76 = load i32, ptr %75, align 4, !tbaa !20
  %77 = add nsw i32 %73, -2
  %78 = getelementptr inbounds [64 x i32], ptr %4, i32 0, i32 %77
  %79 = load i32, ptr %78, align 4, !tbaa !20
  %80 = shl i32 %76, 25
  %81 = lshr i32 %76, 1
  %82 = lshr i32 %81, 6
  %83 = or i32 %80, %82
  %84 = shl i32 %76, 14
  %85 = lshr i32 %81, 17
  %86 = or i32 %84, %85
  %87 = xor i32 %83, %86
  %88 = lshr i32 %76, 3
  %89 = xor i32 %87, %88
  %90 = add nsw i32 %73, -7
  %91 = getelementptr inbounds [64 x i32], ptr %4, i32 0, i32 %90
  %92 = load i32, ptr %91, align 4, !tbaa !20
  %93 = shl i32 %79, 15
  %94 = lshr i32 %79, 1
  %95 = lshr i32 %94, 16
  %96 = or i32 %93, %95
  %97 = shl i32 %79, 13
  %98 = lshr i32 %94, 18
  %99 = or i32 %97, %98
  %100 = xor i32 %96, %99
  %101 = lshr i32 %79, 10
  %102 = xor i32 %100, %101
  %103 = add i32 %92, %72
  %104 = add i32 %103, %89
  %105 = add i32 %104, %102
  %106 = getelementptr inbounds [64 x i32], ptr %4, i32 0, i32 %73
  store i32 %105, ptr %106, align 4, !tbaa !20
  %107 = add nuw nsw i32 %73, 1
  %108 = icmp eq i32 %107, 64
  br i1 %108, label %68, label %71, !llvm.loop !22

109:                                              ; preds = %109, %68
  %110 = phi i32 [ %70, %68 ], [ %160, %109 ]
  %111 = phi i32 [ 0, %68 ], [ %162, %109 ]
  %112 = phi i32 [ %69, %68 ], [ %161, %109 ]
  %113 = load i32, ptr %23, align 4, !tbaa !20
  %114 = and i32 %113, %110
  %115 = xor i32 %110, -1
  %116 = load i32, ptr %24, align 4, !tbaa !20
  %117 = and i32 %116, %115
  %118 = load i32, ptr %25, align 4, !tbaa !20
  %119 = load i32, ptr %26, align 4, !tbaa !20
  %120 = xor i32 %119, %118
  %121 = and i32 %120, %112
  %122 = and i32 %119, %118
  %123 = xor i32 %121, %122
  %124 = load i32, ptr %27, align 4, !tbaa !20
  %125 = shl i32 %110, 26
  %126 = lshr i32 %110, 1
  %127 = lshr i32 %126, 5
  %128 = or i32 %125, %127
  %129 = shl i32 %110, 21
  %130 = lshr i32 %126, 10
  %131 = or i32 %129, %130
  %132 = xor i32 %128, %131
  %133 = shl i32 %110, 7
  %134 = lshr i32 %126, 24
  %135 = or i32 %133, %134
  %136 = xor i32 %132, %135
  %137 = getelementptr inbounds [64 x i32], ptr @constants, i32 0, i32 %111
  %138 = load i32, ptr %137, align 4, !tbaa !20
  %139 = getelementptr inbounds [64 x i32], ptr %4, i32 0, i32 %111
  %140 = load i32, ptr %139, align 4, !tbaa !20
  %141 = add i32 %114, %136
  %142 = add i32 %141, %117
  %143 = add i32 %142, %124
  %144 = add i32 %143, %138
  %145 = add i32 %144, %140
  %146 = shl i32 %112, 30
  %147 = lshr i32 %112, 1
  %148 = lshr i32 %147, 1
  %149 = or i32 %146, %148
  %150 = shl i32 %112, 19
  %151 = lshr i32 %147, 12
  %152 = or i32 %150, %151
  %153 = xor i32 %149, %152
  %154 = shl i32 %112, 10
  %155 = lshr i32 %147, 21
  %156 = or i32 %154, %155
  %157 = xor i32 %153, %156
  %158 = add i32 %123, %157
  call void @llvm.memmove.p0.p0.i32(ptr noundef nonnull align 4 dereferenceable(28) %25, ptr noundef nonnull align 4 dereferenceable(28) %5, i32 28, i1 false)
  %159 = load i32, ptr %22, align 4, !tbaa !20
  %160 = add i32 %159, %145
  store i32 %160, ptr %22, align 4, !tbaa !20
  %161 = add i32 %158, %145
  store i32 %161, ptr %5, align 4, !tbaa !20
  %162 = add nuw nsw i32 %111, 1
  %163 = icmp eq i32 %162, 64
  br i1 %163, label %164, label %109, !llvm.loop !23

164:                                              ; preds = %109
  %165 = load i32, ptr %0, align 4, !tbaa !20
  %166 = add i32 %165, %161
  store i32 %166, ptr %0, align 4, !tbaa !20
  %167 = load i32, ptr %25, align 4, !tbaa !20
  %168 = load i32, ptr %14, align 4, !tbaa !20
  %169 = add i32 %168, %167
  store i32 %169, ptr %14, align 4, !tbaa !20
  %170 = load i32, ptr %26, align 4, !tbaa !20
  %171 = load i32, ptr %15, align 4, !tbaa !20
  %172 = add i32 %171, %170
  store i32 %172, ptr %15, align 4, !tbaa !20
  %173 = load i32, ptr %28, align 4, !tbaa !20
  %174 = load i32, ptr %16, align 4, !tbaa !20
  %175 = add i32 %174, %173
  store i32 %175, ptr %16, align 4, !tbaa !20
  %176 = load i32, ptr %17, align 4, !tbaa !20
  %177 = add i32 %176, %160
  store i32 %177, ptr %17, align 4, !tbaa !20
  %178 = load i32, ptr %23, align 4, !tbaa !20
  %179 = load i32, ptr %18, align 4, !tbaa !20
  %180 = add i32 %179, %178
  store i32 %180, ptr %18, align 4, !tbaa !20
  %181 = load i32, ptr %24, align 4, !tbaa !20
  %182 = load i32, ptr %19, align 4, !tbaa !20
  %183 = add i32 %182, %181
  store i32 %183, ptr %19, align 4, !tbaa !20
  %184 = load i32, ptr %27, align 4, !tbaa !20
  %185 = load i32, ptr %20, align 4, !tbaa !20
  %186 = add i32 %185, %184
  store i32 %186, ptr %20, align 4, !tbaa !20
  call void @llvm.lifetime.end.p0(i64 32, ptr nonnull %5)
  call void @llvm.lifetime.end.p0(i64 256, ptr nonnull %4) #10
  store i32 0, ptr %12, align 8, !tbaa !12
  br label %187

187:                                              ; preds = %164, %29
  %188 = phi i32 [ 0, %164 ], [ %37, %29 ]
  %189 = icmp eq i32 %39, 0
  br i1 %189, label %190, label %29, !llvm.loop !24

190:                                              ; preds = %187, %3
  ret void
}

; Function Attrs: nofree norecurse nosync nounwind memory(readwrite, inaccessiblemem: none)
define internal fastcc void @end(ptr nocapture noundef %0, ptr nocapture noundef writeonly %1) unnamed_addr #6 {
  %3 = alloca [8 x i8], align 1
  %4 = getelementptr inbounds i8, ptr %0, i32 32
  %5 = load i64, ptr %4, align 8, !tbaa !8
  %6 = shl i64 %5, 3
  call void @llvm.lifetime.start.p0(i64 8, ptr nonnull %3) #10
  tail call fastcc void @add(ptr noundef %0, ptr noundef nonnull @.str.4, i32 noundef 1)
  %7 = getelementptr inbounds i8, ptr %0, i32 104
  %8 = load i32, ptr %7, align 8, !tbaa !12
  %9 = icmp eq i32 %8, 56
  br i1 %9, label %10, label %33

10:                                               ; preds = %33, %2
  %11 = lshr i64 %6, 56
  %12 = trunc nuw i64 %11 to i8
  store i8 %12, ptr %3, align 1, !tbaa !5
  %13 = lshr i64 %6, 48
  %14 = trunc i64 %13 to i8
  %15 = getelementptr inbounds i8, ptr %3, i32 1
  store i8 %14, ptr %15, align 1, !tbaa !5
  %16 = lshr i64 %6, 40
  %17 = trunc i64 %16 to i8
  %18 = getelementptr inbounds i8, ptr %3, i32 2
  store i8 %17, ptr %18, align 1, !tbaa !5
  %19 = lshr i64 %6, 32
  %20 = trunc i64 %19 to i8
  %21 = getelementptr inbounds i8, ptr %3, i32 3
  store i8 %20, ptr %21, align 1, !tbaa !5
  %22 = lshr i64 %6, 24
  %23 = trunc i64 %22 to i8
  %24 = getelementptr inbounds i8, ptr %3, i32 4
  store i8 %23, ptr %24, align 1, !tbaa !5
  %25 = lshr i64 %6, 16
  %26 = trunc i64 %25 to i8
  %27 = getelementptr inbounds i8, ptr %3, i32 5
  store i8 %26, ptr %27, align 1, !tbaa !5
  %28 = lshr i64 %6, 8
  %29 = trunc i64 %28 to i8
  %30 = getelementptr inbounds i8, ptr %3, i32 6
  store i8 %29, ptr %30, align 1, !tbaa !5
  %31 = trunc i64 %6 to i8
  %32 = getelementptr inbounds i8, ptr %3, i32 7
  store i8 %31, ptr %32, align 1, !tbaa !5
  call fastcc void @add(ptr noundef nonnull %0, ptr noundef nonnull %3, i32 noundef 8)
  br label %37

33:                                               ; preds = %33, %2
  tail call fastcc void @add(ptr noundef nonnull %0, ptr noundef nonnull @.str.5, i32 noundef 1)
  %34 = load i32, ptr %7, align 8, !tbaa !12
  %35 = icmp eq i32 %34, 56
  br i1 %35, label %10, label %33, !llvm.loop !25

36:                                               ; preds = %37
  call void @llvm.lifetime.end.p0(i64 8, ptr nonnull %3) #10
  ret void

37:                                               ; preds = %37, %10
  %38 = phi i32 [ 0, %10 ], [ %48, %37 ]
  %39 = lshr i32 %38, 2
  %40 = getelementptr inbounds [8 x i32], ptr %0, i32 0, i32 %39
  %41 = load i32, ptr %40, align 4, !tbaa !20
  %42 = shl nuw nsw i32 %38, 3
  %43 = and i32 %42, 24
  %44 = xor i32 %43, 24
  %45 = lshr i32 %41, %44
  %46 = trunc i32 %45 to i8
  %47 = getelementptr inbounds i8, ptr %1, i32 %38
  store i8 %46, ptr %47, align 1, !tbaa !5
  %48 = add nuw nsw i32 %38, 1
  %49 = icmp eq i32 %48, 32
  br i1 %49, label %36, label %37, !llvm.loop !26
}

; Function Attrs: nocallback nofree nosync nounwind willreturn memory(argmem: readwrite)
declare void @llvm.lifetime.end.p0(i64 immarg, ptr nocapture) #1

; Function Attrs: nounwind optsize
define internal i32 @__print_unsigned(ptr nocapture noundef %0, i64 noundef %1, i32 noundef %2, i32 noundef %3, i32 noundef %4, i32 noundef %5) local_unnamed_addr #2 {
  %7 = alloca [24 x i8], align 1
  call void @llvm.lifetime.start.p0(i64 24, ptr nonnull %7) #10
  %8 = and i32 %3, 32
  %9 = icmp eq i32 %8, 0
  %10 = select i1 %9, ptr @.str.9, ptr @.str.8.14
  %11 = icmp ult i64 %1, 4294967296
  br i1 %11, label %14, label %12

12:                                               ; preds = %6
  %13 = zext i32 %2 to i64
  br label %29

14:                                               ; preds = %6
  %15 = trunc nuw i64 %1 to i32
  %16 = icmp eq i32 %15, 0
  br i1 %16, label %41, label %17

17:                                               ; preds = %17, %14
  %18 = phi i32 [ %21, %17 ], [ %15, %14 ]
  %19 = phi i32 [ %26, %17 ], [ 24, %14 ]
  %20 = freeze i32 %18
  %21 = udiv i32 %20, %2
  %22 = mul i32 %21, %2
  %23 = sub i32 %20, %22
  %24 = getelementptr inbounds i8, ptr %10, i32 %23
  %25 = load i8, ptr %24, align 1, !tbaa !5
  %26 = add nsw i32 %19, -1
  %27 = getelementptr inbounds i8, ptr %7, i32 %26
  store i8 %25, ptr %27, align 1, !tbaa !5
  %28 = icmp ult i32 %18, %2
  br i1 %28, label %41, label %17, !llvm.loop !27

29:                                               ; preds = %29, %12
  %30 = phi i32 [ 24, %12 ], [ %38, %29 ]
  %31 = phi i64 [ %1, %12 ], [ %32, %29 ]
  %32 = udiv i64 %31, %13
  %33 = mul i64 %32, %13
  %34 = sub i64 %31, %33
  %35 = trunc nuw i64 %34 to i32
  %36 = getelementptr inbounds i8, ptr %10, i32 %35
  %37 = load i8, ptr %36, align 1, !tbaa !5
  %38 = add nsw i32 %30, -1
  %39 = getelementptr inbounds i8, ptr %7, i32 %38
  store i8 %37, ptr %39, align 1, !tbaa !5
  %40 = icmp ult i64 %31, %13
  br i1 %40, label %41, label %29, !llvm.loop !28

41:                                               ; preds = %29, %17, %14
  %42 = phi i32 [ 24, %14 ], [ %26, %17 ], [ %38, %29 ]
  %43 = icmp eq i64 %1, 0
  %44 = icmp ne i32 %5, 0
  %45 = and i1 %43, %44
  br i1 %45, label %46, label %49

46:                                               ; preds = %41
  %47 = add nsw i32 %42, -1
  %48 = getelementptr inbounds i8, ptr %7, i32 %47
  store i8 48, ptr %48, align 1, !tbaa !5
  br label %49

49:                                               ; preds = %46, %41
  %50 = phi i32 [ %47, %46 ], [ %42, %41 ]
  %51 = getelementptr inbounds i8, ptr %7, i32 %50
  %52 = and i32 %3, 8
  %53 = icmp ne i32 %52, 0
  %54 = icmp eq i32 %2, 8
  %55 = and i1 %54, %53
  %56 = sub nsw i32 24, %50
  %57 = icmp sge i32 %56, %5
  %58 = select i1 %55, i1 %57, i1 false
  br i1 %58, label %59, label %66

59:                                               ; preds = %49
  %60 = icmp eq i32 %50, 24
  br i1 %60, label %64, label %61

61:                                               ; preds = %59
  %62 = load i8, ptr %51, align 1, !tbaa !5
  %63 = icmp eq i8 %62, 48
  br i1 %63, label %66, label %64

64:                                               ; preds = %61, %59
  %65 = getelementptr inbounds i8, ptr %51, i32 -1
  store i8 48, ptr %65, align 1, !tbaa !5
  br label %66

66:                                               ; preds = %64, %61, %49
  %67 = phi ptr [ %65, %64 ], [ %51, %61 ], [ %51, %49 ]
  %68 = getelementptr inbounds i8, ptr %7, i32 24
  %69 = ptrtoint ptr %68 to i32
  %70 = icmp eq i32 %2, 16
  %71 = icmp ne i64 %1, 0
  %72 = and i1 %71, %70
  %73 = and i1 %72, %53
  %74 = select i1 %9, ptr @.str.6, ptr @.str.5.15
  %75 = select i1 %73, ptr %74, ptr @.str.8
  %76 = ptrtoint ptr %67 to i32
  %77 = sub i32 %69, %76
  %78 = call fastcc i32 @number(ptr noundef %0, ptr noundef nonnull %75, ptr noundef nonnull %67, i32 noundef %77, i32 noundef %3, i32 noundef %4, i32 noundef %5) #11
  call void @llvm.lifetime.end.p0(i64 24, ptr nonnull %7) #10
  ret i32 %78
}

; Function Attrs: nounwind optsize
define internal noundef i32 @__print_text(ptr nocapture noundef %0, ptr nocapture noundef readonly %1, i32 noundef returned %2) local_unnamed_addr #2 {
  %4 = load i8, ptr %0, align 4, !tbaa !29, !alias.scope !32, !noalias !35
  %5 = icmp eq i8 %4, 0
  %6 = icmp eq i32 %2, 0
  %7 = or i1 %6, %5
  br i1 %7, label %16, label %8

8:                                                ; preds = %8, %3
  %9 = phi i32 [ %14, %8 ], [ 0, %3 ]
  %10 = getelementptr inbounds i8, ptr %1, i32 %9
  %11 = load i8, ptr %10, align 1, !tbaa !5, !alias.scope !35, !noalias !32
  %12 = zext i8 %11 to i32
  %13 = tail call i32 @fputc(i32 noundef %12, ptr noundef nonnull %0) #11, !noalias !35
  %14 = add nuw i32 %9, 1
  %15 = icmp eq i32 %14, %2
  br i1 %15, label %16, label %8, !llvm.loop !37

16:                                               ; preds = %8, %3
  ret i32 %2
}

; Function Attrs: nounwind optsize
define internal i32 @__print_string(ptr nocapture noundef %0, ptr noundef %1, i32 noundef %2, i32 noundef %3, i32 noundef %4) local_unnamed_addr #2 {
  %6 = icmp eq ptr %1, null
  %7 = icmp ult i32 %4, 6
  %8 = select i1 %7, ptr @.str.8, ptr @.str.1.9
  %9 = select i1 %6, ptr %8, ptr %1
  %10 = icmp slt i32 %4, 0
  br i1 %10, label %11, label %20

11:                                               ; preds = %11, %5
  %12 = phi ptr [ %15, %11 ], [ %9, %5 ]
  %13 = load i8, ptr %12, align 1, !tbaa !5
  %14 = icmp eq i8 %13, 0
  %15 = getelementptr inbounds i8, ptr %12, i32 1
  br i1 %14, label %16, label %11, !llvm.loop !19

16:                                               ; preds = %11
  %17 = ptrtoint ptr %12 to i32
  %18 = ptrtoint ptr %9 to i32
  %19 = sub i32 %17, %18
  br label %30

20:                                               ; preds = %5
  %21 = icmp eq i32 %4, 0
  br i1 %21, label %30, label %22

22:                                               ; preds = %27, %20
  %23 = phi i32 [ %28, %27 ], [ 0, %20 ]
  %24 = getelementptr inbounds i8, ptr %9, i32 %23
  %25 = load i8, ptr %24, align 1, !tbaa !5
  %26 = icmp eq i8 %25, 0
  br i1 %26, label %30, label %27

27:                                               ; preds = %22
  %28 = add nuw nsw i32 %23, 1
  %29 = icmp eq i32 %28, %4
  br i1 %29, label %30, label %22, !llvm.loop !38

30:                                               ; preds = %27, %22, %20, %16
  %31 = phi i32 [ %19, %16 ], [ 0, %20 ], [ %23, %22 ], [ %4, %27 ]
  %32 = tail call fastcc i32 @padded(ptr noundef %0, ptr noundef nonnull %9, i32 noundef %31, i32 noundef %2, i32 noundef %3) #11
  ret i32 %32
}

; Function Attrs: nocallback nofree nounwind willreturn memory(argmem: write)
declare void @llvm.memset.p0.i32(ptr nocapture writeonly, i8, i32, i1 immarg) #7

; Function Attrs: nounwind optsize
define internal fastcc i32 @padded(ptr nocapture noundef %0, ptr nocapture noundef readonly %1, i32 noundef %2, i32 noundef %3, i32 noundef %4) unnamed_addr #2 {
  %6 = icmp slt i32 %4, 0
  %7 = lshr i32 %4, 31
  %8 = icmp ne i32 %7, 0
  %9 = sub i32 0, %4
  %10 = select i1 %8, i32 %9, i32 %4
  %11 = sub nsw i32 %10, %2
  %12 = and i32 %3, 1
  %13 = icmp ne i32 %12, 0
  %14 = or i1 %6, %13
  br i1 %14, label %24, label %15

15:                                               ; preds = %5
  %16 = icmp sgt i32 %11, 0
  br i1 %16, label %17, label %22

17:                                               ; preds = %17, %15
  %18 = phi i32 [ %20, %17 ], [ 0, %15 ]
  %19 = tail call i32 @fputc(i32 noundef 32, ptr noundef %0) #11
  %20 = add nuw nsw i32 %18, 1
  %21 = icmp eq i32 %20, %11
  br i1 %21, label %22, label %17, !llvm.loop !39

22:                                               ; preds = %17, %15
  %23 = tail call noundef i32 @llvm.smax.i32(i32 %11, i32 0)
  br label %24

24:                                               ; preds = %22, %5
  %25 = phi i32 [ %23, %22 ], [ 0, %5 ]
  %26 = load i8, ptr %0, align 4, !tbaa !29, !alias.scope !40, !noalias !43
  %27 = icmp eq i8 %26, 0
  %28 = icmp eq i32 %2, 0
  %29 = or i1 %28, %27
  br i1 %29, label %38, label %30

30:                                               ; preds = %30, %24
  %31 = phi i32 [ %36, %30 ], [ 0, %24 ]
  %32 = getelementptr inbounds i8, ptr %1, i32 %31
  %33 = load i8, ptr %32, align 1, !tbaa !5, !alias.scope !43, !noalias !40
  %34 = zext i8 %33 to i32
  %35 = tail call i32 @fputc(i32 noundef %34, ptr noundef nonnull %0) #11, !noalias !43
  %36 = add nuw i32 %31, 1
  %37 = icmp eq i32 %36, %2
  br i1 %37, label %38, label %30, !llvm.loop !37

38:                                               ; preds = %30, %24
  br i1 %14, label %39, label %48

39:                                               ; preds = %38
  %40 = icmp sgt i32 %11, 0
  br i1 %40, label %41, label %46

41:                                               ; preds = %41, %39
  %42 = phi i32 [ %44, %41 ], [ 0, %39 ]
  %43 = tail call i32 @fputc(i32 noundef 32, ptr noundef nonnull %0) #11
  %44 = add nuw nsw i32 %42, 1
  %45 = icmp eq i32 %44, %11
  br i1 %45, label %46, label %41, !llvm.loop !39

46:                                               ; preds = %41, %39
  %47 = tail call noundef i32 @llvm.smax.i32(i32 %11, i32 0)
  br label %48

48:                                               ; preds = %46, %38
  %49 = phi i32 [ %47, %46 ], [ 0, %38 ]
  %50 = add nsw i32 %25, %2
  %51 = add nsw i32 %50, %49
  ret i32 %51
}

; Function Attrs: nounwind optsize
define internal range(i32 -1, 256) i32 @fputc(i32 noundef %0, ptr nocapture noundef %1) local_unnamed_addr #2 {
  %3 = load i8, ptr %1, align 4, !tbaa !29
  switch i8 %3, label %17 [
    i8 1, label %4
    i8 3, label %6
    i8 0, label %19
  ]

4:                                                ; preds = %2
  %5 = tail call i32 @putchar(i32 noundef %0) #12
  br label %17

6:                                                ; preds = %2
  %7 = getelementptr inbounds i8, ptr %1, i32 8
  %8 = load i32, ptr %7, align 4, !tbaa !45
  %9 = icmp eq i32 %8, 0
  br i1 %9, label %17, label %10

10:                                               ; preds = %6
  %11 = trunc i32 %0 to i8
  %12 = getelementptr inbounds i8, ptr %1, i32 4
  %13 = load ptr, ptr %12, align 4, !tbaa !46
  %14 = getelementptr inbounds i8, ptr %13, i32 1
  store ptr %14, ptr %12, align 4, !tbaa !46
  store i8 %11, ptr %13, align 1, !tbaa !5
  %15 = load i32, ptr %7, align 4, !tbaa !45
  %16 = add i32 %15, -1
  store i32 %16, ptr %7, align 4, !tbaa !45
  br label %17

17:                                               ; preds = %10, %6, %4, %2
  %18 = and i32 %0, 255
  br label %19

19:                                               ; preds = %17, %2
  %20 = phi i32 [ %18, %17 ], [ -1, %2 ]
  ret i32 %20
}

; Function Attrs: nocallback nofree nosync nounwind speculatable willreturn memory(none)
declare i32 @llvm.smax.i32(i32, i32) #8

; Function Attrs: optsize
declare dso_local i32 @putchar(i32 noundef) local_unnamed_addr #9

; Function Attrs: nounwind optsize
define internal fastcc i32 @number(ptr nocapture noundef %0, ptr noundef %1, ptr nocapture noundef readonly %2, i32 noundef %3, i32 noundef %4, i32 noundef %5, i32 noundef %6) unnamed_addr #2 {
  br label %8

8:                                                ; preds = %8, %7
  %9 = phi ptr [ %1, %7 ], [ %12, %8 ]
  %10 = load i8, ptr %9, align 1, !tbaa !5
  %11 = icmp eq i8 %10, 0
  %12 = getelementptr inbounds i8, ptr %9, i32 1
  br i1 %11, label %13, label %8, !llvm.loop !19

13:                                               ; preds = %8
  %14 = ptrtoint ptr %9 to i32
  %15 = ptrtoint ptr %1 to i32
  %16 = sub i32 %14, %15
  %17 = sub nsw i32 %6, %3
  %18 = lshr i32 %5, 31
  %19 = icmp ne i32 %18, 0
  %20 = sub i32 0, %5
  %21 = select i1 %19, i32 %20, i32 %5
  %22 = tail call i32 @llvm.smax.i32(i32 %17, i32 0)
  %23 = icmp slt i32 %6, 0
  %24 = and i32 %4, 16
  %25 = icmp ne i32 %24, 0
  %26 = and i1 %25, %23
  %27 = and i32 %4, 1
  %28 = or i32 %18, %27
  %29 = icmp eq i32 %28, 0
  %30 = and i1 %26, %29
  %31 = add i32 %16, %3
  %32 = icmp sgt i32 %21, %31
  %33 = select i1 %30, i1 %32, i1 false
  %34 = sub i32 %21, %31
  %35 = select i1 %33, i32 %34, i32 %22
  %36 = add i32 %31, %35
  %37 = sub i32 %21, %36
  br i1 %29, label %38, label %47

38:                                               ; preds = %13
  %39 = icmp sgt i32 %37, 0
  br i1 %39, label %40, label %45

40:                                               ; preds = %40, %38
  %41 = phi i32 [ %43, %40 ], [ 0, %38 ]
  %42 = tail call i32 @fputc(i32 noundef 32, ptr noundef %0) #11
  %43 = add nuw nsw i32 %41, 1
  %44 = icmp eq i32 %43, %37
  br i1 %44, label %45, label %40, !llvm.loop !39

45:                                               ; preds = %40, %38
  %46 = tail call noundef i32 @llvm.smax.i32(i32 %37, i32 0)
  br label %47

47:                                               ; preds = %45, %13
  %48 = phi i32 [ 0, %13 ], [ %46, %45 ]
  %49 = load i8, ptr %0, align 4, !tbaa !29, !alias.scope !47, !noalias !50
  %50 = icmp eq i8 %49, 0
  %51 = icmp eq ptr %9, %1
  %52 = or i1 %51, %50
  br i1 %52, label %61, label %53

53:                                               ; preds = %53, %47
  %54 = phi i32 [ %59, %53 ], [ 0, %47 ]
  %55 = getelementptr inbounds i8, ptr %1, i32 %54
  %56 = load i8, ptr %55, align 1, !tbaa !5, !alias.scope !50, !noalias !47
  %57 = zext i8 %56 to i32
  %58 = tail call i32 @fputc(i32 noundef %57, ptr noundef nonnull %0) #11, !noalias !50
  %59 = add nuw i32 %54, 1
  %60 = icmp eq i32 %59, %16
  br i1 %60, label %61, label %53, !llvm.loop !37

61:                                               ; preds = %53, %47
  %62 = icmp sgt i32 %35, 0
  br i1 %62, label %63, label %68

63:                                               ; preds = %63, %61
  %64 = phi i32 [ %66, %63 ], [ 0, %61 ]
  %65 = tail call i32 @fputc(i32 noundef 48, ptr noundef nonnull %0) #11
  %66 = add nuw nsw i32 %64, 1
  %67 = icmp eq i32 %66, %35
  br i1 %67, label %68, label %63, !llvm.loop !39

68:                                               ; preds = %63, %61
  %69 = tail call noundef i32 @llvm.smax.i32(i32 %35, i32 0)
  %70 = load i8, ptr %0, align 4, !tbaa !29, !alias.scope !52, !noalias !55
  %71 = icmp eq i8 %70, 0
  %72 = icmp eq i32 %3, 0
  %73 = or i1 %72, %71
  br i1 %73, label %82, label %74

74:                                               ; preds = %74, %68
  %75 = phi i32 [ %80, %74 ], [ 0, %68 ]
  %76 = getelementptr inbounds i8, ptr %2, i32 %75
  %77 = load i8, ptr %76, align 1, !tbaa !5, !alias.scope !55, !noalias !52
  %78 = zext i8 %77 to i32
  %79 = tail call i32 @fputc(i32 noundef %78, ptr noundef nonnull %0) #11, !noalias !55
  %80 = add nuw i32 %75, 1
  %81 = icmp eq i32 %80, %3
  br i1 %81, label %82, label %74, !llvm.loop !37

82:                                               ; preds = %74, %68
  %83 = add i32 %31, %69
  %84 = add i32 %83, %48
  br i1 %29, label %95, label %85

85:                                               ; preds = %82
  %86 = icmp sgt i32 %37, 0
  br i1 %86, label %87, label %92

87:                                               ; preds = %87, %85
  %88 = phi i32 [ %90, %87 ], [ 0, %85 ]
  %89 = tail call i32 @fputc(i32 noundef 32, ptr noundef nonnull %0) #11
  %90 = add nuw nsw i32 %88, 1
  %91 = icmp eq i32 %90, %37
  br i1 %91, label %92, label %87, !llvm.loop !39

92:                                               ; preds = %87, %85
  %93 = tail call noundef i32 @llvm.smax.i32(i32 %37, i32 0)
  %94 = add nsw i32 %84, %93
  br label %95

95:                                               ; preds = %92, %82
  %96 = phi i32 [ %94, %92 ], [ %84, %82 ]
  ret i32 %96
}

; Function Attrs: nocallback nofree nosync nounwind speculatable willreturn memory(none)
declare i32 @llvm.umin.i32(i32, i32) #8

; Function Attrs: nocallback nofree nounwind willreturn memory(argmem: readwrite)
declare void @llvm.memmove.p0.p0.i32(ptr nocapture writeonly, ptr nocapture readonly, i32, i1 immarg) #4

; Function Attrs: nofree norecurse nosync nounwind optsize memory(read, inaccessiblemem: none)
define internal fastcc i32 @span(ptr nocapture noundef readonly %0, ptr nocapture noundef readonly %1, i32 noundef %2) unnamed_addr #3 {
  %4 = alloca [256 x i8], align 1
  call void @llvm.lifetime.start.p0(i64 256, ptr nonnull %4) #10
  br label %5

5:                                                ; preds = %5, %3
  %6 = phi ptr [ %4, %3 ], [ %9, %5 ]
  %7 = phi i32 [ 256, %3 ], [ %8, %5 ]
  %8 = add nsw i32 %7, -1
  %9 = getelementptr inbounds i8, ptr %6, i32 1
  store i8 0, ptr %6, align 1, !tbaa !5
  %10 = icmp eq i32 %8, 0
  br i1 %10, label %11, label %5, !llvm.loop !57

11:                                               ; preds = %5
  %12 = load i8, ptr %1, align 1, !tbaa !5
  %13 = icmp eq i8 %12, 0
  br i1 %13, label %14, label %17

14:                                               ; preds = %17, %11
  %15 = load i8, ptr %0, align 1, !tbaa !5
  %16 = icmp eq i8 %15, 0
  br i1 %16, label %38, label %25

17:                                               ; preds = %17, %11
  %18 = phi i8 [ %23, %17 ], [ %12, %11 ]
  %19 = phi ptr [ %20, %17 ], [ %1, %11 ]
  %20 = getelementptr inbounds i8, ptr %19, i32 1
  %21 = zext i8 %18 to i32
  %22 = getelementptr inbounds [256 x i8], ptr %4, i32 0, i32 %21
  store i8 1, ptr %22, align 1, !tbaa !5
  %23 = load i8, ptr %20, align 1, !tbaa !5
  %24 = icmp eq i8 %23, 0
  br i1 %24, label %14, label %17, !llvm.loop !58

25:                                               ; preds = %33, %14
  %26 = phi i8 [ %36, %33 ], [ %15, %14 ]
  %27 = phi i32 [ %34, %33 ], [ 0, %14 ]
  %28 = zext i8 %26 to i32
  %29 = getelementptr inbounds [256 x i8], ptr %4, i32 0, i32 %28
  %30 = load i8, ptr %29, align 1, !tbaa !5
  %31 = zext i8 %30 to i32
  %32 = icmp eq i32 %31, %2
  br i1 %32, label %33, label %38

33:                                               ; preds = %25
  %34 = add i32 %27, 1
  %35 = getelementptr inbounds i8, ptr %0, i32 %34
  %36 = load i8, ptr %35, align 1, !tbaa !5
  %37 = icmp eq i8 %36, 0
  br i1 %37, label %38, label %25, !llvm.loop !59

38:                                               ; preds = %33, %25, %14
  %39 = phi i32 [ 0, %14 ], [ %34, %33 ], [ %27, %25 ]
  call void @llvm.lifetime.end.p0(i64 256, ptr nonnull %4) #10
  ret i32 %39
}

; Function Attrs: nounwind optsize
define internal i32 @fgetc(ptr nocapture noundef %0) local_unnamed_addr #2 {
  %2 = load i8, ptr %0, align 4, !tbaa !29
  %3 = icmp eq i8 %2, 0
  br i1 %3, label %4, label %20

4:                                                ; preds = %1
  %5 = getelementptr inbounds i8, ptr %0, i32 2
  %6 = load i8, ptr %5, align 2, !tbaa !60
  %7 = icmp eq i8 %6, 0
  br i1 %7, label %12, label %8

8:                                                ; preds = %4
  store i8 0, ptr %5, align 2, !tbaa !60
  %9 = getelementptr inbounds i8, ptr %0, i32 3
  %10 = load i8, ptr %9, align 1, !tbaa !61
  %11 = zext i8 %10 to i32
  br label %20

12:                                               ; preds = %4
  %13 = getelementptr inbounds i8, ptr %0, i32 1
  %14 = load i8, ptr %13, align 1, !tbaa !62
  %15 = icmp eq i8 %14, 0
  br i1 %15, label %16, label %20

16:                                               ; preds = %12
  %17 = tail call i32 @getchar() #12
  %18 = icmp eq i32 %17, -1
  br i1 %18, label %19, label %20

19:                                               ; preds = %16
  store i8 1, ptr %13, align 1, !tbaa !62
  br label %20

20:                                               ; preds = %19, %16, %12, %8, %1
  %21 = phi i32 [ %11, %8 ], [ -1, %1 ], [ -1, %12 ], [ -1, %19 ], [ %17, %16 ]
  ret i32 %21
}

; Function Attrs: optsize
declare dso_local i32 @getchar() local_unnamed_addr #9

attributes #0 = { nounwind "no-trapping-math"="true" "stack-protector-buffer-size"="8" "target-cpu"="generic" "target-features"="+armv7-a,+dsp,+soft-float,-aes,-bf16,-d32,-dotprod,-fp-armv8,-fp-armv8d16,-fp-armv8d16sp,-fp-armv8sp,-fp16,-fp16fml,-fp64,-fpregs,-fullfp16,-mve,-mve.fp,-neon,-sha2,-thumb-mode,-vfp2,-vfp2sp,-vfp3,-vfp3d16,-vfp3d16sp,-vfp3sp,-vfp4,-vfp4d16,-vfp4d16sp,-vfp4sp" "use-soft-float"="true" }
attributes #1 = { nocallback nofree nosync nounwind willreturn memory(argmem: readwrite) }
attributes #2 = { nounwind optsize "no-builtins" "no-jump-tables"="true" "no-trapping-math"="true" "stack-protector-buffer-size"="8" "target-cpu"="generic" "target-features"="+armv7-a,+dsp,+soft-float,-aes,-bf16,-d32,-dotprod,-fp-armv8,-fp-armv8d16,-fp-armv8d16sp,-fp-armv8sp,-fp16,-fp16fml,-fp64,-fpregs,-fullfp16,-mve,-mve.fp,-neon,-sha2,-thumb-mode,-vfp2,-vfp2sp,-vfp3,-vfp3d16,-vfp3d16sp,-vfp3sp,-vfp4,-vfp4d16,-vfp4d16sp,-vfp4sp" "use-soft-float"="true" }
attributes #3 = { nofree norecurse nosync nounwind optsize memory(read, inaccessiblemem: none) "no-builtins" "no-jump-tables"="true" "no-trapping-math"="true" "stack-protector-buffer-size"="8" "target-cpu"="generic" "target-features"="+armv7-a,+dsp,+soft-float,-aes,-bf16,-d32,-dotprod,-fp-armv8,-fp-armv8d16,-fp-armv8d16sp,-fp-armv8sp,-fp16,-fp16fml,-fp64,-fpregs,-fullfp16,-mve,-mve.fp,-neon,-sha2,-thumb-mode,-vfp2,-vfp2sp,-vfp3,-vfp3d16,-vfp3d16sp,-vfp3sp,-vfp4,-vfp4d16,-vfp4d16sp,-vfp4sp" "use-soft-float"="true" }
attributes #4 = { nocallback nofree nounwind willreturn memory(argmem: readwrite) }
attributes #5 = { nofree norecurse nosync nounwind memory(readwrite, inaccessiblemem: none) "no-jump-tables"="true" "no-trapping-math"="true" "stack-protector-buffer-size"="8" "target-cpu"="generic" "target-features"="+armv7-a,+dsp,+soft-float,-aes,-bf16,-d32,-dotprod,-fp-armv8,-fp-armv8d16,-fp-armv8d16sp,-fp-armv8sp,-fp16,-fp16fml,-fp64,-fpregs,-fullfp16,-mve,-mve.fp,-neon,-sha2,-thumb-mode,-vfp2,-vfp2sp,-vfp3,-vfp3d16,-vfp3d16sp,-vfp3sp,-vfp4,-vfp4d16,-vfp4d16sp,-vfp4sp" "use-soft-float"="true" }
attributes #6 = { nofree norecurse nosync nounwind memory(readwrite, inaccessiblemem: none) "no-trapping-math"="true" "stack-protector-buffer-size"="8" "target-cpu"="generic" "target-features"="+armv7-a,+dsp,+soft-float,-aes,-bf16,-d32,-dotprod,-fp-armv8,-fp-armv8d16,-fp-armv8d16sp,-fp-armv8sp,-fp16,-fp16fml,-fp64,-fpregs,-fullfp16,-mve,-mve.fp,-neon,-sha2,-thumb-mode,-vfp2,-vfp2sp,-vfp3,-vfp3d16,-vfp3d16sp,-vfp3sp,-vfp4,-vfp4d16,-vfp4d16sp,-vfp4sp" "use-soft-float"="true" }
attributes #7 = { nocallback nofree nounwind willreturn memory(argmem: write) }
attributes #8 = { nocallback nofree nosync nounwind speculatable willreturn memory(none) }
attributes #9 = { optsize "no-builtins" "no-trapping-math"="true" "stack-protector-buffer-size"="8" "target-cpu"="generic" "target-features"="+armv7-a,+dsp,+soft-float,-aes,-bf16,-d32,-dotprod,-fp-armv8,-fp-armv8d16,-fp-armv8d16sp,-fp-armv8sp,-fp16,-fp16fml,-fp64,-fpregs,-fullfp16,-mve,-mve.fp,-neon,-sha2,-thumb-mode,-vfp2,-vfp2sp,-vfp3,-vfp3d16,-vfp3d16sp,-vfp3sp,-vfp4,-vfp4d16,-vfp4d16sp,-vfp4sp" "use-soft-float"="true" }
attributes #10 = { nounwind }
attributes #11 = { nobuiltin optsize "no-builtins" }
attributes #12 = { nobuiltin nounwind optsize "no-builtins" }

!llvm.ident = !{!0, !0, !0}
!llvm.module.flags = !{!1, !2, !3, !4}

!0 = !{!"Debian clang version 19.1.7 (3~deb12u1)"}
!1 = !{i32 7, !"Dwarf Version", i32 5}
!2 = !{i32 2, !"Debug Info Version", i32 3}
!3 = !{i32 1, !"wchar_size", i32 4}
!4 = !{i32 1, !"min_enum_size", i32 4}
!5 = !{!6, !6, i64 0}
!6 = !{!"omnipotent char", !7, i64 0}
!7 = !{!"Simple C/C++ TBAA"}
!8 = !{!9, !10, i64 32}
!9 = !{!"sha256", !6, i64 0, !10, i64 32, !6, i64 40, !11, i64 104}
!10 = !{!"long long", !6, i64 0}
!11 = !{!"int", !6, i64 0}
!12 = !{!9, !11, i64 104}
!13 = distinct !{!13, !14}
!14 = !{!"llvm.loop.mustprogress"}
!15 = distinct !{!15, !14}
!16 = distinct !{!16, !14}
!17 = distinct !{!17, !14}
!18 = distinct !{!18, !14}
!19 = distinct !{!19, !14}
!20 = !{!11, !11, i64 0}
!21 = distinct !{!21, !14}
!22 = distinct !{!22, !14}
!23 = distinct !{!23, !14}
!24 = distinct !{!24, !14}
!25 = distinct !{!25, !14}
!26 = distinct !{!26, !14}
!27 = distinct !{!27, !14}
!28 = distinct !{!28, !14}
!29 = !{!30, !6, i64 0}
!30 = !{!"__stream", !6, i64 0, !6, i64 1, !6, i64 2, !6, i64 3, !31, i64 4, !11, i64 8}
!31 = !{!"any pointer", !6, i64 0}
!32 = !{!33}
!33 = distinct !{!33, !34, !"fwrite: %stream"}
!34 = distinct !{!34, !"fwrite"}
!35 = !{!36}
!36 = distinct !{!36, !34, !"fwrite: %from"}
!37 = distinct !{!37, !14}
!38 = distinct !{!38, !14}
!39 = distinct !{!39, !14}
!40 = !{!41}
!41 = distinct !{!41, !42, !"fwrite: %stream"}
!42 = distinct !{!42, !"fwrite"}
!43 = !{!44}
!44 = distinct !{!44, !42, !"fwrite: %from"}
!45 = !{!30, !11, i64 8}
!46 = !{!30, !31, i64 4}
!47 = !{!48}
!48 = distinct !{!48, !49, !"fwrite: %stream"}
!49 = distinct !{!49, !"fwrite"}
!50 = !{!51}
!51 = distinct !{!51, !49, !"fwrite: %from"}
!52 = !{!53}
!53 = distinct !{!53, !54, !"fwrite: %stream"}
!54 = distinct !{!54, !"fwrite"}
!55 = !{!56}
!56 = distinct !{!56, !54, !"fwrite: %from"}
!57 = distinct !{!57, !14}
!58 = distinct !{!58, !14}
!59 = distinct !{!59, !14}
!60 = !{!30, !6, i64 2}
!61 = !{!30, !6, i64 3}
!62 = !{!30, !6, i64 1}
