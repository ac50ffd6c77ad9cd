source_filename = "sha256.c"
target datalayout = "e-m:e-p270:32:32-p271:32:32-p272:64:64-i64:64-i128:128-f80:128-n8:16:32:64-S128"
target triple = "x86_64-unknown-linux-gnu"

%struct.__stream = type { i8, i8, i8, i8, ptr, i64 }
%struct.sha256 = type { [8 x i32], i64, [64 x i8], i32 }

@main.text = internal global [8192 x i8] zeroinitializer, align 16
@main.line = internal global [256 x i8] zeroinitializer, align 16
@.str = private unnamed_addr constant [2 x i8] c"\0A\00", align 1
@.str.1 = private unnamed_addr constant [6 x i8] c"(all)\00", align 1
@.str.2 = private unnamed_addr constant [4 x i8] c"key\00", align 1
@.str.3 = private unnamed_addr constant [19 x i8] c"(all, under a key)\00", align 1
@begin.first = internal unnamed_addr constant [8 x i32] [i32 1779033703, i32 -1150833019, i32 1013904242, i32 -1521486534, i32 1359893119, i32 -1694144372, i32 528734635, i32 1541459225], align 16
@constants = internal unnamed_addr constant [64 x i32] [i32 1116352408, i32 1899447441, i32 -1245643825, i32 -373957723, i32 961987163, i32 1508970993, i32 -1841331548, i32 -1424204075, i32 -670586216, i32 310598401, i32 607225278, i32 1426881987, i32 1925078388, i32 -2132889090, i32 -1680079193, i32 -1046744716, i32 -459576895, i32 -272742522, i32 264347078, i32 604807628, i32 770255983, i32 1249150122, i32 1555081692, i32 1996064986, i32 -1740746414, i32 -1473132947, i32 -1341970488, i32 -1084653625, i32 -958395405, i32 -710438585, i32 113926993, i32 338241895, i32 666307205, i32 773529912, i32 1294757372, i32 1396182291, i32 1695183700, i32 1986661051, i32 -2117940946, i32 -1838011259, i32 -1564481375, i32 -1474664885, i32 -1035236496, i32 -949202525, i32 -778901479, i32 -694614492, i32 -200395387, i32 275423344, i32 430227734, i32 506948616, i32 659060556, i32 883997877, i32 958139571, i32 1322822218, i32 1537002063, i32 1747873779, i32 1955562222, i32 2024104815, i32 -2067236844, i32 -1933114872, i32 -1866530822, i32 -1538233109, i32 -1090935817, i32 -965641998], align 16
@.str.4 = private unnamed_addr constant [2 x i8] c"\80\00", align 1
@.str.5 = private unnamed_addr constant [1 x i8] zeroinitializer, align 1
@.str.7 = private unnamed_addr constant [6 x i8] c"  %s\0A\00", align 1
@.str.8 = private unnamed_addr constant [1 x i8] zeroinitializer, align 1
@.str.1.9 = private unnamed_addr constant [7 x i8] c"(null)\00", align 1
@.str.5.15 = private unnamed_addr constant [3 x i8] c"0X\00", align 1
@.str.6 = private unnamed_addr constant [3 x i8] c"0x\00", align 1
@__streams = internal global [3 x %struct.__stream] [%struct.__stream zeroinitializer, %struct.__stream { i8 1, i8 0, i8 0, i8 0, ptr null, i64 0 }, %struct.__stream { i8 2, i8 0, i8 0, i8 0, ptr null, i64 0 }], align 16
@.str.8.14 = private unnamed_addr constant [17 x i8] c"0123456789ABCDEF\00", align 1
@.str.9 = private unnamed_addr constant [17 x i8] c"0123456789abcdef\00", align 1

; Function Attrs: nounwind uwtable
define dso_local range(i32 0, 256) i32 @main() local_unnamed_addr #0 {
  %1 = alloca [64 x i8], align 16
  %2 = alloca [64 x i8], align 16
  %3 = alloca %struct.sha256, align 8
  %4 = alloca %struct.sha256, align 8
  %5 = alloca %struct.sha256, align 8
  %6 = alloca [32 x i8], align 16
  call void @llvm.lifetime.start.p0(i64 32, ptr nonnull %6) #10
  %7 = getelementptr inbounds i8, ptr %5, i64 32
  %8 = getelementptr inbounds i8, ptr %5, i64 104
  br label %9

9:                                                ; preds = %35, %0
  %10 = phi i64 [ 0, %0 ], [ %36, %35 ]
  %11 = phi i32 [ 0, %0 ], [ %37, %35 ]
  %12 = tail call ptr @fgets(ptr noundef nonnull @main.line, i32 noundef 256, ptr noundef nonnull @__streams)
  %13 = icmp eq ptr %12, null
  br i1 %13, label %38, label %14

14:                                               ; preds = %9
  %15 = tail call i64 @strlen(ptr noundef nonnull dereferenceable(1) @main.line) #10
  %16 = add i64 %15, %10
  %17 = icmp ult i64 %16, 8193
  br i1 %17, label %18, label %35

18:                                               ; preds = %14
  %19 = getelementptr inbounds i8, ptr @main.text, i64 %10
  tail call void @llvm.memcpy.p0.p0.i64(ptr nonnull align 1 %19, ptr nonnull align 16 @main.line, i64 %15, i1 false)
  %20 = tail call i64 @strcspn(ptr noundef nonnull @main.line, ptr noundef nonnull @.str)
  %21 = getelementptr inbounds [256 x i8], ptr @main.line, i64 0, i64 %20
  store i8 0, ptr %21, align 1, !tbaa !5
  %22 = tail call i64 @strlen(ptr noundef nonnull dereferenceable(1) @main.line) #10
  call void @llvm.lifetime.start.p0(i64 112, ptr nonnull %5) #10
  call void @llvm.memcpy.p0.p0.i64(ptr noundef nonnull align 8 dereferenceable(32) %5, ptr noundef nonnull align 16 dereferenceable(32) @begin.first, i64 32, i1 false)
  store i64 0, ptr %7, align 8, !tbaa !8
  store i32 0, ptr %8, align 8, !tbaa !12
  call fastcc void @add(ptr noundef nonnull %5, ptr noundef nonnull readonly @main.line, i64 noundef %22)
  call fastcc void @end(ptr noundef nonnull %5, ptr noundef nonnull %6)
  call void @llvm.lifetime.end.p0(i64 112, ptr nonnull %5) #10
  br label %23

23:                                               ; preds = %23, %18
  %24 = phi i64 [ 0, %18 ], [ %29, %23 ]
  %25 = getelementptr inbounds i8, ptr %6, i64 %24
  %26 = load i8, ptr %25, align 1, !tbaa !5
  %27 = zext i8 %26 to i64
  %28 = tail call i32 @__print_unsigned(ptr nonnull getelementptr inbounds (i8, ptr @__streams, i64 24), i64 %27, i32 16, i32 16, i32 2, i32 -1) #10
  %29 = add nuw nsw i64 %24, 1
  %30 = icmp eq i64 %29, 32
  br i1 %30, label %31, label %23, !llvm.loop !13

31:                                               ; preds = %23
  %32 = tail call i32 @__print_text(ptr nonnull getelementptr inbounds (i8, ptr @__streams, i64 24), ptr nonnull @.str.7, i64 2) #10
  %33 = tail call i32 @__print_string(ptr nonnull getelementptr inbounds (i8, ptr @__streams, i64 24), ptr nonnull @main.line, i32 0, i32 0, i32 -1) #10
  %34 = tail call i32 @__print_text(ptr nonnull getelementptr inbounds (i8, ptr @__streams, i64 24), ptr nonnull getelementptr inbounds (i8, ptr @.str.7, i64 4), i64 1) #10
  br label %35

35:                                               ; preds = %31, %14
  %36 = phi i64 [ %16, %31 ], [ %10, %14 ]
  %37 = phi i32 [ %11, %31 ], [ 1, %14 ]
  br i1 %17, label %9, label %82, !llvm.loop !16

38:                                               ; preds = %9
  call void @llvm.lifetime.start.p0(i64 112, ptr nonnull %4) #10
  call void @llvm.memcpy.p0.p0.i64(ptr noundef nonnull align 8 dereferenceable(32) %4, ptr noundef nonnull align 16 dereferenceable(32) @begin.first, i64 32, i1 false)
  %39 = getelementptr inbounds i8, ptr %4, i64 32
  store i64 0, ptr %39, align 8, !tbaa !8
  %40 = getelementptr inbounds i8, ptr %4, i64 104
  store i32 0, ptr %40, align 8, !tbaa !12
  call fastcc void @add(ptr noundef nonnull %4, ptr noundef nonnull readonly @main.text, i64 noundef %10)
  call fastcc void @end(ptr noundef nonnull %4, ptr noundef nonnull %6)
  call void @llvm.lifetime.end.p0(i64 112, ptr nonnull %4) #10
  br label %41

41:                                               ; preds = %41, %38
  %42 = phi i64 [ 0, %38 ], [ %47, %41 ]
  %43 = getelementptr inbounds i8, ptr %6, i64 %42
  %44 = load i8, ptr %43, align 1, !tbaa !5
  %45 = zext i8 %44 to i64
  %46 = tail call i32 @__print_unsigned(ptr nonnull getelementptr inbounds (i8, ptr @__streams, i64 24), i64 %45, i32 16, i32 16, i32 2, i32 -1) #10
  %47 = add nuw nsw i64 %42, 1
  %48 = icmp eq i64 %47, 32
  br i1 %48, label %49, label %41, !llvm.loop !17

49:                                               ; preds = %41
  %50 = tail call i32 @__print_text(ptr nonnull getelementptr inbounds (i8, ptr @__streams, i64 24), ptr nonnull @.str.7, i64 2) #10
  %51 = tail call i32 @__print_string(ptr nonnull getelementptr inbounds (i8, ptr @__streams, i64 24), ptr nonnull @.str.1, i32 0, i32 0, i32 -1) #10
  %52 = tail call i32 @__print_text(ptr nonnull getelementptr inbounds (i8, ptr @__streams, i64 24), ptr nonnull getelementptr inbounds (i8, ptr @.str.7, i64 4), i64 1) #10
  call void @llvm.lifetime.start.p0(i64 64, ptr nonnull %1) #10
  call void @llvm.lifetime.start.p0(i64 64, ptr nonnull %2) #10
  call void @llvm.lifetime.start.p0(i64 112, ptr nonnull %3) #10
  %53 = getelementptr inbounds i8, ptr %1, i64 3
  call void @llvm.memset.p0.i64(ptr noundef nonnull align 1 dereferenceable(61) %53, i8 0, i64 61, i1 false)
  call void @llvm.memcpy.p0.p0.i64(ptr noundef nonnull align 16 dereferenceable(3) %1, ptr noundef nonnull align 1 dereferenceable(3) @.str.2, i64 3, i1 false)
  %54 = getelementptr inbounds i8, ptr %2, i64 3
  call void @llvm.memset.p0.i64(ptr noundef nonnull align 1 dereferenceable(61) %54, i8 0, i64 61, i1 false)
  call void @llvm.memcpy.p0.p0.i64(ptr noundef nonnull align 16 dereferenceable(3) %2, ptr noundef nonnull align 1 dereferenceable(3) @.str.2, i64 3, i1 false)
  br label %55

55:                                               ; preds = %55, %49
  %56 = phi i64 [ 0, %49 ], [ %63, %55 ]
  %57 = getelementptr inbounds [64 x i8], ptr %1, i64 0, i64 %56
  %58 = load i8, ptr %57, align 1, !tbaa !5
  %59 = xor i8 %58, 54
  store i8 %59, ptr %57, align 1, !tbaa !5
  %60 = getelementptr inbounds [64 x i8], ptr %2, i64 0, i64 %56
  %61 = load i8, ptr %60, align 1, !tbaa !5
  %62 = xor i8 %61, 92
  store i8 %62, ptr %60, align 1, !tbaa !5
  %63 = add nuw nsw i64 %56, 1
  %64 = icmp eq i64 %63, 64
  br i1 %64, label %65, label %55, !llvm.loop !18

65:                                               ; preds = %55
  call void @llvm.memcpy.p0.p0.i64(ptr noundef nonnull align 8 dereferenceable(32) %3, ptr noundef nonnull align 16 dereferenceable(32) @begin.first, i64 32, i1 false)
  %66 = getelementptr inbounds i8, ptr %3, i64 32
  store i64 0, ptr %66, align 8, !tbaa !8
  %67 = getelementptr inbounds i8, ptr %3, i64 104
  store i32 0, ptr %67, align 8, !tbaa !12
  call fastcc void @add(ptr noundef nonnull %3, ptr noundef nonnull %1, i64 noundef 64)
  call fastcc void @add(ptr noundef nonnull %3, ptr noundef nonnull @main.text, i64 noundef %10)
  call fastcc void @end(ptr noundef nonnull %3, ptr noundef nonnull %6)
  call void @llvm.memcpy.p0.p0.i64(ptr noundef nonnull align 8 dereferenceable(32) %3, ptr noundef nonnull align 16 dereferenceable(32) @begin.first, i64 32, i1 false)
  store i64 0, ptr %66, align 8, !tbaa !8
  store i32 0, ptr %67, align 8, !tbaa !12
  call fastcc void @add(ptr noundef nonnull %3, ptr noundef nonnull %2, i64 noundef 64)
  call fastcc void @add(ptr noundef nonnull %3, ptr noundef nonnull %6, i64 noundef 32)
  call fastcc void @end(ptr noundef nonnull %3, ptr noundef nonnull %6)
  call void @llvm.lifetime.end.p0(i64 112, ptr nonnull %3) #10
  call void @llvm.lifetime.end.p0(i64 64, ptr nonnull %2) #10
  call void @llvm.lifetime.end.p0(i64 64, ptr nonnull %1) #10
  br label %68

68:                                               ; preds = %68, %65
  %69 = phi i64 [ 0, %65 ], [ %74, %68 ]
  %70 = getelementptr inbounds i8, ptr %6, i64 %69
  %71 = load i8, ptr %70, align 1, !tbaa !5
  %72 = zext i8 %71 to i64
  %73 = tail call i32 @__print_unsigned(ptr nonnull getelementptr inbounds (i8, ptr @__streams, i64 24), i64 %72, i32 16, i32 16, i32 2, i32 -1) #10
  %74 = add nuw nsw i64 %69, 1
  %75 = icmp eq i64 %74, 32
  br i1 %75, label %76, label %68, !llvm.loop !19

76:                                               ; preds = %68
  %77 = tail call i32 @__print_text(ptr nonnull getelementptr inbounds (i8, ptr @__streams, i64 24), ptr nonnull @.str.7, i64 2) #10
  %78 = tail call i32 @__print_string(ptr nonnull getelementptr inbounds (i8, ptr @__streams, i64 24), ptr nonnull @.str.3, i32 0, i32 0, i32 -1) #10
  %79 = tail call i32 @__print_text(ptr nonnull getelementptr inbounds (i8, ptr @__streams, i64 24), ptr nonnull getelementptr inbounds (i8, ptr @.str.7, i64 4), i64 1) #10
  %80 = load i8, ptr %6, align 16, !tbaa !5
  %81 = zext i8 %80 to i32
  br label %82

82:                                               ; preds = %76, %35
  %83 = phi i32 [ %81, %76 ], [ %37, %35 ]
  call void @llvm.lifetime.end.p0(i64 32, ptr nonnull %6) #10
  ret i32 %83
}

; Function Attrs: nocallback nofree nosync nounwind willreturn memory(argmem: readwrite)
declare void @llvm.lifetime.start.p0(i64 immarg, ptr nocapture) #1

; Function Attrs: nounwind optsize uwtable
define internal noundef ptr @fgets(ptr noalias noundef writeonly %0, i32 noundef %1, ptr noalias nocapture noundef %2) local_unnamed_addr #2 {
  %4 = icmp slt i32 %1, 1
  br i1 %4, label %23, label %5

5:                                                ; preds = %3
  %6 = icmp eq i32 %1, 1
  br i1 %6, label %21, label %7

7:                                                ; preds = %12, %5
  %8 = phi i32 [ %13, %12 ], [ %1, %5 ]
  %9 = phi ptr [ %15, %12 ], [ %0, %5 ]
  %10 = tail call i32 @fgetc(ptr noundef %2) #11
  %11 = icmp eq i32 %10, -1
  br i1 %11, label %19, label %12

12:                                               ; preds = %7
  %13 = add nsw i32 %8, -1
  %14 = trunc i32 %10 to i8
  %15 = getelementptr inbounds i8, ptr %9, i64 1
  store i8 %14, ptr %9, align 1, !tbaa !5
  %16 = icmp sgt i32 %8, 2
  %17 = icmp ne i32 %10, 10
  %18 = and i1 %16, %17
  br i1 %18, label %7, label %21, !llvm.loop !20

19:                                               ; preds = %7
  %20 = icmp eq ptr %9, %0
  br i1 %20, label %23, label %21

21:                                               ; preds = %19, %12, %5
  %22 = phi ptr [ %9, %19 ], [ %0, %5 ], [ %15, %12 ]
  store i8 0, ptr %22, align 1, !tbaa !5
  br label %23

23:                                               ; preds = %21, %19, %3
  %24 = phi ptr [ %0, %21 ], [ null, %3 ], [ null, %19 ]
  ret ptr %24
}

; Function Attrs: nofree norecurse nosync nounwind optsize memory(read, inaccessiblemem: none) uwtable
define internal noundef i64 @strlen(ptr noundef %0) local_unnamed_addr #3 {
  br label %2

2:                                                ; preds = %2, %1
  %3 = phi ptr [ %0, %1 ], [ %6, %2 ]
  %4 = load i8, ptr %3, align 1, !tbaa !5
  %5 = icmp eq i8 %4, 0
  %6 = getelementptr inbounds i8, ptr %3, i64 1
  br i1 %5, label %7, label %2, !llvm.loop !21

7:                                                ; preds = %2
  %8 = ptrtoint ptr %3 to i64
  %9 = ptrtoint ptr %0 to i64
  %10 = sub i64 %8, %9
  ret i64 %10
}

; Function Attrs: nocallback nofree nounwind willreturn memory(argmem: readwrite)
declare void @llvm.memcpy.p0.p0.i64(ptr noalias nocapture writeonly, ptr noalias nocapture readonly, i64, i1 immarg) #4

; Function Attrs: nofree norecurse nosync nounwind optsize memory(read, inaccessiblemem: none) uwtable
define internal i64 @strcspn(ptr nocapture noundef readonly %0, ptr nocapture noundef readonly %1) local_unnamed_addr #3 {
  %3 = tail call fastcc i64 @span(ptr noundef %0, ptr noundef %1, i32 noundef 0) #11
  ret i64 %3
}

; Function Attrs: nofree norecurse nosync nounwind memory(readwrite, inaccessiblemem: none) uwtable
define internal fastcc void @add(ptr nocapture noundef %0, ptr nocapture noundef readonly %1, i64 noundef %2) unnamed_addr #5 {
  %4 = alloca [64 x i32], align 16
  %5 = alloca [8 x i32], align 16
  %6 = getelementptr inbounds i8, ptr %0, i64 32
  %7 = load i64, ptr %6, align 8, !tbaa !8
  %8 = add i64 %7, %2
  store i64 %8, ptr %6, align 8, !tbaa !8
  %9 = icmp eq i64 %2, 0
  br i1 %9, label %167, label %10

10:                                               ; preds = %3
  %11 = getelementptr inbounds i8, ptr %0, i64 104
  %12 = getelementptr inbounds i8, ptr %0, i64 40
  %13 = getelementptr inbounds i8, ptr %5, i64 16
  %14 = getelementptr inbounds i8, ptr %5, i64 20
  %15 = getelementptr inbounds i8, ptr %5, i64 24
  %16 = getelementptr inbounds i8, ptr %5, i64 4
  %17 = getelementptr inbounds i8, ptr %5, i64 8
  %18 = getelementptr inbounds i8, ptr %5, i64 28
  br label %19

19:                                               ; preds = %165, %10
  %20 = phi i64 [ %2, %10 ], [ %31, %165 ]
  %21 = phi ptr [ %1, %10 ], [ %30, %165 ]
  %22 = load i32, ptr %11, align 8, !tbaa !12
  %23 = zext i32 %22 to i64
  %24 = sub nsw i64 64, %23
  %25 = tail call i64 @llvm.umin.i64(i64 %24, i64 %20)
  %26 = getelementptr inbounds i8, ptr %12, i64 %23
  tail call void @llvm.memcpy.p0.p0.i64(ptr nonnull align 1 %26, ptr align 1 %21, i64 %25, i1 false)
  %27 = load i32, ptr %11, align 8, !tbaa !12
  %28 = trunc i64 %25 to i32
  %29 = add i32 %27, %28
  store i32 %29, ptr %11, align 8, !tbaa !12
  %30 = getelementptr inbounds i8, ptr %21, i64 %25
  %31 = sub i64 %20, %25
  %32 = icmp eq i32 %29, 64
  br i1 %32, label %33, label %165

33:                                               ; preds = %19
  call void @llvm.lifetime.start.p0(i64 256, ptr nonnull %4) #10
  call void @llvm.lifetime.start.p0(i64 32, ptr nonnull %5) #10
  br label %34

34:                                               ; preds = %34, %33
  %35 = phi i64 [ 0, %33 ], [ %56, %34 ]
  %36 = shl nuw nsw i64 %35, 2
  %37 = getelementptr inbounds i8, ptr %12, i64 %36
  %38 = load i8, ptr %37, align 1, !tbaa !5
  %39 = zext i8 %38 to i32
  %40 = shl nuw i32 %39, 24
  %41 = getelementptr inbounds i8, ptr %37, i64 1
  %42 = load i8, ptr %41, align 1, !tbaa !5
  %43 = zext i8 %42 to i32
  %44 = shl nuw nsw i32 %43, 16
  %45 = or disjoint i32 %44, %40
  %46 = getelementptr inbounds i8, ptr %37, i64 2
  %47 = load i8, ptr %46, align 1, !tbaa !5
  %48 = zext i8 %47 to i32
  %49 = shl nuw nsw i32 %48, 8
  %50 = or disjoint i32 %45, %49
  %51 = getelementptr inbounds i8, ptr %37, i64 3
  %52 = load i8, ptr %51, align 1, !tbaa !5
  %53 = zext i8 %52 to i32
  %54 = or disjoint i32 %50, %53
  %55 = getelementptr inbounds [64 x i32], ptr %4, i64 0, i64 %35
  store i32 %54, ptr %55, align 4, !tbaa !22
  %56 = add nuw nsw i64 %35, 1
  %57 = icmp eq i64 %56, 16
  br i1 %57, label %60, label %34, !llvm.loop !23

58:                                               ; preds = %60
  call void @llvm.memcpy.p0.p0.i64(ptr noundef nonnull align 16 dereferenceable(32) %5, ptr noundef nonnull align 4 dereferenceable(32) %0, i64 32, i1 false)
  %59 = load i32, ptr %5, align 16, !tbaa !22
  br label %100

60:                                               ; preds = %60, %34
  %61 = phi i64 [ %98, %60 ], [ 16, %34 ]
  %62 = add nsw i64 %61, -15
  %63 = getelementptr inbounds [64 x i32], ptr %4, i64 0, i64 %62
  %64 = load i32, ptr %63, align 4, !tbaa !22
  %65 = add nsw i64 %61, -2
  %66 = getelementptr inbounds [64 x i32], ptr %4, i64 0, i64 %65
  %67 = load i32, ptr %66, align 4, !tbaa !22
  %68 = add nsw i64 %61, -16
  %69 = getelementptr inbounds [64 x i32], ptr %4, i64 0, i64 %68
  %70 = load i32, ptr %69, align 4, !tbaa !22
  %71 = shl i32 %64, 25
  %72 = lshr i32 %64, 1
  %73 = lshr i32 %72, 6
  %74 = or i32 %71, %73
  %75 = shl i32 %64, 14
  %76 = lshr i32 %72, 17
  %77 = or i32 %75, %76
  %78 = xor i32 %74, %77
  %79 = lshr i32 %64, 3
  %80 = xor i32 %78, %79
  %81 = add i32 %80, %70
  %82 = add nsw i64 %61, -7
  %83 = getelementptr inbounds [64 x i32], ptr %4, i64 0, i64 %82
  %84 = load i32, ptr %83, align 4, !tbaa !22
  %85 = add i32 %81, %84
  %86 = shl i32 %67, 15
  %87 = lshr i32 %67, 1
  %88 = lshr i32 %87, 16
  %89 = or i32 %86, %88
  %90 = shl i32 %67, 13
  %91 = lshr i32 %87, 18
  %92 = or i32 %90, %91
  %93 = xor i32 %89, %92
  %94 = lshr i32 %67, 10
  %95 = xor i32 %93, %94
  %96 = add i32 %85, %95
  %97 = getelementptr inbounds [64 x i32], ptr %4, i64 0, i64 %61
  store i32 %96, ptr %97, align 4, !tbaa !22
  %98 = add nuw nsw i64 %61, 1
  %99 = icmp eq i64 %98, 64
  br i1 %99, label %58, label %60, !llvm.loop !24

100:                                              ; preds = %100, %58
  %101 = phi i64 [ 0, %58 ], [ %153, %100 ]
  %102 = phi i32 [ %59, %58 ], [ %152, %100 ]
  %103 = load i32, ptr %13, align 16, !tbaa !22
  %104 = load i32, ptr %14, align 4, !tbaa !22
  %105 = and i32 %104, %103
  %106 = xor i32 %103, -1
  %107 = load i32, ptr %15, align 8, !tbaa !22
  %108 = and i32 %107, %106
  %109 = load i32, ptr %16, align 4, !tbaa !22
  %110 = load i32, ptr %17, align 8, !tbaa !22
  %111 = xor i32 %110, %109
  %112 = and i32 %111, %102
  %113 = and i32 %110, %109
  %114 = xor i32 %112, %113
  %115 = load i32, ptr %18, align 4, !tbaa !22
  %116 = shl i32 %103, 26
  %117 = lshr i32 %103, 1
  %118 = lshr i32 %117, 5
  %119 = or i32 %116, %118
  %120 = shl i32 %103, 21
  %121 = lshr i32 %117, 10
  %122 = or i32 %120, %121
  %123 = xor i32 %119, %122
  %124 = shl i32 %103, 7
  %125 = lshr i32 %117, 24
  %126 = or i32 %124, %125
  %127 = xor i32 %123, %126
  %128 = getelementptr inbounds [64 x i32], ptr @constants, i64 0, i64 %101
  %129 = load i32, ptr %128, align 4, !tbaa !22
  %130 = getelementptr inbounds [64 x i32], ptr %4, i64 0, i64 %101
  %131 = load i32, ptr %130, align 4, !tbaa !22
  %132 = add i32 %108, %105
  %133 = add i32 %132, %127
  %134 = add i32 %133, %115
  %135 = add i32 %134, %129
  %136 = add i32 %135, %131
  %137 = shl i32 %102, 30
  %138 = lshr i32 %102, 1
  %139 = lshr i32 %138, 1
  %140 = or i32 %137, %139
  %141 = shl i32 %102, 19
  %142 = lshr i32 %138, 12
  %143 = or i32 %141, %142
  %144 = xor i32 %140, %143
  %145 = shl i32 %102, 10
  %146 = lshr i32 %138, 21
  %147 = or i32 %145, %146
  %148 = xor i32 %144, %147
  %149 = add i32 %114, %148
  call void @llvm.memmove.p0.p0.i64(ptr noundef nonnull align 4 dereferenceable(28) %16, ptr noundef nonnull align 16 dereferenceable(28) %5, i64 28, i1 false)
  %150 = load i32, ptr %13, align 16, !tbaa !22
  %151 = add i32 %150, %136
  store i32 %151, ptr %13, align 16, !tbaa !22
  %152 = add i32 %149, %136
  store i32 %152, ptr %5, align 16, !tbaa !22
  %153 = add nuw nsw i64 %101, 1
  %154 = icmp eq i64 %153, 64
  br i1 %154, label %155, label %100, !llvm.loop !25

155:                                              ; preds = %155, %100
  %156 = phi i64 [ %162, %155 ], [ 0, %100 ]
  %157 = getelementptr inbounds [8 x i32], ptr %5, i64 0, i64 %156
  %158 = load i32, ptr %157, align 4, !tbaa !22
  %159 = getelementptr inbounds i32, ptr %0, i64 %156
  %160 = load i32, ptr %159, align 4, !tbaa !22
  %161 = add i32 %160, %158
  store i32 %161, ptr %159, align 4, !tbaa !22
  %162 = add nuw nsw i64 %156, 1
  %163 = icmp eq i64 %162, 8
  br i1 %163, label %164, label %155, !llvm.loop !26

164:                                              ; preds = %155
  call void @llvm.lifetime.end.p0(i64 32, ptr nonnull %5) #10
  call void @llvm.lifetime.end.p0(i64 256, ptr nonnull %4) #10
  store i32 0, ptr %11, align 8, !tbaa !12
  br label %165

165:                                              ; preds = %164, %19
  %166 = icmp eq i64 %31, 0
  br i1 %166, label %167, label %19, !llvm.loop !27

167:                                              ; preds = %165, %3
  ret void
}

; Function Attrs: nofree norecurse nosync nounwind memory(readwrite, inaccessiblemem: none) uwtable
define internal fastcc void @end(ptr nocapture noundef %0, ptr nocapture noundef writeonly %1) unnamed_addr #6 {
  %3 = alloca [8 x i8], align 1
  %4 = getelementptr inbounds i8, ptr %0, i64 32
  %5 = load i64, ptr %4, align 8, !tbaa !8
  %6 = shl i64 %5, 3
  call void @llvm.lifetime.start.p0(i64 8, ptr nonnull %3) #10
  tail call fastcc void @add(ptr noundef %0, ptr noundef nonnull @.str.4, i64 noundef 1)
  %7 = getelementptr inbounds i8, ptr %0, i64 104
  %8 = load i32, ptr %7, align 8, !tbaa !12
  %9 = icmp eq i32 %8, 56
  br i1 %9, label %10, label %11

10:                                               ; preds = %11, %2
  br label %15

11:                                               ; preds = %11, %2
  tail call fastcc void @add(ptr noundef %0, ptr noundef nonnull @.str.5, i64 noundef 1)
  %12 = load i32, ptr %7, align 8, !tbaa !12
  %13 = icmp eq i32 %12, 56
  br i1 %13, label %10, label %11, !llvm.loop !28

14:                                               ; preds = %15
  call fastcc void @add(ptr noundef %0, ptr noundef nonnull %3, i64 noundef 8)
  br label %25

15:                                               ; preds = %15, %10
  %16 = phi i64 [ %22, %15 ], [ 0, %10 ]
  %17 = shl nuw nsw i64 %16, 3
  %18 = sub nuw nsw i64 56, %17
  %19 = lshr i64 %6, %18
  %20 = trunc i64 %19 to i8
  %21 = getelementptr inbounds [8 x i8], ptr %3, i64 0, i64 %16
  store i8 %20, ptr %21, align 1, !tbaa !5
  %22 = add nuw nsw i64 %16, 1
  %23 = icmp eq i64 %22, 8
  br i1 %23, label %14, label %15, !llvm.loop !29

24:                                               ; preds = %25
  call void @llvm.lifetime.end.p0(i64 8, ptr nonnull %3) #10
  ret void

25:                                               ; preds = %25, %14
  %26 = phi i64 [ 0, %14 ], [ %38, %25 ]
  %27 = lshr i64 %26, 2
  %28 = and i64 %27, 1073741823
  %29 = getelementptr inbounds [8 x i32], ptr %0, i64 0, i64 %28
  %30 = load i32, ptr %29, align 4, !tbaa !22
  %31 = trunc i64 %26 to i32
  %32 = shl i32 %31, 3
  %33 = and i32 %32, 24
  %34 = xor i32 %33, 24
  %35 = lshr i32 %30, %34
  %36 = trunc i32 %35 to i8
  %37 = getelementptr inbounds i8, ptr %1, i64 %26
  store i8 %36, ptr %37, align 1, !tbaa !5
  %38 = add nuw nsw i64 %26, 1
  %39 = icmp eq i64 %38, 32
  br i1 %39, label %24, label %25, !llvm.loop !30
}

; Function Attrs: nocallback nofree nosync nounwind willreturn memory(argmem: readwrite)
declare void @llvm.lifetime.end.p0(i64 immarg, ptr nocapture) #1

; Function Attrs: nounwind optsize uwtable
define internal i32 @__print_unsigned(ptr nocapture noundef %0, i64 noundef %1, i32 noundef %2, i32 noundef %3, i32 noundef %4, i32 noundef %5) local_unnamed_addr #2 {
  %7 = alloca [24 x i8], align 16
  call void @llvm.lifetime.start.p0(i64 24, ptr nonnull %7) #10
  %8 = and i32 %3, 32
  %9 = icmp eq i32 %8, 0
  %10 = select i1 %9, ptr @.str.9, ptr @.str.8.14
  %11 = icmp ult i64 %1, 4294967296
  br i1 %11, label %14, label %12

12:                                               ; preds = %6
  %13 = zext i32 %2 to i64
  br label %29

14:                                               ; preds = %6
  %15 = icmp eq i64 %1, 0
  br i1 %15, label %39, label %16

16:                                               ; preds = %14
  %17 = trunc nuw i64 %1 to i32
  br label %18

18:                                               ; preds = %18, %16
  %19 = phi i32 [ %27, %18 ], [ %17, %16 ]
  %20 = phi i64 [ %25, %18 ], [ 24, %16 ]
  %21 = urem i32 %19, %2
  %22 = zext i32 %21 to i64
  %23 = getelementptr inbounds i8, ptr %10, i64 %22
  %24 = load i8, ptr %23, align 1, !tbaa !5
  %25 = add nsw i64 %20, -1
  %26 = getelementptr inbounds i8, ptr %7, i64 %25
  store i8 %24, ptr %26, align 1, !tbaa !5
  %27 = udiv i32 %19, %2
  %28 = icmp ult i32 %19, %2
  br i1 %28, label %39, label %18, !llvm.loop !31

29:                                               ; preds = %29, %12
  %30 = phi i64 [ 24, %12 ], [ %35, %29 ]
  %31 = phi i64 [ %1, %12 ], [ %37, %29 ]
  %32 = urem i64 %31, %13
  %33 = getelementptr inbounds i8, ptr %10, i64 %32
  %34 = load i8, ptr %33, align 1, !tbaa !5
  %35 = add nsw i64 %30, -1
  %36 = getelementptr inbounds i8, ptr %7, i64 %35
  store i8 %34, ptr %36, align 1, !tbaa !5
  %37 = udiv i64 %31, %13
  %38 = icmp ult i64 %31, %13
  br i1 %38, label %39, label %29, !llvm.loop !32

39:                                               ; preds = %29, %18, %14
  %40 = phi i64 [ 24, %14 ], [ %25, %18 ], [ %35, %29 ]
  %41 = icmp eq i64 %1, 0
  %42 = icmp ne i32 %5, 0
  %43 = and i1 %41, %42
  br i1 %43, label %44, label %47

44:                                               ; preds = %39
  %45 = add nsw i64 %40, -1
  %46 = getelementptr inbounds i8, ptr %7, i64 %45
  store i8 48, ptr %46, align 1, !tbaa !5
  br label %47

47:                                               ; preds = %44, %39
  %48 = phi i64 [ %45, %44 ], [ %40, %39 ]
  %49 = getelementptr inbounds i8, ptr %7, i64 %48
  %50 = and i32 %3, 8
  %51 = icmp ne i32 %50, 0
  %52 = icmp eq i32 %2, 8
  %53 = and i1 %52, %51
  br i1 %53, label %54, label %65

54:                                               ; preds = %47
  %55 = sub nsw i64 24, %48
  %56 = sext i32 %5 to i64
  %57 = icmp slt i64 %55, %56
  br i1 %57, label %65, label %58

58:                                               ; preds = %54
  %59 = icmp eq i64 %48, 24
  br i1 %59, label %63, label %60

60:                                               ; preds = %58
  %61 = load i8, ptr %49, align 1, !tbaa !5
  %62 = icmp eq i8 %61, 48
  br i1 %62, label %65, label %63

63:                                               ; preds = %60, %58
  %64 = getelementptr inbounds i8, ptr %49, i64 -1
  store i8 48, ptr %64, align 1, !tbaa !5
  br label %65

65:                                               ; preds = %63, %60, %54, %47
  %66 = phi ptr [ %64, %63 ], [ %49, %60 ], [ %49, %54 ], [ %49, %47 ]
  %67 = getelementptr inbounds i8, ptr %7, i64 24
  %68 = icmp eq i32 %2, 16
  %69 = icmp ne i64 %1, 0
  %70 = and i1 %69, %68
  %71 = and i1 %70, %51
  %72 = select i1 %9, ptr @.str.6, ptr @.str.5.15
  %73 = select i1 %71, ptr %72, ptr @.str.8
  %74 = ptrtoint ptr %67 to i64
  %75 = ptrtoint ptr %66 to i64
  %76 = sub i64 %74, %75
  %77 = trunc i64 %76 to i32
  %78 = call fastcc i32 @number(ptr noundef %0, ptr noundef nonnull %73, ptr noundef nonnull %66, i32 noundef %77, i32 noundef %3, i32 noundef %4, i32 noundef %5) #11
  call void @llvm.lifetime.end.p0(i64 24, ptr nonnull %7) #10
  ret i32 %78
}

; Function Attrs: nounwind optsize uwtable
define internal noundef i32 @__print_text(ptr nocapture noundef %0, ptr nocapture noundef readonly %1, i64 noundef %2) local_unnamed_addr #2 {
  %4 = load i8, ptr %0, align 8, !tbaa !33, !alias.scope !36, !noalias !39
  %5 = icmp eq i8 %4, 0
  %6 = icmp eq i64 %2, 0
  %7 = or i1 %6, %5
  br i1 %7, label %16, label %8

8:                                                ; preds = %8, %3
  %9 = phi i64 [ %14, %8 ], [ 0, %3 ]
  %10 = getelementptr inbounds i8, ptr %1, i64 %9
  %11 = load i8, ptr %10, align 1, !tbaa !5, !alias.scope !39, !noalias !36
  %12 = zext i8 %11 to i32
  %13 = tail call i32 @fputc(i32 noundef %12, ptr noundef nonnull %0) #11, !noalias !39
  %14 = add nuw i64 %9, 1
  %15 = icmp eq i64 %14, %2
  br i1 %15, label %16, label %8, !llvm.loop !41

16:                                               ; preds = %8, %3
  %17 = trunc i64 %2 to i32
  ret i32 %17
}

; Function Attrs: nounwind optsize uwtable
define internal i32 @__print_string(ptr nocapture noundef %0, ptr noundef %1, i32 noundef %2, i32 noundef %3, i32 noundef %4) local_unnamed_addr #2 {
  %6 = icmp eq ptr %1, null
  %7 = icmp ult i32 %4, 6
  %8 = select i1 %7, ptr @.str.8, ptr @.str.1.9
  %9 = select i1 %6, ptr %8, ptr %1
  %10 = icmp slt i32 %4, 0
  br i1 %10, label %11, label %20

11:                                               ; preds = %11, %5
  %12 = phi ptr [ %15, %11 ], [ %9, %5 ]
  %13 = load i8, ptr %12, align 1, !tbaa !5
  %14 = icmp eq i8 %13, 0
  %15 = getelementptr inbounds i8, ptr %12, i64 1
  br i1 %14, label %16, label %11, !llvm.loop !21

16:                                               ; preds = %11
  %17 = ptrtoint ptr %12 to i64
  %18 = ptrtoint ptr %9 to i64
  %19 = sub i64 %17, %18
  br label %31

20:                                               ; preds = %5
  %21 = zext nneg i32 %4 to i64
  %22 = icmp eq i32 %4, 0
  br i1 %22, label %31, label %23

23:                                               ; preds = %28, %20
  %24 = phi i64 [ %29, %28 ], [ 0, %20 ]
  %25 = getelementptr inbounds i8, ptr %9, i64 %24
  %26 = load i8, ptr %25, align 1, !tbaa !5
  %27 = icmp eq i8 %26, 0
  br i1 %27, label %31, label %28

28:                                               ; preds = %23
  %29 = add nuw nsw i64 %24, 1
  %30 = icmp eq i64 %29, %21
  br i1 %30, label %31, label %23, !llvm.loop !42

31:                                               ; preds = %28, %23, %20, %16
  %32 = phi i64 [ %19, %16 ], [ 0, %20 ], [ %24, %23 ], [ %21, %28 ]
  %33 = trunc i64 %32 to i32
  %34 = tail call fastcc i32 @padded(ptr noundef %0, ptr noundef nonnull %9, i32 noundef %33, i32 noundef %2, i32 noundef %3) #11
  ret i32 %34
}

; Function Attrs: nocallback nofree nounwind willreturn memory(argmem: write)
declare void @llvm.memset.p0.i64(ptr nocapture writeonly, i8, i64, i1 immarg) #7

; Function Attrs: nounwind optsize uwtable
define internal fastcc i32 @padded(ptr nocapture noundef %0, ptr nocapture noundef readonly %1, i32 noundef %2, i32 noundef %3, i32 noundef %4) unnamed_addr #2 {
  %6 = icmp slt i32 %4, 0
  %7 = lshr i32 %4, 31
  %8 = icmp ne i32 %7, 0
  %9 = sub i32 0, %4
  %10 = select i1 %8, i32 %9, i32 %4
  %11 = sub nsw i32 %10, %2
  %12 = and i32 %3, 1
  %13 = icmp ne i32 %12, 0
  %14 = or i1 %6, %13
  br i1 %14, label %24, label %15

15:                                               ; preds = %5
  %16 = icmp sgt i32 %11, 0
  br i1 %16, label %17, label %22

17:                                               ; preds = %17, %15
  %18 = phi i32 [ %20, %17 ], [ 0, %15 ]
  %19 = tail call i32 @fputc(i32 noundef 32, ptr noundef %0) #11
  %20 = add nuw nsw i32 %18, 1
  %21 = icmp eq i32 %20, %11
  br i1 %21, label %22, label %17, !llvm.loop !43

22:                                               ; preds = %17, %15
  %23 = tail call noundef i32 @llvm.smax.i32(i32 %11, i32 0)
  br label %24

24:                                               ; preds = %22, %5
  %25 = phi i32 [ %23, %22 ], [ 0, %5 ]
  %26 = sext i32 %2 to i64
  %27 = load i8, ptr %0, align 8, !tbaa !33, !alias.scope !44, !noalias !47
  %28 = icmp eq i8 %27, 0
  %29 = icmp eq i32 %2, 0
  %30 = or i1 %29, %28
  br i1 %30, label %39, label %31

31:                                               ; preds = %31, %24
  %32 = phi i64 [ %37, %31 ], [ 0, %24 ]
  %33 = getelementptr inbounds i8, ptr %1, i64 %32
  %34 = load i8, ptr %33, align 1, !tbaa !5, !alias.scope !47, !noalias !44
  %35 = zext i8 %34 to i32
  %36 = tail call i32 @fputc(i32 noundef %35, ptr noundef nonnull %0) #11, !noalias !47
  %37 = add nuw i64 %32, 1
  %38 = icmp eq i64 %37, %26
  br i1 %38, label %39, label %31, !llvm.loop !41

39:                                               ; preds = %31, %24
  br i1 %14, label %40, label %49

40:                                               ; preds = %39
  %41 = icmp sgt i32 %11, 0
  br i1 %41, label %42, label %47

42:                                               ; preds = %42, %40
  %43 = phi i32 [ %45, %42 ], [ 0, %40 ]
  %44 = tail call i32 @fputc(i32 noundef 32, ptr noundef nonnull %0) #11
  %45 = add nuw nsw i32 %43, 1
  %46 = icmp eq i32 %45, %11
  br i1 %46, label %47, label %42, !llvm.loop !43

47:                                               ; preds = %42, %40
  %48 = tail call noundef i32 @llvm.smax.i32(i32 %11, i32 0)
  br label %49

49:                                               ; preds = %47, %39
  %50 = phi i32 [ %48, %47 ], [ 0, %39 ]
  %51 = add nsw i32 %25, %2
  %52 = add nsw i32 %51, %50
  ret i32 %52
}

; Function Attrs: nounwind optsize uwtable
define internal range(i32 -1, 256) i32 @fputc(i32 noundef %0, ptr nocapture noundef %1) local_unnamed_addr #2 {
  %3 = load i8, ptr %1, align 8, !tbaa !33
  switch i8 %3, label %17 [
    i8 1, label %4
    i8 3, label %6
    i8 0, label %19
  ]

4:                                                ; preds = %2
  %5 = tail call i32 @putchar(i32 noundef %0) #12
  br label %17

6:                                                ; preds = %2
  %7 = getelementptr inbounds i8, ptr %1, i64 16
  %8 = load i64, ptr %7, align 8, !tbaa !49
  %9 = icmp eq i64 %8, 0
  br i1 %9, label %17, label %10

10:                                               ; preds = %6
  %11 = trunc i32 %0 to i8
  %12 = getelementptr inbounds i8, ptr %1, i64 8
  %13 = load ptr, ptr %12, align 8, !tbaa !50
  %14 = getelementptr inbounds i8, ptr %13, i64 1
  store ptr %14, ptr %12, align 8, !tbaa !50
  store i8 %11, ptr %13, align 1, !tbaa !5
  %15 = load i64, ptr %7, align 8, !tbaa !49
  %16 = add i64 %15, -1
  store i64 %16, ptr %7, align 8, !tbaa !49
  br label %17

17:                                               ; preds = %10, %6, %4, %2
  %18 = and i32 %0, 255
  br label %19

19:                                               ; preds = %17, %2
  %20 = phi i32 [ %18, %17 ], [ -1, %2 ]
  ret i32 %20
}

; Function Attrs: nocallback nofree nosync nounwind speculatable willreturn memory(none)
declare i32 @llvm.smax.i32(i32, i32) #8

; Function Attrs: optsize
declare dso_local i32 @putchar(i32 noundef) local_unnamed_addr #9

; Function Attrs: nounwind optsize uwtable
define internal fastcc i32 @number(ptr nocapture noundef %0, ptr noundef %1, ptr nocapture noundef readonly %2, i32 noundef %3, i32 noundef %4, i32 noundef %5, i32 noundef %6) unnamed_addr #2 {
  br label %8

8:                                                ; preds = %8, %7
  %9 = phi ptr [ %1, %7 ], [ %12, %8 ]
  %10 = load i8, ptr %9, align 1, !tbaa !5
  %11 = icmp eq i8 %10, 0
  %12 = getelementptr inbounds i8, ptr %9, i64 1
  br i1 %11, label %13, label %8, !llvm.loop !21

13:                                               ; preds = %8
  %14 = ptrtoint ptr %9 to i64
  %15 = ptrtoint ptr %1 to i64
  %16 = sub i64 %14, %15
  %17 = trunc i64 %16 to i32
  %18 = sub nsw i32 %6, %3
  %19 = lshr i32 %5, 31
  %20 = icmp ne i32 %19, 0
  %21 = sub i32 0, %5
  %22 = select i1 %20, i32 %21, i32 %5
  %23 = tail call i32 @llvm.smax.i32(i32 %18, i32 0)
  %24 = icmp slt i32 %6, 0
  %25 = and i32 %4, 16
  %26 = icmp ne i32 %25, 0
  %27 = and i1 %26, %24
  %28 = and i32 %4, 1
  %29 = or i32 %19, %28
  %30 = icmp eq i32 %29, 0
  %31 = and i1 %27, %30
  %32 = add i32 %17, %3
  %33 = icmp sgt i32 %22, %32
  %34 = select i1 %31, i1 %33, i1 false
  %35 = sub i32 %22, %32
  %36 = select i1 %34, i32 %35, i32 %23
  %37 = add i32 %32, %36
  %38 = sub i32 %22, %37
  br i1 %30, label %39, label %48

39:                                               ; preds = %13
  %40 = icmp sgt i32 %38, 0
  br i1 %40, label %41, label %46

41:                                               ; preds = %41, %39
  %42 = phi i32 [ %44, %41 ], [ 0, %39 ]
  %43 = tail call i32 @fputc(i32 noundef 32, ptr noundef %0) #11
  %44 = add nuw nsw i32 %42, 1
  %45 = icmp eq i32 %44, %38
  br i1 %45, label %46, label %41, !llvm.loop !43

46:                                               ; preds = %41, %39
  %47 = tail call noundef i32 @llvm.smax.i32(i32 %38, i32 0)
  br label %48

48:                                               ; preds = %46, %13
  %49 = phi i32 [ 0, %13 ], [ %47, %46 ]
  %50 = shl i64 %16, 32
  %51 = ashr exact i64 %50, 32
  %52 = load i8, ptr %0, align 8, !tbaa !33, !alias.scope !51, !noalias !54
  %53 = icmp eq i8 %52, 0
  %54 = icmp eq i64 %50, 0
  %55 = or i1 %54, %53
  br i1 %55, label %64, label %56

56:                                               ; preds = %56, %48
  %57 = phi i64 [ %62, %56 ], [ 0, %48 ]
  %58 = getelementptr inbounds i8, ptr %1, i64 %57
  %59 = load i8, ptr %58, align 1, !tbaa !5, !alias.scope !54, !noalias !51
  %60 = zext i8 %59 to i32
  %61 = tail call i32 @fputc(i32 noundef %60, ptr noundef nonnull %0) #11, !noalias !54
  %62 = add nuw i64 %57, 1
  %63 = icmp eq i64 %62, %51
  br i1 %63, label %64, label %56, !llvm.loop !41

64:                                               ; preds = %56, %48
  %65 = icmp sgt i32 %36, 0
  br i1 %65, label %66, label %71

66:                                               ; preds = %66, %64
  %67 = phi i32 [ %69, %66 ], [ 0, %64 ]
  %68 = tail call i32 @fputc(i32 noundef 48, ptr noundef nonnull %0) #11
  %69 = add nuw nsw i32 %67, 1
  %70 = icmp eq i32 %69, %36
  br i1 %70, label %71, label %66, !llvm.loop !43

71:                                               ; preds = %66, %64
  %72 = tail call noundef i32 @llvm.smax.i32(i32 %36, i32 0)
  %73 = sext i32 %3 to i64
  %74 = load i8, ptr %0, align 8, !tbaa !33, !alias.scope !56, !noalias !59
  %75 = icmp eq i8 %74, 0
  %76 = icmp eq i32 %3, 0
  %77 = or i1 %76, %75
  br i1 %77, label %86, label %78

78:                                               ; preds = %78, %71
  %79 = phi i64 [ %84, %78 ], [ 0, %71 ]
  %80 = getelementptr inbounds i8, ptr %2, i64 %79
  %81 = load i8, ptr %80, align 1, !tbaa !5, !alias.scope !59, !noalias !56
  %82 = zext i8 %81 to i32
  %83 = tail call i32 @fputc(i32 noundef %82, ptr noundef nonnull %0) #11, !noalias !59
  %84 = add nuw i64 %79, 1
  %85 = icmp eq i64 %84, %73
  br i1 %85, label %86, label %78, !llvm.loop !41

86:                                               ; preds = %78, %71
  %87 = add i32 %32, %72
  %88 = add i32 %87, %49
  br i1 %30, label %99, label %89

89:                                               ; preds = %86
  %90 = icmp sgt i32 %38, 0
  br i1 %90, label %91, label %96

91:                                               ; preds = %91, %89
  %92 = phi i32 [ %94, %91 ], [ 0, %89 ]
  %93 = tail call i32 @fputc(i32 noundef 32, ptr noundef nonnull %0) #11
  %94 = add nuw nsw i32 %92, 1
  %95 = icmp eq i32 %94, %38
  br i1 %95, label %96, label %91, !llvm.loop !43

96:                                               ; preds = %91, %89
  %97 = tail call noundef i32 @llvm.smax.i32(i32 %38, i32 0)
  %98 = add nsw i32 %88, %97
  br label %99

99:                                               ; preds = %96, %86
  %100 = phi i32 [ %98, %96 ], [ %88, %86 ]
  ret i32 %100
}

; Function Attrs: nocallback nofree nosync nounwind speculatable willreturn memory(none)
declare i64 @llvm.umin.i64(i64, i64) #8

; Function Attrs: nocallback nofree nounwind willreturn memory(argmem: readwrite)
declare void @llvm.memmove.p0.p0.i64(ptr nocapture writeonly, ptr nocapture readonly, i64, i1 immarg) #4

; Function Attrs: nofree norecurse nosync nounwind optsize memory(read, inaccessiblemem: none) uwtable
define internal fastcc i64 @span(ptr nocapture noundef readonly %0, ptr nocapture noundef readonly %1, i32 noundef %2) unnamed_addr #3 {
  %4 = alloca [256 x i8], align 16
  call void @llvm.lifetime.start.p0(i64 256, ptr nonnull %4) #10
  br label %5

5:                                                ; preds = %5, %3
  %6 = phi ptr [ %4, %3 ], [ %9, %5 ]
  %7 = phi i64 [ 256, %3 ], [ %8, %5 ]
  %8 = add nsw i64 %7, -1
  %9 = getelementptr inbounds i8, ptr %6, i64 1
  store i8 0, ptr %6, align 1, !tbaa !5
  %10 = icmp eq i64 %8, 0
  br i1 %10, label %11, label %5, !llvm.loop !61

11:                                               ; preds = %5
  %12 = load i8, ptr %1, align 1, !tbaa !5
  %13 = icmp eq i8 %12, 0
  br i1 %13, label %14, label %17

14:                                               ; preds = %17, %11
  %15 = load i8, ptr %0, align 1, !tbaa !5
  %16 = icmp eq i8 %15, 0
  br i1 %16, label %38, label %25

17:                                               ; preds = %17, %11
  %18 = phi i8 [ %23, %17 ], [ %12, %11 ]
  %19 = phi ptr [ %20, %17 ], [ %1, %11 ]
  %20 = getelementptr inbounds i8, ptr %19, i64 1
  %21 = zext i8 %18 to i64
  %22 = getelementptr inbounds [256 x i8], ptr %4, i64 0, i64 %21
  store i8 1, ptr %22, align 1, !tbaa !5
  %23 = load i8, ptr %20, align 1, !tbaa !5
  %24 = icmp eq i8 %23, 0
  br i1 %24, label %14, label %17, !llvm.loop !62

25:                                               ; preds = %33, %14
  %26 = phi i8 [ %36, %33 ], [ %15, %14 ]
  %27 = phi i64 [ %34, %33 ], [ 0, %14 ]
  %28 = zext i8 %26 to i64
  %29 = getelementptr inbounds [256 x i8], ptr %4, i64 0, i64 %28
  %30 = load i8, ptr %29, align 1, !tbaa !5
  %31 = zext i8 %30 to i32
  %32 = icmp eq i32 %31, %2
  br i1 %32, label %33, label %38

33:                                               ; preds = %25
  %34 = add i64 %27, 1
  %35 = getelementptr inbounds i8, ptr %0, i64 %34
  %36 = load i8, ptr %35, align 1, !tbaa !5
  %37 = icmp eq i8 %36, 0
  br i1 %37, label %38, label %25, !llvm.loop !63

38:                                               ; preds = %33, %25, %14
  %39 = phi i64 [ 0, %14 ], [ %34, %33 ], [ %27, %25 ]
  call void @llvm.lifetime.end.p0(i64 256, ptr nonnull %4) #10
  ret i64 %39
}

; Function Attrs: nounwind optsize uwtable
define internal i32 @fgetc(ptr nocapture noundef %0) local_unnamed_addr #2 {
  %2 = load i8, ptr %0, align 8, !tbaa !33
  %3 = icmp eq i8 %2, 0
  br i1 %3, label %4, label %20

4:                                                ; preds = %1
  %5 = getelementptr inbounds i8, ptr %0, i64 2
  %6 = load i8, ptr %5, align 2, !tbaa !64
  %7 = icmp eq i8 %6, 0
  br i1 %7, label %12, label %8

8:                                                ; preds = %4
  store i8 0, ptr %5, align 2, !tbaa !64
  %9 = getelementptr inbounds i8, ptr %0, i64 3
  %10 = load i8, ptr %9, align 1, !tbaa !65
  %11 = zext i8 %10 to i32
  br label %20

12:                                               ; preds = %4
  %13 = getelementptr inbounds i8, ptr %0, i64 1
  %14 = load i8, ptr %13, align 1, !tbaa !66
  %15 = icmp eq i8 %14, 0
  br i1 %15, label %16, label %20

16:                                               ; preds = %12
  %17 = tail call i32 @getchar() #12
  %18 = icmp eq i32 %17, -1
  br i1 %18, label %19, label %20

19:                                               ; preds = %16
  store i8 1, ptr %13, align 1, !tbaa !66
  br label %20

20:                                               ; preds = %19, %16, %12, %8, %1
  %21 = phi i32 [ %11, %8 ], [ -1, %1 ], [ -1, %12 ], [ -1, %19 ], [ %17, %16 ]
  ret i32 %21
}

; Function Attrs: optsize
declare dso_local i32 @getchar() local_unnamed_addr #9

attributes #0 = { nounwind uwtable "min-legal-vector-width"="0" "no-trapping-math"="true" "stack-protector-buffer-size"="8" "target-cpu"="x86-64" "target-features"="+cmov,+cx8,+fxsr,+mmx,+sse,+sse2,+x87" "tune-cpu"="generic" }
attributes #1 = { nocallback nofree nosync nounwind willreturn memory(argmem: readwrite) }
attributes #2 = { nounwind optsize uwtable "min-legal-vector-width"="0" "no-builtins" "no-jump-tables"="true" "no-trapping-math"="true" "stack-protector-buffer-size"="8" "target-cpu"="x86-64" "target-features"="+cmov,+cx8,+fxsr,+mmx,+sse,+sse2,+x87" "tune-cpu"="generic" }
attributes #3 = { nofree norecurse nosync nounwind optsize memory(read, inaccessiblemem: none) uwtable "min-legal-vector-width"="0" "no-builtins" "no-jump-tables"="true" "no-trapping-math"="true" "stack-protector-buffer-size"="8" "target-cpu"="x86-64" "target-features"="+cmov,+cx8,+fxsr,+mmx,+sse,+sse2,+x87" "tune-cpu"="generic" }
attributes #4 = { nocallback nofree nounwind willreturn memory(argmem: readwrite) }
attributes #5 = { nofree norecurse nosync nounwind memory(readwrite, inaccessiblemem: none) uwtable "min-legal-vector-width"="0" "no-jump-tables"="true" "no-trapping-math"="true" "stack-protector-buffer-size"="8" "target-cpu"="x86-64" "target-features"="+cmov,+cx8,+fxsr,+mmx,+sse,+sse2,+x87" "tune-cpu"="generic" }
attributes #6 = { nofree norecurse nosync nounwind memory(readwrite, inaccessiblemem: none) uwtable "min-legal-vector-width"="0" "no-trapping-math"="true" "stack-protector-buffer-size"="8" "target-cpu"="x86-64" "target-features"="+cmov,+cx8,+fxsr,+mmx,+sse,+sse2,+x87" "tune-cpu"="generic" }
attributes #7 = { nocallback nofree nounwind willreturn memory(argmem: write) }
attributes #8 = { nocallback nofree nosync nounwind speculatable willreturn memory(none) }
attributes #9 = { optsize "no-builtins" "no-trapping-math"="true" "stack-protector-buffer-size"="8" "target-cpu"="x86-64" "target-features"="+cmov,+cx8,+fxsr,+mmx,+sse,+sse2,+x87" "tune-cpu"="generic" }
attributes #10 = { nounwind }
attributes #11 = { nobuiltin optsize "no-builtins" }
attributes #12 = { nobuiltin nounwind optsize "no-builtins" }

!llvm.ident = !{!0, !0, !0}
!llvm.module.flags = !{!1, !2, !3, !4}

!0 = !{!"Debian clang version 19.1.7 (3~deb12u1)"}
!1 = !{i32 7, !"Dwarf Version", i32 5}
!2 = !{i32 2, !"Debug Info Version", i32 3}
!3 = !{i32 1, !"wchar_size", i32 4}
!4 = !{i32 7, !"uwtable", i32 2}
!5 = !{!6, !6, i64 0}
!6 = !{!"omnipotent char", !7, i64 0}
!7 = !{!"Simple C/C++ TBAA"}
!8 = !{!9, !10, i64 32}
!9 = !{!"sha256", !6, i64 0, !10, i64 32, !6, i64 40, !11, i64 104}
!10 = !{!"long", !6, i64 0}
!11 = !{!"int", !6, i64 0}
!12 = !{!9, !11, i64 104}
!13 = distinct !{!13, !14, !15}
!14 = !{!"llvm.loop.mustprogress"}
!15 = !{!"llvm.loop.unroll.disable"}
!16 = distinct !{!16, !14, !15}
!17 = distinct !{!17, !14, !15}
!18 = distinct !{!18, !14, !15}
!19 = distinct !{!19, !14, !15}
!20 = distinct !{!20, !14}
!21 = distinct !{!21, !14}
!22 = !{!11, !11, i64 0}
!23 = distinct !{!23, !14, !15}
!24 = distinct !{!24, !14, !15}
!25 = distinct !{!25, !14, !15}
!26 = distinct !{!26, !14, !15}
!27 = distinct !{!27, !14, !15}
!28 = distinct !{!28, !14, !15}
!29 = distinct !{!29, !14, !15}
!30 = distinct !{!30, !14, !15}
!31 = distinct !{!31, !14}
!32 = distinct !{!32, !14}
!33 = !{!34, !6, i64 0}
!34 = !{!"__stream", !6, i64 0, !6, i64 1, !6, i64 2, !6, i64 3, !35, i64 8, !10, i64 16}
!35 = !{!"any pointer", !6, i64 0}
!36 = !{!37}
!37 = distinct !{!37, !38, !"fwrite: %stream"}
!38 = distinct !{!38, !"fwrite"}
!39 = !{!40}
!40 = distinct !{!40, !38, !"fwrite: %from"}
!41 = distinct !{!41, !14}
!42 = distinct !{!42, !14}
!43 = distinct !{!43, !14}
!44 = !{!45}
!45 = distinct !{!45, !46, !"fwrite: %stream"}
!46 = distinct !{!46, !"fwrite"}
!47 = !{!48}
!48 = distinct !{!48, !46, !"fwrite: %from"}
!49 = !{!34, !10, i64 16}
!50 = !{!34, !35, i64 8}
!51 = !{!52}
!52 = distinct !{!52, !53, !"fwrite: %stream"}
!53 = distinct !{!53, !"fwrite"}
!54 = !{!55}
!55 = distinct !{!55, !53, !"fwrite: %from"}
!56 = !{!57}
!57 = distinct !{!57, !58, !"fwrite: %stream"}
!58 = distinct !{!58, !"fwrite"}
!59 = !{!60}
!60 = distinct !{!60, !58, !"fwrite: %from"}
!61 = distinct !{!61, !14}
!62 = distinct !{!62, !14}
!63 = distinct !{!63, !14}
!64 = !{!34, !6, i64 2}
!65 = !{!34, !6, i64 3}
!66 = !{!34, !6, i64 1}
