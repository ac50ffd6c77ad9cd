source_filename = "sha256.c"
target datalayout = "e-m:e-p:32:32-p270:32:32-p271:32:32-p272:64:64-i128:128-f64:32:64-f80:32-n8:16:32-S128"
target triple = "i386-unknown-linux-gnu"

%struct.__stream = type { i8, i8, i8, i8, ptr, i32 }
%struct.sha256 = type { [8 x i32], i64, [64 x i8], i32 }

@main.text = internal global [8192 x i8] zeroinitializer, align 1
@main.line = internal global [256 x i8] zeroinitializer, align 1
@.str = private unnamed_addr constant [2 x i8] c"\0A\00", align 1
@.str.1 = private unnamed_addr constant [6 x i8] c"(all)\00", align 1
@.str.2 = private unnamed_addr constant [4 x i8] c"key\00", align 1
@.str.3 = private unnamed_addr constant [19 x i8] c"(all, under a key)\00", align 1
@begin.first = internal constant [8 x i32] [i32 1779033703, i32 -1150833019, i32 1013904242, i32 -1521486534, i32 1359893119, i32 -1694144372, i32 528734635, i32 1541459225], align 4
@constants = internal constant [64 x i32] [i32 1116352408, i32 1899447441, i32 -1245643825, i32 -373957723, i32 961987163, i32 1508970993, i32 -1841331548, i32 -1424204075, i32 -670586216, i32 310598401, i32 607225278, i32 1426881987, i32 1925078388, i32 -2132889090, i32 -1680079193, i32 -1046744716, i32 -459576895, i32 -272742522, i32 264347078, i32 604807628, i32 770255983, i32 1249150122, i32 1555081692, i32 1996064986, i32 -1740746414, i32 -1473132947, i32 -1341970488, i32 -1084653625, i32 -958395405, i32 -710438585, i32 113926993, i32 338241895, i32 666307205, i32 773529912, i32 1294757372, i32 1396182291, i32 1695183700, i32 1986661051, i32 -2117940946, i32 -1838011259, i32 -1564481375, i32 -1474664885, i32 -1035236496, i32 -949202525, i32 -778901479, i32 -694614492, i32 -200395387, i32 275423344, i32 430227734, i32 506948616, i32 659060556, i32 883997877, i32 958139571, i32 1322822218, i32 1537002063, i32 1747873779, i32 1955562222, i32 2024104815, i32 -2067236844, i32 -1933114872, i32 -1866530822, i32 -1538233109, i32 -1090935817, i32 -965641998], align 4
@.str.4 = private unnamed_addr constant [2 x i8] c"\80\00", align 1
@.str.5 = private unnamed_addr constant [1 x i8] zeroinitializer, align 1
@.str.7 = private unnamed_addr constant [6 x i8] c"  %s\0A\00", align 1
@.str.8 = private unnamed_addr constant [1 x i8] zeroinitializer, align 1
@.str.1.9 = private unnamed_addr constant [7 x i8] c"(null)\00", align 1
@.str.5.15 = private unnamed_addr constant [3 x i8] c"0X\00", align 1
@.str.6 = private unnamed_addr constant [3 x i8] c"0x\00", align 1
@__streams = internal global [3 x %struct.__stream] [%struct.__stream zeroinitializer, %struct.__stream { i8 1, i8 0, i8 0, i8 0, ptr null, i32 0 }, %struct.__stream { i8 2, i8 0, i8 0, i8 0, ptr null, i32 0 }], align 4
@.str.8.14 = private unnamed_addr constant [17 x i8] c"0123456789ABCDEF\00", align 1
@.str.9 = private unnamed_addr constant [17 x i8] c"0123456789abcdef\00", align 1

; Function Attrs: noinline nounwind optnone uwtable
define dso_local i32 @main() #0 {
  %1 = alloca i32, align 4
  %2 = alloca [32 x i8], align 1
  %3 = alloca i32, align 4
  %4 = alloca i32, align 4
  store i32 0, ptr %1, align 4
  store i32 0, ptr %3, align 4
  br label %5

5:                                                ; preds = %15, %0
  %6 = call ptr @fgets(ptr noundef @main.line, i32 noundef 256, ptr noundef @__streams)
  %7 = icmp ne ptr %6, null
  br i1 %7, label %8, label %27

8:                                                ; preds = %5
  %9 = call i32 @strlen(ptr noundef @main.line) #8
  store i32 %9, ptr %4, align 4
  %10 = load i32, ptr %3, align 4
  %11 = load i32, ptr %4, align 4
  %12 = add i32 %10, %11
  %13 = icmp ugt i32 %12, 8192
  br i1 %13, label %14, label %15

14:                                               ; preds = %8
  store i32 1, ptr %1, align 4
  br label %37

15:                                               ; preds = %8
  %16 = load i32, ptr %3, align 4
  %17 = getelementptr inbounds i8, ptr @main.text, i32 %16
  %18 = load i32, ptr %4, align 4
  call void @llvm.memcpy.p0.p0.i32(ptr align 1 %17, ptr align 1 @main.line, i32 %18, i1 false)
  %19 = load i32, ptr %4, align 4
  %20 = load i32, ptr %3, align 4
  %21 = add i32 %20, %19
  store i32 %21, ptr %3, align 4
  %22 = call i32 @strcspn(ptr noundef @main.line, ptr noundef @.str)
  %23 = getelementptr inbounds [256 x i8], ptr @main.line, i32 0, i32 %22
  store i8 0, ptr %23, align 1
  %24 = call i32 @strlen(ptr noundef @main.line) #8
  %25 = getelementptr inbounds [32 x i8], ptr %2, i32 0, i32 0
  call void @digest_of(ptr noundef @main.line, i32 noundef %24, ptr noundef %25)
  %26 = getelementptr inbounds [32 x i8], ptr %2, i32 0, i32 0
  call void @show(ptr noundef %26, ptr noundef @main.line)
  br label %5, !llvm.loop !7

27:                                               ; preds = %5
  %28 = load i32, ptr %3, align 4
  %29 = getelementptr inbounds [32 x i8], ptr %2, i32 0, i32 0
  call void @digest_of(ptr noundef @main.text, i32 noundef %28, ptr noundef %29)
  %30 = getelementptr inbounds [32 x i8], ptr %2, i32 0, i32 0
  call void @show(ptr noundef %30, ptr noundef @.str.1)
  %31 = load i32, ptr %3, align 4
  %32 = getelementptr inbounds [32 x i8], ptr %2, i32 0, i32 0
  call void @code_of(ptr noundef @.str.2, ptr noundef @main.text, i32 noundef %31, ptr noundef %32)
  %33 = getelementptr inbounds [32 x i8], ptr %2, i32 0, i32 0
  call void @show(ptr noundef %33, ptr noundef @.str.3)
  %34 = getelementptr inbounds [32 x i8], ptr %2, i32 0, i32 0
  %35 = load i8, ptr %34, align 1
  %36 = zext i8 %35 to i32
  store i32 %36, ptr %1, align 4
  br label %37

37:                                               ; preds = %27, %14
  %38 = load i32, ptr %1, align 4
  ret i32 %38
}

; Function Attrs: nounwind optsize uwtable
define internal noundef ptr @fgets(ptr noalias noundef writeonly %0, i32 noundef %1, ptr noalias nocapture noundef %2) #1 {
  %4 = icmp slt i32 %1, 1
  br i1 %4, label %23, label %5

5:                                                ; preds = %3
  %6 = icmp eq i32 %1, 1
  br i1 %6, label %21, label %7

7:                                                ; preds = %12, %5
  %8 = phi i32 [ %13, %12 ], [ %1, %5 ]
  %9 = phi ptr [ %15, %12 ], [ %0, %5 ]
  %10 = tail call i32 @fgetc(ptr noundef %2) #9
  %11 = icmp eq i32 %10, -1
  br i1 %11, label %19, label %12

12:                                               ; preds = %7
  %13 = add nsw i32 %8, -1
  %14 = trunc i32 %10 to i8
  %15 = getelementptr inbounds i8, ptr %9, i32 1
  store i8 %14, ptr %9, align 1, !tbaa !9
  %16 = icmp sgt i32 %8, 2
  %17 = icmp ne i32 %10, 10
  %18 = and i1 %16, %17
  br i1 %18, label %7, label %21, !llvm.loop !12

19:                                               ; preds = %7
  %20 = icmp eq ptr %9, %0
  br i1 %20, label %23, label %21

21:                                               ; preds = %19, %12, %5
  %22 = phi ptr [ %9, %19 ], [ %0, %5 ], [ %15, %12 ]
  store i8 0, ptr %22, align 1, !tbaa !9
  br label %23

23:                                               ; preds = %21, %19, %3
  %24 = phi ptr [ %0, %21 ], [ null, %3 ], [ null, %19 ]
  ret ptr %24
}

; Function Attrs: nofree norecurse nosync nounwind optsize memory(read, inaccessiblemem: none) uwtable
define internal noundef i32 @strlen(ptr noundef %0) #2 {
  br label %2

2:                                                ; preds = %2, %1
  %3 = phi ptr [ %0, %1 ], [ %6, %2 ]
  %4 = load i8, ptr %3, align 1, !tbaa !9
  %5 = icmp eq i8 %4, 0
  %6 = getelementptr inbounds i8, ptr %3, i32 1
  br i1 %5, label %7, label %2, !llvm.loop !13

7:                                                ; preds = %2
  %8 = ptrtoint ptr %3 to i32
  %9 = ptrtoint ptr %0 to i32
  %10 = sub i32 %8, %9
  ret i32 %10
}

; Function Attrs: nocallback nofree nounwind willreturn memory(argmem: readwrite)
declare void @llvm.memcpy.p0.p0.i32(ptr noalias nocapture writeonly, ptr noalias nocapture readonly, i32, i1 immarg) #3

; Function Attrs: nofree norecurse nosync nounwind optsize memory(read, inaccessiblemem: none) uwtable
define internal i32 @strcspn(ptr nocapture noundef readonly %0, ptr nocapture noundef readonly %1) #2 {
  %3 = tail call fastcc i32 @span(ptr noundef %0, ptr noundef %1, i32 noundef 0) #9
  ret i32 %3
}

; Function Attrs: noinline nounwind optnone uwtable
define internal void @digest_of(ptr noundef %0, i32 noundef %1, ptr noundef %2) #0 {
  %4 = alloca ptr, align 4
  %5 = alloca i32, align 4
  %6 = alloca ptr, align 4
  %7 = alloca %struct.sha256, align 4
  store ptr %0, ptr %4, align 4
  store i32 %1, ptr %5, align 4
  store ptr %2, ptr %6, align 4
  call void @begin(ptr noundef %7)
  %8 = load ptr, ptr %4, align 4
  %9 = load i32, ptr %5, align 4
  call void @add(ptr noundef %7, ptr noundef %8, i32 noundef %9)
  %10 = load ptr, ptr %6, align 4
  call void @end(ptr noundef %7, ptr noundef %10)
  ret void
}

; Function Attrs: noinline nounwind optnone uwtable
define internal void @show(ptr noundef %0, ptr noundef %1) #0 {
  %3 = alloca ptr, align 4
  %4 = alloca ptr, align 4
  %5 = alloca i32, align 4
  store ptr %0, ptr %3, align 4
  store ptr %1, ptr %4, align 4
  store i32 0, ptr %5, align 4
  br label %6

6:                                                ; preds = %18, %2
  %7 = load i32, ptr %5, align 4
  %8 = icmp slt i32 %7, 32
  br i1 %8, label %9, label %21

9:                                                ; preds = %6
  %10 = load ptr, ptr %3, align 4
  %11 = load i32, ptr %5, align 4
  %12 = getelementptr inbounds i8, ptr %10, i32 %11
  %13 = load i8, ptr %12, align 1
  %14 = zext i8 %13 to i32
  %15 = zext i32 %14 to i64
  %16 = call i32 @__print_unsigned(ptr getelementptr inbounds ([3 x { i8, i8, i8, i8, ptr, i32 }], ptr @__streams, i32 0, i32 1), i64 %15, i32 16, i32 16, i32 2, i32 -1)
  %17 = add i32 %16, 0
  br label %18

18:                                               ; preds = %9
  %19 = load i32, ptr %5, align 4
  %20 = add nsw i32 %19, 1
  store i32 %20, ptr %5, align 4
  br label %6, !llvm.loop !14

21:                                               ; preds = %6
  %22 = load ptr, ptr %4, align 4
  %23 = call i32 @__print_text(ptr getelementptr inbounds ([3 x { i8, i8, i8, i8, ptr, i32 }], ptr @__streams, i32 0, i32 1), ptr @.str.7, i32 2)
  %24 = call i32 @__print_string(ptr getelementptr inbounds ([3 x { i8, i8, i8, i8, ptr, i32 }], ptr @__streams, i32 0, i32 1), ptr %22, i32 0, i32 0, i32 -1)
  %25 = call i32 @__print_text(ptr getelementptr inbounds ([3 x { i8, i8, i8, i8, ptr, i32 }], ptr @__streams, i32 0, i32 1), ptr getelementptr inbounds (i8, ptr @.str.7, i32 4), i32 1)
  %26 = add i32 %23, %24
  %27 = add i32 %26, %25
  %28 = add i32 %27, 0
  ret void
}

; Function Attrs: noinline nounwind optnone uwtable
define internal void @code_of(ptr noundef %0, ptr noundef %1, i32 noundef %2, ptr noundef %3) #0 {
  %5 = alloca ptr, align 4
  %6 = alloca ptr, align 4
  %7 = alloca i32, align 4
  %8 = alloca ptr, align 4
  %9 = alloca [64 x i8], align 1
  %10 = alloca [64 x i8], align 1
  %11 = alloca %struct.sha256, align 4
  %12 = alloca i32, align 4
  store ptr %0, ptr %5, align 4
  store ptr %1, ptr %6, align 4
  store i32 %2, ptr %7, align 4
  store ptr %3, ptr %8, align 4
  call void @llvm.memset.p0.i32(ptr align 1 %9, i8 0, i32 64, i1 false)
  call void @llvm.memset.p0.i32(ptr align 1 %10, i8 0, i32 64, i1 false)
  %13 = getelementptr inbounds [64 x i8], ptr %9, i32 0, i32 0
  %14 = load ptr, ptr %5, align 4
  %15 = load ptr, ptr %5, align 4
  %16 = call i32 @strlen(ptr noundef %15) #8
  call void @llvm.memcpy.p0.p0.i32(ptr align 1 %13, ptr align 1 %14, i32 %16, i1 false)
  %17 = getelementptr inbounds [64 x i8], ptr %10, i32 0, i32 0
  %18 = load ptr, ptr %5, align 4
  %19 = load ptr, ptr %5, align 4
  %20 = call i32 @strlen(ptr noundef %19) #8
  call void @llvm.memcpy.p0.p0.i32(ptr align 1 %17, ptr align 1 %18, i32 %20, i1 false)
  store i32 0, ptr %12, align 4
  br label %21

21:                                               ; preds = %37, %4
  %22 = load i32, ptr %12, align 4
  %23 = icmp slt i32 %22, 64
  br i1 %23, label %24, label %40

24:                                               ; preds = %21
  %25 = load i32, ptr %12, align 4
  %26 = getelementptr inbounds [64 x i8], ptr %9, i32 0, i32 %25
  %27 = load i8, ptr %26, align 1
  %28 = zext i8 %27 to i32
  %29 = xor i32 %28, 54
  %30 = trunc i32 %29 to i8
  store i8 %30, ptr %26, align 1
  %31 = load i32, ptr %12, align 4
  %32 = getelementptr inbounds [64 x i8], ptr %10, i32 0, i32 %31
  %33 = load i8, ptr %32, align 1
  %34 = zext i8 %33 to i32
  %35 = xor i32 %34, 92
  %36 = trunc i32 %35 to i8
  store i8 %36, ptr %32, align 1
  br label %37

37:                                               ; preds = %24
  %38 = load i32, ptr %12, align 4
  %39 = add nsw i32 %38, 1
  store i32 %39, ptr %12, align 4
  br label %21, !llvm.loop !15

40:                                               ; preds = %21
  call void @begin(ptr noundef %11)
  %41 = getelementptr inbounds [64 x i8], ptr %9, i32 0, i32 0
  call void @add(ptr noundef %11, ptr noundef %41, i32 noundef 64)
  %42 = load ptr, ptr %6, align 4
  %43 = load i32, ptr %7, align 4
  call void @add(ptr noundef %11, ptr noundef %42, i32 noundef %43)
  %44 = load ptr, ptr %8, align 4
  call void @end(ptr noundef %11, ptr noundef %44)
  call void @begin(ptr noundef %11)
  %45 = getelementptr inbounds [64 x i8], ptr %10, i32 0, i32 0
  call void @add(ptr noundef %11, ptr noundef %45, i32 noundef 64)
  %46 = load ptr, ptr %8, align 4
  call void @add(ptr noundef %11, ptr noundef %46, i32 noundef 32)
  %47 = load ptr, ptr %8, align 4
  call void @end(ptr noundef %11, ptr noundef %47)
  ret void
}

; Function Attrs: nocallback nofree nounwind willreturn memory(argmem: write)
declare void @llvm.memset.p0.i32(ptr nocapture writeonly, i8, i32, i1 immarg) #4

; Function Attrs: noinline nounwind optnone uwtable
define internal void @begin(ptr noundef %0) #0 {
  %2 = alloca ptr, align 4
  store ptr %0, ptr %2, align 4
  %3 = load ptr, ptr %2, align 4
  %4 = getelementptr inbounds %struct.sha256, ptr %3, i32 0, i32 0
  %5 = getelementptr inbounds [8 x i32], ptr %4, i32 0, i32 0
  call void @llvm.memcpy.p0.p0.i32(ptr align 4 %5, ptr align 4 @begin.first, i32 32, i1 false)
  %6 = load ptr, ptr %2, align 4
  %7 = getelementptr inbounds %struct.sha256, ptr %6, i32 0, i32 1
  store i64 0, ptr %7, align 4
  %8 = load ptr, ptr %2, align 4
  %9 = getelementptr inbounds %struct.sha256, ptr %8, i32 0, i32 3
  store i32 0, ptr %9, align 4
  ret void
}

; Function Attrs: noinline nounwind optnone uwtable
define internal void @add(ptr noundef %0, ptr noundef %1, i32 noundef %2) #0 {
  %4 = alloca ptr, align 4
  %5 = alloca ptr, align 4
  %6 = alloca i32, align 4
  %7 = alloca ptr, align 4
  %8 = alloca i32, align 4
  store ptr %0, ptr %4, align 4
  store ptr %1, ptr %5, align 4
  store i32 %2, ptr %6, align 4
  %9 = load ptr, ptr %5, align 4
  store ptr %9, ptr %7, align 4
  %10 = load i32, ptr %6, align 4
  %11 = zext i32 %10 to i64
  %12 = load ptr, ptr %4, align 4
  %13 = getelementptr inbounds %struct.sha256, ptr %12, i32 0, i32 1
  %14 = load i64, ptr %13, align 4
  %15 = add i64 %14, %11
  store i64 %15, ptr %13, align 4
  br label %16

16:                                               ; preds = %68, %3
  %17 = load i32, ptr %6, align 4
  %18 = icmp ugt i32 %17, 0
  br i1 %18, label %19, label %69

19:                                               ; preds = %16
  %20 = load ptr, ptr %4, align 4
  %21 = getelementptr inbounds %struct.sha256, ptr %20, i32 0, i32 3
  %22 = load i32, ptr %21, align 4
  %23 = sub i32 64, %22
  %24 = load i32, ptr %6, align 4
  %25 = icmp ult i32 %23, %24
  br i1 %25, label %26, label %31

26:                                               ; preds = %19
  %27 = load ptr, ptr %4, align 4
  %28 = getelementptr inbounds %struct.sha256, ptr %27, i32 0, i32 3
  %29 = load i32, ptr %28, align 4
  %30 = sub i32 64, %29
  br label %33

31:                                               ; preds = %19
  %32 = load i32, ptr %6, align 4
  br label %33

33:                                               ; preds = %31, %26
  %34 = phi i32 [ %30, %26 ], [ %32, %31 ]
  store i32 %34, ptr %8, align 4
  %35 = load ptr, ptr %4, align 4
  %36 = getelementptr inbounds %struct.sha256, ptr %35, i32 0, i32 2
  %37 = getelementptr inbounds [64 x i8], ptr %36, i32 0, i32 0
  %38 = load ptr, ptr %4, align 4
  %39 = getelementptr inbounds %struct.sha256, ptr %38, i32 0, i32 3
  %40 = load i32, ptr %39, align 4
  %41 = getelementptr inbounds i8, ptr %37, i32 %40
  %42 = load ptr, ptr %7, align 4
  %43 = load i32, ptr %8, align 4
  call void @llvm.memcpy.p0.p0.i32(ptr align 1 %41, ptr align 1 %42, i32 %43, i1 false)
  %44 = load i32, ptr %8, align 4
  %45 = load ptr, ptr %4, align 4
  %46 = getelementptr inbounds %struct.sha256, ptr %45, i32 0, i32 3
  %47 = load i32, ptr %46, align 4
  %48 = add i32 %47, %44
  store i32 %48, ptr %46, align 4
  %49 = load i32, ptr %8, align 4
  %50 = load ptr, ptr %7, align 4
  %51 = getelementptr inbounds i8, ptr %50, i32 %49
  store ptr %51, ptr %7, align 4
  %52 = load i32, ptr %8, align 4
  %53 = load i32, ptr %6, align 4
  %54 = sub i32 %53, %52
  store i32 %54, ptr %6, align 4
  %55 = load ptr, ptr %4, align 4
  %56 = getelementptr inbounds %struct.sha256, ptr %55, i32 0, i32 3
  %57 = load i32, ptr %56, align 4
  %58 = icmp eq i32 %57, 64
  br i1 %58, label %59, label %68

59:                                               ; preds = %33
  %60 = load ptr, ptr %4, align 4
  %61 = getelementptr inbounds %struct.sha256, ptr %60, i32 0, i32 0
  %62 = getelementptr inbounds [8 x i32], ptr %61, i32 0, i32 0
  %63 = load ptr, ptr %4, align 4
  %64 = getelementptr inbounds %struct.sha256, ptr %63, i32 0, i32 2
  %65 = getelementptr inbounds [64 x i8], ptr %64, i32 0, i32 0
  call void @compress(ptr noundef %62, ptr noundef %65)
  %66 = load ptr, ptr %4, align 4
  %67 = getelementptr inbounds %struct.sha256, ptr %66, i32 0, i32 3
  store i32 0, ptr %67, align 4
  br label %68

68:                                               ; preds = %59, %33
  br label %16, !llvm.loop !16

69:                                               ; preds = %16
  ret void
}

; Function Attrs: noinline nounwind optnone uwtable
define internal void @end(ptr noundef %0, ptr noundef %1) #0 {
  %3 = alloca ptr, align 4
  %4 = alloca ptr, align 4
  %5 = alloca i64, align 8
  %6 = alloca [8 x i8], align 1
  %7 = alloca i32, align 4
  %8 = alloca i32, align 4
  store ptr %0, ptr %3, align 4
  store ptr %1, ptr %4, align 4
  %9 = load ptr, ptr %3, align 4
  %10 = getelementptr inbounds %struct.sha256, ptr %9, i32 0, i32 1
  %11 = load i64, ptr %10, align 4
  %12 = mul i64 %11, 8
  store i64 %12, ptr %5, align 8
  %13 = load ptr, ptr %3, align 4
  call void @add(ptr noundef %13, ptr noundef @.str.4, i32 noundef 1)
  br label %14

14:                                               ; preds = %19, %2
  %15 = load ptr, ptr %3, align 4
  %16 = getelementptr inbounds %struct.sha256, ptr %15, i32 0, i32 3
  %17 = load i32, ptr %16, align 4
  %18 = icmp ne i32 %17, 56
  br i1 %18, label %19, label %21

19:                                               ; preds = %14
  %20 = load ptr, ptr %3, align 4
  call void @add(ptr noundef %20, ptr noundef @.str.5, i32 noundef 1)
  br label %14, !llvm.loop !17

21:                                               ; preds = %14
  store i32 0, ptr %7, align 4
  br label %22

22:                                               ; preds = %35, %21
  %23 = load i32, ptr %7, align 4
  %24 = icmp slt i32 %23, 8
  br i1 %24, label %25, label %38

25:                                               ; preds = %22
  %26 = load i64, ptr %5, align 8
  %27 = load i32, ptr %7, align 4
  %28 = mul nsw i32 8, %27
  %29 = sub nsw i32 56, %28
  %30 = zext i32 %29 to i64
  %31 = lshr i64 %26, %30
  %32 = trunc i64 %31 to i8
  %33 = load i32, ptr %7, align 4
  %34 = getelementptr inbounds [8 x i8], ptr %6, i32 0, i32 %33
  store i8 %32, ptr %34, align 1
  br label %35

35:                                               ; preds = %25
  %36 = load i32, ptr %7, align 4
  %37 = add nsw i32 %36, 1
  store i32 %37, ptr %7, align 4
  br label %22, !llvm.loop !18

38:                                               ; preds = %22
  %39 = load ptr, ptr %3, align 4
  %40 = getelementptr inbounds [8 x i8], ptr %6, i32 0, i32 0
  call void @add(ptr noundef %39, ptr noundef %40, i32 noundef 8)
  store i32 0, ptr %8, align 4
  br label %41

41:                                               ; preds = %60, %38
  %42 = load i32, ptr %8, align 4
  %43 = icmp slt i32 %42, 32
  br i1 %43, label %44, label %63

44:                                               ; preds = %41
  %45 = load ptr, ptr %3, align 4
  %46 = getelementptr inbounds %struct.sha256, ptr %45, i32 0, i32 0
  %47 = load i32, ptr %8, align 4
  %48 = sdiv i32 %47, 4
  %49 = getelementptr inbounds [8 x i32], ptr %46, i32 0, i32 %48
  %50 = load i32, ptr %49, align 4
  %51 = load i32, ptr %8, align 4
  %52 = srem i32 %51, 4
  %53 = mul nsw i32 %52, 8
  %54 = sub nsw i32 24, %53
  %55 = lshr i32 %50, %54
  %56 = trunc i32 %55 to i8
  %57 = load ptr, ptr %4, align 4
  %58 = load i32, ptr %8, align 4
  %59 = getelementptr inbounds i8, ptr %57, i32 %58
  store i8 %56, ptr %59, align 1
  br label %60

60:                                               ; preds = %44
  %61 = load i32, ptr %8, align 4
  %62 = add nsw i32 %61, 1
  store i32 %62, ptr %8, align 4
  br label %41, !llvm.loop !19

63:                                               ; preds = %41
  ret void
}

; Function Attrs: noinline nounwind optnone uwtable
define internal void @compress(ptr noundef %0, ptr noundef %1) #0 {
  %3 = alloca ptr, align 4
  %4 = alloca ptr, align 4
  %5 = alloca [64 x i32], align 4
  %6 = alloca [8 x i32], align 4
  %7 = alloca i32, align 4
  %8 = alloca i32, align 4
  %9 = alloca i32, align 4
  %10 = alloca i32, align 4
  %11 = alloca i32, align 4
  %12 = alloca i32, align 4
  %13 = alloca i32, align 4
  %14 = alloca i32, align 4
  %15 = alloca i32, align 4
  %16 = alloca i32, align 4
  store ptr %0, ptr %3, align 4
  store ptr %1, ptr %4, align 4
  store i32 0, ptr %7, align 4
  br label %17

17:                                               ; preds = %28, %2
  %18 = load i32, ptr %7, align 4
  %19 = icmp slt i32 %18, 16
  br i1 %19, label %20, label %31

20:                                               ; preds = %17
  %21 = load ptr, ptr %4, align 4
  %22 = load i32, ptr %7, align 4
  %23 = mul nsw i32 4, %22
  %24 = getelementptr inbounds i8, ptr %21, i32 %23
  %25 = call i32 @word_at(ptr noundef %24)
  %26 = load i32, ptr %7, align 4
  %27 = getelementptr inbounds [64 x i32], ptr %5, i32 0, i32 %26
  store i32 %25, ptr %27, align 4
  br label %28

28:                                               ; preds = %20
  %29 = load i32, ptr %7, align 4
  %30 = add nsw i32 %29, 1
  store i32 %30, ptr %7, align 4
  br label %17, !llvm.loop !20

31:                                               ; preds = %17
  store i32 16, ptr %8, align 4
  br label %32

32:                                               ; preds = %73, %31
  %33 = load i32, ptr %8, align 4
  %34 = icmp slt i32 %33, 64
  br i1 %34, label %35, label %76

35:                                               ; preds = %32
  %36 = load i32, ptr %8, align 4
  %37 = sub nsw i32 %36, 15
  %38 = getelementptr inbounds [64 x i32], ptr %5, i32 0, i32 %37
  %39 = load i32, ptr %38, align 4
  store i32 %39, ptr %9, align 4
  %40 = load i32, ptr %8, align 4
  %41 = sub nsw i32 %40, 2
  %42 = getelementptr inbounds [64 x i32], ptr %5, i32 0, i32 %41
  %43 = load i32, ptr %42, align 4
  store i32 %43, ptr %10, align 4
  %44 = load i32, ptr %8, align 4
  %45 = sub nsw i32 %44, 16
  %46 = getelementptr inbounds [64 x i32], ptr %5, i32 0, i32 %45
  %47 = load i32, ptr %46, align 4
  %48 = load i32, ptr %9, align 4
  %49 = call i32 @turned(i32 noundef %48, i32 noundef 7)
  %50 = load i32, ptr %9, align 4
  %51 = call i32 @turned(i32 noundef %50, i32 noundef 18)
  %52 = xor i32 %49, %51
  %53 = load i32, ptr %9, align 4
  %54 = lshr i32 %53, 3
  %55 = xor i32 %52, %54
  %56 = add i32 %47, %55
  %57 = load i32, ptr %8, align 4
  %58 = sub nsw i32 %57, 7
  %59 = getelementptr inbounds [64 x i32], ptr %5, i32 0, i32 %58
  %60 = load i32, ptr %59, align 4
  %61 = add i32 %56, %60
  %62 = load i32, ptr %10, align 4
  %63 = call i32 @turned(i32 noundef %62, i32 noundef 17)
  %64 = load i32, ptr %10, align 4
  %65 = call i32 @turned(i32 noundef %64, i32 noundef 19)
  %66 = xor i32 %63, %65
  %67 = load i32, ptr %10, align 4
  %68 = lshr i32 %67, 10
  %69 = xor i32 %66, %68
  %70 = add i32 %61, %69
  %71 = load i32, ptr %8, align 4
  %72 = getelementptr inbounds [64 x i32], ptr %5, i32 0, i32 %71
  store i32 %70, ptr %72, align 4
  br label %73

73:                                               ; preds = %35
  %74 = load i32, ptr %8, align 4
  %75 = add nsw i32 %74, 1
  store i32 %75, ptr %8, align 4
  br label %32, !llvm.loop !21

76:                                               ; preds = %32
  %77 = getelementptr inbounds [8 x i32], ptr %6, i32 0, i32 0
  %78 = load ptr, ptr %3, align 4
  call void @llvm.memcpy.p0.p0.i32(ptr align 4 %77, ptr align 4 %78, i32 32, i1 false)
  store i32 0, ptr %11, align 4
  br label %79

79:                                               ; preds = %160, %76
  %80 = load i32, ptr %11, align 4
  %81 = icmp slt i32 %80, 64
  br i1 %81, label %82, label %163

82:                                               ; preds = %79
  %83 = getelementptr inbounds [8 x i32], ptr %6, i32 0, i32 4
  %84 = load i32, ptr %83, align 4
  %85 = getelementptr inbounds [8 x i32], ptr %6, i32 0, i32 5
  %86 = load i32, ptr %85, align 4
  %87 = and i32 %84, %86
  %88 = getelementptr inbounds [8 x i32], ptr %6, i32 0, i32 4
  %89 = load i32, ptr %88, align 4
  %90 = xor i32 %89, -1
  %91 = getelementptr inbounds [8 x i32], ptr %6, i32 0, i32 6
  %92 = load i32, ptr %91, align 4
  %93 = and i32 %90, %92
  %94 = xor i32 %87, %93
  store i32 %94, ptr %12, align 4
  %95 = getelementptr inbounds [8 x i32], ptr %6, i32 0, i32 0
  %96 = load i32, ptr %95, align 4
  %97 = getelementptr inbounds [8 x i32], ptr %6, i32 0, i32 1
  %98 = load i32, ptr %97, align 4
  %99 = and i32 %96, %98
  %100 = getelementptr inbounds [8 x i32], ptr %6, i32 0, i32 0
  %101 = load i32, ptr %100, align 4
  %102 = getelementptr inbounds [8 x i32], ptr %6, i32 0, i32 2
  %103 = load i32, ptr %102, align 4
  %104 = and i32 %101, %103
  %105 = xor i32 %99, %104
  %106 = getelementptr inbounds [8 x i32], ptr %6, i32 0, i32 1
  %107 = load i32, ptr %106, align 4
  %108 = getelementptr inbounds [8 x i32], ptr %6, i32 0, i32 2
  %109 = load i32, ptr %108, align 4
  %110 = and i32 %107, %109
  %111 = xor i32 %105, %110
  store i32 %111, ptr %13, align 4
  %112 = getelementptr inbounds [8 x i32], ptr %6, i32 0, i32 7
  %113 = load i32, ptr %112, align 4
  %114 = getelementptr inbounds [8 x i32], ptr %6, i32 0, i32 4
  %115 = load i32, ptr %114, align 4
  %116 = call i32 @turned(i32 noundef %115, i32 noundef 6)
  %117 = getelementptr inbounds [8 x i32], ptr %6, i32 0, i32 4
  %118 = load i32, ptr %117, align 4
  %119 = call i32 @turned(i32 noundef %118, i32 noundef 11)
  %120 = xor i32 %116, %119
  %121 = getelementptr inbounds [8 x i32], ptr %6, i32 0, i32 4
  %122 = load i32, ptr %121, align 4
  %123 = call i32 @turned(i32 noundef %122, i32 noundef 25)
  %124 = xor i32 %120, %123
  %125 = add i32 %113, %124
  %126 = load i32, ptr %12, align 4
  %127 = add i32 %125, %126
  %128 = load i32, ptr %11, align 4
  %129 = getelementptr inbounds [64 x i32], ptr @constants, i32 0, i32 %128
  %130 = load i32, ptr %129, align 4
  %131 = add i32 %127, %130
  %132 = load i32, ptr %11, align 4
  %133 = getelementptr inbounds [64 x i32], ptr %5, i32 0, i32 %132
  %134 = load i32, ptr %133, align 4
  %135 = add i32 %131, %134
  store i32 %135, ptr %14, align 4
  %136 = getelementptr inbounds [8 x i32], ptr %6, i32 0, i32 0
  %137 = load i32, ptr %136, align 4
  %138 = call i32 @turned(i32 noundef %137, i32 noundef 2)
  %139 = getelementptr inbounds [8 x i32], ptr %6, i32 0, i32 0
  %140 = load i32, ptr %139, align 4
  %141 = call i32 @turned(i32 noundef %140, i32 noundef 13)
  %142 = xor i32 %138, %141
  %143 = getelementptr inbounds [8 x i32], ptr %6, i32 0, i32 0
  %144 = load i32, ptr %143, align 4
  %145 = call i32 @turned(i32 noundef %144, i32 noundef 22)
  %146 = xor i32 %142, %145
  %147 = load i32, ptr %13, align 4
  %148 = add i32 %146, %147
  store i32 %148, ptr %15, align 4
  %149 = getelementptr inbounds [8 x i32], ptr %6, i32 0, i32 0
  %150 = getelementptr inbounds i32, ptr %149, i32 1
  %151 = getelementptr inbounds [8 x i32], ptr %6, i32 0, i32 0
  call void @llvm.memmove.p0.p0.i32(ptr align 4 %150, ptr align 4 %151, i32 28, i1 false)
  %152 = load i32, ptr %14, align 4
  %153 = getelementptr inbounds [8 x i32], ptr %6, i32 0, i32 4
  %154 = load i32, ptr %153, align 4
  %155 = add i32 %154, %152
  store i32 %155, ptr %153, align 4
  %156 = load i32, ptr %14, align 4
  %157 = load i32, ptr %15, align 4
  %158 = add i32 %156, %157
  %159 = getelementptr inbounds [8 x i32], ptr %6, i32 0, i32 0
  store i32 %158, ptr %159, align 4
  br label %160

160:                                              ; preds = %82
  %161 = load i32, ptr %11, align 4
  %162 = add nsw i32 %161, 1
  store i32 %162, ptr %11, align 4
  br label %79, !llvm.loop !22

163:                                              ; preds = %79
  store i32 0, ptr %16, align 4
  br label %164

164:                                              ; preds = %176, %163
  %165 = load i32, ptr %16, align 4
  %166 = icmp slt i32 %165, 8
  br i1 %166, label %167, label %179

167:                                              ; preds = %164
  %168 = load i32, ptr %16, align 4
  %169 = getelementptr inbounds [8 x i32], ptr %6, i32 0, i32 %168
  %170 = load i32, ptr %169, align 4
  %171 = load ptr, ptr %3, align 4
  %172 = load i32, ptr %16, align 4
  %173 = getelementptr inbounds i32, ptr %171, i32 %172
  %174 = load i32, ptr %173, align 4
  %175 = add i32 %174, %170
  store i32 %175, ptr %173, align 4
  br label %176

176:                                              ; preds = %167
  %177 = load i32, ptr %16, align 4
  %178 = add nsw i32 %177, 1
  store i32 %178, ptr %16, align 4
  br label %164, !llvm.loop !23

179:                                              ; preds = %164
  ret void
}

; Function Attrs: noinline nounwind optnone uwtable
define internal i32 @word_at(ptr noundef %0) #0 {
  %2 = alloca ptr, align 4
  store ptr %0, ptr %2, align 4
  %3 = load ptr, ptr %2, align 4
  %4 = getelementptr inbounds i8, ptr %3, i32 0
  %5 = load i8, ptr %4, align 1
  %6 = zext i8 %5 to i32
  %7 = shl i32 %6, 24
  %8 = load ptr, ptr %2, align 4
  %9 = getelementptr inbounds i8, ptr %8, i32 1
  %10 = load i8, ptr %9, align 1
  %11 = zext i8 %10 to i32
  %12 = shl i32 %11, 16
  %13 = or i32 %7, %12
  %14 = load ptr, ptr %2, align 4
  %15 = getelementptr inbounds i8, ptr %14, i32 2
  %16 = load i8, ptr %15, align 1
  %17 = zext i8 %16 to i32
  %18 = shl i32 %17, 8
  %19 = or i32 %13, %18
  %20 = load ptr, ptr %2, align 4
  %21 = getelementptr inbounds i8, ptr %20, i32 3
  %22 = load i8, ptr %21, align 1
  %23 = zext i8 %22 to i32
  %24 = or i32 %19, %23
  ret i32 %24
}

; Function Attrs: noinline nounwind optnone uwtable
define internal i32 @turned(i32 noundef %0, i32 noundef %1) #0 {
  %3 = alloca i32, align 4
  %4 = alloca i32, align 4
  store i32 %0, ptr %3, align 4
  store i32 %1, ptr %4, align 4
  %5 = load i32, ptr %3, align 4
  %6 = load i32, ptr %4, align 4
  %7 = lshr i32 %5, %6
  %8 = load i32, ptr %3, align 4
  %9 = load i32, ptr %4, align 4
  %10 = sub nsw i32 32, %9
  %11 = shl i32 %8, %10
  %12 = or i32 %7, %11
  ret i32 %12
}

; Function Attrs: nocallback nofree nounwind willreturn memory(argmem: readwrite)
declare void @llvm.memmove.p0.p0.i32(ptr nocapture writeonly, ptr nocapture readonly, i32, i1 immarg) #3

; Function Attrs: nounwind optsize uwtable
define internal i32 @__print_unsigned(ptr nocapture noundef %0, i64 noundef %1, i32 noundef %2, i32 noundef %3, i32 noundef %4, i32 noundef %5) #1 {
  %7 = alloca [24 x i8], align 1
  call void @llvm.lifetime.start.p0(i64 24, ptr nonnull %7) #8
  %8 = and i32 %3, 32
  %9 = icmp eq i32 %8, 0
  %10 = select i1 %9, ptr @.str.9, ptr @.str.8.14
  %11 = icmp ult i64 %1, 4294967296
  br i1 %11, label %14, label %12

12:                                               ; preds = %6
  %13 = zext i32 %2 to i64
  br label %27

14:                                               ; preds = %6
  %15 = trunc nuw i64 %1 to i32
  %16 = icmp eq i32 %15, 0
  br i1 %16, label %40, label %17

17:                                               ; preds = %17, %14
  %18 = phi i32 [ %25, %17 ], [ %15, %14 ]
  %19 = phi i32 [ %23, %17 ], [ 24, %14 ]
  %20 = urem i32 %18, %2
  %21 = getelementptr inbounds i8, ptr %10, i32 %20
  %22 = load i8, ptr %21, align 1, !tbaa !9
  %23 = add nsw i32 %19, -1
  %24 = getelementptr inbounds i8, ptr %7, i32 %23
  store i8 %22, ptr %24, align 1, !tbaa !9
  %25 = udiv i32 %18, %2
  %26 = icmp ult i32 %18, %2
  br i1 %26, label %40, label %17, !llvm.loop !24

27:                                               ; preds = %27, %12
  %28 = phi i32 [ 24, %12 ], [ %37, %27 ]
  %29 = phi i64 [ %1, %12 ], [ %31, %27 ]
  %30 = freeze i64 %29
  %31 = udiv i64 %30, %13
  %32 = mul i64 %31, %13
  %33 = sub i64 %30, %32
  %34 = trunc nuw i64 %33 to i32
  %35 = getelementptr inbounds i8, ptr %10, i32 %34
  %36 = load i8, ptr %35, align 1, !tbaa !9
  %37 = add nsw i32 %28, -1
  %38 = getelementptr inbounds i8, ptr %7, i32 %37
  store i8 %36, ptr %38, align 1, !tbaa !9
  %39 = icmp ult i64 %29, %13
  br i1 %39, label %40, label %27, !llvm.loop !25

40:                                               ; preds = %27, %17, %14
  %41 = phi i32 [ 24, %14 ], [ %23, %17 ], [ %37, %27 ]
  %42 = icmp eq i64 %1, 0
  %43 = icmp ne i32 %5, 0
  %44 = and i1 %42, %43
  br i1 %44, label %45, label %48

45:                                               ; preds = %40
  %46 = add nsw i32 %41, -1
  %47 = getelementptr inbounds i8, ptr %7, i32 %46
  store i8 48, ptr %47, align 1, !tbaa !9
  br label %48

48:                                               ; preds = %45, %40
  %49 = phi i32 [ %46, %45 ], [ %41, %40 ]
  %50 = getelementptr inbounds i8, ptr %7, i32 %49
  %51 = and i32 %3, 8
  %52 = icmp ne i32 %51, 0
  %53 = icmp eq i32 %2, 8
  %54 = and i1 %53, %52
  %55 = sub nsw i32 24, %49
  %56 = icmp sge i32 %55, %5
  %57 = select i1 %54, i1 %56, i1 false
  br i1 %57, label %58, label %65

58:                                               ; preds = %48
  %59 = icmp eq i32 %49, 24
  br i1 %59, label %63, label %60

60:                                               ; preds = %58
  %61 = load i8, ptr %50, align 1, !tbaa !9
  %62 = icmp eq i8 %61, 48
  br i1 %62, label %65, label %63

63:                                               ; preds = %60, %58
  %64 = getelementptr inbounds i8, ptr %50, i32 -1
  store i8 48, ptr %64, align 1, !tbaa !9
  br label %65

65:                                               ; preds = %63, %60, %48
  %66 = phi ptr [ %64, %63 ], [ %50, %60 ], [ %50, %48 ]
  %67 = getelementptr inbounds i8, ptr %7, i32 24
  %68 = ptrtoint ptr %67 to i32
  %69 = icmp eq i32 %2, 16
  %70 = icmp ne i64 %1, 0
  %71 = and i1 %70, %69
  %72 = and i1 %71, %52
  %73 = select i1 %9, ptr @.str.6, ptr @.str.5.15
  %74 = select i1 %72, ptr %73, ptr @.str.8
  %75 = ptrtoint ptr %66 to i32
  %76 = sub i32 %68, %75
  %77 = call fastcc i32 @number(ptr noundef %0, ptr noundef nonnull %74, ptr noundef nonnull %66, i32 noundef %76, i32 noundef %3, i32 noundef %4, i32 noundef %5) #9
  call void @llvm.lifetime.end.p0(i64 24, ptr nonnull %7) #8
  ret i32 %77
}

; Function Attrs: nounwind optsize uwtable
define internal noundef i32 @__print_text(ptr nocapture noundef %0, ptr nocapture noundef readonly %1, i32 noundef returned %2) #1 {
  %4 = load i8, ptr %0, align 4, !tbaa !26, !alias.scope !30, !noalias !33
  %5 = icmp eq i8 %4, 0
  %6 = icmp eq i32 %2, 0
  %7 = or i1 %6, %5
  br i1 %7, label %16, label %8

8:                                                ; preds = %8, %3
  %9 = phi i32 [ %14, %8 ], [ 0, %3 ]
  %10 = getelementptr inbounds i8, ptr %1, i32 %9
  %11 = load i8, ptr %10, align 1, !tbaa !9, !alias.scope !33, !noalias !30
  %12 = zext i8 %11 to i32
  %13 = tail call i32 @fputc(i32 noundef %12, ptr noundef nonnull %0) #9, !noalias !33
  %14 = add nuw i32 %9, 1
  %15 = icmp eq i32 %14, %2
  br i1 %15, label %16, label %8, !llvm.loop !35

16:                                               ; preds = %8, %3
  ret i32 %2
}

; Function Attrs: nounwind optsize uwtable
define internal i32 @__print_string(ptr nocapture noundef %0, ptr noundef %1, i32 noundef %2, i32 noundef %3, i32 noundef %4) #1 {
  %6 = icmp eq ptr %1, null
  %7 = icmp ult i32 %4, 6
  %8 = select i1 %7, ptr @.str.8, ptr @.str.1.9
  %9 = select i1 %6, ptr %8, ptr %1
  %10 = icmp slt i32 %4, 0
  br i1 %10, label %11, label %20

11:                                               ; preds = %11, %5
  %12 = phi ptr [ %15, %11 ], [ %9, %5 ]
  %13 = load i8, ptr %12, align 1, !tbaa !9
  %14 = icmp eq i8 %13, 0
  %15 = getelementptr inbounds i8, ptr %12, i32 1
  br i1 %14, label %16, label %11, !llvm.loop !13

16:                                               ; preds = %11
  %17 = ptrtoint ptr %12 to i32
  %18 = ptrtoint ptr %9 to i32
  %19 = sub i32 %17, %18
  br label %30

20:                                               ; preds = %5
  %21 = icmp eq i32 %4, 0
  br i1 %21, label %30, label %22

22:                                               ; preds = %27, %20
  %23 = phi i32 [ %28, %27 ], [ 0, %20 ]
  %24 = getelementptr inbounds i8, ptr %9, i32 %23
  %25 = load i8, ptr %24, align 1, !tbaa !9
  %26 = icmp eq i8 %25, 0
  br i1 %26, label %30, label %27

27:                                               ; preds = %22
  %28 = add nuw nsw i32 %23, 1
  %29 = icmp eq i32 %28, %4
  br i1 %29, label %30, label %22, !llvm.loop !36

30:                                               ; preds = %27, %22, %20, %16
  %31 = phi i32 [ %19, %16 ], [ 0, %20 ], [ %23, %22 ], [ %4, %27 ]
  %32 = tail call fastcc i32 @padded(ptr noundef %0, ptr noundef nonnull %9, i32 noundef %31, i32 noundef %2, i32 noundef %3) #9
  ret i32 %32
}

; Function Attrs: nounwind optsize uwtable
define internal fastcc i32 @padded(ptr nocapture noundef %0, ptr nocapture noundef readonly %1, i32 noundef %2, i32 noundef %3, i32 noundef %4) unnamed_addr #1 {
  %6 = icmp slt i32 %4, 0
  %7 = lshr i32 %4, 31
  %8 = icmp ne i32 %7, 0
  %9 = sub i32 0, %4
  %10 = select i1 %8, i32 %9, i32 %4
  %11 = sub nsw i32 %10, %2
  %12 = and i32 %3, 1
  %13 = icmp ne i32 %12, 0
  %14 = or i1 %6, %13
  br i1 %14, label %24, label %15

15:                                               ; preds = %5
  %16 = icmp sgt i32 %11, 0
  br i1 %16, label %17, label %22

17:                                               ; preds = %17, %15
  %18 = phi i32 [ %20, %17 ], [ 0, %15 ]
  %19 = tail call i32 @fputc(i32 noundef 32, ptr noundef %0) #9
  %20 = add nuw nsw i32 %18, 1
  %21 = icmp eq i32 %20, %11
  br i1 %21, label %22, label %17, !llvm.loop !37

22:                                               ; preds = %17, %15
  %23 = tail call noundef i32 @llvm.smax.i32(i32 %11, i32 0)
  br label %24

24:                                               ; preds = %22, %5
  %25 = phi i32 [ %23, %22 ], [ 0, %5 ]
  %26 = load i8, ptr %0, align 4, !tbaa !26, !alias.scope !38, !noalias !41
  %27 = icmp eq i8 %26, 0
  %28 = icmp eq i32 %2, 0
  %29 = or i1 %28, %27
  br i1 %29, label %38, label %30

30:                                               ; preds = %30, %24
  %31 = phi i32 [ %36, %30 ], [ 0, %24 ]
  %32 = getelementptr inbounds i8, ptr %1, i32 %31
  %33 = load i8, ptr %32, align 1, !tbaa !9, !alias.scope !41, !noalias !38
  %34 = zext i8 %33 to i32
  %35 = tail call i32 @fputc(i32 noundef %34, ptr noundef nonnull %0) #9, !noalias !41
  %36 = add nuw i32 %31, 1
  %37 = icmp eq i32 %36, %2
  br i1 %37, label %38, label %30, !llvm.loop !35

38:                                               ; preds = %30, %24
  br i1 %14, label %39, label %48

39:                                               ; preds = %38
  %40 = icmp sgt i32 %11, 0
  br i1 %40, label %41, label %46

41:                                               ; preds = %41, %39
  %42 = phi i32 [ %44, %41 ], [ 0, %39 ]
  %43 = tail call i32 @fputc(i32 noundef 32, ptr noundef nonnull %0) #9
  %44 = add nuw nsw i32 %42, 1
  %45 = icmp eq i32 %44, %11
  br i1 %45, label %46, label %41, !llvm.loop !37

46:                                               ; preds = %41, %39
  %47 = tail call noundef i32 @llvm.smax.i32(i32 %11, i32 0)
  br label %48

48:                                               ; preds = %46, %38
  %49 = phi i32 [ %47, %46 ], [ 0, %38 ]
  %50 = add nsw i32 %25, %2
  %51 = add nsw i32 %50, %49
  ret i32 %51
}

; Function Attrs: nounwind optsize uwtable
define internal range(i32 -1, 256) i32 @fputc(i32 noundef %0, ptr nocapture noundef %1) local_unnamed_addr #1 {
  %3 = load i8, ptr %1, align 4, !tbaa !26
  switch i8 %3, label %17 [
    i8 1, label %4
    i8 3, label %6
    i8 0, label %19
  ]

4:                                                ; preds = %2
  %5 = tail call i32 @putchar(i32 noundef %0) #10
  br label %17

6:                                                ; preds = %2
  %7 = getelementptr inbounds i8, ptr %1, i32 8
  %8 = load i32, ptr %7, align 4, !tbaa !43
  %9 = icmp eq i32 %8, 0
  br i1 %9, label %17, label %10

10:                                               ; preds = %6
  %11 = trunc i32 %0 to i8
  %12 = getelementptr inbounds i8, ptr %1, i32 4
  %13 = load ptr, ptr %12, align 4, !tbaa !44
  %14 = getelementptr inbounds i8, ptr %13, i32 1
  store ptr %14, ptr %12, align 4, !tbaa !44
  store i8 %11, ptr %13, align 1, !tbaa !9
  %15 = load i32, ptr %7, align 4, !tbaa !43
  %16 = add i32 %15, -1
  store i32 %16, ptr %7, align 4, !tbaa !43
  br label %17

17:                                               ; preds = %10, %6, %4, %2
  %18 = and i32 %0, 255
  br label %19

19:                                               ; preds = %17, %2
  %20 = phi i32 [ %18, %17 ], [ -1, %2 ]
  ret i32 %20
}

; Function Attrs: nocallback nofree nosync nounwind speculatable willreturn memory(none)
declare i32 @llvm.smax.i32(i32, i32) #5

; Function Attrs: optsize
declare dso_local i32 @putchar(i32 noundef) local_unnamed_addr #6

; Function Attrs: nocallback nofree nosync nounwind willreturn memory(argmem: readwrite)
declare void @llvm.lifetime.start.p0(i64 immarg, ptr nocapture) #7

; Function Attrs: nounwind optsize uwtable
define internal fastcc i32 @number(ptr nocapture noundef %0, ptr noundef %1, ptr nocapture noundef readonly %2, i32 noundef %3, i32 noundef %4, i32 noundef %5, i32 noundef %6) unnamed_addr #1 {
  br label %8

8:                                                ; preds = %8, %7
  %9 = phi ptr [ %1, %7 ], [ %12, %8 ]
  %10 = load i8, ptr %9, align 1, !tbaa !9
  %11 = icmp eq i8 %10, 0
  %12 = getelementptr inbounds i8, ptr %9, i32 1
  br i1 %11, label %13, label %8, !llvm.loop !13

13:                                               ; preds = %8
  %14 = ptrtoint ptr %9 to i32
  %15 = ptrtoint ptr %1 to i32
  %16 = sub i32 %14, %15
  %17 = sub nsw i32 %6, %3
  %18 = lshr i32 %5, 31
  %19 = icmp ne i32 %18, 0
  %20 = sub i32 0, %5
  %21 = select i1 %19, i32 %20, i32 %5
  %22 = lshr i32 %5, 31
  %23 = tail call i32 @llvm.smax.i32(i32 %17, i32 0)
  %24 = icmp slt i32 %6, 0
  %25 = and i32 %4, 16
  %26 = icmp ne i32 %25, 0
  %27 = and i1 %26, %24
  %28 = and i32 %4, 1
  %29 = or i32 %22, %28
  %30 = icmp eq i32 %29, 0
  %31 = and i1 %27, %30
  %32 = add i32 %16, %3
  %33 = icmp sgt i32 %21, %32
  %34 = select i1 %31, i1 %33, i1 false
  %35 = sub i32 %21, %32
  %36 = select i1 %34, i32 %35, i32 %23
  %37 = add i32 %32, %36
  %38 = sub i32 %21, %37
  br i1 %30, label %39, label %48

39:                                               ; preds = %13
  %40 = icmp sgt i32 %38, 0
  br i1 %40, label %41, label %46

41:                                               ; preds = %41, %39
  %42 = phi i32 [ %44, %41 ], [ 0, %39 ]
  %43 = tail call i32 @fputc(i32 noundef 32, ptr noundef %0) #9
  %44 = add nuw nsw i32 %42, 1
  %45 = icmp eq i32 %44, %38
  br i1 %45, label %46, label %41, !llvm.loop !37

46:                                               ; preds = %41, %39
  %47 = tail call noundef i32 @llvm.smax.i32(i32 %38, i32 0)
  br label %48

48:                                               ; preds = %46, %13
  %49 = phi i32 [ 0, %13 ], [ %47, %46 ]
  %50 = load i8, ptr %0, align 4, !tbaa !26, !alias.scope !45, !noalias !48
  %51 = icmp eq i8 %50, 0
  %52 = icmp eq ptr %9, %1
  %53 = or i1 %52, %51
  br i1 %53, label %62, label %54

54:                                               ; preds = %54, %48
  %55 = phi i32 [ %60, %54 ], [ 0, %48 ]
  %56 = getelementptr inbounds i8, ptr %1, i32 %55
  %57 = load i8, ptr %56, align 1, !tbaa !9, !alias.scope !48, !noalias !45
  %58 = zext i8 %57 to i32
  %59 = tail call i32 @fputc(i32 noundef %58, ptr noundef nonnull %0) #9, !noalias !48
  %60 = add nuw i32 %55, 1
  %61 = icmp eq i32 %60, %16
  br i1 %61, label %62, label %54, !llvm.loop !35

62:                                               ; preds = %54, %48
  %63 = icmp sgt i32 %36, 0
  br i1 %63, label %64, label %69

64:                                               ; preds = %64, %62
  %65 = phi i32 [ %67, %64 ], [ 0, %62 ]
  %66 = tail call i32 @fputc(i32 noundef 48, ptr noundef nonnull %0) #9
  %67 = add nuw nsw i32 %65, 1
  %68 = icmp eq i32 %67, %36
  br i1 %68, label %69, label %64, !llvm.loop !37

69:                                               ; preds = %64, %62
  %70 = tail call noundef i32 @llvm.smax.i32(i32 %36, i32 0)
  %71 = load i8, ptr %0, align 4, !tbaa !26, !alias.scope !50, !noalias !53
  %72 = icmp eq i8 %71, 0
  %73 = icmp eq i32 %3, 0
  %74 = or i1 %73, %72
  br i1 %74, label %83, label %75

75:                                               ; preds = %75, %69
  %76 = phi i32 [ %81, %75 ], [ 0, %69 ]
  %77 = getelementptr inbounds i8, ptr %2, i32 %76
  %78 = load i8, ptr %77, align 1, !tbaa !9, !alias.scope !53, !noalias !50
  %79 = zext i8 %78 to i32
  %80 = tail call i32 @fputc(i32 noundef %79, ptr noundef nonnull %0) #9, !noalias !53
  %81 = add nuw i32 %76, 1
  %82 = icmp eq i32 %81, %3
  br i1 %82, label %83, label %75, !llvm.loop !35

83:                                               ; preds = %75, %69
  %84 = add i32 %32, %70
  %85 = add i32 %84, %49
  br i1 %30, label %96, label %86

86:                                               ; preds = %83
  %87 = icmp sgt i32 %38, 0
  br i1 %87, label %88, label %93

88:                                               ; preds = %88, %86
  %89 = phi i32 [ %91, %88 ], [ 0, %86 ]
  %90 = tail call i32 @fputc(i32 noundef 32, ptr noundef nonnull %0) #9
  %91 = add nuw nsw i32 %89, 1
  %92 = icmp eq i32 %91, %38
  br i1 %92, label %93, label %88, !llvm.loop !37

93:                                               ; preds = %88, %86
  %94 = tail call noundef i32 @llvm.smax.i32(i32 %38, i32 0)
  %95 = add nsw i32 %85, %94
  br label %96

96:                                               ; preds = %93, %83
  %97 = phi i32 [ %95, %93 ], [ %85, %83 ]
  ret i32 %97
}

; Function Attrs: nocallback nofree nosync nounwind willreturn memory(argmem: readwrite)
declare void @llvm.lifetime.end.p0(i64 immarg, ptr nocapture) #7

; Function Attrs: nofree norecurse nosync nounwind optsize memory(read, inaccessiblemem: none) uwtable
define internal fastcc i32 @span(ptr nocapture noundef readonly %0, ptr nocapture noundef readonly %1, i32 noundef %2) unnamed_addr #2 {
  %4 = alloca [256 x i8], align 1
  call void @llvm.lifetime.start.p0(i64 256, ptr nonnull %4) #8
  br label %5

5:                                                ; preds = %5, %3
  %6 = phi ptr [ %4, %3 ], [ %9, %5 ]
  %7 = phi i32 [ 256, %3 ], [ %8, %5 ]
  %8 = add nsw i32 %7, -1
  %9 = getelementptr inbounds i8, ptr %6, i32 1
  store i8 0, ptr %6, align 1, !tbaa !9
  %10 = icmp eq i32 %8, 0
  br i1 %10, label %11, label %5, !llvm.loop !55

11:                                               ; preds = %5
  %12 = load i8, ptr %1, align 1, !tbaa !9
  %13 = icmp eq i8 %12, 0
  br i1 %13, label %14, label %17

14:                                               ; preds = %17, %11
  %15 = load i8, ptr %0, align 1, !tbaa !9
  %16 = icmp eq i8 %15, 0
  br i1 %16, label %38, label %25

17:                                               ; preds = %17, %11
  %18 = phi i8 [ %23, %17 ], [ %12, %11 ]
  %19 = phi ptr [ %20, %17 ], [ %1, %11 ]
  %20 = getelementptr inbounds i8, ptr %19, i32 1
  %21 = zext i8 %18 to i32
  %22 = getelementptr inbounds [256 x i8], ptr %4, i32 0, i32 %21
  store i8 1, ptr %22, align 1, !tbaa !9
  %23 = load i8, ptr %20, align 1, !tbaa !9
  %24 = icmp eq i8 %23, 0
  br i1 %24, label %14, label %17, !llvm.loop !56

25:                                               ; preds = %33, %14
  %26 = phi i8 [ %36, %33 ], [ %15, %14 ]
  %27 = phi i32 [ %34, %33 ], [ 0, %14 ]
  %28 = zext i8 %26 to i32
  %29 = getelementptr inbounds [256 x i8], ptr %4, i32 0, i32 %28
  %30 = load i8, ptr %29, align 1, !tbaa !9
  %31 = zext i8 %30 to i32
  %32 = icmp eq i32 %31, %2
  br i1 %32, label %33, label %38

33:                                               ; preds = %25
  %34 = add i32 %27, 1
  %35 = getelementptr inbounds i8, ptr %0, i32 %34
  %36 = load i8, ptr %35, align 1, !tbaa !9
  %37 = icmp eq i8 %36, 0
  br i1 %37, label %38, label %25, !llvm.loop !57

38:                                               ; preds = %33, %25, %14
  %39 = phi i32 [ 0, %14 ], [ %34, %33 ], [ %27, %25 ]
  call void @llvm.lifetime.end.p0(i64 256, ptr nonnull %4) #8
  ret i32 %39
}

; Function Attrs: nounwind optsize uwtable
define internal i32 @fgetc(ptr nocapture noundef %0) local_unnamed_addr #1 {
  %2 = load i8, ptr %0, align 4, !tbaa !26
  %3 = icmp eq i8 %2, 0
  br i1 %3, label %4, label %20

4:                                                ; preds = %1
  %5 = getelementptr inbounds i8, ptr %0, i32 2
  %6 = load i8, ptr %5, align 2, !tbaa !58
  %7 = icmp eq i8 %6, 0
  br i1 %7, label %12, label %8

8:                                                ; preds = %4
  store i8 0, ptr %5, align 2, !tbaa !58
  %9 = getelementptr inbounds i8, ptr %0, i32 3
  %10 = load i8, ptr %9, align 1, !tbaa !59
  %11 = zext i8 %10 to i32
  br label %20

12:                                               ; preds = %4
  %13 = getelementptr inbounds i8, ptr %0, i32 1
  %14 = load i8, ptr %13, align 1, !tbaa !60
  %15 = icmp eq i8 %14, 0
  br i1 %15, label %16, label %20

16:                                               ; preds = %12
  %17 = tail call i32 @getchar() #10
  %18 = icmp eq i32 %17, -1
  br i1 %18, label %19, label %20

19:                                               ; preds = %16
  store i8 1, ptr %13, align 1, !tbaa !60
  br label %20

20:                                               ; preds = %19, %16, %12, %8, %1
  %21 = phi i32 [ %11, %8 ], [ -1, %1 ], [ -1, %12 ], [ -1, %19 ], [ %17, %16 ]
  ret i32 %21
}

; Function Attrs: optsize
declare dso_local i32 @getchar() local_unnamed_addr #6

attributes #0 = { noinline nounwind optnone uwtable "frame-pointer"="all" "min-legal-vector-width"="0" "no-trapping-math"="true" "stack-protector-buffer-size"="8" "target-cpu"="i686" "target-features"="+cmov,+cx8,+x87" "tune-cpu"="generic" }
attributes #1 = { nounwind optsize uwtable "min-legal-vector-width"="0" "no-builtins" "no-jump-tables"="true" "no-trapping-math"="true" "stack-protector-buffer-size"="8" "target-cpu"="i686" "target-features"="+cmov,+cx8,+x87" "tune-cpu"="generic" }
attributes #2 = { nofree norecurse nosync nounwind optsize memory(read, inaccessiblemem: none) uwtable "min-legal-vector-width"="0" "no-builtins" "no-jump-tables"="true" "no-trapping-math"="true" "stack-protector-buffer-size"="8" "target-cpu"="i686" "target-features"="+cmov,+cx8,+x87" "tune-cpu"="generic" }
attributes #3 = { nocallback nofree nounwind willreturn memory(argmem: readwrite) }
attributes #4 = { nocallback nofree nounwind willreturn memory(argmem: write) }
attributes #5 = { nocallback nofree nosync nounwind speculatable willreturn memory(none) }
attributes #6 = { optsize "no-builtins" "no-trapping-math"="true" "stack-protector-buffer-size"="8" "target-cpu"="i686" "target-features"="+cmov,+cx8,+x87" "tune-cpu"="generic" }
attributes #7 = { nocallback nofree nosync nounwind willreturn memory(argmem: readwrite) }
attributes #8 = { nounwind }
attributes #9 = { nobuiltin optsize "no-builtins" }
attributes #10 = { nobuiltin nounwind optsize "no-builtins" }

!llvm.ident = !{!0, !0, !0}
!llvm.module.flags = !{!1, !2, !3, !4, !5, !6}

!0 = !{!"Debian clang version 19.1.7 (3~deb12u1)"}
!1 = !{i32 1, !"NumRegisterParameters", i32 0}
!2 = !{i32 7, !"Dwarf Version", i32 5}
!3 = !{i32 2, !"Debug Info Version", i32 3}
!4 = !{i32 1, !"wchar_size", i32 4}
!5 = !{i32 7, !"uwtable", i32 2}
!6 = !{i32 7, !"frame-pointer", i32 2}
!7 = distinct !{!7, !8}
!8 = !{!"llvm.loop.mustprogress"}
!9 = !{!10, !10, i64 0}
!10 = !{!"omnipotent char", !11, i64 0}
!11 = !{!"Simple C/C++ TBAA"}
!12 = distinct !{!12, !8}
!13 = distinct !{!13, !8}
!14 = distinct !{!14, !8}
!15 = distinct !{!15, !8}
!16 = distinct !{!16, !8}
!17 = distinct !{!17, !8}
!18 = distinct !{!18, !8}
!19 = distinct !{!19, !8}
!20 = distinct !{!20, !8}
!21 = distinct !{!21, !8}
!22 = distinct !{!22, !8}
!23 = distinct !{!23, !8}
!24 = distinct !{!24, !8}
!25 = distinct !{!25, !8}
!26 = !{!27, !10, i64 0}
!27 = !{!"__stream", !10, i64 0, !10, i64 1, !10, i64 2, !10, i64 3, !28, i64 4, !29, i64 8}
!28 = !{!"any pointer", !10, i64 0}
!29 = !{!"int", !10, i64 0}
!30 = !{!31}
!31 = distinct !{!31, !32, !"fwrite: %stream"}
!32 = distinct !{!32, !"fwrite"}
!33 = !{!34}
!34 = distinct !{!34, !32, !"fwrite: %from"}
!35 = distinct !{!35, !8}
!36 = distinct !{!36, !8}
!37 = distinct !{!37, !8}
!38 = !{!39}
!39 = distinct !{!39, !40, !"fwrite: %stream"}
!40 = distinct !{!40, !"fwrite"}
!41 = !{!42}
!42 = distinct !{!42, !40, !"fwrite: %from"}
!43 = !{!27, !29, i64 8}
!44 = !{!27, !28, i64 4}
!45 = !{!46}
!46 = distinct !{!46, !47, !"fwrite: %stream"}
!47 = distinct !{!47, !"fwrite"}
!48 = !{!49}
!49 = distinct !{!49, !47, !"fwrite: %from"}
!50 = !{!51}
!51 = distinct !{!51, !52, !"fwrite: %stream"}
!52 = distinct !{!52, !"fwrite"}
!53 = !{!54}
!54 = distinct !{!54, !52, !"fwrite: %from"}
!55 = distinct !{!55, !8}
!56 = distinct !{!56, !8}
!57 = distinct !{!57, !8}
!58 = !{!27, !10, i64 2}
!59 = !{!27, !10, i64 3}
!60 = !{!27, !10, i64 1}
