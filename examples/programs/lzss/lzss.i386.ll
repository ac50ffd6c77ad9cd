source_filename = "buffer.c"
target datalayout = "e-m:e-p:32:32-p270:32:32-p271:32:32-p272:64:64-i128:128-f64:32:64-f80:32-n8:16:32-S128"
target triple = "i386-unknown-linux-gnu"

%struct.packer = type { ptr, i32, [1024 x i32], [4096 x i32], ptr, i32, i32 }
%struct.__stream = type { i8, i8, i8, i8, ptr, i32 }
%struct.buffer = type { ptr, i32, i32 }

@.str = private unnamed_addr constant [15 x i8] c"out of memory\0A\00", align 1
@.str.1 = private unnamed_addr constant [36 x i8] c"%zu bytes become %zu, %zu per cent\0A\00", align 1
@.str.1.2 = private unnamed_addr constant [8 x i8] c"refused\00", align 1
@.str.2 = private unnamed_addr constant [26 x i8] c"checksums %08x %08x %08x\0A\00", align 1
@.str.3 = private unnamed_addr constant [6 x i8] c"equal\00", align 1
@.str.4 = private unnamed_addr constant [10 x i8] c"different\00", align 1
@.str.5 = private unnamed_addr constant [7 x i8] c"%04zx \00", align 1
@.str.6 = private unnamed_addr constant [6 x i8] c" %02x\00", align 1
@.str.7 = private unnamed_addr constant [2 x i8] c"\0A\00", align 1
@.str.8 = private unnamed_addr constant [45 x i8] c"damaged: %d refused, %d differ, %d the same\0A\00", align 1
@lzss_pack.it = internal global %struct.packer zeroinitializer, align 4
@.str.9 = private unnamed_addr constant [52 x i8] c"distance > 0 && distance < WINDOW && length <= MOST\00", align 1
@.str.1.10 = private unnamed_addr constant [9 x i8] c"./pack.c\00", align 1
@__func__.lzss_pack = private unnamed_addr constant [10 x i8] c"lzss_pack\00", align 1
@.str.10 = private unnamed_addr constant [1 x i8] zeroinitializer, align 1
@.str.2.12 = private unnamed_addr constant [2 x i8] c"-\00", align 1
@.str.3.13 = private unnamed_addr constant [2 x i8] c"+\00", align 1
@.str.4.11 = private unnamed_addr constant [2 x i8] c" \00", align 1
@.str.5.18 = private unnamed_addr constant [3 x i8] c"0X\00", align 1
@.str.6.17 = private unnamed_addr constant [3 x i8] c"0x\00", align 1
@.str.8.16 = private unnamed_addr constant [17 x i8] c"0123456789ABCDEF\00", align 1
@.str.9.9 = private unnamed_addr constant [17 x i8] c"0123456789abcdef\00", align 1
@__streams = internal global [3 x %struct.__stream] [%struct.__stream zeroinitializer, %struct.__stream { i8 1, i8 0, i8 0, i8 0, ptr null, i32 0 }, %struct.__stream { i8 2, i8 0, i8 0, i8 0, ptr null, i32 0 }], align 4

; Function Attrs: noinline nounwind optnone uwtable
define dso_local i32 @main() #0 {
  %1 = alloca i32, align 4
  %2 = alloca %struct.buffer, align 4
  %3 = alloca %struct.buffer, align 4
  %4 = alloca %struct.buffer, align 4
  %5 = alloca i32, align 4
  store i32 0, ptr %1, align 4
  call void @llvm.memset.p0.i32(ptr align 4 %2, i8 0, i32 12, i1 false)
  call void @llvm.memset.p0.i32(ptr align 4 %3, i8 0, i32 12, i1 false)
  call void @llvm.memset.p0.i32(ptr align 4 %4, i8 0, i32 12, i1 false)
  call void @read_all(ptr noundef %2)
  %6 = getelementptr inbounds %struct.buffer, ptr %2, i32 0, i32 0
  %7 = load ptr, ptr %6, align 4
  %8 = getelementptr inbounds %struct.buffer, ptr %2, i32 0, i32 1
  %9 = load i32, ptr %8, align 4
  call void @lzss_pack(ptr noundef %3, ptr noundef %7, i32 noundef %9)
  %10 = getelementptr inbounds %struct.buffer, ptr %2, i32 0, i32 1
  %11 = load i32, ptr %10, align 4
  %12 = getelementptr inbounds %struct.buffer, ptr %3, i32 0, i32 1
  %13 = load i32, ptr %12, align 4
  %14 = getelementptr inbounds %struct.buffer, ptr %2, i32 0, i32 1
  %15 = load i32, ptr %14, align 4
  %16 = icmp ne i32 %15, 0
  br i1 %16, label %17, label %24

17:                                               ; preds = %0
  %18 = getelementptr inbounds %struct.buffer, ptr %3, i32 0, i32 1
  %19 = load i32, ptr %18, align 4
  %20 = mul i32 100, %19
  %21 = getelementptr inbounds %struct.buffer, ptr %2, i32 0, i32 1
  %22 = load i32, ptr %21, align 4
  %23 = udiv i32 %20, %22
  br label %25

24:                                               ; preds = %0
  br label %25

25:                                               ; preds = %24, %17
  %26 = phi i32 [ %23, %17 ], [ 100, %24 ]
  %27 = zext i32 %11 to i64
  %28 = call i32 @__print_unsigned(ptr getelementptr inbounds ([3 x { i8, i8, i8, i8, ptr, i32 }], ptr @__streams, i32 0, i32 1), i64 %27, i32 10, i32 0, i32 0, i32 -1)
  %29 = call i32 @__print_text(ptr getelementptr inbounds ([3 x { i8, i8, i8, i8, ptr, i32 }], ptr @__streams, i32 0, i32 1), ptr getelementptr inbounds (i8, ptr @.str.1, i32 3), i32 14)
  %30 = zext i32 %13 to i64
  %31 = call i32 @__print_unsigned(ptr getelementptr inbounds ([3 x { i8, i8, i8, i8, ptr, i32 }], ptr @__streams, i32 0, i32 1), i64 %30, i32 10, i32 0, i32 0, i32 -1)
  %32 = call i32 @__print_text(ptr getelementptr inbounds ([3 x { i8, i8, i8, i8, ptr, i32 }], ptr @__streams, i32 0, i32 1), ptr getelementptr inbounds (i8, ptr @.str.1, i32 20), i32 2)
  %33 = zext i32 %26 to i64
  %34 = call i32 @__print_unsigned(ptr getelementptr inbounds ([3 x { i8, i8, i8, i8, ptr, i32 }], ptr @__streams, i32 0, i32 1), i64 %33, i32 10, i32 0, i32 0, i32 -1)
  %35 = call i32 @__print_text(ptr getelementptr inbounds ([3 x { i8, i8, i8, i8, ptr, i32 }], ptr @__streams, i32 0, i32 1), ptr getelementptr inbounds (i8, ptr @.str.1, i32 25), i32 10)
  %36 = add i32 %28, %29
  %37 = add i32 %36, %31
  %38 = add i32 %37, %32
  %39 = add i32 %38, %34
  %40 = add i32 %39, %35
  %41 = add i32 %40, 0
  call void @dump(ptr noundef %3, i32 noundef 64)
  %42 = getelementptr inbounds %struct.buffer, ptr %3, i32 0, i32 0
  %43 = load ptr, ptr %42, align 4
  %44 = getelementptr inbounds %struct.buffer, ptr %3, i32 0, i32 1
  %45 = load i32, ptr %44, align 4
  %46 = call i32 @lzss_unpack(ptr noundef %4, ptr noundef %43, i32 noundef %45)
  %47 = icmp ne i32 %46, 0
  br i1 %47, label %50, label %48

48:                                               ; preds = %25
  %49 = call i32 @puts(ptr noundef @.str.1.2)
  store i32 1, ptr %1, align 4
  br label %109

50:                                               ; preds = %25
  %51 = getelementptr inbounds %struct.buffer, ptr %2, i32 0, i32 0
  %52 = load ptr, ptr %51, align 4
  %53 = getelementptr inbounds %struct.buffer, ptr %2, i32 0, i32 1
  %54 = load i32, ptr %53, align 4
  %55 = call i32 @checksum(ptr noundef %52, i32 noundef %54)
  %56 = getelementptr inbounds %struct.buffer, ptr %3, i32 0, i32 0
  %57 = load ptr, ptr %56, align 4
  %58 = getelementptr inbounds %struct.buffer, ptr %3, i32 0, i32 1
  %59 = load i32, ptr %58, align 4
  %60 = call i32 @checksum(ptr noundef %57, i32 noundef %59)
  %61 = getelementptr inbounds %struct.buffer, ptr %4, i32 0, i32 0
  %62 = load ptr, ptr %61, align 4
  %63 = getelementptr inbounds %struct.buffer, ptr %4, i32 0, i32 1
  %64 = load i32, ptr %63, align 4
  %65 = call i32 @checksum(ptr noundef %62, i32 noundef %64)
  %66 = call i32 @__print_text(ptr getelementptr inbounds ([3 x { i8, i8, i8, i8, ptr, i32 }], ptr @__streams, i32 0, i32 1), ptr @.str.2, i32 10)
  %67 = zext i32 %55 to i64
  %68 = call i32 @__print_unsigned(ptr getelementptr inbounds ([3 x { i8, i8, i8, i8, ptr, i32 }], ptr @__streams, i32 0, i32 1), i64 %67, i32 16, i32 16, i32 8, i32 -1)
  %69 = call i32 @__print_text(ptr getelementptr inbounds ([3 x { i8, i8, i8, i8, ptr, i32 }], ptr @__streams, i32 0, i32 1), ptr getelementptr inbounds (i8, ptr @.str.2, i32 14), i32 1)
  %70 = zext i32 %60 to i64
  %71 = call i32 @__print_unsigned(ptr getelementptr inbounds ([3 x { i8, i8, i8, i8, ptr, i32 }], ptr @__streams, i32 0, i32 1), i64 %70, i32 16, i32 16, i32 8, i32 -1)
  %72 = call i32 @__print_text(ptr getelementptr inbounds ([3 x { i8, i8, i8, i8, ptr, i32 }], ptr @__streams, i32 0, i32 1), ptr getelementptr inbounds (i8, ptr @.str.2, i32 19), i32 1)
  %73 = zext i32 %65 to i64
  %74 = call i32 @__print_unsigned(ptr getelementptr inbounds ([3 x { i8, i8, i8, i8, ptr, i32 }], ptr @__streams, i32 0, i32 1), i64 %73, i32 16, i32 16, i32 8, i32 -1)
  %75 = call i32 @__print_text(ptr getelementptr inbounds ([3 x { i8, i8, i8, i8, ptr, i32 }], ptr @__streams, i32 0, i32 1), ptr getelementptr inbounds (i8, ptr @.str.2, i32 24), i32 1)
  %76 = add i32 %66, %68
  %77 = add i32 %76, %69
  %78 = add i32 %77, %71
  %79 = add i32 %78, %72
  %80 = add i32 %79, %74
  %81 = add i32 %80, %75
  %82 = add i32 %81, 0
  %83 = getelementptr inbounds %struct.buffer, ptr %4, i32 0, i32 1
  %84 = load i32, ptr %83, align 4
  %85 = getelementptr inbounds %struct.buffer, ptr %2, i32 0, i32 1
  %86 = load i32, ptr %85, align 4
  %87 = icmp eq i32 %84, %86
  br i1 %87, label %88, label %97

88:                                               ; preds = %50
  %89 = getelementptr inbounds %struct.buffer, ptr %4, i32 0, i32 0
  %90 = load ptr, ptr %89, align 4
  %91 = getelementptr inbounds %struct.buffer, ptr %2, i32 0, i32 0
  %92 = load ptr, ptr %91, align 4
  %93 = getelementptr inbounds %struct.buffer, ptr %2, i32 0, i32 1
  %94 = load i32, ptr %93, align 4
  %95 = call i32 @memcmp(ptr noundef %90, ptr noundef %92, i32 noundef %94)
  %96 = icmp eq i32 %95, 0
  br label %97

97:                                               ; preds = %88, %50
  %98 = phi i1 [ false, %50 ], [ %96, %88 ]
  %99 = zext i1 %98 to i32
  store i32 %99, ptr %5, align 4
  %100 = load i32, ptr %5, align 4
  %101 = icmp ne i32 %100, 0
  %102 = zext i1 %101 to i64
  %103 = select i1 %101, ptr @.str.3, ptr @.str.4
  %104 = call i32 @puts(ptr noundef %103)
  call void @damage(ptr noundef %3, ptr noundef %2)
  call void @buffer_free(ptr noundef %2)
  call void @buffer_free(ptr noundef %3)
  call void @buffer_free(ptr noundef %4)
  %105 = load i32, ptr %5, align 4
  %106 = icmp ne i32 %105, 0
  %107 = zext i1 %106 to i64
  %108 = select i1 %106, i32 0, i32 1
  store i32 %108, ptr %1, align 4
  br label %109

109:                                              ; preds = %97, %48
  %110 = load i32, ptr %1, align 4
  ret i32 %110
}

; Function Attrs: nocallback nofree nounwind willreturn memory(argmem: write)
declare void @llvm.memset.p0.i32(ptr nocapture writeonly, i8, i32, i1 immarg) #1

; Function Attrs: noinline nounwind optnone uwtable
define internal void @read_all(ptr noundef %0) #0 {
  %2 = alloca ptr, align 4
  %3 = alloca [100 x i8], align 1
  %4 = alloca i32, align 4
  %5 = alloca i32, align 4
  store ptr %0, ptr %2, align 4
  br label %6

6:                                                ; preds = %23, %1
  %7 = getelementptr inbounds [100 x i8], ptr %3, i32 0, i32 0
  %8 = call i32 @fread(ptr noundef %7, i32 noundef 1, i32 noundef 100, ptr noundef @__streams)
  store i32 %8, ptr %4, align 4
  %9 = icmp ugt i32 %8, 0
  br i1 %9, label %10, label %24

10:                                               ; preds = %6
  store i32 0, ptr %5, align 4
  br label %11

11:                                               ; preds = %20, %10
  %12 = load i32, ptr %5, align 4
  %13 = load i32, ptr %4, align 4
  %14 = icmp ult i32 %12, %13
  br i1 %14, label %15, label %23

15:                                               ; preds = %11
  %16 = load ptr, ptr %2, align 4
  %17 = load i32, ptr %5, align 4
  %18 = getelementptr inbounds [100 x i8], ptr %3, i32 0, i32 %17
  %19 = load i8, ptr %18, align 1
  call void @buffer_add(ptr noundef %16, i8 noundef zeroext %19)
  br label %20

20:                                               ; preds = %15
  %21 = load i32, ptr %5, align 4
  %22 = add i32 %21, 1
  store i32 %22, ptr %5, align 4
  br label %11, !llvm.loop !7

23:                                               ; preds = %11
  br label %6, !llvm.loop !9

24:                                               ; preds = %6
  ret void
}

; Function Attrs: noinline nounwind optnone uwtable
define internal void @lzss_pack(ptr noundef %0, ptr noundef %1, i32 noundef %2) #0 {
  %4 = alloca ptr, align 4
  %5 = alloca ptr, align 4
  %6 = alloca i32, align 4
  %7 = alloca i32, align 4
  %8 = alloca i32, align 4
  %9 = alloca i32, align 4
  %10 = alloca i32, align 4
  store ptr %0, ptr %4, align 4
  store ptr %1, ptr %5, align 4
  store i32 %2, ptr %6, align 4
  call void @llvm.memset.p0.i32(ptr align 4 @lzss_pack.it, i8 0, i32 20500, i1 false)
  store i32 0, ptr %7, align 4
  br label %11

11:                                               ; preds = %17, %3
  %12 = load i32, ptr %7, align 4
  %13 = icmp slt i32 %12, 1024
  br i1 %13, label %14, label %20

14:                                               ; preds = %11
  %15 = load i32, ptr %7, align 4
  %16 = getelementptr inbounds [1024 x i32], ptr getelementptr inbounds (%struct.packer, ptr @lzss_pack.it, i32 0, i32 2), i32 0, i32 %15
  store i32 -1, ptr %16, align 4
  br label %17

17:                                               ; preds = %14
  %18 = load i32, ptr %7, align 4
  %19 = add nsw i32 %18, 1
  store i32 %19, ptr %7, align 4
  br label %11, !llvm.loop !10

20:                                               ; preds = %11
  %21 = load ptr, ptr %5, align 4
  store ptr %21, ptr @lzss_pack.it, align 4
  %22 = load i32, ptr %6, align 4
  store i32 %22, ptr getelementptr inbounds (%struct.packer, ptr @lzss_pack.it, i32 0, i32 1), align 4
  %23 = load ptr, ptr %4, align 4
  store ptr %23, ptr getelementptr inbounds (%struct.packer, ptr @lzss_pack.it, i32 0, i32 4), align 4
  store i32 8, ptr getelementptr inbounds (%struct.packer, ptr @lzss_pack.it, i32 0, i32 6), align 4
  store i32 0, ptr %8, align 4
  br label %24

24:                                               ; preds = %75, %20
  %25 = load i32, ptr %8, align 4
  %26 = load i32, ptr %6, align 4
  %27 = icmp ult i32 %25, %26
  br i1 %27, label %28, label %76

28:                                               ; preds = %24
  store i32 0, ptr %9, align 4
  %29 = load i32, ptr %8, align 4
  %30 = call i32 @longest(ptr noundef @lzss_pack.it, i32 noundef %29, ptr noundef %9)
  store i32 %30, ptr %10, align 4
  %31 = load i32, ptr %10, align 4
  %32 = icmp ugt i32 %31, 0
  %33 = zext i1 %32 to i32
  call void @flag(ptr noundef @lzss_pack.it, i32 noundef %33)
  %34 = load i32, ptr %10, align 4
  %35 = icmp eq i32 %34, 0
  br i1 %35, label %36, label %42

36:                                               ; preds = %28
  %37 = load ptr, ptr %4, align 4
  %38 = load ptr, ptr %5, align 4
  %39 = load i32, ptr %8, align 4
  %40 = getelementptr inbounds i8, ptr %38, i32 %39
  %41 = load i8, ptr %40, align 1
  call void @buffer_add(ptr noundef %37, i8 noundef zeroext %41)
  store i32 1, ptr %10, align 4
  br label %67

42:                                               ; preds = %28
  %43 = load i32, ptr %9, align 4
  %44 = icmp ugt i32 %43, 0
  br i1 %44, label %45, label %52

45:                                               ; preds = %42
  %46 = load i32, ptr %9, align 4
  %47 = icmp ult i32 %46, 4096
  br i1 %47, label %48, label %52

48:                                               ; preds = %45
  %49 = load i32, ptr %10, align 4
  %50 = icmp ule i32 %49, 18
  br i1 %50, label %51, label %52

51:                                               ; preds = %48
  br label %54

52:                                               ; preds = %48, %45, %42
  call void @__assert_fail(ptr noundef @.str.9, ptr noundef @.str.1.10, i32 noundef 80, ptr noundef @__func__.lzss_pack) #12
  unreachable

53:                                               ; No predecessors!
  br label %54

54:                                               ; preds = %53, %51
  %55 = load ptr, ptr %4, align 4
  %56 = load i32, ptr %9, align 4
  %57 = and i32 %56, 255
  %58 = trunc i32 %57 to i8
  call void @buffer_add(ptr noundef %55, i8 noundef zeroext %58)
  %59 = load ptr, ptr %4, align 4
  %60 = load i32, ptr %9, align 4
  %61 = lshr i32 %60, 8
  %62 = shl i32 %61, 4
  %63 = load i32, ptr %10, align 4
  %64 = sub i32 %63, 3
  %65 = or i32 %62, %64
  %66 = trunc i32 %65 to i8
  call void @buffer_add(ptr noundef %59, i8 noundef zeroext %66)
  br label %67

67:                                               ; preds = %54, %36
  br label %68

68:                                               ; preds = %72, %67
  %69 = load i32, ptr %10, align 4
  %70 = add i32 %69, -1
  store i32 %70, ptr %10, align 4
  %71 = icmp ugt i32 %69, 0
  br i1 %71, label %72, label %75

72:                                               ; preds = %68
  %73 = load i32, ptr %8, align 4
  %74 = add i32 %73, 1
  store i32 %74, ptr %8, align 4
  call void @remember(ptr noundef @lzss_pack.it, i32 noundef %73)
  br label %68, !llvm.loop !11

75:                                               ; preds = %68
  br label %24, !llvm.loop !12

76:                                               ; preds = %24
  ret void
}

; Function Attrs: nounwind optsize uwtable
define internal i32 @__print_unsigned(ptr nocapture noundef %0, i64 noundef %1, i32 noundef %2, i32 noundef %3, i32 noundef %4, i32 noundef %5) #2 {
  %7 = alloca [24 x i8], align 1
  call void @llvm.lifetime.start.p0(i64 24, ptr nonnull %7) #13
  %8 = and i32 %3, 32
  %9 = icmp eq i32 %8, 0
  %10 = select i1 %9, ptr @.str.9.9, ptr @.str.8.16
  %11 = icmp ult i64 %1, 4294967296
  br i1 %11, label %14, label %12

12:                                               ; preds = %6
  %13 = zext i32 %2 to i64
  br label %27

14:                                               ; preds = %6
  %15 = trunc nuw i64 %1 to i32
  %16 = icmp eq i32 %15, 0
  br i1 %16, label %40, label %17

17:                                               ; preds = %17, %14
  %18 = phi i32 [ %25, %17 ], [ %15, %14 ]
  %19 = phi i32 [ %23, %17 ], [ 24, %14 ]
  %20 = urem i32 %18, %2
  %21 = getelementptr inbounds i8, ptr %10, i32 %20
  %22 = load i8, ptr %21, align 1, !tbaa !13
  %23 = add nsw i32 %19, -1
  %24 = getelementptr inbounds i8, ptr %7, i32 %23
  store i8 %22, ptr %24, align 1, !tbaa !13
  %25 = udiv i32 %18, %2
  %26 = icmp ult i32 %18, %2
  br i1 %26, label %40, label %17, !llvm.loop !16

27:                                               ; preds = %27, %12
  %28 = phi i32 [ 24, %12 ], [ %37, %27 ]
  %29 = phi i64 [ %1, %12 ], [ %31, %27 ]
  %30 = freeze i64 %29
  %31 = udiv i64 %30, %13
  %32 = mul i64 %31, %13
  %33 = sub i64 %30, %32
  %34 = trunc nuw i64 %33 to i32
  %35 = getelementptr inbounds i8, ptr %10, i32 %34
  %36 = load i8, ptr %35, align 1, !tbaa !13
  %37 = add nsw i32 %28, -1
  %38 = getelementptr inbounds i8, ptr %7, i32 %37
  store i8 %36, ptr %38, align 1, !tbaa !13
  %39 = icmp ult i64 %29, %13
  br i1 %39, label %40, label %27, !llvm.loop !17

40:                                               ; preds = %27, %17, %14
  %41 = phi i32 [ 24, %14 ], [ %23, %17 ], [ %37, %27 ]
  %42 = icmp eq i64 %1, 0
  %43 = icmp ne i32 %5, 0
  %44 = and i1 %42, %43
  br i1 %44, label %45, label %48

45:                                               ; preds = %40
  %46 = add nsw i32 %41, -1
  %47 = getelementptr inbounds i8, ptr %7, i32 %46
  store i8 48, ptr %47, align 1, !tbaa !13
  br label %48

48:                                               ; preds = %45, %40
  %49 = phi i32 [ %46, %45 ], [ %41, %40 ]
  %50 = getelementptr inbounds i8, ptr %7, i32 %49
  %51 = and i32 %3, 8
  %52 = icmp ne i32 %51, 0
  %53 = icmp eq i32 %2, 8
  %54 = and i1 %53, %52
  %55 = sub nsw i32 24, %49
  %56 = icmp sge i32 %55, %5
  %57 = select i1 %54, i1 %56, i1 false
  br i1 %57, label %58, label %65

58:                                               ; preds = %48
  %59 = icmp eq i32 %49, 24
  br i1 %59, label %63, label %60

60:                                               ; preds = %58
  %61 = load i8, ptr %50, align 1, !tbaa !13
  %62 = icmp eq i8 %61, 48
  br i1 %62, label %65, label %63

63:                                               ; preds = %60, %58
  %64 = getelementptr inbounds i8, ptr %50, i32 -1
  store i8 48, ptr %64, align 1, !tbaa !13
  br label %65

65:                                               ; preds = %63, %60, %48
  %66 = phi ptr [ %64, %63 ], [ %50, %60 ], [ %50, %48 ]
  %67 = getelementptr inbounds i8, ptr %7, i32 24
  %68 = ptrtoint ptr %67 to i32
  %69 = icmp eq i32 %2, 16
  %70 = icmp ne i64 %1, 0
  %71 = and i1 %70, %69
  %72 = and i1 %71, %52
  %73 = select i1 %9, ptr @.str.6.17, ptr @.str.5.18
  %74 = select i1 %72, ptr %73, ptr @.str.10
  %75 = ptrtoint ptr %66 to i32
  %76 = sub i32 %68, %75
  %77 = call fastcc i32 @number(ptr noundef %0, ptr noundef nonnull %74, ptr noundef nonnull %66, i32 noundef %76, i32 noundef %3, i32 noundef %4, i32 noundef %5) #14
  call void @llvm.lifetime.end.p0(i64 24, ptr nonnull %7) #13
  ret i32 %77
}

; Function Attrs: nounwind optsize uwtable
define internal noundef i32 @__print_text(ptr nocapture noundef %0, ptr nocapture noundef readonly %1, i32 noundef returned %2) #2 {
  %4 = load i8, ptr %0, align 4, !tbaa !18, !alias.scope !22, !noalias !25
  %5 = icmp eq i8 %4, 0
  %6 = icmp eq i32 %2, 0
  %7 = or i1 %6, %5
  br i1 %7, label %16, label %8

8:                                                ; preds = %8, %3
  %9 = phi i32 [ %14, %8 ], [ 0, %3 ]
  %10 = getelementptr inbounds i8, ptr %1, i32 %9
  %11 = load i8, ptr %10, align 1, !tbaa !13, !alias.scope !25, !noalias !22
  %12 = zext i8 %11 to i32
  %13 = tail call i32 @fputc(i32 noundef %12, ptr noundef nonnull %0) #14, !noalias !25
  %14 = add nuw i32 %9, 1
  %15 = icmp eq i32 %14, %2
  br i1 %15, label %16, label %8, !llvm.loop !27

16:                                               ; preds = %8, %3
  ret i32 %2
}

; Function Attrs: noinline nounwind optnone uwtable
define internal void @dump(ptr noundef %0, i32 noundef %1) #0 {
  %3 = alloca ptr, align 4
  %4 = alloca i32, align 4
  %5 = alloca i32, align 4
  %6 = alloca i32, align 4
  store ptr %0, ptr %3, align 4
  store i32 %1, ptr %4, align 4
  store i32 0, ptr %5, align 4
  br label %7

7:                                                ; preds = %63, %2
  %8 = load i32, ptr %5, align 4
  %9 = load ptr, ptr %3, align 4
  %10 = getelementptr inbounds %struct.buffer, ptr %9, i32 0, i32 1
  %11 = load i32, ptr %10, align 4
  %12 = icmp ult i32 %8, %11
  br i1 %12, label %13, label %17

13:                                               ; preds = %7
  %14 = load i32, ptr %5, align 4
  %15 = load i32, ptr %4, align 4
  %16 = icmp ult i32 %14, %15
  br label %17

17:                                               ; preds = %13, %7
  %18 = phi i1 [ false, %7 ], [ %16, %13 ]
  br i1 %18, label %19, label %66

19:                                               ; preds = %17
  %20 = load i32, ptr %5, align 4
  %21 = zext i32 %20 to i64
  %22 = call i32 @__print_unsigned(ptr getelementptr inbounds ([3 x { i8, i8, i8, i8, ptr, i32 }], ptr @__streams, i32 0, i32 1), i64 %21, i32 16, i32 16, i32 4, i32 -1)
  %23 = call i32 @__print_text(ptr getelementptr inbounds ([3 x { i8, i8, i8, i8, ptr, i32 }], ptr @__streams, i32 0, i32 1), ptr getelementptr inbounds (i8, ptr @.str.5, i32 5), i32 1)
  %24 = add i32 %22, %23
  %25 = add i32 %24, 0
  %26 = load i32, ptr %5, align 4
  store i32 %26, ptr %6, align 4
  br label %27

27:                                               ; preds = %57, %19
  %28 = load i32, ptr %6, align 4
  %29 = load i32, ptr %5, align 4
  %30 = add i32 %29, 16
  %31 = icmp ult i32 %28, %30
  br i1 %31, label %32, label %42

32:                                               ; preds = %27
  %33 = load i32, ptr %6, align 4
  %34 = load ptr, ptr %3, align 4
  %35 = getelementptr inbounds %struct.buffer, ptr %34, i32 0, i32 1
  %36 = load i32, ptr %35, align 4
  %37 = icmp ult i32 %33, %36
  br i1 %37, label %38, label %42

38:                                               ; preds = %32
  %39 = load i32, ptr %6, align 4
  %40 = load i32, ptr %4, align 4
  %41 = icmp ult i32 %39, %40
  br label %42

42:                                               ; preds = %38, %32, %27
  %43 = phi i1 [ false, %32 ], [ false, %27 ], [ %41, %38 ]
  br i1 %43, label %44, label %60

44:                                               ; preds = %42
  %45 = load ptr, ptr %3, align 4
  %46 = getelementptr inbounds %struct.buffer, ptr %45, i32 0, i32 0
  %47 = load ptr, ptr %46, align 4
  %48 = load i32, ptr %6, align 4
  %49 = getelementptr inbounds i8, ptr %47, i32 %48
  %50 = load i8, ptr %49, align 1
  %51 = zext i8 %50 to i32
  %52 = call i32 @__print_text(ptr getelementptr inbounds ([3 x { i8, i8, i8, i8, ptr, i32 }], ptr @__streams, i32 0, i32 1), ptr @.str.6, i32 1)
  %53 = zext i32 %51 to i64
  %54 = call i32 @__print_unsigned(ptr getelementptr inbounds ([3 x { i8, i8, i8, i8, ptr, i32 }], ptr @__streams, i32 0, i32 1), i64 %53, i32 16, i32 16, i32 2, i32 -1)
  %55 = add i32 %52, %54
  %56 = add i32 %55, 0
  br label %57

57:                                               ; preds = %44
  %58 = load i32, ptr %6, align 4
  %59 = add i32 %58, 1
  store i32 %59, ptr %6, align 4
  br label %27, !llvm.loop !28

60:                                               ; preds = %42
  %61 = call i32 @__print_text(ptr getelementptr inbounds ([3 x { i8, i8, i8, i8, ptr, i32 }], ptr @__streams, i32 0, i32 1), ptr @.str.7, i32 1)
  %62 = add i32 %61, 0
  br label %63

63:                                               ; preds = %60
  %64 = load i32, ptr %5, align 4
  %65 = add i32 %64, 16
  store i32 %65, ptr %5, align 4
  br label %7, !llvm.loop !29

66:                                               ; preds = %17
  ret void
}

; Function Attrs: noinline nounwind optnone uwtable
define internal i32 @lzss_unpack(ptr noundef %0, ptr noundef %1, i32 noundef %2) #0 {
  %4 = alloca i32, align 4
  %5 = alloca ptr, align 4
  %6 = alloca ptr, align 4
  %7 = alloca i32, align 4
  %8 = alloca i32, align 4
  %9 = alloca i32, align 4
  %10 = alloca i8, align 1
  %11 = alloca i32, align 4
  %12 = alloca i32, align 4
  %13 = alloca i32, align 4
  store ptr %0, ptr %5, align 4
  store ptr %1, ptr %6, align 4
  store i32 %2, ptr %7, align 4
  store i32 0, ptr %8, align 4
  %14 = load ptr, ptr %5, align 4
  %15 = getelementptr inbounds %struct.buffer, ptr %14, i32 0, i32 1
  %16 = load i32, ptr %15, align 4
  store i32 %16, ptr %9, align 4
  br label %17

17:                                               ; preds = %113, %3
  %18 = load i32, ptr %8, align 4
  %19 = load i32, ptr %7, align 4
  %20 = icmp ult i32 %18, %19
  br i1 %20, label %21, label %114

21:                                               ; preds = %17
  %22 = load ptr, ptr %6, align 4
  %23 = load i32, ptr %8, align 4
  %24 = add i32 %23, 1
  store i32 %24, ptr %8, align 4
  %25 = getelementptr inbounds i8, ptr %22, i32 %23
  %26 = load i8, ptr %25, align 1
  store i8 %26, ptr %10, align 1
  store i32 0, ptr %11, align 4
  br label %27

27:                                               ; preds = %110, %21
  %28 = load i32, ptr %11, align 4
  %29 = icmp slt i32 %28, 8
  br i1 %29, label %30, label %34

30:                                               ; preds = %27
  %31 = load i32, ptr %8, align 4
  %32 = load i32, ptr %7, align 4
  %33 = icmp ult i32 %31, %32
  br label %34

34:                                               ; preds = %30, %27
  %35 = phi i1 [ false, %27 ], [ %33, %30 ]
  br i1 %35, label %36, label %113

36:                                               ; preds = %34
  %37 = load i8, ptr %10, align 1
  %38 = zext i8 %37 to i32
  %39 = load i32, ptr %11, align 4
  %40 = ashr i32 %38, %39
  %41 = and i32 %40, 1
  %42 = icmp ne i32 %41, 0
  br i1 %42, label %50, label %43

43:                                               ; preds = %36
  %44 = load ptr, ptr %5, align 4
  %45 = load ptr, ptr %6, align 4
  %46 = load i32, ptr %8, align 4
  %47 = add i32 %46, 1
  store i32 %47, ptr %8, align 4
  %48 = getelementptr inbounds i8, ptr %45, i32 %46
  %49 = load i8, ptr %48, align 1
  call void @buffer_add(ptr noundef %44, i8 noundef zeroext %49)
  br label %110

50:                                               ; preds = %36
  %51 = load i32, ptr %7, align 4
  %52 = load i32, ptr %8, align 4
  %53 = sub i32 %51, %52
  %54 = icmp ult i32 %53, 2
  br i1 %54, label %55, label %56

55:                                               ; preds = %50
  store i32 0, ptr %4, align 4
  br label %115

56:                                               ; preds = %50
  %57 = load ptr, ptr %6, align 4
  %58 = load i32, ptr %8, align 4
  %59 = getelementptr inbounds i8, ptr %57, i32 %58
  %60 = load i8, ptr %59, align 1
  %61 = zext i8 %60 to i32
  %62 = load ptr, ptr %6, align 4
  %63 = load i32, ptr %8, align 4
  %64 = add i32 %63, 1
  %65 = getelementptr inbounds i8, ptr %62, i32 %64
  %66 = load i8, ptr %65, align 1
  %67 = zext i8 %66 to i32
  %68 = ashr i32 %67, 4
  %69 = shl i32 %68, 8
  %70 = or i32 %61, %69
  store i32 %70, ptr %12, align 4
  %71 = load ptr, ptr %6, align 4
  %72 = load i32, ptr %8, align 4
  %73 = add i32 %72, 1
  %74 = getelementptr inbounds i8, ptr %71, i32 %73
  %75 = load i8, ptr %74, align 1
  %76 = zext i8 %75 to i32
  %77 = and i32 %76, 15
  %78 = add nsw i32 %77, 3
  store i32 %78, ptr %13, align 4
  %79 = load i32, ptr %8, align 4
  %80 = add i32 %79, 2
  store i32 %80, ptr %8, align 4
  %81 = load i32, ptr %12, align 4
  %82 = icmp eq i32 %81, 0
  br i1 %82, label %91, label %83

83:                                               ; preds = %56
  %84 = load i32, ptr %12, align 4
  %85 = load ptr, ptr %5, align 4
  %86 = getelementptr inbounds %struct.buffer, ptr %85, i32 0, i32 1
  %87 = load i32, ptr %86, align 4
  %88 = load i32, ptr %9, align 4
  %89 = sub i32 %87, %88
  %90 = icmp ugt i32 %84, %89
  br i1 %90, label %91, label %92

91:                                               ; preds = %83, %56
  store i32 0, ptr %4, align 4
  br label %115

92:                                               ; preds = %83
  br label %93

93:                                               ; preds = %97, %92
  %94 = load i32, ptr %13, align 4
  %95 = add i32 %94, -1
  store i32 %95, ptr %13, align 4
  %96 = icmp ugt i32 %94, 0
  br i1 %96, label %97, label %109

97:                                               ; preds = %93
  %98 = load ptr, ptr %5, align 4
  %99 = load ptr, ptr %5, align 4
  %100 = getelementptr inbounds %struct.buffer, ptr %99, i32 0, i32 0
  %101 = load ptr, ptr %100, align 4
  %102 = load ptr, ptr %5, align 4
  %103 = getelementptr inbounds %struct.buffer, ptr %102, i32 0, i32 1
  %104 = load i32, ptr %103, align 4
  %105 = load i32, ptr %12, align 4
  %106 = sub i32 %104, %105
  %107 = getelementptr inbounds i8, ptr %101, i32 %106
  %108 = load i8, ptr %107, align 1
  call void @buffer_add(ptr noundef %98, i8 noundef zeroext %108)
  br label %93, !llvm.loop !30

109:                                              ; preds = %93
  br label %110

110:                                              ; preds = %109, %43
  %111 = load i32, ptr %11, align 4
  %112 = add nsw i32 %111, 1
  store i32 %112, ptr %11, align 4
  br label %27, !llvm.loop !31

113:                                              ; preds = %34
  br label %17, !llvm.loop !32

114:                                              ; preds = %17
  store i32 1, ptr %4, align 4
  br label %115

115:                                              ; preds = %114, %91, %55
  %116 = load i32, ptr %4, align 4
  ret i32 %116
}

declare dso_local i32 @puts(ptr noundef) #3

; Function Attrs: noinline nounwind optnone uwtable
define internal i32 @checksum(ptr noundef %0, i32 noundef %1) #0 {
  %3 = alloca ptr, align 4
  %4 = alloca i32, align 4
  %5 = alloca i32, align 4
  %6 = alloca i32, align 4
  %7 = alloca i32, align 4
  store ptr %0, ptr %3, align 4
  store i32 %1, ptr %4, align 4
  store i32 1, ptr %5, align 4
  store i32 0, ptr %6, align 4
  store i32 0, ptr %7, align 4
  br label %8

8:                                                ; preds = %25, %2
  %9 = load i32, ptr %7, align 4
  %10 = load i32, ptr %4, align 4
  %11 = icmp ult i32 %9, %10
  br i1 %11, label %12, label %28

12:                                               ; preds = %8
  %13 = load i32, ptr %5, align 4
  %14 = load ptr, ptr %3, align 4
  %15 = load i32, ptr %7, align 4
  %16 = getelementptr inbounds i8, ptr %14, i32 %15
  %17 = load i8, ptr %16, align 1
  %18 = zext i8 %17 to i32
  %19 = add i32 %13, %18
  %20 = urem i32 %19, 65521
  store i32 %20, ptr %5, align 4
  %21 = load i32, ptr %6, align 4
  %22 = load i32, ptr %5, align 4
  %23 = add i32 %21, %22
  %24 = urem i32 %23, 65521
  store i32 %24, ptr %6, align 4
  br label %25

25:                                               ; preds = %12
  %26 = load i32, ptr %7, align 4
  %27 = add i32 %26, 1
  store i32 %27, ptr %7, align 4
  br label %8, !llvm.loop !33

28:                                               ; preds = %8
  %29 = load i32, ptr %6, align 4
  %30 = shl i32 %29, 16
  %31 = load i32, ptr %5, align 4
  %32 = or i32 %30, %31
  ret i32 %32
}

; Function Attrs: nofree norecurse nosync nounwind optsize memory(read, inaccessiblemem: none) uwtable
define internal range(i32 -1, 2) i32 @memcmp(ptr nocapture noundef readonly %0, ptr nocapture noundef readonly %1, i32 noundef %2) #4 {
  %4 = icmp eq i32 %2, 0
  br i1 %4, label %20, label %5

5:                                                ; preds = %15, %3
  %6 = phi ptr [ %18, %15 ], [ %1, %3 ]
  %7 = phi ptr [ %17, %15 ], [ %0, %3 ]
  %8 = phi i32 [ %16, %15 ], [ %2, %3 ]
  %9 = load i8, ptr %7, align 1, !tbaa !13
  %10 = load i8, ptr %6, align 1, !tbaa !13
  %11 = icmp eq i8 %9, %10
  br i1 %11, label %15, label %12

12:                                               ; preds = %5
  %13 = icmp ult i8 %9, %10
  %14 = select i1 %13, i32 -1, i32 1
  br label %20

15:                                               ; preds = %5
  %16 = add i32 %8, -1
  %17 = getelementptr inbounds i8, ptr %7, i32 1
  %18 = getelementptr inbounds i8, ptr %6, i32 1
  %19 = icmp eq i32 %16, 0
  br i1 %19, label %20, label %5, !llvm.loop !34

20:                                               ; preds = %15, %12, %3
  %21 = phi i32 [ %14, %12 ], [ 0, %3 ], [ 0, %15 ]
  ret i32 %21
}

; Function Attrs: noinline nounwind optnone uwtable
define internal void @damage(ptr noundef %0, ptr noundef %1) #0 {
  %3 = alloca ptr, align 4
  %4 = alloca ptr, align 4
  %5 = alloca i32, align 4
  %6 = alloca i32, align 4
  %7 = alloca i32, align 4
  %8 = alloca i32, align 4
  %9 = alloca %struct.buffer, align 4
  store ptr %0, ptr %3, align 4
  store ptr %1, ptr %4, align 4
  store i32 0, ptr %5, align 4
  store i32 0, ptr %6, align 4
  store i32 0, ptr %7, align 4
  store i32 0, ptr %8, align 4
  br label %10

10:                                               ; preds = %71, %2
  %11 = load i32, ptr %8, align 4
  %12 = load ptr, ptr %3, align 4
  %13 = getelementptr inbounds %struct.buffer, ptr %12, i32 0, i32 1
  %14 = load i32, ptr %13, align 4
  %15 = icmp ult i32 %11, %14
  br i1 %15, label %16, label %74

16:                                               ; preds = %10
  call void @llvm.memset.p0.i32(ptr align 4 %9, i8 0, i32 12, i1 false)
  %17 = load ptr, ptr %3, align 4
  %18 = getelementptr inbounds %struct.buffer, ptr %17, i32 0, i32 0
  %19 = load ptr, ptr %18, align 4
  %20 = load i32, ptr %8, align 4
  %21 = getelementptr inbounds i8, ptr %19, i32 %20
  %22 = load i8, ptr %21, align 1
  %23 = zext i8 %22 to i32
  %24 = xor i32 %23, 85
  %25 = trunc i32 %24 to i8
  store i8 %25, ptr %21, align 1
  %26 = load ptr, ptr %3, align 4
  %27 = getelementptr inbounds %struct.buffer, ptr %26, i32 0, i32 0
  %28 = load ptr, ptr %27, align 4
  %29 = load ptr, ptr %3, align 4
  %30 = getelementptr inbounds %struct.buffer, ptr %29, i32 0, i32 1
  %31 = load i32, ptr %30, align 4
  %32 = call i32 @lzss_unpack(ptr noundef %9, ptr noundef %28, i32 noundef %31)
  %33 = icmp ne i32 %32, 0
  br i1 %33, label %37, label %34

34:                                               ; preds = %16
  %35 = load i32, ptr %5, align 4
  %36 = add nsw i32 %35, 1
  store i32 %36, ptr %5, align 4
  br label %61

37:                                               ; preds = %16
  %38 = getelementptr inbounds %struct.buffer, ptr %9, i32 0, i32 1
  %39 = load i32, ptr %38, align 4
  %40 = load ptr, ptr %4, align 4
  %41 = getelementptr inbounds %struct.buffer, ptr %40, i32 0, i32 1
  %42 = load i32, ptr %41, align 4
  %43 = icmp eq i32 %39, %42
  br i1 %43, label %44, label %57

44:                                               ; preds = %37
  %45 = getelementptr inbounds %struct.buffer, ptr %9, i32 0, i32 0
  %46 = load ptr, ptr %45, align 4
  %47 = load ptr, ptr %4, align 4
  %48 = getelementptr inbounds %struct.buffer, ptr %47, i32 0, i32 0
  %49 = load ptr, ptr %48, align 4
  %50 = getelementptr inbounds %struct.buffer, ptr %9, i32 0, i32 1
  %51 = load i32, ptr %50, align 4
  %52 = call i32 @memcmp(ptr noundef %46, ptr noundef %49, i32 noundef %51)
  %53 = icmp eq i32 %52, 0
  br i1 %53, label %54, label %57

54:                                               ; preds = %44
  %55 = load i32, ptr %7, align 4
  %56 = add nsw i32 %55, 1
  store i32 %56, ptr %7, align 4
  br label %60

57:                                               ; preds = %44, %37
  %58 = load i32, ptr %6, align 4
  %59 = add nsw i32 %58, 1
  store i32 %59, ptr %6, align 4
  br label %60

60:                                               ; preds = %57, %54
  br label %61

61:                                               ; preds = %60, %34
  %62 = load ptr, ptr %3, align 4
  %63 = getelementptr inbounds %struct.buffer, ptr %62, i32 0, i32 0
  %64 = load ptr, ptr %63, align 4
  %65 = load i32, ptr %8, align 4
  %66 = getelementptr inbounds i8, ptr %64, i32 %65
  %67 = load i8, ptr %66, align 1
  %68 = zext i8 %67 to i32
  %69 = xor i32 %68, 85
  %70 = trunc i32 %69 to i8
  store i8 %70, ptr %66, align 1
  call void @buffer_free(ptr noundef %9)
  br label %71

71:                                               ; preds = %61
  %72 = load i32, ptr %8, align 4
  %73 = add i32 %72, 7
  store i32 %73, ptr %8, align 4
  br label %10, !llvm.loop !35

74:                                               ; preds = %10
  %75 = load i32, ptr %5, align 4
  %76 = load i32, ptr %6, align 4
  %77 = load i32, ptr %7, align 4
  %78 = call i32 @__print_text(ptr getelementptr inbounds ([3 x { i8, i8, i8, i8, ptr, i32 }], ptr @__streams, i32 0, i32 1), ptr @.str.8, i32 9)
  %79 = sext i32 %75 to i64
  %80 = call i32 @__print_signed(ptr getelementptr inbounds ([3 x { i8, i8, i8, i8, ptr, i32 }], ptr @__streams, i32 0, i32 1), i64 %79, i32 0, i32 0, i32 -1)
  %81 = call i32 @__print_text(ptr getelementptr inbounds ([3 x { i8, i8, i8, i8, ptr, i32 }], ptr @__streams, i32 0, i32 1), ptr getelementptr inbounds (i8, ptr @.str.8, i32 11), i32 10)
  %82 = sext i32 %76 to i64
  %83 = call i32 @__print_signed(ptr getelementptr inbounds ([3 x { i8, i8, i8, i8, ptr, i32 }], ptr @__streams, i32 0, i32 1), i64 %82, i32 0, i32 0, i32 -1)
  %84 = call i32 @__print_text(ptr getelementptr inbounds ([3 x { i8, i8, i8, i8, ptr, i32 }], ptr @__streams, i32 0, i32 1), ptr getelementptr inbounds (i8, ptr @.str.8, i32 23), i32 9)
  %85 = sext i32 %77 to i64
  %86 = call i32 @__print_signed(ptr getelementptr inbounds ([3 x { i8, i8, i8, i8, ptr, i32 }], ptr @__streams, i32 0, i32 1), i64 %85, i32 0, i32 0, i32 -1)
  %87 = call i32 @__print_text(ptr getelementptr inbounds ([3 x { i8, i8, i8, i8, ptr, i32 }], ptr @__streams, i32 0, i32 1), ptr getelementptr inbounds (i8, ptr @.str.8, i32 34), i32 10)
  %88 = add i32 %78, %80
  %89 = add i32 %88, %81
  %90 = add i32 %89, %83
  %91 = add i32 %90, %84
  %92 = add i32 %91, %86
  %93 = add i32 %92, %87
  %94 = add i32 %93, 0
  ret void
}

; Function Attrs: noinline nounwind optnone uwtable
define internal void @buffer_free(ptr noundef %0) #0 {
  %2 = alloca ptr, align 4
  store ptr %0, ptr %2, align 4
  %3 = load ptr, ptr %2, align 4
  %4 = getelementptr inbounds %struct.buffer, ptr %3, i32 0, i32 0
  %5 = load ptr, ptr %4, align 4
  call void @__sized_free(ptr noundef %5)
  %6 = load ptr, ptr %2, align 4
  %7 = getelementptr inbounds %struct.buffer, ptr %6, i32 0, i32 0
  store ptr null, ptr %7, align 4
  %8 = load ptr, ptr %2, align 4
  %9 = getelementptr inbounds %struct.buffer, ptr %8, i32 0, i32 2
  store i32 0, ptr %9, align 4
  %10 = load ptr, ptr %2, align 4
  %11 = getelementptr inbounds %struct.buffer, ptr %10, i32 0, i32 1
  store i32 0, ptr %11, align 4
  ret void
}

; Function Attrs: noinline nounwind optsize uwtable
define internal void @__sized_free(ptr noundef %0) local_unnamed_addr #5 {
  %2 = icmp eq ptr %0, null
  br i1 %2, label %5, label %3

3:                                                ; preds = %1
  %4 = getelementptr inbounds i8, ptr %0, i32 -16
  tail call void @free(ptr noundef nonnull %4) #15
  br label %5

5:                                                ; preds = %3, %1
  ret void
}

declare dso_local void @free(ptr noundef) #3

; Function Attrs: nounwind optsize uwtable
define internal i32 @__print_signed(ptr nocapture noundef %0, i64 noundef %1, i32 noundef %2, i32 noundef %3, i32 noundef %4) #2 {
  %6 = alloca [24 x i8], align 1
  call void @llvm.lifetime.start.p0(i64 24, ptr nonnull %6) #13
  %7 = getelementptr inbounds i8, ptr %6, i32 24
  %8 = icmp slt i64 %1, 0
  %9 = lshr i64 %1, 63
  %10 = icmp ne i64 %9, 0
  %11 = sub i64 0, %1
  %12 = select i1 %10, i64 %11, i64 %1
  %13 = icmp ult i64 %12, 4294967296
  br i1 %13, label %14, label %26

14:                                               ; preds = %5
  %15 = trunc nuw i64 %12 to i32
  %16 = icmp eq i32 %15, 0
  br i1 %16, label %38, label %17

17:                                               ; preds = %17, %14
  %18 = phi i32 [ %24, %17 ], [ %15, %14 ]
  %19 = phi ptr [ %23, %17 ], [ %7, %14 ]
  %20 = urem i32 %18, 10
  %21 = getelementptr inbounds i8, ptr @.str.9.9, i32 %20
  %22 = load i8, ptr %21, align 1, !tbaa !13
  %23 = getelementptr inbounds i8, ptr %19, i32 -1
  store i8 %22, ptr %23, align 1, !tbaa !13
  %24 = udiv i32 %18, 10
  %25 = icmp ult i32 %18, 10
  br i1 %25, label %38, label %17, !llvm.loop !16

26:                                               ; preds = %26, %5
  %27 = phi ptr [ %36, %26 ], [ %7, %5 ]
  %28 = phi i64 [ %30, %26 ], [ %12, %5 ]
  %29 = freeze i64 %28
  %30 = udiv i64 %29, 10
  %31 = mul i64 %30, 10
  %32 = sub i64 %29, %31
  %33 = trunc nuw nsw i64 %32 to i32
  %34 = getelementptr inbounds i8, ptr @.str.9.9, i32 %33
  %35 = load i8, ptr %34, align 1, !tbaa !13
  %36 = getelementptr inbounds i8, ptr %27, i32 -1
  store i8 %35, ptr %36, align 1, !tbaa !13
  %37 = icmp ult i64 %28, 10
  br i1 %37, label %38, label %26, !llvm.loop !17

38:                                               ; preds = %26, %17, %14
  %39 = phi ptr [ %7, %14 ], [ %23, %17 ], [ %36, %26 ]
  %40 = icmp eq i64 %1, 0
  %41 = icmp ne i32 %4, 0
  %42 = and i1 %40, %41
  br i1 %42, label %43, label %45

43:                                               ; preds = %38
  %44 = getelementptr inbounds i8, ptr %39, i32 -1
  store i8 48, ptr %44, align 1, !tbaa !13
  br label %46

45:                                               ; preds = %38
  br i1 %8, label %54, label %46

46:                                               ; preds = %45, %43
  %47 = phi ptr [ %44, %43 ], [ %39, %45 ]
  %48 = and i32 %2, 2
  %49 = icmp eq i32 %48, 0
  br i1 %49, label %50, label %54

50:                                               ; preds = %46
  %51 = and i32 %2, 4
  %52 = icmp eq i32 %51, 0
  %53 = select i1 %52, ptr @.str.10, ptr @.str.4.11
  br label %54

54:                                               ; preds = %50, %46, %45
  %55 = phi ptr [ %39, %45 ], [ %47, %50 ], [ %47, %46 ]
  %56 = phi ptr [ @.str.2.12, %45 ], [ %53, %50 ], [ @.str.3.13, %46 ]
  %57 = ptrtoint ptr %7 to i32
  %58 = ptrtoint ptr %55 to i32
  %59 = sub i32 %57, %58
  %60 = call fastcc i32 @number(ptr noundef %0, ptr noundef nonnull %56, ptr noundef nonnull %55, i32 noundef %59, i32 noundef %2, i32 noundef %3, i32 noundef %4) #14
  call void @llvm.lifetime.end.p0(i64 24, ptr nonnull %6) #13
  ret i32 %60
}

; Function Attrs: nocallback nofree nosync nounwind willreturn memory(argmem: readwrite)
declare void @llvm.lifetime.start.p0(i64 immarg, ptr nocapture) #6

; Function Attrs: nounwind optsize uwtable
define internal fastcc i32 @number(ptr nocapture noundef %0, ptr noundef %1, ptr nocapture noundef readonly %2, i32 noundef %3, i32 noundef %4, i32 noundef %5, i32 noundef %6) unnamed_addr #2 {
  br label %8

8:                                                ; preds = %8, %7
  %9 = phi ptr [ %1, %7 ], [ %12, %8 ]
  %10 = load i8, ptr %9, align 1, !tbaa !13
  %11 = icmp eq i8 %10, 0
  %12 = getelementptr inbounds i8, ptr %9, i32 1
  br i1 %11, label %13, label %8, !llvm.loop !36

13:                                               ; preds = %8
  %14 = ptrtoint ptr %9 to i32
  %15 = ptrtoint ptr %1 to i32
  %16 = sub i32 %14, %15
  %17 = sub nsw i32 %6, %3
  %18 = lshr i32 %5, 31
  %19 = icmp ne i32 %18, 0
  %20 = sub i32 0, %5
  %21 = select i1 %19, i32 %20, i32 %5
  %22 = lshr i32 %5, 31
  %23 = tail call i32 @llvm.smax.i32(i32 %17, i32 0)
  %24 = icmp slt i32 %6, 0
  %25 = and i32 %4, 16
  %26 = icmp ne i32 %25, 0
  %27 = and i1 %26, %24
  %28 = and i32 %4, 1
  %29 = or i32 %22, %28
  %30 = icmp eq i32 %29, 0
  %31 = and i1 %27, %30
  %32 = add i32 %16, %3
  %33 = icmp sgt i32 %21, %32
  %34 = select i1 %31, i1 %33, i1 false
  %35 = sub i32 %21, %32
  %36 = select i1 %34, i32 %35, i32 %23
  %37 = add i32 %32, %36
  %38 = sub i32 %21, %37
  br i1 %30, label %39, label %48

39:                                               ; preds = %13
  %40 = icmp sgt i32 %38, 0
  br i1 %40, label %41, label %46

41:                                               ; preds = %41, %39
  %42 = phi i32 [ %44, %41 ], [ 0, %39 ]
  %43 = tail call i32 @fputc(i32 noundef 32, ptr noundef %0) #14
  %44 = add nuw nsw i32 %42, 1
  %45 = icmp eq i32 %44, %38
  br i1 %45, label %46, label %41, !llvm.loop !37

46:                                               ; preds = %41, %39
  %47 = tail call noundef i32 @llvm.smax.i32(i32 %38, i32 0)
  br label %48

48:                                               ; preds = %46, %13
  %49 = phi i32 [ 0, %13 ], [ %47, %46 ]
  %50 = load i8, ptr %0, align 4, !tbaa !18, !alias.scope !38, !noalias !41
  %51 = icmp eq i8 %50, 0
  %52 = icmp eq ptr %9, %1
  %53 = or i1 %52, %51
  br i1 %53, label %62, label %54

54:                                               ; preds = %54, %48
  %55 = phi i32 [ %60, %54 ], [ 0, %48 ]
  %56 = getelementptr inbounds i8, ptr %1, i32 %55
  %57 = load i8, ptr %56, align 1, !tbaa !13, !alias.scope !41, !noalias !38
  %58 = zext i8 %57 to i32
  %59 = tail call i32 @fputc(i32 noundef %58, ptr noundef nonnull %0) #14, !noalias !41
  %60 = add nuw i32 %55, 1
  %61 = icmp eq i32 %60, %16
  br i1 %61, label %62, label %54, !llvm.loop !27

62:                                               ; preds = %54, %48
  %63 = icmp sgt i32 %36, 0
  br i1 %63, label %64, label %69

64:                                               ; preds = %64, %62
  %65 = phi i32 [ %67, %64 ], [ 0, %62 ]
  %66 = tail call i32 @fputc(i32 noundef 48, ptr noundef nonnull %0) #14
  %67 = add nuw nsw i32 %65, 1
  %68 = icmp eq i32 %67, %36
  br i1 %68, label %69, label %64, !llvm.loop !37

69:                                               ; preds = %64, %62
  %70 = tail call noundef i32 @llvm.smax.i32(i32 %36, i32 0)
  %71 = load i8, ptr %0, align 4, !tbaa !18, !alias.scope !43, !noalias !46
  %72 = icmp eq i8 %71, 0
  %73 = icmp eq i32 %3, 0
  %74 = or i1 %73, %72
  br i1 %74, label %83, label %75

75:                                               ; preds = %75, %69
  %76 = phi i32 [ %81, %75 ], [ 0, %69 ]
  %77 = getelementptr inbounds i8, ptr %2, i32 %76
  %78 = load i8, ptr %77, align 1, !tbaa !13, !alias.scope !46, !noalias !43
  %79 = zext i8 %78 to i32
  %80 = tail call i32 @fputc(i32 noundef %79, ptr noundef nonnull %0) #14, !noalias !46
  %81 = add nuw i32 %76, 1
  %82 = icmp eq i32 %81, %3
  br i1 %82, label %83, label %75, !llvm.loop !27

83:                                               ; preds = %75, %69
  %84 = add i32 %32, %70
  %85 = add i32 %84, %49
  br i1 %30, label %96, label %86

86:                                               ; preds = %83
  %87 = icmp sgt i32 %38, 0
  br i1 %87, label %88, label %93

88:                                               ; preds = %88, %86
  %89 = phi i32 [ %91, %88 ], [ 0, %86 ]
  %90 = tail call i32 @fputc(i32 noundef 32, ptr noundef nonnull %0) #14
  %91 = add nuw nsw i32 %89, 1
  %92 = icmp eq i32 %91, %38
  br i1 %92, label %93, label %88, !llvm.loop !37

93:                                               ; preds = %88, %86
  %94 = tail call noundef i32 @llvm.smax.i32(i32 %38, i32 0)
  %95 = add nsw i32 %85, %94
  br label %96

96:                                               ; preds = %93, %83
  %97 = phi i32 [ %95, %93 ], [ %85, %83 ]
  ret i32 %97
}

; Function Attrs: nocallback nofree nosync nounwind willreturn memory(argmem: readwrite)
declare void @llvm.lifetime.end.p0(i64 immarg, ptr nocapture) #6

; Function Attrs: nocallback nofree nosync nounwind speculatable willreturn memory(none)
declare i32 @llvm.smax.i32(i32, i32) #7

; Function Attrs: nounwind optsize uwtable
define internal range(i32 -1, 256) i32 @fputc(i32 noundef %0, ptr nocapture noundef %1) local_unnamed_addr #2 {
  %3 = load i8, ptr %1, align 4, !tbaa !18
  switch i8 %3, label %17 [
    i8 1, label %4
    i8 3, label %6
    i8 0, label %19
  ]

4:                                                ; preds = %2
  %5 = tail call i32 @putchar(i32 noundef %0) #15
  br label %17

6:                                                ; preds = %2
  %7 = getelementptr inbounds i8, ptr %1, i32 8
  %8 = load i32, ptr %7, align 4, !tbaa !48
  %9 = icmp eq i32 %8, 0
  br i1 %9, label %17, label %10

10:                                               ; preds = %6
  %11 = trunc i32 %0 to i8
  %12 = getelementptr inbounds i8, ptr %1, i32 4
  %13 = load ptr, ptr %12, align 4, !tbaa !49
  %14 = getelementptr inbounds i8, ptr %13, i32 1
  store ptr %14, ptr %12, align 4, !tbaa !49
  store i8 %11, ptr %13, align 1, !tbaa !13
  %15 = load i32, ptr %7, align 4, !tbaa !48
  %16 = add i32 %15, -1
  store i32 %16, ptr %7, align 4, !tbaa !48
  br label %17

17:                                               ; preds = %10, %6, %4, %2
  %18 = and i32 %0, 255
  br label %19

19:                                               ; preds = %17, %2
  %20 = phi i32 [ %18, %17 ], [ -1, %2 ]
  ret i32 %20
}

; Function Attrs: optsize
declare dso_local i32 @putchar(i32 noundef) local_unnamed_addr #8

; Function Attrs: noinline nounwind optnone uwtable
define internal void @buffer_add(ptr noundef %0, i8 noundef zeroext %1) #0 {
  %3 = alloca ptr, align 4
  %4 = alloca i8, align 1
  %5 = alloca ptr, align 4
  store ptr %0, ptr %3, align 4
  store i8 %1, ptr %4, align 1
  %6 = load ptr, ptr %3, align 4
  %7 = getelementptr inbounds %struct.buffer, ptr %6, i32 0, i32 1
  %8 = load i32, ptr %7, align 4
  %9 = load ptr, ptr %3, align 4
  %10 = getelementptr inbounds %struct.buffer, ptr %9, i32 0, i32 2
  %11 = load i32, ptr %10, align 4
  %12 = icmp eq i32 %8, %11
  br i1 %12, label %13, label %44

13:                                               ; preds = %2
  %14 = load ptr, ptr %3, align 4
  %15 = getelementptr inbounds %struct.buffer, ptr %14, i32 0, i32 2
  %16 = load i32, ptr %15, align 4
  %17 = icmp ne i32 %16, 0
  br i1 %17, label %18, label %23

18:                                               ; preds = %13
  %19 = load ptr, ptr %3, align 4
  %20 = getelementptr inbounds %struct.buffer, ptr %19, i32 0, i32 2
  %21 = load i32, ptr %20, align 4
  %22 = mul i32 2, %21
  br label %24

23:                                               ; preds = %13
  br label %24

24:                                               ; preds = %23, %18
  %25 = phi i32 [ %22, %18 ], [ 64, %23 ]
  %26 = load ptr, ptr %3, align 4
  %27 = getelementptr inbounds %struct.buffer, ptr %26, i32 0, i32 2
  store i32 %25, ptr %27, align 4
  %28 = load ptr, ptr %3, align 4
  %29 = getelementptr inbounds %struct.buffer, ptr %28, i32 0, i32 0
  %30 = load ptr, ptr %29, align 4
  %31 = load ptr, ptr %3, align 4
  %32 = getelementptr inbounds %struct.buffer, ptr %31, i32 0, i32 2
  %33 = load i32, ptr %32, align 4
  %34 = call ptr @realloc(ptr noundef %30, i32 noundef %33) #16
  store ptr %34, ptr %5, align 4
  %35 = load ptr, ptr %5, align 4
  %36 = icmp eq ptr %35, null
  br i1 %36, label %37, label %40

37:                                               ; preds = %24
  %38 = call i32 @__print_text(ptr getelementptr inbounds ([3 x %struct.__stream], ptr @__streams, i32 0, i32 2), ptr @.str, i32 14)
  %39 = add i32 %38, 0
  call void @exit(i32 noundef 2) #12
  unreachable

40:                                               ; preds = %24
  %41 = load ptr, ptr %5, align 4
  %42 = load ptr, ptr %3, align 4
  %43 = getelementptr inbounds %struct.buffer, ptr %42, i32 0, i32 0
  store ptr %41, ptr %43, align 4
  br label %44

44:                                               ; preds = %40, %2
  %45 = load i8, ptr %4, align 1
  %46 = load ptr, ptr %3, align 4
  %47 = getelementptr inbounds %struct.buffer, ptr %46, i32 0, i32 0
  %48 = load ptr, ptr %47, align 4
  %49 = load ptr, ptr %3, align 4
  %50 = getelementptr inbounds %struct.buffer, ptr %49, i32 0, i32 1
  %51 = load i32, ptr %50, align 4
  %52 = add i32 %51, 1
  store i32 %52, ptr %50, align 4
  %53 = getelementptr inbounds i8, ptr %48, i32 %51
  store i8 %45, ptr %53, align 1
  ret void
}

; Function Attrs: nounwind optsize uwtable
define internal ptr @realloc(ptr noundef %0, i32 noundef %1) #2 {
  %3 = icmp eq ptr %0, null
  br i1 %3, label %4, label %6

4:                                                ; preds = %2
  %5 = tail call ptr @__sized_malloc(i32 noundef %1) #14
  br label %28

6:                                                ; preds = %2
  %7 = icmp eq i32 %1, 0
  br i1 %7, label %8, label %9

8:                                                ; preds = %6
  tail call void @__sized_free(ptr noundef nonnull %0) #14
  br label %28

9:                                                ; preds = %6
  %10 = tail call ptr @__sized_malloc(i32 noundef %1) #14
  %11 = icmp eq ptr %10, null
  br i1 %11, label %28, label %12

12:                                               ; preds = %9
  %13 = getelementptr inbounds i8, ptr %0, i32 -16
  %14 = load i32, ptr %13, align 4, !tbaa !50
  %15 = icmp eq i32 %14, 0
  br i1 %15, label %27, label %16

16:                                               ; preds = %12
  %17 = tail call i32 @llvm.umin.i32(i32 %14, i32 %1)
  br label %18

18:                                               ; preds = %18, %16
  %19 = phi ptr [ %23, %18 ], [ %0, %16 ]
  %20 = phi ptr [ %25, %18 ], [ %10, %16 ]
  %21 = phi i32 [ %22, %18 ], [ %17, %16 ]
  %22 = add i32 %21, -1
  %23 = getelementptr inbounds i8, ptr %19, i32 1
  %24 = load i8, ptr %19, align 1, !tbaa !13, !alias.scope !51, !noalias !54
  %25 = getelementptr inbounds i8, ptr %20, i32 1
  store i8 %24, ptr %20, align 1, !tbaa !13, !alias.scope !54, !noalias !51
  %26 = icmp eq i32 %22, 0
  br i1 %26, label %27, label %18, !llvm.loop !56

27:                                               ; preds = %18, %12
  tail call void @__sized_free(ptr noundef nonnull %0) #14
  br label %28

28:                                               ; preds = %27, %9, %8, %4
  %29 = phi ptr [ null, %8 ], [ %5, %4 ], [ %10, %27 ], [ null, %9 ]
  ret ptr %29
}

; Function Attrs: noreturn
declare dso_local void @exit(i32 noundef) #9

; Function Attrs: noinline nounwind optsize uwtable
define internal ptr @__sized_malloc(i32 noundef %0) local_unnamed_addr #5 {
  %2 = icmp ult i32 %0, -16
  br i1 %2, label %3, label %9

3:                                                ; preds = %1
  %4 = add nuw i32 %0, 16
  %5 = tail call ptr @malloc(i32 noundef %4) #15
  %6 = icmp eq ptr %5, null
  br i1 %6, label %9, label %7

7:                                                ; preds = %3
  %8 = getelementptr inbounds i8, ptr %5, i32 16
  store i32 %0, ptr %5, align 4, !tbaa !50
  br label %9

9:                                                ; preds = %7, %3, %1
  %10 = phi ptr [ %8, %7 ], [ null, %3 ], [ null, %1 ]
  ret ptr %10
}

; Function Attrs: nocallback nofree nosync nounwind speculatable willreturn memory(none)
declare i32 @llvm.umin.i32(i32, i32) #7

; Function Attrs: optsize
declare dso_local ptr @malloc(i32 noundef) local_unnamed_addr #8

; Function Attrs: noinline nounwind optnone uwtable
define internal i32 @longest(ptr noundef %0, i32 noundef %1, ptr noundef %2) #0 {
  %4 = alloca i32, align 4
  %5 = alloca ptr, align 4
  %6 = alloca i32, align 4
  %7 = alloca ptr, align 4
  %8 = alloca i32, align 4
  %9 = alloca i32, align 4
  %10 = alloca i32, align 4
  %11 = alloca i32, align 4
  %12 = alloca i32, align 4
  store ptr %0, ptr %5, align 4
  store i32 %1, ptr %6, align 4
  store ptr %2, ptr %7, align 4
  store i32 0, ptr %8, align 4
  %13 = load ptr, ptr %5, align 4
  %14 = getelementptr inbounds %struct.packer, ptr %13, i32 0, i32 1
  %15 = load i32, ptr %14, align 4
  %16 = load i32, ptr %6, align 4
  %17 = sub i32 %15, %16
  %18 = icmp ult i32 %17, 18
  br i1 %18, label %19, label %25

19:                                               ; preds = %3
  %20 = load ptr, ptr %5, align 4
  %21 = getelementptr inbounds %struct.packer, ptr %20, i32 0, i32 1
  %22 = load i32, ptr %21, align 4
  %23 = load i32, ptr %6, align 4
  %24 = sub i32 %22, %23
  br label %26

25:                                               ; preds = %3
  br label %26

26:                                               ; preds = %25, %19
  %27 = phi i32 [ %24, %19 ], [ 18, %25 ]
  store i32 %27, ptr %9, align 4
  %28 = load i32, ptr %9, align 4
  %29 = icmp ult i32 %28, 3
  br i1 %29, label %30, label %31

30:                                               ; preds = %26
  store i32 0, ptr %4, align 4
  br label %95

31:                                               ; preds = %26
  %32 = load ptr, ptr %5, align 4
  %33 = getelementptr inbounds %struct.packer, ptr %32, i32 0, i32 2
  %34 = load ptr, ptr %5, align 4
  %35 = getelementptr inbounds %struct.packer, ptr %34, i32 0, i32 0
  %36 = load ptr, ptr %35, align 4
  %37 = load i32, ptr %6, align 4
  %38 = getelementptr inbounds i8, ptr %36, i32 %37
  %39 = call i32 @hash(ptr noundef %38)
  %40 = getelementptr inbounds [1024 x i32], ptr %33, i32 0, i32 %39
  %41 = load i32, ptr %40, align 4
  store i32 %41, ptr %10, align 4
  store i32 0, ptr %11, align 4
  br label %42

42:                                               ; preds = %84, %31
  %43 = load i32, ptr %10, align 4
  %44 = icmp ne i32 %43, -1
  br i1 %44, label %45, label %53

45:                                               ; preds = %42
  %46 = load i32, ptr %6, align 4
  %47 = load i32, ptr %10, align 4
  %48 = sub i32 %46, %47
  %49 = icmp ult i32 %48, 4096
  br i1 %49, label %50, label %53

50:                                               ; preds = %45
  %51 = load i32, ptr %11, align 4
  %52 = icmp slt i32 %51, 48
  br label %53

53:                                               ; preds = %50, %45, %42
  %54 = phi i1 [ false, %45 ], [ false, %42 ], [ %52, %50 ]
  br i1 %54, label %55, label %87

55:                                               ; preds = %53
  %56 = load ptr, ptr %5, align 4
  %57 = getelementptr inbounds %struct.packer, ptr %56, i32 0, i32 0
  %58 = load ptr, ptr %57, align 4
  %59 = load i32, ptr %10, align 4
  %60 = getelementptr inbounds i8, ptr %58, i32 %59
  %61 = load ptr, ptr %5, align 4
  %62 = getelementptr inbounds %struct.packer, ptr %61, i32 0, i32 0
  %63 = load ptr, ptr %62, align 4
  %64 = load i32, ptr %6, align 4
  %65 = getelementptr inbounds i8, ptr %63, i32 %64
  %66 = load i32, ptr %9, align 4
  %67 = call i32 @common(ptr noundef %60, ptr noundef %65, i32 noundef %66)
  store i32 %67, ptr %12, align 4
  %68 = load i32, ptr %12, align 4
  %69 = load i32, ptr %8, align 4
  %70 = icmp ugt i32 %68, %69
  br i1 %70, label %71, label %77

71:                                               ; preds = %55
  %72 = load i32, ptr %12, align 4
  store i32 %72, ptr %8, align 4
  %73 = load i32, ptr %6, align 4
  %74 = load i32, ptr %10, align 4
  %75 = sub i32 %73, %74
  %76 = load ptr, ptr %7, align 4
  store i32 %75, ptr %76, align 4
  br label %77

77:                                               ; preds = %71, %55
  %78 = load ptr, ptr %5, align 4
  %79 = getelementptr inbounds %struct.packer, ptr %78, i32 0, i32 3
  %80 = load i32, ptr %10, align 4
  %81 = srem i32 %80, 4096
  %82 = getelementptr inbounds [4096 x i32], ptr %79, i32 0, i32 %81
  %83 = load i32, ptr %82, align 4
  store i32 %83, ptr %10, align 4
  br label %84

84:                                               ; preds = %77
  %85 = load i32, ptr %11, align 4
  %86 = add nsw i32 %85, 1
  store i32 %86, ptr %11, align 4
  br label %42, !llvm.loop !57

87:                                               ; preds = %53
  %88 = load i32, ptr %8, align 4
  %89 = icmp uge i32 %88, 3
  br i1 %89, label %90, label %92

90:                                               ; preds = %87
  %91 = load i32, ptr %8, align 4
  br label %93

92:                                               ; preds = %87
  br label %93

93:                                               ; preds = %92, %90
  %94 = phi i32 [ %91, %90 ], [ 0, %92 ]
  store i32 %94, ptr %4, align 4
  br label %95

95:                                               ; preds = %93, %30
  %96 = load i32, ptr %4, align 4
  ret i32 %96
}

; Function Attrs: noinline nounwind optnone uwtable
define internal void @flag(ptr noundef %0, i32 noundef %1) #0 {
  %3 = alloca ptr, align 4
  %4 = alloca i32, align 4
  store ptr %0, ptr %3, align 4
  store i32 %1, ptr %4, align 4
  %5 = load ptr, ptr %3, align 4
  %6 = getelementptr inbounds %struct.packer, ptr %5, i32 0, i32 6
  %7 = load i32, ptr %6, align 4
  %8 = icmp eq i32 %7, 8
  br i1 %8, label %9, label %22

9:                                                ; preds = %2
  %10 = load ptr, ptr %3, align 4
  %11 = getelementptr inbounds %struct.packer, ptr %10, i32 0, i32 4
  %12 = load ptr, ptr %11, align 4
  %13 = getelementptr inbounds %struct.buffer, ptr %12, i32 0, i32 1
  %14 = load i32, ptr %13, align 4
  %15 = load ptr, ptr %3, align 4
  %16 = getelementptr inbounds %struct.packer, ptr %15, i32 0, i32 5
  store i32 %14, ptr %16, align 4
  %17 = load ptr, ptr %3, align 4
  %18 = getelementptr inbounds %struct.packer, ptr %17, i32 0, i32 6
  store i32 0, ptr %18, align 4
  %19 = load ptr, ptr %3, align 4
  %20 = getelementptr inbounds %struct.packer, ptr %19, i32 0, i32 4
  %21 = load ptr, ptr %20, align 4
  call void @buffer_add(ptr noundef %21, i8 noundef zeroext 0)
  br label %22

22:                                               ; preds = %9, %2
  %23 = load i32, ptr %4, align 4
  %24 = load ptr, ptr %3, align 4
  %25 = getelementptr inbounds %struct.packer, ptr %24, i32 0, i32 6
  %26 = load i32, ptr %25, align 4
  %27 = add nsw i32 %26, 1
  store i32 %27, ptr %25, align 4
  %28 = shl i32 %23, %26
  %29 = load ptr, ptr %3, align 4
  %30 = getelementptr inbounds %struct.packer, ptr %29, i32 0, i32 4
  %31 = load ptr, ptr %30, align 4
  %32 = getelementptr inbounds %struct.buffer, ptr %31, i32 0, i32 0
  %33 = load ptr, ptr %32, align 4
  %34 = load ptr, ptr %3, align 4
  %35 = getelementptr inbounds %struct.packer, ptr %34, i32 0, i32 5
  %36 = load i32, ptr %35, align 4
  %37 = getelementptr inbounds i8, ptr %33, i32 %36
  %38 = load i8, ptr %37, align 1
  %39 = zext i8 %38 to i32
  %40 = or i32 %39, %28
  %41 = trunc i32 %40 to i8
  store i8 %41, ptr %37, align 1
  ret void
}

; Function Attrs: noreturn nounwind optsize uwtable
define internal void @__assert_fail(ptr nocapture noundef readnone %0, ptr nocapture noundef readnone %1, i32 noundef %2, ptr nocapture noundef readnone %3) #10 {
  tail call void @abort() #17
  unreachable
}

; Function Attrs: noinline nounwind optnone uwtable
define internal void @remember(ptr noundef %0, i32 noundef %1) #0 {
  %3 = alloca ptr, align 4
  %4 = alloca i32, align 4
  %5 = alloca i32, align 4
  store ptr %0, ptr %3, align 4
  store i32 %1, ptr %4, align 4
  %6 = load i32, ptr %4, align 4
  %7 = add i32 %6, 3
  %8 = load ptr, ptr %3, align 4
  %9 = getelementptr inbounds %struct.packer, ptr %8, i32 0, i32 1
  %10 = load i32, ptr %9, align 4
  %11 = icmp ugt i32 %7, %10
  br i1 %11, label %12, label %13

12:                                               ; preds = %2
  br label %35

13:                                               ; preds = %2
  %14 = load ptr, ptr %3, align 4
  %15 = getelementptr inbounds %struct.packer, ptr %14, i32 0, i32 0
  %16 = load ptr, ptr %15, align 4
  %17 = load i32, ptr %4, align 4
  %18 = getelementptr inbounds i8, ptr %16, i32 %17
  %19 = call i32 @hash(ptr noundef %18)
  store i32 %19, ptr %5, align 4
  %20 = load ptr, ptr %3, align 4
  %21 = getelementptr inbounds %struct.packer, ptr %20, i32 0, i32 2
  %22 = load i32, ptr %5, align 4
  %23 = getelementptr inbounds [1024 x i32], ptr %21, i32 0, i32 %22
  %24 = load i32, ptr %23, align 4
  %25 = load ptr, ptr %3, align 4
  %26 = getelementptr inbounds %struct.packer, ptr %25, i32 0, i32 3
  %27 = load i32, ptr %4, align 4
  %28 = urem i32 %27, 4096
  %29 = getelementptr inbounds [4096 x i32], ptr %26, i32 0, i32 %28
  store i32 %24, ptr %29, align 4
  %30 = load i32, ptr %4, align 4
  %31 = load ptr, ptr %3, align 4
  %32 = getelementptr inbounds %struct.packer, ptr %31, i32 0, i32 2
  %33 = load i32, ptr %5, align 4
  %34 = getelementptr inbounds [1024 x i32], ptr %32, i32 0, i32 %33
  store i32 %30, ptr %34, align 4
  br label %35

35:                                               ; preds = %13, %12
  ret void
}

; Function Attrs: noinline nounwind optnone uwtable
define internal i32 @hash(ptr noundef %0) #0 {
  %2 = alloca ptr, align 4
  %3 = alloca i32, align 4
  store ptr %0, ptr %2, align 4
  %4 = load ptr, ptr %2, align 4
  %5 = getelementptr inbounds i8, ptr %4, i32 0
  %6 = load i8, ptr %5, align 1
  %7 = zext i8 %6 to i32
  %8 = load ptr, ptr %2, align 4
  %9 = getelementptr inbounds i8, ptr %8, i32 1
  %10 = load i8, ptr %9, align 1
  %11 = zext i8 %10 to i32
  %12 = shl i32 %11, 8
  %13 = or i32 %7, %12
  %14 = load ptr, ptr %2, align 4
  %15 = getelementptr inbounds i8, ptr %14, i32 2
  %16 = load i8, ptr %15, align 1
  %17 = zext i8 %16 to i32
  %18 = shl i32 %17, 16
  %19 = or i32 %13, %18
  store i32 %19, ptr %3, align 4
  %20 = load i32, ptr %3, align 4
  %21 = mul i32 %20, -1640531535
  %22 = lshr i32 %21, 22
  ret i32 %22
}

; Function Attrs: noreturn optsize
declare dso_local void @abort() local_unnamed_addr #11

; Function Attrs: noinline nounwind optnone uwtable
define internal i32 @common(ptr noundef %0, ptr noundef %1, i32 noundef %2) #0 {
  %4 = alloca ptr, align 4
  %5 = alloca ptr, align 4
  %6 = alloca i32, align 4
  %7 = alloca i32, align 4
  store ptr %0, ptr %4, align 4
  store ptr %1, ptr %5, align 4
  store i32 %2, ptr %6, align 4
  store i32 0, ptr %7, align 4
  br label %8

8:                                                ; preds = %26, %3
  %9 = load i32, ptr %7, align 4
  %10 = load i32, ptr %6, align 4
  %11 = icmp ult i32 %9, %10
  br i1 %11, label %12, label %24

12:                                               ; preds = %8
  %13 = load ptr, ptr %4, align 4
  %14 = load i32, ptr %7, align 4
  %15 = getelementptr inbounds i8, ptr %13, i32 %14
  %16 = load i8, ptr %15, align 1
  %17 = zext i8 %16 to i32
  %18 = load ptr, ptr %5, align 4
  %19 = load i32, ptr %7, align 4
  %20 = getelementptr inbounds i8, ptr %18, i32 %19
  %21 = load i8, ptr %20, align 1
  %22 = zext i8 %21 to i32
  %23 = icmp eq i32 %17, %22
  br label %24

24:                                               ; preds = %12, %8
  %25 = phi i1 [ false, %8 ], [ %23, %12 ]
  br i1 %25, label %26, label %29

26:                                               ; preds = %24
  %27 = load i32, ptr %7, align 4
  %28 = add i32 %27, 1
  store i32 %28, ptr %7, align 4
  br label %8, !llvm.loop !58

29:                                               ; preds = %24
  %30 = load i32, ptr %7, align 4
  ret i32 %30
}

; Function Attrs: nounwind optsize uwtable
define internal i32 @fread(ptr noalias nocapture noundef writeonly %0, i32 noundef %1, i32 noundef %2, ptr noalias nocapture noundef %3) #2 {
  %5 = mul i32 %2, %1
  %6 = icmp eq i32 %5, 0
  br i1 %6, label %11, label %7

7:                                                ; preds = %14, %4
  %8 = phi i32 [ %17, %14 ], [ 0, %4 ]
  %9 = tail call i32 @fgetc(ptr noundef %3) #14
  %10 = icmp eq i32 %9, -1
  br i1 %10, label %11, label %14

11:                                               ; preds = %14, %7, %4
  %12 = phi i32 [ 0, %4 ], [ %5, %14 ], [ %8, %7 ]
  %13 = icmp eq i32 %1, 0
  br i1 %13, label %21, label %19

14:                                               ; preds = %7
  %15 = trunc i32 %9 to i8
  %16 = getelementptr inbounds i8, ptr %0, i32 %8
  store i8 %15, ptr %16, align 1, !tbaa !13
  %17 = add nuw i32 %8, 1
  %18 = icmp eq i32 %17, %5
  br i1 %18, label %11, label %7, !llvm.loop !59

19:                                               ; preds = %11
  %20 = udiv i32 %12, %1
  br label %21

21:                                               ; preds = %19, %11
  %22 = phi i32 [ %20, %19 ], [ 0, %11 ]
  ret i32 %22
}

; Function Attrs: nounwind optsize uwtable
define internal i32 @fgetc(ptr nocapture noundef %0) local_unnamed_addr #2 {
  %2 = load i8, ptr %0, align 4, !tbaa !18
  %3 = icmp eq i8 %2, 0
  br i1 %3, label %4, label %20

4:                                                ; preds = %1
  %5 = getelementptr inbounds i8, ptr %0, i32 2
  %6 = load i8, ptr %5, align 2, !tbaa !60
  %7 = icmp eq i8 %6, 0
  br i1 %7, label %12, label %8

8:                                                ; preds = %4
  store i8 0, ptr %5, align 2, !tbaa !60
  %9 = getelementptr inbounds i8, ptr %0, i32 3
  %10 = load i8, ptr %9, align 1, !tbaa !61
  %11 = zext i8 %10 to i32
  br label %20

12:                                               ; preds = %4
  %13 = getelementptr inbounds i8, ptr %0, i32 1
  %14 = load i8, ptr %13, align 1, !tbaa !62
  %15 = icmp eq i8 %14, 0
  br i1 %15, label %16, label %20

16:                                               ; preds = %12
  %17 = tail call i32 @getchar() #15
  %18 = icmp eq i32 %17, -1
  br i1 %18, label %19, label %20

19:                                               ; preds = %16
  store i8 1, ptr %13, align 1, !tbaa !62
  br label %20

20:                                               ; preds = %19, %16, %12, %8, %1
  %21 = phi i32 [ %11, %8 ], [ -1, %1 ], [ -1, %12 ], [ -1, %19 ], [ %17, %16 ]
  ret i32 %21
}

; Function Attrs: optsize
declare dso_local i32 @getchar() local_unnamed_addr #8

attributes #0 = { noinline nounwind optnone uwtable "frame-pointer"="all" "min-legal-vector-width"="0" "no-trapping-math"="true" "stack-protector-buffer-size"="8" "target-cpu"="i686" "target-features"="+cmov,+cx8,+x87" "tune-cpu"="generic" }
attributes #1 = { nocallback nofree nounwind willreturn memory(argmem: write) }
attributes #2 = { nounwind optsize uwtable "min-legal-vector-width"="0" "no-builtins" "no-jump-tables"="true" "no-trapping-math"="true" "stack-protector-buffer-size"="8" "target-cpu"="i686" "target-features"="+cmov,+cx8,+x87" "tune-cpu"="generic" }
attributes #3 = { "frame-pointer"="all" "no-trapping-math"="true" "stack-protector-buffer-size"="8" "target-cpu"="i686" "target-features"="+cmov,+cx8,+x87" "tune-cpu"="generic" }
attributes #4 = { nofree norecurse nosync nounwind optsize memory(read, inaccessiblemem: none) uwtable "min-legal-vector-width"="0" "no-builtins" "no-jump-tables"="true" "no-trapping-math"="true" "stack-protector-buffer-size"="8" "target-cpu"="i686" "target-features"="+cmov,+cx8,+x87" "tune-cpu"="generic" }
attributes #5 = { noinline nounwind optsize uwtable "min-legal-vector-width"="0" "no-builtins" "no-jump-tables"="true" "no-trapping-math"="true" "stack-protector-buffer-size"="8" "target-cpu"="i686" "target-features"="+cmov,+cx8,+x87" "tune-cpu"="generic" }
attributes #6 = { nocallback nofree nosync nounwind willreturn memory(argmem: readwrite) }
attributes #7 = { nocallback nofree nosync nounwind speculatable willreturn memory(none) }
attributes #8 = { optsize "no-builtins" "no-trapping-math"="true" "stack-protector-buffer-size"="8" "target-cpu"="i686" "target-features"="+cmov,+cx8,+x87" "tune-cpu"="generic" }
attributes #9 = { noreturn "frame-pointer"="all" "no-trapping-math"="true" "stack-protector-buffer-size"="8" "target-cpu"="i686" "target-features"="+cmov,+cx8,+x87" "tune-cpu"="generic" }
attributes #10 = { noreturn nounwind optsize uwtable "min-legal-vector-width"="0" "no-builtins" "no-jump-tables"="true" "no-trapping-math"="true" "stack-protector-buffer-size"="8" "target-cpu"="i686" "target-features"="+cmov,+cx8,+x87" "tune-cpu"="generic" }
attributes #11 = { noreturn optsize "no-builtins" "no-trapping-math"="true" "stack-protector-buffer-size"="8" "target-cpu"="i686" "target-features"="+cmov,+cx8,+x87" "tune-cpu"="generic" }
attributes #12 = { noreturn }
attributes #13 = { nounwind }
attributes #14 = { nobuiltin optsize "no-builtins" }
attributes #15 = { nobuiltin nounwind optsize "no-builtins" }
attributes #16 = { allocsize(1) }
attributes #17 = { nobuiltin noreturn nounwind optsize "no-builtins" }

!llvm.ident = !{!0, !0, !0, !0, !0, !0, !0}
!llvm.module.flags = !{!1, !2, !3, !4, !5, !6}

!0 = !{!"Debian clang version 19.1.7 (3~deb12u1)"}
!1 = !{i32 1, !"NumRegisterParameters", i32 0}
!2 = !{i32 7, !"Dwarf Version", i32 5}
!3 = !{i32 2, !"Debug Info Version", i32 3}
!4 = !{i32 1, !"wchar_size", i32 4}
!5 = !{i32 7, !"uwtable", i32 2}
!6 = !{i32 7, !"frame-pointer", i32 2}
!7 = distinct !{!7, !8}
!8 = !{!"llvm.loop.mustprogress"}
!9 = distinct !{!9, !8}
!10 = distinct !{!10, !8}
!11 = distinct !{!11, !8}
!12 = distinct !{!12, !8}
!13 = !{!14, !14, i64 0}
!14 = !{!"omnipotent char", !15, i64 0}
!15 = !{!"Simple C/C++ TBAA"}
!16 = distinct !{!16, !8}
!17 = distinct !{!17, !8}
!18 = !{!19, !14, i64 0}
!19 = !{!"__stream", !14, i64 0, !14, i64 1, !14, i64 2, !14, i64 3, !20, i64 4, !21, i64 8}
!20 = !{!"any pointer", !14, i64 0}
!21 = !{!"int", !14, i64 0}
!22 = !{!23}
!23 = distinct !{!23, !24, !"fwrite: %stream"}
!24 = distinct !{!24, !"fwrite"}
!25 = !{!26}
!26 = distinct !{!26, !24, !"fwrite: %from"}
!27 = distinct !{!27, !8}
!28 = distinct !{!28, !8}
!29 = distinct !{!29, !8}
!30 = distinct !{!30, !8}
!31 = distinct !{!31, !8}
!32 = distinct !{!32, !8}
!33 = distinct !{!33, !8}
!34 = distinct !{!34, !8}
!35 = distinct !{!35, !8}
!36 = distinct !{!36, !8}
!37 = distinct !{!37, !8}
!38 = !{!39}
!39 = distinct !{!39, !40, !"fwrite: %stream"}
!40 = distinct !{!40, !"fwrite"}
!41 = !{!42}
!42 = distinct !{!42, !40, !"fwrite: %from"}
!43 = !{!44}
!44 = distinct !{!44, !45, !"fwrite: %stream"}
!45 = distinct !{!45, !"fwrite"}
!46 = !{!47}
!47 = distinct !{!47, !45, !"fwrite: %from"}
!48 = !{!19, !21, i64 8}
!49 = !{!19, !20, i64 4}
!50 = !{!21, !21, i64 0}
!51 = !{!52}
!52 = distinct !{!52, !53, !"memcpy: %from"}
!53 = distinct !{!53, !"memcpy"}
!54 = !{!55}
!55 = distinct !{!55, !53, !"memcpy: %to"}
!56 = distinct !{!56, !8}
!57 = distinct !{!57, !8}
!58 = distinct !{!58, !8}
!59 = distinct !{!59, !8}
!60 = !{!19, !14, i64 2}
!61 = !{!19, !14, i64 3}
!62 = !{!19, !14, i64 1}
