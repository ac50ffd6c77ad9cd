source_filename = "bits.c"
target datalayout = "e-m:e-p:32:32-p270:32:32-p271:32:32-p272:64:64-i128:128-f64:32:64-f80:32-n8:16:32-S128"
target triple = "i386-unknown-linux-gnu"

%struct.code = type { [256 x i8], [256 x i32] }
%struct.__stream = type { i8, i8, i8, i8, ptr, i32 }
%struct.bits = type { ptr, i32, i32, i32 }
%struct.heap = type { [256 x ptr], i32 }
%struct.node = type { i32, i16, ptr, ptr }

@text = internal global [4000 x i8] zeroinitializer, align 1
@main.code = internal global %struct.code zeroinitializer, align 4
@.str = private unnamed_addr constant [16 x i8] c"nothing to code\00", align 1
@lengths = internal global ptr null, align 4
@.str.1 = private unnamed_addr constant [56 x i8] c"%zu bytes, %d symbols, %zu bits, %zu.%02zu bits a byte\0A\00", align 1
@.str.2 = private unnamed_addr constant [7 x i8] c"begins\00", align 1
@.str.3 = private unnamed_addr constant [6 x i8] c" %02x\00", align 1
@.str.4 = private unnamed_addr constant [2 x i8] c"\0A\00", align 1
@.str.5 = private unnamed_addr constant [10 x i8] c"read back\00", align 1
@.str.6 = private unnamed_addr constant [8 x i8] c"damaged\00", align 1
@.str.7 = private unnamed_addr constant [21 x i8] c"%5u  %-16s %2u bits\0A\00", align 1
@.str.8 = private unnamed_addr constant [6 x i8] c"%c   \00", align 1
@.str.9 = private unnamed_addr constant [5 x i8] c"\\n  \00", align 1
@.str.10 = private unnamed_addr constant [7 x i8] c"x%02X \00", align 1
@.str.13 = private unnamed_addr constant [1 x i8] zeroinitializer, align 1
@.str.1.14 = private unnamed_addr constant [7 x i8] c"(null)\00", align 1
@.str.2.19 = private unnamed_addr constant [2 x i8] c"-\00", align 1
@.str.3.20 = private unnamed_addr constant [2 x i8] c"+\00", align 1
@.str.4.18 = private unnamed_addr constant [2 x i8] c" \00", align 1
@.str.5.26 = private unnamed_addr constant [3 x i8] c"0X\00", align 1
@.str.6.25 = private unnamed_addr constant [3 x i8] c"0x\00", align 1
@.str.8.24 = private unnamed_addr constant [17 x i8] c"0123456789ABCDEF\00", align 1
@.str.9.17 = private unnamed_addr constant [17 x i8] c"0123456789abcdef\00", align 1
@__streams = internal global [3 x %struct.__stream] [%struct.__stream zeroinitializer, %struct.__stream { i8 1, i8 0, i8 0, i8 0, ptr null, i32 0 }, %struct.__stream { i8 2, i8 0, i8 0, i8 0, ptr null, i32 0 }], align 4

; Function Attrs: noinline nounwind optnone uwtable
define dso_local i32 @main() #0 {
  %1 = alloca i32, align 4
  %2 = alloca i32, align 4
  %3 = alloca [256 x i32], align 4
  %4 = alloca i32, align 4
  %5 = alloca [256 x i32], align 4
  %6 = alloca i32, align 4
  %7 = alloca i32, align 4
  %8 = alloca i32, align 4
  %9 = alloca %struct.bits, align 4
  %10 = alloca i32, align 4
  %11 = alloca ptr, align 4
  %12 = alloca i32, align 4
  %13 = alloca i32, align 4
  store i32 0, ptr %1, align 4
  %14 = call i32 @fread(ptr noundef @text, i32 noundef 1, i32 noundef 4000, ptr noundef @__streams)
  store i32 %14, ptr %2, align 4
  call void @llvm.memset.p0.i32(ptr align 4 %3, i8 0, i32 1024, i1 false)
  store i32 0, ptr %4, align 4
  br label %15

15:                                               ; preds = %27, %0
  %16 = load i32, ptr %4, align 4
  %17 = load i32, ptr %2, align 4
  %18 = icmp ult i32 %16, %17
  br i1 %18, label %19, label %30

19:                                               ; preds = %15
  %20 = load i32, ptr %4, align 4
  %21 = getelementptr inbounds [4000 x i8], ptr @text, i32 0, i32 %20
  %22 = load i8, ptr %21, align 1
  %23 = zext i8 %22 to i32
  %24 = getelementptr inbounds [256 x i32], ptr %3, i32 0, i32 %23
  %25 = load i32, ptr %24, align 4
  %26 = add i32 %25, 1
  store i32 %26, ptr %24, align 4
  br label %27

27:                                               ; preds = %19
  %28 = load i32, ptr %4, align 4
  %29 = add i32 %28, 1
  store i32 %29, ptr %4, align 4
  br label %15, !llvm.loop !7

30:                                               ; preds = %15
  %31 = getelementptr inbounds [256 x i32], ptr %3, i32 0, i32 0
  %32 = call zeroext i1 @code_from_counts(ptr noundef @main.code, ptr noundef %31)
  br i1 %32, label %35, label %33

33:                                               ; preds = %30
  %34 = call i32 @puts(ptr noundef @.str)
  store i32 1, ptr %1, align 4
  br label %179

35:                                               ; preds = %30
  store i32 0, ptr %6, align 4
  store i32 0, ptr %7, align 4
  br label %36

36:                                               ; preds = %50, %35
  %37 = load i32, ptr %7, align 4
  %38 = icmp slt i32 %37, 256
  br i1 %38, label %39, label %53

39:                                               ; preds = %36
  %40 = load i32, ptr %7, align 4
  %41 = getelementptr inbounds [256 x i32], ptr %3, i32 0, i32 %40
  %42 = load i32, ptr %41, align 4
  %43 = icmp ne i32 %42, 0
  br i1 %43, label %44, label %49

44:                                               ; preds = %39
  %45 = load i32, ptr %7, align 4
  %46 = load i32, ptr %6, align 4
  %47 = add nsw i32 %46, 1
  store i32 %47, ptr %6, align 4
  %48 = getelementptr inbounds [256 x i32], ptr %5, i32 0, i32 %46
  store i32 %45, ptr %48, align 4
  br label %49

49:                                               ; preds = %44, %39
  br label %50

50:                                               ; preds = %49
  %51 = load i32, ptr %7, align 4
  %52 = add nsw i32 %51, 1
  store i32 %52, ptr %7, align 4
  br label %36, !llvm.loop !9

53:                                               ; preds = %36
  store ptr @main.code, ptr @lengths, align 4
  %54 = getelementptr inbounds [256 x i32], ptr %5, i32 0, i32 0
  %55 = load i32, ptr %6, align 4
  call void @qsort(ptr noundef %54, i32 noundef %55, i32 noundef 4, ptr noundef @by_length)
  store i32 0, ptr %8, align 4
  br label %56

56:                                               ; preds = %65, %53
  %57 = load i32, ptr %8, align 4
  %58 = load i32, ptr %6, align 4
  %59 = icmp slt i32 %57, %58
  br i1 %59, label %60, label %68

60:                                               ; preds = %56
  %61 = getelementptr inbounds [256 x i32], ptr %3, i32 0, i32 0
  %62 = load i32, ptr %8, align 4
  %63 = getelementptr inbounds [256 x i32], ptr %5, i32 0, i32 %62
  %64 = load i32, ptr %63, align 4
  call void @show_code(ptr noundef @main.code, ptr noundef %61, i32 noundef %64)
  br label %65

65:                                               ; preds = %60
  %66 = load i32, ptr %8, align 4
  %67 = add nsw i32 %66, 1
  store i32 %67, ptr %8, align 4
  br label %56, !llvm.loop !10

68:                                               ; preds = %56
  call void @llvm.memset.p0.i32(ptr align 4 %9, i8 0, i32 16, i1 false)
  %69 = load i32, ptr %2, align 4
  call void @encode(ptr noundef %9, ptr noundef @main.code, ptr noundef @text, i32 noundef %69)
  %70 = load i32, ptr %2, align 4
  %71 = load i32, ptr %6, align 4
  %72 = getelementptr inbounds %struct.bits, ptr %9, i32 0, i32 1
  %73 = load i32, ptr %72, align 4
  %74 = getelementptr inbounds %struct.bits, ptr %9, i32 0, i32 1
  %75 = load i32, ptr %74, align 4
  %76 = load i32, ptr %2, align 4
  %77 = udiv i32 %75, %76
  %78 = getelementptr inbounds %struct.bits, ptr %9, i32 0, i32 1
  %79 = load i32, ptr %78, align 4
  %80 = load i32, ptr %2, align 4
  %81 = urem i32 %79, %80
  %82 = mul i32 %81, 100
  %83 = load i32, ptr %2, align 4
  %84 = udiv i32 %82, %83
  %85 = zext i32 %70 to i64
  %86 = call i32 @__print_unsigned(ptr getelementptr inbounds ([3 x { i8, i8, i8, i8, ptr, i32 }], ptr @__streams, i32 0, i32 1), i64 %85, i32 10, i32 0, i32 0, i32 -1)
  %87 = call i32 @__print_text(ptr getelementptr inbounds ([3 x { i8, i8, i8, i8, ptr, i32 }], ptr @__streams, i32 0, i32 1), ptr getelementptr inbounds (i8, ptr @.str.1, i32 3), i32 8)
  %88 = sext i32 %71 to i64
  %89 = call i32 @__print_signed(ptr getelementptr inbounds ([3 x { i8, i8, i8, i8, ptr, i32 }], ptr @__streams, i32 0, i32 1), i64 %88, i32 0, i32 0, i32 -1)
  %90 = call i32 @__print_text(ptr getelementptr inbounds ([3 x { i8, i8, i8, i8, ptr, i32 }], ptr @__streams, i32 0, i32 1), ptr getelementptr inbounds (i8, ptr @.str.1, i32 13), i32 10)
  %91 = zext i32 %73 to i64
  %92 = call i32 @__print_unsigned(ptr getelementptr inbounds ([3 x { i8, i8, i8, i8, ptr, i32 }], ptr @__streams, i32 0, i32 1), i64 %91, i32 10, i32 0, i32 0, i32 -1)
  %93 = call i32 @__print_text(ptr getelementptr inbounds ([3 x { i8, i8, i8, i8, ptr, i32 }], ptr @__streams, i32 0, i32 1), ptr getelementptr inbounds (i8, ptr @.str.1, i32 26), i32 7)
  %94 = zext i32 %77 to i64
  %95 = call i32 @__print_unsigned(ptr getelementptr inbounds ([3 x { i8, i8, i8, i8, ptr, i32 }], ptr @__streams, i32 0, i32 1), i64 %94, i32 10, i32 0, i32 0, i32 -1)
  %96 = call i32 @__print_text(ptr getelementptr inbounds ([3 x { i8, i8, i8, i8, ptr, i32 }], ptr @__streams, i32 0, i32 1), ptr getelementptr inbounds (i8, ptr @.str.1, i32 36), i32 1)
  %97 = zext i32 %84 to i64
  %98 = call i32 @__print_unsigned(ptr getelementptr inbounds ([3 x { i8, i8, i8, i8, ptr, i32 }], ptr @__streams, i32 0, i32 1), i64 %97, i32 10, i32 16, i32 2, i32 -1)
  %99 = call i32 @__print_text(ptr getelementptr inbounds ([3 x { i8, i8, i8, i8, ptr, i32 }], ptr @__streams, i32 0, i32 1), ptr getelementptr inbounds (i8, ptr @.str.1, i32 42), i32 13)
  %100 = add i32 %86, %87
  %101 = add i32 %100, %89
  %102 = add i32 %101, %90
  %103 = add i32 %102, %92
  %104 = add i32 %103, %93
  %105 = add i32 %104, %95
  %106 = add i32 %105, %96
  %107 = add i32 %106, %98
  %108 = add i32 %107, %99
  %109 = add i32 %108, 0
  %110 = call i32 @__print_text(ptr getelementptr inbounds ([3 x { i8, i8, i8, i8, ptr, i32 }], ptr @__streams, i32 0, i32 1), ptr @.str.2, i32 6)
  %111 = add i32 %110, 0
  store i32 0, ptr %10, align 4
  br label %112

112:                                              ; preds = %135, %68
  %113 = load i32, ptr %10, align 4
  %114 = icmp ult i32 %113, 8
  br i1 %114, label %115, label %121

115:                                              ; preds = %112
  %116 = load i32, ptr %10, align 4
  %117 = mul i32 %116, 8
  %118 = getelementptr inbounds %struct.bits, ptr %9, i32 0, i32 1
  %119 = load i32, ptr %118, align 4
  %120 = icmp ult i32 %117, %119
  br label %121

121:                                              ; preds = %115, %112
  %122 = phi i1 [ false, %112 ], [ %120, %115 ]
  br i1 %122, label %123, label %138

123:                                              ; preds = %121
  %124 = getelementptr inbounds %struct.bits, ptr %9, i32 0, i32 0
  %125 = load ptr, ptr %124, align 4
  %126 = load i32, ptr %10, align 4
  %127 = getelementptr inbounds i8, ptr %125, i32 %126
  %128 = load i8, ptr %127, align 1
  %129 = zext i8 %128 to i32
  %130 = call i32 @__print_text(ptr getelementptr inbounds ([3 x { i8, i8, i8, i8, ptr, i32 }], ptr @__streams, i32 0, i32 1), ptr @.str.3, i32 1)
  %131 = zext i32 %129 to i64
  %132 = call i32 @__print_unsigned(ptr getelementptr inbounds ([3 x { i8, i8, i8, i8, ptr, i32 }], ptr @__streams, i32 0, i32 1), i64 %131, i32 16, i32 16, i32 2, i32 -1)
  %133 = add i32 %130, %132
  %134 = add i32 %133, 0
  br label %135

135:                                              ; preds = %123
  %136 = load i32, ptr %10, align 4
  %137 = add i32 %136, 1
  store i32 %137, ptr %10, align 4
  br label %112, !llvm.loop !11

138:                                              ; preds = %121
  %139 = call i32 @__print_text(ptr getelementptr inbounds ([3 x { i8, i8, i8, i8, ptr, i32 }], ptr @__streams, i32 0, i32 1), ptr @.str.4, i32 1)
  %140 = add i32 %139, 0
  %141 = load i32, ptr %2, align 4
  %142 = call ptr @__sized_malloc(i32 noundef %141) #12
  store ptr %142, ptr %11, align 4
  %143 = load ptr, ptr %11, align 4
  %144 = icmp ne ptr %143, null
  br i1 %144, label %146, label %145

145:                                              ; preds = %138
  store i32 2, ptr %1, align 4
  br label %179

146:                                              ; preds = %138
  %147 = load ptr, ptr %11, align 4
  %148 = load i32, ptr %2, align 4
  %149 = call i32 @decode(ptr noundef %147, i32 noundef %148, ptr noundef @main.code, ptr noundef %9)
  store i32 %149, ptr %12, align 4
  %150 = load i32, ptr %12, align 4
  %151 = load i32, ptr %2, align 4
  %152 = icmp eq i32 %150, %151
  br i1 %152, label %153, label %161

153:                                              ; preds = %146
  %154 = load ptr, ptr %11, align 4
  %155 = load i32, ptr %2, align 4
  %156 = call i32 @memcmp(ptr noundef %154, ptr noundef @text, i32 noundef %155)
  %157 = icmp eq i32 %156, 0
  br i1 %157, label %158, label %161

158:                                              ; preds = %153
  %159 = call i32 @bits_take(ptr noundef %9)
  %160 = icmp slt i32 %159, 0
  br label %161

161:                                              ; preds = %158, %153, %146
  %162 = phi i1 [ false, %153 ], [ false, %146 ], [ %160, %158 ]
  %163 = zext i1 %162 to i32
  store i32 %163, ptr %13, align 4
  %164 = load i32, ptr %13, align 4
  %165 = icmp ne i32 %164, 0
  %166 = zext i1 %165 to i64
  %167 = select i1 %165, ptr @.str.5, ptr @.str.6
  %168 = call i32 @puts(ptr noundef %167)
  %169 = load ptr, ptr %11, align 4
  call void @__sized_free(ptr noundef %169)
  %170 = getelementptr inbounds %struct.bits, ptr %9, i32 0, i32 0
  %171 = load ptr, ptr %170, align 4
  call void @__sized_free(ptr noundef %171)
  %172 = load i32, ptr %13, align 4
  %173 = icmp ne i32 %172, 0
  br i1 %173, label %174, label %176

174:                                              ; preds = %161
  %175 = load i32, ptr %6, align 4
  br label %177

176:                                              ; preds = %161
  br label %177

177:                                              ; preds = %176, %174
  %178 = phi i32 [ %175, %174 ], [ 1, %176 ]
  store i32 %178, ptr %1, align 4
  br label %179

179:                                              ; preds = %177, %145, %33
  %180 = load i32, ptr %1, align 4
  ret i32 %180
}

; Function Attrs: nounwind optsize uwtable
define internal i32 @fread(ptr noalias nocapture noundef writeonly %0, i32 noundef %1, i32 noundef %2, ptr noalias nocapture noundef %3) #1 {
  %5 = mul i32 %2, %1
  %6 = icmp eq i32 %5, 0
  br i1 %6, label %11, label %7

7:                                                ; preds = %14, %4
  %8 = phi i32 [ %17, %14 ], [ 0, %4 ]
  %9 = tail call i32 @fgetc(ptr noundef %3) #13
  %10 = icmp eq i32 %9, -1
  br i1 %10, label %11, label %14

11:                                               ; preds = %14, %7, %4
  %12 = phi i32 [ 0, %4 ], [ %5, %14 ], [ %8, %7 ]
  %13 = icmp eq i32 %1, 0
  br i1 %13, label %21, label %19

14:                                               ; preds = %7
  %15 = trunc i32 %9 to i8
  %16 = getelementptr inbounds i8, ptr %0, i32 %8
  store i8 %15, ptr %16, align 1, !tbaa !12
  %17 = add nuw i32 %8, 1
  %18 = icmp eq i32 %17, %5
  br i1 %18, label %11, label %7, !llvm.loop !15

19:                                               ; preds = %11
  %20 = udiv i32 %12, %1
  br label %21

21:                                               ; preds = %19, %11
  %22 = phi i32 [ %20, %19 ], [ 0, %11 ]
  ret i32 %22
}

; Function Attrs: nocallback nofree nounwind willreturn memory(argmem: write)
declare void @llvm.memset.p0.i32(ptr nocapture writeonly, i8, i32, i1 immarg) #2

; Function Attrs: noinline nounwind optnone uwtable
define internal zeroext i1 @code_from_counts(ptr noundef %0, ptr noundef %1) #0 {
  %3 = alloca i1, align 1
  %4 = alloca ptr, align 4
  %5 = alloca ptr, align 4
  %6 = alloca %struct.heap, align 4
  %7 = alloca i32, align 4
  %8 = alloca ptr, align 4
  %9 = alloca ptr, align 4
  store ptr %0, ptr %4, align 4
  store ptr %1, ptr %5, align 4
  call void @llvm.memset.p0.i32(ptr align 4 %6, i8 0, i32 1028, i1 false)
  %10 = load ptr, ptr %4, align 4
  call void @llvm.memset.p0.i32(ptr align 4 %10, i8 0, i32 1280, i1 false)
  store i32 0, ptr %7, align 4
  br label %11

11:                                               ; preds = %38, %2
  %12 = load i32, ptr %7, align 4
  %13 = icmp slt i32 %12, 256
  br i1 %13, label %14, label %41

14:                                               ; preds = %11
  %15 = load ptr, ptr %5, align 4
  %16 = load i32, ptr %7, align 4
  %17 = getelementptr inbounds i32, ptr %15, i32 %16
  %18 = load i32, ptr %17, align 4
  %19 = icmp eq i32 %18, 0
  br i1 %19, label %20, label %21

20:                                               ; preds = %14
  br label %38

21:                                               ; preds = %14
  %22 = call ptr @__sized_calloc(i32 noundef 1, i32 noundef 16) #14
  store ptr %22, ptr %8, align 4
  %23 = load ptr, ptr %8, align 4
  %24 = icmp ne ptr %23, null
  br i1 %24, label %26, label %25

25:                                               ; preds = %21
  store i1 false, ptr %3, align 1
  br label %60

26:                                               ; preds = %21
  %27 = load ptr, ptr %5, align 4
  %28 = load i32, ptr %7, align 4
  %29 = getelementptr inbounds i32, ptr %27, i32 %28
  %30 = load i32, ptr %29, align 4
  %31 = load ptr, ptr %8, align 4
  %32 = getelementptr inbounds %struct.node, ptr %31, i32 0, i32 0
  store i32 %30, ptr %32, align 4
  %33 = load i32, ptr %7, align 4
  %34 = trunc i32 %33 to i16
  %35 = load ptr, ptr %8, align 4
  %36 = getelementptr inbounds %struct.node, ptr %35, i32 0, i32 1
  store i16 %34, ptr %36, align 4
  %37 = load ptr, ptr %8, align 4
  call void @push(ptr noundef %6, ptr noundef %37)
  br label %38

38:                                               ; preds = %26, %20
  %39 = load i32, ptr %7, align 4
  %40 = add nsw i32 %39, 1
  store i32 %40, ptr %7, align 4
  br label %11, !llvm.loop !16

41:                                               ; preds = %11
  %42 = getelementptr inbounds %struct.heap, ptr %6, i32 0, i32 1
  %43 = load i32, ptr %42, align 4
  %44 = icmp eq i32 %43, 0
  br i1 %44, label %45, label %46

45:                                               ; preds = %41
  store i1 false, ptr %3, align 1
  br label %60

46:                                               ; preds = %41
  br label %47

47:                                               ; preds = %51, %46
  %48 = getelementptr inbounds %struct.heap, ptr %6, i32 0, i32 1
  %49 = load i32, ptr %48, align 4
  %50 = icmp sgt i32 %49, 1
  br i1 %50, label %51, label %56

51:                                               ; preds = %47
  %52 = call ptr @pop(ptr noundef %6)
  store ptr %52, ptr %9, align 4
  %53 = load ptr, ptr %9, align 4
  %54 = call ptr @pop(ptr noundef %6)
  %55 = call ptr @join(ptr noundef %53, ptr noundef %54)
  call void @push(ptr noundef %6, ptr noundef %55)
  br label %47, !llvm.loop !17

56:                                               ; preds = %47
  %57 = load ptr, ptr %4, align 4
  %58 = call ptr @pop(ptr noundef %6)
  call void @measure(ptr noundef %57, ptr noundef %58, i32 noundef 0)
  %59 = load ptr, ptr %4, align 4
  call void @number(ptr noundef %59)
  store i1 true, ptr %3, align 1
  br label %60

60:                                               ; preds = %56, %45, %25
  %61 = load i1, ptr %3, align 1
  ret i1 %61
}

declare dso_local i32 @puts(ptr noundef) #3

; Function Attrs: noinline nounwind optnone uwtable
define internal i32 @by_length(ptr noundef %0, ptr noundef %1) #0 {
  %3 = alloca ptr, align 4
  %4 = alloca ptr, align 4
  %5 = alloca i32, align 4
  %6 = alloca i32, align 4
  store ptr %0, ptr %3, align 4
  store ptr %1, ptr %4, align 4
  %7 = load ptr, ptr %3, align 4
  %8 = load i32, ptr %7, align 4
  store i32 %8, ptr %5, align 4
  %9 = load ptr, ptr %4, align 4
  %10 = load i32, ptr %9, align 4
  store i32 %10, ptr %6, align 4
  %11 = load ptr, ptr @lengths, align 4
  %12 = load i32, ptr %5, align 4
  %13 = getelementptr inbounds i8, ptr %11, i32 %12
  %14 = load i8, ptr %13, align 1
  %15 = zext i8 %14 to i32
  %16 = load ptr, ptr @lengths, align 4
  %17 = load i32, ptr %6, align 4
  %18 = getelementptr inbounds i8, ptr %16, i32 %17
  %19 = load i8, ptr %18, align 1
  %20 = zext i8 %19 to i32
  %21 = icmp ne i32 %15, %20
  br i1 %21, label %22, label %34

22:                                               ; preds = %2
  %23 = load ptr, ptr @lengths, align 4
  %24 = load i32, ptr %5, align 4
  %25 = getelementptr inbounds i8, ptr %23, i32 %24
  %26 = load i8, ptr %25, align 1
  %27 = zext i8 %26 to i32
  %28 = load ptr, ptr @lengths, align 4
  %29 = load i32, ptr %6, align 4
  %30 = getelementptr inbounds i8, ptr %28, i32 %29
  %31 = load i8, ptr %30, align 1
  %32 = zext i8 %31 to i32
  %33 = sub nsw i32 %27, %32
  br label %38

34:                                               ; preds = %2
  %35 = load i32, ptr %5, align 4
  %36 = load i32, ptr %6, align 4
  %37 = sub nsw i32 %35, %36
  br label %38

38:                                               ; preds = %34, %22
  %39 = phi i32 [ %33, %22 ], [ %37, %34 ]
  ret i32 %39
}

; Function Attrs: nounwind optsize uwtable
define internal void @qsort(ptr noundef %0, i32 noundef %1, i32 noundef %2, ptr noundef %3) #1 {
  %5 = icmp ult i32 %1, 2
  %6 = icmp eq i32 %2, 0
  %7 = or i1 %5, %6
  br i1 %7, label %35, label %8

8:                                                ; preds = %4
  %9 = lshr i32 %1, 1
  %10 = mul i32 %9, %2
  %11 = tail call ptr @__sized_malloc(i32 noundef %10) #15
  %12 = icmp eq ptr %11, null
  br i1 %12, label %13, label %34

13:                                               ; preds = %13, %8
  %14 = phi i32 [ %15, %13 ], [ %9, %8 ]
  %15 = add nsw i32 %14, -1
  tail call fastcc void @sink(ptr noundef %0, i32 noundef %15, i32 noundef %1, i32 noundef %2, ptr noundef readonly %3) #13
  %16 = icmp eq i32 %15, 0
  br i1 %16, label %17, label %13, !llvm.loop !18

17:                                               ; preds = %32, %13
  %18 = phi i32 [ %19, %32 ], [ %1, %13 ]
  %19 = add i32 %18, -1
  %20 = mul i32 %19, %2
  %21 = getelementptr inbounds i8, ptr %0, i32 %20
  br label %22

22:                                               ; preds = %22, %17
  %23 = phi ptr [ %29, %22 ], [ %0, %17 ]
  %24 = phi i32 [ %26, %22 ], [ %2, %17 ]
  %25 = phi ptr [ %30, %22 ], [ %21, %17 ]
  %26 = add i32 %24, -1
  %27 = load i8, ptr %23, align 1, !tbaa !12
  %28 = load i8, ptr %25, align 1, !tbaa !12
  %29 = getelementptr inbounds i8, ptr %23, i32 1
  store i8 %28, ptr %23, align 1, !tbaa !12
  %30 = getelementptr inbounds i8, ptr %25, i32 1
  store i8 %27, ptr %25, align 1, !tbaa !12
  %31 = icmp eq i32 %26, 0
  br i1 %31, label %32, label %22, !llvm.loop !19

32:                                               ; preds = %22
  tail call fastcc void @sink(ptr noundef %0, i32 noundef 0, i32 noundef %19, i32 noundef %2, ptr noundef readonly %3) #13
  %33 = icmp ugt i32 %19, 1
  br i1 %33, label %17, label %35, !llvm.loop !20

34:                                               ; preds = %8
  tail call fastcc void @merge_sort(ptr noundef %0, i32 noundef %1, i32 noundef %2, ptr noundef %3, ptr noundef nonnull %11) #13
  tail call void @__sized_free(ptr noundef nonnull %11) #15
  br label %35

35:                                               ; preds = %34, %32, %4
  ret void
}

; Function Attrs: noinline nounwind optnone uwtable
define internal void @show_code(ptr noundef %0, ptr noundef %1, i32 noundef %2) #0 {
  %4 = alloca ptr, align 4
  %5 = alloca ptr, align 4
  %6 = alloca i32, align 4
  %7 = alloca [33 x i8], align 1
  %8 = alloca i32, align 4
  store ptr %0, ptr %4, align 4
  store ptr %1, ptr %5, align 4
  store i32 %2, ptr %6, align 4
  store i32 0, ptr %8, align 4
  br label %9

9:                                                ; preds = %41, %3
  %10 = load i32, ptr %8, align 4
  %11 = load ptr, ptr %4, align 4
  %12 = getelementptr inbounds %struct.code, ptr %11, i32 0, i32 0
  %13 = load i32, ptr %6, align 4
  %14 = getelementptr inbounds [256 x i8], ptr %12, i32 0, i32 %13
  %15 = load i8, ptr %14, align 1
  %16 = zext i8 %15 to i32
  %17 = icmp ult i32 %10, %16
  br i1 %17, label %18, label %44

18:                                               ; preds = %9
  %19 = load ptr, ptr %4, align 4
  %20 = getelementptr inbounds %struct.code, ptr %19, i32 0, i32 1
  %21 = load i32, ptr %6, align 4
  %22 = getelementptr inbounds [256 x i32], ptr %20, i32 0, i32 %21
  %23 = load i32, ptr %22, align 4
  %24 = load ptr, ptr %4, align 4
  %25 = getelementptr inbounds %struct.code, ptr %24, i32 0, i32 0
  %26 = load i32, ptr %6, align 4
  %27 = getelementptr inbounds [256 x i8], ptr %25, i32 0, i32 %26
  %28 = load i8, ptr %27, align 1
  %29 = zext i8 %28 to i32
  %30 = sub nsw i32 %29, 1
  %31 = load i32, ptr %8, align 4
  %32 = sub i32 %30, %31
  %33 = lshr i32 %23, %32
  %34 = and i32 %33, 1
  %35 = icmp ne i32 %34, 0
  %36 = zext i1 %35 to i64
  %37 = select i1 %35, i32 49, i32 48
  %38 = trunc i32 %37 to i8
  %39 = load i32, ptr %8, align 4
  %40 = getelementptr inbounds [33 x i8], ptr %7, i32 0, i32 %39
  store i8 %38, ptr %40, align 1
  br label %41

41:                                               ; preds = %18
  %42 = load i32, ptr %8, align 4
  %43 = add i32 %42, 1
  store i32 %43, ptr %8, align 4
  br label %9, !llvm.loop !21

44:                                               ; preds = %9
  %45 = load ptr, ptr %4, align 4
  %46 = getelementptr inbounds %struct.code, ptr %45, i32 0, i32 0
  %47 = load i32, ptr %6, align 4
  %48 = getelementptr inbounds [256 x i8], ptr %46, i32 0, i32 %47
  %49 = load i8, ptr %48, align 1
  %50 = zext i8 %49 to i32
  %51 = getelementptr inbounds [33 x i8], ptr %7, i32 0, i32 %50
  store i8 0, ptr %51, align 1
  %52 = load i32, ptr %6, align 4
  call void @show_symbol(i32 noundef %52)
  %53 = load ptr, ptr %5, align 4
  %54 = load i32, ptr %6, align 4
  %55 = getelementptr inbounds i32, ptr %53, i32 %54
  %56 = load i32, ptr %55, align 4
  %57 = getelementptr inbounds [33 x i8], ptr %7, i32 0, i32 0
  %58 = load ptr, ptr %4, align 4
  %59 = getelementptr inbounds %struct.code, ptr %58, i32 0, i32 0
  %60 = load i32, ptr %6, align 4
  %61 = getelementptr inbounds [256 x i8], ptr %59, i32 0, i32 %60
  %62 = load i8, ptr %61, align 1
  %63 = zext i8 %62 to i32
  %64 = zext i32 %56 to i64
  %65 = call i32 @__print_unsigned(ptr getelementptr inbounds ([3 x { i8, i8, i8, i8, ptr, i32 }], ptr @__streams, i32 0, i32 1), i64 %64, i32 10, i32 0, i32 5, i32 -1)
  %66 = call i32 @__print_text(ptr getelementptr inbounds ([3 x { i8, i8, i8, i8, ptr, i32 }], ptr @__streams, i32 0, i32 1), ptr getelementptr inbounds (i8, ptr @.str.7, i32 3), i32 2)
  %67 = call i32 @__print_string(ptr getelementptr inbounds ([3 x { i8, i8, i8, i8, ptr, i32 }], ptr @__streams, i32 0, i32 1), ptr %57, i32 1, i32 16, i32 -1)
  %68 = call i32 @__print_text(ptr getelementptr inbounds ([3 x { i8, i8, i8, i8, ptr, i32 }], ptr @__streams, i32 0, i32 1), ptr getelementptr inbounds (i8, ptr @.str.7, i32 10), i32 1)
  %69 = zext i32 %63 to i64
  %70 = call i32 @__print_unsigned(ptr getelementptr inbounds ([3 x { i8, i8, i8, i8, ptr, i32 }], ptr @__streams, i32 0, i32 1), i64 %69, i32 10, i32 0, i32 2, i32 -1)
  %71 = call i32 @__print_text(ptr getelementptr inbounds ([3 x { i8, i8, i8, i8, ptr, i32 }], ptr @__streams, i32 0, i32 1), ptr getelementptr inbounds (i8, ptr @.str.7, i32 14), i32 6)
  %72 = add i32 %65, %66
  %73 = add i32 %72, %67
  %74 = add i32 %73, %68
  %75 = add i32 %74, %70
  %76 = add i32 %75, %71
  %77 = add i32 %76, 0
  ret void
}

; Function Attrs: noinline nounwind optnone uwtable
define internal void @encode(ptr noundef %0, ptr noundef %1, ptr noundef %2, i32 noundef %3) #0 {
  %5 = alloca ptr, align 4
  %6 = alloca ptr, align 4
  %7 = alloca ptr, align 4
  %8 = alloca i32, align 4
  %9 = alloca i32, align 4
  store ptr %0, ptr %5, align 4
  store ptr %1, ptr %6, align 4
  store ptr %2, ptr %7, align 4
  store i32 %3, ptr %8, align 4
  store i32 0, ptr %9, align 4
  br label %10

10:                                               ; preds = %35, %4
  %11 = load i32, ptr %9, align 4
  %12 = load i32, ptr %8, align 4
  %13 = icmp ult i32 %11, %12
  br i1 %13, label %14, label %38

14:                                               ; preds = %10
  %15 = load ptr, ptr %5, align 4
  %16 = load ptr, ptr %6, align 4
  %17 = getelementptr inbounds %struct.code, ptr %16, i32 0, i32 1
  %18 = load ptr, ptr %7, align 4
  %19 = load i32, ptr %9, align 4
  %20 = getelementptr inbounds i8, ptr %18, i32 %19
  %21 = load i8, ptr %20, align 1
  %22 = zext i8 %21 to i32
  %23 = getelementptr inbounds [256 x i32], ptr %17, i32 0, i32 %22
  %24 = load i32, ptr %23, align 4
  %25 = load ptr, ptr %6, align 4
  %26 = getelementptr inbounds %struct.code, ptr %25, i32 0, i32 0
  %27 = load ptr, ptr %7, align 4
  %28 = load i32, ptr %9, align 4
  %29 = getelementptr inbounds i8, ptr %27, i32 %28
  %30 = load i8, ptr %29, align 1
  %31 = zext i8 %30 to i32
  %32 = getelementptr inbounds [256 x i8], ptr %26, i32 0, i32 %31
  %33 = load i8, ptr %32, align 1
  %34 = zext i8 %33 to i32
  call void @bits_put(ptr noundef %15, i32 noundef %24, i32 noundef %34)
  br label %35

35:                                               ; preds = %14
  %36 = load i32, ptr %9, align 4
  %37 = add i32 %36, 1
  store i32 %37, ptr %9, align 4
  br label %10, !llvm.loop !22

38:                                               ; preds = %10
  ret void
}

; Function Attrs: nounwind optsize uwtable
define internal i32 @__print_unsigned(ptr nocapture noundef %0, i64 noundef %1, i32 noundef %2, i32 noundef %3, i32 noundef %4, i32 noundef %5) #1 {
  %7 = alloca [24 x i8], align 1
  call void @llvm.lifetime.start.p0(i64 24, ptr nonnull %7) #16
  %8 = and i32 %3, 32
  %9 = icmp eq i32 %8, 0
  %10 = select i1 %9, ptr @.str.9.17, ptr @.str.8.24
  %11 = icmp ult i64 %1, 4294967296
  br i1 %11, label %14, label %12

12:                                               ; preds = %6
  %13 = zext i32 %2 to i64
  br label %27

14:                                               ; preds = %6
  %15 = trunc nuw i64 %1 to i32
  %16 = icmp eq i32 %15, 0
  br i1 %16, label %40, label %17

17:                                               ; preds = %17, %14
  %18 = phi i32 [ %25, %17 ], [ %15, %14 ]
  %19 = phi i32 [ %23, %17 ], [ 24, %14 ]
  %20 = urem i32 %18, %2
  %21 = getelementptr inbounds i8, ptr %10, i32 %20
  %22 = load i8, ptr %21, align 1, !tbaa !12
  %23 = add nsw i32 %19, -1
  %24 = getelementptr inbounds i8, ptr %7, i32 %23
  store i8 %22, ptr %24, align 1, !tbaa !12
  %25 = udiv i32 %18, %2
  %26 = icmp ult i32 %18, %2
  br i1 %26, label %40, label %17, !llvm.loop !23

27:                                               ; preds = %27, %12
  %28 = phi i32 [ 24, %12 ], [ %37, %27 ]
  %29 = phi i64 [ %1, %12 ], [ %31, %27 ]
  %30 = freeze i64 %29
  %31 = udiv i64 %30, %13
  %32 = mul i64 %31, %13
  %33 = sub i64 %30, %32
  %34 = trunc nuw i64 %33 to i32
  %35 = getelementptr inbounds i8, ptr %10, i32 %34
  %36 = load i8, ptr %35, align 1, !tbaa !12
  %37 = add nsw i32 %28, -1
  %38 = getelementptr inbounds i8, ptr %7, i32 %37
  store i8 %36, ptr %38, align 1, !tbaa !12
  %39 = icmp ult i64 %29, %13
  br i1 %39, label %40, label %27, !llvm.loop !24

40:                                               ; preds = %27, %17, %14
  %41 = phi i32 [ 24, %14 ], [ %23, %17 ], [ %37, %27 ]
  %42 = icmp eq i64 %1, 0
  %43 = icmp ne i32 %5, 0
  %44 = and i1 %42, %43
  br i1 %44, label %45, label %48

45:                                               ; preds = %40
  %46 = add nsw i32 %41, -1
  %47 = getelementptr inbounds i8, ptr %7, i32 %46
  store i8 48, ptr %47, align 1, !tbaa !12
  br label %48

48:                                               ; preds = %45, %40
  %49 = phi i32 [ %46, %45 ], [ %41, %40 ]
  %50 = getelementptr inbounds i8, ptr %7, i32 %49
  %51 = and i32 %3, 8
  %52 = icmp ne i32 %51, 0
  %53 = icmp eq i32 %2, 8
  %54 = and i1 %53, %52
  %55 = sub nsw i32 24, %49
  %56 = icmp sge i32 %55, %5
  %57 = select i1 %54, i1 %56, i1 false
  br i1 %57, label %58, label %65

58:                                               ; preds = %48
  %59 = icmp eq i32 %49, 24
  br i1 %59, label %63, label %60

60:                                               ; preds = %58
  %61 = load i8, ptr %50, align 1, !tbaa !12
  %62 = icmp eq i8 %61, 48
  br i1 %62, label %65, label %63

63:                                               ; preds = %60, %58
  %64 = getelementptr inbounds i8, ptr %50, i32 -1
  store i8 48, ptr %64, align 1, !tbaa !12
  br label %65

65:                                               ; preds = %63, %60, %48
  %66 = phi ptr [ %64, %63 ], [ %50, %60 ], [ %50, %48 ]
  %67 = getelementptr inbounds i8, ptr %7, i32 24
  %68 = ptrtoint ptr %67 to i32
  %69 = icmp eq i32 %2, 16
  %70 = icmp ne i64 %1, 0
  %71 = and i1 %70, %69
  %72 = and i1 %71, %52
  %73 = select i1 %9, ptr @.str.6.25, ptr @.str.5.26
  %74 = select i1 %72, ptr %73, ptr @.str.13
  %75 = ptrtoint ptr %66 to i32
  %76 = sub i32 %68, %75
  %77 = call fastcc i32 @number.21(ptr noundef %0, ptr noundef nonnull %74, ptr noundef nonnull %66, i32 noundef %76, i32 noundef %3, i32 noundef %4, i32 noundef %5) #13
  call void @llvm.lifetime.end.p0(i64 24, ptr nonnull %7) #16
  ret i32 %77
}

; Function Attrs: nounwind optsize uwtable
define internal noundef i32 @__print_text(ptr nocapture noundef %0, ptr nocapture noundef readonly %1, i32 noundef returned %2) #1 {
  %4 = load i8, ptr %0, align 4, !tbaa !25, !alias.scope !29, !noalias !32
  %5 = icmp eq i8 %4, 0
  %6 = icmp eq i32 %2, 0
  %7 = or i1 %6, %5
  br i1 %7, label %16, label %8

8:                                                ; preds = %8, %3
  %9 = phi i32 [ %14, %8 ], [ 0, %3 ]
  %10 = getelementptr inbounds i8, ptr %1, i32 %9
  %11 = load i8, ptr %10, align 1, !tbaa !12, !alias.scope !32, !noalias !29
  %12 = zext i8 %11 to i32
  %13 = tail call i32 @fputc(i32 noundef %12, ptr noundef nonnull %0) #13, !noalias !32
  %14 = add nuw i32 %9, 1
  %15 = icmp eq i32 %14, %2
  br i1 %15, label %16, label %8, !llvm.loop !34

16:                                               ; preds = %8, %3
  ret i32 %2
}

; Function Attrs: nounwind optsize uwtable
define internal i32 @__print_signed(ptr nocapture noundef %0, i64 noundef %1, i32 noundef %2, i32 noundef %3, i32 noundef %4) #1 {
  %6 = alloca [24 x i8], align 1
  call void @llvm.lifetime.start.p0(i64 24, ptr nonnull %6) #16
  %7 = getelementptr inbounds i8, ptr %6, i32 24
  %8 = icmp slt i64 %1, 0
  %9 = lshr i64 %1, 63
  %10 = icmp ne i64 %9, 0
  %11 = sub i64 0, %1
  %12 = select i1 %10, i64 %11, i64 %1
  %13 = icmp ult i64 %12, 4294967296
  br i1 %13, label %14, label %26

14:                                               ; preds = %5
  %15 = trunc nuw i64 %12 to i32
  %16 = icmp eq i32 %15, 0
  br i1 %16, label %38, label %17

17:                                               ; preds = %17, %14
  %18 = phi i32 [ %24, %17 ], [ %15, %14 ]
  %19 = phi ptr [ %23, %17 ], [ %7, %14 ]
  %20 = urem i32 %18, 10
  %21 = getelementptr inbounds i8, ptr @.str.9.17, i32 %20
  %22 = load i8, ptr %21, align 1, !tbaa !12
  %23 = getelementptr inbounds i8, ptr %19, i32 -1
  store i8 %22, ptr %23, align 1, !tbaa !12
  %24 = udiv i32 %18, 10
  %25 = icmp ult i32 %18, 10
  br i1 %25, label %38, label %17, !llvm.loop !23

26:                                               ; preds = %26, %5
  %27 = phi ptr [ %36, %26 ], [ %7, %5 ]
  %28 = phi i64 [ %30, %26 ], [ %12, %5 ]
  %29 = freeze i64 %28
  %30 = udiv i64 %29, 10
  %31 = mul i64 %30, 10
  %32 = sub i64 %29, %31
  %33 = trunc nuw nsw i64 %32 to i32
  %34 = getelementptr inbounds i8, ptr @.str.9.17, i32 %33
  %35 = load i8, ptr %34, align 1, !tbaa !12
  %36 = getelementptr inbounds i8, ptr %27, i32 -1
  store i8 %35, ptr %36, align 1, !tbaa !12
  %37 = icmp ult i64 %28, 10
  br i1 %37, label %38, label %26, !llvm.loop !24

38:                                               ; preds = %26, %17, %14
  %39 = phi ptr [ %7, %14 ], [ %23, %17 ], [ %36, %26 ]
  %40 = icmp eq i64 %1, 0
  %41 = icmp ne i32 %4, 0
  %42 = and i1 %40, %41
  br i1 %42, label %43, label %45

43:                                               ; preds = %38
  %44 = getelementptr inbounds i8, ptr %39, i32 -1
  store i8 48, ptr %44, align 1, !tbaa !12
  br label %46

45:                                               ; preds = %38
  br i1 %8, label %54, label %46

46:                                               ; preds = %45, %43
  %47 = phi ptr [ %44, %43 ], [ %39, %45 ]
  %48 = and i32 %2, 2
  %49 = icmp eq i32 %48, 0
  br i1 %49, label %50, label %54

50:                                               ; preds = %46
  %51 = and i32 %2, 4
  %52 = icmp eq i32 %51, 0
  %53 = select i1 %52, ptr @.str.13, ptr @.str.4.18
  br label %54

54:                                               ; preds = %50, %46, %45
  %55 = phi ptr [ %39, %45 ], [ %47, %50 ], [ %47, %46 ]
  %56 = phi ptr [ @.str.2.19, %45 ], [ %53, %50 ], [ @.str.3.20, %46 ]
  %57 = ptrtoint ptr %7 to i32
  %58 = ptrtoint ptr %55 to i32
  %59 = sub i32 %57, %58
  %60 = call fastcc i32 @number.21(ptr noundef %0, ptr noundef nonnull %56, ptr noundef nonnull %55, i32 noundef %59, i32 noundef %2, i32 noundef %3, i32 noundef %4) #13
  call void @llvm.lifetime.end.p0(i64 24, ptr nonnull %6) #16
  ret i32 %60
}

; Function Attrs: noinline nounwind optsize uwtable
define internal ptr @__sized_malloc(i32 noundef %0) local_unnamed_addr #4 {
  %2 = icmp ult i32 %0, -16
  br i1 %2, label %3, label %9

3:                                                ; preds = %1
  %4 = add nuw i32 %0, 16
  %5 = tail call ptr @malloc(i32 noundef %4) #15
  %6 = icmp eq ptr %5, null
  br i1 %6, label %9, label %7

7:                                                ; preds = %3
  %8 = getelementptr inbounds i8, ptr %5, i32 16
  store i32 %0, ptr %5, align 4, !tbaa !35
  br label %9

9:                                                ; preds = %7, %3, %1
  %10 = phi ptr [ %8, %7 ], [ null, %3 ], [ null, %1 ]
  ret ptr %10
}

; Function Attrs: noinline nounwind optnone uwtable
define internal i32 @decode(ptr noundef %0, i32 noundef %1, ptr noundef %2, ptr noundef %3) #0 {
  %5 = alloca ptr, align 4
  %6 = alloca i32, align 4
  %7 = alloca ptr, align 4
  %8 = alloca ptr, align 4
  %9 = alloca i32, align 4
  %10 = alloca i32, align 4
  store ptr %0, ptr %5, align 4
  store i32 %1, ptr %6, align 4
  store ptr %2, ptr %7, align 4
  store ptr %3, ptr %8, align 4
  store i32 0, ptr %9, align 4
  br label %11

11:                                               ; preds = %28, %4
  %12 = load i32, ptr %9, align 4
  %13 = load i32, ptr %6, align 4
  %14 = icmp ult i32 %12, %13
  br i1 %14, label %15, label %20

15:                                               ; preds = %11
  %16 = load ptr, ptr %7, align 4
  %17 = load ptr, ptr %8, align 4
  %18 = call i32 @symbol(ptr noundef %16, ptr noundef %17)
  store i32 %18, ptr %10, align 4
  %19 = icmp sge i32 %18, 0
  br label %20

20:                                               ; preds = %15, %11
  %21 = phi i1 [ false, %11 ], [ %19, %15 ]
  br i1 %21, label %22, label %31

22:                                               ; preds = %20
  %23 = load i32, ptr %10, align 4
  %24 = trunc i32 %23 to i8
  %25 = load ptr, ptr %5, align 4
  %26 = load i32, ptr %9, align 4
  %27 = getelementptr inbounds i8, ptr %25, i32 %26
  store i8 %24, ptr %27, align 1
  br label %28

28:                                               ; preds = %22
  %29 = load i32, ptr %9, align 4
  %30 = add i32 %29, 1
  store i32 %30, ptr %9, align 4
  br label %11, !llvm.loop !36

31:                                               ; preds = %20
  %32 = load i32, ptr %9, align 4
  ret i32 %32
}

; Function Attrs: nofree norecurse nosync nounwind optsize memory(read, inaccessiblemem: none) uwtable
define internal range(i32 -1, 2) i32 @memcmp(ptr nocapture noundef readonly %0, ptr nocapture noundef readonly %1, i32 noundef %2) #5 {
  %4 = icmp eq i32 %2, 0
  br i1 %4, label %20, label %5

5:                                                ; preds = %15, %3
  %6 = phi ptr [ %18, %15 ], [ %1, %3 ]
  %7 = phi ptr [ %17, %15 ], [ %0, %3 ]
  %8 = phi i32 [ %16, %15 ], [ %2, %3 ]
  %9 = load i8, ptr %7, align 1, !tbaa !12
  %10 = load i8, ptr %6, align 1, !tbaa !12
  %11 = icmp eq i8 %9, %10
  br i1 %11, label %15, label %12

12:                                               ; preds = %5
  %13 = icmp ult i8 %9, %10
  %14 = select i1 %13, i32 -1, i32 1
  br label %20

15:                                               ; preds = %5
  %16 = add i32 %8, -1
  %17 = getelementptr inbounds i8, ptr %7, i32 1
  %18 = getelementptr inbounds i8, ptr %6, i32 1
  %19 = icmp eq i32 %16, 0
  br i1 %19, label %20, label %5, !llvm.loop !37

20:                                               ; preds = %15, %12, %3
  %21 = phi i32 [ %14, %12 ], [ 0, %3 ], [ 0, %15 ]
  ret i32 %21
}

; Function Attrs: noinline nounwind optnone uwtable
define internal i32 @bits_take(ptr noundef %0) #0 {
  %2 = alloca i32, align 4
  %3 = alloca ptr, align 4
  %4 = alloca i32, align 4
  store ptr %0, ptr %3, align 4
  %5 = load ptr, ptr %3, align 4
  %6 = getelementptr inbounds %struct.bits, ptr %5, i32 0, i32 3
  %7 = load i32, ptr %6, align 4
  %8 = load ptr, ptr %3, align 4
  %9 = getelementptr inbounds %struct.bits, ptr %8, i32 0, i32 1
  %10 = load i32, ptr %9, align 4
  %11 = icmp eq i32 %7, %10
  br i1 %11, label %12, label %13

12:                                               ; preds = %1
  store i32 -1, ptr %2, align 4
  br label %36

13:                                               ; preds = %1
  %14 = load ptr, ptr %3, align 4
  %15 = getelementptr inbounds %struct.bits, ptr %14, i32 0, i32 0
  %16 = load ptr, ptr %15, align 4
  %17 = load ptr, ptr %3, align 4
  %18 = getelementptr inbounds %struct.bits, ptr %17, i32 0, i32 3
  %19 = load i32, ptr %18, align 4
  %20 = udiv i32 %19, 8
  %21 = getelementptr inbounds i8, ptr %16, i32 %20
  %22 = load i8, ptr %21, align 1
  %23 = zext i8 %22 to i32
  %24 = load ptr, ptr %3, align 4
  %25 = getelementptr inbounds %struct.bits, ptr %24, i32 0, i32 3
  %26 = load i32, ptr %25, align 4
  %27 = urem i32 %26, 8
  %28 = sub i32 7, %27
  %29 = ashr i32 %23, %28
  %30 = and i32 %29, 1
  store i32 %30, ptr %4, align 4
  %31 = load ptr, ptr %3, align 4
  %32 = getelementptr inbounds %struct.bits, ptr %31, i32 0, i32 3
  %33 = load i32, ptr %32, align 4
  %34 = add i32 %33, 1
  store i32 %34, ptr %32, align 4
  %35 = load i32, ptr %4, align 4
  store i32 %35, ptr %2, align 4
  br label %36

36:                                               ; preds = %13, %12
  %37 = load i32, ptr %2, align 4
  ret i32 %37
}

; Function Attrs: noinline nounwind optsize uwtable
define internal void @__sized_free(ptr noundef %0) local_unnamed_addr #4 {
  %2 = icmp eq ptr %0, null
  br i1 %2, label %5, label %3

3:                                                ; preds = %1
  %4 = getelementptr inbounds i8, ptr %0, i32 -16
  tail call void @free(ptr noundef nonnull %4) #15
  br label %5

5:                                                ; preds = %3, %1
  ret void
}

declare dso_local void @free(ptr noundef) #3

; Function Attrs: noinline nounwind optnone uwtable
define internal i32 @symbol(ptr noundef %0, ptr noundef %1) #0 {
  %3 = alloca i32, align 4
  %4 = alloca ptr, align 4
  %5 = alloca ptr, align 4
  %6 = alloca i32, align 4
  %7 = alloca i32, align 4
  %8 = alloca i32, align 4
  %9 = alloca i32, align 4
  store ptr %0, ptr %4, align 4
  store ptr %1, ptr %5, align 4
  store i32 0, ptr %6, align 4
  store i32 1, ptr %7, align 4
  br label %10

10:                                               ; preds = %51, %2
  %11 = load i32, ptr %7, align 4
  %12 = icmp ule i32 %11, 32
  br i1 %12, label %13, label %54

13:                                               ; preds = %10
  %14 = load ptr, ptr %5, align 4
  %15 = call i32 @bits_take(ptr noundef %14)
  store i32 %15, ptr %8, align 4
  %16 = load i32, ptr %8, align 4
  %17 = icmp slt i32 %16, 0
  br i1 %17, label %18, label %19

18:                                               ; preds = %13
  store i32 -1, ptr %3, align 4
  br label %55

19:                                               ; preds = %13
  %20 = load i32, ptr %6, align 4
  %21 = shl i32 %20, 1
  %22 = load i32, ptr %8, align 4
  %23 = or i32 %21, %22
  store i32 %23, ptr %6, align 4
  store i32 0, ptr %9, align 4
  br label %24

24:                                               ; preds = %47, %19
  %25 = load i32, ptr %9, align 4
  %26 = icmp slt i32 %25, 256
  br i1 %26, label %27, label %50

27:                                               ; preds = %24
  %28 = load ptr, ptr %4, align 4
  %29 = getelementptr inbounds %struct.code, ptr %28, i32 0, i32 0
  %30 = load i32, ptr %9, align 4
  %31 = getelementptr inbounds [256 x i8], ptr %29, i32 0, i32 %30
  %32 = load i8, ptr %31, align 1
  %33 = zext i8 %32 to i32
  %34 = load i32, ptr %7, align 4
  %35 = icmp eq i32 %33, %34
  br i1 %35, label %36, label %46

36:                                               ; preds = %27
  %37 = load ptr, ptr %4, align 4
  %38 = getelementptr inbounds %struct.code, ptr %37, i32 0, i32 1
  %39 = load i32, ptr %9, align 4
  %40 = getelementptr inbounds [256 x i32], ptr %38, i32 0, i32 %39
  %41 = load i32, ptr %40, align 4
  %42 = load i32, ptr %6, align 4
  %43 = icmp eq i32 %41, %42
  br i1 %43, label %44, label %46

44:                                               ; preds = %36
  %45 = load i32, ptr %9, align 4
  store i32 %45, ptr %3, align 4
  br label %55

46:                                               ; preds = %36, %27
  br label %47

47:                                               ; preds = %46
  %48 = load i32, ptr %9, align 4
  %49 = add nsw i32 %48, 1
  store i32 %49, ptr %9, align 4
  br label %24, !llvm.loop !38

50:                                               ; preds = %24
  br label %51

51:                                               ; preds = %50
  %52 = load i32, ptr %7, align 4
  %53 = add i32 %52, 1
  store i32 %53, ptr %7, align 4
  br label %10, !llvm.loop !39

54:                                               ; preds = %10
  store i32 -1, ptr %3, align 4
  br label %55

55:                                               ; preds = %54, %44, %18
  %56 = load i32, ptr %3, align 4
  ret i32 %56
}

; Function Attrs: allocsize(0)
declare dso_local ptr @malloc(i32 noundef) #6

; Function Attrs: nocallback nofree nosync nounwind willreturn memory(argmem: readwrite)
declare void @llvm.lifetime.start.p0(i64 immarg, ptr nocapture) #7

; Function Attrs: nounwind optsize uwtable
define internal fastcc i32 @number.21(ptr nocapture noundef %0, ptr noundef %1, ptr nocapture noundef readonly %2, i32 noundef %3, i32 noundef %4, i32 noundef %5, i32 noundef %6) unnamed_addr #1 {
  br label %8

8:                                                ; preds = %8, %7
  %9 = phi ptr [ %1, %7 ], [ %12, %8 ]
  %10 = load i8, ptr %9, align 1, !tbaa !12
  %11 = icmp eq i8 %10, 0
  %12 = getelementptr inbounds i8, ptr %9, i32 1
  br i1 %11, label %13, label %8, !llvm.loop !40

13:                                               ; preds = %8
  %14 = ptrtoint ptr %9 to i32
  %15 = ptrtoint ptr %1 to i32
  %16 = sub i32 %14, %15
  %17 = sub nsw i32 %6, %3
  %18 = lshr i32 %5, 31
  %19 = icmp ne i32 %18, 0
  %20 = sub i32 0, %5
  %21 = select i1 %19, i32 %20, i32 %5
  %22 = lshr i32 %5, 31
  %23 = tail call i32 @llvm.smax.i32(i32 %17, i32 0)
  %24 = icmp slt i32 %6, 0
  %25 = and i32 %4, 16
  %26 = icmp ne i32 %25, 0
  %27 = and i1 %26, %24
  %28 = and i32 %4, 1
  %29 = or i32 %22, %28
  %30 = icmp eq i32 %29, 0
  %31 = and i1 %27, %30
  %32 = add i32 %16, %3
  %33 = icmp sgt i32 %21, %32
  %34 = select i1 %31, i1 %33, i1 false
  %35 = sub i32 %21, %32
  %36 = select i1 %34, i32 %35, i32 %23
  %37 = add i32 %32, %36
  %38 = sub i32 %21, %37
  br i1 %30, label %39, label %48

39:                                               ; preds = %13
  %40 = icmp sgt i32 %38, 0
  br i1 %40, label %41, label %46

41:                                               ; preds = %41, %39
  %42 = phi i32 [ %44, %41 ], [ 0, %39 ]
  %43 = tail call i32 @fputc(i32 noundef 32, ptr noundef %0) #13
  %44 = add nuw nsw i32 %42, 1
  %45 = icmp eq i32 %44, %38
  br i1 %45, label %46, label %41, !llvm.loop !41

46:                                               ; preds = %41, %39
  %47 = tail call noundef i32 @llvm.smax.i32(i32 %38, i32 0)
  br label %48

48:                                               ; preds = %46, %13
  %49 = phi i32 [ 0, %13 ], [ %47, %46 ]
  %50 = load i8, ptr %0, align 4, !tbaa !25, !alias.scope !42, !noalias !45
  %51 = icmp eq i8 %50, 0
  %52 = icmp eq ptr %9, %1
  %53 = or i1 %52, %51
  br i1 %53, label %62, label %54

54:                                               ; preds = %54, %48
  %55 = phi i32 [ %60, %54 ], [ 0, %48 ]
  %56 = getelementptr inbounds i8, ptr %1, i32 %55
  %57 = load i8, ptr %56, align 1, !tbaa !12, !alias.scope !45, !noalias !42
  %58 = zext i8 %57 to i32
  %59 = tail call i32 @fputc(i32 noundef %58, ptr noundef nonnull %0) #13, !noalias !45
  %60 = add nuw i32 %55, 1
  %61 = icmp eq i32 %60, %16
  br i1 %61, label %62, label %54, !llvm.loop !34

62:                                               ; preds = %54, %48
  %63 = icmp sgt i32 %36, 0
  br i1 %63, label %64, label %69

64:                                               ; preds = %64, %62
  %65 = phi i32 [ %67, %64 ], [ 0, %62 ]
  %66 = tail call i32 @fputc(i32 noundef 48, ptr noundef nonnull %0) #13
  %67 = add nuw nsw i32 %65, 1
  %68 = icmp eq i32 %67, %36
  br i1 %68, label %69, label %64, !llvm.loop !41

69:                                               ; preds = %64, %62
  %70 = tail call noundef i32 @llvm.smax.i32(i32 %36, i32 0)
  %71 = load i8, ptr %0, align 4, !tbaa !25, !alias.scope !47, !noalias !50
  %72 = icmp eq i8 %71, 0
  %73 = icmp eq i32 %3, 0
  %74 = or i1 %73, %72
  br i1 %74, label %83, label %75

75:                                               ; preds = %75, %69
  %76 = phi i32 [ %81, %75 ], [ 0, %69 ]
  %77 = getelementptr inbounds i8, ptr %2, i32 %76
  %78 = load i8, ptr %77, align 1, !tbaa !12, !alias.scope !50, !noalias !47
  %79 = zext i8 %78 to i32
  %80 = tail call i32 @fputc(i32 noundef %79, ptr noundef nonnull %0) #13, !noalias !50
  %81 = add nuw i32 %76, 1
  %82 = icmp eq i32 %81, %3
  br i1 %82, label %83, label %75, !llvm.loop !34

83:                                               ; preds = %75, %69
  %84 = add i32 %32, %70
  %85 = add i32 %84, %49
  br i1 %30, label %96, label %86

86:                                               ; preds = %83
  %87 = icmp sgt i32 %38, 0
  br i1 %87, label %88, label %93

88:                                               ; preds = %88, %86
  %89 = phi i32 [ %91, %88 ], [ 0, %86 ]
  %90 = tail call i32 @fputc(i32 noundef 32, ptr noundef nonnull %0) #13
  %91 = add nuw nsw i32 %89, 1
  %92 = icmp eq i32 %91, %38
  br i1 %92, label %93, label %88, !llvm.loop !41

93:                                               ; preds = %88, %86
  %94 = tail call noundef i32 @llvm.smax.i32(i32 %38, i32 0)
  %95 = add nsw i32 %85, %94
  br label %96

96:                                               ; preds = %93, %83
  %97 = phi i32 [ %95, %93 ], [ %85, %83 ]
  ret i32 %97
}

; Function Attrs: nocallback nofree nosync nounwind willreturn memory(argmem: readwrite)
declare void @llvm.lifetime.end.p0(i64 immarg, ptr nocapture) #7

; Function Attrs: nocallback nofree nosync nounwind speculatable willreturn memory(none)
declare i32 @llvm.smax.i32(i32, i32) #8

; Function Attrs: nounwind optsize uwtable
define internal range(i32 -1, 256) i32 @fputc(i32 noundef %0, ptr nocapture noundef %1) local_unnamed_addr #1 {
  %3 = load i8, ptr %1, align 4, !tbaa !25
  switch i8 %3, label %17 [
    i8 1, label %4
    i8 3, label %6
    i8 0, label %19
  ]

4:                                                ; preds = %2
  %5 = tail call i32 @putchar(i32 noundef %0) #15
  br label %17

6:                                                ; preds = %2
  %7 = getelementptr inbounds i8, ptr %1, i32 8
  %8 = load i32, ptr %7, align 4, !tbaa !52
  %9 = icmp eq i32 %8, 0
  br i1 %9, label %17, label %10

10:                                               ; preds = %6
  %11 = trunc i32 %0 to i8
  %12 = getelementptr inbounds i8, ptr %1, i32 4
  %13 = load ptr, ptr %12, align 4, !tbaa !53
  %14 = getelementptr inbounds i8, ptr %13, i32 1
  store ptr %14, ptr %12, align 4, !tbaa !53
  store i8 %11, ptr %13, align 1, !tbaa !12
  %15 = load i32, ptr %7, align 4, !tbaa !52
  %16 = add i32 %15, -1
  store i32 %16, ptr %7, align 4, !tbaa !52
  br label %17

17:                                               ; preds = %10, %6, %4, %2
  %18 = and i32 %0, 255
  br label %19

19:                                               ; preds = %17, %2
  %20 = phi i32 [ %18, %17 ], [ -1, %2 ]
  ret i32 %20
}

; Function Attrs: optsize
declare dso_local i32 @putchar(i32 noundef) local_unnamed_addr #9

; Function Attrs: noinline nounwind optnone uwtable
define internal void @bits_put(ptr noundef %0, i32 noundef %1, i32 noundef %2) #0 {
  %4 = alloca ptr, align 4
  %5 = alloca i32, align 4
  %6 = alloca i32, align 4
  store ptr %0, ptr %4, align 4
  store i32 %1, ptr %5, align 4
  store i32 %2, ptr %6, align 4
  br label %7

7:                                                ; preds = %11, %3
  %8 = load i32, ptr %6, align 4
  %9 = add i32 %8, -1
  store i32 %9, ptr %6, align 4
  %10 = icmp ugt i32 %8, 0
  br i1 %10, label %11, label %17

11:                                               ; preds = %7
  %12 = load ptr, ptr %4, align 4
  %13 = load i32, ptr %5, align 4
  %14 = load i32, ptr %6, align 4
  %15 = lshr i32 %13, %14
  %16 = and i32 %15, 1
  call void @put(ptr noundef %12, i32 noundef %16)
  br label %7, !llvm.loop !54

17:                                               ; preds = %7
  ret void
}

; Function Attrs: noinline nounwind optnone uwtable
define internal void @put(ptr noundef %0, i32 noundef %1) #0 {
  %3 = alloca ptr, align 4
  %4 = alloca i32, align 4
  %5 = alloca i32, align 4
  %6 = alloca ptr, align 4
  %7 = alloca i32, align 4
  store ptr %0, ptr %3, align 4
  store i32 %1, ptr %4, align 4
  %8 = load ptr, ptr %3, align 4
  %9 = getelementptr inbounds %struct.bits, ptr %8, i32 0, i32 1
  %10 = load i32, ptr %9, align 4
  %11 = load ptr, ptr %3, align 4
  %12 = getelementptr inbounds %struct.bits, ptr %11, i32 0, i32 2
  %13 = load i32, ptr %12, align 4
  %14 = mul i32 8, %13
  %15 = icmp eq i32 %10, %14
  br i1 %15, label %16, label %59

16:                                               ; preds = %2
  %17 = load ptr, ptr %3, align 4
  %18 = getelementptr inbounds %struct.bits, ptr %17, i32 0, i32 2
  %19 = load i32, ptr %18, align 4
  %20 = icmp ne i32 %19, 0
  br i1 %20, label %21, label %26

21:                                               ; preds = %16
  %22 = load ptr, ptr %3, align 4
  %23 = getelementptr inbounds %struct.bits, ptr %22, i32 0, i32 2
  %24 = load i32, ptr %23, align 4
  %25 = mul i32 2, %24
  br label %27

26:                                               ; preds = %16
  br label %27

27:                                               ; preds = %26, %21
  %28 = phi i32 [ %25, %21 ], [ 32, %26 ]
  store i32 %28, ptr %5, align 4
  %29 = load ptr, ptr %3, align 4
  %30 = getelementptr inbounds %struct.bits, ptr %29, i32 0, i32 0
  %31 = load ptr, ptr %30, align 4
  %32 = load i32, ptr %5, align 4
  %33 = call ptr @realloc(ptr noundef %31, i32 noundef %32) #17
  store ptr %33, ptr %6, align 4
  %34 = load ptr, ptr %6, align 4
  %35 = icmp ne ptr %34, null
  br i1 %35, label %37, label %36

36:                                               ; preds = %27
  call void @abort() #18
  unreachable

37:                                               ; preds = %27
  %38 = load ptr, ptr %3, align 4
  %39 = getelementptr inbounds %struct.bits, ptr %38, i32 0, i32 2
  %40 = load i32, ptr %39, align 4
  store i32 %40, ptr %7, align 4
  br label %41

41:                                               ; preds = %49, %37
  %42 = load i32, ptr %7, align 4
  %43 = load i32, ptr %5, align 4
  %44 = icmp ult i32 %42, %43
  br i1 %44, label %45, label %52

45:                                               ; preds = %41
  %46 = load ptr, ptr %6, align 4
  %47 = load i32, ptr %7, align 4
  %48 = getelementptr inbounds i8, ptr %46, i32 %47
  store i8 0, ptr %48, align 1
  br label %49

49:                                               ; preds = %45
  %50 = load i32, ptr %7, align 4
  %51 = add i32 %50, 1
  store i32 %51, ptr %7, align 4
  br label %41, !llvm.loop !55

52:                                               ; preds = %41
  %53 = load ptr, ptr %6, align 4
  %54 = load ptr, ptr %3, align 4
  %55 = getelementptr inbounds %struct.bits, ptr %54, i32 0, i32 0
  store ptr %53, ptr %55, align 4
  %56 = load i32, ptr %5, align 4
  %57 = load ptr, ptr %3, align 4
  %58 = getelementptr inbounds %struct.bits, ptr %57, i32 0, i32 2
  store i32 %56, ptr %58, align 4
  br label %59

59:                                               ; preds = %52, %2
  %60 = load i32, ptr %4, align 4
  %61 = load ptr, ptr %3, align 4
  %62 = getelementptr inbounds %struct.bits, ptr %61, i32 0, i32 1
  %63 = load i32, ptr %62, align 4
  %64 = urem i32 %63, 8
  %65 = sub i32 7, %64
  %66 = shl i32 %60, %65
  %67 = load ptr, ptr %3, align 4
  %68 = getelementptr inbounds %struct.bits, ptr %67, i32 0, i32 0
  %69 = load ptr, ptr %68, align 4
  %70 = load ptr, ptr %3, align 4
  %71 = getelementptr inbounds %struct.bits, ptr %70, i32 0, i32 1
  %72 = load i32, ptr %71, align 4
  %73 = udiv i32 %72, 8
  %74 = getelementptr inbounds i8, ptr %69, i32 %73
  %75 = load i8, ptr %74, align 1
  %76 = zext i8 %75 to i32
  %77 = or i32 %76, %66
  %78 = trunc i32 %77 to i8
  store i8 %78, ptr %74, align 1
  %79 = load ptr, ptr %3, align 4
  %80 = getelementptr inbounds %struct.bits, ptr %79, i32 0, i32 1
  %81 = load i32, ptr %80, align 4
  %82 = add i32 %81, 1
  store i32 %82, ptr %80, align 4
  ret void
}

; Function Attrs: nounwind optsize uwtable
define internal ptr @realloc(ptr noundef %0, i32 noundef %1) #1 {
  %3 = icmp eq ptr %0, null
  br i1 %3, label %4, label %6

4:                                                ; preds = %2
  %5 = tail call ptr @__sized_malloc(i32 noundef %1) #13
  br label %28

6:                                                ; preds = %2
  %7 = icmp eq i32 %1, 0
  br i1 %7, label %8, label %9

8:                                                ; preds = %6
  tail call void @__sized_free(ptr noundef nonnull %0) #13
  br label %28

9:                                                ; preds = %6
  %10 = tail call ptr @__sized_malloc(i32 noundef %1) #13
  %11 = icmp eq ptr %10, null
  br i1 %11, label %28, label %12

12:                                               ; preds = %9
  %13 = getelementptr inbounds i8, ptr %0, i32 -16
  %14 = load i32, ptr %13, align 4, !tbaa !35
  %15 = icmp eq i32 %14, 0
  br i1 %15, label %27, label %16

16:                                               ; preds = %12
  %17 = tail call i32 @llvm.umin.i32(i32 %14, i32 %1)
  br label %18

18:                                               ; preds = %18, %16
  %19 = phi ptr [ %23, %18 ], [ %0, %16 ]
  %20 = phi ptr [ %25, %18 ], [ %10, %16 ]
  %21 = phi i32 [ %22, %18 ], [ %17, %16 ]
  %22 = add i32 %21, -1
  %23 = getelementptr inbounds i8, ptr %19, i32 1
  %24 = load i8, ptr %19, align 1, !tbaa !12, !alias.scope !56, !noalias !59
  %25 = getelementptr inbounds i8, ptr %20, i32 1
  store i8 %24, ptr %20, align 1, !tbaa !12, !alias.scope !59, !noalias !56
  %26 = icmp eq i32 %22, 0
  br i1 %26, label %27, label %18, !llvm.loop !61

27:                                               ; preds = %18, %12
  tail call void @__sized_free(ptr noundef nonnull %0) #13
  br label %28

28:                                               ; preds = %27, %9, %8, %4
  %29 = phi ptr [ null, %8 ], [ %5, %4 ], [ %10, %27 ], [ null, %9 ]
  ret ptr %29
}

; Function Attrs: noreturn nounwind
declare dso_local void @abort() #10

; Function Attrs: nocallback nofree nosync nounwind speculatable willreturn memory(none)
declare i32 @llvm.umin.i32(i32, i32) #8

; Function Attrs: noinline nounwind optnone uwtable
define internal void @show_symbol(i32 noundef %0) #0 {
  %2 = alloca i32, align 4
  store i32 %0, ptr %2, align 4
  %3 = load i32, ptr %2, align 4
  %4 = call i32 @isprint(i32 noundef %3) #19
  %5 = icmp ne i32 %4, 0
  br i1 %5, label %6, label %15

6:                                                ; preds = %1
  %7 = load i32, ptr %2, align 4
  %8 = icmp ne i32 %7, 32
  br i1 %8, label %9, label %15

9:                                                ; preds = %6
  %10 = load i32, ptr %2, align 4
  %11 = call i32 @__print_character(ptr getelementptr inbounds ([3 x { i8, i8, i8, i8, ptr, i32 }], ptr @__streams, i32 0, i32 1), i32 %10, i32 0, i32 0)
  %12 = call i32 @__print_text(ptr getelementptr inbounds ([3 x { i8, i8, i8, i8, ptr, i32 }], ptr @__streams, i32 0, i32 1), ptr getelementptr inbounds (i8, ptr @.str.8, i32 2), i32 3)
  %13 = add i32 %11, %12
  %14 = add i32 %13, 0
  br label %31

15:                                               ; preds = %6, %1
  %16 = load i32, ptr %2, align 4
  %17 = icmp eq i32 %16, 10
  br i1 %17, label %18, label %21

18:                                               ; preds = %15
  %19 = call i32 @__print_text(ptr getelementptr inbounds ([3 x { i8, i8, i8, i8, ptr, i32 }], ptr @__streams, i32 0, i32 1), ptr @.str.9, i32 4)
  %20 = add i32 %19, 0
  br label %30

21:                                               ; preds = %15
  %22 = load i32, ptr %2, align 4
  %23 = call i32 @__print_text(ptr getelementptr inbounds ([3 x { i8, i8, i8, i8, ptr, i32 }], ptr @__streams, i32 0, i32 1), ptr @.str.10, i32 1)
  %24 = zext i32 %22 to i64
  %25 = call i32 @__print_unsigned(ptr getelementptr inbounds ([3 x { i8, i8, i8, i8, ptr, i32 }], ptr @__streams, i32 0, i32 1), i64 %24, i32 16, i32 48, i32 2, i32 -1)
  %26 = call i32 @__print_text(ptr getelementptr inbounds ([3 x { i8, i8, i8, i8, ptr, i32 }], ptr @__streams, i32 0, i32 1), ptr getelementptr inbounds (i8, ptr @.str.10, i32 5), i32 1)
  %27 = add i32 %23, %25
  %28 = add i32 %27, %26
  %29 = add i32 %28, 0
  br label %30

30:                                               ; preds = %21, %18
  br label %31

31:                                               ; preds = %30, %9
  ret void
}

; Function Attrs: nounwind optsize uwtable
define internal i32 @__print_string(ptr nocapture noundef %0, ptr noundef %1, i32 noundef %2, i32 noundef %3, i32 noundef %4) #1 {
  %6 = icmp eq ptr %1, null
  %7 = icmp ult i32 %4, 6
  %8 = select i1 %7, ptr @.str.13, ptr @.str.1.14
  %9 = select i1 %6, ptr %8, ptr %1
  %10 = icmp slt i32 %4, 0
  br i1 %10, label %11, label %20

11:                                               ; preds = %11, %5
  %12 = phi ptr [ %15, %11 ], [ %9, %5 ]
  %13 = load i8, ptr %12, align 1, !tbaa !12
  %14 = icmp eq i8 %13, 0
  %15 = getelementptr inbounds i8, ptr %12, i32 1
  br i1 %14, label %16, label %11, !llvm.loop !40

16:                                               ; preds = %11
  %17 = ptrtoint ptr %12 to i32
  %18 = ptrtoint ptr %9 to i32
  %19 = sub i32 %17, %18
  br label %30

20:                                               ; preds = %5
  %21 = icmp eq i32 %4, 0
  br i1 %21, label %30, label %22

22:                                               ; preds = %27, %20
  %23 = phi i32 [ %28, %27 ], [ 0, %20 ]
  %24 = getelementptr inbounds i8, ptr %9, i32 %23
  %25 = load i8, ptr %24, align 1, !tbaa !12
  %26 = icmp eq i8 %25, 0
  br i1 %26, label %30, label %27

27:                                               ; preds = %22
  %28 = add nuw nsw i32 %23, 1
  %29 = icmp eq i32 %28, %4
  br i1 %29, label %30, label %22, !llvm.loop !62

30:                                               ; preds = %27, %22, %20, %16
  %31 = phi i32 [ %19, %16 ], [ 0, %20 ], [ %23, %22 ], [ %4, %27 ]
  %32 = tail call fastcc i32 @padded(ptr noundef %0, ptr noundef nonnull %9, i32 noundef %31, i32 noundef %2, i32 noundef %3) #13
  ret i32 %32
}

; Function Attrs: nounwind optsize uwtable
define internal fastcc i32 @padded(ptr nocapture noundef %0, ptr nocapture noundef readonly %1, i32 noundef %2, i32 noundef %3, i32 noundef %4) unnamed_addr #1 {
  %6 = icmp slt i32 %4, 0
  %7 = lshr i32 %4, 31
  %8 = icmp ne i32 %7, 0
  %9 = sub i32 0, %4
  %10 = select i1 %8, i32 %9, i32 %4
  %11 = sub nsw i32 %10, %2
  %12 = and i32 %3, 1
  %13 = icmp ne i32 %12, 0
  %14 = or i1 %6, %13
  br i1 %14, label %24, label %15

15:                                               ; preds = %5
  %16 = icmp sgt i32 %11, 0
  br i1 %16, label %17, label %22

17:                                               ; preds = %17, %15
  %18 = phi i32 [ %20, %17 ], [ 0, %15 ]
  %19 = tail call i32 @fputc(i32 noundef 32, ptr noundef %0) #13
  %20 = add nuw nsw i32 %18, 1
  %21 = icmp eq i32 %20, %11
  br i1 %21, label %22, label %17, !llvm.loop !41

22:                                               ; preds = %17, %15
  %23 = tail call noundef i32 @llvm.smax.i32(i32 %11, i32 0)
  br label %24

24:                                               ; preds = %22, %5
  %25 = phi i32 [ %23, %22 ], [ 0, %5 ]
  %26 = load i8, ptr %0, align 4, !tbaa !25, !alias.scope !63, !noalias !66
  %27 = icmp eq i8 %26, 0
  %28 = icmp eq i32 %2, 0
  %29 = or i1 %28, %27
  br i1 %29, label %38, label %30

30:                                               ; preds = %30, %24
  %31 = phi i32 [ %36, %30 ], [ 0, %24 ]
  %32 = getelementptr inbounds i8, ptr %1, i32 %31
  %33 = load i8, ptr %32, align 1, !tbaa !12, !alias.scope !66, !noalias !63
  %34 = zext i8 %33 to i32
  %35 = tail call i32 @fputc(i32 noundef %34, ptr noundef nonnull %0) #13, !noalias !66
  %36 = add nuw i32 %31, 1
  %37 = icmp eq i32 %36, %2
  br i1 %37, label %38, label %30, !llvm.loop !34

38:                                               ; preds = %30, %24
  br i1 %14, label %39, label %48

39:                                               ; preds = %38
  %40 = icmp sgt i32 %11, 0
  br i1 %40, label %41, label %46

41:                                               ; preds = %41, %39
  %42 = phi i32 [ %44, %41 ], [ 0, %39 ]
  %43 = tail call i32 @fputc(i32 noundef 32, ptr noundef nonnull %0) #13
  %44 = add nuw nsw i32 %42, 1
  %45 = icmp eq i32 %44, %11
  br i1 %45, label %46, label %41, !llvm.loop !41

46:                                               ; preds = %41, %39
  %47 = tail call noundef i32 @llvm.smax.i32(i32 %11, i32 0)
  br label %48

48:                                               ; preds = %46, %38
  %49 = phi i32 [ %47, %46 ], [ 0, %38 ]
  %50 = add nsw i32 %25, %2
  %51 = add nsw i32 %50, %49
  ret i32 %51
}

; Function Attrs: mustprogress nofree norecurse nosync nounwind optsize willreturn memory(none) uwtable
define internal range(i32 0, 2) i32 @isprint(i32 noundef %0) #11 {
  %2 = add i32 %0, -32
  %3 = icmp ult i32 %2, 95
  %4 = zext i1 %3 to i32
  ret i32 %4
}

; Function Attrs: nounwind optsize uwtable
define internal i32 @__print_character(ptr nocapture noundef %0, i32 noundef %1, i32 noundef %2, i32 noundef %3) #1 {
  %5 = alloca i8, align 1
  call void @llvm.lifetime.start.p0(i64 1, ptr nonnull %5) #16
  %6 = trunc i32 %1 to i8
  store i8 %6, ptr %5, align 1, !tbaa !12
  %7 = call fastcc i32 @padded(ptr noundef %0, ptr noundef nonnull %5, i32 noundef 1, i32 noundef %2, i32 noundef %3) #13
  call void @llvm.lifetime.end.p0(i64 1, ptr nonnull %5) #16
  ret i32 %7
}

; Function Attrs: nounwind optsize uwtable
define internal fastcc void @sink(ptr noundef %0, i32 noundef %1, i32 noundef %2, i32 noundef %3, ptr nocapture noundef readonly %4) unnamed_addr #1 {
  %6 = shl i32 %1, 1
  %7 = or disjoint i32 %6, 1
  %8 = icmp ult i32 %7, %2
  br i1 %8, label %9, label %48

9:                                                ; preds = %5
  %10 = icmp eq i32 %3, 0
  br label %11

11:                                               ; preds = %44, %9
  %12 = phi i32 [ %7, %9 ], [ %46, %44 ]
  %13 = phi i32 [ %6, %9 ], [ %45, %44 ]
  %14 = phi i32 [ %1, %9 ], [ %26, %44 ]
  %15 = add nuw i32 %13, 2
  %16 = icmp ult i32 %15, %2
  br i1 %16, label %17, label %25

17:                                               ; preds = %11
  %18 = mul i32 %12, %3
  %19 = getelementptr inbounds i8, ptr %0, i32 %18
  %20 = mul i32 %15, %3
  %21 = getelementptr inbounds i8, ptr %0, i32 %20
  %22 = tail call i32 %4(ptr noundef %19, ptr noundef %21) #15
  %23 = icmp slt i32 %22, 0
  %24 = select i1 %23, i32 %15, i32 %12
  br label %25

25:                                               ; preds = %17, %11
  %26 = phi i32 [ %12, %11 ], [ %24, %17 ]
  %27 = mul i32 %14, %3
  %28 = getelementptr inbounds i8, ptr %0, i32 %27
  %29 = mul i32 %26, %3
  %30 = getelementptr inbounds i8, ptr %0, i32 %29
  %31 = tail call i32 %4(ptr noundef %28, ptr noundef %30) #15
  %32 = icmp sgt i32 %31, -1
  br i1 %32, label %48, label %33

33:                                               ; preds = %25
  br i1 %10, label %44, label %34

34:                                               ; preds = %34, %33
  %35 = phi ptr [ %41, %34 ], [ %28, %33 ]
  %36 = phi i32 [ %38, %34 ], [ %3, %33 ]
  %37 = phi ptr [ %42, %34 ], [ %30, %33 ]
  %38 = add i32 %36, -1
  %39 = load i8, ptr %35, align 1, !tbaa !12
  %40 = load i8, ptr %37, align 1, !tbaa !12
  %41 = getelementptr inbounds i8, ptr %35, i32 1
  store i8 %40, ptr %35, align 1, !tbaa !12
  %42 = getelementptr inbounds i8, ptr %37, i32 1
  store i8 %39, ptr %37, align 1, !tbaa !12
  %43 = icmp eq i32 %38, 0
  br i1 %43, label %44, label %34, !llvm.loop !19

44:                                               ; preds = %34, %33
  %45 = shl i32 %26, 1
  %46 = or disjoint i32 %45, 1
  %47 = icmp ult i32 %46, %2
  br i1 %47, label %11, label %48, !llvm.loop !68

48:                                               ; preds = %44, %25, %5
  ret void
}

; Function Attrs: nounwind optsize uwtable
define internal fastcc void @merge_sort(ptr noundef %0, i32 noundef %1, i32 noundef %2, ptr noundef %3, ptr noundef %4) unnamed_addr #1 {
  %6 = icmp ult i32 %1, 2
  br i1 %6, label %85, label %7

7:                                                ; preds = %5
  %8 = lshr i32 %1, 1
  tail call fastcc void @merge_sort(ptr noundef %0, i32 noundef %8, i32 noundef %2, ptr noundef %3, ptr noundef %4) #13
  %9 = mul i32 %8, %2
  %10 = getelementptr inbounds i8, ptr %0, i32 %9
  %11 = sub i32 %1, %8
  tail call fastcc void @merge_sort(ptr noundef %10, i32 noundef %11, i32 noundef %2, ptr noundef %3, ptr noundef %4) #13
  %12 = icmp eq i32 %9, 0
  br i1 %12, label %22, label %13

13:                                               ; preds = %13, %7
  %14 = phi ptr [ %18, %13 ], [ %0, %7 ]
  %15 = phi ptr [ %20, %13 ], [ %4, %7 ]
  %16 = phi i32 [ %17, %13 ], [ %9, %7 ]
  %17 = add i32 %16, -1
  %18 = getelementptr inbounds i8, ptr %14, i32 1
  %19 = load i8, ptr %14, align 1, !tbaa !12, !alias.scope !69, !noalias !72
  %20 = getelementptr inbounds i8, ptr %15, i32 1
  store i8 %19, ptr %15, align 1, !tbaa !12, !alias.scope !72, !noalias !69
  %21 = icmp eq i32 %17, 0
  br i1 %21, label %22, label %13, !llvm.loop !61

22:                                               ; preds = %13, %7
  %23 = icmp eq i32 %11, 0
  br i1 %23, label %71, label %24

24:                                               ; preds = %22
  %25 = icmp eq i32 %2, 0
  br label %26

26:                                               ; preds = %60, %24
  %27 = phi ptr [ %0, %24 ], [ %65, %60 ]
  %28 = phi ptr [ %4, %24 ], [ %64, %60 ]
  %29 = phi i32 [ %11, %24 ], [ %63, %60 ]
  %30 = phi ptr [ %10, %24 ], [ %62, %60 ]
  %31 = phi i32 [ %8, %24 ], [ %61, %60 ]
  %32 = tail call i32 %3(ptr noundef %28, ptr noundef %30) #15
  %33 = icmp slt i32 %32, 1
  br i1 %33, label %34, label %47

34:                                               ; preds = %26
  br i1 %25, label %44, label %35

35:                                               ; preds = %35, %34
  %36 = phi ptr [ %40, %35 ], [ %28, %34 ]
  %37 = phi ptr [ %42, %35 ], [ %27, %34 ]
  %38 = phi i32 [ %39, %35 ], [ %2, %34 ]
  %39 = add i32 %38, -1
  %40 = getelementptr inbounds i8, ptr %36, i32 1
  %41 = load i8, ptr %36, align 1, !tbaa !12, !alias.scope !74, !noalias !77
  %42 = getelementptr inbounds i8, ptr %37, i32 1
  store i8 %41, ptr %37, align 1, !tbaa !12, !alias.scope !77, !noalias !74
  %43 = icmp eq i32 %39, 0
  br i1 %43, label %44, label %35, !llvm.loop !61

44:                                               ; preds = %35, %34
  %45 = getelementptr inbounds i8, ptr %28, i32 %2
  %46 = add nsw i32 %31, -1
  br label %60

47:                                               ; preds = %26
  br i1 %25, label %57, label %48

48:                                               ; preds = %48, %47
  %49 = phi ptr [ %53, %48 ], [ %30, %47 ]
  %50 = phi ptr [ %55, %48 ], [ %27, %47 ]
  %51 = phi i32 [ %52, %48 ], [ %2, %47 ]
  %52 = add i32 %51, -1
  %53 = getelementptr inbounds i8, ptr %49, i32 1
  %54 = load i8, ptr %49, align 1, !tbaa !12, !alias.scope !79, !noalias !82
  %55 = getelementptr inbounds i8, ptr %50, i32 1
  store i8 %54, ptr %50, align 1, !tbaa !12, !alias.scope !82, !noalias !79
  %56 = icmp eq i32 %52, 0
  br i1 %56, label %57, label %48, !llvm.loop !61

57:                                               ; preds = %48, %47
  %58 = getelementptr inbounds i8, ptr %30, i32 %2
  %59 = add i32 %29, -1
  br label %60

60:                                               ; preds = %57, %44
  %61 = phi i32 [ %46, %44 ], [ %31, %57 ]
  %62 = phi ptr [ %30, %44 ], [ %58, %57 ]
  %63 = phi i32 [ %29, %44 ], [ %59, %57 ]
  %64 = phi ptr [ %45, %44 ], [ %28, %57 ]
  %65 = getelementptr inbounds i8, ptr %27, i32 %2
  %66 = icmp ne i32 %61, 0
  %67 = icmp ne i32 %63, 0
  %68 = select i1 %66, i1 %67, i1 false
  br i1 %68, label %26, label %69, !llvm.loop !84

69:                                               ; preds = %60
  %70 = mul i32 %61, %2
  br label %71

71:                                               ; preds = %69, %22
  %72 = phi i32 [ %70, %69 ], [ %9, %22 ]
  %73 = phi ptr [ %64, %69 ], [ %4, %22 ]
  %74 = phi ptr [ %65, %69 ], [ %0, %22 ]
  %75 = icmp eq i32 %72, 0
  br i1 %75, label %85, label %76

76:                                               ; preds = %76, %71
  %77 = phi ptr [ %81, %76 ], [ %73, %71 ]
  %78 = phi ptr [ %83, %76 ], [ %74, %71 ]
  %79 = phi i32 [ %80, %76 ], [ %72, %71 ]
  %80 = add i32 %79, -1
  %81 = getelementptr inbounds i8, ptr %77, i32 1
  %82 = load i8, ptr %77, align 1, !tbaa !12, !alias.scope !85, !noalias !88
  %83 = getelementptr inbounds i8, ptr %78, i32 1
  store i8 %82, ptr %78, align 1, !tbaa !12, !alias.scope !88, !noalias !85
  %84 = icmp eq i32 %80, 0
  br i1 %84, label %85, label %76, !llvm.loop !61

85:                                               ; preds = %76, %71, %5
  ret void
}

; Function Attrs: noinline nounwind optsize uwtable
define internal ptr @__sized_calloc(i32 noundef %0, i32 noundef %1) #4 {
  %3 = icmp eq i32 %1, 0
  br i1 %3, label %7, label %4

4:                                                ; preds = %2
  %5 = udiv i32 -17, %1
  %6 = icmp ult i32 %5, %0
  br i1 %6, label %14, label %7

7:                                                ; preds = %4, %2
  %8 = mul i32 %1, %0
  %9 = add i32 %8, 16
  %10 = tail call ptr @calloc(i32 noundef %9, i32 noundef 1) #15
  %11 = icmp eq ptr %10, null
  br i1 %11, label %14, label %12

12:                                               ; preds = %7
  %13 = getelementptr inbounds i8, ptr %10, i32 16
  store i32 %8, ptr %10, align 4, !tbaa !35
  br label %14

14:                                               ; preds = %12, %7, %4
  %15 = phi ptr [ null, %4 ], [ %13, %12 ], [ null, %7 ]
  ret ptr %15
}

; Function Attrs: noinline nounwind optnone uwtable
define internal void @push(ptr noundef %0, ptr noundef %1) #0 {
  %3 = alloca ptr, align 4
  %4 = alloca ptr, align 4
  %5 = alloca i32, align 4
  store ptr %0, ptr %3, align 4
  store ptr %1, ptr %4, align 4
  %6 = load ptr, ptr %3, align 4
  %7 = getelementptr inbounds %struct.heap, ptr %6, i32 0, i32 1
  %8 = load i32, ptr %7, align 4
  %9 = add nsw i32 %8, 1
  store i32 %9, ptr %7, align 4
  store i32 %8, ptr %5, align 4
  br label %10

10:                                               ; preds = %26, %2
  %11 = load i32, ptr %5, align 4
  %12 = icmp sgt i32 %11, 0
  br i1 %12, label %13, label %24

13:                                               ; preds = %10
  %14 = load ptr, ptr %4, align 4
  %15 = load ptr, ptr %3, align 4
  %16 = getelementptr inbounds %struct.heap, ptr %15, i32 0, i32 0
  %17 = load i32, ptr %5, align 4
  %18 = sub nsw i32 %17, 1
  %19 = sdiv i32 %18, 2
  %20 = getelementptr inbounds [256 x ptr], ptr %16, i32 0, i32 %19
  %21 = load ptr, ptr %20, align 4
  %22 = call i32 @lighter(ptr noundef %14, ptr noundef %21)
  %23 = icmp ne i32 %22, 0
  br label %24

24:                                               ; preds = %13, %10
  %25 = phi i1 [ false, %10 ], [ %23, %13 ]
  br i1 %25, label %26, label %41

26:                                               ; preds = %24
  %27 = load ptr, ptr %3, align 4
  %28 = getelementptr inbounds %struct.heap, ptr %27, i32 0, i32 0
  %29 = load i32, ptr %5, align 4
  %30 = sub nsw i32 %29, 1
  %31 = sdiv i32 %30, 2
  %32 = getelementptr inbounds [256 x ptr], ptr %28, i32 0, i32 %31
  %33 = load ptr, ptr %32, align 4
  %34 = load ptr, ptr %3, align 4
  %35 = getelementptr inbounds %struct.heap, ptr %34, i32 0, i32 0
  %36 = load i32, ptr %5, align 4
  %37 = getelementptr inbounds [256 x ptr], ptr %35, i32 0, i32 %36
  store ptr %33, ptr %37, align 4
  %38 = load i32, ptr %5, align 4
  %39 = sub nsw i32 %38, 1
  %40 = sdiv i32 %39, 2
  store i32 %40, ptr %5, align 4
  br label %10, !llvm.loop !90

41:                                               ; preds = %24
  %42 = load ptr, ptr %4, align 4
  %43 = load ptr, ptr %3, align 4
  %44 = getelementptr inbounds %struct.heap, ptr %43, i32 0, i32 0
  %45 = load i32, ptr %5, align 4
  %46 = getelementptr inbounds [256 x ptr], ptr %44, i32 0, i32 %45
  store ptr %42, ptr %46, align 4
  ret void
}

; Function Attrs: noinline nounwind optnone uwtable
define internal ptr @pop(ptr noundef %0) #0 {
  %2 = alloca ptr, align 4
  %3 = alloca ptr, align 4
  %4 = alloca ptr, align 4
  %5 = alloca i32, align 4
  %6 = alloca i32, align 4
  store ptr %0, ptr %2, align 4
  %7 = load ptr, ptr %2, align 4
  %8 = getelementptr inbounds %struct.heap, ptr %7, i32 0, i32 0
  %9 = getelementptr inbounds [256 x ptr], ptr %8, i32 0, i32 0
  %10 = load ptr, ptr %9, align 4
  store ptr %10, ptr %3, align 4
  %11 = load ptr, ptr %2, align 4
  %12 = getelementptr inbounds %struct.heap, ptr %11, i32 0, i32 0
  %13 = load ptr, ptr %2, align 4
  %14 = getelementptr inbounds %struct.heap, ptr %13, i32 0, i32 1
  %15 = load i32, ptr %14, align 4
  %16 = add nsw i32 %15, -1
  store i32 %16, ptr %14, align 4
  %17 = getelementptr inbounds [256 x ptr], ptr %12, i32 0, i32 %16
  %18 = load ptr, ptr %17, align 4
  store ptr %18, ptr %4, align 4
  store i32 0, ptr %5, align 4
  br label %19

19:                                               ; preds = %71, %1
  %20 = load i32, ptr %5, align 4
  %21 = mul nsw i32 2, %20
  %22 = add nsw i32 %21, 1
  store i32 %22, ptr %6, align 4
  %23 = load ptr, ptr %2, align 4
  %24 = getelementptr inbounds %struct.heap, ptr %23, i32 0, i32 1
  %25 = load i32, ptr %24, align 4
  %26 = icmp slt i32 %22, %25
  br i1 %26, label %27, label %73

27:                                               ; preds = %19
  %28 = load i32, ptr %6, align 4
  %29 = add nsw i32 %28, 1
  %30 = load ptr, ptr %2, align 4
  %31 = getelementptr inbounds %struct.heap, ptr %30, i32 0, i32 1
  %32 = load i32, ptr %31, align 4
  %33 = icmp slt i32 %29, %32
  br i1 %33, label %34, label %51

34:                                               ; preds = %27
  %35 = load ptr, ptr %2, align 4
  %36 = getelementptr inbounds %struct.heap, ptr %35, i32 0, i32 0
  %37 = load i32, ptr %6, align 4
  %38 = add nsw i32 %37, 1
  %39 = getelementptr inbounds [256 x ptr], ptr %36, i32 0, i32 %38
  %40 = load ptr, ptr %39, align 4
  %41 = load ptr, ptr %2, align 4
  %42 = getelementptr inbounds %struct.heap, ptr %41, i32 0, i32 0
  %43 = load i32, ptr %6, align 4
  %44 = getelementptr inbounds [256 x ptr], ptr %42, i32 0, i32 %43
  %45 = load ptr, ptr %44, align 4
  %46 = call i32 @lighter(ptr noundef %40, ptr noundef %45)
  %47 = icmp ne i32 %46, 0
  br i1 %47, label %48, label %51

48:                                               ; preds = %34
  %49 = load i32, ptr %6, align 4
  %50 = add nsw i32 %49, 1
  store i32 %50, ptr %6, align 4
  br label %51

51:                                               ; preds = %48, %34, %27
  %52 = load ptr, ptr %2, align 4
  %53 = getelementptr inbounds %struct.heap, ptr %52, i32 0, i32 0
  %54 = load i32, ptr %6, align 4
  %55 = getelementptr inbounds [256 x ptr], ptr %53, i32 0, i32 %54
  %56 = load ptr, ptr %55, align 4
  %57 = load ptr, ptr %4, align 4
  %58 = call i32 @lighter(ptr noundef %56, ptr noundef %57)
  %59 = icmp ne i32 %58, 0
  br i1 %59, label %61, label %60

60:                                               ; preds = %51
  br label %73

61:                                               ; preds = %51
  %62 = load ptr, ptr %2, align 4
  %63 = getelementptr inbounds %struct.heap, ptr %62, i32 0, i32 0
  %64 = load i32, ptr %6, align 4
  %65 = getelementptr inbounds [256 x ptr], ptr %63, i32 0, i32 %64
  %66 = load ptr, ptr %65, align 4
  %67 = load ptr, ptr %2, align 4
  %68 = getelementptr inbounds %struct.heap, ptr %67, i32 0, i32 0
  %69 = load i32, ptr %5, align 4
  %70 = getelementptr inbounds [256 x ptr], ptr %68, i32 0, i32 %69
  store ptr %66, ptr %70, align 4
  br label %71

71:                                               ; preds = %61
  %72 = load i32, ptr %6, align 4
  store i32 %72, ptr %5, align 4
  br label %19, !llvm.loop !91

73:                                               ; preds = %60, %19
  %74 = load ptr, ptr %4, align 4
  %75 = load ptr, ptr %2, align 4
  %76 = getelementptr inbounds %struct.heap, ptr %75, i32 0, i32 0
  %77 = load i32, ptr %5, align 4
  %78 = getelementptr inbounds [256 x ptr], ptr %76, i32 0, i32 %77
  store ptr %74, ptr %78, align 4
  %79 = load ptr, ptr %3, align 4
  ret ptr %79
}

; Function Attrs: noinline nounwind optnone uwtable
define internal ptr @join(ptr noundef %0, ptr noundef %1) #0 {
  %3 = alloca ptr, align 4
  %4 = alloca ptr, align 4
  %5 = alloca ptr, align 4
  store ptr %0, ptr %3, align 4
  store ptr %1, ptr %4, align 4
  %6 = call ptr @__sized_malloc(i32 noundef 16) #12
  store ptr %6, ptr %5, align 4
  %7 = load ptr, ptr %5, align 4
  %8 = icmp ne ptr %7, null
  br i1 %8, label %10, label %9

9:                                                ; preds = %2
  call void @abort() #18
  unreachable

10:                                               ; preds = %2
  %11 = load ptr, ptr %3, align 4
  %12 = getelementptr inbounds %struct.node, ptr %11, i32 0, i32 0
  %13 = load i32, ptr %12, align 4
  %14 = load ptr, ptr %4, align 4
  %15 = getelementptr inbounds %struct.node, ptr %14, i32 0, i32 0
  %16 = load i32, ptr %15, align 4
  %17 = add i32 %13, %16
  %18 = load ptr, ptr %5, align 4
  %19 = getelementptr inbounds %struct.node, ptr %18, i32 0, i32 0
  store i32 %17, ptr %19, align 4
  %20 = load ptr, ptr %3, align 4
  %21 = getelementptr inbounds %struct.node, ptr %20, i32 0, i32 1
  %22 = load i16, ptr %21, align 4
  %23 = sext i16 %22 to i32
  %24 = load ptr, ptr %4, align 4
  %25 = getelementptr inbounds %struct.node, ptr %24, i32 0, i32 1
  %26 = load i16, ptr %25, align 4
  %27 = sext i16 %26 to i32
  %28 = icmp slt i32 %23, %27
  br i1 %28, label %29, label %34

29:                                               ; preds = %10
  %30 = load ptr, ptr %3, align 4
  %31 = getelementptr inbounds %struct.node, ptr %30, i32 0, i32 1
  %32 = load i16, ptr %31, align 4
  %33 = sext i16 %32 to i32
  br label %39

34:                                               ; preds = %10
  %35 = load ptr, ptr %4, align 4
  %36 = getelementptr inbounds %struct.node, ptr %35, i32 0, i32 1
  %37 = load i16, ptr %36, align 4
  %38 = sext i16 %37 to i32
  br label %39

39:                                               ; preds = %34, %29
  %40 = phi i32 [ %33, %29 ], [ %38, %34 ]
  %41 = trunc i32 %40 to i16
  %42 = load ptr, ptr %5, align 4
  %43 = getelementptr inbounds %struct.node, ptr %42, i32 0, i32 1
  store i16 %41, ptr %43, align 4
  %44 = load ptr, ptr %3, align 4
  %45 = load ptr, ptr %5, align 4
  %46 = getelementptr inbounds %struct.node, ptr %45, i32 0, i32 2
  store ptr %44, ptr %46, align 4
  %47 = load ptr, ptr %4, align 4
  %48 = load ptr, ptr %5, align 4
  %49 = getelementptr inbounds %struct.node, ptr %48, i32 0, i32 3
  store ptr %47, ptr %49, align 4
  %50 = load ptr, ptr %5, align 4
  ret ptr %50
}

; Function Attrs: noinline nounwind optnone uwtable
define internal void @measure(ptr noundef %0, ptr noundef %1, i32 noundef %2) #0 {
  %4 = alloca ptr, align 4
  %5 = alloca ptr, align 4
  %6 = alloca i32, align 4
  store ptr %0, ptr %4, align 4
  store ptr %1, ptr %5, align 4
  store i32 %2, ptr %6, align 4
  %7 = load ptr, ptr %5, align 4
  %8 = getelementptr inbounds %struct.node, ptr %7, i32 0, i32 2
  %9 = load ptr, ptr %8, align 4
  %10 = icmp ne ptr %9, null
  br i1 %10, label %11, label %24

11:                                               ; preds = %3
  %12 = load ptr, ptr %4, align 4
  %13 = load ptr, ptr %5, align 4
  %14 = getelementptr inbounds %struct.node, ptr %13, i32 0, i32 2
  %15 = load ptr, ptr %14, align 4
  %16 = load i32, ptr %6, align 4
  %17 = add i32 %16, 1
  call void @measure(ptr noundef %12, ptr noundef %15, i32 noundef %17)
  %18 = load ptr, ptr %4, align 4
  %19 = load ptr, ptr %5, align 4
  %20 = getelementptr inbounds %struct.node, ptr %19, i32 0, i32 3
  %21 = load ptr, ptr %20, align 4
  %22 = load i32, ptr %6, align 4
  %23 = add i32 %22, 1
  call void @measure(ptr noundef %18, ptr noundef %21, i32 noundef %23)
  br label %40

24:                                               ; preds = %3
  %25 = load i32, ptr %6, align 4
  %26 = icmp ugt i32 %25, 0
  br i1 %26, label %27, label %29

27:                                               ; preds = %24
  %28 = load i32, ptr %6, align 4
  br label %30

29:                                               ; preds = %24
  br label %30

30:                                               ; preds = %29, %27
  %31 = phi i32 [ %28, %27 ], [ 1, %29 ]
  %32 = trunc i32 %31 to i8
  %33 = load ptr, ptr %4, align 4
  %34 = getelementptr inbounds %struct.code, ptr %33, i32 0, i32 0
  %35 = load ptr, ptr %5, align 4
  %36 = getelementptr inbounds %struct.node, ptr %35, i32 0, i32 1
  %37 = load i16, ptr %36, align 4
  %38 = sext i16 %37 to i32
  %39 = getelementptr inbounds [256 x i8], ptr %34, i32 0, i32 %38
  store i8 %32, ptr %39, align 1
  br label %40

40:                                               ; preds = %30, %11
  %41 = load ptr, ptr %5, align 4
  call void @__sized_free(ptr noundef %41)
  ret void
}

; Function Attrs: noinline nounwind optnone uwtable
define internal void @number(ptr noundef %0) #0 {
  %2 = alloca ptr, align 4
  %3 = alloca i32, align 4
  %4 = alloca i32, align 4
  %5 = alloca i32, align 4
  store ptr %0, ptr %2, align 4
  store i32 0, ptr %3, align 4
  store i32 1, ptr %4, align 4
  br label %6

6:                                                ; preds = %36, %1
  %7 = load i32, ptr %4, align 4
  %8 = icmp ule i32 %7, 32
  br i1 %8, label %9, label %39

9:                                                ; preds = %6
  store i32 0, ptr %5, align 4
  br label %10

10:                                               ; preds = %30, %9
  %11 = load i32, ptr %5, align 4
  %12 = icmp slt i32 %11, 256
  br i1 %12, label %13, label %33

13:                                               ; preds = %10
  %14 = load ptr, ptr %2, align 4
  %15 = getelementptr inbounds %struct.code, ptr %14, i32 0, i32 0
  %16 = load i32, ptr %5, align 4
  %17 = getelementptr inbounds [256 x i8], ptr %15, i32 0, i32 %16
  %18 = load i8, ptr %17, align 1
  %19 = zext i8 %18 to i32
  %20 = load i32, ptr %4, align 4
  %21 = icmp eq i32 %19, %20
  br i1 %21, label %22, label %29

22:                                               ; preds = %13
  %23 = load i32, ptr %3, align 4
  %24 = add i32 %23, 1
  store i32 %24, ptr %3, align 4
  %25 = load ptr, ptr %2, align 4
  %26 = getelementptr inbounds %struct.code, ptr %25, i32 0, i32 1
  %27 = load i32, ptr %5, align 4
  %28 = getelementptr inbounds [256 x i32], ptr %26, i32 0, i32 %27
  store i32 %23, ptr %28, align 4
  br label %29

29:                                               ; preds = %22, %13
  br label %30

30:                                               ; preds = %29
  %31 = load i32, ptr %5, align 4
  %32 = add nsw i32 %31, 1
  store i32 %32, ptr %5, align 4
  br label %10, !llvm.loop !92

33:                                               ; preds = %10
  %34 = load i32, ptr %3, align 4
  %35 = shl i32 %34, 1
  store i32 %35, ptr %3, align 4
  br label %36

36:                                               ; preds = %33
  %37 = load i32, ptr %4, align 4
  %38 = add i32 %37, 1
  store i32 %38, ptr %4, align 4
  br label %6, !llvm.loop !93

39:                                               ; preds = %6
  ret void
}

; Function Attrs: noinline nounwind optnone uwtable
define internal i32 @lighter(ptr noundef %0, ptr noundef %1) #0 {
  %3 = alloca i32, align 4
  %4 = alloca ptr, align 4
  %5 = alloca ptr, align 4
  store ptr %0, ptr %4, align 4
  store ptr %1, ptr %5, align 4
  %6 = load ptr, ptr %4, align 4
  %7 = getelementptr inbounds %struct.node, ptr %6, i32 0, i32 0
  %8 = load i32, ptr %7, align 4
  %9 = load ptr, ptr %5, align 4
  %10 = getelementptr inbounds %struct.node, ptr %9, i32 0, i32 0
  %11 = load i32, ptr %10, align 4
  %12 = icmp ne i32 %8, %11
  br i1 %12, label %13, label %22

13:                                               ; preds = %2
  %14 = load ptr, ptr %4, align 4
  %15 = getelementptr inbounds %struct.node, ptr %14, i32 0, i32 0
  %16 = load i32, ptr %15, align 4
  %17 = load ptr, ptr %5, align 4
  %18 = getelementptr inbounds %struct.node, ptr %17, i32 0, i32 0
  %19 = load i32, ptr %18, align 4
  %20 = icmp ult i32 %16, %19
  %21 = zext i1 %20 to i32
  store i32 %21, ptr %3, align 4
  br label %33

22:                                               ; preds = %2
  %23 = load ptr, ptr %4, align 4
  %24 = getelementptr inbounds %struct.node, ptr %23, i32 0, i32 1
  %25 = load i16, ptr %24, align 4
  %26 = sext i16 %25 to i32
  %27 = load ptr, ptr %5, align 4
  %28 = getelementptr inbounds %struct.node, ptr %27, i32 0, i32 1
  %29 = load i16, ptr %28, align 4
  %30 = sext i16 %29 to i32
  %31 = icmp slt i32 %26, %30
  %32 = zext i1 %31 to i32
  store i32 %32, ptr %3, align 4
  br label %33

33:                                               ; preds = %22, %13
  %34 = load i32, ptr %3, align 4
  ret i32 %34
}

; Function Attrs: optsize
declare dso_local ptr @calloc(i32 noundef, i32 noundef) local_unnamed_addr #9

; Function Attrs: nounwind optsize uwtable
define internal i32 @fgetc(ptr nocapture noundef %0) local_unnamed_addr #1 {
  %2 = load i8, ptr %0, align 4, !tbaa !25
  %3 = icmp eq i8 %2, 0
  br i1 %3, label %4, label %20

4:                                                ; preds = %1
  %5 = getelementptr inbounds i8, ptr %0, i32 2
  %6 = load i8, ptr %5, align 2, !tbaa !94
  %7 = icmp eq i8 %6, 0
  br i1 %7, label %12, label %8

8:                                                ; preds = %4
  store i8 0, ptr %5, align 2, !tbaa !94
  %9 = getelementptr inbounds i8, ptr %0, i32 3
  %10 = load i8, ptr %9, align 1, !tbaa !95
  %11 = zext i8 %10 to i32
  br label %20

12:                                               ; preds = %4
  %13 = getelementptr inbounds i8, ptr %0, i32 1
  %14 = load i8, ptr %13, align 1, !tbaa !96
  %15 = icmp eq i8 %14, 0
  br i1 %15, label %16, label %20

16:                                               ; preds = %12
  %17 = tail call i32 @getchar() #15
  %18 = icmp eq i32 %17, -1
  br i1 %18, label %19, label %20

19:                                               ; preds = %16
  store i8 1, ptr %13, align 1, !tbaa !96
  br label %20

20:                                               ; preds = %19, %16, %12, %8, %1
  %21 = phi i32 [ %11, %8 ], [ -1, %1 ], [ -1, %12 ], [ -1, %19 ], [ %17, %16 ]
  ret i32 %21
}

; Function Attrs: optsize
declare dso_local i32 @getchar() local_unnamed_addr #9

attributes #0 = { noinline nounwind optnone uwtable "frame-pointer"="all" "min-legal-vector-width"="0" "no-trapping-math"="true" "stack-protector-buffer-size"="8" "target-cpu"="i686" "target-features"="+cmov,+cx8,+x87" "tune-cpu"="generic" }
attributes #1 = { nounwind optsize uwtable "min-legal-vector-width"="0" "no-builtins" "no-jump-tables"="true" "no-trapping-math"="true" "stack-protector-buffer-size"="8" "target-cpu"="i686" "target-features"="+cmov,+cx8,+x87" "tune-cpu"="generic" }
attributes #2 = { nocallback nofree nounwind willreturn memory(argmem: write) }
attributes #3 = { "frame-pointer"="all" "no-trapping-math"="true" "stack-protector-buffer-size"="8" "target-cpu"="i686" "target-features"="+cmov,+cx8,+x87" "tune-cpu"="generic" }
attributes #4 = { noinline nounwind optsize uwtable "min-legal-vector-width"="0" "no-builtins" "no-jump-tables"="true" "no-trapping-math"="true" "stack-protector-buffer-size"="8" "target-cpu"="i686" "target-features"="+cmov,+cx8,+x87" "tune-cpu"="generic" }
attributes #5 = { nofree norecurse nosync nounwind optsize memory(read, inaccessiblemem: none) uwtable "min-legal-vector-width"="0" "no-builtins" "no-jump-tables"="true" "no-trapping-math"="true" "stack-protector-buffer-size"="8" "target-cpu"="i686" "target-features"="+cmov,+cx8,+x87" "tune-cpu"="generic" }
attributes #6 = { allocsize(0) "frame-pointer"="all" "no-trapping-math"="true" "stack-protector-buffer-size"="8" "target-cpu"="i686" "target-features"="+cmov,+cx8,+x87" "tune-cpu"="generic" }
attributes #7 = { nocallback nofree nosync nounwind willreturn memory(argmem: readwrite) }
attributes #8 = { nocallback nofree nosync nounwind speculatable willreturn memory(none) }
attributes #9 = { optsize "no-builtins" "no-trapping-math"="true" "stack-protector-buffer-size"="8" "target-cpu"="i686" "target-features"="+cmov,+cx8,+x87" "tune-cpu"="generic" }
attributes #10 = { noreturn nounwind "frame-pointer"="all" "no-trapping-math"="true" "stack-protector-buffer-size"="8" "target-cpu"="i686" "target-features"="+cmov,+cx8,+x87" "tune-cpu"="generic" }
attributes #11 = { mustprogress nofree norecurse nosync nounwind optsize willreturn memory(none) uwtable "min-legal-vector-width"="0" "no-builtins" "no-jump-tables"="true" "no-trapping-math"="true" "stack-protector-buffer-size"="8" "target-cpu"="i686" "target-features"="+cmov,+cx8,+x87" "tune-cpu"="generic" }
attributes #12 = { allocsize(0) }
attributes #13 = { nobuiltin optsize "no-builtins" }
attributes #14 = { allocsize(0,1) }
attributes #15 = { nobuiltin nounwind optsize "no-builtins" }
attributes #16 = { nounwind }
attributes #17 = { allocsize(1) }
attributes #18 = { noreturn nounwind }
attributes #19 = { nounwind willreturn memory(read) }

!llvm.ident = !{!0, !0, !0, !0, !0, !0}
!llvm.module.flags = !{!1, !2, !3, !4, !5, !6}

!0 = !{!"Debian clang version 19.1.7 (3~deb12u1)"}
!1 = !{i32 1, !"NumRegisterParameters", i32 0}
!2 = !{i32 7, !"Dwarf Version", i32 5}
!3 = !{i32 2, !"Debug Info Version", i32 3}
!4 = !{i32 1, !"wchar_size", i32 4}
!5 = !{i32 7, !"uwtable", i32 2}
!6 = !{i32 7, !"frame-pointer", i32 2}
!7 = distinct !{!7, !8}
!8 = !{!"llvm.loop.mustprogress"}
!9 = distinct !{!9, !8}
!10 = distinct !{!10, !8}
!11 = distinct !{!11, !8}
!12 = !{!13, !13, i64 0}
!13 = !{!"omnipotent char", !14, i64 0}
!14 = !{!"Simple C/C++ TBAA"}
!15 = distinct !{!15, !8}
!16 = distinct !{!16, !8}
!17 = distinct !{!17, !8}
!18 = distinct !{!18, !8}
!19 = distinct !{!19, !8}
!20 = distinct !{!20, !8}
!21 = distinct !{!21, !8}
!22 = distinct !{!22, !8}
!23 = distinct !{!23, !8}
!24 = distinct !{!24, !8}
!25 = !{!26, !13, i64 0}
!26 = !{!"__stream", !13, i64 0, !13, i64 1, !13, i64 2, !13, i64 3, !27, i64 4, !28, i64 8}
!27 = !{!"any pointer", !13, i64 0}
!28 = !{!"int", !13, i64 0}
!29 = !{!30}
!30 = distinct !{!30, !31, !"fwrite: %stream"}
!31 = distinct !{!31, !"fwrite"}
!32 = !{!33}
!33 = distinct !{!33, !31, !"fwrite: %from"}
!34 = distinct !{!34, !8}
!35 = !{!28, !28, i64 0}
!36 = distinct !{!36, !8}
!37 = distinct !{!37, !8}
!38 = distinct !{!38, !8}
!39 = distinct !{!39, !8}
!40 = distinct !{!40, !8}
!41 = distinct !{!41, !8}
!42 = !{!43}
!43 = distinct !{!43, !44, !"fwrite: %stream"}
!44 = distinct !{!44, !"fwrite"}
!45 = !{!46}
!46 = distinct !{!46, !44, !"fwrite: %from"}
!47 = !{!48}
!48 = distinct !{!48, !49, !"fwrite: %stream"}
!49 = distinct !{!49, !"fwrite"}
!50 = !{!51}
!51 = distinct !{!51, !49, !"fwrite: %from"}
!52 = !{!26, !28, i64 8}
!53 = !{!26, !27, i64 4}
!54 = distinct !{!54, !8}
!55 = distinct !{!55, !8}
!56 = !{!57}
!57 = distinct !{!57, !58, !"memcpy: %from"}
!58 = distinct !{!58, !"memcpy"}
!59 = !{!60}
!60 = distinct !{!60, !58, !"memcpy: %to"}
!61 = distinct !{!61, !8}
!62 = distinct !{!62, !8}
!63 = !{!64}
!64 = distinct !{!64, !65, !"fwrite: %stream"}
!65 = distinct !{!65, !"fwrite"}
!66 = !{!67}
!67 = distinct !{!67, !65, !"fwrite: %from"}
!68 = distinct !{!68, !8}
!69 = !{!70}
!70 = distinct !{!70, !71, !"memcpy: %from"}
!71 = distinct !{!71, !"memcpy"}
!72 = !{!73}
!73 = distinct !{!73, !71, !"memcpy: %to"}
!74 = !{!75}
!75 = distinct !{!75, !76, !"memcpy: %from"}
!76 = distinct !{!76, !"memcpy"}
!77 = !{!78}
!78 = distinct !{!78, !76, !"memcpy: %to"}
!79 = !{!80}
!80 = distinct !{!80, !81, !"memcpy: %from"}
!81 = distinct !{!81, !"memcpy"}
!82 = !{!83}
!83 = distinct !{!83, !81, !"memcpy: %to"}
!84 = distinct !{!84, !8}
!85 = !{!86}
!86 = distinct !{!86, !87, !"memcpy: %from"}
!87 = distinct !{!87, !"memcpy"}
!88 = !{!89}
!89 = distinct !{!89, !87, !"memcpy: %to"}
!90 = distinct !{!90, !8}
!91 = distinct !{!91, !8}
!92 = distinct !{!92, !8}
!93 = distinct !{!93, !8}
!94 = !{!26, !13, i64 2}
!95 = !{!26, !13, i64 3}
!96 = !{!26, !13, i64 1}
