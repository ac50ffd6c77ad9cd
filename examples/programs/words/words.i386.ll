source_filename = "main.c"
target datalayout = "e-m:e-p:32:32-p270:32:32-p271:32:32-p272:64:64-i128:128-f64:32:64-f80:32-n8:16:32-S128"
target triple = "i386-unknown-linux-gnu"

%struct.__stream = type { i8, i8, i8, i8, ptr, i32 }
%struct.table = type { ptr, i32, i32, i32 }

@.str = private unnamed_addr constant [35 x i8] c"%u lines, %u words, %zu different\0A\00", align 1
@usual = internal constant [9 x ptr] [ptr @.str.6, ptr @.str.7, ptr @.str.8, ptr @.str.9, ptr @.str.10, ptr @.str.11, ptr @.str.12, ptr @.str.13, ptr @.str.14], align 4
@.str.1 = private unnamed_addr constant [8 x i8] c"machine\00", align 1
@.str.2 = private unnamed_addr constant [13 x i8] c"machine: %s\0A\00", align 1
@.str.3 = private unnamed_addr constant [6 x i8] c"there\00", align 1
@.str.4 = private unnamed_addr constant [10 x i8] c"not there\00", align 1
@.str.5 = private unnamed_addr constant [15 x i8] c"from %s to %s\0A\00", align 1
@.str.6 = private unnamed_addr constant [4 x i8] c"the\00", align 1
@.str.7 = private unnamed_addr constant [4 x i8] c"and\00", align 1
@.str.8 = private unnamed_addr constant [3 x i8] c"of\00", align 1
@.str.9 = private unnamed_addr constant [2 x i8] c"a\00", align 1
@.str.10 = private unnamed_addr constant [3 x i8] c"to\00", align 1
@.str.11 = private unnamed_addr constant [3 x i8] c"in\00", align 1
@.str.12 = private unnamed_addr constant [3 x i8] c"is\00", align 1
@.str.13 = private unnamed_addr constant [3 x i8] c"it\00", align 1
@.str.14 = private unnamed_addr constant [5 x i8] c"that\00", align 1
@.str.15 = private unnamed_addr constant [32 x i8] c"%4u  %-14.14s first in line %u\0A\00", align 1
@.str.16 = private unnamed_addr constant [7 x i8] c"%2d%c \00", align 1
@.str.17 = private unnamed_addr constant [5 x i8] c" %u\0A\00", align 1
@.str.18 = private unnamed_addr constant [1 x i8] zeroinitializer, align 1
@.str.1.19 = private unnamed_addr constant [7 x i8] c"(null)\00", align 1
@.str.2.26 = private unnamed_addr constant [2 x i8] c"-\00", align 1
@.str.3.27 = private unnamed_addr constant [2 x i8] c"+\00", align 1
@.str.4.25 = private unnamed_addr constant [2 x i8] c" \00", align 1
@.str.5.32 = private unnamed_addr constant [3 x i8] c"0X\00", align 1
@.str.6.31 = private unnamed_addr constant [3 x i8] c"0x\00", align 1
@__streams = internal global [3 x %struct.__stream] [%struct.__stream zeroinitializer, %struct.__stream { i8 1, i8 0, i8 0, i8 0, ptr null, i32 0 }, %struct.__stream { i8 2, i8 0, i8 0, i8 0, ptr null, i32 0 }], align 4
@.str.8.30 = private unnamed_addr constant [17 x i8] c"0123456789ABCDEF\00", align 1
@.str.9.24 = private unnamed_addr constant [17 x i8] c"0123456789abcdef\00", align 1

; Function Attrs: noinline nounwind optnone uwtable
define dso_local i32 @main() #0 {
  %1 = alloca i32, align 4
  %2 = alloca %struct.table, align 4
  %3 = alloca [400 x i8], align 1
  %4 = alloca [24 x i8], align 1
  %5 = alloca i32, align 4
  %6 = alloca i32, align 4
  %7 = alloca ptr, align 4
  %8 = alloca ptr, align 4
  %9 = alloca i32, align 4
  %10 = alloca ptr, align 4
  %11 = alloca ptr, align 4
  %12 = alloca i32, align 4
  store i32 0, ptr %1, align 4
  call void @llvm.memset.p0.i32(ptr align 4 %2, i8 0, i32 16, i1 false)
  store i32 0, ptr %5, align 4
  store i32 0, ptr %6, align 4
  br label %13

13:                                               ; preds = %41, %0
  %14 = getelementptr inbounds [400 x i8], ptr %3, i32 0, i32 0
  %15 = call ptr @fgets(ptr noundef %14, i32 noundef 400, ptr noundef @__streams)
  %16 = icmp ne ptr %15, null
  br i1 %16, label %17, label %42

17:                                               ; preds = %13
  %18 = load i32, ptr %5, align 4
  %19 = add i32 %18, 1
  store i32 %19, ptr %5, align 4
  %20 = getelementptr inbounds [400 x i8], ptr %3, i32 0, i32 0
  store ptr %20, ptr %7, align 4
  br label %21

21:                                               ; preds = %38, %17
  %22 = load ptr, ptr %7, align 4
  %23 = getelementptr inbounds [24 x i8], ptr %4, i32 0, i32 0
  %24 = call ptr @next_word(ptr noundef %22, ptr noundef %23, i32 noundef 24)
  store ptr %24, ptr %7, align 4
  %25 = icmp ne ptr %24, null
  br i1 %25, label %26, label %41

26:                                               ; preds = %21
  %27 = getelementptr inbounds [24 x i8], ptr %4, i32 0, i32 0
  %28 = call ptr @table_of(ptr noundef %2, ptr noundef %27)
  store ptr %28, ptr %8, align 4
  %29 = load ptr, ptr %8, align 4
  %30 = getelementptr inbounds %struct.table, ptr %29, i32 0, i32 2
  %31 = load i32, ptr %30, align 4
  %32 = add i32 %31, 1
  store i32 %32, ptr %30, align 4
  %33 = icmp eq i32 %31, 0
  br i1 %33, label %34, label %38

34:                                               ; preds = %26
  %35 = load i32, ptr %5, align 4
  %36 = load ptr, ptr %8, align 4
  %37 = getelementptr inbounds %struct.table, ptr %36, i32 0, i32 3
  store i32 %35, ptr %37, align 4
  br label %38

38:                                               ; preds = %34, %26
  %39 = load i32, ptr %6, align 4
  %40 = add i32 %39, 1
  store i32 %40, ptr %6, align 4
  br label %21, !llvm.loop !7

41:                                               ; preds = %21
  br label %13, !llvm.loop !9

42:                                               ; preds = %13
  %43 = load i32, ptr %5, align 4
  %44 = load i32, ptr %6, align 4
  %45 = getelementptr inbounds %struct.table, ptr %2, i32 0, i32 2
  %46 = load i32, ptr %45, align 4
  %47 = zext i32 %43 to i64
  %48 = call i32 @__print_unsigned(ptr getelementptr inbounds ([3 x { i8, i8, i8, i8, ptr, i32 }], ptr @__streams, i32 0, i32 1), i64 %47, i32 10, i32 0, i32 0, i32 -1)
  %49 = call i32 @__print_text(ptr getelementptr inbounds ([3 x { i8, i8, i8, i8, ptr, i32 }], ptr @__streams, i32 0, i32 1), ptr getelementptr inbounds (i8, ptr @.str, i32 2), i32 8)
  %50 = zext i32 %44 to i64
  %51 = call i32 @__print_unsigned(ptr getelementptr inbounds ([3 x { i8, i8, i8, i8, ptr, i32 }], ptr @__streams, i32 0, i32 1), i64 %50, i32 10, i32 0, i32 0, i32 -1)
  %52 = call i32 @__print_text(ptr getelementptr inbounds ([3 x { i8, i8, i8, i8, ptr, i32 }], ptr @__streams, i32 0, i32 1), ptr getelementptr inbounds (i8, ptr @.str, i32 12), i32 8)
  %53 = zext i32 %46 to i64
  %54 = call i32 @__print_unsigned(ptr getelementptr inbounds ([3 x { i8, i8, i8, i8, ptr, i32 }], ptr @__streams, i32 0, i32 1), i64 %53, i32 10, i32 0, i32 0, i32 -1)
  %55 = call i32 @__print_text(ptr getelementptr inbounds ([3 x { i8, i8, i8, i8, ptr, i32 }], ptr @__streams, i32 0, i32 1), ptr getelementptr inbounds (i8, ptr @.str, i32 23), i32 11)
  %56 = add i32 %48, %49
  %57 = add i32 %56, %51
  %58 = add i32 %57, %52
  %59 = add i32 %58, %54
  %60 = add i32 %59, %55
  %61 = add i32 %60, 0
  store i32 0, ptr %9, align 4
  br label %62

62:                                               ; preds = %69, %42
  %63 = load i32, ptr %9, align 4
  %64 = icmp ult i32 %63, 9
  br i1 %64, label %65, label %72

65:                                               ; preds = %62
  %66 = load i32, ptr %9, align 4
  %67 = getelementptr inbounds [9 x ptr], ptr @usual, i32 0, i32 %66
  %68 = load ptr, ptr %67, align 4
  call void @table_remove(ptr noundef %2, ptr noundef %68)
  br label %69

69:                                               ; preds = %65
  %70 = load i32, ptr %9, align 4
  %71 = add i32 %70, 1
  store i32 %71, ptr %9, align 4
  br label %62, !llvm.loop !10

72:                                               ; preds = %62
  %73 = call ptr @listed(ptr noundef %2)
  store ptr %73, ptr %10, align 4
  %74 = load ptr, ptr %10, align 4
  %75 = getelementptr inbounds %struct.table, ptr %2, i32 0, i32 2
  %76 = load i32, ptr %75, align 4
  call void @qsort(ptr noundef %74, i32 noundef %76, i32 noundef 4, ptr noundef @by_count)
  %77 = load ptr, ptr %10, align 4
  %78 = getelementptr inbounds %struct.table, ptr %2, i32 0, i32 2
  %79 = load i32, ptr %78, align 4
  call void @show(ptr noundef %77, i32 noundef %79)
  %80 = load ptr, ptr %10, align 4
  %81 = getelementptr inbounds %struct.table, ptr %2, i32 0, i32 2
  %82 = load i32, ptr %81, align 4
  call void @histogram(ptr noundef %80, i32 noundef %82)
  %83 = load ptr, ptr %10, align 4
  %84 = getelementptr inbounds %struct.table, ptr %2, i32 0, i32 2
  %85 = load i32, ptr %84, align 4
  call void @qsort(ptr noundef %83, i32 noundef %85, i32 noundef 4, ptr noundef @by_alphabet)
  %86 = load ptr, ptr %10, align 4
  %87 = getelementptr inbounds %struct.table, ptr %2, i32 0, i32 2
  %88 = load i32, ptr %87, align 4
  %89 = call ptr @bsearch(ptr noundef @.str.1, ptr noundef %86, i32 noundef %88, i32 noundef 4, ptr noundef @by_word)
  store ptr %89, ptr %11, align 4
  %90 = load ptr, ptr %11, align 4
  %91 = icmp ne ptr %90, null
  %92 = zext i1 %91 to i64
  %93 = select i1 %91, ptr @.str.3, ptr @.str.4
  %94 = call i32 @__print_text(ptr getelementptr inbounds ([3 x { i8, i8, i8, i8, ptr, i32 }], ptr @__streams, i32 0, i32 1), ptr @.str.2, i32 9)
  %95 = call i32 @__print_string(ptr getelementptr inbounds ([3 x { i8, i8, i8, i8, ptr, i32 }], ptr @__streams, i32 0, i32 1), ptr %93, i32 0, i32 0, i32 -1)
  %96 = call i32 @__print_text(ptr getelementptr inbounds ([3 x { i8, i8, i8, i8, ptr, i32 }], ptr @__streams, i32 0, i32 1), ptr getelementptr inbounds (i8, ptr @.str.2, i32 11), i32 1)
  %97 = add i32 %94, %95
  %98 = add i32 %97, %96
  %99 = add i32 %98, 0
  %100 = getelementptr inbounds %struct.table, ptr %2, i32 0, i32 2
  %101 = load i32, ptr %100, align 4
  %102 = icmp ne i32 %101, 0
  br i1 %102, label %103, label %127

103:                                              ; preds = %72
  %104 = load ptr, ptr %10, align 4
  %105 = getelementptr inbounds ptr, ptr %104, i32 0
  %106 = load ptr, ptr %105, align 4
  %107 = getelementptr inbounds %struct.table, ptr %106, i32 0, i32 0
  %108 = load ptr, ptr %107, align 4
  %109 = load ptr, ptr %10, align 4
  %110 = getelementptr inbounds %struct.table, ptr %2, i32 0, i32 2
  %111 = load i32, ptr %110, align 4
  %112 = sub i32 %111, 1
  %113 = getelementptr inbounds ptr, ptr %109, i32 %112
  %114 = load ptr, ptr %113, align 4
  %115 = getelementptr inbounds %struct.table, ptr %114, i32 0, i32 0
  %116 = load ptr, ptr %115, align 4
  %117 = call i32 @__print_text(ptr getelementptr inbounds ([3 x { i8, i8, i8, i8, ptr, i32 }], ptr @__streams, i32 0, i32 1), ptr @.str.5, i32 5)
  %118 = call i32 @__print_string(ptr getelementptr inbounds ([3 x { i8, i8, i8, i8, ptr, i32 }], ptr @__streams, i32 0, i32 1), ptr %108, i32 0, i32 0, i32 -1)
  %119 = call i32 @__print_text(ptr getelementptr inbounds ([3 x { i8, i8, i8, i8, ptr, i32 }], ptr @__streams, i32 0, i32 1), ptr getelementptr inbounds (i8, ptr @.str.5, i32 7), i32 4)
  %120 = call i32 @__print_string(ptr getelementptr inbounds ([3 x { i8, i8, i8, i8, ptr, i32 }], ptr @__streams, i32 0, i32 1), ptr %116, i32 0, i32 0, i32 -1)
  %121 = call i32 @__print_text(ptr getelementptr inbounds ([3 x { i8, i8, i8, i8, ptr, i32 }], ptr @__streams, i32 0, i32 1), ptr getelementptr inbounds (i8, ptr @.str.5, i32 13), i32 1)
  %122 = add i32 %117, %118
  %123 = add i32 %122, %119
  %124 = add i32 %123, %120
  %125 = add i32 %124, %121
  %126 = add i32 %125, 0
  br label %127

127:                                              ; preds = %103, %72
  %128 = getelementptr inbounds %struct.table, ptr %2, i32 0, i32 2
  %129 = load i32, ptr %128, align 4
  %130 = srem i32 %129, 100
  store i32 %130, ptr %12, align 4
  %131 = load ptr, ptr %10, align 4
  call void @free(ptr noundef %131)
  call void @table_free(ptr noundef %2)
  %132 = load i32, ptr %12, align 4
  ret i32 %132
}

; Function Attrs: nocallback nofree nounwind willreturn memory(argmem: write)
declare void @llvm.memset.p0.i32(ptr nocapture writeonly, i8, i32, i1 immarg) #1

; Function Attrs: nounwind optsize uwtable
define internal noundef ptr @fgets(ptr noalias noundef writeonly %0, i32 noundef %1, ptr noalias nocapture noundef %2) #2 {
  %4 = icmp slt i32 %1, 1
  br i1 %4, label %23, label %5

5:                                                ; preds = %3
  %6 = icmp eq i32 %1, 1
  br i1 %6, label %21, label %7

7:                                                ; preds = %12, %5
  %8 = phi i32 [ %13, %12 ], [ %1, %5 ]
  %9 = phi ptr [ %15, %12 ], [ %0, %5 ]
  %10 = tail call i32 @fgetc(ptr noundef %2) #13
  %11 = icmp eq i32 %10, -1
  br i1 %11, label %19, label %12

12:                                               ; preds = %7
  %13 = add nsw i32 %8, -1
  %14 = trunc i32 %10 to i8
  %15 = getelementptr inbounds i8, ptr %9, i32 1
  store i8 %14, ptr %9, align 1, !tbaa !11
  %16 = icmp sgt i32 %8, 2
  %17 = icmp ne i32 %10, 10
  %18 = and i1 %16, %17
  br i1 %18, label %7, label %21, !llvm.loop !14

19:                                               ; preds = %7
  %20 = icmp eq ptr %9, %0
  br i1 %20, label %23, label %21

21:                                               ; preds = %19, %12, %5
  %22 = phi ptr [ %9, %19 ], [ %0, %5 ], [ %15, %12 ]
  store i8 0, ptr %22, align 1, !tbaa !11
  br label %23

23:                                               ; preds = %21, %19, %3
  %24 = phi ptr [ %0, %21 ], [ null, %3 ], [ null, %19 ]
  ret ptr %24
}

; Function Attrs: noinline nounwind optnone uwtable
define internal ptr @next_word(ptr noundef %0, ptr noundef %1, i32 noundef %2) #0 {
  %4 = alloca ptr, align 4
  %5 = alloca ptr, align 4
  %6 = alloca ptr, align 4
  %7 = alloca i32, align 4
  store ptr %0, ptr %5, align 4
  store ptr %1, ptr %6, align 4
  store i32 %2, ptr %7, align 4
  br label %8

8:                                                ; preds = %22, %3
  %9 = load ptr, ptr %5, align 4
  %10 = load i8, ptr %9, align 1
  %11 = sext i8 %10 to i32
  %12 = icmp ne i32 %11, 0
  br i1 %12, label %13, label %20

13:                                               ; preds = %8
  %14 = load ptr, ptr %5, align 4
  %15 = load i8, ptr %14, align 1
  %16 = zext i8 %15 to i32
  %17 = call i32 @isalnum(i32 noundef %16) #14
  %18 = icmp ne i32 %17, 0
  %19 = xor i1 %18, true
  br label %20

20:                                               ; preds = %13, %8
  %21 = phi i1 [ false, %8 ], [ %19, %13 ]
  br i1 %21, label %22, label %25

22:                                               ; preds = %20
  %23 = load ptr, ptr %5, align 4
  %24 = getelementptr inbounds i8, ptr %23, i32 1
  store ptr %24, ptr %5, align 4
  br label %8, !llvm.loop !15

25:                                               ; preds = %20
  %26 = load ptr, ptr %5, align 4
  %27 = load i8, ptr %26, align 1
  %28 = icmp ne i8 %27, 0
  br i1 %28, label %30, label %29

29:                                               ; preds = %25
  store ptr null, ptr %4, align 4
  br label %55

30:                                               ; preds = %25
  br label %31

31:                                               ; preds = %49, %30
  %32 = load ptr, ptr %5, align 4
  %33 = call i32 @within(ptr noundef %32)
  %34 = icmp ne i32 %33, 0
  br i1 %34, label %35, label %52

35:                                               ; preds = %31
  %36 = load i32, ptr %7, align 4
  %37 = icmp sgt i32 %36, 1
  br i1 %37, label %38, label %48

38:                                               ; preds = %35
  %39 = load ptr, ptr %5, align 4
  %40 = load i8, ptr %39, align 1
  %41 = zext i8 %40 to i32
  %42 = call i32 @tolower(i32 noundef %41) #14
  %43 = trunc i32 %42 to i8
  %44 = load ptr, ptr %6, align 4
  %45 = getelementptr inbounds i8, ptr %44, i32 1
  store ptr %45, ptr %6, align 4
  store i8 %43, ptr %44, align 1
  %46 = load i32, ptr %7, align 4
  %47 = add nsw i32 %46, -1
  store i32 %47, ptr %7, align 4
  br label %48

48:                                               ; preds = %38, %35
  br label %49

49:                                               ; preds = %48
  %50 = load ptr, ptr %5, align 4
  %51 = getelementptr inbounds i8, ptr %50, i32 1
  store ptr %51, ptr %5, align 4
  br label %31, !llvm.loop !16

52:                                               ; preds = %31
  %53 = load ptr, ptr %6, align 4
  store i8 0, ptr %53, align 1
  %54 = load ptr, ptr %5, align 4
  store ptr %54, ptr %4, align 4
  br label %55

55:                                               ; preds = %52, %29
  %56 = load ptr, ptr %4, align 4
  ret ptr %56
}

; Function Attrs: noinline nounwind optnone uwtable
define internal ptr @table_of(ptr noundef %0, ptr noundef %1) #0 {
  %3 = alloca ptr, align 4
  %4 = alloca ptr, align 4
  %5 = alloca i32, align 4
  %6 = alloca ptr, align 4
  store ptr %0, ptr %3, align 4
  store ptr %1, ptr %4, align 4
  %7 = load ptr, ptr %3, align 4
  %8 = getelementptr inbounds %struct.table, ptr %7, i32 0, i32 2
  %9 = load i32, ptr %8, align 4
  %10 = mul i32 4, %9
  %11 = load ptr, ptr %3, align 4
  %12 = getelementptr inbounds %struct.table, ptr %11, i32 0, i32 1
  %13 = load i32, ptr %12, align 4
  %14 = mul i32 3, %13
  %15 = icmp uge i32 %10, %14
  br i1 %15, label %16, label %18

16:                                               ; preds = %2
  %17 = load ptr, ptr %3, align 4
  call void @grow(ptr noundef %17)
  br label %18

18:                                               ; preds = %16, %2
  %19 = load ptr, ptr %4, align 4
  %20 = call i32 @hash_of(ptr noundef %19)
  store i32 %20, ptr %5, align 4
  %21 = load ptr, ptr %3, align 4
  %22 = load ptr, ptr %4, align 4
  %23 = load i32, ptr %5, align 4
  %24 = call ptr @place_of(ptr noundef %21, ptr noundef %22, i32 noundef %23)
  store ptr %24, ptr %6, align 4
  %25 = load ptr, ptr %6, align 4
  %26 = getelementptr inbounds %struct.table, ptr %25, i32 0, i32 0
  %27 = load ptr, ptr %26, align 4
  %28 = icmp ne ptr %27, null
  br i1 %28, label %47, label %29

29:                                               ; preds = %18
  %30 = load ptr, ptr %4, align 4
  %31 = call ptr @strdup(ptr noundef %30) #15
  %32 = load ptr, ptr %6, align 4
  %33 = getelementptr inbounds %struct.table, ptr %32, i32 0, i32 0
  store ptr %31, ptr %33, align 4
  %34 = load ptr, ptr %6, align 4
  %35 = getelementptr inbounds %struct.table, ptr %34, i32 0, i32 0
  %36 = load ptr, ptr %35, align 4
  %37 = icmp ne ptr %36, null
  br i1 %37, label %39, label %38

38:                                               ; preds = %29
  call void @abort() #16
  unreachable

39:                                               ; preds = %29
  %40 = load i32, ptr %5, align 4
  %41 = load ptr, ptr %6, align 4
  %42 = getelementptr inbounds %struct.table, ptr %41, i32 0, i32 1
  store i32 %40, ptr %42, align 4
  %43 = load ptr, ptr %3, align 4
  %44 = getelementptr inbounds %struct.table, ptr %43, i32 0, i32 2
  %45 = load i32, ptr %44, align 4
  %46 = add i32 %45, 1
  store i32 %46, ptr %44, align 4
  br label %47

47:                                               ; preds = %39, %18
  %48 = load ptr, ptr %6, align 4
  ret ptr %48
}

; Function Attrs: nounwind optsize uwtable
define internal i32 @__print_unsigned(ptr nocapture noundef %0, i64 noundef %1, i32 noundef %2, i32 noundef %3, i32 noundef %4, i32 noundef %5) #2 {
  %7 = alloca [24 x i8], align 1
  call void @llvm.lifetime.start.p0(i64 24, ptr nonnull %7) #15
  %8 = and i32 %3, 32
  %9 = icmp eq i32 %8, 0
  %10 = select i1 %9, ptr @.str.9.24, ptr @.str.8.30
  %11 = icmp ult i64 %1, 4294967296
  br i1 %11, label %14, label %12

12:                                               ; preds = %6
  %13 = zext i32 %2 to i64
  br label %27

14:                                               ; preds = %6
  %15 = trunc nuw i64 %1 to i32
  %16 = icmp eq i32 %15, 0
  br i1 %16, label %40, label %17

17:                                               ; preds = %17, %14
  %18 = phi i32 [ %25, %17 ], [ %15, %14 ]
  %19 = phi i32 [ %23, %17 ], [ 24, %14 ]
  %20 = urem i32 %18, %2
  %21 = getelementptr inbounds i8, ptr %10, i32 %20
  %22 = load i8, ptr %21, align 1, !tbaa !11
  %23 = add nsw i32 %19, -1
  %24 = getelementptr inbounds i8, ptr %7, i32 %23
  store i8 %22, ptr %24, align 1, !tbaa !11
  %25 = udiv i32 %18, %2
  %26 = icmp ult i32 %18, %2
  br i1 %26, label %40, label %17, !llvm.loop !17

27:                                               ; preds = %27, %12
  %28 = phi i32 [ 24, %12 ], [ %37, %27 ]
  %29 = phi i64 [ %1, %12 ], [ %31, %27 ]
  %30 = freeze i64 %29
  %31 = udiv i64 %30, %13
  %32 = mul i64 %31, %13
  %33 = sub i64 %30, %32
  %34 = trunc nuw i64 %33 to i32
  %35 = getelementptr inbounds i8, ptr %10, i32 %34
  %36 = load i8, ptr %35, align 1, !tbaa !11
  %37 = add nsw i32 %28, -1
  %38 = getelementptr inbounds i8, ptr %7, i32 %37
  store i8 %36, ptr %38, align 1, !tbaa !11
  %39 = icmp ult i64 %29, %13
  br i1 %39, label %40, label %27, !llvm.loop !18

40:                                               ; preds = %27, %17, %14
  %41 = phi i32 [ 24, %14 ], [ %23, %17 ], [ %37, %27 ]
  %42 = icmp eq i64 %1, 0
  %43 = icmp ne i32 %5, 0
  %44 = and i1 %42, %43
  br i1 %44, label %45, label %48

45:                                               ; preds = %40
  %46 = add nsw i32 %41, -1
  %47 = getelementptr inbounds i8, ptr %7, i32 %46
  store i8 48, ptr %47, align 1, !tbaa !11
  br label %48

48:                                               ; preds = %45, %40
  %49 = phi i32 [ %46, %45 ], [ %41, %40 ]
  %50 = getelementptr inbounds i8, ptr %7, i32 %49
  %51 = and i32 %3, 8
  %52 = icmp ne i32 %51, 0
  %53 = icmp eq i32 %2, 8
  %54 = and i1 %53, %52
  %55 = sub nsw i32 24, %49
  %56 = icmp sge i32 %55, %5
  %57 = select i1 %54, i1 %56, i1 false
  br i1 %57, label %58, label %65

58:                                               ; preds = %48
  %59 = icmp eq i32 %49, 24
  br i1 %59, label %63, label %60

60:                                               ; preds = %58
  %61 = load i8, ptr %50, align 1, !tbaa !11
  %62 = icmp eq i8 %61, 48
  br i1 %62, label %65, label %63

63:                                               ; preds = %60, %58
  %64 = getelementptr inbounds i8, ptr %50, i32 -1
  store i8 48, ptr %64, align 1, !tbaa !11
  br label %65

65:                                               ; preds = %63, %60, %48
  %66 = phi ptr [ %64, %63 ], [ %50, %60 ], [ %50, %48 ]
  %67 = getelementptr inbounds i8, ptr %7, i32 24
  %68 = ptrtoint ptr %67 to i32
  %69 = icmp eq i32 %2, 16
  %70 = icmp ne i64 %1, 0
  %71 = and i1 %70, %69
  %72 = and i1 %71, %52
  %73 = select i1 %9, ptr @.str.6.31, ptr @.str.5.32
  %74 = select i1 %72, ptr %73, ptr @.str.18
  %75 = ptrtoint ptr %66 to i32
  %76 = sub i32 %68, %75
  %77 = call fastcc i32 @number(ptr noundef %0, ptr noundef nonnull %74, ptr noundef nonnull %66, i32 noundef %76, i32 noundef %3, i32 noundef %4, i32 noundef %5) #13
  call void @llvm.lifetime.end.p0(i64 24, ptr nonnull %7) #15
  ret i32 %77
}

; Function Attrs: nounwind optsize uwtable
define internal noundef i32 @__print_text(ptr nocapture noundef %0, ptr nocapture noundef readonly %1, i32 noundef returned %2) #2 {
  %4 = load i8, ptr %0, align 4, !tbaa !19, !alias.scope !23, !noalias !26
  %5 = icmp eq i8 %4, 0
  %6 = icmp eq i32 %2, 0
  %7 = or i1 %6, %5
  br i1 %7, label %16, label %8

8:                                                ; preds = %8, %3
  %9 = phi i32 [ %14, %8 ], [ 0, %3 ]
  %10 = getelementptr inbounds i8, ptr %1, i32 %9
  %11 = load i8, ptr %10, align 1, !tbaa !11, !alias.scope !26, !noalias !23
  %12 = zext i8 %11 to i32
  %13 = tail call i32 @fputc(i32 noundef %12, ptr noundef nonnull %0) #13, !noalias !26
  %14 = add nuw i32 %9, 1
  %15 = icmp eq i32 %14, %2
  br i1 %15, label %16, label %8, !llvm.loop !28

16:                                               ; preds = %8, %3
  ret i32 %2
}

; Function Attrs: noinline nounwind optnone uwtable
define internal void @table_remove(ptr noundef %0, ptr noundef %1) #0 {
  %3 = alloca ptr, align 4
  %4 = alloca ptr, align 4
  %5 = alloca ptr, align 4
  %6 = alloca i32, align 4
  %7 = alloca i32, align 4
  %8 = alloca i32, align 4
  %9 = alloca i32, align 4
  store ptr %0, ptr %3, align 4
  store ptr %1, ptr %4, align 4
  %10 = load ptr, ptr %3, align 4
  %11 = getelementptr inbounds %struct.table, ptr %10, i32 0, i32 1
  %12 = load i32, ptr %11, align 4
  %13 = icmp eq i32 %12, 0
  br i1 %13, label %14, label %15

14:                                               ; preds = %2
  br label %106

15:                                               ; preds = %2
  %16 = load ptr, ptr %3, align 4
  %17 = load ptr, ptr %4, align 4
  %18 = load ptr, ptr %4, align 4
  %19 = call i32 @hash_of(ptr noundef %18)
  %20 = call ptr @place_of(ptr noundef %16, ptr noundef %17, i32 noundef %19)
  store ptr %20, ptr %5, align 4
  %21 = load ptr, ptr %5, align 4
  %22 = getelementptr inbounds %struct.table, ptr %21, i32 0, i32 0
  %23 = load ptr, ptr %22, align 4
  %24 = icmp ne ptr %23, null
  br i1 %24, label %26, label %25

25:                                               ; preds = %15
  br label %106

26:                                               ; preds = %15
  %27 = load ptr, ptr %5, align 4
  %28 = getelementptr inbounds %struct.table, ptr %27, i32 0, i32 0
  %29 = load ptr, ptr %28, align 4
  call void @free(ptr noundef %29)
  %30 = load ptr, ptr %5, align 4
  %31 = getelementptr inbounds %struct.table, ptr %30, i32 0, i32 0
  store ptr null, ptr %31, align 4
  %32 = load ptr, ptr %3, align 4
  %33 = getelementptr inbounds %struct.table, ptr %32, i32 0, i32 2
  %34 = load i32, ptr %33, align 4
  %35 = add i32 %34, -1
  store i32 %35, ptr %33, align 4
  %36 = load ptr, ptr %3, align 4
  %37 = getelementptr inbounds %struct.table, ptr %36, i32 0, i32 1
  %38 = load i32, ptr %37, align 4
  %39 = sub i32 %38, 1
  store i32 %39, ptr %6, align 4
  %40 = load ptr, ptr %5, align 4
  %41 = load ptr, ptr %3, align 4
  %42 = getelementptr inbounds %struct.table, ptr %41, i32 0, i32 0
  %43 = load ptr, ptr %42, align 4
  %44 = ptrtoint ptr %40 to i32
  %45 = ptrtoint ptr %43 to i32
  %46 = sub i32 %44, %45
  %47 = sdiv exact i32 %46, 16
  store i32 %47, ptr %7, align 4
  %48 = load i32, ptr %7, align 4
  %49 = add i32 %48, 1
  %50 = load i32, ptr %6, align 4
  %51 = and i32 %49, %50
  store i32 %51, ptr %8, align 4
  br label %52

52:                                               ; preds = %101, %26
  %53 = load ptr, ptr %3, align 4
  %54 = getelementptr inbounds %struct.table, ptr %53, i32 0, i32 0
  %55 = load ptr, ptr %54, align 4
  %56 = load i32, ptr %8, align 4
  %57 = getelementptr inbounds %struct.table, ptr %55, i32 %56
  %58 = getelementptr inbounds %struct.table, ptr %57, i32 0, i32 0
  %59 = load ptr, ptr %58, align 4
  %60 = icmp ne ptr %59, null
  br i1 %60, label %61, label %106

61:                                               ; preds = %52
  %62 = load ptr, ptr %3, align 4
  %63 = getelementptr inbounds %struct.table, ptr %62, i32 0, i32 0
  %64 = load ptr, ptr %63, align 4
  %65 = load i32, ptr %8, align 4
  %66 = getelementptr inbounds %struct.table, ptr %64, i32 %65
  %67 = getelementptr inbounds %struct.table, ptr %66, i32 0, i32 1
  %68 = load i32, ptr %67, align 4
  %69 = load i32, ptr %6, align 4
  %70 = and i32 %68, %69
  store i32 %70, ptr %9, align 4
  %71 = load i32, ptr %8, align 4
  %72 = load i32, ptr %9, align 4
  %73 = sub i32 %71, %72
  %74 = load i32, ptr %6, align 4
  %75 = and i32 %73, %74
  %76 = load i32, ptr %8, align 4
  %77 = load i32, ptr %7, align 4
  %78 = sub i32 %76, %77
  %79 = load i32, ptr %6, align 4
  %80 = and i32 %78, %79
  %81 = icmp ult i32 %75, %80
  br i1 %81, label %82, label %83

82:                                               ; preds = %61
  br label %101

83:                                               ; preds = %61
  %84 = load ptr, ptr %3, align 4
  %85 = getelementptr inbounds %struct.table, ptr %84, i32 0, i32 0
  %86 = load ptr, ptr %85, align 4
  %87 = load i32, ptr %7, align 4
  %88 = getelementptr inbounds %struct.table, ptr %86, i32 %87
  %89 = load ptr, ptr %3, align 4
  %90 = getelementptr inbounds %struct.table, ptr %89, i32 0, i32 0
  %91 = load ptr, ptr %90, align 4
  %92 = load i32, ptr %8, align 4
  %93 = getelementptr inbounds %struct.table, ptr %91, i32 %92
  call void @llvm.memcpy.p0.p0.i32(ptr align 4 %88, ptr align 4 %93, i32 16, i1 false)
  %94 = load ptr, ptr %3, align 4
  %95 = getelementptr inbounds %struct.table, ptr %94, i32 0, i32 0
  %96 = load ptr, ptr %95, align 4
  %97 = load i32, ptr %8, align 4
  %98 = getelementptr inbounds %struct.table, ptr %96, i32 %97
  %99 = getelementptr inbounds %struct.table, ptr %98, i32 0, i32 0
  store ptr null, ptr %99, align 4
  %100 = load i32, ptr %8, align 4
  store i32 %100, ptr %7, align 4
  br label %101

101:                                              ; preds = %83, %82
  %102 = load i32, ptr %8, align 4
  %103 = add i32 %102, 1
  %104 = load i32, ptr %6, align 4
  %105 = and i32 %103, %104
  store i32 %105, ptr %8, align 4
  br label %52, !llvm.loop !29

106:                                              ; preds = %52, %25, %14
  ret void
}

; Function Attrs: noinline nounwind optnone uwtable
define internal ptr @listed(ptr noundef %0) #0 {
  %2 = alloca ptr, align 4
  %3 = alloca ptr, align 4
  %4 = alloca i32, align 4
  %5 = alloca i32, align 4
  store ptr %0, ptr %2, align 4
  %6 = load ptr, ptr %2, align 4
  %7 = getelementptr inbounds %struct.table, ptr %6, i32 0, i32 2
  %8 = load i32, ptr %7, align 4
  %9 = mul i32 %8, 4
  %10 = call ptr @malloc(i32 noundef %9) #17
  store ptr %10, ptr %3, align 4
  store i32 0, ptr %4, align 4
  %11 = load ptr, ptr %3, align 4
  %12 = icmp ne ptr %11, null
  br i1 %12, label %14, label %13

13:                                               ; preds = %1
  call void @abort() #16
  unreachable

14:                                               ; preds = %1
  store i32 0, ptr %5, align 4
  br label %15

15:                                               ; preds = %41, %14
  %16 = load i32, ptr %5, align 4
  %17 = load ptr, ptr %2, align 4
  %18 = getelementptr inbounds %struct.table, ptr %17, i32 0, i32 1
  %19 = load i32, ptr %18, align 4
  %20 = icmp ult i32 %16, %19
  br i1 %20, label %21, label %44

21:                                               ; preds = %15
  %22 = load ptr, ptr %2, align 4
  %23 = getelementptr inbounds %struct.table, ptr %22, i32 0, i32 0
  %24 = load ptr, ptr %23, align 4
  %25 = load i32, ptr %5, align 4
  %26 = getelementptr inbounds %struct.table, ptr %24, i32 %25
  %27 = getelementptr inbounds %struct.table, ptr %26, i32 0, i32 0
  %28 = load ptr, ptr %27, align 4
  %29 = icmp ne ptr %28, null
  br i1 %29, label %30, label %40

30:                                               ; preds = %21
  %31 = load ptr, ptr %2, align 4
  %32 = getelementptr inbounds %struct.table, ptr %31, i32 0, i32 0
  %33 = load ptr, ptr %32, align 4
  %34 = load i32, ptr %5, align 4
  %35 = getelementptr inbounds %struct.table, ptr %33, i32 %34
  %36 = load ptr, ptr %3, align 4
  %37 = load i32, ptr %4, align 4
  %38 = add i32 %37, 1
  store i32 %38, ptr %4, align 4
  %39 = getelementptr inbounds ptr, ptr %36, i32 %37
  store ptr %35, ptr %39, align 4
  br label %40

40:                                               ; preds = %30, %21
  br label %41

41:                                               ; preds = %40
  %42 = load i32, ptr %5, align 4
  %43 = add i32 %42, 1
  store i32 %43, ptr %5, align 4
  br label %15, !llvm.loop !30

44:                                               ; preds = %15
  %45 = load ptr, ptr %3, align 4
  ret ptr %45
}

; Function Attrs: noinline nounwind optnone uwtable
define internal i32 @by_count(ptr noundef %0, ptr noundef %1) #0 {
  %3 = alloca i32, align 4
  %4 = alloca ptr, align 4
  %5 = alloca ptr, align 4
  %6 = alloca ptr, align 4
  %7 = alloca ptr, align 4
  store ptr %0, ptr %4, align 4
  store ptr %1, ptr %5, align 4
  %8 = load ptr, ptr %4, align 4
  %9 = load ptr, ptr %8, align 4
  store ptr %9, ptr %6, align 4
  %10 = load ptr, ptr %5, align 4
  %11 = load ptr, ptr %10, align 4
  store ptr %11, ptr %7, align 4
  %12 = load ptr, ptr %6, align 4
  %13 = getelementptr inbounds %struct.table, ptr %12, i32 0, i32 2
  %14 = load i32, ptr %13, align 4
  %15 = load ptr, ptr %7, align 4
  %16 = getelementptr inbounds %struct.table, ptr %15, i32 0, i32 2
  %17 = load i32, ptr %16, align 4
  %18 = icmp ne i32 %14, %17
  br i1 %18, label %19, label %29

19:                                               ; preds = %2
  %20 = load ptr, ptr %6, align 4
  %21 = getelementptr inbounds %struct.table, ptr %20, i32 0, i32 2
  %22 = load i32, ptr %21, align 4
  %23 = load ptr, ptr %7, align 4
  %24 = getelementptr inbounds %struct.table, ptr %23, i32 0, i32 2
  %25 = load i32, ptr %24, align 4
  %26 = icmp ult i32 %22, %25
  %27 = zext i1 %26 to i64
  %28 = select i1 %26, i32 1, i32 -1
  store i32 %28, ptr %3, align 4
  br label %37

29:                                               ; preds = %2
  %30 = load ptr, ptr %6, align 4
  %31 = getelementptr inbounds %struct.table, ptr %30, i32 0, i32 0
  %32 = load ptr, ptr %31, align 4
  %33 = load ptr, ptr %7, align 4
  %34 = getelementptr inbounds %struct.table, ptr %33, i32 0, i32 0
  %35 = load ptr, ptr %34, align 4
  %36 = call i32 @strcmp(ptr noundef %32, ptr noundef %35) #15
  store i32 %36, ptr %3, align 4
  br label %37

37:                                               ; preds = %29, %19
  %38 = load i32, ptr %3, align 4
  ret i32 %38
}

; Function Attrs: nounwind optsize uwtable
define internal void @qsort(ptr noundef %0, i32 noundef %1, i32 noundef %2, ptr noundef %3) #2 {
  %5 = icmp ult i32 %1, 2
  %6 = icmp eq i32 %2, 0
  %7 = or i1 %5, %6
  br i1 %7, label %35, label %8

8:                                                ; preds = %4
  %9 = lshr i32 %1, 1
  %10 = mul i32 %9, %2
  %11 = tail call ptr @malloc(i32 noundef %10) #18
  %12 = icmp eq ptr %11, null
  br i1 %12, label %13, label %34

13:                                               ; preds = %13, %8
  %14 = phi i32 [ %15, %13 ], [ %9, %8 ]
  %15 = add nsw i32 %14, -1
  tail call fastcc void @sink(ptr noundef %0, i32 noundef %15, i32 noundef %1, i32 noundef %2, ptr noundef readonly %3) #13
  %16 = icmp eq i32 %15, 0
  br i1 %16, label %17, label %13, !llvm.loop !31

17:                                               ; preds = %32, %13
  %18 = phi i32 [ %19, %32 ], [ %1, %13 ]
  %19 = add i32 %18, -1
  %20 = mul i32 %19, %2
  %21 = getelementptr inbounds i8, ptr %0, i32 %20
  br label %22

22:                                               ; preds = %22, %17
  %23 = phi ptr [ %29, %22 ], [ %0, %17 ]
  %24 = phi i32 [ %26, %22 ], [ %2, %17 ]
  %25 = phi ptr [ %30, %22 ], [ %21, %17 ]
  %26 = add i32 %24, -1
  %27 = load i8, ptr %23, align 1, !tbaa !11
  %28 = load i8, ptr %25, align 1, !tbaa !11
  %29 = getelementptr inbounds i8, ptr %23, i32 1
  store i8 %28, ptr %23, align 1, !tbaa !11
  %30 = getelementptr inbounds i8, ptr %25, i32 1
  store i8 %27, ptr %25, align 1, !tbaa !11
  %31 = icmp eq i32 %26, 0
  br i1 %31, label %32, label %22, !llvm.loop !32

32:                                               ; preds = %22
  tail call fastcc void @sink(ptr noundef %0, i32 noundef 0, i32 noundef %19, i32 noundef %2, ptr noundef readonly %3) #13
  %33 = icmp ugt i32 %19, 1
  br i1 %33, label %17, label %35, !llvm.loop !33

34:                                               ; preds = %8
  tail call fastcc void @merge_sort(ptr noundef %0, i32 noundef %1, i32 noundef %2, ptr noundef %3, ptr noundef nonnull %11) #13
  tail call void @free(ptr noundef nonnull %11) #18
  br label %35

35:                                               ; preds = %34, %32, %4
  ret void
}

; Function Attrs: noinline nounwind optnone uwtable
define internal void @show(ptr noundef %0, i32 noundef %1) #0 {
  %3 = alloca ptr, align 4
  %4 = alloca i32, align 4
  %5 = alloca i32, align 4
  store ptr %0, ptr %3, align 4
  store i32 %1, ptr %4, align 4
  store i32 0, ptr %5, align 4
  br label %6

6:                                                ; preds = %48, %2
  %7 = load i32, ptr %5, align 4
  %8 = load i32, ptr %4, align 4
  %9 = icmp ult i32 %7, %8
  br i1 %9, label %10, label %13

10:                                               ; preds = %6
  %11 = load i32, ptr %5, align 4
  %12 = icmp ult i32 %11, 15
  br label %13

13:                                               ; preds = %10, %6
  %14 = phi i1 [ false, %6 ], [ %12, %10 ]
  br i1 %14, label %15, label %51

15:                                               ; preds = %13
  %16 = load ptr, ptr %3, align 4
  %17 = load i32, ptr %5, align 4
  %18 = getelementptr inbounds ptr, ptr %16, i32 %17
  %19 = load ptr, ptr %18, align 4
  %20 = getelementptr inbounds %struct.table, ptr %19, i32 0, i32 2
  %21 = load i32, ptr %20, align 4
  %22 = load ptr, ptr %3, align 4
  %23 = load i32, ptr %5, align 4
  %24 = getelementptr inbounds ptr, ptr %22, i32 %23
  %25 = load ptr, ptr %24, align 4
  %26 = getelementptr inbounds %struct.table, ptr %25, i32 0, i32 0
  %27 = load ptr, ptr %26, align 4
  %28 = load ptr, ptr %3, align 4
  %29 = load i32, ptr %5, align 4
  %30 = getelementptr inbounds ptr, ptr %28, i32 %29
  %31 = load ptr, ptr %30, align 4
  %32 = getelementptr inbounds %struct.table, ptr %31, i32 0, i32 3
  %33 = load i32, ptr %32, align 4
  %34 = zext i32 %21 to i64
  %35 = call i32 @__print_unsigned(ptr getelementptr inbounds ([3 x { i8, i8, i8, i8, ptr, i32 }], ptr @__streams, i32 0, i32 1), i64 %34, i32 10, i32 0, i32 4, i32 -1)
  %36 = call i32 @__print_text(ptr getelementptr inbounds ([3 x { i8, i8, i8, i8, ptr, i32 }], ptr @__streams, i32 0, i32 1), ptr getelementptr inbounds (i8, ptr @.str.15, i32 3), i32 2)
  %37 = call i32 @__print_string(ptr getelementptr inbounds ([3 x { i8, i8, i8, i8, ptr, i32 }], ptr @__streams, i32 0, i32 1), ptr %27, i32 1, i32 14, i32 14)
  %38 = call i32 @__print_text(ptr getelementptr inbounds ([3 x { i8, i8, i8, i8, ptr, i32 }], ptr @__streams, i32 0, i32 1), ptr getelementptr inbounds (i8, ptr @.str.15, i32 13), i32 15)
  %39 = zext i32 %33 to i64
  %40 = call i32 @__print_unsigned(ptr getelementptr inbounds ([3 x { i8, i8, i8, i8, ptr, i32 }], ptr @__streams, i32 0, i32 1), i64 %39, i32 10, i32 0, i32 0, i32 -1)
  %41 = call i32 @__print_text(ptr getelementptr inbounds ([3 x { i8, i8, i8, i8, ptr, i32 }], ptr @__streams, i32 0, i32 1), ptr getelementptr inbounds (i8, ptr @.str.15, i32 30), i32 1)
  %42 = add i32 %35, %36
  %43 = add i32 %42, %37
  %44 = add i32 %43, %38
  %45 = add i32 %44, %40
  %46 = add i32 %45, %41
  %47 = add i32 %46, 0
  br label %48

48:                                               ; preds = %15
  %49 = load i32, ptr %5, align 4
  %50 = add i32 %49, 1
  store i32 %50, ptr %5, align 4
  br label %6, !llvm.loop !34

51:                                               ; preds = %13
  ret void
}

; Function Attrs: noinline nounwind optnone uwtable
define internal void @histogram(ptr noundef %0, i32 noundef %1) #0 {
  %3 = alloca ptr, align 4
  %4 = alloca i32, align 4
  %5 = alloca [12 x i32], align 4
  %6 = alloca i32, align 4
  %7 = alloca i32, align 4
  %8 = alloca i32, align 4
  %9 = alloca i32, align 4
  store ptr %0, ptr %3, align 4
  store i32 %1, ptr %4, align 4
  call void @llvm.memset.p0.i32(ptr align 4 %5, i8 0, i32 48, i1 false)
  store i32 0, ptr %6, align 4
  br label %10

10:                                               ; preds = %38, %2
  %11 = load i32, ptr %6, align 4
  %12 = load i32, ptr %4, align 4
  %13 = icmp ult i32 %11, %12
  br i1 %13, label %14, label %41

14:                                               ; preds = %10
  %15 = load ptr, ptr %3, align 4
  %16 = load i32, ptr %6, align 4
  %17 = getelementptr inbounds ptr, ptr %15, i32 %16
  %18 = load ptr, ptr %17, align 4
  %19 = getelementptr inbounds %struct.table, ptr %18, i32 0, i32 0
  %20 = load ptr, ptr %19, align 4
  %21 = call i32 @strlen(ptr noundef %20) #15
  store i32 %21, ptr %7, align 4
  %22 = load ptr, ptr %3, align 4
  %23 = load i32, ptr %6, align 4
  %24 = getelementptr inbounds ptr, ptr %22, i32 %23
  %25 = load ptr, ptr %24, align 4
  %26 = getelementptr inbounds %struct.table, ptr %25, i32 0, i32 2
  %27 = load i32, ptr %26, align 4
  %28 = load i32, ptr %7, align 4
  %29 = icmp ult i32 %28, 12
  br i1 %29, label %30, label %32

30:                                               ; preds = %14
  %31 = load i32, ptr %7, align 4
  br label %33

32:                                               ; preds = %14
  br label %33

33:                                               ; preds = %32, %30
  %34 = phi i32 [ %31, %30 ], [ 11, %32 ]
  %35 = getelementptr inbounds [12 x i32], ptr %5, i32 0, i32 %34
  %36 = load i32, ptr %35, align 4
  %37 = add i32 %36, %27
  store i32 %37, ptr %35, align 4
  br label %38

38:                                               ; preds = %33
  %39 = load i32, ptr %6, align 4
  %40 = add i32 %39, 1
  store i32 %40, ptr %6, align 4
  br label %10, !llvm.loop !35

41:                                               ; preds = %10
  store i32 1, ptr %8, align 4
  br label %42

42:                                               ; preds = %80, %41
  %43 = load i32, ptr %8, align 4
  %44 = icmp slt i32 %43, 12
  br i1 %44, label %45, label %83

45:                                               ; preds = %42
  %46 = load i32, ptr %8, align 4
  %47 = load i32, ptr %8, align 4
  %48 = icmp eq i32 %47, 11
  %49 = zext i1 %48 to i64
  %50 = select i1 %48, i32 43, i32 32
  %51 = sext i32 %46 to i64
  %52 = call i32 @__print_signed(ptr getelementptr inbounds ([3 x { i8, i8, i8, i8, ptr, i32 }], ptr @__streams, i32 0, i32 1), i64 %51, i32 0, i32 2, i32 -1)
  %53 = call i32 @__print_character(ptr getelementptr inbounds ([3 x { i8, i8, i8, i8, ptr, i32 }], ptr @__streams, i32 0, i32 1), i32 %50, i32 0, i32 0)
  %54 = call i32 @__print_text(ptr getelementptr inbounds ([3 x { i8, i8, i8, i8, ptr, i32 }], ptr @__streams, i32 0, i32 1), ptr getelementptr inbounds (i8, ptr @.str.16, i32 5), i32 1)
  %55 = add i32 %52, %53
  %56 = add i32 %55, %54
  %57 = add i32 %56, 0
  store i32 0, ptr %9, align 4
  br label %58

58:                                               ; preds = %66, %45
  %59 = load i32, ptr %9, align 4
  %60 = load i32, ptr %8, align 4
  %61 = getelementptr inbounds [12 x i32], ptr %5, i32 0, i32 %60
  %62 = load i32, ptr %61, align 4
  %63 = icmp ult i32 %59, %62
  br i1 %63, label %64, label %69

64:                                               ; preds = %58
  %65 = call i32 @putchar(i32 noundef 42)
  br label %66

66:                                               ; preds = %64
  %67 = load i32, ptr %9, align 4
  %68 = add i32 %67, 4
  store i32 %68, ptr %9, align 4
  br label %58, !llvm.loop !36

69:                                               ; preds = %58
  %70 = load i32, ptr %8, align 4
  %71 = getelementptr inbounds [12 x i32], ptr %5, i32 0, i32 %70
  %72 = load i32, ptr %71, align 4
  %73 = call i32 @__print_text(ptr getelementptr inbounds ([3 x { i8, i8, i8, i8, ptr, i32 }], ptr @__streams, i32 0, i32 1), ptr @.str.17, i32 1)
  %74 = zext i32 %72 to i64
  %75 = call i32 @__print_unsigned(ptr getelementptr inbounds ([3 x { i8, i8, i8, i8, ptr, i32 }], ptr @__streams, i32 0, i32 1), i64 %74, i32 10, i32 0, i32 0, i32 -1)
  %76 = call i32 @__print_text(ptr getelementptr inbounds ([3 x { i8, i8, i8, i8, ptr, i32 }], ptr @__streams, i32 0, i32 1), ptr getelementptr inbounds (i8, ptr @.str.17, i32 3), i32 1)
  %77 = add i32 %73, %75
  %78 = add i32 %77, %76
  %79 = add i32 %78, 0
  br label %80

80:                                               ; preds = %69
  %81 = load i32, ptr %8, align 4
  %82 = add nsw i32 %81, 1
  store i32 %82, ptr %8, align 4
  br label %42, !llvm.loop !37

83:                                               ; preds = %42
  ret void
}

; Function Attrs: noinline nounwind optnone uwtable
define internal i32 @by_alphabet(ptr noundef %0, ptr noundef %1) #0 {
  %3 = alloca ptr, align 4
  %4 = alloca ptr, align 4
  store ptr %0, ptr %3, align 4
  store ptr %1, ptr %4, align 4
  %5 = load ptr, ptr %3, align 4
  %6 = load ptr, ptr %5, align 4
  %7 = getelementptr inbounds %struct.table, ptr %6, i32 0, i32 0
  %8 = load ptr, ptr %7, align 4
  %9 = load ptr, ptr %4, align 4
  %10 = load ptr, ptr %9, align 4
  %11 = getelementptr inbounds %struct.table, ptr %10, i32 0, i32 0
  %12 = load ptr, ptr %11, align 4
  %13 = call i32 @strcmp(ptr noundef %8, ptr noundef %12) #15
  ret i32 %13
}

; Function Attrs: noinline nounwind optnone uwtable
define internal i32 @by_word(ptr noundef %0, ptr noundef %1) #0 {
  %3 = alloca ptr, align 4
  %4 = alloca ptr, align 4
  store ptr %0, ptr %3, align 4
  store ptr %1, ptr %4, align 4
  %5 = load ptr, ptr %3, align 4
  %6 = load ptr, ptr %4, align 4
  %7 = load ptr, ptr %6, align 4
  %8 = getelementptr inbounds %struct.table, ptr %7, i32 0, i32 0
  %9 = load ptr, ptr %8, align 4
  %10 = call i32 @strcmp(ptr noundef %5, ptr noundef %9) #15
  ret i32 %10
}

; Function Attrs: nounwind optsize uwtable
define internal noundef ptr @bsearch(ptr noundef %0, ptr noundef %1, i32 noundef %2, i32 noundef %3, ptr nocapture noundef readonly %4) #2 {
  br label %6

6:                                                ; preds = %10, %5
  %7 = phi i32 [ %2, %5 ], [ %19, %10 ]
  %8 = phi i32 [ 0, %5 ], [ %20, %10 ]
  %9 = icmp ult i32 %8, %7
  br i1 %9, label %10, label %21

10:                                               ; preds = %6
  %11 = add i32 %8, %7
  %12 = lshr i32 %11, 1
  %13 = mul i32 %12, %3
  %14 = getelementptr inbounds i8, ptr %1, i32 %13
  %15 = tail call i32 %4(ptr noundef %0, ptr noundef %14) #18
  %16 = icmp eq i32 %15, 0
  %17 = icmp slt i32 %15, 0
  %18 = add nuw i32 %12, 1
  %19 = select i1 %17, i32 %12, i32 %7
  %20 = select i1 %17, i32 %8, i32 %18
  br i1 %16, label %21, label %6, !llvm.loop !38

21:                                               ; preds = %10, %6
  %22 = phi ptr [ %14, %10 ], [ null, %6 ]
  ret ptr %22
}

; Function Attrs: nounwind optsize uwtable
define internal i32 @__print_string(ptr nocapture noundef %0, ptr noundef %1, i32 noundef %2, i32 noundef %3, i32 noundef %4) #2 {
  %6 = icmp eq ptr %1, null
  %7 = icmp ult i32 %4, 6
  %8 = select i1 %7, ptr @.str.18, ptr @.str.1.19
  %9 = select i1 %6, ptr %8, ptr %1
  %10 = icmp slt i32 %4, 0
  br i1 %10, label %11, label %20

11:                                               ; preds = %11, %5
  %12 = phi ptr [ %15, %11 ], [ %9, %5 ]
  %13 = load i8, ptr %12, align 1, !tbaa !11
  %14 = icmp eq i8 %13, 0
  %15 = getelementptr inbounds i8, ptr %12, i32 1
  br i1 %14, label %16, label %11, !llvm.loop !39

16:                                               ; preds = %11
  %17 = ptrtoint ptr %12 to i32
  %18 = ptrtoint ptr %9 to i32
  %19 = sub i32 %17, %18
  br label %30

20:                                               ; preds = %5
  %21 = icmp eq i32 %4, 0
  br i1 %21, label %30, label %22

22:                                               ; preds = %27, %20
  %23 = phi i32 [ %28, %27 ], [ 0, %20 ]
  %24 = getelementptr inbounds i8, ptr %9, i32 %23
  %25 = load i8, ptr %24, align 1, !tbaa !11
  %26 = icmp eq i8 %25, 0
  br i1 %26, label %30, label %27

27:                                               ; preds = %22
  %28 = add nuw nsw i32 %23, 1
  %29 = icmp eq i32 %28, %4
  br i1 %29, label %30, label %22, !llvm.loop !40

30:                                               ; preds = %27, %22, %20, %16
  %31 = phi i32 [ %19, %16 ], [ 0, %20 ], [ %23, %22 ], [ %4, %27 ]
  %32 = tail call fastcc i32 @padded(ptr noundef %0, ptr noundef nonnull %9, i32 noundef %31, i32 noundef %2, i32 noundef %3) #13
  ret i32 %32
}

declare dso_local void @free(ptr noundef) #3

; Function Attrs: noinline nounwind optnone uwtable
define internal void @table_free(ptr noundef %0) #0 {
  %2 = alloca ptr, align 4
  %3 = alloca i32, align 4
  store ptr %0, ptr %2, align 4
  store i32 0, ptr %3, align 4
  br label %4

4:                                                ; preds = %18, %1
  %5 = load i32, ptr %3, align 4
  %6 = load ptr, ptr %2, align 4
  %7 = getelementptr inbounds %struct.table, ptr %6, i32 0, i32 1
  %8 = load i32, ptr %7, align 4
  %9 = icmp ult i32 %5, %8
  br i1 %9, label %10, label %21

10:                                               ; preds = %4
  %11 = load ptr, ptr %2, align 4
  %12 = getelementptr inbounds %struct.table, ptr %11, i32 0, i32 0
  %13 = load ptr, ptr %12, align 4
  %14 = load i32, ptr %3, align 4
  %15 = getelementptr inbounds %struct.table, ptr %13, i32 %14
  %16 = getelementptr inbounds %struct.table, ptr %15, i32 0, i32 0
  %17 = load ptr, ptr %16, align 4
  call void @free(ptr noundef %17)
  br label %18

18:                                               ; preds = %10
  %19 = load i32, ptr %3, align 4
  %20 = add i32 %19, 1
  store i32 %20, ptr %3, align 4
  br label %4, !llvm.loop !41

21:                                               ; preds = %4
  %22 = load ptr, ptr %2, align 4
  %23 = getelementptr inbounds %struct.table, ptr %22, i32 0, i32 0
  %24 = load ptr, ptr %23, align 4
  call void @free(ptr noundef %24)
  %25 = load ptr, ptr %2, align 4
  call void @llvm.memset.p0.i32(ptr align 4 %25, i8 0, i32 16, i1 false)
  ret void
}

; Function Attrs: nounwind optsize uwtable
define internal fastcc i32 @padded(ptr nocapture noundef %0, ptr nocapture noundef readonly %1, i32 noundef %2, i32 noundef %3, i32 noundef %4) unnamed_addr #2 {
  %6 = icmp slt i32 %4, 0
  %7 = lshr i32 %4, 31
  %8 = icmp ne i32 %7, 0
  %9 = sub i32 0, %4
  %10 = select i1 %8, i32 %9, i32 %4
  %11 = sub nsw i32 %10, %2
  %12 = and i32 %3, 1
  %13 = icmp ne i32 %12, 0
  %14 = or i1 %6, %13
  br i1 %14, label %24, label %15

15:                                               ; preds = %5
  %16 = icmp sgt i32 %11, 0
  br i1 %16, label %17, label %22

17:                                               ; preds = %17, %15
  %18 = phi i32 [ %20, %17 ], [ 0, %15 ]
  %19 = tail call i32 @fputc(i32 noundef 32, ptr noundef %0) #13
  %20 = add nuw nsw i32 %18, 1
  %21 = icmp eq i32 %20, %11
  br i1 %21, label %22, label %17, !llvm.loop !42

22:                                               ; preds = %17, %15
  %23 = tail call noundef i32 @llvm.smax.i32(i32 %11, i32 0)
  br label %24

24:                                               ; preds = %22, %5
  %25 = phi i32 [ %23, %22 ], [ 0, %5 ]
  %26 = load i8, ptr %0, align 4, !tbaa !19, !alias.scope !43, !noalias !46
  %27 = icmp eq i8 %26, 0
  %28 = icmp eq i32 %2, 0
  %29 = or i1 %28, %27
  br i1 %29, label %38, label %30

30:                                               ; preds = %30, %24
  %31 = phi i32 [ %36, %30 ], [ 0, %24 ]
  %32 = getelementptr inbounds i8, ptr %1, i32 %31
  %33 = load i8, ptr %32, align 1, !tbaa !11, !alias.scope !46, !noalias !43
  %34 = zext i8 %33 to i32
  %35 = tail call i32 @fputc(i32 noundef %34, ptr noundef nonnull %0) #13, !noalias !46
  %36 = add nuw i32 %31, 1
  %37 = icmp eq i32 %36, %2
  br i1 %37, label %38, label %30, !llvm.loop !28

38:                                               ; preds = %30, %24
  br i1 %14, label %39, label %48

39:                                               ; preds = %38
  %40 = icmp sgt i32 %11, 0
  br i1 %40, label %41, label %46

41:                                               ; preds = %41, %39
  %42 = phi i32 [ %44, %41 ], [ 0, %39 ]
  %43 = tail call i32 @fputc(i32 noundef 32, ptr noundef nonnull %0) #13
  %44 = add nuw nsw i32 %42, 1
  %45 = icmp eq i32 %44, %11
  br i1 %45, label %46, label %41, !llvm.loop !42

46:                                               ; preds = %41, %39
  %47 = tail call noundef i32 @llvm.smax.i32(i32 %11, i32 0)
  br label %48

48:                                               ; preds = %46, %38
  %49 = phi i32 [ %47, %46 ], [ 0, %38 ]
  %50 = add nsw i32 %25, %2
  %51 = add nsw i32 %50, %49
  ret i32 %51
}

; Function Attrs: nounwind optsize uwtable
define internal range(i32 -1, 256) i32 @fputc(i32 noundef %0, ptr nocapture noundef %1) local_unnamed_addr #2 {
  %3 = load i8, ptr %1, align 4, !tbaa !19
  switch i8 %3, label %17 [
    i8 1, label %4
    i8 3, label %6
    i8 0, label %19
  ]

4:                                                ; preds = %2
  %5 = tail call i32 @putchar(i32 noundef %0) #18
  br label %17

6:                                                ; preds = %2
  %7 = getelementptr inbounds i8, ptr %1, i32 8
  %8 = load i32, ptr %7, align 4, !tbaa !48
  %9 = icmp eq i32 %8, 0
  br i1 %9, label %17, label %10

10:                                               ; preds = %6
  %11 = trunc i32 %0 to i8
  %12 = getelementptr inbounds i8, ptr %1, i32 4
  %13 = load ptr, ptr %12, align 4, !tbaa !49
  %14 = getelementptr inbounds i8, ptr %13, i32 1
  store ptr %14, ptr %12, align 4, !tbaa !49
  store i8 %11, ptr %13, align 1, !tbaa !11
  %15 = load i32, ptr %7, align 4, !tbaa !48
  %16 = add i32 %15, -1
  store i32 %16, ptr %7, align 4, !tbaa !48
  br label %17

17:                                               ; preds = %10, %6, %4, %2
  %18 = and i32 %0, 255
  br label %19

19:                                               ; preds = %17, %2
  %20 = phi i32 [ %18, %17 ], [ -1, %2 ]
  ret i32 %20
}

; Function Attrs: nocallback nofree nosync nounwind speculatable willreturn memory(none)
declare i32 @llvm.smax.i32(i32, i32) #4

declare dso_local i32 @putchar(i32 noundef) #3

; Function Attrs: nofree norecurse nosync nounwind optsize memory(read, inaccessiblemem: none) uwtable
define internal range(i32 -1, 2) i32 @strcmp(ptr nocapture noundef readonly %0, ptr nocapture noundef readonly %1) #5 {
  %3 = load i8, ptr %0, align 1, !tbaa !11
  %4 = icmp eq i8 %3, 0
  br i1 %4, label %16, label %5

5:                                                ; preds = %11, %2
  %6 = phi i8 [ %14, %11 ], [ %3, %2 ]
  %7 = phi ptr [ %13, %11 ], [ %1, %2 ]
  %8 = phi ptr [ %12, %11 ], [ %0, %2 ]
  %9 = load i8, ptr %7, align 1, !tbaa !11
  %10 = icmp eq i8 %6, %9
  br i1 %10, label %11, label %16

11:                                               ; preds = %5
  %12 = getelementptr inbounds i8, ptr %8, i32 1
  %13 = getelementptr inbounds i8, ptr %7, i32 1
  %14 = load i8, ptr %12, align 1, !tbaa !11
  %15 = icmp eq i8 %14, 0
  br i1 %15, label %16, label %5, !llvm.loop !50

16:                                               ; preds = %11, %5, %2
  %17 = phi ptr [ %1, %2 ], [ %13, %11 ], [ %7, %5 ]
  %18 = phi i8 [ 0, %2 ], [ 0, %11 ], [ %6, %5 ]
  %19 = load i8, ptr %17, align 1, !tbaa !11
  %20 = icmp ult i8 %18, %19
  %21 = icmp ugt i8 %18, %19
  %22 = zext i1 %21 to i32
  %23 = select i1 %20, i32 -1, i32 %22
  ret i32 %23
}

; Function Attrs: nofree norecurse nosync nounwind optsize memory(read, inaccessiblemem: none) uwtable
define internal noundef i32 @strlen(ptr noundef %0) #5 {
  br label %2

2:                                                ; preds = %2, %1
  %3 = phi ptr [ %0, %1 ], [ %6, %2 ]
  %4 = load i8, ptr %3, align 1, !tbaa !11
  %5 = icmp eq i8 %4, 0
  %6 = getelementptr inbounds i8, ptr %3, i32 1
  br i1 %5, label %7, label %2, !llvm.loop !39

7:                                                ; preds = %2
  %8 = ptrtoint ptr %3 to i32
  %9 = ptrtoint ptr %0 to i32
  %10 = sub i32 %8, %9
  ret i32 %10
}

; Function Attrs: nounwind optsize uwtable
define internal i32 @__print_signed(ptr nocapture noundef %0, i64 noundef %1, i32 noundef %2, i32 noundef %3, i32 noundef %4) #2 {
  %6 = alloca [24 x i8], align 1
  call void @llvm.lifetime.start.p0(i64 24, ptr nonnull %6) #15
  %7 = getelementptr inbounds i8, ptr %6, i32 24
  %8 = icmp slt i64 %1, 0
  %9 = lshr i64 %1, 63
  %10 = icmp ne i64 %9, 0
  %11 = sub i64 0, %1
  %12 = select i1 %10, i64 %11, i64 %1
  %13 = icmp ult i64 %12, 4294967296
  br i1 %13, label %14, label %26

14:                                               ; preds = %5
  %15 = trunc nuw i64 %12 to i32
  %16 = icmp eq i32 %15, 0
  br i1 %16, label %38, label %17

17:                                               ; preds = %17, %14
  %18 = phi i32 [ %24, %17 ], [ %15, %14 ]
  %19 = phi ptr [ %23, %17 ], [ %7, %14 ]
  %20 = urem i32 %18, 10
  %21 = getelementptr inbounds i8, ptr @.str.9.24, i32 %20
  %22 = load i8, ptr %21, align 1, !tbaa !11
  %23 = getelementptr inbounds i8, ptr %19, i32 -1
  store i8 %22, ptr %23, align 1, !tbaa !11
  %24 = udiv i32 %18, 10
  %25 = icmp ult i32 %18, 10
  br i1 %25, label %38, label %17, !llvm.loop !17

26:                                               ; preds = %26, %5
  %27 = phi ptr [ %36, %26 ], [ %7, %5 ]
  %28 = phi i64 [ %30, %26 ], [ %12, %5 ]
  %29 = freeze i64 %28
  %30 = udiv i64 %29, 10
  %31 = mul i64 %30, 10
  %32 = sub i64 %29, %31
  %33 = trunc nuw nsw i64 %32 to i32
  %34 = getelementptr inbounds i8, ptr @.str.9.24, i32 %33
  %35 = load i8, ptr %34, align 1, !tbaa !11
  %36 = getelementptr inbounds i8, ptr %27, i32 -1
  store i8 %35, ptr %36, align 1, !tbaa !11
  %37 = icmp ult i64 %28, 10
  br i1 %37, label %38, label %26, !llvm.loop !18

38:                                               ; preds = %26, %17, %14
  %39 = phi ptr [ %7, %14 ], [ %23, %17 ], [ %36, %26 ]
  %40 = icmp eq i64 %1, 0
  %41 = icmp ne i32 %4, 0
  %42 = and i1 %40, %41
  br i1 %42, label %43, label %45

43:                                               ; preds = %38
  %44 = getelementptr inbounds i8, ptr %39, i32 -1
  store i8 48, ptr %44, align 1, !tbaa !11
  br label %46

45:                                               ; preds = %38
  br i1 %8, label %54, label %46

46:                                               ; preds = %45, %43
  %47 = phi ptr [ %44, %43 ], [ %39, %45 ]
  %48 = and i32 %2, 2
  %49 = icmp eq i32 %48, 0
  br i1 %49, label %50, label %54

50:                                               ; preds = %46
  %51 = and i32 %2, 4
  %52 = icmp eq i32 %51, 0
  %53 = select i1 %52, ptr @.str.18, ptr @.str.4.25
  br label %54

54:                                               ; preds = %50, %46, %45
  %55 = phi ptr [ %39, %45 ], [ %47, %50 ], [ %47, %46 ]
  %56 = phi ptr [ @.str.2.26, %45 ], [ %53, %50 ], [ @.str.3.27, %46 ]
  %57 = ptrtoint ptr %7 to i32
  %58 = ptrtoint ptr %55 to i32
  %59 = sub i32 %57, %58
  %60 = call fastcc i32 @number(ptr noundef %0, ptr noundef nonnull %56, ptr noundef nonnull %55, i32 noundef %59, i32 noundef %2, i32 noundef %3, i32 noundef %4) #13
  call void @llvm.lifetime.end.p0(i64 24, ptr nonnull %6) #15
  ret i32 %60
}

; Function Attrs: nounwind optsize uwtable
define internal i32 @__print_character(ptr nocapture noundef %0, i32 noundef %1, i32 noundef %2, i32 noundef %3) #2 {
  %5 = alloca i8, align 1
  call void @llvm.lifetime.start.p0(i64 1, ptr nonnull %5) #15
  %6 = trunc i32 %1 to i8
  store i8 %6, ptr %5, align 1, !tbaa !11
  %7 = call fastcc i32 @padded(ptr noundef %0, ptr noundef nonnull %5, i32 noundef 1, i32 noundef %2, i32 noundef %3) #13
  call void @llvm.lifetime.end.p0(i64 1, ptr nonnull %5) #15
  ret i32 %7
}

; Function Attrs: nocallback nofree nosync nounwind willreturn memory(argmem: readwrite)
declare void @llvm.lifetime.start.p0(i64 immarg, ptr nocapture) #6

; Function Attrs: nocallback nofree nosync nounwind willreturn memory(argmem: readwrite)
declare void @llvm.lifetime.end.p0(i64 immarg, ptr nocapture) #6

; Function Attrs: nounwind optsize uwtable
define internal fastcc i32 @number(ptr nocapture noundef %0, ptr noundef %1, ptr nocapture noundef readonly %2, i32 noundef %3, i32 noundef %4, i32 noundef %5, i32 noundef %6) unnamed_addr #2 {
  br label %8

8:                                                ; preds = %8, %7
  %9 = phi ptr [ %1, %7 ], [ %12, %8 ]
  %10 = load i8, ptr %9, align 1, !tbaa !11
  %11 = icmp eq i8 %10, 0
  %12 = getelementptr inbounds i8, ptr %9, i32 1
  br i1 %11, label %13, label %8, !llvm.loop !39

13:                                               ; preds = %8
  %14 = ptrtoint ptr %9 to i32
  %15 = ptrtoint ptr %1 to i32
  %16 = sub i32 %14, %15
  %17 = sub nsw i32 %6, %3
  %18 = lshr i32 %5, 31
  %19 = icmp ne i32 %18, 0
  %20 = sub i32 0, %5
  %21 = select i1 %19, i32 %20, i32 %5
  %22 = lshr i32 %5, 31
  %23 = tail call i32 @llvm.smax.i32(i32 %17, i32 0)
  %24 = icmp slt i32 %6, 0
  %25 = and i32 %4, 16
  %26 = icmp ne i32 %25, 0
  %27 = and i1 %26, %24
  %28 = and i32 %4, 1
  %29 = or i32 %22, %28
  %30 = icmp eq i32 %29, 0
  %31 = and i1 %27, %30
  %32 = add i32 %16, %3
  %33 = icmp sgt i32 %21, %32
  %34 = select i1 %31, i1 %33, i1 false
  %35 = sub i32 %21, %32
  %36 = select i1 %34, i32 %35, i32 %23
  %37 = add i32 %32, %36
  %38 = sub i32 %21, %37
  br i1 %30, label %39, label %48

39:                                               ; preds = %13
  %40 = icmp sgt i32 %38, 0
  br i1 %40, label %41, label %46

41:                                               ; preds = %41, %39
  %42 = phi i32 [ %44, %41 ], [ 0, %39 ]
  %43 = tail call i32 @fputc(i32 noundef 32, ptr noundef %0) #13
  %44 = add nuw nsw i32 %42, 1
  %45 = icmp eq i32 %44, %38
  br i1 %45, label %46, label %41, !llvm.loop !42

46:                                               ; preds = %41, %39
  %47 = tail call noundef i32 @llvm.smax.i32(i32 %38, i32 0)
  br label %48

48:                                               ; preds = %46, %13
  %49 = phi i32 [ 0, %13 ], [ %47, %46 ]
  %50 = load i8, ptr %0, align 4, !tbaa !19, !alias.scope !51, !noalias !54
  %51 = icmp eq i8 %50, 0
  %52 = icmp eq ptr %9, %1
  %53 = or i1 %52, %51
  br i1 %53, label %62, label %54

54:                                               ; preds = %54, %48
  %55 = phi i32 [ %60, %54 ], [ 0, %48 ]
  %56 = getelementptr inbounds i8, ptr %1, i32 %55
  %57 = load i8, ptr %56, align 1, !tbaa !11, !alias.scope !54, !noalias !51
  %58 = zext i8 %57 to i32
  %59 = tail call i32 @fputc(i32 noundef %58, ptr noundef nonnull %0) #13, !noalias !54
  %60 = add nuw i32 %55, 1
  %61 = icmp eq i32 %60, %16
  br i1 %61, label %62, label %54, !llvm.loop !28

62:                                               ; preds = %54, %48
  %63 = icmp sgt i32 %36, 0
  br i1 %63, label %64, label %69

64:                                               ; preds = %64, %62
  %65 = phi i32 [ %67, %64 ], [ 0, %62 ]
  %66 = tail call i32 @fputc(i32 noundef 48, ptr noundef nonnull %0) #13
  %67 = add nuw nsw i32 %65, 1
  %68 = icmp eq i32 %67, %36
  br i1 %68, label %69, label %64, !llvm.loop !42

69:                                               ; preds = %64, %62
  %70 = tail call noundef i32 @llvm.smax.i32(i32 %36, i32 0)
  %71 = load i8, ptr %0, align 4, !tbaa !19, !alias.scope !56, !noalias !59
  %72 = icmp eq i8 %71, 0
  %73 = icmp eq i32 %3, 0
  %74 = or i1 %73, %72
  br i1 %74, label %83, label %75

75:                                               ; preds = %75, %69
  %76 = phi i32 [ %81, %75 ], [ 0, %69 ]
  %77 = getelementptr inbounds i8, ptr %2, i32 %76
  %78 = load i8, ptr %77, align 1, !tbaa !11, !alias.scope !59, !noalias !56
  %79 = zext i8 %78 to i32
  %80 = tail call i32 @fputc(i32 noundef %79, ptr noundef nonnull %0) #13, !noalias !59
  %81 = add nuw i32 %76, 1
  %82 = icmp eq i32 %81, %3
  br i1 %82, label %83, label %75, !llvm.loop !28

83:                                               ; preds = %75, %69
  %84 = add i32 %32, %70
  %85 = add i32 %84, %49
  br i1 %30, label %96, label %86

86:                                               ; preds = %83
  %87 = icmp sgt i32 %38, 0
  br i1 %87, label %88, label %93

88:                                               ; preds = %88, %86
  %89 = phi i32 [ %91, %88 ], [ 0, %86 ]
  %90 = tail call i32 @fputc(i32 noundef 32, ptr noundef nonnull %0) #13
  %91 = add nuw nsw i32 %89, 1
  %92 = icmp eq i32 %91, %38
  br i1 %92, label %93, label %88, !llvm.loop !42

93:                                               ; preds = %88, %86
  %94 = tail call noundef i32 @llvm.smax.i32(i32 %38, i32 0)
  %95 = add nsw i32 %85, %94
  br label %96

96:                                               ; preds = %93, %83
  %97 = phi i32 [ %95, %93 ], [ %85, %83 ]
  ret i32 %97
}

; Function Attrs: allocsize(0)
declare dso_local ptr @malloc(i32 noundef) #7

; Function Attrs: nounwind optsize uwtable
define internal fastcc void @sink(ptr noundef %0, i32 noundef %1, i32 noundef %2, i32 noundef %3, ptr nocapture noundef readonly %4) unnamed_addr #2 {
  %6 = shl i32 %1, 1
  %7 = or disjoint i32 %6, 1
  %8 = icmp ult i32 %7, %2
  br i1 %8, label %9, label %48

9:                                                ; preds = %5
  %10 = icmp eq i32 %3, 0
  br label %11

11:                                               ; preds = %44, %9
  %12 = phi i32 [ %7, %9 ], [ %46, %44 ]
  %13 = phi i32 [ %6, %9 ], [ %45, %44 ]
  %14 = phi i32 [ %1, %9 ], [ %26, %44 ]
  %15 = add nuw i32 %13, 2
  %16 = icmp ult i32 %15, %2
  br i1 %16, label %17, label %25

17:                                               ; preds = %11
  %18 = mul i32 %12, %3
  %19 = getelementptr inbounds i8, ptr %0, i32 %18
  %20 = mul i32 %15, %3
  %21 = getelementptr inbounds i8, ptr %0, i32 %20
  %22 = tail call i32 %4(ptr noundef %19, ptr noundef %21) #18
  %23 = icmp slt i32 %22, 0
  %24 = select i1 %23, i32 %15, i32 %12
  br label %25

25:                                               ; preds = %17, %11
  %26 = phi i32 [ %12, %11 ], [ %24, %17 ]
  %27 = mul i32 %14, %3
  %28 = getelementptr inbounds i8, ptr %0, i32 %27
  %29 = mul i32 %26, %3
  %30 = getelementptr inbounds i8, ptr %0, i32 %29
  %31 = tail call i32 %4(ptr noundef %28, ptr noundef %30) #18
  %32 = icmp sgt i32 %31, -1
  br i1 %32, label %48, label %33

33:                                               ; preds = %25
  br i1 %10, label %44, label %34

34:                                               ; preds = %34, %33
  %35 = phi ptr [ %41, %34 ], [ %28, %33 ]
  %36 = phi i32 [ %38, %34 ], [ %3, %33 ]
  %37 = phi ptr [ %42, %34 ], [ %30, %33 ]
  %38 = add i32 %36, -1
  %39 = load i8, ptr %35, align 1, !tbaa !11
  %40 = load i8, ptr %37, align 1, !tbaa !11
  %41 = getelementptr inbounds i8, ptr %35, i32 1
  store i8 %40, ptr %35, align 1, !tbaa !11
  %42 = getelementptr inbounds i8, ptr %37, i32 1
  store i8 %39, ptr %37, align 1, !tbaa !11
  %43 = icmp eq i32 %38, 0
  br i1 %43, label %44, label %34, !llvm.loop !32

44:                                               ; preds = %34, %33
  %45 = shl i32 %26, 1
  %46 = or disjoint i32 %45, 1
  %47 = icmp ult i32 %46, %2
  br i1 %47, label %11, label %48, !llvm.loop !61

48:                                               ; preds = %44, %25, %5
  ret void
}

; Function Attrs: nounwind optsize uwtable
define internal fastcc void @merge_sort(ptr noundef %0, i32 noundef %1, i32 noundef %2, ptr noundef %3, ptr noundef %4) unnamed_addr #2 {
  %6 = icmp ult i32 %1, 2
  br i1 %6, label %85, label %7

7:                                                ; preds = %5
  %8 = lshr i32 %1, 1
  tail call fastcc void @merge_sort(ptr noundef %0, i32 noundef %8, i32 noundef %2, ptr noundef %3, ptr noundef %4) #13
  %9 = mul i32 %8, %2
  %10 = getelementptr inbounds i8, ptr %0, i32 %9
  %11 = sub i32 %1, %8
  tail call fastcc void @merge_sort(ptr noundef %10, i32 noundef %11, i32 noundef %2, ptr noundef %3, ptr noundef %4) #13
  %12 = icmp eq i32 %9, 0
  br i1 %12, label %22, label %13

13:                                               ; preds = %13, %7
  %14 = phi ptr [ %18, %13 ], [ %0, %7 ]
  %15 = phi ptr [ %20, %13 ], [ %4, %7 ]
  %16 = phi i32 [ %17, %13 ], [ %9, %7 ]
  %17 = add i32 %16, -1
  %18 = getelementptr inbounds i8, ptr %14, i32 1
  %19 = load i8, ptr %14, align 1, !tbaa !11, !alias.scope !62, !noalias !65
  %20 = getelementptr inbounds i8, ptr %15, i32 1
  store i8 %19, ptr %15, align 1, !tbaa !11, !alias.scope !65, !noalias !62
  %21 = icmp eq i32 %17, 0
  br i1 %21, label %22, label %13, !llvm.loop !67

22:                                               ; preds = %13, %7
  %23 = icmp eq i32 %11, 0
  br i1 %23, label %71, label %24

24:                                               ; preds = %22
  %25 = icmp eq i32 %2, 0
  br label %26

26:                                               ; preds = %60, %24
  %27 = phi ptr [ %0, %24 ], [ %65, %60 ]
  %28 = phi ptr [ %4, %24 ], [ %64, %60 ]
  %29 = phi i32 [ %11, %24 ], [ %63, %60 ]
  %30 = phi ptr [ %10, %24 ], [ %62, %60 ]
  %31 = phi i32 [ %8, %24 ], [ %61, %60 ]
  %32 = tail call i32 %3(ptr noundef %28, ptr noundef %30) #18
  %33 = icmp slt i32 %32, 1
  br i1 %33, label %34, label %47

34:                                               ; preds = %26
  br i1 %25, label %44, label %35

35:                                               ; preds = %35, %34
  %36 = phi ptr [ %40, %35 ], [ %28, %34 ]
  %37 = phi ptr [ %42, %35 ], [ %27, %34 ]
  %38 = phi i32 [ %39, %35 ], [ %2, %34 ]
  %39 = add i32 %38, -1
  %40 = getelementptr inbounds i8, ptr %36, i32 1
  %41 = load i8, ptr %36, align 1, !tbaa !11, !alias.scope !68, !noalias !71
  %42 = getelementptr inbounds i8, ptr %37, i32 1
  store i8 %41, ptr %37, align 1, !tbaa !11, !alias.scope !71, !noalias !68
  %43 = icmp eq i32 %39, 0
  br i1 %43, label %44, label %35, !llvm.loop !67

44:                                               ; preds = %35, %34
  %45 = getelementptr inbounds i8, ptr %28, i32 %2
  %46 = add nsw i32 %31, -1
  br label %60

47:                                               ; preds = %26
  br i1 %25, label %57, label %48

48:                                               ; preds = %48, %47
  %49 = phi ptr [ %53, %48 ], [ %30, %47 ]
  %50 = phi ptr [ %55, %48 ], [ %27, %47 ]
  %51 = phi i32 [ %52, %48 ], [ %2, %47 ]
  %52 = add i32 %51, -1
  %53 = getelementptr inbounds i8, ptr %49, i32 1
  %54 = load i8, ptr %49, align 1, !tbaa !11, !alias.scope !73, !noalias !76
  %55 = getelementptr inbounds i8, ptr %50, i32 1
  store i8 %54, ptr %50, align 1, !tbaa !11, !alias.scope !76, !noalias !73
  %56 = icmp eq i32 %52, 0
  br i1 %56, label %57, label %48, !llvm.loop !67

57:                                               ; preds = %48, %47
  %58 = getelementptr inbounds i8, ptr %30, i32 %2
  %59 = add i32 %29, -1
  br label %60

60:                                               ; preds = %57, %44
  %61 = phi i32 [ %46, %44 ], [ %31, %57 ]
  %62 = phi ptr [ %30, %44 ], [ %58, %57 ]
  %63 = phi i32 [ %29, %44 ], [ %59, %57 ]
  %64 = phi ptr [ %45, %44 ], [ %28, %57 ]
  %65 = getelementptr inbounds i8, ptr %27, i32 %2
  %66 = icmp ne i32 %61, 0
  %67 = icmp ne i32 %63, 0
  %68 = select i1 %66, i1 %67, i1 false
  br i1 %68, label %26, label %69, !llvm.loop !78

69:                                               ; preds = %60
  %70 = mul i32 %61, %2
  br label %71

71:                                               ; preds = %69, %22
  %72 = phi i32 [ %70, %69 ], [ %9, %22 ]
  %73 = phi ptr [ %64, %69 ], [ %4, %22 ]
  %74 = phi ptr [ %65, %69 ], [ %0, %22 ]
  %75 = icmp eq i32 %72, 0
  br i1 %75, label %85, label %76

76:                                               ; preds = %76, %71
  %77 = phi ptr [ %81, %76 ], [ %73, %71 ]
  %78 = phi ptr [ %83, %76 ], [ %74, %71 ]
  %79 = phi i32 [ %80, %76 ], [ %72, %71 ]
  %80 = add i32 %79, -1
  %81 = getelementptr inbounds i8, ptr %77, i32 1
  %82 = load i8, ptr %77, align 1, !tbaa !11, !alias.scope !79, !noalias !82
  %83 = getelementptr inbounds i8, ptr %78, i32 1
  store i8 %82, ptr %78, align 1, !tbaa !11, !alias.scope !82, !noalias !79
  %84 = icmp eq i32 %80, 0
  br i1 %84, label %85, label %76, !llvm.loop !67

85:                                               ; preds = %76, %71, %5
  ret void
}

; Function Attrs: noreturn nounwind
declare dso_local void @abort() #8

; Function Attrs: noinline nounwind optnone uwtable
define internal i32 @hash_of(ptr noundef %0) #0 {
  %2 = alloca ptr, align 4
  %3 = alloca i32, align 4
  store ptr %0, ptr %2, align 4
  store i32 -2128831035, ptr %3, align 4
  br label %4

4:                                                ; preds = %15, %1
  %5 = load ptr, ptr %2, align 4
  %6 = load i8, ptr %5, align 1
  %7 = icmp ne i8 %6, 0
  br i1 %7, label %8, label %18

8:                                                ; preds = %4
  %9 = load i32, ptr %3, align 4
  %10 = load ptr, ptr %2, align 4
  %11 = load i8, ptr %10, align 1
  %12 = zext i8 %11 to i32
  %13 = xor i32 %9, %12
  %14 = mul i32 %13, 16777619
  store i32 %14, ptr %3, align 4
  br label %15

15:                                               ; preds = %8
  %16 = load ptr, ptr %2, align 4
  %17 = getelementptr inbounds i8, ptr %16, i32 1
  store ptr %17, ptr %2, align 4
  br label %4, !llvm.loop !84

18:                                               ; preds = %4
  %19 = load i32, ptr %3, align 4
  %20 = load i32, ptr %3, align 4
  %21 = lshr i32 %20, 15
  %22 = xor i32 %19, %21
  ret i32 %22
}

; Function Attrs: noinline nounwind optnone uwtable
define internal ptr @place_of(ptr noundef %0, ptr noundef %1, i32 noundef %2) #0 {
  %4 = alloca ptr, align 4
  %5 = alloca ptr, align 4
  %6 = alloca i32, align 4
  %7 = alloca i32, align 4
  %8 = alloca ptr, align 4
  store ptr %0, ptr %4, align 4
  store ptr %1, ptr %5, align 4
  store i32 %2, ptr %6, align 4
  %9 = load i32, ptr %6, align 4
  %10 = load ptr, ptr %4, align 4
  %11 = getelementptr inbounds %struct.table, ptr %10, i32 0, i32 1
  %12 = load i32, ptr %11, align 4
  %13 = sub i32 %12, 1
  %14 = and i32 %9, %13
  store i32 %14, ptr %7, align 4
  br label %15

15:                                               ; preds = %45, %3
  %16 = load ptr, ptr %4, align 4
  %17 = getelementptr inbounds %struct.table, ptr %16, i32 0, i32 0
  %18 = load ptr, ptr %17, align 4
  %19 = load i32, ptr %7, align 4
  %20 = getelementptr inbounds %struct.table, ptr %18, i32 %19
  store ptr %20, ptr %8, align 4
  %21 = load ptr, ptr %4, align 4
  %22 = getelementptr inbounds %struct.table, ptr %21, i32 0, i32 3
  %23 = load i32, ptr %22, align 4
  %24 = add i32 %23, 1
  store i32 %24, ptr %22, align 4
  %25 = load ptr, ptr %8, align 4
  %26 = getelementptr inbounds %struct.table, ptr %25, i32 0, i32 0
  %27 = load ptr, ptr %26, align 4
  %28 = icmp ne ptr %27, null
  br i1 %28, label %29, label %42

29:                                               ; preds = %15
  %30 = load ptr, ptr %8, align 4
  %31 = getelementptr inbounds %struct.table, ptr %30, i32 0, i32 1
  %32 = load i32, ptr %31, align 4
  %33 = load i32, ptr %6, align 4
  %34 = icmp eq i32 %32, %33
  br i1 %34, label %35, label %44

35:                                               ; preds = %29
  %36 = load ptr, ptr %8, align 4
  %37 = getelementptr inbounds %struct.table, ptr %36, i32 0, i32 0
  %38 = load ptr, ptr %37, align 4
  %39 = load ptr, ptr %5, align 4
  %40 = call i32 @strcmp(ptr noundef %38, ptr noundef %39) #15
  %41 = icmp eq i32 %40, 0
  br i1 %41, label %42, label %44

42:                                               ; preds = %35, %15
  %43 = load ptr, ptr %8, align 4
  ret ptr %43

44:                                               ; preds = %35, %29
  br label %45

45:                                               ; preds = %44
  %46 = load i32, ptr %7, align 4
  %47 = add i32 %46, 1
  %48 = load ptr, ptr %4, align 4
  %49 = getelementptr inbounds %struct.table, ptr %48, i32 0, i32 1
  %50 = load i32, ptr %49, align 4
  %51 = sub i32 %50, 1
  %52 = and i32 %47, %51
  store i32 %52, ptr %7, align 4
  br label %15
}

; Function Attrs: nocallback nofree nounwind willreturn memory(argmem: readwrite)
declare void @llvm.memcpy.p0.p0.i32(ptr noalias nocapture writeonly, ptr noalias nocapture readonly, i32, i1 immarg) #9

; Function Attrs: noinline nounwind optnone uwtable
define internal void @grow(ptr noundef %0) #0 {
  %2 = alloca ptr, align 4
  %3 = alloca %struct.table, align 4
  %4 = alloca i32, align 4
  store ptr %0, ptr %2, align 4
  %5 = getelementptr inbounds %struct.table, ptr %3, i32 0, i32 0
  store ptr null, ptr %5, align 4
  %6 = getelementptr inbounds %struct.table, ptr %3, i32 0, i32 1
  %7 = load ptr, ptr %2, align 4
  %8 = getelementptr inbounds %struct.table, ptr %7, i32 0, i32 1
  %9 = load i32, ptr %8, align 4
  %10 = icmp ne i32 %9, 0
  br i1 %10, label %11, label %16

11:                                               ; preds = %1
  %12 = load ptr, ptr %2, align 4
  %13 = getelementptr inbounds %struct.table, ptr %12, i32 0, i32 1
  %14 = load i32, ptr %13, align 4
  %15 = mul i32 2, %14
  br label %17

16:                                               ; preds = %1
  br label %17

17:                                               ; preds = %16, %11
  %18 = phi i32 [ %15, %11 ], [ 16, %16 ]
  store i32 %18, ptr %6, align 4
  %19 = getelementptr inbounds %struct.table, ptr %3, i32 0, i32 2
  %20 = load ptr, ptr %2, align 4
  %21 = getelementptr inbounds %struct.table, ptr %20, i32 0, i32 2
  %22 = load i32, ptr %21, align 4
  store i32 %22, ptr %19, align 4
  %23 = getelementptr inbounds %struct.table, ptr %3, i32 0, i32 3
  %24 = load ptr, ptr %2, align 4
  %25 = getelementptr inbounds %struct.table, ptr %24, i32 0, i32 3
  %26 = load i32, ptr %25, align 4
  store i32 %26, ptr %23, align 4
  %27 = getelementptr inbounds %struct.table, ptr %3, i32 0, i32 1
  %28 = load i32, ptr %27, align 4
  %29 = call ptr @calloc(i32 noundef %28, i32 noundef 16) #19
  %30 = getelementptr inbounds %struct.table, ptr %3, i32 0, i32 0
  store ptr %29, ptr %30, align 4
  %31 = getelementptr inbounds %struct.table, ptr %3, i32 0, i32 0
  %32 = load ptr, ptr %31, align 4
  %33 = icmp ne ptr %32, null
  br i1 %33, label %35, label %34

34:                                               ; preds = %17
  call void @abort() #16
  unreachable

35:                                               ; preds = %17
  store i32 0, ptr %4, align 4
  br label %36

36:                                               ; preds = %73, %35
  %37 = load i32, ptr %4, align 4
  %38 = load ptr, ptr %2, align 4
  %39 = getelementptr inbounds %struct.table, ptr %38, i32 0, i32 1
  %40 = load i32, ptr %39, align 4
  %41 = icmp ult i32 %37, %40
  br i1 %41, label %42, label %76

42:                                               ; preds = %36
  %43 = load ptr, ptr %2, align 4
  %44 = getelementptr inbounds %struct.table, ptr %43, i32 0, i32 0
  %45 = load ptr, ptr %44, align 4
  %46 = load i32, ptr %4, align 4
  %47 = getelementptr inbounds %struct.table, ptr %45, i32 %46
  %48 = getelementptr inbounds %struct.table, ptr %47, i32 0, i32 0
  %49 = load ptr, ptr %48, align 4
  %50 = icmp ne ptr %49, null
  br i1 %50, label %51, label %72

51:                                               ; preds = %42
  %52 = load ptr, ptr %2, align 4
  %53 = getelementptr inbounds %struct.table, ptr %52, i32 0, i32 0
  %54 = load ptr, ptr %53, align 4
  %55 = load i32, ptr %4, align 4
  %56 = getelementptr inbounds %struct.table, ptr %54, i32 %55
  %57 = getelementptr inbounds %struct.table, ptr %56, i32 0, i32 0
  %58 = load ptr, ptr %57, align 4
  %59 = load ptr, ptr %2, align 4
  %60 = getelementptr inbounds %struct.table, ptr %59, i32 0, i32 0
  %61 = load ptr, ptr %60, align 4
  %62 = load i32, ptr %4, align 4
  %63 = getelementptr inbounds %struct.table, ptr %61, i32 %62
  %64 = getelementptr inbounds %struct.table, ptr %63, i32 0, i32 1
  %65 = load i32, ptr %64, align 4
  %66 = call ptr @place_of(ptr noundef %3, ptr noundef %58, i32 noundef %65)
  %67 = load ptr, ptr %2, align 4
  %68 = getelementptr inbounds %struct.table, ptr %67, i32 0, i32 0
  %69 = load ptr, ptr %68, align 4
  %70 = load i32, ptr %4, align 4
  %71 = getelementptr inbounds %struct.table, ptr %69, i32 %70
  call void @llvm.memcpy.p0.p0.i32(ptr align 4 %66, ptr align 4 %71, i32 16, i1 false)
  br label %72

72:                                               ; preds = %51, %42
  br label %73

73:                                               ; preds = %72
  %74 = load i32, ptr %4, align 4
  %75 = add i32 %74, 1
  store i32 %75, ptr %4, align 4
  br label %36, !llvm.loop !85

76:                                               ; preds = %36
  %77 = load ptr, ptr %2, align 4
  %78 = getelementptr inbounds %struct.table, ptr %77, i32 0, i32 0
  %79 = load ptr, ptr %78, align 4
  call void @free(ptr noundef %79)
  %80 = load ptr, ptr %2, align 4
  call void @llvm.memcpy.p0.p0.i32(ptr align 4 %80, ptr align 4 %3, i32 16, i1 false)
  ret void
}

; Function Attrs: nounwind optsize uwtable
define internal ptr @strdup(ptr nocapture noundef readonly %0) #2 {
  %2 = tail call ptr @strndup(ptr noundef %0, i32 noundef -1) #13
  ret ptr %2
}

; Function Attrs: nounwind optsize uwtable
define internal ptr @strndup(ptr nocapture noundef readonly %0, i32 noundef %1) local_unnamed_addr #2 {
  %3 = icmp eq i32 %1, 0
  br i1 %3, label %12, label %4

4:                                                ; preds = %9, %2
  %5 = phi i32 [ %10, %9 ], [ 0, %2 ]
  %6 = getelementptr inbounds i8, ptr %0, i32 %5
  %7 = load i8, ptr %6, align 1, !tbaa !11
  %8 = icmp eq i8 %7, 0
  br i1 %8, label %12, label %9

9:                                                ; preds = %4
  %10 = add nuw i32 %5, 1
  %11 = icmp eq i32 %10, %1
  br i1 %11, label %12, label %4, !llvm.loop !40

12:                                               ; preds = %9, %4, %2
  %13 = phi i32 [ 0, %2 ], [ %5, %4 ], [ %1, %9 ]
  %14 = add i32 %13, 1
  %15 = tail call ptr @malloc(i32 noundef %14) #18
  %16 = icmp eq ptr %15, null
  br i1 %16, label %30, label %17

17:                                               ; preds = %12
  %18 = icmp eq i32 %13, 0
  br i1 %18, label %28, label %19

19:                                               ; preds = %19, %17
  %20 = phi ptr [ %24, %19 ], [ %0, %17 ]
  %21 = phi ptr [ %26, %19 ], [ %15, %17 ]
  %22 = phi i32 [ %23, %19 ], [ %13, %17 ]
  %23 = add i32 %22, -1
  %24 = getelementptr inbounds i8, ptr %20, i32 1
  %25 = load i8, ptr %20, align 1, !tbaa !11, !alias.scope !86, !noalias !89
  %26 = getelementptr inbounds i8, ptr %21, i32 1
  store i8 %25, ptr %21, align 1, !tbaa !11, !alias.scope !89, !noalias !86
  %27 = icmp eq i32 %23, 0
  br i1 %27, label %28, label %19, !llvm.loop !67

28:                                               ; preds = %19, %17
  %29 = getelementptr inbounds i8, ptr %15, i32 %13
  store i8 0, ptr %29, align 1, !tbaa !11
  br label %30

30:                                               ; preds = %28, %12
  ret ptr %15
}

; Function Attrs: allocsize(0,1)
declare dso_local ptr @calloc(i32 noundef, i32 noundef) #10

; Function Attrs: mustprogress nofree norecurse nosync nounwind optsize willreturn memory(none) uwtable
define internal range(i32 0, 2) i32 @isalnum(i32 noundef %0) #11 {
  %2 = and i32 %0, -33
  %3 = add i32 %2, -65
  %4 = icmp ult i32 %3, 26
  %5 = add i32 %0, -48
  %6 = icmp ult i32 %5, 10
  %7 = or i1 %6, %4
  %8 = zext i1 %7 to i32
  ret i32 %8
}

; Function Attrs: noinline nounwind optnone uwtable
define internal i32 @within(ptr noundef %0) #0 {
  %2 = alloca ptr, align 4
  store ptr %0, ptr %2, align 4
  %3 = load ptr, ptr %2, align 4
  %4 = load i8, ptr %3, align 1
  %5 = zext i8 %4 to i32
  %6 = call i32 @isalnum(i32 noundef %5) #14
  %7 = icmp ne i32 %6, 0
  br i1 %7, label %22, label %8

8:                                                ; preds = %1
  %9 = load ptr, ptr %2, align 4
  %10 = load i8, ptr %9, align 1
  %11 = sext i8 %10 to i32
  %12 = icmp eq i32 %11, 39
  br i1 %12, label %13, label %20

13:                                               ; preds = %8
  %14 = load ptr, ptr %2, align 4
  %15 = getelementptr inbounds i8, ptr %14, i32 1
  %16 = load i8, ptr %15, align 1
  %17 = zext i8 %16 to i32
  %18 = call i32 @isalpha(i32 noundef %17) #14
  %19 = icmp ne i32 %18, 0
  br label %20

20:                                               ; preds = %13, %8
  %21 = phi i1 [ false, %8 ], [ %19, %13 ]
  br label %22

22:                                               ; preds = %20, %1
  %23 = phi i1 [ true, %1 ], [ %21, %20 ]
  %24 = zext i1 %23 to i32
  ret i32 %24
}

; Function Attrs: mustprogress nofree norecurse nosync nounwind optsize willreturn memory(none) uwtable
define internal i32 @tolower(i32 noundef %0) #11 {
  %2 = add i32 %0, -91
  %3 = icmp ult i32 %2, -26
  %4 = add nuw nsw i32 %0, 32
  %5 = select i1 %3, i32 %0, i32 %4
  ret i32 %5
}

; Function Attrs: mustprogress nofree norecurse nosync nounwind optsize willreturn memory(none) uwtable
define internal range(i32 0, 2) i32 @isalpha(i32 noundef %0) #11 {
  %2 = and i32 %0, -33
  %3 = add i32 %2, -65
  %4 = icmp ult i32 %3, 26
  %5 = zext i1 %4 to i32
  ret i32 %5
}

; Function Attrs: nounwind optsize uwtable
define internal i32 @fgetc(ptr nocapture noundef %0) local_unnamed_addr #2 {
  %2 = load i8, ptr %0, align 4, !tbaa !19
  %3 = icmp eq i8 %2, 0
  br i1 %3, label %4, label %20

4:                                                ; preds = %1
  %5 = getelementptr inbounds i8, ptr %0, i32 2
  %6 = load i8, ptr %5, align 2, !tbaa !91
  %7 = icmp eq i8 %6, 0
  br i1 %7, label %12, label %8

8:                                                ; preds = %4
  store i8 0, ptr %5, align 2, !tbaa !91
  %9 = getelementptr inbounds i8, ptr %0, i32 3
  %10 = load i8, ptr %9, align 1, !tbaa !92
  %11 = zext i8 %10 to i32
  br label %20

12:                                               ; preds = %4
  %13 = getelementptr inbounds i8, ptr %0, i32 1
  %14 = load i8, ptr %13, align 1, !tbaa !93
  %15 = icmp eq i8 %14, 0
  br i1 %15, label %16, label %20

16:                                               ; preds = %12
  %17 = tail call i32 @getchar() #18
  %18 = icmp eq i32 %17, -1
  br i1 %18, label %19, label %20

19:                                               ; preds = %16
  store i8 1, ptr %13, align 1, !tbaa !93
  br label %20

20:                                               ; preds = %19, %16, %12, %8, %1
  %21 = phi i32 [ %11, %8 ], [ -1, %1 ], [ -1, %12 ], [ -1, %19 ], [ %17, %16 ]
  ret i32 %21
}

; Function Attrs: optsize
declare dso_local i32 @getchar() local_unnamed_addr #12

attributes #0 = { noinline nounwind optnone uwtable "frame-pointer"="all" "min-legal-vector-width"="0" "no-trapping-math"="true" "stack-protector-buffer-size"="8" "target-cpu"="i686" "target-features"="+cmov,+cx8,+x87" "tune-cpu"="generic" }
attributes #1 = { nocallback nofree nounwind willreturn memory(argmem: write) }
attributes #2 = { nounwind optsize uwtable "min-legal-vector-width"="0" "no-builtins" "no-jump-tables"="true" "no-trapping-math"="true" "stack-protector-buffer-size"="8" "target-cpu"="i686" "target-features"="+cmov,+cx8,+x87" "tune-cpu"="generic" }
attributes #3 = { "frame-pointer"="all" "no-trapping-math"="true" "stack-protector-buffer-size"="8" "target-cpu"="i686" "target-features"="+cmov,+cx8,+x87" "tune-cpu"="generic" }
attributes #4 = { nocallback nofree nosync nounwind speculatable willreturn memory(none) }
attributes #5 = { nofree norecurse nosync nounwind optsize memory(read, inaccessiblemem: none) uwtable "min-legal-vector-width"="0" "no-builtins" "no-jump-tables"="true" "no-trapping-math"="true" "stack-protector-buffer-size"="8" "target-cpu"="i686" "target-features"="+cmov,+cx8,+x87" "tune-cpu"="generic" }
attributes #6 = { nocallback nofree nosync nounwind willreturn memory(argmem: readwrite) }
attributes #7 = { allocsize(0) "frame-pointer"="all" "no-trapping-math"="true" "stack-protector-buffer-size"="8" "target-cpu"="i686" "target-features"="+cmov,+cx8,+x87" "tune-cpu"="generic" }
attributes #8 = { noreturn nounwind "frame-pointer"="all" "no-trapping-math"="true" "stack-protector-buffer-size"="8" "target-cpu"="i686" "target-features"="+cmov,+cx8,+x87" "tune-cpu"="generic" }
attributes #9 = { nocallback nofree nounwind willreturn memory(argmem: readwrite) }
attributes #10 = { allocsize(0,1) "frame-pointer"="all" "no-trapping-math"="true" "stack-protector-buffer-size"="8" "target-cpu"="i686" "target-features"="+cmov,+cx8,+x87" "tune-cpu"="generic" }
attributes #11 = { mustprogress nofree norecurse nosync nounwind optsize willreturn memory(none) uwtable "min-legal-vector-width"="0" "no-builtins" "no-jump-tables"="true" "no-trapping-math"="true" "stack-protector-buffer-size"="8" "target-cpu"="i686" "target-features"="+cmov,+cx8,+x87" "tune-cpu"="generic" }
attributes #12 = { optsize "no-builtins" "no-trapping-math"="true" "stack-protector-buffer-size"="8" "target-cpu"="i686" "target-features"="+cmov,+cx8,+x87" "tune-cpu"="generic" }
attributes #13 = { nobuiltin optsize "no-builtins" }
attributes #14 = { nounwind willreturn memory(read) }
attributes #15 = { nounwind }
attributes #16 = { noreturn nounwind }
attributes #17 = { allocsize(0) }
attributes #18 = { nobuiltin nounwind optsize "no-builtins" }
attributes #19 = { allocsize(0,1) }

!llvm.ident = !{!0, !0, !0, !0, !0}
!llvm.module.flags = !{!1, !2, !3, !4, !5, !6}

!0 = !{!"Debian clang version 19.1.7 (3~deb12u1)"}
!1 = !{i32 1, !"NumRegisterParameters", i32 0}
!2 = !{i32 7, !"Dwarf Version", i32 5}
!3 = !{i32 2, !"Debug Info Version", i32 3}
!4 = !{i32 1, !"wchar_size", i32 4}
!5 = !{i32 7, !"uwtable", i32 2}
!6 = !{i32 7, !"frame-pointer", i32 2}
!7 = distinct !{!7, !8}
!8 = !{!"llvm.loop.mustprogress"}
!9 = distinct !{!9, !8}
!10 = distinct !{!10, !8}
!11 = !{!12, !12, i64 0}
!12 = !{!"omnipotent char", !13, i64 0}
!13 = !{!"Simple C/C++ TBAA"}
!14 = distinct !{!14, !8}
!15 = distinct !{!15, !8}
!16 = distinct !{!16, !8}
!17 = distinct !{!17, !8}
!18 = distinct !{!18, !8}
!19 = !{!20, !12, i64 0}
!20 = !{!"__stream", !12, i64 0, !12, i64 1, !12, i64 2, !12, i64 3, !21, i64 4, !22, i64 8}
!21 = !{!"any pointer", !12, i64 0}
!22 = !{!"int", !12, i64 0}
!23 = !{!24}
!24 = distinct !{!24, !25, !"fwrite: %stream"}
!25 = distinct !{!25, !"fwrite"}
!26 = !{!27}
!27 = distinct !{!27, !25, !"fwrite: %from"}
!28 = distinct !{!28, !8}
!29 = distinct !{!29, !8}
!30 = distinct !{!30, !8}
!31 = distinct !{!31, !8}
!32 = distinct !{!32, !8}
!33 = distinct !{!33, !8}
!34 = distinct !{!34, !8}
!35 = distinct !{!35, !8}
!36 = distinct !{!36, !8}
!37 = distinct !{!37, !8}
!38 = distinct !{!38, !8}
!39 = distinct !{!39, !8}
!40 = distinct !{!40, !8}
!41 = distinct !{!41, !8}
!42 = distinct !{!42, !8}
!43 = !{!44}
!44 = distinct !{!44, !45, !"fwrite: %stream"}
!45 = distinct !{!45, !"fwrite"}
!46 = !{!47}
!47 = distinct !{!47, !45, !"fwrite: %from"}
!48 = !{!20, !22, i64 8}
!49 = !{!20, !21, i64 4}
!50 = distinct !{!50, !8}
!51 = !{!52}
!52 = distinct !{!52, !53, !"fwrite: %stream"}
!53 = distinct !{!53, !"fwrite"}
!54 = !{!55}
!55 = distinct !{!55, !53, !"fwrite: %from"}
!56 = !{!57}
!57 = distinct !{!57, !58, !"fwrite: %stream"}
!58 = distinct !{!58, !"fwrite"}
!59 = !{!60}
!60 = distinct !{!60, !58, !"fwrite: %from"}
!61 = distinct !{!61, !8}
!62 = !{!63}
!63 = distinct !{!63, !64, !"memcpy: %from"}
!64 = distinct !{!64, !"memcpy"}
!65 = !{!66}
!66 = distinct !{!66, !64, !"memcpy: %to"}
!67 = distinct !{!67, !8}
!68 = !{!69}
!69 = distinct !{!69, !70, !"memcpy: %from"}
!70 = distinct !{!70, !"memcpy"}
!71 = !{!72}
!72 = distinct !{!72, !70, !"memcpy: %to"}
!73 = !{!74}
!74 = distinct !{!74, !75, !"memcpy: %from"}
!75 = distinct !{!75, !"memcpy"}
!76 = !{!77}
!77 = distinct !{!77, !75, !"memcpy: %to"}
!78 = distinct !{!78, !8}
!79 = !{!80}
!80 = distinct !{!80, !81, !"memcpy: %from"}
!81 = distinct !{!81, !"memcpy"}
!82 = !{!83}
!83 = distinct !{!83, !81, !"memcpy: %to"}
!84 = distinct !{!84, !8}
!85 = distinct !{!85, !8}
!86 = !{!87}
!87 = distinct !{!87, !88, !"memcpy: %from"}
!88 = distinct !{!88, !"memcpy"}
!89 = !{!90}
!90 = distinct !{!90, !88, !"memcpy: %to"}
!91 = !{!20, !12, i64 2}
!92 = !{!20, !12, i64 3}
!93 = !{!20, !12, i64 1}
