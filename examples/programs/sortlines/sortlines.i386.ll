source_filename = "sortlines.c"
target datalayout = "e-m:e-p:32:32-p270:32:32-p271:32:32-p272:64:64-i128:128-f64:32:64-f80:32-n8:16:32-S128"
target triple = "i386-unknown-linux-gnu"

%struct.anon = type { i8, i8, i8, i8, i32 }
%struct.__stream = type { i8, i8, i8, i8, ptr, i32 }
%struct.lines = type { ptr, i32, i32 }
%struct.number = type { i64, i32, i32 }

@options = internal global %struct.anon zeroinitializer, align 4
@.str = private unnamed_addr constant [18 x i8] c"%zu of %zu lines\0A\00", align 1
@.str.1 = private unnamed_addr constant [15 x i8] c"out of memory\0A\00", align 1
@.str.13 = private unnamed_addr constant [1 x i8] zeroinitializer, align 1
@.str.5 = private unnamed_addr constant [3 x i8] c"0X\00", align 1
@.str.6 = private unnamed_addr constant [3 x i8] c"0x\00", align 1
@.str.8 = private unnamed_addr constant [17 x i8] c"0123456789ABCDEF\00", align 1
@.str.9 = private unnamed_addr constant [17 x i8] c"0123456789abcdef\00", align 1
@__streams = internal global [3 x %struct.__stream] [%struct.__stream zeroinitializer, %struct.__stream { i8 1, i8 0, i8 0, i8 0, ptr null, i32 0 }, %struct.__stream { i8 2, i8 0, i8 0, i8 0, ptr null, i32 0 }], align 4
@errno = internal local_unnamed_addr global i32 0, align 4

; Function Attrs: noinline nounwind optnone uwtable
define dso_local i32 @main() #0 {
  %1 = alloca i32, align 4
  %2 = alloca %struct.lines, align 4
  %3 = alloca ptr, align 4
  %4 = alloca i32, align 4
  %5 = alloca i32, align 4
  %6 = alloca i32, align 4
  store i32 0, ptr %1, align 4
  call void @llvm.memset.p0.i32(ptr align 4 %2, i8 0, i32 12, i1 false)
  %7 = call ptr @read_line()
  store ptr %7, ptr %3, align 4
  %8 = load ptr, ptr %3, align 4
  %9 = icmp ne ptr %8, null
  br i1 %9, label %11, label %10

10:                                               ; preds = %0
  store i32 0, ptr %1, align 4
  br label %99

11:                                               ; preds = %0
  %12 = load ptr, ptr %3, align 4
  call void @read_options(ptr noundef %12)
  %13 = load ptr, ptr %3, align 4
  call void @__sized_free(ptr noundef %13)
  br label %14

14:                                               ; preds = %17, %11
  %15 = call ptr @read_line()
  store ptr %15, ptr %3, align 4
  %16 = icmp ne ptr %15, null
  br i1 %16, label %17, label %19

17:                                               ; preds = %14
  %18 = load ptr, ptr %3, align 4
  call void @add(ptr noundef %2, ptr noundef %18)
  br label %14, !llvm.loop !7

19:                                               ; preds = %14
  %20 = getelementptr inbounds %struct.lines, ptr %2, i32 0, i32 1
  %21 = load i32, ptr %20, align 4
  %22 = icmp ne i32 %21, 0
  br i1 %22, label %23, label %28

23:                                               ; preds = %19
  %24 = getelementptr inbounds %struct.lines, ptr %2, i32 0, i32 0
  %25 = load ptr, ptr %24, align 4
  %26 = getelementptr inbounds %struct.lines, ptr %2, i32 0, i32 1
  %27 = load i32, ptr %26, align 4
  call void @qsort(ptr noundef %25, i32 noundef %27, i32 noundef 4, ptr noundef @compare)
  br label %28

28:                                               ; preds = %23, %19
  store i32 0, ptr %4, align 4
  store i32 0, ptr %5, align 4
  br label %29

29:                                               ; preds = %64, %28
  %30 = load i32, ptr %5, align 4
  %31 = getelementptr inbounds %struct.lines, ptr %2, i32 0, i32 1
  %32 = load i32, ptr %31, align 4
  %33 = icmp ult i32 %30, %32
  br i1 %33, label %34, label %67

34:                                               ; preds = %29
  %35 = load i8, ptr getelementptr inbounds (%struct.anon, ptr @options, i32 0, i32 2), align 2
  %36 = trunc i8 %35 to i1
  br i1 %36, label %37, label %55

37:                                               ; preds = %34
  %38 = load i32, ptr %5, align 4
  %39 = icmp ugt i32 %38, 0
  br i1 %39, label %40, label %55

40:                                               ; preds = %37
  %41 = getelementptr inbounds %struct.lines, ptr %2, i32 0, i32 0
  %42 = load ptr, ptr %41, align 4
  %43 = load i32, ptr %5, align 4
  %44 = sub i32 %43, 1
  %45 = getelementptr inbounds ptr, ptr %42, i32 %44
  %46 = load ptr, ptr %45, align 4
  %47 = getelementptr inbounds %struct.lines, ptr %2, i32 0, i32 0
  %48 = load ptr, ptr %47, align 4
  %49 = load i32, ptr %5, align 4
  %50 = getelementptr inbounds ptr, ptr %48, i32 %49
  %51 = load ptr, ptr %50, align 4
  %52 = call i32 @order(ptr noundef %46, ptr noundef %51)
  %53 = icmp eq i32 %52, 0
  br i1 %53, label %54, label %55

54:                                               ; preds = %40
  br label %64

55:                                               ; preds = %40, %37, %34
  %56 = getelementptr inbounds %struct.lines, ptr %2, i32 0, i32 0
  %57 = load ptr, ptr %56, align 4
  %58 = load i32, ptr %5, align 4
  %59 = getelementptr inbounds ptr, ptr %57, i32 %58
  %60 = load ptr, ptr %59, align 4
  %61 = call i32 @puts(ptr noundef %60)
  %62 = load i32, ptr %4, align 4
  %63 = add i32 %62, 1
  store i32 %63, ptr %4, align 4
  br label %64

64:                                               ; preds = %55, %54
  %65 = load i32, ptr %5, align 4
  %66 = add i32 %65, 1
  store i32 %66, ptr %5, align 4
  br label %29, !llvm.loop !9

67:                                               ; preds = %29
  store i32 0, ptr %6, align 4
  br label %68

68:                                               ; preds = %79, %67
  %69 = load i32, ptr %6, align 4
  %70 = getelementptr inbounds %struct.lines, ptr %2, i32 0, i32 1
  %71 = load i32, ptr %70, align 4
  %72 = icmp ult i32 %69, %71
  br i1 %72, label %73, label %82

73:                                               ; preds = %68
  %74 = getelementptr inbounds %struct.lines, ptr %2, i32 0, i32 0
  %75 = load ptr, ptr %74, align 4
  %76 = load i32, ptr %6, align 4
  %77 = getelementptr inbounds ptr, ptr %75, i32 %76
  %78 = load ptr, ptr %77, align 4
  call void @__sized_free(ptr noundef %78)
  br label %79

79:                                               ; preds = %73
  %80 = load i32, ptr %6, align 4
  %81 = add i32 %80, 1
  store i32 %81, ptr %6, align 4
  br label %68, !llvm.loop !10

82:                                               ; preds = %68
  %83 = getelementptr inbounds %struct.lines, ptr %2, i32 0, i32 0
  %84 = load ptr, ptr %83, align 4
  call void @__sized_free(ptr noundef %84)
  %85 = load i32, ptr %4, align 4
  %86 = getelementptr inbounds %struct.lines, ptr %2, i32 0, i32 1
  %87 = load i32, ptr %86, align 4
  %88 = zext i32 %85 to i64
  %89 = call i32 @__print_unsigned(ptr getelementptr inbounds ([3 x { i8, i8, i8, i8, ptr, i32 }], ptr @__streams, i32 0, i32 1), i64 %88, i32 10, i32 0, i32 0, i32 -1)
  %90 = call i32 @__print_text(ptr getelementptr inbounds ([3 x { i8, i8, i8, i8, ptr, i32 }], ptr @__streams, i32 0, i32 1), ptr getelementptr inbounds (i8, ptr @.str, i32 3), i32 4)
  %91 = zext i32 %87 to i64
  %92 = call i32 @__print_unsigned(ptr getelementptr inbounds ([3 x { i8, i8, i8, i8, ptr, i32 }], ptr @__streams, i32 0, i32 1), i64 %91, i32 10, i32 0, i32 0, i32 -1)
  %93 = call i32 @__print_text(ptr getelementptr inbounds ([3 x { i8, i8, i8, i8, ptr, i32 }], ptr @__streams, i32 0, i32 1), ptr getelementptr inbounds (i8, ptr @.str, i32 10), i32 7)
  %94 = add i32 %89, %90
  %95 = add i32 %94, %92
  %96 = add i32 %95, %93
  %97 = add i32 %96, 0
  %98 = load i32, ptr %4, align 4
  store i32 %98, ptr %1, align 4
  br label %99

99:                                               ; preds = %82, %10
  %100 = load i32, ptr %1, align 4
  ret i32 %100
}

; Function Attrs: nocallback nofree nounwind willreturn memory(argmem: write)
declare void @llvm.memset.p0.i32(ptr nocapture writeonly, i8, i32, i1 immarg) #1

; Function Attrs: noinline nounwind optnone uwtable
define internal ptr @read_line() #0 {
  %1 = alloca ptr, align 4
  %2 = alloca i32, align 4
  %3 = alloca i32, align 4
  %4 = alloca ptr, align 4
  %5 = alloca i32, align 4
  store i32 0, ptr %2, align 4
  store i32 16, ptr %3, align 4
  %6 = load i32, ptr %3, align 4
  %7 = call ptr @__sized_malloc(i32 noundef %6) #13
  %8 = call ptr @needed(ptr noundef %7)
  store ptr %8, ptr %4, align 4
  br label %9

9:                                                ; preds = %28, %0
  %10 = call i32 @getc(ptr noundef @__streams)
  store i32 %10, ptr %5, align 4
  %11 = icmp ne i32 %10, -1
  br i1 %11, label %12, label %15

12:                                               ; preds = %9
  %13 = load i32, ptr %5, align 4
  %14 = icmp ne i32 %13, 10
  br label %15

15:                                               ; preds = %12, %9
  %16 = phi i1 [ false, %9 ], [ %14, %12 ]
  br i1 %16, label %17, label %35

17:                                               ; preds = %15
  %18 = load i32, ptr %2, align 4
  %19 = add i32 %18, 1
  %20 = load i32, ptr %3, align 4
  %21 = icmp eq i32 %19, %20
  br i1 %21, label %22, label %28

22:                                               ; preds = %17
  %23 = load ptr, ptr %4, align 4
  %24 = load i32, ptr %3, align 4
  %25 = mul i32 %24, 2
  store i32 %25, ptr %3, align 4
  %26 = call ptr @realloc(ptr noundef %23, i32 noundef %25) #14
  %27 = call ptr @needed(ptr noundef %26)
  store ptr %27, ptr %4, align 4
  br label %28

28:                                               ; preds = %22, %17
  %29 = load i32, ptr %5, align 4
  %30 = trunc i32 %29 to i8
  %31 = load ptr, ptr %4, align 4
  %32 = load i32, ptr %2, align 4
  %33 = add i32 %32, 1
  store i32 %33, ptr %2, align 4
  %34 = getelementptr inbounds i8, ptr %31, i32 %32
  store i8 %30, ptr %34, align 1
  br label %9, !llvm.loop !11

35:                                               ; preds = %15
  %36 = load i32, ptr %5, align 4
  %37 = icmp eq i32 %36, -1
  br i1 %37, label %38, label %43

38:                                               ; preds = %35
  %39 = load i32, ptr %2, align 4
  %40 = icmp eq i32 %39, 0
  br i1 %40, label %41, label %43

41:                                               ; preds = %38
  %42 = load ptr, ptr %4, align 4
  call void @__sized_free(ptr noundef %42)
  store ptr null, ptr %1, align 4
  br label %48

43:                                               ; preds = %38, %35
  %44 = load ptr, ptr %4, align 4
  %45 = load i32, ptr %2, align 4
  %46 = getelementptr inbounds i8, ptr %44, i32 %45
  store i8 0, ptr %46, align 1
  %47 = load ptr, ptr %4, align 4
  store ptr %47, ptr %1, align 4
  br label %48

48:                                               ; preds = %43, %41
  %49 = load ptr, ptr %1, align 4
  ret ptr %49
}

; Function Attrs: noinline nounwind optnone uwtable
define internal void @read_options(ptr noundef %0) #0 {
  %2 = alloca ptr, align 4
  store ptr %0, ptr %2, align 4
  br label %3

3:                                                ; preds = %31, %1
  %4 = load ptr, ptr %2, align 4
  %5 = load i8, ptr %4, align 1
  %6 = icmp ne i8 %5, 0
  br i1 %6, label %7, label %34

7:                                                ; preds = %3
  %8 = load ptr, ptr %2, align 4
  %9 = load i8, ptr %8, align 1
  %10 = sext i8 %9 to i32
  switch i32 %10, label %29 [
    i32 110, label %11
    i32 114, label %12
    i32 117, label %13
    i32 102, label %14
    i32 107, label %15
  ]

11:                                               ; preds = %7
  store i8 1, ptr @options, align 4
  br label %30

12:                                               ; preds = %7
  store i8 1, ptr getelementptr inbounds (%struct.anon, ptr @options, i32 0, i32 1), align 1
  br label %30

13:                                               ; preds = %7
  store i8 1, ptr getelementptr inbounds (%struct.anon, ptr @options, i32 0, i32 2), align 2
  br label %30

14:                                               ; preds = %7
  store i8 1, ptr getelementptr inbounds (%struct.anon, ptr @options, i32 0, i32 3), align 1
  br label %30

15:                                               ; preds = %7
  %16 = load ptr, ptr %2, align 4
  %17 = getelementptr inbounds i8, ptr %16, i32 1
  %18 = load i8, ptr %17, align 1
  %19 = zext i8 %18 to i32
  %20 = call i32 @isdigit(i32 noundef %19) #15
  %21 = icmp ne i32 %20, 0
  br i1 %21, label %22, label %28

22:                                               ; preds = %15
  %23 = load ptr, ptr %2, align 4
  %24 = getelementptr inbounds i8, ptr %23, i32 1
  store ptr %24, ptr %2, align 4
  %25 = load i8, ptr %24, align 1
  %26 = sext i8 %25 to i32
  %27 = sub nsw i32 %26, 48
  store i32 %27, ptr getelementptr inbounds (%struct.anon, ptr @options, i32 0, i32 4), align 4
  br label %28

28:                                               ; preds = %22, %15
  br label %30

29:                                               ; preds = %7
  br label %30

30:                                               ; preds = %29, %28, %14, %13, %12, %11
  br label %31

31:                                               ; preds = %30
  %32 = load ptr, ptr %2, align 4
  %33 = getelementptr inbounds i8, ptr %32, i32 1
  store ptr %33, ptr %2, align 4
  br label %3, !llvm.loop !12

34:                                               ; preds = %3
  ret void
}

; Function Attrs: noinline nounwind optsize uwtable
define internal void @__sized_free(ptr noundef %0) local_unnamed_addr #2 {
  %2 = icmp eq ptr %0, null
  br i1 %2, label %5, label %3

3:                                                ; preds = %1
  %4 = getelementptr inbounds i8, ptr %0, i32 -16
  tail call void @free(ptr noundef nonnull %4) #16
  br label %5

5:                                                ; preds = %3, %1
  ret void
}

; Function Attrs: noinline nounwind optnone uwtable
define internal void @add(ptr noundef %0, ptr noundef %1) #0 {
  %3 = alloca ptr, align 4
  %4 = alloca ptr, align 4
  store ptr %0, ptr %3, align 4
  store ptr %1, ptr %4, align 4
  %5 = load ptr, ptr %3, align 4
  %6 = getelementptr inbounds %struct.lines, ptr %5, i32 0, i32 1
  %7 = load i32, ptr %6, align 4
  %8 = load ptr, ptr %3, align 4
  %9 = getelementptr inbounds %struct.lines, ptr %8, i32 0, i32 2
  %10 = load i32, ptr %9, align 4
  %11 = icmp eq i32 %7, %10
  br i1 %11, label %12, label %38

12:                                               ; preds = %2
  %13 = load ptr, ptr %3, align 4
  %14 = getelementptr inbounds %struct.lines, ptr %13, i32 0, i32 2
  %15 = load i32, ptr %14, align 4
  %16 = icmp ne i32 %15, 0
  br i1 %16, label %17, label %22

17:                                               ; preds = %12
  %18 = load ptr, ptr %3, align 4
  %19 = getelementptr inbounds %struct.lines, ptr %18, i32 0, i32 2
  %20 = load i32, ptr %19, align 4
  %21 = mul i32 2, %20
  br label %23

22:                                               ; preds = %12
  br label %23

23:                                               ; preds = %22, %17
  %24 = phi i32 [ %21, %17 ], [ 4, %22 ]
  %25 = load ptr, ptr %3, align 4
  %26 = getelementptr inbounds %struct.lines, ptr %25, i32 0, i32 2
  store i32 %24, ptr %26, align 4
  %27 = load ptr, ptr %3, align 4
  %28 = getelementptr inbounds %struct.lines, ptr %27, i32 0, i32 0
  %29 = load ptr, ptr %28, align 4
  %30 = load ptr, ptr %3, align 4
  %31 = getelementptr inbounds %struct.lines, ptr %30, i32 0, i32 2
  %32 = load i32, ptr %31, align 4
  %33 = mul i32 %32, 4
  %34 = call ptr @realloc(ptr noundef %29, i32 noundef %33) #14
  %35 = call ptr @needed(ptr noundef %34)
  %36 = load ptr, ptr %3, align 4
  %37 = getelementptr inbounds %struct.lines, ptr %36, i32 0, i32 0
  store ptr %35, ptr %37, align 4
  br label %38

38:                                               ; preds = %23, %2
  %39 = load ptr, ptr %4, align 4
  %40 = load ptr, ptr %3, align 4
  %41 = getelementptr inbounds %struct.lines, ptr %40, i32 0, i32 0
  %42 = load ptr, ptr %41, align 4
  %43 = load ptr, ptr %3, align 4
  %44 = getelementptr inbounds %struct.lines, ptr %43, i32 0, i32 1
  %45 = load i32, ptr %44, align 4
  %46 = add i32 %45, 1
  store i32 %46, ptr %44, align 4
  %47 = getelementptr inbounds ptr, ptr %42, i32 %45
  store ptr %39, ptr %47, align 4
  ret void
}

; Function Attrs: noinline nounwind optnone uwtable
define internal i32 @compare(ptr noundef %0, ptr noundef %1) #0 {
  %3 = alloca ptr, align 4
  %4 = alloca ptr, align 4
  %5 = alloca i32, align 4
  store ptr %0, ptr %3, align 4
  store ptr %1, ptr %4, align 4
  %6 = load ptr, ptr %3, align 4
  %7 = load ptr, ptr %6, align 4
  %8 = load ptr, ptr %4, align 4
  %9 = load ptr, ptr %8, align 4
  %10 = call i32 @order(ptr noundef %7, ptr noundef %9)
  store i32 %10, ptr %5, align 4
  %11 = load i8, ptr getelementptr inbounds (%struct.anon, ptr @options, i32 0, i32 1), align 1
  %12 = trunc i8 %11 to i1
  br i1 %12, label %13, label %16

13:                                               ; preds = %2
  %14 = load i32, ptr %5, align 4
  %15 = sub nsw i32 0, %14
  br label %18

16:                                               ; preds = %2
  %17 = load i32, ptr %5, align 4
  br label %18

18:                                               ; preds = %16, %13
  %19 = phi i32 [ %15, %13 ], [ %17, %16 ]
  ret i32 %19
}

; Function Attrs: nounwind optsize uwtable
define internal void @qsort(ptr noundef %0, i32 noundef %1, i32 noundef %2, ptr noundef %3) #3 {
  %5 = icmp ult i32 %1, 2
  %6 = icmp eq i32 %2, 0
  %7 = or i1 %5, %6
  br i1 %7, label %35, label %8

8:                                                ; preds = %4
  %9 = lshr i32 %1, 1
  %10 = mul i32 %9, %2
  %11 = tail call ptr @__sized_malloc(i32 noundef %10) #16
  %12 = icmp eq ptr %11, null
  br i1 %12, label %13, label %34

13:                                               ; preds = %13, %8
  %14 = phi i32 [ %15, %13 ], [ %9, %8 ]
  %15 = add nsw i32 %14, -1
  tail call fastcc void @sink(ptr noundef %0, i32 noundef %15, i32 noundef %1, i32 noundef %2, ptr noundef readonly %3) #17
  %16 = icmp eq i32 %15, 0
  br i1 %16, label %17, label %13, !llvm.loop !13

17:                                               ; preds = %32, %13
  %18 = phi i32 [ %19, %32 ], [ %1, %13 ]
  %19 = add i32 %18, -1
  %20 = mul i32 %19, %2
  %21 = getelementptr inbounds i8, ptr %0, i32 %20
  br label %22

22:                                               ; preds = %22, %17
  %23 = phi ptr [ %29, %22 ], [ %0, %17 ]
  %24 = phi i32 [ %26, %22 ], [ %2, %17 ]
  %25 = phi ptr [ %30, %22 ], [ %21, %17 ]
  %26 = add i32 %24, -1
  %27 = load i8, ptr %23, align 1, !tbaa !14
  %28 = load i8, ptr %25, align 1, !tbaa !14
  %29 = getelementptr inbounds i8, ptr %23, i32 1
  store i8 %28, ptr %23, align 1, !tbaa !14
  %30 = getelementptr inbounds i8, ptr %25, i32 1
  store i8 %27, ptr %25, align 1, !tbaa !14
  %31 = icmp eq i32 %26, 0
  br i1 %31, label %32, label %22, !llvm.loop !17

32:                                               ; preds = %22
  tail call fastcc void @sink(ptr noundef %0, i32 noundef 0, i32 noundef %19, i32 noundef %2, ptr noundef readonly %3) #17
  %33 = icmp ugt i32 %19, 1
  br i1 %33, label %17, label %35, !llvm.loop !18

34:                                               ; preds = %8
  tail call fastcc void @merge_sort(ptr noundef %0, i32 noundef %1, i32 noundef %2, ptr noundef %3, ptr noundef nonnull %11) #17
  tail call void @__sized_free(ptr noundef nonnull %11) #16
  br label %35

35:                                               ; preds = %34, %32, %4
  ret void
}

; Function Attrs: noinline nounwind optnone uwtable
define internal i32 @order(ptr noundef %0, ptr noundef %1) #0 {
  %3 = alloca i32, align 4
  %4 = alloca ptr, align 4
  %5 = alloca ptr, align 4
  %6 = alloca i32, align 4
  %7 = alloca i32, align 4
  store ptr %0, ptr %4, align 4
  store ptr %1, ptr %5, align 4
  %8 = load ptr, ptr %4, align 4
  %9 = call ptr @key(ptr noundef %8)
  store ptr %9, ptr %4, align 4
  %10 = load ptr, ptr %5, align 4
  %11 = call ptr @key(ptr noundef %10)
  store ptr %11, ptr %5, align 4
  %12 = load i8, ptr @options, align 4
  %13 = trunc i8 %12 to i1
  br i1 %13, label %14, label %29

14:                                               ; preds = %2
  %15 = load ptr, ptr %4, align 4
  %16 = call i32 @strtol(ptr noundef %15, ptr noundef null, i32 noundef 10)
  store i32 %16, ptr %6, align 4
  %17 = load ptr, ptr %5, align 4
  %18 = call i32 @strtol(ptr noundef %17, ptr noundef null, i32 noundef 10)
  store i32 %18, ptr %7, align 4
  %19 = load i32, ptr %6, align 4
  %20 = load i32, ptr %7, align 4
  %21 = icmp ne i32 %19, %20
  br i1 %21, label %22, label %28

22:                                               ; preds = %14
  %23 = load i32, ptr %6, align 4
  %24 = load i32, ptr %7, align 4
  %25 = icmp slt i32 %23, %24
  %26 = zext i1 %25 to i64
  %27 = select i1 %25, i32 -1, i32 1
  store i32 %27, ptr %3, align 4
  br label %42

28:                                               ; preds = %14
  br label %29

29:                                               ; preds = %28, %2
  %30 = load i8, ptr getelementptr inbounds (%struct.anon, ptr @options, i32 0, i32 3), align 1
  %31 = trunc i8 %30 to i1
  br i1 %31, label %32, label %36

32:                                               ; preds = %29
  %33 = load ptr, ptr %4, align 4
  %34 = load ptr, ptr %5, align 4
  %35 = call i32 @strcasecmp(ptr noundef %33, ptr noundef %34)
  br label %40

36:                                               ; preds = %29
  %37 = load ptr, ptr %4, align 4
  %38 = load ptr, ptr %5, align 4
  %39 = call i32 @strcmp(ptr noundef %37, ptr noundef %38) #18
  br label %40

40:                                               ; preds = %36, %32
  %41 = phi i32 [ %35, %32 ], [ %39, %36 ]
  store i32 %41, ptr %3, align 4
  br label %42

42:                                               ; preds = %40, %22
  %43 = load i32, ptr %3, align 4
  ret i32 %43
}

declare dso_local i32 @puts(ptr noundef) #4

; Function Attrs: nounwind optsize uwtable
define internal i32 @__print_unsigned(ptr nocapture noundef %0, i64 noundef %1, i32 noundef %2, i32 noundef %3, i32 noundef %4, i32 noundef %5) #3 {
  %7 = alloca [24 x i8], align 1
  call void @llvm.lifetime.start.p0(i64 24, ptr nonnull %7) #18
  %8 = and i32 %3, 32
  %9 = icmp eq i32 %8, 0
  %10 = select i1 %9, ptr @.str.9, ptr @.str.8
  %11 = icmp ult i64 %1, 4294967296
  br i1 %11, label %14, label %12

12:                                               ; preds = %6
  %13 = zext i32 %2 to i64
  br label %27

14:                                               ; preds = %6
  %15 = trunc nuw i64 %1 to i32
  %16 = icmp eq i32 %15, 0
  br i1 %16, label %40, label %17

17:                                               ; preds = %17, %14
  %18 = phi i32 [ %25, %17 ], [ %15, %14 ]
  %19 = phi i32 [ %23, %17 ], [ 24, %14 ]
  %20 = urem i32 %18, %2
  %21 = getelementptr inbounds i8, ptr %10, i32 %20
  %22 = load i8, ptr %21, align 1, !tbaa !14
  %23 = add nsw i32 %19, -1
  %24 = getelementptr inbounds i8, ptr %7, i32 %23
  store i8 %22, ptr %24, align 1, !tbaa !14
  %25 = udiv i32 %18, %2
  %26 = icmp ult i32 %18, %2
  br i1 %26, label %40, label %17, !llvm.loop !19

27:                                               ; preds = %27, %12
  %28 = phi i32 [ 24, %12 ], [ %37, %27 ]
  %29 = phi i64 [ %1, %12 ], [ %31, %27 ]
  %30 = freeze i64 %29
  %31 = udiv i64 %30, %13
  %32 = mul i64 %31, %13
  %33 = sub i64 %30, %32
  %34 = trunc nuw i64 %33 to i32
  %35 = getelementptr inbounds i8, ptr %10, i32 %34
  %36 = load i8, ptr %35, align 1, !tbaa !14
  %37 = add nsw i32 %28, -1
  %38 = getelementptr inbounds i8, ptr %7, i32 %37
  store i8 %36, ptr %38, align 1, !tbaa !14
  %39 = icmp ult i64 %29, %13
  br i1 %39, label %40, label %27, !llvm.loop !20

40:                                               ; preds = %27, %17, %14
  %41 = phi i32 [ 24, %14 ], [ %23, %17 ], [ %37, %27 ]
  %42 = icmp eq i64 %1, 0
  %43 = icmp ne i32 %5, 0
  %44 = and i1 %42, %43
  br i1 %44, label %45, label %48

45:                                               ; preds = %40
  %46 = add nsw i32 %41, -1
  %47 = getelementptr inbounds i8, ptr %7, i32 %46
  store i8 48, ptr %47, align 1, !tbaa !14
  br label %48

48:                                               ; preds = %45, %40
  %49 = phi i32 [ %46, %45 ], [ %41, %40 ]
  %50 = getelementptr inbounds i8, ptr %7, i32 %49
  %51 = and i32 %3, 8
  %52 = icmp ne i32 %51, 0
  %53 = icmp eq i32 %2, 8
  %54 = and i1 %53, %52
  %55 = sub nsw i32 24, %49
  %56 = icmp sge i32 %55, %5
  %57 = select i1 %54, i1 %56, i1 false
  br i1 %57, label %58, label %65

58:                                               ; preds = %48
  %59 = icmp eq i32 %49, 24
  br i1 %59, label %63, label %60

60:                                               ; preds = %58
  %61 = load i8, ptr %50, align 1, !tbaa !14
  %62 = icmp eq i8 %61, 48
  br i1 %62, label %65, label %63

63:                                               ; preds = %60, %58
  %64 = getelementptr inbounds i8, ptr %50, i32 -1
  store i8 48, ptr %64, align 1, !tbaa !14
  br label %65

65:                                               ; preds = %63, %60, %48
  %66 = phi ptr [ %64, %63 ], [ %50, %60 ], [ %50, %48 ]
  %67 = getelementptr inbounds i8, ptr %7, i32 24
  %68 = ptrtoint ptr %67 to i32
  %69 = icmp eq i32 %2, 16
  %70 = icmp ne i64 %1, 0
  %71 = and i1 %70, %69
  %72 = and i1 %71, %52
  %73 = select i1 %9, ptr @.str.6, ptr @.str.5
  %74 = select i1 %72, ptr %73, ptr @.str.13
  %75 = ptrtoint ptr %66 to i32
  %76 = sub i32 %68, %75
  %77 = call fastcc i32 @number(ptr noundef %0, ptr noundef nonnull %74, ptr noundef nonnull %66, i32 noundef %76, i32 noundef %3, i32 noundef %4, i32 noundef %5) #17
  call void @llvm.lifetime.end.p0(i64 24, ptr nonnull %7) #18
  ret i32 %77
}

; Function Attrs: nounwind optsize uwtable
define internal noundef i32 @__print_text(ptr nocapture noundef %0, ptr nocapture noundef readonly %1, i32 noundef returned %2) #3 {
  %4 = load i8, ptr %0, align 4, !tbaa !21, !alias.scope !25, !noalias !28
  %5 = icmp eq i8 %4, 0
  %6 = icmp eq i32 %2, 0
  %7 = or i1 %6, %5
  br i1 %7, label %16, label %8

8:                                                ; preds = %8, %3
  %9 = phi i32 [ %14, %8 ], [ 0, %3 ]
  %10 = getelementptr inbounds i8, ptr %1, i32 %9
  %11 = load i8, ptr %10, align 1, !tbaa !14, !alias.scope !28, !noalias !25
  %12 = zext i8 %11 to i32
  %13 = tail call i32 @fputc(i32 noundef %12, ptr noundef nonnull %0) #17, !noalias !28
  %14 = add nuw i32 %9, 1
  %15 = icmp eq i32 %14, %2
  br i1 %15, label %16, label %8, !llvm.loop !30

16:                                               ; preds = %8, %3
  ret i32 %2
}

; Function Attrs: nounwind optsize uwtable
define internal range(i32 -1, 256) i32 @fputc(i32 noundef %0, ptr nocapture noundef %1) local_unnamed_addr #3 {
  %3 = load i8, ptr %1, align 4, !tbaa !21
  switch i8 %3, label %17 [
    i8 1, label %4
    i8 3, label %6
    i8 0, label %19
  ]

4:                                                ; preds = %2
  %5 = tail call i32 @putchar(i32 noundef %0) #16
  br label %17

6:                                                ; preds = %2
  %7 = getelementptr inbounds i8, ptr %1, i32 8
  %8 = load i32, ptr %7, align 4, !tbaa !31
  %9 = icmp eq i32 %8, 0
  br i1 %9, label %17, label %10

10:                                               ; preds = %6
  %11 = trunc i32 %0 to i8
  %12 = getelementptr inbounds i8, ptr %1, i32 4
  %13 = load ptr, ptr %12, align 4, !tbaa !32
  %14 = getelementptr inbounds i8, ptr %13, i32 1
  store ptr %14, ptr %12, align 4, !tbaa !32
  store i8 %11, ptr %13, align 1, !tbaa !14
  %15 = load i32, ptr %7, align 4, !tbaa !31
  %16 = add i32 %15, -1
  store i32 %16, ptr %7, align 4, !tbaa !31
  br label %17

17:                                               ; preds = %10, %6, %4, %2
  %18 = and i32 %0, 255
  br label %19

19:                                               ; preds = %17, %2
  %20 = phi i32 [ %18, %17 ], [ -1, %2 ]
  ret i32 %20
}

; Function Attrs: optsize
declare dso_local i32 @putchar(i32 noundef) local_unnamed_addr #5

; Function Attrs: nocallback nofree nosync nounwind willreturn memory(argmem: readwrite)
declare void @llvm.lifetime.start.p0(i64 immarg, ptr nocapture) #6

; Function Attrs: nounwind optsize uwtable
define internal fastcc i32 @number(ptr nocapture noundef %0, ptr noundef %1, ptr nocapture noundef readonly %2, i32 noundef %3, i32 noundef %4, i32 noundef %5, i32 noundef %6) unnamed_addr #3 {
  br label %8

8:                                                ; preds = %8, %7
  %9 = phi ptr [ %1, %7 ], [ %12, %8 ]
  %10 = load i8, ptr %9, align 1, !tbaa !14
  %11 = icmp eq i8 %10, 0
  %12 = getelementptr inbounds i8, ptr %9, i32 1
  br i1 %11, label %13, label %8, !llvm.loop !33

13:                                               ; preds = %8
  %14 = ptrtoint ptr %9 to i32
  %15 = ptrtoint ptr %1 to i32
  %16 = sub i32 %14, %15
  %17 = sub nsw i32 %6, %3
  %18 = lshr i32 %5, 31
  %19 = icmp ne i32 %18, 0
  %20 = sub i32 0, %5
  %21 = select i1 %19, i32 %20, i32 %5
  %22 = lshr i32 %5, 31
  %23 = tail call i32 @llvm.smax.i32(i32 %17, i32 0)
  %24 = icmp slt i32 %6, 0
  %25 = and i32 %4, 16
  %26 = icmp ne i32 %25, 0
  %27 = and i1 %26, %24
  %28 = and i32 %4, 1
  %29 = or i32 %22, %28
  %30 = icmp eq i32 %29, 0
  %31 = and i1 %27, %30
  %32 = add i32 %16, %3
  %33 = icmp sgt i32 %21, %32
  %34 = select i1 %31, i1 %33, i1 false
  %35 = sub i32 %21, %32
  %36 = select i1 %34, i32 %35, i32 %23
  %37 = add i32 %32, %36
  %38 = sub i32 %21, %37
  br i1 %30, label %39, label %48

39:                                               ; preds = %13
  %40 = icmp sgt i32 %38, 0
  br i1 %40, label %41, label %46

41:                                               ; preds = %41, %39
  %42 = phi i32 [ %44, %41 ], [ 0, %39 ]
  %43 = tail call i32 @fputc(i32 noundef 32, ptr noundef %0) #17
  %44 = add nuw nsw i32 %42, 1
  %45 = icmp eq i32 %44, %38
  br i1 %45, label %46, label %41, !llvm.loop !34

46:                                               ; preds = %41, %39
  %47 = tail call noundef i32 @llvm.smax.i32(i32 %38, i32 0)
  br label %48

48:                                               ; preds = %46, %13
  %49 = phi i32 [ 0, %13 ], [ %47, %46 ]
  %50 = load i8, ptr %0, align 4, !tbaa !21, !alias.scope !35, !noalias !38
  %51 = icmp eq i8 %50, 0
  %52 = icmp eq ptr %9, %1
  %53 = or i1 %52, %51
  br i1 %53, label %62, label %54

54:                                               ; preds = %54, %48
  %55 = phi i32 [ %60, %54 ], [ 0, %48 ]
  %56 = getelementptr inbounds i8, ptr %1, i32 %55
  %57 = load i8, ptr %56, align 1, !tbaa !14, !alias.scope !38, !noalias !35
  %58 = zext i8 %57 to i32
  %59 = tail call i32 @fputc(i32 noundef %58, ptr noundef nonnull %0) #17, !noalias !38
  %60 = add nuw i32 %55, 1
  %61 = icmp eq i32 %60, %16
  br i1 %61, label %62, label %54, !llvm.loop !30

62:                                               ; preds = %54, %48
  %63 = icmp sgt i32 %36, 0
  br i1 %63, label %64, label %69

64:                                               ; preds = %64, %62
  %65 = phi i32 [ %67, %64 ], [ 0, %62 ]
  %66 = tail call i32 @fputc(i32 noundef 48, ptr noundef nonnull %0) #17
  %67 = add nuw nsw i32 %65, 1
  %68 = icmp eq i32 %67, %36
  br i1 %68, label %69, label %64, !llvm.loop !34

69:                                               ; preds = %64, %62
  %70 = tail call noundef i32 @llvm.smax.i32(i32 %36, i32 0)
  %71 = load i8, ptr %0, align 4, !tbaa !21, !alias.scope !40, !noalias !43
  %72 = icmp eq i8 %71, 0
  %73 = icmp eq i32 %3, 0
  %74 = or i1 %73, %72
  br i1 %74, label %83, label %75

75:                                               ; preds = %75, %69
  %76 = phi i32 [ %81, %75 ], [ 0, %69 ]
  %77 = getelementptr inbounds i8, ptr %2, i32 %76
  %78 = load i8, ptr %77, align 1, !tbaa !14, !alias.scope !43, !noalias !40
  %79 = zext i8 %78 to i32
  %80 = tail call i32 @fputc(i32 noundef %79, ptr noundef nonnull %0) #17, !noalias !43
  %81 = add nuw i32 %76, 1
  %82 = icmp eq i32 %81, %3
  br i1 %82, label %83, label %75, !llvm.loop !30

83:                                               ; preds = %75, %69
  %84 = add i32 %32, %70
  %85 = add i32 %84, %49
  br i1 %30, label %96, label %86

86:                                               ; preds = %83
  %87 = icmp sgt i32 %38, 0
  br i1 %87, label %88, label %93

88:                                               ; preds = %88, %86
  %89 = phi i32 [ %91, %88 ], [ 0, %86 ]
  %90 = tail call i32 @fputc(i32 noundef 32, ptr noundef nonnull %0) #17
  %91 = add nuw nsw i32 %89, 1
  %92 = icmp eq i32 %91, %38
  br i1 %92, label %93, label %88, !llvm.loop !34

93:                                               ; preds = %88, %86
  %94 = tail call noundef i32 @llvm.smax.i32(i32 %38, i32 0)
  %95 = add nsw i32 %85, %94
  br label %96

96:                                               ; preds = %93, %83
  %97 = phi i32 [ %95, %93 ], [ %85, %83 ]
  ret i32 %97
}

; Function Attrs: nocallback nofree nosync nounwind willreturn memory(argmem: readwrite)
declare void @llvm.lifetime.end.p0(i64 immarg, ptr nocapture) #6

; Function Attrs: nocallback nofree nosync nounwind speculatable willreturn memory(none)
declare i32 @llvm.smax.i32(i32, i32) #7

; Function Attrs: noinline nounwind optnone uwtable
define internal ptr @key(ptr noundef %0) #0 {
  %2 = alloca ptr, align 4
  %3 = alloca i32, align 4
  store ptr %0, ptr %2, align 4
  store i32 1, ptr %3, align 4
  br label %4

4:                                                ; preds = %37, %1
  %5 = load i32, ptr %3, align 4
  %6 = load i32, ptr getelementptr inbounds (%struct.anon, ptr @options, i32 0, i32 4), align 4
  %7 = icmp slt i32 %5, %6
  br i1 %7, label %8, label %40

8:                                                ; preds = %4
  br label %9

9:                                                ; preds = %15, %8
  %10 = load ptr, ptr %2, align 4
  %11 = load i8, ptr %10, align 1
  %12 = zext i8 %11 to i32
  %13 = call i32 @isspace(i32 noundef %12) #15
  %14 = icmp ne i32 %13, 0
  br i1 %14, label %15, label %18

15:                                               ; preds = %9
  %16 = load ptr, ptr %2, align 4
  %17 = getelementptr inbounds i8, ptr %16, i32 1
  store ptr %17, ptr %2, align 4
  br label %9, !llvm.loop !45

18:                                               ; preds = %9
  br label %19

19:                                               ; preds = %33, %18
  %20 = load ptr, ptr %2, align 4
  %21 = load i8, ptr %20, align 1
  %22 = sext i8 %21 to i32
  %23 = icmp ne i32 %22, 0
  br i1 %23, label %24, label %31

24:                                               ; preds = %19
  %25 = load ptr, ptr %2, align 4
  %26 = load i8, ptr %25, align 1
  %27 = zext i8 %26 to i32
  %28 = call i32 @isspace(i32 noundef %27) #15
  %29 = icmp ne i32 %28, 0
  %30 = xor i1 %29, true
  br label %31

31:                                               ; preds = %24, %19
  %32 = phi i1 [ false, %19 ], [ %30, %24 ]
  br i1 %32, label %33, label %36

33:                                               ; preds = %31
  %34 = load ptr, ptr %2, align 4
  %35 = getelementptr inbounds i8, ptr %34, i32 1
  store ptr %35, ptr %2, align 4
  br label %19, !llvm.loop !46

36:                                               ; preds = %31
  br label %37

37:                                               ; preds = %36
  %38 = load i32, ptr %3, align 4
  %39 = add nsw i32 %38, 1
  store i32 %39, ptr %3, align 4
  br label %4, !llvm.loop !47

40:                                               ; preds = %4
  %41 = load i32, ptr getelementptr inbounds (%struct.anon, ptr @options, i32 0, i32 4), align 4
  %42 = icmp ne i32 %41, 0
  br i1 %42, label %43, label %54

43:                                               ; preds = %40
  br label %44

44:                                               ; preds = %50, %43
  %45 = load ptr, ptr %2, align 4
  %46 = load i8, ptr %45, align 1
  %47 = zext i8 %46 to i32
  %48 = call i32 @isspace(i32 noundef %47) #15
  %49 = icmp ne i32 %48, 0
  br i1 %49, label %50, label %53

50:                                               ; preds = %44
  %51 = load ptr, ptr %2, align 4
  %52 = getelementptr inbounds i8, ptr %51, i32 1
  store ptr %52, ptr %2, align 4
  br label %44, !llvm.loop !48

53:                                               ; preds = %44
  br label %54

54:                                               ; preds = %53, %40
  %55 = load ptr, ptr %2, align 4
  ret ptr %55
}

; Function Attrs: nofree norecurse nosync nounwind optsize memory(readwrite, inaccessiblemem: none) uwtable
define internal i32 @strtol(ptr noalias noundef %0, ptr noalias noundef %1, i32 noundef %2) #8 {
  %4 = alloca %struct.number, align 8
  call void @llvm.lifetime.start.p0(i64 16, ptr nonnull %4) #18
  %5 = call fastcc ptr @scan(ptr noundef nonnull %4, ptr noundef %0, ptr noundef %1, i32 noundef %2, i64 noundef 2147483647, i64 noundef 2147483648) #17
  %6 = getelementptr inbounds i8, ptr %4, i32 8
  %7 = load i32, ptr %6, align 8, !tbaa !49
  %8 = icmp eq i32 %7, 0
  %9 = load i64, ptr %4, align 8
  %10 = sub i64 0, %9
  %11 = select i1 %8, i64 %9, i64 %10
  %12 = trunc i64 %11 to i32
  call void @llvm.lifetime.end.p0(i64 16, ptr nonnull %4) #18
  ret i32 %12
}

; Function Attrs: nofree norecurse nosync nounwind optsize memory(read, inaccessiblemem: none) uwtable
define internal i32 @strcasecmp(ptr nocapture noundef readonly %0, ptr nocapture noundef readonly %1) #9 {
  %3 = tail call i32 @strncasecmp(ptr noundef %0, ptr noundef %1, i32 noundef -1) #17
  ret i32 %3
}

; Function Attrs: nofree norecurse nosync nounwind optsize memory(read, inaccessiblemem: none) uwtable
define internal range(i32 -1, 2) i32 @strcmp(ptr nocapture noundef readonly %0, ptr nocapture noundef readonly %1) #9 {
  %3 = load i8, ptr %0, align 1, !tbaa !14
  %4 = icmp eq i8 %3, 0
  br i1 %4, label %16, label %5

5:                                                ; preds = %11, %2
  %6 = phi i8 [ %14, %11 ], [ %3, %2 ]
  %7 = phi ptr [ %13, %11 ], [ %1, %2 ]
  %8 = phi ptr [ %12, %11 ], [ %0, %2 ]
  %9 = load i8, ptr %7, align 1, !tbaa !14
  %10 = icmp eq i8 %6, %9
  br i1 %10, label %11, label %16

11:                                               ; preds = %5
  %12 = getelementptr inbounds i8, ptr %8, i32 1
  %13 = getelementptr inbounds i8, ptr %7, i32 1
  %14 = load i8, ptr %12, align 1, !tbaa !14
  %15 = icmp eq i8 %14, 0
  br i1 %15, label %16, label %5, !llvm.loop !52

16:                                               ; preds = %11, %5, %2
  %17 = phi ptr [ %1, %2 ], [ %13, %11 ], [ %7, %5 ]
  %18 = phi i8 [ 0, %2 ], [ 0, %11 ], [ %6, %5 ]
  %19 = load i8, ptr %17, align 1, !tbaa !14
  %20 = icmp ult i8 %18, %19
  %21 = icmp ugt i8 %18, %19
  %22 = zext i1 %21 to i32
  %23 = select i1 %20, i32 -1, i32 %22
  ret i32 %23
}

; Function Attrs: nofree norecurse nosync nounwind optsize memory(read, inaccessiblemem: none) uwtable
define internal i32 @strncasecmp(ptr nocapture noundef readonly %0, ptr nocapture noundef readonly %1, i32 noundef %2) local_unnamed_addr #9 {
  %4 = icmp eq i32 %2, 0
  br i1 %4, label %47, label %5

5:                                                ; preds = %28, %3
  %6 = phi ptr [ %30, %28 ], [ %1, %3 ]
  %7 = phi ptr [ %29, %28 ], [ %0, %3 ]
  %8 = phi i32 [ %31, %28 ], [ %2, %3 ]
  %9 = load i8, ptr %7, align 1, !tbaa !14
  %10 = icmp eq i8 %9, 0
  %11 = load i8, ptr %6, align 1, !tbaa !14
  br i1 %10, label %12, label %16

12:                                               ; preds = %5
  %13 = zext i8 %11 to i32
  %14 = add nsw i32 %13, -91
  %15 = add nuw nsw i32 %13, 32
  br label %35

16:                                               ; preds = %5
  %17 = zext i8 %9 to i32
  %18 = add nsw i32 %17, -91
  %19 = icmp ult i32 %18, -26
  %20 = add nuw nsw i32 %17, 32
  %21 = select i1 %19, i32 %17, i32 %20
  %22 = zext i8 %11 to i32
  %23 = add nsw i32 %22, -91
  %24 = icmp ult i32 %23, -26
  %25 = add nuw nsw i32 %22, 32
  %26 = select i1 %24, i32 %22, i32 %25
  %27 = icmp eq i32 %21, %26
  br i1 %27, label %28, label %33

28:                                               ; preds = %16
  %29 = getelementptr inbounds i8, ptr %7, i32 1
  %30 = getelementptr inbounds i8, ptr %6, i32 1
  %31 = add i32 %8, -1
  %32 = icmp eq i32 %31, 0
  br i1 %32, label %47, label %5, !llvm.loop !53

33:                                               ; preds = %16
  %34 = zext i8 %9 to i32
  br label %35

35:                                               ; preds = %33, %12
  %36 = phi i32 [ %25, %33 ], [ %15, %12 ]
  %37 = phi i32 [ %23, %33 ], [ %14, %12 ]
  %38 = phi i32 [ %22, %33 ], [ %13, %12 ]
  %39 = phi i32 [ %34, %33 ], [ 0, %12 ]
  %40 = add nsw i32 %39, -91
  %41 = icmp ult i32 %40, -26
  %42 = add nuw nsw i32 %39, 32
  %43 = select i1 %41, i32 %39, i32 %42
  %44 = icmp ult i32 %37, -26
  %45 = select i1 %44, i32 %38, i32 %36
  %46 = sub nsw i32 %43, %45
  br label %47

47:                                               ; preds = %35, %28, %3
  %48 = phi i32 [ %46, %35 ], [ 0, %3 ], [ 0, %28 ]
  ret i32 %48
}

; Function Attrs: nofree norecurse nosync nounwind optsize memory(readwrite, inaccessiblemem: none) uwtable
define internal fastcc noundef ptr @scan(ptr noundef returned writeonly %0, ptr noundef %1, ptr noundef writeonly %2, i32 noundef %3, i64 noundef %4, i64 noundef %5) unnamed_addr #8 {
  store i64 0, ptr %0, align 4, !tbaa !54
  %7 = getelementptr inbounds i8, ptr %0, i32 8
  store i32 0, ptr %7, align 4, !tbaa !49
  %8 = getelementptr inbounds i8, ptr %0, i32 12
  store i32 0, ptr %8, align 4, !tbaa !55
  %9 = icmp eq i32 %3, 1
  %10 = icmp ugt i32 %3, 36
  %11 = or i1 %10, %9
  br i1 %11, label %12, label %13

12:                                               ; preds = %6
  store i32 22, ptr @errno, align 4, !tbaa !56
  br label %132

13:                                               ; preds = %6
  %14 = icmp eq ptr %2, null
  br i1 %14, label %16, label %15

15:                                               ; preds = %13
  store ptr %1, ptr %2, align 4, !tbaa !57
  br label %16

16:                                               ; preds = %15, %13
  br label %17

17:                                               ; preds = %17, %16
  %18 = phi ptr [ %25, %17 ], [ %1, %16 ]
  %19 = load i8, ptr %18, align 1, !tbaa !14
  %20 = zext i8 %19 to i32
  %21 = icmp ne i8 %19, 32
  %22 = add nsw i32 %20, -14
  %23 = icmp ult i32 %22, -5
  %24 = and i1 %21, %23
  %25 = getelementptr inbounds i8, ptr %18, i32 1
  br i1 %24, label %26, label %17, !llvm.loop !58

26:                                               ; preds = %17
  switch i8 %19, label %31 [
    i8 45, label %27
    i8 43, label %27
  ]

27:                                               ; preds = %26, %26
  %28 = icmp eq i8 %19, 45
  %29 = zext i1 %28 to i32
  store i32 %29, ptr %7, align 4, !tbaa !49
  %30 = select i1 %28, i64 %5, i64 %4
  br label %31

31:                                               ; preds = %27, %26
  %32 = phi i64 [ %30, %27 ], [ %4, %26 ]
  %33 = phi ptr [ %25, %27 ], [ %18, %26 ]
  %34 = icmp ne i32 %3, 0
  switch i32 %3, label %66 [
    i32 16, label %35
    i32 0, label %35
  ]

35:                                               ; preds = %31, %31
  %36 = load i8, ptr %33, align 1, !tbaa !14
  %37 = icmp eq i8 %36, 48
  br i1 %37, label %38, label %63

38:                                               ; preds = %35
  %39 = getelementptr inbounds i8, ptr %33, i32 1
  %40 = load i8, ptr %39, align 1, !tbaa !14
  switch i8 %40, label %63 [
    i8 120, label %41
    i8 88, label %41
  ]

41:                                               ; preds = %38, %38
  %42 = getelementptr inbounds i8, ptr %33, i32 2
  %43 = load i8, ptr %42, align 1, !tbaa !14
  %44 = zext i8 %43 to i32
  %45 = add nsw i32 %44, -58
  %46 = icmp ult i32 %45, -10
  br i1 %46, label %47, label %66

47:                                               ; preds = %41
  %48 = and i32 %44, 223
  %49 = add nsw i32 %48, -91
  %50 = icmp ult i32 %49, -26
  br i1 %50, label %51, label %52

51:                                               ; preds = %47
  br i1 %34, label %66, label %64

52:                                               ; preds = %47
  %53 = add nsw i32 %44, -91
  %54 = icmp ult i32 %53, -26
  %55 = add nuw nsw i32 %44, 32
  %56 = select i1 %54, i32 %44, i32 %55
  %57 = freeze i32 %56
  %58 = add i32 %57, -87
  %59 = icmp ult i32 %58, 16
  %60 = or i1 %34, %59
  %61 = select i1 %59, ptr %42, ptr %33
  %62 = select i1 %59, i32 16, i32 %3
  br i1 %60, label %66, label %64

63:                                               ; preds = %38, %35
  br i1 %34, label %66, label %64

64:                                               ; preds = %63, %52, %51
  %65 = select i1 %37, i32 8, i32 10
  br label %66

66:                                               ; preds = %64, %63, %52, %51, %41, %31
  %67 = phi ptr [ %33, %64 ], [ %33, %63 ], [ %33, %31 ], [ %42, %41 ], [ %33, %51 ], [ %61, %52 ]
  %68 = phi i32 [ %65, %64 ], [ %3, %63 ], [ %3, %31 ], [ 16, %41 ], [ %3, %51 ], [ %62, %52 ]
  %69 = load i8, ptr %67, align 1, !tbaa !14
  %70 = zext i8 %69 to i32
  %71 = add nsw i32 %70, -48
  %72 = icmp ugt i32 %71, 9
  br i1 %72, label %73, label %83

73:                                               ; preds = %66
  %74 = and i32 %70, 223
  %75 = add nsw i32 %74, -91
  %76 = icmp ult i32 %75, -26
  br i1 %76, label %83, label %77

77:                                               ; preds = %73
  %78 = add nsw i32 %70, -91
  %79 = icmp ult i32 %78, -26
  %80 = add nuw nsw i32 %70, 32
  %81 = select i1 %79, i32 %70, i32 %80
  %82 = add nsw i32 %81, -87
  br label %83

83:                                               ; preds = %77, %73, %66
  %84 = phi i32 [ %82, %77 ], [ 255, %73 ], [ %71, %66 ]
  %85 = icmp ult i32 %84, %68
  br i1 %85, label %86, label %132

86:                                               ; preds = %83
  %87 = zext nneg i32 %68 to i64
  br label %88

88:                                               ; preds = %123, %86
  %89 = phi i64 [ %124, %123 ], [ 0, %86 ]
  %90 = phi i32 [ %125, %123 ], [ 0, %86 ]
  %91 = phi i8 [ %127, %123 ], [ %69, %86 ]
  %92 = phi ptr [ %126, %123 ], [ %67, %86 ]
  %93 = zext i8 %91 to i32
  %94 = add nsw i32 %93, -48
  %95 = icmp ugt i32 %94, 9
  br i1 %95, label %96, label %106

96:                                               ; preds = %88
  %97 = and i32 %93, 223
  %98 = add nsw i32 %97, -91
  %99 = icmp ult i32 %98, -26
  br i1 %99, label %106, label %100

100:                                              ; preds = %96
  %101 = add nsw i32 %93, -91
  %102 = icmp ult i32 %101, -26
  %103 = add nuw nsw i32 %93, 32
  %104 = select i1 %102, i32 %93, i32 %103
  %105 = add nsw i32 %104, -87
  br label %106

106:                                              ; preds = %100, %96, %88
  %107 = phi i32 [ %105, %100 ], [ 255, %96 ], [ %94, %88 ]
  %108 = icmp ult i32 %107, %68
  br i1 %108, label %110, label %109

109:                                              ; preds = %106
  br i1 %14, label %129, label %128

110:                                              ; preds = %106
  %111 = icmp eq i32 %90, 0
  br i1 %111, label %112, label %119

112:                                              ; preds = %110
  %113 = zext nneg i32 %107 to i64
  %114 = sub i64 %32, %113
  %115 = udiv i64 %114, %87
  %116 = icmp ugt i64 %89, %115
  %117 = icmp ult i64 %32, %113
  %118 = or i1 %116, %117
  br i1 %118, label %119, label %120

119:                                              ; preds = %112, %110
  store i32 1, ptr %8, align 4, !tbaa !55
  br label %123

120:                                              ; preds = %112
  %121 = mul i64 %89, %87
  %122 = add i64 %121, %113
  store i64 %122, ptr %0, align 4, !tbaa !54
  br label %123

123:                                              ; preds = %120, %119
  %124 = phi i64 [ %89, %119 ], [ %122, %120 ]
  %125 = phi i32 [ 1, %119 ], [ 0, %120 ]
  %126 = getelementptr inbounds i8, ptr %92, i32 1
  %127 = load i8, ptr %126, align 1, !tbaa !14
  br label %88, !llvm.loop !59

128:                                              ; preds = %109
  store ptr %92, ptr %2, align 4, !tbaa !57
  br label %129

129:                                              ; preds = %128, %109
  %130 = icmp eq i32 %90, 0
  br i1 %130, label %132, label %131

131:                                              ; preds = %129
  store i32 34, ptr @errno, align 4, !tbaa !56
  store i64 %32, ptr %0, align 4, !tbaa !54
  br label %132

132:                                              ; preds = %131, %129, %83, %12
  ret ptr %0
}

; Function Attrs: mustprogress nofree norecurse nosync nounwind optsize willreturn memory(none) uwtable
define internal range(i32 0, 2) i32 @isspace(i32 noundef %0) #10 {
  %2 = icmp eq i32 %0, 32
  %3 = add i32 %0, -9
  %4 = icmp ult i32 %3, 5
  %5 = or i1 %2, %4
  %6 = zext i1 %5 to i32
  ret i32 %6
}

; Function Attrs: noinline nounwind optsize uwtable
define internal ptr @__sized_malloc(i32 noundef %0) local_unnamed_addr #2 {
  %2 = icmp ult i32 %0, -16
  br i1 %2, label %3, label %9

3:                                                ; preds = %1
  %4 = add nuw i32 %0, 16
  %5 = tail call ptr @malloc(i32 noundef %4) #16
  %6 = icmp eq ptr %5, null
  br i1 %6, label %9, label %7

7:                                                ; preds = %3
  %8 = getelementptr inbounds i8, ptr %5, i32 16
  store i32 %0, ptr %5, align 4, !tbaa !56
  br label %9

9:                                                ; preds = %7, %3, %1
  %10 = phi ptr [ %8, %7 ], [ null, %3 ], [ null, %1 ]
  ret ptr %10
}

; Function Attrs: nounwind optsize uwtable
define internal fastcc void @sink(ptr noundef %0, i32 noundef %1, i32 noundef %2, i32 noundef %3, ptr nocapture noundef readonly %4) unnamed_addr #3 {
  %6 = shl i32 %1, 1
  %7 = or disjoint i32 %6, 1
  %8 = icmp ult i32 %7, %2
  br i1 %8, label %9, label %48

9:                                                ; preds = %5
  %10 = icmp eq i32 %3, 0
  br label %11

11:                                               ; preds = %44, %9
  %12 = phi i32 [ %7, %9 ], [ %46, %44 ]
  %13 = phi i32 [ %6, %9 ], [ %45, %44 ]
  %14 = phi i32 [ %1, %9 ], [ %26, %44 ]
  %15 = add nuw i32 %13, 2
  %16 = icmp ult i32 %15, %2
  br i1 %16, label %17, label %25

17:                                               ; preds = %11
  %18 = mul i32 %12, %3
  %19 = getelementptr inbounds i8, ptr %0, i32 %18
  %20 = mul i32 %15, %3
  %21 = getelementptr inbounds i8, ptr %0, i32 %20
  %22 = tail call i32 %4(ptr noundef %19, ptr noundef %21) #16
  %23 = icmp slt i32 %22, 0
  %24 = select i1 %23, i32 %15, i32 %12
  br label %25

25:                                               ; preds = %17, %11
  %26 = phi i32 [ %12, %11 ], [ %24, %17 ]
  %27 = mul i32 %14, %3
  %28 = getelementptr inbounds i8, ptr %0, i32 %27
  %29 = mul i32 %26, %3
  %30 = getelementptr inbounds i8, ptr %0, i32 %29
  %31 = tail call i32 %4(ptr noundef %28, ptr noundef %30) #16
  %32 = icmp sgt i32 %31, -1
  br i1 %32, label %48, label %33

33:                                               ; preds = %25
  br i1 %10, label %44, label %34

34:                                               ; preds = %34, %33
  %35 = phi ptr [ %41, %34 ], [ %28, %33 ]
  %36 = phi i32 [ %38, %34 ], [ %3, %33 ]
  %37 = phi ptr [ %42, %34 ], [ %30, %33 ]
  %38 = add i32 %36, -1
  %39 = load i8, ptr %35, align 1, !tbaa !14
  %40 = load i8, ptr %37, align 1, !tbaa !14
  %41 = getelementptr inbounds i8, ptr %35, i32 1
  store i8 %40, ptr %35, align 1, !tbaa !14
  %42 = getelementptr inbounds i8, ptr %37, i32 1
  store i8 %39, ptr %37, align 1, !tbaa !14
  %43 = icmp eq i32 %38, 0
  br i1 %43, label %44, label %34, !llvm.loop !17

44:                                               ; preds = %34, %33
  %45 = shl i32 %26, 1
  %46 = or disjoint i32 %45, 1
  %47 = icmp ult i32 %46, %2
  br i1 %47, label %11, label %48, !llvm.loop !60

48:                                               ; preds = %44, %25, %5
  ret void
}

; Function Attrs: nounwind optsize uwtable
define internal fastcc void @merge_sort(ptr noundef %0, i32 noundef %1, i32 noundef %2, ptr noundef %3, ptr noundef %4) unnamed_addr #3 {
  %6 = icmp ult i32 %1, 2
  br i1 %6, label %85, label %7

7:                                                ; preds = %5
  %8 = lshr i32 %1, 1
  tail call fastcc void @merge_sort(ptr noundef %0, i32 noundef %8, i32 noundef %2, ptr noundef %3, ptr noundef %4) #17
  %9 = mul i32 %8, %2
  %10 = getelementptr inbounds i8, ptr %0, i32 %9
  %11 = sub i32 %1, %8
  tail call fastcc void @merge_sort(ptr noundef %10, i32 noundef %11, i32 noundef %2, ptr noundef %3, ptr noundef %4) #17
  %12 = icmp eq i32 %9, 0
  br i1 %12, label %22, label %13

13:                                               ; preds = %13, %7
  %14 = phi ptr [ %18, %13 ], [ %0, %7 ]
  %15 = phi ptr [ %20, %13 ], [ %4, %7 ]
  %16 = phi i32 [ %17, %13 ], [ %9, %7 ]
  %17 = add i32 %16, -1
  %18 = getelementptr inbounds i8, ptr %14, i32 1
  %19 = load i8, ptr %14, align 1, !tbaa !14, !alias.scope !61, !noalias !64
  %20 = getelementptr inbounds i8, ptr %15, i32 1
  store i8 %19, ptr %15, align 1, !tbaa !14, !alias.scope !64, !noalias !61
  %21 = icmp eq i32 %17, 0
  br i1 %21, label %22, label %13, !llvm.loop !66

22:                                               ; preds = %13, %7
  %23 = icmp eq i32 %11, 0
  br i1 %23, label %71, label %24

24:                                               ; preds = %22
  %25 = icmp eq i32 %2, 0
  br label %26

26:                                               ; preds = %60, %24
  %27 = phi ptr [ %0, %24 ], [ %65, %60 ]
  %28 = phi ptr [ %4, %24 ], [ %64, %60 ]
  %29 = phi i32 [ %11, %24 ], [ %63, %60 ]
  %30 = phi ptr [ %10, %24 ], [ %62, %60 ]
  %31 = phi i32 [ %8, %24 ], [ %61, %60 ]
  %32 = tail call i32 %3(ptr noundef %28, ptr noundef %30) #16
  %33 = icmp slt i32 %32, 1
  br i1 %33, label %34, label %47

34:                                               ; preds = %26
  br i1 %25, label %44, label %35

35:                                               ; preds = %35, %34
  %36 = phi ptr [ %40, %35 ], [ %28, %34 ]
  %37 = phi ptr [ %42, %35 ], [ %27, %34 ]
  %38 = phi i32 [ %39, %35 ], [ %2, %34 ]
  %39 = add i32 %38, -1
  %40 = getelementptr inbounds i8, ptr %36, i32 1
  %41 = load i8, ptr %36, align 1, !tbaa !14, !alias.scope !67, !noalias !70
  %42 = getelementptr inbounds i8, ptr %37, i32 1
  store i8 %41, ptr %37, align 1, !tbaa !14, !alias.scope !70, !noalias !67
  %43 = icmp eq i32 %39, 0
  br i1 %43, label %44, label %35, !llvm.loop !66

44:                                               ; preds = %35, %34
  %45 = getelementptr inbounds i8, ptr %28, i32 %2
  %46 = add nsw i32 %31, -1
  br label %60

47:                                               ; preds = %26
  br i1 %25, label %57, label %48

48:                                               ; preds = %48, %47
  %49 = phi ptr [ %53, %48 ], [ %30, %47 ]
  %50 = phi ptr [ %55, %48 ], [ %27, %47 ]
  %51 = phi i32 [ %52, %48 ], [ %2, %47 ]
  %52 = add i32 %51, -1
  %53 = getelementptr inbounds i8, ptr %49, i32 1
  %54 = load i8, ptr %49, align 1, !tbaa !14, !alias.scope !72, !noalias !75
  %55 = getelementptr inbounds i8, ptr %50, i32 1
  store i8 %54, ptr %50, align 1, !tbaa !14, !alias.scope !75, !noalias !72
  %56 = icmp eq i32 %52, 0
  br i1 %56, label %57, label %48, !llvm.loop !66

57:                                               ; preds = %48, %47
  %58 = getelementptr inbounds i8, ptr %30, i32 %2
  %59 = add i32 %29, -1
  br label %60

60:                                               ; preds = %57, %44
  %61 = phi i32 [ %46, %44 ], [ %31, %57 ]
  %62 = phi ptr [ %30, %44 ], [ %58, %57 ]
  %63 = phi i32 [ %29, %44 ], [ %59, %57 ]
  %64 = phi ptr [ %45, %44 ], [ %28, %57 ]
  %65 = getelementptr inbounds i8, ptr %27, i32 %2
  %66 = icmp ne i32 %61, 0
  %67 = icmp ne i32 %63, 0
  %68 = select i1 %66, i1 %67, i1 false
  br i1 %68, label %26, label %69, !llvm.loop !77

69:                                               ; preds = %60
  %70 = mul i32 %61, %2
  br label %71

71:                                               ; preds = %69, %22
  %72 = phi i32 [ %70, %69 ], [ %9, %22 ]
  %73 = phi ptr [ %64, %69 ], [ %4, %22 ]
  %74 = phi ptr [ %65, %69 ], [ %0, %22 ]
  %75 = icmp eq i32 %72, 0
  br i1 %75, label %85, label %76

76:                                               ; preds = %76, %71
  %77 = phi ptr [ %81, %76 ], [ %73, %71 ]
  %78 = phi ptr [ %83, %76 ], [ %74, %71 ]
  %79 = phi i32 [ %80, %76 ], [ %72, %71 ]
  %80 = add i32 %79, -1
  %81 = getelementptr inbounds i8, ptr %77, i32 1
  %82 = load i8, ptr %77, align 1, !tbaa !14, !alias.scope !78, !noalias !81
  %83 = getelementptr inbounds i8, ptr %78, i32 1
  store i8 %82, ptr %78, align 1, !tbaa !14, !alias.scope !81, !noalias !78
  %84 = icmp eq i32 %80, 0
  br i1 %84, label %85, label %76, !llvm.loop !66

85:                                               ; preds = %76, %71, %5
  ret void
}

; Function Attrs: allocsize(0)
declare dso_local ptr @malloc(i32 noundef) #11

; Function Attrs: nounwind optsize uwtable
define internal ptr @realloc(ptr noundef %0, i32 noundef %1) #3 {
  %3 = icmp eq ptr %0, null
  br i1 %3, label %4, label %6

4:                                                ; preds = %2
  %5 = tail call ptr @__sized_malloc(i32 noundef %1) #17
  br label %28

6:                                                ; preds = %2
  %7 = icmp eq i32 %1, 0
  br i1 %7, label %8, label %9

8:                                                ; preds = %6
  tail call void @__sized_free(ptr noundef nonnull %0) #17
  br label %28

9:                                                ; preds = %6
  %10 = tail call ptr @__sized_malloc(i32 noundef %1) #17
  %11 = icmp eq ptr %10, null
  br i1 %11, label %28, label %12

12:                                               ; preds = %9
  %13 = getelementptr inbounds i8, ptr %0, i32 -16
  %14 = load i32, ptr %13, align 4, !tbaa !56
  %15 = icmp eq i32 %14, 0
  br i1 %15, label %27, label %16

16:                                               ; preds = %12
  %17 = tail call i32 @llvm.umin.i32(i32 %14, i32 %1)
  br label %18

18:                                               ; preds = %18, %16
  %19 = phi ptr [ %23, %18 ], [ %0, %16 ]
  %20 = phi ptr [ %25, %18 ], [ %10, %16 ]
  %21 = phi i32 [ %22, %18 ], [ %17, %16 ]
  %22 = add i32 %21, -1
  %23 = getelementptr inbounds i8, ptr %19, i32 1
  %24 = load i8, ptr %19, align 1, !tbaa !14, !alias.scope !83, !noalias !86
  %25 = getelementptr inbounds i8, ptr %20, i32 1
  store i8 %24, ptr %20, align 1, !tbaa !14, !alias.scope !86, !noalias !83
  %26 = icmp eq i32 %22, 0
  br i1 %26, label %27, label %18, !llvm.loop !66

27:                                               ; preds = %18, %12
  tail call void @__sized_free(ptr noundef nonnull %0) #17
  br label %28

28:                                               ; preds = %27, %9, %8, %4
  %29 = phi ptr [ null, %8 ], [ %5, %4 ], [ %10, %27 ], [ null, %9 ]
  ret ptr %29
}

; Function Attrs: noinline nounwind optnone uwtable
define internal ptr @needed(ptr noundef %0) #0 {
  %2 = alloca ptr, align 4
  store ptr %0, ptr %2, align 4
  %3 = load ptr, ptr %2, align 4
  %4 = icmp ne ptr %3, null
  br i1 %4, label %7, label %5

5:                                                ; preds = %1
  %6 = call i32 @fputs(ptr noundef @.str.1, ptr noundef getelementptr inbounds ([3 x %struct.__stream], ptr @__streams, i32 0, i32 2))
  call void @exit(i32 noundef 1) #19
  unreachable

7:                                                ; preds = %1
  %8 = load ptr, ptr %2, align 4
  ret ptr %8
}

; Function Attrs: nounwind optsize uwtable
define internal range(i32 -1, 2) i32 @fputs(ptr noalias nocapture noundef readonly %0, ptr noalias nocapture noundef %1) #3 {
  %3 = load i8, ptr %0, align 1, !tbaa !14
  %4 = icmp eq i8 %3, 0
  br i1 %4, label %15, label %9

5:                                                ; preds = %9
  %6 = getelementptr inbounds i8, ptr %11, i32 1
  %7 = load i8, ptr %6, align 1, !tbaa !14
  %8 = icmp eq i8 %7, 0
  br i1 %8, label %15, label %9, !llvm.loop !88

9:                                                ; preds = %5, %2
  %10 = phi i8 [ %7, %5 ], [ %3, %2 ]
  %11 = phi ptr [ %6, %5 ], [ %0, %2 ]
  %12 = sext i8 %10 to i32
  %13 = tail call i32 @fputc(i32 noundef %12, ptr noundef %1) #17
  %14 = icmp eq i32 %13, -1
  br i1 %14, label %15, label %5

15:                                               ; preds = %9, %5, %2
  %16 = phi i32 [ 1, %2 ], [ 1, %5 ], [ -1, %9 ]
  ret i32 %16
}

; Function Attrs: noreturn
declare dso_local void @exit(i32 noundef) #12

; Function Attrs: nocallback nofree nosync nounwind speculatable willreturn memory(none)
declare i32 @llvm.umin.i32(i32, i32) #7

declare dso_local void @free(ptr noundef) #4

; Function Attrs: mustprogress nofree norecurse nosync nounwind optsize willreturn memory(none) uwtable
define internal range(i32 0, 2) i32 @isdigit(i32 noundef %0) #10 {
  %2 = add i32 %0, -48
  %3 = icmp ult i32 %2, 10
  %4 = zext i1 %3 to i32
  ret i32 %4
}

; Function Attrs: nounwind optsize uwtable
define internal i32 @getc(ptr nocapture noundef %0) #3 {
  %2 = tail call i32 @fgetc(ptr noundef %0) #17
  ret i32 %2
}

; Function Attrs: nounwind optsize uwtable
define internal i32 @fgetc(ptr nocapture noundef %0) local_unnamed_addr #3 {
  %2 = load i8, ptr %0, align 4, !tbaa !21
  %3 = icmp eq i8 %2, 0
  br i1 %3, label %4, label %20

4:                                                ; preds = %1
  %5 = getelementptr inbounds i8, ptr %0, i32 2
  %6 = load i8, ptr %5, align 2, !tbaa !89
  %7 = icmp eq i8 %6, 0
  br i1 %7, label %12, label %8

8:                                                ; preds = %4
  store i8 0, ptr %5, align 2, !tbaa !89
  %9 = getelementptr inbounds i8, ptr %0, i32 3
  %10 = load i8, ptr %9, align 1, !tbaa !90
  %11 = zext i8 %10 to i32
  br label %20

12:                                               ; preds = %4
  %13 = getelementptr inbounds i8, ptr %0, i32 1
  %14 = load i8, ptr %13, align 1, !tbaa !91
  %15 = icmp eq i8 %14, 0
  br i1 %15, label %16, label %20

16:                                               ; preds = %12
  %17 = tail call i32 @getchar() #16
  %18 = icmp eq i32 %17, -1
  br i1 %18, label %19, label %20

19:                                               ; preds = %16
  store i8 1, ptr %13, align 1, !tbaa !91
  br label %20

20:                                               ; preds = %19, %16, %12, %8, %1
  %21 = phi i32 [ %11, %8 ], [ -1, %1 ], [ -1, %12 ], [ -1, %19 ], [ %17, %16 ]
  ret i32 %21
}

; Function Attrs: optsize
declare dso_local i32 @getchar() local_unnamed_addr #5

attributes #0 = { noinline nounwind optnone uwtable "frame-pointer"="all" "min-legal-vector-width"="0" "no-trapping-math"="true" "stack-protector-buffer-size"="8" "target-cpu"="i686" "target-features"="+cmov,+cx8,+x87" "tune-cpu"="generic" }
attributes #1 = { nocallback nofree nounwind willreturn memory(argmem: write) }
attributes #2 = { noinline nounwind optsize uwtable "min-legal-vector-width"="0" "no-builtins" "no-jump-tables"="true" "no-trapping-math"="true" "stack-protector-buffer-size"="8" "target-cpu"="i686" "target-features"="+cmov,+cx8,+x87" "tune-cpu"="generic" }
attributes #3 = { nounwind optsize uwtable "min-legal-vector-width"="0" "no-builtins" "no-jump-tables"="true" "no-trapping-math"="true" "stack-protector-buffer-size"="8" "target-cpu"="i686" "target-features"="+cmov,+cx8,+x87" "tune-cpu"="generic" }
attributes #4 = { "frame-pointer"="all" "no-trapping-math"="true" "stack-protector-buffer-size"="8" "target-cpu"="i686" "target-features"="+cmov,+cx8,+x87" "tune-cpu"="generic" }
attributes #5 = { optsize "no-builtins" "no-trapping-math"="true" "stack-protector-buffer-size"="8" "target-cpu"="i686" "target-features"="+cmov,+cx8,+x87" "tune-cpu"="generic" }
attributes #6 = { nocallback nofree nosync nounwind willreturn memory(argmem: readwrite) }
attributes #7 = { nocallback nofree nosync nounwind speculatable willreturn memory(none) }
attributes #8 = { nofree norecurse nosync nounwind optsize memory(readwrite, inaccessiblemem: none) uwtable "min-legal-vector-width"="0" "no-builtins" "no-jump-tables"="true" "no-trapping-math"="true" "stack-protector-buffer-size"="8" "target-cpu"="i686" "target-features"="+cmov,+cx8,+x87" "tune-cpu"="generic" }
attributes #9 = { nofree norecurse nosync nounwind optsize memory(read, inaccessiblemem: none) uwtable "min-legal-vector-width"="0" "no-builtins" "no-jump-tables"="true" "no-trapping-math"="true" "stack-protector-buffer-size"="8" "target-cpu"="i686" "target-features"="+cmov,+cx8,+x87" "tune-cpu"="generic" }
attributes #10 = { mustprogress nofree norecurse nosync nounwind optsize willreturn memory(none) uwtable "min-legal-vector-width"="0" "no-builtins" "no-jump-tables"="true" "no-trapping-math"="true" "stack-protector-buffer-size"="8" "target-cpu"="i686" "target-features"="+cmov,+cx8,+x87" "tune-cpu"="generic" }
attributes #11 = { allocsize(0) "frame-pointer"="all" "no-trapping-math"="true" "stack-protector-buffer-size"="8" "target-cpu"="i686" "target-features"="+cmov,+cx8,+x87" "tune-cpu"="generic" }
attributes #12 = { noreturn "frame-pointer"="all" "no-trapping-math"="true" "stack-protector-buffer-size"="8" "target-cpu"="i686" "target-features"="+cmov,+cx8,+x87" "tune-cpu"="generic" }
attributes #13 = { allocsize(0) }
attributes #14 = { allocsize(1) }
attributes #15 = { nounwind willreturn memory(read) }
attributes #16 = { nobuiltin nounwind optsize "no-builtins" }
attributes #17 = { nobuiltin optsize "no-builtins" }
attributes #18 = { nounwind }
attributes #19 = { noreturn }

!llvm.ident = !{!0, !0, !0, !0}
!llvm.module.flags = !{!1, !2, !3, !4, !5, !6}

!0 = !{!"Debian clang version 19.1.7 (3~deb12u1)"}
!1 = !{i32 1, !"NumRegisterParameters", i32 0}
!2 = !{i32 7, !"Dwarf Version", i32 5}
!3 = !{i32 2, !"Debug Info Version", i32 3}
!4 = !{i32 1, !"wchar_size", i32 4}
!5 = !{i32 7, !"uwtable", i32 2}
!6 = !{i32 7, !"frame-pointer", i32 2}
!7 = distinct !{!7, !8}
!8 = !{!"llvm.loop.mustprogress"}
!9 = distinct !{!9, !8}
!10 = distinct !{!10, !8}
!11 = distinct !{!11, !8}
!12 = distinct !{!12, !8}
!13 = distinct !{!13, !8}
!14 = !{!15, !15, i64 0}
!15 = !{!"omnipotent char", !16, i64 0}
!16 = !{!"Simple C/C++ TBAA"}
!17 = distinct !{!17, !8}
!18 = distinct !{!18, !8}
!19 = distinct !{!19, !8}
!20 = distinct !{!20, !8}
!21 = !{!22, !15, i64 0}
!22 = !{!"__stream", !15, i64 0, !15, i64 1, !15, i64 2, !15, i64 3, !23, i64 4, !24, i64 8}
!23 = !{!"any pointer", !15, i64 0}
!24 = !{!"int", !15, i64 0}
!25 = !{!26}
!26 = distinct !{!26, !27, !"fwrite: %stream"}
!27 = distinct !{!27, !"fwrite"}
!28 = !{!29}
!29 = distinct !{!29, !27, !"fwrite: %from"}
!30 = distinct !{!30, !8}
!31 = !{!22, !24, i64 8}
!32 = !{!22, !23, i64 4}
!33 = distinct !{!33, !8}
!34 = distinct !{!34, !8}
!35 = !{!36}
!36 = distinct !{!36, !37, !"fwrite: %stream"}
!37 = distinct !{!37, !"fwrite"}
!38 = !{!39}
!39 = distinct !{!39, !37, !"fwrite: %from"}
!40 = !{!41}
!41 = distinct !{!41, !42, !"fwrite: %stream"}
!42 = distinct !{!42, !"fwrite"}
!43 = !{!44}
!44 = distinct !{!44, !42, !"fwrite: %from"}
!45 = distinct !{!45, !8}
!46 = distinct !{!46, !8}
!47 = distinct !{!47, !8}
!48 = distinct !{!48, !8}
!49 = !{!50, !24, i64 8}
!50 = !{!"number", !51, i64 0, !24, i64 8, !24, i64 12}
!51 = !{!"long long", !15, i64 0}
!52 = distinct !{!52, !8}
!53 = distinct !{!53, !8}
!54 = !{!50, !51, i64 0}
!55 = !{!50, !24, i64 12}
!56 = !{!24, !24, i64 0}
!57 = !{!23, !23, i64 0}
!58 = distinct !{!58, !8}
!59 = distinct !{!59, !8}
!60 = distinct !{!60, !8}
!61 = !{!62}
!62 = distinct !{!62, !63, !"memcpy: %from"}
!63 = distinct !{!63, !"memcpy"}
!64 = !{!65}
!65 = distinct !{!65, !63, !"memcpy: %to"}
!66 = distinct !{!66, !8}
!67 = !{!68}
!68 = distinct !{!68, !69, !"memcpy: %from"}
!69 = distinct !{!69, !"memcpy"}
!70 = !{!71}
!71 = distinct !{!71, !69, !"memcpy: %to"}
!72 = !{!73}
!73 = distinct !{!73, !74, !"memcpy: %from"}
!74 = distinct !{!74, !"memcpy"}
!75 = !{!76}
!76 = distinct !{!76, !74, !"memcpy: %to"}
!77 = distinct !{!77, !8}
!78 = !{!79}
!79 = distinct !{!79, !80, !"memcpy: %from"}
!80 = distinct !{!80, !"memcpy"}
!81 = !{!82}
!82 = distinct !{!82, !80, !"memcpy: %to"}
!83 = !{!84}
!84 = distinct !{!84, !85, !"memcpy: %from"}
!85 = distinct !{!85, !"memcpy"}
!86 = !{!87}
!87 = distinct !{!87, !85, !"memcpy: %to"}
!88 = distinct !{!88, !8}
!89 = !{!22, !15, i64 2}
!90 = !{!22, !15, i64 3}
!91 = !{!22, !15, i64 1}
