source_filename = "bignum.c"
target datalayout = "e-m:e-p:32:32-p270:32:32-p271:32:32-p272:64:64-i128:128-f64:32:64-f80:32-n8:16:32-S128"
target triple = "i386-unknown-linux-gnu"

%struct.number = type { i32, [120 x i32] }
%struct.__stream = type { i8, i8, i8, i8, ptr, i32 }

@main.line = internal global [1000 x i8] zeroinitializer, align 1
@.str = private unnamed_addr constant [19 x i8] c"not understood: %s\00", align 1
@answer.a = internal global %struct.number zeroinitializer, align 4
@answer.b = internal global %struct.number zeroinitializer, align 4
@answer.made = internal global %struct.number zeroinitializer, align 4
@.str.1 = private unnamed_addr constant [11 x i8] c"(left %u) \00", align 1
@.str.2 = private unnamed_addr constant [15 x i8] c"it->n < PIECES\00", align 1
@.str.3 = private unnamed_addr constant [11 x i8] c"./bignum.c\00", align 1
@__func__.push = private unnamed_addr constant [5 x i8] c"push\00", align 1
@fibonacci.next = internal global %struct.number zeroinitializer, align 4
@power.square = internal global %struct.number zeroinitializer, align 4
@power.made = internal global %struct.number zeroinitializer, align 4
@.str.4 = private unnamed_addr constant [15 x i8] c"i + k < PIECES\00", align 1
@__func__.multiply = private unnamed_addr constant [9 x i8] c"multiply\00", align 1
@show.text = internal global [1090 x i8] zeroinitializer, align 1
@.str.5 = private unnamed_addr constant [22 x i8] c"\0A  %d digits, sum %d\0A\00", align 1
@.str.11 = private unnamed_addr constant [1 x i8] zeroinitializer, align 1
@.str.1.12 = private unnamed_addr constant [7 x i8] c"(null)\00", align 1
@.str.2.16 = private unnamed_addr constant [2 x i8] c"-\00", align 1
@.str.3.17 = private unnamed_addr constant [2 x i8] c"+\00", align 1
@.str.4.15 = private unnamed_addr constant [2 x i8] c" \00", align 1
@.str.5.20 = private unnamed_addr constant [3 x i8] c"0X\00", align 1
@.str.6 = private unnamed_addr constant [3 x i8] c"0x\00", align 1
@memory = internal global %struct.__stream zeroinitializer, align 4
@__streams = internal global [3 x %struct.__stream] [%struct.__stream zeroinitializer, %struct.__stream { i8 1, i8 0, i8 0, i8 0, ptr null, i32 0 }, %struct.__stream { i8 2, i8 0, i8 0, i8 0, ptr null, i32 0 }], align 4
@.str.8 = private unnamed_addr constant [17 x i8] c"0123456789ABCDEF\00", align 1
@.str.9 = private unnamed_addr constant [17 x i8] c"0123456789abcdef\00", align 1

; Function Attrs: noinline nounwind optnone uwtable
define dso_local i32 @main() #0 {
  %1 = alloca i32, align 4
  %2 = alloca i32, align 4
  store i32 0, ptr %1, align 4
  store i32 0, ptr %2, align 4
  br label %3

3:                                                ; preds = %17, %0
  %4 = call ptr @fgets(ptr noundef @main.line, i32 noundef 1000, ptr noundef @__streams)
  %5 = icmp ne ptr %4, null
  br i1 %5, label %6, label %18

6:                                                ; preds = %3
  %7 = call i32 @answer(ptr noundef @main.line)
  %8 = icmp ne i32 %7, 0
  br i1 %8, label %9, label %12

9:                                                ; preds = %6
  %10 = load i32, ptr %2, align 4
  %11 = add nsw i32 %10, 1
  store i32 %11, ptr %2, align 4
  br label %17

12:                                               ; preds = %6
  %13 = call i32 @__print_text(ptr getelementptr inbounds ([3 x { i8, i8, i8, i8, ptr, i32 }], ptr @__streams, i32 0, i32 1), ptr @.str, i32 16)
  %14 = call i32 @__print_string(ptr getelementptr inbounds ([3 x { i8, i8, i8, i8, ptr, i32 }], ptr @__streams, i32 0, i32 1), ptr @main.line, i32 0, i32 0, i32 -1)
  %15 = add i32 %13, %14
  %16 = add i32 %15, 0
  br label %17

17:                                               ; preds = %12, %9
  br label %3, !llvm.loop !7

18:                                               ; preds = %3
  %19 = load i32, ptr %2, align 4
  ret i32 %19
}

; Function Attrs: nounwind optsize uwtable
define internal noundef ptr @fgets(ptr noalias noundef writeonly %0, i32 noundef %1, ptr noalias nocapture noundef %2) #1 {
  %4 = icmp slt i32 %1, 1
  br i1 %4, label %23, label %5

5:                                                ; preds = %3
  %6 = icmp eq i32 %1, 1
  br i1 %6, label %21, label %7

7:                                                ; preds = %12, %5
  %8 = phi i32 [ %13, %12 ], [ %1, %5 ]
  %9 = phi ptr [ %15, %12 ], [ %0, %5 ]
  %10 = tail call i32 @fgetc(ptr noundef %2) #13
  %11 = icmp eq i32 %10, -1
  br i1 %11, label %19, label %12

12:                                               ; preds = %7
  %13 = add nsw i32 %8, -1
  %14 = trunc i32 %10 to i8
  %15 = getelementptr inbounds i8, ptr %9, i32 1
  store i8 %14, ptr %9, align 1, !tbaa !9
  %16 = icmp sgt i32 %8, 2
  %17 = icmp ne i32 %10, 10
  %18 = and i1 %16, %17
  br i1 %18, label %7, label %21, !llvm.loop !12

19:                                               ; preds = %7
  %20 = icmp eq ptr %9, %0
  br i1 %20, label %23, label %21

21:                                               ; preds = %19, %12, %5
  %22 = phi ptr [ %9, %19 ], [ %0, %5 ], [ %15, %12 ]
  store i8 0, ptr %22, align 1, !tbaa !9
  br label %23

23:                                               ; preds = %21, %19, %3
  %24 = phi ptr [ %0, %21 ], [ null, %3 ], [ null, %19 ]
  ret ptr %24
}

; Function Attrs: noinline nounwind optnone uwtable
define internal i32 @answer(ptr noundef %0) #0 {
  %2 = alloca i32, align 4
  %3 = alloca ptr, align 4
  %4 = alloca ptr, align 4
  %5 = alloca i8, align 1
  %6 = alloca i32, align 4
  %7 = alloca i32, align 4
  store ptr %0, ptr %3, align 4
  %8 = load ptr, ptr %3, align 4
  %9 = call ptr @read_number(ptr noundef @answer.a, ptr noundef %8)
  store ptr %9, ptr %4, align 4
  br label %10

10:                                               ; preds = %15, %1
  %11 = load ptr, ptr %4, align 4
  %12 = load i8, ptr %11, align 1
  %13 = sext i8 %12 to i32
  %14 = icmp eq i32 %13, 32
  br i1 %14, label %15, label %18

15:                                               ; preds = %10
  %16 = load ptr, ptr %4, align 4
  %17 = getelementptr inbounds i8, ptr %16, i32 1
  store ptr %17, ptr %4, align 4
  br label %10, !llvm.loop !13

18:                                               ; preds = %10
  %19 = load ptr, ptr %4, align 4
  %20 = load i8, ptr %19, align 1
  %21 = sext i8 %20 to i32
  %22 = icmp ne i32 %21, 0
  br i1 %22, label %23, label %28

23:                                               ; preds = %18
  %24 = load ptr, ptr %4, align 4
  %25 = getelementptr inbounds i8, ptr %24, i32 1
  store ptr %25, ptr %4, align 4
  %26 = load i8, ptr %24, align 1
  %27 = sext i8 %26 to i32
  br label %29

28:                                               ; preds = %18
  br label %29

29:                                               ; preds = %28, %23
  %30 = phi i32 [ %27, %23 ], [ 0, %28 ]
  %31 = trunc i32 %30 to i8
  store i8 %31, ptr %5, align 1
  %32 = load ptr, ptr %4, align 4
  %33 = call ptr @read_number(ptr noundef @answer.b, ptr noundef %32)
  %34 = load i32, ptr @answer.a, align 4
  %35 = icmp ne i32 %34, 0
  br i1 %35, label %36, label %38

36:                                               ; preds = %29
  %37 = load i32, ptr getelementptr inbounds (%struct.number, ptr @answer.a, i32 0, i32 1), align 4
  br label %39

38:                                               ; preds = %29
  br label %39

39:                                               ; preds = %38, %36
  %40 = phi i32 [ %37, %36 ], [ 0, %38 ]
  store i32 %40, ptr %6, align 4
  %41 = load i32, ptr @answer.b, align 4
  %42 = icmp ne i32 %41, 0
  br i1 %42, label %43, label %45

43:                                               ; preds = %39
  %44 = load i32, ptr getelementptr inbounds (%struct.number, ptr @answer.b, i32 0, i32 1), align 4
  br label %46

45:                                               ; preds = %39
  br label %46

46:                                               ; preds = %45, %43
  %47 = phi i32 [ %44, %43 ], [ 0, %45 ]
  store i32 %47, ptr %7, align 4
  %48 = load i8, ptr %5, align 1
  %49 = sext i8 %48 to i32
  switch i32 %49, label %72 [
    i32 33, label %50
    i32 102, label %52
    i32 94, label %54
    i32 42, label %56
    i32 43, label %57
    i32 47, label %58
  ]

50:                                               ; preds = %46
  %51 = load i32, ptr %6, align 4
  call void @factorial(ptr noundef @answer.made, i32 noundef %51)
  br label %73

52:                                               ; preds = %46
  %53 = load i32, ptr %6, align 4
  call void @fibonacci(ptr noundef @answer.made, i32 noundef %53)
  br label %73

54:                                               ; preds = %46
  %55 = load i32, ptr %7, align 4
  call void @power(ptr noundef @answer.made, ptr noundef @answer.a, i32 noundef %55)
  br label %73

56:                                               ; preds = %46
  call void @multiply(ptr noundef @answer.made, ptr noundef @answer.a, ptr noundef @answer.b)
  br label %73

57:                                               ; preds = %46
  call void @llvm.memcpy.p0.p0.i32(ptr align 4 @answer.made, ptr align 4 @answer.a, i32 484, i1 false)
  call void @add(ptr noundef @answer.made, ptr noundef @answer.b)
  br label %73

58:                                               ; preds = %46
  %59 = load i32, ptr %7, align 4
  %60 = icmp eq i32 %59, 0
  br i1 %60, label %61, label %62

61:                                               ; preds = %58
  store i32 0, ptr %2, align 4
  br label %74

62:                                               ; preds = %58
  call void @llvm.memcpy.p0.p0.i32(ptr align 4 @answer.made, ptr align 4 @answer.a, i32 484, i1 false)
  %63 = load i32, ptr %7, align 4
  %64 = call i32 @divide(ptr noundef @answer.made, i32 noundef %63)
  %65 = call i32 @__print_text(ptr getelementptr inbounds ([3 x { i8, i8, i8, i8, ptr, i32 }], ptr @__streams, i32 0, i32 1), ptr @.str.1, i32 6)
  %66 = zext i32 %64 to i64
  %67 = call i32 @__print_unsigned(ptr getelementptr inbounds ([3 x { i8, i8, i8, i8, ptr, i32 }], ptr @__streams, i32 0, i32 1), i64 %66, i32 10, i32 0, i32 0, i32 -1)
  %68 = call i32 @__print_text(ptr getelementptr inbounds ([3 x { i8, i8, i8, i8, ptr, i32 }], ptr @__streams, i32 0, i32 1), ptr getelementptr inbounds (i8, ptr @.str.1, i32 8), i32 2)
  %69 = add i32 %65, %67
  %70 = add i32 %69, %68
  %71 = add i32 %70, 0
  br label %73

72:                                               ; preds = %46
  store i32 0, ptr %2, align 4
  br label %74

73:                                               ; preds = %62, %57, %56, %54, %52, %50
  call void @show(ptr noundef @answer.made)
  store i32 1, ptr %2, align 4
  br label %74

74:                                               ; preds = %73, %72, %61
  %75 = load i32, ptr %2, align 4
  ret i32 %75
}

; Function Attrs: nounwind optsize uwtable
define internal noundef i32 @__print_text(ptr nocapture noundef %0, ptr nocapture noundef readonly %1, i32 noundef returned %2) #1 {
  %4 = load i8, ptr %0, align 4, !tbaa !14, !alias.scope !18, !noalias !21
  %5 = icmp eq i8 %4, 0
  %6 = icmp eq i32 %2, 0
  %7 = or i1 %6, %5
  br i1 %7, label %16, label %8

8:                                                ; preds = %8, %3
  %9 = phi i32 [ %14, %8 ], [ 0, %3 ]
  %10 = getelementptr inbounds i8, ptr %1, i32 %9
  %11 = load i8, ptr %10, align 1, !tbaa !9, !alias.scope !21, !noalias !18
  %12 = zext i8 %11 to i32
  %13 = tail call i32 @fputc(i32 noundef %12, ptr noundef nonnull %0) #13, !noalias !21
  %14 = add nuw i32 %9, 1
  %15 = icmp eq i32 %14, %2
  br i1 %15, label %16, label %8, !llvm.loop !23

16:                                               ; preds = %8, %3
  ret i32 %2
}

; Function Attrs: nounwind optsize uwtable
define internal i32 @__print_string(ptr nocapture noundef %0, ptr noundef %1, i32 noundef %2, i32 noundef %3, i32 noundef %4) #1 {
  %6 = icmp eq ptr %1, null
  %7 = icmp ult i32 %4, 6
  %8 = select i1 %7, ptr @.str.11, ptr @.str.1.12
  %9 = select i1 %6, ptr %8, ptr %1
  %10 = icmp slt i32 %4, 0
  br i1 %10, label %11, label %20

11:                                               ; preds = %11, %5
  %12 = phi ptr [ %15, %11 ], [ %9, %5 ]
  %13 = load i8, ptr %12, align 1, !tbaa !9
  %14 = icmp eq i8 %13, 0
  %15 = getelementptr inbounds i8, ptr %12, i32 1
  br i1 %14, label %16, label %11, !llvm.loop !24

16:                                               ; preds = %11
  %17 = ptrtoint ptr %12 to i32
  %18 = ptrtoint ptr %9 to i32
  %19 = sub i32 %17, %18
  br label %30

20:                                               ; preds = %5
  %21 = icmp eq i32 %4, 0
  br i1 %21, label %30, label %22

22:                                               ; preds = %27, %20
  %23 = phi i32 [ %28, %27 ], [ 0, %20 ]
  %24 = getelementptr inbounds i8, ptr %9, i32 %23
  %25 = load i8, ptr %24, align 1, !tbaa !9
  %26 = icmp eq i8 %25, 0
  br i1 %26, label %30, label %27

27:                                               ; preds = %22
  %28 = add nuw nsw i32 %23, 1
  %29 = icmp eq i32 %28, %4
  br i1 %29, label %30, label %22, !llvm.loop !25

30:                                               ; preds = %27, %22, %20, %16
  %31 = phi i32 [ %19, %16 ], [ 0, %20 ], [ %23, %22 ], [ %4, %27 ]
  %32 = tail call fastcc i32 @padded(ptr noundef %0, ptr noundef nonnull %9, i32 noundef %31, i32 noundef %2, i32 noundef %3) #13
  ret i32 %32
}

; Function Attrs: nounwind optsize uwtable
define internal fastcc i32 @padded(ptr nocapture noundef %0, ptr nocapture noundef readonly %1, i32 noundef %2, i32 noundef %3, i32 noundef %4) unnamed_addr #1 {
  %6 = icmp slt i32 %4, 0
  %7 = lshr i32 %4, 31
  %8 = icmp ne i32 %7, 0
  %9 = sub i32 0, %4
  %10 = select i1 %8, i32 %9, i32 %4
  %11 = sub nsw i32 %10, %2
  %12 = and i32 %3, 1
  %13 = icmp ne i32 %12, 0
  %14 = or i1 %6, %13
  br i1 %14, label %24, label %15

15:                                               ; preds = %5
  %16 = icmp sgt i32 %11, 0
  br i1 %16, label %17, label %22

17:                                               ; preds = %17, %15
  %18 = phi i32 [ %20, %17 ], [ 0, %15 ]
  %19 = tail call i32 @fputc(i32 noundef 32, ptr noundef %0) #13
  %20 = add nuw nsw i32 %18, 1
  %21 = icmp eq i32 %20, %11
  br i1 %21, label %22, label %17, !llvm.loop !26

22:                                               ; preds = %17, %15
  %23 = tail call noundef i32 @llvm.smax.i32(i32 %11, i32 0)
  br label %24

24:                                               ; preds = %22, %5
  %25 = phi i32 [ %23, %22 ], [ 0, %5 ]
  %26 = load i8, ptr %0, align 4, !tbaa !14, !alias.scope !27, !noalias !30
  %27 = icmp eq i8 %26, 0
  %28 = icmp eq i32 %2, 0
  %29 = or i1 %28, %27
  br i1 %29, label %38, label %30

30:                                               ; preds = %30, %24
  %31 = phi i32 [ %36, %30 ], [ 0, %24 ]
  %32 = getelementptr inbounds i8, ptr %1, i32 %31
  %33 = load i8, ptr %32, align 1, !tbaa !9, !alias.scope !30, !noalias !27
  %34 = zext i8 %33 to i32
  %35 = tail call i32 @fputc(i32 noundef %34, ptr noundef nonnull %0) #13, !noalias !30
  %36 = add nuw i32 %31, 1
  %37 = icmp eq i32 %36, %2
  br i1 %37, label %38, label %30, !llvm.loop !23

38:                                               ; preds = %30, %24
  br i1 %14, label %39, label %48

39:                                               ; preds = %38
  %40 = icmp sgt i32 %11, 0
  br i1 %40, label %41, label %46

41:                                               ; preds = %41, %39
  %42 = phi i32 [ %44, %41 ], [ 0, %39 ]
  %43 = tail call i32 @fputc(i32 noundef 32, ptr noundef nonnull %0) #13
  %44 = add nuw nsw i32 %42, 1
  %45 = icmp eq i32 %44, %11
  br i1 %45, label %46, label %41, !llvm.loop !26

46:                                               ; preds = %41, %39
  %47 = tail call noundef i32 @llvm.smax.i32(i32 %11, i32 0)
  br label %48

48:                                               ; preds = %46, %38
  %49 = phi i32 [ %47, %46 ], [ 0, %38 ]
  %50 = add nsw i32 %25, %2
  %51 = add nsw i32 %50, %49
  ret i32 %51
}

; Function Attrs: nounwind optsize uwtable
define internal range(i32 -1, 256) i32 @fputc(i32 noundef %0, ptr nocapture noundef %1) local_unnamed_addr #1 {
  %3 = load i8, ptr %1, align 4, !tbaa !14
  switch i8 %3, label %17 [
    i8 1, label %4
    i8 3, label %6
    i8 0, label %19
  ]

4:                                                ; preds = %2
  %5 = tail call i32 @putchar(i32 noundef %0) #14
  br label %17

6:                                                ; preds = %2
  %7 = getelementptr inbounds i8, ptr %1, i32 8
  %8 = load i32, ptr %7, align 4, !tbaa !32
  %9 = icmp eq i32 %8, 0
  br i1 %9, label %17, label %10

10:                                               ; preds = %6
  %11 = trunc i32 %0 to i8
  %12 = getelementptr inbounds i8, ptr %1, i32 4
  %13 = load ptr, ptr %12, align 4, !tbaa !33
  %14 = getelementptr inbounds i8, ptr %13, i32 1
  store ptr %14, ptr %12, align 4, !tbaa !33
  store i8 %11, ptr %13, align 1, !tbaa !9
  %15 = load i32, ptr %7, align 4, !tbaa !32
  %16 = add i32 %15, -1
  store i32 %16, ptr %7, align 4, !tbaa !32
  br label %17

17:                                               ; preds = %10, %6, %4, %2
  %18 = and i32 %0, 255
  br label %19

19:                                               ; preds = %17, %2
  %20 = phi i32 [ %18, %17 ], [ -1, %2 ]
  ret i32 %20
}

; Function Attrs: nocallback nofree nosync nounwind speculatable willreturn memory(none)
declare i32 @llvm.smax.i32(i32, i32) #2

declare dso_local i32 @putchar(i32 noundef) #3

; Function Attrs: noinline nounwind optnone uwtable
define internal ptr @read_number(ptr noundef %0, ptr noundef %1) #0 {
  %3 = alloca ptr, align 4
  %4 = alloca ptr, align 4
  store ptr %0, ptr %3, align 4
  store ptr %1, ptr %4, align 4
  %5 = load ptr, ptr %3, align 4
  call void @set(ptr noundef %5, i32 noundef 0)
  br label %6

6:                                                ; preds = %12, %2
  %7 = load ptr, ptr %4, align 4
  %8 = load i8, ptr %7, align 1
  %9 = zext i8 %8 to i32
  %10 = call i32 @isspace(i32 noundef %9) #15
  %11 = icmp ne i32 %10, 0
  br i1 %11, label %12, label %15

12:                                               ; preds = %6
  %13 = load ptr, ptr %4, align 4
  %14 = getelementptr inbounds i8, ptr %13, i32 1
  store ptr %14, ptr %4, align 4
  br label %6, !llvm.loop !34

15:                                               ; preds = %6
  br label %16

16:                                               ; preds = %28, %15
  %17 = load ptr, ptr %4, align 4
  %18 = load i8, ptr %17, align 1
  %19 = zext i8 %18 to i32
  %20 = call i32 @isdigit(i32 noundef %19) #15
  %21 = icmp ne i32 %20, 0
  br i1 %21, label %22, label %31

22:                                               ; preds = %16
  %23 = load ptr, ptr %3, align 4
  %24 = load ptr, ptr %4, align 4
  %25 = load i8, ptr %24, align 1
  %26 = sext i8 %25 to i32
  %27 = sub nsw i32 %26, 48
  call void @scale(ptr noundef %23, i32 noundef 10, i32 noundef %27)
  br label %28

28:                                               ; preds = %22
  %29 = load ptr, ptr %4, align 4
  %30 = getelementptr inbounds i8, ptr %29, i32 1
  store ptr %30, ptr %4, align 4
  br label %16, !llvm.loop !35

31:                                               ; preds = %16
  %32 = load ptr, ptr %4, align 4
  ret ptr %32
}

; Function Attrs: noinline nounwind optnone uwtable
define internal void @factorial(ptr noundef %0, i32 noundef %1) #0 {
  %3 = alloca ptr, align 4
  %4 = alloca i32, align 4
  %5 = alloca i32, align 4
  store ptr %0, ptr %3, align 4
  store i32 %1, ptr %4, align 4
  %6 = load ptr, ptr %3, align 4
  call void @set(ptr noundef %6, i32 noundef 1)
  store i32 2, ptr %5, align 4
  br label %7

7:                                                ; preds = %14, %2
  %8 = load i32, ptr %5, align 4
  %9 = load i32, ptr %4, align 4
  %10 = icmp ule i32 %8, %9
  br i1 %10, label %11, label %17

11:                                               ; preds = %7
  %12 = load ptr, ptr %3, align 4
  %13 = load i32, ptr %5, align 4
  call void @scale(ptr noundef %12, i32 noundef %13, i32 noundef 0)
  br label %14

14:                                               ; preds = %11
  %15 = load i32, ptr %5, align 4
  %16 = add i32 %15, 1
  store i32 %16, ptr %5, align 4
  br label %7, !llvm.loop !36

17:                                               ; preds = %7
  ret void
}

; Function Attrs: noinline nounwind optnone uwtable
define internal void @fibonacci(ptr noundef %0, i32 noundef %1) #0 {
  %3 = alloca ptr, align 4
  %4 = alloca i32, align 4
  %5 = alloca %struct.number, align 4
  store ptr %0, ptr %3, align 4
  store i32 %1, ptr %4, align 4
  %6 = load ptr, ptr %3, align 4
  call void @set(ptr noundef %6, i32 noundef 0)
  call void @set(ptr noundef @fibonacci.next, i32 noundef 1)
  br label %7

7:                                                ; preds = %11, %2
  %8 = load i32, ptr %4, align 4
  %9 = add i32 %8, -1
  store i32 %9, ptr %4, align 4
  %10 = icmp ugt i32 %8, 0
  br i1 %10, label %11, label %14

11:                                               ; preds = %7
  call void @llvm.memcpy.p0.p0.i32(ptr align 4 %5, ptr align 4 @fibonacci.next, i32 484, i1 false)
  %12 = load ptr, ptr %3, align 4
  call void @add(ptr noundef @fibonacci.next, ptr noundef %12)
  %13 = load ptr, ptr %3, align 4
  call void @llvm.memcpy.p0.p0.i32(ptr align 4 %13, ptr align 4 %5, i32 484, i1 false)
  br label %7, !llvm.loop !37

14:                                               ; preds = %7
  ret void
}

; Function Attrs: noinline nounwind optnone uwtable
define internal void @power(ptr noundef %0, ptr noundef %1, i32 noundef %2) #0 {
  %4 = alloca ptr, align 4
  %5 = alloca ptr, align 4
  %6 = alloca i32, align 4
  store ptr %0, ptr %4, align 4
  store ptr %1, ptr %5, align 4
  store i32 %2, ptr %6, align 4
  %7 = load ptr, ptr %5, align 4
  call void @llvm.memcpy.p0.p0.i32(ptr align 4 @power.square, ptr align 4 %7, i32 484, i1 false)
  %8 = load ptr, ptr %4, align 4
  call void @set(ptr noundef %8, i32 noundef 1)
  br label %9

9:                                                ; preds = %24, %3
  %10 = load i32, ptr %6, align 4
  %11 = icmp ugt i32 %10, 0
  br i1 %11, label %12, label %27

12:                                               ; preds = %9
  %13 = load i32, ptr %6, align 4
  %14 = and i32 %13, 1
  %15 = icmp ne i32 %14, 0
  br i1 %15, label %16, label %19

16:                                               ; preds = %12
  %17 = load ptr, ptr %4, align 4
  call void @multiply(ptr noundef @power.made, ptr noundef %17, ptr noundef @power.square)
  %18 = load ptr, ptr %4, align 4
  call void @llvm.memcpy.p0.p0.i32(ptr align 4 %18, ptr align 4 @power.made, i32 484, i1 false)
  br label %19

19:                                               ; preds = %16, %12
  %20 = load i32, ptr %6, align 4
  %21 = icmp ugt i32 %20, 1
  br i1 %21, label %22, label %23

22:                                               ; preds = %19
  call void @multiply(ptr noundef @power.made, ptr noundef @power.square, ptr noundef @power.square)
  call void @llvm.memcpy.p0.p0.i32(ptr align 4 @power.square, ptr align 4 @power.made, i32 484, i1 false)
  br label %23

23:                                               ; preds = %22, %19
  br label %24

24:                                               ; preds = %23
  %25 = load i32, ptr %6, align 4
  %26 = lshr i32 %25, 1
  store i32 %26, ptr %6, align 4
  br label %9, !llvm.loop !38

27:                                               ; preds = %9
  ret void
}

; Function Attrs: noinline nounwind optnone uwtable
define internal void @multiply(ptr noundef %0, ptr noundef %1, ptr noundef %2) #0 {
  %4 = alloca ptr, align 4
  %5 = alloca ptr, align 4
  %6 = alloca ptr, align 4
  %7 = alloca i32, align 4
  %8 = alloca i64, align 8
  %9 = alloca i32, align 4
  store ptr %0, ptr %4, align 4
  store ptr %1, ptr %5, align 4
  store ptr %2, ptr %6, align 4
  %10 = load ptr, ptr %4, align 4
  call void @llvm.memset.p0.i32(ptr align 4 %10, i8 0, i32 484, i1 false)
  store i32 0, ptr %7, align 4
  br label %11

11:                                               ; preds = %86, %3
  %12 = load i32, ptr %7, align 4
  %13 = load ptr, ptr %5, align 4
  %14 = getelementptr inbounds %struct.number, ptr %13, i32 0, i32 0
  %15 = load i32, ptr %14, align 4
  %16 = icmp slt i32 %12, %15
  br i1 %16, label %17, label %89

17:                                               ; preds = %11
  store i64 0, ptr %8, align 8
  store i32 0, ptr %9, align 4
  br label %18

18:                                               ; preds = %82, %17
  %19 = load i32, ptr %9, align 4
  %20 = load ptr, ptr %6, align 4
  %21 = getelementptr inbounds %struct.number, ptr %20, i32 0, i32 0
  %22 = load i32, ptr %21, align 4
  %23 = icmp slt i32 %19, %22
  br i1 %23, label %27, label %24

24:                                               ; preds = %18
  %25 = load i64, ptr %8, align 8
  %26 = icmp ne i64 %25, 0
  br label %27

27:                                               ; preds = %24, %18
  %28 = phi i1 [ true, %18 ], [ %26, %24 ]
  br i1 %28, label %29, label %85

29:                                               ; preds = %27
  %30 = load i32, ptr %7, align 4
  %31 = load i32, ptr %9, align 4
  %32 = add nsw i32 %30, %31
  %33 = icmp slt i32 %32, 120
  br i1 %33, label %34, label %35

34:                                               ; preds = %29
  br label %37

35:                                               ; preds = %29
  call void @__assert_fail(ptr noundef @.str.4, ptr noundef @.str.3, i32 noundef 65, ptr noundef @__func__.multiply) #16
  unreachable

36:                                               ; No predecessors!
  br label %37

37:                                               ; preds = %36, %34
  %38 = load ptr, ptr %4, align 4
  %39 = getelementptr inbounds %struct.number, ptr %38, i32 0, i32 1
  %40 = load i32, ptr %7, align 4
  %41 = load i32, ptr %9, align 4
  %42 = add nsw i32 %40, %41
  %43 = getelementptr inbounds [120 x i32], ptr %39, i32 0, i32 %42
  %44 = load i32, ptr %43, align 4
  %45 = zext i32 %44 to i64
  %46 = load ptr, ptr %5, align 4
  %47 = getelementptr inbounds %struct.number, ptr %46, i32 0, i32 1
  %48 = load i32, ptr %7, align 4
  %49 = getelementptr inbounds [120 x i32], ptr %47, i32 0, i32 %48
  %50 = load i32, ptr %49, align 4
  %51 = zext i32 %50 to i64
  %52 = load i32, ptr %9, align 4
  %53 = load ptr, ptr %6, align 4
  %54 = getelementptr inbounds %struct.number, ptr %53, i32 0, i32 0
  %55 = load i32, ptr %54, align 4
  %56 = icmp slt i32 %52, %55
  br i1 %56, label %57, label %63

57:                                               ; preds = %37
  %58 = load ptr, ptr %6, align 4
  %59 = getelementptr inbounds %struct.number, ptr %58, i32 0, i32 1
  %60 = load i32, ptr %9, align 4
  %61 = getelementptr inbounds [120 x i32], ptr %59, i32 0, i32 %60
  %62 = load i32, ptr %61, align 4
  br label %64

63:                                               ; preds = %37
  br label %64

64:                                               ; preds = %63, %57
  %65 = phi i32 [ %62, %57 ], [ 0, %63 ]
  %66 = zext i32 %65 to i64
  %67 = mul i64 %51, %66
  %68 = add i64 %45, %67
  %69 = load i64, ptr %8, align 8
  %70 = add i64 %69, %68
  store i64 %70, ptr %8, align 8
  %71 = load i64, ptr %8, align 8
  %72 = urem i64 %71, 1000000000
  %73 = trunc i64 %72 to i32
  %74 = load ptr, ptr %4, align 4
  %75 = getelementptr inbounds %struct.number, ptr %74, i32 0, i32 1
  %76 = load i32, ptr %7, align 4
  %77 = load i32, ptr %9, align 4
  %78 = add nsw i32 %76, %77
  %79 = getelementptr inbounds [120 x i32], ptr %75, i32 0, i32 %78
  store i32 %73, ptr %79, align 4
  %80 = load i64, ptr %8, align 8
  %81 = udiv i64 %80, 1000000000
  store i64 %81, ptr %8, align 8
  br label %82

82:                                               ; preds = %64
  %83 = load i32, ptr %9, align 4
  %84 = add nsw i32 %83, 1
  store i32 %84, ptr %9, align 4
  br label %18, !llvm.loop !39

85:                                               ; preds = %27
  br label %86

86:                                               ; preds = %85
  %87 = load i32, ptr %7, align 4
  %88 = add nsw i32 %87, 1
  store i32 %88, ptr %7, align 4
  br label %11, !llvm.loop !40

89:                                               ; preds = %11
  %90 = load ptr, ptr %5, align 4
  %91 = getelementptr inbounds %struct.number, ptr %90, i32 0, i32 0
  %92 = load i32, ptr %91, align 4
  %93 = load ptr, ptr %6, align 4
  %94 = getelementptr inbounds %struct.number, ptr %93, i32 0, i32 0
  %95 = load i32, ptr %94, align 4
  %96 = add nsw i32 %92, %95
  %97 = icmp slt i32 %96, 120
  br i1 %97, label %98, label %106

98:                                               ; preds = %89
  %99 = load ptr, ptr %5, align 4
  %100 = getelementptr inbounds %struct.number, ptr %99, i32 0, i32 0
  %101 = load i32, ptr %100, align 4
  %102 = load ptr, ptr %6, align 4
  %103 = getelementptr inbounds %struct.number, ptr %102, i32 0, i32 0
  %104 = load i32, ptr %103, align 4
  %105 = add nsw i32 %101, %104
  br label %107

106:                                              ; preds = %89
  br label %107

107:                                              ; preds = %106, %98
  %108 = phi i32 [ %105, %98 ], [ 120, %106 ]
  %109 = load ptr, ptr %4, align 4
  %110 = getelementptr inbounds %struct.number, ptr %109, i32 0, i32 0
  store i32 %108, ptr %110, align 4
  %111 = load ptr, ptr %4, align 4
  call void @trim(ptr noundef %111)
  ret void
}

; Function Attrs: nocallback nofree nounwind willreturn memory(argmem: readwrite)
declare void @llvm.memcpy.p0.p0.i32(ptr noalias nocapture writeonly, ptr noalias nocapture readonly, i32, i1 immarg) #4

; Function Attrs: noinline nounwind optnone uwtable
define internal void @add(ptr noundef %0, ptr noundef %1) #0 {
  %3 = alloca ptr, align 4
  %4 = alloca ptr, align 4
  %5 = alloca i32, align 4
  %6 = alloca i32, align 4
  %7 = alloca i32, align 4
  store ptr %0, ptr %3, align 4
  store ptr %1, ptr %4, align 4
  store i32 0, ptr %5, align 4
  store i32 0, ptr %6, align 4
  br label %8

8:                                                ; preds = %66, %2
  %9 = load i32, ptr %6, align 4
  %10 = load ptr, ptr %4, align 4
  %11 = getelementptr inbounds %struct.number, ptr %10, i32 0, i32 0
  %12 = load i32, ptr %11, align 4
  %13 = icmp slt i32 %9, %12
  br i1 %13, label %17, label %14

14:                                               ; preds = %8
  %15 = load i32, ptr %5, align 4
  %16 = icmp ne i32 %15, 0
  br label %17

17:                                               ; preds = %14, %8
  %18 = phi i1 [ true, %8 ], [ %16, %14 ]
  br i1 %18, label %19, label %69

19:                                               ; preds = %17
  %20 = load i32, ptr %6, align 4
  %21 = load ptr, ptr %3, align 4
  %22 = getelementptr inbounds %struct.number, ptr %21, i32 0, i32 0
  %23 = load i32, ptr %22, align 4
  %24 = icmp eq i32 %20, %23
  br i1 %24, label %25, label %27

25:                                               ; preds = %19
  %26 = load ptr, ptr %3, align 4
  call void @push(ptr noundef %26, i32 noundef 0)
  br label %27

27:                                               ; preds = %25, %19
  %28 = load ptr, ptr %3, align 4
  %29 = getelementptr inbounds %struct.number, ptr %28, i32 0, i32 1
  %30 = load i32, ptr %6, align 4
  %31 = getelementptr inbounds [120 x i32], ptr %29, i32 0, i32 %30
  %32 = load i32, ptr %31, align 4
  %33 = load i32, ptr %5, align 4
  %34 = add i32 %32, %33
  %35 = load i32, ptr %6, align 4
  %36 = load ptr, ptr %4, align 4
  %37 = getelementptr inbounds %struct.number, ptr %36, i32 0, i32 0
  %38 = load i32, ptr %37, align 4
  %39 = icmp slt i32 %35, %38
  br i1 %39, label %40, label %46

40:                                               ; preds = %27
  %41 = load ptr, ptr %4, align 4
  %42 = getelementptr inbounds %struct.number, ptr %41, i32 0, i32 1
  %43 = load i32, ptr %6, align 4
  %44 = getelementptr inbounds [120 x i32], ptr %42, i32 0, i32 %43
  %45 = load i32, ptr %44, align 4
  br label %47

46:                                               ; preds = %27
  br label %47

47:                                               ; preds = %46, %40
  %48 = phi i32 [ %45, %40 ], [ 0, %46 ]
  %49 = add i32 %34, %48
  store i32 %49, ptr %7, align 4
  %50 = load i32, ptr %7, align 4
  %51 = icmp uge i32 %50, 1000000000
  %52 = zext i1 %51 to i32
  store i32 %52, ptr %5, align 4
  %53 = load i32, ptr %5, align 4
  %54 = icmp ne i32 %53, 0
  br i1 %54, label %55, label %58

55:                                               ; preds = %47
  %56 = load i32, ptr %7, align 4
  %57 = sub i32 %56, 1000000000
  br label %60

58:                                               ; preds = %47
  %59 = load i32, ptr %7, align 4
  br label %60

60:                                               ; preds = %58, %55
  %61 = phi i32 [ %57, %55 ], [ %59, %58 ]
  %62 = load ptr, ptr %3, align 4
  %63 = getelementptr inbounds %struct.number, ptr %62, i32 0, i32 1
  %64 = load i32, ptr %6, align 4
  %65 = getelementptr inbounds [120 x i32], ptr %63, i32 0, i32 %64
  store i32 %61, ptr %65, align 4
  br label %66

66:                                               ; preds = %60
  %67 = load i32, ptr %6, align 4
  %68 = add nsw i32 %67, 1
  store i32 %68, ptr %6, align 4
  br label %8, !llvm.loop !41

69:                                               ; preds = %17
  ret void
}

; Function Attrs: noinline nounwind optnone uwtable
define internal i32 @divide(ptr noundef %0, i32 noundef %1) #0 {
  %3 = alloca ptr, align 4
  %4 = alloca i32, align 4
  %5 = alloca i64, align 8
  %6 = alloca i32, align 4
  store ptr %0, ptr %3, align 4
  store i32 %1, ptr %4, align 4
  store i64 0, ptr %5, align 8
  %7 = load ptr, ptr %3, align 4
  %8 = getelementptr inbounds %struct.number, ptr %7, i32 0, i32 0
  %9 = load i32, ptr %8, align 4
  %10 = sub nsw i32 %9, 1
  store i32 %10, ptr %6, align 4
  br label %11

11:                                               ; preds = %37, %2
  %12 = load i32, ptr %6, align 4
  %13 = icmp sge i32 %12, 0
  br i1 %13, label %14, label %40

14:                                               ; preds = %11
  %15 = load i64, ptr %5, align 8
  %16 = mul i64 %15, 1000000000
  %17 = load ptr, ptr %3, align 4
  %18 = getelementptr inbounds %struct.number, ptr %17, i32 0, i32 1
  %19 = load i32, ptr %6, align 4
  %20 = getelementptr inbounds [120 x i32], ptr %18, i32 0, i32 %19
  %21 = load i32, ptr %20, align 4
  %22 = zext i32 %21 to i64
  %23 = add i64 %16, %22
  store i64 %23, ptr %5, align 8
  %24 = load i64, ptr %5, align 8
  %25 = load i32, ptr %4, align 4
  %26 = zext i32 %25 to i64
  %27 = udiv i64 %24, %26
  %28 = trunc i64 %27 to i32
  %29 = load ptr, ptr %3, align 4
  %30 = getelementptr inbounds %struct.number, ptr %29, i32 0, i32 1
  %31 = load i32, ptr %6, align 4
  %32 = getelementptr inbounds [120 x i32], ptr %30, i32 0, i32 %31
  store i32 %28, ptr %32, align 4
  %33 = load i32, ptr %4, align 4
  %34 = zext i32 %33 to i64
  %35 = load i64, ptr %5, align 8
  %36 = urem i64 %35, %34
  store i64 %36, ptr %5, align 8
  br label %37

37:                                               ; preds = %14
  %38 = load i32, ptr %6, align 4
  %39 = add nsw i32 %38, -1
  store i32 %39, ptr %6, align 4
  br label %11, !llvm.loop !42

40:                                               ; preds = %11
  %41 = load ptr, ptr %3, align 4
  call void @trim(ptr noundef %41)
  %42 = load i64, ptr %5, align 8
  %43 = trunc i64 %42 to i32
  ret i32 %43
}

; Function Attrs: nounwind optsize uwtable
define internal i32 @__print_unsigned(ptr nocapture noundef %0, i64 noundef %1, i32 noundef %2, i32 noundef %3, i32 noundef %4, i32 noundef %5) #1 {
  %7 = alloca [24 x i8], align 1
  call void @llvm.lifetime.start.p0(i64 24, ptr nonnull %7) #17
  %8 = and i32 %3, 32
  %9 = icmp eq i32 %8, 0
  %10 = select i1 %9, ptr @.str.9, ptr @.str.8
  %11 = icmp ult i64 %1, 4294967296
  br i1 %11, label %14, label %12

12:                                               ; preds = %6
  %13 = zext i32 %2 to i64
  br label %27

14:                                               ; preds = %6
  %15 = trunc nuw i64 %1 to i32
  %16 = icmp eq i32 %15, 0
  br i1 %16, label %40, label %17

17:                                               ; preds = %17, %14
  %18 = phi i32 [ %25, %17 ], [ %15, %14 ]
  %19 = phi i32 [ %23, %17 ], [ 24, %14 ]
  %20 = urem i32 %18, %2
  %21 = getelementptr inbounds i8, ptr %10, i32 %20
  %22 = load i8, ptr %21, align 1, !tbaa !9
  %23 = add nsw i32 %19, -1
  %24 = getelementptr inbounds i8, ptr %7, i32 %23
  store i8 %22, ptr %24, align 1, !tbaa !9
  %25 = udiv i32 %18, %2
  %26 = icmp ult i32 %18, %2
  br i1 %26, label %40, label %17, !llvm.loop !43

27:                                               ; preds = %27, %12
  %28 = phi i32 [ 24, %12 ], [ %37, %27 ]
  %29 = phi i64 [ %1, %12 ], [ %31, %27 ]
  %30 = freeze i64 %29
  %31 = udiv i64 %30, %13
  %32 = mul i64 %31, %13
  %33 = sub i64 %30, %32
  %34 = trunc nuw i64 %33 to i32
  %35 = getelementptr inbounds i8, ptr %10, i32 %34
  %36 = load i8, ptr %35, align 1, !tbaa !9
  %37 = add nsw i32 %28, -1
  %38 = getelementptr inbounds i8, ptr %7, i32 %37
  store i8 %36, ptr %38, align 1, !tbaa !9
  %39 = icmp ult i64 %29, %13
  br i1 %39, label %40, label %27, !llvm.loop !44

40:                                               ; preds = %27, %17, %14
  %41 = phi i32 [ 24, %14 ], [ %23, %17 ], [ %37, %27 ]
  %42 = icmp eq i64 %1, 0
  %43 = icmp ne i32 %5, 0
  %44 = and i1 %42, %43
  br i1 %44, label %45, label %48

45:                                               ; preds = %40
  %46 = add nsw i32 %41, -1
  %47 = getelementptr inbounds i8, ptr %7, i32 %46
  store i8 48, ptr %47, align 1, !tbaa !9
  br label %48

48:                                               ; preds = %45, %40
  %49 = phi i32 [ %46, %45 ], [ %41, %40 ]
  %50 = getelementptr inbounds i8, ptr %7, i32 %49
  %51 = and i32 %3, 8
  %52 = icmp ne i32 %51, 0
  %53 = icmp eq i32 %2, 8
  %54 = and i1 %53, %52
  %55 = sub nsw i32 24, %49
  %56 = icmp sge i32 %55, %5
  %57 = select i1 %54, i1 %56, i1 false
  br i1 %57, label %58, label %65

58:                                               ; preds = %48
  %59 = icmp eq i32 %49, 24
  br i1 %59, label %63, label %60

60:                                               ; preds = %58
  %61 = load i8, ptr %50, align 1, !tbaa !9
  %62 = icmp eq i8 %61, 48
  br i1 %62, label %65, label %63

63:                                               ; preds = %60, %58
  %64 = getelementptr inbounds i8, ptr %50, i32 -1
  store i8 48, ptr %64, align 1, !tbaa !9
  br label %65

65:                                               ; preds = %63, %60, %48
  %66 = phi ptr [ %64, %63 ], [ %50, %60 ], [ %50, %48 ]
  %67 = getelementptr inbounds i8, ptr %7, i32 24
  %68 = ptrtoint ptr %67 to i32
  %69 = icmp eq i32 %2, 16
  %70 = icmp ne i64 %1, 0
  %71 = and i1 %70, %69
  %72 = and i1 %71, %52
  %73 = select i1 %9, ptr @.str.6, ptr @.str.5.20
  %74 = select i1 %72, ptr %73, ptr @.str.11
  %75 = ptrtoint ptr %66 to i32
  %76 = sub i32 %68, %75
  %77 = call fastcc i32 @number(ptr noundef %0, ptr noundef nonnull %74, ptr noundef nonnull %66, i32 noundef %76, i32 noundef %3, i32 noundef %4, i32 noundef %5) #13
  call void @llvm.lifetime.end.p0(i64 24, ptr nonnull %7) #17
  ret i32 %77
}

; Function Attrs: noinline nounwind optnone uwtable
define internal void @show(ptr noundef %0) #0 {
  %2 = alloca ptr, align 4
  %3 = alloca i32, align 4
  %4 = alloca i32, align 4
  %5 = alloca i32, align 4
  store ptr %0, ptr %2, align 4
  %6 = load ptr, ptr %2, align 4
  %7 = call i32 @digits(ptr noundef %6, ptr noundef @show.text)
  store i32 %7, ptr %3, align 4
  store i32 0, ptr %4, align 4
  store i32 0, ptr %5, align 4
  br label %8

8:                                                ; preds = %37, %1
  %9 = load i32, ptr %5, align 4
  %10 = load i32, ptr %3, align 4
  %11 = icmp slt i32 %9, %10
  br i1 %11, label %12, label %40

12:                                               ; preds = %8
  %13 = load i32, ptr %5, align 4
  %14 = getelementptr inbounds [1090 x i8], ptr @show.text, i32 0, i32 %13
  %15 = load i8, ptr %14, align 1
  %16 = sext i8 %15 to i32
  %17 = sub nsw i32 %16, 48
  %18 = load i32, ptr %4, align 4
  %19 = add nsw i32 %18, %17
  store i32 %19, ptr %4, align 4
  %20 = load i32, ptr %5, align 4
  %21 = getelementptr inbounds [1090 x i8], ptr @show.text, i32 0, i32 %20
  %22 = load i8, ptr %21, align 1
  %23 = sext i8 %22 to i32
  %24 = call i32 @putchar(i32 noundef %23)
  %25 = load i32, ptr %5, align 4
  %26 = add nsw i32 %25, 1
  %27 = srem i32 %26, 60
  %28 = icmp eq i32 %27, 0
  br i1 %28, label %29, label %36

29:                                               ; preds = %12
  %30 = load i32, ptr %5, align 4
  %31 = add nsw i32 %30, 1
  %32 = load i32, ptr %3, align 4
  %33 = icmp slt i32 %31, %32
  br i1 %33, label %34, label %36

34:                                               ; preds = %29
  %35 = call i32 @putchar(i32 noundef 10)
  br label %36

36:                                               ; preds = %34, %29, %12
  br label %37

37:                                               ; preds = %36
  %38 = load i32, ptr %5, align 4
  %39 = add nsw i32 %38, 1
  store i32 %39, ptr %5, align 4
  br label %8, !llvm.loop !45

40:                                               ; preds = %8
  %41 = load i32, ptr %3, align 4
  %42 = load i32, ptr %4, align 4
  %43 = call i32 @__print_text(ptr getelementptr inbounds ([3 x { i8, i8, i8, i8, ptr, i32 }], ptr @__streams, i32 0, i32 1), ptr @.str.5, i32 3)
  %44 = sext i32 %41 to i64
  %45 = call i32 @__print_signed(ptr getelementptr inbounds ([3 x { i8, i8, i8, i8, ptr, i32 }], ptr @__streams, i32 0, i32 1), i64 %44, i32 0, i32 0, i32 -1)
  %46 = call i32 @__print_text(ptr getelementptr inbounds ([3 x { i8, i8, i8, i8, ptr, i32 }], ptr @__streams, i32 0, i32 1), ptr getelementptr inbounds (i8, ptr @.str.5, i32 5), i32 13)
  %47 = sext i32 %42 to i64
  %48 = call i32 @__print_signed(ptr getelementptr inbounds ([3 x { i8, i8, i8, i8, ptr, i32 }], ptr @__streams, i32 0, i32 1), i64 %47, i32 0, i32 0, i32 -1)
  %49 = call i32 @__print_text(ptr getelementptr inbounds ([3 x { i8, i8, i8, i8, ptr, i32 }], ptr @__streams, i32 0, i32 1), ptr getelementptr inbounds (i8, ptr @.str.5, i32 20), i32 1)
  %50 = add i32 %43, %45
  %51 = add i32 %50, %46
  %52 = add i32 %51, %48
  %53 = add i32 %52, %49
  %54 = add i32 %53, 0
  ret void
}

; Function Attrs: noinline nounwind optnone uwtable
define internal i32 @digits(ptr noundef %0, ptr noundef %1) #0 {
  %3 = alloca ptr, align 4
  %4 = alloca ptr, align 4
  %5 = alloca ptr, align 4
  %6 = alloca i32, align 4
  store ptr %0, ptr %3, align 4
  store ptr %1, ptr %4, align 4
  %7 = load ptr, ptr %4, align 4
  %8 = load ptr, ptr %4, align 4
  %9 = load ptr, ptr %3, align 4
  %10 = getelementptr inbounds %struct.number, ptr %9, i32 0, i32 0
  %11 = load i32, ptr %10, align 4
  %12 = icmp ne i32 %11, 0
  br i1 %12, label %13, label %22

13:                                               ; preds = %2
  %14 = load ptr, ptr %3, align 4
  %15 = getelementptr inbounds %struct.number, ptr %14, i32 0, i32 1
  %16 = load ptr, ptr %3, align 4
  %17 = getelementptr inbounds %struct.number, ptr %16, i32 0, i32 0
  %18 = load i32, ptr %17, align 4
  %19 = sub nsw i32 %18, 1
  %20 = getelementptr inbounds [120 x i32], ptr %15, i32 0, i32 %19
  %21 = load i32, ptr %20, align 4
  br label %23

22:                                               ; preds = %2
  br label %23

23:                                               ; preds = %22, %13
  %24 = phi i32 [ %21, %13 ], [ 0, %22 ]
  %25 = call ptr @__print_open(ptr %8, i32 -1)
  %26 = zext i32 %24 to i64
  %27 = call i32 @__print_unsigned(ptr %25, i64 %26, i32 10, i32 0, i32 0, i32 -1)
  %28 = call i32 @__print_close(ptr %25, i32 -1)
  %29 = add i32 %27, %28
  %30 = add i32 %29, 0
  %31 = getelementptr inbounds i8, ptr %7, i32 %30
  store ptr %31, ptr %5, align 4
  %32 = load ptr, ptr %3, align 4
  %33 = getelementptr inbounds %struct.number, ptr %32, i32 0, i32 0
  %34 = load i32, ptr %33, align 4
  %35 = sub nsw i32 %34, 2
  store i32 %35, ptr %6, align 4
  br label %36

36:                                               ; preds = %54, %23
  %37 = load i32, ptr %6, align 4
  %38 = icmp sge i32 %37, 0
  br i1 %38, label %39, label %57

39:                                               ; preds = %36
  %40 = load ptr, ptr %5, align 4
  %41 = load ptr, ptr %3, align 4
  %42 = getelementptr inbounds %struct.number, ptr %41, i32 0, i32 1
  %43 = load i32, ptr %6, align 4
  %44 = getelementptr inbounds [120 x i32], ptr %42, i32 0, i32 %43
  %45 = load i32, ptr %44, align 4
  %46 = call ptr @__print_open(ptr %40, i32 -1)
  %47 = zext i32 %45 to i64
  %48 = call i32 @__print_unsigned(ptr %46, i64 %47, i32 10, i32 16, i32 9, i32 -1)
  %49 = call i32 @__print_close(ptr %46, i32 -1)
  %50 = add i32 %48, %49
  %51 = add i32 %50, 0
  %52 = load ptr, ptr %5, align 4
  %53 = getelementptr inbounds i8, ptr %52, i32 %51
  store ptr %53, ptr %5, align 4
  br label %54

54:                                               ; preds = %39
  %55 = load i32, ptr %6, align 4
  %56 = add nsw i32 %55, -1
  store i32 %56, ptr %6, align 4
  br label %36, !llvm.loop !46

57:                                               ; preds = %36
  %58 = load ptr, ptr %5, align 4
  %59 = load ptr, ptr %4, align 4
  %60 = ptrtoint ptr %58 to i32
  %61 = ptrtoint ptr %59 to i32
  %62 = sub i32 %60, %61
  ret i32 %62
}

; Function Attrs: nounwind optsize uwtable
define internal i32 @__print_signed(ptr nocapture noundef %0, i64 noundef %1, i32 noundef %2, i32 noundef %3, i32 noundef %4) #1 {
  %6 = alloca [24 x i8], align 1
  call void @llvm.lifetime.start.p0(i64 24, ptr nonnull %6) #17
  %7 = getelementptr inbounds i8, ptr %6, i32 24
  %8 = icmp slt i64 %1, 0
  %9 = lshr i64 %1, 63
  %10 = icmp ne i64 %9, 0
  %11 = sub i64 0, %1
  %12 = select i1 %10, i64 %11, i64 %1
  %13 = icmp ult i64 %12, 4294967296
  br i1 %13, label %14, label %26

14:                                               ; preds = %5
  %15 = trunc nuw i64 %12 to i32
  %16 = icmp eq i32 %15, 0
  br i1 %16, label %38, label %17

17:                                               ; preds = %17, %14
  %18 = phi i32 [ %24, %17 ], [ %15, %14 ]
  %19 = phi ptr [ %23, %17 ], [ %7, %14 ]
  %20 = urem i32 %18, 10
  %21 = getelementptr inbounds i8, ptr @.str.9, i32 %20
  %22 = load i8, ptr %21, align 1, !tbaa !9
  %23 = getelementptr inbounds i8, ptr %19, i32 -1
  store i8 %22, ptr %23, align 1, !tbaa !9
  %24 = udiv i32 %18, 10
  %25 = icmp ult i32 %18, 10
  br i1 %25, label %38, label %17, !llvm.loop !43

26:                                               ; preds = %26, %5
  %27 = phi ptr [ %36, %26 ], [ %7, %5 ]
  %28 = phi i64 [ %30, %26 ], [ %12, %5 ]
  %29 = freeze i64 %28
  %30 = udiv i64 %29, 10
  %31 = mul i64 %30, 10
  %32 = sub i64 %29, %31
  %33 = trunc nuw nsw i64 %32 to i32
  %34 = getelementptr inbounds i8, ptr @.str.9, i32 %33
  %35 = load i8, ptr %34, align 1, !tbaa !9
  %36 = getelementptr inbounds i8, ptr %27, i32 -1
  store i8 %35, ptr %36, align 1, !tbaa !9
  %37 = icmp ult i64 %28, 10
  br i1 %37, label %38, label %26, !llvm.loop !44

38:                                               ; preds = %26, %17, %14
  %39 = phi ptr [ %7, %14 ], [ %23, %17 ], [ %36, %26 ]
  %40 = icmp eq i64 %1, 0
  %41 = icmp ne i32 %4, 0
  %42 = and i1 %40, %41
  br i1 %42, label %43, label %45

43:                                               ; preds = %38
  %44 = getelementptr inbounds i8, ptr %39, i32 -1
  store i8 48, ptr %44, align 1, !tbaa !9
  br label %46

45:                                               ; preds = %38
  br i1 %8, label %54, label %46

46:                                               ; preds = %45, %43
  %47 = phi ptr [ %44, %43 ], [ %39, %45 ]
  %48 = and i32 %2, 2
  %49 = icmp eq i32 %48, 0
  br i1 %49, label %50, label %54

50:                                               ; preds = %46
  %51 = and i32 %2, 4
  %52 = icmp eq i32 %51, 0
  %53 = select i1 %52, ptr @.str.11, ptr @.str.4.15
  br label %54

54:                                               ; preds = %50, %46, %45
  %55 = phi ptr [ %39, %45 ], [ %47, %50 ], [ %47, %46 ]
  %56 = phi ptr [ @.str.2.16, %45 ], [ %53, %50 ], [ @.str.3.17, %46 ]
  %57 = ptrtoint ptr %7 to i32
  %58 = ptrtoint ptr %55 to i32
  %59 = sub i32 %57, %58
  %60 = call fastcc i32 @number(ptr noundef %0, ptr noundef nonnull %56, ptr noundef nonnull %55, i32 noundef %59, i32 noundef %2, i32 noundef %3, i32 noundef %4) #13
  call void @llvm.lifetime.end.p0(i64 24, ptr nonnull %6) #17
  ret i32 %60
}

; Function Attrs: nocallback nofree nosync nounwind willreturn memory(argmem: readwrite)
declare void @llvm.lifetime.start.p0(i64 immarg, ptr nocapture) #5

; Function Attrs: nounwind optsize uwtable
define internal fastcc i32 @number(ptr nocapture noundef %0, ptr noundef %1, ptr nocapture noundef readonly %2, i32 noundef %3, i32 noundef %4, i32 noundef %5, i32 noundef %6) unnamed_addr #1 {
  br label %8

8:                                                ; preds = %8, %7
  %9 = phi ptr [ %1, %7 ], [ %12, %8 ]
  %10 = load i8, ptr %9, align 1, !tbaa !9
  %11 = icmp eq i8 %10, 0
  %12 = getelementptr inbounds i8, ptr %9, i32 1
  br i1 %11, label %13, label %8, !llvm.loop !24

13:                                               ; preds = %8
  %14 = ptrtoint ptr %9 to i32
  %15 = ptrtoint ptr %1 to i32
  %16 = sub i32 %14, %15
  %17 = sub nsw i32 %6, %3
  %18 = lshr i32 %5, 31
  %19 = icmp ne i32 %18, 0
  %20 = sub i32 0, %5
  %21 = select i1 %19, i32 %20, i32 %5
  %22 = lshr i32 %5, 31
  %23 = tail call i32 @llvm.smax.i32(i32 %17, i32 0)
  %24 = icmp slt i32 %6, 0
  %25 = and i32 %4, 16
  %26 = icmp ne i32 %25, 0
  %27 = and i1 %26, %24
  %28 = and i32 %4, 1
  %29 = or i32 %22, %28
  %30 = icmp eq i32 %29, 0
  %31 = and i1 %27, %30
  %32 = add i32 %16, %3
  %33 = icmp sgt i32 %21, %32
  %34 = select i1 %31, i1 %33, i1 false
  %35 = sub i32 %21, %32
  %36 = select i1 %34, i32 %35, i32 %23
  %37 = add i32 %32, %36
  %38 = sub i32 %21, %37
  br i1 %30, label %39, label %48

39:                                               ; preds = %13
  %40 = icmp sgt i32 %38, 0
  br i1 %40, label %41, label %46

41:                                               ; preds = %41, %39
  %42 = phi i32 [ %44, %41 ], [ 0, %39 ]
  %43 = tail call i32 @fputc(i32 noundef 32, ptr noundef %0) #13
  %44 = add nuw nsw i32 %42, 1
  %45 = icmp eq i32 %44, %38
  br i1 %45, label %46, label %41, !llvm.loop !26

46:                                               ; preds = %41, %39
  %47 = tail call noundef i32 @llvm.smax.i32(i32 %38, i32 0)
  br label %48

48:                                               ; preds = %46, %13
  %49 = phi i32 [ 0, %13 ], [ %47, %46 ]
  %50 = load i8, ptr %0, align 4, !tbaa !14, !alias.scope !47, !noalias !50
  %51 = icmp eq i8 %50, 0
  %52 = icmp eq ptr %9, %1
  %53 = or i1 %52, %51
  br i1 %53, label %62, label %54

54:                                               ; preds = %54, %48
  %55 = phi i32 [ %60, %54 ], [ 0, %48 ]
  %56 = getelementptr inbounds i8, ptr %1, i32 %55
  %57 = load i8, ptr %56, align 1, !tbaa !9, !alias.scope !50, !noalias !47
  %58 = zext i8 %57 to i32
  %59 = tail call i32 @fputc(i32 noundef %58, ptr noundef nonnull %0) #13, !noalias !50
  %60 = add nuw i32 %55, 1
  %61 = icmp eq i32 %60, %16
  br i1 %61, label %62, label %54, !llvm.loop !23

62:                                               ; preds = %54, %48
  %63 = icmp sgt i32 %36, 0
  br i1 %63, label %64, label %69

64:                                               ; preds = %64, %62
  %65 = phi i32 [ %67, %64 ], [ 0, %62 ]
  %66 = tail call i32 @fputc(i32 noundef 48, ptr noundef nonnull %0) #13
  %67 = add nuw nsw i32 %65, 1
  %68 = icmp eq i32 %67, %36
  br i1 %68, label %69, label %64, !llvm.loop !26

69:                                               ; preds = %64, %62
  %70 = tail call noundef i32 @llvm.smax.i32(i32 %36, i32 0)
  %71 = load i8, ptr %0, align 4, !tbaa !14, !alias.scope !52, !noalias !55
  %72 = icmp eq i8 %71, 0
  %73 = icmp eq i32 %3, 0
  %74 = or i1 %73, %72
  br i1 %74, label %83, label %75

75:                                               ; preds = %75, %69
  %76 = phi i32 [ %81, %75 ], [ 0, %69 ]
  %77 = getelementptr inbounds i8, ptr %2, i32 %76
  %78 = load i8, ptr %77, align 1, !tbaa !9, !alias.scope !55, !noalias !52
  %79 = zext i8 %78 to i32
  %80 = tail call i32 @fputc(i32 noundef %79, ptr noundef nonnull %0) #13, !noalias !55
  %81 = add nuw i32 %76, 1
  %82 = icmp eq i32 %81, %3
  br i1 %82, label %83, label %75, !llvm.loop !23

83:                                               ; preds = %75, %69
  %84 = add i32 %32, %70
  %85 = add i32 %84, %49
  br i1 %30, label %96, label %86

86:                                               ; preds = %83
  %87 = icmp sgt i32 %38, 0
  br i1 %87, label %88, label %93

88:                                               ; preds = %88, %86
  %89 = phi i32 [ %91, %88 ], [ 0, %86 ]
  %90 = tail call i32 @fputc(i32 noundef 32, ptr noundef nonnull %0) #13
  %91 = add nuw nsw i32 %89, 1
  %92 = icmp eq i32 %91, %38
  br i1 %92, label %93, label %88, !llvm.loop !26

93:                                               ; preds = %88, %86
  %94 = tail call noundef i32 @llvm.smax.i32(i32 %38, i32 0)
  %95 = add nsw i32 %85, %94
  br label %96

96:                                               ; preds = %93, %83
  %97 = phi i32 [ %95, %93 ], [ %85, %83 ]
  ret i32 %97
}

; Function Attrs: nocallback nofree nosync nounwind willreturn memory(argmem: readwrite)
declare void @llvm.lifetime.end.p0(i64 immarg, ptr nocapture) #5

; Function Attrs: nofree norecurse nosync nounwind optsize willreturn memory(write, argmem: none, inaccessiblemem: none) uwtable
define internal noundef nonnull ptr @__print_open(ptr noundef %0, i32 noundef %1) #6 {
  store i8 3, ptr @memory, align 4, !tbaa !14
  store ptr %0, ptr getelementptr inbounds (i8, ptr @memory, i32 4), align 4, !tbaa !33
  %3 = icmp ult i32 %1, 1
  %4 = sub i32 %1, 1
  %5 = select i1 %3, i32 0, i32 %4
  store i32 %5, ptr getelementptr inbounds (i8, ptr @memory, i32 8), align 4, !tbaa !32
  ret ptr @memory
}

; Function Attrs: mustprogress nofree norecurse nosync nounwind optsize willreturn memory(write, argmem: readwrite, inaccessiblemem: none) uwtable
define internal noundef i32 @__print_close(ptr nocapture noundef readonly %0, i32 noundef %1) #7 {
  %3 = icmp eq i32 %1, 0
  br i1 %3, label %7, label %4

4:                                                ; preds = %2
  %5 = getelementptr inbounds i8, ptr %0, i32 4
  %6 = load ptr, ptr %5, align 4, !tbaa !33
  store i8 0, ptr %6, align 1, !tbaa !9
  br label %7

7:                                                ; preds = %4, %2
  ret i32 0
}

; Function Attrs: noinline nounwind optnone uwtable
define internal void @trim(ptr noundef %0) #0 {
  %2 = alloca ptr, align 4
  store ptr %0, ptr %2, align 4
  br label %3

3:                                                ; preds = %20, %1
  %4 = load ptr, ptr %2, align 4
  %5 = getelementptr inbounds %struct.number, ptr %4, i32 0, i32 0
  %6 = load i32, ptr %5, align 4
  %7 = icmp sgt i32 %6, 0
  br i1 %7, label %8, label %18

8:                                                ; preds = %3
  %9 = load ptr, ptr %2, align 4
  %10 = getelementptr inbounds %struct.number, ptr %9, i32 0, i32 1
  %11 = load ptr, ptr %2, align 4
  %12 = getelementptr inbounds %struct.number, ptr %11, i32 0, i32 0
  %13 = load i32, ptr %12, align 4
  %14 = sub nsw i32 %13, 1
  %15 = getelementptr inbounds [120 x i32], ptr %10, i32 0, i32 %14
  %16 = load i32, ptr %15, align 4
  %17 = icmp eq i32 %16, 0
  br label %18

18:                                               ; preds = %8, %3
  %19 = phi i1 [ false, %3 ], [ %17, %8 ]
  br i1 %19, label %20, label %25

20:                                               ; preds = %18
  %21 = load ptr, ptr %2, align 4
  %22 = getelementptr inbounds %struct.number, ptr %21, i32 0, i32 0
  %23 = load i32, ptr %22, align 4
  %24 = add nsw i32 %23, -1
  store i32 %24, ptr %22, align 4
  br label %3, !llvm.loop !57

25:                                               ; preds = %18
  ret void
}

; Function Attrs: noinline nounwind optnone uwtable
define internal void @push(ptr noundef %0, i32 noundef %1) #0 {
  %3 = alloca ptr, align 4
  %4 = alloca i32, align 4
  store ptr %0, ptr %3, align 4
  store i32 %1, ptr %4, align 4
  %5 = load ptr, ptr %3, align 4
  %6 = getelementptr inbounds %struct.number, ptr %5, i32 0, i32 0
  %7 = load i32, ptr %6, align 4
  %8 = icmp slt i32 %7, 120
  br i1 %8, label %9, label %10

9:                                                ; preds = %2
  br label %12

10:                                               ; preds = %2
  call void @__assert_fail(ptr noundef @.str.2, ptr noundef @.str.3, i32 noundef 32, ptr noundef @__func__.push) #16
  unreachable

11:                                               ; No predecessors!
  br label %12

12:                                               ; preds = %11, %9
  %13 = load i32, ptr %4, align 4
  %14 = load ptr, ptr %3, align 4
  %15 = getelementptr inbounds %struct.number, ptr %14, i32 0, i32 1
  %16 = load ptr, ptr %3, align 4
  %17 = getelementptr inbounds %struct.number, ptr %16, i32 0, i32 0
  %18 = load i32, ptr %17, align 4
  %19 = add nsw i32 %18, 1
  store i32 %19, ptr %17, align 4
  %20 = getelementptr inbounds [120 x i32], ptr %15, i32 0, i32 %18
  store i32 %13, ptr %20, align 4
  ret void
}

; Function Attrs: noreturn nounwind optsize uwtable
define internal void @__assert_fail(ptr nocapture noundef readnone %0, ptr nocapture noundef readnone %1, i32 noundef %2, ptr nocapture noundef readnone %3) #8 {
  tail call void @abort() #18
  unreachable
}

; Function Attrs: noreturn optsize
declare dso_local void @abort() local_unnamed_addr #9

; Function Attrs: nocallback nofree nounwind willreturn memory(argmem: write)
declare void @llvm.memset.p0.i32(ptr nocapture writeonly, i8, i32, i1 immarg) #10

; Function Attrs: noinline nounwind optnone uwtable
define internal void @set(ptr noundef %0, i32 noundef %1) #0 {
  %3 = alloca ptr, align 4
  %4 = alloca i32, align 4
  store ptr %0, ptr %3, align 4
  store i32 %1, ptr %4, align 4
  %5 = load ptr, ptr %3, align 4
  %6 = getelementptr inbounds %struct.number, ptr %5, i32 0, i32 0
  store i32 2, ptr %6, align 4
  %7 = load i32, ptr %4, align 4
  %8 = urem i32 %7, 1000000000
  %9 = load ptr, ptr %3, align 4
  %10 = getelementptr inbounds %struct.number, ptr %9, i32 0, i32 1
  %11 = getelementptr inbounds [120 x i32], ptr %10, i32 0, i32 0
  store i32 %8, ptr %11, align 4
  %12 = load i32, ptr %4, align 4
  %13 = udiv i32 %12, 1000000000
  %14 = load ptr, ptr %3, align 4
  %15 = getelementptr inbounds %struct.number, ptr %14, i32 0, i32 1
  %16 = getelementptr inbounds [120 x i32], ptr %15, i32 0, i32 1
  store i32 %13, ptr %16, align 4
  %17 = load ptr, ptr %3, align 4
  call void @trim(ptr noundef %17)
  ret void
}

; Function Attrs: noinline nounwind optnone uwtable
define internal void @scale(ptr noundef %0, i32 noundef %1, i32 noundef %2) #0 {
  %4 = alloca ptr, align 4
  %5 = alloca i32, align 4
  %6 = alloca i32, align 4
  %7 = alloca i64, align 8
  %8 = alloca i32, align 4
  store ptr %0, ptr %4, align 4
  store i32 %1, ptr %5, align 4
  store i32 %2, ptr %6, align 4
  %9 = load i32, ptr %6, align 4
  %10 = zext i32 %9 to i64
  store i64 %10, ptr %7, align 8
  store i32 0, ptr %8, align 4
  br label %11

11:                                               ; preds = %38, %3
  %12 = load i32, ptr %8, align 4
  %13 = load ptr, ptr %4, align 4
  %14 = getelementptr inbounds %struct.number, ptr %13, i32 0, i32 0
  %15 = load i32, ptr %14, align 4
  %16 = icmp slt i32 %12, %15
  br i1 %16, label %17, label %41

17:                                               ; preds = %11
  %18 = load ptr, ptr %4, align 4
  %19 = getelementptr inbounds %struct.number, ptr %18, i32 0, i32 1
  %20 = load i32, ptr %8, align 4
  %21 = getelementptr inbounds [120 x i32], ptr %19, i32 0, i32 %20
  %22 = load i32, ptr %21, align 4
  %23 = zext i32 %22 to i64
  %24 = load i32, ptr %5, align 4
  %25 = zext i32 %24 to i64
  %26 = mul i64 %23, %25
  %27 = load i64, ptr %7, align 8
  %28 = add i64 %27, %26
  store i64 %28, ptr %7, align 8
  %29 = load i64, ptr %7, align 8
  %30 = urem i64 %29, 1000000000
  %31 = trunc i64 %30 to i32
  %32 = load ptr, ptr %4, align 4
  %33 = getelementptr inbounds %struct.number, ptr %32, i32 0, i32 1
  %34 = load i32, ptr %8, align 4
  %35 = getelementptr inbounds [120 x i32], ptr %33, i32 0, i32 %34
  store i32 %31, ptr %35, align 4
  %36 = load i64, ptr %7, align 8
  %37 = udiv i64 %36, 1000000000
  store i64 %37, ptr %7, align 8
  br label %38

38:                                               ; preds = %17
  %39 = load i32, ptr %8, align 4
  %40 = add nsw i32 %39, 1
  store i32 %40, ptr %8, align 4
  br label %11, !llvm.loop !58

41:                                               ; preds = %11
  br label %42

42:                                               ; preds = %50, %41
  %43 = load i64, ptr %7, align 8
  %44 = icmp ne i64 %43, 0
  br i1 %44, label %45, label %53

45:                                               ; preds = %42
  %46 = load ptr, ptr %4, align 4
  %47 = load i64, ptr %7, align 8
  %48 = urem i64 %47, 1000000000
  %49 = trunc i64 %48 to i32
  call void @push(ptr noundef %46, i32 noundef %49)
  br label %50

50:                                               ; preds = %45
  %51 = load i64, ptr %7, align 8
  %52 = udiv i64 %51, 1000000000
  store i64 %52, ptr %7, align 8
  br label %42, !llvm.loop !59

53:                                               ; preds = %42
  %54 = load ptr, ptr %4, align 4
  call void @trim(ptr noundef %54)
  ret void
}

; Function Attrs: mustprogress nofree norecurse nosync nounwind optsize willreturn memory(none) uwtable
define internal range(i32 0, 2) i32 @isspace(i32 noundef %0) #11 {
  %2 = icmp eq i32 %0, 32
  %3 = add i32 %0, -9
  %4 = icmp ult i32 %3, 5
  %5 = or i1 %2, %4
  %6 = zext i1 %5 to i32
  ret i32 %6
}

; Function Attrs: mustprogress nofree norecurse nosync nounwind optsize willreturn memory(none) uwtable
define internal range(i32 0, 2) i32 @isdigit(i32 noundef %0) #11 {
  %2 = add i32 %0, -48
  %3 = icmp ult i32 %2, 10
  %4 = zext i1 %3 to i32
  ret i32 %4
}

; Function Attrs: nounwind optsize uwtable
define internal i32 @fgetc(ptr nocapture noundef %0) local_unnamed_addr #1 {
  %2 = load i8, ptr %0, align 4, !tbaa !14
  %3 = icmp eq i8 %2, 0
  br i1 %3, label %4, label %20

4:                                                ; preds = %1
  %5 = getelementptr inbounds i8, ptr %0, i32 2
  %6 = load i8, ptr %5, align 2, !tbaa !60
  %7 = icmp eq i8 %6, 0
  br i1 %7, label %12, label %8

8:                                                ; preds = %4
  store i8 0, ptr %5, align 2, !tbaa !60
  %9 = getelementptr inbounds i8, ptr %0, i32 3
  %10 = load i8, ptr %9, align 1, !tbaa !61
  %11 = zext i8 %10 to i32
  br label %20

12:                                               ; preds = %4
  %13 = getelementptr inbounds i8, ptr %0, i32 1
  %14 = load i8, ptr %13, align 1, !tbaa !62
  %15 = icmp eq i8 %14, 0
  br i1 %15, label %16, label %20

16:                                               ; preds = %12
  %17 = tail call i32 @getchar() #14
  %18 = icmp eq i32 %17, -1
  br i1 %18, label %19, label %20

19:                                               ; preds = %16
  store i8 1, ptr %13, align 1, !tbaa !62
  br label %20

20:                                               ; preds = %19, %16, %12, %8, %1
  %21 = phi i32 [ %11, %8 ], [ -1, %1 ], [ -1, %12 ], [ -1, %19 ], [ %17, %16 ]
  ret i32 %21
}

; Function Attrs: optsize
declare dso_local i32 @getchar() local_unnamed_addr #12

attributes #0 = { noinline nounwind optnone uwtable "frame-pointer"="all" "min-legal-vector-width"="0" "no-trapping-math"="true" "stack-protector-buffer-size"="8" "target-cpu"="i686" "target-features"="+cmov,+cx8,+x87" "tune-cpu"="generic" }
attributes #1 = { nounwind optsize uwtable "min-legal-vector-width"="0" "no-builtins" "no-jump-tables"="true" "no-trapping-math"="true" "stack-protector-buffer-size"="8" "target-cpu"="i686" "target-features"="+cmov,+cx8,+x87" "tune-cpu"="generic" }
attributes #2 = { nocallback nofree nosync nounwind speculatable willreturn memory(none) }
attributes #3 = { "frame-pointer"="all" "no-trapping-math"="true" "stack-protector-buffer-size"="8" "target-cpu"="i686" "target-features"="+cmov,+cx8,+x87" "tune-cpu"="generic" }
attributes #4 = { nocallback nofree nounwind willreturn memory(argmem: readwrite) }
attributes #5 = { nocallback nofree nosync nounwind willreturn memory(argmem: readwrite) }
attributes #6 = { nofree norecurse nosync nounwind optsize willreturn memory(write, argmem: none, inaccessiblemem: none) uwtable "min-legal-vector-width"="0" "no-builtins" "no-jump-tables"="true" "no-trapping-math"="true" "stack-protector-buffer-size"="8" "target-cpu"="i686" "target-features"="+cmov,+cx8,+x87" "tune-cpu"="generic" }
attributes #7 = { mustprogress nofree norecurse nosync nounwind optsize willreturn memory(write, argmem: readwrite, inaccessiblemem: none) uwtable "min-legal-vector-width"="0" "no-builtins" "no-jump-tables"="true" "no-trapping-math"="true" "stack-protector-buffer-size"="8" "target-cpu"="i686" "target-features"="+cmov,+cx8,+x87" "tune-cpu"="generic" }
attributes #8 = { noreturn nounwind optsize uwtable "min-legal-vector-width"="0" "no-builtins" "no-jump-tables"="true" "no-trapping-math"="true" "stack-protector-buffer-size"="8" "target-cpu"="i686" "target-features"="+cmov,+cx8,+x87" "tune-cpu"="generic" }
attributes #9 = { noreturn optsize "no-builtins" "no-trapping-math"="true" "stack-protector-buffer-size"="8" "target-cpu"="i686" "target-features"="+cmov,+cx8,+x87" "tune-cpu"="generic" }
attributes #10 = { nocallback nofree nounwind willreturn memory(argmem: write) }
attributes #11 = { mustprogress nofree norecurse nosync nounwind optsize willreturn memory(none) uwtable "min-legal-vector-width"="0" "no-builtins" "no-jump-tables"="true" "no-trapping-math"="true" "stack-protector-buffer-size"="8" "target-cpu"="i686" "target-features"="+cmov,+cx8,+x87" "tune-cpu"="generic" }
attributes #12 = { optsize "no-builtins" "no-trapping-math"="true" "stack-protector-buffer-size"="8" "target-cpu"="i686" "target-features"="+cmov,+cx8,+x87" "tune-cpu"="generic" }
attributes #13 = { nobuiltin optsize "no-builtins" }
attributes #14 = { nobuiltin nounwind optsize "no-builtins" }
attributes #15 = { nounwind willreturn memory(read) }
attributes #16 = { noreturn }
attributes #17 = { nounwind }
attributes #18 = { nobuiltin noreturn nounwind optsize "no-builtins" }

!llvm.ident = !{!0, !0, !0}
!llvm.module.flags = !{!1, !2, !3, !4, !5, !6}

!0 = !{!"Debian clang version 19.1.7 (3~deb12u1)"}
!1 = !{i32 1, !"NumRegisterParameters", i32 0}
!2 = !{i32 7, !"Dwarf Version", i32 5}
!3 = !{i32 2, !"Debug Info Version", i32 3}
!4 = !{i32 1, !"wchar_size", i32 4}
!5 = !{i32 7, !"uwtable", i32 2}
!6 = !{i32 7, !"frame-pointer", i32 2}
!7 = distinct !{!7, !8}
!8 = !{!"llvm.loop.mustprogress"}
!9 = !{!10, !10, i64 0}
!10 = !{!"omnipotent char", !11, i64 0}
!11 = !{!"Simple C/C++ TBAA"}
!12 = distinct !{!12, !8}
!13 = distinct !{!13, !8}
!14 = !{!15, !10, i64 0}
!15 = !{!"__stream", !10, i64 0, !10, i64 1, !10, i64 2, !10, i64 3, !16, i64 4, !17, i64 8}
!16 = !{!"any pointer", !10, i64 0}
!17 = !{!"int", !10, i64 0}
!18 = !{!19}
!19 = distinct !{!19, !20, !"fwrite: %stream"}
!20 = distinct !{!20, !"fwrite"}
!21 = !{!22}
!22 = distinct !{!22, !20, !"fwrite: %from"}
!23 = distinct !{!23, !8}
!24 = distinct !{!24, !8}
!25 = distinct !{!25, !8}
!26 = distinct !{!26, !8}
!27 = !{!28}
!28 = distinct !{!28, !29, !"fwrite: %stream"}
!29 = distinct !{!29, !"fwrite"}
!30 = !{!31}
!31 = distinct !{!31, !29, !"fwrite: %from"}
!32 = !{!15, !17, i64 8}
!33 = !{!15, !16, i64 4}
!34 = distinct !{!34, !8}
!35 = distinct !{!35, !8}
!36 = distinct !{!36, !8}
!37 = distinct !{!37, !8}
!38 = distinct !{!38, !8}
!39 = distinct !{!39, !8}
!40 = distinct !{!40, !8}
!41 = distinct !{!41, !8}
!42 = distinct !{!42, !8}
!43 = distinct !{!43, !8}
!44 = distinct !{!44, !8}
!45 = distinct !{!45, !8}
!46 = distinct !{!46, !8}
!47 = !{!48}
!48 = distinct !{!48, !49, !"fwrite: %stream"}
!49 = distinct !{!49, !"fwrite"}
!50 = !{!51}
!51 = distinct !{!51, !49, !"fwrite: %from"}
!52 = !{!53}
!53 = distinct !{!53, !54, !"fwrite: %stream"}
!54 = distinct !{!54, !"fwrite"}
!55 = !{!56}
!56 = distinct !{!56, !54, !"fwrite: %from"}
!57 = distinct !{!57, !8}
!58 = distinct !{!58, !8}
!59 = distinct !{!59, !8}
!60 = !{!15, !10, i64 2}
!61 = !{!15, !10, i64 3}
!62 = !{!15, !10, i64 1}
