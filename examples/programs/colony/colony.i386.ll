source_filename = "colony.c"
target datalayout = "e-m:e-p:32:32-p270:32:32-p271:32:32-p272:64:64-i128:128-f64:32:64-f80:32-n8:16:32-S128"
target triple = "i386-unknown-linux-gnu"

%struct.world = type { [32 x i64] }
%struct.__stream = type { i8, i8, i8, i8, ptr, i32 }

@main.worlds = internal global [2 x %struct.world] zeroinitializer, align 4
@main.seen = internal global [200 x i64] zeroinitializer, align 8
@.str = private unnamed_addr constant [14 x i8] c"nothing lives\00", align 1
@.str.1 = private unnamed_addr constant [14 x i8] c"as %d before\0A\00", align 1
@.str.2 = private unnamed_addr constant [17 x i8] c"digest %08x%08x\0A\00", align 1
@.str.3 = private unnamed_addr constant [25 x i8] c"generation %d, %d alive\0A\00", align 1
@.str.10 = private unnamed_addr constant [1 x i8] zeroinitializer, align 1
@.str.2.11 = private unnamed_addr constant [2 x i8] c"-\00", align 1
@.str.3.12 = private unnamed_addr constant [2 x i8] c"+\00", align 1
@.str.4 = private unnamed_addr constant [2 x i8] c" \00", align 1
@.str.5 = private unnamed_addr constant [3 x i8] c"0X\00", align 1
@.str.6 = private unnamed_addr constant [3 x i8] c"0x\00", align 1
@__streams = internal global [3 x %struct.__stream] [%struct.__stream zeroinitializer, %struct.__stream { i8 1, i8 0, i8 0, i8 0, ptr null, i32 0 }, %struct.__stream { i8 2, i8 0, i8 0, i8 0, ptr null, i32 0 }], align 4
@.str.8 = private unnamed_addr constant [17 x i8] c"0123456789ABCDEF\00", align 1
@.str.9 = private unnamed_addr constant [17 x i8] c"0123456789abcdef\00", align 1

; Function Attrs: noinline nounwind optnone uwtable
define dso_local i32 @main() #0 {
  %1 = alloca i32, align 4
  %2 = alloca ptr, align 4
  %3 = alloca ptr, align 4
  %4 = alloca i32, align 4
  %5 = alloca i32, align 4
  %6 = alloca i32, align 4
  %7 = alloca ptr, align 4
  store i32 0, ptr %1, align 4
  store ptr @main.worlds, ptr %2, align 4
  store ptr getelementptr inbounds ([2 x %struct.world], ptr @main.worlds, i32 0, i32 1), ptr %3, align 4
  %8 = load ptr, ptr %2, align 4
  %9 = call i32 @read_world(ptr noundef %8)
  %10 = icmp eq i32 %9, 0
  br i1 %10, label %11, label %13

11:                                               ; preds = %0
  %12 = call i32 @puts(ptr noundef @.str)
  store i32 0, ptr %1, align 4
  br label %103

13:                                               ; preds = %0
  %14 = load ptr, ptr %2, align 4
  call void @show(ptr noundef %14, i32 noundef 0)
  store i32 0, ptr %4, align 4
  store i32 0, ptr %5, align 4
  br label %15

15:                                               ; preds = %65, %13
  %16 = load i32, ptr %4, align 4
  %17 = icmp slt i32 %16, 200
  br i1 %17, label %18, label %22

18:                                               ; preds = %15
  %19 = load i32, ptr %5, align 4
  %20 = icmp ne i32 %19, 0
  %21 = xor i1 %20, true
  br label %22

22:                                               ; preds = %18, %15
  %23 = phi i1 [ false, %15 ], [ %21, %18 ]
  br i1 %23, label %24, label %68

24:                                               ; preds = %22
  %25 = load ptr, ptr %2, align 4
  %26 = call i64 @digest(ptr noundef %25)
  %27 = load i32, ptr %4, align 4
  %28 = getelementptr inbounds [200 x i64], ptr @main.seen, i32 0, i32 %27
  store i64 %26, ptr %28, align 8
  store i32 1, ptr %6, align 4
  br label %29

29:                                               ; preds = %52, %24
  %30 = load i32, ptr %6, align 4
  %31 = load i32, ptr %4, align 4
  %32 = icmp sle i32 %30, %31
  br i1 %32, label %33, label %37

33:                                               ; preds = %29
  %34 = load i32, ptr %5, align 4
  %35 = icmp ne i32 %34, 0
  %36 = xor i1 %35, true
  br label %37

37:                                               ; preds = %33, %29
  %38 = phi i1 [ false, %29 ], [ %36, %33 ]
  br i1 %38, label %39, label %55

39:                                               ; preds = %37
  %40 = load i32, ptr %4, align 4
  %41 = load i32, ptr %6, align 4
  %42 = sub nsw i32 %40, %41
  %43 = getelementptr inbounds [200 x i64], ptr @main.seen, i32 0, i32 %42
  %44 = load i64, ptr %43, align 8
  %45 = load i32, ptr %4, align 4
  %46 = getelementptr inbounds [200 x i64], ptr @main.seen, i32 0, i32 %45
  %47 = load i64, ptr %46, align 8
  %48 = icmp eq i64 %44, %47
  br i1 %48, label %49, label %51

49:                                               ; preds = %39
  %50 = load i32, ptr %6, align 4
  store i32 %50, ptr %5, align 4
  br label %51

51:                                               ; preds = %49, %39
  br label %52

52:                                               ; preds = %51
  %53 = load i32, ptr %6, align 4
  %54 = add nsw i32 %53, 1
  store i32 %54, ptr %6, align 4
  br label %29, !llvm.loop !7

55:                                               ; preds = %37
  %56 = load i32, ptr %5, align 4
  %57 = icmp ne i32 %56, 0
  br i1 %57, label %58, label %59

58:                                               ; preds = %55
  br label %68

59:                                               ; preds = %55
  %60 = load ptr, ptr %3, align 4
  %61 = load ptr, ptr %2, align 4
  call void @step(ptr noundef %60, ptr noundef %61)
  %62 = load ptr, ptr %2, align 4
  store ptr %62, ptr %7, align 4
  %63 = load ptr, ptr %3, align 4
  store ptr %63, ptr %2, align 4
  %64 = load ptr, ptr %7, align 4
  store ptr %64, ptr %3, align 4
  br label %65

65:                                               ; preds = %59
  %66 = load i32, ptr %4, align 4
  %67 = add nsw i32 %66, 1
  store i32 %67, ptr %4, align 4
  br label %15, !llvm.loop !9

68:                                               ; preds = %58, %22
  %69 = load ptr, ptr %2, align 4
  %70 = load i32, ptr %4, align 4
  call void @show(ptr noundef %69, i32 noundef %70)
  %71 = load i32, ptr %5, align 4
  %72 = icmp ne i32 %71, 0
  br i1 %72, label %73, label %82

73:                                               ; preds = %68
  %74 = load i32, ptr %5, align 4
  %75 = call i32 @__print_text(ptr getelementptr inbounds ([3 x { i8, i8, i8, i8, ptr, i32 }], ptr @__streams, i32 0, i32 1), ptr @.str.1, i32 3)
  %76 = sext i32 %74 to i64
  %77 = call i32 @__print_signed(ptr getelementptr inbounds ([3 x { i8, i8, i8, i8, ptr, i32 }], ptr @__streams, i32 0, i32 1), i64 %76, i32 0, i32 0, i32 -1)
  %78 = call i32 @__print_text(ptr getelementptr inbounds ([3 x { i8, i8, i8, i8, ptr, i32 }], ptr @__streams, i32 0, i32 1), ptr getelementptr inbounds (i8, ptr @.str.1, i32 5), i32 8)
  %79 = add i32 %75, %77
  %80 = add i32 %79, %78
  %81 = add i32 %80, 0
  br label %82

82:                                               ; preds = %73, %68
  %83 = load ptr, ptr %2, align 4
  %84 = call i64 @digest(ptr noundef %83)
  %85 = lshr i64 %84, 32
  %86 = trunc i64 %85 to i32
  %87 = load ptr, ptr %2, align 4
  %88 = call i64 @digest(ptr noundef %87)
  %89 = trunc i64 %88 to i32
  %90 = call i32 @__print_text(ptr getelementptr inbounds ([3 x { i8, i8, i8, i8, ptr, i32 }], ptr @__streams, i32 0, i32 1), ptr @.str.2, i32 7)
  %91 = zext i32 %86 to i64
  %92 = call i32 @__print_unsigned(ptr getelementptr inbounds ([3 x { i8, i8, i8, i8, ptr, i32 }], ptr @__streams, i32 0, i32 1), i64 %91, i32 16, i32 16, i32 8, i32 -1)
  %93 = zext i32 %89 to i64
  %94 = call i32 @__print_unsigned(ptr getelementptr inbounds ([3 x { i8, i8, i8, i8, ptr, i32 }], ptr @__streams, i32 0, i32 1), i64 %93, i32 16, i32 16, i32 8, i32 -1)
  %95 = call i32 @__print_text(ptr getelementptr inbounds ([3 x { i8, i8, i8, i8, ptr, i32 }], ptr @__streams, i32 0, i32 1), ptr getelementptr inbounds (i8, ptr @.str.2, i32 15), i32 1)
  %96 = add i32 %90, %92
  %97 = add i32 %96, %94
  %98 = add i32 %97, %95
  %99 = add i32 %98, 0
  %100 = load ptr, ptr %2, align 4
  %101 = call i32 @population(ptr noundef %100)
  %102 = srem i32 %101, 256
  store i32 %102, ptr %1, align 4
  br label %103

103:                                              ; preds = %82, %11
  %104 = load i32, ptr %1, align 4
  ret i32 %104
}

; Function Attrs: noinline nounwind optnone uwtable
define internal i32 @read_world(ptr noundef %0) #0 {
  %2 = alloca ptr, align 4
  %3 = alloca [256 x i8], align 1
  %4 = alloca i32, align 4
  %5 = alloca i32, align 4
  %6 = alloca i32, align 4
  store ptr %0, ptr %2, align 4
  store i32 0, ptr %4, align 4
  store i32 0, ptr %5, align 4
  %7 = load ptr, ptr %2, align 4
  call void @llvm.memset.p0.i32(ptr align 4 %7, i8 0, i32 256, i1 false)
  br label %8

8:                                                ; preds = %69, %22, %1
  %9 = load i32, ptr %4, align 4
  %10 = icmp slt i32 %9, 32
  br i1 %10, label %11, label %15

11:                                               ; preds = %8
  %12 = getelementptr inbounds [256 x i8], ptr %3, i32 0, i32 0
  %13 = call ptr @fgets(ptr noundef %12, i32 noundef 256, ptr noundef @__streams)
  %14 = icmp ne ptr %13, null
  br label %15

15:                                               ; preds = %11, %8
  %16 = phi i1 [ false, %8 ], [ %14, %11 ]
  br i1 %16, label %17, label %72

17:                                               ; preds = %15
  %18 = getelementptr inbounds [256 x i8], ptr %3, i32 0, i32 0
  %19 = load i8, ptr %18, align 1
  %20 = sext i8 %19 to i32
  %21 = icmp eq i32 %20, 33
  br i1 %21, label %22, label %23

22:                                               ; preds = %17
  br label %8, !llvm.loop !10

23:                                               ; preds = %17
  store i32 0, ptr %6, align 4
  br label %24

24:                                               ; preds = %66, %23
  %25 = load i32, ptr %6, align 4
  %26 = icmp slt i32 %25, 64
  br i1 %26, label %27, label %39

27:                                               ; preds = %24
  %28 = load i32, ptr %6, align 4
  %29 = getelementptr inbounds [256 x i8], ptr %3, i32 0, i32 %28
  %30 = load i8, ptr %29, align 1
  %31 = sext i8 %30 to i32
  %32 = icmp ne i32 %31, 0
  br i1 %32, label %33, label %39

33:                                               ; preds = %27
  %34 = load i32, ptr %6, align 4
  %35 = getelementptr inbounds [256 x i8], ptr %3, i32 0, i32 %34
  %36 = load i8, ptr %35, align 1
  %37 = sext i8 %36 to i32
  %38 = icmp ne i32 %37, 10
  br label %39

39:                                               ; preds = %33, %27, %24
  %40 = phi i1 [ false, %27 ], [ false, %24 ], [ %38, %33 ]
  br i1 %40, label %41, label %69

41:                                               ; preds = %39
  %42 = load i32, ptr %6, align 4
  %43 = getelementptr inbounds [256 x i8], ptr %3, i32 0, i32 %42
  %44 = load i8, ptr %43, align 1
  %45 = sext i8 %44 to i32
  %46 = icmp eq i32 %45, 35
  br i1 %46, label %53, label %47

47:                                               ; preds = %41
  %48 = load i32, ptr %6, align 4
  %49 = getelementptr inbounds [256 x i8], ptr %3, i32 0, i32 %48
  %50 = load i8, ptr %49, align 1
  %51 = sext i8 %50 to i32
  %52 = icmp eq i32 %51, 79
  br i1 %52, label %53, label %65

53:                                               ; preds = %47, %41
  %54 = load i32, ptr %6, align 4
  %55 = zext i32 %54 to i64
  %56 = shl i64 1, %55
  %57 = load ptr, ptr %2, align 4
  %58 = getelementptr inbounds %struct.world, ptr %57, i32 0, i32 0
  %59 = load i32, ptr %4, align 4
  %60 = getelementptr inbounds [32 x i64], ptr %58, i32 0, i32 %59
  %61 = load i64, ptr %60, align 4
  %62 = or i64 %61, %56
  store i64 %62, ptr %60, align 4
  %63 = load i32, ptr %5, align 4
  %64 = add nsw i32 %63, 1
  store i32 %64, ptr %5, align 4
  br label %65

65:                                               ; preds = %53, %47
  br label %66

66:                                               ; preds = %65
  %67 = load i32, ptr %6, align 4
  %68 = add nsw i32 %67, 1
  store i32 %68, ptr %6, align 4
  br label %24, !llvm.loop !11

69:                                               ; preds = %39
  %70 = load i32, ptr %4, align 4
  %71 = add nsw i32 %70, 1
  store i32 %71, ptr %4, align 4
  br label %8, !llvm.loop !10

72:                                               ; preds = %15
  %73 = load i32, ptr %5, align 4
  ret i32 %73
}

declare dso_local i32 @puts(ptr noundef) #1

; Function Attrs: noinline nounwind optnone uwtable
define internal void @show(ptr noundef %0, i32 noundef %1) #0 {
  %3 = alloca ptr, align 4
  %4 = alloca i32, align 4
  %5 = alloca i32, align 4
  %6 = alloca i32, align 4
  %7 = alloca [66 x i8], align 1
  %8 = alloca i32, align 4
  %9 = alloca i32, align 4
  store ptr %0, ptr %3, align 4
  store i32 %1, ptr %4, align 4
  %10 = load i32, ptr %4, align 4
  %11 = load ptr, ptr %3, align 4
  %12 = call i32 @population(ptr noundef %11)
  %13 = call i32 @__print_text(ptr getelementptr inbounds ([3 x { i8, i8, i8, i8, ptr, i32 }], ptr @__streams, i32 0, i32 1), ptr @.str.3, i32 11)
  %14 = sext i32 %10 to i64
  %15 = call i32 @__print_signed(ptr getelementptr inbounds ([3 x { i8, i8, i8, i8, ptr, i32 }], ptr @__streams, i32 0, i32 1), i64 %14, i32 0, i32 0, i32 -1)
  %16 = call i32 @__print_text(ptr getelementptr inbounds ([3 x { i8, i8, i8, i8, ptr, i32 }], ptr @__streams, i32 0, i32 1), ptr getelementptr inbounds (i8, ptr @.str.3, i32 13), i32 2)
  %17 = sext i32 %12 to i64
  %18 = call i32 @__print_signed(ptr getelementptr inbounds ([3 x { i8, i8, i8, i8, ptr, i32 }], ptr @__streams, i32 0, i32 1), i64 %17, i32 0, i32 0, i32 -1)
  %19 = call i32 @__print_text(ptr getelementptr inbounds ([3 x { i8, i8, i8, i8, ptr, i32 }], ptr @__streams, i32 0, i32 1), ptr getelementptr inbounds (i8, ptr @.str.3, i32 17), i32 7)
  %20 = add i32 %13, %15
  %21 = add i32 %20, %16
  %22 = add i32 %21, %18
  %23 = add i32 %22, %19
  %24 = add i32 %23, 0
  store i32 31, ptr %5, align 4
  br label %25

25:                                               ; preds = %38, %2
  %26 = load i32, ptr %5, align 4
  %27 = icmp sgt i32 %26, 0
  br i1 %27, label %28, label %36

28:                                               ; preds = %25
  %29 = load ptr, ptr %3, align 4
  %30 = getelementptr inbounds %struct.world, ptr %29, i32 0, i32 0
  %31 = load i32, ptr %5, align 4
  %32 = getelementptr inbounds [32 x i64], ptr %30, i32 0, i32 %31
  %33 = load i64, ptr %32, align 4
  %34 = icmp ne i64 %33, 0
  %35 = xor i1 %34, true
  br label %36

36:                                               ; preds = %28, %25
  %37 = phi i1 [ false, %25 ], [ %35, %28 ]
  br i1 %37, label %38, label %41

38:                                               ; preds = %36
  %39 = load i32, ptr %5, align 4
  %40 = add nsw i32 %39, -1
  store i32 %40, ptr %5, align 4
  br label %25, !llvm.loop !12

41:                                               ; preds = %36
  store i32 0, ptr %6, align 4
  br label %42

42:                                               ; preds = %85, %41
  %43 = load i32, ptr %6, align 4
  %44 = load i32, ptr %5, align 4
  %45 = icmp sle i32 %43, %44
  br i1 %45, label %46, label %88

46:                                               ; preds = %42
  store i32 0, ptr %8, align 4
  store i32 0, ptr %9, align 4
  br label %47

47:                                               ; preds = %75, %46
  %48 = load i32, ptr %9, align 4
  %49 = icmp slt i32 %48, 64
  br i1 %49, label %50, label %78

50:                                               ; preds = %47
  %51 = load ptr, ptr %3, align 4
  %52 = getelementptr inbounds %struct.world, ptr %51, i32 0, i32 0
  %53 = load i32, ptr %6, align 4
  %54 = getelementptr inbounds [32 x i64], ptr %52, i32 0, i32 %53
  %55 = load i64, ptr %54, align 4
  %56 = load i32, ptr %9, align 4
  %57 = zext i32 %56 to i64
  %58 = lshr i64 %55, %57
  %59 = and i64 %58, 1
  %60 = icmp ne i64 %59, 0
  br i1 %60, label %61, label %74

61:                                               ; preds = %50
  br label %62

62:                                               ; preds = %66, %61
  %63 = load i32, ptr %8, align 4
  %64 = load i32, ptr %9, align 4
  %65 = icmp slt i32 %63, %64
  br i1 %65, label %66, label %70

66:                                               ; preds = %62
  %67 = load i32, ptr %8, align 4
  %68 = add nsw i32 %67, 1
  store i32 %68, ptr %8, align 4
  %69 = getelementptr inbounds [66 x i8], ptr %7, i32 0, i32 %67
  store i8 46, ptr %69, align 1
  br label %62, !llvm.loop !13

70:                                               ; preds = %62
  %71 = load i32, ptr %8, align 4
  %72 = add nsw i32 %71, 1
  store i32 %72, ptr %8, align 4
  %73 = getelementptr inbounds [66 x i8], ptr %7, i32 0, i32 %71
  store i8 35, ptr %73, align 1
  br label %74

74:                                               ; preds = %70, %50
  br label %75

75:                                               ; preds = %74
  %76 = load i32, ptr %9, align 4
  %77 = add nsw i32 %76, 1
  store i32 %77, ptr %9, align 4
  br label %47, !llvm.loop !14

78:                                               ; preds = %47
  %79 = load i32, ptr %8, align 4
  %80 = add nsw i32 %79, 1
  store i32 %80, ptr %8, align 4
  %81 = getelementptr inbounds [66 x i8], ptr %7, i32 0, i32 %79
  store i8 10, ptr %81, align 1
  %82 = getelementptr inbounds [66 x i8], ptr %7, i32 0, i32 0
  %83 = load i32, ptr %8, align 4
  %84 = call i32 @fwrite(ptr noundef %82, i32 noundef 1, i32 noundef %83, ptr noundef getelementptr inbounds ([3 x %struct.__stream], ptr @__streams, i32 0, i32 1))
  br label %85

85:                                               ; preds = %78
  %86 = load i32, ptr %6, align 4
  %87 = add nsw i32 %86, 1
  store i32 %87, ptr %6, align 4
  br label %42, !llvm.loop !15

88:                                               ; preds = %42
  ret void
}

; Function Attrs: noinline nounwind optnone uwtable
define internal i64 @digest(ptr noundef %0) #0 {
  %2 = alloca ptr, align 4
  %3 = alloca i64, align 8
  %4 = alloca i32, align 4
  store ptr %0, ptr %2, align 4
  store i64 1469598103934665603, ptr %3, align 8
  store i32 0, ptr %4, align 4
  br label %5

5:                                                ; preds = %22, %1
  %6 = load i32, ptr %4, align 4
  %7 = icmp slt i32 %6, 32
  br i1 %7, label %8, label %25

8:                                                ; preds = %5
  %9 = load ptr, ptr %2, align 4
  %10 = getelementptr inbounds %struct.world, ptr %9, i32 0, i32 0
  %11 = load i32, ptr %4, align 4
  %12 = getelementptr inbounds [32 x i64], ptr %10, i32 0, i32 %11
  %13 = load i64, ptr %12, align 4
  %14 = load i64, ptr %3, align 8
  %15 = xor i64 %14, %13
  store i64 %15, ptr %3, align 8
  %16 = load i64, ptr %3, align 8
  %17 = mul i64 %16, 1099511628211
  store i64 %17, ptr %3, align 8
  %18 = load i64, ptr %3, align 8
  %19 = lshr i64 %18, 29
  %20 = load i64, ptr %3, align 8
  %21 = xor i64 %20, %19
  store i64 %21, ptr %3, align 8
  br label %22

22:                                               ; preds = %8
  %23 = load i32, ptr %4, align 4
  %24 = add nsw i32 %23, 1
  store i32 %24, ptr %4, align 4
  br label %5, !llvm.loop !16

25:                                               ; preds = %5
  %26 = load i64, ptr %3, align 8
  ret i64 %26
}

; Function Attrs: noinline nounwind optnone uwtable
define internal void @step(ptr noundef %0, ptr noundef %1) #0 {
  %3 = alloca ptr, align 4
  %4 = alloca ptr, align 4
  %5 = alloca i32, align 4
  %6 = alloca i64, align 8
  %7 = alloca i64, align 8
  %8 = alloca i64, align 8
  %9 = alloca [3 x i64], align 8
  store ptr %0, ptr %3, align 4
  store ptr %1, ptr %4, align 4
  store i32 0, ptr %5, align 4
  br label %10

10:                                               ; preds = %71, %2
  %11 = load i32, ptr %5, align 4
  %12 = icmp slt i32 %11, 32
  br i1 %12, label %13, label %74

13:                                               ; preds = %10
  %14 = load ptr, ptr %4, align 4
  %15 = getelementptr inbounds %struct.world, ptr %14, i32 0, i32 0
  %16 = load i32, ptr %5, align 4
  %17 = add nsw i32 %16, 32
  %18 = sub nsw i32 %17, 1
  %19 = srem i32 %18, 32
  %20 = getelementptr inbounds [32 x i64], ptr %15, i32 0, i32 %19
  %21 = load i64, ptr %20, align 4
  store i64 %21, ptr %6, align 8
  %22 = load ptr, ptr %4, align 4
  %23 = getelementptr inbounds %struct.world, ptr %22, i32 0, i32 0
  %24 = load i32, ptr %5, align 4
  %25 = getelementptr inbounds [32 x i64], ptr %23, i32 0, i32 %24
  %26 = load i64, ptr %25, align 4
  store i64 %26, ptr %7, align 8
  %27 = load ptr, ptr %4, align 4
  %28 = getelementptr inbounds %struct.world, ptr %27, i32 0, i32 0
  %29 = load i32, ptr %5, align 4
  %30 = add nsw i32 %29, 1
  %31 = srem i32 %30, 32
  %32 = getelementptr inbounds [32 x i64], ptr %28, i32 0, i32 %31
  %33 = load i64, ptr %32, align 4
  store i64 %33, ptr %8, align 8
  call void @llvm.memset.p0.i32(ptr align 8 %9, i8 0, i32 24, i1 false)
  %34 = getelementptr inbounds [3 x i64], ptr %9, i32 0, i32 0
  %35 = load i64, ptr %6, align 8
  %36 = call i64 @left(i64 noundef %35)
  call void @count(ptr noundef %34, i64 noundef %36)
  %37 = getelementptr inbounds [3 x i64], ptr %9, i32 0, i32 0
  %38 = load i64, ptr %6, align 8
  call void @count(ptr noundef %37, i64 noundef %38)
  %39 = getelementptr inbounds [3 x i64], ptr %9, i32 0, i32 0
  %40 = load i64, ptr %6, align 8
  %41 = call i64 @right(i64 noundef %40)
  call void @count(ptr noundef %39, i64 noundef %41)
  %42 = getelementptr inbounds [3 x i64], ptr %9, i32 0, i32 0
  %43 = load i64, ptr %7, align 8
  %44 = call i64 @left(i64 noundef %43)
  call void @count(ptr noundef %42, i64 noundef %44)
  %45 = getelementptr inbounds [3 x i64], ptr %9, i32 0, i32 0
  %46 = load i64, ptr %7, align 8
  %47 = call i64 @right(i64 noundef %46)
  call void @count(ptr noundef %45, i64 noundef %47)
  %48 = getelementptr inbounds [3 x i64], ptr %9, i32 0, i32 0
  %49 = load i64, ptr %8, align 8
  %50 = call i64 @left(i64 noundef %49)
  call void @count(ptr noundef %48, i64 noundef %50)
  %51 = getelementptr inbounds [3 x i64], ptr %9, i32 0, i32 0
  %52 = load i64, ptr %8, align 8
  call void @count(ptr noundef %51, i64 noundef %52)
  %53 = getelementptr inbounds [3 x i64], ptr %9, i32 0, i32 0
  %54 = load i64, ptr %8, align 8
  %55 = call i64 @right(i64 noundef %54)
  call void @count(ptr noundef %53, i64 noundef %55)
  %56 = getelementptr inbounds [3 x i64], ptr %9, i32 0, i32 2
  %57 = load i64, ptr %56, align 8
  %58 = xor i64 %57, -1
  %59 = getelementptr inbounds [3 x i64], ptr %9, i32 0, i32 1
  %60 = load i64, ptr %59, align 8
  %61 = and i64 %58, %60
  %62 = getelementptr inbounds [3 x i64], ptr %9, i32 0, i32 0
  %63 = load i64, ptr %62, align 8
  %64 = load i64, ptr %7, align 8
  %65 = or i64 %63, %64
  %66 = and i64 %61, %65
  %67 = load ptr, ptr %3, align 4
  %68 = getelementptr inbounds %struct.world, ptr %67, i32 0, i32 0
  %69 = load i32, ptr %5, align 4
  %70 = getelementptr inbounds [32 x i64], ptr %68, i32 0, i32 %69
  store i64 %66, ptr %70, align 4
  br label %71

71:                                               ; preds = %13
  %72 = load i32, ptr %5, align 4
  %73 = add nsw i32 %72, 1
  store i32 %73, ptr %5, align 4
  br label %10, !llvm.loop !17

74:                                               ; preds = %10
  ret void
}

; Function Attrs: nounwind optsize uwtable
define internal noundef i32 @__print_text(ptr nocapture noundef %0, ptr nocapture noundef readonly %1, i32 noundef returned %2) #2 {
  %4 = load i8, ptr %0, align 4, !tbaa !18, !alias.scope !24, !noalias !27
  %5 = icmp eq i8 %4, 0
  %6 = icmp eq i32 %2, 0
  %7 = or i1 %6, %5
  br i1 %7, label %16, label %8

8:                                                ; preds = %8, %3
  %9 = phi i32 [ %14, %8 ], [ 0, %3 ]
  %10 = getelementptr inbounds i8, ptr %1, i32 %9
  %11 = load i8, ptr %10, align 1, !tbaa !29, !alias.scope !27, !noalias !24
  %12 = zext i8 %11 to i32
  %13 = tail call i32 @fputc(i32 noundef %12, ptr noundef nonnull %0) #7, !noalias !27
  %14 = add nuw i32 %9, 1
  %15 = icmp eq i32 %14, %2
  br i1 %15, label %16, label %8, !llvm.loop !30

16:                                               ; preds = %8, %3
  ret i32 %2
}

; Function Attrs: nounwind optsize uwtable
define internal i32 @__print_signed(ptr nocapture noundef %0, i64 noundef %1, i32 noundef %2, i32 noundef %3, i32 noundef %4) #2 {
  %6 = alloca [24 x i8], align 1
  call void @llvm.lifetime.start.p0(i64 24, ptr nonnull %6) #8
  %7 = getelementptr inbounds i8, ptr %6, i32 24
  %8 = icmp slt i64 %1, 0
  %9 = lshr i64 %1, 63
  %10 = icmp ne i64 %9, 0
  %11 = sub i64 0, %1
  %12 = select i1 %10, i64 %11, i64 %1
  %13 = icmp ult i64 %12, 4294967296
  br i1 %13, label %14, label %26

14:                                               ; preds = %5
  %15 = trunc nuw i64 %12 to i32
  %16 = icmp eq i32 %15, 0
  br i1 %16, label %38, label %17

17:                                               ; preds = %17, %14
  %18 = phi i32 [ %24, %17 ], [ %15, %14 ]
  %19 = phi ptr [ %23, %17 ], [ %7, %14 ]
  %20 = urem i32 %18, 10
  %21 = getelementptr inbounds i8, ptr @.str.9, i32 %20
  %22 = load i8, ptr %21, align 1, !tbaa !29
  %23 = getelementptr inbounds i8, ptr %19, i32 -1
  store i8 %22, ptr %23, align 1, !tbaa !29
  %24 = udiv i32 %18, 10
  %25 = icmp ult i32 %18, 10
  br i1 %25, label %38, label %17, !llvm.loop !31

26:                                               ; preds = %26, %5
  %27 = phi ptr [ %36, %26 ], [ %7, %5 ]
  %28 = phi i64 [ %30, %26 ], [ %12, %5 ]
  %29 = freeze i64 %28
  %30 = udiv i64 %29, 10
  %31 = mul i64 %30, 10
  %32 = sub i64 %29, %31
  %33 = trunc nuw nsw i64 %32 to i32
  %34 = getelementptr inbounds i8, ptr @.str.9, i32 %33
  %35 = load i8, ptr %34, align 1, !tbaa !29
  %36 = getelementptr inbounds i8, ptr %27, i32 -1
  store i8 %35, ptr %36, align 1, !tbaa !29
  %37 = icmp ult i64 %28, 10
  br i1 %37, label %38, label %26, !llvm.loop !32

38:                                               ; preds = %26, %17, %14
  %39 = phi ptr [ %7, %14 ], [ %23, %17 ], [ %36, %26 ]
  %40 = icmp eq i64 %1, 0
  %41 = icmp ne i32 %4, 0
  %42 = and i1 %40, %41
  br i1 %42, label %43, label %45

43:                                               ; preds = %38
  %44 = getelementptr inbounds i8, ptr %39, i32 -1
  store i8 48, ptr %44, align 1, !tbaa !29
  br label %46

45:                                               ; preds = %38
  br i1 %8, label %54, label %46

46:                                               ; preds = %45, %43
  %47 = phi ptr [ %44, %43 ], [ %39, %45 ]
  %48 = and i32 %2, 2
  %49 = icmp eq i32 %48, 0
  br i1 %49, label %50, label %54

50:                                               ; preds = %46
  %51 = and i32 %2, 4
  %52 = icmp eq i32 %51, 0
  %53 = select i1 %52, ptr @.str.10, ptr @.str.4
  br label %54

54:                                               ; preds = %50, %46, %45
  %55 = phi ptr [ %39, %45 ], [ %47, %50 ], [ %47, %46 ]
  %56 = phi ptr [ @.str.2.11, %45 ], [ %53, %50 ], [ @.str.3.12, %46 ]
  %57 = ptrtoint ptr %7 to i32
  %58 = ptrtoint ptr %55 to i32
  %59 = sub i32 %57, %58
  %60 = call fastcc i32 @number(ptr noundef %0, ptr noundef nonnull %56, ptr noundef nonnull %55, i32 noundef %59, i32 noundef %2, i32 noundef %3, i32 noundef %4) #7
  call void @llvm.lifetime.end.p0(i64 24, ptr nonnull %6) #8
  ret i32 %60
}

; Function Attrs: nounwind optsize uwtable
define internal i32 @__print_unsigned(ptr nocapture noundef %0, i64 noundef %1, i32 noundef %2, i32 noundef %3, i32 noundef %4, i32 noundef %5) #2 {
  %7 = alloca [24 x i8], align 1
  call void @llvm.lifetime.start.p0(i64 24, ptr nonnull %7) #8
  %8 = and i32 %3, 32
  %9 = icmp eq i32 %8, 0
  %10 = select i1 %9, ptr @.str.9, ptr @.str.8
  %11 = icmp ult i64 %1, 4294967296
  br i1 %11, label %14, label %12

12:                                               ; preds = %6
  %13 = zext i32 %2 to i64
  br label %27

14:                                               ; preds = %6
  %15 = trunc nuw i64 %1 to i32
  %16 = icmp eq i32 %15, 0
  br i1 %16, label %40, label %17

17:                                               ; preds = %17, %14
  %18 = phi i32 [ %25, %17 ], [ %15, %14 ]
  %19 = phi i32 [ %23, %17 ], [ 24, %14 ]
  %20 = urem i32 %18, %2
  %21 = getelementptr inbounds i8, ptr %10, i32 %20
  %22 = load i8, ptr %21, align 1, !tbaa !29
  %23 = add nsw i32 %19, -1
  %24 = getelementptr inbounds i8, ptr %7, i32 %23
  store i8 %22, ptr %24, align 1, !tbaa !29
  %25 = udiv i32 %18, %2
  %26 = icmp ult i32 %18, %2
  br i1 %26, label %40, label %17, !llvm.loop !31

27:                                               ; preds = %27, %12
  %28 = phi i32 [ 24, %12 ], [ %37, %27 ]
  %29 = phi i64 [ %1, %12 ], [ %31, %27 ]
  %30 = freeze i64 %29
  %31 = udiv i64 %30, %13
  %32 = mul i64 %31, %13
  %33 = sub i64 %30, %32
  %34 = trunc nuw i64 %33 to i32
  %35 = getelementptr inbounds i8, ptr %10, i32 %34
  %36 = load i8, ptr %35, align 1, !tbaa !29
  %37 = add nsw i32 %28, -1
  %38 = getelementptr inbounds i8, ptr %7, i32 %37
  store i8 %36, ptr %38, align 1, !tbaa !29
  %39 = icmp ult i64 %29, %13
  br i1 %39, label %40, label %27, !llvm.loop !32

40:                                               ; preds = %27, %17, %14
  %41 = phi i32 [ 24, %14 ], [ %23, %17 ], [ %37, %27 ]
  %42 = icmp eq i64 %1, 0
  %43 = icmp ne i32 %5, 0
  %44 = and i1 %42, %43
  br i1 %44, label %45, label %48

45:                                               ; preds = %40
  %46 = add nsw i32 %41, -1
  %47 = getelementptr inbounds i8, ptr %7, i32 %46
  store i8 48, ptr %47, align 1, !tbaa !29
  br label %48

48:                                               ; preds = %45, %40
  %49 = phi i32 [ %46, %45 ], [ %41, %40 ]
  %50 = getelementptr inbounds i8, ptr %7, i32 %49
  %51 = and i32 %3, 8
  %52 = icmp ne i32 %51, 0
  %53 = icmp eq i32 %2, 8
  %54 = and i1 %53, %52
  %55 = sub nsw i32 24, %49
  %56 = icmp sge i32 %55, %5
  %57 = select i1 %54, i1 %56, i1 false
  br i1 %57, label %58, label %65

58:                                               ; preds = %48
  %59 = icmp eq i32 %49, 24
  br i1 %59, label %63, label %60

60:                                               ; preds = %58
  %61 = load i8, ptr %50, align 1, !tbaa !29
  %62 = icmp eq i8 %61, 48
  br i1 %62, label %65, label %63

63:                                               ; preds = %60, %58
  %64 = getelementptr inbounds i8, ptr %50, i32 -1
  store i8 48, ptr %64, align 1, !tbaa !29
  br label %65

65:                                               ; preds = %63, %60, %48
  %66 = phi ptr [ %64, %63 ], [ %50, %60 ], [ %50, %48 ]
  %67 = getelementptr inbounds i8, ptr %7, i32 24
  %68 = ptrtoint ptr %67 to i32
  %69 = icmp eq i32 %2, 16
  %70 = icmp ne i64 %1, 0
  %71 = and i1 %70, %69
  %72 = and i1 %71, %52
  %73 = select i1 %9, ptr @.str.6, ptr @.str.5
  %74 = select i1 %72, ptr %73, ptr @.str.10
  %75 = ptrtoint ptr %66 to i32
  %76 = sub i32 %68, %75
  %77 = call fastcc i32 @number(ptr noundef %0, ptr noundef nonnull %74, ptr noundef nonnull %66, i32 noundef %76, i32 noundef %3, i32 noundef %4, i32 noundef %5) #7
  call void @llvm.lifetime.end.p0(i64 24, ptr nonnull %7) #8
  ret i32 %77
}

; Function Attrs: noinline nounwind optnone uwtable
define internal i32 @population(ptr noundef %0) #0 {
  %2 = alloca ptr, align 4
  %3 = alloca i32, align 4
  %4 = alloca i32, align 4
  %5 = alloca i64, align 8
  store ptr %0, ptr %2, align 4
  store i32 0, ptr %3, align 4
  store i32 0, ptr %4, align 4
  br label %6

6:                                                ; preds = %27, %1
  %7 = load i32, ptr %4, align 4
  %8 = icmp slt i32 %7, 32
  br i1 %8, label %9, label %30

9:                                                ; preds = %6
  %10 = load ptr, ptr %2, align 4
  %11 = getelementptr inbounds %struct.world, ptr %10, i32 0, i32 0
  %12 = load i32, ptr %4, align 4
  %13 = getelementptr inbounds [32 x i64], ptr %11, i32 0, i32 %12
  %14 = load i64, ptr %13, align 4
  store i64 %14, ptr %5, align 8
  br label %15

15:                                               ; preds = %21, %9
  %16 = load i64, ptr %5, align 8
  %17 = icmp ne i64 %16, 0
  br i1 %17, label %18, label %26

18:                                               ; preds = %15
  %19 = load i32, ptr %3, align 4
  %20 = add nsw i32 %19, 1
  store i32 %20, ptr %3, align 4
  br label %21

21:                                               ; preds = %18
  %22 = load i64, ptr %5, align 8
  %23 = sub i64 %22, 1
  %24 = load i64, ptr %5, align 8
  %25 = and i64 %24, %23
  store i64 %25, ptr %5, align 8
  br label %15, !llvm.loop !33

26:                                               ; preds = %15
  br label %27

27:                                               ; preds = %26
  %28 = load i32, ptr %4, align 4
  %29 = add nsw i32 %28, 1
  store i32 %29, ptr %4, align 4
  br label %6, !llvm.loop !34

30:                                               ; preds = %6
  %31 = load i32, ptr %3, align 4
  ret i32 %31
}

; Function Attrs: nocallback nofree nosync nounwind willreturn memory(argmem: readwrite)
declare void @llvm.lifetime.start.p0(i64 immarg, ptr nocapture) #3

; Function Attrs: nounwind optsize uwtable
define internal fastcc i32 @number(ptr nocapture noundef %0, ptr noundef %1, ptr nocapture noundef readonly %2, i32 noundef %3, i32 noundef %4, i32 noundef %5, i32 noundef %6) unnamed_addr #2 {
  br label %8

8:                                                ; preds = %8, %7
  %9 = phi ptr [ %1, %7 ], [ %12, %8 ]
  %10 = load i8, ptr %9, align 1, !tbaa !29
  %11 = icmp eq i8 %10, 0
  %12 = getelementptr inbounds i8, ptr %9, i32 1
  br i1 %11, label %13, label %8, !llvm.loop !35

13:                                               ; preds = %8
  %14 = ptrtoint ptr %9 to i32
  %15 = ptrtoint ptr %1 to i32
  %16 = sub i32 %14, %15
  %17 = sub nsw i32 %6, %3
  %18 = lshr i32 %5, 31
  %19 = icmp ne i32 %18, 0
  %20 = sub i32 0, %5
  %21 = select i1 %19, i32 %20, i32 %5
  %22 = lshr i32 %5, 31
  %23 = tail call i32 @llvm.smax.i32(i32 %17, i32 0)
  %24 = icmp slt i32 %6, 0
  %25 = and i32 %4, 16
  %26 = icmp ne i32 %25, 0
  %27 = and i1 %26, %24
  %28 = and i32 %4, 1
  %29 = or i32 %22, %28
  %30 = icmp eq i32 %29, 0
  %31 = and i1 %27, %30
  %32 = add i32 %16, %3
  %33 = icmp sgt i32 %21, %32
  %34 = select i1 %31, i1 %33, i1 false
  %35 = sub i32 %21, %32
  %36 = select i1 %34, i32 %35, i32 %23
  %37 = add i32 %32, %36
  %38 = sub i32 %21, %37
  br i1 %30, label %39, label %48

39:                                               ; preds = %13
  %40 = icmp sgt i32 %38, 0
  br i1 %40, label %41, label %46

41:                                               ; preds = %41, %39
  %42 = phi i32 [ %44, %41 ], [ 0, %39 ]
  %43 = tail call i32 @fputc(i32 noundef 32, ptr noundef %0) #7
  %44 = add nuw nsw i32 %42, 1
  %45 = icmp eq i32 %44, %38
  br i1 %45, label %46, label %41, !llvm.loop !36

46:                                               ; preds = %41, %39
  %47 = tail call noundef i32 @llvm.smax.i32(i32 %38, i32 0)
  br label %48

48:                                               ; preds = %46, %13
  %49 = phi i32 [ 0, %13 ], [ %47, %46 ]
  %50 = load i8, ptr %0, align 4, !tbaa !18, !alias.scope !37, !noalias !40
  %51 = icmp eq i8 %50, 0
  %52 = icmp eq ptr %9, %1
  %53 = or i1 %52, %51
  br i1 %53, label %62, label %54

54:                                               ; preds = %54, %48
  %55 = phi i32 [ %60, %54 ], [ 0, %48 ]
  %56 = getelementptr inbounds i8, ptr %1, i32 %55
  %57 = load i8, ptr %56, align 1, !tbaa !29, !alias.scope !40, !noalias !37
  %58 = zext i8 %57 to i32
  %59 = tail call i32 @fputc(i32 noundef %58, ptr noundef nonnull %0) #7, !noalias !40
  %60 = add nuw i32 %55, 1
  %61 = icmp eq i32 %60, %16
  br i1 %61, label %62, label %54, !llvm.loop !30

62:                                               ; preds = %54, %48
  %63 = icmp sgt i32 %36, 0
  br i1 %63, label %64, label %69

64:                                               ; preds = %64, %62
  %65 = phi i32 [ %67, %64 ], [ 0, %62 ]
  %66 = tail call i32 @fputc(i32 noundef 48, ptr noundef nonnull %0) #7
  %67 = add nuw nsw i32 %65, 1
  %68 = icmp eq i32 %67, %36
  br i1 %68, label %69, label %64, !llvm.loop !36

69:                                               ; preds = %64, %62
  %70 = tail call noundef i32 @llvm.smax.i32(i32 %36, i32 0)
  %71 = load i8, ptr %0, align 4, !tbaa !18, !alias.scope !42, !noalias !45
  %72 = icmp eq i8 %71, 0
  %73 = icmp eq i32 %3, 0
  %74 = or i1 %73, %72
  br i1 %74, label %83, label %75

75:                                               ; preds = %75, %69
  %76 = phi i32 [ %81, %75 ], [ 0, %69 ]
  %77 = getelementptr inbounds i8, ptr %2, i32 %76
  %78 = load i8, ptr %77, align 1, !tbaa !29, !alias.scope !45, !noalias !42
  %79 = zext i8 %78 to i32
  %80 = tail call i32 @fputc(i32 noundef %79, ptr noundef nonnull %0) #7, !noalias !45
  %81 = add nuw i32 %76, 1
  %82 = icmp eq i32 %81, %3
  br i1 %82, label %83, label %75, !llvm.loop !30

83:                                               ; preds = %75, %69
  %84 = add i32 %32, %70
  %85 = add i32 %84, %49
  br i1 %30, label %96, label %86

86:                                               ; preds = %83
  %87 = icmp sgt i32 %38, 0
  br i1 %87, label %88, label %93

88:                                               ; preds = %88, %86
  %89 = phi i32 [ %91, %88 ], [ 0, %86 ]
  %90 = tail call i32 @fputc(i32 noundef 32, ptr noundef nonnull %0) #7
  %91 = add nuw nsw i32 %89, 1
  %92 = icmp eq i32 %91, %38
  br i1 %92, label %93, label %88, !llvm.loop !36

93:                                               ; preds = %88, %86
  %94 = tail call noundef i32 @llvm.smax.i32(i32 %38, i32 0)
  %95 = add nsw i32 %85, %94
  br label %96

96:                                               ; preds = %93, %83
  %97 = phi i32 [ %95, %93 ], [ %85, %83 ]
  ret i32 %97
}

; Function Attrs: nocallback nofree nosync nounwind willreturn memory(argmem: readwrite)
declare void @llvm.lifetime.end.p0(i64 immarg, ptr nocapture) #3

; Function Attrs: nocallback nofree nosync nounwind speculatable willreturn memory(none)
declare i32 @llvm.smax.i32(i32, i32) #4

; Function Attrs: nounwind optsize uwtable
define internal range(i32 -1, 256) i32 @fputc(i32 noundef %0, ptr nocapture noundef %1) local_unnamed_addr #2 {
  %3 = load i8, ptr %1, align 4, !tbaa !18
  switch i8 %3, label %17 [
    i8 1, label %4
    i8 3, label %6
    i8 0, label %19
  ]

4:                                                ; preds = %2
  %5 = tail call i32 @putchar(i32 noundef %0) #9
  br label %17

6:                                                ; preds = %2
  %7 = getelementptr inbounds i8, ptr %1, i32 8
  %8 = load i32, ptr %7, align 4, !tbaa !47
  %9 = icmp eq i32 %8, 0
  br i1 %9, label %17, label %10

10:                                               ; preds = %6
  %11 = trunc i32 %0 to i8
  %12 = getelementptr inbounds i8, ptr %1, i32 4
  %13 = load ptr, ptr %12, align 4, !tbaa !48
  %14 = getelementptr inbounds i8, ptr %13, i32 1
  store ptr %14, ptr %12, align 4, !tbaa !48
  store i8 %11, ptr %13, align 1, !tbaa !29
  %15 = load i32, ptr %7, align 4, !tbaa !47
  %16 = add i32 %15, -1
  store i32 %16, ptr %7, align 4, !tbaa !47
  br label %17

17:                                               ; preds = %10, %6, %4, %2
  %18 = and i32 %0, 255
  br label %19

19:                                               ; preds = %17, %2
  %20 = phi i32 [ %18, %17 ], [ -1, %2 ]
  ret i32 %20
}

; Function Attrs: optsize
declare dso_local i32 @putchar(i32 noundef) local_unnamed_addr #5

; Function Attrs: nocallback nofree nounwind willreturn memory(argmem: write)
declare void @llvm.memset.p0.i32(ptr nocapture writeonly, i8, i32, i1 immarg) #6

; Function Attrs: noinline nounwind optnone uwtable
define internal i64 @left(i64 noundef %0) #0 {
  %2 = alloca i64, align 8
  store i64 %0, ptr %2, align 8
  %3 = load i64, ptr %2, align 8
  %4 = shl i64 %3, 1
  %5 = load i64, ptr %2, align 8
  %6 = lshr i64 %5, 63
  %7 = or i64 %4, %6
  ret i64 %7
}

; Function Attrs: noinline nounwind optnone uwtable
define internal void @count(ptr noundef %0, i64 noundef %1) #0 {
  %3 = alloca ptr, align 4
  %4 = alloca i64, align 8
  %5 = alloca i64, align 8
  %6 = alloca i64, align 8
  store ptr %0, ptr %3, align 4
  store i64 %1, ptr %4, align 8
  %7 = load ptr, ptr %3, align 4
  %8 = getelementptr inbounds i64, ptr %7, i32 0
  %9 = load i64, ptr %8, align 4
  %10 = load i64, ptr %4, align 8
  %11 = and i64 %9, %10
  store i64 %11, ptr %5, align 8
  %12 = load i64, ptr %4, align 8
  %13 = load ptr, ptr %3, align 4
  %14 = getelementptr inbounds i64, ptr %13, i32 0
  %15 = load i64, ptr %14, align 4
  %16 = xor i64 %15, %12
  store i64 %16, ptr %14, align 4
  %17 = load ptr, ptr %3, align 4
  %18 = getelementptr inbounds i64, ptr %17, i32 1
  %19 = load i64, ptr %18, align 4
  %20 = load i64, ptr %5, align 8
  %21 = and i64 %19, %20
  store i64 %21, ptr %6, align 8
  %22 = load i64, ptr %5, align 8
  %23 = load ptr, ptr %3, align 4
  %24 = getelementptr inbounds i64, ptr %23, i32 1
  %25 = load i64, ptr %24, align 4
  %26 = xor i64 %25, %22
  store i64 %26, ptr %24, align 4
  %27 = load i64, ptr %6, align 8
  %28 = load ptr, ptr %3, align 4
  %29 = getelementptr inbounds i64, ptr %28, i32 2
  %30 = load i64, ptr %29, align 4
  %31 = xor i64 %30, %27
  store i64 %31, ptr %29, align 4
  ret void
}

; Function Attrs: noinline nounwind optnone uwtable
define internal i64 @right(i64 noundef %0) #0 {
  %2 = alloca i64, align 8
  store i64 %0, ptr %2, align 8
  %3 = load i64, ptr %2, align 8
  %4 = lshr i64 %3, 1
  %5 = load i64, ptr %2, align 8
  %6 = shl i64 %5, 63
  %7 = or i64 %4, %6
  ret i64 %7
}

; Function Attrs: nounwind optsize uwtable
define internal noundef i32 @fwrite(ptr noalias nocapture noundef readonly %0, i32 noundef %1, i32 noundef %2, ptr noalias nocapture noundef %3) #2 {
  %5 = load i8, ptr %3, align 4, !tbaa !18
  %6 = icmp eq i8 %5, 0
  br i1 %6, label %21, label %7

7:                                                ; preds = %4
  %8 = mul i32 %2, %1
  %9 = icmp eq i32 %8, 0
  br i1 %9, label %10, label %13

10:                                               ; preds = %13, %7
  %11 = icmp eq i32 %1, 0
  %12 = select i1 %11, i32 0, i32 %2
  br label %21

13:                                               ; preds = %13, %7
  %14 = phi i32 [ %19, %13 ], [ 0, %7 ]
  %15 = getelementptr inbounds i8, ptr %0, i32 %14
  %16 = load i8, ptr %15, align 1, !tbaa !29
  %17 = zext i8 %16 to i32
  %18 = tail call i32 @fputc(i32 noundef %17, ptr noundef nonnull %3) #7
  %19 = add nuw i32 %14, 1
  %20 = icmp eq i32 %19, %8
  br i1 %20, label %10, label %13, !llvm.loop !30

21:                                               ; preds = %10, %4
  %22 = phi i32 [ %12, %10 ], [ 0, %4 ]
  ret i32 %22
}

; Function Attrs: nounwind optsize uwtable
define internal noundef ptr @fgets(ptr noalias noundef writeonly %0, i32 noundef %1, ptr noalias nocapture noundef %2) #2 {
  %4 = icmp slt i32 %1, 1
  br i1 %4, label %23, label %5

5:                                                ; preds = %3
  %6 = icmp eq i32 %1, 1
  br i1 %6, label %21, label %7

7:                                                ; preds = %12, %5
  %8 = phi i32 [ %13, %12 ], [ %1, %5 ]
  %9 = phi ptr [ %15, %12 ], [ %0, %5 ]
  %10 = tail call i32 @fgetc(ptr noundef %2) #7
  %11 = icmp eq i32 %10, -1
  br i1 %11, label %19, label %12

12:                                               ; preds = %7
  %13 = add nsw i32 %8, -1
  %14 = trunc i32 %10 to i8
  %15 = getelementptr inbounds i8, ptr %9, i32 1
  store i8 %14, ptr %9, align 1, !tbaa !29
  %16 = icmp sgt i32 %8, 2
  %17 = icmp ne i32 %10, 10
  %18 = and i1 %16, %17
  br i1 %18, label %7, label %21, !llvm.loop !49

19:                                               ; preds = %7
  %20 = icmp eq ptr %9, %0
  br i1 %20, label %23, label %21

21:                                               ; preds = %19, %12, %5
  %22 = phi ptr [ %9, %19 ], [ %0, %5 ], [ %15, %12 ]
  store i8 0, ptr %22, align 1, !tbaa !29
  br label %23

23:                                               ; preds = %21, %19, %3
  %24 = phi ptr [ %0, %21 ], [ null, %3 ], [ null, %19 ]
  ret ptr %24
}

; Function Attrs: nounwind optsize uwtable
define internal i32 @fgetc(ptr nocapture noundef %0) local_unnamed_addr #2 {
  %2 = load i8, ptr %0, align 4, !tbaa !18
  %3 = icmp eq i8 %2, 0
  br i1 %3, label %4, label %20

4:                                                ; preds = %1
  %5 = getelementptr inbounds i8, ptr %0, i32 2
  %6 = load i8, ptr %5, align 2, !tbaa !50
  %7 = icmp eq i8 %6, 0
  br i1 %7, label %12, label %8

8:                                                ; preds = %4
  store i8 0, ptr %5, align 2, !tbaa !50
  %9 = getelementptr inbounds i8, ptr %0, i32 3
  %10 = load i8, ptr %9, align 1, !tbaa !51
  %11 = zext i8 %10 to i32
  br label %20

12:                                               ; preds = %4
  %13 = getelementptr inbounds i8, ptr %0, i32 1
  %14 = load i8, ptr %13, align 1, !tbaa !52
  %15 = icmp eq i8 %14, 0
  br i1 %15, label %16, label %20

16:                                               ; preds = %12
  %17 = tail call i32 @getchar() #9
  %18 = icmp eq i32 %17, -1
  br i1 %18, label %19, label %20

19:                                               ; preds = %16
  store i8 1, ptr %13, align 1, !tbaa !52
  br label %20

20:                                               ; preds = %19, %16, %12, %8, %1
  %21 = phi i32 [ %11, %8 ], [ -1, %1 ], [ -1, %12 ], [ -1, %19 ], [ %17, %16 ]
  ret i32 %21
}

; Function Attrs: optsize
declare dso_local i32 @getchar() local_unnamed_addr #5

attributes #0 = { noinline nounwind optnone uwtable "frame-pointer"="all" "min-legal-vector-width"="0" "no-trapping-math"="true" "stack-protector-buffer-size"="8" "target-cpu"="i686" "target-features"="+cmov,+cx8,+x87" "tune-cpu"="generic" }
attributes #1 = { "frame-pointer"="all" "no-trapping-math"="true" "stack-protector-buffer-size"="8" "target-cpu"="i686" "target-features"="+cmov,+cx8,+x87" "tune-cpu"="generic" }
attributes #2 = { nounwind optsize uwtable "min-legal-vector-width"="0" "no-builtins" "no-jump-tables"="true" "no-trapping-math"="true" "stack-protector-buffer-size"="8" "target-cpu"="i686" "target-features"="+cmov,+cx8,+x87" "tune-cpu"="generic" }
attributes #3 = { nocallback nofree nosync nounwind willreturn memory(argmem: readwrite) }
attributes #4 = { nocallback nofree nosync nounwind speculatable willreturn memory(none) }
attributes #5 = { optsize "no-builtins" "no-trapping-math"="true" "stack-protector-buffer-size"="8" "target-cpu"="i686" "target-features"="+cmov,+cx8,+x87" "tune-cpu"="generic" }
attributes #6 = { nocallback nofree nounwind willreturn memory(argmem: write) }
attributes #7 = { nobuiltin optsize "no-builtins" }
attributes #8 = { nounwind }
attributes #9 = { nobuiltin nounwind optsize "no-builtins" }

!llvm.ident = !{!0, !0, !0}
!llvm.module.flags = !{!1, !2, !3, !4, !5, !6}

!0 = !{!"Debian clang version 19.1.7 (3~deb12u1)"}
!1 = !{i32 1, !"NumRegisterParameters", i32 0}
!2 = !{i32 7, !"Dwarf Version", i32 5}
!3 = !{i32 2, !"Debug Info Version", i32 3}
!4 = !{i32 1, !"wchar_size", i32 4}
!5 = !{i32 7, !"uwtable", i32 2}
!6 = !{i32 7, !"frame-pointer", i32 2}
!7 = distinct !{!7, !8}
!8 = !{!"llvm.loop.mustprogress"}
!9 = distinct !{!9, !8}
!10 = distinct !{!10, !8}
!11 = distinct !{!11, !8}
!12 = distinct !{!12, !8}
!13 = distinct !{!13, !8}
!14 = distinct !{!14, !8}
!15 = distinct !{!15, !8}
!16 = distinct !{!16, !8}
!17 = distinct !{!17, !8}
!18 = !{!19, !20, i64 0}
!19 = !{!"__stream", !20, i64 0, !20, i64 1, !20, i64 2, !20, i64 3, !22, i64 4, !23, i64 8}
!20 = !{!"omnipotent char", !21, i64 0}
!21 = !{!"Simple C/C++ TBAA"}
!22 = !{!"any pointer", !20, i64 0}
!23 = !{!"int", !20, i64 0}
!24 = !{!25}
!25 = distinct !{!25, !26, !"fwrite: %stream"}
!26 = distinct !{!26, !"fwrite"}
!27 = !{!28}
!28 = distinct !{!28, !26, !"fwrite: %from"}
!29 = !{!20, !20, i64 0}
!30 = distinct !{!30, !8}
!31 = distinct !{!31, !8}
!32 = distinct !{!32, !8}
!33 = distinct !{!33, !8}
!34 = distinct !{!34, !8}
!35 = distinct !{!35, !8}
!36 = distinct !{!36, !8}
!37 = !{!38}
!38 = distinct !{!38, !39, !"fwrite: %stream"}
!39 = distinct !{!39, !"fwrite"}
!40 = !{!41}
!41 = distinct !{!41, !39, !"fwrite: %from"}
!42 = !{!43}
!43 = distinct !{!43, !44, !"fwrite: %stream"}
!44 = distinct !{!44, !"fwrite"}
!45 = !{!46}
!46 = distinct !{!46, !44, !"fwrite: %from"}
!47 = !{!19, !23, i64 8}
!48 = !{!19, !22, i64 4}
!49 = distinct !{!49, !8}
!50 = !{!19, !20, i64 2}
!51 = !{!19, !20, i64 3}
!52 = !{!19, !20, i64 1}
