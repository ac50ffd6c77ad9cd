source_filename = "solver.c"
target datalayout = "e-m:e-p:32:32-p270:32:32-p271:32:32-p272:64:64-i128:128-f64:32:64-f80:32-n8:16:32-S128"
target triple = "i386-unknown-linux-gnu"

%struct.system = type { i32, [12 x [13 x i64]] }
%struct.__stream = type { i8, i8, i8, i8, ptr, i32 }

@main.given = internal global %struct.system zeroinitializer, align 4
@main.used = internal global %struct.system zeroinitializer, align 4
@.str = private unnamed_addr constant [13 x i8] c"%d unknowns:\00", align 1
@.str.1 = private unnamed_addr constant [20 x i8] c" no single solution\00", align 1
@.str.2 = private unnamed_addr constant [11 x i8] c"  (within \00", align 1
@.str.3 = private unnamed_addr constant [2 x i8] c")\00", align 1
@.str.4 = private unnamed_addr constant [14 x i8] c"%s%llu.%03llu\00", align 1
@.str.5 = private unnamed_addr constant [2 x i8] c"-\00", align 1
@.str.6 = private unnamed_addr constant [1 x i8] zeroinitializer, align 1
@.str.11 = private unnamed_addr constant [1 x i8] zeroinitializer, align 1
@.str.1.12 = private unnamed_addr constant [7 x i8] c"(null)\00", align 1
@.str.2.16 = private unnamed_addr constant [2 x i8] c"-\00", align 1
@.str.3.17 = private unnamed_addr constant [2 x i8] c"+\00", align 1
@.str.4.15 = private unnamed_addr constant [2 x i8] c" \00", align 1
@.str.5.21 = private unnamed_addr constant [3 x i8] c"0X\00", align 1
@.str.6.20 = private unnamed_addr constant [3 x i8] c"0x\00", align 1
@__streams = internal global [3 x %struct.__stream] [%struct.__stream zeroinitializer, %struct.__stream { i8 1, i8 0, i8 0, i8 0, ptr null, i32 0 }, %struct.__stream { i8 2, i8 0, i8 0, i8 0, ptr null, i32 0 }], align 4
@.str.8 = private unnamed_addr constant [17 x i8] c"0123456789ABCDEF\00", align 1
@.str.9 = private unnamed_addr constant [17 x i8] c"0123456789abcdef\00", align 1

; Function Attrs: noinline nounwind optnone uwtable
define dso_local i32 @main() #0 {
  %1 = alloca i32, align 4
  %2 = alloca i32, align 4
  %3 = alloca [12 x i64], align 8
  %4 = alloca i32, align 4
  store i32 0, ptr %1, align 4
  store i32 0, ptr %2, align 4
  br label %5

5:                                                ; preds = %33, %18, %0
  %6 = call i32 @read_system(ptr noundef @main.given)
  %7 = icmp ne i32 %6, 0
  br i1 %7, label %8, label %41

8:                                                ; preds = %5
  call void @llvm.memset.p0.i32(ptr align 8 %3, i8 0, i32 96, i1 false)
  call void @llvm.memcpy.p0.p0.i32(ptr align 4 @main.used, ptr align 4 @main.given, i32 1252, i1 false)
  %9 = load i32, ptr @main.given, align 4
  %10 = sext i32 %9 to i64
  %11 = call i32 @__print_signed(ptr getelementptr inbounds ([3 x { i8, i8, i8, i8, ptr, i32 }], ptr @__streams, i32 0, i32 1), i64 %10, i32 0, i32 0, i32 -1)
  %12 = call i32 @__print_text(ptr getelementptr inbounds ([3 x { i8, i8, i8, i8, ptr, i32 }], ptr @__streams, i32 0, i32 1), ptr getelementptr inbounds (i8, ptr @.str, i32 2), i32 10)
  %13 = add i32 %11, %12
  %14 = add i32 %13, 0
  %15 = getelementptr inbounds [12 x i64], ptr %3, i32 0, i32 0
  %16 = call i32 @solve(ptr noundef @main.used, ptr noundef %15)
  %17 = icmp ne i32 %16, 0
  br i1 %17, label %20, label %18

18:                                               ; preds = %8
  %19 = call i32 @puts(ptr noundef @.str.1)
  br label %5, !llvm.loop !7

20:                                               ; preds = %8
  store i32 0, ptr %4, align 4
  br label %21

21:                                               ; preds = %30, %20
  %22 = load i32, ptr %4, align 4
  %23 = load i32, ptr @main.given, align 4
  %24 = icmp slt i32 %22, %23
  br i1 %24, label %25, label %33

25:                                               ; preds = %21
  %26 = call i32 @putchar(i32 noundef 32)
  %27 = load i32, ptr %4, align 4
  %28 = getelementptr inbounds [12 x i64], ptr %3, i32 0, i32 %27
  %29 = load i64, ptr %28, align 8
  call void @show_number(i64 noundef %29)
  br label %30

30:                                               ; preds = %25
  %31 = load i32, ptr %4, align 4
  %32 = add nsw i32 %31, 1
  store i32 %32, ptr %4, align 4
  br label %21, !llvm.loop !9

33:                                               ; preds = %21
  %34 = call i32 @__print_text(ptr getelementptr inbounds ([3 x { i8, i8, i8, i8, ptr, i32 }], ptr @__streams, i32 0, i32 1), ptr @.str.2, i32 10)
  %35 = add i32 %34, 0
  %36 = getelementptr inbounds [12 x i64], ptr %3, i32 0, i32 0
  %37 = call i64 @fault(ptr noundef @main.given, ptr noundef %36)
  call void @show_number(i64 noundef %37)
  %38 = call i32 @puts(ptr noundef @.str.3)
  %39 = load i32, ptr %2, align 4
  %40 = add nsw i32 %39, 1
  store i32 %40, ptr %2, align 4
  br label %5, !llvm.loop !7

41:                                               ; preds = %5
  %42 = load i32, ptr %2, align 4
  ret i32 %42
}

; Function Attrs: noinline nounwind optnone uwtable
define internal i32 @read_system(ptr noundef %0) #0 {
  %2 = alloca i32, align 4
  %3 = alloca ptr, align 4
  %4 = alloca i64, align 8
  %5 = alloca i32, align 4
  %6 = alloca i32, align 4
  store ptr %0, ptr %3, align 4
  %7 = call i32 @read_number(ptr noundef %4)
  %8 = icmp ne i32 %7, 0
  br i1 %8, label %10, label %9

9:                                                ; preds = %1
  store i32 0, ptr %2, align 4
  br label %59

10:                                               ; preds = %1
  %11 = load i64, ptr %4, align 8
  %12 = ashr i64 %11, 16
  %13 = trunc i64 %12 to i32
  %14 = load ptr, ptr %3, align 4
  %15 = getelementptr inbounds %struct.system, ptr %14, i32 0, i32 0
  store i32 %13, ptr %15, align 4
  %16 = load ptr, ptr %3, align 4
  %17 = getelementptr inbounds %struct.system, ptr %16, i32 0, i32 0
  %18 = load i32, ptr %17, align 4
  %19 = icmp slt i32 %18, 1
  br i1 %19, label %25, label %20

20:                                               ; preds = %10
  %21 = load ptr, ptr %3, align 4
  %22 = getelementptr inbounds %struct.system, ptr %21, i32 0, i32 0
  %23 = load i32, ptr %22, align 4
  %24 = icmp sgt i32 %23, 12
  br i1 %24, label %25, label %26

25:                                               ; preds = %20, %10
  store i32 0, ptr %2, align 4
  br label %59

26:                                               ; preds = %20
  store i32 0, ptr %5, align 4
  br label %27

27:                                               ; preds = %55, %26
  %28 = load i32, ptr %5, align 4
  %29 = load ptr, ptr %3, align 4
  %30 = getelementptr inbounds %struct.system, ptr %29, i32 0, i32 0
  %31 = load i32, ptr %30, align 4
  %32 = icmp slt i32 %28, %31
  br i1 %32, label %33, label %58

33:                                               ; preds = %27
  store i32 0, ptr %6, align 4
  br label %34

34:                                               ; preds = %51, %33
  %35 = load i32, ptr %6, align 4
  %36 = load ptr, ptr %3, align 4
  %37 = getelementptr inbounds %struct.system, ptr %36, i32 0, i32 0
  %38 = load i32, ptr %37, align 4
  %39 = icmp sle i32 %35, %38
  br i1 %39, label %40, label %54

40:                                               ; preds = %34
  %41 = load ptr, ptr %3, align 4
  %42 = getelementptr inbounds %struct.system, ptr %41, i32 0, i32 1
  %43 = load i32, ptr %5, align 4
  %44 = getelementptr inbounds [12 x [13 x i64]], ptr %42, i32 0, i32 %43
  %45 = load i32, ptr %6, align 4
  %46 = getelementptr inbounds [13 x i64], ptr %44, i32 0, i32 %45
  %47 = call i32 @read_number(ptr noundef %46)
  %48 = icmp ne i32 %47, 0
  br i1 %48, label %50, label %49

49:                                               ; preds = %40
  store i32 0, ptr %2, align 4
  br label %59

50:                                               ; preds = %40
  br label %51

51:                                               ; preds = %50
  %52 = load i32, ptr %6, align 4
  %53 = add nsw i32 %52, 1
  store i32 %53, ptr %6, align 4
  br label %34, !llvm.loop !10

54:                                               ; preds = %34
  br label %55

55:                                               ; preds = %54
  %56 = load i32, ptr %5, align 4
  %57 = add nsw i32 %56, 1
  store i32 %57, ptr %5, align 4
  br label %27, !llvm.loop !11

58:                                               ; preds = %27
  store i32 1, ptr %2, align 4
  br label %59

59:                                               ; preds = %58, %49, %25, %9
  %60 = load i32, ptr %2, align 4
  ret i32 %60
}

; Function Attrs: nocallback nofree nounwind willreturn memory(argmem: write)
declare void @llvm.memset.p0.i32(ptr nocapture writeonly, i8, i32, i1 immarg) #1

; Function Attrs: nocallback nofree nounwind willreturn memory(argmem: readwrite)
declare void @llvm.memcpy.p0.p0.i32(ptr noalias nocapture writeonly, ptr noalias nocapture readonly, i32, i1 immarg) #2

; Function Attrs: nounwind optsize uwtable
define internal i32 @__print_signed(ptr nocapture noundef %0, i64 noundef %1, i32 noundef %2, i32 noundef %3, i32 noundef %4) #3 {
  %6 = alloca [24 x i8], align 1
  call void @llvm.lifetime.start.p0(i64 24, ptr nonnull %6) #10
  %7 = getelementptr inbounds i8, ptr %6, i32 24
  %8 = icmp slt i64 %1, 0
  %9 = lshr i64 %1, 63
  %10 = icmp ne i64 %9, 0
  %11 = sub i64 0, %1
  %12 = select i1 %10, i64 %11, i64 %1
  %13 = icmp ult i64 %12, 4294967296
  br i1 %13, label %14, label %26

14:                                               ; preds = %5
  %15 = trunc nuw i64 %12 to i32
  %16 = icmp eq i32 %15, 0
  br i1 %16, label %38, label %17

17:                                               ; preds = %17, %14
  %18 = phi i32 [ %24, %17 ], [ %15, %14 ]
  %19 = phi ptr [ %23, %17 ], [ %7, %14 ]
  %20 = urem i32 %18, 10
  %21 = getelementptr inbounds i8, ptr @.str.9, i32 %20
  %22 = load i8, ptr %21, align 1, !tbaa !12
  %23 = getelementptr inbounds i8, ptr %19, i32 -1
  store i8 %22, ptr %23, align 1, !tbaa !12
  %24 = udiv i32 %18, 10
  %25 = icmp ult i32 %18, 10
  br i1 %25, label %38, label %17, !llvm.loop !15

26:                                               ; preds = %26, %5
  %27 = phi ptr [ %36, %26 ], [ %7, %5 ]
  %28 = phi i64 [ %30, %26 ], [ %12, %5 ]
  %29 = freeze i64 %28
  %30 = udiv i64 %29, 10
  %31 = mul i64 %30, 10
  %32 = sub i64 %29, %31
  %33 = trunc nuw nsw i64 %32 to i32
  %34 = getelementptr inbounds i8, ptr @.str.9, i32 %33
  %35 = load i8, ptr %34, align 1, !tbaa !12
  %36 = getelementptr inbounds i8, ptr %27, i32 -1
  store i8 %35, ptr %36, align 1, !tbaa !12
  %37 = icmp ult i64 %28, 10
  br i1 %37, label %38, label %26, !llvm.loop !16

38:                                               ; preds = %26, %17, %14
  %39 = phi ptr [ %7, %14 ], [ %23, %17 ], [ %36, %26 ]
  %40 = icmp eq i64 %1, 0
  %41 = icmp ne i32 %4, 0
  %42 = and i1 %40, %41
  br i1 %42, label %43, label %45

43:                                               ; preds = %38
  %44 = getelementptr inbounds i8, ptr %39, i32 -1
  store i8 48, ptr %44, align 1, !tbaa !12
  br label %46

45:                                               ; preds = %38
  br i1 %8, label %54, label %46

46:                                               ; preds = %45, %43
  %47 = phi ptr [ %44, %43 ], [ %39, %45 ]
  %48 = and i32 %2, 2
  %49 = icmp eq i32 %48, 0
  br i1 %49, label %50, label %54

50:                                               ; preds = %46
  %51 = and i32 %2, 4
  %52 = icmp eq i32 %51, 0
  %53 = select i1 %52, ptr @.str.11, ptr @.str.4.15
  br label %54

54:                                               ; preds = %50, %46, %45
  %55 = phi ptr [ %39, %45 ], [ %47, %50 ], [ %47, %46 ]
  %56 = phi ptr [ @.str.2.16, %45 ], [ %53, %50 ], [ @.str.3.17, %46 ]
  %57 = ptrtoint ptr %7 to i32
  %58 = ptrtoint ptr %55 to i32
  %59 = sub i32 %57, %58
  %60 = call fastcc i32 @number(ptr noundef %0, ptr noundef nonnull %56, ptr noundef nonnull %55, i32 noundef %59, i32 noundef %2, i32 noundef %3, i32 noundef %4) #11
  call void @llvm.lifetime.end.p0(i64 24, ptr nonnull %6) #10
  ret i32 %60
}

; Function Attrs: nounwind optsize uwtable
define internal noundef i32 @__print_text(ptr nocapture noundef %0, ptr nocapture noundef readonly %1, i32 noundef returned %2) #3 {
  %4 = load i8, ptr %0, align 4, !tbaa !17, !alias.scope !21, !noalias !24
  %5 = icmp eq i8 %4, 0
  %6 = icmp eq i32 %2, 0
  %7 = or i1 %6, %5
  br i1 %7, label %16, label %8

8:                                                ; preds = %8, %3
  %9 = phi i32 [ %14, %8 ], [ 0, %3 ]
  %10 = getelementptr inbounds i8, ptr %1, i32 %9
  %11 = load i8, ptr %10, align 1, !tbaa !12, !alias.scope !24, !noalias !21
  %12 = zext i8 %11 to i32
  %13 = tail call i32 @fputc(i32 noundef %12, ptr noundef nonnull %0) #11, !noalias !24
  %14 = add nuw i32 %9, 1
  %15 = icmp eq i32 %14, %2
  br i1 %15, label %16, label %8, !llvm.loop !26

16:                                               ; preds = %8, %3
  ret i32 %2
}

; Function Attrs: noinline nounwind optnone uwtable
define internal i32 @solve(ptr noundef %0, ptr noundef %1) #0 {
  %3 = alloca i32, align 4
  %4 = alloca ptr, align 4
  %5 = alloca ptr, align 4
  %6 = alloca i32, align 4
  %7 = alloca i32, align 4
  %8 = alloca i32, align 4
  %9 = alloca i32, align 4
  %10 = alloca i64, align 8
  %11 = alloca i32, align 4
  %12 = alloca i32, align 4
  %13 = alloca i64, align 8
  %14 = alloca i32, align 4
  store ptr %0, ptr %4, align 4
  store ptr %1, ptr %5, align 4
  store i32 0, ptr %6, align 4
  br label %15

15:                                               ; preds = %127, %2
  %16 = load i32, ptr %6, align 4
  %17 = load ptr, ptr %4, align 4
  %18 = getelementptr inbounds %struct.system, ptr %17, i32 0, i32 0
  %19 = load i32, ptr %18, align 4
  %20 = icmp slt i32 %16, %19
  br i1 %20, label %21, label %130

21:                                               ; preds = %15
  %22 = load i32, ptr %6, align 4
  store i32 %22, ptr %7, align 4
  %23 = load i32, ptr %6, align 4
  %24 = add nsw i32 %23, 1
  store i32 %24, ptr %8, align 4
  br label %25

25:                                               ; preds = %52, %21
  %26 = load i32, ptr %8, align 4
  %27 = load ptr, ptr %4, align 4
  %28 = getelementptr inbounds %struct.system, ptr %27, i32 0, i32 0
  %29 = load i32, ptr %28, align 4
  %30 = icmp slt i32 %26, %29
  br i1 %30, label %31, label %55

31:                                               ; preds = %25
  %32 = load ptr, ptr %4, align 4
  %33 = getelementptr inbounds %struct.system, ptr %32, i32 0, i32 1
  %34 = load i32, ptr %8, align 4
  %35 = getelementptr inbounds [12 x [13 x i64]], ptr %33, i32 0, i32 %34
  %36 = load i32, ptr %6, align 4
  %37 = getelementptr inbounds [13 x i64], ptr %35, i32 0, i32 %36
  %38 = load i64, ptr %37, align 4
  %39 = call i64 @size(i64 noundef %38)
  %40 = load ptr, ptr %4, align 4
  %41 = getelementptr inbounds %struct.system, ptr %40, i32 0, i32 1
  %42 = load i32, ptr %7, align 4
  %43 = getelementptr inbounds [12 x [13 x i64]], ptr %41, i32 0, i32 %42
  %44 = load i32, ptr %6, align 4
  %45 = getelementptr inbounds [13 x i64], ptr %43, i32 0, i32 %44
  %46 = load i64, ptr %45, align 4
  %47 = call i64 @size(i64 noundef %46)
  %48 = icmp sgt i64 %39, %47
  br i1 %48, label %49, label %51

49:                                               ; preds = %31
  %50 = load i32, ptr %8, align 4
  store i32 %50, ptr %7, align 4
  br label %51

51:                                               ; preds = %49, %31
  br label %52

52:                                               ; preds = %51
  %53 = load i32, ptr %8, align 4
  %54 = add nsw i32 %53, 1
  store i32 %54, ptr %8, align 4
  br label %25, !llvm.loop !27

55:                                               ; preds = %25
  %56 = load ptr, ptr %4, align 4
  %57 = getelementptr inbounds %struct.system, ptr %56, i32 0, i32 1
  %58 = load i32, ptr %7, align 4
  %59 = getelementptr inbounds [12 x [13 x i64]], ptr %57, i32 0, i32 %58
  %60 = load i32, ptr %6, align 4
  %61 = getelementptr inbounds [13 x i64], ptr %59, i32 0, i32 %60
  %62 = load i64, ptr %61, align 4
  %63 = call i64 @size(i64 noundef %62)
  %64 = icmp slt i64 %63, 16
  br i1 %64, label %65, label %66

65:                                               ; preds = %55
  store i32 0, ptr %3, align 4
  br label %191

66:                                               ; preds = %55
  %67 = load ptr, ptr %4, align 4
  %68 = load i32, ptr %6, align 4
  %69 = load i32, ptr %7, align 4
  call void @exchange(ptr noundef %67, i32 noundef %68, i32 noundef %69)
  %70 = load i32, ptr %6, align 4
  %71 = add nsw i32 %70, 1
  store i32 %71, ptr %9, align 4
  br label %72

72:                                               ; preds = %123, %66
  %73 = load i32, ptr %9, align 4
  %74 = load ptr, ptr %4, align 4
  %75 = getelementptr inbounds %struct.system, ptr %74, i32 0, i32 0
  %76 = load i32, ptr %75, align 4
  %77 = icmp slt i32 %73, %76
  br i1 %77, label %78, label %126

78:                                               ; preds = %72
  %79 = load ptr, ptr %4, align 4
  %80 = getelementptr inbounds %struct.system, ptr %79, i32 0, i32 1
  %81 = load i32, ptr %9, align 4
  %82 = getelementptr inbounds [12 x [13 x i64]], ptr %80, i32 0, i32 %81
  %83 = load i32, ptr %6, align 4
  %84 = getelementptr inbounds [13 x i64], ptr %82, i32 0, i32 %83
  %85 = load i64, ptr %84, align 4
  %86 = load ptr, ptr %4, align 4
  %87 = getelementptr inbounds %struct.system, ptr %86, i32 0, i32 1
  %88 = load i32, ptr %6, align 4
  %89 = getelementptr inbounds [12 x [13 x i64]], ptr %87, i32 0, i32 %88
  %90 = load i32, ptr %6, align 4
  %91 = getelementptr inbounds [13 x i64], ptr %89, i32 0, i32 %90
  %92 = load i64, ptr %91, align 4
  %93 = call i64 @quotient(i64 noundef %85, i64 noundef %92)
  store i64 %93, ptr %10, align 8
  %94 = load i32, ptr %6, align 4
  store i32 %94, ptr %11, align 4
  br label %95

95:                                               ; preds = %119, %78
  %96 = load i32, ptr %11, align 4
  %97 = load ptr, ptr %4, align 4
  %98 = getelementptr inbounds %struct.system, ptr %97, i32 0, i32 0
  %99 = load i32, ptr %98, align 4
  %100 = icmp sle i32 %96, %99
  br i1 %100, label %101, label %122

101:                                              ; preds = %95
  %102 = load i64, ptr %10, align 8
  %103 = load ptr, ptr %4, align 4
  %104 = getelementptr inbounds %struct.system, ptr %103, i32 0, i32 1
  %105 = load i32, ptr %6, align 4
  %106 = getelementptr inbounds [12 x [13 x i64]], ptr %104, i32 0, i32 %105
  %107 = load i32, ptr %11, align 4
  %108 = getelementptr inbounds [13 x i64], ptr %106, i32 0, i32 %107
  %109 = load i64, ptr %108, align 4
  %110 = call i64 @product(i64 noundef %102, i64 noundef %109)
  %111 = load ptr, ptr %4, align 4
  %112 = getelementptr inbounds %struct.system, ptr %111, i32 0, i32 1
  %113 = load i32, ptr %9, align 4
  %114 = getelementptr inbounds [12 x [13 x i64]], ptr %112, i32 0, i32 %113
  %115 = load i32, ptr %11, align 4
  %116 = getelementptr inbounds [13 x i64], ptr %114, i32 0, i32 %115
  %117 = load i64, ptr %116, align 4
  %118 = sub nsw i64 %117, %110
  store i64 %118, ptr %116, align 4
  br label %119

119:                                              ; preds = %101
  %120 = load i32, ptr %11, align 4
  %121 = add nsw i32 %120, 1
  store i32 %121, ptr %11, align 4
  br label %95, !llvm.loop !28

122:                                              ; preds = %95
  br label %123

123:                                              ; preds = %122
  %124 = load i32, ptr %9, align 4
  %125 = add nsw i32 %124, 1
  store i32 %125, ptr %9, align 4
  br label %72, !llvm.loop !29

126:                                              ; preds = %72
  br label %127

127:                                              ; preds = %126
  %128 = load i32, ptr %6, align 4
  %129 = add nsw i32 %128, 1
  store i32 %129, ptr %6, align 4
  br label %15, !llvm.loop !30

130:                                              ; preds = %15
  %131 = load ptr, ptr %4, align 4
  %132 = getelementptr inbounds %struct.system, ptr %131, i32 0, i32 0
  %133 = load i32, ptr %132, align 4
  %134 = sub nsw i32 %133, 1
  store i32 %134, ptr %12, align 4
  br label %135

135:                                              ; preds = %187, %130
  %136 = load i32, ptr %12, align 4
  %137 = icmp sge i32 %136, 0
  br i1 %137, label %138, label %190

138:                                              ; preds = %135
  %139 = load ptr, ptr %4, align 4
  %140 = getelementptr inbounds %struct.system, ptr %139, i32 0, i32 1
  %141 = load i32, ptr %12, align 4
  %142 = getelementptr inbounds [12 x [13 x i64]], ptr %140, i32 0, i32 %141
  %143 = load ptr, ptr %4, align 4
  %144 = getelementptr inbounds %struct.system, ptr %143, i32 0, i32 0
  %145 = load i32, ptr %144, align 4
  %146 = getelementptr inbounds [13 x i64], ptr %142, i32 0, i32 %145
  %147 = load i64, ptr %146, align 4
  store i64 %147, ptr %13, align 8
  %148 = load i32, ptr %12, align 4
  %149 = add nsw i32 %148, 1
  store i32 %149, ptr %14, align 4
  br label %150

150:                                              ; preds = %171, %138
  %151 = load i32, ptr %14, align 4
  %152 = load ptr, ptr %4, align 4
  %153 = getelementptr inbounds %struct.system, ptr %152, i32 0, i32 0
  %154 = load i32, ptr %153, align 4
  %155 = icmp slt i32 %151, %154
  br i1 %155, label %156, label %174

156:                                              ; preds = %150
  %157 = load ptr, ptr %4, align 4
  %158 = getelementptr inbounds %struct.system, ptr %157, i32 0, i32 1
  %159 = load i32, ptr %12, align 4
  %160 = getelementptr inbounds [12 x [13 x i64]], ptr %158, i32 0, i32 %159
  %161 = load i32, ptr %14, align 4
  %162 = getelementptr inbounds [13 x i64], ptr %160, i32 0, i32 %161
  %163 = load i64, ptr %162, align 4
  %164 = load ptr, ptr %5, align 4
  %165 = load i32, ptr %14, align 4
  %166 = getelementptr inbounds i64, ptr %164, i32 %165
  %167 = load i64, ptr %166, align 4
  %168 = call i64 @product(i64 noundef %163, i64 noundef %167)
  %169 = load i64, ptr %13, align 8
  %170 = sub nsw i64 %169, %168
  store i64 %170, ptr %13, align 8
  br label %171

171:                                              ; preds = %156
  %172 = load i32, ptr %14, align 4
  %173 = add nsw i32 %172, 1
  store i32 %173, ptr %14, align 4
  br label %150, !llvm.loop !31

174:                                              ; preds = %150
  %175 = load i64, ptr %13, align 8
  %176 = load ptr, ptr %4, align 4
  %177 = getelementptr inbounds %struct.system, ptr %176, i32 0, i32 1
  %178 = load i32, ptr %12, align 4
  %179 = getelementptr inbounds [12 x [13 x i64]], ptr %177, i32 0, i32 %178
  %180 = load i32, ptr %12, align 4
  %181 = getelementptr inbounds [13 x i64], ptr %179, i32 0, i32 %180
  %182 = load i64, ptr %181, align 4
  %183 = call i64 @quotient(i64 noundef %175, i64 noundef %182)
  %184 = load ptr, ptr %5, align 4
  %185 = load i32, ptr %12, align 4
  %186 = getelementptr inbounds i64, ptr %184, i32 %185
  store i64 %183, ptr %186, align 4
  br label %187

187:                                              ; preds = %174
  %188 = load i32, ptr %12, align 4
  %189 = add nsw i32 %188, -1
  store i32 %189, ptr %12, align 4
  br label %135, !llvm.loop !32

190:                                              ; preds = %135
  store i32 1, ptr %3, align 4
  br label %191

191:                                              ; preds = %190, %65
  %192 = load i32, ptr %3, align 4
  ret i32 %192
}

declare dso_local i32 @puts(ptr noundef) #4

declare dso_local i32 @putchar(i32 noundef) #4

; Function Attrs: noinline nounwind optnone uwtable
define internal void @show_number(i64 noundef %0) #0 {
  %2 = alloca i64, align 8
  %3 = alloca i64, align 8
  %4 = alloca i64, align 8
  %5 = alloca i64, align 8
  store i64 %0, ptr %2, align 8
  %6 = load i64, ptr %2, align 8
  %7 = call i64 @size(i64 noundef %6)
  store i64 %7, ptr %3, align 8
  %8 = load i64, ptr %3, align 8
  %9 = and i64 %8, 65535
  %10 = mul i64 %9, 1000
  %11 = add i64 %10, 32768
  %12 = lshr i64 %11, 16
  store i64 %12, ptr %4, align 8
  %13 = load i64, ptr %3, align 8
  %14 = lshr i64 %13, 16
  %15 = load i64, ptr %4, align 8
  %16 = udiv i64 %15, 1000
  %17 = add i64 %14, %16
  store i64 %17, ptr %5, align 8
  %18 = load i64, ptr %2, align 8
  %19 = icmp slt i64 %18, 0
  br i1 %19, label %20, label %28

20:                                               ; preds = %1
  %21 = load i64, ptr %5, align 8
  %22 = icmp ne i64 %21, 0
  br i1 %22, label %26, label %23

23:                                               ; preds = %20
  %24 = load i64, ptr %4, align 8
  %25 = icmp ne i64 %24, 0
  br label %26

26:                                               ; preds = %23, %20
  %27 = phi i1 [ true, %20 ], [ %25, %23 ]
  br label %28

28:                                               ; preds = %26, %1
  %29 = phi i1 [ false, %1 ], [ %27, %26 ]
  %30 = zext i1 %29 to i64
  %31 = select i1 %29, ptr @.str.5, ptr @.str.6
  %32 = load i64, ptr %5, align 8
  %33 = load i64, ptr %4, align 8
  %34 = urem i64 %33, 1000
  %35 = call i32 @__print_string(ptr getelementptr inbounds ([3 x { i8, i8, i8, i8, ptr, i32 }], ptr @__streams, i32 0, i32 1), ptr %31, i32 0, i32 0, i32 -1)
  %36 = call i32 @__print_unsigned(ptr getelementptr inbounds ([3 x { i8, i8, i8, i8, ptr, i32 }], ptr @__streams, i32 0, i32 1), i64 %32, i32 10, i32 0, i32 0, i32 -1)
  %37 = call i32 @__print_text(ptr getelementptr inbounds ([3 x { i8, i8, i8, i8, ptr, i32 }], ptr @__streams, i32 0, i32 1), ptr getelementptr inbounds (i8, ptr @.str.4, i32 6), i32 1)
  %38 = call i32 @__print_unsigned(ptr getelementptr inbounds ([3 x { i8, i8, i8, i8, ptr, i32 }], ptr @__streams, i32 0, i32 1), i64 %34, i32 10, i32 16, i32 3, i32 -1)
  %39 = add i32 %35, %36
  %40 = add i32 %39, %37
  %41 = add i32 %40, %38
  %42 = add i32 %41, 0
  ret void
}

; Function Attrs: noinline nounwind optnone uwtable
define internal i64 @fault(ptr noundef %0, ptr noundef %1) #0 {
  %3 = alloca ptr, align 4
  %4 = alloca ptr, align 4
  %5 = alloca i64, align 8
  %6 = alloca i32, align 4
  %7 = alloca i64, align 8
  %8 = alloca i32, align 4
  store ptr %0, ptr %3, align 4
  store ptr %1, ptr %4, align 4
  store i64 0, ptr %5, align 8
  store i32 0, ptr %6, align 4
  br label %9

9:                                                ; preds = %59, %2
  %10 = load i32, ptr %6, align 4
  %11 = load ptr, ptr %3, align 4
  %12 = getelementptr inbounds %struct.system, ptr %11, i32 0, i32 0
  %13 = load i32, ptr %12, align 4
  %14 = icmp slt i32 %10, %13
  br i1 %14, label %15, label %62

15:                                               ; preds = %9
  %16 = load ptr, ptr %3, align 4
  %17 = getelementptr inbounds %struct.system, ptr %16, i32 0, i32 1
  %18 = load i32, ptr %6, align 4
  %19 = getelementptr inbounds [12 x [13 x i64]], ptr %17, i32 0, i32 %18
  %20 = load ptr, ptr %3, align 4
  %21 = getelementptr inbounds %struct.system, ptr %20, i32 0, i32 0
  %22 = load i32, ptr %21, align 4
  %23 = getelementptr inbounds [13 x i64], ptr %19, i32 0, i32 %22
  %24 = load i64, ptr %23, align 4
  %25 = sub nsw i64 0, %24
  store i64 %25, ptr %7, align 8
  store i32 0, ptr %8, align 4
  br label %26

26:                                               ; preds = %47, %15
  %27 = load i32, ptr %8, align 4
  %28 = load ptr, ptr %3, align 4
  %29 = getelementptr inbounds %struct.system, ptr %28, i32 0, i32 0
  %30 = load i32, ptr %29, align 4
  %31 = icmp slt i32 %27, %30
  br i1 %31, label %32, label %50

32:                                               ; preds = %26
  %33 = load ptr, ptr %3, align 4
  %34 = getelementptr inbounds %struct.system, ptr %33, i32 0, i32 1
  %35 = load i32, ptr %6, align 4
  %36 = getelementptr inbounds [12 x [13 x i64]], ptr %34, i32 0, i32 %35
  %37 = load i32, ptr %8, align 4
  %38 = getelementptr inbounds [13 x i64], ptr %36, i32 0, i32 %37
  %39 = load i64, ptr %38, align 4
  %40 = load ptr, ptr %4, align 4
  %41 = load i32, ptr %8, align 4
  %42 = getelementptr inbounds i64, ptr %40, i32 %41
  %43 = load i64, ptr %42, align 4
  %44 = call i64 @product(i64 noundef %39, i64 noundef %43)
  %45 = load i64, ptr %7, align 8
  %46 = add nsw i64 %45, %44
  store i64 %46, ptr %7, align 8
  br label %47

47:                                               ; preds = %32
  %48 = load i32, ptr %8, align 4
  %49 = add nsw i32 %48, 1
  store i32 %49, ptr %8, align 4
  br label %26, !llvm.loop !33

50:                                               ; preds = %26
  %51 = load i64, ptr %7, align 8
  %52 = call i64 @size(i64 noundef %51)
  %53 = load i64, ptr %5, align 8
  %54 = icmp sgt i64 %52, %53
  br i1 %54, label %55, label %58

55:                                               ; preds = %50
  %56 = load i64, ptr %7, align 8
  %57 = call i64 @size(i64 noundef %56)
  store i64 %57, ptr %5, align 8
  br label %58

58:                                               ; preds = %55, %50
  br label %59

59:                                               ; preds = %58
  %60 = load i32, ptr %6, align 4
  %61 = add nsw i32 %60, 1
  store i32 %61, ptr %6, align 4
  br label %9, !llvm.loop !34

62:                                               ; preds = %9
  %63 = load i64, ptr %5, align 8
  ret i64 %63
}

; Function Attrs: noinline nounwind optnone uwtable
define internal i64 @product(i64 noundef %0, i64 noundef %1) #0 {
  %3 = alloca i64, align 8
  %4 = alloca i64, align 8
  store i64 %0, ptr %3, align 8
  store i64 %1, ptr %4, align 8
  %5 = load i64, ptr %3, align 8
  %6 = load i64, ptr %4, align 8
  %7 = mul nsw i64 %5, %6
  %8 = sdiv i64 %7, 65536
  ret i64 %8
}

; Function Attrs: noinline nounwind optnone uwtable
define internal i64 @size(i64 noundef %0) #0 {
  %2 = alloca i64, align 8
  store i64 %0, ptr %2, align 8
  %3 = load i64, ptr %2, align 8
  %4 = icmp slt i64 %3, 0
  br i1 %4, label %5, label %8

5:                                                ; preds = %1
  %6 = load i64, ptr %2, align 8
  %7 = sub nsw i64 0, %6
  br label %10

8:                                                ; preds = %1
  %9 = load i64, ptr %2, align 8
  br label %10

10:                                               ; preds = %8, %5
  %11 = phi i64 [ %7, %5 ], [ %9, %8 ]
  ret i64 %11
}

; Function Attrs: nounwind optsize uwtable
define internal i32 @__print_string(ptr nocapture noundef %0, ptr noundef %1, i32 noundef %2, i32 noundef %3, i32 noundef %4) #3 {
  %6 = icmp eq ptr %1, null
  %7 = icmp ult i32 %4, 6
  %8 = select i1 %7, ptr @.str.11, ptr @.str.1.12
  %9 = select i1 %6, ptr %8, ptr %1
  %10 = icmp slt i32 %4, 0
  br i1 %10, label %11, label %20

11:                                               ; preds = %11, %5
  %12 = phi ptr [ %15, %11 ], [ %9, %5 ]
  %13 = load i8, ptr %12, align 1, !tbaa !12
  %14 = icmp eq i8 %13, 0
  %15 = getelementptr inbounds i8, ptr %12, i32 1
  br i1 %14, label %16, label %11, !llvm.loop !35

16:                                               ; preds = %11
  %17 = ptrtoint ptr %12 to i32
  %18 = ptrtoint ptr %9 to i32
  %19 = sub i32 %17, %18
  br label %30

20:                                               ; preds = %5
  %21 = icmp eq i32 %4, 0
  br i1 %21, label %30, label %22

22:                                               ; preds = %27, %20
  %23 = phi i32 [ %28, %27 ], [ 0, %20 ]
  %24 = getelementptr inbounds i8, ptr %9, i32 %23
  %25 = load i8, ptr %24, align 1, !tbaa !12
  %26 = icmp eq i8 %25, 0
  br i1 %26, label %30, label %27

27:                                               ; preds = %22
  %28 = add nuw nsw i32 %23, 1
  %29 = icmp eq i32 %28, %4
  br i1 %29, label %30, label %22, !llvm.loop !36

30:                                               ; preds = %27, %22, %20, %16
  %31 = phi i32 [ %19, %16 ], [ 0, %20 ], [ %23, %22 ], [ %4, %27 ]
  %32 = tail call fastcc i32 @padded(ptr noundef %0, ptr noundef nonnull %9, i32 noundef %31, i32 noundef %2, i32 noundef %3) #11
  ret i32 %32
}

; Function Attrs: nounwind optsize uwtable
define internal i32 @__print_unsigned(ptr nocapture noundef %0, i64 noundef %1, i32 noundef %2, i32 noundef %3, i32 noundef %4, i32 noundef %5) #3 {
  %7 = alloca [24 x i8], align 1
  call void @llvm.lifetime.start.p0(i64 24, ptr nonnull %7) #10
  %8 = and i32 %3, 32
  %9 = icmp eq i32 %8, 0
  %10 = select i1 %9, ptr @.str.9, ptr @.str.8
  %11 = icmp ult i64 %1, 4294967296
  br i1 %11, label %14, label %12

12:                                               ; preds = %6
  %13 = zext i32 %2 to i64
  br label %27

14:                                               ; preds = %6
  %15 = trunc nuw i64 %1 to i32
  %16 = icmp eq i32 %15, 0
  br i1 %16, label %40, label %17

17:                                               ; preds = %17, %14
  %18 = phi i32 [ %25, %17 ], [ %15, %14 ]
  %19 = phi i32 [ %23, %17 ], [ 24, %14 ]
  %20 = urem i32 %18, %2
  %21 = getelementptr inbounds i8, ptr %10, i32 %20
  %22 = load i8, ptr %21, align 1, !tbaa !12
  %23 = add nsw i32 %19, -1
  %24 = getelementptr inbounds i8, ptr %7, i32 %23
  store i8 %22, ptr %24, align 1, !tbaa !12
  %25 = udiv i32 %18, %2
  %26 = icmp ult i32 %18, %2
  br i1 %26, label %40, label %17, !llvm.loop !15

27:                                               ; preds = %27, %12
  %28 = phi i32 [ 24, %12 ], [ %37, %27 ]
  %29 = phi i64 [ %1, %12 ], [ %31, %27 ]
  %30 = freeze i64 %29
  %31 = udiv i64 %30, %13
  %32 = mul i64 %31, %13
  %33 = sub i64 %30, %32
  %34 = trunc nuw i64 %33 to i32
  %35 = getelementptr inbounds i8, ptr %10, i32 %34
  %36 = load i8, ptr %35, align 1, !tbaa !12
  %37 = add nsw i32 %28, -1
  %38 = getelementptr inbounds i8, ptr %7, i32 %37
  store i8 %36, ptr %38, align 1, !tbaa !12
  %39 = icmp ult i64 %29, %13
  br i1 %39, label %40, label %27, !llvm.loop !16

40:                                               ; preds = %27, %17, %14
  %41 = phi i32 [ 24, %14 ], [ %23, %17 ], [ %37, %27 ]
  %42 = icmp eq i64 %1, 0
  %43 = icmp ne i32 %5, 0
  %44 = and i1 %42, %43
  br i1 %44, label %45, label %48

45:                                               ; preds = %40
  %46 = add nsw i32 %41, -1
  %47 = getelementptr inbounds i8, ptr %7, i32 %46
  store i8 48, ptr %47, align 1, !tbaa !12
  br label %48

48:                                               ; preds = %45, %40
  %49 = phi i32 [ %46, %45 ], [ %41, %40 ]
  %50 = getelementptr inbounds i8, ptr %7, i32 %49
  %51 = and i32 %3, 8
  %52 = icmp ne i32 %51, 0
  %53 = icmp eq i32 %2, 8
  %54 = and i1 %53, %52
  %55 = sub nsw i32 24, %49
  %56 = icmp sge i32 %55, %5
  %57 = select i1 %54, i1 %56, i1 false
  br i1 %57, label %58, label %65

58:                                               ; preds = %48
  %59 = icmp eq i32 %49, 24
  br i1 %59, label %63, label %60

60:                                               ; preds = %58
  %61 = load i8, ptr %50, align 1, !tbaa !12
  %62 = icmp eq i8 %61, 48
  br i1 %62, label %65, label %63

63:                                               ; preds = %60, %58
  %64 = getelementptr inbounds i8, ptr %50, i32 -1
  store i8 48, ptr %64, align 1, !tbaa !12
  br label %65

65:                                               ; preds = %63, %60, %48
  %66 = phi ptr [ %64, %63 ], [ %50, %60 ], [ %50, %48 ]
  %67 = getelementptr inbounds i8, ptr %7, i32 24
  %68 = ptrtoint ptr %67 to i32
  %69 = icmp eq i32 %2, 16
  %70 = icmp ne i64 %1, 0
  %71 = and i1 %70, %69
  %72 = and i1 %71, %52
  %73 = select i1 %9, ptr @.str.6.20, ptr @.str.5.21
  %74 = select i1 %72, ptr %73, ptr @.str.11
  %75 = ptrtoint ptr %66 to i32
  %76 = sub i32 %68, %75
  %77 = call fastcc i32 @number(ptr noundef %0, ptr noundef nonnull %74, ptr noundef nonnull %66, i32 noundef %76, i32 noundef %3, i32 noundef %4, i32 noundef %5) #11
  call void @llvm.lifetime.end.p0(i64 24, ptr nonnull %7) #10
  ret i32 %77
}

; Function Attrs: nocallback nofree nosync nounwind willreturn memory(argmem: readwrite)
declare void @llvm.lifetime.start.p0(i64 immarg, ptr nocapture) #5

; Function Attrs: nounwind optsize uwtable
define internal fastcc i32 @number(ptr nocapture noundef %0, ptr noundef %1, ptr nocapture noundef readonly %2, i32 noundef %3, i32 noundef %4, i32 noundef %5, i32 noundef %6) unnamed_addr #3 {
  br label %8

8:                                                ; preds = %8, %7
  %9 = phi ptr [ %1, %7 ], [ %12, %8 ]
  %10 = load i8, ptr %9, align 1, !tbaa !12
  %11 = icmp eq i8 %10, 0
  %12 = getelementptr inbounds i8, ptr %9, i32 1
  br i1 %11, label %13, label %8, !llvm.loop !35

13:                                               ; preds = %8
  %14 = ptrtoint ptr %9 to i32
  %15 = ptrtoint ptr %1 to i32
  %16 = sub i32 %14, %15
  %17 = sub nsw i32 %6, %3
  %18 = lshr i32 %5, 31
  %19 = icmp ne i32 %18, 0
  %20 = sub i32 0, %5
  %21 = select i1 %19, i32 %20, i32 %5
  %22 = lshr i32 %5, 31
  %23 = tail call i32 @llvm.smax.i32(i32 %17, i32 0)
  %24 = icmp slt i32 %6, 0
  %25 = and i32 %4, 16
  %26 = icmp ne i32 %25, 0
  %27 = and i1 %26, %24
  %28 = and i32 %4, 1
  %29 = or i32 %22, %28
  %30 = icmp eq i32 %29, 0
  %31 = and i1 %27, %30
  %32 = add i32 %16, %3
  %33 = icmp sgt i32 %21, %32
  %34 = select i1 %31, i1 %33, i1 false
  %35 = sub i32 %21, %32
  %36 = select i1 %34, i32 %35, i32 %23
  %37 = add i32 %32, %36
  %38 = sub i32 %21, %37
  br i1 %30, label %39, label %48

39:                                               ; preds = %13
  %40 = icmp sgt i32 %38, 0
  br i1 %40, label %41, label %46

41:                                               ; preds = %41, %39
  %42 = phi i32 [ %44, %41 ], [ 0, %39 ]
  %43 = tail call i32 @fputc(i32 noundef 32, ptr noundef %0) #11
  %44 = add nuw nsw i32 %42, 1
  %45 = icmp eq i32 %44, %38
  br i1 %45, label %46, label %41, !llvm.loop !37

46:                                               ; preds = %41, %39
  %47 = tail call noundef i32 @llvm.smax.i32(i32 %38, i32 0)
  br label %48

48:                                               ; preds = %46, %13
  %49 = phi i32 [ 0, %13 ], [ %47, %46 ]
  %50 = load i8, ptr %0, align 4, !tbaa !17, !alias.scope !38, !noalias !41
  %51 = icmp eq i8 %50, 0
  %52 = icmp eq ptr %9, %1
  %53 = or i1 %52, %51
  br i1 %53, label %62, label %54

54:                                               ; preds = %54, %48
  %55 = phi i32 [ %60, %54 ], [ 0, %48 ]
  %56 = getelementptr inbounds i8, ptr %1, i32 %55
  %57 = load i8, ptr %56, align 1, !tbaa !12, !alias.scope !41, !noalias !38
  %58 = zext i8 %57 to i32
  %59 = tail call i32 @fputc(i32 noundef %58, ptr noundef nonnull %0) #11, !noalias !41
  %60 = add nuw i32 %55, 1
  %61 = icmp eq i32 %60, %16
  br i1 %61, label %62, label %54, !llvm.loop !26

62:                                               ; preds = %54, %48
  %63 = icmp sgt i32 %36, 0
  br i1 %63, label %64, label %69

64:                                               ; preds = %64, %62
  %65 = phi i32 [ %67, %64 ], [ 0, %62 ]
  %66 = tail call i32 @fputc(i32 noundef 48, ptr noundef nonnull %0) #11
  %67 = add nuw nsw i32 %65, 1
  %68 = icmp eq i32 %67, %36
  br i1 %68, label %69, label %64, !llvm.loop !37

69:                                               ; preds = %64, %62
  %70 = tail call noundef i32 @llvm.smax.i32(i32 %36, i32 0)
  %71 = load i8, ptr %0, align 4, !tbaa !17, !alias.scope !43, !noalias !46
  %72 = icmp eq i8 %71, 0
  %73 = icmp eq i32 %3, 0
  %74 = or i1 %73, %72
  br i1 %74, label %83, label %75

75:                                               ; preds = %75, %69
  %76 = phi i32 [ %81, %75 ], [ 0, %69 ]
  %77 = getelementptr inbounds i8, ptr %2, i32 %76
  %78 = load i8, ptr %77, align 1, !tbaa !12, !alias.scope !46, !noalias !43
  %79 = zext i8 %78 to i32
  %80 = tail call i32 @fputc(i32 noundef %79, ptr noundef nonnull %0) #11, !noalias !46
  %81 = add nuw i32 %76, 1
  %82 = icmp eq i32 %81, %3
  br i1 %82, label %83, label %75, !llvm.loop !26

83:                                               ; preds = %75, %69
  %84 = add i32 %32, %70
  %85 = add i32 %84, %49
  br i1 %30, label %96, label %86

86:                                               ; preds = %83
  %87 = icmp sgt i32 %38, 0
  br i1 %87, label %88, label %93

88:                                               ; preds = %88, %86
  %89 = phi i32 [ %91, %88 ], [ 0, %86 ]
  %90 = tail call i32 @fputc(i32 noundef 32, ptr noundef nonnull %0) #11
  %91 = add nuw nsw i32 %89, 1
  %92 = icmp eq i32 %91, %38
  br i1 %92, label %93, label %88, !llvm.loop !37

93:                                               ; preds = %88, %86
  %94 = tail call noundef i32 @llvm.smax.i32(i32 %38, i32 0)
  %95 = add nsw i32 %85, %94
  br label %96

96:                                               ; preds = %93, %83
  %97 = phi i32 [ %95, %93 ], [ %85, %83 ]
  ret i32 %97
}

; Function Attrs: nocallback nofree nosync nounwind willreturn memory(argmem: readwrite)
declare void @llvm.lifetime.end.p0(i64 immarg, ptr nocapture) #5

; Function Attrs: nocallback nofree nosync nounwind speculatable willreturn memory(none)
declare i32 @llvm.smax.i32(i32, i32) #6

; Function Attrs: nounwind optsize uwtable
define internal range(i32 -1, 256) i32 @fputc(i32 noundef %0, ptr nocapture noundef %1) local_unnamed_addr #3 {
  %3 = load i8, ptr %1, align 4, !tbaa !17
  switch i8 %3, label %17 [
    i8 1, label %4
    i8 3, label %6
    i8 0, label %19
  ]

4:                                                ; preds = %2
  %5 = tail call i32 @putchar(i32 noundef %0) #12
  br label %17

6:                                                ; preds = %2
  %7 = getelementptr inbounds i8, ptr %1, i32 8
  %8 = load i32, ptr %7, align 4, !tbaa !48
  %9 = icmp eq i32 %8, 0
  br i1 %9, label %17, label %10

10:                                               ; preds = %6
  %11 = trunc i32 %0 to i8
  %12 = getelementptr inbounds i8, ptr %1, i32 4
  %13 = load ptr, ptr %12, align 4, !tbaa !49
  %14 = getelementptr inbounds i8, ptr %13, i32 1
  store ptr %14, ptr %12, align 4, !tbaa !49
  store i8 %11, ptr %13, align 1, !tbaa !12
  %15 = load i32, ptr %7, align 4, !tbaa !48
  %16 = add i32 %15, -1
  store i32 %16, ptr %7, align 4, !tbaa !48
  br label %17

17:                                               ; preds = %10, %6, %4, %2
  %18 = and i32 %0, 255
  br label %19

19:                                               ; preds = %17, %2
  %20 = phi i32 [ %18, %17 ], [ -1, %2 ]
  ret i32 %20
}

; Function Attrs: nounwind optsize uwtable
define internal fastcc i32 @padded(ptr nocapture noundef %0, ptr nocapture noundef readonly %1, i32 noundef %2, i32 noundef %3, i32 noundef %4) unnamed_addr #3 {
  %6 = icmp slt i32 %4, 0
  %7 = lshr i32 %4, 31
  %8 = icmp ne i32 %7, 0
  %9 = sub i32 0, %4
  %10 = select i1 %8, i32 %9, i32 %4
  %11 = sub nsw i32 %10, %2
  %12 = and i32 %3, 1
  %13 = icmp ne i32 %12, 0
  %14 = or i1 %6, %13
  br i1 %14, label %24, label %15

15:                                               ; preds = %5
  %16 = icmp sgt i32 %11, 0
  br i1 %16, label %17, label %22

17:                                               ; preds = %17, %15
  %18 = phi i32 [ %20, %17 ], [ 0, %15 ]
  %19 = tail call i32 @fputc(i32 noundef 32, ptr noundef %0) #11
  %20 = add nuw nsw i32 %18, 1
  %21 = icmp eq i32 %20, %11
  br i1 %21, label %22, label %17, !llvm.loop !37

22:                                               ; preds = %17, %15
  %23 = tail call noundef i32 @llvm.smax.i32(i32 %11, i32 0)
  br label %24

24:                                               ; preds = %22, %5
  %25 = phi i32 [ %23, %22 ], [ 0, %5 ]
  %26 = load i8, ptr %0, align 4, !tbaa !17, !alias.scope !50, !noalias !53
  %27 = icmp eq i8 %26, 0
  %28 = icmp eq i32 %2, 0
  %29 = or i1 %28, %27
  br i1 %29, label %38, label %30

30:                                               ; preds = %30, %24
  %31 = phi i32 [ %36, %30 ], [ 0, %24 ]
  %32 = getelementptr inbounds i8, ptr %1, i32 %31
  %33 = load i8, ptr %32, align 1, !tbaa !12, !alias.scope !53, !noalias !50
  %34 = zext i8 %33 to i32
  %35 = tail call i32 @fputc(i32 noundef %34, ptr noundef nonnull %0) #11, !noalias !53
  %36 = add nuw i32 %31, 1
  %37 = icmp eq i32 %36, %2
  br i1 %37, label %38, label %30, !llvm.loop !26

38:                                               ; preds = %30, %24
  br i1 %14, label %39, label %48

39:                                               ; preds = %38
  %40 = icmp sgt i32 %11, 0
  br i1 %40, label %41, label %46

41:                                               ; preds = %41, %39
  %42 = phi i32 [ %44, %41 ], [ 0, %39 ]
  %43 = tail call i32 @fputc(i32 noundef 32, ptr noundef nonnull %0) #11
  %44 = add nuw nsw i32 %42, 1
  %45 = icmp eq i32 %44, %11
  br i1 %45, label %46, label %41, !llvm.loop !37

46:                                               ; preds = %41, %39
  %47 = tail call noundef i32 @llvm.smax.i32(i32 %11, i32 0)
  br label %48

48:                                               ; preds = %46, %38
  %49 = phi i32 [ %47, %46 ], [ 0, %38 ]
  %50 = add nsw i32 %25, %2
  %51 = add nsw i32 %50, %49
  ret i32 %51
}

; Function Attrs: noinline nounwind optnone uwtable
define internal void @exchange(ptr noundef %0, i32 noundef %1, i32 noundef %2) #0 {
  %4 = alloca ptr, align 4
  %5 = alloca i32, align 4
  %6 = alloca i32, align 4
  %7 = alloca i32, align 4
  %8 = alloca i64, align 8
  store ptr %0, ptr %4, align 4
  store i32 %1, ptr %5, align 4
  store i32 %2, ptr %6, align 4
  store i32 0, ptr %7, align 4
  br label %9

9:                                                ; preds = %43, %3
  %10 = load i32, ptr %7, align 4
  %11 = load ptr, ptr %4, align 4
  %12 = getelementptr inbounds %struct.system, ptr %11, i32 0, i32 0
  %13 = load i32, ptr %12, align 4
  %14 = icmp sle i32 %10, %13
  br i1 %14, label %15, label %46

15:                                               ; preds = %9
  %16 = load ptr, ptr %4, align 4
  %17 = getelementptr inbounds %struct.system, ptr %16, i32 0, i32 1
  %18 = load i32, ptr %5, align 4
  %19 = getelementptr inbounds [12 x [13 x i64]], ptr %17, i32 0, i32 %18
  %20 = load i32, ptr %7, align 4
  %21 = getelementptr inbounds [13 x i64], ptr %19, i32 0, i32 %20
  %22 = load i64, ptr %21, align 4
  store i64 %22, ptr %8, align 8
  %23 = load ptr, ptr %4, align 4
  %24 = getelementptr inbounds %struct.system, ptr %23, i32 0, i32 1
  %25 = load i32, ptr %6, align 4
  %26 = getelementptr inbounds [12 x [13 x i64]], ptr %24, i32 0, i32 %25
  %27 = load i32, ptr %7, align 4
  %28 = getelementptr inbounds [13 x i64], ptr %26, i32 0, i32 %27
  %29 = load i64, ptr %28, align 4
  %30 = load ptr, ptr %4, align 4
  %31 = getelementptr inbounds %struct.system, ptr %30, i32 0, i32 1
  %32 = load i32, ptr %5, align 4
  %33 = getelementptr inbounds [12 x [13 x i64]], ptr %31, i32 0, i32 %32
  %34 = load i32, ptr %7, align 4
  %35 = getelementptr inbounds [13 x i64], ptr %33, i32 0, i32 %34
  store i64 %29, ptr %35, align 4
  %36 = load i64, ptr %8, align 8
  %37 = load ptr, ptr %4, align 4
  %38 = getelementptr inbounds %struct.system, ptr %37, i32 0, i32 1
  %39 = load i32, ptr %6, align 4
  %40 = getelementptr inbounds [12 x [13 x i64]], ptr %38, i32 0, i32 %39
  %41 = load i32, ptr %7, align 4
  %42 = getelementptr inbounds [13 x i64], ptr %40, i32 0, i32 %41
  store i64 %36, ptr %42, align 4
  br label %43

43:                                               ; preds = %15
  %44 = load i32, ptr %7, align 4
  %45 = add nsw i32 %44, 1
  store i32 %45, ptr %7, align 4
  br label %9, !llvm.loop !55

46:                                               ; preds = %9
  ret void
}

; Function Attrs: noinline nounwind optnone uwtable
define internal i64 @quotient(i64 noundef %0, i64 noundef %1) #0 {
  %3 = alloca i64, align 8
  %4 = alloca i64, align 8
  store i64 %0, ptr %3, align 8
  store i64 %1, ptr %4, align 8
  %5 = load i64, ptr %3, align 8
  %6 = mul nsw i64 %5, 65536
  %7 = load i64, ptr %4, align 8
  %8 = sdiv i64 %6, %7
  ret i64 %8
}

; Function Attrs: noinline nounwind optnone uwtable
define internal i32 @read_number(ptr noundef %0) #0 {
  %2 = alloca i32, align 4
  %3 = alloca ptr, align 4
  %4 = alloca i32, align 4
  %5 = alloca i32, align 4
  %6 = alloca i64, align 8
  %7 = alloca i64, align 8
  %8 = alloca i64, align 8
  store ptr %0, ptr %3, align 4
  store i32 0, ptr %5, align 4
  br label %9

9:                                                ; preds = %18, %1
  %10 = call i32 @fgetc(ptr noundef @__streams)
  store i32 %10, ptr %4, align 4
  %11 = icmp ne i32 %10, -1
  br i1 %11, label %12, label %16

12:                                               ; preds = %9
  %13 = load i32, ptr %4, align 4
  %14 = call i32 @isspace(i32 noundef %13) #13
  %15 = icmp ne i32 %14, 0
  br label %16

16:                                               ; preds = %12, %9
  %17 = phi i1 [ false, %9 ], [ %15, %12 ]
  br i1 %17, label %18, label %19

18:                                               ; preds = %16
  br label %9, !llvm.loop !56

19:                                               ; preds = %16
  %20 = load i32, ptr %4, align 4
  %21 = icmp eq i32 %20, 45
  br i1 %21, label %22, label %24

22:                                               ; preds = %19
  store i32 1, ptr %5, align 4
  %23 = call i32 @fgetc(ptr noundef @__streams)
  store i32 %23, ptr %4, align 4
  br label %24

24:                                               ; preds = %22, %19
  %25 = load i32, ptr %4, align 4
  %26 = call i32 @isdigit(i32 noundef %25) #13
  %27 = icmp ne i32 %26, 0
  br i1 %27, label %29, label %28

28:                                               ; preds = %24
  store i32 0, ptr %2, align 4
  br label %87

29:                                               ; preds = %24
  store i64 0, ptr %6, align 8
  store i64 0, ptr %7, align 8
  store i64 1, ptr %8, align 8
  br label %30

30:                                               ; preds = %41, %29
  %31 = load i32, ptr %4, align 4
  %32 = call i32 @isdigit(i32 noundef %31) #13
  %33 = icmp ne i32 %32, 0
  br i1 %33, label %34, label %43

34:                                               ; preds = %30
  %35 = load i64, ptr %6, align 8
  %36 = mul nsw i64 %35, 10
  %37 = load i32, ptr %4, align 4
  %38 = sub nsw i32 %37, 48
  %39 = sext i32 %38 to i64
  %40 = add nsw i64 %36, %39
  store i64 %40, ptr %6, align 8
  br label %41

41:                                               ; preds = %34
  %42 = call i32 @fgetc(ptr noundef @__streams)
  store i32 %42, ptr %4, align 4
  br label %30, !llvm.loop !57

43:                                               ; preds = %30
  %44 = load i32, ptr %4, align 4
  %45 = icmp eq i32 %44, 46
  br i1 %45, label %46, label %68

46:                                               ; preds = %43
  %47 = call i32 @fgetc(ptr noundef @__streams)
  store i32 %47, ptr %4, align 4
  br label %48

48:                                               ; preds = %65, %46
  %49 = load i32, ptr %4, align 4
  %50 = call i32 @isdigit(i32 noundef %49) #13
  %51 = icmp ne i32 %50, 0
  br i1 %51, label %52, label %67

52:                                               ; preds = %48
  %53 = load i64, ptr %8, align 8
  %54 = icmp slt i64 %53, 1000000000
  br i1 %54, label %55, label %64

55:                                               ; preds = %52
  %56 = load i64, ptr %7, align 8
  %57 = mul nsw i64 %56, 10
  %58 = load i32, ptr %4, align 4
  %59 = sub nsw i32 %58, 48
  %60 = sext i32 %59 to i64
  %61 = add nsw i64 %57, %60
  store i64 %61, ptr %7, align 8
  %62 = load i64, ptr %8, align 8
  %63 = mul nsw i64 %62, 10
  store i64 %63, ptr %8, align 8
  br label %64

64:                                               ; preds = %55, %52
  br label %65

65:                                               ; preds = %64
  %66 = call i32 @fgetc(ptr noundef @__streams)
  store i32 %66, ptr %4, align 4
  br label %48, !llvm.loop !58

67:                                               ; preds = %48
  br label %68

68:                                               ; preds = %67, %43
  %69 = load i32, ptr %4, align 4
  %70 = call i32 @ungetc(i32 noundef %69, ptr noundef @__streams)
  %71 = load i64, ptr %6, align 8
  %72 = mul nsw i64 %71, 65536
  %73 = load i64, ptr %7, align 8
  %74 = mul nsw i64 %73, 65536
  %75 = load i64, ptr %8, align 8
  %76 = sdiv i64 %74, %75
  %77 = add nsw i64 %72, %76
  %78 = load ptr, ptr %3, align 4
  store i64 %77, ptr %78, align 4
  %79 = load i32, ptr %5, align 4
  %80 = icmp ne i32 %79, 0
  br i1 %80, label %81, label %86

81:                                               ; preds = %68
  %82 = load ptr, ptr %3, align 4
  %83 = load i64, ptr %82, align 4
  %84 = sub nsw i64 0, %83
  %85 = load ptr, ptr %3, align 4
  store i64 %84, ptr %85, align 4
  br label %86

86:                                               ; preds = %81, %68
  store i32 1, ptr %2, align 4
  br label %87

87:                                               ; preds = %86, %28
  %88 = load i32, ptr %2, align 4
  ret i32 %88
}

; Function Attrs: nounwind optsize uwtable
define internal i32 @fgetc(ptr nocapture noundef %0) #3 {
  %2 = load i8, ptr %0, align 4, !tbaa !17
  %3 = icmp eq i8 %2, 0
  br i1 %3, label %4, label %20

4:                                                ; preds = %1
  %5 = getelementptr inbounds i8, ptr %0, i32 2
  %6 = load i8, ptr %5, align 2, !tbaa !59
  %7 = icmp eq i8 %6, 0
  br i1 %7, label %12, label %8

8:                                                ; preds = %4
  store i8 0, ptr %5, align 2, !tbaa !59
  %9 = getelementptr inbounds i8, ptr %0, i32 3
  %10 = load i8, ptr %9, align 1, !tbaa !60
  %11 = zext i8 %10 to i32
  br label %20

12:                                               ; preds = %4
  %13 = getelementptr inbounds i8, ptr %0, i32 1
  %14 = load i8, ptr %13, align 1, !tbaa !61
  %15 = icmp eq i8 %14, 0
  br i1 %15, label %16, label %20

16:                                               ; preds = %12
  %17 = tail call i32 @getchar() #12
  %18 = icmp eq i32 %17, -1
  br i1 %18, label %19, label %20

19:                                               ; preds = %16
  store i8 1, ptr %13, align 1, !tbaa !61
  br label %20

20:                                               ; preds = %19, %16, %12, %8, %1
  %21 = phi i32 [ %11, %8 ], [ -1, %1 ], [ -1, %12 ], [ -1, %19 ], [ %17, %16 ]
  ret i32 %21
}

; Function Attrs: mustprogress nofree norecurse nosync nounwind optsize willreturn memory(none) uwtable
define internal range(i32 0, 2) i32 @isspace(i32 noundef %0) #7 {
  %2 = icmp eq i32 %0, 32
  %3 = add i32 %0, -9
  %4 = icmp ult i32 %3, 5
  %5 = or i1 %2, %4
  %6 = zext i1 %5 to i32
  ret i32 %6
}

; Function Attrs: mustprogress nofree norecurse nosync nounwind optsize willreturn memory(none) uwtable
define internal range(i32 0, 2) i32 @isdigit(i32 noundef %0) #7 {
  %2 = add i32 %0, -48
  %3 = icmp ult i32 %2, 10
  %4 = zext i1 %3 to i32
  ret i32 %4
}

; Function Attrs: mustprogress nofree norecurse nosync nounwind optsize willreturn memory(argmem: readwrite) uwtable
define internal range(i32 -1, 256) i32 @ungetc(i32 noundef %0, ptr nocapture noundef %1) #8 {
  %3 = icmp eq i32 %0, -1
  br i1 %3, label %16, label %4

4:                                                ; preds = %2
  %5 = load i8, ptr %1, align 4, !tbaa !17
  %6 = icmp eq i8 %5, 0
  br i1 %6, label %7, label %16

7:                                                ; preds = %4
  %8 = getelementptr inbounds i8, ptr %1, i32 2
  %9 = load i8, ptr %8, align 2, !tbaa !59
  %10 = icmp eq i8 %9, 0
  br i1 %10, label %11, label %16

11:                                               ; preds = %7
  store i8 1, ptr %8, align 2, !tbaa !59
  %12 = trunc i32 %0 to i8
  %13 = getelementptr inbounds i8, ptr %1, i32 3
  store i8 %12, ptr %13, align 1, !tbaa !60
  %14 = getelementptr inbounds i8, ptr %1, i32 1
  store i8 0, ptr %14, align 1, !tbaa !61
  %15 = and i32 %0, 255
  br label %16

16:                                               ; preds = %11, %7, %4, %2
  %17 = phi i32 [ %15, %11 ], [ -1, %7 ], [ -1, %4 ], [ -1, %2 ]
  ret i32 %17
}

; Function Attrs: optsize
declare dso_local i32 @getchar() local_unnamed_addr #9

attributes #0 = { noinline nounwind optnone uwtable "frame-pointer"="all" "min-legal-vector-width"="0" "no-trapping-math"="true" "stack-protector-buffer-size"="8" "target-cpu"="i686" "target-features"="+cmov,+cx8,+x87" "tune-cpu"="generic" }
attributes #1 = { nocallback nofree nounwind willreturn memory(argmem: write) }
attributes #2 = { nocallback nofree nounwind willreturn memory(argmem: readwrite) }
attributes #3 = { nounwind optsize uwtable "min-legal-vector-width"="0" "no-builtins" "no-jump-tables"="true" "no-trapping-math"="true" "stack-protector-buffer-size"="8" "target-cpu"="i686" "target-features"="+cmov,+cx8,+x87" "tune-cpu"="generic" }
attributes #4 = { "frame-pointer"="all" "no-trapping-math"="true" "stack-protector-buffer-size"="8" "target-cpu"="i686" "target-features"="+cmov,+cx8,+x87" "tune-cpu"="generic" }
attributes #5 = { nocallback nofree nosync nounwind willreturn memory(argmem: readwrite) }
attributes #6 = { nocallback nofree nosync nounwind speculatable willreturn memory(none) }
attributes #7 = { mustprogress nofree norecurse nosync nounwind optsize willreturn memory(none) uwtable "min-legal-vector-width"="0" "no-builtins" "no-jump-tables"="true" "no-trapping-math"="true" "stack-protector-buffer-size"="8" "target-cpu"="i686" "target-features"="+cmov,+cx8,+x87" "tune-cpu"="generic" }
attributes #8 = { mustprogress nofree norecurse nosync nounwind optsize willreturn memory(argmem: readwrite) uwtable "min-legal-vector-width"="0" "no-builtins" "no-jump-tables"="true" "no-trapping-math"="true" "stack-protector-buffer-size"="8" "target-cpu"="i686" "target-features"="+cmov,+cx8,+x87" "tune-cpu"="generic" }
attributes #9 = { optsize "no-builtins" "no-trapping-math"="true" "stack-protector-buffer-size"="8" "target-cpu"="i686" "target-features"="+cmov,+cx8,+x87" "tune-cpu"="generic" }
attributes #10 = { nounwind }
attributes #11 = { nobuiltin optsize "no-builtins" }
attributes #12 = { nobuiltin nounwind optsize "no-builtins" }
attributes #13 = { nounwind willreturn memory(read) }

!llvm.ident = !{!0, !0, !0}
!llvm.module.flags = !{!1, !2, !3, !4, !5, !6}

!0 = !{!"Debian clang version 19.1.7 (3~deb12u1)"}
!1 = !{i32 1, !"NumRegisterParameters", i32 0}
!2 = !{i32 7, !"Dwarf Version", i32 5}
!3 = !{i32 2, !"Debug Info Version", i32 3}
!4 = !{i32 1, !"wchar_size", i32 4}
!5 = !{i32 7, !"uwtable", i32 2}
!6 = !{i32 7, !"frame-pointer", i32 2}
!7 = distinct !{!7, !8}
!8 = !{!"llvm.loop.mustprogress"}
!9 = distinct !{!9, !8}
!10 = distinct !{!10, !8}
!11 = distinct !{!11, !8}
!12 = !{!13, !13, i64 0}
!13 = !{!"omnipotent char", !14, i64 0}
!14 = !{!"Simple C/C++ TBAA"}
!15 = distinct !{!15, !8}
!16 = distinct !{!16, !8}
!17 = !{!18, !13, i64 0}
!18 = !{!"__stream", !13, i64 0, !13, i64 1, !13, i64 2, !13, i64 3, !19, i64 4, !20, i64 8}
!19 = !{!"any pointer", !13, i64 0}
!20 = !{!"int", !13, i64 0}
!21 = !{!22}
!22 = distinct !{!22, !23, !"fwrite: %stream"}
!23 = distinct !{!23, !"fwrite"}
!24 = !{!25}
!25 = distinct !{!25, !23, !"fwrite: %from"}
!26 = distinct !{!26, !8}
!27 = distinct !{!27, !8}
!28 = distinct !{!28, !8}
!29 = distinct !{!29, !8}
!30 = distinct !{!30, !8}
!31 = distinct !{!31, !8}
!32 = distinct !{!32, !8}
!33 = distinct !{!33, !8}
!34 = distinct !{!34, !8}
!35 = distinct !{!35, !8}
!36 = distinct !{!36, !8}
!37 = distinct !{!37, !8}
!38 = !{!39}
!39 = distinct !{!39, !40, !"fwrite: %stream"}
!40 = distinct !{!40, !"fwrite"}
!41 = !{!42}
!42 = distinct !{!42, !40, !"fwrite: %from"}
!43 = !{!44}
!44 = distinct !{!44, !45, !"fwrite: %stream"}
!45 = distinct !{!45, !"fwrite"}
!46 = !{!47}
!47 = distinct !{!47, !45, !"fwrite: %from"}
!48 = !{!18, !20, i64 8}
!49 = !{!18, !19, i64 4}
!50 = !{!51}
!51 = distinct !{!51, !52, !"fwrite: %stream"}
!52 = distinct !{!52, !"fwrite"}
!53 = !{!54}
!54 = distinct !{!54, !52, !"fwrite: %from"}
!55 = distinct !{!55, !8}
!56 = distinct !{!56, !8}
!57 = distinct !{!57, !8}
!58 = distinct !{!58, !8}
!59 = !{!18, !13, i64 2}
!60 = !{!18, !13, i64 3}
!61 = !{!18, !13, i64 1}
