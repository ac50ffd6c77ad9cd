source_filename = "compile.c"
target datalayout = "e-m:e-p:32:32-p270:32:32-p271:32:32-p272:64:64-i128:128-f64:32:64-f80:32-n8:16:32-S128"
target triple = "i386-unknown-linux-gnu"

%struct.regex = type { [400 x %struct.step], i32, i32, [24 x [32 x i8]], i32, ptr, i32 }
%struct.step = type { i32, i32, i32, i32 }
%struct.states = type { [400 x i32], [400 x i8], i32, i32 }
%struct.__stream = type { i8, i8, i8, i8, ptr, i32 }
%struct.reader = type { ptr, ptr, ptr }
%struct.part = type { i32, i32 }

@.str = private unnamed_addr constant [28 x i8] c"a group that was not opened\00", align 1
@.str.1 = private unnamed_addr constant [4 x i8] c"*+?\00", align 1
@.str.2 = private unnamed_addr constant [27 x i8] c"a group that is not closed\00", align 1
@.str.3 = private unnamed_addr constant [18 x i8] c"nothing to repeat\00", align 1
@.str.4 = private unnamed_addr constant [23 x i8] c"a backslash at the end\00", align 1
@.str.5 = private unnamed_addr constant [14 x i8] c"too many sets\00", align 1
@.str.6 = private unnamed_addr constant [28 x i8] c"a range that runs backwards\00", align 1
@.str.7 = private unnamed_addr constant [25 x i8] c"a set that is not closed\00", align 1
@.str.8 = private unnamed_addr constant [9 x i8] c"too long\00", align 1
@.str.9 = private unnamed_addr constant [2 x i8] c"\0A\00", align 1
@.str.1.10 = private unnamed_addr constant [33 x i8] c"%d matches, %d patterns refused\0A\00", align 1
@.str.2.16 = private unnamed_addr constant [5 x i8] c"/%s/\00", align 1
@regex = internal global %struct.regex zeroinitializer, align 4
@.str.3.17 = private unnamed_addr constant [21 x i8] c"  %d steps, %d sets\0A\00", align 1
@.str.4.18 = private unnamed_addr constant [13 x i8] c"  %s at %zu\0A\00", align 1
@.str.5.11 = private unnamed_addr constant [2 x i8] c"[\00", align 1
@.str.6.12 = private unnamed_addr constant [2 x i8] c"]\00", align 1
@.str.7.15 = private unnamed_addr constant [8 x i8] c"  %s%s\0A\00", align 1
@.str.8.13 = private unnamed_addr constant [1 x i8] zeroinitializer, align 1
@.str.9.14 = private unnamed_addr constant [3 x i8] c"- \00", align 1
@match_at.states = internal global [2 x %struct.states] zeroinitializer, align 4
@.str.10 = private unnamed_addr constant [1 x i8] zeroinitializer, align 1
@.str.1.11 = private unnamed_addr constant [7 x i8] c"(null)\00", align 1
@.str.2.18 = private unnamed_addr constant [2 x i8] c"-\00", align 1
@.str.3.19 = private unnamed_addr constant [2 x i8] c"+\00", align 1
@.str.4.17 = private unnamed_addr constant [2 x i8] c" \00", align 1
@.str.5.24 = private unnamed_addr constant [3 x i8] c"0X\00", align 1
@.str.6.23 = private unnamed_addr constant [3 x i8] c"0x\00", align 1
@__streams = internal global [3 x %struct.__stream] [%struct.__stream zeroinitializer, %struct.__stream { i8 1, i8 0, i8 0, i8 0, ptr null, i32 0 }, %struct.__stream { i8 2, i8 0, i8 0, i8 0, ptr null, i32 0 }], align 4
@.str.8.22 = private unnamed_addr constant [17 x i8] c"0123456789ABCDEF\00", align 1
@.str.9.16 = private unnamed_addr constant [17 x i8] c"0123456789abcdef\00", align 1

; Function Attrs: noinline nounwind optnone uwtable
define dso_local i32 @main() #0 {
  %1 = alloca i32, align 4
  %2 = alloca [200 x i8], align 1
  %3 = alloca i32, align 4
  %4 = alloca i32, align 4
  %5 = alloca i32, align 4
  store i32 0, ptr %1, align 4
  store i32 0, ptr %3, align 4
  store i32 0, ptr %4, align 4
  store i32 0, ptr %5, align 4
  br label %6

6:                                                ; preds = %37, %0
  %7 = getelementptr inbounds [200 x i8], ptr %2, i32 0, i32 0
  %8 = call ptr @fgets(ptr noundef %7, i32 noundef 200, ptr noundef @__streams)
  %9 = icmp ne ptr %8, null
  br i1 %9, label %10, label %38

10:                                               ; preds = %6
  %11 = getelementptr inbounds [200 x i8], ptr %2, i32 0, i32 0
  %12 = call i32 @strcspn(ptr noundef %11, ptr noundef @.str.9)
  %13 = getelementptr inbounds [200 x i8], ptr %2, i32 0, i32 %12
  store i8 0, ptr %13, align 1
  %14 = getelementptr inbounds [200 x i8], ptr %2, i32 0, i32 0
  %15 = load i8, ptr %14, align 1
  %16 = sext i8 %15 to i32
  %17 = icmp eq i32 %16, 47
  br i1 %17, label %18, label %28

18:                                               ; preds = %10
  %19 = getelementptr inbounds [200 x i8], ptr %2, i32 0, i32 0
  %20 = getelementptr inbounds i8, ptr %19, i32 1
  %21 = call i32 @set(ptr noundef %20)
  store i32 %21, ptr %3, align 4
  %22 = load i32, ptr %3, align 4
  %23 = icmp ne i32 %22, 0
  %24 = xor i1 %23, true
  %25 = zext i1 %24 to i32
  %26 = load i32, ptr %5, align 4
  %27 = add nsw i32 %26, %25
  store i32 %27, ptr %5, align 4
  br label %37

28:                                               ; preds = %10
  %29 = load i32, ptr %3, align 4
  %30 = icmp ne i32 %29, 0
  br i1 %30, label %31, label %36

31:                                               ; preds = %28
  %32 = getelementptr inbounds [200 x i8], ptr %2, i32 0, i32 0
  %33 = call i32 @show(ptr noundef %32)
  %34 = load i32, ptr %4, align 4
  %35 = add nsw i32 %34, %33
  store i32 %35, ptr %4, align 4
  br label %36

36:                                               ; preds = %31, %28
  br label %37

37:                                               ; preds = %36, %18
  br label %6, !llvm.loop !7

38:                                               ; preds = %6
  %39 = load i32, ptr %4, align 4
  %40 = load i32, ptr %5, align 4
  %41 = sext i32 %39 to i64
  %42 = call i32 @__print_signed(ptr getelementptr inbounds ([3 x { i8, i8, i8, i8, ptr, i32 }], ptr @__streams, i32 0, i32 1), i64 %41, i32 0, i32 0, i32 -1)
  %43 = call i32 @__print_text(ptr getelementptr inbounds ([3 x { i8, i8, i8, i8, ptr, i32 }], ptr @__streams, i32 0, i32 1), ptr getelementptr inbounds (i8, ptr @.str.1.10, i32 2), i32 10)
  %44 = sext i32 %40 to i64
  %45 = call i32 @__print_signed(ptr getelementptr inbounds ([3 x { i8, i8, i8, i8, ptr, i32 }], ptr @__streams, i32 0, i32 1), i64 %44, i32 0, i32 0, i32 -1)
  %46 = call i32 @__print_text(ptr getelementptr inbounds ([3 x { i8, i8, i8, i8, ptr, i32 }], ptr @__streams, i32 0, i32 1), ptr getelementptr inbounds (i8, ptr @.str.1.10, i32 14), i32 18)
  %47 = add i32 %42, %43
  %48 = add i32 %47, %45
  %49 = add i32 %48, %46
  %50 = add i32 %49, 0
  %51 = load i32, ptr %4, align 4
  ret i32 %51
}

; Function Attrs: nounwind optsize uwtable
define internal noundef ptr @fgets(ptr noalias noundef writeonly %0, i32 noundef %1, ptr noalias nocapture noundef %2) #1 {
  %4 = icmp slt i32 %1, 1
  br i1 %4, label %23, label %5

5:                                                ; preds = %3
  %6 = icmp eq i32 %1, 1
  br i1 %6, label %21, label %7

7:                                                ; preds = %12, %5
  %8 = phi i32 [ %13, %12 ], [ %1, %5 ]
  %9 = phi ptr [ %15, %12 ], [ %0, %5 ]
  %10 = tail call i32 @fgetc(ptr noundef %2) #8
  %11 = icmp eq i32 %10, -1
  br i1 %11, label %19, label %12

12:                                               ; preds = %7
  %13 = add nsw i32 %8, -1
  %14 = trunc i32 %10 to i8
  %15 = getelementptr inbounds i8, ptr %9, i32 1
  store i8 %14, ptr %9, align 1, !tbaa !9
  %16 = icmp sgt i32 %8, 2
  %17 = icmp ne i32 %10, 10
  %18 = and i1 %16, %17
  br i1 %18, label %7, label %21, !llvm.loop !12

19:                                               ; preds = %7
  %20 = icmp eq ptr %9, %0
  br i1 %20, label %23, label %21

21:                                               ; preds = %19, %12, %5
  %22 = phi ptr [ %9, %19 ], [ %0, %5 ], [ %15, %12 ]
  store i8 0, ptr %22, align 1, !tbaa !9
  br label %23

23:                                               ; preds = %21, %19, %3
  %24 = phi ptr [ %0, %21 ], [ null, %3 ], [ null, %19 ]
  ret ptr %24
}

; Function Attrs: nofree norecurse nosync nounwind optsize memory(read, inaccessiblemem: none) uwtable
define internal i32 @strcspn(ptr nocapture noundef readonly %0, ptr nocapture noundef readonly %1) #2 {
  %3 = tail call fastcc i32 @span(ptr noundef %0, ptr noundef %1, i32 noundef 0) #8
  ret i32 %3
}

; Function Attrs: noinline nounwind optnone uwtable
define internal i32 @set(ptr noundef %0) #0 {
  %2 = alloca i32, align 4
  %3 = alloca ptr, align 4
  store ptr %0, ptr %3, align 4
  %4 = load ptr, ptr %3, align 4
  %5 = call i32 @__print_text(ptr getelementptr inbounds ([3 x { i8, i8, i8, i8, ptr, i32 }], ptr @__streams, i32 0, i32 1), ptr @.str.2.16, i32 1)
  %6 = call i32 @__print_string(ptr getelementptr inbounds ([3 x { i8, i8, i8, i8, ptr, i32 }], ptr @__streams, i32 0, i32 1), ptr %4, i32 0, i32 0, i32 -1)
  %7 = call i32 @__print_text(ptr getelementptr inbounds ([3 x { i8, i8, i8, i8, ptr, i32 }], ptr @__streams, i32 0, i32 1), ptr getelementptr inbounds (i8, ptr @.str.2.16, i32 3), i32 1)
  %8 = add i32 %5, %6
  %9 = add i32 %8, %7
  %10 = add i32 %9, 0
  %11 = load ptr, ptr %3, align 4
  %12 = call i32 @regex_compile(ptr noundef @regex, ptr noundef %11)
  %13 = icmp ne i32 %12, 0
  br i1 %13, label %14, label %29

14:                                               ; preds = %1
  %15 = load i32, ptr getelementptr inbounds (%struct.regex, ptr @regex, i32 0, i32 1), align 4
  %16 = load i32, ptr getelementptr inbounds (%struct.regex, ptr @regex, i32 0, i32 4), align 4
  %17 = call i32 @__print_text(ptr getelementptr inbounds ([3 x { i8, i8, i8, i8, ptr, i32 }], ptr @__streams, i32 0, i32 1), ptr @.str.3.17, i32 2)
  %18 = sext i32 %15 to i64
  %19 = call i32 @__print_signed(ptr getelementptr inbounds ([3 x { i8, i8, i8, i8, ptr, i32 }], ptr @__streams, i32 0, i32 1), i64 %18, i32 0, i32 0, i32 -1)
  %20 = call i32 @__print_text(ptr getelementptr inbounds ([3 x { i8, i8, i8, i8, ptr, i32 }], ptr @__streams, i32 0, i32 1), ptr getelementptr inbounds (i8, ptr @.str.3.17, i32 4), i32 8)
  %21 = sext i32 %16 to i64
  %22 = call i32 @__print_signed(ptr getelementptr inbounds ([3 x { i8, i8, i8, i8, ptr, i32 }], ptr @__streams, i32 0, i32 1), i64 %21, i32 0, i32 0, i32 -1)
  %23 = call i32 @__print_text(ptr getelementptr inbounds ([3 x { i8, i8, i8, i8, ptr, i32 }], ptr @__streams, i32 0, i32 1), ptr getelementptr inbounds (i8, ptr @.str.3.17, i32 14), i32 6)
  %24 = add i32 %17, %19
  %25 = add i32 %24, %20
  %26 = add i32 %25, %22
  %27 = add i32 %26, %23
  %28 = add i32 %27, 0
  store i32 1, ptr %2, align 4
  br label %43

29:                                               ; preds = %1
  %30 = load ptr, ptr getelementptr inbounds (%struct.regex, ptr @regex, i32 0, i32 5), align 4
  %31 = load i32, ptr getelementptr inbounds (%struct.regex, ptr @regex, i32 0, i32 6), align 4
  %32 = call i32 @__print_text(ptr getelementptr inbounds ([3 x { i8, i8, i8, i8, ptr, i32 }], ptr @__streams, i32 0, i32 1), ptr @.str.4.18, i32 2)
  %33 = call i32 @__print_string(ptr getelementptr inbounds ([3 x { i8, i8, i8, i8, ptr, i32 }], ptr @__streams, i32 0, i32 1), ptr %30, i32 0, i32 0, i32 -1)
  %34 = call i32 @__print_text(ptr getelementptr inbounds ([3 x { i8, i8, i8, i8, ptr, i32 }], ptr @__streams, i32 0, i32 1), ptr getelementptr inbounds (i8, ptr @.str.4.18, i32 4), i32 4)
  %35 = zext i32 %31 to i64
  %36 = call i32 @__print_unsigned(ptr getelementptr inbounds ([3 x { i8, i8, i8, i8, ptr, i32 }], ptr @__streams, i32 0, i32 1), i64 %35, i32 10, i32 0, i32 0, i32 -1)
  %37 = call i32 @__print_text(ptr getelementptr inbounds ([3 x { i8, i8, i8, i8, ptr, i32 }], ptr @__streams, i32 0, i32 1), ptr getelementptr inbounds (i8, ptr @.str.4.18, i32 11), i32 1)
  %38 = add i32 %32, %33
  %39 = add i32 %38, %34
  %40 = add i32 %39, %36
  %41 = add i32 %40, %37
  %42 = add i32 %41, 0
  store i32 0, ptr %2, align 4
  br label %43

43:                                               ; preds = %29, %14
  %44 = load i32, ptr %2, align 4
  ret i32 %44
}

; Function Attrs: noinline nounwind optnone uwtable
define internal i32 @show(ptr noundef %0) #0 {
  %2 = alloca ptr, align 4
  %3 = alloca i32, align 4
  %4 = alloca i32, align 4
  %5 = alloca ptr, align 4
  %6 = alloca [300 x i8], align 1
  %7 = alloca i32, align 4
  store ptr %0, ptr %2, align 4
  store i32 0, ptr %3, align 4
  %8 = load ptr, ptr %2, align 4
  store ptr %8, ptr %5, align 4
  %9 = getelementptr inbounds [300 x i8], ptr %6, i32 0, i32 0
  store i8 0, ptr %9, align 1
  br label %10

10:                                               ; preds = %66, %1
  %11 = load ptr, ptr %5, align 4
  %12 = call i32 @regex_search(ptr noundef @regex, ptr noundef %11, ptr noundef %4)
  store i32 %12, ptr %7, align 4
  %13 = load i32, ptr %7, align 4
  %14 = icmp slt i32 %13, 0
  br i1 %14, label %23, label %15

15:                                               ; preds = %10
  %16 = getelementptr inbounds [300 x i8], ptr %6, i32 0, i32 0
  %17 = call i32 @strlen(ptr noundef %16) #9
  %18 = load ptr, ptr %5, align 4
  %19 = call i32 @strlen(ptr noundef %18) #9
  %20 = add i32 %17, %19
  %21 = add i32 %20, 4
  %22 = icmp ugt i32 %21, 300
  br i1 %22, label %23, label %24

23:                                               ; preds = %15, %10
  br label %67

24:                                               ; preds = %15
  %25 = getelementptr inbounds [300 x i8], ptr %6, i32 0, i32 0
  %26 = load ptr, ptr %5, align 4
  %27 = load i32, ptr %4, align 4
  %28 = call ptr @strncat(ptr noundef %25, ptr noundef %26, i32 noundef %27) #9
  %29 = getelementptr inbounds [300 x i8], ptr %6, i32 0, i32 0
  %30 = call ptr @strcat(ptr noundef %29, ptr noundef @.str.5.11) #9
  %31 = getelementptr inbounds [300 x i8], ptr %6, i32 0, i32 0
  %32 = load ptr, ptr %5, align 4
  %33 = load i32, ptr %4, align 4
  %34 = getelementptr inbounds i8, ptr %32, i32 %33
  %35 = load i32, ptr %7, align 4
  %36 = call ptr @strncat(ptr noundef %31, ptr noundef %34, i32 noundef %35) #9
  %37 = getelementptr inbounds [300 x i8], ptr %6, i32 0, i32 0
  %38 = call ptr @strcat(ptr noundef %37, ptr noundef @.str.6.12) #9
  %39 = load i32, ptr %3, align 4
  %40 = add nsw i32 %39, 1
  store i32 %40, ptr %3, align 4
  %41 = load i32, ptr %4, align 4
  %42 = load i32, ptr %7, align 4
  %43 = add i32 %41, %42
  %44 = load ptr, ptr %5, align 4
  %45 = getelementptr inbounds i8, ptr %44, i32 %43
  store ptr %45, ptr %5, align 4
  %46 = load i32, ptr %7, align 4
  %47 = icmp eq i32 %46, 0
  br i1 %47, label %58, label %48

48:                                               ; preds = %24
  %49 = load ptr, ptr %5, align 4
  %50 = load i8, ptr %49, align 1
  %51 = sext i8 %50 to i32
  %52 = icmp eq i32 %51, 0
  br i1 %52, label %58, label %53

53:                                               ; preds = %48
  %54 = load ptr, ptr %2, align 4
  %55 = load i8, ptr %54, align 1
  %56 = sext i8 %55 to i32
  %57 = icmp eq i32 %56, 0
  br i1 %57, label %58, label %59

58:                                               ; preds = %53, %48, %24
  br label %67

59:                                               ; preds = %53
  %60 = load i32, ptr getelementptr inbounds (%struct.regex, ptr @regex, i32 0, i32 2), align 4
  %61 = getelementptr inbounds [400 x %struct.step], ptr @regex, i32 0, i32 %60
  %62 = getelementptr inbounds %struct.step, ptr %61, i32 0, i32 0
  %63 = load i32, ptr %62, align 4
  %64 = icmp eq i32 %63, 3
  br i1 %64, label %65, label %66

65:                                               ; preds = %59
  br label %67

66:                                               ; preds = %59
  br label %10

67:                                               ; preds = %65, %58, %23
  %68 = getelementptr inbounds [300 x i8], ptr %6, i32 0, i32 0
  %69 = load ptr, ptr %5, align 4
  %70 = call ptr @strcat(ptr noundef %68, ptr noundef %69) #9
  %71 = load i32, ptr %3, align 4
  %72 = icmp ne i32 %71, 0
  %73 = zext i1 %72 to i64
  %74 = select i1 %72, ptr @.str.8.13, ptr @.str.9.14
  %75 = getelementptr inbounds [300 x i8], ptr %6, i32 0, i32 0
  %76 = call i32 @__print_text(ptr getelementptr inbounds ([3 x { i8, i8, i8, i8, ptr, i32 }], ptr @__streams, i32 0, i32 1), ptr @.str.7.15, i32 2)
  %77 = call i32 @__print_string(ptr getelementptr inbounds ([3 x { i8, i8, i8, i8, ptr, i32 }], ptr @__streams, i32 0, i32 1), ptr %74, i32 0, i32 0, i32 -1)
  %78 = call i32 @__print_string(ptr getelementptr inbounds ([3 x { i8, i8, i8, i8, ptr, i32 }], ptr @__streams, i32 0, i32 1), ptr %75, i32 0, i32 0, i32 -1)
  %79 = call i32 @__print_text(ptr getelementptr inbounds ([3 x { i8, i8, i8, i8, ptr, i32 }], ptr @__streams, i32 0, i32 1), ptr getelementptr inbounds (i8, ptr @.str.7.15, i32 6), i32 1)
  %80 = add i32 %76, %77
  %81 = add i32 %80, %78
  %82 = add i32 %81, %79
  %83 = add i32 %82, 0
  %84 = load i32, ptr %3, align 4
  ret i32 %84
}

; Function Attrs: nounwind optsize uwtable
define internal i32 @__print_signed(ptr nocapture noundef %0, i64 noundef %1, i32 noundef %2, i32 noundef %3, i32 noundef %4) #1 {
  %6 = alloca [24 x i8], align 1
  call void @llvm.lifetime.start.p0(i64 24, ptr nonnull %6) #9
  %7 = getelementptr inbounds i8, ptr %6, i32 24
  %8 = icmp slt i64 %1, 0
  %9 = lshr i64 %1, 63
  %10 = icmp ne i64 %9, 0
  %11 = sub i64 0, %1
  %12 = select i1 %10, i64 %11, i64 %1
  %13 = icmp ult i64 %12, 4294967296
  br i1 %13, label %14, label %26

14:                                               ; preds = %5
  %15 = trunc nuw i64 %12 to i32
  %16 = icmp eq i32 %15, 0
  br i1 %16, label %38, label %17

17:                                               ; preds = %17, %14
  %18 = phi i32 [ %24, %17 ], [ %15, %14 ]
  %19 = phi ptr [ %23, %17 ], [ %7, %14 ]
  %20 = urem i32 %18, 10
  %21 = getelementptr inbounds i8, ptr @.str.9.16, i32 %20
  %22 = load i8, ptr %21, align 1, !tbaa !9
  %23 = getelementptr inbounds i8, ptr %19, i32 -1
  store i8 %22, ptr %23, align 1, !tbaa !9
  %24 = udiv i32 %18, 10
  %25 = icmp ult i32 %18, 10
  br i1 %25, label %38, label %17, !llvm.loop !13

26:                                               ; preds = %26, %5
  %27 = phi ptr [ %36, %26 ], [ %7, %5 ]
  %28 = phi i64 [ %30, %26 ], [ %12, %5 ]
  %29 = freeze i64 %28
  %30 = udiv i64 %29, 10
  %31 = mul i64 %30, 10
  %32 = sub i64 %29, %31
  %33 = trunc nuw nsw i64 %32 to i32
  %34 = getelementptr inbounds i8, ptr @.str.9.16, i32 %33
  %35 = load i8, ptr %34, align 1, !tbaa !9
  %36 = getelementptr inbounds i8, ptr %27, i32 -1
  store i8 %35, ptr %36, align 1, !tbaa !9
  %37 = icmp ult i64 %28, 10
  br i1 %37, label %38, label %26, !llvm.loop !14

38:                                               ; preds = %26, %17, %14
  %39 = phi ptr [ %7, %14 ], [ %23, %17 ], [ %36, %26 ]
  %40 = icmp eq i64 %1, 0
  %41 = icmp ne i32 %4, 0
  %42 = and i1 %40, %41
  br i1 %42, label %43, label %45

43:                                               ; preds = %38
  %44 = getelementptr inbounds i8, ptr %39, i32 -1
  store i8 48, ptr %44, align 1, !tbaa !9
  br label %46

45:                                               ; preds = %38
  br i1 %8, label %54, label %46

46:                                               ; preds = %45, %43
  %47 = phi ptr [ %44, %43 ], [ %39, %45 ]
  %48 = and i32 %2, 2
  %49 = icmp eq i32 %48, 0
  br i1 %49, label %50, label %54

50:                                               ; preds = %46
  %51 = and i32 %2, 4
  %52 = icmp eq i32 %51, 0
  %53 = select i1 %52, ptr @.str.10, ptr @.str.4.17
  br label %54

54:                                               ; preds = %50, %46, %45
  %55 = phi ptr [ %39, %45 ], [ %47, %50 ], [ %47, %46 ]
  %56 = phi ptr [ @.str.2.18, %45 ], [ %53, %50 ], [ @.str.3.19, %46 ]
  %57 = ptrtoint ptr %7 to i32
  %58 = ptrtoint ptr %55 to i32
  %59 = sub i32 %57, %58
  %60 = call fastcc i32 @number(ptr noundef %0, ptr noundef nonnull %56, ptr noundef nonnull %55, i32 noundef %59, i32 noundef %2, i32 noundef %3, i32 noundef %4) #8
  call void @llvm.lifetime.end.p0(i64 24, ptr nonnull %6) #9
  ret i32 %60
}

; Function Attrs: nounwind optsize uwtable
define internal noundef i32 @__print_text(ptr nocapture noundef %0, ptr nocapture noundef readonly %1, i32 noundef returned %2) #1 {
  %4 = load i8, ptr %0, align 4, !tbaa !15, !alias.scope !19, !noalias !22
  %5 = icmp eq i8 %4, 0
  %6 = icmp eq i32 %2, 0
  %7 = or i1 %6, %5
  br i1 %7, label %16, label %8

8:                                                ; preds = %8, %3
  %9 = phi i32 [ %14, %8 ], [ 0, %3 ]
  %10 = getelementptr inbounds i8, ptr %1, i32 %9
  %11 = load i8, ptr %10, align 1, !tbaa !9, !alias.scope !22, !noalias !19
  %12 = zext i8 %11 to i32
  %13 = tail call i32 @fputc(i32 noundef %12, ptr noundef nonnull %0) #8, !noalias !22
  %14 = add nuw i32 %9, 1
  %15 = icmp eq i32 %14, %2
  br i1 %15, label %16, label %8, !llvm.loop !24

16:                                               ; preds = %8, %3
  ret i32 %2
}

; Function Attrs: nounwind optsize uwtable
define internal range(i32 -1, 256) i32 @fputc(i32 noundef %0, ptr nocapture noundef %1) local_unnamed_addr #1 {
  %3 = load i8, ptr %1, align 4, !tbaa !15
  switch i8 %3, label %17 [
    i8 1, label %4
    i8 3, label %6
    i8 0, label %19
  ]

4:                                                ; preds = %2
  %5 = tail call i32 @putchar(i32 noundef %0) #10
  br label %17

6:                                                ; preds = %2
  %7 = getelementptr inbounds i8, ptr %1, i32 8
  %8 = load i32, ptr %7, align 4, !tbaa !25
  %9 = icmp eq i32 %8, 0
  br i1 %9, label %17, label %10

10:                                               ; preds = %6
  %11 = trunc i32 %0 to i8
  %12 = getelementptr inbounds i8, ptr %1, i32 4
  %13 = load ptr, ptr %12, align 4, !tbaa !26
  %14 = getelementptr inbounds i8, ptr %13, i32 1
  store ptr %14, ptr %12, align 4, !tbaa !26
  store i8 %11, ptr %13, align 1, !tbaa !9
  %15 = load i32, ptr %7, align 4, !tbaa !25
  %16 = add i32 %15, -1
  store i32 %16, ptr %7, align 4, !tbaa !25
  br label %17

17:                                               ; preds = %10, %6, %4, %2
  %18 = and i32 %0, 255
  br label %19

19:                                               ; preds = %17, %2
  %20 = phi i32 [ %18, %17 ], [ -1, %2 ]
  ret i32 %20
}

; Function Attrs: optsize
declare dso_local i32 @putchar(i32 noundef) local_unnamed_addr #3

; Function Attrs: nocallback nofree nosync nounwind willreturn memory(argmem: readwrite)
declare void @llvm.lifetime.start.p0(i64 immarg, ptr nocapture) #4

; Function Attrs: nounwind optsize uwtable
define internal fastcc i32 @number(ptr nocapture noundef %0, ptr noundef %1, ptr nocapture noundef readonly %2, i32 noundef %3, i32 noundef %4, i32 noundef %5, i32 noundef %6) unnamed_addr #1 {
  br label %8

8:                                                ; preds = %8, %7
  %9 = phi ptr [ %1, %7 ], [ %12, %8 ]
  %10 = load i8, ptr %9, align 1, !tbaa !9
  %11 = icmp eq i8 %10, 0
  %12 = getelementptr inbounds i8, ptr %9, i32 1
  br i1 %11, label %13, label %8, !llvm.loop !27

13:                                               ; preds = %8
  %14 = ptrtoint ptr %9 to i32
  %15 = ptrtoint ptr %1 to i32
  %16 = sub i32 %14, %15
  %17 = sub nsw i32 %6, %3
  %18 = lshr i32 %5, 31
  %19 = icmp ne i32 %18, 0
  %20 = sub i32 0, %5
  %21 = select i1 %19, i32 %20, i32 %5
  %22 = lshr i32 %5, 31
  %23 = tail call i32 @llvm.smax.i32(i32 %17, i32 0)
  %24 = icmp slt i32 %6, 0
  %25 = and i32 %4, 16
  %26 = icmp ne i32 %25, 0
  %27 = and i1 %26, %24
  %28 = and i32 %4, 1
  %29 = or i32 %22, %28
  %30 = icmp eq i32 %29, 0
  %31 = and i1 %27, %30
  %32 = add i32 %16, %3
  %33 = icmp sgt i32 %21, %32
  %34 = select i1 %31, i1 %33, i1 false
  %35 = sub i32 %21, %32
  %36 = select i1 %34, i32 %35, i32 %23
  %37 = add i32 %32, %36
  %38 = sub i32 %21, %37
  br i1 %30, label %39, label %48

39:                                               ; preds = %13
  %40 = icmp sgt i32 %38, 0
  br i1 %40, label %41, label %46

41:                                               ; preds = %41, %39
  %42 = phi i32 [ %44, %41 ], [ 0, %39 ]
  %43 = tail call i32 @fputc(i32 noundef 32, ptr noundef %0) #8
  %44 = add nuw nsw i32 %42, 1
  %45 = icmp eq i32 %44, %38
  br i1 %45, label %46, label %41, !llvm.loop !28

46:                                               ; preds = %41, %39
  %47 = tail call noundef i32 @llvm.smax.i32(i32 %38, i32 0)
  br label %48

48:                                               ; preds = %46, %13
  %49 = phi i32 [ 0, %13 ], [ %47, %46 ]
  %50 = load i8, ptr %0, align 4, !tbaa !15, !alias.scope !29, !noalias !32
  %51 = icmp eq i8 %50, 0
  %52 = icmp eq ptr %9, %1
  %53 = or i1 %52, %51
  br i1 %53, label %62, label %54

54:                                               ; preds = %54, %48
  %55 = phi i32 [ %60, %54 ], [ 0, %48 ]
  %56 = getelementptr inbounds i8, ptr %1, i32 %55
  %57 = load i8, ptr %56, align 1, !tbaa !9, !alias.scope !32, !noalias !29
  %58 = zext i8 %57 to i32
  %59 = tail call i32 @fputc(i32 noundef %58, ptr noundef nonnull %0) #8, !noalias !32
  %60 = add nuw i32 %55, 1
  %61 = icmp eq i32 %60, %16
  br i1 %61, label %62, label %54, !llvm.loop !24

62:                                               ; preds = %54, %48
  %63 = icmp sgt i32 %36, 0
  br i1 %63, label %64, label %69

64:                                               ; preds = %64, %62
  %65 = phi i32 [ %67, %64 ], [ 0, %62 ]
  %66 = tail call i32 @fputc(i32 noundef 48, ptr noundef nonnull %0) #8
  %67 = add nuw nsw i32 %65, 1
  %68 = icmp eq i32 %67, %36
  br i1 %68, label %69, label %64, !llvm.loop !28

69:                                               ; preds = %64, %62
  %70 = tail call noundef i32 @llvm.smax.i32(i32 %36, i32 0)
  %71 = load i8, ptr %0, align 4, !tbaa !15, !alias.scope !34, !noalias !37
  %72 = icmp eq i8 %71, 0
  %73 = icmp eq i32 %3, 0
  %74 = or i1 %73, %72
  br i1 %74, label %83, label %75

75:                                               ; preds = %75, %69
  %76 = phi i32 [ %81, %75 ], [ 0, %69 ]
  %77 = getelementptr inbounds i8, ptr %2, i32 %76
  %78 = load i8, ptr %77, align 1, !tbaa !9, !alias.scope !37, !noalias !34
  %79 = zext i8 %78 to i32
  %80 = tail call i32 @fputc(i32 noundef %79, ptr noundef nonnull %0) #8, !noalias !37
  %81 = add nuw i32 %76, 1
  %82 = icmp eq i32 %81, %3
  br i1 %82, label %83, label %75, !llvm.loop !24

83:                                               ; preds = %75, %69
  %84 = add i32 %32, %70
  %85 = add i32 %84, %49
  br i1 %30, label %96, label %86

86:                                               ; preds = %83
  %87 = icmp sgt i32 %38, 0
  br i1 %87, label %88, label %93

88:                                               ; preds = %88, %86
  %89 = phi i32 [ %91, %88 ], [ 0, %86 ]
  %90 = tail call i32 @fputc(i32 noundef 32, ptr noundef nonnull %0) #8
  %91 = add nuw nsw i32 %89, 1
  %92 = icmp eq i32 %91, %38
  br i1 %92, label %93, label %88, !llvm.loop !28

93:                                               ; preds = %88, %86
  %94 = tail call noundef i32 @llvm.smax.i32(i32 %38, i32 0)
  %95 = add nsw i32 %85, %94
  br label %96

96:                                               ; preds = %93, %83
  %97 = phi i32 [ %95, %93 ], [ %85, %83 ]
  ret i32 %97
}

; Function Attrs: nocallback nofree nosync nounwind willreturn memory(argmem: readwrite)
declare void @llvm.lifetime.end.p0(i64 immarg, ptr nocapture) #4

; Function Attrs: nocallback nofree nosync nounwind speculatable willreturn memory(none)
declare i32 @llvm.smax.i32(i32, i32) #5

; Function Attrs: noinline nounwind optnone uwtable
define internal i32 @regex_search(ptr noundef %0, ptr noundef %1, ptr noundef %2) #0 {
  %4 = alloca i32, align 4
  %5 = alloca ptr, align 4
  %6 = alloca ptr, align 4
  %7 = alloca ptr, align 4
  %8 = alloca i32, align 4
  %9 = alloca i32, align 4
  store ptr %0, ptr %5, align 4
  store ptr %1, ptr %6, align 4
  store ptr %2, ptr %7, align 4
  store i32 0, ptr %8, align 4
  br label %10

10:                                               ; preds = %30, %3
  %11 = load ptr, ptr %5, align 4
  %12 = load ptr, ptr %6, align 4
  %13 = load i32, ptr %8, align 4
  %14 = call i32 @match_at(ptr noundef %11, ptr noundef %12, i32 noundef %13)
  store i32 %14, ptr %9, align 4
  %15 = load i32, ptr %9, align 4
  %16 = icmp sge i32 %15, 0
  br i1 %16, label %17, label %21

17:                                               ; preds = %10
  %18 = load i32, ptr %8, align 4
  %19 = load ptr, ptr %7, align 4
  store i32 %18, ptr %19, align 4
  %20 = load i32, ptr %9, align 4
  store i32 %20, ptr %4, align 4
  br label %33

21:                                               ; preds = %10
  %22 = load ptr, ptr %6, align 4
  %23 = load i32, ptr %8, align 4
  %24 = getelementptr inbounds i8, ptr %22, i32 %23
  %25 = load i8, ptr %24, align 1
  %26 = sext i8 %25 to i32
  %27 = icmp eq i32 %26, 0
  br i1 %27, label %28, label %29

28:                                               ; preds = %21
  store i32 -1, ptr %4, align 4
  br label %33

29:                                               ; preds = %21
  br label %30

30:                                               ; preds = %29
  %31 = load i32, ptr %8, align 4
  %32 = add i32 %31, 1
  store i32 %32, ptr %8, align 4
  br label %10

33:                                               ; preds = %28, %17
  %34 = load i32, ptr %4, align 4
  ret i32 %34
}

; Function Attrs: nofree norecurse nosync nounwind optsize memory(read, inaccessiblemem: none) uwtable
define internal noundef i32 @strlen(ptr noundef %0) #2 {
  br label %2

2:                                                ; preds = %2, %1
  %3 = phi ptr [ %0, %1 ], [ %6, %2 ]
  %4 = load i8, ptr %3, align 1, !tbaa !9
  %5 = icmp eq i8 %4, 0
  %6 = getelementptr inbounds i8, ptr %3, i32 1
  br i1 %5, label %7, label %2, !llvm.loop !27

7:                                                ; preds = %2
  %8 = ptrtoint ptr %3 to i32
  %9 = ptrtoint ptr %0 to i32
  %10 = sub i32 %8, %9
  ret i32 %10
}

; Function Attrs: nofree norecurse nosync nounwind optsize uwtable
define internal noundef ptr @strncat(ptr noalias noundef returned %0, ptr noalias nocapture noundef readonly %1, i32 noundef %2) #6 {
  br label %4

4:                                                ; preds = %4, %3
  %5 = phi ptr [ %0, %3 ], [ %8, %4 ]
  %6 = load i8, ptr %5, align 1, !tbaa !9
  %7 = icmp eq i8 %6, 0
  %8 = getelementptr inbounds i8, ptr %5, i32 1
  br i1 %7, label %9, label %4, !llvm.loop !27

9:                                                ; preds = %4
  %10 = ptrtoint ptr %5 to i32
  %11 = ptrtoint ptr %0 to i32
  %12 = sub i32 %10, %11
  %13 = getelementptr inbounds i8, ptr %0, i32 %12
  %14 = icmp eq i32 %2, 0
  br i1 %14, label %36, label %15

15:                                               ; preds = %20, %9
  %16 = phi i32 [ %21, %20 ], [ 0, %9 ]
  %17 = getelementptr inbounds i8, ptr %1, i32 %16
  %18 = load i8, ptr %17, align 1, !tbaa !9
  %19 = icmp eq i8 %18, 0
  br i1 %19, label %23, label %20

20:                                               ; preds = %15
  %21 = add nuw i32 %16, 1
  %22 = icmp eq i32 %21, %2
  br i1 %22, label %25, label %15, !llvm.loop !39

23:                                               ; preds = %15
  %24 = icmp eq i32 %16, 0
  br i1 %24, label %36, label %25

25:                                               ; preds = %23, %20
  %26 = phi i32 [ %16, %23 ], [ %2, %20 ]
  br label %27

27:                                               ; preds = %27, %25
  %28 = phi ptr [ %32, %27 ], [ %1, %25 ]
  %29 = phi ptr [ %34, %27 ], [ %13, %25 ]
  %30 = phi i32 [ %31, %27 ], [ %26, %25 ]
  %31 = add i32 %30, -1
  %32 = getelementptr inbounds i8, ptr %28, i32 1
  %33 = load i8, ptr %28, align 1, !tbaa !9, !alias.scope !40, !noalias !43
  %34 = getelementptr inbounds i8, ptr %29, i32 1
  store i8 %33, ptr %29, align 1, !tbaa !9, !alias.scope !43, !noalias !40
  %35 = icmp eq i32 %31, 0
  br i1 %35, label %36, label %27, !llvm.loop !45

36:                                               ; preds = %27, %23, %9
  %37 = phi i32 [ 0, %23 ], [ 0, %9 ], [ %26, %27 ]
  %38 = getelementptr inbounds i8, ptr %13, i32 %37
  store i8 0, ptr %38, align 1, !tbaa !9
  ret ptr %0
}

; Function Attrs: nofree norecurse nosync nounwind optsize uwtable
define internal noundef ptr @strcat(ptr noalias noundef returned %0, ptr noalias nocapture noundef readonly %1) #6 {
  br label %3

3:                                                ; preds = %3, %2
  %4 = phi ptr [ %0, %2 ], [ %7, %3 ]
  %5 = load i8, ptr %4, align 1, !tbaa !9
  %6 = icmp eq i8 %5, 0
  %7 = getelementptr inbounds i8, ptr %4, i32 1
  br i1 %6, label %8, label %3, !llvm.loop !27

8:                                                ; preds = %3
  %9 = ptrtoint ptr %4 to i32
  %10 = ptrtoint ptr %0 to i32
  %11 = sub i32 %9, %10
  %12 = getelementptr inbounds i8, ptr %0, i32 %11
  %13 = load i8, ptr %1, align 1, !tbaa !9, !alias.scope !46, !noalias !49
  store i8 %13, ptr %12, align 1, !tbaa !9, !alias.scope !49, !noalias !46
  %14 = icmp eq i8 %13, 0
  br i1 %14, label %22, label %15

15:                                               ; preds = %15, %8
  %16 = phi ptr [ %18, %15 ], [ %1, %8 ]
  %17 = phi ptr [ %19, %15 ], [ %12, %8 ]
  %18 = getelementptr inbounds i8, ptr %16, i32 1
  %19 = getelementptr inbounds i8, ptr %17, i32 1
  %20 = load i8, ptr %18, align 1, !tbaa !9, !alias.scope !46, !noalias !49
  store i8 %20, ptr %19, align 1, !tbaa !9, !alias.scope !49, !noalias !46
  %21 = icmp eq i8 %20, 0
  br i1 %21, label %22, label %15, !llvm.loop !51

22:                                               ; preds = %15, %8
  ret ptr %0
}

; Function Attrs: nounwind optsize uwtable
define internal i32 @__print_string(ptr nocapture noundef %0, ptr noundef %1, i32 noundef %2, i32 noundef %3, i32 noundef %4) #1 {
  %6 = icmp eq ptr %1, null
  %7 = icmp ult i32 %4, 6
  %8 = select i1 %7, ptr @.str.10, ptr @.str.1.11
  %9 = select i1 %6, ptr %8, ptr %1
  %10 = icmp slt i32 %4, 0
  br i1 %10, label %11, label %20

11:                                               ; preds = %11, %5
  %12 = phi ptr [ %15, %11 ], [ %9, %5 ]
  %13 = load i8, ptr %12, align 1, !tbaa !9
  %14 = icmp eq i8 %13, 0
  %15 = getelementptr inbounds i8, ptr %12, i32 1
  br i1 %14, label %16, label %11, !llvm.loop !27

16:                                               ; preds = %11
  %17 = ptrtoint ptr %12 to i32
  %18 = ptrtoint ptr %9 to i32
  %19 = sub i32 %17, %18
  br label %30

20:                                               ; preds = %5
  %21 = icmp eq i32 %4, 0
  br i1 %21, label %30, label %22

22:                                               ; preds = %27, %20
  %23 = phi i32 [ %28, %27 ], [ 0, %20 ]
  %24 = getelementptr inbounds i8, ptr %9, i32 %23
  %25 = load i8, ptr %24, align 1, !tbaa !9
  %26 = icmp eq i8 %25, 0
  br i1 %26, label %30, label %27

27:                                               ; preds = %22
  %28 = add nuw nsw i32 %23, 1
  %29 = icmp eq i32 %28, %4
  br i1 %29, label %30, label %22, !llvm.loop !39

30:                                               ; preds = %27, %22, %20, %16
  %31 = phi i32 [ %19, %16 ], [ 0, %20 ], [ %23, %22 ], [ %4, %27 ]
  %32 = tail call fastcc i32 @padded(ptr noundef %0, ptr noundef nonnull %9, i32 noundef %31, i32 noundef %2, i32 noundef %3) #8
  ret i32 %32
}

; Function Attrs: nounwind optsize uwtable
define internal fastcc i32 @padded(ptr nocapture noundef %0, ptr nocapture noundef readonly %1, i32 noundef %2, i32 noundef %3, i32 noundef %4) unnamed_addr #1 {
  %6 = icmp slt i32 %4, 0
  %7 = lshr i32 %4, 31
  %8 = icmp ne i32 %7, 0
  %9 = sub i32 0, %4
  %10 = select i1 %8, i32 %9, i32 %4
  %11 = sub nsw i32 %10, %2
  %12 = and i32 %3, 1
  %13 = icmp ne i32 %12, 0
  %14 = or i1 %6, %13
  br i1 %14, label %24, label %15

15:                                               ; preds = %5
  %16 = icmp sgt i32 %11, 0
  br i1 %16, label %17, label %22

17:                                               ; preds = %17, %15
  %18 = phi i32 [ %20, %17 ], [ 0, %15 ]
  %19 = tail call i32 @fputc(i32 noundef 32, ptr noundef %0) #8
  %20 = add nuw nsw i32 %18, 1
  %21 = icmp eq i32 %20, %11
  br i1 %21, label %22, label %17, !llvm.loop !28

22:                                               ; preds = %17, %15
  %23 = tail call noundef i32 @llvm.smax.i32(i32 %11, i32 0)
  br label %24

24:                                               ; preds = %22, %5
  %25 = phi i32 [ %23, %22 ], [ 0, %5 ]
  %26 = load i8, ptr %0, align 4, !tbaa !15, !alias.scope !52, !noalias !55
  %27 = icmp eq i8 %26, 0
  %28 = icmp eq i32 %2, 0
  %29 = or i1 %28, %27
  br i1 %29, label %38, label %30

30:                                               ; preds = %30, %24
  %31 = phi i32 [ %36, %30 ], [ 0, %24 ]
  %32 = getelementptr inbounds i8, ptr %1, i32 %31
  %33 = load i8, ptr %32, align 1, !tbaa !9, !alias.scope !55, !noalias !52
  %34 = zext i8 %33 to i32
  %35 = tail call i32 @fputc(i32 noundef %34, ptr noundef nonnull %0) #8, !noalias !55
  %36 = add nuw i32 %31, 1
  %37 = icmp eq i32 %36, %2
  br i1 %37, label %38, label %30, !llvm.loop !24

38:                                               ; preds = %30, %24
  br i1 %14, label %39, label %48

39:                                               ; preds = %38
  %40 = icmp sgt i32 %11, 0
  br i1 %40, label %41, label %46

41:                                               ; preds = %41, %39
  %42 = phi i32 [ %44, %41 ], [ 0, %39 ]
  %43 = tail call i32 @fputc(i32 noundef 32, ptr noundef nonnull %0) #8
  %44 = add nuw nsw i32 %42, 1
  %45 = icmp eq i32 %44, %11
  br i1 %45, label %46, label %41, !llvm.loop !28

46:                                               ; preds = %41, %39
  %47 = tail call noundef i32 @llvm.smax.i32(i32 %11, i32 0)
  br label %48

48:                                               ; preds = %46, %38
  %49 = phi i32 [ %47, %46 ], [ 0, %38 ]
  %50 = add nsw i32 %25, %2
  %51 = add nsw i32 %50, %49
  ret i32 %51
}

; Function Attrs: noinline nounwind optnone uwtable
define internal i32 @match_at(ptr noundef %0, ptr noundef %1, i32 noundef %2) #0 {
  %4 = alloca ptr, align 4
  %5 = alloca ptr, align 4
  %6 = alloca i32, align 4
  %7 = alloca ptr, align 4
  %8 = alloca ptr, align 4
  %9 = alloca i32, align 4
  %10 = alloca i32, align 4
  %11 = alloca i8, align 1
  %12 = alloca i32, align 4
  %13 = alloca ptr, align 4
  %14 = alloca ptr, align 4
  store ptr %0, ptr %4, align 4
  store ptr %1, ptr %5, align 4
  store i32 %2, ptr %6, align 4
  store ptr @match_at.states, ptr %7, align 4
  store ptr getelementptr inbounds ([2 x %struct.states], ptr @match_at.states, i32 0, i32 1), ptr %8, align 4
  store i32 -1, ptr %9, align 4
  %15 = load ptr, ptr %7, align 4
  call void @clear(ptr noundef %15)
  %16 = load ptr, ptr %7, align 4
  %17 = load ptr, ptr %4, align 4
  %18 = load ptr, ptr %4, align 4
  %19 = getelementptr inbounds %struct.regex, ptr %18, i32 0, i32 2
  %20 = load i32, ptr %19, align 4
  %21 = load i32, ptr %6, align 4
  %22 = icmp eq i32 %21, 0
  %23 = zext i1 %22 to i32
  %24 = load ptr, ptr %5, align 4
  %25 = load i32, ptr %6, align 4
  %26 = getelementptr inbounds i8, ptr %24, i32 %25
  %27 = load i8, ptr %26, align 1
  %28 = sext i8 %27 to i32
  %29 = icmp eq i32 %28, 0
  %30 = zext i1 %29 to i32
  call void @enter(ptr noundef %16, ptr noundef %17, i32 noundef %20, i32 noundef %23, i32 noundef %30)
  store i32 0, ptr %10, align 4
  br label %31

31:                                               ; preds = %101, %3
  %32 = load ptr, ptr %7, align 4
  %33 = getelementptr inbounds %struct.states, ptr %32, i32 0, i32 3
  %34 = load i32, ptr %33, align 4
  %35 = icmp ne i32 %34, 0
  br i1 %35, label %36, label %38

36:                                               ; preds = %31
  %37 = load i32, ptr %10, align 4
  store i32 %37, ptr %9, align 4
  br label %38

38:                                               ; preds = %36, %31
  %39 = load ptr, ptr %5, align 4
  %40 = load i32, ptr %6, align 4
  %41 = load i32, ptr %10, align 4
  %42 = add i32 %40, %41
  %43 = getelementptr inbounds i8, ptr %39, i32 %42
  %44 = load i8, ptr %43, align 1
  store i8 %44, ptr %11, align 1
  %45 = load ptr, ptr %7, align 4
  %46 = getelementptr inbounds %struct.states, ptr %45, i32 0, i32 2
  %47 = load i32, ptr %46, align 4
  %48 = icmp eq i32 %47, 0
  br i1 %48, label %53, label %49

49:                                               ; preds = %38
  %50 = load i8, ptr %11, align 1
  %51 = zext i8 %50 to i32
  %52 = icmp eq i32 %51, 0
  br i1 %52, label %53, label %55

53:                                               ; preds = %49, %38
  %54 = load i32, ptr %9, align 4
  ret i32 %54

55:                                               ; preds = %49
  %56 = load ptr, ptr %8, align 4
  call void @clear(ptr noundef %56)
  store i32 0, ptr %12, align 4
  br label %57

57:                                               ; preds = %94, %55
  %58 = load i32, ptr %12, align 4
  %59 = load ptr, ptr %7, align 4
  %60 = getelementptr inbounds %struct.states, ptr %59, i32 0, i32 2
  %61 = load i32, ptr %60, align 4
  %62 = icmp slt i32 %58, %61
  br i1 %62, label %63, label %97

63:                                               ; preds = %57
  %64 = load ptr, ptr %4, align 4
  %65 = getelementptr inbounds %struct.regex, ptr %64, i32 0, i32 0
  %66 = load ptr, ptr %7, align 4
  %67 = getelementptr inbounds %struct.states, ptr %66, i32 0, i32 0
  %68 = load i32, ptr %12, align 4
  %69 = getelementptr inbounds [400 x i32], ptr %67, i32 0, i32 %68
  %70 = load i32, ptr %69, align 4
  %71 = getelementptr inbounds [400 x %struct.step], ptr %65, i32 0, i32 %70
  store ptr %71, ptr %13, align 4
  %72 = load ptr, ptr %4, align 4
  %73 = load ptr, ptr %13, align 4
  %74 = load i8, ptr %11, align 1
  %75 = call i32 @takes(ptr noundef %72, ptr noundef %73, i8 noundef zeroext %74)
  %76 = icmp ne i32 %75, 0
  br i1 %76, label %77, label %93

77:                                               ; preds = %63
  %78 = load ptr, ptr %8, align 4
  %79 = load ptr, ptr %4, align 4
  %80 = load ptr, ptr %13, align 4
  %81 = getelementptr inbounds %struct.step, ptr %80, i32 0, i32 2
  %82 = load i32, ptr %81, align 4
  %83 = load ptr, ptr %5, align 4
  %84 = load i32, ptr %6, align 4
  %85 = load i32, ptr %10, align 4
  %86 = add i32 %84, %85
  %87 = add i32 %86, 1
  %88 = getelementptr inbounds i8, ptr %83, i32 %87
  %89 = load i8, ptr %88, align 1
  %90 = sext i8 %89 to i32
  %91 = icmp eq i32 %90, 0
  %92 = zext i1 %91 to i32
  call void @enter(ptr noundef %78, ptr noundef %79, i32 noundef %82, i32 noundef 0, i32 noundef %92)
  br label %93

93:                                               ; preds = %77, %63
  br label %94

94:                                               ; preds = %93
  %95 = load i32, ptr %12, align 4
  %96 = add nsw i32 %95, 1
  store i32 %96, ptr %12, align 4
  br label %57, !llvm.loop !57

97:                                               ; preds = %57
  %98 = load ptr, ptr %7, align 4
  store ptr %98, ptr %14, align 4
  %99 = load ptr, ptr %8, align 4
  store ptr %99, ptr %7, align 4
  %100 = load ptr, ptr %14, align 4
  store ptr %100, ptr %8, align 4
  br label %101

101:                                              ; preds = %97
  %102 = load i32, ptr %10, align 4
  %103 = add i32 %102, 1
  store i32 %103, ptr %10, align 4
  br label %31
}

; Function Attrs: noinline nounwind optnone uwtable
define internal void @clear(ptr noundef %0) #0 {
  %2 = alloca ptr, align 4
  store ptr %0, ptr %2, align 4
  %3 = load ptr, ptr %2, align 4
  %4 = getelementptr inbounds %struct.states, ptr %3, i32 0, i32 1
  %5 = getelementptr inbounds [400 x i8], ptr %4, i32 0, i32 0
  call void @llvm.memset.p0.i32(ptr align 4 %5, i8 0, i32 400, i1 false)
  %6 = load ptr, ptr %2, align 4
  %7 = getelementptr inbounds %struct.states, ptr %6, i32 0, i32 3
  store i32 0, ptr %7, align 4
  %8 = load ptr, ptr %2, align 4
  %9 = getelementptr inbounds %struct.states, ptr %8, i32 0, i32 2
  store i32 0, ptr %9, align 4
  ret void
}

; Function Attrs: noinline nounwind optnone uwtable
define internal void @enter(ptr noundef %0, ptr noundef %1, i32 noundef %2, i32 noundef %3, i32 noundef %4) #0 {
  %6 = alloca ptr, align 4
  %7 = alloca ptr, align 4
  %8 = alloca i32, align 4
  %9 = alloca i32, align 4
  %10 = alloca i32, align 4
  %11 = alloca ptr, align 4
  store ptr %0, ptr %6, align 4
  store ptr %1, ptr %7, align 4
  store i32 %2, ptr %8, align 4
  store i32 %3, ptr %9, align 4
  store i32 %4, ptr %10, align 4
  br label %12

12:                                               ; preds = %64, %56, %48, %37, %5
  %13 = load i32, ptr %8, align 4
  %14 = icmp sge i32 %13, 0
  br i1 %14, label %15, label %23

15:                                               ; preds = %12
  %16 = load ptr, ptr %6, align 4
  %17 = getelementptr inbounds %struct.states, ptr %16, i32 0, i32 1
  %18 = load i32, ptr %8, align 4
  %19 = getelementptr inbounds [400 x i8], ptr %17, i32 0, i32 %18
  %20 = load i8, ptr %19, align 1
  %21 = icmp ne i8 %20, 0
  %22 = xor i1 %21, true
  br label %23

23:                                               ; preds = %15, %12
  %24 = phi i1 [ false, %12 ], [ %22, %15 ]
  br i1 %24, label %25, label %80

25:                                               ; preds = %23
  %26 = load ptr, ptr %7, align 4
  %27 = getelementptr inbounds %struct.regex, ptr %26, i32 0, i32 0
  %28 = load i32, ptr %8, align 4
  %29 = getelementptr inbounds [400 x %struct.step], ptr %27, i32 0, i32 %28
  store ptr %29, ptr %11, align 4
  %30 = load ptr, ptr %6, align 4
  %31 = getelementptr inbounds %struct.states, ptr %30, i32 0, i32 1
  %32 = load i32, ptr %8, align 4
  %33 = getelementptr inbounds [400 x i8], ptr %31, i32 0, i32 %32
  store i8 1, ptr %33, align 1
  %34 = load ptr, ptr %11, align 4
  %35 = getelementptr inbounds %struct.step, ptr %34, i32 0, i32 0
  %36 = load i32, ptr %35, align 4
  switch i32 %36, label %71 [
    i32 5, label %37
    i32 6, label %48
    i32 3, label %52
    i32 4, label %60
    i32 7, label %68
  ]

37:                                               ; preds = %25
  %38 = load ptr, ptr %6, align 4
  %39 = load ptr, ptr %7, align 4
  %40 = load ptr, ptr %11, align 4
  %41 = getelementptr inbounds %struct.step, ptr %40, i32 0, i32 2
  %42 = load i32, ptr %41, align 4
  %43 = load i32, ptr %9, align 4
  %44 = load i32, ptr %10, align 4
  call void @enter(ptr noundef %38, ptr noundef %39, i32 noundef %42, i32 noundef %43, i32 noundef %44)
  %45 = load ptr, ptr %11, align 4
  %46 = getelementptr inbounds %struct.step, ptr %45, i32 0, i32 3
  %47 = load i32, ptr %46, align 4
  store i32 %47, ptr %8, align 4
  br label %12, !llvm.loop !58

48:                                               ; preds = %25
  %49 = load ptr, ptr %11, align 4
  %50 = getelementptr inbounds %struct.step, ptr %49, i32 0, i32 2
  %51 = load i32, ptr %50, align 4
  store i32 %51, ptr %8, align 4
  br label %12, !llvm.loop !58

52:                                               ; preds = %25
  %53 = load i32, ptr %9, align 4
  %54 = icmp ne i32 %53, 0
  br i1 %54, label %56, label %55

55:                                               ; preds = %52
  br label %80

56:                                               ; preds = %52
  %57 = load ptr, ptr %11, align 4
  %58 = getelementptr inbounds %struct.step, ptr %57, i32 0, i32 2
  %59 = load i32, ptr %58, align 4
  store i32 %59, ptr %8, align 4
  br label %12, !llvm.loop !58

60:                                               ; preds = %25
  %61 = load i32, ptr %10, align 4
  %62 = icmp ne i32 %61, 0
  br i1 %62, label %64, label %63

63:                                               ; preds = %60
  br label %80

64:                                               ; preds = %60
  %65 = load ptr, ptr %11, align 4
  %66 = getelementptr inbounds %struct.step, ptr %65, i32 0, i32 2
  %67 = load i32, ptr %66, align 4
  store i32 %67, ptr %8, align 4
  br label %12, !llvm.loop !58

68:                                               ; preds = %25
  %69 = load ptr, ptr %6, align 4
  %70 = getelementptr inbounds %struct.states, ptr %69, i32 0, i32 3
  store i32 1, ptr %70, align 4
  br label %80

71:                                               ; preds = %25
  %72 = load i32, ptr %8, align 4
  %73 = load ptr, ptr %6, align 4
  %74 = getelementptr inbounds %struct.states, ptr %73, i32 0, i32 0
  %75 = load ptr, ptr %6, align 4
  %76 = getelementptr inbounds %struct.states, ptr %75, i32 0, i32 2
  %77 = load i32, ptr %76, align 4
  %78 = add nsw i32 %77, 1
  store i32 %78, ptr %76, align 4
  %79 = getelementptr inbounds [400 x i32], ptr %74, i32 0, i32 %77
  store i32 %72, ptr %79, align 4
  br label %80

80:                                               ; preds = %71, %68, %63, %55, %23
  ret void
}

; Function Attrs: noinline nounwind optnone uwtable
define internal i32 @takes(ptr noundef %0, ptr noundef %1, i8 noundef zeroext %2) #0 {
  %4 = alloca i32, align 4
  %5 = alloca ptr, align 4
  %6 = alloca ptr, align 4
  %7 = alloca i8, align 1
  store ptr %0, ptr %5, align 4
  store ptr %1, ptr %6, align 4
  store i8 %2, ptr %7, align 1
  %8 = load ptr, ptr %6, align 4
  %9 = getelementptr inbounds %struct.step, ptr %8, i32 0, i32 0
  %10 = load i32, ptr %9, align 4
  switch i32 %10, label %44 [
    i32 0, label %11
    i32 1, label %21
    i32 2, label %26
  ]

11:                                               ; preds = %3
  %12 = load ptr, ptr %6, align 4
  %13 = getelementptr inbounds %struct.step, ptr %12, i32 0, i32 1
  %14 = load i32, ptr %13, align 4
  %15 = trunc i32 %14 to i8
  %16 = zext i8 %15 to i32
  %17 = load i8, ptr %7, align 1
  %18 = zext i8 %17 to i32
  %19 = icmp eq i32 %16, %18
  %20 = zext i1 %19 to i32
  store i32 %20, ptr %4, align 4
  br label %45

21:                                               ; preds = %3
  %22 = load i8, ptr %7, align 1
  %23 = zext i8 %22 to i32
  %24 = icmp ne i32 %23, 10
  %25 = zext i1 %24 to i32
  store i32 %25, ptr %4, align 4
  br label %45

26:                                               ; preds = %3
  %27 = load ptr, ptr %5, align 4
  %28 = getelementptr inbounds %struct.regex, ptr %27, i32 0, i32 3
  %29 = load ptr, ptr %6, align 4
  %30 = getelementptr inbounds %struct.step, ptr %29, i32 0, i32 1
  %31 = load i32, ptr %30, align 4
  %32 = getelementptr inbounds [24 x [32 x i8]], ptr %28, i32 0, i32 %31
  %33 = load i8, ptr %7, align 1
  %34 = zext i8 %33 to i32
  %35 = sdiv i32 %34, 8
  %36 = getelementptr inbounds [32 x i8], ptr %32, i32 0, i32 %35
  %37 = load i8, ptr %36, align 1
  %38 = zext i8 %37 to i32
  %39 = load i8, ptr %7, align 1
  %40 = zext i8 %39 to i32
  %41 = srem i32 %40, 8
  %42 = ashr i32 %38, %41
  %43 = and i32 %42, 1
  store i32 %43, ptr %4, align 4
  br label %45

44:                                               ; preds = %3
  store i32 0, ptr %4, align 4
  br label %45

45:                                               ; preds = %44, %26, %21, %11
  %46 = load i32, ptr %4, align 4
  ret i32 %46
}

; Function Attrs: nocallback nofree nounwind willreturn memory(argmem: write)
declare void @llvm.memset.p0.i32(ptr nocapture writeonly, i8, i32, i1 immarg) #7

; Function Attrs: noinline nounwind optnone uwtable
define internal i32 @regex_compile(ptr noundef %0, ptr noundef %1) #0 {
  %3 = alloca i32, align 4
  %4 = alloca ptr, align 4
  %5 = alloca ptr, align 4
  %6 = alloca %struct.reader, align 4
  %7 = alloca %struct.part, align 4
  store ptr %0, ptr %4, align 4
  store ptr %1, ptr %5, align 4
  %8 = getelementptr inbounds %struct.reader, ptr %6, i32 0, i32 0
  %9 = load ptr, ptr %4, align 4
  store ptr %9, ptr %8, align 4
  %10 = getelementptr inbounds %struct.reader, ptr %6, i32 0, i32 1
  %11 = load ptr, ptr %5, align 4
  store ptr %11, ptr %10, align 4
  %12 = getelementptr inbounds %struct.reader, ptr %6, i32 0, i32 2
  %13 = load ptr, ptr %5, align 4
  store ptr %13, ptr %12, align 4
  %14 = load ptr, ptr %4, align 4
  call void @llvm.memset.p0.i32(ptr align 4 %14, i8 0, i32 7188, i1 false)
  call void @alternatives(ptr noundef %6, ptr noundef %7)
  %15 = load ptr, ptr %4, align 4
  %16 = getelementptr inbounds %struct.regex, ptr %15, i32 0, i32 5
  %17 = load ptr, ptr %16, align 4
  %18 = icmp ne ptr %17, null
  br i1 %18, label %26, label %19

19:                                               ; preds = %2
  %20 = getelementptr inbounds %struct.reader, ptr %6, i32 0, i32 2
  %21 = load ptr, ptr %20, align 4
  %22 = load i8, ptr %21, align 1
  %23 = sext i8 %22 to i32
  %24 = icmp eq i32 %23, 41
  br i1 %24, label %25, label %26

25:                                               ; preds = %19
  call void @fail(ptr noundef %6, ptr noundef @.str)
  br label %26

26:                                               ; preds = %25, %19, %2
  %27 = load ptr, ptr %4, align 4
  %28 = getelementptr inbounds %struct.regex, ptr %27, i32 0, i32 5
  %29 = load ptr, ptr %28, align 4
  %30 = icmp ne ptr %29, null
  br i1 %30, label %31, label %32

31:                                               ; preds = %26
  store i32 0, ptr %3, align 4
  br label %49

32:                                               ; preds = %26
  %33 = getelementptr inbounds %struct.part, ptr %7, i32 0, i32 0
  %34 = load i32, ptr %33, align 4
  %35 = load ptr, ptr %4, align 4
  %36 = getelementptr inbounds %struct.regex, ptr %35, i32 0, i32 2
  store i32 %34, ptr %36, align 4
  %37 = call i32 @add(ptr noundef %6, i32 noundef 7, i32 noundef 0)
  %38 = load ptr, ptr %4, align 4
  %39 = getelementptr inbounds %struct.regex, ptr %38, i32 0, i32 0
  %40 = getelementptr inbounds %struct.part, ptr %7, i32 0, i32 1
  %41 = load i32, ptr %40, align 4
  %42 = getelementptr inbounds [400 x %struct.step], ptr %39, i32 0, i32 %41
  %43 = getelementptr inbounds %struct.step, ptr %42, i32 0, i32 2
  store i32 %37, ptr %43, align 4
  %44 = load ptr, ptr %4, align 4
  %45 = getelementptr inbounds %struct.regex, ptr %44, i32 0, i32 5
  %46 = load ptr, ptr %45, align 4
  %47 = icmp eq ptr %46, null
  %48 = zext i1 %47 to i32
  store i32 %48, ptr %3, align 4
  br label %49

49:                                               ; preds = %32, %31
  %50 = load i32, ptr %3, align 4
  ret i32 %50
}

; Function Attrs: nounwind optsize uwtable
define internal i32 @__print_unsigned(ptr nocapture noundef %0, i64 noundef %1, i32 noundef %2, i32 noundef %3, i32 noundef %4, i32 noundef %5) #1 {
  %7 = alloca [24 x i8], align 1
  call void @llvm.lifetime.start.p0(i64 24, ptr nonnull %7) #9
  %8 = and i32 %3, 32
  %9 = icmp eq i32 %8, 0
  %10 = select i1 %9, ptr @.str.9.16, ptr @.str.8.22
  %11 = icmp ult i64 %1, 4294967296
  br i1 %11, label %14, label %12

12:                                               ; preds = %6
  %13 = zext i32 %2 to i64
  br label %27

14:                                               ; preds = %6
  %15 = trunc nuw i64 %1 to i32
  %16 = icmp eq i32 %15, 0
  br i1 %16, label %40, label %17

17:                                               ; preds = %17, %14
  %18 = phi i32 [ %25, %17 ], [ %15, %14 ]
  %19 = phi i32 [ %23, %17 ], [ 24, %14 ]
  %20 = urem i32 %18, %2
  %21 = getelementptr inbounds i8, ptr %10, i32 %20
  %22 = load i8, ptr %21, align 1, !tbaa !9
  %23 = add nsw i32 %19, -1
  %24 = getelementptr inbounds i8, ptr %7, i32 %23
  store i8 %22, ptr %24, align 1, !tbaa !9
  %25 = udiv i32 %18, %2
  %26 = icmp ult i32 %18, %2
  br i1 %26, label %40, label %17, !llvm.loop !13

27:                                               ; preds = %27, %12
  %28 = phi i32 [ 24, %12 ], [ %37, %27 ]
  %29 = phi i64 [ %1, %12 ], [ %31, %27 ]
  %30 = freeze i64 %29
  %31 = udiv i64 %30, %13
  %32 = mul i64 %31, %13
  %33 = sub i64 %30, %32
  %34 = trunc nuw i64 %33 to i32
  %35 = getelementptr inbounds i8, ptr %10, i32 %34
  %36 = load i8, ptr %35, align 1, !tbaa !9
  %37 = add nsw i32 %28, -1
  %38 = getelementptr inbounds i8, ptr %7, i32 %37
  store i8 %36, ptr %38, align 1, !tbaa !9
  %39 = icmp ult i64 %29, %13
  br i1 %39, label %40, label %27, !llvm.loop !14

40:                                               ; preds = %27, %17, %14
  %41 = phi i32 [ 24, %14 ], [ %23, %17 ], [ %37, %27 ]
  %42 = icmp eq i64 %1, 0
  %43 = icmp ne i32 %5, 0
  %44 = and i1 %42, %43
  br i1 %44, label %45, label %48

45:                                               ; preds = %40
  %46 = add nsw i32 %41, -1
  %47 = getelementptr inbounds i8, ptr %7, i32 %46
  store i8 48, ptr %47, align 1, !tbaa !9
  br label %48

48:                                               ; preds = %45, %40
  %49 = phi i32 [ %46, %45 ], [ %41, %40 ]
  %50 = getelementptr inbounds i8, ptr %7, i32 %49
  %51 = and i32 %3, 8
  %52 = icmp ne i32 %51, 0
  %53 = icmp eq i32 %2, 8
  %54 = and i1 %53, %52
  %55 = sub nsw i32 24, %49
  %56 = icmp sge i32 %55, %5
  %57 = select i1 %54, i1 %56, i1 false
  br i1 %57, label %58, label %65

58:                                               ; preds = %48
  %59 = icmp eq i32 %49, 24
  br i1 %59, label %63, label %60

60:                                               ; preds = %58
  %61 = load i8, ptr %50, align 1, !tbaa !9
  %62 = icmp eq i8 %61, 48
  br i1 %62, label %65, label %63

63:                                               ; preds = %60, %58
  %64 = getelementptr inbounds i8, ptr %50, i32 -1
  store i8 48, ptr %64, align 1, !tbaa !9
  br label %65

65:                                               ; preds = %63, %60, %48
  %66 = phi ptr [ %64, %63 ], [ %50, %60 ], [ %50, %48 ]
  %67 = getelementptr inbounds i8, ptr %7, i32 24
  %68 = ptrtoint ptr %67 to i32
  %69 = icmp eq i32 %2, 16
  %70 = icmp ne i64 %1, 0
  %71 = and i1 %70, %69
  %72 = and i1 %71, %52
  %73 = select i1 %9, ptr @.str.6.23, ptr @.str.5.24
  %74 = select i1 %72, ptr %73, ptr @.str.10
  %75 = ptrtoint ptr %66 to i32
  %76 = sub i32 %68, %75
  %77 = call fastcc i32 @number(ptr noundef %0, ptr noundef nonnull %74, ptr noundef nonnull %66, i32 noundef %76, i32 noundef %3, i32 noundef %4, i32 noundef %5) #8
  call void @llvm.lifetime.end.p0(i64 24, ptr nonnull %7) #9
  ret i32 %77
}

; Function Attrs: noinline nounwind optnone uwtable
define internal void @alternatives(ptr noundef %0, ptr noundef %1) #0 {
  %3 = alloca ptr, align 4
  %4 = alloca ptr, align 4
  %5 = alloca %struct.part, align 4
  %6 = alloca i32, align 4
  %7 = alloca i32, align 4
  %8 = alloca ptr, align 4
  store ptr %0, ptr %3, align 4
  store ptr %1, ptr %4, align 4
  %9 = load ptr, ptr %3, align 4
  %10 = load ptr, ptr %4, align 4
  call void @sequence(ptr noundef %9, ptr noundef %10)
  br label %11

11:                                               ; preds = %27, %2
  %12 = load ptr, ptr %3, align 4
  %13 = getelementptr inbounds %struct.reader, ptr %12, i32 0, i32 0
  %14 = load ptr, ptr %13, align 4
  %15 = getelementptr inbounds %struct.regex, ptr %14, i32 0, i32 5
  %16 = load ptr, ptr %15, align 4
  %17 = icmp ne ptr %16, null
  br i1 %17, label %25, label %18

18:                                               ; preds = %11
  %19 = load ptr, ptr %3, align 4
  %20 = getelementptr inbounds %struct.reader, ptr %19, i32 0, i32 2
  %21 = load ptr, ptr %20, align 4
  %22 = load i8, ptr %21, align 1
  %23 = sext i8 %22 to i32
  %24 = icmp eq i32 %23, 124
  br label %25

25:                                               ; preds = %18, %11
  %26 = phi i1 [ false, %11 ], [ %24, %18 ]
  br i1 %26, label %27, label %73

27:                                               ; preds = %25
  %28 = load ptr, ptr %3, align 4
  %29 = getelementptr inbounds %struct.reader, ptr %28, i32 0, i32 2
  %30 = load ptr, ptr %29, align 4
  %31 = getelementptr inbounds i8, ptr %30, i32 1
  store ptr %31, ptr %29, align 4
  %32 = load ptr, ptr %3, align 4
  call void @sequence(ptr noundef %32, ptr noundef %5)
  %33 = load ptr, ptr %3, align 4
  %34 = call i32 @add(ptr noundef %33, i32 noundef 5, i32 noundef 0)
  store i32 %34, ptr %6, align 4
  %35 = load ptr, ptr %3, align 4
  %36 = call i32 @add(ptr noundef %35, i32 noundef 6, i32 noundef 0)
  store i32 %36, ptr %7, align 4
  %37 = load ptr, ptr %3, align 4
  %38 = getelementptr inbounds %struct.reader, ptr %37, i32 0, i32 0
  %39 = load ptr, ptr %38, align 4
  %40 = getelementptr inbounds %struct.regex, ptr %39, i32 0, i32 0
  %41 = getelementptr inbounds [400 x %struct.step], ptr %40, i32 0, i32 0
  store ptr %41, ptr %8, align 4
  %42 = load ptr, ptr %4, align 4
  %43 = getelementptr inbounds %struct.part, ptr %42, i32 0, i32 0
  %44 = load i32, ptr %43, align 4
  %45 = load ptr, ptr %8, align 4
  %46 = load i32, ptr %6, align 4
  %47 = getelementptr inbounds %struct.step, ptr %45, i32 %46
  %48 = getelementptr inbounds %struct.step, ptr %47, i32 0, i32 2
  store i32 %44, ptr %48, align 4
  %49 = getelementptr inbounds %struct.part, ptr %5, i32 0, i32 0
  %50 = load i32, ptr %49, align 4
  %51 = load ptr, ptr %8, align 4
  %52 = load i32, ptr %6, align 4
  %53 = getelementptr inbounds %struct.step, ptr %51, i32 %52
  %54 = getelementptr inbounds %struct.step, ptr %53, i32 0, i32 3
  store i32 %50, ptr %54, align 4
  %55 = load i32, ptr %7, align 4
  %56 = load ptr, ptr %8, align 4
  %57 = getelementptr inbounds %struct.part, ptr %5, i32 0, i32 1
  %58 = load i32, ptr %57, align 4
  %59 = getelementptr inbounds %struct.step, ptr %56, i32 %58
  %60 = getelementptr inbounds %struct.step, ptr %59, i32 0, i32 2
  store i32 %55, ptr %60, align 4
  %61 = load ptr, ptr %8, align 4
  %62 = load ptr, ptr %4, align 4
  %63 = getelementptr inbounds %struct.part, ptr %62, i32 0, i32 1
  %64 = load i32, ptr %63, align 4
  %65 = getelementptr inbounds %struct.step, ptr %61, i32 %64
  %66 = getelementptr inbounds %struct.step, ptr %65, i32 0, i32 2
  store i32 %55, ptr %66, align 4
  %67 = load i32, ptr %6, align 4
  %68 = load ptr, ptr %4, align 4
  %69 = getelementptr inbounds %struct.part, ptr %68, i32 0, i32 0
  store i32 %67, ptr %69, align 4
  %70 = load i32, ptr %7, align 4
  %71 = load ptr, ptr %4, align 4
  %72 = getelementptr inbounds %struct.part, ptr %71, i32 0, i32 1
  store i32 %70, ptr %72, align 4
  br label %11, !llvm.loop !59

73:                                               ; preds = %25
  ret void
}

; Function Attrs: noinline nounwind optnone uwtable
define internal void @fail(ptr noundef %0, ptr noundef %1) #0 {
  %3 = alloca ptr, align 4
  %4 = alloca ptr, align 4
  store ptr %0, ptr %3, align 4
  store ptr %1, ptr %4, align 4
  %5 = load ptr, ptr %3, align 4
  %6 = getelementptr inbounds %struct.reader, ptr %5, i32 0, i32 0
  %7 = load ptr, ptr %6, align 4
  %8 = getelementptr inbounds %struct.regex, ptr %7, i32 0, i32 5
  %9 = load ptr, ptr %8, align 4
  %10 = icmp ne ptr %9, null
  br i1 %10, label %30, label %11

11:                                               ; preds = %2
  %12 = load ptr, ptr %4, align 4
  %13 = load ptr, ptr %3, align 4
  %14 = getelementptr inbounds %struct.reader, ptr %13, i32 0, i32 0
  %15 = load ptr, ptr %14, align 4
  %16 = getelementptr inbounds %struct.regex, ptr %15, i32 0, i32 5
  store ptr %12, ptr %16, align 4
  %17 = load ptr, ptr %3, align 4
  %18 = getelementptr inbounds %struct.reader, ptr %17, i32 0, i32 2
  %19 = load ptr, ptr %18, align 4
  %20 = load ptr, ptr %3, align 4
  %21 = getelementptr inbounds %struct.reader, ptr %20, i32 0, i32 1
  %22 = load ptr, ptr %21, align 4
  %23 = ptrtoint ptr %19 to i32
  %24 = ptrtoint ptr %22 to i32
  %25 = sub i32 %23, %24
  %26 = load ptr, ptr %3, align 4
  %27 = getelementptr inbounds %struct.reader, ptr %26, i32 0, i32 0
  %28 = load ptr, ptr %27, align 4
  %29 = getelementptr inbounds %struct.regex, ptr %28, i32 0, i32 6
  store i32 %25, ptr %29, align 4
  br label %30

30:                                               ; preds = %11, %2
  ret void
}

; Function Attrs: noinline nounwind optnone uwtable
define internal i32 @add(ptr noundef %0, i32 noundef %1, i32 noundef %2) #0 {
  %4 = alloca i32, align 4
  %5 = alloca ptr, align 4
  %6 = alloca i32, align 4
  %7 = alloca i32, align 4
  %8 = alloca ptr, align 4
  store ptr %0, ptr %5, align 4
  store i32 %1, ptr %6, align 4
  store i32 %2, ptr %7, align 4
  %9 = load ptr, ptr %5, align 4
  %10 = getelementptr inbounds %struct.reader, ptr %9, i32 0, i32 0
  %11 = load ptr, ptr %10, align 4
  %12 = getelementptr inbounds %struct.regex, ptr %11, i32 0, i32 1
  %13 = load i32, ptr %12, align 4
  %14 = icmp eq i32 %13, 400
  br i1 %14, label %15, label %17

15:                                               ; preds = %3
  %16 = load ptr, ptr %5, align 4
  call void @fail(ptr noundef %16, ptr noundef @.str.8)
  store i32 0, ptr %4, align 4
  br label %44

17:                                               ; preds = %3
  %18 = load ptr, ptr %5, align 4
  %19 = getelementptr inbounds %struct.reader, ptr %18, i32 0, i32 0
  %20 = load ptr, ptr %19, align 4
  %21 = getelementptr inbounds %struct.regex, ptr %20, i32 0, i32 0
  %22 = load ptr, ptr %5, align 4
  %23 = getelementptr inbounds %struct.reader, ptr %22, i32 0, i32 0
  %24 = load ptr, ptr %23, align 4
  %25 = getelementptr inbounds %struct.regex, ptr %24, i32 0, i32 1
  %26 = load i32, ptr %25, align 4
  %27 = getelementptr inbounds [400 x %struct.step], ptr %21, i32 0, i32 %26
  store ptr %27, ptr %8, align 4
  %28 = load i32, ptr %6, align 4
  %29 = load ptr, ptr %8, align 4
  %30 = getelementptr inbounds %struct.step, ptr %29, i32 0, i32 0
  store i32 %28, ptr %30, align 4
  %31 = load i32, ptr %7, align 4
  %32 = load ptr, ptr %8, align 4
  %33 = getelementptr inbounds %struct.step, ptr %32, i32 0, i32 1
  store i32 %31, ptr %33, align 4
  %34 = load ptr, ptr %8, align 4
  %35 = getelementptr inbounds %struct.step, ptr %34, i32 0, i32 3
  store i32 -1, ptr %35, align 4
  %36 = load ptr, ptr %8, align 4
  %37 = getelementptr inbounds %struct.step, ptr %36, i32 0, i32 2
  store i32 -1, ptr %37, align 4
  %38 = load ptr, ptr %5, align 4
  %39 = getelementptr inbounds %struct.reader, ptr %38, i32 0, i32 0
  %40 = load ptr, ptr %39, align 4
  %41 = getelementptr inbounds %struct.regex, ptr %40, i32 0, i32 1
  %42 = load i32, ptr %41, align 4
  %43 = add nsw i32 %42, 1
  store i32 %43, ptr %41, align 4
  store i32 %42, ptr %4, align 4
  br label %44

44:                                               ; preds = %17, %15
  %45 = load i32, ptr %4, align 4
  ret i32 %45
}

; Function Attrs: noinline nounwind optnone uwtable
define internal void @sequence(ptr noundef %0, ptr noundef %1) #0 {
  %3 = alloca ptr, align 4
  %4 = alloca ptr, align 4
  %5 = alloca %struct.part, align 4
  store ptr %0, ptr %3, align 4
  store ptr %1, ptr %4, align 4
  %6 = load ptr, ptr %3, align 4
  %7 = call i32 @add(ptr noundef %6, i32 noundef 6, i32 noundef 0)
  %8 = load ptr, ptr %4, align 4
  %9 = getelementptr inbounds %struct.part, ptr %8, i32 0, i32 1
  store i32 %7, ptr %9, align 4
  %10 = load ptr, ptr %4, align 4
  %11 = getelementptr inbounds %struct.part, ptr %10, i32 0, i32 0
  store i32 %7, ptr %11, align 4
  br label %12

12:                                               ; preds = %42, %2
  %13 = load ptr, ptr %3, align 4
  %14 = getelementptr inbounds %struct.reader, ptr %13, i32 0, i32 0
  %15 = load ptr, ptr %14, align 4
  %16 = getelementptr inbounds %struct.regex, ptr %15, i32 0, i32 5
  %17 = load ptr, ptr %16, align 4
  %18 = icmp ne ptr %17, null
  br i1 %18, label %40, label %19

19:                                               ; preds = %12
  %20 = load ptr, ptr %3, align 4
  %21 = getelementptr inbounds %struct.reader, ptr %20, i32 0, i32 2
  %22 = load ptr, ptr %21, align 4
  %23 = load i8, ptr %22, align 1
  %24 = sext i8 %23 to i32
  %25 = icmp ne i32 %24, 0
  br i1 %25, label %26, label %40

26:                                               ; preds = %19
  %27 = load ptr, ptr %3, align 4
  %28 = getelementptr inbounds %struct.reader, ptr %27, i32 0, i32 2
  %29 = load ptr, ptr %28, align 4
  %30 = load i8, ptr %29, align 1
  %31 = sext i8 %30 to i32
  %32 = icmp ne i32 %31, 124
  br i1 %32, label %33, label %40

33:                                               ; preds = %26
  %34 = load ptr, ptr %3, align 4
  %35 = getelementptr inbounds %struct.reader, ptr %34, i32 0, i32 2
  %36 = load ptr, ptr %35, align 4
  %37 = load i8, ptr %36, align 1
  %38 = sext i8 %37 to i32
  %39 = icmp ne i32 %38, 41
  br label %40

40:                                               ; preds = %33, %26, %19, %12
  %41 = phi i1 [ false, %26 ], [ false, %19 ], [ false, %12 ], [ %39, %33 ]
  br i1 %41, label %42, label %59

42:                                               ; preds = %40
  call void @llvm.memset.p0.i32(ptr align 4 %5, i8 0, i32 8, i1 false)
  %43 = load ptr, ptr %3, align 4
  call void @repeated(ptr noundef %43, ptr noundef %5)
  %44 = getelementptr inbounds %struct.part, ptr %5, i32 0, i32 0
  %45 = load i32, ptr %44, align 4
  %46 = load ptr, ptr %3, align 4
  %47 = getelementptr inbounds %struct.reader, ptr %46, i32 0, i32 0
  %48 = load ptr, ptr %47, align 4
  %49 = getelementptr inbounds %struct.regex, ptr %48, i32 0, i32 0
  %50 = load ptr, ptr %4, align 4
  %51 = getelementptr inbounds %struct.part, ptr %50, i32 0, i32 1
  %52 = load i32, ptr %51, align 4
  %53 = getelementptr inbounds [400 x %struct.step], ptr %49, i32 0, i32 %52
  %54 = getelementptr inbounds %struct.step, ptr %53, i32 0, i32 2
  store i32 %45, ptr %54, align 4
  %55 = getelementptr inbounds %struct.part, ptr %5, i32 0, i32 1
  %56 = load i32, ptr %55, align 4
  %57 = load ptr, ptr %4, align 4
  %58 = getelementptr inbounds %struct.part, ptr %57, i32 0, i32 1
  store i32 %56, ptr %58, align 4
  br label %12, !llvm.loop !60

59:                                               ; preds = %40
  ret void
}

; Function Attrs: noinline nounwind optnone uwtable
define internal void @repeated(ptr noundef %0, ptr noundef %1) #0 {
  %3 = alloca ptr, align 4
  %4 = alloca ptr, align 4
  %5 = alloca i8, align 1
  %6 = alloca i32, align 4
  %7 = alloca i32, align 4
  %8 = alloca ptr, align 4
  store ptr %0, ptr %3, align 4
  store ptr %1, ptr %4, align 4
  %9 = load ptr, ptr %3, align 4
  %10 = load ptr, ptr %4, align 4
  call void @atom(ptr noundef %9, ptr noundef %10)
  br label %11

11:                                               ; preds = %86, %2
  %12 = load ptr, ptr %3, align 4
  %13 = getelementptr inbounds %struct.reader, ptr %12, i32 0, i32 0
  %14 = load ptr, ptr %13, align 4
  %15 = getelementptr inbounds %struct.regex, ptr %14, i32 0, i32 5
  %16 = load ptr, ptr %15, align 4
  %17 = icmp ne ptr %16, null
  br i1 %17, label %33, label %18

18:                                               ; preds = %11
  %19 = load ptr, ptr %3, align 4
  %20 = getelementptr inbounds %struct.reader, ptr %19, i32 0, i32 2
  %21 = load ptr, ptr %20, align 4
  %22 = load i8, ptr %21, align 1
  %23 = sext i8 %22 to i32
  %24 = icmp ne i32 %23, 0
  br i1 %24, label %25, label %33

25:                                               ; preds = %18
  %26 = load ptr, ptr %3, align 4
  %27 = getelementptr inbounds %struct.reader, ptr %26, i32 0, i32 2
  %28 = load ptr, ptr %27, align 4
  %29 = load i8, ptr %28, align 1
  %30 = sext i8 %29 to i32
  %31 = call ptr @strchr(ptr noundef @.str.1, i32 noundef %30) #9
  %32 = icmp ne ptr %31, null
  br label %33

33:                                               ; preds = %25, %18, %11
  %34 = phi i1 [ false, %18 ], [ false, %11 ], [ %32, %25 ]
  br i1 %34, label %35, label %93

35:                                               ; preds = %33
  %36 = load ptr, ptr %3, align 4
  %37 = getelementptr inbounds %struct.reader, ptr %36, i32 0, i32 2
  %38 = load ptr, ptr %37, align 4
  %39 = getelementptr inbounds i8, ptr %38, i32 1
  store ptr %39, ptr %37, align 4
  %40 = load i8, ptr %38, align 1
  store i8 %40, ptr %5, align 1
  %41 = load ptr, ptr %3, align 4
  %42 = call i32 @add(ptr noundef %41, i32 noundef 5, i32 noundef 0)
  store i32 %42, ptr %6, align 4
  %43 = load ptr, ptr %3, align 4
  %44 = call i32 @add(ptr noundef %43, i32 noundef 6, i32 noundef 0)
  store i32 %44, ptr %7, align 4
  %45 = load ptr, ptr %3, align 4
  %46 = getelementptr inbounds %struct.reader, ptr %45, i32 0, i32 0
  %47 = load ptr, ptr %46, align 4
  %48 = getelementptr inbounds %struct.regex, ptr %47, i32 0, i32 0
  %49 = getelementptr inbounds [400 x %struct.step], ptr %48, i32 0, i32 0
  store ptr %49, ptr %8, align 4
  %50 = load ptr, ptr %4, align 4
  %51 = getelementptr inbounds %struct.part, ptr %50, i32 0, i32 0
  %52 = load i32, ptr %51, align 4
  %53 = load ptr, ptr %8, align 4
  %54 = load i32, ptr %6, align 4
  %55 = getelementptr inbounds %struct.step, ptr %53, i32 %54
  %56 = getelementptr inbounds %struct.step, ptr %55, i32 0, i32 2
  store i32 %52, ptr %56, align 4
  %57 = load i32, ptr %7, align 4
  %58 = load ptr, ptr %8, align 4
  %59 = load i32, ptr %6, align 4
  %60 = getelementptr inbounds %struct.step, ptr %58, i32 %59
  %61 = getelementptr inbounds %struct.step, ptr %60, i32 0, i32 3
  store i32 %57, ptr %61, align 4
  %62 = load i8, ptr %5, align 1
  %63 = sext i8 %62 to i32
  %64 = icmp eq i32 %63, 63
  br i1 %64, label %65, label %67

65:                                               ; preds = %35
  %66 = load i32, ptr %7, align 4
  br label %69

67:                                               ; preds = %35
  %68 = load i32, ptr %6, align 4
  br label %69

69:                                               ; preds = %67, %65
  %70 = phi i32 [ %66, %65 ], [ %68, %67 ]
  %71 = load ptr, ptr %8, align 4
  %72 = load ptr, ptr %4, align 4
  %73 = getelementptr inbounds %struct.part, ptr %72, i32 0, i32 1
  %74 = load i32, ptr %73, align 4
  %75 = getelementptr inbounds %struct.step, ptr %71, i32 %74
  %76 = getelementptr inbounds %struct.step, ptr %75, i32 0, i32 2
  store i32 %70, ptr %76, align 4
  %77 = load i8, ptr %5, align 1
  %78 = sext i8 %77 to i32
  %79 = icmp eq i32 %78, 43
  br i1 %79, label %80, label %84

80:                                               ; preds = %69
  %81 = load ptr, ptr %4, align 4
  %82 = getelementptr inbounds %struct.part, ptr %81, i32 0, i32 0
  %83 = load i32, ptr %82, align 4
  br label %86

84:                                               ; preds = %69
  %85 = load i32, ptr %6, align 4
  br label %86

86:                                               ; preds = %84, %80
  %87 = phi i32 [ %83, %80 ], [ %85, %84 ]
  %88 = load ptr, ptr %4, align 4
  %89 = getelementptr inbounds %struct.part, ptr %88, i32 0, i32 0
  store i32 %87, ptr %89, align 4
  %90 = load i32, ptr %7, align 4
  %91 = load ptr, ptr %4, align 4
  %92 = getelementptr inbounds %struct.part, ptr %91, i32 0, i32 1
  store i32 %90, ptr %92, align 4
  br label %11, !llvm.loop !61

93:                                               ; preds = %33
  ret void
}

; Function Attrs: noinline nounwind optnone uwtable
define internal void @atom(ptr noundef %0, ptr noundef %1) #0 {
  %3 = alloca ptr, align 4
  %4 = alloca ptr, align 4
  %5 = alloca i8, align 1
  store ptr %0, ptr %3, align 4
  store ptr %1, ptr %4, align 4
  %6 = load ptr, ptr %3, align 4
  %7 = getelementptr inbounds %struct.reader, ptr %6, i32 0, i32 2
  %8 = load ptr, ptr %7, align 4
  %9 = getelementptr inbounds i8, ptr %8, i32 1
  store ptr %9, ptr %7, align 4
  %10 = load i8, ptr %8, align 1
  store i8 %10, ptr %5, align 1
  %11 = load i8, ptr %5, align 1
  %12 = sext i8 %11 to i32
  switch i32 %12, label %65 [
    i32 40, label %13
    i32 91, label %30
    i32 46, label %33
    i32 94, label %36
    i32 36, label %39
    i32 42, label %42
    i32 43, label %42
    i32 63, label %42
    i32 92, label %48
  ]

13:                                               ; preds = %2
  %14 = load ptr, ptr %3, align 4
  %15 = load ptr, ptr %4, align 4
  call void @alternatives(ptr noundef %14, ptr noundef %15)
  %16 = load ptr, ptr %3, align 4
  %17 = getelementptr inbounds %struct.reader, ptr %16, i32 0, i32 2
  %18 = load ptr, ptr %17, align 4
  %19 = load i8, ptr %18, align 1
  %20 = sext i8 %19 to i32
  %21 = icmp ne i32 %20, 41
  br i1 %21, label %22, label %24

22:                                               ; preds = %13
  %23 = load ptr, ptr %3, align 4
  call void @fail(ptr noundef %23, ptr noundef @.str.2)
  br label %29

24:                                               ; preds = %13
  %25 = load ptr, ptr %3, align 4
  %26 = getelementptr inbounds %struct.reader, ptr %25, i32 0, i32 2
  %27 = load ptr, ptr %26, align 4
  %28 = getelementptr inbounds i8, ptr %27, i32 1
  store ptr %28, ptr %26, align 4
  br label %29

29:                                               ; preds = %24, %22
  br label %70

30:                                               ; preds = %2
  %31 = load ptr, ptr %3, align 4
  %32 = load ptr, ptr %4, align 4
  call void @class(ptr noundef %31, ptr noundef %32)
  br label %70

33:                                               ; preds = %2
  %34 = load ptr, ptr %3, align 4
  %35 = load ptr, ptr %4, align 4
  call void @single(ptr noundef %34, ptr noundef %35, i32 noundef 1, i32 noundef 0)
  br label %70

36:                                               ; preds = %2
  %37 = load ptr, ptr %3, align 4
  %38 = load ptr, ptr %4, align 4
  call void @single(ptr noundef %37, ptr noundef %38, i32 noundef 3, i32 noundef 0)
  br label %70

39:                                               ; preds = %2
  %40 = load ptr, ptr %3, align 4
  %41 = load ptr, ptr %4, align 4
  call void @single(ptr noundef %40, ptr noundef %41, i32 noundef 4, i32 noundef 0)
  br label %70

42:                                               ; preds = %2, %2, %2
  %43 = load ptr, ptr %3, align 4
  %44 = getelementptr inbounds %struct.reader, ptr %43, i32 0, i32 2
  %45 = load ptr, ptr %44, align 4
  %46 = getelementptr inbounds i8, ptr %45, i32 -1
  store ptr %46, ptr %44, align 4
  %47 = load ptr, ptr %3, align 4
  call void @fail(ptr noundef %47, ptr noundef @.str.3)
  br label %70

48:                                               ; preds = %2
  %49 = load ptr, ptr %3, align 4
  %50 = getelementptr inbounds %struct.reader, ptr %49, i32 0, i32 2
  %51 = load ptr, ptr %50, align 4
  %52 = load i8, ptr %51, align 1
  %53 = icmp ne i8 %52, 0
  br i1 %53, label %56, label %54

54:                                               ; preds = %48
  %55 = load ptr, ptr %3, align 4
  call void @fail(ptr noundef %55, ptr noundef @.str.4)
  br label %70

56:                                               ; preds = %48
  %57 = load ptr, ptr %3, align 4
  %58 = load ptr, ptr %4, align 4
  %59 = load ptr, ptr %3, align 4
  %60 = getelementptr inbounds %struct.reader, ptr %59, i32 0, i32 2
  %61 = load ptr, ptr %60, align 4
  %62 = getelementptr inbounds i8, ptr %61, i32 1
  store ptr %62, ptr %60, align 4
  %63 = load i8, ptr %61, align 1
  %64 = sext i8 %63 to i32
  call void @single(ptr noundef %57, ptr noundef %58, i32 noundef 0, i32 noundef %64)
  br label %70

65:                                               ; preds = %2
  %66 = load ptr, ptr %3, align 4
  %67 = load ptr, ptr %4, align 4
  %68 = load i8, ptr %5, align 1
  %69 = sext i8 %68 to i32
  call void @single(ptr noundef %66, ptr noundef %67, i32 noundef 0, i32 noundef %69)
  br label %70

70:                                               ; preds = %65, %56, %54, %42, %39, %36, %33, %30, %29
  ret void
}

; Function Attrs: nofree norecurse nosync nounwind optsize memory(read, inaccessiblemem: none) uwtable
define internal ptr @strchr(ptr noundef readonly %0, i32 noundef %1) #2 {
  %3 = load i8, ptr %0, align 1, !tbaa !9
  %4 = icmp eq i8 %3, 0
  %5 = shl i32 %1, 24
  %6 = ashr exact i32 %5, 24
  br i1 %4, label %20, label %7

7:                                                ; preds = %12, %2
  %8 = phi i8 [ %14, %12 ], [ %3, %2 ]
  %9 = phi ptr [ %13, %12 ], [ %0, %2 ]
  %10 = sext i8 %8 to i32
  %11 = icmp eq i32 %6, %10
  br i1 %11, label %16, label %12

12:                                               ; preds = %7
  %13 = getelementptr inbounds i8, ptr %9, i32 1
  %14 = load i8, ptr %13, align 1, !tbaa !9
  %15 = icmp eq i8 %14, 0
  br i1 %15, label %16, label %7, !llvm.loop !62

16:                                               ; preds = %12, %7
  %17 = phi i8 [ 0, %12 ], [ %8, %7 ]
  %18 = phi ptr [ %13, %12 ], [ %9, %7 ]
  %19 = sext i8 %17 to i32
  br label %20

20:                                               ; preds = %16, %2
  %21 = phi i32 [ %19, %16 ], [ 0, %2 ]
  %22 = phi ptr [ %18, %16 ], [ %0, %2 ]
  %23 = icmp eq i32 %6, %21
  %24 = select i1 %23, ptr %22, ptr null
  ret ptr %24
}

; Function Attrs: noinline nounwind optnone uwtable
define internal void @class(ptr noundef %0, ptr noundef %1) #0 {
  %3 = alloca ptr, align 4
  %4 = alloca ptr, align 4
  %5 = alloca i32, align 4
  %6 = alloca i32, align 4
  %7 = alloca i32, align 4
  %8 = alloca ptr, align 4
  %9 = alloca i8, align 1
  %10 = alloca i8, align 1
  %11 = alloca i32, align 4
  %12 = alloca i32, align 4
  store ptr %0, ptr %3, align 4
  store ptr %1, ptr %4, align 4
  store i32 0, ptr %5, align 4
  %13 = load ptr, ptr %3, align 4
  %14 = getelementptr inbounds %struct.reader, ptr %13, i32 0, i32 0
  %15 = load ptr, ptr %14, align 4
  %16 = getelementptr inbounds %struct.regex, ptr %15, i32 0, i32 4
  %17 = load i32, ptr %16, align 4
  store i32 %17, ptr %6, align 4
  store i32 1, ptr %7, align 4
  %18 = load i32, ptr %6, align 4
  %19 = icmp eq i32 %18, 24
  br i1 %19, label %20, label %22

20:                                               ; preds = %2
  %21 = load ptr, ptr %3, align 4
  call void @fail(ptr noundef %21, ptr noundef @.str.5)
  br label %172

22:                                               ; preds = %2
  %23 = load ptr, ptr %3, align 4
  %24 = getelementptr inbounds %struct.reader, ptr %23, i32 0, i32 0
  %25 = load ptr, ptr %24, align 4
  %26 = getelementptr inbounds %struct.regex, ptr %25, i32 0, i32 3
  %27 = load ptr, ptr %3, align 4
  %28 = getelementptr inbounds %struct.reader, ptr %27, i32 0, i32 0
  %29 = load ptr, ptr %28, align 4
  %30 = getelementptr inbounds %struct.regex, ptr %29, i32 0, i32 4
  %31 = load i32, ptr %30, align 4
  %32 = add nsw i32 %31, 1
  store i32 %32, ptr %30, align 4
  %33 = getelementptr inbounds [24 x [32 x i8]], ptr %26, i32 0, i32 %31
  %34 = getelementptr inbounds [32 x i8], ptr %33, i32 0, i32 0
  store ptr %34, ptr %8, align 4
  %35 = load ptr, ptr %8, align 4
  call void @llvm.memset.p0.i32(ptr align 1 %35, i8 0, i32 32, i1 false)
  %36 = load ptr, ptr %3, align 4
  %37 = getelementptr inbounds %struct.reader, ptr %36, i32 0, i32 2
  %38 = load ptr, ptr %37, align 4
  %39 = load i8, ptr %38, align 1
  %40 = sext i8 %39 to i32
  %41 = icmp eq i32 %40, 94
  br i1 %41, label %42, label %47

42:                                               ; preds = %22
  store i32 1, ptr %5, align 4
  %43 = load ptr, ptr %3, align 4
  %44 = getelementptr inbounds %struct.reader, ptr %43, i32 0, i32 2
  %45 = load ptr, ptr %44, align 4
  %46 = getelementptr inbounds i8, ptr %45, i32 1
  store ptr %46, ptr %44, align 4
  br label %47

47:                                               ; preds = %42, %22
  br label %48

48:                                               ; preds = %131, %47
  %49 = load ptr, ptr %3, align 4
  %50 = getelementptr inbounds %struct.reader, ptr %49, i32 0, i32 2
  %51 = load ptr, ptr %50, align 4
  %52 = load i8, ptr %51, align 1
  %53 = sext i8 %52 to i32
  %54 = icmp ne i32 %53, 0
  br i1 %54, label %55, label %67

55:                                               ; preds = %48
  %56 = load ptr, ptr %3, align 4
  %57 = getelementptr inbounds %struct.reader, ptr %56, i32 0, i32 2
  %58 = load ptr, ptr %57, align 4
  %59 = load i8, ptr %58, align 1
  %60 = sext i8 %59 to i32
  %61 = icmp ne i32 %60, 93
  br i1 %61, label %65, label %62

62:                                               ; preds = %55
  %63 = load i32, ptr %7, align 4
  %64 = icmp ne i32 %63, 0
  br label %65

65:                                               ; preds = %62, %55
  %66 = phi i1 [ true, %55 ], [ %64, %62 ]
  br label %67

67:                                               ; preds = %65, %48
  %68 = phi i1 [ false, %48 ], [ %66, %65 ]
  br i1 %68, label %69, label %132

69:                                               ; preds = %67
  %70 = load ptr, ptr %3, align 4
  %71 = getelementptr inbounds %struct.reader, ptr %70, i32 0, i32 2
  %72 = load ptr, ptr %71, align 4
  %73 = getelementptr inbounds i8, ptr %72, i32 1
  store ptr %73, ptr %71, align 4
  %74 = load i8, ptr %72, align 1
  store i8 %74, ptr %9, align 1
  %75 = load i8, ptr %9, align 1
  store i8 %75, ptr %10, align 1
  store i32 0, ptr %7, align 4
  %76 = load ptr, ptr %3, align 4
  %77 = getelementptr inbounds %struct.reader, ptr %76, i32 0, i32 2
  %78 = load ptr, ptr %77, align 4
  %79 = getelementptr inbounds i8, ptr %78, i32 0
  %80 = load i8, ptr %79, align 1
  %81 = sext i8 %80 to i32
  %82 = icmp eq i32 %81, 45
  br i1 %82, label %83, label %109

83:                                               ; preds = %69
  %84 = load ptr, ptr %3, align 4
  %85 = getelementptr inbounds %struct.reader, ptr %84, i32 0, i32 2
  %86 = load ptr, ptr %85, align 4
  %87 = getelementptr inbounds i8, ptr %86, i32 1
  %88 = load i8, ptr %87, align 1
  %89 = sext i8 %88 to i32
  %90 = icmp ne i32 %89, 0
  br i1 %90, label %91, label %109

91:                                               ; preds = %83
  %92 = load ptr, ptr %3, align 4
  %93 = getelementptr inbounds %struct.reader, ptr %92, i32 0, i32 2
  %94 = load ptr, ptr %93, align 4
  %95 = getelementptr inbounds i8, ptr %94, i32 1
  %96 = load i8, ptr %95, align 1
  %97 = sext i8 %96 to i32
  %98 = icmp ne i32 %97, 93
  br i1 %98, label %99, label %109

99:                                               ; preds = %91
  %100 = load ptr, ptr %3, align 4
  %101 = getelementptr inbounds %struct.reader, ptr %100, i32 0, i32 2
  %102 = load ptr, ptr %101, align 4
  %103 = getelementptr inbounds i8, ptr %102, i32 1
  %104 = load i8, ptr %103, align 1
  store i8 %104, ptr %10, align 1
  %105 = load ptr, ptr %3, align 4
  %106 = getelementptr inbounds %struct.reader, ptr %105, i32 0, i32 2
  %107 = load ptr, ptr %106, align 4
  %108 = getelementptr inbounds i8, ptr %107, i32 2
  store ptr %108, ptr %106, align 4
  br label %109

109:                                              ; preds = %99, %91, %83, %69
  %110 = load i8, ptr %10, align 1
  %111 = zext i8 %110 to i32
  %112 = load i8, ptr %9, align 1
  %113 = zext i8 %112 to i32
  %114 = icmp slt i32 %111, %113
  br i1 %114, label %115, label %117

115:                                              ; preds = %109
  %116 = load ptr, ptr %3, align 4
  call void @fail(ptr noundef %116, ptr noundef @.str.6)
  br label %172

117:                                              ; preds = %109
  %118 = load i8, ptr %9, align 1
  %119 = zext i8 %118 to i32
  store i32 %119, ptr %11, align 4
  br label %120

120:                                              ; preds = %128, %117
  %121 = load i32, ptr %11, align 4
  %122 = load i8, ptr %10, align 1
  %123 = zext i8 %122 to i32
  %124 = icmp sle i32 %121, %123
  br i1 %124, label %125, label %131

125:                                              ; preds = %120
  %126 = load ptr, ptr %8, align 4
  %127 = load i32, ptr %11, align 4
  call void @put(ptr noundef %126, i32 noundef %127)
  br label %128

128:                                              ; preds = %125
  %129 = load i32, ptr %11, align 4
  %130 = add nsw i32 %129, 1
  store i32 %130, ptr %11, align 4
  br label %120, !llvm.loop !63

131:                                              ; preds = %120
  br label %48, !llvm.loop !64

132:                                              ; preds = %67
  %133 = load ptr, ptr %3, align 4
  %134 = getelementptr inbounds %struct.reader, ptr %133, i32 0, i32 2
  %135 = load ptr, ptr %134, align 4
  %136 = getelementptr inbounds i8, ptr %135, i32 1
  store ptr %136, ptr %134, align 4
  %137 = load i8, ptr %135, align 1
  %138 = sext i8 %137 to i32
  %139 = icmp ne i32 %138, 93
  br i1 %139, label %140, label %146

140:                                              ; preds = %132
  %141 = load ptr, ptr %3, align 4
  %142 = getelementptr inbounds %struct.reader, ptr %141, i32 0, i32 2
  %143 = load ptr, ptr %142, align 4
  %144 = getelementptr inbounds i8, ptr %143, i32 -1
  store ptr %144, ptr %142, align 4
  %145 = load ptr, ptr %3, align 4
  call void @fail(ptr noundef %145, ptr noundef @.str.7)
  br label %172

146:                                              ; preds = %132
  %147 = load i32, ptr %5, align 4
  %148 = icmp ne i32 %147, 0
  br i1 %148, label %149, label %168

149:                                              ; preds = %146
  store i32 0, ptr %12, align 4
  br label %150

150:                                              ; preds = %164, %149
  %151 = load i32, ptr %12, align 4
  %152 = icmp slt i32 %151, 32
  br i1 %152, label %153, label %167

153:                                              ; preds = %150
  %154 = load ptr, ptr %8, align 4
  %155 = load i32, ptr %12, align 4
  %156 = getelementptr inbounds i8, ptr %154, i32 %155
  %157 = load i8, ptr %156, align 1
  %158 = zext i8 %157 to i32
  %159 = xor i32 %158, -1
  %160 = trunc i32 %159 to i8
  %161 = load ptr, ptr %8, align 4
  %162 = load i32, ptr %12, align 4
  %163 = getelementptr inbounds i8, ptr %161, i32 %162
  store i8 %160, ptr %163, align 1
  br label %164

164:                                              ; preds = %153
  %165 = load i32, ptr %12, align 4
  %166 = add nsw i32 %165, 1
  store i32 %166, ptr %12, align 4
  br label %150, !llvm.loop !65

167:                                              ; preds = %150
  br label %168

168:                                              ; preds = %167, %146
  %169 = load ptr, ptr %3, align 4
  %170 = load ptr, ptr %4, align 4
  %171 = load i32, ptr %6, align 4
  call void @single(ptr noundef %169, ptr noundef %170, i32 noundef 2, i32 noundef %171)
  br label %172

172:                                              ; preds = %168, %140, %115, %20
  ret void
}

; Function Attrs: noinline nounwind optnone uwtable
define internal void @single(ptr noundef %0, ptr noundef %1, i32 noundef %2, i32 noundef %3) #0 {
  %5 = alloca ptr, align 4
  %6 = alloca ptr, align 4
  %7 = alloca i32, align 4
  %8 = alloca i32, align 4
  store ptr %0, ptr %5, align 4
  store ptr %1, ptr %6, align 4
  store i32 %2, ptr %7, align 4
  store i32 %3, ptr %8, align 4
  %9 = load ptr, ptr %5, align 4
  %10 = load i32, ptr %7, align 4
  %11 = load i32, ptr %8, align 4
  %12 = call i32 @add(ptr noundef %9, i32 noundef %10, i32 noundef %11)
  %13 = load ptr, ptr %6, align 4
  %14 = getelementptr inbounds %struct.part, ptr %13, i32 0, i32 0
  store i32 %12, ptr %14, align 4
  %15 = load ptr, ptr %5, align 4
  %16 = call i32 @add(ptr noundef %15, i32 noundef 6, i32 noundef 0)
  %17 = load ptr, ptr %6, align 4
  %18 = getelementptr inbounds %struct.part, ptr %17, i32 0, i32 1
  store i32 %16, ptr %18, align 4
  %19 = load ptr, ptr %6, align 4
  %20 = getelementptr inbounds %struct.part, ptr %19, i32 0, i32 1
  %21 = load i32, ptr %20, align 4
  %22 = load ptr, ptr %5, align 4
  %23 = getelementptr inbounds %struct.reader, ptr %22, i32 0, i32 0
  %24 = load ptr, ptr %23, align 4
  %25 = getelementptr inbounds %struct.regex, ptr %24, i32 0, i32 0
  %26 = load ptr, ptr %6, align 4
  %27 = getelementptr inbounds %struct.part, ptr %26, i32 0, i32 0
  %28 = load i32, ptr %27, align 4
  %29 = getelementptr inbounds [400 x %struct.step], ptr %25, i32 0, i32 %28
  %30 = getelementptr inbounds %struct.step, ptr %29, i32 0, i32 2
  store i32 %21, ptr %30, align 4
  ret void
}

; Function Attrs: noinline nounwind optnone uwtable
define internal void @put(ptr noundef %0, i32 noundef %1) #0 {
  %3 = alloca ptr, align 4
  %4 = alloca i32, align 4
  store ptr %0, ptr %3, align 4
  store i32 %1, ptr %4, align 4
  %5 = load i32, ptr %4, align 4
  %6 = srem i32 %5, 8
  %7 = shl i32 1, %6
  %8 = load ptr, ptr %3, align 4
  %9 = load i32, ptr %4, align 4
  %10 = and i32 %9, 255
  %11 = sdiv i32 %10, 8
  %12 = getelementptr inbounds i8, ptr %8, i32 %11
  %13 = load i8, ptr %12, align 1
  %14 = zext i8 %13 to i32
  %15 = or i32 %14, %7
  %16 = trunc i32 %15 to i8
  store i8 %16, ptr %12, align 1
  ret void
}

; Function Attrs: nofree norecurse nosync nounwind optsize memory(read, inaccessiblemem: none) uwtable
define internal fastcc i32 @span(ptr nocapture noundef readonly %0, ptr nocapture noundef readonly %1, i32 noundef %2) unnamed_addr #2 {
  %4 = alloca [256 x i8], align 1
  call void @llvm.lifetime.start.p0(i64 256, ptr nonnull %4) #9
  br label %5

5:                                                ; preds = %5, %3
  %6 = phi ptr [ %4, %3 ], [ %9, %5 ]
  %7 = phi i32 [ 256, %3 ], [ %8, %5 ]
  %8 = add nsw i32 %7, -1
  %9 = getelementptr inbounds i8, ptr %6, i32 1
  store i8 0, ptr %6, align 1, !tbaa !9
  %10 = icmp eq i32 %8, 0
  br i1 %10, label %11, label %5, !llvm.loop !66

11:                                               ; preds = %5
  %12 = load i8, ptr %1, align 1, !tbaa !9
  %13 = icmp eq i8 %12, 0
  br i1 %13, label %14, label %17

14:                                               ; preds = %17, %11
  %15 = load i8, ptr %0, align 1, !tbaa !9
  %16 = icmp eq i8 %15, 0
  br i1 %16, label %38, label %25

17:                                               ; preds = %17, %11
  %18 = phi i8 [ %23, %17 ], [ %12, %11 ]
  %19 = phi ptr [ %20, %17 ], [ %1, %11 ]
  %20 = getelementptr inbounds i8, ptr %19, i32 1
  %21 = zext i8 %18 to i32
  %22 = getelementptr inbounds [256 x i8], ptr %4, i32 0, i32 %21
  store i8 1, ptr %22, align 1, !tbaa !9
  %23 = load i8, ptr %20, align 1, !tbaa !9
  %24 = icmp eq i8 %23, 0
  br i1 %24, label %14, label %17, !llvm.loop !67

25:                                               ; preds = %33, %14
  %26 = phi i8 [ %36, %33 ], [ %15, %14 ]
  %27 = phi i32 [ %34, %33 ], [ 0, %14 ]
  %28 = zext i8 %26 to i32
  %29 = getelementptr inbounds [256 x i8], ptr %4, i32 0, i32 %28
  %30 = load i8, ptr %29, align 1, !tbaa !9
  %31 = zext i8 %30 to i32
  %32 = icmp eq i32 %31, %2
  br i1 %32, label %33, label %38

33:                                               ; preds = %25
  %34 = add i32 %27, 1
  %35 = getelementptr inbounds i8, ptr %0, i32 %34
  %36 = load i8, ptr %35, align 1, !tbaa !9
  %37 = icmp eq i8 %36, 0
  br i1 %37, label %38, label %25, !llvm.loop !68

38:                                               ; preds = %33, %25, %14
  %39 = phi i32 [ 0, %14 ], [ %34, %33 ], [ %27, %25 ]
  call void @llvm.lifetime.end.p0(i64 256, ptr nonnull %4) #9
  ret i32 %39
}

; Function Attrs: nounwind optsize uwtable
define internal i32 @fgetc(ptr nocapture noundef %0) local_unnamed_addr #1 {
  %2 = load i8, ptr %0, align 4, !tbaa !15
  %3 = icmp eq i8 %2, 0
  br i1 %3, label %4, label %20

4:                                                ; preds = %1
  %5 = getelementptr inbounds i8, ptr %0, i32 2
  %6 = load i8, ptr %5, align 2, !tbaa !69
  %7 = icmp eq i8 %6, 0
  br i1 %7, label %12, label %8

8:                                                ; preds = %4
  store i8 0, ptr %5, align 2, !tbaa !69
  %9 = getelementptr inbounds i8, ptr %0, i32 3
  %10 = load i8, ptr %9, align 1, !tbaa !70
  %11 = zext i8 %10 to i32
  br label %20

12:                                               ; preds = %4
  %13 = getelementptr inbounds i8, ptr %0, i32 1
  %14 = load i8, ptr %13, align 1, !tbaa !71
  %15 = icmp eq i8 %14, 0
  br i1 %15, label %16, label %20

16:                                               ; preds = %12
  %17 = tail call i32 @getchar() #10
  %18 = icmp eq i32 %17, -1
  br i1 %18, label %19, label %20

19:                                               ; preds = %16
  store i8 1, ptr %13, align 1, !tbaa !71
  br label %20

20:                                               ; preds = %19, %16, %12, %8, %1
  %21 = phi i32 [ %11, %8 ], [ -1, %1 ], [ -1, %12 ], [ -1, %19 ], [ %17, %16 ]
  ret i32 %21
}

; Function Attrs: optsize
declare dso_local i32 @getchar() local_unnamed_addr #3

attributes #0 = { noinline nounwind optnone uwtable "frame-pointer"="all" "min-legal-vector-width"="0" "no-trapping-math"="true" "stack-protector-buffer-size"="8" "target-cpu"="i686" "target-features"="+cmov,+cx8,+x87" "tune-cpu"="generic" }
attributes #1 = { nounwind optsize uwtable "min-legal-vector-width"="0" "no-builtins" "no-jump-tables"="true" "no-trapping-math"="true" "stack-protector-buffer-size"="8" "target-cpu"="i686" "target-features"="+cmov,+cx8,+x87" "tune-cpu"="generic" }
attributes #2 = { nofree norecurse nosync nounwind optsize memory(read, inaccessiblemem: none) uwtable "min-legal-vector-width"="0" "no-builtins" "no-jump-tables"="true" "no-trapping-math"="true" "stack-protector-buffer-size"="8" "target-cpu"="i686" "target-features"="+cmov,+cx8,+x87" "tune-cpu"="generic" }
attributes #3 = { optsize "no-builtins" "no-trapping-math"="true" "stack-protector-buffer-size"="8" "target-cpu"="i686" "target-features"="+cmov,+cx8,+x87" "tune-cpu"="generic" }
attributes #4 = { nocallback nofree nosync nounwind willreturn memory(argmem: readwrite) }
attributes #5 = { nocallback nofree nosync nounwind speculatable willreturn memory(none) }
attributes #6 = { nofree norecurse nosync nounwind optsize uwtable "min-legal-vector-width"="0" "no-builtins" "no-jump-tables"="true" "no-trapping-math"="true" "stack-protector-buffer-size"="8" "target-cpu"="i686" "target-features"="+cmov,+cx8,+x87" "tune-cpu"="generic" }
attributes #7 = { nocallback nofree nounwind willreturn memory(argmem: write) }
attributes #8 = { nobuiltin optsize "no-builtins" }
attributes #9 = { nounwind }
attributes #10 = { nobuiltin nounwind optsize "no-builtins" }

!llvm.ident = !{!0, !0, !0, !0, !0}
!llvm.module.flags = !{!1, !2, !3, !4, !5, !6}

!0 = !{!"Debian clang version 19.1.7 (3~deb12u1)"}
!1 = !{i32 1, !"NumRegisterParameters", i32 0}
!2 = !{i32 7, !"Dwarf Version", i32 5}
!3 = !{i32 2, !"Debug Info Version", i32 3}
!4 = !{i32 1, !"wchar_size", i32 4}
!5 = !{i32 7, !"uwtable", i32 2}
!6 = !{i32 7, !"frame-pointer", i32 2}
!7 = distinct !{!7, !8}
!8 = !{!"llvm.loop.mustprogress"}
!9 = !{!10, !10, i64 0}
!10 = !{!"omnipotent char", !11, i64 0}
!11 = !{!"Simple C/C++ TBAA"}
!12 = distinct !{!12, !8}
!13 = distinct !{!13, !8}
!14 = distinct !{!14, !8}
!15 = !{!16, !10, i64 0}
!16 = !{!"__stream", !10, i64 0, !10, i64 1, !10, i64 2, !10, i64 3, !17, i64 4, !18, i64 8}
!17 = !{!"any pointer", !10, i64 0}
!18 = !{!"int", !10, i64 0}
!19 = !{!20}
!20 = distinct !{!20, !21, !"fwrite: %stream"}
!21 = distinct !{!21, !"fwrite"}
!22 = !{!23}
!23 = distinct !{!23, !21, !"fwrite: %from"}
!24 = distinct !{!24, !8}
!25 = !{!16, !18, i64 8}
!26 = !{!16, !17, i64 4}
!27 = distinct !{!27, !8}
!28 = distinct !{!28, !8}
!29 = !{!30}
!30 = distinct !{!30, !31, !"fwrite: %stream"}
!31 = distinct !{!31, !"fwrite"}
!32 = !{!33}
!33 = distinct !{!33, !31, !"fwrite: %from"}
!34 = !{!35}
!35 = distinct !{!35, !36, !"fwrite: %stream"}
!36 = distinct !{!36, !"fwrite"}
!37 = !{!38}
!38 = distinct !{!38, !36, !"fwrite: %from"}
!39 = distinct !{!39, !8}
!40 = !{!41}
!41 = distinct !{!41, !42, !"memcpy: %from"}
!42 = distinct !{!42, !"memcpy"}
!43 = !{!44}
!44 = distinct !{!44, !42, !"memcpy: %to"}
!45 = distinct !{!45, !8}
!46 = !{!47}
!47 = distinct !{!47, !48, !"stpcpy: %from"}
!48 = distinct !{!48, !"stpcpy"}
!49 = !{!50}
!50 = distinct !{!50, !48, !"stpcpy: %to"}
!51 = distinct !{!51, !8}
!52 = !{!53}
!53 = distinct !{!53, !54, !"fwrite: %stream"}
!54 = distinct !{!54, !"fwrite"}
!55 = !{!56}
!56 = distinct !{!56, !54, !"fwrite: %from"}
!57 = distinct !{!57, !8}
!58 = distinct !{!58, !8}
!59 = distinct !{!59, !8}
!60 = distinct !{!60, !8}
!61 = distinct !{!61, !8}
!62 = distinct !{!62, !8}
!63 = distinct !{!63, !8}
!64 = distinct !{!64, !8}
!65 = distinct !{!65, !8}
!66 = distinct !{!66, !8}
!67 = distinct !{!67, !8}
!68 = distinct !{!68, !8}
!69 = !{!16, !10, i64 2}
!70 = !{!16, !10, i64 3}
!71 = !{!16, !10, i64 1}
