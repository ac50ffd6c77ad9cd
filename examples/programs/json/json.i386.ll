source_filename = "main.c"
target datalayout = "e-m:e-p:32:32-p270:32:32-p271:32:32-p272:64:64-i128:128-f64:32:64-f80:32-n8:16:32-S128"
target triple = "i386-unknown-linux-gnu"

%struct.__stream = type { i8, i8, i8, i8, ptr, i32 }
%struct.text = type { ptr, i32, i32 }
%struct.reader = type { ptr, ptr, ptr }
%struct.value = type { i32, i64, ptr, ptr, ptr, ptr }
%struct.number = type { i64, i32, i32 }

@main.asked = internal global [8 x [80 x i8]] zeroinitializer, align 1
@.str = private unnamed_addr constant [3 x i8] c".\0A\00", align 1
@.str.1 = private unnamed_addr constant [1 x i8] zeroinitializer, align 1
@.str.2 = private unnamed_addr constant [37 x i8] c"refused in line %zu, column %zu: %s\0A\00", align 1
@.str.3 = private unnamed_addr constant [22 x i8] c"\0A%zu values, %d deep\0A\00", align 1
@.str.4 = private unnamed_addr constant [2 x i8] c"\0A\00", align 1
@.str.5 = private unnamed_addr constant [8 x i8] c"? %s = \00", align 1
@.str.6 = private unnamed_addr constant [8 x i8] c"nothing\00", align 1
@.str.7 = private unnamed_addr constant [20 x i8] c"more than one value\00", align 1
@.str.1.8 = private unnamed_addr constant [9 x i8] c"too deep\00", align 1
@.str.2.9 = private unnamed_addr constant [5 x i8] c"true\00", align 1
@.str.3.10 = private unnamed_addr constant [6 x i8] c"false\00", align 1
@.str.4.11 = private unnamed_addr constant [5 x i8] c"null\00", align 1
@.str.5.12 = private unnamed_addr constant [8 x i8] c"the end\00", align 1
@.str.6.13 = private unnamed_addr constant [24 x i8] c"a member without a name\00", align 1
@.str.7.14 = private unnamed_addr constant [23 x i8] c"a name without a colon\00", align 1
@.str.8 = private unnamed_addr constant [27 x i8] c"neither a comma nor an end\00", align 1
@.str.9 = private unnamed_addr constant [14 x i8] c"out of memory\00", align 1
@.str.10 = private unnamed_addr constant [25 x i8] c"a control byte in a text\00", align 1
@.str.11 = private unnamed_addr constant [26 x i8] c"a text that is not closed\00", align 1
@string.from = internal constant [9 x i8] c"\22\\/bfnrt\00", align 1
@string.meant = internal constant [9 x i8] c"\22\\/\08\0C\0A\0D\09\00", align 1
@.str.12 = private unnamed_addr constant [23 x i8] c"an escape that is none\00", align 1
@.str.13 = private unnamed_addr constant [20 x i8] c"a word that is none\00", align 1
@.str.14 = private unnamed_addr constant [22 x i8] c"a number that is none\00", align 1
@.str.15 = private unnamed_addr constant [27 x i8] c"a number that is not whole\00", align 1
@.str.23 = private unnamed_addr constant [2 x i8] c".\00", align 1
@.str.1.26 = private unnamed_addr constant [5 x i8] c"null\00", align 1
@.str.2.27 = private unnamed_addr constant [6 x i8] c"false\00", align 1
@.str.3.28 = private unnamed_addr constant [5 x i8] c"true\00", align 1
@.str.5.30 = private unnamed_addr constant [3 x i8] c"[]\00", align 1
@.str.6.31 = private unnamed_addr constant [3 x i8] c"{}\00", align 1
@.str.7.37 = private unnamed_addr constant [4 x i8] c"\\%c\00", align 1
@.str.8.38 = private unnamed_addr constant [3 x i8] c"\\n\00", align 1
@.str.9.39 = private unnamed_addr constant [7 x i8] c"\\u%04x\00", align 1
@.str.10.34 = private unnamed_addr constant [7 x i8] c"%s\0A%*s\00", align 1
@.str.11.32 = private unnamed_addr constant [1 x i8] zeroinitializer, align 1
@.str.12.33 = private unnamed_addr constant [2 x i8] c",\00", align 1
@.str.13.35 = private unnamed_addr constant [3 x i8] c": \00", align 1
@.str.14.36 = private unnamed_addr constant [5 x i8] c"\0A%*s\00", align 1
@.str.17 = private unnamed_addr constant [1 x i8] zeroinitializer, align 1
@.str.1.18 = private unnamed_addr constant [7 x i8] c"(null)\00", align 1
@.str.2.25 = private unnamed_addr constant [2 x i8] c"-\00", align 1
@.str.3.26 = private unnamed_addr constant [2 x i8] c"+\00", align 1
@.str.4.24 = private unnamed_addr constant [2 x i8] c" \00", align 1
@.str.5.33 = private unnamed_addr constant [3 x i8] c"0X\00", align 1
@.str.6.32 = private unnamed_addr constant [3 x i8] c"0x\00", align 1
@.str.8.30 = private unnamed_addr constant [17 x i8] c"0123456789ABCDEF\00", align 1
@.str.9.23 = private unnamed_addr constant [17 x i8] c"0123456789abcdef\00", align 1
@__streams = internal global [3 x %struct.__stream] [%struct.__stream zeroinitializer, %struct.__stream { i8 1, i8 0, i8 0, i8 0, ptr null, i32 0 }, %struct.__stream { i8 2, i8 0, i8 0, i8 0, ptr null, i32 0 }], align 4
@errno = internal local_unnamed_addr global i32 0, align 4

; Function Attrs: noinline nounwind optnone uwtable
define dso_local i32 @main() #0 {
  %1 = alloca i32, align 4
  %2 = alloca [160 x i8], align 1
  %3 = alloca %struct.text, align 4
  %4 = alloca i32, align 4
  %5 = alloca i32, align 4
  store i32 0, ptr %1, align 4
  call void @llvm.memset.p0.i32(ptr align 4 %3, i8 0, i32 12, i1 false)
  store i32 0, ptr %4, align 4
  store i32 0, ptr %5, align 4
  br label %6

6:                                                ; preds = %40, %0
  %7 = getelementptr inbounds [160 x i8], ptr %2, i32 0, i32 0
  %8 = call ptr @fgets(ptr noundef %7, i32 noundef 160, ptr noundef @__streams)
  %9 = icmp ne ptr %8, null
  br i1 %9, label %10, label %41

10:                                               ; preds = %6
  %11 = getelementptr inbounds [160 x i8], ptr %2, i32 0, i32 0
  %12 = call i32 @strcmp(ptr noundef %11, ptr noundef @.str) #15
  %13 = icmp eq i32 %12, 0
  br i1 %13, label %14, label %20

14:                                               ; preds = %10
  %15 = load i32, ptr %4, align 4
  %16 = call i32 @show(ptr noundef %3, ptr noundef @main.asked, i32 noundef %15)
  %17 = load i32, ptr %5, align 4
  %18 = add nsw i32 %17, %16
  store i32 %18, ptr %5, align 4
  %19 = getelementptr inbounds %struct.text, ptr %3, i32 0, i32 1
  store i32 0, ptr %19, align 4
  store i32 0, ptr %4, align 4
  br label %40

20:                                               ; preds = %10
  %21 = getelementptr inbounds [160 x i8], ptr %2, i32 0, i32 0
  %22 = load i8, ptr %21, align 1
  %23 = sext i8 %22 to i32
  %24 = icmp eq i32 %23, 63
  br i1 %24, label %25, label %37

25:                                               ; preds = %20
  %26 = load i32, ptr %4, align 4
  %27 = icmp slt i32 %26, 8
  br i1 %27, label %28, label %37

28:                                               ; preds = %25
  %29 = load i32, ptr %4, align 4
  %30 = getelementptr inbounds [8 x [80 x i8]], ptr @main.asked, i32 0, i32 %29
  %31 = getelementptr inbounds [80 x i8], ptr %30, i32 0, i32 0
  %32 = getelementptr inbounds [160 x i8], ptr %2, i32 0, i32 0
  %33 = getelementptr inbounds i8, ptr %32, i32 1
  %34 = call ptr @strncpy(ptr noundef %31, ptr noundef %33, i32 noundef 79) #15
  %35 = load i32, ptr %4, align 4
  %36 = add nsw i32 %35, 1
  store i32 %36, ptr %4, align 4
  br label %39

37:                                               ; preds = %25, %20
  %38 = getelementptr inbounds [160 x i8], ptr %2, i32 0, i32 0
  call void @append(ptr noundef %3, ptr noundef %38)
  br label %39

39:                                               ; preds = %37, %28
  br label %40

40:                                               ; preds = %39, %14
  br label %6, !llvm.loop !7

41:                                               ; preds = %6
  %42 = getelementptr inbounds %struct.text, ptr %3, i32 0, i32 0
  %43 = load ptr, ptr %42, align 4
  call void @__sized_free(ptr noundef %43)
  %44 = load i32, ptr %5, align 4
  ret i32 %44
}

; Function Attrs: nocallback nofree nounwind willreturn memory(argmem: write)
declare void @llvm.memset.p0.i32(ptr nocapture writeonly, i8, i32, i1 immarg) #1

; Function Attrs: nounwind optsize uwtable
define internal noundef ptr @fgets(ptr noalias noundef writeonly %0, i32 noundef %1, ptr noalias nocapture noundef %2) #2 {
  %4 = icmp slt i32 %1, 1
  br i1 %4, label %23, label %5

5:                                                ; preds = %3
  %6 = icmp eq i32 %1, 1
  br i1 %6, label %21, label %7

7:                                                ; preds = %12, %5
  %8 = phi i32 [ %13, %12 ], [ %1, %5 ]
  %9 = phi ptr [ %15, %12 ], [ %0, %5 ]
  %10 = tail call i32 @fgetc(ptr noundef %2) #16
  %11 = icmp eq i32 %10, -1
  br i1 %11, label %19, label %12

12:                                               ; preds = %7
  %13 = add nsw i32 %8, -1
  %14 = trunc i32 %10 to i8
  %15 = getelementptr inbounds i8, ptr %9, i32 1
  store i8 %14, ptr %9, align 1, !tbaa !9
  %16 = icmp sgt i32 %8, 2
  %17 = icmp ne i32 %10, 10
  %18 = and i1 %16, %17
  br i1 %18, label %7, label %21, !llvm.loop !12

19:                                               ; preds = %7
  %20 = icmp eq ptr %9, %0
  br i1 %20, label %23, label %21

21:                                               ; preds = %19, %12, %5
  %22 = phi ptr [ %9, %19 ], [ %0, %5 ], [ %15, %12 ]
  store i8 0, ptr %22, align 1, !tbaa !9
  br label %23

23:                                               ; preds = %21, %19, %3
  %24 = phi ptr [ %0, %21 ], [ null, %3 ], [ null, %19 ]
  ret ptr %24
}

; Function Attrs: nofree norecurse nosync nounwind optsize memory(read, inaccessiblemem: none) uwtable
define internal range(i32 -1, 2) i32 @strcmp(ptr nocapture noundef readonly %0, ptr nocapture noundef readonly %1) #3 {
  %3 = load i8, ptr %0, align 1, !tbaa !9
  %4 = icmp eq i8 %3, 0
  br i1 %4, label %16, label %5

5:                                                ; preds = %11, %2
  %6 = phi i8 [ %14, %11 ], [ %3, %2 ]
  %7 = phi ptr [ %13, %11 ], [ %1, %2 ]
  %8 = phi ptr [ %12, %11 ], [ %0, %2 ]
  %9 = load i8, ptr %7, align 1, !tbaa !9
  %10 = icmp eq i8 %6, %9
  br i1 %10, label %11, label %16

11:                                               ; preds = %5
  %12 = getelementptr inbounds i8, ptr %8, i32 1
  %13 = getelementptr inbounds i8, ptr %7, i32 1
  %14 = load i8, ptr %12, align 1, !tbaa !9
  %15 = icmp eq i8 %14, 0
  br i1 %15, label %16, label %5, !llvm.loop !13

16:                                               ; preds = %11, %5, %2
  %17 = phi ptr [ %1, %2 ], [ %13, %11 ], [ %7, %5 ]
  %18 = phi i8 [ 0, %2 ], [ 0, %11 ], [ %6, %5 ]
  %19 = load i8, ptr %17, align 1, !tbaa !9
  %20 = icmp ult i8 %18, %19
  %21 = icmp ugt i8 %18, %19
  %22 = zext i1 %21 to i32
  %23 = select i1 %20, i32 -1, i32 %22
  ret i32 %23
}

; Function Attrs: noinline nounwind optnone uwtable
define internal i32 @show(ptr noundef %0, ptr noundef %1, i32 noundef %2) #0 {
  %4 = alloca i32, align 4
  %5 = alloca ptr, align 4
  %6 = alloca ptr, align 4
  %7 = alloca i32, align 4
  %8 = alloca %struct.text, align 4
  %9 = alloca ptr, align 4
  %10 = alloca i32, align 4
  store ptr %0, ptr %5, align 4
  store ptr %1, ptr %6, align 4
  store i32 %2, ptr %7, align 4
  %11 = load ptr, ptr %5, align 4
  %12 = getelementptr inbounds %struct.text, ptr %11, i32 0, i32 1
  %13 = load i32, ptr %12, align 4
  %14 = icmp ne i32 %13, 0
  br i1 %14, label %15, label %19

15:                                               ; preds = %3
  %16 = load ptr, ptr %5, align 4
  %17 = getelementptr inbounds %struct.text, ptr %16, i32 0, i32 0
  %18 = load ptr, ptr %17, align 4
  br label %20

19:                                               ; preds = %3
  br label %20

20:                                               ; preds = %19, %15
  %21 = phi ptr [ %18, %15 ], [ @.str.1, %19 ]
  %22 = call ptr @json_read(ptr noundef %21, ptr noundef %8)
  store ptr %22, ptr %9, align 4
  %23 = load ptr, ptr %9, align 4
  %24 = icmp ne ptr %23, null
  br i1 %24, label %48, label %25

25:                                               ; preds = %20
  %26 = getelementptr inbounds %struct.text, ptr %8, i32 0, i32 1
  %27 = load i32, ptr %26, align 4
  %28 = getelementptr inbounds %struct.text, ptr %8, i32 0, i32 2
  %29 = load i32, ptr %28, align 4
  %30 = getelementptr inbounds %struct.text, ptr %8, i32 0, i32 0
  %31 = load ptr, ptr %30, align 4
  %32 = call i32 @__print_text(ptr getelementptr inbounds ([3 x { i8, i8, i8, i8, ptr, i32 }], ptr @__streams, i32 0, i32 1), ptr @.str.2, i32 16)
  %33 = zext i32 %27 to i64
  %34 = call i32 @__print_unsigned(ptr getelementptr inbounds ([3 x { i8, i8, i8, i8, ptr, i32 }], ptr @__streams, i32 0, i32 1), i64 %33, i32 10, i32 0, i32 0, i32 -1)
  %35 = call i32 @__print_text(ptr getelementptr inbounds ([3 x { i8, i8, i8, i8, ptr, i32 }], ptr @__streams, i32 0, i32 1), ptr getelementptr inbounds (i8, ptr @.str.2, i32 19), i32 9)
  %36 = zext i32 %29 to i64
  %37 = call i32 @__print_unsigned(ptr getelementptr inbounds ([3 x { i8, i8, i8, i8, ptr, i32 }], ptr @__streams, i32 0, i32 1), i64 %36, i32 10, i32 0, i32 0, i32 -1)
  %38 = call i32 @__print_text(ptr getelementptr inbounds ([3 x { i8, i8, i8, i8, ptr, i32 }], ptr @__streams, i32 0, i32 1), ptr getelementptr inbounds (i8, ptr @.str.2, i32 31), i32 2)
  %39 = call i32 @__print_string(ptr getelementptr inbounds ([3 x { i8, i8, i8, i8, ptr, i32 }], ptr @__streams, i32 0, i32 1), ptr %31, i32 0, i32 0, i32 -1)
  %40 = call i32 @__print_text(ptr getelementptr inbounds ([3 x { i8, i8, i8, i8, ptr, i32 }], ptr @__streams, i32 0, i32 1), ptr getelementptr inbounds (i8, ptr @.str.2, i32 35), i32 1)
  %41 = add i32 %32, %34
  %42 = add i32 %41, %35
  %43 = add i32 %42, %37
  %44 = add i32 %43, %38
  %45 = add i32 %44, %39
  %46 = add i32 %45, %40
  %47 = add i32 %46, 0
  store i32 0, ptr %4, align 4
  br label %81

48:                                               ; preds = %20
  %49 = load ptr, ptr %9, align 4
  call void @json_write(ptr noundef %49, i32 noundef 0)
  %50 = load ptr, ptr %9, align 4
  %51 = call i32 @json_count(ptr noundef %50)
  %52 = load ptr, ptr %9, align 4
  %53 = call i32 @json_depth(ptr noundef %52)
  %54 = call i32 @__print_text(ptr getelementptr inbounds ([3 x { i8, i8, i8, i8, ptr, i32 }], ptr @__streams, i32 0, i32 1), ptr @.str.3, i32 1)
  %55 = zext i32 %51 to i64
  %56 = call i32 @__print_unsigned(ptr getelementptr inbounds ([3 x { i8, i8, i8, i8, ptr, i32 }], ptr @__streams, i32 0, i32 1), i64 %55, i32 10, i32 0, i32 0, i32 -1)
  %57 = call i32 @__print_text(ptr getelementptr inbounds ([3 x { i8, i8, i8, i8, ptr, i32 }], ptr @__streams, i32 0, i32 1), ptr getelementptr inbounds (i8, ptr @.str.3, i32 4), i32 9)
  %58 = sext i32 %53 to i64
  %59 = call i32 @__print_signed(ptr getelementptr inbounds ([3 x { i8, i8, i8, i8, ptr, i32 }], ptr @__streams, i32 0, i32 1), i64 %58, i32 0, i32 0, i32 -1)
  %60 = call i32 @__print_text(ptr getelementptr inbounds ([3 x { i8, i8, i8, i8, ptr, i32 }], ptr @__streams, i32 0, i32 1), ptr getelementptr inbounds (i8, ptr @.str.3, i32 15), i32 6)
  %61 = add i32 %54, %56
  %62 = add i32 %61, %57
  %63 = add i32 %62, %59
  %64 = add i32 %63, %60
  %65 = add i32 %64, 0
  store i32 0, ptr %10, align 4
  br label %66

66:                                               ; preds = %76, %48
  %67 = load i32, ptr %10, align 4
  %68 = load i32, ptr %7, align 4
  %69 = icmp slt i32 %67, %68
  br i1 %69, label %70, label %79

70:                                               ; preds = %66
  %71 = load ptr, ptr %9, align 4
  %72 = load ptr, ptr %6, align 4
  %73 = load i32, ptr %10, align 4
  %74 = getelementptr inbounds [80 x i8], ptr %72, i32 %73
  %75 = getelementptr inbounds [80 x i8], ptr %74, i32 0, i32 0
  call void @answer(ptr noundef %71, ptr noundef %75)
  br label %76

76:                                               ; preds = %70
  %77 = load i32, ptr %10, align 4
  %78 = add nsw i32 %77, 1
  store i32 %78, ptr %10, align 4
  br label %66, !llvm.loop !14

79:                                               ; preds = %66
  %80 = load ptr, ptr %9, align 4
  call void @json_free(ptr noundef %80)
  store i32 1, ptr %4, align 4
  br label %81

81:                                               ; preds = %79, %25
  %82 = load i32, ptr %4, align 4
  ret i32 %82
}

; Function Attrs: nofree norecurse nosync nounwind optsize uwtable
define internal noundef ptr @strncpy(ptr noalias noundef returned %0, ptr noalias nocapture noundef readonly %1, i32 noundef %2) #4 {
  %4 = tail call ptr @stpncpy(ptr noundef %0, ptr noundef %1, i32 noundef %2) #16
  ret ptr %0
}

; Function Attrs: noinline nounwind optnone uwtable
define internal void @append(ptr noundef %0, ptr noundef %1) #0 {
  %3 = alloca ptr, align 4
  %4 = alloca ptr, align 4
  %5 = alloca i32, align 4
  store ptr %0, ptr %3, align 4
  store ptr %1, ptr %4, align 4
  %6 = load ptr, ptr %4, align 4
  %7 = call i32 @strlen(ptr noundef %6) #15
  store i32 %7, ptr %5, align 4
  %8 = load ptr, ptr %3, align 4
  %9 = getelementptr inbounds %struct.text, ptr %8, i32 0, i32 1
  %10 = load i32, ptr %9, align 4
  %11 = load i32, ptr %5, align 4
  %12 = add i32 %10, %11
  %13 = add i32 %12, 1
  %14 = load ptr, ptr %3, align 4
  %15 = getelementptr inbounds %struct.text, ptr %14, i32 0, i32 2
  %16 = load i32, ptr %15, align 4
  %17 = icmp ugt i32 %13, %16
  br i1 %17, label %18, label %43

18:                                               ; preds = %2
  %19 = load ptr, ptr %3, align 4
  %20 = getelementptr inbounds %struct.text, ptr %19, i32 0, i32 1
  %21 = load i32, ptr %20, align 4
  %22 = load i32, ptr %5, align 4
  %23 = add i32 %21, %22
  %24 = add i32 %23, 1
  %25 = mul i32 2, %24
  %26 = load ptr, ptr %3, align 4
  %27 = getelementptr inbounds %struct.text, ptr %26, i32 0, i32 2
  store i32 %25, ptr %27, align 4
  %28 = load ptr, ptr %3, align 4
  %29 = getelementptr inbounds %struct.text, ptr %28, i32 0, i32 0
  %30 = load ptr, ptr %29, align 4
  %31 = load ptr, ptr %3, align 4
  %32 = getelementptr inbounds %struct.text, ptr %31, i32 0, i32 2
  %33 = load i32, ptr %32, align 4
  %34 = call ptr @realloc(ptr noundef %30, i32 noundef %33) #17
  %35 = load ptr, ptr %3, align 4
  %36 = getelementptr inbounds %struct.text, ptr %35, i32 0, i32 0
  store ptr %34, ptr %36, align 4
  %37 = load ptr, ptr %3, align 4
  %38 = getelementptr inbounds %struct.text, ptr %37, i32 0, i32 0
  %39 = load ptr, ptr %38, align 4
  %40 = icmp ne ptr %39, null
  br i1 %40, label %42, label %41

41:                                               ; preds = %18
  call void @exit(i32 noundef 2) #18
  unreachable

42:                                               ; preds = %18
  br label %43

43:                                               ; preds = %42, %2
  %44 = load ptr, ptr %3, align 4
  %45 = getelementptr inbounds %struct.text, ptr %44, i32 0, i32 0
  %46 = load ptr, ptr %45, align 4
  %47 = load ptr, ptr %3, align 4
  %48 = getelementptr inbounds %struct.text, ptr %47, i32 0, i32 1
  %49 = load i32, ptr %48, align 4
  %50 = getelementptr inbounds i8, ptr %46, i32 %49
  %51 = load ptr, ptr %4, align 4
  %52 = load i32, ptr %5, align 4
  %53 = add i32 %52, 1
  call void @llvm.memcpy.p0.p0.i32(ptr align 1 %50, ptr align 1 %51, i32 %53, i1 false)
  %54 = load i32, ptr %5, align 4
  %55 = load ptr, ptr %3, align 4
  %56 = getelementptr inbounds %struct.text, ptr %55, i32 0, i32 1
  %57 = load i32, ptr %56, align 4
  %58 = add i32 %57, %54
  store i32 %58, ptr %56, align 4
  ret void
}

; Function Attrs: noinline nounwind optsize uwtable
define internal void @__sized_free(ptr noundef %0) local_unnamed_addr #5 {
  %2 = icmp eq ptr %0, null
  br i1 %2, label %5, label %3

3:                                                ; preds = %1
  %4 = getelementptr inbounds i8, ptr %0, i32 -16
  tail call void @free(ptr noundef nonnull %4) #19
  br label %5

5:                                                ; preds = %3, %1
  ret void
}

declare dso_local void @free(ptr noundef) #6

; Function Attrs: nofree norecurse nosync nounwind optsize memory(read, inaccessiblemem: none) uwtable
define internal noundef i32 @strlen(ptr noundef %0) #3 {
  br label %2

2:                                                ; preds = %2, %1
  %3 = phi ptr [ %0, %1 ], [ %6, %2 ]
  %4 = load i8, ptr %3, align 1, !tbaa !9
  %5 = icmp eq i8 %4, 0
  %6 = getelementptr inbounds i8, ptr %3, i32 1
  br i1 %5, label %7, label %2, !llvm.loop !15

7:                                                ; preds = %2
  %8 = ptrtoint ptr %3 to i32
  %9 = ptrtoint ptr %0 to i32
  %10 = sub i32 %8, %9
  ret i32 %10
}

; Function Attrs: nounwind optsize uwtable
define internal ptr @realloc(ptr noundef %0, i32 noundef %1) #2 {
  %3 = icmp eq ptr %0, null
  br i1 %3, label %4, label %6

4:                                                ; preds = %2
  %5 = tail call ptr @__sized_malloc(i32 noundef %1) #16
  br label %28

6:                                                ; preds = %2
  %7 = icmp eq i32 %1, 0
  br i1 %7, label %8, label %9

8:                                                ; preds = %6
  tail call void @__sized_free(ptr noundef nonnull %0) #16
  br label %28

9:                                                ; preds = %6
  %10 = tail call ptr @__sized_malloc(i32 noundef %1) #16
  %11 = icmp eq ptr %10, null
  br i1 %11, label %28, label %12

12:                                               ; preds = %9
  %13 = getelementptr inbounds i8, ptr %0, i32 -16
  %14 = load i32, ptr %13, align 4, !tbaa !16
  %15 = icmp eq i32 %14, 0
  br i1 %15, label %27, label %16

16:                                               ; preds = %12
  %17 = tail call i32 @llvm.umin.i32(i32 %14, i32 %1)
  br label %18

18:                                               ; preds = %18, %16
  %19 = phi ptr [ %23, %18 ], [ %0, %16 ]
  %20 = phi ptr [ %25, %18 ], [ %10, %16 ]
  %21 = phi i32 [ %22, %18 ], [ %17, %16 ]
  %22 = add i32 %21, -1
  %23 = getelementptr inbounds i8, ptr %19, i32 1
  %24 = load i8, ptr %19, align 1, !tbaa !9, !alias.scope !18, !noalias !21
  %25 = getelementptr inbounds i8, ptr %20, i32 1
  store i8 %24, ptr %20, align 1, !tbaa !9, !alias.scope !21, !noalias !18
  %26 = icmp eq i32 %22, 0
  br i1 %26, label %27, label %18, !llvm.loop !23

27:                                               ; preds = %18, %12
  tail call void @__sized_free(ptr noundef nonnull %0) #16
  br label %28

28:                                               ; preds = %27, %9, %8, %4
  %29 = phi ptr [ null, %8 ], [ %5, %4 ], [ %10, %27 ], [ null, %9 ]
  ret ptr %29
}

; Function Attrs: noreturn
declare dso_local void @exit(i32 noundef) #7

; Function Attrs: nocallback nofree nounwind willreturn memory(argmem: readwrite)
declare void @llvm.memcpy.p0.p0.i32(ptr noalias nocapture writeonly, ptr noalias nocapture readonly, i32, i1 immarg) #8

; Function Attrs: noinline nounwind optsize uwtable
define internal ptr @__sized_malloc(i32 noundef %0) local_unnamed_addr #5 {
  %2 = icmp ult i32 %0, -16
  br i1 %2, label %3, label %9

3:                                                ; preds = %1
  %4 = add nuw i32 %0, 16
  %5 = tail call ptr @malloc(i32 noundef %4) #19
  %6 = icmp eq ptr %5, null
  br i1 %6, label %9, label %7

7:                                                ; preds = %3
  %8 = getelementptr inbounds i8, ptr %5, i32 16
  store i32 %0, ptr %5, align 4, !tbaa !16
  br label %9

9:                                                ; preds = %7, %3, %1
  %10 = phi ptr [ %8, %7 ], [ null, %3 ], [ null, %1 ]
  ret ptr %10
}

; Function Attrs: nocallback nofree nosync nounwind speculatable willreturn memory(none)
declare i32 @llvm.umin.i32(i32, i32) #9

; Function Attrs: allocsize(0)
declare dso_local ptr @malloc(i32 noundef) #10

; Function Attrs: nofree norecurse nosync nounwind optsize uwtable
define internal ptr @stpncpy(ptr noalias noundef writeonly %0, ptr noalias nocapture noundef readonly %1, i32 noundef %2) local_unnamed_addr #4 {
  %4 = icmp eq i32 %2, 0
  br i1 %4, label %26, label %5

5:                                                ; preds = %10, %3
  %6 = phi i32 [ %11, %10 ], [ 0, %3 ]
  %7 = getelementptr inbounds i8, ptr %1, i32 %6
  %8 = load i8, ptr %7, align 1, !tbaa !9
  %9 = icmp eq i8 %8, 0
  br i1 %9, label %13, label %10

10:                                               ; preds = %5
  %11 = add nuw i32 %6, 1
  %12 = icmp eq i32 %11, %2
  br i1 %12, label %15, label %5, !llvm.loop !24

13:                                               ; preds = %5
  %14 = icmp eq i32 %6, 0
  br i1 %14, label %26, label %15

15:                                               ; preds = %13, %10
  %16 = phi i32 [ %6, %13 ], [ %2, %10 ]
  br label %17

17:                                               ; preds = %17, %15
  %18 = phi ptr [ %22, %17 ], [ %1, %15 ]
  %19 = phi ptr [ %24, %17 ], [ %0, %15 ]
  %20 = phi i32 [ %21, %17 ], [ %16, %15 ]
  %21 = add i32 %20, -1
  %22 = getelementptr inbounds i8, ptr %18, i32 1
  %23 = load i8, ptr %18, align 1, !tbaa !9, !alias.scope !25, !noalias !28
  %24 = getelementptr inbounds i8, ptr %19, i32 1
  store i8 %23, ptr %19, align 1, !tbaa !9, !alias.scope !28, !noalias !25
  %25 = icmp eq i32 %21, 0
  br i1 %25, label %26, label %17, !llvm.loop !23

26:                                               ; preds = %17, %13, %3
  %27 = phi i32 [ 0, %13 ], [ 0, %3 ], [ %16, %17 ]
  %28 = getelementptr inbounds i8, ptr %0, i32 %27
  %29 = sub i32 %2, %27
  %30 = icmp eq i32 %29, 0
  br i1 %30, label %37, label %31

31:                                               ; preds = %31, %26
  %32 = phi ptr [ %35, %31 ], [ %28, %26 ]
  %33 = phi i32 [ %34, %31 ], [ %29, %26 ]
  %34 = add i32 %33, -1
  %35 = getelementptr inbounds i8, ptr %32, i32 1
  store i8 0, ptr %32, align 1, !tbaa !9
  %36 = icmp eq i32 %34, 0
  br i1 %36, label %37, label %31, !llvm.loop !30

37:                                               ; preds = %31, %26
  ret ptr %28
}

; Function Attrs: noinline nounwind optnone uwtable
define internal ptr @json_read(ptr noundef %0, ptr noundef %1) #0 {
  %3 = alloca ptr, align 4
  %4 = alloca ptr, align 4
  %5 = alloca ptr, align 4
  %6 = alloca %struct.reader, align 4
  %7 = alloca ptr, align 4
  store ptr %0, ptr %4, align 4
  store ptr %1, ptr %5, align 4
  %8 = getelementptr inbounds %struct.reader, ptr %6, i32 0, i32 0
  %9 = load ptr, ptr %4, align 4
  store ptr %9, ptr %8, align 4
  %10 = getelementptr inbounds %struct.reader, ptr %6, i32 0, i32 1
  %11 = load ptr, ptr %4, align 4
  store ptr %11, ptr %10, align 4
  %12 = getelementptr inbounds %struct.reader, ptr %6, i32 0, i32 2
  %13 = load ptr, ptr %5, align 4
  store ptr %13, ptr %12, align 4
  %14 = load ptr, ptr %5, align 4
  %15 = getelementptr inbounds %struct.text, ptr %14, i32 0, i32 0
  store ptr null, ptr %15, align 4
  %16 = call ptr @value(ptr noundef %6, i32 noundef 0)
  store ptr %16, ptr %7, align 4
  %17 = load ptr, ptr %7, align 4
  %18 = icmp ne ptr %17, null
  br i1 %18, label %20, label %19

19:                                               ; preds = %2
  store ptr null, ptr %3, align 4
  br label %30

20:                                               ; preds = %2
  call void @skip(ptr noundef %6)
  %21 = getelementptr inbounds %struct.reader, ptr %6, i32 0, i32 1
  %22 = load ptr, ptr %21, align 4
  %23 = load i8, ptr %22, align 1
  %24 = icmp ne i8 %23, 0
  br i1 %24, label %25, label %28

25:                                               ; preds = %20
  %26 = call ptr @refuse(ptr noundef %6, ptr noundef @.str.7)
  %27 = load ptr, ptr %7, align 4
  call void @json_free(ptr noundef %27)
  store ptr null, ptr %3, align 4
  br label %30

28:                                               ; preds = %20
  %29 = load ptr, ptr %7, align 4
  store ptr %29, ptr %3, align 4
  br label %30

30:                                               ; preds = %28, %25, %19
  %31 = load ptr, ptr %3, align 4
  ret ptr %31
}

; Function Attrs: nounwind optsize uwtable
define internal noundef i32 @__print_text(ptr nocapture noundef %0, ptr nocapture noundef readonly %1, i32 noundef returned %2) #2 {
  %4 = load i8, ptr %0, align 4, !tbaa !31, !alias.scope !34, !noalias !37
  %5 = icmp eq i8 %4, 0
  %6 = icmp eq i32 %2, 0
  %7 = or i1 %6, %5
  br i1 %7, label %16, label %8

8:                                                ; preds = %8, %3
  %9 = phi i32 [ %14, %8 ], [ 0, %3 ]
  %10 = getelementptr inbounds i8, ptr %1, i32 %9
  %11 = load i8, ptr %10, align 1, !tbaa !9, !alias.scope !37, !noalias !34
  %12 = zext i8 %11 to i32
  %13 = tail call i32 @fputc(i32 noundef %12, ptr noundef nonnull %0) #16, !noalias !37
  %14 = add nuw i32 %9, 1
  %15 = icmp eq i32 %14, %2
  br i1 %15, label %16, label %8, !llvm.loop !39

16:                                               ; preds = %8, %3
  ret i32 %2
}

; Function Attrs: nounwind optsize uwtable
define internal i32 @__print_unsigned(ptr nocapture noundef %0, i64 noundef %1, i32 noundef %2, i32 noundef %3, i32 noundef %4, i32 noundef %5) #2 {
  %7 = alloca [24 x i8], align 1
  call void @llvm.lifetime.start.p0(i64 24, ptr nonnull %7) #15
  %8 = and i32 %3, 32
  %9 = icmp eq i32 %8, 0
  %10 = select i1 %9, ptr @.str.9.23, ptr @.str.8.30
  %11 = icmp ult i64 %1, 4294967296
  br i1 %11, label %14, label %12

12:                                               ; preds = %6
  %13 = zext i32 %2 to i64
  br label %27

14:                                               ; preds = %6
  %15 = trunc nuw i64 %1 to i32
  %16 = icmp eq i32 %15, 0
  br i1 %16, label %40, label %17

17:                                               ; preds = %17, %14
  %18 = phi i32 [ %25, %17 ], [ %15, %14 ]
  %19 = phi i32 [ %23, %17 ], [ 24, %14 ]
  %20 = urem i32 %18, %2
  %21 = getelementptr inbounds i8, ptr %10, i32 %20
  %22 = load i8, ptr %21, align 1, !tbaa !9
  %23 = add nsw i32 %19, -1
  %24 = getelementptr inbounds i8, ptr %7, i32 %23
  store i8 %22, ptr %24, align 1, !tbaa !9
  %25 = udiv i32 %18, %2
  %26 = icmp ult i32 %18, %2
  br i1 %26, label %40, label %17, !llvm.loop !40

27:                                               ; preds = %27, %12
  %28 = phi i32 [ 24, %12 ], [ %37, %27 ]
  %29 = phi i64 [ %1, %12 ], [ %31, %27 ]
  %30 = freeze i64 %29
  %31 = udiv i64 %30, %13
  %32 = mul i64 %31, %13
  %33 = sub i64 %30, %32
  %34 = trunc nuw i64 %33 to i32
  %35 = getelementptr inbounds i8, ptr %10, i32 %34
  %36 = load i8, ptr %35, align 1, !tbaa !9
  %37 = add nsw i32 %28, -1
  %38 = getelementptr inbounds i8, ptr %7, i32 %37
  store i8 %36, ptr %38, align 1, !tbaa !9
  %39 = icmp ult i64 %29, %13
  br i1 %39, label %40, label %27, !llvm.loop !41

40:                                               ; preds = %27, %17, %14
  %41 = phi i32 [ 24, %14 ], [ %23, %17 ], [ %37, %27 ]
  %42 = icmp eq i64 %1, 0
  %43 = icmp ne i32 %5, 0
  %44 = and i1 %42, %43
  br i1 %44, label %45, label %48

45:                                               ; preds = %40
  %46 = add nsw i32 %41, -1
  %47 = getelementptr inbounds i8, ptr %7, i32 %46
  store i8 48, ptr %47, align 1, !tbaa !9
  br label %48

48:                                               ; preds = %45, %40
  %49 = phi i32 [ %46, %45 ], [ %41, %40 ]
  %50 = getelementptr inbounds i8, ptr %7, i32 %49
  %51 = and i32 %3, 8
  %52 = icmp ne i32 %51, 0
  %53 = icmp eq i32 %2, 8
  %54 = and i1 %53, %52
  %55 = sub nsw i32 24, %49
  %56 = icmp sge i32 %55, %5
  %57 = select i1 %54, i1 %56, i1 false
  br i1 %57, label %58, label %65

58:                                               ; preds = %48
  %59 = icmp eq i32 %49, 24
  br i1 %59, label %63, label %60

60:                                               ; preds = %58
  %61 = load i8, ptr %50, align 1, !tbaa !9
  %62 = icmp eq i8 %61, 48
  br i1 %62, label %65, label %63

63:                                               ; preds = %60, %58
  %64 = getelementptr inbounds i8, ptr %50, i32 -1
  store i8 48, ptr %64, align 1, !tbaa !9
  br label %65

65:                                               ; preds = %63, %60, %48
  %66 = phi ptr [ %64, %63 ], [ %50, %60 ], [ %50, %48 ]
  %67 = getelementptr inbounds i8, ptr %7, i32 24
  %68 = ptrtoint ptr %67 to i32
  %69 = icmp eq i32 %2, 16
  %70 = icmp ne i64 %1, 0
  %71 = and i1 %70, %69
  %72 = and i1 %71, %52
  %73 = select i1 %9, ptr @.str.6.32, ptr @.str.5.33
  %74 = select i1 %72, ptr %73, ptr @.str.17
  %75 = ptrtoint ptr %66 to i32
  %76 = sub i32 %68, %75
  %77 = call fastcc i32 @number.27(ptr noundef %0, ptr noundef nonnull %74, ptr noundef nonnull %66, i32 noundef %76, i32 noundef %3, i32 noundef %4, i32 noundef %5) #16
  call void @llvm.lifetime.end.p0(i64 24, ptr nonnull %7) #15
  ret i32 %77
}

; Function Attrs: nounwind optsize uwtable
define internal i32 @__print_string(ptr nocapture noundef %0, ptr noundef %1, i32 noundef %2, i32 noundef %3, i32 noundef %4) #2 {
  %6 = icmp eq ptr %1, null
  %7 = icmp ult i32 %4, 6
  %8 = select i1 %7, ptr @.str.17, ptr @.str.1.18
  %9 = select i1 %6, ptr %8, ptr %1
  %10 = icmp slt i32 %4, 0
  br i1 %10, label %11, label %20

11:                                               ; preds = %11, %5
  %12 = phi ptr [ %15, %11 ], [ %9, %5 ]
  %13 = load i8, ptr %12, align 1, !tbaa !9
  %14 = icmp eq i8 %13, 0
  %15 = getelementptr inbounds i8, ptr %12, i32 1
  br i1 %14, label %16, label %11, !llvm.loop !15

16:                                               ; preds = %11
  %17 = ptrtoint ptr %12 to i32
  %18 = ptrtoint ptr %9 to i32
  %19 = sub i32 %17, %18
  br label %30

20:                                               ; preds = %5
  %21 = icmp eq i32 %4, 0
  br i1 %21, label %30, label %22

22:                                               ; preds = %27, %20
  %23 = phi i32 [ %28, %27 ], [ 0, %20 ]
  %24 = getelementptr inbounds i8, ptr %9, i32 %23
  %25 = load i8, ptr %24, align 1, !tbaa !9
  %26 = icmp eq i8 %25, 0
  br i1 %26, label %30, label %27

27:                                               ; preds = %22
  %28 = add nuw nsw i32 %23, 1
  %29 = icmp eq i32 %28, %4
  br i1 %29, label %30, label %22, !llvm.loop !24

30:                                               ; preds = %27, %22, %20, %16
  %31 = phi i32 [ %19, %16 ], [ 0, %20 ], [ %23, %22 ], [ %4, %27 ]
  %32 = tail call fastcc i32 @padded(ptr noundef %0, ptr noundef nonnull %9, i32 noundef %31, i32 noundef %2, i32 noundef %3) #16
  ret i32 %32
}

; Function Attrs: noinline nounwind optnone uwtable
define internal void @json_write(ptr noundef %0, i32 noundef %1) #0 {
  %3 = alloca ptr, align 4
  %4 = alloca i32, align 4
  store ptr %0, ptr %3, align 4
  store i32 %1, ptr %4, align 4
  %5 = load ptr, ptr %3, align 4
  %6 = getelementptr inbounds %struct.value, ptr %5, i32 0, i32 0
  %7 = load i32, ptr %6, align 4
  switch i32 %7, label %30 [
    i32 0, label %8
    i32 1, label %10
    i32 2, label %12
    i32 3, label %14
    i32 4, label %20
    i32 5, label %24
    i32 6, label %27
  ]

8:                                                ; preds = %2
  %9 = call i32 @fputs(ptr noundef @.str.1.26, ptr noundef getelementptr inbounds ([3 x %struct.__stream], ptr @__streams, i32 0, i32 1))
  br label %30

10:                                               ; preds = %2
  %11 = call i32 @fputs(ptr noundef @.str.2.27, ptr noundef getelementptr inbounds ([3 x %struct.__stream], ptr @__streams, i32 0, i32 1))
  br label %30

12:                                               ; preds = %2
  %13 = call i32 @fputs(ptr noundef @.str.3.28, ptr noundef getelementptr inbounds ([3 x %struct.__stream], ptr @__streams, i32 0, i32 1))
  br label %30

14:                                               ; preds = %2
  %15 = load ptr, ptr %3, align 4
  %16 = getelementptr inbounds %struct.value, ptr %15, i32 0, i32 1
  %17 = load i64, ptr %16, align 4
  %18 = call i32 @__print_signed(ptr getelementptr inbounds ([3 x { i8, i8, i8, i8, ptr, i32 }], ptr @__streams, i32 0, i32 1), i64 %17, i32 0, i32 0, i32 -1)
  %19 = add i32 %18, 0
  br label %30

20:                                               ; preds = %2
  %21 = load ptr, ptr %3, align 4
  %22 = getelementptr inbounds %struct.value, ptr %21, i32 0, i32 2
  %23 = load ptr, ptr %22, align 4
  call void @write_text(ptr noundef %23)
  br label %30

24:                                               ; preds = %2
  %25 = load ptr, ptr %3, align 4
  %26 = load i32, ptr %4, align 4
  call void @write_group(ptr noundef %25, i32 noundef %26, ptr noundef @.str.5.30)
  br label %30

27:                                               ; preds = %2
  %28 = load ptr, ptr %3, align 4
  %29 = load i32, ptr %4, align 4
  call void @write_group(ptr noundef %28, i32 noundef %29, ptr noundef @.str.6.31)
  br label %30

30:                                               ; preds = %27, %24, %20, %14, %12, %10, %8, %2
  ret void
}

; Function Attrs: noinline nounwind optnone uwtable
define internal i32 @json_count(ptr noundef %0) #0 {
  %2 = alloca ptr, align 4
  %3 = alloca i32, align 4
  %4 = alloca ptr, align 4
  store ptr %0, ptr %2, align 4
  store i32 1, ptr %3, align 4
  %5 = load ptr, ptr %2, align 4
  %6 = getelementptr inbounds %struct.value, ptr %5, i32 0, i32 4
  %7 = load ptr, ptr %6, align 4
  store ptr %7, ptr %4, align 4
  br label %8

8:                                                ; preds = %16, %1
  %9 = load ptr, ptr %4, align 4
  %10 = icmp ne ptr %9, null
  br i1 %10, label %11, label %20

11:                                               ; preds = %8
  %12 = load ptr, ptr %4, align 4
  %13 = call i32 @json_count(ptr noundef %12)
  %14 = load i32, ptr %3, align 4
  %15 = add i32 %14, %13
  store i32 %15, ptr %3, align 4
  br label %16

16:                                               ; preds = %11
  %17 = load ptr, ptr %4, align 4
  %18 = getelementptr inbounds %struct.value, ptr %17, i32 0, i32 5
  %19 = load ptr, ptr %18, align 4
  store ptr %19, ptr %4, align 4
  br label %8, !llvm.loop !42

20:                                               ; preds = %8
  %21 = load i32, ptr %3, align 4
  ret i32 %21
}

; Function Attrs: noinline nounwind optnone uwtable
define internal i32 @json_depth(ptr noundef %0) #0 {
  %2 = alloca ptr, align 4
  %3 = alloca i32, align 4
  %4 = alloca ptr, align 4
  %5 = alloca i32, align 4
  store ptr %0, ptr %2, align 4
  store i32 0, ptr %3, align 4
  %6 = load ptr, ptr %2, align 4
  %7 = getelementptr inbounds %struct.value, ptr %6, i32 0, i32 4
  %8 = load ptr, ptr %7, align 4
  store ptr %8, ptr %4, align 4
  br label %9

9:                                                ; preds = %21, %1
  %10 = load ptr, ptr %4, align 4
  %11 = icmp ne ptr %10, null
  br i1 %11, label %12, label %25

12:                                               ; preds = %9
  %13 = load ptr, ptr %4, align 4
  %14 = call i32 @json_depth(ptr noundef %13)
  store i32 %14, ptr %5, align 4
  %15 = load i32, ptr %5, align 4
  %16 = load i32, ptr %3, align 4
  %17 = icmp sgt i32 %15, %16
  br i1 %17, label %18, label %20

18:                                               ; preds = %12
  %19 = load i32, ptr %5, align 4
  store i32 %19, ptr %3, align 4
  br label %20

20:                                               ; preds = %18, %12
  br label %21

21:                                               ; preds = %20
  %22 = load ptr, ptr %4, align 4
  %23 = getelementptr inbounds %struct.value, ptr %22, i32 0, i32 5
  %24 = load ptr, ptr %23, align 4
  store ptr %24, ptr %4, align 4
  br label %9, !llvm.loop !43

25:                                               ; preds = %9
  %26 = load i32, ptr %3, align 4
  %27 = add nsw i32 %26, 1
  ret i32 %27
}

; Function Attrs: nounwind optsize uwtable
define internal i32 @__print_signed(ptr nocapture noundef %0, i64 noundef %1, i32 noundef %2, i32 noundef %3, i32 noundef %4) #2 {
  %6 = alloca [24 x i8], align 1
  call void @llvm.lifetime.start.p0(i64 24, ptr nonnull %6) #15
  %7 = getelementptr inbounds i8, ptr %6, i32 24
  %8 = icmp slt i64 %1, 0
  %9 = lshr i64 %1, 63
  %10 = icmp ne i64 %9, 0
  %11 = sub i64 0, %1
  %12 = select i1 %10, i64 %11, i64 %1
  %13 = icmp ult i64 %12, 4294967296
  br i1 %13, label %14, label %26

14:                                               ; preds = %5
  %15 = trunc nuw i64 %12 to i32
  %16 = icmp eq i32 %15, 0
  br i1 %16, label %38, label %17

17:                                               ; preds = %17, %14
  %18 = phi i32 [ %24, %17 ], [ %15, %14 ]
  %19 = phi ptr [ %23, %17 ], [ %7, %14 ]
  %20 = urem i32 %18, 10
  %21 = getelementptr inbounds i8, ptr @.str.9.23, i32 %20
  %22 = load i8, ptr %21, align 1, !tbaa !9
  %23 = getelementptr inbounds i8, ptr %19, i32 -1
  store i8 %22, ptr %23, align 1, !tbaa !9
  %24 = udiv i32 %18, 10
  %25 = icmp ult i32 %18, 10
  br i1 %25, label %38, label %17, !llvm.loop !40

26:                                               ; preds = %26, %5
  %27 = phi ptr [ %36, %26 ], [ %7, %5 ]
  %28 = phi i64 [ %30, %26 ], [ %12, %5 ]
  %29 = freeze i64 %28
  %30 = udiv i64 %29, 10
  %31 = mul i64 %30, 10
  %32 = sub i64 %29, %31
  %33 = trunc nuw nsw i64 %32 to i32
  %34 = getelementptr inbounds i8, ptr @.str.9.23, i32 %33
  %35 = load i8, ptr %34, align 1, !tbaa !9
  %36 = getelementptr inbounds i8, ptr %27, i32 -1
  store i8 %35, ptr %36, align 1, !tbaa !9
  %37 = icmp ult i64 %28, 10
  br i1 %37, label %38, label %26, !llvm.loop !41

38:                                               ; preds = %26, %17, %14
  %39 = phi ptr [ %7, %14 ], [ %23, %17 ], [ %36, %26 ]
  %40 = icmp eq i64 %1, 0
  %41 = icmp ne i32 %4, 0
  %42 = and i1 %40, %41
  br i1 %42, label %43, label %45

43:                                               ; preds = %38
  %44 = getelementptr inbounds i8, ptr %39, i32 -1
  store i8 48, ptr %44, align 1, !tbaa !9
  br label %46

45:                                               ; preds = %38
  br i1 %8, label %54, label %46

46:                                               ; preds = %45, %43
  %47 = phi ptr [ %44, %43 ], [ %39, %45 ]
  %48 = and i32 %2, 2
  %49 = icmp eq i32 %48, 0
  br i1 %49, label %50, label %54

50:                                               ; preds = %46
  %51 = and i32 %2, 4
  %52 = icmp eq i32 %51, 0
  %53 = select i1 %52, ptr @.str.17, ptr @.str.4.24
  br label %54

54:                                               ; preds = %50, %46, %45
  %55 = phi ptr [ %39, %45 ], [ %47, %50 ], [ %47, %46 ]
  %56 = phi ptr [ @.str.2.25, %45 ], [ %53, %50 ], [ @.str.3.26, %46 ]
  %57 = ptrtoint ptr %7 to i32
  %58 = ptrtoint ptr %55 to i32
  %59 = sub i32 %57, %58
  %60 = call fastcc i32 @number.27(ptr noundef %0, ptr noundef nonnull %56, ptr noundef nonnull %55, i32 noundef %59, i32 noundef %2, i32 noundef %3, i32 noundef %4) #16
  call void @llvm.lifetime.end.p0(i64 24, ptr nonnull %6) #15
  ret i32 %60
}

; Function Attrs: noinline nounwind optnone uwtable
define internal void @answer(ptr noundef %0, ptr noundef %1) #0 {
  %3 = alloca ptr, align 4
  %4 = alloca ptr, align 4
  %5 = alloca ptr, align 4
  store ptr %0, ptr %3, align 4
  store ptr %1, ptr %4, align 4
  %6 = load ptr, ptr %4, align 4
  %7 = load ptr, ptr %4, align 4
  %8 = call i32 @strcspn(ptr noundef %7, ptr noundef @.str.4)
  %9 = getelementptr inbounds i8, ptr %6, i32 %8
  store i8 0, ptr %9, align 1
  %10 = load ptr, ptr %3, align 4
  %11 = load ptr, ptr %4, align 4
  %12 = call ptr @json_at(ptr noundef %10, ptr noundef %11)
  store ptr %12, ptr %5, align 4
  %13 = load ptr, ptr %4, align 4
  %14 = call i32 @__print_text(ptr getelementptr inbounds ([3 x { i8, i8, i8, i8, ptr, i32 }], ptr @__streams, i32 0, i32 1), ptr @.str.5, i32 2)
  %15 = call i32 @__print_string(ptr getelementptr inbounds ([3 x { i8, i8, i8, i8, ptr, i32 }], ptr @__streams, i32 0, i32 1), ptr %13, i32 0, i32 0, i32 -1)
  %16 = call i32 @__print_text(ptr getelementptr inbounds ([3 x { i8, i8, i8, i8, ptr, i32 }], ptr @__streams, i32 0, i32 1), ptr getelementptr inbounds (i8, ptr @.str.5, i32 4), i32 3)
  %17 = add i32 %14, %15
  %18 = add i32 %17, %16
  %19 = add i32 %18, 0
  %20 = load ptr, ptr %5, align 4
  %21 = icmp ne ptr %20, null
  br i1 %21, label %22, label %24

22:                                               ; preds = %2
  %23 = load ptr, ptr %5, align 4
  call void @json_write(ptr noundef %23, i32 noundef 0)
  br label %26

24:                                               ; preds = %2
  %25 = call i32 @fputs(ptr noundef @.str.6, ptr noundef getelementptr inbounds ([3 x %struct.__stream], ptr @__streams, i32 0, i32 1))
  br label %26

26:                                               ; preds = %24, %22
  %27 = call i32 @putchar(i32 noundef 10)
  ret void
}

; Function Attrs: noinline nounwind optnone uwtable
define internal void @json_free(ptr noundef %0) #0 {
  %2 = alloca ptr, align 4
  %3 = alloca ptr, align 4
  store ptr %0, ptr %2, align 4
  br label %4

4:                                                ; preds = %7, %1
  %5 = load ptr, ptr %2, align 4
  %6 = icmp ne ptr %5, null
  br i1 %6, label %7, label %22

7:                                                ; preds = %4
  %8 = load ptr, ptr %2, align 4
  %9 = getelementptr inbounds %struct.value, ptr %8, i32 0, i32 5
  %10 = load ptr, ptr %9, align 4
  store ptr %10, ptr %3, align 4
  %11 = load ptr, ptr %2, align 4
  %12 = getelementptr inbounds %struct.value, ptr %11, i32 0, i32 4
  %13 = load ptr, ptr %12, align 4
  call void @json_free(ptr noundef %13)
  %14 = load ptr, ptr %2, align 4
  %15 = getelementptr inbounds %struct.value, ptr %14, i32 0, i32 2
  %16 = load ptr, ptr %15, align 4
  call void @__sized_free(ptr noundef %16)
  %17 = load ptr, ptr %2, align 4
  %18 = getelementptr inbounds %struct.value, ptr %17, i32 0, i32 3
  %19 = load ptr, ptr %18, align 4
  call void @__sized_free(ptr noundef %19)
  %20 = load ptr, ptr %2, align 4
  call void @__sized_free(ptr noundef %20)
  %21 = load ptr, ptr %3, align 4
  store ptr %21, ptr %2, align 4
  br label %4, !llvm.loop !44

22:                                               ; preds = %4
  ret void
}

; Function Attrs: nofree norecurse nosync nounwind optsize memory(read, inaccessiblemem: none) uwtable
define internal i32 @strcspn(ptr nocapture noundef readonly %0, ptr nocapture noundef readonly %1) #3 {
  %3 = tail call fastcc i32 @span(ptr noundef %0, ptr noundef %1, i32 noundef 0) #16
  ret i32 %3
}

; Function Attrs: noinline nounwind optnone uwtable
define internal ptr @json_at(ptr noundef %0, ptr noundef %1) #0 {
  %3 = alloca ptr, align 4
  %4 = alloca ptr, align 4
  %5 = alloca i32, align 4
  %6 = alloca ptr, align 4
  %7 = alloca i32, align 4
  store ptr %0, ptr %3, align 4
  store ptr %1, ptr %4, align 4
  br label %8

8:                                                ; preds = %79, %2
  %9 = load ptr, ptr %3, align 4
  %10 = icmp ne ptr %9, null
  br i1 %10, label %11, label %16

11:                                               ; preds = %8
  %12 = load ptr, ptr %4, align 4
  %13 = load i8, ptr %12, align 1
  %14 = sext i8 %13 to i32
  %15 = icmp ne i32 %14, 0
  br label %16

16:                                               ; preds = %11, %8
  %17 = phi i1 [ false, %8 ], [ %15, %11 ]
  br i1 %17, label %18, label %92

18:                                               ; preds = %16
  %19 = load ptr, ptr %4, align 4
  %20 = call i32 @strcspn(ptr noundef %19, ptr noundef @.str.23)
  store i32 %20, ptr %5, align 4
  %21 = load ptr, ptr %3, align 4
  %22 = getelementptr inbounds %struct.value, ptr %21, i32 0, i32 4
  %23 = load ptr, ptr %22, align 4
  store ptr %23, ptr %6, align 4
  %24 = load ptr, ptr %3, align 4
  %25 = getelementptr inbounds %struct.value, ptr %24, i32 0, i32 0
  %26 = load i32, ptr %25, align 4
  %27 = icmp eq i32 %26, 5
  br i1 %27, label %28, label %45

28:                                               ; preds = %18
  %29 = load ptr, ptr %4, align 4
  %30 = call i32 @strtol(ptr noundef %29, ptr noundef null, i32 noundef 10)
  store i32 %30, ptr %7, align 4
  br label %31

31:                                               ; preds = %40, %28
  %32 = load ptr, ptr %6, align 4
  %33 = icmp ne ptr %32, null
  br i1 %33, label %34, label %38

34:                                               ; preds = %31
  %35 = load i32, ptr %7, align 4
  %36 = add nsw i32 %35, -1
  store i32 %36, ptr %7, align 4
  %37 = icmp sgt i32 %35, 0
  br label %38

38:                                               ; preds = %34, %31
  %39 = phi i1 [ false, %31 ], [ %37, %34 ]
  br i1 %39, label %40, label %44

40:                                               ; preds = %38
  %41 = load ptr, ptr %6, align 4
  %42 = getelementptr inbounds %struct.value, ptr %41, i32 0, i32 5
  %43 = load ptr, ptr %42, align 4
  store ptr %43, ptr %6, align 4
  br label %31, !llvm.loop !45

44:                                               ; preds = %38
  br label %79

45:                                               ; preds = %18
  br label %46

46:                                               ; preds = %74, %45
  %47 = load ptr, ptr %6, align 4
  %48 = icmp ne ptr %47, null
  br i1 %48, label %49, label %72

49:                                               ; preds = %46
  %50 = load ptr, ptr %6, align 4
  %51 = getelementptr inbounds %struct.value, ptr %50, i32 0, i32 3
  %52 = load ptr, ptr %51, align 4
  %53 = icmp ne ptr %52, null
  br i1 %53, label %54, label %69

54:                                               ; preds = %49
  %55 = load ptr, ptr %6, align 4
  %56 = getelementptr inbounds %struct.value, ptr %55, i32 0, i32 3
  %57 = load ptr, ptr %56, align 4
  %58 = call i32 @strlen(ptr noundef %57) #15
  %59 = load i32, ptr %5, align 4
  %60 = icmp eq i32 %58, %59
  br i1 %60, label %61, label %69

61:                                               ; preds = %54
  %62 = load ptr, ptr %6, align 4
  %63 = getelementptr inbounds %struct.value, ptr %62, i32 0, i32 3
  %64 = load ptr, ptr %63, align 4
  %65 = load ptr, ptr %4, align 4
  %66 = load i32, ptr %5, align 4
  %67 = call i32 @strncmp(ptr noundef %64, ptr noundef %65, i32 noundef %66) #15
  %68 = icmp eq i32 %67, 0
  br label %69

69:                                               ; preds = %61, %54, %49
  %70 = phi i1 [ false, %54 ], [ false, %49 ], [ %68, %61 ]
  %71 = xor i1 %70, true
  br label %72

72:                                               ; preds = %69, %46
  %73 = phi i1 [ false, %46 ], [ %71, %69 ]
  br i1 %73, label %74, label %78

74:                                               ; preds = %72
  %75 = load ptr, ptr %6, align 4
  %76 = getelementptr inbounds %struct.value, ptr %75, i32 0, i32 5
  %77 = load ptr, ptr %76, align 4
  store ptr %77, ptr %6, align 4
  br label %46, !llvm.loop !46

78:                                               ; preds = %72
  br label %79

79:                                               ; preds = %78, %44
  %80 = load ptr, ptr %6, align 4
  store ptr %80, ptr %3, align 4
  %81 = load i32, ptr %5, align 4
  %82 = load ptr, ptr %4, align 4
  %83 = load i32, ptr %5, align 4
  %84 = getelementptr inbounds i8, ptr %82, i32 %83
  %85 = load i8, ptr %84, align 1
  %86 = sext i8 %85 to i32
  %87 = icmp eq i32 %86, 46
  %88 = zext i1 %87 to i32
  %89 = add i32 %81, %88
  %90 = load ptr, ptr %4, align 4
  %91 = getelementptr inbounds i8, ptr %90, i32 %89
  store ptr %91, ptr %4, align 4
  br label %8, !llvm.loop !47

92:                                               ; preds = %16
  %93 = load ptr, ptr %3, align 4
  ret ptr %93
}

; Function Attrs: nounwind optsize uwtable
define internal range(i32 -1, 2) i32 @fputs(ptr noalias nocapture noundef readonly %0, ptr noalias nocapture noundef %1) #2 {
  %3 = load i8, ptr %0, align 1, !tbaa !9
  %4 = icmp eq i8 %3, 0
  br i1 %4, label %15, label %9

5:                                                ; preds = %9
  %6 = getelementptr inbounds i8, ptr %11, i32 1
  %7 = load i8, ptr %6, align 1, !tbaa !9
  %8 = icmp eq i8 %7, 0
  br i1 %8, label %15, label %9, !llvm.loop !48

9:                                                ; preds = %5, %2
  %10 = phi i8 [ %7, %5 ], [ %3, %2 ]
  %11 = phi ptr [ %6, %5 ], [ %0, %2 ]
  %12 = sext i8 %10 to i32
  %13 = tail call i32 @fputc(i32 noundef %12, ptr noundef %1) #16
  %14 = icmp eq i32 %13, -1
  br i1 %14, label %15, label %5

15:                                               ; preds = %9, %5, %2
  %16 = phi i32 [ 1, %2 ], [ 1, %5 ], [ -1, %9 ]
  ret i32 %16
}

declare dso_local i32 @putchar(i32 noundef) #6

; Function Attrs: nounwind optsize uwtable
define internal range(i32 -1, 256) i32 @fputc(i32 noundef %0, ptr nocapture noundef %1) local_unnamed_addr #2 {
  %3 = load i8, ptr %1, align 4, !tbaa !31
  switch i8 %3, label %17 [
    i8 1, label %4
    i8 3, label %6
    i8 0, label %19
  ]

4:                                                ; preds = %2
  %5 = tail call i32 @putchar(i32 noundef %0) #19
  br label %17

6:                                                ; preds = %2
  %7 = getelementptr inbounds i8, ptr %1, i32 8
  %8 = load i32, ptr %7, align 4, !tbaa !49
  %9 = icmp eq i32 %8, 0
  br i1 %9, label %17, label %10

10:                                               ; preds = %6
  %11 = trunc i32 %0 to i8
  %12 = getelementptr inbounds i8, ptr %1, i32 4
  %13 = load ptr, ptr %12, align 4, !tbaa !50
  %14 = getelementptr inbounds i8, ptr %13, i32 1
  store ptr %14, ptr %12, align 4, !tbaa !50
  store i8 %11, ptr %13, align 1, !tbaa !9
  %15 = load i32, ptr %7, align 4, !tbaa !49
  %16 = add i32 %15, -1
  store i32 %16, ptr %7, align 4, !tbaa !49
  br label %17

17:                                               ; preds = %10, %6, %4, %2
  %18 = and i32 %0, 255
  br label %19

19:                                               ; preds = %17, %2
  %20 = phi i32 [ %18, %17 ], [ -1, %2 ]
  ret i32 %20
}

; Function Attrs: nofree norecurse nosync nounwind optsize memory(readwrite, inaccessiblemem: none) uwtable
define internal i32 @strtol(ptr noalias noundef %0, ptr noalias noundef %1, i32 noundef %2) #11 {
  %4 = alloca %struct.number, align 8
  call void @llvm.lifetime.start.p0(i64 16, ptr nonnull %4) #15
  %5 = call fastcc ptr @scan(ptr noundef nonnull %4, ptr noundef %0, ptr noundef %1, i32 noundef %2, i64 noundef 2147483647, i64 noundef 2147483648) #16
  %6 = getelementptr inbounds i8, ptr %4, i32 8
  %7 = load i32, ptr %6, align 8, !tbaa !51
  %8 = icmp eq i32 %7, 0
  %9 = load i64, ptr %4, align 8
  %10 = sub i64 0, %9
  %11 = select i1 %8, i64 %9, i64 %10
  %12 = trunc i64 %11 to i32
  call void @llvm.lifetime.end.p0(i64 16, ptr nonnull %4) #15
  ret i32 %12
}

; Function Attrs: nofree norecurse nosync nounwind optsize memory(read, inaccessiblemem: none) uwtable
define internal range(i32 -1, 2) i32 @strncmp(ptr nocapture noundef readonly %0, ptr nocapture noundef readonly %1, i32 noundef %2) #3 {
  %4 = icmp eq i32 %2, 0
  br i1 %4, label %24, label %5

5:                                                ; preds = %14, %3
  %6 = phi ptr [ %16, %14 ], [ %1, %3 ]
  %7 = phi ptr [ %15, %14 ], [ %0, %3 ]
  %8 = phi i32 [ %17, %14 ], [ %2, %3 ]
  %9 = load i8, ptr %7, align 1, !tbaa !9
  %10 = icmp ne i8 %9, 0
  %11 = load i8, ptr %6, align 1, !tbaa !9
  %12 = icmp eq i8 %9, %11
  %13 = select i1 %10, i1 %12, i1 false
  br i1 %13, label %14, label %19

14:                                               ; preds = %5
  %15 = getelementptr inbounds i8, ptr %7, i32 1
  %16 = getelementptr inbounds i8, ptr %6, i32 1
  %17 = add i32 %8, -1
  %18 = icmp eq i32 %17, 0
  br i1 %18, label %24, label %5, !llvm.loop !54

19:                                               ; preds = %5
  %20 = icmp ult i8 %9, %11
  br i1 %20, label %24, label %21

21:                                               ; preds = %19
  %22 = icmp ugt i8 %9, %11
  %23 = zext i1 %22 to i32
  br label %24

24:                                               ; preds = %21, %19, %14, %3
  %25 = phi i32 [ %23, %21 ], [ -1, %19 ], [ 0, %3 ], [ 0, %14 ]
  ret i32 %25
}

; Function Attrs: nocallback nofree nosync nounwind willreturn memory(argmem: readwrite)
declare void @llvm.lifetime.start.p0(i64 immarg, ptr nocapture) #12

; Function Attrs: nofree norecurse nosync nounwind optsize memory(readwrite, inaccessiblemem: none) uwtable
define internal fastcc noundef ptr @scan(ptr noundef returned writeonly %0, ptr noundef %1, ptr noundef writeonly %2, i32 noundef %3, i64 noundef %4, i64 noundef %5) unnamed_addr #11 {
  store i64 0, ptr %0, align 4, !tbaa !55
  %7 = getelementptr inbounds i8, ptr %0, i32 8
  store i32 0, ptr %7, align 4, !tbaa !51
  %8 = getelementptr inbounds i8, ptr %0, i32 12
  store i32 0, ptr %8, align 4, !tbaa !56
  %9 = icmp eq i32 %3, 1
  %10 = icmp ugt i32 %3, 36
  %11 = or i1 %10, %9
  br i1 %11, label %12, label %13

12:                                               ; preds = %6
  store i32 22, ptr @errno, align 4, !tbaa !16
  br label %132

13:                                               ; preds = %6
  %14 = icmp eq ptr %2, null
  br i1 %14, label %16, label %15

15:                                               ; preds = %13
  store ptr %1, ptr %2, align 4, !tbaa !57
  br label %16

16:                                               ; preds = %15, %13
  br label %17

17:                                               ; preds = %17, %16
  %18 = phi ptr [ %25, %17 ], [ %1, %16 ]
  %19 = load i8, ptr %18, align 1, !tbaa !9
  %20 = zext i8 %19 to i32
  %21 = icmp ne i8 %19, 32
  %22 = add nsw i32 %20, -14
  %23 = icmp ult i32 %22, -5
  %24 = and i1 %21, %23
  %25 = getelementptr inbounds i8, ptr %18, i32 1
  br i1 %24, label %26, label %17, !llvm.loop !58

26:                                               ; preds = %17
  switch i8 %19, label %31 [
    i8 45, label %27
    i8 43, label %27
  ]

27:                                               ; preds = %26, %26
  %28 = icmp eq i8 %19, 45
  %29 = zext i1 %28 to i32
  store i32 %29, ptr %7, align 4, !tbaa !51
  %30 = select i1 %28, i64 %5, i64 %4
  br label %31

31:                                               ; preds = %27, %26
  %32 = phi i64 [ %30, %27 ], [ %4, %26 ]
  %33 = phi ptr [ %25, %27 ], [ %18, %26 ]
  %34 = icmp ne i32 %3, 0
  switch i32 %3, label %66 [
    i32 16, label %35
    i32 0, label %35
  ]

35:                                               ; preds = %31, %31
  %36 = load i8, ptr %33, align 1, !tbaa !9
  %37 = icmp eq i8 %36, 48
  br i1 %37, label %38, label %63

38:                                               ; preds = %35
  %39 = getelementptr inbounds i8, ptr %33, i32 1
  %40 = load i8, ptr %39, align 1, !tbaa !9
  switch i8 %40, label %63 [
    i8 120, label %41
    i8 88, label %41
  ]

41:                                               ; preds = %38, %38
  %42 = getelementptr inbounds i8, ptr %33, i32 2
  %43 = load i8, ptr %42, align 1, !tbaa !9
  %44 = zext i8 %43 to i32
  %45 = add nsw i32 %44, -58
  %46 = icmp ult i32 %45, -10
  br i1 %46, label %47, label %66

47:                                               ; preds = %41
  %48 = and i32 %44, 223
  %49 = add nsw i32 %48, -91
  %50 = icmp ult i32 %49, -26
  br i1 %50, label %51, label %52

51:                                               ; preds = %47
  br i1 %34, label %66, label %64

52:                                               ; preds = %47
  %53 = add nsw i32 %44, -91
  %54 = icmp ult i32 %53, -26
  %55 = add nuw nsw i32 %44, 32
  %56 = select i1 %54, i32 %44, i32 %55
  %57 = freeze i32 %56
  %58 = add i32 %57, -87
  %59 = icmp ult i32 %58, 16
  %60 = or i1 %34, %59
  %61 = select i1 %59, ptr %42, ptr %33
  %62 = select i1 %59, i32 16, i32 %3
  br i1 %60, label %66, label %64

63:                                               ; preds = %38, %35
  br i1 %34, label %66, label %64

64:                                               ; preds = %63, %52, %51
  %65 = select i1 %37, i32 8, i32 10
  br label %66

66:                                               ; preds = %64, %63, %52, %51, %41, %31
  %67 = phi ptr [ %33, %64 ], [ %33, %63 ], [ %33, %31 ], [ %42, %41 ], [ %33, %51 ], [ %61, %52 ]
  %68 = phi i32 [ %65, %64 ], [ %3, %63 ], [ %3, %31 ], [ 16, %41 ], [ %3, %51 ], [ %62, %52 ]
  %69 = load i8, ptr %67, align 1, !tbaa !9
  %70 = zext i8 %69 to i32
  %71 = add nsw i32 %70, -48
  %72 = icmp ugt i32 %71, 9
  br i1 %72, label %73, label %83

73:                                               ; preds = %66
  %74 = and i32 %70, 223
  %75 = add nsw i32 %74, -91
  %76 = icmp ult i32 %75, -26
  br i1 %76, label %83, label %77

77:                                               ; preds = %73
  %78 = add nsw i32 %70, -91
  %79 = icmp ult i32 %78, -26
  %80 = add nuw nsw i32 %70, 32
  %81 = select i1 %79, i32 %70, i32 %80
  %82 = add nsw i32 %81, -87
  br label %83

83:                                               ; preds = %77, %73, %66
  %84 = phi i32 [ %82, %77 ], [ 255, %73 ], [ %71, %66 ]
  %85 = icmp ult i32 %84, %68
  br i1 %85, label %86, label %132

86:                                               ; preds = %83
  %87 = zext nneg i32 %68 to i64
  br label %88

88:                                               ; preds = %123, %86
  %89 = phi i64 [ %124, %123 ], [ 0, %86 ]
  %90 = phi i32 [ %125, %123 ], [ 0, %86 ]
  %91 = phi i8 [ %127, %123 ], [ %69, %86 ]
  %92 = phi ptr [ %126, %123 ], [ %67, %86 ]
  %93 = zext i8 %91 to i32
  %94 = add nsw i32 %93, -48
  %95 = icmp ugt i32 %94, 9
  br i1 %95, label %96, label %106

96:                                               ; preds = %88
  %97 = and i32 %93, 223
  %98 = add nsw i32 %97, -91
  %99 = icmp ult i32 %98, -26
  br i1 %99, label %106, label %100

100:                                              ; preds = %96
  %101 = add nsw i32 %93, -91
  %102 = icmp ult i32 %101, -26
  %103 = add nuw nsw i32 %93, 32
  %104 = select i1 %102, i32 %93, i32 %103
  %105 = add nsw i32 %104, -87
  br label %106

106:                                              ; preds = %100, %96, %88
  %107 = phi i32 [ %105, %100 ], [ 255, %96 ], [ %94, %88 ]
  %108 = icmp ult i32 %107, %68
  br i1 %108, label %110, label %109

109:                                              ; preds = %106
  br i1 %14, label %129, label %128

110:                                              ; preds = %106
  %111 = icmp eq i32 %90, 0
  br i1 %111, label %112, label %119

112:                                              ; preds = %110
  %113 = zext nneg i32 %107 to i64
  %114 = sub i64 %32, %113
  %115 = udiv i64 %114, %87
  %116 = icmp ugt i64 %89, %115
  %117 = icmp ult i64 %32, %113
  %118 = or i1 %116, %117
  br i1 %118, label %119, label %120

119:                                              ; preds = %112, %110
  store i32 1, ptr %8, align 4, !tbaa !56
  br label %123

120:                                              ; preds = %112
  %121 = mul i64 %89, %87
  %122 = add i64 %121, %113
  store i64 %122, ptr %0, align 4, !tbaa !55
  br label %123

123:                                              ; preds = %120, %119
  %124 = phi i64 [ %89, %119 ], [ %122, %120 ]
  %125 = phi i32 [ 1, %119 ], [ 0, %120 ]
  %126 = getelementptr inbounds i8, ptr %92, i32 1
  %127 = load i8, ptr %126, align 1, !tbaa !9
  br label %88, !llvm.loop !59

128:                                              ; preds = %109
  store ptr %92, ptr %2, align 4, !tbaa !57
  br label %129

129:                                              ; preds = %128, %109
  %130 = icmp eq i32 %90, 0
  br i1 %130, label %132, label %131

131:                                              ; preds = %129
  store i32 34, ptr @errno, align 4, !tbaa !16
  store i64 %32, ptr %0, align 4, !tbaa !55
  br label %132

132:                                              ; preds = %131, %129, %83, %12
  ret ptr %0
}

; Function Attrs: nocallback nofree nosync nounwind willreturn memory(argmem: readwrite)
declare void @llvm.lifetime.end.p0(i64 immarg, ptr nocapture) #12

; Function Attrs: nofree norecurse nosync nounwind optsize memory(read, inaccessiblemem: none) uwtable
define internal fastcc i32 @span(ptr nocapture noundef readonly %0, ptr nocapture noundef readonly %1, i32 noundef %2) unnamed_addr #3 {
  %4 = alloca [256 x i8], align 1
  call void @llvm.lifetime.start.p0(i64 256, ptr nonnull %4) #15
  br label %5

5:                                                ; preds = %5, %3
  %6 = phi ptr [ %4, %3 ], [ %9, %5 ]
  %7 = phi i32 [ 256, %3 ], [ %8, %5 ]
  %8 = add nsw i32 %7, -1
  %9 = getelementptr inbounds i8, ptr %6, i32 1
  store i8 0, ptr %6, align 1, !tbaa !9
  %10 = icmp eq i32 %8, 0
  br i1 %10, label %11, label %5, !llvm.loop !30

11:                                               ; preds = %5
  %12 = load i8, ptr %1, align 1, !tbaa !9
  %13 = icmp eq i8 %12, 0
  br i1 %13, label %14, label %17

14:                                               ; preds = %17, %11
  %15 = load i8, ptr %0, align 1, !tbaa !9
  %16 = icmp eq i8 %15, 0
  br i1 %16, label %38, label %25

17:                                               ; preds = %17, %11
  %18 = phi i8 [ %23, %17 ], [ %12, %11 ]
  %19 = phi ptr [ %20, %17 ], [ %1, %11 ]
  %20 = getelementptr inbounds i8, ptr %19, i32 1
  %21 = zext i8 %18 to i32
  %22 = getelementptr inbounds [256 x i8], ptr %4, i32 0, i32 %21
  store i8 1, ptr %22, align 1, !tbaa !9
  %23 = load i8, ptr %20, align 1, !tbaa !9
  %24 = icmp eq i8 %23, 0
  br i1 %24, label %14, label %17, !llvm.loop !60

25:                                               ; preds = %33, %14
  %26 = phi i8 [ %36, %33 ], [ %15, %14 ]
  %27 = phi i32 [ %34, %33 ], [ 0, %14 ]
  %28 = zext i8 %26 to i32
  %29 = getelementptr inbounds [256 x i8], ptr %4, i32 0, i32 %28
  %30 = load i8, ptr %29, align 1, !tbaa !9
  %31 = zext i8 %30 to i32
  %32 = icmp eq i32 %31, %2
  br i1 %32, label %33, label %38

33:                                               ; preds = %25
  %34 = add i32 %27, 1
  %35 = getelementptr inbounds i8, ptr %0, i32 %34
  %36 = load i8, ptr %35, align 1, !tbaa !9
  %37 = icmp eq i8 %36, 0
  br i1 %37, label %38, label %25, !llvm.loop !61

38:                                               ; preds = %33, %25, %14
  %39 = phi i32 [ 0, %14 ], [ %34, %33 ], [ %27, %25 ]
  call void @llvm.lifetime.end.p0(i64 256, ptr nonnull %4) #15
  ret i32 %39
}

; Function Attrs: nounwind optsize uwtable
define internal fastcc i32 @number.27(ptr nocapture noundef %0, ptr noundef %1, ptr nocapture noundef readonly %2, i32 noundef %3, i32 noundef %4, i32 noundef %5, i32 noundef %6) unnamed_addr #2 {
  br label %8

8:                                                ; preds = %8, %7
  %9 = phi ptr [ %1, %7 ], [ %12, %8 ]
  %10 = load i8, ptr %9, align 1, !tbaa !9
  %11 = icmp eq i8 %10, 0
  %12 = getelementptr inbounds i8, ptr %9, i32 1
  br i1 %11, label %13, label %8, !llvm.loop !15

13:                                               ; preds = %8
  %14 = ptrtoint ptr %9 to i32
  %15 = ptrtoint ptr %1 to i32
  %16 = sub i32 %14, %15
  %17 = sub nsw i32 %6, %3
  %18 = lshr i32 %5, 31
  %19 = icmp ne i32 %18, 0
  %20 = sub i32 0, %5
  %21 = select i1 %19, i32 %20, i32 %5
  %22 = lshr i32 %5, 31
  %23 = tail call i32 @llvm.smax.i32(i32 %17, i32 0)
  %24 = icmp slt i32 %6, 0
  %25 = and i32 %4, 16
  %26 = icmp ne i32 %25, 0
  %27 = and i1 %26, %24
  %28 = and i32 %4, 1
  %29 = or i32 %22, %28
  %30 = icmp eq i32 %29, 0
  %31 = and i1 %27, %30
  %32 = add i32 %16, %3
  %33 = icmp sgt i32 %21, %32
  %34 = select i1 %31, i1 %33, i1 false
  %35 = sub i32 %21, %32
  %36 = select i1 %34, i32 %35, i32 %23
  %37 = add i32 %32, %36
  %38 = sub i32 %21, %37
  br i1 %30, label %39, label %48

39:                                               ; preds = %13
  %40 = icmp sgt i32 %38, 0
  br i1 %40, label %41, label %46

41:                                               ; preds = %41, %39
  %42 = phi i32 [ %44, %41 ], [ 0, %39 ]
  %43 = tail call i32 @fputc(i32 noundef 32, ptr noundef %0) #16
  %44 = add nuw nsw i32 %42, 1
  %45 = icmp eq i32 %44, %38
  br i1 %45, label %46, label %41, !llvm.loop !62

46:                                               ; preds = %41, %39
  %47 = tail call noundef i32 @llvm.smax.i32(i32 %38, i32 0)
  br label %48

48:                                               ; preds = %46, %13
  %49 = phi i32 [ 0, %13 ], [ %47, %46 ]
  %50 = load i8, ptr %0, align 4, !tbaa !31, !alias.scope !63, !noalias !66
  %51 = icmp eq i8 %50, 0
  %52 = icmp eq ptr %9, %1
  %53 = or i1 %52, %51
  br i1 %53, label %62, label %54

54:                                               ; preds = %54, %48
  %55 = phi i32 [ %60, %54 ], [ 0, %48 ]
  %56 = getelementptr inbounds i8, ptr %1, i32 %55
  %57 = load i8, ptr %56, align 1, !tbaa !9, !alias.scope !66, !noalias !63
  %58 = zext i8 %57 to i32
  %59 = tail call i32 @fputc(i32 noundef %58, ptr noundef nonnull %0) #16, !noalias !66
  %60 = add nuw i32 %55, 1
  %61 = icmp eq i32 %60, %16
  br i1 %61, label %62, label %54, !llvm.loop !39

62:                                               ; preds = %54, %48
  %63 = icmp sgt i32 %36, 0
  br i1 %63, label %64, label %69

64:                                               ; preds = %64, %62
  %65 = phi i32 [ %67, %64 ], [ 0, %62 ]
  %66 = tail call i32 @fputc(i32 noundef 48, ptr noundef nonnull %0) #16
  %67 = add nuw nsw i32 %65, 1
  %68 = icmp eq i32 %67, %36
  br i1 %68, label %69, label %64, !llvm.loop !62

69:                                               ; preds = %64, %62
  %70 = tail call noundef i32 @llvm.smax.i32(i32 %36, i32 0)
  %71 = load i8, ptr %0, align 4, !tbaa !31, !alias.scope !68, !noalias !71
  %72 = icmp eq i8 %71, 0
  %73 = icmp eq i32 %3, 0
  %74 = or i1 %73, %72
  br i1 %74, label %83, label %75

75:                                               ; preds = %75, %69
  %76 = phi i32 [ %81, %75 ], [ 0, %69 ]
  %77 = getelementptr inbounds i8, ptr %2, i32 %76
  %78 = load i8, ptr %77, align 1, !tbaa !9, !alias.scope !71, !noalias !68
  %79 = zext i8 %78 to i32
  %80 = tail call i32 @fputc(i32 noundef %79, ptr noundef nonnull %0) #16, !noalias !71
  %81 = add nuw i32 %76, 1
  %82 = icmp eq i32 %81, %3
  br i1 %82, label %83, label %75, !llvm.loop !39

83:                                               ; preds = %75, %69
  %84 = add i32 %32, %70
  %85 = add i32 %84, %49
  br i1 %30, label %96, label %86

86:                                               ; preds = %83
  %87 = icmp sgt i32 %38, 0
  br i1 %87, label %88, label %93

88:                                               ; preds = %88, %86
  %89 = phi i32 [ %91, %88 ], [ 0, %86 ]
  %90 = tail call i32 @fputc(i32 noundef 32, ptr noundef nonnull %0) #16
  %91 = add nuw nsw i32 %89, 1
  %92 = icmp eq i32 %91, %38
  br i1 %92, label %93, label %88, !llvm.loop !62

93:                                               ; preds = %88, %86
  %94 = tail call noundef i32 @llvm.smax.i32(i32 %38, i32 0)
  %95 = add nsw i32 %85, %94
  br label %96

96:                                               ; preds = %93, %83
  %97 = phi i32 [ %95, %93 ], [ %85, %83 ]
  ret i32 %97
}

; Function Attrs: nocallback nofree nosync nounwind speculatable willreturn memory(none)
declare i32 @llvm.smax.i32(i32, i32) #9

; Function Attrs: noinline nounwind optnone uwtable
define internal void @write_text(ptr noundef %0) #0 {
  %2 = alloca ptr, align 4
  %3 = alloca i8, align 1
  store ptr %0, ptr %2, align 4
  %4 = call i32 @putchar(i32 noundef 34)
  br label %5

5:                                                ; preds = %51, %1
  %6 = load ptr, ptr %2, align 4
  %7 = load i8, ptr %6, align 1
  %8 = icmp ne i8 %7, 0
  br i1 %8, label %9, label %54

9:                                                ; preds = %5
  %10 = load ptr, ptr %2, align 4
  %11 = load i8, ptr %10, align 1
  store i8 %11, ptr %3, align 1
  %12 = load i8, ptr %3, align 1
  %13 = zext i8 %12 to i32
  %14 = icmp eq i32 %13, 34
  br i1 %14, label %19, label %15

15:                                               ; preds = %9
  %16 = load i8, ptr %3, align 1
  %17 = zext i8 %16 to i32
  %18 = icmp eq i32 %17, 92
  br i1 %18, label %19, label %26

19:                                               ; preds = %15, %9
  %20 = load i8, ptr %3, align 1
  %21 = zext i8 %20 to i32
  %22 = call i32 @__print_text(ptr getelementptr inbounds ([3 x { i8, i8, i8, i8, ptr, i32 }], ptr @__streams, i32 0, i32 1), ptr @.str.7.37, i32 1)
  %23 = call i32 @__print_character(ptr getelementptr inbounds ([3 x { i8, i8, i8, i8, ptr, i32 }], ptr @__streams, i32 0, i32 1), i32 %21, i32 0, i32 0)
  %24 = add i32 %22, %23
  %25 = add i32 %24, 0
  br label %50

26:                                               ; preds = %15
  %27 = load i8, ptr %3, align 1
  %28 = zext i8 %27 to i32
  %29 = icmp eq i32 %28, 10
  br i1 %29, label %30, label %32

30:                                               ; preds = %26
  %31 = call i32 @fputs(ptr noundef @.str.8.38, ptr noundef getelementptr inbounds ([3 x %struct.__stream], ptr @__streams, i32 0, i32 1))
  br label %49

32:                                               ; preds = %26
  %33 = load i8, ptr %3, align 1
  %34 = zext i8 %33 to i32
  %35 = icmp slt i32 %34, 32
  br i1 %35, label %36, label %44

36:                                               ; preds = %32
  %37 = load i8, ptr %3, align 1
  %38 = zext i8 %37 to i32
  %39 = call i32 @__print_text(ptr getelementptr inbounds ([3 x { i8, i8, i8, i8, ptr, i32 }], ptr @__streams, i32 0, i32 1), ptr @.str.9.39, i32 2)
  %40 = zext i32 %38 to i64
  %41 = call i32 @__print_unsigned(ptr getelementptr inbounds ([3 x { i8, i8, i8, i8, ptr, i32 }], ptr @__streams, i32 0, i32 1), i64 %40, i32 16, i32 16, i32 4, i32 -1)
  %42 = add i32 %39, %41
  %43 = add i32 %42, 0
  br label %48

44:                                               ; preds = %32
  %45 = load i8, ptr %3, align 1
  %46 = zext i8 %45 to i32
  %47 = call i32 @putchar(i32 noundef %46)
  br label %48

48:                                               ; preds = %44, %36
  br label %49

49:                                               ; preds = %48, %30
  br label %50

50:                                               ; preds = %49, %19
  br label %51

51:                                               ; preds = %50
  %52 = load ptr, ptr %2, align 4
  %53 = getelementptr inbounds i8, ptr %52, i32 1
  store ptr %53, ptr %2, align 4
  br label %5, !llvm.loop !73

54:                                               ; preds = %5
  %55 = call i32 @putchar(i32 noundef 34)
  ret void
}

; Function Attrs: noinline nounwind optnone uwtable
define internal void @write_group(ptr noundef %0, i32 noundef %1, ptr noundef %2) #0 {
  %4 = alloca ptr, align 4
  %5 = alloca i32, align 4
  %6 = alloca ptr, align 4
  %7 = alloca ptr, align 4
  store ptr %0, ptr %4, align 4
  store i32 %1, ptr %5, align 4
  store ptr %2, ptr %6, align 4
  %8 = load ptr, ptr %6, align 4
  %9 = getelementptr inbounds i8, ptr %8, i32 0
  %10 = load i8, ptr %9, align 1
  %11 = sext i8 %10 to i32
  %12 = call i32 @putchar(i32 noundef %11)
  %13 = load ptr, ptr %4, align 4
  %14 = getelementptr inbounds %struct.value, ptr %13, i32 0, i32 4
  %15 = load ptr, ptr %14, align 4
  store ptr %15, ptr %7, align 4
  br label %16

16:                                               ; preds = %48, %3
  %17 = load ptr, ptr %7, align 4
  %18 = icmp ne ptr %17, null
  br i1 %18, label %19, label %52

19:                                               ; preds = %16
  %20 = load ptr, ptr %7, align 4
  %21 = load ptr, ptr %4, align 4
  %22 = getelementptr inbounds %struct.value, ptr %21, i32 0, i32 4
  %23 = load ptr, ptr %22, align 4
  %24 = icmp eq ptr %20, %23
  %25 = zext i1 %24 to i64
  %26 = select i1 %24, ptr @.str.11.32, ptr @.str.12.33
  %27 = load i32, ptr %5, align 4
  %28 = add nsw i32 %27, 2
  %29 = call i32 @__print_string(ptr getelementptr inbounds ([3 x { i8, i8, i8, i8, ptr, i32 }], ptr @__streams, i32 0, i32 1), ptr %26, i32 0, i32 0, i32 -1)
  %30 = call i32 @__print_text(ptr getelementptr inbounds ([3 x { i8, i8, i8, i8, ptr, i32 }], ptr @__streams, i32 0, i32 1), ptr getelementptr inbounds (i8, ptr @.str.10.34, i32 2), i32 1)
  %31 = call i32 @__print_string(ptr getelementptr inbounds ([3 x { i8, i8, i8, i8, ptr, i32 }], ptr @__streams, i32 0, i32 1), ptr @.str.11.32, i32 0, i32 %28, i32 -1)
  %32 = add i32 %29, %30
  %33 = add i32 %32, %31
  %34 = add i32 %33, 0
  %35 = load ptr, ptr %7, align 4
  %36 = getelementptr inbounds %struct.value, ptr %35, i32 0, i32 3
  %37 = load ptr, ptr %36, align 4
  %38 = icmp ne ptr %37, null
  br i1 %38, label %39, label %44

39:                                               ; preds = %19
  %40 = load ptr, ptr %7, align 4
  %41 = getelementptr inbounds %struct.value, ptr %40, i32 0, i32 3
  %42 = load ptr, ptr %41, align 4
  call void @write_text(ptr noundef %42)
  %43 = call i32 @fputs(ptr noundef @.str.13.35, ptr noundef getelementptr inbounds ([3 x %struct.__stream], ptr @__streams, i32 0, i32 1))
  br label %44

44:                                               ; preds = %39, %19
  %45 = load ptr, ptr %7, align 4
  %46 = load i32, ptr %5, align 4
  %47 = add nsw i32 %46, 2
  call void @json_write(ptr noundef %45, i32 noundef %47)
  br label %48

48:                                               ; preds = %44
  %49 = load ptr, ptr %7, align 4
  %50 = getelementptr inbounds %struct.value, ptr %49, i32 0, i32 5
  %51 = load ptr, ptr %50, align 4
  store ptr %51, ptr %7, align 4
  br label %16, !llvm.loop !74

52:                                               ; preds = %16
  %53 = load ptr, ptr %4, align 4
  %54 = getelementptr inbounds %struct.value, ptr %53, i32 0, i32 4
  %55 = load ptr, ptr %54, align 4
  %56 = icmp ne ptr %55, null
  br i1 %56, label %57, label %63

57:                                               ; preds = %52
  %58 = load i32, ptr %5, align 4
  %59 = call i32 @__print_text(ptr getelementptr inbounds ([3 x { i8, i8, i8, i8, ptr, i32 }], ptr @__streams, i32 0, i32 1), ptr @.str.14.36, i32 1)
  %60 = call i32 @__print_string(ptr getelementptr inbounds ([3 x { i8, i8, i8, i8, ptr, i32 }], ptr @__streams, i32 0, i32 1), ptr @.str.11.32, i32 0, i32 %58, i32 -1)
  %61 = add i32 %59, %60
  %62 = add i32 %61, 0
  br label %63

63:                                               ; preds = %57, %52
  %64 = load ptr, ptr %6, align 4
  %65 = getelementptr inbounds i8, ptr %64, i32 1
  %66 = load i8, ptr %65, align 1
  %67 = sext i8 %66 to i32
  %68 = call i32 @putchar(i32 noundef %67)
  ret void
}

; Function Attrs: nounwind optsize uwtable
define internal i32 @__print_character(ptr nocapture noundef %0, i32 noundef %1, i32 noundef %2, i32 noundef %3) #2 {
  %5 = alloca i8, align 1
  call void @llvm.lifetime.start.p0(i64 1, ptr nonnull %5) #15
  %6 = trunc i32 %1 to i8
  store i8 %6, ptr %5, align 1, !tbaa !9
  %7 = call fastcc i32 @padded(ptr noundef %0, ptr noundef nonnull %5, i32 noundef 1, i32 noundef %2, i32 noundef %3) #16
  call void @llvm.lifetime.end.p0(i64 1, ptr nonnull %5) #15
  ret i32 %7
}

; Function Attrs: nounwind optsize uwtable
define internal fastcc i32 @padded(ptr nocapture noundef %0, ptr nocapture noundef readonly %1, i32 noundef %2, i32 noundef %3, i32 noundef %4) unnamed_addr #2 {
  %6 = icmp slt i32 %4, 0
  %7 = lshr i32 %4, 31
  %8 = icmp ne i32 %7, 0
  %9 = sub i32 0, %4
  %10 = select i1 %8, i32 %9, i32 %4
  %11 = sub nsw i32 %10, %2
  %12 = and i32 %3, 1
  %13 = icmp ne i32 %12, 0
  %14 = or i1 %6, %13
  br i1 %14, label %24, label %15

15:                                               ; preds = %5
  %16 = icmp sgt i32 %11, 0
  br i1 %16, label %17, label %22

17:                                               ; preds = %17, %15
  %18 = phi i32 [ %20, %17 ], [ 0, %15 ]
  %19 = tail call i32 @fputc(i32 noundef 32, ptr noundef %0) #16
  %20 = add nuw nsw i32 %18, 1
  %21 = icmp eq i32 %20, %11
  br i1 %21, label %22, label %17, !llvm.loop !62

22:                                               ; preds = %17, %15
  %23 = tail call noundef i32 @llvm.smax.i32(i32 %11, i32 0)
  br label %24

24:                                               ; preds = %22, %5
  %25 = phi i32 [ %23, %22 ], [ 0, %5 ]
  %26 = load i8, ptr %0, align 4, !tbaa !31, !alias.scope !75, !noalias !78
  %27 = icmp eq i8 %26, 0
  %28 = icmp eq i32 %2, 0
  %29 = or i1 %28, %27
  br i1 %29, label %38, label %30

30:                                               ; preds = %30, %24
  %31 = phi i32 [ %36, %30 ], [ 0, %24 ]
  %32 = getelementptr inbounds i8, ptr %1, i32 %31
  %33 = load i8, ptr %32, align 1, !tbaa !9, !alias.scope !78, !noalias !75
  %34 = zext i8 %33 to i32
  %35 = tail call i32 @fputc(i32 noundef %34, ptr noundef nonnull %0) #16, !noalias !78
  %36 = add nuw i32 %31, 1
  %37 = icmp eq i32 %36, %2
  br i1 %37, label %38, label %30, !llvm.loop !39

38:                                               ; preds = %30, %24
  br i1 %14, label %39, label %48

39:                                               ; preds = %38
  %40 = icmp sgt i32 %11, 0
  br i1 %40, label %41, label %46

41:                                               ; preds = %41, %39
  %42 = phi i32 [ %44, %41 ], [ 0, %39 ]
  %43 = tail call i32 @fputc(i32 noundef 32, ptr noundef nonnull %0) #16
  %44 = add nuw nsw i32 %42, 1
  %45 = icmp eq i32 %44, %11
  br i1 %45, label %46, label %41, !llvm.loop !62

46:                                               ; preds = %41, %39
  %47 = tail call noundef i32 @llvm.smax.i32(i32 %11, i32 0)
  br label %48

48:                                               ; preds = %46, %38
  %49 = phi i32 [ %47, %46 ], [ 0, %38 ]
  %50 = add nsw i32 %25, %2
  %51 = add nsw i32 %50, %49
  ret i32 %51
}

; Function Attrs: noinline nounwind optnone uwtable
define internal ptr @value(ptr noundef %0, i32 noundef %1) #0 {
  %3 = alloca ptr, align 4
  %4 = alloca ptr, align 4
  %5 = alloca i32, align 4
  %6 = alloca ptr, align 4
  store ptr %0, ptr %4, align 4
  store i32 %1, ptr %5, align 4
  %7 = load i32, ptr %5, align 4
  %8 = icmp sgt i32 %7, 40
  br i1 %8, label %9, label %12

9:                                                ; preds = %2
  %10 = load ptr, ptr %4, align 4
  %11 = call ptr @refuse(ptr noundef %10, ptr noundef @.str.1.8)
  store ptr %11, ptr %3, align 4
  br label %69

12:                                               ; preds = %2
  %13 = load ptr, ptr %4, align 4
  call void @skip(ptr noundef %13)
  %14 = load ptr, ptr %4, align 4
  %15 = getelementptr inbounds %struct.reader, ptr %14, i32 0, i32 1
  %16 = load ptr, ptr %15, align 4
  %17 = load i8, ptr %16, align 1
  %18 = sext i8 %17 to i32
  switch i32 %18, label %66 [
    i32 123, label %19
    i32 91, label %27
    i32 34, label %35
    i32 116, label %54
    i32 102, label %57
    i32 110, label %60
    i32 0, label %63
  ]

19:                                               ; preds = %12
  %20 = load ptr, ptr %4, align 4
  %21 = getelementptr inbounds %struct.reader, ptr %20, i32 0, i32 1
  %22 = load ptr, ptr %21, align 4
  %23 = getelementptr inbounds i8, ptr %22, i32 1
  store ptr %23, ptr %21, align 4
  %24 = load ptr, ptr %4, align 4
  %25 = load i32, ptr %5, align 4
  %26 = call ptr @group(ptr noundef %24, i32 noundef 6, i8 noundef signext 125, i32 noundef %25)
  store ptr %26, ptr %3, align 4
  br label %69

27:                                               ; preds = %12
  %28 = load ptr, ptr %4, align 4
  %29 = getelementptr inbounds %struct.reader, ptr %28, i32 0, i32 1
  %30 = load ptr, ptr %29, align 4
  %31 = getelementptr inbounds i8, ptr %30, i32 1
  store ptr %31, ptr %29, align 4
  %32 = load ptr, ptr %4, align 4
  %33 = load i32, ptr %5, align 4
  %34 = call ptr @group(ptr noundef %32, i32 noundef 5, i8 noundef signext 93, i32 noundef %33)
  store ptr %34, ptr %3, align 4
  br label %69

35:                                               ; preds = %12
  %36 = load ptr, ptr %4, align 4
  %37 = getelementptr inbounds %struct.reader, ptr %36, i32 0, i32 1
  %38 = load ptr, ptr %37, align 4
  %39 = getelementptr inbounds i8, ptr %38, i32 1
  store ptr %39, ptr %37, align 4
  %40 = load ptr, ptr %4, align 4
  %41 = call ptr @made(ptr noundef %40, i32 noundef 4)
  store ptr %41, ptr %6, align 4
  %42 = load ptr, ptr %6, align 4
  %43 = icmp ne ptr %42, null
  br i1 %43, label %44, label %52

44:                                               ; preds = %35
  %45 = load ptr, ptr %4, align 4
  %46 = call ptr @string(ptr noundef %45)
  %47 = load ptr, ptr %6, align 4
  %48 = getelementptr inbounds %struct.value, ptr %47, i32 0, i32 2
  store ptr %46, ptr %48, align 4
  %49 = icmp ne ptr %46, null
  br i1 %49, label %52, label %50

50:                                               ; preds = %44
  %51 = load ptr, ptr %6, align 4
  call void @json_free(ptr noundef %51)
  store ptr null, ptr %6, align 4
  br label %52

52:                                               ; preds = %50, %44, %35
  %53 = load ptr, ptr %6, align 4
  store ptr %53, ptr %3, align 4
  br label %69

54:                                               ; preds = %12
  %55 = load ptr, ptr %4, align 4
  %56 = call ptr @word(ptr noundef %55, ptr noundef @.str.2.9, i32 noundef 2)
  store ptr %56, ptr %3, align 4
  br label %69

57:                                               ; preds = %12
  %58 = load ptr, ptr %4, align 4
  %59 = call ptr @word(ptr noundef %58, ptr noundef @.str.3.10, i32 noundef 1)
  store ptr %59, ptr %3, align 4
  br label %69

60:                                               ; preds = %12
  %61 = load ptr, ptr %4, align 4
  %62 = call ptr @word(ptr noundef %61, ptr noundef @.str.4.11, i32 noundef 0)
  store ptr %62, ptr %3, align 4
  br label %69

63:                                               ; preds = %12
  %64 = load ptr, ptr %4, align 4
  %65 = call ptr @refuse(ptr noundef %64, ptr noundef @.str.5.12)
  store ptr %65, ptr %3, align 4
  br label %69

66:                                               ; preds = %12
  %67 = load ptr, ptr %4, align 4
  %68 = call ptr @number(ptr noundef %67)
  store ptr %68, ptr %3, align 4
  br label %69

69:                                               ; preds = %66, %63, %60, %57, %54, %52, %27, %19, %9
  %70 = load ptr, ptr %3, align 4
  ret ptr %70
}

; Function Attrs: noinline nounwind optnone uwtable
define internal void @skip(ptr noundef %0) #0 {
  %2 = alloca ptr, align 4
  store ptr %0, ptr %2, align 4
  br label %3

3:                                                ; preds = %33, %1
  %4 = load ptr, ptr %2, align 4
  %5 = getelementptr inbounds %struct.reader, ptr %4, i32 0, i32 1
  %6 = load ptr, ptr %5, align 4
  %7 = load i8, ptr %6, align 1
  %8 = sext i8 %7 to i32
  %9 = icmp eq i32 %8, 32
  br i1 %9, label %31, label %10

10:                                               ; preds = %3
  %11 = load ptr, ptr %2, align 4
  %12 = getelementptr inbounds %struct.reader, ptr %11, i32 0, i32 1
  %13 = load ptr, ptr %12, align 4
  %14 = load i8, ptr %13, align 1
  %15 = sext i8 %14 to i32
  %16 = icmp eq i32 %15, 9
  br i1 %16, label %31, label %17

17:                                               ; preds = %10
  %18 = load ptr, ptr %2, align 4
  %19 = getelementptr inbounds %struct.reader, ptr %18, i32 0, i32 1
  %20 = load ptr, ptr %19, align 4
  %21 = load i8, ptr %20, align 1
  %22 = sext i8 %21 to i32
  %23 = icmp eq i32 %22, 10
  br i1 %23, label %31, label %24

24:                                               ; preds = %17
  %25 = load ptr, ptr %2, align 4
  %26 = getelementptr inbounds %struct.reader, ptr %25, i32 0, i32 1
  %27 = load ptr, ptr %26, align 4
  %28 = load i8, ptr %27, align 1
  %29 = sext i8 %28 to i32
  %30 = icmp eq i32 %29, 13
  br label %31

31:                                               ; preds = %24, %17, %10, %3
  %32 = phi i1 [ true, %17 ], [ true, %10 ], [ true, %3 ], [ %30, %24 ]
  br i1 %32, label %33, label %38

33:                                               ; preds = %31
  %34 = load ptr, ptr %2, align 4
  %35 = getelementptr inbounds %struct.reader, ptr %34, i32 0, i32 1
  %36 = load ptr, ptr %35, align 4
  %37 = getelementptr inbounds i8, ptr %36, i32 1
  store ptr %37, ptr %35, align 4
  br label %3, !llvm.loop !80

38:                                               ; preds = %31
  ret void
}

; Function Attrs: noinline nounwind optnone uwtable
define internal ptr @refuse(ptr noundef %0, ptr noundef %1) #0 {
  %3 = alloca ptr, align 4
  %4 = alloca ptr, align 4
  %5 = alloca ptr, align 4
  store ptr %0, ptr %3, align 4
  store ptr %1, ptr %4, align 4
  %6 = load ptr, ptr %3, align 4
  %7 = getelementptr inbounds %struct.reader, ptr %6, i32 0, i32 2
  %8 = load ptr, ptr %7, align 4
  %9 = getelementptr inbounds %struct.text, ptr %8, i32 0, i32 0
  %10 = load ptr, ptr %9, align 4
  %11 = icmp ne ptr %10, null
  br i1 %11, label %63, label %12

12:                                               ; preds = %2
  %13 = load ptr, ptr %4, align 4
  %14 = load ptr, ptr %3, align 4
  %15 = getelementptr inbounds %struct.reader, ptr %14, i32 0, i32 2
  %16 = load ptr, ptr %15, align 4
  %17 = getelementptr inbounds %struct.text, ptr %16, i32 0, i32 0
  store ptr %13, ptr %17, align 4
  %18 = load ptr, ptr %3, align 4
  %19 = getelementptr inbounds %struct.reader, ptr %18, i32 0, i32 2
  %20 = load ptr, ptr %19, align 4
  %21 = getelementptr inbounds %struct.text, ptr %20, i32 0, i32 2
  store i32 1, ptr %21, align 4
  %22 = load ptr, ptr %3, align 4
  %23 = getelementptr inbounds %struct.reader, ptr %22, i32 0, i32 2
  %24 = load ptr, ptr %23, align 4
  %25 = getelementptr inbounds %struct.text, ptr %24, i32 0, i32 1
  store i32 1, ptr %25, align 4
  %26 = load ptr, ptr %3, align 4
  %27 = getelementptr inbounds %struct.reader, ptr %26, i32 0, i32 0
  %28 = load ptr, ptr %27, align 4
  store ptr %28, ptr %5, align 4
  br label %29

29:                                               ; preds = %59, %12
  %30 = load ptr, ptr %5, align 4
  %31 = load ptr, ptr %3, align 4
  %32 = getelementptr inbounds %struct.reader, ptr %31, i32 0, i32 1
  %33 = load ptr, ptr %32, align 4
  %34 = icmp ult ptr %30, %33
  br i1 %34, label %35, label %62

35:                                               ; preds = %29
  %36 = load ptr, ptr %5, align 4
  %37 = load i8, ptr %36, align 1
  %38 = sext i8 %37 to i32
  %39 = icmp eq i32 %38, 10
  br i1 %39, label %40, label %51

40:                                               ; preds = %35
  %41 = load ptr, ptr %3, align 4
  %42 = getelementptr inbounds %struct.reader, ptr %41, i32 0, i32 2
  %43 = load ptr, ptr %42, align 4
  %44 = getelementptr inbounds %struct.text, ptr %43, i32 0, i32 1
  %45 = load i32, ptr %44, align 4
  %46 = add i32 %45, 1
  store i32 %46, ptr %44, align 4
  %47 = load ptr, ptr %3, align 4
  %48 = getelementptr inbounds %struct.reader, ptr %47, i32 0, i32 2
  %49 = load ptr, ptr %48, align 4
  %50 = getelementptr inbounds %struct.text, ptr %49, i32 0, i32 2
  store i32 1, ptr %50, align 4
  br label %58

51:                                               ; preds = %35
  %52 = load ptr, ptr %3, align 4
  %53 = getelementptr inbounds %struct.reader, ptr %52, i32 0, i32 2
  %54 = load ptr, ptr %53, align 4
  %55 = getelementptr inbounds %struct.text, ptr %54, i32 0, i32 2
  %56 = load i32, ptr %55, align 4
  %57 = add i32 %56, 1
  store i32 %57, ptr %55, align 4
  br label %58

58:                                               ; preds = %51, %40
  br label %59

59:                                               ; preds = %58
  %60 = load ptr, ptr %5, align 4
  %61 = getelementptr inbounds i8, ptr %60, i32 1
  store ptr %61, ptr %5, align 4
  br label %29, !llvm.loop !81

62:                                               ; preds = %29
  br label %63

63:                                               ; preds = %62, %2
  ret ptr null
}

; Function Attrs: noinline nounwind optnone uwtable
define internal ptr @group(ptr noundef %0, i32 noundef %1, i8 noundef signext %2, i32 noundef %3) #0 {
  %5 = alloca ptr, align 4
  %6 = alloca ptr, align 4
  %7 = alloca i32, align 4
  %8 = alloca i8, align 1
  %9 = alloca i32, align 4
  %10 = alloca ptr, align 4
  %11 = alloca ptr, align 4
  %12 = alloca ptr, align 4
  store ptr %0, ptr %6, align 4
  store i32 %1, ptr %7, align 4
  store i8 %2, ptr %8, align 1
  store i32 %3, ptr %9, align 4
  %13 = load ptr, ptr %6, align 4
  %14 = load i32, ptr %7, align 4
  %15 = call ptr @made(ptr noundef %13, i32 noundef %14)
  store ptr %15, ptr %10, align 4
  %16 = load ptr, ptr %10, align 4
  %17 = icmp ne ptr %16, null
  br i1 %17, label %18, label %21

18:                                               ; preds = %4
  %19 = load ptr, ptr %10, align 4
  %20 = getelementptr inbounds %struct.value, ptr %19, i32 0, i32 4
  br label %22

21:                                               ; preds = %4
  br label %22

22:                                               ; preds = %21, %18
  %23 = phi ptr [ %20, %18 ], [ null, %21 ]
  store ptr %23, ptr %11, align 4
  %24 = load ptr, ptr %10, align 4
  %25 = icmp ne ptr %24, null
  br i1 %25, label %27, label %26

26:                                               ; preds = %22
  store ptr null, ptr %5, align 4
  br label %133

27:                                               ; preds = %22
  %28 = load ptr, ptr %6, align 4
  call void @skip(ptr noundef %28)
  %29 = load ptr, ptr %6, align 4
  %30 = getelementptr inbounds %struct.reader, ptr %29, i32 0, i32 1
  %31 = load ptr, ptr %30, align 4
  %32 = load i8, ptr %31, align 1
  %33 = sext i8 %32 to i32
  %34 = load i8, ptr %8, align 1
  %35 = sext i8 %34 to i32
  %36 = icmp eq i32 %33, %35
  br i1 %36, label %37, label %43

37:                                               ; preds = %27
  %38 = load ptr, ptr %6, align 4
  %39 = getelementptr inbounds %struct.reader, ptr %38, i32 0, i32 1
  %40 = load ptr, ptr %39, align 4
  %41 = getelementptr inbounds i8, ptr %40, i32 1
  store ptr %41, ptr %39, align 4
  %42 = load ptr, ptr %10, align 4
  store ptr %42, ptr %5, align 4
  br label %133

43:                                               ; preds = %27
  br label %44

44:                                               ; preds = %126, %43
  store ptr null, ptr %12, align 4
  %45 = load ptr, ptr %6, align 4
  call void @skip(ptr noundef %45)
  %46 = load i32, ptr %7, align 4
  %47 = icmp eq i32 %46, 6
  br i1 %47, label %48, label %84

48:                                               ; preds = %44
  %49 = load ptr, ptr %6, align 4
  %50 = getelementptr inbounds %struct.reader, ptr %49, i32 0, i32 1
  %51 = load ptr, ptr %50, align 4
  %52 = load i8, ptr %51, align 1
  %53 = sext i8 %52 to i32
  %54 = icmp ne i32 %53, 34
  br i1 %54, label %55, label %58

55:                                               ; preds = %48
  %56 = load ptr, ptr %6, align 4
  %57 = call ptr @refuse(ptr noundef %56, ptr noundef @.str.6.13)
  br label %131

58:                                               ; preds = %48
  %59 = load ptr, ptr %6, align 4
  %60 = getelementptr inbounds %struct.reader, ptr %59, i32 0, i32 1
  %61 = load ptr, ptr %60, align 4
  %62 = getelementptr inbounds i8, ptr %61, i32 1
  store ptr %62, ptr %60, align 4
  %63 = load ptr, ptr %6, align 4
  %64 = call ptr @string(ptr noundef %63)
  store ptr %64, ptr %12, align 4
  %65 = icmp ne ptr %64, null
  br i1 %65, label %67, label %66

66:                                               ; preds = %58
  br label %131

67:                                               ; preds = %58
  %68 = load ptr, ptr %6, align 4
  call void @skip(ptr noundef %68)
  %69 = load ptr, ptr %6, align 4
  %70 = getelementptr inbounds %struct.reader, ptr %69, i32 0, i32 1
  %71 = load ptr, ptr %70, align 4
  %72 = load i8, ptr %71, align 1
  %73 = sext i8 %72 to i32
  %74 = icmp ne i32 %73, 58
  br i1 %74, label %75, label %79

75:                                               ; preds = %67
  %76 = load ptr, ptr %6, align 4
  %77 = call ptr @refuse(ptr noundef %76, ptr noundef @.str.7.14)
  %78 = load ptr, ptr %12, align 4
  call void @__sized_free(ptr noundef %78)
  br label %131

79:                                               ; preds = %67
  %80 = load ptr, ptr %6, align 4
  %81 = getelementptr inbounds %struct.reader, ptr %80, i32 0, i32 1
  %82 = load ptr, ptr %81, align 4
  %83 = getelementptr inbounds i8, ptr %82, i32 1
  store ptr %83, ptr %81, align 4
  br label %84

84:                                               ; preds = %79, %44
  %85 = load ptr, ptr %6, align 4
  %86 = load i32, ptr %9, align 4
  %87 = add nsw i32 %86, 1
  %88 = call ptr @value(ptr noundef %85, i32 noundef %87)
  %89 = load ptr, ptr %11, align 4
  store ptr %88, ptr %89, align 4
  %90 = icmp ne ptr %88, null
  br i1 %90, label %93, label %91

91:                                               ; preds = %84
  %92 = load ptr, ptr %12, align 4
  call void @__sized_free(ptr noundef %92)
  br label %131

93:                                               ; preds = %84
  %94 = load ptr, ptr %12, align 4
  %95 = load ptr, ptr %11, align 4
  %96 = load ptr, ptr %95, align 4
  %97 = getelementptr inbounds %struct.value, ptr %96, i32 0, i32 3
  store ptr %94, ptr %97, align 4
  %98 = load ptr, ptr %11, align 4
  %99 = load ptr, ptr %98, align 4
  %100 = getelementptr inbounds %struct.value, ptr %99, i32 0, i32 5
  store ptr %100, ptr %11, align 4
  %101 = load ptr, ptr %6, align 4
  call void @skip(ptr noundef %101)
  %102 = load ptr, ptr %6, align 4
  %103 = getelementptr inbounds %struct.reader, ptr %102, i32 0, i32 1
  %104 = load ptr, ptr %103, align 4
  %105 = load i8, ptr %104, align 1
  %106 = sext i8 %105 to i32
  %107 = load i8, ptr %8, align 1
  %108 = sext i8 %107 to i32
  %109 = icmp eq i32 %106, %108
  br i1 %109, label %110, label %116

110:                                              ; preds = %93
  %111 = load ptr, ptr %6, align 4
  %112 = getelementptr inbounds %struct.reader, ptr %111, i32 0, i32 1
  %113 = load ptr, ptr %112, align 4
  %114 = getelementptr inbounds i8, ptr %113, i32 1
  store ptr %114, ptr %112, align 4
  %115 = load ptr, ptr %10, align 4
  store ptr %115, ptr %5, align 4
  br label %133

116:                                              ; preds = %93
  %117 = load ptr, ptr %6, align 4
  %118 = getelementptr inbounds %struct.reader, ptr %117, i32 0, i32 1
  %119 = load ptr, ptr %118, align 4
  %120 = load i8, ptr %119, align 1
  %121 = sext i8 %120 to i32
  %122 = icmp ne i32 %121, 44
  br i1 %122, label %123, label %126

123:                                              ; preds = %116
  %124 = load ptr, ptr %6, align 4
  %125 = call ptr @refuse(ptr noundef %124, ptr noundef @.str.8)
  br label %131

126:                                              ; preds = %116
  %127 = load ptr, ptr %6, align 4
  %128 = getelementptr inbounds %struct.reader, ptr %127, i32 0, i32 1
  %129 = load ptr, ptr %128, align 4
  %130 = getelementptr inbounds i8, ptr %129, i32 1
  store ptr %130, ptr %128, align 4
  br label %44

131:                                              ; preds = %123, %91, %75, %66, %55
  %132 = load ptr, ptr %10, align 4
  call void @json_free(ptr noundef %132)
  store ptr null, ptr %5, align 4
  br label %133

133:                                              ; preds = %131, %110, %37, %26
  %134 = load ptr, ptr %5, align 4
  ret ptr %134
}

; Function Attrs: noinline nounwind optnone uwtable
define internal ptr @made(ptr noundef %0, i32 noundef %1) #0 {
  %3 = alloca ptr, align 4
  %4 = alloca ptr, align 4
  %5 = alloca i32, align 4
  %6 = alloca ptr, align 4
  store ptr %0, ptr %4, align 4
  store i32 %1, ptr %5, align 4
  %7 = call ptr @__sized_calloc(i32 noundef 1, i32 noundef 28) #20
  store ptr %7, ptr %6, align 4
  %8 = load ptr, ptr %6, align 4
  %9 = icmp ne ptr %8, null
  br i1 %9, label %13, label %10

10:                                               ; preds = %2
  %11 = load ptr, ptr %4, align 4
  %12 = call ptr @refuse(ptr noundef %11, ptr noundef @.str.9)
  store ptr %12, ptr %3, align 4
  br label %18

13:                                               ; preds = %2
  %14 = load i32, ptr %5, align 4
  %15 = load ptr, ptr %6, align 4
  %16 = getelementptr inbounds %struct.value, ptr %15, i32 0, i32 0
  store i32 %14, ptr %16, align 4
  %17 = load ptr, ptr %6, align 4
  store ptr %17, ptr %3, align 4
  br label %18

18:                                               ; preds = %13, %10
  %19 = load ptr, ptr %3, align 4
  ret ptr %19
}

; Function Attrs: noinline nounwind optnone uwtable
define internal ptr @string(ptr noundef %0) #0 {
  %2 = alloca ptr, align 4
  %3 = alloca ptr, align 4
  %4 = alloca ptr, align 4
  %5 = alloca ptr, align 4
  %6 = alloca ptr, align 4
  %7 = alloca i8, align 1
  %8 = alloca ptr, align 4
  %9 = alloca i32, align 4
  store ptr %0, ptr %3, align 4
  %10 = load ptr, ptr %3, align 4
  %11 = getelementptr inbounds %struct.reader, ptr %10, i32 0, i32 1
  %12 = load ptr, ptr %11, align 4
  store ptr %12, ptr %4, align 4
  br label %13

13:                                               ; preds = %36, %1
  %14 = load ptr, ptr %4, align 4
  %15 = load i8, ptr %14, align 1
  %16 = sext i8 %15 to i32
  %17 = icmp ne i32 %16, 0
  br i1 %17, label %18, label %23

18:                                               ; preds = %13
  %19 = load ptr, ptr %4, align 4
  %20 = load i8, ptr %19, align 1
  %21 = sext i8 %20 to i32
  %22 = icmp ne i32 %21, 34
  br label %23

23:                                               ; preds = %18, %13
  %24 = phi i1 [ false, %13 ], [ %22, %18 ]
  br i1 %24, label %25, label %42

25:                                               ; preds = %23
  %26 = load ptr, ptr %4, align 4
  %27 = load i8, ptr %26, align 1
  %28 = sext i8 %27 to i32
  %29 = icmp eq i32 %28, 92
  br i1 %29, label %30, label %36

30:                                               ; preds = %25
  %31 = load ptr, ptr %4, align 4
  %32 = getelementptr inbounds i8, ptr %31, i32 1
  %33 = load i8, ptr %32, align 1
  %34 = sext i8 %33 to i32
  %35 = icmp ne i32 %34, 0
  br label %36

36:                                               ; preds = %30, %25
  %37 = phi i1 [ false, %25 ], [ %35, %30 ]
  %38 = zext i1 %37 to i64
  %39 = select i1 %37, i32 2, i32 1
  %40 = load ptr, ptr %4, align 4
  %41 = getelementptr inbounds i8, ptr %40, i32 %39
  store ptr %41, ptr %4, align 4
  br label %13, !llvm.loop !82

42:                                               ; preds = %23
  %43 = load ptr, ptr %4, align 4
  %44 = load ptr, ptr %3, align 4
  %45 = getelementptr inbounds %struct.reader, ptr %44, i32 0, i32 1
  %46 = load ptr, ptr %45, align 4
  %47 = ptrtoint ptr %43 to i32
  %48 = ptrtoint ptr %46 to i32
  %49 = sub i32 %47, %48
  %50 = add i32 %49, 1
  %51 = call ptr @__sized_malloc(i32 noundef %50) #21
  store ptr %51, ptr %5, align 4
  %52 = load ptr, ptr %5, align 4
  store ptr %52, ptr %6, align 4
  %53 = load ptr, ptr %5, align 4
  %54 = icmp ne ptr %53, null
  br i1 %54, label %58, label %55

55:                                               ; preds = %42
  %56 = load ptr, ptr %3, align 4
  %57 = call ptr @refuse(ptr noundef %56, ptr noundef @.str.9)
  store ptr null, ptr %2, align 4
  br label %160

58:                                               ; preds = %42
  br label %59

59:                                               ; preds = %149, %114, %91, %58
  %60 = load ptr, ptr %3, align 4
  %61 = getelementptr inbounds %struct.reader, ptr %60, i32 0, i32 1
  %62 = load ptr, ptr %61, align 4
  %63 = load i8, ptr %62, align 1
  %64 = sext i8 %63 to i32
  %65 = icmp ne i32 %64, 34
  br i1 %65, label %66, label %153

66:                                               ; preds = %59
  %67 = load ptr, ptr %3, align 4
  %68 = getelementptr inbounds %struct.reader, ptr %67, i32 0, i32 1
  %69 = load ptr, ptr %68, align 4
  %70 = load i8, ptr %69, align 1
  store i8 %70, ptr %7, align 1
  %71 = load i8, ptr %7, align 1
  %72 = zext i8 %71 to i32
  %73 = icmp slt i32 %72, 32
  br i1 %73, label %74, label %83

74:                                               ; preds = %66
  %75 = load ptr, ptr %3, align 4
  %76 = load i8, ptr %7, align 1
  %77 = zext i8 %76 to i32
  %78 = icmp ne i32 %77, 0
  %79 = zext i1 %78 to i64
  %80 = select i1 %78, ptr @.str.10, ptr @.str.11
  %81 = call ptr @refuse(ptr noundef %75, ptr noundef %80)
  %82 = load ptr, ptr %5, align 4
  call void @__sized_free(ptr noundef %82)
  store ptr null, ptr %2, align 4
  br label %160

83:                                               ; preds = %66
  %84 = load ptr, ptr %3, align 4
  %85 = getelementptr inbounds %struct.reader, ptr %84, i32 0, i32 1
  %86 = load ptr, ptr %85, align 4
  %87 = getelementptr inbounds i8, ptr %86, i32 1
  store ptr %87, ptr %85, align 4
  %88 = load i8, ptr %7, align 1
  %89 = zext i8 %88 to i32
  %90 = icmp ne i32 %89, 92
  br i1 %90, label %91, label %95

91:                                               ; preds = %83
  %92 = load i8, ptr %7, align 1
  %93 = load ptr, ptr %6, align 4
  %94 = getelementptr inbounds i8, ptr %93, i32 1
  store ptr %94, ptr %6, align 4
  store i8 %92, ptr %93, align 1
  br label %59, !llvm.loop !83

95:                                               ; preds = %83
  %96 = load ptr, ptr %3, align 4
  %97 = getelementptr inbounds %struct.reader, ptr %96, i32 0, i32 1
  %98 = load ptr, ptr %97, align 4
  %99 = load i8, ptr %98, align 1
  %100 = sext i8 %99 to i32
  %101 = icmp ne i32 %100, 0
  br i1 %101, label %102, label %109

102:                                              ; preds = %95
  %103 = load ptr, ptr %3, align 4
  %104 = getelementptr inbounds %struct.reader, ptr %103, i32 0, i32 1
  %105 = load ptr, ptr %104, align 4
  %106 = load i8, ptr %105, align 1
  %107 = sext i8 %106 to i32
  %108 = call ptr @strchr(ptr noundef @string.from, i32 noundef %107) #15
  br label %110

109:                                              ; preds = %95
  br label %110

110:                                              ; preds = %109, %102
  %111 = phi ptr [ %108, %102 ], [ null, %109 ]
  store ptr %111, ptr %8, align 4
  %112 = load ptr, ptr %8, align 4
  %113 = icmp ne ptr %112, null
  br i1 %113, label %114, label %126

114:                                              ; preds = %110
  %115 = load ptr, ptr %8, align 4
  %116 = ptrtoint ptr %115 to i32
  %117 = sub i32 %116, ptrtoint (ptr @string.from to i32)
  %118 = getelementptr inbounds [9 x i8], ptr @string.meant, i32 0, i32 %117
  %119 = load i8, ptr %118, align 1
  %120 = load ptr, ptr %6, align 4
  %121 = getelementptr inbounds i8, ptr %120, i32 1
  store ptr %121, ptr %6, align 4
  store i8 %119, ptr %120, align 1
  %122 = load ptr, ptr %3, align 4
  %123 = getelementptr inbounds %struct.reader, ptr %122, i32 0, i32 1
  %124 = load ptr, ptr %123, align 4
  %125 = getelementptr inbounds i8, ptr %124, i32 1
  store ptr %125, ptr %123, align 4
  br label %59, !llvm.loop !83

126:                                              ; preds = %110
  %127 = load ptr, ptr %3, align 4
  %128 = getelementptr inbounds %struct.reader, ptr %127, i32 0, i32 1
  %129 = load ptr, ptr %128, align 4
  %130 = load i8, ptr %129, align 1
  %131 = sext i8 %130 to i32
  %132 = icmp eq i32 %131, 117
  br i1 %132, label %133, label %140

133:                                              ; preds = %126
  %134 = load ptr, ptr %3, align 4
  %135 = getelementptr inbounds %struct.reader, ptr %134, i32 0, i32 1
  %136 = load ptr, ptr %135, align 4
  %137 = getelementptr inbounds i8, ptr %136, i32 1
  store ptr %137, ptr %135, align 4
  %138 = load ptr, ptr %3, align 4
  %139 = call i32 @hexadecimal(ptr noundef %138)
  br label %141

140:                                              ; preds = %126
  br label %141

141:                                              ; preds = %140, %133
  %142 = phi i32 [ %139, %133 ], [ -1, %140 ]
  store i32 %142, ptr %9, align 4
  %143 = load i32, ptr %9, align 4
  %144 = icmp slt i32 %143, 0
  br i1 %144, label %145, label %149

145:                                              ; preds = %141
  %146 = load ptr, ptr %3, align 4
  %147 = call ptr @refuse(ptr noundef %146, ptr noundef @.str.12)
  %148 = load ptr, ptr %5, align 4
  call void @__sized_free(ptr noundef %148)
  store ptr null, ptr %2, align 4
  br label %160

149:                                              ; preds = %141
  %150 = load ptr, ptr %6, align 4
  %151 = load i32, ptr %9, align 4
  %152 = call ptr @spell(ptr noundef %150, i32 noundef %151)
  store ptr %152, ptr %6, align 4
  br label %59, !llvm.loop !83

153:                                              ; preds = %59
  %154 = load ptr, ptr %3, align 4
  %155 = getelementptr inbounds %struct.reader, ptr %154, i32 0, i32 1
  %156 = load ptr, ptr %155, align 4
  %157 = getelementptr inbounds i8, ptr %156, i32 1
  store ptr %157, ptr %155, align 4
  %158 = load ptr, ptr %6, align 4
  store i8 0, ptr %158, align 1
  %159 = load ptr, ptr %5, align 4
  store ptr %159, ptr %2, align 4
  br label %160

160:                                              ; preds = %153, %145, %74, %55
  %161 = load ptr, ptr %2, align 4
  ret ptr %161
}

; Function Attrs: noinline nounwind optnone uwtable
define internal ptr @word(ptr noundef %0, ptr noundef %1, i32 noundef %2) #0 {
  %4 = alloca ptr, align 4
  %5 = alloca ptr, align 4
  %6 = alloca ptr, align 4
  %7 = alloca i32, align 4
  store ptr %0, ptr %5, align 4
  store ptr %1, ptr %6, align 4
  store i32 %2, ptr %7, align 4
  %8 = load ptr, ptr %5, align 4
  %9 = getelementptr inbounds %struct.reader, ptr %8, i32 0, i32 1
  %10 = load ptr, ptr %9, align 4
  %11 = load ptr, ptr %6, align 4
  %12 = load ptr, ptr %6, align 4
  %13 = call i32 @strlen(ptr noundef %12) #15
  %14 = call i32 @strncmp(ptr noundef %10, ptr noundef %11, i32 noundef %13) #15
  %15 = icmp ne i32 %14, 0
  br i1 %15, label %16, label %19

16:                                               ; preds = %3
  %17 = load ptr, ptr %5, align 4
  %18 = call ptr @refuse(ptr noundef %17, ptr noundef @.str.13)
  store ptr %18, ptr %4, align 4
  br label %29

19:                                               ; preds = %3
  %20 = load ptr, ptr %6, align 4
  %21 = call i32 @strlen(ptr noundef %20) #15
  %22 = load ptr, ptr %5, align 4
  %23 = getelementptr inbounds %struct.reader, ptr %22, i32 0, i32 1
  %24 = load ptr, ptr %23, align 4
  %25 = getelementptr inbounds i8, ptr %24, i32 %21
  store ptr %25, ptr %23, align 4
  %26 = load ptr, ptr %5, align 4
  %27 = load i32, ptr %7, align 4
  %28 = call ptr @made(ptr noundef %26, i32 noundef %27)
  store ptr %28, ptr %4, align 4
  br label %29

29:                                               ; preds = %19, %16
  %30 = load ptr, ptr %4, align 4
  ret ptr %30
}

; Function Attrs: noinline nounwind optnone uwtable
define internal ptr @number(ptr noundef %0) #0 {
  %2 = alloca ptr, align 4
  %3 = alloca ptr, align 4
  %4 = alloca ptr, align 4
  %5 = alloca ptr, align 4
  %6 = alloca i64, align 8
  %7 = alloca ptr, align 4
  store ptr %0, ptr %3, align 4
  %8 = load ptr, ptr %3, align 4
  %9 = getelementptr inbounds %struct.reader, ptr %8, i32 0, i32 1
  %10 = load ptr, ptr %9, align 4
  %11 = load ptr, ptr %3, align 4
  %12 = getelementptr inbounds %struct.reader, ptr %11, i32 0, i32 1
  %13 = load ptr, ptr %12, align 4
  %14 = load i8, ptr %13, align 1
  %15 = sext i8 %14 to i32
  %16 = icmp eq i32 %15, 45
  %17 = zext i1 %16 to i32
  %18 = getelementptr inbounds i8, ptr %10, i32 %17
  store ptr %18, ptr %5, align 4
  %19 = load ptr, ptr %5, align 4
  %20 = load i8, ptr %19, align 1
  %21 = zext i8 %20 to i32
  %22 = call i32 @isdigit(i32 noundef %21) #22
  %23 = icmp ne i32 %22, 0
  br i1 %23, label %24, label %36

24:                                               ; preds = %1
  %25 = load ptr, ptr %5, align 4
  %26 = load i8, ptr %25, align 1
  %27 = sext i8 %26 to i32
  %28 = icmp eq i32 %27, 48
  br i1 %28, label %29, label %39

29:                                               ; preds = %24
  %30 = load ptr, ptr %5, align 4
  %31 = getelementptr inbounds i8, ptr %30, i32 1
  %32 = load i8, ptr %31, align 1
  %33 = zext i8 %32 to i32
  %34 = call i32 @isdigit(i32 noundef %33) #22
  %35 = icmp ne i32 %34, 0
  br i1 %35, label %36, label %39

36:                                               ; preds = %29, %1
  %37 = load ptr, ptr %3, align 4
  %38 = call ptr @refuse(ptr noundef %37, ptr noundef @.str.14)
  store ptr %38, ptr %2, align 4
  br label %75

39:                                               ; preds = %29, %24
  %40 = load ptr, ptr %3, align 4
  %41 = getelementptr inbounds %struct.reader, ptr %40, i32 0, i32 1
  %42 = load ptr, ptr %41, align 4
  %43 = call i64 @strtoll(ptr noundef %42, ptr noundef %4, i32 noundef 10)
  store i64 %43, ptr %6, align 8
  %44 = load ptr, ptr %4, align 4
  %45 = load i8, ptr %44, align 1
  %46 = sext i8 %45 to i32
  %47 = icmp eq i32 %46, 46
  br i1 %47, label %58, label %48

48:                                               ; preds = %39
  %49 = load ptr, ptr %4, align 4
  %50 = load i8, ptr %49, align 1
  %51 = sext i8 %50 to i32
  %52 = icmp eq i32 %51, 101
  br i1 %52, label %58, label %53

53:                                               ; preds = %48
  %54 = load ptr, ptr %4, align 4
  %55 = load i8, ptr %54, align 1
  %56 = sext i8 %55 to i32
  %57 = icmp eq i32 %56, 69
  br i1 %57, label %58, label %61

58:                                               ; preds = %53, %48, %39
  %59 = load ptr, ptr %3, align 4
  %60 = call ptr @refuse(ptr noundef %59, ptr noundef @.str.15)
  store ptr %60, ptr %2, align 4
  br label %75

61:                                               ; preds = %53
  %62 = load ptr, ptr %4, align 4
  %63 = load ptr, ptr %3, align 4
  %64 = getelementptr inbounds %struct.reader, ptr %63, i32 0, i32 1
  store ptr %62, ptr %64, align 4
  %65 = load ptr, ptr %3, align 4
  %66 = call ptr @made(ptr noundef %65, i32 noundef 3)
  store ptr %66, ptr %7, align 4
  %67 = load ptr, ptr %7, align 4
  %68 = icmp ne ptr %67, null
  br i1 %68, label %69, label %73

69:                                               ; preds = %61
  %70 = load i64, ptr %6, align 8
  %71 = load ptr, ptr %7, align 4
  %72 = getelementptr inbounds %struct.value, ptr %71, i32 0, i32 1
  store i64 %70, ptr %72, align 4
  br label %73

73:                                               ; preds = %69, %61
  %74 = load ptr, ptr %7, align 4
  store ptr %74, ptr %2, align 4
  br label %75

75:                                               ; preds = %73, %58, %36
  %76 = load ptr, ptr %2, align 4
  ret ptr %76
}

; Function Attrs: mustprogress nofree norecurse nosync nounwind optsize willreturn memory(none) uwtable
define internal range(i32 0, 2) i32 @isdigit(i32 noundef %0) #13 {
  %2 = add i32 %0, -48
  %3 = icmp ult i32 %2, 10
  %4 = zext i1 %3 to i32
  ret i32 %4
}

; Function Attrs: nofree norecurse nosync nounwind optsize memory(readwrite, inaccessiblemem: none) uwtable
define internal i64 @strtoll(ptr noalias noundef %0, ptr noalias noundef %1, i32 noundef %2) #11 {
  %4 = alloca %struct.number, align 8
  call void @llvm.lifetime.start.p0(i64 16, ptr nonnull %4) #15
  %5 = call fastcc ptr @scan(ptr noundef nonnull %4, ptr noundef %0, ptr noundef %1, i32 noundef %2, i64 noundef 9223372036854775807, i64 noundef -9223372036854775808) #16
  %6 = getelementptr inbounds i8, ptr %4, i32 8
  %7 = load i32, ptr %6, align 8, !tbaa !51
  %8 = icmp eq i32 %7, 0
  %9 = load i64, ptr %4, align 8
  %10 = sub i64 0, %9
  %11 = select i1 %8, i64 %9, i64 %10
  call void @llvm.lifetime.end.p0(i64 16, ptr nonnull %4) #15
  ret i64 %11
}

; Function Attrs: nofree norecurse nosync nounwind optsize memory(read, inaccessiblemem: none) uwtable
define internal ptr @strchr(ptr noundef readonly %0, i32 noundef %1) #3 {
  %3 = load i8, ptr %0, align 1, !tbaa !9
  %4 = icmp eq i8 %3, 0
  %5 = shl i32 %1, 24
  %6 = ashr exact i32 %5, 24
  br i1 %4, label %20, label %7

7:                                                ; preds = %12, %2
  %8 = phi i8 [ %14, %12 ], [ %3, %2 ]
  %9 = phi ptr [ %13, %12 ], [ %0, %2 ]
  %10 = sext i8 %8 to i32
  %11 = icmp eq i32 %6, %10
  br i1 %11, label %16, label %12

12:                                               ; preds = %7
  %13 = getelementptr inbounds i8, ptr %9, i32 1
  %14 = load i8, ptr %13, align 1, !tbaa !9
  %15 = icmp eq i8 %14, 0
  br i1 %15, label %16, label %7, !llvm.loop !84

16:                                               ; preds = %12, %7
  %17 = phi i8 [ 0, %12 ], [ %8, %7 ]
  %18 = phi ptr [ %13, %12 ], [ %9, %7 ]
  %19 = sext i8 %17 to i32
  br label %20

20:                                               ; preds = %16, %2
  %21 = phi i32 [ %19, %16 ], [ 0, %2 ]
  %22 = phi ptr [ %18, %16 ], [ %0, %2 ]
  %23 = icmp eq i32 %6, %21
  %24 = select i1 %23, ptr %22, ptr null
  ret ptr %24
}

; Function Attrs: noinline nounwind optnone uwtable
define internal i32 @hexadecimal(ptr noundef %0) #0 {
  %2 = alloca i32, align 4
  %3 = alloca ptr, align 4
  %4 = alloca i32, align 4
  %5 = alloca i32, align 4
  %6 = alloca i8, align 1
  store ptr %0, ptr %3, align 4
  store i32 0, ptr %4, align 4
  store i32 0, ptr %5, align 4
  br label %7

7:                                                ; preds = %44, %1
  %8 = load i32, ptr %5, align 4
  %9 = icmp slt i32 %8, 4
  br i1 %9, label %10, label %47

10:                                               ; preds = %7
  %11 = load ptr, ptr %3, align 4
  %12 = getelementptr inbounds %struct.reader, ptr %11, i32 0, i32 1
  %13 = load ptr, ptr %12, align 4
  %14 = load i8, ptr %13, align 1
  store i8 %14, ptr %6, align 1
  %15 = load i8, ptr %6, align 1
  %16 = zext i8 %15 to i32
  %17 = call i32 @isxdigit(i32 noundef %16) #22
  %18 = icmp ne i32 %17, 0
  br i1 %18, label %20, label %19

19:                                               ; preds = %10
  store i32 -1, ptr %2, align 4
  br label %49

20:                                               ; preds = %10
  %21 = load i32, ptr %4, align 4
  %22 = mul nsw i32 16, %21
  %23 = load i8, ptr %6, align 1
  %24 = zext i8 %23 to i32
  %25 = call i32 @isdigit(i32 noundef %24) #22
  %26 = icmp ne i32 %25, 0
  br i1 %26, label %27, label %31

27:                                               ; preds = %20
  %28 = load i8, ptr %6, align 1
  %29 = zext i8 %28 to i32
  %30 = sub nsw i32 %29, 48
  br label %37

31:                                               ; preds = %20
  %32 = load i8, ptr %6, align 1
  %33 = zext i8 %32 to i32
  %34 = call i32 @tolower(i32 noundef %33) #22
  %35 = sub nsw i32 %34, 97
  %36 = add nsw i32 %35, 10
  br label %37

37:                                               ; preds = %31, %27
  %38 = phi i32 [ %30, %27 ], [ %36, %31 ]
  %39 = add nsw i32 %22, %38
  store i32 %39, ptr %4, align 4
  %40 = load ptr, ptr %3, align 4
  %41 = getelementptr inbounds %struct.reader, ptr %40, i32 0, i32 1
  %42 = load ptr, ptr %41, align 4
  %43 = getelementptr inbounds i8, ptr %42, i32 1
  store ptr %43, ptr %41, align 4
  br label %44

44:                                               ; preds = %37
  %45 = load i32, ptr %5, align 4
  %46 = add nsw i32 %45, 1
  store i32 %46, ptr %5, align 4
  br label %7, !llvm.loop !85

47:                                               ; preds = %7
  %48 = load i32, ptr %4, align 4
  store i32 %48, ptr %2, align 4
  br label %49

49:                                               ; preds = %47, %19
  %50 = load i32, ptr %2, align 4
  ret i32 %50
}

; Function Attrs: noinline nounwind optnone uwtable
define internal ptr @spell(ptr noundef %0, i32 noundef %1) #0 {
  %3 = alloca ptr, align 4
  %4 = alloca i32, align 4
  store ptr %0, ptr %3, align 4
  store i32 %1, ptr %4, align 4
  %5 = load i32, ptr %4, align 4
  %6 = icmp slt i32 %5, 128
  br i1 %6, label %7, label %12

7:                                                ; preds = %2
  %8 = load i32, ptr %4, align 4
  %9 = trunc i32 %8 to i8
  %10 = load ptr, ptr %3, align 4
  %11 = getelementptr inbounds i8, ptr %10, i32 1
  store ptr %11, ptr %3, align 4
  store i8 %9, ptr %10, align 1
  br label %49

12:                                               ; preds = %2
  %13 = load i32, ptr %4, align 4
  %14 = icmp slt i32 %13, 2048
  br i1 %14, label %15, label %28

15:                                               ; preds = %12
  %16 = load i32, ptr %4, align 4
  %17 = ashr i32 %16, 6
  %18 = or i32 192, %17
  %19 = trunc i32 %18 to i8
  %20 = load ptr, ptr %3, align 4
  %21 = getelementptr inbounds i8, ptr %20, i32 1
  store ptr %21, ptr %3, align 4
  store i8 %19, ptr %20, align 1
  %22 = load i32, ptr %4, align 4
  %23 = and i32 %22, 63
  %24 = or i32 128, %23
  %25 = trunc i32 %24 to i8
  %26 = load ptr, ptr %3, align 4
  %27 = getelementptr inbounds i8, ptr %26, i32 1
  store ptr %27, ptr %3, align 4
  store i8 %25, ptr %26, align 1
  br label %48

28:                                               ; preds = %12
  %29 = load i32, ptr %4, align 4
  %30 = ashr i32 %29, 12
  %31 = or i32 224, %30
  %32 = trunc i32 %31 to i8
  %33 = load ptr, ptr %3, align 4
  %34 = getelementptr inbounds i8, ptr %33, i32 1
  store ptr %34, ptr %3, align 4
  store i8 %32, ptr %33, align 1
  %35 = load i32, ptr %4, align 4
  %36 = ashr i32 %35, 6
  %37 = and i32 %36, 63
  %38 = or i32 128, %37
  %39 = trunc i32 %38 to i8
  %40 = load ptr, ptr %3, align 4
  %41 = getelementptr inbounds i8, ptr %40, i32 1
  store ptr %41, ptr %3, align 4
  store i8 %39, ptr %40, align 1
  %42 = load i32, ptr %4, align 4
  %43 = and i32 %42, 63
  %44 = or i32 128, %43
  %45 = trunc i32 %44 to i8
  %46 = load ptr, ptr %3, align 4
  %47 = getelementptr inbounds i8, ptr %46, i32 1
  store ptr %47, ptr %3, align 4
  store i8 %45, ptr %46, align 1
  br label %48

48:                                               ; preds = %28, %15
  br label %49

49:                                               ; preds = %48, %7
  %50 = load ptr, ptr %3, align 4
  ret ptr %50
}

; Function Attrs: mustprogress nofree norecurse nosync nounwind optsize willreturn memory(none) uwtable
define internal range(i32 0, 2) i32 @isxdigit(i32 noundef %0) #13 {
  %2 = add i32 %0, -48
  %3 = icmp ult i32 %2, 10
  %4 = and i32 %0, -33
  %5 = add i32 %4, -65
  %6 = icmp ult i32 %5, 6
  %7 = or i1 %6, %3
  %8 = zext i1 %7 to i32
  ret i32 %8
}

; Function Attrs: mustprogress nofree norecurse nosync nounwind optsize willreturn memory(none) uwtable
define internal i32 @tolower(i32 noundef %0) #13 {
  %2 = add i32 %0, -91
  %3 = icmp ult i32 %2, -26
  %4 = add nuw nsw i32 %0, 32
  %5 = select i1 %3, i32 %0, i32 %4
  ret i32 %5
}

; Function Attrs: noinline nounwind optsize uwtable
define internal ptr @__sized_calloc(i32 noundef %0, i32 noundef %1) #5 {
  %3 = icmp eq i32 %1, 0
  br i1 %3, label %7, label %4

4:                                                ; preds = %2
  %5 = udiv i32 -17, %1
  %6 = icmp ult i32 %5, %0
  br i1 %6, label %14, label %7

7:                                                ; preds = %4, %2
  %8 = mul i32 %1, %0
  %9 = add i32 %8, 16
  %10 = tail call ptr @calloc(i32 noundef %9, i32 noundef 1) #19
  %11 = icmp eq ptr %10, null
  br i1 %11, label %14, label %12

12:                                               ; preds = %7
  %13 = getelementptr inbounds i8, ptr %10, i32 16
  store i32 %8, ptr %10, align 4, !tbaa !16
  br label %14

14:                                               ; preds = %12, %7, %4
  %15 = phi ptr [ null, %4 ], [ %13, %12 ], [ null, %7 ]
  ret ptr %15
}

; Function Attrs: optsize
declare dso_local ptr @calloc(i32 noundef, i32 noundef) local_unnamed_addr #14

; Function Attrs: nounwind optsize uwtable
define internal i32 @fgetc(ptr nocapture noundef %0) local_unnamed_addr #2 {
  %2 = load i8, ptr %0, align 4, !tbaa !31
  %3 = icmp eq i8 %2, 0
  br i1 %3, label %4, label %20

4:                                                ; preds = %1
  %5 = getelementptr inbounds i8, ptr %0, i32 2
  %6 = load i8, ptr %5, align 2, !tbaa !86
  %7 = icmp eq i8 %6, 0
  br i1 %7, label %12, label %8

8:                                                ; preds = %4
  store i8 0, ptr %5, align 2, !tbaa !86
  %9 = getelementptr inbounds i8, ptr %0, i32 3
  %10 = load i8, ptr %9, align 1, !tbaa !87
  %11 = zext i8 %10 to i32
  br label %20

12:                                               ; preds = %4
  %13 = getelementptr inbounds i8, ptr %0, i32 1
  %14 = load i8, ptr %13, align 1, !tbaa !88
  %15 = icmp eq i8 %14, 0
  br i1 %15, label %16, label %20

16:                                               ; preds = %12
  %17 = tail call i32 @getchar() #19
  %18 = icmp eq i32 %17, -1
  br i1 %18, label %19, label %20

19:                                               ; preds = %16
  store i8 1, ptr %13, align 1, !tbaa !88
  br label %20

20:                                               ; preds = %19, %16, %12, %8, %1
  %21 = phi i32 [ %11, %8 ], [ -1, %1 ], [ -1, %12 ], [ -1, %19 ], [ %17, %16 ]
  ret i32 %21
}

; Function Attrs: optsize
declare dso_local i32 @getchar() local_unnamed_addr #14

attributes #0 = { noinline nounwind optnone uwtable "frame-pointer"="all" "min-legal-vector-width"="0" "no-trapping-math"="true" "stack-protector-buffer-size"="8" "target-cpu"="i686" "target-features"="+cmov,+cx8,+x87" "tune-cpu"="generic" }
attributes #1 = { nocallback nofree nounwind willreturn memory(argmem: write) }
attributes #2 = { nounwind optsize uwtable "min-legal-vector-width"="0" "no-builtins" "no-jump-tables"="true" "no-trapping-math"="true" "stack-protector-buffer-size"="8" "target-cpu"="i686" "target-features"="+cmov,+cx8,+x87" "tune-cpu"="generic" }
attributes #3 = { nofree norecurse nosync nounwind optsize memory(read, inaccessiblemem: none) uwtable "min-legal-vector-width"="0" "no-builtins" "no-jump-tables"="true" "no-trapping-math"="true" "stack-protector-buffer-size"="8" "target-cpu"="i686" "target-features"="+cmov,+cx8,+x87" "tune-cpu"="generic" }
attributes #4 = { nofree norecurse nosync nounwind optsize uwtable "min-legal-vector-width"="0" "no-builtins" "no-jump-tables"="true" "no-trapping-math"="true" "stack-protector-buffer-size"="8" "target-cpu"="i686" "target-features"="+cmov,+cx8,+x87" "tune-cpu"="generic" }
attributes #5 = { noinline nounwind optsize uwtable "min-legal-vector-width"="0" "no-builtins" "no-jump-tables"="true" "no-trapping-math"="true" "stack-protector-buffer-size"="8" "target-cpu"="i686" "target-features"="+cmov,+cx8,+x87" "tune-cpu"="generic" }
attributes #6 = { "frame-pointer"="all" "no-trapping-math"="true" "stack-protector-buffer-size"="8" "target-cpu"="i686" "target-features"="+cmov,+cx8,+x87" "tune-cpu"="generic" }
attributes #7 = { noreturn "frame-pointer"="all" "no-trapping-math"="true" "stack-protector-buffer-size"="8" "target-cpu"="i686" "target-features"="+cmov,+cx8,+x87" "tune-cpu"="generic" }
attributes #8 = { nocallback nofree nounwind willreturn memory(argmem: readwrite) }
attributes #9 = { nocallback nofree nosync nounwind speculatable willreturn memory(none) }
attributes #10 = { allocsize(0) "frame-pointer"="all" "no-trapping-math"="true" "stack-protector-buffer-size"="8" "target-cpu"="i686" "target-features"="+cmov,+cx8,+x87" "tune-cpu"="generic" }
attributes #11 = { nofree norecurse nosync nounwind optsize memory(readwrite, inaccessiblemem: none) uwtable "min-legal-vector-width"="0" "no-builtins" "no-jump-tables"="true" "no-trapping-math"="true" "stack-protector-buffer-size"="8" "target-cpu"="i686" "target-features"="+cmov,+cx8,+x87" "tune-cpu"="generic" }
attributes #12 = { nocallback nofree nosync nounwind willreturn memory(argmem: readwrite) }
attributes #13 = { mustprogress nofree norecurse nosync nounwind optsize willreturn memory(none) uwtable "min-legal-vector-width"="0" "no-builtins" "no-jump-tables"="true" "no-trapping-math"="true" "stack-protector-buffer-size"="8" "target-cpu"="i686" "target-features"="+cmov,+cx8,+x87" "tune-cpu"="generic" }
attributes #14 = { optsize "no-builtins" "no-trapping-math"="true" "stack-protector-buffer-size"="8" "target-cpu"="i686" "target-features"="+cmov,+cx8,+x87" "tune-cpu"="generic" }
attributes #15 = { nounwind }
attributes #16 = { nobuiltin optsize "no-builtins" }
attributes #17 = { allocsize(1) }
attributes #18 = { noreturn }
attributes #19 = { nobuiltin nounwind optsize "no-builtins" }
attributes #20 = { allocsize(0,1) }
attributes #21 = { allocsize(0) }
attributes #22 = { nounwind willreturn memory(read) }

!llvm.ident = !{!0, !0, !0, !0, !0, !0}
!llvm.module.flags = !{!1, !2, !3, !4, !5, !6}

!0 = !{!"Debian clang version 19.1.7 (3~deb12u1)"}
!1 = !{i32 1, !"NumRegisterParameters", i32 0}
!2 = !{i32 7, !"Dwarf Version", i32 5}
!3 = !{i32 2, !"Debug Info Version", i32 3}
!4 = !{i32 1, !"wchar_size", i32 4}
!5 = !{i32 7, !"uwtable", i32 2}
!6 = !{i32 7, !"frame-pointer", i32 2}
!7 = distinct !{!7, !8}
!8 = !{!"llvm.loop.mustprogress"}
!9 = !{!10, !10, i64 0}
!10 = !{!"omnipotent char", !11, i64 0}
!11 = !{!"Simple C/C++ TBAA"}
!12 = distinct !{!12, !8}
!13 = distinct !{!13, !8}
!14 = distinct !{!14, !8}
!15 = distinct !{!15, !8}
!16 = !{!17, !17, i64 0}
!17 = !{!"int", !10, i64 0}
!18 = !{!19}
!19 = distinct !{!19, !20, !"memcpy: %from"}
!20 = distinct !{!20, !"memcpy"}
!21 = !{!22}
!22 = distinct !{!22, !20, !"memcpy: %to"}
!23 = distinct !{!23, !8}
!24 = distinct !{!24, !8}
!25 = !{!26}
!26 = distinct !{!26, !27, !"memcpy: %from"}
!27 = distinct !{!27, !"memcpy"}
!28 = !{!29}
!29 = distinct !{!29, !27, !"memcpy: %to"}
!30 = distinct !{!30, !8}
!31 = !{!32, !10, i64 0}
!32 = !{!"__stream", !10, i64 0, !10, i64 1, !10, i64 2, !10, i64 3, !33, i64 4, !17, i64 8}
!33 = !{!"any pointer", !10, i64 0}
!34 = !{!35}
!35 = distinct !{!35, !36, !"fwrite: %stream"}
!36 = distinct !{!36, !"fwrite"}
!37 = !{!38}
!38 = distinct !{!38, !36, !"fwrite: %from"}
!39 = distinct !{!39, !8}
!40 = distinct !{!40, !8}
!41 = distinct !{!41, !8}
!42 = distinct !{!42, !8}
!43 = distinct !{!43, !8}
!44 = distinct !{!44, !8}
!45 = distinct !{!45, !8}
!46 = distinct !{!46, !8}
!47 = distinct !{!47, !8}
!48 = distinct !{!48, !8}
!49 = !{!32, !17, i64 8}
!50 = !{!32, !33, i64 4}
!51 = !{!52, !17, i64 8}
!52 = !{!"number", !53, i64 0, !17, i64 8, !17, i64 12}
!53 = !{!"long long", !10, i64 0}
!54 = distinct !{!54, !8}
!55 = !{!52, !53, i64 0}
!56 = !{!52, !17, i64 12}
!57 = !{!33, !33, i64 0}
!58 = distinct !{!58, !8}
!59 = distinct !{!59, !8}
!60 = distinct !{!60, !8}
!61 = distinct !{!61, !8}
!62 = distinct !{!62, !8}
!63 = !{!64}
!64 = distinct !{!64, !65, !"fwrite: %stream"}
!65 = distinct !{!65, !"fwrite"}
!66 = !{!67}
!67 = distinct !{!67, !65, !"fwrite: %from"}
!68 = !{!69}
!69 = distinct !{!69, !70, !"fwrite: %stream"}
!70 = distinct !{!70, !"fwrite"}
!71 = !{!72}
!72 = distinct !{!72, !70, !"fwrite: %from"}
!73 = distinct !{!73, !8}
!74 = distinct !{!74, !8}
!75 = !{!76}
!76 = distinct !{!76, !77, !"fwrite: %stream"}
!77 = distinct !{!77, !"fwrite"}
!78 = !{!79}
!79 = distinct !{!79, !77, !"fwrite: %from"}
!80 = distinct !{!80, !8}
!81 = distinct !{!81, !8}
!82 = distinct !{!82, !8}
!83 = distinct !{!83, !8}
!84 = distinct !{!84, !8}
!85 = distinct !{!85, !8}
!86 = !{!32, !10, i64 2}
!87 = !{!32, !10, i64 3}
!88 = !{!32, !10, i64 1}
