source_filename = "compile.c"
target datalayout = "e-m:e-p:32:32-p270:32:32-p271:32:32-p272:64:64-i128:128-f64:32:64-f80:32-n8:16:32-S128"
target triple = "i386-unknown-linux-gnu"

%struct.anon = type { ptr, i32 }
%struct.program = type { [2000 x i8], i32, [40 x [16 x i8]], i32, ptr, i32 }
%struct.__stream = type { i8, i8, i8, i8, ptr, i32 }
%struct.compiler = type { %struct.lexer, ptr, i32 }
%struct.lexer = type { ptr, i32, i32, i32, [16 x i8], i32 }
%struct.number = type { i64, i32, i32 }

@.str = private unnamed_addr constant [16 x i8] zeroinitializer, align 1
@.str.1 = private unnamed_addr constant [23 x i8] c"a semicolon is missing\00", align 1
@.str.2 = private unnamed_addr constant [38 x i8] c"neither a statement nor an assignment\00", align 1
@.str.3 = private unnamed_addr constant [23 x i8] c"a statement is missing\00", align 1
@.str.4 = private unnamed_addr constant [19 x i8] c"a block is missing\00", align 1
@.str.5 = private unnamed_addr constant [22 x i8] c"a block is not closed\00", align 1
@.str.6 = private unnamed_addr constant [9 x i8] c"too deep\00", align 1
@.str.7 = private unnamed_addr constant [24 x i8] c"a bracket is not closed\00", align 1
@.str.8 = private unnamed_addr constant [25 x i8] c"an expression is missing\00", align 1
@.str.9 = private unnamed_addr constant [15 x i8] c"too many names\00", align 1
@.str.10 = private unnamed_addr constant [14 x i8] c"too much code\00", align 1
@words = internal constant [4 x %struct.anon] [%struct.anon { ptr @.str.1.12, i32 4 }, %struct.anon { ptr @.str.2.13, i32 5 }, %struct.anon { ptr @.str.3.14, i32 6 }, %struct.anon { ptr @.str.4.15, i32 7 }], align 4
@.str.11 = private unnamed_addr constant [5 x i8] c"=<>!\00", align 1
@.str.1.12 = private unnamed_addr constant [6 x i8] c"while\00", align 1
@.str.2.13 = private unnamed_addr constant [3 x i8] c"if\00", align 1
@.str.3.14 = private unnamed_addr constant [5 x i8] c"else\00", align 1
@.str.4.15 = private unnamed_addr constant [6 x i8] c"print\00", align 1
@main.text = internal global [4000 x i8] zeroinitializer, align 1
@main.line = internal global [200 x i8] zeroinitializer, align 1
@.str.16 = private unnamed_addr constant [4 x i8] c"---\00", align 1
@.str.1.17 = private unnamed_addr constant [25 x i8] c"%d of %d programs ended\0A\00", align 1
@execute.program = internal global %struct.program zeroinitializer, align 4
@execute.variables = internal global [40 x i32] zeroinitializer, align 4
@.str.2.18 = private unnamed_addr constant [13 x i8] c"line %d: %s\0A\00", align 1
@execute.said = internal constant [4 x ptr] [ptr @.str.3.21, ptr @.str.4.22, ptr @.str.5.23, ptr @.str.6.24], align 4
@.str.3.21 = private unnamed_addr constant [6 x i8] c"ended\00", align 1
@.str.4.22 = private unnamed_addr constant [21 x i8] c"no room on the stack\00", align 1
@.str.5.23 = private unnamed_addr constant [16 x i8] c"divided by zero\00", align 1
@.str.6.24 = private unnamed_addr constant [9 x i8] c"too long\00", align 1
@.str.7.19 = private unnamed_addr constant [20 x i8] c"%s after %lu steps;\00", align 1
@.str.8.20 = private unnamed_addr constant [7 x i8] c" %s=%d\00", align 1
@.str.27 = private unnamed_addr constant [11 x i8] c"%4zu %-12s\00", align 1
@names = internal constant [17 x ptr] [ptr @.str.6.30, ptr @.str.7.31, ptr @.str.8.32, ptr @.str.9.33, ptr @.str.10.34, ptr @.str.11.35, ptr @.str.12, ptr @.str.13, ptr @.str.14, ptr @.str.15, ptr @.str.16.36, ptr @.str.17, ptr @.str.18, ptr @.str.19, ptr @.str.20, ptr @.str.21, ptr @.str.22], align 4
@.str.1.28 = private unnamed_addr constant [4 x i8] c" %s\00", align 1
@.str.2.29 = private unnamed_addr constant [4 x i8] c" %d\00", align 1
@.str.3.39 = private unnamed_addr constant [1 x i8] zeroinitializer, align 1
@.str.5.41 = private unnamed_addr constant [2 x i8] c" \00", align 1
@.str.6.30 = private unnamed_addr constant [4 x i8] c"end\00", align 1
@.str.7.31 = private unnamed_addr constant [5 x i8] c"push\00", align 1
@.str.8.32 = private unnamed_addr constant [5 x i8] c"load\00", align 1
@.str.9.33 = private unnamed_addr constant [6 x i8] c"store\00", align 1
@.str.10.34 = private unnamed_addr constant [4 x i8] c"add\00", align 1
@.str.11.35 = private unnamed_addr constant [4 x i8] c"sub\00", align 1
@.str.12 = private unnamed_addr constant [4 x i8] c"mul\00", align 1
@.str.13 = private unnamed_addr constant [4 x i8] c"div\00", align 1
@.str.14 = private unnamed_addr constant [4 x i8] c"mod\00", align 1
@.str.15 = private unnamed_addr constant [5 x i8] c"less\00", align 1
@.str.16.36 = private unnamed_addr constant [6 x i8] c"equal\00", align 1
@.str.17 = private unnamed_addr constant [4 x i8] c"not\00", align 1
@.str.18 = private unnamed_addr constant [7 x i8] c"negate\00", align 1
@.str.19 = private unnamed_addr constant [5 x i8] c"jump\00", align 1
@.str.20 = private unnamed_addr constant [12 x i8] c"jump-if-not\00", align 1
@.str.21 = private unnamed_addr constant [6 x i8] c"print\00", align 1
@.str.22 = private unnamed_addr constant [5 x i8] c"line\00", align 1
@.str.23 = private unnamed_addr constant [1 x i8] zeroinitializer, align 1
@.str.1.24 = private unnamed_addr constant [7 x i8] c"(null)\00", align 1
@.str.2.31 = private unnamed_addr constant [2 x i8] c"-\00", align 1
@.str.3.32 = private unnamed_addr constant [2 x i8] c"+\00", align 1
@.str.4.30 = private unnamed_addr constant [2 x i8] c" \00", align 1
@.str.5.37 = private unnamed_addr constant [3 x i8] c"0X\00", align 1
@.str.6.36 = private unnamed_addr constant [3 x i8] c"0x\00", align 1
@__streams = internal global [3 x %struct.__stream] [%struct.__stream zeroinitializer, %struct.__stream { i8 1, i8 0, i8 0, i8 0, ptr null, i32 0 }, %struct.__stream { i8 2, i8 0, i8 0, i8 0, ptr null, i32 0 }], align 4
@errno = internal local_unnamed_addr global i32 0, align 4
@.str.8.35 = private unnamed_addr constant [17 x i8] c"0123456789ABCDEF\00", align 1
@.str.9.29 = private unnamed_addr constant [17 x i8] c"0123456789abcdef\00", align 1

; Function Attrs: noinline nounwind optnone uwtable
define dso_local i32 @main() #0 {
  %1 = alloca i32, align 4
  %2 = alloca i32, align 4
  %3 = alloca i32, align 4
  %4 = alloca i32, align 4
  store i32 0, ptr %1, align 4
  store i32 0, ptr %2, align 4
  store i32 0, ptr %3, align 4
  store i32 0, ptr %4, align 4
  br label %5

5:                                                ; preds = %24, %11, %0
  %6 = call ptr @fgets(ptr noundef @main.line, i32 noundef 200, ptr noundef @__streams)
  %7 = icmp ne ptr %6, null
  br i1 %7, label %8, label %31

8:                                                ; preds = %5
  %9 = call i32 @strncmp(ptr noundef @main.line, ptr noundef @.str.16, i32 noundef 3) #12
  %10 = icmp eq i32 %9, 0
  br i1 %10, label %11, label %18

11:                                               ; preds = %8
  %12 = load i32, ptr %4, align 4
  %13 = add nsw i32 %12, 1
  store i32 %13, ptr %4, align 4
  %14 = icmp eq i32 %12, 0
  %15 = call i32 @execute(ptr noundef @main.text, i1 noundef zeroext %14)
  %16 = load i32, ptr %3, align 4
  %17 = add nsw i32 %16, %15
  store i32 %17, ptr %3, align 4
  store i32 0, ptr %2, align 4
  store i8 0, ptr @main.text, align 1
  br label %5, !llvm.loop !7

18:                                               ; preds = %8
  %19 = load i32, ptr %2, align 4
  %20 = call i32 @strlen(ptr noundef @main.line) #12
  %21 = add i32 %19, %20
  %22 = icmp uge i32 %21, 4000
  br i1 %22, label %23, label %24

23:                                               ; preds = %18
  store i32 1, ptr %1, align 4
  br label %45

24:                                               ; preds = %18
  %25 = load i32, ptr %2, align 4
  %26 = getelementptr inbounds i8, ptr @main.text, i32 %25
  %27 = call ptr @strcpy(ptr noundef %26, ptr noundef @main.line) #12
  %28 = call i32 @strlen(ptr noundef @main.line) #12
  %29 = load i32, ptr %2, align 4
  %30 = add i32 %29, %28
  store i32 %30, ptr %2, align 4
  br label %5, !llvm.loop !7

31:                                               ; preds = %5
  %32 = load i32, ptr %3, align 4
  %33 = load i32, ptr %4, align 4
  %34 = sext i32 %32 to i64
  %35 = call i32 @__print_signed(ptr getelementptr inbounds ([3 x { i8, i8, i8, i8, ptr, i32 }], ptr @__streams, i32 0, i32 1), i64 %34, i32 0, i32 0, i32 -1)
  %36 = call i32 @__print_text(ptr getelementptr inbounds ([3 x { i8, i8, i8, i8, ptr, i32 }], ptr @__streams, i32 0, i32 1), ptr getelementptr inbounds (i8, ptr @.str.1.17, i32 2), i32 4)
  %37 = sext i32 %33 to i64
  %38 = call i32 @__print_signed(ptr getelementptr inbounds ([3 x { i8, i8, i8, i8, ptr, i32 }], ptr @__streams, i32 0, i32 1), i64 %37, i32 0, i32 0, i32 -1)
  %39 = call i32 @__print_text(ptr getelementptr inbounds ([3 x { i8, i8, i8, i8, ptr, i32 }], ptr @__streams, i32 0, i32 1), ptr getelementptr inbounds (i8, ptr @.str.1.17, i32 8), i32 16)
  %40 = add i32 %35, %36
  %41 = add i32 %40, %38
  %42 = add i32 %41, %39
  %43 = add i32 %42, 0
  %44 = load i32, ptr %3, align 4
  store i32 %44, ptr %1, align 4
  br label %45

45:                                               ; preds = %31, %23
  %46 = load i32, ptr %1, align 4
  ret i32 %46
}

; Function Attrs: nounwind optsize uwtable
define internal noundef ptr @fgets(ptr noalias noundef writeonly %0, i32 noundef %1, ptr noalias nocapture noundef %2) #1 {
  %4 = icmp slt i32 %1, 1
  br i1 %4, label %23, label %5

5:                                                ; preds = %3
  %6 = icmp eq i32 %1, 1
  br i1 %6, label %21, label %7

7:                                                ; preds = %12, %5
  %8 = phi i32 [ %13, %12 ], [ %1, %5 ]
  %9 = phi ptr [ %15, %12 ], [ %0, %5 ]
  %10 = tail call i32 @fgetc(ptr noundef %2) #13
  %11 = icmp eq i32 %10, -1
  br i1 %11, label %19, label %12

12:                                               ; preds = %7
  %13 = add nsw i32 %8, -1
  %14 = trunc i32 %10 to i8
  %15 = getelementptr inbounds i8, ptr %9, i32 1
  store i8 %14, ptr %9, align 1, !tbaa !9
  %16 = icmp sgt i32 %8, 2
  %17 = icmp ne i32 %10, 10
  %18 = and i1 %16, %17
  br i1 %18, label %7, label %21, !llvm.loop !12

19:                                               ; preds = %7
  %20 = icmp eq ptr %9, %0
  br i1 %20, label %23, label %21

21:                                               ; preds = %19, %12, %5
  %22 = phi ptr [ %9, %19 ], [ %0, %5 ], [ %15, %12 ]
  store i8 0, ptr %22, align 1, !tbaa !9
  br label %23

23:                                               ; preds = %21, %19, %3
  %24 = phi ptr [ %0, %21 ], [ null, %3 ], [ null, %19 ]
  ret ptr %24
}

; Function Attrs: nofree norecurse nosync nounwind optsize memory(read, inaccessiblemem: none) uwtable
define internal range(i32 -1, 2) i32 @strncmp(ptr nocapture noundef readonly %0, ptr nocapture noundef readonly %1, i32 noundef %2) #2 {
  %4 = icmp eq i32 %2, 0
  br i1 %4, label %24, label %5

5:                                                ; preds = %14, %3
  %6 = phi ptr [ %16, %14 ], [ %1, %3 ]
  %7 = phi ptr [ %15, %14 ], [ %0, %3 ]
  %8 = phi i32 [ %17, %14 ], [ %2, %3 ]
  %9 = load i8, ptr %7, align 1, !tbaa !9
  %10 = icmp ne i8 %9, 0
  %11 = load i8, ptr %6, align 1, !tbaa !9
  %12 = icmp eq i8 %9, %11
  %13 = select i1 %10, i1 %12, i1 false
  br i1 %13, label %14, label %19

14:                                               ; preds = %5
  %15 = getelementptr inbounds i8, ptr %7, i32 1
  %16 = getelementptr inbounds i8, ptr %6, i32 1
  %17 = add i32 %8, -1
  %18 = icmp eq i32 %17, 0
  br i1 %18, label %24, label %5, !llvm.loop !13

19:                                               ; preds = %5
  %20 = icmp ult i8 %9, %11
  br i1 %20, label %24, label %21

21:                                               ; preds = %19
  %22 = icmp ugt i8 %9, %11
  %23 = zext i1 %22 to i32
  br label %24

24:                                               ; preds = %21, %19, %14, %3
  %25 = phi i32 [ %23, %21 ], [ -1, %19 ], [ 0, %3 ], [ 0, %14 ]
  ret i32 %25
}

; Function Attrs: noinline nounwind optnone uwtable
define internal i32 @execute(ptr noundef %0, i1 noundef zeroext %1) #0 {
  %3 = alloca i32, align 4
  %4 = alloca ptr, align 4
  %5 = alloca i8, align 1
  %6 = alloca i32, align 4
  %7 = alloca i32, align 4
  %8 = alloca i32, align 4
  store ptr %0, ptr %4, align 4
  %9 = zext i1 %1 to i8
  store i8 %9, ptr %5, align 1
  store i32 0, ptr %6, align 4
  %10 = load ptr, ptr %4, align 4
  %11 = call zeroext i1 @compile(ptr noundef @execute.program, ptr noundef %10)
  br i1 %11, label %26, label %12

12:                                               ; preds = %2
  %13 = load i32, ptr getelementptr inbounds (%struct.program, ptr @execute.program, i32 0, i32 5), align 4
  %14 = load ptr, ptr getelementptr inbounds (%struct.program, ptr @execute.program, i32 0, i32 4), align 4
  %15 = call i32 @__print_text(ptr getelementptr inbounds ([3 x { i8, i8, i8, i8, ptr, i32 }], ptr @__streams, i32 0, i32 1), ptr @.str.2.18, i32 5)
  %16 = sext i32 %13 to i64
  %17 = call i32 @__print_signed(ptr getelementptr inbounds ([3 x { i8, i8, i8, i8, ptr, i32 }], ptr @__streams, i32 0, i32 1), i64 %16, i32 0, i32 0, i32 -1)
  %18 = call i32 @__print_text(ptr getelementptr inbounds ([3 x { i8, i8, i8, i8, ptr, i32 }], ptr @__streams, i32 0, i32 1), ptr getelementptr inbounds (i8, ptr @.str.2.18, i32 7), i32 2)
  %19 = call i32 @__print_string(ptr getelementptr inbounds ([3 x { i8, i8, i8, i8, ptr, i32 }], ptr @__streams, i32 0, i32 1), ptr %14, i32 0, i32 0, i32 -1)
  %20 = call i32 @__print_text(ptr getelementptr inbounds ([3 x { i8, i8, i8, i8, ptr, i32 }], ptr @__streams, i32 0, i32 1), ptr getelementptr inbounds (i8, ptr @.str.2.18, i32 11), i32 1)
  %21 = add i32 %15, %17
  %22 = add i32 %21, %18
  %23 = add i32 %22, %19
  %24 = add i32 %23, %20
  %25 = add i32 %24, 0
  store i32 0, ptr %3, align 4
  br label %73

26:                                               ; preds = %2
  %27 = load i8, ptr %5, align 1
  %28 = trunc i8 %27 to i1
  br i1 %28, label %29, label %30

29:                                               ; preds = %26
  call void @disassemble(ptr noundef @execute.program)
  br label %30

30:                                               ; preds = %29, %26
  call void @llvm.memset.p0.i32(ptr align 4 @execute.variables, i8 0, i32 160, i1 false)
  %31 = call i32 @run(ptr noundef @execute.program, i32 noundef 60000, ptr noundef %6, ptr noundef @execute.variables)
  store i32 %31, ptr %7, align 4
  %32 = load i32, ptr %7, align 4
  %33 = getelementptr inbounds [4 x ptr], ptr @execute.said, i32 0, i32 %32
  %34 = load ptr, ptr %33, align 4
  %35 = load i32, ptr %6, align 4
  %36 = call i32 @__print_string(ptr getelementptr inbounds ([3 x { i8, i8, i8, i8, ptr, i32 }], ptr @__streams, i32 0, i32 1), ptr %34, i32 0, i32 0, i32 -1)
  %37 = call i32 @__print_text(ptr getelementptr inbounds ([3 x { i8, i8, i8, i8, ptr, i32 }], ptr @__streams, i32 0, i32 1), ptr getelementptr inbounds (i8, ptr @.str.7.19, i32 2), i32 7)
  %38 = zext i32 %35 to i64
  %39 = call i32 @__print_unsigned(ptr getelementptr inbounds ([3 x { i8, i8, i8, i8, ptr, i32 }], ptr @__streams, i32 0, i32 1), i64 %38, i32 10, i32 0, i32 0, i32 -1)
  %40 = call i32 @__print_text(ptr getelementptr inbounds ([3 x { i8, i8, i8, i8, ptr, i32 }], ptr @__streams, i32 0, i32 1), ptr getelementptr inbounds (i8, ptr @.str.7.19, i32 12), i32 7)
  %41 = add i32 %36, %37
  %42 = add i32 %41, %39
  %43 = add i32 %42, %40
  %44 = add i32 %43, 0
  store i32 0, ptr %8, align 4
  br label %45

45:                                               ; preds = %65, %30
  %46 = load i32, ptr %8, align 4
  %47 = load i32, ptr getelementptr inbounds (%struct.program, ptr @execute.program, i32 0, i32 3), align 4
  %48 = icmp slt i32 %46, %47
  br i1 %48, label %49, label %68

49:                                               ; preds = %45
  %50 = load i32, ptr %8, align 4
  %51 = getelementptr inbounds [40 x [16 x i8]], ptr getelementptr inbounds (%struct.program, ptr @execute.program, i32 0, i32 2), i32 0, i32 %50
  %52 = getelementptr inbounds [16 x i8], ptr %51, i32 0, i32 0
  %53 = load i32, ptr %8, align 4
  %54 = getelementptr inbounds [40 x i32], ptr @execute.variables, i32 0, i32 %53
  %55 = load i32, ptr %54, align 4
  %56 = call i32 @__print_text(ptr getelementptr inbounds ([3 x { i8, i8, i8, i8, ptr, i32 }], ptr @__streams, i32 0, i32 1), ptr @.str.8.20, i32 1)
  %57 = call i32 @__print_string(ptr getelementptr inbounds ([3 x { i8, i8, i8, i8, ptr, i32 }], ptr @__streams, i32 0, i32 1), ptr %52, i32 0, i32 0, i32 -1)
  %58 = call i32 @__print_text(ptr getelementptr inbounds ([3 x { i8, i8, i8, i8, ptr, i32 }], ptr @__streams, i32 0, i32 1), ptr getelementptr inbounds (i8, ptr @.str.8.20, i32 3), i32 1)
  %59 = sext i32 %55 to i64
  %60 = call i32 @__print_signed(ptr getelementptr inbounds ([3 x { i8, i8, i8, i8, ptr, i32 }], ptr @__streams, i32 0, i32 1), i64 %59, i32 0, i32 0, i32 -1)
  %61 = add i32 %56, %57
  %62 = add i32 %61, %58
  %63 = add i32 %62, %60
  %64 = add i32 %63, 0
  br label %65

65:                                               ; preds = %49
  %66 = load i32, ptr %8, align 4
  %67 = add nsw i32 %66, 1
  store i32 %67, ptr %8, align 4
  br label %45, !llvm.loop !14

68:                                               ; preds = %45
  %69 = call i32 @putchar(i32 noundef 10)
  %70 = load i32, ptr %7, align 4
  %71 = icmp eq i32 %70, 0
  %72 = zext i1 %71 to i32
  store i32 %72, ptr %3, align 4
  br label %73

73:                                               ; preds = %68, %12
  %74 = load i32, ptr %3, align 4
  ret i32 %74
}

; Function Attrs: nofree norecurse nosync nounwind optsize memory(read, inaccessiblemem: none) uwtable
define internal noundef i32 @strlen(ptr noundef %0) #2 {
  br label %2

2:                                                ; preds = %2, %1
  %3 = phi ptr [ %0, %1 ], [ %6, %2 ]
  %4 = load i8, ptr %3, align 1, !tbaa !9
  %5 = icmp eq i8 %4, 0
  %6 = getelementptr inbounds i8, ptr %3, i32 1
  br i1 %5, label %7, label %2, !llvm.loop !15

7:                                                ; preds = %2
  %8 = ptrtoint ptr %3 to i32
  %9 = ptrtoint ptr %0 to i32
  %10 = sub i32 %8, %9
  ret i32 %10
}

; Function Attrs: nofree norecurse nosync nounwind optsize uwtable
define internal noundef ptr @strcpy(ptr noalias noundef returned writeonly %0, ptr noalias nocapture noundef readonly %1) #3 {
  %3 = load i8, ptr %1, align 1, !tbaa !9, !alias.scope !16, !noalias !19
  store i8 %3, ptr %0, align 1, !tbaa !9, !alias.scope !19, !noalias !16
  %4 = icmp eq i8 %3, 0
  br i1 %4, label %12, label %5

5:                                                ; preds = %5, %2
  %6 = phi ptr [ %8, %5 ], [ %1, %2 ]
  %7 = phi ptr [ %9, %5 ], [ %0, %2 ]
  %8 = getelementptr inbounds i8, ptr %6, i32 1
  %9 = getelementptr inbounds i8, ptr %7, i32 1
  %10 = load i8, ptr %8, align 1, !tbaa !9, !alias.scope !16, !noalias !19
  store i8 %10, ptr %9, align 1, !tbaa !9, !alias.scope !19, !noalias !16
  %11 = icmp eq i8 %10, 0
  br i1 %11, label %12, label %5, !llvm.loop !21

12:                                               ; preds = %5, %2
  ret ptr %0
}

; Function Attrs: nounwind optsize uwtable
define internal i32 @__print_signed(ptr nocapture noundef %0, i64 noundef %1, i32 noundef %2, i32 noundef %3, i32 noundef %4) #1 {
  %6 = alloca [24 x i8], align 1
  call void @llvm.lifetime.start.p0(i64 24, ptr nonnull %6) #12
  %7 = getelementptr inbounds i8, ptr %6, i32 24
  %8 = icmp slt i64 %1, 0
  %9 = lshr i64 %1, 63
  %10 = icmp ne i64 %9, 0
  %11 = sub i64 0, %1
  %12 = select i1 %10, i64 %11, i64 %1
  %13 = icmp ult i64 %12, 4294967296
  br i1 %13, label %14, label %26

14:                                               ; preds = %5
  %15 = trunc nuw i64 %12 to i32
  %16 = icmp eq i32 %15, 0
  br i1 %16, label %38, label %17

17:                                               ; preds = %17, %14
  %18 = phi i32 [ %24, %17 ], [ %15, %14 ]
  %19 = phi ptr [ %23, %17 ], [ %7, %14 ]
  %20 = urem i32 %18, 10
  %21 = getelementptr inbounds i8, ptr @.str.9.29, i32 %20
  %22 = load i8, ptr %21, align 1, !tbaa !9
  %23 = getelementptr inbounds i8, ptr %19, i32 -1
  store i8 %22, ptr %23, align 1, !tbaa !9
  %24 = udiv i32 %18, 10
  %25 = icmp ult i32 %18, 10
  br i1 %25, label %38, label %17, !llvm.loop !22

26:                                               ; preds = %26, %5
  %27 = phi ptr [ %36, %26 ], [ %7, %5 ]
  %28 = phi i64 [ %30, %26 ], [ %12, %5 ]
  %29 = freeze i64 %28
  %30 = udiv i64 %29, 10
  %31 = mul i64 %30, 10
  %32 = sub i64 %29, %31
  %33 = trunc nuw nsw i64 %32 to i32
  %34 = getelementptr inbounds i8, ptr @.str.9.29, i32 %33
  %35 = load i8, ptr %34, align 1, !tbaa !9
  %36 = getelementptr inbounds i8, ptr %27, i32 -1
  store i8 %35, ptr %36, align 1, !tbaa !9
  %37 = icmp ult i64 %28, 10
  br i1 %37, label %38, label %26, !llvm.loop !23

38:                                               ; preds = %26, %17, %14
  %39 = phi ptr [ %7, %14 ], [ %23, %17 ], [ %36, %26 ]
  %40 = icmp eq i64 %1, 0
  %41 = icmp ne i32 %4, 0
  %42 = and i1 %40, %41
  br i1 %42, label %43, label %45

43:                                               ; preds = %38
  %44 = getelementptr inbounds i8, ptr %39, i32 -1
  store i8 48, ptr %44, align 1, !tbaa !9
  br label %46

45:                                               ; preds = %38
  br i1 %8, label %54, label %46

46:                                               ; preds = %45, %43
  %47 = phi ptr [ %44, %43 ], [ %39, %45 ]
  %48 = and i32 %2, 2
  %49 = icmp eq i32 %48, 0
  br i1 %49, label %50, label %54

50:                                               ; preds = %46
  %51 = and i32 %2, 4
  %52 = icmp eq i32 %51, 0
  %53 = select i1 %52, ptr @.str.23, ptr @.str.4.30
  br label %54

54:                                               ; preds = %50, %46, %45
  %55 = phi ptr [ %39, %45 ], [ %47, %50 ], [ %47, %46 ]
  %56 = phi ptr [ @.str.2.31, %45 ], [ %53, %50 ], [ @.str.3.32, %46 ]
  %57 = ptrtoint ptr %7 to i32
  %58 = ptrtoint ptr %55 to i32
  %59 = sub i32 %57, %58
  %60 = call fastcc i32 @number(ptr noundef %0, ptr noundef nonnull %56, ptr noundef nonnull %55, i32 noundef %59, i32 noundef %2, i32 noundef %3, i32 noundef %4) #13
  call void @llvm.lifetime.end.p0(i64 24, ptr nonnull %6) #12
  ret i32 %60
}

; Function Attrs: nounwind optsize uwtable
define internal noundef i32 @__print_text(ptr nocapture noundef %0, ptr nocapture noundef readonly %1, i32 noundef returned %2) #1 {
  %4 = load i8, ptr %0, align 4, !tbaa !24, !alias.scope !28, !noalias !31
  %5 = icmp eq i8 %4, 0
  %6 = icmp eq i32 %2, 0
  %7 = or i1 %6, %5
  br i1 %7, label %16, label %8

8:                                                ; preds = %8, %3
  %9 = phi i32 [ %14, %8 ], [ 0, %3 ]
  %10 = getelementptr inbounds i8, ptr %1, i32 %9
  %11 = load i8, ptr %10, align 1, !tbaa !9, !alias.scope !31, !noalias !28
  %12 = zext i8 %11 to i32
  %13 = tail call i32 @fputc(i32 noundef %12, ptr noundef nonnull %0) #13, !noalias !31
  %14 = add nuw i32 %9, 1
  %15 = icmp eq i32 %14, %2
  br i1 %15, label %16, label %8, !llvm.loop !33

16:                                               ; preds = %8, %3
  ret i32 %2
}

; Function Attrs: nounwind optsize uwtable
define internal range(i32 -1, 256) i32 @fputc(i32 noundef %0, ptr nocapture noundef %1) local_unnamed_addr #1 {
  %3 = load i8, ptr %1, align 4, !tbaa !24
  switch i8 %3, label %17 [
    i8 1, label %4
    i8 3, label %6
    i8 0, label %19
  ]

4:                                                ; preds = %2
  %5 = tail call i32 @putchar(i32 noundef %0) #14
  br label %17

6:                                                ; preds = %2
  %7 = getelementptr inbounds i8, ptr %1, i32 8
  %8 = load i32, ptr %7, align 4, !tbaa !34
  %9 = icmp eq i32 %8, 0
  br i1 %9, label %17, label %10

10:                                               ; preds = %6
  %11 = trunc i32 %0 to i8
  %12 = getelementptr inbounds i8, ptr %1, i32 4
  %13 = load ptr, ptr %12, align 4, !tbaa !35
  %14 = getelementptr inbounds i8, ptr %13, i32 1
  store ptr %14, ptr %12, align 4, !tbaa !35
  store i8 %11, ptr %13, align 1, !tbaa !9
  %15 = load i32, ptr %7, align 4, !tbaa !34
  %16 = add i32 %15, -1
  store i32 %16, ptr %7, align 4, !tbaa !34
  br label %17

17:                                               ; preds = %10, %6, %4, %2
  %18 = and i32 %0, 255
  br label %19

19:                                               ; preds = %17, %2
  %20 = phi i32 [ %18, %17 ], [ -1, %2 ]
  ret i32 %20
}

declare dso_local i32 @putchar(i32 noundef) #4

; Function Attrs: nocallback nofree nosync nounwind willreturn memory(argmem: readwrite)
declare void @llvm.lifetime.start.p0(i64 immarg, ptr nocapture) #5

; Function Attrs: nounwind optsize uwtable
define internal fastcc i32 @number(ptr nocapture noundef %0, ptr noundef %1, ptr nocapture noundef readonly %2, i32 noundef %3, i32 noundef %4, i32 noundef %5, i32 noundef %6) unnamed_addr #1 {
  br label %8

8:                                                ; preds = %8, %7
  %9 = phi ptr [ %1, %7 ], [ %12, %8 ]
  %10 = load i8, ptr %9, align 1, !tbaa !9
  %11 = icmp eq i8 %10, 0
  %12 = getelementptr inbounds i8, ptr %9, i32 1
  br i1 %11, label %13, label %8, !llvm.loop !15

13:                                               ; preds = %8
  %14 = ptrtoint ptr %9 to i32
  %15 = ptrtoint ptr %1 to i32
  %16 = sub i32 %14, %15
  %17 = sub nsw i32 %6, %3
  %18 = lshr i32 %5, 31
  %19 = icmp ne i32 %18, 0
  %20 = sub i32 0, %5
  %21 = select i1 %19, i32 %20, i32 %5
  %22 = lshr i32 %5, 31
  %23 = tail call i32 @llvm.smax.i32(i32 %17, i32 0)
  %24 = icmp slt i32 %6, 0
  %25 = and i32 %4, 16
  %26 = icmp ne i32 %25, 0
  %27 = and i1 %26, %24
  %28 = and i32 %4, 1
  %29 = or i32 %22, %28
  %30 = icmp eq i32 %29, 0
  %31 = and i1 %27, %30
  %32 = add i32 %16, %3
  %33 = icmp sgt i32 %21, %32
  %34 = select i1 %31, i1 %33, i1 false
  %35 = sub i32 %21, %32
  %36 = select i1 %34, i32 %35, i32 %23
  %37 = add i32 %32, %36
  %38 = sub i32 %21, %37
  br i1 %30, label %39, label %48

39:                                               ; preds = %13
  %40 = icmp sgt i32 %38, 0
  br i1 %40, label %41, label %46

41:                                               ; preds = %41, %39
  %42 = phi i32 [ %44, %41 ], [ 0, %39 ]
  %43 = tail call i32 @fputc(i32 noundef 32, ptr noundef %0) #13
  %44 = add nuw nsw i32 %42, 1
  %45 = icmp eq i32 %44, %38
  br i1 %45, label %46, label %41, !llvm.loop !36

46:                                               ; preds = %41, %39
  %47 = tail call noundef i32 @llvm.smax.i32(i32 %38, i32 0)
  br label %48

48:                                               ; preds = %46, %13
  %49 = phi i32 [ 0, %13 ], [ %47, %46 ]
  %50 = load i8, ptr %0, align 4, !tbaa !24, !alias.scope !37, !noalias !40
  %51 = icmp eq i8 %50, 0
  %52 = icmp eq ptr %9, %1
  %53 = or i1 %52, %51
  br i1 %53, label %62, label %54

54:                                               ; preds = %54, %48
  %55 = phi i32 [ %60, %54 ], [ 0, %48 ]
  %56 = getelementptr inbounds i8, ptr %1, i32 %55
  %57 = load i8, ptr %56, align 1, !tbaa !9, !alias.scope !40, !noalias !37
  %58 = zext i8 %57 to i32
  %59 = tail call i32 @fputc(i32 noundef %58, ptr noundef nonnull %0) #13, !noalias !40
  %60 = add nuw i32 %55, 1
  %61 = icmp eq i32 %60, %16
  br i1 %61, label %62, label %54, !llvm.loop !33

62:                                               ; preds = %54, %48
  %63 = icmp sgt i32 %36, 0
  br i1 %63, label %64, label %69

64:                                               ; preds = %64, %62
  %65 = phi i32 [ %67, %64 ], [ 0, %62 ]
  %66 = tail call i32 @fputc(i32 noundef 48, ptr noundef nonnull %0) #13
  %67 = add nuw nsw i32 %65, 1
  %68 = icmp eq i32 %67, %36
  br i1 %68, label %69, label %64, !llvm.loop !36

69:                                               ; preds = %64, %62
  %70 = tail call noundef i32 @llvm.smax.i32(i32 %36, i32 0)
  %71 = load i8, ptr %0, align 4, !tbaa !24, !alias.scope !42, !noalias !45
  %72 = icmp eq i8 %71, 0
  %73 = icmp eq i32 %3, 0
  %74 = or i1 %73, %72
  br i1 %74, label %83, label %75

75:                                               ; preds = %75, %69
  %76 = phi i32 [ %81, %75 ], [ 0, %69 ]
  %77 = getelementptr inbounds i8, ptr %2, i32 %76
  %78 = load i8, ptr %77, align 1, !tbaa !9, !alias.scope !45, !noalias !42
  %79 = zext i8 %78 to i32
  %80 = tail call i32 @fputc(i32 noundef %79, ptr noundef nonnull %0) #13, !noalias !45
  %81 = add nuw i32 %76, 1
  %82 = icmp eq i32 %81, %3
  br i1 %82, label %83, label %75, !llvm.loop !33

83:                                               ; preds = %75, %69
  %84 = add i32 %32, %70
  %85 = add i32 %84, %49
  br i1 %30, label %96, label %86

86:                                               ; preds = %83
  %87 = icmp sgt i32 %38, 0
  br i1 %87, label %88, label %93

88:                                               ; preds = %88, %86
  %89 = phi i32 [ %91, %88 ], [ 0, %86 ]
  %90 = tail call i32 @fputc(i32 noundef 32, ptr noundef nonnull %0) #13
  %91 = add nuw nsw i32 %89, 1
  %92 = icmp eq i32 %91, %38
  br i1 %92, label %93, label %88, !llvm.loop !36

93:                                               ; preds = %88, %86
  %94 = tail call noundef i32 @llvm.smax.i32(i32 %38, i32 0)
  %95 = add nsw i32 %85, %94
  br label %96

96:                                               ; preds = %93, %83
  %97 = phi i32 [ %95, %93 ], [ %85, %83 ]
  ret i32 %97
}

; Function Attrs: nocallback nofree nosync nounwind willreturn memory(argmem: readwrite)
declare void @llvm.lifetime.end.p0(i64 immarg, ptr nocapture) #5

; Function Attrs: nocallback nofree nosync nounwind speculatable willreturn memory(none)
declare i32 @llvm.smax.i32(i32, i32) #6

; Function Attrs: noinline nounwind optnone uwtable
define internal zeroext i1 @compile(ptr noundef %0, ptr noundef %1) #0 {
  %3 = alloca ptr, align 4
  %4 = alloca ptr, align 4
  %5 = alloca %struct.compiler, align 4
  store ptr %0, ptr %3, align 4
  store ptr %1, ptr %4, align 4
  %6 = getelementptr inbounds %struct.compiler, ptr %5, i32 0, i32 0
  %7 = getelementptr inbounds %struct.lexer, ptr %6, i32 0, i32 0
  %8 = load ptr, ptr %4, align 4
  store ptr %8, ptr %7, align 4
  %9 = getelementptr inbounds %struct.lexer, ptr %6, i32 0, i32 1
  store i32 1, ptr %9, align 4
  %10 = getelementptr inbounds %struct.lexer, ptr %6, i32 0, i32 2
  store i32 0, ptr %10, align 4
  %11 = getelementptr inbounds %struct.lexer, ptr %6, i32 0, i32 3
  store i32 0, ptr %11, align 4
  %12 = getelementptr inbounds %struct.lexer, ptr %6, i32 0, i32 4
  call void @llvm.memcpy.p0.p0.i32(ptr align 4 %12, ptr align 1 @.str, i32 16, i1 false)
  %13 = getelementptr inbounds %struct.lexer, ptr %6, i32 0, i32 5
  store i32 0, ptr %13, align 4
  %14 = getelementptr inbounds %struct.compiler, ptr %5, i32 0, i32 1
  %15 = load ptr, ptr %3, align 4
  store ptr %15, ptr %14, align 4
  %16 = getelementptr inbounds %struct.compiler, ptr %5, i32 0, i32 2
  store i32 0, ptr %16, align 4
  %17 = load ptr, ptr %3, align 4
  call void @llvm.memset.p0.i32(ptr align 4 %17, i8 0, i32 2656, i1 false)
  %18 = getelementptr inbounds %struct.compiler, ptr %5, i32 0, i32 0
  call void @lexer_next(ptr noundef %18)
  br label %19

19:                                               ; preds = %24, %2
  %20 = getelementptr inbounds %struct.compiler, ptr %5, i32 0, i32 0
  %21 = getelementptr inbounds %struct.lexer, ptr %20, i32 0, i32 2
  %22 = load i32, ptr %21, align 4
  %23 = icmp ne i32 %22, 0
  br i1 %23, label %24, label %25

24:                                               ; preds = %19
  call void @statement(ptr noundef %5)
  br label %19, !llvm.loop !47

25:                                               ; preds = %19
  call void @emit(ptr noundef %5, i32 noundef 0)
  %26 = load ptr, ptr %3, align 4
  %27 = getelementptr inbounds %struct.program, ptr %26, i32 0, i32 4
  %28 = load ptr, ptr %27, align 4
  %29 = icmp eq ptr %28, null
  ret i1 %29
}

; Function Attrs: nounwind optsize uwtable
define internal i32 @__print_string(ptr nocapture noundef %0, ptr noundef %1, i32 noundef %2, i32 noundef %3, i32 noundef %4) #1 {
  %6 = icmp eq ptr %1, null
  %7 = icmp ult i32 %4, 6
  %8 = select i1 %7, ptr @.str.23, ptr @.str.1.24
  %9 = select i1 %6, ptr %8, ptr %1
  %10 = icmp slt i32 %4, 0
  br i1 %10, label %11, label %20

11:                                               ; preds = %11, %5
  %12 = phi ptr [ %15, %11 ], [ %9, %5 ]
  %13 = load i8, ptr %12, align 1, !tbaa !9
  %14 = icmp eq i8 %13, 0
  %15 = getelementptr inbounds i8, ptr %12, i32 1
  br i1 %14, label %16, label %11, !llvm.loop !15

16:                                               ; preds = %11
  %17 = ptrtoint ptr %12 to i32
  %18 = ptrtoint ptr %9 to i32
  %19 = sub i32 %17, %18
  br label %30

20:                                               ; preds = %5
  %21 = icmp eq i32 %4, 0
  br i1 %21, label %30, label %22

22:                                               ; preds = %27, %20
  %23 = phi i32 [ %28, %27 ], [ 0, %20 ]
  %24 = getelementptr inbounds i8, ptr %9, i32 %23
  %25 = load i8, ptr %24, align 1, !tbaa !9
  %26 = icmp eq i8 %25, 0
  br i1 %26, label %30, label %27

27:                                               ; preds = %22
  %28 = add nuw nsw i32 %23, 1
  %29 = icmp eq i32 %28, %4
  br i1 %29, label %30, label %22, !llvm.loop !48

30:                                               ; preds = %27, %22, %20, %16
  %31 = phi i32 [ %19, %16 ], [ 0, %20 ], [ %23, %22 ], [ %4, %27 ]
  %32 = tail call fastcc i32 @padded(ptr noundef %0, ptr noundef nonnull %9, i32 noundef %31, i32 noundef %2, i32 noundef %3) #13
  ret i32 %32
}

; Function Attrs: noinline nounwind optnone uwtable
define internal void @disassemble(ptr noundef %0) #0 {
  %2 = alloca ptr, align 4
  %3 = alloca i32, align 4
  %4 = alloca i8, align 1
  %5 = alloca i32, align 4
  %6 = alloca i32, align 4
  store ptr %0, ptr %2, align 4
  store i32 0, ptr %3, align 4
  br label %7

7:                                                ; preds = %69, %1
  %8 = load i32, ptr %3, align 4
  %9 = load ptr, ptr %2, align 4
  %10 = getelementptr inbounds %struct.program, ptr %9, i32 0, i32 1
  %11 = load i32, ptr %10, align 4
  %12 = icmp ult i32 %8, %11
  br i1 %12, label %13, label %75

13:                                               ; preds = %7
  %14 = load ptr, ptr %2, align 4
  %15 = getelementptr inbounds %struct.program, ptr %14, i32 0, i32 0
  %16 = load i32, ptr %3, align 4
  %17 = getelementptr inbounds [2000 x i8], ptr %15, i32 0, i32 %16
  %18 = load i8, ptr %17, align 1
  store i8 %18, ptr %4, align 1
  %19 = load i8, ptr %4, align 1
  %20 = call i32 @operand_size(i8 noundef zeroext %19)
  store i32 %20, ptr %5, align 4
  %21 = load ptr, ptr %2, align 4
  %22 = getelementptr inbounds %struct.program, ptr %21, i32 0, i32 0
  %23 = getelementptr inbounds [2000 x i8], ptr %22, i32 0, i32 0
  %24 = load i32, ptr %3, align 4
  %25 = getelementptr inbounds i8, ptr %23, i32 %24
  %26 = getelementptr inbounds i8, ptr %25, i32 1
  %27 = load i32, ptr %5, align 4
  %28 = call i32 @operand(ptr noundef %26, i32 noundef %27)
  store i32 %28, ptr %6, align 4
  %29 = load i32, ptr %3, align 4
  %30 = load i8, ptr %4, align 1
  %31 = zext i8 %30 to i32
  %32 = getelementptr inbounds [17 x ptr], ptr @names, i32 0, i32 %31
  %33 = load ptr, ptr %32, align 4
  %34 = zext i32 %29 to i64
  %35 = call i32 @__print_unsigned(ptr getelementptr inbounds ([3 x { i8, i8, i8, i8, ptr, i32 }], ptr @__streams, i32 0, i32 1), i64 %34, i32 10, i32 0, i32 4, i32 -1)
  %36 = call i32 @__print_text(ptr getelementptr inbounds ([3 x { i8, i8, i8, i8, ptr, i32 }], ptr @__streams, i32 0, i32 1), ptr getelementptr inbounds (i8, ptr @.str.27, i32 4), i32 1)
  %37 = call i32 @__print_string(ptr getelementptr inbounds ([3 x { i8, i8, i8, i8, ptr, i32 }], ptr @__streams, i32 0, i32 1), ptr %33, i32 1, i32 12, i32 -1)
  %38 = add i32 %35, %36
  %39 = add i32 %38, %37
  %40 = add i32 %39, 0
  %41 = load i8, ptr %4, align 1
  %42 = zext i8 %41 to i32
  %43 = icmp eq i32 %42, 2
  br i1 %43, label %48, label %44

44:                                               ; preds = %13
  %45 = load i8, ptr %4, align 1
  %46 = zext i8 %45 to i32
  %47 = icmp eq i32 %46, 3
  br i1 %47, label %48, label %58

48:                                               ; preds = %44, %13
  %49 = load ptr, ptr %2, align 4
  %50 = getelementptr inbounds %struct.program, ptr %49, i32 0, i32 2
  %51 = load i32, ptr %6, align 4
  %52 = getelementptr inbounds [40 x [16 x i8]], ptr %50, i32 0, i32 %51
  %53 = getelementptr inbounds [16 x i8], ptr %52, i32 0, i32 0
  %54 = call i32 @__print_text(ptr getelementptr inbounds ([3 x { i8, i8, i8, i8, ptr, i32 }], ptr @__streams, i32 0, i32 1), ptr @.str.1.28, i32 1)
  %55 = call i32 @__print_string(ptr getelementptr inbounds ([3 x { i8, i8, i8, i8, ptr, i32 }], ptr @__streams, i32 0, i32 1), ptr %53, i32 0, i32 0, i32 -1)
  %56 = add i32 %54, %55
  %57 = add i32 %56, 0
  br label %69

58:                                               ; preds = %44
  %59 = load i32, ptr %5, align 4
  %60 = icmp ne i32 %59, 0
  br i1 %60, label %61, label %68

61:                                               ; preds = %58
  %62 = load i32, ptr %6, align 4
  %63 = call i32 @__print_text(ptr getelementptr inbounds ([3 x { i8, i8, i8, i8, ptr, i32 }], ptr @__streams, i32 0, i32 1), ptr @.str.2.29, i32 1)
  %64 = sext i32 %62 to i64
  %65 = call i32 @__print_signed(ptr getelementptr inbounds ([3 x { i8, i8, i8, i8, ptr, i32 }], ptr @__streams, i32 0, i32 1), i64 %64, i32 0, i32 0, i32 -1)
  %66 = add i32 %63, %65
  %67 = add i32 %66, 0
  br label %68

68:                                               ; preds = %61, %58
  br label %69

69:                                               ; preds = %68, %48
  %70 = call i32 @putchar(i32 noundef 10)
  %71 = load i32, ptr %5, align 4
  %72 = add i32 1, %71
  %73 = load i32, ptr %3, align 4
  %74 = add i32 %73, %72
  store i32 %74, ptr %3, align 4
  br label %7, !llvm.loop !49

75:                                               ; preds = %7
  ret void
}

; Function Attrs: nocallback nofree nounwind willreturn memory(argmem: write)
declare void @llvm.memset.p0.i32(ptr nocapture writeonly, i8, i32, i1 immarg) #7

; Function Attrs: noinline nounwind optnone uwtable
define internal i32 @run(ptr noundef %0, i32 noundef %1, ptr noundef %2, ptr noundef %3) #0 {
  %5 = alloca i32, align 4
  %6 = alloca ptr, align 4
  %7 = alloca i32, align 4
  %8 = alloca ptr, align 4
  %9 = alloca ptr, align 4
  %10 = alloca [64 x i32], align 4
  %11 = alloca i32, align 4
  %12 = alloca ptr, align 4
  %13 = alloca i32, align 4
  %14 = alloca i8, align 1
  %15 = alloca i32, align 4
  %16 = alloca i32, align 4
  store ptr %0, ptr %6, align 4
  store i32 %1, ptr %7, align 4
  store ptr %2, ptr %8, align 4
  store ptr %3, ptr %9, align 4
  store i32 0, ptr %11, align 4
  store ptr @.str.3.39, ptr %12, align 4
  store i32 0, ptr %13, align 4
  br label %17

17:                                               ; preds = %229, %4
  %18 = load ptr, ptr %6, align 4
  %19 = getelementptr inbounds %struct.program, ptr %18, i32 0, i32 0
  %20 = load i32, ptr %13, align 4
  %21 = getelementptr inbounds [2000 x i8], ptr %19, i32 0, i32 %20
  %22 = load i8, ptr %21, align 1
  store i8 %22, ptr %14, align 1
  %23 = load i8, ptr %14, align 1
  %24 = call i32 @operand_size(i8 noundef zeroext %23)
  store i32 %24, ptr %15, align 4
  %25 = load ptr, ptr %6, align 4
  %26 = getelementptr inbounds %struct.program, ptr %25, i32 0, i32 0
  %27 = getelementptr inbounds [2000 x i8], ptr %26, i32 0, i32 0
  %28 = load i32, ptr %13, align 4
  %29 = getelementptr inbounds i8, ptr %27, i32 %28
  %30 = getelementptr inbounds i8, ptr %29, i32 1
  %31 = load i32, ptr %15, align 4
  %32 = call i32 @operand(ptr noundef %30, i32 noundef %31)
  store i32 %32, ptr %16, align 4
  %33 = load i32, ptr %15, align 4
  %34 = add i32 1, %33
  %35 = load i32, ptr %13, align 4
  %36 = add i32 %35, %34
  store i32 %36, ptr %13, align 4
  %37 = load ptr, ptr %8, align 4
  %38 = load i32, ptr %37, align 4
  %39 = load i32, ptr %7, align 4
  %40 = icmp eq i32 %38, %39
  br i1 %40, label %41, label %42

41:                                               ; preds = %17
  store i32 3, ptr %5, align 4
  br label %233

42:                                               ; preds = %17
  %43 = load i32, ptr %11, align 4
  %44 = add nsw i32 %43, 1
  %45 = icmp sge i32 %44, 64
  br i1 %45, label %46, label %47

46:                                               ; preds = %42
  store i32 1, ptr %5, align 4
  br label %233

47:                                               ; preds = %42
  %48 = load i8, ptr %14, align 1
  %49 = zext i8 %48 to i32
  switch i32 %49, label %228 [
    i32 0, label %50
    i32 17, label %50
    i32 1, label %51
    i32 2, label %56
    i32 3, label %64
    i32 4, label %72
    i32 5, label %86
    i32 6, label %100
    i32 7, label %114
    i32 8, label %114
    i32 9, label %154
    i32 10, label %169
    i32 11, label %184
    i32 12, label %195
    i32 13, label %204
    i32 14, label %206
    i32 15, label %215
    i32 16, label %226
  ]

50:                                               ; preds = %47, %47
  store i32 0, ptr %5, align 4
  br label %233

51:                                               ; preds = %47
  %52 = load i32, ptr %16, align 4
  %53 = load i32, ptr %11, align 4
  %54 = add nsw i32 %53, 1
  store i32 %54, ptr %11, align 4
  %55 = getelementptr inbounds [64 x i32], ptr %10, i32 0, i32 %53
  store i32 %52, ptr %55, align 4
  br label %228

56:                                               ; preds = %47
  %57 = load ptr, ptr %9, align 4
  %58 = load i32, ptr %16, align 4
  %59 = getelementptr inbounds i32, ptr %57, i32 %58
  %60 = load i32, ptr %59, align 4
  %61 = load i32, ptr %11, align 4
  %62 = add nsw i32 %61, 1
  store i32 %62, ptr %11, align 4
  %63 = getelementptr inbounds [64 x i32], ptr %10, i32 0, i32 %61
  store i32 %60, ptr %63, align 4
  br label %228

64:                                               ; preds = %47
  %65 = load i32, ptr %11, align 4
  %66 = add nsw i32 %65, -1
  store i32 %66, ptr %11, align 4
  %67 = getelementptr inbounds [64 x i32], ptr %10, i32 0, i32 %66
  %68 = load i32, ptr %67, align 4
  %69 = load ptr, ptr %9, align 4
  %70 = load i32, ptr %16, align 4
  %71 = getelementptr inbounds i32, ptr %69, i32 %70
  store i32 %68, ptr %71, align 4
  br label %228

72:                                               ; preds = %47
  %73 = load i32, ptr %11, align 4
  %74 = add nsw i32 %73, -1
  store i32 %74, ptr %11, align 4
  %75 = load i32, ptr %11, align 4
  %76 = sub nsw i32 %75, 1
  %77 = getelementptr inbounds [64 x i32], ptr %10, i32 0, i32 %76
  %78 = load i32, ptr %77, align 4
  %79 = load i32, ptr %11, align 4
  %80 = getelementptr inbounds [64 x i32], ptr %10, i32 0, i32 %79
  %81 = load i32, ptr %80, align 4
  %82 = add i32 %78, %81
  %83 = load i32, ptr %11, align 4
  %84 = sub nsw i32 %83, 1
  %85 = getelementptr inbounds [64 x i32], ptr %10, i32 0, i32 %84
  store i32 %82, ptr %85, align 4
  br label %228

86:                                               ; preds = %47
  %87 = load i32, ptr %11, align 4
  %88 = add nsw i32 %87, -1
  store i32 %88, ptr %11, align 4
  %89 = load i32, ptr %11, align 4
  %90 = sub nsw i32 %89, 1
  %91 = getelementptr inbounds [64 x i32], ptr %10, i32 0, i32 %90
  %92 = load i32, ptr %91, align 4
  %93 = load i32, ptr %11, align 4
  %94 = getelementptr inbounds [64 x i32], ptr %10, i32 0, i32 %93
  %95 = load i32, ptr %94, align 4
  %96 = sub i32 %92, %95
  %97 = load i32, ptr %11, align 4
  %98 = sub nsw i32 %97, 1
  %99 = getelementptr inbounds [64 x i32], ptr %10, i32 0, i32 %98
  store i32 %96, ptr %99, align 4
  br label %228

100:                                              ; preds = %47
  %101 = load i32, ptr %11, align 4
  %102 = add nsw i32 %101, -1
  store i32 %102, ptr %11, align 4
  %103 = load i32, ptr %11, align 4
  %104 = sub nsw i32 %103, 1
  %105 = getelementptr inbounds [64 x i32], ptr %10, i32 0, i32 %104
  %106 = load i32, ptr %105, align 4
  %107 = load i32, ptr %11, align 4
  %108 = getelementptr inbounds [64 x i32], ptr %10, i32 0, i32 %107
  %109 = load i32, ptr %108, align 4
  %110 = mul i32 %106, %109
  %111 = load i32, ptr %11, align 4
  %112 = sub nsw i32 %111, 1
  %113 = getelementptr inbounds [64 x i32], ptr %10, i32 0, i32 %112
  store i32 %110, ptr %113, align 4
  br label %228

114:                                              ; preds = %47, %47
  %115 = load i32, ptr %11, align 4
  %116 = add nsw i32 %115, -1
  store i32 %116, ptr %11, align 4
  %117 = load i32, ptr %11, align 4
  %118 = getelementptr inbounds [64 x i32], ptr %10, i32 0, i32 %117
  %119 = load i32, ptr %118, align 4
  %120 = icmp eq i32 %119, 0
  br i1 %120, label %121, label %122

121:                                              ; preds = %114
  store i32 2, ptr %5, align 4
  br label %233

122:                                              ; preds = %114
  %123 = load i8, ptr %14, align 1
  %124 = zext i8 %123 to i32
  %125 = icmp eq i32 %124, 7
  br i1 %125, label %126, label %137

126:                                              ; preds = %122
  %127 = load i32, ptr %11, align 4
  %128 = sub nsw i32 %127, 1
  %129 = getelementptr inbounds [64 x i32], ptr %10, i32 0, i32 %128
  %130 = load i32, ptr %129, align 4
  %131 = sext i32 %130 to i64
  %132 = load i32, ptr %11, align 4
  %133 = getelementptr inbounds [64 x i32], ptr %10, i32 0, i32 %132
  %134 = load i32, ptr %133, align 4
  %135 = sext i32 %134 to i64
  %136 = sdiv i64 %131, %135
  br label %148

137:                                              ; preds = %122
  %138 = load i32, ptr %11, align 4
  %139 = sub nsw i32 %138, 1
  %140 = getelementptr inbounds [64 x i32], ptr %10, i32 0, i32 %139
  %141 = load i32, ptr %140, align 4
  %142 = sext i32 %141 to i64
  %143 = load i32, ptr %11, align 4
  %144 = getelementptr inbounds [64 x i32], ptr %10, i32 0, i32 %143
  %145 = load i32, ptr %144, align 4
  %146 = sext i32 %145 to i64
  %147 = srem i64 %142, %146
  br label %148

148:                                              ; preds = %137, %126
  %149 = phi i64 [ %136, %126 ], [ %147, %137 ]
  %150 = trunc i64 %149 to i32
  %151 = load i32, ptr %11, align 4
  %152 = sub nsw i32 %151, 1
  %153 = getelementptr inbounds [64 x i32], ptr %10, i32 0, i32 %152
  store i32 %150, ptr %153, align 4
  br label %228

154:                                              ; preds = %47
  %155 = load i32, ptr %11, align 4
  %156 = add nsw i32 %155, -1
  store i32 %156, ptr %11, align 4
  %157 = load i32, ptr %11, align 4
  %158 = sub nsw i32 %157, 1
  %159 = getelementptr inbounds [64 x i32], ptr %10, i32 0, i32 %158
  %160 = load i32, ptr %159, align 4
  %161 = load i32, ptr %11, align 4
  %162 = getelementptr inbounds [64 x i32], ptr %10, i32 0, i32 %161
  %163 = load i32, ptr %162, align 4
  %164 = icmp slt i32 %160, %163
  %165 = zext i1 %164 to i32
  %166 = load i32, ptr %11, align 4
  %167 = sub nsw i32 %166, 1
  %168 = getelementptr inbounds [64 x i32], ptr %10, i32 0, i32 %167
  store i32 %165, ptr %168, align 4
  br label %228

169:                                              ; preds = %47
  %170 = load i32, ptr %11, align 4
  %171 = add nsw i32 %170, -1
  store i32 %171, ptr %11, align 4
  %172 = load i32, ptr %11, align 4
  %173 = sub nsw i32 %172, 1
  %174 = getelementptr inbounds [64 x i32], ptr %10, i32 0, i32 %173
  %175 = load i32, ptr %174, align 4
  %176 = load i32, ptr %11, align 4
  %177 = getelementptr inbounds [64 x i32], ptr %10, i32 0, i32 %176
  %178 = load i32, ptr %177, align 4
  %179 = icmp eq i32 %175, %178
  %180 = zext i1 %179 to i32
  %181 = load i32, ptr %11, align 4
  %182 = sub nsw i32 %181, 1
  %183 = getelementptr inbounds [64 x i32], ptr %10, i32 0, i32 %182
  store i32 %180, ptr %183, align 4
  br label %228

184:                                              ; preds = %47
  %185 = load i32, ptr %11, align 4
  %186 = sub nsw i32 %185, 1
  %187 = getelementptr inbounds [64 x i32], ptr %10, i32 0, i32 %186
  %188 = load i32, ptr %187, align 4
  %189 = icmp ne i32 %188, 0
  %190 = xor i1 %189, true
  %191 = zext i1 %190 to i32
  %192 = load i32, ptr %11, align 4
  %193 = sub nsw i32 %192, 1
  %194 = getelementptr inbounds [64 x i32], ptr %10, i32 0, i32 %193
  store i32 %191, ptr %194, align 4
  br label %228

195:                                              ; preds = %47
  %196 = load i32, ptr %11, align 4
  %197 = sub nsw i32 %196, 1
  %198 = getelementptr inbounds [64 x i32], ptr %10, i32 0, i32 %197
  %199 = load i32, ptr %198, align 4
  %200 = sub i32 0, %199
  %201 = load i32, ptr %11, align 4
  %202 = sub nsw i32 %201, 1
  %203 = getelementptr inbounds [64 x i32], ptr %10, i32 0, i32 %202
  store i32 %200, ptr %203, align 4
  br label %228

204:                                              ; preds = %47
  %205 = load i32, ptr %16, align 4
  store i32 %205, ptr %13, align 4
  br label %228

206:                                              ; preds = %47
  %207 = load i32, ptr %11, align 4
  %208 = add nsw i32 %207, -1
  store i32 %208, ptr %11, align 4
  %209 = getelementptr inbounds [64 x i32], ptr %10, i32 0, i32 %208
  %210 = load i32, ptr %209, align 4
  %211 = icmp ne i32 %210, 0
  br i1 %211, label %214, label %212

212:                                              ; preds = %206
  %213 = load i32, ptr %16, align 4
  store i32 %213, ptr %13, align 4
  br label %214

214:                                              ; preds = %212, %206
  br label %228

215:                                              ; preds = %47
  %216 = load ptr, ptr %12, align 4
  %217 = load i32, ptr %11, align 4
  %218 = add nsw i32 %217, -1
  store i32 %218, ptr %11, align 4
  %219 = getelementptr inbounds [64 x i32], ptr %10, i32 0, i32 %218
  %220 = load i32, ptr %219, align 4
  %221 = call i32 @__print_string(ptr getelementptr inbounds ([3 x { i8, i8, i8, i8, ptr, i32 }], ptr @__streams, i32 0, i32 1), ptr %216, i32 0, i32 0, i32 -1)
  %222 = sext i32 %220 to i64
  %223 = call i32 @__print_signed(ptr getelementptr inbounds ([3 x { i8, i8, i8, i8, ptr, i32 }], ptr @__streams, i32 0, i32 1), i64 %222, i32 0, i32 0, i32 -1)
  %224 = add i32 %221, %223
  %225 = add i32 %224, 0
  store ptr @.str.5.41, ptr %12, align 4
  br label %228

226:                                              ; preds = %47
  %227 = call i32 @putchar(i32 noundef 10)
  store ptr @.str.3.39, ptr %12, align 4
  br label %228

228:                                              ; preds = %226, %215, %214, %204, %195, %184, %169, %154, %148, %100, %86, %72, %64, %56, %51, %47
  br label %229

229:                                              ; preds = %228
  %230 = load ptr, ptr %8, align 4
  %231 = load i32, ptr %230, align 4
  %232 = add i32 %231, 1
  store i32 %232, ptr %230, align 4
  br label %17

233:                                              ; preds = %121, %50, %46, %41
  %234 = load i32, ptr %5, align 4
  ret i32 %234
}

; Function Attrs: nounwind optsize uwtable
define internal i32 @__print_unsigned(ptr nocapture noundef %0, i64 noundef %1, i32 noundef %2, i32 noundef %3, i32 noundef %4, i32 noundef %5) #1 {
  %7 = alloca [24 x i8], align 1
  call void @llvm.lifetime.start.p0(i64 24, ptr nonnull %7) #12
  %8 = and i32 %3, 32
  %9 = icmp eq i32 %8, 0
  %10 = select i1 %9, ptr @.str.9.29, ptr @.str.8.35
  %11 = icmp ult i64 %1, 4294967296
  br i1 %11, label %14, label %12

12:                                               ; preds = %6
  %13 = zext i32 %2 to i64
  br label %27

14:                                               ; preds = %6
  %15 = trunc nuw i64 %1 to i32
  %16 = icmp eq i32 %15, 0
  br i1 %16, label %40, label %17

17:                                               ; preds = %17, %14
  %18 = phi i32 [ %25, %17 ], [ %15, %14 ]
  %19 = phi i32 [ %23, %17 ], [ 24, %14 ]
  %20 = urem i32 %18, %2
  %21 = getelementptr inbounds i8, ptr %10, i32 %20
  %22 = load i8, ptr %21, align 1, !tbaa !9
  %23 = add nsw i32 %19, -1
  %24 = getelementptr inbounds i8, ptr %7, i32 %23
  store i8 %22, ptr %24, align 1, !tbaa !9
  %25 = udiv i32 %18, %2
  %26 = icmp ult i32 %18, %2
  br i1 %26, label %40, label %17, !llvm.loop !22

27:                                               ; preds = %27, %12
  %28 = phi i32 [ 24, %12 ], [ %37, %27 ]
  %29 = phi i64 [ %1, %12 ], [ %31, %27 ]
  %30 = freeze i64 %29
  %31 = udiv i64 %30, %13
  %32 = mul i64 %31, %13
  %33 = sub i64 %30, %32
  %34 = trunc nuw i64 %33 to i32
  %35 = getelementptr inbounds i8, ptr %10, i32 %34
  %36 = load i8, ptr %35, align 1, !tbaa !9
  %37 = add nsw i32 %28, -1
  %38 = getelementptr inbounds i8, ptr %7, i32 %37
  store i8 %36, ptr %38, align 1, !tbaa !9
  %39 = icmp ult i64 %29, %13
  br i1 %39, label %40, label %27, !llvm.loop !23

40:                                               ; preds = %27, %17, %14
  %41 = phi i32 [ 24, %14 ], [ %23, %17 ], [ %37, %27 ]
  %42 = icmp eq i64 %1, 0
  %43 = icmp ne i32 %5, 0
  %44 = and i1 %42, %43
  br i1 %44, label %45, label %48

45:                                               ; preds = %40
  %46 = add nsw i32 %41, -1
  %47 = getelementptr inbounds i8, ptr %7, i32 %46
  store i8 48, ptr %47, align 1, !tbaa !9
  br label %48

48:                                               ; preds = %45, %40
  %49 = phi i32 [ %46, %45 ], [ %41, %40 ]
  %50 = getelementptr inbounds i8, ptr %7, i32 %49
  %51 = and i32 %3, 8
  %52 = icmp ne i32 %51, 0
  %53 = icmp eq i32 %2, 8
  %54 = and i1 %53, %52
  %55 = sub nsw i32 24, %49
  %56 = icmp sge i32 %55, %5
  %57 = select i1 %54, i1 %56, i1 false
  br i1 %57, label %58, label %65

58:                                               ; preds = %48
  %59 = icmp eq i32 %49, 24
  br i1 %59, label %63, label %60

60:                                               ; preds = %58
  %61 = load i8, ptr %50, align 1, !tbaa !9
  %62 = icmp eq i8 %61, 48
  br i1 %62, label %65, label %63

63:                                               ; preds = %60, %58
  %64 = getelementptr inbounds i8, ptr %50, i32 -1
  store i8 48, ptr %64, align 1, !tbaa !9
  br label %65

65:                                               ; preds = %63, %60, %48
  %66 = phi ptr [ %64, %63 ], [ %50, %60 ], [ %50, %48 ]
  %67 = getelementptr inbounds i8, ptr %7, i32 24
  %68 = ptrtoint ptr %67 to i32
  %69 = icmp eq i32 %2, 16
  %70 = icmp ne i64 %1, 0
  %71 = and i1 %70, %69
  %72 = and i1 %71, %52
  %73 = select i1 %9, ptr @.str.6.36, ptr @.str.5.37
  %74 = select i1 %72, ptr %73, ptr @.str.23
  %75 = ptrtoint ptr %66 to i32
  %76 = sub i32 %68, %75
  %77 = call fastcc i32 @number(ptr noundef %0, ptr noundef nonnull %74, ptr noundef nonnull %66, i32 noundef %76, i32 noundef %3, i32 noundef %4, i32 noundef %5) #13
  call void @llvm.lifetime.end.p0(i64 24, ptr nonnull %7) #12
  ret i32 %77
}

; Function Attrs: noinline nounwind optnone uwtable
define internal i32 @operand_size(i8 noundef zeroext %0) #0 {
  %2 = alloca i32, align 4
  %3 = alloca i8, align 1
  store i8 %0, ptr %3, align 1
  %4 = load i8, ptr %3, align 1
  %5 = zext i8 %4 to i32
  switch i32 %5, label %9 [
    i32 1, label %6
    i32 2, label %7
    i32 3, label %7
    i32 13, label %8
    i32 14, label %8
  ]

6:                                                ; preds = %1
  store i32 4, ptr %2, align 4
  br label %10

7:                                                ; preds = %1, %1
  store i32 1, ptr %2, align 4
  br label %10

8:                                                ; preds = %1, %1
  store i32 2, ptr %2, align 4
  br label %10

9:                                                ; preds = %1
  store i32 0, ptr %2, align 4
  br label %10

10:                                               ; preds = %9, %8, %7, %6
  %11 = load i32, ptr %2, align 4
  ret i32 %11
}

; Function Attrs: noinline nounwind optnone uwtable
define internal i32 @operand(ptr noundef %0, i32 noundef %1) #0 {
  %3 = alloca ptr, align 4
  %4 = alloca i32, align 4
  %5 = alloca i32, align 4
  %6 = alloca i32, align 4
  store ptr %0, ptr %3, align 4
  store i32 %1, ptr %4, align 4
  store i32 0, ptr %5, align 4
  %7 = load i32, ptr %4, align 4
  store i32 %7, ptr %6, align 4
  br label %8

8:                                                ; preds = %12, %2
  %9 = load i32, ptr %6, align 4
  %10 = add i32 %9, -1
  store i32 %10, ptr %6, align 4
  %11 = icmp ugt i32 %9, 0
  br i1 %11, label %12, label %21

12:                                               ; preds = %8
  %13 = load i32, ptr %5, align 4
  %14 = shl i32 %13, 8
  %15 = load ptr, ptr %3, align 4
  %16 = load i32, ptr %6, align 4
  %17 = getelementptr inbounds i8, ptr %15, i32 %16
  %18 = load i8, ptr %17, align 1
  %19 = zext i8 %18 to i32
  %20 = or i32 %14, %19
  store i32 %20, ptr %5, align 4
  br label %8, !llvm.loop !50

21:                                               ; preds = %8
  %22 = load i32, ptr %5, align 4
  ret i32 %22
}

; Function Attrs: nounwind optsize uwtable
define internal fastcc i32 @padded(ptr nocapture noundef %0, ptr nocapture noundef readonly %1, i32 noundef %2, i32 noundef %3, i32 noundef %4) unnamed_addr #1 {
  %6 = icmp slt i32 %4, 0
  %7 = lshr i32 %4, 31
  %8 = icmp ne i32 %7, 0
  %9 = sub i32 0, %4
  %10 = select i1 %8, i32 %9, i32 %4
  %11 = sub nsw i32 %10, %2
  %12 = and i32 %3, 1
  %13 = icmp ne i32 %12, 0
  %14 = or i1 %6, %13
  br i1 %14, label %24, label %15

15:                                               ; preds = %5
  %16 = icmp sgt i32 %11, 0
  br i1 %16, label %17, label %22

17:                                               ; preds = %17, %15
  %18 = phi i32 [ %20, %17 ], [ 0, %15 ]
  %19 = tail call i32 @fputc(i32 noundef 32, ptr noundef %0) #13
  %20 = add nuw nsw i32 %18, 1
  %21 = icmp eq i32 %20, %11
  br i1 %21, label %22, label %17, !llvm.loop !36

22:                                               ; preds = %17, %15
  %23 = tail call noundef i32 @llvm.smax.i32(i32 %11, i32 0)
  br label %24

24:                                               ; preds = %22, %5
  %25 = phi i32 [ %23, %22 ], [ 0, %5 ]
  %26 = load i8, ptr %0, align 4, !tbaa !24, !alias.scope !51, !noalias !54
  %27 = icmp eq i8 %26, 0
  %28 = icmp eq i32 %2, 0
  %29 = or i1 %28, %27
  br i1 %29, label %38, label %30

30:                                               ; preds = %30, %24
  %31 = phi i32 [ %36, %30 ], [ 0, %24 ]
  %32 = getelementptr inbounds i8, ptr %1, i32 %31
  %33 = load i8, ptr %32, align 1, !tbaa !9, !alias.scope !54, !noalias !51
  %34 = zext i8 %33 to i32
  %35 = tail call i32 @fputc(i32 noundef %34, ptr noundef nonnull %0) #13, !noalias !54
  %36 = add nuw i32 %31, 1
  %37 = icmp eq i32 %36, %2
  br i1 %37, label %38, label %30, !llvm.loop !33

38:                                               ; preds = %30, %24
  br i1 %14, label %39, label %48

39:                                               ; preds = %38
  %40 = icmp sgt i32 %11, 0
  br i1 %40, label %41, label %46

41:                                               ; preds = %41, %39
  %42 = phi i32 [ %44, %41 ], [ 0, %39 ]
  %43 = tail call i32 @fputc(i32 noundef 32, ptr noundef nonnull %0) #13
  %44 = add nuw nsw i32 %42, 1
  %45 = icmp eq i32 %44, %11
  br i1 %45, label %46, label %41, !llvm.loop !36

46:                                               ; preds = %41, %39
  %47 = tail call noundef i32 @llvm.smax.i32(i32 %11, i32 0)
  br label %48

48:                                               ; preds = %46, %38
  %49 = phi i32 [ %47, %46 ], [ 0, %38 ]
  %50 = add nsw i32 %25, %2
  %51 = add nsw i32 %50, %49
  ret i32 %51
}

; Function Attrs: nocallback nofree nounwind willreturn memory(argmem: readwrite)
declare void @llvm.memcpy.p0.p0.i32(ptr noalias nocapture writeonly, ptr noalias nocapture readonly, i32, i1 immarg) #8

; Function Attrs: noinline nounwind optnone uwtable
define internal void @lexer_next(ptr noundef %0) #0 {
  %2 = alloca ptr, align 4
  %3 = alloca ptr, align 4
  %4 = alloca i32, align 4
  %5 = alloca i32, align 4
  store ptr %0, ptr %2, align 4
  %6 = load ptr, ptr %2, align 4
  call void @skip(ptr noundef %6)
  %7 = load ptr, ptr %2, align 4
  %8 = getelementptr inbounds %struct.lexer, ptr %7, i32 0, i32 0
  %9 = load ptr, ptr %8, align 4
  %10 = load i8, ptr %9, align 1
  %11 = sext i8 %10 to i32
  %12 = icmp eq i32 %11, 0
  br i1 %12, label %13, label %16

13:                                               ; preds = %1
  %14 = load ptr, ptr %2, align 4
  %15 = getelementptr inbounds %struct.lexer, ptr %14, i32 0, i32 2
  store i32 0, ptr %15, align 4
  br label %140

16:                                               ; preds = %1
  %17 = load ptr, ptr %2, align 4
  %18 = getelementptr inbounds %struct.lexer, ptr %17, i32 0, i32 0
  %19 = load ptr, ptr %18, align 4
  %20 = load i8, ptr %19, align 1
  %21 = zext i8 %20 to i32
  %22 = call i32 @isdigit(i32 noundef %21) #15
  %23 = icmp ne i32 %22, 0
  br i1 %23, label %24, label %36

24:                                               ; preds = %16
  %25 = load ptr, ptr %2, align 4
  %26 = getelementptr inbounds %struct.lexer, ptr %25, i32 0, i32 2
  store i32 1, ptr %26, align 4
  %27 = load ptr, ptr %2, align 4
  %28 = getelementptr inbounds %struct.lexer, ptr %27, i32 0, i32 0
  %29 = load ptr, ptr %28, align 4
  %30 = call i32 @strtoul(ptr noundef %29, ptr noundef %3, i32 noundef 10)
  %31 = load ptr, ptr %2, align 4
  %32 = getelementptr inbounds %struct.lexer, ptr %31, i32 0, i32 3
  store i32 %30, ptr %32, align 4
  %33 = load ptr, ptr %3, align 4
  %34 = load ptr, ptr %2, align 4
  %35 = getelementptr inbounds %struct.lexer, ptr %34, i32 0, i32 0
  store ptr %33, ptr %35, align 4
  br label %139

36:                                               ; preds = %16
  %37 = load ptr, ptr %2, align 4
  %38 = getelementptr inbounds %struct.lexer, ptr %37, i32 0, i32 0
  %39 = load ptr, ptr %38, align 4
  %40 = load i8, ptr %39, align 1
  %41 = zext i8 %40 to i32
  %42 = call i32 @isalpha(i32 noundef %41) #15
  %43 = icmp ne i32 %42, 0
  br i1 %43, label %44, label %105

44:                                               ; preds = %36
  store i32 0, ptr %4, align 4
  %45 = load ptr, ptr %2, align 4
  %46 = getelementptr inbounds %struct.lexer, ptr %45, i32 0, i32 2
  store i32 2, ptr %46, align 4
  br label %47

47:                                               ; preds = %70, %44
  %48 = load ptr, ptr %2, align 4
  %49 = getelementptr inbounds %struct.lexer, ptr %48, i32 0, i32 0
  %50 = load ptr, ptr %49, align 4
  %51 = load i8, ptr %50, align 1
  %52 = zext i8 %51 to i32
  %53 = call i32 @isalnum(i32 noundef %52) #15
  %54 = icmp ne i32 %53, 0
  br i1 %54, label %55, label %75

55:                                               ; preds = %47
  %56 = load i32, ptr %4, align 4
  %57 = add i32 %56, 1
  %58 = icmp ult i32 %57, 16
  br i1 %58, label %59, label %69

59:                                               ; preds = %55
  %60 = load ptr, ptr %2, align 4
  %61 = getelementptr inbounds %struct.lexer, ptr %60, i32 0, i32 0
  %62 = load ptr, ptr %61, align 4
  %63 = load i8, ptr %62, align 1
  %64 = load ptr, ptr %2, align 4
  %65 = getelementptr inbounds %struct.lexer, ptr %64, i32 0, i32 4
  %66 = load i32, ptr %4, align 4
  %67 = add i32 %66, 1
  store i32 %67, ptr %4, align 4
  %68 = getelementptr inbounds [16 x i8], ptr %65, i32 0, i32 %66
  store i8 %63, ptr %68, align 1
  br label %69

69:                                               ; preds = %59, %55
  br label %70

70:                                               ; preds = %69
  %71 = load ptr, ptr %2, align 4
  %72 = getelementptr inbounds %struct.lexer, ptr %71, i32 0, i32 0
  %73 = load ptr, ptr %72, align 4
  %74 = getelementptr inbounds i8, ptr %73, i32 1
  store ptr %74, ptr %72, align 4
  br label %47, !llvm.loop !56

75:                                               ; preds = %47
  %76 = load ptr, ptr %2, align 4
  %77 = getelementptr inbounds %struct.lexer, ptr %76, i32 0, i32 4
  %78 = load i32, ptr %4, align 4
  %79 = getelementptr inbounds [16 x i8], ptr %77, i32 0, i32 %78
  store i8 0, ptr %79, align 1
  store i32 0, ptr %5, align 4
  br label %80

80:                                               ; preds = %101, %75
  %81 = load i32, ptr %5, align 4
  %82 = icmp ult i32 %81, 4
  br i1 %82, label %83, label %104

83:                                               ; preds = %80
  %84 = load ptr, ptr %2, align 4
  %85 = getelementptr inbounds %struct.lexer, ptr %84, i32 0, i32 4
  %86 = getelementptr inbounds [16 x i8], ptr %85, i32 0, i32 0
  %87 = load i32, ptr %5, align 4
  %88 = getelementptr inbounds [4 x %struct.anon], ptr @words, i32 0, i32 %87
  %89 = getelementptr inbounds %struct.anon, ptr %88, i32 0, i32 0
  %90 = load ptr, ptr %89, align 4
  %91 = call i32 @strcmp(ptr noundef %86, ptr noundef %90) #12
  %92 = icmp eq i32 %91, 0
  br i1 %92, label %93, label %100

93:                                               ; preds = %83
  %94 = load i32, ptr %5, align 4
  %95 = getelementptr inbounds [4 x %struct.anon], ptr @words, i32 0, i32 %94
  %96 = getelementptr inbounds %struct.anon, ptr %95, i32 0, i32 1
  %97 = load i32, ptr %96, align 4
  %98 = load ptr, ptr %2, align 4
  %99 = getelementptr inbounds %struct.lexer, ptr %98, i32 0, i32 2
  store i32 %97, ptr %99, align 4
  br label %100

100:                                              ; preds = %93, %83
  br label %101

101:                                              ; preds = %100
  %102 = load i32, ptr %5, align 4
  %103 = add i32 %102, 1
  store i32 %103, ptr %5, align 4
  br label %80, !llvm.loop !57

104:                                              ; preds = %80
  br label %138

105:                                              ; preds = %36
  %106 = load ptr, ptr %2, align 4
  %107 = getelementptr inbounds %struct.lexer, ptr %106, i32 0, i32 2
  store i32 3, ptr %107, align 4
  %108 = load ptr, ptr %2, align 4
  %109 = getelementptr inbounds %struct.lexer, ptr %108, i32 0, i32 0
  %110 = load ptr, ptr %109, align 4
  %111 = getelementptr inbounds i8, ptr %110, i32 1
  store ptr %111, ptr %109, align 4
  %112 = load i8, ptr %110, align 1
  %113 = zext i8 %112 to i32
  %114 = load ptr, ptr %2, align 4
  %115 = getelementptr inbounds %struct.lexer, ptr %114, i32 0, i32 5
  store i32 %113, ptr %115, align 4
  %116 = load ptr, ptr %2, align 4
  %117 = getelementptr inbounds %struct.lexer, ptr %116, i32 0, i32 0
  %118 = load ptr, ptr %117, align 4
  %119 = load i8, ptr %118, align 1
  %120 = sext i8 %119 to i32
  %121 = icmp eq i32 %120, 61
  br i1 %121, label %122, label %137

122:                                              ; preds = %105
  %123 = load ptr, ptr %2, align 4
  %124 = getelementptr inbounds %struct.lexer, ptr %123, i32 0, i32 5
  %125 = load i32, ptr %124, align 4
  %126 = call ptr @strchr(ptr noundef @.str.11, i32 noundef %125) #12
  %127 = icmp ne ptr %126, null
  br i1 %127, label %128, label %137

128:                                              ; preds = %122
  %129 = load ptr, ptr %2, align 4
  %130 = getelementptr inbounds %struct.lexer, ptr %129, i32 0, i32 5
  %131 = load i32, ptr %130, align 4
  %132 = add nsw i32 %131, 256
  store i32 %132, ptr %130, align 4
  %133 = load ptr, ptr %2, align 4
  %134 = getelementptr inbounds %struct.lexer, ptr %133, i32 0, i32 0
  %135 = load ptr, ptr %134, align 4
  %136 = getelementptr inbounds i8, ptr %135, i32 1
  store ptr %136, ptr %134, align 4
  br label %137

137:                                              ; preds = %128, %122, %105
  br label %138

138:                                              ; preds = %137, %104
  br label %139

139:                                              ; preds = %138, %24
  br label %140

140:                                              ; preds = %139, %13
  ret void
}

; Function Attrs: noinline nounwind optnone uwtable
define internal void @statement(ptr noundef %0) #0 {
  %2 = alloca ptr, align 4
  %3 = alloca i32, align 4
  store ptr %0, ptr %2, align 4
  %4 = load ptr, ptr %2, align 4
  %5 = getelementptr inbounds %struct.compiler, ptr %4, i32 0, i32 0
  %6 = getelementptr inbounds %struct.lexer, ptr %5, i32 0, i32 2
  %7 = load i32, ptr %6, align 4
  switch i32 %7, label %43 [
    i32 4, label %8
    i32 5, label %12
    i32 7, label %16
    i32 2, label %28
  ]

8:                                                ; preds = %1
  %9 = load ptr, ptr %2, align 4
  %10 = getelementptr inbounds %struct.compiler, ptr %9, i32 0, i32 0
  call void @lexer_next(ptr noundef %10)
  %11 = load ptr, ptr %2, align 4
  call void @loop(ptr noundef %11)
  br label %45

12:                                               ; preds = %1
  %13 = load ptr, ptr %2, align 4
  %14 = getelementptr inbounds %struct.compiler, ptr %13, i32 0, i32 0
  call void @lexer_next(ptr noundef %14)
  %15 = load ptr, ptr %2, align 4
  call void @choice(ptr noundef %15)
  br label %45

16:                                               ; preds = %1
  br label %17

17:                                               ; preds = %22, %16
  %18 = load ptr, ptr %2, align 4
  %19 = getelementptr inbounds %struct.compiler, ptr %18, i32 0, i32 0
  call void @lexer_next(ptr noundef %19)
  %20 = load ptr, ptr %2, align 4
  call void @expression(ptr noundef %20)
  %21 = load ptr, ptr %2, align 4
  call void @emit(ptr noundef %21, i32 noundef 15)
  br label %22

22:                                               ; preds = %17
  %23 = load ptr, ptr %2, align 4
  %24 = call zeroext i1 @is_sign(ptr noundef %23, i32 noundef 44)
  br i1 %24, label %17, label %25, !llvm.loop !58

25:                                               ; preds = %22
  %26 = load ptr, ptr %2, align 4
  call void @emit(ptr noundef %26, i32 noundef 16)
  %27 = load ptr, ptr %2, align 4
  call void @expect(ptr noundef %27, i32 noundef 59, ptr noundef @.str.1)
  br label %45

28:                                               ; preds = %1
  %29 = load ptr, ptr %2, align 4
  %30 = load ptr, ptr %2, align 4
  %31 = getelementptr inbounds %struct.compiler, ptr %30, i32 0, i32 0
  %32 = getelementptr inbounds %struct.lexer, ptr %31, i32 0, i32 4
  %33 = getelementptr inbounds [16 x i8], ptr %32, i32 0, i32 0
  %34 = call i32 @variable(ptr noundef %29, ptr noundef %33)
  store i32 %34, ptr %3, align 4
  %35 = load ptr, ptr %2, align 4
  %36 = getelementptr inbounds %struct.compiler, ptr %35, i32 0, i32 0
  call void @lexer_next(ptr noundef %36)
  %37 = load ptr, ptr %2, align 4
  call void @expect(ptr noundef %37, i32 noundef 61, ptr noundef @.str.2)
  %38 = load ptr, ptr %2, align 4
  call void @expression(ptr noundef %38)
  %39 = load ptr, ptr %2, align 4
  call void @emit(ptr noundef %39, i32 noundef 3)
  %40 = load ptr, ptr %2, align 4
  %41 = load i32, ptr %3, align 4
  call void @emit(ptr noundef %40, i32 noundef %41)
  %42 = load ptr, ptr %2, align 4
  call void @expect(ptr noundef %42, i32 noundef 59, ptr noundef @.str.1)
  br label %45

43:                                               ; preds = %1
  %44 = load ptr, ptr %2, align 4
  call void @fail(ptr noundef %44, ptr noundef @.str.3)
  br label %45

45:                                               ; preds = %43, %28, %25, %12, %8
  ret void
}

; Function Attrs: noinline nounwind optnone uwtable
define internal void @emit(ptr noundef %0, i32 noundef %1) #0 {
  %3 = alloca ptr, align 4
  %4 = alloca i32, align 4
  store ptr %0, ptr %3, align 4
  store i32 %1, ptr %4, align 4
  %5 = load ptr, ptr %3, align 4
  %6 = getelementptr inbounds %struct.compiler, ptr %5, i32 0, i32 1
  %7 = load ptr, ptr %6, align 4
  %8 = getelementptr inbounds %struct.program, ptr %7, i32 0, i32 1
  %9 = load i32, ptr %8, align 4
  %10 = icmp eq i32 %9, 2000
  br i1 %10, label %11, label %13

11:                                               ; preds = %2
  %12 = load ptr, ptr %3, align 4
  call void @fail(ptr noundef %12, ptr noundef @.str.10)
  br label %27

13:                                               ; preds = %2
  %14 = load i32, ptr %4, align 4
  %15 = trunc i32 %14 to i8
  %16 = load ptr, ptr %3, align 4
  %17 = getelementptr inbounds %struct.compiler, ptr %16, i32 0, i32 1
  %18 = load ptr, ptr %17, align 4
  %19 = getelementptr inbounds %struct.program, ptr %18, i32 0, i32 0
  %20 = load ptr, ptr %3, align 4
  %21 = getelementptr inbounds %struct.compiler, ptr %20, i32 0, i32 1
  %22 = load ptr, ptr %21, align 4
  %23 = getelementptr inbounds %struct.program, ptr %22, i32 0, i32 1
  %24 = load i32, ptr %23, align 4
  %25 = add i32 %24, 1
  store i32 %25, ptr %23, align 4
  %26 = getelementptr inbounds [2000 x i8], ptr %19, i32 0, i32 %24
  store i8 %15, ptr %26, align 1
  br label %27

27:                                               ; preds = %13, %11
  ret void
}

; Function Attrs: noinline nounwind optnone uwtable
define internal void @fail(ptr noundef %0, ptr noundef %1) #0 {
  %3 = alloca ptr, align 4
  %4 = alloca ptr, align 4
  store ptr %0, ptr %3, align 4
  store ptr %1, ptr %4, align 4
  %5 = load ptr, ptr %3, align 4
  %6 = getelementptr inbounds %struct.compiler, ptr %5, i32 0, i32 1
  %7 = load ptr, ptr %6, align 4
  %8 = getelementptr inbounds %struct.program, ptr %7, i32 0, i32 4
  %9 = load ptr, ptr %8, align 4
  %10 = icmp ne ptr %9, null
  br i1 %10, label %25, label %11

11:                                               ; preds = %2
  %12 = load ptr, ptr %4, align 4
  %13 = load ptr, ptr %3, align 4
  %14 = getelementptr inbounds %struct.compiler, ptr %13, i32 0, i32 1
  %15 = load ptr, ptr %14, align 4
  %16 = getelementptr inbounds %struct.program, ptr %15, i32 0, i32 4
  store ptr %12, ptr %16, align 4
  %17 = load ptr, ptr %3, align 4
  %18 = getelementptr inbounds %struct.compiler, ptr %17, i32 0, i32 0
  %19 = getelementptr inbounds %struct.lexer, ptr %18, i32 0, i32 1
  %20 = load i32, ptr %19, align 4
  %21 = load ptr, ptr %3, align 4
  %22 = getelementptr inbounds %struct.compiler, ptr %21, i32 0, i32 1
  %23 = load ptr, ptr %22, align 4
  %24 = getelementptr inbounds %struct.program, ptr %23, i32 0, i32 5
  store i32 %20, ptr %24, align 4
  br label %25

25:                                               ; preds = %11, %2
  %26 = load ptr, ptr %3, align 4
  %27 = getelementptr inbounds %struct.compiler, ptr %26, i32 0, i32 0
  %28 = getelementptr inbounds %struct.lexer, ptr %27, i32 0, i32 2
  store i32 0, ptr %28, align 4
  ret void
}

; Function Attrs: noinline nounwind optnone uwtable
define internal void @loop(ptr noundef %0) #0 {
  %2 = alloca ptr, align 4
  %3 = alloca i32, align 4
  %4 = alloca i32, align 4
  store ptr %0, ptr %2, align 4
  %5 = load ptr, ptr %2, align 4
  %6 = getelementptr inbounds %struct.compiler, ptr %5, i32 0, i32 1
  %7 = load ptr, ptr %6, align 4
  %8 = getelementptr inbounds %struct.program, ptr %7, i32 0, i32 1
  %9 = load i32, ptr %8, align 4
  store i32 %9, ptr %3, align 4
  %10 = load ptr, ptr %2, align 4
  call void @expression(ptr noundef %10)
  %11 = load ptr, ptr %2, align 4
  %12 = call i32 @emit_jump(ptr noundef %11, i32 noundef 14)
  store i32 %12, ptr %4, align 4
  %13 = load ptr, ptr %2, align 4
  call void @block(ptr noundef %13)
  %14 = load ptr, ptr %2, align 4
  %15 = load ptr, ptr %2, align 4
  %16 = call i32 @emit_jump(ptr noundef %15, i32 noundef 13)
  %17 = load i32, ptr %3, align 4
  call void @aim(ptr noundef %14, i32 noundef %16, i32 noundef %17)
  %18 = load ptr, ptr %2, align 4
  %19 = load i32, ptr %4, align 4
  %20 = load ptr, ptr %2, align 4
  %21 = getelementptr inbounds %struct.compiler, ptr %20, i32 0, i32 1
  %22 = load ptr, ptr %21, align 4
  %23 = getelementptr inbounds %struct.program, ptr %22, i32 0, i32 1
  %24 = load i32, ptr %23, align 4
  call void @aim(ptr noundef %18, i32 noundef %19, i32 noundef %24)
  ret void
}

; Function Attrs: noinline nounwind optnone uwtable
define internal void @choice(ptr noundef %0) #0 {
  %2 = alloca ptr, align 4
  %3 = alloca i32, align 4
  %4 = alloca i32, align 4
  store ptr %0, ptr %2, align 4
  %5 = load ptr, ptr %2, align 4
  call void @expression(ptr noundef %5)
  %6 = load ptr, ptr %2, align 4
  %7 = call i32 @emit_jump(ptr noundef %6, i32 noundef 14)
  store i32 %7, ptr %3, align 4
  %8 = load ptr, ptr %2, align 4
  call void @block(ptr noundef %8)
  %9 = load ptr, ptr %2, align 4
  %10 = getelementptr inbounds %struct.compiler, ptr %9, i32 0, i32 0
  %11 = getelementptr inbounds %struct.lexer, ptr %10, i32 0, i32 2
  %12 = load i32, ptr %11, align 4
  %13 = icmp eq i32 %12, 6
  br i1 %13, label %14, label %28

14:                                               ; preds = %1
  %15 = load ptr, ptr %2, align 4
  %16 = getelementptr inbounds %struct.compiler, ptr %15, i32 0, i32 0
  call void @lexer_next(ptr noundef %16)
  %17 = load ptr, ptr %2, align 4
  %18 = call i32 @emit_jump(ptr noundef %17, i32 noundef 13)
  store i32 %18, ptr %4, align 4
  %19 = load ptr, ptr %2, align 4
  %20 = load i32, ptr %3, align 4
  %21 = load ptr, ptr %2, align 4
  %22 = getelementptr inbounds %struct.compiler, ptr %21, i32 0, i32 1
  %23 = load ptr, ptr %22, align 4
  %24 = getelementptr inbounds %struct.program, ptr %23, i32 0, i32 1
  %25 = load i32, ptr %24, align 4
  call void @aim(ptr noundef %19, i32 noundef %20, i32 noundef %25)
  %26 = load ptr, ptr %2, align 4
  call void @block(ptr noundef %26)
  %27 = load i32, ptr %4, align 4
  store i32 %27, ptr %3, align 4
  br label %28

28:                                               ; preds = %14, %1
  %29 = load ptr, ptr %2, align 4
  %30 = load i32, ptr %3, align 4
  %31 = load ptr, ptr %2, align 4
  %32 = getelementptr inbounds %struct.compiler, ptr %31, i32 0, i32 1
  %33 = load ptr, ptr %32, align 4
  %34 = getelementptr inbounds %struct.program, ptr %33, i32 0, i32 1
  %35 = load i32, ptr %34, align 4
  call void @aim(ptr noundef %29, i32 noundef %30, i32 noundef %35)
  ret void
}

; Function Attrs: noinline nounwind optnone uwtable
define internal void @expression(ptr noundef %0) #0 {
  %2 = alloca ptr, align 4
  %3 = alloca i32, align 4
  store ptr %0, ptr %2, align 4
  %4 = load ptr, ptr %2, align 4
  call void @sum(ptr noundef %4)
  %5 = load ptr, ptr %2, align 4
  %6 = getelementptr inbounds %struct.compiler, ptr %5, i32 0, i32 0
  %7 = getelementptr inbounds %struct.lexer, ptr %6, i32 0, i32 2
  %8 = load i32, ptr %7, align 4
  %9 = icmp eq i32 %8, 3
  br i1 %9, label %10, label %15

10:                                               ; preds = %1
  %11 = load ptr, ptr %2, align 4
  %12 = getelementptr inbounds %struct.compiler, ptr %11, i32 0, i32 0
  %13 = getelementptr inbounds %struct.lexer, ptr %12, i32 0, i32 5
  %14 = load i32, ptr %13, align 4
  br label %16

15:                                               ; preds = %1
  br label %16

16:                                               ; preds = %15, %10
  %17 = phi i32 [ %14, %10 ], [ 0, %15 ]
  store i32 %17, ptr %3, align 4
  %18 = load i32, ptr %3, align 4
  %19 = icmp ne i32 %18, 60
  br i1 %19, label %20, label %30

20:                                               ; preds = %16
  %21 = load i32, ptr %3, align 4
  %22 = icmp ne i32 %21, 317
  br i1 %22, label %23, label %30

23:                                               ; preds = %20
  %24 = load i32, ptr %3, align 4
  %25 = icmp ne i32 %24, 289
  br i1 %25, label %26, label %30

26:                                               ; preds = %23
  %27 = load i32, ptr %3, align 4
  %28 = icmp ne i32 %27, 318
  br i1 %28, label %29, label %30

29:                                               ; preds = %26
  br label %51

30:                                               ; preds = %26, %23, %20, %16
  %31 = load ptr, ptr %2, align 4
  %32 = getelementptr inbounds %struct.compiler, ptr %31, i32 0, i32 0
  call void @lexer_next(ptr noundef %32)
  %33 = load ptr, ptr %2, align 4
  call void @sum(ptr noundef %33)
  %34 = load ptr, ptr %2, align 4
  %35 = load i32, ptr %3, align 4
  %36 = icmp eq i32 %35, 60
  br i1 %36, label %40, label %37

37:                                               ; preds = %30
  %38 = load i32, ptr %3, align 4
  %39 = icmp eq i32 %38, 318
  br label %40

40:                                               ; preds = %37, %30
  %41 = phi i1 [ true, %30 ], [ %39, %37 ]
  %42 = zext i1 %41 to i64
  %43 = select i1 %41, i32 9, i32 10
  call void @emit(ptr noundef %34, i32 noundef %43)
  %44 = load i32, ptr %3, align 4
  %45 = icmp eq i32 %44, 289
  br i1 %45, label %49, label %46

46:                                               ; preds = %40
  %47 = load i32, ptr %3, align 4
  %48 = icmp eq i32 %47, 318
  br i1 %48, label %49, label %51

49:                                               ; preds = %46, %40
  %50 = load ptr, ptr %2, align 4
  call void @emit(ptr noundef %50, i32 noundef 11)
  br label %51

51:                                               ; preds = %49, %46, %29
  ret void
}

; Function Attrs: noinline nounwind optnone uwtable
define internal zeroext i1 @is_sign(ptr noundef %0, i32 noundef %1) #0 {
  %3 = alloca ptr, align 4
  %4 = alloca i32, align 4
  store ptr %0, ptr %3, align 4
  store i32 %1, ptr %4, align 4
  %5 = load ptr, ptr %3, align 4
  %6 = getelementptr inbounds %struct.compiler, ptr %5, i32 0, i32 0
  %7 = getelementptr inbounds %struct.lexer, ptr %6, i32 0, i32 2
  %8 = load i32, ptr %7, align 4
  %9 = icmp eq i32 %8, 3
  br i1 %9, label %10, label %17

10:                                               ; preds = %2
  %11 = load ptr, ptr %3, align 4
  %12 = getelementptr inbounds %struct.compiler, ptr %11, i32 0, i32 0
  %13 = getelementptr inbounds %struct.lexer, ptr %12, i32 0, i32 5
  %14 = load i32, ptr %13, align 4
  %15 = load i32, ptr %4, align 4
  %16 = icmp eq i32 %14, %15
  br label %17

17:                                               ; preds = %10, %2
  %18 = phi i1 [ false, %2 ], [ %16, %10 ]
  ret i1 %18
}

; Function Attrs: noinline nounwind optnone uwtable
define internal void @expect(ptr noundef %0, i32 noundef %1, ptr noundef %2) #0 {
  %4 = alloca ptr, align 4
  %5 = alloca i32, align 4
  %6 = alloca ptr, align 4
  store ptr %0, ptr %4, align 4
  store i32 %1, ptr %5, align 4
  store ptr %2, ptr %6, align 4
  %7 = load ptr, ptr %4, align 4
  %8 = load i32, ptr %5, align 4
  %9 = call zeroext i1 @accept(ptr noundef %7, i32 noundef %8)
  br i1 %9, label %13, label %10

10:                                               ; preds = %3
  %11 = load ptr, ptr %4, align 4
  %12 = load ptr, ptr %6, align 4
  call void @fail(ptr noundef %11, ptr noundef %12)
  br label %13

13:                                               ; preds = %10, %3
  ret void
}

; Function Attrs: noinline nounwind optnone uwtable
define internal i32 @variable(ptr noundef %0, ptr noundef %1) #0 {
  %3 = alloca i32, align 4
  %4 = alloca ptr, align 4
  %5 = alloca ptr, align 4
  %6 = alloca i32, align 4
  store ptr %0, ptr %4, align 4
  store ptr %1, ptr %5, align 4
  store i32 0, ptr %6, align 4
  br label %7

7:                                                ; preds = %29, %2
  %8 = load i32, ptr %6, align 4
  %9 = load ptr, ptr %4, align 4
  %10 = getelementptr inbounds %struct.compiler, ptr %9, i32 0, i32 1
  %11 = load ptr, ptr %10, align 4
  %12 = getelementptr inbounds %struct.program, ptr %11, i32 0, i32 3
  %13 = load i32, ptr %12, align 4
  %14 = icmp slt i32 %8, %13
  br i1 %14, label %15, label %32

15:                                               ; preds = %7
  %16 = load ptr, ptr %4, align 4
  %17 = getelementptr inbounds %struct.compiler, ptr %16, i32 0, i32 1
  %18 = load ptr, ptr %17, align 4
  %19 = getelementptr inbounds %struct.program, ptr %18, i32 0, i32 2
  %20 = load i32, ptr %6, align 4
  %21 = getelementptr inbounds [40 x [16 x i8]], ptr %19, i32 0, i32 %20
  %22 = getelementptr inbounds [16 x i8], ptr %21, i32 0, i32 0
  %23 = load ptr, ptr %5, align 4
  %24 = call i32 @strcmp(ptr noundef %22, ptr noundef %23) #12
  %25 = icmp eq i32 %24, 0
  br i1 %25, label %26, label %28

26:                                               ; preds = %15
  %27 = load i32, ptr %6, align 4
  store i32 %27, ptr %3, align 4
  br label %61

28:                                               ; preds = %15
  br label %29

29:                                               ; preds = %28
  %30 = load i32, ptr %6, align 4
  %31 = add nsw i32 %30, 1
  store i32 %31, ptr %6, align 4
  br label %7, !llvm.loop !59

32:                                               ; preds = %7
  %33 = load ptr, ptr %4, align 4
  %34 = getelementptr inbounds %struct.compiler, ptr %33, i32 0, i32 1
  %35 = load ptr, ptr %34, align 4
  %36 = getelementptr inbounds %struct.program, ptr %35, i32 0, i32 3
  %37 = load i32, ptr %36, align 4
  %38 = icmp eq i32 %37, 40
  br i1 %38, label %39, label %41

39:                                               ; preds = %32
  %40 = load ptr, ptr %4, align 4
  call void @fail(ptr noundef %40, ptr noundef @.str.9)
  store i32 0, ptr %3, align 4
  br label %61

41:                                               ; preds = %32
  %42 = load ptr, ptr %4, align 4
  %43 = getelementptr inbounds %struct.compiler, ptr %42, i32 0, i32 1
  %44 = load ptr, ptr %43, align 4
  %45 = getelementptr inbounds %struct.program, ptr %44, i32 0, i32 2
  %46 = load ptr, ptr %4, align 4
  %47 = getelementptr inbounds %struct.compiler, ptr %46, i32 0, i32 1
  %48 = load ptr, ptr %47, align 4
  %49 = getelementptr inbounds %struct.program, ptr %48, i32 0, i32 3
  %50 = load i32, ptr %49, align 4
  %51 = getelementptr inbounds [40 x [16 x i8]], ptr %45, i32 0, i32 %50
  %52 = getelementptr inbounds [16 x i8], ptr %51, i32 0, i32 0
  %53 = load ptr, ptr %5, align 4
  %54 = call ptr @strcpy(ptr noundef %52, ptr noundef %53) #12
  %55 = load ptr, ptr %4, align 4
  %56 = getelementptr inbounds %struct.compiler, ptr %55, i32 0, i32 1
  %57 = load ptr, ptr %56, align 4
  %58 = getelementptr inbounds %struct.program, ptr %57, i32 0, i32 3
  %59 = load i32, ptr %58, align 4
  %60 = add nsw i32 %59, 1
  store i32 %60, ptr %58, align 4
  store i32 %59, ptr %3, align 4
  br label %61

61:                                               ; preds = %41, %39, %26
  %62 = load i32, ptr %3, align 4
  ret i32 %62
}

; Function Attrs: nofree norecurse nosync nounwind optsize memory(read, inaccessiblemem: none) uwtable
define internal range(i32 -1, 2) i32 @strcmp(ptr nocapture noundef readonly %0, ptr nocapture noundef readonly %1) #2 {
  %3 = load i8, ptr %0, align 1, !tbaa !9
  %4 = icmp eq i8 %3, 0
  br i1 %4, label %16, label %5

5:                                                ; preds = %11, %2
  %6 = phi i8 [ %14, %11 ], [ %3, %2 ]
  %7 = phi ptr [ %13, %11 ], [ %1, %2 ]
  %8 = phi ptr [ %12, %11 ], [ %0, %2 ]
  %9 = load i8, ptr %7, align 1, !tbaa !9
  %10 = icmp eq i8 %6, %9
  br i1 %10, label %11, label %16

11:                                               ; preds = %5
  %12 = getelementptr inbounds i8, ptr %8, i32 1
  %13 = getelementptr inbounds i8, ptr %7, i32 1
  %14 = load i8, ptr %12, align 1, !tbaa !9
  %15 = icmp eq i8 %14, 0
  br i1 %15, label %16, label %5, !llvm.loop !60

16:                                               ; preds = %11, %5, %2
  %17 = phi ptr [ %1, %2 ], [ %13, %11 ], [ %7, %5 ]
  %18 = phi i8 [ 0, %2 ], [ 0, %11 ], [ %6, %5 ]
  %19 = load i8, ptr %17, align 1, !tbaa !9
  %20 = icmp ult i8 %18, %19
  %21 = icmp ugt i8 %18, %19
  %22 = zext i1 %21 to i32
  %23 = select i1 %20, i32 -1, i32 %22
  ret i32 %23
}

; Function Attrs: noinline nounwind optnone uwtable
define internal zeroext i1 @accept(ptr noundef %0, i32 noundef %1) #0 {
  %3 = alloca i1, align 1
  %4 = alloca ptr, align 4
  %5 = alloca i32, align 4
  store ptr %0, ptr %4, align 4
  store i32 %1, ptr %5, align 4
  %6 = load ptr, ptr %4, align 4
  %7 = load i32, ptr %5, align 4
  %8 = call zeroext i1 @is_sign(ptr noundef %6, i32 noundef %7)
  br i1 %8, label %10, label %9

9:                                                ; preds = %2
  store i1 false, ptr %3, align 1
  br label %13

10:                                               ; preds = %2
  %11 = load ptr, ptr %4, align 4
  %12 = getelementptr inbounds %struct.compiler, ptr %11, i32 0, i32 0
  call void @lexer_next(ptr noundef %12)
  store i1 true, ptr %3, align 1
  br label %13

13:                                               ; preds = %10, %9
  %14 = load i1, ptr %3, align 1
  ret i1 %14
}

; Function Attrs: noinline nounwind optnone uwtable
define internal void @sum(ptr noundef %0) #0 {
  %2 = alloca ptr, align 4
  %3 = alloca i32, align 4
  store ptr %0, ptr %2, align 4
  %4 = load ptr, ptr %2, align 4
  call void @product(ptr noundef %4)
  br label %5

5:                                                ; preds = %19, %1
  %6 = load ptr, ptr %2, align 4
  %7 = call zeroext i1 @is_sign(ptr noundef %6, i32 noundef 43)
  br i1 %7, label %8, label %9

8:                                                ; preds = %5
  br label %14

9:                                                ; preds = %5
  %10 = load ptr, ptr %2, align 4
  %11 = call zeroext i1 @is_sign(ptr noundef %10, i32 noundef 45)
  %12 = zext i1 %11 to i64
  %13 = select i1 %11, i32 5, i32 0
  br label %14

14:                                               ; preds = %9, %8
  %15 = phi i32 [ 4, %8 ], [ %13, %9 ]
  store i32 %15, ptr %3, align 4
  %16 = load i32, ptr %3, align 4
  %17 = icmp eq i32 %16, 0
  br i1 %17, label %18, label %19

18:                                               ; preds = %14
  ret void

19:                                               ; preds = %14
  %20 = load ptr, ptr %2, align 4
  %21 = getelementptr inbounds %struct.compiler, ptr %20, i32 0, i32 0
  call void @lexer_next(ptr noundef %21)
  %22 = load ptr, ptr %2, align 4
  call void @product(ptr noundef %22)
  %23 = load ptr, ptr %2, align 4
  %24 = load i32, ptr %3, align 4
  call void @emit(ptr noundef %23, i32 noundef %24)
  br label %5
}

; Function Attrs: noinline nounwind optnone uwtable
define internal void @product(ptr noundef %0) #0 {
  %2 = alloca ptr, align 4
  %3 = alloca i32, align 4
  store ptr %0, ptr %2, align 4
  %4 = load ptr, ptr %2, align 4
  call void @primary(ptr noundef %4)
  br label %5

5:                                                ; preds = %25, %1
  %6 = load ptr, ptr %2, align 4
  %7 = call zeroext i1 @is_sign(ptr noundef %6, i32 noundef 42)
  br i1 %7, label %8, label %9

8:                                                ; preds = %5
  br label %20

9:                                                ; preds = %5
  %10 = load ptr, ptr %2, align 4
  %11 = call zeroext i1 @is_sign(ptr noundef %10, i32 noundef 47)
  br i1 %11, label %12, label %13

12:                                               ; preds = %9
  br label %18

13:                                               ; preds = %9
  %14 = load ptr, ptr %2, align 4
  %15 = call zeroext i1 @is_sign(ptr noundef %14, i32 noundef 37)
  %16 = zext i1 %15 to i64
  %17 = select i1 %15, i32 8, i32 0
  br label %18

18:                                               ; preds = %13, %12
  %19 = phi i32 [ 7, %12 ], [ %17, %13 ]
  br label %20

20:                                               ; preds = %18, %8
  %21 = phi i32 [ 6, %8 ], [ %19, %18 ]
  store i32 %21, ptr %3, align 4
  %22 = load i32, ptr %3, align 4
  %23 = icmp eq i32 %22, 0
  br i1 %23, label %24, label %25

24:                                               ; preds = %20
  ret void

25:                                               ; preds = %20
  %26 = load ptr, ptr %2, align 4
  %27 = getelementptr inbounds %struct.compiler, ptr %26, i32 0, i32 0
  call void @lexer_next(ptr noundef %27)
  %28 = load ptr, ptr %2, align 4
  call void @primary(ptr noundef %28)
  %29 = load ptr, ptr %2, align 4
  %30 = load i32, ptr %3, align 4
  call void @emit(ptr noundef %29, i32 noundef %30)
  br label %5
}

; Function Attrs: noinline nounwind optnone uwtable
define internal void @primary(ptr noundef %0) #0 {
  %2 = alloca ptr, align 4
  store ptr %0, ptr %2, align 4
  %3 = load ptr, ptr %2, align 4
  %4 = getelementptr inbounds %struct.compiler, ptr %3, i32 0, i32 2
  %5 = load i32, ptr %4, align 4
  %6 = add nsw i32 %5, 1
  store i32 %6, ptr %4, align 4
  %7 = icmp sgt i32 %6, 30
  br i1 %7, label %8, label %10

8:                                                ; preds = %1
  %9 = load ptr, ptr %2, align 4
  call void @fail(ptr noundef %9, ptr noundef @.str.6)
  br label %10

10:                                               ; preds = %8, %1
  %11 = load ptr, ptr %2, align 4
  %12 = getelementptr inbounds %struct.compiler, ptr %11, i32 0, i32 0
  %13 = getelementptr inbounds %struct.lexer, ptr %12, i32 0, i32 2
  %14 = load i32, ptr %13, align 4
  %15 = icmp eq i32 %14, 1
  br i1 %15, label %16, label %24

16:                                               ; preds = %10
  %17 = load ptr, ptr %2, align 4
  %18 = load ptr, ptr %2, align 4
  %19 = getelementptr inbounds %struct.compiler, ptr %18, i32 0, i32 0
  %20 = getelementptr inbounds %struct.lexer, ptr %19, i32 0, i32 3
  %21 = load i32, ptr %20, align 4
  call void @emit_number(ptr noundef %17, i32 noundef %21)
  %22 = load ptr, ptr %2, align 4
  %23 = getelementptr inbounds %struct.compiler, ptr %22, i32 0, i32 0
  call void @lexer_next(ptr noundef %23)
  br label %65

24:                                               ; preds = %10
  %25 = load ptr, ptr %2, align 4
  %26 = getelementptr inbounds %struct.compiler, ptr %25, i32 0, i32 0
  %27 = getelementptr inbounds %struct.lexer, ptr %26, i32 0, i32 2
  %28 = load i32, ptr %27, align 4
  %29 = icmp eq i32 %28, 2
  br i1 %29, label %30, label %41

30:                                               ; preds = %24
  %31 = load ptr, ptr %2, align 4
  call void @emit(ptr noundef %31, i32 noundef 2)
  %32 = load ptr, ptr %2, align 4
  %33 = load ptr, ptr %2, align 4
  %34 = load ptr, ptr %2, align 4
  %35 = getelementptr inbounds %struct.compiler, ptr %34, i32 0, i32 0
  %36 = getelementptr inbounds %struct.lexer, ptr %35, i32 0, i32 4
  %37 = getelementptr inbounds [16 x i8], ptr %36, i32 0, i32 0
  %38 = call i32 @variable(ptr noundef %33, ptr noundef %37)
  call void @emit(ptr noundef %32, i32 noundef %38)
  %39 = load ptr, ptr %2, align 4
  %40 = getelementptr inbounds %struct.compiler, ptr %39, i32 0, i32 0
  call void @lexer_next(ptr noundef %40)
  br label %64

41:                                               ; preds = %24
  %42 = load ptr, ptr %2, align 4
  %43 = call zeroext i1 @accept(ptr noundef %42, i32 noundef 40)
  br i1 %43, label %44, label %47

44:                                               ; preds = %41
  %45 = load ptr, ptr %2, align 4
  call void @expression(ptr noundef %45)
  %46 = load ptr, ptr %2, align 4
  call void @expect(ptr noundef %46, i32 noundef 41, ptr noundef @.str.7)
  br label %63

47:                                               ; preds = %41
  %48 = load ptr, ptr %2, align 4
  %49 = call zeroext i1 @accept(ptr noundef %48, i32 noundef 45)
  br i1 %49, label %50, label %53

50:                                               ; preds = %47
  %51 = load ptr, ptr %2, align 4
  call void @primary(ptr noundef %51)
  %52 = load ptr, ptr %2, align 4
  call void @emit(ptr noundef %52, i32 noundef 12)
  br label %62

53:                                               ; preds = %47
  %54 = load ptr, ptr %2, align 4
  %55 = call zeroext i1 @accept(ptr noundef %54, i32 noundef 33)
  br i1 %55, label %56, label %59

56:                                               ; preds = %53
  %57 = load ptr, ptr %2, align 4
  call void @primary(ptr noundef %57)
  %58 = load ptr, ptr %2, align 4
  call void @emit(ptr noundef %58, i32 noundef 11)
  br label %61

59:                                               ; preds = %53
  %60 = load ptr, ptr %2, align 4
  call void @fail(ptr noundef %60, ptr noundef @.str.8)
  br label %61

61:                                               ; preds = %59, %56
  br label %62

62:                                               ; preds = %61, %50
  br label %63

63:                                               ; preds = %62, %44
  br label %64

64:                                               ; preds = %63, %30
  br label %65

65:                                               ; preds = %64, %16
  %66 = load ptr, ptr %2, align 4
  %67 = getelementptr inbounds %struct.compiler, ptr %66, i32 0, i32 2
  %68 = load i32, ptr %67, align 4
  %69 = add nsw i32 %68, -1
  store i32 %69, ptr %67, align 4
  ret void
}

; Function Attrs: noinline nounwind optnone uwtable
define internal void @emit_number(ptr noundef %0, i32 noundef %1) #0 {
  %3 = alloca ptr, align 4
  %4 = alloca i32, align 4
  %5 = alloca i32, align 4
  store ptr %0, ptr %3, align 4
  store i32 %1, ptr %4, align 4
  %6 = load ptr, ptr %3, align 4
  call void @emit(ptr noundef %6, i32 noundef 1)
  store i32 0, ptr %5, align 4
  br label %7

7:                                                ; preds = %17, %2
  %8 = load i32, ptr %5, align 4
  %9 = icmp slt i32 %8, 4
  br i1 %9, label %10, label %20

10:                                               ; preds = %7
  %11 = load ptr, ptr %3, align 4
  %12 = load i32, ptr %4, align 4
  %13 = load i32, ptr %5, align 4
  %14 = mul nsw i32 8, %13
  %15 = lshr i32 %12, %14
  %16 = and i32 %15, 255
  call void @emit(ptr noundef %11, i32 noundef %16)
  br label %17

17:                                               ; preds = %10
  %18 = load i32, ptr %5, align 4
  %19 = add nsw i32 %18, 1
  store i32 %19, ptr %5, align 4
  br label %7, !llvm.loop !61

20:                                               ; preds = %7
  ret void
}

; Function Attrs: noinline nounwind optnone uwtable
define internal i32 @emit_jump(ptr noundef %0, i32 noundef %1) #0 {
  %3 = alloca ptr, align 4
  %4 = alloca i32, align 4
  store ptr %0, ptr %3, align 4
  store i32 %1, ptr %4, align 4
  %5 = load ptr, ptr %3, align 4
  %6 = load i32, ptr %4, align 4
  call void @emit(ptr noundef %5, i32 noundef %6)
  %7 = load ptr, ptr %3, align 4
  call void @emit(ptr noundef %7, i32 noundef 0)
  %8 = load ptr, ptr %3, align 4
  call void @emit(ptr noundef %8, i32 noundef 0)
  %9 = load ptr, ptr %3, align 4
  %10 = getelementptr inbounds %struct.compiler, ptr %9, i32 0, i32 1
  %11 = load ptr, ptr %10, align 4
  %12 = getelementptr inbounds %struct.program, ptr %11, i32 0, i32 1
  %13 = load i32, ptr %12, align 4
  ret i32 %13
}

; Function Attrs: noinline nounwind optnone uwtable
define internal void @block(ptr noundef %0) #0 {
  %2 = alloca ptr, align 4
  store ptr %0, ptr %2, align 4
  %3 = load ptr, ptr %2, align 4
  call void @expect(ptr noundef %3, i32 noundef 123, ptr noundef @.str.4)
  br label %4

4:                                                ; preds = %16, %1
  %5 = load ptr, ptr %2, align 4
  %6 = getelementptr inbounds %struct.compiler, ptr %5, i32 0, i32 0
  %7 = getelementptr inbounds %struct.lexer, ptr %6, i32 0, i32 2
  %8 = load i32, ptr %7, align 4
  %9 = icmp ne i32 %8, 0
  br i1 %9, label %10, label %14

10:                                               ; preds = %4
  %11 = load ptr, ptr %2, align 4
  %12 = call zeroext i1 @is_sign(ptr noundef %11, i32 noundef 125)
  %13 = xor i1 %12, true
  br label %14

14:                                               ; preds = %10, %4
  %15 = phi i1 [ false, %4 ], [ %13, %10 ]
  br i1 %15, label %16, label %18

16:                                               ; preds = %14
  %17 = load ptr, ptr %2, align 4
  call void @statement(ptr noundef %17)
  br label %4, !llvm.loop !62

18:                                               ; preds = %14
  %19 = load ptr, ptr %2, align 4
  call void @expect(ptr noundef %19, i32 noundef 125, ptr noundef @.str.5)
  ret void
}

; Function Attrs: noinline nounwind optnone uwtable
define internal void @aim(ptr noundef %0, i32 noundef %1, i32 noundef %2) #0 {
  %4 = alloca ptr, align 4
  %5 = alloca i32, align 4
  %6 = alloca i32, align 4
  store ptr %0, ptr %4, align 4
  store i32 %1, ptr %5, align 4
  store i32 %2, ptr %6, align 4
  %7 = load ptr, ptr %4, align 4
  %8 = getelementptr inbounds %struct.compiler, ptr %7, i32 0, i32 1
  %9 = load ptr, ptr %8, align 4
  %10 = getelementptr inbounds %struct.program, ptr %9, i32 0, i32 4
  %11 = load ptr, ptr %10, align 4
  %12 = icmp ne ptr %11, null
  br i1 %12, label %13, label %14

13:                                               ; preds = %3
  br label %35

14:                                               ; preds = %3
  %15 = load i32, ptr %6, align 4
  %16 = and i32 %15, 255
  %17 = trunc i32 %16 to i8
  %18 = load ptr, ptr %4, align 4
  %19 = getelementptr inbounds %struct.compiler, ptr %18, i32 0, i32 1
  %20 = load ptr, ptr %19, align 4
  %21 = getelementptr inbounds %struct.program, ptr %20, i32 0, i32 0
  %22 = load i32, ptr %5, align 4
  %23 = sub i32 %22, 2
  %24 = getelementptr inbounds [2000 x i8], ptr %21, i32 0, i32 %23
  store i8 %17, ptr %24, align 1
  %25 = load i32, ptr %6, align 4
  %26 = lshr i32 %25, 8
  %27 = trunc i32 %26 to i8
  %28 = load ptr, ptr %4, align 4
  %29 = getelementptr inbounds %struct.compiler, ptr %28, i32 0, i32 1
  %30 = load ptr, ptr %29, align 4
  %31 = getelementptr inbounds %struct.program, ptr %30, i32 0, i32 0
  %32 = load i32, ptr %5, align 4
  %33 = sub i32 %32, 1
  %34 = getelementptr inbounds [2000 x i8], ptr %31, i32 0, i32 %33
  store i8 %27, ptr %34, align 1
  br label %35

35:                                               ; preds = %14, %13
  ret void
}

; Function Attrs: noinline nounwind optnone uwtable
define internal void @skip(ptr noundef %0) #0 {
  %2 = alloca ptr, align 4
  store ptr %0, ptr %2, align 4
  br label %3

3:                                                ; preds = %55, %1
  br label %4

4:                                                ; preds = %12, %3
  %5 = load ptr, ptr %2, align 4
  %6 = getelementptr inbounds %struct.lexer, ptr %5, i32 0, i32 0
  %7 = load ptr, ptr %6, align 4
  %8 = load i8, ptr %7, align 1
  %9 = zext i8 %8 to i32
  %10 = call i32 @isspace(i32 noundef %9) #15
  %11 = icmp ne i32 %10, 0
  br i1 %11, label %12, label %25

12:                                               ; preds = %4
  %13 = load ptr, ptr %2, align 4
  %14 = getelementptr inbounds %struct.lexer, ptr %13, i32 0, i32 0
  %15 = load ptr, ptr %14, align 4
  %16 = getelementptr inbounds i8, ptr %15, i32 1
  store ptr %16, ptr %14, align 4
  %17 = load i8, ptr %15, align 1
  %18 = sext i8 %17 to i32
  %19 = icmp eq i32 %18, 10
  %20 = zext i1 %19 to i32
  %21 = load ptr, ptr %2, align 4
  %22 = getelementptr inbounds %struct.lexer, ptr %21, i32 0, i32 1
  %23 = load i32, ptr %22, align 4
  %24 = add nsw i32 %23, %20
  store i32 %24, ptr %22, align 4
  br label %4, !llvm.loop !63

25:                                               ; preds = %4
  %26 = load ptr, ptr %2, align 4
  %27 = getelementptr inbounds %struct.lexer, ptr %26, i32 0, i32 0
  %28 = load ptr, ptr %27, align 4
  %29 = load i8, ptr %28, align 1
  %30 = sext i8 %29 to i32
  %31 = icmp ne i32 %30, 35
  br i1 %31, label %32, label %33

32:                                               ; preds = %25
  ret void

33:                                               ; preds = %25
  br label %34

34:                                               ; preds = %50, %33
  %35 = load ptr, ptr %2, align 4
  %36 = getelementptr inbounds %struct.lexer, ptr %35, i32 0, i32 0
  %37 = load ptr, ptr %36, align 4
  %38 = load i8, ptr %37, align 1
  %39 = sext i8 %38 to i32
  %40 = icmp ne i32 %39, 0
  br i1 %40, label %41, label %48

41:                                               ; preds = %34
  %42 = load ptr, ptr %2, align 4
  %43 = getelementptr inbounds %struct.lexer, ptr %42, i32 0, i32 0
  %44 = load ptr, ptr %43, align 4
  %45 = load i8, ptr %44, align 1
  %46 = sext i8 %45 to i32
  %47 = icmp ne i32 %46, 10
  br label %48

48:                                               ; preds = %41, %34
  %49 = phi i1 [ false, %34 ], [ %47, %41 ]
  br i1 %49, label %50, label %55

50:                                               ; preds = %48
  %51 = load ptr, ptr %2, align 4
  %52 = getelementptr inbounds %struct.lexer, ptr %51, i32 0, i32 0
  %53 = load ptr, ptr %52, align 4
  %54 = getelementptr inbounds i8, ptr %53, i32 1
  store ptr %54, ptr %52, align 4
  br label %34, !llvm.loop !64

55:                                               ; preds = %48
  br label %3
}

; Function Attrs: mustprogress nofree norecurse nosync nounwind optsize willreturn memory(none) uwtable
define internal range(i32 0, 2) i32 @isdigit(i32 noundef %0) #9 {
  %2 = add i32 %0, -48
  %3 = icmp ult i32 %2, 10
  %4 = zext i1 %3 to i32
  ret i32 %4
}

; Function Attrs: nofree norecurse nosync nounwind optsize memory(readwrite, inaccessiblemem: none) uwtable
define internal i32 @strtoul(ptr noalias noundef %0, ptr noalias noundef %1, i32 noundef %2) #10 {
  %4 = alloca %struct.number, align 8
  call void @llvm.lifetime.start.p0(i64 16, ptr nonnull %4) #12
  %5 = call fastcc ptr @scan(ptr noundef nonnull %4, ptr noundef %0, ptr noundef %1, i32 noundef %2, i64 noundef 4294967295, i64 noundef 4294967295) #13
  %6 = getelementptr inbounds i8, ptr %4, i32 8
  %7 = load i32, ptr %6, align 8, !tbaa !65
  %8 = icmp eq i32 %7, 0
  %9 = getelementptr inbounds i8, ptr %4, i32 12
  %10 = load i32, ptr %9, align 4
  %11 = icmp ne i32 %10, 0
  %12 = select i1 %8, i1 true, i1 %11
  %13 = load i64, ptr %4, align 8
  %14 = sub i64 0, %13
  %15 = select i1 %12, i64 %13, i64 %14
  %16 = trunc i64 %15 to i32
  call void @llvm.lifetime.end.p0(i64 16, ptr nonnull %4) #12
  ret i32 %16
}

; Function Attrs: mustprogress nofree norecurse nosync nounwind optsize willreturn memory(none) uwtable
define internal range(i32 0, 2) i32 @isalpha(i32 noundef %0) #9 {
  %2 = and i32 %0, -33
  %3 = add i32 %2, -65
  %4 = icmp ult i32 %3, 26
  %5 = zext i1 %4 to i32
  ret i32 %5
}

; Function Attrs: mustprogress nofree norecurse nosync nounwind optsize willreturn memory(none) uwtable
define internal range(i32 0, 2) i32 @isalnum(i32 noundef %0) #9 {
  %2 = and i32 %0, -33
  %3 = add i32 %2, -65
  %4 = icmp ult i32 %3, 26
  %5 = add i32 %0, -48
  %6 = icmp ult i32 %5, 10
  %7 = or i1 %6, %4
  %8 = zext i1 %7 to i32
  ret i32 %8
}

; Function Attrs: nofree norecurse nosync nounwind optsize memory(read, inaccessiblemem: none) uwtable
define internal ptr @strchr(ptr noundef readonly %0, i32 noundef %1) #2 {
  %3 = load i8, ptr %0, align 1, !tbaa !9
  %4 = icmp eq i8 %3, 0
  %5 = shl i32 %1, 24
  %6 = ashr exact i32 %5, 24
  br i1 %4, label %20, label %7

7:                                                ; preds = %12, %2
  %8 = phi i8 [ %14, %12 ], [ %3, %2 ]
  %9 = phi ptr [ %13, %12 ], [ %0, %2 ]
  %10 = sext i8 %8 to i32
  %11 = icmp eq i32 %6, %10
  br i1 %11, label %16, label %12

12:                                               ; preds = %7
  %13 = getelementptr inbounds i8, ptr %9, i32 1
  %14 = load i8, ptr %13, align 1, !tbaa !9
  %15 = icmp eq i8 %14, 0
  br i1 %15, label %16, label %7, !llvm.loop !68

16:                                               ; preds = %12, %7
  %17 = phi i8 [ 0, %12 ], [ %8, %7 ]
  %18 = phi ptr [ %13, %12 ], [ %9, %7 ]
  %19 = sext i8 %17 to i32
  br label %20

20:                                               ; preds = %16, %2
  %21 = phi i32 [ %19, %16 ], [ 0, %2 ]
  %22 = phi ptr [ %18, %16 ], [ %0, %2 ]
  %23 = icmp eq i32 %6, %21
  %24 = select i1 %23, ptr %22, ptr null
  ret ptr %24
}

; Function Attrs: nofree norecurse nosync nounwind optsize memory(readwrite, inaccessiblemem: none) uwtable
define internal fastcc noundef ptr @scan(ptr noundef returned writeonly %0, ptr noundef %1, ptr noundef writeonly %2, i32 noundef %3, i64 noundef %4, i64 noundef %5) unnamed_addr #10 {
  store i64 0, ptr %0, align 4, !tbaa !69
  %7 = getelementptr inbounds i8, ptr %0, i32 8
  store i32 0, ptr %7, align 4, !tbaa !65
  %8 = getelementptr inbounds i8, ptr %0, i32 12
  store i32 0, ptr %8, align 4, !tbaa !70
  %9 = icmp eq i32 %3, 1
  %10 = icmp ugt i32 %3, 36
  %11 = or i1 %10, %9
  br i1 %11, label %12, label %13

12:                                               ; preds = %6
  store i32 22, ptr @errno, align 4, !tbaa !71
  br label %132

13:                                               ; preds = %6
  %14 = icmp eq ptr %2, null
  br i1 %14, label %16, label %15

15:                                               ; preds = %13
  store ptr %1, ptr %2, align 4, !tbaa !72
  br label %16

16:                                               ; preds = %15, %13
  br label %17

17:                                               ; preds = %17, %16
  %18 = phi ptr [ %25, %17 ], [ %1, %16 ]
  %19 = load i8, ptr %18, align 1, !tbaa !9
  %20 = zext i8 %19 to i32
  %21 = icmp ne i8 %19, 32
  %22 = add nsw i32 %20, -14
  %23 = icmp ult i32 %22, -5
  %24 = and i1 %21, %23
  %25 = getelementptr inbounds i8, ptr %18, i32 1
  br i1 %24, label %26, label %17, !llvm.loop !73

26:                                               ; preds = %17
  switch i8 %19, label %31 [
    i8 45, label %27
    i8 43, label %27
  ]

27:                                               ; preds = %26, %26
  %28 = icmp eq i8 %19, 45
  %29 = zext i1 %28 to i32
  store i32 %29, ptr %7, align 4, !tbaa !65
  %30 = select i1 %28, i64 %5, i64 %4
  br label %31

31:                                               ; preds = %27, %26
  %32 = phi i64 [ %30, %27 ], [ %4, %26 ]
  %33 = phi ptr [ %25, %27 ], [ %18, %26 ]
  %34 = icmp ne i32 %3, 0
  switch i32 %3, label %66 [
    i32 16, label %35
    i32 0, label %35
  ]

35:                                               ; preds = %31, %31
  %36 = load i8, ptr %33, align 1, !tbaa !9
  %37 = icmp eq i8 %36, 48
  br i1 %37, label %38, label %63

38:                                               ; preds = %35
  %39 = getelementptr inbounds i8, ptr %33, i32 1
  %40 = load i8, ptr %39, align 1, !tbaa !9
  switch i8 %40, label %63 [
    i8 120, label %41
    i8 88, label %41
  ]

41:                                               ; preds = %38, %38
  %42 = getelementptr inbounds i8, ptr %33, i32 2
  %43 = load i8, ptr %42, align 1, !tbaa !9
  %44 = zext i8 %43 to i32
  %45 = add nsw i32 %44, -58
  %46 = icmp ult i32 %45, -10
  br i1 %46, label %47, label %66

47:                                               ; preds = %41
  %48 = and i32 %44, 223
  %49 = add nsw i32 %48, -91
  %50 = icmp ult i32 %49, -26
  br i1 %50, label %51, label %52

51:                                               ; preds = %47
  br i1 %34, label %66, label %64

52:                                               ; preds = %47
  %53 = add nsw i32 %44, -91
  %54 = icmp ult i32 %53, -26
  %55 = add nuw nsw i32 %44, 32
  %56 = select i1 %54, i32 %44, i32 %55
  %57 = freeze i32 %56
  %58 = add i32 %57, -87
  %59 = icmp ult i32 %58, 16
  %60 = or i1 %34, %59
  %61 = select i1 %59, ptr %42, ptr %33
  %62 = select i1 %59, i32 16, i32 %3
  br i1 %60, label %66, label %64

63:                                               ; preds = %38, %35
  br i1 %34, label %66, label %64

64:                                               ; preds = %63, %52, %51
  %65 = select i1 %37, i32 8, i32 10
  br label %66

66:                                               ; preds = %64, %63, %52, %51, %41, %31
  %67 = phi ptr [ %33, %64 ], [ %33, %63 ], [ %33, %31 ], [ %42, %41 ], [ %33, %51 ], [ %61, %52 ]
  %68 = phi i32 [ %65, %64 ], [ %3, %63 ], [ %3, %31 ], [ 16, %41 ], [ %3, %51 ], [ %62, %52 ]
  %69 = load i8, ptr %67, align 1, !tbaa !9
  %70 = zext i8 %69 to i32
  %71 = add nsw i32 %70, -48
  %72 = icmp ugt i32 %71, 9
  br i1 %72, label %73, label %83

73:                                               ; preds = %66
  %74 = and i32 %70, 223
  %75 = add nsw i32 %74, -91
  %76 = icmp ult i32 %75, -26
  br i1 %76, label %83, label %77

77:                                               ; preds = %73
  %78 = add nsw i32 %70, -91
  %79 = icmp ult i32 %78, -26
  %80 = add nuw nsw i32 %70, 32
  %81 = select i1 %79, i32 %70, i32 %80
  %82 = add nsw i32 %81, -87
  br label %83

83:                                               ; preds = %77, %73, %66
  %84 = phi i32 [ %82, %77 ], [ 255, %73 ], [ %71, %66 ]
  %85 = icmp ult i32 %84, %68
  br i1 %85, label %86, label %132

86:                                               ; preds = %83
  %87 = zext nneg i32 %68 to i64
  br label %88

88:                                               ; preds = %123, %86
  %89 = phi i64 [ %124, %123 ], [ 0, %86 ]
  %90 = phi i32 [ %125, %123 ], [ 0, %86 ]
  %91 = phi i8 [ %127, %123 ], [ %69, %86 ]
  %92 = phi ptr [ %126, %123 ], [ %67, %86 ]
  %93 = zext i8 %91 to i32
  %94 = add nsw i32 %93, -48
  %95 = icmp ugt i32 %94, 9
  br i1 %95, label %96, label %106

96:                                               ; preds = %88
  %97 = and i32 %93, 223
  %98 = add nsw i32 %97, -91
  %99 = icmp ult i32 %98, -26
  br i1 %99, label %106, label %100

100:                                              ; preds = %96
  %101 = add nsw i32 %93, -91
  %102 = icmp ult i32 %101, -26
  %103 = add nuw nsw i32 %93, 32
  %104 = select i1 %102, i32 %93, i32 %103
  %105 = add nsw i32 %104, -87
  br label %106

106:                                              ; preds = %100, %96, %88
  %107 = phi i32 [ %105, %100 ], [ 255, %96 ], [ %94, %88 ]
  %108 = icmp ult i32 %107, %68
  br i1 %108, label %110, label %109

109:                                              ; preds = %106
  br i1 %14, label %129, label %128

110:                                              ; preds = %106
  %111 = icmp eq i32 %90, 0
  br i1 %111, label %112, label %119

112:                                              ; preds = %110
  %113 = zext nneg i32 %107 to i64
  %114 = sub i64 %32, %113
  %115 = udiv i64 %114, %87
  %116 = icmp ugt i64 %89, %115
  %117 = icmp ult i64 %32, %113
  %118 = or i1 %116, %117
  br i1 %118, label %119, label %120

119:                                              ; preds = %112, %110
  store i32 1, ptr %8, align 4, !tbaa !70
  br label %123

120:                                              ; preds = %112
  %121 = mul i64 %89, %87
  %122 = add i64 %121, %113
  store i64 %122, ptr %0, align 4, !tbaa !69
  br label %123

123:                                              ; preds = %120, %119
  %124 = phi i64 [ %89, %119 ], [ %122, %120 ]
  %125 = phi i32 [ 1, %119 ], [ 0, %120 ]
  %126 = getelementptr inbounds i8, ptr %92, i32 1
  %127 = load i8, ptr %126, align 1, !tbaa !9
  br label %88, !llvm.loop !74

128:                                              ; preds = %109
  store ptr %92, ptr %2, align 4, !tbaa !72
  br label %129

129:                                              ; preds = %128, %109
  %130 = icmp eq i32 %90, 0
  br i1 %130, label %132, label %131

131:                                              ; preds = %129
  store i32 34, ptr @errno, align 4, !tbaa !71
  store i64 %32, ptr %0, align 4, !tbaa !69
  br label %132

132:                                              ; preds = %131, %129, %83, %12
  ret ptr %0
}

; Function Attrs: mustprogress nofree norecurse nosync nounwind optsize willreturn memory(none) uwtable
define internal range(i32 0, 2) i32 @isspace(i32 noundef %0) #9 {
  %2 = icmp eq i32 %0, 32
  %3 = add i32 %0, -9
  %4 = icmp ult i32 %3, 5
  %5 = or i1 %2, %4
  %6 = zext i1 %5 to i32
  ret i32 %6
}

; Function Attrs: nounwind optsize uwtable
define internal i32 @fgetc(ptr nocapture noundef %0) local_unnamed_addr #1 {
  %2 = load i8, ptr %0, align 4, !tbaa !24
  %3 = icmp eq i8 %2, 0
  br i1 %3, label %4, label %20

4:                                                ; preds = %1
  %5 = getelementptr inbounds i8, ptr %0, i32 2
  %6 = load i8, ptr %5, align 2, !tbaa !75
  %7 = icmp eq i8 %6, 0
  br i1 %7, label %12, label %8

8:                                                ; preds = %4
  store i8 0, ptr %5, align 2, !tbaa !75
  %9 = getelementptr inbounds i8, ptr %0, i32 3
  %10 = load i8, ptr %9, align 1, !tbaa !76
  %11 = zext i8 %10 to i32
  br label %20

12:                                               ; preds = %4
  %13 = getelementptr inbounds i8, ptr %0, i32 1
  %14 = load i8, ptr %13, align 1, !tbaa !77
  %15 = icmp eq i8 %14, 0
  br i1 %15, label %16, label %20

16:                                               ; preds = %12
  %17 = tail call i32 @getchar() #14
  %18 = icmp eq i32 %17, -1
  br i1 %18, label %19, label %20

19:                                               ; preds = %16
  store i8 1, ptr %13, align 1, !tbaa !77
  br label %20

20:                                               ; preds = %19, %16, %12, %8, %1
  %21 = phi i32 [ %11, %8 ], [ -1, %1 ], [ -1, %12 ], [ -1, %19 ], [ %17, %16 ]
  ret i32 %21
}

; Function Attrs: optsize
declare dso_local i32 @getchar() local_unnamed_addr #11

attributes #0 = { noinline nounwind optnone uwtable "frame-pointer"="all" "min-legal-vector-width"="0" "no-trapping-math"="true" "stack-protector-buffer-size"="8" "target-cpu"="i686" "target-features"="+cmov,+cx8,+x87" "tune-cpu"="generic" }
attributes #1 = { nounwind optsize uwtable "min-legal-vector-width"="0" "no-builtins" "no-jump-tables"="true" "no-trapping-math"="true" "stack-protector-buffer-size"="8" "target-cpu"="i686" "target-features"="+cmov,+cx8,+x87" "tune-cpu"="generic" }
attributes #2 = { nofree norecurse nosync nounwind optsize memory(read, inaccessiblemem: none) uwtable "min-legal-vector-width"="0" "no-builtins" "no-jump-tables"="true" "no-trapping-math"="true" "stack-protector-buffer-size"="8" "target-cpu"="i686" "target-features"="+cmov,+cx8,+x87" "tune-cpu"="generic" }
attributes #3 = { nofree norecurse nosync nounwind optsize uwtable "min-legal-vector-width"="0" "no-builtins" "no-jump-tables"="true" "no-trapping-math"="true" "stack-protector-buffer-size"="8" "target-cpu"="i686" "target-features"="+cmov,+cx8,+x87" "tune-cpu"="generic" }
attributes #4 = { "frame-pointer"="all" "no-trapping-math"="true" "stack-protector-buffer-size"="8" "target-cpu"="i686" "target-features"="+cmov,+cx8,+x87" "tune-cpu"="generic" }
attributes #5 = { nocallback nofree nosync nounwind willreturn memory(argmem: readwrite) }
attributes #6 = { nocallback nofree nosync nounwind speculatable willreturn memory(none) }
attributes #7 = { nocallback nofree nounwind willreturn memory(argmem: write) }
attributes #8 = { nocallback nofree nounwind willreturn memory(argmem: readwrite) }
attributes #9 = { mustprogress nofree norecurse nosync nounwind optsize willreturn memory(none) uwtable "min-legal-vector-width"="0" "no-builtins" "no-jump-tables"="true" "no-trapping-math"="true" "stack-protector-buffer-size"="8" "target-cpu"="i686" "target-features"="+cmov,+cx8,+x87" "tune-cpu"="generic" }
attributes #10 = { nofree norecurse nosync nounwind optsize memory(readwrite, inaccessiblemem: none) uwtable "min-legal-vector-width"="0" "no-builtins" "no-jump-tables"="true" "no-trapping-math"="true" "stack-protector-buffer-size"="8" "target-cpu"="i686" "target-features"="+cmov,+cx8,+x87" "tune-cpu"="generic" }
attributes #11 = { optsize "no-builtins" "no-trapping-math"="true" "stack-protector-buffer-size"="8" "target-cpu"="i686" "target-features"="+cmov,+cx8,+x87" "tune-cpu"="generic" }
attributes #12 = { nounwind }
attributes #13 = { nobuiltin optsize "no-builtins" }
attributes #14 = { nobuiltin nounwind optsize "no-builtins" }
attributes #15 = { nounwind willreturn memory(read) }

!llvm.ident = !{!0, !0, !0, !0, !0, !0}
!llvm.module.flags = !{!1, !2, !3, !4, !5, !6}

!0 = !{!"Debian clang version 19.1.7 (3~deb12u1)"}
!1 = !{i32 1, !"NumRegisterParameters", i32 0}
!2 = !{i32 7, !"Dwarf Version", i32 5}
!3 = !{i32 2, !"Debug Info Version", i32 3}
!4 = !{i32 1, !"wchar_size", i32 4}
!5 = !{i32 7, !"uwtable", i32 2}
!6 = !{i32 7, !"frame-pointer", i32 2}
!7 = distinct !{!7, !8}
!8 = !{!"llvm.loop.mustprogress"}
!9 = !{!10, !10, i64 0}
!10 = !{!"omnipotent char", !11, i64 0}
!11 = !{!"Simple C/C++ TBAA"}
!12 = distinct !{!12, !8}
!13 = distinct !{!13, !8}
!14 = distinct !{!14, !8}
!15 = distinct !{!15, !8}
!16 = !{!17}
!17 = distinct !{!17, !18, !"stpcpy: %from"}
!18 = distinct !{!18, !"stpcpy"}
!19 = !{!20}
!20 = distinct !{!20, !18, !"stpcpy: %to"}
!21 = distinct !{!21, !8}
!22 = distinct !{!22, !8}
!23 = distinct !{!23, !8}
!24 = !{!25, !10, i64 0}
!25 = !{!"__stream", !10, i64 0, !10, i64 1, !10, i64 2, !10, i64 3, !26, i64 4, !27, i64 8}
!26 = !{!"any pointer", !10, i64 0}
!27 = !{!"int", !10, i64 0}
!28 = !{!29}
!29 = distinct !{!29, !30, !"fwrite: %stream"}
!30 = distinct !{!30, !"fwrite"}
!31 = !{!32}
!32 = distinct !{!32, !30, !"fwrite: %from"}
!33 = distinct !{!33, !8}
!34 = !{!25, !27, i64 8}
!35 = !{!25, !26, i64 4}
!36 = distinct !{!36, !8}
!37 = !{!38}
!38 = distinct !{!38, !39, !"fwrite: %stream"}
!39 = distinct !{!39, !"fwrite"}
!40 = !{!41}
!41 = distinct !{!41, !39, !"fwrite: %from"}
!42 = !{!43}
!43 = distinct !{!43, !44, !"fwrite: %stream"}
!44 = distinct !{!44, !"fwrite"}
!45 = !{!46}
!46 = distinct !{!46, !44, !"fwrite: %from"}
!47 = distinct !{!47, !8}
!48 = distinct !{!48, !8}
!49 = distinct !{!49, !8}
!50 = distinct !{!50, !8}
!51 = !{!52}
!52 = distinct !{!52, !53, !"fwrite: %stream"}
!53 = distinct !{!53, !"fwrite"}
!54 = !{!55}
!55 = distinct !{!55, !53, !"fwrite: %from"}
!56 = distinct !{!56, !8}
!57 = distinct !{!57, !8}
!58 = distinct !{!58, !8}
!59 = distinct !{!59, !8}
!60 = distinct !{!60, !8}
!61 = distinct !{!61, !8}
!62 = distinct !{!62, !8}
!63 = distinct !{!63, !8}
!64 = distinct !{!64, !8}
!65 = !{!66, !27, i64 8}
!66 = !{!"number", !67, i64 0, !27, i64 8, !27, i64 12}
!67 = !{!"long long", !10, i64 0}
!68 = distinct !{!68, !8}
!69 = !{!66, !67, i64 0}
!70 = !{!66, !27, i64 12}
!71 = !{!27, !27, i64 0}
!72 = !{!26, !26, i64 0}
!73 = distinct !{!73, !8}
!74 = distinct !{!74, !8}
!75 = !{!25, !10, i64 2}
!76 = !{!25, !10, i64 3}
!77 = !{!25, !10, i64 1}
