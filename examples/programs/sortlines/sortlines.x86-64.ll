source_filename = "sortlines.c"
target datalayout = "e-m:e-p270:32:32-p271:32:32-p272:64:64-i64:64-i128:128-f80:128-n8:16:32:64-S128"
target triple = "x86_64-unknown-linux-gnu"

%struct.__stream = type { i8, i8, i8, i8, ptr, i64 }
%struct.number = type { i64, i32, i32 }

@options.0 = internal unnamed_addr global i1 false, align 4
@options.1 = internal unnamed_addr global i1 false, align 4
@options.2 = internal unnamed_addr global i1 false, align 2
@options.3 = internal unnamed_addr global i1 false, align 4
@options.4 = internal unnamed_addr global i32 0, align 4
@.str = private unnamed_addr constant [18 x i8] c"%zu of %zu lines\0A\00", align 1
@.str.1 = private unnamed_addr constant [15 x i8] c"out of memory\0A\00", align 1
@.str.13 = private unnamed_addr constant [1 x i8] zeroinitializer, align 1
@.str.5 = private unnamed_addr constant [3 x i8] c"0X\00", align 1
@.str.6 = private unnamed_addr constant [3 x i8] c"0x\00", align 1
@.str.8 = private unnamed_addr constant [17 x i8] c"0123456789ABCDEF\00", align 1
@.str.9 = private unnamed_addr constant [17 x i8] c"0123456789abcdef\00", align 1
@__streams = internal global [3 x %struct.__stream] [%struct.__stream zeroinitializer, %struct.__stream { i8 1, i8 0, i8 0, i8 0, ptr null, i64 0 }, %struct.__stream { i8 2, i8 0, i8 0, i8 0, ptr null, i64 0 }], align 16
@errno = internal local_unnamed_addr global i32 0, align 4

; Function Attrs: nounwind uwtable
define dso_local i32 @main() local_unnamed_addr #0 {
  %1 = tail call fastcc ptr @read_line()
  %2 = icmp eq ptr %1, null
  br i1 %2, label %88, label %3

3:                                                ; preds = %19, %0
  %4 = phi ptr [ %21, %19 ], [ %1, %0 ]
  %5 = load i8, ptr %4, align 1, !tbaa !5
  switch i8 %5, label %19 [
    i8 0, label %22
    i8 110, label %6
    i8 114, label %7
    i8 117, label %8
    i8 102, label %9
    i8 107, label %10
  ]

6:                                                ; preds = %3
  store i1 true, ptr @options.0, align 4
  br label %19

7:                                                ; preds = %3
  store i1 true, ptr @options.1, align 4
  br label %19

8:                                                ; preds = %3
  store i1 true, ptr @options.2, align 2
  br label %19

9:                                                ; preds = %3
  store i1 true, ptr @options.3, align 4
  br label %19

10:                                               ; preds = %3
  %11 = getelementptr inbounds i8, ptr %4, i64 1
  %12 = load i8, ptr %11, align 1, !tbaa !5
  %13 = zext i8 %12 to i32
  %14 = add nsw i32 %13, -48
  %15 = icmp ult i32 %14, 10
  br i1 %15, label %16, label %19

16:                                               ; preds = %10
  %17 = sext i8 %12 to i32
  %18 = add nsw i32 %17, -48
  store i32 %18, ptr @options.4, align 4, !tbaa !8
  br label %19

19:                                               ; preds = %16, %10, %9, %8, %7, %6, %3
  %20 = phi ptr [ %11, %16 ], [ %4, %10 ], [ %4, %9 ], [ %4, %8 ], [ %4, %7 ], [ %4, %6 ], [ %4, %3 ]
  %21 = getelementptr inbounds i8, ptr %20, i64 1
  br label %3, !llvm.loop !12

22:                                               ; preds = %3
  tail call void @__sized_free(ptr noundef %1)
  %23 = tail call fastcc ptr @read_line()
  %24 = icmp eq ptr %23, null
  br i1 %24, label %47, label %25

25:                                               ; preds = %40, %22
  %26 = phi ptr [ %45, %40 ], [ %23, %22 ]
  %27 = phi i64 [ %42, %40 ], [ 0, %22 ]
  %28 = phi i64 [ %43, %40 ], [ 0, %22 ]
  %29 = phi ptr [ %41, %40 ], [ null, %22 ]
  %30 = icmp eq i64 %28, %27
  br i1 %30, label %31, label %40

31:                                               ; preds = %25
  %32 = icmp eq i64 %27, 0
  %33 = shl i64 %27, 1
  %34 = select i1 %32, i64 4, i64 %33
  %35 = shl i64 %34, 3
  %36 = tail call ptr @realloc(ptr noundef %29, i64 noundef %35) #14
  %37 = icmp eq ptr %36, null
  br i1 %37, label %38, label %40

38:                                               ; preds = %31
  %39 = tail call i64 @fwrite(ptr nonnull @.str.1, i64 14, i64 1, ptr nonnull getelementptr inbounds (i8, ptr @__streams, i64 48))
  tail call void @exit(i32 noundef 1) #15
  unreachable

40:                                               ; preds = %31, %25
  %41 = phi ptr [ %29, %25 ], [ %36, %31 ]
  %42 = phi i64 [ %27, %25 ], [ %34, %31 ]
  %43 = add i64 %28, 1
  %44 = getelementptr inbounds ptr, ptr %41, i64 %28
  store ptr %26, ptr %44, align 8, !tbaa !15
  %45 = tail call fastcc ptr @read_line()
  %46 = icmp eq ptr %45, null
  br i1 %46, label %47, label %25, !llvm.loop !17

47:                                               ; preds = %40, %22
  %48 = phi ptr [ null, %22 ], [ %41, %40 ]
  %49 = phi i64 [ 0, %22 ], [ %43, %40 ]
  %50 = icmp eq i64 %49, 0
  br i1 %50, label %52, label %51

51:                                               ; preds = %47
  tail call void @qsort(ptr noundef %48, i64 noundef %49, i64 noundef 8, ptr noundef nonnull @compare) #16
  br label %54

52:                                               ; preds = %72, %47
  %53 = phi i64 [ 0, %47 ], [ %73, %72 ]
  br i1 %50, label %76, label %82

54:                                               ; preds = %72, %51
  %55 = phi i64 [ %74, %72 ], [ 0, %51 ]
  %56 = phi i64 [ %73, %72 ], [ 0, %51 ]
  %57 = load i1, ptr @options.2, align 2
  %58 = icmp ne i64 %55, 0
  %59 = and i1 %58, %57
  br i1 %59, label %60, label %67

60:                                               ; preds = %54
  %61 = getelementptr ptr, ptr %48, i64 %55
  %62 = getelementptr i8, ptr %61, i64 -8
  %63 = load ptr, ptr %62, align 8, !tbaa !15
  %64 = load ptr, ptr %61, align 8, !tbaa !15
  %65 = tail call fastcc i32 @order(ptr noundef %63, ptr noundef %64)
  %66 = icmp eq i32 %65, 0
  br i1 %66, label %72, label %67

67:                                               ; preds = %60, %54
  %68 = getelementptr inbounds ptr, ptr %48, i64 %55
  %69 = load ptr, ptr %68, align 8, !tbaa !15
  %70 = tail call i32 @puts(ptr noundef nonnull dereferenceable(1) %69)
  %71 = add i64 %56, 1
  br label %72

72:                                               ; preds = %67, %60
  %73 = phi i64 [ %56, %60 ], [ %71, %67 ]
  %74 = add nuw i64 %55, 1
  %75 = icmp eq i64 %74, %49
  br i1 %75, label %52, label %54, !llvm.loop !18

76:                                               ; preds = %82, %52
  tail call void @__sized_free(ptr noundef %48)
  %77 = tail call i32 @__print_unsigned(ptr nonnull getelementptr inbounds (i8, ptr @__streams, i64 24), i64 %53, i32 10, i32 0, i32 0, i32 -1) #16
  %78 = tail call i32 @__print_text(ptr nonnull getelementptr inbounds (i8, ptr @__streams, i64 24), ptr nonnull getelementptr inbounds (i8, ptr @.str, i64 3), i64 4) #16
  %79 = tail call i32 @__print_unsigned(ptr nonnull getelementptr inbounds (i8, ptr @__streams, i64 24), i64 %49, i32 10, i32 0, i32 0, i32 -1) #16
  %80 = tail call i32 @__print_text(ptr nonnull getelementptr inbounds (i8, ptr @__streams, i64 24), ptr nonnull getelementptr inbounds (i8, ptr @.str, i64 10), i64 7) #16
  %81 = trunc i64 %53 to i32
  br label %88

82:                                               ; preds = %82, %52
  %83 = phi i64 [ %86, %82 ], [ 0, %52 ]
  %84 = getelementptr inbounds ptr, ptr %48, i64 %83
  %85 = load ptr, ptr %84, align 8, !tbaa !15
  tail call void @__sized_free(ptr noundef %85)
  %86 = add nuw i64 %83, 1
  %87 = icmp eq i64 %86, %49
  br i1 %87, label %76, label %82, !llvm.loop !19

88:                                               ; preds = %76, %0
  %89 = phi i32 [ %81, %76 ], [ 0, %0 ]
  ret i32 %89
}

; Function Attrs: nounwind uwtable
define internal fastcc noalias ptr @read_line() unnamed_addr #0 {
  %1 = tail call dereferenceable_or_null(16) ptr @__sized_malloc(i64 noundef 16) #17
  %2 = icmp eq ptr %1, null
  br i1 %2, label %3, label %5

3:                                                ; preds = %0
  %4 = tail call i64 @fwrite(ptr nonnull @.str.1, i64 14, i64 1, ptr nonnull getelementptr inbounds (i8, ptr @__streams, i64 48))
  tail call void @exit(i32 noundef 1) #15
  unreachable

5:                                                ; preds = %19, %0
  %6 = phi i64 [ %11, %19 ], [ 0, %0 ]
  %7 = phi i64 [ %20, %19 ], [ 16, %0 ]
  %8 = phi ptr [ %21, %19 ], [ %1, %0 ]
  %9 = tail call i32 @getc(ptr noundef nonnull @__streams)
  switch i32 %9, label %10 [
    i32 -1, label %24
    i32 10, label %24
  ]

10:                                               ; preds = %5
  %11 = add i64 %6, 1
  %12 = icmp eq i64 %11, %7
  br i1 %12, label %13, label %19

13:                                               ; preds = %10
  %14 = shl i64 %7, 1
  %15 = tail call ptr @realloc(ptr noundef %8, i64 noundef %14) #14
  %16 = icmp eq ptr %15, null
  br i1 %16, label %17, label %19

17:                                               ; preds = %13
  %18 = tail call i64 @fwrite(ptr nonnull @.str.1, i64 14, i64 1, ptr nonnull getelementptr inbounds (i8, ptr @__streams, i64 48))
  tail call void @exit(i32 noundef 1) #15
  unreachable

19:                                               ; preds = %13, %10
  %20 = phi i64 [ %7, %10 ], [ %14, %13 ]
  %21 = phi ptr [ %8, %10 ], [ %15, %13 ]
  %22 = trunc i32 %9 to i8
  %23 = getelementptr inbounds i8, ptr %21, i64 %6
  store i8 %22, ptr %23, align 1, !tbaa !5
  br label %5, !llvm.loop !20

24:                                               ; preds = %5, %5
  %25 = icmp eq i32 %9, -1
  %26 = icmp eq i64 %6, 0
  %27 = and i1 %26, %25
  br i1 %27, label %28, label %29

28:                                               ; preds = %24
  tail call void @__sized_free(ptr noundef %8)
  br label %31

29:                                               ; preds = %24
  %30 = getelementptr inbounds i8, ptr %8, i64 %6
  store i8 0, ptr %30, align 1, !tbaa !5
  br label %31

31:                                               ; preds = %29, %28
  %32 = phi ptr [ null, %28 ], [ %8, %29 ]
  ret ptr %32
}

; Function Attrs: noinline nounwind optsize uwtable
define internal void @__sized_free(ptr noundef %0) local_unnamed_addr #1 {
  %2 = icmp eq ptr %0, null
  br i1 %2, label %5, label %3

3:                                                ; preds = %1
  %4 = getelementptr inbounds i8, ptr %0, i64 -16
  tail call void @free(ptr noundef nonnull %4) #18
  br label %5

5:                                                ; preds = %3, %1
  ret void
}

; Function Attrs: nounwind optsize uwtable
define internal ptr @realloc(ptr noundef %0, i64 noundef %1) local_unnamed_addr #2 {
  %3 = icmp eq ptr %0, null
  br i1 %3, label %4, label %6

4:                                                ; preds = %2
  %5 = tail call ptr @__sized_malloc(i64 noundef %1) #19
  br label %28

6:                                                ; preds = %2
  %7 = icmp eq i64 %1, 0
  br i1 %7, label %8, label %9

8:                                                ; preds = %6
  tail call void @__sized_free(ptr noundef nonnull %0) #19
  br label %28

9:                                                ; preds = %6
  %10 = tail call ptr @__sized_malloc(i64 noundef %1) #19
  %11 = icmp eq ptr %10, null
  br i1 %11, label %28, label %12

12:                                               ; preds = %9
  %13 = getelementptr inbounds i8, ptr %0, i64 -16
  %14 = load i64, ptr %13, align 8, !tbaa !21
  %15 = icmp eq i64 %14, 0
  br i1 %15, label %27, label %16

16:                                               ; preds = %12
  %17 = tail call i64 @llvm.umin.i64(i64 %14, i64 %1)
  br label %18

18:                                               ; preds = %18, %16
  %19 = phi ptr [ %23, %18 ], [ %0, %16 ]
  %20 = phi ptr [ %25, %18 ], [ %10, %16 ]
  %21 = phi i64 [ %22, %18 ], [ %17, %16 ]
  %22 = add i64 %21, -1
  %23 = getelementptr inbounds i8, ptr %19, i64 1
  %24 = load i8, ptr %19, align 1, !tbaa !5, !alias.scope !23, !noalias !26
  %25 = getelementptr inbounds i8, ptr %20, i64 1
  store i8 %24, ptr %20, align 1, !tbaa !5, !alias.scope !26, !noalias !23
  %26 = icmp eq i64 %22, 0
  br i1 %26, label %27, label %18, !llvm.loop !28

27:                                               ; preds = %18, %12
  tail call void @__sized_free(ptr noundef nonnull %0) #19
  br label %28

28:                                               ; preds = %27, %9, %8, %4
  %29 = phi ptr [ null, %8 ], [ %5, %4 ], [ %10, %27 ], [ null, %9 ]
  ret ptr %29
}

; Function Attrs: nounwind optsize uwtable
define internal noundef i64 @fwrite(ptr noalias nocapture noundef readonly %0, i64 noundef %1, i64 noundef %2, ptr noalias nocapture noundef %3) local_unnamed_addr #2 {
  %5 = load i8, ptr %3, align 8, !tbaa !29
  %6 = icmp eq i8 %5, 0
  br i1 %6, label %21, label %7

7:                                                ; preds = %4
  %8 = mul i64 %2, %1
  %9 = icmp eq i64 %8, 0
  br i1 %9, label %10, label %13

10:                                               ; preds = %13, %7
  %11 = icmp eq i64 %1, 0
  %12 = select i1 %11, i64 0, i64 %2
  br label %21

13:                                               ; preds = %13, %7
  %14 = phi i64 [ %19, %13 ], [ 0, %7 ]
  %15 = getelementptr inbounds i8, ptr %0, i64 %14
  %16 = load i8, ptr %15, align 1, !tbaa !5
  %17 = zext i8 %16 to i32
  %18 = tail call i32 @fputc(i32 noundef %17, ptr noundef nonnull %3) #19
  %19 = add nuw i64 %14, 1
  %20 = icmp eq i64 %19, %8
  br i1 %20, label %10, label %13, !llvm.loop !31

21:                                               ; preds = %10, %4
  %22 = phi i64 [ %12, %10 ], [ 0, %4 ]
  ret i64 %22
}

; Function Attrs: noreturn
declare dso_local void @exit(i32 noundef) local_unnamed_addr #3

; Function Attrs: nofree nounwind uwtable
define internal i32 @compare(ptr nocapture noundef readonly %0, ptr nocapture noundef readonly %1) #4 {
  %3 = load ptr, ptr %0, align 8, !tbaa !15
  %4 = load ptr, ptr %1, align 8, !tbaa !15
  %5 = tail call fastcc i32 @order(ptr noundef %3, ptr noundef %4)
  %6 = load i1, ptr @options.1, align 4
  %7 = sub nsw i32 0, %5
  %8 = select i1 %6, i32 %7, i32 %5
  ret i32 %8
}

; Function Attrs: nounwind optsize uwtable
define internal void @qsort(ptr noundef %0, i64 noundef %1, i64 noundef %2, ptr noundef %3) local_unnamed_addr #2 {
  %5 = icmp ult i64 %1, 2
  %6 = icmp eq i64 %2, 0
  %7 = or i1 %5, %6
  br i1 %7, label %35, label %8

8:                                                ; preds = %4
  %9 = lshr i64 %1, 1
  %10 = mul i64 %9, %2
  %11 = tail call ptr @__sized_malloc(i64 noundef %10) #18
  %12 = icmp eq ptr %11, null
  br i1 %12, label %13, label %34

13:                                               ; preds = %13, %8
  %14 = phi i64 [ %15, %13 ], [ %9, %8 ]
  %15 = add nsw i64 %14, -1
  tail call fastcc void @sink(ptr noundef %0, i64 noundef %15, i64 noundef %1, i64 noundef %2, ptr noundef readonly %3) #19
  %16 = icmp eq i64 %15, 0
  br i1 %16, label %17, label %13, !llvm.loop !32

17:                                               ; preds = %32, %13
  %18 = phi i64 [ %19, %32 ], [ %1, %13 ]
  %19 = add i64 %18, -1
  %20 = mul i64 %19, %2
  %21 = getelementptr inbounds i8, ptr %0, i64 %20
  br label %22

22:                                               ; preds = %22, %17
  %23 = phi ptr [ %29, %22 ], [ %0, %17 ]
  %24 = phi i64 [ %26, %22 ], [ %2, %17 ]
  %25 = phi ptr [ %30, %22 ], [ %21, %17 ]
  %26 = add i64 %24, -1
  %27 = load i8, ptr %23, align 1, !tbaa !5
  %28 = load i8, ptr %25, align 1, !tbaa !5
  %29 = getelementptr inbounds i8, ptr %23, i64 1
  store i8 %28, ptr %23, align 1, !tbaa !5
  %30 = getelementptr inbounds i8, ptr %25, i64 1
  store i8 %27, ptr %25, align 1, !tbaa !5
  %31 = icmp eq i64 %26, 0
  br i1 %31, label %32, label %22, !llvm.loop !33

32:                                               ; preds = %22
  tail call fastcc void @sink(ptr noundef %0, i64 noundef 0, i64 noundef %19, i64 noundef %2, ptr noundef readonly %3) #19
  %33 = icmp ugt i64 %19, 1
  br i1 %33, label %17, label %35, !llvm.loop !34

34:                                               ; preds = %8
  tail call fastcc void @merge_sort(ptr noundef %0, i64 noundef %1, i64 noundef %2, ptr noundef %3, ptr noundef nonnull %11) #19
  tail call void @__sized_free(ptr noundef nonnull %11) #18
  br label %35

35:                                               ; preds = %34, %32, %4
  ret void
}

; Function Attrs: nofree nounwind uwtable
define internal fastcc i32 @order(ptr nocapture noundef readonly %0, ptr nocapture noundef readonly %1) unnamed_addr #4 {
  %3 = load i32, ptr @options.4, align 4, !tbaa !8
  %4 = icmp sgt i32 %3, 1
  br i1 %4, label %5, label %8

5:                                                ; preds = %30, %2
  %6 = phi i32 [ %32, %30 ], [ 1, %2 ]
  %7 = phi ptr [ %31, %30 ], [ %0, %2 ]
  br label %11

8:                                                ; preds = %30, %2
  %9 = phi ptr [ %0, %2 ], [ %31, %30 ]
  %10 = icmp eq i32 %3, 0
  br i1 %10, label %41, label %34

11:                                               ; preds = %11, %5
  %12 = phi ptr [ %17, %11 ], [ %7, %5 ]
  %13 = load i8, ptr %12, align 1, !tbaa !5
  %14 = zext i8 %13 to i32
  %15 = tail call i32 @isspace(i32 noundef %14) #20
  %16 = icmp eq i32 %15, 0
  %17 = getelementptr inbounds i8, ptr %12, i64 1
  br i1 %16, label %18, label %11, !llvm.loop !35

18:                                               ; preds = %11
  %19 = icmp eq i8 %13, 0
  br i1 %19, label %30, label %20

20:                                               ; preds = %26, %18
  %21 = phi i8 [ %28, %26 ], [ %13, %18 ]
  %22 = phi ptr [ %27, %26 ], [ %12, %18 ]
  %23 = zext i8 %21 to i32
  %24 = tail call i32 @isspace(i32 noundef %23) #20
  %25 = icmp eq i32 %24, 0
  br i1 %25, label %26, label %30

26:                                               ; preds = %20
  %27 = getelementptr inbounds i8, ptr %22, i64 1
  %28 = load i8, ptr %27, align 1, !tbaa !5
  %29 = icmp eq i8 %28, 0
  br i1 %29, label %30, label %20, !llvm.loop !36

30:                                               ; preds = %26, %20, %18
  %31 = phi ptr [ %12, %18 ], [ %27, %26 ], [ %22, %20 ]
  %32 = add nuw nsw i32 %6, 1
  %33 = icmp eq i32 %32, %3
  br i1 %33, label %8, label %5, !llvm.loop !37

34:                                               ; preds = %34, %8
  %35 = phi ptr [ %40, %34 ], [ %9, %8 ]
  %36 = load i8, ptr %35, align 1, !tbaa !5
  %37 = zext i8 %36 to i32
  %38 = tail call i32 @isspace(i32 noundef %37) #20
  %39 = icmp eq i32 %38, 0
  %40 = getelementptr inbounds i8, ptr %35, i64 1
  br i1 %39, label %41, label %34, !llvm.loop !38

41:                                               ; preds = %34, %8
  %42 = phi ptr [ %9, %8 ], [ %35, %34 ]
  br i1 %4, label %43, label %46

43:                                               ; preds = %67, %41
  %44 = phi i32 [ %69, %67 ], [ 1, %41 ]
  %45 = phi ptr [ %68, %67 ], [ %1, %41 ]
  br label %48

46:                                               ; preds = %67, %41
  %47 = phi ptr [ %1, %41 ], [ %68, %67 ]
  br i1 %10, label %78, label %71

48:                                               ; preds = %48, %43
  %49 = phi ptr [ %54, %48 ], [ %45, %43 ]
  %50 = load i8, ptr %49, align 1, !tbaa !5
  %51 = zext i8 %50 to i32
  %52 = tail call i32 @isspace(i32 noundef %51) #20
  %53 = icmp eq i32 %52, 0
  %54 = getelementptr inbounds i8, ptr %49, i64 1
  br i1 %53, label %55, label %48, !llvm.loop !39

55:                                               ; preds = %48
  %56 = icmp eq i8 %50, 0
  br i1 %56, label %67, label %57

57:                                               ; preds = %63, %55
  %58 = phi i8 [ %65, %63 ], [ %50, %55 ]
  %59 = phi ptr [ %64, %63 ], [ %49, %55 ]
  %60 = zext i8 %58 to i32
  %61 = tail call i32 @isspace(i32 noundef %60) #20
  %62 = icmp eq i32 %61, 0
  br i1 %62, label %63, label %67

63:                                               ; preds = %57
  %64 = getelementptr inbounds i8, ptr %59, i64 1
  %65 = load i8, ptr %64, align 1, !tbaa !5
  %66 = icmp eq i8 %65, 0
  br i1 %66, label %67, label %57, !llvm.loop !40

67:                                               ; preds = %63, %57, %55
  %68 = phi ptr [ %49, %55 ], [ %64, %63 ], [ %59, %57 ]
  %69 = add nuw nsw i32 %44, 1
  %70 = icmp eq i32 %69, %3
  br i1 %70, label %46, label %43, !llvm.loop !41

71:                                               ; preds = %71, %46
  %72 = phi ptr [ %77, %71 ], [ %47, %46 ]
  %73 = load i8, ptr %72, align 1, !tbaa !5
  %74 = zext i8 %73 to i32
  %75 = tail call i32 @isspace(i32 noundef %74) #20
  %76 = icmp eq i32 %75, 0
  %77 = getelementptr inbounds i8, ptr %72, i64 1
  br i1 %76, label %78, label %71, !llvm.loop !42

78:                                               ; preds = %71, %46
  %79 = phi ptr [ %47, %46 ], [ %72, %71 ]
  %80 = load i1, ptr @options.0, align 4
  br i1 %80, label %81, label %87

81:                                               ; preds = %78
  %82 = tail call i64 @strtol(ptr nocapture noundef %42, ptr noundef null, i32 noundef 10)
  %83 = tail call i64 @strtol(ptr nocapture noundef %79, ptr noundef null, i32 noundef 10)
  %84 = icmp eq i64 %82, %83
  %85 = icmp slt i64 %82, %83
  %86 = select i1 %85, i32 -1, i32 1
  br i1 %84, label %87, label %93

87:                                               ; preds = %81, %78
  %88 = load i1, ptr @options.3, align 4
  br i1 %88, label %89, label %91

89:                                               ; preds = %87
  %90 = tail call i32 @strcasecmp(ptr noundef %42, ptr noundef %79)
  br label %93

91:                                               ; preds = %87
  %92 = tail call i32 @strcmp(ptr noundef nonnull dereferenceable(1) %42, ptr noundef nonnull dereferenceable(1) %79) #16
  br label %93

93:                                               ; preds = %91, %89, %81
  %94 = phi i32 [ %86, %81 ], [ %90, %89 ], [ %92, %91 ]
  ret i32 %94
}

; Function Attrs: nofree nounwind
declare dso_local noundef i32 @puts(ptr nocapture noundef readonly) local_unnamed_addr #5

; Function Attrs: nounwind optsize uwtable
define internal i32 @__print_unsigned(ptr nocapture noundef %0, i64 noundef %1, i32 noundef %2, i32 noundef %3, i32 noundef %4, i32 noundef %5) local_unnamed_addr #2 {
  %7 = alloca [24 x i8], align 16
  call void @llvm.lifetime.start.p0(i64 24, ptr nonnull %7) #16
  %8 = and i32 %3, 32
  %9 = icmp eq i32 %8, 0
  %10 = select i1 %9, ptr @.str.9, ptr @.str.8
  %11 = icmp ult i64 %1, 4294967296
  br i1 %11, label %14, label %12

12:                                               ; preds = %6
  %13 = zext i32 %2 to i64
  br label %29

14:                                               ; preds = %6
  %15 = icmp eq i64 %1, 0
  br i1 %15, label %39, label %16

16:                                               ; preds = %14
  %17 = trunc nuw i64 %1 to i32
  br label %18

18:                                               ; preds = %18, %16
  %19 = phi i32 [ %27, %18 ], [ %17, %16 ]
  %20 = phi i64 [ %25, %18 ], [ 24, %16 ]
  %21 = urem i32 %19, %2
  %22 = zext i32 %21 to i64
  %23 = getelementptr inbounds i8, ptr %10, i64 %22
  %24 = load i8, ptr %23, align 1, !tbaa !5
  %25 = add nsw i64 %20, -1
  %26 = getelementptr inbounds i8, ptr %7, i64 %25
  store i8 %24, ptr %26, align 1, !tbaa !5
  %27 = udiv i32 %19, %2
  %28 = icmp ult i32 %19, %2
  br i1 %28, label %39, label %18, !llvm.loop !43

29:                                               ; preds = %29, %12
  %30 = phi i64 [ 24, %12 ], [ %35, %29 ]
  %31 = phi i64 [ %1, %12 ], [ %37, %29 ]
  %32 = urem i64 %31, %13
  %33 = getelementptr inbounds i8, ptr %10, i64 %32
  %34 = load i8, ptr %33, align 1, !tbaa !5
  %35 = add nsw i64 %30, -1
  %36 = getelementptr inbounds i8, ptr %7, i64 %35
  store i8 %34, ptr %36, align 1, !tbaa !5
  %37 = udiv i64 %31, %13
  %38 = icmp ult i64 %31, %13
  br i1 %38, label %39, label %29, !llvm.loop !44

39:                                               ; preds = %29, %18, %14
  %40 = phi i64 [ 24, %14 ], [ %25, %18 ], [ %35, %29 ]
  %41 = icmp eq i64 %1, 0
  %42 = icmp ne i32 %5, 0
  %43 = and i1 %41, %42
  br i1 %43, label %44, label %47

44:                                               ; preds = %39
  %45 = add nsw i64 %40, -1
  %46 = getelementptr inbounds i8, ptr %7, i64 %45
  store i8 48, ptr %46, align 1, !tbaa !5
  br label %47

47:                                               ; preds = %44, %39
  %48 = phi i64 [ %45, %44 ], [ %40, %39 ]
  %49 = getelementptr inbounds i8, ptr %7, i64 %48
  %50 = and i32 %3, 8
  %51 = icmp ne i32 %50, 0
  %52 = icmp eq i32 %2, 8
  %53 = and i1 %52, %51
  br i1 %53, label %54, label %65

54:                                               ; preds = %47
  %55 = sub nsw i64 24, %48
  %56 = sext i32 %5 to i64
  %57 = icmp slt i64 %55, %56
  br i1 %57, label %65, label %58

58:                                               ; preds = %54
  %59 = icmp eq i64 %48, 24
  br i1 %59, label %63, label %60

60:                                               ; preds = %58
  %61 = load i8, ptr %49, align 1, !tbaa !5
  %62 = icmp eq i8 %61, 48
  br i1 %62, label %65, label %63

63:                                               ; preds = %60, %58
  %64 = getelementptr inbounds i8, ptr %49, i64 -1
  store i8 48, ptr %64, align 1, !tbaa !5
  br label %65

65:                                               ; preds = %63, %60, %54, %47
  %66 = phi ptr [ %64, %63 ], [ %49, %60 ], [ %49, %54 ], [ %49, %47 ]
  %67 = getelementptr inbounds i8, ptr %7, i64 24
  %68 = icmp eq i32 %2, 16
  %69 = icmp ne i64 %1, 0
  %70 = and i1 %69, %68
  %71 = and i1 %70, %51
  %72 = select i1 %9, ptr @.str.6, ptr @.str.5
  %73 = select i1 %71, ptr %72, ptr @.str.13
  %74 = ptrtoint ptr %67 to i64
  %75 = ptrtoint ptr %66 to i64
  %76 = sub i64 %74, %75
  %77 = trunc i64 %76 to i32
  %78 = call fastcc i32 @number(ptr noundef %0, ptr noundef nonnull %73, ptr noundef nonnull %66, i32 noundef %77, i32 noundef %3, i32 noundef %4, i32 noundef %5) #19
  call void @llvm.lifetime.end.p0(i64 24, ptr nonnull %7) #16
  ret i32 %78
}

; Function Attrs: nounwind optsize uwtable
define internal noundef i32 @__print_text(ptr nocapture noundef %0, ptr nocapture noundef readonly %1, i64 noundef %2) local_unnamed_addr #2 {
  %4 = load i8, ptr %0, align 8, !tbaa !29, !alias.scope !45, !noalias !48
  %5 = icmp eq i8 %4, 0
  %6 = icmp eq i64 %2, 0
  %7 = or i1 %6, %5
  br i1 %7, label %16, label %8

8:                                                ; preds = %8, %3
  %9 = phi i64 [ %14, %8 ], [ 0, %3 ]
  %10 = getelementptr inbounds i8, ptr %1, i64 %9
  %11 = load i8, ptr %10, align 1, !tbaa !5, !alias.scope !48, !noalias !45
  %12 = zext i8 %11 to i32
  %13 = tail call i32 @fputc(i32 noundef %12, ptr noundef nonnull %0) #19, !noalias !48
  %14 = add nuw i64 %9, 1
  %15 = icmp eq i64 %14, %2
  br i1 %15, label %16, label %8, !llvm.loop !31

16:                                               ; preds = %8, %3
  %17 = trunc i64 %2 to i32
  ret i32 %17
}

; Function Attrs: nounwind optsize uwtable
define internal range(i32 -1, 256) i32 @fputc(i32 noundef %0, ptr nocapture noundef %1) local_unnamed_addr #2 {
  %3 = load i8, ptr %1, align 8, !tbaa !29
  switch i8 %3, label %17 [
    i8 1, label %4
    i8 3, label %6
    i8 0, label %19
  ]

4:                                                ; preds = %2
  %5 = tail call i32 @putchar(i32 noundef %0) #18
  br label %17

6:                                                ; preds = %2
  %7 = getelementptr inbounds i8, ptr %1, i64 16
  %8 = load i64, ptr %7, align 8, !tbaa !50
  %9 = icmp eq i64 %8, 0
  br i1 %9, label %17, label %10

10:                                               ; preds = %6
  %11 = trunc i32 %0 to i8
  %12 = getelementptr inbounds i8, ptr %1, i64 8
  %13 = load ptr, ptr %12, align 8, !tbaa !51
  %14 = getelementptr inbounds i8, ptr %13, i64 1
  store ptr %14, ptr %12, align 8, !tbaa !51
  store i8 %11, ptr %13, align 1, !tbaa !5
  %15 = load i64, ptr %7, align 8, !tbaa !50
  %16 = add i64 %15, -1
  store i64 %16, ptr %7, align 8, !tbaa !50
  br label %17

17:                                               ; preds = %10, %6, %4, %2
  %18 = and i32 %0, 255
  br label %19

19:                                               ; preds = %17, %2
  %20 = phi i32 [ %18, %17 ], [ -1, %2 ]
  ret i32 %20
}

; Function Attrs: optsize
declare dso_local i32 @putchar(i32 noundef) local_unnamed_addr #6

; Function Attrs: nocallback nofree nosync nounwind willreturn memory(argmem: readwrite)
declare void @llvm.lifetime.start.p0(i64 immarg, ptr nocapture) #7

; Function Attrs: nounwind optsize uwtable
define internal fastcc i32 @number(ptr nocapture noundef %0, ptr noundef %1, ptr nocapture noundef readonly %2, i32 noundef %3, i32 noundef %4, i32 noundef %5, i32 noundef %6) unnamed_addr #2 {
  br label %8

8:                                                ; preds = %8, %7
  %9 = phi ptr [ %1, %7 ], [ %12, %8 ]
  %10 = load i8, ptr %9, align 1, !tbaa !5
  %11 = icmp eq i8 %10, 0
  %12 = getelementptr inbounds i8, ptr %9, i64 1
  br i1 %11, label %13, label %8, !llvm.loop !52

13:                                               ; preds = %8
  %14 = ptrtoint ptr %9 to i64
  %15 = ptrtoint ptr %1 to i64
  %16 = sub i64 %14, %15
  %17 = trunc i64 %16 to i32
  %18 = sub nsw i32 %6, %3
  %19 = lshr i32 %5, 31
  %20 = icmp ne i32 %19, 0
  %21 = sub i32 0, %5
  %22 = select i1 %20, i32 %21, i32 %5
  %23 = tail call i32 @llvm.smax.i32(i32 %18, i32 0)
  %24 = icmp slt i32 %6, 0
  %25 = and i32 %4, 16
  %26 = icmp ne i32 %25, 0
  %27 = and i1 %26, %24
  %28 = and i32 %4, 1
  %29 = or i32 %19, %28
  %30 = icmp eq i32 %29, 0
  %31 = and i1 %27, %30
  %32 = add i32 %17, %3
  %33 = icmp sgt i32 %22, %32
  %34 = select i1 %31, i1 %33, i1 false
  %35 = sub i32 %22, %32
  %36 = select i1 %34, i32 %35, i32 %23
  %37 = add i32 %32, %36
  %38 = sub i32 %22, %37
  br i1 %30, label %39, label %48

39:                                               ; preds = %13
  %40 = icmp sgt i32 %38, 0
  br i1 %40, label %41, label %46

41:                                               ; preds = %41, %39
  %42 = phi i32 [ %44, %41 ], [ 0, %39 ]
  %43 = tail call i32 @fputc(i32 noundef 32, ptr noundef %0) #19
  %44 = add nuw nsw i32 %42, 1
  %45 = icmp eq i32 %44, %38
  br i1 %45, label %46, label %41, !llvm.loop !53

46:                                               ; preds = %41, %39
  %47 = tail call noundef i32 @llvm.smax.i32(i32 %38, i32 0)
  br label %48

48:                                               ; preds = %46, %13
  %49 = phi i32 [ 0, %13 ], [ %47, %46 ]
  %50 = shl i64 %16, 32
  %51 = ashr exact i64 %50, 32
  %52 = load i8, ptr %0, align 8, !tbaa !29, !alias.scope !54, !noalias !57
  %53 = icmp eq i8 %52, 0
  %54 = icmp eq i64 %50, 0
  %55 = or i1 %54, %53
  br i1 %55, label %64, label %56

56:                                               ; preds = %56, %48
  %57 = phi i64 [ %62, %56 ], [ 0, %48 ]
  %58 = getelementptr inbounds i8, ptr %1, i64 %57
  %59 = load i8, ptr %58, align 1, !tbaa !5, !alias.scope !57, !noalias !54
  %60 = zext i8 %59 to i32
  %61 = tail call i32 @fputc(i32 noundef %60, ptr noundef nonnull %0) #19, !noalias !57
  %62 = add nuw i64 %57, 1
  %63 = icmp eq i64 %62, %51
  br i1 %63, label %64, label %56, !llvm.loop !31

64:                                               ; preds = %56, %48
  %65 = icmp sgt i32 %36, 0
  br i1 %65, label %66, label %71

66:                                               ; preds = %66, %64
  %67 = phi i32 [ %69, %66 ], [ 0, %64 ]
  %68 = tail call i32 @fputc(i32 noundef 48, ptr noundef nonnull %0) #19
  %69 = add nuw nsw i32 %67, 1
  %70 = icmp eq i32 %69, %36
  br i1 %70, label %71, label %66, !llvm.loop !53

71:                                               ; preds = %66, %64
  %72 = tail call noundef i32 @llvm.smax.i32(i32 %36, i32 0)
  %73 = sext i32 %3 to i64
  %74 = load i8, ptr %0, align 8, !tbaa !29, !alias.scope !59, !noalias !62
  %75 = icmp eq i8 %74, 0
  %76 = icmp eq i32 %3, 0
  %77 = or i1 %76, %75
  br i1 %77, label %86, label %78

78:                                               ; preds = %78, %71
  %79 = phi i64 [ %84, %78 ], [ 0, %71 ]
  %80 = getelementptr inbounds i8, ptr %2, i64 %79
  %81 = load i8, ptr %80, align 1, !tbaa !5, !alias.scope !62, !noalias !59
  %82 = zext i8 %81 to i32
  %83 = tail call i32 @fputc(i32 noundef %82, ptr noundef nonnull %0) #19, !noalias !62
  %84 = add nuw i64 %79, 1
  %85 = icmp eq i64 %84, %73
  br i1 %85, label %86, label %78, !llvm.loop !31

86:                                               ; preds = %78, %71
  %87 = add i32 %32, %72
  %88 = add i32 %87, %49
  br i1 %30, label %99, label %89

89:                                               ; preds = %86
  %90 = icmp sgt i32 %38, 0
  br i1 %90, label %91, label %96

91:                                               ; preds = %91, %89
  %92 = phi i32 [ %94, %91 ], [ 0, %89 ]
  %93 = tail call i32 @fputc(i32 noundef 32, ptr noundef nonnull %0) #19
  %94 = add nuw nsw i32 %92, 1
  %95 = icmp eq i32 %94, %38
  br i1 %95, label %96, label %91, !llvm.loop !53

96:                                               ; preds = %91, %89
  %97 = tail call noundef i32 @llvm.smax.i32(i32 %38, i32 0)
  %98 = add nsw i32 %88, %97
  br label %99

99:                                               ; preds = %96, %86
  %100 = phi i32 [ %98, %96 ], [ %88, %86 ]
  ret i32 %100
}

; Function Attrs: nocallback nofree nosync nounwind willreturn memory(argmem: readwrite)
declare void @llvm.lifetime.end.p0(i64 immarg, ptr nocapture) #7

; Function Attrs: nocallback nofree nosync nounwind speculatable willreturn memory(none)
declare i32 @llvm.smax.i32(i32, i32) #8

; Function Attrs: mustprogress nofree norecurse nosync nounwind optsize willreturn memory(none) uwtable
define internal range(i32 0, 2) i32 @isspace(i32 noundef %0) local_unnamed_addr #9 {
  %2 = icmp eq i32 %0, 32
  %3 = add i32 %0, -9
  %4 = icmp ult i32 %3, 5
  %5 = or i1 %2, %4
  %6 = zext i1 %5 to i32
  ret i32 %6
}

; Function Attrs: nofree norecurse nosync nounwind optsize memory(readwrite, inaccessiblemem: none) uwtable
define internal i64 @strtol(ptr noalias noundef %0, ptr noalias noundef %1, i32 noundef %2) local_unnamed_addr #10 {
  %4 = alloca %struct.number, align 8
  call void @llvm.lifetime.start.p0(i64 16, ptr nonnull %4) #16
  %5 = call fastcc ptr @scan(ptr noundef nonnull %4, ptr noundef %0, ptr noundef %1, i32 noundef %2, i64 noundef 9223372036854775807, i64 noundef -9223372036854775808) #19
  %6 = getelementptr inbounds i8, ptr %4, i64 8
  %7 = load i32, ptr %6, align 8, !tbaa !64
  %8 = icmp eq i32 %7, 0
  %9 = load i64, ptr %4, align 8
  %10 = sub i64 0, %9
  %11 = select i1 %8, i64 %9, i64 %10
  call void @llvm.lifetime.end.p0(i64 16, ptr nonnull %4) #16
  ret i64 %11
}

; Function Attrs: nofree norecurse nosync nounwind optsize memory(read, inaccessiblemem: none) uwtable
define internal i32 @strcasecmp(ptr nocapture noundef readonly %0, ptr nocapture noundef readonly %1) local_unnamed_addr #11 {
  %3 = tail call i32 @strncasecmp(ptr noundef %0, ptr noundef %1, i64 noundef -1) #19
  ret i32 %3
}

; Function Attrs: nofree norecurse nosync nounwind optsize memory(read, inaccessiblemem: none) uwtable
define internal range(i32 -1, 2) i32 @strcmp(ptr nocapture noundef readonly %0, ptr nocapture noundef readonly %1) local_unnamed_addr #11 {
  %3 = load i8, ptr %0, align 1, !tbaa !5
  %4 = icmp eq i8 %3, 0
  br i1 %4, label %16, label %5

5:                                                ; preds = %11, %2
  %6 = phi i8 [ %14, %11 ], [ %3, %2 ]
  %7 = phi ptr [ %13, %11 ], [ %1, %2 ]
  %8 = phi ptr [ %12, %11 ], [ %0, %2 ]
  %9 = load i8, ptr %7, align 1, !tbaa !5
  %10 = icmp eq i8 %6, %9
  br i1 %10, label %11, label %16

11:                                               ; preds = %5
  %12 = getelementptr inbounds i8, ptr %8, i64 1
  %13 = getelementptr inbounds i8, ptr %7, i64 1
  %14 = load i8, ptr %12, align 1, !tbaa !5
  %15 = icmp eq i8 %14, 0
  br i1 %15, label %16, label %5, !llvm.loop !67

16:                                               ; preds = %11, %5, %2
  %17 = phi ptr [ %1, %2 ], [ %13, %11 ], [ %7, %5 ]
  %18 = phi i8 [ 0, %2 ], [ 0, %11 ], [ %6, %5 ]
  %19 = load i8, ptr %17, align 1, !tbaa !5
  %20 = icmp ult i8 %18, %19
  %21 = icmp ugt i8 %18, %19
  %22 = zext i1 %21 to i32
  %23 = select i1 %20, i32 -1, i32 %22
  ret i32 %23
}

; Function Attrs: nofree norecurse nosync nounwind optsize memory(read, inaccessiblemem: none) uwtable
define internal i32 @strncasecmp(ptr nocapture noundef readonly %0, ptr nocapture noundef readonly %1, i64 noundef %2) local_unnamed_addr #11 {
  %4 = icmp eq i64 %2, 0
  br i1 %4, label %45, label %5

5:                                                ; preds = %28, %3
  %6 = phi ptr [ %30, %28 ], [ %1, %3 ]
  %7 = phi ptr [ %29, %28 ], [ %0, %3 ]
  %8 = phi i64 [ %31, %28 ], [ %2, %3 ]
  %9 = load i8, ptr %7, align 1, !tbaa !5
  %10 = icmp eq i8 %9, 0
  %11 = load i8, ptr %6, align 1, !tbaa !5
  br i1 %10, label %12, label %16

12:                                               ; preds = %5
  %13 = zext i8 %11 to i32
  %14 = add nsw i32 %13, -91
  %15 = add nuw nsw i32 %13, 32
  br label %33

16:                                               ; preds = %5
  %17 = zext i8 %9 to i32
  %18 = add nsw i32 %17, -91
  %19 = icmp ult i32 %18, -26
  %20 = add nuw nsw i32 %17, 32
  %21 = select i1 %19, i32 %17, i32 %20
  %22 = zext i8 %11 to i32
  %23 = add nsw i32 %22, -91
  %24 = icmp ult i32 %23, -26
  %25 = add nuw nsw i32 %22, 32
  %26 = select i1 %24, i32 %22, i32 %25
  %27 = icmp eq i32 %21, %26
  br i1 %27, label %28, label %33

28:                                               ; preds = %16
  %29 = getelementptr inbounds i8, ptr %7, i64 1
  %30 = getelementptr inbounds i8, ptr %6, i64 1
  %31 = add i64 %8, -1
  %32 = icmp eq i64 %31, 0
  br i1 %32, label %45, label %5, !llvm.loop !68

33:                                               ; preds = %16, %12
  %34 = phi i32 [ %15, %12 ], [ %25, %16 ]
  %35 = phi i32 [ %14, %12 ], [ %23, %16 ]
  %36 = phi i32 [ %13, %12 ], [ %22, %16 ]
  %37 = phi i32 [ 0, %12 ], [ %17, %16 ]
  %38 = add nsw i32 %37, -91
  %39 = icmp ult i32 %38, -26
  %40 = add nuw nsw i32 %37, 32
  %41 = select i1 %39, i32 %37, i32 %40
  %42 = icmp ult i32 %35, -26
  %43 = select i1 %42, i32 %36, i32 %34
  %44 = sub nsw i32 %41, %43
  br label %45

45:                                               ; preds = %33, %28, %3
  %46 = phi i32 [ %44, %33 ], [ 0, %3 ], [ 0, %28 ]
  ret i32 %46
}

; Function Attrs: nofree norecurse nosync nounwind optsize memory(readwrite, inaccessiblemem: none) uwtable
define internal fastcc noundef ptr @scan(ptr noundef returned writeonly %0, ptr noundef %1, ptr noundef writeonly %2, i32 noundef %3, i64 noundef %4, i64 noundef %5) unnamed_addr #10 {
  store i64 0, ptr %0, align 8, !tbaa !69
  %7 = getelementptr inbounds i8, ptr %0, i64 8
  store i32 0, ptr %7, align 8, !tbaa !64
  %8 = getelementptr inbounds i8, ptr %0, i64 12
  store i32 0, ptr %8, align 4, !tbaa !70
  %9 = icmp eq i32 %3, 1
  %10 = icmp ugt i32 %3, 36
  %11 = or i1 %10, %9
  br i1 %11, label %12, label %13

12:                                               ; preds = %6
  store i32 22, ptr @errno, align 4, !tbaa !71
  br label %130

13:                                               ; preds = %6
  %14 = icmp eq ptr %2, null
  br i1 %14, label %16, label %15

15:                                               ; preds = %13
  store ptr %1, ptr %2, align 8, !tbaa !15
  br label %16

16:                                               ; preds = %15, %13
  br label %17

17:                                               ; preds = %17, %16
  %18 = phi ptr [ %25, %17 ], [ %1, %16 ]
  %19 = load i8, ptr %18, align 1, !tbaa !5
  %20 = zext i8 %19 to i32
  %21 = icmp ne i8 %19, 32
  %22 = add nsw i32 %20, -14
  %23 = icmp ult i32 %22, -5
  %24 = and i1 %21, %23
  %25 = getelementptr inbounds i8, ptr %18, i64 1
  br i1 %24, label %26, label %17, !llvm.loop !72

26:                                               ; preds = %17
  switch i8 %19, label %31 [
    i8 45, label %27
    i8 43, label %27
  ]

27:                                               ; preds = %26, %26
  %28 = icmp eq i8 %19, 45
  %29 = zext i1 %28 to i32
  store i32 %29, ptr %7, align 8, !tbaa !64
  %30 = select i1 %28, i64 %5, i64 %4
  br label %31

31:                                               ; preds = %27, %26
  %32 = phi i64 [ %30, %27 ], [ %4, %26 ]
  %33 = phi ptr [ %25, %27 ], [ %18, %26 ]
  %34 = icmp ne i32 %3, 0
  switch i32 %3, label %66 [
    i32 16, label %35
    i32 0, label %35
  ]

35:                                               ; preds = %31, %31
  %36 = load i8, ptr %33, align 1, !tbaa !5
  %37 = icmp eq i8 %36, 48
  br i1 %37, label %38, label %63

38:                                               ; preds = %35
  %39 = getelementptr inbounds i8, ptr %33, i64 1
  %40 = load i8, ptr %39, align 1, !tbaa !5
  switch i8 %40, label %63 [
    i8 120, label %41
    i8 88, label %41
  ]

41:                                               ; preds = %38, %38
  %42 = getelementptr inbounds i8, ptr %33, i64 2
  %43 = load i8, ptr %42, align 1, !tbaa !5
  %44 = zext i8 %43 to i32
  %45 = add nsw i32 %44, -58
  %46 = icmp ult i32 %45, -10
  br i1 %46, label %47, label %66

47:                                               ; preds = %41
  %48 = and i32 %44, 223
  %49 = add nsw i32 %48, -91
  %50 = icmp ult i32 %49, -26
  br i1 %50, label %51, label %52

51:                                               ; preds = %47
  br i1 %34, label %66, label %64

52:                                               ; preds = %47
  %53 = add nsw i32 %44, -91
  %54 = icmp ult i32 %53, -26
  %55 = add nuw nsw i32 %44, 32
  %56 = select i1 %54, i32 %44, i32 %55
  %57 = freeze i32 %56
  %58 = add i32 %57, -87
  %59 = icmp ult i32 %58, 16
  %60 = or i1 %34, %59
  %61 = select i1 %59, ptr %42, ptr %33
  %62 = select i1 %59, i32 16, i32 %3
  br i1 %60, label %66, label %64

63:                                               ; preds = %38, %35
  br i1 %34, label %66, label %64

64:                                               ; preds = %63, %52, %51
  %65 = select i1 %37, i32 8, i32 10
  br label %66

66:                                               ; preds = %64, %63, %52, %51, %41, %31
  %67 = phi ptr [ %33, %64 ], [ %33, %63 ], [ %33, %31 ], [ %42, %41 ], [ %33, %51 ], [ %61, %52 ]
  %68 = phi i32 [ %65, %64 ], [ %3, %63 ], [ %3, %31 ], [ 16, %41 ], [ %3, %51 ], [ %62, %52 ]
  %69 = load i8, ptr %67, align 1, !tbaa !5
  %70 = zext i8 %69 to i32
  %71 = add nsw i32 %70, -48
  %72 = icmp ugt i32 %71, 9
  br i1 %72, label %73, label %83

73:                                               ; preds = %66
  %74 = and i32 %70, 223
  %75 = add nsw i32 %74, -91
  %76 = icmp ult i32 %75, -26
  br i1 %76, label %83, label %77

77:                                               ; preds = %73
  %78 = add nsw i32 %70, -91
  %79 = icmp ult i32 %78, -26
  %80 = add nuw nsw i32 %70, 32
  %81 = select i1 %79, i32 %70, i32 %80
  %82 = add nsw i32 %81, -87
  br label %83

83:                                               ; preds = %77, %73, %66
  %84 = phi i32 [ %82, %77 ], [ 255, %73 ], [ %71, %66 ]
  %85 = icmp ult i32 %84, %68
  br i1 %85, label %86, label %130

86:                                               ; preds = %83
  %87 = zext nneg i32 %68 to i64
  br label %88

88:                                               ; preds = %121, %86
  %89 = phi i64 [ %122, %121 ], [ 0, %86 ]
  %90 = phi i32 [ %123, %121 ], [ 0, %86 ]
  %91 = phi i8 [ %125, %121 ], [ %69, %86 ]
  %92 = phi ptr [ %124, %121 ], [ %67, %86 ]
  %93 = zext i8 %91 to i32
  %94 = add nsw i32 %93, -48
  %95 = icmp ugt i32 %94, 9
  br i1 %95, label %96, label %106

96:                                               ; preds = %88
  %97 = and i32 %93, 223
  %98 = add nsw i32 %97, -91
  %99 = icmp ult i32 %98, -26
  br i1 %99, label %106, label %100

100:                                              ; preds = %96
  %101 = add nsw i32 %93, -91
  %102 = icmp ult i32 %101, -26
  %103 = add nuw nsw i32 %93, 32
  %104 = select i1 %102, i32 %93, i32 %103
  %105 = add nsw i32 %104, -87
  br label %106

106:                                              ; preds = %100, %96, %88
  %107 = phi i32 [ %105, %100 ], [ 255, %96 ], [ %94, %88 ]
  %108 = icmp ult i32 %107, %68
  br i1 %108, label %110, label %109

109:                                              ; preds = %106
  br i1 %14, label %127, label %126

110:                                              ; preds = %106
  %111 = icmp eq i32 %90, 0
  br i1 %111, label %112, label %117

112:                                              ; preds = %110
  %113 = zext nneg i32 %107 to i64
  %114 = sub nuw i64 %32, %113
  %115 = udiv i64 %114, %87
  %116 = icmp ugt i64 %89, %115
  br i1 %116, label %117, label %118

117:                                              ; preds = %112, %110
  store i32 1, ptr %8, align 4, !tbaa !70
  br label %121

118:                                              ; preds = %112
  %119 = mul i64 %89, %87
  %120 = add i64 %119, %113
  store i64 %120, ptr %0, align 8, !tbaa !69
  br label %121

121:                                              ; preds = %118, %117
  %122 = phi i64 [ %89, %117 ], [ %120, %118 ]
  %123 = phi i32 [ 1, %117 ], [ 0, %118 ]
  %124 = getelementptr inbounds i8, ptr %92, i64 1
  %125 = load i8, ptr %124, align 1, !tbaa !5
  br label %88, !llvm.loop !73

126:                                              ; preds = %109
  store ptr %92, ptr %2, align 8, !tbaa !15
  br label %127

127:                                              ; preds = %126, %109
  %128 = icmp eq i32 %90, 0
  br i1 %128, label %130, label %129

129:                                              ; preds = %127
  store i32 34, ptr @errno, align 4, !tbaa !71
  store i64 %32, ptr %0, align 8, !tbaa !69
  br label %130

130:                                              ; preds = %129, %127, %83, %12
  ret ptr %0
}

; Function Attrs: noinline nounwind optsize uwtable
define internal ptr @__sized_malloc(i64 noundef %0) local_unnamed_addr #1 {
  %2 = icmp ult i64 %0, -16
  br i1 %2, label %3, label %9

3:                                                ; preds = %1
  %4 = add nuw i64 %0, 16
  %5 = tail call ptr @malloc(i64 noundef %4) #18
  %6 = icmp eq ptr %5, null
  br i1 %6, label %9, label %7

7:                                                ; preds = %3
  %8 = getelementptr inbounds i8, ptr %5, i64 16
  store i64 %0, ptr %5, align 8, !tbaa !21
  br label %9

9:                                                ; preds = %7, %3, %1
  %10 = phi ptr [ %8, %7 ], [ null, %3 ], [ null, %1 ]
  ret ptr %10
}

; Function Attrs: nounwind optsize uwtable
define internal fastcc void @sink(ptr noundef %0, i64 noundef %1, i64 noundef %2, i64 noundef %3, ptr nocapture noundef readonly %4) unnamed_addr #2 {
  %6 = shl i64 %1, 1
  %7 = or disjoint i64 %6, 1
  %8 = icmp ult i64 %7, %2
  br i1 %8, label %9, label %48

9:                                                ; preds = %5
  %10 = icmp eq i64 %3, 0
  br label %11

11:                                               ; preds = %44, %9
  %12 = phi i64 [ %7, %9 ], [ %46, %44 ]
  %13 = phi i64 [ %6, %9 ], [ %45, %44 ]
  %14 = phi i64 [ %1, %9 ], [ %26, %44 ]
  %15 = add nuw i64 %13, 2
  %16 = icmp ult i64 %15, %2
  br i1 %16, label %17, label %25

17:                                               ; preds = %11
  %18 = mul i64 %12, %3
  %19 = getelementptr inbounds i8, ptr %0, i64 %18
  %20 = mul i64 %15, %3
  %21 = getelementptr inbounds i8, ptr %0, i64 %20
  %22 = tail call i32 %4(ptr noundef %19, ptr noundef %21) #18
  %23 = icmp slt i32 %22, 0
  %24 = select i1 %23, i64 %15, i64 %12
  br label %25

25:                                               ; preds = %17, %11
  %26 = phi i64 [ %12, %11 ], [ %24, %17 ]
  %27 = mul i64 %14, %3
  %28 = getelementptr inbounds i8, ptr %0, i64 %27
  %29 = mul i64 %26, %3
  %30 = getelementptr inbounds i8, ptr %0, i64 %29
  %31 = tail call i32 %4(ptr noundef %28, ptr noundef %30) #18
  %32 = icmp sgt i32 %31, -1
  br i1 %32, label %48, label %33

33:                                               ; preds = %25
  br i1 %10, label %44, label %34

34:                                               ; preds = %34, %33
  %35 = phi ptr [ %41, %34 ], [ %28, %33 ]
  %36 = phi i64 [ %38, %34 ], [ %3, %33 ]
  %37 = phi ptr [ %42, %34 ], [ %30, %33 ]
  %38 = add i64 %36, -1
  %39 = load i8, ptr %35, align 1, !tbaa !5
  %40 = load i8, ptr %37, align 1, !tbaa !5
  %41 = getelementptr inbounds i8, ptr %35, i64 1
  store i8 %40, ptr %35, align 1, !tbaa !5
  %42 = getelementptr inbounds i8, ptr %37, i64 1
  store i8 %39, ptr %37, align 1, !tbaa !5
  %43 = icmp eq i64 %38, 0
  br i1 %43, label %44, label %34, !llvm.loop !33

44:                                               ; preds = %34, %33
  %45 = shl i64 %26, 1
  %46 = or disjoint i64 %45, 1
  %47 = icmp ult i64 %46, %2
  br i1 %47, label %11, label %48, !llvm.loop !74

48:                                               ; preds = %44, %25, %5
  ret void
}

; Function Attrs: nounwind optsize uwtable
define internal fastcc void @merge_sort(ptr noundef %0, i64 noundef %1, i64 noundef %2, ptr noundef %3, ptr noundef %4) unnamed_addr #2 {
  %6 = icmp ult i64 %1, 2
  br i1 %6, label %85, label %7

7:                                                ; preds = %5
  %8 = lshr i64 %1, 1
  tail call fastcc void @merge_sort(ptr noundef %0, i64 noundef %8, i64 noundef %2, ptr noundef %3, ptr noundef %4) #19
  %9 = mul i64 %8, %2
  %10 = getelementptr inbounds i8, ptr %0, i64 %9
  %11 = sub i64 %1, %8
  tail call fastcc void @merge_sort(ptr noundef %10, i64 noundef %11, i64 noundef %2, ptr noundef %3, ptr noundef %4) #19
  %12 = icmp eq i64 %9, 0
  br i1 %12, label %22, label %13

13:                                               ; preds = %13, %7
  %14 = phi ptr [ %18, %13 ], [ %0, %7 ]
  %15 = phi ptr [ %20, %13 ], [ %4, %7 ]
  %16 = phi i64 [ %17, %13 ], [ %9, %7 ]
  %17 = add i64 %16, -1
  %18 = getelementptr inbounds i8, ptr %14, i64 1
  %19 = load i8, ptr %14, align 1, !tbaa !5, !alias.scope !75, !noalias !78
  %20 = getelementptr inbounds i8, ptr %15, i64 1
  store i8 %19, ptr %15, align 1, !tbaa !5, !alias.scope !78, !noalias !75
  %21 = icmp eq i64 %17, 0
  br i1 %21, label %22, label %13, !llvm.loop !28

22:                                               ; preds = %13, %7
  %23 = icmp eq i64 %11, 0
  br i1 %23, label %71, label %24

24:                                               ; preds = %22
  %25 = icmp eq i64 %2, 0
  br label %26

26:                                               ; preds = %60, %24
  %27 = phi ptr [ %0, %24 ], [ %65, %60 ]
  %28 = phi ptr [ %4, %24 ], [ %64, %60 ]
  %29 = phi i64 [ %11, %24 ], [ %63, %60 ]
  %30 = phi ptr [ %10, %24 ], [ %62, %60 ]
  %31 = phi i64 [ %8, %24 ], [ %61, %60 ]
  %32 = tail call i32 %3(ptr noundef %28, ptr noundef %30) #18
  %33 = icmp slt i32 %32, 1
  br i1 %33, label %34, label %47

34:                                               ; preds = %26
  br i1 %25, label %44, label %35

35:                                               ; preds = %35, %34
  %36 = phi ptr [ %40, %35 ], [ %28, %34 ]
  %37 = phi ptr [ %42, %35 ], [ %27, %34 ]
  %38 = phi i64 [ %39, %35 ], [ %2, %34 ]
  %39 = add i64 %38, -1
  %40 = getelementptr inbounds i8, ptr %36, i64 1
  %41 = load i8, ptr %36, align 1, !tbaa !5, !alias.scope !80, !noalias !83
  %42 = getelementptr inbounds i8, ptr %37, i64 1
  store i8 %41, ptr %37, align 1, !tbaa !5, !alias.scope !83, !noalias !80
  %43 = icmp eq i64 %39, 0
  br i1 %43, label %44, label %35, !llvm.loop !28

44:                                               ; preds = %35, %34
  %45 = getelementptr inbounds i8, ptr %28, i64 %2
  %46 = add nsw i64 %31, -1
  br label %60

47:                                               ; preds = %26
  br i1 %25, label %57, label %48

48:                                               ; preds = %48, %47
  %49 = phi ptr [ %53, %48 ], [ %30, %47 ]
  %50 = phi ptr [ %55, %48 ], [ %27, %47 ]
  %51 = phi i64 [ %52, %48 ], [ %2, %47 ]
  %52 = add i64 %51, -1
  %53 = getelementptr inbounds i8, ptr %49, i64 1
  %54 = load i8, ptr %49, align 1, !tbaa !5, !alias.scope !85, !noalias !88
  %55 = getelementptr inbounds i8, ptr %50, i64 1
  store i8 %54, ptr %50, align 1, !tbaa !5, !alias.scope !88, !noalias !85
  %56 = icmp eq i64 %52, 0
  br i1 %56, label %57, label %48, !llvm.loop !28

57:                                               ; preds = %48, %47
  %58 = getelementptr inbounds i8, ptr %30, i64 %2
  %59 = add i64 %29, -1
  br label %60

60:                                               ; preds = %57, %44
  %61 = phi i64 [ %46, %44 ], [ %31, %57 ]
  %62 = phi ptr [ %30, %44 ], [ %58, %57 ]
  %63 = phi i64 [ %29, %44 ], [ %59, %57 ]
  %64 = phi ptr [ %45, %44 ], [ %28, %57 ]
  %65 = getelementptr inbounds i8, ptr %27, i64 %2
  %66 = icmp ne i64 %61, 0
  %67 = icmp ne i64 %63, 0
  %68 = select i1 %66, i1 %67, i1 false
  br i1 %68, label %26, label %69, !llvm.loop !90

69:                                               ; preds = %60
  %70 = mul i64 %61, %2
  br label %71

71:                                               ; preds = %69, %22
  %72 = phi i64 [ %70, %69 ], [ %9, %22 ]
  %73 = phi ptr [ %64, %69 ], [ %4, %22 ]
  %74 = phi ptr [ %65, %69 ], [ %0, %22 ]
  %75 = icmp eq i64 %72, 0
  br i1 %75, label %85, label %76

76:                                               ; preds = %76, %71
  %77 = phi ptr [ %81, %76 ], [ %73, %71 ]
  %78 = phi ptr [ %83, %76 ], [ %74, %71 ]
  %79 = phi i64 [ %80, %76 ], [ %72, %71 ]
  %80 = add i64 %79, -1
  %81 = getelementptr inbounds i8, ptr %77, i64 1
  %82 = load i8, ptr %77, align 1, !tbaa !5, !alias.scope !91, !noalias !94
  %83 = getelementptr inbounds i8, ptr %78, i64 1
  store i8 %82, ptr %78, align 1, !tbaa !5, !alias.scope !94, !noalias !91
  %84 = icmp eq i64 %80, 0
  br i1 %84, label %85, label %76, !llvm.loop !28

85:                                               ; preds = %76, %71, %5
  ret void
}

; Function Attrs: mustprogress nofree nounwind willreturn allockind("alloc,uninitialized") allocsize(0) memory(inaccessiblemem: readwrite)
declare dso_local noalias noundef ptr @malloc(i64 noundef) local_unnamed_addr #12

; Function Attrs: nocallback nofree nosync nounwind speculatable willreturn memory(none)
declare i64 @llvm.umin.i64(i64, i64) #8

; Function Attrs: mustprogress nounwind willreturn allockind("free") memory(argmem: readwrite, inaccessiblemem: readwrite)
declare dso_local void @free(ptr allocptr nocapture noundef) local_unnamed_addr #13

; Function Attrs: nounwind optsize uwtable
define internal i32 @getc(ptr nocapture noundef %0) local_unnamed_addr #2 {
  %2 = tail call i32 @fgetc(ptr noundef %0) #19
  ret i32 %2
}

; Function Attrs: nounwind optsize uwtable
define internal i32 @fgetc(ptr nocapture noundef %0) local_unnamed_addr #2 {
  %2 = load i8, ptr %0, align 8, !tbaa !29
  %3 = icmp eq i8 %2, 0
  br i1 %3, label %4, label %20

4:                                                ; preds = %1
  %5 = getelementptr inbounds i8, ptr %0, i64 2
  %6 = load i8, ptr %5, align 2, !tbaa !96
  %7 = icmp eq i8 %6, 0
  br i1 %7, label %12, label %8

8:                                                ; preds = %4
  store i8 0, ptr %5, align 2, !tbaa !96
  %9 = getelementptr inbounds i8, ptr %0, i64 3
  %10 = load i8, ptr %9, align 1, !tbaa !97
  %11 = zext i8 %10 to i32
  br label %20

12:                                               ; preds = %4
  %13 = getelementptr inbounds i8, ptr %0, i64 1
  %14 = load i8, ptr %13, align 1, !tbaa !98
  %15 = icmp eq i8 %14, 0
  br i1 %15, label %16, label %20

16:                                               ; preds = %12
  %17 = tail call i32 @getchar() #18
  %18 = icmp eq i32 %17, -1
  br i1 %18, label %19, label %20

19:                                               ; preds = %16
  store i8 1, ptr %13, align 1, !tbaa !98
  br label %20

20:                                               ; preds = %19, %16, %12, %8, %1
  %21 = phi i32 [ %11, %8 ], [ -1, %1 ], [ -1, %12 ], [ -1, %19 ], [ %17, %16 ]
  ret i32 %21
}

; Function Attrs: optsize
declare dso_local i32 @getchar() local_unnamed_addr #6

attributes #0 = { nounwind uwtable "min-legal-vector-width"="0" "no-trapping-math"="true" "stack-protector-buffer-size"="8" "target-cpu"="x86-64" "target-features"="+cmov,+cx8,+fxsr,+mmx,+sse,+sse2,+x87" "tune-cpu"="generic" }
attributes #1 = { noinline nounwind optsize uwtable "min-legal-vector-width"="0" "no-builtins" "no-jump-tables"="true" "no-trapping-math"="true" "stack-protector-buffer-size"="8" "target-cpu"="x86-64" "target-features"="+cmov,+cx8,+fxsr,+mmx,+sse,+sse2,+x87" "tune-cpu"="generic" }
attributes #2 = { nounwind optsize uwtable "min-legal-vector-width"="0" "no-builtins" "no-jump-tables"="true" "no-trapping-math"="true" "stack-protector-buffer-size"="8" "target-cpu"="x86-64" "target-features"="+cmov,+cx8,+fxsr,+mmx,+sse,+sse2,+x87" "tune-cpu"="generic" }
attributes #3 = { noreturn "no-trapping-math"="true" "stack-protector-buffer-size"="8" "target-cpu"="x86-64" "target-features"="+cmov,+cx8,+fxsr,+mmx,+sse,+sse2,+x87" "tune-cpu"="generic" }
attributes #4 = { nofree nounwind uwtable "min-legal-vector-width"="0" "no-trapping-math"="true" "stack-protector-buffer-size"="8" "target-cpu"="x86-64" "target-features"="+cmov,+cx8,+fxsr,+mmx,+sse,+sse2,+x87" "tune-cpu"="generic" }
attributes #5 = { nofree nounwind "no-trapping-math"="true" "stack-protector-buffer-size"="8" "target-cpu"="x86-64" "target-features"="+cmov,+cx8,+fxsr,+mmx,+sse,+sse2,+x87" "tune-cpu"="generic" }
attributes #6 = { optsize "no-builtins" "no-trapping-math"="true" "stack-protector-buffer-size"="8" "target-cpu"="x86-64" "target-features"="+cmov,+cx8,+fxsr,+mmx,+sse,+sse2,+x87" "tune-cpu"="generic" }
attributes #7 = { nocallback nofree nosync nounwind willreturn memory(argmem: readwrite) }
attributes #8 = { nocallback nofree nosync nounwind speculatable willreturn memory(none) }
attributes #9 = { mustprogress nofree norecurse nosync nounwind optsize willreturn memory(none) uwtable "min-legal-vector-width"="0" "no-builtins" "no-jump-tables"="true" "no-trapping-math"="true" "stack-protector-buffer-size"="8" "target-cpu"="x86-64" "target-features"="+cmov,+cx8,+fxsr,+mmx,+sse,+sse2,+x87" "tune-cpu"="generic" }
attributes #10 = { nofree norecurse nosync nounwind optsize memory(readwrite, inaccessiblemem: none) uwtable "min-legal-vector-width"="0" "no-builtins" "no-jump-tables"="true" "no-trapping-math"="true" "stack-protector-buffer-size"="8" "target-cpu"="x86-64" "target-features"="+cmov,+cx8,+fxsr,+mmx,+sse,+sse2,+x87" "tune-cpu"="generic" }
attributes #11 = { nofree norecurse nosync nounwind optsize memory(read, inaccessiblemem: none) uwtable "min-legal-vector-width"="0" "no-builtins" "no-jump-tables"="true" "no-trapping-math"="true" "stack-protector-buffer-size"="8" "target-cpu"="x86-64" "target-features"="+cmov,+cx8,+fxsr,+mmx,+sse,+sse2,+x87" "tune-cpu"="generic" }
attributes #12 = { mustprogress nofree nounwind willreturn allockind("alloc,uninitialized") allocsize(0) memory(inaccessiblemem: readwrite) "alloc-family"="malloc" "no-trapping-math"="true" "stack-protector-buffer-size"="8" "target-cpu"="x86-64" "target-features"="+cmov,+cx8,+fxsr,+mmx,+sse,+sse2,+x87" "tune-cpu"="generic" }
attributes #13 = { mustprogress nounwind willreturn allockind("free") memory(argmem: readwrite, inaccessiblemem: readwrite) "alloc-family"="malloc" "no-trapping-math"="true" "stack-protector-buffer-size"="8" "target-cpu"="x86-64" "target-features"="+cmov,+cx8,+fxsr,+mmx,+sse,+sse2,+x87" "tune-cpu"="generic" }
attributes #14 = { allocsize(1) }
attributes #15 = { noreturn nounwind }
attributes #16 = { nounwind }
attributes #17 = { allocsize(0) }
attributes #18 = { nobuiltin nounwind optsize "no-builtins" }
attributes #19 = { nobuiltin optsize "no-builtins" }
attributes #20 = { nounwind willreturn memory(read) }

!llvm.ident = !{!0, !0, !0, !0}
!llvm.module.flags = !{!1, !2, !3, !4}

!0 = !{!"Debian clang version 19.1.7 (3~deb12u1)"}
!1 = !{i32 7, !"Dwarf Version", i32 5}
!2 = !{i32 2, !"Debug Info Version", i32 3}
!3 = !{i32 1, !"wchar_size", i32 4}
!4 = !{i32 7, !"uwtable", i32 2}
!5 = !{!6, !6, i64 0}
!6 = !{!"omnipotent char", !7, i64 0}
!7 = !{!"Simple C/C++ TBAA"}
!8 = !{!9, !11, i64 4}
!9 = !{!"", !10, i64 0, !10, i64 1, !10, i64 2, !10, i64 3, !11, i64 4}
!10 = !{!"_Bool", !6, i64 0}
!11 = !{!"int", !6, i64 0}
!12 = distinct !{!12, !13, !14}
!13 = !{!"llvm.loop.mustprogress"}
!14 = !{!"llvm.loop.unroll.disable"}
!15 = !{!16, !16, i64 0}
!16 = !{!"any pointer", !6, i64 0}
!17 = distinct !{!17, !13, !14}
!18 = distinct !{!18, !13, !14}
!19 = distinct !{!19, !13, !14}
!20 = distinct !{!20, !13, !14}
!21 = !{!22, !22, i64 0}
!22 = !{!"long", !6, i64 0}
!23 = !{!24}
!24 = distinct !{!24, !25, !"memcpy: %from"}
!25 = distinct !{!25, !"memcpy"}
!26 = !{!27}
!27 = distinct !{!27, !25, !"memcpy: %to"}
!28 = distinct !{!28, !13}
!29 = !{!30, !6, i64 0}
!30 = !{!"__stream", !6, i64 0, !6, i64 1, !6, i64 2, !6, i64 3, !16, i64 8, !22, i64 16}
!31 = distinct !{!31, !13}
!32 = distinct !{!32, !13}
!33 = distinct !{!33, !13}
!34 = distinct !{!34, !13}
!35 = distinct !{!35, !13, !14}
!36 = distinct !{!36, !13, !14}
!37 = distinct !{!37, !13, !14}
!38 = distinct !{!38, !13, !14}
!39 = distinct !{!39, !13, !14}
!40 = distinct !{!40, !13, !14}
!41 = distinct !{!41, !13, !14}
!42 = distinct !{!42, !13, !14}
!43 = distinct !{!43, !13}
!44 = distinct !{!44, !13}
!45 = !{!46}
!46 = distinct !{!46, !47, !"fwrite: %stream"}
!47 = distinct !{!47, !"fwrite"}
!48 = !{!49}
!49 = distinct !{!49, !47, !"fwrite: %from"}
!50 = !{!30, !22, i64 16}
!51 = !{!30, !16, i64 8}
!52 = distinct !{!52, !13}
!53 = distinct !{!53, !13}
!54 = !{!55}
!55 = distinct !{!55, !56, !"fwrite: %stream"}
!56 = distinct !{!56, !"fwrite"}
!57 = !{!58}
!58 = distinct !{!58, !56, !"fwrite: %from"}
!59 = !{!60}
!60 = distinct !{!60, !61, !"fwrite: %stream"}
!61 = distinct !{!61, !"fwrite"}
!62 = !{!63}
!63 = distinct !{!63, !61, !"fwrite: %from"}
!64 = !{!65, !11, i64 8}
!65 = !{!"number", !66, i64 0, !11, i64 8, !11, i64 12}
!66 = !{!"long long", !6, i64 0}
!67 = distinct !{!67, !13}
!68 = distinct !{!68, !13}
!69 = !{!65, !66, i64 0}
!70 = !{!65, !11, i64 12}
!71 = !{!11, !11, i64 0}
!72 = distinct !{!72, !13}
!73 = distinct !{!73, !13}
!74 = distinct !{!74, !13}
!75 = !{!76}
!76 = distinct !{!76, !77, !"memcpy: %from"}
!77 = distinct !{!77, !"memcpy"}
!78 = !{!79}
!79 = distinct !{!79, !77, !"memcpy: %to"}
!80 = !{!81}
!81 = distinct !{!81, !82, !"memcpy: %from"}
!82 = distinct !{!82, !"memcpy"}
!83 = !{!84}
!84 = distinct !{!84, !82, !"memcpy: %to"}
!85 = !{!86}
!86 = distinct !{!86, !87, !"memcpy: %from"}
!87 = distinct !{!87, !"memcpy"}
!88 = !{!89}
!89 = distinct !{!89, !87, !"memcpy: %to"}
!90 = distinct !{!90, !13}
!91 = !{!92}
!92 = distinct !{!92, !93, !"memcpy: %from"}
!93 = distinct !{!93, !"memcpy"}
!94 = !{!95}
!95 = distinct !{!95, !93, !"memcpy: %to"}
!96 = !{!30, !6, i64 2}
!97 = !{!30, !6, i64 3}
!98 = !{!30, !6, i64 1}
