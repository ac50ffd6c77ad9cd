source_filename = "sortlines.c"
target datalayout = "e-m:e-p:32:32-Fi8-i64:64-v128:64:128-a:0:32-n32-S64"
target triple = "armv7-unknown-linux-gnueabi"

%struct.__stream = type { i8, i8, i8, i8, ptr, i32 }
%struct.number = type { i64, i32, i32 }

@options.0 = internal unnamed_addr global i1 false, align 4
@options.1 = internal unnamed_addr global i1 false, align 4
@options.2 = internal unnamed_addr global i1 false, align 2
@options.3 = internal unnamed_addr global i1 false, align 4
@options.4 = internal unnamed_addr global i32 0, align 4
@.str = private unnamed_addr constant [18 x i8] c"%zu of %zu lines\0A\00", align 1
@.str.1 = private unnamed_addr constant [15 x i8] c"out of memory\0A\00", align 1
@.str.13 = private unnamed_addr constant [1 x i8] zeroinitializer, align 1
@.str.5 = private unnamed_addr constant [3 x i8] c"0X\00", align 1
@.str.6 = private unnamed_addr constant [3 x i8] c"0x\00", align 1
@.str.8 = private unnamed_addr constant [17 x i8] c"0123456789ABCDEF\00", align 1
@.str.9 = private unnamed_addr constant [17 x i8] c"0123456789abcdef\00", align 1
@__streams = internal global [3 x %struct.__stream] [%struct.__stream zeroinitializer, %struct.__stream { i8 1, i8 0, i8 0, i8 0, ptr null, i32 0 }, %struct.__stream { i8 2, i8 0, i8 0, i8 0, ptr null, i32 0 }], align 4
@errno = internal local_unnamed_addr global i32 0, align 4

; Function Attrs: nounwind
define dso_local i32 @main() local_unnamed_addr #0 {
  %1 = tail call fastcc ptr @read_line()
  %2 = icmp eq ptr %1, null
  br i1 %2, label %90, label %3

3:                                                ; preds = %17, %0
  %4 = phi ptr [ %19, %17 ], [ %1, %0 ]
  %5 = load i8, ptr %4, align 1, !tbaa !5
  switch i8 %5, label %17 [
    i8 0, label %20
    i8 110, label %6
    i8 114, label %7
    i8 117, label %8
    i8 102, label %9
    i8 107, label %10
  ]

6:                                                ; preds = %3
  store i1 true, ptr @options.0, align 4
  br label %17

7:                                                ; preds = %3
  store i1 true, ptr @options.1, align 4
  br label %17

8:                                                ; preds = %3
  store i1 true, ptr @options.2, align 2
  br label %17

9:                                                ; preds = %3
  store i1 true, ptr @options.3, align 4
  br label %17

10:                                               ; preds = %3
  %11 = getelementptr inbounds i8, ptr %4, i32 1
  %12 = load i8, ptr %11, align 1, !tbaa !5
  %13 = zext i8 %12 to i32
  %14 = add nsw i32 %13, -48
  %15 = icmp ult i32 %14, 10
  br i1 %15, label %16, label %17

16:                                               ; preds = %10
  store i32 %14, ptr @options.4, align 4, !tbaa !8
  br label %17

17:                                               ; preds = %16, %10, %9, %8, %7, %6, %3
  %18 = phi ptr [ %11, %16 ], [ %4, %10 ], [ %4, %9 ], [ %4, %8 ], [ %4, %7 ], [ %4, %6 ], [ %4, %3 ]
  %19 = getelementptr inbounds i8, ptr %18, i32 1
  br label %3, !llvm.loop !12

20:                                               ; preds = %3
  tail call void @__sized_free(ptr noundef %1)
  %21 = tail call fastcc ptr @read_line()
  %22 = icmp eq ptr %21, null
  br i1 %22, label %74, label %23

23:                                               ; preds = %38, %20
  %24 = phi ptr [ %43, %38 ], [ %21, %20 ]
  %25 = phi i32 [ %40, %38 ], [ 0, %20 ]
  %26 = phi i32 [ %41, %38 ], [ 0, %20 ]
  %27 = phi ptr [ %39, %38 ], [ null, %20 ]
  %28 = icmp eq i32 %26, %25
  br i1 %28, label %29, label %38

29:                                               ; preds = %23
  %30 = icmp eq i32 %25, 0
  %31 = shl i32 %25, 1
  %32 = select i1 %30, i32 4, i32 %31
  %33 = shl i32 %32, 2
  %34 = tail call ptr @realloc(ptr noundef %27, i32 noundef %33) #13
  %35 = icmp eq ptr %34, null
  br i1 %35, label %36, label %38

36:                                               ; preds = %29
  %37 = tail call i32 @fwrite(ptr nonnull @.str.1, i32 14, i32 1, ptr nonnull getelementptr inbounds (i8, ptr @__streams, i32 24))
  tail call void @exit(i32 noundef 1) #14
  unreachable

38:                                               ; preds = %29, %23
  %39 = phi ptr [ %27, %23 ], [ %34, %29 ]
  %40 = phi i32 [ %25, %23 ], [ %32, %29 ]
  %41 = add i32 %26, 1
  %42 = getelementptr inbounds ptr, ptr %39, i32 %26
  store ptr %24, ptr %42, align 4, !tbaa !14
  %43 = tail call fastcc ptr @read_line()
  %44 = icmp eq ptr %43, null
  br i1 %44, label %45, label %23, !llvm.loop !16

45:                                               ; preds = %38
  %46 = icmp eq i32 %41, 0
  br i1 %46, label %74, label %47

47:                                               ; preds = %45
  tail call void @qsort(ptr noundef nonnull %39, i32 noundef %41, i32 noundef 4, ptr noundef nonnull @compare) #15
  %48 = load ptr, ptr %39, align 4, !tbaa !14
  %49 = tail call i32 @puts(ptr noundef nonnull dereferenceable(1) %48)
  %50 = icmp eq i32 %26, 0
  br i1 %50, label %51, label %54

51:                                               ; preds = %70, %47
  %52 = phi i32 [ 1, %47 ], [ %71, %70 ]
  %53 = phi i32 [ 1, %47 ], [ %41, %70 ]
  br label %84

54:                                               ; preds = %70, %47
  %55 = phi i32 [ %72, %70 ], [ 1, %47 ]
  %56 = phi i32 [ %71, %70 ], [ 1, %47 ]
  %57 = load i1, ptr @options.2, align 2
  br i1 %57, label %58, label %65

58:                                               ; preds = %54
  %59 = getelementptr ptr, ptr %39, i32 %55
  %60 = getelementptr i8, ptr %59, i32 -4
  %61 = load ptr, ptr %60, align 4, !tbaa !14
  %62 = load ptr, ptr %59, align 4, !tbaa !14
  %63 = tail call fastcc i32 @order(ptr noundef %61, ptr noundef %62)
  %64 = icmp eq i32 %63, 0
  br i1 %64, label %70, label %65

65:                                               ; preds = %58, %54
  %66 = getelementptr inbounds ptr, ptr %39, i32 %55
  %67 = load ptr, ptr %66, align 4, !tbaa !14
  %68 = tail call i32 @puts(ptr noundef nonnull dereferenceable(1) %67)
  %69 = add i32 %56, 1
  br label %70

70:                                               ; preds = %65, %58
  %71 = phi i32 [ %56, %58 ], [ %69, %65 ]
  %72 = add nuw i32 %55, 1
  %73 = icmp eq i32 %55, %26
  br i1 %73, label %51, label %54, !llvm.loop !17

74:                                               ; preds = %84, %45, %20
  %75 = phi i32 [ 0, %20 ], [ 0, %45 ], [ %52, %84 ]
  %76 = phi i32 [ 0, %20 ], [ 0, %45 ], [ %53, %84 ]
  %77 = phi ptr [ null, %20 ], [ %39, %45 ], [ %39, %84 ]
  tail call void @__sized_free(ptr noundef %77)
  %78 = zext i32 %75 to i64
  %79 = tail call i32 @__print_unsigned(ptr nonnull getelementptr inbounds (i8, ptr @__streams, i32 12), i64 %78, i32 10, i32 0, i32 0, i32 -1) #15
  %80 = tail call i32 @__print_text(ptr nonnull getelementptr inbounds (i8, ptr @__streams, i32 12), ptr nonnull getelementptr inbounds (i8, ptr @.str, i32 3), i32 4) #15
  %81 = zext i32 %76 to i64
  %82 = tail call i32 @__print_unsigned(ptr nonnull getelementptr inbounds (i8, ptr @__streams, i32 12), i64 %81, i32 10, i32 0, i32 0, i32 -1) #15
  %83 = tail call i32 @__print_text(ptr nonnull getelementptr inbounds (i8, ptr @__streams, i32 12), ptr nonnull getelementptr inbounds (i8, ptr @.str, i32 10), i32 7) #15
  br label %90

84:                                               ; preds = %84, %51
  %85 = phi i32 [ %88, %84 ], [ 0, %51 ]
  %86 = getelementptr inbounds ptr, ptr %39, i32 %85
  %87 = load ptr, ptr %86, align 4, !tbaa !14
  tail call void @__sized_free(ptr noundef %87)
  %88 = add nuw i32 %85, 1
  %89 = icmp eq i32 %88, %53
  br i1 %89, label %74, label %84, !llvm.loop !19

90:                                               ; preds = %74, %0
  %91 = phi i32 [ %75, %74 ], [ 0, %0 ]
  ret i32 %91
}

; Function Attrs: nounwind
define internal fastcc noalias ptr @read_line() unnamed_addr #0 {
  %1 = tail call dereferenceable_or_null(16) ptr @__sized_malloc(i32 noundef 16) #16
  %2 = icmp eq ptr %1, null
  br i1 %2, label %3, label %5

3:                                                ; preds = %0
  %4 = tail call i32 @fwrite(ptr nonnull @.str.1, i32 14, i32 1, ptr nonnull getelementptr inbounds (i8, ptr @__streams, i32 24))
  tail call void @exit(i32 noundef 1) #14
  unreachable

5:                                                ; preds = %19, %0
  %6 = phi i32 [ %11, %19 ], [ 0, %0 ]
  %7 = phi i32 [ %20, %19 ], [ 16, %0 ]
  %8 = phi ptr [ %21, %19 ], [ %1, %0 ]
  %9 = tail call i32 @getc(ptr noundef nonnull @__streams)
  switch i32 %9, label %10 [
    i32 -1, label %24
    i32 10, label %24
  ]

10:                                               ; preds = %5
  %11 = add i32 %6, 1
  %12 = icmp eq i32 %11, %7
  br i1 %12, label %13, label %19

13:                                               ; preds = %10
  %14 = shl i32 %7, 1
  %15 = tail call ptr @realloc(ptr noundef %8, i32 noundef %14) #13
  %16 = icmp eq ptr %15, null
  br i1 %16, label %17, label %19

17:                                               ; preds = %13
  %18 = tail call i32 @fwrite(ptr nonnull @.str.1, i32 14, i32 1, ptr nonnull getelementptr inbounds (i8, ptr @__streams, i32 24))
  tail call void @exit(i32 noundef 1) #14
  unreachable

19:                                               ; preds = %13, %10
  %20 = phi i32 [ %7, %10 ], [ %14, %13 ]
  %21 = phi ptr [ %8, %10 ], [ %15, %13 ]
  %22 = trunc i32 %9 to i8
  %23 = getelementptr inbounds i8, ptr %21, i32 %6
  store i8 %22, ptr %23, align 1, !tbaa !5
  br label %5, !llvm.loop !20

24:                                               ; preds = %5, %5
  %25 = icmp eq i32 %9, -1
  %26 = icmp eq i32 %6, 0
  %27 = and i1 %26, %25
  br i1 %27, label %28, label %29

28:                                               ; preds = %24
  tail call void @__sized_free(ptr noundef %8)
  br label %31

29:                                               ; preds = %24
  %30 = getelementptr inbounds i8, ptr %8, i32 %6
  store i8 0, ptr %30, align 1, !tbaa !5
  br label %31

31:                                               ; preds = %29, %28
  %32 = phi ptr [ null, %28 ], [ %8, %29 ]
  ret ptr %32
}

; Function Attrs: noinline nounwind optsize
define internal void @__sized_free(ptr noundef %0) local_unnamed_addr #1 {
  %2 = icmp eq ptr %0, null
  br i1 %2, label %5, label %3

3:                                                ; preds = %1
  %4 = getelementptr inbounds i8, ptr %0, i32 -16
  tail call void @free(ptr noundef nonnull %4) #17
  br label %5

5:                                                ; preds = %3, %1
  ret void
}

; Function Attrs: nounwind optsize
define internal ptr @realloc(ptr noundef %0, i32 noundef %1) local_unnamed_addr #2 {
  %3 = icmp eq ptr %0, null
  br i1 %3, label %4, label %6

4:                                                ; preds = %2
  %5 = tail call ptr @__sized_malloc(i32 noundef %1) #18
  br label %28

6:                                                ; preds = %2
  %7 = icmp eq i32 %1, 0
  br i1 %7, label %8, label %9

8:                                                ; preds = %6
  tail call void @__sized_free(ptr noundef nonnull %0) #18
  br label %28

9:                                                ; preds = %6
  %10 = tail call ptr @__sized_malloc(i32 noundef %1) #18
  %11 = icmp eq ptr %10, null
  br i1 %11, label %28, label %12

12:                                               ; preds = %9
  %13 = getelementptr inbounds i8, ptr %0, i32 -16
  %14 = load i32, ptr %13, align 4, !tbaa !21
  %15 = icmp eq i32 %14, 0
  br i1 %15, label %27, label %16

16:                                               ; preds = %12
  %17 = tail call i32 @llvm.umin.i32(i32 %14, i32 %1)
  br label %18

18:                                               ; preds = %18, %16
  %19 = phi ptr [ %23, %18 ], [ %0, %16 ]
  %20 = phi ptr [ %25, %18 ], [ %10, %16 ]
  %21 = phi i32 [ %22, %18 ], [ %17, %16 ]
  %22 = add i32 %21, -1
  %23 = getelementptr inbounds i8, ptr %19, i32 1
  %24 = load i8, ptr %19, align 1, !tbaa !5, !alias.scope !22, !noalias !25
  %25 = getelementptr inbounds i8, ptr %20, i32 1
  store i8 %24, ptr %20, align 1, !tbaa !5, !alias.scope !25, !noalias !22
  %26 = icmp eq i32 %22, 0
  br i1 %26, label %27, label %18, !llvm.loop !27

27:                                               ; preds = %18, %12
  tail call void @__sized_free(ptr noundef nonnull %0) #18
  br label %28

28:                                               ; preds = %27, %9, %8, %4
  %29 = phi ptr [ null, %8 ], [ %5, %4 ], [ %10, %27 ], [ null, %9 ]
  ret ptr %29
}

; Function Attrs: nounwind optsize
define internal noundef i32 @fwrite(ptr noalias nocapture noundef readonly %0, i32 noundef %1, i32 noundef %2, ptr noalias nocapture noundef %3) local_unnamed_addr #2 {
  %5 = load i8, ptr %3, align 4, !tbaa !28
  %6 = icmp eq i8 %5, 0
  br i1 %6, label %21, label %7

7:                                                ; preds = %4
  %8 = mul i32 %2, %1
  %9 = icmp eq i32 %8, 0
  br i1 %9, label %10, label %13

10:                                               ; preds = %13, %7
  %11 = icmp eq i32 %1, 0
  %12 = select i1 %11, i32 0, i32 %2
  br label %21

13:                                               ; preds = %13, %7
  %14 = phi i32 [ %19, %13 ], [ 0, %7 ]
  %15 = getelementptr inbounds i8, ptr %0, i32 %14
  %16 = load i8, ptr %15, align 1, !tbaa !5
  %17 = zext i8 %16 to i32
  %18 = tail call i32 @fputc(i32 noundef %17, ptr noundef nonnull %3) #18
  %19 = add nuw i32 %14, 1
  %20 = icmp eq i32 %19, %8
  br i1 %20, label %10, label %13, !llvm.loop !30

21:                                               ; preds = %10, %4
  %22 = phi i32 [ %12, %10 ], [ 0, %4 ]
  ret i32 %22
}

; Function Attrs: noreturn
declare dso_local void @exit(i32 noundef) local_unnamed_addr #3

; Function Attrs: nofree nounwind
define internal i32 @compare(ptr nocapture noundef readonly %0, ptr nocapture noundef readonly %1) #4 {
  %3 = load ptr, ptr %0, align 4, !tbaa !14
  %4 = load ptr, ptr %1, align 4, !tbaa !14
  %5 = tail call fastcc i32 @order(ptr noundef %3, ptr noundef %4)
  %6 = load i1, ptr @options.1, align 4
  %7 = sub nsw i32 0, %5
  %8 = select i1 %6, i32 %7, i32 %5
  ret i32 %8
}

; Function Attrs: nounwind optsize
define internal void @qsort(ptr noundef %0, i32 noundef %1, i32 noundef %2, ptr noundef %3) local_unnamed_addr #2 {
  %5 = icmp ult i32 %1, 2
  %6 = icmp eq i32 %2, 0
  %7 = or i1 %5, %6
  br i1 %7, label %35, label %8

8:                                                ; preds = %4
  %9 = lshr i32 %1, 1
  %10 = mul i32 %9, %2
  %11 = tail call ptr @__sized_malloc(i32 noundef %10) #17
  %12 = icmp eq ptr %11, null
  br i1 %12, label %13, label %34

13:                                               ; preds = %13, %8
  %14 = phi i32 [ %15, %13 ], [ %9, %8 ]
  %15 = add nsw i32 %14, -1
  tail call fastcc void @sink(ptr noundef %0, i32 noundef %15, i32 noundef %1, i32 noundef %2, ptr noundef readonly %3) #18
  %16 = icmp eq i32 %15, 0
  br i1 %16, label %17, label %13, !llvm.loop !31

17:                                               ; preds = %32, %13
  %18 = phi i32 [ %19, %32 ], [ %1, %13 ]
  %19 = add i32 %18, -1
  %20 = mul i32 %19, %2
  %21 = getelementptr inbounds i8, ptr %0, i32 %20
  br label %22

22:                                               ; preds = %22, %17
  %23 = phi ptr [ %29, %22 ], [ %0, %17 ]
  %24 = phi i32 [ %26, %22 ], [ %2, %17 ]
  %25 = phi ptr [ %30, %22 ], [ %21, %17 ]
  %26 = add i32 %24, -1
  %27 = load i8, ptr %23, align 1, !tbaa !5
  %28 = load i8, ptr %25, align 1, !tbaa !5
  %29 = getelementptr inbounds i8, ptr %23, i32 1
  store i8 %28, ptr %23, align 1, !tbaa !5
  %30 = getelementptr inbounds i8, ptr %25, i32 1
  store i8 %27, ptr %25, align 1, !tbaa !5
  %31 = icmp eq i32 %26, 0
  br i1 %31, label %32, label %22, !llvm.loop !32

32:                                               ; preds = %22
  tail call fastcc void @sink(ptr noundef %0, i32 noundef 0, i32 noundef %19, i32 noundef %2, ptr noundef readonly %3) #18
  %33 = icmp ugt i32 %19, 1
  br i1 %33, label %17, label %35, !llvm.loop !33

34:                                               ; preds = %8
  tail call fastcc void @merge_sort(ptr noundef %0, i32 noundef %1, i32 noundef %2, ptr noundef %3, ptr noundef nonnull %11) #18
  tail call void @__sized_free(ptr noundef nonnull %11) #17
  br label %35

35:                                               ; preds = %34, %32, %4
  ret void
}

; Function Attrs: nofree nounwind
declare dso_local noundef i32 @puts(ptr nocapture noundef readonly) local_unnamed_addr #4

; Function Attrs: nofree nounwind
define internal fastcc i32 @order(ptr nocapture noundef readonly %0, ptr nocapture noundef readonly %1) unnamed_addr #4 {
  %3 = load i32, ptr @options.4, align 4, !tbaa !8
  %4 = icmp sgt i32 %3, 1
  br i1 %4, label %5, label %8

5:                                                ; preds = %29, %2
  %6 = phi i32 [ %31, %29 ], [ 1, %2 ]
  %7 = phi ptr [ %30, %29 ], [ %0, %2 ]
  br label %10

8:                                                ; preds = %2
  %9 = icmp eq i32 %3, 0
  br i1 %9, label %80, label %33

10:                                               ; preds = %10, %5
  %11 = phi ptr [ %16, %10 ], [ %7, %5 ]
  %12 = load i8, ptr %11, align 1, !tbaa !5
  %13 = zext i8 %12 to i32
  %14 = tail call i32 @isspace(i32 noundef %13) #19
  %15 = icmp eq i32 %14, 0
  %16 = getelementptr inbounds i8, ptr %11, i32 1
  br i1 %15, label %17, label %10, !llvm.loop !34

17:                                               ; preds = %10
  %18 = icmp eq i8 %12, 0
  br i1 %18, label %29, label %19

19:                                               ; preds = %25, %17
  %20 = phi ptr [ %26, %25 ], [ %11, %17 ]
  %21 = phi i8 [ %27, %25 ], [ %12, %17 ]
  %22 = zext i8 %21 to i32
  %23 = tail call i32 @isspace(i32 noundef %22) #19
  %24 = icmp eq i32 %23, 0
  br i1 %24, label %25, label %29

25:                                               ; preds = %19
  %26 = getelementptr inbounds i8, ptr %20, i32 1
  %27 = load i8, ptr %26, align 1, !tbaa !5
  %28 = icmp eq i8 %27, 0
  br i1 %28, label %29, label %19, !llvm.loop !35

29:                                               ; preds = %25, %19, %17
  %30 = phi ptr [ %11, %17 ], [ %26, %25 ], [ %20, %19 ]
  %31 = add nuw nsw i32 %6, 1
  %32 = icmp eq i32 %31, %3
  br i1 %32, label %33, label %5, !llvm.loop !36

33:                                               ; preds = %29, %8
  %34 = phi ptr [ %0, %8 ], [ %30, %29 ]
  br label %35

35:                                               ; preds = %35, %33
  %36 = phi ptr [ %41, %35 ], [ %34, %33 ]
  %37 = load i8, ptr %36, align 1, !tbaa !5
  %38 = zext i8 %37 to i32
  %39 = tail call i32 @isspace(i32 noundef %38) #19
  %40 = icmp eq i32 %39, 0
  %41 = getelementptr inbounds i8, ptr %36, i32 1
  br i1 %40, label %42, label %35, !llvm.loop !37

42:                                               ; preds = %35
  br i1 %4, label %43, label %46

43:                                               ; preds = %67, %42
  %44 = phi i32 [ %69, %67 ], [ 1, %42 ]
  %45 = phi ptr [ %68, %67 ], [ %1, %42 ]
  br label %48

46:                                               ; preds = %42
  %47 = icmp eq i32 %3, 0
  br i1 %47, label %80, label %71

48:                                               ; preds = %48, %43
  %49 = phi ptr [ %54, %48 ], [ %45, %43 ]
  %50 = load i8, ptr %49, align 1, !tbaa !5
  %51 = zext i8 %50 to i32
  %52 = tail call i32 @isspace(i32 noundef %51) #19
  %53 = icmp eq i32 %52, 0
  %54 = getelementptr inbounds i8, ptr %49, i32 1
  br i1 %53, label %55, label %48, !llvm.loop !38

55:                                               ; preds = %48
  %56 = icmp eq i8 %50, 0
  br i1 %56, label %67, label %57

57:                                               ; preds = %63, %55
  %58 = phi ptr [ %64, %63 ], [ %49, %55 ]
  %59 = phi i8 [ %65, %63 ], [ %50, %55 ]
  %60 = zext i8 %59 to i32
  %61 = tail call i32 @isspace(i32 noundef %60) #19
  %62 = icmp eq i32 %61, 0
  br i1 %62, label %63, label %67

63:                                               ; preds = %57
  %64 = getelementptr inbounds i8, ptr %58, i32 1
  %65 = load i8, ptr %64, align 1, !tbaa !5
  %66 = icmp eq i8 %65, 0
  br i1 %66, label %67, label %57, !llvm.loop !39

67:                                               ; preds = %63, %57, %55
  %68 = phi ptr [ %49, %55 ], [ %64, %63 ], [ %58, %57 ]
  %69 = add nuw nsw i32 %44, 1
  %70 = icmp eq i32 %69, %3
  br i1 %70, label %71, label %43, !llvm.loop !40

71:                                               ; preds = %67, %46
  %72 = phi ptr [ %1, %46 ], [ %68, %67 ]
  br label %73

73:                                               ; preds = %73, %71
  %74 = phi ptr [ %79, %73 ], [ %72, %71 ]
  %75 = load i8, ptr %74, align 1, !tbaa !5
  %76 = zext i8 %75 to i32
  %77 = tail call i32 @isspace(i32 noundef %76) #19
  %78 = icmp eq i32 %77, 0
  %79 = getelementptr inbounds i8, ptr %74, i32 1
  br i1 %78, label %80, label %73, !llvm.loop !41

80:                                               ; preds = %73, %46, %8
  %81 = phi ptr [ %36, %46 ], [ %0, %8 ], [ %36, %73 ]
  %82 = phi ptr [ %1, %46 ], [ %1, %8 ], [ %74, %73 ]
  %83 = load i1, ptr @options.0, align 4
  br i1 %83, label %84, label %90

84:                                               ; preds = %80
  %85 = tail call i32 @strtol(ptr nocapture noundef %81, ptr noundef null, i32 noundef 10)
  %86 = tail call i32 @strtol(ptr nocapture noundef %82, ptr noundef null, i32 noundef 10)
  %87 = icmp eq i32 %85, %86
  %88 = icmp slt i32 %85, %86
  %89 = select i1 %88, i32 -1, i32 1
  br i1 %87, label %90, label %96

90:                                               ; preds = %84, %80
  %91 = load i1, ptr @options.3, align 4
  br i1 %91, label %92, label %94

92:                                               ; preds = %90
  %93 = tail call i32 @strcasecmp(ptr noundef %81, ptr noundef %82)
  br label %96

94:                                               ; preds = %90
  %95 = tail call i32 @strcmp(ptr noundef nonnull dereferenceable(1) %81, ptr noundef nonnull dereferenceable(1) %82) #15
  br label %96

96:                                               ; preds = %94, %92, %84
  %97 = phi i32 [ %89, %84 ], [ %93, %92 ], [ %95, %94 ]
  ret i32 %97
}

; Function Attrs: nounwind optsize
define internal i32 @__print_unsigned(ptr nocapture noundef %0, i64 noundef %1, i32 noundef %2, i32 noundef %3, i32 noundef %4, i32 noundef %5) local_unnamed_addr #2 {
  %7 = alloca [24 x i8], align 1
  call void @llvm.lifetime.start.p0(i64 24, ptr nonnull %7) #15
  %8 = and i32 %3, 32
  %9 = icmp eq i32 %8, 0
  %10 = select i1 %9, ptr @.str.9, ptr @.str.8
  %11 = icmp ult i64 %1, 4294967296
  br i1 %11, label %14, label %12

12:                                               ; preds = %6
  %13 = zext i32 %2 to i64
  br label %29

14:                                               ; preds = %6
  %15 = trunc nuw i64 %1 to i32
  %16 = icmp eq i32 %15, 0
  br i1 %16, label %41, label %17

17:                                               ; preds = %17, %14
  %18 = phi i32 [ %21, %17 ], [ %15, %14 ]
  %19 = phi i32 [ %26, %17 ], [ 24, %14 ]
  %20 = freeze i32 %18
  %21 = udiv i32 %20, %2
  %22 = mul i32 %21, %2
  %23 = sub i32 %20, %22
  %24 = getelementptr inbounds i8, ptr %10, i32 %23
  %25 = load i8, ptr %24, align 1, !tbaa !5
  %26 = add nsw i32 %19, -1
  %27 = getelementptr inbounds i8, ptr %7, i32 %26
  store i8 %25, ptr %27, align 1, !tbaa !5
  %28 = icmp ult i32 %18, %2
  br i1 %28, label %41, label %17, !llvm.loop !42

29:                                               ; preds = %29, %12
  %30 = phi i32 [ 24, %12 ], [ %38, %29 ]
  %31 = phi i64 [ %1, %12 ], [ %32, %29 ]
  %32 = udiv i64 %31, %13
  %33 = mul i64 %32, %13
  %34 = sub i64 %31, %33
  %35 = trunc nuw i64 %34 to i32
  %36 = getelementptr inbounds i8, ptr %10, i32 %35
  %37 = load i8, ptr %36, align 1, !tbaa !5
  %38 = add nsw i32 %30, -1
  %39 = getelementptr inbounds i8, ptr %7, i32 %38
  store i8 %37, ptr %39, align 1, !tbaa !5
  %40 = icmp ult i64 %31, %13
  br i1 %40, label %41, label %29, !llvm.loop !43

41:                                               ; preds = %29, %17, %14
  %42 = phi i32 [ 24, %14 ], [ %26, %17 ], [ %38, %29 ]
  %43 = icmp eq i64 %1, 0
  %44 = icmp ne i32 %5, 0
  %45 = and i1 %43, %44
  br i1 %45, label %46, label %49

46:                                               ; preds = %41
  %47 = add nsw i32 %42, -1
  %48 = getelementptr inbounds i8, ptr %7, i32 %47
  store i8 48, ptr %48, align 1, !tbaa !5
  br label %49

49:                                               ; preds = %46, %41
  %50 = phi i32 [ %47, %46 ], [ %42, %41 ]
  %51 = getelementptr inbounds i8, ptr %7, i32 %50
  %52 = and i32 %3, 8
  %53 = icmp ne i32 %52, 0
  %54 = icmp eq i32 %2, 8
  %55 = and i1 %54, %53
  %56 = sub nsw i32 24, %50
  %57 = icmp sge i32 %56, %5
  %58 = select i1 %55, i1 %57, i1 false
  br i1 %58, label %59, label %66

59:                                               ; preds = %49
  %60 = icmp eq i32 %50, 24
  br i1 %60, label %64, label %61

61:                                               ; preds = %59
  %62 = load i8, ptr %51, align 1, !tbaa !5
  %63 = icmp eq i8 %62, 48
  br i1 %63, label %66, label %64

64:                                               ; preds = %61, %59
  %65 = getelementptr inbounds i8, ptr %51, i32 -1
  store i8 48, ptr %65, align 1, !tbaa !5
  br label %66

66:                                               ; preds = %64, %61, %49
  %67 = phi ptr [ %65, %64 ], [ %51, %61 ], [ %51, %49 ]
  %68 = getelementptr inbounds i8, ptr %7, i32 24
  %69 = ptrtoint ptr %68 to i32
  %70 = icmp eq i32 %2, 16
  %71 = icmp ne i64 %1, 0
  %72 = and i1 %71, %70
  %73 = and i1 %72, %53
  %74 = select i1 %9, ptr @.str.6, ptr @.str.5
  %75 = select i1 %73, ptr %74, ptr @.str.13
  %76 = ptrtoint ptr %67 to i32
  %77 = sub i32 %69, %76
  %78 = call fastcc i32 @number(ptr noundef %0, ptr noundef nonnull %75, ptr noundef nonnull %67, i32 noundef %77, i32 noundef %3, i32 noundef %4, i32 noundef %5) #18
  call void @llvm.lifetime.end.p0(i64 24, ptr nonnull %7) #15
  ret i32 %78
}

; Function Attrs: nounwind optsize
define internal noundef i32 @__print_text(ptr nocapture noundef %0, ptr nocapture noundef readonly %1, i32 noundef returned %2) local_unnamed_addr #2 {
  %4 = load i8, ptr %0, align 4, !tbaa !28, !alias.scope !44, !noalias !47
  %5 = icmp eq i8 %4, 0
  %6 = icmp eq i32 %2, 0
  %7 = or i1 %6, %5
  br i1 %7, label %16, label %8

8:                                                ; preds = %8, %3
  %9 = phi i32 [ %14, %8 ], [ 0, %3 ]
  %10 = getelementptr inbounds i8, ptr %1, i32 %9
  %11 = load i8, ptr %10, align 1, !tbaa !5, !alias.scope !47, !noalias !44
  %12 = zext i8 %11 to i32
  %13 = tail call i32 @fputc(i32 noundef %12, ptr noundef nonnull %0) #18, !noalias !47
  %14 = add nuw i32 %9, 1
  %15 = icmp eq i32 %14, %2
  br i1 %15, label %16, label %8, !llvm.loop !30

16:                                               ; preds = %8, %3
  ret i32 %2
}

; Function Attrs: nounwind optsize
define internal range(i32 -1, 256) i32 @fputc(i32 noundef %0, ptr nocapture noundef %1) local_unnamed_addr #2 {
  %3 = load i8, ptr %1, align 4, !tbaa !28
  switch i8 %3, label %17 [
    i8 1, label %4
    i8 3, label %6
    i8 0, label %19
  ]

4:                                                ; preds = %2
  %5 = tail call i32 @putchar(i32 noundef %0) #17
  br label %17

6:                                                ; preds = %2
  %7 = getelementptr inbounds i8, ptr %1, i32 8
  %8 = load i32, ptr %7, align 4, !tbaa !49
  %9 = icmp eq i32 %8, 0
  br i1 %9, label %17, label %10

10:                                               ; preds = %6
  %11 = trunc i32 %0 to i8
  %12 = getelementptr inbounds i8, ptr %1, i32 4
  %13 = load ptr, ptr %12, align 4, !tbaa !50
  %14 = getelementptr inbounds i8, ptr %13, i32 1
  store ptr %14, ptr %12, align 4, !tbaa !50
  store i8 %11, ptr %13, align 1, !tbaa !5
  %15 = load i32, ptr %7, align 4, !tbaa !49
  %16 = add i32 %15, -1
  store i32 %16, ptr %7, align 4, !tbaa !49
  br label %17

17:                                               ; preds = %10, %6, %4, %2
  %18 = and i32 %0, 255
  br label %19

19:                                               ; preds = %17, %2
  %20 = phi i32 [ %18, %17 ], [ -1, %2 ]
  ret i32 %20
}

; Function Attrs: optsize
declare dso_local i32 @putchar(i32 noundef) local_unnamed_addr #5

; Function Attrs: nocallback nofree nosync nounwind willreturn memory(argmem: readwrite)
declare void @llvm.lifetime.start.p0(i64 immarg, ptr nocapture) #6

; Function Attrs: nounwind optsize
define internal fastcc i32 @number(ptr nocapture noundef %0, ptr noundef %1, ptr nocapture noundef readonly %2, i32 noundef %3, i32 noundef %4, i32 noundef %5, i32 noundef %6) unnamed_addr #2 {
  br label %8

8:                                                ; preds = %8, %7
  %9 = phi ptr [ %1, %7 ], [ %12, %8 ]
  %10 = load i8, ptr %9, align 1, !tbaa !5
  %11 = icmp eq i8 %10, 0
  %12 = getelementptr inbounds i8, ptr %9, i32 1
  br i1 %11, label %13, label %8, !llvm.loop !51

13:                                               ; preds = %8
  %14 = ptrtoint ptr %9 to i32
  %15 = ptrtoint ptr %1 to i32
  %16 = sub i32 %14, %15
  %17 = sub nsw i32 %6, %3
  %18 = lshr i32 %5, 31
  %19 = icmp ne i32 %18, 0
  %20 = sub i32 0, %5
  %21 = select i1 %19, i32 %20, i32 %5
  %22 = tail call i32 @llvm.smax.i32(i32 %17, i32 0)
  %23 = icmp slt i32 %6, 0
  %24 = and i32 %4, 16
  %25 = icmp ne i32 %24, 0
  %26 = and i1 %25, %23
  %27 = and i32 %4, 1
  %28 = or i32 %18, %27
  %29 = icmp eq i32 %28, 0
  %30 = and i1 %26, %29
  %31 = add i32 %16, %3
  %32 = icmp sgt i32 %21, %31
  %33 = select i1 %30, i1 %32, i1 false
  %34 = sub i32 %21, %31
  %35 = select i1 %33, i32 %34, i32 %22
  %36 = add i32 %31, %35
  %37 = sub i32 %21, %36
  br i1 %29, label %38, label %47

38:                                               ; preds = %13
  %39 = icmp sgt i32 %37, 0
  br i1 %39, label %40, label %45

40:                                               ; preds = %40, %38
  %41 = phi i32 [ %43, %40 ], [ 0, %38 ]
  %42 = tail call i32 @fputc(i32 noundef 32, ptr noundef %0) #18
  %43 = add nuw nsw i32 %41, 1
  %44 = icmp eq i32 %43, %37
  br i1 %44, label %45, label %40, !llvm.loop !52

45:                                               ; preds = %40, %38
  %46 = tail call noundef i32 @llvm.smax.i32(i32 %37, i32 0)
  br label %47

47:                                               ; preds = %45, %13
  %48 = phi i32 [ 0, %13 ], [ %46, %45 ]
  %49 = load i8, ptr %0, align 4, !tbaa !28, !alias.scope !53, !noalias !56
  %50 = icmp eq i8 %49, 0
  %51 = icmp eq ptr %9, %1
  %52 = or i1 %51, %50
  br i1 %52, label %61, label %53

53:                                               ; preds = %53, %47
  %54 = phi i32 [ %59, %53 ], [ 0, %47 ]
  %55 = getelementptr inbounds i8, ptr %1, i32 %54
  %56 = load i8, ptr %55, align 1, !tbaa !5, !alias.scope !56, !noalias !53
  %57 = zext i8 %56 to i32
  %58 = tail call i32 @fputc(i32 noundef %57, ptr noundef nonnull %0) #18, !noalias !56
  %59 = add nuw i32 %54, 1
  %60 = icmp eq i32 %59, %16
  br i1 %60, label %61, label %53, !llvm.loop !30

61:                                               ; preds = %53, %47
  %62 = icmp sgt i32 %35, 0
  br i1 %62, label %63, label %68

63:                                               ; preds = %63, %61
  %64 = phi i32 [ %66, %63 ], [ 0, %61 ]
  %65 = tail call i32 @fputc(i32 noundef 48, ptr noundef nonnull %0) #18
  %66 = add nuw nsw i32 %64, 1
  %67 = icmp eq i32 %66, %35
  br i1 %67, label %68, label %63, !llvm.loop !52

68:                                               ; preds = %63, %61
  %69 = tail call noundef i32 @llvm.smax.i32(i32 %35, i32 0)
  %70 = load i8, ptr %0, align 4, !tbaa !28, !alias.scope !58, !noalias !61
  %71 = icmp eq i8 %70, 0
  %72 = icmp eq i32 %3, 0
  %73 = or i1 %72, %71
  br i1 %73, label %82, label %74

74:                                               ; preds = %74, %68
  %75 = phi i32 [ %80, %74 ], [ 0, %68 ]
  %76 = getelementptr inbounds i8, ptr %2, i32 %75
  %77 = load i8, ptr %76, align 1, !tbaa !5, !alias.scope !61, !noalias !58
  %78 = zext i8 %77 to i32
  %79 = tail call i32 @fputc(i32 noundef %78, ptr noundef nonnull %0) #18, !noalias !61
  %80 = add nuw i32 %75, 1
  %81 = icmp eq i32 %80, %3
  br i1 %81, label %82, label %74, !llvm.loop !30

82:                                               ; preds = %74, %68
  %83 = add i32 %31, %69
  %84 = add i32 %83, %48
  br i1 %29, label %95, label %85

85:                                               ; preds = %82
  %86 = icmp sgt i32 %37, 0
  br i1 %86, label %87, label %92

87:                                               ; preds = %87, %85
  %88 = phi i32 [ %90, %87 ], [ 0, %85 ]
  %89 = tail call i32 @fputc(i32 noundef 32, ptr noundef nonnull %0) #18
  %90 = add nuw nsw i32 %88, 1
  %91 = icmp eq i32 %90, %37
  br i1 %91, label %92, label %87, !llvm.loop !52

92:                                               ; preds = %87, %85
  %93 = tail call noundef i32 @llvm.smax.i32(i32 %37, i32 0)
  %94 = add nsw i32 %84, %93
  br label %95

95:                                               ; preds = %92, %82
  %96 = phi i32 [ %94, %92 ], [ %84, %82 ]
  ret i32 %96
}

; Function Attrs: nocallback nofree nosync nounwind willreturn memory(argmem: readwrite)
declare void @llvm.lifetime.end.p0(i64 immarg, ptr nocapture) #6

; Function Attrs: nocallback nofree nosync nounwind speculatable willreturn memory(none)
declare i32 @llvm.smax.i32(i32, i32) #7

; Function Attrs: mustprogress nofree norecurse nosync nounwind optsize willreturn memory(none)
define internal range(i32 0, 2) i32 @isspace(i32 noundef %0) local_unnamed_addr #8 {
  %2 = icmp eq i32 %0, 32
  %3 = add i32 %0, -9
  %4 = icmp ult i32 %3, 5
  %5 = or i1 %2, %4
  %6 = zext i1 %5 to i32
  ret i32 %6
}

; Function Attrs: nofree norecurse nosync nounwind optsize memory(readwrite, inaccessiblemem: none)
define internal i32 @strtol(ptr noalias noundef %0, ptr noalias noundef %1, i32 noundef %2) local_unnamed_addr #9 {
  %4 = alloca %struct.number, align 8
  call void @llvm.lifetime.start.p0(i64 16, ptr nonnull %4) #15
  %5 = call fastcc ptr @scan(ptr noundef nonnull %4, ptr noundef %0, ptr noundef %1, i32 noundef %2, i64 noundef 2147483647, i64 noundef 2147483648) #18
  %6 = getelementptr inbounds i8, ptr %4, i32 8
  %7 = load i32, ptr %6, align 8, !tbaa !63
  %8 = icmp eq i32 %7, 0
  %9 = load i64, ptr %4, align 8
  %10 = sub i64 0, %9
  %11 = select i1 %8, i64 %9, i64 %10
  %12 = trunc i64 %11 to i32
  call void @llvm.lifetime.end.p0(i64 16, ptr nonnull %4) #15
  ret i32 %12
}

; Function Attrs: nofree norecurse nosync nounwind optsize memory(read, inaccessiblemem: none)
define internal i32 @strcasecmp(ptr nocapture noundef readonly %0, ptr nocapture noundef readonly %1) local_unnamed_addr #10 {
  %3 = tail call i32 @strncasecmp(ptr noundef %0, ptr noundef %1, i32 noundef -1) #18
  ret i32 %3
}

; Function Attrs: nofree norecurse nosync nounwind optsize memory(read, inaccessiblemem: none)
define internal range(i32 -1, 2) i32 @strcmp(ptr nocapture noundef readonly %0, ptr nocapture noundef readonly %1) local_unnamed_addr #10 {
  %3 = load i8, ptr %0, align 1, !tbaa !5
  %4 = icmp eq i8 %3, 0
  br i1 %4, label %16, label %5

5:                                                ; preds = %11, %2
  %6 = phi i8 [ %14, %11 ], [ %3, %2 ]
  %7 = phi ptr [ %13, %11 ], [ %1, %2 ]
  %8 = phi ptr [ %12, %11 ], [ %0, %2 ]
  %9 = load i8, ptr %7, align 1, !tbaa !5
  %10 = icmp eq i8 %6, %9
  br i1 %10, label %11, label %16

11:                                               ; preds = %5
  %12 = getelementptr inbounds i8, ptr %8, i32 1
  %13 = getelementptr inbounds i8, ptr %7, i32 1
  %14 = load i8, ptr %12, align 1, !tbaa !5
  %15 = icmp eq i8 %14, 0
  br i1 %15, label %16, label %5, !llvm.loop !66

16:                                               ; preds = %11, %5, %2
  %17 = phi ptr [ %1, %2 ], [ %13, %11 ], [ %7, %5 ]
  %18 = phi i8 [ 0, %2 ], [ 0, %11 ], [ %6, %5 ]
  %19 = load i8, ptr %17, align 1, !tbaa !5
  %20 = icmp ult i8 %18, %19
  %21 = icmp ugt i8 %18, %19
  %22 = zext i1 %21 to i32
  %23 = select i1 %20, i32 -1, i32 %22
  ret i32 %23
}

; Function Attrs: nofree norecurse nosync nounwind optsize memory(read, inaccessiblemem: none)
define internal i32 @strncasecmp(ptr nocapture noundef readonly %0, ptr nocapture noundef readonly %1, i32 noundef %2) local_unnamed_addr #10 {
  %4 = icmp eq i32 %2, 0
  br i1 %4, label %45, label %5

5:                                                ; preds = %28, %3
  %6 = phi ptr [ %30, %28 ], [ %1, %3 ]
  %7 = phi ptr [ %29, %28 ], [ %0, %3 ]
  %8 = phi i32 [ %31, %28 ], [ %2, %3 ]
  %9 = load i8, ptr %7, align 1, !tbaa !5
  %10 = icmp eq i8 %9, 0
  %11 = load i8, ptr %6, align 1, !tbaa !5
  br i1 %10, label %12, label %16

12:                                               ; preds = %5
  %13 = zext i8 %11 to i32
  %14 = add nsw i32 %13, -91
  %15 = add nuw nsw i32 %13, 32
  br label %33

16:                                               ; preds = %5
  %17 = zext i8 %9 to i32
  %18 = add nsw i32 %17, -91
  %19 = icmp ult i32 %18, -26
  %20 = add nuw nsw i32 %17, 32
  %21 = select i1 %19, i32 %17, i32 %20
  %22 = zext i8 %11 to i32
  %23 = add nsw i32 %22, -91
  %24 = icmp ult i32 %23, -26
  %25 = add nuw nsw i32 %22, 32
  %26 = select i1 %24, i32 %22, i32 %25
  %27 = icmp eq i32 %21, %26
  br i1 %27, label %28, label %33

28:                                               ; preds = %16
  %29 = getelementptr inbounds i8, ptr %7, i32 1
  %30 = getelementptr inbounds i8, ptr %6, i32 1
  %31 = add i32 %8, -1
  %32 = icmp eq i32 %31, 0
  br i1 %32, label %45, label %5, !llvm.loop !67

33:                                               ; preds = %16, %12
  %34 = phi i32 [ %15, %12 ], [ %25, %16 ]
  %35 = phi i32 [ %14, %12 ], [ %23, %16 ]
  %36 = phi i32 [ %13, %12 ], [ %22, %16 ]
  %37 = phi i32 [ 0, %12 ], [ %17, %16 ]
  %38 = add nsw i32 %37, -91
  %39 = icmp ult i32 %38, -26
  %40 = add nuw nsw i32 %37, 32
  %41 = select i1 %39, i32 %37, i32 %40
  %42 = icmp ult i32 %35, -26
  %43 = select i1 %42, i32 %36, i32 %34
  %44 = sub nsw i32 %41, %43
  br label %45

45:                                               ; preds = %33, %28, %3
  %46 = phi i32 [ %44, %33 ], [ 0, %3 ], [ 0, %28 ]
  ret i32 %46
}

; Function Attrs: nofree norecurse nosync nounwind optsize memory(readwrite, inaccessiblemem: none)
define internal fastcc noundef ptr @scan(ptr noundef returned writeonly %0, ptr noundef %1, ptr noundef writeonly %2, i32 noundef %3, i64 noundef %4, i64 noundef %5) unnamed_addr #9 {
  store i64 0, ptr %0, align 8, !tbaa !68
  %7 = getelementptr inbounds i8, ptr %0, i32 8
  store i32 0, ptr %7, align 8, !tbaa !63
  %8 = getelementptr inbounds i8, ptr %0, i32 12
  store i32 0, ptr %8, align 4, !tbaa !69
  %9 = icmp eq i32 %3, 1
  %10 = icmp ugt i32 %3, 36
  %11 = or i1 %10, %9
  br i1 %11, label %12, label %13

12:                                               ; preds = %6
  store i32 22, ptr @errno, align 4, !tbaa !21
  br label %132

13:                                               ; preds = %6
  %14 = icmp eq ptr %2, null
  br i1 %14, label %16, label %15

15:                                               ; preds = %13
  store ptr %1, ptr %2, align 4, !tbaa !14
  br label %16

16:                                               ; preds = %15, %13
  br label %17

17:                                               ; preds = %17, %16
  %18 = phi ptr [ %25, %17 ], [ %1, %16 ]
  %19 = load i8, ptr %18, align 1, !tbaa !5
  %20 = zext i8 %19 to i32
  %21 = icmp ne i8 %19, 32
  %22 = add nsw i32 %20, -14
  %23 = icmp ult i32 %22, -5
  %24 = and i1 %21, %23
  %25 = getelementptr inbounds i8, ptr %18, i32 1
  br i1 %24, label %26, label %17, !llvm.loop !70

26:                                               ; preds = %17
  switch i8 %19, label %31 [
    i8 45, label %27
    i8 43, label %27
  ]

27:                                               ; preds = %26, %26
  %28 = icmp eq i8 %19, 45
  %29 = zext i1 %28 to i32
  store i32 %29, ptr %7, align 8, !tbaa !63
  %30 = select i1 %28, i64 %5, i64 %4
  br label %31

31:                                               ; preds = %27, %26
  %32 = phi i64 [ %30, %27 ], [ %4, %26 ]
  %33 = phi ptr [ %25, %27 ], [ %18, %26 ]
  %34 = icmp ne i32 %3, 0
  switch i32 %3, label %66 [
    i32 16, label %35
    i32 0, label %35
  ]

35:                                               ; preds = %31, %31
  %36 = load i8, ptr %33, align 1, !tbaa !5
  %37 = icmp eq i8 %36, 48
  br i1 %37, label %38, label %63

38:                                               ; preds = %35
  %39 = getelementptr inbounds i8, ptr %33, i32 1
  %40 = load i8, ptr %39, align 1, !tbaa !5
  switch i8 %40, label %63 [
    i8 120, label %41
    i8 88, label %41
  ]

41:                                               ; preds = %38, %38
  %42 = getelementptr inbounds i8, ptr %33, i32 2
  %43 = load i8, ptr %42, align 1, !tbaa !5
  %44 = zext i8 %43 to i32
  %45 = add nsw i32 %44, -58
  %46 = icmp ult i32 %45, -10
  br i1 %46, label %47, label %66

47:                                               ; preds = %41
  %48 = and i32 %44, 223
  %49 = add nsw i32 %48, -91
  %50 = icmp ult i32 %49, -26
  br i1 %50, label %51, label %52

51:                                               ; preds = %47
  br i1 %34, label %66, label %64

52:                                               ; preds = %47
  %53 = add nsw i32 %44, -91
  %54 = icmp ult i32 %53, -26
  %55 = add nuw nsw i32 %44, 32
  %56 = select i1 %54, i32 %44, i32 %55
  %57 = freeze i32 %56
  %58 = add i32 %57, -87
  %59 = icmp ult i32 %58, 16
  %60 = or i1 %34, %59
  %61 = select i1 %59, ptr %42, ptr %33
  %62 = select i1 %59, i32 16, i32 %3
  br i1 %60, label %66, label %64

63:                                               ; preds = %38, %35
  br i1 %34, label %66, label %64

64:                                               ; preds = %63, %52, %51
  %65 = select i1 %37, i32 8, i32 10
  br label %66

66:                                               ; preds = %64, %63, %52, %51, %41, %31
  %67 = phi ptr [ %33, %64 ], [ %33, %63 ], [ %33, %31 ], [ %42, %41 ], [ %33, %51 ], [ %61, %52 ]
  %68 = phi i32 [ %65, %64 ], [ %3, %63 ], [ %3, %31 ], [ 16, %41 ], [ %3, %51 ], [ %62, %52 ]
  %69 = load i8, ptr %67, align 1, !tbaa !5
  %70 = zext i8 %69 to i32
  %71 = add nsw i32 %70, -48
  %72 = icmp ugt i32 %71, 9
  br i1 %72, label %73, label %83

73:                                               ; preds = %66
  %74 = and i32 %70, 223
  %75 = add nsw i32 %74, -91
  %76 = icmp ult i32 %75, -26
  br i1 %76, label %83, label %77

77:                                               ; preds = %73
  %78 = add nsw i32 %70, -91
  %79 = icmp ult i32 %78, -26
  %80 = add nuw nsw i32 %70, 32
  %81 = select i1 %79, i32 %70, i32 %80
  %82 = add nsw i32 %81, -87
  br label %83

83:                                               ; preds = %77, %73, %66
  %84 = phi i32 [ %82, %77 ], [ 255, %73 ], [ %71, %66 ]
  %85 = icmp ult i32 %84, %68
  br i1 %85, label %86, label %132

86:                                               ; preds = %83
  %87 = zext nneg i32 %68 to i64
  br label %88

88:                                               ; preds = %123, %86
  %89 = phi i64 [ %124, %123 ], [ 0, %86 ]
  %90 = phi i32 [ %125, %123 ], [ 0, %86 ]
  %91 = phi i8 [ %127, %123 ], [ %69, %86 ]
  %92 = phi ptr [ %126, %123 ], [ %67, %86 ]
  %93 = zext i8 %91 to i32
  %94 = add nsw i32 %93, -48
  %95 = icmp ugt i32 %94, 9
  br i1 %95, label %96, label %106

96:                                               ; preds = %88
  %97 = and i32 %93, 223
  %98 = add nsw i32 %97, -91
  %99 = icmp ult i32 %98, -26
  br i1 %99, label %106, label %100

100:                                              ; preds = %96
  %101 = add nsw i32 %93, -91
  %102 = icmp ult i32 %101, -26
  %103 = add nuw nsw i32 %93, 32
  %104 = select i1 %102, i32 %93, i32 %103
  %105 = add nsw i32 %104, -87
  br label %106

106:                                              ; preds = %100, %96, %88
  %107 = phi i32 [ %105, %100 ], [ 255, %96 ], [ %94, %88 ]
  %108 = icmp ult i32 %107, %68
  br i1 %108, label %110, label %109

109:                                              ; preds = %106
  br i1 %14, label %129, label %128

110:                                              ; preds = %106
  %111 = icmp eq i32 %90, 0
  br i1 %111, label %112, label %119

112:                                              ; preds = %110
  %113 = zext nneg i32 %107 to i64
  %114 = sub i64 %32, %113
  %115 = udiv i64 %114, %87
  %116 = icmp ugt i64 %89, %115
  %117 = icmp ult i64 %32, %113
  %118 = or i1 %116, %117
  br i1 %118, label %119, label %120

119:                                              ; preds = %112, %110
  store i32 1, ptr %8, align 4, !tbaa !69
  br label %123

120:                                              ; preds = %112
  %121 = mul i64 %89, %87
  %122 = add i64 %121, %113
  store i64 %122, ptr %0, align 8, !tbaa !68
  br label %123

123:                                              ; preds = %120, %119
  %124 = phi i64 [ %89, %119 ], [ %122, %120 ]
  %125 = phi i32 [ 1, %119 ], [ 0, %120 ]
  %126 = getelementptr inbounds i8, ptr %92, i32 1
  %127 = load i8, ptr %126, align 1, !tbaa !5
  br label %88, !llvm.loop !71

128:                                              ; preds = %109
  store ptr %92, ptr %2, align 4, !tbaa !14
  br label %129

129:                                              ; preds = %128, %109
  %130 = icmp eq i32 %90, 0
  br i1 %130, label %132, label %131

131:                                              ; preds = %129
  store i32 34, ptr @errno, align 4, !tbaa !21
  store i64 %32, ptr %0, align 8, !tbaa !68
  br label %132

132:                                              ; preds = %131, %129, %83, %12
  ret ptr %0
}

; Function Attrs: noinline nounwind optsize
define internal ptr @__sized_malloc(i32 noundef %0) local_unnamed_addr #1 {
  %2 = icmp ult i32 %0, -16
  br i1 %2, label %3, label %9

3:                                                ; preds = %1
  %4 = add nuw i32 %0, 16
  %5 = tail call ptr @malloc(i32 noundef %4) #17
  %6 = icmp eq ptr %5, null
  br i1 %6, label %9, label %7

7:                                                ; preds = %3
  %8 = getelementptr inbounds i8, ptr %5, i32 16
  store i32 %0, ptr %5, align 4, !tbaa !21
  br label %9

9:                                                ; preds = %7, %3, %1
  %10 = phi ptr [ %8, %7 ], [ null, %3 ], [ null, %1 ]
  ret ptr %10
}

; Function Attrs: nounwind optsize
define internal fastcc void @sink(ptr noundef %0, i32 noundef %1, i32 noundef %2, i32 noundef %3, ptr nocapture noundef readonly %4) unnamed_addr #2 {
  %6 = shl i32 %1, 1
  %7 = or disjoint i32 %6, 1
  %8 = icmp ult i32 %7, %2
  br i1 %8, label %9, label %48

9:                                                ; preds = %5
  %10 = icmp eq i32 %3, 0
  br label %11

11:                                               ; preds = %44, %9
  %12 = phi i32 [ %7, %9 ], [ %46, %44 ]
  %13 = phi i32 [ %6, %9 ], [ %45, %44 ]
  %14 = phi i32 [ %1, %9 ], [ %26, %44 ]
  %15 = add nuw i32 %13, 2
  %16 = icmp ult i32 %15, %2
  br i1 %16, label %17, label %25

17:                                               ; preds = %11
  %18 = mul i32 %12, %3
  %19 = getelementptr inbounds i8, ptr %0, i32 %18
  %20 = mul i32 %15, %3
  %21 = getelementptr inbounds i8, ptr %0, i32 %20
  %22 = tail call i32 %4(ptr noundef %19, ptr noundef %21) #17
  %23 = icmp slt i32 %22, 0
  %24 = select i1 %23, i32 %15, i32 %12
  br label %25

25:                                               ; preds = %17, %11
  %26 = phi i32 [ %12, %11 ], [ %24, %17 ]
  %27 = mul i32 %14, %3
  %28 = getelementptr inbounds i8, ptr %0, i32 %27
  %29 = mul i32 %26, %3
  %30 = getelementptr inbounds i8, ptr %0, i32 %29
  %31 = tail call i32 %4(ptr noundef %28, ptr noundef %30) #17
  %32 = icmp sgt i32 %31, -1
  br i1 %32, label %48, label %33

33:                                               ; preds = %25
  br i1 %10, label %44, label %34

34:                                               ; preds = %34, %33
  %35 = phi ptr [ %41, %34 ], [ %28, %33 ]
  %36 = phi i32 [ %38, %34 ], [ %3, %33 ]
  %37 = phi ptr [ %42, %34 ], [ %30, %33 ]
  %38 = add i32 %36, -1
  %39 = load i8, ptr %35, align 1, !tbaa !5
  %40 = load i8, ptr %37, align 1, !tbaa !5
  %41 = getelementptr inbounds i8, ptr %35, i32 1
  store i8 %40, ptr %35, align 1, !tbaa !5
  %42 = getelementptr inbounds i8, ptr %37, i32 1
  store i8 %39, ptr %37, align 1, !tbaa !5
  %43 = icmp eq i32 %38, 0
  br i1 %43, label %44, label %34, !llvm.loop !32

44:                                               ; preds = %34, %33
  %45 = shl i32 %26, 1
  %46 = or disjoint i32 %45, 1
  %47 = icmp ult i32 %46, %2
  br i1 %47, label %11, label %48, !llvm.loop !72

48:                                               ; preds = %44, %25, %5
  ret void
}

; Function Attrs: nounwind optsize
define internal fastcc void @merge_sort(ptr noundef %0, i32 noundef %1, i32 noundef %2, ptr noundef %3, ptr noundef %4) unnamed_addr #2 {
  %6 = icmp ult i32 %1, 2
  br i1 %6, label %85, label %7

7:                                                ; preds = %5
  %8 = lshr i32 %1, 1
  tail call fastcc void @merge_sort(ptr noundef %0, i32 noundef %8, i32 noundef %2, ptr noundef %3, ptr noundef %4) #18
  %9 = mul i32 %8, %2
  %10 = getelementptr inbounds i8, ptr %0, i32 %9
  %11 = sub i32 %1, %8
  tail call fastcc void @merge_sort(ptr noundef %10, i32 noundef %11, i32 noundef %2, ptr noundef %3, ptr noundef %4) #18
  %12 = icmp eq i32 %9, 0
  br i1 %12, label %22, label %13

13:                                               ; preds = %13, %7
  %14 = phi ptr [ %18, %13 ], [ %0, %7 ]
  %15 = phi ptr [ %20, %13 ], [ %4, %7 ]
  %16 = phi i32 [ %17, %13 ], [ %9, %7 ]
  %17 = add i32 %16, -1
  %18 = getelementptr inbounds i8, ptr %14, i32 1
  %19 = load i8, ptr %14, align 1, !tbaa !5, !alias.scope !73, !noalias !76
  %20 = getelementptr inbounds i8, ptr %15, i32 1
  store i8 %19, ptr %15, align 1, !tbaa !5, !alias.scope !76, !noalias !73
  %21 = icmp eq i32 %17, 0
  br i1 %21, label %22, label %13, !llvm.loop !27

22:                                               ; preds = %13, %7
  %23 = icmp eq i32 %11, 0
  br i1 %23, label %71, label %24

24:                                               ; preds = %22
  %25 = icmp eq i32 %2, 0
  br label %26

26:                                               ; preds = %60, %24
  %27 = phi ptr [ %0, %24 ], [ %65, %60 ]
  %28 = phi ptr [ %4, %24 ], [ %64, %60 ]
  %29 = phi i32 [ %11, %24 ], [ %63, %60 ]
  %30 = phi ptr [ %10, %24 ], [ %62, %60 ]
  %31 = phi i32 [ %8, %24 ], [ %61, %60 ]
  %32 = tail call i32 %3(ptr noundef %28, ptr noundef %30) #17
  %33 = icmp slt i32 %32, 1
  br i1 %33, label %34, label %47

34:                                               ; preds = %26
  br i1 %25, label %44, label %35

35:                                               ; preds = %35, %34
  %36 = phi ptr [ %40, %35 ], [ %28, %34 ]
  %37 = phi ptr [ %42, %35 ], [ %27, %34 ]
  %38 = phi i32 [ %39, %35 ], [ %2, %34 ]
  %39 = add i32 %38, -1
  %40 = getelementptr inbounds i8, ptr %36, i32 1
  %41 = load i8, ptr %36, align 1, !tbaa !5, !alias.scope !78, !noalias !81
  %42 = getelementptr inbounds i8, ptr %37, i32 1
  store i8 %41, ptr %37, align 1, !tbaa !5, !alias.scope !81, !noalias !78
  %43 = icmp eq i32 %39, 0
  br i1 %43, label %44, label %35, !llvm.loop !27

44:                                               ; preds = %35, %34
  %45 = getelementptr inbounds i8, ptr %28, i32 %2
  %46 = add nsw i32 %31, -1
  br label %60

47:                                               ; preds = %26
  br i1 %25, label %57, label %48

48:                                               ; preds = %48, %47
  %49 = phi ptr [ %53, %48 ], [ %30, %47 ]
  %50 = phi ptr [ %55, %48 ], [ %27, %47 ]
  %51 = phi i32 [ %52, %48 ], [ %2, %47 ]
  %52 = add i32 %51, -1
  %53 = getelementptr inbounds i8, ptr %49, i32 1
  %54 = load i8, ptr %49, align 1, !tbaa !5, !alias.scope !83, !noalias !86
  %55 = getelementptr inbounds i8, ptr %50, i32 1
  store i8 %54, ptr %50, align 1, !tbaa !5, !alias.scope !86, !noalias !83
  %56 = icmp eq i32 %52, 0
  br i1 %56, label %57, label %48, !llvm.loop !27

57:                                               ; preds = %48, %47
  %58 = getelementptr inbounds i8, ptr %30, i32 %2
  %59 = add i32 %29, -1
  br label %60

60:                                               ; preds = %57, %44
  %61 = phi i32 [ %46, %44 ], [ %31, %57 ]
  %62 = phi ptr [ %30, %44 ], [ %58, %57 ]
  %63 = phi i32 [ %29, %44 ], [ %59, %57 ]
  %64 = phi ptr [ %45, %44 ], [ %28, %57 ]
  %65 = getelementptr inbounds i8, ptr %27, i32 %2
  %66 = icmp ne i32 %61, 0
  %67 = icmp ne i32 %63, 0
  %68 = select i1 %66, i1 %67, i1 false
  br i1 %68, label %26, label %69, !llvm.loop !88

69:                                               ; preds = %60
  %70 = mul i32 %61, %2
  br label %71

71:                                               ; preds = %69, %22
  %72 = phi i32 [ %70, %69 ], [ %9, %22 ]
  %73 = phi ptr [ %64, %69 ], [ %4, %22 ]
  %74 = phi ptr [ %65, %69 ], [ %0, %22 ]
  %75 = icmp eq i32 %72, 0
  br i1 %75, label %85, label %76

76:                                               ; preds = %76, %71
  %77 = phi ptr [ %81, %76 ], [ %73, %71 ]
  %78 = phi ptr [ %83, %76 ], [ %74, %71 ]
  %79 = phi i32 [ %80, %76 ], [ %72, %71 ]
  %80 = add i32 %79, -1
  %81 = getelementptr inbounds i8, ptr %77, i32 1
  %82 = load i8, ptr %77, align 1, !tbaa !5, !alias.scope !89, !noalias !92
  %83 = getelementptr inbounds i8, ptr %78, i32 1
  store i8 %82, ptr %78, align 1, !tbaa !5, !alias.scope !92, !noalias !89
  %84 = icmp eq i32 %80, 0
  br i1 %84, label %85, label %76, !llvm.loop !27

85:                                               ; preds = %76, %71, %5
  ret void
}

; Function Attrs: mustprogress nofree nounwind willreturn allockind("alloc,uninitialized") allocsize(0) memory(inaccessiblemem: readwrite)
declare dso_local noalias noundef ptr @malloc(i32 noundef) local_unnamed_addr #11

; Function Attrs: nocallback nofree nosync nounwind speculatable willreturn memory(none)
declare i32 @llvm.umin.i32(i32, i32) #7

; Function Attrs: mustprogress nounwind willreturn allockind("free") memory(argmem: readwrite, inaccessiblemem: readwrite)
declare dso_local void @free(ptr allocptr nocapture noundef) local_unnamed_addr #12

; Function Attrs: nounwind optsize
define internal i32 @getc(ptr nocapture noundef %0) local_unnamed_addr #2 {
  %2 = tail call i32 @fgetc(ptr noundef %0) #18
  ret i32 %2
}

; Function Attrs: nounwind optsize
define internal i32 @fgetc(ptr nocapture noundef %0) local_unnamed_addr #2 {
  %2 = load i8, ptr %0, align 4, !tbaa !28
  %3 = icmp eq i8 %2, 0
  br i1 %3, label %4, label %20

4:                                                ; preds = %1
  %5 = getelementptr inbounds i8, ptr %0, i32 2
  %6 = load i8, ptr %5, align 2, !tbaa !94
  %7 = icmp eq i8 %6, 0
  br i1 %7, label %12, label %8

8:                                                ; preds = %4
  store i8 0, ptr %5, align 2, !tbaa !94
  %9 = getelementptr inbounds i8, ptr %0, i32 3
  %10 = load i8, ptr %9, align 1, !tbaa !95
  %11 = zext i8 %10 to i32
  br label %20

12:                                               ; preds = %4
  %13 = getelementptr inbounds i8, ptr %0, i32 1
  %14 = load i8, ptr %13, align 1, !tbaa !96
  %15 = icmp eq i8 %14, 0
  br i1 %15, label %16, label %20

16:                                               ; preds = %12
  %17 = tail call i32 @getchar() #17
  %18 = icmp eq i32 %17, -1
  br i1 %18, label %19, label %20

19:                                               ; preds = %16
  store i8 1, ptr %13, align 1, !tbaa !96
  br label %20

20:                                               ; preds = %19, %16, %12, %8, %1
  %21 = phi i32 [ %11, %8 ], [ -1, %1 ], [ -1, %12 ], [ -1, %19 ], [ %17, %16 ]
  ret i32 %21
}

; Function Attrs: optsize
declare dso_local i32 @getchar() local_unnamed_addr #5

attributes #0 = { nounwind "no-trapping-math"="true" "stack-protector-buffer-size"="8" "target-cpu"="generic" "target-features"="+armv7-a,+dsp,+soft-float,-aes,-bf16,-d32,-dotprod,-fp-armv8,-fp-armv8d16,-fp-armv8d16sp,-fp-armv8sp,-fp16,-fp16fml,-fp64,-fpregs,-fullfp16,-mve,-mve.fp,-neon,-sha2,-thumb-mode,-vfp2,-vfp2sp,-vfp3,-vfp3d16,-vfp3d16sp,-vfp3sp,-vfp4,-vfp4d16,-vfp4d16sp,-vfp4sp" "use-soft-float"="true" }
attributes #1 = { noinline nounwind optsize "no-builtins" "no-jump-tables"="true" "no-trapping-math"="true" "stack-protector-buffer-size"="8" "target-cpu"="generic" "target-features"="+armv7-a,+dsp,+soft-float,-aes,-bf16,-d32,-dotprod,-fp-armv8,-fp-armv8d16,-fp-armv8d16sp,-fp-armv8sp,-fp16,-fp16fml,-fp64,-fpregs,-fullfp16,-mve,-mve.fp,-neon,-sha2,-thumb-mode,-vfp2,-vfp2sp,-vfp3,-vfp3d16,-vfp3d16sp,-vfp3sp,-vfp4,-vfp4d16,-vfp4d16sp,-vfp4sp" "use-soft-float"="true" }
attributes #2 = { nounwind optsize "no-builtins" "no-jump-tables"="true" "no-trapping-math"="true" "stack-protector-buffer-size"="8" "target-cpu"="generic" "target-features"="+armv7-a,+dsp,+soft-float,-aes,-bf16,-d32,-dotprod,-fp-armv8,-fp-armv8d16,-fp-armv8d16sp,-fp-armv8sp,-fp16,-fp16fml,-fp64,-fpregs,-fullfp16,-mve,-mve.fp,-neon,-sha2,-thumb-mode,-vfp2,-vfp2sp,-vfp3,-vfp3d16,-vfp3d16sp,-vfp3sp,-vfp4,-vfp4d16,-vfp4d16sp,-vfp4sp" "use-soft-float"="true" }
attributes #3 = { noreturn "no-trapping-math"="true" "stack-protector-buffer-size"="8" "target-cpu"="generic" "target-features"="+armv7-a,+dsp,+soft-float,-aes,-bf16,-d32,-dotprod,-fp-armv8,-fp-armv8d16,-fp-armv8d16sp,-fp-armv8sp,-fp16,-fp16fml,-fp64,-fpregs,-fullfp16,-mve,-mve.fp,-neon,-sha2,-thumb-mode,-vfp2,-vfp2sp,-vfp3,-vfp3d16,-vfp3d16sp,-vfp3sp,-vfp4,-vfp4d16,-vfp4d16sp,-vfp4sp" "use-soft-float"="true" }
attributes #4 = { nofree nounwind "no-trapping-math"="true" "stack-protector-buffer-size"="8" "target-cpu"="generic" "target-features"="+armv7-a,+dsp,+soft-float,-aes,-bf16,-d32,-dotprod,-fp-armv8,-fp-armv8d16,-fp-armv8d16sp,-fp-armv8sp,-fp16,-fp16fml,-fp64,-fpregs,-fullfp16,-mve,-mve.fp,-neon,-sha2,-thumb-mode,-vfp2,-vfp2sp,-vfp3,-vfp3d16,-vfp3d16sp,-vfp3sp,-vfp4,-vfp4d16,-vfp4d16sp,-vfp4sp" "use-soft-float"="true" }
attributes #5 = { optsize "no-builtins" "no-trapping-math"="true" "stack-protector-buffer-size"="8" "target-cpu"="generic" "target-features"="+armv7-a,+dsp,+soft-float,-aes,-bf16,-d32,-dotprod,-fp-armv8,-fp-armv8d16,-fp-armv8d16sp,-fp-armv8sp,-fp16,-fp16fml,-fp64,-fpregs,-fullfp16,-mve,-mve.fp,-neon,-sha2,-thumb-mode,-vfp2,-vfp2sp,-vfp3,-vfp3d16,-vfp3d16sp,-vfp3sp,-vfp4,-vfp4d16,-vfp4d16sp,-vfp4sp" "use-soft-float"="true" }
attributes #6 = { nocallback nofree nosync nounwind willreturn memory(argmem: readwrite) }
attributes #7 = { nocallback nofree nosync nounwind speculatable willreturn memory(none) }
attributes #8 = { mustprogress nofree norecurse nosync nounwind optsize willreturn memory(none) "no-builtins" "no-jump-tables"="true" "no-trapping-math"="true" "stack-protector-buffer-size"="8" "target-cpu"="generic" "target-features"="+armv7-a,+dsp,+soft-float,-aes,-bf16,-d32,-dotprod,-fp-armv8,-fp-armv8d16,-fp-armv8d16sp,-fp-armv8sp,-fp16,-fp16fml,-fp64,-fpregs,-fullfp16,-mve,-mve.fp,-neon,-sha2,-thumb-mode,-vfp2,-vfp2sp,-vfp3,-vfp3d16,-vfp3d16sp,-vfp3sp,-vfp4,-vfp4d16,-vfp4d16sp,-vfp4sp" "use-soft-float"="true" }
attributes #9 = { nofree norecurse nosync nounwind optsize memory(readwrite, inaccessiblemem: none) "no-builtins" "no-jump-tables"="true" "no-trapping-math"="true" "stack-protector-buffer-size"="8" "target-cpu"="generic" "target-features"="+armv7-a,+dsp,+soft-float,-aes,-bf16,-d32,-dotprod,-fp-armv8,-fp-armv8d16,-fp-armv8d16sp,-fp-armv8sp,-fp16,-fp16fml,-fp64,-fpregs,-fullfp16,-mve,-mve.fp,-neon,-sha2,-thumb-mode,-vfp2,-vfp2sp,-vfp3,-vfp3d16,-vfp3d16sp,-vfp3sp,-vfp4,-vfp4d16,-vfp4d16sp,-vfp4sp" "use-soft-float"="true" }
attributes #10 = { nofree norecurse nosync nounwind optsize memory(read, inaccessiblemem: none) "no-builtins" "no-jump-tables"="true" "no-trapping-math"="true" "stack-protector-buffer-size"="8" "target-cpu"="generic" "target-features"="+armv7-a,+dsp,+soft-float,-aes,-bf16,-d32,-dotprod,-fp-armv8,-fp-armv8d16,-fp-armv8d16sp,-fp-armv8sp,-fp16,-fp16fml,-fp64,-fpregs,-fullfp16,-mve,-mve.fp,-neon,-sha2,-thumb-mode,-vfp2,-vfp2sp,-vfp3,-vfp3d16,-vfp3d16sp,-vfp3sp,-vfp4,-vfp4d16,-vfp4d16sp,-vfp4sp" "use-soft-float"="true" }
attributes #11 = { mustprogress nofree nounwind willreturn allockind("alloc,uninitialized") allocsize(0) memory(inaccessiblemem: readwrite) "alloc-family"="malloc" "no-trapping-math"="true" "stack-protector-buffer-size"="8" "target-cpu"="generic" "target-features"="+armv7-a,+dsp,+soft-float,-aes,-bf16,-d32,-dotprod,-fp-armv8,-fp-armv8d16,-fp-armv8d16sp,-fp-armv8sp,-fp16,-fp16fml,-fp64,-fpregs,-fullfp16,-mve,-mve.fp,-neon,-sha2,-thumb-mode,-vfp2,-vfp2sp,-vfp3,-vfp3d16,-vfp3d16sp,-vfp3sp,-vfp4,-vfp4d16,-vfp4d16sp,-vfp4sp" "use-soft-float"="true" }
attributes #12 = { mustprogress nounwind willreturn allockind("free") memory(argmem: readwrite, inaccessiblemem: readwrite) "alloc-family"="malloc" "no-trapping-math"="true" "stack-protector-buffer-size"="8" "target-cpu"="generic" "target-features"="+armv7-a,+dsp,+soft-float,-aes,-bf16,-d32,-dotprod,-fp-armv8,-fp-armv8d16,-fp-armv8d16sp,-fp-armv8sp,-fp16,-fp16fml,-fp64,-fpregs,-fullfp16,-mve,-mve.fp,-neon,-sha2,-thumb-mode,-vfp2,-vfp2sp,-vfp3,-vfp3d16,-vfp3d16sp,-vfp3sp,-vfp4,-vfp4d16,-vfp4d16sp,-vfp4sp" "use-soft-float"="true" }
attributes #13 = { allocsize(1) }
attributes #14 = { noreturn nounwind }
attributes #15 = { nounwind }
attributes #16 = { allocsize(0) }
attributes #17 = { nobuiltin nounwind optsize "no-builtins" }
attributes #18 = { nobuiltin optsize "no-builtins" }
attributes #19 = { nounwind willreturn memory(read) }

!llvm.ident = !{!0, !0, !0, !0}
!llvm.module.flags = !{!1, !2, !3, !4}

!0 = !{!"Debian clang version 19.1.7 (3~deb12u1)"}
!1 = !{i32 7, !"Dwarf Version", i32 5}
!2 = !{i32 2, !"Debug Info Version", i32 3}
!3 = !{i32 1, !"wchar_size", i32 4}
!4 = !{i32 1, !"min_enum_size", i32 4}
!5 = !{!6, !6, i64 0}
!6 = !{!"omnipotent char", !7, i64 0}
!7 = !{!"Simple C/C++ TBAA"}
!8 = !{!9, !11, i64 4}
!9 = !{!"", !10, i64 0, !10, i64 1, !10, i64 2, !10, i64 3, !11, i64 4}
!10 = !{!"_Bool", !6, i64 0}
!11 = !{!"int", !6, i64 0}
!12 = distinct !{!12, !13}
!13 = !{!"llvm.loop.mustprogress"}
!14 = !{!15, !15, i64 0}
!15 = !{!"any pointer", !6, i64 0}
!16 = distinct !{!16, !13}
!17 = distinct !{!17, !13, !18}
!18 = !{!"llvm.loop.peeled.count", i32 1}
!19 = distinct !{!19, !13}
!20 = distinct !{!20, !13}
!21 = !{!11, !11, i64 0}
!22 = !{!23}
!23 = distinct !{!23, !24, !"memcpy: %from"}
!24 = distinct !{!24, !"memcpy"}
!25 = !{!26}
!26 = distinct !{!26, !24, !"memcpy: %to"}
!27 = distinct !{!27, !13}
!28 = !{!29, !6, i64 0}
!29 = !{!"__stream", !6, i64 0, !6, i64 1, !6, i64 2, !6, i64 3, !15, i64 4, !11, i64 8}
!30 = distinct !{!30, !13}
!31 = distinct !{!31, !13}
!32 = distinct !{!32, !13}
!33 = distinct !{!33, !13}
!34 = distinct !{!34, !13}
!35 = distinct !{!35, !13}
!36 = distinct !{!36, !13}
!37 = distinct !{!37, !13}
!38 = distinct !{!38, !13}
!39 = distinct !{!39, !13}
!40 = distinct !{!40, !13}
!41 = distinct !{!41, !13}
!42 = distinct !{!42, !13}
!43 = distinct !{!43, !13}
!44 = !{!45}
!45 = distinct !{!45, !46, !"fwrite: %stream"}
!46 = distinct !{!46, !"fwrite"}
!47 = !{!48}
!48 = distinct !{!48, !46, !"fwrite: %from"}
!49 = !{!29, !11, i64 8}
!50 = !{!29, !15, i64 4}
!51 = distinct !{!51, !13}
!52 = distinct !{!52, !13}
!53 = !{!54}
!54 = distinct !{!54, !55, !"fwrite: %stream"}
!55 = distinct !{!55, !"fwrite"}
!56 = !{!57}
!57 = distinct !{!57, !55, !"fwrite: %from"}
!58 = !{!59}
!59 = distinct !{!59, !60, !"fwrite: %stream"}
!60 = distinct !{!60, !"fwrite"}
!61 = !{!62}
!62 = distinct !{!62, !60, !"fwrite: %from"}
!63 = !{!64, !11, i64 8}
!64 = !{!"number", !65, i64 0, !11, i64 8, !11, i64 12}
!65 = !{!"long long", !6, i64 0}
!66 = distinct !{!66, !13}
!67 = distinct !{!67, !13}
!68 = !{!64, !65, i64 0}
!69 = !{!64, !11, i64 12}
!70 = distinct !{!70, !13}
!71 = distinct !{!71, !13}
!72 = distinct !{!72, !13}
!73 = !{!74}
!74 = distinct !{!74, !75, !"memcpy: %from"}
!75 = distinct !{!75, !"memcpy"}
!76 = !{!77}
!77 = distinct !{!77, !75, !"memcpy: %to"}
!78 = !{!79}
!79 = distinct !{!79, !80, !"memcpy: %from"}
!80 = distinct !{!80, !"memcpy"}
!81 = !{!82}
!82 = distinct !{!82, !80, !"memcpy: %to"}
!83 = !{!84}
!84 = distinct !{!84, !85, !"memcpy: %from"}
!85 = distinct !{!85, !"memcpy"}
!86 = !{!87}
!87 = distinct !{!87, !85, !"memcpy: %to"}
!88 = distinct !{!88, !13}
!89 = !{!90}
!90 = distinct !{!90, !91, !"memcpy: %from"}
!91 = distinct !{!91, !"memcpy"}
!92 = !{!93}
!93 = distinct !{!93, !91, !"memcpy: %to"}
!94 = !{!29, !6, i64 2}
!95 = !{!29, !6, i64 3}
!96 = !{!29, !6, i64 1}
