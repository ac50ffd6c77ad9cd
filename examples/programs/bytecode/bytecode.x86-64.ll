source_filename = "compile.c"
target datalayout = "e-m:e-p270:32:32-p271:32:32-p272:64:64-i64:64-i128:128-f80:128-n8:16:32:64-S128"
target triple = "x86_64-unknown-linux-gnu"

%struct.anon = type { ptr, i32 }
%struct.program = type { [2000 x i8], i64, [40 x [16 x i8]], i32, ptr, i32 }
%struct.__stream = type { i8, i8, i8, i8, ptr, i64 }
%struct.compiler = type { %struct.lexer, ptr, i32 }
%struct.lexer = type { ptr, i32, i32, i32, [16 x i8], i32 }
%struct.number = type { i64, i32, i32 }

@.str.1 = private unnamed_addr constant [23 x i8] c"a semicolon is missing\00", align 1
@.str.2 = private unnamed_addr constant [38 x i8] c"neither a statement nor an assignment\00", align 1
@.str.3 = private unnamed_addr constant [23 x i8] c"a statement is missing\00", align 1
@.str.4 = private unnamed_addr constant [19 x i8] c"a block is missing\00", align 1
@.str.5 = private unnamed_addr constant [22 x i8] c"a block is not closed\00", align 1
@.str.6 = private unnamed_addr constant [9 x i8] c"too deep\00", align 1
@.str.7 = private unnamed_addr constant [24 x i8] c"a bracket is not closed\00", align 1
@.str.8 = private unnamed_addr constant [25 x i8] c"an expression is missing\00", align 1
@.str.9 = private unnamed_addr constant [15 x i8] c"too many names\00", align 1
@.str.10 = private unnamed_addr constant [14 x i8] c"too much code\00", align 1
@words = internal unnamed_addr constant [4 x %struct.anon] [%struct.anon { ptr @.str.1.12, i32 4 }, %struct.anon { ptr @.str.2.13, i32 5 }, %struct.anon { ptr @.str.3.14, i32 6 }, %struct.anon { ptr @.str.21, i32 7 }], align 16
@.str.1.12 = private unnamed_addr constant [6 x i8] c"while\00", align 1
@.str.2.13 = private unnamed_addr constant [3 x i8] c"if\00", align 1
@.str.3.14 = private unnamed_addr constant [5 x i8] c"else\00", align 1
@main.text = internal global [4000 x i8] zeroinitializer, align 16
@main.line = internal global [200 x i8] zeroinitializer, align 16
@.str.16 = private unnamed_addr constant [4 x i8] c"---\00", align 1
@.str.1.17 = private unnamed_addr constant [25 x i8] c"%d of %d programs ended\0A\00", align 1
@execute.program = internal global %struct.program zeroinitializer, align 8
@execute.variables = internal unnamed_addr global [40 x i32] zeroinitializer, align 16
@.str.2.18 = private unnamed_addr constant [13 x i8] c"line %d: %s\0A\00", align 1
@execute.said = internal unnamed_addr constant [4 x ptr] [ptr @.str.3.21, ptr @.str.4.22, ptr @.str.5.23, ptr @.str.6.24], align 16
@.str.3.21 = private unnamed_addr constant [6 x i8] c"ended\00", align 1
@.str.4.22 = private unnamed_addr constant [21 x i8] c"no room on the stack\00", align 1
@.str.5.23 = private unnamed_addr constant [16 x i8] c"divided by zero\00", align 1
@.str.6.24 = private unnamed_addr constant [9 x i8] c"too long\00", align 1
@.str.7.19 = private unnamed_addr constant [20 x i8] c"%s after %lu steps;\00", align 1
@.str.8.20 = private unnamed_addr constant [7 x i8] c" %s=%d\00", align 1
@.str.27 = private unnamed_addr constant [11 x i8] c"%4zu %-12s\00", align 1
@names = internal unnamed_addr constant [17 x ptr] [ptr @.str.6.30, ptr @.str.7.31, ptr @.str.8.32, ptr @.str.9.33, ptr @.str.10.34, ptr @.str.11.35, ptr @.str.12, ptr @.str.13, ptr @.str.14, ptr @.str.15, ptr @.str.16.36, ptr @.str.17, ptr @.str.18, ptr @.str.19, ptr @.str.20, ptr @.str.21, ptr @.str.22], align 16
@.str.1.28 = private unnamed_addr constant [4 x i8] c" %s\00", align 1
@.str.2.29 = private unnamed_addr constant [4 x i8] c" %d\00", align 1
@.str.3.39 = private unnamed_addr constant [1 x i8] zeroinitializer, align 1
@.str.5.41 = private unnamed_addr constant [2 x i8] c" \00", align 1
@.str.6.30 = private unnamed_addr constant [4 x i8] c"end\00", align 1
@.str.7.31 = private unnamed_addr constant [5 x i8] c"push\00", align 1
@.str.8.32 = private unnamed_addr constant [5 x i8] c"load\00", align 1
@.str.9.33 = private unnamed_addr constant [6 x i8] c"store\00", align 1
@.str.10.34 = private unnamed_addr constant [4 x i8] c"add\00", align 1
@.str.11.35 = private unnamed_addr constant [4 x i8] c"sub\00", align 1
@.str.12 = private unnamed_addr constant [4 x i8] c"mul\00", align 1
@.str.13 = private unnamed_addr constant [4 x i8] c"div\00", align 1
@.str.14 = private unnamed_addr constant [4 x i8] c"mod\00", align 1
@.str.15 = private unnamed_addr constant [5 x i8] c"less\00", align 1
@.str.16.36 = private unnamed_addr constant [6 x i8] c"equal\00", align 1
@.str.17 = private unnamed_addr constant [4 x i8] c"not\00", align 1
@.str.18 = private unnamed_addr constant [7 x i8] c"negate\00", align 1
@.str.19 = private unnamed_addr constant [5 x i8] c"jump\00", align 1
@.str.20 = private unnamed_addr constant [12 x i8] c"jump-if-not\00", align 1
@.str.21 = private unnamed_addr constant [6 x i8] c"print\00", align 1
@.str.22 = private unnamed_addr constant [5 x i8] c"line\00", align 1
@.str = private unnamed_addr constant [1 x i8] zeroinitializer, align 1
@.str.1.13 = private unnamed_addr constant [7 x i8] c"(null)\00", align 1
@.str.2.20 = private unnamed_addr constant [2 x i8] c"-\00", align 1
@.str.3.22 = private unnamed_addr constant [2 x i8] c"+\00", align 1
@.str.4.19 = private unnamed_addr constant [2 x i8] c" \00", align 1
@.str.5.27 = private unnamed_addr constant [3 x i8] c"0X\00", align 1
@.str.6.26 = private unnamed_addr constant [3 x i8] c"0x\00", align 1
@__streams = internal global [3 x %struct.__stream] [%struct.__stream zeroinitializer, %struct.__stream { i8 1, i8 0, i8 0, i8 0, ptr null, i64 0 }, %struct.__stream { i8 2, i8 0, i8 0, i8 0, ptr null, i64 0 }], align 16
@errno = internal local_unnamed_addr global i32 0, align 4
@.str.8.25 = private unnamed_addr constant [17 x i8] c"0123456789ABCDEF\00", align 1
@.str.9.18 = private unnamed_addr constant [17 x i8] c"0123456789abcdef\00", align 1

; Function Attrs: nounwind uwtable
define dso_local i32 @main() local_unnamed_addr #0 {
  %1 = alloca [64 x i32], align 16
  %2 = alloca %struct.compiler, align 8
  %3 = tail call ptr @fgets(ptr noundef nonnull @main.line, i32 noundef 200, ptr noundef nonnull @__streams)
  %4 = icmp eq ptr %3, null
  br i1 %4, label %309, label %5

5:                                                ; preds = %0
  %6 = getelementptr inbounds i8, ptr %2, i64 8
  %7 = getelementptr inbounds i8, ptr %2, i64 12
  %8 = getelementptr inbounds i8, ptr %2, i64 40
  %9 = getelementptr inbounds i8, ptr %2, i64 48
  br label %10

10:                                               ; preds = %293, %5
  %11 = phi i32 [ 0, %5 ], [ %18, %293 ]
  %12 = phi i32 [ 0, %5 ], [ %295, %293 ]
  br label %13

13:                                               ; preds = %302, %10
  %14 = phi i64 [ 0, %10 ], [ %306, %302 ]
  %15 = call i32 @bcmp(ptr noundef nonnull dereferenceable(3) @main.line, ptr noundef nonnull dereferenceable(3) @.str.16, i64 3)
  %16 = icmp eq i32 %15, 0
  br i1 %16, label %17, label %298

17:                                               ; preds = %13
  %18 = add nuw nsw i32 %11, 1
  %19 = icmp eq i32 %11, 0
  call void @llvm.lifetime.start.p0(i64 56, ptr nonnull %2) #12
  store ptr @main.text, ptr %2, align 8, !tbaa !5
  store i32 1, ptr %6, align 8, !tbaa !11
  call void @llvm.memset.p0.i64(ptr noundef nonnull align 4 dereferenceable(28) %7, i8 0, i64 28, i1 false)
  store ptr @execute.program, ptr %8, align 8, !tbaa !12
  store i32 0, ptr %9, align 8, !tbaa !14
  call void @llvm.memset.p0.i64(ptr noundef nonnull align 8 dereferenceable(2672) @execute.program, i8 0, i64 2672, i1 false)
  call fastcc void @lexer_next(ptr noundef nonnull %2)
  %20 = load i32, ptr %7, align 4, !tbaa !15
  %21 = icmp eq i32 %20, 0
  br i1 %21, label %25, label %22

22:                                               ; preds = %22, %17
  call fastcc void @statement(ptr noundef nonnull %2)
  %23 = load i32, ptr %7, align 4, !tbaa !15
  %24 = icmp eq i32 %23, 0
  br i1 %24, label %25, label %22, !llvm.loop !16

25:                                               ; preds = %22, %17
  %26 = load ptr, ptr %8, align 8, !tbaa !12
  %27 = getelementptr inbounds i8, ptr %26, i64 2000
  %28 = load i64, ptr %27, align 8, !tbaa !19
  %29 = icmp eq i64 %28, 2000
  br i1 %29, label %30, label %38

30:                                               ; preds = %25
  %31 = getelementptr inbounds i8, ptr %26, i64 2656
  %32 = load ptr, ptr %31, align 8, !tbaa !22
  %33 = icmp eq ptr %32, null
  br i1 %33, label %34, label %37

34:                                               ; preds = %30
  store ptr @.str.10, ptr %31, align 8, !tbaa !22
  %35 = load i32, ptr %6, align 8, !tbaa !23
  %36 = getelementptr inbounds i8, ptr %26, i64 2664
  store i32 %35, ptr %36, align 8, !tbaa !24
  br label %37

37:                                               ; preds = %34, %30
  store i32 0, ptr %7, align 4, !tbaa !15
  br label %41

38:                                               ; preds = %25
  %39 = add i64 %28, 1
  store i64 %39, ptr %27, align 8, !tbaa !19
  %40 = getelementptr inbounds [2000 x i8], ptr %26, i64 0, i64 %28
  store i8 0, ptr %40, align 1, !tbaa !25
  br label %41

41:                                               ; preds = %38, %37
  %42 = load ptr, ptr getelementptr inbounds (i8, ptr @execute.program, i64 2656), align 8, !tbaa !22
  %43 = icmp eq ptr %42, null
  call void @llvm.lifetime.end.p0(i64 56, ptr nonnull %2) #12
  br i1 %43, label %52, label %44

44:                                               ; preds = %41
  %45 = load i32, ptr getelementptr inbounds (i8, ptr @execute.program, i64 2664), align 8, !tbaa !24
  %46 = call i32 @__print_text(ptr nonnull getelementptr inbounds (i8, ptr @__streams, i64 24), ptr nonnull @.str.2.18, i64 5) #12
  %47 = sext i32 %45 to i64
  %48 = call i32 @__print_signed(ptr nonnull getelementptr inbounds (i8, ptr @__streams, i64 24), i64 %47, i32 0, i32 0, i32 -1) #12
  %49 = call i32 @__print_text(ptr nonnull getelementptr inbounds (i8, ptr @__streams, i64 24), ptr nonnull getelementptr inbounds (i8, ptr @.str.2.18, i64 7), i64 2) #12
  %50 = call i32 @__print_string(ptr nonnull getelementptr inbounds (i8, ptr @__streams, i64 24), ptr nonnull %42, i32 0, i32 0, i32 -1) #12
  %51 = call i32 @__print_text(ptr nonnull getelementptr inbounds (i8, ptr @__streams, i64 24), ptr nonnull getelementptr inbounds (i8, ptr @.str.2.18, i64 11), i64 1) #12
  br label %293

52:                                               ; preds = %41
  %53 = load i64, ptr getelementptr inbounds (i8, ptr @execute.program, i64 2000), align 8
  %54 = icmp ne i64 %53, 0
  %55 = select i1 %19, i1 %54, i1 false
  br i1 %55, label %56, label %103

56:                                               ; preds = %97, %52
  %57 = phi i64 [ %100, %97 ], [ 0, %52 ]
  %58 = getelementptr inbounds [2000 x i8], ptr @execute.program, i64 0, i64 %57
  %59 = load i8, ptr %58, align 1, !tbaa !25
  switch i8 %59, label %62 [
    i8 1, label %63
    i8 2, label %60
    i8 3, label %60
    i8 13, label %61
    i8 14, label %61
  ]

60:                                               ; preds = %56, %56
  br label %63

61:                                               ; preds = %56, %56
  br label %63

62:                                               ; preds = %56
  br label %63

63:                                               ; preds = %62, %61, %60, %56
  %64 = phi i1 [ true, %62 ], [ false, %61 ], [ false, %60 ], [ false, %56 ]
  %65 = phi i64 [ 0, %62 ], [ 2, %61 ], [ 1, %60 ], [ 4, %56 ]
  %66 = getelementptr inbounds i8, ptr @execute.program, i64 %57
  br i1 %64, label %77, label %67

67:                                               ; preds = %67, %63
  %68 = phi i64 [ %70, %67 ], [ %65, %63 ]
  %69 = phi i32 [ %75, %67 ], [ 0, %63 ]
  %70 = add i64 %68, -1
  %71 = shl i32 %69, 8
  %72 = getelementptr i8, ptr %66, i64 %68
  %73 = load i8, ptr %72, align 1, !tbaa !25
  %74 = zext i8 %73 to i32
  %75 = or disjoint i32 %71, %74
  %76 = icmp eq i64 %70, 0
  br i1 %76, label %77, label %67, !llvm.loop !26

77:                                               ; preds = %67, %63
  %78 = phi i32 [ 0, %63 ], [ %75, %67 ]
  %79 = zext i8 %59 to i64
  %80 = getelementptr inbounds [17 x ptr], ptr @names, i64 0, i64 %79
  %81 = load ptr, ptr %80, align 8, !tbaa !27
  %82 = call i32 @__print_unsigned(ptr nonnull getelementptr inbounds (i8, ptr @__streams, i64 24), i64 %57, i32 10, i32 0, i32 4, i32 -1) #12
  %83 = call i32 @__print_text(ptr nonnull getelementptr inbounds (i8, ptr @__streams, i64 24), ptr nonnull getelementptr inbounds (i8, ptr @.str.27, i64 4), i64 1) #12
  %84 = call i32 @__print_string(ptr nonnull getelementptr inbounds (i8, ptr @__streams, i64 24), ptr %81, i32 1, i32 12, i32 -1) #12
  %85 = and i8 %59, -2
  %86 = icmp eq i8 %85, 2
  br i1 %86, label %87, label %92

87:                                               ; preds = %77
  %88 = zext i32 %78 to i64
  %89 = getelementptr inbounds [40 x [16 x i8]], ptr getelementptr inbounds (i8, ptr @execute.program, i64 2008), i64 0, i64 %88
  %90 = call i32 @__print_text(ptr nonnull getelementptr inbounds (i8, ptr @__streams, i64 24), ptr nonnull @.str.1.28, i64 1) #12
  %91 = call i32 @__print_string(ptr nonnull getelementptr inbounds (i8, ptr @__streams, i64 24), ptr nonnull %89, i32 0, i32 0, i32 -1) #12
  br label %97

92:                                               ; preds = %77
  br i1 %64, label %97, label %93

93:                                               ; preds = %92
  %94 = call i32 @__print_text(ptr nonnull getelementptr inbounds (i8, ptr @__streams, i64 24), ptr nonnull @.str.2.29, i64 1) #12
  %95 = sext i32 %78 to i64
  %96 = call i32 @__print_signed(ptr nonnull getelementptr inbounds (i8, ptr @__streams, i64 24), i64 %95, i32 0, i32 0, i32 -1) #12
  br label %97

97:                                               ; preds = %93, %92, %87
  %98 = call i32 @putchar(i32 noundef 10)
  %99 = add i64 %57, 1
  %100 = add i64 %99, %65
  %101 = load i64, ptr getelementptr inbounds (i8, ptr @execute.program, i64 2000), align 8, !tbaa !19
  %102 = icmp ult i64 %100, %101
  br i1 %102, label %56, label %103, !llvm.loop !28

103:                                              ; preds = %97, %52
  call void @llvm.memset.p0.i64(ptr noundef nonnull align 16 dereferenceable(160) @execute.variables, i8 0, i64 160, i1 false)
  call void @llvm.lifetime.start.p0(i64 256, ptr nonnull %1) #12
  br label %104

104:                                              ; preds = %258, %103
  %105 = phi i64 [ 0, %103 ], [ %264, %258 ]
  %106 = phi i64 [ 0, %103 ], [ %259, %258 ]
  %107 = phi ptr [ @.str.3.39, %103 ], [ %260, %258 ]
  %108 = phi i32 [ 0, %103 ], [ %261, %258 ]
  %109 = phi i32 [ undef, %103 ], [ %262, %258 ]
  %110 = getelementptr inbounds [2000 x i8], ptr @execute.program, i64 0, i64 %106
  %111 = load i8, ptr %110, align 1, !tbaa !25
  switch i8 %111, label %114 [
    i8 1, label %115
    i8 2, label %112
    i8 3, label %112
    i8 13, label %113
    i8 14, label %113
  ]

112:                                              ; preds = %104, %104
  br label %115

113:                                              ; preds = %104, %104
  br label %115

114:                                              ; preds = %104
  br label %115

115:                                              ; preds = %114, %113, %112, %104
  %116 = phi i1 [ true, %114 ], [ false, %113 ], [ false, %112 ], [ false, %104 ]
  %117 = phi i64 [ 0, %114 ], [ 2, %113 ], [ 1, %112 ], [ 4, %104 ]
  %118 = getelementptr inbounds i8, ptr @execute.program, i64 %106
  br i1 %116, label %129, label %119

119:                                              ; preds = %119, %115
  %120 = phi i64 [ %122, %119 ], [ %117, %115 ]
  %121 = phi i32 [ %127, %119 ], [ 0, %115 ]
  %122 = add i64 %120, -1
  %123 = shl i32 %121, 8
  %124 = getelementptr i8, ptr %118, i64 %120
  %125 = load i8, ptr %124, align 1, !tbaa !25
  %126 = zext i8 %125 to i32
  %127 = or disjoint i32 %123, %126
  %128 = icmp eq i64 %122, 0
  br i1 %128, label %129, label %119, !llvm.loop !29

129:                                              ; preds = %119, %115
  %130 = phi i32 [ 0, %115 ], [ %127, %119 ]
  %131 = add i64 %106, 1
  %132 = add i64 %131, %117
  %133 = icmp eq i64 %105, 60000
  br i1 %133, label %258, label %134

134:                                              ; preds = %129
  %135 = add nsw i32 %108, 1
  %136 = icmp sgt i32 %108, 62
  br i1 %136, label %258, label %137

137:                                              ; preds = %134
  switch i8 %111, label %257 [
    i8 0, label %258
    i8 17, label %258
    i8 1, label %138
    i8 2, label %141
    i8 3, label %147
    i8 4, label %154
    i8 5, label %164
    i8 6, label %174
    i8 7, label %184
    i8 8, label %184
    i8 9, label %202
    i8 10, label %213
    i8 11, label %224
    i8 12, label %231
    i8 13, label %237
    i8 14, label %239
    i8 15, label %247
    i8 16, label %255
  ]

138:                                              ; preds = %137
  %139 = sext i32 %108 to i64
  %140 = getelementptr inbounds [64 x i32], ptr %1, i64 0, i64 %139
  store i32 %130, ptr %140, align 4, !tbaa !30
  br label %258

141:                                              ; preds = %137
  %142 = zext i32 %130 to i64
  %143 = getelementptr inbounds i32, ptr @execute.variables, i64 %142
  %144 = load i32, ptr %143, align 4, !tbaa !30
  %145 = sext i32 %108 to i64
  %146 = getelementptr inbounds [64 x i32], ptr %1, i64 0, i64 %145
  store i32 %144, ptr %146, align 4, !tbaa !30
  br label %258

147:                                              ; preds = %137
  %148 = add nsw i32 %108, -1
  %149 = sext i32 %148 to i64
  %150 = getelementptr inbounds [64 x i32], ptr %1, i64 0, i64 %149
  %151 = load i32, ptr %150, align 4, !tbaa !30
  %152 = zext i32 %130 to i64
  %153 = getelementptr inbounds i32, ptr @execute.variables, i64 %152
  store i32 %151, ptr %153, align 4, !tbaa !30
  br label %258

154:                                              ; preds = %137
  %155 = add nsw i32 %108, -1
  %156 = add nsw i32 %108, -2
  %157 = sext i32 %156 to i64
  %158 = getelementptr inbounds [64 x i32], ptr %1, i64 0, i64 %157
  %159 = load i32, ptr %158, align 4, !tbaa !30
  %160 = sext i32 %155 to i64
  %161 = getelementptr inbounds [64 x i32], ptr %1, i64 0, i64 %160
  %162 = load i32, ptr %161, align 4, !tbaa !30
  %163 = add i32 %162, %159
  store i32 %163, ptr %158, align 4, !tbaa !30
  br label %258

164:                                              ; preds = %137
  %165 = add nsw i32 %108, -1
  %166 = add nsw i32 %108, -2
  %167 = sext i32 %166 to i64
  %168 = getelementptr inbounds [64 x i32], ptr %1, i64 0, i64 %167
  %169 = load i32, ptr %168, align 4, !tbaa !30
  %170 = sext i32 %165 to i64
  %171 = getelementptr inbounds [64 x i32], ptr %1, i64 0, i64 %170
  %172 = load i32, ptr %171, align 4, !tbaa !30
  %173 = sub i32 %169, %172
  store i32 %173, ptr %168, align 4, !tbaa !30
  br label %258

174:                                              ; preds = %137
  %175 = add nsw i32 %108, -1
  %176 = add nsw i32 %108, -2
  %177 = sext i32 %176 to i64
  %178 = getelementptr inbounds [64 x i32], ptr %1, i64 0, i64 %177
  %179 = load i32, ptr %178, align 4, !tbaa !30
  %180 = sext i32 %175 to i64
  %181 = getelementptr inbounds [64 x i32], ptr %1, i64 0, i64 %180
  %182 = load i32, ptr %181, align 4, !tbaa !30
  %183 = mul i32 %182, %179
  store i32 %183, ptr %178, align 4, !tbaa !30
  br label %258

184:                                              ; preds = %137, %137
  %185 = add nsw i32 %108, -1
  %186 = sext i32 %185 to i64
  %187 = getelementptr inbounds [64 x i32], ptr %1, i64 0, i64 %186
  %188 = load i32, ptr %187, align 4, !tbaa !30
  %189 = icmp eq i32 %188, 0
  br i1 %189, label %258, label %190

190:                                              ; preds = %184
  %191 = icmp eq i8 %111, 7
  %192 = add nsw i32 %108, -2
  %193 = sext i32 %192 to i64
  %194 = getelementptr inbounds [64 x i32], ptr %1, i64 0, i64 %193
  %195 = load i32, ptr %194, align 4, !tbaa !30
  %196 = sext i32 %195 to i64
  %197 = sext i32 %188 to i64
  %198 = sdiv i64 %196, %197
  %199 = srem i64 %196, %197
  %200 = select i1 %191, i64 %198, i64 %199
  %201 = trunc i64 %200 to i32
  store i32 %201, ptr %194, align 4, !tbaa !30
  br label %258

202:                                              ; preds = %137
  %203 = add nsw i32 %108, -1
  %204 = add nsw i32 %108, -2
  %205 = sext i32 %204 to i64
  %206 = getelementptr inbounds [64 x i32], ptr %1, i64 0, i64 %205
  %207 = load i32, ptr %206, align 4, !tbaa !30
  %208 = sext i32 %203 to i64
  %209 = getelementptr inbounds [64 x i32], ptr %1, i64 0, i64 %208
  %210 = load i32, ptr %209, align 4, !tbaa !30
  %211 = icmp slt i32 %207, %210
  %212 = zext i1 %211 to i32
  store i32 %212, ptr %206, align 4, !tbaa !30
  br label %258

213:                                              ; preds = %137
  %214 = add nsw i32 %108, -1
  %215 = add nsw i32 %108, -2
  %216 = sext i32 %215 to i64
  %217 = getelementptr inbounds [64 x i32], ptr %1, i64 0, i64 %216
  %218 = load i32, ptr %217, align 4, !tbaa !30
  %219 = sext i32 %214 to i64
  %220 = getelementptr inbounds [64 x i32], ptr %1, i64 0, i64 %219
  %221 = load i32, ptr %220, align 4, !tbaa !30
  %222 = icmp eq i32 %218, %221
  %223 = zext i1 %222 to i32
  store i32 %223, ptr %217, align 4, !tbaa !30
  br label %258

224:                                              ; preds = %137
  %225 = add nsw i32 %108, -1
  %226 = sext i32 %225 to i64
  %227 = getelementptr inbounds [64 x i32], ptr %1, i64 0, i64 %226
  %228 = load i32, ptr %227, align 4, !tbaa !30
  %229 = icmp eq i32 %228, 0
  %230 = zext i1 %229 to i32
  store i32 %230, ptr %227, align 4, !tbaa !30
  br label %258

231:                                              ; preds = %137
  %232 = add nsw i32 %108, -1
  %233 = sext i32 %232 to i64
  %234 = getelementptr inbounds [64 x i32], ptr %1, i64 0, i64 %233
  %235 = load i32, ptr %234, align 4, !tbaa !30
  %236 = sub i32 0, %235
  store i32 %236, ptr %234, align 4, !tbaa !30
  br label %258

237:                                              ; preds = %137
  %238 = zext i32 %130 to i64
  br label %258

239:                                              ; preds = %137
  %240 = add nsw i32 %108, -1
  %241 = sext i32 %240 to i64
  %242 = getelementptr inbounds [64 x i32], ptr %1, i64 0, i64 %241
  %243 = load i32, ptr %242, align 4, !tbaa !30
  %244 = icmp eq i32 %243, 0
  %245 = zext i32 %130 to i64
  %246 = select i1 %244, i64 %245, i64 %132
  br label %258

247:                                              ; preds = %137
  %248 = add nsw i32 %108, -1
  %249 = sext i32 %248 to i64
  %250 = getelementptr inbounds [64 x i32], ptr %1, i64 0, i64 %249
  %251 = load i32, ptr %250, align 4, !tbaa !30
  %252 = call i32 @__print_string(ptr nonnull getelementptr inbounds (i8, ptr @__streams, i64 24), ptr %107, i32 0, i32 0, i32 -1) #12
  %253 = sext i32 %251 to i64
  %254 = call i32 @__print_signed(ptr nonnull getelementptr inbounds (i8, ptr @__streams, i64 24), i64 %253, i32 0, i32 0, i32 -1) #12
  br label %258

255:                                              ; preds = %137
  %256 = call i32 @putchar(i32 noundef 10)
  br label %258

257:                                              ; preds = %137
  br label %258

258:                                              ; preds = %257, %255, %247, %239, %237, %231, %224, %213, %202, %190, %184, %174, %164, %154, %147, %141, %138, %137, %137, %134, %129
  %259 = phi i64 [ %132, %129 ], [ %132, %134 ], [ %132, %137 ], [ %132, %137 ], [ %132, %184 ], [ %132, %255 ], [ %132, %247 ], [ %238, %237 ], [ %132, %231 ], [ %132, %224 ], [ %132, %213 ], [ %132, %202 ], [ %132, %190 ], [ %132, %174 ], [ %132, %164 ], [ %132, %154 ], [ %132, %147 ], [ %132, %141 ], [ %132, %138 ], [ %246, %239 ], [ %132, %257 ]
  %260 = phi ptr [ %107, %129 ], [ %107, %134 ], [ %107, %137 ], [ %107, %137 ], [ %107, %184 ], [ @.str.3.39, %255 ], [ @.str.5.41, %247 ], [ %107, %237 ], [ %107, %231 ], [ %107, %224 ], [ %107, %213 ], [ %107, %202 ], [ %107, %190 ], [ %107, %174 ], [ %107, %164 ], [ %107, %154 ], [ %107, %147 ], [ %107, %141 ], [ %107, %138 ], [ %107, %239 ], [ %107, %257 ]
  %261 = phi i32 [ %108, %129 ], [ %108, %134 ], [ %108, %137 ], [ %108, %137 ], [ %185, %184 ], [ %108, %255 ], [ %248, %247 ], [ %108, %237 ], [ %108, %231 ], [ %108, %224 ], [ %214, %213 ], [ %203, %202 ], [ %185, %190 ], [ %175, %174 ], [ %165, %164 ], [ %155, %154 ], [ %148, %147 ], [ %135, %141 ], [ %135, %138 ], [ %240, %239 ], [ %108, %257 ]
  %262 = phi i32 [ 3, %129 ], [ 1, %134 ], [ 0, %137 ], [ 0, %137 ], [ 2, %184 ], [ %109, %255 ], [ %109, %247 ], [ %109, %237 ], [ %109, %231 ], [ %109, %224 ], [ %109, %213 ], [ %109, %202 ], [ %109, %190 ], [ %109, %174 ], [ %109, %164 ], [ %109, %154 ], [ %109, %147 ], [ %109, %141 ], [ %109, %138 ], [ %109, %239 ], [ %109, %257 ]
  %263 = phi i1 [ false, %129 ], [ false, %134 ], [ false, %137 ], [ false, %137 ], [ false, %184 ], [ true, %255 ], [ true, %247 ], [ true, %237 ], [ true, %231 ], [ true, %224 ], [ true, %213 ], [ true, %202 ], [ true, %190 ], [ true, %174 ], [ true, %164 ], [ true, %154 ], [ true, %147 ], [ true, %141 ], [ true, %138 ], [ true, %239 ], [ true, %257 ]
  %264 = add i64 %105, 1
  br i1 %263, label %104, label %265, !llvm.loop !31

265:                                              ; preds = %258
  call void @llvm.lifetime.end.p0(i64 256, ptr nonnull %1) #12
  %266 = zext i32 %262 to i64
  %267 = getelementptr inbounds [4 x ptr], ptr @execute.said, i64 0, i64 %266
  %268 = load ptr, ptr %267, align 8, !tbaa !27
  %269 = call i32 @__print_string(ptr nonnull getelementptr inbounds (i8, ptr @__streams, i64 24), ptr %268, i32 0, i32 0, i32 -1) #12
  %270 = call i32 @__print_text(ptr nonnull getelementptr inbounds (i8, ptr @__streams, i64 24), ptr nonnull getelementptr inbounds (i8, ptr @.str.7.19, i64 2), i64 7) #12
  %271 = call i32 @__print_unsigned(ptr nonnull getelementptr inbounds (i8, ptr @__streams, i64 24), i64 %105, i32 10, i32 0, i32 0, i32 -1) #12
  %272 = call i32 @__print_text(ptr nonnull getelementptr inbounds (i8, ptr @__streams, i64 24), ptr nonnull getelementptr inbounds (i8, ptr @.str.7.19, i64 12), i64 7) #12
  %273 = load i32, ptr getelementptr inbounds (i8, ptr @execute.program, i64 2648), align 8, !tbaa !32
  %274 = icmp sgt i32 %273, 0
  br i1 %274, label %279, label %275

275:                                              ; preds = %279, %265
  %276 = call i32 @putchar(i32 noundef 10)
  %277 = icmp eq i32 %262, 0
  %278 = zext i1 %277 to i32
  br label %293

279:                                              ; preds = %279, %265
  %280 = phi i64 [ %289, %279 ], [ 0, %265 ]
  %281 = getelementptr inbounds [40 x [16 x i8]], ptr getelementptr inbounds (i8, ptr @execute.program, i64 2008), i64 0, i64 %280
  %282 = getelementptr inbounds [40 x i32], ptr @execute.variables, i64 0, i64 %280
  %283 = load i32, ptr %282, align 4, !tbaa !30
  %284 = call i32 @__print_text(ptr nonnull getelementptr inbounds (i8, ptr @__streams, i64 24), ptr nonnull @.str.8.20, i64 1) #12
  %285 = call i32 @__print_string(ptr nonnull getelementptr inbounds (i8, ptr @__streams, i64 24), ptr nonnull %281, i32 0, i32 0, i32 -1) #12
  %286 = call i32 @__print_text(ptr nonnull getelementptr inbounds (i8, ptr @__streams, i64 24), ptr nonnull getelementptr inbounds (i8, ptr @.str.8.20, i64 3), i64 1) #12
  %287 = sext i32 %283 to i64
  %288 = call i32 @__print_signed(ptr nonnull getelementptr inbounds (i8, ptr @__streams, i64 24), i64 %287, i32 0, i32 0, i32 -1) #12
  %289 = add nuw nsw i64 %280, 1
  %290 = load i32, ptr getelementptr inbounds (i8, ptr @execute.program, i64 2648), align 8, !tbaa !32
  %291 = sext i32 %290 to i64
  %292 = icmp slt i64 %289, %291
  br i1 %292, label %279, label %275, !llvm.loop !33

293:                                              ; preds = %275, %44
  %294 = phi i32 [ %278, %275 ], [ 0, %44 ]
  %295 = add nuw nsw i32 %294, %12
  store i8 0, ptr @main.text, align 16, !tbaa !25
  %296 = call ptr @fgets(ptr noundef nonnull @main.line, i32 noundef 200, ptr noundef nonnull @__streams)
  %297 = icmp eq ptr %296, null
  br i1 %297, label %309, label %10, !llvm.loop !34

298:                                              ; preds = %13
  %299 = call i64 @strlen(ptr noundef nonnull dereferenceable(1) @main.line) #12
  %300 = add i64 %299, %14
  %301 = icmp ugt i64 %300, 3999
  br i1 %301, label %318, label %302

302:                                              ; preds = %298
  %303 = getelementptr inbounds i8, ptr @main.text, i64 %14
  %304 = call ptr @strcpy(ptr noundef nonnull dereferenceable(1) %303, ptr noundef nonnull dereferenceable(1) @main.line) #12
  %305 = call i64 @strlen(ptr noundef nonnull dereferenceable(1) @main.line) #12
  %306 = add i64 %305, %14
  %307 = call ptr @fgets(ptr noundef nonnull @main.line, i32 noundef 200, ptr noundef nonnull @__streams)
  %308 = icmp eq ptr %307, null
  br i1 %308, label %309, label %13, !llvm.loop !34

309:                                              ; preds = %302, %293, %0
  %310 = phi i32 [ 0, %0 ], [ %12, %302 ], [ %295, %293 ]
  %311 = phi i32 [ 0, %0 ], [ %11, %302 ], [ %18, %293 ]
  %312 = sext i32 %310 to i64
  %313 = call i32 @__print_signed(ptr nonnull getelementptr inbounds (i8, ptr @__streams, i64 24), i64 %312, i32 0, i32 0, i32 -1) #12
  %314 = call i32 @__print_text(ptr nonnull getelementptr inbounds (i8, ptr @__streams, i64 24), ptr nonnull getelementptr inbounds (i8, ptr @.str.1.17, i64 2), i64 4) #12
  %315 = sext i32 %311 to i64
  %316 = call i32 @__print_signed(ptr nonnull getelementptr inbounds (i8, ptr @__streams, i64 24), i64 %315, i32 0, i32 0, i32 -1) #12
  %317 = call i32 @__print_text(ptr nonnull getelementptr inbounds (i8, ptr @__streams, i64 24), ptr nonnull getelementptr inbounds (i8, ptr @.str.1.17, i64 8), i64 16) #12
  br label %318

318:                                              ; preds = %309, %298
  %319 = phi i32 [ %310, %309 ], [ 1, %298 ]
  ret i32 %319
}

; Function Attrs: nounwind optsize uwtable
define internal noundef ptr @fgets(ptr noalias noundef writeonly %0, i32 noundef %1, ptr noalias nocapture noundef %2) local_unnamed_addr #1 {
  %4 = icmp slt i32 %1, 1
  br i1 %4, label %23, label %5

5:                                                ; preds = %3
  %6 = icmp eq i32 %1, 1
  br i1 %6, label %21, label %7

7:                                                ; preds = %12, %5
  %8 = phi i32 [ %13, %12 ], [ %1, %5 ]
  %9 = phi ptr [ %15, %12 ], [ %0, %5 ]
  %10 = tail call i32 @fgetc(ptr noundef %2) #13
  %11 = icmp eq i32 %10, -1
  br i1 %11, label %19, label %12

12:                                               ; preds = %7
  %13 = add nsw i32 %8, -1
  %14 = trunc i32 %10 to i8
  %15 = getelementptr inbounds i8, ptr %9, i64 1
  store i8 %14, ptr %9, align 1, !tbaa !25
  %16 = icmp sgt i32 %8, 2
  %17 = icmp ne i32 %10, 10
  %18 = and i1 %16, %17
  br i1 %18, label %7, label %21, !llvm.loop !35

19:                                               ; preds = %7
  %20 = icmp eq ptr %9, %0
  br i1 %20, label %23, label %21

21:                                               ; preds = %19, %12, %5
  %22 = phi ptr [ %9, %19 ], [ %0, %5 ], [ %15, %12 ]
  store i8 0, ptr %22, align 1, !tbaa !25
  br label %23

23:                                               ; preds = %21, %19, %3
  %24 = phi ptr [ %0, %21 ], [ null, %3 ], [ null, %19 ]
  ret ptr %24
}

; Function Attrs: nofree norecurse nosync nounwind optsize memory(read, inaccessiblemem: none) uwtable
define internal range(i32 -1, 2) i32 @bcmp(ptr nocapture noundef readonly %0, ptr nocapture noundef readonly %1, i64 noundef %2) local_unnamed_addr #2 {
  %4 = icmp eq i64 %2, 0
  br i1 %4, label %20, label %5

5:                                                ; preds = %15, %3
  %6 = phi ptr [ %18, %15 ], [ %1, %3 ]
  %7 = phi ptr [ %17, %15 ], [ %0, %3 ]
  %8 = phi i64 [ %16, %15 ], [ %2, %3 ]
  %9 = load i8, ptr %7, align 1, !tbaa !25
  %10 = load i8, ptr %6, align 1, !tbaa !25
  %11 = icmp eq i8 %9, %10
  br i1 %11, label %15, label %12

12:                                               ; preds = %5
  %13 = icmp ult i8 %9, %10
  %14 = select i1 %13, i32 -1, i32 1
  br label %20

15:                                               ; preds = %5
  %16 = add i64 %8, -1
  %17 = getelementptr inbounds i8, ptr %7, i64 1
  %18 = getelementptr inbounds i8, ptr %6, i64 1
  %19 = icmp eq i64 %16, 0
  br i1 %19, label %20, label %5, !llvm.loop !36

20:                                               ; preds = %15, %12, %3
  %21 = phi i32 [ %14, %12 ], [ 0, %3 ], [ 0, %15 ]
  ret i32 %21
}

; Function Attrs: nocallback nofree nosync nounwind willreturn memory(argmem: readwrite)
declare void @llvm.lifetime.start.p0(i64 immarg, ptr nocapture) #3

; Function Attrs: nocallback nofree nounwind willreturn memory(argmem: write)
declare void @llvm.memset.p0.i64(ptr nocapture writeonly, i8, i64, i1 immarg) #4

; Function Attrs: nofree nounwind uwtable
define internal fastcc void @lexer_next(ptr nocapture noundef %0) unnamed_addr #5 {
  %2 = alloca ptr, align 8
  %3 = load ptr, ptr %0, align 8, !tbaa !5
  %4 = getelementptr inbounds i8, ptr %0, i64 8
  br label %6

5:                                                ; preds = %30, %30
  br label %6

6:                                                ; preds = %5, %1
  %7 = phi ptr [ %3, %1 ], [ %31, %5 ]
  %8 = load i8, ptr %7, align 1, !tbaa !25
  %9 = zext i8 %8 to i32
  %10 = tail call i32 @isspace(i32 noundef %9) #14
  %11 = icmp eq i32 %10, 0
  br i1 %11, label %26, label %12

12:                                               ; preds = %6
  %13 = load i32, ptr %4, align 8, !tbaa !11
  br label %14

14:                                               ; preds = %14, %12
  %15 = phi i32 [ %13, %12 ], [ %21, %14 ]
  %16 = phi ptr [ %7, %12 ], [ %17, %14 ]
  %17 = getelementptr inbounds i8, ptr %16, i64 1
  store ptr %17, ptr %0, align 8, !tbaa !5
  %18 = load i8, ptr %16, align 1, !tbaa !25
  %19 = icmp eq i8 %18, 10
  %20 = zext i1 %19 to i32
  %21 = add nsw i32 %15, %20
  store i32 %21, ptr %4, align 8, !tbaa !11
  %22 = load i8, ptr %17, align 1, !tbaa !25
  %23 = zext i8 %22 to i32
  %24 = tail call i32 @isspace(i32 noundef %23) #14
  %25 = icmp eq i32 %24, 0
  br i1 %25, label %26, label %14, !llvm.loop !37

26:                                               ; preds = %14, %6
  %27 = phi ptr [ %7, %6 ], [ %17, %14 ]
  %28 = phi i8 [ %8, %6 ], [ %22, %14 ]
  %29 = icmp eq i8 %28, 35
  br i1 %29, label %30, label %35

30:                                               ; preds = %33, %26
  %31 = phi ptr [ %34, %33 ], [ %27, %26 ]
  %32 = load i8, ptr %31, align 1, !tbaa !25
  switch i8 %32, label %33 [
    i8 0, label %5
    i8 10, label %5
  ], !llvm.loop !38

33:                                               ; preds = %30
  %34 = getelementptr inbounds i8, ptr %31, i64 1
  store ptr %34, ptr %0, align 8, !tbaa !5
  br label %30, !llvm.loop !39

35:                                               ; preds = %26
  %36 = load ptr, ptr %0, align 8, !tbaa !5
  %37 = load i8, ptr %36, align 1, !tbaa !25
  %38 = icmp eq i8 %37, 0
  br i1 %38, label %39, label %41

39:                                               ; preds = %35
  %40 = getelementptr inbounds i8, ptr %0, i64 12
  store i32 0, ptr %40, align 4, !tbaa !40
  br label %111

41:                                               ; preds = %35
  %42 = zext i8 %37 to i32
  %43 = add nsw i32 %42, -48
  %44 = icmp ult i32 %43, 10
  br i1 %44, label %45, label %51

45:                                               ; preds = %41
  call void @llvm.lifetime.start.p0(i64 8, ptr nonnull %2) #12
  %46 = getelementptr inbounds i8, ptr %0, i64 12
  store i32 1, ptr %46, align 4, !tbaa !40
  %47 = call i64 @strtoul(ptr noundef nonnull %36, ptr noundef nonnull %2, i32 noundef 10)
  %48 = trunc i64 %47 to i32
  %49 = getelementptr inbounds i8, ptr %0, i64 16
  store i32 %48, ptr %49, align 8, !tbaa !41
  %50 = load ptr, ptr %2, align 8, !tbaa !27
  store ptr %50, ptr %0, align 8, !tbaa !5
  call void @llvm.lifetime.end.p0(i64 8, ptr nonnull %2) #12
  br label %111

51:                                               ; preds = %41
  %52 = tail call i32 @isalpha(i32 noundef %42) #14
  %53 = icmp eq i32 %52, 0
  %54 = getelementptr inbounds i8, ptr %0, i64 12
  br i1 %53, label %94, label %55

55:                                               ; preds = %51
  store i32 2, ptr %54, align 4, !tbaa !40
  %56 = load ptr, ptr %0, align 8, !tbaa !5
  %57 = load i8, ptr %56, align 1, !tbaa !25
  %58 = zext i8 %57 to i32
  %59 = tail call i32 @isalnum(i32 noundef %58) #14
  %60 = icmp eq i32 %59, 0
  br i1 %60, label %78, label %61

61:                                               ; preds = %55
  %62 = getelementptr inbounds i8, ptr %0, i64 20
  br label %63

63:                                               ; preds = %70, %61
  %64 = phi i8 [ %57, %61 ], [ %74, %70 ]
  %65 = phi i64 [ 0, %61 ], [ %71, %70 ]
  %66 = add i64 %65, 1
  %67 = icmp ult i64 %66, 16
  br i1 %67, label %68, label %70

68:                                               ; preds = %63
  %69 = getelementptr inbounds [16 x i8], ptr %62, i64 0, i64 %65
  store i8 %64, ptr %69, align 1, !tbaa !25
  br label %70

70:                                               ; preds = %68, %63
  %71 = phi i64 [ %66, %68 ], [ %65, %63 ]
  %72 = load ptr, ptr %0, align 8, !tbaa !5
  %73 = getelementptr inbounds i8, ptr %72, i64 1
  store ptr %73, ptr %0, align 8, !tbaa !5
  %74 = load i8, ptr %73, align 1, !tbaa !25
  %75 = zext i8 %74 to i32
  %76 = tail call i32 @isalnum(i32 noundef %75) #14
  %77 = icmp eq i32 %76, 0
  br i1 %77, label %78, label %63, !llvm.loop !42

78:                                               ; preds = %70, %55
  %79 = phi i64 [ 0, %55 ], [ %71, %70 ]
  %80 = getelementptr inbounds i8, ptr %0, i64 20
  %81 = getelementptr inbounds [16 x i8], ptr %80, i64 0, i64 %79
  store i8 0, ptr %81, align 1, !tbaa !25
  br label %82

82:                                               ; preds = %91, %78
  %83 = phi i64 [ 0, %78 ], [ %92, %91 ]
  %84 = getelementptr inbounds [4 x %struct.anon], ptr @words, i64 0, i64 %83
  %85 = load ptr, ptr %84, align 16, !tbaa !43
  %86 = tail call i32 @strcmp(ptr noundef nonnull dereferenceable(1) %80, ptr noundef nonnull dereferenceable(1) %85) #12
  %87 = icmp eq i32 %86, 0
  br i1 %87, label %88, label %91

88:                                               ; preds = %82
  %89 = getelementptr inbounds i8, ptr %84, i64 8
  %90 = load i32, ptr %89, align 8, !tbaa !45
  store i32 %90, ptr %54, align 4, !tbaa !40
  br label %91

91:                                               ; preds = %88, %82
  %92 = add nuw nsw i64 %83, 1
  %93 = icmp eq i64 %92, 4
  br i1 %93, label %111, label %82, !llvm.loop !46

94:                                               ; preds = %51
  store i32 3, ptr %54, align 4, !tbaa !40
  %95 = getelementptr inbounds i8, ptr %36, i64 1
  store ptr %95, ptr %0, align 8, !tbaa !5
  %96 = load i8, ptr %36, align 1, !tbaa !25
  %97 = zext i8 %96 to i32
  %98 = getelementptr inbounds i8, ptr %0, i64 36
  store i32 %97, ptr %98, align 4, !tbaa !47
  %99 = load i8, ptr %95, align 1, !tbaa !25
  %100 = icmp eq i8 %99, 61
  br i1 %100, label %101, label %111

101:                                              ; preds = %94
  %102 = zext nneg i8 %96 to i64
  %103 = icmp ugt i8 %96, 63
  %104 = shl nuw i64 1, %102
  %105 = and i64 %104, 8070450540837863425
  %106 = icmp eq i64 %105, 0
  %107 = select i1 %103, i1 true, i1 %106
  br i1 %107, label %111, label %108

108:                                              ; preds = %101
  %109 = or disjoint i32 %97, 256
  store i32 %109, ptr %98, align 4, !tbaa !47
  %110 = getelementptr inbounds i8, ptr %36, i64 2
  store ptr %110, ptr %0, align 8, !tbaa !5
  br label %111

111:                                              ; preds = %108, %101, %94, %91, %45, %39
  ret void
}

; Function Attrs: nofree nounwind uwtable
define internal fastcc void @statement(ptr noundef %0) unnamed_addr #5 {
  %2 = getelementptr inbounds i8, ptr %0, i64 12
  %3 = load i32, ptr %2, align 4, !tbaa !15
  switch i32 %3, label %464 [
    i32 4, label %8
    i32 5, label %149
    i32 7, label %4
    i32 2, label %346
  ]

4:                                                ; preds = %1
  %5 = getelementptr inbounds i8, ptr %0, i64 36
  %6 = getelementptr inbounds i8, ptr %0, i64 40
  %7 = getelementptr inbounds i8, ptr %0, i64 8
  br label %292

8:                                                ; preds = %1
  tail call fastcc void @lexer_next(ptr noundef %0)
  %9 = getelementptr inbounds i8, ptr %0, i64 40
  %10 = load ptr, ptr %9, align 8, !tbaa !12
  %11 = getelementptr inbounds i8, ptr %10, i64 2000
  %12 = load i64, ptr %11, align 8, !tbaa !19
  tail call fastcc void @expression(ptr noundef %0)
  %13 = load ptr, ptr %9, align 8, !tbaa !12
  %14 = getelementptr inbounds i8, ptr %13, i64 2000
  %15 = load i64, ptr %14, align 8, !tbaa !19
  %16 = icmp eq i64 %15, 2000
  br i1 %16, label %17, label %26

17:                                               ; preds = %8
  %18 = getelementptr inbounds i8, ptr %13, i64 2656
  %19 = load ptr, ptr %18, align 8, !tbaa !22
  %20 = icmp eq ptr %19, null
  br i1 %20, label %21, label %25

21:                                               ; preds = %17
  store ptr @.str.10, ptr %18, align 8, !tbaa !22
  %22 = getelementptr inbounds i8, ptr %0, i64 8
  %23 = load i32, ptr %22, align 8, !tbaa !23
  %24 = getelementptr inbounds i8, ptr %13, i64 2664
  store i32 %23, ptr %24, align 8, !tbaa !24
  br label %25

25:                                               ; preds = %21, %17
  store i32 0, ptr %2, align 4, !tbaa !15
  br label %29

26:                                               ; preds = %8
  %27 = add i64 %15, 1
  store i64 %27, ptr %14, align 8, !tbaa !19
  %28 = getelementptr inbounds [2000 x i8], ptr %13, i64 0, i64 %15
  store i8 14, ptr %28, align 1, !tbaa !25
  br label %29

29:                                               ; preds = %26, %25
  %30 = load ptr, ptr %9, align 8, !tbaa !12
  %31 = getelementptr inbounds i8, ptr %30, i64 2000
  %32 = load i64, ptr %31, align 8, !tbaa !19
  %33 = icmp eq i64 %32, 2000
  br i1 %33, label %34, label %43

34:                                               ; preds = %29
  %35 = getelementptr inbounds i8, ptr %30, i64 2656
  %36 = load ptr, ptr %35, align 8, !tbaa !22
  %37 = icmp eq ptr %36, null
  br i1 %37, label %38, label %42

38:                                               ; preds = %34
  store ptr @.str.10, ptr %35, align 8, !tbaa !22
  %39 = getelementptr inbounds i8, ptr %0, i64 8
  %40 = load i32, ptr %39, align 8, !tbaa !23
  %41 = getelementptr inbounds i8, ptr %30, i64 2664
  store i32 %40, ptr %41, align 8, !tbaa !24
  br label %42

42:                                               ; preds = %38, %34
  store i32 0, ptr %2, align 4, !tbaa !15
  br label %46

43:                                               ; preds = %29
  %44 = add i64 %32, 1
  store i64 %44, ptr %31, align 8, !tbaa !19
  %45 = getelementptr inbounds [2000 x i8], ptr %30, i64 0, i64 %32
  store i8 0, ptr %45, align 1, !tbaa !25
  br label %46

46:                                               ; preds = %43, %42
  %47 = load ptr, ptr %9, align 8, !tbaa !12
  %48 = getelementptr inbounds i8, ptr %47, i64 2000
  %49 = load i64, ptr %48, align 8, !tbaa !19
  %50 = icmp eq i64 %49, 2000
  br i1 %50, label %51, label %60

51:                                               ; preds = %46
  %52 = getelementptr inbounds i8, ptr %47, i64 2656
  %53 = load ptr, ptr %52, align 8, !tbaa !22
  %54 = icmp eq ptr %53, null
  br i1 %54, label %55, label %59

55:                                               ; preds = %51
  store ptr @.str.10, ptr %52, align 8, !tbaa !22
  %56 = getelementptr inbounds i8, ptr %0, i64 8
  %57 = load i32, ptr %56, align 8, !tbaa !23
  %58 = getelementptr inbounds i8, ptr %47, i64 2664
  store i32 %57, ptr %58, align 8, !tbaa !24
  br label %59

59:                                               ; preds = %55, %51
  store i32 0, ptr %2, align 4, !tbaa !15
  br label %63

60:                                               ; preds = %46
  %61 = add i64 %49, 1
  store i64 %61, ptr %48, align 8, !tbaa !19
  %62 = getelementptr inbounds [2000 x i8], ptr %47, i64 0, i64 %49
  store i8 0, ptr %62, align 1, !tbaa !25
  br label %63

63:                                               ; preds = %60, %59
  %64 = load ptr, ptr %9, align 8, !tbaa !12
  %65 = getelementptr inbounds i8, ptr %64, i64 2000
  %66 = load i64, ptr %65, align 8, !tbaa !19
  tail call fastcc void @block(ptr noundef %0)
  %67 = load ptr, ptr %9, align 8, !tbaa !12
  %68 = getelementptr inbounds i8, ptr %67, i64 2000
  %69 = load i64, ptr %68, align 8, !tbaa !19
  %70 = icmp eq i64 %69, 2000
  br i1 %70, label %71, label %80

71:                                               ; preds = %63
  %72 = getelementptr inbounds i8, ptr %67, i64 2656
  %73 = load ptr, ptr %72, align 8, !tbaa !22
  %74 = icmp eq ptr %73, null
  br i1 %74, label %75, label %79

75:                                               ; preds = %71
  store ptr @.str.10, ptr %72, align 8, !tbaa !22
  %76 = getelementptr inbounds i8, ptr %0, i64 8
  %77 = load i32, ptr %76, align 8, !tbaa !23
  %78 = getelementptr inbounds i8, ptr %67, i64 2664
  store i32 %77, ptr %78, align 8, !tbaa !24
  br label %79

79:                                               ; preds = %75, %71
  store i32 0, ptr %2, align 4, !tbaa !15
  br label %83

80:                                               ; preds = %63
  %81 = add i64 %69, 1
  store i64 %81, ptr %68, align 8, !tbaa !19
  %82 = getelementptr inbounds [2000 x i8], ptr %67, i64 0, i64 %69
  store i8 13, ptr %82, align 1, !tbaa !25
  br label %83

83:                                               ; preds = %80, %79
  %84 = load ptr, ptr %9, align 8, !tbaa !12
  %85 = getelementptr inbounds i8, ptr %84, i64 2000
  %86 = load i64, ptr %85, align 8, !tbaa !19
  %87 = icmp eq i64 %86, 2000
  br i1 %87, label %88, label %97

88:                                               ; preds = %83
  %89 = getelementptr inbounds i8, ptr %84, i64 2656
  %90 = load ptr, ptr %89, align 8, !tbaa !22
  %91 = icmp eq ptr %90, null
  br i1 %91, label %92, label %96

92:                                               ; preds = %88
  store ptr @.str.10, ptr %89, align 8, !tbaa !22
  %93 = getelementptr inbounds i8, ptr %0, i64 8
  %94 = load i32, ptr %93, align 8, !tbaa !23
  %95 = getelementptr inbounds i8, ptr %84, i64 2664
  store i32 %94, ptr %95, align 8, !tbaa !24
  br label %96

96:                                               ; preds = %92, %88
  store i32 0, ptr %2, align 4, !tbaa !15
  br label %100

97:                                               ; preds = %83
  %98 = add i64 %86, 1
  store i64 %98, ptr %85, align 8, !tbaa !19
  %99 = getelementptr inbounds [2000 x i8], ptr %84, i64 0, i64 %86
  store i8 0, ptr %99, align 1, !tbaa !25
  br label %100

100:                                              ; preds = %97, %96
  %101 = load ptr, ptr %9, align 8, !tbaa !12
  %102 = getelementptr inbounds i8, ptr %101, i64 2000
  %103 = load i64, ptr %102, align 8, !tbaa !19
  %104 = icmp eq i64 %103, 2000
  br i1 %104, label %105, label %114

105:                                              ; preds = %100
  %106 = getelementptr inbounds i8, ptr %101, i64 2656
  %107 = load ptr, ptr %106, align 8, !tbaa !22
  %108 = icmp eq ptr %107, null
  br i1 %108, label %109, label %113

109:                                              ; preds = %105
  store ptr @.str.10, ptr %106, align 8, !tbaa !22
  %110 = getelementptr inbounds i8, ptr %0, i64 8
  %111 = load i32, ptr %110, align 8, !tbaa !23
  %112 = getelementptr inbounds i8, ptr %101, i64 2664
  store i32 %111, ptr %112, align 8, !tbaa !24
  br label %113

113:                                              ; preds = %109, %105
  store i32 0, ptr %2, align 4, !tbaa !15
  br label %117

114:                                              ; preds = %100
  %115 = add i64 %103, 1
  store i64 %115, ptr %102, align 8, !tbaa !19
  %116 = getelementptr inbounds [2000 x i8], ptr %101, i64 0, i64 %103
  store i8 0, ptr %116, align 1, !tbaa !25
  br label %117

117:                                              ; preds = %114, %113
  %118 = load ptr, ptr %9, align 8, !tbaa !12
  %119 = getelementptr inbounds i8, ptr %118, i64 2656
  %120 = load ptr, ptr %119, align 8, !tbaa !22
  %121 = icmp eq ptr %120, null
  br i1 %121, label %122, label %133

122:                                              ; preds = %117
  %123 = getelementptr inbounds i8, ptr %118, i64 2000
  %124 = load i64, ptr %123, align 8, !tbaa !19
  %125 = trunc i64 %12 to i8
  %126 = add i64 %124, -2
  %127 = getelementptr inbounds [2000 x i8], ptr %118, i64 0, i64 %126
  store i8 %125, ptr %127, align 1, !tbaa !25
  %128 = lshr i64 %12, 8
  %129 = trunc i64 %128 to i8
  %130 = load ptr, ptr %9, align 8, !tbaa !12
  %131 = add i64 %124, -1
  %132 = getelementptr inbounds [2000 x i8], ptr %130, i64 0, i64 %131
  store i8 %129, ptr %132, align 1, !tbaa !25
  br label %133

133:                                              ; preds = %122, %117
  %134 = load ptr, ptr %9, align 8, !tbaa !12
  %135 = getelementptr inbounds i8, ptr %134, i64 2656
  %136 = load ptr, ptr %135, align 8, !tbaa !22
  %137 = icmp eq ptr %136, null
  br i1 %137, label %138, label %475

138:                                              ; preds = %133
  %139 = getelementptr inbounds i8, ptr %134, i64 2000
  %140 = load i64, ptr %139, align 8, !tbaa !19
  %141 = trunc i64 %140 to i8
  %142 = add i64 %66, -2
  %143 = getelementptr inbounds [2000 x i8], ptr %134, i64 0, i64 %142
  store i8 %141, ptr %143, align 1, !tbaa !25
  %144 = lshr i64 %140, 8
  %145 = trunc i64 %144 to i8
  %146 = load ptr, ptr %9, align 8, !tbaa !12
  %147 = add i64 %66, -1
  %148 = getelementptr inbounds [2000 x i8], ptr %146, i64 0, i64 %147
  store i8 %145, ptr %148, align 1, !tbaa !25
  br label %475

149:                                              ; preds = %1
  tail call fastcc void @lexer_next(ptr noundef %0)
  tail call fastcc void @expression(ptr noundef %0)
  %150 = getelementptr inbounds i8, ptr %0, i64 40
  %151 = load ptr, ptr %150, align 8, !tbaa !12
  %152 = getelementptr inbounds i8, ptr %151, i64 2000
  %153 = load i64, ptr %152, align 8, !tbaa !19
  %154 = icmp eq i64 %153, 2000
  br i1 %154, label %155, label %164

155:                                              ; preds = %149
  %156 = getelementptr inbounds i8, ptr %151, i64 2656
  %157 = load ptr, ptr %156, align 8, !tbaa !22
  %158 = icmp eq ptr %157, null
  br i1 %158, label %159, label %163

159:                                              ; preds = %155
  store ptr @.str.10, ptr %156, align 8, !tbaa !22
  %160 = getelementptr inbounds i8, ptr %0, i64 8
  %161 = load i32, ptr %160, align 8, !tbaa !23
  %162 = getelementptr inbounds i8, ptr %151, i64 2664
  store i32 %161, ptr %162, align 8, !tbaa !24
  br label %163

163:                                              ; preds = %159, %155
  store i32 0, ptr %2, align 4, !tbaa !15
  br label %167

164:                                              ; preds = %149
  %165 = add i64 %153, 1
  store i64 %165, ptr %152, align 8, !tbaa !19
  %166 = getelementptr inbounds [2000 x i8], ptr %151, i64 0, i64 %153
  store i8 14, ptr %166, align 1, !tbaa !25
  br label %167

167:                                              ; preds = %164, %163
  %168 = load ptr, ptr %150, align 8, !tbaa !12
  %169 = getelementptr inbounds i8, ptr %168, i64 2000
  %170 = load i64, ptr %169, align 8, !tbaa !19
  %171 = icmp eq i64 %170, 2000
  br i1 %171, label %172, label %181

172:                                              ; preds = %167
  %173 = getelementptr inbounds i8, ptr %168, i64 2656
  %174 = load ptr, ptr %173, align 8, !tbaa !22
  %175 = icmp eq ptr %174, null
  br i1 %175, label %176, label %180

176:                                              ; preds = %172
  store ptr @.str.10, ptr %173, align 8, !tbaa !22
  %177 = getelementptr inbounds i8, ptr %0, i64 8
  %178 = load i32, ptr %177, align 8, !tbaa !23
  %179 = getelementptr inbounds i8, ptr %168, i64 2664
  store i32 %178, ptr %179, align 8, !tbaa !24
  br label %180

180:                                              ; preds = %176, %172
  store i32 0, ptr %2, align 4, !tbaa !15
  br label %184

181:                                              ; preds = %167
  %182 = add i64 %170, 1
  store i64 %182, ptr %169, align 8, !tbaa !19
  %183 = getelementptr inbounds [2000 x i8], ptr %168, i64 0, i64 %170
  store i8 0, ptr %183, align 1, !tbaa !25
  br label %184

184:                                              ; preds = %181, %180
  %185 = load ptr, ptr %150, align 8, !tbaa !12
  %186 = getelementptr inbounds i8, ptr %185, i64 2000
  %187 = load i64, ptr %186, align 8, !tbaa !19
  %188 = icmp eq i64 %187, 2000
  br i1 %188, label %189, label %198

189:                                              ; preds = %184
  %190 = getelementptr inbounds i8, ptr %185, i64 2656
  %191 = load ptr, ptr %190, align 8, !tbaa !22
  %192 = icmp eq ptr %191, null
  br i1 %192, label %193, label %197

193:                                              ; preds = %189
  store ptr @.str.10, ptr %190, align 8, !tbaa !22
  %194 = getelementptr inbounds i8, ptr %0, i64 8
  %195 = load i32, ptr %194, align 8, !tbaa !23
  %196 = getelementptr inbounds i8, ptr %185, i64 2664
  store i32 %195, ptr %196, align 8, !tbaa !24
  br label %197

197:                                              ; preds = %193, %189
  store i32 0, ptr %2, align 4, !tbaa !15
  br label %201

198:                                              ; preds = %184
  %199 = add i64 %187, 1
  store i64 %199, ptr %186, align 8, !tbaa !19
  %200 = getelementptr inbounds [2000 x i8], ptr %185, i64 0, i64 %187
  store i8 0, ptr %200, align 1, !tbaa !25
  br label %201

201:                                              ; preds = %198, %197
  %202 = load ptr, ptr %150, align 8, !tbaa !12
  %203 = getelementptr inbounds i8, ptr %202, i64 2000
  %204 = load i64, ptr %203, align 8, !tbaa !19
  tail call fastcc void @block(ptr noundef %0)
  %205 = load i32, ptr %2, align 4, !tbaa !15
  %206 = icmp eq i32 %205, 6
  br i1 %206, label %207, label %275

207:                                              ; preds = %201
  tail call fastcc void @lexer_next(ptr noundef %0)
  %208 = load ptr, ptr %150, align 8, !tbaa !12
  %209 = getelementptr inbounds i8, ptr %208, i64 2000
  %210 = load i64, ptr %209, align 8, !tbaa !19
  %211 = icmp eq i64 %210, 2000
  br i1 %211, label %212, label %221

212:                                              ; preds = %207
  %213 = getelementptr inbounds i8, ptr %208, i64 2656
  %214 = load ptr, ptr %213, align 8, !tbaa !22
  %215 = icmp eq ptr %214, null
  br i1 %215, label %216, label %220

216:                                              ; preds = %212
  store ptr @.str.10, ptr %213, align 8, !tbaa !22
  %217 = getelementptr inbounds i8, ptr %0, i64 8
  %218 = load i32, ptr %217, align 8, !tbaa !23
  %219 = getelementptr inbounds i8, ptr %208, i64 2664
  store i32 %218, ptr %219, align 8, !tbaa !24
  br label %220

220:                                              ; preds = %216, %212
  store i32 0, ptr %2, align 4, !tbaa !15
  br label %224

221:                                              ; preds = %207
  %222 = add i64 %210, 1
  store i64 %222, ptr %209, align 8, !tbaa !19
  %223 = getelementptr inbounds [2000 x i8], ptr %208, i64 0, i64 %210
  store i8 13, ptr %223, align 1, !tbaa !25
  br label %224

224:                                              ; preds = %221, %220
  %225 = load ptr, ptr %150, align 8, !tbaa !12
  %226 = getelementptr inbounds i8, ptr %225, i64 2000
  %227 = load i64, ptr %226, align 8, !tbaa !19
  %228 = icmp eq i64 %227, 2000
  br i1 %228, label %229, label %238

229:                                              ; preds = %224
  %230 = getelementptr inbounds i8, ptr %225, i64 2656
  %231 = load ptr, ptr %230, align 8, !tbaa !22
  %232 = icmp eq ptr %231, null
  br i1 %232, label %233, label %237

233:                                              ; preds = %229
  store ptr @.str.10, ptr %230, align 8, !tbaa !22
  %234 = getelementptr inbounds i8, ptr %0, i64 8
  %235 = load i32, ptr %234, align 8, !tbaa !23
  %236 = getelementptr inbounds i8, ptr %225, i64 2664
  store i32 %235, ptr %236, align 8, !tbaa !24
  br label %237

237:                                              ; preds = %233, %229
  store i32 0, ptr %2, align 4, !tbaa !15
  br label %241

238:                                              ; preds = %224
  %239 = add i64 %227, 1
  store i64 %239, ptr %226, align 8, !tbaa !19
  %240 = getelementptr inbounds [2000 x i8], ptr %225, i64 0, i64 %227
  store i8 0, ptr %240, align 1, !tbaa !25
  br label %241

241:                                              ; preds = %238, %237
  %242 = load ptr, ptr %150, align 8, !tbaa !12
  %243 = getelementptr inbounds i8, ptr %242, i64 2000
  %244 = load i64, ptr %243, align 8, !tbaa !19
  %245 = icmp eq i64 %244, 2000
  br i1 %245, label %246, label %255

246:                                              ; preds = %241
  %247 = getelementptr inbounds i8, ptr %242, i64 2656
  %248 = load ptr, ptr %247, align 8, !tbaa !22
  %249 = icmp eq ptr %248, null
  br i1 %249, label %250, label %254

250:                                              ; preds = %246
  store ptr @.str.10, ptr %247, align 8, !tbaa !22
  %251 = getelementptr inbounds i8, ptr %0, i64 8
  %252 = load i32, ptr %251, align 8, !tbaa !23
  %253 = getelementptr inbounds i8, ptr %242, i64 2664
  store i32 %252, ptr %253, align 8, !tbaa !24
  br label %254

254:                                              ; preds = %250, %246
  store i32 0, ptr %2, align 4, !tbaa !15
  br label %258

255:                                              ; preds = %241
  %256 = add i64 %244, 1
  store i64 %256, ptr %243, align 8, !tbaa !19
  %257 = getelementptr inbounds [2000 x i8], ptr %242, i64 0, i64 %244
  store i8 0, ptr %257, align 1, !tbaa !25
  br label %258

258:                                              ; preds = %255, %254
  %259 = load ptr, ptr %150, align 8, !tbaa !12
  %260 = getelementptr inbounds i8, ptr %259, i64 2000
  %261 = load i64, ptr %260, align 8, !tbaa !19
  %262 = getelementptr inbounds i8, ptr %259, i64 2656
  %263 = load ptr, ptr %262, align 8, !tbaa !22
  %264 = icmp eq ptr %263, null
  br i1 %264, label %265, label %274

265:                                              ; preds = %258
  %266 = trunc i64 %261 to i8
  %267 = add i64 %204, -2
  %268 = getelementptr inbounds [2000 x i8], ptr %259, i64 0, i64 %267
  store i8 %266, ptr %268, align 1, !tbaa !25
  %269 = lshr i64 %261, 8
  %270 = trunc i64 %269 to i8
  %271 = load ptr, ptr %150, align 8, !tbaa !12
  %272 = add i64 %204, -1
  %273 = getelementptr inbounds [2000 x i8], ptr %271, i64 0, i64 %272
  store i8 %270, ptr %273, align 1, !tbaa !25
  br label %274

274:                                              ; preds = %265, %258
  tail call fastcc void @block(ptr noundef %0)
  br label %275

275:                                              ; preds = %274, %201
  %276 = phi i64 [ %261, %274 ], [ %204, %201 ]
  %277 = load ptr, ptr %150, align 8, !tbaa !12
  %278 = getelementptr inbounds i8, ptr %277, i64 2656
  %279 = load ptr, ptr %278, align 8, !tbaa !22
  %280 = icmp eq ptr %279, null
  br i1 %280, label %281, label %475

281:                                              ; preds = %275
  %282 = getelementptr inbounds i8, ptr %277, i64 2000
  %283 = load i64, ptr %282, align 8, !tbaa !19
  %284 = trunc i64 %283 to i8
  %285 = add i64 %276, -2
  %286 = getelementptr inbounds [2000 x i8], ptr %277, i64 0, i64 %285
  store i8 %284, ptr %286, align 1, !tbaa !25
  %287 = lshr i64 %283, 8
  %288 = trunc i64 %287 to i8
  %289 = load ptr, ptr %150, align 8, !tbaa !12
  %290 = add i64 %276, -1
  %291 = getelementptr inbounds [2000 x i8], ptr %289, i64 0, i64 %290
  store i8 %288, ptr %291, align 1, !tbaa !25
  br label %475

292:                                              ; preds = %311, %4
  tail call fastcc void @lexer_next(ptr noundef %0)
  tail call fastcc void @expression(ptr noundef %0)
  %293 = load ptr, ptr %6, align 8, !tbaa !12
  %294 = getelementptr inbounds i8, ptr %293, i64 2000
  %295 = load i64, ptr %294, align 8, !tbaa !19
  %296 = icmp eq i64 %295, 2000
  br i1 %296, label %297, label %305

297:                                              ; preds = %292
  %298 = getelementptr inbounds i8, ptr %293, i64 2656
  %299 = load ptr, ptr %298, align 8, !tbaa !22
  %300 = icmp eq ptr %299, null
  br i1 %300, label %301, label %304

301:                                              ; preds = %297
  store ptr @.str.10, ptr %298, align 8, !tbaa !22
  %302 = load i32, ptr %7, align 8, !tbaa !23
  %303 = getelementptr inbounds i8, ptr %293, i64 2664
  store i32 %302, ptr %303, align 8, !tbaa !24
  br label %304

304:                                              ; preds = %301, %297
  store i32 0, ptr %2, align 4, !tbaa !15
  br label %308

305:                                              ; preds = %292
  %306 = add i64 %295, 1
  store i64 %306, ptr %294, align 8, !tbaa !19
  %307 = getelementptr inbounds [2000 x i8], ptr %293, i64 0, i64 %295
  store i8 15, ptr %307, align 1, !tbaa !25
  br label %308

308:                                              ; preds = %305, %304
  %309 = load i32, ptr %2, align 4, !tbaa !15
  %310 = icmp eq i32 %309, 3
  br i1 %310, label %311, label %314

311:                                              ; preds = %308
  %312 = load i32, ptr %5, align 4, !tbaa !48
  %313 = icmp eq i32 %312, 44
  br i1 %313, label %292, label %314, !llvm.loop !49

314:                                              ; preds = %311, %308
  %315 = load ptr, ptr %6, align 8, !tbaa !12
  %316 = getelementptr inbounds i8, ptr %315, i64 2000
  %317 = load i64, ptr %316, align 8, !tbaa !19
  %318 = icmp eq i64 %317, 2000
  br i1 %318, label %319, label %327

319:                                              ; preds = %314
  %320 = getelementptr inbounds i8, ptr %315, i64 2656
  %321 = load ptr, ptr %320, align 8, !tbaa !22
  %322 = icmp eq ptr %321, null
  br i1 %322, label %323, label %326

323:                                              ; preds = %319
  store ptr @.str.10, ptr %320, align 8, !tbaa !22
  %324 = load i32, ptr %7, align 8, !tbaa !23
  %325 = getelementptr inbounds i8, ptr %315, i64 2664
  store i32 %324, ptr %325, align 8, !tbaa !24
  br label %326

326:                                              ; preds = %323, %319
  store i32 0, ptr %2, align 4, !tbaa !15
  br label %330

327:                                              ; preds = %314
  %328 = add i64 %317, 1
  store i64 %328, ptr %316, align 8, !tbaa !19
  %329 = getelementptr inbounds [2000 x i8], ptr %315, i64 0, i64 %317
  store i8 16, ptr %329, align 1, !tbaa !25
  br label %330

330:                                              ; preds = %327, %326
  %331 = load i32, ptr %2, align 4, !tbaa !15
  %332 = icmp eq i32 %331, 3
  br i1 %332, label %333, label %337

333:                                              ; preds = %330
  %334 = load i32, ptr %5, align 4, !tbaa !48
  %335 = icmp eq i32 %334, 59
  br i1 %335, label %336, label %337

336:                                              ; preds = %333
  tail call fastcc void @lexer_next(ptr noundef %0)
  br label %475

337:                                              ; preds = %333, %330
  %338 = load ptr, ptr %6, align 8, !tbaa !12
  %339 = getelementptr inbounds i8, ptr %338, i64 2656
  %340 = load ptr, ptr %339, align 8, !tbaa !22
  %341 = icmp eq ptr %340, null
  br i1 %341, label %342, label %345

342:                                              ; preds = %337
  store ptr @.str.1, ptr %339, align 8, !tbaa !22
  %343 = load i32, ptr %7, align 8, !tbaa !23
  %344 = getelementptr inbounds i8, ptr %338, i64 2664
  store i32 %343, ptr %344, align 8, !tbaa !24
  br label %345

345:                                              ; preds = %342, %337
  store i32 0, ptr %2, align 4, !tbaa !15
  br label %475

346:                                              ; preds = %1
  %347 = getelementptr inbounds i8, ptr %0, i64 20
  %348 = getelementptr inbounds i8, ptr %0, i64 40
  %349 = load ptr, ptr %348, align 8, !tbaa !12
  %350 = getelementptr inbounds i8, ptr %349, i64 2648
  %351 = load i32, ptr %350, align 8, !tbaa !32
  %352 = icmp sgt i32 %351, 0
  br i1 %352, label %353, label %372

353:                                              ; preds = %346
  %354 = getelementptr inbounds i8, ptr %349, i64 2008
  %355 = zext nneg i32 %351 to i64
  %356 = tail call i32 @strcmp(ptr noundef nonnull dereferenceable(1) %354, ptr noundef nonnull readonly dereferenceable(1) %347) #12
  %357 = icmp eq i32 %356, 0
  br i1 %357, label %369, label %362

358:                                              ; preds = %362
  %359 = getelementptr inbounds [40 x [16 x i8]], ptr %354, i64 0, i64 %364
  %360 = tail call i32 @strcmp(ptr noundef nonnull dereferenceable(1) %359, ptr noundef nonnull readonly dereferenceable(1) %347) #12
  %361 = icmp eq i32 %360, 0
  br i1 %361, label %366, label %362, !llvm.loop !50

362:                                              ; preds = %358, %353
  %363 = phi i64 [ %364, %358 ], [ 0, %353 ]
  %364 = add nuw nsw i64 %363, 1
  %365 = icmp eq i64 %364, %355
  br i1 %365, label %372, label %358, !llvm.loop !50

366:                                              ; preds = %358
  %367 = icmp ult i64 %364, %355
  %368 = trunc nuw nsw i64 %364 to i32
  br label %369

369:                                              ; preds = %366, %353
  %370 = phi i32 [ 0, %353 ], [ %368, %366 ]
  %371 = phi i1 [ true, %353 ], [ %367, %366 ]
  br i1 %371, label %392, label %372

372:                                              ; preds = %369, %362, %346
  %373 = icmp eq i32 %351, 40
  br i1 %373, label %374, label %383

374:                                              ; preds = %372
  %375 = getelementptr inbounds i8, ptr %349, i64 2656
  %376 = load ptr, ptr %375, align 8, !tbaa !22
  %377 = icmp eq ptr %376, null
  br i1 %377, label %378, label %382

378:                                              ; preds = %374
  store ptr @.str.9, ptr %375, align 8, !tbaa !22
  %379 = getelementptr inbounds i8, ptr %0, i64 8
  %380 = load i32, ptr %379, align 8, !tbaa !23
  %381 = getelementptr inbounds i8, ptr %349, i64 2664
  store i32 %380, ptr %381, align 8, !tbaa !24
  br label %382

382:                                              ; preds = %378, %374
  store i32 0, ptr %2, align 4, !tbaa !15
  br label %392

383:                                              ; preds = %372
  %384 = getelementptr inbounds i8, ptr %349, i64 2008
  %385 = sext i32 %351 to i64
  %386 = getelementptr inbounds [40 x [16 x i8]], ptr %384, i64 0, i64 %385
  %387 = tail call ptr @strcpy(ptr noundef nonnull dereferenceable(1) %386, ptr noundef nonnull readonly dereferenceable(1) %347) #12
  %388 = load ptr, ptr %348, align 8, !tbaa !12
  %389 = getelementptr inbounds i8, ptr %388, i64 2648
  %390 = load i32, ptr %389, align 8, !tbaa !32
  %391 = add nsw i32 %390, 1
  store i32 %391, ptr %389, align 8, !tbaa !32
  br label %392

392:                                              ; preds = %383, %382, %369
  %393 = phi i32 [ %370, %369 ], [ 0, %382 ], [ %390, %383 ]
  tail call fastcc void @lexer_next(ptr noundef %0)
  %394 = load i32, ptr %2, align 4, !tbaa !15
  %395 = icmp eq i32 %394, 3
  br i1 %395, label %396, label %401

396:                                              ; preds = %392
  %397 = getelementptr inbounds i8, ptr %0, i64 36
  %398 = load i32, ptr %397, align 4, !tbaa !48
  %399 = icmp eq i32 %398, 61
  br i1 %399, label %400, label %401

400:                                              ; preds = %396
  tail call fastcc void @lexer_next(ptr noundef %0)
  br label %411

401:                                              ; preds = %396, %392
  %402 = load ptr, ptr %348, align 8, !tbaa !12
  %403 = getelementptr inbounds i8, ptr %402, i64 2656
  %404 = load ptr, ptr %403, align 8, !tbaa !22
  %405 = icmp eq ptr %404, null
  br i1 %405, label %406, label %410

406:                                              ; preds = %401
  store ptr @.str.2, ptr %403, align 8, !tbaa !22
  %407 = getelementptr inbounds i8, ptr %0, i64 8
  %408 = load i32, ptr %407, align 8, !tbaa !23
  %409 = getelementptr inbounds i8, ptr %402, i64 2664
  store i32 %408, ptr %409, align 8, !tbaa !24
  br label %410

410:                                              ; preds = %406, %401
  store i32 0, ptr %2, align 4, !tbaa !15
  br label %411

411:                                              ; preds = %410, %400
  tail call fastcc void @expression(ptr noundef %0)
  %412 = load ptr, ptr %348, align 8, !tbaa !12
  %413 = getelementptr inbounds i8, ptr %412, i64 2000
  %414 = load i64, ptr %413, align 8, !tbaa !19
  %415 = icmp eq i64 %414, 2000
  br i1 %415, label %416, label %425

416:                                              ; preds = %411
  %417 = getelementptr inbounds i8, ptr %412, i64 2656
  %418 = load ptr, ptr %417, align 8, !tbaa !22
  %419 = icmp eq ptr %418, null
  br i1 %419, label %420, label %424

420:                                              ; preds = %416
  store ptr @.str.10, ptr %417, align 8, !tbaa !22
  %421 = getelementptr inbounds i8, ptr %0, i64 8
  %422 = load i32, ptr %421, align 8, !tbaa !23
  %423 = getelementptr inbounds i8, ptr %412, i64 2664
  store i32 %422, ptr %423, align 8, !tbaa !24
  br label %424

424:                                              ; preds = %420, %416
  store i32 0, ptr %2, align 4, !tbaa !15
  br label %428

425:                                              ; preds = %411
  %426 = add i64 %414, 1
  store i64 %426, ptr %413, align 8, !tbaa !19
  %427 = getelementptr inbounds [2000 x i8], ptr %412, i64 0, i64 %414
  store i8 3, ptr %427, align 1, !tbaa !25
  br label %428

428:                                              ; preds = %425, %424
  %429 = load ptr, ptr %348, align 8, !tbaa !12
  %430 = getelementptr inbounds i8, ptr %429, i64 2000
  %431 = load i64, ptr %430, align 8, !tbaa !19
  %432 = icmp eq i64 %431, 2000
  br i1 %432, label %433, label %442

433:                                              ; preds = %428
  %434 = getelementptr inbounds i8, ptr %429, i64 2656
  %435 = load ptr, ptr %434, align 8, !tbaa !22
  %436 = icmp eq ptr %435, null
  br i1 %436, label %437, label %441

437:                                              ; preds = %433
  store ptr @.str.10, ptr %434, align 8, !tbaa !22
  %438 = getelementptr inbounds i8, ptr %0, i64 8
  %439 = load i32, ptr %438, align 8, !tbaa !23
  %440 = getelementptr inbounds i8, ptr %429, i64 2664
  store i32 %439, ptr %440, align 8, !tbaa !24
  br label %441

441:                                              ; preds = %437, %433
  store i32 0, ptr %2, align 4, !tbaa !15
  br label %446

442:                                              ; preds = %428
  %443 = trunc i32 %393 to i8
  %444 = add i64 %431, 1
  store i64 %444, ptr %430, align 8, !tbaa !19
  %445 = getelementptr inbounds [2000 x i8], ptr %429, i64 0, i64 %431
  store i8 %443, ptr %445, align 1, !tbaa !25
  br label %446

446:                                              ; preds = %442, %441
  %447 = load i32, ptr %2, align 4, !tbaa !15
  %448 = icmp eq i32 %447, 3
  br i1 %448, label %449, label %454

449:                                              ; preds = %446
  %450 = getelementptr inbounds i8, ptr %0, i64 36
  %451 = load i32, ptr %450, align 4, !tbaa !48
  %452 = icmp eq i32 %451, 59
  br i1 %452, label %453, label %454

453:                                              ; preds = %449
  tail call fastcc void @lexer_next(ptr noundef %0)
  br label %475

454:                                              ; preds = %449, %446
  %455 = load ptr, ptr %348, align 8, !tbaa !12
  %456 = getelementptr inbounds i8, ptr %455, i64 2656
  %457 = load ptr, ptr %456, align 8, !tbaa !22
  %458 = icmp eq ptr %457, null
  br i1 %458, label %459, label %463

459:                                              ; preds = %454
  store ptr @.str.1, ptr %456, align 8, !tbaa !22
  %460 = getelementptr inbounds i8, ptr %0, i64 8
  %461 = load i32, ptr %460, align 8, !tbaa !23
  %462 = getelementptr inbounds i8, ptr %455, i64 2664
  store i32 %461, ptr %462, align 8, !tbaa !24
  br label %463

463:                                              ; preds = %459, %454
  store i32 0, ptr %2, align 4, !tbaa !15
  br label %475

464:                                              ; preds = %1
  %465 = getelementptr inbounds i8, ptr %0, i64 40
  %466 = load ptr, ptr %465, align 8, !tbaa !12
  %467 = getelementptr inbounds i8, ptr %466, i64 2656
  %468 = load ptr, ptr %467, align 8, !tbaa !22
  %469 = icmp eq ptr %468, null
  br i1 %469, label %470, label %474

470:                                              ; preds = %464
  store ptr @.str.3, ptr %467, align 8, !tbaa !22
  %471 = getelementptr inbounds i8, ptr %0, i64 8
  %472 = load i32, ptr %471, align 8, !tbaa !23
  %473 = getelementptr inbounds i8, ptr %466, i64 2664
  store i32 %472, ptr %473, align 8, !tbaa !24
  br label %474

474:                                              ; preds = %470, %464
  store i32 0, ptr %2, align 4, !tbaa !15
  br label %475

475:                                              ; preds = %474, %463, %453, %345, %336, %281, %275, %138, %133
  ret void
}

; Function Attrs: nocallback nofree nosync nounwind willreturn memory(argmem: readwrite)
declare void @llvm.lifetime.end.p0(i64 immarg, ptr nocapture) #3

; Function Attrs: nounwind optsize uwtable
define internal noundef i32 @__print_text(ptr nocapture noundef %0, ptr nocapture noundef readonly %1, i64 noundef %2) local_unnamed_addr #1 {
  %4 = load i8, ptr %0, align 8, !tbaa !51, !alias.scope !53, !noalias !56
  %5 = icmp eq i8 %4, 0
  %6 = icmp eq i64 %2, 0
  %7 = or i1 %6, %5
  br i1 %7, label %16, label %8

8:                                                ; preds = %8, %3
  %9 = phi i64 [ %14, %8 ], [ 0, %3 ]
  %10 = getelementptr inbounds i8, ptr %1, i64 %9
  %11 = load i8, ptr %10, align 1, !tbaa !25, !alias.scope !56, !noalias !53
  %12 = zext i8 %11 to i32
  %13 = tail call i32 @fputc(i32 noundef %12, ptr noundef nonnull %0) #13, !noalias !56
  %14 = add nuw i64 %9, 1
  %15 = icmp eq i64 %14, %2
  br i1 %15, label %16, label %8, !llvm.loop !58

16:                                               ; preds = %8, %3
  %17 = trunc i64 %2 to i32
  ret i32 %17
}

; Function Attrs: nounwind optsize uwtable
define internal i32 @__print_signed(ptr nocapture noundef %0, i64 noundef %1, i32 noundef %2, i32 noundef %3, i32 noundef %4) local_unnamed_addr #1 {
  %6 = alloca [24 x i8], align 16
  call void @llvm.lifetime.start.p0(i64 24, ptr nonnull %6) #12
  %7 = getelementptr inbounds i8, ptr %6, i64 24
  %8 = icmp slt i64 %1, 0
  %9 = lshr i64 %1, 63
  %10 = icmp ne i64 %9, 0
  %11 = sub i64 0, %1
  %12 = select i1 %10, i64 %11, i64 %1
  %13 = icmp ult i64 %12, 4294967296
  br i1 %13, label %14, label %28

14:                                               ; preds = %5
  %15 = icmp eq i64 %1, 0
  br i1 %15, label %37, label %16

16:                                               ; preds = %14
  %17 = trunc nuw i64 %12 to i32
  br label %18

18:                                               ; preds = %18, %16
  %19 = phi i32 [ %26, %18 ], [ %17, %16 ]
  %20 = phi ptr [ %25, %18 ], [ %7, %16 ]
  %21 = urem i32 %19, 10
  %22 = zext nneg i32 %21 to i64
  %23 = getelementptr inbounds i8, ptr @.str.9.18, i64 %22
  %24 = load i8, ptr %23, align 1, !tbaa !25
  %25 = getelementptr inbounds i8, ptr %20, i64 -1
  store i8 %24, ptr %25, align 1, !tbaa !25
  %26 = udiv i32 %19, 10
  %27 = icmp ult i32 %19, 10
  br i1 %27, label %37, label %18, !llvm.loop !59

28:                                               ; preds = %28, %5
  %29 = phi ptr [ %34, %28 ], [ %7, %5 ]
  %30 = phi i64 [ %35, %28 ], [ %12, %5 ]
  %31 = urem i64 %30, 10
  %32 = getelementptr inbounds i8, ptr @.str.9.18, i64 %31
  %33 = load i8, ptr %32, align 1, !tbaa !25
  %34 = getelementptr inbounds i8, ptr %29, i64 -1
  store i8 %33, ptr %34, align 1, !tbaa !25
  %35 = udiv i64 %30, 10
  %36 = icmp ult i64 %30, 10
  br i1 %36, label %37, label %28, !llvm.loop !60

37:                                               ; preds = %28, %18, %14
  %38 = phi ptr [ %7, %14 ], [ %25, %18 ], [ %34, %28 ]
  %39 = icmp eq i64 %1, 0
  %40 = icmp ne i32 %4, 0
  %41 = and i1 %39, %40
  br i1 %41, label %42, label %44

42:                                               ; preds = %37
  %43 = getelementptr inbounds i8, ptr %38, i64 -1
  store i8 48, ptr %43, align 1, !tbaa !25
  br label %45

44:                                               ; preds = %37
  br i1 %8, label %53, label %45

45:                                               ; preds = %44, %42
  %46 = phi ptr [ %43, %42 ], [ %38, %44 ]
  %47 = and i32 %2, 2
  %48 = icmp eq i32 %47, 0
  br i1 %48, label %49, label %53

49:                                               ; preds = %45
  %50 = and i32 %2, 4
  %51 = icmp eq i32 %50, 0
  %52 = select i1 %51, ptr @.str, ptr @.str.4.19
  br label %53

53:                                               ; preds = %49, %45, %44
  %54 = phi ptr [ %38, %44 ], [ %46, %49 ], [ %46, %45 ]
  %55 = phi ptr [ @.str.2.20, %44 ], [ %52, %49 ], [ @.str.3.22, %45 ]
  %56 = ptrtoint ptr %7 to i64
  %57 = ptrtoint ptr %54 to i64
  %58 = sub i64 %56, %57
  %59 = trunc i64 %58 to i32
  %60 = call fastcc i32 @number(ptr noundef %0, ptr noundef nonnull %55, ptr noundef nonnull %54, i32 noundef %59, i32 noundef %2, i32 noundef %3, i32 noundef %4) #13
  call void @llvm.lifetime.end.p0(i64 24, ptr nonnull %6) #12
  ret i32 %60
}

; Function Attrs: nounwind optsize uwtable
define internal i32 @__print_string(ptr nocapture noundef %0, ptr noundef %1, i32 noundef %2, i32 noundef %3, i32 noundef %4) local_unnamed_addr #1 {
  %6 = icmp eq ptr %1, null
  %7 = icmp ult i32 %4, 6
  %8 = select i1 %7, ptr @.str, ptr @.str.1.13
  %9 = select i1 %6, ptr %8, ptr %1
  %10 = icmp slt i32 %4, 0
  br i1 %10, label %11, label %20

11:                                               ; preds = %11, %5
  %12 = phi ptr [ %15, %11 ], [ %9, %5 ]
  %13 = load i8, ptr %12, align 1, !tbaa !25
  %14 = icmp eq i8 %13, 0
  %15 = getelementptr inbounds i8, ptr %12, i64 1
  br i1 %14, label %16, label %11, !llvm.loop !61

16:                                               ; preds = %11
  %17 = ptrtoint ptr %12 to i64
  %18 = ptrtoint ptr %9 to i64
  %19 = sub i64 %17, %18
  br label %31

20:                                               ; preds = %5
  %21 = zext nneg i32 %4 to i64
  %22 = icmp eq i32 %4, 0
  br i1 %22, label %31, label %23

23:                                               ; preds = %28, %20
  %24 = phi i64 [ %29, %28 ], [ 0, %20 ]
  %25 = getelementptr inbounds i8, ptr %9, i64 %24
  %26 = load i8, ptr %25, align 1, !tbaa !25
  %27 = icmp eq i8 %26, 0
  br i1 %27, label %31, label %28

28:                                               ; preds = %23
  %29 = add nuw nsw i64 %24, 1
  %30 = icmp eq i64 %29, %21
  br i1 %30, label %31, label %23, !llvm.loop !62

31:                                               ; preds = %28, %23, %20, %16
  %32 = phi i64 [ %19, %16 ], [ 0, %20 ], [ %24, %23 ], [ %21, %28 ]
  %33 = trunc i64 %32 to i32
  %34 = tail call fastcc i32 @padded(ptr noundef %0, ptr noundef nonnull %9, i32 noundef %33, i32 noundef %2, i32 noundef %3) #13
  ret i32 %34
}

; Function Attrs: nounwind optsize uwtable
define internal i32 @__print_unsigned(ptr nocapture noundef %0, i64 noundef %1, i32 noundef %2, i32 noundef %3, i32 noundef %4, i32 noundef %5) local_unnamed_addr #1 {
  %7 = alloca [24 x i8], align 16
  call void @llvm.lifetime.start.p0(i64 24, ptr nonnull %7) #12
  %8 = and i32 %3, 32
  %9 = icmp eq i32 %8, 0
  %10 = select i1 %9, ptr @.str.9.18, ptr @.str.8.25
  %11 = icmp ult i64 %1, 4294967296
  br i1 %11, label %14, label %12

12:                                               ; preds = %6
  %13 = zext i32 %2 to i64
  br label %29

14:                                               ; preds = %6
  %15 = icmp eq i64 %1, 0
  br i1 %15, label %39, label %16

16:                                               ; preds = %14
  %17 = trunc nuw i64 %1 to i32
  br label %18

18:                                               ; preds = %18, %16
  %19 = phi i32 [ %27, %18 ], [ %17, %16 ]
  %20 = phi i64 [ %25, %18 ], [ 24, %16 ]
  %21 = urem i32 %19, %2
  %22 = zext i32 %21 to i64
  %23 = getelementptr inbounds i8, ptr %10, i64 %22
  %24 = load i8, ptr %23, align 1, !tbaa !25
  %25 = add nsw i64 %20, -1
  %26 = getelementptr inbounds i8, ptr %7, i64 %25
  store i8 %24, ptr %26, align 1, !tbaa !25
  %27 = udiv i32 %19, %2
  %28 = icmp ult i32 %19, %2
  br i1 %28, label %39, label %18, !llvm.loop !59

29:                                               ; preds = %29, %12
  %30 = phi i64 [ 24, %12 ], [ %35, %29 ]
  %31 = phi i64 [ %1, %12 ], [ %37, %29 ]
  %32 = urem i64 %31, %13
  %33 = getelementptr inbounds i8, ptr %10, i64 %32
  %34 = load i8, ptr %33, align 1, !tbaa !25
  %35 = add nsw i64 %30, -1
  %36 = getelementptr inbounds i8, ptr %7, i64 %35
  store i8 %34, ptr %36, align 1, !tbaa !25
  %37 = udiv i64 %31, %13
  %38 = icmp ult i64 %31, %13
  br i1 %38, label %39, label %29, !llvm.loop !60

39:                                               ; preds = %29, %18, %14
  %40 = phi i64 [ 24, %14 ], [ %25, %18 ], [ %35, %29 ]
  %41 = icmp eq i64 %1, 0
  %42 = icmp ne i32 %5, 0
  %43 = and i1 %41, %42
  br i1 %43, label %44, label %47

44:                                               ; preds = %39
  %45 = add nsw i64 %40, -1
  %46 = getelementptr inbounds i8, ptr %7, i64 %45
  store i8 48, ptr %46, align 1, !tbaa !25
  br label %47

47:                                               ; preds = %44, %39
  %48 = phi i64 [ %45, %44 ], [ %40, %39 ]
  %49 = getelementptr inbounds i8, ptr %7, i64 %48
  %50 = and i32 %3, 8
  %51 = icmp ne i32 %50, 0
  %52 = icmp eq i32 %2, 8
  %53 = and i1 %52, %51
  br i1 %53, label %54, label %65

54:                                               ; preds = %47
  %55 = sub nsw i64 24, %48
  %56 = sext i32 %5 to i64
  %57 = icmp slt i64 %55, %56
  br i1 %57, label %65, label %58

58:                                               ; preds = %54
  %59 = icmp eq i64 %48, 24
  br i1 %59, label %63, label %60

60:                                               ; preds = %58
  %61 = load i8, ptr %49, align 1, !tbaa !25
  %62 = icmp eq i8 %61, 48
  br i1 %62, label %65, label %63

63:                                               ; preds = %60, %58
  %64 = getelementptr inbounds i8, ptr %49, i64 -1
  store i8 48, ptr %64, align 1, !tbaa !25
  br label %65

65:                                               ; preds = %63, %60, %54, %47
  %66 = phi ptr [ %64, %63 ], [ %49, %60 ], [ %49, %54 ], [ %49, %47 ]
  %67 = getelementptr inbounds i8, ptr %7, i64 24
  %68 = icmp eq i32 %2, 16
  %69 = icmp ne i64 %1, 0
  %70 = and i1 %69, %68
  %71 = and i1 %70, %51
  %72 = select i1 %9, ptr @.str.6.26, ptr @.str.5.27
  %73 = select i1 %71, ptr %72, ptr @.str
  %74 = ptrtoint ptr %67 to i64
  %75 = ptrtoint ptr %66 to i64
  %76 = sub i64 %74, %75
  %77 = trunc i64 %76 to i32
  %78 = call fastcc i32 @number(ptr noundef %0, ptr noundef nonnull %73, ptr noundef nonnull %66, i32 noundef %77, i32 noundef %3, i32 noundef %4, i32 noundef %5) #13
  call void @llvm.lifetime.end.p0(i64 24, ptr nonnull %7) #12
  ret i32 %78
}

; Function Attrs: nofree nounwind
declare dso_local noundef i32 @putchar(i32 noundef) local_unnamed_addr #6

; Function Attrs: nofree norecurse nosync nounwind optsize memory(read, inaccessiblemem: none) uwtable
define internal noundef i64 @strlen(ptr noundef %0) local_unnamed_addr #2 {
  br label %2

2:                                                ; preds = %2, %1
  %3 = phi ptr [ %0, %1 ], [ %6, %2 ]
  %4 = load i8, ptr %3, align 1, !tbaa !25
  %5 = icmp eq i8 %4, 0
  %6 = getelementptr inbounds i8, ptr %3, i64 1
  br i1 %5, label %7, label %2, !llvm.loop !61

7:                                                ; preds = %2
  %8 = ptrtoint ptr %3 to i64
  %9 = ptrtoint ptr %0 to i64
  %10 = sub i64 %8, %9
  ret i64 %10
}

; Function Attrs: nofree norecurse nosync nounwind optsize uwtable
define internal noundef ptr @strcpy(ptr noalias noundef returned writeonly %0, ptr noalias nocapture noundef readonly %1) local_unnamed_addr #7 {
  %3 = load i8, ptr %1, align 1, !tbaa !25, !alias.scope !63, !noalias !66
  store i8 %3, ptr %0, align 1, !tbaa !25, !alias.scope !66, !noalias !63
  %4 = icmp eq i8 %3, 0
  br i1 %4, label %12, label %5

5:                                                ; preds = %5, %2
  %6 = phi ptr [ %8, %5 ], [ %1, %2 ]
  %7 = phi ptr [ %9, %5 ], [ %0, %2 ]
  %8 = getelementptr inbounds i8, ptr %6, i64 1
  %9 = getelementptr inbounds i8, ptr %7, i64 1
  %10 = load i8, ptr %8, align 1, !tbaa !25, !alias.scope !63, !noalias !66
  store i8 %10, ptr %9, align 1, !tbaa !25, !alias.scope !66, !noalias !63
  %11 = icmp eq i8 %10, 0
  br i1 %11, label %12, label %5, !llvm.loop !68

12:                                               ; preds = %5, %2
  ret ptr %0
}

; Function Attrs: nounwind optsize uwtable
define internal fastcc i32 @number(ptr nocapture noundef %0, ptr noundef %1, ptr nocapture noundef readonly %2, i32 noundef %3, i32 noundef %4, i32 noundef %5, i32 noundef %6) unnamed_addr #1 {
  br label %8

8:                                                ; preds = %8, %7
  %9 = phi ptr [ %1, %7 ], [ %12, %8 ]
  %10 = load i8, ptr %9, align 1, !tbaa !25
  %11 = icmp eq i8 %10, 0
  %12 = getelementptr inbounds i8, ptr %9, i64 1
  br i1 %11, label %13, label %8, !llvm.loop !61

13:                                               ; preds = %8
  %14 = ptrtoint ptr %9 to i64
  %15 = ptrtoint ptr %1 to i64
  %16 = sub i64 %14, %15
  %17 = trunc i64 %16 to i32
  %18 = sub nsw i32 %6, %3
  %19 = lshr i32 %5, 31
  %20 = icmp ne i32 %19, 0
  %21 = sub i32 0, %5
  %22 = select i1 %20, i32 %21, i32 %5
  %23 = tail call i32 @llvm.smax.i32(i32 %18, i32 0)
  %24 = icmp slt i32 %6, 0
  %25 = and i32 %4, 16
  %26 = icmp ne i32 %25, 0
  %27 = and i1 %26, %24
  %28 = and i32 %4, 1
  %29 = or i32 %19, %28
  %30 = icmp eq i32 %29, 0
  %31 = and i1 %27, %30
  %32 = add i32 %17, %3
  %33 = icmp sgt i32 %22, %32
  %34 = select i1 %31, i1 %33, i1 false
  %35 = sub i32 %22, %32
  %36 = select i1 %34, i32 %35, i32 %23
  %37 = add i32 %32, %36
  %38 = sub i32 %22, %37
  br i1 %30, label %39, label %48

39:                                               ; preds = %13
  %40 = icmp sgt i32 %38, 0
  br i1 %40, label %41, label %46

41:                                               ; preds = %41, %39
  %42 = phi i32 [ %44, %41 ], [ 0, %39 ]
  %43 = tail call i32 @fputc(i32 noundef 32, ptr noundef %0) #13
  %44 = add nuw nsw i32 %42, 1
  %45 = icmp eq i32 %44, %38
  br i1 %45, label %46, label %41, !llvm.loop !69

46:                                               ; preds = %41, %39
  %47 = tail call noundef i32 @llvm.smax.i32(i32 %38, i32 0)
  br label %48

48:                                               ; preds = %46, %13
  %49 = phi i32 [ 0, %13 ], [ %47, %46 ]
  %50 = shl i64 %16, 32
  %51 = ashr exact i64 %50, 32
  %52 = load i8, ptr %0, align 8, !tbaa !51, !alias.scope !70, !noalias !73
  %53 = icmp eq i8 %52, 0
  %54 = icmp eq i64 %50, 0
  %55 = or i1 %54, %53
  br i1 %55, label %64, label %56

56:                                               ; preds = %56, %48
  %57 = phi i64 [ %62, %56 ], [ 0, %48 ]
  %58 = getelementptr inbounds i8, ptr %1, i64 %57
  %59 = load i8, ptr %58, align 1, !tbaa !25, !alias.scope !73, !noalias !70
  %60 = zext i8 %59 to i32
  %61 = tail call i32 @fputc(i32 noundef %60, ptr noundef nonnull %0) #13, !noalias !73
  %62 = add nuw i64 %57, 1
  %63 = icmp eq i64 %62, %51
  br i1 %63, label %64, label %56, !llvm.loop !58

64:                                               ; preds = %56, %48
  %65 = icmp sgt i32 %36, 0
  br i1 %65, label %66, label %71

66:                                               ; preds = %66, %64
  %67 = phi i32 [ %69, %66 ], [ 0, %64 ]
  %68 = tail call i32 @fputc(i32 noundef 48, ptr noundef nonnull %0) #13
  %69 = add nuw nsw i32 %67, 1
  %70 = icmp eq i32 %69, %36
  br i1 %70, label %71, label %66, !llvm.loop !69

71:                                               ; preds = %66, %64
  %72 = tail call noundef i32 @llvm.smax.i32(i32 %36, i32 0)
  %73 = sext i32 %3 to i64
  %74 = load i8, ptr %0, align 8, !tbaa !51, !alias.scope !75, !noalias !78
  %75 = icmp eq i8 %74, 0
  %76 = icmp eq i32 %3, 0
  %77 = or i1 %76, %75
  br i1 %77, label %86, label %78

78:                                               ; preds = %78, %71
  %79 = phi i64 [ %84, %78 ], [ 0, %71 ]
  %80 = getelementptr inbounds i8, ptr %2, i64 %79
  %81 = load i8, ptr %80, align 1, !tbaa !25, !alias.scope !78, !noalias !75
  %82 = zext i8 %81 to i32
  %83 = tail call i32 @fputc(i32 noundef %82, ptr noundef nonnull %0) #13, !noalias !78
  %84 = add nuw i64 %79, 1
  %85 = icmp eq i64 %84, %73
  br i1 %85, label %86, label %78, !llvm.loop !58

86:                                               ; preds = %78, %71
  %87 = add i32 %32, %72
  %88 = add i32 %87, %49
  br i1 %30, label %99, label %89

89:                                               ; preds = %86
  %90 = icmp sgt i32 %38, 0
  br i1 %90, label %91, label %96

91:                                               ; preds = %91, %89
  %92 = phi i32 [ %94, %91 ], [ 0, %89 ]
  %93 = tail call i32 @fputc(i32 noundef 32, ptr noundef nonnull %0) #13
  %94 = add nuw nsw i32 %92, 1
  %95 = icmp eq i32 %94, %38
  br i1 %95, label %96, label %91, !llvm.loop !69

96:                                               ; preds = %91, %89
  %97 = tail call noundef i32 @llvm.smax.i32(i32 %38, i32 0)
  %98 = add nsw i32 %88, %97
  br label %99

99:                                               ; preds = %96, %86
  %100 = phi i32 [ %98, %96 ], [ %88, %86 ]
  ret i32 %100
}

; Function Attrs: nocallback nofree nosync nounwind speculatable willreturn memory(none)
declare i32 @llvm.smax.i32(i32, i32) #8

; Function Attrs: nounwind optsize uwtable
define internal range(i32 -1, 256) i32 @fputc(i32 noundef %0, ptr nocapture noundef %1) local_unnamed_addr #1 {
  %3 = load i8, ptr %1, align 8, !tbaa !51
  switch i8 %3, label %17 [
    i8 1, label %4
    i8 3, label %6
    i8 0, label %19
  ]

4:                                                ; preds = %2
  %5 = tail call i32 @putchar(i32 noundef %0) #15
  br label %17

6:                                                ; preds = %2
  %7 = getelementptr inbounds i8, ptr %1, i64 16
  %8 = load i64, ptr %7, align 8, !tbaa !80
  %9 = icmp eq i64 %8, 0
  br i1 %9, label %17, label %10

10:                                               ; preds = %6
  %11 = trunc i32 %0 to i8
  %12 = getelementptr inbounds i8, ptr %1, i64 8
  %13 = load ptr, ptr %12, align 8, !tbaa !81
  %14 = getelementptr inbounds i8, ptr %13, i64 1
  store ptr %14, ptr %12, align 8, !tbaa !81
  store i8 %11, ptr %13, align 1, !tbaa !25
  %15 = load i64, ptr %7, align 8, !tbaa !80
  %16 = add i64 %15, -1
  store i64 %16, ptr %7, align 8, !tbaa !80
  br label %17

17:                                               ; preds = %10, %6, %4, %2
  %18 = and i32 %0, 255
  br label %19

19:                                               ; preds = %17, %2
  %20 = phi i32 [ %18, %17 ], [ -1, %2 ]
  ret i32 %20
}

; Function Attrs: nounwind optsize uwtable
define internal fastcc i32 @padded(ptr nocapture noundef %0, ptr nocapture noundef readonly %1, i32 noundef %2, i32 noundef %3, i32 noundef %4) unnamed_addr #1 {
  %6 = icmp slt i32 %4, 0
  %7 = lshr i32 %4, 31
  %8 = icmp ne i32 %7, 0
  %9 = sub i32 0, %4
  %10 = select i1 %8, i32 %9, i32 %4
  %11 = sub nsw i32 %10, %2
  %12 = and i32 %3, 1
  %13 = icmp ne i32 %12, 0
  %14 = or i1 %6, %13
  br i1 %14, label %24, label %15

15:                                               ; preds = %5
  %16 = icmp sgt i32 %11, 0
  br i1 %16, label %17, label %22

17:                                               ; preds = %17, %15
  %18 = phi i32 [ %20, %17 ], [ 0, %15 ]
  %19 = tail call i32 @fputc(i32 noundef 32, ptr noundef %0) #13
  %20 = add nuw nsw i32 %18, 1
  %21 = icmp eq i32 %20, %11
  br i1 %21, label %22, label %17, !llvm.loop !69

22:                                               ; preds = %17, %15
  %23 = tail call noundef i32 @llvm.smax.i32(i32 %11, i32 0)
  br label %24

24:                                               ; preds = %22, %5
  %25 = phi i32 [ %23, %22 ], [ 0, %5 ]
  %26 = sext i32 %2 to i64
  %27 = load i8, ptr %0, align 8, !tbaa !51, !alias.scope !82, !noalias !85
  %28 = icmp eq i8 %27, 0
  %29 = icmp eq i32 %2, 0
  %30 = or i1 %29, %28
  br i1 %30, label %39, label %31

31:                                               ; preds = %31, %24
  %32 = phi i64 [ %37, %31 ], [ 0, %24 ]
  %33 = getelementptr inbounds i8, ptr %1, i64 %32
  %34 = load i8, ptr %33, align 1, !tbaa !25, !alias.scope !85, !noalias !82
  %35 = zext i8 %34 to i32
  %36 = tail call i32 @fputc(i32 noundef %35, ptr noundef nonnull %0) #13, !noalias !85
  %37 = add nuw i64 %32, 1
  %38 = icmp eq i64 %37, %26
  br i1 %38, label %39, label %31, !llvm.loop !58

39:                                               ; preds = %31, %24
  br i1 %14, label %40, label %49

40:                                               ; preds = %39
  %41 = icmp sgt i32 %11, 0
  br i1 %41, label %42, label %47

42:                                               ; preds = %42, %40
  %43 = phi i32 [ %45, %42 ], [ 0, %40 ]
  %44 = tail call i32 @fputc(i32 noundef 32, ptr noundef nonnull %0) #13
  %45 = add nuw nsw i32 %43, 1
  %46 = icmp eq i32 %45, %11
  br i1 %46, label %47, label %42, !llvm.loop !69

47:                                               ; preds = %42, %40
  %48 = tail call noundef i32 @llvm.smax.i32(i32 %11, i32 0)
  br label %49

49:                                               ; preds = %47, %39
  %50 = phi i32 [ %48, %47 ], [ 0, %39 ]
  %51 = add nsw i32 %25, %2
  %52 = add nsw i32 %51, %50
  ret i32 %52
}

; Function Attrs: nofree nounwind uwtable
define internal fastcc void @expression(ptr nocapture noundef %0) unnamed_addr #5 {
  tail call fastcc void @product(ptr noundef %0)
  %2 = getelementptr inbounds i8, ptr %0, i64 12
  %3 = getelementptr inbounds i8, ptr %0, i64 36
  %4 = getelementptr inbounds i8, ptr %0, i64 40
  %5 = getelementptr inbounds i8, ptr %0, i64 8
  br label %6

6:                                                ; preds = %37, %1
  %7 = load i32, ptr %2, align 4, !tbaa !15
  %8 = icmp eq i32 %7, 3
  br i1 %8, label %9, label %14

9:                                                ; preds = %6
  %10 = load i32, ptr %3, align 4, !tbaa !48
  %11 = icmp eq i32 %10, 43
  br i1 %11, label %17, label %12

12:                                               ; preds = %9
  %13 = icmp eq i32 %10, 45
  br label %14

14:                                               ; preds = %12, %6
  %15 = phi i1 [ %13, %12 ], [ false, %6 ]
  %16 = select i1 %15, i32 5, i32 0
  br label %17

17:                                               ; preds = %14, %9
  %18 = phi i32 [ %16, %14 ], [ 4, %9 ]
  %19 = icmp eq i32 %18, 0
  br i1 %19, label %38, label %20

20:                                               ; preds = %17
  tail call fastcc void @lexer_next(ptr noundef %0)
  tail call fastcc void @product(ptr noundef %0)
  %21 = load ptr, ptr %4, align 8, !tbaa !12
  %22 = getelementptr inbounds i8, ptr %21, i64 2000
  %23 = load i64, ptr %22, align 8, !tbaa !19
  %24 = icmp eq i64 %23, 2000
  br i1 %24, label %25, label %33

25:                                               ; preds = %20
  %26 = getelementptr inbounds i8, ptr %21, i64 2656
  %27 = load ptr, ptr %26, align 8, !tbaa !22
  %28 = icmp eq ptr %27, null
  br i1 %28, label %29, label %32

29:                                               ; preds = %25
  store ptr @.str.10, ptr %26, align 8, !tbaa !22
  %30 = load i32, ptr %5, align 8, !tbaa !23
  %31 = getelementptr inbounds i8, ptr %21, i64 2664
  store i32 %30, ptr %31, align 8, !tbaa !24
  br label %32

32:                                               ; preds = %29, %25
  store i32 0, ptr %2, align 4, !tbaa !15
  br label %37

33:                                               ; preds = %20
  %34 = trunc nuw nsw i32 %18 to i8
  %35 = add i64 %23, 1
  store i64 %35, ptr %22, align 8, !tbaa !19
  %36 = getelementptr inbounds [2000 x i8], ptr %21, i64 0, i64 %23
  store i8 %34, ptr %36, align 1, !tbaa !25
  br label %37

37:                                               ; preds = %33, %32
  br label %6

38:                                               ; preds = %17
  %39 = load i32, ptr %2, align 4, !tbaa !15
  %40 = icmp eq i32 %39, 3
  br i1 %40, label %41, label %43

41:                                               ; preds = %38
  %42 = load i32, ptr %3, align 4, !tbaa !48
  br label %43

43:                                               ; preds = %41, %38
  %44 = phi i32 [ %42, %41 ], [ 0, %38 ]
  switch i32 %44, label %115 [
    i32 318, label %45
    i32 317, label %45
    i32 289, label %45
    i32 60, label %45
  ]

45:                                               ; preds = %43, %43, %43, %43
  tail call fastcc void @lexer_next(ptr noundef %0)
  tail call fastcc void @product(ptr noundef %0)
  br label %46

46:                                               ; preds = %77, %45
  %47 = load i32, ptr %2, align 4, !tbaa !15
  %48 = icmp eq i32 %47, 3
  br i1 %48, label %49, label %54

49:                                               ; preds = %46
  %50 = load i32, ptr %3, align 4, !tbaa !48
  %51 = icmp eq i32 %50, 43
  br i1 %51, label %57, label %52

52:                                               ; preds = %49
  %53 = icmp eq i32 %50, 45
  br label %54

54:                                               ; preds = %52, %46
  %55 = phi i1 [ %53, %52 ], [ false, %46 ]
  %56 = select i1 %55, i32 5, i32 0
  br label %57

57:                                               ; preds = %54, %49
  %58 = phi i32 [ %56, %54 ], [ 4, %49 ]
  %59 = icmp eq i32 %58, 0
  br i1 %59, label %78, label %60

60:                                               ; preds = %57
  tail call fastcc void @lexer_next(ptr noundef %0)
  tail call fastcc void @product(ptr noundef %0)
  %61 = load ptr, ptr %4, align 8, !tbaa !12
  %62 = getelementptr inbounds i8, ptr %61, i64 2000
  %63 = load i64, ptr %62, align 8, !tbaa !19
  %64 = icmp eq i64 %63, 2000
  br i1 %64, label %65, label %73

65:                                               ; preds = %60
  %66 = getelementptr inbounds i8, ptr %61, i64 2656
  %67 = load ptr, ptr %66, align 8, !tbaa !22
  %68 = icmp eq ptr %67, null
  br i1 %68, label %69, label %72

69:                                               ; preds = %65
  store ptr @.str.10, ptr %66, align 8, !tbaa !22
  %70 = load i32, ptr %5, align 8, !tbaa !23
  %71 = getelementptr inbounds i8, ptr %61, i64 2664
  store i32 %70, ptr %71, align 8, !tbaa !24
  br label %72

72:                                               ; preds = %69, %65
  store i32 0, ptr %2, align 4, !tbaa !15
  br label %77

73:                                               ; preds = %60
  %74 = trunc nuw nsw i32 %58 to i8
  %75 = add i64 %63, 1
  store i64 %75, ptr %62, align 8, !tbaa !19
  %76 = getelementptr inbounds [2000 x i8], ptr %61, i64 0, i64 %63
  store i8 %74, ptr %76, align 1, !tbaa !25
  br label %77

77:                                               ; preds = %73, %72
  br label %46

78:                                               ; preds = %57
  %79 = load ptr, ptr %4, align 8, !tbaa !12
  %80 = getelementptr inbounds i8, ptr %79, i64 2000
  %81 = load i64, ptr %80, align 8, !tbaa !19
  %82 = icmp eq i64 %81, 2000
  br i1 %82, label %83, label %91

83:                                               ; preds = %78
  %84 = getelementptr inbounds i8, ptr %79, i64 2656
  %85 = load ptr, ptr %84, align 8, !tbaa !22
  %86 = icmp eq ptr %85, null
  br i1 %86, label %87, label %90

87:                                               ; preds = %83
  store ptr @.str.10, ptr %84, align 8, !tbaa !22
  %88 = load i32, ptr %5, align 8, !tbaa !23
  %89 = getelementptr inbounds i8, ptr %79, i64 2664
  store i32 %88, ptr %89, align 8, !tbaa !24
  br label %90

90:                                               ; preds = %87, %83
  store i32 0, ptr %2, align 4, !tbaa !15
  br label %98

91:                                               ; preds = %78
  %92 = icmp eq i32 %44, 60
  %93 = icmp eq i32 %44, 318
  %94 = or i1 %92, %93
  %95 = select i1 %94, i8 9, i8 10
  %96 = add i64 %81, 1
  store i64 %96, ptr %80, align 8, !tbaa !19
  %97 = getelementptr inbounds [2000 x i8], ptr %79, i64 0, i64 %81
  store i8 %95, ptr %97, align 1, !tbaa !25
  br label %98

98:                                               ; preds = %91, %90
  switch i32 %44, label %115 [
    i32 318, label %99
    i32 289, label %99
  ]

99:                                               ; preds = %98, %98
  %100 = load ptr, ptr %4, align 8, !tbaa !12
  %101 = getelementptr inbounds i8, ptr %100, i64 2000
  %102 = load i64, ptr %101, align 8, !tbaa !19
  %103 = icmp eq i64 %102, 2000
  br i1 %103, label %104, label %112

104:                                              ; preds = %99
  %105 = getelementptr inbounds i8, ptr %100, i64 2656
  %106 = load ptr, ptr %105, align 8, !tbaa !22
  %107 = icmp eq ptr %106, null
  br i1 %107, label %108, label %111

108:                                              ; preds = %104
  store ptr @.str.10, ptr %105, align 8, !tbaa !22
  %109 = load i32, ptr %5, align 8, !tbaa !23
  %110 = getelementptr inbounds i8, ptr %100, i64 2664
  store i32 %109, ptr %110, align 8, !tbaa !24
  br label %111

111:                                              ; preds = %108, %104
  store i32 0, ptr %2, align 4, !tbaa !15
  br label %115

112:                                              ; preds = %99
  %113 = add i64 %102, 1
  store i64 %113, ptr %101, align 8, !tbaa !19
  %114 = getelementptr inbounds [2000 x i8], ptr %100, i64 0, i64 %102
  store i8 11, ptr %114, align 1, !tbaa !25
  br label %115

115:                                              ; preds = %112, %111, %98, %43
  ret void
}

; Function Attrs: nofree nounwind uwtable
define internal fastcc void @block(ptr noundef %0) unnamed_addr #5 {
  %2 = getelementptr inbounds i8, ptr %0, i64 12
  %3 = load i32, ptr %2, align 4, !tbaa !15
  %4 = icmp eq i32 %3, 3
  br i1 %4, label %5, label %10

5:                                                ; preds = %1
  %6 = getelementptr inbounds i8, ptr %0, i64 36
  %7 = load i32, ptr %6, align 4, !tbaa !48
  %8 = icmp eq i32 %7, 123
  br i1 %8, label %9, label %10

9:                                                ; preds = %5
  tail call fastcc void @lexer_next(ptr noundef %0)
  br label %21

10:                                               ; preds = %5, %1
  %11 = getelementptr inbounds i8, ptr %0, i64 40
  %12 = load ptr, ptr %11, align 8, !tbaa !12
  %13 = getelementptr inbounds i8, ptr %12, i64 2656
  %14 = load ptr, ptr %13, align 8, !tbaa !22
  %15 = icmp eq ptr %14, null
  br i1 %15, label %16, label %20

16:                                               ; preds = %10
  store ptr @.str.4, ptr %13, align 8, !tbaa !22
  %17 = getelementptr inbounds i8, ptr %0, i64 8
  %18 = load i32, ptr %17, align 8, !tbaa !23
  %19 = getelementptr inbounds i8, ptr %12, i64 2664
  store i32 %18, ptr %19, align 8, !tbaa !24
  br label %20

20:                                               ; preds = %16, %10
  store i32 0, ptr %2, align 4, !tbaa !15
  br label %21

21:                                               ; preds = %20, %9
  %22 = getelementptr inbounds i8, ptr %0, i64 36
  br label %23

23:                                               ; preds = %28, %21
  %24 = load i32, ptr %2, align 4, !tbaa !15
  switch i32 %24, label %28 [
    i32 3, label %25
    i32 0, label %32
  ]

25:                                               ; preds = %23
  %26 = load i32, ptr %22, align 4, !tbaa !48
  %27 = icmp eq i32 %26, 125
  br i1 %27, label %29, label %28

28:                                               ; preds = %25, %23
  tail call fastcc void @statement(ptr noundef %0)
  br label %23, !llvm.loop !87

29:                                               ; preds = %25
  %30 = icmp eq i32 %24, 3
  br i1 %30, label %31, label %32

31:                                               ; preds = %29
  tail call fastcc void @lexer_next(ptr noundef %0)
  br label %43

32:                                               ; preds = %29, %23
  %33 = getelementptr inbounds i8, ptr %0, i64 40
  %34 = load ptr, ptr %33, align 8, !tbaa !12
  %35 = getelementptr inbounds i8, ptr %34, i64 2656
  %36 = load ptr, ptr %35, align 8, !tbaa !22
  %37 = icmp eq ptr %36, null
  br i1 %37, label %38, label %42

38:                                               ; preds = %32
  store ptr @.str.5, ptr %35, align 8, !tbaa !22
  %39 = getelementptr inbounds i8, ptr %0, i64 8
  %40 = load i32, ptr %39, align 8, !tbaa !23
  %41 = getelementptr inbounds i8, ptr %34, i64 2664
  store i32 %40, ptr %41, align 8, !tbaa !24
  br label %42

42:                                               ; preds = %38, %32
  store i32 0, ptr %2, align 4, !tbaa !15
  br label %43

43:                                               ; preds = %42, %31
  ret void
}

; Function Attrs: nofree norecurse nosync nounwind optsize memory(read, inaccessiblemem: none) uwtable
define internal range(i32 -1, 2) i32 @strcmp(ptr nocapture noundef readonly %0, ptr nocapture noundef readonly %1) local_unnamed_addr #2 {
  %3 = load i8, ptr %0, align 1, !tbaa !25
  %4 = icmp eq i8 %3, 0
  br i1 %4, label %16, label %5

5:                                                ; preds = %11, %2
  %6 = phi i8 [ %14, %11 ], [ %3, %2 ]
  %7 = phi ptr [ %13, %11 ], [ %1, %2 ]
  %8 = phi ptr [ %12, %11 ], [ %0, %2 ]
  %9 = load i8, ptr %7, align 1, !tbaa !25
  %10 = icmp eq i8 %6, %9
  br i1 %10, label %11, label %16

11:                                               ; preds = %5
  %12 = getelementptr inbounds i8, ptr %8, i64 1
  %13 = getelementptr inbounds i8, ptr %7, i64 1
  %14 = load i8, ptr %12, align 1, !tbaa !25
  %15 = icmp eq i8 %14, 0
  br i1 %15, label %16, label %5, !llvm.loop !88

16:                                               ; preds = %11, %5, %2
  %17 = phi ptr [ %1, %2 ], [ %13, %11 ], [ %7, %5 ]
  %18 = phi i8 [ 0, %2 ], [ 0, %11 ], [ %6, %5 ]
  %19 = load i8, ptr %17, align 1, !tbaa !25
  %20 = icmp ult i8 %18, %19
  %21 = icmp ugt i8 %18, %19
  %22 = zext i1 %21 to i32
  %23 = select i1 %20, i32 -1, i32 %22
  ret i32 %23
}

; Function Attrs: nofree nounwind uwtable
define internal fastcc void @product(ptr nocapture noundef %0) unnamed_addr #5 {
  tail call fastcc void @primary(ptr noundef %0)
  %2 = getelementptr inbounds i8, ptr %0, i64 12
  %3 = getelementptr inbounds i8, ptr %0, i64 36
  %4 = getelementptr inbounds i8, ptr %0, i64 40
  %5 = getelementptr inbounds i8, ptr %0, i64 8
  br label %6

6:                                                ; preds = %36, %1
  %7 = load i32, ptr %2, align 4, !tbaa !15
  %8 = icmp eq i32 %7, 3
  br i1 %8, label %9, label %12

9:                                                ; preds = %6
  %10 = load i32, ptr %3, align 4, !tbaa !48
  switch i32 %10, label %11 [
    i32 42, label %16
    i32 47, label %15
    i32 37, label %12
  ]

11:                                               ; preds = %9
  br label %12

12:                                               ; preds = %11, %9, %6
  %13 = phi i1 [ false, %11 ], [ false, %6 ], [ true, %9 ]
  %14 = select i1 %13, i32 8, i32 0
  br label %16

15:                                               ; preds = %9
  br label %16

16:                                               ; preds = %15, %12, %9
  %17 = phi i32 [ 6, %9 ], [ %14, %12 ], [ 7, %15 ]
  %18 = icmp eq i32 %17, 0
  br i1 %18, label %37, label %19

19:                                               ; preds = %16
  tail call fastcc void @lexer_next(ptr noundef %0)
  tail call fastcc void @primary(ptr noundef %0)
  %20 = load ptr, ptr %4, align 8, !tbaa !12
  %21 = getelementptr inbounds i8, ptr %20, i64 2000
  %22 = load i64, ptr %21, align 8, !tbaa !19
  %23 = icmp eq i64 %22, 2000
  br i1 %23, label %24, label %32

24:                                               ; preds = %19
  %25 = getelementptr inbounds i8, ptr %20, i64 2656
  %26 = load ptr, ptr %25, align 8, !tbaa !22
  %27 = icmp eq ptr %26, null
  br i1 %27, label %28, label %31

28:                                               ; preds = %24
  store ptr @.str.10, ptr %25, align 8, !tbaa !22
  %29 = load i32, ptr %5, align 8, !tbaa !23
  %30 = getelementptr inbounds i8, ptr %20, i64 2664
  store i32 %29, ptr %30, align 8, !tbaa !24
  br label %31

31:                                               ; preds = %28, %24
  store i32 0, ptr %2, align 4, !tbaa !15
  br label %36

32:                                               ; preds = %19
  %33 = trunc nuw nsw i32 %17 to i8
  %34 = add i64 %22, 1
  store i64 %34, ptr %21, align 8, !tbaa !19
  %35 = getelementptr inbounds [2000 x i8], ptr %20, i64 0, i64 %22
  store i8 %33, ptr %35, align 1, !tbaa !25
  br label %36

36:                                               ; preds = %32, %31
  br label %6

37:                                               ; preds = %16
  ret void
}

; Function Attrs: nofree nounwind uwtable
define internal fastcc void @primary(ptr nocapture noundef %0) unnamed_addr #5 {
  %2 = getelementptr inbounds i8, ptr %0, i64 48
  %3 = load i32, ptr %2, align 8, !tbaa !14
  %4 = add nsw i32 %3, 1
  store i32 %4, ptr %2, align 8, !tbaa !14
  %5 = icmp sgt i32 %3, 29
  br i1 %5, label %6, label %18

6:                                                ; preds = %1
  %7 = getelementptr inbounds i8, ptr %0, i64 40
  %8 = load ptr, ptr %7, align 8, !tbaa !12
  %9 = getelementptr inbounds i8, ptr %8, i64 2656
  %10 = load ptr, ptr %9, align 8, !tbaa !22
  %11 = icmp eq ptr %10, null
  br i1 %11, label %12, label %16

12:                                               ; preds = %6
  store ptr @.str.6, ptr %9, align 8, !tbaa !22
  %13 = getelementptr inbounds i8, ptr %0, i64 8
  %14 = load i32, ptr %13, align 8, !tbaa !23
  %15 = getelementptr inbounds i8, ptr %8, i64 2664
  store i32 %14, ptr %15, align 8, !tbaa !24
  br label %16

16:                                               ; preds = %12, %6
  %17 = getelementptr inbounds i8, ptr %0, i64 12
  store i32 0, ptr %17, align 4, !tbaa !15
  br label %18

18:                                               ; preds = %16, %1
  %19 = getelementptr inbounds i8, ptr %0, i64 12
  %20 = load i32, ptr %19, align 4, !tbaa !15
  switch i32 %20, label %172 [
    i32 1, label %21
    i32 2, label %67
    i32 3, label %150
  ]

21:                                               ; preds = %18
  %22 = getelementptr inbounds i8, ptr %0, i64 16
  %23 = load i32, ptr %22, align 8, !tbaa !89
  %24 = getelementptr inbounds i8, ptr %0, i64 40
  %25 = load ptr, ptr %24, align 8, !tbaa !12
  %26 = getelementptr inbounds i8, ptr %25, i64 2000
  %27 = load i64, ptr %26, align 8, !tbaa !19
  %28 = icmp eq i64 %27, 2000
  br i1 %28, label %29, label %38

29:                                               ; preds = %21
  %30 = getelementptr inbounds i8, ptr %25, i64 2656
  %31 = load ptr, ptr %30, align 8, !tbaa !22
  %32 = icmp eq ptr %31, null
  br i1 %32, label %33, label %37

33:                                               ; preds = %29
  store ptr @.str.10, ptr %30, align 8, !tbaa !22
  %34 = getelementptr inbounds i8, ptr %0, i64 8
  %35 = load i32, ptr %34, align 8, !tbaa !23
  %36 = getelementptr inbounds i8, ptr %25, i64 2664
  store i32 %35, ptr %36, align 8, !tbaa !24
  br label %37

37:                                               ; preds = %33, %29
  store i32 0, ptr %19, align 4, !tbaa !15
  br label %41

38:                                               ; preds = %21
  %39 = add i64 %27, 1
  store i64 %39, ptr %26, align 8, !tbaa !19
  %40 = getelementptr inbounds [2000 x i8], ptr %25, i64 0, i64 %27
  store i8 1, ptr %40, align 1, !tbaa !25
  br label %41

41:                                               ; preds = %38, %37
  %42 = getelementptr inbounds i8, ptr %0, i64 8
  br label %43

43:                                               ; preds = %63, %41
  %44 = phi i32 [ 0, %41 ], [ %64, %63 ]
  %45 = load ptr, ptr %24, align 8, !tbaa !12
  %46 = getelementptr inbounds i8, ptr %45, i64 2000
  %47 = load i64, ptr %46, align 8, !tbaa !19
  %48 = icmp eq i64 %47, 2000
  br i1 %48, label %49, label %57

49:                                               ; preds = %43
  %50 = getelementptr inbounds i8, ptr %45, i64 2656
  %51 = load ptr, ptr %50, align 8, !tbaa !22
  %52 = icmp eq ptr %51, null
  br i1 %52, label %53, label %56

53:                                               ; preds = %49
  store ptr @.str.10, ptr %50, align 8, !tbaa !22
  %54 = load i32, ptr %42, align 8, !tbaa !23
  %55 = getelementptr inbounds i8, ptr %45, i64 2664
  store i32 %54, ptr %55, align 8, !tbaa !24
  br label %56

56:                                               ; preds = %53, %49
  store i32 0, ptr %19, align 4, !tbaa !15
  br label %63

57:                                               ; preds = %43
  %58 = shl nuw nsw i32 %44, 3
  %59 = lshr i32 %23, %58
  %60 = trunc i32 %59 to i8
  %61 = add i64 %47, 1
  store i64 %61, ptr %46, align 8, !tbaa !19
  %62 = getelementptr inbounds [2000 x i8], ptr %45, i64 0, i64 %47
  store i8 %60, ptr %62, align 1, !tbaa !25
  br label %63

63:                                               ; preds = %57, %56
  %64 = add nuw nsw i32 %44, 1
  %65 = icmp eq i32 %64, 4
  br i1 %65, label %66, label %43, !llvm.loop !90

66:                                               ; preds = %63
  tail call fastcc void @lexer_next(ptr noundef %0)
  br label %233

67:                                               ; preds = %18
  %68 = getelementptr inbounds i8, ptr %0, i64 40
  %69 = load ptr, ptr %68, align 8, !tbaa !12
  %70 = getelementptr inbounds i8, ptr %69, i64 2000
  %71 = load i64, ptr %70, align 8, !tbaa !19
  %72 = icmp eq i64 %71, 2000
  br i1 %72, label %73, label %82

73:                                               ; preds = %67
  %74 = getelementptr inbounds i8, ptr %69, i64 2656
  %75 = load ptr, ptr %74, align 8, !tbaa !22
  %76 = icmp eq ptr %75, null
  br i1 %76, label %77, label %81

77:                                               ; preds = %73
  store ptr @.str.10, ptr %74, align 8, !tbaa !22
  %78 = getelementptr inbounds i8, ptr %0, i64 8
  %79 = load i32, ptr %78, align 8, !tbaa !23
  %80 = getelementptr inbounds i8, ptr %69, i64 2664
  store i32 %79, ptr %80, align 8, !tbaa !24
  br label %81

81:                                               ; preds = %77, %73
  store i32 0, ptr %19, align 4, !tbaa !15
  br label %85

82:                                               ; preds = %67
  %83 = add i64 %71, 1
  store i64 %83, ptr %70, align 8, !tbaa !19
  %84 = getelementptr inbounds [2000 x i8], ptr %69, i64 0, i64 %71
  store i8 2, ptr %84, align 1, !tbaa !25
  br label %85

85:                                               ; preds = %82, %81
  %86 = getelementptr inbounds i8, ptr %0, i64 20
  %87 = load ptr, ptr %68, align 8, !tbaa !12
  %88 = getelementptr inbounds i8, ptr %87, i64 2648
  %89 = load i32, ptr %88, align 8, !tbaa !32
  %90 = icmp sgt i32 %89, 0
  br i1 %90, label %91, label %110

91:                                               ; preds = %85
  %92 = getelementptr inbounds i8, ptr %87, i64 2008
  %93 = zext nneg i32 %89 to i64
  %94 = tail call i32 @strcmp(ptr noundef nonnull dereferenceable(1) %92, ptr noundef nonnull readonly dereferenceable(1) %86) #12
  %95 = icmp eq i32 %94, 0
  br i1 %95, label %107, label %100

96:                                               ; preds = %100
  %97 = getelementptr inbounds [40 x [16 x i8]], ptr %92, i64 0, i64 %102
  %98 = tail call i32 @strcmp(ptr noundef nonnull dereferenceable(1) %97, ptr noundef nonnull readonly dereferenceable(1) %86) #12
  %99 = icmp eq i32 %98, 0
  br i1 %99, label %104, label %100, !llvm.loop !91

100:                                              ; preds = %96, %91
  %101 = phi i64 [ %102, %96 ], [ 0, %91 ]
  %102 = add nuw nsw i64 %101, 1
  %103 = icmp eq i64 %102, %93
  br i1 %103, label %110, label %96, !llvm.loop !91

104:                                              ; preds = %96
  %105 = icmp ult i64 %102, %93
  %106 = trunc nuw nsw i64 %102 to i32
  br label %107

107:                                              ; preds = %104, %91
  %108 = phi i32 [ 0, %91 ], [ %106, %104 ]
  %109 = phi i1 [ true, %91 ], [ %105, %104 ]
  br i1 %109, label %130, label %110

110:                                              ; preds = %107, %100, %85
  %111 = icmp eq i32 %89, 40
  br i1 %111, label %112, label %121

112:                                              ; preds = %110
  %113 = getelementptr inbounds i8, ptr %87, i64 2656
  %114 = load ptr, ptr %113, align 8, !tbaa !22
  %115 = icmp eq ptr %114, null
  br i1 %115, label %116, label %120

116:                                              ; preds = %112
  store ptr @.str.9, ptr %113, align 8, !tbaa !22
  %117 = getelementptr inbounds i8, ptr %0, i64 8
  %118 = load i32, ptr %117, align 8, !tbaa !23
  %119 = getelementptr inbounds i8, ptr %87, i64 2664
  store i32 %118, ptr %119, align 8, !tbaa !24
  br label %120

120:                                              ; preds = %116, %112
  store i32 0, ptr %19, align 4, !tbaa !15
  br label %130

121:                                              ; preds = %110
  %122 = getelementptr inbounds i8, ptr %87, i64 2008
  %123 = sext i32 %89 to i64
  %124 = getelementptr inbounds [40 x [16 x i8]], ptr %122, i64 0, i64 %123
  %125 = tail call ptr @strcpy(ptr noundef nonnull dereferenceable(1) %124, ptr noundef nonnull readonly dereferenceable(1) %86) #12
  %126 = load ptr, ptr %68, align 8, !tbaa !12
  %127 = getelementptr inbounds i8, ptr %126, i64 2648
  %128 = load i32, ptr %127, align 8, !tbaa !32
  %129 = add nsw i32 %128, 1
  store i32 %129, ptr %127, align 8, !tbaa !32
  br label %130

130:                                              ; preds = %121, %120, %107
  %131 = phi i32 [ %108, %107 ], [ 0, %120 ], [ %128, %121 ]
  %132 = load ptr, ptr %68, align 8, !tbaa !12
  %133 = getelementptr inbounds i8, ptr %132, i64 2000
  %134 = load i64, ptr %133, align 8, !tbaa !19
  %135 = icmp eq i64 %134, 2000
  br i1 %135, label %136, label %145

136:                                              ; preds = %130
  %137 = getelementptr inbounds i8, ptr %132, i64 2656
  %138 = load ptr, ptr %137, align 8, !tbaa !22
  %139 = icmp eq ptr %138, null
  br i1 %139, label %140, label %144

140:                                              ; preds = %136
  store ptr @.str.10, ptr %137, align 8, !tbaa !22
  %141 = getelementptr inbounds i8, ptr %0, i64 8
  %142 = load i32, ptr %141, align 8, !tbaa !23
  %143 = getelementptr inbounds i8, ptr %132, i64 2664
  store i32 %142, ptr %143, align 8, !tbaa !24
  br label %144

144:                                              ; preds = %140, %136
  store i32 0, ptr %19, align 4, !tbaa !15
  br label %149

145:                                              ; preds = %130
  %146 = trunc i32 %131 to i8
  %147 = add i64 %134, 1
  store i64 %147, ptr %133, align 8, !tbaa !19
  %148 = getelementptr inbounds [2000 x i8], ptr %132, i64 0, i64 %134
  store i8 %146, ptr %148, align 1, !tbaa !25
  br label %149

149:                                              ; preds = %145, %144
  tail call fastcc void @lexer_next(ptr noundef %0)
  br label %233

150:                                              ; preds = %18
  %151 = getelementptr inbounds i8, ptr %0, i64 36
  %152 = load i32, ptr %151, align 4, !tbaa !48
  %153 = icmp eq i32 %152, 40
  br i1 %153, label %154, label %172

154:                                              ; preds = %150
  tail call fastcc void @lexer_next(ptr noundef %0)
  tail call fastcc void @expression(ptr noundef %0)
  %155 = load i32, ptr %19, align 4, !tbaa !15
  %156 = icmp eq i32 %155, 3
  br i1 %156, label %157, label %161

157:                                              ; preds = %154
  %158 = load i32, ptr %151, align 4, !tbaa !48
  %159 = icmp eq i32 %158, 41
  br i1 %159, label %160, label %161

160:                                              ; preds = %157
  tail call fastcc void @lexer_next(ptr noundef %0)
  br label %233

161:                                              ; preds = %157, %154
  %162 = getelementptr inbounds i8, ptr %0, i64 40
  %163 = load ptr, ptr %162, align 8, !tbaa !12
  %164 = getelementptr inbounds i8, ptr %163, i64 2656
  %165 = load ptr, ptr %164, align 8, !tbaa !22
  %166 = icmp eq ptr %165, null
  br i1 %166, label %167, label %171

167:                                              ; preds = %161
  store ptr @.str.7, ptr %164, align 8, !tbaa !22
  %168 = getelementptr inbounds i8, ptr %0, i64 8
  %169 = load i32, ptr %168, align 8, !tbaa !23
  %170 = getelementptr inbounds i8, ptr %163, i64 2664
  store i32 %169, ptr %170, align 8, !tbaa !24
  br label %171

171:                                              ; preds = %167, %161
  store i32 0, ptr %19, align 4, !tbaa !15
  br label %233

172:                                              ; preds = %150, %18
  %173 = load i32, ptr %19, align 4, !tbaa !15
  %174 = icmp eq i32 %173, 3
  br i1 %174, label %175, label %197

175:                                              ; preds = %172
  %176 = getelementptr inbounds i8, ptr %0, i64 36
  %177 = load i32, ptr %176, align 4, !tbaa !48
  %178 = icmp eq i32 %177, 45
  br i1 %178, label %179, label %197

179:                                              ; preds = %175
  tail call fastcc void @lexer_next(ptr noundef %0)
  tail call fastcc void @primary(ptr noundef %0)
  %180 = getelementptr inbounds i8, ptr %0, i64 40
  %181 = load ptr, ptr %180, align 8, !tbaa !12
  %182 = getelementptr inbounds i8, ptr %181, i64 2000
  %183 = load i64, ptr %182, align 8, !tbaa !19
  %184 = icmp eq i64 %183, 2000
  br i1 %184, label %185, label %194

185:                                              ; preds = %179
  %186 = getelementptr inbounds i8, ptr %181, i64 2656
  %187 = load ptr, ptr %186, align 8, !tbaa !22
  %188 = icmp eq ptr %187, null
  br i1 %188, label %189, label %193

189:                                              ; preds = %185
  store ptr @.str.10, ptr %186, align 8, !tbaa !22
  %190 = getelementptr inbounds i8, ptr %0, i64 8
  %191 = load i32, ptr %190, align 8, !tbaa !23
  %192 = getelementptr inbounds i8, ptr %181, i64 2664
  store i32 %191, ptr %192, align 8, !tbaa !24
  br label %193

193:                                              ; preds = %189, %185
  store i32 0, ptr %19, align 4, !tbaa !15
  br label %233

194:                                              ; preds = %179
  %195 = add i64 %183, 1
  store i64 %195, ptr %182, align 8, !tbaa !19
  %196 = getelementptr inbounds [2000 x i8], ptr %181, i64 0, i64 %183
  store i8 12, ptr %196, align 1, !tbaa !25
  br label %233

197:                                              ; preds = %175, %172
  %198 = load i32, ptr %19, align 4, !tbaa !15
  %199 = icmp eq i32 %198, 3
  br i1 %199, label %200, label %222

200:                                              ; preds = %197
  %201 = getelementptr inbounds i8, ptr %0, i64 36
  %202 = load i32, ptr %201, align 4, !tbaa !48
  %203 = icmp eq i32 %202, 33
  br i1 %203, label %204, label %222

204:                                              ; preds = %200
  tail call fastcc void @lexer_next(ptr noundef %0)
  tail call fastcc void @primary(ptr noundef %0)
  %205 = getelementptr inbounds i8, ptr %0, i64 40
  %206 = load ptr, ptr %205, align 8, !tbaa !12
  %207 = getelementptr inbounds i8, ptr %206, i64 2000
  %208 = load i64, ptr %207, align 8, !tbaa !19
  %209 = icmp eq i64 %208, 2000
  br i1 %209, label %210, label %219

210:                                              ; preds = %204
  %211 = getelementptr inbounds i8, ptr %206, i64 2656
  %212 = load ptr, ptr %211, align 8, !tbaa !22
  %213 = icmp eq ptr %212, null
  br i1 %213, label %214, label %218

214:                                              ; preds = %210
  store ptr @.str.10, ptr %211, align 8, !tbaa !22
  %215 = getelementptr inbounds i8, ptr %0, i64 8
  %216 = load i32, ptr %215, align 8, !tbaa !23
  %217 = getelementptr inbounds i8, ptr %206, i64 2664
  store i32 %216, ptr %217, align 8, !tbaa !24
  br label %218

218:                                              ; preds = %214, %210
  store i32 0, ptr %19, align 4, !tbaa !15
  br label %233

219:                                              ; preds = %204
  %220 = add i64 %208, 1
  store i64 %220, ptr %207, align 8, !tbaa !19
  %221 = getelementptr inbounds [2000 x i8], ptr %206, i64 0, i64 %208
  store i8 11, ptr %221, align 1, !tbaa !25
  br label %233

222:                                              ; preds = %200, %197
  %223 = getelementptr inbounds i8, ptr %0, i64 40
  %224 = load ptr, ptr %223, align 8, !tbaa !12
  %225 = getelementptr inbounds i8, ptr %224, i64 2656
  %226 = load ptr, ptr %225, align 8, !tbaa !22
  %227 = icmp eq ptr %226, null
  br i1 %227, label %228, label %232

228:                                              ; preds = %222
  store ptr @.str.8, ptr %225, align 8, !tbaa !22
  %229 = getelementptr inbounds i8, ptr %0, i64 8
  %230 = load i32, ptr %229, align 8, !tbaa !23
  %231 = getelementptr inbounds i8, ptr %224, i64 2664
  store i32 %230, ptr %231, align 8, !tbaa !24
  br label %232

232:                                              ; preds = %228, %222
  store i32 0, ptr %19, align 4, !tbaa !15
  br label %233

233:                                              ; preds = %232, %219, %218, %194, %193, %171, %160, %149, %66
  %234 = load i32, ptr %2, align 8, !tbaa !14
  %235 = add nsw i32 %234, -1
  store i32 %235, ptr %2, align 8, !tbaa !14
  ret void
}

; Function Attrs: mustprogress nofree norecurse nosync nounwind optsize willreturn memory(none) uwtable
define internal range(i32 0, 2) i32 @isspace(i32 noundef %0) local_unnamed_addr #9 {
  %2 = icmp eq i32 %0, 32
  %3 = add i32 %0, -9
  %4 = icmp ult i32 %3, 5
  %5 = or i1 %2, %4
  %6 = zext i1 %5 to i32
  ret i32 %6
}

; Function Attrs: nofree norecurse nosync nounwind optsize memory(readwrite, inaccessiblemem: none) uwtable
define internal i64 @strtoul(ptr noalias noundef %0, ptr noalias noundef %1, i32 noundef %2) local_unnamed_addr #10 {
  %4 = alloca %struct.number, align 8
  call void @llvm.lifetime.start.p0(i64 16, ptr nonnull %4) #12
  %5 = call fastcc ptr @scan(ptr noundef nonnull %4, ptr noundef %0, ptr noundef %1, i32 noundef %2, i64 noundef -1, i64 noundef -1) #13
  %6 = getelementptr inbounds i8, ptr %4, i64 8
  %7 = load i32, ptr %6, align 8, !tbaa !92
  %8 = icmp eq i32 %7, 0
  %9 = getelementptr inbounds i8, ptr %4, i64 12
  %10 = load i32, ptr %9, align 4
  %11 = icmp ne i32 %10, 0
  %12 = select i1 %8, i1 true, i1 %11
  %13 = load i64, ptr %4, align 8
  %14 = sub i64 0, %13
  %15 = select i1 %12, i64 %13, i64 %14
  call void @llvm.lifetime.end.p0(i64 16, ptr nonnull %4) #12
  ret i64 %15
}

; Function Attrs: mustprogress nofree norecurse nosync nounwind optsize willreturn memory(none) uwtable
define internal range(i32 0, 2) i32 @isalpha(i32 noundef %0) local_unnamed_addr #9 {
  %2 = and i32 %0, -33
  %3 = add i32 %2, -65
  %4 = icmp ult i32 %3, 26
  %5 = zext i1 %4 to i32
  ret i32 %5
}

; Function Attrs: mustprogress nofree norecurse nosync nounwind optsize willreturn memory(none) uwtable
define internal range(i32 0, 2) i32 @isalnum(i32 noundef %0) local_unnamed_addr #9 {
  %2 = and i32 %0, -33
  %3 = add i32 %2, -65
  %4 = icmp ult i32 %3, 26
  %5 = add i32 %0, -48
  %6 = icmp ult i32 %5, 10
  %7 = or i1 %6, %4
  %8 = zext i1 %7 to i32
  ret i32 %8
}

; Function Attrs: nofree norecurse nosync nounwind optsize memory(readwrite, inaccessiblemem: none) uwtable
define internal fastcc noundef ptr @scan(ptr noundef returned writeonly %0, ptr noundef %1, ptr noundef writeonly %2, i32 noundef %3, i64 noundef %4, i64 noundef %5) unnamed_addr #10 {
  store i64 0, ptr %0, align 8, !tbaa !95
  %7 = getelementptr inbounds i8, ptr %0, i64 8
  store i32 0, ptr %7, align 8, !tbaa !92
  %8 = getelementptr inbounds i8, ptr %0, i64 12
  store i32 0, ptr %8, align 4, !tbaa !96
  %9 = icmp eq i32 %3, 1
  %10 = icmp ugt i32 %3, 36
  %11 = or i1 %10, %9
  br i1 %11, label %12, label %13

12:                                               ; preds = %6
  store i32 22, ptr @errno, align 4, !tbaa !30
  br label %130

13:                                               ; preds = %6
  %14 = icmp eq ptr %2, null
  br i1 %14, label %16, label %15

15:                                               ; preds = %13
  store ptr %1, ptr %2, align 8, !tbaa !27
  br label %16

16:                                               ; preds = %15, %13
  br label %17

17:                                               ; preds = %17, %16
  %18 = phi ptr [ %25, %17 ], [ %1, %16 ]
  %19 = load i8, ptr %18, align 1, !tbaa !25
  %20 = zext i8 %19 to i32
  %21 = icmp ne i8 %19, 32
  %22 = add nsw i32 %20, -14
  %23 = icmp ult i32 %22, -5
  %24 = and i1 %21, %23
  %25 = getelementptr inbounds i8, ptr %18, i64 1
  br i1 %24, label %26, label %17, !llvm.loop !97

26:                                               ; preds = %17
  switch i8 %19, label %31 [
    i8 45, label %27
    i8 43, label %27
  ]

27:                                               ; preds = %26, %26
  %28 = icmp eq i8 %19, 45
  %29 = zext i1 %28 to i32
  store i32 %29, ptr %7, align 8, !tbaa !92
  %30 = select i1 %28, i64 %5, i64 %4
  br label %31

31:                                               ; preds = %27, %26
  %32 = phi i64 [ %30, %27 ], [ %4, %26 ]
  %33 = phi ptr [ %25, %27 ], [ %18, %26 ]
  %34 = icmp ne i32 %3, 0
  switch i32 %3, label %66 [
    i32 16, label %35
    i32 0, label %35
  ]

35:                                               ; preds = %31, %31
  %36 = load i8, ptr %33, align 1, !tbaa !25
  %37 = icmp eq i8 %36, 48
  br i1 %37, label %38, label %63

38:                                               ; preds = %35
  %39 = getelementptr inbounds i8, ptr %33, i64 1
  %40 = load i8, ptr %39, align 1, !tbaa !25
  switch i8 %40, label %63 [
    i8 120, label %41
    i8 88, label %41
  ]

41:                                               ; preds = %38, %38
  %42 = getelementptr inbounds i8, ptr %33, i64 2
  %43 = load i8, ptr %42, align 1, !tbaa !25
  %44 = zext i8 %43 to i32
  %45 = add nsw i32 %44, -58
  %46 = icmp ult i32 %45, -10
  br i1 %46, label %47, label %66

47:                                               ; preds = %41
  %48 = and i32 %44, 223
  %49 = add nsw i32 %48, -91
  %50 = icmp ult i32 %49, -26
  br i1 %50, label %51, label %52

51:                                               ; preds = %47
  br i1 %34, label %66, label %64

52:                                               ; preds = %47
  %53 = add nsw i32 %44, -91
  %54 = icmp ult i32 %53, -26
  %55 = add nuw nsw i32 %44, 32
  %56 = select i1 %54, i32 %44, i32 %55
  %57 = freeze i32 %56
  %58 = add i32 %57, -87
  %59 = icmp ult i32 %58, 16
  %60 = or i1 %34, %59
  %61 = select i1 %59, ptr %42, ptr %33
  %62 = select i1 %59, i32 16, i32 %3
  br i1 %60, label %66, label %64

63:                                               ; preds = %38, %35
  br i1 %34, label %66, label %64

64:                                               ; preds = %63, %52, %51
  %65 = select i1 %37, i32 8, i32 10
  br label %66

66:                                               ; preds = %64, %63, %52, %51, %41, %31
  %67 = phi ptr [ %33, %64 ], [ %33, %63 ], [ %33, %31 ], [ %42, %41 ], [ %33, %51 ], [ %61, %52 ]
  %68 = phi i32 [ %65, %64 ], [ %3, %63 ], [ %3, %31 ], [ 16, %41 ], [ %3, %51 ], [ %62, %52 ]
  %69 = load i8, ptr %67, align 1, !tbaa !25
  %70 = zext i8 %69 to i32
  %71 = add nsw i32 %70, -48
  %72 = icmp ugt i32 %71, 9
  br i1 %72, label %73, label %83

73:                                               ; preds = %66
  %74 = and i32 %70, 223
  %75 = add nsw i32 %74, -91
  %76 = icmp ult i32 %75, -26
  br i1 %76, label %83, label %77

77:                                               ; preds = %73
  %78 = add nsw i32 %70, -91
  %79 = icmp ult i32 %78, -26
  %80 = add nuw nsw i32 %70, 32
  %81 = select i1 %79, i32 %70, i32 %80
  %82 = add nsw i32 %81, -87
  br label %83

83:                                               ; preds = %77, %73, %66
  %84 = phi i32 [ %82, %77 ], [ 255, %73 ], [ %71, %66 ]
  %85 = icmp ult i32 %84, %68
  br i1 %85, label %86, label %130

86:                                               ; preds = %83
  %87 = zext nneg i32 %68 to i64
  br label %88

88:                                               ; preds = %121, %86
  %89 = phi i64 [ %122, %121 ], [ 0, %86 ]
  %90 = phi i32 [ %123, %121 ], [ 0, %86 ]
  %91 = phi i8 [ %125, %121 ], [ %69, %86 ]
  %92 = phi ptr [ %124, %121 ], [ %67, %86 ]
  %93 = zext i8 %91 to i32
  %94 = add nsw i32 %93, -48
  %95 = icmp ugt i32 %94, 9
  br i1 %95, label %96, label %106

96:                                               ; preds = %88
  %97 = and i32 %93, 223
  %98 = add nsw i32 %97, -91
  %99 = icmp ult i32 %98, -26
  br i1 %99, label %106, label %100

100:                                              ; preds = %96
  %101 = add nsw i32 %93, -91
  %102 = icmp ult i32 %101, -26
  %103 = add nuw nsw i32 %93, 32
  %104 = select i1 %102, i32 %93, i32 %103
  %105 = add nsw i32 %104, -87
  br label %106

106:                                              ; preds = %100, %96, %88
  %107 = phi i32 [ %105, %100 ], [ 255, %96 ], [ %94, %88 ]
  %108 = icmp ult i32 %107, %68
  br i1 %108, label %110, label %109

109:                                              ; preds = %106
  br i1 %14, label %127, label %126

110:                                              ; preds = %106
  %111 = icmp eq i32 %90, 0
  br i1 %111, label %112, label %117

112:                                              ; preds = %110
  %113 = zext nneg i32 %107 to i64
  %114 = sub nuw i64 %32, %113
  %115 = udiv i64 %114, %87
  %116 = icmp ugt i64 %89, %115
  br i1 %116, label %117, label %118

117:                                              ; preds = %112, %110
  store i32 1, ptr %8, align 4, !tbaa !96
  br label %121

118:                                              ; preds = %112
  %119 = mul i64 %89, %87
  %120 = add i64 %119, %113
  store i64 %120, ptr %0, align 8, !tbaa !95
  br label %121

121:                                              ; preds = %118, %117
  %122 = phi i64 [ %89, %117 ], [ %120, %118 ]
  %123 = phi i32 [ 1, %117 ], [ 0, %118 ]
  %124 = getelementptr inbounds i8, ptr %92, i64 1
  %125 = load i8, ptr %124, align 1, !tbaa !25
  br label %88, !llvm.loop !98

126:                                              ; preds = %109
  store ptr %92, ptr %2, align 8, !tbaa !27
  br label %127

127:                                              ; preds = %126, %109
  %128 = icmp eq i32 %90, 0
  br i1 %128, label %130, label %129

129:                                              ; preds = %127
  store i32 34, ptr @errno, align 4, !tbaa !30
  store i64 %32, ptr %0, align 8, !tbaa !95
  br label %130

130:                                              ; preds = %129, %127, %83, %12
  ret ptr %0
}

; Function Attrs: nounwind optsize uwtable
define internal i32 @fgetc(ptr nocapture noundef %0) local_unnamed_addr #1 {
  %2 = load i8, ptr %0, align 8, !tbaa !51
  %3 = icmp eq i8 %2, 0
  br i1 %3, label %4, label %20

4:                                                ; preds = %1
  %5 = getelementptr inbounds i8, ptr %0, i64 2
  %6 = load i8, ptr %5, align 2, !tbaa !99
  %7 = icmp eq i8 %6, 0
  br i1 %7, label %12, label %8

8:                                                ; preds = %4
  store i8 0, ptr %5, align 2, !tbaa !99
  %9 = getelementptr inbounds i8, ptr %0, i64 3
  %10 = load i8, ptr %9, align 1, !tbaa !100
  %11 = zext i8 %10 to i32
  br label %20

12:                                               ; preds = %4
  %13 = getelementptr inbounds i8, ptr %0, i64 1
  %14 = load i8, ptr %13, align 1, !tbaa !101
  %15 = icmp eq i8 %14, 0
  br i1 %15, label %16, label %20

16:                                               ; preds = %12
  %17 = tail call i32 @getchar() #15
  %18 = icmp eq i32 %17, -1
  br i1 %18, label %19, label %20

19:                                               ; preds = %16
  store i8 1, ptr %13, align 1, !tbaa !101
  br label %20

20:                                               ; preds = %19, %16, %12, %8, %1
  %21 = phi i32 [ %11, %8 ], [ -1, %1 ], [ -1, %12 ], [ -1, %19 ], [ %17, %16 ]
  ret i32 %21
}

; Function Attrs: optsize
declare dso_local i32 @getchar() local_unnamed_addr #11

attributes #0 = { nounwind uwtable "min-legal-vector-width"="0" "no-trapping-math"="true" "stack-protector-buffer-size"="8" "target-cpu"="x86-64" "target-features"="+cmov,+cx8,+fxsr,+mmx,+sse,+sse2,+x87" "tune-cpu"="generic" }
attributes #1 = { nounwind optsize uwtable "min-legal-vector-width"="0" "no-builtins" "no-jump-tables"="true" "no-trapping-math"="true" "stack-protector-buffer-size"="8" "target-cpu"="x86-64" "target-features"="+cmov,+cx8,+fxsr,+mmx,+sse,+sse2,+x87" "tune-cpu"="generic" }
attributes #2 = { nofree norecurse nosync nounwind optsize memory(read, inaccessiblemem: none) uwtable "min-legal-vector-width"="0" "no-builtins" "no-jump-tables"="true" "no-trapping-math"="true" "stack-protector-buffer-size"="8" "target-cpu"="x86-64" "target-features"="+cmov,+cx8,+fxsr,+mmx,+sse,+sse2,+x87" "tune-cpu"="generic" }
attributes #3 = { nocallback nofree nosync nounwind willreturn memory(argmem: readwrite) }
attributes #4 = { nocallback nofree nounwind willreturn memory(argmem: write) }
attributes #5 = { nofree nounwind uwtable "min-legal-vector-width"="0" "no-trapping-math"="true" "stack-protector-buffer-size"="8" "target-cpu"="x86-64" "target-features"="+cmov,+cx8,+fxsr,+mmx,+sse,+sse2,+x87" "tune-cpu"="generic" }
attributes #6 = { nofree nounwind "no-trapping-math"="true" "stack-protector-buffer-size"="8" "target-cpu"="x86-64" "target-features"="+cmov,+cx8,+fxsr,+mmx,+sse,+sse2,+x87" "tune-cpu"="generic" }
attributes #7 = { nofree norecurse nosync nounwind optsize uwtable "min-legal-vector-width"="0" "no-builtins" "no-jump-tables"="true" "no-trapping-math"="true" "stack-protector-buffer-size"="8" "target-cpu"="x86-64" "target-features"="+cmov,+cx8,+fxsr,+mmx,+sse,+sse2,+x87" "tune-cpu"="generic" }
attributes #8 = { nocallback nofree nosync nounwind speculatable willreturn memory(none) }
attributes #9 = { mustprogress nofree norecurse nosync nounwind optsize willreturn memory(none) uwtable "min-legal-vector-width"="0" "no-builtins" "no-jump-tables"="true" "no-trapping-math"="true" "stack-protector-buffer-size"="8" "target-cpu"="x86-64" "target-features"="+cmov,+cx8,+fxsr,+mmx,+sse,+sse2,+x87" "tune-cpu"="generic" }
attributes #10 = { nofree norecurse nosync nounwind optsize memory(readwrite, inaccessiblemem: none) uwtable "min-legal-vector-width"="0" "no-builtins" "no-jump-tables"="true" "no-trapping-math"="true" "stack-protector-buffer-size"="8" "target-cpu"="x86-64" "target-features"="+cmov,+cx8,+fxsr,+mmx,+sse,+sse2,+x87" "tune-cpu"="generic" }
attributes #11 = { optsize "no-builtins" "no-trapping-math"="true" "stack-protector-buffer-size"="8" "target-cpu"="x86-64" "target-features"="+cmov,+cx8,+fxsr,+mmx,+sse,+sse2,+x87" "tune-cpu"="generic" }
attributes #12 = { nounwind }
attributes #13 = { nobuiltin optsize "no-builtins" }
attributes #14 = { nounwind willreturn memory(read) }
attributes #15 = { nobuiltin nounwind optsize "no-builtins" }

!llvm.ident = !{!0, !0, !0, !0, !0, !0}
!llvm.module.flags = !{!1, !2, !3, !4}

!0 = !{!"Debian clang version 19.1.7 (3~deb12u1)"}
!1 = !{i32 7, !"Dwarf Version", i32 5}
!2 = !{i32 2, !"Debug Info Version", i32 3}
!3 = !{i32 1, !"wchar_size", i32 4}
!4 = !{i32 7, !"uwtable", i32 2}
!5 = !{!6, !7, i64 0}
!6 = !{!"lexer", !7, i64 0, !10, i64 8, !10, i64 12, !10, i64 16, !8, i64 20, !10, i64 36}
!7 = !{!"any pointer", !8, i64 0}
!8 = !{!"omnipotent char", !9, i64 0}
!9 = !{!"Simple C/C++ TBAA"}
!10 = !{!"int", !8, i64 0}
!11 = !{!6, !10, i64 8}
!12 = !{!13, !7, i64 40}
!13 = !{!"compiler", !6, i64 0, !7, i64 40, !10, i64 48}
!14 = !{!13, !10, i64 48}
!15 = !{!13, !10, i64 12}
!16 = distinct !{!16, !17, !18}
!17 = !{!"llvm.loop.mustprogress"}
!18 = !{!"llvm.loop.unroll.disable"}
!19 = !{!20, !21, i64 2000}
!20 = !{!"program", !8, i64 0, !21, i64 2000, !8, i64 2008, !10, i64 2648, !7, i64 2656, !10, i64 2664}
!21 = !{!"long", !8, i64 0}
!22 = !{!20, !7, i64 2656}
!23 = !{!13, !10, i64 8}
!24 = !{!20, !10, i64 2664}
!25 = !{!8, !8, i64 0}
!26 = distinct !{!26, !17, !18}
!27 = !{!7, !7, i64 0}
!28 = distinct !{!28, !17, !18}
!29 = distinct !{!29, !17, !18}
!30 = !{!10, !10, i64 0}
!31 = distinct !{!31, !18}
!32 = !{!20, !10, i64 2648}
!33 = distinct !{!33, !17, !18}
!34 = distinct !{!34, !17, !18}
!35 = distinct !{!35, !17}
!36 = distinct !{!36, !17}
!37 = distinct !{!37, !17, !18}
!38 = distinct !{!38, !18}
!39 = distinct !{!39, !17, !18}
!40 = !{!6, !10, i64 12}
!41 = !{!6, !10, i64 16}
!42 = distinct !{!42, !17, !18}
!43 = !{!44, !7, i64 0}
!44 = !{!"", !7, i64 0, !10, i64 8}
!45 = !{!44, !10, i64 8}
!46 = distinct !{!46, !17, !18}
!47 = !{!6, !10, i64 36}
!48 = !{!13, !10, i64 36}
!49 = distinct !{!49, !17, !18}
!50 = distinct !{!50, !17, !18}
!51 = !{!52, !8, i64 0}
!52 = !{!"__stream", !8, i64 0, !8, i64 1, !8, i64 2, !8, i64 3, !7, i64 8, !21, i64 16}
!53 = !{!54}
!54 = distinct !{!54, !55, !"fwrite: %stream"}
!55 = distinct !{!55, !"fwrite"}
!56 = !{!57}
!57 = distinct !{!57, !55, !"fwrite: %from"}
!58 = distinct !{!58, !17}
!59 = distinct !{!59, !17}
!60 = distinct !{!60, !17}
!61 = distinct !{!61, !17}
!62 = distinct !{!62, !17}
!63 = !{!64}
!64 = distinct !{!64, !65, !"stpcpy: %from"}
!65 = distinct !{!65, !"stpcpy"}
!66 = !{!67}
!67 = distinct !{!67, !65, !"stpcpy: %to"}
!68 = distinct !{!68, !17}
!69 = distinct !{!69, !17}
!70 = !{!71}
!71 = distinct !{!71, !72, !"fwrite: %stream"}
!72 = distinct !{!72, !"fwrite"}
!73 = !{!74}
!74 = distinct !{!74, !72, !"fwrite: %from"}
!75 = !{!76}
!76 = distinct !{!76, !77, !"fwrite: %stream"}
!77 = distinct !{!77, !"fwrite"}
!78 = !{!79}
!79 = distinct !{!79, !77, !"fwrite: %from"}
!80 = !{!52, !21, i64 16}
!81 = !{!52, !7, i64 8}
!82 = !{!83}
!83 = distinct !{!83, !84, !"fwrite: %stream"}
!84 = distinct !{!84, !"fwrite"}
!85 = !{!86}
!86 = distinct !{!86, !84, !"fwrite: %from"}
!87 = distinct !{!87, !17, !18}
!88 = distinct !{!88, !17}
!89 = !{!13, !10, i64 16}
!90 = distinct !{!90, !17, !18}
!91 = distinct !{!91, !17, !18}
!92 = !{!93, !10, i64 8}
!93 = !{!"number", !94, i64 0, !10, i64 8, !10, i64 12}
!94 = !{!"long long", !8, i64 0}
!95 = !{!93, !94, i64 0}
!96 = !{!93, !10, i64 12}
!97 = distinct !{!97, !17}
!98 = distinct !{!98, !17}
!99 = !{!52, !8, i64 2}
!100 = !{!52, !8, i64 3}
!101 = !{!52, !8, i64 1}
