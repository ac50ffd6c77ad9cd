source_filename = "compile.c"
target datalayout = "e-m:e-p:32:32-Fi8-i64:64-v128:64:128-a:0:32-n32-S64"
target triple = "armv7-unknown-linux-gnueabi"

%struct.program = type { [2000 x i8], i32, [40 x [16 x i8]], i32, ptr, i32 }
%struct.__stream = type { i8, i8, i8, i8, ptr, i32 }
%struct.compiler = type { %struct.lexer, ptr, i32 }
%struct.lexer = type { ptr, i32, i32, i32, [16 x i8], i32 }
%struct.number = type { i64, i32, i32 }

@.str.1 = private unnamed_addr constant [23 x i8] c"a semicolon is missing\00", align 1
@.str.2 = private unnamed_addr constant [38 x i8] c"neither a statement nor an assignment\00", align 1
@.str.3 = private unnamed_addr constant [23 x i8] c"a statement is missing\00", align 1
@.str.4 = private unnamed_addr constant [19 x i8] c"a block is missing\00", align 1
@.str.5 = private unnamed_addr constant [22 x i8] c"a block is not closed\00", align 1
@.str.6 = private unnamed_addr constant [9 x i8] c"too deep\00", align 1
@.str.7 = private unnamed_addr constant [24 x i8] c"a bracket is not closed\00", align 1
@.str.8 = private unnamed_addr constant [25 x i8] c"an expression is missing\00", align 1
@.str.9 = private unnamed_addr constant [15 x i8] c"too many names\00", align 1
@.str.10 = private unnamed_addr constant [14 x i8] c"too much code\00", align 1
@.str.11 = private unnamed_addr constant [5 x i8] c"=<>!\00", align 1
@.str.1.12 = private unnamed_addr constant [6 x i8] c"while\00", align 1
@.str.2.13 = private unnamed_addr constant [3 x i8] c"if\00", align 1
@.str.3.14 = private unnamed_addr constant [5 x i8] c"else\00", align 1
@main.text = internal global [4000 x i8] zeroinitializer, align 1
@main.line = internal global [200 x i8] zeroinitializer, align 1
@.str.16 = private unnamed_addr constant [4 x i8] c"---\00", align 1
@.str.1.17 = private unnamed_addr constant [25 x i8] c"%d of %d programs ended\0A\00", align 1
@execute.program = internal global %struct.program zeroinitializer, align 4
@execute.variables = internal unnamed_addr global [40 x i32] zeroinitializer, align 4
@.str.2.18 = private unnamed_addr constant [13 x i8] c"line %d: %s\0A\00", align 1
@execute.said = internal unnamed_addr constant [4 x ptr] [ptr @.str.3.21, ptr @.str.4.22, ptr @.str.5.23, ptr @.str.6.24], align 4
@.str.3.21 = private unnamed_addr constant [6 x i8] c"ended\00", align 1
@.str.4.22 = private unnamed_addr constant [21 x i8] c"no room on the stack\00", align 1
@.str.5.23 = private unnamed_addr constant [16 x i8] c"divided by zero\00", align 1
@.str.6.24 = private unnamed_addr constant [9 x i8] c"too long\00", align 1
@.str.7.19 = private unnamed_addr constant [20 x i8] c"%s after %lu steps;\00", align 1
@.str.8.20 = private unnamed_addr constant [7 x i8] c" %s=%d\00", align 1
@.str.27 = private unnamed_addr constant [11 x i8] c"%4zu %-12s\00", align 1
@names = internal unnamed_addr constant [17 x ptr] [ptr @.str.6.30, ptr @.str.7.31, ptr @.str.8.32, ptr @.str.9.33, ptr @.str.10.34, ptr @.str.11.35, ptr @.str.12, ptr @.str.13, ptr @.str.14, ptr @.str.15, ptr @.str.16.36, ptr @.str.17, ptr @.str.18, ptr @.str.19, ptr @.str.20, ptr @.str.21, ptr @.str.22], align 4
@.str.1.28 = private unnamed_addr constant [4 x i8] c" %s\00", align 1
@.str.2.29 = private unnamed_addr constant [4 x i8] c" %d\00", align 1
@.str.3.39 = private unnamed_addr constant [1 x i8] zeroinitializer, align 1
@.str.5.41 = private unnamed_addr constant [2 x i8] c" \00", align 1
@.str.6.30 = private unnamed_addr constant [4 x i8] c"end\00", align 1
@.str.7.31 = private unnamed_addr constant [5 x i8] c"push\00", align 1
@.str.8.32 = private unnamed_addr constant [5 x i8] c"load\00", align 1
@.str.9.33 = private unnamed_addr constant [6 x i8] c"store\00", align 1
@.str.10.34 = private unnamed_addr constant [4 x i8] c"add\00", align 1
@.str.11.35 = private unnamed_addr constant [4 x i8] c"sub\00", align 1
@.str.12 = private unnamed_addr constant [4 x i8] c"mul\00", align 1
@.str.13 = private unnamed_addr constant [4 x i8] c"div\00", align 1
@.str.14 = private unnamed_addr constant [4 x i8] c"mod\00", align 1
@.str.15 = private unnamed_addr constant [5 x i8] c"less\00", align 1
@.str.16.36 = private unnamed_addr constant [6 x i8] c"equal\00", align 1
@.str.17 = private unnamed_addr constant [4 x i8] c"not\00", align 1
@.str.18 = private unnamed_addr constant [7 x i8] c"negate\00", align 1
@.str.19 = private unnamed_addr constant [5 x i8] c"jump\00", align 1
@.str.20 = private unnamed_addr constant [12 x i8] c"jump-if-not\00", align 1
@.str.21 = private unnamed_addr constant [6 x i8] c"print\00", align 1
@.str.22 = private unnamed_addr constant [5 x i8] c"line\00", align 1
@.str = private unnamed_addr constant [1 x i8] zeroinitializer, align 1
@.str.1.13 = private unnamed_addr constant [7 x i8] c"(null)\00", align 1
@.str.2.20 = private unnamed_addr constant [2 x i8] c"-\00", align 1
@.str.3.22 = private unnamed_addr constant [2 x i8] c"+\00", align 1
@.str.4.19 = private unnamed_addr constant [2 x i8] c" \00", align 1
@.str.5.27 = private unnamed_addr constant [3 x i8] c"0X\00", align 1
@.str.6.26 = private unnamed_addr constant [3 x i8] c"0x\00", align 1
@__streams = internal global [3 x %struct.__stream] [%struct.__stream zeroinitializer, %struct.__stream { i8 1, i8 0, i8 0, i8 0, ptr null, i32 0 }, %struct.__stream { i8 2, i8 0, i8 0, i8 0, ptr null, i32 0 }], align 4
@errno = internal local_unnamed_addr global i32 0, align 4
@.str.8.25 = private unnamed_addr constant [17 x i8] c"0123456789ABCDEF\00", align 1
@.str.9.18 = private unnamed_addr constant [17 x i8] c"0123456789abcdef\00", align 1

; Function Attrs: nounwind
define dso_local i32 @main() local_unnamed_addr #0 {
  %1 = alloca [64 x i32], align 4
  %2 = alloca %struct.compiler, align 4
  %3 = tail call ptr @fgets(ptr noundef nonnull @main.line, i32 noundef 200, ptr noundef nonnull @__streams)
  %4 = icmp eq ptr %3, null
  br i1 %4, label %313, label %5

5:                                                ; preds = %0
  %6 = getelementptr inbounds i8, ptr %2, i32 4
  %7 = getelementptr inbounds i8, ptr %2, i32 8
  %8 = getelementptr inbounds i8, ptr %2, i32 36
  %9 = getelementptr inbounds i8, ptr %2, i32 40
  br label %10

10:                                               ; preds = %299, %5
  %11 = phi i32 [ 0, %5 ], [ %18, %299 ]
  %12 = phi i32 [ 0, %5 ], [ %301, %299 ]
  br label %13

13:                                               ; preds = %308, %10
  %14 = phi i32 [ 0, %10 ], [ %306, %308 ]
  %15 = call i32 @bcmp(ptr noundef nonnull dereferenceable(3) @main.line, ptr noundef nonnull dereferenceable(3) @.str.16, i32 3)
  %16 = icmp eq i32 %15, 0
  br i1 %16, label %17, label %304

17:                                               ; preds = %13
  %18 = add nuw nsw i32 %11, 1
  %19 = icmp eq i32 %11, 0
  call void @llvm.lifetime.start.p0(i64 44, ptr nonnull %2) #11
  store ptr @main.text, ptr %2, align 4, !tbaa !5
  store i32 1, ptr %6, align 4, !tbaa !11
  call void @llvm.memset.p0.i64(ptr noundef nonnull align 4 dereferenceable(28) %7, i8 0, i64 28, i1 false)
  store ptr @execute.program, ptr %8, align 4, !tbaa !12
  store i32 0, ptr %9, align 4, !tbaa !14
  call void @llvm.memset.p0.i32(ptr noundef nonnull align 4 dereferenceable(2656) @execute.program, i8 0, i32 2656, i1 false)
  call fastcc void @lexer_next(ptr noundef nonnull %2)
  %20 = load i32, ptr %7, align 4, !tbaa !15
  %21 = icmp eq i32 %20, 0
  br i1 %21, label %25, label %22

22:                                               ; preds = %22, %17
  call fastcc void @statement(ptr noundef nonnull %2)
  %23 = load i32, ptr %7, align 4, !tbaa !15
  %24 = icmp eq i32 %23, 0
  br i1 %24, label %25, label %22, !llvm.loop !16

25:                                               ; preds = %22, %17
  %26 = load ptr, ptr %8, align 4, !tbaa !12
  %27 = getelementptr inbounds i8, ptr %26, i32 2000
  %28 = load i32, ptr %27, align 4, !tbaa !18
  %29 = icmp eq i32 %28, 2000
  br i1 %29, label %30, label %37

30:                                               ; preds = %25
  %31 = getelementptr inbounds i8, ptr %26, i32 2648
  %32 = load ptr, ptr %31, align 4, !tbaa !20
  %33 = icmp eq ptr %32, null
  br i1 %33, label %34, label %40

34:                                               ; preds = %30
  store ptr @.str.10, ptr %31, align 4, !tbaa !20
  %35 = load i32, ptr %6, align 4, !tbaa !21
  %36 = getelementptr inbounds i8, ptr %26, i32 2652
  store i32 %35, ptr %36, align 4, !tbaa !22
  br label %40

37:                                               ; preds = %25
  %38 = add i32 %28, 1
  store i32 %38, ptr %27, align 4, !tbaa !18
  %39 = getelementptr inbounds [2000 x i8], ptr %26, i32 0, i32 %28
  store i8 0, ptr %39, align 1, !tbaa !23
  br label %40

40:                                               ; preds = %37, %34, %30
  %41 = load ptr, ptr getelementptr inbounds (i8, ptr @execute.program, i32 2648), align 4, !tbaa !20
  %42 = icmp eq ptr %41, null
  call void @llvm.lifetime.end.p0(i64 44, ptr nonnull %2) #11
  br i1 %42, label %51, label %43

43:                                               ; preds = %40
  %44 = load i32, ptr getelementptr inbounds (i8, ptr @execute.program, i32 2652), align 4, !tbaa !22
  %45 = call i32 @__print_text(ptr nonnull getelementptr inbounds (i8, ptr @__streams, i32 12), ptr nonnull @.str.2.18, i32 5) #11
  %46 = sext i32 %44 to i64
  %47 = call i32 @__print_signed(ptr nonnull getelementptr inbounds (i8, ptr @__streams, i32 12), i64 %46, i32 0, i32 0, i32 -1) #11
  %48 = call i32 @__print_text(ptr nonnull getelementptr inbounds (i8, ptr @__streams, i32 12), ptr nonnull getelementptr inbounds (i8, ptr @.str.2.18, i32 7), i32 2) #11
  %49 = call i32 @__print_string(ptr nonnull getelementptr inbounds (i8, ptr @__streams, i32 12), ptr nonnull %41, i32 0, i32 0, i32 -1) #11
  %50 = call i32 @__print_text(ptr nonnull getelementptr inbounds (i8, ptr @__streams, i32 12), ptr nonnull getelementptr inbounds (i8, ptr @.str.2.18, i32 11), i32 1) #11
  br label %299

51:                                               ; preds = %40
  %52 = load i32, ptr getelementptr inbounds (i8, ptr @execute.program, i32 2000), align 4
  %53 = icmp ne i32 %52, 0
  %54 = select i1 %19, i1 %53, i1 false
  br i1 %54, label %55, label %118

55:                                               ; preds = %112, %51
  %56 = phi i32 [ %115, %112 ], [ 0, %51 ]
  %57 = getelementptr inbounds [2000 x i8], ptr @execute.program, i32 0, i32 %56
  %58 = load i8, ptr %57, align 1, !tbaa !23
  switch i8 %58, label %90 [
    i8 1, label %61
    i8 2, label %59
    i8 3, label %59
    i8 13, label %60
    i8 14, label %60
  ]

59:                                               ; preds = %55, %55
  br label %61

60:                                               ; preds = %55, %55
  br label %61

61:                                               ; preds = %60, %59, %55
  %62 = phi i32 [ 2, %60 ], [ 1, %59 ], [ 4, %55 ]
  %63 = add nsw i32 %62, -1
  %64 = getelementptr i8, ptr %57, i32 %62
  %65 = load i8, ptr %64, align 1, !tbaa !23
  %66 = zext i8 %65 to i32
  %67 = icmp eq i32 %63, 0
  br i1 %67, label %90, label %68, !llvm.loop !24

68:                                               ; preds = %61
  %69 = add nsw i32 %62, -2
  %70 = shl nuw nsw i32 %66, 8
  %71 = getelementptr i8, ptr %57, i32 %63
  %72 = load i8, ptr %71, align 1, !tbaa !23
  %73 = zext i8 %72 to i32
  %74 = or disjoint i32 %70, %73
  %75 = icmp eq i32 %69, 0
  br i1 %75, label %90, label %76, !llvm.loop !24

76:                                               ; preds = %68
  %77 = add nsw i32 %62, -3
  %78 = shl nuw nsw i32 %74, 8
  %79 = getelementptr i8, ptr %57, i32 %69
  %80 = load i8, ptr %79, align 1, !tbaa !23
  %81 = zext i8 %80 to i32
  %82 = or disjoint i32 %78, %81
  %83 = icmp eq i32 %77, 0
  br i1 %83, label %90, label %84, !llvm.loop !24

84:                                               ; preds = %76
  %85 = shl nuw i32 %82, 8
  %86 = getelementptr i8, ptr %57, i32 %77
  %87 = load i8, ptr %86, align 1, !tbaa !23
  %88 = zext i8 %87 to i32
  %89 = or disjoint i32 %85, %88
  br label %90

90:                                               ; preds = %84, %76, %68, %61, %55
  %91 = phi i1 [ true, %55 ], [ false, %84 ], [ false, %76 ], [ false, %68 ], [ false, %61 ]
  %92 = phi i32 [ 0, %55 ], [ %62, %84 ], [ %62, %76 ], [ %62, %68 ], [ %62, %61 ]
  %93 = phi i32 [ 0, %55 ], [ %66, %61 ], [ %74, %68 ], [ %82, %76 ], [ %89, %84 ]
  %94 = zext i8 %58 to i32
  %95 = getelementptr inbounds [17 x ptr], ptr @names, i32 0, i32 %94
  %96 = load ptr, ptr %95, align 4, !tbaa !25
  %97 = zext i32 %56 to i64
  %98 = call i32 @__print_unsigned(ptr nonnull getelementptr inbounds (i8, ptr @__streams, i32 12), i64 %97, i32 10, i32 0, i32 4, i32 -1) #11
  %99 = call i32 @__print_text(ptr nonnull getelementptr inbounds (i8, ptr @__streams, i32 12), ptr nonnull getelementptr inbounds (i8, ptr @.str.27, i32 4), i32 1) #11
  %100 = call i32 @__print_string(ptr nonnull getelementptr inbounds (i8, ptr @__streams, i32 12), ptr %96, i32 1, i32 12, i32 -1) #11
  %101 = and i8 %58, -2
  %102 = icmp eq i8 %101, 2
  br i1 %102, label %103, label %107

103:                                              ; preds = %90
  %104 = getelementptr inbounds [40 x [16 x i8]], ptr getelementptr inbounds (i8, ptr @execute.program, i32 2004), i32 0, i32 %93
  %105 = call i32 @__print_text(ptr nonnull getelementptr inbounds (i8, ptr @__streams, i32 12), ptr nonnull @.str.1.28, i32 1) #11
  %106 = call i32 @__print_string(ptr nonnull getelementptr inbounds (i8, ptr @__streams, i32 12), ptr nonnull %104, i32 0, i32 0, i32 -1) #11
  br label %112

107:                                              ; preds = %90
  br i1 %91, label %112, label %108

108:                                              ; preds = %107
  %109 = call i32 @__print_text(ptr nonnull getelementptr inbounds (i8, ptr @__streams, i32 12), ptr nonnull @.str.2.29, i32 1) #11
  %110 = sext i32 %93 to i64
  %111 = call i32 @__print_signed(ptr nonnull getelementptr inbounds (i8, ptr @__streams, i32 12), i64 %110, i32 0, i32 0, i32 -1) #11
  br label %112

112:                                              ; preds = %108, %107, %103
  %113 = call i32 @putchar(i32 noundef 10)
  %114 = add i32 %56, 1
  %115 = add i32 %114, %92
  %116 = load i32, ptr getelementptr inbounds (i8, ptr @execute.program, i32 2000), align 4, !tbaa !18
  %117 = icmp ult i32 %115, %116
  br i1 %117, label %55, label %118, !llvm.loop !26

118:                                              ; preds = %112, %51
  call void @llvm.memset.p0.i32(ptr noundef nonnull align 4 dereferenceable(160) @execute.variables, i8 0, i32 160, i1 false)
  call void @llvm.lifetime.start.p0(i64 256, ptr nonnull %1) #11
  br label %119

119:                                              ; preds = %267, %118
  %120 = phi i32 [ 0, %118 ], [ %271, %267 ]
  %121 = phi i32 [ 0, %118 ], [ %268, %267 ]
  %122 = phi ptr [ @.str.3.39, %118 ], [ %269, %267 ]
  %123 = phi i32 [ 0, %118 ], [ %270, %267 ]
  %124 = getelementptr inbounds [2000 x i8], ptr @execute.program, i32 0, i32 %121
  %125 = load i8, ptr %124, align 1, !tbaa !23
  switch i8 %125, label %157 [
    i8 1, label %128
    i8 2, label %126
    i8 3, label %126
    i8 13, label %127
    i8 14, label %127
  ]

126:                                              ; preds = %119, %119
  br label %128

127:                                              ; preds = %119, %119
  br label %128

128:                                              ; preds = %127, %126, %119
  %129 = phi i32 [ 2, %127 ], [ 1, %126 ], [ 4, %119 ]
  %130 = add nsw i32 %129, -1
  %131 = getelementptr i8, ptr %124, i32 %129
  %132 = load i8, ptr %131, align 1, !tbaa !23
  %133 = zext i8 %132 to i32
  %134 = icmp eq i32 %130, 0
  br i1 %134, label %157, label %135, !llvm.loop !27

135:                                              ; preds = %128
  %136 = add nsw i32 %129, -2
  %137 = shl nuw nsw i32 %133, 8
  %138 = getelementptr i8, ptr %124, i32 %130
  %139 = load i8, ptr %138, align 1, !tbaa !23
  %140 = zext i8 %139 to i32
  %141 = or disjoint i32 %137, %140
  %142 = icmp eq i32 %136, 0
  br i1 %142, label %157, label %143, !llvm.loop !27

143:                                              ; preds = %135
  %144 = add nsw i32 %129, -3
  %145 = shl nuw nsw i32 %141, 8
  %146 = getelementptr i8, ptr %124, i32 %136
  %147 = load i8, ptr %146, align 1, !tbaa !23
  %148 = zext i8 %147 to i32
  %149 = or disjoint i32 %145, %148
  %150 = icmp eq i32 %144, 0
  br i1 %150, label %157, label %151, !llvm.loop !27

151:                                              ; preds = %143
  %152 = shl nuw i32 %149, 8
  %153 = getelementptr i8, ptr %124, i32 %144
  %154 = load i8, ptr %153, align 1, !tbaa !23
  %155 = zext i8 %154 to i32
  %156 = or disjoint i32 %152, %155
  br label %157

157:                                              ; preds = %151, %143, %135, %128, %119
  %158 = phi i32 [ 0, %119 ], [ %129, %151 ], [ %129, %143 ], [ %129, %135 ], [ %129, %128 ]
  %159 = phi i32 [ 0, %119 ], [ %133, %128 ], [ %141, %135 ], [ %149, %143 ], [ %156, %151 ]
  %160 = add i32 %121, 1
  %161 = add i32 %160, %158
  %162 = icmp eq i32 %120, 60000
  br i1 %162, label %272, label %163

163:                                              ; preds = %157
  %164 = add nsw i32 %123, 1
  %165 = icmp sgt i32 %123, 62
  br i1 %165, label %272, label %166

166:                                              ; preds = %163
  switch i8 %125, label %266 [
    i8 0, label %272
    i8 17, label %272
    i8 1, label %167
    i8 2, label %169
    i8 3, label %173
    i8 4, label %178
    i8 5, label %186
    i8 6, label %194
    i8 7, label %202
    i8 8, label %202
    i8 9, label %222
    i8 10, label %231
    i8 11, label %240
    i8 12, label %246
    i8 13, label %267
    i8 14, label %251
    i8 15, label %257
    i8 16, label %264
  ]

167:                                              ; preds = %166
  %168 = getelementptr inbounds [64 x i32], ptr %1, i32 0, i32 %123
  store i32 %159, ptr %168, align 4, !tbaa !28
  br label %267

169:                                              ; preds = %166
  %170 = getelementptr inbounds i32, ptr @execute.variables, i32 %159
  %171 = load i32, ptr %170, align 4, !tbaa !28
  %172 = getelementptr inbounds [64 x i32], ptr %1, i32 0, i32 %123
  store i32 %171, ptr %172, align 4, !tbaa !28
  br label %267

173:                                              ; preds = %166
  %174 = add nsw i32 %123, -1
  %175 = getelementptr inbounds [64 x i32], ptr %1, i32 0, i32 %174
  %176 = load i32, ptr %175, align 4, !tbaa !28
  %177 = getelementptr inbounds i32, ptr @execute.variables, i32 %159
  store i32 %176, ptr %177, align 4, !tbaa !28
  br label %267

178:                                              ; preds = %166
  %179 = add nsw i32 %123, -1
  %180 = add nsw i32 %123, -2
  %181 = getelementptr inbounds [64 x i32], ptr %1, i32 0, i32 %180
  %182 = load i32, ptr %181, align 4, !tbaa !28
  %183 = getelementptr inbounds [64 x i32], ptr %1, i32 0, i32 %179
  %184 = load i32, ptr %183, align 4, !tbaa !28
  %185 = add i32 %184, %182
  store i32 %185, ptr %181, align 4, !tbaa !28
  br label %267

186:                                              ; preds = %166
  %187 = add nsw i32 %123, -1
  %188 = add nsw i32 %123, -2
  %189 = getelementptr inbounds [64 x i32], ptr %1, i32 0, i32 %188
  %190 = load i32, ptr %189, align 4, !tbaa !28
  %191 = getelementptr inbounds [64 x i32], ptr %1, i32 0, i32 %187
  %192 = load i32, ptr %191, align 4, !tbaa !28
  %193 = sub i32 %190, %192
  store i32 %193, ptr %189, align 4, !tbaa !28
  br label %267

194:                                              ; preds = %166
  %195 = add nsw i32 %123, -1
  %196 = add nsw i32 %123, -2
  %197 = getelementptr inbounds [64 x i32], ptr %1, i32 0, i32 %196
  %198 = load i32, ptr %197, align 4, !tbaa !28
  %199 = getelementptr inbounds [64 x i32], ptr %1, i32 0, i32 %195
  %200 = load i32, ptr %199, align 4, !tbaa !28
  %201 = mul i32 %200, %198
  store i32 %201, ptr %197, align 4, !tbaa !28
  br label %267

202:                                              ; preds = %166, %166
  %203 = add nsw i32 %123, -1
  %204 = getelementptr inbounds [64 x i32], ptr %1, i32 0, i32 %203
  %205 = load i32, ptr %204, align 4, !tbaa !28
  %206 = icmp eq i32 %205, 0
  br i1 %206, label %272, label %207

207:                                              ; preds = %202
  %208 = icmp eq i8 %125, 7
  %209 = add nsw i32 %123, -2
  %210 = getelementptr inbounds [64 x i32], ptr %1, i32 0, i32 %209
  %211 = load i32, ptr %210, align 4, !tbaa !28
  %212 = sext i32 %211 to i64
  %213 = sext i32 %205 to i64
  br i1 %208, label %214, label %217

214:                                              ; preds = %207
  %215 = sdiv i64 %212, %213
  %216 = trunc i64 %215 to i32
  br label %220

217:                                              ; preds = %207
  %218 = srem i64 %212, %213
  %219 = trunc nsw i64 %218 to i32
  br label %220

220:                                              ; preds = %217, %214
  %221 = phi i32 [ %219, %217 ], [ %216, %214 ]
  store i32 %221, ptr %210, align 4, !tbaa !28
  br label %267

222:                                              ; preds = %166
  %223 = add nsw i32 %123, -1
  %224 = add nsw i32 %123, -2
  %225 = getelementptr inbounds [64 x i32], ptr %1, i32 0, i32 %224
  %226 = load i32, ptr %225, align 4, !tbaa !28
  %227 = getelementptr inbounds [64 x i32], ptr %1, i32 0, i32 %223
  %228 = load i32, ptr %227, align 4, !tbaa !28
  %229 = icmp slt i32 %226, %228
  %230 = zext i1 %229 to i32
  store i32 %230, ptr %225, align 4, !tbaa !28
  br label %267

231:                                              ; preds = %166
  %232 = add nsw i32 %123, -1
  %233 = add nsw i32 %123, -2
  %234 = getelementptr inbounds [64 x i32], ptr %1, i32 0, i32 %233
  %235 = load i32, ptr %234, align 4, !tbaa !28
  %236 = getelementptr inbounds [64 x i32], ptr %1, i32 0, i32 %232
  %237 = load i32, ptr %236, align 4, !tbaa !28
  %238 = icmp eq i32 %235, %237
  %239 = zext i1 %238 to i32
  store i32 %239, ptr %234, align 4, !tbaa !28
  br label %267

240:                                              ; preds = %166
  %241 = add nsw i32 %123, -1
  %242 = getelementptr inbounds [64 x i32], ptr %1, i32 0, i32 %241
  %243 = load i32, ptr %242, align 4, !tbaa !28
  %244 = icmp eq i32 %243, 0
  %245 = zext i1 %244 to i32
  store i32 %245, ptr %242, align 4, !tbaa !28
  br label %267

246:                                              ; preds = %166
  %247 = add nsw i32 %123, -1
  %248 = getelementptr inbounds [64 x i32], ptr %1, i32 0, i32 %247
  %249 = load i32, ptr %248, align 4, !tbaa !28
  %250 = sub i32 0, %249
  store i32 %250, ptr %248, align 4, !tbaa !28
  br label %267

251:                                              ; preds = %166
  %252 = add nsw i32 %123, -1
  %253 = getelementptr inbounds [64 x i32], ptr %1, i32 0, i32 %252
  %254 = load i32, ptr %253, align 4, !tbaa !28
  %255 = icmp eq i32 %254, 0
  %256 = select i1 %255, i32 %159, i32 %161
  br label %267

257:                                              ; preds = %166
  %258 = add nsw i32 %123, -1
  %259 = getelementptr inbounds [64 x i32], ptr %1, i32 0, i32 %258
  %260 = load i32, ptr %259, align 4, !tbaa !28
  %261 = call i32 @__print_string(ptr nonnull getelementptr inbounds (i8, ptr @__streams, i32 12), ptr %122, i32 0, i32 0, i32 -1) #11
  %262 = sext i32 %260 to i64
  %263 = call i32 @__print_signed(ptr nonnull getelementptr inbounds (i8, ptr @__streams, i32 12), i64 %262, i32 0, i32 0, i32 -1) #11
  br label %267

264:                                              ; preds = %166
  %265 = call i32 @putchar(i32 noundef 10)
  br label %267

266:                                              ; preds = %166
  br label %267

267:                                              ; preds = %266, %264, %257, %251, %246, %240, %231, %222, %220, %194, %186, %178, %173, %169, %167, %166
  %268 = phi i32 [ %161, %266 ], [ %256, %251 ], [ %161, %167 ], [ %161, %169 ], [ %161, %173 ], [ %161, %178 ], [ %161, %186 ], [ %161, %194 ], [ %161, %220 ], [ %161, %222 ], [ %161, %231 ], [ %161, %240 ], [ %161, %246 ], [ %161, %257 ], [ %161, %264 ], [ %159, %166 ]
  %269 = phi ptr [ %122, %266 ], [ %122, %251 ], [ %122, %167 ], [ %122, %169 ], [ %122, %173 ], [ %122, %178 ], [ %122, %186 ], [ %122, %194 ], [ %122, %220 ], [ %122, %222 ], [ %122, %231 ], [ %122, %240 ], [ %122, %246 ], [ @.str.5.41, %257 ], [ @.str.3.39, %264 ], [ %122, %166 ]
  %270 = phi i32 [ %123, %266 ], [ %252, %251 ], [ %164, %167 ], [ %164, %169 ], [ %174, %173 ], [ %179, %178 ], [ %187, %186 ], [ %195, %194 ], [ %203, %220 ], [ %223, %222 ], [ %232, %231 ], [ %123, %240 ], [ %123, %246 ], [ %258, %257 ], [ %123, %264 ], [ %123, %166 ]
  %271 = add nuw nsw i32 %120, 1
  br label %119

272:                                              ; preds = %202, %166, %166, %163, %157
  %273 = phi i32 [ 0, %202 ], [ 1, %166 ], [ 1, %166 ], [ 0, %163 ], [ 0, %157 ]
  %274 = phi i32 [ 2, %202 ], [ 0, %166 ], [ 0, %166 ], [ 1, %163 ], [ 3, %157 ]
  call void @llvm.lifetime.end.p0(i64 256, ptr nonnull %1) #11
  %275 = getelementptr inbounds [4 x ptr], ptr @execute.said, i32 0, i32 %274
  %276 = load ptr, ptr %275, align 4, !tbaa !25
  %277 = call i32 @__print_string(ptr nonnull getelementptr inbounds (i8, ptr @__streams, i32 12), ptr %276, i32 0, i32 0, i32 -1) #11
  %278 = call i32 @__print_text(ptr nonnull getelementptr inbounds (i8, ptr @__streams, i32 12), ptr nonnull getelementptr inbounds (i8, ptr @.str.7.19, i32 2), i32 7) #11
  %279 = zext nneg i32 %120 to i64
  %280 = call i32 @__print_unsigned(ptr nonnull getelementptr inbounds (i8, ptr @__streams, i32 12), i64 %279, i32 10, i32 0, i32 0, i32 -1) #11
  %281 = call i32 @__print_text(ptr nonnull getelementptr inbounds (i8, ptr @__streams, i32 12), ptr nonnull getelementptr inbounds (i8, ptr @.str.7.19, i32 12), i32 7) #11
  %282 = load i32, ptr getelementptr inbounds (i8, ptr @execute.program, i32 2644), align 4, !tbaa !29
  %283 = icmp sgt i32 %282, 0
  br i1 %283, label %286, label %284

284:                                              ; preds = %286, %272
  %285 = call i32 @putchar(i32 noundef 10)
  br label %299

286:                                              ; preds = %286, %272
  %287 = phi i32 [ %296, %286 ], [ 0, %272 ]
  %288 = getelementptr inbounds [40 x [16 x i8]], ptr getelementptr inbounds (i8, ptr @execute.program, i32 2004), i32 0, i32 %287
  %289 = getelementptr inbounds [40 x i32], ptr @execute.variables, i32 0, i32 %287
  %290 = load i32, ptr %289, align 4, !tbaa !28
  %291 = call i32 @__print_text(ptr nonnull getelementptr inbounds (i8, ptr @__streams, i32 12), ptr nonnull @.str.8.20, i32 1) #11
  %292 = call i32 @__print_string(ptr nonnull getelementptr inbounds (i8, ptr @__streams, i32 12), ptr nonnull %288, i32 0, i32 0, i32 -1) #11
  %293 = call i32 @__print_text(ptr nonnull getelementptr inbounds (i8, ptr @__streams, i32 12), ptr nonnull getelementptr inbounds (i8, ptr @.str.8.20, i32 3), i32 1) #11
  %294 = sext i32 %290 to i64
  %295 = call i32 @__print_signed(ptr nonnull getelementptr inbounds (i8, ptr @__streams, i32 12), i64 %294, i32 0, i32 0, i32 -1) #11
  %296 = add nuw nsw i32 %287, 1
  %297 = load i32, ptr getelementptr inbounds (i8, ptr @execute.program, i32 2644), align 4, !tbaa !29
  %298 = icmp slt i32 %296, %297
  br i1 %298, label %286, label %284, !llvm.loop !30

299:                                              ; preds = %284, %43
  %300 = phi i32 [ %273, %284 ], [ 0, %43 ]
  %301 = add nsw i32 %300, %12
  store i8 0, ptr @main.text, align 1, !tbaa !23
  %302 = call ptr @fgets(ptr noundef nonnull @main.line, i32 noundef 200, ptr noundef nonnull @__streams)
  %303 = icmp eq ptr %302, null
  br i1 %303, label %313, label %10, !llvm.loop !31

304:                                              ; preds = %13
  %305 = call i32 @strlen(ptr noundef nonnull dereferenceable(1) @main.line) #11
  %306 = add i32 %305, %14
  %307 = icmp ugt i32 %306, 3999
  br i1 %307, label %322, label %308

308:                                              ; preds = %304
  %309 = getelementptr inbounds i8, ptr @main.text, i32 %14
  %310 = call ptr @strcpy(ptr noundef nonnull dereferenceable(1) %309, ptr noundef nonnull dereferenceable(1) @main.line) #11
  %311 = call ptr @fgets(ptr noundef nonnull @main.line, i32 noundef 200, ptr noundef nonnull @__streams)
  %312 = icmp eq ptr %311, null
  br i1 %312, label %313, label %13, !llvm.loop !31

313:                                              ; preds = %308, %299, %0
  %314 = phi i32 [ 0, %0 ], [ %12, %308 ], [ %301, %299 ]
  %315 = phi i32 [ 0, %0 ], [ %11, %308 ], [ %18, %299 ]
  %316 = sext i32 %314 to i64
  %317 = call i32 @__print_signed(ptr nonnull getelementptr inbounds (i8, ptr @__streams, i32 12), i64 %316, i32 0, i32 0, i32 -1) #11
  %318 = call i32 @__print_text(ptr nonnull getelementptr inbounds (i8, ptr @__streams, i32 12), ptr nonnull getelementptr inbounds (i8, ptr @.str.1.17, i32 2), i32 4) #11
  %319 = sext i32 %315 to i64
  %320 = call i32 @__print_signed(ptr nonnull getelementptr inbounds (i8, ptr @__streams, i32 12), i64 %319, i32 0, i32 0, i32 -1) #11
  %321 = call i32 @__print_text(ptr nonnull getelementptr inbounds (i8, ptr @__streams, i32 12), ptr nonnull getelementptr inbounds (i8, ptr @.str.1.17, i32 8), i32 16) #11
  br label %322

322:                                              ; preds = %313, %304
  %323 = phi i32 [ %314, %313 ], [ 1, %304 ]
  ret i32 %323
}

; Function Attrs: nounwind optsize
define internal noundef ptr @fgets(ptr noalias noundef writeonly %0, i32 noundef %1, ptr noalias nocapture noundef %2) local_unnamed_addr #1 {
  %4 = icmp slt i32 %1, 1
  br i1 %4, label %23, label %5

5:                                                ; preds = %3
  %6 = icmp eq i32 %1, 1
  br i1 %6, label %21, label %7

7:                                                ; preds = %12, %5
  %8 = phi i32 [ %13, %12 ], [ %1, %5 ]
  %9 = phi ptr [ %15, %12 ], [ %0, %5 ]
  %10 = tail call i32 @fgetc(ptr noundef %2) #12
  %11 = icmp eq i32 %10, -1
  br i1 %11, label %19, label %12

12:                                               ; preds = %7
  %13 = add nsw i32 %8, -1
  %14 = trunc i32 %10 to i8
  %15 = getelementptr inbounds i8, ptr %9, i32 1
  store i8 %14, ptr %9, align 1, !tbaa !23
  %16 = icmp sgt i32 %8, 2
  %17 = icmp ne i32 %10, 10
  %18 = and i1 %16, %17
  br i1 %18, label %7, label %21, !llvm.loop !32

19:                                               ; preds = %7
  %20 = icmp eq ptr %9, %0
  br i1 %20, label %23, label %21

21:                                               ; preds = %19, %12, %5
  %22 = phi ptr [ %9, %19 ], [ %0, %5 ], [ %15, %12 ]
  store i8 0, ptr %22, align 1, !tbaa !23
  br label %23

23:                                               ; preds = %21, %19, %3
  %24 = phi ptr [ %0, %21 ], [ null, %3 ], [ null, %19 ]
  ret ptr %24
}

; Function Attrs: nofree norecurse nosync nounwind optsize memory(read, inaccessiblemem: none)
define internal range(i32 -1, 2) i32 @bcmp(ptr nocapture noundef readonly %0, ptr nocapture noundef readonly %1, i32 noundef %2) local_unnamed_addr #2 {
  %4 = icmp eq i32 %2, 0
  br i1 %4, label %20, label %5

5:                                                ; preds = %15, %3
  %6 = phi ptr [ %18, %15 ], [ %1, %3 ]
  %7 = phi ptr [ %17, %15 ], [ %0, %3 ]
  %8 = phi i32 [ %16, %15 ], [ %2, %3 ]
  %9 = load i8, ptr %7, align 1, !tbaa !23
  %10 = load i8, ptr %6, align 1, !tbaa !23
  %11 = icmp eq i8 %9, %10
  br i1 %11, label %15, label %12

12:                                               ; preds = %5
  %13 = icmp ult i8 %9, %10
  %14 = select i1 %13, i32 -1, i32 1
  br label %20

15:                                               ; preds = %5
  %16 = add i32 %8, -1
  %17 = getelementptr inbounds i8, ptr %7, i32 1
  %18 = getelementptr inbounds i8, ptr %6, i32 1
  %19 = icmp eq i32 %16, 0
  br i1 %19, label %20, label %5, !llvm.loop !33

20:                                               ; preds = %15, %12, %3
  %21 = phi i32 [ %14, %12 ], [ 0, %3 ], [ 0, %15 ]
  ret i32 %21
}

; Function Attrs: nocallback nofree nosync nounwind willreturn memory(argmem: readwrite)
declare void @llvm.lifetime.start.p0(i64 immarg, ptr nocapture) #3

; Function Attrs: nocallback nofree nounwind willreturn memory(argmem: write)
declare void @llvm.memset.p0.i64(ptr nocapture writeonly, i8, i64, i1 immarg) #4

; Function Attrs: nocallback nofree nounwind willreturn memory(argmem: write)
declare void @llvm.memset.p0.i32(ptr nocapture writeonly, i8, i32, i1 immarg) #4

; Function Attrs: nofree nounwind
define internal fastcc void @lexer_next(ptr nocapture noundef %0) unnamed_addr #5 {
  %2 = alloca ptr, align 4
  %3 = load ptr, ptr %0, align 4, !tbaa !5
  %4 = getelementptr inbounds i8, ptr %0, i32 4
  %5 = load i8, ptr %3, align 1, !tbaa !23
  br label %7

6:                                                ; preds = %35, %35
  br label %7

7:                                                ; preds = %6, %1
  %8 = phi i8 [ %5, %1 ], [ %36, %6 ]
  %9 = phi ptr [ %3, %1 ], [ %37, %6 ]
  %10 = phi i8 [ %5, %1 ], [ %38, %6 ]
  %11 = phi ptr [ %3, %1 ], [ %39, %6 ]
  %12 = zext i8 %10 to i32
  %13 = tail call i32 @isspace(i32 noundef %12) #13
  %14 = icmp eq i32 %13, 0
  br i1 %14, label %29, label %15

15:                                               ; preds = %7
  %16 = load i32, ptr %4, align 4, !tbaa !11
  br label %17

17:                                               ; preds = %17, %15
  %18 = phi i32 [ %16, %15 ], [ %24, %17 ]
  %19 = phi ptr [ %11, %15 ], [ %20, %17 ]
  %20 = getelementptr inbounds i8, ptr %19, i32 1
  store ptr %20, ptr %0, align 4, !tbaa !5
  %21 = load i8, ptr %19, align 1, !tbaa !23
  %22 = icmp eq i8 %21, 10
  %23 = zext i1 %22 to i32
  %24 = add nsw i32 %18, %23
  store i32 %24, ptr %4, align 4, !tbaa !11
  %25 = load i8, ptr %20, align 1, !tbaa !23
  %26 = zext i8 %25 to i32
  %27 = tail call i32 @isspace(i32 noundef %26) #13
  %28 = icmp eq i32 %27, 0
  br i1 %28, label %29, label %17, !llvm.loop !34

29:                                               ; preds = %17, %7
  %30 = phi i8 [ %8, %7 ], [ %25, %17 ]
  %31 = phi ptr [ %9, %7 ], [ %20, %17 ]
  %32 = phi i8 [ %10, %7 ], [ %25, %17 ]
  %33 = phi ptr [ %11, %7 ], [ %20, %17 ]
  %34 = icmp eq i8 %32, 35
  br i1 %34, label %35, label %43

35:                                               ; preds = %40, %29
  %36 = phi i8 [ %42, %40 ], [ %30, %29 ]
  %37 = phi ptr [ %41, %40 ], [ %31, %29 ]
  %38 = phi i8 [ %42, %40 ], [ 35, %29 ]
  %39 = phi ptr [ %41, %40 ], [ %33, %29 ]
  switch i8 %38, label %40 [
    i8 0, label %6
    i8 10, label %6
  ]

40:                                               ; preds = %35
  %41 = getelementptr inbounds i8, ptr %39, i32 1
  store ptr %41, ptr %0, align 4, !tbaa !5
  %42 = load i8, ptr %41, align 1, !tbaa !23
  br label %35, !llvm.loop !35

43:                                               ; preds = %29
  %44 = zext i8 %30 to i32
  %45 = icmp eq i8 %30, 0
  br i1 %45, label %46, label %48

46:                                               ; preds = %43
  %47 = getelementptr inbounds i8, ptr %0, i32 8
  store i32 0, ptr %47, align 4, !tbaa !36
  br label %116

48:                                               ; preds = %43
  %49 = add nsw i32 %44, -48
  %50 = icmp ult i32 %49, 10
  br i1 %50, label %51, label %56

51:                                               ; preds = %48
  call void @llvm.lifetime.start.p0(i64 4, ptr nonnull %2) #11
  %52 = getelementptr inbounds i8, ptr %0, i32 8
  store i32 1, ptr %52, align 4, !tbaa !36
  %53 = call i32 @strtoul(ptr noundef nonnull %31, ptr noundef nonnull %2, i32 noundef 10)
  %54 = getelementptr inbounds i8, ptr %0, i32 12
  store i32 %53, ptr %54, align 4, !tbaa !37
  %55 = load ptr, ptr %2, align 4, !tbaa !25
  store ptr %55, ptr %0, align 4, !tbaa !5
  call void @llvm.lifetime.end.p0(i64 4, ptr nonnull %2) #11
  br label %116

56:                                               ; preds = %48
  %57 = tail call i32 @isalpha(i32 noundef %44) #13
  %58 = icmp eq i32 %57, 0
  %59 = getelementptr inbounds i8, ptr %0, i32 8
  br i1 %58, label %103, label %60

60:                                               ; preds = %56
  store i32 2, ptr %59, align 4, !tbaa !36
  %61 = load i8, ptr %31, align 1, !tbaa !23
  %62 = zext i8 %61 to i32
  %63 = tail call i32 @isalnum(i32 noundef %62) #13
  %64 = icmp eq i32 %63, 0
  br i1 %64, label %84, label %65

65:                                               ; preds = %60
  %66 = getelementptr inbounds i8, ptr %0, i32 16
  br label %67

67:                                               ; preds = %76, %65
  %68 = phi ptr [ %31, %65 ], [ %79, %76 ]
  %69 = phi i8 [ %61, %65 ], [ %80, %76 ]
  %70 = phi i32 [ 0, %65 ], [ %78, %76 ]
  %71 = add i32 %70, 1
  %72 = icmp ult i32 %71, 16
  br i1 %72, label %73, label %76

73:                                               ; preds = %67
  %74 = getelementptr inbounds [16 x i8], ptr %66, i32 0, i32 %70
  store i8 %69, ptr %74, align 1, !tbaa !23
  %75 = load ptr, ptr %0, align 4, !tbaa !5
  br label %76

76:                                               ; preds = %73, %67
  %77 = phi ptr [ %75, %73 ], [ %68, %67 ]
  %78 = phi i32 [ %71, %73 ], [ %70, %67 ]
  %79 = getelementptr inbounds i8, ptr %77, i32 1
  store ptr %79, ptr %0, align 4, !tbaa !5
  %80 = load i8, ptr %79, align 1, !tbaa !23
  %81 = zext i8 %80 to i32
  %82 = tail call i32 @isalnum(i32 noundef %81) #13
  %83 = icmp eq i32 %82, 0
  br i1 %83, label %84, label %67, !llvm.loop !38

84:                                               ; preds = %76, %60
  %85 = phi i32 [ 0, %60 ], [ %78, %76 ]
  %86 = getelementptr inbounds i8, ptr %0, i32 16
  %87 = getelementptr inbounds [16 x i8], ptr %86, i32 0, i32 %85
  store i8 0, ptr %87, align 1, !tbaa !23
  %88 = tail call i32 @strcmp(ptr noundef nonnull dereferenceable(1) %86, ptr noundef nonnull dereferenceable(6) @.str.1.12) #11
  %89 = icmp eq i32 %88, 0
  br i1 %89, label %90, label %91

90:                                               ; preds = %84
  store i32 4, ptr %59, align 4, !tbaa !36
  br label %91

91:                                               ; preds = %90, %84
  %92 = tail call i32 @strcmp(ptr noundef nonnull dereferenceable(1) %86, ptr noundef nonnull dereferenceable(3) @.str.2.13) #11
  %93 = icmp eq i32 %92, 0
  br i1 %93, label %94, label %95

94:                                               ; preds = %91
  store i32 5, ptr %59, align 4, !tbaa !36
  br label %95

95:                                               ; preds = %94, %91
  %96 = tail call i32 @strcmp(ptr noundef nonnull dereferenceable(1) %86, ptr noundef nonnull dereferenceable(5) @.str.3.14) #11
  %97 = icmp eq i32 %96, 0
  br i1 %97, label %98, label %99

98:                                               ; preds = %95
  store i32 6, ptr %59, align 4, !tbaa !36
  br label %99

99:                                               ; preds = %98, %95
  %100 = tail call i32 @strcmp(ptr noundef nonnull dereferenceable(1) %86, ptr noundef nonnull dereferenceable(6) @.str.21) #11
  %101 = icmp eq i32 %100, 0
  br i1 %101, label %102, label %116

102:                                              ; preds = %99
  store i32 7, ptr %59, align 4, !tbaa !36
  br label %116

103:                                              ; preds = %56
  store i32 3, ptr %59, align 4, !tbaa !36
  %104 = getelementptr inbounds i8, ptr %31, i32 1
  store ptr %104, ptr %0, align 4, !tbaa !5
  %105 = load i8, ptr %31, align 1, !tbaa !23
  %106 = zext i8 %105 to i32
  %107 = getelementptr inbounds i8, ptr %0, i32 32
  store i32 %106, ptr %107, align 4, !tbaa !39
  %108 = load i8, ptr %104, align 1, !tbaa !23
  %109 = icmp eq i8 %108, 61
  br i1 %109, label %110, label %116

110:                                              ; preds = %103
  %111 = tail call ptr @memchr(ptr noundef nonnull dereferenceable(1) @.str.11, i32 %106, i32 5)
  %112 = icmp eq ptr %111, null
  br i1 %112, label %116, label %113

113:                                              ; preds = %110
  %114 = or disjoint i32 %106, 256
  store i32 %114, ptr %107, align 4, !tbaa !39
  %115 = getelementptr inbounds i8, ptr %31, i32 2
  store ptr %115, ptr %0, align 4, !tbaa !5
  br label %116

116:                                              ; preds = %113, %110, %103, %102, %99, %51, %46
  ret void
}

; Function Attrs: nofree nounwind
define internal fastcc void @statement(ptr noundef %0) unnamed_addr #5 {
  %2 = getelementptr inbounds i8, ptr %0, i32 8
  %3 = load i32, ptr %2, align 4, !tbaa !15
  switch i32 %3, label %410 [
    i32 4, label %7
    i32 5, label %127
    i32 7, label %4
    i32 2, label %305
  ]

4:                                                ; preds = %1
  %5 = getelementptr inbounds i8, ptr %0, i32 36
  %6 = getelementptr inbounds i8, ptr %0, i32 32
  br label %251

7:                                                ; preds = %1
  tail call fastcc void @lexer_next(ptr noundef nonnull %0)
  %8 = getelementptr inbounds i8, ptr %0, i32 36
  %9 = load ptr, ptr %8, align 4, !tbaa !12
  %10 = getelementptr inbounds i8, ptr %9, i32 2000
  %11 = load i32, ptr %10, align 4, !tbaa !18
  tail call fastcc void @expression(ptr noundef nonnull %0)
  %12 = load ptr, ptr %8, align 4, !tbaa !12
  %13 = getelementptr inbounds i8, ptr %12, i32 2000
  %14 = load i32, ptr %13, align 4, !tbaa !18
  %15 = icmp eq i32 %14, 2000
  br i1 %15, label %16, label %20

16:                                               ; preds = %7
  %17 = getelementptr inbounds i8, ptr %12, i32 2648
  %18 = load ptr, ptr %17, align 4, !tbaa !20
  %19 = icmp eq ptr %18, null
  br i1 %19, label %42, label %48

20:                                               ; preds = %7
  %21 = add i32 %14, 1
  store i32 %21, ptr %13, align 4, !tbaa !18
  %22 = getelementptr inbounds [2000 x i8], ptr %12, i32 0, i32 %14
  store i8 14, ptr %22, align 1, !tbaa !23
  %23 = load ptr, ptr %8, align 4, !tbaa !12
  %24 = getelementptr inbounds i8, ptr %23, i32 2000
  %25 = load i32, ptr %24, align 4, !tbaa !18
  %26 = icmp eq i32 %25, 2000
  br i1 %26, label %27, label %31

27:                                               ; preds = %20
  %28 = getelementptr inbounds i8, ptr %23, i32 2648
  %29 = load ptr, ptr %28, align 4, !tbaa !20
  %30 = icmp eq ptr %29, null
  br i1 %30, label %42, label %48

31:                                               ; preds = %20
  %32 = add i32 %25, 1
  store i32 %32, ptr %24, align 4, !tbaa !18
  %33 = getelementptr inbounds [2000 x i8], ptr %23, i32 0, i32 %25
  store i8 0, ptr %33, align 1, !tbaa !23
  %34 = load ptr, ptr %8, align 4, !tbaa !12
  %35 = getelementptr inbounds i8, ptr %34, i32 2000
  %36 = load i32, ptr %35, align 4, !tbaa !18
  %37 = icmp eq i32 %36, 2000
  br i1 %37, label %38, label %49

38:                                               ; preds = %31
  %39 = getelementptr inbounds i8, ptr %34, i32 2648
  %40 = load ptr, ptr %39, align 4, !tbaa !20
  %41 = icmp eq ptr %40, null
  br i1 %41, label %42, label %48

42:                                               ; preds = %38, %27, %16
  %43 = phi ptr [ %17, %16 ], [ %28, %27 ], [ %39, %38 ]
  %44 = phi ptr [ %12, %16 ], [ %23, %27 ], [ %34, %38 ]
  store ptr @.str.10, ptr %43, align 4, !tbaa !20
  %45 = getelementptr inbounds i8, ptr %0, i32 4
  %46 = load i32, ptr %45, align 4, !tbaa !21
  %47 = getelementptr inbounds i8, ptr %44, i32 2652
  store i32 %46, ptr %47, align 4, !tbaa !22
  br label %48

48:                                               ; preds = %42, %38, %27, %16
  store i32 0, ptr %2, align 4, !tbaa !15
  br label %55

49:                                               ; preds = %31
  %50 = add i32 %36, 1
  store i32 %50, ptr %35, align 4, !tbaa !18
  %51 = getelementptr inbounds [2000 x i8], ptr %34, i32 0, i32 %36
  store i8 0, ptr %51, align 1, !tbaa !23
  %52 = load ptr, ptr %8, align 4, !tbaa !12
  %53 = getelementptr inbounds i8, ptr %52, i32 2000
  %54 = load i32, ptr %53, align 4, !tbaa !18
  br label %55

55:                                               ; preds = %49, %48
  %56 = phi i32 [ 2000, %48 ], [ %54, %49 ]
  tail call fastcc void @block(ptr noundef nonnull %0)
  %57 = load ptr, ptr %8, align 4, !tbaa !12
  %58 = getelementptr inbounds i8, ptr %57, i32 2000
  %59 = load i32, ptr %58, align 4, !tbaa !18
  %60 = icmp eq i32 %59, 2000
  br i1 %60, label %61, label %65

61:                                               ; preds = %55
  %62 = getelementptr inbounds i8, ptr %57, i32 2648
  %63 = load ptr, ptr %62, align 4, !tbaa !20
  %64 = icmp eq ptr %63, null
  br i1 %64, label %87, label %93

65:                                               ; preds = %55
  %66 = add i32 %59, 1
  store i32 %66, ptr %58, align 4, !tbaa !18
  %67 = getelementptr inbounds [2000 x i8], ptr %57, i32 0, i32 %59
  store i8 13, ptr %67, align 1, !tbaa !23
  %68 = load ptr, ptr %8, align 4, !tbaa !12
  %69 = getelementptr inbounds i8, ptr %68, i32 2000
  %70 = load i32, ptr %69, align 4, !tbaa !18
  %71 = icmp eq i32 %70, 2000
  br i1 %71, label %72, label %76

72:                                               ; preds = %65
  %73 = getelementptr inbounds i8, ptr %68, i32 2648
  %74 = load ptr, ptr %73, align 4, !tbaa !20
  %75 = icmp eq ptr %74, null
  br i1 %75, label %87, label %93

76:                                               ; preds = %65
  %77 = add i32 %70, 1
  store i32 %77, ptr %69, align 4, !tbaa !18
  %78 = getelementptr inbounds [2000 x i8], ptr %68, i32 0, i32 %70
  store i8 0, ptr %78, align 1, !tbaa !23
  %79 = load ptr, ptr %8, align 4, !tbaa !12
  %80 = getelementptr inbounds i8, ptr %79, i32 2000
  %81 = load i32, ptr %80, align 4, !tbaa !18
  %82 = icmp eq i32 %81, 2000
  br i1 %82, label %83, label %94

83:                                               ; preds = %76
  %84 = getelementptr inbounds i8, ptr %79, i32 2648
  %85 = load ptr, ptr %84, align 4, !tbaa !20
  %86 = icmp eq ptr %85, null
  br i1 %86, label %87, label %93

87:                                               ; preds = %83, %72, %61
  %88 = phi ptr [ %62, %61 ], [ %73, %72 ], [ %84, %83 ]
  %89 = phi ptr [ %57, %61 ], [ %68, %72 ], [ %79, %83 ]
  store ptr @.str.10, ptr %88, align 4, !tbaa !20
  %90 = getelementptr inbounds i8, ptr %0, i32 4
  %91 = load i32, ptr %90, align 4, !tbaa !21
  %92 = getelementptr inbounds i8, ptr %89, i32 2652
  store i32 %91, ptr %92, align 4, !tbaa !22
  br label %93

93:                                               ; preds = %87, %83, %72, %61
  store i32 0, ptr %2, align 4, !tbaa !15
  br label %421

94:                                               ; preds = %76
  %95 = add i32 %81, 1
  store i32 %95, ptr %80, align 4, !tbaa !18
  %96 = getelementptr inbounds [2000 x i8], ptr %79, i32 0, i32 %81
  store i8 0, ptr %96, align 1, !tbaa !23
  %97 = load ptr, ptr %8, align 4, !tbaa !12
  %98 = getelementptr inbounds i8, ptr %97, i32 2648
  %99 = load ptr, ptr %98, align 4, !tbaa !20
  %100 = icmp eq ptr %99, null
  br i1 %100, label %101, label %421

101:                                              ; preds = %94
  %102 = getelementptr inbounds i8, ptr %97, i32 2000
  %103 = load i32, ptr %102, align 4, !tbaa !18
  %104 = trunc i32 %11 to i8
  %105 = add i32 %103, -2
  %106 = getelementptr inbounds [2000 x i8], ptr %97, i32 0, i32 %105
  store i8 %104, ptr %106, align 1, !tbaa !23
  %107 = lshr i32 %11, 8
  %108 = trunc i32 %107 to i8
  %109 = load ptr, ptr %8, align 4, !tbaa !12
  %110 = add i32 %103, -1
  %111 = getelementptr inbounds [2000 x i8], ptr %109, i32 0, i32 %110
  store i8 %108, ptr %111, align 1, !tbaa !23
  %112 = load ptr, ptr %8, align 4, !tbaa !12
  %113 = getelementptr inbounds i8, ptr %112, i32 2648
  %114 = load ptr, ptr %113, align 4, !tbaa !20
  %115 = icmp eq ptr %114, null
  br i1 %115, label %116, label %421

116:                                              ; preds = %101
  %117 = getelementptr inbounds i8, ptr %112, i32 2000
  %118 = load i32, ptr %117, align 4, !tbaa !18
  %119 = trunc i32 %118 to i8
  %120 = add i32 %56, -2
  %121 = getelementptr inbounds [2000 x i8], ptr %112, i32 0, i32 %120
  store i8 %119, ptr %121, align 1, !tbaa !23
  %122 = lshr i32 %118, 8
  %123 = trunc i32 %122 to i8
  %124 = load ptr, ptr %8, align 4, !tbaa !12
  %125 = add i32 %56, -1
  %126 = getelementptr inbounds [2000 x i8], ptr %124, i32 0, i32 %125
  store i8 %123, ptr %126, align 1, !tbaa !23
  br label %421

127:                                              ; preds = %1
  tail call fastcc void @lexer_next(ptr noundef nonnull %0)
  tail call fastcc void @expression(ptr noundef nonnull %0)
  %128 = getelementptr inbounds i8, ptr %0, i32 36
  %129 = load ptr, ptr %128, align 4, !tbaa !12
  %130 = getelementptr inbounds i8, ptr %129, i32 2000
  %131 = load i32, ptr %130, align 4, !tbaa !18
  %132 = icmp eq i32 %131, 2000
  br i1 %132, label %133, label %137

133:                                              ; preds = %127
  %134 = getelementptr inbounds i8, ptr %129, i32 2648
  %135 = load ptr, ptr %134, align 4, !tbaa !20
  %136 = icmp eq ptr %135, null
  br i1 %136, label %159, label %165

137:                                              ; preds = %127
  %138 = add i32 %131, 1
  store i32 %138, ptr %130, align 4, !tbaa !18
  %139 = getelementptr inbounds [2000 x i8], ptr %129, i32 0, i32 %131
  store i8 14, ptr %139, align 1, !tbaa !23
  %140 = load ptr, ptr %128, align 4, !tbaa !12
  %141 = getelementptr inbounds i8, ptr %140, i32 2000
  %142 = load i32, ptr %141, align 4, !tbaa !18
  %143 = icmp eq i32 %142, 2000
  br i1 %143, label %144, label %148

144:                                              ; preds = %137
  %145 = getelementptr inbounds i8, ptr %140, i32 2648
  %146 = load ptr, ptr %145, align 4, !tbaa !20
  %147 = icmp eq ptr %146, null
  br i1 %147, label %159, label %165

148:                                              ; preds = %137
  %149 = add i32 %142, 1
  store i32 %149, ptr %141, align 4, !tbaa !18
  %150 = getelementptr inbounds [2000 x i8], ptr %140, i32 0, i32 %142
  store i8 0, ptr %150, align 1, !tbaa !23
  %151 = load ptr, ptr %128, align 4, !tbaa !12
  %152 = getelementptr inbounds i8, ptr %151, i32 2000
  %153 = load i32, ptr %152, align 4, !tbaa !18
  %154 = icmp eq i32 %153, 2000
  br i1 %154, label %155, label %166

155:                                              ; preds = %148
  %156 = getelementptr inbounds i8, ptr %151, i32 2648
  %157 = load ptr, ptr %156, align 4, !tbaa !20
  %158 = icmp eq ptr %157, null
  br i1 %158, label %159, label %165

159:                                              ; preds = %155, %144, %133
  %160 = phi ptr [ %134, %133 ], [ %145, %144 ], [ %156, %155 ]
  %161 = phi ptr [ %129, %133 ], [ %140, %144 ], [ %151, %155 ]
  store ptr @.str.10, ptr %160, align 4, !tbaa !20
  %162 = getelementptr inbounds i8, ptr %0, i32 4
  %163 = load i32, ptr %162, align 4, !tbaa !21
  %164 = getelementptr inbounds i8, ptr %161, i32 2652
  store i32 %163, ptr %164, align 4, !tbaa !22
  br label %165

165:                                              ; preds = %159, %155, %144, %133
  store i32 0, ptr %2, align 4, !tbaa !15
  br label %172

166:                                              ; preds = %148
  %167 = add i32 %153, 1
  store i32 %167, ptr %152, align 4, !tbaa !18
  %168 = getelementptr inbounds [2000 x i8], ptr %151, i32 0, i32 %153
  store i8 0, ptr %168, align 1, !tbaa !23
  %169 = load ptr, ptr %128, align 4, !tbaa !12
  %170 = getelementptr inbounds i8, ptr %169, i32 2000
  %171 = load i32, ptr %170, align 4, !tbaa !18
  br label %172

172:                                              ; preds = %166, %165
  %173 = phi i32 [ 2000, %165 ], [ %171, %166 ]
  tail call fastcc void @block(ptr noundef nonnull %0)
  %174 = load i32, ptr %2, align 4, !tbaa !15
  %175 = icmp eq i32 %174, 6
  br i1 %175, label %176, label %234

176:                                              ; preds = %172
  tail call fastcc void @lexer_next(ptr noundef nonnull %0)
  %177 = load ptr, ptr %128, align 4, !tbaa !12
  %178 = getelementptr inbounds i8, ptr %177, i32 2000
  %179 = load i32, ptr %178, align 4, !tbaa !18
  %180 = icmp eq i32 %179, 2000
  br i1 %180, label %181, label %185

181:                                              ; preds = %176
  %182 = getelementptr inbounds i8, ptr %177, i32 2648
  %183 = load ptr, ptr %182, align 4, !tbaa !20
  %184 = icmp eq ptr %183, null
  br i1 %184, label %207, label %213

185:                                              ; preds = %176
  %186 = add i32 %179, 1
  store i32 %186, ptr %178, align 4, !tbaa !18
  %187 = getelementptr inbounds [2000 x i8], ptr %177, i32 0, i32 %179
  store i8 13, ptr %187, align 1, !tbaa !23
  %188 = load ptr, ptr %128, align 4, !tbaa !12
  %189 = getelementptr inbounds i8, ptr %188, i32 2000
  %190 = load i32, ptr %189, align 4, !tbaa !18
  %191 = icmp eq i32 %190, 2000
  br i1 %191, label %192, label %196

192:                                              ; preds = %185
  %193 = getelementptr inbounds i8, ptr %188, i32 2648
  %194 = load ptr, ptr %193, align 4, !tbaa !20
  %195 = icmp eq ptr %194, null
  br i1 %195, label %207, label %213

196:                                              ; preds = %185
  %197 = add i32 %190, 1
  store i32 %197, ptr %189, align 4, !tbaa !18
  %198 = getelementptr inbounds [2000 x i8], ptr %188, i32 0, i32 %190
  store i8 0, ptr %198, align 1, !tbaa !23
  %199 = load ptr, ptr %128, align 4, !tbaa !12
  %200 = getelementptr inbounds i8, ptr %199, i32 2000
  %201 = load i32, ptr %200, align 4, !tbaa !18
  %202 = icmp eq i32 %201, 2000
  br i1 %202, label %203, label %214

203:                                              ; preds = %196
  %204 = getelementptr inbounds i8, ptr %199, i32 2648
  %205 = load ptr, ptr %204, align 4, !tbaa !20
  %206 = icmp eq ptr %205, null
  br i1 %206, label %207, label %213

207:                                              ; preds = %203, %192, %181
  %208 = phi ptr [ %182, %181 ], [ %193, %192 ], [ %204, %203 ]
  %209 = phi ptr [ %177, %181 ], [ %188, %192 ], [ %199, %203 ]
  store ptr @.str.10, ptr %208, align 4, !tbaa !20
  %210 = getelementptr inbounds i8, ptr %0, i32 4
  %211 = load i32, ptr %210, align 4, !tbaa !21
  %212 = getelementptr inbounds i8, ptr %209, i32 2652
  store i32 %211, ptr %212, align 4, !tbaa !22
  br label %213

213:                                              ; preds = %207, %203, %192, %181
  store i32 0, ptr %2, align 4, !tbaa !15
  br label %232

214:                                              ; preds = %196
  %215 = add i32 %201, 1
  store i32 %215, ptr %200, align 4, !tbaa !18
  %216 = getelementptr inbounds [2000 x i8], ptr %199, i32 0, i32 %201
  store i8 0, ptr %216, align 1, !tbaa !23
  %217 = load ptr, ptr %128, align 4, !tbaa !12
  %218 = getelementptr inbounds i8, ptr %217, i32 2000
  %219 = load i32, ptr %218, align 4, !tbaa !18
  %220 = getelementptr inbounds i8, ptr %217, i32 2648
  %221 = load ptr, ptr %220, align 4, !tbaa !20
  %222 = icmp eq ptr %221, null
  br i1 %222, label %223, label %232

223:                                              ; preds = %214
  %224 = trunc i32 %219 to i8
  %225 = add i32 %173, -2
  %226 = getelementptr inbounds [2000 x i8], ptr %217, i32 0, i32 %225
  store i8 %224, ptr %226, align 1, !tbaa !23
  %227 = lshr i32 %219, 8
  %228 = trunc i32 %227 to i8
  %229 = load ptr, ptr %128, align 4, !tbaa !12
  %230 = add i32 %173, -1
  %231 = getelementptr inbounds [2000 x i8], ptr %229, i32 0, i32 %230
  store i8 %228, ptr %231, align 1, !tbaa !23
  br label %232

232:                                              ; preds = %223, %214, %213
  %233 = phi i32 [ 2000, %213 ], [ %219, %214 ], [ %219, %223 ]
  tail call fastcc void @block(ptr noundef nonnull %0)
  br label %234

234:                                              ; preds = %232, %172
  %235 = phi i32 [ %233, %232 ], [ %173, %172 ]
  %236 = load ptr, ptr %128, align 4, !tbaa !12
  %237 = getelementptr inbounds i8, ptr %236, i32 2648
  %238 = load ptr, ptr %237, align 4, !tbaa !20
  %239 = icmp eq ptr %238, null
  br i1 %239, label %240, label %421

240:                                              ; preds = %234
  %241 = getelementptr inbounds i8, ptr %236, i32 2000
  %242 = load i32, ptr %241, align 4, !tbaa !18
  %243 = trunc i32 %242 to i8
  %244 = add i32 %235, -2
  %245 = getelementptr inbounds [2000 x i8], ptr %236, i32 0, i32 %244
  store i8 %243, ptr %245, align 1, !tbaa !23
  %246 = lshr i32 %242, 8
  %247 = trunc i32 %246 to i8
  %248 = load ptr, ptr %128, align 4, !tbaa !12
  %249 = add i32 %235, -1
  %250 = getelementptr inbounds [2000 x i8], ptr %248, i32 0, i32 %249
  store i8 %247, ptr %250, align 1, !tbaa !23
  br label %421

251:                                              ; preds = %269, %4
  tail call fastcc void @lexer_next(ptr noundef nonnull %0)
  tail call fastcc void @expression(ptr noundef nonnull %0)
  %252 = load ptr, ptr %5, align 4, !tbaa !12
  %253 = getelementptr inbounds i8, ptr %252, i32 2000
  %254 = load i32, ptr %253, align 4, !tbaa !18
  %255 = icmp eq i32 %254, 2000
  br i1 %255, label %256, label %264

256:                                              ; preds = %251
  %257 = getelementptr inbounds i8, ptr %252, i32 2648
  %258 = load ptr, ptr %257, align 4, !tbaa !20
  %259 = icmp eq ptr %258, null
  br i1 %259, label %260, label %277

260:                                              ; preds = %256
  store ptr @.str.10, ptr %257, align 4, !tbaa !20
  %261 = getelementptr inbounds i8, ptr %0, i32 4
  %262 = load i32, ptr %261, align 4, !tbaa !21
  %263 = getelementptr inbounds i8, ptr %252, i32 2652
  store i32 %262, ptr %263, align 4, !tbaa !22
  br label %277

264:                                              ; preds = %251
  %265 = add i32 %254, 1
  store i32 %265, ptr %253, align 4, !tbaa !18
  %266 = getelementptr inbounds [2000 x i8], ptr %252, i32 0, i32 %254
  store i8 15, ptr %266, align 1, !tbaa !23
  %267 = load i32, ptr %2, align 4, !tbaa !15
  %268 = icmp eq i32 %267, 3
  br i1 %268, label %269, label %272

269:                                              ; preds = %264
  %270 = load i32, ptr %6, align 4, !tbaa !40
  %271 = icmp eq i32 %270, 44
  br i1 %271, label %251, label %272, !llvm.loop !41

272:                                              ; preds = %269, %264
  %273 = load ptr, ptr %5, align 4, !tbaa !12
  %274 = getelementptr inbounds i8, ptr %273, i32 2000
  %275 = load i32, ptr %274, align 4, !tbaa !18
  %276 = icmp eq i32 %275, 2000
  br i1 %276, label %277, label %286

277:                                              ; preds = %272, %260, %256
  %278 = phi ptr [ %273, %272 ], [ %252, %260 ], [ %252, %256 ]
  %279 = getelementptr inbounds i8, ptr %278, i32 2648
  %280 = load ptr, ptr %279, align 4, !tbaa !20
  %281 = icmp eq ptr %280, null
  br i1 %281, label %282, label %295

282:                                              ; preds = %277
  store ptr @.str.10, ptr %279, align 4, !tbaa !20
  %283 = getelementptr inbounds i8, ptr %0, i32 4
  %284 = load i32, ptr %283, align 4, !tbaa !21
  %285 = getelementptr inbounds i8, ptr %278, i32 2652
  store i32 %284, ptr %285, align 4, !tbaa !22
  br label %295

286:                                              ; preds = %272
  %287 = add i32 %275, 1
  store i32 %287, ptr %274, align 4, !tbaa !18
  %288 = getelementptr inbounds [2000 x i8], ptr %273, i32 0, i32 %275
  store i8 16, ptr %288, align 1, !tbaa !23
  %289 = load i32, ptr %2, align 4, !tbaa !15
  %290 = icmp eq i32 %289, 3
  br i1 %290, label %291, label %295

291:                                              ; preds = %286
  %292 = load i32, ptr %6, align 4, !tbaa !40
  %293 = icmp eq i32 %292, 59
  br i1 %293, label %294, label %295

294:                                              ; preds = %291
  tail call fastcc void @lexer_next(ptr noundef nonnull %0)
  br label %421

295:                                              ; preds = %291, %286, %282, %277
  %296 = load ptr, ptr %5, align 4, !tbaa !12
  %297 = getelementptr inbounds i8, ptr %296, i32 2648
  %298 = load ptr, ptr %297, align 4, !tbaa !20
  %299 = icmp eq ptr %298, null
  br i1 %299, label %300, label %304

300:                                              ; preds = %295
  store ptr @.str.1, ptr %297, align 4, !tbaa !20
  %301 = getelementptr inbounds i8, ptr %0, i32 4
  %302 = load i32, ptr %301, align 4, !tbaa !21
  %303 = getelementptr inbounds i8, ptr %296, i32 2652
  store i32 %302, ptr %303, align 4, !tbaa !22
  br label %304

304:                                              ; preds = %300, %295
  store i32 0, ptr %2, align 4, !tbaa !15
  br label %421

305:                                              ; preds = %1
  %306 = getelementptr inbounds i8, ptr %0, i32 16
  %307 = getelementptr inbounds i8, ptr %0, i32 36
  %308 = load ptr, ptr %307, align 4, !tbaa !12
  %309 = getelementptr inbounds i8, ptr %308, i32 2644
  %310 = load i32, ptr %309, align 4, !tbaa !29
  %311 = icmp sgt i32 %310, 0
  br i1 %311, label %312, label %333

312:                                              ; preds = %305
  %313 = getelementptr inbounds i8, ptr %308, i32 2004
  br label %314

314:                                              ; preds = %319, %312
  %315 = phi i32 [ 0, %312 ], [ %320, %319 ]
  %316 = getelementptr inbounds [40 x [16 x i8]], ptr %313, i32 0, i32 %315
  %317 = tail call i32 @strcmp(ptr noundef nonnull dereferenceable(1) %316, ptr noundef nonnull readonly dereferenceable(1) %306) #11
  %318 = icmp eq i32 %317, 0
  br i1 %318, label %341, label %319

319:                                              ; preds = %314
  %320 = add nuw nsw i32 %315, 1
  %321 = icmp eq i32 %320, %310
  br i1 %321, label %322, label %314, !llvm.loop !42

322:                                              ; preds = %319
  %323 = icmp eq i32 %310, 40
  br i1 %323, label %324, label %333

324:                                              ; preds = %322
  %325 = getelementptr inbounds i8, ptr %308, i32 2648
  %326 = load ptr, ptr %325, align 4, !tbaa !20
  %327 = icmp eq ptr %326, null
  br i1 %327, label %328, label %332

328:                                              ; preds = %324
  store ptr @.str.9, ptr %325, align 4, !tbaa !20
  %329 = getelementptr inbounds i8, ptr %0, i32 4
  %330 = load i32, ptr %329, align 4, !tbaa !21
  %331 = getelementptr inbounds i8, ptr %308, i32 2652
  store i32 %330, ptr %331, align 4, !tbaa !22
  br label %332

332:                                              ; preds = %328, %324
  store i32 0, ptr %2, align 4, !tbaa !15
  br label %341

333:                                              ; preds = %322, %305
  %334 = getelementptr inbounds i8, ptr %308, i32 2004
  %335 = getelementptr inbounds [40 x [16 x i8]], ptr %334, i32 0, i32 %310
  %336 = tail call ptr @strcpy(ptr noundef nonnull dereferenceable(1) %335, ptr noundef nonnull readonly dereferenceable(1) %306) #11
  %337 = load ptr, ptr %307, align 4, !tbaa !12
  %338 = getelementptr inbounds i8, ptr %337, i32 2644
  %339 = load i32, ptr %338, align 4, !tbaa !29
  %340 = add nsw i32 %339, 1
  store i32 %340, ptr %338, align 4, !tbaa !29
  br label %341

341:                                              ; preds = %333, %332, %314
  %342 = phi i32 [ 0, %332 ], [ %339, %333 ], [ %315, %314 ]
  tail call fastcc void @lexer_next(ptr noundef %0)
  %343 = load i32, ptr %2, align 4, !tbaa !15
  %344 = icmp eq i32 %343, 3
  br i1 %344, label %345, label %350

345:                                              ; preds = %341
  %346 = getelementptr inbounds i8, ptr %0, i32 32
  %347 = load i32, ptr %346, align 4, !tbaa !40
  %348 = icmp eq i32 %347, 61
  br i1 %348, label %349, label %350

349:                                              ; preds = %345
  tail call fastcc void @lexer_next(ptr noundef nonnull %0)
  br label %360

350:                                              ; preds = %345, %341
  %351 = load ptr, ptr %307, align 4, !tbaa !12
  %352 = getelementptr inbounds i8, ptr %351, i32 2648
  %353 = load ptr, ptr %352, align 4, !tbaa !20
  %354 = icmp eq ptr %353, null
  br i1 %354, label %355, label %359

355:                                              ; preds = %350
  store ptr @.str.2, ptr %352, align 4, !tbaa !20
  %356 = getelementptr inbounds i8, ptr %0, i32 4
  %357 = load i32, ptr %356, align 4, !tbaa !21
  %358 = getelementptr inbounds i8, ptr %351, i32 2652
  store i32 %357, ptr %358, align 4, !tbaa !22
  br label %359

359:                                              ; preds = %355, %350
  store i32 0, ptr %2, align 4, !tbaa !15
  br label %360

360:                                              ; preds = %359, %349
  tail call fastcc void @expression(ptr noundef nonnull %0)
  %361 = load ptr, ptr %307, align 4, !tbaa !12
  %362 = getelementptr inbounds i8, ptr %361, i32 2000
  %363 = load i32, ptr %362, align 4, !tbaa !18
  %364 = icmp eq i32 %363, 2000
  br i1 %364, label %365, label %373

365:                                              ; preds = %360
  %366 = getelementptr inbounds i8, ptr %361, i32 2648
  %367 = load ptr, ptr %366, align 4, !tbaa !20
  %368 = icmp eq ptr %367, null
  br i1 %368, label %369, label %380

369:                                              ; preds = %365
  store ptr @.str.10, ptr %366, align 4, !tbaa !20
  %370 = getelementptr inbounds i8, ptr %0, i32 4
  %371 = load i32, ptr %370, align 4, !tbaa !21
  %372 = getelementptr inbounds i8, ptr %361, i32 2652
  store i32 %371, ptr %372, align 4, !tbaa !22
  br label %380

373:                                              ; preds = %360
  %374 = add i32 %363, 1
  store i32 %374, ptr %362, align 4, !tbaa !18
  %375 = getelementptr inbounds [2000 x i8], ptr %361, i32 0, i32 %363
  store i8 3, ptr %375, align 1, !tbaa !23
  %376 = load ptr, ptr %307, align 4, !tbaa !12
  %377 = getelementptr inbounds i8, ptr %376, i32 2000
  %378 = load i32, ptr %377, align 4, !tbaa !18
  %379 = icmp eq i32 %378, 2000
  br i1 %379, label %380, label %389

380:                                              ; preds = %373, %369, %365
  %381 = phi ptr [ %376, %373 ], [ %361, %365 ], [ %361, %369 ]
  %382 = getelementptr inbounds i8, ptr %381, i32 2648
  %383 = load ptr, ptr %382, align 4, !tbaa !20
  %384 = icmp eq ptr %383, null
  br i1 %384, label %385, label %400

385:                                              ; preds = %380
  store ptr @.str.10, ptr %382, align 4, !tbaa !20
  %386 = getelementptr inbounds i8, ptr %0, i32 4
  %387 = load i32, ptr %386, align 4, !tbaa !21
  %388 = getelementptr inbounds i8, ptr %381, i32 2652
  store i32 %387, ptr %388, align 4, !tbaa !22
  br label %400

389:                                              ; preds = %373
  %390 = trunc i32 %342 to i8
  %391 = add i32 %378, 1
  store i32 %391, ptr %377, align 4, !tbaa !18
  %392 = getelementptr inbounds [2000 x i8], ptr %376, i32 0, i32 %378
  store i8 %390, ptr %392, align 1, !tbaa !23
  %393 = load i32, ptr %2, align 4, !tbaa !15
  %394 = icmp eq i32 %393, 3
  br i1 %394, label %395, label %400

395:                                              ; preds = %389
  %396 = getelementptr inbounds i8, ptr %0, i32 32
  %397 = load i32, ptr %396, align 4, !tbaa !40
  %398 = icmp eq i32 %397, 59
  br i1 %398, label %399, label %400

399:                                              ; preds = %395
  tail call fastcc void @lexer_next(ptr noundef nonnull %0)
  br label %421

400:                                              ; preds = %395, %389, %385, %380
  %401 = load ptr, ptr %307, align 4, !tbaa !12
  %402 = getelementptr inbounds i8, ptr %401, i32 2648
  %403 = load ptr, ptr %402, align 4, !tbaa !20
  %404 = icmp eq ptr %403, null
  br i1 %404, label %405, label %409

405:                                              ; preds = %400
  store ptr @.str.1, ptr %402, align 4, !tbaa !20
  %406 = getelementptr inbounds i8, ptr %0, i32 4
  %407 = load i32, ptr %406, align 4, !tbaa !21
  %408 = getelementptr inbounds i8, ptr %401, i32 2652
  store i32 %407, ptr %408, align 4, !tbaa !22
  br label %409

409:                                              ; preds = %405, %400
  store i32 0, ptr %2, align 4, !tbaa !15
  br label %421

410:                                              ; preds = %1
  %411 = getelementptr inbounds i8, ptr %0, i32 36
  %412 = load ptr, ptr %411, align 4, !tbaa !12
  %413 = getelementptr inbounds i8, ptr %412, i32 2648
  %414 = load ptr, ptr %413, align 4, !tbaa !20
  %415 = icmp eq ptr %414, null
  br i1 %415, label %416, label %420

416:                                              ; preds = %410
  store ptr @.str.3, ptr %413, align 4, !tbaa !20
  %417 = getelementptr inbounds i8, ptr %0, i32 4
  %418 = load i32, ptr %417, align 4, !tbaa !21
  %419 = getelementptr inbounds i8, ptr %412, i32 2652
  store i32 %418, ptr %419, align 4, !tbaa !22
  br label %420

420:                                              ; preds = %416, %410
  store i32 0, ptr %2, align 4, !tbaa !15
  br label %421

421:                                              ; preds = %420, %409, %399, %304, %294, %240, %234, %116, %101, %94, %93
  ret void
}

; Function Attrs: nocallback nofree nosync nounwind willreturn memory(argmem: readwrite)
declare void @llvm.lifetime.end.p0(i64 immarg, ptr nocapture) #3

; Function Attrs: nounwind optsize
define internal noundef i32 @__print_text(ptr nocapture noundef %0, ptr nocapture noundef readonly %1, i32 noundef returned %2) local_unnamed_addr #1 {
  %4 = load i8, ptr %0, align 4, !tbaa !43, !alias.scope !45, !noalias !48
  %5 = icmp eq i8 %4, 0
  %6 = icmp eq i32 %2, 0
  %7 = or i1 %6, %5
  br i1 %7, label %16, label %8

8:                                                ; preds = %8, %3
  %9 = phi i32 [ %14, %8 ], [ 0, %3 ]
  %10 = getelementptr inbounds i8, ptr %1, i32 %9
  %11 = load i8, ptr %10, align 1, !tbaa !23, !alias.scope !48, !noalias !45
  %12 = zext i8 %11 to i32
  %13 = tail call i32 @fputc(i32 noundef %12, ptr noundef nonnull %0) #12, !noalias !48
  %14 = add nuw i32 %9, 1
  %15 = icmp eq i32 %14, %2
  br i1 %15, label %16, label %8, !llvm.loop !50

16:                                               ; preds = %8, %3
  ret i32 %2
}

; Function Attrs: nounwind optsize
define internal i32 @__print_signed(ptr nocapture noundef %0, i64 noundef %1, i32 noundef %2, i32 noundef %3, i32 noundef %4) local_unnamed_addr #1 {
  %6 = alloca [24 x i8], align 1
  call void @llvm.lifetime.start.p0(i64 24, ptr nonnull %6) #11
  %7 = getelementptr inbounds i8, ptr %6, i32 24
  %8 = icmp slt i64 %1, 0
  %9 = lshr i64 %1, 63
  %10 = icmp ne i64 %9, 0
  %11 = sub i64 0, %1
  %12 = select i1 %10, i64 %11, i64 %1
  %13 = icmp ult i64 %12, 4294967296
  br i1 %13, label %14, label %28

14:                                               ; preds = %5
  %15 = trunc nuw i64 %12 to i32
  %16 = icmp eq i32 %15, 0
  br i1 %16, label %39, label %17

17:                                               ; preds = %17, %14
  %18 = phi i32 [ %21, %17 ], [ %15, %14 ]
  %19 = phi ptr [ %26, %17 ], [ %7, %14 ]
  %20 = freeze i32 %18
  %21 = udiv i32 %20, 10
  %22 = mul i32 %21, 10
  %23 = sub i32 %20, %22
  %24 = getelementptr inbounds i8, ptr @.str.9.18, i32 %23
  %25 = load i8, ptr %24, align 1, !tbaa !23
  %26 = getelementptr inbounds i8, ptr %19, i32 -1
  store i8 %25, ptr %26, align 1, !tbaa !23
  %27 = icmp ult i32 %18, 10
  br i1 %27, label %39, label %17, !llvm.loop !51

28:                                               ; preds = %28, %5
  %29 = phi ptr [ %37, %28 ], [ %7, %5 ]
  %30 = phi i64 [ %31, %28 ], [ %12, %5 ]
  %31 = udiv i64 %30, 10
  %32 = mul i64 %31, 10
  %33 = sub i64 %30, %32
  %34 = trunc nuw nsw i64 %33 to i32
  %35 = getelementptr inbounds i8, ptr @.str.9.18, i32 %34
  %36 = load i8, ptr %35, align 1, !tbaa !23
  %37 = getelementptr inbounds i8, ptr %29, i32 -1
  store i8 %36, ptr %37, align 1, !tbaa !23
  %38 = icmp ult i64 %30, 10
  br i1 %38, label %39, label %28, !llvm.loop !52

39:                                               ; preds = %28, %17, %14
  %40 = phi ptr [ %7, %14 ], [ %26, %17 ], [ %37, %28 ]
  %41 = icmp eq i64 %1, 0
  %42 = icmp ne i32 %4, 0
  %43 = and i1 %41, %42
  br i1 %43, label %44, label %46

44:                                               ; preds = %39
  %45 = getelementptr inbounds i8, ptr %40, i32 -1
  store i8 48, ptr %45, align 1, !tbaa !23
  br label %47

46:                                               ; preds = %39
  br i1 %8, label %55, label %47

47:                                               ; preds = %46, %44
  %48 = phi ptr [ %45, %44 ], [ %40, %46 ]
  %49 = and i32 %2, 2
  %50 = icmp eq i32 %49, 0
  br i1 %50, label %51, label %55

51:                                               ; preds = %47
  %52 = and i32 %2, 4
  %53 = icmp eq i32 %52, 0
  %54 = select i1 %53, ptr @.str, ptr @.str.4.19
  br label %55

55:                                               ; preds = %51, %47, %46
  %56 = phi ptr [ %40, %46 ], [ %48, %51 ], [ %48, %47 ]
  %57 = phi ptr [ @.str.2.20, %46 ], [ %54, %51 ], [ @.str.3.22, %47 ]
  %58 = ptrtoint ptr %7 to i32
  %59 = ptrtoint ptr %56 to i32
  %60 = sub i32 %58, %59
  %61 = call fastcc i32 @number(ptr noundef %0, ptr noundef nonnull %57, ptr noundef nonnull %56, i32 noundef %60, i32 noundef %2, i32 noundef %3, i32 noundef %4) #12
  call void @llvm.lifetime.end.p0(i64 24, ptr nonnull %6) #11
  ret i32 %61
}

; Function Attrs: nounwind optsize
define internal i32 @__print_string(ptr nocapture noundef %0, ptr noundef %1, i32 noundef %2, i32 noundef %3, i32 noundef %4) local_unnamed_addr #1 {
  %6 = icmp eq ptr %1, null
  %7 = icmp ult i32 %4, 6
  %8 = select i1 %7, ptr @.str, ptr @.str.1.13
  %9 = select i1 %6, ptr %8, ptr %1
  %10 = icmp slt i32 %4, 0
  br i1 %10, label %11, label %20

11:                                               ; preds = %11, %5
  %12 = phi ptr [ %15, %11 ], [ %9, %5 ]
  %13 = load i8, ptr %12, align 1, !tbaa !23
  %14 = icmp eq i8 %13, 0
  %15 = getelementptr inbounds i8, ptr %12, i32 1
  br i1 %14, label %16, label %11, !llvm.loop !53

16:                                               ; preds = %11
  %17 = ptrtoint ptr %12 to i32
  %18 = ptrtoint ptr %9 to i32
  %19 = sub i32 %17, %18
  br label %30

20:                                               ; preds = %5
  %21 = icmp eq i32 %4, 0
  br i1 %21, label %30, label %22

22:                                               ; preds = %27, %20
  %23 = phi i32 [ %28, %27 ], [ 0, %20 ]
  %24 = getelementptr inbounds i8, ptr %9, i32 %23
  %25 = load i8, ptr %24, align 1, !tbaa !23
  %26 = icmp eq i8 %25, 0
  br i1 %26, label %30, label %27

27:                                               ; preds = %22
  %28 = add nuw nsw i32 %23, 1
  %29 = icmp eq i32 %28, %4
  br i1 %29, label %30, label %22, !llvm.loop !54

30:                                               ; preds = %27, %22, %20, %16
  %31 = phi i32 [ %19, %16 ], [ 0, %20 ], [ %23, %22 ], [ %4, %27 ]
  %32 = tail call fastcc i32 @padded(ptr noundef %0, ptr noundef nonnull %9, i32 noundef %31, i32 noundef %2, i32 noundef %3) #12
  ret i32 %32
}

; Function Attrs: nounwind optsize
define internal i32 @__print_unsigned(ptr nocapture noundef %0, i64 noundef %1, i32 noundef %2, i32 noundef %3, i32 noundef %4, i32 noundef %5) local_unnamed_addr #1 {
  %7 = alloca [24 x i8], align 1
  call void @llvm.lifetime.start.p0(i64 24, ptr nonnull %7) #11
  %8 = and i32 %3, 32
  %9 = icmp eq i32 %8, 0
  %10 = select i1 %9, ptr @.str.9.18, ptr @.str.8.25
  %11 = icmp ult i64 %1, 4294967296
  br i1 %11, label %14, label %12

12:                                               ; preds = %6
  %13 = zext i32 %2 to i64
  br label %29

14:                                               ; preds = %6
  %15 = trunc nuw i64 %1 to i32
  %16 = icmp eq i32 %15, 0
  br i1 %16, label %41, label %17

17:                                               ; preds = %17, %14
  %18 = phi i32 [ %21, %17 ], [ %15, %14 ]
  %19 = phi i32 [ %26, %17 ], [ 24, %14 ]
  %20 = freeze i32 %18
  %21 = udiv i32 %20, %2
  %22 = mul i32 %21, %2
  %23 = sub i32 %20, %22
  %24 = getelementptr inbounds i8, ptr %10, i32 %23
  %25 = load i8, ptr %24, align 1, !tbaa !23
  %26 = add nsw i32 %19, -1
  %27 = getelementptr inbounds i8, ptr %7, i32 %26
  store i8 %25, ptr %27, align 1, !tbaa !23
  %28 = icmp ult i32 %18, %2
  br i1 %28, label %41, label %17, !llvm.loop !51

29:                                               ; preds = %29, %12
  %30 = phi i32 [ 24, %12 ], [ %38, %29 ]
  %31 = phi i64 [ %1, %12 ], [ %32, %29 ]
  %32 = udiv i64 %31, %13
  %33 = mul i64 %32, %13
  %34 = sub i64 %31, %33
  %35 = trunc nuw i64 %34 to i32
  %36 = getelementptr inbounds i8, ptr %10, i32 %35
  %37 = load i8, ptr %36, align 1, !tbaa !23
  %38 = add nsw i32 %30, -1
  %39 = getelementptr inbounds i8, ptr %7, i32 %38
  store i8 %37, ptr %39, align 1, !tbaa !23
  %40 = icmp ult i64 %31, %13
  br i1 %40, label %41, label %29, !llvm.loop !52

41:                                               ; preds = %29, %17, %14
  %42 = phi i32 [ 24, %14 ], [ %26, %17 ], [ %38, %29 ]
  %43 = icmp eq i64 %1, 0
  %44 = icmp ne i32 %5, 0
  %45 = and i1 %43, %44
  br i1 %45, label %46, label %49

46:                                               ; preds = %41
  %47 = add nsw i32 %42, -1
  %48 = getelementptr inbounds i8, ptr %7, i32 %47
  store i8 48, ptr %48, align 1, !tbaa !23
  br label %49

49:                                               ; preds = %46, %41
  %50 = phi i32 [ %47, %46 ], [ %42, %41 ]
  %51 = getelementptr inbounds i8, ptr %7, i32 %50
  %52 = and i32 %3, 8
  %53 = icmp ne i32 %52, 0
  %54 = icmp eq i32 %2, 8
  %55 = and i1 %54, %53
  %56 = sub nsw i32 24, %50
  %57 = icmp sge i32 %56, %5
  %58 = select i1 %55, i1 %57, i1 false
  br i1 %58, label %59, label %66

59:                                               ; preds = %49
  %60 = icmp eq i32 %50, 24
  br i1 %60, label %64, label %61

61:                                               ; preds = %59
  %62 = load i8, ptr %51, align 1, !tbaa !23
  %63 = icmp eq i8 %62, 48
  br i1 %63, label %66, label %64

64:                                               ; preds = %61, %59
  %65 = getelementptr inbounds i8, ptr %51, i32 -1
  store i8 48, ptr %65, align 1, !tbaa !23
  br label %66

66:                                               ; preds = %64, %61, %49
  %67 = phi ptr [ %65, %64 ], [ %51, %61 ], [ %51, %49 ]
  %68 = getelementptr inbounds i8, ptr %7, i32 24
  %69 = ptrtoint ptr %68 to i32
  %70 = icmp eq i32 %2, 16
  %71 = icmp ne i64 %1, 0
  %72 = and i1 %71, %70
  %73 = and i1 %72, %53
  %74 = select i1 %9, ptr @.str.6.26, ptr @.str.5.27
  %75 = select i1 %73, ptr %74, ptr @.str
  %76 = ptrtoint ptr %67 to i32
  %77 = sub i32 %69, %76
  %78 = call fastcc i32 @number(ptr noundef %0, ptr noundef nonnull %75, ptr noundef nonnull %67, i32 noundef %77, i32 noundef %3, i32 noundef %4, i32 noundef %5) #12
  call void @llvm.lifetime.end.p0(i64 24, ptr nonnull %7) #11
  ret i32 %78
}

; Function Attrs: nofree nounwind
declare dso_local noundef i32 @putchar(i32 noundef) local_unnamed_addr #5

; Function Attrs: nofree norecurse nosync nounwind optsize memory(read, inaccessiblemem: none)
define internal noundef i32 @strlen(ptr noundef %0) local_unnamed_addr #2 {
  br label %2

2:                                                ; preds = %2, %1
  %3 = phi ptr [ %0, %1 ], [ %6, %2 ]
  %4 = load i8, ptr %3, align 1, !tbaa !23
  %5 = icmp eq i8 %4, 0
  %6 = getelementptr inbounds i8, ptr %3, i32 1
  br i1 %5, label %7, label %2, !llvm.loop !53

7:                                                ; preds = %2
  %8 = ptrtoint ptr %3 to i32
  %9 = ptrtoint ptr %0 to i32
  %10 = sub i32 %8, %9
  ret i32 %10
}

; Function Attrs: nofree norecurse nosync nounwind optsize
define internal noundef ptr @strcpy(ptr noalias noundef returned writeonly %0, ptr noalias nocapture noundef readonly %1) local_unnamed_addr #6 {
  %3 = load i8, ptr %1, align 1, !tbaa !23, !alias.scope !55, !noalias !58
  store i8 %3, ptr %0, align 1, !tbaa !23, !alias.scope !58, !noalias !55
  %4 = icmp eq i8 %3, 0
  br i1 %4, label %12, label %5

5:                                                ; preds = %5, %2
  %6 = phi ptr [ %8, %5 ], [ %1, %2 ]
  %7 = phi ptr [ %9, %5 ], [ %0, %2 ]
  %8 = getelementptr inbounds i8, ptr %6, i32 1
  %9 = getelementptr inbounds i8, ptr %7, i32 1
  %10 = load i8, ptr %8, align 1, !tbaa !23, !alias.scope !55, !noalias !58
  store i8 %10, ptr %9, align 1, !tbaa !23, !alias.scope !58, !noalias !55
  %11 = icmp eq i8 %10, 0
  br i1 %11, label %12, label %5, !llvm.loop !60

12:                                               ; preds = %5, %2
  ret ptr %0
}

; Function Attrs: nounwind optsize
define internal fastcc i32 @number(ptr nocapture noundef %0, ptr noundef %1, ptr nocapture noundef readonly %2, i32 noundef %3, i32 noundef %4, i32 noundef %5, i32 noundef %6) unnamed_addr #1 {
  br label %8

8:                                                ; preds = %8, %7
  %9 = phi ptr [ %1, %7 ], [ %12, %8 ]
  %10 = load i8, ptr %9, align 1, !tbaa !23
  %11 = icmp eq i8 %10, 0
  %12 = getelementptr inbounds i8, ptr %9, i32 1
  br i1 %11, label %13, label %8, !llvm.loop !53

13:                                               ; preds = %8
  %14 = ptrtoint ptr %9 to i32
  %15 = ptrtoint ptr %1 to i32
  %16 = sub i32 %14, %15
  %17 = sub nsw i32 %6, %3
  %18 = lshr i32 %5, 31
  %19 = icmp ne i32 %18, 0
  %20 = sub i32 0, %5
  %21 = select i1 %19, i32 %20, i32 %5
  %22 = tail call i32 @llvm.smax.i32(i32 %17, i32 0)
  %23 = icmp slt i32 %6, 0
  %24 = and i32 %4, 16
  %25 = icmp ne i32 %24, 0
  %26 = and i1 %25, %23
  %27 = and i32 %4, 1
  %28 = or i32 %18, %27
  %29 = icmp eq i32 %28, 0
  %30 = and i1 %26, %29
  %31 = add i32 %16, %3
  %32 = icmp sgt i32 %21, %31
  %33 = select i1 %30, i1 %32, i1 false
  %34 = sub i32 %21, %31
  %35 = select i1 %33, i32 %34, i32 %22
  %36 = add i32 %31, %35
  %37 = sub i32 %21, %36
  br i1 %29, label %38, label %47

38:                                               ; preds = %13
  %39 = icmp sgt i32 %37, 0
  br i1 %39, label %40, label %45

40:                                               ; preds = %40, %38
  %41 = phi i32 [ %43, %40 ], [ 0, %38 ]
  %42 = tail call i32 @fputc(i32 noundef 32, ptr noundef %0) #12
  %43 = add nuw nsw i32 %41, 1
  %44 = icmp eq i32 %43, %37
  br i1 %44, label %45, label %40, !llvm.loop !61

45:                                               ; preds = %40, %38
  %46 = tail call noundef i32 @llvm.smax.i32(i32 %37, i32 0)
  br label %47

47:                                               ; preds = %45, %13
  %48 = phi i32 [ 0, %13 ], [ %46, %45 ]
  %49 = load i8, ptr %0, align 4, !tbaa !43, !alias.scope !62, !noalias !65
  %50 = icmp eq i8 %49, 0
  %51 = icmp eq ptr %9, %1
  %52 = or i1 %51, %50
  br i1 %52, label %61, label %53

53:                                               ; preds = %53, %47
  %54 = phi i32 [ %59, %53 ], [ 0, %47 ]
  %55 = getelementptr inbounds i8, ptr %1, i32 %54
  %56 = load i8, ptr %55, align 1, !tbaa !23, !alias.scope !65, !noalias !62
  %57 = zext i8 %56 to i32
  %58 = tail call i32 @fputc(i32 noundef %57, ptr noundef nonnull %0) #12, !noalias !65
  %59 = add nuw i32 %54, 1
  %60 = icmp eq i32 %59, %16
  br i1 %60, label %61, label %53, !llvm.loop !50

61:                                               ; preds = %53, %47
  %62 = icmp sgt i32 %35, 0
  br i1 %62, label %63, label %68

63:                                               ; preds = %63, %61
  %64 = phi i32 [ %66, %63 ], [ 0, %61 ]
  %65 = tail call i32 @fputc(i32 noundef 48, ptr noundef nonnull %0) #12
  %66 = add nuw nsw i32 %64, 1
  %67 = icmp eq i32 %66, %35
  br i1 %67, label %68, label %63, !llvm.loop !61

68:                                               ; preds = %63, %61
  %69 = tail call noundef i32 @llvm.smax.i32(i32 %35, i32 0)
  %70 = load i8, ptr %0, align 4, !tbaa !43, !alias.scope !67, !noalias !70
  %71 = icmp eq i8 %70, 0
  %72 = icmp eq i32 %3, 0
  %73 = or i1 %72, %71
  br i1 %73, label %82, label %74

74:                                               ; preds = %74, %68
  %75 = phi i32 [ %80, %74 ], [ 0, %68 ]
  %76 = getelementptr inbounds i8, ptr %2, i32 %75
  %77 = load i8, ptr %76, align 1, !tbaa !23, !alias.scope !70, !noalias !67
  %78 = zext i8 %77 to i32
  %79 = tail call i32 @fputc(i32 noundef %78, ptr noundef nonnull %0) #12, !noalias !70
  %80 = add nuw i32 %75, 1
  %81 = icmp eq i32 %80, %3
  br i1 %81, label %82, label %74, !llvm.loop !50

82:                                               ; preds = %74, %68
  %83 = add i32 %31, %69
  %84 = add i32 %83, %48
  br i1 %29, label %95, label %85

85:                                               ; preds = %82
  %86 = icmp sgt i32 %37, 0
  br i1 %86, label %87, label %92

87:                                               ; preds = %87, %85
  %88 = phi i32 [ %90, %87 ], [ 0, %85 ]
  %89 = tail call i32 @fputc(i32 noundef 32, ptr noundef nonnull %0) #12
  %90 = add nuw nsw i32 %88, 1
  %91 = icmp eq i32 %90, %37
  br i1 %91, label %92, label %87, !llvm.loop !61

92:                                               ; preds = %87, %85
  %93 = tail call noundef i32 @llvm.smax.i32(i32 %37, i32 0)
  %94 = add nsw i32 %84, %93
  br label %95

95:                                               ; preds = %92, %82
  %96 = phi i32 [ %94, %92 ], [ %84, %82 ]
  ret i32 %96
}

; Function Attrs: nocallback nofree nosync nounwind speculatable willreturn memory(none)
declare i32 @llvm.smax.i32(i32, i32) #7

; Function Attrs: nounwind optsize
define internal range(i32 -1, 256) i32 @fputc(i32 noundef %0, ptr nocapture noundef %1) local_unnamed_addr #1 {
  %3 = load i8, ptr %1, align 4, !tbaa !43
  switch i8 %3, label %17 [
    i8 1, label %4
    i8 3, label %6
    i8 0, label %19
  ]

4:                                                ; preds = %2
  %5 = tail call i32 @putchar(i32 noundef %0) #14
  br label %17

6:                                                ; preds = %2
  %7 = getelementptr inbounds i8, ptr %1, i32 8
  %8 = load i32, ptr %7, align 4, !tbaa !72
  %9 = icmp eq i32 %8, 0
  br i1 %9, label %17, label %10

10:                                               ; preds = %6
  %11 = trunc i32 %0 to i8
  %12 = getelementptr inbounds i8, ptr %1, i32 4
  %13 = load ptr, ptr %12, align 4, !tbaa !73
  %14 = getelementptr inbounds i8, ptr %13, i32 1
  store ptr %14, ptr %12, align 4, !tbaa !73
  store i8 %11, ptr %13, align 1, !tbaa !23
  %15 = load i32, ptr %7, align 4, !tbaa !72
  %16 = add i32 %15, -1
  store i32 %16, ptr %7, align 4, !tbaa !72
  br label %17

17:                                               ; preds = %10, %6, %4, %2
  %18 = and i32 %0, 255
  br label %19

19:                                               ; preds = %17, %2
  %20 = phi i32 [ %18, %17 ], [ -1, %2 ]
  ret i32 %20
}

; Function Attrs: nounwind optsize
define internal fastcc i32 @padded(ptr nocapture noundef %0, ptr nocapture noundef readonly %1, i32 noundef %2, i32 noundef %3, i32 noundef %4) unnamed_addr #1 {
  %6 = icmp slt i32 %4, 0
  %7 = lshr i32 %4, 31
  %8 = icmp ne i32 %7, 0
  %9 = sub i32 0, %4
  %10 = select i1 %8, i32 %9, i32 %4
  %11 = sub nsw i32 %10, %2
  %12 = and i32 %3, 1
  %13 = icmp ne i32 %12, 0
  %14 = or i1 %6, %13
  br i1 %14, label %24, label %15

15:                                               ; preds = %5
  %16 = icmp sgt i32 %11, 0
  br i1 %16, label %17, label %22

17:                                               ; preds = %17, %15
  %18 = phi i32 [ %20, %17 ], [ 0, %15 ]
  %19 = tail call i32 @fputc(i32 noundef 32, ptr noundef %0) #12
  %20 = add nuw nsw i32 %18, 1
  %21 = icmp eq i32 %20, %11
  br i1 %21, label %22, label %17, !llvm.loop !61

22:                                               ; preds = %17, %15
  %23 = tail call noundef i32 @llvm.smax.i32(i32 %11, i32 0)
  br label %24

24:                                               ; preds = %22, %5
  %25 = phi i32 [ %23, %22 ], [ 0, %5 ]
  %26 = load i8, ptr %0, align 4, !tbaa !43, !alias.scope !74, !noalias !77
  %27 = icmp eq i8 %26, 0
  %28 = icmp eq i32 %2, 0
  %29 = or i1 %28, %27
  br i1 %29, label %38, label %30

30:                                               ; preds = %30, %24
  %31 = phi i32 [ %36, %30 ], [ 0, %24 ]
  %32 = getelementptr inbounds i8, ptr %1, i32 %31
  %33 = load i8, ptr %32, align 1, !tbaa !23, !alias.scope !77, !noalias !74
  %34 = zext i8 %33 to i32
  %35 = tail call i32 @fputc(i32 noundef %34, ptr noundef nonnull %0) #12, !noalias !77
  %36 = add nuw i32 %31, 1
  %37 = icmp eq i32 %36, %2
  br i1 %37, label %38, label %30, !llvm.loop !50

38:                                               ; preds = %30, %24
  br i1 %14, label %39, label %48

39:                                               ; preds = %38
  %40 = icmp sgt i32 %11, 0
  br i1 %40, label %41, label %46

41:                                               ; preds = %41, %39
  %42 = phi i32 [ %44, %41 ], [ 0, %39 ]
  %43 = tail call i32 @fputc(i32 noundef 32, ptr noundef nonnull %0) #12
  %44 = add nuw nsw i32 %42, 1
  %45 = icmp eq i32 %44, %11
  br i1 %45, label %46, label %41, !llvm.loop !61

46:                                               ; preds = %41, %39
  %47 = tail call noundef i32 @llvm.smax.i32(i32 %11, i32 0)
  br label %48

48:                                               ; preds = %46, %38
  %49 = phi i32 [ %47, %46 ], [ 0, %38 ]
  %50 = add nsw i32 %25, %2
  %51 = add nsw i32 %50, %49
  ret i32 %51
}

; Function Attrs: nofree nounwind
define internal fastcc void @expression(ptr nocapture noundef %0) unnamed_addr #5 {
  tail call fastcc void @primary(ptr noundef %0)
  %2 = getelementptr inbounds i8, ptr %0, i32 32
  %3 = getelementptr inbounds i8, ptr %0, i32 8
  %4 = load i32, ptr %3, align 4, !tbaa !15
  %5 = icmp eq i32 %4, 3
  br i1 %5, label %6, label %199

6:                                                ; preds = %1
  %7 = getelementptr inbounds i8, ptr %0, i32 36
  %8 = getelementptr inbounds i8, ptr %0, i32 4
  br label %9

9:                                                ; preds = %28, %6
  %10 = load i32, ptr %2, align 4, !tbaa !40
  %11 = freeze i32 %10
  switch i32 %11, label %35 [
    i32 42, label %14
    i32 47, label %12
    i32 37, label %13
  ]

12:                                               ; preds = %9
  br label %14

13:                                               ; preds = %9
  br label %14

14:                                               ; preds = %13, %12, %9
  %15 = phi i8 [ 6, %9 ], [ 7, %12 ], [ 8, %13 ]
  tail call fastcc void @lexer_next(ptr noundef nonnull %0)
  tail call fastcc void @primary(ptr noundef nonnull %0)
  %16 = load ptr, ptr %7, align 4, !tbaa !12
  %17 = getelementptr inbounds i8, ptr %16, i32 2000
  %18 = load i32, ptr %17, align 4, !tbaa !18
  %19 = icmp eq i32 %18, 2000
  br i1 %19, label %20, label %28

20:                                               ; preds = %14
  %21 = getelementptr inbounds i8, ptr %16, i32 2648
  %22 = load ptr, ptr %21, align 4, !tbaa !20
  %23 = icmp eq ptr %22, null
  br i1 %23, label %24, label %27

24:                                               ; preds = %20
  store ptr @.str.10, ptr %21, align 4, !tbaa !20
  %25 = load i32, ptr %8, align 4, !tbaa !21
  %26 = getelementptr inbounds i8, ptr %16, i32 2652
  store i32 %25, ptr %26, align 4, !tbaa !22
  br label %27

27:                                               ; preds = %24, %20
  store i32 0, ptr %3, align 4, !tbaa !15
  br label %199

28:                                               ; preds = %14
  %29 = add i32 %18, 1
  store i32 %29, ptr %17, align 4, !tbaa !18
  %30 = getelementptr inbounds [2000 x i8], ptr %16, i32 0, i32 %18
  store i8 %15, ptr %30, align 1, !tbaa !23
  %31 = load i32, ptr %3, align 4, !tbaa !15
  %32 = icmp eq i32 %31, 3
  br i1 %32, label %9, label %199

33:                                               ; preds = %80
  %34 = load i32, ptr %2, align 4, !tbaa !40
  br label %35

35:                                               ; preds = %33, %9
  %36 = phi i32 [ %34, %33 ], [ %11, %9 ]
  %37 = freeze i32 %36
  switch i32 %37, label %199 [
    i32 43, label %39
    i32 45, label %38
    i32 318, label %85
    i32 317, label %85
    i32 289, label %85
    i32 60, label %85
  ]

38:                                               ; preds = %35
  br label %39

39:                                               ; preds = %38, %35
  %40 = phi i8 [ 4, %35 ], [ 5, %38 ]
  tail call fastcc void @lexer_next(ptr noundef nonnull %0)
  tail call fastcc void @primary(ptr noundef nonnull %0)
  %41 = load i32, ptr %3, align 4, !tbaa !15
  %42 = icmp eq i32 %41, 3
  br i1 %42, label %43, label %67

43:                                               ; preds = %62, %39
  %44 = load i32, ptr %2, align 4, !tbaa !40
  %45 = freeze i32 %44
  switch i32 %45, label %67 [
    i32 42, label %48
    i32 47, label %46
    i32 37, label %47
  ]

46:                                               ; preds = %43
  br label %48

47:                                               ; preds = %43
  br label %48

48:                                               ; preds = %47, %46, %43
  %49 = phi i8 [ 6, %43 ], [ 7, %46 ], [ 8, %47 ]
  tail call fastcc void @lexer_next(ptr noundef nonnull %0)
  tail call fastcc void @primary(ptr noundef nonnull %0)
  %50 = load ptr, ptr %7, align 4, !tbaa !12
  %51 = getelementptr inbounds i8, ptr %50, i32 2000
  %52 = load i32, ptr %51, align 4, !tbaa !18
  %53 = icmp eq i32 %52, 2000
  br i1 %53, label %54, label %62

54:                                               ; preds = %48
  %55 = getelementptr inbounds i8, ptr %50, i32 2648
  %56 = load ptr, ptr %55, align 4, !tbaa !20
  %57 = icmp eq ptr %56, null
  br i1 %57, label %58, label %61

58:                                               ; preds = %54
  store ptr @.str.10, ptr %55, align 4, !tbaa !20
  %59 = load i32, ptr %8, align 4, !tbaa !21
  %60 = getelementptr inbounds i8, ptr %50, i32 2652
  store i32 %59, ptr %60, align 4, !tbaa !22
  br label %61

61:                                               ; preds = %58, %54
  store i32 0, ptr %3, align 4, !tbaa !15
  br label %67

62:                                               ; preds = %48
  %63 = add i32 %52, 1
  store i32 %63, ptr %51, align 4, !tbaa !18
  %64 = getelementptr inbounds [2000 x i8], ptr %50, i32 0, i32 %52
  store i8 %49, ptr %64, align 1, !tbaa !23
  %65 = load i32, ptr %3, align 4, !tbaa !15
  %66 = icmp eq i32 %65, 3
  br i1 %66, label %43, label %67

67:                                               ; preds = %62, %61, %43, %39
  %68 = load ptr, ptr %7, align 4, !tbaa !12
  %69 = getelementptr inbounds i8, ptr %68, i32 2000
  %70 = load i32, ptr %69, align 4, !tbaa !18
  %71 = icmp eq i32 %70, 2000
  br i1 %71, label %72, label %80

72:                                               ; preds = %67
  %73 = getelementptr inbounds i8, ptr %68, i32 2648
  %74 = load ptr, ptr %73, align 4, !tbaa !20
  %75 = icmp eq ptr %74, null
  br i1 %75, label %76, label %79

76:                                               ; preds = %72
  store ptr @.str.10, ptr %73, align 4, !tbaa !20
  %77 = load i32, ptr %8, align 4, !tbaa !21
  %78 = getelementptr inbounds i8, ptr %68, i32 2652
  store i32 %77, ptr %78, align 4, !tbaa !22
  br label %79

79:                                               ; preds = %76, %72
  store i32 0, ptr %3, align 4, !tbaa !15
  br label %199

80:                                               ; preds = %67
  %81 = add i32 %70, 1
  store i32 %81, ptr %69, align 4, !tbaa !18
  %82 = getelementptr inbounds [2000 x i8], ptr %68, i32 0, i32 %70
  store i8 %40, ptr %82, align 1, !tbaa !23
  %83 = load i32, ptr %3, align 4, !tbaa !15
  %84 = icmp eq i32 %83, 3
  br i1 %84, label %33, label %199

85:                                               ; preds = %35, %35, %35, %35
  tail call fastcc void @lexer_next(ptr noundef nonnull %0)
  tail call fastcc void @primary(ptr noundef nonnull %0)
  %86 = load i32, ptr %3, align 4, !tbaa !15
  %87 = icmp eq i32 %86, 3
  br i1 %87, label %88, label %162

88:                                               ; preds = %103, %85
  %89 = load i32, ptr %2, align 4, !tbaa !40
  %90 = freeze i32 %89
  switch i32 %90, label %110 [
    i32 42, label %93
    i32 47, label %91
    i32 37, label %92
  ]

91:                                               ; preds = %88
  br label %93

92:                                               ; preds = %88
  br label %93

93:                                               ; preds = %92, %91, %88
  %94 = phi i8 [ 6, %88 ], [ 7, %91 ], [ 8, %92 ]
  tail call fastcc void @lexer_next(ptr noundef nonnull %0)
  tail call fastcc void @primary(ptr noundef nonnull %0)
  %95 = load ptr, ptr %7, align 4, !tbaa !12
  %96 = getelementptr inbounds i8, ptr %95, i32 2000
  %97 = load i32, ptr %96, align 4, !tbaa !18
  %98 = icmp eq i32 %97, 2000
  br i1 %98, label %99, label %103

99:                                               ; preds = %93
  %100 = getelementptr inbounds i8, ptr %95, i32 2648
  %101 = load ptr, ptr %100, align 4, !tbaa !20
  %102 = icmp eq ptr %101, null
  br i1 %102, label %156, label %161

103:                                              ; preds = %93
  %104 = add i32 %97, 1
  store i32 %104, ptr %96, align 4, !tbaa !18
  %105 = getelementptr inbounds [2000 x i8], ptr %95, i32 0, i32 %97
  store i8 %94, ptr %105, align 1, !tbaa !23
  %106 = load i32, ptr %3, align 4, !tbaa !15
  %107 = icmp eq i32 %106, 3
  br i1 %107, label %88, label %162

108:                                              ; preds = %151
  %109 = load i32, ptr %2, align 4, !tbaa !40
  br label %110

110:                                              ; preds = %108, %88
  %111 = phi i32 [ %109, %108 ], [ %90, %88 ]
  %112 = freeze i32 %111
  switch i32 %112, label %162 [
    i32 43, label %114
    i32 45, label %113
  ]

113:                                              ; preds = %110
  br label %114

114:                                              ; preds = %113, %110
  %115 = phi i8 [ 4, %110 ], [ 5, %113 ]
  tail call fastcc void @lexer_next(ptr noundef nonnull %0)
  tail call fastcc void @primary(ptr noundef nonnull %0)
  %116 = load i32, ptr %3, align 4, !tbaa !15
  %117 = icmp eq i32 %116, 3
  br i1 %117, label %118, label %142

118:                                              ; preds = %137, %114
  %119 = load i32, ptr %2, align 4, !tbaa !40
  %120 = freeze i32 %119
  switch i32 %120, label %142 [
    i32 42, label %123
    i32 47, label %121
    i32 37, label %122
  ]

121:                                              ; preds = %118
  br label %123

122:                                              ; preds = %118
  br label %123

123:                                              ; preds = %122, %121, %118
  %124 = phi i8 [ 6, %118 ], [ 7, %121 ], [ 8, %122 ]
  tail call fastcc void @lexer_next(ptr noundef nonnull %0)
  tail call fastcc void @primary(ptr noundef nonnull %0)
  %125 = load ptr, ptr %7, align 4, !tbaa !12
  %126 = getelementptr inbounds i8, ptr %125, i32 2000
  %127 = load i32, ptr %126, align 4, !tbaa !18
  %128 = icmp eq i32 %127, 2000
  br i1 %128, label %129, label %137

129:                                              ; preds = %123
  %130 = getelementptr inbounds i8, ptr %125, i32 2648
  %131 = load ptr, ptr %130, align 4, !tbaa !20
  %132 = icmp eq ptr %131, null
  br i1 %132, label %133, label %136

133:                                              ; preds = %129
  store ptr @.str.10, ptr %130, align 4, !tbaa !20
  %134 = load i32, ptr %8, align 4, !tbaa !21
  %135 = getelementptr inbounds i8, ptr %125, i32 2652
  store i32 %134, ptr %135, align 4, !tbaa !22
  br label %136

136:                                              ; preds = %133, %129
  store i32 0, ptr %3, align 4, !tbaa !15
  br label %142

137:                                              ; preds = %123
  %138 = add i32 %127, 1
  store i32 %138, ptr %126, align 4, !tbaa !18
  %139 = getelementptr inbounds [2000 x i8], ptr %125, i32 0, i32 %127
  store i8 %124, ptr %139, align 1, !tbaa !23
  %140 = load i32, ptr %3, align 4, !tbaa !15
  %141 = icmp eq i32 %140, 3
  br i1 %141, label %118, label %142

142:                                              ; preds = %137, %136, %118, %114
  %143 = load ptr, ptr %7, align 4, !tbaa !12
  %144 = getelementptr inbounds i8, ptr %143, i32 2000
  %145 = load i32, ptr %144, align 4, !tbaa !18
  %146 = icmp eq i32 %145, 2000
  br i1 %146, label %147, label %151

147:                                              ; preds = %142
  %148 = getelementptr inbounds i8, ptr %143, i32 2648
  %149 = load ptr, ptr %148, align 4, !tbaa !20
  %150 = icmp eq ptr %149, null
  br i1 %150, label %156, label %161

151:                                              ; preds = %142
  %152 = add i32 %145, 1
  store i32 %152, ptr %144, align 4, !tbaa !18
  %153 = getelementptr inbounds [2000 x i8], ptr %143, i32 0, i32 %145
  store i8 %115, ptr %153, align 1, !tbaa !23
  %154 = load i32, ptr %3, align 4, !tbaa !15
  %155 = icmp eq i32 %154, 3
  br i1 %155, label %108, label %162

156:                                              ; preds = %147, %99
  %157 = phi ptr [ %100, %99 ], [ %148, %147 ]
  %158 = phi ptr [ %95, %99 ], [ %143, %147 ]
  store ptr @.str.10, ptr %157, align 4, !tbaa !20
  %159 = load i32, ptr %8, align 4, !tbaa !21
  %160 = getelementptr inbounds i8, ptr %158, i32 2652
  store i32 %159, ptr %160, align 4, !tbaa !22
  br label %161

161:                                              ; preds = %156, %147, %99
  store i32 0, ptr %3, align 4, !tbaa !15
  br label %162

162:                                              ; preds = %161, %151, %110, %103, %85
  %163 = load ptr, ptr %7, align 4, !tbaa !12
  %164 = getelementptr inbounds i8, ptr %163, i32 2000
  %165 = load i32, ptr %164, align 4, !tbaa !18
  %166 = icmp eq i32 %165, 2000
  br i1 %166, label %167, label %175

167:                                              ; preds = %162
  %168 = getelementptr inbounds i8, ptr %163, i32 2648
  %169 = load ptr, ptr %168, align 4, !tbaa !20
  %170 = icmp eq ptr %169, null
  br i1 %170, label %171, label %174

171:                                              ; preds = %167
  store ptr @.str.10, ptr %168, align 4, !tbaa !20
  %172 = load i32, ptr %8, align 4, !tbaa !21
  %173 = getelementptr inbounds i8, ptr %163, i32 2652
  store i32 %172, ptr %173, align 4, !tbaa !22
  br label %174

174:                                              ; preds = %171, %167
  store i32 0, ptr %3, align 4, !tbaa !15
  br label %182

175:                                              ; preds = %162
  %176 = icmp eq i32 %37, 60
  %177 = icmp eq i32 %37, 318
  %178 = or i1 %176, %177
  %179 = select i1 %178, i8 9, i8 10
  %180 = add i32 %165, 1
  store i32 %180, ptr %164, align 4, !tbaa !18
  %181 = getelementptr inbounds [2000 x i8], ptr %163, i32 0, i32 %165
  store i8 %179, ptr %181, align 1, !tbaa !23
  br label %182

182:                                              ; preds = %175, %174
  switch i32 %37, label %199 [
    i32 318, label %183
    i32 289, label %183
  ]

183:                                              ; preds = %182, %182
  %184 = load ptr, ptr %7, align 4, !tbaa !12
  %185 = getelementptr inbounds i8, ptr %184, i32 2000
  %186 = load i32, ptr %185, align 4, !tbaa !18
  %187 = icmp eq i32 %186, 2000
  br i1 %187, label %188, label %196

188:                                              ; preds = %183
  %189 = getelementptr inbounds i8, ptr %184, i32 2648
  %190 = load ptr, ptr %189, align 4, !tbaa !20
  %191 = icmp eq ptr %190, null
  br i1 %191, label %192, label %195

192:                                              ; preds = %188
  store ptr @.str.10, ptr %189, align 4, !tbaa !20
  %193 = load i32, ptr %8, align 4, !tbaa !21
  %194 = getelementptr inbounds i8, ptr %184, i32 2652
  store i32 %193, ptr %194, align 4, !tbaa !22
  br label %195

195:                                              ; preds = %192, %188
  store i32 0, ptr %3, align 4, !tbaa !15
  br label %199

196:                                              ; preds = %183
  %197 = add i32 %186, 1
  store i32 %197, ptr %185, align 4, !tbaa !18
  %198 = getelementptr inbounds [2000 x i8], ptr %184, i32 0, i32 %186
  store i8 11, ptr %198, align 1, !tbaa !23
  br label %199

199:                                              ; preds = %196, %195, %182, %80, %79, %35, %28, %27, %1
  ret void
}

; Function Attrs: nofree nounwind
define internal fastcc void @block(ptr noundef %0) unnamed_addr #5 {
  %2 = getelementptr inbounds i8, ptr %0, i32 8
  %3 = load i32, ptr %2, align 4, !tbaa !15
  %4 = icmp eq i32 %3, 3
  br i1 %4, label %5, label %10

5:                                                ; preds = %1
  %6 = getelementptr inbounds i8, ptr %0, i32 32
  %7 = load i32, ptr %6, align 4, !tbaa !40
  %8 = icmp eq i32 %7, 123
  br i1 %8, label %9, label %10

9:                                                ; preds = %5
  tail call fastcc void @lexer_next(ptr noundef nonnull %0)
  br label %21

10:                                               ; preds = %5, %1
  %11 = getelementptr inbounds i8, ptr %0, i32 36
  %12 = load ptr, ptr %11, align 4, !tbaa !12
  %13 = getelementptr inbounds i8, ptr %12, i32 2648
  %14 = load ptr, ptr %13, align 4, !tbaa !20
  %15 = icmp eq ptr %14, null
  br i1 %15, label %16, label %20

16:                                               ; preds = %10
  store ptr @.str.4, ptr %13, align 4, !tbaa !20
  %17 = getelementptr inbounds i8, ptr %0, i32 4
  %18 = load i32, ptr %17, align 4, !tbaa !21
  %19 = getelementptr inbounds i8, ptr %12, i32 2652
  store i32 %18, ptr %19, align 4, !tbaa !22
  br label %20

20:                                               ; preds = %16, %10
  store i32 0, ptr %2, align 4, !tbaa !15
  br label %21

21:                                               ; preds = %20, %9
  %22 = getelementptr inbounds i8, ptr %0, i32 32
  br label %23

23:                                               ; preds = %28, %21
  %24 = load i32, ptr %2, align 4, !tbaa !15
  switch i32 %24, label %28 [
    i32 0, label %30
    i32 3, label %25
  ]

25:                                               ; preds = %23
  %26 = load i32, ptr %22, align 4, !tbaa !40
  %27 = icmp eq i32 %26, 125
  br i1 %27, label %29, label %28

28:                                               ; preds = %25, %23
  tail call fastcc void @statement(ptr noundef nonnull %0)
  br label %23, !llvm.loop !79

29:                                               ; preds = %25
  tail call fastcc void @lexer_next(ptr noundef nonnull %0)
  br label %41

30:                                               ; preds = %23
  %31 = getelementptr inbounds i8, ptr %0, i32 36
  %32 = load ptr, ptr %31, align 4, !tbaa !12
  %33 = getelementptr inbounds i8, ptr %32, i32 2648
  %34 = load ptr, ptr %33, align 4, !tbaa !20
  %35 = icmp eq ptr %34, null
  br i1 %35, label %36, label %40

36:                                               ; preds = %30
  store ptr @.str.5, ptr %33, align 4, !tbaa !20
  %37 = getelementptr inbounds i8, ptr %0, i32 4
  %38 = load i32, ptr %37, align 4, !tbaa !21
  %39 = getelementptr inbounds i8, ptr %32, i32 2652
  store i32 %38, ptr %39, align 4, !tbaa !22
  br label %40

40:                                               ; preds = %36, %30
  store i32 0, ptr %2, align 4, !tbaa !15
  br label %41

41:                                               ; preds = %40, %29
  ret void
}

; Function Attrs: nofree norecurse nosync nounwind optsize memory(read, inaccessiblemem: none)
define internal range(i32 -1, 2) i32 @strcmp(ptr nocapture noundef readonly %0, ptr nocapture noundef readonly %1) local_unnamed_addr #2 {
  %3 = load i8, ptr %0, align 1, !tbaa !23
  %4 = icmp eq i8 %3, 0
  br i1 %4, label %16, label %5

5:                                                ; preds = %11, %2
  %6 = phi i8 [ %14, %11 ], [ %3, %2 ]
  %7 = phi ptr [ %13, %11 ], [ %1, %2 ]
  %8 = phi ptr [ %12, %11 ], [ %0, %2 ]
  %9 = load i8, ptr %7, align 1, !tbaa !23
  %10 = icmp eq i8 %6, %9
  br i1 %10, label %11, label %16

11:                                               ; preds = %5
  %12 = getelementptr inbounds i8, ptr %8, i32 1
  %13 = getelementptr inbounds i8, ptr %7, i32 1
  %14 = load i8, ptr %12, align 1, !tbaa !23
  %15 = icmp eq i8 %14, 0
  br i1 %15, label %16, label %5, !llvm.loop !80

16:                                               ; preds = %11, %5, %2
  %17 = phi ptr [ %1, %2 ], [ %13, %11 ], [ %7, %5 ]
  %18 = phi i8 [ 0, %2 ], [ 0, %11 ], [ %6, %5 ]
  %19 = load i8, ptr %17, align 1, !tbaa !23
  %20 = icmp ult i8 %18, %19
  %21 = icmp ugt i8 %18, %19
  %22 = zext i1 %21 to i32
  %23 = select i1 %20, i32 -1, i32 %22
  ret i32 %23
}

; Function Attrs: nofree nounwind
define internal fastcc void @primary(ptr nocapture noundef %0) unnamed_addr #5 {
  %2 = getelementptr inbounds i8, ptr %0, i32 40
  %3 = load i32, ptr %2, align 4, !tbaa !14
  %4 = add nsw i32 %3, 1
  store i32 %4, ptr %2, align 4, !tbaa !14
  %5 = icmp sgt i32 %3, 29
  br i1 %5, label %6, label %18

6:                                                ; preds = %1
  %7 = getelementptr inbounds i8, ptr %0, i32 36
  %8 = load ptr, ptr %7, align 4, !tbaa !12
  %9 = getelementptr inbounds i8, ptr %8, i32 2648
  %10 = load ptr, ptr %9, align 4, !tbaa !20
  %11 = icmp eq ptr %10, null
  br i1 %11, label %12, label %16

12:                                               ; preds = %6
  store ptr @.str.6, ptr %9, align 4, !tbaa !20
  %13 = getelementptr inbounds i8, ptr %0, i32 4
  %14 = load i32, ptr %13, align 4, !tbaa !21
  %15 = getelementptr inbounds i8, ptr %8, i32 2652
  store i32 %14, ptr %15, align 4, !tbaa !22
  br label %16

16:                                               ; preds = %12, %6
  %17 = getelementptr inbounds i8, ptr %0, i32 8
  br label %237

18:                                               ; preds = %1
  %19 = getelementptr inbounds i8, ptr %0, i32 8
  %20 = load i32, ptr %19, align 4, !tbaa !15
  switch i32 %20, label %237 [
    i32 1, label %21
    i32 2, label %106
    i32 3, label %180
  ]

21:                                               ; preds = %18
  %22 = getelementptr inbounds i8, ptr %0, i32 12
  %23 = load i32, ptr %22, align 4, !tbaa !81
  %24 = getelementptr inbounds i8, ptr %0, i32 36
  %25 = load ptr, ptr %24, align 4, !tbaa !12
  %26 = getelementptr inbounds i8, ptr %25, i32 2000
  %27 = load i32, ptr %26, align 4, !tbaa !18
  %28 = icmp eq i32 %27, 2000
  br i1 %28, label %29, label %35

29:                                               ; preds = %21
  %30 = getelementptr inbounds i8, ptr %25, i32 2648
  %31 = load ptr, ptr %30, align 4, !tbaa !20
  %32 = icmp eq ptr %31, null
  br i1 %32, label %33, label %66

33:                                               ; preds = %29
  store ptr @.str.10, ptr %30, align 4, !tbaa !20
  %34 = getelementptr inbounds i8, ptr %0, i32 4
  br label %61

35:                                               ; preds = %21
  %36 = add i32 %27, 1
  store i32 %36, ptr %26, align 4, !tbaa !18
  %37 = getelementptr inbounds [2000 x i8], ptr %25, i32 0, i32 %27
  store i8 1, ptr %37, align 1, !tbaa !23
  %38 = load ptr, ptr %24, align 4, !tbaa !12
  %39 = getelementptr inbounds i8, ptr %38, i32 2000
  %40 = load i32, ptr %39, align 4, !tbaa !18
  %41 = getelementptr inbounds i8, ptr %0, i32 4
  %42 = icmp eq i32 %40, 2000
  br i1 %42, label %43, label %48

43:                                               ; preds = %35
  %44 = getelementptr inbounds i8, ptr %38, i32 2648
  %45 = load ptr, ptr %44, align 4, !tbaa !20
  %46 = icmp eq ptr %45, null
  br i1 %46, label %47, label %66

47:                                               ; preds = %43
  store ptr @.str.10, ptr %44, align 4, !tbaa !20
  br label %61

48:                                               ; preds = %35
  %49 = trunc i32 %23 to i8
  %50 = add i32 %40, 1
  store i32 %50, ptr %39, align 4, !tbaa !18
  %51 = getelementptr inbounds [2000 x i8], ptr %38, i32 0, i32 %40
  store i8 %49, ptr %51, align 1, !tbaa !23
  %52 = load ptr, ptr %24, align 4, !tbaa !12
  %53 = getelementptr inbounds i8, ptr %52, i32 2000
  %54 = load i32, ptr %53, align 4, !tbaa !18
  %55 = icmp eq i32 %54, 2000
  br i1 %55, label %56, label %67

56:                                               ; preds = %48
  %57 = getelementptr inbounds i8, ptr %52, i32 2648
  %58 = load ptr, ptr %57, align 4, !tbaa !20
  %59 = icmp eq ptr %58, null
  br i1 %59, label %60, label %66

60:                                               ; preds = %56
  store ptr @.str.10, ptr %57, align 4, !tbaa !20
  br label %61

61:                                               ; preds = %60, %47, %33
  %62 = phi ptr [ %41, %60 ], [ %41, %47 ], [ %34, %33 ]
  %63 = phi ptr [ %52, %60 ], [ %38, %47 ], [ %25, %33 ]
  %64 = load i32, ptr %62, align 4, !tbaa !21
  %65 = getelementptr inbounds i8, ptr %63, i32 2652
  store i32 %64, ptr %65, align 4, !tbaa !22
  br label %66

66:                                               ; preds = %61, %56, %43, %29
  store i32 0, ptr %19, align 4, !tbaa !15
  br label %104

67:                                               ; preds = %48
  %68 = lshr i32 %23, 8
  %69 = trunc i32 %68 to i8
  %70 = add i32 %54, 1
  store i32 %70, ptr %53, align 4, !tbaa !18
  %71 = getelementptr inbounds [2000 x i8], ptr %52, i32 0, i32 %54
  store i8 %69, ptr %71, align 1, !tbaa !23
  %72 = load ptr, ptr %24, align 4, !tbaa !12
  %73 = getelementptr inbounds i8, ptr %72, i32 2000
  %74 = load i32, ptr %73, align 4, !tbaa !18
  %75 = icmp eq i32 %74, 2000
  br i1 %75, label %76, label %83

76:                                               ; preds = %67
  %77 = getelementptr inbounds i8, ptr %72, i32 2648
  %78 = load ptr, ptr %77, align 4, !tbaa !20
  %79 = icmp eq ptr %78, null
  br i1 %79, label %80, label %104

80:                                               ; preds = %76
  store ptr @.str.10, ptr %77, align 4, !tbaa !20
  %81 = load i32, ptr %41, align 4, !tbaa !21
  %82 = getelementptr inbounds i8, ptr %72, i32 2652
  store i32 %81, ptr %82, align 4, !tbaa !22
  br label %104

83:                                               ; preds = %67
  %84 = lshr i32 %23, 16
  %85 = trunc i32 %84 to i8
  %86 = add i32 %74, 1
  store i32 %86, ptr %73, align 4, !tbaa !18
  %87 = getelementptr inbounds [2000 x i8], ptr %72, i32 0, i32 %74
  store i8 %85, ptr %87, align 1, !tbaa !23
  %88 = load ptr, ptr %24, align 4, !tbaa !12
  %89 = getelementptr inbounds i8, ptr %88, i32 2000
  %90 = load i32, ptr %89, align 4, !tbaa !18
  %91 = icmp eq i32 %90, 2000
  br i1 %91, label %97, label %92

92:                                               ; preds = %83
  %93 = lshr i32 %23, 24
  %94 = trunc nuw i32 %93 to i8
  %95 = add i32 %90, 1
  store i32 %95, ptr %89, align 4, !tbaa !18
  %96 = getelementptr inbounds [2000 x i8], ptr %88, i32 0, i32 %90
  store i8 %94, ptr %96, align 1, !tbaa !23
  br label %105

97:                                               ; preds = %83
  %98 = getelementptr inbounds i8, ptr %88, i32 2648
  %99 = load ptr, ptr %98, align 4, !tbaa !20
  %100 = icmp eq ptr %99, null
  br i1 %100, label %101, label %104

101:                                              ; preds = %97
  store ptr @.str.10, ptr %98, align 4, !tbaa !20
  %102 = load i32, ptr %41, align 4, !tbaa !21
  %103 = getelementptr inbounds i8, ptr %88, i32 2652
  store i32 %102, ptr %103, align 4, !tbaa !22
  br label %104

104:                                              ; preds = %101, %97, %80, %76, %66
  store i32 0, ptr %19, align 4, !tbaa !15
  br label %105

105:                                              ; preds = %104, %92
  tail call fastcc void @lexer_next(ptr noundef nonnull %0)
  br label %249

106:                                              ; preds = %18
  %107 = getelementptr inbounds i8, ptr %0, i32 36
  %108 = load ptr, ptr %107, align 4, !tbaa !12
  %109 = getelementptr inbounds i8, ptr %108, i32 2000
  %110 = load i32, ptr %109, align 4, !tbaa !18
  %111 = icmp eq i32 %110, 2000
  br i1 %111, label %112, label %121

112:                                              ; preds = %106
  %113 = getelementptr inbounds i8, ptr %108, i32 2648
  %114 = load ptr, ptr %113, align 4, !tbaa !20
  %115 = icmp eq ptr %114, null
  br i1 %115, label %116, label %120

116:                                              ; preds = %112
  store ptr @.str.10, ptr %113, align 4, !tbaa !20
  %117 = getelementptr inbounds i8, ptr %0, i32 4
  %118 = load i32, ptr %117, align 4, !tbaa !21
  %119 = getelementptr inbounds i8, ptr %108, i32 2652
  store i32 %118, ptr %119, align 4, !tbaa !22
  br label %120

120:                                              ; preds = %116, %112
  store i32 0, ptr %19, align 4, !tbaa !15
  br label %125

121:                                              ; preds = %106
  %122 = add i32 %110, 1
  store i32 %122, ptr %109, align 4, !tbaa !18
  %123 = getelementptr inbounds [2000 x i8], ptr %108, i32 0, i32 %110
  store i8 2, ptr %123, align 1, !tbaa !23
  %124 = load ptr, ptr %107, align 4, !tbaa !12
  br label %125

125:                                              ; preds = %121, %120
  %126 = phi ptr [ %108, %120 ], [ %124, %121 ]
  %127 = getelementptr inbounds i8, ptr %0, i32 16
  %128 = getelementptr inbounds i8, ptr %126, i32 2644
  %129 = load i32, ptr %128, align 4, !tbaa !29
  %130 = icmp sgt i32 %129, 0
  br i1 %130, label %131, label %152

131:                                              ; preds = %125
  %132 = getelementptr inbounds i8, ptr %126, i32 2004
  br label %133

133:                                              ; preds = %138, %131
  %134 = phi i32 [ 0, %131 ], [ %139, %138 ]
  %135 = getelementptr inbounds [40 x [16 x i8]], ptr %132, i32 0, i32 %134
  %136 = tail call i32 @strcmp(ptr noundef nonnull dereferenceable(1) %135, ptr noundef nonnull readonly dereferenceable(1) %127) #11
  %137 = icmp eq i32 %136, 0
  br i1 %137, label %160, label %138

138:                                              ; preds = %133
  %139 = add nuw nsw i32 %134, 1
  %140 = icmp eq i32 %139, %129
  br i1 %140, label %141, label %133, !llvm.loop !82

141:                                              ; preds = %138
  %142 = icmp eq i32 %129, 40
  br i1 %142, label %143, label %152

143:                                              ; preds = %141
  %144 = getelementptr inbounds i8, ptr %126, i32 2648
  %145 = load ptr, ptr %144, align 4, !tbaa !20
  %146 = icmp eq ptr %145, null
  br i1 %146, label %147, label %151

147:                                              ; preds = %143
  store ptr @.str.9, ptr %144, align 4, !tbaa !20
  %148 = getelementptr inbounds i8, ptr %0, i32 4
  %149 = load i32, ptr %148, align 4, !tbaa !21
  %150 = getelementptr inbounds i8, ptr %126, i32 2652
  store i32 %149, ptr %150, align 4, !tbaa !22
  br label %151

151:                                              ; preds = %147, %143
  store i32 0, ptr %19, align 4, !tbaa !15
  br label %160

152:                                              ; preds = %141, %125
  %153 = getelementptr inbounds i8, ptr %126, i32 2004
  %154 = getelementptr inbounds [40 x [16 x i8]], ptr %153, i32 0, i32 %129
  %155 = tail call ptr @strcpy(ptr noundef nonnull dereferenceable(1) %154, ptr noundef nonnull readonly dereferenceable(1) %127) #11
  %156 = load ptr, ptr %107, align 4, !tbaa !12
  %157 = getelementptr inbounds i8, ptr %156, i32 2644
  %158 = load i32, ptr %157, align 4, !tbaa !29
  %159 = add nsw i32 %158, 1
  store i32 %159, ptr %157, align 4, !tbaa !29
  br label %160

160:                                              ; preds = %152, %151, %133
  %161 = phi ptr [ %126, %151 ], [ %156, %152 ], [ %126, %133 ]
  %162 = phi i32 [ 0, %151 ], [ %158, %152 ], [ %134, %133 ]
  %163 = getelementptr inbounds i8, ptr %161, i32 2000
  %164 = load i32, ptr %163, align 4, !tbaa !18
  %165 = icmp eq i32 %164, 2000
  br i1 %165, label %166, label %175

166:                                              ; preds = %160
  %167 = getelementptr inbounds i8, ptr %161, i32 2648
  %168 = load ptr, ptr %167, align 4, !tbaa !20
  %169 = icmp eq ptr %168, null
  br i1 %169, label %170, label %174

170:                                              ; preds = %166
  store ptr @.str.10, ptr %167, align 4, !tbaa !20
  %171 = getelementptr inbounds i8, ptr %0, i32 4
  %172 = load i32, ptr %171, align 4, !tbaa !21
  %173 = getelementptr inbounds i8, ptr %161, i32 2652
  store i32 %172, ptr %173, align 4, !tbaa !22
  br label %174

174:                                              ; preds = %170, %166
  store i32 0, ptr %19, align 4, !tbaa !15
  br label %179

175:                                              ; preds = %160
  %176 = trunc i32 %162 to i8
  %177 = add i32 %164, 1
  store i32 %177, ptr %163, align 4, !tbaa !18
  %178 = getelementptr inbounds [2000 x i8], ptr %161, i32 0, i32 %164
  store i8 %176, ptr %178, align 1, !tbaa !23
  br label %179

179:                                              ; preds = %175, %174
  tail call fastcc void @lexer_next(ptr noundef nonnull %0)
  br label %249

180:                                              ; preds = %18
  %181 = getelementptr inbounds i8, ptr %0, i32 32
  %182 = load i32, ptr %181, align 4, !tbaa !40
  switch i32 %182, label %237 [
    i32 40, label %183
    i32 45, label %201
    i32 33, label %219
  ]

183:                                              ; preds = %180
  tail call fastcc void @lexer_next(ptr noundef nonnull %0)
  tail call fastcc void @expression(ptr noundef nonnull %0)
  %184 = load i32, ptr %19, align 4, !tbaa !15
  %185 = icmp eq i32 %184, 3
  br i1 %185, label %186, label %190

186:                                              ; preds = %183
  %187 = load i32, ptr %181, align 4, !tbaa !40
  %188 = icmp eq i32 %187, 41
  br i1 %188, label %189, label %190

189:                                              ; preds = %186
  tail call fastcc void @lexer_next(ptr noundef nonnull %0)
  br label %249

190:                                              ; preds = %186, %183
  %191 = getelementptr inbounds i8, ptr %0, i32 36
  %192 = load ptr, ptr %191, align 4, !tbaa !12
  %193 = getelementptr inbounds i8, ptr %192, i32 2648
  %194 = load ptr, ptr %193, align 4, !tbaa !20
  %195 = icmp eq ptr %194, null
  br i1 %195, label %196, label %200

196:                                              ; preds = %190
  store ptr @.str.7, ptr %193, align 4, !tbaa !20
  %197 = getelementptr inbounds i8, ptr %0, i32 4
  %198 = load i32, ptr %197, align 4, !tbaa !21
  %199 = getelementptr inbounds i8, ptr %192, i32 2652
  store i32 %198, ptr %199, align 4, !tbaa !22
  br label %200

200:                                              ; preds = %196, %190
  store i32 0, ptr %19, align 4, !tbaa !15
  br label %249

201:                                              ; preds = %180
  tail call fastcc void @lexer_next(ptr noundef nonnull %0)
  tail call fastcc void @primary(ptr noundef nonnull %0)
  %202 = getelementptr inbounds i8, ptr %0, i32 36
  %203 = load ptr, ptr %202, align 4, !tbaa !12
  %204 = getelementptr inbounds i8, ptr %203, i32 2000
  %205 = load i32, ptr %204, align 4, !tbaa !18
  %206 = icmp eq i32 %205, 2000
  br i1 %206, label %207, label %216

207:                                              ; preds = %201
  %208 = getelementptr inbounds i8, ptr %203, i32 2648
  %209 = load ptr, ptr %208, align 4, !tbaa !20
  %210 = icmp eq ptr %209, null
  br i1 %210, label %211, label %215

211:                                              ; preds = %207
  store ptr @.str.10, ptr %208, align 4, !tbaa !20
  %212 = getelementptr inbounds i8, ptr %0, i32 4
  %213 = load i32, ptr %212, align 4, !tbaa !21
  %214 = getelementptr inbounds i8, ptr %203, i32 2652
  store i32 %213, ptr %214, align 4, !tbaa !22
  br label %215

215:                                              ; preds = %211, %207
  store i32 0, ptr %19, align 4, !tbaa !15
  br label %249

216:                                              ; preds = %201
  %217 = add i32 %205, 1
  store i32 %217, ptr %204, align 4, !tbaa !18
  %218 = getelementptr inbounds [2000 x i8], ptr %203, i32 0, i32 %205
  store i8 12, ptr %218, align 1, !tbaa !23
  br label %249

219:                                              ; preds = %180
  tail call fastcc void @lexer_next(ptr noundef nonnull %0)
  tail call fastcc void @primary(ptr noundef nonnull %0)
  %220 = getelementptr inbounds i8, ptr %0, i32 36
  %221 = load ptr, ptr %220, align 4, !tbaa !12
  %222 = getelementptr inbounds i8, ptr %221, i32 2000
  %223 = load i32, ptr %222, align 4, !tbaa !18
  %224 = icmp eq i32 %223, 2000
  br i1 %224, label %225, label %234

225:                                              ; preds = %219
  %226 = getelementptr inbounds i8, ptr %221, i32 2648
  %227 = load ptr, ptr %226, align 4, !tbaa !20
  %228 = icmp eq ptr %227, null
  br i1 %228, label %229, label %233

229:                                              ; preds = %225
  store ptr @.str.10, ptr %226, align 4, !tbaa !20
  %230 = getelementptr inbounds i8, ptr %0, i32 4
  %231 = load i32, ptr %230, align 4, !tbaa !21
  %232 = getelementptr inbounds i8, ptr %221, i32 2652
  store i32 %231, ptr %232, align 4, !tbaa !22
  br label %233

233:                                              ; preds = %229, %225
  store i32 0, ptr %19, align 4, !tbaa !15
  br label %249

234:                                              ; preds = %219
  %235 = add i32 %223, 1
  store i32 %235, ptr %222, align 4, !tbaa !18
  %236 = getelementptr inbounds [2000 x i8], ptr %221, i32 0, i32 %223
  store i8 11, ptr %236, align 1, !tbaa !23
  br label %249

237:                                              ; preds = %180, %18, %16
  %238 = phi ptr [ %17, %16 ], [ %19, %18 ], [ %19, %180 ]
  %239 = getelementptr inbounds i8, ptr %0, i32 36
  %240 = load ptr, ptr %239, align 4, !tbaa !12
  %241 = getelementptr inbounds i8, ptr %240, i32 2648
  %242 = load ptr, ptr %241, align 4, !tbaa !20
  %243 = icmp eq ptr %242, null
  br i1 %243, label %244, label %248

244:                                              ; preds = %237
  store ptr @.str.8, ptr %241, align 4, !tbaa !20
  %245 = getelementptr inbounds i8, ptr %0, i32 4
  %246 = load i32, ptr %245, align 4, !tbaa !21
  %247 = getelementptr inbounds i8, ptr %240, i32 2652
  store i32 %246, ptr %247, align 4, !tbaa !22
  br label %248

248:                                              ; preds = %244, %237
  store i32 0, ptr %238, align 4, !tbaa !15
  br label %249

249:                                              ; preds = %248, %234, %233, %216, %215, %200, %189, %179, %105
  %250 = load i32, ptr %2, align 4, !tbaa !14
  %251 = add nsw i32 %250, -1
  store i32 %251, ptr %2, align 4, !tbaa !14
  ret void
}

; Function Attrs: mustprogress nofree norecurse nosync nounwind optsize willreturn memory(none)
define internal range(i32 0, 2) i32 @isspace(i32 noundef %0) local_unnamed_addr #8 {
  %2 = icmp eq i32 %0, 32
  %3 = add i32 %0, -9
  %4 = icmp ult i32 %3, 5
  %5 = or i1 %2, %4
  %6 = zext i1 %5 to i32
  ret i32 %6
}

; Function Attrs: nofree norecurse nosync nounwind optsize memory(readwrite, inaccessiblemem: none)
define internal i32 @strtoul(ptr noalias noundef %0, ptr noalias noundef %1, i32 noundef %2) local_unnamed_addr #9 {
  %4 = alloca %struct.number, align 8
  call void @llvm.lifetime.start.p0(i64 16, ptr nonnull %4) #11
  %5 = call fastcc ptr @scan(ptr noundef nonnull %4, ptr noundef %0, ptr noundef %1, i32 noundef %2, i64 noundef 4294967295, i64 noundef 4294967295) #12
  %6 = getelementptr inbounds i8, ptr %4, i32 8
  %7 = load i32, ptr %6, align 8, !tbaa !83
  %8 = icmp eq i32 %7, 0
  %9 = getelementptr inbounds i8, ptr %4, i32 12
  %10 = load i32, ptr %9, align 4
  %11 = icmp ne i32 %10, 0
  %12 = select i1 %8, i1 true, i1 %11
  %13 = load i64, ptr %4, align 8
  %14 = sub i64 0, %13
  %15 = select i1 %12, i64 %13, i64 %14
  %16 = trunc i64 %15 to i32
  call void @llvm.lifetime.end.p0(i64 16, ptr nonnull %4) #11
  ret i32 %16
}

; Function Attrs: mustprogress nofree norecurse nosync nounwind optsize willreturn memory(none)
define internal range(i32 0, 2) i32 @isalpha(i32 noundef %0) local_unnamed_addr #8 {
  %2 = and i32 %0, -33
  %3 = add i32 %2, -65
  %4 = icmp ult i32 %3, 26
  %5 = zext i1 %4 to i32
  ret i32 %5
}

; Function Attrs: mustprogress nofree norecurse nosync nounwind optsize willreturn memory(none)
define internal range(i32 0, 2) i32 @isalnum(i32 noundef %0) local_unnamed_addr #8 {
  %2 = and i32 %0, -33
  %3 = add i32 %2, -65
  %4 = icmp ult i32 %3, 26
  %5 = add i32 %0, -48
  %6 = icmp ult i32 %5, 10
  %7 = or i1 %6, %4
  %8 = zext i1 %7 to i32
  ret i32 %8
}

; Function Attrs: nofree norecurse nosync nounwind optsize memory(read, inaccessiblemem: none)
define internal noundef ptr @memchr(ptr noundef readonly %0, i32 noundef %1, i32 noundef %2) local_unnamed_addr #2 {
  %4 = icmp eq i32 %2, 0
  br i1 %4, label %16, label %5

5:                                                ; preds = %3
  %6 = trunc i32 %1 to i8
  br label %7

7:                                                ; preds = %12, %5
  %8 = phi ptr [ %0, %5 ], [ %14, %12 ]
  %9 = phi i32 [ %2, %5 ], [ %13, %12 ]
  %10 = load i8, ptr %8, align 1, !tbaa !23
  %11 = icmp eq i8 %10, %6
  br i1 %11, label %16, label %12

12:                                               ; preds = %7
  %13 = add i32 %9, -1
  %14 = getelementptr inbounds i8, ptr %8, i32 1
  %15 = icmp eq i32 %13, 0
  br i1 %15, label %16, label %7, !llvm.loop !86

16:                                               ; preds = %12, %7, %3
  %17 = phi ptr [ null, %3 ], [ null, %12 ], [ %8, %7 ]
  ret ptr %17
}

; Function Attrs: nofree norecurse nosync nounwind optsize memory(readwrite, inaccessiblemem: none)
define internal fastcc noundef ptr @scan(ptr noundef returned writeonly %0, ptr noundef %1, ptr noundef writeonly %2, i32 noundef %3, i64 noundef %4, i64 noundef %5) unnamed_addr #9 {
  store i64 0, ptr %0, align 8, !tbaa !87
  %7 = getelementptr inbounds i8, ptr %0, i32 8
  store i32 0, ptr %7, align 8, !tbaa !83
  %8 = getelementptr inbounds i8, ptr %0, i32 12
  store i32 0, ptr %8, align 4, !tbaa !88
  %9 = icmp eq i32 %3, 1
  %10 = icmp ugt i32 %3, 36
  %11 = or i1 %10, %9
  br i1 %11, label %12, label %13

12:                                               ; preds = %6
  store i32 22, ptr @errno, align 4, !tbaa !28
  br label %132

13:                                               ; preds = %6
  %14 = icmp eq ptr %2, null
  br i1 %14, label %16, label %15

15:                                               ; preds = %13
  store ptr %1, ptr %2, align 4, !tbaa !25
  br label %16

16:                                               ; preds = %15, %13
  br label %17

17:                                               ; preds = %17, %16
  %18 = phi ptr [ %25, %17 ], [ %1, %16 ]
  %19 = load i8, ptr %18, align 1, !tbaa !23
  %20 = zext i8 %19 to i32
  %21 = icmp ne i8 %19, 32
  %22 = add nsw i32 %20, -14
  %23 = icmp ult i32 %22, -5
  %24 = and i1 %21, %23
  %25 = getelementptr inbounds i8, ptr %18, i32 1
  br i1 %24, label %26, label %17, !llvm.loop !89

26:                                               ; preds = %17
  switch i8 %19, label %31 [
    i8 45, label %27
    i8 43, label %27
  ]

27:                                               ; preds = %26, %26
  %28 = icmp eq i8 %19, 45
  %29 = zext i1 %28 to i32
  store i32 %29, ptr %7, align 8, !tbaa !83
  %30 = select i1 %28, i64 %5, i64 %4
  br label %31

31:                                               ; preds = %27, %26
  %32 = phi i64 [ %30, %27 ], [ %4, %26 ]
  %33 = phi ptr [ %25, %27 ], [ %18, %26 ]
  %34 = icmp ne i32 %3, 0
  switch i32 %3, label %66 [
    i32 16, label %35
    i32 0, label %35
  ]

35:                                               ; preds = %31, %31
  %36 = load i8, ptr %33, align 1, !tbaa !23
  %37 = icmp eq i8 %36, 48
  br i1 %37, label %38, label %63

38:                                               ; preds = %35
  %39 = getelementptr inbounds i8, ptr %33, i32 1
  %40 = load i8, ptr %39, align 1, !tbaa !23
  switch i8 %40, label %63 [
    i8 120, label %41
    i8 88, label %41
  ]

41:                                               ; preds = %38, %38
  %42 = getelementptr inbounds i8, ptr %33, i32 2
  %43 = load i8, ptr %42, align 1, !tbaa !23
  %44 = zext i8 %43 to i32
  %45 = add nsw i32 %44, -58
  %46 = icmp ult i32 %45, -10
  br i1 %46, label %47, label %66

47:                                               ; preds = %41
  %48 = and i32 %44, 223
  %49 = add nsw i32 %48, -91
  %50 = icmp ult i32 %49, -26
  br i1 %50, label %51, label %52

51:                                               ; preds = %47
  br i1 %34, label %66, label %64

52:                                               ; preds = %47
  %53 = add nsw i32 %44, -91
  %54 = icmp ult i32 %53, -26
  %55 = add nuw nsw i32 %44, 32
  %56 = select i1 %54, i32 %44, i32 %55
  %57 = freeze i32 %56
  %58 = add i32 %57, -87
  %59 = icmp ult i32 %58, 16
  %60 = or i1 %34, %59
  %61 = select i1 %59, ptr %42, ptr %33
  %62 = select i1 %59, i32 16, i32 %3
  br i1 %60, label %66, label %64

63:                                               ; preds = %38, %35
  br i1 %34, label %66, label %64

64:                                               ; preds = %63, %52, %51
  %65 = select i1 %37, i32 8, i32 10
  br label %66

66:                                               ; preds = %64, %63, %52, %51, %41, %31
  %67 = phi ptr [ %33, %64 ], [ %33, %63 ], [ %33, %31 ], [ %42, %41 ], [ %33, %51 ], [ %61, %52 ]
  %68 = phi i32 [ %65, %64 ], [ %3, %63 ], [ %3, %31 ], [ 16, %41 ], [ %3, %51 ], [ %62, %52 ]
  %69 = load i8, ptr %67, align 1, !tbaa !23
  %70 = zext i8 %69 to i32
  %71 = add nsw i32 %70, -48
  %72 = icmp ugt i32 %71, 9
  br i1 %72, label %73, label %83

73:                                               ; preds = %66
  %74 = and i32 %70, 223
  %75 = add nsw i32 %74, -91
  %76 = icmp ult i32 %75, -26
  br i1 %76, label %83, label %77

77:                                               ; preds = %73
  %78 = add nsw i32 %70, -91
  %79 = icmp ult i32 %78, -26
  %80 = add nuw nsw i32 %70, 32
  %81 = select i1 %79, i32 %70, i32 %80
  %82 = add nsw i32 %81, -87
  br label %83

83:                                               ; preds = %77, %73, %66
  %84 = phi i32 [ %82, %77 ], [ 255, %73 ], [ %71, %66 ]
  %85 = icmp ult i32 %84, %68
  br i1 %85, label %86, label %132

86:                                               ; preds = %83
  %87 = zext nneg i32 %68 to i64
  br label %88

88:                                               ; preds = %123, %86
  %89 = phi i64 [ %124, %123 ], [ 0, %86 ]
  %90 = phi i32 [ %125, %123 ], [ 0, %86 ]
  %91 = phi i8 [ %127, %123 ], [ %69, %86 ]
  %92 = phi ptr [ %126, %123 ], [ %67, %86 ]
  %93 = zext i8 %91 to i32
  %94 = add nsw i32 %93, -48
  %95 = icmp ugt i32 %94, 9
  br i1 %95, label %96, label %106

96:                                               ; preds = %88
  %97 = and i32 %93, 223
  %98 = add nsw i32 %97, -91
  %99 = icmp ult i32 %98, -26
  br i1 %99, label %106, label %100

100:                                              ; preds = %96
  %101 = add nsw i32 %93, -91
  %102 = icmp ult i32 %101, -26
  %103 = add nuw nsw i32 %93, 32
  %104 = select i1 %102, i32 %93, i32 %103
  %105 = add nsw i32 %104, -87
  br label %106

106:                                              ; preds = %100, %96, %88
  %107 = phi i32 [ %105, %100 ], [ 255, %96 ], [ %94, %88 ]
  %108 = icmp ult i32 %107, %68
  br i1 %108, label %110, label %109

109:                                              ; preds = %106
  br i1 %14, label %129, label %128

110:                                              ; preds = %106
  %111 = icmp eq i32 %90, 0
  br i1 %111, label %112, label %119

112:                                              ; preds = %110
  %113 = zext nneg i32 %107 to i64
  %114 = sub i64 %32, %113
  %115 = udiv i64 %114, %87
  %116 = icmp ugt i64 %89, %115
  %117 = icmp ult i64 %32, %113
  %118 = or i1 %116, %117
  br i1 %118, label %119, label %120

119:                                              ; preds = %112, %110
  store i32 1, ptr %8, align 4, !tbaa !88
  br label %123

120:                                              ; preds = %112
  %121 = mul i64 %89, %87
  %122 = add i64 %121, %113
  store i64 %122, ptr %0, align 8, !tbaa !87
  br label %123

123:                                              ; preds = %120, %119
  %124 = phi i64 [ %89, %119 ], [ %122, %120 ]
  %125 = phi i32 [ 1, %119 ], [ 0, %120 ]
  %126 = getelementptr inbounds i8, ptr %92, i32 1
  %127 = load i8, ptr %126, align 1, !tbaa !23
  br label %88, !llvm.loop !90

128:                                              ; preds = %109
  store ptr %92, ptr %2, align 4, !tbaa !25
  br label %129

129:                                              ; preds = %128, %109
  %130 = icmp eq i32 %90, 0
  br i1 %130, label %132, label %131

131:                                              ; preds = %129
  store i32 34, ptr @errno, align 4, !tbaa !28
  store i64 %32, ptr %0, align 8, !tbaa !87
  br label %132

132:                                              ; preds = %131, %129, %83, %12
  ret ptr %0
}

; Function Attrs: nounwind optsize
define internal i32 @fgetc(ptr nocapture noundef %0) local_unnamed_addr #1 {
  %2 = load i8, ptr %0, align 4, !tbaa !43
  %3 = icmp eq i8 %2, 0
  br i1 %3, label %4, label %20

4:                                                ; preds = %1
  %5 = getelementptr inbounds i8, ptr %0, i32 2
  %6 = load i8, ptr %5, align 2, !tbaa !91
  %7 = icmp eq i8 %6, 0
  br i1 %7, label %12, label %8

8:                                                ; preds = %4
  store i8 0, ptr %5, align 2, !tbaa !91
  %9 = getelementptr inbounds i8, ptr %0, i32 3
  %10 = load i8, ptr %9, align 1, !tbaa !92
  %11 = zext i8 %10 to i32
  br label %20

12:                                               ; preds = %4
  %13 = getelementptr inbounds i8, ptr %0, i32 1
  %14 = load i8, ptr %13, align 1, !tbaa !93
  %15 = icmp eq i8 %14, 0
  br i1 %15, label %16, label %20

16:                                               ; preds = %12
  %17 = tail call i32 @getchar() #14
  %18 = icmp eq i32 %17, -1
  br i1 %18, label %19, label %20

19:                                               ; preds = %16
  store i8 1, ptr %13, align 1, !tbaa !93
  br label %20

20:                                               ; preds = %19, %16, %12, %8, %1
  %21 = phi i32 [ %11, %8 ], [ -1, %1 ], [ -1, %12 ], [ -1, %19 ], [ %17, %16 ]
  ret i32 %21
}

; Function Attrs: optsize
declare dso_local i32 @getchar() local_unnamed_addr #10

attributes #0 = { nounwind "no-trapping-math"="true" "stack-protector-buffer-size"="8" "target-cpu"="generic" "target-features"="+armv7-a,+dsp,+soft-float,-aes,-bf16,-d32,-dotprod,-fp-armv8,-fp-armv8d16,-fp-armv8d16sp,-fp-armv8sp,-fp16,-fp16fml,-fp64,-fpregs,-fullfp16,-mve,-mve.fp,-neon,-sha2,-thumb-mode,-vfp2,-vfp2sp,-vfp3,-vfp3d16,-vfp3d16sp,-vfp3sp,-vfp4,-vfp4d16,-vfp4d16sp,-vfp4sp" "use-soft-float"="true" }
attributes #1 = { nounwind optsize "no-builtins" "no-jump-tables"="true" "no-trapping-math"="true" "stack-protector-buffer-size"="8" "target-cpu"="generic" "target-features"="+armv7-a,+dsp,+soft-float,-aes,-bf16,-d32,-dotprod,-fp-armv8,-fp-armv8d16,-fp-armv8d16sp,-fp-armv8sp,-fp16,-fp16fml,-fp64,-fpregs,-fullfp16,-mve,-mve.fp,-neon,-sha2,-thumb-mode,-vfp2,-vfp2sp,-vfp3,-vfp3d16,-vfp3d16sp,-vfp3sp,-vfp4,-vfp4d16,-vfp4d16sp,-vfp4sp" "use-soft-float"="true" }
attributes #2 = { nofree norecurse nosync nounwind optsize memory(read, inaccessiblemem: none) "no-builtins" "no-jump-tables"="true" "no-trapping-math"="true" "stack-protector-buffer-size"="8" "target-cpu"="generic" "target-features"="+armv7-a,+dsp,+soft-float,-aes,-bf16,-d32,-dotprod,-fp-armv8,-fp-armv8d16,-fp-armv8d16sp,-fp-armv8sp,-fp16,-fp16fml,-fp64,-fpregs,-fullfp16,-mve,-mve.fp,-neon,-sha2,-thumb-mode,-vfp2,-vfp2sp,-vfp3,-vfp3d16,-vfp3d16sp,-vfp3sp,-vfp4,-vfp4d16,-vfp4d16sp,-vfp4sp" "use-soft-float"="true" }
attributes #3 = { nocallback nofree nosync nounwind willreturn memory(argmem: readwrite) }
attributes #4 = { nocallback nofree nounwind willreturn memory(argmem: write) }
attributes #5 = { nofree nounwind "no-trapping-math"="true" "stack-protector-buffer-size"="8" "target-cpu"="generic" "target-features"="+armv7-a,+dsp,+soft-float,-aes,-bf16,-d32,-dotprod,-fp-armv8,-fp-armv8d16,-fp-armv8d16sp,-fp-armv8sp,-fp16,-fp16fml,-fp64,-fpregs,-fullfp16,-mve,-mve.fp,-neon,-sha2,-thumb-mode,-vfp2,-vfp2sp,-vfp3,-vfp3d16,-vfp3d16sp,-vfp3sp,-vfp4,-vfp4d16,-vfp4d16sp,-vfp4sp" "use-soft-float"="true" }
attributes #6 = { nofree norecurse nosync nounwind optsize "no-builtins" "no-jump-tables"="true" "no-trapping-math"="true" "stack-protector-buffer-size"="8" "target-cpu"="generic" "target-features"="+armv7-a,+dsp,+soft-float,-aes,-bf16,-d32,-dotprod,-fp-armv8,-fp-armv8d16,-fp-armv8d16sp,-fp-armv8sp,-fp16,-fp16fml,-fp64,-fpregs,-fullfp16,-mve,-mve.fp,-neon,-sha2,-thumb-mode,-vfp2,-vfp2sp,-vfp3,-vfp3d16,-vfp3d16sp,-vfp3sp,-vfp4,-vfp4d16,-vfp4d16sp,-vfp4sp" "use-soft-float"="true" }
attributes #7 = { nocallback nofree nosync nounwind speculatable willreturn memory(none) }
attributes #8 = { mustprogress nofree norecurse nosync nounwind optsize willreturn memory(none) "no-builtins" "no-jump-tables"="true" "no-trapping-math"="true" "stack-protector-buffer-size"="8" "target-cpu"="generic" "target-features"="+armv7-a,+dsp,+soft-float,-aes,-bf16,-d32,-dotprod,-fp-armv8,-fp-armv8d16,-fp-armv8d16sp,-fp-armv8sp,-fp16,-fp16fml,-fp64,-fpregs,-fullfp16,-mve,-mve.fp,-neon,-sha2,-thumb-mode,-vfp2,-vfp2sp,-vfp3,-vfp3d16,-vfp3d16sp,-vfp3sp,-vfp4,-vfp4d16,-vfp4d16sp,-vfp4sp" "use-soft-float"="true" }
attributes #9 = { nofree norecurse nosync nounwind optsize memory(readwrite, inaccessiblemem: none) "no-builtins" "no-jump-tables"="true" "no-trapping-math"="true" "stack-protector-buffer-size"="8" "target-cpu"="generic" "target-features"="+armv7-a,+dsp,+soft-float,-aes,-bf16,-d32,-dotprod,-fp-armv8,-fp-armv8d16,-fp-armv8d16sp,-fp-armv8sp,-fp16,-fp16fml,-fp64,-fpregs,-fullfp16,-mve,-mve.fp,-neon,-sha2,-thumb-mode,-vfp2,-vfp2sp,-vfp3,-vfp3d16,-vfp3d16sp,-vfp3sp,-vfp4,-vfp4d16,-vfp4d16sp,-vfp4sp" "use-soft-float"="true" }
attributes #10 = { optsize "no-builtins" "no-trapping-math"="true" "stack-protector-buffer-size"="8" "target-cpu"="generic" "target-features"="+armv7-a,+dsp,+soft-float,-aes,-bf16,-d32,-dotprod,-fp-armv8,-fp-armv8d16,-fp-armv8d16sp,-fp-armv8sp,-fp16,-fp16fml,-fp64,-fpregs,-fullfp16,-mve,-mve.fp,-neon,-sha2,-thumb-mode,-vfp2,-vfp2sp,-vfp3,-vfp3d16,-vfp3d16sp,-vfp3sp,-vfp4,-vfp4d16,-vfp4d16sp,-vfp4sp" "use-soft-float"="true" }
attributes #11 = { nounwind }
attributes #12 = { nobuiltin optsize "no-builtins" }
attributes #13 = { nounwind willreturn memory(read) }
attributes #14 = { nobuiltin nounwind optsize "no-builtins" }

!llvm.ident = !{!0, !0, !0, !0, !0, !0}
!llvm.module.flags = !{!1, !2, !3, !4}

!0 = !{!"Debian clang version 19.1.7 (3~deb12u1)"}
!1 = !{i32 7, !"Dwarf Version", i32 5}
!2 = !{i32 2, !"Debug Info Version", i32 3}
!3 = !{i32 1, !"wchar_size", i32 4}
!4 = !{i32 1, !"min_enum_size", i32 4}
!5 = !{!6, !7, i64 0}
!6 = !{!"lexer", !7, i64 0, !10, i64 4, !10, i64 8, !10, i64 12, !8, i64 16, !10, i64 32}
!7 = !{!"any pointer", !8, i64 0}
!8 = !{!"omnipotent char", !9, i64 0}
!9 = !{!"Simple C/C++ TBAA"}
!10 = !{!"int", !8, i64 0}
!11 = !{!6, !10, i64 4}
!12 = !{!13, !7, i64 36}
!13 = !{!"compiler", !6, i64 0, !7, i64 36, !10, i64 40}
!14 = !{!13, !10, i64 40}
!15 = !{!13, !10, i64 8}
!16 = distinct !{!16, !17}
!17 = !{!"llvm.loop.mustprogress"}
!18 = !{!19, !10, i64 2000}
!19 = !{!"program", !8, i64 0, !10, i64 2000, !8, i64 2004, !10, i64 2644, !7, i64 2648, !10, i64 2652}
!20 = !{!19, !7, i64 2648}
!21 = !{!13, !10, i64 4}
!22 = !{!19, !10, i64 2652}
!23 = !{!8, !8, i64 0}
!24 = distinct !{!24, !17}
!25 = !{!7, !7, i64 0}
!26 = distinct !{!26, !17}
!27 = distinct !{!27, !17}
!28 = !{!10, !10, i64 0}
!29 = !{!19, !10, i64 2644}
!30 = distinct !{!30, !17}
!31 = distinct !{!31, !17}
!32 = distinct !{!32, !17}
!33 = distinct !{!33, !17}
!34 = distinct !{!34, !17}
!35 = distinct !{!35, !17}
!36 = !{!6, !10, i64 8}
!37 = !{!6, !10, i64 12}
!38 = distinct !{!38, !17}
!39 = !{!6, !10, i64 32}
!40 = !{!13, !10, i64 32}
!41 = distinct !{!41, !17}
!42 = distinct !{!42, !17}
!43 = !{!44, !8, i64 0}
!44 = !{!"__stream", !8, i64 0, !8, i64 1, !8, i64 2, !8, i64 3, !7, i64 4, !10, i64 8}
!45 = !{!46}
!46 = distinct !{!46, !47, !"fwrite: %stream"}
!47 = distinct !{!47, !"fwrite"}
!48 = !{!49}
!49 = distinct !{!49, !47, !"fwrite: %from"}
!50 = distinct !{!50, !17}
!51 = distinct !{!51, !17}
!52 = distinct !{!52, !17}
!53 = distinct !{!53, !17}
!54 = distinct !{!54, !17}
!55 = !{!56}
!56 = distinct !{!56, !57, !"stpcpy: %from"}
!57 = distinct !{!57, !"stpcpy"}
!58 = !{!59}
!59 = distinct !{!59, !57, !"stpcpy: %to"}
!60 = distinct !{!60, !17}
!61 = distinct !{!61, !17}
!62 = !{!63}
!63 = distinct !{!63, !64, !"fwrite: %stream"}
!64 = distinct !{!64, !"fwrite"}
!65 = !{!66}
!66 = distinct !{!66, !64, !"fwrite: %from"}
!67 = !{!68}
!68 = distinct !{!68, !69, !"fwrite: %stream"}
!69 = distinct !{!69, !"fwrite"}
!70 = !{!71}
!71 = distinct !{!71, !69, !"fwrite: %from"}
!72 = !{!44, !10, i64 8}
!73 = !{!44, !7, i64 4}
!74 = !{!75}
!75 = distinct !{!75, !76, !"fwrite: %stream"}
!76 = distinct !{!76, !"fwrite"}
!77 = !{!78}
!78 = distinct !{!78, !76, !"fwrite: %from"}
!79 = distinct !{!79, !17}
!80 = distinct !{!80, !17}
!81 = !{!13, !10, i64 12}
!82 = distinct !{!82, !17}
!83 = !{!84, !10, i64 8}
!84 = !{!"number", !85, i64 0, !10, i64 8, !10, i64 12}
!85 = !{!"long long", !8, i64 0}
!86 = distinct !{!86, !17}
!87 = !{!84, !85, i64 0}
!88 = !{!84, !10, i64 12}
!89 = distinct !{!89, !17}
!90 = distinct !{!90, !17}
!91 = !{!44, !8, i64 2}
!92 = !{!44, !8, i64 3}
!93 = !{!44, !8, i64 1}
