source_filename = "main.c"
target datalayout = "e-m:e-p:32:32-Fi8-i64:64-v128:64:128-a:0:32-n32-S64"
target triple = "armv7-unknown-linux-gnueabi"

%struct.__stream = type { i8, i8, i8, i8, ptr, i32 }
%struct.reader = type { ptr, ptr, ptr }
%struct.text = type { ptr, i32, i32 }
%struct.number = type { i64, i32, i32 }

@main.asked = internal global [8 x [80 x i8]] zeroinitializer, align 1
@.str = private unnamed_addr constant [3 x i8] c".\0A\00", align 1
@.str.2 = private unnamed_addr constant [37 x i8] c"refused in line %zu, column %zu: %s\0A\00", align 1
@.str.3 = private unnamed_addr constant [22 x i8] c"\0A%zu values, %d deep\0A\00", align 1
@.str.4 = private unnamed_addr constant [2 x i8] c"\0A\00", align 1
@.str.5 = private unnamed_addr constant [8 x i8] c"? %s = \00", align 1
@.str.6 = private unnamed_addr constant [8 x i8] c"nothing\00", align 1
@.str.7 = private unnamed_addr constant [20 x i8] c"more than one value\00", align 1
@.str.1.8 = private unnamed_addr constant [9 x i8] c"too deep\00", align 1
@.str.5.12 = private unnamed_addr constant [8 x i8] c"the end\00", align 1
@.str.6.13 = private unnamed_addr constant [24 x i8] c"a member without a name\00", align 1
@.str.7.14 = private unnamed_addr constant [23 x i8] c"a name without a colon\00", align 1
@.str.8 = private unnamed_addr constant [27 x i8] c"neither a comma nor an end\00", align 1
@.str.9 = private unnamed_addr constant [14 x i8] c"out of memory\00", align 1
@.str.10 = private unnamed_addr constant [25 x i8] c"a control byte in a text\00", align 1
@.str.11 = private unnamed_addr constant [26 x i8] c"a text that is not closed\00", align 1
@string.from = internal constant [9 x i8] c"\22\\/bfnrt\00", align 1
@string.meant = internal unnamed_addr constant [9 x i8] c"\22\\/\08\0C\0A\0D\09\00", align 1
@.str.12 = private unnamed_addr constant [23 x i8] c"an escape that is none\00", align 1
@.str.13 = private unnamed_addr constant [20 x i8] c"a word that is none\00", align 1
@.str.14 = private unnamed_addr constant [22 x i8] c"a number that is none\00", align 1
@.str.15 = private unnamed_addr constant [27 x i8] c"a number that is not whole\00", align 1
@.str.23 = private unnamed_addr constant [2 x i8] c".\00", align 1
@.str.1.26 = private unnamed_addr constant [5 x i8] c"null\00", align 1
@.str.2.27 = private unnamed_addr constant [6 x i8] c"false\00", align 1
@.str.3.28 = private unnamed_addr constant [5 x i8] c"true\00", align 1
@.str.5.30 = private unnamed_addr constant [3 x i8] c"[]\00", align 1
@.str.6.31 = private unnamed_addr constant [3 x i8] c"{}\00", align 1
@.str.7.37 = private unnamed_addr constant [4 x i8] c"\\%c\00", align 1
@.str.8.38 = private unnamed_addr constant [3 x i8] c"\\n\00", align 1
@.str.9.39 = private unnamed_addr constant [7 x i8] c"\\u%04x\00", align 1
@.str.10.34 = private unnamed_addr constant [7 x i8] c"%s\0A%*s\00", align 1
@.str.11.32 = private unnamed_addr constant [1 x i8] zeroinitializer, align 1
@.str.12.33 = private unnamed_addr constant [2 x i8] c",\00", align 1
@.str.13.35 = private unnamed_addr constant [3 x i8] c": \00", align 1
@.str.14.36 = private unnamed_addr constant [5 x i8] c"\0A%*s\00", align 1
@.str.17 = private unnamed_addr constant [1 x i8] zeroinitializer, align 1
@.str.1 = private unnamed_addr constant [7 x i8] c"(null)\00", align 1
@.str.2.24 = private unnamed_addr constant [2 x i8] c"-\00", align 1
@.str.3.25 = private unnamed_addr constant [2 x i8] c"+\00", align 1
@.str.4.23 = private unnamed_addr constant [2 x i8] c" \00", align 1
@.str.5.31 = private unnamed_addr constant [3 x i8] c"0X\00", align 1
@.str.6.29 = private unnamed_addr constant [3 x i8] c"0x\00", align 1
@.str.8.28 = private unnamed_addr constant [17 x i8] c"0123456789ABCDEF\00", align 1
@.str.9.22 = private unnamed_addr constant [17 x i8] c"0123456789abcdef\00", align 1
@__streams = internal global [3 x %struct.__stream] [%struct.__stream zeroinitializer, %struct.__stream { i8 1, i8 0, i8 0, i8 0, ptr null, i32 0 }, %struct.__stream { i8 2, i8 0, i8 0, i8 0, ptr null, i32 0 }], align 4
@errno = internal local_unnamed_addr global i32 0, align 4

; Function Attrs: nounwind
define dso_local i32 @main() local_unnamed_addr #0 {
  %1 = alloca %struct.reader, align 4
  %2 = alloca %struct.text, align 4
  %3 = alloca [160 x i8], align 1
  call void @llvm.lifetime.start.p0(i64 160, ptr nonnull %3) #16
  %4 = call ptr @fgets(ptr noundef nonnull %3, i32 noundef 160, ptr noundef nonnull @__streams)
  %5 = icmp eq ptr %4, null
  br i1 %5, label %186, label %6

6:                                                ; preds = %0
  %7 = getelementptr inbounds i8, ptr %3, i32 1
  %8 = getelementptr inbounds i8, ptr %1, i32 4
  %9 = getelementptr inbounds i8, ptr %1, i32 8
  %10 = getelementptr inbounds i8, ptr %2, i32 4
  %11 = getelementptr inbounds i8, ptr %2, i32 8
  br label %12

12:                                               ; preds = %178, %6
  %13 = phi i32 [ 0, %6 ], [ %183, %178 ]
  %14 = phi i32 [ 0, %6 ], [ %182, %178 ]
  %15 = phi i32 [ 0, %6 ], [ %181, %178 ]
  %16 = phi i32 [ 0, %6 ], [ %180, %178 ]
  %17 = phi ptr [ null, %6 ], [ %179, %178 ]
  %18 = call i32 @bcmp(ptr noundef nonnull dereferenceable(3) %3, ptr noundef nonnull dereferenceable(3) @.str, i32 3)
  %19 = icmp eq i32 %18, 0
  br i1 %19, label %20, label %154

20:                                               ; preds = %12
  call void @llvm.lifetime.start.p0(i64 12, ptr nonnull %2) #16
  %21 = icmp eq i32 %16, 0
  %22 = select i1 %21, ptr @.str.11.32, ptr %17
  call void @llvm.lifetime.start.p0(i64 12, ptr nonnull %1) #16
  store ptr %22, ptr %1, align 4, !tbaa !5
  store ptr %22, ptr %8, align 4, !tbaa !10
  store ptr %2, ptr %9, align 4, !tbaa !11
  store ptr null, ptr %2, align 4, !tbaa !12
  %23 = call fastcc ptr @value(ptr noundef nonnull %1, i32 noundef 0)
  %24 = icmp eq ptr %23, null
  br i1 %24, label %57, label %25

25:                                               ; preds = %20
  %26 = load ptr, ptr %8, align 4, !tbaa !10
  br label %27

27:                                               ; preds = %30, %25
  %28 = phi ptr [ %31, %30 ], [ %26, %25 ]
  %29 = load i8, ptr %28, align 1, !tbaa !15
  switch i8 %29, label %32 [
    i8 32, label %30
    i8 9, label %30
    i8 10, label %30
    i8 13, label %30
    i8 0, label %70
  ]

30:                                               ; preds = %27, %27, %27, %27
  %31 = getelementptr inbounds i8, ptr %28, i32 1
  br label %27, !llvm.loop !16

32:                                               ; preds = %27
  %33 = load ptr, ptr %9, align 4, !tbaa !11
  %34 = load ptr, ptr %33, align 4, !tbaa !12
  %35 = icmp eq ptr %34, null
  br i1 %35, label %36, label %56

36:                                               ; preds = %32
  store ptr @.str.7, ptr %33, align 4, !tbaa !12
  %37 = getelementptr inbounds i8, ptr %33, i32 8
  store i32 1, ptr %37, align 4, !tbaa !18
  %38 = getelementptr inbounds i8, ptr %33, i32 4
  store i32 1, ptr %38, align 4, !tbaa !19
  %39 = load ptr, ptr %1, align 4, !tbaa !5
  %40 = icmp ult ptr %39, %28
  br i1 %40, label %41, label %56

41:                                               ; preds = %51, %36
  %42 = phi i32 [ %52, %51 ], [ 1, %36 ]
  %43 = phi i32 [ %53, %51 ], [ 1, %36 ]
  %44 = phi ptr [ %54, %51 ], [ %39, %36 ]
  %45 = load i8, ptr %44, align 1, !tbaa !15
  %46 = icmp eq i8 %45, 10
  br i1 %46, label %47, label %49

47:                                               ; preds = %41
  %48 = add i32 %42, 1
  store i32 %48, ptr %38, align 4, !tbaa !19
  br label %51

49:                                               ; preds = %41
  %50 = add i32 %43, 1
  br label %51

51:                                               ; preds = %49, %47
  %52 = phi i32 [ %42, %49 ], [ %48, %47 ]
  %53 = phi i32 [ %50, %49 ], [ 1, %47 ]
  store i32 %53, ptr %37, align 4, !tbaa !18
  %54 = getelementptr inbounds i8, ptr %44, i32 1
  %55 = icmp eq ptr %54, %28
  br i1 %55, label %56, label %41, !llvm.loop !20

56:                                               ; preds = %51, %36, %32
  call fastcc void @json_free(ptr noundef nonnull %23)
  br label %57

57:                                               ; preds = %56, %20
  call void @llvm.lifetime.end.p0(i64 12, ptr nonnull %1) #16
  %58 = load i32, ptr %10, align 4, !tbaa !19
  %59 = load i32, ptr %11, align 4, !tbaa !18
  %60 = load ptr, ptr %2, align 4, !tbaa !12
  %61 = call i32 @__print_text(ptr nonnull getelementptr inbounds (i8, ptr @__streams, i32 12), ptr nonnull @.str.2, i32 16) #16
  %62 = zext i32 %58 to i64
  %63 = call i32 @__print_unsigned(ptr nonnull getelementptr inbounds (i8, ptr @__streams, i32 12), i64 %62, i32 10, i32 0, i32 0, i32 -1) #16
  %64 = call i32 @__print_text(ptr nonnull getelementptr inbounds (i8, ptr @__streams, i32 12), ptr nonnull getelementptr inbounds (i8, ptr @.str.2, i32 19), i32 9) #16
  %65 = zext i32 %59 to i64
  %66 = call i32 @__print_unsigned(ptr nonnull getelementptr inbounds (i8, ptr @__streams, i32 12), i64 %65, i32 10, i32 0, i32 0, i32 -1) #16
  %67 = call i32 @__print_text(ptr nonnull getelementptr inbounds (i8, ptr @__streams, i32 12), ptr nonnull getelementptr inbounds (i8, ptr @.str.2, i32 31), i32 2) #16
  %68 = call i32 @__print_string(ptr nonnull getelementptr inbounds (i8, ptr @__streams, i32 12), ptr %60, i32 0, i32 0, i32 -1) #16
  %69 = call i32 @__print_text(ptr nonnull getelementptr inbounds (i8, ptr @__streams, i32 12), ptr nonnull getelementptr inbounds (i8, ptr @.str.2, i32 35), i32 1) #16
  br label %151

70:                                               ; preds = %27
  call void @llvm.lifetime.end.p0(i64 12, ptr nonnull %1) #16
  call fastcc void @json_write(ptr noundef nonnull %23, i32 noundef 0)
  %71 = call fastcc i32 @json_count(ptr noundef nonnull %23)
  %72 = call fastcc i32 @json_depth(ptr noundef nonnull %23)
  %73 = call i32 @__print_text(ptr nonnull getelementptr inbounds (i8, ptr @__streams, i32 12), ptr nonnull @.str.3, i32 1) #16
  %74 = zext i32 %71 to i64
  %75 = call i32 @__print_unsigned(ptr nonnull getelementptr inbounds (i8, ptr @__streams, i32 12), i64 %74, i32 10, i32 0, i32 0, i32 -1) #16
  %76 = call i32 @__print_text(ptr nonnull getelementptr inbounds (i8, ptr @__streams, i32 12), ptr nonnull getelementptr inbounds (i8, ptr @.str.3, i32 4), i32 9) #16
  %77 = sext i32 %72 to i64
  %78 = call i32 @__print_signed(ptr nonnull getelementptr inbounds (i8, ptr @__streams, i32 12), i64 %77, i32 0, i32 0, i32 -1) #16
  %79 = call i32 @__print_text(ptr nonnull getelementptr inbounds (i8, ptr @__streams, i32 12), ptr nonnull getelementptr inbounds (i8, ptr @.str.3, i32 15), i32 6) #16
  %80 = icmp sgt i32 %14, 0
  br i1 %80, label %82, label %81

81:                                               ; preds = %147, %70
  call fastcc void @json_free(ptr noundef nonnull %23)
  br label %151

82:                                               ; preds = %147, %70
  %83 = phi i32 [ %149, %147 ], [ 0, %70 ]
  %84 = getelementptr inbounds [80 x i8], ptr @main.asked, i32 %83
  %85 = call i32 @strcspn(ptr noundef nonnull %84, ptr noundef nonnull @.str.4)
  %86 = getelementptr inbounds i8, ptr %84, i32 %85
  store i8 0, ptr %86, align 1, !tbaa !15
  br label %87

87:                                               ; preds = %129, %82
  %88 = phi ptr [ %130, %129 ], [ %23, %82 ]
  %89 = phi ptr [ %136, %129 ], [ %84, %82 ]
  %90 = load i8, ptr %89, align 1, !tbaa !15
  %91 = icmp eq i8 %90, 0
  br i1 %91, label %138, label %92

92:                                               ; preds = %87
  %93 = call i32 @strcspn(ptr noundef nonnull %89, ptr noundef nonnull @.str.23)
  %94 = getelementptr inbounds i8, ptr %88, i32 24
  %95 = load ptr, ptr %94, align 8, !tbaa !21
  %96 = load i32, ptr %88, align 8, !tbaa !24
  %97 = icmp eq i32 %96, 5
  br i1 %97, label %100, label %98

98:                                               ; preds = %92
  %99 = icmp eq ptr %95, null
  br i1 %99, label %138, label %114

100:                                              ; preds = %92
  %101 = call i32 @strtol(ptr nocapture noundef nonnull %89, ptr noundef null, i32 noundef 10)
  %102 = icmp ne ptr %95, null
  %103 = icmp sgt i32 %101, 0
  %104 = select i1 %102, i1 %103, i1 false
  br i1 %104, label %105, label %129

105:                                              ; preds = %105, %100
  %106 = phi i32 [ %108, %105 ], [ %101, %100 ]
  %107 = phi ptr [ %110, %105 ], [ %95, %100 ]
  %108 = add nsw i32 %106, -1
  %109 = getelementptr inbounds i8, ptr %107, i32 28
  %110 = load ptr, ptr %109, align 4, !tbaa !25
  %111 = icmp ne ptr %110, null
  %112 = icmp ugt i32 %106, 1
  %113 = select i1 %111, i1 %112, i1 false
  br i1 %113, label %105, label %129, !llvm.loop !26

114:                                              ; preds = %125, %98
  %115 = phi ptr [ %127, %125 ], [ %95, %98 ]
  %116 = getelementptr inbounds i8, ptr %115, i32 20
  %117 = load ptr, ptr %116, align 4, !tbaa !27
  %118 = icmp eq ptr %117, null
  br i1 %118, label %125, label %119

119:                                              ; preds = %114
  %120 = call i32 @strlen(ptr noundef nonnull dereferenceable(1) %117) #16
  %121 = icmp eq i32 %120, %93
  br i1 %121, label %122, label %125

122:                                              ; preds = %119
  %123 = call i32 @strncmp(ptr noundef nonnull %117, ptr noundef nonnull %89, i32 noundef %93) #16
  %124 = icmp eq i32 %123, 0
  br i1 %124, label %129, label %125

125:                                              ; preds = %122, %119, %114
  %126 = getelementptr inbounds i8, ptr %115, i32 28
  %127 = load ptr, ptr %126, align 4, !tbaa !25
  %128 = icmp eq ptr %127, null
  br i1 %128, label %138, label %114, !llvm.loop !28

129:                                              ; preds = %122, %105, %100
  %130 = phi ptr [ %95, %100 ], [ %110, %105 ], [ %115, %122 ]
  %131 = getelementptr inbounds i8, ptr %89, i32 %93
  %132 = load i8, ptr %131, align 1, !tbaa !15
  %133 = icmp eq i8 %132, 46
  %134 = zext i1 %133 to i32
  %135 = add i32 %93, %134
  %136 = getelementptr inbounds i8, ptr %89, i32 %135
  %137 = icmp eq ptr %130, null
  br i1 %137, label %138, label %87, !llvm.loop !29

138:                                              ; preds = %129, %125, %98, %87
  %139 = phi ptr [ null, %125 ], [ %88, %87 ], [ null, %129 ], [ null, %98 ]
  %140 = call i32 @__print_text(ptr nonnull getelementptr inbounds (i8, ptr @__streams, i32 12), ptr nonnull @.str.5, i32 2) #16
  %141 = call i32 @__print_string(ptr nonnull getelementptr inbounds (i8, ptr @__streams, i32 12), ptr nonnull %84, i32 0, i32 0, i32 -1) #16
  %142 = call i32 @__print_text(ptr nonnull getelementptr inbounds (i8, ptr @__streams, i32 12), ptr nonnull getelementptr inbounds (i8, ptr @.str.5, i32 4), i32 3) #16
  %143 = icmp eq ptr %139, null
  br i1 %143, label %145, label %144

144:                                              ; preds = %138
  call fastcc void @json_write(ptr noundef nonnull %139, i32 noundef 0)
  br label %147

145:                                              ; preds = %138
  %146 = call i32 @fwrite(ptr nonnull @.str.6, i32 7, i32 1, ptr nonnull getelementptr inbounds (i8, ptr @__streams, i32 12))
  br label %147

147:                                              ; preds = %145, %144
  %148 = call i32 @putchar(i32 noundef 10)
  %149 = add nuw nsw i32 %83, 1
  %150 = icmp eq i32 %149, %14
  br i1 %150, label %81, label %82, !llvm.loop !30

151:                                              ; preds = %81, %57
  %152 = phi i32 [ 1, %81 ], [ 0, %57 ]
  call void @llvm.lifetime.end.p0(i64 12, ptr nonnull %2) #16
  %153 = add nsw i32 %152, %13
  br label %178

154:                                              ; preds = %12
  %155 = load i8, ptr %3, align 1, !tbaa !15
  %156 = icmp eq i8 %155, 63
  %157 = icmp slt i32 %14, 8
  %158 = select i1 %156, i1 %157, i1 false
  br i1 %158, label %159, label %163

159:                                              ; preds = %154
  %160 = getelementptr inbounds [8 x [80 x i8]], ptr @main.asked, i32 0, i32 %14
  %161 = call ptr @strncpy(ptr noundef nonnull dereferenceable(1) %160, ptr noundef nonnull dereferenceable(1) %7, i32 noundef 79) #16
  %162 = add nsw i32 %14, 1
  br label %178

163:                                              ; preds = %154
  %164 = call i32 @strlen(ptr noundef nonnull readonly dereferenceable(1) %3) #16
  %165 = add i32 %164, 1
  %166 = add i32 %165, %16
  %167 = icmp ugt i32 %166, %15
  br i1 %167, label %168, label %173

168:                                              ; preds = %163
  %169 = shl i32 %166, 1
  %170 = call ptr @realloc(ptr noundef %17, i32 noundef %169) #17
  %171 = icmp eq ptr %170, null
  br i1 %171, label %172, label %173

172:                                              ; preds = %168
  call void @exit(i32 noundef 2) #18
  unreachable

173:                                              ; preds = %168, %163
  %174 = phi ptr [ %17, %163 ], [ %170, %168 ]
  %175 = phi i32 [ %15, %163 ], [ %169, %168 ]
  %176 = getelementptr inbounds i8, ptr %174, i32 %16
  call void @llvm.memcpy.p0.p0.i32(ptr align 1 %176, ptr nonnull readonly align 1 %3, i32 %165, i1 false)
  %177 = add i32 %164, %16
  br label %178

178:                                              ; preds = %173, %159, %151
  %179 = phi ptr [ %17, %151 ], [ %17, %159 ], [ %174, %173 ]
  %180 = phi i32 [ 0, %151 ], [ %16, %159 ], [ %177, %173 ]
  %181 = phi i32 [ %15, %151 ], [ %15, %159 ], [ %175, %173 ]
  %182 = phi i32 [ 0, %151 ], [ %162, %159 ], [ %14, %173 ]
  %183 = phi i32 [ %153, %151 ], [ %13, %159 ], [ %13, %173 ]
  %184 = call ptr @fgets(ptr noundef nonnull %3, i32 noundef 160, ptr noundef nonnull @__streams)
  %185 = icmp eq ptr %184, null
  br i1 %185, label %186, label %12, !llvm.loop !31

186:                                              ; preds = %178, %0
  %187 = phi ptr [ null, %0 ], [ %179, %178 ]
  %188 = phi i32 [ 0, %0 ], [ %183, %178 ]
  call void @__sized_free(ptr noundef %187)
  call void @llvm.lifetime.end.p0(i64 160, ptr nonnull %3) #16
  ret i32 %188
}

; Function Attrs: nocallback nofree nosync nounwind willreturn memory(argmem: readwrite)
declare void @llvm.lifetime.start.p0(i64 immarg, ptr nocapture) #1

; Function Attrs: nounwind optsize
define internal noundef ptr @fgets(ptr noalias noundef writeonly %0, i32 noundef %1, ptr noalias nocapture noundef %2) local_unnamed_addr #2 {
  %4 = icmp slt i32 %1, 1
  br i1 %4, label %23, label %5

5:                                                ; preds = %3
  %6 = icmp eq i32 %1, 1
  br i1 %6, label %21, label %7

7:                                                ; preds = %12, %5
  %8 = phi i32 [ %13, %12 ], [ %1, %5 ]
  %9 = phi ptr [ %15, %12 ], [ %0, %5 ]
  %10 = tail call i32 @fgetc(ptr noundef %2) #19
  %11 = icmp eq i32 %10, -1
  br i1 %11, label %19, label %12

12:                                               ; preds = %7
  %13 = add nsw i32 %8, -1
  %14 = trunc i32 %10 to i8
  %15 = getelementptr inbounds i8, ptr %9, i32 1
  store i8 %14, ptr %9, align 1, !tbaa !15
  %16 = icmp sgt i32 %8, 2
  %17 = icmp ne i32 %10, 10
  %18 = and i1 %16, %17
  br i1 %18, label %7, label %21, !llvm.loop !32

19:                                               ; preds = %7
  %20 = icmp eq ptr %9, %0
  br i1 %20, label %23, label %21

21:                                               ; preds = %19, %12, %5
  %22 = phi ptr [ %9, %19 ], [ %0, %5 ], [ %15, %12 ]
  store i8 0, ptr %22, align 1, !tbaa !15
  br label %23

23:                                               ; preds = %21, %19, %3
  %24 = phi ptr [ %0, %21 ], [ null, %3 ], [ null, %19 ]
  ret ptr %24
}

; Function Attrs: nofree norecurse nosync nounwind optsize memory(read, inaccessiblemem: none)
define internal range(i32 -1, 2) i32 @bcmp(ptr nocapture noundef readonly %0, ptr nocapture noundef readonly %1, i32 noundef %2) local_unnamed_addr #3 {
  %4 = icmp eq i32 %2, 0
  br i1 %4, label %20, label %5

5:                                                ; preds = %15, %3
  %6 = phi ptr [ %18, %15 ], [ %1, %3 ]
  %7 = phi ptr [ %17, %15 ], [ %0, %3 ]
  %8 = phi i32 [ %16, %15 ], [ %2, %3 ]
  %9 = load i8, ptr %7, align 1, !tbaa !15
  %10 = load i8, ptr %6, align 1, !tbaa !15
  %11 = icmp eq i8 %9, %10
  br i1 %11, label %15, label %12

12:                                               ; preds = %5
  %13 = icmp ult i8 %9, %10
  %14 = select i1 %13, i32 -1, i32 1
  br label %20

15:                                               ; preds = %5
  %16 = add i32 %8, -1
  %17 = getelementptr inbounds i8, ptr %7, i32 1
  %18 = getelementptr inbounds i8, ptr %6, i32 1
  %19 = icmp eq i32 %16, 0
  br i1 %19, label %20, label %5, !llvm.loop !33

20:                                               ; preds = %15, %12, %3
  %21 = phi i32 [ %14, %12 ], [ 0, %3 ], [ 0, %15 ]
  ret i32 %21
}

; Function Attrs: nounwind
define internal fastcc ptr @value(ptr nocapture noundef %0, i32 noundef %1) unnamed_addr #0 {
  %3 = alloca ptr, align 4
  %4 = icmp sgt i32 %1, 40
  br i1 %4, label %5, label %32

5:                                                ; preds = %2
  %6 = getelementptr inbounds i8, ptr %0, i32 8
  %7 = load ptr, ptr %6, align 4, !tbaa !11
  %8 = load ptr, ptr %7, align 4, !tbaa !12
  %9 = icmp eq ptr %8, null
  br i1 %9, label %10, label %214

10:                                               ; preds = %5
  store ptr @.str.1.8, ptr %7, align 4, !tbaa !12
  %11 = getelementptr inbounds i8, ptr %7, i32 8
  store i32 1, ptr %11, align 4, !tbaa !18
  %12 = getelementptr inbounds i8, ptr %7, i32 4
  store i32 1, ptr %12, align 4, !tbaa !19
  %13 = load ptr, ptr %0, align 4, !tbaa !5
  %14 = getelementptr inbounds i8, ptr %0, i32 4
  %15 = load ptr, ptr %14, align 4, !tbaa !10
  %16 = icmp ult ptr %13, %15
  br i1 %16, label %17, label %214

17:                                               ; preds = %27, %10
  %18 = phi i32 [ %28, %27 ], [ 1, %10 ]
  %19 = phi i32 [ %29, %27 ], [ 1, %10 ]
  %20 = phi ptr [ %30, %27 ], [ %13, %10 ]
  %21 = load i8, ptr %20, align 1, !tbaa !15
  %22 = icmp eq i8 %21, 10
  br i1 %22, label %23, label %25

23:                                               ; preds = %17
  %24 = add i32 %18, 1
  store i32 %24, ptr %12, align 4, !tbaa !19
  br label %27

25:                                               ; preds = %17
  %26 = add i32 %19, 1
  br label %27

27:                                               ; preds = %25, %23
  %28 = phi i32 [ %18, %25 ], [ %24, %23 ]
  %29 = phi i32 [ %26, %25 ], [ 1, %23 ]
  store i32 %29, ptr %11, align 4, !tbaa !18
  %30 = getelementptr inbounds i8, ptr %20, i32 1
  %31 = icmp eq ptr %30, %15
  br i1 %31, label %214, label %17, !llvm.loop !34

32:                                               ; preds = %2
  %33 = getelementptr inbounds i8, ptr %0, i32 4
  %34 = load ptr, ptr %33, align 4, !tbaa !10
  br label %35

35:                                               ; preds = %38, %32
  %36 = phi ptr [ %39, %38 ], [ %34, %32 ]
  %37 = load i8, ptr %36, align 1, !tbaa !15
  switch i8 %37, label %111 [
    i8 32, label %38
    i8 9, label %38
    i8 10, label %38
    i8 13, label %38
    i8 123, label %40
    i8 91, label %43
    i8 34, label %46
    i8 116, label %80
    i8 102, label %82
    i8 110, label %84
    i8 0, label %86
  ]

38:                                               ; preds = %35, %35, %35, %35
  %39 = getelementptr inbounds i8, ptr %36, i32 1
  store ptr %39, ptr %33, align 4, !tbaa !10
  br label %35, !llvm.loop !35

40:                                               ; preds = %35
  %41 = getelementptr inbounds i8, ptr %36, i32 1
  store ptr %41, ptr %33, align 4, !tbaa !10
  %42 = tail call fastcc ptr @group(ptr noundef nonnull %0, i32 noundef 6, i8 noundef zeroext 125, i32 noundef %1)
  br label %214

43:                                               ; preds = %35
  %44 = getelementptr inbounds i8, ptr %36, i32 1
  store ptr %44, ptr %33, align 4, !tbaa !10
  %45 = tail call fastcc ptr @group(ptr noundef nonnull %0, i32 noundef 5, i8 noundef zeroext 93, i32 noundef %1)
  br label %214

46:                                               ; preds = %35
  %47 = getelementptr inbounds i8, ptr %36, i32 1
  store ptr %47, ptr %33, align 4, !tbaa !10
  %48 = tail call dereferenceable_or_null(32) ptr @__sized_calloc(i32 noundef 1, i32 noundef 32) #20
  %49 = icmp eq ptr %48, null
  br i1 %49, label %50, label %75

50:                                               ; preds = %46
  %51 = getelementptr inbounds i8, ptr %0, i32 8
  %52 = load ptr, ptr %51, align 4, !tbaa !11
  %53 = load ptr, ptr %52, align 4, !tbaa !12
  %54 = icmp eq ptr %53, null
  br i1 %54, label %55, label %214

55:                                               ; preds = %50
  store ptr @.str.9, ptr %52, align 4, !tbaa !12
  %56 = getelementptr inbounds i8, ptr %52, i32 8
  store i32 1, ptr %56, align 4, !tbaa !18
  %57 = getelementptr inbounds i8, ptr %52, i32 4
  store i32 1, ptr %57, align 4, !tbaa !19
  %58 = load ptr, ptr %0, align 4, !tbaa !5
  %59 = icmp ult ptr %58, %47
  br i1 %59, label %60, label %214

60:                                               ; preds = %70, %55
  %61 = phi i32 [ %71, %70 ], [ 1, %55 ]
  %62 = phi i32 [ %72, %70 ], [ 1, %55 ]
  %63 = phi ptr [ %73, %70 ], [ %58, %55 ]
  %64 = load i8, ptr %63, align 1, !tbaa !15
  %65 = icmp eq i8 %64, 10
  br i1 %65, label %66, label %68

66:                                               ; preds = %60
  %67 = add i32 %61, 1
  store i32 %67, ptr %57, align 4, !tbaa !19
  br label %70

68:                                               ; preds = %60
  %69 = add i32 %62, 1
  br label %70

70:                                               ; preds = %68, %66
  %71 = phi i32 [ %61, %68 ], [ %67, %66 ]
  %72 = phi i32 [ %69, %68 ], [ 1, %66 ]
  store i32 %72, ptr %56, align 4, !tbaa !18
  %73 = getelementptr inbounds i8, ptr %63, i32 1
  %74 = icmp eq ptr %63, %36
  br i1 %74, label %214, label %60, !llvm.loop !36

75:                                               ; preds = %46
  store i32 4, ptr %48, align 8, !tbaa !24
  %76 = tail call fastcc ptr @string(ptr noundef nonnull %0)
  %77 = getelementptr inbounds i8, ptr %48, i32 16
  store ptr %76, ptr %77, align 8, !tbaa !37
  %78 = icmp eq ptr %76, null
  br i1 %78, label %79, label %214

79:                                               ; preds = %75
  tail call fastcc void @json_free(ptr noundef nonnull %48)
  br label %214

80:                                               ; preds = %35
  %81 = tail call fastcc ptr @word(ptr noundef nonnull %0, ptr noundef nonnull @.str.3.28, i32 noundef 2)
  br label %214

82:                                               ; preds = %35
  %83 = tail call fastcc ptr @word(ptr noundef nonnull %0, ptr noundef nonnull @.str.2.27, i32 noundef 1)
  br label %214

84:                                               ; preds = %35
  %85 = tail call fastcc ptr @word(ptr noundef nonnull %0, ptr noundef nonnull @.str.1.26, i32 noundef 0)
  br label %214

86:                                               ; preds = %35
  %87 = getelementptr inbounds i8, ptr %0, i32 8
  %88 = load ptr, ptr %87, align 4, !tbaa !11
  %89 = load ptr, ptr %88, align 4, !tbaa !12
  %90 = icmp eq ptr %89, null
  br i1 %90, label %91, label %214

91:                                               ; preds = %86
  store ptr @.str.5.12, ptr %88, align 4, !tbaa !12
  %92 = getelementptr inbounds i8, ptr %88, i32 8
  store i32 1, ptr %92, align 4, !tbaa !18
  %93 = getelementptr inbounds i8, ptr %88, i32 4
  store i32 1, ptr %93, align 4, !tbaa !19
  %94 = load ptr, ptr %0, align 4, !tbaa !5
  %95 = icmp ult ptr %94, %36
  br i1 %95, label %96, label %214

96:                                               ; preds = %106, %91
  %97 = phi i32 [ %107, %106 ], [ 1, %91 ]
  %98 = phi i32 [ %108, %106 ], [ 1, %91 ]
  %99 = phi ptr [ %109, %106 ], [ %94, %91 ]
  %100 = load i8, ptr %99, align 1, !tbaa !15
  %101 = icmp eq i8 %100, 10
  br i1 %101, label %102, label %104

102:                                              ; preds = %96
  %103 = add i32 %97, 1
  store i32 %103, ptr %93, align 4, !tbaa !19
  br label %106

104:                                              ; preds = %96
  %105 = add i32 %98, 1
  br label %106

106:                                              ; preds = %104, %102
  %107 = phi i32 [ %97, %104 ], [ %103, %102 ]
  %108 = phi i32 [ %105, %104 ], [ 1, %102 ]
  store i32 %108, ptr %92, align 4, !tbaa !18
  %109 = getelementptr inbounds i8, ptr %99, i32 1
  %110 = icmp eq ptr %109, %36
  br i1 %110, label %214, label %96, !llvm.loop !38

111:                                              ; preds = %35
  call void @llvm.lifetime.start.p0(i64 4, ptr nonnull %3) #16
  %112 = icmp eq i8 %37, 45
  %113 = zext i1 %112 to i32
  %114 = getelementptr inbounds i8, ptr %36, i32 %113
  %115 = load i8, ptr %114, align 1, !tbaa !15
  %116 = zext i8 %115 to i32
  %117 = add nsw i32 %116, -48
  %118 = icmp ult i32 %117, 10
  br i1 %118, label %119, label %127

119:                                              ; preds = %111
  %120 = icmp eq i8 %115, 48
  br i1 %120, label %121, label %152

121:                                              ; preds = %119
  %122 = getelementptr inbounds i8, ptr %114, i32 1
  %123 = load i8, ptr %122, align 1, !tbaa !15
  %124 = zext i8 %123 to i32
  %125 = add nsw i32 %124, -48
  %126 = icmp ult i32 %125, 10
  br i1 %126, label %127, label %152

127:                                              ; preds = %121, %111
  %128 = getelementptr inbounds i8, ptr %0, i32 8
  %129 = load ptr, ptr %128, align 4, !tbaa !11
  %130 = load ptr, ptr %129, align 4, !tbaa !12
  %131 = icmp eq ptr %130, null
  br i1 %131, label %132, label %212

132:                                              ; preds = %127
  store ptr @.str.14, ptr %129, align 4, !tbaa !12
  %133 = getelementptr inbounds i8, ptr %129, i32 8
  store i32 1, ptr %133, align 4, !tbaa !18
  %134 = getelementptr inbounds i8, ptr %129, i32 4
  store i32 1, ptr %134, align 4, !tbaa !19
  %135 = load ptr, ptr %0, align 4, !tbaa !5
  %136 = icmp ult ptr %135, %36
  br i1 %136, label %137, label %212

137:                                              ; preds = %147, %132
  %138 = phi i32 [ %148, %147 ], [ 1, %132 ]
  %139 = phi i32 [ %149, %147 ], [ 1, %132 ]
  %140 = phi ptr [ %150, %147 ], [ %135, %132 ]
  %141 = load i8, ptr %140, align 1, !tbaa !15
  %142 = icmp eq i8 %141, 10
  br i1 %142, label %143, label %145

143:                                              ; preds = %137
  %144 = add i32 %138, 1
  store i32 %144, ptr %134, align 4, !tbaa !19
  br label %147

145:                                              ; preds = %137
  %146 = add i32 %139, 1
  br label %147

147:                                              ; preds = %145, %143
  %148 = phi i32 [ %138, %145 ], [ %144, %143 ]
  %149 = phi i32 [ %146, %145 ], [ 1, %143 ]
  store i32 %149, ptr %133, align 4, !tbaa !18
  %150 = getelementptr inbounds i8, ptr %140, i32 1
  %151 = icmp eq ptr %150, %36
  br i1 %151, label %212, label %137, !llvm.loop !39

152:                                              ; preds = %121, %119
  %153 = call i64 @strtoll(ptr noundef nonnull %36, ptr noundef nonnull %3, i32 noundef 10)
  %154 = load ptr, ptr %3, align 4, !tbaa !40
  %155 = load i8, ptr %154, align 1, !tbaa !15
  switch i8 %155, label %182 [
    i8 46, label %156
    i8 101, label %156
    i8 69, label %156
  ]

156:                                              ; preds = %152, %152, %152
  %157 = getelementptr inbounds i8, ptr %0, i32 8
  %158 = load ptr, ptr %157, align 4, !tbaa !11
  %159 = load ptr, ptr %158, align 4, !tbaa !12
  %160 = icmp eq ptr %159, null
  br i1 %160, label %161, label %212

161:                                              ; preds = %156
  store ptr @.str.15, ptr %158, align 4, !tbaa !12
  %162 = getelementptr inbounds i8, ptr %158, i32 8
  store i32 1, ptr %162, align 4, !tbaa !18
  %163 = getelementptr inbounds i8, ptr %158, i32 4
  store i32 1, ptr %163, align 4, !tbaa !19
  %164 = load ptr, ptr %0, align 4, !tbaa !5
  %165 = load ptr, ptr %33, align 4, !tbaa !10
  %166 = icmp ult ptr %164, %165
  br i1 %166, label %167, label %212

167:                                              ; preds = %177, %161
  %168 = phi i32 [ %178, %177 ], [ 1, %161 ]
  %169 = phi i32 [ %179, %177 ], [ 1, %161 ]
  %170 = phi ptr [ %180, %177 ], [ %164, %161 ]
  %171 = load i8, ptr %170, align 1, !tbaa !15
  %172 = icmp eq i8 %171, 10
  br i1 %172, label %173, label %175

173:                                              ; preds = %167
  %174 = add i32 %168, 1
  store i32 %174, ptr %163, align 4, !tbaa !19
  br label %177

175:                                              ; preds = %167
  %176 = add i32 %169, 1
  br label %177

177:                                              ; preds = %175, %173
  %178 = phi i32 [ %168, %175 ], [ %174, %173 ]
  %179 = phi i32 [ %176, %175 ], [ 1, %173 ]
  store i32 %179, ptr %162, align 4, !tbaa !18
  %180 = getelementptr inbounds i8, ptr %170, i32 1
  %181 = icmp eq ptr %180, %165
  br i1 %181, label %212, label %167, !llvm.loop !41

182:                                              ; preds = %152
  store ptr %154, ptr %33, align 4, !tbaa !10
  %183 = tail call dereferenceable_or_null(32) ptr @__sized_calloc(i32 noundef 1, i32 noundef 32) #20
  %184 = icmp eq ptr %183, null
  br i1 %184, label %185, label %210

185:                                              ; preds = %182
  %186 = getelementptr inbounds i8, ptr %0, i32 8
  %187 = load ptr, ptr %186, align 4, !tbaa !11
  %188 = load ptr, ptr %187, align 4, !tbaa !12
  %189 = icmp eq ptr %188, null
  br i1 %189, label %190, label %212

190:                                              ; preds = %185
  store ptr @.str.9, ptr %187, align 4, !tbaa !12
  %191 = getelementptr inbounds i8, ptr %187, i32 8
  store i32 1, ptr %191, align 4, !tbaa !18
  %192 = getelementptr inbounds i8, ptr %187, i32 4
  store i32 1, ptr %192, align 4, !tbaa !19
  %193 = load ptr, ptr %0, align 4, !tbaa !5
  %194 = icmp ult ptr %193, %154
  br i1 %194, label %195, label %212

195:                                              ; preds = %205, %190
  %196 = phi i32 [ %206, %205 ], [ 1, %190 ]
  %197 = phi i32 [ %207, %205 ], [ 1, %190 ]
  %198 = phi ptr [ %208, %205 ], [ %193, %190 ]
  %199 = load i8, ptr %198, align 1, !tbaa !15
  %200 = icmp eq i8 %199, 10
  br i1 %200, label %201, label %203

201:                                              ; preds = %195
  %202 = add i32 %196, 1
  store i32 %202, ptr %192, align 4, !tbaa !19
  br label %205

203:                                              ; preds = %195
  %204 = add i32 %197, 1
  br label %205

205:                                              ; preds = %203, %201
  %206 = phi i32 [ %196, %203 ], [ %202, %201 ]
  %207 = phi i32 [ %204, %203 ], [ 1, %201 ]
  store i32 %207, ptr %191, align 4, !tbaa !18
  %208 = getelementptr inbounds i8, ptr %198, i32 1
  %209 = icmp eq ptr %208, %154
  br i1 %209, label %212, label %195, !llvm.loop !42

210:                                              ; preds = %182
  store i32 3, ptr %183, align 8, !tbaa !24
  %211 = getelementptr inbounds i8, ptr %183, i32 8
  store i64 %153, ptr %211, align 8, !tbaa !43
  br label %212

212:                                              ; preds = %210, %205, %190, %185, %177, %161, %156, %147, %132, %127
  %213 = phi ptr [ %183, %210 ], [ null, %127 ], [ null, %132 ], [ null, %156 ], [ null, %161 ], [ null, %185 ], [ null, %190 ], [ null, %147 ], [ null, %205 ], [ null, %177 ]
  call void @llvm.lifetime.end.p0(i64 4, ptr nonnull %3) #16
  br label %214

214:                                              ; preds = %212, %106, %91, %86, %84, %82, %80, %79, %75, %70, %55, %50, %43, %40, %27, %10, %5
  %215 = phi ptr [ %213, %212 ], [ %85, %84 ], [ %83, %82 ], [ %81, %80 ], [ %45, %43 ], [ %42, %40 ], [ %48, %75 ], [ null, %79 ], [ null, %5 ], [ null, %10 ], [ null, %86 ], [ null, %91 ], [ null, %50 ], [ null, %55 ], [ null, %27 ], [ null, %70 ], [ null, %106 ]
  ret ptr %215
}

; Function Attrs: nounwind
define internal fastcc void @json_free(ptr noundef %0) unnamed_addr #0 {
  %2 = icmp eq ptr %0, null
  br i1 %2, label %14, label %3

3:                                                ; preds = %3, %1
  %4 = phi ptr [ %6, %3 ], [ %0, %1 ]
  %5 = getelementptr inbounds i8, ptr %4, i32 28
  %6 = load ptr, ptr %5, align 4, !tbaa !25
  %7 = getelementptr inbounds i8, ptr %4, i32 24
  %8 = load ptr, ptr %7, align 8, !tbaa !21
  tail call fastcc void @json_free(ptr noundef %8)
  %9 = getelementptr inbounds i8, ptr %4, i32 16
  %10 = load ptr, ptr %9, align 8, !tbaa !37
  tail call void @__sized_free(ptr noundef %10)
  %11 = getelementptr inbounds i8, ptr %4, i32 20
  %12 = load ptr, ptr %11, align 4, !tbaa !27
  tail call void @__sized_free(ptr noundef %12)
  tail call void @__sized_free(ptr noundef nonnull %4)
  %13 = icmp eq ptr %6, null
  br i1 %13, label %14, label %3, !llvm.loop !44

14:                                               ; preds = %3, %1
  ret void
}

; Function Attrs: nocallback nofree nosync nounwind willreturn memory(argmem: readwrite)
declare void @llvm.lifetime.end.p0(i64 immarg, ptr nocapture) #1

; Function Attrs: nounwind optsize
define internal noundef i32 @__print_text(ptr nocapture noundef %0, ptr nocapture noundef readonly %1, i32 noundef returned %2) local_unnamed_addr #2 {
  %4 = load i8, ptr %0, align 4, !tbaa !45, !alias.scope !47, !noalias !50
  %5 = icmp eq i8 %4, 0
  %6 = icmp eq i32 %2, 0
  %7 = or i1 %6, %5
  br i1 %7, label %16, label %8

8:                                                ; preds = %8, %3
  %9 = phi i32 [ %14, %8 ], [ 0, %3 ]
  %10 = getelementptr inbounds i8, ptr %1, i32 %9
  %11 = load i8, ptr %10, align 1, !tbaa !15, !alias.scope !50, !noalias !47
  %12 = zext i8 %11 to i32
  %13 = tail call i32 @fputc(i32 noundef %12, ptr noundef nonnull %0) #19, !noalias !50
  %14 = add nuw i32 %9, 1
  %15 = icmp eq i32 %14, %2
  br i1 %15, label %16, label %8, !llvm.loop !52

16:                                               ; preds = %8, %3
  ret i32 %2
}

; Function Attrs: nounwind optsize
define internal i32 @__print_unsigned(ptr nocapture noundef %0, i64 noundef %1, i32 noundef %2, i32 noundef %3, i32 noundef %4, i32 noundef %5) local_unnamed_addr #2 {
  %7 = alloca [24 x i8], align 1
  call void @llvm.lifetime.start.p0(i64 24, ptr nonnull %7) #16
  %8 = and i32 %3, 32
  %9 = icmp eq i32 %8, 0
  %10 = select i1 %9, ptr @.str.9.22, ptr @.str.8.28
  %11 = icmp ult i64 %1, 4294967296
  br i1 %11, label %14, label %12

12:                                               ; preds = %6
  %13 = zext i32 %2 to i64
  br label %29

14:                                               ; preds = %6
  %15 = trunc nuw i64 %1 to i32
  %16 = icmp eq i32 %15, 0
  br i1 %16, label %41, label %17

17:                                               ; preds = %17, %14
  %18 = phi i32 [ %21, %17 ], [ %15, %14 ]
  %19 = phi i32 [ %26, %17 ], [ 24, %14 ]
  %20 = freeze i32 %18
  %21 = udiv i32 %20, %2
  %22 = mul i32 %21, %2
  %23 = sub i32 %20, %22
  %24 = getelementptr inbounds i8, ptr %10, i32 %23
  %25 = load i8, ptr %24, align 1, !tbaa !15
  %26 = add nsw i32 %19, -1
  %27 = getelementptr inbounds i8, ptr %7, i32 %26
  store i8 %25, ptr %27, align 1, !tbaa !15
  %28 = icmp ult i32 %18, %2
  br i1 %28, label %41, label %17, !llvm.loop !53

29:                                               ; preds = %29, %12
  %30 = phi i32 [ 24, %12 ], [ %38, %29 ]
  %31 = phi i64 [ %1, %12 ], [ %32, %29 ]
  %32 = udiv i64 %31, %13
  %33 = mul i64 %32, %13
  %34 = sub i64 %31, %33
  %35 = trunc nuw i64 %34 to i32
  %36 = getelementptr inbounds i8, ptr %10, i32 %35
  %37 = load i8, ptr %36, align 1, !tbaa !15
  %38 = add nsw i32 %30, -1
  %39 = getelementptr inbounds i8, ptr %7, i32 %38
  store i8 %37, ptr %39, align 1, !tbaa !15
  %40 = icmp ult i64 %31, %13
  br i1 %40, label %41, label %29, !llvm.loop !54

41:                                               ; preds = %29, %17, %14
  %42 = phi i32 [ 24, %14 ], [ %26, %17 ], [ %38, %29 ]
  %43 = icmp eq i64 %1, 0
  %44 = icmp ne i32 %5, 0
  %45 = and i1 %43, %44
  br i1 %45, label %46, label %49

46:                                               ; preds = %41
  %47 = add nsw i32 %42, -1
  %48 = getelementptr inbounds i8, ptr %7, i32 %47
  store i8 48, ptr %48, align 1, !tbaa !15
  br label %49

49:                                               ; preds = %46, %41
  %50 = phi i32 [ %47, %46 ], [ %42, %41 ]
  %51 = getelementptr inbounds i8, ptr %7, i32 %50
  %52 = and i32 %3, 8
  %53 = icmp ne i32 %52, 0
  %54 = icmp eq i32 %2, 8
  %55 = and i1 %54, %53
  %56 = sub nsw i32 24, %50
  %57 = icmp sge i32 %56, %5
  %58 = select i1 %55, i1 %57, i1 false
  br i1 %58, label %59, label %66

59:                                               ; preds = %49
  %60 = icmp eq i32 %50, 24
  br i1 %60, label %64, label %61

61:                                               ; preds = %59
  %62 = load i8, ptr %51, align 1, !tbaa !15
  %63 = icmp eq i8 %62, 48
  br i1 %63, label %66, label %64

64:                                               ; preds = %61, %59
  %65 = getelementptr inbounds i8, ptr %51, i32 -1
  store i8 48, ptr %65, align 1, !tbaa !15
  br label %66

66:                                               ; preds = %64, %61, %49
  %67 = phi ptr [ %65, %64 ], [ %51, %61 ], [ %51, %49 ]
  %68 = getelementptr inbounds i8, ptr %7, i32 24
  %69 = ptrtoint ptr %68 to i32
  %70 = icmp eq i32 %2, 16
  %71 = icmp ne i64 %1, 0
  %72 = and i1 %71, %70
  %73 = and i1 %72, %53
  %74 = select i1 %9, ptr @.str.6.29, ptr @.str.5.31
  %75 = select i1 %73, ptr %74, ptr @.str.17
  %76 = ptrtoint ptr %67 to i32
  %77 = sub i32 %69, %76
  %78 = call fastcc i32 @number(ptr noundef %0, ptr noundef nonnull %75, ptr noundef nonnull %67, i32 noundef %77, i32 noundef %3, i32 noundef %4, i32 noundef %5) #19
  call void @llvm.lifetime.end.p0(i64 24, ptr nonnull %7) #16
  ret i32 %78
}

; Function Attrs: nounwind optsize
define internal i32 @__print_string(ptr nocapture noundef %0, ptr noundef %1, i32 noundef %2, i32 noundef %3, i32 noundef %4) local_unnamed_addr #2 {
  %6 = icmp eq ptr %1, null
  %7 = icmp ult i32 %4, 6
  %8 = select i1 %7, ptr @.str.17, ptr @.str.1
  %9 = select i1 %6, ptr %8, ptr %1
  %10 = icmp slt i32 %4, 0
  br i1 %10, label %11, label %20

11:                                               ; preds = %11, %5
  %12 = phi ptr [ %15, %11 ], [ %9, %5 ]
  %13 = load i8, ptr %12, align 1, !tbaa !15
  %14 = icmp eq i8 %13, 0
  %15 = getelementptr inbounds i8, ptr %12, i32 1
  br i1 %14, label %16, label %11, !llvm.loop !55

16:                                               ; preds = %11
  %17 = ptrtoint ptr %12 to i32
  %18 = ptrtoint ptr %9 to i32
  %19 = sub i32 %17, %18
  br label %30

20:                                               ; preds = %5
  %21 = icmp eq i32 %4, 0
  br i1 %21, label %30, label %22

22:                                               ; preds = %27, %20
  %23 = phi i32 [ %28, %27 ], [ 0, %20 ]
  %24 = getelementptr inbounds i8, ptr %9, i32 %23
  %25 = load i8, ptr %24, align 1, !tbaa !15
  %26 = icmp eq i8 %25, 0
  br i1 %26, label %30, label %27

27:                                               ; preds = %22
  %28 = add nuw nsw i32 %23, 1
  %29 = icmp eq i32 %28, %4
  br i1 %29, label %30, label %22, !llvm.loop !56

30:                                               ; preds = %27, %22, %20, %16
  %31 = phi i32 [ %19, %16 ], [ 0, %20 ], [ %23, %22 ], [ %4, %27 ]
  %32 = tail call fastcc i32 @padded(ptr noundef %0, ptr noundef nonnull %9, i32 noundef %31, i32 noundef %2, i32 noundef %3) #19
  ret i32 %32
}

; Function Attrs: nounwind
define internal fastcc void @json_write(ptr nocapture noundef readonly %0, i32 noundef %1) unnamed_addr #0 {
  %3 = load i32, ptr %0, align 8, !tbaa !24
  switch i32 %3, label %19 [
    i32 0, label %4
    i32 1, label %6
    i32 2, label %8
    i32 3, label %10
    i32 4, label %14
    i32 5, label %17
    i32 6, label %18
  ]

4:                                                ; preds = %2
  %5 = tail call i32 @fwrite(ptr nonnull @.str.1.26, i32 4, i32 1, ptr nonnull getelementptr inbounds (i8, ptr @__streams, i32 12))
  br label %19

6:                                                ; preds = %2
  %7 = tail call i32 @fwrite(ptr nonnull @.str.2.27, i32 5, i32 1, ptr nonnull getelementptr inbounds (i8, ptr @__streams, i32 12))
  br label %19

8:                                                ; preds = %2
  %9 = tail call i32 @fwrite(ptr nonnull @.str.3.28, i32 4, i32 1, ptr nonnull getelementptr inbounds (i8, ptr @__streams, i32 12))
  br label %19

10:                                               ; preds = %2
  %11 = getelementptr inbounds i8, ptr %0, i32 8
  %12 = load i64, ptr %11, align 8, !tbaa !43
  %13 = tail call i32 @__print_signed(ptr nonnull getelementptr inbounds (i8, ptr @__streams, i32 12), i64 %12, i32 0, i32 0, i32 -1) #16
  br label %19

14:                                               ; preds = %2
  %15 = getelementptr inbounds i8, ptr %0, i32 16
  %16 = load ptr, ptr %15, align 8, !tbaa !37
  tail call fastcc void @write_text(ptr noundef %16)
  br label %19

17:                                               ; preds = %2
  tail call fastcc void @write_group(ptr noundef nonnull %0, i32 noundef %1, ptr noundef nonnull @.str.5.30)
  br label %19

18:                                               ; preds = %2
  tail call fastcc void @write_group(ptr noundef nonnull %0, i32 noundef %1, ptr noundef nonnull @.str.6.31)
  br label %19

19:                                               ; preds = %18, %17, %14, %10, %8, %6, %4, %2
  ret void
}

; Function Attrs: nofree nosync nounwind memory(read, inaccessiblemem: none)
define internal fastcc i32 @json_count(ptr nocapture noundef readonly %0) unnamed_addr #4 {
  %2 = getelementptr inbounds i8, ptr %0, i32 24
  %3 = load ptr, ptr %2, align 4, !tbaa !40
  %4 = icmp eq ptr %3, null
  br i1 %4, label %5, label %7

5:                                                ; preds = %7, %1
  %6 = phi i32 [ 1, %1 ], [ %11, %7 ]
  ret i32 %6

7:                                                ; preds = %7, %1
  %8 = phi ptr [ %13, %7 ], [ %3, %1 ]
  %9 = phi i32 [ %11, %7 ], [ 1, %1 ]
  %10 = tail call fastcc i32 @json_count(ptr noundef nonnull %8)
  %11 = add i32 %10, %9
  %12 = getelementptr inbounds i8, ptr %8, i32 28
  %13 = load ptr, ptr %12, align 4, !tbaa !40
  %14 = icmp eq ptr %13, null
  br i1 %14, label %5, label %7, !llvm.loop !57
}

; Function Attrs: nofree nosync nounwind memory(read, inaccessiblemem: none)
define internal fastcc range(i32 -2147483647, -2147483648) i32 @json_depth(ptr nocapture noundef readonly %0) unnamed_addr #4 {
  %2 = getelementptr inbounds i8, ptr %0, i32 24
  %3 = load ptr, ptr %2, align 4, !tbaa !40
  %4 = icmp eq ptr %3, null
  br i1 %4, label %7, label %9

5:                                                ; preds = %9
  %6 = add nuw nsw i32 %13, 1
  br label %7

7:                                                ; preds = %5, %1
  %8 = phi i32 [ 1, %1 ], [ %6, %5 ]
  ret i32 %8

9:                                                ; preds = %9, %1
  %10 = phi ptr [ %15, %9 ], [ %3, %1 ]
  %11 = phi i32 [ %13, %9 ], [ 0, %1 ]
  %12 = tail call fastcc i32 @json_depth(ptr noundef nonnull %10)
  %13 = tail call i32 @llvm.smax.i32(i32 %12, i32 %11)
  %14 = getelementptr inbounds i8, ptr %10, i32 28
  %15 = load ptr, ptr %14, align 4, !tbaa !40
  %16 = icmp eq ptr %15, null
  br i1 %16, label %5, label %9, !llvm.loop !58
}

; Function Attrs: nounwind optsize
define internal i32 @__print_signed(ptr nocapture noundef %0, i64 noundef %1, i32 noundef %2, i32 noundef %3, i32 noundef %4) local_unnamed_addr #2 {
  %6 = alloca [24 x i8], align 1
  call void @llvm.lifetime.start.p0(i64 24, ptr nonnull %6) #16
  %7 = getelementptr inbounds i8, ptr %6, i32 24
  %8 = icmp slt i64 %1, 0
  %9 = lshr i64 %1, 63
  %10 = icmp ne i64 %9, 0
  %11 = sub i64 0, %1
  %12 = select i1 %10, i64 %11, i64 %1
  %13 = icmp ult i64 %12, 4294967296
  br i1 %13, label %14, label %28

14:                                               ; preds = %5
  %15 = trunc nuw i64 %12 to i32
  %16 = icmp eq i32 %15, 0
  br i1 %16, label %39, label %17

17:                                               ; preds = %17, %14
  %18 = phi i32 [ %21, %17 ], [ %15, %14 ]
  %19 = phi ptr [ %26, %17 ], [ %7, %14 ]
  %20 = freeze i32 %18
  %21 = udiv i32 %20, 10
  %22 = mul i32 %21, 10
  %23 = sub i32 %20, %22
  %24 = getelementptr inbounds i8, ptr @.str.9.22, i32 %23
  %25 = load i8, ptr %24, align 1, !tbaa !15
  %26 = getelementptr inbounds i8, ptr %19, i32 -1
  store i8 %25, ptr %26, align 1, !tbaa !15
  %27 = icmp ult i32 %18, 10
  br i1 %27, label %39, label %17, !llvm.loop !53

28:                                               ; preds = %28, %5
  %29 = phi ptr [ %37, %28 ], [ %7, %5 ]
  %30 = phi i64 [ %31, %28 ], [ %12, %5 ]
  %31 = udiv i64 %30, 10
  %32 = mul i64 %31, 10
  %33 = sub i64 %30, %32
  %34 = trunc nuw nsw i64 %33 to i32
  %35 = getelementptr inbounds i8, ptr @.str.9.22, i32 %34
  %36 = load i8, ptr %35, align 1, !tbaa !15
  %37 = getelementptr inbounds i8, ptr %29, i32 -1
  store i8 %36, ptr %37, align 1, !tbaa !15
  %38 = icmp ult i64 %30, 10
  br i1 %38, label %39, label %28, !llvm.loop !54

39:                                               ; preds = %28, %17, %14
  %40 = phi ptr [ %7, %14 ], [ %26, %17 ], [ %37, %28 ]
  %41 = icmp eq i64 %1, 0
  %42 = icmp ne i32 %4, 0
  %43 = and i1 %41, %42
  br i1 %43, label %44, label %46

44:                                               ; preds = %39
  %45 = getelementptr inbounds i8, ptr %40, i32 -1
  store i8 48, ptr %45, align 1, !tbaa !15
  br label %47

46:                                               ; preds = %39
  br i1 %8, label %55, label %47

47:                                               ; preds = %46, %44
  %48 = phi ptr [ %45, %44 ], [ %40, %46 ]
  %49 = and i32 %2, 2
  %50 = icmp eq i32 %49, 0
  br i1 %50, label %51, label %55

51:                                               ; preds = %47
  %52 = and i32 %2, 4
  %53 = icmp eq i32 %52, 0
  %54 = select i1 %53, ptr @.str.17, ptr @.str.4.23
  br label %55

55:                                               ; preds = %51, %47, %46
  %56 = phi ptr [ %40, %46 ], [ %48, %51 ], [ %48, %47 ]
  %57 = phi ptr [ @.str.2.24, %46 ], [ %54, %51 ], [ @.str.3.25, %47 ]
  %58 = ptrtoint ptr %7 to i32
  %59 = ptrtoint ptr %56 to i32
  %60 = sub i32 %58, %59
  %61 = call fastcc i32 @number(ptr noundef %0, ptr noundef nonnull %57, ptr noundef nonnull %56, i32 noundef %60, i32 noundef %2, i32 noundef %3, i32 noundef %4) #19
  call void @llvm.lifetime.end.p0(i64 24, ptr nonnull %6) #16
  ret i32 %61
}

; Function Attrs: nofree norecurse nosync nounwind optsize memory(read, inaccessiblemem: none)
define internal i32 @strcspn(ptr nocapture noundef readonly %0, ptr nocapture noundef readonly %1) local_unnamed_addr #3 {
  %3 = tail call fastcc i32 @span(ptr noundef %0, ptr noundef %1, i32 noundef 0) #19
  ret i32 %3
}

; Function Attrs: nofree norecurse nosync nounwind optsize memory(readwrite, inaccessiblemem: none)
define internal i32 @strtol(ptr noalias noundef %0, ptr noalias noundef %1, i32 noundef %2) local_unnamed_addr #5 {
  %4 = alloca %struct.number, align 8
  call void @llvm.lifetime.start.p0(i64 16, ptr nonnull %4) #16
  %5 = call fastcc ptr @scan(ptr noundef nonnull %4, ptr noundef %0, ptr noundef %1, i32 noundef %2, i64 noundef 2147483647, i64 noundef 2147483648) #19
  %6 = getelementptr inbounds i8, ptr %4, i32 8
  %7 = load i32, ptr %6, align 8, !tbaa !59
  %8 = icmp eq i32 %7, 0
  %9 = load i64, ptr %4, align 8
  %10 = sub i64 0, %9
  %11 = select i1 %8, i64 %9, i64 %10
  %12 = trunc i64 %11 to i32
  call void @llvm.lifetime.end.p0(i64 16, ptr nonnull %4) #16
  ret i32 %12
}

; Function Attrs: nofree norecurse nosync nounwind optsize memory(read, inaccessiblemem: none)
define internal noundef i32 @strlen(ptr noundef %0) local_unnamed_addr #3 {
  br label %2

2:                                                ; preds = %2, %1
  %3 = phi ptr [ %0, %1 ], [ %6, %2 ]
  %4 = load i8, ptr %3, align 1, !tbaa !15
  %5 = icmp eq i8 %4, 0
  %6 = getelementptr inbounds i8, ptr %3, i32 1
  br i1 %5, label %7, label %2, !llvm.loop !55

7:                                                ; preds = %2
  %8 = ptrtoint ptr %3 to i32
  %9 = ptrtoint ptr %0 to i32
  %10 = sub i32 %8, %9
  ret i32 %10
}

; Function Attrs: nofree norecurse nosync nounwind optsize memory(read, inaccessiblemem: none)
define internal range(i32 -1, 2) i32 @strncmp(ptr nocapture noundef readonly %0, ptr nocapture noundef readonly %1, i32 noundef %2) local_unnamed_addr #3 {
  %4 = icmp eq i32 %2, 0
  br i1 %4, label %24, label %5

5:                                                ; preds = %14, %3
  %6 = phi ptr [ %16, %14 ], [ %1, %3 ]
  %7 = phi ptr [ %15, %14 ], [ %0, %3 ]
  %8 = phi i32 [ %17, %14 ], [ %2, %3 ]
  %9 = load i8, ptr %7, align 1, !tbaa !15
  %10 = icmp ne i8 %9, 0
  %11 = load i8, ptr %6, align 1, !tbaa !15
  %12 = icmp eq i8 %9, %11
  %13 = select i1 %10, i1 %12, i1 false
  br i1 %13, label %14, label %19

14:                                               ; preds = %5
  %15 = getelementptr inbounds i8, ptr %7, i32 1
  %16 = getelementptr inbounds i8, ptr %6, i32 1
  %17 = add i32 %8, -1
  %18 = icmp eq i32 %17, 0
  br i1 %18, label %24, label %5, !llvm.loop !61

19:                                               ; preds = %5
  %20 = icmp ult i8 %9, %11
  br i1 %20, label %24, label %21

21:                                               ; preds = %19
  %22 = icmp ugt i8 %9, %11
  %23 = zext i1 %22 to i32
  br label %24

24:                                               ; preds = %21, %19, %14, %3
  %25 = phi i32 [ %23, %21 ], [ -1, %19 ], [ 0, %3 ], [ 0, %14 ]
  ret i32 %25
}

; Function Attrs: nounwind optsize
define internal noundef i32 @fwrite(ptr noalias nocapture noundef readonly %0, i32 noundef %1, i32 noundef %2, ptr noalias nocapture noundef %3) local_unnamed_addr #2 {
  %5 = load i8, ptr %3, align 4, !tbaa !45
  %6 = icmp eq i8 %5, 0
  br i1 %6, label %21, label %7

7:                                                ; preds = %4
  %8 = mul i32 %2, %1
  %9 = icmp eq i32 %8, 0
  br i1 %9, label %10, label %13

10:                                               ; preds = %13, %7
  %11 = icmp eq i32 %1, 0
  %12 = select i1 %11, i32 0, i32 %2
  br label %21

13:                                               ; preds = %13, %7
  %14 = phi i32 [ %19, %13 ], [ 0, %7 ]
  %15 = getelementptr inbounds i8, ptr %0, i32 %14
  %16 = load i8, ptr %15, align 1, !tbaa !15
  %17 = zext i8 %16 to i32
  %18 = tail call i32 @fputc(i32 noundef %17, ptr noundef nonnull %3) #19
  %19 = add nuw i32 %14, 1
  %20 = icmp eq i32 %19, %8
  br i1 %20, label %10, label %13, !llvm.loop !52

21:                                               ; preds = %10, %4
  %22 = phi i32 [ %12, %10 ], [ 0, %4 ]
  ret i32 %22
}

; Function Attrs: nofree nounwind
declare dso_local noundef i32 @putchar(i32 noundef) local_unnamed_addr #6

; Function Attrs: nofree norecurse nosync nounwind optsize
define internal noundef ptr @strncpy(ptr noalias noundef returned %0, ptr noalias nocapture noundef readonly %1, i32 noundef %2) local_unnamed_addr #7 {
  %4 = tail call ptr @stpncpy(ptr noundef %0, ptr noundef %1, i32 noundef %2) #19
  ret ptr %0
}

; Function Attrs: nounwind optsize
define internal ptr @realloc(ptr noundef %0, i32 noundef %1) local_unnamed_addr #2 {
  %3 = icmp eq ptr %0, null
  br i1 %3, label %4, label %6

4:                                                ; preds = %2
  %5 = tail call ptr @__sized_malloc(i32 noundef %1) #19
  br label %28

6:                                                ; preds = %2
  %7 = icmp eq i32 %1, 0
  br i1 %7, label %8, label %9

8:                                                ; preds = %6
  tail call void @__sized_free(ptr noundef nonnull %0) #19
  br label %28

9:                                                ; preds = %6
  %10 = tail call ptr @__sized_malloc(i32 noundef %1) #19
  %11 = icmp eq ptr %10, null
  br i1 %11, label %28, label %12

12:                                               ; preds = %9
  %13 = getelementptr inbounds i8, ptr %0, i32 -16
  %14 = load i32, ptr %13, align 4, !tbaa !62
  %15 = icmp eq i32 %14, 0
  br i1 %15, label %27, label %16

16:                                               ; preds = %12
  %17 = tail call i32 @llvm.umin.i32(i32 %14, i32 %1)
  br label %18

18:                                               ; preds = %18, %16
  %19 = phi ptr [ %23, %18 ], [ %0, %16 ]
  %20 = phi ptr [ %25, %18 ], [ %10, %16 ]
  %21 = phi i32 [ %22, %18 ], [ %17, %16 ]
  %22 = add i32 %21, -1
  %23 = getelementptr inbounds i8, ptr %19, i32 1
  %24 = load i8, ptr %19, align 1, !tbaa !15, !alias.scope !63, !noalias !66
  %25 = getelementptr inbounds i8, ptr %20, i32 1
  store i8 %24, ptr %20, align 1, !tbaa !15, !alias.scope !66, !noalias !63
  %26 = icmp eq i32 %22, 0
  br i1 %26, label %27, label %18, !llvm.loop !68

27:                                               ; preds = %18, %12
  tail call void @__sized_free(ptr noundef nonnull %0) #19
  br label %28

28:                                               ; preds = %27, %9, %8, %4
  %29 = phi ptr [ null, %8 ], [ %5, %4 ], [ %10, %27 ], [ null, %9 ]
  ret ptr %29
}

; Function Attrs: noreturn
declare dso_local void @exit(i32 noundef) local_unnamed_addr #8

; Function Attrs: nocallback nofree nounwind willreturn memory(argmem: readwrite)
declare void @llvm.memcpy.p0.p0.i32(ptr noalias nocapture writeonly, ptr noalias nocapture readonly, i32, i1 immarg) #9

; Function Attrs: noinline nounwind optsize
define internal void @__sized_free(ptr noundef %0) local_unnamed_addr #10 {
  %2 = icmp eq ptr %0, null
  br i1 %2, label %5, label %3

3:                                                ; preds = %1
  %4 = getelementptr inbounds i8, ptr %0, i32 -16
  tail call void @free(ptr noundef nonnull %4) #21
  br label %5

5:                                                ; preds = %3, %1
  ret void
}

; Function Attrs: mustprogress nounwind willreturn allockind("free") memory(argmem: readwrite, inaccessiblemem: readwrite)
declare dso_local void @free(ptr allocptr nocapture noundef) local_unnamed_addr #11

; Function Attrs: noinline nounwind optsize
define internal ptr @__sized_malloc(i32 noundef %0) local_unnamed_addr #10 {
  %2 = icmp ult i32 %0, -16
  br i1 %2, label %3, label %9

3:                                                ; preds = %1
  %4 = add nuw i32 %0, 16
  %5 = tail call ptr @malloc(i32 noundef %4) #21
  %6 = icmp eq ptr %5, null
  br i1 %6, label %9, label %7

7:                                                ; preds = %3
  %8 = getelementptr inbounds i8, ptr %5, i32 16
  store i32 %0, ptr %5, align 4, !tbaa !62
  br label %9

9:                                                ; preds = %7, %3, %1
  %10 = phi ptr [ %8, %7 ], [ null, %3 ], [ null, %1 ]
  ret ptr %10
}

; Function Attrs: nocallback nofree nosync nounwind speculatable willreturn memory(none)
declare i32 @llvm.umin.i32(i32, i32) #12

; Function Attrs: mustprogress nofree nounwind willreturn allockind("alloc,uninitialized") allocsize(0) memory(inaccessiblemem: readwrite)
declare dso_local noalias noundef ptr @malloc(i32 noundef) local_unnamed_addr #13

; Function Attrs: nofree norecurse nosync nounwind optsize
define internal ptr @stpncpy(ptr noalias noundef writeonly %0, ptr noalias nocapture noundef readonly %1, i32 noundef %2) local_unnamed_addr #7 {
  %4 = icmp eq i32 %2, 0
  br i1 %4, label %26, label %5

5:                                                ; preds = %10, %3
  %6 = phi i32 [ %11, %10 ], [ 0, %3 ]
  %7 = getelementptr inbounds i8, ptr %1, i32 %6
  %8 = load i8, ptr %7, align 1, !tbaa !15
  %9 = icmp eq i8 %8, 0
  br i1 %9, label %13, label %10

10:                                               ; preds = %5
  %11 = add nuw i32 %6, 1
  %12 = icmp eq i32 %11, %2
  br i1 %12, label %15, label %5, !llvm.loop !56

13:                                               ; preds = %5
  %14 = icmp eq i32 %6, 0
  br i1 %14, label %26, label %15

15:                                               ; preds = %13, %10
  %16 = phi i32 [ %6, %13 ], [ %2, %10 ]
  br label %17

17:                                               ; preds = %17, %15
  %18 = phi ptr [ %22, %17 ], [ %1, %15 ]
  %19 = phi ptr [ %24, %17 ], [ %0, %15 ]
  %20 = phi i32 [ %21, %17 ], [ %16, %15 ]
  %21 = add i32 %20, -1
  %22 = getelementptr inbounds i8, ptr %18, i32 1
  %23 = load i8, ptr %18, align 1, !tbaa !15, !alias.scope !69, !noalias !72
  %24 = getelementptr inbounds i8, ptr %19, i32 1
  store i8 %23, ptr %19, align 1, !tbaa !15, !alias.scope !72, !noalias !69
  %25 = icmp eq i32 %21, 0
  br i1 %25, label %26, label %17, !llvm.loop !68

26:                                               ; preds = %17, %13, %3
  %27 = phi i32 [ 0, %13 ], [ 0, %3 ], [ %16, %17 ]
  %28 = getelementptr inbounds i8, ptr %0, i32 %27
  %29 = sub i32 %2, %27
  %30 = icmp eq i32 %29, 0
  br i1 %30, label %37, label %31

31:                                               ; preds = %31, %26
  %32 = phi ptr [ %35, %31 ], [ %28, %26 ]
  %33 = phi i32 [ %34, %31 ], [ %29, %26 ]
  %34 = add i32 %33, -1
  %35 = getelementptr inbounds i8, ptr %32, i32 1
  store i8 0, ptr %32, align 1, !tbaa !15
  %36 = icmp eq i32 %34, 0
  br i1 %36, label %37, label %31, !llvm.loop !74

37:                                               ; preds = %31, %26
  ret ptr %28
}

; Function Attrs: nounwind optsize
define internal range(i32 -1, 256) i32 @fputc(i32 noundef %0, ptr nocapture noundef %1) local_unnamed_addr #2 {
  %3 = load i8, ptr %1, align 4, !tbaa !45
  switch i8 %3, label %17 [
    i8 1, label %4
    i8 3, label %6
    i8 0, label %19
  ]

4:                                                ; preds = %2
  %5 = tail call i32 @putchar(i32 noundef %0) #21
  br label %17

6:                                                ; preds = %2
  %7 = getelementptr inbounds i8, ptr %1, i32 8
  %8 = load i32, ptr %7, align 4, !tbaa !75
  %9 = icmp eq i32 %8, 0
  br i1 %9, label %17, label %10

10:                                               ; preds = %6
  %11 = trunc i32 %0 to i8
  %12 = getelementptr inbounds i8, ptr %1, i32 4
  %13 = load ptr, ptr %12, align 4, !tbaa !76
  %14 = getelementptr inbounds i8, ptr %13, i32 1
  store ptr %14, ptr %12, align 4, !tbaa !76
  store i8 %11, ptr %13, align 1, !tbaa !15
  %15 = load i32, ptr %7, align 4, !tbaa !75
  %16 = add i32 %15, -1
  store i32 %16, ptr %7, align 4, !tbaa !75
  br label %17

17:                                               ; preds = %10, %6, %4, %2
  %18 = and i32 %0, 255
  br label %19

19:                                               ; preds = %17, %2
  %20 = phi i32 [ %18, %17 ], [ -1, %2 ]
  ret i32 %20
}

; Function Attrs: nofree norecurse nosync nounwind optsize memory(readwrite, inaccessiblemem: none)
define internal fastcc noundef ptr @scan(ptr noundef returned writeonly %0, ptr noundef %1, ptr noundef writeonly %2, i32 noundef %3, i64 noundef %4, i64 noundef %5) unnamed_addr #5 {
  store i64 0, ptr %0, align 8, !tbaa !77
  %7 = getelementptr inbounds i8, ptr %0, i32 8
  store i32 0, ptr %7, align 8, !tbaa !59
  %8 = getelementptr inbounds i8, ptr %0, i32 12
  store i32 0, ptr %8, align 4, !tbaa !78
  %9 = icmp eq i32 %3, 1
  %10 = icmp ugt i32 %3, 36
  %11 = or i1 %10, %9
  br i1 %11, label %12, label %13

12:                                               ; preds = %6
  store i32 22, ptr @errno, align 4, !tbaa !62
  br label %132

13:                                               ; preds = %6
  %14 = icmp eq ptr %2, null
  br i1 %14, label %16, label %15

15:                                               ; preds = %13
  store ptr %1, ptr %2, align 4, !tbaa !40
  br label %16

16:                                               ; preds = %15, %13
  br label %17

17:                                               ; preds = %17, %16
  %18 = phi ptr [ %25, %17 ], [ %1, %16 ]
  %19 = load i8, ptr %18, align 1, !tbaa !15
  %20 = zext i8 %19 to i32
  %21 = icmp ne i8 %19, 32
  %22 = add nsw i32 %20, -14
  %23 = icmp ult i32 %22, -5
  %24 = and i1 %21, %23
  %25 = getelementptr inbounds i8, ptr %18, i32 1
  br i1 %24, label %26, label %17, !llvm.loop !79

26:                                               ; preds = %17
  switch i8 %19, label %31 [
    i8 45, label %27
    i8 43, label %27
  ]

27:                                               ; preds = %26, %26
  %28 = icmp eq i8 %19, 45
  %29 = zext i1 %28 to i32
  store i32 %29, ptr %7, align 8, !tbaa !59
  %30 = select i1 %28, i64 %5, i64 %4
  br label %31

31:                                               ; preds = %27, %26
  %32 = phi i64 [ %30, %27 ], [ %4, %26 ]
  %33 = phi ptr [ %25, %27 ], [ %18, %26 ]
  %34 = icmp ne i32 %3, 0
  switch i32 %3, label %66 [
    i32 16, label %35
    i32 0, label %35
  ]

35:                                               ; preds = %31, %31
  %36 = load i8, ptr %33, align 1, !tbaa !15
  %37 = icmp eq i8 %36, 48
  br i1 %37, label %38, label %63

38:                                               ; preds = %35
  %39 = getelementptr inbounds i8, ptr %33, i32 1
  %40 = load i8, ptr %39, align 1, !tbaa !15
  switch i8 %40, label %63 [
    i8 120, label %41
    i8 88, label %41
  ]

41:                                               ; preds = %38, %38
  %42 = getelementptr inbounds i8, ptr %33, i32 2
  %43 = load i8, ptr %42, align 1, !tbaa !15
  %44 = zext i8 %43 to i32
  %45 = add nsw i32 %44, -58
  %46 = icmp ult i32 %45, -10
  br i1 %46, label %47, label %66

47:                                               ; preds = %41
  %48 = and i32 %44, 223
  %49 = add nsw i32 %48, -91
  %50 = icmp ult i32 %49, -26
  br i1 %50, label %51, label %52

51:                                               ; preds = %47
  br i1 %34, label %66, label %64

52:                                               ; preds = %47
  %53 = add nsw i32 %44, -91
  %54 = icmp ult i32 %53, -26
  %55 = add nuw nsw i32 %44, 32
  %56 = select i1 %54, i32 %44, i32 %55
  %57 = freeze i32 %56
  %58 = add i32 %57, -87
  %59 = icmp ult i32 %58, 16
  %60 = or i1 %34, %59
  %61 = select i1 %59, ptr %42, ptr %33
  %62 = select i1 %59, i32 16, i32 %3
  br i1 %60, label %66, label %64

63:                                               ; preds = %38, %35
  br i1 %34, label %66, label %64

64:                                               ; preds = %63, %52, %51
  %65 = select i1 %37, i32 8, i32 10
  br label %66

66:                                               ; preds = %64, %63, %52, %51, %41, %31
  %67 = phi ptr [ %33, %64 ], [ %33, %63 ], [ %33, %31 ], [ %42, %41 ], [ %33, %51 ], [ %61, %52 ]
  %68 = phi i32 [ %65, %64 ], [ %3, %63 ], [ %3, %31 ], [ 16, %41 ], [ %3, %51 ], [ %62, %52 ]
  %69 = load i8, ptr %67, align 1, !tbaa !15
  %70 = zext i8 %69 to i32
  %71 = add nsw i32 %70, -48
  %72 = icmp ugt i32 %71, 9
  br i1 %72, label %73, label %83

73:                                               ; preds = %66
  %74 = and i32 %70, 223
  %75 = add nsw i32 %74, -91
  %76 = icmp ult i32 %75, -26
  br i1 %76, label %83, label %77

77:                                               ; preds = %73
  %78 = add nsw i32 %70, -91
  %79 = icmp ult i32 %78, -26
  %80 = add nuw nsw i32 %70, 32
  %81 = select i1 %79, i32 %70, i32 %80
  %82 = add nsw i32 %81, -87
  br label %83

83:                                               ; preds = %77, %73, %66
  %84 = phi i32 [ %82, %77 ], [ 255, %73 ], [ %71, %66 ]
  %85 = icmp ult i32 %84, %68
  br i1 %85, label %86, label %132

86:                                               ; preds = %83
  %87 = zext nneg i32 %68 to i64
  br label %88

88:                                               ; preds = %123, %86
  %89 = phi i64 [ %124, %123 ], [ 0, %86 ]
  %90 = phi i32 [ %125, %123 ], [ 0, %86 ]
  %91 = phi i8 [ %127, %123 ], [ %69, %86 ]
  %92 = phi ptr [ %126, %123 ], [ %67, %86 ]
  %93 = zext i8 %91 to i32
  %94 = add nsw i32 %93, -48
  %95 = icmp ugt i32 %94, 9
  br i1 %95, label %96, label %106

96:                                               ; preds = %88
  %97 = and i32 %93, 223
  %98 = add nsw i32 %97, -91
  %99 = icmp ult i32 %98, -26
  br i1 %99, label %106, label %100

100:                                              ; preds = %96
  %101 = add nsw i32 %93, -91
  %102 = icmp ult i32 %101, -26
  %103 = add nuw nsw i32 %93, 32
  %104 = select i1 %102, i32 %93, i32 %103
  %105 = add nsw i32 %104, -87
  br label %106

106:                                              ; preds = %100, %96, %88
  %107 = phi i32 [ %105, %100 ], [ 255, %96 ], [ %94, %88 ]
  %108 = icmp ult i32 %107, %68
  br i1 %108, label %110, label %109

109:                                              ; preds = %106
  br i1 %14, label %129, label %128

110:                                              ; preds = %106
  %111 = icmp eq i32 %90, 0
  br i1 %111, label %112, label %119

112:                                              ; preds = %110
  %113 = zext nneg i32 %107 to i64
  %114 = sub i64 %32, %113
  %115 = udiv i64 %114, %87
  %116 = icmp ugt i64 %89, %115
  %117 = icmp ult i64 %32, %113
  %118 = or i1 %116, %117
  br i1 %118, label %119, label %120

119:                                              ; preds = %112, %110
  store i32 1, ptr %8, align 4, !tbaa !78
  br label %123

120:                                              ; preds = %112
  %121 = mul i64 %89, %87
  %122 = add i64 %121, %113
  store i64 %122, ptr %0, align 8, !tbaa !77
  br label %123

123:                                              ; preds = %120, %119
  %124 = phi i64 [ %89, %119 ], [ %122, %120 ]
  %125 = phi i32 [ 1, %119 ], [ 0, %120 ]
  %126 = getelementptr inbounds i8, ptr %92, i32 1
  %127 = load i8, ptr %126, align 1, !tbaa !15
  br label %88, !llvm.loop !80

128:                                              ; preds = %109
  store ptr %92, ptr %2, align 4, !tbaa !40
  br label %129

129:                                              ; preds = %128, %109
  %130 = icmp eq i32 %90, 0
  br i1 %130, label %132, label %131

131:                                              ; preds = %129
  store i32 34, ptr @errno, align 4, !tbaa !62
  store i64 %32, ptr %0, align 8, !tbaa !77
  br label %132

132:                                              ; preds = %131, %129, %83, %12
  ret ptr %0
}

; Function Attrs: nofree norecurse nosync nounwind optsize memory(read, inaccessiblemem: none)
define internal fastcc i32 @span(ptr nocapture noundef readonly %0, ptr nocapture noundef readonly %1, i32 noundef %2) unnamed_addr #3 {
  %4 = alloca [256 x i8], align 1
  call void @llvm.lifetime.start.p0(i64 256, ptr nonnull %4) #16
  br label %5

5:                                                ; preds = %5, %3
  %6 = phi ptr [ %4, %3 ], [ %9, %5 ]
  %7 = phi i32 [ 256, %3 ], [ %8, %5 ]
  %8 = add nsw i32 %7, -1
  %9 = getelementptr inbounds i8, ptr %6, i32 1
  store i8 0, ptr %6, align 1, !tbaa !15
  %10 = icmp eq i32 %8, 0
  br i1 %10, label %11, label %5, !llvm.loop !74

11:                                               ; preds = %5
  %12 = load i8, ptr %1, align 1, !tbaa !15
  %13 = icmp eq i8 %12, 0
  br i1 %13, label %14, label %17

14:                                               ; preds = %17, %11
  %15 = load i8, ptr %0, align 1, !tbaa !15
  %16 = icmp eq i8 %15, 0
  br i1 %16, label %38, label %25

17:                                               ; preds = %17, %11
  %18 = phi i8 [ %23, %17 ], [ %12, %11 ]
  %19 = phi ptr [ %20, %17 ], [ %1, %11 ]
  %20 = getelementptr inbounds i8, ptr %19, i32 1
  %21 = zext i8 %18 to i32
  %22 = getelementptr inbounds [256 x i8], ptr %4, i32 0, i32 %21
  store i8 1, ptr %22, align 1, !tbaa !15
  %23 = load i8, ptr %20, align 1, !tbaa !15
  %24 = icmp eq i8 %23, 0
  br i1 %24, label %14, label %17, !llvm.loop !81

25:                                               ; preds = %33, %14
  %26 = phi i8 [ %36, %33 ], [ %15, %14 ]
  %27 = phi i32 [ %34, %33 ], [ 0, %14 ]
  %28 = zext i8 %26 to i32
  %29 = getelementptr inbounds [256 x i8], ptr %4, i32 0, i32 %28
  %30 = load i8, ptr %29, align 1, !tbaa !15
  %31 = zext i8 %30 to i32
  %32 = icmp eq i32 %31, %2
  br i1 %32, label %33, label %38

33:                                               ; preds = %25
  %34 = add i32 %27, 1
  %35 = getelementptr inbounds i8, ptr %0, i32 %34
  %36 = load i8, ptr %35, align 1, !tbaa !15
  %37 = icmp eq i8 %36, 0
  br i1 %37, label %38, label %25, !llvm.loop !82

38:                                               ; preds = %33, %25, %14
  %39 = phi i32 [ 0, %14 ], [ %34, %33 ], [ %27, %25 ]
  call void @llvm.lifetime.end.p0(i64 256, ptr nonnull %4) #16
  ret i32 %39
}

; Function Attrs: nounwind optsize
define internal fastcc i32 @number(ptr nocapture noundef %0, ptr noundef %1, ptr nocapture noundef readonly %2, i32 noundef %3, i32 noundef %4, i32 noundef %5, i32 noundef %6) unnamed_addr #2 {
  br label %8

8:                                                ; preds = %8, %7
  %9 = phi ptr [ %1, %7 ], [ %12, %8 ]
  %10 = load i8, ptr %9, align 1, !tbaa !15
  %11 = icmp eq i8 %10, 0
  %12 = getelementptr inbounds i8, ptr %9, i32 1
  br i1 %11, label %13, label %8, !llvm.loop !55

13:                                               ; preds = %8
  %14 = ptrtoint ptr %9 to i32
  %15 = ptrtoint ptr %1 to i32
  %16 = sub i32 %14, %15
  %17 = sub nsw i32 %6, %3
  %18 = lshr i32 %5, 31
  %19 = icmp ne i32 %18, 0
  %20 = sub i32 0, %5
  %21 = select i1 %19, i32 %20, i32 %5
  %22 = tail call i32 @llvm.smax.i32(i32 %17, i32 0)
  %23 = icmp slt i32 %6, 0
  %24 = and i32 %4, 16
  %25 = icmp ne i32 %24, 0
  %26 = and i1 %25, %23
  %27 = and i32 %4, 1
  %28 = or i32 %18, %27
  %29 = icmp eq i32 %28, 0
  %30 = and i1 %26, %29
  %31 = add i32 %16, %3
  %32 = icmp sgt i32 %21, %31
  %33 = select i1 %30, i1 %32, i1 false
  %34 = sub i32 %21, %31
  %35 = select i1 %33, i32 %34, i32 %22
  %36 = add i32 %31, %35
  %37 = sub i32 %21, %36
  br i1 %29, label %38, label %47

38:                                               ; preds = %13
  %39 = icmp sgt i32 %37, 0
  br i1 %39, label %40, label %45

40:                                               ; preds = %40, %38
  %41 = phi i32 [ %43, %40 ], [ 0, %38 ]
  %42 = tail call i32 @fputc(i32 noundef 32, ptr noundef %0) #19
  %43 = add nuw nsw i32 %41, 1
  %44 = icmp eq i32 %43, %37
  br i1 %44, label %45, label %40, !llvm.loop !83

45:                                               ; preds = %40, %38
  %46 = tail call noundef i32 @llvm.smax.i32(i32 %37, i32 0)
  br label %47

47:                                               ; preds = %45, %13
  %48 = phi i32 [ 0, %13 ], [ %46, %45 ]
  %49 = load i8, ptr %0, align 4, !tbaa !45, !alias.scope !84, !noalias !87
  %50 = icmp eq i8 %49, 0
  %51 = icmp eq ptr %9, %1
  %52 = or i1 %51, %50
  br i1 %52, label %61, label %53

53:                                               ; preds = %53, %47
  %54 = phi i32 [ %59, %53 ], [ 0, %47 ]
  %55 = getelementptr inbounds i8, ptr %1, i32 %54
  %56 = load i8, ptr %55, align 1, !tbaa !15, !alias.scope !87, !noalias !84
  %57 = zext i8 %56 to i32
  %58 = tail call i32 @fputc(i32 noundef %57, ptr noundef nonnull %0) #19, !noalias !87
  %59 = add nuw i32 %54, 1
  %60 = icmp eq i32 %59, %16
  br i1 %60, label %61, label %53, !llvm.loop !52

61:                                               ; preds = %53, %47
  %62 = icmp sgt i32 %35, 0
  br i1 %62, label %63, label %68

63:                                               ; preds = %63, %61
  %64 = phi i32 [ %66, %63 ], [ 0, %61 ]
  %65 = tail call i32 @fputc(i32 noundef 48, ptr noundef nonnull %0) #19
  %66 = add nuw nsw i32 %64, 1
  %67 = icmp eq i32 %66, %35
  br i1 %67, label %68, label %63, !llvm.loop !83

68:                                               ; preds = %63, %61
  %69 = tail call noundef i32 @llvm.smax.i32(i32 %35, i32 0)
  %70 = load i8, ptr %0, align 4, !tbaa !45, !alias.scope !89, !noalias !92
  %71 = icmp eq i8 %70, 0
  %72 = icmp eq i32 %3, 0
  %73 = or i1 %72, %71
  br i1 %73, label %82, label %74

74:                                               ; preds = %74, %68
  %75 = phi i32 [ %80, %74 ], [ 0, %68 ]
  %76 = getelementptr inbounds i8, ptr %2, i32 %75
  %77 = load i8, ptr %76, align 1, !tbaa !15, !alias.scope !92, !noalias !89
  %78 = zext i8 %77 to i32
  %79 = tail call i32 @fputc(i32 noundef %78, ptr noundef nonnull %0) #19, !noalias !92
  %80 = add nuw i32 %75, 1
  %81 = icmp eq i32 %80, %3
  br i1 %81, label %82, label %74, !llvm.loop !52

82:                                               ; preds = %74, %68
  %83 = add i32 %31, %69
  %84 = add i32 %83, %48
  br i1 %29, label %95, label %85

85:                                               ; preds = %82
  %86 = icmp sgt i32 %37, 0
  br i1 %86, label %87, label %92

87:                                               ; preds = %87, %85
  %88 = phi i32 [ %90, %87 ], [ 0, %85 ]
  %89 = tail call i32 @fputc(i32 noundef 32, ptr noundef nonnull %0) #19
  %90 = add nuw nsw i32 %88, 1
  %91 = icmp eq i32 %90, %37
  br i1 %91, label %92, label %87, !llvm.loop !83

92:                                               ; preds = %87, %85
  %93 = tail call noundef i32 @llvm.smax.i32(i32 %37, i32 0)
  %94 = add nsw i32 %84, %93
  br label %95

95:                                               ; preds = %92, %82
  %96 = phi i32 [ %94, %92 ], [ %84, %82 ]
  ret i32 %96
}

; Function Attrs: nocallback nofree nosync nounwind speculatable willreturn memory(none)
declare i32 @llvm.smax.i32(i32, i32) #12

; Function Attrs: nounwind
define internal fastcc void @write_text(ptr nocapture noundef readonly %0) unnamed_addr #0 {
  %2 = tail call i32 @putchar(i32 noundef 34)
  %3 = load i8, ptr %0, align 1, !tbaa !15
  %4 = icmp eq i8 %3, 0
  br i1 %4, label %26, label %5

5:                                                ; preds = %22, %1
  %6 = phi i8 [ %24, %22 ], [ %3, %1 ]
  %7 = phi ptr [ %23, %22 ], [ %0, %1 ]
  %8 = zext i8 %6 to i32
  switch i8 %6, label %14 [
    i8 92, label %9
    i8 34, label %9
    i8 10, label %12
  ]

9:                                                ; preds = %5, %5
  %10 = tail call i32 @__print_text(ptr nonnull getelementptr inbounds (i8, ptr @__streams, i32 12), ptr nonnull @.str.7.37, i32 1) #16
  %11 = tail call i32 @__print_character(ptr nonnull getelementptr inbounds (i8, ptr @__streams, i32 12), i32 %8, i32 0, i32 0) #16
  br label %22

12:                                               ; preds = %5
  %13 = tail call i32 @fwrite(ptr nonnull @.str.8.38, i32 2, i32 1, ptr nonnull getelementptr inbounds (i8, ptr @__streams, i32 12))
  br label %22

14:                                               ; preds = %5
  %15 = icmp ult i8 %6, 32
  br i1 %15, label %16, label %20

16:                                               ; preds = %14
  %17 = tail call i32 @__print_text(ptr nonnull getelementptr inbounds (i8, ptr @__streams, i32 12), ptr nonnull @.str.9.39, i32 2) #16
  %18 = zext nneg i8 %6 to i64
  %19 = tail call i32 @__print_unsigned(ptr nonnull getelementptr inbounds (i8, ptr @__streams, i32 12), i64 %18, i32 16, i32 16, i32 4, i32 -1) #16
  br label %22

20:                                               ; preds = %14
  %21 = tail call i32 @putchar(i32 noundef %8)
  br label %22

22:                                               ; preds = %20, %16, %12, %9
  %23 = getelementptr inbounds i8, ptr %7, i32 1
  %24 = load i8, ptr %23, align 1, !tbaa !15
  %25 = icmp eq i8 %24, 0
  br i1 %25, label %26, label %5, !llvm.loop !94

26:                                               ; preds = %22, %1
  %27 = tail call i32 @putchar(i32 noundef 34)
  ret void
}

; Function Attrs: nounwind
define internal fastcc void @write_group(ptr nocapture noundef readonly %0, i32 noundef %1, ptr nocapture noundef readonly %2) unnamed_addr #0 {
  %4 = load i8, ptr %2, align 1, !tbaa !15
  %5 = zext i8 %4 to i32
  %6 = tail call i32 @putchar(i32 noundef %5)
  %7 = getelementptr inbounds i8, ptr %0, i32 24
  %8 = load ptr, ptr %7, align 4, !tbaa !40
  %9 = icmp eq ptr %8, null
  br i1 %9, label %35, label %10

10:                                               ; preds = %3
  %11 = add nsw i32 %1, 2
  br label %15

12:                                               ; preds = %28
  %13 = load ptr, ptr %7, align 8, !tbaa !21
  %14 = icmp eq ptr %13, null
  br i1 %14, label %35, label %32

15:                                               ; preds = %28, %10
  %16 = phi ptr [ %8, %10 ], [ %30, %28 ]
  %17 = load ptr, ptr %7, align 8, !tbaa !21
  %18 = icmp eq ptr %16, %17
  %19 = select i1 %18, ptr @.str.11.32, ptr @.str.12.33
  %20 = tail call i32 @__print_string(ptr nonnull getelementptr inbounds (i8, ptr @__streams, i32 12), ptr nonnull %19, i32 0, i32 0, i32 -1) #16
  %21 = tail call i32 @__print_text(ptr nonnull getelementptr inbounds (i8, ptr @__streams, i32 12), ptr nonnull getelementptr inbounds (i8, ptr @.str.10.34, i32 2), i32 1) #16
  %22 = tail call i32 @__print_string(ptr nonnull getelementptr inbounds (i8, ptr @__streams, i32 12), ptr nonnull @.str.11.32, i32 0, i32 %11, i32 -1) #16
  %23 = getelementptr inbounds i8, ptr %16, i32 20
  %24 = load ptr, ptr %23, align 4, !tbaa !27
  %25 = icmp eq ptr %24, null
  br i1 %25, label %28, label %26

26:                                               ; preds = %15
  tail call fastcc void @write_text(ptr noundef nonnull %24)
  %27 = tail call i32 @fwrite(ptr nonnull @.str.13.35, i32 2, i32 1, ptr nonnull getelementptr inbounds (i8, ptr @__streams, i32 12))
  br label %28

28:                                               ; preds = %26, %15
  tail call fastcc void @json_write(ptr noundef nonnull %16, i32 noundef %11)
  %29 = getelementptr inbounds i8, ptr %16, i32 28
  %30 = load ptr, ptr %29, align 4, !tbaa !40
  %31 = icmp eq ptr %30, null
  br i1 %31, label %12, label %15, !llvm.loop !95

32:                                               ; preds = %12
  %33 = tail call i32 @__print_text(ptr nonnull getelementptr inbounds (i8, ptr @__streams, i32 12), ptr nonnull @.str.14.36, i32 1) #16
  %34 = tail call i32 @__print_string(ptr nonnull getelementptr inbounds (i8, ptr @__streams, i32 12), ptr nonnull @.str.11.32, i32 0, i32 %1, i32 -1) #16
  br label %35

35:                                               ; preds = %32, %12, %3
  %36 = getelementptr inbounds i8, ptr %2, i32 1
  %37 = load i8, ptr %36, align 1, !tbaa !15
  %38 = zext i8 %37 to i32
  %39 = tail call i32 @putchar(i32 noundef %38)
  ret void
}

; Function Attrs: nounwind optsize
define internal i32 @__print_character(ptr nocapture noundef %0, i32 noundef %1, i32 noundef %2, i32 noundef %3) local_unnamed_addr #2 {
  %5 = alloca i8, align 1
  call void @llvm.lifetime.start.p0(i64 1, ptr nonnull %5) #16
  %6 = trunc i32 %1 to i8
  store i8 %6, ptr %5, align 1, !tbaa !15
  %7 = call fastcc i32 @padded(ptr noundef %0, ptr noundef nonnull %5, i32 noundef 1, i32 noundef %2, i32 noundef %3) #19
  call void @llvm.lifetime.end.p0(i64 1, ptr nonnull %5) #16
  ret i32 %7
}

; Function Attrs: nounwind optsize
define internal fastcc i32 @padded(ptr nocapture noundef %0, ptr nocapture noundef readonly %1, i32 noundef %2, i32 noundef %3, i32 noundef %4) unnamed_addr #2 {
  %6 = icmp slt i32 %4, 0
  %7 = lshr i32 %4, 31
  %8 = icmp ne i32 %7, 0
  %9 = sub i32 0, %4
  %10 = select i1 %8, i32 %9, i32 %4
  %11 = sub nsw i32 %10, %2
  %12 = and i32 %3, 1
  %13 = icmp ne i32 %12, 0
  %14 = or i1 %6, %13
  br i1 %14, label %24, label %15

15:                                               ; preds = %5
  %16 = icmp sgt i32 %11, 0
  br i1 %16, label %17, label %22

17:                                               ; preds = %17, %15
  %18 = phi i32 [ %20, %17 ], [ 0, %15 ]
  %19 = tail call i32 @fputc(i32 noundef 32, ptr noundef %0) #19
  %20 = add nuw nsw i32 %18, 1
  %21 = icmp eq i32 %20, %11
  br i1 %21, label %22, label %17, !llvm.loop !83

22:                                               ; preds = %17, %15
  %23 = tail call noundef i32 @llvm.smax.i32(i32 %11, i32 0)
  br label %24

24:                                               ; preds = %22, %5
  %25 = phi i32 [ %23, %22 ], [ 0, %5 ]
  %26 = load i8, ptr %0, align 4, !tbaa !45, !alias.scope !96, !noalias !99
  %27 = icmp eq i8 %26, 0
  %28 = icmp eq i32 %2, 0
  %29 = or i1 %28, %27
  br i1 %29, label %38, label %30

30:                                               ; preds = %30, %24
  %31 = phi i32 [ %36, %30 ], [ 0, %24 ]
  %32 = getelementptr inbounds i8, ptr %1, i32 %31
  %33 = load i8, ptr %32, align 1, !tbaa !15, !alias.scope !99, !noalias !96
  %34 = zext i8 %33 to i32
  %35 = tail call i32 @fputc(i32 noundef %34, ptr noundef nonnull %0) #19, !noalias !99
  %36 = add nuw i32 %31, 1
  %37 = icmp eq i32 %36, %2
  br i1 %37, label %38, label %30, !llvm.loop !52

38:                                               ; preds = %30, %24
  br i1 %14, label %39, label %48

39:                                               ; preds = %38
  %40 = icmp sgt i32 %11, 0
  br i1 %40, label %41, label %46

41:                                               ; preds = %41, %39
  %42 = phi i32 [ %44, %41 ], [ 0, %39 ]
  %43 = tail call i32 @fputc(i32 noundef 32, ptr noundef nonnull %0) #19
  %44 = add nuw nsw i32 %42, 1
  %45 = icmp eq i32 %44, %11
  br i1 %45, label %46, label %41, !llvm.loop !83

46:                                               ; preds = %41, %39
  %47 = tail call noundef i32 @llvm.smax.i32(i32 %11, i32 0)
  br label %48

48:                                               ; preds = %46, %38
  %49 = phi i32 [ %47, %46 ], [ 0, %38 ]
  %50 = add nsw i32 %25, %2
  %51 = add nsw i32 %50, %49
  ret i32 %51
}

; Function Attrs: nounwind
define internal fastcc noundef ptr @group(ptr nocapture noundef %0, i32 noundef %1, i8 noundef zeroext %2, i32 noundef %3) unnamed_addr #0 {
  %5 = tail call dereferenceable_or_null(32) ptr @__sized_calloc(i32 noundef 1, i32 noundef 32) #20
  %6 = icmp eq ptr %5, null
  br i1 %6, label %7, label %34

7:                                                ; preds = %4
  %8 = getelementptr inbounds i8, ptr %0, i32 8
  %9 = load ptr, ptr %8, align 4, !tbaa !11
  %10 = load ptr, ptr %9, align 4, !tbaa !12
  %11 = icmp eq ptr %10, null
  br i1 %11, label %12, label %174

12:                                               ; preds = %7
  store ptr @.str.9, ptr %9, align 4, !tbaa !12
  %13 = getelementptr inbounds i8, ptr %9, i32 8
  store i32 1, ptr %13, align 4, !tbaa !18
  %14 = getelementptr inbounds i8, ptr %9, i32 4
  store i32 1, ptr %14, align 4, !tbaa !19
  %15 = load ptr, ptr %0, align 4, !tbaa !5
  %16 = getelementptr inbounds i8, ptr %0, i32 4
  %17 = load ptr, ptr %16, align 4, !tbaa !10
  %18 = icmp ult ptr %15, %17
  br i1 %18, label %19, label %174

19:                                               ; preds = %29, %12
  %20 = phi i32 [ %30, %29 ], [ 1, %12 ]
  %21 = phi i32 [ %31, %29 ], [ 1, %12 ]
  %22 = phi ptr [ %32, %29 ], [ %15, %12 ]
  %23 = load i8, ptr %22, align 1, !tbaa !15
  %24 = icmp eq i8 %23, 10
  br i1 %24, label %25, label %27

25:                                               ; preds = %19
  %26 = add i32 %20, 1
  store i32 %26, ptr %14, align 4, !tbaa !19
  br label %29

27:                                               ; preds = %19
  %28 = add i32 %21, 1
  br label %29

29:                                               ; preds = %27, %25
  %30 = phi i32 [ %20, %27 ], [ %26, %25 ]
  %31 = phi i32 [ %28, %27 ], [ 1, %25 ]
  store i32 %31, ptr %13, align 4, !tbaa !18
  %32 = getelementptr inbounds i8, ptr %22, i32 1
  %33 = icmp eq ptr %32, %17
  br i1 %33, label %174, label %19, !llvm.loop !101

34:                                               ; preds = %4
  store i32 %1, ptr %5, align 8, !tbaa !24
  %35 = getelementptr inbounds i8, ptr %0, i32 4
  %36 = load ptr, ptr %35, align 4, !tbaa !10
  br label %37

37:                                               ; preds = %40, %34
  %38 = phi ptr [ %41, %40 ], [ %36, %34 ]
  %39 = load i8, ptr %38, align 1, !tbaa !15
  switch i8 %39, label %42 [
    i8 32, label %40
    i8 9, label %40
    i8 10, label %40
    i8 13, label %40
  ]

40:                                               ; preds = %37, %37, %37, %37
  %41 = getelementptr inbounds i8, ptr %38, i32 1
  store ptr %41, ptr %35, align 4, !tbaa !10
  br label %37, !llvm.loop !102

42:                                               ; preds = %37
  %43 = icmp eq i8 %39, %2
  br i1 %43, label %48, label %44

44:                                               ; preds = %42
  %45 = getelementptr inbounds i8, ptr %5, i32 24
  %46 = icmp eq i32 %1, 6
  %47 = add nsw i32 %3, 1
  br label %50

48:                                               ; preds = %42
  %49 = getelementptr inbounds i8, ptr %38, i32 1
  store ptr %49, ptr %35, align 4, !tbaa !10
  br label %174

50:                                               ; preds = %169, %44
  %51 = phi ptr [ %170, %169 ], [ %38, %44 ]
  %52 = phi ptr [ %138, %169 ], [ %45, %44 ]
  br label %53

53:                                               ; preds = %56, %50
  %54 = phi ptr [ %57, %56 ], [ %51, %50 ]
  %55 = load i8, ptr %54, align 1, !tbaa !15
  switch i8 %55, label %58 [
    i8 32, label %56
    i8 9, label %56
    i8 10, label %56
    i8 13, label %56
  ]

56:                                               ; preds = %53, %53, %53, %53
  %57 = getelementptr inbounds i8, ptr %54, i32 1
  store ptr %57, ptr %35, align 4, !tbaa !10
  br label %53, !llvm.loop !103

58:                                               ; preds = %53
  br i1 %46, label %59, label %124

59:                                               ; preds = %58
  %60 = icmp eq i8 %55, 34
  br i1 %60, label %86, label %61

61:                                               ; preds = %59
  %62 = getelementptr inbounds i8, ptr %0, i32 8
  %63 = load ptr, ptr %62, align 4, !tbaa !11
  %64 = load ptr, ptr %63, align 4, !tbaa !12
  %65 = icmp eq ptr %64, null
  br i1 %65, label %66, label %173

66:                                               ; preds = %61
  store ptr @.str.6.13, ptr %63, align 4, !tbaa !12
  %67 = getelementptr inbounds i8, ptr %63, i32 8
  store i32 1, ptr %67, align 4, !tbaa !18
  %68 = getelementptr inbounds i8, ptr %63, i32 4
  store i32 1, ptr %68, align 4, !tbaa !19
  %69 = load ptr, ptr %0, align 4, !tbaa !5
  %70 = icmp ult ptr %69, %54
  br i1 %70, label %71, label %173

71:                                               ; preds = %81, %66
  %72 = phi i32 [ %82, %81 ], [ 1, %66 ]
  %73 = phi i32 [ %83, %81 ], [ 1, %66 ]
  %74 = phi ptr [ %84, %81 ], [ %69, %66 ]
  %75 = load i8, ptr %74, align 1, !tbaa !15
  %76 = icmp eq i8 %75, 10
  br i1 %76, label %77, label %79

77:                                               ; preds = %71
  %78 = add i32 %72, 1
  store i32 %78, ptr %68, align 4, !tbaa !19
  br label %81

79:                                               ; preds = %71
  %80 = add i32 %73, 1
  br label %81

81:                                               ; preds = %79, %77
  %82 = phi i32 [ %72, %79 ], [ %78, %77 ]
  %83 = phi i32 [ %80, %79 ], [ 1, %77 ]
  store i32 %83, ptr %67, align 4, !tbaa !18
  %84 = getelementptr inbounds i8, ptr %74, i32 1
  %85 = icmp eq ptr %84, %54
  br i1 %85, label %173, label %71, !llvm.loop !104

86:                                               ; preds = %59
  %87 = getelementptr inbounds i8, ptr %54, i32 1
  store ptr %87, ptr %35, align 4, !tbaa !10
  %88 = tail call fastcc ptr @string(ptr noundef nonnull %0)
  %89 = icmp eq ptr %88, null
  br i1 %89, label %173, label %90

90:                                               ; preds = %86
  %91 = load ptr, ptr %35, align 4, !tbaa !10
  br label %92

92:                                               ; preds = %95, %90
  %93 = phi ptr [ %96, %95 ], [ %91, %90 ]
  %94 = load i8, ptr %93, align 1, !tbaa !15
  switch i8 %94, label %97 [
    i8 32, label %95
    i8 9, label %95
    i8 10, label %95
    i8 13, label %95
    i8 58, label %122
  ]

95:                                               ; preds = %92, %92, %92, %92
  %96 = getelementptr inbounds i8, ptr %93, i32 1
  store ptr %96, ptr %35, align 4, !tbaa !10
  br label %92, !llvm.loop !105

97:                                               ; preds = %92
  %98 = getelementptr inbounds i8, ptr %0, i32 8
  %99 = load ptr, ptr %98, align 4, !tbaa !11
  %100 = load ptr, ptr %99, align 4, !tbaa !12
  %101 = icmp eq ptr %100, null
  br i1 %101, label %102, label %171

102:                                              ; preds = %97
  store ptr @.str.7.14, ptr %99, align 4, !tbaa !12
  %103 = getelementptr inbounds i8, ptr %99, i32 8
  store i32 1, ptr %103, align 4, !tbaa !18
  %104 = getelementptr inbounds i8, ptr %99, i32 4
  store i32 1, ptr %104, align 4, !tbaa !19
  %105 = load ptr, ptr %0, align 4, !tbaa !5
  %106 = icmp ult ptr %105, %93
  br i1 %106, label %107, label %171

107:                                              ; preds = %117, %102
  %108 = phi i32 [ %118, %117 ], [ 1, %102 ]
  %109 = phi i32 [ %119, %117 ], [ 1, %102 ]
  %110 = phi ptr [ %120, %117 ], [ %105, %102 ]
  %111 = load i8, ptr %110, align 1, !tbaa !15
  %112 = icmp eq i8 %111, 10
  br i1 %112, label %113, label %115

113:                                              ; preds = %107
  %114 = add i32 %108, 1
  store i32 %114, ptr %104, align 4, !tbaa !19
  br label %117

115:                                              ; preds = %107
  %116 = add i32 %109, 1
  br label %117

117:                                              ; preds = %115, %113
  %118 = phi i32 [ %108, %115 ], [ %114, %113 ]
  %119 = phi i32 [ %116, %115 ], [ 1, %113 ]
  store i32 %119, ptr %103, align 4, !tbaa !18
  %120 = getelementptr inbounds i8, ptr %110, i32 1
  %121 = icmp eq ptr %120, %93
  br i1 %121, label %171, label %107, !llvm.loop !106

122:                                              ; preds = %92
  %123 = getelementptr inbounds i8, ptr %93, i32 1
  store ptr %123, ptr %35, align 4, !tbaa !10
  br label %124

124:                                              ; preds = %122, %58
  %125 = phi ptr [ %88, %122 ], [ null, %58 ]
  %126 = tail call fastcc ptr @value(ptr noundef nonnull %0, i32 noundef %47)
  store ptr %126, ptr %52, align 4, !tbaa !40
  %127 = icmp eq ptr %126, null
  br i1 %127, label %171, label %128

128:                                              ; preds = %124
  %129 = getelementptr inbounds i8, ptr %126, i32 20
  store ptr %125, ptr %129, align 4, !tbaa !27
  %130 = load ptr, ptr %52, align 4, !tbaa !40
  %131 = load ptr, ptr %35, align 4, !tbaa !10
  br label %132

132:                                              ; preds = %135, %128
  %133 = phi ptr [ %136, %135 ], [ %131, %128 ]
  %134 = load i8, ptr %133, align 1, !tbaa !15
  switch i8 %134, label %137 [
    i8 32, label %135
    i8 9, label %135
    i8 10, label %135
    i8 13, label %135
  ]

135:                                              ; preds = %132, %132, %132, %132
  %136 = getelementptr inbounds i8, ptr %133, i32 1
  store ptr %136, ptr %35, align 4, !tbaa !10
  br label %132, !llvm.loop !107

137:                                              ; preds = %132
  %138 = getelementptr inbounds i8, ptr %130, i32 28
  %139 = icmp eq i8 %134, %2
  br i1 %139, label %140, label %142

140:                                              ; preds = %137
  %141 = getelementptr inbounds i8, ptr %133, i32 1
  store ptr %141, ptr %35, align 4, !tbaa !10
  br label %174

142:                                              ; preds = %137
  %143 = icmp eq i8 %134, 44
  br i1 %143, label %169, label %144

144:                                              ; preds = %142
  %145 = getelementptr inbounds i8, ptr %0, i32 8
  %146 = load ptr, ptr %145, align 4, !tbaa !11
  %147 = load ptr, ptr %146, align 4, !tbaa !12
  %148 = icmp eq ptr %147, null
  br i1 %148, label %149, label %173

149:                                              ; preds = %144
  store ptr @.str.8, ptr %146, align 4, !tbaa !12
  %150 = getelementptr inbounds i8, ptr %146, i32 8
  store i32 1, ptr %150, align 4, !tbaa !18
  %151 = getelementptr inbounds i8, ptr %146, i32 4
  store i32 1, ptr %151, align 4, !tbaa !19
  %152 = load ptr, ptr %0, align 4, !tbaa !5
  %153 = icmp ult ptr %152, %133
  br i1 %153, label %154, label %173

154:                                              ; preds = %164, %149
  %155 = phi i32 [ %165, %164 ], [ 1, %149 ]
  %156 = phi i32 [ %166, %164 ], [ 1, %149 ]
  %157 = phi ptr [ %167, %164 ], [ %152, %149 ]
  %158 = load i8, ptr %157, align 1, !tbaa !15
  %159 = icmp eq i8 %158, 10
  br i1 %159, label %160, label %162

160:                                              ; preds = %154
  %161 = add i32 %155, 1
  store i32 %161, ptr %151, align 4, !tbaa !19
  br label %164

162:                                              ; preds = %154
  %163 = add i32 %156, 1
  br label %164

164:                                              ; preds = %162, %160
  %165 = phi i32 [ %155, %162 ], [ %161, %160 ]
  %166 = phi i32 [ %163, %162 ], [ 1, %160 ]
  store i32 %166, ptr %150, align 4, !tbaa !18
  %167 = getelementptr inbounds i8, ptr %157, i32 1
  %168 = icmp eq ptr %167, %133
  br i1 %168, label %173, label %154, !llvm.loop !108

169:                                              ; preds = %142
  %170 = getelementptr inbounds i8, ptr %133, i32 1
  store ptr %170, ptr %35, align 4, !tbaa !10
  br label %50

171:                                              ; preds = %124, %117, %102, %97
  %172 = phi ptr [ %88, %97 ], [ %88, %102 ], [ %88, %117 ], [ %125, %124 ]
  tail call void @__sized_free(ptr noundef %172)
  br label %173

173:                                              ; preds = %171, %164, %149, %144, %86, %81, %66, %61
  tail call fastcc void @json_free(ptr noundef nonnull %5)
  br label %174

174:                                              ; preds = %173, %140, %48, %29, %12, %7
  %175 = phi ptr [ %5, %48 ], [ null, %173 ], [ %5, %140 ], [ null, %7 ], [ null, %12 ], [ null, %29 ]
  ret ptr %175
}

; Function Attrs: noinline nounwind optsize
define internal ptr @__sized_calloc(i32 noundef %0, i32 noundef %1) #10 {
  %3 = icmp eq i32 %1, 0
  br i1 %3, label %7, label %4

4:                                                ; preds = %2
  %5 = udiv i32 -17, %1
  %6 = icmp ult i32 %5, %0
  br i1 %6, label %14, label %7

7:                                                ; preds = %4, %2
  %8 = mul i32 %1, %0
  %9 = add i32 %8, 16
  %10 = tail call ptr @calloc(i32 noundef %9, i32 noundef 1) #21
  %11 = icmp eq ptr %10, null
  br i1 %11, label %14, label %12

12:                                               ; preds = %7
  %13 = getelementptr inbounds i8, ptr %10, i32 16
  store i32 %8, ptr %10, align 4, !tbaa !62
  br label %14

14:                                               ; preds = %12, %7, %4
  %15 = phi ptr [ null, %4 ], [ %13, %12 ], [ null, %7 ]
  ret ptr %15
}

; Function Attrs: nounwind
define internal fastcc noalias noundef ptr @string(ptr nocapture noundef %0) unnamed_addr #0 {
  %2 = getelementptr inbounds i8, ptr %0, i32 4
  %3 = load ptr, ptr %2, align 4, !tbaa !10
  br label %4

4:                                                ; preds = %13, %1
  %5 = phi ptr [ %3, %1 ], [ %15, %13 ]
  %6 = load i8, ptr %5, align 1, !tbaa !15
  switch i8 %6, label %13 [
    i8 0, label %16
    i8 34, label %16
    i8 92, label %7
  ]

7:                                                ; preds = %4
  %8 = getelementptr inbounds i8, ptr %5, i32 1
  %9 = load i8, ptr %8, align 1, !tbaa !15
  %10 = freeze i8 %9
  %11 = icmp eq i8 %10, 0
  %12 = select i1 %11, i32 1, i32 2
  br label %13

13:                                               ; preds = %7, %4
  %14 = phi i32 [ 1, %4 ], [ %12, %7 ]
  %15 = getelementptr inbounds i8, ptr %5, i32 %14
  br label %4, !llvm.loop !109

16:                                               ; preds = %4, %4
  %17 = ptrtoint ptr %5 to i32
  %18 = ptrtoint ptr %3 to i32
  %19 = sub i32 %17, %18
  %20 = add i32 %19, 1
  %21 = tail call ptr @__sized_malloc(i32 noundef %20) #22
  %22 = icmp eq ptr %21, null
  br i1 %22, label %26, label %23

23:                                               ; preds = %16
  %24 = load i8, ptr %3, align 1, !tbaa !15
  %25 = icmp eq i8 %24, 34
  br i1 %25, label %227, label %51

26:                                               ; preds = %16
  %27 = getelementptr inbounds i8, ptr %0, i32 8
  %28 = load ptr, ptr %27, align 4, !tbaa !11
  %29 = load ptr, ptr %28, align 4, !tbaa !12
  %30 = icmp eq ptr %29, null
  br i1 %30, label %31, label %231

31:                                               ; preds = %26
  store ptr @.str.9, ptr %28, align 4, !tbaa !12
  %32 = getelementptr inbounds i8, ptr %28, i32 8
  store i32 1, ptr %32, align 4, !tbaa !18
  %33 = getelementptr inbounds i8, ptr %28, i32 4
  store i32 1, ptr %33, align 4, !tbaa !19
  %34 = load ptr, ptr %0, align 4, !tbaa !5
  %35 = icmp ult ptr %34, %3
  br i1 %35, label %36, label %231

36:                                               ; preds = %46, %31
  %37 = phi i32 [ %47, %46 ], [ 1, %31 ]
  %38 = phi i32 [ %48, %46 ], [ 1, %31 ]
  %39 = phi ptr [ %49, %46 ], [ %34, %31 ]
  %40 = load i8, ptr %39, align 1, !tbaa !15
  %41 = icmp eq i8 %40, 10
  br i1 %41, label %42, label %44

42:                                               ; preds = %36
  %43 = add i32 %37, 1
  store i32 %43, ptr %33, align 4, !tbaa !19
  br label %46

44:                                               ; preds = %36
  %45 = add i32 %38, 1
  br label %46

46:                                               ; preds = %44, %42
  %47 = phi i32 [ %37, %44 ], [ %43, %42 ]
  %48 = phi i32 [ %45, %44 ], [ 1, %42 ]
  store i32 %48, ptr %32, align 4, !tbaa !18
  %49 = getelementptr inbounds i8, ptr %39, i32 1
  %50 = icmp eq ptr %49, %3
  br i1 %50, label %231, label %36, !llvm.loop !110

51:                                               ; preds = %222, %23
  %52 = phi i8 [ %225, %222 ], [ %24, %23 ]
  %53 = phi ptr [ %224, %222 ], [ %3, %23 ]
  %54 = phi ptr [ %223, %222 ], [ %21, %23 ]
  %55 = icmp ult i8 %52, 32
  br i1 %55, label %56, label %84

56:                                               ; preds = %51
  %57 = getelementptr inbounds i8, ptr %0, i32 8
  %58 = load ptr, ptr %57, align 4, !tbaa !11
  %59 = load ptr, ptr %58, align 4, !tbaa !12
  %60 = icmp eq ptr %59, null
  br i1 %60, label %61, label %83

61:                                               ; preds = %56
  %62 = icmp eq i8 %52, 0
  %63 = select i1 %62, ptr @.str.11, ptr @.str.10
  store ptr %63, ptr %58, align 4, !tbaa !12
  %64 = getelementptr inbounds i8, ptr %58, i32 8
  store i32 1, ptr %64, align 4, !tbaa !18
  %65 = getelementptr inbounds i8, ptr %58, i32 4
  store i32 1, ptr %65, align 4, !tbaa !19
  %66 = load ptr, ptr %0, align 4, !tbaa !5
  %67 = icmp ult ptr %66, %53
  br i1 %67, label %68, label %83

68:                                               ; preds = %78, %61
  %69 = phi i32 [ %79, %78 ], [ 1, %61 ]
  %70 = phi i32 [ %80, %78 ], [ 1, %61 ]
  %71 = phi ptr [ %81, %78 ], [ %66, %61 ]
  %72 = load i8, ptr %71, align 1, !tbaa !15
  %73 = icmp eq i8 %72, 10
  br i1 %73, label %74, label %76

74:                                               ; preds = %68
  %75 = add i32 %69, 1
  store i32 %75, ptr %65, align 4, !tbaa !19
  br label %78

76:                                               ; preds = %68
  %77 = add i32 %70, 1
  br label %78

78:                                               ; preds = %76, %74
  %79 = phi i32 [ %69, %76 ], [ %75, %74 ]
  %80 = phi i32 [ %77, %76 ], [ 1, %74 ]
  store i32 %80, ptr %64, align 4, !tbaa !18
  %81 = getelementptr inbounds i8, ptr %71, i32 1
  %82 = icmp eq ptr %81, %53
  br i1 %82, label %83, label %68, !llvm.loop !111

83:                                               ; preds = %78, %61, %56
  tail call void @__sized_free(ptr noundef %21)
  br label %231

84:                                               ; preds = %51
  %85 = getelementptr inbounds i8, ptr %53, i32 1
  store ptr %85, ptr %2, align 4, !tbaa !10
  %86 = icmp eq i8 %52, 92
  br i1 %86, label %89, label %87

87:                                               ; preds = %84
  %88 = getelementptr inbounds i8, ptr %54, i32 1
  store i8 %52, ptr %54, align 1, !tbaa !15
  br label %222, !llvm.loop !112

89:                                               ; preds = %84
  %90 = load i8, ptr %85, align 1, !tbaa !15
  %91 = icmp eq i8 %90, 0
  br i1 %91, label %167, label %92

92:                                               ; preds = %89
  %93 = zext i8 %90 to i32
  %94 = tail call ptr @memchr(ptr noundef nonnull dereferenceable(1) @string.from, i32 %93, i32 9)
  %95 = icmp eq ptr %94, null
  br i1 %95, label %104, label %96

96:                                               ; preds = %92
  %97 = ptrtoint ptr %94 to i32
  %98 = sub i32 %97, ptrtoint (ptr @string.from to i32)
  %99 = getelementptr inbounds [9 x i8], ptr @string.meant, i32 0, i32 %98
  %100 = load i8, ptr %99, align 1, !tbaa !15
  %101 = getelementptr inbounds i8, ptr %54, i32 1
  store i8 %100, ptr %54, align 1, !tbaa !15
  %102 = load ptr, ptr %2, align 4, !tbaa !10
  %103 = getelementptr inbounds i8, ptr %102, i32 1
  store ptr %103, ptr %2, align 4, !tbaa !10
  br label %222, !llvm.loop !112

104:                                              ; preds = %92
  %105 = icmp eq i8 %90, 117
  br i1 %105, label %106, label %167

106:                                              ; preds = %104
  %107 = getelementptr inbounds i8, ptr %53, i32 2
  store ptr %107, ptr %2, align 4, !tbaa !10
  %108 = load i8, ptr %107, align 1, !tbaa !15
  %109 = zext i8 %108 to i32
  %110 = tail call i32 @isxdigit(i32 noundef %109) #23
  %111 = icmp eq i32 %110, 0
  br i1 %111, label %167, label %112

112:                                              ; preds = %106
  %113 = add nsw i32 %109, -48
  %114 = icmp ult i32 %113, 10
  br i1 %114, label %118, label %115

115:                                              ; preds = %112
  %116 = tail call i32 @tolower(i32 noundef %109) #23
  %117 = add nsw i32 %116, -87
  br label %118

118:                                              ; preds = %115, %112
  %119 = phi i32 [ %117, %115 ], [ %113, %112 ]
  %120 = getelementptr inbounds i8, ptr %53, i32 3
  store ptr %120, ptr %2, align 4, !tbaa !10
  %121 = load i8, ptr %120, align 1, !tbaa !15
  %122 = zext i8 %121 to i32
  %123 = tail call i32 @isxdigit(i32 noundef %122) #23
  %124 = icmp eq i32 %123, 0
  br i1 %124, label %167, label %125

125:                                              ; preds = %118
  %126 = add nsw i32 %122, -48
  %127 = icmp ult i32 %126, 10
  br i1 %127, label %131, label %128

128:                                              ; preds = %125
  %129 = tail call i32 @tolower(i32 noundef %122) #23
  %130 = add nsw i32 %129, -87
  br label %131

131:                                              ; preds = %128, %125
  %132 = phi i32 [ %130, %128 ], [ %126, %125 ]
  %133 = getelementptr inbounds i8, ptr %53, i32 4
  store ptr %133, ptr %2, align 4, !tbaa !10
  %134 = load i8, ptr %133, align 1, !tbaa !15
  %135 = zext i8 %134 to i32
  %136 = tail call i32 @isxdigit(i32 noundef %135) #23
  %137 = icmp eq i32 %136, 0
  br i1 %137, label %167, label %138

138:                                              ; preds = %131
  %139 = shl i32 %119, 8
  %140 = shl i32 %132, 4
  %141 = add i32 %140, %139
  %142 = add nsw i32 %135, -48
  %143 = icmp ult i32 %142, 10
  br i1 %143, label %147, label %144

144:                                              ; preds = %138
  %145 = tail call i32 @tolower(i32 noundef %135) #23
  %146 = add nsw i32 %145, -87
  br label %147

147:                                              ; preds = %144, %138
  %148 = phi i32 [ %146, %144 ], [ %142, %138 ]
  %149 = getelementptr inbounds i8, ptr %53, i32 5
  store ptr %149, ptr %2, align 4, !tbaa !10
  %150 = load i8, ptr %149, align 1, !tbaa !15
  %151 = zext i8 %150 to i32
  %152 = tail call i32 @isxdigit(i32 noundef %151) #23
  %153 = icmp eq i32 %152, 0
  br i1 %153, label %167, label %154

154:                                              ; preds = %147
  %155 = add nsw i32 %141, %148
  %156 = shl nsw i32 %155, 4
  %157 = add nsw i32 %151, -48
  %158 = icmp ult i32 %157, 10
  br i1 %158, label %162, label %159

159:                                              ; preds = %154
  %160 = tail call i32 @tolower(i32 noundef %151) #23
  %161 = add nsw i32 %160, -87
  br label %162

162:                                              ; preds = %159, %154
  %163 = phi i32 [ %161, %159 ], [ %157, %154 ]
  %164 = add nsw i32 %163, %156
  %165 = getelementptr inbounds i8, ptr %53, i32 6
  store ptr %165, ptr %2, align 4, !tbaa !10
  %166 = icmp slt i32 %164, 0
  br i1 %166, label %167, label %194

167:                                              ; preds = %162, %147, %131, %118, %106, %104, %89
  %168 = phi ptr [ %85, %89 ], [ %85, %104 ], [ %149, %147 ], [ %133, %131 ], [ %120, %118 ], [ %107, %106 ], [ %165, %162 ]
  %169 = getelementptr inbounds i8, ptr %0, i32 8
  %170 = load ptr, ptr %169, align 4, !tbaa !11
  %171 = load ptr, ptr %170, align 4, !tbaa !12
  %172 = icmp eq ptr %171, null
  br i1 %172, label %173, label %193

173:                                              ; preds = %167
  store ptr @.str.12, ptr %170, align 4, !tbaa !12
  %174 = getelementptr inbounds i8, ptr %170, i32 8
  store i32 1, ptr %174, align 4, !tbaa !18
  %175 = getelementptr inbounds i8, ptr %170, i32 4
  store i32 1, ptr %175, align 4, !tbaa !19
  %176 = load ptr, ptr %0, align 4, !tbaa !5
  %177 = icmp ult ptr %176, %168
  br i1 %177, label %178, label %193

178:                                              ; preds = %188, %173
  %179 = phi i32 [ %189, %188 ], [ 1, %173 ]
  %180 = phi i32 [ %190, %188 ], [ 1, %173 ]
  %181 = phi ptr [ %191, %188 ], [ %176, %173 ]
  %182 = load i8, ptr %181, align 1, !tbaa !15
  %183 = icmp eq i8 %182, 10
  br i1 %183, label %184, label %186

184:                                              ; preds = %178
  %185 = add i32 %179, 1
  store i32 %185, ptr %175, align 4, !tbaa !19
  br label %188

186:                                              ; preds = %178
  %187 = add i32 %180, 1
  br label %188

188:                                              ; preds = %186, %184
  %189 = phi i32 [ %179, %186 ], [ %185, %184 ]
  %190 = phi i32 [ %187, %186 ], [ 1, %184 ]
  store i32 %190, ptr %174, align 4, !tbaa !18
  %191 = getelementptr inbounds i8, ptr %181, i32 1
  %192 = icmp eq ptr %191, %168
  br i1 %192, label %193, label %178, !llvm.loop !113

193:                                              ; preds = %188, %173, %167
  tail call void @__sized_free(ptr noundef %21)
  br label %231

194:                                              ; preds = %162
  %195 = icmp ult i32 %164, 128
  %196 = getelementptr inbounds i8, ptr %54, i32 1
  br i1 %195, label %197, label %199

197:                                              ; preds = %194
  %198 = trunc nuw nsw i32 %164 to i8
  store i8 %198, ptr %54, align 1, !tbaa !15
  br label %222

199:                                              ; preds = %194
  %200 = icmp ult i32 %164, 2048
  br i1 %200, label %201, label %209

201:                                              ; preds = %199
  %202 = lshr i32 %164, 6
  %203 = trunc nuw i32 %202 to i8
  %204 = or disjoint i8 %203, -64
  store i8 %204, ptr %54, align 1, !tbaa !15
  %205 = trunc i32 %164 to i8
  %206 = and i8 %205, 63
  %207 = or disjoint i8 %206, -128
  %208 = getelementptr inbounds i8, ptr %54, i32 2
  store i8 %207, ptr %196, align 1, !tbaa !15
  br label %222

209:                                              ; preds = %199
  %210 = lshr i32 %164, 12
  %211 = trunc i32 %210 to i8
  %212 = or i8 %211, -32
  store i8 %212, ptr %54, align 1, !tbaa !15
  %213 = lshr i32 %164, 6
  %214 = trunc i32 %213 to i8
  %215 = and i8 %214, 63
  %216 = or disjoint i8 %215, -128
  %217 = getelementptr inbounds i8, ptr %54, i32 2
  store i8 %216, ptr %196, align 1, !tbaa !15
  %218 = trunc i32 %164 to i8
  %219 = and i8 %218, 63
  %220 = or disjoint i8 %219, -128
  %221 = getelementptr inbounds i8, ptr %54, i32 3
  store i8 %220, ptr %217, align 1, !tbaa !15
  br label %222

222:                                              ; preds = %209, %201, %197, %96, %87
  %223 = phi ptr [ %88, %87 ], [ %101, %96 ], [ %196, %197 ], [ %208, %201 ], [ %221, %209 ]
  %224 = load ptr, ptr %2, align 4, !tbaa !10
  %225 = load i8, ptr %224, align 1, !tbaa !15
  %226 = icmp eq i8 %225, 34
  br i1 %226, label %227, label %51

227:                                              ; preds = %222, %23
  %228 = phi ptr [ %21, %23 ], [ %223, %222 ]
  %229 = phi ptr [ %3, %23 ], [ %224, %222 ]
  %230 = getelementptr inbounds i8, ptr %229, i32 1
  store ptr %230, ptr %2, align 4, !tbaa !10
  store i8 0, ptr %228, align 1, !tbaa !15
  br label %231

231:                                              ; preds = %227, %193, %83, %46, %31, %26
  %232 = phi ptr [ %21, %227 ], [ null, %26 ], [ null, %31 ], [ null, %83 ], [ null, %193 ], [ null, %46 ]
  ret ptr %232
}

; Function Attrs: nofree nounwind
define internal fastcc noalias noundef ptr @word(ptr nocapture noundef %0, ptr nocapture noundef readonly %1, i32 noundef %2) unnamed_addr #6 {
  %4 = getelementptr inbounds i8, ptr %0, i32 4
  %5 = load ptr, ptr %4, align 4, !tbaa !10
  %6 = tail call i32 @strlen(ptr noundef nonnull dereferenceable(1) %1) #16
  %7 = tail call i32 @strncmp(ptr noundef %5, ptr noundef %1, i32 noundef %6) #16
  %8 = icmp eq i32 %7, 0
  br i1 %8, label %34, label %9

9:                                                ; preds = %3
  %10 = getelementptr inbounds i8, ptr %0, i32 8
  %11 = load ptr, ptr %10, align 4, !tbaa !11
  %12 = load ptr, ptr %11, align 4, !tbaa !12
  %13 = icmp eq ptr %12, null
  br i1 %13, label %14, label %64

14:                                               ; preds = %9
  store ptr @.str.13, ptr %11, align 4, !tbaa !12
  %15 = getelementptr inbounds i8, ptr %11, i32 8
  store i32 1, ptr %15, align 4, !tbaa !18
  %16 = getelementptr inbounds i8, ptr %11, i32 4
  store i32 1, ptr %16, align 4, !tbaa !19
  %17 = load ptr, ptr %0, align 4, !tbaa !5
  %18 = icmp ult ptr %17, %5
  br i1 %18, label %19, label %64

19:                                               ; preds = %29, %14
  %20 = phi i32 [ %30, %29 ], [ 1, %14 ]
  %21 = phi i32 [ %31, %29 ], [ 1, %14 ]
  %22 = phi ptr [ %32, %29 ], [ %17, %14 ]
  %23 = load i8, ptr %22, align 1, !tbaa !15
  %24 = icmp eq i8 %23, 10
  br i1 %24, label %25, label %27

25:                                               ; preds = %19
  %26 = add i32 %20, 1
  store i32 %26, ptr %16, align 4, !tbaa !19
  br label %29

27:                                               ; preds = %19
  %28 = add i32 %21, 1
  br label %29

29:                                               ; preds = %27, %25
  %30 = phi i32 [ %20, %27 ], [ %26, %25 ]
  %31 = phi i32 [ %28, %27 ], [ 1, %25 ]
  store i32 %31, ptr %15, align 4, !tbaa !18
  %32 = getelementptr inbounds i8, ptr %22, i32 1
  %33 = icmp eq ptr %32, %5
  br i1 %33, label %64, label %19, !llvm.loop !114

34:                                               ; preds = %3
  %35 = getelementptr inbounds i8, ptr %5, i32 %6
  store ptr %35, ptr %4, align 4, !tbaa !10
  %36 = tail call dereferenceable_or_null(32) ptr @__sized_calloc(i32 noundef 1, i32 noundef 32) #20
  %37 = icmp eq ptr %36, null
  br i1 %37, label %38, label %63

38:                                               ; preds = %34
  %39 = getelementptr inbounds i8, ptr %0, i32 8
  %40 = load ptr, ptr %39, align 4, !tbaa !11
  %41 = load ptr, ptr %40, align 4, !tbaa !12
  %42 = icmp eq ptr %41, null
  br i1 %42, label %43, label %64

43:                                               ; preds = %38
  store ptr @.str.9, ptr %40, align 4, !tbaa !12
  %44 = getelementptr inbounds i8, ptr %40, i32 8
  store i32 1, ptr %44, align 4, !tbaa !18
  %45 = getelementptr inbounds i8, ptr %40, i32 4
  store i32 1, ptr %45, align 4, !tbaa !19
  %46 = load ptr, ptr %0, align 4, !tbaa !5
  %47 = icmp ult ptr %46, %35
  br i1 %47, label %48, label %64

48:                                               ; preds = %58, %43
  %49 = phi i32 [ %59, %58 ], [ 1, %43 ]
  %50 = phi i32 [ %60, %58 ], [ 1, %43 ]
  %51 = phi ptr [ %61, %58 ], [ %46, %43 ]
  %52 = load i8, ptr %51, align 1, !tbaa !15
  %53 = icmp eq i8 %52, 10
  br i1 %53, label %54, label %56

54:                                               ; preds = %48
  %55 = add i32 %49, 1
  store i32 %55, ptr %45, align 4, !tbaa !19
  br label %58

56:                                               ; preds = %48
  %57 = add i32 %50, 1
  br label %58

58:                                               ; preds = %56, %54
  %59 = phi i32 [ %49, %56 ], [ %55, %54 ]
  %60 = phi i32 [ %57, %56 ], [ 1, %54 ]
  store i32 %60, ptr %44, align 4, !tbaa !18
  %61 = getelementptr inbounds i8, ptr %51, i32 1
  %62 = icmp eq ptr %61, %35
  br i1 %62, label %64, label %48, !llvm.loop !115

63:                                               ; preds = %34
  store i32 %2, ptr %36, align 8, !tbaa !24
  br label %64

64:                                               ; preds = %63, %58, %43, %38, %29, %14, %9
  %65 = phi ptr [ null, %9 ], [ null, %14 ], [ %36, %63 ], [ null, %38 ], [ null, %43 ], [ null, %58 ], [ null, %29 ]
  ret ptr %65
}

; Function Attrs: nofree norecurse nosync nounwind optsize memory(readwrite, inaccessiblemem: none)
define internal i64 @strtoll(ptr noalias noundef %0, ptr noalias noundef %1, i32 noundef %2) local_unnamed_addr #5 {
  %4 = alloca %struct.number, align 8
  call void @llvm.lifetime.start.p0(i64 16, ptr nonnull %4) #16
  %5 = call fastcc ptr @scan(ptr noundef nonnull %4, ptr noundef %0, ptr noundef %1, i32 noundef %2, i64 noundef 9223372036854775807, i64 noundef -9223372036854775808) #19
  %6 = getelementptr inbounds i8, ptr %4, i32 8
  %7 = load i32, ptr %6, align 8, !tbaa !59
  %8 = icmp eq i32 %7, 0
  %9 = load i64, ptr %4, align 8
  %10 = sub i64 0, %9
  %11 = select i1 %8, i64 %9, i64 %10
  call void @llvm.lifetime.end.p0(i64 16, ptr nonnull %4) #16
  ret i64 %11
}

; Function Attrs: nofree norecurse nosync nounwind optsize memory(read, inaccessiblemem: none)
define internal noundef ptr @memchr(ptr noundef readonly %0, i32 noundef %1, i32 noundef %2) local_unnamed_addr #3 {
  %4 = icmp eq i32 %2, 0
  br i1 %4, label %16, label %5

5:                                                ; preds = %3
  %6 = trunc i32 %1 to i8
  br label %7

7:                                                ; preds = %12, %5
  %8 = phi ptr [ %0, %5 ], [ %14, %12 ]
  %9 = phi i32 [ %2, %5 ], [ %13, %12 ]
  %10 = load i8, ptr %8, align 1, !tbaa !15
  %11 = icmp eq i8 %10, %6
  br i1 %11, label %16, label %12

12:                                               ; preds = %7
  %13 = add i32 %9, -1
  %14 = getelementptr inbounds i8, ptr %8, i32 1
  %15 = icmp eq i32 %13, 0
  br i1 %15, label %16, label %7, !llvm.loop !116

16:                                               ; preds = %12, %7, %3
  %17 = phi ptr [ null, %3 ], [ null, %12 ], [ %8, %7 ]
  ret ptr %17
}

; Function Attrs: mustprogress nofree norecurse nosync nounwind optsize willreturn memory(none)
define internal range(i32 0, 2) i32 @isxdigit(i32 noundef %0) local_unnamed_addr #14 {
  %2 = add i32 %0, -48
  %3 = icmp ult i32 %2, 10
  %4 = and i32 %0, -33
  %5 = add i32 %4, -65
  %6 = icmp ult i32 %5, 6
  %7 = or i1 %6, %3
  %8 = zext i1 %7 to i32
  ret i32 %8
}

; Function Attrs: mustprogress nofree norecurse nosync nounwind optsize willreturn memory(none)
define internal i32 @tolower(i32 noundef %0) local_unnamed_addr #14 {
  %2 = add i32 %0, -91
  %3 = icmp ult i32 %2, -26
  %4 = add nuw nsw i32 %0, 32
  %5 = select i1 %3, i32 %0, i32 %4
  ret i32 %5
}

; Function Attrs: optsize
declare dso_local ptr @calloc(i32 noundef, i32 noundef) local_unnamed_addr #15

; Function Attrs: nounwind optsize
define internal i32 @fgetc(ptr nocapture noundef %0) local_unnamed_addr #2 {
  %2 = load i8, ptr %0, align 4, !tbaa !45
  %3 = icmp eq i8 %2, 0
  br i1 %3, label %4, label %20

4:                                                ; preds = %1
  %5 = getelementptr inbounds i8, ptr %0, i32 2
  %6 = load i8, ptr %5, align 2, !tbaa !117
  %7 = icmp eq i8 %6, 0
  br i1 %7, label %12, label %8

8:                                                ; preds = %4
  store i8 0, ptr %5, align 2, !tbaa !117
  %9 = getelementptr inbounds i8, ptr %0, i32 3
  %10 = load i8, ptr %9, align 1, !tbaa !118
  %11 = zext i8 %10 to i32
  br label %20

12:                                               ; preds = %4
  %13 = getelementptr inbounds i8, ptr %0, i32 1
  %14 = load i8, ptr %13, align 1, !tbaa !119
  %15 = icmp eq i8 %14, 0
  br i1 %15, label %16, label %20

16:                                               ; preds = %12
  %17 = tail call i32 @getchar() #21
  %18 = icmp eq i32 %17, -1
  br i1 %18, label %19, label %20

19:                                               ; preds = %16
  store i8 1, ptr %13, align 1, !tbaa !119
  br label %20

20:                                               ; preds = %19, %16, %12, %8, %1
  %21 = phi i32 [ %11, %8 ], [ -1, %1 ], [ -1, %12 ], [ -1, %19 ], [ %17, %16 ]
  ret i32 %21
}

; Function Attrs: optsize
declare dso_local i32 @getchar() local_unnamed_addr #15

attributes #0 = { nounwind "no-trapping-math"="true" "stack-protector-buffer-size"="8" "target-cpu"="generic" "target-features"="+armv7-a,+dsp,+soft-float,-aes,-bf16,-d32,-dotprod,-fp-armv8,-fp-armv8d16,-fp-armv8d16sp,-fp-armv8sp,-fp16,-fp16fml,-fp64,-fpregs,-fullfp16,-mve,-mve.fp,-neon,-sha2,-thumb-mode,-vfp2,-vfp2sp,-vfp3,-vfp3d16,-vfp3d16sp,-vfp3sp,-vfp4,-vfp4d16,-vfp4d16sp,-vfp4sp" "use-soft-float"="true" }
attributes #1 = { nocallback nofree nosync nounwind willreturn memory(argmem: readwrite) }
attributes #2 = { nounwind optsize "no-builtins" "no-jump-tables"="true" "no-trapping-math"="true" "stack-protector-buffer-size"="8" "target-cpu"="generic" "target-features"="+armv7-a,+dsp,+soft-float,-aes,-bf16,-d32,-dotprod,-fp-armv8,-fp-armv8d16,-fp-armv8d16sp,-fp-armv8sp,-fp16,-fp16fml,-fp64,-fpregs,-fullfp16,-mve,-mve.fp,-neon,-sha2,-thumb-mode,-vfp2,-vfp2sp,-vfp3,-vfp3d16,-vfp3d16sp,-vfp3sp,-vfp4,-vfp4d16,-vfp4d16sp,-vfp4sp" "use-soft-float"="true" }
attributes #3 = { nofree norecurse nosync nounwind optsize memory(read, inaccessiblemem: none) "no-builtins" "no-jump-tables"="true" "no-trapping-math"="true" "stack-protector-buffer-size"="8" "target-cpu"="generic" "target-features"="+armv7-a,+dsp,+soft-float,-aes,-bf16,-d32,-dotprod,-fp-armv8,-fp-armv8d16,-fp-armv8d16sp,-fp-armv8sp,-fp16,-fp16fml,-fp64,-fpregs,-fullfp16,-mve,-mve.fp,-neon,-sha2,-thumb-mode,-vfp2,-vfp2sp,-vfp3,-vfp3d16,-vfp3d16sp,-vfp3sp,-vfp4,-vfp4d16,-vfp4d16sp,-vfp4sp" "use-soft-float"="true" }
attributes #4 = { nofree nosync nounwind memory(read, inaccessiblemem: none) "no-trapping-math"="true" "stack-protector-buffer-size"="8" "target-cpu"="generic" "target-features"="+armv7-a,+dsp,+soft-float,-aes,-bf16,-d32,-dotprod,-fp-armv8,-fp-armv8d16,-fp-armv8d16sp,-fp-armv8sp,-fp16,-fp16fml,-fp64,-fpregs,-fullfp16,-mve,-mve.fp,-neon,-sha2,-thumb-mode,-vfp2,-vfp2sp,-vfp3,-vfp3d16,-vfp3d16sp,-vfp3sp,-vfp4,-vfp4d16,-vfp4d16sp,-vfp4sp" "use-soft-float"="true" }
attributes #5 = { nofree norecurse nosync nounwind optsize memory(readwrite, inaccessiblemem: none) "no-builtins" "no-jump-tables"="true" "no-trapping-math"="true" "stack-protector-buffer-size"="8" "target-cpu"="generic" "target-features"="+armv7-a,+dsp,+soft-float,-aes,-bf16,-d32,-dotprod,-fp-armv8,-fp-armv8d16,-fp-armv8d16sp,-fp-armv8sp,-fp16,-fp16fml,-fp64,-fpregs,-fullfp16,-mve,-mve.fp,-neon,-sha2,-thumb-mode,-vfp2,-vfp2sp,-vfp3,-vfp3d16,-vfp3d16sp,-vfp3sp,-vfp4,-vfp4d16,-vfp4d16sp,-vfp4sp" "use-soft-float"="true" }
attributes #6 = { nofree nounwind "no-trapping-math"="true" "stack-protector-buffer-size"="8" "target-cpu"="generic" "target-features"="+armv7-a,+dsp,+soft-float,-aes,-bf16,-d32,-dotprod,-fp-armv8,-fp-armv8d16,-fp-armv8d16sp,-fp-armv8sp,-fp16,-fp16fml,-fp64,-fpregs,-fullfp16,-mve,-mve.fp,-neon,-sha2,-thumb-mode,-vfp2,-vfp2sp,-vfp3,-vfp3d16,-vfp3d16sp,-vfp3sp,-vfp4,-vfp4d16,-vfp4d16sp,-vfp4sp" "use-soft-float"="true" }
attributes #7 = { nofree norecurse nosync nounwind optsize "no-builtins" "no-jump-tables"="true" "no-trapping-math"="true" "stack-protector-buffer-size"="8" "target-cpu"="generic" "target-features"="+armv7-a,+dsp,+soft-float,-aes,-bf16,-d32,-dotprod,-fp-armv8,-fp-armv8d16,-fp-armv8d16sp,-fp-armv8sp,-fp16,-fp16fml,-fp64,-fpregs,-fullfp16,-mve,-mve.fp,-neon,-sha2,-thumb-mode,-vfp2,-vfp2sp,-vfp3,-vfp3d16,-vfp3d16sp,-vfp3sp,-vfp4,-vfp4d16,-vfp4d16sp,-vfp4sp" "use-soft-float"="true" }
attributes #8 = { noreturn "no-trapping-math"="true" "stack-protector-buffer-size"="8" "target-cpu"="generic" "target-features"="+armv7-a,+dsp,+soft-float,-aes,-bf16,-d32,-dotprod,-fp-armv8,-fp-armv8d16,-fp-armv8d16sp,-fp-armv8sp,-fp16,-fp16fml,-fp64,-fpregs,-fullfp16,-mve,-mve.fp,-neon,-sha2,-thumb-mode,-vfp2,-vfp2sp,-vfp3,-vfp3d16,-vfp3d16sp,-vfp3sp,-vfp4,-vfp4d16,-vfp4d16sp,-vfp4sp" "use-soft-float"="true" }
attributes #9 = { nocallback nofree nounwind willreturn memory(argmem: readwrite) }
attributes #10 = { noinline nounwind optsize "no-builtins" "no-jump-tables"="true" "no-trapping-math"="true" "stack-protector-buffer-size"="8" "target-cpu"="generic" "target-features"="+armv7-a,+dsp,+soft-float,-aes,-bf16,-d32,-dotprod,-fp-armv8,-fp-armv8d16,-fp-armv8d16sp,-fp-armv8sp,-fp16,-fp16fml,-fp64,-fpregs,-fullfp16,-mve,-mve.fp,-neon,-sha2,-thumb-mode,-vfp2,-vfp2sp,-vfp3,-vfp3d16,-vfp3d16sp,-vfp3sp,-vfp4,-vfp4d16,-vfp4d16sp,-vfp4sp" "use-soft-float"="true" }
attributes #11 = { mustprogress nounwind willreturn allockind("free") memory(argmem: readwrite, inaccessiblemem: readwrite) "alloc-family"="malloc" "no-trapping-math"="true" "stack-protector-buffer-size"="8" "target-cpu"="generic" "target-features"="+armv7-a,+dsp,+soft-float,-aes,-bf16,-d32,-dotprod,-fp-armv8,-fp-armv8d16,-fp-armv8d16sp,-fp-armv8sp,-fp16,-fp16fml,-fp64,-fpregs,-fullfp16,-mve,-mve.fp,-neon,-sha2,-thumb-mode,-vfp2,-vfp2sp,-vfp3,-vfp3d16,-vfp3d16sp,-vfp3sp,-vfp4,-vfp4d16,-vfp4d16sp,-vfp4sp" "use-soft-float"="true" }
attributes #12 = { nocallback nofree nosync nounwind speculatable willreturn memory(none) }
attributes #13 = { mustprogress nofree nounwind willreturn allockind("alloc,uninitialized") allocsize(0) memory(inaccessiblemem: readwrite) "alloc-family"="malloc" "no-trapping-math"="true" "stack-protector-buffer-size"="8" "target-cpu"="generic" "target-features"="+armv7-a,+dsp,+soft-float,-aes,-bf16,-d32,-dotprod,-fp-armv8,-fp-armv8d16,-fp-armv8d16sp,-fp-armv8sp,-fp16,-fp16fml,-fp64,-fpregs,-fullfp16,-mve,-mve.fp,-neon,-sha2,-thumb-mode,-vfp2,-vfp2sp,-vfp3,-vfp3d16,-vfp3d16sp,-vfp3sp,-vfp4,-vfp4d16,-vfp4d16sp,-vfp4sp" "use-soft-float"="true" }
attributes #14 = { mustprogress nofree norecurse nosync nounwind optsize willreturn memory(none) "no-builtins" "no-jump-tables"="true" "no-trapping-math"="true" "stack-protector-buffer-size"="8" "target-cpu"="generic" "target-features"="+armv7-a,+dsp,+soft-float,-aes,-bf16,-d32,-dotprod,-fp-armv8,-fp-armv8d16,-fp-armv8d16sp,-fp-armv8sp,-fp16,-fp16fml,-fp64,-fpregs,-fullfp16,-mve,-mve.fp,-neon,-sha2,-thumb-mode,-vfp2,-vfp2sp,-vfp3,-vfp3d16,-vfp3d16sp,-vfp3sp,-vfp4,-vfp4d16,-vfp4d16sp,-vfp4sp" "use-soft-float"="true" }
attributes #15 = { optsize "no-builtins" "no-trapping-math"="true" "stack-protector-buffer-size"="8" "target-cpu"="generic" "target-features"="+armv7-a,+dsp,+soft-float,-aes,-bf16,-d32,-dotprod,-fp-armv8,-fp-armv8d16,-fp-armv8d16sp,-fp-armv8sp,-fp16,-fp16fml,-fp64,-fpregs,-fullfp16,-mve,-mve.fp,-neon,-sha2,-thumb-mode,-vfp2,-vfp2sp,-vfp3,-vfp3d16,-vfp3d16sp,-vfp3sp,-vfp4,-vfp4d16,-vfp4d16sp,-vfp4sp" "use-soft-float"="true" }
attributes #16 = { nounwind }
attributes #17 = { allocsize(1) }
attributes #18 = { noreturn nounwind }
attributes #19 = { nobuiltin optsize "no-builtins" }
attributes #20 = { allocsize(0,1) }
attributes #21 = { nobuiltin nounwind optsize "no-builtins" }
attributes #22 = { allocsize(0) }
attributes #23 = { nounwind willreturn memory(read) }

!llvm.ident = !{!0, !0, !0, !0, !0, !0}
!llvm.module.flags = !{!1, !2, !3, !4}

!0 = !{!"Debian clang version 19.1.7 (3~deb12u1)"}
!1 = !{i32 7, !"Dwarf Version", i32 5}
!2 = !{i32 2, !"Debug Info Version", i32 3}
!3 = !{i32 1, !"wchar_size", i32 4}
!4 = !{i32 1, !"min_enum_size", i32 4}
!5 = !{!6, !7, i64 0}
!6 = !{!"reader", !7, i64 0, !7, i64 4, !7, i64 8}
!7 = !{!"any pointer", !8, i64 0}
!8 = !{!"omnipotent char", !9, i64 0}
!9 = !{!"Simple C/C++ TBAA"}
!10 = !{!6, !7, i64 4}
!11 = !{!6, !7, i64 8}
!12 = !{!13, !7, i64 0}
!13 = !{!"fault", !7, i64 0, !14, i64 4, !14, i64 8}
!14 = !{!"int", !8, i64 0}
!15 = !{!8, !8, i64 0}
!16 = distinct !{!16, !17}
!17 = !{!"llvm.loop.mustprogress"}
!18 = !{!13, !14, i64 8}
!19 = !{!13, !14, i64 4}
!20 = distinct !{!20, !17}
!21 = !{!22, !7, i64 24}
!22 = !{!"value", !14, i64 0, !23, i64 8, !7, i64 16, !7, i64 20, !7, i64 24, !7, i64 28}
!23 = !{!"long long", !8, i64 0}
!24 = !{!22, !14, i64 0}
!25 = !{!22, !7, i64 28}
!26 = distinct !{!26, !17}
!27 = !{!22, !7, i64 20}
!28 = distinct !{!28, !17}
!29 = distinct !{!29, !17}
!30 = distinct !{!30, !17}
!31 = distinct !{!31, !17}
!32 = distinct !{!32, !17}
!33 = distinct !{!33, !17}
!34 = distinct !{!34, !17}
!35 = distinct !{!35, !17}
!36 = distinct !{!36, !17}
!37 = !{!22, !7, i64 16}
!38 = distinct !{!38, !17}
!39 = distinct !{!39, !17}
!40 = !{!7, !7, i64 0}
!41 = distinct !{!41, !17}
!42 = distinct !{!42, !17}
!43 = !{!22, !23, i64 8}
!44 = distinct !{!44, !17}
!45 = !{!46, !8, i64 0}
!46 = !{!"__stream", !8, i64 0, !8, i64 1, !8, i64 2, !8, i64 3, !7, i64 4, !14, i64 8}
!47 = !{!48}
!48 = distinct !{!48, !49, !"fwrite: %stream"}
!49 = distinct !{!49, !"fwrite"}
!50 = !{!51}
!51 = distinct !{!51, !49, !"fwrite: %from"}
!52 = distinct !{!52, !17}
!53 = distinct !{!53, !17}
!54 = distinct !{!54, !17}
!55 = distinct !{!55, !17}
!56 = distinct !{!56, !17}
!57 = distinct !{!57, !17}
!58 = distinct !{!58, !17}
!59 = !{!60, !14, i64 8}
!60 = !{!"number", !23, i64 0, !14, i64 8, !14, i64 12}
!61 = distinct !{!61, !17}
!62 = !{!14, !14, i64 0}
!63 = !{!64}
!64 = distinct !{!64, !65, !"memcpy: %from"}
!65 = distinct !{!65, !"memcpy"}
!66 = !{!67}
!67 = distinct !{!67, !65, !"memcpy: %to"}
!68 = distinct !{!68, !17}
!69 = !{!70}
!70 = distinct !{!70, !71, !"memcpy: %from"}
!71 = distinct !{!71, !"memcpy"}
!72 = !{!73}
!73 = distinct !{!73, !71, !"memcpy: %to"}
!74 = distinct !{!74, !17}
!75 = !{!46, !14, i64 8}
!76 = !{!46, !7, i64 4}
!77 = !{!60, !23, i64 0}
!78 = !{!60, !14, i64 12}
!79 = distinct !{!79, !17}
!80 = distinct !{!80, !17}
!81 = distinct !{!81, !17}
!82 = distinct !{!82, !17}
!83 = distinct !{!83, !17}
!84 = !{!85}
!85 = distinct !{!85, !86, !"fwrite: %stream"}
!86 = distinct !{!86, !"fwrite"}
!87 = !{!88}
!88 = distinct !{!88, !86, !"fwrite: %from"}
!89 = !{!90}
!90 = distinct !{!90, !91, !"fwrite: %stream"}
!91 = distinct !{!91, !"fwrite"}
!92 = !{!93}
!93 = distinct !{!93, !91, !"fwrite: %from"}
!94 = distinct !{!94, !17}
!95 = distinct !{!95, !17}
!96 = !{!97}
!97 = distinct !{!97, !98, !"fwrite: %stream"}
!98 = distinct !{!98, !"fwrite"}
!99 = !{!100}
!100 = distinct !{!100, !98, !"fwrite: %from"}
!101 = distinct !{!101, !17}
!102 = distinct !{!102, !17}
!103 = distinct !{!103, !17}
!104 = distinct !{!104, !17}
!105 = distinct !{!105, !17}
!106 = distinct !{!106, !17}
!107 = distinct !{!107, !17}
!108 = distinct !{!108, !17}
!109 = distinct !{!109, !17}
!110 = distinct !{!110, !17}
!111 = distinct !{!111, !17}
!112 = distinct !{!112, !17}
!113 = distinct !{!113, !17}
!114 = distinct !{!114, !17}
!115 = distinct !{!115, !17}
!116 = distinct !{!116, !17}
!117 = !{!46, !8, i64 2}
!118 = !{!46, !8, i64 3}
!119 = !{!46, !8, i64 1}
