source_filename = "main.c"
target datalayout = "e-m:e-p270:32:32-p271:32:32-p272:64:64-i64:64-i128:128-f80:128-n8:16:32:64-S128"
target triple = "x86_64-unknown-linux-gnu"

%struct.__stream = type { i8, i8, i8, i8, ptr, i64 }
%struct.reader = type { ptr, ptr, ptr }
%struct.text = type { ptr, i64, i64 }
%struct.number = type { i64, i32, i32 }

@main.asked = internal global [8 x [80 x i8]] zeroinitializer, align 16
@.str = private unnamed_addr constant [3 x i8] c".\0A\00", align 1
@.str.2 = private unnamed_addr constant [37 x i8] c"refused in line %zu, column %zu: %s\0A\00", align 1
@.str.3 = private unnamed_addr constant [22 x i8] c"\0A%zu values, %d deep\0A\00", align 1
@.str.4 = private unnamed_addr constant [2 x i8] c"\0A\00", align 1
@.str.5 = private unnamed_addr constant [8 x i8] c"? %s = \00", align 1
@.str.6 = private unnamed_addr constant [8 x i8] c"nothing\00", align 1
@.str.7 = private unnamed_addr constant [20 x i8] c"more than one value\00", align 1
@.str.1.8 = private unnamed_addr constant [9 x i8] c"too deep\00", align 1
@.str.5.12 = private unnamed_addr constant [8 x i8] c"the end\00", align 1
@.str.6.13 = private unnamed_addr constant [24 x i8] c"a member without a name\00", align 1
@.str.7.14 = private unnamed_addr constant [23 x i8] c"a name without a colon\00", align 1
@.str.8 = private unnamed_addr constant [27 x i8] c"neither a comma nor an end\00", align 1
@.str.9 = private unnamed_addr constant [14 x i8] c"out of memory\00", align 1
@.str.10 = private unnamed_addr constant [25 x i8] c"a control byte in a text\00", align 1
@.str.11 = private unnamed_addr constant [26 x i8] c"a text that is not closed\00", align 1
@string.from = internal constant [9 x i8] c"\22\\/bfnrt\00", align 1
@string.meant = internal unnamed_addr constant [9 x i8] c"\22\\/\08\0C\0A\0D\09\00", align 1
@.str.12 = private unnamed_addr constant [23 x i8] c"an escape that is none\00", align 1
@.str.13 = private unnamed_addr constant [20 x i8] c"a word that is none\00", align 1
@.str.14 = private unnamed_addr constant [22 x i8] c"a number that is none\00", align 1
@.str.15 = private unnamed_addr constant [27 x i8] c"a number that is not whole\00", align 1
@.str.23 = private unnamed_addr constant [2 x i8] c".\00", align 1
@.str.1.26 = private unnamed_addr constant [5 x i8] c"null\00", align 1
@.str.2.27 = private unnamed_addr constant [6 x i8] c"false\00", align 1
@.str.3.28 = private unnamed_addr constant [5 x i8] c"true\00", align 1
@.str.5.30 = private unnamed_addr constant [3 x i8] c"[]\00", align 1
@.str.6.31 = private unnamed_addr constant [3 x i8] c"{}\00", align 1
@.str.7.37 = private unnamed_addr constant [4 x i8] c"\\%c\00", align 1
@.str.8.38 = private unnamed_addr constant [3 x i8] c"\\n\00", align 1
@.str.9.39 = private unnamed_addr constant [7 x i8] c"\\u%04x\00", align 1
@.str.10.34 = private unnamed_addr constant [7 x i8] c"%s\0A%*s\00", align 1
@.str.11.32 = private unnamed_addr constant [1 x i8] zeroinitializer, align 1
@.str.12.33 = private unnamed_addr constant [2 x i8] c",\00", align 1
@.str.13.35 = private unnamed_addr constant [3 x i8] c": \00", align 1
@.str.14.36 = private unnamed_addr constant [5 x i8] c"\0A%*s\00", align 1
@.str.17 = private unnamed_addr constant [1 x i8] zeroinitializer, align 1
@.str.1 = private unnamed_addr constant [7 x i8] c"(null)\00", align 1
@.str.2.24 = private unnamed_addr constant [2 x i8] c"-\00", align 1
@.str.3.25 = private unnamed_addr constant [2 x i8] c"+\00", align 1
@.str.4.23 = private unnamed_addr constant [2 x i8] c" \00", align 1
@.str.5.31 = private unnamed_addr constant [3 x i8] c"0X\00", align 1
@.str.6.29 = private unnamed_addr constant [3 x i8] c"0x\00", align 1
@.str.8.28 = private unnamed_addr constant [17 x i8] c"0123456789ABCDEF\00", align 1
@.str.9.22 = private unnamed_addr constant [17 x i8] c"0123456789abcdef\00", align 1
@__streams = internal global [3 x %struct.__stream] [%struct.__stream zeroinitializer, %struct.__stream { i8 1, i8 0, i8 0, i8 0, ptr null, i64 0 }, %struct.__stream { i8 2, i8 0, i8 0, i8 0, ptr null, i64 0 }], align 16
@errno = internal local_unnamed_addr global i32 0, align 4

; Function Attrs: nounwind uwtable
define dso_local i32 @main() local_unnamed_addr #0 {
  %1 = alloca %struct.reader, align 8
  %2 = alloca %struct.text, align 8
  %3 = alloca [160 x i8], align 16
  call void @llvm.lifetime.start.p0(i64 160, ptr nonnull %3) #17
  %4 = call ptr @fgets(ptr noundef nonnull %3, i32 noundef 160, ptr noundef nonnull @__streams)
  %5 = icmp eq ptr %4, null
  br i1 %5, label %190, label %6

6:                                                ; preds = %0
  %7 = getelementptr inbounds i8, ptr %3, i64 1
  %8 = getelementptr inbounds i8, ptr %1, i64 8
  %9 = getelementptr inbounds i8, ptr %1, i64 16
  %10 = getelementptr inbounds i8, ptr %2, i64 8
  %11 = getelementptr inbounds i8, ptr %2, i64 16
  br label %12

12:                                               ; preds = %182, %6
  %13 = phi i32 [ 0, %6 ], [ %187, %182 ]
  %14 = phi i32 [ 0, %6 ], [ %186, %182 ]
  %15 = phi i64 [ 0, %6 ], [ %185, %182 ]
  %16 = phi i64 [ 0, %6 ], [ %184, %182 ]
  %17 = phi ptr [ null, %6 ], [ %183, %182 ]
  %18 = call i32 @bcmp(ptr noundef nonnull dereferenceable(3) %3, ptr noundef nonnull dereferenceable(3) @.str, i64 3)
  %19 = icmp eq i32 %18, 0
  br i1 %19, label %20, label %157

20:                                               ; preds = %12
  call void @llvm.lifetime.start.p0(i64 24, ptr nonnull %2) #17
  %21 = icmp eq i64 %16, 0
  %22 = select i1 %21, ptr @.str.11.32, ptr %17
  call void @llvm.lifetime.start.p0(i64 24, ptr nonnull %1) #17
  store ptr %22, ptr %1, align 8, !tbaa !5
  store ptr %22, ptr %8, align 8, !tbaa !10
  store ptr %2, ptr %9, align 8, !tbaa !11
  store ptr null, ptr %2, align 8, !tbaa !12
  %23 = call fastcc ptr @value(ptr noundef nonnull %1, i32 noundef 0)
  %24 = icmp eq ptr %23, null
  br i1 %24, label %58, label %25

25:                                               ; preds = %20
  %26 = load ptr, ptr %8, align 8, !tbaa !10
  br label %27

27:                                               ; preds = %30, %25
  %28 = phi ptr [ %31, %30 ], [ %26, %25 ]
  %29 = load i8, ptr %28, align 1, !tbaa !15
  switch i8 %29, label %32 [
    i8 32, label %30
    i8 9, label %30
    i8 10, label %30
    i8 13, label %30
  ]

30:                                               ; preds = %27, %27, %27, %27
  %31 = getelementptr inbounds i8, ptr %28, i64 1
  br label %27, !llvm.loop !16

32:                                               ; preds = %27
  store ptr %28, ptr %8, align 8, !tbaa !10
  %33 = icmp eq i8 %29, 0
  br i1 %33, label %58, label %34

34:                                               ; preds = %32
  %35 = load ptr, ptr %9, align 8, !tbaa !11
  %36 = load ptr, ptr %35, align 8, !tbaa !12
  %37 = icmp eq ptr %36, null
  br i1 %37, label %38, label %57

38:                                               ; preds = %34
  store ptr @.str.7, ptr %35, align 8, !tbaa !12
  %39 = getelementptr inbounds i8, ptr %35, i64 16
  store i64 1, ptr %39, align 8, !tbaa !19
  %40 = getelementptr inbounds i8, ptr %35, i64 8
  store i64 1, ptr %40, align 8, !tbaa !20
  %41 = load ptr, ptr %1, align 8, !tbaa !5
  %42 = icmp ult ptr %41, %28
  br i1 %42, label %43, label %57

43:                                               ; preds = %53, %38
  %44 = phi i64 [ %54, %53 ], [ 1, %38 ]
  %45 = phi ptr [ %55, %53 ], [ %41, %38 ]
  %46 = load i8, ptr %45, align 1, !tbaa !15
  %47 = icmp eq i8 %46, 10
  br i1 %47, label %48, label %51

48:                                               ; preds = %43
  %49 = load i64, ptr %40, align 8, !tbaa !20
  %50 = add i64 %49, 1
  store i64 %50, ptr %40, align 8, !tbaa !20
  br label %53

51:                                               ; preds = %43
  %52 = add i64 %44, 1
  br label %53

53:                                               ; preds = %51, %48
  %54 = phi i64 [ %52, %51 ], [ 1, %48 ]
  store i64 %54, ptr %39, align 8, !tbaa !19
  %55 = getelementptr inbounds i8, ptr %45, i64 1
  %56 = icmp eq ptr %55, %28
  br i1 %56, label %57, label %43, !llvm.loop !21

57:                                               ; preds = %53, %38, %34
  call fastcc void @json_free(ptr noundef nonnull %23)
  br label %58

58:                                               ; preds = %57, %32, %20
  %59 = phi ptr [ null, %57 ], [ null, %20 ], [ %23, %32 ]
  call void @llvm.lifetime.end.p0(i64 24, ptr nonnull %1) #17
  %60 = icmp eq ptr %59, null
  br i1 %60, label %61, label %72

61:                                               ; preds = %58
  %62 = load i64, ptr %10, align 8, !tbaa !20
  %63 = load i64, ptr %11, align 8, !tbaa !19
  %64 = load ptr, ptr %2, align 8, !tbaa !12
  %65 = call i32 @__print_text(ptr nonnull getelementptr inbounds (i8, ptr @__streams, i64 24), ptr nonnull @.str.2, i64 16) #17
  %66 = call i32 @__print_unsigned(ptr nonnull getelementptr inbounds (i8, ptr @__streams, i64 24), i64 %62, i32 10, i32 0, i32 0, i32 -1) #17
  %67 = call i32 @__print_text(ptr nonnull getelementptr inbounds (i8, ptr @__streams, i64 24), ptr nonnull getelementptr inbounds (i8, ptr @.str.2, i64 19), i64 9) #17
  %68 = call i32 @__print_unsigned(ptr nonnull getelementptr inbounds (i8, ptr @__streams, i64 24), i64 %63, i32 10, i32 0, i32 0, i32 -1) #17
  %69 = call i32 @__print_text(ptr nonnull getelementptr inbounds (i8, ptr @__streams, i64 24), ptr nonnull getelementptr inbounds (i8, ptr @.str.2, i64 31), i64 2) #17
  %70 = call i32 @__print_string(ptr nonnull getelementptr inbounds (i8, ptr @__streams, i64 24), ptr %64, i32 0, i32 0, i32 -1) #17
  %71 = call i32 @__print_text(ptr nonnull getelementptr inbounds (i8, ptr @__streams, i64 24), ptr nonnull getelementptr inbounds (i8, ptr @.str.2, i64 35), i64 1) #17
  br label %154

72:                                               ; preds = %58
  call fastcc void @json_write(ptr noundef nonnull %59, i32 noundef 0)
  %73 = call fastcc i64 @json_count(ptr noundef nonnull %59)
  %74 = call fastcc i32 @json_depth(ptr noundef nonnull %59)
  %75 = call i32 @__print_text(ptr nonnull getelementptr inbounds (i8, ptr @__streams, i64 24), ptr nonnull @.str.3, i64 1) #17
  %76 = call i32 @__print_unsigned(ptr nonnull getelementptr inbounds (i8, ptr @__streams, i64 24), i64 %73, i32 10, i32 0, i32 0, i32 -1) #17
  %77 = call i32 @__print_text(ptr nonnull getelementptr inbounds (i8, ptr @__streams, i64 24), ptr nonnull getelementptr inbounds (i8, ptr @.str.3, i64 4), i64 9) #17
  %78 = sext i32 %74 to i64
  %79 = call i32 @__print_signed(ptr nonnull getelementptr inbounds (i8, ptr @__streams, i64 24), i64 %78, i32 0, i32 0, i32 -1) #17
  %80 = call i32 @__print_text(ptr nonnull getelementptr inbounds (i8, ptr @__streams, i64 24), ptr nonnull getelementptr inbounds (i8, ptr @.str.3, i64 15), i64 6) #17
  %81 = icmp sgt i32 %14, 0
  br i1 %81, label %82, label %84

82:                                               ; preds = %72
  %83 = zext nneg i32 %14 to i64
  br label %85

84:                                               ; preds = %150, %72
  call fastcc void @json_free(ptr noundef nonnull %59)
  br label %154

85:                                               ; preds = %150, %82
  %86 = phi i64 [ 0, %82 ], [ %152, %150 ]
  %87 = getelementptr inbounds [80 x i8], ptr @main.asked, i64 %86
  %88 = call i64 @strcspn(ptr noundef nonnull %87, ptr noundef nonnull @.str.4)
  %89 = getelementptr inbounds i8, ptr %87, i64 %88
  store i8 0, ptr %89, align 1, !tbaa !15
  br label %90

90:                                               ; preds = %132, %85
  %91 = phi ptr [ %133, %132 ], [ %59, %85 ]
  %92 = phi ptr [ %139, %132 ], [ %87, %85 ]
  %93 = load i8, ptr %92, align 1, !tbaa !15
  %94 = icmp eq i8 %93, 0
  br i1 %94, label %141, label %95

95:                                               ; preds = %90
  %96 = call i64 @strcspn(ptr noundef nonnull %92, ptr noundef nonnull @.str.23)
  %97 = getelementptr inbounds i8, ptr %91, i64 32
  %98 = load ptr, ptr %97, align 8, !tbaa !22
  %99 = load i32, ptr %91, align 8, !tbaa !25
  %100 = icmp eq i32 %99, 5
  br i1 %100, label %103, label %101

101:                                              ; preds = %95
  %102 = icmp eq ptr %98, null
  br i1 %102, label %132, label %117

103:                                              ; preds = %95
  %104 = call i64 @strtol(ptr nocapture noundef nonnull %92, ptr noundef null, i32 noundef 10)
  %105 = icmp ne ptr %98, null
  %106 = icmp sgt i64 %104, 0
  %107 = select i1 %105, i1 %106, i1 false
  br i1 %107, label %108, label %132

108:                                              ; preds = %108, %103
  %109 = phi i64 [ %111, %108 ], [ %104, %103 ]
  %110 = phi ptr [ %113, %108 ], [ %98, %103 ]
  %111 = add nsw i64 %109, -1
  %112 = getelementptr inbounds i8, ptr %110, i64 40
  %113 = load ptr, ptr %112, align 8, !tbaa !26
  %114 = icmp ne ptr %113, null
  %115 = icmp sgt i64 %109, 1
  %116 = select i1 %114, i1 %115, i1 false
  br i1 %116, label %108, label %132, !llvm.loop !27

117:                                              ; preds = %128, %101
  %118 = phi ptr [ %130, %128 ], [ %98, %101 ]
  %119 = getelementptr inbounds i8, ptr %118, i64 24
  %120 = load ptr, ptr %119, align 8, !tbaa !28
  %121 = icmp eq ptr %120, null
  br i1 %121, label %128, label %122

122:                                              ; preds = %117
  %123 = call i64 @strlen(ptr noundef nonnull dereferenceable(1) %120) #17
  %124 = icmp eq i64 %123, %96
  br i1 %124, label %125, label %128

125:                                              ; preds = %122
  %126 = call i32 @strncmp(ptr noundef nonnull %120, ptr noundef nonnull %92, i64 noundef %96) #17
  %127 = icmp eq i32 %126, 0
  br i1 %127, label %132, label %128

128:                                              ; preds = %125, %122, %117
  %129 = getelementptr inbounds i8, ptr %118, i64 40
  %130 = load ptr, ptr %129, align 8, !tbaa !26
  %131 = icmp eq ptr %130, null
  br i1 %131, label %132, label %117, !llvm.loop !29

132:                                              ; preds = %128, %125, %108, %103, %101
  %133 = phi ptr [ %98, %103 ], [ null, %101 ], [ %113, %108 ], [ %118, %125 ], [ null, %128 ]
  %134 = getelementptr inbounds i8, ptr %92, i64 %96
  %135 = load i8, ptr %134, align 1, !tbaa !15
  %136 = icmp eq i8 %135, 46
  %137 = zext i1 %136 to i64
  %138 = add i64 %96, %137
  %139 = getelementptr inbounds i8, ptr %92, i64 %138
  %140 = icmp eq ptr %133, null
  br i1 %140, label %141, label %90, !llvm.loop !30

141:                                              ; preds = %132, %90
  %142 = phi ptr [ %91, %90 ], [ %133, %132 ]
  %143 = call i32 @__print_text(ptr nonnull getelementptr inbounds (i8, ptr @__streams, i64 24), ptr nonnull @.str.5, i64 2) #17
  %144 = call i32 @__print_string(ptr nonnull getelementptr inbounds (i8, ptr @__streams, i64 24), ptr nonnull %87, i32 0, i32 0, i32 -1) #17
  %145 = call i32 @__print_text(ptr nonnull getelementptr inbounds (i8, ptr @__streams, i64 24), ptr nonnull getelementptr inbounds (i8, ptr @.str.5, i64 4), i64 3) #17
  %146 = icmp eq ptr %142, null
  br i1 %146, label %148, label %147

147:                                              ; preds = %141
  call fastcc void @json_write(ptr noundef nonnull %142, i32 noundef 0)
  br label %150

148:                                              ; preds = %141
  %149 = call i64 @fwrite(ptr nonnull @.str.6, i64 7, i64 1, ptr nonnull getelementptr inbounds (i8, ptr @__streams, i64 24))
  br label %150

150:                                              ; preds = %148, %147
  %151 = call i32 @putchar(i32 noundef 10)
  %152 = add nuw nsw i64 %86, 1
  %153 = icmp eq i64 %152, %83
  br i1 %153, label %84, label %85, !llvm.loop !31

154:                                              ; preds = %84, %61
  %155 = phi i32 [ 1, %84 ], [ 0, %61 ]
  call void @llvm.lifetime.end.p0(i64 24, ptr nonnull %2) #17
  %156 = add nsw i32 %155, %13
  br label %182

157:                                              ; preds = %12
  %158 = load i8, ptr %3, align 16, !tbaa !15
  %159 = icmp eq i8 %158, 63
  %160 = icmp slt i32 %14, 8
  %161 = select i1 %159, i1 %160, i1 false
  br i1 %161, label %162, label %167

162:                                              ; preds = %157
  %163 = sext i32 %14 to i64
  %164 = getelementptr inbounds [8 x [80 x i8]], ptr @main.asked, i64 0, i64 %163
  %165 = call ptr @strncpy(ptr noundef nonnull dereferenceable(1) %164, ptr noundef nonnull dereferenceable(1) %7, i64 noundef 79) #17
  %166 = add nsw i32 %14, 1
  br label %182

167:                                              ; preds = %157
  %168 = call i64 @strlen(ptr noundef nonnull readonly dereferenceable(1) %3) #17
  %169 = add i64 %168, 1
  %170 = add i64 %169, %16
  %171 = icmp ugt i64 %170, %15
  br i1 %171, label %172, label %177

172:                                              ; preds = %167
  %173 = shl i64 %170, 1
  %174 = call ptr @realloc(ptr noundef %17, i64 noundef %173) #18
  %175 = icmp eq ptr %174, null
  br i1 %175, label %176, label %177

176:                                              ; preds = %172
  call void @exit(i32 noundef 2) #19
  unreachable

177:                                              ; preds = %172, %167
  %178 = phi ptr [ %174, %172 ], [ %17, %167 ]
  %179 = phi i64 [ %173, %172 ], [ %15, %167 ]
  %180 = getelementptr inbounds i8, ptr %178, i64 %16
  call void @llvm.memcpy.p0.p0.i64(ptr align 1 %180, ptr nonnull readonly align 16 %3, i64 %169, i1 false)
  %181 = add i64 %168, %16
  br label %182

182:                                              ; preds = %177, %162, %154
  %183 = phi ptr [ %17, %154 ], [ %17, %162 ], [ %178, %177 ]
  %184 = phi i64 [ 0, %154 ], [ %16, %162 ], [ %181, %177 ]
  %185 = phi i64 [ %15, %154 ], [ %15, %162 ], [ %179, %177 ]
  %186 = phi i32 [ 0, %154 ], [ %166, %162 ], [ %14, %177 ]
  %187 = phi i32 [ %156, %154 ], [ %13, %162 ], [ %13, %177 ]
  %188 = call ptr @fgets(ptr noundef nonnull %3, i32 noundef 160, ptr noundef nonnull @__streams)
  %189 = icmp eq ptr %188, null
  br i1 %189, label %190, label %12, !llvm.loop !32

190:                                              ; preds = %182, %0
  %191 = phi ptr [ null, %0 ], [ %183, %182 ]
  %192 = phi i32 [ 0, %0 ], [ %187, %182 ]
  call void @__sized_free(ptr noundef %191)
  call void @llvm.lifetime.end.p0(i64 160, ptr nonnull %3) #17
  ret i32 %192
}

; Function Attrs: nocallback nofree nosync nounwind willreturn memory(argmem: readwrite)
declare void @llvm.lifetime.start.p0(i64 immarg, ptr nocapture) #1

; Function Attrs: nounwind optsize uwtable
define internal noundef ptr @fgets(ptr noalias noundef writeonly %0, i32 noundef %1, ptr noalias nocapture noundef %2) local_unnamed_addr #2 {
  %4 = icmp slt i32 %1, 1
  br i1 %4, label %23, label %5

5:                                                ; preds = %3
  %6 = icmp eq i32 %1, 1
  br i1 %6, label %21, label %7

7:                                                ; preds = %12, %5
  %8 = phi i32 [ %13, %12 ], [ %1, %5 ]
  %9 = phi ptr [ %15, %12 ], [ %0, %5 ]
  %10 = tail call i32 @fgetc(ptr noundef %2) #20
  %11 = icmp eq i32 %10, -1
  br i1 %11, label %19, label %12

12:                                               ; preds = %7
  %13 = add nsw i32 %8, -1
  %14 = trunc i32 %10 to i8
  %15 = getelementptr inbounds i8, ptr %9, i64 1
  store i8 %14, ptr %9, align 1, !tbaa !15
  %16 = icmp sgt i32 %8, 2
  %17 = icmp ne i32 %10, 10
  %18 = and i1 %16, %17
  br i1 %18, label %7, label %21, !llvm.loop !33

19:                                               ; preds = %7
  %20 = icmp eq ptr %9, %0
  br i1 %20, label %23, label %21

21:                                               ; preds = %19, %12, %5
  %22 = phi ptr [ %9, %19 ], [ %0, %5 ], [ %15, %12 ]
  store i8 0, ptr %22, align 1, !tbaa !15
  br label %23

23:                                               ; preds = %21, %19, %3
  %24 = phi ptr [ %0, %21 ], [ null, %3 ], [ null, %19 ]
  ret ptr %24
}

; Function Attrs: nofree norecurse nosync nounwind optsize memory(read, inaccessiblemem: none) uwtable
define internal range(i32 -1, 2) i32 @bcmp(ptr nocapture noundef readonly %0, ptr nocapture noundef readonly %1, i64 noundef %2) local_unnamed_addr #3 {
  %4 = icmp eq i64 %2, 0
  br i1 %4, label %20, label %5

5:                                                ; preds = %15, %3
  %6 = phi ptr [ %18, %15 ], [ %1, %3 ]
  %7 = phi ptr [ %17, %15 ], [ %0, %3 ]
  %8 = phi i64 [ %16, %15 ], [ %2, %3 ]
  %9 = load i8, ptr %7, align 1, !tbaa !15
  %10 = load i8, ptr %6, align 1, !tbaa !15
  %11 = icmp eq i8 %9, %10
  br i1 %11, label %15, label %12

12:                                               ; preds = %5
  %13 = icmp ult i8 %9, %10
  %14 = select i1 %13, i32 -1, i32 1
  br label %20

15:                                               ; preds = %5
  %16 = add i64 %8, -1
  %17 = getelementptr inbounds i8, ptr %7, i64 1
  %18 = getelementptr inbounds i8, ptr %6, i64 1
  %19 = icmp eq i64 %16, 0
  br i1 %19, label %20, label %5, !llvm.loop !34

20:                                               ; preds = %15, %12, %3
  %21 = phi i32 [ %14, %12 ], [ 0, %3 ], [ 0, %15 ]
  ret i32 %21
}

; Function Attrs: nounwind uwtable
define internal fastcc ptr @value(ptr nocapture noundef %0, i32 noundef %1) unnamed_addr #0 {
  %3 = alloca ptr, align 8
  %4 = icmp sgt i32 %1, 40
  br i1 %4, label %5, label %31

5:                                                ; preds = %2
  %6 = getelementptr inbounds i8, ptr %0, i64 16
  %7 = load ptr, ptr %6, align 8, !tbaa !11
  %8 = load ptr, ptr %7, align 8, !tbaa !12
  %9 = icmp eq ptr %8, null
  br i1 %9, label %10, label %219

10:                                               ; preds = %5
  store ptr @.str.1.8, ptr %7, align 8, !tbaa !12
  %11 = getelementptr inbounds i8, ptr %7, i64 16
  store i64 1, ptr %11, align 8, !tbaa !19
  %12 = getelementptr inbounds i8, ptr %7, i64 8
  store i64 1, ptr %12, align 8, !tbaa !20
  %13 = load ptr, ptr %0, align 8, !tbaa !5
  %14 = getelementptr inbounds i8, ptr %0, i64 8
  %15 = load ptr, ptr %14, align 8, !tbaa !10
  %16 = icmp ult ptr %13, %15
  br i1 %16, label %17, label %219

17:                                               ; preds = %27, %10
  %18 = phi i64 [ %28, %27 ], [ 1, %10 ]
  %19 = phi ptr [ %29, %27 ], [ %13, %10 ]
  %20 = load i8, ptr %19, align 1, !tbaa !15
  %21 = icmp eq i8 %20, 10
  br i1 %21, label %22, label %25

22:                                               ; preds = %17
  %23 = load i64, ptr %12, align 8, !tbaa !20
  %24 = add i64 %23, 1
  store i64 %24, ptr %12, align 8, !tbaa !20
  br label %27

25:                                               ; preds = %17
  %26 = add i64 %18, 1
  br label %27

27:                                               ; preds = %25, %22
  %28 = phi i64 [ %26, %25 ], [ 1, %22 ]
  store i64 %28, ptr %11, align 8, !tbaa !19
  %29 = getelementptr inbounds i8, ptr %19, i64 1
  %30 = icmp eq ptr %29, %15
  br i1 %30, label %219, label %17, !llvm.loop !35

31:                                               ; preds = %2
  %32 = getelementptr inbounds i8, ptr %0, i64 8
  %33 = load ptr, ptr %32, align 8, !tbaa !10
  br label %34

34:                                               ; preds = %37, %31
  %35 = phi ptr [ %38, %37 ], [ %33, %31 ]
  %36 = load i8, ptr %35, align 1, !tbaa !15
  switch i8 %36, label %39 [
    i8 32, label %37
    i8 9, label %37
    i8 10, label %37
    i8 13, label %37
  ]

37:                                               ; preds = %34, %34, %34, %34
  %38 = getelementptr inbounds i8, ptr %35, i64 1
  store ptr %38, ptr %32, align 8, !tbaa !10
  br label %34, !llvm.loop !36

39:                                               ; preds = %34
  %40 = load ptr, ptr %32, align 8, !tbaa !10
  %41 = load i8, ptr %40, align 1, !tbaa !15
  switch i8 %41, label %115 [
    i8 123, label %42
    i8 91, label %45
    i8 34, label %48
    i8 116, label %85
    i8 102, label %87
    i8 110, label %89
    i8 0, label %91
  ]

42:                                               ; preds = %39
  %43 = getelementptr inbounds i8, ptr %40, i64 1
  store ptr %43, ptr %32, align 8, !tbaa !10
  %44 = tail call fastcc ptr @group(ptr noundef %0, i32 noundef 6, i8 noundef signext 125, i32 noundef %1)
  br label %219

45:                                               ; preds = %39
  %46 = getelementptr inbounds i8, ptr %40, i64 1
  store ptr %46, ptr %32, align 8, !tbaa !10
  %47 = tail call fastcc ptr @group(ptr noundef %0, i32 noundef 5, i8 noundef signext 93, i32 noundef %1)
  br label %219

48:                                               ; preds = %39
  %49 = getelementptr inbounds i8, ptr %40, i64 1
  store ptr %49, ptr %32, align 8, !tbaa !10
  %50 = tail call dereferenceable_or_null(48) ptr @__sized_calloc(i64 noundef 1, i64 noundef 48) #21
  %51 = icmp eq ptr %50, null
  br i1 %51, label %52, label %76

52:                                               ; preds = %48
  %53 = getelementptr inbounds i8, ptr %0, i64 16
  %54 = load ptr, ptr %53, align 8, !tbaa !11
  %55 = load ptr, ptr %54, align 8, !tbaa !12
  %56 = icmp eq ptr %55, null
  br i1 %56, label %57, label %77

57:                                               ; preds = %52
  store ptr @.str.9, ptr %54, align 8, !tbaa !12
  %58 = getelementptr inbounds i8, ptr %54, i64 16
  store i64 1, ptr %58, align 8, !tbaa !19
  %59 = getelementptr inbounds i8, ptr %54, i64 8
  store i64 1, ptr %59, align 8, !tbaa !20
  %60 = load ptr, ptr %0, align 8, !tbaa !5
  %61 = icmp ult ptr %60, %49
  br i1 %61, label %62, label %77

62:                                               ; preds = %72, %57
  %63 = phi i64 [ %73, %72 ], [ 1, %57 ]
  %64 = phi ptr [ %74, %72 ], [ %60, %57 ]
  %65 = load i8, ptr %64, align 1, !tbaa !15
  %66 = icmp eq i8 %65, 10
  br i1 %66, label %67, label %70

67:                                               ; preds = %62
  %68 = load i64, ptr %59, align 8, !tbaa !20
  %69 = add i64 %68, 1
  store i64 %69, ptr %59, align 8, !tbaa !20
  br label %72

70:                                               ; preds = %62
  %71 = add i64 %63, 1
  br label %72

72:                                               ; preds = %70, %67
  %73 = phi i64 [ %71, %70 ], [ 1, %67 ]
  store i64 %73, ptr %58, align 8, !tbaa !19
  %74 = getelementptr inbounds i8, ptr %64, i64 1
  %75 = icmp eq ptr %64, %40
  br i1 %75, label %77, label %62, !llvm.loop !37

76:                                               ; preds = %48
  store i32 4, ptr %50, align 8, !tbaa !25
  br label %77

77:                                               ; preds = %76, %72, %57, %52
  %78 = phi ptr [ %50, %76 ], [ null, %52 ], [ null, %57 ], [ null, %72 ]
  %79 = icmp eq ptr %78, null
  br i1 %79, label %219, label %80

80:                                               ; preds = %77
  %81 = tail call fastcc ptr @string(ptr noundef %0)
  %82 = getelementptr inbounds i8, ptr %78, i64 16
  store ptr %81, ptr %82, align 8, !tbaa !38
  %83 = icmp eq ptr %81, null
  br i1 %83, label %84, label %219

84:                                               ; preds = %80
  tail call fastcc void @json_free(ptr noundef nonnull %78)
  br label %219

85:                                               ; preds = %39
  %86 = tail call fastcc ptr @word(ptr noundef %0, ptr noundef nonnull @.str.3.28, i32 noundef 2)
  br label %219

87:                                               ; preds = %39
  %88 = tail call fastcc ptr @word(ptr noundef %0, ptr noundef nonnull @.str.2.27, i32 noundef 1)
  br label %219

89:                                               ; preds = %39
  %90 = tail call fastcc ptr @word(ptr noundef %0, ptr noundef nonnull @.str.1.26, i32 noundef 0)
  br label %219

91:                                               ; preds = %39
  %92 = getelementptr inbounds i8, ptr %0, i64 16
  %93 = load ptr, ptr %92, align 8, !tbaa !11
  %94 = load ptr, ptr %93, align 8, !tbaa !12
  %95 = icmp eq ptr %94, null
  br i1 %95, label %96, label %219

96:                                               ; preds = %91
  store ptr @.str.5.12, ptr %93, align 8, !tbaa !12
  %97 = getelementptr inbounds i8, ptr %93, i64 16
  store i64 1, ptr %97, align 8, !tbaa !19
  %98 = getelementptr inbounds i8, ptr %93, i64 8
  store i64 1, ptr %98, align 8, !tbaa !20
  %99 = load ptr, ptr %0, align 8, !tbaa !5
  %100 = icmp ult ptr %99, %40
  br i1 %100, label %101, label %219

101:                                              ; preds = %111, %96
  %102 = phi i64 [ %112, %111 ], [ 1, %96 ]
  %103 = phi ptr [ %113, %111 ], [ %99, %96 ]
  %104 = load i8, ptr %103, align 1, !tbaa !15
  %105 = icmp eq i8 %104, 10
  br i1 %105, label %106, label %109

106:                                              ; preds = %101
  %107 = load i64, ptr %98, align 8, !tbaa !20
  %108 = add i64 %107, 1
  store i64 %108, ptr %98, align 8, !tbaa !20
  br label %111

109:                                              ; preds = %101
  %110 = add i64 %102, 1
  br label %111

111:                                              ; preds = %109, %106
  %112 = phi i64 [ %110, %109 ], [ 1, %106 ]
  store i64 %112, ptr %97, align 8, !tbaa !19
  %113 = getelementptr inbounds i8, ptr %103, i64 1
  %114 = icmp eq ptr %113, %40
  br i1 %114, label %219, label %101, !llvm.loop !39

115:                                              ; preds = %39
  call void @llvm.lifetime.start.p0(i64 8, ptr nonnull %3) #17
  %116 = icmp eq i8 %41, 45
  %117 = zext i1 %116 to i64
  %118 = getelementptr inbounds i8, ptr %40, i64 %117
  %119 = load i8, ptr %118, align 1, !tbaa !15
  %120 = zext i8 %119 to i32
  %121 = add nsw i32 %120, -48
  %122 = icmp ult i32 %121, 10
  br i1 %122, label %123, label %131

123:                                              ; preds = %115
  %124 = icmp eq i8 %119, 48
  br i1 %124, label %125, label %155

125:                                              ; preds = %123
  %126 = getelementptr inbounds i8, ptr %118, i64 1
  %127 = load i8, ptr %126, align 1, !tbaa !15
  %128 = zext i8 %127 to i32
  %129 = add nsw i32 %128, -48
  %130 = icmp ult i32 %129, 10
  br i1 %130, label %131, label %155

131:                                              ; preds = %125, %115
  %132 = getelementptr inbounds i8, ptr %0, i64 16
  %133 = load ptr, ptr %132, align 8, !tbaa !11
  %134 = load ptr, ptr %133, align 8, !tbaa !12
  %135 = icmp eq ptr %134, null
  br i1 %135, label %136, label %217

136:                                              ; preds = %131
  store ptr @.str.14, ptr %133, align 8, !tbaa !12
  %137 = getelementptr inbounds i8, ptr %133, i64 16
  store i64 1, ptr %137, align 8, !tbaa !19
  %138 = getelementptr inbounds i8, ptr %133, i64 8
  store i64 1, ptr %138, align 8, !tbaa !20
  %139 = load ptr, ptr %0, align 8, !tbaa !5
  %140 = icmp ult ptr %139, %40
  br i1 %140, label %141, label %217

141:                                              ; preds = %151, %136
  %142 = phi i64 [ %152, %151 ], [ 1, %136 ]
  %143 = phi ptr [ %153, %151 ], [ %139, %136 ]
  %144 = load i8, ptr %143, align 1, !tbaa !15
  %145 = icmp eq i8 %144, 10
  br i1 %145, label %146, label %149

146:                                              ; preds = %141
  %147 = load i64, ptr %138, align 8, !tbaa !20
  %148 = add i64 %147, 1
  store i64 %148, ptr %138, align 8, !tbaa !20
  br label %151

149:                                              ; preds = %141
  %150 = add i64 %142, 1
  br label %151

151:                                              ; preds = %149, %146
  %152 = phi i64 [ %150, %149 ], [ 1, %146 ]
  store i64 %152, ptr %137, align 8, !tbaa !19
  %153 = getelementptr inbounds i8, ptr %143, i64 1
  %154 = icmp eq ptr %153, %40
  br i1 %154, label %217, label %141, !llvm.loop !40

155:                                              ; preds = %125, %123
  %156 = call i64 @strtoll(ptr noundef nonnull %40, ptr noundef nonnull %3, i32 noundef 10)
  %157 = load ptr, ptr %3, align 8, !tbaa !41
  %158 = load i8, ptr %157, align 1, !tbaa !15
  switch i8 %158, label %184 [
    i8 46, label %159
    i8 101, label %159
    i8 69, label %159
  ]

159:                                              ; preds = %155, %155, %155
  %160 = getelementptr inbounds i8, ptr %0, i64 16
  %161 = load ptr, ptr %160, align 8, !tbaa !11
  %162 = load ptr, ptr %161, align 8, !tbaa !12
  %163 = icmp eq ptr %162, null
  br i1 %163, label %164, label %217

164:                                              ; preds = %159
  store ptr @.str.15, ptr %161, align 8, !tbaa !12
  %165 = getelementptr inbounds i8, ptr %161, i64 16
  store i64 1, ptr %165, align 8, !tbaa !19
  %166 = getelementptr inbounds i8, ptr %161, i64 8
  store i64 1, ptr %166, align 8, !tbaa !20
  %167 = load ptr, ptr %0, align 8, !tbaa !5
  %168 = load ptr, ptr %32, align 8, !tbaa !10
  %169 = icmp ult ptr %167, %168
  br i1 %169, label %170, label %217

170:                                              ; preds = %180, %164
  %171 = phi i64 [ %181, %180 ], [ 1, %164 ]
  %172 = phi ptr [ %182, %180 ], [ %167, %164 ]
  %173 = load i8, ptr %172, align 1, !tbaa !15
  %174 = icmp eq i8 %173, 10
  br i1 %174, label %175, label %178

175:                                              ; preds = %170
  %176 = load i64, ptr %166, align 8, !tbaa !20
  %177 = add i64 %176, 1
  store i64 %177, ptr %166, align 8, !tbaa !20
  br label %180

178:                                              ; preds = %170
  %179 = add i64 %171, 1
  br label %180

180:                                              ; preds = %178, %175
  %181 = phi i64 [ %179, %178 ], [ 1, %175 ]
  store i64 %181, ptr %165, align 8, !tbaa !19
  %182 = getelementptr inbounds i8, ptr %172, i64 1
  %183 = icmp eq ptr %182, %168
  br i1 %183, label %217, label %170, !llvm.loop !42

184:                                              ; preds = %155
  store ptr %157, ptr %32, align 8, !tbaa !10
  %185 = tail call dereferenceable_or_null(48) ptr @__sized_calloc(i64 noundef 1, i64 noundef 48) #21
  %186 = icmp eq ptr %185, null
  br i1 %186, label %187, label %211

187:                                              ; preds = %184
  %188 = getelementptr inbounds i8, ptr %0, i64 16
  %189 = load ptr, ptr %188, align 8, !tbaa !11
  %190 = load ptr, ptr %189, align 8, !tbaa !12
  %191 = icmp eq ptr %190, null
  br i1 %191, label %192, label %212

192:                                              ; preds = %187
  store ptr @.str.9, ptr %189, align 8, !tbaa !12
  %193 = getelementptr inbounds i8, ptr %189, i64 16
  store i64 1, ptr %193, align 8, !tbaa !19
  %194 = getelementptr inbounds i8, ptr %189, i64 8
  store i64 1, ptr %194, align 8, !tbaa !20
  %195 = load ptr, ptr %0, align 8, !tbaa !5
  %196 = icmp ult ptr %195, %157
  br i1 %196, label %197, label %212

197:                                              ; preds = %207, %192
  %198 = phi i64 [ %208, %207 ], [ 1, %192 ]
  %199 = phi ptr [ %209, %207 ], [ %195, %192 ]
  %200 = load i8, ptr %199, align 1, !tbaa !15
  %201 = icmp eq i8 %200, 10
  br i1 %201, label %202, label %205

202:                                              ; preds = %197
  %203 = load i64, ptr %194, align 8, !tbaa !20
  %204 = add i64 %203, 1
  store i64 %204, ptr %194, align 8, !tbaa !20
  br label %207

205:                                              ; preds = %197
  %206 = add i64 %198, 1
  br label %207

207:                                              ; preds = %205, %202
  %208 = phi i64 [ %206, %205 ], [ 1, %202 ]
  store i64 %208, ptr %193, align 8, !tbaa !19
  %209 = getelementptr inbounds i8, ptr %199, i64 1
  %210 = icmp eq ptr %209, %157
  br i1 %210, label %212, label %197, !llvm.loop !43

211:                                              ; preds = %184
  store i32 3, ptr %185, align 8, !tbaa !25
  br label %212

212:                                              ; preds = %211, %207, %192, %187
  %213 = phi ptr [ %185, %211 ], [ null, %187 ], [ null, %192 ], [ null, %207 ]
  %214 = icmp eq ptr %213, null
  br i1 %214, label %217, label %215

215:                                              ; preds = %212
  %216 = getelementptr inbounds i8, ptr %213, i64 8
  store i64 %156, ptr %216, align 8, !tbaa !44
  br label %217

217:                                              ; preds = %215, %212, %180, %164, %159, %151, %136, %131
  %218 = phi ptr [ %213, %215 ], [ %213, %212 ], [ null, %131 ], [ null, %136 ], [ null, %159 ], [ null, %164 ], [ null, %151 ], [ null, %180 ]
  call void @llvm.lifetime.end.p0(i64 8, ptr nonnull %3) #17
  br label %219

219:                                              ; preds = %217, %111, %96, %91, %89, %87, %85, %84, %80, %77, %45, %42, %27, %10, %5
  %220 = phi ptr [ %218, %217 ], [ %90, %89 ], [ %88, %87 ], [ %86, %85 ], [ %47, %45 ], [ %44, %42 ], [ %78, %80 ], [ null, %84 ], [ null, %77 ], [ null, %5 ], [ null, %10 ], [ null, %91 ], [ null, %96 ], [ null, %27 ], [ null, %111 ]
  ret ptr %220
}

; Function Attrs: nounwind uwtable
define internal fastcc void @json_free(ptr noundef %0) unnamed_addr #0 {
  %2 = icmp eq ptr %0, null
  br i1 %2, label %14, label %3

3:                                                ; preds = %3, %1
  %4 = phi ptr [ %6, %3 ], [ %0, %1 ]
  %5 = getelementptr inbounds i8, ptr %4, i64 40
  %6 = load ptr, ptr %5, align 8, !tbaa !26
  %7 = getelementptr inbounds i8, ptr %4, i64 32
  %8 = load ptr, ptr %7, align 8, !tbaa !22
  tail call fastcc void @json_free(ptr noundef %8)
  %9 = getelementptr inbounds i8, ptr %4, i64 16
  %10 = load ptr, ptr %9, align 8, !tbaa !38
  tail call void @__sized_free(ptr noundef %10)
  %11 = getelementptr inbounds i8, ptr %4, i64 24
  %12 = load ptr, ptr %11, align 8, !tbaa !28
  tail call void @__sized_free(ptr noundef %12)
  tail call void @__sized_free(ptr noundef %4)
  %13 = icmp eq ptr %6, null
  br i1 %13, label %14, label %3, !llvm.loop !45

14:                                               ; preds = %3, %1
  ret void
}

; Function Attrs: nocallback nofree nosync nounwind willreturn memory(argmem: readwrite)
declare void @llvm.lifetime.end.p0(i64 immarg, ptr nocapture) #1

; Function Attrs: nounwind optsize uwtable
define internal noundef i32 @__print_text(ptr nocapture noundef %0, ptr nocapture noundef readonly %1, i64 noundef %2) local_unnamed_addr #2 {
  %4 = load i8, ptr %0, align 8, !tbaa !46, !alias.scope !48, !noalias !51
  %5 = icmp eq i8 %4, 0
  %6 = icmp eq i64 %2, 0
  %7 = or i1 %6, %5
  br i1 %7, label %16, label %8

8:                                                ; preds = %8, %3
  %9 = phi i64 [ %14, %8 ], [ 0, %3 ]
  %10 = getelementptr inbounds i8, ptr %1, i64 %9
  %11 = load i8, ptr %10, align 1, !tbaa !15, !alias.scope !51, !noalias !48
  %12 = zext i8 %11 to i32
  %13 = tail call i32 @fputc(i32 noundef %12, ptr noundef nonnull %0) #20, !noalias !51
  %14 = add nuw i64 %9, 1
  %15 = icmp eq i64 %14, %2
  br i1 %15, label %16, label %8, !llvm.loop !53

16:                                               ; preds = %8, %3
  %17 = trunc i64 %2 to i32
  ret i32 %17
}

; Function Attrs: nounwind optsize uwtable
define internal i32 @__print_unsigned(ptr nocapture noundef %0, i64 noundef %1, i32 noundef %2, i32 noundef %3, i32 noundef %4, i32 noundef %5) local_unnamed_addr #2 {
  %7 = alloca [24 x i8], align 16
  call void @llvm.lifetime.start.p0(i64 24, ptr nonnull %7) #17
  %8 = and i32 %3, 32
  %9 = icmp eq i32 %8, 0
  %10 = select i1 %9, ptr @.str.9.22, ptr @.str.8.28
  %11 = icmp ult i64 %1, 4294967296
  br i1 %11, label %14, label %12

12:                                               ; preds = %6
  %13 = zext i32 %2 to i64
  br label %29

14:                                               ; preds = %6
  %15 = icmp eq i64 %1, 0
  br i1 %15, label %39, label %16

16:                                               ; preds = %14
  %17 = trunc nuw i64 %1 to i32
  br label %18

18:                                               ; preds = %18, %16
  %19 = phi i32 [ %27, %18 ], [ %17, %16 ]
  %20 = phi i64 [ %25, %18 ], [ 24, %16 ]
  %21 = urem i32 %19, %2
  %22 = zext i32 %21 to i64
  %23 = getelementptr inbounds i8, ptr %10, i64 %22
  %24 = load i8, ptr %23, align 1, !tbaa !15
  %25 = add nsw i64 %20, -1
  %26 = getelementptr inbounds i8, ptr %7, i64 %25
  store i8 %24, ptr %26, align 1, !tbaa !15
  %27 = udiv i32 %19, %2
  %28 = icmp ult i32 %19, %2
  br i1 %28, label %39, label %18, !llvm.loop !54

29:                                               ; preds = %29, %12
  %30 = phi i64 [ 24, %12 ], [ %35, %29 ]
  %31 = phi i64 [ %1, %12 ], [ %37, %29 ]
  %32 = urem i64 %31, %13
  %33 = getelementptr inbounds i8, ptr %10, i64 %32
  %34 = load i8, ptr %33, align 1, !tbaa !15
  %35 = add nsw i64 %30, -1
  %36 = getelementptr inbounds i8, ptr %7, i64 %35
  store i8 %34, ptr %36, align 1, !tbaa !15
  %37 = udiv i64 %31, %13
  %38 = icmp ult i64 %31, %13
  br i1 %38, label %39, label %29, !llvm.loop !55

39:                                               ; preds = %29, %18, %14
  %40 = phi i64 [ 24, %14 ], [ %25, %18 ], [ %35, %29 ]
  %41 = icmp eq i64 %1, 0
  %42 = icmp ne i32 %5, 0
  %43 = and i1 %41, %42
  br i1 %43, label %44, label %47

44:                                               ; preds = %39
  %45 = add nsw i64 %40, -1
  %46 = getelementptr inbounds i8, ptr %7, i64 %45
  store i8 48, ptr %46, align 1, !tbaa !15
  br label %47

47:                                               ; preds = %44, %39
  %48 = phi i64 [ %45, %44 ], [ %40, %39 ]
  %49 = getelementptr inbounds i8, ptr %7, i64 %48
  %50 = and i32 %3, 8
  %51 = icmp ne i32 %50, 0
  %52 = icmp eq i32 %2, 8
  %53 = and i1 %52, %51
  br i1 %53, label %54, label %65

54:                                               ; preds = %47
  %55 = sub nsw i64 24, %48
  %56 = sext i32 %5 to i64
  %57 = icmp slt i64 %55, %56
  br i1 %57, label %65, label %58

58:                                               ; preds = %54
  %59 = icmp eq i64 %48, 24
  br i1 %59, label %63, label %60

60:                                               ; preds = %58
  %61 = load i8, ptr %49, align 1, !tbaa !15
  %62 = icmp eq i8 %61, 48
  br i1 %62, label %65, label %63

63:                                               ; preds = %60, %58
  %64 = getelementptr inbounds i8, ptr %49, i64 -1
  store i8 48, ptr %64, align 1, !tbaa !15
  br label %65

65:                                               ; preds = %63, %60, %54, %47
  %66 = phi ptr [ %64, %63 ], [ %49, %60 ], [ %49, %54 ], [ %49, %47 ]
  %67 = getelementptr inbounds i8, ptr %7, i64 24
  %68 = icmp eq i32 %2, 16
  %69 = icmp ne i64 %1, 0
  %70 = and i1 %69, %68
  %71 = and i1 %70, %51
  %72 = select i1 %9, ptr @.str.6.29, ptr @.str.5.31
  %73 = select i1 %71, ptr %72, ptr @.str.17
  %74 = ptrtoint ptr %67 to i64
  %75 = ptrtoint ptr %66 to i64
  %76 = sub i64 %74, %75
  %77 = trunc i64 %76 to i32
  %78 = call fastcc i32 @number(ptr noundef %0, ptr noundef nonnull %73, ptr noundef nonnull %66, i32 noundef %77, i32 noundef %3, i32 noundef %4, i32 noundef %5) #20
  call void @llvm.lifetime.end.p0(i64 24, ptr nonnull %7) #17
  ret i32 %78
}

; Function Attrs: nounwind optsize uwtable
define internal i32 @__print_string(ptr nocapture noundef %0, ptr noundef %1, i32 noundef %2, i32 noundef %3, i32 noundef %4) local_unnamed_addr #2 {
  %6 = icmp eq ptr %1, null
  %7 = icmp ult i32 %4, 6
  %8 = select i1 %7, ptr @.str.17, ptr @.str.1
  %9 = select i1 %6, ptr %8, ptr %1
  %10 = icmp slt i32 %4, 0
  br i1 %10, label %11, label %20

11:                                               ; preds = %11, %5
  %12 = phi ptr [ %15, %11 ], [ %9, %5 ]
  %13 = load i8, ptr %12, align 1, !tbaa !15
  %14 = icmp eq i8 %13, 0
  %15 = getelementptr inbounds i8, ptr %12, i64 1
  br i1 %14, label %16, label %11, !llvm.loop !56

16:                                               ; preds = %11
  %17 = ptrtoint ptr %12 to i64
  %18 = ptrtoint ptr %9 to i64
  %19 = sub i64 %17, %18
  br label %31

20:                                               ; preds = %5
  %21 = zext nneg i32 %4 to i64
  %22 = icmp eq i32 %4, 0
  br i1 %22, label %31, label %23

23:                                               ; preds = %28, %20
  %24 = phi i64 [ %29, %28 ], [ 0, %20 ]
  %25 = getelementptr inbounds i8, ptr %9, i64 %24
  %26 = load i8, ptr %25, align 1, !tbaa !15
  %27 = icmp eq i8 %26, 0
  br i1 %27, label %31, label %28

28:                                               ; preds = %23
  %29 = add nuw nsw i64 %24, 1
  %30 = icmp eq i64 %29, %21
  br i1 %30, label %31, label %23, !llvm.loop !57

31:                                               ; preds = %28, %23, %20, %16
  %32 = phi i64 [ %19, %16 ], [ 0, %20 ], [ %24, %23 ], [ %21, %28 ]
  %33 = trunc i64 %32 to i32
  %34 = tail call fastcc i32 @padded(ptr noundef %0, ptr noundef nonnull %9, i32 noundef %33, i32 noundef %2, i32 noundef %3) #20
  ret i32 %34
}

; Function Attrs: nounwind uwtable
define internal fastcc void @json_write(ptr nocapture noundef readonly %0, i32 noundef %1) unnamed_addr #0 {
  %3 = load i32, ptr %0, align 8, !tbaa !25
  switch i32 %3, label %19 [
    i32 0, label %4
    i32 1, label %6
    i32 2, label %8
    i32 3, label %10
    i32 4, label %14
    i32 5, label %17
    i32 6, label %18
  ]

4:                                                ; preds = %2
  %5 = tail call i64 @fwrite(ptr nonnull @.str.1.26, i64 4, i64 1, ptr nonnull getelementptr inbounds (i8, ptr @__streams, i64 24))
  br label %19

6:                                                ; preds = %2
  %7 = tail call i64 @fwrite(ptr nonnull @.str.2.27, i64 5, i64 1, ptr nonnull getelementptr inbounds (i8, ptr @__streams, i64 24))
  br label %19

8:                                                ; preds = %2
  %9 = tail call i64 @fwrite(ptr nonnull @.str.3.28, i64 4, i64 1, ptr nonnull getelementptr inbounds (i8, ptr @__streams, i64 24))
  br label %19

10:                                               ; preds = %2
  %11 = getelementptr inbounds i8, ptr %0, i64 8
  %12 = load i64, ptr %11, align 8, !tbaa !44
  %13 = tail call i32 @__print_signed(ptr nonnull getelementptr inbounds (i8, ptr @__streams, i64 24), i64 %12, i32 0, i32 0, i32 -1) #17
  br label %19

14:                                               ; preds = %2
  %15 = getelementptr inbounds i8, ptr %0, i64 16
  %16 = load ptr, ptr %15, align 8, !tbaa !38
  tail call fastcc void @write_text(ptr noundef %16)
  br label %19

17:                                               ; preds = %2
  tail call fastcc void @write_group(ptr noundef nonnull %0, i32 noundef %1, ptr noundef nonnull @.str.5.30)
  br label %19

18:                                               ; preds = %2
  tail call fastcc void @write_group(ptr noundef nonnull %0, i32 noundef %1, ptr noundef nonnull @.str.6.31)
  br label %19

19:                                               ; preds = %18, %17, %14, %10, %8, %6, %4, %2
  ret void
}

; Function Attrs: nofree nosync nounwind memory(read, inaccessiblemem: none) uwtable
define internal fastcc i64 @json_count(ptr nocapture noundef readonly %0) unnamed_addr #4 {
  %2 = getelementptr inbounds i8, ptr %0, i64 32
  %3 = load ptr, ptr %2, align 8, !tbaa !41
  %4 = icmp eq ptr %3, null
  br i1 %4, label %5, label %7

5:                                                ; preds = %7, %1
  %6 = phi i64 [ 1, %1 ], [ %11, %7 ]
  ret i64 %6

7:                                                ; preds = %7, %1
  %8 = phi ptr [ %13, %7 ], [ %3, %1 ]
  %9 = phi i64 [ %11, %7 ], [ 1, %1 ]
  %10 = tail call fastcc i64 @json_count(ptr noundef nonnull %8)
  %11 = add i64 %10, %9
  %12 = getelementptr inbounds i8, ptr %8, i64 40
  %13 = load ptr, ptr %12, align 8, !tbaa !41
  %14 = icmp eq ptr %13, null
  br i1 %14, label %5, label %7, !llvm.loop !58
}

; Function Attrs: nofree nosync nounwind memory(read, inaccessiblemem: none) uwtable
define internal fastcc range(i32 -2147483647, -2147483648) i32 @json_depth(ptr nocapture noundef readonly %0) unnamed_addr #4 {
  %2 = getelementptr inbounds i8, ptr %0, i64 32
  %3 = load ptr, ptr %2, align 8, !tbaa !41
  %4 = icmp eq ptr %3, null
  br i1 %4, label %7, label %9

5:                                                ; preds = %9
  %6 = add nuw nsw i32 %13, 1
  br label %7

7:                                                ; preds = %5, %1
  %8 = phi i32 [ 1, %1 ], [ %6, %5 ]
  ret i32 %8

9:                                                ; preds = %9, %1
  %10 = phi ptr [ %15, %9 ], [ %3, %1 ]
  %11 = phi i32 [ %13, %9 ], [ 0, %1 ]
  %12 = tail call fastcc i32 @json_depth(ptr noundef nonnull %10)
  %13 = tail call i32 @llvm.smax.i32(i32 %12, i32 %11)
  %14 = getelementptr inbounds i8, ptr %10, i64 40
  %15 = load ptr, ptr %14, align 8, !tbaa !41
  %16 = icmp eq ptr %15, null
  br i1 %16, label %5, label %9, !llvm.loop !59
}

; Function Attrs: nounwind optsize uwtable
define internal i32 @__print_signed(ptr nocapture noundef %0, i64 noundef %1, i32 noundef %2, i32 noundef %3, i32 noundef %4) local_unnamed_addr #2 {
  %6 = alloca [24 x i8], align 16
  call void @llvm.lifetime.start.p0(i64 24, ptr nonnull %6) #17
  %7 = getelementptr inbounds i8, ptr %6, i64 24
  %8 = icmp slt i64 %1, 0
  %9 = lshr i64 %1, 63
  %10 = icmp ne i64 %9, 0
  %11 = sub i64 0, %1
  %12 = select i1 %10, i64 %11, i64 %1
  %13 = icmp ult i64 %12, 4294967296
  br i1 %13, label %14, label %28

14:                                               ; preds = %5
  %15 = icmp eq i64 %1, 0
  br i1 %15, label %37, label %16

16:                                               ; preds = %14
  %17 = trunc nuw i64 %12 to i32
  br label %18

18:                                               ; preds = %18, %16
  %19 = phi i32 [ %26, %18 ], [ %17, %16 ]
  %20 = phi ptr [ %25, %18 ], [ %7, %16 ]
  %21 = urem i32 %19, 10
  %22 = zext nneg i32 %21 to i64
  %23 = getelementptr inbounds i8, ptr @.str.9.22, i64 %22
  %24 = load i8, ptr %23, align 1, !tbaa !15
  %25 = getelementptr inbounds i8, ptr %20, i64 -1
  store i8 %24, ptr %25, align 1, !tbaa !15
  %26 = udiv i32 %19, 10
  %27 = icmp ult i32 %19, 10
  br i1 %27, label %37, label %18, !llvm.loop !54

28:                                               ; preds = %28, %5
  %29 = phi ptr [ %34, %28 ], [ %7, %5 ]
  %30 = phi i64 [ %35, %28 ], [ %12, %5 ]
  %31 = urem i64 %30, 10
  %32 = getelementptr inbounds i8, ptr @.str.9.22, i64 %31
  %33 = load i8, ptr %32, align 1, !tbaa !15
  %34 = getelementptr inbounds i8, ptr %29, i64 -1
  store i8 %33, ptr %34, align 1, !tbaa !15
  %35 = udiv i64 %30, 10
  %36 = icmp ult i64 %30, 10
  br i1 %36, label %37, label %28, !llvm.loop !55

37:                                               ; preds = %28, %18, %14
  %38 = phi ptr [ %7, %14 ], [ %25, %18 ], [ %34, %28 ]
  %39 = icmp eq i64 %1, 0
  %40 = icmp ne i32 %4, 0
  %41 = and i1 %39, %40
  br i1 %41, label %42, label %44

42:                                               ; preds = %37
  %43 = getelementptr inbounds i8, ptr %38, i64 -1
  store i8 48, ptr %43, align 1, !tbaa !15
  br label %45

44:                                               ; preds = %37
  br i1 %8, label %53, label %45

45:                                               ; preds = %44, %42
  %46 = phi ptr [ %43, %42 ], [ %38, %44 ]
  %47 = and i32 %2, 2
  %48 = icmp eq i32 %47, 0
  br i1 %48, label %49, label %53

49:                                               ; preds = %45
  %50 = and i32 %2, 4
  %51 = icmp eq i32 %50, 0
  %52 = select i1 %51, ptr @.str.17, ptr @.str.4.23
  br label %53

53:                                               ; preds = %49, %45, %44
  %54 = phi ptr [ %38, %44 ], [ %46, %49 ], [ %46, %45 ]
  %55 = phi ptr [ @.str.2.24, %44 ], [ %52, %49 ], [ @.str.3.25, %45 ]
  %56 = ptrtoint ptr %7 to i64
  %57 = ptrtoint ptr %54 to i64
  %58 = sub i64 %56, %57
  %59 = trunc i64 %58 to i32
  %60 = call fastcc i32 @number(ptr noundef %0, ptr noundef nonnull %55, ptr noundef nonnull %54, i32 noundef %59, i32 noundef %2, i32 noundef %3, i32 noundef %4) #20
  call void @llvm.lifetime.end.p0(i64 24, ptr nonnull %6) #17
  ret i32 %60
}

; Function Attrs: nofree norecurse nosync nounwind optsize memory(read, inaccessiblemem: none) uwtable
define internal i64 @strcspn(ptr nocapture noundef readonly %0, ptr nocapture noundef readonly %1) local_unnamed_addr #3 {
  %3 = tail call fastcc i64 @span(ptr noundef %0, ptr noundef %1, i32 noundef 0) #20
  ret i64 %3
}

; Function Attrs: nofree norecurse nosync nounwind optsize memory(readwrite, inaccessiblemem: none) uwtable
define internal i64 @strtol(ptr noalias noundef %0, ptr noalias noundef %1, i32 noundef %2) local_unnamed_addr #5 {
  %4 = alloca %struct.number, align 8
  call void @llvm.lifetime.start.p0(i64 16, ptr nonnull %4) #17
  %5 = call fastcc ptr @scan(ptr noundef nonnull %4, ptr noundef %0, ptr noundef %1, i32 noundef %2, i64 noundef 9223372036854775807, i64 noundef -9223372036854775808) #20
  %6 = getelementptr inbounds i8, ptr %4, i64 8
  %7 = load i32, ptr %6, align 8, !tbaa !60
  %8 = icmp eq i32 %7, 0
  %9 = load i64, ptr %4, align 8
  %10 = sub i64 0, %9
  %11 = select i1 %8, i64 %9, i64 %10
  call void @llvm.lifetime.end.p0(i64 16, ptr nonnull %4) #17
  ret i64 %11
}

; Function Attrs: nofree norecurse nosync nounwind optsize memory(read, inaccessiblemem: none) uwtable
define internal noundef i64 @strlen(ptr noundef %0) local_unnamed_addr #3 {
  br label %2

2:                                                ; preds = %2, %1
  %3 = phi ptr [ %0, %1 ], [ %6, %2 ]
  %4 = load i8, ptr %3, align 1, !tbaa !15
  %5 = icmp eq i8 %4, 0
  %6 = getelementptr inbounds i8, ptr %3, i64 1
  br i1 %5, label %7, label %2, !llvm.loop !56

7:                                                ; preds = %2
  %8 = ptrtoint ptr %3 to i64
  %9 = ptrtoint ptr %0 to i64
  %10 = sub i64 %8, %9
  ret i64 %10
}

; Function Attrs: nofree norecurse nosync nounwind optsize memory(read, inaccessiblemem: none) uwtable
define internal range(i32 -1, 2) i32 @strncmp(ptr nocapture noundef readonly %0, ptr nocapture noundef readonly %1, i64 noundef %2) local_unnamed_addr #3 {
  %4 = icmp eq i64 %2, 0
  br i1 %4, label %24, label %5

5:                                                ; preds = %14, %3
  %6 = phi ptr [ %16, %14 ], [ %1, %3 ]
  %7 = phi ptr [ %15, %14 ], [ %0, %3 ]
  %8 = phi i64 [ %17, %14 ], [ %2, %3 ]
  %9 = load i8, ptr %7, align 1, !tbaa !15
  %10 = icmp ne i8 %9, 0
  %11 = load i8, ptr %6, align 1, !tbaa !15
  %12 = icmp eq i8 %9, %11
  %13 = select i1 %10, i1 %12, i1 false
  br i1 %13, label %14, label %19

14:                                               ; preds = %5
  %15 = getelementptr inbounds i8, ptr %7, i64 1
  %16 = getelementptr inbounds i8, ptr %6, i64 1
  %17 = add i64 %8, -1
  %18 = icmp eq i64 %17, 0
  br i1 %18, label %24, label %5, !llvm.loop !63

19:                                               ; preds = %5
  %20 = icmp ult i8 %9, %11
  br i1 %20, label %24, label %21

21:                                               ; preds = %19
  %22 = icmp ugt i8 %9, %11
  %23 = zext i1 %22 to i32
  br label %24

24:                                               ; preds = %21, %19, %14, %3
  %25 = phi i32 [ %23, %21 ], [ -1, %19 ], [ 0, %3 ], [ 0, %14 ]
  ret i32 %25
}

; Function Attrs: nounwind optsize uwtable
define internal noundef i64 @fwrite(ptr noalias nocapture noundef readonly %0, i64 noundef %1, i64 noundef %2, ptr noalias nocapture noundef %3) local_unnamed_addr #2 {
  %5 = load i8, ptr %3, align 8, !tbaa !46
  %6 = icmp eq i8 %5, 0
  br i1 %6, label %21, label %7

7:                                                ; preds = %4
  %8 = mul i64 %2, %1
  %9 = icmp eq i64 %8, 0
  br i1 %9, label %10, label %13

10:                                               ; preds = %13, %7
  %11 = icmp eq i64 %1, 0
  %12 = select i1 %11, i64 0, i64 %2
  br label %21

13:                                               ; preds = %13, %7
  %14 = phi i64 [ %19, %13 ], [ 0, %7 ]
  %15 = getelementptr inbounds i8, ptr %0, i64 %14
  %16 = load i8, ptr %15, align 1, !tbaa !15
  %17 = zext i8 %16 to i32
  %18 = tail call i32 @fputc(i32 noundef %17, ptr noundef nonnull %3) #20
  %19 = add nuw i64 %14, 1
  %20 = icmp eq i64 %19, %8
  br i1 %20, label %10, label %13, !llvm.loop !53

21:                                               ; preds = %10, %4
  %22 = phi i64 [ %12, %10 ], [ 0, %4 ]
  ret i64 %22
}

; Function Attrs: nofree nounwind
declare dso_local noundef i32 @putchar(i32 noundef) local_unnamed_addr #6

; Function Attrs: nofree norecurse nosync nounwind optsize uwtable
define internal noundef ptr @strncpy(ptr noalias noundef returned %0, ptr noalias nocapture noundef readonly %1, i64 noundef %2) local_unnamed_addr #7 {
  %4 = tail call ptr @stpncpy(ptr noundef %0, ptr noundef %1, i64 noundef %2) #20
  ret ptr %0
}

; Function Attrs: nounwind optsize uwtable
define internal ptr @realloc(ptr noundef %0, i64 noundef %1) local_unnamed_addr #2 {
  %3 = icmp eq ptr %0, null
  br i1 %3, label %4, label %6

4:                                                ; preds = %2
  %5 = tail call ptr @__sized_malloc(i64 noundef %1) #20
  br label %28

6:                                                ; preds = %2
  %7 = icmp eq i64 %1, 0
  br i1 %7, label %8, label %9

8:                                                ; preds = %6
  tail call void @__sized_free(ptr noundef nonnull %0) #20
  br label %28

9:                                                ; preds = %6
  %10 = tail call ptr @__sized_malloc(i64 noundef %1) #20
  %11 = icmp eq ptr %10, null
  br i1 %11, label %28, label %12

12:                                               ; preds = %9
  %13 = getelementptr inbounds i8, ptr %0, i64 -16
  %14 = load i64, ptr %13, align 8, !tbaa !64
  %15 = icmp eq i64 %14, 0
  br i1 %15, label %27, label %16

16:                                               ; preds = %12
  %17 = tail call i64 @llvm.umin.i64(i64 %14, i64 %1)
  br label %18

18:                                               ; preds = %18, %16
  %19 = phi ptr [ %23, %18 ], [ %0, %16 ]
  %20 = phi ptr [ %25, %18 ], [ %10, %16 ]
  %21 = phi i64 [ %22, %18 ], [ %17, %16 ]
  %22 = add i64 %21, -1
  %23 = getelementptr inbounds i8, ptr %19, i64 1
  %24 = load i8, ptr %19, align 1, !tbaa !15, !alias.scope !65, !noalias !68
  %25 = getelementptr inbounds i8, ptr %20, i64 1
  store i8 %24, ptr %20, align 1, !tbaa !15, !alias.scope !68, !noalias !65
  %26 = icmp eq i64 %22, 0
  br i1 %26, label %27, label %18, !llvm.loop !70

27:                                               ; preds = %18, %12
  tail call void @__sized_free(ptr noundef nonnull %0) #20
  br label %28

28:                                               ; preds = %27, %9, %8, %4
  %29 = phi ptr [ null, %8 ], [ %5, %4 ], [ %10, %27 ], [ null, %9 ]
  ret ptr %29
}

; Function Attrs: noreturn
declare dso_local void @exit(i32 noundef) local_unnamed_addr #8

; Function Attrs: nocallback nofree nounwind willreturn memory(argmem: readwrite)
declare void @llvm.memcpy.p0.p0.i64(ptr noalias nocapture writeonly, ptr noalias nocapture readonly, i64, i1 immarg) #9

; Function Attrs: noinline nounwind optsize uwtable
define internal void @__sized_free(ptr noundef %0) local_unnamed_addr #10 {
  %2 = icmp eq ptr %0, null
  br i1 %2, label %5, label %3

3:                                                ; preds = %1
  %4 = getelementptr inbounds i8, ptr %0, i64 -16
  tail call void @free(ptr noundef nonnull %4) #22
  br label %5

5:                                                ; preds = %3, %1
  ret void
}

; Function Attrs: mustprogress nounwind willreturn allockind("free") memory(argmem: readwrite, inaccessiblemem: readwrite)
declare dso_local void @free(ptr allocptr nocapture noundef) local_unnamed_addr #11

; Function Attrs: noinline nounwind optsize uwtable
define internal ptr @__sized_malloc(i64 noundef %0) local_unnamed_addr #10 {
  %2 = icmp ult i64 %0, -16
  br i1 %2, label %3, label %9

3:                                                ; preds = %1
  %4 = add nuw i64 %0, 16
  %5 = tail call ptr @malloc(i64 noundef %4) #22
  %6 = icmp eq ptr %5, null
  br i1 %6, label %9, label %7

7:                                                ; preds = %3
  %8 = getelementptr inbounds i8, ptr %5, i64 16
  store i64 %0, ptr %5, align 8, !tbaa !64
  br label %9

9:                                                ; preds = %7, %3, %1
  %10 = phi ptr [ %8, %7 ], [ null, %3 ], [ null, %1 ]
  ret ptr %10
}

; Function Attrs: nocallback nofree nosync nounwind speculatable willreturn memory(none)
declare i64 @llvm.umin.i64(i64, i64) #12

; Function Attrs: mustprogress nofree nounwind willreturn allockind("alloc,uninitialized") allocsize(0) memory(inaccessiblemem: readwrite)
declare dso_local noalias noundef ptr @malloc(i64 noundef) local_unnamed_addr #13

; Function Attrs: nofree norecurse nosync nounwind optsize uwtable
define internal ptr @stpncpy(ptr noalias noundef writeonly %0, ptr noalias nocapture noundef readonly %1, i64 noundef %2) local_unnamed_addr #7 {
  %4 = icmp eq i64 %2, 0
  br i1 %4, label %26, label %5

5:                                                ; preds = %10, %3
  %6 = phi i64 [ %11, %10 ], [ 0, %3 ]
  %7 = getelementptr inbounds i8, ptr %1, i64 %6
  %8 = load i8, ptr %7, align 1, !tbaa !15
  %9 = icmp eq i8 %8, 0
  br i1 %9, label %13, label %10

10:                                               ; preds = %5
  %11 = add nuw i64 %6, 1
  %12 = icmp eq i64 %11, %2
  br i1 %12, label %15, label %5, !llvm.loop !57

13:                                               ; preds = %5
  %14 = icmp eq i64 %6, 0
  br i1 %14, label %26, label %15

15:                                               ; preds = %13, %10
  %16 = phi i64 [ %6, %13 ], [ %2, %10 ]
  br label %17

17:                                               ; preds = %17, %15
  %18 = phi ptr [ %22, %17 ], [ %1, %15 ]
  %19 = phi ptr [ %24, %17 ], [ %0, %15 ]
  %20 = phi i64 [ %21, %17 ], [ %16, %15 ]
  %21 = add i64 %20, -1
  %22 = getelementptr inbounds i8, ptr %18, i64 1
  %23 = load i8, ptr %18, align 1, !tbaa !15, !alias.scope !71, !noalias !74
  %24 = getelementptr inbounds i8, ptr %19, i64 1
  store i8 %23, ptr %19, align 1, !tbaa !15, !alias.scope !74, !noalias !71
  %25 = icmp eq i64 %21, 0
  br i1 %25, label %26, label %17, !llvm.loop !70

26:                                               ; preds = %17, %13, %3
  %27 = phi i64 [ 0, %13 ], [ 0, %3 ], [ %16, %17 ]
  %28 = getelementptr inbounds i8, ptr %0, i64 %27
  %29 = sub i64 %2, %27
  %30 = icmp eq i64 %29, 0
  br i1 %30, label %37, label %31

31:                                               ; preds = %31, %26
  %32 = phi ptr [ %35, %31 ], [ %28, %26 ]
  %33 = phi i64 [ %34, %31 ], [ %29, %26 ]
  %34 = add i64 %33, -1
  %35 = getelementptr inbounds i8, ptr %32, i64 1
  store i8 0, ptr %32, align 1, !tbaa !15
  %36 = icmp eq i64 %34, 0
  br i1 %36, label %37, label %31, !llvm.loop !76

37:                                               ; preds = %31, %26
  ret ptr %28
}

; Function Attrs: nounwind optsize uwtable
define internal range(i32 -1, 256) i32 @fputc(i32 noundef %0, ptr nocapture noundef %1) local_unnamed_addr #2 {
  %3 = load i8, ptr %1, align 8, !tbaa !46
  switch i8 %3, label %17 [
    i8 1, label %4
    i8 3, label %6
    i8 0, label %19
  ]

4:                                                ; preds = %2
  %5 = tail call i32 @putchar(i32 noundef %0) #22
  br label %17

6:                                                ; preds = %2
  %7 = getelementptr inbounds i8, ptr %1, i64 16
  %8 = load i64, ptr %7, align 8, !tbaa !77
  %9 = icmp eq i64 %8, 0
  br i1 %9, label %17, label %10

10:                                               ; preds = %6
  %11 = trunc i32 %0 to i8
  %12 = getelementptr inbounds i8, ptr %1, i64 8
  %13 = load ptr, ptr %12, align 8, !tbaa !78
  %14 = getelementptr inbounds i8, ptr %13, i64 1
  store ptr %14, ptr %12, align 8, !tbaa !78
  store i8 %11, ptr %13, align 1, !tbaa !15
  %15 = load i64, ptr %7, align 8, !tbaa !77
  %16 = add i64 %15, -1
  store i64 %16, ptr %7, align 8, !tbaa !77
  br label %17

17:                                               ; preds = %10, %6, %4, %2
  %18 = and i32 %0, 255
  br label %19

19:                                               ; preds = %17, %2
  %20 = phi i32 [ %18, %17 ], [ -1, %2 ]
  ret i32 %20
}

; Function Attrs: nofree norecurse nosync nounwind optsize memory(readwrite, inaccessiblemem: none) uwtable
define internal fastcc noundef ptr @scan(ptr noundef returned writeonly %0, ptr noundef %1, ptr noundef writeonly %2, i32 noundef %3, i64 noundef %4, i64 noundef %5) unnamed_addr #5 {
  store i64 0, ptr %0, align 8, !tbaa !79
  %7 = getelementptr inbounds i8, ptr %0, i64 8
  store i32 0, ptr %7, align 8, !tbaa !60
  %8 = getelementptr inbounds i8, ptr %0, i64 12
  store i32 0, ptr %8, align 4, !tbaa !80
  %9 = icmp eq i32 %3, 1
  %10 = icmp ugt i32 %3, 36
  %11 = or i1 %10, %9
  br i1 %11, label %12, label %13

12:                                               ; preds = %6
  store i32 22, ptr @errno, align 4, !tbaa !81
  br label %130

13:                                               ; preds = %6
  %14 = icmp eq ptr %2, null
  br i1 %14, label %16, label %15

15:                                               ; preds = %13
  store ptr %1, ptr %2, align 8, !tbaa !41
  br label %16

16:                                               ; preds = %15, %13
  br label %17

17:                                               ; preds = %17, %16
  %18 = phi ptr [ %25, %17 ], [ %1, %16 ]
  %19 = load i8, ptr %18, align 1, !tbaa !15
  %20 = zext i8 %19 to i32
  %21 = icmp ne i8 %19, 32
  %22 = add nsw i32 %20, -14
  %23 = icmp ult i32 %22, -5
  %24 = and i1 %21, %23
  %25 = getelementptr inbounds i8, ptr %18, i64 1
  br i1 %24, label %26, label %17, !llvm.loop !82

26:                                               ; preds = %17
  switch i8 %19, label %31 [
    i8 45, label %27
    i8 43, label %27
  ]

27:                                               ; preds = %26, %26
  %28 = icmp eq i8 %19, 45
  %29 = zext i1 %28 to i32
  store i32 %29, ptr %7, align 8, !tbaa !60
  %30 = select i1 %28, i64 %5, i64 %4
  br label %31

31:                                               ; preds = %27, %26
  %32 = phi i64 [ %30, %27 ], [ %4, %26 ]
  %33 = phi ptr [ %25, %27 ], [ %18, %26 ]
  %34 = icmp ne i32 %3, 0
  switch i32 %3, label %66 [
    i32 16, label %35
    i32 0, label %35
  ]

35:                                               ; preds = %31, %31
  %36 = load i8, ptr %33, align 1, !tbaa !15
  %37 = icmp eq i8 %36, 48
  br i1 %37, label %38, label %63

38:                                               ; preds = %35
  %39 = getelementptr inbounds i8, ptr %33, i64 1
  %40 = load i8, ptr %39, align 1, !tbaa !15
  switch i8 %40, label %63 [
    i8 120, label %41
    i8 88, label %41
  ]

41:                                               ; preds = %38, %38
  %42 = getelementptr inbounds i8, ptr %33, i64 2
  %43 = load i8, ptr %42, align 1, !tbaa !15
  %44 = zext i8 %43 to i32
  %45 = add nsw i32 %44, -58
  %46 = icmp ult i32 %45, -10
  br i1 %46, label %47, label %66

47:                                               ; preds = %41
  %48 = and i32 %44, 223
  %49 = add nsw i32 %48, -91
  %50 = icmp ult i32 %49, -26
  br i1 %50, label %51, label %52

51:                                               ; preds = %47
  br i1 %34, label %66, label %64

52:                                               ; preds = %47
  %53 = add nsw i32 %44, -91
  %54 = icmp ult i32 %53, -26
  %55 = add nuw nsw i32 %44, 32
  %56 = select i1 %54, i32 %44, i32 %55
  %57 = freeze i32 %56
  %58 = add i32 %57, -87
  %59 = icmp ult i32 %58, 16
  %60 = or i1 %34, %59
  %61 = select i1 %59, ptr %42, ptr %33
  %62 = select i1 %59, i32 16, i32 %3
  br i1 %60, label %66, label %64

63:                                               ; preds = %38, %35
  br i1 %34, label %66, label %64

64:                                               ; preds = %63, %52, %51
  %65 = select i1 %37, i32 8, i32 10
  br label %66

66:                                               ; preds = %64, %63, %52, %51, %41, %31
  %67 = phi ptr [ %33, %64 ], [ %33, %63 ], [ %33, %31 ], [ %42, %41 ], [ %33, %51 ], [ %61, %52 ]
  %68 = phi i32 [ %65, %64 ], [ %3, %63 ], [ %3, %31 ], [ 16, %41 ], [ %3, %51 ], [ %62, %52 ]
  %69 = load i8, ptr %67, align 1, !tbaa !15
  %70 = zext i8 %69 to i32
  %71 = add nsw i32 %70, -48
  %72 = icmp ugt i32 %71, 9
  br i1 %72, label %73, label %83

73:                                               ; preds = %66
  %74 = and i32 %70, 223
  %75 = add nsw i32 %74, -91
  %76 = icmp ult i32 %75, -26
  br i1 %76, label %83, label %77

77:                                               ; preds = %73
  %78 = add nsw i32 %70, -91
  %79 = icmp ult i32 %78, -26
  %80 = add nuw nsw i32 %70, 32
  %81 = select i1 %79, i32 %70, i32 %80
  %82 = add nsw i32 %81, -87
  br label %83

83:                                               ; preds = %77, %73, %66
  %84 = phi i32 [ %82, %77 ], [ 255, %73 ], [ %71, %66 ]
  %85 = icmp ult i32 %84, %68
  br i1 %85, label %86, label %130

86:                                               ; preds = %83
  %87 = zext nneg i32 %68 to i64
  br label %88

88:                                               ; preds = %121, %86
  %89 = phi i64 [ %122, %121 ], [ 0, %86 ]
  %90 = phi i32 [ %123, %121 ], [ 0, %86 ]
  %91 = phi i8 [ %125, %121 ], [ %69, %86 ]
  %92 = phi ptr [ %124, %121 ], [ %67, %86 ]
  %93 = zext i8 %91 to i32
  %94 = add nsw i32 %93, -48
  %95 = icmp ugt i32 %94, 9
  br i1 %95, label %96, label %106

96:                                               ; preds = %88
  %97 = and i32 %93, 223
  %98 = add nsw i32 %97, -91
  %99 = icmp ult i32 %98, -26
  br i1 %99, label %106, label %100

100:                                              ; preds = %96
  %101 = add nsw i32 %93, -91
  %102 = icmp ult i32 %101, -26
  %103 = add nuw nsw i32 %93, 32
  %104 = select i1 %102, i32 %93, i32 %103
  %105 = add nsw i32 %104, -87
  br label %106

106:                                              ; preds = %100, %96, %88
  %107 = phi i32 [ %105, %100 ], [ 255, %96 ], [ %94, %88 ]
  %108 = icmp ult i32 %107, %68
  br i1 %108, label %110, label %109

109:                                              ; preds = %106
  br i1 %14, label %127, label %126

110:                                              ; preds = %106
  %111 = icmp eq i32 %90, 0
  br i1 %111, label %112, label %117

112:                                              ; preds = %110
  %113 = zext nneg i32 %107 to i64
  %114 = sub nuw i64 %32, %113
  %115 = udiv i64 %114, %87
  %116 = icmp ugt i64 %89, %115
  br i1 %116, label %117, label %118

117:                                              ; preds = %112, %110
  store i32 1, ptr %8, align 4, !tbaa !80
  br label %121

118:                                              ; preds = %112
  %119 = mul i64 %89, %87
  %120 = add i64 %119, %113
  store i64 %120, ptr %0, align 8, !tbaa !79
  br label %121

121:                                              ; preds = %118, %117
  %122 = phi i64 [ %89, %117 ], [ %120, %118 ]
  %123 = phi i32 [ 1, %117 ], [ 0, %118 ]
  %124 = getelementptr inbounds i8, ptr %92, i64 1
  %125 = load i8, ptr %124, align 1, !tbaa !15
  br label %88, !llvm.loop !83

126:                                              ; preds = %109
  store ptr %92, ptr %2, align 8, !tbaa !41
  br label %127

127:                                              ; preds = %126, %109
  %128 = icmp eq i32 %90, 0
  br i1 %128, label %130, label %129

129:                                              ; preds = %127
  store i32 34, ptr @errno, align 4, !tbaa !81
  store i64 %32, ptr %0, align 8, !tbaa !79
  br label %130

130:                                              ; preds = %129, %127, %83, %12
  ret ptr %0
}

; Function Attrs: nofree norecurse nosync nounwind optsize memory(read, inaccessiblemem: none) uwtable
define internal fastcc i64 @span(ptr nocapture noundef readonly %0, ptr nocapture noundef readonly %1, i32 noundef %2) unnamed_addr #3 {
  %4 = alloca [256 x i8], align 16
  call void @llvm.lifetime.start.p0(i64 256, ptr nonnull %4) #17
  br label %5

5:                                                ; preds = %5, %3
  %6 = phi ptr [ %4, %3 ], [ %9, %5 ]
  %7 = phi i64 [ 256, %3 ], [ %8, %5 ]
  %8 = add nsw i64 %7, -1
  %9 = getelementptr inbounds i8, ptr %6, i64 1
  store i8 0, ptr %6, align 1, !tbaa !15
  %10 = icmp eq i64 %8, 0
  br i1 %10, label %11, label %5, !llvm.loop !76

11:                                               ; preds = %5
  %12 = load i8, ptr %1, align 1, !tbaa !15
  %13 = icmp eq i8 %12, 0
  br i1 %13, label %14, label %17

14:                                               ; preds = %17, %11
  %15 = load i8, ptr %0, align 1, !tbaa !15
  %16 = icmp eq i8 %15, 0
  br i1 %16, label %38, label %25

17:                                               ; preds = %17, %11
  %18 = phi i8 [ %23, %17 ], [ %12, %11 ]
  %19 = phi ptr [ %20, %17 ], [ %1, %11 ]
  %20 = getelementptr inbounds i8, ptr %19, i64 1
  %21 = zext i8 %18 to i64
  %22 = getelementptr inbounds [256 x i8], ptr %4, i64 0, i64 %21
  store i8 1, ptr %22, align 1, !tbaa !15
  %23 = load i8, ptr %20, align 1, !tbaa !15
  %24 = icmp eq i8 %23, 0
  br i1 %24, label %14, label %17, !llvm.loop !84

25:                                               ; preds = %33, %14
  %26 = phi i8 [ %36, %33 ], [ %15, %14 ]
  %27 = phi i64 [ %34, %33 ], [ 0, %14 ]
  %28 = zext i8 %26 to i64
  %29 = getelementptr inbounds [256 x i8], ptr %4, i64 0, i64 %28
  %30 = load i8, ptr %29, align 1, !tbaa !15
  %31 = zext i8 %30 to i32
  %32 = icmp eq i32 %31, %2
  br i1 %32, label %33, label %38

33:                                               ; preds = %25
  %34 = add i64 %27, 1
  %35 = getelementptr inbounds i8, ptr %0, i64 %34
  %36 = load i8, ptr %35, align 1, !tbaa !15
  %37 = icmp eq i8 %36, 0
  br i1 %37, label %38, label %25, !llvm.loop !85

38:                                               ; preds = %33, %25, %14
  %39 = phi i64 [ 0, %14 ], [ %34, %33 ], [ %27, %25 ]
  call void @llvm.lifetime.end.p0(i64 256, ptr nonnull %4) #17
  ret i64 %39
}

; Function Attrs: nounwind optsize uwtable
define internal fastcc i32 @number(ptr nocapture noundef %0, ptr noundef %1, ptr nocapture noundef readonly %2, i32 noundef %3, i32 noundef %4, i32 noundef %5, i32 noundef %6) unnamed_addr #2 {
  br label %8

8:                                                ; preds = %8, %7
  %9 = phi ptr [ %1, %7 ], [ %12, %8 ]
  %10 = load i8, ptr %9, align 1, !tbaa !15
  %11 = icmp eq i8 %10, 0
  %12 = getelementptr inbounds i8, ptr %9, i64 1
  br i1 %11, label %13, label %8, !llvm.loop !56

13:                                               ; preds = %8
  %14 = ptrtoint ptr %9 to i64
  %15 = ptrtoint ptr %1 to i64
  %16 = sub i64 %14, %15
  %17 = trunc i64 %16 to i32
  %18 = sub nsw i32 %6, %3
  %19 = lshr i32 %5, 31
  %20 = icmp ne i32 %19, 0
  %21 = sub i32 0, %5
  %22 = select i1 %20, i32 %21, i32 %5
  %23 = tail call i32 @llvm.smax.i32(i32 %18, i32 0)
  %24 = icmp slt i32 %6, 0
  %25 = and i32 %4, 16
  %26 = icmp ne i32 %25, 0
  %27 = and i1 %26, %24
  %28 = and i32 %4, 1
  %29 = or i32 %19, %28
  %30 = icmp eq i32 %29, 0
  %31 = and i1 %27, %30
  %32 = add i32 %17, %3
  %33 = icmp sgt i32 %22, %32
  %34 = select i1 %31, i1 %33, i1 false
  %35 = sub i32 %22, %32
  %36 = select i1 %34, i32 %35, i32 %23
  %37 = add i32 %32, %36
  %38 = sub i32 %22, %37
  br i1 %30, label %39, label %48

39:                                               ; preds = %13
  %40 = icmp sgt i32 %38, 0
  br i1 %40, label %41, label %46

41:                                               ; preds = %41, %39
  %42 = phi i32 [ %44, %41 ], [ 0, %39 ]
  %43 = tail call i32 @fputc(i32 noundef 32, ptr noundef %0) #20
  %44 = add nuw nsw i32 %42, 1
  %45 = icmp eq i32 %44, %38
  br i1 %45, label %46, label %41, !llvm.loop !86

46:                                               ; preds = %41, %39
  %47 = tail call noundef i32 @llvm.smax.i32(i32 %38, i32 0)
  br label %48

48:                                               ; preds = %46, %13
  %49 = phi i32 [ 0, %13 ], [ %47, %46 ]
  %50 = shl i64 %16, 32
  %51 = ashr exact i64 %50, 32
  %52 = load i8, ptr %0, align 8, !tbaa !46, !alias.scope !87, !noalias !90
  %53 = icmp eq i8 %52, 0
  %54 = icmp eq i64 %50, 0
  %55 = or i1 %54, %53
  br i1 %55, label %64, label %56

56:                                               ; preds = %56, %48
  %57 = phi i64 [ %62, %56 ], [ 0, %48 ]
  %58 = getelementptr inbounds i8, ptr %1, i64 %57
  %59 = load i8, ptr %58, align 1, !tbaa !15, !alias.scope !90, !noalias !87
  %60 = zext i8 %59 to i32
  %61 = tail call i32 @fputc(i32 noundef %60, ptr noundef nonnull %0) #20, !noalias !90
  %62 = add nuw i64 %57, 1
  %63 = icmp eq i64 %62, %51
  br i1 %63, label %64, label %56, !llvm.loop !53

64:                                               ; preds = %56, %48
  %65 = icmp sgt i32 %36, 0
  br i1 %65, label %66, label %71

66:                                               ; preds = %66, %64
  %67 = phi i32 [ %69, %66 ], [ 0, %64 ]
  %68 = tail call i32 @fputc(i32 noundef 48, ptr noundef nonnull %0) #20
  %69 = add nuw nsw i32 %67, 1
  %70 = icmp eq i32 %69, %36
  br i1 %70, label %71, label %66, !llvm.loop !86

71:                                               ; preds = %66, %64
  %72 = tail call noundef i32 @llvm.smax.i32(i32 %36, i32 0)
  %73 = sext i32 %3 to i64
  %74 = load i8, ptr %0, align 8, !tbaa !46, !alias.scope !92, !noalias !95
  %75 = icmp eq i8 %74, 0
  %76 = icmp eq i32 %3, 0
  %77 = or i1 %76, %75
  br i1 %77, label %86, label %78

78:                                               ; preds = %78, %71
  %79 = phi i64 [ %84, %78 ], [ 0, %71 ]
  %80 = getelementptr inbounds i8, ptr %2, i64 %79
  %81 = load i8, ptr %80, align 1, !tbaa !15, !alias.scope !95, !noalias !92
  %82 = zext i8 %81 to i32
  %83 = tail call i32 @fputc(i32 noundef %82, ptr noundef nonnull %0) #20, !noalias !95
  %84 = add nuw i64 %79, 1
  %85 = icmp eq i64 %84, %73
  br i1 %85, label %86, label %78, !llvm.loop !53

86:                                               ; preds = %78, %71
  %87 = add i32 %32, %72
  %88 = add i32 %87, %49
  br i1 %30, label %99, label %89

89:                                               ; preds = %86
  %90 = icmp sgt i32 %38, 0
  br i1 %90, label %91, label %96

91:                                               ; preds = %91, %89
  %92 = phi i32 [ %94, %91 ], [ 0, %89 ]
  %93 = tail call i32 @fputc(i32 noundef 32, ptr noundef nonnull %0) #20
  %94 = add nuw nsw i32 %92, 1
  %95 = icmp eq i32 %94, %38
  br i1 %95, label %96, label %91, !llvm.loop !86

96:                                               ; preds = %91, %89
  %97 = tail call noundef i32 @llvm.smax.i32(i32 %38, i32 0)
  %98 = add nsw i32 %88, %97
  br label %99

99:                                               ; preds = %96, %86
  %100 = phi i32 [ %98, %96 ], [ %88, %86 ]
  ret i32 %100
}

; Function Attrs: nocallback nofree nosync nounwind speculatable willreturn memory(none)
declare i32 @llvm.smax.i32(i32, i32) #12

; Function Attrs: nounwind uwtable
define internal fastcc void @write_text(ptr nocapture noundef readonly %0) unnamed_addr #0 {
  %2 = tail call i32 @putchar(i32 noundef 34)
  %3 = load i8, ptr %0, align 1, !tbaa !15
  %4 = icmp eq i8 %3, 0
  br i1 %4, label %26, label %5

5:                                                ; preds = %22, %1
  %6 = phi i8 [ %24, %22 ], [ %3, %1 ]
  %7 = phi ptr [ %23, %22 ], [ %0, %1 ]
  %8 = zext i8 %6 to i32
  switch i8 %6, label %14 [
    i8 92, label %9
    i8 34, label %9
    i8 10, label %12
  ]

9:                                                ; preds = %5, %5
  %10 = tail call i32 @__print_text(ptr nonnull getelementptr inbounds (i8, ptr @__streams, i64 24), ptr nonnull @.str.7.37, i64 1) #17
  %11 = tail call i32 @__print_character(ptr nonnull getelementptr inbounds (i8, ptr @__streams, i64 24), i32 %8, i32 0, i32 0) #17
  br label %22

12:                                               ; preds = %5
  %13 = tail call i64 @fwrite(ptr nonnull @.str.8.38, i64 2, i64 1, ptr nonnull getelementptr inbounds (i8, ptr @__streams, i64 24))
  br label %22

14:                                               ; preds = %5
  %15 = icmp ult i8 %6, 32
  br i1 %15, label %16, label %20

16:                                               ; preds = %14
  %17 = tail call i32 @__print_text(ptr nonnull getelementptr inbounds (i8, ptr @__streams, i64 24), ptr nonnull @.str.9.39, i64 2) #17
  %18 = zext nneg i8 %6 to i64
  %19 = tail call i32 @__print_unsigned(ptr nonnull getelementptr inbounds (i8, ptr @__streams, i64 24), i64 %18, i32 16, i32 16, i32 4, i32 -1) #17
  br label %22

20:                                               ; preds = %14
  %21 = tail call i32 @putchar(i32 noundef %8)
  br label %22

22:                                               ; preds = %20, %16, %12, %9
  %23 = getelementptr inbounds i8, ptr %7, i64 1
  %24 = load i8, ptr %23, align 1, !tbaa !15
  %25 = icmp eq i8 %24, 0
  br i1 %25, label %26, label %5, !llvm.loop !97

26:                                               ; preds = %22, %1
  %27 = tail call i32 @putchar(i32 noundef 34)
  ret void
}

; Function Attrs: nounwind uwtable
define internal fastcc void @write_group(ptr nocapture noundef readonly %0, i32 noundef %1, ptr nocapture noundef readonly %2) unnamed_addr #0 {
  %4 = load i8, ptr %2, align 1, !tbaa !15
  %5 = sext i8 %4 to i32
  %6 = tail call i32 @putchar(i32 noundef %5)
  %7 = getelementptr inbounds i8, ptr %0, i64 32
  %8 = load ptr, ptr %7, align 8, !tbaa !41
  %9 = icmp eq ptr %8, null
  br i1 %9, label %12, label %10

10:                                               ; preds = %3
  %11 = add nsw i32 %1, 2
  br label %15

12:                                               ; preds = %28, %3
  %13 = load ptr, ptr %7, align 8, !tbaa !22
  %14 = icmp eq ptr %13, null
  br i1 %14, label %35, label %32

15:                                               ; preds = %28, %10
  %16 = phi ptr [ %8, %10 ], [ %30, %28 ]
  %17 = load ptr, ptr %7, align 8, !tbaa !22
  %18 = icmp eq ptr %16, %17
  %19 = select i1 %18, ptr @.str.11.32, ptr @.str.12.33
  %20 = tail call i32 @__print_string(ptr nonnull getelementptr inbounds (i8, ptr @__streams, i64 24), ptr nonnull %19, i32 0, i32 0, i32 -1) #17
  %21 = tail call i32 @__print_text(ptr nonnull getelementptr inbounds (i8, ptr @__streams, i64 24), ptr nonnull getelementptr inbounds (i8, ptr @.str.10.34, i64 2), i64 1) #17
  %22 = tail call i32 @__print_string(ptr nonnull getelementptr inbounds (i8, ptr @__streams, i64 24), ptr nonnull @.str.11.32, i32 0, i32 %11, i32 -1) #17
  %23 = getelementptr inbounds i8, ptr %16, i64 24
  %24 = load ptr, ptr %23, align 8, !tbaa !28
  %25 = icmp eq ptr %24, null
  br i1 %25, label %28, label %26

26:                                               ; preds = %15
  tail call fastcc void @write_text(ptr noundef nonnull %24)
  %27 = tail call i64 @fwrite(ptr nonnull @.str.13.35, i64 2, i64 1, ptr nonnull getelementptr inbounds (i8, ptr @__streams, i64 24))
  br label %28

28:                                               ; preds = %26, %15
  tail call fastcc void @json_write(ptr noundef nonnull %16, i32 noundef %11)
  %29 = getelementptr inbounds i8, ptr %16, i64 40
  %30 = load ptr, ptr %29, align 8, !tbaa !41
  %31 = icmp eq ptr %30, null
  br i1 %31, label %12, label %15, !llvm.loop !98

32:                                               ; preds = %12
  %33 = tail call i32 @__print_text(ptr nonnull getelementptr inbounds (i8, ptr @__streams, i64 24), ptr nonnull @.str.14.36, i64 1) #17
  %34 = tail call i32 @__print_string(ptr nonnull getelementptr inbounds (i8, ptr @__streams, i64 24), ptr nonnull @.str.11.32, i32 0, i32 %1, i32 -1) #17
  br label %35

35:                                               ; preds = %32, %12
  %36 = getelementptr inbounds i8, ptr %2, i64 1
  %37 = load i8, ptr %36, align 1, !tbaa !15
  %38 = sext i8 %37 to i32
  %39 = tail call i32 @putchar(i32 noundef %38)
  ret void
}

; Function Attrs: nounwind optsize uwtable
define internal i32 @__print_character(ptr nocapture noundef %0, i32 noundef %1, i32 noundef %2, i32 noundef %3) local_unnamed_addr #2 {
  %5 = alloca i8, align 1
  call void @llvm.lifetime.start.p0(i64 1, ptr nonnull %5) #17
  %6 = trunc i32 %1 to i8
  store i8 %6, ptr %5, align 1, !tbaa !15
  %7 = call fastcc i32 @padded(ptr noundef %0, ptr noundef nonnull %5, i32 noundef 1, i32 noundef %2, i32 noundef %3) #20
  call void @llvm.lifetime.end.p0(i64 1, ptr nonnull %5) #17
  ret i32 %7
}

; Function Attrs: nounwind optsize uwtable
define internal fastcc i32 @padded(ptr nocapture noundef %0, ptr nocapture noundef readonly %1, i32 noundef %2, i32 noundef %3, i32 noundef %4) unnamed_addr #2 {
  %6 = icmp slt i32 %4, 0
  %7 = lshr i32 %4, 31
  %8 = icmp ne i32 %7, 0
  %9 = sub i32 0, %4
  %10 = select i1 %8, i32 %9, i32 %4
  %11 = sub nsw i32 %10, %2
  %12 = and i32 %3, 1
  %13 = icmp ne i32 %12, 0
  %14 = or i1 %6, %13
  br i1 %14, label %24, label %15

15:                                               ; preds = %5
  %16 = icmp sgt i32 %11, 0
  br i1 %16, label %17, label %22

17:                                               ; preds = %17, %15
  %18 = phi i32 [ %20, %17 ], [ 0, %15 ]
  %19 = tail call i32 @fputc(i32 noundef 32, ptr noundef %0) #20
  %20 = add nuw nsw i32 %18, 1
  %21 = icmp eq i32 %20, %11
  br i1 %21, label %22, label %17, !llvm.loop !86

22:                                               ; preds = %17, %15
  %23 = tail call noundef i32 @llvm.smax.i32(i32 %11, i32 0)
  br label %24

24:                                               ; preds = %22, %5
  %25 = phi i32 [ %23, %22 ], [ 0, %5 ]
  %26 = sext i32 %2 to i64
  %27 = load i8, ptr %0, align 8, !tbaa !46, !alias.scope !99, !noalias !102
  %28 = icmp eq i8 %27, 0
  %29 = icmp eq i32 %2, 0
  %30 = or i1 %29, %28
  br i1 %30, label %39, label %31

31:                                               ; preds = %31, %24
  %32 = phi i64 [ %37, %31 ], [ 0, %24 ]
  %33 = getelementptr inbounds i8, ptr %1, i64 %32
  %34 = load i8, ptr %33, align 1, !tbaa !15, !alias.scope !102, !noalias !99
  %35 = zext i8 %34 to i32
  %36 = tail call i32 @fputc(i32 noundef %35, ptr noundef nonnull %0) #20, !noalias !102
  %37 = add nuw i64 %32, 1
  %38 = icmp eq i64 %37, %26
  br i1 %38, label %39, label %31, !llvm.loop !53

39:                                               ; preds = %31, %24
  br i1 %14, label %40, label %49

40:                                               ; preds = %39
  %41 = icmp sgt i32 %11, 0
  br i1 %41, label %42, label %47

42:                                               ; preds = %42, %40
  %43 = phi i32 [ %45, %42 ], [ 0, %40 ]
  %44 = tail call i32 @fputc(i32 noundef 32, ptr noundef nonnull %0) #20
  %45 = add nuw nsw i32 %43, 1
  %46 = icmp eq i32 %45, %11
  br i1 %46, label %47, label %42, !llvm.loop !86

47:                                               ; preds = %42, %40
  %48 = tail call noundef i32 @llvm.smax.i32(i32 %11, i32 0)
  br label %49

49:                                               ; preds = %47, %39
  %50 = phi i32 [ %48, %47 ], [ 0, %39 ]
  %51 = add nsw i32 %25, %2
  %52 = add nsw i32 %51, %50
  ret i32 %52
}

; Function Attrs: nounwind uwtable
define internal fastcc ptr @group(ptr nocapture noundef %0, i32 noundef %1, i8 noundef signext %2, i32 noundef %3) unnamed_addr #0 {
  %5 = tail call dereferenceable_or_null(48) ptr @__sized_calloc(i64 noundef 1, i64 noundef 48) #21
  %6 = icmp eq ptr %5, null
  br i1 %6, label %7, label %33

7:                                                ; preds = %4
  %8 = getelementptr inbounds i8, ptr %0, i64 16
  %9 = load ptr, ptr %8, align 8, !tbaa !11
  %10 = load ptr, ptr %9, align 8, !tbaa !12
  %11 = icmp eq ptr %10, null
  br i1 %11, label %12, label %34

12:                                               ; preds = %7
  store ptr @.str.9, ptr %9, align 8, !tbaa !12
  %13 = getelementptr inbounds i8, ptr %9, i64 16
  store i64 1, ptr %13, align 8, !tbaa !19
  %14 = getelementptr inbounds i8, ptr %9, i64 8
  store i64 1, ptr %14, align 8, !tbaa !20
  %15 = load ptr, ptr %0, align 8, !tbaa !5
  %16 = getelementptr inbounds i8, ptr %0, i64 8
  %17 = load ptr, ptr %16, align 8, !tbaa !10
  %18 = icmp ult ptr %15, %17
  br i1 %18, label %19, label %34

19:                                               ; preds = %29, %12
  %20 = phi i64 [ %30, %29 ], [ 1, %12 ]
  %21 = phi ptr [ %31, %29 ], [ %15, %12 ]
  %22 = load i8, ptr %21, align 1, !tbaa !15
  %23 = icmp eq i8 %22, 10
  br i1 %23, label %24, label %27

24:                                               ; preds = %19
  %25 = load i64, ptr %14, align 8, !tbaa !20
  %26 = add i64 %25, 1
  store i64 %26, ptr %14, align 8, !tbaa !20
  br label %29

27:                                               ; preds = %19
  %28 = add i64 %20, 1
  br label %29

29:                                               ; preds = %27, %24
  %30 = phi i64 [ %28, %27 ], [ 1, %24 ]
  store i64 %30, ptr %13, align 8, !tbaa !19
  %31 = getelementptr inbounds i8, ptr %21, i64 1
  %32 = icmp eq ptr %31, %17
  br i1 %32, label %34, label %19, !llvm.loop !104

33:                                               ; preds = %4
  store i32 %1, ptr %5, align 8, !tbaa !25
  br label %34

34:                                               ; preds = %33, %29, %12, %7
  %35 = phi ptr [ %5, %33 ], [ null, %7 ], [ null, %12 ], [ null, %29 ]
  %36 = icmp eq ptr %35, null
  br i1 %36, label %187, label %37

37:                                               ; preds = %34
  %38 = getelementptr inbounds i8, ptr %0, i64 8
  %39 = load ptr, ptr %38, align 8, !tbaa !10
  br label %40

40:                                               ; preds = %43, %37
  %41 = phi ptr [ %44, %43 ], [ %39, %37 ]
  %42 = load i8, ptr %41, align 1, !tbaa !15
  switch i8 %42, label %45 [
    i8 32, label %43
    i8 9, label %43
    i8 10, label %43
    i8 13, label %43
  ]

43:                                               ; preds = %40, %40, %40, %40
  %44 = getelementptr inbounds i8, ptr %41, i64 1
  store ptr %44, ptr %38, align 8, !tbaa !10
  br label %40, !llvm.loop !105

45:                                               ; preds = %40
  %46 = load ptr, ptr %38, align 8, !tbaa !10
  %47 = load i8, ptr %46, align 1, !tbaa !15
  %48 = icmp eq i8 %47, %2
  br i1 %48, label %54, label %49

49:                                               ; preds = %45
  %50 = getelementptr inbounds i8, ptr %35, i64 32
  %51 = icmp eq i32 %1, 6
  %52 = getelementptr inbounds i8, ptr %0, i64 16
  %53 = add nsw i32 %3, 1
  br label %56

54:                                               ; preds = %45
  %55 = getelementptr inbounds i8, ptr %46, i64 1
  store ptr %55, ptr %38, align 8, !tbaa !10
  br label %187

56:                                               ; preds = %182, %49
  %57 = phi ptr [ %183, %182 ], [ undef, %49 ]
  %58 = phi ptr [ %184, %182 ], [ %50, %49 ]
  %59 = load ptr, ptr %38, align 8, !tbaa !10
  br label %60

60:                                               ; preds = %63, %56
  %61 = phi ptr [ %64, %63 ], [ %59, %56 ]
  %62 = load i8, ptr %61, align 1, !tbaa !15
  switch i8 %62, label %65 [
    i8 32, label %63
    i8 9, label %63
    i8 10, label %63
    i8 13, label %63
  ]

63:                                               ; preds = %60, %60, %60, %60
  %64 = getelementptr inbounds i8, ptr %61, i64 1
  store ptr %64, ptr %38, align 8, !tbaa !10
  br label %60, !llvm.loop !106

65:                                               ; preds = %60
  br i1 %51, label %66, label %134

66:                                               ; preds = %65
  %67 = load ptr, ptr %38, align 8, !tbaa !10
  %68 = load i8, ptr %67, align 1, !tbaa !15
  %69 = icmp eq i8 %68, 34
  br i1 %69, label %93, label %70

70:                                               ; preds = %66
  %71 = load ptr, ptr %52, align 8, !tbaa !11
  %72 = load ptr, ptr %71, align 8, !tbaa !12
  %73 = icmp eq ptr %72, null
  br i1 %73, label %74, label %182

74:                                               ; preds = %70
  store ptr @.str.6.13, ptr %71, align 8, !tbaa !12
  %75 = getelementptr inbounds i8, ptr %71, i64 16
  store i64 1, ptr %75, align 8, !tbaa !19
  %76 = getelementptr inbounds i8, ptr %71, i64 8
  store i64 1, ptr %76, align 8, !tbaa !20
  %77 = load ptr, ptr %0, align 8, !tbaa !5
  %78 = icmp ult ptr %77, %67
  br i1 %78, label %79, label %182

79:                                               ; preds = %89, %74
  %80 = phi i64 [ %90, %89 ], [ 1, %74 ]
  %81 = phi ptr [ %91, %89 ], [ %77, %74 ]
  %82 = load i8, ptr %81, align 1, !tbaa !15
  %83 = icmp eq i8 %82, 10
  br i1 %83, label %84, label %87

84:                                               ; preds = %79
  %85 = load i64, ptr %76, align 8, !tbaa !20
  %86 = add i64 %85, 1
  store i64 %86, ptr %76, align 8, !tbaa !20
  br label %89

87:                                               ; preds = %79
  %88 = add i64 %80, 1
  br label %89

89:                                               ; preds = %87, %84
  %90 = phi i64 [ %88, %87 ], [ 1, %84 ]
  store i64 %90, ptr %75, align 8, !tbaa !19
  %91 = getelementptr inbounds i8, ptr %81, i64 1
  %92 = icmp eq ptr %91, %67
  br i1 %92, label %182, label %79, !llvm.loop !107

93:                                               ; preds = %66
  %94 = getelementptr inbounds i8, ptr %67, i64 1
  store ptr %94, ptr %38, align 8, !tbaa !10
  %95 = tail call fastcc ptr @string(ptr noundef %0)
  %96 = icmp eq ptr %95, null
  br i1 %96, label %182, label %97

97:                                               ; preds = %93
  %98 = load ptr, ptr %38, align 8, !tbaa !10
  br label %99

99:                                               ; preds = %102, %97
  %100 = phi ptr [ %103, %102 ], [ %98, %97 ]
  %101 = load i8, ptr %100, align 1, !tbaa !15
  switch i8 %101, label %104 [
    i8 32, label %102
    i8 9, label %102
    i8 10, label %102
    i8 13, label %102
  ]

102:                                              ; preds = %99, %99, %99, %99
  %103 = getelementptr inbounds i8, ptr %100, i64 1
  store ptr %103, ptr %38, align 8, !tbaa !10
  br label %99, !llvm.loop !108

104:                                              ; preds = %99
  %105 = load ptr, ptr %38, align 8, !tbaa !10
  %106 = load i8, ptr %105, align 1, !tbaa !15
  %107 = icmp eq i8 %106, 58
  br i1 %107, label %132, label %108

108:                                              ; preds = %104
  %109 = load ptr, ptr %52, align 8, !tbaa !11
  %110 = load ptr, ptr %109, align 8, !tbaa !12
  %111 = icmp eq ptr %110, null
  br i1 %111, label %112, label %131

112:                                              ; preds = %108
  store ptr @.str.7.14, ptr %109, align 8, !tbaa !12
  %113 = getelementptr inbounds i8, ptr %109, i64 16
  store i64 1, ptr %113, align 8, !tbaa !19
  %114 = getelementptr inbounds i8, ptr %109, i64 8
  store i64 1, ptr %114, align 8, !tbaa !20
  %115 = load ptr, ptr %0, align 8, !tbaa !5
  %116 = icmp ult ptr %115, %105
  br i1 %116, label %117, label %131

117:                                              ; preds = %127, %112
  %118 = phi i64 [ %128, %127 ], [ 1, %112 ]
  %119 = phi ptr [ %129, %127 ], [ %115, %112 ]
  %120 = load i8, ptr %119, align 1, !tbaa !15
  %121 = icmp eq i8 %120, 10
  br i1 %121, label %122, label %125

122:                                              ; preds = %117
  %123 = load i64, ptr %114, align 8, !tbaa !20
  %124 = add i64 %123, 1
  store i64 %124, ptr %114, align 8, !tbaa !20
  br label %127

125:                                              ; preds = %117
  %126 = add i64 %118, 1
  br label %127

127:                                              ; preds = %125, %122
  %128 = phi i64 [ %126, %125 ], [ 1, %122 ]
  store i64 %128, ptr %113, align 8, !tbaa !19
  %129 = getelementptr inbounds i8, ptr %119, i64 1
  %130 = icmp eq ptr %129, %105
  br i1 %130, label %131, label %117, !llvm.loop !109

131:                                              ; preds = %127, %112, %108
  tail call void @__sized_free(ptr noundef %95)
  br label %182

132:                                              ; preds = %104
  %133 = getelementptr inbounds i8, ptr %105, i64 1
  store ptr %133, ptr %38, align 8, !tbaa !10
  br label %134

134:                                              ; preds = %132, %65
  %135 = phi ptr [ %95, %132 ], [ null, %65 ]
  %136 = tail call fastcc ptr @value(ptr noundef %0, i32 noundef %53)
  store ptr %136, ptr %58, align 8, !tbaa !41
  %137 = icmp eq ptr %136, null
  br i1 %137, label %138, label %139

138:                                              ; preds = %134
  tail call void @__sized_free(ptr noundef %135)
  br label %182

139:                                              ; preds = %134
  %140 = getelementptr inbounds i8, ptr %136, i64 24
  store ptr %135, ptr %140, align 8, !tbaa !28
  %141 = load ptr, ptr %58, align 8, !tbaa !41
  %142 = load ptr, ptr %38, align 8, !tbaa !10
  br label %143

143:                                              ; preds = %146, %139
  %144 = phi ptr [ %147, %146 ], [ %142, %139 ]
  %145 = load i8, ptr %144, align 1, !tbaa !15
  switch i8 %145, label %148 [
    i8 32, label %146
    i8 9, label %146
    i8 10, label %146
    i8 13, label %146
  ]

146:                                              ; preds = %143, %143, %143, %143
  %147 = getelementptr inbounds i8, ptr %144, i64 1
  store ptr %147, ptr %38, align 8, !tbaa !10
  br label %143, !llvm.loop !110

148:                                              ; preds = %143
  %149 = getelementptr inbounds i8, ptr %141, i64 40
  %150 = load ptr, ptr %38, align 8, !tbaa !10
  %151 = load i8, ptr %150, align 1, !tbaa !15
  %152 = icmp eq i8 %151, %2
  br i1 %152, label %153, label %155

153:                                              ; preds = %148
  %154 = getelementptr inbounds i8, ptr %150, i64 1
  store ptr %154, ptr %38, align 8, !tbaa !10
  br label %182

155:                                              ; preds = %148
  %156 = icmp eq i8 %151, 44
  br i1 %156, label %180, label %157

157:                                              ; preds = %155
  %158 = load ptr, ptr %52, align 8, !tbaa !11
  %159 = load ptr, ptr %158, align 8, !tbaa !12
  %160 = icmp eq ptr %159, null
  br i1 %160, label %161, label %182

161:                                              ; preds = %157
  store ptr @.str.8, ptr %158, align 8, !tbaa !12
  %162 = getelementptr inbounds i8, ptr %158, i64 16
  store i64 1, ptr %162, align 8, !tbaa !19
  %163 = getelementptr inbounds i8, ptr %158, i64 8
  store i64 1, ptr %163, align 8, !tbaa !20
  %164 = load ptr, ptr %0, align 8, !tbaa !5
  %165 = icmp ult ptr %164, %150
  br i1 %165, label %166, label %182

166:                                              ; preds = %176, %161
  %167 = phi i64 [ %177, %176 ], [ 1, %161 ]
  %168 = phi ptr [ %178, %176 ], [ %164, %161 ]
  %169 = load i8, ptr %168, align 1, !tbaa !15
  %170 = icmp eq i8 %169, 10
  br i1 %170, label %171, label %174

171:                                              ; preds = %166
  %172 = load i64, ptr %163, align 8, !tbaa !20
  %173 = add i64 %172, 1
  store i64 %173, ptr %163, align 8, !tbaa !20
  br label %176

174:                                              ; preds = %166
  %175 = add i64 %167, 1
  br label %176

176:                                              ; preds = %174, %171
  %177 = phi i64 [ %175, %174 ], [ 1, %171 ]
  store i64 %177, ptr %162, align 8, !tbaa !19
  %178 = getelementptr inbounds i8, ptr %168, i64 1
  %179 = icmp eq ptr %178, %150
  br i1 %179, label %182, label %166, !llvm.loop !111

180:                                              ; preds = %155
  %181 = getelementptr inbounds i8, ptr %150, i64 1
  store ptr %181, ptr %38, align 8, !tbaa !10
  br label %182

182:                                              ; preds = %180, %176, %161, %157, %153, %138, %131, %93, %89, %74, %70
  %183 = phi ptr [ %57, %131 ], [ %35, %153 ], [ %57, %180 ], [ %57, %138 ], [ %57, %93 ], [ %57, %70 ], [ %57, %74 ], [ %57, %157 ], [ %57, %161 ], [ %57, %176 ], [ %57, %89 ]
  %184 = phi ptr [ %58, %131 ], [ %149, %153 ], [ %149, %180 ], [ %58, %138 ], [ %58, %93 ], [ %58, %70 ], [ %58, %74 ], [ %149, %157 ], [ %149, %161 ], [ %149, %176 ], [ %58, %89 ]
  %185 = phi i32 [ 2, %131 ], [ 1, %153 ], [ 0, %180 ], [ 2, %138 ], [ 2, %93 ], [ 2, %70 ], [ 2, %74 ], [ 2, %157 ], [ 2, %161 ], [ 2, %176 ], [ 2, %89 ]
  switch i32 %185, label %187 [
    i32 0, label %56
    i32 2, label %186
  ], !llvm.loop !112

186:                                              ; preds = %182
  tail call fastcc void @json_free(ptr noundef nonnull %35)
  br label %187

187:                                              ; preds = %186, %182, %54, %34
  %188 = phi ptr [ %35, %54 ], [ null, %186 ], [ null, %34 ], [ %183, %182 ]
  ret ptr %188
}

; Function Attrs: noinline nounwind optsize uwtable
define internal ptr @__sized_calloc(i64 noundef %0, i64 noundef %1) #10 {
  %3 = icmp eq i64 %1, 0
  br i1 %3, label %7, label %4

4:                                                ; preds = %2
  %5 = udiv i64 -17, %1
  %6 = icmp ult i64 %5, %0
  br i1 %6, label %14, label %7

7:                                                ; preds = %4, %2
  %8 = mul i64 %1, %0
  %9 = add i64 %8, 16
  %10 = tail call ptr @calloc(i64 noundef %9, i64 noundef 1) #22
  %11 = icmp eq ptr %10, null
  br i1 %11, label %14, label %12

12:                                               ; preds = %7
  %13 = getelementptr inbounds i8, ptr %10, i64 16
  store i64 %8, ptr %10, align 8, !tbaa !64
  br label %14

14:                                               ; preds = %12, %7, %4
  %15 = phi ptr [ null, %4 ], [ %13, %12 ], [ null, %7 ]
  ret ptr %15
}

; Function Attrs: nounwind uwtable
define internal fastcc noalias noundef ptr @string(ptr nocapture noundef %0) unnamed_addr #0 {
  %2 = getelementptr inbounds i8, ptr %0, i64 8
  %3 = load ptr, ptr %2, align 8, !tbaa !10
  br label %4

4:                                                ; preds = %11, %1
  %5 = phi ptr [ %3, %1 ], [ %14, %11 ]
  %6 = load i8, ptr %5, align 1, !tbaa !15
  switch i8 %6, label %11 [
    i8 0, label %15
    i8 34, label %15
    i8 92, label %7
  ]

7:                                                ; preds = %4
  %8 = getelementptr inbounds i8, ptr %5, i64 1
  %9 = load i8, ptr %8, align 1, !tbaa !15
  %10 = icmp ne i8 %9, 0
  br label %11

11:                                               ; preds = %7, %4
  %12 = phi i1 [ %10, %7 ], [ false, %4 ]
  %13 = select i1 %12, i64 2, i64 1
  %14 = getelementptr inbounds i8, ptr %5, i64 %13
  br label %4, !llvm.loop !113

15:                                               ; preds = %4, %4
  %16 = ptrtoint ptr %5 to i64
  %17 = ptrtoint ptr %3 to i64
  %18 = sub i64 %16, %17
  %19 = add i64 %18, 1
  %20 = tail call ptr @__sized_malloc(i64 noundef %19) #23
  %21 = icmp eq ptr %20, null
  br i1 %21, label %28, label %22

22:                                               ; preds = %15
  %23 = load ptr, ptr %2, align 8, !tbaa !10
  %24 = load i8, ptr %23, align 1, !tbaa !15
  %25 = icmp eq i8 %24, 34
  br i1 %25, label %197, label %26

26:                                               ; preds = %22
  %27 = getelementptr inbounds i8, ptr %0, i64 16
  br label %52

28:                                               ; preds = %15
  %29 = getelementptr inbounds i8, ptr %0, i64 16
  %30 = load ptr, ptr %29, align 8, !tbaa !11
  %31 = load ptr, ptr %30, align 8, !tbaa !12
  %32 = icmp eq ptr %31, null
  br i1 %32, label %33, label %201

33:                                               ; preds = %28
  store ptr @.str.9, ptr %30, align 8, !tbaa !12
  %34 = getelementptr inbounds i8, ptr %30, i64 16
  store i64 1, ptr %34, align 8, !tbaa !19
  %35 = getelementptr inbounds i8, ptr %30, i64 8
  store i64 1, ptr %35, align 8, !tbaa !20
  %36 = load ptr, ptr %0, align 8, !tbaa !5
  %37 = icmp ult ptr %36, %3
  br i1 %37, label %38, label %201

38:                                               ; preds = %48, %33
  %39 = phi i64 [ %49, %48 ], [ 1, %33 ]
  %40 = phi ptr [ %50, %48 ], [ %36, %33 ]
  %41 = load i8, ptr %40, align 1, !tbaa !15
  %42 = icmp eq i8 %41, 10
  br i1 %42, label %43, label %46

43:                                               ; preds = %38
  %44 = load i64, ptr %35, align 8, !tbaa !20
  %45 = add i64 %44, 1
  store i64 %45, ptr %35, align 8, !tbaa !20
  br label %48

46:                                               ; preds = %38
  %47 = add i64 %39, 1
  br label %48

48:                                               ; preds = %46, %43
  %49 = phi i64 [ %47, %46 ], [ 1, %43 ]
  store i64 %49, ptr %34, align 8, !tbaa !19
  %50 = getelementptr inbounds i8, ptr %40, i64 1
  %51 = icmp eq ptr %50, %3
  br i1 %51, label %201, label %38, !llvm.loop !114

52:                                               ; preds = %193, %26
  %53 = phi i8 [ %24, %26 ], [ %195, %193 ]
  %54 = phi ptr [ %23, %26 ], [ %194, %193 ]
  %55 = phi ptr [ %20, %26 ], [ %192, %193 ]
  %56 = icmp ult i8 %53, 32
  br i1 %56, label %57, label %83

57:                                               ; preds = %52
  %58 = load ptr, ptr %27, align 8, !tbaa !11
  %59 = load ptr, ptr %58, align 8, !tbaa !12
  %60 = icmp eq ptr %59, null
  br i1 %60, label %61, label %82

61:                                               ; preds = %57
  %62 = icmp eq i8 %53, 0
  %63 = select i1 %62, ptr @.str.11, ptr @.str.10
  store ptr %63, ptr %58, align 8, !tbaa !12
  %64 = getelementptr inbounds i8, ptr %58, i64 16
  store i64 1, ptr %64, align 8, !tbaa !19
  %65 = getelementptr inbounds i8, ptr %58, i64 8
  store i64 1, ptr %65, align 8, !tbaa !20
  %66 = load ptr, ptr %0, align 8, !tbaa !5
  %67 = icmp ult ptr %66, %54
  br i1 %67, label %68, label %82

68:                                               ; preds = %78, %61
  %69 = phi i64 [ %79, %78 ], [ 1, %61 ]
  %70 = phi ptr [ %80, %78 ], [ %66, %61 ]
  %71 = load i8, ptr %70, align 1, !tbaa !15
  %72 = icmp eq i8 %71, 10
  br i1 %72, label %73, label %76

73:                                               ; preds = %68
  %74 = load i64, ptr %65, align 8, !tbaa !20
  %75 = add i64 %74, 1
  store i64 %75, ptr %65, align 8, !tbaa !20
  br label %78

76:                                               ; preds = %68
  %77 = add i64 %69, 1
  br label %78

78:                                               ; preds = %76, %73
  %79 = phi i64 [ %77, %76 ], [ 1, %73 ]
  store i64 %79, ptr %64, align 8, !tbaa !19
  %80 = getelementptr inbounds i8, ptr %70, i64 1
  %81 = icmp eq ptr %80, %54
  br i1 %81, label %82, label %68, !llvm.loop !115

82:                                               ; preds = %78, %61, %57
  tail call void @__sized_free(ptr noundef %20)
  br label %190

83:                                               ; preds = %52
  %84 = getelementptr inbounds i8, ptr %54, i64 1
  store ptr %84, ptr %2, align 8, !tbaa !10
  %85 = icmp eq i8 %53, 92
  br i1 %85, label %88, label %86

86:                                               ; preds = %83
  %87 = getelementptr inbounds i8, ptr %55, i64 1
  store i8 %53, ptr %55, align 1, !tbaa !15
  br label %190, !llvm.loop !116

88:                                               ; preds = %83
  %89 = load i8, ptr %84, align 1, !tbaa !15
  %90 = icmp eq i8 %89, 0
  br i1 %90, label %94, label %91

91:                                               ; preds = %88
  %92 = sext i8 %89 to i32
  %93 = tail call ptr @memchr(ptr noundef nonnull dereferenceable(1) @string.from, i32 %92, i64 9)
  br label %94

94:                                               ; preds = %91, %88
  %95 = phi ptr [ %93, %91 ], [ null, %88 ]
  %96 = icmp eq ptr %95, null
  br i1 %96, label %105, label %97

97:                                               ; preds = %94
  %98 = ptrtoint ptr %95 to i64
  %99 = sub i64 %98, ptrtoint (ptr @string.from to i64)
  %100 = getelementptr inbounds [9 x i8], ptr @string.meant, i64 0, i64 %99
  %101 = load i8, ptr %100, align 1, !tbaa !15
  %102 = getelementptr inbounds i8, ptr %55, i64 1
  store i8 %101, ptr %55, align 1, !tbaa !15
  %103 = load ptr, ptr %2, align 8, !tbaa !10
  %104 = getelementptr inbounds i8, ptr %103, i64 1
  store ptr %104, ptr %2, align 8, !tbaa !10
  br label %190, !llvm.loop !116

105:                                              ; preds = %94
  %106 = icmp eq i8 %89, 117
  br i1 %106, label %107, label %134

107:                                              ; preds = %105
  %108 = getelementptr inbounds i8, ptr %54, i64 2
  store ptr %108, ptr %2, align 8, !tbaa !10
  br label %112

109:                                              ; preds = %131
  %110 = add nuw nsw i32 %114, 1
  %111 = icmp eq i32 %110, 4
  br i1 %111, label %134, label %112, !llvm.loop !117

112:                                              ; preds = %109, %107
  %113 = phi ptr [ %108, %107 ], [ %132, %109 ]
  %114 = phi i32 [ 0, %107 ], [ %110, %109 ]
  %115 = phi i32 [ 0, %107 ], [ %133, %109 ]
  %116 = load i8, ptr %113, align 1, !tbaa !15
  %117 = zext i8 %116 to i32
  %118 = tail call i32 @isxdigit(i32 noundef %117) #24
  %119 = icmp eq i32 %118, 0
  br i1 %119, label %131, label %120

120:                                              ; preds = %112
  %121 = shl nsw i32 %115, 4
  %122 = add nsw i32 %117, -48
  %123 = icmp ult i32 %122, 10
  br i1 %123, label %127, label %124

124:                                              ; preds = %120
  %125 = tail call i32 @tolower(i32 noundef %117) #24
  %126 = add nsw i32 %125, -87
  br label %127

127:                                              ; preds = %124, %120
  %128 = phi i32 [ %126, %124 ], [ %122, %120 ]
  %129 = add nsw i32 %128, %121
  %130 = getelementptr inbounds i8, ptr %113, i64 1
  store ptr %130, ptr %2, align 8, !tbaa !10
  br label %131

131:                                              ; preds = %127, %112
  %132 = phi ptr [ %130, %127 ], [ %113, %112 ]
  %133 = phi i32 [ %129, %127 ], [ %115, %112 ]
  br i1 %119, label %134, label %109

134:                                              ; preds = %131, %109, %105
  %135 = phi i32 [ -1, %105 ], [ -1, %131 ], [ %133, %109 ]
  %136 = icmp slt i32 %135, 0
  br i1 %136, label %137, label %162

137:                                              ; preds = %134
  %138 = load ptr, ptr %27, align 8, !tbaa !11
  %139 = load ptr, ptr %138, align 8, !tbaa !12
  %140 = icmp eq ptr %139, null
  br i1 %140, label %141, label %161

141:                                              ; preds = %137
  store ptr @.str.12, ptr %138, align 8, !tbaa !12
  %142 = getelementptr inbounds i8, ptr %138, i64 16
  store i64 1, ptr %142, align 8, !tbaa !19
  %143 = getelementptr inbounds i8, ptr %138, i64 8
  store i64 1, ptr %143, align 8, !tbaa !20
  %144 = load ptr, ptr %0, align 8, !tbaa !5
  %145 = load ptr, ptr %2, align 8, !tbaa !10
  %146 = icmp ult ptr %144, %145
  br i1 %146, label %147, label %161

147:                                              ; preds = %157, %141
  %148 = phi i64 [ %158, %157 ], [ 1, %141 ]
  %149 = phi ptr [ %159, %157 ], [ %144, %141 ]
  %150 = load i8, ptr %149, align 1, !tbaa !15
  %151 = icmp eq i8 %150, 10
  br i1 %151, label %152, label %155

152:                                              ; preds = %147
  %153 = load i64, ptr %143, align 8, !tbaa !20
  %154 = add i64 %153, 1
  store i64 %154, ptr %143, align 8, !tbaa !20
  br label %157

155:                                              ; preds = %147
  %156 = add i64 %148, 1
  br label %157

157:                                              ; preds = %155, %152
  %158 = phi i64 [ %156, %155 ], [ 1, %152 ]
  store i64 %158, ptr %142, align 8, !tbaa !19
  %159 = getelementptr inbounds i8, ptr %149, i64 1
  %160 = icmp eq ptr %159, %145
  br i1 %160, label %161, label %147, !llvm.loop !118

161:                                              ; preds = %157, %141, %137
  tail call void @__sized_free(ptr noundef %20)
  br label %190

162:                                              ; preds = %134
  %163 = icmp slt i32 %135, 128
  %164 = getelementptr inbounds i8, ptr %55, i64 1
  br i1 %163, label %165, label %167

165:                                              ; preds = %162
  %166 = trunc nuw nsw i32 %135 to i8
  store i8 %166, ptr %55, align 1, !tbaa !15
  br label %190

167:                                              ; preds = %162
  %168 = icmp slt i32 %135, 2048
  br i1 %168, label %169, label %177

169:                                              ; preds = %167
  %170 = lshr i32 %135, 6
  %171 = trunc i32 %170 to i8
  %172 = or i8 %171, -64
  store i8 %172, ptr %55, align 1, !tbaa !15
  %173 = trunc i32 %135 to i8
  %174 = and i8 %173, 63
  %175 = or disjoint i8 %174, -128
  %176 = getelementptr inbounds i8, ptr %55, i64 2
  store i8 %175, ptr %164, align 1, !tbaa !15
  br label %190

177:                                              ; preds = %167
  %178 = lshr i32 %135, 12
  %179 = trunc i32 %178 to i8
  %180 = or i8 %179, -32
  store i8 %180, ptr %55, align 1, !tbaa !15
  %181 = lshr i32 %135, 6
  %182 = trunc i32 %181 to i8
  %183 = and i8 %182, 63
  %184 = or disjoint i8 %183, -128
  %185 = getelementptr inbounds i8, ptr %55, i64 2
  store i8 %184, ptr %164, align 1, !tbaa !15
  %186 = trunc i32 %135 to i8
  %187 = and i8 %186, 63
  %188 = or disjoint i8 %187, -128
  %189 = getelementptr inbounds i8, ptr %55, i64 3
  store i8 %188, ptr %185, align 1, !tbaa !15
  br label %190

190:                                              ; preds = %177, %169, %165, %161, %97, %86, %82
  %191 = phi i32 [ 1, %82 ], [ 4, %86 ], [ 4, %97 ], [ 1, %161 ], [ 0, %165 ], [ 0, %169 ], [ 0, %177 ]
  %192 = phi ptr [ %55, %82 ], [ %87, %86 ], [ %102, %97 ], [ %55, %161 ], [ %164, %165 ], [ %176, %169 ], [ %189, %177 ]
  switch i32 %191, label %201 [
    i32 0, label %193
    i32 4, label %193
  ]

193:                                              ; preds = %190, %190
  %194 = load ptr, ptr %2, align 8, !tbaa !10
  %195 = load i8, ptr %194, align 1, !tbaa !15
  %196 = icmp eq i8 %195, 34
  br i1 %196, label %197, label %52, !llvm.loop !116

197:                                              ; preds = %193, %22
  %198 = phi ptr [ %20, %22 ], [ %192, %193 ]
  %199 = phi ptr [ %23, %22 ], [ %194, %193 ]
  %200 = getelementptr inbounds i8, ptr %199, i64 1
  store ptr %200, ptr %2, align 8, !tbaa !10
  store i8 0, ptr %198, align 1, !tbaa !15
  br label %201

201:                                              ; preds = %197, %190, %48, %33, %28
  %202 = phi ptr [ %20, %197 ], [ null, %28 ], [ null, %33 ], [ null, %48 ], [ null, %190 ]
  ret ptr %202
}

; Function Attrs: nofree nounwind uwtable
define internal fastcc noalias noundef ptr @word(ptr nocapture noundef %0, ptr nocapture noundef readonly %1, i32 noundef %2) unnamed_addr #14 {
  %4 = getelementptr inbounds i8, ptr %0, i64 8
  %5 = load ptr, ptr %4, align 8, !tbaa !10
  %6 = tail call i64 @strlen(ptr noundef nonnull dereferenceable(1) %1) #17
  %7 = tail call i32 @strncmp(ptr noundef %5, ptr noundef %1, i64 noundef %6) #17
  %8 = icmp eq i32 %7, 0
  br i1 %8, label %33, label %9

9:                                                ; preds = %3
  %10 = getelementptr inbounds i8, ptr %0, i64 16
  %11 = load ptr, ptr %10, align 8, !tbaa !11
  %12 = load ptr, ptr %11, align 8, !tbaa !12
  %13 = icmp eq ptr %12, null
  br i1 %13, label %14, label %62

14:                                               ; preds = %9
  store ptr @.str.13, ptr %11, align 8, !tbaa !12
  %15 = getelementptr inbounds i8, ptr %11, i64 16
  store i64 1, ptr %15, align 8, !tbaa !19
  %16 = getelementptr inbounds i8, ptr %11, i64 8
  store i64 1, ptr %16, align 8, !tbaa !20
  %17 = load ptr, ptr %0, align 8, !tbaa !5
  %18 = icmp ult ptr %17, %5
  br i1 %18, label %19, label %62

19:                                               ; preds = %29, %14
  %20 = phi i64 [ %30, %29 ], [ 1, %14 ]
  %21 = phi ptr [ %31, %29 ], [ %17, %14 ]
  %22 = load i8, ptr %21, align 1, !tbaa !15
  %23 = icmp eq i8 %22, 10
  br i1 %23, label %24, label %27

24:                                               ; preds = %19
  %25 = load i64, ptr %16, align 8, !tbaa !20
  %26 = add i64 %25, 1
  store i64 %26, ptr %16, align 8, !tbaa !20
  br label %29

27:                                               ; preds = %19
  %28 = add i64 %20, 1
  br label %29

29:                                               ; preds = %27, %24
  %30 = phi i64 [ %28, %27 ], [ 1, %24 ]
  store i64 %30, ptr %15, align 8, !tbaa !19
  %31 = getelementptr inbounds i8, ptr %21, i64 1
  %32 = icmp eq ptr %31, %5
  br i1 %32, label %62, label %19, !llvm.loop !119

33:                                               ; preds = %3
  %34 = getelementptr inbounds i8, ptr %5, i64 %6
  store ptr %34, ptr %4, align 8, !tbaa !10
  %35 = tail call dereferenceable_or_null(48) ptr @__sized_calloc(i64 noundef 1, i64 noundef 48) #21
  %36 = icmp eq ptr %35, null
  br i1 %36, label %37, label %61

37:                                               ; preds = %33
  %38 = getelementptr inbounds i8, ptr %0, i64 16
  %39 = load ptr, ptr %38, align 8, !tbaa !11
  %40 = load ptr, ptr %39, align 8, !tbaa !12
  %41 = icmp eq ptr %40, null
  br i1 %41, label %42, label %62

42:                                               ; preds = %37
  store ptr @.str.9, ptr %39, align 8, !tbaa !12
  %43 = getelementptr inbounds i8, ptr %39, i64 16
  store i64 1, ptr %43, align 8, !tbaa !19
  %44 = getelementptr inbounds i8, ptr %39, i64 8
  store i64 1, ptr %44, align 8, !tbaa !20
  %45 = load ptr, ptr %0, align 8, !tbaa !5
  %46 = icmp ult ptr %45, %34
  br i1 %46, label %47, label %62

47:                                               ; preds = %57, %42
  %48 = phi i64 [ %58, %57 ], [ 1, %42 ]
  %49 = phi ptr [ %59, %57 ], [ %45, %42 ]
  %50 = load i8, ptr %49, align 1, !tbaa !15
  %51 = icmp eq i8 %50, 10
  br i1 %51, label %52, label %55

52:                                               ; preds = %47
  %53 = load i64, ptr %44, align 8, !tbaa !20
  %54 = add i64 %53, 1
  store i64 %54, ptr %44, align 8, !tbaa !20
  br label %57

55:                                               ; preds = %47
  %56 = add i64 %48, 1
  br label %57

57:                                               ; preds = %55, %52
  %58 = phi i64 [ %56, %55 ], [ 1, %52 ]
  store i64 %58, ptr %43, align 8, !tbaa !19
  %59 = getelementptr inbounds i8, ptr %49, i64 1
  %60 = icmp eq ptr %59, %34
  br i1 %60, label %62, label %47, !llvm.loop !120

61:                                               ; preds = %33
  store i32 %2, ptr %35, align 8, !tbaa !25
  br label %62

62:                                               ; preds = %61, %57, %42, %37, %29, %14, %9
  %63 = phi ptr [ null, %9 ], [ null, %14 ], [ %35, %61 ], [ null, %37 ], [ null, %42 ], [ null, %57 ], [ null, %29 ]
  ret ptr %63
}

; Function Attrs: nofree norecurse nosync nounwind optsize memory(readwrite, inaccessiblemem: none) uwtable
define internal i64 @strtoll(ptr noalias noundef %0, ptr noalias noundef %1, i32 noundef %2) local_unnamed_addr #5 {
  %4 = alloca %struct.number, align 8
  call void @llvm.lifetime.start.p0(i64 16, ptr nonnull %4) #17
  %5 = call fastcc ptr @scan(ptr noundef nonnull %4, ptr noundef %0, ptr noundef %1, i32 noundef %2, i64 noundef 9223372036854775807, i64 noundef -9223372036854775808) #20
  %6 = getelementptr inbounds i8, ptr %4, i64 8
  %7 = load i32, ptr %6, align 8, !tbaa !60
  %8 = icmp eq i32 %7, 0
  %9 = load i64, ptr %4, align 8
  %10 = sub i64 0, %9
  %11 = select i1 %8, i64 %9, i64 %10
  call void @llvm.lifetime.end.p0(i64 16, ptr nonnull %4) #17
  ret i64 %11
}

; Function Attrs: nofree norecurse nosync nounwind optsize memory(read, inaccessiblemem: none) uwtable
define internal noundef ptr @memchr(ptr noundef readonly %0, i32 noundef %1, i64 noundef %2) local_unnamed_addr #3 {
  %4 = icmp eq i64 %2, 0
  br i1 %4, label %16, label %5

5:                                                ; preds = %3
  %6 = trunc i32 %1 to i8
  br label %7

7:                                                ; preds = %12, %5
  %8 = phi ptr [ %0, %5 ], [ %14, %12 ]
  %9 = phi i64 [ %2, %5 ], [ %13, %12 ]
  %10 = load i8, ptr %8, align 1, !tbaa !15
  %11 = icmp eq i8 %10, %6
  br i1 %11, label %16, label %12

12:                                               ; preds = %7
  %13 = add i64 %9, -1
  %14 = getelementptr inbounds i8, ptr %8, i64 1
  %15 = icmp eq i64 %13, 0
  br i1 %15, label %16, label %7, !llvm.loop !121

16:                                               ; preds = %12, %7, %3
  %17 = phi ptr [ null, %3 ], [ null, %12 ], [ %8, %7 ]
  ret ptr %17
}

; Function Attrs: mustprogress nofree norecurse nosync nounwind optsize willreturn memory(none) uwtable
define internal range(i32 0, 2) i32 @isxdigit(i32 noundef %0) local_unnamed_addr #15 {
  %2 = add i32 %0, -48
  %3 = icmp ult i32 %2, 10
  %4 = and i32 %0, -33
  %5 = add i32 %4, -65
  %6 = icmp ult i32 %5, 6
  %7 = or i1 %6, %3
  %8 = zext i1 %7 to i32
  ret i32 %8
}

; Function Attrs: mustprogress nofree norecurse nosync nounwind optsize willreturn memory(none) uwtable
define internal i32 @tolower(i32 noundef %0) local_unnamed_addr #15 {
  %2 = add i32 %0, -91
  %3 = icmp ult i32 %2, -26
  %4 = add nuw nsw i32 %0, 32
  %5 = select i1 %3, i32 %0, i32 %4
  ret i32 %5
}

; Function Attrs: optsize
declare dso_local ptr @calloc(i64 noundef, i64 noundef) local_unnamed_addr #16

; Function Attrs: nounwind optsize uwtable
define internal i32 @fgetc(ptr nocapture noundef %0) local_unnamed_addr #2 {
  %2 = load i8, ptr %0, align 8, !tbaa !46
  %3 = icmp eq i8 %2, 0
  br i1 %3, label %4, label %20

4:                                                ; preds = %1
  %5 = getelementptr inbounds i8, ptr %0, i64 2
  %6 = load i8, ptr %5, align 2, !tbaa !122
  %7 = icmp eq i8 %6, 0
  br i1 %7, label %12, label %8

8:                                                ; preds = %4
  store i8 0, ptr %5, align 2, !tbaa !122
  %9 = getelementptr inbounds i8, ptr %0, i64 3
  %10 = load i8, ptr %9, align 1, !tbaa !123
  %11 = zext i8 %10 to i32
  br label %20

12:                                               ; preds = %4
  %13 = getelementptr inbounds i8, ptr %0, i64 1
  %14 = load i8, ptr %13, align 1, !tbaa !124
  %15 = icmp eq i8 %14, 0
  br i1 %15, label %16, label %20

16:                                               ; preds = %12
  %17 = tail call i32 @getchar() #22
  %18 = icmp eq i32 %17, -1
  br i1 %18, label %19, label %20

19:                                               ; preds = %16
  store i8 1, ptr %13, align 1, !tbaa !124
  br label %20

20:                                               ; preds = %19, %16, %12, %8, %1
  %21 = phi i32 [ %11, %8 ], [ -1, %1 ], [ -1, %12 ], [ -1, %19 ], [ %17, %16 ]
  ret i32 %21
}

; Function Attrs: optsize
declare dso_local i32 @getchar() local_unnamed_addr #16

attributes #0 = { nounwind uwtable "min-legal-vector-width"="0" "no-trapping-math"="true" "stack-protector-buffer-size"="8" "target-cpu"="x86-64" "target-features"="+cmov,+cx8,+fxsr,+mmx,+sse,+sse2,+x87" "tune-cpu"="generic" }
attributes #1 = { nocallback nofree nosync nounwind willreturn memory(argmem: readwrite) }
attributes #2 = { nounwind optsize uwtable "min-legal-vector-width"="0" "no-builtins" "no-jump-tables"="true" "no-trapping-math"="true" "stack-protector-buffer-size"="8" "target-cpu"="x86-64" "target-features"="+cmov,+cx8,+fxsr,+mmx,+sse,+sse2,+x87" "tune-cpu"="generic" }
attributes #3 = { nofree norecurse nosync nounwind optsize memory(read, inaccessiblemem: none) uwtable "min-legal-vector-width"="0" "no-builtins" "no-jump-tables"="true" "no-trapping-math"="true" "stack-protector-buffer-size"="8" "target-cpu"="x86-64" "target-features"="+cmov,+cx8,+fxsr,+mmx,+sse,+sse2,+x87" "tune-cpu"="generic" }
attributes #4 = { nofree nosync nounwind memory(read, inaccessiblemem: none) uwtable "min-legal-vector-width"="0" "no-trapping-math"="true" "stack-protector-buffer-size"="8" "target-cpu"="x86-64" "target-features"="+cmov,+cx8,+fxsr,+mmx,+sse,+sse2,+x87" "tune-cpu"="generic" }
attributes #5 = { nofree norecurse nosync nounwind optsize memory(readwrite, inaccessiblemem: none) uwtable "min-legal-vector-width"="0" "no-builtins" "no-jump-tables"="true" "no-trapping-math"="true" "stack-protector-buffer-size"="8" "target-cpu"="x86-64" "target-features"="+cmov,+cx8,+fxsr,+mmx,+sse,+sse2,+x87" "tune-cpu"="generic" }
attributes #6 = { nofree nounwind "no-trapping-math"="true" "stack-protector-buffer-size"="8" "target-cpu"="x86-64" "target-features"="+cmov,+cx8,+fxsr,+mmx,+sse,+sse2,+x87" "tune-cpu"="generic" }
attributes #7 = { nofree norecurse nosync nounwind optsize uwtable "min-legal-vector-width"="0" "no-builtins" "no-jump-tables"="true" "no-trapping-math"="true" "stack-protector-buffer-size"="8" "target-cpu"="x86-64" "target-features"="+cmov,+cx8,+fxsr,+mmx,+sse,+sse2,+x87" "tune-cpu"="generic" }
attributes #8 = { noreturn "no-trapping-math"="true" "stack-protector-buffer-size"="8" "target-cpu"="x86-64" "target-features"="+cmov,+cx8,+fxsr,+mmx,+sse,+sse2,+x87" "tune-cpu"="generic" }
attributes #9 = { nocallback nofree nounwind willreturn memory(argmem: readwrite) }
attributes #10 = { noinline nounwind optsize uwtable "min-legal-vector-width"="0" "no-builtins" "no-jump-tables"="true" "no-trapping-math"="true" "stack-protector-buffer-size"="8" "target-cpu"="x86-64" "target-features"="+cmov,+cx8,+fxsr,+mmx,+sse,+sse2,+x87" "tune-cpu"="generic" }
attributes #11 = { mustprogress nounwind willreturn allockind("free") memory(argmem: readwrite, inaccessiblemem: readwrite) "alloc-family"="malloc" "no-trapping-math"="true" "stack-protector-buffer-size"="8" "target-cpu"="x86-64" "target-features"="+cmov,+cx8,+fxsr,+mmx,+sse,+sse2,+x87" "tune-cpu"="generic" }
attributes #12 = { nocallback nofree nosync nounwind speculatable willreturn memory(none) }
attributes #13 = { mustprogress nofree nounwind willreturn allockind("alloc,uninitialized") allocsize(0) memory(inaccessiblemem: readwrite) "alloc-family"="malloc" "no-trapping-math"="true" "stack-protector-buffer-size"="8" "target-cpu"="x86-64" "target-features"="+cmov,+cx8,+fxsr,+mmx,+sse,+sse2,+x87" "tune-cpu"="generic" }
attributes #14 = { nofree nounwind uwtable "min-legal-vector-width"="0" "no-trapping-math"="true" "stack-protector-buffer-size"="8" "target-cpu"="x86-64" "target-features"="+cmov,+cx8,+fxsr,+mmx,+sse,+sse2,+x87" "tune-cpu"="generic" }
attributes #15 = { mustprogress nofree norecurse nosync nounwind optsize willreturn memory(none) uwtable "min-legal-vector-width"="0" "no-builtins" "no-jump-tables"="true" "no-trapping-math"="true" "stack-protector-buffer-size"="8" "target-cpu"="x86-64" "target-features"="+cmov,+cx8,+fxsr,+mmx,+sse,+sse2,+x87" "tune-cpu"="generic" }
attributes #16 = { optsize "no-builtins" "no-trapping-math"="true" "stack-protector-buffer-size"="8" "target-cpu"="x86-64" "target-features"="+cmov,+cx8,+fxsr,+mmx,+sse,+sse2,+x87" "tune-cpu"="generic" }
attributes #17 = { nounwind }
attributes #18 = { allocsize(1) }
attributes #19 = { noreturn nounwind }
attributes #20 = { nobuiltin optsize "no-builtins" }
attributes #21 = { allocsize(0,1) }
attributes #22 = { nobuiltin nounwind optsize "no-builtins" }
attributes #23 = { allocsize(0) }
attributes #24 = { nounwind willreturn memory(read) }

!llvm.ident = !{!0, !0, !0, !0, !0, !0}
!llvm.module.flags = !{!1, !2, !3, !4}

!0 = !{!"Debian clang version 19.1.7 (3~deb12u1)"}
!1 = !{i32 7, !"Dwarf Version", i32 5}
!2 = !{i32 2, !"Debug Info Version", i32 3}
!3 = !{i32 1, !"wchar_size", i32 4}
!4 = !{i32 7, !"uwtable", i32 2}
!5 = !{!6, !7, i64 0}
!6 = !{!"reader", !7, i64 0, !7, i64 8, !7, i64 16}
!7 = !{!"any pointer", !8, i64 0}
!8 = !{!"omnipotent char", !9, i64 0}
!9 = !{!"Simple C/C++ TBAA"}
!10 = !{!6, !7, i64 8}
!11 = !{!6, !7, i64 16}
!12 = !{!13, !7, i64 0}
!13 = !{!"fault", !7, i64 0, !14, i64 8, !14, i64 16}
!14 = !{!"long", !8, i64 0}
!15 = !{!8, !8, i64 0}
!16 = distinct !{!16, !17, !18}
!17 = !{!"llvm.loop.mustprogress"}
!18 = !{!"llvm.loop.unroll.disable"}
!19 = !{!13, !14, i64 16}
!20 = !{!13, !14, i64 8}
!21 = distinct !{!21, !17, !18}
!22 = !{!23, !7, i64 32}
!23 = !{!"value", !24, i64 0, !14, i64 8, !7, i64 16, !7, i64 24, !7, i64 32, !7, i64 40}
!24 = !{!"int", !8, i64 0}
!25 = !{!23, !24, i64 0}
!26 = !{!23, !7, i64 40}
!27 = distinct !{!27, !17, !18}
!28 = !{!23, !7, i64 24}
!29 = distinct !{!29, !17, !18}
!30 = distinct !{!30, !17, !18}
!31 = distinct !{!31, !17, !18}
!32 = distinct !{!32, !17, !18}
!33 = distinct !{!33, !17}
!34 = distinct !{!34, !17}
!35 = distinct !{!35, !17, !18}
!36 = distinct !{!36, !17, !18}
!37 = distinct !{!37, !17, !18}
!38 = !{!23, !7, i64 16}
!39 = distinct !{!39, !17, !18}
!40 = distinct !{!40, !17, !18}
!41 = !{!7, !7, i64 0}
!42 = distinct !{!42, !17, !18}
!43 = distinct !{!43, !17, !18}
!44 = !{!23, !14, i64 8}
!45 = distinct !{!45, !17, !18}
!46 = !{!47, !8, i64 0}
!47 = !{!"__stream", !8, i64 0, !8, i64 1, !8, i64 2, !8, i64 3, !7, i64 8, !14, i64 16}
!48 = !{!49}
!49 = distinct !{!49, !50, !"fwrite: %stream"}
!50 = distinct !{!50, !"fwrite"}
!51 = !{!52}
!52 = distinct !{!52, !50, !"fwrite: %from"}
!53 = distinct !{!53, !17}
!54 = distinct !{!54, !17}
!55 = distinct !{!55, !17}
!56 = distinct !{!56, !17}
!57 = distinct !{!57, !17}
!58 = distinct !{!58, !17, !18}
!59 = distinct !{!59, !17, !18}
!60 = !{!61, !24, i64 8}
!61 = !{!"number", !62, i64 0, !24, i64 8, !24, i64 12}
!62 = !{!"long long", !8, i64 0}
!63 = distinct !{!63, !17}
!64 = !{!14, !14, i64 0}
!65 = !{!66}
!66 = distinct !{!66, !67, !"memcpy: %from"}
!67 = distinct !{!67, !"memcpy"}
!68 = !{!69}
!69 = distinct !{!69, !67, !"memcpy: %to"}
!70 = distinct !{!70, !17}
!71 = !{!72}
!72 = distinct !{!72, !73, !"memcpy: %from"}
!73 = distinct !{!73, !"memcpy"}
!74 = !{!75}
!75 = distinct !{!75, !73, !"memcpy: %to"}
!76 = distinct !{!76, !17}
!77 = !{!47, !14, i64 16}
!78 = !{!47, !7, i64 8}
!79 = !{!61, !62, i64 0}
!80 = !{!61, !24, i64 12}
!81 = !{!24, !24, i64 0}
!82 = distinct !{!82, !17}
!83 = distinct !{!83, !17}
!84 = distinct !{!84, !17}
!85 = distinct !{!85, !17}
!86 = distinct !{!86, !17}
!87 = !{!88}
!88 = distinct !{!88, !89, !"fwrite: %stream"}
!89 = distinct !{!89, !"fwrite"}
!90 = !{!91}
!91 = distinct !{!91, !89, !"fwrite: %from"}
!92 = !{!93}
!93 = distinct !{!93, !94, !"fwrite: %stream"}
!94 = distinct !{!94, !"fwrite"}
!95 = !{!96}
!96 = distinct !{!96, !94, !"fwrite: %from"}
!97 = distinct !{!97, !17, !18}
!98 = distinct !{!98, !17, !18}
!99 = !{!100}
!100 = distinct !{!100, !101, !"fwrite: %stream"}
!101 = distinct !{!101, !"fwrite"}
!102 = !{!103}
!103 = distinct !{!103, !101, !"fwrite: %from"}
!104 = distinct !{!104, !17, !18}
!105 = distinct !{!105, !17, !18}
!106 = distinct !{!106, !17, !18}
!107 = distinct !{!107, !17, !18}
!108 = distinct !{!108, !17, !18}
!109 = distinct !{!109, !17, !18}
!110 = distinct !{!110, !17, !18}
!111 = distinct !{!111, !17, !18}
!112 = distinct !{!112, !18}
!113 = distinct !{!113, !17, !18}
!114 = distinct !{!114, !17, !18}
!115 = distinct !{!115, !17, !18}
!116 = distinct !{!116, !17, !18}
!117 = distinct !{!117, !17, !18}
!118 = distinct !{!118, !17, !18}
!119 = distinct !{!119, !17, !18}
!120 = distinct !{!120, !17, !18}
!121 = distinct !{!121, !17}
!122 = !{!47, !8, i64 2}
!123 = !{!47, !8, i64 3}
!124 = !{!47, !8, i64 1}
