source_filename = "main.c"
target datalayout = "E-m:m-p:32:32-i8:8:32-i16:16:32-i64:64-n32-S64"
target triple = "mips-unknown-linux-gnu"

%struct.__stream = type { i8, i8, i8, i8, ptr, i32 }
%struct.reader = type { ptr, ptr, ptr }
%struct.text = type { ptr, i32, i32 }
%struct.number = type { i64, i32, i32 }

@main.asked = internal global [8 x [80 x i8]] zeroinitializer, align 1
@.str = private unnamed_addr constant [3 x i8] c".\0A\00", align 1
@.str.2 = private unnamed_addr constant [37 x i8] c"refused in line %zu, column %zu: %s\0A\00", align 1
@.str.3 = private unnamed_addr constant [22 x i8] c"\0A%zu values, %d deep\0A\00", align 1
@.str.4 = private unnamed_addr constant [2 x i8] c"\0A\00", align 1
@.str.5 = private unnamed_addr constant [8 x i8] c"? %s = \00", align 1
@.str.6 = private unnamed_addr constant [8 x i8] c"nothing\00", align 1
@.str.7 = private unnamed_addr constant [20 x i8] c"more than one value\00", align 1
@.str.1.8 = private unnamed_addr constant [9 x i8] c"too deep\00", align 1
@.str.5.12 = private unnamed_addr constant [8 x i8] c"the end\00", align 1
@.str.6.13 = private unnamed_addr constant [24 x i8] c"a member without a name\00", align 1
@.str.7.14 = private unnamed_addr constant [23 x i8] c"a name without a colon\00", align 1
@.str.8 = private unnamed_addr constant [27 x i8] c"neither a comma nor an end\00", align 1
@.str.9 = private unnamed_addr constant [14 x i8] c"out of memory\00", align 1
@.str.10 = private unnamed_addr constant [25 x i8] c"a control byte in a text\00", align 1
@.str.11 = private unnamed_addr constant [26 x i8] c"a text that is not closed\00", align 1
@string.from = internal constant [9 x i8] c"\22\\/bfnrt\00", align 1
@string.meant = internal unnamed_addr constant [9 x i8] c"\22\\/\08\0C\0A\0D\09\00", align 1
@.str.12 = private unnamed_addr constant [23 x i8] c"an escape that is none\00", align 1
@.str.13 = private unnamed_addr constant [20 x i8] c"a word that is none\00", align 1
@.str.14 = private unnamed_addr constant [22 x i8] c"a number that is none\00", align 1
@.str.15 = private unnamed_addr constant [27 x i8] c"a number that is not whole\00", align 1
@.str.23 = private unnamed_addr constant [2 x i8] c".\00", align 1
@.str.1.26 = private unnamed_addr constant [5 x i8] c"null\00", align 1
@.str.2.27 = private unnamed_addr constant [6 x i8] c"false\00", align 1
@.str.3.28 = private unnamed_addr constant [5 x i8] c"true\00", align 1
@.str.5.30 = private unnamed_addr constant [3 x i8] c"[]\00", align 1
@.str.6.31 = private unnamed_addr constant [3 x i8] c"{}\00", align 1
@.str.7.37 = private unnamed_addr constant [4 x i8] c"\\%c\00", align 1
@.str.8.38 = private unnamed_addr constant [3 x i8] c"\\n\00", align 1
@.str.9.39 = private unnamed_addr constant [7 x i8] c"\\u%04x\00", align 1
@.str.10.34 = private unnamed_addr constant [7 x i8] c"%s\0A%*s\00", align 1
@.str.11.32 = private unnamed_addr constant [1 x i8] zeroinitializer, align 1
@.str.12.33 = private unnamed_addr constant [2 x i8] c",\00", align 1
@.str.13.35 = private unnamed_addr constant [3 x i8] c": \00", align 1
@.str.14.36 = private unnamed_addr constant [5 x i8] c"\0A%*s\00", align 1
@.str.17 = private unnamed_addr constant [1 x i8] zeroinitializer, align 1
@.str.1 = private unnamed_addr constant [7 x i8] c"(null)\00", align 1
@.str.2.24 = private unnamed_addr constant [2 x i8] c"-\00", align 1
@.str.3.25 = private unnamed_addr constant [2 x i8] c"+\00", align 1
@.str.4.23 = private unnamed_addr constant [2 x i8] c" \00", align 1
@.str.5.31 = private unnamed_addr constant [3 x i8] c"0X\00", align 1
@.str.6.29 = private unnamed_addr constant [3 x i8] c"0x\00", align 1
@.str.8.28 = private unnamed_addr constant [17 x i8] c"0123456789ABCDEF\00", align 1
@.str.9.22 = private unnamed_addr constant [17 x i8] c"0123456789abcdef\00", align 1
@__streams = internal global [3 x %struct.__stream] [%struct.__stream zeroinitializer, %struct.__stream { i8 1, i8 0, i8 0, i8 0, ptr null, i32 0 }, %struct.__stream { i8 2, i8 0, i8 0, i8 0, ptr null, i32 0 }], align 4
@errno = internal local_unnamed_addr global i32 0, align 4

; Function Attrs: nounwind
define dso_local i32 @main() local_unnamed_addr #0 {
entry:
  %it.i.i = alloca %struct.reader, align 4
  %fault.i = alloca %struct.text, align 4
  %line = alloca [160 x i8], align 4
  call void @llvm.lifetime.start.p0(i64 160, ptr nonnull %line) #16
  %call22 = call ptr @fgets(ptr noundef nonnull %line, i32 noundef signext 160, ptr noundef nonnull @__streams)
  %tobool.not23 = icmp eq ptr %call22, null
  br i1 %tobool.not23, label %while.end, label %while.body.lr.ph

while.body.lr.ph:                                 ; preds = %entry
  %add.ptr = getelementptr inbounds i8, ptr %line, i32 1
  %at.i.i = getelementptr inbounds i8, ptr %it.i.i, i32 4
  %fault2.i.i = getelementptr inbounds i8, ptr %it.i.i, i32 8
  %line.i = getelementptr inbounds i8, ptr %fault.i, i32 4
  %column.i = getelementptr inbounds i8, ptr %fault.i, i32 8
  br label %while.body

while.body:                                       ; preds = %if.end15, %while.body.lr.ph
  %read.028 = phi i32 [ 0, %while.body.lr.ph ], [ %read.1, %if.end15 ]
  %questions.027 = phi i32 [ 0, %while.body.lr.ph ], [ %questions.1, %if.end15 ]
  %text.sroa.14.026 = phi i32 [ 0, %while.body.lr.ph ], [ %text.sroa.14.2, %if.end15 ]
  %text.sroa.8.025 = phi i32 [ 0, %while.body.lr.ph ], [ %text.sroa.8.1, %if.end15 ]
  %text.sroa.0.024 = phi ptr [ null, %while.body.lr.ph ], [ %text.sroa.0.2, %if.end15 ]
  %bcmp = call i32 @bcmp(ptr noundef nonnull dereferenceable(3) %line, ptr noundef nonnull dereferenceable(3) @.str, i32 3)
  %cmp = icmp eq i32 %bcmp, 0
  br i1 %cmp, label %if.then, label %if.else

if.then:                                          ; preds = %while.body
  call void @llvm.lifetime.start.p0(i64 12, ptr nonnull %fault.i) #16
  %tobool.not.i = icmp eq i32 %text.sroa.8.025, 0
  %spec.select = select i1 %tobool.not.i, ptr @.str.11.32, ptr %text.sroa.0.024
  call void @llvm.lifetime.start.p0(i64 12, ptr nonnull %it.i.i) #16
  store ptr %spec.select, ptr %it.i.i, align 4, !tbaa !4
  store ptr %spec.select, ptr %at.i.i, align 4, !tbaa !9
  store ptr %fault.i, ptr %fault2.i.i, align 4, !tbaa !10
  store ptr null, ptr %fault.i, align 4, !tbaa !11
  %call.i.i = call fastcc ptr @value(ptr noundef nonnull %it.i.i, i32 noundef signext 0)
  %tobool.not.i.i = icmp eq ptr %call.i.i, null
  br i1 %tobool.not.i.i, label %json_read.exit.i, label %if.end.i.i

if.end.i.i:                                       ; preds = %if.then
  %at.promoted.i.i.i = load ptr, ptr %at.i.i, align 4, !tbaa !9
  br label %while.cond.i.i.i

while.cond.i.i.i:                                 ; preds = %while.body.i.i.i, %if.end.i.i
  %v0 = phi ptr [ %incdec.ptr.i.i.i, %while.body.i.i.i ], [ %at.promoted.i.i.i, %if.end.i.i ]
  %v1 = load i8, ptr %v0, align 1, !tbaa !14
  switch i8 %v1, label %skip.exit.i.i [
    i8 32, label %while.body.i.i.i
    i8 9, label %while.body.i.i.i
    i8 10, label %while.body.i.i.i
    i8 13, label %while.body.i.i.i
  ]

while.body.i.i.i:                                 ; preds = %while.cond.i.i.i, %while.cond.i.i.i, %while.cond.i.i.i, %while.cond.i.i.i
  %incdec.ptr.i.i.i = getelementptr inbounds i8, ptr %v0, i32 1
  br label %while.cond.i.i.i, !llvm.loop !15

skip.exit.i.i:                                    ; preds = %while.cond.i.i.i
  store ptr %v0, ptr %at.i.i, align 4, !tbaa !9
  %tobool4.not.i.i = icmp eq i8 %v1, 0
  br i1 %tobool4.not.i.i, label %json_read.exit.i, label %if.then5.i.i

if.then5.i.i:                                     ; preds = %skip.exit.i.i
  %v2 = load ptr, ptr %fault2.i.i, align 4, !tbaa !10
  %v3 = load ptr, ptr %v2, align 4, !tbaa !11
  %tobool.not.i.i.i = icmp eq ptr %v3, null
  br i1 %tobool.not.i.i.i, label %if.then.i.i.i, label %refuse.exit.i.i

if.then.i.i.i:                                    ; preds = %if.then5.i.i
  store ptr @.str.7, ptr %v2, align 4, !tbaa !11
  %column.i.i.i = getelementptr inbounds i8, ptr %v2, i32 8
  store i32 1, ptr %column.i.i.i, align 4, !tbaa !18
  %line.i.i.i = getelementptr inbounds i8, ptr %v2, i32 4
  store i32 1, ptr %line.i.i.i, align 4, !tbaa !19
  %v4 = load ptr, ptr %it.i.i, align 4, !tbaa !4
  %cmp11.i.i.i = icmp ult ptr %v4, %v0
  br i1 %cmp11.i.i.i, label %for.body.i.i.i, label %refuse.exit.i.i

for.body.i.i.i:                                   ; preds = %for.inc.i.i.i, %if.then.i.i.i
  %storemerge13.i.i.i = phi i32 [ %storemerge.i.i.i, %for.inc.i.i.i ], [ 1, %if.then.i.i.i ]
  %p.012.i.i.i = phi ptr [ %incdec.ptr.i6.i.i, %for.inc.i.i.i ], [ %v4, %if.then.i.i.i ]
  %v5 = load i8, ptr %p.012.i.i.i, align 1, !tbaa !14
  %cmp6.i.i.i = icmp eq i8 %v5, 10
  br i1 %cmp6.i.i.i, label %if.then8.i.i.i, label %if.else.i.i.i

if.then8.i.i.i:                                   ; preds = %for.body.i.i.i
  %v6 = load i32, ptr %line.i.i.i, align 4, !tbaa !19
  %inc.i.i.i = add i32 %v6, 1
  store i32 %inc.i.i.i, ptr %line.i.i.i, align 4, !tbaa !19
  br label %for.inc.i.i.i

if.else.i.i.i:                                    ; preds = %for.body.i.i.i
  %inc15.i.i.i = add i32 %storemerge13.i.i.i, 1
  br label %for.inc.i.i.i

for.inc.i.i.i:                                    ; preds = %if.else.i.i.i, %if.then8.i.i.i
  %storemerge.i.i.i = phi i32 [ %inc15.i.i.i, %if.else.i.i.i ], [ 1, %if.then8.i.i.i ]
  store i32 %storemerge.i.i.i, ptr %column.i.i.i, align 4, !tbaa !18
  %incdec.ptr.i6.i.i = getelementptr inbounds i8, ptr %p.012.i.i.i, i32 1
  %exitcond.not.i.i.i = icmp eq ptr %incdec.ptr.i6.i.i, %v0
  br i1 %exitcond.not.i.i.i, label %refuse.exit.i.i, label %for.body.i.i.i, !llvm.loop !20

refuse.exit.i.i:                                  ; preds = %for.inc.i.i.i, %if.then.i.i.i, %if.then5.i.i
  call fastcc void @json_free(ptr noundef nonnull %call.i.i)
  br label %json_read.exit.i

json_read.exit.i:                                 ; preds = %refuse.exit.i.i, %skip.exit.i.i, %if.then
  %retval.0.i.i = phi ptr [ null, %refuse.exit.i.i ], [ null, %if.then ], [ %call.i.i, %skip.exit.i.i ]
  call void @llvm.lifetime.end.p0(i64 12, ptr nonnull %it.i.i) #16
  %tobool1.not.i = icmp eq ptr %retval.0.i.i, null
  br i1 %tobool1.not.i, label %if.then.i, label %if.end.i

if.then.i:                                        ; preds = %json_read.exit.i
  %v7 = load i32, ptr %line.i, align 4, !tbaa !19
  %v8 = load i32, ptr %column.i, align 4, !tbaa !18
  %v9 = load ptr, ptr %fault.i, align 4, !tbaa !11
  %print.198.0.i = call i32 @__print_text(ptr nonnull getelementptr inbounds (i8, ptr @__streams, i32 12), ptr nonnull @.str.2, i32 16) #16
  %print.198.1.i = zext i32 %v7 to i64
  %print.198.2.i = call i32 @__print_unsigned(ptr nonnull getelementptr inbounds (i8, ptr @__streams, i32 12), i64 %print.198.1.i, i32 10, i32 0, i32 0, i32 -1) #16
  %print.198.3.i = call i32 @__print_text(ptr nonnull getelementptr inbounds (i8, ptr @__streams, i32 12), ptr nonnull getelementptr inbounds (i8, ptr @.str.2, i32 19), i32 9) #16
  %print.198.4.i = zext i32 %v8 to i64
  %print.198.5.i = call i32 @__print_unsigned(ptr nonnull getelementptr inbounds (i8, ptr @__streams, i32 12), i64 %print.198.4.i, i32 10, i32 0, i32 0, i32 -1) #16
  %print.198.6.i = call i32 @__print_text(ptr nonnull getelementptr inbounds (i8, ptr @__streams, i32 12), ptr nonnull getelementptr inbounds (i8, ptr @.str.2, i32 31), i32 2) #16
  %print.198.7.i = call i32 @__print_string(ptr nonnull getelementptr inbounds (i8, ptr @__streams, i32 12), ptr %v9, i32 0, i32 0, i32 -1) #16
  %print.198.8.i = call i32 @__print_text(ptr nonnull getelementptr inbounds (i8, ptr @__streams, i32 12), ptr nonnull getelementptr inbounds (i8, ptr @.str.2, i32 35), i32 1) #16
  br label %show.exit

if.end.i:                                         ; preds = %json_read.exit.i
  call fastcc void @json_write(ptr noundef nonnull %retval.0.i.i, i32 noundef signext 0)
  %call3.i = call fastcc i32 @json_count(ptr noundef nonnull %retval.0.i.i)
  %call4.i = call fastcc i32 @json_depth(ptr noundef nonnull %retval.0.i.i)
  %print.210.0.i = call i32 @__print_text(ptr nonnull getelementptr inbounds (i8, ptr @__streams, i32 12), ptr nonnull @.str.3, i32 1) #16
  %print.210.1.i = zext i32 %call3.i to i64
  %print.210.2.i = call i32 @__print_unsigned(ptr nonnull getelementptr inbounds (i8, ptr @__streams, i32 12), i64 %print.210.1.i, i32 10, i32 0, i32 0, i32 -1) #16
  %print.210.3.i = call i32 @__print_text(ptr nonnull getelementptr inbounds (i8, ptr @__streams, i32 12), ptr nonnull getelementptr inbounds (i8, ptr @.str.3, i32 4), i32 9) #16
  %print.210.4.i = sext i32 %call4.i to i64
  %print.210.5.i = call i32 @__print_signed(ptr nonnull getelementptr inbounds (i8, ptr @__streams, i32 12), i64 %print.210.4.i, i32 0, i32 0, i32 -1) #16
  %print.210.6.i = call i32 @__print_text(ptr nonnull getelementptr inbounds (i8, ptr @__streams, i32 12), ptr nonnull getelementptr inbounds (i8, ptr @.str.3, i32 15), i32 6) #16
  %cmp18.i = icmp sgt i32 %questions.027, 0
  br i1 %cmp18.i, label %for.body.i, label %for.cond.cleanup.i

for.cond.cleanup.i:                               ; preds = %answer.exit.i, %if.end.i
  call fastcc void @json_free(ptr noundef nonnull %retval.0.i.i)
  br label %show.exit

for.body.i:                                       ; preds = %answer.exit.i, %if.end.i
  %k.019.i = phi i32 [ %inc.i, %answer.exit.i ], [ 0, %if.end.i ]
  %arrayidx.i = getelementptr inbounds [80 x i8], ptr @main.asked, i32 %k.019.i
  %call.i9.i = call i32 @strcspn(ptr noundef nonnull %arrayidx.i, ptr noundef nonnull @.str.4)
  %arrayidx.i.i = getelementptr inbounds i8, ptr %arrayidx.i, i32 %call.i9.i
  store i8 0, ptr %arrayidx.i.i, align 1, !tbaa !14
  br label %land.rhs.i.i.i

land.rhs.i.i.i:                                   ; preds = %if.end.i.i.i, %for.body.i
  %it.addr.032.i.i.i = phi ptr [ %each.2.i.i.i, %if.end.i.i.i ], [ %retval.0.i.i, %for.body.i ]
  %path.addr.030.i.i.i = phi ptr [ %add.ptr.i.i.i, %if.end.i.i.i ], [ %arrayidx.i, %for.body.i ]
  %v10 = load i8, ptr %path.addr.030.i.i.i, align 1, !tbaa !14
  %tobool1.not.i.i.i = icmp eq i8 %v10, 0
  br i1 %tobool1.not.i.i.i, label %json_at.exit.i.i, label %while.body.i.i10.i

while.body.i.i10.i:                               ; preds = %land.rhs.i.i.i
  %call.i.i.i = call i32 @strcspn(ptr noundef nonnull %path.addr.030.i.i.i, ptr noundef nonnull @.str.23)
  %inside.i.i.i = getelementptr inbounds i8, ptr %it.addr.032.i.i.i, i32 24
  %v11 = load ptr, ptr %inside.i.i.i, align 8, !tbaa !21
  %v12 = load i32, ptr %it.addr.032.i.i.i, align 8, !tbaa !24
  %cmp.i.i.i = icmp eq i32 %v12, 5
  br i1 %cmp.i.i.i, label %if.then.i.i14.i, label %while.cond11.preheader.i.i.i

while.cond11.preheader.i.i.i:                     ; preds = %while.body.i.i10.i
  %tobool12.not20.i.i.i = icmp eq ptr %v11, null
  br i1 %tobool12.not20.i.i.i, label %if.end.i.i.i, label %land.rhs13.i.i.i

if.then.i.i14.i:                                  ; preds = %while.body.i.i10.i
  %call3.i.i.i = call i32 @strtol(ptr nocapture noundef nonnull %path.addr.030.i.i.i, ptr noundef null, i32 noundef signext 10)
  %tobool5.not23.i.i.i = icmp ne ptr %v11, null
  %cmp724.i.i.i = icmp sgt i32 %call3.i.i.i, 0
  %or.cond25.i.i.i = select i1 %tobool5.not23.i.i.i, i1 %cmp724.i.i.i, i1 false
  br i1 %or.cond25.i.i.i, label %while.body10.i.i.i, label %if.end.i.i.i

while.body10.i.i.i:                               ; preds = %while.body10.i.i.i, %if.then.i.i14.i
  %at.027.i.i.i = phi i32 [ %dec.i.i.i, %while.body10.i.i.i ], [ %call3.i.i.i, %if.then.i.i14.i ]
  %each.026.i.i.i = phi ptr [ %v13, %while.body10.i.i.i ], [ %v11, %if.then.i.i14.i ]
  %dec.i.i.i = add nsw i32 %at.027.i.i.i, -1
  %next.i.i.i = getelementptr inbounds i8, ptr %each.026.i.i.i, i32 28
  %v13 = load ptr, ptr %next.i.i.i, align 4, !tbaa !25
  %tobool5.not.i.i.i = icmp ne ptr %v13, null
  %cmp7.i.i.i = icmp sgt i32 %at.027.i.i.i, 1
  %or.cond.i.i.i = select i1 %tobool5.not.i.i.i, i1 %cmp7.i.i.i, i1 false
  br i1 %or.cond.i.i.i, label %while.body10.i.i.i, label %if.end.i.i.i, !llvm.loop !26

land.rhs13.i.i.i:                                 ; preds = %while.body26.i.i.i, %while.cond11.preheader.i.i.i
  %each.121.i.i.i = phi ptr [ %v15, %while.body26.i.i.i ], [ %v11, %while.cond11.preheader.i.i.i ]
  %name.i.i.i = getelementptr inbounds i8, ptr %each.121.i.i.i, i32 20
  %v14 = load ptr, ptr %name.i.i.i, align 4, !tbaa !27
  %tobool14.not.i.i.i = icmp eq ptr %v14, null
  br i1 %tobool14.not.i.i.i, label %while.body26.i.i.i, label %land.lhs.true.i.i.i

land.lhs.true.i.i.i:                              ; preds = %land.rhs13.i.i.i
  %call16.i.i.i = call i32 @strlen(ptr noundef nonnull dereferenceable(1) %v14) #16
  %cmp17.i.i.i = icmp eq i32 %call16.i.i.i, %call.i.i.i
  br i1 %cmp17.i.i.i, label %land.rhs19.i.i.i, label %while.body26.i.i.i

land.rhs19.i.i.i:                                 ; preds = %land.lhs.true.i.i.i
  %call21.i.i.i = call i32 @strncmp(ptr noundef nonnull %v14, ptr noundef nonnull %path.addr.030.i.i.i, i32 noundef signext %call.i.i.i) #16
  %cmp22.i.i.i = icmp eq i32 %call21.i.i.i, 0
  br i1 %cmp22.i.i.i, label %if.end.i.i.i, label %while.body26.i.i.i

while.body26.i.i.i:                               ; preds = %land.rhs19.i.i.i, %land.lhs.true.i.i.i, %land.rhs13.i.i.i
  %next27.i.i.i = getelementptr inbounds i8, ptr %each.121.i.i.i, i32 28
  %v15 = load ptr, ptr %next27.i.i.i, align 4, !tbaa !25
  %tobool12.not.i.i.i = icmp eq ptr %v15, null
  br i1 %tobool12.not.i.i.i, label %if.end.i.i.i, label %land.rhs13.i.i.i, !llvm.loop !28

if.end.i.i.i:                                     ; preds = %while.body26.i.i.i, %land.rhs19.i.i.i, %while.body10.i.i.i, %if.then.i.i14.i, %while.cond11.preheader.i.i.i
  %each.2.i.i.i = phi ptr [ %v11, %if.then.i.i14.i ], [ null, %while.cond11.preheader.i.i.i ], [ %v13, %while.body10.i.i.i ], [ %each.121.i.i.i, %land.rhs19.i.i.i ], [ null, %while.body26.i.i.i ]
  %arrayidx.i.i.i = getelementptr inbounds i8, ptr %path.addr.030.i.i.i, i32 %call.i.i.i
  %v16 = load i8, ptr %arrayidx.i.i.i, align 1, !tbaa !14
  %cmp30.i.i.i = icmp eq i8 %v16, 46
  %conv31.i.i.i = zext i1 %cmp30.i.i.i to i32
  %add.i.i.i = add i32 %call.i.i.i, %conv31.i.i.i
  %add.ptr.i.i.i = getelementptr inbounds i8, ptr %path.addr.030.i.i.i, i32 %add.i.i.i
  %tobool.not.i.i11.i = icmp eq ptr %each.2.i.i.i, null
  br i1 %tobool.not.i.i11.i, label %json_at.exit.i.i, label %land.rhs.i.i.i, !llvm.loop !29

json_at.exit.i.i:                                 ; preds = %if.end.i.i.i, %land.rhs.i.i.i
  %it.addr.0.lcssa.i.i.i = phi ptr [ %it.addr.032.i.i.i, %land.rhs.i.i.i ], [ %each.2.i.i.i, %if.end.i.i.i ]
  %print.376.0.i.i = call i32 @__print_text(ptr nonnull getelementptr inbounds (i8, ptr @__streams, i32 12), ptr nonnull @.str.5, i32 2) #16
  %print.376.1.i.i = call i32 @__print_string(ptr nonnull getelementptr inbounds (i8, ptr @__streams, i32 12), ptr nonnull %arrayidx.i, i32 0, i32 0, i32 -1) #16
  %print.376.2.i.i = call i32 @__print_text(ptr nonnull getelementptr inbounds (i8, ptr @__streams, i32 12), ptr nonnull getelementptr inbounds (i8, ptr @.str.5, i32 4), i32 3) #16
  %tobool.not.i12.i = icmp eq ptr %it.addr.0.lcssa.i.i.i, null
  br i1 %tobool.not.i12.i, label %if.else.i.i, label %if.then.i.i

if.then.i.i:                                      ; preds = %json_at.exit.i.i
  call fastcc void @json_write(ptr noundef nonnull %it.addr.0.lcssa.i.i.i, i32 noundef signext 0)
  br label %answer.exit.i

if.else.i.i:                                      ; preds = %json_at.exit.i.i
  %v17 = call i32 @fwrite(ptr nonnull @.str.6, i32 7, i32 1, ptr nonnull getelementptr inbounds (i8, ptr @__streams, i32 12))
  br label %answer.exit.i

answer.exit.i:                                    ; preds = %if.else.i.i, %if.then.i.i
  %call4.i.i = call i32 @putchar(i32 noundef signext 10)
  %inc.i = add nuw nsw i32 %k.019.i, 1
  %exitcond.not.i = icmp eq i32 %inc.i, %questions.027
  br i1 %exitcond.not.i, label %for.cond.cleanup.i, label %for.body.i, !llvm.loop !30

show.exit:                                        ; preds = %for.cond.cleanup.i, %if.then.i
  %retval.0.i = phi i32 [ 1, %for.cond.cleanup.i ], [ 0, %if.then.i ]
  call void @llvm.lifetime.end.p0(i64 12, ptr nonnull %fault.i) #16
  %add = add nsw i32 %retval.0.i, %read.028
  br label %if.end15

if.else:                                          ; preds = %while.body
  %v18 = load i8, ptr %line, align 4, !tbaa !14
  %cmp4 = icmp eq i8 %v18, 63
  %cmp6 = icmp slt i32 %questions.027, 8
  %or.cond = select i1 %cmp4, i1 %cmp6, i1 false
  br i1 %or.cond, label %if.then8, label %if.else13

if.then8:                                         ; preds = %if.else
  %arrayidx9 = getelementptr inbounds [8 x [80 x i8]], ptr @main.asked, i32 0, i32 %questions.027
  %call12 = call ptr @strncpy(ptr noundef nonnull dereferenceable(1) %arrayidx9, ptr noundef nonnull dereferenceable(1) %add.ptr, i32 noundef signext 79) #16
  %inc = add nsw i32 %questions.027, 1
  br label %if.end15

if.else13:                                        ; preds = %if.else
  %call.i = call i32 @strlen(ptr noundef nonnull readonly dereferenceable(1) %line) #16
  %add.i = add i32 %call.i, 1
  %add1.i = add i32 %add.i, %text.sroa.8.025
  %cmp.i = icmp ugt i32 %add1.i, %text.sroa.14.026
  br i1 %cmp.i, label %if.then.i6, label %append.exit

if.then.i6:                                       ; preds = %if.else13
  %mul.i = shl i32 %add1.i, 1
  %call7.i = call ptr @realloc(ptr noundef %text.sroa.0.024, i32 noundef signext %mul.i) #17
  %tobool.not.i7 = icmp eq ptr %call7.i, null
  br i1 %tobool.not.i7, label %if.then10.i, label %append.exit

if.then10.i:                                      ; preds = %if.then.i6
  call void @exit(i32 noundef signext 2) #18
  unreachable

append.exit:                                      ; preds = %if.then.i6, %if.else13
  %text.sroa.0.1 = phi ptr [ %call7.i, %if.then.i6 ], [ %text.sroa.0.024, %if.else13 ]
  %text.sroa.14.1 = phi i32 [ %mul.i, %if.then.i6 ], [ %text.sroa.14.026, %if.else13 ]
  %add.ptr.i = getelementptr inbounds i8, ptr %text.sroa.0.1, i32 %text.sroa.8.025
  call void @llvm.memcpy.p0.p0.i32(ptr align 1 %add.ptr.i, ptr nonnull readonly align 4 %line, i32 %add.i, i1 false)
  %add16.i = add i32 %call.i, %text.sroa.8.025
  br label %if.end15

if.end15:                                         ; preds = %append.exit, %if.then8, %show.exit
  %text.sroa.0.2 = phi ptr [ %text.sroa.0.024, %show.exit ], [ %text.sroa.0.024, %if.then8 ], [ %text.sroa.0.1, %append.exit ]
  %text.sroa.8.1 = phi i32 [ 0, %show.exit ], [ %text.sroa.8.025, %if.then8 ], [ %add16.i, %append.exit ]
  %text.sroa.14.2 = phi i32 [ %text.sroa.14.026, %show.exit ], [ %text.sroa.14.026, %if.then8 ], [ %text.sroa.14.1, %append.exit ]
  %questions.1 = phi i32 [ 0, %show.exit ], [ %inc, %if.then8 ], [ %questions.027, %append.exit ]
  %read.1 = phi i32 [ %add, %show.exit ], [ %read.028, %if.then8 ], [ %read.028, %append.exit ]
  %call = call ptr @fgets(ptr noundef nonnull %line, i32 noundef signext 160, ptr noundef nonnull @__streams)
  %tobool.not = icmp eq ptr %call, null
  br i1 %tobool.not, label %while.end, label %while.body, !llvm.loop !31

while.end:                                        ; preds = %if.end15, %entry
  %text.sroa.0.0.lcssa = phi ptr [ null, %entry ], [ %text.sroa.0.2, %if.end15 ]
  %read.0.lcssa = phi i32 [ 0, %entry ], [ %read.1, %if.end15 ]
  call void @__sized_free(ptr noundef %text.sroa.0.0.lcssa)
  call void @llvm.lifetime.end.p0(i64 160, ptr nonnull %line) #16
  ret i32 %read.0.lcssa
}

; Function Attrs: nocallback nofree nosync nounwind willreturn memory(argmem: readwrite)
declare void @llvm.lifetime.start.p0(i64 immarg, ptr nocapture) #1

; Function Attrs: nounwind optsize
define internal noundef ptr @fgets(ptr noalias noundef writeonly %to, i32 noundef signext %n, ptr noalias nocapture noundef %stream) local_unnamed_addr #2 {
entry:
  %cmp = icmp slt i32 %n, 1
  br i1 %cmp, label %cleanup, label %while.cond.preheader

while.cond.preheader:                             ; preds = %entry
  %cmp123.not = icmp eq i32 %n, 1
  br i1 %cmp123.not, label %if.end10, label %land.rhs

land.rhs:                                         ; preds = %while.body, %while.cond.preheader
  %dec25.in = phi i32 [ %dec25, %while.body ], [ %n, %while.cond.preheader ]
  %at.024 = phi ptr [ %incdec.ptr, %while.body ], [ %to, %while.cond.preheader ]
  %call = tail call i32 @fgetc(ptr noundef %stream) #19
  %cmp3.not = icmp eq i32 %call, -1
  br i1 %cmp3.not, label %while.end, label %while.body

while.body:                                       ; preds = %land.rhs
  %dec25 = add nsw i32 %dec25.in, -1
  %conv = trunc i32 %call to i8
  %incdec.ptr = getelementptr inbounds i8, ptr %at.024, i32 1
  store i8 %conv, ptr %at.024, align 1, !tbaa !14
  %cmp1 = icmp sgt i32 %dec25.in, 2
  %cmp2 = icmp ne i32 %call, 10
  %or.cond = and i1 %cmp1, %cmp2
  br i1 %or.cond, label %land.rhs, label %if.end10, !llvm.loop !32

while.end:                                        ; preds = %land.rhs
  %cmp7 = icmp eq ptr %at.024, %to
  br i1 %cmp7, label %cleanup, label %if.end10

if.end10:                                         ; preds = %while.end, %while.body, %while.cond.preheader
  %at.021 = phi ptr [ %at.024, %while.end ], [ %to, %while.cond.preheader ], [ %incdec.ptr, %while.body ]
  store i8 0, ptr %at.021, align 1, !tbaa !14
  br label %cleanup

cleanup:                                          ; preds = %if.end10, %while.end, %entry
  %retval.0 = phi ptr [ %to, %if.end10 ], [ null, %entry ], [ null, %while.end ]
  ret ptr %retval.0
}

; Function Attrs: nofree norecurse nosync nounwind optsize memory(read, inaccessiblemem: none)
define internal range(i32 -1, 2) i32 @bcmp(ptr nocapture noundef readonly %a, ptr nocapture noundef readonly %b, i32 noundef signext %n) local_unnamed_addr #3 {
entry:
  %cmp.not16.i = icmp eq i32 %n, 0
  br i1 %cmp.not16.i, label %memcmp.exit, label %for.body.i

for.body.i:                                       ; preds = %for.inc.i, %entry
  %t.019.i = phi ptr [ %incdec.ptr8.i, %for.inc.i ], [ %b, %entry ]
  %s.018.i = phi ptr [ %incdec.ptr.i, %for.inc.i ], [ %a, %entry ]
  %n.addr.017.i = phi i32 [ %dec.i, %for.inc.i ], [ %n, %entry ]
  %v0 = load i8, ptr %s.018.i, align 1, !tbaa !14
  %v1 = load i8, ptr %t.019.i, align 1, !tbaa !14
  %cmp2.not.i = icmp eq i8 %v0, %v1
  br i1 %cmp2.not.i, label %for.inc.i, label %if.then.i

if.then.i:                                        ; preds = %for.body.i
  %cmp6.i = icmp ult i8 %v0, %v1
  %cond.i = select i1 %cmp6.i, i32 -1, i32 1
  br label %memcmp.exit

for.inc.i:                                        ; preds = %for.body.i
  %dec.i = add i32 %n.addr.017.i, -1
  %incdec.ptr.i = getelementptr inbounds i8, ptr %s.018.i, i32 1
  %incdec.ptr8.i = getelementptr inbounds i8, ptr %t.019.i, i32 1
  %cmp.not.i = icmp eq i32 %dec.i, 0
  br i1 %cmp.not.i, label %memcmp.exit, label %for.body.i, !llvm.loop !33

memcmp.exit:                                      ; preds = %for.inc.i, %if.then.i, %entry
  %retval.0.i = phi i32 [ %cond.i, %if.then.i ], [ 0, %entry ], [ 0, %for.inc.i ]
  ret i32 %retval.0.i
}

; Function Attrs: nounwind
define internal fastcc ptr @value(ptr nocapture noundef %it, i32 noundef signext %depth) unnamed_addr #0 {
entry:
  %end.i = alloca ptr, align 4
  %cmp = icmp sgt i32 %depth, 40
  br i1 %cmp, label %if.then, label %if.end

if.then:                                          ; preds = %entry
  %fault.i = getelementptr inbounds i8, ptr %it, i32 8
  %v0 = load ptr, ptr %fault.i, align 4, !tbaa !10
  %v1 = load ptr, ptr %v0, align 4, !tbaa !11
  %tobool.not.i = icmp eq ptr %v1, null
  br i1 %tobool.not.i, label %if.then.i, label %cleanup

if.then.i:                                        ; preds = %if.then
  store ptr @.str.1.8, ptr %v0, align 4, !tbaa !11
  %column.i = getelementptr inbounds i8, ptr %v0, i32 8
  store i32 1, ptr %column.i, align 4, !tbaa !18
  %line.i = getelementptr inbounds i8, ptr %v0, i32 4
  store i32 1, ptr %line.i, align 4, !tbaa !19
  %v2 = load ptr, ptr %it, align 4, !tbaa !4
  %at.i = getelementptr inbounds i8, ptr %it, i32 4
  %v3 = load ptr, ptr %at.i, align 4, !tbaa !9
  %cmp11.i = icmp ult ptr %v2, %v3
  br i1 %cmp11.i, label %for.body.i, label %cleanup

for.body.i:                                       ; preds = %for.inc.i, %if.then.i
  %storemerge13.i = phi i32 [ %storemerge.i, %for.inc.i ], [ 1, %if.then.i ]
  %p.012.i = phi ptr [ %incdec.ptr.i, %for.inc.i ], [ %v2, %if.then.i ]
  %v4 = load i8, ptr %p.012.i, align 1, !tbaa !14
  %cmp6.i = icmp eq i8 %v4, 10
  br i1 %cmp6.i, label %if.then8.i, label %if.else.i

if.then8.i:                                       ; preds = %for.body.i
  %v5 = load i32, ptr %line.i, align 4, !tbaa !19
  %inc.i = add i32 %v5, 1
  store i32 %inc.i, ptr %line.i, align 4, !tbaa !19
  br label %for.inc.i

if.else.i:                                        ; preds = %for.body.i
  %inc15.i = add i32 %storemerge13.i, 1
  br label %for.inc.i

for.inc.i:                                        ; preds = %if.else.i, %if.then8.i
  %storemerge.i = phi i32 [ %inc15.i, %if.else.i ], [ 1, %if.then8.i ]
  store i32 %storemerge.i, ptr %column.i, align 4, !tbaa !18
  %incdec.ptr.i = getelementptr inbounds i8, ptr %p.012.i, i32 1
  %exitcond.not.i = icmp eq ptr %incdec.ptr.i, %v3
  br i1 %exitcond.not.i, label %cleanup, label %for.body.i, !llvm.loop !34

if.end:                                           ; preds = %entry
  %at.i20 = getelementptr inbounds i8, ptr %it, i32 4
  %at.promoted.i = load ptr, ptr %at.i20, align 4, !tbaa !9
  br label %while.cond.i

while.cond.i:                                     ; preds = %while.body.i, %if.end
  %v6 = phi ptr [ %incdec.ptr.i21, %while.body.i ], [ %at.promoted.i, %if.end ]
  %v7 = load i8, ptr %v6, align 1, !tbaa !14
  switch i8 %v7, label %skip.exit [
    i8 32, label %while.body.i
    i8 9, label %while.body.i
    i8 10, label %while.body.i
    i8 13, label %while.body.i
  ]

while.body.i:                                     ; preds = %while.cond.i, %while.cond.i, %while.cond.i, %while.cond.i
  %incdec.ptr.i21 = getelementptr inbounds i8, ptr %v6, i32 1
  store ptr %incdec.ptr.i21, ptr %at.i20, align 4, !tbaa !9
  br label %while.cond.i, !llvm.loop !35

skip.exit:                                        ; preds = %while.cond.i
  %v8 = load ptr, ptr %at.i20, align 4, !tbaa !9
  %v9 = load i8, ptr %v8, align 1, !tbaa !14
  switch i8 %v9, label %sw.default [
    i8 123, label %sw.bb
    i8 91, label %sw.bb3
    i8 34, label %sw.bb7
    i8 116, label %sw.bb15
    i8 102, label %sw.bb17
    i8 110, label %sw.bb19
    i8 0, label %sw.bb21
  ]

sw.bb:                                            ; preds = %skip.exit
  %incdec.ptr = getelementptr inbounds i8, ptr %v8, i32 1
  store ptr %incdec.ptr, ptr %at.i20, align 4, !tbaa !9
  %call2 = tail call fastcc ptr @group(ptr noundef %it, i32 noundef signext 6, i8 noundef signext 125, i32 noundef signext %depth)
  br label %cleanup

sw.bb3:                                           ; preds = %skip.exit
  %incdec.ptr5 = getelementptr inbounds i8, ptr %v8, i32 1
  store ptr %incdec.ptr5, ptr %at.i20, align 4, !tbaa !9
  %call6 = tail call fastcc ptr @group(ptr noundef %it, i32 noundef signext 5, i8 noundef signext 93, i32 noundef signext %depth)
  br label %cleanup

sw.bb7:                                           ; preds = %skip.exit
  %incdec.ptr9 = getelementptr inbounds i8, ptr %v8, i32 1
  store ptr %incdec.ptr9, ptr %at.i20, align 4, !tbaa !9
  %call.i = tail call dereferenceable_or_null(32) ptr @__sized_calloc(i32 noundef signext 1, i32 noundef signext 32) #20
  %tobool.not.i22 = icmp eq ptr %call.i, null
  br i1 %tobool.not.i22, label %if.then.i23, label %if.end.i

if.then.i23:                                      ; preds = %sw.bb7
  %fault.i.i = getelementptr inbounds i8, ptr %it, i32 8
  %v10 = load ptr, ptr %fault.i.i, align 4, !tbaa !10
  %v11 = load ptr, ptr %v10, align 4, !tbaa !11
  %tobool.not.i.i = icmp eq ptr %v11, null
  br i1 %tobool.not.i.i, label %if.then.i.i, label %made.exit

if.then.i.i:                                      ; preds = %if.then.i23
  store ptr @.str.9, ptr %v10, align 4, !tbaa !11
  %column.i.i = getelementptr inbounds i8, ptr %v10, i32 8
  store i32 1, ptr %column.i.i, align 4, !tbaa !18
  %line.i.i = getelementptr inbounds i8, ptr %v10, i32 4
  store i32 1, ptr %line.i.i, align 4, !tbaa !19
  %v12 = load ptr, ptr %it, align 4, !tbaa !4
  %cmp11.i.i = icmp ult ptr %v12, %incdec.ptr9
  br i1 %cmp11.i.i, label %for.body.i.i, label %made.exit

for.body.i.i:                                     ; preds = %for.inc.i.i, %if.then.i.i
  %storemerge13.i.i = phi i32 [ %storemerge.i.i, %for.inc.i.i ], [ 1, %if.then.i.i ]
  %p.012.i.i = phi ptr [ %incdec.ptr.i.i, %for.inc.i.i ], [ %v12, %if.then.i.i ]
  %v13 = load i8, ptr %p.012.i.i, align 1, !tbaa !14
  %cmp6.i.i = icmp eq i8 %v13, 10
  br i1 %cmp6.i.i, label %if.then8.i.i, label %if.else.i.i

if.then8.i.i:                                     ; preds = %for.body.i.i
  %v14 = load i32, ptr %line.i.i, align 4, !tbaa !19
  %inc.i.i = add i32 %v14, 1
  store i32 %inc.i.i, ptr %line.i.i, align 4, !tbaa !19
  br label %for.inc.i.i

if.else.i.i:                                      ; preds = %for.body.i.i
  %inc15.i.i = add i32 %storemerge13.i.i, 1
  br label %for.inc.i.i

for.inc.i.i:                                      ; preds = %if.else.i.i, %if.then8.i.i
  %storemerge.i.i = phi i32 [ %inc15.i.i, %if.else.i.i ], [ 1, %if.then8.i.i ]
  store i32 %storemerge.i.i, ptr %column.i.i, align 4, !tbaa !18
  %incdec.ptr.i.i = getelementptr inbounds i8, ptr %p.012.i.i, i32 1
  %exitcond.not.i.i = icmp eq ptr %p.012.i.i, %v8
  br i1 %exitcond.not.i.i, label %made.exit, label %for.body.i.i, !llvm.loop !36

if.end.i:                                         ; preds = %sw.bb7
  store i32 4, ptr %call.i, align 8, !tbaa !24
  br label %made.exit

made.exit:                                        ; preds = %if.end.i, %for.inc.i.i, %if.then.i.i, %if.then.i23
  %retval.0.i = phi ptr [ %call.i, %if.end.i ], [ null, %if.then.i23 ], [ null, %if.then.i.i ], [ null, %for.inc.i.i ]
  %tobool.not = icmp eq ptr %retval.0.i, null
  br i1 %tobool.not, label %cleanup, label %land.lhs.true

land.lhs.true:                                    ; preds = %made.exit
  %call11 = tail call fastcc ptr @string(ptr noundef %it)
  %text = getelementptr inbounds i8, ptr %retval.0.i, i32 16
  store ptr %call11, ptr %text, align 8, !tbaa !37
  %tobool12.not = icmp eq ptr %call11, null
  br i1 %tobool12.not, label %if.then13, label %cleanup

if.then13:                                        ; preds = %land.lhs.true
  tail call fastcc void @json_free(ptr noundef nonnull %retval.0.i)
  br label %cleanup

sw.bb15:                                          ; preds = %skip.exit
  %call16 = tail call fastcc ptr @word(ptr noundef %it, ptr noundef nonnull @.str.3.28, i32 noundef signext 2)
  br label %cleanup

sw.bb17:                                          ; preds = %skip.exit
  %call18 = tail call fastcc ptr @word(ptr noundef %it, ptr noundef nonnull @.str.2.27, i32 noundef signext 1)
  br label %cleanup

sw.bb19:                                          ; preds = %skip.exit
  %call20 = tail call fastcc ptr @word(ptr noundef %it, ptr noundef nonnull @.str.1.26, i32 noundef signext 0)
  br label %cleanup

sw.bb21:                                          ; preds = %skip.exit
  %fault.i24 = getelementptr inbounds i8, ptr %it, i32 8
  %v15 = load ptr, ptr %fault.i24, align 4, !tbaa !10
  %v16 = load ptr, ptr %v15, align 4, !tbaa !11
  %tobool.not.i25 = icmp eq ptr %v16, null
  br i1 %tobool.not.i25, label %if.then.i26, label %cleanup

if.then.i26:                                      ; preds = %sw.bb21
  store ptr @.str.5.12, ptr %v15, align 4, !tbaa !11
  %column.i27 = getelementptr inbounds i8, ptr %v15, i32 8
  store i32 1, ptr %column.i27, align 4, !tbaa !18
  %line.i28 = getelementptr inbounds i8, ptr %v15, i32 4
  store i32 1, ptr %line.i28, align 4, !tbaa !19
  %v17 = load ptr, ptr %it, align 4, !tbaa !4
  %cmp11.i30 = icmp ult ptr %v17, %v8
  br i1 %cmp11.i30, label %for.body.i33, label %cleanup

for.body.i33:                                     ; preds = %for.inc.i39, %if.then.i26
  %storemerge13.i34 = phi i32 [ %storemerge.i40, %for.inc.i39 ], [ 1, %if.then.i26 ]
  %p.012.i35 = phi ptr [ %incdec.ptr.i41, %for.inc.i39 ], [ %v17, %if.then.i26 ]
  %v18 = load i8, ptr %p.012.i35, align 1, !tbaa !14
  %cmp6.i36 = icmp eq i8 %v18, 10
  br i1 %cmp6.i36, label %if.then8.i43, label %if.else.i37

if.then8.i43:                                     ; preds = %for.body.i33
  %v19 = load i32, ptr %line.i28, align 4, !tbaa !19
  %inc.i44 = add i32 %v19, 1
  store i32 %inc.i44, ptr %line.i28, align 4, !tbaa !19
  br label %for.inc.i39

if.else.i37:                                      ; preds = %for.body.i33
  %inc15.i38 = add i32 %storemerge13.i34, 1
  br label %for.inc.i39

for.inc.i39:                                      ; preds = %if.else.i37, %if.then8.i43
  %storemerge.i40 = phi i32 [ %inc15.i38, %if.else.i37 ], [ 1, %if.then8.i43 ]
  store i32 %storemerge.i40, ptr %column.i27, align 4, !tbaa !18
  %incdec.ptr.i41 = getelementptr inbounds i8, ptr %p.012.i35, i32 1
  %exitcond.not.i42 = icmp eq ptr %incdec.ptr.i41, %v8
  br i1 %exitcond.not.i42, label %cleanup, label %for.body.i33, !llvm.loop !38

sw.default:                                       ; preds = %skip.exit
  call void @llvm.lifetime.start.p0(i64 4, ptr nonnull %end.i) #16
  %cmp.i = icmp eq i8 %v9, 45
  %conv2.i = zext i1 %cmp.i to i32
  %add.ptr.i = getelementptr inbounds i8, ptr %v8, i32 %conv2.i
  %v20 = load i8, ptr %add.ptr.i, align 1, !tbaa !14
  %conv3.i = zext i8 %v20 to i32
  %isdigittmp.i = add nsw i32 %conv3.i, -48
  %isdigit.i = icmp ult i32 %isdigittmp.i, 10
  br i1 %isdigit.i, label %lor.lhs.false.i, label %if.then.i47

lor.lhs.false.i:                                  ; preds = %sw.default
  %cmp5.i = icmp eq i8 %v20, 48
  br i1 %cmp5.i, label %land.lhs.true.i, label %if.end.i66

land.lhs.true.i:                                  ; preds = %lor.lhs.false.i
  %arrayidx.i = getelementptr inbounds i8, ptr %add.ptr.i, i32 1
  %v21 = load i8, ptr %arrayidx.i, align 1, !tbaa !14
  %conv7.i = zext i8 %v21 to i32
  %isdigittmp11.i = add nsw i32 %conv7.i, -48
  %isdigit12.i = icmp ult i32 %isdigittmp11.i, 10
  br i1 %isdigit12.i, label %if.then.i47, label %if.end.i66

if.then.i47:                                      ; preds = %land.lhs.true.i, %sw.default
  %fault.i.i48 = getelementptr inbounds i8, ptr %it, i32 8
  %v22 = load ptr, ptr %fault.i.i48, align 4, !tbaa !10
  %v23 = load ptr, ptr %v22, align 4, !tbaa !11
  %tobool.not.i.i49 = icmp eq ptr %v23, null
  br i1 %tobool.not.i.i49, label %if.then.i.i50, label %number.exit

if.then.i.i50:                                    ; preds = %if.then.i47
  store ptr @.str.14, ptr %v22, align 4, !tbaa !11
  %column.i.i51 = getelementptr inbounds i8, ptr %v22, i32 8
  store i32 1, ptr %column.i.i51, align 4, !tbaa !18
  %line.i.i52 = getelementptr inbounds i8, ptr %v22, i32 4
  store i32 1, ptr %line.i.i52, align 4, !tbaa !19
  %v24 = load ptr, ptr %it, align 4, !tbaa !4
  %cmp11.i.i53 = icmp ult ptr %v24, %v8
  br i1 %cmp11.i.i53, label %for.body.i.i54, label %number.exit

for.body.i.i54:                                   ; preds = %for.inc.i.i60, %if.then.i.i50
  %storemerge13.i.i55 = phi i32 [ %storemerge.i.i61, %for.inc.i.i60 ], [ 1, %if.then.i.i50 ]
  %p.012.i.i56 = phi ptr [ %incdec.ptr.i.i62, %for.inc.i.i60 ], [ %v24, %if.then.i.i50 ]
  %v25 = load i8, ptr %p.012.i.i56, align 1, !tbaa !14
  %cmp6.i.i57 = icmp eq i8 %v25, 10
  br i1 %cmp6.i.i57, label %if.then8.i.i64, label %if.else.i.i58

if.then8.i.i64:                                   ; preds = %for.body.i.i54
  %v26 = load i32, ptr %line.i.i52, align 4, !tbaa !19
  %inc.i.i65 = add i32 %v26, 1
  store i32 %inc.i.i65, ptr %line.i.i52, align 4, !tbaa !19
  br label %for.inc.i.i60

if.else.i.i58:                                    ; preds = %for.body.i.i54
  %inc15.i.i59 = add i32 %storemerge13.i.i55, 1
  br label %for.inc.i.i60

for.inc.i.i60:                                    ; preds = %if.else.i.i58, %if.then8.i.i64
  %storemerge.i.i61 = phi i32 [ %inc15.i.i59, %if.else.i.i58 ], [ 1, %if.then8.i.i64 ]
  store i32 %storemerge.i.i61, ptr %column.i.i51, align 4, !tbaa !18
  %incdec.ptr.i.i62 = getelementptr inbounds i8, ptr %p.012.i.i56, i32 1
  %exitcond.not.i.i63 = icmp eq ptr %incdec.ptr.i.i62, %v8
  br i1 %exitcond.not.i.i63, label %number.exit, label %for.body.i.i54, !llvm.loop !39

if.end.i66:                                       ; preds = %land.lhs.true.i, %lor.lhs.false.i
  %call12.i = call i64 @strtoll(ptr noundef nonnull %v8, ptr noundef nonnull %end.i, i32 noundef signext 10)
  %v27 = load ptr, ptr %end.i, align 4, !tbaa !40
  %v28 = load i8, ptr %v27, align 1, !tbaa !14
  switch i8 %v28, label %if.end26.i [
    i8 46, label %if.then24.i
    i8 101, label %if.then24.i
    i8 69, label %if.then24.i
  ]

if.then24.i:                                      ; preds = %if.end.i66, %if.end.i66, %if.end.i66
  %fault.i13.i = getelementptr inbounds i8, ptr %it, i32 8
  %v29 = load ptr, ptr %fault.i13.i, align 4, !tbaa !10
  %v30 = load ptr, ptr %v29, align 4, !tbaa !11
  %tobool.not.i14.i = icmp eq ptr %v30, null
  br i1 %tobool.not.i14.i, label %if.then.i15.i, label %number.exit

if.then.i15.i:                                    ; preds = %if.then24.i
  store ptr @.str.15, ptr %v29, align 4, !tbaa !11
  %column.i16.i = getelementptr inbounds i8, ptr %v29, i32 8
  store i32 1, ptr %column.i16.i, align 4, !tbaa !18
  %line.i17.i = getelementptr inbounds i8, ptr %v29, i32 4
  store i32 1, ptr %line.i17.i, align 4, !tbaa !19
  %v31 = load ptr, ptr %it, align 4, !tbaa !4
  %v32 = load ptr, ptr %at.i20, align 4, !tbaa !9
  %cmp11.i19.i = icmp ult ptr %v31, %v32
  br i1 %cmp11.i19.i, label %for.body.i22.i, label %number.exit

for.body.i22.i:                                   ; preds = %for.inc.i28.i, %if.then.i15.i
  %storemerge13.i23.i = phi i32 [ %storemerge.i29.i, %for.inc.i28.i ], [ 1, %if.then.i15.i ]
  %p.012.i24.i = phi ptr [ %incdec.ptr.i30.i, %for.inc.i28.i ], [ %v31, %if.then.i15.i ]
  %v33 = load i8, ptr %p.012.i24.i, align 1, !tbaa !14
  %cmp6.i25.i = icmp eq i8 %v33, 10
  br i1 %cmp6.i25.i, label %if.then8.i32.i, label %if.else.i26.i

if.then8.i32.i:                                   ; preds = %for.body.i22.i
  %v34 = load i32, ptr %line.i17.i, align 4, !tbaa !19
  %inc.i33.i = add i32 %v34, 1
  store i32 %inc.i33.i, ptr %line.i17.i, align 4, !tbaa !19
  br label %for.inc.i28.i

if.else.i26.i:                                    ; preds = %for.body.i22.i
  %inc15.i27.i = add i32 %storemerge13.i23.i, 1
  br label %for.inc.i28.i

for.inc.i28.i:                                    ; preds = %if.else.i26.i, %if.then8.i32.i
  %storemerge.i29.i = phi i32 [ %inc15.i27.i, %if.else.i26.i ], [ 1, %if.then8.i32.i ]
  store i32 %storemerge.i29.i, ptr %column.i16.i, align 4, !tbaa !18
  %incdec.ptr.i30.i = getelementptr inbounds i8, ptr %p.012.i24.i, i32 1
  %exitcond.not.i31.i = icmp eq ptr %incdec.ptr.i30.i, %v32
  br i1 %exitcond.not.i31.i, label %number.exit, label %for.body.i22.i, !llvm.loop !41

if.end26.i:                                       ; preds = %if.end.i66
  store ptr %v27, ptr %at.i20, align 4, !tbaa !9
  %call.i.i = tail call dereferenceable_or_null(32) ptr @__sized_calloc(i32 noundef signext 1, i32 noundef signext 32) #20
  %tobool.not.i35.i = icmp eq ptr %call.i.i, null
  br i1 %tobool.not.i35.i, label %if.then.i36.i, label %if.end.i.i

if.then.i36.i:                                    ; preds = %if.end26.i
  %fault.i.i.i = getelementptr inbounds i8, ptr %it, i32 8
  %v35 = load ptr, ptr %fault.i.i.i, align 4, !tbaa !10
  %v36 = load ptr, ptr %v35, align 4, !tbaa !11
  %tobool.not.i.i.i = icmp eq ptr %v36, null
  br i1 %tobool.not.i.i.i, label %if.then.i.i.i, label %made.exit.i

if.then.i.i.i:                                    ; preds = %if.then.i36.i
  store ptr @.str.9, ptr %v35, align 4, !tbaa !11
  %column.i.i.i = getelementptr inbounds i8, ptr %v35, i32 8
  store i32 1, ptr %column.i.i.i, align 4, !tbaa !18
  %line.i.i.i = getelementptr inbounds i8, ptr %v35, i32 4
  store i32 1, ptr %line.i.i.i, align 4, !tbaa !19
  %v37 = load ptr, ptr %it, align 4, !tbaa !4
  %cmp11.i.i.i = icmp ult ptr %v37, %v27
  br i1 %cmp11.i.i.i, label %for.body.i.i.i, label %made.exit.i

for.body.i.i.i:                                   ; preds = %for.inc.i.i.i, %if.then.i.i.i
  %storemerge13.i.i.i = phi i32 [ %storemerge.i.i.i, %for.inc.i.i.i ], [ 1, %if.then.i.i.i ]
  %p.012.i.i.i = phi ptr [ %incdec.ptr.i.i.i, %for.inc.i.i.i ], [ %v37, %if.then.i.i.i ]
  %v38 = load i8, ptr %p.012.i.i.i, align 1, !tbaa !14
  %cmp6.i.i.i = icmp eq i8 %v38, 10
  br i1 %cmp6.i.i.i, label %if.then8.i.i.i, label %if.else.i.i.i

if.then8.i.i.i:                                   ; preds = %for.body.i.i.i
  %v39 = load i32, ptr %line.i.i.i, align 4, !tbaa !19
  %inc.i.i.i = add i32 %v39, 1
  store i32 %inc.i.i.i, ptr %line.i.i.i, align 4, !tbaa !19
  br label %for.inc.i.i.i

if.else.i.i.i:                                    ; preds = %for.body.i.i.i
  %inc15.i.i.i = add i32 %storemerge13.i.i.i, 1
  br label %for.inc.i.i.i

for.inc.i.i.i:                                    ; preds = %if.else.i.i.i, %if.then8.i.i.i
  %storemerge.i.i.i = phi i32 [ %inc15.i.i.i, %if.else.i.i.i ], [ 1, %if.then8.i.i.i ]
  store i32 %storemerge.i.i.i, ptr %column.i.i.i, align 4, !tbaa !18
  %incdec.ptr.i.i.i = getelementptr inbounds i8, ptr %p.012.i.i.i, i32 1
  %exitcond.not.i.i.i = icmp eq ptr %incdec.ptr.i.i.i, %v27
  br i1 %exitcond.not.i.i.i, label %made.exit.i, label %for.body.i.i.i, !llvm.loop !42

if.end.i.i:                                       ; preds = %if.end26.i
  store i32 3, ptr %call.i.i, align 8, !tbaa !24
  br label %made.exit.i

made.exit.i:                                      ; preds = %if.end.i.i, %for.inc.i.i.i, %if.then.i.i.i, %if.then.i36.i
  %retval.0.i.i = phi ptr [ %call.i.i, %if.end.i.i ], [ null, %if.then.i36.i ], [ null, %if.then.i.i.i ], [ null, %for.inc.i.i.i ]
  %tobool29.not.i = icmp eq ptr %retval.0.i.i, null
  br i1 %tobool29.not.i, label %number.exit, label %if.then30.i

if.then30.i:                                      ; preds = %made.exit.i
  %number.i = getelementptr inbounds i8, ptr %retval.0.i.i, i32 8
  store i64 %call12.i, ptr %number.i, align 8, !tbaa !43
  br label %number.exit

number.exit:                                      ; preds = %if.then30.i, %made.exit.i, %for.inc.i28.i, %if.then.i15.i, %if.then24.i, %for.inc.i.i60, %if.then.i.i50, %if.then.i47
  %retval.1.i = phi ptr [ %retval.0.i.i, %if.then30.i ], [ %retval.0.i.i, %made.exit.i ], [ null, %if.then.i47 ], [ null, %if.then.i.i50 ], [ null, %if.then24.i ], [ null, %if.then.i15.i ], [ null, %for.inc.i.i60 ], [ null, %for.inc.i28.i ]
  call void @llvm.lifetime.end.p0(i64 4, ptr nonnull %end.i) #16
  br label %cleanup

cleanup:                                          ; preds = %number.exit, %for.inc.i39, %if.then.i26, %sw.bb21, %sw.bb19, %sw.bb17, %sw.bb15, %if.then13, %land.lhs.true, %made.exit, %sw.bb3, %sw.bb, %for.inc.i, %if.then.i, %if.then
  %retval.0 = phi ptr [ %retval.1.i, %number.exit ], [ %call20, %sw.bb19 ], [ %call18, %sw.bb17 ], [ %call16, %sw.bb15 ], [ %call6, %sw.bb3 ], [ %call2, %sw.bb ], [ %retval.0.i, %land.lhs.true ], [ null, %if.then13 ], [ null, %made.exit ], [ null, %if.then ], [ null, %if.then.i ], [ null, %sw.bb21 ], [ null, %if.then.i26 ], [ null, %for.inc.i ], [ null, %for.inc.i39 ]
  ret ptr %retval.0
}

; Function Attrs: nounwind
define internal fastcc void @json_free(ptr noundef %it) unnamed_addr #0 {
entry:
  %tobool.not6 = icmp eq ptr %it, null
  br i1 %tobool.not6, label %while.end, label %while.body

while.body:                                       ; preds = %while.body, %entry
  %it.addr.07 = phi ptr [ %v0, %while.body ], [ %it, %entry ]
  %next1 = getelementptr inbounds i8, ptr %it.addr.07, i32 28
  %v0 = load ptr, ptr %next1, align 4, !tbaa !25
  %inside = getelementptr inbounds i8, ptr %it.addr.07, i32 24
  %v1 = load ptr, ptr %inside, align 8, !tbaa !21
  tail call fastcc void @json_free(ptr noundef %v1)
  %text = getelementptr inbounds i8, ptr %it.addr.07, i32 16
  %v2 = load ptr, ptr %text, align 8, !tbaa !37
  tail call void @__sized_free(ptr noundef %v2)
  %name = getelementptr inbounds i8, ptr %it.addr.07, i32 20
  %v3 = load ptr, ptr %name, align 4, !tbaa !27
  tail call void @__sized_free(ptr noundef %v3)
  tail call void @__sized_free(ptr noundef %it.addr.07)
  %tobool.not = icmp eq ptr %v0, null
  br i1 %tobool.not, label %while.end, label %while.body, !llvm.loop !44

while.end:                                        ; preds = %while.body, %entry
  ret void
}

; Function Attrs: nocallback nofree nosync nounwind willreturn memory(argmem: readwrite)
declare void @llvm.lifetime.end.p0(i64 immarg, ptr nocapture) #1

; Function Attrs: nounwind optsize
define internal noundef i32 @__print_text(ptr nocapture noundef %stream, ptr nocapture noundef readonly %text, i32 noundef returned signext %n) local_unnamed_addr #2 {
entry:
  %v0 = load i8, ptr %stream, align 4, !tbaa !45, !alias.scope !47, !noalias !50
  %cmp.i = icmp eq i8 %v0, 0
  %cmp210.not.i = icmp eq i32 %n, 0
  %or.cond = or i1 %cmp210.not.i, %cmp.i
  br i1 %or.cond, label %fwrite.exit, label %for.body.i

for.body.i:                                       ; preds = %for.body.i, %entry
  %k.011.i = phi i32 [ %inc.i, %for.body.i ], [ 0, %entry ]
  %arrayidx.i = getelementptr inbounds i8, ptr %text, i32 %k.011.i
  %v1 = load i8, ptr %arrayidx.i, align 1, !tbaa !14, !alias.scope !50, !noalias !47
  %conv4.i = zext i8 %v1 to i32
  %call.i = tail call i32 @fputc(i32 noundef signext %conv4.i, ptr noundef nonnull %stream) #19, !noalias !50
  %inc.i = add nuw i32 %k.011.i, 1
  %exitcond.not.i = icmp eq i32 %inc.i, %n
  br i1 %exitcond.not.i, label %fwrite.exit, label %for.body.i, !llvm.loop !52

fwrite.exit:                                      ; preds = %for.body.i, %entry
  ret i32 %n
}

; Function Attrs: nounwind optsize
define internal i32 @__print_unsigned(ptr nocapture noundef %stream, i64 noundef zeroext %n, i32 noundef signext %base, i32 noundef signext %flags, i32 noundef signext %width, i32 noundef signext %precision) local_unnamed_addr #2 {
entry:
  %room = alloca [24 x i8], align 1
  call void @llvm.lifetime.start.p0(i64 24, ptr nonnull %room) #16
  %and.i = and i32 %flags, 32
  %tobool.not.i = icmp eq i32 %and.i, 0
  %cond.i = select i1 %tobool.not.i, ptr @.str.9.22, ptr @.str.8.28
  %cmp.i = icmp ult i64 %n, 4294967296
  br i1 %cmp.i, label %if.then.i, label %for.cond3.preheader.i

for.cond3.preheader.i:                            ; preds = %entry
  %conv7.i = zext i32 %base to i64
  br label %for.body6.i

if.then.i:                                        ; preds = %entry
  %conv.i = trunc nuw i64 %n to i32
  %cmp1.not31.i = icmp eq i32 %conv.i, 0
  br i1 %cmp1.not31.i, label %spelled.exit, label %for.body.i

for.body.i:                                       ; preds = %for.body.i, %if.then.i
  %k.033.i = phi i32 [ %div.i, %for.body.i ], [ %conv.i, %if.then.i ]
  %end.addr.032.i.idx = phi i32 [ %end.addr.032.i.add, %for.body.i ], [ 24, %if.then.i ]
  %rem.i = urem i32 %k.033.i, %base
  %arrayidx.i = getelementptr inbounds i8, ptr %cond.i, i32 %rem.i
  %v0 = load i8, ptr %arrayidx.i, align 1, !tbaa !14
  %end.addr.032.i.add = add nsw i32 %end.addr.032.i.idx, -1
  %incdec.ptr.i.ptr = getelementptr inbounds i8, ptr %room, i32 %end.addr.032.i.add
  store i8 %v0, ptr %incdec.ptr.i.ptr, align 1, !tbaa !14
  %div.i = udiv i32 %k.033.i, %base
  %cmp1.not.i = icmp ult i32 %k.033.i, %base
  br i1 %cmp1.not.i, label %spelled.exit, label %for.body.i, !llvm.loop !53

for.body6.i:                                      ; preds = %for.body6.i, %for.cond3.preheader.i
  %end.addr.130.i.idx = phi i32 [ 24, %for.cond3.preheader.i ], [ %end.addr.130.i.add, %for.body6.i ]
  %n.addr.029.i = phi i64 [ %n, %for.cond3.preheader.i ], [ %div13.i, %for.body6.i ]
  %div13.i = udiv i64 %n.addr.029.i, %conv7.i
  %v1 = mul i64 %div13.i, %conv7.i
  %rem8.i.decomposed = sub i64 %n.addr.029.i, %v1
  %idxprom.i = trunc nuw i64 %rem8.i.decomposed to i32
  %arrayidx9.i = getelementptr inbounds i8, ptr %cond.i, i32 %idxprom.i
  %v2 = load i8, ptr %arrayidx9.i, align 1, !tbaa !14
  %end.addr.130.i.add = add nsw i32 %end.addr.130.i.idx, -1
  %incdec.ptr10.i.ptr = getelementptr inbounds i8, ptr %room, i32 %end.addr.130.i.add
  store i8 %v2, ptr %incdec.ptr10.i.ptr, align 1, !tbaa !14
  %cmp4.not.i = icmp ult i64 %n.addr.029.i, %conv7.i
  br i1 %cmp4.not.i, label %spelled.exit, label %for.body6.i, !llvm.loop !54

spelled.exit:                                     ; preds = %for.body6.i, %for.body.i, %if.then.i
  %retval.0.i.idx = phi i32 [ 24, %if.then.i ], [ %end.addr.032.i.add, %for.body.i ], [ %end.addr.130.i.add, %for.body6.i ]
  %cmp = icmp eq i64 %n, 0
  %cmp1 = icmp ne i32 %precision, 0
  %or.cond = and i1 %cmp, %cmp1
  br i1 %or.cond, label %if.then, label %if.end

if.then:                                          ; preds = %spelled.exit
  %retval.0.i.add = add nsw i32 %retval.0.i.idx, -1
  %incdec.ptr.ptr = getelementptr inbounds i8, ptr %room, i32 %retval.0.i.add
  store i8 48, ptr %incdec.ptr.ptr, align 1, !tbaa !14
  br label %if.end

if.end:                                           ; preds = %if.then, %spelled.exit
  %at.0.idx = phi i32 [ %retval.0.i.add, %if.then ], [ %retval.0.i.idx, %spelled.exit ]
  %at.0.ptr = getelementptr inbounds i8, ptr %room, i32 %at.0.idx
  %and = and i32 %flags, 8
  %tobool = icmp ne i32 %and, 0
  %cmp13 = icmp eq i32 %base, 8
  %or.cond29 = and i1 %cmp13, %tobool
  %gepdiff = sub nsw i32 24, %at.0.idx
  %cmp15.not = icmp sge i32 %gepdiff, %precision
  %or.cond49.not = select i1 %or.cond29, i1 %cmp15.not, i1 false
  br i1 %or.cond49.not, label %land.lhs.true16, label %if.end22

land.lhs.true16:                                  ; preds = %if.end
  %cmp17 = icmp eq i32 %at.0.idx, 24
  br i1 %cmp17, label %if.then20, label %lor.lhs.false

lor.lhs.false:                                    ; preds = %land.lhs.true16
  %v3 = load i8, ptr %at.0.ptr, align 1, !tbaa !14
  %cmp18.not = icmp eq i8 %v3, 48
  br i1 %cmp18.not, label %if.end22, label %if.then20

if.then20:                                        ; preds = %lor.lhs.false, %land.lhs.true16
  %incdec.ptr21 = getelementptr inbounds i8, ptr %at.0.ptr, i32 -1
  store i8 48, ptr %incdec.ptr21, align 1, !tbaa !14
  br label %if.end22

if.end22:                                         ; preds = %if.then20, %lor.lhs.false, %if.end
  %at.1 = phi ptr [ %incdec.ptr21, %if.then20 ], [ %at.0.ptr, %lor.lhs.false ], [ %at.0.ptr, %if.end ]
  %add.ptr.ptr = getelementptr inbounds i8, ptr %room, i32 24
  %sub.ptr.lhs.cast = ptrtoint ptr %add.ptr.ptr to i32
  %cmp3 = icmp eq i32 %base, 16
  %cmp5 = icmp ne i64 %n, 0
  %v4 = and i1 %cmp5, %cmp3
  %or.cond28 = and i1 %v4, %tobool
  %cond = select i1 %tobool.not.i, ptr @.str.6.29, ptr @.str.5.31
  %front.0 = select i1 %or.cond28, ptr %cond, ptr @.str.17
  %sub.ptr.rhs.cast24 = ptrtoint ptr %at.1 to i32
  %sub.ptr.sub25 = sub i32 %sub.ptr.lhs.cast, %sub.ptr.rhs.cast24
  %call26 = call fastcc i32 @number(ptr noundef %stream, ptr noundef nonnull %front.0, ptr noundef nonnull %at.1, i32 noundef signext %sub.ptr.sub25, i32 noundef signext %flags, i32 noundef signext %width, i32 noundef signext %precision) #19
  call void @llvm.lifetime.end.p0(i64 24, ptr nonnull %room) #16
  ret i32 %call26
}

; Function Attrs: nounwind optsize
define internal i32 @__print_string(ptr nocapture noundef %stream, ptr noundef %text, i32 noundef signext %flags, i32 noundef signext %width, i32 noundef signext %precision) local_unnamed_addr #2 {
entry:
  %tobool.not = icmp eq ptr %text, null
  %v0 = icmp ult i32 %precision, 6
  %cond = select i1 %v0, ptr @.str.17, ptr @.str.1
  %text.addr.0 = select i1 %tobool.not, ptr %cond, ptr %text
  %cmp2 = icmp slt i32 %precision, 0
  br i1 %cmp2, label %while.cond.i, label %cond.false

while.cond.i:                                     ; preds = %while.cond.i, %entry
  %s.0.i = phi ptr [ %incdec.ptr.i, %while.cond.i ], [ %text.addr.0, %entry ]
  %v1 = load i8, ptr %s.0.i, align 1, !tbaa !14
  %tobool.not.i = icmp eq i8 %v1, 0
  %incdec.ptr.i = getelementptr inbounds i8, ptr %s.0.i, i32 1
  br i1 %tobool.not.i, label %strlen.exit, label %while.cond.i, !llvm.loop !55

strlen.exit:                                      ; preds = %while.cond.i
  %sub.ptr.lhs.cast.i = ptrtoint ptr %s.0.i to i32
  %sub.ptr.rhs.cast.i = ptrtoint ptr %text.addr.0 to i32
  %sub.ptr.sub.i = sub i32 %sub.ptr.lhs.cast.i, %sub.ptr.rhs.cast.i
  br label %cond.end

cond.false:                                       ; preds = %entry
  %cmp4.not.i = icmp eq i32 %precision, 0
  br i1 %cmp4.not.i, label %cond.end, label %land.rhs.i

land.rhs.i:                                       ; preds = %while.body.i, %cond.false
  %k.05.i = phi i32 [ %inc.i, %while.body.i ], [ 0, %cond.false ]
  %arrayidx.i = getelementptr inbounds i8, ptr %text.addr.0, i32 %k.05.i
  %v2 = load i8, ptr %arrayidx.i, align 1, !tbaa !14
  %tobool.not.i12 = icmp eq i8 %v2, 0
  br i1 %tobool.not.i12, label %cond.end, label %while.body.i

while.body.i:                                     ; preds = %land.rhs.i
  %inc.i = add nuw nsw i32 %k.05.i, 1
  %exitcond.not.i = icmp eq i32 %inc.i, %precision
  br i1 %exitcond.not.i, label %cond.end, label %land.rhs.i, !llvm.loop !56

cond.end:                                         ; preds = %while.body.i, %land.rhs.i, %cond.false, %strlen.exit
  %cond4 = phi i32 [ %sub.ptr.sub.i, %strlen.exit ], [ 0, %cond.false ], [ %k.05.i, %land.rhs.i ], [ %precision, %while.body.i ]
  %call5 = tail call fastcc i32 @padded(ptr noundef %stream, ptr noundef nonnull %text.addr.0, i32 noundef signext %cond4, i32 noundef signext %flags, i32 noundef signext %width) #19
  ret i32 %call5
}

; Function Attrs: nounwind
define internal fastcc void @json_write(ptr nocapture noundef readonly %it, i32 noundef signext %indent) unnamed_addr #0 {
entry:
  %v0 = load i32, ptr %it, align 8, !tbaa !24
  switch i32 %v0, label %sw.epilog [
    i32 0, label %sw.bb
    i32 1, label %sw.bb1
    i32 2, label %sw.bb3
    i32 3, label %sw.bb5
    i32 4, label %sw.bb7
    i32 5, label %sw.bb8
    i32 6, label %sw.bb9
  ]

sw.bb:                                            ; preds = %entry
  %v1 = tail call i32 @fwrite(ptr nonnull @.str.1.26, i32 4, i32 1, ptr nonnull getelementptr inbounds (i8, ptr @__streams, i32 12))
  br label %sw.epilog

sw.bb1:                                           ; preds = %entry
  %v2 = tail call i32 @fwrite(ptr nonnull @.str.2.27, i32 5, i32 1, ptr nonnull getelementptr inbounds (i8, ptr @__streams, i32 12))
  br label %sw.epilog

sw.bb3:                                           ; preds = %entry
  %v3 = tail call i32 @fwrite(ptr nonnull @.str.3.28, i32 4, i32 1, ptr nonnull getelementptr inbounds (i8, ptr @__streams, i32 12))
  br label %sw.epilog

sw.bb5:                                           ; preds = %entry
  %number = getelementptr inbounds i8, ptr %it, i32 8
  %v4 = load i64, ptr %number, align 8, !tbaa !43
  %print.2053.0 = tail call i32 @__print_signed(ptr nonnull getelementptr inbounds (i8, ptr @__streams, i32 12), i64 %v4, i32 0, i32 0, i32 -1) #16
  br label %sw.epilog

sw.bb7:                                           ; preds = %entry
  %text = getelementptr inbounds i8, ptr %it, i32 16
  %v5 = load ptr, ptr %text, align 8, !tbaa !37
  tail call fastcc void @write_text(ptr noundef %v5)
  br label %sw.epilog

sw.bb8:                                           ; preds = %entry
  tail call fastcc void @write_group(ptr noundef nonnull %it, i32 noundef signext %indent, ptr noundef nonnull @.str.5.30)
  br label %sw.epilog

sw.bb9:                                           ; preds = %entry
  tail call fastcc void @write_group(ptr noundef nonnull %it, i32 noundef signext %indent, ptr noundef nonnull @.str.6.31)
  br label %sw.epilog

sw.epilog:                                        ; preds = %sw.bb9, %sw.bb8, %sw.bb7, %sw.bb5, %sw.bb3, %sw.bb1, %sw.bb, %entry
  ret void
}

; Function Attrs: nofree nosync nounwind memory(read, inaccessiblemem: none)
define internal fastcc i32 @json_count(ptr nocapture noundef readonly %it) unnamed_addr #4 {
entry:
  %inside = getelementptr inbounds i8, ptr %it, i32 24
  %each.04 = load ptr, ptr %inside, align 4, !tbaa !40
  %tobool.not5 = icmp eq ptr %each.04, null
  br i1 %tobool.not5, label %for.cond.cleanup, label %for.body

for.cond.cleanup:                                 ; preds = %for.body, %entry
  %n.0.lcssa = phi i32 [ 1, %entry ], [ %add, %for.body ]
  ret i32 %n.0.lcssa

for.body:                                         ; preds = %for.body, %entry
  %each.07 = phi ptr [ %each.0, %for.body ], [ %each.04, %entry ]
  %n.06 = phi i32 [ %add, %for.body ], [ 1, %entry ]
  %call = tail call fastcc i32 @json_count(ptr noundef nonnull %each.07)
  %add = add i32 %call, %n.06
  %next = getelementptr inbounds i8, ptr %each.07, i32 28
  %each.0 = load ptr, ptr %next, align 4, !tbaa !40
  %tobool.not = icmp eq ptr %each.0, null
  br i1 %tobool.not, label %for.cond.cleanup, label %for.body, !llvm.loop !57
}

; Function Attrs: nofree nosync nounwind memory(read, inaccessiblemem: none)
define internal fastcc range(i32 -2147483647, -2147483648) i32 @json_depth(ptr nocapture noundef readonly %it) unnamed_addr #4 {
entry:
  %inside = getelementptr inbounds i8, ptr %it, i32 24
  %each.05 = load ptr, ptr %inside, align 4, !tbaa !40
  %tobool.not6 = icmp eq ptr %each.05, null
  br i1 %tobool.not6, label %for.cond.cleanup, label %for.body

for.cond.cleanup.loopexit:                        ; preds = %for.body
  %v0 = add nuw nsw i32 %spec.select, 1
  br label %for.cond.cleanup

for.cond.cleanup:                                 ; preds = %for.cond.cleanup.loopexit, %entry
  %most.0.lcssa = phi i32 [ 1, %entry ], [ %v0, %for.cond.cleanup.loopexit ]
  ret i32 %most.0.lcssa

for.body:                                         ; preds = %for.body, %entry
  %each.08 = phi ptr [ %each.0, %for.body ], [ %each.05, %entry ]
  %most.07 = phi i32 [ %spec.select, %for.body ], [ 0, %entry ]
  %call = tail call fastcc i32 @json_depth(ptr noundef nonnull %each.08)
  %spec.select = tail call i32 @llvm.smax.i32(i32 %call, i32 %most.07)
  %next = getelementptr inbounds i8, ptr %each.08, i32 28
  %each.0 = load ptr, ptr %next, align 4, !tbaa !40
  %tobool.not = icmp eq ptr %each.0, null
  br i1 %tobool.not, label %for.cond.cleanup.loopexit, label %for.body, !llvm.loop !58
}

; Function Attrs: nounwind optsize
define internal i32 @__print_signed(ptr nocapture noundef %stream, i64 noundef signext %n, i32 noundef signext %flags, i32 noundef signext %width, i32 noundef signext %precision) local_unnamed_addr #2 {
entry:
  %room = alloca [24 x i8], align 1
  call void @llvm.lifetime.start.p0(i64 24, ptr nonnull %room) #16
  %add.ptr = getelementptr inbounds i8, ptr %room, i32 24
  %cmp = icmp slt i64 %n, 0
  %shr.i = lshr i64 %n, 63
  %tobool.i = icmp ne i64 %shr.i, 0
  %sub.i = sub i64 0, %n
  %cond.i = select i1 %tobool.i, i64 %sub.i, i64 %n
  %cmp.i = icmp ult i64 %cond.i, 4294967296
  br i1 %cmp.i, label %if.then.i, label %for.body6.i

if.then.i:                                        ; preds = %entry
  %conv.i = trunc nuw i64 %cond.i to i32
  %cmp1.not31.i = icmp eq i32 %conv.i, 0
  br i1 %cmp1.not31.i, label %spelled.exit, label %for.body.i

for.body.i:                                       ; preds = %for.body.i, %if.then.i
  %k.033.i = phi i32 [ %div.i, %for.body.i ], [ %conv.i, %if.then.i ]
  %end.addr.032.i = phi ptr [ %incdec.ptr.i, %for.body.i ], [ %add.ptr, %if.then.i ]
  %rem.i = urem i32 %k.033.i, 10
  %arrayidx.i = getelementptr inbounds i8, ptr @.str.9.22, i32 %rem.i
  %v0 = load i8, ptr %arrayidx.i, align 1, !tbaa !14
  %incdec.ptr.i = getelementptr inbounds i8, ptr %end.addr.032.i, i32 -1
  store i8 %v0, ptr %incdec.ptr.i, align 1, !tbaa !14
  %div.i = udiv i32 %k.033.i, 10
  %cmp1.not.i = icmp ult i32 %k.033.i, 10
  br i1 %cmp1.not.i, label %spelled.exit, label %for.body.i, !llvm.loop !53

for.body6.i:                                      ; preds = %for.body6.i, %entry
  %end.addr.130.i = phi ptr [ %incdec.ptr10.i, %for.body6.i ], [ %add.ptr, %entry ]
  %n.addr.029.i = phi i64 [ %div13.i, %for.body6.i ], [ %cond.i, %entry ]
  %div13.i = udiv i64 %n.addr.029.i, 10
  %v1 = mul i64 %div13.i, 10
  %rem8.i.decomposed = sub i64 %n.addr.029.i, %v1
  %idxprom.i = trunc nuw nsw i64 %rem8.i.decomposed to i32
  %arrayidx9.i = getelementptr inbounds i8, ptr @.str.9.22, i32 %idxprom.i
  %v2 = load i8, ptr %arrayidx9.i, align 1, !tbaa !14
  %incdec.ptr10.i = getelementptr inbounds i8, ptr %end.addr.130.i, i32 -1
  store i8 %v2, ptr %incdec.ptr10.i, align 1, !tbaa !14
  %cmp4.not.i = icmp ult i64 %n.addr.029.i, 10
  br i1 %cmp4.not.i, label %spelled.exit, label %for.body6.i, !llvm.loop !54

spelled.exit:                                     ; preds = %for.body6.i, %for.body.i, %if.then.i
  %retval.0.i = phi ptr [ %add.ptr, %if.then.i ], [ %incdec.ptr.i, %for.body.i ], [ %incdec.ptr10.i, %for.body6.i ]
  %cmp1 = icmp eq i64 %n, 0
  %cmp2 = icmp ne i32 %precision, 0
  %or.cond = and i1 %cmp1, %cmp2
  br i1 %or.cond, label %if.end.thread, label %if.end

if.end.thread:                                    ; preds = %spelled.exit
  %incdec.ptr = getelementptr inbounds i8, ptr %retval.0.i, i32 -1
  store i8 48, ptr %incdec.ptr, align 1, !tbaa !14
  br label %cond.false5

if.end:                                           ; preds = %spelled.exit
  br i1 %cmp, label %cond.end13, label %cond.false5

cond.false5:                                      ; preds = %if.end, %if.end.thread
  %at.027 = phi ptr [ %incdec.ptr, %if.end.thread ], [ %retval.0.i, %if.end ]
  %and = and i32 %flags, 2
  %tobool.not = icmp eq i32 %and, 0
  br i1 %tobool.not, label %cond.false7, label %cond.end13

cond.false7:                                      ; preds = %cond.false5
  %and8 = and i32 %flags, 4
  %tobool9.not = icmp eq i32 %and8, 0
  %cond10 = select i1 %tobool9.not, ptr @.str.17, ptr @.str.4.23
  br label %cond.end13

cond.end13:                                       ; preds = %cond.false7, %cond.false5, %if.end
  %at.028 = phi ptr [ %retval.0.i, %if.end ], [ %at.027, %cond.false7 ], [ %at.027, %cond.false5 ]
  %cond14 = phi ptr [ @.str.2.24, %if.end ], [ %cond10, %cond.false7 ], [ @.str.3.25, %cond.false5 ]
  %sub.ptr.lhs.cast = ptrtoint ptr %add.ptr to i32
  %sub.ptr.rhs.cast = ptrtoint ptr %at.028 to i32
  %sub.ptr.sub = sub i32 %sub.ptr.lhs.cast, %sub.ptr.rhs.cast
  %call15 = call fastcc i32 @number(ptr noundef %stream, ptr noundef nonnull %cond14, ptr noundef nonnull %at.028, i32 noundef signext %sub.ptr.sub, i32 noundef signext %flags, i32 noundef signext %width, i32 noundef signext %precision) #19
  call void @llvm.lifetime.end.p0(i64 24, ptr nonnull %room) #16
  ret i32 %call15
}

; Function Attrs: nofree norecurse nosync nounwind optsize memory(read, inaccessiblemem: none)
define internal i32 @strcspn(ptr nocapture noundef readonly %at, ptr nocapture noundef readonly %stops) local_unnamed_addr #3 {
entry:
  %call = tail call fastcc i32 @span(ptr noundef %at, ptr noundef %stops, i32 noundef signext 0) #19
  ret i32 %call
}

; Function Attrs: nofree norecurse nosync nounwind optsize memory(readwrite, inaccessiblemem: none)
define internal i32 @strtol(ptr noalias noundef %text, ptr noalias noundef %end, i32 noundef signext %base) local_unnamed_addr #5 {
entry:
  %it = alloca %struct.number, align 8
  call void @llvm.lifetime.start.p0(i64 16, ptr nonnull %it) #16
  %call = call fastcc ptr @scan(ptr noundef nonnull %it, ptr noundef %text, ptr noundef %end, i32 noundef signext %base, i64 noundef zeroext 2147483647, i64 noundef zeroext 2147483648) #19
  %below = getelementptr inbounds i8, ptr %it, i32 8
  %v0 = load i32, ptr %below, align 8, !tbaa !59
  %tobool.not = icmp eq i32 %v0, 0
  %v1 = load i64, ptr %it, align 8, !tbaa !61
  %extract.t2 = trunc i64 %v1 to i32
  %extract.t = sub i32 0, %extract.t2
  %cond.off0 = select i1 %tobool.not, i32 %extract.t2, i32 %extract.t
  call void @llvm.lifetime.end.p0(i64 16, ptr nonnull %it) #16
  ret i32 %cond.off0
}

; Function Attrs: nofree norecurse nosync nounwind optsize memory(read, inaccessiblemem: none)
define internal noundef i32 @strlen(ptr noundef %at) local_unnamed_addr #3 {
entry:
  br label %while.cond

while.cond:                                       ; preds = %while.cond, %entry
  %s.0 = phi ptr [ %at, %entry ], [ %incdec.ptr, %while.cond ]
  %v0 = load i8, ptr %s.0, align 1, !tbaa !14
  %tobool.not = icmp eq i8 %v0, 0
  %incdec.ptr = getelementptr inbounds i8, ptr %s.0, i32 1
  br i1 %tobool.not, label %while.end, label %while.cond, !llvm.loop !55

while.end:                                        ; preds = %while.cond
  %sub.ptr.lhs.cast = ptrtoint ptr %s.0 to i32
  %sub.ptr.rhs.cast = ptrtoint ptr %at to i32
  %sub.ptr.sub = sub i32 %sub.ptr.lhs.cast, %sub.ptr.rhs.cast
  ret i32 %sub.ptr.sub
}

; Function Attrs: nofree norecurse nosync nounwind optsize memory(read, inaccessiblemem: none)
define internal range(i32 -1, 2) i32 @strncmp(ptr nocapture noundef readonly %a, ptr nocapture noundef readonly %b, i32 noundef signext %n) local_unnamed_addr #3 {
entry:
  %cond30 = icmp eq i32 %n, 0
  br i1 %cond30, label %cond.end18, label %land.lhs.true

land.lhs.true:                                    ; preds = %while.body, %entry
  %t.033 = phi ptr [ %incdec.ptr5, %while.body ], [ %b, %entry ]
  %s.032 = phi ptr [ %incdec.ptr, %while.body ], [ %a, %entry ]
  %n.addr.031 = phi i32 [ %dec, %while.body ], [ %n, %entry ]
  %v0 = load i8, ptr %s.032, align 1, !tbaa !14
  %tobool.not = icmp ne i8 %v0, 0
  %.pre = load i8, ptr %t.033, align 1, !tbaa !14
  %cmp3 = icmp eq i8 %v0, %.pre
  %or.cond = select i1 %tobool.not, i1 %cmp3, i1 false
  br i1 %or.cond, label %while.body, label %cond.false

while.body:                                       ; preds = %land.lhs.true
  %incdec.ptr = getelementptr inbounds i8, ptr %s.032, i32 1
  %incdec.ptr5 = getelementptr inbounds i8, ptr %t.033, i32 1
  %dec = add i32 %n.addr.031, -1
  %cond = icmp eq i32 %dec, 0
  br i1 %cond, label %cond.end18, label %land.lhs.true, !llvm.loop !62

cond.false:                                       ; preds = %land.lhs.true
  %cmp10 = icmp ult i8 %v0, %.pre
  br i1 %cmp10, label %cond.end18, label %cond.false13

cond.false13:                                     ; preds = %cond.false
  %cmp16 = icmp ugt i8 %v0, %.pre
  %conv17 = zext i1 %cmp16 to i32
  br label %cond.end18

cond.end18:                                       ; preds = %cond.false13, %cond.false, %while.body, %entry
  %cond19 = phi i32 [ %conv17, %cond.false13 ], [ -1, %cond.false ], [ 0, %entry ], [ 0, %while.body ]
  ret i32 %cond19
}

; Function Attrs: nounwind optsize
define internal noundef i32 @fwrite(ptr noalias nocapture noundef readonly %from, i32 noundef signext %size, i32 noundef signext %count, ptr noalias nocapture noundef %stream) local_unnamed_addr #2 {
entry:
  %v0 = load i8, ptr %stream, align 4, !tbaa !45
  %cmp = icmp eq i8 %v0, 0
  br i1 %cmp, label %cleanup, label %for.cond.preheader

for.cond.preheader:                               ; preds = %entry
  %mul = mul i32 %count, %size
  %cmp210.not = icmp eq i32 %mul, 0
  br i1 %cmp210.not, label %for.cond.cleanup, label %for.body

for.cond.cleanup:                                 ; preds = %for.body, %for.cond.preheader
  %tobool.not = icmp eq i32 %size, 0
  %cond = select i1 %tobool.not, i32 0, i32 %count
  br label %cleanup

for.body:                                         ; preds = %for.body, %for.cond.preheader
  %k.011 = phi i32 [ %inc, %for.body ], [ 0, %for.cond.preheader ]
  %arrayidx = getelementptr inbounds i8, ptr %from, i32 %k.011
  %v1 = load i8, ptr %arrayidx, align 1, !tbaa !14
  %conv4 = zext i8 %v1 to i32
  %call = tail call i32 @fputc(i32 noundef signext %conv4, ptr noundef nonnull %stream) #19
  %inc = add nuw i32 %k.011, 1
  %exitcond.not = icmp eq i32 %inc, %mul
  br i1 %exitcond.not, label %for.cond.cleanup, label %for.body, !llvm.loop !52

cleanup:                                          ; preds = %for.cond.cleanup, %entry
  %retval.0 = phi i32 [ %cond, %for.cond.cleanup ], [ 0, %entry ]
  ret i32 %retval.0
}

; Function Attrs: nofree nounwind
declare dso_local noundef i32 @putchar(i32 noundef signext) local_unnamed_addr #6

; Function Attrs: nofree norecurse nosync nounwind optsize
define internal noundef ptr @strncpy(ptr noalias noundef returned %to, ptr noalias nocapture noundef readonly %from, i32 noundef signext %n) local_unnamed_addr #7 {
entry:
  %call = tail call ptr @stpncpy(ptr noundef %to, ptr noundef %from, i32 noundef signext %n) #19
  ret ptr %to
}

; Function Attrs: nounwind optsize
define internal ptr @realloc(ptr noundef %block, i32 noundef signext %n) local_unnamed_addr #2 {
entry:
  %tobool.not = icmp eq ptr %block, null
  br i1 %tobool.not, label %if.then, label %if.end

if.then:                                          ; preds = %entry
  %call = tail call ptr @__sized_malloc(i32 noundef signext %n) #19
  br label %return

if.end:                                           ; preds = %entry
  %cmp = icmp eq i32 %n, 0
  br i1 %cmp, label %if.then1, label %if.end2

if.then1:                                         ; preds = %if.end
  tail call void @__sized_free(ptr noundef nonnull %block) #19
  br label %return

if.end2:                                          ; preds = %if.end
  %call3 = tail call ptr @__sized_malloc(i32 noundef signext %n) #19
  %tobool4.not = icmp eq ptr %call3, null
  br i1 %tobool4.not, label %return, label %if.end6

if.end6:                                          ; preds = %if.end2
  %add.ptr.i = getelementptr inbounds i8, ptr %block, i32 -16
  %v0 = load i32, ptr %add.ptr.i, align 4, !tbaa !63
  %cmp.not3.i = icmp eq i32 %v0, 0
  br i1 %cmp.not3.i, label %memcpy.exit, label %while.body.i.preheader

while.body.i.preheader:                           ; preds = %if.end6
  %spec.select = tail call i32 @llvm.umin.i32(i32 %v0, i32 %n)
  br label %while.body.i

while.body.i:                                     ; preds = %while.body.i, %while.body.i.preheader
  %s.06.i = phi ptr [ %incdec.ptr.i, %while.body.i ], [ %block, %while.body.i.preheader ]
  %d.05.i = phi ptr [ %incdec.ptr1.i, %while.body.i ], [ %call3, %while.body.i.preheader ]
  %n.addr.04.i = phi i32 [ %dec.i, %while.body.i ], [ %spec.select, %while.body.i.preheader ]
  %dec.i = add i32 %n.addr.04.i, -1
  %incdec.ptr.i = getelementptr inbounds i8, ptr %s.06.i, i32 1
  %v1 = load i8, ptr %s.06.i, align 1, !tbaa !14, !alias.scope !64, !noalias !67
  %incdec.ptr1.i = getelementptr inbounds i8, ptr %d.05.i, i32 1
  store i8 %v1, ptr %d.05.i, align 1, !tbaa !14, !alias.scope !67, !noalias !64
  %cmp.not.i = icmp eq i32 %dec.i, 0
  br i1 %cmp.not.i, label %memcpy.exit, label %while.body.i, !llvm.loop !69

memcpy.exit:                                      ; preds = %while.body.i, %if.end6
  tail call void @__sized_free(ptr noundef nonnull %block) #19
  br label %return

return:                                           ; preds = %memcpy.exit, %if.end2, %if.then1, %if.then
  %retval.1 = phi ptr [ null, %if.then1 ], [ %call, %if.then ], [ %call3, %memcpy.exit ], [ null, %if.end2 ]
  ret ptr %retval.1
}

; Function Attrs: noreturn
declare dso_local void @exit(i32 noundef signext) local_unnamed_addr #8

; Function Attrs: nocallback nofree nounwind willreturn memory(argmem: readwrite)
declare void @llvm.memcpy.p0.p0.i32(ptr noalias nocapture writeonly, ptr noalias nocapture readonly, i32, i1 immarg) #9

; Function Attrs: noinline nounwind optsize
define internal void @__sized_free(ptr noundef %block) local_unnamed_addr #10 {
entry:
  %tobool.not = icmp eq ptr %block, null
  br i1 %tobool.not, label %if.end, label %if.then

if.then:                                          ; preds = %entry
  %add.ptr = getelementptr inbounds i8, ptr %block, i32 -16
  tail call void @free(ptr noundef nonnull %add.ptr) #21
  br label %if.end

if.end:                                           ; preds = %if.then, %entry
  ret void
}

; Function Attrs: mustprogress nounwind willreturn allockind("free") memory(argmem: readwrite, inaccessiblemem: readwrite)
declare dso_local void @free(ptr allocptr nocapture noundef) local_unnamed_addr #11

; Function Attrs: noinline nounwind optsize
define internal ptr @__sized_malloc(i32 noundef signext %n) local_unnamed_addr #10 {
entry:
  %cmp = icmp ult i32 %n, -16
  br i1 %cmp, label %cond.end, label %cleanup

cond.end:                                         ; preds = %entry
  %add = add nuw i32 %n, 16
  %call = tail call ptr @malloc(i32 noundef signext %add) #21
  %tobool.not = icmp eq ptr %call, null
  br i1 %tobool.not, label %cleanup, label %if.end

if.end:                                           ; preds = %cond.end
  %add.ptr = getelementptr inbounds i8, ptr %call, i32 16
  store i32 %n, ptr %call, align 4, !tbaa !63
  br label %cleanup

cleanup:                                          ; preds = %if.end, %cond.end, %entry
  %retval.0 = phi ptr [ %add.ptr, %if.end ], [ null, %cond.end ], [ null, %entry ]
  ret ptr %retval.0
}

; Function Attrs: nocallback nofree nosync nounwind speculatable willreturn memory(none)
declare i32 @llvm.umin.i32(i32, i32) #12

; Function Attrs: mustprogress nofree nounwind willreturn allockind("alloc,uninitialized") allocsize(0) memory(inaccessiblemem: readwrite)
declare dso_local noalias noundef ptr @malloc(i32 noundef signext) local_unnamed_addr #13

; Function Attrs: nofree norecurse nosync nounwind optsize
define internal ptr @stpncpy(ptr noalias noundef writeonly %to, ptr noalias nocapture noundef readonly %from, i32 noundef signext %n) local_unnamed_addr #7 {
entry:
  %cmp4.not.i = icmp eq i32 %n, 0
  br i1 %cmp4.not.i, label %memcpy.exit, label %land.rhs.i

land.rhs.i:                                       ; preds = %while.body.i, %entry
  %k.05.i = phi i32 [ %inc.i, %while.body.i ], [ 0, %entry ]
  %arrayidx.i = getelementptr inbounds i8, ptr %from, i32 %k.05.i
  %v0 = load i8, ptr %arrayidx.i, align 1, !tbaa !14
  %tobool.not.i = icmp eq i8 %v0, 0
  br i1 %tobool.not.i, label %strnlen.exit, label %while.body.i

while.body.i:                                     ; preds = %land.rhs.i
  %inc.i = add nuw i32 %k.05.i, 1
  %exitcond.not.i = icmp eq i32 %inc.i, %n
  br i1 %exitcond.not.i, label %while.body.i11.preheader, label %land.rhs.i, !llvm.loop !56

strnlen.exit:                                     ; preds = %land.rhs.i
  %cmp.not3.i = icmp eq i32 %k.05.i, 0
  br i1 %cmp.not3.i, label %memcpy.exit, label %while.body.i11.preheader

while.body.i11.preheader:                         ; preds = %strnlen.exit, %while.body.i
  %k.0.lcssa.i21 = phi i32 [ %k.05.i, %strnlen.exit ], [ %n, %while.body.i ]
  br label %while.body.i11

while.body.i11:                                   ; preds = %while.body.i11, %while.body.i11.preheader
  %s.06.i = phi ptr [ %incdec.ptr.i, %while.body.i11 ], [ %from, %while.body.i11.preheader ]
  %d.05.i = phi ptr [ %incdec.ptr1.i, %while.body.i11 ], [ %to, %while.body.i11.preheader ]
  %n.addr.04.i = phi i32 [ %dec.i, %while.body.i11 ], [ %k.0.lcssa.i21, %while.body.i11.preheader ]
  %dec.i = add i32 %n.addr.04.i, -1
  %incdec.ptr.i = getelementptr inbounds i8, ptr %s.06.i, i32 1
  %v1 = load i8, ptr %s.06.i, align 1, !tbaa !14, !alias.scope !70, !noalias !73
  %incdec.ptr1.i = getelementptr inbounds i8, ptr %d.05.i, i32 1
  store i8 %v1, ptr %d.05.i, align 1, !tbaa !14, !alias.scope !73, !noalias !70
  %cmp.not.i = icmp eq i32 %dec.i, 0
  br i1 %cmp.not.i, label %memcpy.exit, label %while.body.i11, !llvm.loop !69

memcpy.exit:                                      ; preds = %while.body.i11, %strnlen.exit, %entry
  %k.0.lcssa.i18 = phi i32 [ 0, %strnlen.exit ], [ 0, %entry ], [ %k.0.lcssa.i21, %while.body.i11 ]
  %add.ptr = getelementptr inbounds i8, ptr %to, i32 %k.0.lcssa.i18
  %sub = sub i32 %n, %k.0.lcssa.i18
  %cmp.not2.i = icmp eq i32 %sub, 0
  br i1 %cmp.not2.i, label %memset.exit, label %while.body.i12

while.body.i12:                                   ; preds = %while.body.i12, %memcpy.exit
  %d.04.i = phi ptr [ %incdec.ptr.i14, %while.body.i12 ], [ %add.ptr, %memcpy.exit ]
  %n.addr.03.i = phi i32 [ %dec.i13, %while.body.i12 ], [ %sub, %memcpy.exit ]
  %dec.i13 = add i32 %n.addr.03.i, -1
  %incdec.ptr.i14 = getelementptr inbounds i8, ptr %d.04.i, i32 1
  store i8 0, ptr %d.04.i, align 1, !tbaa !14
  %cmp.not.i15 = icmp eq i32 %dec.i13, 0
  br i1 %cmp.not.i15, label %memset.exit, label %while.body.i12, !llvm.loop !75

memset.exit:                                      ; preds = %while.body.i12, %memcpy.exit
  ret ptr %add.ptr
}

; Function Attrs: nounwind optsize
define internal range(i32 -1, 256) i32 @fputc(i32 noundef signext %c, ptr nocapture noundef %stream) local_unnamed_addr #2 {
entry:
  %v0 = load i8, ptr %stream, align 4, !tbaa !45
  switch i8 %v0, label %if.end18 [
    i8 1, label %if.then
    i8 3, label %land.lhs.true
    i8 0, label %return
  ]

if.then:                                          ; preds = %entry
  %call = tail call i32 @putchar(i32 noundef signext %c) #21
  br label %if.end18

land.lhs.true:                                    ; preds = %entry
  %left = getelementptr inbounds i8, ptr %stream, i32 8
  %v1 = load i32, ptr %left, align 4, !tbaa !76
  %cmp6.not = icmp eq i32 %v1, 0
  br i1 %cmp6.not, label %if.end18, label %if.then8

if.then8:                                         ; preds = %land.lhs.true
  %conv9 = trunc i32 %c to i8
  %at = getelementptr inbounds i8, ptr %stream, i32 4
  %v2 = load ptr, ptr %at, align 4, !tbaa !77
  %incdec.ptr = getelementptr inbounds i8, ptr %v2, i32 1
  store ptr %incdec.ptr, ptr %at, align 4, !tbaa !77
  store i8 %conv9, ptr %v2, align 1, !tbaa !14
  %v3 = load i32, ptr %left, align 4, !tbaa !76
  %dec = add i32 %v3, -1
  store i32 %dec, ptr %left, align 4, !tbaa !76
  br label %if.end18

if.end18:                                         ; preds = %if.then8, %land.lhs.true, %if.then, %entry
  %conv20 = and i32 %c, 255
  br label %return

return:                                           ; preds = %if.end18, %entry
  %retval.0 = phi i32 [ %conv20, %if.end18 ], [ -1, %entry ]
  ret i32 %retval.0
}

; Function Attrs: nofree norecurse nosync nounwind optsize memory(readwrite, inaccessiblemem: none)
define internal fastcc noundef ptr @scan(ptr noundef returned writeonly %it, ptr noundef %text, ptr noundef writeonly %end, i32 noundef signext %base, i64 noundef zeroext %most, i64 noundef zeroext %least) unnamed_addr #5 {
entry:
  store i64 0, ptr %it, align 8, !tbaa !61
  %below = getelementptr inbounds i8, ptr %it, i32 8
  store i32 0, ptr %below, align 8, !tbaa !59
  %over = getelementptr inbounds i8, ptr %it, i32 12
  store i32 0, ptr %over, align 4, !tbaa !78
  %cmp1 = icmp eq i32 %base, 1
  %v0 = icmp ugt i32 %base, 36
  %or.cond93 = or i1 %v0, %cmp1
  br i1 %or.cond93, label %if.then, label %if.end

if.then:                                          ; preds = %entry
  store i32 22, ptr @errno, align 4, !tbaa !63
  br label %cleanup92

if.end:                                           ; preds = %entry
  %tobool.not = icmp eq ptr %end, null
  br i1 %tobool.not, label %while.cond.preheader, label %if.then4

if.then4:                                         ; preds = %if.end
  store ptr %text, ptr %end, align 4, !tbaa !40
  br label %while.cond.preheader

while.cond.preheader:                             ; preds = %if.then4, %if.end
  br label %while.cond

while.cond:                                       ; preds = %while.cond, %while.cond.preheader
  %s.0 = phi ptr [ %incdec.ptr, %while.cond ], [ %text, %while.cond.preheader ]
  %v1 = load i8, ptr %s.0, align 1, !tbaa !14
  %conv = zext i8 %v1 to i32
  %cmp.i = icmp ne i8 %v1, 32
  %v2 = add nsw i32 %conv, -14
  %v3 = icmp ult i32 %v2, -5
  %narrow.i.not = and i1 %cmp.i, %v3
  %incdec.ptr = getelementptr inbounds i8, ptr %s.0, i32 1
  br i1 %narrow.i.not, label %while.end, label %while.cond, !llvm.loop !79

while.end:                                        ; preds = %while.cond
  switch i8 %v1, label %if.end20 [
    i8 45, label %if.then14
    i8 43, label %if.then14
  ]

if.then14:                                        ; preds = %while.end, %while.end
  %cmp17 = icmp eq i8 %v1, 45
  %conv18 = zext i1 %cmp17 to i32
  store i32 %conv18, ptr %below, align 8, !tbaa !59
  %v4 = select i1 %cmp17, i64 %least, i64 %most
  br label %if.end20

if.end20:                                         ; preds = %if.then14, %while.end
  %tobool53.not = phi i64 [ %v4, %if.then14 ], [ %most, %while.end ]
  %s.1 = phi ptr [ %incdec.ptr, %if.then14 ], [ %s.0, %while.end ]
  %cmp21 = icmp ne i32 %base, 0
  switch i32 %base, label %if.end51 [
    i32 16, label %land.lhs.true
    i32 0, label %land.lhs.true
  ]

land.lhs.true:                                    ; preds = %if.end20, %if.end20
  %v5 = load i8, ptr %s.1, align 1, !tbaa !14
  %cmp27 = icmp eq i8 %v5, 48
  br i1 %cmp27, label %land.lhs.true29, label %if.else

land.lhs.true29:                                  ; preds = %land.lhs.true
  %arrayidx = getelementptr inbounds i8, ptr %s.1, i32 1
  %v6 = load i8, ptr %arrayidx, align 1, !tbaa !14
  switch i8 %v6, label %if.else [
    i8 120, label %land.lhs.true38
    i8 88, label %land.lhs.true38
  ]

land.lhs.true38:                                  ; preds = %land.lhs.true29, %land.lhs.true29
  %arrayidx39 = getelementptr inbounds i8, ptr %s.1, i32 2
  %v7 = load i8, ptr %arrayidx39, align 1, !tbaa !14
  %conv.i = zext i8 %v7 to i32
  %v8 = add nsw i32 %conv.i, -58
  %v9 = icmp ult i32 %v8, -10
  br i1 %v9, label %cond.false.i, label %if.end51

cond.false.i:                                     ; preds = %land.lhs.true38
  %v10 = and i32 %conv.i, 223
  %v11 = add nsw i32 %v10, -91
  %narrow.i.i = icmp ult i32 %v11, -26
  br i1 %narrow.i.i, label %.thread, label %digit.exit

.thread:                                          ; preds = %cond.false.i
  br i1 %cmp21, label %if.end51, label %if.then46

digit.exit:                                       ; preds = %cond.false.i
  %v12 = add nsw i32 %conv.i, -91
  %v13 = icmp ult i32 %v12, -26
  %sub.i.i = add nuw nsw i32 %conv.i, 32
  %cond.i.i = select i1 %v13, i32 %conv.i, i32 %sub.i.i
  %cond.i.i.fr = freeze i32 %cond.i.i
  %add.i = add i32 %cond.i.i.fr, -87
  %v14 = icmp ult i32 %add.i, 16
  %brmerge = or i1 %cmp21, %v14
  %arrayidx39.mux = select i1 %v14, ptr %arrayidx39, ptr %s.1
  %.mux = select i1 %v14, i32 16, i32 %base
  br i1 %brmerge, label %if.end51, label %if.then46

if.else:                                          ; preds = %land.lhs.true29, %land.lhs.true
  br i1 %cmp21, label %if.end51, label %if.then46

if.then46:                                        ; preds = %if.else, %digit.exit, %.thread
  %cond = select i1 %cmp27, i32 8, i32 10
  br label %if.end51

if.end51:                                         ; preds = %if.then46, %if.else, %digit.exit, %.thread, %land.lhs.true38, %if.end20
  %s.2 = phi ptr [ %s.1, %if.then46 ], [ %s.1, %if.else ], [ %s.1, %if.end20 ], [ %arrayidx39, %land.lhs.true38 ], [ %s.1, %.thread ], [ %arrayidx39.mux, %digit.exit ]
  %base.addr.0 = phi i32 [ %cond, %if.then46 ], [ %base, %if.else ], [ %base, %if.end20 ], [ 16, %land.lhs.true38 ], [ %base, %.thread ], [ %.mux, %digit.exit ]
  %v15 = load i8, ptr %s.2, align 1, !tbaa !14
  %conv.i140 = zext i8 %v15 to i32
  %v16 = add nsw i32 %conv.i140, -48
  %v17 = icmp ugt i32 %v16, 9
  br i1 %v17, label %cond.false.i142, label %digit.exit148

cond.false.i142:                                  ; preds = %if.end51
  %v18 = and i32 %conv.i140, 223
  %v19 = add nsw i32 %v18, -91
  %narrow.i.i143 = icmp ult i32 %v19, -26
  br i1 %narrow.i.i143, label %digit.exit148, label %cond.true5.i144

cond.true5.i144:                                  ; preds = %cond.false.i142
  %v20 = add nsw i32 %conv.i140, -91
  %v21 = icmp ult i32 %v20, -26
  %sub.i.i145 = add nuw nsw i32 %conv.i140, 32
  %cond.i.i146 = select i1 %v21, i32 %conv.i140, i32 %sub.i.i145
  %add.i147 = add nsw i32 %cond.i.i146, -87
  br label %digit.exit148

digit.exit148:                                    ; preds = %cond.true5.i144, %cond.false.i142, %if.end51
  %cond11.i141 = phi i32 [ %add.i147, %cond.true5.i144 ], [ 255, %cond.false.i142 ], [ %v16, %if.end51 ]
  %cmp56.not = icmp ult i32 %cond11.i141, %base.addr.0
  br i1 %cmp56.not, label %for.cond.preheader, label %cleanup92

for.cond.preheader:                               ; preds = %digit.exit148
  %conv68 = zext nneg i32 %base.addr.0 to i64
  br label %for.cond

for.cond:                                         ; preds = %for.inc, %for.cond.preheader
  %v22 = phi i64 [ %v31, %for.inc ], [ 0, %for.cond.preheader ]
  %v23 = phi i32 [ %v32, %for.inc ], [ 0, %for.cond.preheader ]
  %v24 = phi i8 [ %.pre, %for.inc ], [ %v15, %for.cond.preheader ]
  %s.3 = phi ptr [ %incdec.ptr83, %for.inc ], [ %s.2, %for.cond.preheader ]
  %conv.i149 = zext i8 %v24 to i32
  %v25 = add nsw i32 %conv.i149, -48
  %v26 = icmp ugt i32 %v25, 9
  br i1 %v26, label %cond.false.i151, label %digit.exit157

cond.false.i151:                                  ; preds = %for.cond
  %v27 = and i32 %conv.i149, 223
  %v28 = add nsw i32 %v27, -91
  %narrow.i.i152 = icmp ult i32 %v28, -26
  br i1 %narrow.i.i152, label %digit.exit157, label %cond.true5.i153

cond.true5.i153:                                  ; preds = %cond.false.i151
  %v29 = add nsw i32 %conv.i149, -91
  %v30 = icmp ult i32 %v29, -26
  %sub.i.i154 = add nuw nsw i32 %conv.i149, 32
  %cond.i.i155 = select i1 %v30, i32 %conv.i149, i32 %sub.i.i154
  %add.i156 = add nsw i32 %cond.i.i155, -87
  br label %digit.exit157

digit.exit157:                                    ; preds = %cond.true5.i153, %cond.false.i151, %for.cond
  %cond11.i150 = phi i32 [ %add.i156, %cond.true5.i153 ], [ 255, %cond.false.i151 ], [ %v25, %for.cond ]
  %cmp61 = icmp ult i32 %cond11.i150, %base.addr.0
  br i1 %cmp61, label %for.body, label %for.cond.cleanup

for.cond.cleanup:                                 ; preds = %digit.exit157
  br i1 %tobool.not, label %if.end86, label %if.then85

for.body:                                         ; preds = %digit.exit157
  %tobool64.not = icmp eq i32 %v23, 0
  br i1 %tobool64.not, label %lor.lhs.false65, label %if.then75

lor.lhs.false65:                                  ; preds = %for.body
  %conv67 = zext nneg i32 %cond11.i150 to i64
  %sub = sub i64 %tobool53.not, %conv67
  %div = udiv i64 %sub, %conv68
  %cmp69 = icmp ugt i64 %v22, %div
  %cmp73 = icmp ult i64 %tobool53.not, %conv67
  %or.cond = or i1 %cmp69, %cmp73
  br i1 %or.cond, label %if.then75, label %if.else77

if.then75:                                        ; preds = %lor.lhs.false65, %for.body
  store i32 1, ptr %over, align 4, !tbaa !78
  br label %for.inc

if.else77:                                        ; preds = %lor.lhs.false65
  %mul = mul i64 %v22, %conv68
  %add = add i64 %mul, %conv67
  store i64 %add, ptr %it, align 8, !tbaa !61
  br label %for.inc

for.inc:                                          ; preds = %if.else77, %if.then75
  %v31 = phi i64 [ %v22, %if.then75 ], [ %add, %if.else77 ]
  %v32 = phi i32 [ 1, %if.then75 ], [ 0, %if.else77 ]
  %incdec.ptr83 = getelementptr inbounds i8, ptr %s.3, i32 1
  %.pre = load i8, ptr %incdec.ptr83, align 1, !tbaa !14
  br label %for.cond, !llvm.loop !80

if.then85:                                        ; preds = %for.cond.cleanup
  store ptr %s.3, ptr %end, align 4, !tbaa !40
  br label %if.end86

if.end86:                                         ; preds = %if.then85, %for.cond.cleanup
  %tobool88.not = icmp eq i32 %v23, 0
  br i1 %tobool88.not, label %cleanup92, label %if.then89

if.then89:                                        ; preds = %if.end86
  store i32 34, ptr @errno, align 4, !tbaa !63
  store i64 %tobool53.not, ptr %it, align 8, !tbaa !61
  br label %cleanup92

cleanup92:                                        ; preds = %if.then89, %if.end86, %digit.exit148, %if.then
  ret ptr %it
}

; Function Attrs: nofree norecurse nosync nounwind optsize memory(read, inaccessiblemem: none)
define internal fastcc i32 @span(ptr nocapture noundef readonly %at, ptr nocapture noundef readonly %set, i32 noundef signext %within) unnamed_addr #3 {
entry:
  %has = alloca [256 x i8], align 1
  call void @llvm.lifetime.start.p0(i64 256, ptr nonnull %has) #16
  br label %while.body.i

while.body.i:                                     ; preds = %while.body.i, %entry
  %d.04.i = phi ptr [ %has, %entry ], [ %incdec.ptr.i, %while.body.i ]
  %n.addr.03.i = phi i32 [ 256, %entry ], [ %dec.i, %while.body.i ]
  %dec.i = add nsw i32 %n.addr.03.i, -1
  %incdec.ptr.i = getelementptr inbounds i8, ptr %d.04.i, i32 1
  store i8 0, ptr %d.04.i, align 1, !tbaa !14
  %cmp.not.i = icmp eq i32 %dec.i, 0
  br i1 %cmp.not.i, label %while.cond.preheader, label %while.body.i, !llvm.loop !75

while.cond.preheader:                             ; preds = %while.body.i
  %v0 = load i8, ptr %set, align 1, !tbaa !14
  %tobool.not16 = icmp eq i8 %v0, 0
  br i1 %tobool.not16, label %while.cond1.preheader, label %while.body

while.cond1.preheader:                            ; preds = %while.body, %while.cond.preheader
  %v1 = load i8, ptr %at, align 1, !tbaa !14
  %tobool3.not18 = icmp eq i8 %v1, 0
  br i1 %tobool3.not18, label %while.end10, label %land.rhs

while.body:                                       ; preds = %while.body, %while.cond.preheader
  %v2 = phi i8 [ %v3, %while.body ], [ %v0, %while.cond.preheader ]
  %set.addr.017 = phi ptr [ %incdec.ptr, %while.body ], [ %set, %while.cond.preheader ]
  %incdec.ptr = getelementptr inbounds i8, ptr %set.addr.017, i32 1
  %idxprom = zext i8 %v2 to i32
  %arrayidx = getelementptr inbounds [256 x i8], ptr %has, i32 0, i32 %idxprom
  store i8 1, ptr %arrayidx, align 1, !tbaa !14
  %v3 = load i8, ptr %incdec.ptr, align 1, !tbaa !14
  %tobool.not = icmp eq i8 %v3, 0
  br i1 %tobool.not, label %while.cond1.preheader, label %while.body, !llvm.loop !81

land.rhs:                                         ; preds = %while.body9, %while.cond1.preheader
  %v4 = phi i8 [ %v6, %while.body9 ], [ %v1, %while.cond1.preheader ]
  %k.019 = phi i32 [ %inc, %while.body9 ], [ 0, %while.cond1.preheader ]
  %idxprom5 = zext i8 %v4 to i32
  %arrayidx6 = getelementptr inbounds [256 x i8], ptr %has, i32 0, i32 %idxprom5
  %v5 = load i8, ptr %arrayidx6, align 1, !tbaa !14
  %conv7 = zext i8 %v5 to i32
  %cmp = icmp eq i32 %conv7, %within
  br i1 %cmp, label %while.body9, label %while.end10

while.body9:                                      ; preds = %land.rhs
  %inc = add i32 %k.019, 1
  %arrayidx2 = getelementptr inbounds i8, ptr %at, i32 %inc
  %v6 = load i8, ptr %arrayidx2, align 1, !tbaa !14
  %tobool3.not = icmp eq i8 %v6, 0
  br i1 %tobool3.not, label %while.end10, label %land.rhs, !llvm.loop !82

while.end10:                                      ; preds = %while.body9, %land.rhs, %while.cond1.preheader
  %k.0.lcssa = phi i32 [ 0, %while.cond1.preheader ], [ %inc, %while.body9 ], [ %k.019, %land.rhs ]
  call void @llvm.lifetime.end.p0(i64 256, ptr nonnull %has) #16
  ret i32 %k.0.lcssa
}

; Function Attrs: nounwind optsize
define internal fastcc i32 @number(ptr nocapture noundef %stream, ptr noundef %front, ptr nocapture noundef readonly %digits, i32 noundef signext %n, i32 noundef signext %flags, i32 noundef signext %width, i32 noundef signext %precision) unnamed_addr #2 {
entry:
  br label %while.cond.i

while.cond.i:                                     ; preds = %while.cond.i, %entry
  %s.0.i = phi ptr [ %front, %entry ], [ %incdec.ptr.i, %while.cond.i ]
  %v0 = load i8, ptr %s.0.i, align 1, !tbaa !14
  %tobool.not.i = icmp eq i8 %v0, 0
  %incdec.ptr.i = getelementptr inbounds i8, ptr %s.0.i, i32 1
  br i1 %tobool.not.i, label %strlen.exit, label %while.cond.i, !llvm.loop !55

strlen.exit:                                      ; preds = %while.cond.i
  %sub.ptr.lhs.cast.i = ptrtoint ptr %s.0.i to i32
  %sub.ptr.rhs.cast.i = ptrtoint ptr %front to i32
  %sub.ptr.sub.i = sub i32 %sub.ptr.lhs.cast.i, %sub.ptr.rhs.cast.i
  %sub = sub nsw i32 %precision, %n
  %shr.i = lshr i32 %width, 31
  %tobool.i = icmp ne i32 %shr.i, 0
  %sub.i = sub i32 0, %width
  %cond.i1 = select i1 %tobool.i, i32 %sub.i, i32 %width
  %spec.store.select = tail call i32 @llvm.smax.i32(i32 %sub, i32 0)
  %cmp5 = icmp slt i32 %precision, 0
  %and = and i32 %flags, 16
  %tobool.not = icmp ne i32 %and, 0
  %or.cond.not94 = and i1 %tobool.not, %cmp5
  %flags.masked = and i32 %flags, 1
  %and7 = or i32 %shr.i, %flags.masked
  %tobool8.not = icmp eq i32 %and7, 0
  %or.cond65 = and i1 %or.cond.not94, %tobool8.not
  %add = add i32 %sub.ptr.sub.i, %n
  %cmp10 = icmp sgt i32 %cond.i1, %add
  %or.cond66 = select i1 %or.cond65, i1 %cmp10, i1 false
  %sub13 = sub i32 %cond.i1, %add
  %zeros.0 = select i1 %or.cond66, i32 %sub13, i32 %spec.store.select
  %v2 = add i32 %add, %zeros.0
  %sub17 = sub i32 %cond.i1, %v2
  br i1 %tobool8.not, label %if.then20, label %if.end23

if.then20:                                        ; preds = %strlen.exit
  %cmp5.i = icmp sgt i32 %sub17, 0
  br i1 %cmp5.i, label %for.body.i, label %repeated.exit

for.body.i:                                       ; preds = %for.body.i, %if.then20
  %k.06.i = phi i32 [ %inc.i, %for.body.i ], [ 0, %if.then20 ]
  %call.i = tail call i32 @fputc(i32 noundef signext 32, ptr noundef %stream) #19
  %inc.i = add nuw nsw i32 %k.06.i, 1
  %exitcond.not.i = icmp eq i32 %inc.i, %sub17
  br i1 %exitcond.not.i, label %repeated.exit, label %for.body.i, !llvm.loop !83

repeated.exit:                                    ; preds = %for.body.i, %if.then20
  %cond.i = tail call noundef i32 @llvm.smax.i32(i32 %sub17, i32 0)
  br label %if.end23

if.end23:                                         ; preds = %repeated.exit, %strlen.exit
  %count.0 = phi i32 [ 0, %strlen.exit ], [ %cond.i, %repeated.exit ]
  %v3 = load i8, ptr %stream, align 4, !tbaa !45, !alias.scope !84, !noalias !87
  %cmp.i.i = icmp eq i8 %v3, 0
  %cmp210.not.i.i = icmp eq ptr %s.0.i, %front
  %or.cond.i = or i1 %cmp210.not.i.i, %cmp.i.i
  br i1 %or.cond.i, label %__print_text.exit, label %for.body.i.i

for.body.i.i:                                     ; preds = %for.body.i.i, %if.end23
  %k.011.i.i = phi i32 [ %inc.i.i, %for.body.i.i ], [ 0, %if.end23 ]
  %arrayidx.i.i = getelementptr inbounds i8, ptr %front, i32 %k.011.i.i
  %v4 = load i8, ptr %arrayidx.i.i, align 1, !tbaa !14, !alias.scope !87, !noalias !84
  %conv4.i.i = zext i8 %v4 to i32
  %call.i.i = tail call i32 @fputc(i32 noundef signext %conv4.i.i, ptr noundef nonnull %stream) #19, !noalias !87
  %inc.i.i = add nuw i32 %k.011.i.i, 1
  %exitcond.not.i.i = icmp eq i32 %inc.i.i, %sub.ptr.sub.i
  br i1 %exitcond.not.i.i, label %__print_text.exit, label %for.body.i.i, !llvm.loop !52

__print_text.exit:                                ; preds = %for.body.i.i, %if.end23
  %cmp5.i67 = icmp sgt i32 %zeros.0, 0
  br i1 %cmp5.i67, label %for.body.i69, label %repeated.exit74

for.body.i69:                                     ; preds = %for.body.i69, %__print_text.exit
  %k.06.i70 = phi i32 [ %inc.i72, %for.body.i69 ], [ 0, %__print_text.exit ]
  %call.i71 = tail call i32 @fputc(i32 noundef signext 48, ptr noundef nonnull %stream) #19
  %inc.i72 = add nuw nsw i32 %k.06.i70, 1
  %exitcond.not.i73 = icmp eq i32 %inc.i72, %zeros.0
  br i1 %exitcond.not.i73, label %repeated.exit74, label %for.body.i69, !llvm.loop !83

repeated.exit74:                                  ; preds = %for.body.i69, %__print_text.exit
  %cond.i68 = tail call noundef i32 @llvm.smax.i32(i32 %zeros.0, i32 0)
  %v5 = load i8, ptr %stream, align 4, !tbaa !45, !alias.scope !89, !noalias !92
  %cmp.i.i75 = icmp eq i8 %v5, 0
  %cmp210.not.i.i76 = icmp eq i32 %n, 0
  %or.cond.i77 = or i1 %cmp210.not.i.i76, %cmp.i.i75
  br i1 %or.cond.i77, label %__print_text.exit85, label %for.body.i.i78

for.body.i.i78:                                   ; preds = %for.body.i.i78, %repeated.exit74
  %k.011.i.i79 = phi i32 [ %inc.i.i83, %for.body.i.i78 ], [ 0, %repeated.exit74 ]
  %arrayidx.i.i80 = getelementptr inbounds i8, ptr %digits, i32 %k.011.i.i79
  %v6 = load i8, ptr %arrayidx.i.i80, align 1, !tbaa !14, !alias.scope !92, !noalias !89
  %conv4.i.i81 = zext i8 %v6 to i32
  %call.i.i82 = tail call i32 @fputc(i32 noundef signext %conv4.i.i81, ptr noundef nonnull %stream) #19, !noalias !92
  %inc.i.i83 = add nuw i32 %k.011.i.i79, 1
  %exitcond.not.i.i84 = icmp eq i32 %inc.i.i83, %n
  br i1 %exitcond.not.i.i84, label %__print_text.exit85, label %for.body.i.i78, !llvm.loop !52

__print_text.exit85:                              ; preds = %for.body.i.i78, %repeated.exit74
  %add27 = add i32 %add, %cond.i68
  %add29 = add i32 %add27, %count.0
  br i1 %tobool8.not, label %if.end35, label %if.then32

if.then32:                                        ; preds = %__print_text.exit85
  %cmp5.i86 = icmp sgt i32 %sub17, 0
  br i1 %cmp5.i86, label %for.body.i88, label %repeated.exit93

for.body.i88:                                     ; preds = %for.body.i88, %if.then32
  %k.06.i89 = phi i32 [ %inc.i91, %for.body.i88 ], [ 0, %if.then32 ]
  %call.i90 = tail call i32 @fputc(i32 noundef signext 32, ptr noundef nonnull %stream) #19
  %inc.i91 = add nuw nsw i32 %k.06.i89, 1
  %exitcond.not.i92 = icmp eq i32 %inc.i91, %sub17
  br i1 %exitcond.not.i92, label %repeated.exit93, label %for.body.i88, !llvm.loop !83

repeated.exit93:                                  ; preds = %for.body.i88, %if.then32
  %cond.i87 = tail call noundef i32 @llvm.smax.i32(i32 %sub17, i32 0)
  %add34 = add nsw i32 %add29, %cond.i87
  br label %if.end35

if.end35:                                         ; preds = %repeated.exit93, %__print_text.exit85
  %count.1 = phi i32 [ %add34, %repeated.exit93 ], [ %add29, %__print_text.exit85 ]
  ret i32 %count.1
}

; Function Attrs: nocallback nofree nosync nounwind speculatable willreturn memory(none)
declare i32 @llvm.smax.i32(i32, i32) #12

; Function Attrs: nounwind
define internal fastcc void @write_text(ptr nocapture noundef readonly %text) unnamed_addr #0 {
entry:
  %call = tail call i32 @putchar(i32 noundef signext 34)
  %v0 = load i8, ptr %text, align 1, !tbaa !14
  %tobool.not9 = icmp eq i8 %v0, 0
  br i1 %tobool.not9, label %for.end, label %for.body

for.body:                                         ; preds = %if.end23, %entry
  %v1 = phi i8 [ %v3, %if.end23 ], [ %v0, %entry ]
  %text.addr.010 = phi ptr [ %incdec.ptr, %if.end23 ], [ %text, %entry ]
  %conv = zext i8 %v1 to i32
  switch i8 %v1, label %if.else12 [
    i8 92, label %if.then
    i8 34, label %if.then
    i8 10, label %if.then10
  ]

if.then:                                          ; preds = %for.body, %for.body
  %print.2113.0 = tail call i32 @__print_text(ptr nonnull getelementptr inbounds (i8, ptr @__streams, i32 12), ptr nonnull @.str.7.37, i32 1) #16
  %print.2113.1 = tail call i32 @__print_character(ptr nonnull getelementptr inbounds (i8, ptr @__streams, i32 12), i32 %conv, i32 0, i32 0) #16
  br label %if.end23

if.then10:                                        ; preds = %for.body
  %v2 = tail call i32 @fwrite(ptr nonnull @.str.8.38, i32 2, i32 1, ptr nonnull getelementptr inbounds (i8, ptr @__streams, i32 12))
  br label %if.end23

if.else12:                                        ; preds = %for.body
  %cmp14 = icmp ult i8 %v1, 32
  br i1 %cmp14, label %if.then16, label %if.else19

if.then16:                                        ; preds = %if.else12
  %print.2135.0 = tail call i32 @__print_text(ptr nonnull getelementptr inbounds (i8, ptr @__streams, i32 12), ptr nonnull @.str.9.39, i32 2) #16
  %print.2135.1 = zext nneg i8 %v1 to i64
  %print.2135.2 = tail call i32 @__print_unsigned(ptr nonnull getelementptr inbounds (i8, ptr @__streams, i32 12), i64 %print.2135.1, i32 16, i32 16, i32 4, i32 -1) #16
  br label %if.end23

if.else19:                                        ; preds = %if.else12
  %call21 = tail call i32 @putchar(i32 noundef signext %conv)
  br label %if.end23

if.end23:                                         ; preds = %if.else19, %if.then16, %if.then10, %if.then
  %incdec.ptr = getelementptr inbounds i8, ptr %text.addr.010, i32 1
  %v3 = load i8, ptr %incdec.ptr, align 1, !tbaa !14
  %tobool.not = icmp eq i8 %v3, 0
  br i1 %tobool.not, label %for.end, label %for.body, !llvm.loop !94

for.end:                                          ; preds = %if.end23, %entry
  %call24 = tail call i32 @putchar(i32 noundef signext 34)
  ret void
}

; Function Attrs: nounwind
define internal fastcc void @write_group(ptr nocapture noundef readonly %it, i32 noundef signext %indent, ptr nocapture noundef readonly %brackets) unnamed_addr #0 {
entry:
  %v0 = load i8, ptr %brackets, align 1, !tbaa !14
  %conv = sext i8 %v0 to i32
  %call = tail call i32 @putchar(i32 noundef signext %conv)
  %inside = getelementptr inbounds i8, ptr %it, i32 24
  %each.011 = load ptr, ptr %inside, align 4, !tbaa !40
  %tobool.not12 = icmp eq ptr %each.011, null
  br i1 %tobool.not12, label %for.cond.cleanup, label %for.body.lr.ph

for.body.lr.ph:                                   ; preds = %entry
  %add = add nsw i32 %indent, 2
  br label %for.body

for.cond.cleanup:                                 ; preds = %if.end, %entry
  %v1 = load ptr, ptr %inside, align 8, !tbaa !21
  %tobool9.not = icmp eq ptr %v1, null
  br i1 %tobool9.not, label %if.end12, label %if.then10

for.body:                                         ; preds = %if.end, %for.body.lr.ph
  %each.013 = phi ptr [ %each.011, %for.body.lr.ph ], [ %each.0, %if.end ]
  %v2 = load ptr, ptr %inside, align 8, !tbaa !21
  %cmp = icmp eq ptr %each.013, %v2
  %cond = select i1 %cmp, ptr @.str.11.32, ptr @.str.12.33
  %print.2206.0 = tail call i32 @__print_string(ptr nonnull getelementptr inbounds (i8, ptr @__streams, i32 12), ptr nonnull %cond, i32 0, i32 0, i32 -1) #16
  %print.2206.1 = tail call i32 @__print_text(ptr nonnull getelementptr inbounds (i8, ptr @__streams, i32 12), ptr nonnull getelementptr inbounds (i8, ptr @.str.10.34, i32 2), i32 1) #16
  %print.2206.2 = tail call i32 @__print_string(ptr nonnull getelementptr inbounds (i8, ptr @__streams, i32 12), ptr nonnull @.str.11.32, i32 0, i32 %add, i32 -1) #16
  %name = getelementptr inbounds i8, ptr %each.013, i32 20
  %v3 = load ptr, ptr %name, align 4, !tbaa !27
  %tobool4.not = icmp eq ptr %v3, null
  br i1 %tobool4.not, label %if.end, label %if.then

if.then:                                          ; preds = %for.body
  tail call fastcc void @write_text(ptr noundef nonnull %v3)
  %v4 = tail call i32 @fwrite(ptr nonnull @.str.13.35, i32 2, i32 1, ptr nonnull getelementptr inbounds (i8, ptr @__streams, i32 12))
  br label %if.end

if.end:                                           ; preds = %if.then, %for.body
  tail call fastcc void @json_write(ptr noundef nonnull %each.013, i32 noundef signext %add)
  %next = getelementptr inbounds i8, ptr %each.013, i32 28
  %each.0 = load ptr, ptr %next, align 4, !tbaa !40
  %tobool.not = icmp eq ptr %each.0, null
  br i1 %tobool.not, label %for.cond.cleanup, label %for.body, !llvm.loop !95

if.then10:                                        ; preds = %for.cond.cleanup
  %print.2244.0 = tail call i32 @__print_text(ptr nonnull getelementptr inbounds (i8, ptr @__streams, i32 12), ptr nonnull @.str.14.36, i32 1) #16
  %print.2244.1 = tail call i32 @__print_string(ptr nonnull getelementptr inbounds (i8, ptr @__streams, i32 12), ptr nonnull @.str.11.32, i32 0, i32 %indent, i32 -1) #16
  br label %if.end12

if.end12:                                         ; preds = %if.then10, %for.cond.cleanup
  %arrayidx13 = getelementptr inbounds i8, ptr %brackets, i32 1
  %v5 = load i8, ptr %arrayidx13, align 1, !tbaa !14
  %conv14 = sext i8 %v5 to i32
  %call15 = tail call i32 @putchar(i32 noundef signext %conv14)
  ret void
}

; Function Attrs: nounwind optsize
define internal i32 @__print_character(ptr nocapture noundef %stream, i32 noundef signext %c, i32 noundef signext %flags, i32 noundef signext %width) local_unnamed_addr #2 {
entry:
  %text = alloca i8, align 4
  call void @llvm.lifetime.start.p0(i64 1, ptr nonnull %text) #16
  %conv = trunc i32 %c to i8
  store i8 %conv, ptr %text, align 4, !tbaa !14
  %call = call fastcc i32 @padded(ptr noundef %stream, ptr noundef nonnull %text, i32 noundef signext 1, i32 noundef signext %flags, i32 noundef signext %width) #19
  call void @llvm.lifetime.end.p0(i64 1, ptr nonnull %text) #16
  ret i32 %call
}

; Function Attrs: nounwind optsize
define internal fastcc i32 @padded(ptr nocapture noundef %stream, ptr nocapture noundef readonly %text, i32 noundef signext %n, i32 noundef signext %flags, i32 noundef signext %width) unnamed_addr #2 {
entry:
  %cmp = icmp slt i32 %width, 0
  %shr.i = lshr i32 %width, 31
  %tobool.i = icmp ne i32 %shr.i, 0
  %sub.i = sub i32 0, %width
  %cond.i1 = select i1 %tobool.i, i32 %sub.i, i32 %width
  %sub1 = sub nsw i32 %cond.i1, %n
  %and = and i32 %flags, 1
  %tobool = icmp ne i32 %and, 0
  %v0 = or i1 %cmp, %tobool
  br i1 %v0, label %cond.end6, label %cond.false5

cond.false5:                                      ; preds = %entry
  %cmp5.i = icmp sgt i32 %sub1, 0
  br i1 %cmp5.i, label %for.body.i, label %repeated.exit

for.body.i:                                       ; preds = %for.body.i, %cond.false5
  %k.06.i = phi i32 [ %inc.i, %for.body.i ], [ 0, %cond.false5 ]
  %call.i = tail call i32 @fputc(i32 noundef signext 32, ptr noundef %stream) #19
  %inc.i = add nuw nsw i32 %k.06.i, 1
  %exitcond.not.i = icmp eq i32 %inc.i, %sub1
  br i1 %exitcond.not.i, label %repeated.exit, label %for.body.i, !llvm.loop !83

repeated.exit:                                    ; preds = %for.body.i, %cond.false5
  %cond.i = tail call noundef i32 @llvm.smax.i32(i32 %sub1, i32 0)
  br label %cond.end6

cond.end6:                                        ; preds = %repeated.exit, %entry
  %cond7 = phi i32 [ %cond.i, %repeated.exit ], [ 0, %entry ]
  %v1 = load i8, ptr %stream, align 4, !tbaa !45, !alias.scope !96, !noalias !99
  %cmp.i.i = icmp eq i8 %v1, 0
  %cmp210.not.i.i = icmp eq i32 %n, 0
  %or.cond.i = or i1 %cmp210.not.i.i, %cmp.i.i
  br i1 %or.cond.i, label %__print_text.exit, label %for.body.i.i

for.body.i.i:                                     ; preds = %for.body.i.i, %cond.end6
  %k.011.i.i = phi i32 [ %inc.i.i, %for.body.i.i ], [ 0, %cond.end6 ]
  %arrayidx.i.i = getelementptr inbounds i8, ptr %text, i32 %k.011.i.i
  %v2 = load i8, ptr %arrayidx.i.i, align 1, !tbaa !14, !alias.scope !99, !noalias !96
  %conv4.i.i = zext i8 %v2 to i32
  %call.i.i = tail call i32 @fputc(i32 noundef signext %conv4.i.i, ptr noundef nonnull %stream) #19, !noalias !99
  %inc.i.i = add nuw i32 %k.011.i.i, 1
  %exitcond.not.i.i = icmp eq i32 %inc.i.i, %n
  br i1 %exitcond.not.i.i, label %__print_text.exit, label %for.body.i.i, !llvm.loop !52

__print_text.exit:                                ; preds = %for.body.i.i, %cond.end6
  br i1 %v0, label %cond.true10, label %cond.end13

cond.true10:                                      ; preds = %__print_text.exit
  %cmp5.i25 = icmp sgt i32 %sub1, 0
  br i1 %cmp5.i25, label %for.body.i27, label %repeated.exit32

for.body.i27:                                     ; preds = %for.body.i27, %cond.true10
  %k.06.i28 = phi i32 [ %inc.i30, %for.body.i27 ], [ 0, %cond.true10 ]
  %call.i29 = tail call i32 @fputc(i32 noundef signext 32, ptr noundef nonnull %stream) #19
  %inc.i30 = add nuw nsw i32 %k.06.i28, 1
  %exitcond.not.i31 = icmp eq i32 %inc.i30, %sub1
  br i1 %exitcond.not.i31, label %repeated.exit32, label %for.body.i27, !llvm.loop !83

repeated.exit32:                                  ; preds = %for.body.i27, %cond.true10
  %cond.i26 = tail call noundef i32 @llvm.smax.i32(i32 %sub1, i32 0)
  br label %cond.end13

cond.end13:                                       ; preds = %repeated.exit32, %__print_text.exit
  %cond14 = phi i32 [ %cond.i26, %repeated.exit32 ], [ 0, %__print_text.exit ]
  %add = add nsw i32 %cond7, %n
  %add15 = add nsw i32 %add, %cond14
  ret i32 %add15
}

; Function Attrs: nounwind
define internal fastcc ptr @group(ptr nocapture noundef %it, i32 noundef signext %kind, i8 noundef signext %closing, i32 noundef signext %depth) unnamed_addr #0 {
entry:
  %call.i = tail call dereferenceable_or_null(32) ptr @__sized_calloc(i32 noundef signext 1, i32 noundef signext 32) #20
  %tobool.not.i = icmp eq ptr %call.i, null
  br i1 %tobool.not.i, label %if.then.i, label %if.end.i

if.then.i:                                        ; preds = %entry
  %fault.i.i = getelementptr inbounds i8, ptr %it, i32 8
  %v0 = load ptr, ptr %fault.i.i, align 4, !tbaa !10
  %v1 = load ptr, ptr %v0, align 4, !tbaa !11
  %tobool.not.i.i = icmp eq ptr %v1, null
  br i1 %tobool.not.i.i, label %if.then.i.i, label %made.exit

if.then.i.i:                                      ; preds = %if.then.i
  store ptr @.str.9, ptr %v0, align 4, !tbaa !11
  %column.i.i = getelementptr inbounds i8, ptr %v0, i32 8
  store i32 1, ptr %column.i.i, align 4, !tbaa !18
  %line.i.i = getelementptr inbounds i8, ptr %v0, i32 4
  store i32 1, ptr %line.i.i, align 4, !tbaa !19
  %v2 = load ptr, ptr %it, align 4, !tbaa !4
  %at.i.i = getelementptr inbounds i8, ptr %it, i32 4
  %v3 = load ptr, ptr %at.i.i, align 4, !tbaa !9
  %cmp11.i.i = icmp ult ptr %v2, %v3
  br i1 %cmp11.i.i, label %for.body.i.i, label %made.exit

for.body.i.i:                                     ; preds = %for.inc.i.i, %if.then.i.i
  %storemerge13.i.i = phi i32 [ %storemerge.i.i, %for.inc.i.i ], [ 1, %if.then.i.i ]
  %p.012.i.i = phi ptr [ %incdec.ptr.i.i, %for.inc.i.i ], [ %v2, %if.then.i.i ]
  %v4 = load i8, ptr %p.012.i.i, align 1, !tbaa !14
  %cmp6.i.i = icmp eq i8 %v4, 10
  br i1 %cmp6.i.i, label %if.then8.i.i, label %if.else.i.i

if.then8.i.i:                                     ; preds = %for.body.i.i
  %v5 = load i32, ptr %line.i.i, align 4, !tbaa !19
  %inc.i.i = add i32 %v5, 1
  store i32 %inc.i.i, ptr %line.i.i, align 4, !tbaa !19
  br label %for.inc.i.i

if.else.i.i:                                      ; preds = %for.body.i.i
  %inc15.i.i = add i32 %storemerge13.i.i, 1
  br label %for.inc.i.i

for.inc.i.i:                                      ; preds = %if.else.i.i, %if.then8.i.i
  %storemerge.i.i = phi i32 [ %inc15.i.i, %if.else.i.i ], [ 1, %if.then8.i.i ]
  store i32 %storemerge.i.i, ptr %column.i.i, align 4, !tbaa !18
  %incdec.ptr.i.i = getelementptr inbounds i8, ptr %p.012.i.i, i32 1
  %exitcond.not.i.i = icmp eq ptr %incdec.ptr.i.i, %v3
  br i1 %exitcond.not.i.i, label %made.exit, label %for.body.i.i, !llvm.loop !101

if.end.i:                                         ; preds = %entry
  store i32 %kind, ptr %call.i, align 8, !tbaa !24
  br label %made.exit

made.exit:                                        ; preds = %if.end.i, %for.inc.i.i, %if.then.i.i, %if.then.i
  %retval.0.i = phi ptr [ %call.i, %if.end.i ], [ null, %if.then.i ], [ null, %if.then.i.i ], [ null, %for.inc.i.i ]
  %tobool.not = icmp eq ptr %retval.0.i, null
  br i1 %tobool.not, label %cleanup56, label %if.end

if.end:                                           ; preds = %made.exit
  %at.i = getelementptr inbounds i8, ptr %it, i32 4
  %at.promoted.i = load ptr, ptr %at.i, align 4, !tbaa !9
  br label %while.cond.i

while.cond.i:                                     ; preds = %while.body.i, %if.end
  %v6 = phi ptr [ %incdec.ptr.i, %while.body.i ], [ %at.promoted.i, %if.end ]
  %v7 = load i8, ptr %v6, align 1, !tbaa !14
  switch i8 %v7, label %skip.exit [
    i8 32, label %while.body.i
    i8 9, label %while.body.i
    i8 10, label %while.body.i
    i8 13, label %while.body.i
  ]

while.body.i:                                     ; preds = %while.cond.i, %while.cond.i, %while.cond.i, %while.cond.i
  %incdec.ptr.i = getelementptr inbounds i8, ptr %v6, i32 1
  store ptr %incdec.ptr.i, ptr %at.i, align 4, !tbaa !9
  br label %while.cond.i, !llvm.loop !102

skip.exit:                                        ; preds = %while.cond.i
  %v8 = load ptr, ptr %at.i, align 4, !tbaa !9
  %v9 = load i8, ptr %v8, align 1, !tbaa !14
  %cmp = icmp eq i8 %v9, %closing
  br i1 %cmp, label %if.then4, label %for.cond.preheader

for.cond.preheader:                               ; preds = %skip.exit
  %inside = getelementptr inbounds i8, ptr %retval.0.i, i32 24
  %cmp7 = icmp eq i32 %kind, 6
  %fault.i = getelementptr inbounds i8, ptr %it, i32 8
  %add = add nsw i32 %depth, 1
  br label %for.cond

if.then4:                                         ; preds = %skip.exit
  %incdec.ptr = getelementptr inbounds i8, ptr %v8, i32 1
  store ptr %incdec.ptr, ptr %at.i, align 4, !tbaa !9
  br label %cleanup56

for.cond:                                         ; preds = %cleanup, %for.cond.preheader
  %retval.0 = phi ptr [ %retval.1, %cleanup ], [ undef, %for.cond.preheader ]
  %last.0 = phi ptr [ %last.1, %cleanup ], [ %inside, %for.cond.preheader ]
  %at.promoted.i32 = load ptr, ptr %at.i, align 4, !tbaa !9
  br label %while.cond.i33

while.cond.i33:                                   ; preds = %while.body.i34, %for.cond
  %v10 = phi ptr [ %incdec.ptr.i35, %while.body.i34 ], [ %at.promoted.i32, %for.cond ]
  %v11 = load i8, ptr %v10, align 1, !tbaa !14
  switch i8 %v11, label %skip.exit36 [
    i8 32, label %while.body.i34
    i8 9, label %while.body.i34
    i8 10, label %while.body.i34
    i8 13, label %while.body.i34
  ]

while.body.i34:                                   ; preds = %while.cond.i33, %while.cond.i33, %while.cond.i33, %while.cond.i33
  %incdec.ptr.i35 = getelementptr inbounds i8, ptr %v10, i32 1
  store ptr %incdec.ptr.i35, ptr %at.i, align 4, !tbaa !9
  br label %while.cond.i33, !llvm.loop !103

skip.exit36:                                      ; preds = %while.cond.i33
  br i1 %cmp7, label %if.then9, label %if.end32

if.then9:                                         ; preds = %skip.exit36
  %v12 = load ptr, ptr %at.i, align 4, !tbaa !9
  %v13 = load i8, ptr %v12, align 1, !tbaa !14
  %cmp12.not = icmp eq i8 %v13, 34
  br i1 %cmp12.not, label %if.end16, label %if.then14

if.then14:                                        ; preds = %if.then9
  %v14 = load ptr, ptr %fault.i, align 4, !tbaa !10
  %v15 = load ptr, ptr %v14, align 4, !tbaa !11
  %tobool.not.i37 = icmp eq ptr %v15, null
  br i1 %tobool.not.i37, label %if.then.i38, label %cleanup

if.then.i38:                                      ; preds = %if.then14
  store ptr @.str.6.13, ptr %v14, align 4, !tbaa !11
  %column.i = getelementptr inbounds i8, ptr %v14, i32 8
  store i32 1, ptr %column.i, align 4, !tbaa !18
  %line.i = getelementptr inbounds i8, ptr %v14, i32 4
  store i32 1, ptr %line.i, align 4, !tbaa !19
  %v16 = load ptr, ptr %it, align 4, !tbaa !4
  %cmp11.i = icmp ult ptr %v16, %v12
  br i1 %cmp11.i, label %for.body.i, label %cleanup

for.body.i:                                       ; preds = %for.inc.i, %if.then.i38
  %storemerge13.i = phi i32 [ %storemerge.i, %for.inc.i ], [ 1, %if.then.i38 ]
  %p.012.i = phi ptr [ %incdec.ptr.i40, %for.inc.i ], [ %v16, %if.then.i38 ]
  %v17 = load i8, ptr %p.012.i, align 1, !tbaa !14
  %cmp6.i = icmp eq i8 %v17, 10
  br i1 %cmp6.i, label %if.then8.i, label %if.else.i

if.then8.i:                                       ; preds = %for.body.i
  %v18 = load i32, ptr %line.i, align 4, !tbaa !19
  %inc.i = add i32 %v18, 1
  store i32 %inc.i, ptr %line.i, align 4, !tbaa !19
  br label %for.inc.i

if.else.i:                                        ; preds = %for.body.i
  %inc15.i = add i32 %storemerge13.i, 1
  br label %for.inc.i

for.inc.i:                                        ; preds = %if.else.i, %if.then8.i
  %storemerge.i = phi i32 [ %inc15.i, %if.else.i ], [ 1, %if.then8.i ]
  store i32 %storemerge.i, ptr %column.i, align 4, !tbaa !18
  %incdec.ptr.i40 = getelementptr inbounds i8, ptr %p.012.i, i32 1
  %exitcond.not.i = icmp eq ptr %incdec.ptr.i40, %v12
  br i1 %exitcond.not.i, label %cleanup, label %for.body.i, !llvm.loop !104

if.end16:                                         ; preds = %if.then9
  %incdec.ptr18 = getelementptr inbounds i8, ptr %v12, i32 1
  store ptr %incdec.ptr18, ptr %at.i, align 4, !tbaa !9
  %call19 = tail call fastcc ptr @string(ptr noundef %it)
  %tobool20.not = icmp eq ptr %call19, null
  br i1 %tobool20.not, label %cleanup, label %if.end22

if.end22:                                         ; preds = %if.end16
  %at.promoted.i42 = load ptr, ptr %at.i, align 4, !tbaa !9
  br label %while.cond.i43

while.cond.i43:                                   ; preds = %while.body.i44, %if.end22
  %v19 = phi ptr [ %incdec.ptr.i45, %while.body.i44 ], [ %at.promoted.i42, %if.end22 ]
  %v20 = load i8, ptr %v19, align 1, !tbaa !14
  switch i8 %v20, label %skip.exit46 [
    i8 32, label %while.body.i44
    i8 9, label %while.body.i44
    i8 10, label %while.body.i44
    i8 13, label %while.body.i44
  ]

while.body.i44:                                   ; preds = %while.cond.i43, %while.cond.i43, %while.cond.i43, %while.cond.i43
  %incdec.ptr.i45 = getelementptr inbounds i8, ptr %v19, i32 1
  store ptr %incdec.ptr.i45, ptr %at.i, align 4, !tbaa !9
  br label %while.cond.i43, !llvm.loop !105

skip.exit46:                                      ; preds = %while.cond.i43
  %v21 = load ptr, ptr %at.i, align 4, !tbaa !9
  %v22 = load i8, ptr %v21, align 1, !tbaa !14
  %cmp25.not = icmp eq i8 %v22, 58
  br i1 %cmp25.not, label %if.end29, label %if.then27

if.then27:                                        ; preds = %skip.exit46
  %v23 = load ptr, ptr %fault.i, align 4, !tbaa !10
  %v24 = load ptr, ptr %v23, align 4, !tbaa !11
  %tobool.not.i48 = icmp eq ptr %v24, null
  br i1 %tobool.not.i48, label %if.then.i49, label %refuse.exit68

if.then.i49:                                      ; preds = %if.then27
  store ptr @.str.7.14, ptr %v23, align 4, !tbaa !11
  %column.i50 = getelementptr inbounds i8, ptr %v23, i32 8
  store i32 1, ptr %column.i50, align 4, !tbaa !18
  %line.i51 = getelementptr inbounds i8, ptr %v23, i32 4
  store i32 1, ptr %line.i51, align 4, !tbaa !19
  %v25 = load ptr, ptr %it, align 4, !tbaa !4
  %cmp11.i53 = icmp ult ptr %v25, %v21
  br i1 %cmp11.i53, label %for.body.i56, label %refuse.exit68

for.body.i56:                                     ; preds = %for.inc.i62, %if.then.i49
  %storemerge13.i57 = phi i32 [ %storemerge.i63, %for.inc.i62 ], [ 1, %if.then.i49 ]
  %p.012.i58 = phi ptr [ %incdec.ptr.i64, %for.inc.i62 ], [ %v25, %if.then.i49 ]
  %v26 = load i8, ptr %p.012.i58, align 1, !tbaa !14
  %cmp6.i59 = icmp eq i8 %v26, 10
  br i1 %cmp6.i59, label %if.then8.i66, label %if.else.i60

if.then8.i66:                                     ; preds = %for.body.i56
  %v27 = load i32, ptr %line.i51, align 4, !tbaa !19
  %inc.i67 = add i32 %v27, 1
  store i32 %inc.i67, ptr %line.i51, align 4, !tbaa !19
  br label %for.inc.i62

if.else.i60:                                      ; preds = %for.body.i56
  %inc15.i61 = add i32 %storemerge13.i57, 1
  br label %for.inc.i62

for.inc.i62:                                      ; preds = %if.else.i60, %if.then8.i66
  %storemerge.i63 = phi i32 [ %inc15.i61, %if.else.i60 ], [ 1, %if.then8.i66 ]
  store i32 %storemerge.i63, ptr %column.i50, align 4, !tbaa !18
  %incdec.ptr.i64 = getelementptr inbounds i8, ptr %p.012.i58, i32 1
  %exitcond.not.i65 = icmp eq ptr %incdec.ptr.i64, %v21
  br i1 %exitcond.not.i65, label %refuse.exit68, label %for.body.i56, !llvm.loop !106

refuse.exit68:                                    ; preds = %for.inc.i62, %if.then.i49, %if.then27
  tail call void @__sized_free(ptr noundef %call19)
  br label %cleanup

if.end29:                                         ; preds = %skip.exit46
  %incdec.ptr31 = getelementptr inbounds i8, ptr %v21, i32 1
  store ptr %incdec.ptr31, ptr %at.i, align 4, !tbaa !9
  br label %if.end32

if.end32:                                         ; preds = %if.end29, %skip.exit36
  %name.0 = phi ptr [ %call19, %if.end29 ], [ null, %skip.exit36 ]
  %call33 = tail call fastcc ptr @value(ptr noundef %it, i32 noundef signext %add)
  store ptr %call33, ptr %last.0, align 4, !tbaa !40
  %tobool34.not = icmp eq ptr %call33, null
  br i1 %tobool34.not, label %if.then35, label %if.end36

if.then35:                                        ; preds = %if.end32
  tail call void @__sized_free(ptr noundef %name.0)
  br label %cleanup

if.end36:                                         ; preds = %if.end32
  %name37 = getelementptr inbounds i8, ptr %call33, i32 20
  store ptr %name.0, ptr %name37, align 4, !tbaa !27
  %v28 = load ptr, ptr %last.0, align 4, !tbaa !40
  %at.promoted.i70 = load ptr, ptr %at.i, align 4, !tbaa !9
  br label %while.cond.i71

while.cond.i71:                                   ; preds = %while.body.i72, %if.end36
  %v29 = phi ptr [ %incdec.ptr.i73, %while.body.i72 ], [ %at.promoted.i70, %if.end36 ]
  %v30 = load i8, ptr %v29, align 1, !tbaa !14
  switch i8 %v30, label %skip.exit74 [
    i8 32, label %while.body.i72
    i8 9, label %while.body.i72
    i8 10, label %while.body.i72
    i8 13, label %while.body.i72
  ]

while.body.i72:                                   ; preds = %while.cond.i71, %while.cond.i71, %while.cond.i71, %while.cond.i71
  %incdec.ptr.i73 = getelementptr inbounds i8, ptr %v29, i32 1
  store ptr %incdec.ptr.i73, ptr %at.i, align 4, !tbaa !9
  br label %while.cond.i71, !llvm.loop !107

skip.exit74:                                      ; preds = %while.cond.i71
  %next = getelementptr inbounds i8, ptr %v28, i32 28
  %v31 = load ptr, ptr %at.i, align 4, !tbaa !9
  %v32 = load i8, ptr %v31, align 1, !tbaa !14
  %cmp41 = icmp eq i8 %v32, %closing
  br i1 %cmp41, label %if.then43, label %if.end46

if.then43:                                        ; preds = %skip.exit74
  %incdec.ptr45 = getelementptr inbounds i8, ptr %v31, i32 1
  store ptr %incdec.ptr45, ptr %at.i, align 4, !tbaa !9
  br label %cleanup

if.end46:                                         ; preds = %skip.exit74
  %cmp49.not = icmp eq i8 %v32, 44
  br i1 %cmp49.not, label %if.end53, label %if.then51

if.then51:                                        ; preds = %if.end46
  %v33 = load ptr, ptr %fault.i, align 4, !tbaa !10
  %v34 = load ptr, ptr %v33, align 4, !tbaa !11
  %tobool.not.i76 = icmp eq ptr %v34, null
  br i1 %tobool.not.i76, label %if.then.i77, label %cleanup

if.then.i77:                                      ; preds = %if.then51
  store ptr @.str.8, ptr %v33, align 4, !tbaa !11
  %column.i78 = getelementptr inbounds i8, ptr %v33, i32 8
  store i32 1, ptr %column.i78, align 4, !tbaa !18
  %line.i79 = getelementptr inbounds i8, ptr %v33, i32 4
  store i32 1, ptr %line.i79, align 4, !tbaa !19
  %v35 = load ptr, ptr %it, align 4, !tbaa !4
  %cmp11.i81 = icmp ult ptr %v35, %v31
  br i1 %cmp11.i81, label %for.body.i84, label %cleanup

for.body.i84:                                     ; preds = %for.inc.i90, %if.then.i77
  %storemerge13.i85 = phi i32 [ %storemerge.i91, %for.inc.i90 ], [ 1, %if.then.i77 ]
  %p.012.i86 = phi ptr [ %incdec.ptr.i92, %for.inc.i90 ], [ %v35, %if.then.i77 ]
  %v36 = load i8, ptr %p.012.i86, align 1, !tbaa !14
  %cmp6.i87 = icmp eq i8 %v36, 10
  br i1 %cmp6.i87, label %if.then8.i94, label %if.else.i88

if.then8.i94:                                     ; preds = %for.body.i84
  %v37 = load i32, ptr %line.i79, align 4, !tbaa !19
  %inc.i95 = add i32 %v37, 1
  store i32 %inc.i95, ptr %line.i79, align 4, !tbaa !19
  br label %for.inc.i90

if.else.i88:                                      ; preds = %for.body.i84
  %inc15.i89 = add i32 %storemerge13.i85, 1
  br label %for.inc.i90

for.inc.i90:                                      ; preds = %if.else.i88, %if.then8.i94
  %storemerge.i91 = phi i32 [ %inc15.i89, %if.else.i88 ], [ 1, %if.then8.i94 ]
  store i32 %storemerge.i91, ptr %column.i78, align 4, !tbaa !18
  %incdec.ptr.i92 = getelementptr inbounds i8, ptr %p.012.i86, i32 1
  %exitcond.not.i93 = icmp eq ptr %incdec.ptr.i92, %v31
  br i1 %exitcond.not.i93, label %cleanup, label %for.body.i84, !llvm.loop !108

if.end53:                                         ; preds = %if.end46
  %incdec.ptr55 = getelementptr inbounds i8, ptr %v31, i32 1
  store ptr %incdec.ptr55, ptr %at.i, align 4, !tbaa !9
  br label %cleanup

cleanup:                                          ; preds = %if.end53, %for.inc.i90, %if.then.i77, %if.then51, %if.then43, %if.then35, %refuse.exit68, %if.end16, %for.inc.i, %if.then.i38, %if.then14
  %retval.1 = phi ptr [ %retval.0, %refuse.exit68 ], [ %retval.0.i, %if.then43 ], [ %retval.0, %if.end53 ], [ %retval.0, %if.then35 ], [ %retval.0, %if.end16 ], [ %retval.0, %if.then14 ], [ %retval.0, %if.then.i38 ], [ %retval.0, %if.then51 ], [ %retval.0, %if.then.i77 ], [ %retval.0, %for.inc.i90 ], [ %retval.0, %for.inc.i ]
  %last.1 = phi ptr [ %last.0, %refuse.exit68 ], [ %next, %if.then43 ], [ %next, %if.end53 ], [ %last.0, %if.then35 ], [ %last.0, %if.end16 ], [ %last.0, %if.then14 ], [ %last.0, %if.then.i38 ], [ %next, %if.then51 ], [ %next, %if.then.i77 ], [ %next, %for.inc.i90 ], [ %last.0, %for.inc.i ]
  %cleanup.dest.slot.0 = phi i32 [ 2, %refuse.exit68 ], [ 1, %if.then43 ], [ 0, %if.end53 ], [ 2, %if.then35 ], [ 2, %if.end16 ], [ 2, %if.then14 ], [ 2, %if.then.i38 ], [ 2, %if.then51 ], [ 2, %if.then.i77 ], [ 2, %for.inc.i90 ], [ 2, %for.inc.i ]
  switch i32 %cleanup.dest.slot.0, label %cleanup56 [
    i32 0, label %for.cond
    i32 2, label %for.end
  ], !llvm.loop !109

for.end:                                          ; preds = %cleanup
  tail call fastcc void @json_free(ptr noundef nonnull %retval.0.i)
  br label %cleanup56

cleanup56:                                        ; preds = %for.end, %cleanup, %if.then4, %made.exit
  %retval.2 = phi ptr [ %retval.0.i, %if.then4 ], [ null, %for.end ], [ null, %made.exit ], [ %retval.1, %cleanup ]
  ret ptr %retval.2
}

; Function Attrs: noinline nounwind optsize
define internal ptr @__sized_calloc(i32 noundef signext %count, i32 noundef signext %n) #10 {
entry:
  %cmp.not = icmp eq i32 %n, 0
  br i1 %cmp.not, label %if.end, label %land.lhs.true

land.lhs.true:                                    ; preds = %entry
  %div = udiv i32 -17, %n
  %cmp1 = icmp ult i32 %div, %count
  br i1 %cmp1, label %return, label %if.end

if.end:                                           ; preds = %land.lhs.true, %entry
  %mul = mul i32 %n, %count
  %add = add i32 %mul, 16
  %call = tail call ptr @calloc(i32 noundef signext %add, i32 noundef signext 1) #21
  %tobool.not = icmp eq ptr %call, null
  br i1 %tobool.not, label %return, label %if.end3

if.end3:                                          ; preds = %if.end
  %add.ptr = getelementptr inbounds i8, ptr %call, i32 16
  store i32 %mul, ptr %call, align 4, !tbaa !63
  br label %return

return:                                           ; preds = %if.end3, %if.end, %land.lhs.true
  %retval.1 = phi ptr [ null, %land.lhs.true ], [ %add.ptr, %if.end3 ], [ null, %if.end ]
  ret ptr %retval.1
}

; Function Attrs: nounwind
define internal fastcc noalias noundef ptr @string(ptr nocapture noundef %it) unnamed_addr #0 {
entry:
  %at = getelementptr inbounds i8, ptr %it, i32 4
  %v0 = load ptr, ptr %at, align 4, !tbaa !9
  br label %while.cond

while.cond:                                       ; preds = %land.end9, %entry
  %end.0 = phi ptr [ %v0, %entry ], [ %add.ptr, %land.end9 ]
  %v1 = load i8, ptr %end.0, align 1, !tbaa !14
  switch i8 %v1, label %land.end9 [
    i8 0, label %while.end
    i8 34, label %while.end
    i8 92, label %land.rhs6
  ]

land.rhs6:                                        ; preds = %while.cond
  %arrayidx = getelementptr inbounds i8, ptr %end.0, i32 1
  %v2 = load i8, ptr %arrayidx, align 1, !tbaa !14
  %tobool8 = icmp ne i8 %v2, 0
  br label %land.end9

land.end9:                                        ; preds = %land.rhs6, %while.cond
  %v3 = phi i1 [ %tobool8, %land.rhs6 ], [ false, %while.cond ]
  %cond = select i1 %v3, i32 2, i32 1
  %add.ptr = getelementptr inbounds i8, ptr %end.0, i32 %cond
  br label %while.cond, !llvm.loop !110

while.end:                                        ; preds = %while.cond, %while.cond
  %sub.ptr.lhs.cast = ptrtoint ptr %end.0 to i32
  %sub.ptr.rhs.cast = ptrtoint ptr %v0 to i32
  %reass.sub = sub i32 %sub.ptr.lhs.cast, %sub.ptr.rhs.cast
  %add = add i32 %reass.sub, 1
  %call = tail call ptr @__sized_malloc(i32 noundef signext %add) #22
  %tobool11.not = icmp eq ptr %call, null
  br i1 %tobool11.not, label %if.then, label %while.cond13.preheader

while.cond13.preheader:                           ; preds = %while.end
  %v4 = load ptr, ptr %at, align 4, !tbaa !9
  %v5 = load i8, ptr %v4, align 1, !tbaa !14
  %cmp16.not87 = icmp eq i8 %v5, 34
  br i1 %cmp16.not87, label %while.end71, label %while.body18.lr.ph

while.body18.lr.ph:                               ; preds = %while.cond13.preheader
  %fault.i58 = getelementptr inbounds i8, ptr %it, i32 8
  br label %while.body18

if.then:                                          ; preds = %while.end
  %fault.i = getelementptr inbounds i8, ptr %it, i32 8
  %v6 = load ptr, ptr %fault.i, align 4, !tbaa !10
  %v7 = load ptr, ptr %v6, align 4, !tbaa !11
  %tobool.not.i = icmp eq ptr %v7, null
  br i1 %tobool.not.i, label %if.then.i, label %cleanup74

if.then.i:                                        ; preds = %if.then
  store ptr @.str.9, ptr %v6, align 4, !tbaa !11
  %column.i = getelementptr inbounds i8, ptr %v6, i32 8
  store i32 1, ptr %column.i, align 4, !tbaa !18
  %line.i = getelementptr inbounds i8, ptr %v6, i32 4
  store i32 1, ptr %line.i, align 4, !tbaa !19
  %v8 = load ptr, ptr %it, align 4, !tbaa !4
  %cmp11.i = icmp ult ptr %v8, %v0
  br i1 %cmp11.i, label %for.body.i, label %cleanup74

for.body.i:                                       ; preds = %for.inc.i, %if.then.i
  %storemerge13.i = phi i32 [ %storemerge.i, %for.inc.i ], [ 1, %if.then.i ]
  %p.012.i = phi ptr [ %incdec.ptr.i, %for.inc.i ], [ %v8, %if.then.i ]
  %v9 = load i8, ptr %p.012.i, align 1, !tbaa !14
  %cmp6.i = icmp eq i8 %v9, 10
  br i1 %cmp6.i, label %if.then8.i, label %if.else.i

if.then8.i:                                       ; preds = %for.body.i
  %v10 = load i32, ptr %line.i, align 4, !tbaa !19
  %inc.i = add i32 %v10, 1
  store i32 %inc.i, ptr %line.i, align 4, !tbaa !19
  br label %for.inc.i

if.else.i:                                        ; preds = %for.body.i
  %inc15.i = add i32 %storemerge13.i, 1
  br label %for.inc.i

for.inc.i:                                        ; preds = %if.else.i, %if.then8.i
  %storemerge.i = phi i32 [ %inc15.i, %if.else.i ], [ 1, %if.then8.i ]
  store i32 %storemerge.i, ptr %column.i, align 4, !tbaa !18
  %incdec.ptr.i = getelementptr inbounds i8, ptr %p.012.i, i32 1
  %exitcond.not.i = icmp eq ptr %incdec.ptr.i, %v0
  br i1 %exitcond.not.i, label %cleanup74, label %for.body.i, !llvm.loop !111

while.body18:                                     ; preds = %while.cond13.backedge, %while.body18.lr.ph
  %v11 = phi i8 [ %v5, %while.body18.lr.ph ], [ %v39, %while.cond13.backedge ]
  %v12 = phi ptr [ %v4, %while.body18.lr.ph ], [ %v38, %while.cond13.backedge ]
  %to.088 = phi ptr [ %call, %while.body18.lr.ph ], [ %to.3, %while.cond13.backedge ]
  %cmp21 = icmp ult i8 %v11, 32
  br i1 %cmp21, label %if.then23, label %if.end28

if.then23:                                        ; preds = %while.body18
  %v13 = load ptr, ptr %fault.i58, align 4, !tbaa !10
  %v14 = load ptr, ptr %v13, align 4, !tbaa !11
  %tobool.not.i33 = icmp eq ptr %v14, null
  br i1 %tobool.not.i33, label %if.then.i34, label %refuse.exit53

if.then.i34:                                      ; preds = %if.then23
  %tobool25.not = icmp eq i8 %v11, 0
  %cond26 = select i1 %tobool25.not, ptr @.str.11, ptr @.str.10
  store ptr %cond26, ptr %v13, align 4, !tbaa !11
  %column.i35 = getelementptr inbounds i8, ptr %v13, i32 8
  store i32 1, ptr %column.i35, align 4, !tbaa !18
  %line.i36 = getelementptr inbounds i8, ptr %v13, i32 4
  store i32 1, ptr %line.i36, align 4, !tbaa !19
  %v15 = load ptr, ptr %it, align 4, !tbaa !4
  %cmp11.i38 = icmp ult ptr %v15, %v12
  br i1 %cmp11.i38, label %for.body.i41, label %refuse.exit53

for.body.i41:                                     ; preds = %for.inc.i47, %if.then.i34
  %storemerge13.i42 = phi i32 [ %storemerge.i48, %for.inc.i47 ], [ 1, %if.then.i34 ]
  %p.012.i43 = phi ptr [ %incdec.ptr.i49, %for.inc.i47 ], [ %v15, %if.then.i34 ]
  %v16 = load i8, ptr %p.012.i43, align 1, !tbaa !14
  %cmp6.i44 = icmp eq i8 %v16, 10
  br i1 %cmp6.i44, label %if.then8.i51, label %if.else.i45

if.then8.i51:                                     ; preds = %for.body.i41
  %v17 = load i32, ptr %line.i36, align 4, !tbaa !19
  %inc.i52 = add i32 %v17, 1
  store i32 %inc.i52, ptr %line.i36, align 4, !tbaa !19
  br label %for.inc.i47

if.else.i45:                                      ; preds = %for.body.i41
  %inc15.i46 = add i32 %storemerge13.i42, 1
  br label %for.inc.i47

for.inc.i47:                                      ; preds = %if.else.i45, %if.then8.i51
  %storemerge.i48 = phi i32 [ %inc15.i46, %if.else.i45 ], [ 1, %if.then8.i51 ]
  store i32 %storemerge.i48, ptr %column.i35, align 4, !tbaa !18
  %incdec.ptr.i49 = getelementptr inbounds i8, ptr %p.012.i43, i32 1
  %exitcond.not.i50 = icmp eq ptr %incdec.ptr.i49, %v12
  br i1 %exitcond.not.i50, label %refuse.exit53, label %for.body.i41, !llvm.loop !112

refuse.exit53:                                    ; preds = %for.inc.i47, %if.then.i34, %if.then23
  tail call void @__sized_free(ptr noundef %call)
  br label %cleanup70

if.end28:                                         ; preds = %while.body18
  %incdec.ptr = getelementptr inbounds i8, ptr %v12, i32 1
  store ptr %incdec.ptr, ptr %at, align 4, !tbaa !9
  %cmp31.not = icmp eq i8 %v11, 92
  br i1 %cmp31.not, label %if.end35, label %if.then33

if.then33:                                        ; preds = %if.end28
  %incdec.ptr34 = getelementptr inbounds i8, ptr %to.088, i32 1
  store i8 %v11, ptr %to.088, align 1, !tbaa !14
  br label %cleanup70, !llvm.loop !113

if.end35:                                         ; preds = %if.end28
  %v18 = load i8, ptr %incdec.ptr, align 1, !tbaa !14
  %tobool38.not = icmp eq i8 %v18, 0
  br i1 %tobool38.not, label %cond.end, label %cond.true

cond.true:                                        ; preds = %if.end35
  %conv37 = sext i8 %v18 to i32
  %memchr = tail call ptr @memchr(ptr noundef nonnull dereferenceable(1) @string.from, i32 %conv37, i32 9)
  br label %cond.end

cond.end:                                         ; preds = %cond.true, %if.end35
  %cond42 = phi ptr [ %memchr, %cond.true ], [ null, %if.end35 ]
  %tobool43.not = icmp eq ptr %cond42, null
  br i1 %tobool43.not, label %if.end51, label %if.then44

if.then44:                                        ; preds = %cond.end
  %sub.ptr.lhs.cast45 = ptrtoint ptr %cond42 to i32
  %sub.ptr.sub46 = sub i32 %sub.ptr.lhs.cast45, ptrtoint (ptr @string.from to i32)
  %arrayidx47 = getelementptr inbounds [9 x i8], ptr @string.meant, i32 0, i32 %sub.ptr.sub46
  %v19 = load i8, ptr %arrayidx47, align 1, !tbaa !14
  %incdec.ptr48 = getelementptr inbounds i8, ptr %to.088, i32 1
  store i8 %v19, ptr %to.088, align 1, !tbaa !14
  %v20 = load ptr, ptr %at, align 4, !tbaa !9
  %incdec.ptr50 = getelementptr inbounds i8, ptr %v20, i32 1
  store ptr %incdec.ptr50, ptr %at, align 4, !tbaa !9
  br label %cleanup70, !llvm.loop !113

if.end51:                                         ; preds = %cond.end
  %cmp54 = icmp eq i8 %v18, 117
  br i1 %cmp54, label %cond.true56, label %cond.end61

cond.true56:                                      ; preds = %if.end51
  %incdec.ptr58 = getelementptr inbounds i8, ptr %v12, i32 2
  store ptr %incdec.ptr58, ptr %at, align 4, !tbaa !9
  br label %for.body.i55

for.cond.i:                                       ; preds = %cleanup.i
  %inc.i57 = add nuw nsw i32 %k.011.i, 1
  %exitcond.i = icmp eq i32 %inc.i57, 4
  br i1 %exitcond.i, label %cond.end61, label %for.body.i55, !llvm.loop !114

for.body.i55:                                     ; preds = %for.cond.i, %cond.true56
  %v21 = phi ptr [ %incdec.ptr58, %cond.true56 ], [ %v23, %for.cond.i ]
  %k.011.i = phi i32 [ 0, %cond.true56 ], [ %inc.i57, %for.cond.i ]
  %n.010.i = phi i32 [ 0, %cond.true56 ], [ %n.1.i, %for.cond.i ]
  %v22 = load i8, ptr %v21, align 1, !tbaa !14
  %conv.i = zext i8 %v22 to i32
  %call.i = tail call i32 @isxdigit(i32 noundef signext %conv.i) #23
  %tobool.not.not.i = icmp eq i32 %call.i, 0
  br i1 %tobool.not.not.i, label %cleanup.i, label %if.end.i

if.end.i:                                         ; preds = %for.body.i55
  %mul.i = shl nsw i32 %n.010.i, 4
  %isdigittmp.i = add nsw i32 %conv.i, -48
  %isdigit.i = icmp ult i32 %isdigittmp.i, 10
  br i1 %isdigit.i, label %cond.end.i, label %cond.false.i

cond.false.i:                                     ; preds = %if.end.i
  %call6.i = tail call i32 @tolower(i32 noundef signext %conv.i) #23
  %add.i = add nsw i32 %call6.i, -87
  br label %cond.end.i

cond.end.i:                                       ; preds = %cond.false.i, %if.end.i
  %cond.i = phi i32 [ %add.i, %cond.false.i ], [ %isdigittmp.i, %if.end.i ]
  %add8.i = add nsw i32 %cond.i, %mul.i
  %incdec.ptr.i56 = getelementptr inbounds i8, ptr %v21, i32 1
  store ptr %incdec.ptr.i56, ptr %at, align 4, !tbaa !9
  br label %cleanup.i

cleanup.i:                                        ; preds = %cond.end.i, %for.body.i55
  %v23 = phi ptr [ %incdec.ptr.i56, %cond.end.i ], [ %v21, %for.body.i55 ]
  %n.1.i = phi i32 [ %add8.i, %cond.end.i ], [ %n.010.i, %for.body.i55 ]
  br i1 %tobool.not.not.i, label %cond.end61, label %for.cond.i

cond.end61:                                       ; preds = %cleanup.i, %for.cond.i, %if.end51
  %cond62 = phi i32 [ -1, %if.end51 ], [ -1, %cleanup.i ], [ %n.1.i, %for.cond.i ]
  %cmp63 = icmp slt i32 %cond62, 0
  br i1 %cmp63, label %if.then65, label %if.end67

if.then65:                                        ; preds = %cond.end61
  %v24 = load ptr, ptr %fault.i58, align 4, !tbaa !10
  %v25 = load ptr, ptr %v24, align 4, !tbaa !11
  %tobool.not.i59 = icmp eq ptr %v25, null
  br i1 %tobool.not.i59, label %if.then.i60, label %refuse.exit79

if.then.i60:                                      ; preds = %if.then65
  store ptr @.str.12, ptr %v24, align 4, !tbaa !11
  %column.i61 = getelementptr inbounds i8, ptr %v24, i32 8
  store i32 1, ptr %column.i61, align 4, !tbaa !18
  %line.i62 = getelementptr inbounds i8, ptr %v24, i32 4
  store i32 1, ptr %line.i62, align 4, !tbaa !19
  %v26 = load ptr, ptr %it, align 4, !tbaa !4
  %v27 = load ptr, ptr %at, align 4, !tbaa !9
  %cmp11.i64 = icmp ult ptr %v26, %v27
  br i1 %cmp11.i64, label %for.body.i67, label %refuse.exit79

for.body.i67:                                     ; preds = %for.inc.i73, %if.then.i60
  %storemerge13.i68 = phi i32 [ %storemerge.i74, %for.inc.i73 ], [ 1, %if.then.i60 ]
  %p.012.i69 = phi ptr [ %incdec.ptr.i75, %for.inc.i73 ], [ %v26, %if.then.i60 ]
  %v28 = load i8, ptr %p.012.i69, align 1, !tbaa !14
  %cmp6.i70 = icmp eq i8 %v28, 10
  br i1 %cmp6.i70, label %if.then8.i77, label %if.else.i71

if.then8.i77:                                     ; preds = %for.body.i67
  %v29 = load i32, ptr %line.i62, align 4, !tbaa !19
  %inc.i78 = add i32 %v29, 1
  store i32 %inc.i78, ptr %line.i62, align 4, !tbaa !19
  br label %for.inc.i73

if.else.i71:                                      ; preds = %for.body.i67
  %inc15.i72 = add i32 %storemerge13.i68, 1
  br label %for.inc.i73

for.inc.i73:                                      ; preds = %if.else.i71, %if.then8.i77
  %storemerge.i74 = phi i32 [ %inc15.i72, %if.else.i71 ], [ 1, %if.then8.i77 ]
  store i32 %storemerge.i74, ptr %column.i61, align 4, !tbaa !18
  %incdec.ptr.i75 = getelementptr inbounds i8, ptr %p.012.i69, i32 1
  %exitcond.not.i76 = icmp eq ptr %incdec.ptr.i75, %v27
  br i1 %exitcond.not.i76, label %refuse.exit79, label %for.body.i67, !llvm.loop !115

refuse.exit79:                                    ; preds = %for.inc.i73, %if.then.i60, %if.then65
  tail call void @__sized_free(ptr noundef %call)
  br label %cleanup70

if.end67:                                         ; preds = %cond.end61
  %cmp.i = icmp slt i32 %cond62, 128
  %incdec.ptr.i83 = getelementptr inbounds i8, ptr %to.088, i32 1
  br i1 %cmp.i, label %if.then.i81, label %if.else.i80

if.then.i81:                                      ; preds = %if.end67
  %conv.i82 = trunc nuw nsw i32 %cond62 to i8
  store i8 %conv.i82, ptr %to.088, align 1, !tbaa !14
  br label %cleanup70

if.else.i80:                                      ; preds = %if.end67
  %cmp1.i = icmp slt i32 %cond62, 2048
  br i1 %cmp1.i, label %if.then3.i, label %if.else9.i

if.then3.i:                                       ; preds = %if.else.i80
  %shr.i = lshr i32 %cond62, 6
  %v30 = trunc i32 %shr.i to i8
  %conv4.i = or i8 %v30, -64
  store i8 %conv4.i, ptr %to.088, align 1, !tbaa !14
  %v31 = trunc i32 %cond62 to i8
  %v32 = and i8 %v31, 63
  %conv7.i = or disjoint i8 %v32, -128
  %incdec.ptr8.i = getelementptr inbounds i8, ptr %to.088, i32 2
  store i8 %conv7.i, ptr %incdec.ptr.i83, align 1, !tbaa !14
  br label %cleanup70

if.else9.i:                                       ; preds = %if.else.i80
  %shr10.i = lshr i32 %cond62, 12
  %v33 = trunc i32 %shr10.i to i8
  %conv12.i = or i8 %v33, -32
  store i8 %conv12.i, ptr %to.088, align 1, !tbaa !14
  %shr14.i = lshr i32 %cond62, 6
  %v34 = trunc i32 %shr14.i to i8
  %v35 = and i8 %v34, 63
  %conv17.i = or disjoint i8 %v35, -128
  %incdec.ptr18.i = getelementptr inbounds i8, ptr %to.088, i32 2
  store i8 %conv17.i, ptr %incdec.ptr.i83, align 1, !tbaa !14
  %v36 = trunc i32 %cond62 to i8
  %v37 = and i8 %v36, 63
  %conv21.i = or disjoint i8 %v37, -128
  %incdec.ptr22.i = getelementptr inbounds i8, ptr %to.088, i32 3
  store i8 %conv21.i, ptr %incdec.ptr18.i, align 1, !tbaa !14
  br label %cleanup70

cleanup70:                                        ; preds = %if.else9.i, %if.then3.i, %if.then.i81, %refuse.exit79, %if.then44, %if.then33, %refuse.exit53
  %cleanup.dest.slot.2 = phi i32 [ 1, %refuse.exit53 ], [ 4, %if.then33 ], [ 4, %if.then44 ], [ 1, %refuse.exit79 ], [ 0, %if.then.i81 ], [ 0, %if.then3.i ], [ 0, %if.else9.i ]
  %to.3 = phi ptr [ %to.088, %refuse.exit53 ], [ %incdec.ptr34, %if.then33 ], [ %incdec.ptr48, %if.then44 ], [ %to.088, %refuse.exit79 ], [ %incdec.ptr.i83, %if.then.i81 ], [ %incdec.ptr8.i, %if.then3.i ], [ %incdec.ptr22.i, %if.else9.i ]
  switch i32 %cleanup.dest.slot.2, label %cleanup74 [
    i32 0, label %while.cond13.backedge
    i32 4, label %while.cond13.backedge
  ]

while.cond13.backedge:                            ; preds = %cleanup70, %cleanup70
  %v38 = load ptr, ptr %at, align 4, !tbaa !9
  %v39 = load i8, ptr %v38, align 1, !tbaa !14
  %cmp16.not = icmp eq i8 %v39, 34
  br i1 %cmp16.not, label %while.end71, label %while.body18, !llvm.loop !113

while.end71:                                      ; preds = %while.cond13.backedge, %while.cond13.preheader
  %to.0.lcssa = phi ptr [ %call, %while.cond13.preheader ], [ %to.3, %while.cond13.backedge ]
  %.lcssa = phi ptr [ %v4, %while.cond13.preheader ], [ %v38, %while.cond13.backedge ]
  %incdec.ptr73 = getelementptr inbounds i8, ptr %.lcssa, i32 1
  store ptr %incdec.ptr73, ptr %at, align 4, !tbaa !9
  store i8 0, ptr %to.0.lcssa, align 1, !tbaa !14
  br label %cleanup74

cleanup74:                                        ; preds = %while.end71, %cleanup70, %for.inc.i, %if.then.i, %if.then
  %retval.4 = phi ptr [ %call, %while.end71 ], [ null, %if.then ], [ null, %if.then.i ], [ null, %for.inc.i ], [ null, %cleanup70 ]
  ret ptr %retval.4
}

; Function Attrs: nofree nounwind
define internal fastcc noalias noundef ptr @word(ptr nocapture noundef %it, ptr nocapture noundef readonly %text, i32 noundef signext %kind) unnamed_addr #6 {
entry:
  %at = getelementptr inbounds i8, ptr %it, i32 4
  %v0 = load ptr, ptr %at, align 4, !tbaa !9
  %call = tail call i32 @strlen(ptr noundef nonnull dereferenceable(1) %text) #16
  %call1 = tail call i32 @strncmp(ptr noundef %v0, ptr noundef %text, i32 noundef signext %call) #16
  %cmp.not = icmp eq i32 %call1, 0
  br i1 %cmp.not, label %if.end, label %if.then

if.then:                                          ; preds = %entry
  %fault.i = getelementptr inbounds i8, ptr %it, i32 8
  %v1 = load ptr, ptr %fault.i, align 4, !tbaa !10
  %v2 = load ptr, ptr %v1, align 4, !tbaa !11
  %tobool.not.i = icmp eq ptr %v2, null
  br i1 %tobool.not.i, label %if.then.i, label %return

if.then.i:                                        ; preds = %if.then
  store ptr @.str.13, ptr %v1, align 4, !tbaa !11
  %column.i = getelementptr inbounds i8, ptr %v1, i32 8
  store i32 1, ptr %column.i, align 4, !tbaa !18
  %line.i = getelementptr inbounds i8, ptr %v1, i32 4
  store i32 1, ptr %line.i, align 4, !tbaa !19
  %v3 = load ptr, ptr %it, align 4, !tbaa !4
  %cmp11.i = icmp ult ptr %v3, %v0
  br i1 %cmp11.i, label %for.body.i, label %return

for.body.i:                                       ; preds = %for.inc.i, %if.then.i
  %storemerge13.i = phi i32 [ %storemerge.i, %for.inc.i ], [ 1, %if.then.i ]
  %p.012.i = phi ptr [ %incdec.ptr.i, %for.inc.i ], [ %v3, %if.then.i ]
  %v4 = load i8, ptr %p.012.i, align 1, !tbaa !14
  %cmp6.i = icmp eq i8 %v4, 10
  br i1 %cmp6.i, label %if.then8.i, label %if.else.i

if.then8.i:                                       ; preds = %for.body.i
  %v5 = load i32, ptr %line.i, align 4, !tbaa !19
  %inc.i = add i32 %v5, 1
  store i32 %inc.i, ptr %line.i, align 4, !tbaa !19
  br label %for.inc.i

if.else.i:                                        ; preds = %for.body.i
  %inc15.i = add i32 %storemerge13.i, 1
  br label %for.inc.i

for.inc.i:                                        ; preds = %if.else.i, %if.then8.i
  %storemerge.i = phi i32 [ %inc15.i, %if.else.i ], [ 1, %if.then8.i ]
  store i32 %storemerge.i, ptr %column.i, align 4, !tbaa !18
  %incdec.ptr.i = getelementptr inbounds i8, ptr %p.012.i, i32 1
  %exitcond.not.i = icmp eq ptr %incdec.ptr.i, %v0
  br i1 %exitcond.not.i, label %return, label %for.body.i, !llvm.loop !116

if.end:                                           ; preds = %entry
  %add.ptr = getelementptr inbounds i8, ptr %v0, i32 %call
  store ptr %add.ptr, ptr %at, align 4, !tbaa !9
  %call.i = tail call dereferenceable_or_null(32) ptr @__sized_calloc(i32 noundef signext 1, i32 noundef signext 32) #20
  %tobool.not.i6 = icmp eq ptr %call.i, null
  br i1 %tobool.not.i6, label %if.then.i7, label %if.end.i

if.then.i7:                                       ; preds = %if.end
  %fault.i.i = getelementptr inbounds i8, ptr %it, i32 8
  %v6 = load ptr, ptr %fault.i.i, align 4, !tbaa !10
  %v7 = load ptr, ptr %v6, align 4, !tbaa !11
  %tobool.not.i.i = icmp eq ptr %v7, null
  br i1 %tobool.not.i.i, label %if.then.i.i, label %return

if.then.i.i:                                      ; preds = %if.then.i7
  store ptr @.str.9, ptr %v6, align 4, !tbaa !11
  %column.i.i = getelementptr inbounds i8, ptr %v6, i32 8
  store i32 1, ptr %column.i.i, align 4, !tbaa !18
  %line.i.i = getelementptr inbounds i8, ptr %v6, i32 4
  store i32 1, ptr %line.i.i, align 4, !tbaa !19
  %v8 = load ptr, ptr %it, align 4, !tbaa !4
  %cmp11.i.i = icmp ult ptr %v8, %add.ptr
  br i1 %cmp11.i.i, label %for.body.i.i, label %return

for.body.i.i:                                     ; preds = %for.inc.i.i, %if.then.i.i
  %storemerge13.i.i = phi i32 [ %storemerge.i.i, %for.inc.i.i ], [ 1, %if.then.i.i ]
  %p.012.i.i = phi ptr [ %incdec.ptr.i.i, %for.inc.i.i ], [ %v8, %if.then.i.i ]
  %v9 = load i8, ptr %p.012.i.i, align 1, !tbaa !14
  %cmp6.i.i = icmp eq i8 %v9, 10
  br i1 %cmp6.i.i, label %if.then8.i.i, label %if.else.i.i

if.then8.i.i:                                     ; preds = %for.body.i.i
  %v10 = load i32, ptr %line.i.i, align 4, !tbaa !19
  %inc.i.i = add i32 %v10, 1
  store i32 %inc.i.i, ptr %line.i.i, align 4, !tbaa !19
  br label %for.inc.i.i

if.else.i.i:                                      ; preds = %for.body.i.i
  %inc15.i.i = add i32 %storemerge13.i.i, 1
  br label %for.inc.i.i

for.inc.i.i:                                      ; preds = %if.else.i.i, %if.then8.i.i
  %storemerge.i.i = phi i32 [ %inc15.i.i, %if.else.i.i ], [ 1, %if.then8.i.i ]
  store i32 %storemerge.i.i, ptr %column.i.i, align 4, !tbaa !18
  %incdec.ptr.i.i = getelementptr inbounds i8, ptr %p.012.i.i, i32 1
  %exitcond.not.i.i = icmp eq ptr %incdec.ptr.i.i, %add.ptr
  br i1 %exitcond.not.i.i, label %return, label %for.body.i.i, !llvm.loop !117

if.end.i:                                         ; preds = %if.end
  store i32 %kind, ptr %call.i, align 8, !tbaa !24
  br label %return

return:                                           ; preds = %if.end.i, %for.inc.i.i, %if.then.i.i, %if.then.i7, %for.inc.i, %if.then.i, %if.then
  %retval.0 = phi ptr [ null, %if.then ], [ null, %if.then.i ], [ %call.i, %if.end.i ], [ null, %if.then.i7 ], [ null, %if.then.i.i ], [ null, %for.inc.i.i ], [ null, %for.inc.i ]
  ret ptr %retval.0
}

; Function Attrs: nofree norecurse nosync nounwind optsize memory(readwrite, inaccessiblemem: none)
define internal i64 @strtoll(ptr noalias noundef %text, ptr noalias noundef %end, i32 noundef signext %base) local_unnamed_addr #5 {
entry:
  %it = alloca %struct.number, align 8
  call void @llvm.lifetime.start.p0(i64 16, ptr nonnull %it) #16
  %call = call fastcc ptr @scan(ptr noundef nonnull %it, ptr noundef %text, ptr noundef %end, i32 noundef signext %base, i64 noundef zeroext 9223372036854775807, i64 noundef zeroext -9223372036854775808) #19
  %below = getelementptr inbounds i8, ptr %it, i32 8
  %v0 = load i32, ptr %below, align 8, !tbaa !59
  %tobool.not = icmp eq i32 %v0, 0
  %v1 = load i64, ptr %it, align 8, !tbaa !61
  %sub = sub i64 0, %v1
  %cond = select i1 %tobool.not, i64 %v1, i64 %sub
  call void @llvm.lifetime.end.p0(i64 16, ptr nonnull %it) #16
  ret i64 %cond
}

; Function Attrs: nofree norecurse nosync nounwind optsize memory(read, inaccessiblemem: none)
define internal noundef ptr @memchr(ptr noundef readonly %at, i32 noundef signext %c, i32 noundef signext %n) local_unnamed_addr #3 {
entry:
  %cmp.not8 = icmp eq i32 %n, 0
  br i1 %cmp.not8, label %cleanup, label %for.body.lr.ph

for.body.lr.ph:                                   ; preds = %entry
  %v0 = trunc i32 %c to i8
  br label %for.body

for.body:                                         ; preds = %for.inc, %for.body.lr.ph
  %s.010 = phi ptr [ %at, %for.body.lr.ph ], [ %incdec.ptr, %for.inc ]
  %n.addr.09 = phi i32 [ %n, %for.body.lr.ph ], [ %dec, %for.inc ]
  %v1 = load i8, ptr %s.010, align 1, !tbaa !14
  %cmp3 = icmp eq i8 %v1, %v0
  br i1 %cmp3, label %cleanup, label %for.inc

for.inc:                                          ; preds = %for.body
  %dec = add i32 %n.addr.09, -1
  %incdec.ptr = getelementptr inbounds i8, ptr %s.010, i32 1
  %cmp.not = icmp eq i32 %dec, 0
  br i1 %cmp.not, label %cleanup, label %for.body, !llvm.loop !118

cleanup:                                          ; preds = %for.inc, %for.body, %entry
  %retval.0 = phi ptr [ null, %entry ], [ null, %for.inc ], [ %s.010, %for.body ]
  ret ptr %retval.0
}

; Function Attrs: mustprogress nofree norecurse nosync nounwind optsize willreturn memory(none)
define internal range(i32 0, 2) i32 @isxdigit(i32 noundef signext %c) local_unnamed_addr #14 {
entry:
  %v0 = add i32 %c, -48
  %v1 = icmp ult i32 %v0, 10
  %v2 = and i32 %c, -33
  %v3 = add i32 %v2, -65
  %v4 = icmp ult i32 %v3, 6
  %narrow = or i1 %v4, %v1
  %lor.ext = zext i1 %narrow to i32
  ret i32 %lor.ext
}

; Function Attrs: mustprogress nofree norecurse nosync nounwind optsize willreturn memory(none)
define internal i32 @tolower(i32 noundef signext %c) local_unnamed_addr #14 {
entry:
  %v0 = add i32 %c, -91
  %v1 = icmp ult i32 %v0, -26
  %sub = add nuw nsw i32 %c, 32
  %cond = select i1 %v1, i32 %c, i32 %sub
  ret i32 %cond
}

; Function Attrs: optsize
declare dso_local ptr @calloc(i32 noundef signext, i32 noundef signext) local_unnamed_addr #15

; Function Attrs: nounwind optsize
define internal i32 @fgetc(ptr nocapture noundef %stream) local_unnamed_addr #2 {
entry:
  %v0 = load i8, ptr %stream, align 4, !tbaa !45
  %cmp.not = icmp eq i8 %v0, 0
  br i1 %cmp.not, label %if.end, label %return

if.end:                                           ; preds = %entry
  %waiting = getelementptr inbounds i8, ptr %stream, i32 2
  %v1 = load i8, ptr %waiting, align 2, !tbaa !119
  %tobool.not = icmp eq i8 %v1, 0
  br i1 %tobool.not, label %if.end5, label %if.then2

if.then2:                                         ; preds = %if.end
  store i8 0, ptr %waiting, align 2, !tbaa !119
  %pushed = getelementptr inbounds i8, ptr %stream, i32 3
  %v2 = load i8, ptr %pushed, align 1, !tbaa !120
  %conv4 = zext i8 %v2 to i32
  br label %return

if.end5:                                          ; preds = %if.end
  %ended = getelementptr inbounds i8, ptr %stream, i32 1
  %v3 = load i8, ptr %ended, align 1, !tbaa !121
  %tobool6.not = icmp eq i8 %v3, 0
  br i1 %tobool6.not, label %if.end8, label %return

if.end8:                                          ; preds = %if.end5
  %call = tail call i32 @getchar() #21
  %cmp9 = icmp eq i32 %call, -1
  br i1 %cmp9, label %if.then11, label %return

if.then11:                                        ; preds = %if.end8
  store i8 1, ptr %ended, align 1, !tbaa !121
  br label %return

return:                                           ; preds = %if.then11, %if.end8, %if.end5, %if.then2, %entry
  %retval.0 = phi i32 [ %conv4, %if.then2 ], [ -1, %entry ], [ -1, %if.end5 ], [ -1, %if.then11 ], [ %call, %if.end8 ]
  ret i32 %retval.0
}

; Function Attrs: optsize
declare dso_local i32 @getchar() local_unnamed_addr #15

attributes #0 = { nounwind "no-trapping-math"="true" "stack-protector-buffer-size"="8" "target-cpu"="mips32r2" "target-features"="+fpxx,+mips32r2,+nooddspreg,-noabicalls" }
attributes #1 = { nocallback nofree nosync nounwind willreturn memory(argmem: readwrite) }
attributes #2 = { nounwind optsize "no-builtins" "no-jump-tables"="true" "no-trapping-math"="true" "stack-protector-buffer-size"="8" "target-cpu"="mips32r2" "target-features"="+fpxx,+mips32r2,+nooddspreg,-noabicalls" }
attributes #3 = { nofree norecurse nosync nounwind optsize memory(read, inaccessiblemem: none) "no-builtins" "no-jump-tables"="true" "no-trapping-math"="true" "stack-protector-buffer-size"="8" "target-cpu"="mips32r2" "target-features"="+fpxx,+mips32r2,+nooddspreg,-noabicalls" }
attributes #4 = { nofree nosync nounwind memory(read, inaccessiblemem: none) "no-trapping-math"="true" "stack-protector-buffer-size"="8" "target-cpu"="mips32r2" "target-features"="+fpxx,+mips32r2,+nooddspreg,-noabicalls" }
attributes #5 = { nofree norecurse nosync nounwind optsize memory(readwrite, inaccessiblemem: none) "no-builtins" "no-jump-tables"="true" "no-trapping-math"="true" "stack-protector-buffer-size"="8" "target-cpu"="mips32r2" "target-features"="+fpxx,+mips32r2,+nooddspreg,-noabicalls" }
attributes #6 = { nofree nounwind "no-trapping-math"="true" "stack-protector-buffer-size"="8" "target-cpu"="mips32r2" "target-features"="+fpxx,+mips32r2,+nooddspreg,-noabicalls" }
attributes #7 = { nofree norecurse nosync nounwind optsize "no-builtins" "no-jump-tables"="true" "no-trapping-math"="true" "stack-protector-buffer-size"="8" "target-cpu"="mips32r2" "target-features"="+fpxx,+mips32r2,+nooddspreg,-noabicalls" }
attributes #8 = { noreturn "no-trapping-math"="true" "stack-protector-buffer-size"="8" "target-cpu"="mips32r2" "target-features"="+fpxx,+mips32r2,+nooddspreg,-noabicalls" }
attributes #9 = { nocallback nofree nounwind willreturn memory(argmem: readwrite) }
attributes #10 = { noinline nounwind optsize "no-builtins" "no-jump-tables"="true" "no-trapping-math"="true" "stack-protector-buffer-size"="8" "target-cpu"="mips32r2" "target-features"="+fpxx,+mips32r2,+nooddspreg,-noabicalls" }
attributes #11 = { mustprogress nounwind willreturn allockind("free") memory(argmem: readwrite, inaccessiblemem: readwrite) "alloc-family"="malloc" "no-trapping-math"="true" "stack-protector-buffer-size"="8" "target-cpu"="mips32r2" "target-features"="+fpxx,+mips32r2,+nooddspreg,-noabicalls" }
attributes #12 = { nocallback nofree nosync nounwind speculatable willreturn memory(none) }
attributes #13 = { mustprogress nofree nounwind willreturn allockind("alloc,uninitialized") allocsize(0) memory(inaccessiblemem: readwrite) "alloc-family"="malloc" "no-trapping-math"="true" "stack-protector-buffer-size"="8" "target-cpu"="mips32r2" "target-features"="+fpxx,+mips32r2,+nooddspreg,-noabicalls" }
attributes #14 = { mustprogress nofree norecurse nosync nounwind optsize willreturn memory(none) "no-builtins" "no-jump-tables"="true" "no-trapping-math"="true" "stack-protector-buffer-size"="8" "target-cpu"="mips32r2" "target-features"="+fpxx,+mips32r2,+nooddspreg,-noabicalls" }
attributes #15 = { optsize "no-builtins" "no-trapping-math"="true" "stack-protector-buffer-size"="8" "target-cpu"="mips32r2" "target-features"="+fpxx,+mips32r2,+nooddspreg,-noabicalls" }
attributes #16 = { nounwind }
attributes #17 = { allocsize(1) }
attributes #18 = { noreturn nounwind }
attributes #19 = { nobuiltin optsize "no-builtins" }
attributes #20 = { allocsize(0,1) }
attributes #21 = { nobuiltin nounwind optsize "no-builtins" }
attributes #22 = { allocsize(0) }
attributes #23 = { nounwind willreturn memory(read) }

!llvm.ident = !{!0, !0, !0, !0, !0, !0}
!llvm.module.flags = !{!1, !2, !3}

!0 = !{!"Debian clang version 19.1.7 (3~deb12u1)"}
!1 = !{i32 7, !"Dwarf Version", i32 5}
!2 = !{i32 2, !"Debug Info Version", i32 3}
!3 = !{i32 1, !"wchar_size", i32 4}
!4 = !{!5, !6, i64 0}
!5 = !{!"reader", !6, i64 0, !6, i64 4, !6, i64 8}
!6 = !{!"any pointer", !7, i64 0}
!7 = !{!"omnipotent char", !8, i64 0}
!8 = !{!"Simple C/C++ TBAA"}
!9 = !{!5, !6, i64 4}
!10 = !{!5, !6, i64 8}
!11 = !{!12, !6, i64 0}
!12 = !{!"fault", !6, i64 0, !13, i64 4, !13, i64 8}
!13 = !{!"int", !7, i64 0}
!14 = !{!7, !7, i64 0}
!15 = distinct !{!15, !16, !17}
!16 = !{!"llvm.loop.mustprogress"}
!17 = !{!"llvm.loop.unroll.disable"}
!18 = !{!12, !13, i64 8}
!19 = !{!12, !13, i64 4}
!20 = distinct !{!20, !16, !17}
!21 = !{!22, !6, i64 24}
!22 = !{!"value", !13, i64 0, !23, i64 8, !6, i64 16, !6, i64 20, !6, i64 24, !6, i64 28}
!23 = !{!"long long", !7, i64 0}
!24 = !{!22, !13, i64 0}
!25 = !{!22, !6, i64 28}
!26 = distinct !{!26, !16, !17}
!27 = !{!22, !6, i64 20}
!28 = distinct !{!28, !16, !17}
!29 = distinct !{!29, !16, !17}
!30 = distinct !{!30, !16, !17}
!31 = distinct !{!31, !16, !17}
!32 = distinct !{!32, !16}
!33 = distinct !{!33, !16}
!34 = distinct !{!34, !16, !17}
!35 = distinct !{!35, !16, !17}
!36 = distinct !{!36, !16, !17}
!37 = !{!22, !6, i64 16}
!38 = distinct !{!38, !16, !17}
!39 = distinct !{!39, !16, !17}
!40 = !{!6, !6, i64 0}
!41 = distinct !{!41, !16, !17}
!42 = distinct !{!42, !16, !17}
!43 = !{!22, !23, i64 8}
!44 = distinct !{!44, !16, !17}
!45 = !{!46, !7, i64 0}
!46 = !{!"__stream", !7, i64 0, !7, i64 1, !7, i64 2, !7, i64 3, !6, i64 4, !13, i64 8}
!47 = !{!48}
!48 = distinct !{!48, !49, !"fwrite: %stream"}
!49 = distinct !{!49, !"fwrite"}
!50 = !{!51}
!51 = distinct !{!51, !49, !"fwrite: %from"}
!52 = distinct !{!52, !16}
!53 = distinct !{!53, !16}
!54 = distinct !{!54, !16}
!55 = distinct !{!55, !16}
!56 = distinct !{!56, !16}
!57 = distinct !{!57, !16, !17}
!58 = distinct !{!58, !16, !17}
!59 = !{!60, !13, i64 8}
!60 = !{!"number", !23, i64 0, !13, i64 8, !13, i64 12}
!61 = !{!60, !23, i64 0}
!62 = distinct !{!62, !16}
!63 = !{!13, !13, i64 0}
!64 = !{!65}
!65 = distinct !{!65, !66, !"memcpy: %from"}
!66 = distinct !{!66, !"memcpy"}
!67 = !{!68}
!68 = distinct !{!68, !66, !"memcpy: %to"}
!69 = distinct !{!69, !16}
!70 = !{!71}
!71 = distinct !{!71, !72, !"memcpy: %from"}
!72 = distinct !{!72, !"memcpy"}
!73 = !{!74}
!74 = distinct !{!74, !72, !"memcpy: %to"}
!75 = distinct !{!75, !16}
!76 = !{!46, !13, i64 8}
!77 = !{!46, !6, i64 4}
!78 = !{!60, !13, i64 12}
!79 = distinct !{!79, !16}
!80 = distinct !{!80, !16}
!81 = distinct !{!81, !16}
!82 = distinct !{!82, !16}
!83 = distinct !{!83, !16}
!84 = !{!85}
!85 = distinct !{!85, !86, !"fwrite: %stream"}
!86 = distinct !{!86, !"fwrite"}
!87 = !{!88}
!88 = distinct !{!88, !86, !"fwrite: %from"}
!89 = !{!90}
!90 = distinct !{!90, !91, !"fwrite: %stream"}
!91 = distinct !{!91, !"fwrite"}
!92 = !{!93}
!93 = distinct !{!93, !91, !"fwrite: %from"}
!94 = distinct !{!94, !16, !17}
!95 = distinct !{!95, !16, !17}
!96 = !{!97}
!97 = distinct !{!97, !98, !"fwrite: %stream"}
!98 = distinct !{!98, !"fwrite"}
!99 = !{!100}
!100 = distinct !{!100, !98, !"fwrite: %from"}
!101 = distinct !{!101, !16, !17}
!102 = distinct !{!102, !16, !17}
!103 = distinct !{!103, !16, !17}
!104 = distinct !{!104, !16, !17}
!105 = distinct !{!105, !16, !17}
!106 = distinct !{!106, !16, !17}
!107 = distinct !{!107, !16, !17}
!108 = distinct !{!108, !16, !17}
!109 = distinct !{!109, !17}
!110 = distinct !{!110, !16, !17}
!111 = distinct !{!111, !16, !17}
!112 = distinct !{!112, !16, !17}
!113 = distinct !{!113, !16, !17}
!114 = distinct !{!114, !16, !17}
!115 = distinct !{!115, !16, !17}
!116 = distinct !{!116, !16, !17}
!117 = distinct !{!117, !16, !17}
!118 = distinct !{!118, !16}
!119 = !{!46, !7, i64 2}
!120 = !{!46, !7, i64 3}
!121 = !{!46, !7, i64 1}
