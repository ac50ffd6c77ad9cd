source_filename = "main.c"
target datalayout = "E-m:m-p:32:32-i8:8:32-i16:16:32-i64:64-n32-S64"
target triple = "mips-unknown-linux-gnu"

%struct.__stream = type { i8, i8, i8, i8, ptr, i32 }
%struct.table = type { ptr, i32, i32, i32 }

@.str = private unnamed_addr constant [35 x i8] c"%u lines, %u words, %zu different\0A\00", align 1
@usual = internal unnamed_addr constant [9 x ptr] [ptr @.str.6, ptr @.str.7, ptr @.str.8, ptr @.str.9, ptr @.str.10, ptr @.str.11, ptr @.str.12, ptr @.str.13, ptr @.str.14], align 4
@.str.1 = private unnamed_addr constant [8 x i8] c"machine\00", align 1
@.str.2 = private unnamed_addr constant [13 x i8] c"machine: %s\0A\00", align 1
@.str.3 = private unnamed_addr constant [6 x i8] c"there\00", align 1
@.str.4 = private unnamed_addr constant [10 x i8] c"not there\00", align 1
@.str.5 = private unnamed_addr constant [15 x i8] c"from %s to %s\0A\00", align 1
@.str.6 = private unnamed_addr constant [4 x i8] c"the\00", align 1
@.str.7 = private unnamed_addr constant [4 x i8] c"and\00", align 1
@.str.8 = private unnamed_addr constant [3 x i8] c"of\00", align 1
@.str.9 = private unnamed_addr constant [2 x i8] c"a\00", align 1
@.str.10 = private unnamed_addr constant [3 x i8] c"to\00", align 1
@.str.11 = private unnamed_addr constant [3 x i8] c"in\00", align 1
@.str.12 = private unnamed_addr constant [3 x i8] c"is\00", align 1
@.str.13 = private unnamed_addr constant [3 x i8] c"it\00", align 1
@.str.14 = private unnamed_addr constant [5 x i8] c"that\00", align 1
@.str.15 = private unnamed_addr constant [32 x i8] c"%4u  %-14.14s first in line %u\0A\00", align 1
@.str.16 = private unnamed_addr constant [7 x i8] c"%2d%c \00", align 1
@.str.17 = private unnamed_addr constant [5 x i8] c" %u\0A\00", align 1
@.str.18 = private unnamed_addr constant [1 x i8] zeroinitializer, align 1
@.str.1.19 = private unnamed_addr constant [7 x i8] c"(null)\00", align 1
@.str.2.26 = private unnamed_addr constant [2 x i8] c"-\00", align 1
@.str.3.27 = private unnamed_addr constant [2 x i8] c"+\00", align 1
@.str.4.25 = private unnamed_addr constant [2 x i8] c" \00", align 1
@.str.5.32 = private unnamed_addr constant [3 x i8] c"0X\00", align 1
@.str.6.31 = private unnamed_addr constant [3 x i8] c"0x\00", align 1
@__streams = internal global [3 x %struct.__stream] [%struct.__stream zeroinitializer, %struct.__stream { i8 1, i8 0, i8 0, i8 0, ptr null, i32 0 }, %struct.__stream { i8 2, i8 0, i8 0, i8 0, ptr null, i32 0 }], align 4
@.str.8.30 = private unnamed_addr constant [17 x i8] c"0123456789ABCDEF\00", align 1
@.str.9.24 = private unnamed_addr constant [17 x i8] c"0123456789abcdef\00", align 1

; Function Attrs: nounwind
define dso_local range(i32 -99, 100) i32 @main() local_unnamed_addr #0 {
entry:
  %lengths.i = alloca [12 x i32], align 4
  %line = alloca [400 x i8], align 1
  %word = alloca [24 x i8], align 4
  call void @llvm.lifetime.start.p0(i64 400, ptr nonnull %line) #15
  call void @llvm.lifetime.start.p0(i64 24, ptr nonnull %word) #15
  %call167 = call ptr @fgets(ptr noundef nonnull %line, i32 noundef signext 400, ptr noundef nonnull @__streams)
  %tobool.not168 = icmp eq ptr %call167, null
  br i1 %tobool.not168, label %while.end, label %while.body

while.cond.loopexit:                              ; preds = %next_word.exit
  %call = call ptr @fgets(ptr noundef nonnull %line, i32 noundef signext 400, ptr noundef nonnull @__streams)
  %tobool.not = icmp eq ptr %call, null
  br i1 %tobool.not, label %while.end, label %while.body, !llvm.loop !4

while.body:                                       ; preds = %while.cond.loopexit, %entry
  %lines.0174 = phi i32 [ %inc, %while.cond.loopexit ], [ 0, %entry ]
  %words.0173 = phi i32 [ %words.1, %while.cond.loopexit ], [ 0, %entry ]
  %table.sroa.25.0171 = phi i32 [ %table.sroa.25.1, %while.cond.loopexit ], [ 0, %entry ]
  %table.sroa.16.0170 = phi i32 [ %table.sroa.16.1, %while.cond.loopexit ], [ 0, %entry ]
  %table.sroa.0.0169 = phi ptr [ %table.sroa.0.1, %while.cond.loopexit ], [ null, %entry ]
  %inc = add i32 %lines.0174, 1
  br label %for.cond

for.cond:                                         ; preds = %if.end, %while.body
  %table.sroa.0.1 = phi ptr [ %table.sroa.0.0169, %while.body ], [ %table.sroa.0.2, %if.end ]
  %table.sroa.16.1 = phi i32 [ %table.sroa.16.0170, %while.body ], [ %table.sroa.16.2, %if.end ]
  %table.sroa.25.1 = phi i32 [ %table.sroa.25.0171, %while.body ], [ %table.sroa.25.3, %if.end ]
  %at.0 = phi ptr [ %line, %while.body ], [ %retval.0.i, %if.end ]
  %words.1 = phi i32 [ %words.0173, %while.body ], [ %inc9, %if.end ]
  %v0 = load i8, ptr %at.0, align 1, !tbaa !7
  %tobool.not12.i = icmp eq i8 %v0, 0
  br i1 %tobool.not12.i, label %next_word.exit, label %land.rhs.i.preheader

land.rhs.i.preheader:                             ; preds = %for.cond
  %conv1.i162 = zext i8 %v0 to i32
  %call.i163 = call i32 @isalnum(i32 noundef signext %conv1.i162) #16
  %tobool2.not.i164 = icmp eq i32 %call.i163, 0
  br i1 %tobool2.not.i164, label %while.body.i, label %while.end.i

land.rhs.i:                                       ; preds = %while.body.i
  %conv1.i = zext i8 %v1 to i32
  %call.i = call i32 @isalnum(i32 noundef signext %conv1.i) #16
  %tobool2.not.i = icmp eq i32 %call.i, 0
  br i1 %tobool2.not.i, label %while.body.i, label %while.end.i, !llvm.loop !10

while.body.i:                                     ; preds = %land.rhs.i, %land.rhs.i.preheader
  %at.addr.013.i165 = phi ptr [ %incdec.ptr.i, %land.rhs.i ], [ %at.0, %land.rhs.i.preheader ]
  %incdec.ptr.i = getelementptr inbounds i8, ptr %at.addr.013.i165, i32 1
  %v1 = load i8, ptr %incdec.ptr.i, align 1, !tbaa !7
  %tobool.not.i = icmp eq i8 %v1, 0
  br i1 %tobool.not.i, label %next_word.exit, label %land.rhs.i, !llvm.loop !10

while.end.i:                                      ; preds = %land.rhs.i, %land.rhs.i.preheader
  %at.addr.013.i.lcssa = phi ptr [ %at.0, %land.rhs.i.preheader ], [ %incdec.ptr.i, %land.rhs.i ]
  br label %for.cond.i

for.cond.i:                                       ; preds = %for.inc.i, %while.end.i
  %at.addr.1.i = phi ptr [ %incdec.ptr13.i, %for.inc.i ], [ %at.addr.013.i.lcssa, %while.end.i ]
  %to.addr.0.i = phi ptr [ %to.addr.1.i, %for.inc.i ], [ %word, %while.end.i ]
  %room.addr.0.i = phi i32 [ %room.addr.1.i, %for.inc.i ], [ 24, %while.end.i ]
  %v2 = load i8, ptr %at.addr.1.i, align 1, !tbaa !7
  %conv.i.i = zext i8 %v2 to i32
  %call.i.i = call i32 @isalnum(i32 noundef signext %conv.i.i) #16
  %tobool.not.i.i = icmp eq i32 %call.i.i, 0
  br i1 %tobool.not.i.i, label %lor.rhs.i.i, label %within.exit.i

lor.rhs.i.i:                                      ; preds = %for.cond.i
  %cmp.i.i = icmp eq i8 %v2, 39
  br i1 %cmp.i.i, label %land.rhs.i.i, label %within.exit.i

land.rhs.i.i:                                     ; preds = %lor.rhs.i.i
  %arrayidx.i.i = getelementptr inbounds i8, ptr %at.addr.1.i, i32 1
  %v3 = load i8, ptr %arrayidx.i.i, align 1, !tbaa !7
  %conv3.i.i = zext i8 %v3 to i32
  %call4.i.i = call i32 @isalpha(i32 noundef signext %conv3.i.i) #16
  %tobool5.i.i = icmp ne i32 %call4.i.i, 0
  %v4 = zext i1 %tobool5.i.i to i32
  br label %within.exit.i

within.exit.i:                                    ; preds = %land.rhs.i.i, %lor.rhs.i.i, %for.cond.i
  %lor.ext.i.i = phi i32 [ 1, %for.cond.i ], [ 0, %lor.rhs.i.i ], [ %v4, %land.rhs.i.i ]
  %tobool5.not.i = icmp eq i32 %lor.ext.i.i, 0
  br i1 %tobool5.not.i, label %for.end.i, label %for.body.i

for.body.i:                                       ; preds = %within.exit.i
  %cmp.i = icmp sgt i32 %room.addr.0.i, 1
  br i1 %cmp.i, label %if.then7.i, label %for.inc.i

if.then7.i:                                       ; preds = %for.body.i
  %call9.i = call i32 @tolower(i32 noundef signext %conv.i.i) #16
  %conv10.i = trunc i32 %call9.i to i8
  %incdec.ptr11.i = getelementptr inbounds i8, ptr %to.addr.0.i, i32 1
  store i8 %conv10.i, ptr %to.addr.0.i, align 1, !tbaa !7
  %dec.i = add nsw i32 %room.addr.0.i, -1
  br label %for.inc.i

for.inc.i:                                        ; preds = %if.then7.i, %for.body.i
  %to.addr.1.i = phi ptr [ %incdec.ptr11.i, %if.then7.i ], [ %to.addr.0.i, %for.body.i ]
  %room.addr.1.i = phi i32 [ %dec.i, %if.then7.i ], [ %room.addr.0.i, %for.body.i ]
  %incdec.ptr13.i = getelementptr inbounds i8, ptr %at.addr.1.i, i32 1
  br label %for.cond.i, !llvm.loop !11

for.end.i:                                        ; preds = %within.exit.i
  store i8 0, ptr %to.addr.0.i, align 1, !tbaa !7
  br label %next_word.exit

next_word.exit:                                   ; preds = %for.end.i, %while.body.i, %for.cond
  %retval.0.i = phi ptr [ %at.addr.1.i, %for.end.i ], [ null, %for.cond ], [ null, %while.body.i ]
  %tobool4.not = icmp eq ptr %retval.0.i, null
  br i1 %tobool4.not, label %while.cond.loopexit, label %for.body

for.body:                                         ; preds = %next_word.exit
  %mul.i = shl i32 %table.sroa.25.1, 2
  %mul1.i = mul i32 %table.sroa.16.1, 3
  %cmp.not.i = icmp ult i32 %mul.i, %mul1.i
  br i1 %cmp.not.i, label %if.end.i, label %if.then.i

if.then.i:                                        ; preds = %for.body
  %tobool.not.i.i14 = icmp eq i32 %table.sroa.16.1, 0
  %mul.i.i = shl i32 %table.sroa.16.1, 1
  %spec.select.i.i = select i1 %tobool.not.i.i14, i32 16, i32 %mul.i.i
  %call.i.i15 = call ptr @calloc(i32 noundef signext %spec.select.i.i, i32 noundef signext 16) #17
  %tobool8.not.i.i = icmp eq ptr %call.i.i15, null
  br i1 %tobool8.not.i.i, label %if.then.i.i, label %for.cond.preheader.i.i

for.cond.preheader.i.i:                           ; preds = %if.then.i
  br i1 %tobool.not.i.i14, label %grow.exit.i, label %for.body.lr.ph.i.i

for.body.lr.ph.i.i:                               ; preds = %for.cond.preheader.i.i
  %sub.i.i.i = add i32 %spec.select.i.i, -1
  br label %for.body.i.i

if.then.i.i:                                      ; preds = %if.then.i
  call void @abort() #18
  unreachable

for.body.i.i:                                     ; preds = %for.inc.i.i, %for.body.lr.ph.i.i
  %k.020.i.i = phi i32 [ 0, %for.body.lr.ph.i.i ], [ %inc.i.i, %for.inc.i.i ]
  %arrayidx.i.i16 = getelementptr inbounds %struct.table, ptr %table.sroa.0.1, i32 %k.020.i.i
  %v5 = load ptr, ptr %arrayidx.i.i16, align 4, !tbaa !12
  %tobool11.not.i.i = icmp eq ptr %v5, null
  br i1 %tobool11.not.i.i, label %for.inc.i.i, label %if.then12.i.i

if.then12.i.i:                                    ; preds = %for.body.i.i
  %hash.i.i = getelementptr inbounds i8, ptr %arrayidx.i.i16, i32 4
  %v6 = load i32, ptr %hash.i.i, align 4, !tbaa !16
  br label %for.cond.i.i.i

for.cond.i.i.i:                                   ; preds = %cleanup.i.i.i, %if.then12.i.i
  %.pn.i.i = phi i32 [ %v6, %if.then12.i.i ], [ %add.i.i.i, %cleanup.i.i.i ]
  %retval.0.i.i.i = phi ptr [ undef, %if.then12.i.i ], [ %retval.1.i.i.i, %cleanup.i.i.i ]
  %at.0.i.i.i = and i32 %.pn.i.i, %sub.i.i.i
  %arrayidx.i.i.i = getelementptr inbounds %struct.table, ptr %call.i.i15, i32 %at.0.i.i.i
  %v7 = load ptr, ptr %arrayidx.i.i.i, align 4, !tbaa !12
  %tobool.not.i.i.i = icmp eq ptr %v7, null
  br i1 %tobool.not.i.i.i, label %cleanup.i.i.i, label %lor.lhs.false.i.i.i

lor.lhs.false.i.i.i:                              ; preds = %for.cond.i.i.i
  %hash3.i.i.i = getelementptr inbounds i8, ptr %arrayidx.i.i.i, i32 4
  %v8 = load i32, ptr %hash3.i.i.i, align 4, !tbaa !16
  %cmp.i.i.i = icmp eq i32 %v8, %v6
  br i1 %cmp.i.i.i, label %land.lhs.true.i.i.i, label %if.end.i.i.i

land.lhs.true.i.i.i:                              ; preds = %lor.lhs.false.i.i.i
  %call.i.i.i = call i32 @strcmp(ptr noundef nonnull dereferenceable(1) %v7, ptr noundef nonnull readonly dereferenceable(1) %v5) #15
  %cmp5.i.i.i = icmp eq i32 %call.i.i.i, 0
  br i1 %cmp5.i.i.i, label %cleanup.i.i.i, label %if.end.i.i.i

if.end.i.i.i:                                     ; preds = %land.lhs.true.i.i.i, %lor.lhs.false.i.i.i
  br label %cleanup.i.i.i

cleanup.i.i.i:                                    ; preds = %if.end.i.i.i, %land.lhs.true.i.i.i, %for.cond.i.i.i
  %retval.1.i.i.i = phi ptr [ %retval.0.i.i.i, %if.end.i.i.i ], [ %arrayidx.i.i.i, %land.lhs.true.i.i.i ], [ %arrayidx.i.i.i, %for.cond.i.i.i ]
  %cond.i.i.i = phi i1 [ true, %if.end.i.i.i ], [ false, %land.lhs.true.i.i.i ], [ false, %for.cond.i.i.i ]
  %add.i.i.i = add i32 %at.0.i.i.i, 1
  br i1 %cond.i.i.i, label %for.cond.i.i.i, label %place_of.exit.i.i, !llvm.loop !17

place_of.exit.i.i:                                ; preds = %cleanup.i.i.i
  call void @llvm.memcpy.p0.p0.i32(ptr noundef nonnull align 4 dereferenceable(16) %retval.1.i.i.i, ptr noundef nonnull align 4 dereferenceable(16) %arrayidx.i.i16, i32 16, i1 false), !tbaa.struct !18
  br label %for.inc.i.i

for.inc.i.i:                                      ; preds = %place_of.exit.i.i, %for.body.i.i
  %inc.i.i = add nuw i32 %k.020.i.i, 1
  %exitcond.not = icmp eq i32 %inc.i.i, %table.sroa.16.1
  br i1 %exitcond.not, label %grow.exit.i, label %for.body.i.i, !llvm.loop !21

grow.exit.i:                                      ; preds = %for.inc.i.i, %for.cond.preheader.i.i
  call void @free(ptr noundef %table.sroa.0.1)
  br label %if.end.i

if.end.i:                                         ; preds = %grow.exit.i, %for.body
  %table.sroa.0.2 = phi ptr [ %table.sroa.0.1, %for.body ], [ %call.i.i15, %grow.exit.i ]
  %table.sroa.16.2 = phi i32 [ %table.sroa.16.1, %for.body ], [ %spec.select.i.i, %grow.exit.i ]
  %v9 = load i8, ptr %word, align 4, !tbaa !7
  %tobool.not5.i.i = icmp eq i8 %v9, 0
  br i1 %tobool.not5.i.i, label %hash_of.exit.i, label %for.body.i12.i

for.body.i12.i:                                   ; preds = %for.body.i12.i, %if.end.i
  %v10 = phi i8 [ %v11, %for.body.i12.i ], [ %v9, %if.end.i ]
  %h.07.i.i = phi i32 [ %mul.i13.i, %for.body.i12.i ], [ -2128831035, %if.end.i ]
  %word.addr.06.i.i = phi ptr [ %incdec.ptr.i.i, %for.body.i12.i ], [ %word, %if.end.i ]
  %conv.i.i18 = zext i8 %v10 to i32
  %xor.i.i = xor i32 %h.07.i.i, %conv.i.i18
  %mul.i13.i = mul i32 %xor.i.i, 16777619
  %incdec.ptr.i.i = getelementptr inbounds i8, ptr %word.addr.06.i.i, i32 1
  %v11 = load i8, ptr %incdec.ptr.i.i, align 1, !tbaa !7
  %tobool.not.i14.i = icmp eq i8 %v11, 0
  br i1 %tobool.not.i14.i, label %hash_of.exit.i, label %for.body.i12.i, !llvm.loop !22

hash_of.exit.i:                                   ; preds = %for.body.i12.i, %if.end.i
  %h.0.lcssa.i.i = phi i32 [ -2128831035, %if.end.i ], [ %mul.i13.i, %for.body.i12.i ]
  %shr.i.i = lshr i32 %h.0.lcssa.i.i, 15
  %xor1.i.i = xor i32 %shr.i.i, %h.0.lcssa.i.i
  %sub.i.i = add i32 %table.sroa.16.2, -1
  br label %for.cond.i.i

for.cond.i.i:                                     ; preds = %cleanup.i.i, %hash_of.exit.i
  %xor1.i.i.pn = phi i32 [ %xor1.i.i, %hash_of.exit.i ], [ %add.i.i, %cleanup.i.i ]
  %retval.0.i.i = phi ptr [ undef, %hash_of.exit.i ], [ %retval.1.i.i, %cleanup.i.i ]
  %at.0.i.i = and i32 %xor1.i.i.pn, %sub.i.i
  %arrayidx.i15.i = getelementptr inbounds %struct.table, ptr %table.sroa.0.2, i32 %at.0.i.i
  %v12 = load ptr, ptr %arrayidx.i15.i, align 4, !tbaa !12
  %tobool.not.i17.i = icmp eq ptr %v12, null
  br i1 %tobool.not.i17.i, label %cleanup.i.i, label %lor.lhs.false.i.i

lor.lhs.false.i.i:                                ; preds = %for.cond.i.i
  %hash3.i.i = getelementptr inbounds i8, ptr %arrayidx.i15.i, i32 4
  %v13 = load i32, ptr %hash3.i.i, align 4, !tbaa !16
  %cmp.i18.i = icmp eq i32 %v13, %xor1.i.i
  br i1 %cmp.i18.i, label %land.lhs.true.i.i, label %if.end.i.i

land.lhs.true.i.i:                                ; preds = %lor.lhs.false.i.i
  %call.i20.i = call i32 @strcmp(ptr noundef nonnull dereferenceable(1) %v12, ptr noundef nonnull readonly dereferenceable(1) %word) #15
  %cmp5.i.i = icmp eq i32 %call.i20.i, 0
  br i1 %cmp5.i.i, label %cleanup.i.i, label %if.end.i.i

if.end.i.i:                                       ; preds = %land.lhs.true.i.i, %lor.lhs.false.i.i
  br label %cleanup.i.i

cleanup.i.i:                                      ; preds = %if.end.i.i, %land.lhs.true.i.i, %for.cond.i.i
  %retval.1.i.i = phi ptr [ %retval.0.i.i, %if.end.i.i ], [ %arrayidx.i15.i, %land.lhs.true.i.i ], [ %arrayidx.i15.i, %for.cond.i.i ]
  %cond.i.i = phi i1 [ true, %if.end.i.i ], [ false, %land.lhs.true.i.i ], [ false, %for.cond.i.i ]
  %add.i.i = add i32 %at.0.i.i, 1
  br i1 %cond.i.i, label %for.cond.i.i, label %place_of.exit.i, !llvm.loop !23

place_of.exit.i:                                  ; preds = %cleanup.i.i
  %v14 = load ptr, ptr %retval.1.i.i, align 4, !tbaa !12
  %tobool.not.i19 = icmp eq ptr %v14, null
  br i1 %tobool.not.i19, label %if.then5.i, label %table_of.exit

if.then5.i:                                       ; preds = %place_of.exit.i
  %call6.i = call ptr @strdup(ptr noundef nonnull readonly %word) #15
  store ptr %call6.i, ptr %retval.1.i.i, align 4, !tbaa !12
  %tobool9.not.i = icmp eq ptr %call6.i, null
  br i1 %tobool9.not.i, label %if.then10.i, label %if.end11.i

if.then10.i:                                      ; preds = %if.then5.i
  call void @abort() #18
  unreachable

if.end11.i:                                       ; preds = %if.then5.i
  %hash12.i = getelementptr inbounds i8, ptr %retval.1.i.i, i32 4
  store i32 %xor1.i.i, ptr %hash12.i, align 4, !tbaa !16
  %inc.i = add i32 %table.sroa.25.1, 1
  br label %table_of.exit

table_of.exit:                                    ; preds = %if.end11.i, %place_of.exit.i
  %table.sroa.25.3 = phi i32 [ %inc.i, %if.end11.i ], [ %table.sroa.25.1, %place_of.exit.i ]
  %count = getelementptr inbounds i8, ptr %retval.1.i.i, i32 8
  %v15 = load i32, ptr %count, align 4, !tbaa !24
  %inc8 = add i32 %v15, 1
  store i32 %inc8, ptr %count, align 4, !tbaa !24
  %cmp = icmp eq i32 %v15, 0
  br i1 %cmp, label %if.then, label %if.end

if.then:                                          ; preds = %table_of.exit
  %first = getelementptr inbounds i8, ptr %retval.1.i.i, i32 12
  store i32 %inc, ptr %first, align 4, !tbaa !25
  br label %if.end

if.end:                                           ; preds = %if.then, %table_of.exit
  %inc9 = add i32 %words.1, 1
  br label %for.cond, !llvm.loop !26

while.end:                                        ; preds = %while.cond.loopexit, %entry
  %table.sroa.0.0.lcssa = phi ptr [ null, %entry ], [ %table.sroa.0.1, %while.cond.loopexit ]
  %table.sroa.16.0.lcssa = phi i32 [ 0, %entry ], [ %table.sroa.16.1, %while.cond.loopexit ]
  %table.sroa.25.0.lcssa = phi i32 [ 0, %entry ], [ %table.sroa.25.1, %while.cond.loopexit ]
  %words.0.lcssa = phi i32 [ 0, %entry ], [ %words.1, %while.cond.loopexit ]
  %lines.0.lcssa = phi i32 [ 0, %entry ], [ %inc, %while.cond.loopexit ]
  %print.117.0 = zext i32 %lines.0.lcssa to i64
  %print.117.1 = call i32 @__print_unsigned(ptr nonnull getelementptr inbounds (i8, ptr @__streams, i32 12), i64 %print.117.0, i32 10, i32 0, i32 0, i32 -1) #15
  %print.117.2 = call i32 @__print_text(ptr nonnull getelementptr inbounds (i8, ptr @__streams, i32 12), ptr nonnull getelementptr inbounds (i8, ptr @.str, i32 2), i32 8) #15
  %print.117.3 = zext i32 %words.0.lcssa to i64
  %print.117.4 = call i32 @__print_unsigned(ptr nonnull getelementptr inbounds (i8, ptr @__streams, i32 12), i64 %print.117.3, i32 10, i32 0, i32 0, i32 -1) #15
  %print.117.5 = call i32 @__print_text(ptr nonnull getelementptr inbounds (i8, ptr @__streams, i32 12), ptr nonnull getelementptr inbounds (i8, ptr @.str, i32 12), i32 8) #15
  %print.117.6 = zext i32 %table.sroa.25.0.lcssa to i64
  %print.117.7 = call i32 @__print_unsigned(ptr nonnull getelementptr inbounds (i8, ptr @__streams, i32 12), i64 %print.117.6, i32 10, i32 0, i32 0, i32 -1) #15
  %print.117.8 = call i32 @__print_text(ptr nonnull getelementptr inbounds (i8, ptr @__streams, i32 12), ptr nonnull getelementptr inbounds (i8, ptr @.str, i32 23), i32 11) #15
  %cmp.i40 = icmp eq i32 %table.sroa.16.0.lcssa, 0
  %sub.i.i55 = add i32 %table.sroa.16.0.lcssa, -1
  %sub.ptr.rhs.cast.i = ptrtoint ptr %table.sroa.0.0.lcssa to i32
  br label %for.body14

for.cond.cleanup13:                               ; preds = %table_remove.exit
  %mul.i21 = shl i32 %table.sroa.25.5, 2
  %call.i22 = call ptr @malloc(i32 noundef signext %mul.i21) #19
  %tobool.not.i23 = icmp eq ptr %call.i22, null
  br i1 %tobool.not.i23, label %if.then.i28, label %for.cond.preheader.i

for.cond.preheader.i:                             ; preds = %for.cond.cleanup13
  br i1 %cmp.i40, label %listed.exit, label %for.body.i25

if.then.i28:                                      ; preds = %for.cond.cleanup13
  call void @abort() #18
  unreachable

for.body.i25:                                     ; preds = %for.inc.i27, %for.cond.preheader.i
  %k.011.i = phi i32 [ %inc7.i, %for.inc.i27 ], [ 0, %for.cond.preheader.i ]
  %n.010.i = phi i32 [ %n.1.i, %for.inc.i27 ], [ 0, %for.cond.preheader.i ]
  %arrayidx.i = getelementptr inbounds %struct.table, ptr %table.sroa.0.0.lcssa, i32 %k.011.i
  %v16 = load ptr, ptr %arrayidx.i, align 4, !tbaa !12
  %tobool1.not.i = icmp eq ptr %v16, null
  br i1 %tobool1.not.i, label %for.inc.i27, label %if.then2.i

if.then2.i:                                       ; preds = %for.body.i25
  %inc.i26 = add i32 %n.010.i, 1
  %arrayidx5.i = getelementptr inbounds ptr, ptr %call.i22, i32 %n.010.i
  store ptr %arrayidx.i, ptr %arrayidx5.i, align 4, !tbaa !19
  br label %for.inc.i27

for.inc.i27:                                      ; preds = %if.then2.i, %for.body.i25
  %n.1.i = phi i32 [ %inc.i26, %if.then2.i ], [ %n.010.i, %for.body.i25 ]
  %inc7.i = add nuw i32 %k.011.i, 1
  %exitcond.not.i = icmp eq i32 %inc7.i, %table.sroa.16.0.lcssa
  br i1 %exitcond.not.i, label %listed.exit, label %for.body.i25, !llvm.loop !27

listed.exit:                                      ; preds = %for.inc.i27, %for.cond.preheader.i
  call void @qsort(ptr noundef nonnull %call.i22, i32 noundef signext %table.sroa.25.5, i32 noundef signext 4, ptr noundef nonnull @by_count) #15
  %invariant.umin.i = call i32 @llvm.umin.i32(i32 %table.sroa.25.5, i32 15)
  %.not.i = icmp eq i32 %table.sroa.25.5, 0
  br i1 %.not.i, label %for.cond5.preheader.i.critedge, label %for.body.i29

for.body.i29:                                     ; preds = %for.body.i29, %listed.exit
  %k.08.i = phi i32 [ %inc.i31, %for.body.i29 ], [ 0, %listed.exit ]
  %arrayidx.i30 = getelementptr inbounds ptr, ptr %call.i22, i32 %k.08.i
  %v17 = load ptr, ptr %arrayidx.i30, align 4, !tbaa !19
  %count.i = getelementptr inbounds i8, ptr %v17, i32 8
  %v18 = load i32, ptr %count.i, align 4, !tbaa !24
  %v19 = load ptr, ptr %v17, align 4, !tbaa !12
  %first.i = getelementptr inbounds i8, ptr %v17, i32 12
  %v20 = load i32, ptr %first.i, align 4, !tbaa !25
  %print.427.0.i = zext i32 %v18 to i64
  %print.427.1.i = call i32 @__print_unsigned(ptr nonnull getelementptr inbounds (i8, ptr @__streams, i32 12), i64 %print.427.0.i, i32 10, i32 0, i32 4, i32 -1) #15
  %print.427.2.i = call i32 @__print_text(ptr nonnull getelementptr inbounds (i8, ptr @__streams, i32 12), ptr nonnull getelementptr inbounds (i8, ptr @.str.15, i32 3), i32 2) #15
  %print.427.3.i = call i32 @__print_string(ptr nonnull getelementptr inbounds (i8, ptr @__streams, i32 12), ptr %v19, i32 1, i32 14, i32 14) #15
  %print.427.4.i = call i32 @__print_text(ptr nonnull getelementptr inbounds (i8, ptr @__streams, i32 12), ptr nonnull getelementptr inbounds (i8, ptr @.str.15, i32 13), i32 15) #15
  %print.427.5.i = zext i32 %v20 to i64
  %print.427.6.i = call i32 @__print_unsigned(ptr nonnull getelementptr inbounds (i8, ptr @__streams, i32 12), i64 %print.427.5.i, i32 10, i32 0, i32 0, i32 -1) #15
  %print.427.7.i = call i32 @__print_text(ptr nonnull getelementptr inbounds (i8, ptr @__streams, i32 12), ptr nonnull getelementptr inbounds (i8, ptr @.str.15, i32 30), i32 1) #15
  %inc.i31 = add nuw nsw i32 %k.08.i, 1
  %exitcond.not.i32 = icmp eq i32 %inc.i31, %invariant.umin.i
  br i1 %exitcond.not.i32, label %show.exit, label %for.body.i29, !llvm.loop !28

show.exit:                                        ; preds = %for.body.i29
  call void @llvm.lifetime.start.p0(i64 48, ptr nonnull %lengths.i) #15
  call void @llvm.memset.p0.i32(ptr noundef nonnull align 4 dereferenceable(48) %lengths.i, i8 0, i32 48, i1 false)
  br i1 %.not.i, label %for.body8.i.preheader, label %for.body.i33

for.cond5.preheader.i.critedge:                   ; preds = %listed.exit
  call void @llvm.lifetime.start.p0(i64 48, ptr nonnull %lengths.i) #15
  call void @llvm.memset.p0.i32(ptr noundef nonnull align 4 dereferenceable(48) %lengths.i, i8 0, i32 48, i1 false)
  br label %for.body8.i.preheader

for.body.i33:                                     ; preds = %for.body.i33, %show.exit
  %k.013.i = phi i32 [ %inc.i37, %for.body.i33 ], [ 0, %show.exit ]
  %arrayidx.i34 = getelementptr inbounds ptr, ptr %call.i22, i32 %k.013.i
  %v21 = load ptr, ptr %arrayidx.i34, align 4, !tbaa !19
  %v22 = load ptr, ptr %v21, align 4, !tbaa !12
  %call.i35 = call i32 @strlen(ptr noundef nonnull dereferenceable(1) %v22) #15
  %count.i36 = getelementptr inbounds i8, ptr %v21, i32 8
  %v23 = load i32, ptr %count.i36, align 4, !tbaa !24
  %cond.i = call i32 @llvm.umin.i32(i32 %call.i35, i32 11)
  %arrayidx3.i = getelementptr inbounds [12 x i32], ptr %lengths.i, i32 0, i32 %cond.i
  %v24 = load i32, ptr %arrayidx3.i, align 4, !tbaa !20
  %add.i = add i32 %v24, %v23
  store i32 %add.i, ptr %arrayidx3.i, align 4, !tbaa !20
  %inc.i37 = add nuw i32 %k.013.i, 1
  %exitcond.not.i38 = icmp eq i32 %inc.i37, %table.sroa.25.5
  br i1 %exitcond.not.i38, label %for.body8.i.preheader, label %for.body.i33, !llvm.loop !29

for.body8.i.preheader:                            ; preds = %for.body.i33, %for.cond5.preheader.i.critedge, %show.exit
  br label %for.body8.i

for.body8.i:                                      ; preds = %for.cond.cleanup15.i, %for.body8.i.preheader
  %k4.016.i = phi i32 [ %inc24.i, %for.cond.cleanup15.i ], [ 1, %for.body8.i.preheader ]
  %cmp9.i = icmp eq i32 %k4.016.i, 11
  %cond10.i = select i1 %cmp9.i, i32 43, i32 32
  %print.532.0.i = zext nneg i32 %k4.016.i to i64
  %print.532.1.i = call i32 @__print_signed(ptr nonnull getelementptr inbounds (i8, ptr @__streams, i32 12), i64 %print.532.0.i, i32 0, i32 2, i32 -1) #15
  %print.532.2.i = call i32 @__print_character(ptr nonnull getelementptr inbounds (i8, ptr @__streams, i32 12), i32 %cond10.i, i32 0, i32 0) #15
  %print.532.3.i = call i32 @__print_text(ptr nonnull getelementptr inbounds (i8, ptr @__streams, i32 12), ptr nonnull getelementptr inbounds (i8, ptr @.str.16, i32 5), i32 1) #15
  %arrayidx13.i = getelementptr inbounds [12 x i32], ptr %lengths.i, i32 0, i32 %k4.016.i
  %v25 = load i32, ptr %arrayidx13.i, align 4, !tbaa !20
  %cmp1414.not.i = icmp eq i32 %v25, 0
  br i1 %cmp1414.not.i, label %for.cond.cleanup15.i, label %for.body16.i

for.cond.cleanup15.i:                             ; preds = %for.body16.i, %for.body8.i
  %print.564.0.i = call i32 @__print_text(ptr nonnull getelementptr inbounds (i8, ptr @__streams, i32 12), ptr nonnull @.str.17, i32 1) #15
  %print.564.1.i = zext i32 %v25 to i64
  %print.564.2.i = call i32 @__print_unsigned(ptr nonnull getelementptr inbounds (i8, ptr @__streams, i32 12), i64 %print.564.1.i, i32 10, i32 0, i32 0, i32 -1) #15
  %print.564.3.i = call i32 @__print_text(ptr nonnull getelementptr inbounds (i8, ptr @__streams, i32 12), ptr nonnull getelementptr inbounds (i8, ptr @.str.17, i32 3), i32 1) #15
  %inc24.i = add nuw nsw i32 %k4.016.i, 1
  %exitcond17.not.i = icmp eq i32 %inc24.i, 12
  br i1 %exitcond17.not.i, label %histogram.exit, label %for.body8.i, !llvm.loop !30

for.body16.i:                                     ; preds = %for.body16.i, %for.body8.i
  %i.015.i = phi i32 [ %add19.i, %for.body16.i ], [ 0, %for.body8.i ]
  %call17.i = call i32 @putchar(i32 noundef signext 42)
  %add19.i = add i32 %i.015.i, 4
  %cmp14.i = icmp ult i32 %add19.i, %v25
  br i1 %cmp14.i, label %for.body16.i, label %for.cond.cleanup15.i, !llvm.loop !31

histogram.exit:                                   ; preds = %for.cond.cleanup15.i
  call void @llvm.lifetime.end.p0(i64 48, ptr nonnull %lengths.i) #15
  call void @qsort(ptr noundef nonnull %call.i22, i32 noundef signext %table.sroa.25.5, i32 noundef signext 4, ptr noundef nonnull @by_alphabet) #15
  %call23 = call ptr @bsearch(ptr noundef nonnull @.str.1, ptr noundef nonnull %call.i22, i32 noundef signext %table.sroa.25.5, i32 noundef signext 4, ptr noundef nonnull @by_word) #15
  %tobool24.not = icmp eq ptr %call23, null
  %cond = select i1 %tobool24.not, ptr @.str.4, ptr @.str.3
  %print.174.0 = call i32 @__print_text(ptr nonnull getelementptr inbounds (i8, ptr @__streams, i32 12), ptr nonnull @.str.2, i32 9) #15
  %print.174.1 = call i32 @__print_string(ptr nonnull getelementptr inbounds (i8, ptr @__streams, i32 12), ptr nonnull %cond, i32 0, i32 0, i32 -1) #15
  %print.174.2 = call i32 @__print_text(ptr nonnull getelementptr inbounds (i8, ptr @__streams, i32 12), ptr nonnull getelementptr inbounds (i8, ptr @.str.2, i32 11), i32 1) #15
  br i1 %.not.i, label %if.end35, label %if.then28

for.body14:                                       ; preds = %table_remove.exit, %while.end
  %k.0183 = phi i32 [ 0, %while.end ], [ %inc15, %table_remove.exit ]
  %table.sroa.25.4181 = phi i32 [ %table.sroa.25.0.lcssa, %while.end ], [ %table.sroa.25.5, %table_remove.exit ]
  %arrayidx = getelementptr inbounds [9 x ptr], ptr @usual, i32 0, i32 %k.0183
  %v26 = load ptr, ptr %arrayidx, align 4, !tbaa !19
  br i1 %cmp.i40, label %table_remove.exit, label %if.end.i41

if.end.i41:                                       ; preds = %for.body14
  %v27 = load i8, ptr %v26, align 1, !tbaa !7
  %tobool.not5.i.i42 = icmp eq i8 %v27, 0
  br i1 %tobool.not5.i.i42, label %hash_of.exit.i51, label %for.body.i.i43

for.body.i.i43:                                   ; preds = %for.body.i.i43, %if.end.i41
  %v28 = phi i8 [ %v29, %for.body.i.i43 ], [ %v27, %if.end.i41 ]
  %h.07.i.i44 = phi i32 [ %mul.i.i48, %for.body.i.i43 ], [ -2128831035, %if.end.i41 ]
  %word.addr.06.i.i45 = phi ptr [ %incdec.ptr.i.i49, %for.body.i.i43 ], [ %v26, %if.end.i41 ]
  %conv.i.i46 = zext i8 %v28 to i32
  %xor.i.i47 = xor i32 %h.07.i.i44, %conv.i.i46
  %mul.i.i48 = mul i32 %xor.i.i47, 16777619
  %incdec.ptr.i.i49 = getelementptr inbounds i8, ptr %word.addr.06.i.i45, i32 1
  %v29 = load i8, ptr %incdec.ptr.i.i49, align 1, !tbaa !7
  %tobool.not.i.i50 = icmp eq i8 %v29, 0
  br i1 %tobool.not.i.i50, label %hash_of.exit.i51, label %for.body.i.i43, !llvm.loop !32

hash_of.exit.i51:                                 ; preds = %for.body.i.i43, %if.end.i41
  %h.0.lcssa.i.i52 = phi i32 [ -2128831035, %if.end.i41 ], [ %mul.i.i48, %for.body.i.i43 ]
  %shr.i.i53 = lshr i32 %h.0.lcssa.i.i52, 15
  %xor1.i.i54 = xor i32 %shr.i.i53, %h.0.lcssa.i.i52
  br label %for.cond.i.i58

for.cond.i.i58:                                   ; preds = %cleanup.i.i67, %hash_of.exit.i51
  %xor1.i.pn.i = phi i32 [ %xor1.i.i54, %hash_of.exit.i51 ], [ %add.i.i77, %cleanup.i.i67 ]
  %retval.0.i.i59 = phi ptr [ undef, %hash_of.exit.i51 ], [ %retval.1.i.i68, %cleanup.i.i67 ]
  %at.0.i.i60 = and i32 %xor1.i.pn.i, %sub.i.i55
  %arrayidx.i.i61 = getelementptr inbounds %struct.table, ptr %table.sroa.0.0.lcssa, i32 %at.0.i.i60
  %v30 = load ptr, ptr %arrayidx.i.i61, align 4, !tbaa !12
  %tobool.not.i27.i = icmp eq ptr %v30, null
  br i1 %tobool.not.i27.i, label %cleanup.i.i67, label %lor.lhs.false.i.i63

lor.lhs.false.i.i63:                              ; preds = %for.cond.i.i58
  %hash3.i.i64 = getelementptr inbounds i8, ptr %arrayidx.i.i61, i32 4
  %v31 = load i32, ptr %hash3.i.i64, align 4, !tbaa !16
  %cmp.i.i65 = icmp eq i32 %v31, %xor1.i.i54
  br i1 %cmp.i.i65, label %land.lhs.true.i.i78, label %if.end.i.i66

land.lhs.true.i.i78:                              ; preds = %lor.lhs.false.i.i63
  %call.i.i79 = call i32 @strcmp(ptr noundef nonnull dereferenceable(1) %v30, ptr noundef nonnull readonly dereferenceable(1) %v26) #15
  %cmp5.i.i80 = icmp eq i32 %call.i.i79, 0
  br i1 %cmp5.i.i80, label %cleanup.i.i67, label %if.end.i.i66

if.end.i.i66:                                     ; preds = %land.lhs.true.i.i78, %lor.lhs.false.i.i63
  br label %cleanup.i.i67

cleanup.i.i67:                                    ; preds = %if.end.i.i66, %land.lhs.true.i.i78, %for.cond.i.i58
  %retval.1.i.i68 = phi ptr [ %retval.0.i.i59, %if.end.i.i66 ], [ %arrayidx.i.i61, %land.lhs.true.i.i78 ], [ %arrayidx.i.i61, %for.cond.i.i58 ]
  %cond.i.i69 = phi i1 [ true, %if.end.i.i66 ], [ false, %land.lhs.true.i.i78 ], [ false, %for.cond.i.i58 ]
  %add.i.i77 = add i32 %at.0.i.i60, 1
  br i1 %cond.i.i69, label %for.cond.i.i58, label %place_of.exit.i70, !llvm.loop !33

place_of.exit.i70:                                ; preds = %cleanup.i.i67
  %v32 = load ptr, ptr %retval.1.i.i68, align 4, !tbaa !12
  %tobool.not.i71 = icmp eq ptr %v32, null
  br i1 %tobool.not.i71, label %table_remove.exit, label %if.end4.i

if.end4.i:                                        ; preds = %place_of.exit.i70
  call void @free(ptr noundef %v32)
  store ptr null, ptr %retval.1.i.i68, align 4, !tbaa !12
  %dec.i73 = add i32 %table.sroa.25.4181, -1
  %sub.ptr.lhs.cast.i = ptrtoint ptr %retval.1.i.i68 to i32
  %sub.ptr.sub.i = sub i32 %sub.ptr.lhs.cast.i, %sub.ptr.rhs.cast.i
  %sub.ptr.div.i = ashr exact i32 %sub.ptr.sub.i, 4
  %add.pn28.i = add nsw i32 %sub.ptr.div.i, 1
  %at.029.i = and i32 %add.pn28.i, %sub.i.i55
  %arrayidx30.i = getelementptr inbounds %struct.table, ptr %table.sroa.0.0.lcssa, i32 %at.029.i
  %v33 = load ptr, ptr %arrayidx30.i, align 4, !tbaa !12
  %tobool10.not31.i = icmp eq ptr %v33, null
  br i1 %tobool10.not31.i, label %table_remove.exit, label %for.body.i74

for.body.i74:                                     ; preds = %cleanup.i, %if.end4.i
  %arrayidx34.i = phi ptr [ %arrayidx.i75, %cleanup.i ], [ %arrayidx30.i, %if.end4.i ]
  %at.033.i = phi i32 [ %at.0.i, %cleanup.i ], [ %at.029.i, %if.end4.i ]
  %gap.032.i = phi i32 [ %gap.1.i, %cleanup.i ], [ %sub.ptr.div.i, %if.end4.i ]
  %hash.i = getelementptr inbounds i8, ptr %arrayidx34.i, i32 4
  %v34 = load i32, ptr %hash.i, align 4, !tbaa !16
  %and13.i = and i32 %v34, %sub.i.i55
  %sub14.i = sub i32 %at.033.i, %and13.i
  %and15.i = and i32 %sub14.i, %sub.i.i55
  %sub16.i = sub i32 %at.033.i, %gap.032.i
  %and17.i = and i32 %sub16.i, %sub.i.i55
  %cmp18.i = icmp ult i32 %and15.i, %and17.i
  br i1 %cmp18.i, label %cleanup.i, label %if.end20.i

if.end20.i:                                       ; preds = %for.body.i74
  %arrayidx22.i = getelementptr inbounds %struct.table, ptr %table.sroa.0.0.lcssa, i32 %gap.032.i
  call void @llvm.memcpy.p0.p0.i32(ptr noundef nonnull align 4 dereferenceable(16) %arrayidx22.i, ptr noundef nonnull align 4 dereferenceable(16) %arrayidx34.i, i32 16, i1 false), !tbaa.struct !18
  %arrayidx26.i = getelementptr inbounds %struct.table, ptr %table.sroa.0.0.lcssa, i32 %at.033.i
  store ptr null, ptr %arrayidx26.i, align 4, !tbaa !12
  br label %cleanup.i

cleanup.i:                                        ; preds = %if.end20.i, %for.body.i74
  %gap.1.i = phi i32 [ %at.033.i, %if.end20.i ], [ %gap.032.i, %for.body.i74 ]
  %add.pn.i = add i32 %at.033.i, 1
  %at.0.i = and i32 %add.pn.i, %sub.i.i55
  %arrayidx.i75 = getelementptr inbounds %struct.table, ptr %table.sroa.0.0.lcssa, i32 %at.0.i
  %v35 = load ptr, ptr %arrayidx.i75, align 4, !tbaa !12
  %tobool10.not.i = icmp eq ptr %v35, null
  br i1 %tobool10.not.i, label %table_remove.exit, label %for.body.i74, !llvm.loop !34

table_remove.exit:                                ; preds = %cleanup.i, %if.end4.i, %place_of.exit.i70, %for.body14
  %table.sroa.25.5 = phi i32 [ %table.sroa.25.4181, %for.body14 ], [ %table.sroa.25.4181, %place_of.exit.i70 ], [ %dec.i73, %if.end4.i ], [ %dec.i73, %cleanup.i ]
  %inc15 = add nuw nsw i32 %k.0183, 1
  %exitcond198.not = icmp eq i32 %inc15, 9
  br i1 %exitcond198.not, label %for.cond.cleanup13, label %for.body14, !llvm.loop !35

if.then28:                                        ; preds = %histogram.exit
  %v36 = load ptr, ptr %call.i22, align 4, !tbaa !19
  %v37 = load ptr, ptr %v36, align 4, !tbaa !12
  %v38 = getelementptr ptr, ptr %call.i22, i32 %table.sroa.25.5
  %arrayidx32 = getelementptr i8, ptr %v38, i32 -4
  %v39 = load ptr, ptr %arrayidx32, align 4, !tbaa !19
  %v40 = load ptr, ptr %v39, align 4, !tbaa !12
  %print.194.0 = call i32 @__print_text(ptr nonnull getelementptr inbounds (i8, ptr @__streams, i32 12), ptr nonnull @.str.5, i32 5) #15
  %print.194.1 = call i32 @__print_string(ptr nonnull getelementptr inbounds (i8, ptr @__streams, i32 12), ptr %v37, i32 0, i32 0, i32 -1) #15
  %print.194.2 = call i32 @__print_text(ptr nonnull getelementptr inbounds (i8, ptr @__streams, i32 12), ptr nonnull getelementptr inbounds (i8, ptr @.str.5, i32 7), i32 4) #15
  %print.194.3 = call i32 @__print_string(ptr nonnull getelementptr inbounds (i8, ptr @__streams, i32 12), ptr %v40, i32 0, i32 0, i32 -1) #15
  %print.194.4 = call i32 @__print_text(ptr nonnull getelementptr inbounds (i8, ptr @__streams, i32 12), ptr nonnull getelementptr inbounds (i8, ptr @.str.5, i32 13), i32 1) #15
  br label %if.end35

if.end35:                                         ; preds = %if.then28, %histogram.exit
  call void @free(ptr noundef %call.i22)
  br i1 %cmp.i40, label %table_free.exit, label %for.body.i82

for.body.i82:                                     ; preds = %for.body.i82, %if.end35
  %k.07.i = phi i32 [ %inc.i84, %for.body.i82 ], [ 0, %if.end35 ]
  %arrayidx.i83 = getelementptr inbounds %struct.table, ptr %table.sroa.0.0.lcssa, i32 %k.07.i
  %v41 = load ptr, ptr %arrayidx.i83, align 4, !tbaa !12
  call void @free(ptr noundef %v41)
  %inc.i84 = add nuw i32 %k.07.i, 1
  %exitcond199.not = icmp eq i32 %inc.i84, %table.sroa.16.0.lcssa
  br i1 %exitcond199.not, label %table_free.exit, label %for.body.i82, !llvm.loop !36

table_free.exit:                                  ; preds = %for.body.i82, %if.end35
  %rem = srem i32 %table.sroa.25.5, 100
  call void @free(ptr noundef %table.sroa.0.0.lcssa)
  call void @llvm.lifetime.end.p0(i64 24, ptr nonnull %word) #15
  call void @llvm.lifetime.end.p0(i64 400, ptr nonnull %line) #15
  ret i32 %rem
}

; Function Attrs: nocallback nofree nosync nounwind willreturn memory(argmem: readwrite)
declare void @llvm.lifetime.start.p0(i64 immarg, ptr nocapture) #1

; Function Attrs: nounwind optsize
define internal noundef ptr @fgets(ptr noalias noundef writeonly %to, i32 noundef signext %n, ptr noalias nocapture noundef %stream) local_unnamed_addr #2 {
entry:
  %cmp = icmp slt i32 %n, 1
  br i1 %cmp, label %cleanup, label %while.cond.preheader

while.cond.preheader:                             ; preds = %entry
  %cmp123.not = icmp eq i32 %n, 1
  br i1 %cmp123.not, label %if.end10, label %land.rhs

land.rhs:                                         ; preds = %while.body, %while.cond.preheader
  %dec25.in = phi i32 [ %dec25, %while.body ], [ %n, %while.cond.preheader ]
  %at.024 = phi ptr [ %incdec.ptr, %while.body ], [ %to, %while.cond.preheader ]
  %call = tail call i32 @fgetc(ptr noundef %stream) #20
  %cmp3.not = icmp eq i32 %call, -1
  br i1 %cmp3.not, label %while.end, label %while.body

while.body:                                       ; preds = %land.rhs
  %dec25 = add nsw i32 %dec25.in, -1
  %conv = trunc i32 %call to i8
  %incdec.ptr = getelementptr inbounds i8, ptr %at.024, i32 1
  store i8 %conv, ptr %at.024, align 1, !tbaa !7
  %cmp1 = icmp sgt i32 %dec25.in, 2
  %cmp2 = icmp ne i32 %call, 10
  %or.cond = and i1 %cmp1, %cmp2
  br i1 %or.cond, label %land.rhs, label %if.end10, !llvm.loop !37

while.end:                                        ; preds = %land.rhs
  %cmp7 = icmp eq ptr %at.024, %to
  br i1 %cmp7, label %cleanup, label %if.end10

if.end10:                                         ; preds = %while.end, %while.body, %while.cond.preheader
  %at.021 = phi ptr [ %at.024, %while.end ], [ %to, %while.cond.preheader ], [ %incdec.ptr, %while.body ]
  store i8 0, ptr %at.021, align 1, !tbaa !7
  br label %cleanup

cleanup:                                          ; preds = %if.end10, %while.end, %entry
  %retval.0 = phi ptr [ %to, %if.end10 ], [ null, %entry ], [ null, %while.end ]
  ret ptr %retval.0
}

; Function Attrs: mustprogress nofree norecurse nosync nounwind optsize willreturn memory(none)
define internal range(i32 0, 2) i32 @isalnum(i32 noundef signext %c) local_unnamed_addr #3 {
entry:
  %v0 = and i32 %c, -33
  %v1 = add i32 %v0, -65
  %narrow.i = icmp ult i32 %v1, 26
  %v2 = add i32 %c, -48
  %v3 = icmp ult i32 %v2, 10
  %narrow = or i1 %v3, %narrow.i
  %lor.ext = zext i1 %narrow to i32
  ret i32 %lor.ext
}

; Function Attrs: mustprogress nofree norecurse nosync nounwind optsize willreturn memory(none)
define internal range(i32 0, 2) i32 @isalpha(i32 noundef signext %c) local_unnamed_addr #3 {
entry:
  %v0 = and i32 %c, -33
  %v1 = add i32 %v0, -65
  %narrow = icmp ult i32 %v1, 26
  %lor.ext = zext i1 %narrow to i32
  ret i32 %lor.ext
}

; Function Attrs: mustprogress nofree norecurse nosync nounwind optsize willreturn memory(none)
define internal i32 @tolower(i32 noundef signext %c) local_unnamed_addr #3 {
entry:
  %v0 = add i32 %c, -91
  %v1 = icmp ult i32 %v0, -26
  %sub = add nuw nsw i32 %c, 32
  %cond = select i1 %v1, i32 %c, i32 %sub
  ret i32 %cond
}

; Function Attrs: mustprogress nofree nounwind willreturn allockind("alloc,zeroed") allocsize(0,1) memory(inaccessiblemem: readwrite)
declare dso_local noalias noundef ptr @calloc(i32 noundef signext, i32 noundef signext) local_unnamed_addr #4

; Function Attrs: noreturn nounwind
declare dso_local void @abort() local_unnamed_addr #5

; Function Attrs: nofree norecurse nosync nounwind optsize memory(read, inaccessiblemem: none)
define internal range(i32 -1, 2) i32 @strcmp(ptr nocapture noundef readonly %a, ptr nocapture noundef readonly %b) local_unnamed_addr #6 {
entry:
  %v0 = load i8, ptr %a, align 1, !tbaa !7
  %tobool.not20 = icmp eq i8 %v0, 0
  br i1 %tobool.not20, label %while.end, label %land.rhs

land.rhs:                                         ; preds = %while.body, %entry
  %v1 = phi i8 [ %v3, %while.body ], [ %v0, %entry ]
  %t.022 = phi ptr [ %incdec.ptr4, %while.body ], [ %b, %entry ]
  %s.021 = phi ptr [ %incdec.ptr, %while.body ], [ %a, %entry ]
  %v2 = load i8, ptr %t.022, align 1, !tbaa !7
  %cmp = icmp eq i8 %v1, %v2
  br i1 %cmp, label %while.body, label %while.end

while.body:                                       ; preds = %land.rhs
  %incdec.ptr = getelementptr inbounds i8, ptr %s.021, i32 1
  %incdec.ptr4 = getelementptr inbounds i8, ptr %t.022, i32 1
  %v3 = load i8, ptr %incdec.ptr, align 1, !tbaa !7
  %tobool.not = icmp eq i8 %v3, 0
  br i1 %tobool.not, label %while.end, label %land.rhs, !llvm.loop !38

while.end:                                        ; preds = %while.body, %land.rhs, %entry
  %t.0.lcssa = phi ptr [ %b, %entry ], [ %incdec.ptr4, %while.body ], [ %t.022, %land.rhs ]
  %.lcssa = phi i8 [ 0, %entry ], [ 0, %while.body ], [ %v1, %land.rhs ]
  %v4 = load i8, ptr %t.0.lcssa, align 1, !tbaa !7
  %cmp7 = icmp ult i8 %.lcssa, %v4
  %cmp11 = icmp ugt i8 %.lcssa, %v4
  %conv12 = zext i1 %cmp11 to i32
  %cond = select i1 %cmp7, i32 -1, i32 %conv12
  ret i32 %cond
}

; Function Attrs: nocallback nofree nounwind willreturn memory(argmem: readwrite)
declare void @llvm.memcpy.p0.p0.i32(ptr noalias nocapture writeonly, ptr noalias nocapture readonly, i32, i1 immarg) #7

; Function Attrs: mustprogress nounwind willreturn allockind("free") memory(argmem: readwrite, inaccessiblemem: readwrite)
declare dso_local void @free(ptr allocptr nocapture noundef) local_unnamed_addr #8

; Function Attrs: nounwind optsize
define internal ptr @strdup(ptr nocapture noundef readonly %from) local_unnamed_addr #2 {
entry:
  %call = tail call ptr @strndup(ptr noundef %from, i32 noundef signext -1) #20
  ret ptr %call
}

; Function Attrs: nounwind optsize
define internal i32 @__print_unsigned(ptr nocapture noundef %stream, i64 noundef zeroext %n, i32 noundef signext %base, i32 noundef signext %flags, i32 noundef signext %width, i32 noundef signext %precision) local_unnamed_addr #2 {
entry:
  %room = alloca [24 x i8], align 1
  call void @llvm.lifetime.start.p0(i64 24, ptr nonnull %room) #15
  %and.i = and i32 %flags, 32
  %tobool.not.i = icmp eq i32 %and.i, 0
  %cond.i = select i1 %tobool.not.i, ptr @.str.9.24, ptr @.str.8.30
  %cmp.i = icmp ult i64 %n, 4294967296
  br i1 %cmp.i, label %if.then.i, label %for.cond3.preheader.i

for.cond3.preheader.i:                            ; preds = %entry
  %conv7.i = zext i32 %base to i64
  br label %for.body6.i

if.then.i:                                        ; preds = %entry
  %conv.i = trunc nuw i64 %n to i32
  %cmp1.not31.i = icmp eq i32 %conv.i, 0
  br i1 %cmp1.not31.i, label %spelled.exit, label %for.body.i

for.body.i:                                       ; preds = %for.body.i, %if.then.i
  %k.033.i = phi i32 [ %div.i, %for.body.i ], [ %conv.i, %if.then.i ]
  %end.addr.032.i.idx = phi i32 [ %end.addr.032.i.add, %for.body.i ], [ 24, %if.then.i ]
  %rem.i = urem i32 %k.033.i, %base
  %arrayidx.i = getelementptr inbounds i8, ptr %cond.i, i32 %rem.i
  %v0 = load i8, ptr %arrayidx.i, align 1, !tbaa !7
  %end.addr.032.i.add = add nsw i32 %end.addr.032.i.idx, -1
  %incdec.ptr.i.ptr = getelementptr inbounds i8, ptr %room, i32 %end.addr.032.i.add
  store i8 %v0, ptr %incdec.ptr.i.ptr, align 1, !tbaa !7
  %div.i = udiv i32 %k.033.i, %base
  %cmp1.not.i = icmp ult i32 %k.033.i, %base
  br i1 %cmp1.not.i, label %spelled.exit, label %for.body.i, !llvm.loop !39

for.body6.i:                                      ; preds = %for.body6.i, %for.cond3.preheader.i
  %end.addr.130.i.idx = phi i32 [ 24, %for.cond3.preheader.i ], [ %end.addr.130.i.add, %for.body6.i ]
  %n.addr.029.i = phi i64 [ %n, %for.cond3.preheader.i ], [ %div13.i, %for.body6.i ]
  %div13.i = udiv i64 %n.addr.029.i, %conv7.i
  %v1 = mul i64 %div13.i, %conv7.i
  %rem8.i.decomposed = sub i64 %n.addr.029.i, %v1
  %idxprom.i = trunc nuw i64 %rem8.i.decomposed to i32
  %arrayidx9.i = getelementptr inbounds i8, ptr %cond.i, i32 %idxprom.i
  %v2 = load i8, ptr %arrayidx9.i, align 1, !tbaa !7
  %end.addr.130.i.add = add nsw i32 %end.addr.130.i.idx, -1
  %incdec.ptr10.i.ptr = getelementptr inbounds i8, ptr %room, i32 %end.addr.130.i.add
  store i8 %v2, ptr %incdec.ptr10.i.ptr, align 1, !tbaa !7
  %cmp4.not.i = icmp ult i64 %n.addr.029.i, %conv7.i
  br i1 %cmp4.not.i, label %spelled.exit, label %for.body6.i, !llvm.loop !40

spelled.exit:                                     ; preds = %for.body6.i, %for.body.i, %if.then.i
  %retval.0.i.idx = phi i32 [ 24, %if.then.i ], [ %end.addr.032.i.add, %for.body.i ], [ %end.addr.130.i.add, %for.body6.i ]
  %cmp = icmp eq i64 %n, 0
  %cmp1 = icmp ne i32 %precision, 0
  %or.cond = and i1 %cmp, %cmp1
  br i1 %or.cond, label %if.then, label %if.end

if.then:                                          ; preds = %spelled.exit
  %retval.0.i.add = add nsw i32 %retval.0.i.idx, -1
  %incdec.ptr.ptr = getelementptr inbounds i8, ptr %room, i32 %retval.0.i.add
  store i8 48, ptr %incdec.ptr.ptr, align 1, !tbaa !7
  br label %if.end

if.end:                                           ; preds = %if.then, %spelled.exit
  %at.0.idx = phi i32 [ %retval.0.i.add, %if.then ], [ %retval.0.i.idx, %spelled.exit ]
  %at.0.ptr = getelementptr inbounds i8, ptr %room, i32 %at.0.idx
  %and = and i32 %flags, 8
  %tobool = icmp ne i32 %and, 0
  %cmp13 = icmp eq i32 %base, 8
  %or.cond29 = and i1 %cmp13, %tobool
  %gepdiff = sub nsw i32 24, %at.0.idx
  %cmp15.not = icmp sge i32 %gepdiff, %precision
  %or.cond49.not = select i1 %or.cond29, i1 %cmp15.not, i1 false
  br i1 %or.cond49.not, label %land.lhs.true16, label %if.end22

land.lhs.true16:                                  ; preds = %if.end
  %cmp17 = icmp eq i32 %at.0.idx, 24
  br i1 %cmp17, label %if.then20, label %lor.lhs.false

lor.lhs.false:                                    ; preds = %land.lhs.true16
  %v3 = load i8, ptr %at.0.ptr, align 1, !tbaa !7
  %cmp18.not = icmp eq i8 %v3, 48
  br i1 %cmp18.not, label %if.end22, label %if.then20

if.then20:                                        ; preds = %lor.lhs.false, %land.lhs.true16
  %incdec.ptr21 = getelementptr inbounds i8, ptr %at.0.ptr, i32 -1
  store i8 48, ptr %incdec.ptr21, align 1, !tbaa !7
  br label %if.end22

if.end22:                                         ; preds = %if.then20, %lor.lhs.false, %if.end
  %at.1 = phi ptr [ %incdec.ptr21, %if.then20 ], [ %at.0.ptr, %lor.lhs.false ], [ %at.0.ptr, %if.end ]
  %add.ptr.ptr = getelementptr inbounds i8, ptr %room, i32 24
  %sub.ptr.lhs.cast = ptrtoint ptr %add.ptr.ptr to i32
  %cmp3 = icmp eq i32 %base, 16
  %cmp5 = icmp ne i64 %n, 0
  %v4 = and i1 %cmp5, %cmp3
  %or.cond28 = and i1 %v4, %tobool
  %cond = select i1 %tobool.not.i, ptr @.str.6.31, ptr @.str.5.32
  %front.0 = select i1 %or.cond28, ptr %cond, ptr @.str.18
  %sub.ptr.rhs.cast24 = ptrtoint ptr %at.1 to i32
  %sub.ptr.sub25 = sub i32 %sub.ptr.lhs.cast, %sub.ptr.rhs.cast24
  %call26 = call fastcc i32 @number(ptr noundef %stream, ptr noundef nonnull %front.0, ptr noundef nonnull %at.1, i32 noundef signext %sub.ptr.sub25, i32 noundef signext %flags, i32 noundef signext %width, i32 noundef signext %precision) #20
  call void @llvm.lifetime.end.p0(i64 24, ptr nonnull %room) #15
  ret i32 %call26
}

; Function Attrs: nounwind optsize
define internal noundef i32 @__print_text(ptr nocapture noundef %stream, ptr nocapture noundef readonly %text, i32 noundef returned signext %n) local_unnamed_addr #2 {
entry:
  %v0 = load i8, ptr %stream, align 4, !tbaa !41, !alias.scope !43, !noalias !46
  %cmp.i = icmp eq i8 %v0, 0
  %cmp210.not.i = icmp eq i32 %n, 0
  %or.cond = or i1 %cmp210.not.i, %cmp.i
  br i1 %or.cond, label %fwrite.exit, label %for.body.i

for.body.i:                                       ; preds = %for.body.i, %entry
  %k.011.i = phi i32 [ %inc.i, %for.body.i ], [ 0, %entry ]
  %arrayidx.i = getelementptr inbounds i8, ptr %text, i32 %k.011.i
  %v1 = load i8, ptr %arrayidx.i, align 1, !tbaa !7, !alias.scope !46, !noalias !43
  %conv4.i = zext i8 %v1 to i32
  %call.i = tail call i32 @fputc(i32 noundef signext %conv4.i, ptr noundef nonnull %stream) #20, !noalias !46
  %inc.i = add nuw i32 %k.011.i, 1
  %exitcond.not.i = icmp eq i32 %inc.i, %n
  br i1 %exitcond.not.i, label %fwrite.exit, label %for.body.i, !llvm.loop !48

fwrite.exit:                                      ; preds = %for.body.i, %entry
  ret i32 %n
}

; Function Attrs: mustprogress nofree nounwind willreturn allockind("alloc,uninitialized") allocsize(0) memory(inaccessiblemem: readwrite)
declare dso_local noalias noundef ptr @malloc(i32 noundef signext) local_unnamed_addr #9

; Function Attrs: mustprogress nofree nounwind willreturn memory(read, inaccessiblemem: none)
define internal i32 @by_count(ptr nocapture noundef readonly %a, ptr nocapture noundef readonly %b) #10 {
entry:
  %v0 = load ptr, ptr %a, align 4, !tbaa !19
  %v1 = load ptr, ptr %b, align 4, !tbaa !19
  %count = getelementptr inbounds i8, ptr %v0, i32 8
  %v2 = load i32, ptr %count, align 4, !tbaa !24
  %count1 = getelementptr inbounds i8, ptr %v1, i32 8
  %v3 = load i32, ptr %count1, align 4, !tbaa !24
  %cmp.not = icmp eq i32 %v2, %v3
  br i1 %cmp.not, label %if.end, label %if.then

if.then:                                          ; preds = %entry
  %cmp4 = icmp ult i32 %v2, %v3
  %cond = select i1 %cmp4, i32 1, i32 -1
  br label %cleanup

if.end:                                           ; preds = %entry
  %v4 = load ptr, ptr %v0, align 4, !tbaa !12
  %v5 = load ptr, ptr %v1, align 4, !tbaa !12
  %call = tail call i32 @strcmp(ptr noundef nonnull dereferenceable(1) %v4, ptr noundef nonnull dereferenceable(1) %v5) #15
  br label %cleanup

cleanup:                                          ; preds = %if.end, %if.then
  %retval.0 = phi i32 [ %cond, %if.then ], [ %call, %if.end ]
  ret i32 %retval.0
}

; Function Attrs: nounwind optsize
define internal void @qsort(ptr noundef %base, i32 noundef signext %count, i32 noundef signext %size, ptr noundef %compare) local_unnamed_addr #2 {
entry:
  %cmp = icmp ult i32 %count, 2
  %cmp1 = icmp eq i32 %size, 0
  %or.cond = or i1 %cmp, %cmp1
  br i1 %or.cond, label %cleanup.cont, label %if.end

if.end:                                           ; preds = %entry
  %div14 = lshr i32 %count, 1
  %mul = mul i32 %div14, %size
  %call = tail call ptr @malloc(i32 noundef signext %mul) #21
  %tobool.not = icmp eq ptr %call, null
  br i1 %tobool.not, label %for.body.i, label %if.end3

for.body.i:                                       ; preds = %for.body.i, %if.end
  %k.022.i = phi i32 [ %dec.i, %for.body.i ], [ %div14, %if.end ]
  %dec.i = add nsw i32 %k.022.i, -1
  tail call fastcc void @sink(ptr noundef %base, i32 noundef signext %dec.i, i32 noundef signext %count, i32 noundef signext %size, ptr noundef readonly %compare) #20
  %cmp.not.i = icmp eq i32 %dec.i, 0
  br i1 %cmp.not.i, label %while.body.i.preheader.i, label %for.body.i, !llvm.loop !49

while.body.i.preheader.i:                         ; preds = %swap.exit.i, %for.body.i
  %k1.024.i = phi i32 [ %dec3.i, %swap.exit.i ], [ %count, %for.body.i ]
  %dec3.i = add i32 %k1.024.i, -1
  %mul.i = mul i32 %dec3.i, %size
  %add.ptr.i = getelementptr inbounds i8, ptr %base, i32 %mul.i
  br label %while.body.i.i

while.body.i.i:                                   ; preds = %while.body.i.i, %while.body.i.preheader.i
  %a.addr.07.i.i = phi ptr [ %incdec.ptr.i.i, %while.body.i.i ], [ %base, %while.body.i.preheader.i ]
  %size.addr.06.i.i = phi i32 [ %dec.i.i, %while.body.i.i ], [ %size, %while.body.i.preheader.i ]
  %b.addr.05.i.i = phi ptr [ %incdec.ptr1.i.i, %while.body.i.i ], [ %add.ptr.i, %while.body.i.preheader.i ]
  %dec.i.i = add i32 %size.addr.06.i.i, -1
  %v0 = load i8, ptr %a.addr.07.i.i, align 1, !tbaa !7
  %v1 = load i8, ptr %b.addr.05.i.i, align 1, !tbaa !7
  %incdec.ptr.i.i = getelementptr inbounds i8, ptr %a.addr.07.i.i, i32 1
  store i8 %v1, ptr %a.addr.07.i.i, align 1, !tbaa !7
  %incdec.ptr1.i.i = getelementptr inbounds i8, ptr %b.addr.05.i.i, i32 1
  store i8 %v0, ptr %b.addr.05.i.i, align 1, !tbaa !7
  %cmp.not.i.i = icmp eq i32 %dec.i.i, 0
  br i1 %cmp.not.i.i, label %swap.exit.i, label %while.body.i.i, !llvm.loop !50

swap.exit.i:                                      ; preds = %while.body.i.i
  tail call fastcc void @sink(ptr noundef %base, i32 noundef signext 0, i32 noundef signext %dec3.i, i32 noundef signext %size, ptr noundef readonly %compare) #20
  %cmp4.i = icmp ugt i32 %dec3.i, 1
  br i1 %cmp4.i, label %while.body.i.preheader.i, label %cleanup.cont, !llvm.loop !51

if.end3:                                          ; preds = %if.end
  tail call fastcc void @merge_sort(ptr noundef %base, i32 noundef signext %count, i32 noundef signext %size, ptr noundef %compare, ptr noundef nonnull %call) #20
  tail call void @free(ptr noundef nonnull %call) #21
  br label %cleanup.cont

cleanup.cont:                                     ; preds = %if.end3, %swap.exit.i, %entry
  ret void
}

; Function Attrs: nocallback nofree nosync nounwind speculatable willreturn memory(none)
declare i32 @llvm.umin.i32(i32, i32) #11

; Function Attrs: nounwind optsize
define internal i32 @__print_string(ptr nocapture noundef %stream, ptr noundef %text, i32 noundef signext %flags, i32 noundef signext %width, i32 noundef signext %precision) local_unnamed_addr #2 {
entry:
  %tobool.not = icmp eq ptr %text, null
  %v0 = icmp ult i32 %precision, 6
  %cond = select i1 %v0, ptr @.str.18, ptr @.str.1.19
  %text.addr.0 = select i1 %tobool.not, ptr %cond, ptr %text
  %cmp2 = icmp slt i32 %precision, 0
  br i1 %cmp2, label %while.cond.i, label %cond.false

while.cond.i:                                     ; preds = %while.cond.i, %entry
  %s.0.i = phi ptr [ %incdec.ptr.i, %while.cond.i ], [ %text.addr.0, %entry ]
  %v1 = load i8, ptr %s.0.i, align 1, !tbaa !7
  %tobool.not.i = icmp eq i8 %v1, 0
  %incdec.ptr.i = getelementptr inbounds i8, ptr %s.0.i, i32 1
  br i1 %tobool.not.i, label %strlen.exit, label %while.cond.i, !llvm.loop !52

strlen.exit:                                      ; preds = %while.cond.i
  %sub.ptr.lhs.cast.i = ptrtoint ptr %s.0.i to i32
  %sub.ptr.rhs.cast.i = ptrtoint ptr %text.addr.0 to i32
  %sub.ptr.sub.i = sub i32 %sub.ptr.lhs.cast.i, %sub.ptr.rhs.cast.i
  br label %cond.end

cond.false:                                       ; preds = %entry
  %cmp4.not.i = icmp eq i32 %precision, 0
  br i1 %cmp4.not.i, label %cond.end, label %land.rhs.i

land.rhs.i:                                       ; preds = %while.body.i, %cond.false
  %k.05.i = phi i32 [ %inc.i, %while.body.i ], [ 0, %cond.false ]
  %arrayidx.i = getelementptr inbounds i8, ptr %text.addr.0, i32 %k.05.i
  %v2 = load i8, ptr %arrayidx.i, align 1, !tbaa !7
  %tobool.not.i12 = icmp eq i8 %v2, 0
  br i1 %tobool.not.i12, label %cond.end, label %while.body.i

while.body.i:                                     ; preds = %land.rhs.i
  %inc.i = add nuw nsw i32 %k.05.i, 1
  %exitcond.not.i = icmp eq i32 %inc.i, %precision
  br i1 %exitcond.not.i, label %cond.end, label %land.rhs.i, !llvm.loop !53

cond.end:                                         ; preds = %while.body.i, %land.rhs.i, %cond.false, %strlen.exit
  %cond4 = phi i32 [ %sub.ptr.sub.i, %strlen.exit ], [ 0, %cond.false ], [ %k.05.i, %land.rhs.i ], [ %precision, %while.body.i ]
  %call5 = tail call fastcc i32 @padded(ptr noundef %stream, ptr noundef nonnull %text.addr.0, i32 noundef signext %cond4, i32 noundef signext %flags, i32 noundef signext %width) #20
  ret i32 %call5
}

; Function Attrs: nocallback nofree nounwind willreturn memory(argmem: write)
declare void @llvm.memset.p0.i32(ptr nocapture writeonly, i8, i32, i1 immarg) #12

; Function Attrs: nofree norecurse nosync nounwind optsize memory(read, inaccessiblemem: none)
define internal noundef i32 @strlen(ptr noundef %at) local_unnamed_addr #6 {
entry:
  br label %while.cond

while.cond:                                       ; preds = %while.cond, %entry
  %s.0 = phi ptr [ %at, %entry ], [ %incdec.ptr, %while.cond ]
  %v0 = load i8, ptr %s.0, align 1, !tbaa !7
  %tobool.not = icmp eq i8 %v0, 0
  %incdec.ptr = getelementptr inbounds i8, ptr %s.0, i32 1
  br i1 %tobool.not, label %while.end, label %while.cond, !llvm.loop !52

while.end:                                        ; preds = %while.cond
  %sub.ptr.lhs.cast = ptrtoint ptr %s.0 to i32
  %sub.ptr.rhs.cast = ptrtoint ptr %at to i32
  %sub.ptr.sub = sub i32 %sub.ptr.lhs.cast, %sub.ptr.rhs.cast
  ret i32 %sub.ptr.sub
}

; Function Attrs: nounwind optsize
define internal i32 @__print_signed(ptr nocapture noundef %stream, i64 noundef signext %n, i32 noundef signext %flags, i32 noundef signext %width, i32 noundef signext %precision) local_unnamed_addr #2 {
entry:
  %room = alloca [24 x i8], align 1
  call void @llvm.lifetime.start.p0(i64 24, ptr nonnull %room) #15
  %add.ptr = getelementptr inbounds i8, ptr %room, i32 24
  %cmp = icmp slt i64 %n, 0
  %shr.i = lshr i64 %n, 63
  %tobool.i = icmp ne i64 %shr.i, 0
  %sub.i = sub i64 0, %n
  %cond.i = select i1 %tobool.i, i64 %sub.i, i64 %n
  %cmp.i = icmp ult i64 %cond.i, 4294967296
  br i1 %cmp.i, label %if.then.i, label %for.body6.i

if.then.i:                                        ; preds = %entry
  %conv.i = trunc nuw i64 %cond.i to i32
  %cmp1.not31.i = icmp eq i32 %conv.i, 0
  br i1 %cmp1.not31.i, label %spelled.exit, label %for.body.i

for.body.i:                                       ; preds = %for.body.i, %if.then.i
  %k.033.i = phi i32 [ %div.i, %for.body.i ], [ %conv.i, %if.then.i ]
  %end.addr.032.i = phi ptr [ %incdec.ptr.i, %for.body.i ], [ %add.ptr, %if.then.i ]
  %rem.i = urem i32 %k.033.i, 10
  %arrayidx.i = getelementptr inbounds i8, ptr @.str.9.24, i32 %rem.i
  %v0 = load i8, ptr %arrayidx.i, align 1, !tbaa !7
  %incdec.ptr.i = getelementptr inbounds i8, ptr %end.addr.032.i, i32 -1
  store i8 %v0, ptr %incdec.ptr.i, align 1, !tbaa !7
  %div.i = udiv i32 %k.033.i, 10
  %cmp1.not.i = icmp ult i32 %k.033.i, 10
  br i1 %cmp1.not.i, label %spelled.exit, label %for.body.i, !llvm.loop !39

for.body6.i:                                      ; preds = %for.body6.i, %entry
  %end.addr.130.i = phi ptr [ %incdec.ptr10.i, %for.body6.i ], [ %add.ptr, %entry ]
  %n.addr.029.i = phi i64 [ %div13.i, %for.body6.i ], [ %cond.i, %entry ]
  %div13.i = udiv i64 %n.addr.029.i, 10
  %v1 = mul i64 %div13.i, 10
  %rem8.i.decomposed = sub i64 %n.addr.029.i, %v1
  %idxprom.i = trunc nuw nsw i64 %rem8.i.decomposed to i32
  %arrayidx9.i = getelementptr inbounds i8, ptr @.str.9.24, i32 %idxprom.i
  %v2 = load i8, ptr %arrayidx9.i, align 1, !tbaa !7
  %incdec.ptr10.i = getelementptr inbounds i8, ptr %end.addr.130.i, i32 -1
  store i8 %v2, ptr %incdec.ptr10.i, align 1, !tbaa !7
  %cmp4.not.i = icmp ult i64 %n.addr.029.i, 10
  br i1 %cmp4.not.i, label %spelled.exit, label %for.body6.i, !llvm.loop !40

spelled.exit:                                     ; preds = %for.body6.i, %for.body.i, %if.then.i
  %retval.0.i = phi ptr [ %add.ptr, %if.then.i ], [ %incdec.ptr.i, %for.body.i ], [ %incdec.ptr10.i, %for.body6.i ]
  %cmp1 = icmp eq i64 %n, 0
  %cmp2 = icmp ne i32 %precision, 0
  %or.cond = and i1 %cmp1, %cmp2
  br i1 %or.cond, label %if.end.thread, label %if.end

if.end.thread:                                    ; preds = %spelled.exit
  %incdec.ptr = getelementptr inbounds i8, ptr %retval.0.i, i32 -1
  store i8 48, ptr %incdec.ptr, align 1, !tbaa !7
  br label %cond.false5

if.end:                                           ; preds = %spelled.exit
  br i1 %cmp, label %cond.end13, label %cond.false5

cond.false5:                                      ; preds = %if.end, %if.end.thread
  %at.027 = phi ptr [ %incdec.ptr, %if.end.thread ], [ %retval.0.i, %if.end ]
  %and = and i32 %flags, 2
  %tobool.not = icmp eq i32 %and, 0
  br i1 %tobool.not, label %cond.false7, label %cond.end13

cond.false7:                                      ; preds = %cond.false5
  %and8 = and i32 %flags, 4
  %tobool9.not = icmp eq i32 %and8, 0
  %cond10 = select i1 %tobool9.not, ptr @.str.18, ptr @.str.4.25
  br label %cond.end13

cond.end13:                                       ; preds = %cond.false7, %cond.false5, %if.end
  %at.028 = phi ptr [ %retval.0.i, %if.end ], [ %at.027, %cond.false7 ], [ %at.027, %cond.false5 ]
  %cond14 = phi ptr [ @.str.2.26, %if.end ], [ %cond10, %cond.false7 ], [ @.str.3.27, %cond.false5 ]
  %sub.ptr.lhs.cast = ptrtoint ptr %add.ptr to i32
  %sub.ptr.rhs.cast = ptrtoint ptr %at.028 to i32
  %sub.ptr.sub = sub i32 %sub.ptr.lhs.cast, %sub.ptr.rhs.cast
  %call15 = call fastcc i32 @number(ptr noundef %stream, ptr noundef nonnull %cond14, ptr noundef nonnull %at.028, i32 noundef signext %sub.ptr.sub, i32 noundef signext %flags, i32 noundef signext %width, i32 noundef signext %precision) #20
  call void @llvm.lifetime.end.p0(i64 24, ptr nonnull %room) #15
  ret i32 %call15
}

; Function Attrs: nounwind optsize
define internal i32 @__print_character(ptr nocapture noundef %stream, i32 noundef signext %c, i32 noundef signext %flags, i32 noundef signext %width) local_unnamed_addr #2 {
entry:
  %text = alloca i8, align 4
  call void @llvm.lifetime.start.p0(i64 1, ptr nonnull %text) #15
  %conv = trunc i32 %c to i8
  store i8 %conv, ptr %text, align 4, !tbaa !7
  %call = call fastcc i32 @padded(ptr noundef %stream, ptr noundef nonnull %text, i32 noundef signext 1, i32 noundef signext %flags, i32 noundef signext %width) #20
  call void @llvm.lifetime.end.p0(i64 1, ptr nonnull %text) #15
  ret i32 %call
}

; Function Attrs: nofree nounwind
declare dso_local noundef i32 @putchar(i32 noundef signext) local_unnamed_addr #13

; Function Attrs: nocallback nofree nosync nounwind willreturn memory(argmem: readwrite)
declare void @llvm.lifetime.end.p0(i64 immarg, ptr nocapture) #1

; Function Attrs: mustprogress nofree nounwind willreturn memory(read, inaccessiblemem: none)
define internal i32 @by_alphabet(ptr nocapture noundef readonly %a, ptr nocapture noundef readonly %b) #10 {
entry:
  %v0 = load ptr, ptr %a, align 4, !tbaa !19
  %v1 = load ptr, ptr %v0, align 4, !tbaa !12
  %v2 = load ptr, ptr %b, align 4, !tbaa !19
  %v3 = load ptr, ptr %v2, align 4, !tbaa !12
  %call = tail call i32 @strcmp(ptr noundef nonnull dereferenceable(1) %v1, ptr noundef nonnull dereferenceable(1) %v3) #15
  ret i32 %call
}

; Function Attrs: mustprogress nofree nounwind willreturn memory(read, inaccessiblemem: none)
define internal i32 @by_word(ptr nocapture noundef readonly %key, ptr nocapture noundef readonly %element) #10 {
entry:
  %v0 = load ptr, ptr %element, align 4, !tbaa !19
  %v1 = load ptr, ptr %v0, align 4, !tbaa !12
  %call = tail call i32 @strcmp(ptr noundef nonnull dereferenceable(1) %key, ptr noundef nonnull dereferenceable(1) %v1) #15
  ret i32 %call
}

; Function Attrs: nounwind optsize
define internal noundef ptr @bsearch(ptr noundef %key, ptr noundef %base, i32 noundef signext %count, i32 noundef signext %size, ptr nocapture noundef readonly %compare) local_unnamed_addr #2 {
entry:
  br label %while.cond

while.cond:                                       ; preds = %while.body, %entry
  %high.0 = phi i32 [ %count, %entry ], [ %high.1, %while.body ]
  %low.0 = phi i32 [ 0, %entry ], [ %low.1, %while.body ]
  %cmp = icmp ult i32 %low.0, %high.0
  br i1 %cmp, label %while.body, label %cleanup8

while.body:                                       ; preds = %while.cond
  %add = add i32 %low.0, %high.0
  %div16 = lshr i32 %add, 1
  %mul = mul i32 %div16, %size
  %add.ptr = getelementptr inbounds i8, ptr %base, i32 %mul
  %call = tail call i32 %compare(ptr noundef %key, ptr noundef %add.ptr) #21
  %cmp1.not = icmp eq i32 %call, 0
  %cmp2 = icmp slt i32 %call, 0
  %add4 = add nuw i32 %div16, 1
  %high.1 = select i1 %cmp2, i32 %div16, i32 %high.0
  %low.1 = select i1 %cmp2, i32 %low.0, i32 %add4
  br i1 %cmp1.not, label %cleanup8, label %while.cond, !llvm.loop !54

cleanup8:                                         ; preds = %while.body, %while.cond
  %retval.2 = phi ptr [ %add.ptr, %while.body ], [ null, %while.cond ]
  ret ptr %retval.2
}

; Function Attrs: nounwind optsize
define internal fastcc i32 @padded(ptr nocapture noundef %stream, ptr nocapture noundef readonly %text, i32 noundef signext %n, i32 noundef signext %flags, i32 noundef signext %width) unnamed_addr #2 {
entry:
  %cmp = icmp slt i32 %width, 0
  %shr.i = lshr i32 %width, 31
  %tobool.i = icmp ne i32 %shr.i, 0
  %sub.i = sub i32 0, %width
  %cond.i1 = select i1 %tobool.i, i32 %sub.i, i32 %width
  %sub1 = sub nsw i32 %cond.i1, %n
  %and = and i32 %flags, 1
  %tobool = icmp ne i32 %and, 0
  %v0 = or i1 %cmp, %tobool
  br i1 %v0, label %cond.end6, label %cond.false5

cond.false5:                                      ; preds = %entry
  %cmp5.i = icmp sgt i32 %sub1, 0
  br i1 %cmp5.i, label %for.body.i, label %repeated.exit

for.body.i:                                       ; preds = %for.body.i, %cond.false5
  %k.06.i = phi i32 [ %inc.i, %for.body.i ], [ 0, %cond.false5 ]
  %call.i = tail call i32 @fputc(i32 noundef signext 32, ptr noundef %stream) #20
  %inc.i = add nuw nsw i32 %k.06.i, 1
  %exitcond.not.i = icmp eq i32 %inc.i, %sub1
  br i1 %exitcond.not.i, label %repeated.exit, label %for.body.i, !llvm.loop !55

repeated.exit:                                    ; preds = %for.body.i, %cond.false5
  %cond.i = tail call noundef i32 @llvm.smax.i32(i32 %sub1, i32 0)
  br label %cond.end6

cond.end6:                                        ; preds = %repeated.exit, %entry
  %cond7 = phi i32 [ %cond.i, %repeated.exit ], [ 0, %entry ]
  %v1 = load i8, ptr %stream, align 4, !tbaa !41, !alias.scope !56, !noalias !59
  %cmp.i.i = icmp eq i8 %v1, 0
  %cmp210.not.i.i = icmp eq i32 %n, 0
  %or.cond.i = or i1 %cmp210.not.i.i, %cmp.i.i
  br i1 %or.cond.i, label %__print_text.exit, label %for.body.i.i

for.body.i.i:                                     ; preds = %for.body.i.i, %cond.end6
  %k.011.i.i = phi i32 [ %inc.i.i, %for.body.i.i ], [ 0, %cond.end6 ]
  %arrayidx.i.i = getelementptr inbounds i8, ptr %text, i32 %k.011.i.i
  %v2 = load i8, ptr %arrayidx.i.i, align 1, !tbaa !7, !alias.scope !59, !noalias !56
  %conv4.i.i = zext i8 %v2 to i32
  %call.i.i = tail call i32 @fputc(i32 noundef signext %conv4.i.i, ptr noundef nonnull %stream) #20, !noalias !59
  %inc.i.i = add nuw i32 %k.011.i.i, 1
  %exitcond.not.i.i = icmp eq i32 %inc.i.i, %n
  br i1 %exitcond.not.i.i, label %__print_text.exit, label %for.body.i.i, !llvm.loop !48

__print_text.exit:                                ; preds = %for.body.i.i, %cond.end6
  br i1 %v0, label %cond.true10, label %cond.end13

cond.true10:                                      ; preds = %__print_text.exit
  %cmp5.i25 = icmp sgt i32 %sub1, 0
  br i1 %cmp5.i25, label %for.body.i27, label %repeated.exit32

for.body.i27:                                     ; preds = %for.body.i27, %cond.true10
  %k.06.i28 = phi i32 [ %inc.i30, %for.body.i27 ], [ 0, %cond.true10 ]
  %call.i29 = tail call i32 @fputc(i32 noundef signext 32, ptr noundef nonnull %stream) #20
  %inc.i30 = add nuw nsw i32 %k.06.i28, 1
  %exitcond.not.i31 = icmp eq i32 %inc.i30, %sub1
  br i1 %exitcond.not.i31, label %repeated.exit32, label %for.body.i27, !llvm.loop !55

repeated.exit32:                                  ; preds = %for.body.i27, %cond.true10
  %cond.i26 = tail call noundef i32 @llvm.smax.i32(i32 %sub1, i32 0)
  br label %cond.end13

cond.end13:                                       ; preds = %repeated.exit32, %__print_text.exit
  %cond14 = phi i32 [ %cond.i26, %repeated.exit32 ], [ 0, %__print_text.exit ]
  %add = add nsw i32 %cond7, %n
  %add15 = add nsw i32 %add, %cond14
  ret i32 %add15
}

; Function Attrs: nounwind optsize
define internal range(i32 -1, 256) i32 @fputc(i32 noundef signext %c, ptr nocapture noundef %stream) local_unnamed_addr #2 {
entry:
  %v0 = load i8, ptr %stream, align 4, !tbaa !41
  switch i8 %v0, label %if.end18 [
    i8 1, label %if.then
    i8 3, label %land.lhs.true
    i8 0, label %return
  ]

if.then:                                          ; preds = %entry
  %call = tail call i32 @putchar(i32 noundef signext %c) #21
  br label %if.end18

land.lhs.true:                                    ; preds = %entry
  %left = getelementptr inbounds i8, ptr %stream, i32 8
  %v1 = load i32, ptr %left, align 4, !tbaa !61
  %cmp6.not = icmp eq i32 %v1, 0
  br i1 %cmp6.not, label %if.end18, label %if.then8

if.then8:                                         ; preds = %land.lhs.true
  %conv9 = trunc i32 %c to i8
  %at = getelementptr inbounds i8, ptr %stream, i32 4
  %v2 = load ptr, ptr %at, align 4, !tbaa !62
  %incdec.ptr = getelementptr inbounds i8, ptr %v2, i32 1
  store ptr %incdec.ptr, ptr %at, align 4, !tbaa !62
  store i8 %conv9, ptr %v2, align 1, !tbaa !7
  %v3 = load i32, ptr %left, align 4, !tbaa !61
  %dec = add i32 %v3, -1
  store i32 %dec, ptr %left, align 4, !tbaa !61
  br label %if.end18

if.end18:                                         ; preds = %if.then8, %land.lhs.true, %if.then, %entry
  %conv20 = and i32 %c, 255
  br label %return

return:                                           ; preds = %if.end18, %entry
  %retval.0 = phi i32 [ %conv20, %if.end18 ], [ -1, %entry ]
  ret i32 %retval.0
}

; Function Attrs: nocallback nofree nosync nounwind speculatable willreturn memory(none)
declare i32 @llvm.smax.i32(i32, i32) #11

; Function Attrs: nounwind optsize
define internal fastcc i32 @number(ptr nocapture noundef %stream, ptr noundef %front, ptr nocapture noundef readonly %digits, i32 noundef signext %n, i32 noundef signext %flags, i32 noundef signext %width, i32 noundef signext %precision) unnamed_addr #2 {
entry:
  br label %while.cond.i

while.cond.i:                                     ; preds = %while.cond.i, %entry
  %s.0.i = phi ptr [ %front, %entry ], [ %incdec.ptr.i, %while.cond.i ]
  %v0 = load i8, ptr %s.0.i, align 1, !tbaa !7
  %tobool.not.i = icmp eq i8 %v0, 0
  %incdec.ptr.i = getelementptr inbounds i8, ptr %s.0.i, i32 1
  br i1 %tobool.not.i, label %strlen.exit, label %while.cond.i, !llvm.loop !52

strlen.exit:                                      ; preds = %while.cond.i
  %sub.ptr.lhs.cast.i = ptrtoint ptr %s.0.i to i32
  %sub.ptr.rhs.cast.i = ptrtoint ptr %front to i32
  %sub.ptr.sub.i = sub i32 %sub.ptr.lhs.cast.i, %sub.ptr.rhs.cast.i
  %sub = sub nsw i32 %precision, %n
  %shr.i = lshr i32 %width, 31
  %tobool.i = icmp ne i32 %shr.i, 0
  %sub.i = sub i32 0, %width
  %cond.i1 = select i1 %tobool.i, i32 %sub.i, i32 %width
  %spec.store.select = tail call i32 @llvm.smax.i32(i32 %sub, i32 0)
  %cmp5 = icmp slt i32 %precision, 0
  %and = and i32 %flags, 16
  %tobool.not = icmp ne i32 %and, 0
  %or.cond.not94 = and i1 %tobool.not, %cmp5
  %flags.masked = and i32 %flags, 1
  %and7 = or i32 %shr.i, %flags.masked
  %tobool8.not = icmp eq i32 %and7, 0
  %or.cond65 = and i1 %or.cond.not94, %tobool8.not
  %add = add i32 %sub.ptr.sub.i, %n
  %cmp10 = icmp sgt i32 %cond.i1, %add
  %or.cond66 = select i1 %or.cond65, i1 %cmp10, i1 false
  %sub13 = sub i32 %cond.i1, %add
  %zeros.0 = select i1 %or.cond66, i32 %sub13, i32 %spec.store.select
  %v2 = add i32 %add, %zeros.0
  %sub17 = sub i32 %cond.i1, %v2
  br i1 %tobool8.not, label %if.then20, label %if.end23

if.then20:                                        ; preds = %strlen.exit
  %cmp5.i = icmp sgt i32 %sub17, 0
  br i1 %cmp5.i, label %for.body.i, label %repeated.exit

for.body.i:                                       ; preds = %for.body.i, %if.then20
  %k.06.i = phi i32 [ %inc.i, %for.body.i ], [ 0, %if.then20 ]
  %call.i = tail call i32 @fputc(i32 noundef signext 32, ptr noundef %stream) #20
  %inc.i = add nuw nsw i32 %k.06.i, 1
  %exitcond.not.i = icmp eq i32 %inc.i, %sub17
  br i1 %exitcond.not.i, label %repeated.exit, label %for.body.i, !llvm.loop !55

repeated.exit:                                    ; preds = %for.body.i, %if.then20
  %cond.i = tail call noundef i32 @llvm.smax.i32(i32 %sub17, i32 0)
  br label %if.end23

if.end23:                                         ; preds = %repeated.exit, %strlen.exit
  %count.0 = phi i32 [ 0, %strlen.exit ], [ %cond.i, %repeated.exit ]
  %v3 = load i8, ptr %stream, align 4, !tbaa !41, !alias.scope !63, !noalias !66
  %cmp.i.i = icmp eq i8 %v3, 0
  %cmp210.not.i.i = icmp eq ptr %s.0.i, %front
  %or.cond.i = or i1 %cmp210.not.i.i, %cmp.i.i
  br i1 %or.cond.i, label %__print_text.exit, label %for.body.i.i

for.body.i.i:                                     ; preds = %for.body.i.i, %if.end23
  %k.011.i.i = phi i32 [ %inc.i.i, %for.body.i.i ], [ 0, %if.end23 ]
  %arrayidx.i.i = getelementptr inbounds i8, ptr %front, i32 %k.011.i.i
  %v4 = load i8, ptr %arrayidx.i.i, align 1, !tbaa !7, !alias.scope !66, !noalias !63
  %conv4.i.i = zext i8 %v4 to i32
  %call.i.i = tail call i32 @fputc(i32 noundef signext %conv4.i.i, ptr noundef nonnull %stream) #20, !noalias !66
  %inc.i.i = add nuw i32 %k.011.i.i, 1
  %exitcond.not.i.i = icmp eq i32 %inc.i.i, %sub.ptr.sub.i
  br i1 %exitcond.not.i.i, label %__print_text.exit, label %for.body.i.i, !llvm.loop !48

__print_text.exit:                                ; preds = %for.body.i.i, %if.end23
  %cmp5.i67 = icmp sgt i32 %zeros.0, 0
  br i1 %cmp5.i67, label %for.body.i69, label %repeated.exit74

for.body.i69:                                     ; preds = %for.body.i69, %__print_text.exit
  %k.06.i70 = phi i32 [ %inc.i72, %for.body.i69 ], [ 0, %__print_text.exit ]
  %call.i71 = tail call i32 @fputc(i32 noundef signext 48, ptr noundef nonnull %stream) #20
  %inc.i72 = add nuw nsw i32 %k.06.i70, 1
  %exitcond.not.i73 = icmp eq i32 %inc.i72, %zeros.0
  br i1 %exitcond.not.i73, label %repeated.exit74, label %for.body.i69, !llvm.loop !55

repeated.exit74:                                  ; preds = %for.body.i69, %__print_text.exit
  %cond.i68 = tail call noundef i32 @llvm.smax.i32(i32 %zeros.0, i32 0)
  %v5 = load i8, ptr %stream, align 4, !tbaa !41, !alias.scope !68, !noalias !71
  %cmp.i.i75 = icmp eq i8 %v5, 0
  %cmp210.not.i.i76 = icmp eq i32 %n, 0
  %or.cond.i77 = or i1 %cmp210.not.i.i76, %cmp.i.i75
  br i1 %or.cond.i77, label %__print_text.exit85, label %for.body.i.i78

for.body.i.i78:                                   ; preds = %for.body.i.i78, %repeated.exit74
  %k.011.i.i79 = phi i32 [ %inc.i.i83, %for.body.i.i78 ], [ 0, %repeated.exit74 ]
  %arrayidx.i.i80 = getelementptr inbounds i8, ptr %digits, i32 %k.011.i.i79
  %v6 = load i8, ptr %arrayidx.i.i80, align 1, !tbaa !7, !alias.scope !71, !noalias !68
  %conv4.i.i81 = zext i8 %v6 to i32
  %call.i.i82 = tail call i32 @fputc(i32 noundef signext %conv4.i.i81, ptr noundef nonnull %stream) #20, !noalias !71
  %inc.i.i83 = add nuw i32 %k.011.i.i79, 1
  %exitcond.not.i.i84 = icmp eq i32 %inc.i.i83, %n
  br i1 %exitcond.not.i.i84, label %__print_text.exit85, label %for.body.i.i78, !llvm.loop !48

__print_text.exit85:                              ; preds = %for.body.i.i78, %repeated.exit74
  %add27 = add i32 %add, %cond.i68
  %add29 = add i32 %add27, %count.0
  br i1 %tobool8.not, label %if.end35, label %if.then32

if.then32:                                        ; preds = %__print_text.exit85
  %cmp5.i86 = icmp sgt i32 %sub17, 0
  br i1 %cmp5.i86, label %for.body.i88, label %repeated.exit93

for.body.i88:                                     ; preds = %for.body.i88, %if.then32
  %k.06.i89 = phi i32 [ %inc.i91, %for.body.i88 ], [ 0, %if.then32 ]
  %call.i90 = tail call i32 @fputc(i32 noundef signext 32, ptr noundef nonnull %stream) #20
  %inc.i91 = add nuw nsw i32 %k.06.i89, 1
  %exitcond.not.i92 = icmp eq i32 %inc.i91, %sub17
  br i1 %exitcond.not.i92, label %repeated.exit93, label %for.body.i88, !llvm.loop !55

repeated.exit93:                                  ; preds = %for.body.i88, %if.then32
  %cond.i87 = tail call noundef i32 @llvm.smax.i32(i32 %sub17, i32 0)
  %add34 = add nsw i32 %add29, %cond.i87
  br label %if.end35

if.end35:                                         ; preds = %repeated.exit93, %__print_text.exit85
  %count.1 = phi i32 [ %add34, %repeated.exit93 ], [ %add29, %__print_text.exit85 ]
  ret i32 %count.1
}

; Function Attrs: nounwind optsize
define internal fastcc void @sink(ptr noundef %base, i32 noundef signext %at, i32 noundef signext %count, i32 noundef signext %size, ptr nocapture noundef readonly %compare) unnamed_addr #2 {
entry:
  %mul41 = shl i32 %at, 1
  %add42 = or disjoint i32 %mul41, 1
  %cmp43 = icmp ult i32 %add42, %count
  br i1 %cmp43, label %for.body.lr.ph, label %cleanup

for.body.lr.ph:                                   ; preds = %entry
  %cmp.not4.i = icmp eq i32 %size, 0
  br label %for.body

for.body:                                         ; preds = %swap.exit, %for.body.lr.ph
  %add46 = phi i32 [ %add42, %for.body.lr.ph ], [ %add, %swap.exit ]
  %mul45 = phi i32 [ %mul41, %for.body.lr.ph ], [ %mul, %swap.exit ]
  %at.addr.044 = phi i32 [ %at, %for.body.lr.ph ], [ %child.0, %swap.exit ]
  %add1 = add nuw i32 %mul45, 2
  %cmp2 = icmp ult i32 %add1, %count
  br i1 %cmp2, label %land.lhs.true, label %if.end

land.lhs.true:                                    ; preds = %for.body
  %mul3 = mul i32 %add46, %size
  %add.ptr = getelementptr inbounds i8, ptr %base, i32 %mul3
  %mul5 = mul i32 %add1, %size
  %add.ptr6 = getelementptr inbounds i8, ptr %base, i32 %mul5
  %call = tail call i32 %compare(ptr noundef %add.ptr, ptr noundef %add.ptr6) #21
  %cmp7 = icmp slt i32 %call, 0
  %spec.select = select i1 %cmp7, i32 %add1, i32 %add46
  br label %if.end

if.end:                                           ; preds = %land.lhs.true, %for.body
  %child.0 = phi i32 [ %add46, %for.body ], [ %spec.select, %land.lhs.true ]
  %mul8 = mul i32 %at.addr.044, %size
  %add.ptr9 = getelementptr inbounds i8, ptr %base, i32 %mul8
  %mul10 = mul i32 %child.0, %size
  %add.ptr11 = getelementptr inbounds i8, ptr %base, i32 %mul10
  %call12 = tail call i32 %compare(ptr noundef %add.ptr9, ptr noundef %add.ptr11) #21
  %cmp13 = icmp sgt i32 %call12, -1
  br i1 %cmp13, label %cleanup, label %if.end15

if.end15:                                         ; preds = %if.end
  br i1 %cmp.not4.i, label %swap.exit, label %while.body.i

while.body.i:                                     ; preds = %while.body.i, %if.end15
  %a.addr.07.i = phi ptr [ %incdec.ptr.i, %while.body.i ], [ %add.ptr9, %if.end15 ]
  %size.addr.06.i = phi i32 [ %dec.i, %while.body.i ], [ %size, %if.end15 ]
  %b.addr.05.i = phi ptr [ %incdec.ptr1.i, %while.body.i ], [ %add.ptr11, %if.end15 ]
  %dec.i = add i32 %size.addr.06.i, -1
  %v0 = load i8, ptr %a.addr.07.i, align 1, !tbaa !7
  %v1 = load i8, ptr %b.addr.05.i, align 1, !tbaa !7
  %incdec.ptr.i = getelementptr inbounds i8, ptr %a.addr.07.i, i32 1
  store i8 %v1, ptr %a.addr.07.i, align 1, !tbaa !7
  %incdec.ptr1.i = getelementptr inbounds i8, ptr %b.addr.05.i, i32 1
  store i8 %v0, ptr %b.addr.05.i, align 1, !tbaa !7
  %cmp.not.i = icmp eq i32 %dec.i, 0
  br i1 %cmp.not.i, label %swap.exit, label %while.body.i, !llvm.loop !50

swap.exit:                                        ; preds = %while.body.i, %if.end15
  %mul = shl i32 %child.0, 1
  %add = or disjoint i32 %mul, 1
  %cmp = icmp ult i32 %add, %count
  br i1 %cmp, label %for.body, label %cleanup, !llvm.loop !73

cleanup:                                          ; preds = %swap.exit, %if.end, %entry
  ret void
}

; Function Attrs: nounwind optsize
define internal fastcc void @merge_sort(ptr noundef %base, i32 noundef signext %count, i32 noundef signext %size, ptr noundef %compare, ptr noundef %room) unnamed_addr #2 {
entry:
  %cmp = icmp ult i32 %count, 2
  br i1 %cmp, label %cleanup, label %if.end

if.end:                                           ; preds = %entry
  %div28 = lshr i32 %count, 1
  tail call fastcc void @merge_sort(ptr noundef %base, i32 noundef signext %div28, i32 noundef signext %size, ptr noundef %compare, ptr noundef %room) #20
  %mul = mul i32 %div28, %size
  %add.ptr = getelementptr inbounds i8, ptr %base, i32 %mul
  %sub = sub i32 %count, %div28
  tail call fastcc void @merge_sort(ptr noundef %add.ptr, i32 noundef signext %sub, i32 noundef signext %size, ptr noundef %compare, ptr noundef %room) #20
  %cmp.not3.i = icmp eq i32 %mul, 0
  br i1 %cmp.not3.i, label %memcpy.exit, label %while.body.i

while.body.i:                                     ; preds = %while.body.i, %if.end
  %s.06.i = phi ptr [ %incdec.ptr.i, %while.body.i ], [ %base, %if.end ]
  %d.05.i = phi ptr [ %incdec.ptr1.i, %while.body.i ], [ %room, %if.end ]
  %n.addr.04.i = phi i32 [ %dec.i, %while.body.i ], [ %mul, %if.end ]
  %dec.i = add i32 %n.addr.04.i, -1
  %incdec.ptr.i = getelementptr inbounds i8, ptr %s.06.i, i32 1
  %v0 = load i8, ptr %s.06.i, align 1, !tbaa !7, !alias.scope !74, !noalias !77
  %incdec.ptr1.i = getelementptr inbounds i8, ptr %d.05.i, i32 1
  store i8 %v0, ptr %d.05.i, align 1, !tbaa !7, !alias.scope !77, !noalias !74
  %cmp.not.i = icmp eq i32 %dec.i, 0
  br i1 %cmp.not.i, label %memcpy.exit, label %while.body.i, !llvm.loop !79

memcpy.exit:                                      ; preds = %while.body.i, %if.end
  %cmp146.i.not = icmp eq i32 %sub, 0
  br i1 %cmp146.i.not, label %while.end.i, label %while.body.lr.ph.i

while.body.lr.ph.i:                               ; preds = %memcpy.exit
  %cmp.not3.i25.i = icmp eq i32 %size, 0
  br label %while.body.i29

while.body.i29:                                   ; preds = %if.end.i, %while.body.lr.ph.i
  %to.addr.051.i = phi ptr [ %base, %while.body.lr.ph.i ], [ %add.ptr7.i, %if.end.i ]
  %a.addr.050.i = phi ptr [ %room, %while.body.lr.ph.i ], [ %a.addr.1.i, %if.end.i ]
  %right.addr.049.i = phi i32 [ %sub, %while.body.lr.ph.i ], [ %right.addr.1.i, %if.end.i ]
  %b.addr.048.i = phi ptr [ %add.ptr, %while.body.lr.ph.i ], [ %b.addr.1.i, %if.end.i ]
  %left.addr.047.i = phi i32 [ %div28, %while.body.lr.ph.i ], [ %left.addr.1.i, %if.end.i ]
  %call.i = tail call i32 %compare(ptr noundef %a.addr.050.i, ptr noundef %b.addr.048.i) #21
  %cmp2.i = icmp slt i32 %call.i, 1
  br i1 %cmp2.i, label %if.then.i, label %if.else.i

if.then.i:                                        ; preds = %while.body.i29
  br i1 %cmp.not3.i25.i, label %memcpy.exit.i, label %while.body.i.i

while.body.i.i:                                   ; preds = %while.body.i.i, %if.then.i
  %s.06.i.i = phi ptr [ %incdec.ptr.i.i, %while.body.i.i ], [ %a.addr.050.i, %if.then.i ]
  %d.05.i.i = phi ptr [ %incdec.ptr1.i.i, %while.body.i.i ], [ %to.addr.051.i, %if.then.i ]
  %n.addr.04.i.i = phi i32 [ %dec.i.i, %while.body.i.i ], [ %size, %if.then.i ]
  %dec.i.i = add i32 %n.addr.04.i.i, -1
  %incdec.ptr.i.i = getelementptr inbounds i8, ptr %s.06.i.i, i32 1
  %v1 = load i8, ptr %s.06.i.i, align 1, !tbaa !7, !alias.scope !80, !noalias !83
  %incdec.ptr1.i.i = getelementptr inbounds i8, ptr %d.05.i.i, i32 1
  store i8 %v1, ptr %d.05.i.i, align 1, !tbaa !7, !alias.scope !83, !noalias !80
  %cmp.not.i.i = icmp eq i32 %dec.i.i, 0
  br i1 %cmp.not.i.i, label %memcpy.exit.i, label %while.body.i.i, !llvm.loop !79

memcpy.exit.i:                                    ; preds = %while.body.i.i, %if.then.i
  %add.ptr.i = getelementptr inbounds i8, ptr %a.addr.050.i, i32 %size
  %dec.i30 = add nsw i32 %left.addr.047.i, -1
  br label %if.end.i

if.else.i:                                        ; preds = %while.body.i29
  br i1 %cmp.not3.i25.i, label %memcpy.exit34.i, label %while.body.i26.i

while.body.i26.i:                                 ; preds = %while.body.i26.i, %if.else.i
  %s.06.i27.i = phi ptr [ %incdec.ptr.i31.i, %while.body.i26.i ], [ %b.addr.048.i, %if.else.i ]
  %d.05.i28.i = phi ptr [ %incdec.ptr1.i32.i, %while.body.i26.i ], [ %to.addr.051.i, %if.else.i ]
  %n.addr.04.i29.i = phi i32 [ %dec.i30.i, %while.body.i26.i ], [ %size, %if.else.i ]
  %dec.i30.i = add i32 %n.addr.04.i29.i, -1
  %incdec.ptr.i31.i = getelementptr inbounds i8, ptr %s.06.i27.i, i32 1
  %v2 = load i8, ptr %s.06.i27.i, align 1, !tbaa !7, !alias.scope !85, !noalias !88
  %incdec.ptr1.i32.i = getelementptr inbounds i8, ptr %d.05.i28.i, i32 1
  store i8 %v2, ptr %d.05.i28.i, align 1, !tbaa !7, !alias.scope !88, !noalias !85
  %cmp.not.i33.i = icmp eq i32 %dec.i30.i, 0
  br i1 %cmp.not.i33.i, label %memcpy.exit34.i, label %while.body.i26.i, !llvm.loop !79

memcpy.exit34.i:                                  ; preds = %while.body.i26.i, %if.else.i
  %add.ptr5.i = getelementptr inbounds i8, ptr %b.addr.048.i, i32 %size
  %dec6.i = add i32 %right.addr.049.i, -1
  br label %if.end.i

if.end.i:                                         ; preds = %memcpy.exit34.i, %memcpy.exit.i
  %left.addr.1.i = phi i32 [ %dec.i30, %memcpy.exit.i ], [ %left.addr.047.i, %memcpy.exit34.i ]
  %b.addr.1.i = phi ptr [ %b.addr.048.i, %memcpy.exit.i ], [ %add.ptr5.i, %memcpy.exit34.i ]
  %right.addr.1.i = phi i32 [ %right.addr.049.i, %memcpy.exit.i ], [ %dec6.i, %memcpy.exit34.i ]
  %a.addr.1.i = phi ptr [ %add.ptr.i, %memcpy.exit.i ], [ %a.addr.050.i, %memcpy.exit34.i ]
  %add.ptr7.i = getelementptr inbounds i8, ptr %to.addr.051.i, i32 %size
  %cmp.i = icmp ne i32 %left.addr.1.i, 0
  %cmp1.i = icmp ne i32 %right.addr.1.i, 0
  %v3 = select i1 %cmp.i, i1 %cmp1.i, i1 false
  br i1 %v3, label %while.body.i29, label %while.end.i.loopexit, !llvm.loop !90

while.end.i.loopexit:                             ; preds = %if.end.i
  %.pre = mul i32 %left.addr.1.i, %size
  br label %while.end.i

while.end.i:                                      ; preds = %while.end.i.loopexit, %memcpy.exit
  %mul.i.pre-phi = phi i32 [ %.pre, %while.end.i.loopexit ], [ %mul, %memcpy.exit ]
  %a.addr.0.lcssa.i = phi ptr [ %a.addr.1.i, %while.end.i.loopexit ], [ %room, %memcpy.exit ]
  %to.addr.0.lcssa.i = phi ptr [ %add.ptr7.i, %while.end.i.loopexit ], [ %base, %memcpy.exit ]
  %cmp.not3.i35.i = icmp eq i32 %mul.i.pre-phi, 0
  br i1 %cmp.not3.i35.i, label %cleanup, label %while.body.i36.i

while.body.i36.i:                                 ; preds = %while.body.i36.i, %while.end.i
  %s.06.i37.i = phi ptr [ %incdec.ptr.i41.i, %while.body.i36.i ], [ %a.addr.0.lcssa.i, %while.end.i ]
  %d.05.i38.i = phi ptr [ %incdec.ptr1.i42.i, %while.body.i36.i ], [ %to.addr.0.lcssa.i, %while.end.i ]
  %n.addr.04.i39.i = phi i32 [ %dec.i40.i, %while.body.i36.i ], [ %mul.i.pre-phi, %while.end.i ]
  %dec.i40.i = add i32 %n.addr.04.i39.i, -1
  %incdec.ptr.i41.i = getelementptr inbounds i8, ptr %s.06.i37.i, i32 1
  %v4 = load i8, ptr %s.06.i37.i, align 1, !tbaa !7, !alias.scope !91, !noalias !94
  %incdec.ptr1.i42.i = getelementptr inbounds i8, ptr %d.05.i38.i, i32 1
  store i8 %v4, ptr %d.05.i38.i, align 1, !tbaa !7, !alias.scope !94, !noalias !91
  %cmp.not.i43.i = icmp eq i32 %dec.i40.i, 0
  br i1 %cmp.not.i43.i, label %cleanup, label %while.body.i36.i, !llvm.loop !79

cleanup:                                          ; preds = %while.body.i36.i, %while.end.i, %entry
  ret void
}

; Function Attrs: nounwind optsize
define internal ptr @strndup(ptr nocapture noundef readonly %from, i32 noundef signext %n) local_unnamed_addr #2 {
entry:
  %cmp4.not.i = icmp eq i32 %n, 0
  br i1 %cmp4.not.i, label %strnlen.exit, label %land.rhs.i

land.rhs.i:                                       ; preds = %while.body.i, %entry
  %k.05.i = phi i32 [ %inc.i, %while.body.i ], [ 0, %entry ]
  %arrayidx.i = getelementptr inbounds i8, ptr %from, i32 %k.05.i
  %v0 = load i8, ptr %arrayidx.i, align 1, !tbaa !7
  %tobool.not.i = icmp eq i8 %v0, 0
  br i1 %tobool.not.i, label %strnlen.exit, label %while.body.i

while.body.i:                                     ; preds = %land.rhs.i
  %inc.i = add nuw i32 %k.05.i, 1
  %exitcond.not.i = icmp eq i32 %inc.i, %n
  br i1 %exitcond.not.i, label %strnlen.exit, label %land.rhs.i, !llvm.loop !53

strnlen.exit:                                     ; preds = %while.body.i, %land.rhs.i, %entry
  %k.0.lcssa.i = phi i32 [ 0, %entry ], [ %k.05.i, %land.rhs.i ], [ %n, %while.body.i ]
  %add = add i32 %k.0.lcssa.i, 1
  %call1 = tail call ptr @malloc(i32 noundef signext %add) #21
  %tobool.not = icmp eq ptr %call1, null
  br i1 %tobool.not, label %cleanup, label %if.end

if.end:                                           ; preds = %strnlen.exit
  %cmp.not3.i = icmp eq i32 %k.0.lcssa.i, 0
  br i1 %cmp.not3.i, label %memcpy.exit, label %while.body.i10

while.body.i10:                                   ; preds = %while.body.i10, %if.end
  %s.06.i = phi ptr [ %incdec.ptr.i, %while.body.i10 ], [ %from, %if.end ]
  %d.05.i = phi ptr [ %incdec.ptr1.i, %while.body.i10 ], [ %call1, %if.end ]
  %n.addr.04.i = phi i32 [ %dec.i, %while.body.i10 ], [ %k.0.lcssa.i, %if.end ]
  %dec.i = add i32 %n.addr.04.i, -1
  %incdec.ptr.i = getelementptr inbounds i8, ptr %s.06.i, i32 1
  %v1 = load i8, ptr %s.06.i, align 1, !tbaa !7, !alias.scope !96, !noalias !99
  %incdec.ptr1.i = getelementptr inbounds i8, ptr %d.05.i, i32 1
  store i8 %v1, ptr %d.05.i, align 1, !tbaa !7, !alias.scope !99, !noalias !96
  %cmp.not.i = icmp eq i32 %dec.i, 0
  br i1 %cmp.not.i, label %memcpy.exit, label %while.body.i10, !llvm.loop !79

memcpy.exit:                                      ; preds = %while.body.i10, %if.end
  %arrayidx = getelementptr inbounds i8, ptr %call1, i32 %k.0.lcssa.i
  store i8 0, ptr %arrayidx, align 1, !tbaa !7
  br label %cleanup

cleanup:                                          ; preds = %memcpy.exit, %strnlen.exit
  ret ptr %call1
}

; Function Attrs: nounwind optsize
define internal i32 @fgetc(ptr nocapture noundef %stream) local_unnamed_addr #2 {
entry:
  %v0 = load i8, ptr %stream, align 4, !tbaa !41
  %cmp.not = icmp eq i8 %v0, 0
  br i1 %cmp.not, label %if.end, label %return

if.end:                                           ; preds = %entry
  %waiting = getelementptr inbounds i8, ptr %stream, i32 2
  %v1 = load i8, ptr %waiting, align 2, !tbaa !101
  %tobool.not = icmp eq i8 %v1, 0
  br i1 %tobool.not, label %if.end5, label %if.then2

if.then2:                                         ; preds = %if.end
  store i8 0, ptr %waiting, align 2, !tbaa !101
  %pushed = getelementptr inbounds i8, ptr %stream, i32 3
  %v2 = load i8, ptr %pushed, align 1, !tbaa !102
  %conv4 = zext i8 %v2 to i32
  br label %return

if.end5:                                          ; preds = %if.end
  %ended = getelementptr inbounds i8, ptr %stream, i32 1
  %v3 = load i8, ptr %ended, align 1, !tbaa !103
  %tobool6.not = icmp eq i8 %v3, 0
  br i1 %tobool6.not, label %if.end8, label %return

if.end8:                                          ; preds = %if.end5
  %call = tail call i32 @getchar() #21
  %cmp9 = icmp eq i32 %call, -1
  br i1 %cmp9, label %if.then11, label %return

if.then11:                                        ; preds = %if.end8
  store i8 1, ptr %ended, align 1, !tbaa !103
  br label %return

return:                                           ; preds = %if.then11, %if.end8, %if.end5, %if.then2, %entry
  %retval.0 = phi i32 [ %conv4, %if.then2 ], [ -1, %entry ], [ -1, %if.end5 ], [ -1, %if.then11 ], [ %call, %if.end8 ]
  ret i32 %retval.0
}

; Function Attrs: optsize
declare dso_local i32 @getchar() local_unnamed_addr #14

attributes #0 = { nounwind "no-trapping-math"="true" "stack-protector-buffer-size"="8" "target-cpu"="mips32r2" "target-features"="+fpxx,+mips32r2,+nooddspreg,-noabicalls" }
attributes #1 = { nocallback nofree nosync nounwind willreturn memory(argmem: readwrite) }
attributes #2 = { nounwind optsize "no-builtins" "no-jump-tables"="true" "no-trapping-math"="true" "stack-protector-buffer-size"="8" "target-cpu"="mips32r2" "target-features"="+fpxx,+mips32r2,+nooddspreg,-noabicalls" }
attributes #3 = { mustprogress nofree norecurse nosync nounwind optsize willreturn memory(none) "no-builtins" "no-jump-tables"="true" "no-trapping-math"="true" "stack-protector-buffer-size"="8" "target-cpu"="mips32r2" "target-features"="+fpxx,+mips32r2,+nooddspreg,-noabicalls" }
attributes #4 = { mustprogress nofree nounwind willreturn allockind("alloc,zeroed") allocsize(0,1) memory(inaccessiblemem: readwrite) "alloc-family"="malloc" "no-trapping-math"="true" "stack-protector-buffer-size"="8" "target-cpu"="mips32r2" "target-features"="+fpxx,+mips32r2,+nooddspreg,-noabicalls" }
attributes #5 = { noreturn nounwind "no-trapping-math"="true" "stack-protector-buffer-size"="8" "target-cpu"="mips32r2" "target-features"="+fpxx,+mips32r2,+nooddspreg,-noabicalls" }
attributes #6 = { nofree norecurse nosync nounwind optsize memory(read, inaccessiblemem: none) "no-builtins" "no-jump-tables"="true" "no-trapping-math"="true" "stack-protector-buffer-size"="8" "target-cpu"="mips32r2" "target-features"="+fpxx,+mips32r2,+nooddspreg,-noabicalls" }
attributes #7 = { nocallback nofree nounwind willreturn memory(argmem: readwrite) }
attributes #8 = { mustprogress nounwind willreturn allockind("free") memory(argmem: readwrite, inaccessiblemem: readwrite) "alloc-family"="malloc" "no-trapping-math"="true" "stack-protector-buffer-size"="8" "target-cpu"="mips32r2" "target-features"="+fpxx,+mips32r2,+nooddspreg,-noabicalls" }
attributes #9 = { mustprogress nofree nounwind willreturn allockind("alloc,uninitialized") allocsize(0) memory(inaccessiblemem: readwrite) "alloc-family"="malloc" "no-trapping-math"="true" "stack-protector-buffer-size"="8" "target-cpu"="mips32r2" "target-features"="+fpxx,+mips32r2,+nooddspreg,-noabicalls" }
attributes #10 = { mustprogress nofree nounwind willreturn memory(read, inaccessiblemem: none) "no-trapping-math"="true" "stack-protector-buffer-size"="8" "target-cpu"="mips32r2" "target-features"="+fpxx,+mips32r2,+nooddspreg,-noabicalls" }
attributes #11 = { nocallback nofree nosync nounwind speculatable willreturn memory(none) }
attributes #12 = { nocallback nofree nounwind willreturn memory(argmem: write) }
attributes #13 = { nofree nounwind "no-trapping-math"="true" "stack-protector-buffer-size"="8" "target-cpu"="mips32r2" "target-features"="+fpxx,+mips32r2,+nooddspreg,-noabicalls" }
attributes #14 = { optsize "no-builtins" "no-trapping-math"="true" "stack-protector-buffer-size"="8" "target-cpu"="mips32r2" "target-features"="+fpxx,+mips32r2,+nooddspreg,-noabicalls" }
attributes #15 = { nounwind }
attributes #16 = { nounwind willreturn memory(read) }
attributes #17 = { allocsize(0,1) }
attributes #18 = { noreturn nounwind }
attributes #19 = { allocsize(0) }
attributes #20 = { nobuiltin optsize "no-builtins" }
attributes #21 = { nobuiltin nounwind optsize "no-builtins" }

!llvm.ident = !{!0, !0, !0, !0, !0}
!llvm.module.flags = !{!1, !2, !3}

!0 = !{!"Debian clang version 19.1.7 (3~deb12u1)"}
!1 = !{i32 7, !"Dwarf Version", i32 5}
!2 = !{i32 2, !"Debug Info Version", i32 3}
!3 = !{i32 1, !"wchar_size", i32 4}
!4 = distinct !{!4, !5, !6}
!5 = !{!"llvm.loop.mustprogress"}
!6 = !{!"llvm.loop.unroll.disable"}
!7 = !{!8, !8, i64 0}
!8 = !{!"omnipotent char", !9, i64 0}
!9 = !{!"Simple C/C++ TBAA"}
!10 = distinct !{!10, !5, !6}
!11 = distinct !{!11, !5, !6}
!12 = !{!13, !14, i64 0}
!13 = !{!"entry", !14, i64 0, !15, i64 4, !15, i64 8, !15, i64 12}
!14 = !{!"any pointer", !8, i64 0}
!15 = !{!"int", !8, i64 0}
!16 = !{!13, !15, i64 4}
!17 = distinct !{!17, !6}
!18 = !{i64 0, i64 4, !19, i64 4, i64 4, !20, i64 8, i64 4, !20, i64 12, i64 4, !20}
!19 = !{!14, !14, i64 0}
!20 = !{!15, !15, i64 0}
!21 = distinct !{!21, !5, !6}
!22 = distinct !{!22, !5, !6}
!23 = distinct !{!23, !6}
!24 = !{!13, !15, i64 8}
!25 = !{!13, !15, i64 12}
!26 = distinct !{!26, !5, !6}
!27 = distinct !{!27, !5, !6}
!28 = distinct !{!28, !5, !6}
!29 = distinct !{!29, !5, !6}
!30 = distinct !{!30, !5, !6}
!31 = distinct !{!31, !5, !6}
!32 = distinct !{!32, !5, !6}
!33 = distinct !{!33, !6}
!34 = distinct !{!34, !5, !6}
!35 = distinct !{!35, !5, !6}
!36 = distinct !{!36, !5, !6}
!37 = distinct !{!37, !5}
!38 = distinct !{!38, !5}
!39 = distinct !{!39, !5}
!40 = distinct !{!40, !5}
!41 = !{!42, !8, i64 0}
!42 = !{!"__stream", !8, i64 0, !8, i64 1, !8, i64 2, !8, i64 3, !14, i64 4, !15, i64 8}
!43 = !{!44}
!44 = distinct !{!44, !45, !"fwrite: %stream"}
!45 = distinct !{!45, !"fwrite"}
!46 = !{!47}
!47 = distinct !{!47, !45, !"fwrite: %from"}
!48 = distinct !{!48, !5}
!49 = distinct !{!49, !5}
!50 = distinct !{!50, !5}
!51 = distinct !{!51, !5}
!52 = distinct !{!52, !5}
!53 = distinct !{!53, !5}
!54 = distinct !{!54, !5}
!55 = distinct !{!55, !5}
!56 = !{!57}
!57 = distinct !{!57, !58, !"fwrite: %stream"}
!58 = distinct !{!58, !"fwrite"}
!59 = !{!60}
!60 = distinct !{!60, !58, !"fwrite: %from"}
!61 = !{!42, !15, i64 8}
!62 = !{!42, !14, i64 4}
!63 = !{!64}
!64 = distinct !{!64, !65, !"fwrite: %stream"}
!65 = distinct !{!65, !"fwrite"}
!66 = !{!67}
!67 = distinct !{!67, !65, !"fwrite: %from"}
!68 = !{!69}
!69 = distinct !{!69, !70, !"fwrite: %stream"}
!70 = distinct !{!70, !"fwrite"}
!71 = !{!72}
!72 = distinct !{!72, !70, !"fwrite: %from"}
!73 = distinct !{!73, !5}
!74 = !{!75}
!75 = distinct !{!75, !76, !"memcpy: %from"}
!76 = distinct !{!76, !"memcpy"}
!77 = !{!78}
!78 = distinct !{!78, !76, !"memcpy: %to"}
!79 = distinct !{!79, !5}
!80 = !{!81}
!81 = distinct !{!81, !82, !"memcpy: %from"}
!82 = distinct !{!82, !"memcpy"}
!83 = !{!84}
!84 = distinct !{!84, !82, !"memcpy: %to"}
!85 = !{!86}
!86 = distinct !{!86, !87, !"memcpy: %from"}
!87 = distinct !{!87, !"memcpy"}
!88 = !{!89}
!89 = distinct !{!89, !87, !"memcpy: %to"}
!90 = distinct !{!90, !5}
!91 = !{!92}
!92 = distinct !{!92, !93, !"memcpy: %from"}
!93 = distinct !{!93, !"memcpy"}
!94 = !{!95}
!95 = distinct !{!95, !93, !"memcpy: %to"}
!96 = !{!97}
!97 = distinct !{!97, !98, !"memcpy: %from"}
!98 = distinct !{!98, !"memcpy"}
!99 = !{!100}
!100 = distinct !{!100, !98, !"memcpy: %to"}
!101 = !{!42, !8, i64 2}
!102 = !{!42, !8, i64 3}
!103 = !{!42, !8, i64 1}
