source_filename = "bignum.c"
target datalayout = "E-m:m-p:32:32-i8:8:32-i16:16:32-i64:64-n32-S64"
target triple = "mips-unknown-linux-gnu"

%struct.number = type { i32, [120 x i32] }
%struct.__stream = type { i8, i8, i8, i8, ptr, i32 }

@main.line = internal global [1000 x i8] zeroinitializer, align 1
@.str = private unnamed_addr constant [19 x i8] c"not understood: %s\00", align 1
@answer.a = internal global %struct.number zeroinitializer, align 4
@answer.b = internal global %struct.number zeroinitializer, align 4
@answer.made = internal global %struct.number zeroinitializer, align 4
@.str.1 = private unnamed_addr constant [11 x i8] c"(left %u) \00", align 1
@.str.2 = private unnamed_addr constant [15 x i8] c"it->n < PIECES\00", align 1
@.str.3 = private unnamed_addr constant [11 x i8] c"./bignum.c\00", align 1
@__func__.push = private unnamed_addr constant [5 x i8] c"push\00", align 1
@fibonacci.next = internal unnamed_addr global %struct.number zeroinitializer, align 4
@power.square = internal global %struct.number zeroinitializer, align 4
@power.made = internal global %struct.number zeroinitializer, align 4
@.str.4 = private unnamed_addr constant [15 x i8] c"i + k < PIECES\00", align 1
@__func__.multiply = private unnamed_addr constant [9 x i8] c"multiply\00", align 1
@show.text = internal global [1090 x i8] zeroinitializer, align 1
@.str.5 = private unnamed_addr constant [22 x i8] c"\0A  %d digits, sum %d\0A\00", align 1
@.str.9 = private unnamed_addr constant [1 x i8] zeroinitializer, align 1
@.str.1.10 = private unnamed_addr constant [7 x i8] c"(null)\00", align 1
@.str.2.15 = private unnamed_addr constant [2 x i8] c"-\00", align 1
@.str.3.16 = private unnamed_addr constant [2 x i8] c"+\00", align 1
@.str.4.14 = private unnamed_addr constant [2 x i8] c" \00", align 1
@.str.5.19 = private unnamed_addr constant [3 x i8] c"0X\00", align 1
@.str.6 = private unnamed_addr constant [3 x i8] c"0x\00", align 1
@memory = internal global %struct.__stream zeroinitializer, align 4
@__streams = internal global [3 x %struct.__stream] [%struct.__stream zeroinitializer, %struct.__stream { i8 1, i8 0, i8 0, i8 0, ptr null, i32 0 }, %struct.__stream { i8 2, i8 0, i8 0, i8 0, ptr null, i32 0 }], align 4
@.str.8 = private unnamed_addr constant [17 x i8] c"0123456789ABCDEF\00", align 1
@.str.9.13 = private unnamed_addr constant [17 x i8] c"0123456789abcdef\00", align 1

; Function Attrs: nounwind
define dso_local i32 @main() local_unnamed_addr #0 {
entry:
  %kept.i.i = alloca %struct.number, align 4
  %call10 = tail call ptr @fgets(ptr noundef nonnull @main.line, i32 noundef signext 1000, ptr noundef nonnull @__streams)
  %tobool.not11 = icmp eq ptr %call10, null
  br i1 %tobool.not11, label %while.end, label %while.body

while.body:                                       ; preds = %if.end, %entry
  %answers.012 = phi i32 [ %answers.1, %if.end ], [ 0, %entry ]
  %call.i = tail call fastcc ptr @read_number(ptr noundef nonnull @answer.a, ptr noundef nonnull @main.line)
  br label %while.cond.i

while.cond.i:                                     ; preds = %while.body.i, %while.body
  %at.0.i = phi ptr [ %call.i, %while.body ], [ %incdec.ptr.i, %while.body.i ]
  %v0 = load i8, ptr %at.0.i, align 1, !tbaa !4
  switch i8 %v0, label %cond.true.i [
    i8 32, label %while.body.i
    i8 0, label %cond.end.i
  ]

while.body.i:                                     ; preds = %while.cond.i
  %incdec.ptr.i = getelementptr inbounds i8, ptr %at.0.i, i32 1
  br label %while.cond.i, !llvm.loop !7

cond.true.i:                                      ; preds = %while.cond.i
  %incdec.ptr3.i = getelementptr inbounds i8, ptr %at.0.i, i32 1
  %v1 = sext i8 %v0 to i32
  br label %cond.end.i

cond.end.i:                                       ; preds = %cond.true.i, %while.cond.i
  %at.1.i = phi ptr [ %incdec.ptr3.i, %cond.true.i ], [ %at.0.i, %while.cond.i ]
  %cond.i = phi i32 [ %v1, %cond.true.i ], [ 0, %while.cond.i ]
  %call6.i = tail call fastcc ptr @read_number(ptr noundef nonnull @answer.b, ptr noundef nonnull %at.1.i)
  %v2 = load i32, ptr @answer.a, align 4, !tbaa !10
  %tobool7.not.i = icmp eq i32 %v2, 0
  %v3 = load i32, ptr getelementptr inbounds (i8, ptr @answer.a, i32 4), align 4
  %cond11.i = select i1 %tobool7.not.i, i32 0, i32 %v3
  %v4 = load i32, ptr @answer.b, align 4, !tbaa !10
  %tobool12.not.i = icmp eq i32 %v4, 0
  %v5 = load i32, ptr getelementptr inbounds (i8, ptr @answer.b, i32 4), align 4
  %cond16.i = select i1 %tobool12.not.i, i32 0, i32 %v5
  switch i32 %cond.i, label %if.else [
    i32 33, label %sw.bb.i
    i32 102, label %sw.bb18.i
    i32 94, label %sw.bb19.i
    i32 42, label %sw.bb20.i
    i32 43, label %sw.bb21.i
    i32 47, label %sw.bb22.i
  ]

sw.bb.i:                                          ; preds = %cond.end.i
  store i32 2, ptr @answer.made, align 4, !tbaa !10
  store i32 1, ptr getelementptr inbounds (i8, ptr @answer.made, i32 4), align 4, !tbaa !13
  store i32 0, ptr getelementptr inbounds (i8, ptr @answer.made, i32 8), align 4, !tbaa !13
  br label %land.rhs.i.i.i.i

land.rhs.i.i.i.i:                                 ; preds = %while.body.i.i.i.i, %sw.bb.i
  %sub46.i.i.i.i = phi i32 [ %sub.i.i.i.i, %while.body.i.i.i.i ], [ 2, %sw.bb.i ]
  %sub.i.i.i.i = add nsw i32 %sub46.i.i.i.i, -1
  %arrayidx.i.i.i.i = getelementptr inbounds [120 x i32], ptr getelementptr inbounds (i8, ptr @answer.made, i32 4), i32 0, i32 %sub.i.i.i.i
  %v6 = load i32, ptr %arrayidx.i.i.i.i, align 4, !tbaa !13
  %cmp2.i.i.i.i = icmp eq i32 %v6, 0
  br i1 %cmp2.i.i.i.i, label %while.body.i.i.i.i, label %set.exit.i.i

while.body.i.i.i.i:                               ; preds = %land.rhs.i.i.i.i
  store i32 %sub.i.i.i.i, ptr @answer.made, align 4, !tbaa !10
  %cmp.i.i.i.i = icmp ugt i32 %sub46.i.i.i.i, 1
  br i1 %cmp.i.i.i.i, label %land.rhs.i.i.i.i, label %set.exit.i.i, !llvm.loop !14

set.exit.i.i:                                     ; preds = %while.body.i.i.i.i, %land.rhs.i.i.i.i
  %cmp.not11.i.i = icmp ult i32 %cond11.i, 2
  br i1 %cmp.not11.i.i, label %sw.epilog.i, label %for.body.i.i

for.body.i.i:                                     ; preds = %scale.exit.i.i, %set.exit.i.i
  %k.012.i.i = phi i32 [ %inc.i.i, %scale.exit.i.i ], [ 2, %set.exit.i.i ]
  %v7 = load i32, ptr @answer.made, align 4, !tbaa !10
  %cmp15.i.i.i = icmp sgt i32 %v7, 0
  br i1 %cmp15.i.i.i, label %for.body.lr.ph.i.i.i, label %for.cond7.preheader.i.i.i

for.body.lr.ph.i.i.i:                             ; preds = %for.body.i.i
  %conv3.i.i.i = zext i32 %k.012.i.i to i64
  br label %for.body.i.i.i

for.cond7.preheader.i.i.i:                        ; preds = %for.body.i.i.i, %for.body.i.i
  %carry.0.lcssa.i.i.i = phi i64 [ 0, %for.body.i.i ], [ %div.i.i.i, %for.body.i.i.i ]
  %tobool.not18.i.i.i = icmp eq i64 %carry.0.lcssa.i.i.i, 0
  br i1 %tobool.not18.i.i.i, label %for.end13.i.i.i, label %for.body8.i.i.i

for.body.i.i.i:                                   ; preds = %for.body.i.i.i, %for.body.lr.ph.i.i.i
  %k.017.i.i.i = phi i32 [ 0, %for.body.lr.ph.i.i.i ], [ %inc.i.i.i, %for.body.i.i.i ]
  %carry.016.i.i.i = phi i64 [ 0, %for.body.lr.ph.i.i.i ], [ %div.i.i.i, %for.body.i.i.i ]
  %arrayidx.i.i.i = getelementptr inbounds [120 x i32], ptr getelementptr inbounds (i8, ptr @answer.made, i32 4), i32 0, i32 %k.017.i.i.i
  %v8 = load i32, ptr %arrayidx.i.i.i, align 4, !tbaa !13
  %conv2.i.i.i = zext i32 %v8 to i64
  %mul.i.i.i = mul nuw i64 %conv2.i.i.i, %conv3.i.i.i
  %add.i.i.i = add i64 %mul.i.i.i, %carry.016.i.i.i
  %add.i.i.i.frozen = freeze i64 %add.i.i.i
  %div.i.i.i = udiv i64 %add.i.i.i.frozen, 1000000000
  %v9 = mul i64 %div.i.i.i, 1000000000
  %rem.i.i.i.decomposed = sub i64 %add.i.i.i.frozen, %v9
  %conv4.i.i.i = trunc nuw nsw i64 %rem.i.i.i.decomposed to i32
  store i32 %conv4.i.i.i, ptr %arrayidx.i.i.i, align 4, !tbaa !13
  %inc.i.i.i = add nuw nsw i32 %k.017.i.i.i, 1
  %exitcond.not.i.i.i = icmp eq i32 %inc.i.i.i, %v7
  br i1 %exitcond.not.i.i.i, label %for.cond7.preheader.i.i.i, label %for.body.i.i.i, !llvm.loop !15

for.body8.i.i.i:                                  ; preds = %push.exit.i.i.i, %for.cond7.preheader.i.i.i
  %carry.119.i.i.i = phi i64 [ %div12.i.i.i, %push.exit.i.i.i ], [ %carry.0.lcssa.i.i.i, %for.cond7.preheader.i.i.i ]
  %v10 = load i32, ptr @answer.made, align 4, !tbaa !10
  %cmp.i.i4.i.i = icmp slt i32 %v10, 120
  br i1 %cmp.i.i4.i.i, label %push.exit.i.i.i, label %cond.false.i.i.i.i

cond.false.i.i.i.i:                               ; preds = %for.body8.i.i.i
  tail call void @__assert_fail(ptr noundef nonnull @.str.2, ptr noundef nonnull @.str.3, i32 noundef signext 32, ptr noundef nonnull @__func__.push) #13
  unreachable

push.exit.i.i.i:                                  ; preds = %for.body8.i.i.i
  %div12.i.i.i = udiv i64 %carry.119.i.i.i, 1000000000
  %v11 = mul i64 %div12.i.i.i, 1000000000
  %rem9.i.i.i.decomposed = sub i64 %carry.119.i.i.i, %v11
  %conv10.i.i.i = trunc nuw nsw i64 %rem9.i.i.i.decomposed to i32
  %inc.i.i.i.i = add nsw i32 %v10, 1
  store i32 %inc.i.i.i.i, ptr @answer.made, align 4, !tbaa !10
  %arrayidx.i.i5.i.i = getelementptr inbounds [120 x i32], ptr getelementptr inbounds (i8, ptr @answer.made, i32 4), i32 0, i32 %v10
  store i32 %conv10.i.i.i, ptr %arrayidx.i.i5.i.i, align 4, !tbaa !13
  %tobool.not.i.i.i = icmp ult i64 %carry.119.i.i.i, 1000000000
  br i1 %tobool.not.i.i.i, label %for.end13.i.i.i, label %for.body8.i.i.i, !llvm.loop !16

for.end13.i.i.i:                                  ; preds = %push.exit.i.i.i, %for.cond7.preheader.i.i.i
  %it.promoted.i.i.i.i = load i32, ptr @answer.made, align 4, !tbaa !10
  %cmp5.i.i.i.i = icmp sgt i32 %it.promoted.i.i.i.i, 0
  br i1 %cmp5.i.i.i.i, label %land.rhs.i.i6.i.i, label %scale.exit.i.i

land.rhs.i.i6.i.i:                                ; preds = %while.body.i.i10.i.i, %for.end13.i.i.i
  %sub46.i.i7.i.i = phi i32 [ %sub.i.i8.i.i, %while.body.i.i10.i.i ], [ %it.promoted.i.i.i.i, %for.end13.i.i.i ]
  %sub.i.i8.i.i = add nsw i32 %sub46.i.i7.i.i, -1
  %arrayidx.i13.i.i.i = getelementptr inbounds [120 x i32], ptr getelementptr inbounds (i8, ptr @answer.made, i32 4), i32 0, i32 %sub.i.i8.i.i
  %v12 = load i32, ptr %arrayidx.i13.i.i.i, align 4, !tbaa !13
  %cmp2.i.i9.i.i = icmp eq i32 %v12, 0
  br i1 %cmp2.i.i9.i.i, label %while.body.i.i10.i.i, label %scale.exit.i.i

while.body.i.i10.i.i:                             ; preds = %land.rhs.i.i6.i.i
  store i32 %sub.i.i8.i.i, ptr @answer.made, align 4, !tbaa !10
  %cmp.i14.i.i.i = icmp sgt i32 %sub46.i.i7.i.i, 1
  br i1 %cmp.i14.i.i.i, label %land.rhs.i.i6.i.i, label %scale.exit.i.i, !llvm.loop !17

scale.exit.i.i:                                   ; preds = %while.body.i.i10.i.i, %land.rhs.i.i6.i.i, %for.end13.i.i.i
  %inc.i.i = add i32 %k.012.i.i, 1
  %cmp.not.i.i = icmp ugt i32 %inc.i.i, %cond11.i
  br i1 %cmp.not.i.i, label %sw.epilog.i, label %for.body.i.i, !llvm.loop !18

sw.bb18.i:                                        ; preds = %cond.end.i
  store i32 2, ptr @answer.made, align 4, !tbaa !10
  store i32 0, ptr getelementptr inbounds (i8, ptr @answer.made, i32 4), align 4, !tbaa !13
  store i32 0, ptr getelementptr inbounds (i8, ptr @answer.made, i32 8), align 4, !tbaa !13
  br label %land.rhs.i.i.i8.i

land.rhs.i.i.i8.i:                                ; preds = %while.body.i.i.i23.i, %sw.bb18.i
  %sub46.i.i.i9.i = phi i32 [ %sub.i.i.i10.i, %while.body.i.i.i23.i ], [ 2, %sw.bb18.i ]
  %sub.i.i.i10.i = add nsw i32 %sub46.i.i.i9.i, -1
  %arrayidx.i.i.i11.i = getelementptr inbounds [120 x i32], ptr getelementptr inbounds (i8, ptr @answer.made, i32 4), i32 0, i32 %sub.i.i.i10.i
  %v13 = load i32, ptr %arrayidx.i.i.i11.i, align 4, !tbaa !13
  %cmp2.i.i.i12.i = icmp eq i32 %v13, 0
  br i1 %cmp2.i.i.i12.i, label %while.body.i.i.i23.i, label %set.exit.i13.i

while.body.i.i.i23.i:                             ; preds = %land.rhs.i.i.i8.i
  store i32 %sub.i.i.i10.i, ptr @answer.made, align 4, !tbaa !10
  %cmp.i.i.i24.i = icmp ugt i32 %sub46.i.i.i9.i, 1
  br i1 %cmp.i.i.i24.i, label %land.rhs.i.i.i8.i, label %set.exit.i13.i, !llvm.loop !19

set.exit.i13.i:                                   ; preds = %while.body.i.i.i23.i, %land.rhs.i.i.i8.i
  store i32 2, ptr @fibonacci.next, align 4, !tbaa !10
  store i32 1, ptr getelementptr inbounds (i8, ptr @fibonacci.next, i32 4), align 4, !tbaa !13
  store i32 0, ptr getelementptr inbounds (i8, ptr @fibonacci.next, i32 8), align 4, !tbaa !13
  br label %land.rhs.i.i3.i.i

land.rhs.i.i3.i.i:                                ; preds = %while.body.i.i8.i.i, %set.exit.i13.i
  %sub46.i.i4.i.i = phi i32 [ %sub.i.i5.i.i, %while.body.i.i8.i.i ], [ 2, %set.exit.i13.i ]
  %sub.i.i5.i.i = add nsw i32 %sub46.i.i4.i.i, -1
  %arrayidx.i.i6.i.i = getelementptr inbounds [120 x i32], ptr getelementptr inbounds (i8, ptr @fibonacci.next, i32 4), i32 0, i32 %sub.i.i5.i.i
  %v14 = load i32, ptr %arrayidx.i.i6.i.i, align 4, !tbaa !13
  %cmp2.i.i7.i.i = icmp eq i32 %v14, 0
  br i1 %cmp2.i.i7.i.i, label %while.body.i.i8.i.i, label %set.exit10.i.i

while.body.i.i8.i.i:                              ; preds = %land.rhs.i.i3.i.i
  store i32 %sub.i.i5.i.i, ptr @fibonacci.next, align 4, !tbaa !10
  %cmp.i.i9.i.i = icmp ugt i32 %sub46.i.i4.i.i, 1
  br i1 %cmp.i.i9.i.i, label %land.rhs.i.i3.i.i, label %set.exit10.i.i, !llvm.loop !20

set.exit10.i.i:                                   ; preds = %while.body.i.i8.i.i, %land.rhs.i.i3.i.i
  %cmp.not13.i.i = icmp eq i32 %cond11.i, 0
  br i1 %cmp.not13.i.i, label %sw.epilog.i, label %while.body.i.i

while.body.i.i:                                   ; preds = %add.exit.i.i, %set.exit10.i.i
  %n.addr.014.i.i = phi i32 [ %dec.i.i, %add.exit.i.i ], [ %cond11.i, %set.exit10.i.i ]
  %dec.i.i = add i32 %n.addr.014.i.i, -1
  call void @llvm.lifetime.start.p0(i64 484, ptr nonnull %kept.i.i)
  call void @llvm.memcpy.p0.p0.i32(ptr noundef nonnull align 4 dereferenceable(484) %kept.i.i, ptr noundef nonnull align 4 dereferenceable(484) @fibonacci.next, i32 484, i1 false), !tbaa.struct !21
  %v15 = load i32, ptr @answer.made, align 4, !tbaa !10
  %cmp16.i.i.i = icmp sgt i32 %v15, 0
  br i1 %cmp16.i.i.i, label %for.body.i.i15.i, label %add.exit.i.i

for.body.i.i15.i:                                 ; preds = %cond.end.i.i.i, %while.body.i.i
  %carry.018.i.i.i = phi i32 [ %conv.i.i.i, %cond.end.i.i.i ], [ 0, %while.body.i.i ]
  %k.017.i.i16.i = phi i32 [ %inc.i.i19.i, %cond.end.i.i.i ], [ 0, %while.body.i.i ]
  %v16 = load i32, ptr @fibonacci.next, align 4, !tbaa !10
  %cmp2.i.i.i = icmp eq i32 %k.017.i.i16.i, %v16
  br i1 %cmp2.i.i.i, label %if.then.i.i.i, label %if.end.i.i.i

if.then.i.i.i:                                    ; preds = %for.body.i.i15.i
  %cmp.i.i11.i.i = icmp slt i32 %v16, 120
  br i1 %cmp.i.i11.i.i, label %push.exit.i.i21.i, label %cond.false.i.i.i20.i

cond.false.i.i.i20.i:                             ; preds = %if.then.i.i.i
  tail call void @__assert_fail(ptr noundef nonnull @.str.2, ptr noundef nonnull @.str.3, i32 noundef signext 32, ptr noundef nonnull @__func__.push) #13
  unreachable

push.exit.i.i21.i:                                ; preds = %if.then.i.i.i
  %inc.i.i.i22.i = add nsw i32 %v16, 1
  store i32 %inc.i.i.i22.i, ptr @fibonacci.next, align 4, !tbaa !10
  %arrayidx.i.i12.i.i = getelementptr inbounds [120 x i32], ptr getelementptr inbounds (i8, ptr @fibonacci.next, i32 4), i32 0, i32 %v16
  store i32 0, ptr %arrayidx.i.i12.i.i, align 4, !tbaa !13
  br label %if.end.i.i.i

if.end.i.i.i:                                     ; preds = %push.exit.i.i21.i, %for.body.i.i15.i
  %arrayidx.i.i17.i = getelementptr inbounds [120 x i32], ptr getelementptr inbounds (i8, ptr @fibonacci.next, i32 4), i32 0, i32 %k.017.i.i16.i
  %v17 = load i32, ptr %arrayidx.i.i17.i, align 4, !tbaa !13
  %add.i.i18.i = add i32 %v17, %carry.018.i.i.i
  %cmp4.i.i.i = icmp slt i32 %k.017.i.i16.i, %v15
  br i1 %cmp4.i.i.i, label %cond.true.i.i.i, label %cond.end.i.i.i

cond.true.i.i.i:                                  ; preds = %if.end.i.i.i
  %arrayidx6.i.i.i = getelementptr inbounds [120 x i32], ptr getelementptr inbounds (i8, ptr @answer.made, i32 4), i32 0, i32 %k.017.i.i16.i
  %v18 = load i32, ptr %arrayidx6.i.i.i, align 4, !tbaa !13
  br label %cond.end.i.i.i

cond.end.i.i.i:                                   ; preds = %cond.true.i.i.i, %if.end.i.i.i
  %cond.i.i.i = phi i32 [ %v18, %cond.true.i.i.i ], [ 0, %if.end.i.i.i ]
  %add7.i.i.i = add i32 %add.i.i18.i, %cond.i.i.i
  %cmp8.i.i.i = icmp ugt i32 %add7.i.i.i, 999999999
  %conv.i.i.i = zext i1 %cmp8.i.i.i to i32
  %sub.i.i.i = add i32 %add7.i.i.i, -1000000000
  %cond13.i.i.i = select i1 %cmp8.i.i.i, i32 %sub.i.i.i, i32 %add7.i.i.i
  store i32 %cond13.i.i.i, ptr %arrayidx.i.i17.i, align 4, !tbaa !13
  %inc.i.i19.i = add nuw nsw i32 %k.017.i.i16.i, 1
  %cmp.i.i.i = icmp slt i32 %inc.i.i19.i, %v15
  %v19 = select i1 %cmp.i.i.i, i1 true, i1 %cmp8.i.i.i
  br i1 %v19, label %for.body.i.i15.i, label %add.exit.i.i, !llvm.loop !22

add.exit.i.i:                                     ; preds = %cond.end.i.i.i, %while.body.i.i
  call void @llvm.memcpy.p0.p0.i32(ptr noundef nonnull align 4 dereferenceable(484) @answer.made, ptr noundef nonnull align 4 dereferenceable(484) %kept.i.i, i32 484, i1 false), !tbaa.struct !21
  call void @llvm.lifetime.end.p0(i64 484, ptr nonnull %kept.i.i)
  %cmp.not.i14.i = icmp eq i32 %dec.i.i, 0
  br i1 %cmp.not.i14.i, label %sw.epilog.i, label %while.body.i.i, !llvm.loop !23

sw.bb19.i:                                        ; preds = %cond.end.i
  tail call void @llvm.memcpy.p0.p0.i32(ptr noundef nonnull align 4 dereferenceable(484) @power.square, ptr noundef nonnull align 4 dereferenceable(484) @answer.a, i32 484, i1 false), !tbaa.struct !21
  store i32 2, ptr @answer.made, align 4, !tbaa !10
  store i32 1, ptr getelementptr inbounds (i8, ptr @answer.made, i32 4), align 4, !tbaa !13
  store i32 0, ptr getelementptr inbounds (i8, ptr @answer.made, i32 8), align 4, !tbaa !13
  br label %land.rhs.i.i.i25.i

land.rhs.i.i.i25.i:                               ; preds = %while.body.i.i.i33.i, %sw.bb19.i
  %sub46.i.i.i26.i = phi i32 [ %sub.i.i.i27.i, %while.body.i.i.i33.i ], [ 2, %sw.bb19.i ]
  %sub.i.i.i27.i = add nsw i32 %sub46.i.i.i26.i, -1
  %arrayidx.i.i.i28.i = getelementptr inbounds [120 x i32], ptr getelementptr inbounds (i8, ptr @answer.made, i32 4), i32 0, i32 %sub.i.i.i27.i
  %v20 = load i32, ptr %arrayidx.i.i.i28.i, align 4, !tbaa !13
  %cmp2.i.i.i29.i = icmp eq i32 %v20, 0
  br i1 %cmp2.i.i.i29.i, label %while.body.i.i.i33.i, label %set.exit.i30.i

while.body.i.i.i33.i:                             ; preds = %land.rhs.i.i.i25.i
  store i32 %sub.i.i.i27.i, ptr @answer.made, align 4, !tbaa !10
  %cmp.i.i.i34.i = icmp ugt i32 %sub46.i.i.i26.i, 1
  br i1 %cmp.i.i.i34.i, label %land.rhs.i.i.i25.i, label %set.exit.i30.i, !llvm.loop !24

set.exit.i30.i:                                   ; preds = %while.body.i.i.i33.i, %land.rhs.i.i.i25.i
  %cmp.not6.i.i = icmp eq i32 %cond16.i, 0
  br i1 %cmp.not6.i.i, label %sw.epilog.i, label %for.body.i31.i

for.body.i31.i:                                   ; preds = %for.inc.i.i, %set.exit.i30.i
  %n.addr.07.i.i = phi i32 [ %shr.i.i, %for.inc.i.i ], [ %cond16.i, %set.exit.i30.i ]
  %and.i.i = and i32 %n.addr.07.i.i, 1
  %tobool.not.i.i = icmp eq i32 %and.i.i, 0
  br i1 %tobool.not.i.i, label %if.end.i.i, label %if.then.i.i

if.then.i.i:                                      ; preds = %for.body.i31.i
  tail call fastcc void @multiply(ptr noundef nonnull @power.made, ptr noundef nonnull @answer.made, ptr noundef nonnull @power.square)
  tail call void @llvm.memcpy.p0.p0.i32(ptr noundef nonnull align 4 dereferenceable(484) @answer.made, ptr noundef nonnull align 4 dereferenceable(484) @power.made, i32 484, i1 false), !tbaa.struct !21
  br label %if.end.i.i

if.end.i.i:                                       ; preds = %if.then.i.i, %for.body.i31.i
  %cmp1.not.i.i = icmp eq i32 %n.addr.07.i.i, 1
  br i1 %cmp1.not.i.i, label %for.inc.i.i, label %if.then2.i.i

if.then2.i.i:                                     ; preds = %if.end.i.i
  tail call fastcc void @multiply(ptr noundef nonnull @power.made, ptr noundef nonnull @power.square, ptr noundef nonnull @power.square)
  tail call void @llvm.memcpy.p0.p0.i32(ptr noundef nonnull align 4 dereferenceable(484) @power.square, ptr noundef nonnull align 4 dereferenceable(484) @power.made, i32 484, i1 false), !tbaa.struct !21
  br label %for.inc.i.i

for.inc.i.i:                                      ; preds = %if.then2.i.i, %if.end.i.i
  %shr.i.i = lshr i32 %n.addr.07.i.i, 1
  %cmp.not.i32.i = icmp ult i32 %n.addr.07.i.i, 2
  br i1 %cmp.not.i32.i, label %sw.epilog.i, label %for.body.i31.i, !llvm.loop !25

sw.bb20.i:                                        ; preds = %cond.end.i
  tail call fastcc void @multiply(ptr noundef nonnull @answer.made, ptr noundef nonnull @answer.a, ptr noundef nonnull @answer.b)
  br label %sw.epilog.i

sw.bb21.i:                                        ; preds = %cond.end.i
  tail call void @llvm.memcpy.p0.p0.i32(ptr noundef nonnull align 4 dereferenceable(484) @answer.made, ptr noundef nonnull align 4 dereferenceable(484) @answer.a, i32 484, i1 false), !tbaa.struct !21
  %cmp16.i.i = icmp sgt i32 %v4, 0
  br i1 %cmp16.i.i, label %for.body.i35.i, label %sw.epilog.i

for.body.i35.i:                                   ; preds = %cond.end.i.i, %sw.bb21.i
  %carry.018.i.i = phi i32 [ %conv.i.i, %cond.end.i.i ], [ 0, %sw.bb21.i ]
  %k.017.i.i = phi i32 [ %inc.i37.i, %cond.end.i.i ], [ 0, %sw.bb21.i ]
  %v21 = load i32, ptr @answer.made, align 4, !tbaa !10
  %cmp2.i.i = icmp eq i32 %k.017.i.i, %v21
  br i1 %cmp2.i.i, label %if.then.i38.i, label %if.end.i36.i

if.then.i38.i:                                    ; preds = %for.body.i35.i
  %cmp.i.i39.i = icmp slt i32 %v21, 120
  br i1 %cmp.i.i39.i, label %push.exit.i.i, label %cond.false.i.i.i

cond.false.i.i.i:                                 ; preds = %if.then.i38.i
  tail call void @__assert_fail(ptr noundef nonnull @.str.2, ptr noundef nonnull @.str.3, i32 noundef signext 32, ptr noundef nonnull @__func__.push) #13
  unreachable

push.exit.i.i:                                    ; preds = %if.then.i38.i
  %inc.i.i40.i = add nsw i32 %v21, 1
  store i32 %inc.i.i40.i, ptr @answer.made, align 4, !tbaa !10
  %arrayidx.i.i41.i = getelementptr inbounds [120 x i32], ptr getelementptr inbounds (i8, ptr @answer.made, i32 4), i32 0, i32 %v21
  store i32 0, ptr %arrayidx.i.i41.i, align 4, !tbaa !13
  br label %if.end.i36.i

if.end.i36.i:                                     ; preds = %push.exit.i.i, %for.body.i35.i
  %arrayidx.i.i = getelementptr inbounds [120 x i32], ptr getelementptr inbounds (i8, ptr @answer.made, i32 4), i32 0, i32 %k.017.i.i
  %v22 = load i32, ptr %arrayidx.i.i, align 4, !tbaa !13
  %add.i.i = add i32 %v22, %carry.018.i.i
  %cmp4.i.i = icmp slt i32 %k.017.i.i, %v4
  br i1 %cmp4.i.i, label %cond.true.i.i, label %cond.end.i.i

cond.true.i.i:                                    ; preds = %if.end.i36.i
  %arrayidx6.i.i = getelementptr inbounds [120 x i32], ptr getelementptr inbounds (i8, ptr @answer.b, i32 4), i32 0, i32 %k.017.i.i
  %v23 = load i32, ptr %arrayidx6.i.i, align 4, !tbaa !13
  br label %cond.end.i.i

cond.end.i.i:                                     ; preds = %cond.true.i.i, %if.end.i36.i
  %cond.i.i = phi i32 [ %v23, %cond.true.i.i ], [ 0, %if.end.i36.i ]
  %add7.i.i = add i32 %add.i.i, %cond.i.i
  %cmp8.i.i = icmp ugt i32 %add7.i.i, 999999999
  %conv.i.i = zext i1 %cmp8.i.i to i32
  %sub.i.i = add i32 %add7.i.i, -1000000000
  %cond13.i.i = select i1 %cmp8.i.i, i32 %sub.i.i, i32 %add7.i.i
  store i32 %cond13.i.i, ptr %arrayidx.i.i, align 4, !tbaa !13
  %inc.i37.i = add nuw nsw i32 %k.017.i.i, 1
  %cmp.i.i = icmp slt i32 %inc.i37.i, %v4
  %v24 = select i1 %cmp.i.i, i1 true, i1 %cmp8.i.i
  br i1 %v24, label %for.body.i35.i, label %sw.epilog.i, !llvm.loop !26

sw.bb22.i:                                        ; preds = %cond.end.i
  %cmp23.i = icmp eq i32 %cond16.i, 0
  br i1 %cmp23.i, label %if.else, label %if.end.i

if.end.i:                                         ; preds = %sw.bb22.i
  tail call void @llvm.memcpy.p0.p0.i32(ptr noundef nonnull align 4 dereferenceable(484) @answer.made, ptr noundef nonnull align 4 dereferenceable(484) @answer.a, i32 484, i1 false), !tbaa.struct !21
  %v25 = load i32, ptr @answer.made, align 4, !tbaa !10
  %cmp11.i.i = icmp sgt i32 %v25, 0
  br i1 %cmp11.i.i, label %for.body.lr.ph.i46.i, label %for.cond.cleanup.i.i

for.body.lr.ph.i46.i:                             ; preds = %if.end.i
  %conv1.i.i = zext i32 %cond16.i to i64
  br label %for.body.i47.i

for.cond.cleanup.loopexit.i.i:                    ; preds = %for.body.i47.i
  %extract.t.i.i = trunc nuw i64 %rem.i.i.decomposed to i32
  br label %for.cond.cleanup.i.i

for.cond.cleanup.i.i:                             ; preds = %for.cond.cleanup.loopexit.i.i, %if.end.i
  %left.0.lcssa.off0.i.i = phi i32 [ 0, %if.end.i ], [ %extract.t.i.i, %for.cond.cleanup.loopexit.i.i ]
  %it.promoted.i.i.i = load i32, ptr @answer.made, align 4, !tbaa !10
  %cmp5.i.i.i = icmp sgt i32 %it.promoted.i.i.i, 0
  br i1 %cmp5.i.i.i, label %land.rhs.i.i.i, label %divide.exit.i

land.rhs.i.i.i:                                   ; preds = %while.body.i.i.i, %for.cond.cleanup.i.i
  %sub46.i.i.i = phi i32 [ %sub.i.i42.i, %while.body.i.i.i ], [ %it.promoted.i.i.i, %for.cond.cleanup.i.i ]
  %sub.i.i42.i = add nsw i32 %sub46.i.i.i, -1
  %arrayidx.i.i43.i = getelementptr inbounds [120 x i32], ptr getelementptr inbounds (i8, ptr @answer.made, i32 4), i32 0, i32 %sub.i.i42.i
  %v26 = load i32, ptr %arrayidx.i.i43.i, align 4, !tbaa !13
  %cmp2.i.i44.i = icmp eq i32 %v26, 0
  br i1 %cmp2.i.i44.i, label %while.body.i.i.i, label %divide.exit.i

while.body.i.i.i:                                 ; preds = %land.rhs.i.i.i
  store i32 %sub.i.i42.i, ptr @answer.made, align 4, !tbaa !10
  %cmp.i.i45.i = icmp sgt i32 %sub46.i.i.i, 1
  br i1 %cmp.i.i45.i, label %land.rhs.i.i.i, label %divide.exit.i, !llvm.loop !27

for.body.i47.i:                                   ; preds = %for.body.i47.i, %for.body.lr.ph.i46.i
  %k.0.in13.i.i = phi i32 [ %v25, %for.body.lr.ph.i46.i ], [ %k.0.i.i, %for.body.i47.i ]
  %left.012.i.i = phi i64 [ 0, %for.body.lr.ph.i46.i ], [ %rem.i.i.decomposed, %for.body.i47.i ]
  %k.0.i.i = add nsw i32 %k.0.in13.i.i, -1
  %mul.i.i = mul nuw nsw i64 %left.012.i.i, 1000000000
  %arrayidx.i48.i = getelementptr inbounds [120 x i32], ptr getelementptr inbounds (i8, ptr @answer.made, i32 4), i32 0, i32 %k.0.i.i
  %v27 = load i32, ptr %arrayidx.i48.i, align 4, !tbaa !13
  %conv.i49.i = zext i32 %v27 to i64
  %add.i50.i = add nuw nsw i64 %mul.i.i, %conv.i49.i
  %add.i50.i.frozen = freeze i64 %add.i50.i
  %conv1.i.i.frozen = freeze i64 %conv1.i.i
  %div.i.i = udiv i64 %add.i50.i.frozen, %conv1.i.i.frozen
  %conv2.i.i = trunc i64 %div.i.i to i32
  store i32 %conv2.i.i, ptr %arrayidx.i48.i, align 4, !tbaa !13
  %v28 = mul i64 %div.i.i, %conv1.i.i.frozen
  %rem.i.i.decomposed = sub i64 %add.i50.i.frozen, %v28
  %cmp.i51.i = icmp sgt i32 %k.0.in13.i.i, 1
  br i1 %cmp.i51.i, label %for.body.i47.i, label %for.cond.cleanup.loopexit.i.i, !llvm.loop !28

divide.exit.i:                                    ; preds = %while.body.i.i.i, %land.rhs.i.i.i, %for.cond.cleanup.i.i
  %print.206.0.i = tail call i32 @__print_text(ptr nonnull getelementptr inbounds (i8, ptr @__streams, i32 12), ptr nonnull @.str.1, i32 6) #14
  %print.206.1.i = zext i32 %left.0.lcssa.off0.i.i to i64
  %print.206.2.i = tail call i32 @__print_unsigned(ptr nonnull getelementptr inbounds (i8, ptr @__streams, i32 12), i64 %print.206.1.i, i32 10, i32 0, i32 0, i32 -1) #14
  %print.206.3.i = tail call i32 @__print_text(ptr nonnull getelementptr inbounds (i8, ptr @__streams, i32 12), ptr nonnull getelementptr inbounds (i8, ptr @.str.1, i32 8), i32 2) #14
  br label %sw.epilog.i

sw.epilog.i:                                      ; preds = %divide.exit.i, %cond.end.i.i, %sw.bb21.i, %sw.bb20.i, %for.inc.i.i, %set.exit.i30.i, %add.exit.i.i, %set.exit10.i.i, %scale.exit.i.i, %set.exit.i.i
  %v29 = load i32, ptr @answer.made, align 4, !tbaa !10
  %tobool.not.i.i52.i = icmp eq i32 %v29, 0
  br i1 %tobool.not.i.i52.i, label %cond.end.i.i56.i, label %cond.true.i.i53.i

cond.true.i.i53.i:                                ; preds = %sw.epilog.i
  %sub.i.i54.i = add nsw i32 %v29, -1
  %arrayidx.i.i55.i = getelementptr inbounds [120 x i32], ptr getelementptr inbounds (i8, ptr @answer.made, i32 4), i32 0, i32 %sub.i.i54.i
  %v30 = load i32, ptr %arrayidx.i.i55.i, align 4, !tbaa !13
  br label %cond.end.i.i56.i

cond.end.i.i56.i:                                 ; preds = %cond.true.i.i53.i, %sw.epilog.i
  %cond.i.i57.i = phi i32 [ %v30, %cond.true.i.i53.i ], [ 0, %sw.epilog.i ]
  %print.908.0.i.i.i = tail call ptr @__print_open(ptr nonnull @show.text, i32 -1) #14
  %print.908.1.i.i.i = zext i32 %cond.i.i57.i to i64
  %print.908.2.i.i.i = tail call i32 @__print_unsigned(ptr %print.908.0.i.i.i, i64 %print.908.1.i.i.i, i32 10, i32 0, i32 0, i32 -1) #14
  %print.908.3.i.i.i = tail call i32 @__print_close(ptr %print.908.0.i.i.i, i32 -1) #14
  %v31 = getelementptr i8, ptr @show.text, i32 %print.908.2.i.i.i
  %add.ptr.i.i.i = getelementptr i8, ptr %v31, i32 %print.908.3.i.i.i
  %v32 = load i32, ptr @answer.made, align 4, !tbaa !10
  %cmp11.i.i.i = icmp sgt i32 %v32, 1
  br i1 %cmp11.i.i.i, label %for.body.preheader.i.i.i, label %digits.exit.i.i

for.body.preheader.i.i.i:                         ; preds = %cond.end.i.i56.i
  %sub3.i.i.i = add nsw i32 %v32, -2
  br label %for.body.i.i68.i

for.body.i.i68.i:                                 ; preds = %for.body.i.i68.i, %for.body.preheader.i.i.i
  %k.013.i.i.i = phi i32 [ %dec.i.i.i, %for.body.i.i68.i ], [ %sub3.i.i.i, %for.body.preheader.i.i.i ]
  %at.012.i.i.i = phi ptr [ %add.ptr7.i.i.i, %for.body.i.i68.i ], [ %add.ptr.i.i.i, %for.body.preheader.i.i.i ]
  %arrayidx5.i.i.i = getelementptr inbounds [120 x i32], ptr getelementptr inbounds (i8, ptr @answer.made, i32 4), i32 0, i32 %k.013.i.i.i
  %v33 = load i32, ptr %arrayidx5.i.i.i, align 4, !tbaa !13
  %print.935.0.i.i.i = tail call ptr @__print_open(ptr %at.012.i.i.i, i32 -1) #14
  %print.935.1.i.i.i = zext i32 %v33 to i64
  %print.935.2.i.i.i = tail call i32 @__print_unsigned(ptr %print.935.0.i.i.i, i64 %print.935.1.i.i.i, i32 10, i32 16, i32 9, i32 -1) #14
  %print.935.3.i.i.i = tail call i32 @__print_close(ptr %print.935.0.i.i.i, i32 -1) #14
  %print.935.4.i.i.i = add i32 %print.935.3.i.i.i, %print.935.2.i.i.i
  %add.ptr7.i.i.i = getelementptr inbounds i8, ptr %at.012.i.i.i, i32 %print.935.4.i.i.i
  %dec.i.i.i = add nsw i32 %k.013.i.i.i, -1
  %cmp.i.i69.i = icmp sgt i32 %k.013.i.i.i, 0
  br i1 %cmp.i.i69.i, label %for.body.i.i68.i, label %digits.exit.i.i, !llvm.loop !29

digits.exit.i.i:                                  ; preds = %for.body.i.i68.i, %cond.end.i.i56.i
  %at.0.lcssa.i.i.i = phi ptr [ %add.ptr.i.i.i, %cond.end.i.i56.i ], [ %add.ptr7.i.i.i, %for.body.i.i68.i ]
  %sub.ptr.lhs.cast.i.i.i = ptrtoint ptr %at.0.lcssa.i.i.i to i32
  %sub.ptr.sub.i.i.i = sub i32 %sub.ptr.lhs.cast.i.i.i, ptrtoint (ptr @show.text to i32)
  %cmp9.i.i = icmp sgt i32 %sub.ptr.sub.i.i.i, 0
  br i1 %cmp9.i.i, label %for.body.i59.i, label %show.exit.i

for.body.i59.i:                                   ; preds = %for.inc.i66.i, %digits.exit.i.i
  %k.011.i.i = phi i32 [ %add4.i.i, %for.inc.i66.i ], [ 0, %digits.exit.i.i ]
  %sum.010.i.i = phi i32 [ %add.i63.i, %for.inc.i66.i ], [ 0, %digits.exit.i.i ]
  %arrayidx.i60.i = getelementptr inbounds [1090 x i8], ptr @show.text, i32 0, i32 %k.011.i.i
  %v34 = load i8, ptr %arrayidx.i60.i, align 1, !tbaa !4
  %conv.i61.i = sext i8 %v34 to i32
  %sub.i62.i = add i32 %sum.010.i.i, -48
  %add.i63.i = add i32 %sub.i62.i, %conv.i61.i
  %call3.i.i = tail call i32 @putchar(i32 noundef signext %conv.i61.i)
  %add4.i.i = add nuw nsw i32 %k.011.i.i, 1
  %rem.i64.i = urem i32 %add4.i.i, 60
  %cmp5.i.i = icmp eq i32 %rem.i64.i, 0
  %cmp8.i65.i = icmp slt i32 %add4.i.i, %sub.ptr.sub.i.i.i
  %or.cond.i.i = and i1 %cmp8.i65.i, %cmp5.i.i
  br i1 %or.cond.i.i, label %if.then.i67.i, label %for.inc.i66.i

if.then.i67.i:                                    ; preds = %for.body.i59.i
  %call10.i.i = tail call i32 @putchar(i32 noundef signext 10)
  br label %for.inc.i66.i

for.inc.i66.i:                                    ; preds = %if.then.i67.i, %for.body.i59.i
  %exitcond.not.i.i = icmp eq i32 %add4.i.i, %sub.ptr.sub.i.i.i
  br i1 %exitcond.not.i.i, label %show.exit.i, label %for.body.i59.i, !llvm.loop !30

show.exit.i:                                      ; preds = %for.inc.i66.i, %digits.exit.i.i
  %sum.0.lcssa.i.i = phi i32 [ 0, %digits.exit.i.i ], [ %add.i63.i, %for.inc.i66.i ]
  %print.868.0.i.i = tail call i32 @__print_text(ptr nonnull getelementptr inbounds (i8, ptr @__streams, i32 12), ptr nonnull @.str.5, i32 3) #14
  %print.868.1.i.i = sext i32 %sub.ptr.sub.i.i.i to i64
  %print.868.2.i.i = tail call i32 @__print_signed(ptr nonnull getelementptr inbounds (i8, ptr @__streams, i32 12), i64 %print.868.1.i.i, i32 0, i32 0, i32 -1) #14
  %print.868.3.i.i = tail call i32 @__print_text(ptr nonnull getelementptr inbounds (i8, ptr @__streams, i32 12), ptr nonnull getelementptr inbounds (i8, ptr @.str.5, i32 5), i32 13) #14
  %print.868.4.i.i = sext i32 %sum.0.lcssa.i.i to i64
  %print.868.5.i.i = tail call i32 @__print_signed(ptr nonnull getelementptr inbounds (i8, ptr @__streams, i32 12), i64 %print.868.4.i.i, i32 0, i32 0, i32 -1) #14
  %print.868.6.i.i = tail call i32 @__print_text(ptr nonnull getelementptr inbounds (i8, ptr @__streams, i32 12), ptr nonnull getelementptr inbounds (i8, ptr @.str.5, i32 20), i32 1) #14
  %inc = add nsw i32 %answers.012, 1
  br label %if.end

if.else:                                          ; preds = %sw.bb22.i, %cond.end.i
  %print.55.0 = tail call i32 @__print_text(ptr nonnull getelementptr inbounds (i8, ptr @__streams, i32 12), ptr nonnull @.str, i32 16) #14
  %print.55.1 = tail call i32 @__print_string(ptr nonnull getelementptr inbounds (i8, ptr @__streams, i32 12), ptr nonnull @main.line, i32 0, i32 0, i32 -1) #14
  br label %if.end

if.end:                                           ; preds = %if.else, %show.exit.i
  %answers.1 = phi i32 [ %inc, %show.exit.i ], [ %answers.012, %if.else ]
  %call = tail call ptr @fgets(ptr noundef nonnull @main.line, i32 noundef signext 1000, ptr noundef nonnull @__streams)
  %tobool.not = icmp eq ptr %call, null
  br i1 %tobool.not, label %while.end, label %while.body, !llvm.loop !31

while.end:                                        ; preds = %if.end, %entry
  %answers.0.lcssa = phi i32 [ 0, %entry ], [ %answers.1, %if.end ]
  ret i32 %answers.0.lcssa
}

; Function Attrs: nounwind optsize
define internal noundef ptr @fgets(ptr noalias noundef writeonly %to, i32 noundef signext %n, ptr noalias nocapture noundef %stream) local_unnamed_addr #1 {
entry:
  %cmp = icmp slt i32 %n, 1
  br i1 %cmp, label %cleanup, label %while.cond.preheader

while.cond.preheader:                             ; preds = %entry
  %cmp123.not = icmp eq i32 %n, 1
  br i1 %cmp123.not, label %if.end10, label %land.rhs

land.rhs:                                         ; preds = %while.body, %while.cond.preheader
  %dec25.in = phi i32 [ %dec25, %while.body ], [ %n, %while.cond.preheader ]
  %at.024 = phi ptr [ %incdec.ptr, %while.body ], [ %to, %while.cond.preheader ]
  %call = tail call i32 @fgetc(ptr noundef %stream) #15
  %cmp3.not = icmp eq i32 %call, -1
  br i1 %cmp3.not, label %while.end, label %while.body

while.body:                                       ; preds = %land.rhs
  %dec25 = add nsw i32 %dec25.in, -1
  %conv = trunc i32 %call to i8
  %incdec.ptr = getelementptr inbounds i8, ptr %at.024, i32 1
  store i8 %conv, ptr %at.024, align 1, !tbaa !4
  %cmp1 = icmp sgt i32 %dec25.in, 2
  %cmp2 = icmp ne i32 %call, 10
  %or.cond = and i1 %cmp1, %cmp2
  br i1 %or.cond, label %land.rhs, label %if.end10, !llvm.loop !32

while.end:                                        ; preds = %land.rhs
  %cmp7 = icmp eq ptr %at.024, %to
  br i1 %cmp7, label %cleanup, label %if.end10

if.end10:                                         ; preds = %while.end, %while.body, %while.cond.preheader
  %at.021 = phi ptr [ %at.024, %while.end ], [ %to, %while.cond.preheader ], [ %incdec.ptr, %while.body ]
  store i8 0, ptr %at.021, align 1, !tbaa !4
  br label %cleanup

cleanup:                                          ; preds = %if.end10, %while.end, %entry
  %retval.0 = phi ptr [ %to, %if.end10 ], [ null, %entry ], [ null, %while.end ]
  ret ptr %retval.0
}

; Function Attrs: nounwind
define internal fastcc noundef ptr @read_number(ptr nocapture noundef %to, ptr noundef readonly %at) unnamed_addr #0 {
entry:
  store i32 2, ptr %to, align 4, !tbaa !10
  %piece.i = getelementptr inbounds i8, ptr %to, i32 4
  store i32 0, ptr %piece.i, align 4, !tbaa !13
  %arrayidx3.i = getelementptr inbounds i8, ptr %to, i32 8
  store i32 0, ptr %arrayidx3.i, align 4, !tbaa !13
  br label %land.rhs.i.i

land.rhs.i.i:                                     ; preds = %while.body.i.i, %entry
  %sub46.i.i = phi i32 [ %sub.i.i, %while.body.i.i ], [ 2, %entry ]
  %sub.i.i = add nsw i32 %sub46.i.i, -1
  %arrayidx.i.i = getelementptr inbounds [120 x i32], ptr %piece.i, i32 0, i32 %sub.i.i
  %v0 = load i32, ptr %arrayidx.i.i, align 4, !tbaa !13
  %cmp2.i.i = icmp eq i32 %v0, 0
  br i1 %cmp2.i.i, label %while.body.i.i, label %while.cond.preheader

while.body.i.i:                                   ; preds = %land.rhs.i.i
  store i32 %sub.i.i, ptr %to, align 4, !tbaa !10
  %cmp.i.i = icmp ugt i32 %sub46.i.i, 1
  br i1 %cmp.i.i, label %land.rhs.i.i, label %while.cond.preheader, !llvm.loop !33

while.cond.preheader:                             ; preds = %while.body.i.i, %land.rhs.i.i
  br label %while.cond

while.cond:                                       ; preds = %while.cond, %while.cond.preheader
  %at.addr.0 = phi ptr [ %incdec.ptr, %while.cond ], [ %at, %while.cond.preheader ]
  %v1 = load i8, ptr %at.addr.0, align 1, !tbaa !4
  %conv = zext i8 %v1 to i32
  %call = tail call i32 @isspace(i32 noundef signext %conv) #16
  %tobool.not = icmp eq i32 %call, 0
  %incdec.ptr = getelementptr inbounds i8, ptr %at.addr.0, i32 1
  br i1 %tobool.not, label %for.cond.preheader, label %while.cond, !llvm.loop !34

for.cond.preheader:                               ; preds = %while.cond
  %isdigittmp17 = add nsw i32 %conv, -48
  %isdigit18 = icmp ult i32 %isdigittmp17, 10
  br i1 %isdigit18, label %for.body, label %for.end

for.body:                                         ; preds = %scale.exit, %for.cond.preheader
  %v3 = phi i8 [ %v10, %scale.exit ], [ %v1, %for.cond.preheader ]
  %at.addr.119 = phi ptr [ %incdec.ptr5, %scale.exit ], [ %at.addr.0, %for.cond.preheader ]
  %conv4 = sext i8 %v3 to i32
  %sub = add nsw i32 %conv4, -48
  %conv.i = zext i32 %sub to i64
  %v4 = load i32, ptr %to, align 4, !tbaa !10
  %cmp15.i = icmp sgt i32 %v4, 0
  br i1 %cmp15.i, label %for.body.i, label %for.cond7.preheader.i

for.cond7.preheader.i:                            ; preds = %for.body.i, %for.body
  %carry.0.lcssa.i = phi i64 [ %conv.i, %for.body ], [ %div.i, %for.body.i ]
  %tobool.not18.i = icmp eq i64 %carry.0.lcssa.i, 0
  br i1 %tobool.not18.i, label %for.end13.i, label %for.body8.i

for.body.i:                                       ; preds = %for.body.i, %for.body
  %k.017.i = phi i32 [ %inc.i, %for.body.i ], [ 0, %for.body ]
  %carry.016.i = phi i64 [ %div.i, %for.body.i ], [ %conv.i, %for.body ]
  %arrayidx.i = getelementptr inbounds [120 x i32], ptr %piece.i, i32 0, i32 %k.017.i
  %v5 = load i32, ptr %arrayidx.i, align 4, !tbaa !13
  %conv2.i = zext i32 %v5 to i64
  %mul.i = mul nuw nsw i64 %conv2.i, 10
  %add.i = add nuw nsw i64 %mul.i, %carry.016.i
  %add.i.frozen = freeze i64 %add.i
  %div.i = udiv i64 %add.i.frozen, 1000000000
  %v6 = mul i64 %div.i, 1000000000
  %rem.i.decomposed = sub i64 %add.i.frozen, %v6
  %conv4.i = trunc nuw nsw i64 %rem.i.decomposed to i32
  store i32 %conv4.i, ptr %arrayidx.i, align 4, !tbaa !13
  %inc.i = add nuw nsw i32 %k.017.i, 1
  %exitcond.not.i = icmp eq i32 %inc.i, %v4
  br i1 %exitcond.not.i, label %for.cond7.preheader.i, label %for.body.i, !llvm.loop !35

for.body8.i:                                      ; preds = %push.exit.i, %for.cond7.preheader.i
  %carry.119.i = phi i64 [ %div12.i, %push.exit.i ], [ %carry.0.lcssa.i, %for.cond7.preheader.i ]
  %v7 = load i32, ptr %to, align 4, !tbaa !10
  %cmp.i.i7 = icmp slt i32 %v7, 120
  br i1 %cmp.i.i7, label %push.exit.i, label %cond.false.i.i

cond.false.i.i:                                   ; preds = %for.body8.i
  tail call void @__assert_fail(ptr noundef nonnull @.str.2, ptr noundef nonnull @.str.3, i32 noundef signext 32, ptr noundef nonnull @__func__.push) #13
  unreachable

push.exit.i:                                      ; preds = %for.body8.i
  %carry.119.i.frozen = freeze i64 %carry.119.i
  %div12.i = udiv i64 %carry.119.i.frozen, 1000000000
  %v8 = mul i64 %div12.i, 1000000000
  %rem9.i.decomposed = sub i64 %carry.119.i.frozen, %v8
  %conv10.i = trunc nuw nsw i64 %rem9.i.decomposed to i32
  %inc.i.i = add nsw i32 %v7, 1
  store i32 %inc.i.i, ptr %to, align 4, !tbaa !10
  %arrayidx.i.i8 = getelementptr inbounds [120 x i32], ptr %piece.i, i32 0, i32 %v7
  store i32 %conv10.i, ptr %arrayidx.i.i8, align 4, !tbaa !13
  %tobool.not.i = icmp ult i64 %carry.119.i, 1000000000
  br i1 %tobool.not.i, label %for.end13.i, label %for.body8.i, !llvm.loop !36

for.end13.i:                                      ; preds = %push.exit.i, %for.cond7.preheader.i
  %it.promoted.i.i = load i32, ptr %to, align 4, !tbaa !10
  %cmp5.i.i = icmp sgt i32 %it.promoted.i.i, 0
  br i1 %cmp5.i.i, label %land.rhs.i.i9, label %scale.exit

land.rhs.i.i9:                                    ; preds = %while.body.i.i13, %for.end13.i
  %sub46.i.i10 = phi i32 [ %sub.i.i11, %while.body.i.i13 ], [ %it.promoted.i.i, %for.end13.i ]
  %sub.i.i11 = add nsw i32 %sub46.i.i10, -1
  %arrayidx.i13.i = getelementptr inbounds [120 x i32], ptr %piece.i, i32 0, i32 %sub.i.i11
  %v9 = load i32, ptr %arrayidx.i13.i, align 4, !tbaa !13
  %cmp2.i.i12 = icmp eq i32 %v9, 0
  br i1 %cmp2.i.i12, label %while.body.i.i13, label %scale.exit

while.body.i.i13:                                 ; preds = %land.rhs.i.i9
  store i32 %sub.i.i11, ptr %to, align 4, !tbaa !10
  %cmp.i14.i = icmp sgt i32 %sub46.i.i10, 1
  br i1 %cmp.i14.i, label %land.rhs.i.i9, label %scale.exit, !llvm.loop !37

scale.exit:                                       ; preds = %while.body.i.i13, %land.rhs.i.i9, %for.end13.i
  %incdec.ptr5 = getelementptr inbounds i8, ptr %at.addr.119, i32 1
  %v10 = load i8, ptr %incdec.ptr5, align 1, !tbaa !4
  %conv1 = zext i8 %v10 to i32
  %isdigittmp = add nsw i32 %conv1, -48
  %isdigit = icmp ult i32 %isdigittmp, 10
  br i1 %isdigit, label %for.body, label %for.end, !llvm.loop !38

for.end:                                          ; preds = %scale.exit, %for.cond.preheader
  %at.addr.1.lcssa = phi ptr [ %at.addr.0, %for.cond.preheader ], [ %incdec.ptr5, %scale.exit ]
  ret ptr %at.addr.1.lcssa
}

; Function Attrs: noreturn nounwind optsize
define internal void @__assert_fail(ptr nocapture noundef readnone %condition, ptr nocapture noundef readnone %file, i32 noundef signext %line, ptr nocapture noundef readnone %function) local_unnamed_addr #2 {
entry:
  tail call void @abort() #17
  unreachable
}

; Function Attrs: nocallback nofree nosync nounwind willreturn memory(argmem: readwrite)
declare void @llvm.lifetime.start.p0(i64 immarg, ptr nocapture) #3

; Function Attrs: nocallback nofree nounwind willreturn memory(argmem: readwrite)
declare void @llvm.memcpy.p0.p0.i32(ptr noalias nocapture writeonly, ptr noalias nocapture readonly, i32, i1 immarg) #4

; Function Attrs: nocallback nofree nosync nounwind willreturn memory(argmem: readwrite)
declare void @llvm.lifetime.end.p0(i64 immarg, ptr nocapture) #3

; Function Attrs: nounwind
define internal fastcc void @multiply(ptr nocapture noundef %to, ptr nocapture noundef readonly %a, ptr nocapture noundef readonly %b) unnamed_addr #0 {
entry:
  tail call void @llvm.memset.p0.i32(ptr noundef nonnull align 4 dereferenceable(484) %to, i8 0, i32 484, i1 false)
  %v0 = load i32, ptr %a, align 4, !tbaa !10
  %cmp31 = icmp sgt i32 %v0, 0
  br i1 %cmp31, label %for.cond1.preheader.lr.ph, label %for.cond.cleanup

for.cond1.preheader.lr.ph:                        ; preds = %entry
  %piece = getelementptr inbounds i8, ptr %to, i32 4
  %piece8 = getelementptr inbounds i8, ptr %a, i32 4
  %piece15 = getelementptr inbounds i8, ptr %b, i32 4
  br label %for.cond1.preheader

for.cond1.preheader:                              ; preds = %for.cond.cleanup4, %for.cond1.preheader.lr.ph
  %indvars.iv = phi i32 [ 0, %for.cond1.preheader.lr.ph ], [ %indvars.iv.next, %for.cond.cleanup4 ]
  %i.032 = phi i32 [ 0, %for.cond1.preheader.lr.ph ], [ %inc27, %for.cond.cleanup4 ]
  %umax = tail call i32 @llvm.umax.i32(i32 %i.032, i32 120)
  %v1 = add i32 %umax, %indvars.iv
  %v2 = load i32, ptr %b, align 4, !tbaa !10
  %cmp327 = icmp sgt i32 %v2, 0
  br i1 %cmp327, label %for.body5.lr.ph, label %for.cond.cleanup4

for.body5.lr.ph:                                  ; preds = %for.cond1.preheader
  %arrayidx9 = getelementptr inbounds [120 x i32], ptr %piece8, i32 0, i32 %i.032
  br label %for.body5

for.cond.cleanup:                                 ; preds = %for.cond.cleanup4, %entry
  %.lcssa = phi i32 [ %v0, %entry ], [ %v5, %for.cond.cleanup4 ]
  %v3 = load i32, ptr %b, align 4, !tbaa !10
  %add31 = add nsw i32 %v3, %.lcssa
  %spec.select = tail call i32 @llvm.smin.i32(i32 %add31, i32 120)
  store i32 %spec.select, ptr %to, align 4, !tbaa !10
  %piece.i = getelementptr inbounds i8, ptr %to, i32 4
  %cmp5.i = icmp sgt i32 %add31, 0
  br i1 %cmp5.i, label %land.rhs.i, label %trim.exit

land.rhs.i:                                       ; preds = %while.body.i, %for.cond.cleanup
  %sub46.i = phi i32 [ %sub.i, %while.body.i ], [ %spec.select, %for.cond.cleanup ]
  %sub.i = add nsw i32 %sub46.i, -1
  %arrayidx.i = getelementptr inbounds [120 x i32], ptr %piece.i, i32 0, i32 %sub.i
  %v4 = load i32, ptr %arrayidx.i, align 4, !tbaa !13
  %cmp2.i = icmp eq i32 %v4, 0
  br i1 %cmp2.i, label %while.body.i, label %trim.exit

while.body.i:                                     ; preds = %land.rhs.i
  store i32 %sub.i, ptr %to, align 4, !tbaa !10
  %cmp.i = icmp sgt i32 %sub46.i, 1
  br i1 %cmp.i, label %land.rhs.i, label %trim.exit, !llvm.loop !39

trim.exit:                                        ; preds = %while.body.i, %land.rhs.i, %for.cond.cleanup
  ret void

for.cond.cleanup4:                                ; preds = %cond.end18, %for.cond1.preheader
  %inc27 = add nuw nsw i32 %i.032, 1
  %v5 = load i32, ptr %a, align 4, !tbaa !10
  %cmp = icmp slt i32 %inc27, %v5
  %indvars.iv.next = add nsw i32 %indvars.iv, -1
  br i1 %cmp, label %for.cond1.preheader, label %for.cond.cleanup, !llvm.loop !40

for.body5:                                        ; preds = %cond.end18, %for.body5.lr.ph
  %cmp330 = phi i1 [ true, %for.body5.lr.ph ], [ %cmp3, %cond.end18 ]
  %k.029 = phi i32 [ 0, %for.body5.lr.ph ], [ %inc, %cond.end18 ]
  %carry.028 = phi i64 [ 0, %for.body5.lr.ph ], [ %div, %cond.end18 ]
  %exitcond.not = icmp eq i32 %k.029, %v1
  br i1 %exitcond.not, label %cond.false, label %cond.end

cond.false:                                       ; preds = %for.body5
  tail call void @__assert_fail(ptr noundef nonnull @.str.4, ptr noundef nonnull @.str.3, i32 noundef signext 65, ptr noundef nonnull @__func__.multiply) #13
  unreachable

cond.end:                                         ; preds = %for.body5
  %add = add nuw nsw i32 %k.029, %i.032
  %arrayidx = getelementptr inbounds [120 x i32], ptr %piece, i32 0, i32 %add
  %v6 = load i32, ptr %arrayidx, align 4, !tbaa !13
  %conv = zext i32 %v6 to i64
  %v7 = load i32, ptr %arrayidx9, align 4, !tbaa !13
  %conv10 = zext i32 %v7 to i64
  br i1 %cmp330, label %cond.true14, label %cond.end18

cond.true14:                                      ; preds = %cond.end
  %arrayidx16 = getelementptr inbounds [120 x i32], ptr %piece15, i32 0, i32 %k.029
  %v8 = load i32, ptr %arrayidx16, align 4, !tbaa !13
  br label %cond.end18

cond.end18:                                       ; preds = %cond.true14, %cond.end
  %cond = phi i32 [ %v8, %cond.true14 ], [ 0, %cond.end ]
  %conv19 = zext i32 %cond to i64
  %mul = mul nuw i64 %conv19, %conv10
  %add20 = add nuw nsw i64 %carry.028, %conv
  %add21 = add i64 %add20, %mul
  %add21.frozen = freeze i64 %add21
  %div = udiv i64 %add21.frozen, 1000000000
  %v9 = mul i64 %div, 1000000000
  %rem.decomposed = sub i64 %add21.frozen, %v9
  %conv22 = trunc nuw nsw i64 %rem.decomposed to i32
  store i32 %conv22, ptr %arrayidx, align 4, !tbaa !13
  %inc = add nuw nsw i32 %k.029, 1
  %v10 = load i32, ptr %b, align 4, !tbaa !10
  %cmp3 = icmp slt i32 %inc, %v10
  %tobool = icmp ugt i64 %add21, 999999999
  %v11 = select i1 %cmp3, i1 true, i1 %tobool
  br i1 %v11, label %for.body5, label %for.cond.cleanup4, !llvm.loop !41
}

; Function Attrs: nounwind optsize
define internal noundef i32 @__print_text(ptr nocapture noundef %stream, ptr nocapture noundef readonly %text, i32 noundef returned signext %n) local_unnamed_addr #1 {
entry:
  %v0 = load i8, ptr %stream, align 4, !tbaa !42, !alias.scope !45, !noalias !48
  %cmp.i = icmp eq i8 %v0, 0
  %cmp210.not.i = icmp eq i32 %n, 0
  %or.cond = or i1 %cmp210.not.i, %cmp.i
  br i1 %or.cond, label %fwrite.exit, label %for.body.i

for.body.i:                                       ; preds = %for.body.i, %entry
  %k.011.i = phi i32 [ %inc.i, %for.body.i ], [ 0, %entry ]
  %arrayidx.i = getelementptr inbounds i8, ptr %text, i32 %k.011.i
  %v1 = load i8, ptr %arrayidx.i, align 1, !tbaa !4, !alias.scope !48, !noalias !45
  %conv4.i = zext i8 %v1 to i32
  %call.i = tail call i32 @fputc(i32 noundef signext %conv4.i, ptr noundef nonnull %stream) #15, !noalias !48
  %inc.i = add nuw i32 %k.011.i, 1
  %exitcond.not.i = icmp eq i32 %inc.i, %n
  br i1 %exitcond.not.i, label %fwrite.exit, label %for.body.i, !llvm.loop !50

fwrite.exit:                                      ; preds = %for.body.i, %entry
  ret i32 %n
}

; Function Attrs: nounwind optsize
define internal i32 @__print_unsigned(ptr nocapture noundef %stream, i64 noundef zeroext %n, i32 noundef signext %base, i32 noundef signext %flags, i32 noundef signext %width, i32 noundef signext %precision) local_unnamed_addr #1 {
entry:
  %room = alloca [24 x i8], align 1
  call void @llvm.lifetime.start.p0(i64 24, ptr nonnull %room) #14
  %and.i = and i32 %flags, 32
  %tobool.not.i = icmp eq i32 %and.i, 0
  %cond.i = select i1 %tobool.not.i, ptr @.str.9.13, ptr @.str.8
  %cmp.i = icmp ult i64 %n, 4294967296
  br i1 %cmp.i, label %if.then.i, label %for.cond3.preheader.i

for.cond3.preheader.i:                            ; preds = %entry
  %conv7.i = zext i32 %base to i64
  br label %for.body6.i

if.then.i:                                        ; preds = %entry
  %conv.i = trunc nuw i64 %n to i32
  %cmp1.not31.i = icmp eq i32 %conv.i, 0
  br i1 %cmp1.not31.i, label %spelled.exit, label %for.body.i

for.body.i:                                       ; preds = %for.body.i, %if.then.i
  %k.033.i = phi i32 [ %div.i, %for.body.i ], [ %conv.i, %if.then.i ]
  %end.addr.032.i.idx = phi i32 [ %end.addr.032.i.add, %for.body.i ], [ 24, %if.then.i ]
  %rem.i = urem i32 %k.033.i, %base
  %arrayidx.i = getelementptr inbounds i8, ptr %cond.i, i32 %rem.i
  %v0 = load i8, ptr %arrayidx.i, align 1, !tbaa !4
  %end.addr.032.i.add = add nsw i32 %end.addr.032.i.idx, -1
  %incdec.ptr.i.ptr = getelementptr inbounds i8, ptr %room, i32 %end.addr.032.i.add
  store i8 %v0, ptr %incdec.ptr.i.ptr, align 1, !tbaa !4
  %div.i = udiv i32 %k.033.i, %base
  %cmp1.not.i = icmp ult i32 %k.033.i, %base
  br i1 %cmp1.not.i, label %spelled.exit, label %for.body.i, !llvm.loop !51

for.body6.i:                                      ; preds = %for.body6.i, %for.cond3.preheader.i
  %end.addr.130.i.idx = phi i32 [ 24, %for.cond3.preheader.i ], [ %end.addr.130.i.add, %for.body6.i ]
  %n.addr.029.i = phi i64 [ %n, %for.cond3.preheader.i ], [ %div13.i, %for.body6.i ]
  %div13.i = udiv i64 %n.addr.029.i, %conv7.i
  %v1 = mul i64 %div13.i, %conv7.i
  %rem8.i.decomposed = sub i64 %n.addr.029.i, %v1
  %idxprom.i = trunc nuw i64 %rem8.i.decomposed to i32
  %arrayidx9.i = getelementptr inbounds i8, ptr %cond.i, i32 %idxprom.i
  %v2 = load i8, ptr %arrayidx9.i, align 1, !tbaa !4
  %end.addr.130.i.add = add nsw i32 %end.addr.130.i.idx, -1
  %incdec.ptr10.i.ptr = getelementptr inbounds i8, ptr %room, i32 %end.addr.130.i.add
  store i8 %v2, ptr %incdec.ptr10.i.ptr, align 1, !tbaa !4
  %cmp4.not.i = icmp ult i64 %n.addr.029.i, %conv7.i
  br i1 %cmp4.not.i, label %spelled.exit, label %for.body6.i, !llvm.loop !52

spelled.exit:                                     ; preds = %for.body6.i, %for.body.i, %if.then.i
  %retval.0.i.idx = phi i32 [ 24, %if.then.i ], [ %end.addr.032.i.add, %for.body.i ], [ %end.addr.130.i.add, %for.body6.i ]
  %cmp = icmp eq i64 %n, 0
  %cmp1 = icmp ne i32 %precision, 0
  %or.cond = and i1 %cmp, %cmp1
  br i1 %or.cond, label %if.then, label %if.end

if.then:                                          ; preds = %spelled.exit
  %retval.0.i.add = add nsw i32 %retval.0.i.idx, -1
  %incdec.ptr.ptr = getelementptr inbounds i8, ptr %room, i32 %retval.0.i.add
  store i8 48, ptr %incdec.ptr.ptr, align 1, !tbaa !4
  br label %if.end

if.end:                                           ; preds = %if.then, %spelled.exit
  %at.0.idx = phi i32 [ %retval.0.i.add, %if.then ], [ %retval.0.i.idx, %spelled.exit ]
  %at.0.ptr = getelementptr inbounds i8, ptr %room, i32 %at.0.idx
  %and = and i32 %flags, 8
  %tobool = icmp ne i32 %and, 0
  %cmp13 = icmp eq i32 %base, 8
  %or.cond29 = and i1 %cmp13, %tobool
  %gepdiff = sub nsw i32 24, %at.0.idx
  %cmp15.not = icmp sge i32 %gepdiff, %precision
  %or.cond49.not = select i1 %or.cond29, i1 %cmp15.not, i1 false
  br i1 %or.cond49.not, label %land.lhs.true16, label %if.end22

land.lhs.true16:                                  ; preds = %if.end
  %cmp17 = icmp eq i32 %at.0.idx, 24
  br i1 %cmp17, label %if.then20, label %lor.lhs.false

lor.lhs.false:                                    ; preds = %land.lhs.true16
  %v3 = load i8, ptr %at.0.ptr, align 1, !tbaa !4
  %cmp18.not = icmp eq i8 %v3, 48
  br i1 %cmp18.not, label %if.end22, label %if.then20

if.then20:                                        ; preds = %lor.lhs.false, %land.lhs.true16
  %incdec.ptr21 = getelementptr inbounds i8, ptr %at.0.ptr, i32 -1
  store i8 48, ptr %incdec.ptr21, align 1, !tbaa !4
  br label %if.end22

if.end22:                                         ; preds = %if.then20, %lor.lhs.false, %if.end
  %at.1 = phi ptr [ %incdec.ptr21, %if.then20 ], [ %at.0.ptr, %lor.lhs.false ], [ %at.0.ptr, %if.end ]
  %add.ptr.ptr = getelementptr inbounds i8, ptr %room, i32 24
  %sub.ptr.lhs.cast = ptrtoint ptr %add.ptr.ptr to i32
  %cmp3 = icmp eq i32 %base, 16
  %cmp5 = icmp ne i64 %n, 0
  %v4 = and i1 %cmp5, %cmp3
  %or.cond28 = and i1 %v4, %tobool
  %cond = select i1 %tobool.not.i, ptr @.str.6, ptr @.str.5.19
  %front.0 = select i1 %or.cond28, ptr %cond, ptr @.str.9
  %sub.ptr.rhs.cast24 = ptrtoint ptr %at.1 to i32
  %sub.ptr.sub25 = sub i32 %sub.ptr.lhs.cast, %sub.ptr.rhs.cast24
  %call26 = call fastcc i32 @number(ptr noundef %stream, ptr noundef nonnull %front.0, ptr noundef nonnull %at.1, i32 noundef signext %sub.ptr.sub25, i32 noundef signext %flags, i32 noundef signext %width, i32 noundef signext %precision) #15
  call void @llvm.lifetime.end.p0(i64 24, ptr nonnull %room) #14
  ret i32 %call26
}

; Function Attrs: nofree norecurse nosync nounwind optsize willreturn memory(write, argmem: none, inaccessiblemem: none)
define internal noundef nonnull ptr @__print_open(ptr noundef %to, i32 noundef signext %n) local_unnamed_addr #5 {
entry:
  store i8 3, ptr @memory, align 4, !tbaa !42
  store ptr %to, ptr getelementptr inbounds (i8, ptr @memory, i32 4), align 4, !tbaa !53
  %cmp.i = icmp ult i32 %n, 1
  %sub.i = sub i32 %n, 1
  %cond.i = select i1 %cmp.i, i32 0, i32 %sub.i
  store i32 %cond.i, ptr getelementptr inbounds (i8, ptr @memory, i32 8), align 4, !tbaa !54
  ret ptr @memory
}

; Function Attrs: mustprogress nofree norecurse nosync nounwind optsize willreturn memory(write, argmem: readwrite, inaccessiblemem: none)
define internal noundef i32 @__print_close(ptr nocapture noundef readonly %stream, i32 noundef signext %n) local_unnamed_addr #6 {
entry:
  %cmp.not = icmp eq i32 %n, 0
  br i1 %cmp.not, label %if.end, label %if.then

if.then:                                          ; preds = %entry
  %at = getelementptr inbounds i8, ptr %stream, i32 4
  %v0 = load ptr, ptr %at, align 4, !tbaa !53
  store i8 0, ptr %v0, align 1, !tbaa !4
  br label %if.end

if.end:                                           ; preds = %if.then, %entry
  ret i32 0
}

; Function Attrs: nofree nounwind
declare dso_local noundef i32 @putchar(i32 noundef signext) local_unnamed_addr #7

; Function Attrs: nounwind optsize
define internal i32 @__print_signed(ptr nocapture noundef %stream, i64 noundef signext %n, i32 noundef signext %flags, i32 noundef signext %width, i32 noundef signext %precision) local_unnamed_addr #1 {
entry:
  %room = alloca [24 x i8], align 1
  call void @llvm.lifetime.start.p0(i64 24, ptr nonnull %room) #14
  %add.ptr = getelementptr inbounds i8, ptr %room, i32 24
  %cmp = icmp slt i64 %n, 0
  %shr.i = lshr i64 %n, 63
  %tobool.i = icmp ne i64 %shr.i, 0
  %sub.i = sub i64 0, %n
  %cond.i = select i1 %tobool.i, i64 %sub.i, i64 %n
  %cmp.i = icmp ult i64 %cond.i, 4294967296
  br i1 %cmp.i, label %if.then.i, label %for.body6.i

if.then.i:                                        ; preds = %entry
  %conv.i = trunc nuw i64 %cond.i to i32
  %cmp1.not31.i = icmp eq i32 %conv.i, 0
  br i1 %cmp1.not31.i, label %spelled.exit, label %for.body.i

for.body.i:                                       ; preds = %for.body.i, %if.then.i
  %k.033.i = phi i32 [ %div.i, %for.body.i ], [ %conv.i, %if.then.i ]
  %end.addr.032.i = phi ptr [ %incdec.ptr.i, %for.body.i ], [ %add.ptr, %if.then.i ]
  %rem.i = urem i32 %k.033.i, 10
  %arrayidx.i = getelementptr inbounds i8, ptr @.str.9.13, i32 %rem.i
  %v0 = load i8, ptr %arrayidx.i, align 1, !tbaa !4
  %incdec.ptr.i = getelementptr inbounds i8, ptr %end.addr.032.i, i32 -1
  store i8 %v0, ptr %incdec.ptr.i, align 1, !tbaa !4
  %div.i = udiv i32 %k.033.i, 10
  %cmp1.not.i = icmp ult i32 %k.033.i, 10
  br i1 %cmp1.not.i, label %spelled.exit, label %for.body.i, !llvm.loop !51

for.body6.i:                                      ; preds = %for.body6.i, %entry
  %end.addr.130.i = phi ptr [ %incdec.ptr10.i, %for.body6.i ], [ %add.ptr, %entry ]
  %n.addr.029.i = phi i64 [ %div13.i, %for.body6.i ], [ %cond.i, %entry ]
  %div13.i = udiv i64 %n.addr.029.i, 10
  %v1 = mul i64 %div13.i, 10
  %rem8.i.decomposed = sub i64 %n.addr.029.i, %v1
  %idxprom.i = trunc nuw nsw i64 %rem8.i.decomposed to i32
  %arrayidx9.i = getelementptr inbounds i8, ptr @.str.9.13, i32 %idxprom.i
  %v2 = load i8, ptr %arrayidx9.i, align 1, !tbaa !4
  %incdec.ptr10.i = getelementptr inbounds i8, ptr %end.addr.130.i, i32 -1
  store i8 %v2, ptr %incdec.ptr10.i, align 1, !tbaa !4
  %cmp4.not.i = icmp ult i64 %n.addr.029.i, 10
  br i1 %cmp4.not.i, label %spelled.exit, label %for.body6.i, !llvm.loop !52

spelled.exit:                                     ; preds = %for.body6.i, %for.body.i, %if.then.i
  %retval.0.i = phi ptr [ %add.ptr, %if.then.i ], [ %incdec.ptr.i, %for.body.i ], [ %incdec.ptr10.i, %for.body6.i ]
  %cmp1 = icmp eq i64 %n, 0
  %cmp2 = icmp ne i32 %precision, 0
  %or.cond = and i1 %cmp1, %cmp2
  br i1 %or.cond, label %if.end.thread, label %if.end

if.end.thread:                                    ; preds = %spelled.exit
  %incdec.ptr = getelementptr inbounds i8, ptr %retval.0.i, i32 -1
  store i8 48, ptr %incdec.ptr, align 1, !tbaa !4
  br label %cond.false5

if.end:                                           ; preds = %spelled.exit
  br i1 %cmp, label %cond.end13, label %cond.false5

cond.false5:                                      ; preds = %if.end, %if.end.thread
  %at.027 = phi ptr [ %incdec.ptr, %if.end.thread ], [ %retval.0.i, %if.end ]
  %and = and i32 %flags, 2
  %tobool.not = icmp eq i32 %and, 0
  br i1 %tobool.not, label %cond.false7, label %cond.end13

cond.false7:                                      ; preds = %cond.false5
  %and8 = and i32 %flags, 4
  %tobool9.not = icmp eq i32 %and8, 0
  %cond10 = select i1 %tobool9.not, ptr @.str.9, ptr @.str.4.14
  br label %cond.end13

cond.end13:                                       ; preds = %cond.false7, %cond.false5, %if.end
  %at.028 = phi ptr [ %retval.0.i, %if.end ], [ %at.027, %cond.false7 ], [ %at.027, %cond.false5 ]
  %cond14 = phi ptr [ @.str.2.15, %if.end ], [ %cond10, %cond.false7 ], [ @.str.3.16, %cond.false5 ]
  %sub.ptr.lhs.cast = ptrtoint ptr %add.ptr to i32
  %sub.ptr.rhs.cast = ptrtoint ptr %at.028 to i32
  %sub.ptr.sub = sub i32 %sub.ptr.lhs.cast, %sub.ptr.rhs.cast
  %call15 = call fastcc i32 @number(ptr noundef %stream, ptr noundef nonnull %cond14, ptr noundef nonnull %at.028, i32 noundef signext %sub.ptr.sub, i32 noundef signext %flags, i32 noundef signext %width, i32 noundef signext %precision) #15
  call void @llvm.lifetime.end.p0(i64 24, ptr nonnull %room) #14
  ret i32 %call15
}

; Function Attrs: nounwind optsize
define internal i32 @__print_string(ptr nocapture noundef %stream, ptr noundef %text, i32 noundef signext %flags, i32 noundef signext %width, i32 noundef signext %precision) local_unnamed_addr #1 {
entry:
  %tobool.not = icmp eq ptr %text, null
  %v0 = icmp ult i32 %precision, 6
  %cond = select i1 %v0, ptr @.str.9, ptr @.str.1.10
  %text.addr.0 = select i1 %tobool.not, ptr %cond, ptr %text
  %cmp2 = icmp slt i32 %precision, 0
  br i1 %cmp2, label %while.cond.i, label %cond.false

while.cond.i:                                     ; preds = %while.cond.i, %entry
  %s.0.i = phi ptr [ %incdec.ptr.i, %while.cond.i ], [ %text.addr.0, %entry ]
  %v1 = load i8, ptr %s.0.i, align 1, !tbaa !4
  %tobool.not.i = icmp eq i8 %v1, 0
  %incdec.ptr.i = getelementptr inbounds i8, ptr %s.0.i, i32 1
  br i1 %tobool.not.i, label %strlen.exit, label %while.cond.i, !llvm.loop !55

strlen.exit:                                      ; preds = %while.cond.i
  %sub.ptr.lhs.cast.i = ptrtoint ptr %s.0.i to i32
  %sub.ptr.rhs.cast.i = ptrtoint ptr %text.addr.0 to i32
  %sub.ptr.sub.i = sub i32 %sub.ptr.lhs.cast.i, %sub.ptr.rhs.cast.i
  br label %cond.end

cond.false:                                       ; preds = %entry
  %cmp4.not.i = icmp eq i32 %precision, 0
  br i1 %cmp4.not.i, label %cond.end, label %land.rhs.i

land.rhs.i:                                       ; preds = %while.body.i, %cond.false
  %k.05.i = phi i32 [ %inc.i, %while.body.i ], [ 0, %cond.false ]
  %arrayidx.i = getelementptr inbounds i8, ptr %text.addr.0, i32 %k.05.i
  %v2 = load i8, ptr %arrayidx.i, align 1, !tbaa !4
  %tobool.not.i12 = icmp eq i8 %v2, 0
  br i1 %tobool.not.i12, label %cond.end, label %while.body.i

while.body.i:                                     ; preds = %land.rhs.i
  %inc.i = add nuw nsw i32 %k.05.i, 1
  %exitcond.not.i = icmp eq i32 %inc.i, %precision
  br i1 %exitcond.not.i, label %cond.end, label %land.rhs.i, !llvm.loop !56

cond.end:                                         ; preds = %while.body.i, %land.rhs.i, %cond.false, %strlen.exit
  %cond4 = phi i32 [ %sub.ptr.sub.i, %strlen.exit ], [ 0, %cond.false ], [ %k.05.i, %land.rhs.i ], [ %precision, %while.body.i ]
  %call5 = tail call fastcc i32 @padded(ptr noundef %stream, ptr noundef nonnull %text.addr.0, i32 noundef signext %cond4, i32 noundef signext %flags, i32 noundef signext %width) #15
  ret i32 %call5
}

; Function Attrs: nounwind optsize
define internal fastcc i32 @padded(ptr nocapture noundef %stream, ptr nocapture noundef readonly %text, i32 noundef signext %n, i32 noundef signext %flags, i32 noundef signext %width) unnamed_addr #1 {
entry:
  %cmp = icmp slt i32 %width, 0
  %shr.i = lshr i32 %width, 31
  %tobool.i = icmp ne i32 %shr.i, 0
  %sub.i = sub i32 0, %width
  %cond.i1 = select i1 %tobool.i, i32 %sub.i, i32 %width
  %sub1 = sub nsw i32 %cond.i1, %n
  %and = and i32 %flags, 1
  %tobool = icmp ne i32 %and, 0
  %v0 = or i1 %cmp, %tobool
  br i1 %v0, label %cond.end6, label %cond.false5

cond.false5:                                      ; preds = %entry
  %cmp5.i = icmp sgt i32 %sub1, 0
  br i1 %cmp5.i, label %for.body.i, label %repeated.exit

for.body.i:                                       ; preds = %for.body.i, %cond.false5
  %k.06.i = phi i32 [ %inc.i, %for.body.i ], [ 0, %cond.false5 ]
  %call.i = tail call i32 @fputc(i32 noundef signext 32, ptr noundef %stream) #15
  %inc.i = add nuw nsw i32 %k.06.i, 1
  %exitcond.not.i = icmp eq i32 %inc.i, %sub1
  br i1 %exitcond.not.i, label %repeated.exit, label %for.body.i, !llvm.loop !57

repeated.exit:                                    ; preds = %for.body.i, %cond.false5
  %cond.i = tail call noundef i32 @llvm.smax.i32(i32 %sub1, i32 0)
  br label %cond.end6

cond.end6:                                        ; preds = %repeated.exit, %entry
  %cond7 = phi i32 [ %cond.i, %repeated.exit ], [ 0, %entry ]
  %v1 = load i8, ptr %stream, align 4, !tbaa !42, !alias.scope !58, !noalias !61
  %cmp.i.i = icmp eq i8 %v1, 0
  %cmp210.not.i.i = icmp eq i32 %n, 0
  %or.cond.i = or i1 %cmp210.not.i.i, %cmp.i.i
  br i1 %or.cond.i, label %__print_text.exit, label %for.body.i.i

for.body.i.i:                                     ; preds = %for.body.i.i, %cond.end6
  %k.011.i.i = phi i32 [ %inc.i.i, %for.body.i.i ], [ 0, %cond.end6 ]
  %arrayidx.i.i = getelementptr inbounds i8, ptr %text, i32 %k.011.i.i
  %v2 = load i8, ptr %arrayidx.i.i, align 1, !tbaa !4, !alias.scope !61, !noalias !58
  %conv4.i.i = zext i8 %v2 to i32
  %call.i.i = tail call i32 @fputc(i32 noundef signext %conv4.i.i, ptr noundef nonnull %stream) #15, !noalias !61
  %inc.i.i = add nuw i32 %k.011.i.i, 1
  %exitcond.not.i.i = icmp eq i32 %inc.i.i, %n
  br i1 %exitcond.not.i.i, label %__print_text.exit, label %for.body.i.i, !llvm.loop !50

__print_text.exit:                                ; preds = %for.body.i.i, %cond.end6
  br i1 %v0, label %cond.true10, label %cond.end13

cond.true10:                                      ; preds = %__print_text.exit
  %cmp5.i25 = icmp sgt i32 %sub1, 0
  br i1 %cmp5.i25, label %for.body.i27, label %repeated.exit32

for.body.i27:                                     ; preds = %for.body.i27, %cond.true10
  %k.06.i28 = phi i32 [ %inc.i30, %for.body.i27 ], [ 0, %cond.true10 ]
  %call.i29 = tail call i32 @fputc(i32 noundef signext 32, ptr noundef nonnull %stream) #15
  %inc.i30 = add nuw nsw i32 %k.06.i28, 1
  %exitcond.not.i31 = icmp eq i32 %inc.i30, %sub1
  br i1 %exitcond.not.i31, label %repeated.exit32, label %for.body.i27, !llvm.loop !57

repeated.exit32:                                  ; preds = %for.body.i27, %cond.true10
  %cond.i26 = tail call noundef i32 @llvm.smax.i32(i32 %sub1, i32 0)
  br label %cond.end13

cond.end13:                                       ; preds = %repeated.exit32, %__print_text.exit
  %cond14 = phi i32 [ %cond.i26, %repeated.exit32 ], [ 0, %__print_text.exit ]
  %add = add nsw i32 %cond7, %n
  %add15 = add nsw i32 %add, %cond14
  ret i32 %add15
}

; Function Attrs: nounwind optsize
define internal range(i32 -1, 256) i32 @fputc(i32 noundef signext %c, ptr nocapture noundef %stream) local_unnamed_addr #1 {
entry:
  %v0 = load i8, ptr %stream, align 4, !tbaa !42
  switch i8 %v0, label %if.end18 [
    i8 1, label %if.then
    i8 3, label %land.lhs.true
    i8 0, label %return
  ]

if.then:                                          ; preds = %entry
  %call = tail call i32 @putchar(i32 noundef signext %c) #18
  br label %if.end18

land.lhs.true:                                    ; preds = %entry
  %left = getelementptr inbounds i8, ptr %stream, i32 8
  %v1 = load i32, ptr %left, align 4, !tbaa !54
  %cmp6.not = icmp eq i32 %v1, 0
  br i1 %cmp6.not, label %if.end18, label %if.then8

if.then8:                                         ; preds = %land.lhs.true
  %conv9 = trunc i32 %c to i8
  %at = getelementptr inbounds i8, ptr %stream, i32 4
  %v2 = load ptr, ptr %at, align 4, !tbaa !53
  %incdec.ptr = getelementptr inbounds i8, ptr %v2, i32 1
  store ptr %incdec.ptr, ptr %at, align 4, !tbaa !53
  store i8 %conv9, ptr %v2, align 1, !tbaa !4
  %v3 = load i32, ptr %left, align 4, !tbaa !54
  %dec = add i32 %v3, -1
  store i32 %dec, ptr %left, align 4, !tbaa !54
  br label %if.end18

if.end18:                                         ; preds = %if.then8, %land.lhs.true, %if.then, %entry
  %conv20 = and i32 %c, 255
  br label %return

return:                                           ; preds = %if.end18, %entry
  %retval.0 = phi i32 [ %conv20, %if.end18 ], [ -1, %entry ]
  ret i32 %retval.0
}

; Function Attrs: nocallback nofree nosync nounwind speculatable willreturn memory(none)
declare i32 @llvm.smax.i32(i32, i32) #8

; Function Attrs: nounwind optsize
define internal fastcc i32 @number(ptr nocapture noundef %stream, ptr noundef %front, ptr nocapture noundef readonly %digits, i32 noundef signext %n, i32 noundef signext %flags, i32 noundef signext %width, i32 noundef signext %precision) unnamed_addr #1 {
entry:
  br label %while.cond.i

while.cond.i:                                     ; preds = %while.cond.i, %entry
  %s.0.i = phi ptr [ %front, %entry ], [ %incdec.ptr.i, %while.cond.i ]
  %v0 = load i8, ptr %s.0.i, align 1, !tbaa !4
  %tobool.not.i = icmp eq i8 %v0, 0
  %incdec.ptr.i = getelementptr inbounds i8, ptr %s.0.i, i32 1
  br i1 %tobool.not.i, label %strlen.exit, label %while.cond.i, !llvm.loop !55

strlen.exit:                                      ; preds = %while.cond.i
  %sub.ptr.lhs.cast.i = ptrtoint ptr %s.0.i to i32
  %sub.ptr.rhs.cast.i = ptrtoint ptr %front to i32
  %sub.ptr.sub.i = sub i32 %sub.ptr.lhs.cast.i, %sub.ptr.rhs.cast.i
  %sub = sub nsw i32 %precision, %n
  %shr.i = lshr i32 %width, 31
  %tobool.i = icmp ne i32 %shr.i, 0
  %sub.i = sub i32 0, %width
  %cond.i1 = select i1 %tobool.i, i32 %sub.i, i32 %width
  %spec.store.select = tail call i32 @llvm.smax.i32(i32 %sub, i32 0)
  %cmp5 = icmp slt i32 %precision, 0
  %and = and i32 %flags, 16
  %tobool.not = icmp ne i32 %and, 0
  %or.cond.not94 = and i1 %tobool.not, %cmp5
  %flags.masked = and i32 %flags, 1
  %and7 = or i32 %shr.i, %flags.masked
  %tobool8.not = icmp eq i32 %and7, 0
  %or.cond65 = and i1 %or.cond.not94, %tobool8.not
  %add = add i32 %sub.ptr.sub.i, %n
  %cmp10 = icmp sgt i32 %cond.i1, %add
  %or.cond66 = select i1 %or.cond65, i1 %cmp10, i1 false
  %sub13 = sub i32 %cond.i1, %add
  %zeros.0 = select i1 %or.cond66, i32 %sub13, i32 %spec.store.select
  %v2 = add i32 %add, %zeros.0
  %sub17 = sub i32 %cond.i1, %v2
  br i1 %tobool8.not, label %if.then20, label %if.end23

if.then20:                                        ; preds = %strlen.exit
  %cmp5.i = icmp sgt i32 %sub17, 0
  br i1 %cmp5.i, label %for.body.i, label %repeated.exit

for.body.i:                                       ; preds = %for.body.i, %if.then20
  %k.06.i = phi i32 [ %inc.i, %for.body.i ], [ 0, %if.then20 ]
  %call.i = tail call i32 @fputc(i32 noundef signext 32, ptr noundef %stream) #15
  %inc.i = add nuw nsw i32 %k.06.i, 1
  %exitcond.not.i = icmp eq i32 %inc.i, %sub17
  br i1 %exitcond.not.i, label %repeated.exit, label %for.body.i, !llvm.loop !57

repeated.exit:                                    ; preds = %for.body.i, %if.then20
  %cond.i = tail call noundef i32 @llvm.smax.i32(i32 %sub17, i32 0)
  br label %if.end23

if.end23:                                         ; preds = %repeated.exit, %strlen.exit
  %count.0 = phi i32 [ 0, %strlen.exit ], [ %cond.i, %repeated.exit ]
  %v3 = load i8, ptr %stream, align 4, !tbaa !42, !alias.scope !63, !noalias !66
  %cmp.i.i = icmp eq i8 %v3, 0
  %cmp210.not.i.i = icmp eq ptr %s.0.i, %front
  %or.cond.i = or i1 %cmp210.not.i.i, %cmp.i.i
  br i1 %or.cond.i, label %__print_text.exit, label %for.body.i.i

for.body.i.i:                                     ; preds = %for.body.i.i, %if.end23
  %k.011.i.i = phi i32 [ %inc.i.i, %for.body.i.i ], [ 0, %if.end23 ]
  %arrayidx.i.i = getelementptr inbounds i8, ptr %front, i32 %k.011.i.i
  %v4 = load i8, ptr %arrayidx.i.i, align 1, !tbaa !4, !alias.scope !66, !noalias !63
  %conv4.i.i = zext i8 %v4 to i32
  %call.i.i = tail call i32 @fputc(i32 noundef signext %conv4.i.i, ptr noundef nonnull %stream) #15, !noalias !66
  %inc.i.i = add nuw i32 %k.011.i.i, 1
  %exitcond.not.i.i = icmp eq i32 %inc.i.i, %sub.ptr.sub.i
  br i1 %exitcond.not.i.i, label %__print_text.exit, label %for.body.i.i, !llvm.loop !50

__print_text.exit:                                ; preds = %for.body.i.i, %if.end23
  %cmp5.i67 = icmp sgt i32 %zeros.0, 0
  br i1 %cmp5.i67, label %for.body.i69, label %repeated.exit74

for.body.i69:                                     ; preds = %for.body.i69, %__print_text.exit
  %k.06.i70 = phi i32 [ %inc.i72, %for.body.i69 ], [ 0, %__print_text.exit ]
  %call.i71 = tail call i32 @fputc(i32 noundef signext 48, ptr noundef nonnull %stream) #15
  %inc.i72 = add nuw nsw i32 %k.06.i70, 1
  %exitcond.not.i73 = icmp eq i32 %inc.i72, %zeros.0
  br i1 %exitcond.not.i73, label %repeated.exit74, label %for.body.i69, !llvm.loop !57

repeated.exit74:                                  ; preds = %for.body.i69, %__print_text.exit
  %cond.i68 = tail call noundef i32 @llvm.smax.i32(i32 %zeros.0, i32 0)
  %v5 = load i8, ptr %stream, align 4, !tbaa !42, !alias.scope !68, !noalias !71
  %cmp.i.i75 = icmp eq i8 %v5, 0
  %cmp210.not.i.i76 = icmp eq i32 %n, 0
  %or.cond.i77 = or i1 %cmp210.not.i.i76, %cmp.i.i75
  br i1 %or.cond.i77, label %__print_text.exit85, label %for.body.i.i78

for.body.i.i78:                                   ; preds = %for.body.i.i78, %repeated.exit74
  %k.011.i.i79 = phi i32 [ %inc.i.i83, %for.body.i.i78 ], [ 0, %repeated.exit74 ]
  %arrayidx.i.i80 = getelementptr inbounds i8, ptr %digits, i32 %k.011.i.i79
  %v6 = load i8, ptr %arrayidx.i.i80, align 1, !tbaa !4, !alias.scope !71, !noalias !68
  %conv4.i.i81 = zext i8 %v6 to i32
  %call.i.i82 = tail call i32 @fputc(i32 noundef signext %conv4.i.i81, ptr noundef nonnull %stream) #15, !noalias !71
  %inc.i.i83 = add nuw i32 %k.011.i.i79, 1
  %exitcond.not.i.i84 = icmp eq i32 %inc.i.i83, %n
  br i1 %exitcond.not.i.i84, label %__print_text.exit85, label %for.body.i.i78, !llvm.loop !50

__print_text.exit85:                              ; preds = %for.body.i.i78, %repeated.exit74
  %add27 = add i32 %add, %cond.i68
  %add29 = add i32 %add27, %count.0
  br i1 %tobool8.not, label %if.end35, label %if.then32

if.then32:                                        ; preds = %__print_text.exit85
  %cmp5.i86 = icmp sgt i32 %sub17, 0
  br i1 %cmp5.i86, label %for.body.i88, label %repeated.exit93

for.body.i88:                                     ; preds = %for.body.i88, %if.then32
  %k.06.i89 = phi i32 [ %inc.i91, %for.body.i88 ], [ 0, %if.then32 ]
  %call.i90 = tail call i32 @fputc(i32 noundef signext 32, ptr noundef nonnull %stream) #15
  %inc.i91 = add nuw nsw i32 %k.06.i89, 1
  %exitcond.not.i92 = icmp eq i32 %inc.i91, %sub17
  br i1 %exitcond.not.i92, label %repeated.exit93, label %for.body.i88, !llvm.loop !57

repeated.exit93:                                  ; preds = %for.body.i88, %if.then32
  %cond.i87 = tail call noundef i32 @llvm.smax.i32(i32 %sub17, i32 0)
  %add34 = add nsw i32 %add29, %cond.i87
  br label %if.end35

if.end35:                                         ; preds = %repeated.exit93, %__print_text.exit85
  %count.1 = phi i32 [ %add34, %repeated.exit93 ], [ %add29, %__print_text.exit85 ]
  ret i32 %count.1
}

; Function Attrs: nocallback nofree nounwind willreturn memory(argmem: write)
declare void @llvm.memset.p0.i32(ptr nocapture writeonly, i8, i32, i1 immarg) #9

; Function Attrs: nocallback nofree nosync nounwind speculatable willreturn memory(none)
declare i32 @llvm.umax.i32(i32, i32) #8

; Function Attrs: nocallback nofree nosync nounwind speculatable willreturn memory(none)
declare i32 @llvm.smin.i32(i32, i32) #8

; Function Attrs: noreturn optsize
declare dso_local void @abort() local_unnamed_addr #10

; Function Attrs: mustprogress nofree norecurse nosync nounwind optsize willreturn memory(none)
define internal range(i32 0, 2) i32 @isspace(i32 noundef signext %c) local_unnamed_addr #11 {
entry:
  %cmp = icmp eq i32 %c, 32
  %v0 = add i32 %c, -9
  %v1 = icmp ult i32 %v0, 5
  %narrow = or i1 %cmp, %v1
  %lor.ext = zext i1 %narrow to i32
  ret i32 %lor.ext
}

; Function Attrs: nounwind optsize
define internal i32 @fgetc(ptr nocapture noundef %stream) local_unnamed_addr #1 {
entry:
  %v0 = load i8, ptr %stream, align 4, !tbaa !42
  %cmp.not = icmp eq i8 %v0, 0
  br i1 %cmp.not, label %if.end, label %return

if.end:                                           ; preds = %entry
  %waiting = getelementptr inbounds i8, ptr %stream, i32 2
  %v1 = load i8, ptr %waiting, align 2, !tbaa !73
  %tobool.not = icmp eq i8 %v1, 0
  br i1 %tobool.not, label %if.end5, label %if.then2

if.then2:                                         ; preds = %if.end
  store i8 0, ptr %waiting, align 2, !tbaa !73
  %pushed = getelementptr inbounds i8, ptr %stream, i32 3
  %v2 = load i8, ptr %pushed, align 1, !tbaa !74
  %conv4 = zext i8 %v2 to i32
  br label %return

if.end5:                                          ; preds = %if.end
  %ended = getelementptr inbounds i8, ptr %stream, i32 1
  %v3 = load i8, ptr %ended, align 1, !tbaa !75
  %tobool6.not = icmp eq i8 %v3, 0
  br i1 %tobool6.not, label %if.end8, label %return

if.end8:                                          ; preds = %if.end5
  %call = tail call i32 @getchar() #18
  %cmp9 = icmp eq i32 %call, -1
  br i1 %cmp9, label %if.then11, label %return

if.then11:                                        ; preds = %if.end8
  store i8 1, ptr %ended, align 1, !tbaa !75
  br label %return

return:                                           ; preds = %if.then11, %if.end8, %if.end5, %if.then2, %entry
  %retval.0 = phi i32 [ %conv4, %if.then2 ], [ -1, %entry ], [ -1, %if.end5 ], [ -1, %if.then11 ], [ %call, %if.end8 ]
  ret i32 %retval.0
}

; Function Attrs: optsize
declare dso_local i32 @getchar() local_unnamed_addr #12

attributes #0 = { nounwind "no-trapping-math"="true" "stack-protector-buffer-size"="8" "target-cpu"="mips32r2" "target-features"="+fpxx,+mips32r2,+nooddspreg,-noabicalls" }
attributes #1 = { nounwind optsize "no-builtins" "no-jump-tables"="true" "no-trapping-math"="true" "stack-protector-buffer-size"="8" "target-cpu"="mips32r2" "target-features"="+fpxx,+mips32r2,+nooddspreg,-noabicalls" }
attributes #2 = { noreturn nounwind optsize "no-builtins" "no-jump-tables"="true" "no-trapping-math"="true" "stack-protector-buffer-size"="8" "target-cpu"="mips32r2" "target-features"="+fpxx,+mips32r2,+nooddspreg,-noabicalls" }
attributes #3 = { nocallback nofree nosync nounwind willreturn memory(argmem: readwrite) }
attributes #4 = { nocallback nofree nounwind willreturn memory(argmem: readwrite) }
attributes #5 = { nofree norecurse nosync nounwind optsize willreturn memory(write, argmem: none, inaccessiblemem: none) "no-builtins" "no-jump-tables"="true" "no-trapping-math"="true" "stack-protector-buffer-size"="8" "target-cpu"="mips32r2" "target-features"="+fpxx,+mips32r2,+nooddspreg,-noabicalls" }
attributes #6 = { mustprogress nofree norecurse nosync nounwind optsize willreturn memory(write, argmem: readwrite, inaccessiblemem: none) "no-builtins" "no-jump-tables"="true" "no-trapping-math"="true" "stack-protector-buffer-size"="8" "target-cpu"="mips32r2" "target-features"="+fpxx,+mips32r2,+nooddspreg,-noabicalls" }
attributes #7 = { nofree nounwind "no-trapping-math"="true" "stack-protector-buffer-size"="8" "target-cpu"="mips32r2" "target-features"="+fpxx,+mips32r2,+nooddspreg,-noabicalls" }
attributes #8 = { nocallback nofree nosync nounwind speculatable willreturn memory(none) }
attributes #9 = { nocallback nofree nounwind willreturn memory(argmem: write) }
attributes #10 = { noreturn optsize "no-builtins" "no-trapping-math"="true" "stack-protector-buffer-size"="8" "target-cpu"="mips32r2" "target-features"="+fpxx,+mips32r2,+nooddspreg,-noabicalls" }
attributes #11 = { mustprogress nofree norecurse nosync nounwind optsize willreturn memory(none) "no-builtins" "no-jump-tables"="true" "no-trapping-math"="true" "stack-protector-buffer-size"="8" "target-cpu"="mips32r2" "target-features"="+fpxx,+mips32r2,+nooddspreg,-noabicalls" }
attributes #12 = { optsize "no-builtins" "no-trapping-math"="true" "stack-protector-buffer-size"="8" "target-cpu"="mips32r2" "target-features"="+fpxx,+mips32r2,+nooddspreg,-noabicalls" }
attributes #13 = { noreturn nounwind }
attributes #14 = { nounwind }
attributes #15 = { nobuiltin optsize "no-builtins" }
attributes #16 = { nounwind willreturn memory(read) }
attributes #17 = { nobuiltin noreturn nounwind optsize "no-builtins" }
attributes #18 = { nobuiltin nounwind optsize "no-builtins" }

!llvm.ident = !{!0, !0, !0}
!llvm.module.flags = !{!1, !2, !3}

!0 = !{!"Debian clang version 19.1.7 (3~deb12u1)"}
!1 = !{i32 7, !"Dwarf Version", i32 5}
!2 = !{i32 2, !"Debug Info Version", i32 3}
!3 = !{i32 1, !"wchar_size", i32 4}
!4 = !{!5, !5, i64 0}
!5 = !{!"omnipotent char", !6, i64 0}
!6 = !{!"Simple C/C++ TBAA"}
!7 = distinct !{!7, !8, !9}
!8 = !{!"llvm.loop.mustprogress"}
!9 = !{!"llvm.loop.unroll.disable"}
!10 = !{!11, !12, i64 0}
!11 = !{!"number", !12, i64 0, !5, i64 4}
!12 = !{!"int", !5, i64 0}
!13 = !{!12, !12, i64 0}
!14 = distinct !{!14, !8, !9}
!15 = distinct !{!15, !8, !9}
!16 = distinct !{!16, !8, !9}
!17 = distinct !{!17, !8, !9}
!18 = distinct !{!18, !8, !9}
!19 = distinct !{!19, !8, !9}
!20 = distinct !{!20, !8, !9}
!21 = !{i64 0, i64 4, !13, i64 4, i64 480, !4}
!22 = distinct !{!22, !8, !9}
!23 = distinct !{!23, !8, !9}
!24 = distinct !{!24, !8, !9}
!25 = distinct !{!25, !8, !9}
!26 = distinct !{!26, !8, !9}
!27 = distinct !{!27, !8, !9}
!28 = distinct !{!28, !8, !9}
!29 = distinct !{!29, !8, !9}
!30 = distinct !{!30, !8, !9}
!31 = distinct !{!31, !8, !9}
!32 = distinct !{!32, !8}
!33 = distinct !{!33, !8, !9}
!34 = distinct !{!34, !8, !9}
!35 = distinct !{!35, !8, !9}
!36 = distinct !{!36, !8, !9}
!37 = distinct !{!37, !8, !9}
!38 = distinct !{!38, !8, !9}
!39 = distinct !{!39, !8, !9}
!40 = distinct !{!40, !8, !9}
!41 = distinct !{!41, !8, !9}
!42 = !{!43, !5, i64 0}
!43 = !{!"__stream", !5, i64 0, !5, i64 1, !5, i64 2, !5, i64 3, !44, i64 4, !12, i64 8}
!44 = !{!"any pointer", !5, i64 0}
!45 = !{!46}
!46 = distinct !{!46, !47, !"fwrite: %stream"}
!47 = distinct !{!47, !"fwrite"}
!48 = !{!49}
!49 = distinct !{!49, !47, !"fwrite: %from"}
!50 = distinct !{!50, !8}
!51 = distinct !{!51, !8}
!52 = distinct !{!52, !8}
!53 = !{!43, !44, i64 4}
!54 = !{!43, !12, i64 8}
!55 = distinct !{!55, !8}
!56 = distinct !{!56, !8}
!57 = distinct !{!57, !8}
!58 = !{!59}
!59 = distinct !{!59, !60, !"fwrite: %stream"}
!60 = distinct !{!60, !"fwrite"}
!61 = !{!62}
!62 = distinct !{!62, !60, !"fwrite: %from"}
!63 = !{!64}
!64 = distinct !{!64, !65, !"fwrite: %stream"}
!65 = distinct !{!65, !"fwrite"}
!66 = !{!67}
!67 = distinct !{!67, !65, !"fwrite: %from"}
!68 = !{!69}
!69 = distinct !{!69, !70, !"fwrite: %stream"}
!70 = distinct !{!70, !"fwrite"}
!71 = !{!72}
!72 = distinct !{!72, !70, !"fwrite: %from"}
!73 = !{!43, !5, i64 2}
!74 = !{!43, !5, i64 3}
!75 = !{!43, !5, i64 1}
