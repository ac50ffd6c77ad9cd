source_filename = "buffer.c"
target datalayout = "E-m:m-p:32:32-i8:8:32-i16:16:32-i64:64-n32-S64"
target triple = "mips-unknown-linux-gnu"

%struct.packer = type { ptr, i32, [1024 x i32], [4096 x i32], ptr, i32, i32 }
%struct.__stream = type { i8, i8, i8, i8, ptr, i32 }
%struct.buffer = type { ptr, i32, i32 }

@.str = private unnamed_addr constant [15 x i8] c"out of memory\0A\00", align 1
@.str.1 = private unnamed_addr constant [36 x i8] c"%zu bytes become %zu, %zu per cent\0A\00", align 1
@.str.1.2 = private unnamed_addr constant [8 x i8] c"refused\00", align 1
@.str.2 = private unnamed_addr constant [26 x i8] c"checksums %08x %08x %08x\0A\00", align 1
@.str.3 = private unnamed_addr constant [6 x i8] c"equal\00", align 1
@.str.4 = private unnamed_addr constant [10 x i8] c"different\00", align 1
@.str.5 = private unnamed_addr constant [7 x i8] c"%04zx \00", align 1
@.str.6 = private unnamed_addr constant [6 x i8] c" %02x\00", align 1
@.str.7 = private unnamed_addr constant [2 x i8] c"\0A\00", align 1
@.str.8 = private unnamed_addr constant [45 x i8] c"damaged: %d refused, %d differ, %d the same\0A\00", align 1
@lzss_pack.it = internal unnamed_addr global %struct.packer zeroinitializer, align 4
@.str.9 = private unnamed_addr constant [52 x i8] c"distance > 0 && distance < WINDOW && length <= MOST\00", align 1
@.str.1.10 = private unnamed_addr constant [9 x i8] c"./pack.c\00", align 1
@__func__.lzss_pack = private unnamed_addr constant [10 x i8] c"lzss_pack\00", align 1
@.str.10 = private unnamed_addr constant [1 x i8] zeroinitializer, align 1
@.str.2.12 = private unnamed_addr constant [2 x i8] c"-\00", align 1
@.str.3.13 = private unnamed_addr constant [2 x i8] c"+\00", align 1
@.str.4.11 = private unnamed_addr constant [2 x i8] c" \00", align 1
@.str.5.18 = private unnamed_addr constant [3 x i8] c"0X\00", align 1
@.str.6.17 = private unnamed_addr constant [3 x i8] c"0x\00", align 1
@.str.8.16 = private unnamed_addr constant [17 x i8] c"0123456789ABCDEF\00", align 1
@.str.9.9 = private unnamed_addr constant [17 x i8] c"0123456789abcdef\00", align 1
@__streams = internal global [3 x %struct.__stream] [%struct.__stream zeroinitializer, %struct.__stream { i8 1, i8 0, i8 0, i8 0, ptr null, i32 0 }, %struct.__stream { i8 2, i8 0, i8 0, i8 0, ptr null, i32 0 }], align 4

; Function Attrs: nounwind
define dso_local range(i32 0, 2) i32 @main() local_unnamed_addr #0 {
entry:
  %back.i = alloca %struct.buffer, align 4
  %piece.i = alloca [100 x i8], align 1
  %packed = alloca %struct.buffer, align 4
  %back = alloca %struct.buffer, align 4
  call void @llvm.lifetime.start.p0(i64 12, ptr nonnull %packed) #13
  call void @llvm.memset.p0.i32(ptr noundef nonnull align 4 dereferenceable(12) %packed, i8 0, i32 12, i1 false)
  call void @llvm.lifetime.start.p0(i64 12, ptr nonnull %back) #13
  call void @llvm.memset.p0.i32(ptr noundef nonnull align 4 dereferenceable(12) %back, i8 0, i32 12, i1 false)
  call void @llvm.lifetime.start.p0(i64 100, ptr nonnull %piece.i) #13
  %call4.i = call i32 @fread(ptr noundef nonnull %piece.i, i32 noundef signext 1, i32 noundef signext 100, ptr noundef nonnull @__streams)
  %cmp.not5.i = icmp eq i32 %call4.i, 0
  br i1 %cmp.not5.i, label %read_all.exit, label %for.cond.preheader.i

while.cond.loopexit.i:                            ; preds = %buffer_add.exit.i
  %call.i = call i32 @fread(ptr noundef nonnull %piece.i, i32 noundef signext 1, i32 noundef signext 100, ptr noundef nonnull @__streams)
  %cmp.not.i = icmp eq i32 %call.i, 0
  br i1 %cmp.not.i, label %read_all.exit, label %for.cond.preheader.i, !llvm.loop !4

for.cond.preheader.i:                             ; preds = %while.cond.loopexit.i, %entry
  %whole.sroa.0.0 = phi ptr [ %whole.sroa.0.2, %while.cond.loopexit.i ], [ null, %entry ]
  %whole.sroa.12.0 = phi i32 [ %inc.i.i, %while.cond.loopexit.i ], [ 0, %entry ]
  %whole.sroa.21.0 = phi i32 [ %whole.sroa.21.2, %while.cond.loopexit.i ], [ 0, %entry ]
  %call6.i = phi i32 [ %call.i, %while.cond.loopexit.i ], [ %call4.i, %entry ]
  %umax.i = tail call i32 @llvm.umax.i32(i32 %call6.i, i32 1)
  br label %for.body.i

for.body.i:                                       ; preds = %buffer_add.exit.i, %for.cond.preheader.i
  %whole.sroa.0.1 = phi ptr [ %whole.sroa.0.0, %for.cond.preheader.i ], [ %whole.sroa.0.2, %buffer_add.exit.i ]
  %whole.sroa.12.1 = phi i32 [ %whole.sroa.12.0, %for.cond.preheader.i ], [ %inc.i.i, %buffer_add.exit.i ]
  %whole.sroa.21.1 = phi i32 [ %whole.sroa.21.0, %for.cond.preheader.i ], [ %whole.sroa.21.2, %buffer_add.exit.i ]
  %k.03.i = phi i32 [ 0, %for.cond.preheader.i ], [ %inc.i, %buffer_add.exit.i ]
  %arrayidx.i = getelementptr inbounds [100 x i8], ptr %piece.i, i32 0, i32 %k.03.i
  %v0 = load i8, ptr %arrayidx.i, align 1, !tbaa !7
  %cmp.i.i = icmp eq i32 %whole.sroa.12.1, %whole.sroa.21.1
  br i1 %cmp.i.i, label %if.then.i.i, label %buffer_add.exit.i

if.then.i.i:                                      ; preds = %for.body.i
  %tobool.not.i.i = icmp eq i32 %whole.sroa.21.1, 0
  %mul.i.i = shl i32 %whole.sroa.21.1, 1
  %spec.select.i.i = select i1 %tobool.not.i.i, i32 64, i32 %mul.i.i
  %call.i.i = tail call ptr @realloc(ptr noundef %whole.sroa.0.1, i32 noundef signext %spec.select.i.i) #14
  %cmp5.i.i = icmp eq ptr %call.i.i, null
  br i1 %cmp5.i.i, label %if.then6.i.i, label %buffer_add.exit.i

if.then6.i.i:                                     ; preds = %if.then.i.i
  %print.78.0.i.i = tail call i32 @__print_text(ptr nonnull getelementptr inbounds (i8, ptr @__streams, i32 24), ptr nonnull @.str, i32 14) #13
  tail call void @exit(i32 noundef signext 2) #15
  unreachable

buffer_add.exit.i:                                ; preds = %if.then.i.i, %for.body.i
  %whole.sroa.0.2 = phi ptr [ %whole.sroa.0.1, %for.body.i ], [ %call.i.i, %if.then.i.i ]
  %whole.sroa.21.2 = phi i32 [ %whole.sroa.21.1, %for.body.i ], [ %spec.select.i.i, %if.then.i.i ]
  %inc.i.i = add i32 %whole.sroa.12.1, 1
  %arrayidx.i.i = getelementptr inbounds i8, ptr %whole.sroa.0.2, i32 %whole.sroa.12.1
  store i8 %v0, ptr %arrayidx.i.i, align 1, !tbaa !7
  %inc.i = add nuw i32 %k.03.i, 1
  %exitcond.not.i = icmp eq i32 %inc.i, %umax.i
  br i1 %exitcond.not.i, label %while.cond.loopexit.i, label %for.body.i, !llvm.loop !10

read_all.exit:                                    ; preds = %while.cond.loopexit.i, %entry
  %whole.sroa.0.3 = phi ptr [ null, %entry ], [ %whole.sroa.0.2, %while.cond.loopexit.i ]
  %whole.sroa.12.2 = phi i32 [ 0, %entry ], [ %inc.i.i, %while.cond.loopexit.i ]
  call void @llvm.lifetime.end.p0(i64 100, ptr nonnull %piece.i) #13
  tail call void @llvm.memset.p0.i32(ptr noundef nonnull align 4 dereferenceable(20500) @lzss_pack.it, i8 0, i32 20500, i1 false)
  tail call void @llvm.memset.p0.i32(ptr noundef nonnull align 4 dereferenceable(4096) getelementptr inbounds (i8, ptr @lzss_pack.it, i32 8), i8 -1, i32 4096, i1 false), !tbaa !11
  store ptr %whole.sroa.0.3, ptr @lzss_pack.it, align 4, !tbaa !13
  store i32 %whole.sroa.12.2, ptr getelementptr inbounds (i8, ptr @lzss_pack.it, i32 4), align 4, !tbaa !16
  store ptr %packed, ptr getelementptr inbounds (i8, ptr @lzss_pack.it, i32 20488), align 4, !tbaa !17
  store i32 8, ptr getelementptr inbounds (i8, ptr @lzss_pack.it, i32 20496), align 4, !tbaa !18
  %cmp280.not.i = icmp eq i32 %whole.sroa.12.2, 0
  br i1 %cmp280.not.i, label %lzss_pack.exit, label %for.body4.lr.ph.i

for.body4.lr.ph.i:                                ; preds = %read_all.exit
  %length.i29.i = getelementptr inbounds i8, ptr %packed, i32 4
  %room.i30.i = getelementptr inbounds i8, ptr %packed, i32 8
  br label %for.body4.i

for.cond1.loopexit.i:                             ; preds = %remember.exit.i
  %cmp2.i = icmp ult i32 %inc20.i, %whole.sroa.12.2
  br i1 %cmp2.i, label %for.body4.i, label %lzss_pack.exit, !llvm.loop !19

for.body4.i:                                      ; preds = %for.cond1.loopexit.i, %for.body4.lr.ph.i
  %place.081.i = phi i32 [ 0, %for.body4.lr.ph.i ], [ %inc20.i, %for.cond1.loopexit.i ]
  %v1 = load i32, ptr getelementptr inbounds (i8, ptr @lzss_pack.it, i32 4), align 4, !tbaa !16
  %sub.i.i = sub i32 %v1, %place.081.i
  %spec.select.i.i4 = call i32 @llvm.umin.i32(i32 %sub.i.i, i32 18)
  %cmp3.i.i = icmp ult i32 %sub.i.i, 3
  br i1 %cmp3.i.i, label %longest.exit.i, label %if.end.i.i5

if.end.i.i5:                                      ; preds = %for.body4.i
  %v2 = load ptr, ptr @lzss_pack.it, align 4, !tbaa !13
  %add.ptr.i.i = getelementptr inbounds i8, ptr %v2, i32 %place.081.i
  %v3 = load i8, ptr %add.ptr.i.i, align 1, !tbaa !7
  %conv.i.i.i = zext i8 %v3 to i32
  %arrayidx1.i.i.i = getelementptr inbounds i8, ptr %add.ptr.i.i, i32 1
  %v4 = load i8, ptr %arrayidx1.i.i.i, align 1, !tbaa !7
  %conv2.i.i.i = zext i8 %v4 to i32
  %shl.i.i.i = shl nuw nsw i32 %conv2.i.i.i, 8
  %or.i.i.i = or disjoint i32 %shl.i.i.i, %conv.i.i.i
  %arrayidx3.i.i.i = getelementptr inbounds i8, ptr %add.ptr.i.i, i32 2
  %v5 = load i8, ptr %arrayidx3.i.i.i, align 1, !tbaa !7
  %conv4.i.i.i = zext i8 %v5 to i32
  %shl5.i.i.i = shl nuw nsw i32 %conv4.i.i.i, 16
  %or6.i.i.i = or disjoint i32 %or.i.i.i, %shl5.i.i.i
  %mul.i.i.i = mul i32 %or6.i.i.i, -1640531535
  %shr.i.i.i = lshr i32 %mul.i.i.i, 22
  %arrayidx.i.i6 = getelementptr inbounds [1024 x i32], ptr getelementptr inbounds (i8, ptr @lzss_pack.it, i32 8), i32 0, i32 %shr.i.i.i
  %at.022.i.i = load i32, ptr %arrayidx.i.i6, align 4, !tbaa !11
  %cmp4.not23.i.i = icmp eq i32 %at.022.i.i, -1
  br i1 %cmp4.not23.i.i, label %for.cond.cleanup.i.i, label %land.lhs.true.i.i

land.lhs.true.i.i:                                ; preds = %common.exit.i.i, %if.end.i.i5
  %distance.0.i = phi i32 [ %spec.select.i, %common.exit.i.i ], [ 0, %if.end.i.i5 ]
  %at.026.i.i = phi i32 [ %at.0.i.i, %common.exit.i.i ], [ %at.022.i.i, %if.end.i.i5 ]
  %tries.025.i.i = phi i32 [ %inc.i.i17, %common.exit.i.i ], [ 0, %if.end.i.i5 ]
  %best.024.i.i = phi i32 [ %spec.select76.i, %common.exit.i.i ], [ 0, %if.end.i.i5 ]
  %sub5.i.i = sub i32 %place.081.i, %at.026.i.i
  %cmp6.i.i = icmp ult i32 %sub5.i.i, 4096
  %cmp7.i.i = icmp ult i32 %tries.025.i.i, 48
  %or.cond.i.i = select i1 %cmp6.i.i, i1 %cmp7.i.i, i1 false
  br i1 %or.cond.i.i, label %for.body.i.i, label %for.cond.cleanup.i.i

for.cond.cleanup.i.i:                             ; preds = %common.exit.i.i, %land.lhs.true.i.i, %if.end.i.i5
  %distance.1.i = phi i32 [ 0, %if.end.i.i5 ], [ %spec.select.i, %common.exit.i.i ], [ %distance.0.i, %land.lhs.true.i.i ]
  %best.0.lcssa.i.i = phi i32 [ 0, %if.end.i.i5 ], [ %spec.select76.i, %common.exit.i.i ], [ %best.024.i.i, %land.lhs.true.i.i ]
  %cmp18.i.i = icmp ugt i32 %best.0.lcssa.i.i, 2
  %cond22.i.i = select i1 %cmp18.i.i, i32 %best.0.lcssa.i.i, i32 0
  br label %longest.exit.i

for.body.i.i:                                     ; preds = %land.lhs.true.i.i
  %add.ptr9.i.i = getelementptr inbounds i8, ptr %v2, i32 %at.026.i.i
  br label %land.rhs.i.i.i

land.rhs.i.i.i:                                   ; preds = %while.body.i.i.i, %for.body.i.i
  %k.06.i.i.i = phi i32 [ %inc.i.i.i, %while.body.i.i.i ], [ 0, %for.body.i.i ]
  %arrayidx.i.i.i = getelementptr inbounds i8, ptr %add.ptr9.i.i, i32 %k.06.i.i.i
  %v6 = load i8, ptr %arrayidx.i.i.i, align 1, !tbaa !7
  %arrayidx1.i21.i.i = getelementptr inbounds i8, ptr %add.ptr.i.i, i32 %k.06.i.i.i
  %v7 = load i8, ptr %arrayidx1.i21.i.i, align 1, !tbaa !7
  %cmp3.i.i.i = icmp eq i8 %v6, %v7
  br i1 %cmp3.i.i.i, label %while.body.i.i.i, label %common.exit.i.i

while.body.i.i.i:                                 ; preds = %land.rhs.i.i.i
  %inc.i.i.i = add nuw i32 %k.06.i.i.i, 1
  %exitcond.not.i.i.i = icmp eq i32 %inc.i.i.i, %spec.select.i.i4
  br i1 %exitcond.not.i.i.i, label %common.exit.i.i, label %land.rhs.i.i.i, !llvm.loop !20

common.exit.i.i:                                  ; preds = %while.body.i.i.i, %land.rhs.i.i.i
  %k.0.lcssa.i.i.i = phi i32 [ %k.06.i.i.i, %land.rhs.i.i.i ], [ %spec.select.i.i4, %while.body.i.i.i ]
  %cmp13.i.i = icmp ugt i32 %k.0.lcssa.i.i.i, %best.024.i.i
  %spec.select.i = select i1 %cmp13.i.i, i32 %sub5.i.i, i32 %distance.0.i
  %spec.select76.i = call i32 @llvm.umax.i32(i32 %k.0.lcssa.i.i.i, i32 %best.024.i.i)
  %rem.i.i = srem i32 %at.026.i.i, 4096
  %arrayidx17.i.i = getelementptr inbounds [4096 x i32], ptr getelementptr inbounds (i8, ptr @lzss_pack.it, i32 4104), i32 0, i32 %rem.i.i
  %inc.i.i17 = add nuw nsw i32 %tries.025.i.i, 1
  %at.0.i.i = load i32, ptr %arrayidx17.i.i, align 4, !tbaa !11
  %cmp4.not.i.i = icmp eq i32 %at.0.i.i, -1
  br i1 %cmp4.not.i.i, label %for.cond.cleanup.i.i, label %land.lhs.true.i.i, !llvm.loop !21

longest.exit.i:                                   ; preds = %for.cond.cleanup.i.i, %for.body4.i
  %distance.3.i = phi i32 [ 0, %for.body4.i ], [ %distance.1.i, %for.cond.cleanup.i.i ]
  %retval.0.i.i = phi i32 [ 0, %for.body4.i ], [ %cond22.i.i, %for.cond.cleanup.i.i ]
  %cmp5.i = icmp ne i32 %retval.0.i.i, 0
  %conv.i = zext i1 %cmp5.i to i32
  %v8 = load i32, ptr getelementptr inbounds (i8, ptr @lzss_pack.it, i32 20496), align 4, !tbaa !18
  %cmp.i.i7 = icmp eq i32 %v8, 8
  br i1 %cmp.i.i7, label %if.then.i.i15, label %flag.exit.i

if.then.i.i15:                                    ; preds = %longest.exit.i
  %v9 = load ptr, ptr getelementptr inbounds (i8, ptr @lzss_pack.it, i32 20488), align 4, !tbaa !17
  %length.i.i16 = getelementptr inbounds i8, ptr %v9, i32 4
  %v10 = load i32, ptr %length.i.i16, align 4, !tbaa !22
  store i32 %v10, ptr getelementptr inbounds (i8, ptr @lzss_pack.it, i32 20492), align 4, !tbaa !24
  store i32 0, ptr getelementptr inbounds (i8, ptr @lzss_pack.it, i32 20496), align 4, !tbaa !18
  %room.i.i.i = getelementptr inbounds i8, ptr %v9, i32 8
  %v11 = load i32, ptr %room.i.i.i, align 4, !tbaa !25
  %cmp.i.i.i = icmp eq i32 %v10, %v11
  br i1 %cmp.i.i.i, label %if.then.i.i.i, label %buffer_add.exit.i.i

if.then.i.i.i:                                    ; preds = %if.then.i.i15
  %tobool.not.i.i.i = icmp eq i32 %v11, 0
  %mul.i.i21.i = shl i32 %v11, 1
  %spec.select.i.i.i = select i1 %tobool.not.i.i.i, i32 64, i32 %mul.i.i21.i
  store i32 %spec.select.i.i.i, ptr %room.i.i.i, align 4, !tbaa !25
  %v12 = load ptr, ptr %v9, align 4, !tbaa !26
  %call.i.i.i = call ptr @realloc(ptr noundef %v12, i32 noundef signext %spec.select.i.i.i) #14
  %cmp5.i.i.i = icmp eq ptr %call.i.i.i, null
  br i1 %cmp5.i.i.i, label %if.then6.i.i.i, label %if.end.i.i.i

if.then6.i.i.i:                                   ; preds = %if.then.i.i.i
  %print.78.0.i.i.i = call i32 @__print_text(ptr nonnull getelementptr inbounds (i8, ptr @__streams, i32 24), ptr nonnull @.str, i32 14) #13
  call void @exit(i32 noundef signext 2) #15
  unreachable

if.end.i.i.i:                                     ; preds = %if.then.i.i.i
  store ptr %call.i.i.i, ptr %v9, align 4, !tbaa !26
  br label %buffer_add.exit.i.i

buffer_add.exit.i.i:                              ; preds = %if.end.i.i.i, %if.then.i.i15
  %v13 = load ptr, ptr %v9, align 4, !tbaa !26
  %v14 = load i32, ptr %length.i.i16, align 4, !tbaa !22
  %inc.i.i19.i = add i32 %v14, 1
  store i32 %inc.i.i19.i, ptr %length.i.i16, align 4, !tbaa !22
  %arrayidx.i.i20.i = getelementptr inbounds i8, ptr %v13, i32 %v14
  store i8 0, ptr %arrayidx.i.i20.i, align 1, !tbaa !7
  br label %flag.exit.i

flag.exit.i:                                      ; preds = %buffer_add.exit.i.i, %longest.exit.i
  %v15 = load i32, ptr getelementptr inbounds (i8, ptr @lzss_pack.it, i32 20496), align 4, !tbaa !18
  %inc.i17.i = add nsw i32 %v15, 1
  store i32 %inc.i17.i, ptr getelementptr inbounds (i8, ptr @lzss_pack.it, i32 20496), align 4, !tbaa !18
  %shl.i.i = shl nuw i32 %conv.i, %v15
  %v16 = load ptr, ptr getelementptr inbounds (i8, ptr @lzss_pack.it, i32 20488), align 4, !tbaa !17
  %v17 = load ptr, ptr %v16, align 4, !tbaa !26
  %v18 = load i32, ptr getelementptr inbounds (i8, ptr @lzss_pack.it, i32 20492), align 4, !tbaa !24
  %arrayidx.i18.i = getelementptr inbounds i8, ptr %v17, i32 %v18
  %v19 = load i8, ptr %arrayidx.i18.i, align 1, !tbaa !7
  %v20 = trunc i32 %shl.i.i to i8
  %conv6.i.i = or i8 %v19, %v20
  store i8 %conv6.i.i, ptr %arrayidx.i18.i, align 1, !tbaa !7
  %cmp6.i = icmp eq i32 %retval.0.i.i, 0
  br i1 %cmp6.i, label %if.then.i, label %if.else.i

if.then.i:                                        ; preds = %flag.exit.i
  %arrayidx8.i = getelementptr inbounds i8, ptr %whole.sroa.0.3, i32 %place.081.i
  %v21 = load i8, ptr %arrayidx8.i, align 1, !tbaa !7
  %v22 = load i32, ptr %length.i29.i, align 4, !tbaa !22
  %v23 = load i32, ptr %room.i30.i, align 4, !tbaa !25
  %cmp.i23.i = icmp eq i32 %v22, %v23
  br i1 %cmp.i23.i, label %if.then.i26.i, label %if.end.i

if.then.i26.i:                                    ; preds = %if.then.i
  %tobool.not.i.i9 = icmp eq i32 %v23, 0
  %mul.i.i10 = shl i32 %v23, 1
  %spec.select.i27.i = select i1 %tobool.not.i.i9, i32 64, i32 %mul.i.i10
  store i32 %spec.select.i27.i, ptr %room.i30.i, align 4, !tbaa !25
  %v24 = load ptr, ptr %packed, align 4, !tbaa !26
  %call.i.i11 = call ptr @realloc(ptr noundef %v24, i32 noundef signext %spec.select.i27.i) #14
  %cmp5.i.i12 = icmp eq ptr %call.i.i11, null
  br i1 %cmp5.i.i12, label %if.then6.i.i13, label %if.end.i28.i

if.then6.i.i13:                                   ; preds = %if.then.i26.i
  %print.78.0.i.i14 = call i32 @__print_text(ptr nonnull getelementptr inbounds (i8, ptr @__streams, i32 24), ptr nonnull @.str, i32 14) #13
  call void @exit(i32 noundef signext 2) #15
  unreachable

if.end.i28.i:                                     ; preds = %if.then.i26.i
  store ptr %call.i.i11, ptr %packed, align 4, !tbaa !26
  br label %if.end.i

if.else.i:                                        ; preds = %flag.exit.i
  %v25 = add i32 %distance.3.i, -1
  %or.cond.i = icmp ult i32 %v25, 4095
  %cmp14.i = icmp ult i32 %retval.0.i.i, 19
  %or.cond1.i = and i1 %or.cond.i, %cmp14.i
  br i1 %or.cond1.i, label %cond.end.i, label %cond.false.i

cond.false.i:                                     ; preds = %if.else.i
  call void @__assert_fail(ptr noundef nonnull @.str.9, ptr noundef nonnull @.str.1.10, i32 noundef signext 80, ptr noundef nonnull @__func__.lzss_pack) #15
  unreachable

cond.end.i:                                       ; preds = %if.else.i
  %conv16.i = trunc i32 %distance.3.i to i8
  %v26 = load i32, ptr %length.i29.i, align 4, !tbaa !22
  %v27 = load i32, ptr %room.i30.i, align 4, !tbaa !25
  %cmp.i31.i = icmp eq i32 %v26, %v27
  br i1 %cmp.i31.i, label %if.then.i34.i, label %buffer_add.exit43.i

if.then.i34.i:                                    ; preds = %cond.end.i
  %tobool.not.i35.i = icmp eq i32 %v27, 0
  %mul.i36.i = shl i32 %v27, 1
  %spec.select.i37.i = select i1 %tobool.not.i35.i, i32 64, i32 %mul.i36.i
  store i32 %spec.select.i37.i, ptr %room.i30.i, align 4, !tbaa !25
  %v28 = load ptr, ptr %packed, align 4, !tbaa !26
  %call.i38.i = call ptr @realloc(ptr noundef %v28, i32 noundef signext %spec.select.i37.i) #14
  %cmp5.i39.i = icmp eq ptr %call.i38.i, null
  br i1 %cmp5.i39.i, label %if.then6.i41.i, label %if.end.i40.i

if.then6.i41.i:                                   ; preds = %if.then.i34.i
  %print.78.0.i42.i = call i32 @__print_text(ptr nonnull getelementptr inbounds (i8, ptr @__streams, i32 24), ptr nonnull @.str, i32 14) #13
  call void @exit(i32 noundef signext 2) #15
  unreachable

if.end.i40.i:                                     ; preds = %if.then.i34.i
  store ptr %call.i38.i, ptr %packed, align 4, !tbaa !26
  br label %buffer_add.exit43.i

buffer_add.exit43.i:                              ; preds = %if.end.i40.i, %cond.end.i
  %v29 = load ptr, ptr %packed, align 4, !tbaa !26
  %v30 = load i32, ptr %length.i29.i, align 4, !tbaa !22
  %inc.i32.i = add i32 %v30, 1
  store i32 %inc.i32.i, ptr %length.i29.i, align 4, !tbaa !22
  %arrayidx.i33.i = getelementptr inbounds i8, ptr %v29, i32 %v30
  store i8 %conv16.i, ptr %arrayidx.i33.i, align 1, !tbaa !7
  %v31 = lshr i32 %distance.3.i, 4
  %shl.i = and i32 %v31, 240
  %sub.i = add nuw nsw i32 %retval.0.i.i, 253
  %or.i = or i32 %shl.i, %sub.i
  %conv17.i = trunc i32 %or.i to i8
  %v32 = load i32, ptr %length.i29.i, align 4, !tbaa !22
  %v33 = load i32, ptr %room.i30.i, align 4, !tbaa !25
  %cmp.i46.i = icmp eq i32 %v32, %v33
  br i1 %cmp.i46.i, label %if.then.i49.i, label %if.end.i

if.then.i49.i:                                    ; preds = %buffer_add.exit43.i
  %tobool.not.i50.i = icmp eq i32 %v33, 0
  %mul.i51.i = shl i32 %v33, 1
  %spec.select.i52.i = select i1 %tobool.not.i50.i, i32 64, i32 %mul.i51.i
  store i32 %spec.select.i52.i, ptr %room.i30.i, align 4, !tbaa !25
  %v34 = load ptr, ptr %packed, align 4, !tbaa !26
  %call.i53.i = call ptr @realloc(ptr noundef %v34, i32 noundef signext %spec.select.i52.i) #14
  %cmp5.i54.i = icmp eq ptr %call.i53.i, null
  br i1 %cmp5.i54.i, label %if.then6.i56.i, label %if.end.i55.i

if.then6.i56.i:                                   ; preds = %if.then.i49.i
  %print.78.0.i57.i = call i32 @__print_text(ptr nonnull getelementptr inbounds (i8, ptr @__streams, i32 24), ptr nonnull @.str, i32 14) #13
  call void @exit(i32 noundef signext 2) #15
  unreachable

if.end.i55.i:                                     ; preds = %if.then.i49.i
  store ptr %call.i53.i, ptr %packed, align 4, !tbaa !26
  br label %if.end.i

if.end.i:                                         ; preds = %if.end.i55.i, %buffer_add.exit43.i, %if.end.i28.i, %if.then.i
  %conv17.i.sink = phi i8 [ %v21, %if.end.i28.i ], [ %v21, %if.then.i ], [ %conv17.i, %if.end.i55.i ], [ %conv17.i, %buffer_add.exit43.i ]
  %length.0.i = phi i32 [ 1, %if.end.i28.i ], [ 1, %if.then.i ], [ %retval.0.i.i, %if.end.i55.i ], [ %retval.0.i.i, %buffer_add.exit43.i ]
  %.sink = load ptr, ptr %packed, align 4, !tbaa !26
  %v35 = load i32, ptr %length.i29.i, align 4, !tbaa !22
  %inc.i47.i = add i32 %v35, 1
  store i32 %inc.i47.i, ptr %length.i29.i, align 4, !tbaa !22
  %arrayidx.i48.i = getelementptr inbounds i8, ptr %.sink, i32 %v35
  store i8 %conv17.i.sink, ptr %arrayidx.i48.i, align 1, !tbaa !7
  %v36 = load i32, ptr getelementptr inbounds (i8, ptr @lzss_pack.it, i32 4), align 4, !tbaa !16
  %v37 = load ptr, ptr @lzss_pack.it, align 4
  br label %while.body.i

while.body.i:                                     ; preds = %remember.exit.i, %if.end.i
  %length.179.i = phi i32 [ %length.0.i, %if.end.i ], [ %dec.i, %remember.exit.i ]
  %place.178.i = phi i32 [ %place.081.i, %if.end.i ], [ %inc20.i, %remember.exit.i ]
  %dec.i = add i32 %length.179.i, -1
  %inc20.i = add i32 %place.178.i, 1
  %add.i.i = add i32 %place.178.i, 3
  %cmp.i59.i = icmp ugt i32 %add.i.i, %v36
  br i1 %cmp.i59.i, label %remember.exit.i, label %if.end.i60.i

if.end.i60.i:                                     ; preds = %while.body.i
  %add.ptr.i61.i = getelementptr inbounds i8, ptr %v37, i32 %place.178.i
  %v38 = load i8, ptr %add.ptr.i61.i, align 1, !tbaa !7
  %conv.i.i62.i = zext i8 %v38 to i32
  %arrayidx1.i.i63.i = getelementptr inbounds i8, ptr %add.ptr.i61.i, i32 1
  %v39 = load i8, ptr %arrayidx1.i.i63.i, align 1, !tbaa !7
  %conv2.i.i64.i = zext i8 %v39 to i32
  %shl.i.i65.i = shl nuw nsw i32 %conv2.i.i64.i, 8
  %or.i.i66.i = or disjoint i32 %shl.i.i65.i, %conv.i.i62.i
  %arrayidx3.i.i67.i = getelementptr inbounds i8, ptr %add.ptr.i61.i, i32 2
  %v40 = load i8, ptr %arrayidx3.i.i67.i, align 1, !tbaa !7
  %conv4.i.i68.i = zext i8 %v40 to i32
  %shl5.i.i69.i = shl nuw nsw i32 %conv4.i.i68.i, 16
  %or6.i.i70.i = or disjoint i32 %or.i.i66.i, %shl5.i.i69.i
  %mul.i.i71.i = mul i32 %or6.i.i70.i, -1640531535
  %shr.i.i72.i = lshr i32 %mul.i.i71.i, 22
  %arrayidx.i73.i = getelementptr inbounds [1024 x i32], ptr getelementptr inbounds (i8, ptr @lzss_pack.it, i32 8), i32 0, i32 %shr.i.i72.i
  %v41 = load i32, ptr %arrayidx.i73.i, align 4, !tbaa !11
  %rem.i74.i = and i32 %place.178.i, 4095
  %arrayidx1.i.i = getelementptr inbounds [4096 x i32], ptr getelementptr inbounds (i8, ptr @lzss_pack.it, i32 4104), i32 0, i32 %rem.i74.i
  store i32 %v41, ptr %arrayidx1.i.i, align 4, !tbaa !11
  store i32 %place.178.i, ptr %arrayidx.i73.i, align 4, !tbaa !11
  br label %remember.exit.i

remember.exit.i:                                  ; preds = %if.end.i60.i, %while.body.i
  %cmp18.not.i = icmp eq i32 %dec.i, 0
  br i1 %cmp18.not.i, label %for.cond1.loopexit.i, label %while.body.i, !llvm.loop !27

lzss_pack.exit:                                   ; preds = %for.cond1.loopexit.i, %read_all.exit
  %length2 = getelementptr inbounds i8, ptr %packed, i32 4
  %v42 = load i32, ptr %length2, align 4, !tbaa !22
  br i1 %cmp280.not.i, label %cond.end, label %cond.true

cond.true:                                        ; preds = %lzss_pack.exit
  %mul = mul i32 %v42, 100
  %div = udiv i32 %mul, %whole.sroa.12.2
  br label %cond.end

cond.end:                                         ; preds = %cond.true, %lzss_pack.exit
  %cond = phi i32 [ %div, %cond.true ], [ 100, %lzss_pack.exit ]
  %print.249.0 = zext i32 %whole.sroa.12.2 to i64
  %print.249.1 = call i32 @__print_unsigned(ptr nonnull getelementptr inbounds (i8, ptr @__streams, i32 12), i64 %print.249.0, i32 10, i32 0, i32 0, i32 -1) #13
  %print.249.2 = call i32 @__print_text(ptr nonnull getelementptr inbounds (i8, ptr @__streams, i32 12), ptr nonnull getelementptr inbounds (i8, ptr @.str.1, i32 3), i32 14) #13
  %print.249.3 = zext i32 %v42 to i64
  %print.249.4 = call i32 @__print_unsigned(ptr nonnull getelementptr inbounds (i8, ptr @__streams, i32 12), i64 %print.249.3, i32 10, i32 0, i32 0, i32 -1) #13
  %print.249.5 = call i32 @__print_text(ptr nonnull getelementptr inbounds (i8, ptr @__streams, i32 12), ptr nonnull getelementptr inbounds (i8, ptr @.str.1, i32 20), i32 2) #13
  %print.249.6 = zext i32 %cond to i64
  %print.249.7 = call i32 @__print_unsigned(ptr nonnull getelementptr inbounds (i8, ptr @__streams, i32 12), i64 %print.249.6, i32 10, i32 0, i32 0, i32 -1) #13
  %print.249.8 = call i32 @__print_text(ptr nonnull getelementptr inbounds (i8, ptr @__streams, i32 12), ptr nonnull getelementptr inbounds (i8, ptr @.str.1, i32 25), i32 10) #13
  %v43 = load i32, ptr %length2, align 4, !tbaa !22
  %cmp14.not.i = icmp eq i32 %v43, 0
  br i1 %cmp14.not.i, label %dump.exit, label %for.body.i18

for.body.i18:                                     ; preds = %for.cond.cleanup9.i, %cond.end
  %indvars.iv.i = phi i32 [ %indvars.iv.next.i, %for.cond.cleanup9.i ], [ 16, %cond.end ]
  %k.015.i = phi i32 [ %add.i, %for.cond.cleanup9.i ], [ 0, %cond.end ]
  %print.432.0.i = zext nneg i32 %k.015.i to i64
  %print.432.1.i = call i32 @__print_unsigned(ptr nonnull getelementptr inbounds (i8, ptr @__streams, i32 12), i64 %print.432.0.i, i32 16, i32 16, i32 4, i32 -1) #13
  %print.432.2.i = call i32 @__print_text(ptr nonnull getelementptr inbounds (i8, ptr @__streams, i32 12), ptr nonnull getelementptr inbounds (i8, ptr @.str.5, i32 5), i32 1) #13
  %add.i = add nuw nsw i32 %k.015.i, 16
  br label %land.lhs.true.i

land.lhs.true.i:                                  ; preds = %for.body10.i, %for.body.i18
  %i.013.i = phi i32 [ %k.015.i, %for.body.i18 ], [ %inc.i21, %for.body10.i ]
  %v44 = load i32, ptr %length2, align 4, !tbaa !22
  %cmp5.i19 = icmp ult i32 %i.013.i, %v44
  br i1 %cmp5.i19, label %for.body10.i, label %for.cond.cleanup9.i

for.cond.cleanup9.i:                              ; preds = %for.body10.i, %land.lhs.true.i
  %print.486.0.i = call i32 @__print_text(ptr nonnull getelementptr inbounds (i8, ptr @__streams, i32 12), ptr nonnull @.str.7, i32 1) #13
  %v45 = load i32, ptr %length2, align 4, !tbaa !22
  %cmp.i = icmp ult i32 %add.i, %v45
  %cmp1.i = icmp ult i32 %k.015.i, 48
  %v46 = and i1 %cmp1.i, %cmp.i
  %indvars.iv.next.i = add nuw nsw i32 %indvars.iv.i, 16
  br i1 %v46, label %for.body.i18, label %dump.exit, !llvm.loop !28

for.body10.i:                                     ; preds = %land.lhs.true.i
  %v47 = load ptr, ptr %packed, align 4, !tbaa !26
  %arrayidx.i20 = getelementptr inbounds i8, ptr %v47, i32 %i.013.i
  %v48 = load i8, ptr %arrayidx.i20, align 1, !tbaa !7
  %print.476.0.i = call i32 @__print_text(ptr nonnull getelementptr inbounds (i8, ptr @__streams, i32 12), ptr nonnull @.str.6, i32 1) #13
  %print.476.1.i = zext i8 %v48 to i64
  %print.476.2.i = call i32 @__print_unsigned(ptr nonnull getelementptr inbounds (i8, ptr @__streams, i32 12), i64 %print.476.1.i, i32 16, i32 16, i32 2, i32 -1) #13
  %inc.i21 = add nuw nsw i32 %i.013.i, 1
  %exitcond.not.i22 = icmp eq i32 %inc.i21, %indvars.iv.i
  br i1 %exitcond.not.i22, label %for.cond.cleanup9.i, label %land.lhs.true.i, !llvm.loop !29

dump.exit:                                        ; preds = %for.cond.cleanup9.i, %cond.end
  %v49 = load ptr, ptr %packed, align 4, !tbaa !26
  %v50 = load i32, ptr %length2, align 4, !tbaa !22
  %call8 = call fastcc i32 @lzss_unpack(ptr noundef nonnull %back, ptr noundef %v49, i32 noundef signext %v50)
  %tobool9.not = icmp eq i32 %call8, 0
  br i1 %tobool9.not, label %if.then, label %if.end

if.then:                                          ; preds = %dump.exit
  %call10 = call i32 @puts(ptr noundef nonnull dereferenceable(1) @.str.1.2)
  br label %cleanup

if.end:                                           ; preds = %dump.exit
  br i1 %cmp280.not.i, label %checksum.exit, label %for.body.i23

for.cond.cleanup.loopexit.i:                      ; preds = %for.body.i23
  %v51 = shl nuw i32 %rem2.i, 16
  %v52 = or disjoint i32 %v51, %rem.i
  br label %checksum.exit

for.body.i23:                                     ; preds = %for.body.i23, %if.end
  %k.09.i = phi i32 [ %inc.i27, %for.body.i23 ], [ 0, %if.end ]
  %b.08.i = phi i32 [ %rem2.i, %for.body.i23 ], [ 0, %if.end ]
  %a.07.i = phi i32 [ %rem.i, %for.body.i23 ], [ 1, %if.end ]
  %arrayidx.i24 = getelementptr inbounds i8, ptr %whole.sroa.0.3, i32 %k.09.i
  %v53 = load i8, ptr %arrayidx.i24, align 1, !tbaa !7
  %conv.i25 = zext i8 %v53 to i32
  %add.i26 = add nuw nsw i32 %a.07.i, %conv.i25
  %rem.i = urem i32 %add.i26, 65521
  %add1.i = add nuw nsw i32 %rem.i, %b.08.i
  %rem2.i = urem i32 %add1.i, 65521
  %inc.i27 = add nuw i32 %k.09.i, 1
  %exitcond.not.i28 = icmp eq i32 %inc.i27, %whole.sroa.12.2
  br i1 %exitcond.not.i28, label %for.cond.cleanup.loopexit.i, label %for.body.i23, !llvm.loop !30

checksum.exit:                                    ; preds = %for.cond.cleanup.loopexit.i, %if.end
  %or.i29 = phi i32 [ 1, %if.end ], [ %v52, %for.cond.cleanup.loopexit.i ]
  %v54 = load ptr, ptr %packed, align 4, !tbaa !26
  %v55 = load i32, ptr %length2, align 4, !tbaa !22
  %cmp6.not.i30 = icmp eq i32 %v55, 0
  br i1 %cmp6.not.i30, label %checksum.exit45, label %for.body.i31

for.cond.cleanup.loopexit.i43:                    ; preds = %for.body.i31
  %v56 = shl nuw i32 %rem2.i40, 16
  %v57 = or disjoint i32 %v56, %rem.i38
  br label %checksum.exit45

for.body.i31:                                     ; preds = %for.body.i31, %checksum.exit
  %k.09.i32 = phi i32 [ %inc.i41, %for.body.i31 ], [ 0, %checksum.exit ]
  %b.08.i33 = phi i32 [ %rem2.i40, %for.body.i31 ], [ 0, %checksum.exit ]
  %a.07.i34 = phi i32 [ %rem.i38, %for.body.i31 ], [ 1, %checksum.exit ]
  %arrayidx.i35 = getelementptr inbounds i8, ptr %v54, i32 %k.09.i32
  %v58 = load i8, ptr %arrayidx.i35, align 1, !tbaa !7
  %conv.i36 = zext i8 %v58 to i32
  %add.i37 = add nuw nsw i32 %a.07.i34, %conv.i36
  %rem.i38 = urem i32 %add.i37, 65521
  %add1.i39 = add nuw nsw i32 %rem.i38, %b.08.i33
  %rem2.i40 = urem i32 %add1.i39, 65521
  %inc.i41 = add nuw i32 %k.09.i32, 1
  %exitcond.not.i42 = icmp eq i32 %inc.i41, %v55
  br i1 %exitcond.not.i42, label %for.cond.cleanup.loopexit.i43, label %for.body.i31, !llvm.loop !31

checksum.exit45:                                  ; preds = %for.cond.cleanup.loopexit.i43, %checksum.exit
  %or.i44 = phi i32 [ 1, %checksum.exit ], [ %v57, %for.cond.cleanup.loopexit.i43 ]
  %v59 = load ptr, ptr %back, align 4, !tbaa !26
  %length18 = getelementptr inbounds i8, ptr %back, i32 4
  %v60 = load i32, ptr %length18, align 4, !tbaa !22
  %cmp6.not.i46 = icmp eq i32 %v60, 0
  br i1 %cmp6.not.i46, label %checksum.exit61, label %for.body.i47

for.cond.cleanup.loopexit.i59:                    ; preds = %for.body.i47
  %v61 = shl nuw i32 %rem2.i56, 16
  %v62 = or disjoint i32 %v61, %rem.i54
  br label %checksum.exit61

for.body.i47:                                     ; preds = %for.body.i47, %checksum.exit45
  %k.09.i48 = phi i32 [ %inc.i57, %for.body.i47 ], [ 0, %checksum.exit45 ]
  %b.08.i49 = phi i32 [ %rem2.i56, %for.body.i47 ], [ 0, %checksum.exit45 ]
  %a.07.i50 = phi i32 [ %rem.i54, %for.body.i47 ], [ 1, %checksum.exit45 ]
  %arrayidx.i51 = getelementptr inbounds i8, ptr %v59, i32 %k.09.i48
  %v63 = load i8, ptr %arrayidx.i51, align 1, !tbaa !7
  %conv.i52 = zext i8 %v63 to i32
  %add.i53 = add nuw nsw i32 %a.07.i50, %conv.i52
  %rem.i54 = urem i32 %add.i53, 65521
  %add1.i55 = add nuw nsw i32 %rem.i54, %b.08.i49
  %rem2.i56 = urem i32 %add1.i55, 65521
  %inc.i57 = add nuw i32 %k.09.i48, 1
  %exitcond.not.i58 = icmp eq i32 %inc.i57, %v60
  br i1 %exitcond.not.i58, label %for.cond.cleanup.loopexit.i59, label %for.body.i47, !llvm.loop !32

checksum.exit61:                                  ; preds = %for.cond.cleanup.loopexit.i59, %checksum.exit45
  %or.i60 = phi i32 [ 1, %checksum.exit45 ], [ %v62, %for.cond.cleanup.loopexit.i59 ]
  %print.281.0 = call i32 @__print_text(ptr nonnull getelementptr inbounds (i8, ptr @__streams, i32 12), ptr nonnull @.str.2, i32 10) #13
  %print.281.1 = zext i32 %or.i29 to i64
  %print.281.2 = call i32 @__print_unsigned(ptr nonnull getelementptr inbounds (i8, ptr @__streams, i32 12), i64 %print.281.1, i32 16, i32 16, i32 8, i32 -1) #13
  %print.281.3 = call i32 @__print_text(ptr nonnull getelementptr inbounds (i8, ptr @__streams, i32 12), ptr nonnull getelementptr inbounds (i8, ptr @.str.2, i32 14), i32 1) #13
  %print.281.4 = zext i32 %or.i44 to i64
  %print.281.5 = call i32 @__print_unsigned(ptr nonnull getelementptr inbounds (i8, ptr @__streams, i32 12), i64 %print.281.4, i32 16, i32 16, i32 8, i32 -1) #13
  %print.281.6 = call i32 @__print_text(ptr nonnull getelementptr inbounds (i8, ptr @__streams, i32 12), ptr nonnull getelementptr inbounds (i8, ptr @.str.2, i32 19), i32 1) #13
  %print.281.7 = zext i32 %or.i60 to i64
  %print.281.8 = call i32 @__print_unsigned(ptr nonnull getelementptr inbounds (i8, ptr @__streams, i32 12), i64 %print.281.7, i32 16, i32 16, i32 8, i32 -1) #13
  %print.281.9 = call i32 @__print_text(ptr nonnull getelementptr inbounds (i8, ptr @__streams, i32 12), ptr nonnull getelementptr inbounds (i8, ptr @.str.2, i32 24), i32 1) #13
  %cmp = icmp eq i32 %v60, %whole.sroa.12.2
  br i1 %cmp, label %land.rhs, label %land.end

land.rhs:                                         ; preds = %checksum.exit61
  %bcmp = call i32 @bcmp(ptr %v59, ptr %whole.sroa.0.3, i32 %whole.sroa.12.2)
  %cmp27 = icmp eq i32 %bcmp, 0
  br label %land.end

land.end:                                         ; preds = %land.rhs, %checksum.exit61
  %v64 = phi i1 [ false, %checksum.exit61 ], [ %cmp27, %land.rhs ]
  %cond29 = select i1 %v64, ptr @.str.3, ptr @.str.4
  %call30 = call i32 @puts(ptr noundef nonnull dereferenceable(1) %cond29)
  %v65 = load i32, ptr %length2, align 4, !tbaa !22
  %cmp13.not.i = icmp eq i32 %v65, 0
  br i1 %cmp13.not.i, label %damage.exit, label %for.body.lr.ph.i

for.body.lr.ph.i:                                 ; preds = %land.end
  %length4.i = getelementptr inbounds i8, ptr %back.i, i32 4
  %room.i.i63 = getelementptr inbounds i8, ptr %back.i, i32 8
  br label %for.body.i65

for.body.i65:                                     ; preds = %if.end18.i, %for.body.lr.ph.i
  %k.017.i = phi i32 [ 0, %for.body.lr.ph.i ], [ %add.i70, %if.end18.i ]
  %same.016.i = phi i32 [ 0, %for.body.lr.ph.i ], [ %same.1.i, %if.end18.i ]
  %differ.015.i = phi i32 [ 0, %for.body.lr.ph.i ], [ %differ.1.i, %if.end18.i ]
  %refused.014.i = phi i32 [ 0, %for.body.lr.ph.i ], [ %refused.1.i, %if.end18.i ]
  call void @llvm.lifetime.start.p0(i64 12, ptr nonnull %back.i) #13
  call void @llvm.memset.p0.i32(ptr noundef nonnull align 4 dereferenceable(12) %back.i, i8 0, i32 12, i1 false)
  %v66 = load ptr, ptr %packed, align 4, !tbaa !26
  %arrayidx.i66 = getelementptr inbounds i8, ptr %v66, i32 %k.017.i
  %v67 = load i8, ptr %arrayidx.i66, align 1, !tbaa !7
  %v68 = xor i8 %v67, 85
  store i8 %v68, ptr %arrayidx.i66, align 1, !tbaa !7
  %v69 = load ptr, ptr %packed, align 4, !tbaa !26
  %v70 = load i32, ptr %length2, align 4, !tbaa !22
  %call.i67 = call fastcc i32 @lzss_unpack(ptr noundef nonnull %back.i, ptr noundef %v69, i32 noundef signext %v70)
  %tobool.not.i = icmp eq i32 %call.i67, 0
  br i1 %tobool.not.i, label %if.then.i73, label %if.else.i68

if.then.i73:                                      ; preds = %for.body.i65
  %inc.i74 = add nsw i32 %refused.014.i, 1
  br label %if.end18.i

if.else.i68:                                      ; preds = %for.body.i65
  %v71 = load i32, ptr %length4.i, align 4, !tbaa !22
  %cmp6.i69 = icmp eq i32 %v71, %whole.sroa.12.2
  br i1 %cmp6.i69, label %land.lhs.true.i72, label %if.else16.i

land.lhs.true.i72:                                ; preds = %if.else.i68
  %v72 = load ptr, ptr %back.i, align 4, !tbaa !26
  %bcmp.i = call i32 @bcmp(ptr %v72, ptr %whole.sroa.0.3, i32 %v71)
  %cmp12.i = icmp eq i32 %bcmp.i, 0
  br i1 %cmp12.i, label %if.then14.i, label %if.else16.i

if.then14.i:                                      ; preds = %land.lhs.true.i72
  %inc15.i = add nsw i32 %same.016.i, 1
  br label %if.end18.i

if.else16.i:                                      ; preds = %land.lhs.true.i72, %if.else.i68
  %inc17.i = add nsw i32 %differ.015.i, 1
  br label %if.end18.i

if.end18.i:                                       ; preds = %if.else16.i, %if.then14.i, %if.then.i73
  %refused.1.i = phi i32 [ %refused.014.i, %if.then14.i ], [ %refused.014.i, %if.else16.i ], [ %inc.i74, %if.then.i73 ]
  %differ.1.i = phi i32 [ %differ.015.i, %if.then14.i ], [ %inc17.i, %if.else16.i ], [ %differ.015.i, %if.then.i73 ]
  %same.1.i = phi i32 [ %inc15.i, %if.then14.i ], [ %same.016.i, %if.else16.i ], [ %same.016.i, %if.then.i73 ]
  %v73 = load ptr, ptr %packed, align 4, !tbaa !26
  %arrayidx20.i = getelementptr inbounds i8, ptr %v73, i32 %k.017.i
  %v74 = load i8, ptr %arrayidx20.i, align 1, !tbaa !7
  %v75 = xor i8 %v74, 85
  store i8 %v75, ptr %arrayidx20.i, align 1, !tbaa !7
  %v76 = load ptr, ptr %back.i, align 4, !tbaa !26
  call void @__sized_free(ptr noundef %v76)
  store ptr null, ptr %back.i, align 4, !tbaa !26
  store i32 0, ptr %room.i.i63, align 4, !tbaa !25
  store i32 0, ptr %length4.i, align 4, !tbaa !22
  call void @llvm.lifetime.end.p0(i64 12, ptr nonnull %back.i) #13
  %add.i70 = add i32 %k.017.i, 7
  %v77 = load i32, ptr %length2, align 4, !tbaa !22
  %cmp.i71 = icmp ult i32 %add.i70, %v77
  br i1 %cmp.i71, label %for.body.i65, label %damage.exit, !llvm.loop !33

damage.exit:                                      ; preds = %if.end18.i, %land.end
  %refused.0.lcssa.i = phi i32 [ 0, %land.end ], [ %refused.1.i, %if.end18.i ]
  %differ.0.lcssa.i = phi i32 [ 0, %land.end ], [ %differ.1.i, %if.end18.i ]
  %same.0.lcssa.i = phi i32 [ 0, %land.end ], [ %same.1.i, %if.end18.i ]
  %print.627.0.i = call i32 @__print_text(ptr nonnull getelementptr inbounds (i8, ptr @__streams, i32 12), ptr nonnull @.str.8, i32 9) #13
  %print.627.1.i = sext i32 %refused.0.lcssa.i to i64
  %print.627.2.i = call i32 @__print_signed(ptr nonnull getelementptr inbounds (i8, ptr @__streams, i32 12), i64 %print.627.1.i, i32 0, i32 0, i32 -1) #13
  %print.627.3.i = call i32 @__print_text(ptr nonnull getelementptr inbounds (i8, ptr @__streams, i32 12), ptr nonnull getelementptr inbounds (i8, ptr @.str.8, i32 11), i32 10) #13
  %print.627.4.i = sext i32 %differ.0.lcssa.i to i64
  %print.627.5.i = call i32 @__print_signed(ptr nonnull getelementptr inbounds (i8, ptr @__streams, i32 12), i64 %print.627.4.i, i32 0, i32 0, i32 -1) #13
  %print.627.6.i = call i32 @__print_text(ptr nonnull getelementptr inbounds (i8, ptr @__streams, i32 12), ptr nonnull getelementptr inbounds (i8, ptr @.str.8, i32 23), i32 9) #13
  %print.627.7.i = sext i32 %same.0.lcssa.i to i64
  %print.627.8.i = call i32 @__print_signed(ptr nonnull getelementptr inbounds (i8, ptr @__streams, i32 12), i64 %print.627.7.i, i32 0, i32 0, i32 -1) #13
  %print.627.9.i = call i32 @__print_text(ptr nonnull getelementptr inbounds (i8, ptr @__streams, i32 12), ptr nonnull getelementptr inbounds (i8, ptr @.str.8, i32 34), i32 10) #13
  call void @__sized_free(ptr noundef %whole.sroa.0.3)
  %v78 = load ptr, ptr %packed, align 4, !tbaa !26
  call void @__sized_free(ptr noundef %v78)
  store ptr null, ptr %packed, align 4, !tbaa !26
  %room.i76 = getelementptr inbounds i8, ptr %packed, i32 8
  store i32 0, ptr %room.i76, align 4, !tbaa !25
  store i32 0, ptr %length2, align 4, !tbaa !22
  %v79 = load ptr, ptr %back, align 4, !tbaa !26
  call void @__sized_free(ptr noundef %v79)
  store ptr null, ptr %back, align 4, !tbaa !26
  %room.i78 = getelementptr inbounds i8, ptr %back, i32 8
  store i32 0, ptr %room.i78, align 4, !tbaa !25
  store i32 0, ptr %length18, align 4, !tbaa !22
  %not. = xor i1 %v64, true
  %cond32 = zext i1 %not. to i32
  br label %cleanup

cleanup:                                          ; preds = %damage.exit, %if.then
  %retval.0 = phi i32 [ %cond32, %damage.exit ], [ 1, %if.then ]
  call void @llvm.lifetime.end.p0(i64 12, ptr nonnull %back) #13
  call void @llvm.lifetime.end.p0(i64 12, ptr nonnull %packed) #13
  ret i32 %retval.0
}

; Function Attrs: nocallback nofree nosync nounwind willreturn memory(argmem: readwrite)
declare void @llvm.lifetime.start.p0(i64 immarg, ptr nocapture) #1

; Function Attrs: nocallback nofree nounwind willreturn memory(argmem: write)
declare void @llvm.memset.p0.i32(ptr nocapture writeonly, i8, i32, i1 immarg) #2

; Function Attrs: nounwind optsize
define internal i32 @fread(ptr noalias nocapture noundef writeonly %to, i32 noundef signext %size, i32 noundef signext %count, ptr noalias nocapture noundef %stream) local_unnamed_addr #3 {
entry:
  %mul = mul i32 %count, %size
  %cmp7.not = icmp eq i32 %mul, 0
  br i1 %cmp7.not, label %for.cond.cleanup, label %land.rhs

land.rhs:                                         ; preds = %for.body, %entry
  %k.08 = phi i32 [ %inc, %for.body ], [ 0, %entry ]
  %call = tail call i32 @fgetc(ptr noundef %stream) #16
  %cmp1.not = icmp eq i32 %call, -1
  br i1 %cmp1.not, label %for.cond.cleanup, label %for.body

for.cond.cleanup:                                 ; preds = %for.body, %land.rhs, %entry
  %k.0.lcssa = phi i32 [ 0, %entry ], [ %mul, %for.body ], [ %k.08, %land.rhs ]
  %tobool.not = icmp eq i32 %size, 0
  br i1 %tobool.not, label %cond.end, label %cond.true

for.body:                                         ; preds = %land.rhs
  %conv = trunc i32 %call to i8
  %arrayidx = getelementptr inbounds i8, ptr %to, i32 %k.08
  store i8 %conv, ptr %arrayidx, align 1, !tbaa !7
  %inc = add nuw i32 %k.08, 1
  %exitcond.not = icmp eq i32 %inc, %mul
  br i1 %exitcond.not, label %for.cond.cleanup, label %land.rhs, !llvm.loop !34

cond.true:                                        ; preds = %for.cond.cleanup
  %div = udiv i32 %k.0.lcssa, %size
  br label %cond.end

cond.end:                                         ; preds = %cond.true, %for.cond.cleanup
  %cond = phi i32 [ %div, %cond.true ], [ 0, %for.cond.cleanup ]
  ret i32 %cond
}

; Function Attrs: nocallback nofree nosync nounwind speculatable willreturn memory(none)
declare i32 @llvm.umax.i32(i32, i32) #4

; Function Attrs: nounwind optsize
define internal ptr @realloc(ptr noundef %block, i32 noundef signext %n) local_unnamed_addr #3 {
entry:
  %tobool.not = icmp eq ptr %block, null
  br i1 %tobool.not, label %if.then, label %if.end

if.then:                                          ; preds = %entry
  %call = tail call ptr @__sized_malloc(i32 noundef signext %n) #16
  br label %return

if.end:                                           ; preds = %entry
  %cmp = icmp eq i32 %n, 0
  br i1 %cmp, label %if.then1, label %if.end2

if.then1:                                         ; preds = %if.end
  tail call void @__sized_free(ptr noundef nonnull %block) #16
  br label %return

if.end2:                                          ; preds = %if.end
  %call3 = tail call ptr @__sized_malloc(i32 noundef signext %n) #16
  %tobool4.not = icmp eq ptr %call3, null
  br i1 %tobool4.not, label %return, label %if.end6

if.end6:                                          ; preds = %if.end2
  %add.ptr.i = getelementptr inbounds i8, ptr %block, i32 -16
  %v0 = load i32, ptr %add.ptr.i, align 4, !tbaa !11
  %cmp.not3.i = icmp eq i32 %v0, 0
  br i1 %cmp.not3.i, label %memcpy.exit, label %while.body.i.preheader

while.body.i.preheader:                           ; preds = %if.end6
  %spec.select = tail call i32 @llvm.umin.i32(i32 %v0, i32 %n)
  br label %while.body.i

while.body.i:                                     ; preds = %while.body.i, %while.body.i.preheader
  %s.06.i = phi ptr [ %incdec.ptr.i, %while.body.i ], [ %block, %while.body.i.preheader ]
  %d.05.i = phi ptr [ %incdec.ptr1.i, %while.body.i ], [ %call3, %while.body.i.preheader ]
  %n.addr.04.i = phi i32 [ %dec.i, %while.body.i ], [ %spec.select, %while.body.i.preheader ]
  %dec.i = add i32 %n.addr.04.i, -1
  %incdec.ptr.i = getelementptr inbounds i8, ptr %s.06.i, i32 1
  %v1 = load i8, ptr %s.06.i, align 1, !tbaa !7, !alias.scope !35, !noalias !38
  %incdec.ptr1.i = getelementptr inbounds i8, ptr %d.05.i, i32 1
  store i8 %v1, ptr %d.05.i, align 1, !tbaa !7, !alias.scope !38, !noalias !35
  %cmp.not.i = icmp eq i32 %dec.i, 0
  br i1 %cmp.not.i, label %memcpy.exit, label %while.body.i, !llvm.loop !40

memcpy.exit:                                      ; preds = %while.body.i, %if.end6
  tail call void @__sized_free(ptr noundef nonnull %block) #16
  br label %return

return:                                           ; preds = %memcpy.exit, %if.end2, %if.then1, %if.then
  %retval.1 = phi ptr [ null, %if.then1 ], [ %call, %if.then ], [ %call3, %memcpy.exit ], [ null, %if.end2 ]
  ret ptr %retval.1
}

; Function Attrs: nounwind optsize
define internal noundef i32 @__print_text(ptr nocapture noundef %stream, ptr nocapture noundef readonly %text, i32 noundef returned signext %n) local_unnamed_addr #3 {
entry:
  %v0 = load i8, ptr %stream, align 4, !tbaa !41, !alias.scope !43, !noalias !46
  %cmp.i = icmp eq i8 %v0, 0
  %cmp210.not.i = icmp eq i32 %n, 0
  %or.cond = or i1 %cmp210.not.i, %cmp.i
  br i1 %or.cond, label %fwrite.exit, label %for.body.i

for.body.i:                                       ; preds = %for.body.i, %entry
  %k.011.i = phi i32 [ %inc.i, %for.body.i ], [ 0, %entry ]
  %arrayidx.i = getelementptr inbounds i8, ptr %text, i32 %k.011.i
  %v1 = load i8, ptr %arrayidx.i, align 1, !tbaa !7, !alias.scope !46, !noalias !43
  %conv4.i = zext i8 %v1 to i32
  %call.i = tail call i32 @fputc(i32 noundef signext %conv4.i, ptr noundef nonnull %stream) #16, !noalias !46
  %inc.i = add nuw i32 %k.011.i, 1
  %exitcond.not.i = icmp eq i32 %inc.i, %n
  br i1 %exitcond.not.i, label %fwrite.exit, label %for.body.i, !llvm.loop !48

fwrite.exit:                                      ; preds = %for.body.i, %entry
  ret i32 %n
}

; Function Attrs: noreturn
declare dso_local void @exit(i32 noundef signext) local_unnamed_addr #5

; Function Attrs: nocallback nofree nosync nounwind willreturn memory(argmem: readwrite)
declare void @llvm.lifetime.end.p0(i64 immarg, ptr nocapture) #1

; Function Attrs: nocallback nofree nosync nounwind speculatable willreturn memory(none)
declare i32 @llvm.umin.i32(i32, i32) #4

; Function Attrs: noreturn nounwind optsize
define internal void @__assert_fail(ptr nocapture noundef readnone %condition, ptr nocapture noundef readnone %file, i32 noundef signext %line, ptr nocapture noundef readnone %function) local_unnamed_addr #6 {
entry:
  tail call void @abort() #17
  unreachable
}

; Function Attrs: nounwind optsize
define internal i32 @__print_unsigned(ptr nocapture noundef %stream, i64 noundef zeroext %n, i32 noundef signext %base, i32 noundef signext %flags, i32 noundef signext %width, i32 noundef signext %precision) local_unnamed_addr #3 {
entry:
  %room = alloca [24 x i8], align 1
  call void @llvm.lifetime.start.p0(i64 24, ptr nonnull %room) #13
  %and.i = and i32 %flags, 32
  %tobool.not.i = icmp eq i32 %and.i, 0
  %cond.i = select i1 %tobool.not.i, ptr @.str.9.9, ptr @.str.8.16
  %cmp.i = icmp ult i64 %n, 4294967296
  br i1 %cmp.i, label %if.then.i, label %for.cond3.preheader.i

for.cond3.preheader.i:                            ; preds = %entry
  %conv7.i = zext i32 %base to i64
  br label %for.body6.i

if.then.i:                                        ; preds = %entry
  %conv.i = trunc nuw i64 %n to i32
  %cmp1.not31.i = icmp eq i32 %conv.i, 0
  br i1 %cmp1.not31.i, label %spelled.exit, label %for.body.i

for.body.i:                                       ; preds = %for.body.i, %if.then.i
  %k.033.i = phi i32 [ %div.i, %for.body.i ], [ %conv.i, %if.then.i ]
  %end.addr.032.i.idx = phi i32 [ %end.addr.032.i.add, %for.body.i ], [ 24, %if.then.i ]
  %rem.i = urem i32 %k.033.i, %base
  %arrayidx.i = getelementptr inbounds i8, ptr %cond.i, i32 %rem.i
  %v0 = load i8, ptr %arrayidx.i, align 1, !tbaa !7
  %end.addr.032.i.add = add nsw i32 %end.addr.032.i.idx, -1
  %incdec.ptr.i.ptr = getelementptr inbounds i8, ptr %room, i32 %end.addr.032.i.add
  store i8 %v0, ptr %incdec.ptr.i.ptr, align 1, !tbaa !7
  %div.i = udiv i32 %k.033.i, %base
  %cmp1.not.i = icmp ult i32 %k.033.i, %base
  br i1 %cmp1.not.i, label %spelled.exit, label %for.body.i, !llvm.loop !49

for.body6.i:                                      ; preds = %for.body6.i, %for.cond3.preheader.i
  %end.addr.130.i.idx = phi i32 [ 24, %for.cond3.preheader.i ], [ %end.addr.130.i.add, %for.body6.i ]
  %n.addr.029.i = phi i64 [ %n, %for.cond3.preheader.i ], [ %div13.i, %for.body6.i ]
  %div13.i = udiv i64 %n.addr.029.i, %conv7.i
  %v1 = mul i64 %div13.i, %conv7.i
  %rem8.i.decomposed = sub i64 %n.addr.029.i, %v1
  %idxprom.i = trunc nuw i64 %rem8.i.decomposed to i32
  %arrayidx9.i = getelementptr inbounds i8, ptr %cond.i, i32 %idxprom.i
  %v2 = load i8, ptr %arrayidx9.i, align 1, !tbaa !7
  %end.addr.130.i.add = add nsw i32 %end.addr.130.i.idx, -1
  %incdec.ptr10.i.ptr = getelementptr inbounds i8, ptr %room, i32 %end.addr.130.i.add
  store i8 %v2, ptr %incdec.ptr10.i.ptr, align 1, !tbaa !7
  %cmp4.not.i = icmp ult i64 %n.addr.029.i, %conv7.i
  br i1 %cmp4.not.i, label %spelled.exit, label %for.body6.i, !llvm.loop !50

spelled.exit:                                     ; preds = %for.body6.i, %for.body.i, %if.then.i
  %retval.0.i.idx = phi i32 [ 24, %if.then.i ], [ %end.addr.032.i.add, %for.body.i ], [ %end.addr.130.i.add, %for.body6.i ]
  %cmp = icmp eq i64 %n, 0
  %cmp1 = icmp ne i32 %precision, 0
  %or.cond = and i1 %cmp, %cmp1
  br i1 %or.cond, label %if.then, label %if.end

if.then:                                          ; preds = %spelled.exit
  %retval.0.i.add = add nsw i32 %retval.0.i.idx, -1
  %incdec.ptr.ptr = getelementptr inbounds i8, ptr %room, i32 %retval.0.i.add
  store i8 48, ptr %incdec.ptr.ptr, align 1, !tbaa !7
  br label %if.end

if.end:                                           ; preds = %if.then, %spelled.exit
  %at.0.idx = phi i32 [ %retval.0.i.add, %if.then ], [ %retval.0.i.idx, %spelled.exit ]
  %at.0.ptr = getelementptr inbounds i8, ptr %room, i32 %at.0.idx
  %and = and i32 %flags, 8
  %tobool = icmp ne i32 %and, 0
  %cmp13 = icmp eq i32 %base, 8
  %or.cond29 = and i1 %cmp13, %tobool
  %gepdiff = sub nsw i32 24, %at.0.idx
  %cmp15.not = icmp sge i32 %gepdiff, %precision
  %or.cond49.not = select i1 %or.cond29, i1 %cmp15.not, i1 false
  br i1 %or.cond49.not, label %land.lhs.true16, label %if.end22

land.lhs.true16:                                  ; preds = %if.end
  %cmp17 = icmp eq i32 %at.0.idx, 24
  br i1 %cmp17, label %if.then20, label %lor.lhs.false

lor.lhs.false:                                    ; preds = %land.lhs.true16
  %v3 = load i8, ptr %at.0.ptr, align 1, !tbaa !7
  %cmp18.not = icmp eq i8 %v3, 48
  br i1 %cmp18.not, label %if.end22, label %if.then20

if.then20:                                        ; preds = %lor.lhs.false, %land.lhs.true16
  %incdec.ptr21 = getelementptr inbounds i8, ptr %at.0.ptr, i32 -1
  store i8 48, ptr %incdec.ptr21, align 1, !tbaa !7
  br label %if.end22

if.end22:                                         ; preds = %if.then20, %lor.lhs.false, %if.end
  %at.1 = phi ptr [ %incdec.ptr21, %if.then20 ], [ %at.0.ptr, %lor.lhs.false ], [ %at.0.ptr, %if.end ]
  %add.ptr.ptr = getelementptr inbounds i8, ptr %room, i32 24
  %sub.ptr.lhs.cast = ptrtoint ptr %add.ptr.ptr to i32
  %cmp3 = icmp eq i32 %base, 16
  %cmp5 = icmp ne i64 %n, 0
  %v4 = and i1 %cmp5, %cmp3
  %or.cond28 = and i1 %v4, %tobool
  %cond = select i1 %tobool.not.i, ptr @.str.6.17, ptr @.str.5.18
  %front.0 = select i1 %or.cond28, ptr %cond, ptr @.str.10
  %sub.ptr.rhs.cast24 = ptrtoint ptr %at.1 to i32
  %sub.ptr.sub25 = sub i32 %sub.ptr.lhs.cast, %sub.ptr.rhs.cast24
  %call26 = call fastcc i32 @number(ptr noundef %stream, ptr noundef nonnull %front.0, ptr noundef nonnull %at.1, i32 noundef signext %sub.ptr.sub25, i32 noundef signext %flags, i32 noundef signext %width, i32 noundef signext %precision) #16
  call void @llvm.lifetime.end.p0(i64 24, ptr nonnull %room) #13
  ret i32 %call26
}

; Function Attrs: nounwind
define internal fastcc noundef i32 @lzss_unpack(ptr nocapture noundef %to, ptr nocapture noundef readonly %from, i32 noundef signext %n) unnamed_addr #0 {
entry:
  %length = getelementptr inbounds i8, ptr %to, i32 4
  %v0 = load i32, ptr %length, align 4, !tbaa !22
  %room.i29 = getelementptr inbounds i8, ptr %to, i32 8
  br label %while.cond

while.cond:                                       ; preds = %cleanup38, %entry
  %at.0 = phi i32 [ 0, %entry ], [ %at.3, %cleanup38 ]
  %cmp = icmp ult i32 %at.0, %n
  br i1 %cmp, label %while.body, label %cleanup44

while.body:                                       ; preds = %while.cond
  %inc = add nuw i32 %at.0, 1
  %cmp246 = icmp uge i32 %inc, %n
  br i1 %cmp246, label %cleanup38, label %for.body.lr.ph

for.body.lr.ph:                                   ; preds = %while.body
  %arrayidx = getelementptr inbounds i8, ptr %from, i32 %at.0
  %v1 = load i8, ptr %arrayidx, align 1, !tbaa !7
  %conv = zext i8 %v1 to i32
  br label %for.body

for.body:                                         ; preds = %for.inc, %for.body.lr.ph
  %.not49 = phi i1 [ false, %for.body.lr.ph ], [ %.not, %for.inc ]
  %k.048 = phi i32 [ 0, %for.body.lr.ph ], [ %inc37, %for.inc ]
  %at.147 = phi i32 [ %inc, %for.body.lr.ph ], [ %at.2, %for.inc ]
  %v2 = shl nuw nsw i32 1, %k.048
  %v3 = and i32 %v2, %conv
  %tobool.not = icmp eq i32 %v3, 0
  br i1 %tobool.not, label %if.then, label %if.end

if.then:                                          ; preds = %for.body
  %inc3 = add i32 %at.147, 1
  %arrayidx4 = getelementptr inbounds i8, ptr %from, i32 %at.147
  %v4 = load i8, ptr %arrayidx4, align 1, !tbaa !7
  %v5 = load i32, ptr %length, align 4, !tbaa !22
  %v6 = load i32, ptr %room.i29, align 4, !tbaa !25
  %cmp.i = icmp eq i32 %v5, %v6
  br i1 %cmp.i, label %if.then.i, label %buffer_add.exit

if.then.i:                                        ; preds = %if.then
  %tobool.not.i = icmp eq i32 %v6, 0
  %mul.i = shl i32 %v6, 1
  %spec.select.i = select i1 %tobool.not.i, i32 64, i32 %mul.i
  store i32 %spec.select.i, ptr %room.i29, align 4, !tbaa !25
  %v7 = load ptr, ptr %to, align 4, !tbaa !26
  %call.i = tail call ptr @realloc(ptr noundef %v7, i32 noundef signext %spec.select.i) #14
  %cmp5.i = icmp eq ptr %call.i, null
  br i1 %cmp5.i, label %if.then6.i, label %if.end.i

if.then6.i:                                       ; preds = %if.then.i
  %print.78.0.i = tail call i32 @__print_text(ptr nonnull getelementptr inbounds (i8, ptr @__streams, i32 24), ptr nonnull @.str, i32 14) #13
  tail call void @exit(i32 noundef signext 2) #15
  unreachable

if.end.i:                                         ; preds = %if.then.i
  store ptr %call.i, ptr %to, align 4, !tbaa !26
  br label %buffer_add.exit

buffer_add.exit:                                  ; preds = %if.end.i, %if.then
  %v8 = load ptr, ptr %to, align 4, !tbaa !26
  %v9 = load i32, ptr %length, align 4, !tbaa !22
  %inc.i = add i32 %v9, 1
  store i32 %inc.i, ptr %length, align 4, !tbaa !22
  %arrayidx.i = getelementptr inbounds i8, ptr %v8, i32 %v9
  store i8 %v4, ptr %arrayidx.i, align 1, !tbaa !7
  br label %for.inc

if.end:                                           ; preds = %for.body
  %sub = sub i32 %n, %at.147
  %cmp5 = icmp ult i32 %sub, 2
  br i1 %cmp5, label %cleanup38, label %if.end8

if.end8:                                          ; preds = %if.end
  %arrayidx9 = getelementptr inbounds i8, ptr %from, i32 %at.147
  %v10 = load i8, ptr %arrayidx9, align 1, !tbaa !7
  %conv10 = zext i8 %v10 to i32
  %arrayidx11 = getelementptr i8, ptr %arrayidx9, i32 1
  %v11 = load i8, ptr %arrayidx11, align 1, !tbaa !7
  %conv12 = zext i8 %v11 to i32
  %v12 = shl nuw nsw i32 %conv12, 4
  %shl = and i32 %v12, 3840
  %or = or disjoint i32 %shl, %conv10
  %add20 = add i32 %at.147, 2
  %cmp21 = icmp eq i32 %or, 0
  br i1 %cmp21, label %cleanup38, label %lor.lhs.false

lor.lhs.false:                                    ; preds = %if.end8
  %v13 = load i32, ptr %length, align 4, !tbaa !22
  %sub24 = sub i32 %v13, %v0
  %cmp25 = icmp ugt i32 %or, %sub24
  br i1 %cmp25, label %cleanup38, label %while.body32.preheader

while.body32.preheader:                           ; preds = %lor.lhs.false
  %and18 = and i32 %conv12, 15
  %add19 = add nuw nsw i32 %and18, 3
  br label %while.body32

while.body32:                                     ; preds = %buffer_add.exit42, %while.body32.preheader
  %length14.045 = phi i32 [ %dec, %buffer_add.exit42 ], [ %add19, %while.body32.preheader ]
  %dec = add nsw i32 %length14.045, -1
  %v14 = load ptr, ptr %to, align 4, !tbaa !26
  %v15 = load i32, ptr %length, align 4, !tbaa !22
  %sub34 = sub i32 %v15, %or
  %arrayidx35 = getelementptr inbounds i8, ptr %v14, i32 %sub34
  %v16 = load i8, ptr %arrayidx35, align 1, !tbaa !7
  %v17 = load i32, ptr %room.i29, align 4, !tbaa !25
  %cmp.i30 = icmp eq i32 %v15, %v17
  br i1 %cmp.i30, label %if.then.i33, label %buffer_add.exit42

if.then.i33:                                      ; preds = %while.body32
  %tobool.not.i34 = icmp eq i32 %v17, 0
  %mul.i35 = shl i32 %v17, 1
  %spec.select.i36 = select i1 %tobool.not.i34, i32 64, i32 %mul.i35
  store i32 %spec.select.i36, ptr %room.i29, align 4, !tbaa !25
  %call.i37 = tail call ptr @realloc(ptr noundef %v14, i32 noundef signext %spec.select.i36) #14
  %cmp5.i38 = icmp eq ptr %call.i37, null
  br i1 %cmp5.i38, label %if.then6.i40, label %if.end.i39

if.then6.i40:                                     ; preds = %if.then.i33
  %print.78.0.i41 = tail call i32 @__print_text(ptr nonnull getelementptr inbounds (i8, ptr @__streams, i32 24), ptr nonnull @.str, i32 14) #13
  tail call void @exit(i32 noundef signext 2) #15
  unreachable

if.end.i39:                                       ; preds = %if.then.i33
  store ptr %call.i37, ptr %to, align 4, !tbaa !26
  br label %buffer_add.exit42

buffer_add.exit42:                                ; preds = %if.end.i39, %while.body32
  %v18 = load ptr, ptr %to, align 4, !tbaa !26
  %v19 = load i32, ptr %length, align 4, !tbaa !22
  %inc.i31 = add i32 %v19, 1
  store i32 %inc.i31, ptr %length, align 4, !tbaa !22
  %arrayidx.i32 = getelementptr inbounds i8, ptr %v18, i32 %v19
  store i8 %v16, ptr %arrayidx.i32, align 1, !tbaa !7
  %cmp30.not = icmp eq i32 %dec, 0
  br i1 %cmp30.not, label %for.inc, label %while.body32, !llvm.loop !51

for.inc:                                          ; preds = %buffer_add.exit42, %buffer_add.exit
  %at.2 = phi i32 [ %inc3, %buffer_add.exit ], [ %add20, %buffer_add.exit42 ]
  %inc37 = add nuw nsw i32 %k.048, 1
  %cmp1 = icmp ugt i32 %k.048, 6
  %cmp2 = icmp uge i32 %at.2, %n
  %.not = select i1 %cmp1, i1 true, i1 %cmp2
  br i1 %.not, label %cleanup38, label %for.body, !llvm.loop !52

cleanup38:                                        ; preds = %for.inc, %lor.lhs.false, %if.end8, %if.end, %while.body
  %.not.lcssa = phi i1 [ %cmp246, %while.body ], [ %.not, %for.inc ], [ %.not49, %if.end ], [ %.not49, %if.end8 ], [ %.not49, %lor.lhs.false ]
  %at.3 = phi i32 [ %inc, %while.body ], [ %at.2, %for.inc ], [ %at.147, %if.end ], [ %add20, %if.end8 ], [ %add20, %lor.lhs.false ]
  br i1 %.not.lcssa, label %while.cond, label %cleanup44, !llvm.loop !53

cleanup44:                                        ; preds = %cleanup38, %while.cond
  %retval.5 = phi i32 [ 0, %cleanup38 ], [ 1, %while.cond ]
  ret i32 %retval.5
}

; Function Attrs: nofree nounwind
declare dso_local noundef i32 @puts(ptr nocapture noundef readonly) local_unnamed_addr #7

; Function Attrs: nofree norecurse nosync nounwind optsize memory(read, inaccessiblemem: none)
define internal range(i32 -1, 2) i32 @bcmp(ptr nocapture noundef readonly %a, ptr nocapture noundef readonly %b, i32 noundef signext %n) local_unnamed_addr #8 {
entry:
  %cmp.not16.i = icmp eq i32 %n, 0
  br i1 %cmp.not16.i, label %memcmp.exit, label %for.body.i

for.body.i:                                       ; preds = %for.inc.i, %entry
  %t.019.i = phi ptr [ %incdec.ptr8.i, %for.inc.i ], [ %b, %entry ]
  %s.018.i = phi ptr [ %incdec.ptr.i, %for.inc.i ], [ %a, %entry ]
  %n.addr.017.i = phi i32 [ %dec.i, %for.inc.i ], [ %n, %entry ]
  %v0 = load i8, ptr %s.018.i, align 1, !tbaa !7
  %v1 = load i8, ptr %t.019.i, align 1, !tbaa !7
  %cmp2.not.i = icmp eq i8 %v0, %v1
  br i1 %cmp2.not.i, label %for.inc.i, label %if.then.i

if.then.i:                                        ; preds = %for.body.i
  %cmp6.i = icmp ult i8 %v0, %v1
  %cond.i = select i1 %cmp6.i, i32 -1, i32 1
  br label %memcmp.exit

for.inc.i:                                        ; preds = %for.body.i
  %dec.i = add i32 %n.addr.017.i, -1
  %incdec.ptr.i = getelementptr inbounds i8, ptr %s.018.i, i32 1
  %incdec.ptr8.i = getelementptr inbounds i8, ptr %t.019.i, i32 1
  %cmp.not.i = icmp eq i32 %dec.i, 0
  br i1 %cmp.not.i, label %memcmp.exit, label %for.body.i, !llvm.loop !54

memcmp.exit:                                      ; preds = %for.inc.i, %if.then.i, %entry
  %retval.0.i = phi i32 [ %cond.i, %if.then.i ], [ 0, %entry ], [ 0, %for.inc.i ]
  ret i32 %retval.0.i
}

; Function Attrs: noinline nounwind optsize
define internal void @__sized_free(ptr noundef %block) local_unnamed_addr #9 {
entry:
  %tobool.not = icmp eq ptr %block, null
  br i1 %tobool.not, label %if.end, label %if.then

if.then:                                          ; preds = %entry
  %add.ptr = getelementptr inbounds i8, ptr %block, i32 -16
  tail call void @free(ptr noundef nonnull %add.ptr) #18
  br label %if.end

if.end:                                           ; preds = %if.then, %entry
  ret void
}

; Function Attrs: nounwind optsize
define internal i32 @__print_signed(ptr nocapture noundef %stream, i64 noundef signext %n, i32 noundef signext %flags, i32 noundef signext %width, i32 noundef signext %precision) local_unnamed_addr #3 {
entry:
  %room = alloca [24 x i8], align 1
  call void @llvm.lifetime.start.p0(i64 24, ptr nonnull %room) #13
  %add.ptr = getelementptr inbounds i8, ptr %room, i32 24
  %cmp = icmp slt i64 %n, 0
  %shr.i = lshr i64 %n, 63
  %tobool.i = icmp ne i64 %shr.i, 0
  %sub.i = sub i64 0, %n
  %cond.i = select i1 %tobool.i, i64 %sub.i, i64 %n
  %cmp.i = icmp ult i64 %cond.i, 4294967296
  br i1 %cmp.i, label %if.then.i, label %for.body6.i

if.then.i:                                        ; preds = %entry
  %conv.i = trunc nuw i64 %cond.i to i32
  %cmp1.not31.i = icmp eq i32 %conv.i, 0
  br i1 %cmp1.not31.i, label %spelled.exit, label %for.body.i

for.body.i:                                       ; preds = %for.body.i, %if.then.i
  %k.033.i = phi i32 [ %div.i, %for.body.i ], [ %conv.i, %if.then.i ]
  %end.addr.032.i = phi ptr [ %incdec.ptr.i, %for.body.i ], [ %add.ptr, %if.then.i ]
  %rem.i = urem i32 %k.033.i, 10
  %arrayidx.i = getelementptr inbounds i8, ptr @.str.9.9, i32 %rem.i
  %v0 = load i8, ptr %arrayidx.i, align 1, !tbaa !7
  %incdec.ptr.i = getelementptr inbounds i8, ptr %end.addr.032.i, i32 -1
  store i8 %v0, ptr %incdec.ptr.i, align 1, !tbaa !7
  %div.i = udiv i32 %k.033.i, 10
  %cmp1.not.i = icmp ult i32 %k.033.i, 10
  br i1 %cmp1.not.i, label %spelled.exit, label %for.body.i, !llvm.loop !49

for.body6.i:                                      ; preds = %for.body6.i, %entry
  %end.addr.130.i = phi ptr [ %incdec.ptr10.i, %for.body6.i ], [ %add.ptr, %entry ]
  %n.addr.029.i = phi i64 [ %div13.i, %for.body6.i ], [ %cond.i, %entry ]
  %div13.i = udiv i64 %n.addr.029.i, 10
  %v1 = mul i64 %div13.i, 10
  %rem8.i.decomposed = sub i64 %n.addr.029.i, %v1
  %idxprom.i = trunc nuw nsw i64 %rem8.i.decomposed to i32
  %arrayidx9.i = getelementptr inbounds i8, ptr @.str.9.9, i32 %idxprom.i
  %v2 = load i8, ptr %arrayidx9.i, align 1, !tbaa !7
  %incdec.ptr10.i = getelementptr inbounds i8, ptr %end.addr.130.i, i32 -1
  store i8 %v2, ptr %incdec.ptr10.i, align 1, !tbaa !7
  %cmp4.not.i = icmp ult i64 %n.addr.029.i, 10
  br i1 %cmp4.not.i, label %spelled.exit, label %for.body6.i, !llvm.loop !50

spelled.exit:                                     ; preds = %for.body6.i, %for.body.i, %if.then.i
  %retval.0.i = phi ptr [ %add.ptr, %if.then.i ], [ %incdec.ptr.i, %for.body.i ], [ %incdec.ptr10.i, %for.body6.i ]
  %cmp1 = icmp eq i64 %n, 0
  %cmp2 = icmp ne i32 %precision, 0
  %or.cond = and i1 %cmp1, %cmp2
  br i1 %or.cond, label %if.end.thread, label %if.end

if.end.thread:                                    ; preds = %spelled.exit
  %incdec.ptr = getelementptr inbounds i8, ptr %retval.0.i, i32 -1
  store i8 48, ptr %incdec.ptr, align 1, !tbaa !7
  br label %cond.false5

if.end:                                           ; preds = %spelled.exit
  br i1 %cmp, label %cond.end13, label %cond.false5

cond.false5:                                      ; preds = %if.end, %if.end.thread
  %at.027 = phi ptr [ %incdec.ptr, %if.end.thread ], [ %retval.0.i, %if.end ]
  %and = and i32 %flags, 2
  %tobool.not = icmp eq i32 %and, 0
  br i1 %tobool.not, label %cond.false7, label %cond.end13

cond.false7:                                      ; preds = %cond.false5
  %and8 = and i32 %flags, 4
  %tobool9.not = icmp eq i32 %and8, 0
  %cond10 = select i1 %tobool9.not, ptr @.str.10, ptr @.str.4.11
  br label %cond.end13

cond.end13:                                       ; preds = %cond.false7, %cond.false5, %if.end
  %at.028 = phi ptr [ %retval.0.i, %if.end ], [ %at.027, %cond.false7 ], [ %at.027, %cond.false5 ]
  %cond14 = phi ptr [ @.str.2.12, %if.end ], [ %cond10, %cond.false7 ], [ @.str.3.13, %cond.false5 ]
  %sub.ptr.lhs.cast = ptrtoint ptr %add.ptr to i32
  %sub.ptr.rhs.cast = ptrtoint ptr %at.028 to i32
  %sub.ptr.sub = sub i32 %sub.ptr.lhs.cast, %sub.ptr.rhs.cast
  %call15 = call fastcc i32 @number(ptr noundef %stream, ptr noundef nonnull %cond14, ptr noundef nonnull %at.028, i32 noundef signext %sub.ptr.sub, i32 noundef signext %flags, i32 noundef signext %width, i32 noundef signext %precision) #16
  call void @llvm.lifetime.end.p0(i64 24, ptr nonnull %room) #13
  ret i32 %call15
}

; Function Attrs: nounwind optsize
define internal fastcc i32 @number(ptr nocapture noundef %stream, ptr noundef %front, ptr nocapture noundef readonly %digits, i32 noundef signext %n, i32 noundef signext %flags, i32 noundef signext %width, i32 noundef signext %precision) unnamed_addr #3 {
entry:
  br label %while.cond.i

while.cond.i:                                     ; preds = %while.cond.i, %entry
  %s.0.i = phi ptr [ %front, %entry ], [ %incdec.ptr.i, %while.cond.i ]
  %v0 = load i8, ptr %s.0.i, align 1, !tbaa !7
  %tobool.not.i = icmp eq i8 %v0, 0
  %incdec.ptr.i = getelementptr inbounds i8, ptr %s.0.i, i32 1
  br i1 %tobool.not.i, label %strlen.exit, label %while.cond.i, !llvm.loop !55

strlen.exit:                                      ; preds = %while.cond.i
  %sub.ptr.lhs.cast.i = ptrtoint ptr %s.0.i to i32
  %sub.ptr.rhs.cast.i = ptrtoint ptr %front to i32
  %sub.ptr.sub.i = sub i32 %sub.ptr.lhs.cast.i, %sub.ptr.rhs.cast.i
  %sub = sub nsw i32 %precision, %n
  %shr.i = lshr i32 %width, 31
  %tobool.i = icmp ne i32 %shr.i, 0
  %sub.i = sub i32 0, %width
  %cond.i1 = select i1 %tobool.i, i32 %sub.i, i32 %width
  %spec.store.select = tail call i32 @llvm.smax.i32(i32 %sub, i32 0)
  %cmp5 = icmp slt i32 %precision, 0
  %and = and i32 %flags, 16
  %tobool.not = icmp ne i32 %and, 0
  %or.cond.not94 = and i1 %tobool.not, %cmp5
  %flags.masked = and i32 %flags, 1
  %and7 = or i32 %shr.i, %flags.masked
  %tobool8.not = icmp eq i32 %and7, 0
  %or.cond65 = and i1 %or.cond.not94, %tobool8.not
  %add = add i32 %sub.ptr.sub.i, %n
  %cmp10 = icmp sgt i32 %cond.i1, %add
  %or.cond66 = select i1 %or.cond65, i1 %cmp10, i1 false
  %sub13 = sub i32 %cond.i1, %add
  %zeros.0 = select i1 %or.cond66, i32 %sub13, i32 %spec.store.select
  %v2 = add i32 %add, %zeros.0
  %sub17 = sub i32 %cond.i1, %v2
  br i1 %tobool8.not, label %if.then20, label %if.end23

if.then20:                                        ; preds = %strlen.exit
  %cmp5.i = icmp sgt i32 %sub17, 0
  br i1 %cmp5.i, label %for.body.i, label %repeated.exit

for.body.i:                                       ; preds = %for.body.i, %if.then20
  %k.06.i = phi i32 [ %inc.i, %for.body.i ], [ 0, %if.then20 ]
  %call.i = tail call i32 @fputc(i32 noundef signext 32, ptr noundef %stream) #16
  %inc.i = add nuw nsw i32 %k.06.i, 1
  %exitcond.not.i = icmp eq i32 %inc.i, %sub17
  br i1 %exitcond.not.i, label %repeated.exit, label %for.body.i, !llvm.loop !56

repeated.exit:                                    ; preds = %for.body.i, %if.then20
  %cond.i = tail call noundef i32 @llvm.smax.i32(i32 %sub17, i32 0)
  br label %if.end23

if.end23:                                         ; preds = %repeated.exit, %strlen.exit
  %count.0 = phi i32 [ 0, %strlen.exit ], [ %cond.i, %repeated.exit ]
  %v3 = load i8, ptr %stream, align 4, !tbaa !41, !alias.scope !57, !noalias !60
  %cmp.i.i = icmp eq i8 %v3, 0
  %cmp210.not.i.i = icmp eq ptr %s.0.i, %front
  %or.cond.i = or i1 %cmp210.not.i.i, %cmp.i.i
  br i1 %or.cond.i, label %__print_text.exit, label %for.body.i.i

for.body.i.i:                                     ; preds = %for.body.i.i, %if.end23
  %k.011.i.i = phi i32 [ %inc.i.i, %for.body.i.i ], [ 0, %if.end23 ]
  %arrayidx.i.i = getelementptr inbounds i8, ptr %front, i32 %k.011.i.i
  %v4 = load i8, ptr %arrayidx.i.i, align 1, !tbaa !7, !alias.scope !60, !noalias !57
  %conv4.i.i = zext i8 %v4 to i32
  %call.i.i = tail call i32 @fputc(i32 noundef signext %conv4.i.i, ptr noundef nonnull %stream) #16, !noalias !60
  %inc.i.i = add nuw i32 %k.011.i.i, 1
  %exitcond.not.i.i = icmp eq i32 %inc.i.i, %sub.ptr.sub.i
  br i1 %exitcond.not.i.i, label %__print_text.exit, label %for.body.i.i, !llvm.loop !48

__print_text.exit:                                ; preds = %for.body.i.i, %if.end23
  %cmp5.i67 = icmp sgt i32 %zeros.0, 0
  br i1 %cmp5.i67, label %for.body.i69, label %repeated.exit74

for.body.i69:                                     ; preds = %for.body.i69, %__print_text.exit
  %k.06.i70 = phi i32 [ %inc.i72, %for.body.i69 ], [ 0, %__print_text.exit ]
  %call.i71 = tail call i32 @fputc(i32 noundef signext 48, ptr noundef nonnull %stream) #16
  %inc.i72 = add nuw nsw i32 %k.06.i70, 1
  %exitcond.not.i73 = icmp eq i32 %inc.i72, %zeros.0
  br i1 %exitcond.not.i73, label %repeated.exit74, label %for.body.i69, !llvm.loop !56

repeated.exit74:                                  ; preds = %for.body.i69, %__print_text.exit
  %cond.i68 = tail call noundef i32 @llvm.smax.i32(i32 %zeros.0, i32 0)
  %v5 = load i8, ptr %stream, align 4, !tbaa !41, !alias.scope !62, !noalias !65
  %cmp.i.i75 = icmp eq i8 %v5, 0
  %cmp210.not.i.i76 = icmp eq i32 %n, 0
  %or.cond.i77 = or i1 %cmp210.not.i.i76, %cmp.i.i75
  br i1 %or.cond.i77, label %__print_text.exit85, label %for.body.i.i78

for.body.i.i78:                                   ; preds = %for.body.i.i78, %repeated.exit74
  %k.011.i.i79 = phi i32 [ %inc.i.i83, %for.body.i.i78 ], [ 0, %repeated.exit74 ]
  %arrayidx.i.i80 = getelementptr inbounds i8, ptr %digits, i32 %k.011.i.i79
  %v6 = load i8, ptr %arrayidx.i.i80, align 1, !tbaa !7, !alias.scope !65, !noalias !62
  %conv4.i.i81 = zext i8 %v6 to i32
  %call.i.i82 = tail call i32 @fputc(i32 noundef signext %conv4.i.i81, ptr noundef nonnull %stream) #16, !noalias !65
  %inc.i.i83 = add nuw i32 %k.011.i.i79, 1
  %exitcond.not.i.i84 = icmp eq i32 %inc.i.i83, %n
  br i1 %exitcond.not.i.i84, label %__print_text.exit85, label %for.body.i.i78, !llvm.loop !48

__print_text.exit85:                              ; preds = %for.body.i.i78, %repeated.exit74
  %add27 = add i32 %add, %cond.i68
  %add29 = add i32 %add27, %count.0
  br i1 %tobool8.not, label %if.end35, label %if.then32

if.then32:                                        ; preds = %__print_text.exit85
  %cmp5.i86 = icmp sgt i32 %sub17, 0
  br i1 %cmp5.i86, label %for.body.i88, label %repeated.exit93

for.body.i88:                                     ; preds = %for.body.i88, %if.then32
  %k.06.i89 = phi i32 [ %inc.i91, %for.body.i88 ], [ 0, %if.then32 ]
  %call.i90 = tail call i32 @fputc(i32 noundef signext 32, ptr noundef nonnull %stream) #16
  %inc.i91 = add nuw nsw i32 %k.06.i89, 1
  %exitcond.not.i92 = icmp eq i32 %inc.i91, %sub17
  br i1 %exitcond.not.i92, label %repeated.exit93, label %for.body.i88, !llvm.loop !56

repeated.exit93:                                  ; preds = %for.body.i88, %if.then32
  %cond.i87 = tail call noundef i32 @llvm.smax.i32(i32 %sub17, i32 0)
  %add34 = add nsw i32 %add29, %cond.i87
  br label %if.end35

if.end35:                                         ; preds = %repeated.exit93, %__print_text.exit85
  %count.1 = phi i32 [ %add34, %repeated.exit93 ], [ %add29, %__print_text.exit85 ]
  ret i32 %count.1
}

; Function Attrs: nocallback nofree nosync nounwind speculatable willreturn memory(none)
declare i32 @llvm.smax.i32(i32, i32) #4

; Function Attrs: nounwind optsize
define internal range(i32 -1, 256) i32 @fputc(i32 noundef signext %c, ptr nocapture noundef %stream) local_unnamed_addr #3 {
entry:
  %v0 = load i8, ptr %stream, align 4, !tbaa !41
  switch i8 %v0, label %if.end18 [
    i8 1, label %if.then
    i8 3, label %land.lhs.true
    i8 0, label %return
  ]

if.then:                                          ; preds = %entry
  %call = tail call i32 @putchar(i32 noundef signext %c) #18
  br label %if.end18

land.lhs.true:                                    ; preds = %entry
  %left = getelementptr inbounds i8, ptr %stream, i32 8
  %v1 = load i32, ptr %left, align 4, !tbaa !67
  %cmp6.not = icmp eq i32 %v1, 0
  br i1 %cmp6.not, label %if.end18, label %if.then8

if.then8:                                         ; preds = %land.lhs.true
  %conv9 = trunc i32 %c to i8
  %at = getelementptr inbounds i8, ptr %stream, i32 4
  %v2 = load ptr, ptr %at, align 4, !tbaa !68
  %incdec.ptr = getelementptr inbounds i8, ptr %v2, i32 1
  store ptr %incdec.ptr, ptr %at, align 4, !tbaa !68
  store i8 %conv9, ptr %v2, align 1, !tbaa !7
  %v3 = load i32, ptr %left, align 4, !tbaa !67
  %dec = add i32 %v3, -1
  store i32 %dec, ptr %left, align 4, !tbaa !67
  br label %if.end18

if.end18:                                         ; preds = %if.then8, %land.lhs.true, %if.then, %entry
  %conv20 = and i32 %c, 255
  br label %return

return:                                           ; preds = %if.end18, %entry
  %retval.0 = phi i32 [ %conv20, %if.end18 ], [ -1, %entry ]
  ret i32 %retval.0
}

; Function Attrs: optsize
declare dso_local i32 @putchar(i32 noundef signext) local_unnamed_addr #10

; Function Attrs: mustprogress nounwind willreturn allockind("free") memory(argmem: readwrite, inaccessiblemem: readwrite)
declare dso_local void @free(ptr allocptr nocapture noundef) local_unnamed_addr #11

; Function Attrs: noreturn optsize
declare dso_local void @abort() local_unnamed_addr #12

; Function Attrs: noinline nounwind optsize
define internal ptr @__sized_malloc(i32 noundef signext %n) local_unnamed_addr #9 {
entry:
  %cmp = icmp ult i32 %n, -16
  br i1 %cmp, label %cond.end, label %cleanup

cond.end:                                         ; preds = %entry
  %add = add nuw i32 %n, 16
  %call = tail call ptr @malloc(i32 noundef signext %add) #18
  %tobool.not = icmp eq ptr %call, null
  br i1 %tobool.not, label %cleanup, label %if.end

if.end:                                           ; preds = %cond.end
  %add.ptr = getelementptr inbounds i8, ptr %call, i32 16
  store i32 %n, ptr %call, align 4, !tbaa !11
  br label %cleanup

cleanup:                                          ; preds = %if.end, %cond.end, %entry
  %retval.0 = phi ptr [ %add.ptr, %if.end ], [ null, %cond.end ], [ null, %entry ]
  ret ptr %retval.0
}

; Function Attrs: optsize
declare dso_local ptr @malloc(i32 noundef signext) local_unnamed_addr #10

; Function Attrs: nounwind optsize
define internal i32 @fgetc(ptr nocapture noundef %stream) local_unnamed_addr #3 {
entry:
  %v0 = load i8, ptr %stream, align 4, !tbaa !41
  %cmp.not = icmp eq i8 %v0, 0
  br i1 %cmp.not, label %if.end, label %return

if.end:                                           ; preds = %entry
  %waiting = getelementptr inbounds i8, ptr %stream, i32 2
  %v1 = load i8, ptr %waiting, align 2, !tbaa !69
  %tobool.not = icmp eq i8 %v1, 0
  br i1 %tobool.not, label %if.end5, label %if.then2

if.then2:                                         ; preds = %if.end
  store i8 0, ptr %waiting, align 2, !tbaa !69
  %pushed = getelementptr inbounds i8, ptr %stream, i32 3
  %v2 = load i8, ptr %pushed, align 1, !tbaa !70
  %conv4 = zext i8 %v2 to i32
  br label %return

if.end5:                                          ; preds = %if.end
  %ended = getelementptr inbounds i8, ptr %stream, i32 1
  %v3 = load i8, ptr %ended, align 1, !tbaa !71
  %tobool6.not = icmp eq i8 %v3, 0
  br i1 %tobool6.not, label %if.end8, label %return

if.end8:                                          ; preds = %if.end5
  %call = tail call i32 @getchar() #18
  %cmp9 = icmp eq i32 %call, -1
  br i1 %cmp9, label %if.then11, label %return

if.then11:                                        ; preds = %if.end8
  store i8 1, ptr %ended, align 1, !tbaa !71
  br label %return

return:                                           ; preds = %if.then11, %if.end8, %if.end5, %if.then2, %entry
  %retval.0 = phi i32 [ %conv4, %if.then2 ], [ -1, %entry ], [ -1, %if.end5 ], [ -1, %if.then11 ], [ %call, %if.end8 ]
  ret i32 %retval.0
}

; Function Attrs: optsize
declare dso_local i32 @getchar() local_unnamed_addr #10

attributes #0 = { nounwind "no-trapping-math"="true" "stack-protector-buffer-size"="8" "target-cpu"="mips32r2" "target-features"="+fpxx,+mips32r2,+nooddspreg,-noabicalls" }
attributes #1 = { nocallback nofree nosync nounwind willreturn memory(argmem: readwrite) }
attributes #2 = { nocallback nofree nounwind willreturn memory(argmem: write) }
attributes #3 = { nounwind optsize "no-builtins" "no-jump-tables"="true" "no-trapping-math"="true" "stack-protector-buffer-size"="8" "target-cpu"="mips32r2" "target-features"="+fpxx,+mips32r2,+nooddspreg,-noabicalls" }
attributes #4 = { nocallback nofree nosync nounwind speculatable willreturn memory(none) }
attributes #5 = { noreturn "no-trapping-math"="true" "stack-protector-buffer-size"="8" "target-cpu"="mips32r2" "target-features"="+fpxx,+mips32r2,+nooddspreg,-noabicalls" }
attributes #6 = { noreturn nounwind optsize "no-builtins" "no-jump-tables"="true" "no-trapping-math"="true" "stack-protector-buffer-size"="8" "target-cpu"="mips32r2" "target-features"="+fpxx,+mips32r2,+nooddspreg,-noabicalls" }
attributes #7 = { nofree nounwind "no-trapping-math"="true" "stack-protector-buffer-size"="8" "target-cpu"="mips32r2" "target-features"="+fpxx,+mips32r2,+nooddspreg,-noabicalls" }
attributes #8 = { nofree norecurse nosync nounwind optsize memory(read, inaccessiblemem: none) "no-builtins" "no-jump-tables"="true" "no-trapping-math"="true" "stack-protector-buffer-size"="8" "target-cpu"="mips32r2" "target-features"="+fpxx,+mips32r2,+nooddspreg,-noabicalls" }
attributes #9 = { noinline nounwind optsize "no-builtins" "no-jump-tables"="true" "no-trapping-math"="true" "stack-protector-buffer-size"="8" "target-cpu"="mips32r2" "target-features"="+fpxx,+mips32r2,+nooddspreg,-noabicalls" }
attributes #10 = { optsize "no-builtins" "no-trapping-math"="true" "stack-protector-buffer-size"="8" "target-cpu"="mips32r2" "target-features"="+fpxx,+mips32r2,+nooddspreg,-noabicalls" }
attributes #11 = { mustprogress nounwind willreturn allockind("free") memory(argmem: readwrite, inaccessiblemem: readwrite) "alloc-family"="malloc" "no-trapping-math"="true" "stack-protector-buffer-size"="8" "target-cpu"="mips32r2" "target-features"="+fpxx,+mips32r2,+nooddspreg,-noabicalls" }
attributes #12 = { noreturn optsize "no-builtins" "no-trapping-math"="true" "stack-protector-buffer-size"="8" "target-cpu"="mips32r2" "target-features"="+fpxx,+mips32r2,+nooddspreg,-noabicalls" }
attributes #13 = { nounwind }
attributes #14 = { allocsize(1) }
attributes #15 = { noreturn nounwind }
attributes #16 = { nobuiltin optsize "no-builtins" }
attributes #17 = { nobuiltin noreturn nounwind optsize "no-builtins" }
attributes #18 = { nobuiltin nounwind optsize "no-builtins" }

!llvm.ident = !{!0, !0, !0, !0, !0, !0, !0}
!llvm.module.flags = !{!1, !2, !3}

!0 = !{!"Debian clang version 19.1.7 (3~deb12u1)"}
!1 = !{i32 7, !"Dwarf Version", i32 5}
!2 = !{i32 2, !"Debug Info Version", i32 3}
!3 = !{i32 1, !"wchar_size", i32 4}
!4 = distinct !{!4, !5, !6}
!5 = !{!"llvm.loop.mustprogress"}
!6 = !{!"llvm.loop.unroll.disable"}
!7 = !{!8, !8, i64 0}
!8 = !{!"omnipotent char", !9, i64 0}
!9 = !{!"Simple C/C++ TBAA"}
!10 = distinct !{!10, !5, !6}
!11 = !{!12, !12, i64 0}
!12 = !{!"int", !8, i64 0}
!13 = !{!14, !15, i64 0}
!14 = !{!"packer", !15, i64 0, !12, i64 4, !8, i64 8, !8, i64 4104, !15, i64 20488, !12, i64 20492, !12, i64 20496}
!15 = !{!"any pointer", !8, i64 0}
!16 = !{!14, !12, i64 4}
!17 = !{!14, !15, i64 20488}
!18 = !{!14, !12, i64 20496}
!19 = distinct !{!19, !5, !6}
!20 = distinct !{!20, !5, !6}
!21 = distinct !{!21, !5, !6}
!22 = !{!23, !12, i64 4}
!23 = !{!"buffer", !15, i64 0, !12, i64 4, !12, i64 8}
!24 = !{!14, !12, i64 20492}
!25 = !{!23, !12, i64 8}
!26 = !{!23, !15, i64 0}
!27 = distinct !{!27, !5, !6}
!28 = distinct !{!28, !5, !6}
!29 = distinct !{!29, !5, !6}
!30 = distinct !{!30, !5, !6}
!31 = distinct !{!31, !5, !6}
!32 = distinct !{!32, !5, !6}
!33 = distinct !{!33, !5, !6}
!34 = distinct !{!34, !5}
!35 = !{!36}
!36 = distinct !{!36, !37, !"memcpy: %from"}
!37 = distinct !{!37, !"memcpy"}
!38 = !{!39}
!39 = distinct !{!39, !37, !"memcpy: %to"}
!40 = distinct !{!40, !5}
!41 = !{!42, !8, i64 0}
!42 = !{!"__stream", !8, i64 0, !8, i64 1, !8, i64 2, !8, i64 3, !15, i64 4, !12, i64 8}
!43 = !{!44}
!44 = distinct !{!44, !45, !"fwrite: %stream"}
!45 = distinct !{!45, !"fwrite"}
!46 = !{!47}
!47 = distinct !{!47, !45, !"fwrite: %from"}
!48 = distinct !{!48, !5}
!49 = distinct !{!49, !5}
!50 = distinct !{!50, !5}
!51 = distinct !{!51, !5, !6}
!52 = distinct !{!52, !5, !6}
!53 = distinct !{!53, !5, !6}
!54 = distinct !{!54, !5}
!55 = distinct !{!55, !5}
!56 = distinct !{!56, !5}
!57 = !{!58}
!58 = distinct !{!58, !59, !"fwrite: %stream"}
!59 = distinct !{!59, !"fwrite"}
!60 = !{!61}
!61 = distinct !{!61, !59, !"fwrite: %from"}
!62 = !{!63}
!63 = distinct !{!63, !64, !"fwrite: %stream"}
!64 = distinct !{!64, !"fwrite"}
!65 = !{!66}
!66 = distinct !{!66, !64, !"fwrite: %from"}
!67 = !{!42, !12, i64 8}
!68 = !{!42, !15, i64 4}
!69 = !{!42, !8, i64 2}
!70 = !{!42, !8, i64 3}
!71 = !{!42, !8, i64 1}
