source_filename = "bits.c"
target datalayout = "E-m:m-p:32:32-i8:8:32-i16:16:32-i64:64-n32-S64"
target triple = "mips-unknown-linux-gnu"

%struct.code = type { [256 x i8], [256 x i32] }
%struct.__stream = type { i8, i8, i8, i8, ptr, i32 }
%struct.heap = type { [256 x ptr], i32 }

@text = internal global [4000 x i8] zeroinitializer, align 1
@main.code = internal global %struct.code zeroinitializer, align 4
@.str = private unnamed_addr constant [16 x i8] c"nothing to code\00", align 1
@lengths = internal unnamed_addr global ptr null, align 4
@.str.1 = private unnamed_addr constant [56 x i8] c"%zu bytes, %d symbols, %zu bits, %zu.%02zu bits a byte\0A\00", align 1
@.str.2 = private unnamed_addr constant [7 x i8] c"begins\00", align 1
@.str.3 = private unnamed_addr constant [6 x i8] c" %02x\00", align 1
@.str.4 = private unnamed_addr constant [2 x i8] c"\0A\00", align 1
@.str.5 = private unnamed_addr constant [10 x i8] c"read back\00", align 1
@.str.6 = private unnamed_addr constant [8 x i8] c"damaged\00", align 1
@.str.7 = private unnamed_addr constant [21 x i8] c"%5u  %-16s %2u bits\0A\00", align 1
@.str.8 = private unnamed_addr constant [6 x i8] c"%c   \00", align 1
@.str.9 = private unnamed_addr constant [5 x i8] c"\\n  \00", align 1
@.str.10 = private unnamed_addr constant [7 x i8] c"x%02X \00", align 1
@.str.13 = private unnamed_addr constant [1 x i8] zeroinitializer, align 1
@.str.1.14 = private unnamed_addr constant [7 x i8] c"(null)\00", align 1
@.str.2.19 = private unnamed_addr constant [2 x i8] c"-\00", align 1
@.str.3.20 = private unnamed_addr constant [2 x i8] c"+\00", align 1
@.str.4.18 = private unnamed_addr constant [2 x i8] c" \00", align 1
@.str.5.25 = private unnamed_addr constant [3 x i8] c"0X\00", align 1
@.str.6.24 = private unnamed_addr constant [3 x i8] c"0x\00", align 1
@.str.8.23 = private unnamed_addr constant [17 x i8] c"0123456789ABCDEF\00", align 1
@.str.9.17 = private unnamed_addr constant [17 x i8] c"0123456789abcdef\00", align 1
@__streams = internal global [3 x %struct.__stream] [%struct.__stream zeroinitializer, %struct.__stream { i8 1, i8 0, i8 0, i8 0, ptr null, i32 0 }, %struct.__stream { i8 2, i8 0, i8 0, i8 0, ptr null, i32 0 }], align 4

; Function Attrs: nounwind
define dso_local i32 @main() local_unnamed_addr #0 {
entry:
  %word.i = alloca [33 x i8], align 1
  %heap.i = alloca %struct.heap, align 4
  %counts = alloca [256 x i32], align 4
  %order = alloca [256 x i32], align 4
  %call = tail call i32 @fread(ptr noundef nonnull @text, i32 noundef signext 1, i32 noundef signext 4000, ptr noundef nonnull @__streams)
  call void @llvm.lifetime.start.p0(i64 1024, ptr nonnull %counts) #14
  call void @llvm.memset.p0.i32(ptr noundef nonnull align 4 dereferenceable(1024) %counts, i8 0, i32 1024, i1 false)
  %cmp95.not = icmp eq i32 %call, 0
  br i1 %cmp95.not, label %for.cond.cleanup, label %for.body

for.cond.cleanup:                                 ; preds = %for.body, %entry
  call void @llvm.lifetime.start.p0(i64 1028, ptr nonnull %heap.i) #14
  call void @llvm.memset.p0.i32(ptr noundef nonnull align 4 dereferenceable(1028) %heap.i, i8 0, i32 1028, i1 false)
  tail call void @llvm.memset.p0.i32(ptr noundef nonnull align 4 dereferenceable(1280) @main.code, i8 0, i32 1280, i1 false)
  %count.i.i = getelementptr inbounds i8, ptr %heap.i, i32 1024
  %count.i.promoted.i = load i32, ptr %count.i.i, align 4, !tbaa !4
  br label %for.body.i

for.body.i:                                       ; preds = %for.inc.i, %for.cond.cleanup
  %inc.i146.i = phi i32 [ %count.i.promoted.i, %for.cond.cleanup ], [ %inc.i145.i, %for.inc.i ]
  %s.0144.i = phi i32 [ 0, %for.cond.cleanup ], [ %inc.i, %for.inc.i ]
  %arrayidx.i = getelementptr inbounds i32, ptr %counts, i32 %s.0144.i
  %v0 = load i32, ptr %arrayidx.i, align 4, !tbaa !9
  %cmp1.i = icmp eq i32 %v0, 0
  br i1 %cmp1.i, label %for.inc.i, label %if.end.i

if.end.i:                                         ; preds = %for.body.i
  %call.i = tail call dereferenceable_or_null(16) ptr @__sized_calloc(i32 noundef signext 1, i32 noundef signext 16) #15
  %tobool.not.not.i = icmp eq ptr %call.i, null
  br i1 %tobool.not.not.i, label %cleanup18.loopexit142.i, label %if.end3.i

if.end3.i:                                        ; preds = %if.end.i
  store i32 %v0, ptr %call.i, align 4, !tbaa !10
  %conv.i = trunc nuw i32 %s.0144.i to i16
  %symbol.i = getelementptr inbounds i8, ptr %call.i, i32 4
  store i16 %conv.i, ptr %symbol.i, align 4, !tbaa !14
  %inc.i.i = add nsw i32 %inc.i146.i, 1
  %cmp12.i.i = icmp sgt i32 %inc.i146.i, 0
  br i1 %cmp12.i.i, label %land.rhs.i.i, label %push.exit.i

land.rhs.i.i:                                     ; preds = %while.body.i.i, %if.end3.i
  %at.013.i.i = phi i32 [ %div11.i.i, %while.body.i.i ], [ %inc.i146.i, %if.end3.i ]
  %sub.i.i = add nsw i32 %at.013.i.i, -1
  %div11.i.i = lshr i32 %sub.i.i, 1
  %arrayidx.i.i = getelementptr inbounds [256 x ptr], ptr %heap.i, i32 0, i32 %div11.i.i
  %v1 = load ptr, ptr %arrayidx.i.i, align 4, !tbaa !15
  %v2 = load i32, ptr %v1, align 4, !tbaa !10
  %cmp.not.i.i.i = icmp eq i32 %v0, %v2
  br i1 %cmp.not.i.i.i, label %if.end.i.i.i, label %if.then.i.i.i

if.then.i.i.i:                                    ; preds = %land.rhs.i.i
  %cmp4.i.i.i = icmp ult i32 %v0, %v2
  br label %lighter.exit.i.i

if.end.i.i.i:                                     ; preds = %land.rhs.i.i
  %symbol6.i.i.i = getelementptr inbounds i8, ptr %v1, i32 4
  %v3 = load i16, ptr %symbol6.i.i.i, align 4, !tbaa !14
  %cmp8.i.i.i = icmp sgt i16 %v3, %conv.i
  br label %lighter.exit.i.i

lighter.exit.i.i:                                 ; preds = %if.end.i.i.i, %if.then.i.i.i
  %retval.0.in.i.i.i = phi i1 [ %cmp4.i.i.i, %if.then.i.i.i ], [ %cmp8.i.i.i, %if.end.i.i.i ]
  br i1 %retval.0.in.i.i.i, label %while.body.i.i, label %push.exit.i

while.body.i.i:                                   ; preds = %lighter.exit.i.i
  %arrayidx6.i.i = getelementptr inbounds [256 x ptr], ptr %heap.i, i32 0, i32 %at.013.i.i
  store ptr %v1, ptr %arrayidx6.i.i, align 4, !tbaa !15
  %cmp.not.i.i = icmp ult i32 %sub.i.i, 2
  br i1 %cmp.not.i.i, label %push.exit.i, label %land.rhs.i.i, !llvm.loop !16

push.exit.i:                                      ; preds = %while.body.i.i, %lighter.exit.i.i, %if.end3.i
  %at.0.lcssa.i.i = phi i32 [ %inc.i146.i, %if.end3.i ], [ %at.013.i.i, %lighter.exit.i.i ], [ %div11.i.i, %while.body.i.i ]
  %arrayidx10.i.i = getelementptr inbounds [256 x ptr], ptr %heap.i, i32 0, i32 %at.0.lcssa.i.i
  store ptr %call.i, ptr %arrayidx10.i.i, align 4, !tbaa !15
  br label %for.inc.i

for.inc.i:                                        ; preds = %push.exit.i, %for.body.i
  %inc.i145.i = phi i32 [ %inc.i.i, %push.exit.i ], [ %inc.i146.i, %for.body.i ]
  %inc.i = add nuw nsw i32 %s.0144.i, 1
  %exitcond.i = icmp eq i32 %inc.i, 256
  br i1 %exitcond.i, label %for.end.i, label %for.body.i, !llvm.loop !19

for.end.i:                                        ; preds = %for.inc.i
  store i32 %inc.i145.i, ptr %count.i.i, align 4, !tbaa !4
  %cmp7.i = icmp eq i32 %inc.i145.i, 0
  br i1 %cmp7.i, label %if.then.critedge, label %while.cond.preheader.i

while.cond.preheader.i:                           ; preds = %for.end.i
  %cmp12148.i = icmp sgt i32 %inc.i145.i, 1
  br i1 %cmp12148.i, label %while.body.i, label %while.end.i

while.body.i:                                     ; preds = %push.exit93.i, %while.cond.preheader.i
  %dec.i147149.i = phi i32 [ %dec.i.i, %push.exit93.i ], [ %inc.i145.i, %while.cond.preheader.i ]
  %v4 = load ptr, ptr %heap.i, align 4, !tbaa !15
  %dec.i.i = add nsw i32 %dec.i147149.i, -1
  %arrayidx2.i.i = getelementptr inbounds [256 x ptr], ptr %heap.i, i32 0, i32 %dec.i.i
  %v5 = load ptr, ptr %arrayidx2.i.i, align 4, !tbaa !15
  %cmp30.i.not.i = icmp eq i32 %dec.i147149.i, 2
  br i1 %cmp30.i.not.i, label %pop.exit.i, label %for.body.lr.ph.i.i

for.body.lr.ph.i.i:                               ; preds = %while.body.i
  %v6 = load i32, ptr %v5, align 4, !tbaa !10
  %symbol6.i27.i.i = getelementptr inbounds i8, ptr %v5, i32 4
  br label %for.body.i.i

for.body.i.i:                                     ; preds = %if.end17.i.i, %for.body.lr.ph.i.i
  %add33.i.i = phi i32 [ 1, %for.body.lr.ph.i.i ], [ %add.i.i, %if.end17.i.i ]
  %mul32.i.i = phi i32 [ 0, %for.body.lr.ph.i.i ], [ %mul.i.i, %if.end17.i.i ]
  %at.031.i.i = phi i32 [ 0, %for.body.lr.ph.i.i ], [ %child.0.i.i, %if.end17.i.i ]
  %add4.i.i = add nsw i32 %mul32.i.i, 2
  %cmp6.i.i = icmp slt i32 %add4.i.i, %dec.i.i
  br i1 %cmp6.i.i, label %land.lhs.true.i.i, label %if.end.i.i

land.lhs.true.i.i:                                ; preds = %for.body.i.i
  %arrayidx9.i.i = getelementptr inbounds [256 x ptr], ptr %heap.i, i32 0, i32 %add4.i.i
  %v7 = load ptr, ptr %arrayidx9.i.i, align 4, !tbaa !15
  %arrayidx11.i.i = getelementptr inbounds [256 x ptr], ptr %heap.i, i32 0, i32 %add33.i.i
  %v8 = load ptr, ptr %arrayidx11.i.i, align 4, !tbaa !15
  %v9 = load i32, ptr %v7, align 4, !tbaa !10
  %v10 = load i32, ptr %v8, align 4, !tbaa !10
  %cmp.not.i.i15.i = icmp eq i32 %v9, %v10
  br i1 %cmp.not.i.i15.i, label %if.end.i.i20.i, label %if.then.i.i16.i

if.then.i.i16.i:                                  ; preds = %land.lhs.true.i.i
  %cmp4.i.i17.i = icmp ult i32 %v9, %v10
  br label %lighter.exit.i18.i

if.end.i.i20.i:                                   ; preds = %land.lhs.true.i.i
  %symbol.i.i21.i = getelementptr inbounds i8, ptr %v7, i32 4
  %v11 = load i16, ptr %symbol.i.i21.i, align 4, !tbaa !14
  %symbol6.i.i22.i = getelementptr inbounds i8, ptr %v8, i32 4
  %v12 = load i16, ptr %symbol6.i.i22.i, align 4, !tbaa !14
  %cmp8.i.i23.i = icmp slt i16 %v11, %v12
  br label %lighter.exit.i18.i

lighter.exit.i18.i:                               ; preds = %if.end.i.i20.i, %if.then.i.i16.i
  %retval.0.in.i.i19.i = phi i1 [ %cmp4.i.i17.i, %if.then.i.i16.i ], [ %cmp8.i.i23.i, %if.end.i.i20.i ]
  %spec.select.i.i = select i1 %retval.0.in.i.i19.i, i32 %add4.i.i, i32 %add33.i.i
  br label %if.end.i.i

if.end.i.i:                                       ; preds = %lighter.exit.i18.i, %for.body.i.i
  %child.0.i.i = phi i32 [ %add33.i.i, %for.body.i.i ], [ %spec.select.i.i, %lighter.exit.i18.i ]
  %arrayidx13.i.i = getelementptr inbounds [256 x ptr], ptr %heap.i, i32 0, i32 %child.0.i.i
  %v13 = load ptr, ptr %arrayidx13.i.i, align 4, !tbaa !15
  %v14 = load i32, ptr %v13, align 4, !tbaa !10
  %cmp.not.i20.i.i = icmp eq i32 %v14, %v6
  br i1 %cmp.not.i20.i.i, label %if.end.i25.i.i, label %if.then.i21.i.i

if.then.i21.i.i:                                  ; preds = %if.end.i.i
  %cmp4.i22.i.i = icmp ult i32 %v14, %v6
  br label %lighter.exit29.i.i

if.end.i25.i.i:                                   ; preds = %if.end.i.i
  %symbol.i26.i.i = getelementptr inbounds i8, ptr %v13, i32 4
  %v15 = load i16, ptr %symbol.i26.i.i, align 4, !tbaa !14
  %v16 = load i16, ptr %symbol6.i27.i.i, align 4, !tbaa !14
  %cmp8.i28.i.i = icmp slt i16 %v15, %v16
  br label %lighter.exit29.i.i

lighter.exit29.i.i:                               ; preds = %if.end.i25.i.i, %if.then.i21.i.i
  %retval.0.in.i23.i.i = phi i1 [ %cmp4.i22.i.i, %if.then.i21.i.i ], [ %cmp8.i28.i.i, %if.end.i25.i.i ]
  br i1 %retval.0.in.i23.i.i, label %if.end17.i.i, label %pop.exit.i

if.end17.i.i:                                     ; preds = %lighter.exit29.i.i
  %arrayidx21.i.i = getelementptr inbounds [256 x ptr], ptr %heap.i, i32 0, i32 %at.031.i.i
  store ptr %v13, ptr %arrayidx21.i.i, align 4, !tbaa !15
  %mul.i.i = shl nsw i32 %child.0.i.i, 1
  %add.i.i = or disjoint i32 %mul.i.i, 1
  %cmp.i.i = icmp slt i32 %add.i.i, %dec.i.i
  br i1 %cmp.i.i, label %for.body.i.i, label %pop.exit.i, !llvm.loop !20

pop.exit.i:                                       ; preds = %if.end17.i.i, %lighter.exit29.i.i, %while.body.i
  %at.0.lcssa.i14.i = phi i32 [ 0, %while.body.i ], [ %child.0.i.i, %if.end17.i.i ], [ %at.031.i.i, %lighter.exit29.i.i ]
  %arrayidx23.i.i = getelementptr inbounds [256 x ptr], ptr %heap.i, i32 0, i32 %at.0.lcssa.i14.i
  store ptr %v5, ptr %arrayidx23.i.i, align 4, !tbaa !15
  %v17 = load ptr, ptr %heap.i, align 4, !tbaa !15
  %dec.i25.i = add nsw i32 %dec.i147149.i, -2
  %arrayidx2.i26.i = getelementptr inbounds [256 x ptr], ptr %heap.i, i32 0, i32 %dec.i25.i
  %v18 = load ptr, ptr %arrayidx2.i26.i, align 4, !tbaa !15
  %cmp30.i27.i = icmp sgt i32 %dec.i147149.i, 3
  br i1 %cmp30.i27.i, label %for.body.lr.ph.i30.i, label %pop.exit67.i

for.body.lr.ph.i30.i:                             ; preds = %pop.exit.i
  %v19 = load i32, ptr %v18, align 4, !tbaa !10
  %symbol6.i27.i31.i = getelementptr inbounds i8, ptr %v18, i32 4
  br label %for.body.i32.i

for.body.i32.i:                                   ; preds = %if.end17.i46.i, %for.body.lr.ph.i30.i
  %add33.i33.i = phi i32 [ 1, %for.body.lr.ph.i30.i ], [ %add.i49.i, %if.end17.i46.i ]
  %mul32.i34.i = phi i32 [ 0, %for.body.lr.ph.i30.i ], [ %mul.i48.i, %if.end17.i46.i ]
  %at.031.i35.i = phi i32 [ 0, %for.body.lr.ph.i30.i ], [ %child.0.i39.i, %if.end17.i46.i ]
  %add4.i36.i = add nsw i32 %mul32.i34.i, 2
  %cmp6.i37.i = icmp slt i32 %add4.i36.i, %dec.i25.i
  br i1 %cmp6.i37.i, label %land.lhs.true.i54.i, label %if.end.i38.i

land.lhs.true.i54.i:                              ; preds = %for.body.i32.i
  %arrayidx9.i55.i = getelementptr inbounds [256 x ptr], ptr %heap.i, i32 0, i32 %add4.i36.i
  %v20 = load ptr, ptr %arrayidx9.i55.i, align 4, !tbaa !15
  %arrayidx11.i56.i = getelementptr inbounds [256 x ptr], ptr %heap.i, i32 0, i32 %add33.i33.i
  %v21 = load ptr, ptr %arrayidx11.i56.i, align 4, !tbaa !15
  %v22 = load i32, ptr %v20, align 4, !tbaa !10
  %v23 = load i32, ptr %v21, align 4, !tbaa !10
  %cmp.not.i.i57.i = icmp eq i32 %v22, %v23
  br i1 %cmp.not.i.i57.i, label %if.end.i.i63.i, label %if.then.i.i58.i

if.then.i.i58.i:                                  ; preds = %land.lhs.true.i54.i
  %cmp4.i.i59.i = icmp ult i32 %v22, %v23
  br label %lighter.exit.i60.i

if.end.i.i63.i:                                   ; preds = %land.lhs.true.i54.i
  %symbol.i.i64.i = getelementptr inbounds i8, ptr %v20, i32 4
  %v24 = load i16, ptr %symbol.i.i64.i, align 4, !tbaa !14
  %symbol6.i.i65.i = getelementptr inbounds i8, ptr %v21, i32 4
  %v25 = load i16, ptr %symbol6.i.i65.i, align 4, !tbaa !14
  %cmp8.i.i66.i = icmp slt i16 %v24, %v25
  br label %lighter.exit.i60.i

lighter.exit.i60.i:                               ; preds = %if.end.i.i63.i, %if.then.i.i58.i
  %retval.0.in.i.i61.i = phi i1 [ %cmp4.i.i59.i, %if.then.i.i58.i ], [ %cmp8.i.i66.i, %if.end.i.i63.i ]
  %spec.select.i62.i = select i1 %retval.0.in.i.i61.i, i32 %add4.i36.i, i32 %add33.i33.i
  br label %if.end.i38.i

if.end.i38.i:                                     ; preds = %lighter.exit.i60.i, %for.body.i32.i
  %child.0.i39.i = phi i32 [ %add33.i33.i, %for.body.i32.i ], [ %spec.select.i62.i, %lighter.exit.i60.i ]
  %arrayidx13.i40.i = getelementptr inbounds [256 x ptr], ptr %heap.i, i32 0, i32 %child.0.i39.i
  %v26 = load ptr, ptr %arrayidx13.i40.i, align 4, !tbaa !15
  %v27 = load i32, ptr %v26, align 4, !tbaa !10
  %cmp.not.i20.i41.i = icmp eq i32 %v27, %v19
  br i1 %cmp.not.i20.i41.i, label %if.end.i25.i51.i, label %if.then.i21.i42.i

if.then.i21.i42.i:                                ; preds = %if.end.i38.i
  %cmp4.i22.i43.i = icmp ult i32 %v27, %v19
  br label %lighter.exit29.i44.i

if.end.i25.i51.i:                                 ; preds = %if.end.i38.i
  %symbol.i26.i52.i = getelementptr inbounds i8, ptr %v26, i32 4
  %v28 = load i16, ptr %symbol.i26.i52.i, align 4, !tbaa !14
  %v29 = load i16, ptr %symbol6.i27.i31.i, align 4, !tbaa !14
  %cmp8.i28.i53.i = icmp slt i16 %v28, %v29
  br label %lighter.exit29.i44.i

lighter.exit29.i44.i:                             ; preds = %if.end.i25.i51.i, %if.then.i21.i42.i
  %retval.0.in.i23.i45.i = phi i1 [ %cmp4.i22.i43.i, %if.then.i21.i42.i ], [ %cmp8.i28.i53.i, %if.end.i25.i51.i ]
  br i1 %retval.0.in.i23.i45.i, label %if.end17.i46.i, label %pop.exit67.i

if.end17.i46.i:                                   ; preds = %lighter.exit29.i44.i
  %arrayidx21.i47.i = getelementptr inbounds [256 x ptr], ptr %heap.i, i32 0, i32 %at.031.i35.i
  store ptr %v26, ptr %arrayidx21.i47.i, align 4, !tbaa !15
  %mul.i48.i = shl nsw i32 %child.0.i39.i, 1
  %add.i49.i = or disjoint i32 %mul.i48.i, 1
  %cmp.i50.i = icmp slt i32 %add.i49.i, %dec.i25.i
  br i1 %cmp.i50.i, label %for.body.i32.i, label %pop.exit67.i, !llvm.loop !21

pop.exit67.i:                                     ; preds = %if.end17.i46.i, %lighter.exit29.i44.i, %pop.exit.i
  %at.0.lcssa.i28.i = phi i32 [ 0, %pop.exit.i ], [ %child.0.i39.i, %if.end17.i46.i ], [ %at.031.i35.i, %lighter.exit29.i44.i ]
  %arrayidx23.i29.i = getelementptr inbounds [256 x ptr], ptr %heap.i, i32 0, i32 %at.0.lcssa.i28.i
  store ptr %v18, ptr %arrayidx23.i29.i, align 4, !tbaa !15
  %call.i.i = tail call dereferenceable_or_null(16) ptr @__sized_malloc(i32 noundef signext 16) #16
  %tobool.not.i.i = icmp eq ptr %call.i.i, null
  br i1 %tobool.not.i.i, label %if.then.i.i, label %join.exit.i

if.then.i.i:                                      ; preds = %pop.exit67.i
  store i32 %dec.i25.i, ptr %count.i.i, align 4, !tbaa !4
  tail call void @abort() #17
  unreachable

join.exit.i:                                      ; preds = %pop.exit67.i
  %v30 = load i32, ptr %v4, align 4, !tbaa !10
  %v31 = load i32, ptr %v17, align 4, !tbaa !10
  %add.i69.i = add i32 %v31, %v30
  store i32 %add.i69.i, ptr %call.i.i, align 4, !tbaa !10
  %symbol.i.i = getelementptr inbounds i8, ptr %v4, i32 4
  %v32 = load i16, ptr %symbol.i.i, align 4, !tbaa !14
  %symbol3.i.i = getelementptr inbounds i8, ptr %v17, i32 4
  %v33 = load i16, ptr %symbol3.i.i, align 4, !tbaa !14
  %..i.i = tail call i16 @llvm.smin.i16(i16 %v32, i16 %v33)
  %symbol11.i.i = getelementptr inbounds i8, ptr %call.i.i, i32 4
  store i16 %..i.i, ptr %symbol11.i.i, align 4, !tbaa !14
  %left12.i.i = getelementptr inbounds i8, ptr %call.i.i, i32 8
  store ptr %v4, ptr %left12.i.i, align 4, !tbaa !22
  %right13.i.i = getelementptr inbounds i8, ptr %call.i.i, i32 12
  store ptr %v17, ptr %right13.i.i, align 4, !tbaa !23
  br i1 %cmp30.i.not.i, label %push.exit93.i, label %land.rhs.i77.i

land.rhs.i77.i:                                   ; preds = %while.body.i87.i, %join.exit.i
  %at.013.i78.i = phi i32 [ %div11.i80.i, %while.body.i87.i ], [ %dec.i25.i, %join.exit.i ]
  %sub.i79.i = add nsw i32 %at.013.i78.i, -1
  %div11.i80.i = lshr i32 %sub.i79.i, 1
  %arrayidx.i81.i = getelementptr inbounds [256 x ptr], ptr %heap.i, i32 0, i32 %div11.i80.i
  %v34 = load ptr, ptr %arrayidx.i81.i, align 4, !tbaa !15
  %v35 = load i32, ptr %v34, align 4, !tbaa !10
  %cmp.not.i.i82.i = icmp eq i32 %add.i69.i, %v35
  br i1 %cmp.not.i.i82.i, label %if.end.i.i90.i, label %if.then.i.i83.i

if.then.i.i83.i:                                  ; preds = %land.rhs.i77.i
  %cmp4.i.i84.i = icmp ult i32 %add.i69.i, %v35
  br label %lighter.exit.i85.i

if.end.i.i90.i:                                   ; preds = %land.rhs.i77.i
  %symbol6.i.i91.i = getelementptr inbounds i8, ptr %v34, i32 4
  %v36 = load i16, ptr %symbol6.i.i91.i, align 4, !tbaa !14
  %cmp8.i.i92.i = icmp slt i16 %..i.i, %v36
  br label %lighter.exit.i85.i

lighter.exit.i85.i:                               ; preds = %if.end.i.i90.i, %if.then.i.i83.i
  %retval.0.in.i.i86.i = phi i1 [ %cmp4.i.i84.i, %if.then.i.i83.i ], [ %cmp8.i.i92.i, %if.end.i.i90.i ]
  br i1 %retval.0.in.i.i86.i, label %while.body.i87.i, label %push.exit93.i

while.body.i87.i:                                 ; preds = %lighter.exit.i85.i
  %arrayidx6.i88.i = getelementptr inbounds [256 x ptr], ptr %heap.i, i32 0, i32 %at.013.i78.i
  store ptr %v34, ptr %arrayidx6.i88.i, align 4, !tbaa !15
  %cmp.not.i89.i = icmp ult i32 %sub.i79.i, 2
  br i1 %cmp.not.i89.i, label %push.exit93.i, label %land.rhs.i77.i, !llvm.loop !24

push.exit93.i:                                    ; preds = %while.body.i87.i, %lighter.exit.i85.i, %join.exit.i
  %at.0.lcssa.i73.i = phi i32 [ %dec.i25.i, %join.exit.i ], [ %at.013.i78.i, %lighter.exit.i85.i ], [ %div11.i80.i, %while.body.i87.i ]
  %arrayidx10.i74.i = getelementptr inbounds [256 x ptr], ptr %heap.i, i32 0, i32 %at.0.lcssa.i73.i
  store ptr %call.i.i, ptr %arrayidx10.i74.i, align 4, !tbaa !15
  %cmp12.i = icmp sgt i32 %dec.i147149.i, 2
  br i1 %cmp12.i, label %while.body.i, label %while.end.i, !llvm.loop !25

while.end.i:                                      ; preds = %push.exit93.i, %while.cond.preheader.i
  %dec.i147.lcssa.i = phi i32 [ %inc.i145.i, %while.cond.preheader.i ], [ 1, %push.exit93.i ]
  store i32 %dec.i147.lcssa.i, ptr %count.i.i, align 4, !tbaa !4
  %v37 = load ptr, ptr %heap.i, align 4, !tbaa !15
  %dec.i95.i = add nsw i32 %dec.i147.lcssa.i, -1
  store i32 %dec.i95.i, ptr %count.i.i, align 4, !tbaa !4
  %arrayidx2.i96.i = getelementptr inbounds [256 x ptr], ptr %heap.i, i32 0, i32 %dec.i95.i
  %v38 = load ptr, ptr %arrayidx2.i96.i, align 4, !tbaa !15
  store ptr %v38, ptr %heap.i, align 4, !tbaa !15
  tail call fastcc void @measure(ptr noundef %v37, i32 noundef signext 0)
  br label %for.cond1.preheader.i.i

for.cond1.preheader.i.i:                          ; preds = %for.cond.cleanup3.i.i, %while.end.i
  %length.011.i.i = phi i32 [ 1, %while.end.i ], [ %inc11.i.i, %for.cond.cleanup3.i.i ]
  %next.010.i.i = phi i32 [ 0, %while.end.i ], [ %shl.i.i, %for.cond.cleanup3.i.i ]
  br label %for.body4.i.i

for.cond.cleanup3.i.i:                            ; preds = %for.inc.i.i
  %shl.i.i = shl i32 %next.2.i.i, 1
  %inc11.i.i = add nuw nsw i32 %length.011.i.i, 1
  %exitcond12.not.i.i = icmp eq i32 %inc11.i.i, 33
  br i1 %exitcond12.not.i.i, label %code_from_counts.exit, label %for.cond1.preheader.i.i, !llvm.loop !26

for.body4.i.i:                                    ; preds = %for.inc.i.i, %for.cond1.preheader.i.i
  %s.09.i.i = phi i32 [ 0, %for.cond1.preheader.i.i ], [ %inc9.i.i, %for.inc.i.i ]
  %next.18.i.i = phi i32 [ %next.010.i.i, %for.cond1.preheader.i.i ], [ %next.2.i.i, %for.inc.i.i ]
  %arrayidx.i138.i = getelementptr inbounds [256 x i8], ptr @main.code, i32 0, i32 %s.09.i.i
  %v39 = load i8, ptr %arrayidx.i138.i, align 1, !tbaa !27
  %conv.i.i = zext i8 %v39 to i32
  %cmp6.i139.i = icmp eq i32 %length.011.i.i, %conv.i.i
  br i1 %cmp6.i139.i, label %if.then.i140.i, label %for.inc.i.i

if.then.i140.i:                                   ; preds = %for.body4.i.i
  %inc.i141.i = add i32 %next.18.i.i, 1
  %arrayidx8.i.i = getelementptr inbounds [256 x i32], ptr getelementptr inbounds (i8, ptr @main.code, i32 256), i32 0, i32 %s.09.i.i
  store i32 %next.18.i.i, ptr %arrayidx8.i.i, align 4, !tbaa !9
  br label %for.inc.i.i

for.inc.i.i:                                      ; preds = %if.then.i140.i, %for.body4.i.i
  %next.2.i.i = phi i32 [ %inc.i141.i, %if.then.i140.i ], [ %next.18.i.i, %for.body4.i.i ]
  %inc9.i.i = add nuw nsw i32 %s.09.i.i, 1
  %exitcond.not.i.i = icmp eq i32 %inc9.i.i, 256
  br i1 %exitcond.not.i.i, label %for.cond.cleanup3.i.i, label %for.body4.i.i, !llvm.loop !28

cleanup18.loopexit142.i:                          ; preds = %if.end.i
  store i32 %inc.i146.i, ptr %count.i.i, align 4, !tbaa !4
  br label %if.then.critedge

code_from_counts.exit:                            ; preds = %for.cond.cleanup3.i.i
  call void @llvm.lifetime.end.p0(i64 1028, ptr nonnull %heap.i) #14
  call void @llvm.lifetime.start.p0(i64 1024, ptr nonnull %order) #14
  br label %for.body8

for.body:                                         ; preds = %for.body, %entry
  %k.096 = phi i32 [ %inc2, %for.body ], [ 0, %entry ]
  %arrayidx = getelementptr inbounds [4000 x i8], ptr @text, i32 0, i32 %k.096
  %v40 = load i8, ptr %arrayidx, align 1, !tbaa !27
  %idxprom = zext i8 %v40 to i32
  %arrayidx1 = getelementptr inbounds [256 x i32], ptr %counts, i32 0, i32 %idxprom
  %v41 = load i32, ptr %arrayidx1, align 4, !tbaa !9
  %inc = add i32 %v41, 1
  store i32 %inc, ptr %arrayidx1, align 4, !tbaa !9
  %inc2 = add nuw i32 %k.096, 1
  %exitcond.not = icmp eq i32 %inc2, %call
  br i1 %exitcond.not, label %for.cond.cleanup, label %for.body, !llvm.loop !29

if.then.critedge:                                 ; preds = %cleanup18.loopexit142.i, %for.end.i
  call void @llvm.lifetime.end.p0(i64 1028, ptr nonnull %heap.i) #14
  %call4 = tail call i32 @puts(ptr noundef nonnull dereferenceable(1) @.str)
  br label %cleanup70

for.cond.cleanup7:                                ; preds = %for.inc14
  store ptr @main.code, ptr @lengths, align 4, !tbaa !15
  call void @qsort(ptr noundef nonnull %order, i32 noundef signext %used.1, i32 noundef signext 4, ptr noundef nonnull @by_length) #14
  %cmp2099 = icmp sgt i32 %used.1, 0
  br i1 %cmp2099, label %for.body22, label %for.cond.cleanup21

for.body8:                                        ; preds = %for.inc14, %code_from_counts.exit
  %s.098 = phi i32 [ 0, %code_from_counts.exit ], [ %inc15, %for.inc14 ]
  %used.097 = phi i32 [ 0, %code_from_counts.exit ], [ %used.1, %for.inc14 ]
  %arrayidx9 = getelementptr inbounds [256 x i32], ptr %counts, i32 0, i32 %s.098
  %v42 = load i32, ptr %arrayidx9, align 4, !tbaa !9
  %tobool.not = icmp eq i32 %v42, 0
  br i1 %tobool.not, label %for.inc14, label %if.then10

if.then10:                                        ; preds = %for.body8
  %inc11 = add nsw i32 %used.097, 1
  %arrayidx12 = getelementptr inbounds [256 x i32], ptr %order, i32 0, i32 %used.097
  store i32 %s.098, ptr %arrayidx12, align 4, !tbaa !9
  br label %for.inc14

for.inc14:                                        ; preds = %if.then10, %for.body8
  %used.1 = phi i32 [ %inc11, %if.then10 ], [ %used.097, %for.body8 ]
  %inc15 = add nuw nsw i32 %s.098, 1
  %exitcond105.not = icmp eq i32 %inc15, 256
  br i1 %exitcond105.not, label %for.cond.cleanup7, label %for.body8, !llvm.loop !30

for.cond.cleanup21:                               ; preds = %show_code.exit, %for.cond.cleanup7
  br i1 %cmp95.not, label %encode.exit, label %for.body.i28

for.body.i28:                                     ; preds = %bits_put.exit.i, %for.cond.cleanup21
  %bits.sroa.0.0 = phi ptr [ %bits.sroa.0.3, %bits_put.exit.i ], [ null, %for.cond.cleanup21 ]
  %bits.sroa.10.0 = phi i32 [ %bits.sroa.10.2, %bits_put.exit.i ], [ 0, %for.cond.cleanup21 ]
  %bits.sroa.18.0 = phi i32 [ %bits.sroa.18.3, %bits_put.exit.i ], [ 0, %for.cond.cleanup21 ]
  %k.07.i = phi i32 [ %inc.i34, %bits_put.exit.i ], [ 0, %for.cond.cleanup21 ]
  %arrayidx.i29 = getelementptr inbounds i8, ptr @text, i32 %k.07.i
  %v43 = load i8, ptr %arrayidx.i29, align 1, !tbaa !27
  %idxprom.i = zext i8 %v43 to i32
  %arrayidx1.i = getelementptr inbounds [256 x i32], ptr getelementptr inbounds (i8, ptr @main.code, i32 256), i32 0, i32 %idxprom.i
  %v44 = load i32, ptr %arrayidx1.i, align 4, !tbaa !9
  %arrayidx4.i = getelementptr inbounds [256 x i8], ptr @main.code, i32 0, i32 %idxprom.i
  %v45 = load i8, ptr %arrayidx4.i, align 1, !tbaa !27
  %cmp.not2.i.i = icmp eq i8 %v45, 0
  br i1 %cmp.not2.i.i, label %bits_put.exit.i, label %while.body.lr.ph.i.i

while.body.lr.ph.i.i:                             ; preds = %for.body.i28
  %conv.i30 = zext i8 %v45 to i32
  br label %while.body.i.i31

while.body.i.i31:                                 ; preds = %put.exit.i.i, %while.body.lr.ph.i.i
  %bits.sroa.0.1 = phi ptr [ %bits.sroa.0.0, %while.body.lr.ph.i.i ], [ %bits.sroa.0.2, %put.exit.i.i ]
  %bits.sroa.10.1 = phi i32 [ %bits.sroa.10.0, %while.body.lr.ph.i.i ], [ %inc19.i.i.i, %put.exit.i.i ]
  %bits.sroa.18.1 = phi i32 [ %bits.sroa.18.0, %while.body.lr.ph.i.i ], [ %bits.sroa.18.2, %put.exit.i.i ]
  %count.addr.03.i.i = phi i32 [ %conv.i30, %while.body.lr.ph.i.i ], [ %dec.i.i32, %put.exit.i.i ]
  %dec.i.i32 = add nsw i32 %count.addr.03.i.i, -1
  %shr.i.i = lshr i32 %v44, %dec.i.i32
  %and.i.i = and i32 %shr.i.i, 1
  %mul.i.i.i = shl i32 %bits.sroa.18.1, 3
  %cmp.i.i.i = icmp eq i32 %bits.sroa.10.1, %mul.i.i.i
  br i1 %cmp.i.i.i, label %if.then.i.i.i35, label %put.exit.i.i

if.then.i.i.i35:                                  ; preds = %while.body.i.i31
  %tobool.not.i.i.i = icmp eq i32 %bits.sroa.18.1, 0
  %mul4.i.i.i = shl i32 %bits.sroa.18.1, 1
  %spec.select.i.i.i = select i1 %tobool.not.i.i.i, i32 32, i32 %mul4.i.i.i
  %call.i.i.i = call ptr @realloc(ptr noundef %bits.sroa.0.1, i32 noundef signext %spec.select.i.i.i) #18
  %tobool6.not.i.i.i = icmp eq ptr %call.i.i.i, null
  br i1 %tobool6.not.i.i.i, label %if.then7.i.i.i, label %if.end.i.i.i36

if.then7.i.i.i:                                   ; preds = %if.then.i.i.i35
  call void @abort() #17
  unreachable

if.end.i.i.i36:                                   ; preds = %if.then.i.i.i35
  %cmp919.i.i.i = icmp ult i32 %bits.sroa.18.1, %spec.select.i.i.i
  br i1 %cmp919.i.i.i, label %for.body.preheader.i.i.i, label %put.exit.i.i

for.body.preheader.i.i.i:                         ; preds = %if.end.i.i.i36
  %scevgep.i.i.i = getelementptr i8, ptr %call.i.i.i, i32 %bits.sroa.18.1
  %v46 = sub i32 %spec.select.i.i.i, %bits.sroa.18.1
  call void @llvm.memset.p0.i32(ptr align 1 %scevgep.i.i.i, i8 0, i32 %v46, i1 false), !tbaa !27
  br label %put.exit.i.i

put.exit.i.i:                                     ; preds = %for.body.preheader.i.i.i, %if.end.i.i.i36, %while.body.i.i31
  %bits.sroa.0.2 = phi ptr [ %bits.sroa.0.1, %while.body.i.i31 ], [ %call.i.i.i, %for.body.preheader.i.i.i ], [ %call.i.i.i, %if.end.i.i.i36 ]
  %bits.sroa.18.2 = phi i32 [ %bits.sroa.18.1, %while.body.i.i31 ], [ %spec.select.i.i.i, %for.body.preheader.i.i.i ], [ %spec.select.i.i.i, %if.end.i.i.i36 ]
  %rem.i.i.i = and i32 %bits.sroa.10.1, 7
  %sub.i.i.i = xor i32 %rem.i.i.i, 7
  %shl.i.i.i = shl nuw nsw i32 %and.i.i, %sub.i.i.i
  %div18.i.i.i = lshr i32 %bits.sroa.10.1, 3
  %arrayidx16.i.i.i = getelementptr inbounds i8, ptr %bits.sroa.0.2, i32 %div18.i.i.i
  %v47 = load i8, ptr %arrayidx16.i.i.i, align 1, !tbaa !27
  %v48 = trunc nuw i32 %shl.i.i.i to i8
  %conv17.i.i.i = or i8 %v47, %v48
  store i8 %conv17.i.i.i, ptr %arrayidx16.i.i.i, align 1, !tbaa !27
  %inc19.i.i.i = add i32 %bits.sroa.10.1, 1
  %cmp.not.i.i33 = icmp eq i32 %dec.i.i32, 0
  br i1 %cmp.not.i.i33, label %bits_put.exit.i, label %while.body.i.i31, !llvm.loop !31

bits_put.exit.i:                                  ; preds = %put.exit.i.i, %for.body.i28
  %bits.sroa.0.3 = phi ptr [ %bits.sroa.0.0, %for.body.i28 ], [ %bits.sroa.0.2, %put.exit.i.i ]
  %bits.sroa.10.2 = phi i32 [ %bits.sroa.10.0, %for.body.i28 ], [ %inc19.i.i.i, %put.exit.i.i ]
  %bits.sroa.18.3 = phi i32 [ %bits.sroa.18.0, %for.body.i28 ], [ %bits.sroa.18.2, %put.exit.i.i ]
  %inc.i34 = add nuw i32 %k.07.i, 1
  %exitcond.not.i = icmp eq i32 %inc.i34, %call
  br i1 %exitcond.not.i, label %encode.exit, label %for.body.i28, !llvm.loop !32

encode.exit:                                      ; preds = %bits_put.exit.i, %for.cond.cleanup21
  %bits.sroa.0.4 = phi ptr [ null, %for.cond.cleanup21 ], [ %bits.sroa.0.3, %bits_put.exit.i ]
  %bits.sroa.10.3 = phi i32 [ 0, %for.cond.cleanup21 ], [ %bits.sroa.10.2, %bits_put.exit.i ]
  %div = udiv i32 %bits.sroa.10.3, %call
  %rem = urem i32 %bits.sroa.10.3, %call
  %mul = mul i32 %rem, 100
  %div30 = udiv i32 %mul, %call
  %print.679.0 = zext i32 %call to i64
  %print.679.1 = call i32 @__print_unsigned(ptr nonnull getelementptr inbounds (i8, ptr @__streams, i32 12), i64 %print.679.0, i32 10, i32 0, i32 0, i32 -1) #14
  %print.679.2 = call i32 @__print_text(ptr nonnull getelementptr inbounds (i8, ptr @__streams, i32 12), ptr nonnull getelementptr inbounds (i8, ptr @.str.1, i32 3), i32 8) #14
  %print.679.3 = sext i32 %used.1 to i64
  %print.679.4 = call i32 @__print_signed(ptr nonnull getelementptr inbounds (i8, ptr @__streams, i32 12), i64 %print.679.3, i32 0, i32 0, i32 -1) #14
  %print.679.5 = call i32 @__print_text(ptr nonnull getelementptr inbounds (i8, ptr @__streams, i32 12), ptr nonnull getelementptr inbounds (i8, ptr @.str.1, i32 13), i32 10) #14
  %print.679.6 = zext i32 %bits.sroa.10.3 to i64
  %print.679.7 = call i32 @__print_unsigned(ptr nonnull getelementptr inbounds (i8, ptr @__streams, i32 12), i64 %print.679.6, i32 10, i32 0, i32 0, i32 -1) #14
  %print.679.8 = call i32 @__print_text(ptr nonnull getelementptr inbounds (i8, ptr @__streams, i32 12), ptr nonnull getelementptr inbounds (i8, ptr @.str.1, i32 26), i32 7) #14
  %print.679.9 = zext i32 %div to i64
  %print.679.10 = call i32 @__print_unsigned(ptr nonnull getelementptr inbounds (i8, ptr @__streams, i32 12), i64 %print.679.9, i32 10, i32 0, i32 0, i32 -1) #14
  %print.679.11 = call i32 @__print_text(ptr nonnull getelementptr inbounds (i8, ptr @__streams, i32 12), ptr nonnull getelementptr inbounds (i8, ptr @.str.1, i32 36), i32 1) #14
  %print.679.12 = zext i32 %div30 to i64
  %print.679.13 = call i32 @__print_unsigned(ptr nonnull getelementptr inbounds (i8, ptr @__streams, i32 12), i64 %print.679.12, i32 10, i32 16, i32 2, i32 -1) #14
  %print.679.14 = call i32 @__print_text(ptr nonnull getelementptr inbounds (i8, ptr @__streams, i32 12), ptr nonnull getelementptr inbounds (i8, ptr @.str.1, i32 42), i32 13) #14
  %print.680.0 = call i32 @__print_text(ptr nonnull getelementptr inbounds (i8, ptr @__streams, i32 12), ptr nonnull @.str.2, i32 6) #14
  %cmp38101.not = icmp eq i32 %bits.sroa.10.3, 0
  br i1 %cmp38101.not, label %for.cond.cleanup39, label %for.body40

for.body22:                                       ; preds = %show_code.exit, %for.cond.cleanup7
  %k18.0100 = phi i32 [ %inc26, %show_code.exit ], [ 0, %for.cond.cleanup7 ]
  %arrayidx24 = getelementptr inbounds [256 x i32], ptr %order, i32 0, i32 %k18.0100
  %v49 = load i32, ptr %arrayidx24, align 4, !tbaa !9
  call void @llvm.lifetime.start.p0(i64 33, ptr nonnull %word.i) #14
  %arrayidx.i37 = getelementptr inbounds [256 x i8], ptr @main.code, i32 0, i32 %v49
  %v50 = load i8, ptr %arrayidx.i37, align 1, !tbaa !27
  %conv.i38 = zext i8 %v50 to i32
  %cmp14.not.i = icmp eq i8 %v50, 0
  br i1 %cmp14.not.i, label %for.cond.cleanup.i, label %for.body.lr.ph.i39

for.body.lr.ph.i39:                               ; preds = %for.body22
  %arrayidx2.i = getelementptr inbounds [256 x i32], ptr getelementptr inbounds (i8, ptr @main.code, i32 256), i32 0, i32 %v49
  %v51 = load i32, ptr %arrayidx2.i, align 4, !tbaa !9
  br label %for.body.i40

for.cond.cleanup.i:                               ; preds = %for.body.i40, %for.body22
  %arrayidx11.i = getelementptr inbounds [33 x i8], ptr %word.i, i32 0, i32 %conv.i38
  store i8 0, ptr %arrayidx11.i, align 1, !tbaa !27
  %call.i.i43 = call i32 @isprint(i32 noundef signext %v49) #19
  %tobool.i.i = icmp ne i32 %call.i.i43, 0
  %cmp.i.i44 = icmp ne i32 %v49, 32
  %or.cond.i.i = and i1 %cmp.i.i44, %tobool.i.i
  br i1 %or.cond.i.i, label %if.then.i.i45, label %if.else.i.i

if.then.i.i45:                                    ; preds = %for.cond.cleanup.i
  %print.991.0.i.i = call i32 @__print_character(ptr nonnull getelementptr inbounds (i8, ptr @__streams, i32 12), i32 %v49, i32 0, i32 0) #14
  %print.991.1.i.i = call i32 @__print_text(ptr nonnull getelementptr inbounds (i8, ptr @__streams, i32 12), ptr nonnull getelementptr inbounds (i8, ptr @.str.8, i32 2), i32 3) #14
  br label %show_code.exit

if.else.i.i:                                      ; preds = %for.cond.cleanup.i
  %cmp2.i.i = icmp eq i32 %v49, 10
  br i1 %cmp2.i.i, label %if.then3.i.i, label %if.else5.i.i

if.then3.i.i:                                     ; preds = %if.else.i.i
  %print.1000.0.i.i = call i32 @__print_text(ptr nonnull getelementptr inbounds (i8, ptr @__streams, i32 12), ptr nonnull @.str.9, i32 4) #14
  br label %show_code.exit

if.else5.i.i:                                     ; preds = %if.else.i.i
  %print.1005.0.i.i = call i32 @__print_text(ptr nonnull getelementptr inbounds (i8, ptr @__streams, i32 12), ptr nonnull @.str.10, i32 1) #14
  %print.1005.1.i.i = zext i32 %v49 to i64
  %print.1005.2.i.i = call i32 @__print_unsigned(ptr nonnull getelementptr inbounds (i8, ptr @__streams, i32 12), i64 %print.1005.1.i.i, i32 16, i32 48, i32 2, i32 -1) #14
  %print.1005.3.i.i = call i32 @__print_text(ptr nonnull getelementptr inbounds (i8, ptr @__streams, i32 12), ptr nonnull getelementptr inbounds (i8, ptr @.str.10, i32 5), i32 1) #14
  br label %show_code.exit

for.body.i40:                                     ; preds = %for.body.i40, %for.body.lr.ph.i39
  %k.015.i = phi i32 [ 0, %for.body.lr.ph.i39 ], [ %inc.i41, %for.body.i40 ]
  %v52 = xor i32 %k.015.i, -1
  %sub6.i = add nsw i32 %v52, %conv.i38
  %v53 = shl nuw i32 1, %sub6.i
  %v54 = and i32 %v53, %v51
  %tobool.not.i = icmp eq i32 %v54, 0
  %conv7.i = select i1 %tobool.not.i, i8 48, i8 49
  %arrayidx8.i = getelementptr inbounds [33 x i8], ptr %word.i, i32 0, i32 %k.015.i
  store i8 %conv7.i, ptr %arrayidx8.i, align 1, !tbaa !27
  %inc.i41 = add nuw nsw i32 %k.015.i, 1
  %exitcond.not.i42 = icmp eq i32 %inc.i41, %conv.i38
  br i1 %exitcond.not.i42, label %for.cond.cleanup.i, label %for.body.i40, !llvm.loop !33

show_code.exit:                                   ; preds = %if.else5.i.i, %if.then3.i.i, %if.then.i.i45
  %arrayidx12.i = getelementptr inbounds i32, ptr %counts, i32 %v49
  %v55 = load i32, ptr %arrayidx12.i, align 4, !tbaa !9
  %v56 = load i8, ptr %arrayidx.i37, align 1, !tbaa !27
  %print.960.0.i = zext i32 %v55 to i64
  %print.960.1.i = call i32 @__print_unsigned(ptr nonnull getelementptr inbounds (i8, ptr @__streams, i32 12), i64 %print.960.0.i, i32 10, i32 0, i32 5, i32 -1) #14
  %print.960.2.i = call i32 @__print_text(ptr nonnull getelementptr inbounds (i8, ptr @__streams, i32 12), ptr nonnull getelementptr inbounds (i8, ptr @.str.7, i32 3), i32 2) #14
  %print.960.3.i = call i32 @__print_string(ptr nonnull getelementptr inbounds (i8, ptr @__streams, i32 12), ptr nonnull %word.i, i32 1, i32 16, i32 -1) #14
  %print.960.4.i = call i32 @__print_text(ptr nonnull getelementptr inbounds (i8, ptr @__streams, i32 12), ptr nonnull getelementptr inbounds (i8, ptr @.str.7, i32 10), i32 1) #14
  %print.960.5.i = zext i8 %v56 to i64
  %print.960.6.i = call i32 @__print_unsigned(ptr nonnull getelementptr inbounds (i8, ptr @__streams, i32 12), i64 %print.960.5.i, i32 10, i32 0, i32 2, i32 -1) #14
  %print.960.7.i = call i32 @__print_text(ptr nonnull getelementptr inbounds (i8, ptr @__streams, i32 12), ptr nonnull getelementptr inbounds (i8, ptr @.str.7, i32 14), i32 6) #14
  call void @llvm.lifetime.end.p0(i64 33, ptr nonnull %word.i) #14
  %inc26 = add nuw nsw i32 %k18.0100, 1
  %exitcond106.not = icmp eq i32 %inc26, %used.1
  br i1 %exitcond106.not, label %for.cond.cleanup21, label %for.body22, !llvm.loop !34

for.cond.cleanup39:                               ; preds = %for.body40, %encode.exit
  %print.724.0 = call i32 @__print_text(ptr nonnull getelementptr inbounds (i8, ptr @__streams, i32 12), ptr nonnull @.str.4, i32 1) #14
  %call47 = call ptr @__sized_malloc(i32 noundef signext %call) #16
  %tobool48.not = icmp eq ptr %call47, null
  br i1 %tobool48.not, label %cleanup, label %land.rhs.i

for.body40:                                       ; preds = %for.body40, %encode.exit
  %k33.0102 = phi i32 [ %inc44, %for.body40 ], [ 0, %encode.exit ]
  %arrayidx41 = getelementptr inbounds i8, ptr %bits.sroa.0.4, i32 %k33.0102
  %v57 = load i8, ptr %arrayidx41, align 1, !tbaa !27
  %print.714.0 = call i32 @__print_text(ptr nonnull getelementptr inbounds (i8, ptr @__streams, i32 12), ptr nonnull @.str.3, i32 1) #14
  %print.714.1 = zext i8 %v57 to i64
  %print.714.2 = call i32 @__print_unsigned(ptr nonnull getelementptr inbounds (i8, ptr @__streams, i32 12), i64 %print.714.1, i32 16, i32 16, i32 2, i32 -1) #14
  %inc44 = add nuw nsw i32 %k33.0102, 1
  %cmp35 = icmp ult i32 %k33.0102, 7
  %mul36 = shl i32 %inc44, 3
  %cmp38 = icmp ult i32 %mul36, %bits.sroa.10.3
  %v58 = select i1 %cmp35, i1 %cmp38, i1 false
  br i1 %v58, label %for.body40, label %for.cond.cleanup39, !llvm.loop !35

land.rhs.i:                                       ; preds = %for.body.i61, %for.cond.cleanup39
  %bits.sroa.21.0 = phi i32 [ %bits.sroa.21.2, %for.body.i61 ], [ 0, %for.cond.cleanup39 ]
  %n.05.i = phi i32 [ %inc.i64, %for.body.i61 ], [ 0, %for.cond.cleanup39 ]
  br label %for.body.i.i47

for.cond.i.i:                                     ; preds = %cleanup14.i.i
  %inc17.i.i = add nuw nsw i32 %length.016.i.i, 1
  %exitcond20.i.i = icmp eq i32 %inc17.i.i, 33
  br i1 %exitcond20.i.i, label %symbol.exit.i, label %for.body.i.i47, !llvm.loop !36

for.body.i.i47:                                   ; preds = %for.cond.i.i, %land.rhs.i
  %bits.sroa.21.1 = phi i32 [ %bits.sroa.21.0, %land.rhs.i ], [ %bits.sroa.21.2, %for.cond.i.i ]
  %inc.i19.i.i = phi i32 [ %bits.sroa.21.0, %land.rhs.i ], [ %inc.i18.i.i, %for.cond.i.i ]
  %retval.017.i.i = phi i32 [ undef, %land.rhs.i ], [ %retval.2.i.i, %for.cond.i.i ]
  %length.016.i.i = phi i32 [ 1, %land.rhs.i ], [ %inc17.i.i, %for.cond.i.i ]
  %word.015.i.i = phi i32 [ 0, %land.rhs.i ], [ %word.1.i.i, %for.cond.i.i ]
  %cmp.i.i.i48 = icmp eq i32 %inc.i19.i.i, %bits.sroa.10.3
  br i1 %cmp.i.i.i48, label %bits_take.exit.i.i, label %if.end.i.i.i49

if.end.i.i.i49:                                   ; preds = %for.body.i.i47
  %div6.i.i.i = lshr i32 %inc.i19.i.i, 3
  %arrayidx.i.i.i = getelementptr inbounds i8, ptr %bits.sroa.0.4, i32 %div6.i.i.i
  %v59 = load i8, ptr %arrayidx.i.i.i, align 1, !tbaa !27
  %conv.i.i.i = zext i8 %v59 to i32
  %rem.i.i.i50 = and i32 %inc.i19.i.i, 7
  %sub.i.i.i51 = xor i32 %rem.i.i.i50, 7
  %shr.i.i.i = lshr i32 %conv.i.i.i, %sub.i.i.i51
  %and.i.i.i = and i32 %shr.i.i.i, 1
  %inc.i.i.i = add i32 %inc.i19.i.i, 1
  br label %bits_take.exit.i.i

bits_take.exit.i.i:                               ; preds = %if.end.i.i.i49, %for.body.i.i47
  %bits.sroa.21.2 = phi i32 [ %bits.sroa.21.1, %for.body.i.i47 ], [ %inc.i.i.i, %if.end.i.i.i49 ]
  %inc.i18.i.i = phi i32 [ %inc.i19.i.i, %for.body.i.i47 ], [ %inc.i.i.i, %if.end.i.i.i49 ]
  %retval.0.i.i.i = phi i32 [ -1, %for.body.i.i47 ], [ %and.i.i.i, %if.end.i.i.i49 ]
  %cmp1.i.i = icmp slt i32 %retval.0.i.i.i, 0
  br i1 %cmp1.i.i, label %cleanup14.i.i, label %if.end.i.i52

if.end.i.i52:                                     ; preds = %bits_take.exit.i.i
  %shl.i.i53 = shl i32 %word.015.i.i, 1
  %or.i.i = or i32 %retval.0.i.i.i, %shl.i.i53
  br label %for.body5.i.i

for.body5.i.i:                                    ; preds = %for.inc.i.i56, %if.end.i.i52
  %s.014.i.i = phi i32 [ 0, %if.end.i.i52 ], [ %inc.i.i57, %for.inc.i.i56 ]
  %arrayidx.i.i54 = getelementptr inbounds [256 x i8], ptr @main.code, i32 0, i32 %s.014.i.i
  %v60 = load i8, ptr %arrayidx.i.i54, align 1, !tbaa !27
  %conv.i.i55 = zext i8 %v60 to i32
  %cmp7.i.i = icmp eq i32 %length.016.i.i, %conv.i.i55
  br i1 %cmp7.i.i, label %land.lhs.true.i.i66, label %for.inc.i.i56

land.lhs.true.i.i66:                              ; preds = %for.body5.i.i
  %arrayidx9.i.i67 = getelementptr inbounds [256 x i32], ptr getelementptr inbounds (i8, ptr @main.code, i32 256), i32 0, i32 %s.014.i.i
  %v61 = load i32, ptr %arrayidx9.i.i67, align 4, !tbaa !9
  %cmp10.i.i = icmp eq i32 %v61, %or.i.i
  br i1 %cmp10.i.i, label %cleanup14.i.i, label %for.inc.i.i56

for.inc.i.i56:                                    ; preds = %land.lhs.true.i.i66, %for.body5.i.i
  %inc.i.i57 = add nuw nsw i32 %s.014.i.i, 1
  %exitcond.i.i = icmp eq i32 %inc.i.i57, 256
  br i1 %exitcond.i.i, label %cleanup14.i.i, label %for.body5.i.i, !llvm.loop !37

cleanup14.i.i:                                    ; preds = %for.inc.i.i56, %land.lhs.true.i.i66, %bits_take.exit.i.i
  %word.1.i.i = phi i32 [ %word.015.i.i, %bits_take.exit.i.i ], [ %or.i.i, %land.lhs.true.i.i66 ], [ %or.i.i, %for.inc.i.i56 ]
  %cond2.i.i = phi i1 [ false, %bits_take.exit.i.i ], [ true, %for.inc.i.i56 ], [ false, %land.lhs.true.i.i66 ]
  %retval.2.i.i = phi i32 [ -1, %bits_take.exit.i.i ], [ %retval.017.i.i, %for.inc.i.i56 ], [ %s.014.i.i, %land.lhs.true.i.i66 ]
  br i1 %cond2.i.i, label %for.cond.i.i, label %symbol.exit.i

symbol.exit.i:                                    ; preds = %cleanup14.i.i, %for.cond.i.i
  %spec.select.i.i58 = phi i32 [ %retval.2.i.i, %cleanup14.i.i ], [ -1, %for.cond.i.i ]
  %cmp1.i59 = icmp sgt i32 %spec.select.i.i58, -1
  br i1 %cmp1.i59, label %for.body.i61, label %decode.exit

for.body.i61:                                     ; preds = %symbol.exit.i
  %conv.i62 = trunc i32 %spec.select.i.i58 to i8
  %arrayidx.i63 = getelementptr inbounds i8, ptr %call47, i32 %n.05.i
  store i8 %conv.i62, ptr %arrayidx.i63, align 1, !tbaa !27
  %inc.i64 = add nuw i32 %n.05.i, 1
  %exitcond.not.i65 = icmp eq i32 %inc.i64, %call
  br i1 %exitcond.not.i65, label %decode.exit, label %land.rhs.i, !llvm.loop !38

decode.exit:                                      ; preds = %for.body.i61, %symbol.exit.i
  %n.0.lcssa.i = phi i32 [ %n.05.i, %symbol.exit.i ], [ %call, %for.body.i61 ]
  %cmp52 = icmp eq i32 %n.0.lcssa.i, %call
  br i1 %cmp52, label %land.lhs.true, label %land.end61

land.lhs.true:                                    ; preds = %decode.exit
  %bcmp = call i32 @bcmp(ptr nonnull %call47, ptr nonnull @text, i32 %call)
  %cmp55 = icmp eq i32 %bcmp, 0
  %cmp.i = icmp eq i32 %bits.sroa.21.2, %bits.sroa.10.3
  %spec.select = select i1 %cmp55, i1 %cmp.i, i1 false
  br label %land.end61

land.end61:                                       ; preds = %land.lhs.true, %decode.exit
  %v62 = phi i1 [ false, %decode.exit ], [ %spec.select, %land.lhs.true ]
  %cond = select i1 %v62, ptr @.str.5, ptr @.str.6
  %call63 = call i32 @puts(ptr noundef nonnull dereferenceable(1) %cond)
  call void @__sized_free(ptr noundef %call47)
  call void @__sized_free(ptr noundef %bits.sroa.0.4)
  %cond66 = select i1 %v62, i32 %used.1, i32 1
  br label %cleanup

cleanup:                                          ; preds = %land.end61, %for.cond.cleanup39
  %retval.0 = phi i32 [ %cond66, %land.end61 ], [ 2, %for.cond.cleanup39 ]
  call void @llvm.lifetime.end.p0(i64 1024, ptr nonnull %order) #14
  br label %cleanup70

cleanup70:                                        ; preds = %cleanup, %if.then.critedge
  %retval.1 = phi i32 [ %retval.0, %cleanup ], [ 1, %if.then.critedge ]
  call void @llvm.lifetime.end.p0(i64 1024, ptr nonnull %counts) #14
  ret i32 %retval.1
}

; Function Attrs: nounwind optsize
define internal i32 @fread(ptr noalias nocapture noundef writeonly %to, i32 noundef signext %size, i32 noundef signext %count, ptr noalias nocapture noundef %stream) local_unnamed_addr #1 {
entry:
  %mul = mul i32 %count, %size
  %cmp7.not = icmp eq i32 %mul, 0
  br i1 %cmp7.not, label %for.cond.cleanup, label %land.rhs

land.rhs:                                         ; preds = %for.body, %entry
  %k.08 = phi i32 [ %inc, %for.body ], [ 0, %entry ]
  %call = tail call i32 @fgetc(ptr noundef %stream) #20
  %cmp1.not = icmp eq i32 %call, -1
  br i1 %cmp1.not, label %for.cond.cleanup, label %for.body

for.cond.cleanup:                                 ; preds = %for.body, %land.rhs, %entry
  %k.0.lcssa = phi i32 [ 0, %entry ], [ %mul, %for.body ], [ %k.08, %land.rhs ]
  %tobool.not = icmp eq i32 %size, 0
  br i1 %tobool.not, label %cond.end, label %cond.true

for.body:                                         ; preds = %land.rhs
  %conv = trunc i32 %call to i8
  %arrayidx = getelementptr inbounds i8, ptr %to, i32 %k.08
  store i8 %conv, ptr %arrayidx, align 1, !tbaa !27
  %inc = add nuw i32 %k.08, 1
  %exitcond.not = icmp eq i32 %inc, %mul
  br i1 %exitcond.not, label %for.cond.cleanup, label %land.rhs, !llvm.loop !39

cond.true:                                        ; preds = %for.cond.cleanup
  %div = udiv i32 %k.0.lcssa, %size
  br label %cond.end

cond.end:                                         ; preds = %cond.true, %for.cond.cleanup
  %cond = phi i32 [ %div, %cond.true ], [ 0, %for.cond.cleanup ]
  ret i32 %cond
}

; Function Attrs: nocallback nofree nosync nounwind willreturn memory(argmem: readwrite)
declare void @llvm.lifetime.start.p0(i64 immarg, ptr nocapture) #2

; Function Attrs: nocallback nofree nounwind willreturn memory(argmem: write)
declare void @llvm.memset.p0.i32(ptr nocapture writeonly, i8, i32, i1 immarg) #3

; Function Attrs: noinline nounwind optsize
define internal ptr @__sized_calloc(i32 noundef signext %count, i32 noundef signext %n) #4 {
entry:
  %cmp.not = icmp eq i32 %n, 0
  br i1 %cmp.not, label %if.end, label %land.lhs.true

land.lhs.true:                                    ; preds = %entry
  %div = udiv i32 -17, %n
  %cmp1 = icmp ult i32 %div, %count
  br i1 %cmp1, label %return, label %if.end

if.end:                                           ; preds = %land.lhs.true, %entry
  %mul = mul i32 %n, %count
  %add = add i32 %mul, 16
  %call = tail call ptr @calloc(i32 noundef signext %add, i32 noundef signext 1) #21
  %tobool.not = icmp eq ptr %call, null
  br i1 %tobool.not, label %return, label %if.end3

if.end3:                                          ; preds = %if.end
  %add.ptr = getelementptr inbounds i8, ptr %call, i32 16
  store i32 %mul, ptr %call, align 4, !tbaa !9
  br label %return

return:                                           ; preds = %if.end3, %if.end, %land.lhs.true
  %retval.1 = phi ptr [ null, %land.lhs.true ], [ %add.ptr, %if.end3 ], [ null, %if.end ]
  ret ptr %retval.1
}

; Function Attrs: noinline nounwind optsize
define internal ptr @__sized_malloc(i32 noundef signext %n) local_unnamed_addr #4 {
entry:
  %cmp = icmp ult i32 %n, -16
  br i1 %cmp, label %cond.end, label %cleanup

cond.end:                                         ; preds = %entry
  %add = add nuw i32 %n, 16
  %call = tail call ptr @malloc(i32 noundef signext %add) #21
  %tobool.not = icmp eq ptr %call, null
  br i1 %tobool.not, label %cleanup, label %if.end

if.end:                                           ; preds = %cond.end
  %add.ptr = getelementptr inbounds i8, ptr %call, i32 16
  store i32 %n, ptr %call, align 4, !tbaa !9
  br label %cleanup

cleanup:                                          ; preds = %if.end, %cond.end, %entry
  %retval.0 = phi ptr [ %add.ptr, %if.end ], [ null, %cond.end ], [ null, %entry ]
  ret ptr %retval.0
}

; Function Attrs: noreturn nounwind
declare dso_local void @abort() local_unnamed_addr #5

; Function Attrs: nocallback nofree nosync nounwind speculatable willreturn memory(none)
declare i16 @llvm.smin.i16(i16, i16) #6

; Function Attrs: nounwind
define internal fastcc void @measure(ptr nocapture noundef %it, i32 noundef signext %depth) unnamed_addr #0 {
entry:
  %left = getelementptr inbounds i8, ptr %it, i32 8
  %v0 = load ptr, ptr %left, align 4, !tbaa !22
  %tobool.not = icmp eq ptr %v0, null
  br i1 %tobool.not, label %if.else, label %if.then

if.then:                                          ; preds = %entry
  %add = add i32 %depth, 1
  tail call fastcc void @measure(ptr noundef nonnull %v0, i32 noundef signext %add)
  %right = getelementptr inbounds i8, ptr %it, i32 12
  %v1 = load ptr, ptr %right, align 4, !tbaa !23
  tail call fastcc void @measure(ptr noundef %v1, i32 noundef signext %add)
  br label %if.end

if.else:                                          ; preds = %entry
  %cond = tail call i32 @llvm.umax.i32(i32 %depth, i32 1)
  %conv = trunc i32 %cond to i8
  %symbol = getelementptr inbounds i8, ptr %it, i32 4
  %v2 = load i16, ptr %symbol, align 4, !tbaa !14
  %idxprom = sext i16 %v2 to i32
  %arrayidx = getelementptr inbounds [256 x i8], ptr @main.code, i32 0, i32 %idxprom
  store i8 %conv, ptr %arrayidx, align 1, !tbaa !27
  br label %if.end

if.end:                                           ; preds = %if.else, %if.then
  tail call void @__sized_free(ptr noundef %it)
  ret void
}

; Function Attrs: nocallback nofree nosync nounwind willreturn memory(argmem: readwrite)
declare void @llvm.lifetime.end.p0(i64 immarg, ptr nocapture) #2

; Function Attrs: nofree nounwind
declare dso_local noundef i32 @puts(ptr nocapture noundef readonly) local_unnamed_addr #7

; Function Attrs: mustprogress nofree norecurse nosync nounwind willreturn memory(read, inaccessiblemem: none)
define internal i32 @by_length(ptr nocapture noundef readonly %a, ptr nocapture noundef readonly %b) #8 {
entry:
  %v0 = load i32, ptr %a, align 4, !tbaa !9
  %v1 = load i32, ptr %b, align 4, !tbaa !9
  %v2 = load ptr, ptr @lengths, align 4, !tbaa !15
  %arrayidx = getelementptr inbounds i8, ptr %v2, i32 %v0
  %v3 = load i8, ptr %arrayidx, align 1, !tbaa !27
  %arrayidx1 = getelementptr inbounds i8, ptr %v2, i32 %v1
  %v4 = load i8, ptr %arrayidx1, align 1, !tbaa !27
  %cmp.not = icmp eq i8 %v3, %v4
  %conv2 = zext i8 %v4 to i32
  %conv = zext i8 %v3 to i32
  %sub = sub nsw i32 %conv, %conv2
  %sub8 = sub nsw i32 %v0, %v1
  %cond = select i1 %cmp.not, i32 %sub8, i32 %sub
  ret i32 %cond
}

; Function Attrs: nounwind optsize
define internal void @qsort(ptr noundef %base, i32 noundef signext %count, i32 noundef signext %size, ptr noundef %compare) local_unnamed_addr #1 {
entry:
  %cmp = icmp ult i32 %count, 2
  %cmp1 = icmp eq i32 %size, 0
  %or.cond = or i1 %cmp, %cmp1
  br i1 %or.cond, label %cleanup.cont, label %if.end

if.end:                                           ; preds = %entry
  %div14 = lshr i32 %count, 1
  %mul = mul i32 %div14, %size
  %call = tail call ptr @__sized_malloc(i32 noundef signext %mul) #21
  %tobool.not = icmp eq ptr %call, null
  br i1 %tobool.not, label %for.body.i, label %if.end3

for.body.i:                                       ; preds = %for.body.i, %if.end
  %k.022.i = phi i32 [ %dec.i, %for.body.i ], [ %div14, %if.end ]
  %dec.i = add nsw i32 %k.022.i, -1
  tail call fastcc void @sink(ptr noundef %base, i32 noundef signext %dec.i, i32 noundef signext %count, i32 noundef signext %size, ptr noundef readonly %compare) #20
  %cmp.not.i = icmp eq i32 %dec.i, 0
  br i1 %cmp.not.i, label %while.body.i.preheader.i, label %for.body.i, !llvm.loop !40

while.body.i.preheader.i:                         ; preds = %swap.exit.i, %for.body.i
  %k1.024.i = phi i32 [ %dec3.i, %swap.exit.i ], [ %count, %for.body.i ]
  %dec3.i = add i32 %k1.024.i, -1
  %mul.i = mul i32 %dec3.i, %size
  %add.ptr.i = getelementptr inbounds i8, ptr %base, i32 %mul.i
  br label %while.body.i.i

while.body.i.i:                                   ; preds = %while.body.i.i, %while.body.i.preheader.i
  %a.addr.07.i.i = phi ptr [ %incdec.ptr.i.i, %while.body.i.i ], [ %base, %while.body.i.preheader.i ]
  %size.addr.06.i.i = phi i32 [ %dec.i.i, %while.body.i.i ], [ %size, %while.body.i.preheader.i ]
  %b.addr.05.i.i = phi ptr [ %incdec.ptr1.i.i, %while.body.i.i ], [ %add.ptr.i, %while.body.i.preheader.i ]
  %dec.i.i = add i32 %size.addr.06.i.i, -1
  %v0 = load i8, ptr %a.addr.07.i.i, align 1, !tbaa !27
  %v1 = load i8, ptr %b.addr.05.i.i, align 1, !tbaa !27
  %incdec.ptr.i.i = getelementptr inbounds i8, ptr %a.addr.07.i.i, i32 1
  store i8 %v1, ptr %a.addr.07.i.i, align 1, !tbaa !27
  %incdec.ptr1.i.i = getelementptr inbounds i8, ptr %b.addr.05.i.i, i32 1
  store i8 %v0, ptr %b.addr.05.i.i, align 1, !tbaa !27
  %cmp.not.i.i = icmp eq i32 %dec.i.i, 0
  br i1 %cmp.not.i.i, label %swap.exit.i, label %while.body.i.i, !llvm.loop !41

swap.exit.i:                                      ; preds = %while.body.i.i
  tail call fastcc void @sink(ptr noundef %base, i32 noundef signext 0, i32 noundef signext %dec3.i, i32 noundef signext %size, ptr noundef readonly %compare) #20
  %cmp4.i = icmp ugt i32 %dec3.i, 1
  br i1 %cmp4.i, label %while.body.i.preheader.i, label %cleanup.cont, !llvm.loop !42

if.end3:                                          ; preds = %if.end
  tail call fastcc void @merge_sort(ptr noundef %base, i32 noundef signext %count, i32 noundef signext %size, ptr noundef %compare, ptr noundef nonnull %call) #20
  tail call void @__sized_free(ptr noundef nonnull %call) #21
  br label %cleanup.cont

cleanup.cont:                                     ; preds = %if.end3, %swap.exit.i, %entry
  ret void
}

; Function Attrs: nounwind optsize
define internal ptr @realloc(ptr noundef %block, i32 noundef signext %n) local_unnamed_addr #1 {
entry:
  %tobool.not = icmp eq ptr %block, null
  br i1 %tobool.not, label %if.then, label %if.end

if.then:                                          ; preds = %entry
  %call = tail call ptr @__sized_malloc(i32 noundef signext %n) #20
  br label %return

if.end:                                           ; preds = %entry
  %cmp = icmp eq i32 %n, 0
  br i1 %cmp, label %if.then1, label %if.end2

if.then1:                                         ; preds = %if.end
  tail call void @__sized_free(ptr noundef nonnull %block) #20
  br label %return

if.end2:                                          ; preds = %if.end
  %call3 = tail call ptr @__sized_malloc(i32 noundef signext %n) #20
  %tobool4.not = icmp eq ptr %call3, null
  br i1 %tobool4.not, label %return, label %if.end6

if.end6:                                          ; preds = %if.end2
  %add.ptr.i = getelementptr inbounds i8, ptr %block, i32 -16
  %v0 = load i32, ptr %add.ptr.i, align 4, !tbaa !9
  %cmp.not3.i = icmp eq i32 %v0, 0
  br i1 %cmp.not3.i, label %memcpy.exit, label %while.body.i.preheader

while.body.i.preheader:                           ; preds = %if.end6
  %spec.select = tail call i32 @llvm.umin.i32(i32 %v0, i32 %n)
  br label %while.body.i

while.body.i:                                     ; preds = %while.body.i, %while.body.i.preheader
  %s.06.i = phi ptr [ %incdec.ptr.i, %while.body.i ], [ %block, %while.body.i.preheader ]
  %d.05.i = phi ptr [ %incdec.ptr1.i, %while.body.i ], [ %call3, %while.body.i.preheader ]
  %n.addr.04.i = phi i32 [ %dec.i, %while.body.i ], [ %spec.select, %while.body.i.preheader ]
  %dec.i = add i32 %n.addr.04.i, -1
  %incdec.ptr.i = getelementptr inbounds i8, ptr %s.06.i, i32 1
  %v1 = load i8, ptr %s.06.i, align 1, !tbaa !27, !alias.scope !43, !noalias !46
  %incdec.ptr1.i = getelementptr inbounds i8, ptr %d.05.i, i32 1
  store i8 %v1, ptr %d.05.i, align 1, !tbaa !27, !alias.scope !46, !noalias !43
  %cmp.not.i = icmp eq i32 %dec.i, 0
  br i1 %cmp.not.i, label %memcpy.exit, label %while.body.i, !llvm.loop !48

memcpy.exit:                                      ; preds = %while.body.i, %if.end6
  tail call void @__sized_free(ptr noundef nonnull %block) #20
  br label %return

return:                                           ; preds = %memcpy.exit, %if.end2, %if.then1, %if.then
  %retval.1 = phi ptr [ null, %if.then1 ], [ %call, %if.then ], [ %call3, %memcpy.exit ], [ null, %if.end2 ]
  ret ptr %retval.1
}

; Function Attrs: nounwind optsize
define internal i32 @__print_unsigned(ptr nocapture noundef %stream, i64 noundef zeroext %n, i32 noundef signext %base, i32 noundef signext %flags, i32 noundef signext %width, i32 noundef signext %precision) local_unnamed_addr #1 {
entry:
  %room = alloca [24 x i8], align 1
  call void @llvm.lifetime.start.p0(i64 24, ptr nonnull %room) #14
  %and.i = and i32 %flags, 32
  %tobool.not.i = icmp eq i32 %and.i, 0
  %cond.i = select i1 %tobool.not.i, ptr @.str.9.17, ptr @.str.8.23
  %cmp.i = icmp ult i64 %n, 4294967296
  br i1 %cmp.i, label %if.then.i, label %for.cond3.preheader.i

for.cond3.preheader.i:                            ; preds = %entry
  %conv7.i = zext i32 %base to i64
  br label %for.body6.i

if.then.i:                                        ; preds = %entry
  %conv.i = trunc nuw i64 %n to i32
  %cmp1.not31.i = icmp eq i32 %conv.i, 0
  br i1 %cmp1.not31.i, label %spelled.exit, label %for.body.i

for.body.i:                                       ; preds = %for.body.i, %if.then.i
  %k.033.i = phi i32 [ %div.i, %for.body.i ], [ %conv.i, %if.then.i ]
  %end.addr.032.i.idx = phi i32 [ %end.addr.032.i.add, %for.body.i ], [ 24, %if.then.i ]
  %rem.i = urem i32 %k.033.i, %base
  %arrayidx.i = getelementptr inbounds i8, ptr %cond.i, i32 %rem.i
  %v0 = load i8, ptr %arrayidx.i, align 1, !tbaa !27
  %end.addr.032.i.add = add nsw i32 %end.addr.032.i.idx, -1
  %incdec.ptr.i.ptr = getelementptr inbounds i8, ptr %room, i32 %end.addr.032.i.add
  store i8 %v0, ptr %incdec.ptr.i.ptr, align 1, !tbaa !27
  %div.i = udiv i32 %k.033.i, %base
  %cmp1.not.i = icmp ult i32 %k.033.i, %base
  br i1 %cmp1.not.i, label %spelled.exit, label %for.body.i, !llvm.loop !49

for.body6.i:                                      ; preds = %for.body6.i, %for.cond3.preheader.i
  %end.addr.130.i.idx = phi i32 [ 24, %for.cond3.preheader.i ], [ %end.addr.130.i.add, %for.body6.i ]
  %n.addr.029.i = phi i64 [ %n, %for.cond3.preheader.i ], [ %div13.i, %for.body6.i ]
  %div13.i = udiv i64 %n.addr.029.i, %conv7.i
  %v1 = mul i64 %div13.i, %conv7.i
  %rem8.i.decomposed = sub i64 %n.addr.029.i, %v1
  %idxprom.i = trunc nuw i64 %rem8.i.decomposed to i32
  %arrayidx9.i = getelementptr inbounds i8, ptr %cond.i, i32 %idxprom.i
  %v2 = load i8, ptr %arrayidx9.i, align 1, !tbaa !27
  %end.addr.130.i.add = add nsw i32 %end.addr.130.i.idx, -1
  %incdec.ptr10.i.ptr = getelementptr inbounds i8, ptr %room, i32 %end.addr.130.i.add
  store i8 %v2, ptr %incdec.ptr10.i.ptr, align 1, !tbaa !27
  %cmp4.not.i = icmp ult i64 %n.addr.029.i, %conv7.i
  br i1 %cmp4.not.i, label %spelled.exit, label %for.body6.i, !llvm.loop !50

spelled.exit:                                     ; preds = %for.body6.i, %for.body.i, %if.then.i
  %retval.0.i.idx = phi i32 [ 24, %if.then.i ], [ %end.addr.032.i.add, %for.body.i ], [ %end.addr.130.i.add, %for.body6.i ]
  %cmp = icmp eq i64 %n, 0
  %cmp1 = icmp ne i32 %precision, 0
  %or.cond = and i1 %cmp, %cmp1
  br i1 %or.cond, label %if.then, label %if.end

if.then:                                          ; preds = %spelled.exit
  %retval.0.i.add = add nsw i32 %retval.0.i.idx, -1
  %incdec.ptr.ptr = getelementptr inbounds i8, ptr %room, i32 %retval.0.i.add
  store i8 48, ptr %incdec.ptr.ptr, align 1, !tbaa !27
  br label %if.end

if.end:                                           ; preds = %if.then, %spelled.exit
  %at.0.idx = phi i32 [ %retval.0.i.add, %if.then ], [ %retval.0.i.idx, %spelled.exit ]
  %at.0.ptr = getelementptr inbounds i8, ptr %room, i32 %at.0.idx
  %and = and i32 %flags, 8
  %tobool = icmp ne i32 %and, 0
  %cmp13 = icmp eq i32 %base, 8
  %or.cond29 = and i1 %cmp13, %tobool
  %gepdiff = sub nsw i32 24, %at.0.idx
  %cmp15.not = icmp sge i32 %gepdiff, %precision
  %or.cond49.not = select i1 %or.cond29, i1 %cmp15.not, i1 false
  br i1 %or.cond49.not, label %land.lhs.true16, label %if.end22

land.lhs.true16:                                  ; preds = %if.end
  %cmp17 = icmp eq i32 %at.0.idx, 24
  br i1 %cmp17, label %if.then20, label %lor.lhs.false

lor.lhs.false:                                    ; preds = %land.lhs.true16
  %v3 = load i8, ptr %at.0.ptr, align 1, !tbaa !27
  %cmp18.not = icmp eq i8 %v3, 48
  br i1 %cmp18.not, label %if.end22, label %if.then20

if.then20:                                        ; preds = %lor.lhs.false, %land.lhs.true16
  %incdec.ptr21 = getelementptr inbounds i8, ptr %at.0.ptr, i32 -1
  store i8 48, ptr %incdec.ptr21, align 1, !tbaa !27
  br label %if.end22

if.end22:                                         ; preds = %if.then20, %lor.lhs.false, %if.end
  %at.1 = phi ptr [ %incdec.ptr21, %if.then20 ], [ %at.0.ptr, %lor.lhs.false ], [ %at.0.ptr, %if.end ]
  %add.ptr.ptr = getelementptr inbounds i8, ptr %room, i32 24
  %sub.ptr.lhs.cast = ptrtoint ptr %add.ptr.ptr to i32
  %cmp3 = icmp eq i32 %base, 16
  %cmp5 = icmp ne i64 %n, 0
  %v4 = and i1 %cmp5, %cmp3
  %or.cond28 = and i1 %v4, %tobool
  %cond = select i1 %tobool.not.i, ptr @.str.6.24, ptr @.str.5.25
  %front.0 = select i1 %or.cond28, ptr %cond, ptr @.str.13
  %sub.ptr.rhs.cast24 = ptrtoint ptr %at.1 to i32
  %sub.ptr.sub25 = sub i32 %sub.ptr.lhs.cast, %sub.ptr.rhs.cast24
  %call26 = call fastcc i32 @number(ptr noundef %stream, ptr noundef nonnull %front.0, ptr noundef nonnull %at.1, i32 noundef signext %sub.ptr.sub25, i32 noundef signext %flags, i32 noundef signext %width, i32 noundef signext %precision) #20
  call void @llvm.lifetime.end.p0(i64 24, ptr nonnull %room) #14
  ret i32 %call26
}

; Function Attrs: nounwind optsize
define internal noundef i32 @__print_text(ptr nocapture noundef %stream, ptr nocapture noundef readonly %text, i32 noundef returned signext %n) local_unnamed_addr #1 {
entry:
  %v0 = load i8, ptr %stream, align 4, !tbaa !51, !alias.scope !53, !noalias !56
  %cmp.i = icmp eq i8 %v0, 0
  %cmp210.not.i = icmp eq i32 %n, 0
  %or.cond = or i1 %cmp210.not.i, %cmp.i
  br i1 %or.cond, label %fwrite.exit, label %for.body.i

for.body.i:                                       ; preds = %for.body.i, %entry
  %k.011.i = phi i32 [ %inc.i, %for.body.i ], [ 0, %entry ]
  %arrayidx.i = getelementptr inbounds i8, ptr %text, i32 %k.011.i
  %v1 = load i8, ptr %arrayidx.i, align 1, !tbaa !27, !alias.scope !56, !noalias !53
  %conv4.i = zext i8 %v1 to i32
  %call.i = tail call i32 @fputc(i32 noundef signext %conv4.i, ptr noundef nonnull %stream) #20, !noalias !56
  %inc.i = add nuw i32 %k.011.i, 1
  %exitcond.not.i = icmp eq i32 %inc.i, %n
  br i1 %exitcond.not.i, label %fwrite.exit, label %for.body.i, !llvm.loop !58

fwrite.exit:                                      ; preds = %for.body.i, %entry
  ret i32 %n
}

; Function Attrs: nounwind optsize
define internal i32 @__print_signed(ptr nocapture noundef %stream, i64 noundef signext %n, i32 noundef signext %flags, i32 noundef signext %width, i32 noundef signext %precision) local_unnamed_addr #1 {
entry:
  %room = alloca [24 x i8], align 1
  call void @llvm.lifetime.start.p0(i64 24, ptr nonnull %room) #14
  %add.ptr = getelementptr inbounds i8, ptr %room, i32 24
  %cmp = icmp slt i64 %n, 0
  %shr.i = lshr i64 %n, 63
  %tobool.i = icmp ne i64 %shr.i, 0
  %sub.i = sub i64 0, %n
  %cond.i = select i1 %tobool.i, i64 %sub.i, i64 %n
  %cmp.i = icmp ult i64 %cond.i, 4294967296
  br i1 %cmp.i, label %if.then.i, label %for.body6.i

if.then.i:                                        ; preds = %entry
  %conv.i = trunc nuw i64 %cond.i to i32
  %cmp1.not31.i = icmp eq i32 %conv.i, 0
  br i1 %cmp1.not31.i, label %spelled.exit, label %for.body.i

for.body.i:                                       ; preds = %for.body.i, %if.then.i
  %k.033.i = phi i32 [ %div.i, %for.body.i ], [ %conv.i, %if.then.i ]
  %end.addr.032.i = phi ptr [ %incdec.ptr.i, %for.body.i ], [ %add.ptr, %if.then.i ]
  %rem.i = urem i32 %k.033.i, 10
  %arrayidx.i = getelementptr inbounds i8, ptr @.str.9.17, i32 %rem.i
  %v0 = load i8, ptr %arrayidx.i, align 1, !tbaa !27
  %incdec.ptr.i = getelementptr inbounds i8, ptr %end.addr.032.i, i32 -1
  store i8 %v0, ptr %incdec.ptr.i, align 1, !tbaa !27
  %div.i = udiv i32 %k.033.i, 10
  %cmp1.not.i = icmp ult i32 %k.033.i, 10
  br i1 %cmp1.not.i, label %spelled.exit, label %for.body.i, !llvm.loop !49

for.body6.i:                                      ; preds = %for.body6.i, %entry
  %end.addr.130.i = phi ptr [ %incdec.ptr10.i, %for.body6.i ], [ %add.ptr, %entry ]
  %n.addr.029.i = phi i64 [ %div13.i, %for.body6.i ], [ %cond.i, %entry ]
  %div13.i = udiv i64 %n.addr.029.i, 10
  %v1 = mul i64 %div13.i, 10
  %rem8.i.decomposed = sub i64 %n.addr.029.i, %v1
  %idxprom.i = trunc nuw nsw i64 %rem8.i.decomposed to i32
  %arrayidx9.i = getelementptr inbounds i8, ptr @.str.9.17, i32 %idxprom.i
  %v2 = load i8, ptr %arrayidx9.i, align 1, !tbaa !27
  %incdec.ptr10.i = getelementptr inbounds i8, ptr %end.addr.130.i, i32 -1
  store i8 %v2, ptr %incdec.ptr10.i, align 1, !tbaa !27
  %cmp4.not.i = icmp ult i64 %n.addr.029.i, 10
  br i1 %cmp4.not.i, label %spelled.exit, label %for.body6.i, !llvm.loop !50

spelled.exit:                                     ; preds = %for.body6.i, %for.body.i, %if.then.i
  %retval.0.i = phi ptr [ %add.ptr, %if.then.i ], [ %incdec.ptr.i, %for.body.i ], [ %incdec.ptr10.i, %for.body6.i ]
  %cmp1 = icmp eq i64 %n, 0
  %cmp2 = icmp ne i32 %precision, 0
  %or.cond = and i1 %cmp1, %cmp2
  br i1 %or.cond, label %if.end.thread, label %if.end

if.end.thread:                                    ; preds = %spelled.exit
  %incdec.ptr = getelementptr inbounds i8, ptr %retval.0.i, i32 -1
  store i8 48, ptr %incdec.ptr, align 1, !tbaa !27
  br label %cond.false5

if.end:                                           ; preds = %spelled.exit
  br i1 %cmp, label %cond.end13, label %cond.false5

cond.false5:                                      ; preds = %if.end, %if.end.thread
  %at.027 = phi ptr [ %incdec.ptr, %if.end.thread ], [ %retval.0.i, %if.end ]
  %and = and i32 %flags, 2
  %tobool.not = icmp eq i32 %and, 0
  br i1 %tobool.not, label %cond.false7, label %cond.end13

cond.false7:                                      ; preds = %cond.false5
  %and8 = and i32 %flags, 4
  %tobool9.not = icmp eq i32 %and8, 0
  %cond10 = select i1 %tobool9.not, ptr @.str.13, ptr @.str.4.18
  br label %cond.end13

cond.end13:                                       ; preds = %cond.false7, %cond.false5, %if.end
  %at.028 = phi ptr [ %retval.0.i, %if.end ], [ %at.027, %cond.false7 ], [ %at.027, %cond.false5 ]
  %cond14 = phi ptr [ @.str.2.19, %if.end ], [ %cond10, %cond.false7 ], [ @.str.3.20, %cond.false5 ]
  %sub.ptr.lhs.cast = ptrtoint ptr %add.ptr to i32
  %sub.ptr.rhs.cast = ptrtoint ptr %at.028 to i32
  %sub.ptr.sub = sub i32 %sub.ptr.lhs.cast, %sub.ptr.rhs.cast
  %call15 = call fastcc i32 @number(ptr noundef %stream, ptr noundef nonnull %cond14, ptr noundef nonnull %at.028, i32 noundef signext %sub.ptr.sub, i32 noundef signext %flags, i32 noundef signext %width, i32 noundef signext %precision) #20
  call void @llvm.lifetime.end.p0(i64 24, ptr nonnull %room) #14
  ret i32 %call15
}

; Function Attrs: mustprogress nofree norecurse nosync nounwind optsize willreturn memory(none)
define internal range(i32 0, 2) i32 @isprint(i32 noundef signext %c) local_unnamed_addr #9 {
entry:
  %v0 = add i32 %c, -32
  %v1 = icmp ult i32 %v0, 95
  %land.ext.i = zext i1 %v1 to i32
  ret i32 %land.ext.i
}

; Function Attrs: nounwind optsize
define internal i32 @__print_character(ptr nocapture noundef %stream, i32 noundef signext %c, i32 noundef signext %flags, i32 noundef signext %width) local_unnamed_addr #1 {
entry:
  %text = alloca i8, align 4
  call void @llvm.lifetime.start.p0(i64 1, ptr nonnull %text) #14
  %conv = trunc i32 %c to i8
  store i8 %conv, ptr %text, align 4, !tbaa !27
  %call = call fastcc i32 @padded(ptr noundef %stream, ptr noundef nonnull %text, i32 noundef signext 1, i32 noundef signext %flags, i32 noundef signext %width) #20
  call void @llvm.lifetime.end.p0(i64 1, ptr nonnull %text) #14
  ret i32 %call
}

; Function Attrs: nounwind optsize
define internal i32 @__print_string(ptr nocapture noundef %stream, ptr noundef %text, i32 noundef signext %flags, i32 noundef signext %width, i32 noundef signext %precision) local_unnamed_addr #1 {
entry:
  %tobool.not = icmp eq ptr %text, null
  %v0 = icmp ult i32 %precision, 6
  %cond = select i1 %v0, ptr @.str.13, ptr @.str.1.14
  %text.addr.0 = select i1 %tobool.not, ptr %cond, ptr %text
  %cmp2 = icmp slt i32 %precision, 0
  br i1 %cmp2, label %while.cond.i, label %cond.false

while.cond.i:                                     ; preds = %while.cond.i, %entry
  %s.0.i = phi ptr [ %incdec.ptr.i, %while.cond.i ], [ %text.addr.0, %entry ]
  %v1 = load i8, ptr %s.0.i, align 1, !tbaa !27
  %tobool.not.i = icmp eq i8 %v1, 0
  %incdec.ptr.i = getelementptr inbounds i8, ptr %s.0.i, i32 1
  br i1 %tobool.not.i, label %strlen.exit, label %while.cond.i, !llvm.loop !59

strlen.exit:                                      ; preds = %while.cond.i
  %sub.ptr.lhs.cast.i = ptrtoint ptr %s.0.i to i32
  %sub.ptr.rhs.cast.i = ptrtoint ptr %text.addr.0 to i32
  %sub.ptr.sub.i = sub i32 %sub.ptr.lhs.cast.i, %sub.ptr.rhs.cast.i
  br label %cond.end

cond.false:                                       ; preds = %entry
  %cmp4.not.i = icmp eq i32 %precision, 0
  br i1 %cmp4.not.i, label %cond.end, label %land.rhs.i

land.rhs.i:                                       ; preds = %while.body.i, %cond.false
  %k.05.i = phi i32 [ %inc.i, %while.body.i ], [ 0, %cond.false ]
  %arrayidx.i = getelementptr inbounds i8, ptr %text.addr.0, i32 %k.05.i
  %v2 = load i8, ptr %arrayidx.i, align 1, !tbaa !27
  %tobool.not.i12 = icmp eq i8 %v2, 0
  br i1 %tobool.not.i12, label %cond.end, label %while.body.i

while.body.i:                                     ; preds = %land.rhs.i
  %inc.i = add nuw nsw i32 %k.05.i, 1
  %exitcond.not.i = icmp eq i32 %inc.i, %precision
  br i1 %exitcond.not.i, label %cond.end, label %land.rhs.i, !llvm.loop !60

cond.end:                                         ; preds = %while.body.i, %land.rhs.i, %cond.false, %strlen.exit
  %cond4 = phi i32 [ %sub.ptr.sub.i, %strlen.exit ], [ 0, %cond.false ], [ %k.05.i, %land.rhs.i ], [ %precision, %while.body.i ]
  %call5 = tail call fastcc i32 @padded(ptr noundef %stream, ptr noundef nonnull %text.addr.0, i32 noundef signext %cond4, i32 noundef signext %flags, i32 noundef signext %width) #20
  ret i32 %call5
}

; Function Attrs: nofree norecurse nosync nounwind optsize memory(read, inaccessiblemem: none)
define internal range(i32 -1, 2) i32 @bcmp(ptr nocapture noundef readonly %a, ptr nocapture noundef readonly %b, i32 noundef signext %n) local_unnamed_addr #10 {
entry:
  %cmp.not16.i = icmp eq i32 %n, 0
  br i1 %cmp.not16.i, label %memcmp.exit, label %for.body.i

for.body.i:                                       ; preds = %for.inc.i, %entry
  %t.019.i = phi ptr [ %incdec.ptr8.i, %for.inc.i ], [ %b, %entry ]
  %s.018.i = phi ptr [ %incdec.ptr.i, %for.inc.i ], [ %a, %entry ]
  %n.addr.017.i = phi i32 [ %dec.i, %for.inc.i ], [ %n, %entry ]
  %v0 = load i8, ptr %s.018.i, align 1, !tbaa !27
  %v1 = load i8, ptr %t.019.i, align 1, !tbaa !27
  %cmp2.not.i = icmp eq i8 %v0, %v1
  br i1 %cmp2.not.i, label %for.inc.i, label %if.then.i

if.then.i:                                        ; preds = %for.body.i
  %cmp6.i = icmp ult i8 %v0, %v1
  %cond.i = select i1 %cmp6.i, i32 -1, i32 1
  br label %memcmp.exit

for.inc.i:                                        ; preds = %for.body.i
  %dec.i = add i32 %n.addr.017.i, -1
  %incdec.ptr.i = getelementptr inbounds i8, ptr %s.018.i, i32 1
  %incdec.ptr8.i = getelementptr inbounds i8, ptr %t.019.i, i32 1
  %cmp.not.i = icmp eq i32 %dec.i, 0
  br i1 %cmp.not.i, label %memcmp.exit, label %for.body.i, !llvm.loop !61

memcmp.exit:                                      ; preds = %for.inc.i, %if.then.i, %entry
  %retval.0.i = phi i32 [ %cond.i, %if.then.i ], [ 0, %entry ], [ 0, %for.inc.i ]
  ret i32 %retval.0.i
}

; Function Attrs: noinline nounwind optsize
define internal void @__sized_free(ptr noundef %block) local_unnamed_addr #4 {
entry:
  %tobool.not = icmp eq ptr %block, null
  br i1 %tobool.not, label %if.end, label %if.then

if.then:                                          ; preds = %entry
  %add.ptr = getelementptr inbounds i8, ptr %block, i32 -16
  tail call void @free(ptr noundef nonnull %add.ptr) #21
  br label %if.end

if.end:                                           ; preds = %if.then, %entry
  ret void
}

; Function Attrs: mustprogress nounwind willreturn allockind("free") memory(argmem: readwrite, inaccessiblemem: readwrite)
declare dso_local void @free(ptr allocptr nocapture noundef) local_unnamed_addr #11

; Function Attrs: nounwind optsize
define internal fastcc i32 @padded(ptr nocapture noundef %stream, ptr nocapture noundef readonly %text, i32 noundef signext %n, i32 noundef signext %flags, i32 noundef signext %width) unnamed_addr #1 {
entry:
  %cmp = icmp slt i32 %width, 0
  %shr.i = lshr i32 %width, 31
  %tobool.i = icmp ne i32 %shr.i, 0
  %sub.i = sub i32 0, %width
  %cond.i1 = select i1 %tobool.i, i32 %sub.i, i32 %width
  %sub1 = sub nsw i32 %cond.i1, %n
  %and = and i32 %flags, 1
  %tobool = icmp ne i32 %and, 0
  %v0 = or i1 %cmp, %tobool
  br i1 %v0, label %cond.end6, label %cond.false5

cond.false5:                                      ; preds = %entry
  %cmp5.i = icmp sgt i32 %sub1, 0
  br i1 %cmp5.i, label %for.body.i, label %repeated.exit

for.body.i:                                       ; preds = %for.body.i, %cond.false5
  %k.06.i = phi i32 [ %inc.i, %for.body.i ], [ 0, %cond.false5 ]
  %call.i = tail call i32 @fputc(i32 noundef signext 32, ptr noundef %stream) #20
  %inc.i = add nuw nsw i32 %k.06.i, 1
  %exitcond.not.i = icmp eq i32 %inc.i, %sub1
  br i1 %exitcond.not.i, label %repeated.exit, label %for.body.i, !llvm.loop !62

repeated.exit:                                    ; preds = %for.body.i, %cond.false5
  %cond.i = tail call noundef i32 @llvm.smax.i32(i32 %sub1, i32 0)
  br label %cond.end6

cond.end6:                                        ; preds = %repeated.exit, %entry
  %cond7 = phi i32 [ %cond.i, %repeated.exit ], [ 0, %entry ]
  %v1 = load i8, ptr %stream, align 4, !tbaa !51, !alias.scope !63, !noalias !66
  %cmp.i.i = icmp eq i8 %v1, 0
  %cmp210.not.i.i = icmp eq i32 %n, 0
  %or.cond.i = or i1 %cmp210.not.i.i, %cmp.i.i
  br i1 %or.cond.i, label %__print_text.exit, label %for.body.i.i

for.body.i.i:                                     ; preds = %for.body.i.i, %cond.end6
  %k.011.i.i = phi i32 [ %inc.i.i, %for.body.i.i ], [ 0, %cond.end6 ]
  %arrayidx.i.i = getelementptr inbounds i8, ptr %text, i32 %k.011.i.i
  %v2 = load i8, ptr %arrayidx.i.i, align 1, !tbaa !27, !alias.scope !66, !noalias !63
  %conv4.i.i = zext i8 %v2 to i32
  %call.i.i = tail call i32 @fputc(i32 noundef signext %conv4.i.i, ptr noundef nonnull %stream) #20, !noalias !66
  %inc.i.i = add nuw i32 %k.011.i.i, 1
  %exitcond.not.i.i = icmp eq i32 %inc.i.i, %n
  br i1 %exitcond.not.i.i, label %__print_text.exit, label %for.body.i.i, !llvm.loop !58

__print_text.exit:                                ; preds = %for.body.i.i, %cond.end6
  br i1 %v0, label %cond.true10, label %cond.end13

cond.true10:                                      ; preds = %__print_text.exit
  %cmp5.i25 = icmp sgt i32 %sub1, 0
  br i1 %cmp5.i25, label %for.body.i27, label %repeated.exit32

for.body.i27:                                     ; preds = %for.body.i27, %cond.true10
  %k.06.i28 = phi i32 [ %inc.i30, %for.body.i27 ], [ 0, %cond.true10 ]
  %call.i29 = tail call i32 @fputc(i32 noundef signext 32, ptr noundef nonnull %stream) #20
  %inc.i30 = add nuw nsw i32 %k.06.i28, 1
  %exitcond.not.i31 = icmp eq i32 %inc.i30, %sub1
  br i1 %exitcond.not.i31, label %repeated.exit32, label %for.body.i27, !llvm.loop !62

repeated.exit32:                                  ; preds = %for.body.i27, %cond.true10
  %cond.i26 = tail call noundef i32 @llvm.smax.i32(i32 %sub1, i32 0)
  br label %cond.end13

cond.end13:                                       ; preds = %repeated.exit32, %__print_text.exit
  %cond14 = phi i32 [ %cond.i26, %repeated.exit32 ], [ 0, %__print_text.exit ]
  %add = add nsw i32 %cond7, %n
  %add15 = add nsw i32 %add, %cond14
  ret i32 %add15
}

; Function Attrs: nounwind optsize
define internal range(i32 -1, 256) i32 @fputc(i32 noundef signext %c, ptr nocapture noundef %stream) local_unnamed_addr #1 {
entry:
  %v0 = load i8, ptr %stream, align 4, !tbaa !51
  switch i8 %v0, label %if.end18 [
    i8 1, label %if.then
    i8 3, label %land.lhs.true
    i8 0, label %return
  ]

if.then:                                          ; preds = %entry
  %call = tail call i32 @putchar(i32 noundef signext %c) #21
  br label %if.end18

land.lhs.true:                                    ; preds = %entry
  %left = getelementptr inbounds i8, ptr %stream, i32 8
  %v1 = load i32, ptr %left, align 4, !tbaa !68
  %cmp6.not = icmp eq i32 %v1, 0
  br i1 %cmp6.not, label %if.end18, label %if.then8

if.then8:                                         ; preds = %land.lhs.true
  %conv9 = trunc i32 %c to i8
  %at = getelementptr inbounds i8, ptr %stream, i32 4
  %v2 = load ptr, ptr %at, align 4, !tbaa !69
  %incdec.ptr = getelementptr inbounds i8, ptr %v2, i32 1
  store ptr %incdec.ptr, ptr %at, align 4, !tbaa !69
  store i8 %conv9, ptr %v2, align 1, !tbaa !27
  %v3 = load i32, ptr %left, align 4, !tbaa !68
  %dec = add i32 %v3, -1
  store i32 %dec, ptr %left, align 4, !tbaa !68
  br label %if.end18

if.end18:                                         ; preds = %if.then8, %land.lhs.true, %if.then, %entry
  %conv20 = and i32 %c, 255
  br label %return

return:                                           ; preds = %if.end18, %entry
  %retval.0 = phi i32 [ %conv20, %if.end18 ], [ -1, %entry ]
  ret i32 %retval.0
}

; Function Attrs: nocallback nofree nosync nounwind speculatable willreturn memory(none)
declare i32 @llvm.smax.i32(i32, i32) #6

; Function Attrs: optsize
declare dso_local i32 @putchar(i32 noundef signext) local_unnamed_addr #12

; Function Attrs: nounwind optsize
define internal fastcc i32 @number(ptr nocapture noundef %stream, ptr noundef %front, ptr nocapture noundef readonly %digits, i32 noundef signext %n, i32 noundef signext %flags, i32 noundef signext %width, i32 noundef signext %precision) unnamed_addr #1 {
entry:
  br label %while.cond.i

while.cond.i:                                     ; preds = %while.cond.i, %entry
  %s.0.i = phi ptr [ %front, %entry ], [ %incdec.ptr.i, %while.cond.i ]
  %v0 = load i8, ptr %s.0.i, align 1, !tbaa !27
  %tobool.not.i = icmp eq i8 %v0, 0
  %incdec.ptr.i = getelementptr inbounds i8, ptr %s.0.i, i32 1
  br i1 %tobool.not.i, label %strlen.exit, label %while.cond.i, !llvm.loop !59

strlen.exit:                                      ; preds = %while.cond.i
  %sub.ptr.lhs.cast.i = ptrtoint ptr %s.0.i to i32
  %sub.ptr.rhs.cast.i = ptrtoint ptr %front to i32
  %sub.ptr.sub.i = sub i32 %sub.ptr.lhs.cast.i, %sub.ptr.rhs.cast.i
  %sub = sub nsw i32 %precision, %n
  %shr.i = lshr i32 %width, 31
  %tobool.i = icmp ne i32 %shr.i, 0
  %sub.i = sub i32 0, %width
  %cond.i1 = select i1 %tobool.i, i32 %sub.i, i32 %width
  %spec.store.select = tail call i32 @llvm.smax.i32(i32 %sub, i32 0)
  %cmp5 = icmp slt i32 %precision, 0
  %and = and i32 %flags, 16
  %tobool.not = icmp ne i32 %and, 0
  %or.cond.not94 = and i1 %tobool.not, %cmp5
  %flags.masked = and i32 %flags, 1
  %and7 = or i32 %shr.i, %flags.masked
  %tobool8.not = icmp eq i32 %and7, 0
  %or.cond65 = and i1 %or.cond.not94, %tobool8.not
  %add = add i32 %sub.ptr.sub.i, %n
  %cmp10 = icmp sgt i32 %cond.i1, %add
  %or.cond66 = select i1 %or.cond65, i1 %cmp10, i1 false
  %sub13 = sub i32 %cond.i1, %add
  %zeros.0 = select i1 %or.cond66, i32 %sub13, i32 %spec.store.select
  %v2 = add i32 %add, %zeros.0
  %sub17 = sub i32 %cond.i1, %v2
  br i1 %tobool8.not, label %if.then20, label %if.end23

if.then20:                                        ; preds = %strlen.exit
  %cmp5.i = icmp sgt i32 %sub17, 0
  br i1 %cmp5.i, label %for.body.i, label %repeated.exit

for.body.i:                                       ; preds = %for.body.i, %if.then20
  %k.06.i = phi i32 [ %inc.i, %for.body.i ], [ 0, %if.then20 ]
  %call.i = tail call i32 @fputc(i32 noundef signext 32, ptr noundef %stream) #20
  %inc.i = add nuw nsw i32 %k.06.i, 1
  %exitcond.not.i = icmp eq i32 %inc.i, %sub17
  br i1 %exitcond.not.i, label %repeated.exit, label %for.body.i, !llvm.loop !62

repeated.exit:                                    ; preds = %for.body.i, %if.then20
  %cond.i = tail call noundef i32 @llvm.smax.i32(i32 %sub17, i32 0)
  br label %if.end23

if.end23:                                         ; preds = %repeated.exit, %strlen.exit
  %count.0 = phi i32 [ 0, %strlen.exit ], [ %cond.i, %repeated.exit ]
  %v3 = load i8, ptr %stream, align 4, !tbaa !51, !alias.scope !70, !noalias !73
  %cmp.i.i = icmp eq i8 %v3, 0
  %cmp210.not.i.i = icmp eq ptr %s.0.i, %front
  %or.cond.i = or i1 %cmp210.not.i.i, %cmp.i.i
  br i1 %or.cond.i, label %__print_text.exit, label %for.body.i.i

for.body.i.i:                                     ; preds = %for.body.i.i, %if.end23
  %k.011.i.i = phi i32 [ %inc.i.i, %for.body.i.i ], [ 0, %if.end23 ]
  %arrayidx.i.i = getelementptr inbounds i8, ptr %front, i32 %k.011.i.i
  %v4 = load i8, ptr %arrayidx.i.i, align 1, !tbaa !27, !alias.scope !73, !noalias !70
  %conv4.i.i = zext i8 %v4 to i32
  %call.i.i = tail call i32 @fputc(i32 noundef signext %conv4.i.i, ptr noundef nonnull %stream) #20, !noalias !73
  %inc.i.i = add nuw i32 %k.011.i.i, 1
  %exitcond.not.i.i = icmp eq i32 %inc.i.i, %sub.ptr.sub.i
  br i1 %exitcond.not.i.i, label %__print_text.exit, label %for.body.i.i, !llvm.loop !58

__print_text.exit:                                ; preds = %for.body.i.i, %if.end23
  %cmp5.i67 = icmp sgt i32 %zeros.0, 0
  br i1 %cmp5.i67, label %for.body.i69, label %repeated.exit74

for.body.i69:                                     ; preds = %for.body.i69, %__print_text.exit
  %k.06.i70 = phi i32 [ %inc.i72, %for.body.i69 ], [ 0, %__print_text.exit ]
  %call.i71 = tail call i32 @fputc(i32 noundef signext 48, ptr noundef nonnull %stream) #20
  %inc.i72 = add nuw nsw i32 %k.06.i70, 1
  %exitcond.not.i73 = icmp eq i32 %inc.i72, %zeros.0
  br i1 %exitcond.not.i73, label %repeated.exit74, label %for.body.i69, !llvm.loop !62

repeated.exit74:                                  ; preds = %for.body.i69, %__print_text.exit
  %cond.i68 = tail call noundef i32 @llvm.smax.i32(i32 %zeros.0, i32 0)
  %v5 = load i8, ptr %stream, align 4, !tbaa !51, !alias.scope !75, !noalias !78
  %cmp.i.i75 = icmp eq i8 %v5, 0
  %cmp210.not.i.i76 = icmp eq i32 %n, 0
  %or.cond.i77 = or i1 %cmp210.not.i.i76, %cmp.i.i75
  br i1 %or.cond.i77, label %__print_text.exit85, label %for.body.i.i78

for.body.i.i78:                                   ; preds = %for.body.i.i78, %repeated.exit74
  %k.011.i.i79 = phi i32 [ %inc.i.i83, %for.body.i.i78 ], [ 0, %repeated.exit74 ]
  %arrayidx.i.i80 = getelementptr inbounds i8, ptr %digits, i32 %k.011.i.i79
  %v6 = load i8, ptr %arrayidx.i.i80, align 1, !tbaa !27, !alias.scope !78, !noalias !75
  %conv4.i.i81 = zext i8 %v6 to i32
  %call.i.i82 = tail call i32 @fputc(i32 noundef signext %conv4.i.i81, ptr noundef nonnull %stream) #20, !noalias !78
  %inc.i.i83 = add nuw i32 %k.011.i.i79, 1
  %exitcond.not.i.i84 = icmp eq i32 %inc.i.i83, %n
  br i1 %exitcond.not.i.i84, label %__print_text.exit85, label %for.body.i.i78, !llvm.loop !58

__print_text.exit85:                              ; preds = %for.body.i.i78, %repeated.exit74
  %add27 = add i32 %add, %cond.i68
  %add29 = add i32 %add27, %count.0
  br i1 %tobool8.not, label %if.end35, label %if.then32

if.then32:                                        ; preds = %__print_text.exit85
  %cmp5.i86 = icmp sgt i32 %sub17, 0
  br i1 %cmp5.i86, label %for.body.i88, label %repeated.exit93

for.body.i88:                                     ; preds = %for.body.i88, %if.then32
  %k.06.i89 = phi i32 [ %inc.i91, %for.body.i88 ], [ 0, %if.then32 ]
  %call.i90 = tail call i32 @fputc(i32 noundef signext 32, ptr noundef nonnull %stream) #20
  %inc.i91 = add nuw nsw i32 %k.06.i89, 1
  %exitcond.not.i92 = icmp eq i32 %inc.i91, %sub17
  br i1 %exitcond.not.i92, label %repeated.exit93, label %for.body.i88, !llvm.loop !62

repeated.exit93:                                  ; preds = %for.body.i88, %if.then32
  %cond.i87 = tail call noundef i32 @llvm.smax.i32(i32 %sub17, i32 0)
  %add34 = add nsw i32 %add29, %cond.i87
  br label %if.end35

if.end35:                                         ; preds = %repeated.exit93, %__print_text.exit85
  %count.1 = phi i32 [ %add34, %repeated.exit93 ], [ %add29, %__print_text.exit85 ]
  ret i32 %count.1
}

; Function Attrs: nocallback nofree nosync nounwind speculatable willreturn memory(none)
declare i32 @llvm.umin.i32(i32, i32) #6

; Function Attrs: nounwind optsize
define internal fastcc void @sink(ptr noundef %base, i32 noundef signext %at, i32 noundef signext %count, i32 noundef signext %size, ptr nocapture noundef readonly %compare) unnamed_addr #1 {
entry:
  %mul41 = shl i32 %at, 1
  %add42 = or disjoint i32 %mul41, 1
  %cmp43 = icmp ult i32 %add42, %count
  br i1 %cmp43, label %for.body.lr.ph, label %cleanup

for.body.lr.ph:                                   ; preds = %entry
  %cmp.not4.i = icmp eq i32 %size, 0
  br label %for.body

for.body:                                         ; preds = %swap.exit, %for.body.lr.ph
  %add46 = phi i32 [ %add42, %for.body.lr.ph ], [ %add, %swap.exit ]
  %mul45 = phi i32 [ %mul41, %for.body.lr.ph ], [ %mul, %swap.exit ]
  %at.addr.044 = phi i32 [ %at, %for.body.lr.ph ], [ %child.0, %swap.exit ]
  %add1 = add nuw i32 %mul45, 2
  %cmp2 = icmp ult i32 %add1, %count
  br i1 %cmp2, label %land.lhs.true, label %if.end

land.lhs.true:                                    ; preds = %for.body
  %mul3 = mul i32 %add46, %size
  %add.ptr = getelementptr inbounds i8, ptr %base, i32 %mul3
  %mul5 = mul i32 %add1, %size
  %add.ptr6 = getelementptr inbounds i8, ptr %base, i32 %mul5
  %call = tail call i32 %compare(ptr noundef %add.ptr, ptr noundef %add.ptr6) #21
  %cmp7 = icmp slt i32 %call, 0
  %spec.select = select i1 %cmp7, i32 %add1, i32 %add46
  br label %if.end

if.end:                                           ; preds = %land.lhs.true, %for.body
  %child.0 = phi i32 [ %add46, %for.body ], [ %spec.select, %land.lhs.true ]
  %mul8 = mul i32 %at.addr.044, %size
  %add.ptr9 = getelementptr inbounds i8, ptr %base, i32 %mul8
  %mul10 = mul i32 %child.0, %size
  %add.ptr11 = getelementptr inbounds i8, ptr %base, i32 %mul10
  %call12 = tail call i32 %compare(ptr noundef %add.ptr9, ptr noundef %add.ptr11) #21
  %cmp13 = icmp sgt i32 %call12, -1
  br i1 %cmp13, label %cleanup, label %if.end15

if.end15:                                         ; preds = %if.end
  br i1 %cmp.not4.i, label %swap.exit, label %while.body.i

while.body.i:                                     ; preds = %while.body.i, %if.end15
  %a.addr.07.i = phi ptr [ %incdec.ptr.i, %while.body.i ], [ %add.ptr9, %if.end15 ]
  %size.addr.06.i = phi i32 [ %dec.i, %while.body.i ], [ %size, %if.end15 ]
  %b.addr.05.i = phi ptr [ %incdec.ptr1.i, %while.body.i ], [ %add.ptr11, %if.end15 ]
  %dec.i = add i32 %size.addr.06.i, -1
  %v0 = load i8, ptr %a.addr.07.i, align 1, !tbaa !27
  %v1 = load i8, ptr %b.addr.05.i, align 1, !tbaa !27
  %incdec.ptr.i = getelementptr inbounds i8, ptr %a.addr.07.i, i32 1
  store i8 %v1, ptr %a.addr.07.i, align 1, !tbaa !27
  %incdec.ptr1.i = getelementptr inbounds i8, ptr %b.addr.05.i, i32 1
  store i8 %v0, ptr %b.addr.05.i, align 1, !tbaa !27
  %cmp.not.i = icmp eq i32 %dec.i, 0
  br i1 %cmp.not.i, label %swap.exit, label %while.body.i, !llvm.loop !41

swap.exit:                                        ; preds = %while.body.i, %if.end15
  %mul = shl i32 %child.0, 1
  %add = or disjoint i32 %mul, 1
  %cmp = icmp ult i32 %add, %count
  br i1 %cmp, label %for.body, label %cleanup, !llvm.loop !80

cleanup:                                          ; preds = %swap.exit, %if.end, %entry
  ret void
}

; Function Attrs: nounwind optsize
define internal fastcc void @merge_sort(ptr noundef %base, i32 noundef signext %count, i32 noundef signext %size, ptr noundef %compare, ptr noundef %room) unnamed_addr #1 {
entry:
  %cmp = icmp ult i32 %count, 2
  br i1 %cmp, label %cleanup, label %if.end

if.end:                                           ; preds = %entry
  %div28 = lshr i32 %count, 1
  tail call fastcc void @merge_sort(ptr noundef %base, i32 noundef signext %div28, i32 noundef signext %size, ptr noundef %compare, ptr noundef %room) #20
  %mul = mul i32 %div28, %size
  %add.ptr = getelementptr inbounds i8, ptr %base, i32 %mul
  %sub = sub i32 %count, %div28
  tail call fastcc void @merge_sort(ptr noundef %add.ptr, i32 noundef signext %sub, i32 noundef signext %size, ptr noundef %compare, ptr noundef %room) #20
  %cmp.not3.i = icmp eq i32 %mul, 0
  br i1 %cmp.not3.i, label %memcpy.exit, label %while.body.i

while.body.i:                                     ; preds = %while.body.i, %if.end
  %s.06.i = phi ptr [ %incdec.ptr.i, %while.body.i ], [ %base, %if.end ]
  %d.05.i = phi ptr [ %incdec.ptr1.i, %while.body.i ], [ %room, %if.end ]
  %n.addr.04.i = phi i32 [ %dec.i, %while.body.i ], [ %mul, %if.end ]
  %dec.i = add i32 %n.addr.04.i, -1
  %incdec.ptr.i = getelementptr inbounds i8, ptr %s.06.i, i32 1
  %v0 = load i8, ptr %s.06.i, align 1, !tbaa !27, !alias.scope !81, !noalias !84
  %incdec.ptr1.i = getelementptr inbounds i8, ptr %d.05.i, i32 1
  store i8 %v0, ptr %d.05.i, align 1, !tbaa !27, !alias.scope !84, !noalias !81
  %cmp.not.i = icmp eq i32 %dec.i, 0
  br i1 %cmp.not.i, label %memcpy.exit, label %while.body.i, !llvm.loop !48

memcpy.exit:                                      ; preds = %while.body.i, %if.end
  %cmp146.i.not = icmp eq i32 %sub, 0
  br i1 %cmp146.i.not, label %while.end.i, label %while.body.lr.ph.i

while.body.lr.ph.i:                               ; preds = %memcpy.exit
  %cmp.not3.i25.i = icmp eq i32 %size, 0
  br label %while.body.i29

while.body.i29:                                   ; preds = %if.end.i, %while.body.lr.ph.i
  %to.addr.051.i = phi ptr [ %base, %while.body.lr.ph.i ], [ %add.ptr7.i, %if.end.i ]
  %a.addr.050.i = phi ptr [ %room, %while.body.lr.ph.i ], [ %a.addr.1.i, %if.end.i ]
  %right.addr.049.i = phi i32 [ %sub, %while.body.lr.ph.i ], [ %right.addr.1.i, %if.end.i ]
  %b.addr.048.i = phi ptr [ %add.ptr, %while.body.lr.ph.i ], [ %b.addr.1.i, %if.end.i ]
  %left.addr.047.i = phi i32 [ %div28, %while.body.lr.ph.i ], [ %left.addr.1.i, %if.end.i ]
  %call.i = tail call i32 %compare(ptr noundef %a.addr.050.i, ptr noundef %b.addr.048.i) #21
  %cmp2.i = icmp slt i32 %call.i, 1
  br i1 %cmp2.i, label %if.then.i, label %if.else.i

if.then.i:                                        ; preds = %while.body.i29
  br i1 %cmp.not3.i25.i, label %memcpy.exit.i, label %while.body.i.i

while.body.i.i:                                   ; preds = %while.body.i.i, %if.then.i
  %s.06.i.i = phi ptr [ %incdec.ptr.i.i, %while.body.i.i ], [ %a.addr.050.i, %if.then.i ]
  %d.05.i.i = phi ptr [ %incdec.ptr1.i.i, %while.body.i.i ], [ %to.addr.051.i, %if.then.i ]
  %n.addr.04.i.i = phi i32 [ %dec.i.i, %while.body.i.i ], [ %size, %if.then.i ]
  %dec.i.i = add i32 %n.addr.04.i.i, -1
  %incdec.ptr.i.i = getelementptr inbounds i8, ptr %s.06.i.i, i32 1
  %v1 = load i8, ptr %s.06.i.i, align 1, !tbaa !27, !alias.scope !86, !noalias !89
  %incdec.ptr1.i.i = getelementptr inbounds i8, ptr %d.05.i.i, i32 1
  store i8 %v1, ptr %d.05.i.i, align 1, !tbaa !27, !alias.scope !89, !noalias !86
  %cmp.not.i.i = icmp eq i32 %dec.i.i, 0
  br i1 %cmp.not.i.i, label %memcpy.exit.i, label %while.body.i.i, !llvm.loop !48

memcpy.exit.i:                                    ; preds = %while.body.i.i, %if.then.i
  %add.ptr.i = getelementptr inbounds i8, ptr %a.addr.050.i, i32 %size
  %dec.i30 = add nsw i32 %left.addr.047.i, -1
  br label %if.end.i

if.else.i:                                        ; preds = %while.body.i29
  br i1 %cmp.not3.i25.i, label %memcpy.exit34.i, label %while.body.i26.i

while.body.i26.i:                                 ; preds = %while.body.i26.i, %if.else.i
  %s.06.i27.i = phi ptr [ %incdec.ptr.i31.i, %while.body.i26.i ], [ %b.addr.048.i, %if.else.i ]
  %d.05.i28.i = phi ptr [ %incdec.ptr1.i32.i, %while.body.i26.i ], [ %to.addr.051.i, %if.else.i ]
  %n.addr.04.i29.i = phi i32 [ %dec.i30.i, %while.body.i26.i ], [ %size, %if.else.i ]
  %dec.i30.i = add i32 %n.addr.04.i29.i, -1
  %incdec.ptr.i31.i = getelementptr inbounds i8, ptr %s.06.i27.i, i32 1
  %v2 = load i8, ptr %s.06.i27.i, align 1, !tbaa !27, !alias.scope !91, !noalias !94
  %incdec.ptr1.i32.i = getelementptr inbounds i8, ptr %d.05.i28.i, i32 1
  store i8 %v2, ptr %d.05.i28.i, align 1, !tbaa !27, !alias.scope !94, !noalias !91
  %cmp.not.i33.i = icmp eq i32 %dec.i30.i, 0
  br i1 %cmp.not.i33.i, label %memcpy.exit34.i, label %while.body.i26.i, !llvm.loop !48

memcpy.exit34.i:                                  ; preds = %while.body.i26.i, %if.else.i
  %add.ptr5.i = getelementptr inbounds i8, ptr %b.addr.048.i, i32 %size
  %dec6.i = add i32 %right.addr.049.i, -1
  br label %if.end.i

if.end.i:                                         ; preds = %memcpy.exit34.i, %memcpy.exit.i
  %left.addr.1.i = phi i32 [ %dec.i30, %memcpy.exit.i ], [ %left.addr.047.i, %memcpy.exit34.i ]
  %b.addr.1.i = phi ptr [ %b.addr.048.i, %memcpy.exit.i ], [ %add.ptr5.i, %memcpy.exit34.i ]
  %right.addr.1.i = phi i32 [ %right.addr.049.i, %memcpy.exit.i ], [ %dec6.i, %memcpy.exit34.i ]
  %a.addr.1.i = phi ptr [ %add.ptr.i, %memcpy.exit.i ], [ %a.addr.050.i, %memcpy.exit34.i ]
  %add.ptr7.i = getelementptr inbounds i8, ptr %to.addr.051.i, i32 %size
  %cmp.i = icmp ne i32 %left.addr.1.i, 0
  %cmp1.i = icmp ne i32 %right.addr.1.i, 0
  %v3 = select i1 %cmp.i, i1 %cmp1.i, i1 false
  br i1 %v3, label %while.body.i29, label %while.end.i.loopexit, !llvm.loop !96

while.end.i.loopexit:                             ; preds = %if.end.i
  %.pre = mul i32 %left.addr.1.i, %size
  br label %while.end.i

while.end.i:                                      ; preds = %while.end.i.loopexit, %memcpy.exit
  %mul.i.pre-phi = phi i32 [ %.pre, %while.end.i.loopexit ], [ %mul, %memcpy.exit ]
  %a.addr.0.lcssa.i = phi ptr [ %a.addr.1.i, %while.end.i.loopexit ], [ %room, %memcpy.exit ]
  %to.addr.0.lcssa.i = phi ptr [ %add.ptr7.i, %while.end.i.loopexit ], [ %base, %memcpy.exit ]
  %cmp.not3.i35.i = icmp eq i32 %mul.i.pre-phi, 0
  br i1 %cmp.not3.i35.i, label %cleanup, label %while.body.i36.i

while.body.i36.i:                                 ; preds = %while.body.i36.i, %while.end.i
  %s.06.i37.i = phi ptr [ %incdec.ptr.i41.i, %while.body.i36.i ], [ %a.addr.0.lcssa.i, %while.end.i ]
  %d.05.i38.i = phi ptr [ %incdec.ptr1.i42.i, %while.body.i36.i ], [ %to.addr.0.lcssa.i, %while.end.i ]
  %n.addr.04.i39.i = phi i32 [ %dec.i40.i, %while.body.i36.i ], [ %mul.i.pre-phi, %while.end.i ]
  %dec.i40.i = add i32 %n.addr.04.i39.i, -1
  %incdec.ptr.i41.i = getelementptr inbounds i8, ptr %s.06.i37.i, i32 1
  %v4 = load i8, ptr %s.06.i37.i, align 1, !tbaa !27, !alias.scope !97, !noalias !100
  %incdec.ptr1.i42.i = getelementptr inbounds i8, ptr %d.05.i38.i, i32 1
  store i8 %v4, ptr %d.05.i38.i, align 1, !tbaa !27, !alias.scope !100, !noalias !97
  %cmp.not.i43.i = icmp eq i32 %dec.i40.i, 0
  br i1 %cmp.not.i43.i, label %cleanup, label %while.body.i36.i, !llvm.loop !48

cleanup:                                          ; preds = %while.body.i36.i, %while.end.i, %entry
  ret void
}

; Function Attrs: nocallback nofree nosync nounwind speculatable willreturn memory(none)
declare i32 @llvm.umax.i32(i32, i32) #6

; Function Attrs: mustprogress nofree nounwind willreturn allockind("alloc,uninitialized") allocsize(0) memory(inaccessiblemem: readwrite)
declare dso_local noalias noundef ptr @malloc(i32 noundef signext) local_unnamed_addr #13

; Function Attrs: optsize
declare dso_local ptr @calloc(i32 noundef signext, i32 noundef signext) local_unnamed_addr #12

; Function Attrs: nounwind optsize
define internal i32 @fgetc(ptr nocapture noundef %stream) local_unnamed_addr #1 {
entry:
  %v0 = load i8, ptr %stream, align 4, !tbaa !51
  %cmp.not = icmp eq i8 %v0, 0
  br i1 %cmp.not, label %if.end, label %return

if.end:                                           ; preds = %entry
  %waiting = getelementptr inbounds i8, ptr %stream, i32 2
  %v1 = load i8, ptr %waiting, align 2, !tbaa !102
  %tobool.not = icmp eq i8 %v1, 0
  br i1 %tobool.not, label %if.end5, label %if.then2

if.then2:                                         ; preds = %if.end
  store i8 0, ptr %waiting, align 2, !tbaa !102
  %pushed = getelementptr inbounds i8, ptr %stream, i32 3
  %v2 = load i8, ptr %pushed, align 1, !tbaa !103
  %conv4 = zext i8 %v2 to i32
  br label %return

if.end5:                                          ; preds = %if.end
  %ended = getelementptr inbounds i8, ptr %stream, i32 1
  %v3 = load i8, ptr %ended, align 1, !tbaa !104
  %tobool6.not = icmp eq i8 %v3, 0
  br i1 %tobool6.not, label %if.end8, label %return

if.end8:                                          ; preds = %if.end5
  %call = tail call i32 @getchar() #21
  %cmp9 = icmp eq i32 %call, -1
  br i1 %cmp9, label %if.then11, label %return

if.then11:                                        ; preds = %if.end8
  store i8 1, ptr %ended, align 1, !tbaa !104
  br label %return

return:                                           ; preds = %if.then11, %if.end8, %if.end5, %if.then2, %entry
  %retval.0 = phi i32 [ %conv4, %if.then2 ], [ -1, %entry ], [ -1, %if.end5 ], [ -1, %if.then11 ], [ %call, %if.end8 ]
  ret i32 %retval.0
}

; Function Attrs: optsize
declare dso_local i32 @getchar() local_unnamed_addr #12

attributes #0 = { nounwind "no-trapping-math"="true" "stack-protector-buffer-size"="8" "target-cpu"="mips32r2" "target-features"="+fpxx,+mips32r2,+nooddspreg,-noabicalls" }
attributes #1 = { nounwind optsize "no-builtins" "no-jump-tables"="true" "no-trapping-math"="true" "stack-protector-buffer-size"="8" "target-cpu"="mips32r2" "target-features"="+fpxx,+mips32r2,+nooddspreg,-noabicalls" }
attributes #2 = { nocallback nofree nosync nounwind willreturn memory(argmem: readwrite) }
attributes #3 = { nocallback nofree nounwind willreturn memory(argmem: write) }
attributes #4 = { noinline nounwind optsize "no-builtins" "no-jump-tables"="true" "no-trapping-math"="true" "stack-protector-buffer-size"="8" "target-cpu"="mips32r2" "target-features"="+fpxx,+mips32r2,+nooddspreg,-noabicalls" }
attributes #5 = { noreturn nounwind "no-trapping-math"="true" "stack-protector-buffer-size"="8" "target-cpu"="mips32r2" "target-features"="+fpxx,+mips32r2,+nooddspreg,-noabicalls" }
attributes #6 = { nocallback nofree nosync nounwind speculatable willreturn memory(none) }
attributes #7 = { nofree nounwind "no-trapping-math"="true" "stack-protector-buffer-size"="8" "target-cpu"="mips32r2" "target-features"="+fpxx,+mips32r2,+nooddspreg,-noabicalls" }
attributes #8 = { mustprogress nofree norecurse nosync nounwind willreturn memory(read, inaccessiblemem: none) "no-trapping-math"="true" "stack-protector-buffer-size"="8" "target-cpu"="mips32r2" "target-features"="+fpxx,+mips32r2,+nooddspreg,-noabicalls" }
attributes #9 = { mustprogress nofree norecurse nosync nounwind optsize willreturn memory(none) "no-builtins" "no-jump-tables"="true" "no-trapping-math"="true" "stack-protector-buffer-size"="8" "target-cpu"="mips32r2" "target-features"="+fpxx,+mips32r2,+nooddspreg,-noabicalls" }
attributes #10 = { nofree norecurse nosync nounwind optsize memory(read, inaccessiblemem: none) "no-builtins" "no-jump-tables"="true" "no-trapping-math"="true" "stack-protector-buffer-size"="8" "target-cpu"="mips32r2" "target-features"="+fpxx,+mips32r2,+nooddspreg,-noabicalls" }
attributes #11 = { mustprogress nounwind willreturn allockind("free") memory(argmem: readwrite, inaccessiblemem: readwrite) "alloc-family"="malloc" "no-trapping-math"="true" "stack-protector-buffer-size"="8" "target-cpu"="mips32r2" "target-features"="+fpxx,+mips32r2,+nooddspreg,-noabicalls" }
attributes #12 = { optsize "no-builtins" "no-trapping-math"="true" "stack-protector-buffer-size"="8" "target-cpu"="mips32r2" "target-features"="+fpxx,+mips32r2,+nooddspreg,-noabicalls" }
attributes #13 = { mustprogress nofree nounwind willreturn allockind("alloc,uninitialized") allocsize(0) memory(inaccessiblemem: readwrite) "alloc-family"="malloc" "no-trapping-math"="true" "stack-protector-buffer-size"="8" "target-cpu"="mips32r2" "target-features"="+fpxx,+mips32r2,+nooddspreg,-noabicalls" }
attributes #14 = { nounwind }
attributes #15 = { allocsize(0,1) }
attributes #16 = { allocsize(0) }
attributes #17 = { noreturn nounwind }
attributes #18 = { allocsize(1) }
attributes #19 = { nounwind willreturn memory(read) }
attributes #20 = { nobuiltin optsize "no-builtins" }
attributes #21 = { nobuiltin nounwind optsize "no-builtins" }

!llvm.ident = !{!0, !0, !0, !0, !0, !0}
!llvm.module.flags = !{!1, !2, !3}

!0 = !{!"Debian clang version 19.1.7 (3~deb12u1)"}
!1 = !{i32 7, !"Dwarf Version", i32 5}
!2 = !{i32 2, !"Debug Info Version", i32 3}
!3 = !{i32 1, !"wchar_size", i32 4}
!4 = !{!5, !8, i64 1024}
!5 = !{!"heap", !6, i64 0, !8, i64 1024}
!6 = !{!"omnipotent char", !7, i64 0}
!7 = !{!"Simple C/C++ TBAA"}
!8 = !{!"int", !6, i64 0}
!9 = !{!8, !8, i64 0}
!10 = !{!11, !8, i64 0}
!11 = !{!"node", !8, i64 0, !12, i64 4, !13, i64 8, !13, i64 12}
!12 = !{!"short", !6, i64 0}
!13 = !{!"any pointer", !6, i64 0}
!14 = !{!11, !12, i64 4}
!15 = !{!13, !13, i64 0}
!16 = distinct !{!16, !17, !18}
!17 = !{!"llvm.loop.mustprogress"}
!18 = !{!"llvm.loop.unroll.disable"}
!19 = distinct !{!19, !17, !18}
!20 = distinct !{!20, !17, !18}
!21 = distinct !{!21, !17, !18}
!22 = !{!11, !13, i64 8}
!23 = !{!11, !13, i64 12}
!24 = distinct !{!24, !17, !18}
!25 = distinct !{!25, !17, !18}
!26 = distinct !{!26, !17, !18}
!27 = !{!6, !6, i64 0}
!28 = distinct !{!28, !17, !18}
!29 = distinct !{!29, !17, !18}
!30 = distinct !{!30, !17, !18}
!31 = distinct !{!31, !17, !18}
!32 = distinct !{!32, !17, !18}
!33 = distinct !{!33, !17, !18}
!34 = distinct !{!34, !17, !18}
!35 = distinct !{!35, !17, !18}
!36 = distinct !{!36, !17, !18}
!37 = distinct !{!37, !17, !18}
!38 = distinct !{!38, !17, !18}
!39 = distinct !{!39, !17}
!40 = distinct !{!40, !17}
!41 = distinct !{!41, !17}
!42 = distinct !{!42, !17}
!43 = !{!44}
!44 = distinct !{!44, !45, !"memcpy: %from"}
!45 = distinct !{!45, !"memcpy"}
!46 = !{!47}
!47 = distinct !{!47, !45, !"memcpy: %to"}
!48 = distinct !{!48, !17}
!49 = distinct !{!49, !17}
!50 = distinct !{!50, !17}
!51 = !{!52, !6, i64 0}
!52 = !{!"__stream", !6, i64 0, !6, i64 1, !6, i64 2, !6, i64 3, !13, i64 4, !8, i64 8}
!53 = !{!54}
!54 = distinct !{!54, !55, !"fwrite: %stream"}
!55 = distinct !{!55, !"fwrite"}
!56 = !{!57}
!57 = distinct !{!57, !55, !"fwrite: %from"}
!58 = distinct !{!58, !17}
!59 = distinct !{!59, !17}
!60 = distinct !{!60, !17}
!61 = distinct !{!61, !17}
!62 = distinct !{!62, !17}
!63 = !{!64}
!64 = distinct !{!64, !65, !"fwrite: %stream"}
!65 = distinct !{!65, !"fwrite"}
!66 = !{!67}
!67 = distinct !{!67, !65, !"fwrite: %from"}
!68 = !{!52, !8, i64 8}
!69 = !{!52, !13, i64 4}
!70 = !{!71}
!71 = distinct !{!71, !72, !"fwrite: %stream"}
!72 = distinct !{!72, !"fwrite"}
!73 = !{!74}
!74 = distinct !{!74, !72, !"fwrite: %from"}
!75 = !{!76}
!76 = distinct !{!76, !77, !"fwrite: %stream"}
!77 = distinct !{!77, !"fwrite"}
!78 = !{!79}
!79 = distinct !{!79, !77, !"fwrite: %from"}
!80 = distinct !{!80, !17}
!81 = !{!82}
!82 = distinct !{!82, !83, !"memcpy: %from"}
!83 = distinct !{!83, !"memcpy"}
!84 = !{!85}
!85 = distinct !{!85, !83, !"memcpy: %to"}
!86 = !{!87}
!87 = distinct !{!87, !88, !"memcpy: %from"}
!88 = distinct !{!88, !"memcpy"}
!89 = !{!90}
!90 = distinct !{!90, !88, !"memcpy: %to"}
!91 = !{!92}
!92 = distinct !{!92, !93, !"memcpy: %from"}
!93 = distinct !{!93, !"memcpy"}
!94 = !{!95}
!95 = distinct !{!95, !93, !"memcpy: %to"}
!96 = distinct !{!96, !17}
!97 = !{!98}
!98 = distinct !{!98, !99, !"memcpy: %from"}
!99 = distinct !{!99, !"memcpy"}
!100 = !{!101}
!101 = distinct !{!101, !99, !"memcpy: %to"}
!102 = !{!52, !6, i64 2}
!103 = !{!52, !6, i64 3}
!104 = !{!52, !6, i64 1}
