source_filename = "solver.c"
target datalayout = "E-m:m-p:32:32-i8:8:32-i16:16:32-i64:64-n32-S64"
target triple = "mips-unknown-linux-gnu"

%struct.system = type { i32, [12 x [13 x i64]] }
%struct.__stream = type { i8, i8, i8, i8, ptr, i32 }

@main.given = internal global %struct.system zeroinitializer, align 8
@main.used = internal unnamed_addr global %struct.system zeroinitializer, align 8
@.str = private unnamed_addr constant [13 x i8] c"%d unknowns:\00", align 1
@.str.1 = private unnamed_addr constant [20 x i8] c" no single solution\00", align 1
@.str.2 = private unnamed_addr constant [11 x i8] c"  (within \00", align 1
@.str.3 = private unnamed_addr constant [2 x i8] c")\00", align 1
@.str.4 = private unnamed_addr constant [14 x i8] c"%s%llu.%03llu\00", align 1
@.str.5 = private unnamed_addr constant [2 x i8] c"-\00", align 1
@.str.6 = private unnamed_addr constant [1 x i8] zeroinitializer, align 1
@.str.9 = private unnamed_addr constant [1 x i8] zeroinitializer, align 1
@.str.1.10 = private unnamed_addr constant [7 x i8] c"(null)\00", align 1
@.str.2.15 = private unnamed_addr constant [2 x i8] c"-\00", align 1
@.str.3.16 = private unnamed_addr constant [2 x i8] c"+\00", align 1
@.str.4.14 = private unnamed_addr constant [2 x i8] c" \00", align 1
@.str.5.20 = private unnamed_addr constant [3 x i8] c"0X\00", align 1
@.str.6.19 = private unnamed_addr constant [3 x i8] c"0x\00", align 1
@__streams = internal global [3 x %struct.__stream] [%struct.__stream zeroinitializer, %struct.__stream { i8 1, i8 0, i8 0, i8 0, ptr null, i32 0 }, %struct.__stream { i8 2, i8 0, i8 0, i8 0, ptr null, i32 0 }], align 4
@.str.8 = private unnamed_addr constant [17 x i8] c"0123456789ABCDEF\00", align 1
@.str.9.13 = private unnamed_addr constant [17 x i8] c"0123456789abcdef\00", align 1

; Function Attrs: nounwind
define dso_local i32 @main() local_unnamed_addr #0 {
entry:
  %n.i = alloca i64, align 8
  %found = alloca [12 x i64], align 8
  br label %while.cond

while.cond:                                       ; preds = %cleanup, %entry
  %solved.0 = phi i32 [ 0, %entry ], [ %solved.1, %cleanup ]
  call void @llvm.lifetime.start.p0(i64 8, ptr nonnull %n.i) #10
  %call.i = call fastcc i32 @read_number(ptr noundef nonnull %n.i)
  %tobool.not.i = icmp eq i32 %call.i, 0
  br i1 %tobool.not.i, label %read_system.exit, label %if.end.i

if.end.i:                                         ; preds = %while.cond
  %v0 = load i64, ptr %n.i, align 8, !tbaa !4
  %shr.i = lshr i64 %v0, 16
  %conv.i = trunc i64 %shr.i to i32
  store i32 %conv.i, ptr @main.given, align 8, !tbaa !8
  %v1 = add i32 %conv.i, -13
  %or.cond.i = icmp ult i32 %v1, -12
  br i1 %or.cond.i, label %read_system.exit, label %for.cond.preheader.i

for.cond.preheader.i:                             ; preds = %if.end.i
  %cmp10.not17.i = icmp slt i32 %conv.i, 1
  br i1 %cmp10.not17.i, label %cleanup25.i, label %for.cond12.preheader.i

for.cond12.preheader.i:                           ; preds = %for.inc23.i, %for.cond.preheader.i
  %cmp10.not19.i = phi i1 [ %cmp10.not.i, %for.inc23.i ], [ %cmp10.not17.i, %for.cond.preheader.i ]
  %r.018.i = phi i32 [ %inc24.i, %for.inc23.i ], [ 0, %for.cond.preheader.i ]
  %v2 = load i32, ptr @main.given, align 8, !tbaa !8
  %cmp14.not15.i = icmp slt i32 %v2, 0
  br i1 %cmp14.not15.i, label %for.inc23.i, label %for.body17.i

for.cond12.i:                                     ; preds = %for.body17.i
  %inc.i = add nuw nsw i32 %c.016.i, 1
  %v3 = load i32, ptr @main.given, align 8, !tbaa !8
  %cmp14.not.not.i = icmp slt i32 %c.016.i, %v3
  br i1 %cmp14.not.not.i, label %for.body17.i, label %for.inc23.i, !llvm.loop !11

for.body17.i:                                     ; preds = %for.cond12.i, %for.cond12.preheader.i
  %c.016.i = phi i32 [ %inc.i, %for.cond12.i ], [ 0, %for.cond12.preheader.i ]
  %arrayidx18.i = getelementptr inbounds [12 x [13 x i64]], ptr getelementptr inbounds (i8, ptr @main.given, i32 8), i32 0, i32 %r.018.i, i32 %c.016.i
  %call19.i = tail call fastcc i32 @read_number(ptr noundef nonnull %arrayidx18.i)
  %tobool20.not.i = icmp eq i32 %call19.i, 0
  br i1 %tobool20.not.i, label %cleanup25.i, label %for.cond12.i

for.inc23.i:                                      ; preds = %for.cond12.i, %for.cond12.preheader.i
  %inc24.i = add nuw nsw i32 %r.018.i, 1
  %v4 = load i32, ptr @main.given, align 8, !tbaa !8
  %cmp10.not.i = icmp sge i32 %inc24.i, %v4
  br i1 %cmp10.not.i, label %cleanup25.i, label %for.cond12.preheader.i, !llvm.loop !14

cleanup25.i:                                      ; preds = %for.inc23.i, %for.body17.i, %for.cond.preheader.i
  %cmp10.not14.i = phi i1 [ %cmp10.not17.i, %for.cond.preheader.i ], [ %cmp10.not19.i, %for.body17.i ], [ %cmp10.not.i, %for.inc23.i ]
  %spec.select.i = zext i1 %cmp10.not14.i to i32
  br label %read_system.exit

read_system.exit:                                 ; preds = %cleanup25.i, %if.end.i, %while.cond
  %retval.3.i = phi i32 [ 0, %while.cond ], [ 0, %if.end.i ], [ %spec.select.i, %cleanup25.i ]
  call void @llvm.lifetime.end.p0(i64 8, ptr nonnull %n.i) #10
  %tobool.not = icmp eq i32 %retval.3.i, 0
  br i1 %tobool.not, label %while.end, label %while.body

while.body:                                       ; preds = %read_system.exit
  call void @llvm.lifetime.start.p0(i64 96, ptr nonnull %found) #10
  call void @llvm.memset.p0.i32(ptr noundef nonnull align 8 dereferenceable(96) %found, i8 0, i32 96, i1 false)
  tail call void @llvm.memcpy.p0.p0.i32(ptr noundef nonnull align 8 dereferenceable(1256) @main.used, ptr noundef nonnull align 8 dereferenceable(1256) @main.given, i32 1256, i1 false), !tbaa.struct !15
  %v5 = load i32, ptr @main.given, align 8, !tbaa !8
  %print.42.0 = sext i32 %v5 to i64
  %print.42.1 = tail call i32 @__print_signed(ptr nonnull getelementptr inbounds (i8, ptr @__streams, i32 12), i64 %print.42.0, i32 0, i32 0, i32 -1) #10
  %print.42.2 = tail call i32 @__print_text(ptr nonnull getelementptr inbounds (i8, ptr @__streams, i32 12), ptr nonnull getelementptr inbounds (i8, ptr @.str, i32 2), i32 10) #10
  %v6 = load i32, ptr @main.used, align 8, !tbaa !8
  %cmp.not72.i = icmp sgt i32 %v6, 0
  br i1 %cmp.not72.i, label %for.body.i, label %for.cond.preheader

for.cond.loopexit.i:                              ; preds = %for.cond.cleanup36.i, %exchange.exit.i
  %exitcond87.not.i = icmp eq i32 %add.i, %v6
  br i1 %exitcond87.not.i, label %for.cond59.preheader.i, label %for.body.i, !llvm.loop !18

for.body.i:                                       ; preds = %for.cond.loopexit.i, %while.body
  %cmp.not74.i = phi i1 [ %cmp365.i, %for.cond.loopexit.i ], [ %cmp.not72.i, %while.body ]
  %k.073.i = phi i32 [ %add.i, %for.cond.loopexit.i ], [ 0, %while.body ]
  %add.i = add nuw nsw i32 %k.073.i, 1
  %cmp365.i = icmp slt i32 %add.i, %v6
  br i1 %cmp365.i, label %for.body5.i, label %for.cond.cleanup4.i

for.cond.cleanup4.i:                              ; preds = %for.body5.i, %for.body.i
  %best.0.lcssa.i = phi i32 [ %k.073.i, %for.body.i ], [ %spec.select.i5, %for.body5.i ]
  %arrayidx14.i = getelementptr inbounds [12 x [13 x i64]], ptr getelementptr inbounds (i8, ptr @main.used, i32 8), i32 0, i32 %best.0.lcssa.i, i32 %k.073.i
  %v7 = load i64, ptr %arrayidx14.i, align 8, !tbaa !4
  %shr.i1 = lshr i64 %v7, 63
  %tobool.i = icmp ne i64 %shr.i1, 0
  %sub.i2 = sub i64 0, %v7
  %cond.i3 = select i1 %tobool.i, i64 %sub.i2, i64 %v7
  %cmp16.i = icmp ugt i64 %cond.i3, 15
  br i1 %cmp16.i, label %for.body.i.i, label %cleanup53.i

for.body5.i:                                      ; preds = %for.body5.i, %for.body.i
  %r.067.i = phi i32 [ %inc.i6, %for.body5.i ], [ %add.i, %for.body.i ]
  %best.066.i = phi i32 [ %spec.select.i5, %for.body5.i ], [ %k.073.i, %for.body.i ]
  %arrayidx6.i = getelementptr inbounds [12 x [13 x i64]], ptr getelementptr inbounds (i8, ptr @main.used, i32 8), i32 0, i32 %r.067.i, i32 %k.073.i
  %v8 = load i64, ptr %arrayidx6.i, align 8, !tbaa !4
  %shr.i4 = lshr i64 %v8, 63
  %tobool.i5 = icmp ne i64 %shr.i4, 0
  %sub.i6 = sub i64 0, %v8
  %cond.i7 = select i1 %tobool.i5, i64 %sub.i6, i64 %v8
  %arrayidx9.i = getelementptr inbounds [12 x [13 x i64]], ptr getelementptr inbounds (i8, ptr @main.used, i32 8), i32 0, i32 %best.066.i, i32 %k.073.i
  %v9 = load i64, ptr %arrayidx9.i, align 8, !tbaa !4
  %shr.i8 = lshr i64 %v9, 63
  %tobool.i9 = icmp ne i64 %shr.i8, 0
  %sub.i10 = sub i64 0, %v9
  %cond.i11 = select i1 %tobool.i9, i64 %sub.i10, i64 %v9
  %cmp11.i = icmp ugt i64 %cond.i7, %cond.i11
  %spec.select.i5 = select i1 %cmp11.i, i32 %r.067.i, i32 %best.066.i
  %inc.i6 = add nuw nsw i32 %r.067.i, 1
  %exitcond.not.i = icmp eq i32 %inc.i6, %v6
  br i1 %exitcond.not.i, label %for.cond.cleanup4.i, label %for.body5.i, !llvm.loop !19

for.body.i.i:                                     ; preds = %for.body.i.i, %for.cond.cleanup4.i
  %c.013.i.i = phi i32 [ %inc.i.i, %for.body.i.i ], [ 0, %for.cond.cleanup4.i ]
  %arrayidx1.i.i = getelementptr inbounds [12 x [13 x i64]], ptr getelementptr inbounds (i8, ptr @main.used, i32 8), i32 0, i32 %k.073.i, i32 %c.013.i.i
  %v10 = load i64, ptr %arrayidx1.i.i, align 8, !tbaa !4
  %arrayidx4.i.i = getelementptr inbounds [12 x [13 x i64]], ptr getelementptr inbounds (i8, ptr @main.used, i32 8), i32 0, i32 %best.0.lcssa.i, i32 %c.013.i.i
  %v11 = load i64, ptr %arrayidx4.i.i, align 8, !tbaa !4
  store i64 %v11, ptr %arrayidx1.i.i, align 8, !tbaa !4
  store i64 %v10, ptr %arrayidx4.i.i, align 8, !tbaa !4
  %inc.i.i = add nuw i32 %c.013.i.i, 1
  %exitcond.not.i.i = icmp eq i32 %c.013.i.i, %v6
  br i1 %exitcond.not.i.i, label %exchange.exit.i, label %for.body.i.i, !llvm.loop !20

exchange.exit.i:                                  ; preds = %for.body.i.i
  br i1 %cmp365.i, label %for.body25.lr.ph.i, label %for.cond.loopexit.i

for.body25.lr.ph.i:                               ; preds = %exchange.exit.i
  %arrayidx31.i = getelementptr inbounds [12 x [13 x i64]], ptr getelementptr inbounds (i8, ptr @main.used, i32 8), i32 0, i32 %k.073.i, i32 %k.073.i
  br label %for.body25.i

for.body25.i:                                     ; preds = %for.cond.cleanup36.i, %for.body25.lr.ph.i
  %r19.071.i = phi i32 [ %add.i, %for.body25.lr.ph.i ], [ %inc49.i, %for.cond.cleanup36.i ]
  %arrayidx28.i = getelementptr inbounds [12 x [13 x i64]], ptr getelementptr inbounds (i8, ptr @main.used, i32 8), i32 0, i32 %r19.071.i, i32 %k.073.i
  %v12 = load i64, ptr %arrayidx28.i, align 8, !tbaa !4
  %v13 = load i64, ptr %arrayidx31.i, align 8, !tbaa !4
  %mul.i.i = shl nsw i64 %v12, 16
  %div.i.i = sdiv i64 %mul.i.i, %v13
  br label %for.body37.i

for.cond.cleanup36.i:                             ; preds = %for.body37.i
  %inc49.i = add nuw nsw i32 %r19.071.i, 1
  %exitcond86.not.i = icmp eq i32 %inc49.i, %v6
  br i1 %exitcond86.not.i, label %for.cond.loopexit.i, label %for.body25.i, !llvm.loop !21

for.body37.i:                                     ; preds = %for.body37.i, %for.body25.i
  %c.069.i = phi i32 [ %inc46.i, %for.body37.i ], [ %k.073.i, %for.body25.i ]
  %arrayidx40.i = getelementptr inbounds [12 x [13 x i64]], ptr getelementptr inbounds (i8, ptr @main.used, i32 8), i32 0, i32 %k.073.i, i32 %c.069.i
  %v14 = load i64, ptr %arrayidx40.i, align 8, !tbaa !4
  %mul.i57.i = mul nsw i64 %v14, %div.i.i
  %div.i58.neg.i = sdiv i64 %mul.i57.i, -65536
  %arrayidx44.i = getelementptr inbounds [12 x [13 x i64]], ptr getelementptr inbounds (i8, ptr @main.used, i32 8), i32 0, i32 %r19.071.i, i32 %c.069.i
  %v15 = load i64, ptr %arrayidx44.i, align 8, !tbaa !4
  %sub.i = add i64 %div.i58.neg.i, %v15
  store i64 %sub.i, ptr %arrayidx44.i, align 8, !tbaa !4
  %inc46.i = add nuw i32 %c.069.i, 1
  %exitcond85.not.i = icmp eq i32 %c.069.i, %v6
  br i1 %exitcond85.not.i, label %for.cond.cleanup36.i, label %for.body37.i, !llvm.loop !22

cleanup53.i:                                      ; preds = %for.cond.cleanup4.i
  %cmp.not72.i.not = xor i1 %cmp.not72.i, true
  %brmerge = or i1 %cmp.not74.i, %cmp.not72.i.not
  br i1 %brmerge, label %solve.exit, label %for.body62.i.preheader

for.cond59.preheader.i:                           ; preds = %for.cond.loopexit.i
  br i1 %cmp.not72.i, label %for.body62.i.preheader, label %for.cond.preheader

for.body62.i.preheader:                           ; preds = %for.cond59.preheader.i, %cleanup53.i
  br label %for.body62.i

for.body62.i:                                     ; preds = %for.cond.cleanup72.i, %for.body62.i.preheader
  %r56.0.in82.i = phi i32 [ %r56.083.i, %for.cond.cleanup72.i ], [ %v6, %for.body62.i.preheader ]
  %r56.083.i = add nsw i32 %r56.0.in82.i, -1
  %arrayidx66.i = getelementptr inbounds [12 x [13 x i64]], ptr getelementptr inbounds (i8, ptr @main.used, i32 8), i32 0, i32 %r56.083.i, i32 %v6
  %v16 = load i64, ptr %arrayidx66.i, align 8, !tbaa !4
  %cmp7176.i = icmp slt i32 %r56.0.in82.i, %v6
  br i1 %cmp7176.i, label %for.body73.i, label %for.cond.cleanup72.i

for.cond.cleanup72.i:                             ; preds = %for.body73.i, %for.body62.i
  %rest.0.lcssa.i = phi i64 [ %v16, %for.body62.i ], [ %sub79.i, %for.body73.i ]
  %arrayidx86.i = getelementptr inbounds [12 x [13 x i64]], ptr getelementptr inbounds (i8, ptr @main.used, i32 8), i32 0, i32 %r56.083.i, i32 %r56.083.i
  %v17 = load i64, ptr %arrayidx86.i, align 8, !tbaa !4
  %mul.i59.i = shl nsw i64 %rest.0.lcssa.i, 16
  %div.i60.i = sdiv i64 %mul.i59.i, %v17
  %arrayidx88.i = getelementptr inbounds i64, ptr %found, i32 %r56.083.i
  store i64 %div.i60.i, ptr %arrayidx88.i, align 8, !tbaa !4
  %cmp60.i = icmp sgt i32 %r56.0.in82.i, 1
  br i1 %cmp60.i, label %for.body62.i, label %for.cond.preheader, !llvm.loop !23

for.body73.i:                                     ; preds = %for.body73.i, %for.body62.i
  %c67.078.i = phi i32 [ %inc81.i, %for.body73.i ], [ %r56.0.in82.i, %for.body62.i ]
  %rest.077.i = phi i64 [ %sub79.i, %for.body73.i ], [ %v16, %for.body62.i ]
  %arrayidx76.i = getelementptr inbounds [12 x [13 x i64]], ptr getelementptr inbounds (i8, ptr @main.used, i32 8), i32 0, i32 %r56.083.i, i32 %c67.078.i
  %v18 = load i64, ptr %arrayidx76.i, align 8, !tbaa !4
  %arrayidx77.i = getelementptr inbounds i64, ptr %found, i32 %c67.078.i
  %v19 = load i64, ptr %arrayidx77.i, align 8, !tbaa !4
  %mul.i61.i = mul nsw i64 %v19, %v18
  %div.i62.neg.i = sdiv i64 %mul.i61.i, -65536
  %sub79.i = add i64 %div.i62.neg.i, %rest.077.i
  %inc81.i = add nuw nsw i32 %c67.078.i, 1
  %exitcond88.not.i = icmp eq i32 %inc81.i, %v6
  br i1 %exitcond88.not.i, label %for.cond.cleanup72.i, label %for.body73.i, !llvm.loop !24

solve.exit:                                       ; preds = %cleanup53.i
  br i1 %cmp.not74.i, label %if.then, label %for.cond.preheader

if.then:                                          ; preds = %solve.exit
  %call4 = tail call i32 @puts(ptr noundef nonnull dereferenceable(1) @.str.1)
  br label %cleanup, !llvm.loop !25

for.cond.preheader:                               ; preds = %solve.exit, %for.cond.cleanup72.i, %for.cond59.preheader.i, %while.body
  %v20 = load i32, ptr @main.given, align 8, !tbaa !8
  %cmp37 = icmp sgt i32 %v20, 0
  br i1 %cmp37, label %for.body, label %for.cond.cleanup

for.cond.cleanup:                                 ; preds = %for.body, %for.cond.preheader
  %print.84.0 = tail call i32 @__print_text(ptr nonnull getelementptr inbounds (i8, ptr @__streams, i32 12), ptr nonnull @.str.2, i32 10) #10
  %v21 = load i32, ptr @main.given, align 8, !tbaa !8
  %cmp18.i = icmp sgt i32 %v21, 0
  br i1 %cmp18.i, label %for.body.i7, label %fault.exit

for.body.i7:                                      ; preds = %for.cond.cleanup6.i, %for.cond.cleanup
  %r.020.i = phi i32 [ %inc16.i, %for.cond.cleanup6.i ], [ 0, %for.cond.cleanup ]
  %most.019.i = phi i64 [ %spec.select.i15, %for.cond.cleanup6.i ], [ 0, %for.cond.cleanup ]
  %arrayidx2.i = getelementptr inbounds [12 x [13 x i64]], ptr getelementptr inbounds (i8, ptr @main.given, i32 8), i32 0, i32 %r.020.i, i32 %v21
  %v22 = load i64, ptr %arrayidx2.i, align 8, !tbaa !4
  %sub.i8 = sub nsw i64 0, %v22
  br label %for.body7.i

for.cond.cleanup6.i:                              ; preds = %for.body7.i
  %shr.i12 = lshr i64 %add.i11, 63
  %tobool.i13 = icmp ne i64 %shr.i12, 0
  %sub.i14 = sub i64 0, %add.i11
  %cond.i15 = select i1 %tobool.i13, i64 %sub.i14, i64 %add.i11
  %spec.select.i15 = tail call i64 @llvm.smax.i64(i64 %cond.i15, i64 %most.019.i)
  %inc16.i = add nuw nsw i32 %r.020.i, 1
  %exitcond22.not.i = icmp eq i32 %inc16.i, %v21
  br i1 %exitcond22.not.i, label %fault.exit, label %for.body.i7, !llvm.loop !26

for.body7.i:                                      ; preds = %for.body7.i, %for.body.i7
  %c.017.i = phi i32 [ %inc.i12, %for.body7.i ], [ 0, %for.body.i7 ]
  %sum.016.i = phi i64 [ %add.i11, %for.body7.i ], [ %sub.i8, %for.body.i7 ]
  %arrayidx10.i = getelementptr inbounds [12 x [13 x i64]], ptr getelementptr inbounds (i8, ptr @main.given, i32 8), i32 0, i32 %r.020.i, i32 %c.017.i
  %v23 = load i64, ptr %arrayidx10.i, align 8, !tbaa !4
  %arrayidx11.i = getelementptr inbounds i64, ptr %found, i32 %c.017.i
  %v24 = load i64, ptr %arrayidx11.i, align 8, !tbaa !4
  %mul.i.i9 = mul nsw i64 %v24, %v23
  %div.i.i10 = sdiv i64 %mul.i.i9, 65536
  %add.i11 = add nsw i64 %div.i.i10, %sum.016.i
  %inc.i12 = add nuw nsw i32 %c.017.i, 1
  %exitcond.not.i13 = icmp eq i32 %inc.i12, %v21
  br i1 %exitcond.not.i13, label %for.cond.cleanup6.i, label %for.body7.i, !llvm.loop !27

fault.exit:                                       ; preds = %for.cond.cleanup6.i, %for.cond.cleanup
  %most.0.lcssa.i = phi i64 [ 0, %for.cond.cleanup ], [ %spec.select.i15, %for.cond.cleanup6.i ]
  %shr.i16 = lshr i64 %most.0.lcssa.i, 63
  %tobool.i17 = icmp ne i64 %shr.i16, 0
  %sub.i18 = sub i64 0, %most.0.lcssa.i
  %cond.i19 = select i1 %tobool.i17, i64 %sub.i18, i64 %most.0.lcssa.i
  %and.i = and i64 %cond.i19, 65535
  %mul.i = mul nuw nsw i64 %and.i, 1000
  %add.i17 = add nuw nsw i64 %mul.i, 32768
  %shr1.i = lshr i64 %cond.i19, 16
  %div.i = udiv i64 %add.i17, 65536000
  %add2.i = add nuw nsw i64 %div.i, %shr1.i
  %shr.i18 = lshr i64 %add.i17, 16
  %rem.i = urem i64 %shr.i18, 1000
  %print.664.0.i = tail call i32 @__print_string(ptr nonnull getelementptr inbounds (i8, ptr @__streams, i32 12), ptr nonnull @.str.6, i32 0, i32 0, i32 -1) #10
  %print.664.1.i = tail call i32 @__print_unsigned(ptr nonnull getelementptr inbounds (i8, ptr @__streams, i32 12), i64 %add2.i, i32 10, i32 0, i32 0, i32 -1) #10
  %print.664.2.i = tail call i32 @__print_text(ptr nonnull getelementptr inbounds (i8, ptr @__streams, i32 12), ptr nonnull getelementptr inbounds (i8, ptr @.str.4, i32 6), i32 1) #10
  %print.664.3.i = tail call i32 @__print_unsigned(ptr nonnull getelementptr inbounds (i8, ptr @__streams, i32 12), i64 %rem.i, i32 10, i32 16, i32 3, i32 -1) #10
  %call9 = tail call i32 @puts(ptr noundef nonnull dereferenceable(1) @.str.3)
  %inc10 = add nsw i32 %solved.0, 1
  br label %cleanup

for.body:                                         ; preds = %for.body, %for.cond.preheader
  %k.038 = phi i32 [ %inc, %for.body ], [ 0, %for.cond.preheader ]
  %call5 = tail call i32 @putchar(i32 noundef signext 32)
  %arrayidx = getelementptr inbounds [12 x i64], ptr %found, i32 0, i32 %k.038
  %v25 = load i64, ptr %arrayidx, align 8, !tbaa !4
  %shr.i20 = lshr i64 %v25, 63
  %tobool.i21 = icmp ne i64 %shr.i20, 0
  %sub.i22 = sub i64 0, %v25
  %cond.i23 = select i1 %tobool.i21, i64 %sub.i22, i64 %v25
  %and.i20 = and i64 %cond.i23, 65535
  %mul.i21 = mul nuw nsw i64 %and.i20, 1000
  %add.i22 = add nuw nsw i64 %mul.i21, 32768
  %shr1.i23 = lshr i64 %cond.i23, 16
  %div.i24 = udiv i64 %add.i22, 65536000
  %add2.i25 = add nuw nsw i64 %div.i24, %shr1.i23
  %cmp.i = icmp slt i64 %v25, 0
  %tobool.i26 = icmp ne i64 %add2.i25, 0
  %tobool3.i27 = icmp ugt i64 %and.i20, 32
  %v26 = select i1 %tobool.i26, i1 true, i1 %tobool3.i27
  %v27 = select i1 %cmp.i, i1 %v26, i1 false
  %cond.i = select i1 %v27, ptr @.str.5, ptr @.str.6
  %shr.i28 = lshr i64 %add.i22, 16
  %rem.i29 = urem i64 %shr.i28, 1000
  %print.664.0.i30 = tail call i32 @__print_string(ptr nonnull getelementptr inbounds (i8, ptr @__streams, i32 12), ptr nonnull %cond.i, i32 0, i32 0, i32 -1) #10
  %print.664.1.i31 = tail call i32 @__print_unsigned(ptr nonnull getelementptr inbounds (i8, ptr @__streams, i32 12), i64 %add2.i25, i32 10, i32 0, i32 0, i32 -1) #10
  %print.664.2.i32 = tail call i32 @__print_text(ptr nonnull getelementptr inbounds (i8, ptr @__streams, i32 12), ptr nonnull getelementptr inbounds (i8, ptr @.str.4, i32 6), i32 1) #10
  %print.664.3.i33 = tail call i32 @__print_unsigned(ptr nonnull getelementptr inbounds (i8, ptr @__streams, i32 12), i64 %rem.i29, i32 10, i32 16, i32 3, i32 -1) #10
  %inc = add nuw nsw i32 %k.038, 1
  %v28 = load i32, ptr @main.given, align 8, !tbaa !8
  %cmp = icmp slt i32 %inc, %v28
  br i1 %cmp, label %for.body, label %for.cond.cleanup, !llvm.loop !28

cleanup:                                          ; preds = %fault.exit, %if.then
  %solved.1 = phi i32 [ %inc10, %fault.exit ], [ %solved.0, %if.then ]
  call void @llvm.lifetime.end.p0(i64 96, ptr nonnull %found) #10
  br label %while.cond

while.end:                                        ; preds = %read_system.exit
  ret i32 %solved.0
}

; Function Attrs: nocallback nofree nosync nounwind willreturn memory(argmem: readwrite)
declare void @llvm.lifetime.start.p0(i64 immarg, ptr nocapture) #1

; Function Attrs: nofree nounwind
define internal fastcc range(i32 0, 2) i32 @read_number(ptr nocapture noundef writeonly %to) unnamed_addr #2 {
entry:
  br label %while.cond

while.cond:                                       ; preds = %land.rhs, %entry
  %call = tail call i32 @fgetc(ptr noundef nonnull @__streams)
  %cmp.not = icmp eq i32 %call, -1
  br i1 %cmp.not, label %while.end, label %land.rhs

land.rhs:                                         ; preds = %while.cond
  %call1 = tail call i32 @isspace(i32 noundef signext %call) #11
  %tobool.not = icmp eq i32 %call1, 0
  br i1 %tobool.not, label %while.end, label %while.cond, !llvm.loop !29

while.end:                                        ; preds = %land.rhs, %while.cond
  %cmp2.not = icmp eq i32 %call, 45
  br i1 %cmp2.not, label %if.then, label %if.end

if.then:                                          ; preds = %while.end
  %call3 = tail call i32 @fgetc(ptr noundef nonnull @__streams)
  br label %if.end

if.end:                                           ; preds = %if.then, %while.end
  %c.0 = phi i32 [ %call3, %if.then ], [ %call, %while.end ]
  %isdigittmp = add i32 %c.0, -48
  %isdigit = icmp ult i32 %isdigittmp, 10
  br i1 %isdigit, label %for.body, label %cleanup

for.body:                                         ; preds = %for.body, %if.end
  %isdigittmp1522 = phi i32 [ %isdigittmp15, %for.body ], [ %isdigittmp, %if.end ]
  %whole.021 = phi i64 [ %add, %for.body ], [ 0, %if.end ]
  %mul = mul nsw i64 %whole.021, 10
  %conv = zext nneg i32 %isdigittmp1522 to i64
  %add = add nsw i64 %mul, %conv
  %call10 = tail call i32 @fgetc(ptr noundef nonnull @__streams)
  %isdigittmp15 = add i32 %call10, -48
  %isdigit16 = icmp ult i32 %isdigittmp15, 10
  br i1 %isdigit16, label %for.body, label %for.end.loopexit, !llvm.loop !30

for.end.loopexit:                                 ; preds = %for.body
  %v0 = shl nsw i64 %add, 16
  %cmp11 = icmp eq i32 %call10, 46
  br i1 %cmp11, label %if.then13, label %if.end31

if.then13:                                        ; preds = %for.end.loopexit
  %call14 = tail call i32 @fgetc(ptr noundef nonnull @__streams)
  %isdigittmp1724 = add i32 %call14, -48
  %isdigit1825 = icmp ult i32 %isdigittmp1724, 10
  br i1 %isdigit1825, label %for.body18, label %if.end31

for.body18:                                       ; preds = %for.body18, %if.then13
  %isdigittmp1728 = phi i32 [ %isdigittmp17, %for.body18 ], [ %isdigittmp1724, %if.then13 ]
  %scale.027 = phi i64 [ %scale.1, %for.body18 ], [ 1, %if.then13 ]
  %part.026 = phi i64 [ %part.1, %for.body18 ], [ 0, %if.then13 ]
  %cmp19 = icmp slt i64 %scale.027, 1000000000
  %mul22 = mul nsw i64 %part.026, 10
  %conv24 = zext nneg i32 %isdigittmp1728 to i64
  %add25 = add nsw i64 %mul22, %conv24
  %mul26 = mul nsw i64 %scale.027, 10
  %part.1 = select i1 %cmp19, i64 %add25, i64 %part.026
  %scale.1 = select i1 %cmp19, i64 %mul26, i64 %scale.027
  %call29 = tail call i32 @fgetc(ptr noundef nonnull @__streams)
  %isdigittmp17 = add i32 %call29, -48
  %isdigit18 = icmp ult i32 %isdigittmp17, 10
  br i1 %isdigit18, label %for.body18, label %if.end31.loopexit, !llvm.loop !31

if.end31.loopexit:                                ; preds = %for.body18
  %v1 = shl nsw i64 %part.1, 16
  br label %if.end31

if.end31:                                         ; preds = %if.end31.loopexit, %if.then13, %for.end.loopexit
  %c.3 = phi i32 [ %call10, %for.end.loopexit ], [ %call14, %if.then13 ], [ %call29, %if.end31.loopexit ]
  %part.2 = phi i64 [ 0, %for.end.loopexit ], [ 0, %if.then13 ], [ %v1, %if.end31.loopexit ]
  %scale.2 = phi i64 [ 1, %for.end.loopexit ], [ 1, %if.then13 ], [ %scale.1, %if.end31.loopexit ]
  %call32 = tail call i32 @ungetc(i32 noundef signext %c.3, ptr noundef nonnull @__streams)
  %div = sdiv i64 %part.2, %scale.2
  %add35 = add nsw i64 %div, %v0
  %sub38 = sub nsw i64 0, %add35
  %spec.select = select i1 %cmp2.not, i64 %sub38, i64 %add35
  store i64 %spec.select, ptr %to, align 8, !tbaa !4
  br label %cleanup

cleanup:                                          ; preds = %if.end31, %if.end
  %retval.0 = phi i32 [ 1, %if.end31 ], [ 0, %if.end ]
  ret i32 %retval.0
}

; Function Attrs: nocallback nofree nosync nounwind willreturn memory(argmem: readwrite)
declare void @llvm.lifetime.end.p0(i64 immarg, ptr nocapture) #1

; Function Attrs: nocallback nofree nounwind willreturn memory(argmem: write)
declare void @llvm.memset.p0.i32(ptr nocapture writeonly, i8, i32, i1 immarg) #3

; Function Attrs: nocallback nofree nounwind willreturn memory(argmem: readwrite)
declare void @llvm.memcpy.p0.p0.i32(ptr noalias nocapture writeonly, ptr noalias nocapture readonly, i32, i1 immarg) #4

; Function Attrs: nounwind optsize
define internal i32 @__print_signed(ptr nocapture noundef %stream, i64 noundef signext %n, i32 noundef signext %flags, i32 noundef signext %width, i32 noundef signext %precision) local_unnamed_addr #5 {
entry:
  %room = alloca [24 x i8], align 1
  call void @llvm.lifetime.start.p0(i64 24, ptr nonnull %room) #10
  %add.ptr = getelementptr inbounds i8, ptr %room, i32 24
  %cmp = icmp slt i64 %n, 0
  %shr.i = lshr i64 %n, 63
  %tobool.i = icmp ne i64 %shr.i, 0
  %sub.i = sub i64 0, %n
  %cond.i = select i1 %tobool.i, i64 %sub.i, i64 %n
  %cmp.i = icmp ult i64 %cond.i, 4294967296
  br i1 %cmp.i, label %if.then.i, label %for.body6.i

if.then.i:                                        ; preds = %entry
  %conv.i = trunc nuw i64 %cond.i to i32
  %cmp1.not31.i = icmp eq i32 %conv.i, 0
  br i1 %cmp1.not31.i, label %spelled.exit, label %for.body.i

for.body.i:                                       ; preds = %for.body.i, %if.then.i
  %k.033.i = phi i32 [ %div.i, %for.body.i ], [ %conv.i, %if.then.i ]
  %end.addr.032.i = phi ptr [ %incdec.ptr.i, %for.body.i ], [ %add.ptr, %if.then.i ]
  %rem.i = urem i32 %k.033.i, 10
  %arrayidx.i = getelementptr inbounds i8, ptr @.str.9.13, i32 %rem.i
  %v0 = load i8, ptr %arrayidx.i, align 1, !tbaa !17
  %incdec.ptr.i = getelementptr inbounds i8, ptr %end.addr.032.i, i32 -1
  store i8 %v0, ptr %incdec.ptr.i, align 1, !tbaa !17
  %div.i = udiv i32 %k.033.i, 10
  %cmp1.not.i = icmp ult i32 %k.033.i, 10
  br i1 %cmp1.not.i, label %spelled.exit, label %for.body.i, !llvm.loop !32

for.body6.i:                                      ; preds = %for.body6.i, %entry
  %end.addr.130.i = phi ptr [ %incdec.ptr10.i, %for.body6.i ], [ %add.ptr, %entry ]
  %n.addr.029.i = phi i64 [ %div13.i, %for.body6.i ], [ %cond.i, %entry ]
  %div13.i = udiv i64 %n.addr.029.i, 10
  %v1 = mul i64 %div13.i, 10
  %rem8.i.decomposed = sub i64 %n.addr.029.i, %v1
  %idxprom.i = trunc nuw nsw i64 %rem8.i.decomposed to i32
  %arrayidx9.i = getelementptr inbounds i8, ptr @.str.9.13, i32 %idxprom.i
  %v2 = load i8, ptr %arrayidx9.i, align 1, !tbaa !17
  %incdec.ptr10.i = getelementptr inbounds i8, ptr %end.addr.130.i, i32 -1
  store i8 %v2, ptr %incdec.ptr10.i, align 1, !tbaa !17
  %cmp4.not.i = icmp ult i64 %n.addr.029.i, 10
  br i1 %cmp4.not.i, label %spelled.exit, label %for.body6.i, !llvm.loop !33

spelled.exit:                                     ; preds = %for.body6.i, %for.body.i, %if.then.i
  %retval.0.i = phi ptr [ %add.ptr, %if.then.i ], [ %incdec.ptr.i, %for.body.i ], [ %incdec.ptr10.i, %for.body6.i ]
  %cmp1 = icmp eq i64 %n, 0
  %cmp2 = icmp ne i32 %precision, 0
  %or.cond = and i1 %cmp1, %cmp2
  br i1 %or.cond, label %if.end.thread, label %if.end

if.end.thread:                                    ; preds = %spelled.exit
  %incdec.ptr = getelementptr inbounds i8, ptr %retval.0.i, i32 -1
  store i8 48, ptr %incdec.ptr, align 1, !tbaa !17
  br label %cond.false5

if.end:                                           ; preds = %spelled.exit
  br i1 %cmp, label %cond.end13, label %cond.false5

cond.false5:                                      ; preds = %if.end, %if.end.thread
  %at.027 = phi ptr [ %incdec.ptr, %if.end.thread ], [ %retval.0.i, %if.end ]
  %and = and i32 %flags, 2
  %tobool.not = icmp eq i32 %and, 0
  br i1 %tobool.not, label %cond.false7, label %cond.end13

cond.false7:                                      ; preds = %cond.false5
  %and8 = and i32 %flags, 4
  %tobool9.not = icmp eq i32 %and8, 0
  %cond10 = select i1 %tobool9.not, ptr @.str.9, ptr @.str.4.14
  br label %cond.end13

cond.end13:                                       ; preds = %cond.false7, %cond.false5, %if.end
  %at.028 = phi ptr [ %retval.0.i, %if.end ], [ %at.027, %cond.false7 ], [ %at.027, %cond.false5 ]
  %cond14 = phi ptr [ @.str.2.15, %if.end ], [ %cond10, %cond.false7 ], [ @.str.3.16, %cond.false5 ]
  %sub.ptr.lhs.cast = ptrtoint ptr %add.ptr to i32
  %sub.ptr.rhs.cast = ptrtoint ptr %at.028 to i32
  %sub.ptr.sub = sub i32 %sub.ptr.lhs.cast, %sub.ptr.rhs.cast
  %call15 = call fastcc i32 @number(ptr noundef %stream, ptr noundef nonnull %cond14, ptr noundef nonnull %at.028, i32 noundef signext %sub.ptr.sub, i32 noundef signext %flags, i32 noundef signext %width, i32 noundef signext %precision) #12
  call void @llvm.lifetime.end.p0(i64 24, ptr nonnull %room) #10
  ret i32 %call15
}

; Function Attrs: nounwind optsize
define internal noundef i32 @__print_text(ptr nocapture noundef %stream, ptr nocapture noundef readonly %text, i32 noundef returned signext %n) local_unnamed_addr #5 {
entry:
  %v0 = load i8, ptr %stream, align 4, !tbaa !34, !alias.scope !37, !noalias !40
  %cmp.i = icmp eq i8 %v0, 0
  %cmp210.not.i = icmp eq i32 %n, 0
  %or.cond = or i1 %cmp210.not.i, %cmp.i
  br i1 %or.cond, label %fwrite.exit, label %for.body.i

for.body.i:                                       ; preds = %for.body.i, %entry
  %k.011.i = phi i32 [ %inc.i, %for.body.i ], [ 0, %entry ]
  %arrayidx.i = getelementptr inbounds i8, ptr %text, i32 %k.011.i
  %v1 = load i8, ptr %arrayidx.i, align 1, !tbaa !17, !alias.scope !40, !noalias !37
  %conv4.i = zext i8 %v1 to i32
  %call.i = tail call i32 @fputc(i32 noundef signext %conv4.i, ptr noundef nonnull %stream) #12, !noalias !40
  %inc.i = add nuw i32 %k.011.i, 1
  %exitcond.not.i = icmp eq i32 %inc.i, %n
  br i1 %exitcond.not.i, label %fwrite.exit, label %for.body.i, !llvm.loop !42

fwrite.exit:                                      ; preds = %for.body.i, %entry
  ret i32 %n
}

; Function Attrs: nofree nounwind
declare dso_local noundef i32 @puts(ptr nocapture noundef readonly) local_unnamed_addr #2

; Function Attrs: nocallback nofree nosync nounwind speculatable willreturn memory(none)
declare i64 @llvm.smax.i64(i64, i64) #6

; Function Attrs: nounwind optsize
define internal i32 @__print_string(ptr nocapture noundef %stream, ptr noundef %text, i32 noundef signext %flags, i32 noundef signext %width, i32 noundef signext %precision) local_unnamed_addr #5 {
entry:
  %tobool.not = icmp eq ptr %text, null
  %v0 = icmp ult i32 %precision, 6
  %cond = select i1 %v0, ptr @.str.9, ptr @.str.1.10
  %text.addr.0 = select i1 %tobool.not, ptr %cond, ptr %text
  %cmp2 = icmp slt i32 %precision, 0
  br i1 %cmp2, label %while.cond.i, label %cond.false

while.cond.i:                                     ; preds = %while.cond.i, %entry
  %s.0.i = phi ptr [ %incdec.ptr.i, %while.cond.i ], [ %text.addr.0, %entry ]
  %v1 = load i8, ptr %s.0.i, align 1, !tbaa !17
  %tobool.not.i = icmp eq i8 %v1, 0
  %incdec.ptr.i = getelementptr inbounds i8, ptr %s.0.i, i32 1
  br i1 %tobool.not.i, label %strlen.exit, label %while.cond.i, !llvm.loop !43

strlen.exit:                                      ; preds = %while.cond.i
  %sub.ptr.lhs.cast.i = ptrtoint ptr %s.0.i to i32
  %sub.ptr.rhs.cast.i = ptrtoint ptr %text.addr.0 to i32
  %sub.ptr.sub.i = sub i32 %sub.ptr.lhs.cast.i, %sub.ptr.rhs.cast.i
  br label %cond.end

cond.false:                                       ; preds = %entry
  %cmp4.not.i = icmp eq i32 %precision, 0
  br i1 %cmp4.not.i, label %cond.end, label %land.rhs.i

land.rhs.i:                                       ; preds = %while.body.i, %cond.false
  %k.05.i = phi i32 [ %inc.i, %while.body.i ], [ 0, %cond.false ]
  %arrayidx.i = getelementptr inbounds i8, ptr %text.addr.0, i32 %k.05.i
  %v2 = load i8, ptr %arrayidx.i, align 1, !tbaa !17
  %tobool.not.i12 = icmp eq i8 %v2, 0
  br i1 %tobool.not.i12, label %cond.end, label %while.body.i

while.body.i:                                     ; preds = %land.rhs.i
  %inc.i = add nuw nsw i32 %k.05.i, 1
  %exitcond.not.i = icmp eq i32 %inc.i, %precision
  br i1 %exitcond.not.i, label %cond.end, label %land.rhs.i, !llvm.loop !44

cond.end:                                         ; preds = %while.body.i, %land.rhs.i, %cond.false, %strlen.exit
  %cond4 = phi i32 [ %sub.ptr.sub.i, %strlen.exit ], [ 0, %cond.false ], [ %k.05.i, %land.rhs.i ], [ %precision, %while.body.i ]
  %call5 = tail call fastcc i32 @padded(ptr noundef %stream, ptr noundef nonnull %text.addr.0, i32 noundef signext %cond4, i32 noundef signext %flags, i32 noundef signext %width) #12
  ret i32 %call5
}

; Function Attrs: nounwind optsize
define internal i32 @__print_unsigned(ptr nocapture noundef %stream, i64 noundef zeroext %n, i32 noundef signext %base, i32 noundef signext %flags, i32 noundef signext %width, i32 noundef signext %precision) local_unnamed_addr #5 {
entry:
  %room = alloca [24 x i8], align 1
  call void @llvm.lifetime.start.p0(i64 24, ptr nonnull %room) #10
  %and.i = and i32 %flags, 32
  %tobool.not.i = icmp eq i32 %and.i, 0
  %cond.i = select i1 %tobool.not.i, ptr @.str.9.13, ptr @.str.8
  %cmp.i = icmp ult i64 %n, 4294967296
  br i1 %cmp.i, label %if.then.i, label %for.cond3.preheader.i

for.cond3.preheader.i:                            ; preds = %entry
  %conv7.i = zext i32 %base to i64
  br label %for.body6.i

if.then.i:                                        ; preds = %entry
  %conv.i = trunc nuw i64 %n to i32
  %cmp1.not31.i = icmp eq i32 %conv.i, 0
  br i1 %cmp1.not31.i, label %spelled.exit, label %for.body.i

for.body.i:                                       ; preds = %for.body.i, %if.then.i
  %k.033.i = phi i32 [ %div.i, %for.body.i ], [ %conv.i, %if.then.i ]
  %end.addr.032.i.idx = phi i32 [ %end.addr.032.i.add, %for.body.i ], [ 24, %if.then.i ]
  %rem.i = urem i32 %k.033.i, %base
  %arrayidx.i = getelementptr inbounds i8, ptr %cond.i, i32 %rem.i
  %v0 = load i8, ptr %arrayidx.i, align 1, !tbaa !17
  %end.addr.032.i.add = add nsw i32 %end.addr.032.i.idx, -1
  %incdec.ptr.i.ptr = getelementptr inbounds i8, ptr %room, i32 %end.addr.032.i.add
  store i8 %v0, ptr %incdec.ptr.i.ptr, align 1, !tbaa !17
  %div.i = udiv i32 %k.033.i, %base
  %cmp1.not.i = icmp ult i32 %k.033.i, %base
  br i1 %cmp1.not.i, label %spelled.exit, label %for.body.i, !llvm.loop !32

for.body6.i:                                      ; preds = %for.body6.i, %for.cond3.preheader.i
  %end.addr.130.i.idx = phi i32 [ 24, %for.cond3.preheader.i ], [ %end.addr.130.i.add, %for.body6.i ]
  %n.addr.029.i = phi i64 [ %n, %for.cond3.preheader.i ], [ %div13.i, %for.body6.i ]
  %div13.i = udiv i64 %n.addr.029.i, %conv7.i
  %v1 = mul i64 %div13.i, %conv7.i
  %rem8.i.decomposed = sub i64 %n.addr.029.i, %v1
  %idxprom.i = trunc nuw i64 %rem8.i.decomposed to i32
  %arrayidx9.i = getelementptr inbounds i8, ptr %cond.i, i32 %idxprom.i
  %v2 = load i8, ptr %arrayidx9.i, align 1, !tbaa !17
  %end.addr.130.i.add = add nsw i32 %end.addr.130.i.idx, -1
  %incdec.ptr10.i.ptr = getelementptr inbounds i8, ptr %room, i32 %end.addr.130.i.add
  store i8 %v2, ptr %incdec.ptr10.i.ptr, align 1, !tbaa !17
  %cmp4.not.i = icmp ult i64 %n.addr.029.i, %conv7.i
  br i1 %cmp4.not.i, label %spelled.exit, label %for.body6.i, !llvm.loop !33

spelled.exit:                                     ; preds = %for.body6.i, %for.body.i, %if.then.i
  %retval.0.i.idx = phi i32 [ 24, %if.then.i ], [ %end.addr.032.i.add, %for.body.i ], [ %end.addr.130.i.add, %for.body6.i ]
  %cmp = icmp eq i64 %n, 0
  %cmp1 = icmp ne i32 %precision, 0
  %or.cond = and i1 %cmp, %cmp1
  br i1 %or.cond, label %if.then, label %if.end

if.then:                                          ; preds = %spelled.exit
  %retval.0.i.add = add nsw i32 %retval.0.i.idx, -1
  %incdec.ptr.ptr = getelementptr inbounds i8, ptr %room, i32 %retval.0.i.add
  store i8 48, ptr %incdec.ptr.ptr, align 1, !tbaa !17
  br label %if.end

if.end:                                           ; preds = %if.then, %spelled.exit
  %at.0.idx = phi i32 [ %retval.0.i.add, %if.then ], [ %retval.0.i.idx, %spelled.exit ]
  %at.0.ptr = getelementptr inbounds i8, ptr %room, i32 %at.0.idx
  %and = and i32 %flags, 8
  %tobool = icmp ne i32 %and, 0
  %cmp13 = icmp eq i32 %base, 8
  %or.cond29 = and i1 %cmp13, %tobool
  %gepdiff = sub nsw i32 24, %at.0.idx
  %cmp15.not = icmp sge i32 %gepdiff, %precision
  %or.cond49.not = select i1 %or.cond29, i1 %cmp15.not, i1 false
  br i1 %or.cond49.not, label %land.lhs.true16, label %if.end22

land.lhs.true16:                                  ; preds = %if.end
  %cmp17 = icmp eq i32 %at.0.idx, 24
  br i1 %cmp17, label %if.then20, label %lor.lhs.false

lor.lhs.false:                                    ; preds = %land.lhs.true16
  %v3 = load i8, ptr %at.0.ptr, align 1, !tbaa !17
  %cmp18.not = icmp eq i8 %v3, 48
  br i1 %cmp18.not, label %if.end22, label %if.then20

if.then20:                                        ; preds = %lor.lhs.false, %land.lhs.true16
  %incdec.ptr21 = getelementptr inbounds i8, ptr %at.0.ptr, i32 -1
  store i8 48, ptr %incdec.ptr21, align 1, !tbaa !17
  br label %if.end22

if.end22:                                         ; preds = %if.then20, %lor.lhs.false, %if.end
  %at.1 = phi ptr [ %incdec.ptr21, %if.then20 ], [ %at.0.ptr, %lor.lhs.false ], [ %at.0.ptr, %if.end ]
  %add.ptr.ptr = getelementptr inbounds i8, ptr %room, i32 24
  %sub.ptr.lhs.cast = ptrtoint ptr %add.ptr.ptr to i32
  %cmp3 = icmp eq i32 %base, 16
  %cmp5 = icmp ne i64 %n, 0
  %v4 = and i1 %cmp5, %cmp3
  %or.cond28 = and i1 %v4, %tobool
  %cond = select i1 %tobool.not.i, ptr @.str.6.19, ptr @.str.5.20
  %front.0 = select i1 %or.cond28, ptr %cond, ptr @.str.9
  %sub.ptr.rhs.cast24 = ptrtoint ptr %at.1 to i32
  %sub.ptr.sub25 = sub i32 %sub.ptr.lhs.cast, %sub.ptr.rhs.cast24
  %call26 = call fastcc i32 @number(ptr noundef %stream, ptr noundef nonnull %front.0, ptr noundef nonnull %at.1, i32 noundef signext %sub.ptr.sub25, i32 noundef signext %flags, i32 noundef signext %width, i32 noundef signext %precision) #12
  call void @llvm.lifetime.end.p0(i64 24, ptr nonnull %room) #10
  ret i32 %call26
}

; Function Attrs: nofree nounwind
declare dso_local noundef i32 @putchar(i32 noundef signext) local_unnamed_addr #2

; Function Attrs: nounwind optsize
define internal fastcc i32 @number(ptr nocapture noundef %stream, ptr noundef %front, ptr nocapture noundef readonly %digits, i32 noundef signext %n, i32 noundef signext %flags, i32 noundef signext %width, i32 noundef signext %precision) unnamed_addr #5 {
entry:
  br label %while.cond.i

while.cond.i:                                     ; preds = %while.cond.i, %entry
  %s.0.i = phi ptr [ %front, %entry ], [ %incdec.ptr.i, %while.cond.i ]
  %v0 = load i8, ptr %s.0.i, align 1, !tbaa !17
  %tobool.not.i = icmp eq i8 %v0, 0
  %incdec.ptr.i = getelementptr inbounds i8, ptr %s.0.i, i32 1
  br i1 %tobool.not.i, label %strlen.exit, label %while.cond.i, !llvm.loop !43

strlen.exit:                                      ; preds = %while.cond.i
  %sub.ptr.lhs.cast.i = ptrtoint ptr %s.0.i to i32
  %sub.ptr.rhs.cast.i = ptrtoint ptr %front to i32
  %sub.ptr.sub.i = sub i32 %sub.ptr.lhs.cast.i, %sub.ptr.rhs.cast.i
  %sub = sub nsw i32 %precision, %n
  %shr.i = lshr i32 %width, 31
  %tobool.i = icmp ne i32 %shr.i, 0
  %sub.i = sub i32 0, %width
  %cond.i1 = select i1 %tobool.i, i32 %sub.i, i32 %width
  %spec.store.select = tail call i32 @llvm.smax.i32(i32 %sub, i32 0)
  %cmp5 = icmp slt i32 %precision, 0
  %and = and i32 %flags, 16
  %tobool.not = icmp ne i32 %and, 0
  %or.cond.not94 = and i1 %tobool.not, %cmp5
  %flags.masked = and i32 %flags, 1
  %and7 = or i32 %shr.i, %flags.masked
  %tobool8.not = icmp eq i32 %and7, 0
  %or.cond65 = and i1 %or.cond.not94, %tobool8.not
  %add = add i32 %sub.ptr.sub.i, %n
  %cmp10 = icmp sgt i32 %cond.i1, %add
  %or.cond66 = select i1 %or.cond65, i1 %cmp10, i1 false
  %sub13 = sub i32 %cond.i1, %add
  %zeros.0 = select i1 %or.cond66, i32 %sub13, i32 %spec.store.select
  %v2 = add i32 %add, %zeros.0
  %sub17 = sub i32 %cond.i1, %v2
  br i1 %tobool8.not, label %if.then20, label %if.end23

if.then20:                                        ; preds = %strlen.exit
  %cmp5.i = icmp sgt i32 %sub17, 0
  br i1 %cmp5.i, label %for.body.i, label %repeated.exit

for.body.i:                                       ; preds = %for.body.i, %if.then20
  %k.06.i = phi i32 [ %inc.i, %for.body.i ], [ 0, %if.then20 ]
  %call.i = tail call i32 @fputc(i32 noundef signext 32, ptr noundef %stream) #12
  %inc.i = add nuw nsw i32 %k.06.i, 1
  %exitcond.not.i = icmp eq i32 %inc.i, %sub17
  br i1 %exitcond.not.i, label %repeated.exit, label %for.body.i, !llvm.loop !45

repeated.exit:                                    ; preds = %for.body.i, %if.then20
  %cond.i = tail call noundef i32 @llvm.smax.i32(i32 %sub17, i32 0)
  br label %if.end23

if.end23:                                         ; preds = %repeated.exit, %strlen.exit
  %count.0 = phi i32 [ 0, %strlen.exit ], [ %cond.i, %repeated.exit ]
  %v3 = load i8, ptr %stream, align 4, !tbaa !34, !alias.scope !46, !noalias !49
  %cmp.i.i = icmp eq i8 %v3, 0
  %cmp210.not.i.i = icmp eq ptr %s.0.i, %front
  %or.cond.i = or i1 %cmp210.not.i.i, %cmp.i.i
  br i1 %or.cond.i, label %__print_text.exit, label %for.body.i.i

for.body.i.i:                                     ; preds = %for.body.i.i, %if.end23
  %k.011.i.i = phi i32 [ %inc.i.i, %for.body.i.i ], [ 0, %if.end23 ]
  %arrayidx.i.i = getelementptr inbounds i8, ptr %front, i32 %k.011.i.i
  %v4 = load i8, ptr %arrayidx.i.i, align 1, !tbaa !17, !alias.scope !49, !noalias !46
  %conv4.i.i = zext i8 %v4 to i32
  %call.i.i = tail call i32 @fputc(i32 noundef signext %conv4.i.i, ptr noundef nonnull %stream) #12, !noalias !49
  %inc.i.i = add nuw i32 %k.011.i.i, 1
  %exitcond.not.i.i = icmp eq i32 %inc.i.i, %sub.ptr.sub.i
  br i1 %exitcond.not.i.i, label %__print_text.exit, label %for.body.i.i, !llvm.loop !42

__print_text.exit:                                ; preds = %for.body.i.i, %if.end23
  %cmp5.i67 = icmp sgt i32 %zeros.0, 0
  br i1 %cmp5.i67, label %for.body.i69, label %repeated.exit74

for.body.i69:                                     ; preds = %for.body.i69, %__print_text.exit
  %k.06.i70 = phi i32 [ %inc.i72, %for.body.i69 ], [ 0, %__print_text.exit ]
  %call.i71 = tail call i32 @fputc(i32 noundef signext 48, ptr noundef nonnull %stream) #12
  %inc.i72 = add nuw nsw i32 %k.06.i70, 1
  %exitcond.not.i73 = icmp eq i32 %inc.i72, %zeros.0
  br i1 %exitcond.not.i73, label %repeated.exit74, label %for.body.i69, !llvm.loop !45

repeated.exit74:                                  ; preds = %for.body.i69, %__print_text.exit
  %cond.i68 = tail call noundef i32 @llvm.smax.i32(i32 %zeros.0, i32 0)
  %v5 = load i8, ptr %stream, align 4, !tbaa !34, !alias.scope !51, !noalias !54
  %cmp.i.i75 = icmp eq i8 %v5, 0
  %cmp210.not.i.i76 = icmp eq i32 %n, 0
  %or.cond.i77 = or i1 %cmp210.not.i.i76, %cmp.i.i75
  br i1 %or.cond.i77, label %__print_text.exit85, label %for.body.i.i78

for.body.i.i78:                                   ; preds = %for.body.i.i78, %repeated.exit74
  %k.011.i.i79 = phi i32 [ %inc.i.i83, %for.body.i.i78 ], [ 0, %repeated.exit74 ]
  %arrayidx.i.i80 = getelementptr inbounds i8, ptr %digits, i32 %k.011.i.i79
  %v6 = load i8, ptr %arrayidx.i.i80, align 1, !tbaa !17, !alias.scope !54, !noalias !51
  %conv4.i.i81 = zext i8 %v6 to i32
  %call.i.i82 = tail call i32 @fputc(i32 noundef signext %conv4.i.i81, ptr noundef nonnull %stream) #12, !noalias !54
  %inc.i.i83 = add nuw i32 %k.011.i.i79, 1
  %exitcond.not.i.i84 = icmp eq i32 %inc.i.i83, %n
  br i1 %exitcond.not.i.i84, label %__print_text.exit85, label %for.body.i.i78, !llvm.loop !42

__print_text.exit85:                              ; preds = %for.body.i.i78, %repeated.exit74
  %add27 = add i32 %add, %cond.i68
  %add29 = add i32 %add27, %count.0
  br i1 %tobool8.not, label %if.end35, label %if.then32

if.then32:                                        ; preds = %__print_text.exit85
  %cmp5.i86 = icmp sgt i32 %sub17, 0
  br i1 %cmp5.i86, label %for.body.i88, label %repeated.exit93

for.body.i88:                                     ; preds = %for.body.i88, %if.then32
  %k.06.i89 = phi i32 [ %inc.i91, %for.body.i88 ], [ 0, %if.then32 ]
  %call.i90 = tail call i32 @fputc(i32 noundef signext 32, ptr noundef nonnull %stream) #12
  %inc.i91 = add nuw nsw i32 %k.06.i89, 1
  %exitcond.not.i92 = icmp eq i32 %inc.i91, %sub17
  br i1 %exitcond.not.i92, label %repeated.exit93, label %for.body.i88, !llvm.loop !45

repeated.exit93:                                  ; preds = %for.body.i88, %if.then32
  %cond.i87 = tail call noundef i32 @llvm.smax.i32(i32 %sub17, i32 0)
  %add34 = add nsw i32 %add29, %cond.i87
  br label %if.end35

if.end35:                                         ; preds = %repeated.exit93, %__print_text.exit85
  %count.1 = phi i32 [ %add34, %repeated.exit93 ], [ %add29, %__print_text.exit85 ]
  ret i32 %count.1
}

; Function Attrs: nocallback nofree nosync nounwind speculatable willreturn memory(none)
declare i32 @llvm.smax.i32(i32, i32) #6

; Function Attrs: nounwind optsize
define internal range(i32 -1, 256) i32 @fputc(i32 noundef signext %c, ptr nocapture noundef %stream) local_unnamed_addr #5 {
entry:
  %v0 = load i8, ptr %stream, align 4, !tbaa !34
  switch i8 %v0, label %if.end18 [
    i8 1, label %if.then
    i8 3, label %land.lhs.true
    i8 0, label %return
  ]

if.then:                                          ; preds = %entry
  %call = tail call i32 @putchar(i32 noundef signext %c) #13
  br label %if.end18

land.lhs.true:                                    ; preds = %entry
  %left = getelementptr inbounds i8, ptr %stream, i32 8
  %v1 = load i32, ptr %left, align 4, !tbaa !56
  %cmp6.not = icmp eq i32 %v1, 0
  br i1 %cmp6.not, label %if.end18, label %if.then8

if.then8:                                         ; preds = %land.lhs.true
  %conv9 = trunc i32 %c to i8
  %at = getelementptr inbounds i8, ptr %stream, i32 4
  %v2 = load ptr, ptr %at, align 4, !tbaa !57
  %incdec.ptr = getelementptr inbounds i8, ptr %v2, i32 1
  store ptr %incdec.ptr, ptr %at, align 4, !tbaa !57
  store i8 %conv9, ptr %v2, align 1, !tbaa !17
  %v3 = load i32, ptr %left, align 4, !tbaa !56
  %dec = add i32 %v3, -1
  store i32 %dec, ptr %left, align 4, !tbaa !56
  br label %if.end18

if.end18:                                         ; preds = %if.then8, %land.lhs.true, %if.then, %entry
  %conv20 = and i32 %c, 255
  br label %return

return:                                           ; preds = %if.end18, %entry
  %retval.0 = phi i32 [ %conv20, %if.end18 ], [ -1, %entry ]
  ret i32 %retval.0
}

; Function Attrs: nounwind optsize
define internal fastcc i32 @padded(ptr nocapture noundef %stream, ptr nocapture noundef readonly %text, i32 noundef signext %n, i32 noundef signext %flags, i32 noundef signext %width) unnamed_addr #5 {
entry:
  %cmp = icmp slt i32 %width, 0
  %shr.i = lshr i32 %width, 31
  %tobool.i = icmp ne i32 %shr.i, 0
  %sub.i = sub i32 0, %width
  %cond.i1 = select i1 %tobool.i, i32 %sub.i, i32 %width
  %sub1 = sub nsw i32 %cond.i1, %n
  %and = and i32 %flags, 1
  %tobool = icmp ne i32 %and, 0
  %v0 = or i1 %cmp, %tobool
  br i1 %v0, label %cond.end6, label %cond.false5

cond.false5:                                      ; preds = %entry
  %cmp5.i = icmp sgt i32 %sub1, 0
  br i1 %cmp5.i, label %for.body.i, label %repeated.exit

for.body.i:                                       ; preds = %for.body.i, %cond.false5
  %k.06.i = phi i32 [ %inc.i, %for.body.i ], [ 0, %cond.false5 ]
  %call.i = tail call i32 @fputc(i32 noundef signext 32, ptr noundef %stream) #12
  %inc.i = add nuw nsw i32 %k.06.i, 1
  %exitcond.not.i = icmp eq i32 %inc.i, %sub1
  br i1 %exitcond.not.i, label %repeated.exit, label %for.body.i, !llvm.loop !45

repeated.exit:                                    ; preds = %for.body.i, %cond.false5
  %cond.i = tail call noundef i32 @llvm.smax.i32(i32 %sub1, i32 0)
  br label %cond.end6

cond.end6:                                        ; preds = %repeated.exit, %entry
  %cond7 = phi i32 [ %cond.i, %repeated.exit ], [ 0, %entry ]
  %v1 = load i8, ptr %stream, align 4, !tbaa !34, !alias.scope !58, !noalias !61
  %cmp.i.i = icmp eq i8 %v1, 0
  %cmp210.not.i.i = icmp eq i32 %n, 0
  %or.cond.i = or i1 %cmp210.not.i.i, %cmp.i.i
  br i1 %or.cond.i, label %__print_text.exit, label %for.body.i.i

for.body.i.i:                                     ; preds = %for.body.i.i, %cond.end6
  %k.011.i.i = phi i32 [ %inc.i.i, %for.body.i.i ], [ 0, %cond.end6 ]
  %arrayidx.i.i = getelementptr inbounds i8, ptr %text, i32 %k.011.i.i
  %v2 = load i8, ptr %arrayidx.i.i, align 1, !tbaa !17, !alias.scope !61, !noalias !58
  %conv4.i.i = zext i8 %v2 to i32
  %call.i.i = tail call i32 @fputc(i32 noundef signext %conv4.i.i, ptr noundef nonnull %stream) #12, !noalias !61
  %inc.i.i = add nuw i32 %k.011.i.i, 1
  %exitcond.not.i.i = icmp eq i32 %inc.i.i, %n
  br i1 %exitcond.not.i.i, label %__print_text.exit, label %for.body.i.i, !llvm.loop !42

__print_text.exit:                                ; preds = %for.body.i.i, %cond.end6
  br i1 %v0, label %cond.true10, label %cond.end13

cond.true10:                                      ; preds = %__print_text.exit
  %cmp5.i25 = icmp sgt i32 %sub1, 0
  br i1 %cmp5.i25, label %for.body.i27, label %repeated.exit32

for.body.i27:                                     ; preds = %for.body.i27, %cond.true10
  %k.06.i28 = phi i32 [ %inc.i30, %for.body.i27 ], [ 0, %cond.true10 ]
  %call.i29 = tail call i32 @fputc(i32 noundef signext 32, ptr noundef nonnull %stream) #12
  %inc.i30 = add nuw nsw i32 %k.06.i28, 1
  %exitcond.not.i31 = icmp eq i32 %inc.i30, %sub1
  br i1 %exitcond.not.i31, label %repeated.exit32, label %for.body.i27, !llvm.loop !45

repeated.exit32:                                  ; preds = %for.body.i27, %cond.true10
  %cond.i26 = tail call noundef i32 @llvm.smax.i32(i32 %sub1, i32 0)
  br label %cond.end13

cond.end13:                                       ; preds = %repeated.exit32, %__print_text.exit
  %cond14 = phi i32 [ %cond.i26, %repeated.exit32 ], [ 0, %__print_text.exit ]
  %add = add nsw i32 %cond7, %n
  %add15 = add nsw i32 %add, %cond14
  ret i32 %add15
}

; Function Attrs: nounwind optsize
define internal i32 @fgetc(ptr nocapture noundef %stream) local_unnamed_addr #5 {
entry:
  %v0 = load i8, ptr %stream, align 4, !tbaa !34
  %cmp.not = icmp eq i8 %v0, 0
  br i1 %cmp.not, label %if.end, label %return

if.end:                                           ; preds = %entry
  %waiting = getelementptr inbounds i8, ptr %stream, i32 2
  %v1 = load i8, ptr %waiting, align 2, !tbaa !63
  %tobool.not = icmp eq i8 %v1, 0
  br i1 %tobool.not, label %if.end5, label %if.then2

if.then2:                                         ; preds = %if.end
  store i8 0, ptr %waiting, align 2, !tbaa !63
  %pushed = getelementptr inbounds i8, ptr %stream, i32 3
  %v2 = load i8, ptr %pushed, align 1, !tbaa !64
  %conv4 = zext i8 %v2 to i32
  br label %return

if.end5:                                          ; preds = %if.end
  %ended = getelementptr inbounds i8, ptr %stream, i32 1
  %v3 = load i8, ptr %ended, align 1, !tbaa !65
  %tobool6.not = icmp eq i8 %v3, 0
  br i1 %tobool6.not, label %if.end8, label %return

if.end8:                                          ; preds = %if.end5
  %call = tail call i32 @getchar() #13
  %cmp9 = icmp eq i32 %call, -1
  br i1 %cmp9, label %if.then11, label %return

if.then11:                                        ; preds = %if.end8
  store i8 1, ptr %ended, align 1, !tbaa !65
  br label %return

return:                                           ; preds = %if.then11, %if.end8, %if.end5, %if.then2, %entry
  %retval.0 = phi i32 [ %conv4, %if.then2 ], [ -1, %entry ], [ -1, %if.end5 ], [ -1, %if.then11 ], [ %call, %if.end8 ]
  ret i32 %retval.0
}

; Function Attrs: mustprogress nofree norecurse nosync nounwind optsize willreturn memory(none)
define internal range(i32 0, 2) i32 @isspace(i32 noundef signext %c) local_unnamed_addr #7 {
entry:
  %cmp = icmp eq i32 %c, 32
  %v0 = add i32 %c, -9
  %v1 = icmp ult i32 %v0, 5
  %narrow = or i1 %cmp, %v1
  %lor.ext = zext i1 %narrow to i32
  ret i32 %lor.ext
}

; Function Attrs: mustprogress nofree norecurse nosync nounwind optsize willreturn memory(argmem: readwrite)
define internal range(i32 -1, 256) i32 @ungetc(i32 noundef signext %c, ptr nocapture noundef %stream) local_unnamed_addr #8 {
entry:
  %cmp = icmp eq i32 %c, -1
  br i1 %cmp, label %return, label %lor.lhs.false

lor.lhs.false:                                    ; preds = %entry
  %v0 = load i8, ptr %stream, align 4, !tbaa !34
  %cmp1.not = icmp eq i8 %v0, 0
  br i1 %cmp1.not, label %lor.lhs.false3, label %return

lor.lhs.false3:                                   ; preds = %lor.lhs.false
  %waiting = getelementptr inbounds i8, ptr %stream, i32 2
  %v1 = load i8, ptr %waiting, align 2, !tbaa !63
  %tobool.not = icmp eq i8 %v1, 0
  br i1 %tobool.not, label %if.end, label %return

if.end:                                           ; preds = %lor.lhs.false3
  store i8 1, ptr %waiting, align 2, !tbaa !63
  %conv6 = trunc i32 %c to i8
  %pushed = getelementptr inbounds i8, ptr %stream, i32 3
  store i8 %conv6, ptr %pushed, align 1, !tbaa !64
  %ended = getelementptr inbounds i8, ptr %stream, i32 1
  store i8 0, ptr %ended, align 1, !tbaa !65
  %conv8 = and i32 %c, 255
  br label %return

return:                                           ; preds = %if.end, %lor.lhs.false3, %lor.lhs.false, %entry
  %retval.0 = phi i32 [ %conv8, %if.end ], [ -1, %lor.lhs.false3 ], [ -1, %lor.lhs.false ], [ -1, %entry ]
  ret i32 %retval.0
}

; Function Attrs: optsize
declare dso_local i32 @getchar() local_unnamed_addr #9

attributes #0 = { nounwind "no-jump-tables"="true" "no-trapping-math"="true" "stack-protector-buffer-size"="8" "target-cpu"="mips32r2" "target-features"="+fpxx,+mips32r2,+nooddspreg,-noabicalls" }
attributes #1 = { nocallback nofree nosync nounwind willreturn memory(argmem: readwrite) }
attributes #2 = { nofree nounwind "no-trapping-math"="true" "stack-protector-buffer-size"="8" "target-cpu"="mips32r2" "target-features"="+fpxx,+mips32r2,+nooddspreg,-noabicalls" }
attributes #3 = { nocallback nofree nounwind willreturn memory(argmem: write) }
attributes #4 = { nocallback nofree nounwind willreturn memory(argmem: readwrite) }
attributes #5 = { nounwind optsize "no-builtins" "no-jump-tables"="true" "no-trapping-math"="true" "stack-protector-buffer-size"="8" "target-cpu"="mips32r2" "target-features"="+fpxx,+mips32r2,+nooddspreg,-noabicalls" }
attributes #6 = { nocallback nofree nosync nounwind speculatable willreturn memory(none) }
attributes #7 = { mustprogress nofree norecurse nosync nounwind optsize willreturn memory(none) "no-builtins" "no-jump-tables"="true" "no-trapping-math"="true" "stack-protector-buffer-size"="8" "target-cpu"="mips32r2" "target-features"="+fpxx,+mips32r2,+nooddspreg,-noabicalls" }
attributes #8 = { mustprogress nofree norecurse nosync nounwind optsize willreturn memory(argmem: readwrite) "no-builtins" "no-jump-tables"="true" "no-trapping-math"="true" "stack-protector-buffer-size"="8" "target-cpu"="mips32r2" "target-features"="+fpxx,+mips32r2,+nooddspreg,-noabicalls" }
attributes #9 = { optsize "no-builtins" "no-trapping-math"="true" "stack-protector-buffer-size"="8" "target-cpu"="mips32r2" "target-features"="+fpxx,+mips32r2,+nooddspreg,-noabicalls" }
attributes #10 = { nounwind }
attributes #11 = { nounwind willreturn memory(read) }
attributes #12 = { nobuiltin optsize "no-builtins" }
attributes #13 = { nobuiltin nounwind optsize "no-builtins" }

!llvm.ident = !{!0, !0, !0}
!llvm.module.flags = !{!1, !2, !3}

!0 = !{!"Debian clang version 19.1.7 (3~deb12u1)"}
!1 = !{i32 7, !"Dwarf Version", i32 5}
!2 = !{i32 2, !"Debug Info Version", i32 3}
!3 = !{i32 1, !"wchar_size", i32 4}
!4 = !{!5, !5, i64 0}
!5 = !{!"long long", !6, i64 0}
!6 = !{!"omnipotent char", !7, i64 0}
!7 = !{!"Simple C/C++ TBAA"}
!8 = !{!9, !10, i64 0}
!9 = !{!"system", !10, i64 0, !6, i64 8}
!10 = !{!"int", !6, i64 0}
!11 = distinct !{!11, !12, !13}
!12 = !{!"llvm.loop.mustprogress"}
!13 = !{!"llvm.loop.unroll.disable"}
!14 = distinct !{!14, !12, !13}
!15 = !{i64 0, i64 4, !16, i64 8, i64 1248, !17}
!16 = !{!10, !10, i64 0}
!17 = !{!6, !6, i64 0}
!18 = distinct !{!18, !12, !13}
!19 = distinct !{!19, !12, !13}
!20 = distinct !{!20, !12, !13}
!21 = distinct !{!21, !12, !13}
!22 = distinct !{!22, !12, !13}
!23 = distinct !{!23, !12, !13}
!24 = distinct !{!24, !12, !13}
!25 = distinct !{!25, !12, !13}
!26 = distinct !{!26, !12, !13}
!27 = distinct !{!27, !12, !13}
!28 = distinct !{!28, !12, !13}
!29 = distinct !{!29, !12, !13}
!30 = distinct !{!30, !12, !13}
!31 = distinct !{!31, !12, !13}
!32 = distinct !{!32, !12}
!33 = distinct !{!33, !12}
!34 = !{!35, !6, i64 0}
!35 = !{!"__stream", !6, i64 0, !6, i64 1, !6, i64 2, !6, i64 3, !36, i64 4, !10, i64 8}
!36 = !{!"any pointer", !6, i64 0}
!37 = !{!38}
!38 = distinct !{!38, !39, !"fwrite: %stream"}
!39 = distinct !{!39, !"fwrite"}
!40 = !{!41}
!41 = distinct !{!41, !39, !"fwrite: %from"}
!42 = distinct !{!42, !12}
!43 = distinct !{!43, !12}
!44 = distinct !{!44, !12}
!45 = distinct !{!45, !12}
!46 = !{!47}
!47 = distinct !{!47, !48, !"fwrite: %stream"}
!48 = distinct !{!48, !"fwrite"}
!49 = !{!50}
!50 = distinct !{!50, !48, !"fwrite: %from"}
!51 = !{!52}
!52 = distinct !{!52, !53, !"fwrite: %stream"}
!53 = distinct !{!53, !"fwrite"}
!54 = !{!55}
!55 = distinct !{!55, !53, !"fwrite: %from"}
!56 = !{!35, !10, i64 8}
!57 = !{!35, !36, i64 4}
!58 = !{!59}
!59 = distinct !{!59, !60, !"fwrite: %stream"}
!60 = distinct !{!60, !"fwrite"}
!61 = !{!62}
!62 = distinct !{!62, !60, !"fwrite: %from"}
!63 = !{!35, !6, i64 2}
!64 = !{!35, !6, i64 3}
!65 = !{!35, !6, i64 1}
