source_filename = "colony.c"
target datalayout = "E-m:m-p:32:32-i8:8:32-i16:16:32-i64:64-n32-S64"
target triple = "mips-unknown-linux-gnu"

%struct.world = type { [32 x i64] }
%struct.__stream = type { i8, i8, i8, i8, ptr, i32 }

@main.worlds = internal global [2 x %struct.world] zeroinitializer, align 8
@main.seen = internal unnamed_addr global [200 x i64] zeroinitializer, align 8
@.str = private unnamed_addr constant [14 x i8] c"nothing lives\00", align 1
@.str.1 = private unnamed_addr constant [14 x i8] c"as %d before\0A\00", align 1
@.str.2 = private unnamed_addr constant [17 x i8] c"digest %08x%08x\0A\00", align 1
@.str.3 = private unnamed_addr constant [25 x i8] c"generation %d, %d alive\0A\00", align 1
@.str.10 = private unnamed_addr constant [1 x i8] zeroinitializer, align 1
@.str.2.11 = private unnamed_addr constant [2 x i8] c"-\00", align 1
@.str.3.12 = private unnamed_addr constant [2 x i8] c"+\00", align 1
@.str.4 = private unnamed_addr constant [2 x i8] c" \00", align 1
@.str.5 = private unnamed_addr constant [3 x i8] c"0X\00", align 1
@.str.6 = private unnamed_addr constant [3 x i8] c"0x\00", align 1
@__streams = internal global [3 x %struct.__stream] [%struct.__stream zeroinitializer, %struct.__stream { i8 1, i8 0, i8 0, i8 0, ptr null, i32 0 }, %struct.__stream { i8 2, i8 0, i8 0, i8 0, ptr null, i32 0 }], align 4
@.str.8 = private unnamed_addr constant [17 x i8] c"0123456789ABCDEF\00", align 1
@.str.9 = private unnamed_addr constant [17 x i8] c"0123456789abcdef\00", align 1

; Function Attrs: nounwind
define dso_local range(i32 -255, 256) i32 @main() local_unnamed_addr #0 {
entry:
  %line.i = alloca [256 x i8], align 4
  call void @llvm.lifetime.start.p0(i64 256, ptr nonnull %line.i) #8
  tail call void @llvm.memset.p0.i32(ptr noundef nonnull align 8 dereferenceable(256) @main.worlds, i8 0, i32 256, i1 false)
  br label %while.cond.i.preheader

while.cond.i.preheader:                           ; preds = %for.cond.cleanup.i, %entry
  %alive.0.ph.i67 = phi i32 [ 0, %entry ], [ %alive.1.lcssa.i, %for.cond.cleanup.i ]
  %r.0.ph.i66 = phi i32 [ 0, %entry ], [ %inc26.i, %for.cond.cleanup.i ]
  br label %while.cond.i

while.cond.i:                                     ; preds = %while.body.i, %while.cond.i.preheader
  %call.i = call ptr @fgets(ptr noundef nonnull %line.i, i32 noundef signext 256, ptr noundef nonnull @__streams)
  %tobool.not.i = icmp eq ptr %call.i, null
  br i1 %tobool.not.i, label %read_world.exit, label %while.body.i

while.body.i:                                     ; preds = %while.cond.i
  %v0 = load i8, ptr %line.i, align 4, !tbaa !4
  %cmp1.i = icmp eq i8 %v0, 33
  br i1 %cmp1.i, label %while.cond.i, label %for.cond.preheader.i, !llvm.loop !7

for.cond.preheader.i:                             ; preds = %while.body.i
  %arrayidx23.i = getelementptr inbounds [32 x i64], ptr @main.worlds, i32 0, i32 %r.0.ph.i66
  br label %land.lhs.true.i

land.lhs.true.i:                                  ; preds = %for.inc.i, %for.cond.preheader.i
  %c.012.i = phi i32 [ 0, %for.cond.preheader.i ], [ %inc25.i, %for.inc.i ]
  %alive.111.i = phi i32 [ %alive.0.ph.i67, %for.cond.preheader.i ], [ %alive.2.i, %for.inc.i ]
  %arrayidx5.i = getelementptr inbounds [256 x i8], ptr %line.i, i32 0, i32 %c.012.i
  %v1 = load i8, ptr %arrayidx5.i, align 1, !tbaa !4
  switch i8 %v1, label %for.inc.i [
    i8 0, label %for.cond.cleanup.i
    i8 10, label %for.cond.cleanup.i
    i8 35, label %if.then22.i
    i8 79, label %if.then22.i
  ]

for.cond.cleanup.i:                               ; preds = %for.inc.i, %land.lhs.true.i, %land.lhs.true.i
  %alive.1.lcssa.i = phi i32 [ %alive.111.i, %land.lhs.true.i ], [ %alive.111.i, %land.lhs.true.i ], [ %alive.2.i, %for.inc.i ]
  %inc26.i = add nuw nsw i32 %r.0.ph.i66, 1
  %exitcond16.not.i = icmp eq i32 %inc26.i, 32
  br i1 %exitcond16.not.i, label %read_world.exit, label %while.cond.i.preheader, !llvm.loop !10

if.then22.i:                                      ; preds = %land.lhs.true.i, %land.lhs.true.i
  %sh_prom.i = zext nneg i32 %c.012.i to i64
  %shl.i = shl nuw i64 1, %sh_prom.i
  %v2 = load i64, ptr %arrayidx23.i, align 8, !tbaa !11
  %or.i = or i64 %v2, %shl.i
  store i64 %or.i, ptr %arrayidx23.i, align 8, !tbaa !11
  %inc.i = add nsw i32 %alive.111.i, 1
  br label %for.inc.i

for.inc.i:                                        ; preds = %if.then22.i, %land.lhs.true.i
  %alive.2.i = phi i32 [ %inc.i, %if.then22.i ], [ %alive.111.i, %land.lhs.true.i ]
  %inc25.i = add nuw nsw i32 %c.012.i, 1
  %exitcond.not.i = icmp eq i32 %inc25.i, 64
  br i1 %exitcond.not.i, label %for.cond.cleanup.i, label %land.lhs.true.i, !llvm.loop !13

read_world.exit:                                  ; preds = %for.cond.cleanup.i, %while.cond.i
  %alive.0.ph.i65 = phi i32 [ %alive.0.ph.i67, %while.cond.i ], [ %alive.1.lcssa.i, %for.cond.cleanup.i ]
  call void @llvm.lifetime.end.p0(i64 256, ptr nonnull %line.i) #8
  %cmp = icmp eq i32 %alive.0.ph.i65, 0
  br i1 %cmp, label %if.then, label %if.end

if.then:                                          ; preds = %read_world.exit
  %call1 = call i32 @puts(ptr noundef nonnull dereferenceable(1) @.str)
  br label %cleanup

if.end:                                           ; preds = %read_world.exit
  call fastcc void @show(ptr noundef nonnull @main.worlds, i32 noundef signext 0)
  br label %for.body.i.preheader

for.body.i.preheader:                             ; preds = %step.exit, %if.end
  %generation.074 = phi i32 [ 0, %if.end ], [ %inc20, %step.exit ]
  %next.073 = phi ptr [ getelementptr inbounds (i8, ptr @main.worlds, i32 256), %if.end ], [ %now.072, %step.exit ]
  %now.072 = phi ptr [ @main.worlds, %if.end ], [ %next.073, %step.exit ]
  br label %for.body.i

for.body.i:                                       ; preds = %for.body.i, %for.body.i.preheader
  %r.08.i = phi i32 [ %inc.i23, %for.body.i ], [ 0, %for.body.i.preheader ]
  %h.07.i = phi i64 [ %xor1.i, %for.body.i ], [ 1469598103934665603, %for.body.i.preheader ]
  %arrayidx.i = getelementptr inbounds [32 x i64], ptr %now.072, i32 0, i32 %r.08.i
  %v3 = load i64, ptr %arrayidx.i, align 8, !tbaa !11
  %xor.i = xor i64 %v3, %h.07.i
  %mul.i = mul i64 %xor.i, 1099511628211
  %shr.i = lshr i64 %mul.i, 29
  %xor1.i = xor i64 %shr.i, %mul.i
  %inc.i23 = add nuw nsw i32 %r.08.i, 1
  %exitcond.not.i24 = icmp eq i32 %inc.i23, 32
  br i1 %exitcond.not.i24, label %digest.exit, label %for.body.i, !llvm.loop !14

digest.exit:                                      ; preds = %for.body.i
  %arrayidx = getelementptr inbounds [200 x i64], ptr @main.seen, i32 0, i32 %generation.074
  store i64 %xor1.i, ptr %arrayidx, align 8, !tbaa !11
  %cmp568.not = icmp eq i32 %generation.074, 0
  br i1 %cmp568.not, label %for.cond.cleanup, label %for.body10

for.cond.cleanup:                                 ; preds = %for.body10, %digest.exit
  %period.1.lcssa = phi i32 [ 0, %digest.exit ], [ %spec.select, %for.body10 ]
  %tobool7.not.lcssa = phi i1 [ true, %digest.exit ], [ %tobool7.not, %for.body10 ]
  br i1 %tobool7.not.lcssa, label %for.body.i26, label %for.end21

for.body10:                                       ; preds = %for.body10, %digest.exit
  %k.070 = phi i32 [ %inc, %for.body10 ], [ 1, %digest.exit ]
  %period.169 = phi i32 [ %spec.select, %for.body10 ], [ 0, %digest.exit ]
  %sub = sub nsw i32 %generation.074, %k.070
  %arrayidx11 = getelementptr inbounds [200 x i64], ptr @main.seen, i32 0, i32 %sub
  %v4 = load i64, ptr %arrayidx11, align 8, !tbaa !11
  %cmp13 = icmp eq i64 %v4, %xor1.i
  %spec.select = select i1 %cmp13, i32 %k.070, i32 %period.169
  %inc = add nuw nsw i32 %k.070, 1
  %cmp5 = icmp ult i32 %k.070, %generation.074
  %tobool7.not = icmp eq i32 %spec.select, 0
  %v5 = select i1 %cmp5, i1 %tobool7.not, i1 false
  br i1 %v5, label %for.body10, label %for.cond.cleanup, !llvm.loop !15

for.body.i26:                                     ; preds = %for.body.i26, %for.cond.cleanup
  %r.0108.i = phi i32 [ %add4.i, %for.body.i26 ], [ 0, %for.cond.cleanup ]
  %sub.i = add nuw nsw i32 %r.0108.i, 31
  %rem.i = and i32 %sub.i, 31
  %arrayidx.i27 = getelementptr inbounds [32 x i64], ptr %now.072, i32 0, i32 %rem.i
  %v6 = load i64, ptr %arrayidx.i27, align 8, !tbaa !11
  %arrayidx2.i = getelementptr inbounds [32 x i64], ptr %now.072, i32 0, i32 %r.0108.i
  %v7 = load i64, ptr %arrayidx2.i, align 8, !tbaa !11
  %add4.i = add nuw nsw i32 %r.0108.i, 1
  %rem5.i = and i32 %add4.i, 31
  %arrayidx6.i = getelementptr inbounds [32 x i64], ptr %now.072, i32 0, i32 %rem5.i
  %v8 = load i64, ptr %arrayidx6.i, align 8, !tbaa !11
  %shl.i1 = shl i64 %v6, 1
  %shr.i2 = lshr i64 %v6, 1
  %shr2.i = lshr i64 %shr.i2, 62
  %or.i3 = or i64 %shl.i1, %shr2.i
  %and.i14.i = and i64 %or.i3, %v6
  %xor.i15.i = xor i64 %or.i3, %v6
  %shl.i4 = shl i64 %v6, 63
  %or.i7 = or i64 %shl.i4, %shr.i2
  %and.i22.i = and i64 %xor.i15.i, %or.i7
  %xor.i23.i = xor i64 %xor.i15.i, %or.i7
  %xor5.i26.i = xor i64 %and.i22.i, %and.i14.i
  %shl.i8 = shl i64 %v7, 1
  %shr.i9 = lshr i64 %v7, 1
  %shr2.i10 = lshr i64 %shr.i9, 62
  %or.i11 = or i64 %shl.i8, %shr2.i10
  %and.i30.i = and i64 %xor.i23.i, %or.i11
  %xor.i31.i = xor i64 %xor.i23.i, %or.i11
  %and3.i33.i = and i64 %and.i30.i, %and.i14.i
  %xor5.i34.i = xor i64 %xor5.i26.i, %and.i30.i
  %shl.i12 = shl i64 %v7, 63
  %or.i15 = or i64 %shl.i12, %shr.i9
  %and.i38.i = and i64 %xor.i31.i, %or.i15
  %xor.i39.i = xor i64 %xor.i31.i, %or.i15
  %and3.i41.i = and i64 %and.i38.i, %xor5.i26.i
  %xor5.i42.i = xor i64 %xor5.i34.i, %and.i38.i
  %shl.i16 = shl i64 %v8, 1
  %shr.i17 = lshr i64 %v8, 1
  %shr2.i18 = lshr i64 %shr.i17, 62
  %or.i19 = or i64 %shl.i16, %shr2.i18
  %and.i46.i = and i64 %xor.i39.i, %or.i19
  %xor.i47.i = xor i64 %xor.i39.i, %or.i19
  %and3.i49.i = and i64 %and.i46.i, %xor5.i34.i
  %xor5.i50.i = xor i64 %xor5.i42.i, %and.i46.i
  %and.i53.i = and i64 %xor.i47.i, %v8
  %xor.i54.i = xor i64 %xor.i47.i, %v8
  %and3.i56.i = and i64 %and.i53.i, %xor5.i42.i
  %xor5.i57.i = xor i64 %xor5.i50.i, %and.i53.i
  %shl.i20 = shl i64 %v8, 63
  %or.i23 = or i64 %shl.i20, %shr.i17
  %and.i61.i = and i64 %xor.i54.i, %or.i23
  %xor.i62.i = xor i64 %xor.i54.i, %or.i23
  %and3.i64.i = and i64 %and.i61.i, %xor5.i50.i
  %xor5.i65.i = xor i64 %xor5.i57.i, %and.i61.i
  %v9 = xor i64 %and3.i33.i, %and3.i41.i
  %v10 = xor i64 %v9, %and3.i49.i
  %v11 = xor i64 %v10, %and3.i56.i
  %v12 = xor i64 %v11, %and3.i64.i
  %not.i = xor i64 %v12, -1
  %or.i28 = or i64 %xor.i62.i, %v7
  %and.i = and i64 %or.i28, %xor5.i65.i
  %and22.i = and i64 %and.i, %not.i
  %arrayidx24.i = getelementptr inbounds [32 x i64], ptr %next.073, i32 0, i32 %r.0108.i
  store i64 %and22.i, ptr %arrayidx24.i, align 8, !tbaa !11
  %exitcond.not.i29 = icmp eq i32 %add4.i, 32
  br i1 %exitcond.not.i29, label %step.exit, label %for.body.i26, !llvm.loop !16

step.exit:                                        ; preds = %for.body.i26
  %inc20 = add nuw nsw i32 %generation.074, 1
  %exitcond.not = icmp eq i32 %inc20, 200
  br i1 %exitcond.not, label %for.end21, label %for.body.i.preheader, !llvm.loop !17

for.end21:                                        ; preds = %step.exit, %for.cond.cleanup
  %now.0.lcssa = phi ptr [ %now.072, %for.cond.cleanup ], [ %next.073, %step.exit ]
  %generation.0.lcssa = phi i32 [ %generation.074, %for.cond.cleanup ], [ 200, %step.exit ]
  %period.3 = phi i32 [ %period.1.lcssa, %for.cond.cleanup ], [ 0, %step.exit ]
  call fastcc void @show(ptr noundef %now.0.lcssa, i32 noundef signext %generation.0.lcssa)
  %tobool22.not = icmp eq i32 %period.3, 0
  br i1 %tobool22.not, label %for.body.i31.preheader, label %if.then23

if.then23:                                        ; preds = %for.end21
  %print.162.0 = call i32 @__print_text(ptr nonnull getelementptr inbounds (i8, ptr @__streams, i32 12), ptr nonnull @.str.1, i32 3) #8
  %print.162.1 = sext i32 %period.3 to i64
  %print.162.2 = call i32 @__print_signed(ptr nonnull getelementptr inbounds (i8, ptr @__streams, i32 12), i64 %print.162.1, i32 0, i32 0, i32 -1) #8
  %print.162.3 = call i32 @__print_text(ptr nonnull getelementptr inbounds (i8, ptr @__streams, i32 12), ptr nonnull getelementptr inbounds (i8, ptr @.str.1, i32 5), i32 8) #8
  br label %for.body.i31.preheader

for.body.i31.preheader:                           ; preds = %if.then23, %for.end21
  br label %for.body.i31

for.body.i31:                                     ; preds = %for.body.i31, %for.body.i31.preheader
  %r.08.i32 = phi i32 [ %inc.i39, %for.body.i31 ], [ 0, %for.body.i31.preheader ]
  %h.07.i33 = phi i64 [ %xor1.i38, %for.body.i31 ], [ 1469598103934665603, %for.body.i31.preheader ]
  %arrayidx.i34 = getelementptr inbounds [32 x i64], ptr %now.0.lcssa, i32 0, i32 %r.08.i32
  %v13 = load i64, ptr %arrayidx.i34, align 8, !tbaa !11
  %xor.i35 = xor i64 %v13, %h.07.i33
  %mul.i36 = mul i64 %xor.i35, 1099511628211
  %shr.i37 = lshr i64 %mul.i36, 29
  %xor1.i38 = xor i64 %shr.i37, %mul.i36
  %inc.i39 = add nuw nsw i32 %r.08.i32, 1
  %exitcond.not.i40 = icmp eq i32 %inc.i39, 32
  br i1 %exitcond.not.i40, label %for.body.i43, label %for.body.i31, !llvm.loop !18

for.body.i43:                                     ; preds = %for.body.i43, %for.body.i31
  %r.08.i44 = phi i32 [ %inc.i51, %for.body.i43 ], [ 0, %for.body.i31 ]
  %h.07.i45 = phi i64 [ %xor1.i50, %for.body.i43 ], [ 1469598103934665603, %for.body.i31 ]
  %arrayidx.i46 = getelementptr inbounds [32 x i64], ptr %now.0.lcssa, i32 0, i32 %r.08.i44
  %v14 = load i64, ptr %arrayidx.i46, align 8, !tbaa !11
  %xor.i47 = xor i64 %v14, %h.07.i45
  %mul.i48 = mul i64 %xor.i47, 1099511628211
  %shr.i49 = lshr i64 %mul.i48, 29
  %xor1.i50 = xor i64 %shr.i49, %mul.i48
  %inc.i51 = add nuw nsw i32 %r.08.i44, 1
  %exitcond.not.i52 = icmp eq i32 %inc.i51, 32
  br i1 %exitcond.not.i52, label %digest.exit54, label %for.body.i43, !llvm.loop !19

digest.exit54:                                    ; preds = %for.body.i43
  %shr = lshr i64 %xor1.i38, 32
  %print.173.0 = call i32 @__print_text(ptr nonnull getelementptr inbounds (i8, ptr @__streams, i32 12), ptr nonnull @.str.2, i32 7) #8
  %print.173.2 = call i32 @__print_unsigned(ptr nonnull getelementptr inbounds (i8, ptr @__streams, i32 12), i64 %shr, i32 16, i32 16, i32 8, i32 -1) #8
  %print.173.3 = and i64 %xor1.i50, 4294967295
  %print.173.4 = call i32 @__print_unsigned(ptr nonnull getelementptr inbounds (i8, ptr @__streams, i32 12), i64 %print.173.3, i32 16, i32 16, i32 8, i32 -1) #8
  %print.173.5 = call i32 @__print_text(ptr nonnull getelementptr inbounds (i8, ptr @__streams, i32 12), ptr nonnull getelementptr inbounds (i8, ptr @.str.2, i32 15), i32 1) #8
  br label %for.body.i55

for.body.i55:                                     ; preds = %for.cond.cleanup3.i, %digest.exit54
  %r.010.i = phi i32 [ 0, %digest.exit54 ], [ %inc6.i, %for.cond.cleanup3.i ]
  %n.09.i = phi i32 [ 0, %digest.exit54 ], [ %n.1.lcssa.i, %for.cond.cleanup3.i ]
  %arrayidx.i56 = getelementptr inbounds [32 x i64], ptr %now.0.lcssa, i32 0, i32 %r.010.i
  %v15 = load i64, ptr %arrayidx.i56, align 8, !tbaa !11
  %tobool.not6.i = icmp eq i64 %v15, 0
  br i1 %tobool.not6.i, label %for.cond.cleanup3.i, label %for.body4.i

for.cond.cleanup3.i:                              ; preds = %for.body4.i, %for.body.i55
  %n.1.lcssa.i = phi i32 [ %n.09.i, %for.body.i55 ], [ %inc.i57, %for.body4.i ]
  %inc6.i = add nuw nsw i32 %r.010.i, 1
  %exitcond.not.i61 = icmp eq i32 %inc6.i, 32
  br i1 %exitcond.not.i61, label %population.exit, label %for.body.i55, !llvm.loop !20

for.body4.i:                                      ; preds = %for.body4.i, %for.body.i55
  %row.08.i = phi i64 [ %and.i59, %for.body4.i ], [ %v15, %for.body.i55 ]
  %n.17.i = phi i32 [ %inc.i57, %for.body4.i ], [ %n.09.i, %for.body.i55 ]
  %inc.i57 = add nsw i32 %n.17.i, 1
  %sub.i58 = add i64 %row.08.i, -1
  %and.i59 = and i64 %sub.i58, %row.08.i
  %tobool.not.i60 = icmp eq i64 %and.i59, 0
  br i1 %tobool.not.i60, label %for.cond.cleanup3.i, label %for.body4.i, !llvm.loop !21

population.exit:                                  ; preds = %for.cond.cleanup3.i
  %rem = srem i32 %n.1.lcssa.i, 256
  br label %cleanup

cleanup:                                          ; preds = %population.exit, %if.then
  %retval.0 = phi i32 [ 0, %if.then ], [ %rem, %population.exit ]
  ret i32 %retval.0
}

; Function Attrs: nocallback nofree nosync nounwind willreturn memory(argmem: readwrite)
declare void @llvm.lifetime.start.p0(i64 immarg, ptr nocapture) #1

; Function Attrs: nocallback nofree nounwind willreturn memory(argmem: write)
declare void @llvm.memset.p0.i32(ptr nocapture writeonly, i8, i32, i1 immarg) #2

; Function Attrs: nounwind optsize
define internal noundef ptr @fgets(ptr noalias noundef writeonly %to, i32 noundef signext %n, ptr noalias nocapture noundef %stream) local_unnamed_addr #3 {
entry:
  %cmp = icmp slt i32 %n, 1
  br i1 %cmp, label %cleanup, label %while.cond.preheader

while.cond.preheader:                             ; preds = %entry
  %cmp123.not = icmp eq i32 %n, 1
  br i1 %cmp123.not, label %if.end10, label %land.rhs

land.rhs:                                         ; preds = %while.body, %while.cond.preheader
  %dec25.in = phi i32 [ %dec25, %while.body ], [ %n, %while.cond.preheader ]
  %at.024 = phi ptr [ %incdec.ptr, %while.body ], [ %to, %while.cond.preheader ]
  %call = tail call i32 @fgetc(ptr noundef %stream) #9
  %cmp3.not = icmp eq i32 %call, -1
  br i1 %cmp3.not, label %while.end, label %while.body

while.body:                                       ; preds = %land.rhs
  %dec25 = add nsw i32 %dec25.in, -1
  %conv = trunc i32 %call to i8
  %incdec.ptr = getelementptr inbounds i8, ptr %at.024, i32 1
  store i8 %conv, ptr %at.024, align 1, !tbaa !4
  %cmp1 = icmp sgt i32 %dec25.in, 2
  %cmp2 = icmp ne i32 %call, 10
  %or.cond = and i1 %cmp1, %cmp2
  br i1 %or.cond, label %land.rhs, label %if.end10, !llvm.loop !22

while.end:                                        ; preds = %land.rhs
  %cmp7 = icmp eq ptr %at.024, %to
  br i1 %cmp7, label %cleanup, label %if.end10

if.end10:                                         ; preds = %while.end, %while.body, %while.cond.preheader
  %at.021 = phi ptr [ %at.024, %while.end ], [ %to, %while.cond.preheader ], [ %incdec.ptr, %while.body ]
  store i8 0, ptr %at.021, align 1, !tbaa !4
  br label %cleanup

cleanup:                                          ; preds = %if.end10, %while.end, %entry
  %retval.0 = phi ptr [ %to, %if.end10 ], [ null, %entry ], [ null, %while.end ]
  ret ptr %retval.0
}

; Function Attrs: nocallback nofree nosync nounwind willreturn memory(argmem: readwrite)
declare void @llvm.lifetime.end.p0(i64 immarg, ptr nocapture) #1

; Function Attrs: nofree nounwind
declare dso_local noundef i32 @puts(ptr nocapture noundef readonly) local_unnamed_addr #4

; Function Attrs: nounwind
define internal fastcc void @show(ptr nocapture noundef readonly %it, i32 noundef signext %generation) unnamed_addr #5 {
entry:
  %line = alloca [66 x i8], align 1
  br label %for.body.i

for.body.i:                                       ; preds = %for.cond.cleanup3.i, %entry
  %r.010.i = phi i32 [ 0, %entry ], [ %inc6.i, %for.cond.cleanup3.i ]
  %n.09.i = phi i32 [ 0, %entry ], [ %n.1.lcssa.i, %for.cond.cleanup3.i ]
  %arrayidx.i = getelementptr inbounds [32 x i64], ptr %it, i32 0, i32 %r.010.i
  %v0 = load i64, ptr %arrayidx.i, align 8, !tbaa !11
  %tobool.not6.i = icmp eq i64 %v0, 0
  br i1 %tobool.not6.i, label %for.cond.cleanup3.i, label %for.body4.i

for.cond.cleanup3.i:                              ; preds = %for.body4.i, %for.body.i
  %n.1.lcssa.i = phi i32 [ %n.09.i, %for.body.i ], [ %inc.i, %for.body4.i ]
  %inc6.i = add nuw nsw i32 %r.010.i, 1
  %exitcond.not.i = icmp eq i32 %inc6.i, 32
  br i1 %exitcond.not.i, label %population.exit, label %for.body.i, !llvm.loop !23

for.body4.i:                                      ; preds = %for.body4.i, %for.body.i
  %row.08.i = phi i64 [ %and.i, %for.body4.i ], [ %v0, %for.body.i ]
  %n.17.i = phi i32 [ %inc.i, %for.body4.i ], [ %n.09.i, %for.body.i ]
  %inc.i = add nsw i32 %n.17.i, 1
  %sub.i = add i64 %row.08.i, -1
  %and.i = and i64 %sub.i, %row.08.i
  %tobool.not.i = icmp eq i64 %and.i, 0
  br i1 %tobool.not.i, label %for.cond.cleanup3.i, label %for.body4.i, !llvm.loop !24

population.exit:                                  ; preds = %for.cond.cleanup3.i
  %print.343.0 = tail call i32 @__print_text(ptr nonnull getelementptr inbounds (i8, ptr @__streams, i32 12), ptr nonnull @.str.3, i32 11) #8
  %print.343.1 = sext i32 %generation to i64
  %print.343.2 = tail call i32 @__print_signed(ptr nonnull getelementptr inbounds (i8, ptr @__streams, i32 12), i64 %print.343.1, i32 0, i32 0, i32 -1) #8
  %print.343.3 = tail call i32 @__print_text(ptr nonnull getelementptr inbounds (i8, ptr @__streams, i32 12), ptr nonnull getelementptr inbounds (i8, ptr @.str.3, i32 13), i32 2) #8
  %print.343.4 = sext i32 %n.1.lcssa.i to i64
  %print.343.5 = tail call i32 @__print_signed(ptr nonnull getelementptr inbounds (i8, ptr @__streams, i32 12), i64 %print.343.4, i32 0, i32 0, i32 -1) #8
  %print.343.6 = tail call i32 @__print_text(ptr nonnull getelementptr inbounds (i8, ptr @__streams, i32 12), ptr nonnull getelementptr inbounds (i8, ptr @.str.3, i32 17), i32 7) #8
  br label %land.rhs

land.rhs:                                         ; preds = %while.body, %population.exit
  %last.015 = phi i32 [ 31, %population.exit ], [ %dec, %while.body ]
  %arrayidx = getelementptr inbounds [32 x i64], ptr %it, i32 0, i32 %last.015
  %v1 = load i64, ptr %arrayidx, align 8, !tbaa !11
  %tobool.not = icmp eq i64 %v1, 0
  br i1 %tobool.not, label %while.body, label %while.end

while.body:                                       ; preds = %land.rhs
  %dec = add nsw i32 %last.015, -1
  %cmp = icmp ugt i32 %last.015, 1
  br i1 %cmp, label %land.rhs, label %while.end, !llvm.loop !25

while.end:                                        ; preds = %while.body, %land.rhs
  %last.0.lcssa = phi i32 [ 0, %while.body ], [ %last.015, %land.rhs ]
  %cmp2.not21 = icmp slt i32 %last.0.lcssa, 0
  br i1 %cmp2.not21, label %for.cond.cleanup, label %for.body

for.cond.cleanup:                                 ; preds = %for.cond.cleanup5, %while.end
  ret void

for.body:                                         ; preds = %for.cond.cleanup5, %while.end
  %r.022 = phi i32 [ %inc22, %for.cond.cleanup5 ], [ 0, %while.end ]
  call void @llvm.lifetime.start.p0(i64 66, ptr nonnull %line) #8
  %arrayidx8 = getelementptr inbounds [32 x i64], ptr %it, i32 0, i32 %r.022
  %v2 = load i64, ptr %arrayidx8, align 8, !tbaa !11
  br label %for.body6

for.cond.cleanup5:                                ; preds = %for.inc
  %inc18 = add nsw i32 %n.2, 1
  %arrayidx19 = getelementptr inbounds [66 x i8], ptr %line, i32 0, i32 %n.2
  store i8 10, ptr %arrayidx19, align 1, !tbaa !4
  %call20 = call i32 @fwrite(ptr noundef nonnull %line, i32 noundef signext 1, i32 noundef signext %inc18, ptr noundef nonnull getelementptr inbounds (i8, ptr @__streams, i32 12))
  call void @llvm.lifetime.end.p0(i64 66, ptr nonnull %line) #8
  %inc22 = add nuw nsw i32 %r.022, 1
  %exitcond23.not = icmp eq i32 %r.022, %last.0.lcssa
  br i1 %exitcond23.not, label %for.cond.cleanup, label %for.body, !llvm.loop !26

for.body6:                                        ; preds = %for.inc, %for.body
  %c.019 = phi i32 [ 0, %for.body ], [ %inc17, %for.inc ]
  %n.018 = phi i32 [ 0, %for.body ], [ %n.2, %for.inc ]
  %sh_prom = zext nneg i32 %c.019 to i64
  %v3 = shl nuw i64 1, %sh_prom
  %v4 = and i64 %v2, %v3
  %tobool9.not = icmp eq i64 %v4, 0
  br i1 %tobool9.not, label %for.inc, label %while.cond10.preheader

while.cond10.preheader:                           ; preds = %for.body6
  %cmp1116 = icmp slt i32 %n.018, %c.019
  br i1 %cmp1116, label %while.body12.preheader, label %while.end14

while.body12.preheader:                           ; preds = %while.cond10.preheader
  %scevgep = getelementptr i8, ptr %line, i32 %n.018
  %v5 = sub i32 %c.019, %n.018
  call void @llvm.memset.p0.i32(ptr align 1 %scevgep, i8 46, i32 %v5, i1 false), !tbaa !4
  br label %while.end14

while.end14:                                      ; preds = %while.body12.preheader, %while.cond10.preheader
  %n.1.lcssa = phi i32 [ %n.018, %while.cond10.preheader ], [ %c.019, %while.body12.preheader ]
  %inc15 = add nsw i32 %n.1.lcssa, 1
  %arrayidx16 = getelementptr inbounds [66 x i8], ptr %line, i32 0, i32 %n.1.lcssa
  store i8 35, ptr %arrayidx16, align 1, !tbaa !4
  br label %for.inc

for.inc:                                          ; preds = %while.end14, %for.body6
  %n.2 = phi i32 [ %inc15, %while.end14 ], [ %n.018, %for.body6 ]
  %inc17 = add nuw nsw i32 %c.019, 1
  %exitcond.not = icmp eq i32 %inc17, 64
  br i1 %exitcond.not, label %for.cond.cleanup5, label %for.body6, !llvm.loop !27
}

; Function Attrs: nounwind optsize
define internal noundef i32 @__print_text(ptr nocapture noundef %stream, ptr nocapture noundef readonly %text, i32 noundef returned signext %n) local_unnamed_addr #3 {
entry:
  %v0 = load i8, ptr %stream, align 4, !tbaa !28, !alias.scope !32, !noalias !35
  %cmp.i = icmp eq i8 %v0, 0
  %cmp210.not.i = icmp eq i32 %n, 0
  %or.cond = or i1 %cmp210.not.i, %cmp.i
  br i1 %or.cond, label %fwrite.exit, label %for.body.i

for.body.i:                                       ; preds = %for.body.i, %entry
  %k.011.i = phi i32 [ %inc.i, %for.body.i ], [ 0, %entry ]
  %arrayidx.i = getelementptr inbounds i8, ptr %text, i32 %k.011.i
  %v1 = load i8, ptr %arrayidx.i, align 1, !tbaa !4, !alias.scope !35, !noalias !32
  %conv4.i = zext i8 %v1 to i32
  %call.i = tail call i32 @fputc(i32 noundef signext %conv4.i, ptr noundef nonnull %stream) #9, !noalias !35
  %inc.i = add nuw i32 %k.011.i, 1
  %exitcond.not.i = icmp eq i32 %inc.i, %n
  br i1 %exitcond.not.i, label %fwrite.exit, label %for.body.i, !llvm.loop !37

fwrite.exit:                                      ; preds = %for.body.i, %entry
  ret i32 %n
}

; Function Attrs: nounwind optsize
define internal i32 @__print_signed(ptr nocapture noundef %stream, i64 noundef signext %n, i32 noundef signext %flags, i32 noundef signext %width, i32 noundef signext %precision) local_unnamed_addr #3 {
entry:
  %room = alloca [24 x i8], align 1
  call void @llvm.lifetime.start.p0(i64 24, ptr nonnull %room) #8
  %add.ptr = getelementptr inbounds i8, ptr %room, i32 24
  %cmp = icmp slt i64 %n, 0
  %shr.i = lshr i64 %n, 63
  %tobool.i = icmp ne i64 %shr.i, 0
  %sub.i = sub i64 0, %n
  %cond.i = select i1 %tobool.i, i64 %sub.i, i64 %n
  %cmp.i = icmp ult i64 %cond.i, 4294967296
  br i1 %cmp.i, label %if.then.i, label %for.body6.i

if.then.i:                                        ; preds = %entry
  %conv.i = trunc nuw i64 %cond.i to i32
  %cmp1.not31.i = icmp eq i32 %conv.i, 0
  br i1 %cmp1.not31.i, label %spelled.exit, label %for.body.i

for.body.i:                                       ; preds = %for.body.i, %if.then.i
  %k.033.i = phi i32 [ %div.i, %for.body.i ], [ %conv.i, %if.then.i ]
  %end.addr.032.i = phi ptr [ %incdec.ptr.i, %for.body.i ], [ %add.ptr, %if.then.i ]
  %rem.i = urem i32 %k.033.i, 10
  %arrayidx.i = getelementptr inbounds i8, ptr @.str.9, i32 %rem.i
  %v0 = load i8, ptr %arrayidx.i, align 1, !tbaa !4
  %incdec.ptr.i = getelementptr inbounds i8, ptr %end.addr.032.i, i32 -1
  store i8 %v0, ptr %incdec.ptr.i, align 1, !tbaa !4
  %div.i = udiv i32 %k.033.i, 10
  %cmp1.not.i = icmp ult i32 %k.033.i, 10
  br i1 %cmp1.not.i, label %spelled.exit, label %for.body.i, !llvm.loop !38

for.body6.i:                                      ; preds = %for.body6.i, %entry
  %end.addr.130.i = phi ptr [ %incdec.ptr10.i, %for.body6.i ], [ %add.ptr, %entry ]
  %n.addr.029.i = phi i64 [ %div13.i, %for.body6.i ], [ %cond.i, %entry ]
  %div13.i = udiv i64 %n.addr.029.i, 10
  %v1 = mul i64 %div13.i, 10
  %rem8.i.decomposed = sub i64 %n.addr.029.i, %v1
  %idxprom.i = trunc nuw nsw i64 %rem8.i.decomposed to i32
  %arrayidx9.i = getelementptr inbounds i8, ptr @.str.9, i32 %idxprom.i
  %v2 = load i8, ptr %arrayidx9.i, align 1, !tbaa !4
  %incdec.ptr10.i = getelementptr inbounds i8, ptr %end.addr.130.i, i32 -1
  store i8 %v2, ptr %incdec.ptr10.i, align 1, !tbaa !4
  %cmp4.not.i = icmp ult i64 %n.addr.029.i, 10
  br i1 %cmp4.not.i, label %spelled.exit, label %for.body6.i, !llvm.loop !39

spelled.exit:                                     ; preds = %for.body6.i, %for.body.i, %if.then.i
  %retval.0.i = phi ptr [ %add.ptr, %if.then.i ], [ %incdec.ptr.i, %for.body.i ], [ %incdec.ptr10.i, %for.body6.i ]
  %cmp1 = icmp eq i64 %n, 0
  %cmp2 = icmp ne i32 %precision, 0
  %or.cond = and i1 %cmp1, %cmp2
  br i1 %or.cond, label %if.end.thread, label %if.end

if.end.thread:                                    ; preds = %spelled.exit
  %incdec.ptr = getelementptr inbounds i8, ptr %retval.0.i, i32 -1
  store i8 48, ptr %incdec.ptr, align 1, !tbaa !4
  br label %cond.false5

if.end:                                           ; preds = %spelled.exit
  br i1 %cmp, label %cond.end13, label %cond.false5

cond.false5:                                      ; preds = %if.end, %if.end.thread
  %at.027 = phi ptr [ %incdec.ptr, %if.end.thread ], [ %retval.0.i, %if.end ]
  %and = and i32 %flags, 2
  %tobool.not = icmp eq i32 %and, 0
  br i1 %tobool.not, label %cond.false7, label %cond.end13

cond.false7:                                      ; preds = %cond.false5
  %and8 = and i32 %flags, 4
  %tobool9.not = icmp eq i32 %and8, 0
  %cond10 = select i1 %tobool9.not, ptr @.str.10, ptr @.str.4
  br label %cond.end13

cond.end13:                                       ; preds = %cond.false7, %cond.false5, %if.end
  %at.028 = phi ptr [ %retval.0.i, %if.end ], [ %at.027, %cond.false7 ], [ %at.027, %cond.false5 ]
  %cond14 = phi ptr [ @.str.2.11, %if.end ], [ %cond10, %cond.false7 ], [ @.str.3.12, %cond.false5 ]
  %sub.ptr.lhs.cast = ptrtoint ptr %add.ptr to i32
  %sub.ptr.rhs.cast = ptrtoint ptr %at.028 to i32
  %sub.ptr.sub = sub i32 %sub.ptr.lhs.cast, %sub.ptr.rhs.cast
  %call15 = call fastcc i32 @number(ptr noundef %stream, ptr noundef nonnull %cond14, ptr noundef nonnull %at.028, i32 noundef signext %sub.ptr.sub, i32 noundef signext %flags, i32 noundef signext %width, i32 noundef signext %precision) #9
  call void @llvm.lifetime.end.p0(i64 24, ptr nonnull %room) #8
  ret i32 %call15
}

; Function Attrs: nounwind optsize
define internal i32 @__print_unsigned(ptr nocapture noundef %stream, i64 noundef zeroext %n, i32 noundef signext %base, i32 noundef signext %flags, i32 noundef signext %width, i32 noundef signext %precision) local_unnamed_addr #3 {
entry:
  %room = alloca [24 x i8], align 1
  call void @llvm.lifetime.start.p0(i64 24, ptr nonnull %room) #8
  %and.i = and i32 %flags, 32
  %tobool.not.i = icmp eq i32 %and.i, 0
  %cond.i = select i1 %tobool.not.i, ptr @.str.9, ptr @.str.8
  %cmp.i = icmp ult i64 %n, 4294967296
  br i1 %cmp.i, label %if.then.i, label %for.cond3.preheader.i

for.cond3.preheader.i:                            ; preds = %entry
  %conv7.i = zext i32 %base to i64
  br label %for.body6.i

if.then.i:                                        ; preds = %entry
  %conv.i = trunc nuw i64 %n to i32
  %cmp1.not31.i = icmp eq i32 %conv.i, 0
  br i1 %cmp1.not31.i, label %spelled.exit, label %for.body.i

for.body.i:                                       ; preds = %for.body.i, %if.then.i
  %k.033.i = phi i32 [ %div.i, %for.body.i ], [ %conv.i, %if.then.i ]
  %end.addr.032.i.idx = phi i32 [ %end.addr.032.i.add, %for.body.i ], [ 24, %if.then.i ]
  %rem.i = urem i32 %k.033.i, %base
  %arrayidx.i = getelementptr inbounds i8, ptr %cond.i, i32 %rem.i
  %v0 = load i8, ptr %arrayidx.i, align 1, !tbaa !4
  %end.addr.032.i.add = add nsw i32 %end.addr.032.i.idx, -1
  %incdec.ptr.i.ptr = getelementptr inbounds i8, ptr %room, i32 %end.addr.032.i.add
  store i8 %v0, ptr %incdec.ptr.i.ptr, align 1, !tbaa !4
  %div.i = udiv i32 %k.033.i, %base
  %cmp1.not.i = icmp ult i32 %k.033.i, %base
  br i1 %cmp1.not.i, label %spelled.exit, label %for.body.i, !llvm.loop !38

for.body6.i:                                      ; preds = %for.body6.i, %for.cond3.preheader.i
  %end.addr.130.i.idx = phi i32 [ 24, %for.cond3.preheader.i ], [ %end.addr.130.i.add, %for.body6.i ]
  %n.addr.029.i = phi i64 [ %n, %for.cond3.preheader.i ], [ %div13.i, %for.body6.i ]
  %div13.i = udiv i64 %n.addr.029.i, %conv7.i
  %v1 = mul i64 %div13.i, %conv7.i
  %rem8.i.decomposed = sub i64 %n.addr.029.i, %v1
  %idxprom.i = trunc nuw i64 %rem8.i.decomposed to i32
  %arrayidx9.i = getelementptr inbounds i8, ptr %cond.i, i32 %idxprom.i
  %v2 = load i8, ptr %arrayidx9.i, align 1, !tbaa !4
  %end.addr.130.i.add = add nsw i32 %end.addr.130.i.idx, -1
  %incdec.ptr10.i.ptr = getelementptr inbounds i8, ptr %room, i32 %end.addr.130.i.add
  store i8 %v2, ptr %incdec.ptr10.i.ptr, align 1, !tbaa !4
  %cmp4.not.i = icmp ult i64 %n.addr.029.i, %conv7.i
  br i1 %cmp4.not.i, label %spelled.exit, label %for.body6.i, !llvm.loop !39

spelled.exit:                                     ; preds = %for.body6.i, %for.body.i, %if.then.i
  %retval.0.i.idx = phi i32 [ 24, %if.then.i ], [ %end.addr.032.i.add, %for.body.i ], [ %end.addr.130.i.add, %for.body6.i ]
  %cmp = icmp eq i64 %n, 0
  %cmp1 = icmp ne i32 %precision, 0
  %or.cond = and i1 %cmp, %cmp1
  br i1 %or.cond, label %if.then, label %if.end

if.then:                                          ; preds = %spelled.exit
  %retval.0.i.add = add nsw i32 %retval.0.i.idx, -1
  %incdec.ptr.ptr = getelementptr inbounds i8, ptr %room, i32 %retval.0.i.add
  store i8 48, ptr %incdec.ptr.ptr, align 1, !tbaa !4
  br label %if.end

if.end:                                           ; preds = %if.then, %spelled.exit
  %at.0.idx = phi i32 [ %retval.0.i.add, %if.then ], [ %retval.0.i.idx, %spelled.exit ]
  %at.0.ptr = getelementptr inbounds i8, ptr %room, i32 %at.0.idx
  %and = and i32 %flags, 8
  %tobool = icmp ne i32 %and, 0
  %cmp13 = icmp eq i32 %base, 8
  %or.cond29 = and i1 %cmp13, %tobool
  %gepdiff = sub nsw i32 24, %at.0.idx
  %cmp15.not = icmp sge i32 %gepdiff, %precision
  %or.cond49.not = select i1 %or.cond29, i1 %cmp15.not, i1 false
  br i1 %or.cond49.not, label %land.lhs.true16, label %if.end22

land.lhs.true16:                                  ; preds = %if.end
  %cmp17 = icmp eq i32 %at.0.idx, 24
  br i1 %cmp17, label %if.then20, label %lor.lhs.false

lor.lhs.false:                                    ; preds = %land.lhs.true16
  %v3 = load i8, ptr %at.0.ptr, align 1, !tbaa !4
  %cmp18.not = icmp eq i8 %v3, 48
  br i1 %cmp18.not, label %if.end22, label %if.then20

if.then20:                                        ; preds = %lor.lhs.false, %land.lhs.true16
  %incdec.ptr21 = getelementptr inbounds i8, ptr %at.0.ptr, i32 -1
  store i8 48, ptr %incdec.ptr21, align 1, !tbaa !4
  br label %if.end22

if.end22:                                         ; preds = %if.then20, %lor.lhs.false, %if.end
  %at.1 = phi ptr [ %incdec.ptr21, %if.then20 ], [ %at.0.ptr, %lor.lhs.false ], [ %at.0.ptr, %if.end ]
  %add.ptr.ptr = getelementptr inbounds i8, ptr %room, i32 24
  %sub.ptr.lhs.cast = ptrtoint ptr %add.ptr.ptr to i32
  %cmp3 = icmp eq i32 %base, 16
  %cmp5 = icmp ne i64 %n, 0
  %v4 = and i1 %cmp5, %cmp3
  %or.cond28 = and i1 %v4, %tobool
  %cond = select i1 %tobool.not.i, ptr @.str.6, ptr @.str.5
  %front.0 = select i1 %or.cond28, ptr %cond, ptr @.str.10
  %sub.ptr.rhs.cast24 = ptrtoint ptr %at.1 to i32
  %sub.ptr.sub25 = sub i32 %sub.ptr.lhs.cast, %sub.ptr.rhs.cast24
  %call26 = call fastcc i32 @number(ptr noundef %stream, ptr noundef nonnull %front.0, ptr noundef nonnull %at.1, i32 noundef signext %sub.ptr.sub25, i32 noundef signext %flags, i32 noundef signext %width, i32 noundef signext %precision) #9
  call void @llvm.lifetime.end.p0(i64 24, ptr nonnull %room) #8
  ret i32 %call26
}

; Function Attrs: nounwind optsize
define internal fastcc i32 @number(ptr nocapture noundef %stream, ptr noundef %front, ptr nocapture noundef readonly %digits, i32 noundef signext %n, i32 noundef signext %flags, i32 noundef signext %width, i32 noundef signext %precision) unnamed_addr #3 {
entry:
  br label %while.cond.i

while.cond.i:                                     ; preds = %while.cond.i, %entry
  %s.0.i = phi ptr [ %front, %entry ], [ %incdec.ptr.i, %while.cond.i ]
  %v0 = load i8, ptr %s.0.i, align 1, !tbaa !4
  %tobool.not.i = icmp eq i8 %v0, 0
  %incdec.ptr.i = getelementptr inbounds i8, ptr %s.0.i, i32 1
  br i1 %tobool.not.i, label %strlen.exit, label %while.cond.i, !llvm.loop !40

strlen.exit:                                      ; preds = %while.cond.i
  %sub.ptr.lhs.cast.i = ptrtoint ptr %s.0.i to i32
  %sub.ptr.rhs.cast.i = ptrtoint ptr %front to i32
  %sub.ptr.sub.i = sub i32 %sub.ptr.lhs.cast.i, %sub.ptr.rhs.cast.i
  %sub = sub nsw i32 %precision, %n
  %shr.i = lshr i32 %width, 31
  %tobool.i = icmp ne i32 %shr.i, 0
  %sub.i = sub i32 0, %width
  %cond.i1 = select i1 %tobool.i, i32 %sub.i, i32 %width
  %spec.store.select = tail call i32 @llvm.smax.i32(i32 %sub, i32 0)
  %cmp5 = icmp slt i32 %precision, 0
  %and = and i32 %flags, 16
  %tobool.not = icmp ne i32 %and, 0
  %or.cond.not94 = and i1 %tobool.not, %cmp5
  %flags.masked = and i32 %flags, 1
  %and7 = or i32 %shr.i, %flags.masked
  %tobool8.not = icmp eq i32 %and7, 0
  %or.cond65 = and i1 %or.cond.not94, %tobool8.not
  %add = add i32 %sub.ptr.sub.i, %n
  %cmp10 = icmp sgt i32 %cond.i1, %add
  %or.cond66 = select i1 %or.cond65, i1 %cmp10, i1 false
  %sub13 = sub i32 %cond.i1, %add
  %zeros.0 = select i1 %or.cond66, i32 %sub13, i32 %spec.store.select
  %v2 = add i32 %add, %zeros.0
  %sub17 = sub i32 %cond.i1, %v2
  br i1 %tobool8.not, label %if.then20, label %if.end23

if.then20:                                        ; preds = %strlen.exit
  %cmp5.i = icmp sgt i32 %sub17, 0
  br i1 %cmp5.i, label %for.body.i, label %repeated.exit

for.body.i:                                       ; preds = %for.body.i, %if.then20
  %k.06.i = phi i32 [ %inc.i, %for.body.i ], [ 0, %if.then20 ]
  %call.i = tail call i32 @fputc(i32 noundef signext 32, ptr noundef %stream) #9
  %inc.i = add nuw nsw i32 %k.06.i, 1
  %exitcond.not.i = icmp eq i32 %inc.i, %sub17
  br i1 %exitcond.not.i, label %repeated.exit, label %for.body.i, !llvm.loop !41

repeated.exit:                                    ; preds = %for.body.i, %if.then20
  %cond.i = tail call noundef i32 @llvm.smax.i32(i32 %sub17, i32 0)
  br label %if.end23

if.end23:                                         ; preds = %repeated.exit, %strlen.exit
  %count.0 = phi i32 [ 0, %strlen.exit ], [ %cond.i, %repeated.exit ]
  %v3 = load i8, ptr %stream, align 4, !tbaa !28, !alias.scope !42, !noalias !45
  %cmp.i.i = icmp eq i8 %v3, 0
  %cmp210.not.i.i = icmp eq ptr %s.0.i, %front
  %or.cond.i = or i1 %cmp210.not.i.i, %cmp.i.i
  br i1 %or.cond.i, label %__print_text.exit, label %for.body.i.i

for.body.i.i:                                     ; preds = %for.body.i.i, %if.end23
  %k.011.i.i = phi i32 [ %inc.i.i, %for.body.i.i ], [ 0, %if.end23 ]
  %arrayidx.i.i = getelementptr inbounds i8, ptr %front, i32 %k.011.i.i
  %v4 = load i8, ptr %arrayidx.i.i, align 1, !tbaa !4, !alias.scope !45, !noalias !42
  %conv4.i.i = zext i8 %v4 to i32
  %call.i.i = tail call i32 @fputc(i32 noundef signext %conv4.i.i, ptr noundef nonnull %stream) #9, !noalias !45
  %inc.i.i = add nuw i32 %k.011.i.i, 1
  %exitcond.not.i.i = icmp eq i32 %inc.i.i, %sub.ptr.sub.i
  br i1 %exitcond.not.i.i, label %__print_text.exit, label %for.body.i.i, !llvm.loop !37

__print_text.exit:                                ; preds = %for.body.i.i, %if.end23
  %cmp5.i67 = icmp sgt i32 %zeros.0, 0
  br i1 %cmp5.i67, label %for.body.i69, label %repeated.exit74

for.body.i69:                                     ; preds = %for.body.i69, %__print_text.exit
  %k.06.i70 = phi i32 [ %inc.i72, %for.body.i69 ], [ 0, %__print_text.exit ]
  %call.i71 = tail call i32 @fputc(i32 noundef signext 48, ptr noundef nonnull %stream) #9
  %inc.i72 = add nuw nsw i32 %k.06.i70, 1
  %exitcond.not.i73 = icmp eq i32 %inc.i72, %zeros.0
  br i1 %exitcond.not.i73, label %repeated.exit74, label %for.body.i69, !llvm.loop !41

repeated.exit74:                                  ; preds = %for.body.i69, %__print_text.exit
  %cond.i68 = tail call noundef i32 @llvm.smax.i32(i32 %zeros.0, i32 0)
  %v5 = load i8, ptr %stream, align 4, !tbaa !28, !alias.scope !47, !noalias !50
  %cmp.i.i75 = icmp eq i8 %v5, 0
  %cmp210.not.i.i76 = icmp eq i32 %n, 0
  %or.cond.i77 = or i1 %cmp210.not.i.i76, %cmp.i.i75
  br i1 %or.cond.i77, label %__print_text.exit85, label %for.body.i.i78

for.body.i.i78:                                   ; preds = %for.body.i.i78, %repeated.exit74
  %k.011.i.i79 = phi i32 [ %inc.i.i83, %for.body.i.i78 ], [ 0, %repeated.exit74 ]
  %arrayidx.i.i80 = getelementptr inbounds i8, ptr %digits, i32 %k.011.i.i79
  %v6 = load i8, ptr %arrayidx.i.i80, align 1, !tbaa !4, !alias.scope !50, !noalias !47
  %conv4.i.i81 = zext i8 %v6 to i32
  %call.i.i82 = tail call i32 @fputc(i32 noundef signext %conv4.i.i81, ptr noundef nonnull %stream) #9, !noalias !50
  %inc.i.i83 = add nuw i32 %k.011.i.i79, 1
  %exitcond.not.i.i84 = icmp eq i32 %inc.i.i83, %n
  br i1 %exitcond.not.i.i84, label %__print_text.exit85, label %for.body.i.i78, !llvm.loop !37

__print_text.exit85:                              ; preds = %for.body.i.i78, %repeated.exit74
  %add27 = add i32 %add, %cond.i68
  %add29 = add i32 %add27, %count.0
  br i1 %tobool8.not, label %if.end35, label %if.then32

if.then32:                                        ; preds = %__print_text.exit85
  %cmp5.i86 = icmp sgt i32 %sub17, 0
  br i1 %cmp5.i86, label %for.body.i88, label %repeated.exit93

for.body.i88:                                     ; preds = %for.body.i88, %if.then32
  %k.06.i89 = phi i32 [ %inc.i91, %for.body.i88 ], [ 0, %if.then32 ]
  %call.i90 = tail call i32 @fputc(i32 noundef signext 32, ptr noundef nonnull %stream) #9
  %inc.i91 = add nuw nsw i32 %k.06.i89, 1
  %exitcond.not.i92 = icmp eq i32 %inc.i91, %sub17
  br i1 %exitcond.not.i92, label %repeated.exit93, label %for.body.i88, !llvm.loop !41

repeated.exit93:                                  ; preds = %for.body.i88, %if.then32
  %cond.i87 = tail call noundef i32 @llvm.smax.i32(i32 %sub17, i32 0)
  %add34 = add nsw i32 %add29, %cond.i87
  br label %if.end35

if.end35:                                         ; preds = %repeated.exit93, %__print_text.exit85
  %count.1 = phi i32 [ %add34, %repeated.exit93 ], [ %add29, %__print_text.exit85 ]
  ret i32 %count.1
}

; Function Attrs: nocallback nofree nosync nounwind speculatable willreturn memory(none)
declare i32 @llvm.smax.i32(i32, i32) #6

; Function Attrs: nounwind optsize
define internal range(i32 -1, 256) i32 @fputc(i32 noundef signext %c, ptr nocapture noundef %stream) local_unnamed_addr #3 {
entry:
  %v0 = load i8, ptr %stream, align 4, !tbaa !28
  switch i8 %v0, label %if.end18 [
    i8 1, label %if.then
    i8 3, label %land.lhs.true
    i8 0, label %return
  ]

if.then:                                          ; preds = %entry
  %call = tail call i32 @putchar(i32 noundef signext %c) #10
  br label %if.end18

land.lhs.true:                                    ; preds = %entry
  %left = getelementptr inbounds i8, ptr %stream, i32 8
  %v1 = load i32, ptr %left, align 4, !tbaa !52
  %cmp6.not = icmp eq i32 %v1, 0
  br i1 %cmp6.not, label %if.end18, label %if.then8

if.then8:                                         ; preds = %land.lhs.true
  %conv9 = trunc i32 %c to i8
  %at = getelementptr inbounds i8, ptr %stream, i32 4
  %v2 = load ptr, ptr %at, align 4, !tbaa !53
  %incdec.ptr = getelementptr inbounds i8, ptr %v2, i32 1
  store ptr %incdec.ptr, ptr %at, align 4, !tbaa !53
  store i8 %conv9, ptr %v2, align 1, !tbaa !4
  %v3 = load i32, ptr %left, align 4, !tbaa !52
  %dec = add i32 %v3, -1
  store i32 %dec, ptr %left, align 4, !tbaa !52
  br label %if.end18

if.end18:                                         ; preds = %if.then8, %land.lhs.true, %if.then, %entry
  %conv20 = and i32 %c, 255
  br label %return

return:                                           ; preds = %if.end18, %entry
  %retval.0 = phi i32 [ %conv20, %if.end18 ], [ -1, %entry ]
  ret i32 %retval.0
}

; Function Attrs: optsize
declare dso_local i32 @putchar(i32 noundef signext) local_unnamed_addr #7

; Function Attrs: nounwind optsize
define internal noundef i32 @fwrite(ptr noalias nocapture noundef readonly %from, i32 noundef signext %size, i32 noundef signext %count, ptr noalias nocapture noundef %stream) local_unnamed_addr #3 {
entry:
  %v0 = load i8, ptr %stream, align 4, !tbaa !28
  %cmp = icmp eq i8 %v0, 0
  br i1 %cmp, label %cleanup, label %for.cond.preheader

for.cond.preheader:                               ; preds = %entry
  %mul = mul i32 %count, %size
  %cmp210.not = icmp eq i32 %mul, 0
  br i1 %cmp210.not, label %for.cond.cleanup, label %for.body

for.cond.cleanup:                                 ; preds = %for.body, %for.cond.preheader
  %tobool.not = icmp eq i32 %size, 0
  %cond = select i1 %tobool.not, i32 0, i32 %count
  br label %cleanup

for.body:                                         ; preds = %for.body, %for.cond.preheader
  %k.011 = phi i32 [ %inc, %for.body ], [ 0, %for.cond.preheader ]
  %arrayidx = getelementptr inbounds i8, ptr %from, i32 %k.011
  %v1 = load i8, ptr %arrayidx, align 1, !tbaa !4
  %conv4 = zext i8 %v1 to i32
  %call = tail call i32 @fputc(i32 noundef signext %conv4, ptr noundef nonnull %stream) #9
  %inc = add nuw i32 %k.011, 1
  %exitcond.not = icmp eq i32 %inc, %mul
  br i1 %exitcond.not, label %for.cond.cleanup, label %for.body, !llvm.loop !37

cleanup:                                          ; preds = %for.cond.cleanup, %entry
  %retval.0 = phi i32 [ %cond, %for.cond.cleanup ], [ 0, %entry ]
  ret i32 %retval.0
}

; Function Attrs: nounwind optsize
define internal i32 @fgetc(ptr nocapture noundef %stream) local_unnamed_addr #3 {
entry:
  %v0 = load i8, ptr %stream, align 4, !tbaa !28
  %cmp.not = icmp eq i8 %v0, 0
  br i1 %cmp.not, label %if.end, label %return

if.end:                                           ; preds = %entry
  %waiting = getelementptr inbounds i8, ptr %stream, i32 2
  %v1 = load i8, ptr %waiting, align 2, !tbaa !54
  %tobool.not = icmp eq i8 %v1, 0
  br i1 %tobool.not, label %if.end5, label %if.then2

if.then2:                                         ; preds = %if.end
  store i8 0, ptr %waiting, align 2, !tbaa !54
  %pushed = getelementptr inbounds i8, ptr %stream, i32 3
  %v2 = load i8, ptr %pushed, align 1, !tbaa !55
  %conv4 = zext i8 %v2 to i32
  br label %return

if.end5:                                          ; preds = %if.end
  %ended = getelementptr inbounds i8, ptr %stream, i32 1
  %v3 = load i8, ptr %ended, align 1, !tbaa !56
  %tobool6.not = icmp eq i8 %v3, 0
  br i1 %tobool6.not, label %if.end8, label %return

if.end8:                                          ; preds = %if.end5
  %call = tail call i32 @getchar() #10
  %cmp9 = icmp eq i32 %call, -1
  br i1 %cmp9, label %if.then11, label %return

if.then11:                                        ; preds = %if.end8
  store i8 1, ptr %ended, align 1, !tbaa !56
  br label %return

return:                                           ; preds = %if.then11, %if.end8, %if.end5, %if.then2, %entry
  %retval.0 = phi i32 [ %conv4, %if.then2 ], [ -1, %entry ], [ -1, %if.end5 ], [ -1, %if.then11 ], [ %call, %if.end8 ]
  ret i32 %retval.0
}

; Function Attrs: optsize
declare dso_local i32 @getchar() local_unnamed_addr #7

attributes #0 = { nounwind "no-jump-tables"="true" "no-trapping-math"="true" "stack-protector-buffer-size"="8" "target-cpu"="mips32r2" "target-features"="+fpxx,+mips32r2,+nooddspreg,-noabicalls" }
attributes #1 = { nocallback nofree nosync nounwind willreturn memory(argmem: readwrite) }
attributes #2 = { nocallback nofree nounwind willreturn memory(argmem: write) }
attributes #3 = { nounwind optsize "no-builtins" "no-jump-tables"="true" "no-trapping-math"="true" "stack-protector-buffer-size"="8" "target-cpu"="mips32r2" "target-features"="+fpxx,+mips32r2,+nooddspreg,-noabicalls" }
attributes #4 = { nofree nounwind "no-trapping-math"="true" "stack-protector-buffer-size"="8" "target-cpu"="mips32r2" "target-features"="+fpxx,+mips32r2,+nooddspreg,-noabicalls" }
attributes #5 = { nounwind "no-trapping-math"="true" "stack-protector-buffer-size"="8" "target-cpu"="mips32r2" "target-features"="+fpxx,+mips32r2,+nooddspreg,-noabicalls" }
attributes #6 = { nocallback nofree nosync nounwind speculatable willreturn memory(none) }
attributes #7 = { optsize "no-builtins" "no-trapping-math"="true" "stack-protector-buffer-size"="8" "target-cpu"="mips32r2" "target-features"="+fpxx,+mips32r2,+nooddspreg,-noabicalls" }
attributes #8 = { nounwind }
attributes #9 = { nobuiltin optsize "no-builtins" }
attributes #10 = { nobuiltin nounwind optsize "no-builtins" }

!llvm.ident = !{!0, !0, !0}
!llvm.module.flags = !{!1, !2, !3}

!0 = !{!"Debian clang version 19.1.7 (3~deb12u1)"}
!1 = !{i32 7, !"Dwarf Version", i32 5}
!2 = !{i32 2, !"Debug Info Version", i32 3}
!3 = !{i32 1, !"wchar_size", i32 4}
!4 = !{!5, !5, i64 0}
!5 = !{!"omnipotent char", !6, i64 0}
!6 = !{!"Simple C/C++ TBAA"}
!7 = distinct !{!7, !8, !9}
!8 = !{!"llvm.loop.mustprogress"}
!9 = !{!"llvm.loop.unroll.disable"}
!10 = distinct !{!10, !8, !9}
!11 = !{!12, !12, i64 0}
!12 = !{!"long long", !5, i64 0}
!13 = distinct !{!13, !8, !9}
!14 = distinct !{!14, !8, !9}
!15 = distinct !{!15, !8, !9}
!16 = distinct !{!16, !8, !9}
!17 = distinct !{!17, !8, !9}
!18 = distinct !{!18, !8, !9}
!19 = distinct !{!19, !8, !9}
!20 = distinct !{!20, !8, !9}
!21 = distinct !{!21, !8, !9}
!22 = distinct !{!22, !8}
!23 = distinct !{!23, !8, !9}
!24 = distinct !{!24, !8, !9}
!25 = distinct !{!25, !8, !9}
!26 = distinct !{!26, !8, !9}
!27 = distinct !{!27, !8, !9}
!28 = !{!29, !5, i64 0}
!29 = !{!"__stream", !5, i64 0, !5, i64 1, !5, i64 2, !5, i64 3, !30, i64 4, !31, i64 8}
!30 = !{!"any pointer", !5, i64 0}
!31 = !{!"int", !5, i64 0}
!32 = !{!33}
!33 = distinct !{!33, !34, !"fwrite: %stream"}
!34 = distinct !{!34, !"fwrite"}
!35 = !{!36}
!36 = distinct !{!36, !34, !"fwrite: %from"}
!37 = distinct !{!37, !8}
!38 = distinct !{!38, !8}
!39 = distinct !{!39, !8}
!40 = distinct !{!40, !8}
!41 = distinct !{!41, !8}
!42 = !{!43}
!43 = distinct !{!43, !44, !"fwrite: %stream"}
!44 = distinct !{!44, !"fwrite"}
!45 = !{!46}
!46 = distinct !{!46, !44, !"fwrite: %from"}
!47 = !{!48}
!48 = distinct !{!48, !49, !"fwrite: %stream"}
!49 = distinct !{!49, !"fwrite"}
!50 = !{!51}
!51 = distinct !{!51, !49, !"fwrite: %from"}
!52 = !{!29, !31, i64 8}
!53 = !{!29, !30, i64 4}
!54 = !{!29, !5, i64 2}
!55 = !{!29, !5, i64 3}
!56 = !{!29, !5, i64 1}
