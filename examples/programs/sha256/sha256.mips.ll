source_filename = "sha256.c"
target datalayout = "E-m:m-p:32:32-i8:8:32-i16:16:32-i64:64-n32-S64"
target triple = "mips-unknown-linux-gnu"

%struct.__stream = type { i8, i8, i8, i8, ptr, i32 }
%struct.sha256 = type { [8 x i32], i64, [64 x i8], i32 }

@main.text = internal global [8192 x i8] zeroinitializer, align 1
@main.line = internal global [256 x i8] zeroinitializer, align 1
@.str = private unnamed_addr constant [2 x i8] c"\0A\00", align 1
@.str.1 = private unnamed_addr constant [6 x i8] c"(all)\00", align 1
@.str.2 = private unnamed_addr constant [4 x i8] c"key\00", align 1
@.str.3 = private unnamed_addr constant [19 x i8] c"(all, under a key)\00", align 1
@begin.first = internal unnamed_addr constant [8 x i32] [i32 1779033703, i32 -1150833019, i32 1013904242, i32 -1521486534, i32 1359893119, i32 -1694144372, i32 528734635, i32 1541459225], align 4
@constants = internal unnamed_addr constant [64 x i32] [i32 1116352408, i32 1899447441, i32 -1245643825, i32 -373957723, i32 961987163, i32 1508970993, i32 -1841331548, i32 -1424204075, i32 -670586216, i32 310598401, i32 607225278, i32 1426881987, i32 1925078388, i32 -2132889090, i32 -1680079193, i32 -1046744716, i32 -459576895, i32 -272742522, i32 264347078, i32 604807628, i32 770255983, i32 1249150122, i32 1555081692, i32 1996064986, i32 -1740746414, i32 -1473132947, i32 -1341970488, i32 -1084653625, i32 -958395405, i32 -710438585, i32 113926993, i32 338241895, i32 666307205, i32 773529912, i32 1294757372, i32 1396182291, i32 1695183700, i32 1986661051, i32 -2117940946, i32 -1838011259, i32 -1564481375, i32 -1474664885, i32 -1035236496, i32 -949202525, i32 -778901479, i32 -694614492, i32 -200395387, i32 275423344, i32 430227734, i32 506948616, i32 659060556, i32 883997877, i32 958139571, i32 1322822218, i32 1537002063, i32 1747873779, i32 1955562222, i32 2024104815, i32 -2067236844, i32 -1933114872, i32 -1866530822, i32 -1538233109, i32 -1090935817, i32 -965641998], align 4
@.str.4 = private unnamed_addr constant [2 x i8] c"\80\00", align 1
@.str.5 = private unnamed_addr constant [1 x i8] zeroinitializer, align 1
@.str.7 = private unnamed_addr constant [6 x i8] c"  %s\0A\00", align 1
@.str.8 = private unnamed_addr constant [1 x i8] zeroinitializer, align 1
@.str.1.9 = private unnamed_addr constant [7 x i8] c"(null)\00", align 1
@.str.5.15 = private unnamed_addr constant [3 x i8] c"0X\00", align 1
@.str.6 = private unnamed_addr constant [3 x i8] c"0x\00", align 1
@__streams = internal global [3 x %struct.__stream] [%struct.__stream zeroinitializer, %struct.__stream { i8 1, i8 0, i8 0, i8 0, ptr null, i32 0 }, %struct.__stream { i8 2, i8 0, i8 0, i8 0, ptr null, i32 0 }], align 4
@.str.8.14 = private unnamed_addr constant [17 x i8] c"0123456789ABCDEF\00", align 1
@.str.9 = private unnamed_addr constant [17 x i8] c"0123456789abcdef\00", align 1

; Function Attrs: nounwind
define dso_local range(i32 0, 256) i32 @main() local_unnamed_addr #0 {
entry:
  %inner.i = alloca [64 x i8], align 1
  %outer.i = alloca [64 x i8], align 1
  %it.i21 = alloca %struct.sha256, align 8
  %it.i7 = alloca %struct.sha256, align 8
  %it.i = alloca %struct.sha256, align 8
  %digest = alloca [32 x i8], align 4
  call void @llvm.lifetime.start.p0(i64 32, ptr nonnull %digest) #10
  %length.i.i = getelementptr inbounds i8, ptr %it.i, i32 32
  %used.i.i = getelementptr inbounds i8, ptr %it.i, i32 104
  br label %while.cond

while.cond:                                       ; preds = %cleanup, %entry
  %n.0 = phi i32 [ 0, %entry ], [ %n.1, %cleanup ]
  %retval.0 = phi i32 [ 0, %entry ], [ %retval.1, %cleanup ]
  %call = tail call ptr @fgets(ptr noundef nonnull @main.line, i32 noundef signext 256, ptr noundef nonnull @__streams)
  %tobool.not = icmp eq ptr %call, null
  br i1 %tobool.not, label %while.end, label %while.body

while.body:                                       ; preds = %while.cond
  %call1 = tail call i32 @strlen(ptr noundef nonnull dereferenceable(1) @main.line) #10
  %add = add i32 %call1, %n.0
  %cmp = icmp ult i32 %add, 8193
  br i1 %cmp, label %if.end, label %cleanup

if.end:                                           ; preds = %while.body
  %add.ptr = getelementptr inbounds i8, ptr @main.text, i32 %n.0
  tail call void @llvm.memcpy.p0.p0.i32(ptr nonnull align 1 %add.ptr, ptr nonnull align 1 @main.line, i32 %call1, i1 false)
  %call3 = tail call i32 @strcspn(ptr noundef nonnull @main.line, ptr noundef nonnull @.str)
  %arrayidx = getelementptr inbounds [256 x i8], ptr @main.line, i32 0, i32 %call3
  store i8 0, ptr %arrayidx, align 1, !tbaa !4
  %call4 = tail call i32 @strlen(ptr noundef nonnull dereferenceable(1) @main.line) #10
  call void @llvm.lifetime.start.p0(i64 112, ptr nonnull %it.i) #10
  call void @llvm.memcpy.p0.p0.i32(ptr noundef nonnull align 8 dereferenceable(32) %it.i, ptr noundef nonnull align 4 dereferenceable(32) @begin.first, i32 32, i1 false)
  store i64 0, ptr %length.i.i, align 8, !tbaa !7
  store i32 0, ptr %used.i.i, align 8, !tbaa !11
  call fastcc void @add(ptr noundef nonnull %it.i, ptr noundef nonnull readonly @main.line, i32 noundef signext %call4)
  call fastcc void @end(ptr noundef nonnull %it.i, ptr noundef nonnull %digest)
  call void @llvm.lifetime.end.p0(i64 112, ptr nonnull %it.i) #10
  br label %for.body.i

for.body.i:                                       ; preds = %for.body.i, %if.end
  %k.03.i = phi i32 [ 0, %if.end ], [ %inc.i, %for.body.i ]
  %arrayidx.i = getelementptr inbounds i8, ptr %digest, i32 %k.03.i
  %v0 = load i8, ptr %arrayidx.i, align 1, !tbaa !4
  %print.172.0.i = zext i8 %v0 to i64
  %print.172.1.i = tail call i32 @__print_unsigned(ptr nonnull getelementptr inbounds (i8, ptr @__streams, i32 12), i64 %print.172.0.i, i32 16, i32 16, i32 2, i32 -1) #10
  %inc.i = add nuw nsw i32 %k.03.i, 1
  %exitcond.not.i = icmp eq i32 %inc.i, 32
  br i1 %exitcond.not.i, label %show.exit, label %for.body.i, !llvm.loop !12

show.exit:                                        ; preds = %for.body.i
  %print.183.0.i = tail call i32 @__print_text(ptr nonnull getelementptr inbounds (i8, ptr @__streams, i32 12), ptr nonnull @.str.7, i32 2) #10
  %print.183.1.i = tail call i32 @__print_string(ptr nonnull getelementptr inbounds (i8, ptr @__streams, i32 12), ptr nonnull @main.line, i32 0, i32 0, i32 -1) #10
  %print.183.2.i = tail call i32 @__print_text(ptr nonnull getelementptr inbounds (i8, ptr @__streams, i32 12), ptr nonnull getelementptr inbounds (i8, ptr @.str.7, i32 4), i32 1) #10
  br label %cleanup

cleanup:                                          ; preds = %show.exit, %while.body
  %n.1 = phi i32 [ %add, %show.exit ], [ %n.0, %while.body ]
  %retval.1 = phi i32 [ %retval.0, %show.exit ], [ 1, %while.body ]
  br i1 %cmp, label %while.cond, label %cleanup11, !llvm.loop !15

while.end:                                        ; preds = %while.cond
  call void @llvm.lifetime.start.p0(i64 112, ptr nonnull %it.i7) #10
  call void @llvm.memcpy.p0.p0.i32(ptr noundef nonnull align 8 dereferenceable(32) %it.i7, ptr noundef nonnull align 4 dereferenceable(32) @begin.first, i32 32, i1 false)
  %length.i.i8 = getelementptr inbounds i8, ptr %it.i7, i32 32
  store i64 0, ptr %length.i.i8, align 8, !tbaa !7
  %used.i.i9 = getelementptr inbounds i8, ptr %it.i7, i32 104
  store i32 0, ptr %used.i.i9, align 8, !tbaa !11
  call fastcc void @add(ptr noundef nonnull %it.i7, ptr noundef nonnull readonly @main.text, i32 noundef signext %n.0)
  call fastcc void @end(ptr noundef nonnull %it.i7, ptr noundef nonnull %digest)
  call void @llvm.lifetime.end.p0(i64 112, ptr nonnull %it.i7) #10
  br label %for.body.i10

for.body.i10:                                     ; preds = %for.body.i10, %while.end
  %k.03.i11 = phi i32 [ 0, %while.end ], [ %inc.i15, %for.body.i10 ]
  %arrayidx.i12 = getelementptr inbounds i8, ptr %digest, i32 %k.03.i11
  %v1 = load i8, ptr %arrayidx.i12, align 1, !tbaa !4
  %print.172.0.i13 = zext i8 %v1 to i64
  %print.172.1.i14 = tail call i32 @__print_unsigned(ptr nonnull getelementptr inbounds (i8, ptr @__streams, i32 12), i64 %print.172.0.i13, i32 16, i32 16, i32 2, i32 -1) #10
  %inc.i15 = add nuw nsw i32 %k.03.i11, 1
  %exitcond.not.i16 = icmp eq i32 %inc.i15, 32
  br i1 %exitcond.not.i16, label %show.exit20, label %for.body.i10, !llvm.loop !16

show.exit20:                                      ; preds = %for.body.i10
  %print.183.0.i17 = tail call i32 @__print_text(ptr nonnull getelementptr inbounds (i8, ptr @__streams, i32 12), ptr nonnull @.str.7, i32 2) #10
  %print.183.1.i18 = tail call i32 @__print_string(ptr nonnull getelementptr inbounds (i8, ptr @__streams, i32 12), ptr nonnull @.str.1, i32 0, i32 0, i32 -1) #10
  %print.183.2.i19 = tail call i32 @__print_text(ptr nonnull getelementptr inbounds (i8, ptr @__streams, i32 12), ptr nonnull getelementptr inbounds (i8, ptr @.str.7, i32 4), i32 1) #10
  call void @llvm.lifetime.start.p0(i64 64, ptr nonnull %inner.i) #10
  call void @llvm.lifetime.start.p0(i64 64, ptr nonnull %outer.i) #10
  call void @llvm.lifetime.start.p0(i64 112, ptr nonnull %it.i21) #10
  %v2 = getelementptr inbounds i8, ptr %inner.i, i32 3
  call void @llvm.memset.p0.i32(ptr noundef nonnull align 1 dereferenceable(61) %v2, i8 0, i32 61, i1 false)
  call void @llvm.memcpy.p0.p0.i32(ptr noundef nonnull align 1 dereferenceable(3) %inner.i, ptr noundef nonnull align 1 dereferenceable(3) @.str.2, i32 3, i1 false)
  %v3 = getelementptr inbounds i8, ptr %outer.i, i32 3
  call void @llvm.memset.p0.i32(ptr noundef nonnull align 1 dereferenceable(61) %v3, i8 0, i32 61, i1 false)
  call void @llvm.memcpy.p0.p0.i32(ptr noundef nonnull align 1 dereferenceable(3) %outer.i, ptr noundef nonnull align 1 dereferenceable(3) @.str.2, i32 3, i1 false)
  br label %for.body.i22

for.body.i22:                                     ; preds = %for.body.i22, %show.exit20
  %k.011.i = phi i32 [ 0, %show.exit20 ], [ %inc.i24, %for.body.i22 ]
  %arrayidx.i23 = getelementptr inbounds [64 x i8], ptr %inner.i, i32 0, i32 %k.011.i
  %v4 = load i8, ptr %arrayidx.i23, align 1, !tbaa !4
  %v5 = xor i8 %v4, 54
  store i8 %v5, ptr %arrayidx.i23, align 1, !tbaa !4
  %arrayidx4.i = getelementptr inbounds [64 x i8], ptr %outer.i, i32 0, i32 %k.011.i
  %v6 = load i8, ptr %arrayidx4.i, align 1, !tbaa !4
  %v7 = xor i8 %v6, 92
  store i8 %v7, ptr %arrayidx4.i, align 1, !tbaa !4
  %inc.i24 = add nuw nsw i32 %k.011.i, 1
  %exitcond.not.i25 = icmp eq i32 %inc.i24, 64
  br i1 %exitcond.not.i25, label %code_of.exit, label %for.body.i22, !llvm.loop !17

code_of.exit:                                     ; preds = %for.body.i22
  call void @llvm.memcpy.p0.p0.i32(ptr noundef nonnull align 8 dereferenceable(32) %it.i21, ptr noundef nonnull align 4 dereferenceable(32) @begin.first, i32 32, i1 false)
  %length.i.i26 = getelementptr inbounds i8, ptr %it.i21, i32 32
  store i64 0, ptr %length.i.i26, align 8, !tbaa !7
  %used.i.i27 = getelementptr inbounds i8, ptr %it.i21, i32 104
  store i32 0, ptr %used.i.i27, align 8, !tbaa !11
  call fastcc void @add(ptr noundef nonnull %it.i21, ptr noundef nonnull %inner.i, i32 noundef signext 64)
  call fastcc void @add(ptr noundef nonnull %it.i21, ptr noundef nonnull @main.text, i32 noundef signext %n.0)
  call fastcc void @end(ptr noundef nonnull %it.i21, ptr noundef nonnull %digest)
  call void @llvm.memcpy.p0.p0.i32(ptr noundef nonnull align 8 dereferenceable(32) %it.i21, ptr noundef nonnull align 4 dereferenceable(32) @begin.first, i32 32, i1 false)
  store i64 0, ptr %length.i.i26, align 8, !tbaa !7
  store i32 0, ptr %used.i.i27, align 8, !tbaa !11
  call fastcc void @add(ptr noundef nonnull %it.i21, ptr noundef nonnull %outer.i, i32 noundef signext 64)
  call fastcc void @add(ptr noundef nonnull %it.i21, ptr noundef nonnull %digest, i32 noundef signext 32)
  call fastcc void @end(ptr noundef nonnull %it.i21, ptr noundef nonnull %digest)
  call void @llvm.lifetime.end.p0(i64 112, ptr nonnull %it.i21) #10
  call void @llvm.lifetime.end.p0(i64 64, ptr nonnull %outer.i) #10
  call void @llvm.lifetime.end.p0(i64 64, ptr nonnull %inner.i) #10
  br label %for.body.i28

for.body.i28:                                     ; preds = %for.body.i28, %code_of.exit
  %k.03.i29 = phi i32 [ 0, %code_of.exit ], [ %inc.i33, %for.body.i28 ]
  %arrayidx.i30 = getelementptr inbounds i8, ptr %digest, i32 %k.03.i29
  %v8 = load i8, ptr %arrayidx.i30, align 1, !tbaa !4
  %print.172.0.i31 = zext i8 %v8 to i64
  %print.172.1.i32 = tail call i32 @__print_unsigned(ptr nonnull getelementptr inbounds (i8, ptr @__streams, i32 12), i64 %print.172.0.i31, i32 16, i32 16, i32 2, i32 -1) #10
  %inc.i33 = add nuw nsw i32 %k.03.i29, 1
  %exitcond.not.i34 = icmp eq i32 %inc.i33, 32
  br i1 %exitcond.not.i34, label %show.exit38, label %for.body.i28, !llvm.loop !18

show.exit38:                                      ; preds = %for.body.i28
  %print.183.0.i35 = tail call i32 @__print_text(ptr nonnull getelementptr inbounds (i8, ptr @__streams, i32 12), ptr nonnull @.str.7, i32 2) #10
  %print.183.1.i36 = tail call i32 @__print_string(ptr nonnull getelementptr inbounds (i8, ptr @__streams, i32 12), ptr nonnull @.str.3, i32 0, i32 0, i32 -1) #10
  %print.183.2.i37 = tail call i32 @__print_text(ptr nonnull getelementptr inbounds (i8, ptr @__streams, i32 12), ptr nonnull getelementptr inbounds (i8, ptr @.str.7, i32 4), i32 1) #10
  %v9 = load i8, ptr %digest, align 4, !tbaa !4
  %conv = zext i8 %v9 to i32
  br label %cleanup11

cleanup11:                                        ; preds = %show.exit38, %cleanup
  %retval.2 = phi i32 [ %conv, %show.exit38 ], [ %retval.1, %cleanup ]
  call void @llvm.lifetime.end.p0(i64 32, ptr nonnull %digest) #10
  ret i32 %retval.2
}

; Function Attrs: nocallback nofree nosync nounwind willreturn memory(argmem: readwrite)
declare void @llvm.lifetime.start.p0(i64 immarg, ptr nocapture) #1

; Function Attrs: nounwind optsize
define internal noundef ptr @fgets(ptr noalias noundef writeonly %to, i32 noundef signext %n, ptr noalias nocapture noundef %stream) local_unnamed_addr #2 {
entry:
  %cmp = icmp slt i32 %n, 1
  br i1 %cmp, label %cleanup, label %while.cond.preheader

while.cond.preheader:                             ; preds = %entry
  %cmp123.not = icmp eq i32 %n, 1
  br i1 %cmp123.not, label %if.end10, label %land.rhs

land.rhs:                                         ; preds = %while.body, %while.cond.preheader
  %dec25.in = phi i32 [ %dec25, %while.body ], [ %n, %while.cond.preheader ]
  %at.024 = phi ptr [ %incdec.ptr, %while.body ], [ %to, %while.cond.preheader ]
  %call = tail call i32 @fgetc(ptr noundef %stream) #11
  %cmp3.not = icmp eq i32 %call, -1
  br i1 %cmp3.not, label %while.end, label %while.body

while.body:                                       ; preds = %land.rhs
  %dec25 = add nsw i32 %dec25.in, -1
  %conv = trunc i32 %call to i8
  %incdec.ptr = getelementptr inbounds i8, ptr %at.024, i32 1
  store i8 %conv, ptr %at.024, align 1, !tbaa !4
  %cmp1 = icmp sgt i32 %dec25.in, 2
  %cmp2 = icmp ne i32 %call, 10
  %or.cond = and i1 %cmp1, %cmp2
  br i1 %or.cond, label %land.rhs, label %if.end10, !llvm.loop !19

while.end:                                        ; preds = %land.rhs
  %cmp7 = icmp eq ptr %at.024, %to
  br i1 %cmp7, label %cleanup, label %if.end10

if.end10:                                         ; preds = %while.end, %while.body, %while.cond.preheader
  %at.021 = phi ptr [ %at.024, %while.end ], [ %to, %while.cond.preheader ], [ %incdec.ptr, %while.body ]
  store i8 0, ptr %at.021, align 1, !tbaa !4
  br label %cleanup

cleanup:                                          ; preds = %if.end10, %while.end, %entry
  %retval.0 = phi ptr [ %to, %if.end10 ], [ null, %entry ], [ null, %while.end ]
  ret ptr %retval.0
}

; Function Attrs: nofree norecurse nosync nounwind optsize memory(read, inaccessiblemem: none)
define internal noundef i32 @strlen(ptr noundef %at) local_unnamed_addr #3 {
entry:
  br label %while.cond

while.cond:                                       ; preds = %while.cond, %entry
  %s.0 = phi ptr [ %at, %entry ], [ %incdec.ptr, %while.cond ]
  %v0 = load i8, ptr %s.0, align 1, !tbaa !4
  %tobool.not = icmp eq i8 %v0, 0
  %incdec.ptr = getelementptr inbounds i8, ptr %s.0, i32 1
  br i1 %tobool.not, label %while.end, label %while.cond, !llvm.loop !20

while.end:                                        ; preds = %while.cond
  %sub.ptr.lhs.cast = ptrtoint ptr %s.0 to i32
  %sub.ptr.rhs.cast = ptrtoint ptr %at to i32
  %sub.ptr.sub = sub i32 %sub.ptr.lhs.cast, %sub.ptr.rhs.cast
  ret i32 %sub.ptr.sub
}

; Function Attrs: nocallback nofree nounwind willreturn memory(argmem: readwrite)
declare void @llvm.memcpy.p0.p0.i32(ptr noalias nocapture writeonly, ptr noalias nocapture readonly, i32, i1 immarg) #4

; Function Attrs: nofree norecurse nosync nounwind optsize memory(read, inaccessiblemem: none)
define internal i32 @strcspn(ptr nocapture noundef readonly %at, ptr nocapture noundef readonly %stops) local_unnamed_addr #3 {
entry:
  %call = tail call fastcc i32 @span(ptr noundef %at, ptr noundef %stops, i32 noundef signext 0) #11
  ret i32 %call
}

; Function Attrs: nofree norecurse nosync nounwind memory(readwrite, inaccessiblemem: none)
define internal fastcc void @add(ptr nocapture noundef %it, ptr nocapture noundef readonly %from, i32 noundef signext %n) unnamed_addr #5 {
entry:
  %w.i = alloca [64 x i32], align 4
  %s.i = alloca [8 x i32], align 4
  %conv = zext i32 %n to i64
  %length = getelementptr inbounds i8, ptr %it, i32 32
  %v0 = load i64, ptr %length, align 8, !tbaa !7
  %add = add i64 %v0, %conv
  store i64 %add, ptr %length, align 8, !tbaa !7
  %cmp.not18 = icmp eq i32 %n, 0
  br i1 %cmp.not18, label %while.end, label %while.body.lr.ph

while.body.lr.ph:                                 ; preds = %entry
  %used = getelementptr inbounds i8, ptr %it, i32 104
  %block = getelementptr inbounds i8, ptr %it, i32 40
  %arrayidx32.i = getelementptr inbounds i8, ptr %s.i, i32 16
  %arrayidx33.i = getelementptr inbounds i8, ptr %s.i, i32 20
  %arrayidx35.i = getelementptr inbounds i8, ptr %s.i, i32 24
  %arrayidx39.i = getelementptr inbounds i8, ptr %s.i, i32 4
  %arrayidx42.i = getelementptr inbounds i8, ptr %s.i, i32 8
  %arrayidx49.i = getelementptr inbounds i8, ptr %s.i, i32 28
  br label %while.body

while.body:                                       ; preds = %if.end, %while.body.lr.ph
  %n.addr.020 = phi i32 [ %n, %while.body.lr.ph ], [ %sub10, %if.end ]
  %at.019 = phi ptr [ %from, %while.body.lr.ph ], [ %add.ptr9, %if.end ]
  %v1 = load i32, ptr %used, align 8, !tbaa !11
  %sub = sub i32 64, %v1
  %sub.n.addr.0 = tail call i32 @llvm.umin.i32(i32 %sub, i32 %n.addr.020)
  %add.ptr = getelementptr inbounds i8, ptr %block, i32 %v1
  tail call void @llvm.memcpy.p0.p0.i32(ptr nonnull align 1 %add.ptr, ptr align 1 %at.019, i32 %sub.n.addr.0, i1 false)
  %v2 = load i32, ptr %used, align 8, !tbaa !11
  %add8 = add i32 %v2, %sub.n.addr.0
  store i32 %add8, ptr %used, align 8, !tbaa !11
  %add.ptr9 = getelementptr inbounds i8, ptr %at.019, i32 %sub.n.addr.0
  %sub10 = sub i32 %n.addr.020, %sub.n.addr.0
  %cmp12 = icmp eq i32 %add8, 64
  br i1 %cmp12, label %if.then, label %if.end

if.then:                                          ; preds = %while.body
  call void @llvm.lifetime.start.p0(i64 256, ptr nonnull %w.i) #10
  call void @llvm.lifetime.start.p0(i64 32, ptr nonnull %s.i) #10
  br label %for.body.i

for.body.i:                                       ; preds = %for.body.i, %if.then
  %k.052.i = phi i32 [ 0, %if.then ], [ %inc.i, %for.body.i ]
  %mul.i = shl nuw nsw i32 %k.052.i, 2
  %add.ptr.i = getelementptr inbounds i8, ptr %block, i32 %mul.i
  %v3 = load i8, ptr %add.ptr.i, align 1, !tbaa !4
  %conv.i.i = zext i8 %v3 to i32
  %shl.i.i = shl nuw i32 %conv.i.i, 24
  %arrayidx1.i.i = getelementptr inbounds i8, ptr %add.ptr.i, i32 1
  %v4 = load i8, ptr %arrayidx1.i.i, align 1, !tbaa !4
  %conv2.i.i = zext i8 %v4 to i32
  %shl3.i.i = shl nuw nsw i32 %conv2.i.i, 16
  %or.i.i = or disjoint i32 %shl3.i.i, %shl.i.i
  %arrayidx4.i.i = getelementptr inbounds i8, ptr %add.ptr.i, i32 2
  %v5 = load i8, ptr %arrayidx4.i.i, align 1, !tbaa !4
  %conv5.i.i = zext i8 %v5 to i32
  %shl6.i.i = shl nuw nsw i32 %conv5.i.i, 8
  %or7.i.i = or disjoint i32 %or.i.i, %shl6.i.i
  %arrayidx8.i.i = getelementptr inbounds i8, ptr %add.ptr.i, i32 3
  %v6 = load i8, ptr %arrayidx8.i.i, align 1, !tbaa !4
  %conv9.i.i = zext i8 %v6 to i32
  %or10.i.i = or disjoint i32 %or7.i.i, %conv9.i.i
  %arrayidx.i = getelementptr inbounds [64 x i32], ptr %w.i, i32 0, i32 %k.052.i
  store i32 %or10.i.i, ptr %arrayidx.i, align 4, !tbaa !21
  %inc.i = add nuw nsw i32 %k.052.i, 1
  %exitcond.not.i = icmp eq i32 %inc.i, 16
  br i1 %exitcond.not.i, label %for.body5.i, label %for.body.i, !llvm.loop !22

for.cond.cleanup4.i:                              ; preds = %for.body5.i
  call void @llvm.memcpy.p0.p0.i32(ptr noundef nonnull align 4 dereferenceable(32) %s.i, ptr noundef nonnull align 4 dereferenceable(32) %it, i32 32, i1 false)
  %s.promoted.i = load i32, ptr %s.i, align 4, !tbaa !21
  br label %for.body31.i

for.body5.i:                                      ; preds = %for.body5.i, %for.body.i
  %k1.053.i = phi i32 [ %inc25.i, %for.body5.i ], [ 16, %for.body.i ]
  %sub.i = add nsw i32 %k1.053.i, -15
  %arrayidx6.i = getelementptr inbounds [64 x i32], ptr %w.i, i32 0, i32 %sub.i
  %v7 = load i32, ptr %arrayidx6.i, align 4, !tbaa !21
  %sub7.i = add nsw i32 %k1.053.i, -2
  %arrayidx8.i = getelementptr inbounds [64 x i32], ptr %w.i, i32 0, i32 %sub7.i
  %v8 = load i32, ptr %arrayidx8.i, align 4, !tbaa !21
  %sub9.i = add nsw i32 %k1.053.i, -16
  %arrayidx10.i = getelementptr inbounds [64 x i32], ptr %w.i, i32 0, i32 %sub9.i
  %v9 = load i32, ptr %arrayidx10.i, align 4, !tbaa !21
  %shl.i = shl i32 %v7, 25
  %shr.i1 = lshr i32 %v7, 1
  %shr2.i = lshr i32 %shr.i1, 6
  %or.i = or i32 %shl.i, %shr2.i
  %shl.i2 = shl i32 %v7, 14
  %shr2.i4 = lshr i32 %shr.i1, 17
  %or.i5 = or i32 %shl.i2, %shr2.i4
  %xor.i = xor i32 %or.i, %or.i5
  %shr.i = lshr i32 %v7, 3
  %xor13.i = xor i32 %xor.i, %shr.i
  %add.i = add i32 %xor13.i, %v9
  %sub14.i = add nsw i32 %k1.053.i, -7
  %arrayidx15.i = getelementptr inbounds [64 x i32], ptr %w.i, i32 0, i32 %sub14.i
  %v10 = load i32, ptr %arrayidx15.i, align 4, !tbaa !21
  %add16.i = add i32 %add.i, %v10
  %shl.i6 = shl i32 %v8, 15
  %shr.i7 = lshr i32 %v8, 1
  %shr2.i8 = lshr i32 %shr.i7, 16
  %or.i9 = or i32 %shl.i6, %shr2.i8
  %shl.i10 = shl i32 %v8, 13
  %shr2.i12 = lshr i32 %shr.i7, 18
  %or.i13 = or i32 %shl.i10, %shr2.i12
  %xor19.i = xor i32 %or.i9, %or.i13
  %shr20.i = lshr i32 %v8, 10
  %xor21.i = xor i32 %xor19.i, %shr20.i
  %add22.i = add i32 %add16.i, %xor21.i
  %arrayidx23.i = getelementptr inbounds [64 x i32], ptr %w.i, i32 0, i32 %k1.053.i
  store i32 %add22.i, ptr %arrayidx23.i, align 4, !tbaa !21
  %inc25.i = add nuw nsw i32 %k1.053.i, 1
  %exitcond58.not.i = icmp eq i32 %inc25.i, 64
  br i1 %exitcond58.not.i, label %for.cond.cleanup4.i, label %for.body5.i, !llvm.loop !23

for.body31.i:                                     ; preds = %for.body31.i, %for.cond.cleanup4.i
  %k27.056.i = phi i32 [ 0, %for.cond.cleanup4.i ], [ %inc81.i, %for.body31.i ]
  %add785455.i = phi i32 [ %s.promoted.i, %for.cond.cleanup4.i ], [ %add78.i, %for.body31.i ]
  %v11 = load i32, ptr %arrayidx32.i, align 4, !tbaa !21
  %v12 = load i32, ptr %arrayidx33.i, align 4, !tbaa !21
  %and.i = and i32 %v12, %v11
  %not.i = xor i32 %v11, -1
  %v13 = load i32, ptr %arrayidx35.i, align 4, !tbaa !21
  %and36.i = and i32 %v13, %not.i
  %v14 = load i32, ptr %arrayidx39.i, align 4, !tbaa !21
  %v15 = load i32, ptr %arrayidx42.i, align 4, !tbaa !21
  %and4322.i = xor i32 %v15, %v14
  %xor44.i = and i32 %and4322.i, %add785455.i
  %and47.i = and i32 %v15, %v14
  %xor48.i = xor i32 %xor44.i, %and47.i
  %v16 = load i32, ptr %arrayidx49.i, align 4, !tbaa !21
  %shl.i14 = shl i32 %v11, 26
  %shr.i15 = lshr i32 %v11, 1
  %shr2.i16 = lshr i32 %shr.i15, 5
  %or.i17 = or i32 %shl.i14, %shr2.i16
  %shl.i18 = shl i32 %v11, 21
  %shr2.i20 = lshr i32 %shr.i15, 10
  %or.i21 = or i32 %shl.i18, %shr2.i20
  %xor54.i = xor i32 %or.i17, %or.i21
  %shl.i22 = shl i32 %v11, 7
  %shr2.i24 = lshr i32 %shr.i15, 24
  %or.i25 = or i32 %shl.i22, %shr2.i24
  %xor57.i = xor i32 %xor54.i, %or.i25
  %arrayidx60.i = getelementptr inbounds [64 x i32], ptr @constants, i32 0, i32 %k27.056.i
  %v17 = load i32, ptr %arrayidx60.i, align 4, !tbaa !21
  %arrayidx62.i = getelementptr inbounds [64 x i32], ptr %w.i, i32 0, i32 %k27.056.i
  %v18 = load i32, ptr %arrayidx62.i, align 4, !tbaa !21
  %add58.i = add i32 %and36.i, %and.i
  %xor37.i = add i32 %add58.i, %xor57.i
  %add59.i = add i32 %xor37.i, %v16
  %add61.i = add i32 %add59.i, %v17
  %add63.i = add i32 %add61.i, %v18
  %shl.i26 = shl i32 %add785455.i, 30
  %shr.i27 = lshr i32 %add785455.i, 1
  %shr2.i28 = lshr i32 %shr.i27, 1
  %or.i29 = or i32 %shl.i26, %shr2.i28
  %shl.i30 = shl i32 %add785455.i, 19
  %shr2.i32 = lshr i32 %shr.i27, 12
  %or.i33 = or i32 %shl.i30, %shr2.i32
  %xor68.i = xor i32 %or.i29, %or.i33
  %shl.i34 = shl i32 %add785455.i, 10
  %shr2.i36 = lshr i32 %shr.i27, 21
  %or.i37 = or i32 %shl.i34, %shr2.i36
  %xor71.i = xor i32 %xor68.i, %or.i37
  %add72.i = add i32 %xor48.i, %xor71.i
  call void @llvm.memmove.p0.p0.i32(ptr noundef nonnull align 4 dereferenceable(28) %arrayidx39.i, ptr noundef nonnull align 4 dereferenceable(28) %s.i, i32 28, i1 false)
  %v19 = load i32, ptr %arrayidx32.i, align 4, !tbaa !21
  %add77.i = add i32 %v19, %add63.i
  store i32 %add77.i, ptr %arrayidx32.i, align 4, !tbaa !21
  %add78.i = add i32 %add72.i, %add63.i
  store i32 %add78.i, ptr %s.i, align 4, !tbaa !21
  %inc81.i = add nuw nsw i32 %k27.056.i, 1
  %exitcond59.not.i = icmp eq i32 %inc81.i, 64
  br i1 %exitcond59.not.i, label %for.body87.i, label %for.body31.i, !llvm.loop !24

for.body87.i:                                     ; preds = %for.body87.i, %for.body31.i
  %k83.057.i = phi i32 [ %inc92.i, %for.body87.i ], [ 0, %for.body31.i ]
  %arrayidx88.i = getelementptr inbounds [8 x i32], ptr %s.i, i32 0, i32 %k83.057.i
  %v20 = load i32, ptr %arrayidx88.i, align 4, !tbaa !21
  %arrayidx89.i = getelementptr inbounds i32, ptr %it, i32 %k83.057.i
  %v21 = load i32, ptr %arrayidx89.i, align 4, !tbaa !21
  %add90.i = add i32 %v21, %v20
  store i32 %add90.i, ptr %arrayidx89.i, align 4, !tbaa !21
  %inc92.i = add nuw nsw i32 %k83.057.i, 1
  %exitcond60.not.i = icmp eq i32 %inc92.i, 8
  br i1 %exitcond60.not.i, label %compress.exit, label %for.body87.i, !llvm.loop !25

compress.exit:                                    ; preds = %for.body87.i
  call void @llvm.lifetime.end.p0(i64 32, ptr nonnull %s.i) #10
  call void @llvm.lifetime.end.p0(i64 256, ptr nonnull %w.i) #10
  store i32 0, ptr %used, align 8, !tbaa !11
  br label %if.end

if.end:                                           ; preds = %compress.exit, %while.body
  %cmp.not = icmp eq i32 %sub10, 0
  br i1 %cmp.not, label %while.end, label %while.body, !llvm.loop !26

while.end:                                        ; preds = %if.end, %entry
  ret void
}

; Function Attrs: nofree norecurse nosync nounwind memory(readwrite, inaccessiblemem: none)
define internal fastcc void @end(ptr nocapture noundef %it, ptr nocapture noundef writeonly %digest) unnamed_addr #6 {
entry:
  %tail = alloca [8 x i8], align 1
  %length = getelementptr inbounds i8, ptr %it, i32 32
  %v0 = load i64, ptr %length, align 8, !tbaa !7
  %mul = shl i64 %v0, 3
  call void @llvm.lifetime.start.p0(i64 8, ptr nonnull %tail) #10
  tail call fastcc void @add(ptr noundef %it, ptr noundef nonnull @.str.4, i32 noundef signext 1)
  %used = getelementptr inbounds i8, ptr %it, i32 104
  %v1 = load i32, ptr %used, align 8, !tbaa !11
  %cmp.not14 = icmp eq i32 %v1, 56
  br i1 %cmp.not14, label %for.body.preheader, label %while.body

for.body.preheader:                               ; preds = %while.body, %entry
  br label %for.body

while.body:                                       ; preds = %while.body, %entry
  tail call fastcc void @add(ptr noundef %it, ptr noundef nonnull @.str.5, i32 noundef signext 1)
  %v2 = load i32, ptr %used, align 8, !tbaa !11
  %cmp.not = icmp eq i32 %v2, 56
  br i1 %cmp.not, label %for.body.preheader, label %while.body, !llvm.loop !27

for.cond.cleanup:                                 ; preds = %for.body
  call fastcc void @add(ptr noundef %it, ptr noundef nonnull %tail, i32 noundef signext 8)
  br label %for.body8

for.body:                                         ; preds = %for.body, %for.body.preheader
  %k.015 = phi i32 [ %inc, %for.body ], [ 0, %for.body.preheader ]
  %mul2 = shl nuw nsw i32 %k.015, 3
  %sub = sub nuw nsw i32 56, %mul2
  %sh_prom = zext nneg i32 %sub to i64
  %shr = lshr i64 %mul, %sh_prom
  %conv = trunc i64 %shr to i8
  %arrayidx = getelementptr inbounds [8 x i8], ptr %tail, i32 0, i32 %k.015
  store i8 %conv, ptr %arrayidx, align 1, !tbaa !4
  %inc = add nuw nsw i32 %k.015, 1
  %exitcond.not = icmp eq i32 %inc, 8
  br i1 %exitcond.not, label %for.cond.cleanup, label %for.body, !llvm.loop !28

for.cond.cleanup7:                                ; preds = %for.body8
  call void @llvm.lifetime.end.p0(i64 8, ptr nonnull %tail) #10
  ret void

for.body8:                                        ; preds = %for.body8, %for.cond.cleanup
  %k3.016 = phi i32 [ 0, %for.cond.cleanup ], [ %inc16, %for.body8 ]
  %div13 = lshr i32 %k3.016, 2
  %arrayidx9 = getelementptr inbounds [8 x i32], ptr %it, i32 0, i32 %div13
  %v3 = load i32, ptr %arrayidx9, align 4, !tbaa !21
  %rem = shl nuw nsw i32 %k3.016, 3
  %rem.not = and i32 %rem, 24
  %sub11 = xor i32 %rem.not, 24
  %shr12 = lshr i32 %v3, %sub11
  %conv13 = trunc i32 %shr12 to i8
  %arrayidx14 = getelementptr inbounds i8, ptr %digest, i32 %k3.016
  store i8 %conv13, ptr %arrayidx14, align 1, !tbaa !4
  %inc16 = add nuw nsw i32 %k3.016, 1
  %exitcond17.not = icmp eq i32 %inc16, 32
  br i1 %exitcond17.not, label %for.cond.cleanup7, label %for.body8, !llvm.loop !29
}

; Function Attrs: nocallback nofree nosync nounwind willreturn memory(argmem: readwrite)
declare void @llvm.lifetime.end.p0(i64 immarg, ptr nocapture) #1

; Function Attrs: nounwind optsize
define internal i32 @__print_unsigned(ptr nocapture noundef %stream, i64 noundef zeroext %n, i32 noundef signext %base, i32 noundef signext %flags, i32 noundef signext %width, i32 noundef signext %precision) local_unnamed_addr #2 {
entry:
  %room = alloca [24 x i8], align 1
  call void @llvm.lifetime.start.p0(i64 24, ptr nonnull %room) #10
  %and.i = and i32 %flags, 32
  %tobool.not.i = icmp eq i32 %and.i, 0
  %cond.i = select i1 %tobool.not.i, ptr @.str.9, ptr @.str.8.14
  %cmp.i = icmp ult i64 %n, 4294967296
  br i1 %cmp.i, label %if.then.i, label %for.cond3.preheader.i

for.cond3.preheader.i:                            ; preds = %entry
  %conv7.i = zext i32 %base to i64
  br label %for.body6.i

if.then.i:                                        ; preds = %entry
  %conv.i = trunc nuw i64 %n to i32
  %cmp1.not31.i = icmp eq i32 %conv.i, 0
  br i1 %cmp1.not31.i, label %spelled.exit, label %for.body.i

for.body.i:                                       ; preds = %for.body.i, %if.then.i
  %k.033.i = phi i32 [ %div.i, %for.body.i ], [ %conv.i, %if.then.i ]
  %end.addr.032.i.idx = phi i32 [ %end.addr.032.i.add, %for.body.i ], [ 24, %if.then.i ]
  %rem.i = urem i32 %k.033.i, %base
  %arrayidx.i = getelementptr inbounds i8, ptr %cond.i, i32 %rem.i
  %v0 = load i8, ptr %arrayidx.i, align 1, !tbaa !4
  %end.addr.032.i.add = add nsw i32 %end.addr.032.i.idx, -1
  %incdec.ptr.i.ptr = getelementptr inbounds i8, ptr %room, i32 %end.addr.032.i.add
  store i8 %v0, ptr %incdec.ptr.i.ptr, align 1, !tbaa !4
  %div.i = udiv i32 %k.033.i, %base
  %cmp1.not.i = icmp ult i32 %k.033.i, %base
  br i1 %cmp1.not.i, label %spelled.exit, label %for.body.i, !llvm.loop !30

for.body6.i:                                      ; preds = %for.body6.i, %for.cond3.preheader.i
  %end.addr.130.i.idx = phi i32 [ 24, %for.cond3.preheader.i ], [ %end.addr.130.i.add, %for.body6.i ]
  %n.addr.029.i = phi i64 [ %n, %for.cond3.preheader.i ], [ %div13.i, %for.body6.i ]
  %div13.i = udiv i64 %n.addr.029.i, %conv7.i
  %v1 = mul i64 %div13.i, %conv7.i
  %rem8.i.decomposed = sub i64 %n.addr.029.i, %v1
  %idxprom.i = trunc nuw i64 %rem8.i.decomposed to i32
  %arrayidx9.i = getelementptr inbounds i8, ptr %cond.i, i32 %idxprom.i
  %v2 = load i8, ptr %arrayidx9.i, align 1, !tbaa !4
  %end.addr.130.i.add = add nsw i32 %end.addr.130.i.idx, -1
  %incdec.ptr10.i.ptr = getelementptr inbounds i8, ptr %room, i32 %end.addr.130.i.add
  store i8 %v2, ptr %incdec.ptr10.i.ptr, align 1, !tbaa !4
  %cmp4.not.i = icmp ult i64 %n.addr.029.i, %conv7.i
  br i1 %cmp4.not.i, label %spelled.exit, label %for.body6.i, !llvm.loop !31

spelled.exit:                                     ; preds = %for.body6.i, %for.body.i, %if.then.i
  %retval.0.i.idx = phi i32 [ 24, %if.then.i ], [ %end.addr.032.i.add, %for.body.i ], [ %end.addr.130.i.add, %for.body6.i ]
  %cmp = icmp eq i64 %n, 0
  %cmp1 = icmp ne i32 %precision, 0
  %or.cond = and i1 %cmp, %cmp1
  br i1 %or.cond, label %if.then, label %if.end

if.then:                                          ; preds = %spelled.exit
  %retval.0.i.add = add nsw i32 %retval.0.i.idx, -1
  %incdec.ptr.ptr = getelementptr inbounds i8, ptr %room, i32 %retval.0.i.add
  store i8 48, ptr %incdec.ptr.ptr, align 1, !tbaa !4
  br label %if.end

if.end:                                           ; preds = %if.then, %spelled.exit
  %at.0.idx = phi i32 [ %retval.0.i.add, %if.then ], [ %retval.0.i.idx, %spelled.exit ]
  %at.0.ptr = getelementptr inbounds i8, ptr %room, i32 %at.0.idx
  %and = and i32 %flags, 8
  %tobool = icmp ne i32 %and, 0
  %cmp13 = icmp eq i32 %base, 8
  %or.cond29 = and i1 %cmp13, %tobool
  %gepdiff = sub nsw i32 24, %at.0.idx
  %cmp15.not = icmp sge i32 %gepdiff, %precision
  %or.cond49.not = select i1 %or.cond29, i1 %cmp15.not, i1 false
  br i1 %or.cond49.not, label %land.lhs.true16, label %if.end22

land.lhs.true16:                                  ; preds = %if.end
  %cmp17 = icmp eq i32 %at.0.idx, 24
  br i1 %cmp17, label %if.then20, label %lor.lhs.false

lor.lhs.false:                                    ; preds = %land.lhs.true16
  %v3 = load i8, ptr %at.0.ptr, align 1, !tbaa !4
  %cmp18.not = icmp eq i8 %v3, 48
  br i1 %cmp18.not, label %if.end22, label %if.then20

if.then20:                                        ; preds = %lor.lhs.false, %land.lhs.true16
  %incdec.ptr21 = getelementptr inbounds i8, ptr %at.0.ptr, i32 -1
  store i8 48, ptr %incdec.ptr21, align 1, !tbaa !4
  br label %if.end22

if.end22:                                         ; preds = %if.then20, %lor.lhs.false, %if.end
  %at.1 = phi ptr [ %incdec.ptr21, %if.then20 ], [ %at.0.ptr, %lor.lhs.false ], [ %at.0.ptr, %if.end ]
  %add.ptr.ptr = getelementptr inbounds i8, ptr %room, i32 24
  %sub.ptr.lhs.cast = ptrtoint ptr %add.ptr.ptr to i32
  %cmp3 = icmp eq i32 %base, 16
  %cmp5 = icmp ne i64 %n, 0
  %v4 = and i1 %cmp5, %cmp3
  %or.cond28 = and i1 %v4, %tobool
  %cond = select i1 %tobool.not.i, ptr @.str.6, ptr @.str.5.15
  %front.0 = select i1 %or.cond28, ptr %cond, ptr @.str.8
  %sub.ptr.rhs.cast24 = ptrtoint ptr %at.1 to i32
  %sub.ptr.sub25 = sub i32 %sub.ptr.lhs.cast, %sub.ptr.rhs.cast24
  %call26 = call fastcc i32 @number(ptr noundef %stream, ptr noundef nonnull %front.0, ptr noundef nonnull %at.1, i32 noundef signext %sub.ptr.sub25, i32 noundef signext %flags, i32 noundef signext %width, i32 noundef signext %precision) #11
  call void @llvm.lifetime.end.p0(i64 24, ptr nonnull %room) #10
  ret i32 %call26
}

; Function Attrs: nounwind optsize
define internal noundef i32 @__print_text(ptr nocapture noundef %stream, ptr nocapture noundef readonly %text, i32 noundef returned signext %n) local_unnamed_addr #2 {
entry:
  %v0 = load i8, ptr %stream, align 4, !tbaa !32, !alias.scope !35, !noalias !38
  %cmp.i = icmp eq i8 %v0, 0
  %cmp210.not.i = icmp eq i32 %n, 0
  %or.cond = or i1 %cmp210.not.i, %cmp.i
  br i1 %or.cond, label %fwrite.exit, label %for.body.i

for.body.i:                                       ; preds = %for.body.i, %entry
  %k.011.i = phi i32 [ %inc.i, %for.body.i ], [ 0, %entry ]
  %arrayidx.i = getelementptr inbounds i8, ptr %text, i32 %k.011.i
  %v1 = load i8, ptr %arrayidx.i, align 1, !tbaa !4, !alias.scope !38, !noalias !35
  %conv4.i = zext i8 %v1 to i32
  %call.i = tail call i32 @fputc(i32 noundef signext %conv4.i, ptr noundef nonnull %stream) #11, !noalias !38
  %inc.i = add nuw i32 %k.011.i, 1
  %exitcond.not.i = icmp eq i32 %inc.i, %n
  br i1 %exitcond.not.i, label %fwrite.exit, label %for.body.i, !llvm.loop !40

fwrite.exit:                                      ; preds = %for.body.i, %entry
  ret i32 %n
}

; Function Attrs: nounwind optsize
define internal i32 @__print_string(ptr nocapture noundef %stream, ptr noundef %text, i32 noundef signext %flags, i32 noundef signext %width, i32 noundef signext %precision) local_unnamed_addr #2 {
entry:
  %tobool.not = icmp eq ptr %text, null
  %v0 = icmp ult i32 %precision, 6
  %cond = select i1 %v0, ptr @.str.8, ptr @.str.1.9
  %text.addr.0 = select i1 %tobool.not, ptr %cond, ptr %text
  %cmp2 = icmp slt i32 %precision, 0
  br i1 %cmp2, label %while.cond.i, label %cond.false

while.cond.i:                                     ; preds = %while.cond.i, %entry
  %s.0.i = phi ptr [ %incdec.ptr.i, %while.cond.i ], [ %text.addr.0, %entry ]
  %v1 = load i8, ptr %s.0.i, align 1, !tbaa !4
  %tobool.not.i = icmp eq i8 %v1, 0
  %incdec.ptr.i = getelementptr inbounds i8, ptr %s.0.i, i32 1
  br i1 %tobool.not.i, label %strlen.exit, label %while.cond.i, !llvm.loop !20

strlen.exit:                                      ; preds = %while.cond.i
  %sub.ptr.lhs.cast.i = ptrtoint ptr %s.0.i to i32
  %sub.ptr.rhs.cast.i = ptrtoint ptr %text.addr.0 to i32
  %sub.ptr.sub.i = sub i32 %sub.ptr.lhs.cast.i, %sub.ptr.rhs.cast.i
  br label %cond.end

cond.false:                                       ; preds = %entry
  %cmp4.not.i = icmp eq i32 %precision, 0
  br i1 %cmp4.not.i, label %cond.end, label %land.rhs.i

land.rhs.i:                                       ; preds = %while.body.i, %cond.false
  %k.05.i = phi i32 [ %inc.i, %while.body.i ], [ 0, %cond.false ]
  %arrayidx.i = getelementptr inbounds i8, ptr %text.addr.0, i32 %k.05.i
  %v2 = load i8, ptr %arrayidx.i, align 1, !tbaa !4
  %tobool.not.i12 = icmp eq i8 %v2, 0
  br i1 %tobool.not.i12, label %cond.end, label %while.body.i

while.body.i:                                     ; preds = %land.rhs.i
  %inc.i = add nuw nsw i32 %k.05.i, 1
  %exitcond.not.i = icmp eq i32 %inc.i, %precision
  br i1 %exitcond.not.i, label %cond.end, label %land.rhs.i, !llvm.loop !41

cond.end:                                         ; preds = %while.body.i, %land.rhs.i, %cond.false, %strlen.exit
  %cond4 = phi i32 [ %sub.ptr.sub.i, %strlen.exit ], [ 0, %cond.false ], [ %k.05.i, %land.rhs.i ], [ %precision, %while.body.i ]
  %call5 = tail call fastcc i32 @padded(ptr noundef %stream, ptr noundef nonnull %text.addr.0, i32 noundef signext %cond4, i32 noundef signext %flags, i32 noundef signext %width) #11
  ret i32 %call5
}

; Function Attrs: nocallback nofree nounwind willreturn memory(argmem: write)
declare void @llvm.memset.p0.i32(ptr nocapture writeonly, i8, i32, i1 immarg) #7

; Function Attrs: nounwind optsize
define internal fastcc i32 @padded(ptr nocapture noundef %stream, ptr nocapture noundef readonly %text, i32 noundef signext %n, i32 noundef signext %flags, i32 noundef signext %width) unnamed_addr #2 {
entry:
  %cmp = icmp slt i32 %width, 0
  %shr.i = lshr i32 %width, 31
  %tobool.i = icmp ne i32 %shr.i, 0
  %sub.i = sub i32 0, %width
  %cond.i1 = select i1 %tobool.i, i32 %sub.i, i32 %width
  %sub1 = sub nsw i32 %cond.i1, %n
  %and = and i32 %flags, 1
  %tobool = icmp ne i32 %and, 0
  %v0 = or i1 %cmp, %tobool
  br i1 %v0, label %cond.end6, label %cond.false5

cond.false5:                                      ; preds = %entry
  %cmp5.i = icmp sgt i32 %sub1, 0
  br i1 %cmp5.i, label %for.body.i, label %repeated.exit

for.body.i:                                       ; preds = %for.body.i, %cond.false5
  %k.06.i = phi i32 [ %inc.i, %for.body.i ], [ 0, %cond.false5 ]
  %call.i = tail call i32 @fputc(i32 noundef signext 32, ptr noundef %stream) #11
  %inc.i = add nuw nsw i32 %k.06.i, 1
  %exitcond.not.i = icmp eq i32 %inc.i, %sub1
  br i1 %exitcond.not.i, label %repeated.exit, label %for.body.i, !llvm.loop !42

repeated.exit:                                    ; preds = %for.body.i, %cond.false5
  %cond.i = tail call noundef i32 @llvm.smax.i32(i32 %sub1, i32 0)
  br label %cond.end6

cond.end6:                                        ; preds = %repeated.exit, %entry
  %cond7 = phi i32 [ %cond.i, %repeated.exit ], [ 0, %entry ]
  %v1 = load i8, ptr %stream, align 4, !tbaa !32, !alias.scope !43, !noalias !46
  %cmp.i.i = icmp eq i8 %v1, 0
  %cmp210.not.i.i = icmp eq i32 %n, 0
  %or.cond.i = or i1 %cmp210.not.i.i, %cmp.i.i
  br i1 %or.cond.i, label %__print_text.exit, label %for.body.i.i

for.body.i.i:                                     ; preds = %for.body.i.i, %cond.end6
  %k.011.i.i = phi i32 [ %inc.i.i, %for.body.i.i ], [ 0, %cond.end6 ]
  %arrayidx.i.i = getelementptr inbounds i8, ptr %text, i32 %k.011.i.i
  %v2 = load i8, ptr %arrayidx.i.i, align 1, !tbaa !4, !alias.scope !46, !noalias !43
  %conv4.i.i = zext i8 %v2 to i32
  %call.i.i = tail call i32 @fputc(i32 noundef signext %conv4.i.i, ptr noundef nonnull %stream) #11, !noalias !46
  %inc.i.i = add nuw i32 %k.011.i.i, 1
  %exitcond.not.i.i = icmp eq i32 %inc.i.i, %n
  br i1 %exitcond.not.i.i, label %__print_text.exit, label %for.body.i.i, !llvm.loop !40

__print_text.exit:                                ; preds = %for.body.i.i, %cond.end6
  br i1 %v0, label %cond.true10, label %cond.end13

cond.true10:                                      ; preds = %__print_text.exit
  %cmp5.i25 = icmp sgt i32 %sub1, 0
  br i1 %cmp5.i25, label %for.body.i27, label %repeated.exit32

for.body.i27:                                     ; preds = %for.body.i27, %cond.true10
  %k.06.i28 = phi i32 [ %inc.i30, %for.body.i27 ], [ 0, %cond.true10 ]
  %call.i29 = tail call i32 @fputc(i32 noundef signext 32, ptr noundef nonnull %stream) #11
  %inc.i30 = add nuw nsw i32 %k.06.i28, 1
  %exitcond.not.i31 = icmp eq i32 %inc.i30, %sub1
  br i1 %exitcond.not.i31, label %repeated.exit32, label %for.body.i27, !llvm.loop !42

repeated.exit32:                                  ; preds = %for.body.i27, %cond.true10
  %cond.i26 = tail call noundef i32 @llvm.smax.i32(i32 %sub1, i32 0)
  br label %cond.end13

cond.end13:                                       ; preds = %repeated.exit32, %__print_text.exit
  %cond14 = phi i32 [ %cond.i26, %repeated.exit32 ], [ 0, %__print_text.exit ]
  %add = add nsw i32 %cond7, %n
  %add15 = add nsw i32 %add, %cond14
  ret i32 %add15
}

; Function Attrs: nounwind optsize
define internal range(i32 -1, 256) i32 @fputc(i32 noundef signext %c, ptr nocapture noundef %stream) local_unnamed_addr #2 {
entry:
  %v0 = load i8, ptr %stream, align 4, !tbaa !32
  switch i8 %v0, label %if.end18 [
    i8 1, label %if.then
    i8 3, label %land.lhs.true
    i8 0, label %return
  ]

if.then:                                          ; preds = %entry
  %call = tail call i32 @putchar(i32 noundef signext %c) #12
  br label %if.end18

land.lhs.true:                                    ; preds = %entry
  %left = getelementptr inbounds i8, ptr %stream, i32 8
  %v1 = load i32, ptr %left, align 4, !tbaa !48
  %cmp6.not = icmp eq i32 %v1, 0
  br i1 %cmp6.not, label %if.end18, label %if.then8

if.then8:                                         ; preds = %land.lhs.true
  %conv9 = trunc i32 %c to i8
  %at = getelementptr inbounds i8, ptr %stream, i32 4
  %v2 = load ptr, ptr %at, align 4, !tbaa !49
  %incdec.ptr = getelementptr inbounds i8, ptr %v2, i32 1
  store ptr %incdec.ptr, ptr %at, align 4, !tbaa !49
  store i8 %conv9, ptr %v2, align 1, !tbaa !4
  %v3 = load i32, ptr %left, align 4, !tbaa !48
  %dec = add i32 %v3, -1
  store i32 %dec, ptr %left, align 4, !tbaa !48
  br label %if.end18

if.end18:                                         ; preds = %if.then8, %land.lhs.true, %if.then, %entry
  %conv20 = and i32 %c, 255
  br label %return

return:                                           ; preds = %if.end18, %entry
  %retval.0 = phi i32 [ %conv20, %if.end18 ], [ -1, %entry ]
  ret i32 %retval.0
}

; Function Attrs: nocallback nofree nosync nounwind speculatable willreturn memory(none)
declare i32 @llvm.smax.i32(i32, i32) #8

; Function Attrs: optsize
declare dso_local i32 @putchar(i32 noundef signext) local_unnamed_addr #9

; Function Attrs: nounwind optsize
define internal fastcc i32 @number(ptr nocapture noundef %stream, ptr noundef %front, ptr nocapture noundef readonly %digits, i32 noundef signext %n, i32 noundef signext %flags, i32 noundef signext %width, i32 noundef signext %precision) unnamed_addr #2 {
entry:
  br label %while.cond.i

while.cond.i:                                     ; preds = %while.cond.i, %entry
  %s.0.i = phi ptr [ %front, %entry ], [ %incdec.ptr.i, %while.cond.i ]
  %v0 = load i8, ptr %s.0.i, align 1, !tbaa !4
  %tobool.not.i = icmp eq i8 %v0, 0
  %incdec.ptr.i = getelementptr inbounds i8, ptr %s.0.i, i32 1
  br i1 %tobool.not.i, label %strlen.exit, label %while.cond.i, !llvm.loop !20

strlen.exit:                                      ; preds = %while.cond.i
  %sub.ptr.lhs.cast.i = ptrtoint ptr %s.0.i to i32
  %sub.ptr.rhs.cast.i = ptrtoint ptr %front to i32
  %sub.ptr.sub.i = sub i32 %sub.ptr.lhs.cast.i, %sub.ptr.rhs.cast.i
  %sub = sub nsw i32 %precision, %n
  %shr.i = lshr i32 %width, 31
  %tobool.i = icmp ne i32 %shr.i, 0
  %sub.i = sub i32 0, %width
  %cond.i1 = select i1 %tobool.i, i32 %sub.i, i32 %width
  %spec.store.select = tail call i32 @llvm.smax.i32(i32 %sub, i32 0)
  %cmp5 = icmp slt i32 %precision, 0
  %and = and i32 %flags, 16
  %tobool.not = icmp ne i32 %and, 0
  %or.cond.not94 = and i1 %tobool.not, %cmp5
  %flags.masked = and i32 %flags, 1
  %and7 = or i32 %shr.i, %flags.masked
  %tobool8.not = icmp eq i32 %and7, 0
  %or.cond65 = and i1 %or.cond.not94, %tobool8.not
  %add = add i32 %sub.ptr.sub.i, %n
  %cmp10 = icmp sgt i32 %cond.i1, %add
  %or.cond66 = select i1 %or.cond65, i1 %cmp10, i1 false
  %sub13 = sub i32 %cond.i1, %add
  %zeros.0 = select i1 %or.cond66, i32 %sub13, i32 %spec.store.select
  %v2 = add i32 %add, %zeros.0
  %sub17 = sub i32 %cond.i1, %v2
  br i1 %tobool8.not, label %if.then20, label %if.end23

if.then20:                                        ; preds = %strlen.exit
  %cmp5.i = icmp sgt i32 %sub17, 0
  br i1 %cmp5.i, label %for.body.i, label %repeated.exit

for.body.i:                                       ; preds = %for.body.i, %if.then20
  %k.06.i = phi i32 [ %inc.i, %for.body.i ], [ 0, %if.then20 ]
  %call.i = tail call i32 @fputc(i32 noundef signext 32, ptr noundef %stream) #11
  %inc.i = add nuw nsw i32 %k.06.i, 1
  %exitcond.not.i = icmp eq i32 %inc.i, %sub17
  br i1 %exitcond.not.i, label %repeated.exit, label %for.body.i, !llvm.loop !42

repeated.exit:                                    ; preds = %for.body.i, %if.then20
  %cond.i = tail call noundef i32 @llvm.smax.i32(i32 %sub17, i32 0)
  br label %if.end23

if.end23:                                         ; preds = %repeated.exit, %strlen.exit
  %count.0 = phi i32 [ 0, %strlen.exit ], [ %cond.i, %repeated.exit ]
  %v3 = load i8, ptr %stream, align 4, !tbaa !32, !alias.scope !50, !noalias !53
  %cmp.i.i = icmp eq i8 %v3, 0
  %cmp210.not.i.i = icmp eq ptr %s.0.i, %front
  %or.cond.i = or i1 %cmp210.not.i.i, %cmp.i.i
  br i1 %or.cond.i, label %__print_text.exit, label %for.body.i.i

for.body.i.i:                                     ; preds = %for.body.i.i, %if.end23
  %k.011.i.i = phi i32 [ %inc.i.i, %for.body.i.i ], [ 0, %if.end23 ]
  %arrayidx.i.i = getelementptr inbounds i8, ptr %front, i32 %k.011.i.i
  %v4 = load i8, ptr %arrayidx.i.i, align 1, !tbaa !4, !alias.scope !53, !noalias !50
  %conv4.i.i = zext i8 %v4 to i32
  %call.i.i = tail call i32 @fputc(i32 noundef signext %conv4.i.i, ptr noundef nonnull %stream) #11, !noalias !53
  %inc.i.i = add nuw i32 %k.011.i.i, 1
  %exitcond.not.i.i = icmp eq i32 %inc.i.i, %sub.ptr.sub.i
  br i1 %exitcond.not.i.i, label %__print_text.exit, label %for.body.i.i, !llvm.loop !40

__print_text.exit:                                ; preds = %for.body.i.i, %if.end23
  %cmp5.i67 = icmp sgt i32 %zeros.0, 0
  br i1 %cmp5.i67, label %for.body.i69, label %repeated.exit74

for.body.i69:                                     ; preds = %for.body.i69, %__print_text.exit
  %k.06.i70 = phi i32 [ %inc.i72, %for.body.i69 ], [ 0, %__print_text.exit ]
  %call.i71 = tail call i32 @fputc(i32 noundef signext 48, ptr noundef nonnull %stream) #11
  %inc.i72 = add nuw nsw i32 %k.06.i70, 1
  %exitcond.not.i73 = icmp eq i32 %inc.i72, %zeros.0
  br i1 %exitcond.not.i73, label %repeated.exit74, label %for.body.i69, !llvm.loop !42

repeated.exit74:                                  ; preds = %for.body.i69, %__print_text.exit
  %cond.i68 = tail call noundef i32 @llvm.smax.i32(i32 %zeros.0, i32 0)
  %v5 = load i8, ptr %stream, align 4, !tbaa !32, !alias.scope !55, !noalias !58
  %cmp.i.i75 = icmp eq i8 %v5, 0
  %cmp210.not.i.i76 = icmp eq i32 %n, 0
  %or.cond.i77 = or i1 %cmp210.not.i.i76, %cmp.i.i75
  br i1 %or.cond.i77, label %__print_text.exit85, label %for.body.i.i78

for.body.i.i78:                                   ; preds = %for.body.i.i78, %repeated.exit74
  %k.011.i.i79 = phi i32 [ %inc.i.i83, %for.body.i.i78 ], [ 0, %repeated.exit74 ]
  %arrayidx.i.i80 = getelementptr inbounds i8, ptr %digits, i32 %k.011.i.i79
  %v6 = load i8, ptr %arrayidx.i.i80, align 1, !tbaa !4, !alias.scope !58, !noalias !55
  %conv4.i.i81 = zext i8 %v6 to i32
  %call.i.i82 = tail call i32 @fputc(i32 noundef signext %conv4.i.i81, ptr noundef nonnull %stream) #11, !noalias !58
  %inc.i.i83 = add nuw i32 %k.011.i.i79, 1
  %exitcond.not.i.i84 = icmp eq i32 %inc.i.i83, %n
  br i1 %exitcond.not.i.i84, label %__print_text.exit85, label %for.body.i.i78, !llvm.loop !40

__print_text.exit85:                              ; preds = %for.body.i.i78, %repeated.exit74
  %add27 = add i32 %add, %cond.i68
  %add29 = add i32 %add27, %count.0
  br i1 %tobool8.not, label %if.end35, label %if.then32

if.then32:                                        ; preds = %__print_text.exit85
  %cmp5.i86 = icmp sgt i32 %sub17, 0
  br i1 %cmp5.i86, label %for.body.i88, label %repeated.exit93

for.body.i88:                                     ; preds = %for.body.i88, %if.then32
  %k.06.i89 = phi i32 [ %inc.i91, %for.body.i88 ], [ 0, %if.then32 ]
  %call.i90 = tail call i32 @fputc(i32 noundef signext 32, ptr noundef nonnull %stream) #11
  %inc.i91 = add nuw nsw i32 %k.06.i89, 1
  %exitcond.not.i92 = icmp eq i32 %inc.i91, %sub17
  br i1 %exitcond.not.i92, label %repeated.exit93, label %for.body.i88, !llvm.loop !42

repeated.exit93:                                  ; preds = %for.body.i88, %if.then32
  %cond.i87 = tail call noundef i32 @llvm.smax.i32(i32 %sub17, i32 0)
  %add34 = add nsw i32 %add29, %cond.i87
  br label %if.end35

if.end35:                                         ; preds = %repeated.exit93, %__print_text.exit85
  %count.1 = phi i32 [ %add34, %repeated.exit93 ], [ %add29, %__print_text.exit85 ]
  ret i32 %count.1
}

; Function Attrs: nocallback nofree nosync nounwind speculatable willreturn memory(none)
declare i32 @llvm.umin.i32(i32, i32) #8

; Function Attrs: nocallback nofree nounwind willreturn memory(argmem: readwrite)
declare void @llvm.memmove.p0.p0.i32(ptr nocapture writeonly, ptr nocapture readonly, i32, i1 immarg) #4

; Function Attrs: nofree norecurse nosync nounwind optsize memory(read, inaccessiblemem: none)
define internal fastcc i32 @span(ptr nocapture noundef readonly %at, ptr nocapture noundef readonly %set, i32 noundef signext %within) unnamed_addr #3 {
entry:
  %has = alloca [256 x i8], align 1
  call void @llvm.lifetime.start.p0(i64 256, ptr nonnull %has) #10
  br label %while.body.i

while.body.i:                                     ; preds = %while.body.i, %entry
  %d.04.i = phi ptr [ %has, %entry ], [ %incdec.ptr.i, %while.body.i ]
  %n.addr.03.i = phi i32 [ 256, %entry ], [ %dec.i, %while.body.i ]
  %dec.i = add nsw i32 %n.addr.03.i, -1
  %incdec.ptr.i = getelementptr inbounds i8, ptr %d.04.i, i32 1
  store i8 0, ptr %d.04.i, align 1, !tbaa !4
  %cmp.not.i = icmp eq i32 %dec.i, 0
  br i1 %cmp.not.i, label %while.cond.preheader, label %while.body.i, !llvm.loop !60

while.cond.preheader:                             ; preds = %while.body.i
  %v0 = load i8, ptr %set, align 1, !tbaa !4
  %tobool.not16 = icmp eq i8 %v0, 0
  br i1 %tobool.not16, label %while.cond1.preheader, label %while.body

while.cond1.preheader:                            ; preds = %while.body, %while.cond.preheader
  %v1 = load i8, ptr %at, align 1, !tbaa !4
  %tobool3.not18 = icmp eq i8 %v1, 0
  br i1 %tobool3.not18, label %while.end10, label %land.rhs

while.body:                                       ; preds = %while.body, %while.cond.preheader
  %v2 = phi i8 [ %v3, %while.body ], [ %v0, %while.cond.preheader ]
  %set.addr.017 = phi ptr [ %incdec.ptr, %while.body ], [ %set, %while.cond.preheader ]
  %incdec.ptr = getelementptr inbounds i8, ptr %set.addr.017, i32 1
  %idxprom = zext i8 %v2 to i32
  %arrayidx = getelementptr inbounds [256 x i8], ptr %has, i32 0, i32 %idxprom
  store i8 1, ptr %arrayidx, align 1, !tbaa !4
  %v3 = load i8, ptr %incdec.ptr, align 1, !tbaa !4
  %tobool.not = icmp eq i8 %v3, 0
  br i1 %tobool.not, label %while.cond1.preheader, label %while.body, !llvm.loop !61

land.rhs:                                         ; preds = %while.body9, %while.cond1.preheader
  %v4 = phi i8 [ %v6, %while.body9 ], [ %v1, %while.cond1.preheader ]
  %k.019 = phi i32 [ %inc, %while.body9 ], [ 0, %while.cond1.preheader ]
  %idxprom5 = zext i8 %v4 to i32
  %arrayidx6 = getelementptr inbounds [256 x i8], ptr %has, i32 0, i32 %idxprom5
  %v5 = load i8, ptr %arrayidx6, align 1, !tbaa !4
  %conv7 = zext i8 %v5 to i32
  %cmp = icmp eq i32 %conv7, %within
  br i1 %cmp, label %while.body9, label %while.end10

while.body9:                                      ; preds = %land.rhs
  %inc = add i32 %k.019, 1
  %arrayidx2 = getelementptr inbounds i8, ptr %at, i32 %inc
  %v6 = load i8, ptr %arrayidx2, align 1, !tbaa !4
  %tobool3.not = icmp eq i8 %v6, 0
  br i1 %tobool3.not, label %while.end10, label %land.rhs, !llvm.loop !62

while.end10:                                      ; preds = %while.body9, %land.rhs, %while.cond1.preheader
  %k.0.lcssa = phi i32 [ 0, %while.cond1.preheader ], [ %inc, %while.body9 ], [ %k.019, %land.rhs ]
  call void @llvm.lifetime.end.p0(i64 256, ptr nonnull %has) #10
  ret i32 %k.0.lcssa
}

; Function Attrs: nounwind optsize
define internal i32 @fgetc(ptr nocapture noundef %stream) local_unnamed_addr #2 {
entry:
  %v0 = load i8, ptr %stream, align 4, !tbaa !32
  %cmp.not = icmp eq i8 %v0, 0
  br i1 %cmp.not, label %if.end, label %return

if.end:                                           ; preds = %entry
  %waiting = getelementptr inbounds i8, ptr %stream, i32 2
  %v1 = load i8, ptr %waiting, align 2, !tbaa !63
  %tobool.not = icmp eq i8 %v1, 0
  br i1 %tobool.not, label %if.end5, label %if.then2

if.then2:                                         ; preds = %if.end
  store i8 0, ptr %waiting, align 2, !tbaa !63
  %pushed = getelementptr inbounds i8, ptr %stream, i32 3
  %v2 = load i8, ptr %pushed, align 1, !tbaa !64
  %conv4 = zext i8 %v2 to i32
  br label %return

if.end5:                                          ; preds = %if.end
  %ended = getelementptr inbounds i8, ptr %stream, i32 1
  %v3 = load i8, ptr %ended, align 1, !tbaa !65
  %tobool6.not = icmp eq i8 %v3, 0
  br i1 %tobool6.not, label %if.end8, label %return

if.end8:                                          ; preds = %if.end5
  %call = tail call i32 @getchar() #12
  %cmp9 = icmp eq i32 %call, -1
  br i1 %cmp9, label %if.then11, label %return

if.then11:                                        ; preds = %if.end8
  store i8 1, ptr %ended, align 1, !tbaa !65
  br label %return

return:                                           ; preds = %if.then11, %if.end8, %if.end5, %if.then2, %entry
  %retval.0 = phi i32 [ %conv4, %if.then2 ], [ -1, %entry ], [ -1, %if.end5 ], [ -1, %if.then11 ], [ %call, %if.end8 ]
  ret i32 %retval.0
}

; Function Attrs: optsize
declare dso_local i32 @getchar() local_unnamed_addr #9

attributes #0 = { nounwind "no-trapping-math"="true" "stack-protector-buffer-size"="8" "target-cpu"="mips32r2" "target-features"="+fpxx,+mips32r2,+nooddspreg,-noabicalls" }
attributes #1 = { nocallback nofree nosync nounwind willreturn memory(argmem: readwrite) }
attributes #2 = { nounwind optsize "no-builtins" "no-jump-tables"="true" "no-trapping-math"="true" "stack-protector-buffer-size"="8" "target-cpu"="mips32r2" "target-features"="+fpxx,+mips32r2,+nooddspreg,-noabicalls" }
attributes #3 = { nofree norecurse nosync nounwind optsize memory(read, inaccessiblemem: none) "no-builtins" "no-jump-tables"="true" "no-trapping-math"="true" "stack-protector-buffer-size"="8" "target-cpu"="mips32r2" "target-features"="+fpxx,+mips32r2,+nooddspreg,-noabicalls" }
attributes #4 = { nocallback nofree nounwind willreturn memory(argmem: readwrite) }
attributes #5 = { nofree norecurse nosync nounwind memory(readwrite, inaccessiblemem: none) "no-jump-tables"="true" "no-trapping-math"="true" "stack-protector-buffer-size"="8" "target-cpu"="mips32r2" "target-features"="+fpxx,+mips32r2,+nooddspreg,-noabicalls" }
attributes #6 = { nofree norecurse nosync nounwind memory(readwrite, inaccessiblemem: none) "no-trapping-math"="true" "stack-protector-buffer-size"="8" "target-cpu"="mips32r2" "target-features"="+fpxx,+mips32r2,+nooddspreg,-noabicalls" }
attributes #7 = { nocallback nofree nounwind willreturn memory(argmem: write) }
attributes #8 = { nocallback nofree nosync nounwind speculatable willreturn memory(none) }
attributes #9 = { optsize "no-builtins" "no-trapping-math"="true" "stack-protector-buffer-size"="8" "target-cpu"="mips32r2" "target-features"="+fpxx,+mips32r2,+nooddspreg,-noabicalls" }
attributes #10 = { nounwind }
attributes #11 = { nobuiltin optsize "no-builtins" }
attributes #12 = { nobuiltin nounwind optsize "no-builtins" }

!llvm.ident = !{!0, !0, !0}
!llvm.module.flags = !{!1, !2, !3}

!0 = !{!"Debian clang version 19.1.7 (3~deb12u1)"}
!1 = !{i32 7, !"Dwarf Version", i32 5}
!2 = !{i32 2, !"Debug Info Version", i32 3}
!3 = !{i32 1, !"wchar_size", i32 4}
!4 = !{!5, !5, i64 0}
!5 = !{!"omnipotent char", !6, i64 0}
!6 = !{!"Simple C/C++ TBAA"}
!7 = !{!8, !9, i64 32}
!8 = !{!"sha256", !5, i64 0, !9, i64 32, !5, i64 40, !10, i64 104}
!9 = !{!"long long", !5, i64 0}
!10 = !{!"int", !5, i64 0}
!11 = !{!8, !10, i64 104}
!12 = distinct !{!12, !13, !14}
!13 = !{!"llvm.loop.mustprogress"}
!14 = !{!"llvm.loop.unroll.disable"}
!15 = distinct !{!15, !13, !14}
!16 = distinct !{!16, !13, !14}
!17 = distinct !{!17, !13, !14}
!18 = distinct !{!18, !13, !14}
!19 = distinct !{!19, !13}
!20 = distinct !{!20, !13}
!21 = !{!10, !10, i64 0}
!22 = distinct !{!22, !13, !14}
!23 = distinct !{!23, !13, !14}
!24 = distinct !{!24, !13, !14}
!25 = distinct !{!25, !13, !14}
!26 = distinct !{!26, !13, !14}
!27 = distinct !{!27, !13, !14}
!28 = distinct !{!28, !13, !14}
!29 = distinct !{!29, !13, !14}
!30 = distinct !{!30, !13}
!31 = distinct !{!31, !13}
!32 = !{!33, !5, i64 0}
!33 = !{!"__stream", !5, i64 0, !5, i64 1, !5, i64 2, !5, i64 3, !34, i64 4, !10, i64 8}
!34 = !{!"any pointer", !5, i64 0}
!35 = !{!36}
!36 = distinct !{!36, !37, !"fwrite: %stream"}
!37 = distinct !{!37, !"fwrite"}
!38 = !{!39}
!39 = distinct !{!39, !37, !"fwrite: %from"}
!40 = distinct !{!40, !13}
!41 = distinct !{!41, !13}
!42 = distinct !{!42, !13}
!43 = !{!44}
!44 = distinct !{!44, !45, !"fwrite: %stream"}
!45 = distinct !{!45, !"fwrite"}
!46 = !{!47}
!47 = distinct !{!47, !45, !"fwrite: %from"}
!48 = !{!33, !10, i64 8}
!49 = !{!33, !34, i64 4}
!50 = !{!51}
!51 = distinct !{!51, !52, !"fwrite: %stream"}
!52 = distinct !{!52, !"fwrite"}
!53 = !{!54}
!54 = distinct !{!54, !52, !"fwrite: %from"}
!55 = !{!56}
!56 = distinct !{!56, !57, !"fwrite: %stream"}
!57 = distinct !{!57, !"fwrite"}
!58 = !{!59}
!59 = distinct !{!59, !57, !"fwrite: %from"}
!60 = distinct !{!60, !13}
!61 = distinct !{!61, !13}
!62 = distinct !{!62, !13}
!63 = !{!33, !5, i64 2}
!64 = !{!33, !5, i64 3}
!65 = !{!33, !5, i64 1}
