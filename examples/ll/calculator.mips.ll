; ModuleID = 'calculator.c'
source_filename = "calculator.c"
target datalayout = "E-m:m-p:32:32-i8:8:32-i16:16:32-i64:64-n32-S64"
target triple = "mips-unknown-linux-gnu"

%struct.reader = type { i32, i8 }

@.str = private unnamed_addr constant [6 x i8] c"error\00", align 1

; Function Attrs: nofree nounwind
define dso_local i32 @main() local_unnamed_addr #0 {
entry:
  %r = alloca %struct.reader, align 4
  call void @llvm.lifetime.start.p0(i64 8, ptr nonnull %r) #2
  %call = tail call i32 @getchar()
  store i32 %call, ptr %r, align 4, !tbaa !4
  %cmp11 = icmp sgt i32 %call, -1
  br i1 %cmp11, label %for.body.lr.ph, label %for.end

for.body.lr.ph:                                   ; preds = %entry
  %wrong = getelementptr inbounds i8, ptr %r, i32 4
  br label %for.body

for.body:                                         ; preds = %for.body.lr.ph, %if.end
  %lines.012 = phi i32 [ 0, %for.body.lr.ph ], [ %inc, %if.end ]
  store i8 0, ptr %wrong, align 4, !tbaa !10
  %call2 = call fastcc i32 @sum(ptr noundef nonnull %r)
  %0 = load i8, ptr %wrong, align 4, !tbaa !10, !range !11, !noundef !12
  %loadedv = trunc nuw i8 %0 to i1
  %1 = load i32, ptr %r, align 4
  %cmp5 = icmp ne i32 %1, 10
  %or.cond = select i1 %loadedv, i1 true, i1 %cmp5
  br i1 %or.cond, label %if.then, label %if.else

if.then:                                          ; preds = %for.body
  %call6 = tail call i32 @puts(ptr noundef nonnull dereferenceable(1) @.str)
  br label %if.end

if.else:                                          ; preds = %for.body
  tail call fastcc void @number(i32 noundef signext %call2)
  %call7 = tail call i32 @putchar(i32 noundef signext 10)
  br label %if.end

if.end:                                           ; preds = %if.else, %if.then
  %call8 = tail call i32 @getchar()
  store i32 %call8, ptr %r, align 4, !tbaa !4
  %inc = add nuw nsw i32 %lines.012, 1
  %cmp = icmp sgt i32 %call8, -1
  br i1 %cmp, label %for.body, label %for.end, !llvm.loop !13

for.end:                                          ; preds = %if.end, %entry
  %lines.0.lcssa = phi i32 [ 0, %entry ], [ %inc, %if.end ]
  call void @llvm.lifetime.end.p0(i64 8, ptr nonnull %r) #2
  ret i32 %lines.0.lcssa
}

; Function Attrs: mustprogress nocallback nofree nosync nounwind willreturn memory(argmem: readwrite)
declare void @llvm.lifetime.start.p0(i64 immarg, ptr nocapture) #1

; Function Attrs: nofree nounwind
declare noundef i32 @getchar() local_unnamed_addr #0

; Function Attrs: nofree nounwind
define internal fastcc i32 @sum(ptr nocapture noundef %r) unnamed_addr #0 {
entry:
  %call.i = tail call fastcc i32 @factor(ptr noundef %r)
  %wrong.i = getelementptr inbounds i8, ptr %r, i32 4
  br label %while.cond.i.outer

while.cond.i.outer:                               ; preds = %while.cond.i.outer.backedge, %entry
  %n.0.i.ph = phi i32 [ %call.i, %entry ], [ %n.0.i.ph.be, %while.cond.i.outer.backedge ]
  br label %while.cond.i

while.cond.i:                                     ; preds = %while.cond.i.outer, %if.then11.i
  %0 = load i32, ptr %r, align 4, !tbaa !4
  switch i32 %0, label %while.cond.preheader [
    i32 42, label %while.body.i
    i32 47, label %while.body.i
    i32 37, label %while.body.i
  ]

while.cond.preheader:                             ; preds = %while.cond.i
  %wrong.i56 = getelementptr inbounds i8, ptr %r, i32 4
  %wrong.i34 = getelementptr inbounds i8, ptr %r, i32 4
  br label %while.cond

while.body.i:                                     ; preds = %while.cond.i, %while.cond.i, %while.cond.i
  %call6.i = tail call i32 @getchar()
  store i32 %call6.i, ptr %r, align 4, !tbaa !4
  %call8.i = tail call fastcc i32 @factor(ptr noundef nonnull %r)
  %cmp9.i = icmp eq i32 %0, 42
  br i1 %cmp9.i, label %if.then.i, label %if.else.i

if.then.i:                                        ; preds = %while.body.i
  %mul.i = mul nsw i32 %call8.i, %n.0.i.ph
  br label %while.cond.i.outer.backedge

while.cond.i.outer.backedge:                      ; preds = %if.else12.i, %if.then.i
  %n.0.i.ph.be = phi i32 [ %mul.i, %if.then.i ], [ %div.i.rem.i, %if.else12.i ]
  br label %while.cond.i.outer, !llvm.loop !16

if.else.i:                                        ; preds = %while.body.i
  %cmp10.i = icmp eq i32 %call8.i, 0
  br i1 %cmp10.i, label %if.then11.i, label %if.else12.i

if.then11.i:                                      ; preds = %if.else.i
  store i8 1, ptr %wrong.i, align 4, !tbaa !10
  br label %while.cond.i, !llvm.loop !16

if.else12.i:                                      ; preds = %if.else.i
  %cmp13.i = icmp eq i32 %0, 47
  %div.i = sdiv i32 %n.0.i.ph, %call8.i
  %rem.i = srem i32 %n.0.i.ph, %call8.i
  %div.i.rem.i = select i1 %cmp13.i, i32 %div.i, i32 %rem.i
  br label %while.cond.i.outer.backedge

while.cond:                                       ; preds = %while.cond.preheader, %cond.end
  %n.0 = phi i32 [ %add, %cond.end ], [ %n.0.i.ph, %while.cond.preheader ]
  %1 = load i32, ptr %r, align 4, !tbaa !4
  switch i32 %1, label %while.end [
    i32 43, label %while.body
    i32 45, label %while.body
  ]

while.body:                                       ; preds = %while.cond, %while.cond
  %call4 = tail call i32 @getchar()
  store i32 %call4, ptr %r, align 4, !tbaa !4
  %cmp6 = icmp eq i32 %1, 43
  %call.i16 = tail call fastcc i32 @factor(ptr noundef nonnull %r)
  br i1 %cmp6, label %while.cond.i17.outer, label %while.cond.i39.outer

while.cond.i17.outer:                             ; preds = %while.body, %while.cond.i17.outer.backedge
  %n.0.i18.ph = phi i32 [ %n.0.i18.ph.be, %while.cond.i17.outer.backedge ], [ %call.i16, %while.body ]
  br label %while.cond.i17

while.cond.i17:                                   ; preds = %while.cond.i17.outer, %if.then11.i33
  %2 = load i32, ptr %r, align 4, !tbaa !4
  switch i32 %2, label %cond.end [
    i32 42, label %while.body.i19
    i32 47, label %while.body.i19
    i32 37, label %while.body.i19
  ]

while.body.i19:                                   ; preds = %while.cond.i17, %while.cond.i17, %while.cond.i17
  %call6.i20 = tail call i32 @getchar()
  store i32 %call6.i20, ptr %r, align 4, !tbaa !4
  %call8.i21 = tail call fastcc i32 @factor(ptr noundef nonnull %r)
  %cmp9.i22 = icmp eq i32 %2, 42
  br i1 %cmp9.i22, label %if.then.i35, label %if.else.i23

if.then.i35:                                      ; preds = %while.body.i19
  %mul.i36 = mul nsw i32 %call8.i21, %n.0.i18.ph
  br label %while.cond.i17.outer.backedge

while.cond.i17.outer.backedge:                    ; preds = %if.else12.i25, %if.then.i35
  %n.0.i18.ph.be = phi i32 [ %mul.i36, %if.then.i35 ], [ %div.i32.rem.i28, %if.else12.i25 ]
  br label %while.cond.i17.outer, !llvm.loop !16

if.else.i23:                                      ; preds = %while.body.i19
  %cmp10.i24 = icmp eq i32 %call8.i21, 0
  br i1 %cmp10.i24, label %if.then11.i33, label %if.else12.i25

if.then11.i33:                                    ; preds = %if.else.i23
  store i8 1, ptr %wrong.i34, align 4, !tbaa !10
  br label %while.cond.i17, !llvm.loop !16

if.else12.i25:                                    ; preds = %if.else.i23
  %cmp13.i26 = icmp eq i32 %2, 47
  %div.i32 = sdiv i32 %n.0.i18.ph, %call8.i21
  %rem.i28 = srem i32 %n.0.i18.ph, %call8.i21
  %div.i32.rem.i28 = select i1 %cmp13.i26, i32 %div.i32, i32 %rem.i28
  br label %while.cond.i17.outer.backedge

while.cond.i39:                                   ; preds = %while.cond.i39.outer, %if.then11.i55
  %3 = load i32, ptr %r, align 4, !tbaa !4
  switch i32 %3, label %product.exit59 [
    i32 42, label %while.body.i41
    i32 47, label %while.body.i41
    i32 37, label %while.body.i41
  ]

while.body.i41:                                   ; preds = %while.cond.i39, %while.cond.i39, %while.cond.i39
  %call6.i42 = tail call i32 @getchar()
  store i32 %call6.i42, ptr %r, align 4, !tbaa !4
  %call8.i43 = tail call fastcc i32 @factor(ptr noundef nonnull %r)
  %cmp9.i44 = icmp eq i32 %3, 42
  br i1 %cmp9.i44, label %if.then.i57, label %if.else.i45

if.then.i57:                                      ; preds = %while.body.i41
  %mul.i58 = mul nsw i32 %call8.i43, %n.0.i40.ph
  br label %while.cond.i39.outer.backedge

while.cond.i39.outer.backedge:                    ; preds = %if.else12.i47, %if.then.i57
  %n.0.i40.ph.be = phi i32 [ %mul.i58, %if.then.i57 ], [ %div.i54.rem.i50, %if.else12.i47 ]
  br label %while.cond.i39.outer, !llvm.loop !16

while.cond.i39.outer:                             ; preds = %while.body, %while.cond.i39.outer.backedge
  %n.0.i40.ph = phi i32 [ %n.0.i40.ph.be, %while.cond.i39.outer.backedge ], [ %call.i16, %while.body ]
  br label %while.cond.i39

if.else.i45:                                      ; preds = %while.body.i41
  %cmp10.i46 = icmp eq i32 %call8.i43, 0
  br i1 %cmp10.i46, label %if.then11.i55, label %if.else12.i47

if.then11.i55:                                    ; preds = %if.else.i45
  store i8 1, ptr %wrong.i56, align 4, !tbaa !10
  br label %while.cond.i39, !llvm.loop !16

if.else12.i47:                                    ; preds = %if.else.i45
  %cmp13.i48 = icmp eq i32 %3, 47
  %div.i54 = sdiv i32 %n.0.i40.ph, %call8.i43
  %rem.i50 = srem i32 %n.0.i40.ph, %call8.i43
  %div.i54.rem.i50 = select i1 %cmp13.i48, i32 %div.i54, i32 %rem.i50
  br label %while.cond.i39.outer.backedge

product.exit59:                                   ; preds = %while.cond.i39
  %sub = sub nsw i32 0, %n.0.i40.ph
  br label %cond.end

cond.end:                                         ; preds = %while.cond.i17, %product.exit59
  %cond = phi i32 [ %sub, %product.exit59 ], [ %n.0.i18.ph, %while.cond.i17 ]
  %add = add nsw i32 %cond, %n.0
  br label %while.cond, !llvm.loop !17

while.end:                                        ; preds = %while.cond
  ret i32 %n.0
}

; Function Attrs: nofree nounwind
declare noundef i32 @puts(ptr nocapture noundef readonly) local_unnamed_addr #0

; Function Attrs: nofree nounwind
define internal fastcc void @number(i32 noundef signext %n) unnamed_addr #0 {
entry:
  %cmp = icmp slt i32 %n, 0
  br i1 %cmp, label %if.then, label %if.end

if.then:                                          ; preds = %entry
  %call = tail call i32 @putchar(i32 noundef signext 45)
  br label %if.end

if.end:                                           ; preds = %if.then, %entry
  %0 = add i32 %n, -10
  %or.cond = icmp ult i32 %0, -19
  br i1 %or.cond, label %if.then3, label %if.end6

if.then3:                                         ; preds = %if.end
  br i1 %cmp, label %cond.true, label %cond.false

cond.true:                                        ; preds = %if.then3
  %div.neg = sdiv i32 %n, -10
  br label %cond.end

cond.false:                                       ; preds = %if.then3
  %div5 = udiv i32 %n, 10
  br label %cond.end

cond.end:                                         ; preds = %cond.false, %cond.true
  %cond = phi i32 [ %div.neg, %cond.true ], [ %div5, %cond.false ]
  tail call fastcc void @number(i32 noundef signext %cond)
  br label %if.end6

if.end6:                                          ; preds = %if.end, %cond.end
  br i1 %cmp, label %cond.true8, label %cond.false10

cond.true8:                                       ; preds = %if.end6
  %rem = srem i32 %n, 10
  %sub9 = sub nsw i32 0, %rem
  br label %cond.end12

cond.false10:                                     ; preds = %if.end6
  %rem11 = urem i32 %n, 10
  br label %cond.end12

cond.end12:                                       ; preds = %cond.false10, %cond.true8
  %cond13 = phi i32 [ %sub9, %cond.true8 ], [ %rem11, %cond.false10 ]
  %add = add nuw nsw i32 %cond13, 48
  %call14 = tail call i32 @putchar(i32 noundef signext %add)
  ret void
}

; Function Attrs: nofree nounwind
declare noundef i32 @putchar(i32 noundef signext) local_unnamed_addr #0

; Function Attrs: mustprogress nocallback nofree nosync nounwind willreturn memory(argmem: readwrite)
declare void @llvm.lifetime.end.p0(i64 immarg, ptr nocapture) #1

; Function Attrs: nofree nounwind
define internal fastcc i32 @factor(ptr nocapture noundef %r) unnamed_addr #0 {
entry:
  %0 = load i32, ptr %r, align 4, !tbaa !4
  switch i32 %0, label %if.end14 [
    i32 45, label %if.then
    i32 40, label %if.then5
  ]

common.ret:                                       ; preds = %if.then5, %if.end14, %for.body, %if.then
  %common.ret.op = phi i32 [ %sub, %if.then ], [ %call8, %if.then5 ], [ 0, %if.end14 ], [ %sub34, %for.body ]
  ret i32 %common.ret.op

if.then:                                          ; preds = %entry
  %call = tail call i32 @getchar()
  store i32 %call, ptr %r, align 4, !tbaa !4
  %call2 = tail call fastcc i32 @factor(ptr noundef nonnull %r)
  %sub = sub nsw i32 0, %call2
  br label %common.ret

if.then5:                                         ; preds = %entry
  %call6 = tail call i32 @getchar()
  store i32 %call6, ptr %r, align 4, !tbaa !4
  %call8 = tail call fastcc i32 @sum(ptr noundef nonnull %r)
  %1 = load i32, ptr %r, align 4, !tbaa !4
  %cmp10 = icmp ne i32 %1, 41
  %wrong = getelementptr inbounds i8, ptr %r, i32 4
  %2 = load i8, ptr %wrong, align 4, !tbaa !10, !range !11, !noundef !12
  %3 = zext i1 %cmp10 to i8
  %4 = or i8 %2, %3
  store i8 %4, ptr %wrong, align 4, !tbaa !10
  %call12 = tail call i32 @getchar()
  store i32 %call12, ptr %r, align 4, !tbaa !4
  br label %common.ret

if.end14:                                         ; preds = %entry
  %5 = add i32 %0, -58
  %narrow = icmp ult i32 %5, -10
  %lor.ext = zext i1 %narrow to i8
  %wrong21 = getelementptr inbounds i8, ptr %r, i32 4
  %6 = load i8, ptr %wrong21, align 4, !tbaa !10, !range !11, !noundef !12
  %or24 = or i8 %6, %lor.ext
  store i8 %or24, ptr %wrong21, align 4, !tbaa !10
  %7 = load i32, ptr %r, align 4, !tbaa !4
  %8 = add i32 %7, -48
  %or.cond55 = icmp ult i32 %8, 10
  br i1 %or.cond55, label %for.body, label %common.ret

for.body:                                         ; preds = %if.end14, %for.body
  %9 = phi i32 [ %call35, %for.body ], [ %7, %if.end14 ]
  %n.056 = phi i32 [ %sub34, %for.body ], [ 0, %if.end14 ]
  %mul = mul nsw i32 %n.056, 10
  %add = add i32 %9, -48
  %sub34 = add i32 %add, %mul
  %call35 = tail call i32 @getchar()
  store i32 %call35, ptr %r, align 4, !tbaa !4
  %10 = add i32 %call35, -48
  %or.cond = icmp ult i32 %10, 10
  br i1 %or.cond, label %for.body, label %common.ret, !llvm.loop !18
}

attributes #0 = { nofree nounwind "no-trapping-math"="true" "stack-protector-buffer-size"="8" "target-cpu"="mips32r2" "target-features"="+fpxx,+mips32r2,+nooddspreg,-noabicalls" }
attributes #1 = { mustprogress nocallback nofree nosync nounwind willreturn memory(argmem: readwrite) }
attributes #2 = { nounwind }

!llvm.module.flags = !{!0, !1, !2}
!llvm.ident = !{!3}

!0 = !{i32 1, !"wchar_size", i32 4}
!1 = !{i32 8, !"PIC Level", i32 1}
!2 = !{i32 7, !"PIE Level", i32 1}
!3 = !{!"Debian clang version 19.1.7 (3~deb12u1)"}
!4 = !{!5, !6, i64 0}
!5 = !{!"reader", !6, i64 0, !9, i64 4}
!6 = !{!"int", !7, i64 0}
!7 = !{!"omnipotent char", !8, i64 0}
!8 = !{!"Simple C/C++ TBAA"}
!9 = !{!"_Bool", !7, i64 0}
!10 = !{!5, !9, i64 4}
!11 = !{i8 0, i8 2}
!12 = !{}
!13 = distinct !{!13, !14, !15}
!14 = !{!"llvm.loop.mustprogress"}
!15 = !{!"llvm.loop.unroll.disable"}
!16 = distinct !{!16, !14, !15}
!17 = distinct !{!17, !14, !15}
!18 = distinct !{!18, !14, !15}
