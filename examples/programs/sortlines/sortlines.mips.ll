source_filename = "sortlines.c"
target datalayout = "E-m:m-p:32:32-i8:8:32-i16:16:32-i64:64-n32-S64"
target triple = "mips-unknown-linux-gnu"

%struct.__stream = type { i8, i8, i8, i8, ptr, i32 }
%struct.number = type { i64, i32, i32 }

@options.0 = internal unnamed_addr global i1 false, align 4
@options.1 = internal unnamed_addr global i1 false, align 4
@options.2 = internal unnamed_addr global i1 false, align 4
@options.3 = internal unnamed_addr global i1 false, align 4
@options.4 = internal unnamed_addr global i32 0, align 4
@.str = private unnamed_addr constant [18 x i8] c"%zu of %zu lines\0A\00", align 1
@.str.1 = private unnamed_addr constant [15 x i8] c"out of memory\0A\00", align 1
@.str.13 = private unnamed_addr constant [1 x i8] zeroinitializer, align 1
@.str.5 = private unnamed_addr constant [3 x i8] c"0X\00", align 1
@.str.6 = private unnamed_addr constant [3 x i8] c"0x\00", align 1
@.str.8 = private unnamed_addr constant [17 x i8] c"0123456789ABCDEF\00", align 1
@.str.9 = private unnamed_addr constant [17 x i8] c"0123456789abcdef\00", align 1
@__streams = internal global [3 x %struct.__stream] [%struct.__stream zeroinitializer, %struct.__stream { i8 1, i8 0, i8 0, i8 0, ptr null, i32 0 }, %struct.__stream { i8 2, i8 0, i8 0, i8 0, ptr null, i32 0 }], align 4
@errno = internal local_unnamed_addr global i32 0, align 4

; Function Attrs: nounwind
define dso_local i32 @main() local_unnamed_addr #0 {
entry:
  %call = tail call fastcc ptr @read_line()
  %tobool.not = icmp eq ptr %call, null
  br i1 %tobool.not, label %cleanup, label %for.cond.i

for.cond.i:                                       ; preds = %for.inc.i, %entry
  %line.addr.0.i = phi ptr [ %incdec.ptr8.i, %for.inc.i ], [ %call, %entry ]
  %v0 = load i8, ptr %line.addr.0.i, align 1, !tbaa !4
  switch i8 %v0, label %for.inc.i [
    i8 0, label %read_options.exit
    i8 110, label %sw.bb.i
    i8 114, label %sw.bb1.i
    i8 117, label %sw.bb2.i
    i8 102, label %sw.bb3.i
    i8 107, label %sw.bb4.i
  ]

sw.bb.i:                                          ; preds = %for.cond.i
  store i1 true, ptr @options.0, align 4
  br label %for.inc.i

sw.bb1.i:                                         ; preds = %for.cond.i
  store i1 true, ptr @options.1, align 4
  br label %for.inc.i

sw.bb2.i:                                         ; preds = %for.cond.i
  store i1 true, ptr @options.2, align 4
  br label %for.inc.i

sw.bb3.i:                                         ; preds = %for.cond.i
  store i1 true, ptr @options.3, align 4
  br label %for.inc.i

sw.bb4.i:                                         ; preds = %for.cond.i
  %arrayidx.i = getelementptr inbounds i8, ptr %line.addr.0.i, i32 1
  %v1 = load i8, ptr %arrayidx.i, align 1, !tbaa !4
  %conv5.i = zext i8 %v1 to i32
  %isdigittmp.i = add nsw i32 %conv5.i, -48
  %isdigit.i = icmp ult i32 %isdigittmp.i, 10
  br i1 %isdigit.i, label %if.then.i, label %for.inc.i

if.then.i:                                        ; preds = %sw.bb4.i
  %conv7.i = sext i8 %v1 to i32
  %sub.i = add nsw i32 %conv7.i, -48
  store i32 %sub.i, ptr @options.4, align 4, !tbaa !7
  br label %for.inc.i

for.inc.i:                                        ; preds = %if.then.i, %sw.bb4.i, %sw.bb3.i, %sw.bb2.i, %sw.bb1.i, %sw.bb.i, %for.cond.i
  %line.addr.1.i = phi ptr [ %arrayidx.i, %if.then.i ], [ %line.addr.0.i, %sw.bb4.i ], [ %line.addr.0.i, %sw.bb3.i ], [ %line.addr.0.i, %sw.bb2.i ], [ %line.addr.0.i, %sw.bb1.i ], [ %line.addr.0.i, %sw.bb.i ], [ %line.addr.0.i, %for.cond.i ]
  %incdec.ptr8.i = getelementptr inbounds i8, ptr %line.addr.1.i, i32 1
  br label %for.cond.i, !llvm.loop !11

read_options.exit:                                ; preds = %for.cond.i
  tail call void @__sized_free(ptr noundef %call)
  %call134 = tail call fastcc ptr @read_line()
  %tobool2.not35 = icmp eq ptr %call134, null
  br i1 %tobool2.not35, label %while.end, label %while.body

while.body:                                       ; preds = %add.exit, %read_options.exit
  %call139 = phi ptr [ %call1, %add.exit ], [ %call134, %read_options.exit ]
  %lines.sroa.18.038 = phi i32 [ %lines.sroa.18.1, %add.exit ], [ 0, %read_options.exit ]
  %lines.sroa.11.037 = phi i32 [ %inc.i, %add.exit ], [ 0, %read_options.exit ]
  %lines.sroa.0.036 = phi ptr [ %lines.sroa.0.1, %add.exit ], [ null, %read_options.exit ]
  %cmp.i = icmp eq i32 %lines.sroa.11.037, %lines.sroa.18.038
  br i1 %cmp.i, label %if.then.i15, label %add.exit

if.then.i15:                                      ; preds = %while.body
  %tobool.not.i = icmp eq i32 %lines.sroa.18.038, 0
  %mul.i = shl i32 %lines.sroa.18.038, 1
  %spec.select.i = select i1 %tobool.not.i, i32 4, i32 %mul.i
  %mul5.i = shl i32 %spec.select.i, 2
  %call.i = tail call ptr @realloc(ptr noundef %lines.sroa.0.036, i32 noundef signext %mul5.i) #13
  %tobool.not.i.i = icmp eq ptr %call.i, null
  br i1 %tobool.not.i.i, label %if.then.i.i, label %add.exit

if.then.i.i:                                      ; preds = %if.then.i15
  %v2 = tail call i32 @fwrite(ptr nonnull @.str.1, i32 14, i32 1, ptr nonnull getelementptr inbounds (i8, ptr @__streams, i32 24))
  tail call void @exit(i32 noundef signext 1) #14
  unreachable

add.exit:                                         ; preds = %if.then.i15, %while.body
  %lines.sroa.0.1 = phi ptr [ %lines.sroa.0.036, %while.body ], [ %call.i, %if.then.i15 ]
  %lines.sroa.18.1 = phi i32 [ %lines.sroa.18.038, %while.body ], [ %spec.select.i, %if.then.i15 ]
  %inc.i = add i32 %lines.sroa.11.037, 1
  %arrayidx.i14 = getelementptr inbounds ptr, ptr %lines.sroa.0.1, i32 %lines.sroa.11.037
  store ptr %call139, ptr %arrayidx.i14, align 4, !tbaa !14
  %call1 = tail call fastcc ptr @read_line()
  %tobool2.not = icmp eq ptr %call1, null
  br i1 %tobool2.not, label %while.end, label %while.body, !llvm.loop !16

while.end:                                        ; preds = %add.exit, %read_options.exit
  %lines.sroa.0.0.lcssa = phi ptr [ null, %read_options.exit ], [ %lines.sroa.0.1, %add.exit ]
  %lines.sroa.11.0.lcssa = phi i32 [ 0, %read_options.exit ], [ %inc.i, %add.exit ]
  %cond = icmp eq i32 %lines.sroa.11.0.lcssa, 0
  br i1 %cond, label %for.cond22.preheader, label %if.then4

if.then4:                                         ; preds = %while.end
  tail call void @qsort(ptr noundef %lines.sroa.0.0.lcssa, i32 noundef signext %lines.sroa.11.0.lcssa, i32 noundef signext 4, ptr noundef nonnull @compare) #15
  br label %for.body

for.cond22.preheader:                             ; preds = %for.inc, %while.end
  %shown.0.lcssa = phi i32 [ 0, %while.end ], [ %shown.1, %for.inc ]
  br i1 %cond, label %for.cond.cleanup25, label %for.body26

for.body:                                         ; preds = %for.inc, %if.then4
  %k.043 = phi i32 [ %inc20, %for.inc ], [ 0, %if.then4 ]
  %shown.042 = phi i32 [ %shown.1, %for.inc ], [ 0, %if.then4 ]
  %.b13 = load i1, ptr @options.2, align 4
  %cmp8 = icmp ne i32 %k.043, 0
  %or.cond = and i1 %cmp8, %.b13
  br i1 %or.cond, label %land.lhs.true9, label %if.end16

land.lhs.true9:                                   ; preds = %for.body
  %v3 = getelementptr ptr, ptr %lines.sroa.0.0.lcssa, i32 %k.043
  %arrayidx = getelementptr i8, ptr %v3, i32 -4
  %v4 = load ptr, ptr %arrayidx, align 4, !tbaa !14
  %v5 = load ptr, ptr %v3, align 4, !tbaa !14
  %call13 = tail call fastcc i32 @order(ptr noundef %v4, ptr noundef %v5)
  %cmp14 = icmp eq i32 %call13, 0
  br i1 %cmp14, label %for.inc, label %if.end16

if.end16:                                         ; preds = %land.lhs.true9, %for.body
  %arrayidx18 = getelementptr inbounds ptr, ptr %lines.sroa.0.0.lcssa, i32 %k.043
  %v6 = load ptr, ptr %arrayidx18, align 4, !tbaa !14
  %call19 = tail call i32 @puts(ptr noundef nonnull dereferenceable(1) %v6)
  %inc = add i32 %shown.042, 1
  br label %for.inc

for.inc:                                          ; preds = %if.end16, %land.lhs.true9
  %shown.1 = phi i32 [ %shown.042, %land.lhs.true9 ], [ %inc, %if.end16 ]
  %inc20 = add nuw i32 %k.043, 1
  %exitcond.not = icmp eq i32 %inc20, %lines.sroa.11.0.lcssa
  br i1 %exitcond.not, label %for.cond22.preheader, label %for.body, !llvm.loop !17

for.cond.cleanup25:                               ; preds = %for.body26, %for.cond22.preheader
  tail call void @__sized_free(ptr noundef %lines.sroa.0.0.lcssa)
  %print.176.0 = zext i32 %shown.0.lcssa to i64
  %print.176.1 = tail call i32 @__print_unsigned(ptr nonnull getelementptr inbounds (i8, ptr @__streams, i32 12), i64 %print.176.0, i32 10, i32 0, i32 0, i32 -1) #15
  %print.176.2 = tail call i32 @__print_text(ptr nonnull getelementptr inbounds (i8, ptr @__streams, i32 12), ptr nonnull getelementptr inbounds (i8, ptr @.str, i32 3), i32 4) #15
  %print.176.3 = zext i32 %lines.sroa.11.0.lcssa to i64
  %print.176.4 = tail call i32 @__print_unsigned(ptr nonnull getelementptr inbounds (i8, ptr @__streams, i32 12), i64 %print.176.3, i32 10, i32 0, i32 0, i32 -1) #15
  %print.176.5 = tail call i32 @__print_text(ptr nonnull getelementptr inbounds (i8, ptr @__streams, i32 12), ptr nonnull getelementptr inbounds (i8, ptr @.str, i32 10), i32 7) #15
  br label %cleanup

for.body26:                                       ; preds = %for.body26, %for.cond22.preheader
  %k21.046 = phi i32 [ %inc30, %for.body26 ], [ 0, %for.cond22.preheader ]
  %arrayidx28 = getelementptr inbounds ptr, ptr %lines.sroa.0.0.lcssa, i32 %k21.046
  %v7 = load ptr, ptr %arrayidx28, align 4, !tbaa !14
  tail call void @__sized_free(ptr noundef %v7)
  %inc30 = add nuw i32 %k21.046, 1
  %exitcond47.not = icmp eq i32 %inc30, %lines.sroa.11.0.lcssa
  br i1 %exitcond47.not, label %for.cond.cleanup25, label %for.body26, !llvm.loop !18

cleanup:                                          ; preds = %for.cond.cleanup25, %entry
  %retval.0 = phi i32 [ %shown.0.lcssa, %for.cond.cleanup25 ], [ 0, %entry ]
  ret i32 %retval.0
}

; Function Attrs: nounwind
define internal fastcc noalias ptr @read_line() unnamed_addr #0 {
entry:
  %call = tail call dereferenceable_or_null(16) ptr @__sized_malloc(i32 noundef signext 16) #16
  %tobool.not.i = icmp eq ptr %call, null
  br i1 %tobool.not.i, label %if.then.i, label %while.cond

if.then.i:                                        ; preds = %entry
  %v0 = tail call i32 @fwrite(ptr nonnull @.str.1, i32 14, i32 1, ptr nonnull getelementptr inbounds (i8, ptr @__streams, i32 24))
  tail call void @exit(i32 noundef signext 1) #14
  unreachable

while.cond:                                       ; preds = %if.end, %entry
  %n.0 = phi i32 [ %add, %if.end ], [ 0, %entry ]
  %room.0 = phi i32 [ %room.1, %if.end ], [ 16, %entry ]
  %line.0 = phi ptr [ %line.1, %if.end ], [ %call, %entry ]
  %call2 = tail call i32 @getc(ptr noundef nonnull @__streams)
  switch i32 %call2, label %while.body [
    i32 -1, label %while.end
    i32 10, label %while.end
  ]

while.body:                                       ; preds = %while.cond
  %add = add i32 %n.0, 1
  %cmp4 = icmp eq i32 %add, %room.0
  br i1 %cmp4, label %if.then, label %if.end

if.then:                                          ; preds = %while.body
  %mul = shl i32 %room.0, 1
  %call5 = tail call ptr @realloc(ptr noundef %line.0, i32 noundef signext %mul) #13
  %tobool.not.i12 = icmp eq ptr %call5, null
  br i1 %tobool.not.i12, label %if.then.i13, label %if.end

if.then.i13:                                      ; preds = %if.then
  %v1 = tail call i32 @fwrite(ptr nonnull @.str.1, i32 14, i32 1, ptr nonnull getelementptr inbounds (i8, ptr @__streams, i32 24))
  tail call void @exit(i32 noundef signext 1) #14
  unreachable

if.end:                                           ; preds = %if.then, %while.body
  %room.1 = phi i32 [ %room.0, %while.body ], [ %mul, %if.then ]
  %line.1 = phi ptr [ %line.0, %while.body ], [ %call5, %if.then ]
  %conv = trunc i32 %call2 to i8
  %arrayidx = getelementptr inbounds i8, ptr %line.1, i32 %n.0
  store i8 %conv, ptr %arrayidx, align 1, !tbaa !4
  br label %while.cond, !llvm.loop !19

while.end:                                        ; preds = %while.cond, %while.cond
  %cmp7 = icmp eq i32 %call2, -1
  %cmp9 = icmp eq i32 %n.0, 0
  %or.cond = and i1 %cmp9, %cmp7
  br i1 %or.cond, label %if.then11, label %if.end12

if.then11:                                        ; preds = %while.end
  tail call void @__sized_free(ptr noundef %line.0)
  br label %cleanup

if.end12:                                         ; preds = %while.end
  %arrayidx13 = getelementptr inbounds i8, ptr %line.0, i32 %n.0
  store i8 0, ptr %arrayidx13, align 1, !tbaa !4
  br label %cleanup

cleanup:                                          ; preds = %if.end12, %if.then11
  %retval.0 = phi ptr [ null, %if.then11 ], [ %line.0, %if.end12 ]
  ret ptr %retval.0
}

; Function Attrs: noinline nounwind optsize
define internal void @__sized_free(ptr noundef %block) local_unnamed_addr #1 {
entry:
  %tobool.not = icmp eq ptr %block, null
  br i1 %tobool.not, label %if.end, label %if.then

if.then:                                          ; preds = %entry
  %add.ptr = getelementptr inbounds i8, ptr %block, i32 -16
  tail call void @free(ptr noundef nonnull %add.ptr) #17
  br label %if.end

if.end:                                           ; preds = %if.then, %entry
  ret void
}

; Function Attrs: nounwind optsize
define internal ptr @realloc(ptr noundef %block, i32 noundef signext %n) local_unnamed_addr #2 {
entry:
  %tobool.not = icmp eq ptr %block, null
  br i1 %tobool.not, label %if.then, label %if.end

if.then:                                          ; preds = %entry
  %call = tail call ptr @__sized_malloc(i32 noundef signext %n) #18
  br label %return

if.end:                                           ; preds = %entry
  %cmp = icmp eq i32 %n, 0
  br i1 %cmp, label %if.then1, label %if.end2

if.then1:                                         ; preds = %if.end
  tail call void @__sized_free(ptr noundef nonnull %block) #18
  br label %return

if.end2:                                          ; preds = %if.end
  %call3 = tail call ptr @__sized_malloc(i32 noundef signext %n) #18
  %tobool4.not = icmp eq ptr %call3, null
  br i1 %tobool4.not, label %return, label %if.end6

if.end6:                                          ; preds = %if.end2
  %add.ptr.i = getelementptr inbounds i8, ptr %block, i32 -16
  %v0 = load i32, ptr %add.ptr.i, align 4, !tbaa !20
  %cmp.not3.i = icmp eq i32 %v0, 0
  br i1 %cmp.not3.i, label %memcpy.exit, label %while.body.i.preheader

while.body.i.preheader:                           ; preds = %if.end6
  %spec.select = tail call i32 @llvm.umin.i32(i32 %v0, i32 %n)
  br label %while.body.i

while.body.i:                                     ; preds = %while.body.i, %while.body.i.preheader
  %s.06.i = phi ptr [ %incdec.ptr.i, %while.body.i ], [ %block, %while.body.i.preheader ]
  %d.05.i = phi ptr [ %incdec.ptr1.i, %while.body.i ], [ %call3, %while.body.i.preheader ]
  %n.addr.04.i = phi i32 [ %dec.i, %while.body.i ], [ %spec.select, %while.body.i.preheader ]
  %dec.i = add i32 %n.addr.04.i, -1
  %incdec.ptr.i = getelementptr inbounds i8, ptr %s.06.i, i32 1
  %v1 = load i8, ptr %s.06.i, align 1, !tbaa !4, !alias.scope !21, !noalias !24
  %incdec.ptr1.i = getelementptr inbounds i8, ptr %d.05.i, i32 1
  store i8 %v1, ptr %d.05.i, align 1, !tbaa !4, !alias.scope !24, !noalias !21
  %cmp.not.i = icmp eq i32 %dec.i, 0
  br i1 %cmp.not.i, label %memcpy.exit, label %while.body.i, !llvm.loop !26

memcpy.exit:                                      ; preds = %while.body.i, %if.end6
  tail call void @__sized_free(ptr noundef nonnull %block) #18
  br label %return

return:                                           ; preds = %memcpy.exit, %if.end2, %if.then1, %if.then
  %retval.1 = phi ptr [ null, %if.then1 ], [ %call, %if.then ], [ %call3, %memcpy.exit ], [ null, %if.end2 ]
  ret ptr %retval.1
}

; Function Attrs: nounwind optsize
define internal noundef i32 @fwrite(ptr noalias nocapture noundef readonly %from, i32 noundef signext %size, i32 noundef signext %count, ptr noalias nocapture noundef %stream) local_unnamed_addr #2 {
entry:
  %v0 = load i8, ptr %stream, align 4, !tbaa !27
  %cmp = icmp eq i8 %v0, 0
  br i1 %cmp, label %cleanup, label %for.cond.preheader

for.cond.preheader:                               ; preds = %entry
  %mul = mul i32 %count, %size
  %cmp210.not = icmp eq i32 %mul, 0
  br i1 %cmp210.not, label %for.cond.cleanup, label %for.body

for.cond.cleanup:                                 ; preds = %for.body, %for.cond.preheader
  %tobool.not = icmp eq i32 %size, 0
  %cond = select i1 %tobool.not, i32 0, i32 %count
  br label %cleanup

for.body:                                         ; preds = %for.body, %for.cond.preheader
  %k.011 = phi i32 [ %inc, %for.body ], [ 0, %for.cond.preheader ]
  %arrayidx = getelementptr inbounds i8, ptr %from, i32 %k.011
  %v1 = load i8, ptr %arrayidx, align 1, !tbaa !4
  %conv4 = zext i8 %v1 to i32
  %call = tail call i32 @fputc(i32 noundef signext %conv4, ptr noundef nonnull %stream) #18
  %inc = add nuw i32 %k.011, 1
  %exitcond.not = icmp eq i32 %inc, %mul
  br i1 %exitcond.not, label %for.cond.cleanup, label %for.body, !llvm.loop !29

cleanup:                                          ; preds = %for.cond.cleanup, %entry
  %retval.0 = phi i32 [ %cond, %for.cond.cleanup ], [ 0, %entry ]
  ret i32 %retval.0
}

; Function Attrs: noreturn
declare dso_local void @exit(i32 noundef signext) local_unnamed_addr #3

; Function Attrs: nofree nounwind
define internal i32 @compare(ptr nocapture noundef readonly %a, ptr nocapture noundef readonly %b) #4 {
entry:
  %v0 = load ptr, ptr %a, align 4, !tbaa !14
  %v1 = load ptr, ptr %b, align 4, !tbaa !14
  %call = tail call fastcc i32 @order(ptr noundef %v0, ptr noundef %v1)
  %.b2 = load i1, ptr @options.1, align 4
  %sub = sub nsw i32 0, %call
  %cond = select i1 %.b2, i32 %sub, i32 %call
  ret i32 %cond
}

; Function Attrs: nounwind optsize
define internal void @qsort(ptr noundef %base, i32 noundef signext %count, i32 noundef signext %size, ptr noundef %compare) local_unnamed_addr #2 {
entry:
  %cmp = icmp ult i32 %count, 2
  %cmp1 = icmp eq i32 %size, 0
  %or.cond = or i1 %cmp, %cmp1
  br i1 %or.cond, label %cleanup.cont, label %if.end

if.end:                                           ; preds = %entry
  %div14 = lshr i32 %count, 1
  %mul = mul i32 %div14, %size
  %call = tail call ptr @__sized_malloc(i32 noundef signext %mul) #17
  %tobool.not = icmp eq ptr %call, null
  br i1 %tobool.not, label %for.body.i, label %if.end3

for.body.i:                                       ; preds = %for.body.i, %if.end
  %k.022.i = phi i32 [ %dec.i, %for.body.i ], [ %div14, %if.end ]
  %dec.i = add nsw i32 %k.022.i, -1
  tail call fastcc void @sink(ptr noundef %base, i32 noundef signext %dec.i, i32 noundef signext %count, i32 noundef signext %size, ptr noundef readonly %compare) #18
  %cmp.not.i = icmp eq i32 %dec.i, 0
  br i1 %cmp.not.i, label %while.body.i.preheader.i, label %for.body.i, !llvm.loop !30

while.body.i.preheader.i:                         ; preds = %swap.exit.i, %for.body.i
  %k1.024.i = phi i32 [ %dec3.i, %swap.exit.i ], [ %count, %for.body.i ]
  %dec3.i = add i32 %k1.024.i, -1
  %mul.i = mul i32 %dec3.i, %size
  %add.ptr.i = getelementptr inbounds i8, ptr %base, i32 %mul.i
  br label %while.body.i.i

while.body.i.i:                                   ; preds = %while.body.i.i, %while.body.i.preheader.i
  %a.addr.07.i.i = phi ptr [ %incdec.ptr.i.i, %while.body.i.i ], [ %base, %while.body.i.preheader.i ]
  %size.addr.06.i.i = phi i32 [ %dec.i.i, %while.body.i.i ], [ %size, %while.body.i.preheader.i ]
  %b.addr.05.i.i = phi ptr [ %incdec.ptr1.i.i, %while.body.i.i ], [ %add.ptr.i, %while.body.i.preheader.i ]
  %dec.i.i = add i32 %size.addr.06.i.i, -1
  %v0 = load i8, ptr %a.addr.07.i.i, align 1, !tbaa !4
  %v1 = load i8, ptr %b.addr.05.i.i, align 1, !tbaa !4
  %incdec.ptr.i.i = getelementptr inbounds i8, ptr %a.addr.07.i.i, i32 1
  store i8 %v1, ptr %a.addr.07.i.i, align 1, !tbaa !4
  %incdec.ptr1.i.i = getelementptr inbounds i8, ptr %b.addr.05.i.i, i32 1
  store i8 %v0, ptr %b.addr.05.i.i, align 1, !tbaa !4
  %cmp.not.i.i = icmp eq i32 %dec.i.i, 0
  br i1 %cmp.not.i.i, label %swap.exit.i, label %while.body.i.i, !llvm.loop !31

swap.exit.i:                                      ; preds = %while.body.i.i
  tail call fastcc void @sink(ptr noundef %base, i32 noundef signext 0, i32 noundef signext %dec3.i, i32 noundef signext %size, ptr noundef readonly %compare) #18
  %cmp4.i = icmp ugt i32 %dec3.i, 1
  br i1 %cmp4.i, label %while.body.i.preheader.i, label %cleanup.cont, !llvm.loop !32

if.end3:                                          ; preds = %if.end
  tail call fastcc void @merge_sort(ptr noundef %base, i32 noundef signext %count, i32 noundef signext %size, ptr noundef %compare, ptr noundef nonnull %call) #18
  tail call void @__sized_free(ptr noundef nonnull %call) #17
  br label %cleanup.cont

cleanup.cont:                                     ; preds = %if.end3, %swap.exit.i, %entry
  ret void
}

; Function Attrs: nofree nounwind
define internal fastcc i32 @order(ptr nocapture noundef readonly %a, ptr nocapture noundef readonly %b) unnamed_addr #4 {
entry:
  %v0 = load i32, ptr @options.4, align 4, !tbaa !7
  %cmp12.i = icmp sgt i32 %v0, 1
  br i1 %cmp12.i, label %while.cond.preheader.i, label %for.cond.cleanup.i

while.cond.preheader.i:                           ; preds = %for.inc.i, %entry
  %k.014.i = phi i32 [ %inc.i, %for.inc.i ], [ 1, %entry ]
  %line.addr.013.i = phi ptr [ %line.addr.2.lcssa.i, %for.inc.i ], [ %a, %entry ]
  br label %while.cond.i

for.cond.cleanup.i:                               ; preds = %for.inc.i, %entry
  %line.addr.0.lcssa.i = phi ptr [ %a, %entry ], [ %line.addr.2.lcssa.i, %for.inc.i ]
  %tobool10.not.i = icmp eq i32 %v0, 0
  br i1 %tobool10.not.i, label %key.exit, label %while.cond11.i

while.cond.i:                                     ; preds = %while.cond.i, %while.cond.preheader.i
  %line.addr.1.i = phi ptr [ %incdec.ptr.i, %while.cond.i ], [ %line.addr.013.i, %while.cond.preheader.i ]
  %v1 = load i8, ptr %line.addr.1.i, align 1, !tbaa !4
  %conv.i = zext i8 %v1 to i32
  %call.i = tail call i32 @isspace(i32 noundef signext %conv.i) #19
  %tobool.not.i = icmp eq i32 %call.i, 0
  %incdec.ptr.i = getelementptr inbounds i8, ptr %line.addr.1.i, i32 1
  br i1 %tobool.not.i, label %while.cond1.preheader.i, label %while.cond.i, !llvm.loop !33

while.cond1.preheader.i:                          ; preds = %while.cond.i
  %tobool3.not9.i = icmp eq i8 %v1, 0
  br i1 %tobool3.not9.i, label %for.inc.i, label %land.rhs.i

land.rhs.i:                                       ; preds = %while.body7.i, %while.cond1.preheader.i
  %v2 = phi i8 [ %v3, %while.body7.i ], [ %v1, %while.cond1.preheader.i ]
  %line.addr.210.i = phi ptr [ %incdec.ptr8.i, %while.body7.i ], [ %line.addr.1.i, %while.cond1.preheader.i ]
  %conv4.i = zext i8 %v2 to i32
  %call5.i = tail call i32 @isspace(i32 noundef signext %conv4.i) #19
  %tobool6.not.i = icmp eq i32 %call5.i, 0
  br i1 %tobool6.not.i, label %while.body7.i, label %for.inc.i

while.body7.i:                                    ; preds = %land.rhs.i
  %incdec.ptr8.i = getelementptr inbounds i8, ptr %line.addr.210.i, i32 1
  %v3 = load i8, ptr %incdec.ptr8.i, align 1, !tbaa !4
  %tobool3.not.i = icmp eq i8 %v3, 0
  br i1 %tobool3.not.i, label %for.inc.i, label %land.rhs.i, !llvm.loop !34

for.inc.i:                                        ; preds = %while.body7.i, %land.rhs.i, %while.cond1.preheader.i
  %line.addr.2.lcssa.i = phi ptr [ %line.addr.1.i, %while.cond1.preheader.i ], [ %incdec.ptr8.i, %while.body7.i ], [ %line.addr.210.i, %land.rhs.i ]
  %inc.i = add nuw nsw i32 %k.014.i, 1
  %exitcond.not.i = icmp eq i32 %inc.i, %v0
  br i1 %exitcond.not.i, label %for.cond.cleanup.i, label %while.cond.preheader.i, !llvm.loop !35

while.cond11.i:                                   ; preds = %while.cond11.i, %for.cond.cleanup.i
  %line.addr.3.i = phi ptr [ %incdec.ptr16.i, %while.cond11.i ], [ %line.addr.0.lcssa.i, %for.cond.cleanup.i ]
  %v4 = load i8, ptr %line.addr.3.i, align 1, !tbaa !4
  %conv12.i = zext i8 %v4 to i32
  %call13.i = tail call i32 @isspace(i32 noundef signext %conv12.i) #19
  %tobool14.not.i = icmp eq i32 %call13.i, 0
  %incdec.ptr16.i = getelementptr inbounds i8, ptr %line.addr.3.i, i32 1
  br i1 %tobool14.not.i, label %key.exit, label %while.cond11.i, !llvm.loop !36

key.exit:                                         ; preds = %while.cond11.i, %for.cond.cleanup.i
  %line.addr.4.i = phi ptr [ %line.addr.0.lcssa.i, %for.cond.cleanup.i ], [ %line.addr.3.i, %while.cond11.i ]
  br i1 %cmp12.i, label %while.cond.preheader.i23, label %for.cond.cleanup.i13

while.cond.preheader.i23:                         ; preds = %for.inc.i39, %key.exit
  %k.014.i24 = phi i32 [ %inc.i41, %for.inc.i39 ], [ 1, %key.exit ]
  %line.addr.013.i25 = phi ptr [ %line.addr.2.lcssa.i40, %for.inc.i39 ], [ %b, %key.exit ]
  br label %while.cond.i26

for.cond.cleanup.i13:                             ; preds = %for.inc.i39, %key.exit
  %line.addr.0.lcssa.i14 = phi ptr [ %b, %key.exit ], [ %line.addr.2.lcssa.i40, %for.inc.i39 ]
  br i1 %tobool10.not.i, label %key.exit46, label %while.cond11.i16

while.cond.i26:                                   ; preds = %while.cond.i26, %while.cond.preheader.i23
  %line.addr.1.i27 = phi ptr [ %incdec.ptr.i31, %while.cond.i26 ], [ %line.addr.013.i25, %while.cond.preheader.i23 ]
  %v5 = load i8, ptr %line.addr.1.i27, align 1, !tbaa !4
  %conv.i28 = zext i8 %v5 to i32
  %call.i29 = tail call i32 @isspace(i32 noundef signext %conv.i28) #19
  %tobool.not.i30 = icmp eq i32 %call.i29, 0
  %incdec.ptr.i31 = getelementptr inbounds i8, ptr %line.addr.1.i27, i32 1
  br i1 %tobool.not.i30, label %while.cond1.preheader.i32, label %while.cond.i26, !llvm.loop !37

while.cond1.preheader.i32:                        ; preds = %while.cond.i26
  %tobool3.not9.i33 = icmp eq i8 %v5, 0
  br i1 %tobool3.not9.i33, label %for.inc.i39, label %land.rhs.i34

land.rhs.i34:                                     ; preds = %while.body7.i43, %while.cond1.preheader.i32
  %v6 = phi i8 [ %v7, %while.body7.i43 ], [ %v5, %while.cond1.preheader.i32 ]
  %line.addr.210.i35 = phi ptr [ %incdec.ptr8.i44, %while.body7.i43 ], [ %line.addr.1.i27, %while.cond1.preheader.i32 ]
  %conv4.i36 = zext i8 %v6 to i32
  %call5.i37 = tail call i32 @isspace(i32 noundef signext %conv4.i36) #19
  %tobool6.not.i38 = icmp eq i32 %call5.i37, 0
  br i1 %tobool6.not.i38, label %while.body7.i43, label %for.inc.i39

while.body7.i43:                                  ; preds = %land.rhs.i34
  %incdec.ptr8.i44 = getelementptr inbounds i8, ptr %line.addr.210.i35, i32 1
  %v7 = load i8, ptr %incdec.ptr8.i44, align 1, !tbaa !4
  %tobool3.not.i45 = icmp eq i8 %v7, 0
  br i1 %tobool3.not.i45, label %for.inc.i39, label %land.rhs.i34, !llvm.loop !38

for.inc.i39:                                      ; preds = %while.body7.i43, %land.rhs.i34, %while.cond1.preheader.i32
  %line.addr.2.lcssa.i40 = phi ptr [ %line.addr.1.i27, %while.cond1.preheader.i32 ], [ %incdec.ptr8.i44, %while.body7.i43 ], [ %line.addr.210.i35, %land.rhs.i34 ]
  %inc.i41 = add nuw nsw i32 %k.014.i24, 1
  %exitcond.not.i42 = icmp eq i32 %inc.i41, %v0
  br i1 %exitcond.not.i42, label %for.cond.cleanup.i13, label %while.cond.preheader.i23, !llvm.loop !39

while.cond11.i16:                                 ; preds = %while.cond11.i16, %for.cond.cleanup.i13
  %line.addr.3.i17 = phi ptr [ %incdec.ptr16.i21, %while.cond11.i16 ], [ %line.addr.0.lcssa.i14, %for.cond.cleanup.i13 ]
  %v8 = load i8, ptr %line.addr.3.i17, align 1, !tbaa !4
  %conv12.i18 = zext i8 %v8 to i32
  %call13.i19 = tail call i32 @isspace(i32 noundef signext %conv12.i18) #19
  %tobool14.not.i20 = icmp eq i32 %call13.i19, 0
  %incdec.ptr16.i21 = getelementptr inbounds i8, ptr %line.addr.3.i17, i32 1
  br i1 %tobool14.not.i20, label %key.exit46, label %while.cond11.i16, !llvm.loop !40

key.exit46:                                       ; preds = %while.cond11.i16, %for.cond.cleanup.i13
  %line.addr.4.i22 = phi ptr [ %line.addr.0.lcssa.i14, %for.cond.cleanup.i13 ], [ %line.addr.3.i17, %while.cond11.i16 ]
  %.b10 = load i1, ptr @options.0, align 4
  br i1 %.b10, label %if.then, label %if.end7

if.then:                                          ; preds = %key.exit46
  %call2 = tail call i32 @strtol(ptr nocapture noundef %line.addr.4.i, ptr noundef null, i32 noundef signext 10)
  %call3 = tail call i32 @strtol(ptr nocapture noundef %line.addr.4.i22, ptr noundef null, i32 noundef signext 10)
  %cmp.not.not = icmp eq i32 %call2, %call3
  %cmp5 = icmp slt i32 %call2, %call3
  %cond = select i1 %cmp5, i32 -1, i32 1
  br i1 %cmp.not.not, label %if.end7, label %return

if.end7:                                          ; preds = %if.then, %key.exit46
  %.b911 = load i1, ptr @options.3, align 4
  br i1 %.b911, label %cond.true, label %cond.false

cond.true:                                        ; preds = %if.end7
  %call9 = tail call i32 @strcasecmp(ptr noundef %line.addr.4.i, ptr noundef %line.addr.4.i22)
  br label %return

cond.false:                                       ; preds = %if.end7
  %call10 = tail call i32 @strcmp(ptr noundef nonnull dereferenceable(1) %line.addr.4.i, ptr noundef nonnull dereferenceable(1) %line.addr.4.i22) #15
  br label %return

return:                                           ; preds = %cond.false, %cond.true, %if.then
  %retval.1 = phi i32 [ %cond, %if.then ], [ %call9, %cond.true ], [ %call10, %cond.false ]
  ret i32 %retval.1
}

; Function Attrs: nofree nounwind
declare dso_local noundef i32 @puts(ptr nocapture noundef readonly) local_unnamed_addr #4

; Function Attrs: nounwind optsize
define internal i32 @__print_unsigned(ptr nocapture noundef %stream, i64 noundef zeroext %n, i32 noundef signext %base, i32 noundef signext %flags, i32 noundef signext %width, i32 noundef signext %precision) local_unnamed_addr #2 {
entry:
  %room = alloca [24 x i8], align 1
  call void @llvm.lifetime.start.p0(i64 24, ptr nonnull %room) #15
  %and.i = and i32 %flags, 32
  %tobool.not.i = icmp eq i32 %and.i, 0
  %cond.i = select i1 %tobool.not.i, ptr @.str.9, ptr @.str.8
  %cmp.i = icmp ult i64 %n, 4294967296
  br i1 %cmp.i, label %if.then.i, label %for.cond3.preheader.i

for.cond3.preheader.i:                            ; preds = %entry
  %conv7.i = zext i32 %base to i64
  br label %for.body6.i

if.then.i:                                        ; preds = %entry
  %conv.i = trunc nuw i64 %n to i32
  %cmp1.not31.i = icmp eq i32 %conv.i, 0
  br i1 %cmp1.not31.i, label %spelled.exit, label %for.body.i

for.body.i:                                       ; preds = %for.body.i, %if.then.i
  %k.033.i = phi i32 [ %div.i, %for.body.i ], [ %conv.i, %if.then.i ]
  %end.addr.032.i.idx = phi i32 [ %end.addr.032.i.add, %for.body.i ], [ 24, %if.then.i ]
  %rem.i = urem i32 %k.033.i, %base
  %arrayidx.i = getelementptr inbounds i8, ptr %cond.i, i32 %rem.i
  %v0 = load i8, ptr %arrayidx.i, align 1, !tbaa !4
  %end.addr.032.i.add = add nsw i32 %end.addr.032.i.idx, -1
  %incdec.ptr.i.ptr = getelementptr inbounds i8, ptr %room, i32 %end.addr.032.i.add
  store i8 %v0, ptr %incdec.ptr.i.ptr, align 1, !tbaa !4
  %div.i = udiv i32 %k.033.i, %base
  %cmp1.not.i = icmp ult i32 %k.033.i, %base
  br i1 %cmp1.not.i, label %spelled.exit, label %for.body.i, !llvm.loop !41

for.body6.i:                                      ; preds = %for.body6.i, %for.cond3.preheader.i
  %end.addr.130.i.idx = phi i32 [ 24, %for.cond3.preheader.i ], [ %end.addr.130.i.add, %for.body6.i ]
  %n.addr.029.i = phi i64 [ %n, %for.cond3.preheader.i ], [ %div13.i, %for.body6.i ]
  %div13.i = udiv i64 %n.addr.029.i, %conv7.i
  %v1 = mul i64 %div13.i, %conv7.i
  %rem8.i.decomposed = sub i64 %n.addr.029.i, %v1
  %idxprom.i = trunc nuw i64 %rem8.i.decomposed to i32
  %arrayidx9.i = getelementptr inbounds i8, ptr %cond.i, i32 %idxprom.i
  %v2 = load i8, ptr %arrayidx9.i, align 1, !tbaa !4
  %end.addr.130.i.add = add nsw i32 %end.addr.130.i.idx, -1
  %incdec.ptr10.i.ptr = getelementptr inbounds i8, ptr %room, i32 %end.addr.130.i.add
  store i8 %v2, ptr %incdec.ptr10.i.ptr, align 1, !tbaa !4
  %cmp4.not.i = icmp ult i64 %n.addr.029.i, %conv7.i
  br i1 %cmp4.not.i, label %spelled.exit, label %for.body6.i, !llvm.loop !42

spelled.exit:                                     ; preds = %for.body6.i, %for.body.i, %if.then.i
  %retval.0.i.idx = phi i32 [ 24, %if.then.i ], [ %end.addr.032.i.add, %for.body.i ], [ %end.addr.130.i.add, %for.body6.i ]
  %cmp = icmp eq i64 %n, 0
  %cmp1 = icmp ne i32 %precision, 0
  %or.cond = and i1 %cmp, %cmp1
  br i1 %or.cond, label %if.then, label %if.end

if.then:                                          ; preds = %spelled.exit
  %retval.0.i.add = add nsw i32 %retval.0.i.idx, -1
  %incdec.ptr.ptr = getelementptr inbounds i8, ptr %room, i32 %retval.0.i.add
  store i8 48, ptr %incdec.ptr.ptr, align 1, !tbaa !4
  br label %if.end

if.end:                                           ; preds = %if.then, %spelled.exit
  %at.0.idx = phi i32 [ %retval.0.i.add, %if.then ], [ %retval.0.i.idx, %spelled.exit ]
  %at.0.ptr = getelementptr inbounds i8, ptr %room, i32 %at.0.idx
  %and = and i32 %flags, 8
  %tobool = icmp ne i32 %and, 0
  %cmp13 = icmp eq i32 %base, 8
  %or.cond29 = and i1 %cmp13, %tobool
  %gepdiff = sub nsw i32 24, %at.0.idx
  %cmp15.not = icmp sge i32 %gepdiff, %precision
  %or.cond49.not = select i1 %or.cond29, i1 %cmp15.not, i1 false
  br i1 %or.cond49.not, label %land.lhs.true16, label %if.end22

land.lhs.true16:                                  ; preds = %if.end
  %cmp17 = icmp eq i32 %at.0.idx, 24
  br i1 %cmp17, label %if.then20, label %lor.lhs.false

lor.lhs.false:                                    ; preds = %land.lhs.true16
  %v3 = load i8, ptr %at.0.ptr, align 1, !tbaa !4
  %cmp18.not = icmp eq i8 %v3, 48
  br i1 %cmp18.not, label %if.end22, label %if.then20

if.then20:                                        ; preds = %lor.lhs.false, %land.lhs.true16
  %incdec.ptr21 = getelementptr inbounds i8, ptr %at.0.ptr, i32 -1
  store i8 48, ptr %incdec.ptr21, align 1, !tbaa !4
  br label %if.end22

if.end22:                                         ; preds = %if.then20, %lor.lhs.false, %if.end
  %at.1 = phi ptr [ %incdec.ptr21, %if.then20 ], [ %at.0.ptr, %lor.lhs.false ], [ %at.0.ptr, %if.end ]
  %add.ptr.ptr = getelementptr inbounds i8, ptr %room, i32 24
  %sub.ptr.lhs.cast = ptrtoint ptr %add.ptr.ptr to i32
  %cmp3 = icmp eq i32 %base, 16
  %cmp5 = icmp ne i64 %n, 0
  %v4 = and i1 %cmp5, %cmp3
  %or.cond28 = and i1 %v4, %tobool
  %cond = select i1 %tobool.not.i, ptr @.str.6, ptr @.str.5
  %front.0 = select i1 %or.cond28, ptr %cond, ptr @.str.13
  %sub.ptr.rhs.cast24 = ptrtoint ptr %at.1 to i32
  %sub.ptr.sub25 = sub i32 %sub.ptr.lhs.cast, %sub.ptr.rhs.cast24
  %call26 = call fastcc i32 @number(ptr noundef %stream, ptr noundef nonnull %front.0, ptr noundef nonnull %at.1, i32 noundef signext %sub.ptr.sub25, i32 noundef signext %flags, i32 noundef signext %width, i32 noundef signext %precision) #18
  call void @llvm.lifetime.end.p0(i64 24, ptr nonnull %room) #15
  ret i32 %call26
}

; Function Attrs: nounwind optsize
define internal noundef i32 @__print_text(ptr nocapture noundef %stream, ptr nocapture noundef readonly %text, i32 noundef returned signext %n) local_unnamed_addr #2 {
entry:
  %v0 = load i8, ptr %stream, align 4, !tbaa !27, !alias.scope !43, !noalias !46
  %cmp.i = icmp eq i8 %v0, 0
  %cmp210.not.i = icmp eq i32 %n, 0
  %or.cond = or i1 %cmp210.not.i, %cmp.i
  br i1 %or.cond, label %fwrite.exit, label %for.body.i

for.body.i:                                       ; preds = %for.body.i, %entry
  %k.011.i = phi i32 [ %inc.i, %for.body.i ], [ 0, %entry ]
  %arrayidx.i = getelementptr inbounds i8, ptr %text, i32 %k.011.i
  %v1 = load i8, ptr %arrayidx.i, align 1, !tbaa !4, !alias.scope !46, !noalias !43
  %conv4.i = zext i8 %v1 to i32
  %call.i = tail call i32 @fputc(i32 noundef signext %conv4.i, ptr noundef nonnull %stream) #18, !noalias !46
  %inc.i = add nuw i32 %k.011.i, 1
  %exitcond.not.i = icmp eq i32 %inc.i, %n
  br i1 %exitcond.not.i, label %fwrite.exit, label %for.body.i, !llvm.loop !29

fwrite.exit:                                      ; preds = %for.body.i, %entry
  ret i32 %n
}

; Function Attrs: nounwind optsize
define internal range(i32 -1, 256) i32 @fputc(i32 noundef signext %c, ptr nocapture noundef %stream) local_unnamed_addr #2 {
entry:
  %v0 = load i8, ptr %stream, align 4, !tbaa !27
  switch i8 %v0, label %if.end18 [
    i8 1, label %if.then
    i8 3, label %land.lhs.true
    i8 0, label %return
  ]

if.then:                                          ; preds = %entry
  %call = tail call i32 @putchar(i32 noundef signext %c) #17
  br label %if.end18

land.lhs.true:                                    ; preds = %entry
  %left = getelementptr inbounds i8, ptr %stream, i32 8
  %v1 = load i32, ptr %left, align 4, !tbaa !48
  %cmp6.not = icmp eq i32 %v1, 0
  br i1 %cmp6.not, label %if.end18, label %if.then8

if.then8:                                         ; preds = %land.lhs.true
  %conv9 = trunc i32 %c to i8
  %at = getelementptr inbounds i8, ptr %stream, i32 4
  %v2 = load ptr, ptr %at, align 4, !tbaa !49
  %incdec.ptr = getelementptr inbounds i8, ptr %v2, i32 1
  store ptr %incdec.ptr, ptr %at, align 4, !tbaa !49
  store i8 %conv9, ptr %v2, align 1, !tbaa !4
  %v3 = load i32, ptr %left, align 4, !tbaa !48
  %dec = add i32 %v3, -1
  store i32 %dec, ptr %left, align 4, !tbaa !48
  br label %if.end18

if.end18:                                         ; preds = %if.then8, %land.lhs.true, %if.then, %entry
  %conv20 = and i32 %c, 255
  br label %return

return:                                           ; preds = %if.end18, %entry
  %retval.0 = phi i32 [ %conv20, %if.end18 ], [ -1, %entry ]
  ret i32 %retval.0
}

; Function Attrs: optsize
declare dso_local i32 @putchar(i32 noundef signext) local_unnamed_addr #5

; Function Attrs: nocallback nofree nosync nounwind willreturn memory(argmem: readwrite)
declare void @llvm.lifetime.start.p0(i64 immarg, ptr nocapture) #6

; Function Attrs: nounwind optsize
define internal fastcc i32 @number(ptr nocapture noundef %stream, ptr noundef %front, ptr nocapture noundef readonly %digits, i32 noundef signext %n, i32 noundef signext %flags, i32 noundef signext %width, i32 noundef signext %precision) unnamed_addr #2 {
entry:
  br label %while.cond.i

while.cond.i:                                     ; preds = %while.cond.i, %entry
  %s.0.i = phi ptr [ %front, %entry ], [ %incdec.ptr.i, %while.cond.i ]
  %v0 = load i8, ptr %s.0.i, align 1, !tbaa !4
  %tobool.not.i = icmp eq i8 %v0, 0
  %incdec.ptr.i = getelementptr inbounds i8, ptr %s.0.i, i32 1
  br i1 %tobool.not.i, label %strlen.exit, label %while.cond.i, !llvm.loop !50

strlen.exit:                                      ; preds = %while.cond.i
  %sub.ptr.lhs.cast.i = ptrtoint ptr %s.0.i to i32
  %sub.ptr.rhs.cast.i = ptrtoint ptr %front to i32
  %sub.ptr.sub.i = sub i32 %sub.ptr.lhs.cast.i, %sub.ptr.rhs.cast.i
  %sub = sub nsw i32 %precision, %n
  %shr.i = lshr i32 %width, 31
  %tobool.i = icmp ne i32 %shr.i, 0
  %sub.i = sub i32 0, %width
  %cond.i1 = select i1 %tobool.i, i32 %sub.i, i32 %width
  %spec.store.select = tail call i32 @llvm.smax.i32(i32 %sub, i32 0)
  %cmp5 = icmp slt i32 %precision, 0
  %and = and i32 %flags, 16
  %tobool.not = icmp ne i32 %and, 0
  %or.cond.not94 = and i1 %tobool.not, %cmp5
  %flags.masked = and i32 %flags, 1
  %and7 = or i32 %shr.i, %flags.masked
  %tobool8.not = icmp eq i32 %and7, 0
  %or.cond65 = and i1 %or.cond.not94, %tobool8.not
  %add = add i32 %sub.ptr.sub.i, %n
  %cmp10 = icmp sgt i32 %cond.i1, %add
  %or.cond66 = select i1 %or.cond65, i1 %cmp10, i1 false
  %sub13 = sub i32 %cond.i1, %add
  %zeros.0 = select i1 %or.cond66, i32 %sub13, i32 %spec.store.select
  %v2 = add i32 %add, %zeros.0
  %sub17 = sub i32 %cond.i1, %v2
  br i1 %tobool8.not, label %if.then20, label %if.end23

if.then20:                                        ; preds = %strlen.exit
  %cmp5.i = icmp sgt i32 %sub17, 0
  br i1 %cmp5.i, label %for.body.i, label %repeated.exit

for.body.i:                                       ; preds = %for.body.i, %if.then20
  %k.06.i = phi i32 [ %inc.i, %for.body.i ], [ 0, %if.then20 ]
  %call.i = tail call i32 @fputc(i32 noundef signext 32, ptr noundef %stream) #18
  %inc.i = add nuw nsw i32 %k.06.i, 1
  %exitcond.not.i = icmp eq i32 %inc.i, %sub17
  br i1 %exitcond.not.i, label %repeated.exit, label %for.body.i, !llvm.loop !51

repeated.exit:                                    ; preds = %for.body.i, %if.then20
  %cond.i = tail call noundef i32 @llvm.smax.i32(i32 %sub17, i32 0)
  br label %if.end23

if.end23:                                         ; preds = %repeated.exit, %strlen.exit
  %count.0 = phi i32 [ 0, %strlen.exit ], [ %cond.i, %repeated.exit ]
  %v3 = load i8, ptr %stream, align 4, !tbaa !27, !alias.scope !52, !noalias !55
  %cmp.i.i = icmp eq i8 %v3, 0
  %cmp210.not.i.i = icmp eq ptr %s.0.i, %front
  %or.cond.i = or i1 %cmp210.not.i.i, %cmp.i.i
  br i1 %or.cond.i, label %__print_text.exit, label %for.body.i.i

for.body.i.i:                                     ; preds = %for.body.i.i, %if.end23
  %k.011.i.i = phi i32 [ %inc.i.i, %for.body.i.i ], [ 0, %if.end23 ]
  %arrayidx.i.i = getelementptr inbounds i8, ptr %front, i32 %k.011.i.i
  %v4 = load i8, ptr %arrayidx.i.i, align 1, !tbaa !4, !alias.scope !55, !noalias !52
  %conv4.i.i = zext i8 %v4 to i32
  %call.i.i = tail call i32 @fputc(i32 noundef signext %conv4.i.i, ptr noundef nonnull %stream) #18, !noalias !55
  %inc.i.i = add nuw i32 %k.011.i.i, 1
  %exitcond.not.i.i = icmp eq i32 %inc.i.i, %sub.ptr.sub.i
  br i1 %exitcond.not.i.i, label %__print_text.exit, label %for.body.i.i, !llvm.loop !29

__print_text.exit:                                ; preds = %for.body.i.i, %if.end23
  %cmp5.i67 = icmp sgt i32 %zeros.0, 0
  br i1 %cmp5.i67, label %for.body.i69, label %repeated.exit74

for.body.i69:                                     ; preds = %for.body.i69, %__print_text.exit
  %k.06.i70 = phi i32 [ %inc.i72, %for.body.i69 ], [ 0, %__print_text.exit ]
  %call.i71 = tail call i32 @fputc(i32 noundef signext 48, ptr noundef nonnull %stream) #18
  %inc.i72 = add nuw nsw i32 %k.06.i70, 1
  %exitcond.not.i73 = icmp eq i32 %inc.i72, %zeros.0
  br i1 %exitcond.not.i73, label %repeated.exit74, label %for.body.i69, !llvm.loop !51

repeated.exit74:                                  ; preds = %for.body.i69, %__print_text.exit
  %cond.i68 = tail call noundef i32 @llvm.smax.i32(i32 %zeros.0, i32 0)
  %v5 = load i8, ptr %stream, align 4, !tbaa !27, !alias.scope !57, !noalias !60
  %cmp.i.i75 = icmp eq i8 %v5, 0
  %cmp210.not.i.i76 = icmp eq i32 %n, 0
  %or.cond.i77 = or i1 %cmp210.not.i.i76, %cmp.i.i75
  br i1 %or.cond.i77, label %__print_text.exit85, label %for.body.i.i78

for.body.i.i78:                                   ; preds = %for.body.i.i78, %repeated.exit74
  %k.011.i.i79 = phi i32 [ %inc.i.i83, %for.body.i.i78 ], [ 0, %repeated.exit74 ]
  %arrayidx.i.i80 = getelementptr inbounds i8, ptr %digits, i32 %k.011.i.i79
  %v6 = load i8, ptr %arrayidx.i.i80, align 1, !tbaa !4, !alias.scope !60, !noalias !57
  %conv4.i.i81 = zext i8 %v6 to i32
  %call.i.i82 = tail call i32 @fputc(i32 noundef signext %conv4.i.i81, ptr noundef nonnull %stream) #18, !noalias !60
  %inc.i.i83 = add nuw i32 %k.011.i.i79, 1
  %exitcond.not.i.i84 = icmp eq i32 %inc.i.i83, %n
  br i1 %exitcond.not.i.i84, label %__print_text.exit85, label %for.body.i.i78, !llvm.loop !29

__print_text.exit85:                              ; preds = %for.body.i.i78, %repeated.exit74
  %add27 = add i32 %add, %cond.i68
  %add29 = add i32 %add27, %count.0
  br i1 %tobool8.not, label %if.end35, label %if.then32

if.then32:                                        ; preds = %__print_text.exit85
  %cmp5.i86 = icmp sgt i32 %sub17, 0
  br i1 %cmp5.i86, label %for.body.i88, label %repeated.exit93

for.body.i88:                                     ; preds = %for.body.i88, %if.then32
  %k.06.i89 = phi i32 [ %inc.i91, %for.body.i88 ], [ 0, %if.then32 ]
  %call.i90 = tail call i32 @fputc(i32 noundef signext 32, ptr noundef nonnull %stream) #18
  %inc.i91 = add nuw nsw i32 %k.06.i89, 1
  %exitcond.not.i92 = icmp eq i32 %inc.i91, %sub17
  br i1 %exitcond.not.i92, label %repeated.exit93, label %for.body.i88, !llvm.loop !51

repeated.exit93:                                  ; preds = %for.body.i88, %if.then32
  %cond.i87 = tail call noundef i32 @llvm.smax.i32(i32 %sub17, i32 0)
  %add34 = add nsw i32 %add29, %cond.i87
  br label %if.end35

if.end35:                                         ; preds = %repeated.exit93, %__print_text.exit85
  %count.1 = phi i32 [ %add34, %repeated.exit93 ], [ %add29, %__print_text.exit85 ]
  ret i32 %count.1
}

; Function Attrs: nocallback nofree nosync nounwind willreturn memory(argmem: readwrite)
declare void @llvm.lifetime.end.p0(i64 immarg, ptr nocapture) #6

; Function Attrs: nocallback nofree nosync nounwind speculatable willreturn memory(none)
declare i32 @llvm.smax.i32(i32, i32) #7

; Function Attrs: mustprogress nofree norecurse nosync nounwind optsize willreturn memory(none)
define internal range(i32 0, 2) i32 @isspace(i32 noundef signext %c) local_unnamed_addr #8 {
entry:
  %cmp = icmp eq i32 %c, 32
  %v0 = add i32 %c, -9
  %v1 = icmp ult i32 %v0, 5
  %narrow = or i1 %cmp, %v1
  %lor.ext = zext i1 %narrow to i32
  ret i32 %lor.ext
}

; Function Attrs: nofree norecurse nosync nounwind optsize memory(readwrite, inaccessiblemem: none)
define internal i32 @strtol(ptr noalias noundef %text, ptr noalias noundef %end, i32 noundef signext %base) local_unnamed_addr #9 {
entry:
  %it = alloca %struct.number, align 8
  call void @llvm.lifetime.start.p0(i64 16, ptr nonnull %it) #15
  %call = call fastcc ptr @scan(ptr noundef nonnull %it, ptr noundef %text, ptr noundef %end, i32 noundef signext %base, i64 noundef zeroext 2147483647, i64 noundef zeroext 2147483648) #18
  %below = getelementptr inbounds i8, ptr %it, i32 8
  %v0 = load i32, ptr %below, align 8, !tbaa !62
  %tobool.not = icmp eq i32 %v0, 0
  %v1 = load i64, ptr %it, align 8, !tbaa !65
  %extract.t2 = trunc i64 %v1 to i32
  %extract.t = sub i32 0, %extract.t2
  %cond.off0 = select i1 %tobool.not, i32 %extract.t2, i32 %extract.t
  call void @llvm.lifetime.end.p0(i64 16, ptr nonnull %it) #15
  ret i32 %cond.off0
}

; Function Attrs: nofree norecurse nosync nounwind optsize memory(read, inaccessiblemem: none)
define internal i32 @strcasecmp(ptr nocapture noundef readonly %a, ptr nocapture noundef readonly %b) local_unnamed_addr #10 {
entry:
  %call = tail call i32 @strncasecmp(ptr noundef %a, ptr noundef %b, i32 noundef signext -1) #18
  ret i32 %call
}

; Function Attrs: nofree norecurse nosync nounwind optsize memory(read, inaccessiblemem: none)
define internal range(i32 -1, 2) i32 @strcmp(ptr nocapture noundef readonly %a, ptr nocapture noundef readonly %b) local_unnamed_addr #10 {
entry:
  %v0 = load i8, ptr %a, align 1, !tbaa !4
  %tobool.not20 = icmp eq i8 %v0, 0
  br i1 %tobool.not20, label %while.end, label %land.rhs

land.rhs:                                         ; preds = %while.body, %entry
  %v1 = phi i8 [ %v3, %while.body ], [ %v0, %entry ]
  %t.022 = phi ptr [ %incdec.ptr4, %while.body ], [ %b, %entry ]
  %s.021 = phi ptr [ %incdec.ptr, %while.body ], [ %a, %entry ]
  %v2 = load i8, ptr %t.022, align 1, !tbaa !4
  %cmp = icmp eq i8 %v1, %v2
  br i1 %cmp, label %while.body, label %while.end

while.body:                                       ; preds = %land.rhs
  %incdec.ptr = getelementptr inbounds i8, ptr %s.021, i32 1
  %incdec.ptr4 = getelementptr inbounds i8, ptr %t.022, i32 1
  %v3 = load i8, ptr %incdec.ptr, align 1, !tbaa !4
  %tobool.not = icmp eq i8 %v3, 0
  br i1 %tobool.not, label %while.end, label %land.rhs, !llvm.loop !66

while.end:                                        ; preds = %while.body, %land.rhs, %entry
  %t.0.lcssa = phi ptr [ %b, %entry ], [ %incdec.ptr4, %while.body ], [ %t.022, %land.rhs ]
  %.lcssa = phi i8 [ 0, %entry ], [ 0, %while.body ], [ %v1, %land.rhs ]
  %v4 = load i8, ptr %t.0.lcssa, align 1, !tbaa !4
  %cmp7 = icmp ult i8 %.lcssa, %v4
  %cmp11 = icmp ugt i8 %.lcssa, %v4
  %conv12 = zext i1 %cmp11 to i32
  %cond = select i1 %cmp7, i32 -1, i32 %conv12
  ret i32 %cond
}

; Function Attrs: nofree norecurse nosync nounwind optsize memory(read, inaccessiblemem: none)
define internal i32 @strncasecmp(ptr nocapture noundef readonly %a, ptr nocapture noundef readonly %b, i32 noundef signext %n) local_unnamed_addr #10 {
entry:
  %cond2028 = icmp eq i32 %n, 0
  br i1 %cond2028, label %cond.end, label %land.lhs.true

land.lhs.true:                                    ; preds = %while.body, %entry
  %t.031 = phi ptr [ %incdec.ptr6, %while.body ], [ %b, %entry ]
  %s.030 = phi ptr [ %incdec.ptr, %while.body ], [ %a, %entry ]
  %n.addr.029 = phi i32 [ %dec, %while.body ], [ %n, %entry ]
  %v0 = load i8, ptr %s.030, align 1, !tbaa !4
  %tobool.not = icmp eq i8 %v0, 0
  %.pre = load i8, ptr %t.031, align 1, !tbaa !4
  br i1 %tobool.not, label %land.lhs.true.cond.false_crit_edge, label %land.rhs

land.lhs.true.cond.false_crit_edge:               ; preds = %land.lhs.true
  %.pre34 = zext i8 %.pre to i32
  %.pre35 = add nsw i32 %.pre34, -91
  %.pre36 = add nuw nsw i32 %.pre34, 32
  br label %cond.false

land.rhs:                                         ; preds = %land.lhs.true
  %conv = zext i8 %v0 to i32
  %v1 = add nsw i32 %conv, -91
  %v2 = icmp ult i32 %v1, -26
  %sub.i = add nuw nsw i32 %conv, 32
  %cond.i = select i1 %v2, i32 %conv, i32 %sub.i
  %conv2 = zext i8 %.pre to i32
  %v3 = add nsw i32 %conv2, -91
  %v4 = icmp ult i32 %v3, -26
  %sub.i21 = add nuw nsw i32 %conv2, 32
  %cond.i22 = select i1 %v4, i32 %conv2, i32 %sub.i21
  %cmp4 = icmp eq i32 %cond.i, %cond.i22
  br i1 %cmp4, label %while.body, label %cond.false

while.body:                                       ; preds = %land.rhs
  %incdec.ptr = getelementptr inbounds i8, ptr %s.030, i32 1
  %incdec.ptr6 = getelementptr inbounds i8, ptr %t.031, i32 1
  %dec = add i32 %n.addr.029, -1
  %cond20 = icmp eq i32 %dec, 0
  br i1 %cond20, label %cond.end, label %land.lhs.true, !llvm.loop !67

cond.false:                                       ; preds = %land.rhs, %land.lhs.true.cond.false_crit_edge
  %sub.i25.pre-phi = phi i32 [ %.pre36, %land.lhs.true.cond.false_crit_edge ], [ %sub.i21, %land.rhs ]
  %.pre-phi = phi i32 [ %.pre35, %land.lhs.true.cond.false_crit_edge ], [ %v3, %land.rhs ]
  %conv11.pre-phi = phi i32 [ %.pre34, %land.lhs.true.cond.false_crit_edge ], [ %conv2, %land.rhs ]
  %.lcssa = phi i32 [ 0, %land.lhs.true.cond.false_crit_edge ], [ %conv, %land.rhs ]
  %v6 = add nsw i32 %.lcssa, -91
  %v7 = icmp ult i32 %v6, -26
  %sub.i23 = add nuw nsw i32 %.lcssa, 32
  %cond.i24 = select i1 %v7, i32 %.lcssa, i32 %sub.i23
  %v8 = icmp ult i32 %.pre-phi, -26
  %cond.i26 = select i1 %v8, i32 %conv11.pre-phi, i32 %sub.i25.pre-phi
  %sub = sub nsw i32 %cond.i24, %cond.i26
  br label %cond.end

cond.end:                                         ; preds = %cond.false, %while.body, %entry
  %cond = phi i32 [ %sub, %cond.false ], [ 0, %entry ], [ 0, %while.body ]
  ret i32 %cond
}

; Function Attrs: nofree norecurse nosync nounwind optsize memory(readwrite, inaccessiblemem: none)
define internal fastcc noundef ptr @scan(ptr noundef returned writeonly %it, ptr noundef %text, ptr noundef writeonly %end, i32 noundef signext %base, i64 noundef zeroext %most, i64 noundef zeroext %least) unnamed_addr #9 {
entry:
  store i64 0, ptr %it, align 8, !tbaa !65
  %below = getelementptr inbounds i8, ptr %it, i32 8
  store i32 0, ptr %below, align 8, !tbaa !62
  %over = getelementptr inbounds i8, ptr %it, i32 12
  store i32 0, ptr %over, align 4, !tbaa !68
  %cmp1 = icmp eq i32 %base, 1
  %v0 = icmp ugt i32 %base, 36
  %or.cond93 = or i1 %v0, %cmp1
  br i1 %or.cond93, label %if.then, label %if.end

if.then:                                          ; preds = %entry
  store i32 22, ptr @errno, align 4, !tbaa !20
  br label %cleanup92

if.end:                                           ; preds = %entry
  %tobool.not = icmp eq ptr %end, null
  br i1 %tobool.not, label %while.cond.preheader, label %if.then4

if.then4:                                         ; preds = %if.end
  store ptr %text, ptr %end, align 4, !tbaa !14
  br label %while.cond.preheader

while.cond.preheader:                             ; preds = %if.then4, %if.end
  br label %while.cond

while.cond:                                       ; preds = %while.cond, %while.cond.preheader
  %s.0 = phi ptr [ %incdec.ptr, %while.cond ], [ %text, %while.cond.preheader ]
  %v1 = load i8, ptr %s.0, align 1, !tbaa !4
  %conv = zext i8 %v1 to i32
  %cmp.i = icmp ne i8 %v1, 32
  %v2 = add nsw i32 %conv, -14
  %v3 = icmp ult i32 %v2, -5
  %narrow.i.not = and i1 %cmp.i, %v3
  %incdec.ptr = getelementptr inbounds i8, ptr %s.0, i32 1
  br i1 %narrow.i.not, label %while.end, label %while.cond, !llvm.loop !69

while.end:                                        ; preds = %while.cond
  switch i8 %v1, label %if.end20 [
    i8 45, label %if.then14
    i8 43, label %if.then14
  ]

if.then14:                                        ; preds = %while.end, %while.end
  %cmp17 = icmp eq i8 %v1, 45
  %conv18 = zext i1 %cmp17 to i32
  store i32 %conv18, ptr %below, align 8, !tbaa !62
  %v4 = select i1 %cmp17, i64 %least, i64 %most
  br label %if.end20

if.end20:                                         ; preds = %if.then14, %while.end
  %tobool53.not = phi i64 [ %v4, %if.then14 ], [ %most, %while.end ]
  %s.1 = phi ptr [ %incdec.ptr, %if.then14 ], [ %s.0, %while.end ]
  %cmp21 = icmp ne i32 %base, 0
  switch i32 %base, label %if.end51 [
    i32 16, label %land.lhs.true
    i32 0, label %land.lhs.true
  ]

land.lhs.true:                                    ; preds = %if.end20, %if.end20
  %v5 = load i8, ptr %s.1, align 1, !tbaa !4
  %cmp27 = icmp eq i8 %v5, 48
  br i1 %cmp27, label %land.lhs.true29, label %if.else

land.lhs.true29:                                  ; preds = %land.lhs.true
  %arrayidx = getelementptr inbounds i8, ptr %s.1, i32 1
  %v6 = load i8, ptr %arrayidx, align 1, !tbaa !4
  switch i8 %v6, label %if.else [
    i8 120, label %land.lhs.true38
    i8 88, label %land.lhs.true38
  ]

land.lhs.true38:                                  ; preds = %land.lhs.true29, %land.lhs.true29
  %arrayidx39 = getelementptr inbounds i8, ptr %s.1, i32 2
  %v7 = load i8, ptr %arrayidx39, align 1, !tbaa !4
  %conv.i = zext i8 %v7 to i32
  %v8 = add nsw i32 %conv.i, -58
  %v9 = icmp ult i32 %v8, -10
  br i1 %v9, label %cond.false.i, label %if.end51

cond.false.i:                                     ; preds = %land.lhs.true38
  %v10 = and i32 %conv.i, 223
  %v11 = add nsw i32 %v10, -91
  %narrow.i.i = icmp ult i32 %v11, -26
  br i1 %narrow.i.i, label %.thread, label %digit.exit

.thread:                                          ; preds = %cond.false.i
  br i1 %cmp21, label %if.end51, label %if.then46

digit.exit:                                       ; preds = %cond.false.i
  %v12 = add nsw i32 %conv.i, -91
  %v13 = icmp ult i32 %v12, -26
  %sub.i.i = add nuw nsw i32 %conv.i, 32
  %cond.i.i = select i1 %v13, i32 %conv.i, i32 %sub.i.i
  %cond.i.i.fr = freeze i32 %cond.i.i
  %add.i = add i32 %cond.i.i.fr, -87
  %v14 = icmp ult i32 %add.i, 16
  %brmerge = or i1 %cmp21, %v14
  %arrayidx39.mux = select i1 %v14, ptr %arrayidx39, ptr %s.1
  %.mux = select i1 %v14, i32 16, i32 %base
  br i1 %brmerge, label %if.end51, label %if.then46

if.else:                                          ; preds = %land.lhs.true29, %land.lhs.true
  br i1 %cmp21, label %if.end51, label %if.then46

if.then46:                                        ; preds = %if.else, %digit.exit, %.thread
  %cond = select i1 %cmp27, i32 8, i32 10
  br label %if.end51

if.end51:                                         ; preds = %if.then46, %if.else, %digit.exit, %.thread, %land.lhs.true38, %if.end20
  %s.2 = phi ptr [ %s.1, %if.then46 ], [ %s.1, %if.else ], [ %s.1, %if.end20 ], [ %arrayidx39, %land.lhs.true38 ], [ %s.1, %.thread ], [ %arrayidx39.mux, %digit.exit ]
  %base.addr.0 = phi i32 [ %cond, %if.then46 ], [ %base, %if.else ], [ %base, %if.end20 ], [ 16, %land.lhs.true38 ], [ %base, %.thread ], [ %.mux, %digit.exit ]
  %v15 = load i8, ptr %s.2, align 1, !tbaa !4
  %conv.i140 = zext i8 %v15 to i32
  %v16 = add nsw i32 %conv.i140, -48
  %v17 = icmp ugt i32 %v16, 9
  br i1 %v17, label %cond.false.i142, label %digit.exit148

cond.false.i142:                                  ; preds = %if.end51
  %v18 = and i32 %conv.i140, 223
  %v19 = add nsw i32 %v18, -91
  %narrow.i.i143 = icmp ult i32 %v19, -26
  br i1 %narrow.i.i143, label %digit.exit148, label %cond.true5.i144

cond.true5.i144:                                  ; preds = %cond.false.i142
  %v20 = add nsw i32 %conv.i140, -91
  %v21 = icmp ult i32 %v20, -26
  %sub.i.i145 = add nuw nsw i32 %conv.i140, 32
  %cond.i.i146 = select i1 %v21, i32 %conv.i140, i32 %sub.i.i145
  %add.i147 = add nsw i32 %cond.i.i146, -87
  br label %digit.exit148

digit.exit148:                                    ; preds = %cond.true5.i144, %cond.false.i142, %if.end51
  %cond11.i141 = phi i32 [ %add.i147, %cond.true5.i144 ], [ 255, %cond.false.i142 ], [ %v16, %if.end51 ]
  %cmp56.not = icmp ult i32 %cond11.i141, %base.addr.0
  br i1 %cmp56.not, label %for.cond.preheader, label %cleanup92

for.cond.preheader:                               ; preds = %digit.exit148
  %conv68 = zext nneg i32 %base.addr.0 to i64
  br label %for.cond

for.cond:                                         ; preds = %for.inc, %for.cond.preheader
  %v22 = phi i64 [ %v31, %for.inc ], [ 0, %for.cond.preheader ]
  %v23 = phi i32 [ %v32, %for.inc ], [ 0, %for.cond.preheader ]
  %v24 = phi i8 [ %.pre, %for.inc ], [ %v15, %for.cond.preheader ]
  %s.3 = phi ptr [ %incdec.ptr83, %for.inc ], [ %s.2, %for.cond.preheader ]
  %conv.i149 = zext i8 %v24 to i32
  %v25 = add nsw i32 %conv.i149, -48
  %v26 = icmp ugt i32 %v25, 9
  br i1 %v26, label %cond.false.i151, label %digit.exit157

cond.false.i151:                                  ; preds = %for.cond
  %v27 = and i32 %conv.i149, 223
  %v28 = add nsw i32 %v27, -91
  %narrow.i.i152 = icmp ult i32 %v28, -26
  br i1 %narrow.i.i152, label %digit.exit157, label %cond.true5.i153

cond.true5.i153:                                  ; preds = %cond.false.i151
  %v29 = add nsw i32 %conv.i149, -91
  %v30 = icmp ult i32 %v29, -26
  %sub.i.i154 = add nuw nsw i32 %conv.i149, 32
  %cond.i.i155 = select i1 %v30, i32 %conv.i149, i32 %sub.i.i154
  %add.i156 = add nsw i32 %cond.i.i155, -87
  br label %digit.exit157

digit.exit157:                                    ; preds = %cond.true5.i153, %cond.false.i151, %for.cond
  %cond11.i150 = phi i32 [ %add.i156, %cond.true5.i153 ], [ 255, %cond.false.i151 ], [ %v25, %for.cond ]
  %cmp61 = icmp ult i32 %cond11.i150, %base.addr.0
  br i1 %cmp61, label %for.body, label %for.cond.cleanup

for.cond.cleanup:                                 ; preds = %digit.exit157
  br i1 %tobool.not, label %if.end86, label %if.then85

for.body:                                         ; preds = %digit.exit157
  %tobool64.not = icmp eq i32 %v23, 0
  br i1 %tobool64.not, label %lor.lhs.false65, label %if.then75

lor.lhs.false65:                                  ; preds = %for.body
  %conv67 = zext nneg i32 %cond11.i150 to i64
  %sub = sub i64 %tobool53.not, %conv67
  %div = udiv i64 %sub, %conv68
  %cmp69 = icmp ugt i64 %v22, %div
  %cmp73 = icmp ult i64 %tobool53.not, %conv67
  %or.cond = or i1 %cmp69, %cmp73
  br i1 %or.cond, label %if.then75, label %if.else77

if.then75:                                        ; preds = %lor.lhs.false65, %for.body
  store i32 1, ptr %over, align 4, !tbaa !68
  br label %for.inc

if.else77:                                        ; preds = %lor.lhs.false65
  %mul = mul i64 %v22, %conv68
  %add = add i64 %mul, %conv67
  store i64 %add, ptr %it, align 8, !tbaa !65
  br label %for.inc

for.inc:                                          ; preds = %if.else77, %if.then75
  %v31 = phi i64 [ %v22, %if.then75 ], [ %add, %if.else77 ]
  %v32 = phi i32 [ 1, %if.then75 ], [ 0, %if.else77 ]
  %incdec.ptr83 = getelementptr inbounds i8, ptr %s.3, i32 1
  %.pre = load i8, ptr %incdec.ptr83, align 1, !tbaa !4
  br label %for.cond, !llvm.loop !70

if.then85:                                        ; preds = %for.cond.cleanup
  store ptr %s.3, ptr %end, align 4, !tbaa !14
  br label %if.end86

if.end86:                                         ; preds = %if.then85, %for.cond.cleanup
  %tobool88.not = icmp eq i32 %v23, 0
  br i1 %tobool88.not, label %cleanup92, label %if.then89

if.then89:                                        ; preds = %if.end86
  store i32 34, ptr @errno, align 4, !tbaa !20
  store i64 %tobool53.not, ptr %it, align 8, !tbaa !65
  br label %cleanup92

cleanup92:                                        ; preds = %if.then89, %if.end86, %digit.exit148, %if.then
  ret ptr %it
}

; Function Attrs: noinline nounwind optsize
define internal ptr @__sized_malloc(i32 noundef signext %n) local_unnamed_addr #1 {
entry:
  %cmp = icmp ult i32 %n, -16
  br i1 %cmp, label %cond.end, label %cleanup

cond.end:                                         ; preds = %entry
  %add = add nuw i32 %n, 16
  %call = tail call ptr @malloc(i32 noundef signext %add) #17
  %tobool.not = icmp eq ptr %call, null
  br i1 %tobool.not, label %cleanup, label %if.end

if.end:                                           ; preds = %cond.end
  %add.ptr = getelementptr inbounds i8, ptr %call, i32 16
  store i32 %n, ptr %call, align 4, !tbaa !20
  br label %cleanup

cleanup:                                          ; preds = %if.end, %cond.end, %entry
  %retval.0 = phi ptr [ %add.ptr, %if.end ], [ null, %cond.end ], [ null, %entry ]
  ret ptr %retval.0
}

; Function Attrs: nounwind optsize
define internal fastcc void @sink(ptr noundef %base, i32 noundef signext %at, i32 noundef signext %count, i32 noundef signext %size, ptr nocapture noundef readonly %compare) unnamed_addr #2 {
entry:
  %mul41 = shl i32 %at, 1
  %add42 = or disjoint i32 %mul41, 1
  %cmp43 = icmp ult i32 %add42, %count
  br i1 %cmp43, label %for.body.lr.ph, label %cleanup

for.body.lr.ph:                                   ; preds = %entry
  %cmp.not4.i = icmp eq i32 %size, 0
  br label %for.body

for.body:                                         ; preds = %swap.exit, %for.body.lr.ph
  %add46 = phi i32 [ %add42, %for.body.lr.ph ], [ %add, %swap.exit ]
  %mul45 = phi i32 [ %mul41, %for.body.lr.ph ], [ %mul, %swap.exit ]
  %at.addr.044 = phi i32 [ %at, %for.body.lr.ph ], [ %child.0, %swap.exit ]
  %add1 = add nuw i32 %mul45, 2
  %cmp2 = icmp ult i32 %add1, %count
  br i1 %cmp2, label %land.lhs.true, label %if.end

land.lhs.true:                                    ; preds = %for.body
  %mul3 = mul i32 %add46, %size
  %add.ptr = getelementptr inbounds i8, ptr %base, i32 %mul3
  %mul5 = mul i32 %add1, %size
  %add.ptr6 = getelementptr inbounds i8, ptr %base, i32 %mul5
  %call = tail call i32 %compare(ptr noundef %add.ptr, ptr noundef %add.ptr6) #17
  %cmp7 = icmp slt i32 %call, 0
  %spec.select = select i1 %cmp7, i32 %add1, i32 %add46
  br label %if.end

if.end:                                           ; preds = %land.lhs.true, %for.body
  %child.0 = phi i32 [ %add46, %for.body ], [ %spec.select, %land.lhs.true ]
  %mul8 = mul i32 %at.addr.044, %size
  %add.ptr9 = getelementptr inbounds i8, ptr %base, i32 %mul8
  %mul10 = mul i32 %child.0, %size
  %add.ptr11 = getelementptr inbounds i8, ptr %base, i32 %mul10
  %call12 = tail call i32 %compare(ptr noundef %add.ptr9, ptr noundef %add.ptr11) #17
  %cmp13 = icmp sgt i32 %call12, -1
  br i1 %cmp13, label %cleanup, label %if.end15

if.end15:                                         ; preds = %if.end
  br i1 %cmp.not4.i, label %swap.exit, label %while.body.i

while.body.i:                                     ; preds = %while.body.i, %if.end15
  %a.addr.07.i = phi ptr [ %incdec.ptr.i, %while.body.i ], [ %add.ptr9, %if.end15 ]
  %size.addr.06.i = phi i32 [ %dec.i, %while.body.i ], [ %size, %if.end15 ]
  %b.addr.05.i = phi ptr [ %incdec.ptr1.i, %while.body.i ], [ %add.ptr11, %if.end15 ]
  %dec.i = add i32 %size.addr.06.i, -1
  %v0 = load i8, ptr %a.addr.07.i, align 1, !tbaa !4
  %v1 = load i8, ptr %b.addr.05.i, align 1, !tbaa !4
  %incdec.ptr.i = getelementptr inbounds i8, ptr %a.addr.07.i, i32 1
  store i8 %v1, ptr %a.addr.07.i, align 1, !tbaa !4
  %incdec.ptr1.i = getelementptr inbounds i8, ptr %b.addr.05.i, i32 1
  store i8 %v0, ptr %b.addr.05.i, align 1, !tbaa !4
  %cmp.not.i = icmp eq i32 %dec.i, 0
  br i1 %cmp.not.i, label %swap.exit, label %while.body.i, !llvm.loop !31

swap.exit:                                        ; preds = %while.body.i, %if.end15
  %mul = shl i32 %child.0, 1
  %add = or disjoint i32 %mul, 1
  %cmp = icmp ult i32 %add, %count
  br i1 %cmp, label %for.body, label %cleanup, !llvm.loop !71

cleanup:                                          ; preds = %swap.exit, %if.end, %entry
  ret void
}

; Function Attrs: nounwind optsize
define internal fastcc void @merge_sort(ptr noundef %base, i32 noundef signext %count, i32 noundef signext %size, ptr noundef %compare, ptr noundef %room) unnamed_addr #2 {
entry:
  %cmp = icmp ult i32 %count, 2
  br i1 %cmp, label %cleanup, label %if.end

if.end:                                           ; preds = %entry
  %div28 = lshr i32 %count, 1
  tail call fastcc void @merge_sort(ptr noundef %base, i32 noundef signext %div28, i32 noundef signext %size, ptr noundef %compare, ptr noundef %room) #18
  %mul = mul i32 %div28, %size
  %add.ptr = getelementptr inbounds i8, ptr %base, i32 %mul
  %sub = sub i32 %count, %div28
  tail call fastcc void @merge_sort(ptr noundef %add.ptr, i32 noundef signext %sub, i32 noundef signext %size, ptr noundef %compare, ptr noundef %room) #18
  %cmp.not3.i = icmp eq i32 %mul, 0
  br i1 %cmp.not3.i, label %memcpy.exit, label %while.body.i

while.body.i:                                     ; preds = %while.body.i, %if.end
  %s.06.i = phi ptr [ %incdec.ptr.i, %while.body.i ], [ %base, %if.end ]
  %d.05.i = phi ptr [ %incdec.ptr1.i, %while.body.i ], [ %room, %if.end ]
  %n.addr.04.i = phi i32 [ %dec.i, %while.body.i ], [ %mul, %if.end ]
  %dec.i = add i32 %n.addr.04.i, -1
  %incdec.ptr.i = getelementptr inbounds i8, ptr %s.06.i, i32 1
  %v0 = load i8, ptr %s.06.i, align 1, !tbaa !4, !alias.scope !72, !noalias !75
  %incdec.ptr1.i = getelementptr inbounds i8, ptr %d.05.i, i32 1
  store i8 %v0, ptr %d.05.i, align 1, !tbaa !4, !alias.scope !75, !noalias !72
  %cmp.not.i = icmp eq i32 %dec.i, 0
  br i1 %cmp.not.i, label %memcpy.exit, label %while.body.i, !llvm.loop !26

memcpy.exit:                                      ; preds = %while.body.i, %if.end
  %cmp146.i.not = icmp eq i32 %sub, 0
  br i1 %cmp146.i.not, label %while.end.i, label %while.body.lr.ph.i

while.body.lr.ph.i:                               ; preds = %memcpy.exit
  %cmp.not3.i25.i = icmp eq i32 %size, 0
  br label %while.body.i29

while.body.i29:                                   ; preds = %if.end.i, %while.body.lr.ph.i
  %to.addr.051.i = phi ptr [ %base, %while.body.lr.ph.i ], [ %add.ptr7.i, %if.end.i ]
  %a.addr.050.i = phi ptr [ %room, %while.body.lr.ph.i ], [ %a.addr.1.i, %if.end.i ]
  %right.addr.049.i = phi i32 [ %sub, %while.body.lr.ph.i ], [ %right.addr.1.i, %if.end.i ]
  %b.addr.048.i = phi ptr [ %add.ptr, %while.body.lr.ph.i ], [ %b.addr.1.i, %if.end.i ]
  %left.addr.047.i = phi i32 [ %div28, %while.body.lr.ph.i ], [ %left.addr.1.i, %if.end.i ]
  %call.i = tail call i32 %compare(ptr noundef %a.addr.050.i, ptr noundef %b.addr.048.i) #17
  %cmp2.i = icmp slt i32 %call.i, 1
  br i1 %cmp2.i, label %if.then.i, label %if.else.i

if.then.i:                                        ; preds = %while.body.i29
  br i1 %cmp.not3.i25.i, label %memcpy.exit.i, label %while.body.i.i

while.body.i.i:                                   ; preds = %while.body.i.i, %if.then.i
  %s.06.i.i = phi ptr [ %incdec.ptr.i.i, %while.body.i.i ], [ %a.addr.050.i, %if.then.i ]
  %d.05.i.i = phi ptr [ %incdec.ptr1.i.i, %while.body.i.i ], [ %to.addr.051.i, %if.then.i ]
  %n.addr.04.i.i = phi i32 [ %dec.i.i, %while.body.i.i ], [ %size, %if.then.i ]
  %dec.i.i = add i32 %n.addr.04.i.i, -1
  %incdec.ptr.i.i = getelementptr inbounds i8, ptr %s.06.i.i, i32 1
  %v1 = load i8, ptr %s.06.i.i, align 1, !tbaa !4, !alias.scope !77, !noalias !80
  %incdec.ptr1.i.i = getelementptr inbounds i8, ptr %d.05.i.i, i32 1
  store i8 %v1, ptr %d.05.i.i, align 1, !tbaa !4, !alias.scope !80, !noalias !77
  %cmp.not.i.i = icmp eq i32 %dec.i.i, 0
  br i1 %cmp.not.i.i, label %memcpy.exit.i, label %while.body.i.i, !llvm.loop !26

memcpy.exit.i:                                    ; preds = %while.body.i.i, %if.then.i
  %add.ptr.i = getelementptr inbounds i8, ptr %a.addr.050.i, i32 %size
  %dec.i30 = add nsw i32 %left.addr.047.i, -1
  br label %if.end.i

if.else.i:                                        ; preds = %while.body.i29
  br i1 %cmp.not3.i25.i, label %memcpy.exit34.i, label %while.body.i26.i

while.body.i26.i:                                 ; preds = %while.body.i26.i, %if.else.i
  %s.06.i27.i = phi ptr [ %incdec.ptr.i31.i, %while.body.i26.i ], [ %b.addr.048.i, %if.else.i ]
  %d.05.i28.i = phi ptr [ %incdec.ptr1.i32.i, %while.body.i26.i ], [ %to.addr.051.i, %if.else.i ]
  %n.addr.04.i29.i = phi i32 [ %dec.i30.i, %while.body.i26.i ], [ %size, %if.else.i ]
  %dec.i30.i = add i32 %n.addr.04.i29.i, -1
  %incdec.ptr.i31.i = getelementptr inbounds i8, ptr %s.06.i27.i, i32 1
  %v2 = load i8, ptr %s.06.i27.i, align 1, !tbaa !4, !alias.scope !82, !noalias !85
  %incdec.ptr1.i32.i = getelementptr inbounds i8, ptr %d.05.i28.i, i32 1
  store i8 %v2, ptr %d.05.i28.i, align 1, !tbaa !4, !alias.scope !85, !noalias !82
  %cmp.not.i33.i = icmp eq i32 %dec.i30.i, 0
  br i1 %cmp.not.i33.i, label %memcpy.exit34.i, label %while.body.i26.i, !llvm.loop !26

memcpy.exit34.i:                                  ; preds = %while.body.i26.i, %if.else.i
  %add.ptr5.i = getelementptr inbounds i8, ptr %b.addr.048.i, i32 %size
  %dec6.i = add i32 %right.addr.049.i, -1
  br label %if.end.i

if.end.i:                                         ; preds = %memcpy.exit34.i, %memcpy.exit.i
  %left.addr.1.i = phi i32 [ %dec.i30, %memcpy.exit.i ], [ %left.addr.047.i, %memcpy.exit34.i ]
  %b.addr.1.i = phi ptr [ %b.addr.048.i, %memcpy.exit.i ], [ %add.ptr5.i, %memcpy.exit34.i ]
  %right.addr.1.i = phi i32 [ %right.addr.049.i, %memcpy.exit.i ], [ %dec6.i, %memcpy.exit34.i ]
  %a.addr.1.i = phi ptr [ %add.ptr.i, %memcpy.exit.i ], [ %a.addr.050.i, %memcpy.exit34.i ]
  %add.ptr7.i = getelementptr inbounds i8, ptr %to.addr.051.i, i32 %size
  %cmp.i = icmp ne i32 %left.addr.1.i, 0
  %cmp1.i = icmp ne i32 %right.addr.1.i, 0
  %v3 = select i1 %cmp.i, i1 %cmp1.i, i1 false
  br i1 %v3, label %while.body.i29, label %while.end.i.loopexit, !llvm.loop !87

while.end.i.loopexit:                             ; preds = %if.end.i
  %.pre = mul i32 %left.addr.1.i, %size
  br label %while.end.i

while.end.i:                                      ; preds = %while.end.i.loopexit, %memcpy.exit
  %mul.i.pre-phi = phi i32 [ %.pre, %while.end.i.loopexit ], [ %mul, %memcpy.exit ]
  %a.addr.0.lcssa.i = phi ptr [ %a.addr.1.i, %while.end.i.loopexit ], [ %room, %memcpy.exit ]
  %to.addr.0.lcssa.i = phi ptr [ %add.ptr7.i, %while.end.i.loopexit ], [ %base, %memcpy.exit ]
  %cmp.not3.i35.i = icmp eq i32 %mul.i.pre-phi, 0
  br i1 %cmp.not3.i35.i, label %cleanup, label %while.body.i36.i

while.body.i36.i:                                 ; preds = %while.body.i36.i, %while.end.i
  %s.06.i37.i = phi ptr [ %incdec.ptr.i41.i, %while.body.i36.i ], [ %a.addr.0.lcssa.i, %while.end.i ]
  %d.05.i38.i = phi ptr [ %incdec.ptr1.i42.i, %while.body.i36.i ], [ %to.addr.0.lcssa.i, %while.end.i ]
  %n.addr.04.i39.i = phi i32 [ %dec.i40.i, %while.body.i36.i ], [ %mul.i.pre-phi, %while.end.i ]
  %dec.i40.i = add i32 %n.addr.04.i39.i, -1
  %incdec.ptr.i41.i = getelementptr inbounds i8, ptr %s.06.i37.i, i32 1
  %v4 = load i8, ptr %s.06.i37.i, align 1, !tbaa !4, !alias.scope !88, !noalias !91
  %incdec.ptr1.i42.i = getelementptr inbounds i8, ptr %d.05.i38.i, i32 1
  store i8 %v4, ptr %d.05.i38.i, align 1, !tbaa !4, !alias.scope !91, !noalias !88
  %cmp.not.i43.i = icmp eq i32 %dec.i40.i, 0
  br i1 %cmp.not.i43.i, label %cleanup, label %while.body.i36.i, !llvm.loop !26

cleanup:                                          ; preds = %while.body.i36.i, %while.end.i, %entry
  ret void
}

; Function Attrs: mustprogress nofree nounwind willreturn allockind("alloc,uninitialized") allocsize(0) memory(inaccessiblemem: readwrite)
declare dso_local noalias noundef ptr @malloc(i32 noundef signext) local_unnamed_addr #11

; Function Attrs: nocallback nofree nosync nounwind speculatable willreturn memory(none)
declare i32 @llvm.umin.i32(i32, i32) #7

; Function Attrs: mustprogress nounwind willreturn allockind("free") memory(argmem: readwrite, inaccessiblemem: readwrite)
declare dso_local void @free(ptr allocptr nocapture noundef) local_unnamed_addr #12

; Function Attrs: nounwind optsize
define internal i32 @getc(ptr nocapture noundef %stream) local_unnamed_addr #2 {
entry:
  %call = tail call i32 @fgetc(ptr noundef %stream) #18
  ret i32 %call
}

; Function Attrs: nounwind optsize
define internal i32 @fgetc(ptr nocapture noundef %stream) local_unnamed_addr #2 {
entry:
  %v0 = load i8, ptr %stream, align 4, !tbaa !27
  %cmp.not = icmp eq i8 %v0, 0
  br i1 %cmp.not, label %if.end, label %return

if.end:                                           ; preds = %entry
  %waiting = getelementptr inbounds i8, ptr %stream, i32 2
  %v1 = load i8, ptr %waiting, align 2, !tbaa !93
  %tobool.not = icmp eq i8 %v1, 0
  br i1 %tobool.not, label %if.end5, label %if.then2

if.then2:                                         ; preds = %if.end
  store i8 0, ptr %waiting, align 2, !tbaa !93
  %pushed = getelementptr inbounds i8, ptr %stream, i32 3
  %v2 = load i8, ptr %pushed, align 1, !tbaa !94
  %conv4 = zext i8 %v2 to i32
  br label %return

if.end5:                                          ; preds = %if.end
  %ended = getelementptr inbounds i8, ptr %stream, i32 1
  %v3 = load i8, ptr %ended, align 1, !tbaa !95
  %tobool6.not = icmp eq i8 %v3, 0
  br i1 %tobool6.not, label %if.end8, label %return

if.end8:                                          ; preds = %if.end5
  %call = tail call i32 @getchar() #17
  %cmp9 = icmp eq i32 %call, -1
  br i1 %cmp9, label %if.then11, label %return

if.then11:                                        ; preds = %if.end8
  store i8 1, ptr %ended, align 1, !tbaa !95
  br label %return

return:                                           ; preds = %if.then11, %if.end8, %if.end5, %if.then2, %entry
  %retval.0 = phi i32 [ %conv4, %if.then2 ], [ -1, %entry ], [ -1, %if.end5 ], [ -1, %if.then11 ], [ %call, %if.end8 ]
  ret i32 %retval.0
}

; Function Attrs: optsize
declare dso_local i32 @getchar() local_unnamed_addr #5

attributes #0 = { nounwind "no-trapping-math"="true" "stack-protector-buffer-size"="8" "target-cpu"="mips32r2" "target-features"="+fpxx,+mips32r2,+nooddspreg,-noabicalls" }
attributes #1 = { noinline nounwind optsize "no-builtins" "no-jump-tables"="true" "no-trapping-math"="true" "stack-protector-buffer-size"="8" "target-cpu"="mips32r2" "target-features"="+fpxx,+mips32r2,+nooddspreg,-noabicalls" }
attributes #2 = { nounwind optsize "no-builtins" "no-jump-tables"="true" "no-trapping-math"="true" "stack-protector-buffer-size"="8" "target-cpu"="mips32r2" "target-features"="+fpxx,+mips32r2,+nooddspreg,-noabicalls" }
attributes #3 = { noreturn "no-trapping-math"="true" "stack-protector-buffer-size"="8" "target-cpu"="mips32r2" "target-features"="+fpxx,+mips32r2,+nooddspreg,-noabicalls" }
attributes #4 = { nofree nounwind "no-trapping-math"="true" "stack-protector-buffer-size"="8" "target-cpu"="mips32r2" "target-features"="+fpxx,+mips32r2,+nooddspreg,-noabicalls" }
attributes #5 = { optsize "no-builtins" "no-trapping-math"="true" "stack-protector-buffer-size"="8" "target-cpu"="mips32r2" "target-features"="+fpxx,+mips32r2,+nooddspreg,-noabicalls" }
attributes #6 = { nocallback nofree nosync nounwind willreturn memory(argmem: readwrite) }
attributes #7 = { nocallback nofree nosync nounwind speculatable willreturn memory(none) }
attributes #8 = { mustprogress nofree norecurse nosync nounwind optsize willreturn memory(none) "no-builtins" "no-jump-tables"="true" "no-trapping-math"="true" "stack-protector-buffer-size"="8" "target-cpu"="mips32r2" "target-features"="+fpxx,+mips32r2,+nooddspreg,-noabicalls" }
attributes #9 = { nofree norecurse nosync nounwind optsize memory(readwrite, inaccessiblemem: none) "no-builtins" "no-jump-tables"="true" "no-trapping-math"="true" "stack-protector-buffer-size"="8" "target-cpu"="mips32r2" "target-features"="+fpxx,+mips32r2,+nooddspreg,-noabicalls" }
attributes #10 = { nofree norecurse nosync nounwind optsize memory(read, inaccessiblemem: none) "no-builtins" "no-jump-tables"="true" "no-trapping-math"="true" "stack-protector-buffer-size"="8" "target-cpu"="mips32r2" "target-features"="+fpxx,+mips32r2,+nooddspreg,-noabicalls" }
attributes #11 = { mustprogress nofree nounwind willreturn allockind("alloc,uninitialized") allocsize(0) memory(inaccessiblemem: readwrite) "alloc-family"="malloc" "no-trapping-math"="true" "stack-protector-buffer-size"="8" "target-cpu"="mips32r2" "target-features"="+fpxx,+mips32r2,+nooddspreg,-noabicalls" }
attributes #12 = { mustprogress nounwind willreturn allockind("free") memory(argmem: readwrite, inaccessiblemem: readwrite) "alloc-family"="malloc" "no-trapping-math"="true" "stack-protector-buffer-size"="8" "target-cpu"="mips32r2" "target-features"="+fpxx,+mips32r2,+nooddspreg,-noabicalls" }
attributes #13 = { allocsize(1) }
attributes #14 = { noreturn nounwind }
attributes #15 = { nounwind }
attributes #16 = { allocsize(0) }
attributes #17 = { nobuiltin nounwind optsize "no-builtins" }
attributes #18 = { nobuiltin optsize "no-builtins" }
attributes #19 = { nounwind willreturn memory(read) }

!llvm.ident = !{!0, !0, !0, !0}
!llvm.module.flags = !{!1, !2, !3}

!0 = !{!"Debian clang version 19.1.7 (3~deb12u1)"}
!1 = !{i32 7, !"Dwarf Version", i32 5}
!2 = !{i32 2, !"Debug Info Version", i32 3}
!3 = !{i32 1, !"wchar_size", i32 4}
!4 = !{!5, !5, i64 0}
!5 = !{!"omnipotent char", !6, i64 0}
!6 = !{!"Simple C/C++ TBAA"}
!7 = !{!8, !10, i64 4}
!8 = !{!"", !9, i64 0, !9, i64 1, !9, i64 2, !9, i64 3, !10, i64 4}
!9 = !{!"_Bool", !5, i64 0}
!10 = !{!"int", !5, i64 0}
!11 = distinct !{!11, !12, !13}
!12 = !{!"llvm.loop.mustprogress"}
!13 = !{!"llvm.loop.unroll.disable"}
!14 = !{!15, !15, i64 0}
!15 = !{!"any pointer", !5, i64 0}
!16 = distinct !{!16, !12, !13}
!17 = distinct !{!17, !12, !13}
!18 = distinct !{!18, !12, !13}
!19 = distinct !{!19, !12, !13}
!20 = !{!10, !10, i64 0}
!21 = !{!22}
!22 = distinct !{!22, !23, !"memcpy: %from"}
!23 = distinct !{!23, !"memcpy"}
!24 = !{!25}
!25 = distinct !{!25, !23, !"memcpy: %to"}
!26 = distinct !{!26, !12}
!27 = !{!28, !5, i64 0}
!28 = !{!"__stream", !5, i64 0, !5, i64 1, !5, i64 2, !5, i64 3, !15, i64 4, !10, i64 8}
!29 = distinct !{!29, !12}
!30 = distinct !{!30, !12}
!31 = distinct !{!31, !12}
!32 = distinct !{!32, !12}
!33 = distinct !{!33, !12, !13}
!34 = distinct !{!34, !12, !13}
!35 = distinct !{!35, !12, !13}
!36 = distinct !{!36, !12, !13}
!37 = distinct !{!37, !12, !13}
!38 = distinct !{!38, !12, !13}
!39 = distinct !{!39, !12, !13}
!40 = distinct !{!40, !12, !13}
!41 = distinct !{!41, !12}
!42 = distinct !{!42, !12}
!43 = !{!44}
!44 = distinct !{!44, !45, !"fwrite: %stream"}
!45 = distinct !{!45, !"fwrite"}
!46 = !{!47}
!47 = distinct !{!47, !45, !"fwrite: %from"}
!48 = !{!28, !10, i64 8}
!49 = !{!28, !15, i64 4}
!50 = distinct !{!50, !12}
!51 = distinct !{!51, !12}
!52 = !{!53}
!53 = distinct !{!53, !54, !"fwrite: %stream"}
!54 = distinct !{!54, !"fwrite"}
!55 = !{!56}
!56 = distinct !{!56, !54, !"fwrite: %from"}
!57 = !{!58}
!58 = distinct !{!58, !59, !"fwrite: %stream"}
!59 = distinct !{!59, !"fwrite"}
!60 = !{!61}
!61 = distinct !{!61, !59, !"fwrite: %from"}
!62 = !{!63, !10, i64 8}
!63 = !{!"number", !64, i64 0, !10, i64 8, !10, i64 12}
!64 = !{!"long long", !5, i64 0}
!65 = !{!63, !64, i64 0}
!66 = distinct !{!66, !12}
!67 = distinct !{!67, !12}
!68 = !{!63, !10, i64 12}
!69 = distinct !{!69, !12}
!70 = distinct !{!70, !12}
!71 = distinct !{!71, !12}
!72 = !{!73}
!73 = distinct !{!73, !74, !"memcpy: %from"}
!74 = distinct !{!74, !"memcpy"}
!75 = !{!76}
!76 = distinct !{!76, !74, !"memcpy: %to"}
!77 = !{!78}
!78 = distinct !{!78, !79, !"memcpy: %from"}
!79 = distinct !{!79, !"memcpy"}
!80 = !{!81}
!81 = distinct !{!81, !79, !"memcpy: %to"}
!82 = !{!83}
!83 = distinct !{!83, !84, !"memcpy: %from"}
!84 = distinct !{!84, !"memcpy"}
!85 = !{!86}
!86 = distinct !{!86, !84, !"memcpy: %to"}
!87 = distinct !{!87, !12}
!88 = !{!89}
!89 = distinct !{!89, !90, !"memcpy: %from"}
!90 = distinct !{!90, !"memcpy"}
!91 = !{!92}
!92 = distinct !{!92, !90, !"memcpy: %to"}
!93 = !{!28, !5, i64 2}
!94 = !{!28, !5, i64 3}
!95 = !{!28, !5, i64 1}
