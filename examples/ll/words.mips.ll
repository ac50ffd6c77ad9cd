; ModuleID = 'words.c'
source_filename = "words.c"
target datalayout = "E-m:m-p:32:32-i8:8:32-i16:16:32-i64:64-n32-S64"
target triple = "mips-unknown-linux-gnu"

@now = internal unnamed_addr global [32 x i8] zeroinitializer, align 1
@longest = internal global [32 x i8] zeroinitializer, align 1

; Function Attrs: nofree nounwind
define dso_local range(i32 0, -2147483648) i32 @main() local_unnamed_addr #0 {
entry:
  %call57 = tail call i32 @getchar()
  %cmp58 = icmp sgt i32 %call57, -1
  br i1 %cmp58, label %while.body, label %while.end

while.body:                                       ; preds = %entry, %if.end16
  %call64 = phi i32 [ %call, %if.end16 ], [ %call57, %entry ]
  %lines.063 = phi i32 [ %spec.select, %if.end16 ], [ 0, %entry ]
  %best.062 = phi i32 [ %best.1, %if.end16 ], [ 0, %entry ]
  %length.061 = phi i32 [ %length.1, %if.end16 ], [ 0, %entry ]
  %bytes.060 = phi i32 [ %inc, %if.end16 ], [ 0, %entry ]
  %words.059 = phi i32 [ %words.1, %if.end16 ], [ 0, %entry ]
  %inc = add i32 %bytes.060, 1
  %cmp1 = icmp eq i32 %call64, 10
  %inc2 = zext i1 %cmp1 to i32
  %spec.select = add i32 %lines.063, %inc2
  switch i32 %call64, label %if.else [
    i32 32, label %if.then7
    i32 10, label %if.then7
    i32 9, label %if.then7
  ]

if.then7:                                         ; preds = %while.body, %while.body, %while.body
  %cmp8 = icmp sgt i32 %length.061, 0
  %conv = zext i1 %cmp8 to i32
  %add = add i32 %words.059, %conv
  %cmp.not.i = icmp sgt i32 %length.061, %best.062
  br i1 %cmp.not.i, label %for.cond.preheader.i, label %if.end16

for.cond.preheader.i:                             ; preds = %if.then7
  br i1 %cmp8, label %for.body.i, label %if.end16.sink.split

for.body.i:                                       ; preds = %for.cond.preheader.i, %for.body.i
  %i.026.i = phi i32 [ %inc.i, %for.body.i ], [ 0, %for.cond.preheader.i ]
  %arrayidx.i = getelementptr inbounds [32 x i8], ptr @now, i32 0, i32 %i.026.i
  %0 = load i8, ptr %arrayidx.i, align 1, !tbaa !4
  %1 = add i8 %0, -97
  %or.cond.i = icmp ult i8 %1, 26
  %narrow.i = add nsw i8 %0, -32
  %cond.i = select i1 %or.cond.i, i8 %narrow.i, i8 %0
  %arrayidx13.i = getelementptr inbounds [32 x i8], ptr @longest, i32 0, i32 %i.026.i
  store i8 %cond.i, ptr %arrayidx13.i, align 1, !tbaa !4
  %inc.i = add nuw nsw i32 %i.026.i, 1
  %exitcond.not.i = icmp eq i32 %inc.i, %length.061
  br i1 %exitcond.not.i, label %if.end16.sink.split, label %for.body.i, !llvm.loop !7

if.else:                                          ; preds = %while.body
  %cmp10 = icmp slt i32 %length.061, 31
  br i1 %cmp10, label %if.then12, label %if.end16

if.then12:                                        ; preds = %if.else
  %conv13 = trunc i32 %call64 to i8
  %inc14 = add nsw i32 %length.061, 1
  br label %if.end16.sink.split

if.end16.sink.split:                              ; preds = %for.body.i, %for.cond.preheader.i, %if.then12
  %longest.sink = phi ptr [ @now, %if.then12 ], [ @longest, %for.cond.preheader.i ], [ @longest, %for.body.i ]
  %.sink = phi i8 [ %conv13, %if.then12 ], [ 0, %for.cond.preheader.i ], [ 0, %for.body.i ]
  %words.1.ph = phi i32 [ %words.059, %if.then12 ], [ %add, %for.cond.preheader.i ], [ %add, %for.body.i ]
  %length.1.ph = phi i32 [ %inc14, %if.then12 ], [ 0, %for.cond.preheader.i ], [ 0, %for.body.i ]
  %best.1.ph = phi i32 [ %best.062, %if.then12 ], [ %length.061, %for.cond.preheader.i ], [ %length.061, %for.body.i ]
  %arrayidx14.i = getelementptr inbounds [32 x i8], ptr %longest.sink, i32 0, i32 %length.061
  store i8 %.sink, ptr %arrayidx14.i, align 1, !tbaa !4
  br label %if.end16

if.end16:                                         ; preds = %if.end16.sink.split, %if.then7, %if.else
  %words.1 = phi i32 [ %words.059, %if.else ], [ %add, %if.then7 ], [ %words.1.ph, %if.end16.sink.split ]
  %length.1 = phi i32 [ %length.061, %if.else ], [ 0, %if.then7 ], [ %length.1.ph, %if.end16.sink.split ]
  %best.1 = phi i32 [ %best.062, %if.else ], [ %best.062, %if.then7 ], [ %best.1.ph, %if.end16.sink.split ]
  %call = tail call i32 @getchar()
  %cmp = icmp sgt i32 %call, -1
  br i1 %cmp, label %while.body, label %while.end, !llvm.loop !10

while.end:                                        ; preds = %if.end16, %entry
  %words.0.lcssa = phi i32 [ 0, %entry ], [ %words.1, %if.end16 ]
  %bytes.0.lcssa = phi i32 [ 0, %entry ], [ %inc, %if.end16 ]
  %length.0.lcssa = phi i32 [ 0, %entry ], [ %length.1, %if.end16 ]
  %best.0.lcssa = phi i32 [ 0, %entry ], [ %best.1, %if.end16 ]
  %lines.0.lcssa = phi i32 [ 0, %entry ], [ %spec.select, %if.end16 ]
  %cmp17 = icmp sgt i32 %length.0.lcssa, 0
  %cmp.not.i41 = icmp sgt i32 %length.0.lcssa, %best.0.lcssa
  br i1 %cmp.not.i41, label %for.cond.preheader.i43, label %keep.exit56

for.cond.preheader.i43:                           ; preds = %while.end
  br i1 %cmp17, label %for.body.i47, label %for.cond.cleanup.i45

for.cond.cleanup.i45:                             ; preds = %for.body.i47, %for.cond.preheader.i43
  %arrayidx14.i46 = getelementptr inbounds [32 x i8], ptr @longest, i32 0, i32 %length.0.lcssa
  store i8 0, ptr %arrayidx14.i46, align 1, !tbaa !4
  br label %keep.exit56

for.body.i47:                                     ; preds = %for.cond.preheader.i43, %for.body.i47
  %i.026.i48 = phi i32 [ %inc.i54, %for.body.i47 ], [ 0, %for.cond.preheader.i43 ]
  %arrayidx.i49 = getelementptr inbounds [32 x i8], ptr @now, i32 0, i32 %i.026.i48
  %2 = load i8, ptr %arrayidx.i49, align 1, !tbaa !4
  %3 = add i8 %2, -97
  %or.cond.i50 = icmp ult i8 %3, 26
  %narrow.i51 = add nsw i8 %2, -32
  %cond.i52 = select i1 %or.cond.i50, i8 %narrow.i51, i8 %2
  %arrayidx13.i53 = getelementptr inbounds [32 x i8], ptr @longest, i32 0, i32 %i.026.i48
  store i8 %cond.i52, ptr %arrayidx13.i53, align 1, !tbaa !4
  %inc.i54 = add nuw nsw i32 %i.026.i48, 1
  %exitcond.not.i55 = icmp eq i32 %inc.i54, %length.0.lcssa
  br i1 %exitcond.not.i55, label %for.cond.cleanup.i45, label %for.body.i47, !llvm.loop !7

keep.exit56:                                      ; preds = %while.end, %for.cond.cleanup.i45
  %retval.0.i42 = phi i32 [ %length.0.lcssa, %for.cond.cleanup.i45 ], [ %best.0.lcssa, %while.end ]
  %conv18 = zext i1 %cmp17 to i32
  %add19 = add i32 %words.0.lcssa, %conv18
  tail call fastcc void @number(i32 noundef signext %lines.0.lcssa)
  %call21 = tail call i32 @putchar(i32 noundef signext 32)
  tail call fastcc void @number(i32 noundef signext %add19)
  %call22 = tail call i32 @putchar(i32 noundef signext 32)
  tail call fastcc void @number(i32 noundef signext %bytes.0.lcssa)
  %call23 = tail call i32 @putchar(i32 noundef signext 10)
  %call24 = tail call i32 @puts(ptr noundef nonnull dereferenceable(1) @longest)
  ret i32 %retval.0.i42
}

; Function Attrs: nofree nounwind
declare noundef i32 @getchar() local_unnamed_addr #0

; Function Attrs: nofree nounwind
define internal fastcc void @number(i32 noundef signext %n) unnamed_addr #0 {
entry:
  %cmp = icmp ugt i32 %n, 9
  br i1 %cmp, label %if.then, label %if.end

if.then:                                          ; preds = %entry
  %div = udiv i32 %n, 10
  tail call fastcc void @number(i32 noundef signext %div)
  br label %if.end

if.end:                                           ; preds = %if.then, %entry
  %rem = urem i32 %n, 10
  %add = or disjoint i32 %rem, 48
  %call = tail call i32 @putchar(i32 noundef signext %add)
  ret void
}

; Function Attrs: nofree nounwind
declare noundef i32 @putchar(i32 noundef signext) local_unnamed_addr #0

; Function Attrs: nofree nounwind
declare noundef i32 @puts(ptr nocapture noundef readonly) local_unnamed_addr #0

attributes #0 = { nofree nounwind "no-trapping-math"="true" "stack-protector-buffer-size"="8" "target-cpu"="mips32r2" "target-features"="+fpxx,+mips32r2,+nooddspreg,-noabicalls" }

!llvm.module.flags = !{!0, !1, !2}
!llvm.ident = !{!3}

!0 = !{i32 1, !"wchar_size", i32 4}
!1 = !{i32 8, !"PIC Level", i32 1}
!2 = !{i32 7, !"PIE Level", i32 1}
!3 = !{!"Debian clang version 19.1.7 (3~deb12u1)"}
!4 = !{!5, !5, i64 0}
!5 = !{!"omnipotent char", !6, i64 0}
!6 = !{!"Simple C/C++ TBAA"}
!7 = distinct !{!7, !8, !9}
!8 = !{!"llvm.loop.mustprogress"}
!9 = !{!"llvm.loop.unroll.disable"}
!10 = distinct !{!10, !8, !9}
