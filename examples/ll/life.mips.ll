; ModuleID = 'life.c'
source_filename = "life.c"
target datalayout = "E-m:m-p:32:32-i8:8:32-i16:16:32-i64:64-n32-S64"
target triple = "mips-unknown-linux-gnu"

@grid = internal unnamed_addr global [8 x i8] c"@ \E0\00\00\00\00\00", align 8

; Function Attrs: nofree nounwind
define dso_local i32 @main() local_unnamed_addr #0 {
entry:
  %next.i = alloca [8 x i8], align 8
  br label %for.body

for.body:                                         ; preds = %entry, %round.exit
  %i.036 = phi i32 [ 0, %entry ], [ %inc, %round.exit ]
  call void @llvm.lifetime.start.p0(i64 8, ptr nonnull %next.i) #2
  store i64 0, ptr %next.i, align 8
  br label %for.cond1.preheader.i

for.cond1.preheader.i:                            ; preds = %for.cond.cleanup3.i, %for.body
  %row.080.i = phi i32 [ 0, %for.body ], [ %inc29.i, %for.cond.cleanup3.i ]
  %arrayidx.i.i = getelementptr inbounds i8, ptr @grid, i32 %row.080.i
  %0 = load i8, ptr %arrayidx.i.i, align 1, !tbaa !4
  %conv.i.i = zext i8 %0 to i32
  %arrayidx.i = getelementptr inbounds [8 x i8], ptr %next.i, i32 0, i32 %row.080.i
  br label %for.body4.i

for.cond.cleanup3.i:                              ; preds = %if.end.i
  %inc29.i = add nuw nsw i32 %row.080.i, 1
  %exitcond84.not.i = icmp eq i32 %inc29.i, 8
  br i1 %exitcond84.not.i, label %round.exit, label %for.cond1.preheader.i, !llvm.loop !7

for.body4.i:                                      ; preds = %if.end.i, %for.cond1.preheader.i
  %column.079.i = phi i32 [ 0, %for.cond1.preheader.i ], [ %inc26.i, %if.end.i ]
  %sub.i.i = xor i32 %column.079.i, 7
  %shr.i.i = lshr i32 %conv.i.i, %sub.i.i
  %and2.i.i = and i32 %shr.i.i, 1
  %sub.i = sub nsw i32 0, %and2.i.i
  br label %for.cond9.preheader.i

for.cond9.preheader.i:                            ; preds = %for.cond.cleanup11.i, %for.body4.i
  %i.078.i = phi i32 [ -1, %for.body4.i ], [ %inc17.i, %for.cond.cleanup11.i ]
  %around.077.i = phi i32 [ %sub.i, %for.body4.i ], [ %add15.i, %for.cond.cleanup11.i ]
  %add.i = add nsw i32 %i.078.i, %row.080.i
  %and.i61.i = and i32 %add.i, 7
  %arrayidx.i62.i = getelementptr inbounds i8, ptr @grid, i32 %and.i61.i
  %1 = load i8, ptr %arrayidx.i62.i, align 1, !tbaa !4
  %conv.i63.i = zext i8 %1 to i32
  br label %for.body12.i

for.cond.cleanup7.i:                              ; preds = %for.cond.cleanup11.i
  switch i32 %add15.i, label %if.end.i [
    i32 3, label %if.then.i
    i32 2, label %land.lhs.true.i
  ]

for.cond.cleanup11.i:                             ; preds = %for.body12.i
  %inc17.i = add nsw i32 %i.078.i, 1
  %exitcond82.not.i = icmp eq i32 %inc17.i, 2
  br i1 %exitcond82.not.i, label %for.cond.cleanup7.i, label %for.cond9.preheader.i, !llvm.loop !10

for.body12.i:                                     ; preds = %for.body12.i, %for.cond9.preheader.i
  %j.076.i = phi i32 [ -1, %for.cond9.preheader.i ], [ %inc.i, %for.body12.i ]
  %around.175.i = phi i32 [ %around.077.i, %for.cond9.preheader.i ], [ %add15.i, %for.body12.i ]
  %add13.i = add nsw i32 %j.076.i, %column.079.i
  %and1.i64.i = and i32 %add13.i, 7
  %sub.i65.i = xor i32 %and1.i64.i, 7
  %shr.i66.i = lshr i32 %conv.i63.i, %sub.i65.i
  %and2.i67.i = and i32 %shr.i66.i, 1
  %add15.i = add nsw i32 %and2.i67.i, %around.175.i
  %inc.i = add nsw i32 %j.076.i, 1
  %exitcond.not.i = icmp eq i32 %inc.i, 2
  br i1 %exitcond.not.i, label %for.cond.cleanup11.i, label %for.body12.i, !llvm.loop !11

land.lhs.true.i:                                  ; preds = %for.cond.cleanup7.i
  %tobool.not.i = icmp eq i32 %and2.i.i, 0
  br i1 %tobool.not.i, label %if.end.i, label %if.then.i

if.then.i:                                        ; preds = %land.lhs.true.i, %for.cond.cleanup7.i
  %shr.i = lshr exact i32 128, %column.079.i
  %2 = load i8, ptr %arrayidx.i, align 1, !tbaa !4
  %3 = trunc nuw i32 %shr.i to i8
  %conv24.i = or i8 %2, %3
  store i8 %conv24.i, ptr %arrayidx.i, align 1, !tbaa !4
  br label %if.end.i

if.end.i:                                         ; preds = %if.then.i, %land.lhs.true.i, %for.cond.cleanup7.i
  %inc26.i = add nuw nsw i32 %column.079.i, 1
  %exitcond83.not.i = icmp eq i32 %inc26.i, 8
  br i1 %exitcond83.not.i, label %for.cond.cleanup3.i, label %for.body4.i, !llvm.loop !12

round.exit:                                       ; preds = %for.cond.cleanup3.i
  %4 = load i64, ptr %next.i, align 8, !tbaa !4
  store i64 %4, ptr @grid, align 8, !tbaa !4
  call void @llvm.lifetime.end.p0(i64 8, ptr nonnull %next.i) #2
  %inc = add nuw nsw i32 %i.036, 1
  %exitcond.not = icmp eq i32 %inc, 4
  br i1 %exitcond.not, label %for.cond5.preheader, label %for.body, !llvm.loop !13

for.cond5.preheader:                              ; preds = %round.exit, %for.cond.cleanup7
  %row.040 = phi i32 [ %inc16, %for.cond.cleanup7 ], [ 0, %round.exit ]
  %count.039 = phi i32 [ %add, %for.cond.cleanup7 ], [ 0, %round.exit ]
  %arrayidx.i26 = getelementptr inbounds i8, ptr @grid, i32 %row.040
  br label %for.body8

for.cond.cleanup3:                                ; preds = %for.cond.cleanup7
  ret i32 %add

for.cond.cleanup7:                                ; preds = %for.body8
  %call14 = tail call i32 @putchar(i32 noundef signext 10)
  %inc16 = add nuw nsw i32 %row.040, 1
  %exitcond42.not = icmp eq i32 %inc16, 8
  br i1 %exitcond42.not, label %for.cond.cleanup3, label %for.cond5.preheader, !llvm.loop !14

for.body8:                                        ; preds = %for.cond5.preheader, %for.body8
  %column.038 = phi i32 [ 0, %for.cond5.preheader ], [ %inc12, %for.body8 ]
  %count.137 = phi i32 [ %count.039, %for.cond5.preheader ], [ %add, %for.body8 ]
  %5 = load i8, ptr %arrayidx.i26, align 1, !tbaa !4
  %conv.i = zext i8 %5 to i32
  %sub.i27 = xor i32 %column.038, 7
  %shr.i28 = lshr i32 %conv.i, %sub.i27
  %and2.i = and i32 %shr.i28, 1
  %add = add nsw i32 %and2.i, %count.137
  %tobool.not = icmp eq i32 %and2.i, 0
  %cond = select i1 %tobool.not, i32 46, i32 111
  %call10 = tail call i32 @putchar(i32 noundef signext %cond)
  %inc12 = add nuw nsw i32 %column.038, 1
  %exitcond41.not = icmp eq i32 %inc12, 8
  br i1 %exitcond41.not, label %for.cond.cleanup7, label %for.body8, !llvm.loop !15
}

; Function Attrs: mustprogress nocallback nofree nosync nounwind willreturn memory(argmem: readwrite)
declare void @llvm.lifetime.start.p0(i64 immarg, ptr nocapture) #1

; Function Attrs: mustprogress nocallback nofree nosync nounwind willreturn memory(argmem: readwrite)
declare void @llvm.lifetime.end.p0(i64 immarg, ptr nocapture) #1

; Function Attrs: nofree nounwind
declare noundef i32 @putchar(i32 noundef signext) local_unnamed_addr #0

attributes #0 = { nofree nounwind "no-trapping-math"="true" "stack-protector-buffer-size"="8" "target-cpu"="mips32r2" "target-features"="+fpxx,+mips32r2,+nooddspreg,-noabicalls" }
attributes #1 = { mustprogress nocallback nofree nosync nounwind willreturn memory(argmem: readwrite) }
attributes #2 = { nounwind }

!llvm.module.flags = !{!0, !1, !2}
!llvm.ident = !{!3}

!0 = !{i32 1, !"wchar_size", i32 4}
!1 = !{i32 8, !"PIC Level", i32 1}
!2 = !{i32 7, !"PIE Level", i32 1}
!3 = !{!"Debian clang version 19.1.7 (3~deb12u1)"}
!4 = !{!5, !5, i64 0}
!5 = !{!"omnipotent char", !6, i64 0}
!6 = !{!"Simple C/C++ TBAA"}
!7 = distinct !{!7, !8, !9}
!8 = !{!"llvm.loop.mustprogress"}
!9 = !{!"llvm.loop.unroll.disable"}
!10 = distinct !{!10, !8, !9}
!11 = distinct !{!11, !8, !9}
!12 = distinct !{!12, !8, !9}
!13 = distinct !{!13, !8, !9}
!14 = distinct !{!14, !8, !9}
!15 = distinct !{!15, !8, !9}
