; ModuleID = 'sorts.c'
source_filename = "sorts.c"
target datalayout = "E-m:m-p:32:32-i8:8:32-i16:16:32-i64:64-n32-S64"
target triple = "mips-unknown-linux-gnu"

@given = internal unnamed_addr constant [12 x i32] [i32 34, i32 -4, i32 8, i32 0, i32 55, i32 1, i32 13, i32 -9, i32 3, i32 21, i32 2, i32 5], align 4

; Function Attrs: nofree nounwind
define dso_local noundef i32 @main() local_unnamed_addr #0 {
entry:
  %a = alloca [3 x [12 x i32]], align 4
  call void @llvm.lifetime.start.p0(i64 144, ptr nonnull %a) #4
  br label %for.cond1.preheader

for.cond1.preheader:                              ; preds = %entry, %for.cond1.preheader
  %k.043 = phi i32 [ 0, %entry ], [ %inc8, %for.cond1.preheader ]
  %0 = mul nuw nsw i32 %k.043, 48
  %scevgep = getelementptr i8, ptr %a, i32 %0
  call void @llvm.memcpy.p0.p0.i32(ptr noundef nonnull align 4 dereferenceable(48) %scevgep, ptr noundef nonnull align 4 dereferenceable(48) @given, i32 48, i1 false), !tbaa !4
  %inc8 = add nuw nsw i32 %k.043, 1
  %exitcond.not = icmp eq i32 %inc8, 3
  br i1 %exitcond.not, label %for.body.i, label %for.cond1.preheader, !llvm.loop !8

for.body.i:                                       ; preds = %for.cond1.preheader, %for.end.i
  %i.026.i = phi i32 [ %inc.i, %for.end.i ], [ 1, %for.cond1.preheader ]
  %arrayidx.i = getelementptr inbounds i32, ptr %a, i32 %i.026.i
  %1 = load i32, ptr %arrayidx.i, align 4, !tbaa !4
  br label %land.rhs.i

land.rhs.i:                                       ; preds = %for.body5.i, %for.body.i
  %j.025.i = phi i32 [ %i.026.i, %for.body.i ], [ %dec.i, %for.body5.i ]
  %2 = getelementptr i32, ptr %a, i32 %j.025.i
  %arrayidx3.i = getelementptr i8, ptr %2, i32 -4
  %3 = load i32, ptr %arrayidx3.i, align 4, !tbaa !4
  %cmp4.i = icmp sgt i32 %3, %1
  br i1 %cmp4.i, label %for.body5.i, label %for.end.i

for.body5.i:                                      ; preds = %land.rhs.i
  store i32 %3, ptr %2, align 4, !tbaa !4
  %dec.i = add nsw i32 %j.025.i, -1
  %cmp2.i = icmp sgt i32 %j.025.i, 1
  br i1 %cmp2.i, label %land.rhs.i, label %for.end.i, !llvm.loop !11

for.end.i:                                        ; preds = %for.body5.i, %land.rhs.i
  %j.0.lcssa.i = phi i32 [ 0, %for.body5.i ], [ %j.025.i, %land.rhs.i ]
  %arrayidx9.i = getelementptr inbounds i32, ptr %a, i32 %j.0.lcssa.i
  store i32 %1, ptr %arrayidx9.i, align 4, !tbaa !4
  %inc.i = add nuw nsw i32 %i.026.i, 1
  %exitcond.not.i = icmp eq i32 %inc.i, 12
  br i1 %exitcond.not.i, label %insertion.exit, label %for.body.i, !llvm.loop !12

insertion.exit:                                   ; preds = %for.end.i
  %arrayidx11 = getelementptr inbounds i8, ptr %a, i32 48
  br label %for.cond1.preheader.i

for.cond1.preheader.i:                            ; preds = %for.cond.cleanup3.i, %insertion.exit
  %gap.051.i = phi i32 [ 6, %insertion.exit ], [ %div2146.i, %for.cond.cleanup3.i ]
  br label %for.cond5.preheader.i

for.cond5.preheader.i:                            ; preds = %for.cond.cleanup9.i, %for.cond1.preheader.i
  %i.050.i = phi i32 [ %inc.i36, %for.cond.cleanup9.i ], [ %gap.051.i, %for.cond1.preheader.i ]
  %cmp6.not47.i = icmp ult i32 %i.050.i, %gap.051.i
  br i1 %cmp6.not47.i, label %for.cond.cleanup9.i, label %land.rhs.i34

for.cond.cleanup3.i:                              ; preds = %for.cond.cleanup9.i
  %div2146.i = lshr i32 %gap.051.i, 1
  %cmp.not.i = icmp ult i32 %gap.051.i, 2
  br i1 %cmp.not.i, label %shell.exit, label %for.cond1.preheader.i, !llvm.loop !13

land.rhs.i34:                                     ; preds = %for.cond5.preheader.i, %for.body10.i
  %j.048.i = phi i32 [ %sub.i, %for.body10.i ], [ %i.050.i, %for.cond5.preheader.i ]
  %sub.i = sub nsw i32 %j.048.i, %gap.051.i
  %arrayidx.i35 = getelementptr inbounds i32, ptr %arrayidx11, i32 %sub.i
  %4 = load i32, ptr %arrayidx.i35, align 4, !tbaa !4
  %arrayidx7.i = getelementptr inbounds i32, ptr %arrayidx11, i32 %j.048.i
  %5 = load i32, ptr %arrayidx7.i, align 4, !tbaa !4
  %cmp8.i = icmp sgt i32 %4, %5
  br i1 %cmp8.i, label %for.body10.i, label %for.cond.cleanup9.i

for.cond.cleanup9.i:                              ; preds = %for.body10.i, %land.rhs.i34, %for.cond5.preheader.i
  %inc.i36 = add nuw nsw i32 %i.050.i, 1
  %exitcond.not.i37 = icmp eq i32 %inc.i36, 12
  br i1 %exitcond.not.i37, label %for.cond.cleanup3.i, label %for.cond5.preheader.i, !llvm.loop !14

for.body10.i:                                     ; preds = %land.rhs.i34
  store i32 %4, ptr %arrayidx7.i, align 4, !tbaa !4
  store i32 %5, ptr %arrayidx.i35, align 4, !tbaa !4
  %cmp6.not.i = icmp slt i32 %sub.i, %gap.051.i
  br i1 %cmp6.not.i, label %for.cond.cleanup9.i, label %land.rhs.i34, !llvm.loop !15

shell.exit:                                       ; preds = %for.cond.cleanup3.i
  %arrayidx13 = getelementptr inbounds i8, ptr %a, i32 96
  %add.ptr = getelementptr inbounds i8, ptr %a, i32 144
  call fastcc void @quick(ptr noundef nonnull %arrayidx13, ptr noundef nonnull %add.ptr)
  br label %for.body21

for.cond.cleanup20:                               ; preds = %show.exit
  call void @llvm.lifetime.end.p0(i64 144, ptr nonnull %a) #4
  ret i32 12

for.body21:                                       ; preds = %shell.exit, %show.exit
  %k17.044 = phi i32 [ 0, %shell.exit ], [ %inc25, %show.exit ]
  %arrayidx22 = getelementptr inbounds [3 x [12 x i32]], ptr %a, i32 0, i32 %k17.044
  br label %for.body.i38

for.body.i38:                                     ; preds = %if.end.i, %for.body21
  %i.06.i = phi i32 [ 0, %for.body21 ], [ %inc.i40, %if.end.i ]
  %cmp1.not.i = icmp eq i32 %i.06.i, 0
  br i1 %cmp1.not.i, label %if.end.i, label %if.then.i

if.then.i:                                        ; preds = %for.body.i38
  %call.i = call i32 @putchar(i32 noundef signext 32)
  br label %if.end.i

if.end.i:                                         ; preds = %if.then.i, %for.body.i38
  %arrayidx.i39 = getelementptr inbounds i32, ptr %arrayidx22, i32 %i.06.i
  %6 = load i32, ptr %arrayidx.i39, align 4, !tbaa !4
  call fastcc void @number(i32 noundef signext %6)
  %inc.i40 = add nuw nsw i32 %i.06.i, 1
  %exitcond.not.i41 = icmp eq i32 %inc.i40, 12
  br i1 %exitcond.not.i41, label %show.exit, label %for.body.i38, !llvm.loop !16

show.exit:                                        ; preds = %if.end.i
  %call2.i = call i32 @putchar(i32 noundef signext 10)
  %inc25 = add nuw nsw i32 %k17.044, 1
  %exitcond45.not = icmp eq i32 %inc25, 3
  br i1 %exitcond45.not, label %for.cond.cleanup20, label %for.body21, !llvm.loop !17
}

; Function Attrs: mustprogress nocallback nofree nosync nounwind willreturn memory(argmem: readwrite)
declare void @llvm.lifetime.start.p0(i64 immarg, ptr nocapture) #1

; Function Attrs: mustprogress nocallback nofree nosync nounwind willreturn memory(argmem: readwrite)
declare void @llvm.lifetime.end.p0(i64 immarg, ptr nocapture) #1

; Function Attrs: nofree nosync nounwind memory(readwrite, inaccessiblemem: none)
define internal fastcc void @quick(ptr noundef %low, ptr noundef %high) unnamed_addr #2 {
entry:
  br label %tailrecurse

tailrecurse:                                      ; preds = %while.end19, %entry
  %low.tr = phi ptr [ %low, %entry ], [ %i.0.lcssa, %while.end19 ]
  %sub.ptr.lhs.cast = ptrtoint ptr %high to i32
  %sub.ptr.rhs.cast = ptrtoint ptr %low.tr to i32
  %sub.ptr.sub = sub i32 %sub.ptr.lhs.cast, %sub.ptr.rhs.cast
  %sub.ptr.div = ashr exact i32 %sub.ptr.sub, 2
  %cmp = icmp slt i32 %sub.ptr.div, 2
  br i1 %cmp, label %return, label %if.end

if.end:                                           ; preds = %tailrecurse
  %div41 = lshr i32 %sub.ptr.div, 1
  %arrayidx = getelementptr inbounds i32, ptr %low.tr, i32 %div41
  %0 = load i32, ptr %arrayidx, align 4, !tbaa !4
  %add.ptr = getelementptr inbounds i8, ptr %high, i32 -4
  %cmp5.not43 = icmp ult ptr %add.ptr, %low.tr
  br i1 %cmp5.not43, label %while.end19, label %while.cond6.preheader

while.cond6.preheader:                            ; preds = %if.end, %if.end18
  %i.045 = phi ptr [ %i.2, %if.end18 ], [ %low.tr, %if.end ]
  %j.044 = phi ptr [ %j.2, %if.end18 ], [ %add.ptr, %if.end ]
  br label %while.cond6

while.cond6:                                      ; preds = %while.cond6, %while.cond6.preheader
  %i.1 = phi ptr [ %incdec.ptr, %while.cond6 ], [ %i.045, %while.cond6.preheader ]
  %1 = load i32, ptr %i.1, align 4, !tbaa !4
  %cmp7 = icmp slt i32 %1, %0
  %incdec.ptr = getelementptr inbounds i8, ptr %i.1, i32 4
  br i1 %cmp7, label %while.cond6, label %while.cond9, !llvm.loop !18

while.cond9:                                      ; preds = %while.cond6, %while.cond9
  %j.1 = phi ptr [ %incdec.ptr12, %while.cond9 ], [ %j.044, %while.cond6 ]
  %2 = load i32, ptr %j.1, align 4, !tbaa !4
  %cmp10 = icmp sgt i32 %2, %0
  %incdec.ptr12 = getelementptr inbounds i8, ptr %j.1, i32 -4
  br i1 %cmp10, label %while.cond9, label %while.end13, !llvm.loop !19

while.end13:                                      ; preds = %while.cond9
  %cmp14.not = icmp ugt ptr %i.1, %j.1
  br i1 %cmp14.not, label %if.end18, label %if.then15

if.then15:                                        ; preds = %while.end13
  %incdec.ptr16 = getelementptr inbounds i8, ptr %i.1, i32 4
  store i32 %2, ptr %i.1, align 4, !tbaa !4
  %incdec.ptr17 = getelementptr inbounds i8, ptr %j.1, i32 -4
  store i32 %1, ptr %j.1, align 4, !tbaa !4
  br label %if.end18

if.end18:                                         ; preds = %if.then15, %while.end13
  %j.2 = phi ptr [ %incdec.ptr17, %if.then15 ], [ %j.1, %while.end13 ]
  %i.2 = phi ptr [ %incdec.ptr16, %if.then15 ], [ %i.1, %while.end13 ]
  %cmp5.not = icmp ugt ptr %i.2, %j.2
  br i1 %cmp5.not, label %while.end19, label %while.cond6.preheader, !llvm.loop !20

while.end19:                                      ; preds = %if.end18, %if.end
  %j.0.lcssa = phi ptr [ %add.ptr, %if.end ], [ %j.2, %if.end18 ]
  %i.0.lcssa = phi ptr [ %low.tr, %if.end ], [ %i.2, %if.end18 ]
  %add.ptr20 = getelementptr inbounds i8, ptr %j.0.lcssa, i32 4
  tail call fastcc void @quick(ptr noundef %low.tr, ptr noundef nonnull %add.ptr20)
  br label %tailrecurse

return:                                           ; preds = %tailrecurse
  ret void
}

; Function Attrs: nofree nounwind
declare noundef i32 @putchar(i32 noundef signext) local_unnamed_addr #0

; Function Attrs: nofree nounwind
define internal fastcc void @number(i32 noundef signext %n) unnamed_addr #0 {
entry:
  %cmp = icmp slt i32 %n, 0
  br i1 %cmp, label %if.then, label %if.end

if.then:                                          ; preds = %entry
  %call = tail call i32 @putchar(i32 noundef signext 45)
  %sub = sub i32 0, %n
  br label %if.end

if.end:                                           ; preds = %if.then, %entry
  %u.0 = phi i32 [ %sub, %if.then ], [ %n, %entry ]
  %cmp1 = icmp ugt i32 %u.0, 9
  br i1 %cmp1, label %if.then2, label %if.end3

if.then2:                                         ; preds = %if.end
  %div = udiv i32 %u.0, 10
  tail call fastcc void @number(i32 noundef signext %div)
  br label %if.end3

if.end3:                                          ; preds = %if.then2, %if.end
  %rem = urem i32 %u.0, 10
  %add = or disjoint i32 %rem, 48
  %call4 = tail call i32 @putchar(i32 noundef signext %add)
  ret void
}

; Function Attrs: nocallback nofree nounwind willreturn memory(argmem: readwrite)
declare void @llvm.memcpy.p0.p0.i32(ptr noalias nocapture writeonly, ptr noalias nocapture readonly, i32, i1 immarg) #3

attributes #0 = { nofree nounwind "no-trapping-math"="true" "stack-protector-buffer-size"="8" "target-cpu"="mips32r2" "target-features"="+fpxx,+mips32r2,+nooddspreg,-noabicalls" }
attributes #1 = { mustprogress nocallback nofree nosync nounwind willreturn memory(argmem: readwrite) }
attributes #2 = { nofree nosync nounwind memory(readwrite, inaccessiblemem: none) "no-trapping-math"="true" "stack-protector-buffer-size"="8" "target-cpu"="mips32r2" "target-features"="+fpxx,+mips32r2,+nooddspreg,-noabicalls" }
attributes #3 = { nocallback nofree nounwind willreturn memory(argmem: readwrite) }
attributes #4 = { nounwind }

!llvm.module.flags = !{!0, !1, !2}
!llvm.ident = !{!3}

!0 = !{i32 1, !"wchar_size", i32 4}
!1 = !{i32 8, !"PIC Level", i32 1}
!2 = !{i32 7, !"PIE Level", i32 1}
!3 = !{!"Debian clang version 19.1.7 (3~deb12u1)"}
!4 = !{!5, !5, i64 0}
!5 = !{!"int", !6, i64 0}
!6 = !{!"omnipotent char", !7, i64 0}
!7 = !{!"Simple C/C++ TBAA"}
!8 = distinct !{!8, !9, !10}
!9 = !{!"llvm.loop.mustprogress"}
!10 = !{!"llvm.loop.unroll.disable"}
!11 = distinct !{!11, !9, !10}
!12 = distinct !{!12, !9, !10}
!13 = distinct !{!13, !9, !10}
!14 = distinct !{!14, !9, !10}
!15 = distinct !{!15, !9, !10}
!16 = distinct !{!16, !9, !10}
!17 = distinct !{!17, !9, !10}
!18 = distinct !{!18, !9, !10}
!19 = distinct !{!19, !9, !10}
!20 = distinct !{!20, !9, !10}
