; ModuleID = 'callbacks.c'
source_filename = "callbacks.c"
target datalayout = "E-m:m-p:32:32-i8:8:32-i16:16:32-i64:64-n32-S64"
target triple = "mips-unknown-linux-gnu"

@__const.main.numbers = private unnamed_addr constant [6 x i32] [i32 1, i32 2, i32 3, i32 4, i32 5, i32 6], align 4
@table = internal unnamed_addr constant [5 x ptr] [ptr @add, ptr @sub, ptr @mul, ptr @quotient, ptr @rest], align 4

; Function Attrs: nounwind
define dso_local i32 @main() local_unnamed_addr #0 {
entry:
  %results = alloca [5 x i32], align 4
  %numbers = alloca [6 x i32], align 4
  %squares = alloca [6 x i32], align 4
  call void @llvm.lifetime.start.p0(i64 20, ptr nonnull %results) #5
  call void @llvm.lifetime.start.p0(i64 24, ptr nonnull %numbers) #5
  call void @llvm.memcpy.p0.p0.i32(ptr noundef nonnull align 4 dereferenceable(24) %numbers, ptr noundef nonnull align 4 dereferenceable(24) @__const.main.numbers, i32 24, i1 false)
  call void @llvm.lifetime.start.p0(i64 24, ptr nonnull %squares) #5
  br label %for.body

for.body.i:                                       ; preds = %for.body, %for.body.i
  %i.07.i = phi i32 [ %add.i, %for.body.i ], [ 0, %for.body ]
  %arrayidx.i = getelementptr inbounds i32, ptr %results, i32 %i.07.i
  %0 = load i32, ptr %arrayidx.i, align 4, !tbaa !4
  tail call fastcc void @number(i32 noundef signext %0)
  %add.i = add nuw nsw i32 %i.07.i, 1
  %cmp1.i = icmp ult i32 %i.07.i, 4
  %cond.i = select i1 %cmp1.i, i32 32, i32 10
  %call.i = tail call i32 @putchar(i32 noundef signext %cond.i)
  %exitcond.not.i = icmp eq i32 %add.i, 5
  br i1 %exitcond.not.i, label %for.body.i12, label %for.body.i, !llvm.loop !8

for.body.i12:                                     ; preds = %for.body.i, %for.body.i12
  %i.05.i = phi i32 [ %inc.i, %for.body.i12 ], [ 0, %for.body.i ]
  %arrayidx.i13 = getelementptr inbounds i32, ptr %numbers, i32 %i.05.i
  %1 = load i32, ptr %arrayidx.i13, align 4, !tbaa !4
  %mul.i.i = mul nsw i32 %1, %1
  %arrayidx1.i = getelementptr inbounds i32, ptr %squares, i32 %i.05.i
  store i32 %mul.i.i, ptr %arrayidx1.i, align 4, !tbaa !4
  %inc.i = add nuw nsw i32 %i.05.i, 1
  %exitcond.not.i14 = icmp eq i32 %inc.i, 6
  br i1 %exitcond.not.i14, label %for.body.i15, label %for.body.i12, !llvm.loop !11

for.body.i15:                                     ; preds = %for.body.i12, %for.body.i15
  %i.07.i16 = phi i32 [ %add.i18, %for.body.i15 ], [ 0, %for.body.i12 ]
  %arrayidx.i17 = getelementptr inbounds i32, ptr %squares, i32 %i.07.i16
  %2 = load i32, ptr %arrayidx.i17, align 4, !tbaa !4
  tail call fastcc void @number(i32 noundef signext %2)
  %add.i18 = add nuw nsw i32 %i.07.i16, 1
  %cmp1.i19 = icmp ult i32 %i.07.i16, 5
  %cond.i20 = select i1 %cmp1.i19, i32 32, i32 10
  %call.i21 = tail call i32 @putchar(i32 noundef signext %cond.i20)
  %exitcond.not.i22 = icmp eq i32 %add.i18, 6
  br i1 %exitcond.not.i22, label %while.body.i, label %for.body.i15, !llvm.loop !8

while.body.i:                                     ; preds = %for.body.i15, %while.body.i
  %a.addr.04.i = phi ptr [ %incdec.ptr.i, %while.body.i ], [ %squares, %for.body.i15 ]
  %start.addr.03.i = phi i32 [ %add.i.i, %while.body.i ], [ 0, %for.body.i15 ]
  %n.addr.02.i = phi i32 [ %dec.i, %while.body.i ], [ 6, %for.body.i15 ]
  %dec.i = add nsw i32 %n.addr.02.i, -1
  %incdec.ptr.i = getelementptr inbounds i8, ptr %a.addr.04.i, i32 4
  %3 = load i32, ptr %a.addr.04.i, align 4, !tbaa !4
  %add.i.i = add nsw i32 %3, %start.addr.03.i
  %tobool.not.i = icmp eq i32 %dec.i, 0
  br i1 %tobool.not.i, label %for.body.i24, label %while.body.i, !llvm.loop !12

for.body.i24:                                     ; preds = %while.body.i
  tail call fastcc void @number(i32 noundef signext %add.i.i)
  %call.i30 = tail call i32 @putchar(i32 noundef signext 10)
  br label %for.cond1.preheader.i

for.cond1.preheader.i:                            ; preds = %for.body.i24, %for.cond.cleanup3.i
  %i.032.i = phi i32 [ %inc14.i, %for.cond.cleanup3.i ], [ 0, %for.body.i24 ]
  br label %for.body4.i

for.cond.cleanup3.i:                              ; preds = %for.inc.i
  %inc14.i = add nuw nsw i32 %i.032.i, 1
  %exitcond33.not.i = icmp eq i32 %inc14.i, 6
  br i1 %exitcond33.not.i, label %for.body.i36, label %for.cond1.preheader.i, !llvm.loop !13

for.body4.i:                                      ; preds = %for.inc.i, %for.cond1.preheader.i
  %add31.i = phi i32 [ 1, %for.cond1.preheader.i ], [ %add.i34, %for.inc.i ]
  %j.030.i = phi i32 [ 0, %for.cond1.preheader.i ], [ %add31.i, %for.inc.i ]
  %arrayidx.i33 = getelementptr inbounds i32, ptr %numbers, i32 %j.030.i
  %4 = load i32, ptr %arrayidx.i33, align 4, !tbaa !4
  %arrayidx6.i = getelementptr inbounds i32, ptr %numbers, i32 %add31.i
  %5 = load i32, ptr %arrayidx6.i, align 4, !tbaa !4
  %cmp.i.not.i = icmp sgt i32 %5, %4
  br i1 %cmp.i.not.i, label %if.then.i, label %for.inc.i

if.then.i:                                        ; preds = %for.body4.i
  store i32 %5, ptr %arrayidx.i33, align 4, !tbaa !4
  store i32 %4, ptr %arrayidx6.i, align 4, !tbaa !4
  br label %for.inc.i

for.inc.i:                                        ; preds = %if.then.i, %for.body4.i
  %add.i34 = add nuw nsw i32 %add31.i, 1
  %exitcond.not.i35 = icmp eq i32 %add.i34, 6
  br i1 %exitcond.not.i35, label %for.cond.cleanup3.i, label %for.body4.i, !llvm.loop !14

for.body.i36:                                     ; preds = %for.cond.cleanup3.i, %for.body.i36
  %i.07.i37 = phi i32 [ %add.i39, %for.body.i36 ], [ 0, %for.cond.cleanup3.i ]
  %arrayidx.i38 = getelementptr inbounds i32, ptr %numbers, i32 %i.07.i37
  %6 = load i32, ptr %arrayidx.i38, align 4, !tbaa !4
  tail call fastcc void @number(i32 noundef signext %6)
  %add.i39 = add nuw nsw i32 %i.07.i37, 1
  %cmp1.i40 = icmp ult i32 %i.07.i37, 5
  %cond.i41 = select i1 %cmp1.i40, i32 32, i32 10
  %call.i42 = tail call i32 @putchar(i32 noundef signext %cond.i41)
  %exitcond.not.i43 = icmp eq i32 %add.i39, 6
  br i1 %exitcond.not.i43, label %show.exit44, label %for.body.i36, !llvm.loop !8

show.exit44:                                      ; preds = %for.body.i36
  call void @llvm.lifetime.end.p0(i64 24, ptr nonnull %squares) #5
  call void @llvm.lifetime.end.p0(i64 24, ptr nonnull %numbers) #5
  call void @llvm.lifetime.end.p0(i64 20, ptr nonnull %results) #5
  ret i32 %add.i.i

for.body:                                         ; preds = %entry, %for.body
  %i.045 = phi i32 [ 0, %entry ], [ %inc, %for.body ]
  %arrayidx = getelementptr inbounds [5 x ptr], ptr @table, i32 0, i32 %i.045
  %7 = load ptr, ptr %arrayidx, align 4, !tbaa !15
  %call = tail call i32 %7(i32 noundef signext 8, i32 noundef signext 4) #5
  %arrayidx1 = getelementptr inbounds [5 x i32], ptr %results, i32 0, i32 %i.045
  store i32 %call, ptr %arrayidx1, align 4, !tbaa !4
  %inc = add nuw nsw i32 %i.045, 1
  %exitcond.not = icmp eq i32 %inc, 5
  br i1 %exitcond.not, label %for.body.i, label %for.body, !llvm.loop !17
}

; Function Attrs: mustprogress nocallback nofree nosync nounwind willreturn memory(argmem: readwrite)
declare void @llvm.lifetime.start.p0(i64 immarg, ptr nocapture) #1

; Function Attrs: mustprogress nocallback nofree nounwind willreturn memory(argmem: readwrite)
declare void @llvm.memcpy.p0.p0.i32(ptr noalias nocapture writeonly, ptr noalias nocapture readonly, i32, i1 immarg) #2

; Function Attrs: mustprogress nocallback nofree nosync nounwind willreturn memory(argmem: readwrite)
declare void @llvm.lifetime.end.p0(i64 immarg, ptr nocapture) #1

; Function Attrs: mustprogress nofree norecurse nosync nounwind willreturn memory(none)
define internal i32 @add(i32 noundef signext %a, i32 noundef signext %b) #3 {
entry:
  %add = add nsw i32 %b, %a
  ret i32 %add
}

; Function Attrs: mustprogress nofree norecurse nosync nounwind willreturn memory(none)
define internal i32 @sub(i32 noundef signext %a, i32 noundef signext %b) #3 {
entry:
  %sub = sub nsw i32 %a, %b
  ret i32 %sub
}

; Function Attrs: mustprogress nofree norecurse nosync nounwind willreturn memory(none)
define internal i32 @mul(i32 noundef signext %a, i32 noundef signext %b) #3 {
entry:
  %mul = mul nsw i32 %b, %a
  ret i32 %mul
}

; Function Attrs: mustprogress nofree norecurse nosync nounwind willreturn memory(none)
define internal noundef i32 @quotient(i32 noundef signext %a, i32 noundef signext %b) #3 {
entry:
  %div = sdiv i32 %a, %b
  ret i32 %div
}

; Function Attrs: mustprogress nofree norecurse nosync nounwind willreturn memory(none)
define internal noundef i32 @rest(i32 noundef signext %a, i32 noundef signext %b) #3 {
entry:
  %rem = srem i32 %a, %b
  ret i32 %rem
}

; Function Attrs: nofree nounwind
define internal fastcc void @number(i32 noundef signext %n) unnamed_addr #4 {
entry:
  %cmp = icmp sgt i32 %n, 9
  br i1 %cmp, label %if.then, label %if.end

if.then:                                          ; preds = %entry
  %div = udiv i32 %n, 10
  tail call fastcc void @number(i32 noundef signext %div)
  br label %if.end

if.end:                                           ; preds = %if.then, %entry
  %rem = srem i32 %n, 10
  %add = add nsw i32 %rem, 48
  %call = tail call i32 @putchar(i32 noundef signext %add)
  ret void
}

; Function Attrs: nofree nounwind
declare noundef i32 @putchar(i32 noundef signext) local_unnamed_addr #4

attributes #0 = { nounwind "no-trapping-math"="true" "stack-protector-buffer-size"="8" "target-cpu"="mips32r2" "target-features"="+fpxx,+mips32r2,+nooddspreg,-noabicalls" }
attributes #1 = { mustprogress nocallback nofree nosync nounwind willreturn memory(argmem: readwrite) }
attributes #2 = { mustprogress nocallback nofree nounwind willreturn memory(argmem: readwrite) }
attributes #3 = { mustprogress nofree norecurse nosync nounwind willreturn memory(none) "no-trapping-math"="true" "stack-protector-buffer-size"="8" "target-cpu"="mips32r2" "target-features"="+fpxx,+mips32r2,+nooddspreg,-noabicalls" }
attributes #4 = { nofree nounwind "no-trapping-math"="true" "stack-protector-buffer-size"="8" "target-cpu"="mips32r2" "target-features"="+fpxx,+mips32r2,+nooddspreg,-noabicalls" }
attributes #5 = { nounwind }

!llvm.module.flags = !{!0, !1, !2}
!llvm.ident = !{!3}

!0 = !{i32 1, !"wchar_size", i32 4}
!1 = !{i32 8, !"PIC Level", i32 1}
!2 = !{i32 7, !"PIE Level", i32 1}
!3 = !{!"Debian clang version 19.1.7 (3~deb12u1)"}
!4 = !{!5, !5, i64 0}
!5 = !{!"int", !6, i64 0}
!6 = !{!"omnipotent char", !7, i64 0}
!7 = !{!"Simple C/C++ TBAA"}
!8 = distinct !{!8, !9, !10}
!9 = !{!"llvm.loop.mustprogress"}
!10 = !{!"llvm.loop.unroll.disable"}
!11 = distinct !{!11, !9, !10}
!12 = distinct !{!12, !9, !10}
!13 = distinct !{!13, !9, !10}
!14 = distinct !{!14, !9, !10}
!15 = !{!16, !16, i64 0}
!16 = !{!"any pointer", !6, i64 0}
!17 = distinct !{!17, !9, !10}
