; ModuleID = 'sieve.c'
source_filename = "sieve.c"
target datalayout = "E-m:m-p:32:32-i8:8:32-i16:16:32-i64:64-n32-S64"
target triple = "mips-unknown-linux-gnu"

@struck = internal unnamed_addr global [100 x i8] zeroinitializer, align 1

; Function Attrs: nofree nounwind
define dso_local i32 @main() local_unnamed_addr #0 {
entry:
  br label %for.body

for.body:                                         ; preds = %entry, %for.body
  %i.035 = phi i32 [ 0, %entry ], [ %add, %for.body ]
  %arrayidx = getelementptr inbounds [100 x i8], ptr @struck, i32 0, i32 %i.035
  store i8 1, ptr %arrayidx, align 1, !tbaa !4
  %add = add nuw nsw i32 %i.035, 2
  %cmp = icmp ult i32 %i.035, 98
  br i1 %cmp, label %for.body, label %for.body5, !llvm.loop !7

for.body5:                                        ; preds = %for.body, %for.inc7
  %i1.036 = phi i32 [ %inc, %for.inc7 ], [ 3, %for.body ]
  %arrayidx6 = getelementptr inbounds [100 x i8], ptr @struck, i32 0, i32 %i1.036
  %0 = load i8, ptr %arrayidx6, align 1, !tbaa !4
  %tobool.not = icmp eq i8 %0, 0
  br i1 %tobool.not, label %for.body.i, label %for.inc7

for.body.i:                                       ; preds = %for.body5, %for.inc.i
  %i.010.i = phi i32 [ %inc5.i, %for.inc.i ], [ 1, %for.body5 ]
  %seen.09.i = phi i32 [ %seen.1.i, %for.inc.i ], [ 0, %for.body5 ]
  %arrayidx.i = getelementptr inbounds [100 x i8], ptr @struck, i32 0, i32 %i.010.i
  %1 = load i8, ptr %arrayidx.i, align 1, !tbaa !4
  %tobool.not.i = icmp eq i8 %1, 0
  br i1 %tobool.not.i, label %if.end.i, label %for.inc.i

if.end.i:                                         ; preds = %for.body.i
  %inc.i = add nsw i32 %seen.09.i, 1
  %cmp1.i = icmp eq i32 %inc.i, %i1.036
  br i1 %cmp1.i, label %if.then2.i, label %for.inc.i

if.then2.i:                                       ; preds = %if.end.i
  store i8 1, ptr %arrayidx.i, align 1, !tbaa !4
  br label %for.inc.i

for.inc.i:                                        ; preds = %if.then2.i, %if.end.i, %for.body.i
  %seen.1.i = phi i32 [ %seen.09.i, %for.body.i ], [ 0, %if.then2.i ], [ %inc.i, %if.end.i ]
  %inc5.i = add nuw nsw i32 %i.010.i, 1
  %exitcond.not.i = icmp eq i32 %inc5.i, 100
  br i1 %exitcond.not.i, label %for.inc7, label %for.body.i, !llvm.loop !10

for.inc7:                                         ; preds = %for.inc.i, %for.body5
  %inc = add nuw nsw i32 %i1.036, 1
  %exitcond.not = icmp eq i32 %inc, 100
  br i1 %exitcond.not, label %for.body13, label %for.body5, !llvm.loop !11

for.cond.cleanup12:                               ; preds = %for.inc22
  %call25 = tail call i32 @putchar(i32 noundef signext 10)
  ret i32 %count.1

for.body13:                                       ; preds = %for.inc7, %for.inc22
  %i9.038 = phi i32 [ %inc23, %for.inc22 ], [ 1, %for.inc7 ]
  %count.037 = phi i32 [ %count.1, %for.inc22 ], [ 0, %for.inc7 ]
  %arrayidx14 = getelementptr inbounds [100 x i8], ptr @struck, i32 0, i32 %i9.038
  %2 = load i8, ptr %arrayidx14, align 1, !tbaa !4
  %tobool15.not = icmp eq i8 %2, 0
  br i1 %tobool15.not, label %if.then16, label %for.inc22

if.then16:                                        ; preds = %for.body13
  %inc17 = add nsw i32 %count.037, 1
  %tobool18.not = icmp eq i32 %count.037, 0
  br i1 %tobool18.not, label %if.end20, label %if.then19

if.then19:                                        ; preds = %if.then16
  %call = tail call i32 @putchar(i32 noundef signext 32)
  br label %if.end20

if.end20:                                         ; preds = %if.then19, %if.then16
  tail call fastcc void @number(i32 noundef signext %i9.038)
  br label %for.inc22

for.inc22:                                        ; preds = %for.body13, %if.end20
  %count.1 = phi i32 [ %count.037, %for.body13 ], [ %inc17, %if.end20 ]
  %inc23 = add nuw nsw i32 %i9.038, 1
  %exitcond39.not = icmp eq i32 %inc23, 100
  br i1 %exitcond39.not, label %for.cond.cleanup12, label %for.body13, !llvm.loop !12
}

; Function Attrs: nofree nounwind
declare noundef i32 @putchar(i32 noundef signext) local_unnamed_addr #0

; Function Attrs: nofree nounwind
define internal fastcc void @number(i32 noundef signext %n) unnamed_addr #0 {
entry:
  %cmp = icmp ugt i32 %n, 9
  br i1 %cmp, label %if.then, label %if.end

if.then:                                          ; preds = %entry
  %div = udiv i32 %n, 10
  tail call fastcc void @number(i32 noundef signext %div)
  br label %if.end

if.end:                                           ; preds = %if.then, %entry
  %rem = urem i32 %n, 10
  %add = or disjoint i32 %rem, 48
  %call = tail call i32 @putchar(i32 noundef signext %add)
  ret void
}

attributes #0 = { nofree nounwind "no-trapping-math"="true" "stack-protector-buffer-size"="8" "target-cpu"="mips32r2" "target-features"="+fpxx,+mips32r2,+nooddspreg,-noabicalls" }

!llvm.module.flags = !{!0, !1, !2}
!llvm.ident = !{!3}

!0 = !{i32 1, !"wchar_size", i32 4}
!1 = !{i32 8, !"PIC Level", i32 1}
!2 = !{i32 7, !"PIE Level", i32 1}
!3 = !{!"Debian clang version 19.1.7 (3~deb12u1)"}
!4 = !{!5, !5, i64 0}
!5 = !{!"omnipotent char", !6, i64 0}
!6 = !{!"Simple C/C++ TBAA"}
!7 = distinct !{!7, !8, !9}
!8 = !{!"llvm.loop.mustprogress"}
!9 = !{!"llvm.loop.unroll.disable"}
!10 = distinct !{!10, !8, !9}
!11 = distinct !{!11, !8, !9}
!12 = distinct !{!12, !8, !9}
