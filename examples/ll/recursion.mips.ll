; ModuleID = 'recursion.c'
source_filename = "recursion.c"
target datalayout = "E-m:m-p:32:32-i8:8:32-i16:16:32-i64:64-n32-S64"
target triple = "mips-unknown-linux-gnu"

@moves = internal unnamed_addr global i32 0, align 4

; Function Attrs: nofree nounwind
define dso_local i32 @main() local_unnamed_addr #0 {
entry:
  %values = alloca [4 x i32], align 4
  tail call fastcc void @hanoi(i32 noundef signext 3, i8 noundef signext 97, i8 noundef signext 98, i8 noundef signext 99)
  %call = tail call i32 @putchar(i32 noundef signext 10)
  %call1 = tail call fastcc i32 @ackermann(i32 noundef signext 3, i32 noundef signext 3)
  call void @llvm.lifetime.start.p0(i64 16, ptr nonnull %values) #3
  store i32 %call1, ptr %values, align 4, !tbaa !4
  %arrayinit.element = getelementptr inbounds i8, ptr %values, i32 4
  %call2 = tail call fastcc i32 @even(i32 noundef signext 10)
  store i32 %call2, ptr %arrayinit.element, align 4, !tbaa !4
  %arrayinit.element3 = getelementptr inbounds i8, ptr %values, i32 8
  %call4 = tail call fastcc i32 @even(i32 noundef signext 7)
  store i32 %call4, ptr %arrayinit.element3, align 4, !tbaa !4
  %arrayinit.element5 = getelementptr inbounds i8, ptr %values, i32 12
  %call6 = tail call fastcc i32 @divisor(i32 noundef signext 1071, i32 noundef signext 462)
  store i32 %call6, ptr %arrayinit.element5, align 4, !tbaa !4
  br label %for.body

for.cond.cleanup:                                 ; preds = %for.body
  call void @llvm.lifetime.end.p0(i64 16, ptr nonnull %values) #3
  ret i32 %call1

for.body:                                         ; preds = %entry, %for.body
  %i.013 = phi i32 [ 0, %entry ], [ %inc, %for.body ]
  %arrayidx = getelementptr inbounds [4 x i32], ptr %values, i32 0, i32 %i.013
  %0 = load i32, ptr %arrayidx, align 4, !tbaa !4
  tail call fastcc void @number(i32 noundef signext %0)
  %cmp7.not = icmp eq i32 %i.013, 3
  %cond = select i1 %cmp7.not, i32 10, i32 32
  %call8 = tail call i32 @putchar(i32 noundef signext %cond)
  %inc = add nuw nsw i32 %i.013, 1
  %exitcond.not = icmp eq i32 %inc, 4
  br i1 %exitcond.not, label %for.cond.cleanup, label %for.body, !llvm.loop !8
}

; Function Attrs: nofree nounwind
define internal fastcc void @hanoi(i32 noundef signext %n, i8 noundef signext %from, i8 noundef signext %to, i8 noundef signext %by) unnamed_addr #0 {
entry:
  br label %tailrecurse

tailrecurse:                                      ; preds = %if.end2, %entry
  %n.tr = phi i32 [ %n, %entry ], [ %sub, %if.end2 ]
  %from.tr = phi i8 [ %from, %entry ], [ %by.tr, %if.end2 ]
  %by.tr = phi i8 [ %by, %entry ], [ %from.tr, %if.end2 ]
  %cmp = icmp eq i32 %n.tr, 0
  br i1 %cmp, label %return, label %if.end

if.end:                                           ; preds = %tailrecurse
  %sub = add nsw i32 %n.tr, -1
  tail call fastcc void @hanoi(i32 noundef signext %sub, i8 noundef signext %from.tr, i8 noundef signext %by.tr, i8 noundef signext %to)
  %0 = load i32, ptr @moves, align 4, !tbaa !4
  %inc = add nsw i32 %0, 1
  store i32 %inc, ptr @moves, align 4, !tbaa !4
  %tobool.not = icmp eq i32 %0, 0
  br i1 %tobool.not, label %if.end2, label %if.then1

if.then1:                                         ; preds = %if.end
  %call = tail call i32 @putchar(i32 noundef signext 32)
  br label %if.end2

if.end2:                                          ; preds = %if.then1, %if.end
  %conv = zext nneg i8 %from.tr to i32
  %call3 = tail call i32 @putchar(i32 noundef signext %conv)
  %conv4 = zext nneg i8 %to to i32
  %call5 = tail call i32 @putchar(i32 noundef signext %conv4)
  br label %tailrecurse

return:                                           ; preds = %tailrecurse
  ret void
}

; Function Attrs: nofree nounwind
declare noundef i32 @putchar(i32 noundef signext) local_unnamed_addr #0

; Function Attrs: mustprogress nocallback nofree nosync nounwind willreturn memory(argmem: readwrite)
declare void @llvm.lifetime.start.p0(i64 immarg, ptr nocapture) #1

; Function Attrs: nofree nosync nounwind memory(none)
define internal fastcc i32 @ackermann(i32 noundef signext %m, i32 noundef signext %n) unnamed_addr #2 {
entry:
  br label %tailrecurse

tailrecurse:                                      ; preds = %cond.end, %entry
  %m.tr = phi i32 [ %m, %entry ], [ %sub, %cond.end ]
  %n.tr = phi i32 [ %n, %entry ], [ %cond, %cond.end ]
  %cmp = icmp eq i32 %m.tr, 0
  br i1 %cmp, label %if.then, label %if.end

if.then:                                          ; preds = %tailrecurse
  %add = add i32 %n.tr, 1
  ret i32 %add

if.end:                                           ; preds = %tailrecurse
  %sub = add nsw i32 %m.tr, -1
  %cmp1 = icmp eq i32 %n.tr, 0
  br i1 %cmp1, label %cond.end, label %cond.false

cond.false:                                       ; preds = %if.end
  %sub2 = add i32 %n.tr, -1
  %call = tail call fastcc i32 @ackermann(i32 noundef signext %m.tr, i32 noundef signext %sub2)
  br label %cond.end

cond.end:                                         ; preds = %if.end, %cond.false
  %cond = phi i32 [ %call, %cond.false ], [ 1, %if.end ]
  br label %tailrecurse
}

; Function Attrs: nofree nosync nounwind memory(none)
define internal fastcc range(i32 0, 2) i32 @even(i32 noundef signext %n) unnamed_addr #2 {
entry:
  br label %tailrecurse

tailrecurse:                                      ; preds = %land.rhs.i, %entry
  %n.tr = phi i32 [ %n, %entry ], [ %sub.i, %land.rhs.i ]
  switch i32 %n.tr, label %land.rhs.i [
    i32 0, label %lor.end
    i32 1, label %lor.end.fold.split
  ]

land.rhs.i:                                       ; preds = %tailrecurse
  %sub.i = add nsw i32 %n.tr, -2
  br label %tailrecurse

lor.end.fold.split:                               ; preds = %tailrecurse
  br label %lor.end

lor.end:                                          ; preds = %tailrecurse, %lor.end.fold.split
  %lor.ext = phi i32 [ 1, %tailrecurse ], [ 0, %lor.end.fold.split ]
  ret i32 %lor.ext
}

; Function Attrs: nofree nosync nounwind memory(none)
define internal fastcc range(i32 1, 1072) i32 @divisor(i32 noundef signext %a, i32 noundef signext %b) unnamed_addr #2 {
entry:
  br label %tailrecurse

tailrecurse:                                      ; preds = %cond.false, %entry
  %a.tr = phi i32 [ %a, %entry ], [ %b.tr, %cond.false ]
  %b.tr = phi i32 [ %b, %entry ], [ %rem, %cond.false ]
  %cmp = icmp eq i32 %b.tr, 0
  br i1 %cmp, label %cond.end, label %cond.false

cond.false:                                       ; preds = %tailrecurse
  %rem = urem i32 %a.tr, %b.tr
  br label %tailrecurse

cond.end:                                         ; preds = %tailrecurse
  ret i32 %a.tr
}

; Function Attrs: nofree nounwind
define internal fastcc void @number(i32 noundef signext %n) unnamed_addr #0 {
entry:
  %cmp = icmp ugt i32 %n, 9
  br i1 %cmp, label %if.then, label %if.end

if.then:                                          ; preds = %entry
  %div = udiv i32 %n, 10
  tail call fastcc void @number(i32 noundef signext %div)
  br label %if.end

if.end:                                           ; preds = %if.then, %entry
  %rem = urem i32 %n, 10
  %add = or disjoint i32 %rem, 48
  %call = tail call i32 @putchar(i32 noundef signext %add)
  ret void
}

; Function Attrs: mustprogress nocallback nofree nosync nounwind willreturn memory(argmem: readwrite)
declare void @llvm.lifetime.end.p0(i64 immarg, ptr nocapture) #1

attributes #0 = { nofree nounwind "no-trapping-math"="true" "stack-protector-buffer-size"="8" "target-cpu"="mips32r2" "target-features"="+fpxx,+mips32r2,+nooddspreg,-noabicalls" }
attributes #1 = { mustprogress nocallback nofree nosync nounwind willreturn memory(argmem: readwrite) }
attributes #2 = { nofree nosync nounwind memory(none) "no-trapping-math"="true" "stack-protector-buffer-size"="8" "target-cpu"="mips32r2" "target-features"="+fpxx,+mips32r2,+nooddspreg,-noabicalls" }
attributes #3 = { nounwind }

!llvm.module.flags = !{!0, !1, !2}
!llvm.ident = !{!3}

!0 = !{i32 1, !"wchar_size", i32 4}
!1 = !{i32 8, !"PIC Level", i32 1}
!2 = !{i32 7, !"PIE Level", i32 1}
!3 = !{!"Debian clang version 19.1.7 (3~deb12u1)"}
!4 = !{!5, !5, i64 0}
!5 = !{!"int", !6, i64 0}
!6 = !{!"omnipotent char", !7, i64 0}
!7 = !{!"Simple C/C++ TBAA"}
!8 = distinct !{!8, !9, !10}
!9 = !{!"llvm.loop.mustprogress"}
!10 = !{!"llvm.loop.unroll.disable"}
