; ModuleID = 'hash.c'
source_filename = "hash.c"
target datalayout = "E-m:m-p:32:32-i8:8:32-i16:16:32-i64:64-n32-S64"
target triple = "mips-unknown-linux-gnu"

%struct.slot = type { ptr, i32, i32 }

@text = internal unnamed_addr constant [61 x i8] c"the server asks the device for the page and the server waits\00", align 1
@kept = internal global [80 x i8] zeroinitializer, align 1
@main.asked = internal unnamed_addr constant [5 x ptr] [ptr @.str, ptr @.str.1, ptr @.str.2, ptr @.str.3, ptr @.str.4], align 4
@.str = private unnamed_addr constant [4 x i8] c"the\00", align 1
@.str.1 = private unnamed_addr constant [7 x i8] c"server\00", align 1
@.str.2 = private unnamed_addr constant [7 x i8] c"device\00", align 1
@.str.3 = private unnamed_addr constant [5 x i8] c"page\00", align 1
@.str.4 = private unnamed_addr constant [5 x i8] c"link\00", align 1
@table = internal unnamed_addr global [16 x %struct.slot] zeroinitializer, align 4

; Function Attrs: nofree nounwind
define dso_local i32 @main() local_unnamed_addr #0 {
entry:
  br label %for.body

for.body:                                         ; preds = %entry, %for.inc
  %i.073 = phi i32 [ 0, %entry ], [ %inc, %for.inc ]
  %start.072 = phi i32 [ 0, %entry ], [ %start.1, %for.inc ]
  %arrayidx = getelementptr inbounds [61 x i8], ptr @text, i32 0, i32 %i.073
  %0 = load i8, ptr %arrayidx, align 1, !tbaa !4
  %cmp1 = icmp eq i8 %0, 32
  %spec.select = select i1 %cmp1, i8 0, i8 %0
  %arrayidx6 = getelementptr inbounds [80 x i8], ptr @kept, i32 0, i32 %i.073
  store i8 %spec.select, ptr %arrayidx6, align 1, !tbaa !4
  %cmp9 = icmp eq i8 %spec.select, 0
  br i1 %cmp9, label %if.then, label %for.inc

if.then:                                          ; preds = %for.body
  %arrayidx11 = getelementptr inbounds [80 x i8], ptr @kept, i32 0, i32 %start.072
  %1 = load i8, ptr %arrayidx11, align 1, !tbaa !4
  %tobool.not3.i.i.i = icmp eq i8 %1, 0
  br i1 %tobool.not3.i.i.i, label %hash.exit.i.i, label %while.body.i.i.i

while.body.i.i.i:                                 ; preds = %if.then, %while.body.i.i.i
  %2 = phi i8 [ %3, %while.body.i.i.i ], [ %1, %if.then ]
  %h.05.i.i.i = phi i32 [ %mul.i.i.i, %while.body.i.i.i ], [ -2128831035, %if.then ]
  %s.addr.04.i.i.i = phi ptr [ %incdec.ptr.i.i.i, %while.body.i.i.i ], [ %arrayidx11, %if.then ]
  %incdec.ptr.i.i.i = getelementptr inbounds i8, ptr %s.addr.04.i.i.i, i32 1
  %conv.i.i.i = zext i8 %2 to i32
  %xor.i.i.i = xor i32 %h.05.i.i.i, %conv.i.i.i
  %mul.i.i.i = mul i32 %xor.i.i.i, 16777619
  %3 = load i8, ptr %incdec.ptr.i.i.i, align 1, !tbaa !4
  %tobool.not.i.i.i = icmp eq i8 %3, 0
  br i1 %tobool.not.i.i.i, label %hash.exit.i.i, label %while.body.i.i.i, !llvm.loop !7

hash.exit.i.i:                                    ; preds = %while.body.i.i.i, %if.then
  %h.0.lcssa.i.i.i = phi i32 [ -2128831035, %if.then ], [ %mul.i.i.i, %while.body.i.i.i ]
  br label %for.cond.i.i

for.cond.i.i:                                     ; preds = %cleanup.i.i, %hash.exit.i.i
  %i.0.in.i.i = phi i32 [ %h.0.lcssa.i.i.i, %hash.exit.i.i ], [ %add.i.i, %cleanup.i.i ]
  %retval.0.i.i = phi ptr [ undef, %hash.exit.i.i ], [ %retval.1.i.i, %cleanup.i.i ]
  %i.0.i.i = and i32 %i.0.in.i.i, 15
  %arrayidx.i.i = getelementptr inbounds [16 x %struct.slot], ptr @table, i32 0, i32 %i.0.i.i
  %4 = load ptr, ptr %arrayidx.i.i, align 4, !tbaa !10
  %tobool.not.i.i = icmp eq ptr %4, null
  br i1 %tobool.not.i.i, label %cleanup.i.i, label %lor.lhs.false.i.i

lor.lhs.false.i.i:                                ; preds = %for.cond.i.i
  %hash.i.i = getelementptr inbounds i8, ptr %arrayidx.i.i, i32 4
  %5 = load i32, ptr %hash.i.i, align 4, !tbaa !14
  %cmp.i.i = icmp eq i32 %5, %h.0.lcssa.i.i.i
  br i1 %cmp.i.i, label %land.lhs.true.i.i, label %if.end.i.i

land.lhs.true.i.i:                                ; preds = %lor.lhs.false.i.i
  %6 = load i8, ptr %4, align 1, !tbaa !4
  %tobool.not14.i.i.i = icmp eq i8 %6, 0
  br i1 %tobool.not14.i.i.i, label %same.exit.i.i, label %land.rhs.i.i.i

land.rhs.i.i.i:                                   ; preds = %land.lhs.true.i.i, %for.body.i.i.i
  %7 = phi i8 [ %9, %for.body.i.i.i ], [ %6, %land.lhs.true.i.i ]
  %b.addr.016.i.i.i = phi ptr [ %incdec.ptr.i14.i.i, %for.body.i.i.i ], [ %arrayidx11, %land.lhs.true.i.i ]
  %a.addr.015.i.i.i = phi ptr [ %incdec.ptr4.i.i.i, %for.body.i.i.i ], [ %4, %land.lhs.true.i.i ]
  %8 = load i8, ptr %b.addr.016.i.i.i, align 1, !tbaa !4
  %cmp.i.i.i = icmp eq i8 %7, %8
  br i1 %cmp.i.i.i, label %for.body.i.i.i, label %same.exit.i.i

for.body.i.i.i:                                   ; preds = %land.rhs.i.i.i
  %incdec.ptr.i14.i.i = getelementptr inbounds i8, ptr %b.addr.016.i.i.i, i32 1
  %incdec.ptr4.i.i.i = getelementptr inbounds i8, ptr %a.addr.015.i.i.i, i32 1
  %9 = load i8, ptr %incdec.ptr4.i.i.i, align 1, !tbaa !4
  %tobool.not.i15.i.i = icmp eq i8 %9, 0
  br i1 %tobool.not.i15.i.i, label %same.exit.i.i, label %land.rhs.i.i.i, !llvm.loop !15

same.exit.i.i:                                    ; preds = %for.body.i.i.i, %land.rhs.i.i.i, %land.lhs.true.i.i
  %b.addr.0.lcssa.i.i.i = phi ptr [ %arrayidx11, %land.lhs.true.i.i ], [ %b.addr.016.i.i.i, %land.rhs.i.i.i ], [ %incdec.ptr.i14.i.i, %for.body.i.i.i ]
  %.lcssa.i.i.i = phi i8 [ %6, %land.lhs.true.i.i ], [ %7, %land.rhs.i.i.i ], [ %9, %for.body.i.i.i ]
  %10 = load i8, ptr %b.addr.0.lcssa.i.i.i, align 1, !tbaa !4
  %cmp7.i.not.i.i = icmp eq i8 %.lcssa.i.i.i, %10
  br i1 %cmp7.i.not.i.i, label %cleanup.i.i, label %if.end.i.i

if.end.i.i:                                       ; preds = %same.exit.i.i, %lor.lhs.false.i.i
  br label %cleanup.i.i

cleanup.i.i:                                      ; preds = %if.end.i.i, %same.exit.i.i, %for.cond.i.i
  %retval.1.i.i = phi ptr [ %retval.0.i.i, %if.end.i.i ], [ %arrayidx.i.i, %same.exit.i.i ], [ %arrayidx.i.i, %for.cond.i.i ]
  %cond.i.i = phi i1 [ true, %if.end.i.i ], [ false, %same.exit.i.i ], [ false, %for.cond.i.i ]
  %add.i.i = add nuw nsw i32 %i.0.i.i, 1
  br i1 %cond.i.i, label %for.cond.i.i, label %slot_of.exit.i, !llvm.loop !16

slot_of.exit.i:                                   ; preds = %cleanup.i.i
  store ptr %arrayidx11, ptr %retval.1.i.i, align 4, !tbaa !10
  %11 = load i8, ptr %arrayidx11, align 1, !tbaa !4
  %tobool.not3.i.i = icmp eq i8 %11, 0
  br i1 %tobool.not3.i.i, label %count.exit, label %while.body.i.i

while.body.i.i:                                   ; preds = %slot_of.exit.i, %while.body.i.i
  %12 = phi i8 [ %13, %while.body.i.i ], [ %11, %slot_of.exit.i ]
  %h.05.i.i = phi i32 [ %mul.i.i, %while.body.i.i ], [ -2128831035, %slot_of.exit.i ]
  %s.addr.04.i.i = phi ptr [ %incdec.ptr.i.i, %while.body.i.i ], [ %arrayidx11, %slot_of.exit.i ]
  %incdec.ptr.i.i = getelementptr inbounds i8, ptr %s.addr.04.i.i, i32 1
  %conv.i.i = zext i8 %12 to i32
  %xor.i.i = xor i32 %h.05.i.i, %conv.i.i
  %mul.i.i = mul i32 %xor.i.i, 16777619
  %13 = load i8, ptr %incdec.ptr.i.i, align 1, !tbaa !4
  %tobool.not.i7.i = icmp eq i8 %13, 0
  br i1 %tobool.not.i7.i, label %count.exit, label %while.body.i.i, !llvm.loop !7

count.exit:                                       ; preds = %while.body.i.i, %slot_of.exit.i
  %h.0.lcssa.i.i = phi i32 [ -2128831035, %slot_of.exit.i ], [ %mul.i.i, %while.body.i.i ]
  %hash.i = getelementptr inbounds i8, ptr %retval.1.i.i, i32 4
  store i32 %h.0.lcssa.i.i, ptr %hash.i, align 4, !tbaa !14
  %count.i = getelementptr inbounds i8, ptr %retval.1.i.i, i32 8
  %14 = load i32, ptr %count.i, align 4, !tbaa !17
  %inc.i = add nsw i32 %14, 1
  store i32 %inc.i, ptr %count.i, align 4, !tbaa !17
  %add = add nuw nsw i32 %i.073, 1
  br label %for.inc

for.inc:                                          ; preds = %for.body, %count.exit
  %start.1 = phi i32 [ %add, %count.exit ], [ %start.072, %for.body ]
  %inc = add nuw nsw i32 %i.073, 1
  %exitcond.not = icmp eq i32 %inc, 61
  br i1 %exitcond.not, label %for.body17, label %for.body, !llvm.loop !18

for.cond.cleanup16:                               ; preds = %show.exit
  ret i32 %add19

for.body17:                                       ; preds = %for.inc, %show.exit
  %i12.075 = phi i32 [ %inc21, %show.exit ], [ 0, %for.inc ]
  %all.074 = phi i32 [ %add19, %show.exit ], [ 0, %for.inc ]
  %arrayidx18 = getelementptr inbounds [5 x ptr], ptr @main.asked, i32 0, i32 %i12.075
  %15 = load ptr, ptr %arrayidx18, align 4, !tbaa !19
  %16 = load i8, ptr %15, align 1, !tbaa !4
  %tobool.not3.i.i.i32 = icmp eq i8 %16, 0
  br i1 %tobool.not3.i.i.i32, label %hash.exit.i.i41, label %while.body.i.i.i33

while.body.i.i.i33:                               ; preds = %for.body17, %while.body.i.i.i33
  %17 = phi i8 [ %18, %while.body.i.i.i33 ], [ %16, %for.body17 ]
  %h.05.i.i.i34 = phi i32 [ %mul.i.i.i39, %while.body.i.i.i33 ], [ -2128831035, %for.body17 ]
  %s.addr.04.i.i.i35 = phi ptr [ %incdec.ptr.i.i.i36, %while.body.i.i.i33 ], [ %15, %for.body17 ]
  %incdec.ptr.i.i.i36 = getelementptr inbounds i8, ptr %s.addr.04.i.i.i35, i32 1
  %conv.i.i.i37 = zext i8 %17 to i32
  %xor.i.i.i38 = xor i32 %h.05.i.i.i34, %conv.i.i.i37
  %mul.i.i.i39 = mul i32 %xor.i.i.i38, 16777619
  %18 = load i8, ptr %incdec.ptr.i.i.i36, align 1, !tbaa !4
  %tobool.not.i.i.i40 = icmp eq i8 %18, 0
  br i1 %tobool.not.i.i.i40, label %hash.exit.i.i41, label %while.body.i.i.i33, !llvm.loop !7

hash.exit.i.i41:                                  ; preds = %while.body.i.i.i33, %for.body17
  %h.0.lcssa.i.i.i42 = phi i32 [ -2128831035, %for.body17 ], [ %mul.i.i.i39, %while.body.i.i.i33 ]
  br label %for.cond.i.i43

for.cond.i.i43:                                   ; preds = %cleanup.i.i53, %hash.exit.i.i41
  %i.0.in.i.i44 = phi i32 [ %h.0.lcssa.i.i.i42, %hash.exit.i.i41 ], [ %add.i.i56, %cleanup.i.i53 ]
  %retval.0.i.i45 = phi ptr [ undef, %hash.exit.i.i41 ], [ %retval.1.i.i54, %cleanup.i.i53 ]
  %i.0.i.i46 = and i32 %i.0.in.i.i44, 15
  %arrayidx.i.i47 = getelementptr inbounds [16 x %struct.slot], ptr @table, i32 0, i32 %i.0.i.i46
  %19 = load ptr, ptr %arrayidx.i.i47, align 4, !tbaa !10
  %tobool.not.i.i48 = icmp eq ptr %19, null
  br i1 %tobool.not.i.i48, label %cleanup.i.i53, label %lor.lhs.false.i.i49

lor.lhs.false.i.i49:                              ; preds = %for.cond.i.i43
  %hash.i.i50 = getelementptr inbounds i8, ptr %arrayidx.i.i47, i32 4
  %20 = load i32, ptr %hash.i.i50, align 4, !tbaa !14
  %cmp.i.i51 = icmp eq i32 %20, %h.0.lcssa.i.i.i42
  br i1 %cmp.i.i51, label %land.lhs.true.i.i58, label %if.end.i.i52

land.lhs.true.i.i58:                              ; preds = %lor.lhs.false.i.i49
  %21 = load i8, ptr %19, align 1, !tbaa !4
  %tobool.not14.i.i.i59 = icmp eq i8 %21, 0
  br i1 %tobool.not14.i.i.i59, label %same.exit.i.i64, label %land.rhs.i.i.i60

land.rhs.i.i.i60:                                 ; preds = %land.lhs.true.i.i58, %for.body.i.i.i68
  %22 = phi i8 [ %24, %for.body.i.i.i68 ], [ %21, %land.lhs.true.i.i58 ]
  %b.addr.016.i.i.i61 = phi ptr [ %incdec.ptr.i14.i.i69, %for.body.i.i.i68 ], [ %15, %land.lhs.true.i.i58 ]
  %a.addr.015.i.i.i62 = phi ptr [ %incdec.ptr4.i.i.i70, %for.body.i.i.i68 ], [ %19, %land.lhs.true.i.i58 ]
  %23 = load i8, ptr %b.addr.016.i.i.i61, align 1, !tbaa !4
  %cmp.i.i.i63 = icmp eq i8 %22, %23
  br i1 %cmp.i.i.i63, label %for.body.i.i.i68, label %same.exit.i.i64

for.body.i.i.i68:                                 ; preds = %land.rhs.i.i.i60
  %incdec.ptr.i14.i.i69 = getelementptr inbounds i8, ptr %b.addr.016.i.i.i61, i32 1
  %incdec.ptr4.i.i.i70 = getelementptr inbounds i8, ptr %a.addr.015.i.i.i62, i32 1
  %24 = load i8, ptr %incdec.ptr4.i.i.i70, align 1, !tbaa !4
  %tobool.not.i15.i.i71 = icmp eq i8 %24, 0
  br i1 %tobool.not.i15.i.i71, label %same.exit.i.i64, label %land.rhs.i.i.i60, !llvm.loop !15

same.exit.i.i64:                                  ; preds = %for.body.i.i.i68, %land.rhs.i.i.i60, %land.lhs.true.i.i58
  %b.addr.0.lcssa.i.i.i65 = phi ptr [ %15, %land.lhs.true.i.i58 ], [ %b.addr.016.i.i.i61, %land.rhs.i.i.i60 ], [ %incdec.ptr.i14.i.i69, %for.body.i.i.i68 ]
  %.lcssa.i.i.i66 = phi i8 [ %21, %land.lhs.true.i.i58 ], [ %22, %land.rhs.i.i.i60 ], [ %24, %for.body.i.i.i68 ]
  %25 = load i8, ptr %b.addr.0.lcssa.i.i.i65, align 1, !tbaa !4
  %cmp7.i.not.i.i67 = icmp eq i8 %.lcssa.i.i.i66, %25
  br i1 %cmp7.i.not.i.i67, label %cleanup.i.i53, label %if.end.i.i52

if.end.i.i52:                                     ; preds = %same.exit.i.i64, %lor.lhs.false.i.i49
  br label %cleanup.i.i53

cleanup.i.i53:                                    ; preds = %if.end.i.i52, %same.exit.i.i64, %for.cond.i.i43
  %retval.1.i.i54 = phi ptr [ %retval.0.i.i45, %if.end.i.i52 ], [ %arrayidx.i.i47, %same.exit.i.i64 ], [ %arrayidx.i.i47, %for.cond.i.i43 ]
  %cond.i.i55 = phi i1 [ true, %if.end.i.i52 ], [ false, %same.exit.i.i64 ], [ false, %for.cond.i.i43 ]
  %add.i.i56 = add nuw nsw i32 %i.0.i.i46, 1
  br i1 %cond.i.i55, label %for.cond.i.i43, label %for.cond.preheader.i, !llvm.loop !16

for.cond.preheader.i:                             ; preds = %cleanup.i.i53
  br i1 %tobool.not3.i.i.i32, label %for.cond.cleanup.i, label %for.body.i

for.cond.cleanup.i:                               ; preds = %for.body.i, %for.cond.preheader.i
  %call2.i = tail call i32 @putchar(i32 noundef signext 32)
  %26 = load ptr, ptr %retval.1.i.i54, align 4, !tbaa !10
  %tobool4.not.i = icmp eq ptr %26, null
  br i1 %tobool4.not.i, label %show.exit, label %cond.true.i

for.body.i:                                       ; preds = %for.cond.preheader.i, %for.body.i
  %27 = phi i8 [ %28, %for.body.i ], [ %16, %for.cond.preheader.i ]
  %p.014.i = phi ptr [ %incdec.ptr.i, %for.body.i ], [ %15, %for.cond.preheader.i ]
  %conv.i = sext i8 %27 to i32
  %call1.i = tail call i32 @putchar(i32 noundef signext %conv.i)
  %incdec.ptr.i = getelementptr inbounds i8, ptr %p.014.i, i32 1
  %28 = load i8, ptr %incdec.ptr.i, align 1, !tbaa !4
  %tobool.not.i = icmp eq i8 %28, 0
  br i1 %tobool.not.i, label %for.cond.cleanup.i, label %for.body.i, !llvm.loop !20

cond.true.i:                                      ; preds = %for.cond.cleanup.i
  %count.i57 = getelementptr inbounds i8, ptr %retval.1.i.i54, i32 8
  %29 = load i32, ptr %count.i57, align 4, !tbaa !17
  %add.i = add nsw i32 %29, 48
  br label %show.exit

show.exit:                                        ; preds = %for.cond.cleanup.i, %cond.true.i
  %cond.i = phi i32 [ %add.i, %cond.true.i ], [ 45, %for.cond.cleanup.i ]
  %call5.i = tail call i32 @putchar(i32 noundef signext %cond.i)
  %call6.i = tail call i32 @putchar(i32 noundef signext 10)
  %count7.i = getelementptr inbounds i8, ptr %retval.1.i.i54, i32 8
  %30 = load i32, ptr %count7.i, align 4, !tbaa !17
  %add19 = add nsw i32 %30, %all.074
  %inc21 = add nuw nsw i32 %i12.075, 1
  %exitcond76.not = icmp eq i32 %inc21, 5
  br i1 %exitcond76.not, label %for.cond.cleanup16, label %for.body17, !llvm.loop !21
}

; Function Attrs: nofree nounwind
declare noundef i32 @putchar(i32 noundef signext) local_unnamed_addr #0

attributes #0 = { nofree nounwind "no-trapping-math"="true" "stack-protector-buffer-size"="8" "target-cpu"="mips32r2" "target-features"="+fpxx,+mips32r2,+nooddspreg,-noabicalls" }

!llvm.module.flags = !{!0, !1, !2}
!llvm.ident = !{!3}

!0 = !{i32 1, !"wchar_size", i32 4}
!1 = !{i32 8, !"PIC Level", i32 1}
!2 = !{i32 7, !"PIE Level", i32 1}
!3 = !{!"Debian clang version 19.1.7 (3~deb12u1)"}
!4 = !{!5, !5, i64 0}
!5 = !{!"omnipotent char", !6, i64 0}
!6 = !{!"Simple C/C++ TBAA"}
!7 = distinct !{!7, !8, !9}
!8 = !{!"llvm.loop.mustprogress"}
!9 = !{!"llvm.loop.unroll.disable"}
!10 = !{!11, !12, i64 0}
!11 = !{!"slot", !12, i64 0, !13, i64 4, !13, i64 8}
!12 = !{!"any pointer", !5, i64 0}
!13 = !{!"int", !5, i64 0}
!14 = !{!11, !13, i64 4}
!15 = distinct !{!15, !8, !9}
!16 = distinct !{!16, !9}
!17 = !{!11, !13, i64 8}
!18 = distinct !{!18, !8, !9}
!19 = !{!12, !12, i64 0}
!20 = distinct !{!20, !8, !9}
!21 = distinct !{!21, !8, !9}
