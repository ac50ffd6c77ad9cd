; ModuleID = 'switches.c'
source_filename = "switches.c"
target datalayout = "E-m:m-p:32:32-i8:8:32-i16:16:32-i64:64-n32-S64"
target triple = "mips-unknown-linux-gnu"

@calls = internal unnamed_addr global i32 0, align 4
@.str = private unnamed_addr constant [9 x i8] c"eixak4.#\00", align 1
@.str.1 = private unnamed_addr constant [5 x i8] c"zero\00", align 1
@.str.2 = private unnamed_addr constant [4 x i8] c"one\00", align 1
@.str.3 = private unnamed_addr constant [4 x i8] c"two\00", align 1
@.str.4 = private unnamed_addr constant [5 x i8] c"many\00", align 1
@.str.5 = private unnamed_addr constant [4 x i8] c"low\00", align 1
@.str.6 = private unnamed_addr constant [5 x i8] c"high\00", align 1
@.str.7 = private unnamed_addr constant [6 x i8] c"other\00", align 1
@.str.8 = private unnamed_addr constant [5 x i8] c"huge\00", align 1
@.str.9 = private unnamed_addr constant [6 x i8] c"small\00", align 1
@switch.table.main = private unnamed_addr constant [3 x ptr] [ptr @.str.1, ptr @.str.2, ptr @.str.3], align 4
@switch.table.main.10 = private unnamed_addr constant [3 x i32] [i32 55, i32 54, i32 52], align 4

; Function Attrs: nofree nounwind
define dso_local range(i32 -2147483642, -2147483648) i32 @main() local_unnamed_addr #0 {
entry:
  br label %for.body

for.cond.cleanup:                                 ; preds = %word.exit66
  %0 = load i32, ptr @calls, align 4, !tbaa !4
  %inc.i = add nsw i32 %0, 1
  store i32 %inc.i, ptr @calls, align 4, !tbaa !4
  br label %while.body.i

while.body.i:                                     ; preds = %while.body.i, %for.cond.cleanup
  %1 = phi i8 [ %2, %while.body.i ], [ 108, %for.cond.cleanup ]
  %s.addr.05.i.idx = phi i32 [ %s.addr.05.i.add, %while.body.i ], [ 0, %for.cond.cleanup ]
  %s.addr.05.i.add = add nuw nsw i32 %s.addr.05.i.idx, 1
  %incdec.ptr.i.ptr = getelementptr inbounds i8, ptr @.str.5, i32 %s.addr.05.i.add
  %conv.i = sext i8 %1 to i32
  %call.i = tail call i32 @putchar(i32 noundef signext %conv.i)
  %2 = load i8, ptr %incdec.ptr.i.ptr, align 1, !tbaa !8
  %exitcond92 = icmp eq i32 %s.addr.05.i.add, 3
  br i1 %exitcond92, label %word.exit, label %while.body.i, !llvm.loop !9

word.exit:                                        ; preds = %while.body.i
  %call2.i = tail call i32 @putchar(i32 noundef signext 32)
  %3 = load i32, ptr @calls, align 4, !tbaa !4
  %inc.i40 = add nsw i32 %3, 1
  store i32 %inc.i40, ptr @calls, align 4, !tbaa !4
  br label %while.body.i41

while.body.i41:                                   ; preds = %while.body.i41, %word.exit
  %4 = phi i8 [ %5, %while.body.i41 ], [ 104, %word.exit ]
  %s.addr.05.i42.idx = phi i32 [ %s.addr.05.i42.add, %while.body.i41 ], [ 0, %word.exit ]
  %s.addr.05.i42.add = add nuw nsw i32 %s.addr.05.i42.idx, 1
  %incdec.ptr.i43.ptr = getelementptr inbounds i8, ptr @.str.6, i32 %s.addr.05.i42.add
  %conv.i44 = sext i8 %4 to i32
  %call.i45 = tail call i32 @putchar(i32 noundef signext %conv.i44)
  %5 = load i8, ptr %incdec.ptr.i43.ptr, align 1, !tbaa !8
  %exitcond93 = icmp eq i32 %s.addr.05.i42.add, 4
  br i1 %exitcond93, label %word.exit48, label %while.body.i41, !llvm.loop !9

word.exit48:                                      ; preds = %while.body.i41
  %call2.i47 = tail call i32 @putchar(i32 noundef signext 32)
  %6 = load i32, ptr @calls, align 4, !tbaa !4
  %inc.i49 = add nsw i32 %6, 1
  store i32 %inc.i49, ptr @calls, align 4, !tbaa !4
  br label %while.body.i50

while.body.i50:                                   ; preds = %while.body.i50, %word.exit48
  %7 = phi i8 [ %8, %while.body.i50 ], [ 111, %word.exit48 ]
  %s.addr.05.i51.idx = phi i32 [ %s.addr.05.i51.add, %while.body.i50 ], [ 0, %word.exit48 ]
  %s.addr.05.i51.add = add nuw nsw i32 %s.addr.05.i51.idx, 1
  %incdec.ptr.i52.ptr = getelementptr inbounds i8, ptr @.str.7, i32 %s.addr.05.i51.add
  %conv.i53 = sext i8 %7 to i32
  %call.i54 = tail call i32 @putchar(i32 noundef signext %conv.i53)
  %8 = load i8, ptr %incdec.ptr.i52.ptr, align 1, !tbaa !8
  %exitcond94 = icmp eq i32 %s.addr.05.i51.add, 5
  br i1 %exitcond94, label %word.exit57, label %while.body.i50, !llvm.loop !9

word.exit57:                                      ; preds = %while.body.i50
  %call2.i56 = tail call i32 @putchar(i32 noundef signext 10)
  br label %for.body10

for.body:                                         ; preds = %entry, %word.exit66
  %i.090 = phi i32 [ 0, %entry ], [ %inc, %word.exit66 ]
  %9 = icmp ult i32 %i.090, 3
  br i1 %9, label %switch.lookup, label %dense.exit

switch.lookup:                                    ; preds = %for.body
  %switch.gep = getelementptr inbounds [3 x ptr], ptr @switch.table.main, i32 0, i32 %i.090
  %switch.load = load ptr, ptr %switch.gep, align 4
  br label %dense.exit

dense.exit:                                       ; preds = %for.body, %switch.lookup
  %retval.0.i = phi ptr [ %switch.load, %switch.lookup ], [ @.str.4, %for.body ]
  %cmp1.not = icmp eq i32 %i.090, 3
  %10 = load i32, ptr @calls, align 4, !tbaa !4
  %inc.i58 = add nsw i32 %10, 1
  store i32 %inc.i58, ptr @calls, align 4, !tbaa !4
  %11 = load i8, ptr %retval.0.i, align 1, !tbaa !8
  %tobool.not4.i = icmp eq i8 %11, 0
  br i1 %tobool.not4.i, label %word.exit66, label %while.body.i59

while.body.i59:                                   ; preds = %dense.exit, %while.body.i59
  %12 = phi i8 [ %13, %while.body.i59 ], [ %11, %dense.exit ]
  %s.addr.05.i60 = phi ptr [ %incdec.ptr.i61, %while.body.i59 ], [ %retval.0.i, %dense.exit ]
  %incdec.ptr.i61 = getelementptr inbounds i8, ptr %s.addr.05.i60, i32 1
  %conv.i62 = sext i8 %12 to i32
  %call.i63 = tail call i32 @putchar(i32 noundef signext %conv.i62)
  %13 = load i8, ptr %incdec.ptr.i61, align 1, !tbaa !8
  %tobool.not.i64 = icmp eq i8 %13, 0
  br i1 %tobool.not.i64, label %word.exit66, label %while.body.i59, !llvm.loop !9

word.exit66:                                      ; preds = %while.body.i59, %dense.exit
  %cond.i = select i1 %cmp1.not, i32 10, i32 32
  %call2.i65 = tail call i32 @putchar(i32 noundef signext %cond.i)
  %inc = add nuw nsw i32 %i.090, 1
  %exitcond.not = icmp eq i32 %inc, 4
  br i1 %exitcond.not, label %for.cond.cleanup, label %for.body, !llvm.loop !12

for.cond.cleanup9:                                ; preds = %falling.exit
  %14 = load i32, ptr @calls, align 4, !tbaa !4
  %inc.i67 = add nsw i32 %14, 1
  store i32 %inc.i67, ptr @calls, align 4, !tbaa !4
  br label %while.body.i68

while.body.i68:                                   ; preds = %while.body.i68, %for.cond.cleanup9
  %15 = phi i8 [ %16, %while.body.i68 ], [ 104, %for.cond.cleanup9 ]
  %s.addr.05.i69.idx = phi i32 [ %s.addr.05.i69.add, %while.body.i68 ], [ 0, %for.cond.cleanup9 ]
  %s.addr.05.i69.add = add nuw nsw i32 %s.addr.05.i69.idx, 1
  %incdec.ptr.i70.ptr = getelementptr inbounds i8, ptr @.str.8, i32 %s.addr.05.i69.add
  %conv.i71 = sext i8 %15 to i32
  %call.i72 = tail call i32 @putchar(i32 noundef signext %conv.i71)
  %16 = load i8, ptr %incdec.ptr.i70.ptr, align 1, !tbaa !8
  %exitcond96 = icmp eq i32 %s.addr.05.i69.add, 4
  br i1 %exitcond96, label %word.exit75, label %while.body.i68, !llvm.loop !9

word.exit75:                                      ; preds = %while.body.i68
  %call2.i74 = tail call i32 @putchar(i32 noundef signext 32)
  %17 = load i32, ptr @calls, align 4, !tbaa !4
  %inc.i76 = add nsw i32 %17, 1
  store i32 %inc.i76, ptr @calls, align 4, !tbaa !4
  br label %while.body.i77

while.body.i77:                                   ; preds = %while.body.i77, %word.exit75
  %18 = phi i8 [ %19, %while.body.i77 ], [ 115, %word.exit75 ]
  %s.addr.05.i78.idx = phi i32 [ %s.addr.05.i78.add, %while.body.i77 ], [ 0, %word.exit75 ]
  %s.addr.05.i78.add = add nuw nsw i32 %s.addr.05.i78.idx, 1
  %incdec.ptr.i79.ptr = getelementptr inbounds i8, ptr @.str.9, i32 %s.addr.05.i78.add
  %conv.i80 = sext i8 %18 to i32
  %call.i81 = tail call i32 @putchar(i32 noundef signext %conv.i80)
  %19 = load i8, ptr %incdec.ptr.i79.ptr, align 1, !tbaa !8
  %exitcond97 = icmp eq i32 %s.addr.05.i78.add, 5
  br i1 %exitcond97, label %word.exit84, label %while.body.i77, !llvm.loop !9

word.exit84:                                      ; preds = %while.body.i77
  %call2.i83 = tail call i32 @putchar(i32 noundef signext 10)
  br label %for.cond22

for.body10:                                       ; preds = %word.exit57, %falling.exit
  %i5.091 = phi i32 [ 1, %word.exit57 ], [ %inc17, %falling.exit ]
  %20 = icmp ult i32 %i5.091, 4
  br i1 %20, label %switch.lookup98, label %falling.exit

switch.lookup98:                                  ; preds = %for.body10
  %switch.tableidx = add nsw i32 %i5.091, -1
  %switch.gep99 = getelementptr inbounds [3 x i32], ptr @switch.table.main.10, i32 0, i32 %switch.tableidx
  %switch.load100 = load i32, ptr %switch.gep99, align 4
  br label %falling.exit

falling.exit:                                     ; preds = %switch.lookup98, %for.body10
  %sum.2.i = phi i32 [ 48, %for.body10 ], [ %switch.load100, %switch.lookup98 ]
  %call12 = tail call i32 @putchar(i32 noundef signext %sum.2.i)
  %cmp13 = icmp eq i32 %i5.091, 3
  %cond = select i1 %cmp13, i32 10, i32 32
  %call15 = tail call i32 @putchar(i32 noundef signext %cond)
  %inc17 = add nuw nsw i32 %i5.091, 1
  %21 = load i32, ptr @calls, align 4, !tbaa !4
  %inc18 = add nsw i32 %21, 1
  store i32 %inc18, ptr @calls, align 4, !tbaa !4
  %exitcond95.not = icmp eq i32 %inc17, 4
  br i1 %exitcond95.not, label %for.cond.cleanup9, label %for.body10, !llvm.loop !13

for.cond22:                                       ; preds = %sort_of.exit, %word.exit84
  %s.0 = phi ptr [ @.str, %word.exit84 ], [ %incdec.ptr, %sort_of.exit ]
  %22 = load i8, ptr %s.0, align 1, !tbaa !8
  switch i8 %22, label %sw.default.i89 [
    i8 0, label %for.cond.cleanup23
    i8 97, label %sort_of.exit
    i8 101, label %sort_of.exit
    i8 105, label %sort_of.exit
    i8 111, label %sort_of.exit
    i8 117, label %sort_of.exit
    i8 48, label %sw.bb1.i88
    i8 49, label %sw.bb1.i88
    i8 50, label %sw.bb1.i88
    i8 51, label %sw.bb1.i88
    i8 52, label %sw.bb1.i88
    i8 53, label %sw.bb1.i88
    i8 54, label %sw.bb1.i88
    i8 55, label %sw.bb1.i88
    i8 56, label %sw.bb1.i88
    i8 57, label %sw.bb1.i88
    i8 46, label %sw.bb2.i86
    i8 44, label %sw.bb2.i86
    i8 33, label %sw.bb2.i86
  ]

for.cond.cleanup23:                               ; preds = %for.cond22
  %call30 = tail call i32 @putchar(i32 noundef signext 10)
  %23 = load i32, ptr @calls, align 4, !tbaa !4
  %add31 = add nsw i32 %23, 5
  ret i32 %add31

sw.bb1.i88:                                       ; preds = %for.cond22, %for.cond22, %for.cond22, %for.cond22, %for.cond22, %for.cond22, %for.cond22, %for.cond22, %for.cond22, %for.cond22
  br label %sort_of.exit

sw.bb2.i86:                                       ; preds = %for.cond22, %for.cond22, %for.cond22
  br label %sort_of.exit

sw.default.i89:                                   ; preds = %for.cond22
  %24 = add i8 %22, -97
  %25 = icmp ult i8 %24, 26
  %conv8.i = select i1 %25, i32 99, i32 63
  br label %sort_of.exit

sort_of.exit:                                     ; preds = %for.cond22, %for.cond22, %for.cond22, %for.cond22, %for.cond22, %sw.bb1.i88, %sw.bb2.i86, %sw.default.i89
  %retval.0.i87 = phi i32 [ %conv8.i, %sw.default.i89 ], [ 112, %sw.bb2.i86 ], [ 100, %sw.bb1.i88 ], [ 118, %for.cond22 ], [ 118, %for.cond22 ], [ 118, %for.cond22 ], [ 118, %for.cond22 ], [ 118, %for.cond22 ]
  %call27 = tail call i32 @putchar(i32 noundef signext %retval.0.i87)
  %incdec.ptr = getelementptr inbounds i8, ptr %s.0, i32 1
  br label %for.cond22, !llvm.loop !14
}

; Function Attrs: nofree nounwind
declare noundef i32 @putchar(i32 noundef signext) local_unnamed_addr #0

attributes #0 = { nofree nounwind "no-trapping-math"="true" "stack-protector-buffer-size"="8" "target-cpu"="mips32r2" "target-features"="+fpxx,+mips32r2,+nooddspreg,-noabicalls" }

!llvm.module.flags = !{!0, !1, !2}
!llvm.ident = !{!3}

!0 = !{i32 1, !"wchar_size", i32 4}
!1 = !{i32 8, !"PIC Level", i32 1}
!2 = !{i32 7, !"PIE Level", i32 1}
!3 = !{!"Debian clang version 19.1.7 (3~deb12u1)"}
!4 = !{!5, !5, i64 0}
!5 = !{!"int", !6, i64 0}
!6 = !{!"omnipotent char", !7, i64 0}
!7 = !{!"Simple C/C++ TBAA"}
!8 = !{!6, !6, i64 0}
!9 = distinct !{!9, !10, !11}
!10 = !{!"llvm.loop.mustprogress"}
!11 = !{!"llvm.loop.unroll.disable"}
!12 = distinct !{!12, !10, !11}
!13 = distinct !{!13, !10, !11}
!14 = distinct !{!14, !10, !11}
