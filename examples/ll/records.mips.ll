; ModuleID = 'records.c'
source_filename = "records.c"
target datalayout = "E-m:m-p:32:32-i8:8:32-i16:16:32-i64:64-n32-S64"
target triple = "mips-unknown-linux-gnu"

%struct.shop = type { [3 x %struct.item], ptr, i8 }
%struct.item = type { [5 x i8], %struct.price, i64, ptr }
%struct.price = type { i16, i8 }

@shop = internal global %struct.shop zeroinitializer, align 8
@.str = private unnamed_addr constant [4 x i8] c"tea\00", align 1
@.str.1 = private unnamed_addr constant [5 x i8] c"rice\00", align 1
@.str.2 = private unnamed_addr constant [5 x i8] c"salt\00", align 1
@.str.3 = private unnamed_addr constant [5 x i8] c"all \00", align 1

; Function Attrs: nofree nounwind
define dso_local i32 @main() local_unnamed_addr #0 {
entry:
  br label %for.body.i

for.body.i:                                       ; preds = %for.body.i, %entry
  %0 = phi i8 [ %1, %for.body.i ], [ 116, %entry ]
  %i.025.i = phi i32 [ %inc.i, %for.body.i ], [ 0, %entry ]
  %arrayidx4.i = getelementptr inbounds [5 x i8], ptr @shop, i32 0, i32 %i.025.i
  store i8 %0, ptr %arrayidx4.i, align 1, !tbaa !4
  %inc.i = add nuw nsw i32 %i.025.i, 1
  %arrayidx.i = getelementptr inbounds i8, ptr @.str, i32 %inc.i
  %1 = load i8, ptr %arrayidx.i, align 1, !tbaa !4
  %exitcond.not = icmp eq i32 %inc.i, 3
  br i1 %exitcond.not, label %fill.exit, label %for.body.i, !llvm.loop !7

fill.exit:                                        ; preds = %for.body.i
  store i8 0, ptr getelementptr inbounds (i8, ptr @shop, i32 3), align 1, !tbaa !4
  store i16 150, ptr getelementptr inbounds (i8, ptr @shop, i32 6), align 2, !tbaa !10
  store i8 3, ptr getelementptr inbounds (i8, ptr @shop, i32 8), align 8, !tbaa !16
  store i64 450, ptr getelementptr inbounds (i8, ptr @shop, i32 16), align 8, !tbaa !17
  br label %for.body.i23

for.body.i23:                                     ; preds = %for.body.i23, %fill.exit
  %2 = phi i8 [ %3, %for.body.i23 ], [ 114, %fill.exit ]
  %i.025.i24 = phi i32 [ %inc.i26, %for.body.i23 ], [ 0, %fill.exit ]
  %arrayidx4.i25 = getelementptr inbounds [5 x i8], ptr getelementptr inbounds (i8, ptr @shop, i32 32), i32 0, i32 %i.025.i24
  store i8 %2, ptr %arrayidx4.i25, align 1, !tbaa !4
  %inc.i26 = add nuw nsw i32 %i.025.i24, 1
  %arrayidx.i27 = getelementptr inbounds i8, ptr @.str.1, i32 %inc.i26
  %3 = load i8, ptr %arrayidx.i27, align 1, !tbaa !4
  %exitcond53.not = icmp eq i32 %inc.i26, 4
  br i1 %exitcond53.not, label %fill.exit31, label %for.body.i23, !llvm.loop !7

fill.exit31:                                      ; preds = %for.body.i23
  store i8 0, ptr getelementptr inbounds (i8, ptr @shop, i32 36), align 4, !tbaa !4
  store i16 129, ptr getelementptr inbounds (i8, ptr @shop, i32 38), align 2, !tbaa !10
  store i8 10, ptr getelementptr inbounds (i8, ptr @shop, i32 40), align 8, !tbaa !16
  store i64 1290, ptr getelementptr inbounds (i8, ptr @shop, i32 48), align 8, !tbaa !17
  br label %for.body.i32

for.body.i32:                                     ; preds = %for.body.i32, %fill.exit31
  %4 = phi i8 [ %5, %for.body.i32 ], [ 115, %fill.exit31 ]
  %i.025.i33 = phi i32 [ %inc.i35, %for.body.i32 ], [ 0, %fill.exit31 ]
  %arrayidx4.i34 = getelementptr inbounds [5 x i8], ptr getelementptr inbounds (i8, ptr @shop, i32 64), i32 0, i32 %i.025.i33
  store i8 %4, ptr %arrayidx4.i34, align 1, !tbaa !4
  %inc.i35 = add nuw nsw i32 %i.025.i33, 1
  %arrayidx.i36 = getelementptr inbounds i8, ptr @.str.2, i32 %inc.i35
  %5 = load i8, ptr %arrayidx.i36, align 1, !tbaa !4
  %exitcond54.not = icmp eq i32 %inc.i35, 4
  br i1 %exitcond54.not, label %fill.exit40, label %for.body.i32, !llvm.loop !7

fill.exit40:                                      ; preds = %for.body.i32
  store i8 0, ptr getelementptr inbounds (i8, ptr @shop, i32 68), align 4, !tbaa !4
  store i16 100, ptr getelementptr inbounds (i8, ptr @shop, i32 70), align 2, !tbaa !10
  store i8 1, ptr getelementptr inbounds (i8, ptr @shop, i32 72), align 8, !tbaa !16
  store i64 100, ptr getelementptr inbounds (i8, ptr @shop, i32 80), align 8, !tbaa !17
  br label %for.body

for.cond.cleanup:                                 ; preds = %for.body
  store ptr @shop, ptr getelementptr inbounds (i8, ptr @shop, i32 96), align 8, !tbaa !18
  store i8 1, ptr getelementptr inbounds (i8, ptr @shop, i32 100), align 4, !tbaa !21
  br label %for.body6

for.body:                                         ; preds = %fill.exit40, %for.body
  %i.050 = phi i32 [ 0, %fill.exit40 ], [ %add, %for.body ]
  %add = add nuw nsw i32 %i.050, 1
  %arrayidx = getelementptr inbounds [3 x %struct.item], ptr @shop, i32 0, i32 %add
  %next = getelementptr inbounds [3 x %struct.item], ptr @shop, i32 0, i32 %i.050, i32 3
  store ptr %arrayidx, ptr %next, align 8, !tbaa !22
  %cmp = icmp eq i32 %i.050, 0
  br i1 %cmp, label %for.body, label %for.cond.cleanup, !llvm.loop !23

for.cond.cleanup5:                                ; preds = %text.exit49
  %i.04.i = load ptr, ptr getelementptr inbounds (i8, ptr @shop, i32 96), align 8, !tbaa !24
  %tobool.not5.i = icmp eq ptr %i.04.i, null
  br i1 %tobool.not5.i, label %sum.exit, label %for.body.i41

for.body.i41:                                     ; preds = %for.cond.cleanup5, %for.body.i41
  %i.07.i = phi ptr [ %i.0.i, %for.body.i41 ], [ %i.04.i, %for.cond.cleanup5 ]
  %all.06.i = phi i64 [ %add.i, %for.body.i41 ], [ 0, %for.cond.cleanup5 ]
  %total.i = getelementptr inbounds i8, ptr %i.07.i, i32 16
  %6 = load i64, ptr %total.i, align 8, !tbaa !17
  %add.i = add nsw i64 %6, %all.06.i
  %next.i = getelementptr inbounds i8, ptr %i.07.i, i32 24
  %i.0.i = load ptr, ptr %next.i, align 8, !tbaa !24
  %tobool.not.i = icmp eq ptr %i.0.i, null
  br i1 %tobool.not.i, label %sum.exit, label %for.body.i41, !llvm.loop !25

sum.exit:                                         ; preds = %for.body.i41, %for.cond.cleanup5
  %all.0.lcssa.i = phi i64 [ 0, %for.cond.cleanup5 ], [ %add.i, %for.body.i41 ]
  br label %while.body.i

while.body.i:                                     ; preds = %while.body.i, %sum.exit
  %7 = phi i8 [ %8, %while.body.i ], [ 97, %sum.exit ]
  %s.addr.03.i.idx = phi i32 [ %s.addr.03.i.add, %while.body.i ], [ 0, %sum.exit ]
  %s.addr.03.i.add = add nuw nsw i32 %s.addr.03.i.idx, 1
  %incdec.ptr.i.ptr = getelementptr inbounds i8, ptr @.str.3, i32 %s.addr.03.i.add
  %conv.i = sext i8 %7 to i32
  %call.i = tail call i32 @putchar(i32 noundef signext %conv.i)
  %8 = load i8, ptr %incdec.ptr.i.ptr, align 1, !tbaa !4
  %exitcond55 = icmp eq i32 %s.addr.03.i.add, 4
  br i1 %exitcond55, label %text.exit, label %while.body.i, !llvm.loop !26

text.exit:                                        ; preds = %while.body.i
  tail call fastcc void @number(i64 noundef signext %all.0.lcssa.i)
  %call14 = tail call i32 @putchar(i32 noundef signext 10)
  %9 = trunc i64 %all.0.lcssa.i to i32
  %conv = add i32 %9, -1782
  ret i32 %conv

for.body6:                                        ; preds = %for.cond.cleanup, %text.exit49
  %i3.052 = phi ptr [ %14, %text.exit49 ], [ @shop, %for.cond.cleanup ]
  %10 = load i8, ptr %i3.052, align 1, !tbaa !4
  %tobool.not2.i = icmp eq i8 %10, 0
  br i1 %tobool.not2.i, label %text.exit49, label %while.body.i43

while.body.i43:                                   ; preds = %for.body6, %while.body.i43
  %11 = phi i8 [ %12, %while.body.i43 ], [ %10, %for.body6 ]
  %s.addr.03.i44 = phi ptr [ %incdec.ptr.i45, %while.body.i43 ], [ %i3.052, %for.body6 ]
  %incdec.ptr.i45 = getelementptr inbounds i8, ptr %s.addr.03.i44, i32 1
  %conv.i46 = sext i8 %11 to i32
  %call.i47 = tail call i32 @putchar(i32 noundef signext %conv.i46)
  %12 = load i8, ptr %incdec.ptr.i45, align 1, !tbaa !4
  %tobool.not.i48 = icmp eq i8 %12, 0
  br i1 %tobool.not.i48, label %text.exit49, label %while.body.i43, !llvm.loop !26

text.exit49:                                      ; preds = %while.body.i43, %for.body6
  %call = tail call i32 @putchar(i32 noundef signext 32)
  %total = getelementptr inbounds i8, ptr %i3.052, i32 16
  %13 = load i64, ptr %total, align 8, !tbaa !17
  tail call fastcc void @number(i64 noundef signext %13)
  %call7 = tail call i32 @putchar(i32 noundef signext 10)
  %next9 = getelementptr inbounds i8, ptr %i3.052, i32 24
  %14 = load ptr, ptr %next9, align 8, !tbaa !22
  %15 = load i8, ptr getelementptr inbounds (i8, ptr @shop, i32 100), align 4, !tbaa !21, !range !27, !noundef !28
  %loadedv = trunc nuw i8 %15 to i1
  %tobool = icmp ne ptr %14, null
  %16 = select i1 %loadedv, i1 %tobool, i1 false
  br i1 %16, label %for.body6, label %for.cond.cleanup5, !llvm.loop !29
}

; Function Attrs: nofree nounwind
declare noundef i32 @putchar(i32 noundef signext) local_unnamed_addr #0

; Function Attrs: nofree nounwind
define internal fastcc void @number(i64 noundef signext %n) unnamed_addr #0 {
entry:
  %cmp = icmp sgt i64 %n, 9
  br i1 %cmp, label %if.then, label %if.end

if.then:                                          ; preds = %entry
  %div = udiv i64 %n, 10
  tail call fastcc void @number(i64 noundef signext %div)
  br label %if.end

if.end:                                           ; preds = %if.then, %entry
  %rem = srem i64 %n, 10
  %conv = trunc nsw i64 %rem to i32
  %add = add nsw i32 %conv, 48
  %call = tail call i32 @putchar(i32 noundef signext %add)
  ret void
}

attributes #0 = { nofree nounwind "no-trapping-math"="true" "stack-protector-buffer-size"="8" "target-cpu"="mips32r2" "target-features"="+fpxx,+mips32r2,+nooddspreg,-noabicalls" }

!llvm.module.flags = !{!0, !1, !2}
!llvm.ident = !{!3}

!0 = !{i32 1, !"wchar_size", i32 4}
!1 = !{i32 8, !"PIC Level", i32 1}
!2 = !{i32 7, !"PIE Level", i32 1}
!3 = !{!"Debian clang version 19.1.7 (3~deb12u1)"}
!4 = !{!5, !5, i64 0}
!5 = !{!"omnipotent char", !6, i64 0}
!6 = !{!"Simple C/C++ TBAA"}
!7 = distinct !{!7, !8, !9}
!8 = !{!"llvm.loop.mustprogress"}
!9 = !{!"llvm.loop.unroll.disable"}
!10 = !{!11, !13, i64 6}
!11 = !{!"item", !5, i64 0, !12, i64 6, !14, i64 16, !15, i64 24}
!12 = !{!"price", !13, i64 0, !5, i64 2}
!13 = !{!"short", !5, i64 0}
!14 = !{!"long long", !5, i64 0}
!15 = !{!"any pointer", !5, i64 0}
!16 = !{!11, !5, i64 8}
!17 = !{!11, !14, i64 16}
!18 = !{!19, !15, i64 96}
!19 = !{!"shop", !5, i64 0, !15, i64 96, !20, i64 100}
!20 = !{!"_Bool", !5, i64 0}
!21 = !{!19, !20, i64 100}
!22 = !{!11, !15, i64 24}
!23 = distinct !{!23, !8, !9}
!24 = !{!15, !15, i64 0}
!25 = distinct !{!25, !8, !9}
!26 = distinct !{!26, !8, !9}
!27 = !{i8 0, i8 2}
!28 = !{}
!29 = distinct !{!29, !8, !9}
