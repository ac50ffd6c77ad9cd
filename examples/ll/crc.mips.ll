; ModuleID = 'crc.c'
source_filename = "crc.c"
target datalayout = "E-m:m-p:32:32-i8:8:32-i16:16:32-i64:64-n32-S64"
target triple = "mips-unknown-linux-gnu"

@text = internal unnamed_addr constant [10 x i8] c"123456789\00", align 1
@.str = private unnamed_addr constant [17 x i8] c"0123456789ABCDEF\00", align 1
@table = internal unnamed_addr global [256 x i32] zeroinitializer, align 4

; Function Attrs: nofree nounwind
define dso_local noundef range(i32 0, 256) i32 @main() local_unnamed_addr #0 {
entry:
  br label %for.body.i

for.body.i:                                       ; preds = %for.cond.cleanup.i, %entry
  %0 = phi i8 [ 49, %entry ], [ %1, %for.cond.cleanup.i ]
  %crc.019.i = phi i32 [ -1, %entry ], [ %cond.i, %for.cond.cleanup.i ]
  %s.addr.018.idx.i = phi i32 [ 0, %entry ], [ %s.addr.018.add.i, %for.cond.cleanup.i ]
  %conv.i = zext i8 %0 to i32
  %xor.i = xor i32 %crc.019.i, %conv.i
  br label %for.body3.i

for.cond.cleanup.i:                               ; preds = %for.body3.i
  %s.addr.018.add.i = add nuw nsw i32 %s.addr.018.idx.i, 1
  %incdec.ptr.ptr.i = getelementptr inbounds i8, ptr @text, i32 %s.addr.018.add.i
  %1 = load i8, ptr %incdec.ptr.ptr.i, align 1, !tbaa !4
  %exitcond20.i = icmp eq i32 %s.addr.018.add.i, 9
  br i1 %exitcond20.i, label %by_bits.exit, label %for.body.i, !llvm.loop !7

for.body3.i:                                      ; preds = %for.body3.i, %for.body.i
  %k.017.i = phi i32 [ 0, %for.body.i ], [ %inc.i, %for.body3.i ]
  %crc.116.i = phi i32 [ %xor.i, %for.body.i ], [ %cond.i, %for.body3.i ]
  %and.i = and i32 %crc.116.i, 1
  %tobool4.not.i = icmp eq i32 %and.i, 0
  %shr.i = lshr i32 %crc.116.i, 1
  %xor5.i = xor i32 %shr.i, -306674912
  %cond.i = select i1 %tobool4.not.i, i32 %shr.i, i32 %xor5.i
  %inc.i = add nuw nsw i32 %k.017.i, 1
  %exitcond.not.i = icmp eq i32 %inc.i, 8
  br i1 %exitcond.not.i, label %for.cond.cleanup.i, label %for.body3.i, !llvm.loop !10

by_bits.exit:                                     ; preds = %for.cond.cleanup.i
  %not.i = xor i32 %cond.i, -1
  tail call fastcc void @hexadecimal(i32 noundef signext %not.i)
  %call.i = tail call i32 @putchar(i32 noundef signext 10)
  br label %for.cond1.preheader.i

for.cond1.preheader.i:                            ; preds = %for.cond.cleanup3.i, %by_bits.exit
  %i.025.i = phi i32 [ 0, %by_bits.exit ], [ %inc7.i, %for.cond.cleanup3.i ]
  br label %for.body4.i

for.cond.cleanup3.i:                              ; preds = %for.body4.i
  %arrayidx.i = getelementptr inbounds [256 x i32], ptr @table, i32 0, i32 %i.025.i
  store i32 %xor.i8, ptr %arrayidx.i, align 4, !tbaa !11
  %inc7.i = add nuw nsw i32 %i.025.i, 1
  %exitcond28.not.i = icmp eq i32 %inc7.i, 256
  br i1 %exitcond28.not.i, label %while.body.i, label %for.cond1.preheader.i, !llvm.loop !13

for.body4.i:                                      ; preds = %for.body4.i, %for.cond1.preheader.i
  %k.024.i = phi i32 [ 0, %for.cond1.preheader.i ], [ %inc.i9, %for.body4.i ]
  %c.023.i = phi i32 [ %i.025.i, %for.cond1.preheader.i ], [ %xor.i8, %for.body4.i ]
  %shr.i6 = lshr i32 %c.023.i, 1
  %and.i7 = and i32 %c.023.i, 1
  %2 = icmp eq i32 %and.i7, 0
  %and5.i = select i1 %2, i32 0, i32 -306674912
  %xor.i8 = xor i32 %and5.i, %shr.i6
  %inc.i9 = add nuw nsw i32 %k.024.i, 1
  %exitcond.not.i10 = icmp eq i32 %inc.i9, 8
  br i1 %exitcond.not.i10, label %for.cond.cleanup3.i, label %for.body4.i, !llvm.loop !14

while.body.i:                                     ; preds = %for.cond.cleanup3.i, %while.body.i
  %3 = phi i8 [ %5, %while.body.i ], [ 49, %for.cond.cleanup3.i ]
  %crc.027.i = phi i32 [ %xor13.i, %while.body.i ], [ -1, %for.cond.cleanup3.i ]
  %s.addr.026.idx.i = phi i32 [ %s.addr.026.add.i, %while.body.i ], [ 0, %for.cond.cleanup3.i ]
  %shr9.i = lshr i32 %crc.027.i, 8
  %s.addr.026.add.i = add nuw nsw i32 %s.addr.026.idx.i, 1
  %incdec.ptr.ptr.i11 = getelementptr inbounds i8, ptr @text, i32 %s.addr.026.add.i
  %crc.0.tr.i = trunc i32 %crc.027.i to i8
  %xor10.narrow.i = xor i8 %3, %crc.0.tr.i
  %and11.i = zext i8 %xor10.narrow.i to i32
  %arrayidx12.i = getelementptr inbounds [256 x i32], ptr @table, i32 0, i32 %and11.i
  %4 = load i32, ptr %arrayidx12.i, align 4, !tbaa !11
  %xor13.i = xor i32 %4, %shr9.i
  %5 = load i8, ptr %incdec.ptr.ptr.i11, align 1, !tbaa !4
  %exitcond29.i = icmp eq i32 %s.addr.026.add.i, 9
  br i1 %exitcond29.i, label %by_table.exit, label %while.body.i, !llvm.loop !15

by_table.exit:                                    ; preds = %while.body.i
  %not.i12 = xor i32 %xor13.i, -1
  tail call fastcc void @hexadecimal(i32 noundef signext %not.i12)
  %call.i13 = tail call i32 @putchar(i32 noundef signext 10)
  br label %for.body.i14

for.body.i14:                                     ; preds = %for.cond.cleanup.i20, %by_table.exit
  %6 = phi i8 [ 49, %by_table.exit ], [ %7, %for.cond.cleanup.i20 ]
  %crc.029.i = phi i16 [ -1, %by_table.exit ], [ %cond.i17, %for.cond.cleanup.i20 ]
  %s.addr.028.idx.i = phi i32 [ 0, %by_table.exit ], [ %s.addr.028.add.i, %for.cond.cleanup.i20 ]
  %conv.i15 = zext i8 %6 to i16
  %shl.i = shl nuw i16 %conv.i15, 8
  %xor.i16 = xor i16 %shl.i, %crc.029.i
  br label %for.body7.i

for.cond.cleanup.i20:                             ; preds = %for.body7.i
  %s.addr.028.add.i = add nuw nsw i32 %s.addr.028.idx.i, 1
  %incdec.ptr.ptr.i21 = getelementptr inbounds i8, ptr @text, i32 %s.addr.028.add.i
  %7 = load i8, ptr %incdec.ptr.ptr.i21, align 1, !tbaa !4
  %exitcond30.i = icmp eq i32 %s.addr.028.add.i, 9
  br i1 %exitcond30.i, label %short_crc.exit, label %for.body.i14, !llvm.loop !16

for.body7.i:                                      ; preds = %for.body7.i, %for.body.i14
  %k.027.i = phi i32 [ 0, %for.body.i14 ], [ %inc.i18, %for.body7.i ]
  %crc.126.i = phi i16 [ %xor.i16, %for.body.i14 ], [ %cond.i17, %for.body7.i ]
  %shl11.i = shl i16 %crc.126.i, 1
  %xor12.i = xor i16 %shl11.i, 4129
  %tobool9.not25.i = icmp slt i16 %crc.126.i, 0
  %cond.i17 = select i1 %tobool9.not25.i, i16 %xor12.i, i16 %shl11.i
  %inc.i18 = add nuw nsw i32 %k.027.i, 1
  %exitcond.not.i19 = icmp eq i32 %inc.i18, 8
  br i1 %exitcond.not.i19, label %for.cond.cleanup.i20, label %for.body7.i, !llvm.loop !17

short_crc.exit:                                   ; preds = %for.cond.cleanup.i20
  %conv = zext i16 %cond.i17 to i32
  tail call fastcc void @hexadecimal(i32 noundef signext %conv)
  %call.i22 = tail call i32 @putchar(i32 noundef signext 10)
  tail call fastcc void @hexadecimal(i32 noundef signext 152961502)
  %call.i27 = tail call i32 @putchar(i32 noundef signext 10)
  tail call fastcc void @hexadecimal(i32 noundef signext 7902)
  %call.i43 = tail call i32 @putchar(i32 noundef signext 10)
  %and = and i32 %not.i, 255
  ret i32 %and
}

; Function Attrs: nofree nounwind
define internal fastcc void @hexadecimal(i32 noundef signext %n) unnamed_addr #0 {
entry:
  %cmp = icmp ugt i32 %n, 15
  br i1 %cmp, label %if.then, label %if.end

if.then:                                          ; preds = %entry
  %div3 = lshr i32 %n, 4
  tail call fastcc void @hexadecimal(i32 noundef signext %div3)
  br label %if.end

if.end:                                           ; preds = %if.then, %entry
  %rem = and i32 %n, 15
  %arrayidx = getelementptr inbounds [17 x i8], ptr @.str, i32 0, i32 %rem
  %0 = load i8, ptr %arrayidx, align 1, !tbaa !4
  %conv = sext i8 %0 to i32
  %call = tail call i32 @putchar(i32 noundef signext %conv)
  ret void
}

; Function Attrs: nofree nounwind
declare noundef i32 @putchar(i32 noundef signext) local_unnamed_addr #0

attributes #0 = { nofree nounwind "no-trapping-math"="true" "stack-protector-buffer-size"="8" "target-cpu"="mips32r2" "target-features"="+fpxx,+mips32r2,+nooddspreg,-noabicalls" }

!llvm.module.flags = !{!0, !1, !2}
!llvm.ident = !{!3}

!0 = !{i32 1, !"wchar_size", i32 4}
!1 = !{i32 8, !"PIC Level", i32 1}
!2 = !{i32 7, !"PIE Level", i32 1}
!3 = !{!"Debian clang version 19.1.7 (3~deb12u1)"}
!4 = !{!5, !5, i64 0}
!5 = !{!"omnipotent char", !6, i64 0}
!6 = !{!"Simple C/C++ TBAA"}
!7 = distinct !{!7, !8, !9}
!8 = !{!"llvm.loop.mustprogress"}
!9 = !{!"llvm.loop.unroll.disable"}
!10 = distinct !{!10, !8, !9}
!11 = !{!12, !12, i64 0}
!12 = !{!"int", !5, i64 0}
!13 = distinct !{!13, !8, !9}
!14 = distinct !{!14, !8, !9}
!15 = distinct !{!15, !8, !9}
!16 = distinct !{!16, !8, !9}
!17 = distinct !{!17, !8, !9}
