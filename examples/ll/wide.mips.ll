; ModuleID = 'wide.c'
source_filename = "wide.c"
target datalayout = "E-m:m-p:32:32-i8:8:32-i16:16:32-i64:64-n32-S64"
target triple = "mips-unknown-linux-gnu"

@minus = internal global i64 -38, align 8
@five = internal global i64 5, align 8
@most = internal global i64 -1, align 8

; Function Attrs: nofree nounwind
define dso_local noundef range(i32 -2147483646, -2147483648) i32 @main() local_unnamed_addr #0 {
entry:
  tail call fastcc void @number(i64 noundef zeroext 2432902008176640000)
  %call.i = tail call i32 @putchar(i32 noundef signext 10)
  %0 = load volatile i64, ptr @minus, align 8, !tbaa !4
  %1 = load volatile i64, ptr @five, align 8, !tbaa !4
  %div = sdiv i64 %0, %1
  %cmp.i = icmp slt i64 %div, 0
  br i1 %cmp.i, label %if.then.i, label %signed_number.exit

if.then.i:                                        ; preds = %entry
  %call.i16 = tail call i32 @putchar(i32 noundef signext 45)
  %sub.i = sub i64 0, %div
  br label %signed_number.exit

signed_number.exit:                               ; preds = %entry, %if.then.i
  %sub.i.sink = phi i64 [ %sub.i, %if.then.i ], [ %div, %entry ]
  tail call fastcc void @number(i64 noundef zeroext %sub.i.sink)
  %call.i17 = tail call i32 @putchar(i32 noundef signext 32)
  %2 = load volatile i64, ptr @minus, align 8, !tbaa !4
  %3 = load volatile i64, ptr @five, align 8, !tbaa !4
  %rem = srem i64 %2, %3
  %cmp.i18 = icmp slt i64 %rem, 0
  br i1 %cmp.i18, label %if.then.i20, label %signed_number.exit23

if.then.i20:                                      ; preds = %signed_number.exit
  %call.i21 = tail call i32 @putchar(i32 noundef signext 45)
  %sub.i22 = sub i64 0, %rem
  br label %signed_number.exit23

signed_number.exit23:                             ; preds = %signed_number.exit, %if.then.i20
  %sub.i22.sink = phi i64 [ %sub.i22, %if.then.i20 ], [ %rem, %signed_number.exit ]
  tail call fastcc void @number(i64 noundef zeroext %sub.i22.sink)
  %call.i24 = tail call i32 @putchar(i32 noundef signext 32)
  %4 = load volatile i64, ptr @most, align 8, !tbaa !4
  %rem1 = urem i64 %4, 10
  %add = add nuw nsw i64 %rem1, 4
  tail call fastcc void @number(i64 noundef zeroext %add)
  %call.i30 = tail call i32 @putchar(i32 noundef signext 32)
  %5 = load volatile i64, ptr @most, align 8, !tbaa !4
  %div2 = udiv i64 %5, 3
  tail call fastcc void @number(i64 noundef zeroext %div2)
  %call.i31 = tail call i32 @putchar(i32 noundef signext 10)
  %6 = load volatile i64, ptr @minus, align 8, !tbaa !4
  %shr = ashr i64 %6, 40
  %cmp.i32 = icmp slt i64 %shr, 0
  br i1 %cmp.i32, label %if.then.i34, label %signed_number.exit37

if.then.i34:                                      ; preds = %signed_number.exit23
  %call.i35 = tail call i32 @putchar(i32 noundef signext 45)
  %sub.i36 = sub nsw i64 0, %shr
  br label %signed_number.exit37

signed_number.exit37:                             ; preds = %signed_number.exit23, %if.then.i34
  %sub.i36.sink = phi i64 [ %sub.i36, %if.then.i34 ], [ %shr, %signed_number.exit23 ]
  tail call fastcc void @number(i64 noundef zeroext %sub.i36.sink)
  %call.i38 = tail call i32 @putchar(i32 noundef signext 32)
  %7 = load volatile i64, ptr @most, align 8, !tbaa !4
  %shr3 = lshr i64 %7, 63
  tail call fastcc void @number(i64 noundef zeroext %shr3)
  %call.i39 = tail call i32 @putchar(i32 noundef signext 32)
  %8 = load volatile i64, ptr @most, align 8, !tbaa !4
  %shr4 = lshr i64 %8, 32
  %add5 = add nuw nsw i64 %shr4, 1
  %shr6 = lshr i64 %add5, 16
  tail call fastcc void @number(i64 noundef zeroext %shr6)
  %call.i40 = tail call i32 @putchar(i32 noundef signext 10)
  tail call fastcc void @number(i64 noundef zeroext 54210108624)
  %call.i41 = tail call i32 @putchar(i32 noundef signext 32)
  tail call fastcc void @number(i64 noundef zeroext 5076944270305263616)
  %call.i42 = tail call i32 @putchar(i32 noundef signext 10)
  ret i32 42
}

; Function Attrs: nofree nounwind
define internal fastcc void @number(i64 noundef zeroext %n) unnamed_addr #0 {
entry:
  %cmp = icmp ugt i64 %n, 9
  br i1 %cmp, label %if.then, label %if.end

if.then:                                          ; preds = %entry
  %div = udiv i64 %n, 10
  tail call fastcc void @number(i64 noundef zeroext %div)
  br label %if.end

if.end:                                           ; preds = %if.then, %entry
  %rem = urem i64 %n, 10
  %conv = trunc nuw nsw i64 %rem to i32
  %add = or disjoint i32 %conv, 48
  %call = tail call i32 @putchar(i32 noundef signext %add)
  ret void
}

; Function Attrs: nofree nounwind
declare noundef i32 @putchar(i32 noundef signext) local_unnamed_addr #0

attributes #0 = { nofree nounwind "no-trapping-math"="true" "stack-protector-buffer-size"="8" "target-cpu"="mips32r2" "target-features"="+fpxx,+mips32r2,+nooddspreg,-noabicalls" }

!llvm.module.flags = !{!0, !1, !2}
!llvm.ident = !{!3}

!0 = !{i32 1, !"wchar_size", i32 4}
!1 = !{i32 8, !"PIC Level", i32 1}
!2 = !{i32 7, !"PIE Level", i32 1}
!3 = !{!"Debian clang version 19.1.7 (3~deb12u1)"}
!4 = !{!5, !5, i64 0}
!5 = !{!"long long", !6, i64 0}
!6 = !{!"omnipotent char", !7, i64 0}
!7 = !{!"Simple C/C++ TBAA"}
