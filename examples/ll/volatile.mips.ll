; ModuleID = 'volatile.c'
source_filename = "volatile.c"
target datalayout = "E-m:m-p:32:32-i8:8:32-i16:16:32-i64:64-n32-S64"
target triple = "mips-unknown-linux-gnu"

@narrow = internal global i8 0, align 4
@middle = internal global i16 0, align 4
@word = internal global i32 0, align 4
@wide = internal global i64 0, align 8
@ticks = internal global [2 x i32] zeroinitializer, align 4
@ready = internal global i8 0, align 4
@.str = private unnamed_addr constant [6 x i8] c"idle \00", align 1
@.str.1 = private unnamed_addr constant [6 x i8] c"busy \00", align 1
@.str.2 = private unnamed_addr constant [6 x i8] c"done\0A\00", align 1
@.str.3 = private unnamed_addr constant [7 x i8] c"stuck\0A\00", align 1

; Function Attrs: nofree nounwind
define dso_local i32 @main() local_unnamed_addr #0 {
entry:
  store volatile i8 -1, ptr @narrow, align 4, !tbaa !4
  store volatile i16 -2, ptr @middle, align 4, !tbaa !7
  store volatile i32 -3, ptr @word, align 4, !tbaa !9
  %0 = load volatile i8, ptr @narrow, align 4, !tbaa !4
  %conv = sext i8 %0 to i64
  %1 = load volatile i8, ptr @narrow, align 4, !tbaa !4
  %conv1 = zext i8 %1 to i64
  tail call fastcc void @number(i64 noundef signext %conv)
  %call.i = tail call i32 @putchar(i32 noundef signext 32)
  tail call fastcc void @number(i64 noundef signext %conv1)
  %call1.i = tail call i32 @putchar(i32 noundef signext 32)
  %2 = load volatile i16, ptr @middle, align 4, !tbaa !7
  %conv2 = sext i16 %2 to i64
  %3 = load volatile i16, ptr @middle, align 4, !tbaa !7
  %conv3 = zext i16 %3 to i64
  tail call fastcc void @number(i64 noundef signext %conv2)
  %call.i16 = tail call i32 @putchar(i32 noundef signext 32)
  tail call fastcc void @number(i64 noundef signext %conv3)
  %call1.i17 = tail call i32 @putchar(i32 noundef signext 32)
  %4 = load volatile i32, ptr @word, align 4, !tbaa !9
  %conv4 = sext i32 %4 to i64
  %5 = load volatile i32, ptr @word, align 4, !tbaa !9
  %conv5 = zext i32 %5 to i64
  tail call fastcc void @number(i64 noundef signext %conv4)
  %call.i18 = tail call i32 @putchar(i32 noundef signext 32)
  tail call fastcc void @number(i64 noundef signext %conv5)
  %call1.i19 = tail call i32 @putchar(i32 noundef signext 10)
  store volatile i64 0, ptr @wide, align 8, !tbaa !11
  %6 = load volatile i32, ptr @ticks, align 4, !tbaa !9
  %cmp31 = icmp ult i32 %6, 10
  br i1 %cmp31, label %while.body, label %while.end

while.body:                                       ; preds = %entry, %while.body
  %7 = load volatile i32, ptr @ticks, align 4, !tbaa !9
  %conv7 = zext i32 %7 to i64
  %8 = load volatile i64, ptr @wide, align 8, !tbaa !11
  %add = add nsw i64 %8, %conv7
  store volatile i64 %add, ptr @wide, align 8, !tbaa !11
  %9 = load volatile i32, ptr @ticks, align 4, !tbaa !9
  %inc = add i32 %9, 1
  store volatile i32 %inc, ptr @ticks, align 4, !tbaa !9
  %10 = load volatile i32, ptr @ticks, align 4, !tbaa !9
  %11 = load volatile i32, ptr @ticks, align 4, !tbaa !9
  %mul = mul i32 %11, %10
  store volatile i32 %mul, ptr getelementptr inbounds (i8, ptr @ticks, i32 4), align 4, !tbaa !9
  %12 = load volatile i32, ptr @ticks, align 4, !tbaa !9
  %cmp = icmp ult i32 %12, 10
  br i1 %cmp, label %while.body, label %while.end, !llvm.loop !13

while.end:                                        ; preds = %while.body, %entry
  %13 = load volatile i32, ptr @ticks, align 4, !tbaa !9
  %conv8 = zext i32 %13 to i64
  %14 = load volatile i64, ptr @wide, align 8, !tbaa !11
  tail call fastcc void @number(i64 noundef signext %conv8)
  %call.i20 = tail call i32 @putchar(i32 noundef signext 32)
  tail call fastcc void @number(i64 noundef signext %14)
  %call1.i21 = tail call i32 @putchar(i32 noundef signext 10)
  %15 = load volatile i8, ptr @ready, align 4, !tbaa !16, !range !18, !noundef !19
  %loadedv = trunc nuw i8 %15 to i1
  %cond = select i1 %loadedv, ptr @.str, ptr @.str.1
  %16 = load i8, ptr %cond, align 1, !tbaa !4
  %tobool.not2.i = icmp eq i8 %16, 0
  br i1 %tobool.not2.i, label %say.exit, label %while.body.i

while.body.i:                                     ; preds = %while.end, %while.body.i
  %17 = phi i8 [ %18, %while.body.i ], [ %16, %while.end ]
  %s.addr.03.i = phi ptr [ %incdec.ptr.i, %while.body.i ], [ %cond, %while.end ]
  %incdec.ptr.i = getelementptr inbounds i8, ptr %s.addr.03.i, i32 1
  %conv.i = sext i8 %17 to i32
  %call.i22 = tail call i32 @putchar(i32 noundef signext %conv.i)
  %18 = load i8, ptr %incdec.ptr.i, align 1, !tbaa !4
  %tobool.not.i = icmp eq i8 %18, 0
  br i1 %tobool.not.i, label %say.exit, label %while.body.i, !llvm.loop !20

say.exit:                                         ; preds = %while.body.i, %while.end
  %19 = load volatile i32, ptr getelementptr inbounds (i8, ptr @ticks, i32 4), align 4, !tbaa !9
  %tobool = icmp ne i32 %19, 0
  %storedv = zext i1 %tobool to i8
  store volatile i8 %storedv, ptr @ready, align 4, !tbaa !16
  %20 = load volatile i8, ptr @ready, align 4, !tbaa !16, !range !18, !noundef !19
  %loadedv10 = trunc nuw i8 %20 to i1
  %cond12 = select i1 %loadedv10, ptr @.str.2, ptr @.str.3
  %21 = load i8, ptr %cond12, align 1, !tbaa !4
  %tobool.not2.i23 = icmp eq i8 %21, 0
  br i1 %tobool.not2.i23, label %say.exit30, label %while.body.i24

while.body.i24:                                   ; preds = %say.exit, %while.body.i24
  %22 = phi i8 [ %23, %while.body.i24 ], [ %21, %say.exit ]
  %s.addr.03.i25 = phi ptr [ %incdec.ptr.i26, %while.body.i24 ], [ %cond12, %say.exit ]
  %incdec.ptr.i26 = getelementptr inbounds i8, ptr %s.addr.03.i25, i32 1
  %conv.i27 = sext i8 %22 to i32
  %call.i28 = tail call i32 @putchar(i32 noundef signext %conv.i27)
  %23 = load i8, ptr %incdec.ptr.i26, align 1, !tbaa !4
  %tobool.not.i29 = icmp eq i8 %23, 0
  br i1 %tobool.not.i29, label %say.exit30, label %while.body.i24, !llvm.loop !20

say.exit30:                                       ; preds = %while.body.i24, %say.exit
  %24 = load volatile i64, ptr @wide, align 8, !tbaa !11
  %25 = load volatile i32, ptr @ticks, align 4, !tbaa !9
  %26 = trunc i64 %24 to i32
  %conv15 = add i32 %25, %26
  ret i32 %conv15
}

; Function Attrs: nofree nounwind
define internal fastcc void @number(i64 noundef signext %n) unnamed_addr #0 {
entry:
  %cmp = icmp slt i64 %n, 0
  br i1 %cmp, label %if.then, label %if.end

if.then:                                          ; preds = %entry
  %call = tail call i32 @putchar(i32 noundef signext 45)
  %sub = sub nsw i64 0, %n
  br label %if.end

if.end:                                           ; preds = %if.then, %entry
  %n.addr.0 = phi i64 [ %sub, %if.then ], [ %n, %entry ]
  %cmp1 = icmp sgt i64 %n.addr.0, 9
  br i1 %cmp1, label %if.then2, label %if.end3

if.then2:                                         ; preds = %if.end
  %div = udiv i64 %n.addr.0, 10
  tail call fastcc void @number(i64 noundef signext %div)
  br label %if.end3

if.end3:                                          ; preds = %if.then2, %if.end
  %rem = urem i64 %n.addr.0, 10
  %conv = trunc nuw nsw i64 %rem to i32
  %add = or disjoint i32 %conv, 48
  %call4 = tail call i32 @putchar(i32 noundef signext %add)
  ret void
}

; Function Attrs: nofree nounwind
declare noundef i32 @putchar(i32 noundef signext) local_unnamed_addr #0

attributes #0 = { nofree nounwind "no-trapping-math"="true" "stack-protector-buffer-size"="8" "target-cpu"="mips32r2" "target-features"="+fpxx,+mips32r2,+nooddspreg,-noabicalls" }

!llvm.module.flags = !{!0, !1, !2}
!llvm.ident = !{!3}

!0 = !{i32 1, !"wchar_size", i32 4}
!1 = !{i32 8, !"PIC Level", i32 1}
!2 = !{i32 7, !"PIE Level", i32 1}
!3 = !{!"Debian clang version 19.1.7 (3~deb12u1)"}
!4 = !{!5, !5, i64 0}
!5 = !{!"omnipotent char", !6, i64 0}
!6 = !{!"Simple C/C++ TBAA"}
!7 = !{!8, !8, i64 0}
!8 = !{!"short", !5, i64 0}
!9 = !{!10, !10, i64 0}
!10 = !{!"int", !5, i64 0}
!11 = !{!12, !12, i64 0}
!12 = !{!"long long", !5, i64 0}
!13 = distinct !{!13, !14, !15}
!14 = !{!"llvm.loop.mustprogress"}
!15 = !{!"llvm.loop.unroll.disable"}
!16 = !{!17, !17, i64 0}
!17 = !{!"_Bool", !5, i64 0}
!18 = !{i8 0, i8 2}
!19 = !{}
!20 = distinct !{!20, !14, !15}
