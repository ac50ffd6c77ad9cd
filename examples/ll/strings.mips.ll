; ModuleID = 'strings.c'
source_filename = "strings.c"
target datalayout = "E-m:m-p:32:32-i8:8:32-i16:16:32-i64:64-n32-S64"
target triple = "mips-unknown-linux-gnu"

@__const.main.text = private unnamed_addr constant [32 x i8] c"offload\00\00\00\00\00\00\00\00\00\00\00\00\00\00\00\00\00\00\00\00\00\00\00\00\00", align 1
@__const.main.upper = private unnamed_addr constant [32 x i8] c"native offload\00\00\00\00\00\00\00\00\00\00\00\00\00\00\00\00\00\00", align 1
@.str.1 = private unnamed_addr constant [7 x i8] c"native\00", align 1
@.str.2 = private unnamed_addr constant [7 x i8] c"server\00", align 1
@main.pairs = internal unnamed_addr constant [3 x [2 x ptr]] [[2 x ptr] [ptr @.str.3, ptr @.str.4], [2 x ptr] [ptr @.str.5, ptr @.str.5], [2 x ptr] [ptr @.str.6, ptr @.str.7]], align 4
@.str.3 = private unnamed_addr constant [4 x i8] c"abc\00", align 1
@.str.4 = private unnamed_addr constant [4 x i8] c"abd\00", align 1
@.str.5 = private unnamed_addr constant [5 x i8] c"same\00", align 1
@.str.6 = private unnamed_addr constant [2 x i8] c"b\00", align 1
@.str.7 = private unnamed_addr constant [2 x i8] c"a\00", align 1

; Function Attrs: nofree nounwind
define dso_local i32 @main() local_unnamed_addr #0 {
entry:
  %text = alloca [32 x i8], align 4
  %upper = alloca [32 x i8], align 4
  call void @llvm.lifetime.start.p0(i64 32, ptr nonnull %text) #3
  call void @llvm.memcpy.p0.p0.i32(ptr noundef nonnull align 4 dereferenceable(32) %text, ptr noundef nonnull align 1 dereferenceable(32) @__const.main.text, i32 32, i1 false)
  call void @llvm.lifetime.start.p0(i64 32, ptr nonnull %upper) #3
  call void @llvm.memcpy.p0.p0.i32(ptr noundef nonnull align 4 dereferenceable(32) %upper, ptr noundef nonnull align 1 dereferenceable(32) @__const.main.upper, i32 32, i1 false)
  %scevgep = getelementptr inbounds i8, ptr %text, i32 1
  br label %while.cond.i

while.cond.i:                                     ; preds = %while.cond.i, %entry
  %indvars.iv = phi ptr [ %scevgep109, %while.cond.i ], [ %scevgep, %entry ]
  %to.addr.0.i = phi ptr [ %incdec.ptr.i, %while.cond.i ], [ %text, %entry ]
  %0 = load i8, ptr %to.addr.0.i, align 1, !tbaa !4
  %tobool.not.i = icmp eq i8 %0, 0
  %incdec.ptr.i = getelementptr inbounds i8, ptr %to.addr.0.i, i32 1
  %scevgep109 = getelementptr i8, ptr %indvars.iv, i32 1
  br i1 %tobool.not.i, label %while.cond1.i.preheader, label %while.cond.i, !llvm.loop !7

while.cond1.i.preheader:                          ; preds = %while.cond.i
  store i16 8192, ptr %to.addr.0.i, align 1, !tbaa !4
  br label %while.cond.i45

while.cond.i45:                                   ; preds = %while.cond1.i.preheader, %while.cond.i45
  %to.addr.0.i46 = phi ptr [ %incdec.ptr.i48, %while.cond.i45 ], [ %indvars.iv, %while.cond1.i.preheader ]
  %1 = load i8, ptr %to.addr.0.i46, align 1, !tbaa !4
  %tobool.not.i47 = icmp eq i8 %1, 0
  %incdec.ptr.i48 = getelementptr inbounds i8, ptr %to.addr.0.i46, i32 1
  br i1 %tobool.not.i47, label %while.cond1.i49.preheader, label %while.cond.i45, !llvm.loop !7

while.cond1.i49.preheader:                        ; preds = %while.cond.i45
  call void @llvm.memcpy.p0.p0.i32(ptr noundef nonnull align 1 dereferenceable(7) %to.addr.0.i46, ptr noundef nonnull align 1 dereferenceable(7) @.str.1, i32 7, i1 false), !tbaa !4
  %call3 = call i32 @puts(ptr noundef nonnull dereferenceable(1) %text)
  br label %while.cond.i56

while.cond.i56:                                   ; preds = %while.cond.i56, %while.cond1.i49.preheader
  %n.0.i = phi i32 [ 0, %while.cond1.i49.preheader ], [ %inc.i, %while.cond.i56 ]
  %arrayidx.i = getelementptr inbounds i8, ptr %text, i32 %n.0.i
  %2 = load i8, ptr %arrayidx.i, align 1, !tbaa !4
  %tobool.not.i57 = icmp eq i8 %2, 0
  %inc.i = add nuw nsw i32 %n.0.i, 1
  br i1 %tobool.not.i57, label %length.exit, label %while.cond.i56, !llvm.loop !10

length.exit:                                      ; preds = %while.cond.i56
  %3 = load i8, ptr %text, align 4, !tbaa !4
  %tobool.not30.i = icmp eq i8 %3, 0
  br i1 %tobool.not30.i, label %find.exit, label %while.cond.preheader.i

for.cond.i:                                       ; preds = %while.end.i
  %inc10.i = add nuw nsw i32 %i.032.i, 1
  %arrayidx.i58 = getelementptr inbounds i8, ptr %text, i32 %inc10.i
  %4 = load i8, ptr %arrayidx.i58, align 1, !tbaa !4
  %tobool.not.i59 = icmp eq i8 %4, 0
  br i1 %tobool.not.i59, label %find.exit, label %while.cond.preheader.i, !llvm.loop !11

while.cond.preheader.i:                           ; preds = %length.exit, %for.cond.i
  %i.032.i = phi i32 [ %inc10.i, %for.cond.i ], [ 0, %length.exit ]
  %retval.031.i = phi i32 [ %i.0.retval.0.i, %for.cond.i ], [ undef, %length.exit ]
  %arrayidx33.i = getelementptr inbounds i8, ptr %text, i32 %i.032.i
  %5 = load i8, ptr %arrayidx33.i, align 1, !tbaa !4
  %cmp.i95 = icmp eq i8 %5, 110
  br i1 %cmp.i95, label %while.cond.i60, label %while.end.i

while.cond.i60:                                   ; preds = %while.cond.preheader.i, %land.rhs.i
  %j.025.i96 = phi i32 [ %inc.i61, %land.rhs.i ], [ 0, %while.cond.preheader.i ]
  %inc.i61 = add nuw nsw i32 %j.025.i96, 1
  %arrayidx1.i = getelementptr inbounds i8, ptr @.str.1, i32 %inc.i61
  %6 = load i8, ptr %arrayidx1.i, align 1, !tbaa !4
  %exitcond = icmp eq i32 %j.025.i96, 5
  br i1 %exitcond, label %while.end.i.loopexit, label %land.rhs.i, !llvm.loop !12

land.rhs.i:                                       ; preds = %while.cond.i60
  %arrayidx3.i = getelementptr inbounds i8, ptr %arrayidx33.i, i32 %inc.i61
  %7 = load i8, ptr %arrayidx3.i, align 1, !tbaa !4
  %cmp.i = icmp eq i8 %7, %6
  br i1 %cmp.i, label %while.cond.i60, label %while.end.i.loopexit, !llvm.loop !12

while.end.i.loopexit:                             ; preds = %land.rhs.i, %while.cond.i60
  %i.0.retval.0.i.ph = phi i32 [ %i.032.i, %while.cond.i60 ], [ %retval.031.i, %land.rhs.i ]
  %tobool2.not.i.le = icmp eq i8 %6, 0
  br label %while.end.i

while.end.i:                                      ; preds = %while.end.i.loopexit, %while.cond.preheader.i
  %tobool2.not.lcssa.i = phi i1 [ false, %while.cond.preheader.i ], [ %tobool2.not.i.le, %while.end.i.loopexit ]
  %i.0.retval.0.i = phi i32 [ %retval.031.i, %while.cond.preheader.i ], [ %i.0.retval.0.i.ph, %while.end.i.loopexit ]
  br i1 %tobool2.not.lcssa.i, label %find.exit, label %for.cond.i

find.exit:                                        ; preds = %for.cond.i, %while.end.i, %length.exit
  %spec.select.i = phi i32 [ -1, %length.exit ], [ %i.0.retval.0.i, %while.end.i ], [ -1, %for.cond.i ]
  br i1 %tobool.not30.i, label %find.exit85, label %while.cond.preheader.i64

for.cond.i76:                                     ; preds = %while.end.i73
  %inc10.i77 = add nuw nsw i32 %i.032.i65, 1
  %arrayidx.i78 = getelementptr inbounds i8, ptr %text, i32 %inc10.i77
  %8 = load i8, ptr %arrayidx.i78, align 1, !tbaa !4
  %tobool.not.i79 = icmp eq i8 %8, 0
  br i1 %tobool.not.i79, label %find.exit85, label %while.cond.preheader.i64, !llvm.loop !11

while.cond.preheader.i64:                         ; preds = %find.exit, %for.cond.i76
  %i.032.i65 = phi i32 [ %inc10.i77, %for.cond.i76 ], [ 0, %find.exit ]
  %retval.031.i66 = phi i32 [ %i.0.retval.0.i75, %for.cond.i76 ], [ undef, %find.exit ]
  %arrayidx33.i67 = getelementptr inbounds i8, ptr %text, i32 %i.032.i65
  %9 = load i8, ptr %arrayidx33.i67, align 1, !tbaa !4
  %cmp.i72100 = icmp eq i8 %9, 115
  br i1 %cmp.i72100, label %while.cond.i81, label %while.end.i73

while.cond.i81:                                   ; preds = %while.cond.preheader.i64, %land.rhs.i68
  %j.025.i70101 = phi i32 [ %inc.i82, %land.rhs.i68 ], [ 0, %while.cond.preheader.i64 ]
  %inc.i82 = add nuw nsw i32 %j.025.i70101, 1
  %arrayidx1.i83 = getelementptr inbounds i8, ptr @.str.2, i32 %inc.i82
  %10 = load i8, ptr %arrayidx1.i83, align 1, !tbaa !4
  %exitcond110 = icmp eq i32 %j.025.i70101, 5
  br i1 %exitcond110, label %while.end.i73.loopexit, label %land.rhs.i68, !llvm.loop !12

land.rhs.i68:                                     ; preds = %while.cond.i81
  %arrayidx3.i71 = getelementptr inbounds i8, ptr %arrayidx33.i67, i32 %inc.i82
  %11 = load i8, ptr %arrayidx3.i71, align 1, !tbaa !4
  %cmp.i72 = icmp eq i8 %11, %10
  br i1 %cmp.i72, label %while.cond.i81, label %while.end.i73.loopexit, !llvm.loop !12

while.end.i73.loopexit:                           ; preds = %land.rhs.i68, %while.cond.i81
  %i.0.retval.0.i75.ph = phi i32 [ %i.032.i65, %while.cond.i81 ], [ %retval.031.i66, %land.rhs.i68 ]
  %tobool2.not.i84.le = icmp eq i8 %10, 0
  br label %while.end.i73

while.end.i73:                                    ; preds = %while.end.i73.loopexit, %while.cond.preheader.i64
  %tobool2.not.lcssa.i74 = phi i1 [ false, %while.cond.preheader.i64 ], [ %tobool2.not.i84.le, %while.end.i73.loopexit ]
  %i.0.retval.0.i75 = phi i32 [ %retval.031.i66, %while.cond.preheader.i64 ], [ %i.0.retval.0.i75.ph, %while.end.i73.loopexit ]
  br i1 %tobool2.not.lcssa.i74, label %find.exit85, label %for.cond.i76

find.exit85:                                      ; preds = %for.cond.i76, %while.end.i73, %find.exit
  %spec.select.i80 = phi i32 [ -1, %find.exit ], [ %i.0.retval.0.i75, %while.end.i73 ], [ -1, %for.cond.i76 ]
  br label %while.cond.i.i

while.cond.i.i:                                   ; preds = %while.cond.i.i, %find.exit85
  %n.0.i.i = phi i32 [ 0, %find.exit85 ], [ %inc.i.i, %while.cond.i.i ]
  %arrayidx.i.i = getelementptr inbounds i8, ptr %text, i32 %n.0.i.i
  %12 = load i8, ptr %arrayidx.i.i, align 1, !tbaa !4
  %tobool.not.i.i = icmp eq i8 %12, 0
  %inc.i.i = add nuw nsw i32 %n.0.i.i, 1
  br i1 %tobool.not.i.i, label %for.cond.preheader.i, label %while.cond.i.i, !llvm.loop !10

for.cond.preheader.i:                             ; preds = %while.cond.i.i
  %cmp15.i = icmp ugt i32 %n.0.i.i, 1
  br i1 %cmp15.i, label %for.body.preheader.i, label %turn.exit

for.body.preheader.i:                             ; preds = %for.cond.preheader.i
  %j.014.i = add nsw i32 %n.0.i.i, -1
  br label %for.body.i

for.body.i:                                       ; preds = %for.body.i, %for.body.preheader.i
  %j.017.i = phi i32 [ %j.0.i, %for.body.i ], [ %j.014.i, %for.body.preheader.i ]
  %i.016.i = phi i32 [ %inc.i88, %for.body.i ], [ 0, %for.body.preheader.i ]
  %arrayidx.i86 = getelementptr inbounds i8, ptr %text, i32 %i.016.i
  %13 = load i8, ptr %arrayidx.i86, align 1, !tbaa !4
  %arrayidx1.i87 = getelementptr inbounds i8, ptr %text, i32 %j.017.i
  %14 = load i8, ptr %arrayidx1.i87, align 1, !tbaa !4
  store i8 %14, ptr %arrayidx.i86, align 1, !tbaa !4
  store i8 %13, ptr %arrayidx1.i87, align 1, !tbaa !4
  %inc.i88 = add nuw nsw i32 %i.016.i, 1
  %j.0.i = add nsw i32 %j.017.i, -1
  %cmp.i89 = icmp slt i32 %inc.i88, %j.0.i
  br i1 %cmp.i89, label %for.body.i, label %turn.exit, !llvm.loop !13

turn.exit:                                        ; preds = %for.body.i, %for.cond.preheader.i
  %call12 = call i32 @puts(ptr noundef nonnull dereferenceable(1) %text)
  %15 = load i8, ptr %upper, align 4, !tbaa !4
  %tobool.not106 = icmp eq i8 %15, 0
  br i1 %tobool.not106, label %for.cond.cleanup, label %for.body

for.cond.cleanup:                                 ; preds = %for.inc, %turn.exit
  %call21 = call i32 @puts(ptr noundef nonnull dereferenceable(1) %upper)
  tail call fastcc void @number(i32 noundef signext %n.0.i)
  br label %for.body26

for.body:                                         ; preds = %turn.exit, %for.inc
  %16 = phi i8 [ %18, %for.inc ], [ %15, %turn.exit ]
  %p.0107 = phi ptr [ %incdec.ptr, %for.inc ], [ %upper, %turn.exit ]
  %17 = add i8 %16, -97
  %or.cond = icmp ult i8 %17, 26
  br i1 %or.cond, label %if.then, label %for.inc

if.then:                                          ; preds = %for.body
  %narrow = add nsw i8 %16, -32
  store i8 %narrow, ptr %p.0107, align 1, !tbaa !4
  br label %for.inc

for.inc:                                          ; preds = %for.body, %if.then
  %incdec.ptr = getelementptr inbounds i8, ptr %p.0107, i32 1
  %18 = load i8, ptr %incdec.ptr, align 1, !tbaa !4
  %tobool.not = icmp eq i8 %18, 0
  br i1 %tobool.not, label %for.cond.cleanup, label %for.body, !llvm.loop !14

for.cond.cleanup25:                               ; preds = %compare.exit
  %call34 = tail call i32 @putchar(i32 noundef signext 10)
  tail call fastcc void @number(i32 noundef signext %spec.select.i)
  %call35 = tail call i32 @putchar(i32 noundef signext 32)
  tail call fastcc void @number(i32 noundef signext %spec.select.i80)
  %call36 = tail call i32 @putchar(i32 noundef signext 10)
  call void @llvm.lifetime.end.p0(i64 32, ptr nonnull %upper) #3
  call void @llvm.lifetime.end.p0(i64 32, ptr nonnull %text) #3
  ret i32 %n.0.i

for.body26:                                       ; preds = %for.cond.cleanup, %compare.exit
  %k.0108 = phi i32 [ 0, %for.cond.cleanup ], [ %inc, %compare.exit ]
  %call27 = tail call i32 @putchar(i32 noundef signext 32)
  %arrayidx = getelementptr inbounds [3 x [2 x ptr]], ptr @main.pairs, i32 0, i32 %k.0108
  %19 = load ptr, ptr %arrayidx, align 4, !tbaa !15
  %arrayidx30 = getelementptr inbounds i8, ptr %arrayidx, i32 4
  %20 = load ptr, ptr %arrayidx30, align 4, !tbaa !15
  %21 = load i8, ptr %19, align 1, !tbaa !4
  %tobool.not20.i = icmp eq i8 %21, 0
  br i1 %tobool.not20.i, label %compare.exit, label %land.rhs.i90

land.rhs.i90:                                     ; preds = %for.body26, %for.body.i92
  %22 = phi i8 [ %24, %for.body.i92 ], [ %21, %for.body26 ]
  %b.addr.022.i = phi ptr [ %incdec.ptr.i93, %for.body.i92 ], [ %20, %for.body26 ]
  %a.addr.021.i = phi ptr [ %incdec.ptr4.i, %for.body.i92 ], [ %19, %for.body26 ]
  %23 = load i8, ptr %b.addr.022.i, align 1, !tbaa !4
  %cmp.i91 = icmp eq i8 %22, %23
  br i1 %cmp.i91, label %for.body.i92, label %compare.exit

for.body.i92:                                     ; preds = %land.rhs.i90
  %incdec.ptr.i93 = getelementptr inbounds i8, ptr %b.addr.022.i, i32 1
  %incdec.ptr4.i = getelementptr inbounds i8, ptr %a.addr.021.i, i32 1
  %24 = load i8, ptr %incdec.ptr4.i, align 1, !tbaa !4
  %tobool.not.i94 = icmp eq i8 %24, 0
  br i1 %tobool.not.i94, label %compare.exit, label %land.rhs.i90, !llvm.loop !17

compare.exit:                                     ; preds = %land.rhs.i90, %for.body.i92, %for.body26
  %b.addr.0.lcssa.i = phi ptr [ %20, %for.body26 ], [ %b.addr.022.i, %land.rhs.i90 ], [ %incdec.ptr.i93, %for.body.i92 ]
  %.lcssa.i = phi i8 [ %21, %for.body26 ], [ %22, %land.rhs.i90 ], [ %24, %for.body.i92 ]
  %25 = load i8, ptr %b.addr.0.lcssa.i, align 1, !tbaa !4
  %cmp7.i = icmp slt i8 %.lcssa.i, %25
  %cmp11.i = icmp sgt i8 %.lcssa.i, %25
  %conv12.i = zext i1 %cmp11.i to i32
  %cond.i = select i1 %cmp7.i, i32 -1, i32 %conv12.i
  tail call fastcc void @number(i32 noundef signext %cond.i)
  %inc = add nuw nsw i32 %k.0108, 1
  %exitcond111.not = icmp eq i32 %inc, 3
  br i1 %exitcond111.not, label %for.cond.cleanup25, label %for.body26, !llvm.loop !18
}

; Function Attrs: mustprogress nocallback nofree nosync nounwind willreturn memory(argmem: readwrite)
declare void @llvm.lifetime.start.p0(i64 immarg, ptr nocapture) #1

; Function Attrs: mustprogress nocallback nofree nounwind willreturn memory(argmem: readwrite)
declare void @llvm.memcpy.p0.p0.i32(ptr noalias nocapture writeonly, ptr noalias nocapture readonly, i32, i1 immarg) #2

; Function Attrs: nofree nounwind
declare noundef i32 @puts(ptr nocapture noundef readonly) local_unnamed_addr #0

; Function Attrs: mustprogress nocallback nofree nosync nounwind willreturn memory(argmem: readwrite)
declare void @llvm.lifetime.end.p0(i64 immarg, ptr nocapture) #1

; Function Attrs: nofree nounwind
define internal fastcc void @number(i32 noundef signext %n) unnamed_addr #0 {
entry:
  %cmp = icmp slt i32 %n, 0
  br i1 %cmp, label %if.then, label %if.end

if.then:                                          ; preds = %entry
  %call = tail call i32 @putchar(i32 noundef signext 45)
  %sub = sub nsw i32 0, %n
  br label %if.end

if.end:                                           ; preds = %if.then, %entry
  %n.addr.0 = phi i32 [ %sub, %if.then ], [ %n, %entry ]
  %cmp1 = icmp sgt i32 %n.addr.0, 9
  br i1 %cmp1, label %if.then2, label %if.end3

if.then2:                                         ; preds = %if.end
  %div = udiv i32 %n.addr.0, 10
  tail call fastcc void @number(i32 noundef signext %div)
  br label %if.end3

if.end3:                                          ; preds = %if.then2, %if.end
  %rem = urem i32 %n.addr.0, 10
  %add = or disjoint i32 %rem, 48
  %call4 = tail call i32 @putchar(i32 noundef signext %add)
  ret void
}

; Function Attrs: nofree nounwind
declare noundef i32 @putchar(i32 noundef signext) local_unnamed_addr #0

attributes #0 = { nofree nounwind "no-trapping-math"="true" "stack-protector-buffer-size"="8" "target-cpu"="mips32r2" "target-features"="+fpxx,+mips32r2,+nooddspreg,-noabicalls" }
attributes #1 = { mustprogress nocallback nofree nosync nounwind willreturn memory(argmem: readwrite) }
attributes #2 = { mustprogress nocallback nofree nounwind willreturn memory(argmem: readwrite) }
attributes #3 = { nounwind }

!llvm.module.flags = !{!0, !1, !2}
!llvm.ident = !{!3}

!0 = !{i32 1, !"wchar_size", i32 4}
!1 = !{i32 8, !"PIC Level", i32 1}
!2 = !{i32 7, !"PIE Level", i32 1}
!3 = !{!"Debian clang version 19.1.7 (3~deb12u1)"}
!4 = !{!5, !5, i64 0}
!5 = !{!"omnipotent char", !6, i64 0}
!6 = !{!"Simple C/C++ TBAA"}
!7 = distinct !{!7, !8, !9}
!8 = !{!"llvm.loop.mustprogress"}
!9 = !{!"llvm.loop.unroll.disable"}
!10 = distinct !{!10, !8, !9}
!11 = distinct !{!11, !8, !9}
!12 = distinct !{!12, !8, !9}
!13 = distinct !{!13, !8, !9}
!14 = distinct !{!14, !8, !9}
!15 = !{!16, !16, i64 0}
!16 = !{!"any pointer", !5, i64 0}
!17 = distinct !{!17, !8, !9}
!18 = distinct !{!18, !8, !9}
