; ModuleID = 'heap.c'
source_filename = "heap.c"
target datalayout = "E-m:m-p:32:32-i8:8:32-i16:16:32-i64:64-n32-S64"
target triple = "mips-unknown-linux-gnu"

@.str = private unnamed_addr constant [7 x i8] c"zeros \00", align 1
@.str.1 = private unnamed_addr constant [6 x i8] c"dirt \00", align 1
@.str.2 = private unnamed_addr constant [6 x i8] c"same \00", align 1
@.str.3 = private unnamed_addr constant [7 x i8] c"other \00", align 1
@.str.4 = private unnamed_addr constant [5 x i8] c"room\00", align 1
@.str.5 = private unnamed_addr constant [5 x i8] c"none\00", align 1

; Function Attrs: nounwind
define dso_local noundef i32 @main() local_unnamed_addr #0 {
entry:
  %first = alloca ptr, align 4
  %kept = alloca ptr, align 4
  %again = alloca ptr, align 4
  %large = alloca ptr, align 4
  br label %for.body

for.body:                                         ; preds = %entry, %push.exit
  %i.077 = phi i32 [ 0, %entry ], [ %inc, %push.exit ]
  %s.sroa.15.076 = phi i32 [ 0, %entry ], [ %s.sroa.15.1, %push.exit ]
  %s.sroa.0.074 = phi ptr [ null, %entry ], [ %s.sroa.0.1, %push.exit ]
  %mul = mul nuw nsw i32 %i.077, %i.077
  %cmp.i = icmp eq i32 %i.077, %s.sroa.15.076
  br i1 %cmp.i, label %if.then.i, label %push.exit

if.then.i:                                        ; preds = %for.body
  %tobool.not.i = icmp eq i32 %s.sroa.15.076, 0
  %mul.i = shl i32 %s.sroa.15.076, 1
  %spec.select.i = select i1 %tobool.not.i, i32 2, i32 %mul.i
  %mul4.i = shl i32 %spec.select.i, 2
  %call.i = tail call ptr @malloc(i32 noundef signext %mul4.i) #8
  %tobool5.not.i = icmp eq ptr %call.i, null
  br i1 %tobool5.not.i, label %if.then6.i, label %for.cond.preheader.i

for.cond.preheader.i:                             ; preds = %if.then.i
  %cmp835.not.i = icmp eq i32 %i.077, 0
  br i1 %cmp835.not.i, label %for.cond.cleanup.i, label %for.body.i

if.then6.i:                                       ; preds = %if.then.i
  tail call void @exit(i32 noundef signext 99) #9
  unreachable

for.cond.cleanup.i:                               ; preds = %for.body.i, %for.cond.preheader.i
  tail call void @free(ptr noundef %s.sroa.0.074)
  br label %push.exit

for.body.i:                                       ; preds = %for.cond.preheader.i, %for.body.i
  %i.036.i = phi i32 [ %inc.i, %for.body.i ], [ 0, %for.cond.preheader.i ]
  %arrayidx.i = getelementptr inbounds i32, ptr %s.sroa.0.074, i32 %i.036.i
  %0 = load i32, ptr %arrayidx.i, align 4, !tbaa !4
  %arrayidx10.i = getelementptr inbounds i32, ptr %call.i, i32 %i.036.i
  store i32 %0, ptr %arrayidx10.i, align 4, !tbaa !4
  %inc.i = add nuw nsw i32 %i.036.i, 1
  %exitcond.not.i = icmp eq i32 %inc.i, %i.077
  br i1 %exitcond.not.i, label %for.cond.cleanup.i, label %for.body.i, !llvm.loop !8

push.exit:                                        ; preds = %for.body, %for.cond.cleanup.i
  %s.sroa.0.1 = phi ptr [ %call.i, %for.cond.cleanup.i ], [ %s.sroa.0.074, %for.body ]
  %s.sroa.15.1 = phi i32 [ %spec.select.i, %for.cond.cleanup.i ], [ %s.sroa.15.076, %for.body ]
  %inc = add nuw nsw i32 %i.077, 1
  %arrayidx18.i = getelementptr inbounds i32, ptr %s.sroa.0.1, i32 %i.077
  store i32 %mul, ptr %arrayidx18.i, align 4, !tbaa !4
  %exitcond.not = icmp eq i32 %inc, 10
  br i1 %exitcond.not, label %for.body5, label %for.body, !llvm.loop !11

for.cond.cleanup4:                                ; preds = %for.body5
  %call11 = tail call dereferenceable_or_null(1000) ptr @calloc(i32 noundef signext 25, i32 noundef signext 40) #10
  %tobool.not = icmp eq ptr %call11, null
  br i1 %tobool.not, label %if.then, label %for.body16

for.body5:                                        ; preds = %push.exit, %for.body5
  %i1.079 = phi i32 [ %add, %for.body5 ], [ 0, %push.exit ]
  %arrayidx = getelementptr inbounds i32, ptr %s.sroa.0.1, i32 %i1.079
  %1 = load i32, ptr %arrayidx, align 4, !tbaa !4
  tail call fastcc void @number(i32 noundef signext %1)
  %add = add nuw nsw i32 %i1.079, 1
  %cmp7 = icmp ult i32 %i1.079, 9
  %cond = select i1 %cmp7, i32 32, i32 10
  %call = tail call i32 @putchar(i32 noundef signext %cond)
  %exitcond82.not = icmp eq i32 %add, 10
  br i1 %exitcond82.not, label %for.cond.cleanup4, label %for.body5, !llvm.loop !12

if.then:                                          ; preds = %for.cond.cleanup4
  tail call void @abort() #9
  unreachable

for.cond.cleanup15:                               ; preds = %for.body16
  %cmp22 = icmp eq i32 %add18, 0
  %cond24 = select i1 %cmp22, ptr @.str, ptr @.str.1
  %2 = load i8, ptr %cond24, align 1, !tbaa !13
  %tobool.not2.i = icmp eq i8 %2, 0
  br i1 %tobool.not2.i, label %word.exit, label %while.body.i

while.body.i:                                     ; preds = %for.cond.cleanup15, %while.body.i
  %3 = phi i8 [ %4, %while.body.i ], [ %2, %for.cond.cleanup15 ]
  %s.addr.03.i = phi ptr [ %incdec.ptr.i, %while.body.i ], [ %cond24, %for.cond.cleanup15 ]
  %incdec.ptr.i = getelementptr inbounds i8, ptr %s.addr.03.i, i32 1
  %conv.i = sext i8 %3 to i32
  %call.i50 = tail call i32 @putchar(i32 noundef signext %conv.i)
  %4 = load i8, ptr %incdec.ptr.i, align 1, !tbaa !13
  %tobool.not.i51 = icmp eq i8 %4, 0
  br i1 %tobool.not.i51, label %word.exit, label %while.body.i, !llvm.loop !14

word.exit:                                        ; preds = %while.body.i, %for.cond.cleanup15
  tail call void @free(ptr noundef %call11)
  call void @llvm.lifetime.start.p0(i64 4, ptr nonnull %first)
  %call25 = tail call dereferenceable_or_null(100) ptr @malloc(i32 noundef signext 100) #8
  store volatile ptr %call25, ptr %first, align 4, !tbaa !15
  call void @llvm.lifetime.start.p0(i64 4, ptr nonnull %kept)
  %call26 = tail call dereferenceable_or_null(8) ptr @malloc(i32 noundef signext 8) #8
  store volatile ptr %call26, ptr %kept, align 4, !tbaa !15
  %first.0.first.0.first.0.first.0. = load volatile ptr, ptr %first, align 4, !tbaa !15
  %first.0.first.0.first.0.first.0.38 = load volatile ptr, ptr %first, align 4, !tbaa !15
  tail call void @free(ptr noundef %first.0.first.0.first.0.first.0.38)
  call void @llvm.lifetime.start.p0(i64 4, ptr nonnull %again)
  %call27 = tail call dereferenceable_or_null(90) ptr @malloc(i32 noundef signext 90) #8
  store volatile ptr %call27, ptr %again, align 4, !tbaa !15
  %again.0.again.0.again.0.again.0. = load volatile ptr, ptr %again, align 4, !tbaa !15
  %cmp28 = icmp eq ptr %again.0.again.0.again.0.again.0., %first.0.first.0.first.0.first.0.
  %cond30 = select i1 %cmp28, ptr @.str.2, ptr @.str.3
  %5 = load i8, ptr %cond30, align 1, !tbaa !13
  %tobool.not2.i52 = icmp eq i8 %5, 0
  br i1 %tobool.not2.i52, label %word.exit59, label %while.body.i53

while.body.i53:                                   ; preds = %word.exit, %while.body.i53
  %6 = phi i8 [ %7, %while.body.i53 ], [ %5, %word.exit ]
  %s.addr.03.i54 = phi ptr [ %incdec.ptr.i55, %while.body.i53 ], [ %cond30, %word.exit ]
  %incdec.ptr.i55 = getelementptr inbounds i8, ptr %s.addr.03.i54, i32 1
  %conv.i56 = sext i8 %6 to i32
  %call.i57 = tail call i32 @putchar(i32 noundef signext %conv.i56)
  %7 = load i8, ptr %incdec.ptr.i55, align 1, !tbaa !13
  %tobool.not.i58 = icmp eq i8 %7, 0
  br i1 %tobool.not.i58, label %word.exit59, label %while.body.i53, !llvm.loop !14

word.exit59:                                      ; preds = %while.body.i53, %word.exit
  %again.0.again.0.again.0.again.0.37 = load volatile ptr, ptr %again, align 4, !tbaa !15
  tail call void @free(ptr noundef %again.0.again.0.again.0.again.0.37)
  %kept.0.kept.0.kept.0.kept.0. = load volatile ptr, ptr %kept, align 4, !tbaa !15
  tail call void @free(ptr noundef %kept.0.kept.0.kept.0.kept.0.)
  call void @llvm.lifetime.start.p0(i64 4, ptr nonnull %large)
  %call31 = tail call dereferenceable_or_null(1879048192) ptr @malloc(i32 noundef signext 1879048192) #8
  store volatile ptr %call31, ptr %large, align 4, !tbaa !15
  %large.0.large.0.large.0.large.0. = load volatile ptr, ptr %large, align 4, !tbaa !15
  %tobool32.not = icmp eq ptr %large.0.large.0.large.0.large.0., null
  %cond33 = select i1 %tobool32.not, ptr @.str.5, ptr @.str.4
  %call34 = tail call i32 @puts(ptr noundef nonnull dereferenceable(1) %cond33)
  tail call void @free(ptr noundef %s.sroa.0.1)
  call void @llvm.lifetime.end.p0(i64 4, ptr nonnull %large)
  call void @llvm.lifetime.end.p0(i64 4, ptr nonnull %again)
  call void @llvm.lifetime.end.p0(i64 4, ptr nonnull %kept)
  call void @llvm.lifetime.end.p0(i64 4, ptr nonnull %first)
  ret i32 10

for.body16:                                       ; preds = %for.cond.cleanup4, %for.body16
  %i12.081 = phi i32 [ %inc20, %for.body16 ], [ 0, %for.cond.cleanup4 ]
  %sum.080 = phi i32 [ %add18, %for.body16 ], [ 0, %for.cond.cleanup4 ]
  %arrayidx17 = getelementptr inbounds i8, ptr %call11, i32 %i12.081
  %8 = load i8, ptr %arrayidx17, align 1, !tbaa !13
  %conv = zext i8 %8 to i32
  %add18 = add i32 %sum.080, %conv
  %inc20 = add nuw nsw i32 %i12.081, 1
  %exitcond83.not = icmp eq i32 %inc20, 1000
  br i1 %exitcond83.not, label %for.cond.cleanup15, label %for.body16, !llvm.loop !17
}

; Function Attrs: mustprogress nocallback nofree nosync nounwind willreturn memory(argmem: readwrite)
declare void @llvm.lifetime.start.p0(i64 immarg, ptr nocapture) #1

; Function Attrs: mustprogress nocallback nofree nosync nounwind willreturn memory(argmem: readwrite)
declare void @llvm.lifetime.end.p0(i64 immarg, ptr nocapture) #1

; Function Attrs: nofree nounwind
define internal fastcc void @number(i32 noundef signext %n) unnamed_addr #2 {
entry:
  %cmp = icmp sgt i32 %n, 9
  br i1 %cmp, label %if.then, label %if.end

if.then:                                          ; preds = %entry
  %div = udiv i32 %n, 10
  tail call fastcc void @number(i32 noundef signext %div)
  br label %if.end

if.end:                                           ; preds = %if.then, %entry
  %rem = srem i32 %n, 10
  %add = add nsw i32 %rem, 48
  %call = tail call i32 @putchar(i32 noundef signext %add)
  ret void
}

; Function Attrs: nofree nounwind
declare noundef i32 @putchar(i32 noundef signext) local_unnamed_addr #2

; Function Attrs: mustprogress nofree nounwind willreturn allockind("alloc,zeroed") allocsize(0,1) memory(inaccessiblemem: readwrite)
declare noalias noundef ptr @calloc(i32 noundef signext, i32 noundef signext) local_unnamed_addr #3

; Function Attrs: noreturn nounwind
declare void @abort() local_unnamed_addr #4

; Function Attrs: mustprogress nounwind willreturn allockind("free") memory(argmem: readwrite, inaccessiblemem: readwrite)
declare void @free(ptr allocptr nocapture noundef) local_unnamed_addr #5

; Function Attrs: mustprogress nofree nounwind willreturn allockind("alloc,uninitialized") allocsize(0) memory(inaccessiblemem: readwrite)
declare noalias noundef ptr @malloc(i32 noundef signext) local_unnamed_addr #6

; Function Attrs: nofree nounwind
declare noundef i32 @puts(ptr nocapture noundef readonly) local_unnamed_addr #2

; Function Attrs: noreturn
declare void @exit(i32 noundef signext) local_unnamed_addr #7

attributes #0 = { nounwind "no-trapping-math"="true" "stack-protector-buffer-size"="8" "target-cpu"="mips32r2" "target-features"="+fpxx,+mips32r2,+nooddspreg,-noabicalls" }
attributes #1 = { mustprogress nocallback nofree nosync nounwind willreturn memory(argmem: readwrite) }
attributes #2 = { nofree nounwind "no-trapping-math"="true" "stack-protector-buffer-size"="8" "target-cpu"="mips32r2" "target-features"="+fpxx,+mips32r2,+nooddspreg,-noabicalls" }
attributes #3 = { mustprogress nofree nounwind willreturn allockind("alloc,zeroed") allocsize(0,1) memory(inaccessiblemem: readwrite) "alloc-family"="malloc" "no-trapping-math"="true" "stack-protector-buffer-size"="8" "target-cpu"="mips32r2" "target-features"="+fpxx,+mips32r2,+nooddspreg,-noabicalls" }
attributes #4 = { noreturn nounwind "no-trapping-math"="true" "stack-protector-buffer-size"="8" "target-cpu"="mips32r2" "target-features"="+fpxx,+mips32r2,+nooddspreg,-noabicalls" }
attributes #5 = { mustprogress nounwind willreturn allockind("free") memory(argmem: readwrite, inaccessiblemem: readwrite) "alloc-family"="malloc" "no-trapping-math"="true" "stack-protector-buffer-size"="8" "target-cpu"="mips32r2" "target-features"="+fpxx,+mips32r2,+nooddspreg,-noabicalls" }
attributes #6 = { mustprogress nofree nounwind willreturn allockind("alloc,uninitialized") allocsize(0) memory(inaccessiblemem: readwrite) "alloc-family"="malloc" "no-trapping-math"="true" "stack-protector-buffer-size"="8" "target-cpu"="mips32r2" "target-features"="+fpxx,+mips32r2,+nooddspreg,-noabicalls" }
attributes #7 = { noreturn "no-trapping-math"="true" "stack-protector-buffer-size"="8" "target-cpu"="mips32r2" "target-features"="+fpxx,+mips32r2,+nooddspreg,-noabicalls" }
attributes #8 = { allocsize(0) }
attributes #9 = { noreturn nounwind }
attributes #10 = { allocsize(0,1) }

!llvm.module.flags = !{!0, !1, !2}
!llvm.ident = !{!3}

!0 = !{i32 1, !"wchar_size", i32 4}
!1 = !{i32 8, !"PIC Level", i32 1}
!2 = !{i32 7, !"PIE Level", i32 1}
!3 = !{!"Debian clang version 19.1.7 (3~deb12u1)"}
!4 = !{!5, !5, i64 0}
!5 = !{!"int", !6, i64 0}
!6 = !{!"omnipotent char", !7, i64 0}
!7 = !{!"Simple C/C++ TBAA"}
!8 = distinct !{!8, !9, !10}
!9 = !{!"llvm.loop.mustprogress"}
!10 = !{!"llvm.loop.unroll.disable"}
!11 = distinct !{!11, !9, !10}
!12 = distinct !{!12, !9, !10}
!13 = !{!6, !6, i64 0}
!14 = distinct !{!14, !9, !10}
!15 = !{!16, !16, i64 0}
!16 = !{!"any pointer", !6, i64 0}
!17 = distinct !{!17, !9, !10}
