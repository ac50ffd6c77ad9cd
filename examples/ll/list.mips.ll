; ModuleID = 'list.c'
source_filename = "list.c"
target datalayout = "E-m:m-p:32:32-i8:8:32-i16:16:32-i64:64-n32-S64"
target triple = "mips-unknown-linux-gnu"

@main.values = internal unnamed_addr constant [9 x i8] c"\05\03\09\01\07\02\08\06\04", align 1

; Function Attrs: nounwind
define dso_local i32 @main() local_unnamed_addr #0 {
entry:
  %list.addr.i45 = alloca ptr, align 4
  %list.addr.i = alloca ptr, align 4
  br label %for.body

for.cond.cleanup:                                 ; preds = %insert.exit
  %tobool.not11.i = icmp eq ptr %list.addr.i45.0.list.addr.i45.0.list.addr.i45.0.list.addr.0.list.addr.0.list.addr.0..i50, null
  br i1 %tobool.not11.i, label %turn.exit, label %for.body.i

for.body.i:                                       ; preds = %for.cond.cleanup, %for.body.i
  %list.addr.012.i = phi ptr [ %2, %for.body.i ], [ %list.addr.i45.0.list.addr.i45.0.list.addr.i45.0.list.addr.0.list.addr.0.list.addr.0..i50, %for.cond.cleanup ]
  %value.i = getelementptr inbounds i8, ptr %list.addr.012.i, i32 4
  %0 = load i32, ptr %value.i, align 4, !tbaa !4
  %add.i = add nsw i32 %0, 48
  %call.i = tail call i32 @putchar(i32 noundef signext %add.i)
  %1 = load ptr, ptr %list.addr.012.i, align 4, !tbaa !10
  %tobool1.not.i = icmp eq ptr %1, null
  %cond.i = select i1 %tobool1.not.i, i32 10, i32 32
  %call2.i = tail call i32 @putchar(i32 noundef signext %cond.i)
  %2 = load ptr, ptr %list.addr.012.i, align 4, !tbaa !10
  %tobool.not.i = icmp eq ptr %2, null
  br i1 %tobool.not.i, label %show.exit, label %for.body.i, !llvm.loop !11

show.exit:                                        ; preds = %for.body.i
  br i1 %tobool.not11.i, label %turn.exit, label %while.body.i

while.body.i:                                     ; preds = %show.exit, %while.body.i
  %list.addr.08.i = phi ptr [ %3, %while.body.i ], [ %list.addr.i45.0.list.addr.i45.0.list.addr.i45.0.list.addr.0.list.addr.0.list.addr.0..i50, %show.exit ]
  %turned.07.i = phi ptr [ %list.addr.08.i, %while.body.i ], [ null, %show.exit ]
  %3 = load ptr, ptr %list.addr.08.i, align 4, !tbaa !10
  store ptr %turned.07.i, ptr %list.addr.08.i, align 4, !tbaa !10
  %tobool.not.i13 = icmp eq ptr %3, null
  br i1 %tobool.not.i13, label %turn.exit, label %while.body.i, !llvm.loop !14

turn.exit:                                        ; preds = %while.body.i, %for.cond.cleanup, %show.exit
  %turned.0.lcssa.i = phi ptr [ null, %show.exit ], [ null, %for.cond.cleanup ], [ %list.addr.08.i, %while.body.i ]
  %tobool.not11.i14 = icmp eq ptr %turned.0.lcssa.i, null
  br i1 %tobool.not11.i14, label %without_even.exit.critedge, label %for.body.i15

for.body.i15:                                     ; preds = %turn.exit, %for.body.i15
  %list.addr.012.i17 = phi ptr [ %6, %for.body.i15 ], [ %turned.0.lcssa.i, %turn.exit ]
  %value.i18 = getelementptr inbounds i8, ptr %list.addr.012.i17, i32 4
  %4 = load i32, ptr %value.i18, align 4, !tbaa !4
  %add.i19 = add nsw i32 %4, 48
  %call.i20 = tail call i32 @putchar(i32 noundef signext %add.i19)
  %5 = load ptr, ptr %list.addr.012.i17, align 4, !tbaa !10
  %tobool1.not.i21 = icmp eq ptr %5, null
  %cond.i22 = select i1 %tobool1.not.i21, i32 10, i32 32
  %call2.i23 = tail call i32 @putchar(i32 noundef signext %cond.i22)
  %6 = load ptr, ptr %list.addr.012.i17, align 4, !tbaa !10
  %tobool.not.i25 = icmp eq ptr %6, null
  br i1 %tobool.not.i25, label %show.exit27, label %for.body.i15, !llvm.loop !11

show.exit27:                                      ; preds = %for.body.i15
  call void @llvm.lifetime.start.p0(i64 4, ptr nonnull %list.addr.i)
  store ptr %turned.0.lcssa.i, ptr %list.addr.i, align 4, !tbaa !15
  br i1 %tobool.not11.i14, label %without_even.exit, label %while.body.i28

while.body.i28:                                   ; preds = %show.exit27, %if.end.i
  %7 = phi ptr [ %11, %if.end.i ], [ %turned.0.lcssa.i, %show.exit27 ]
  %place.08.i = phi ptr [ %place.1.i, %if.end.i ], [ %list.addr.i, %show.exit27 ]
  %value.i29 = getelementptr inbounds i8, ptr %7, i32 4
  %8 = load i32, ptr %value.i29, align 4, !tbaa !4
  %9 = and i32 %8, 1
  %cmp.i = icmp eq i32 %9, 0
  br i1 %cmp.i, label %if.then.i, label %if.end.i

if.then.i:                                        ; preds = %while.body.i28
  %10 = load ptr, ptr %7, align 4, !tbaa !10
  store ptr %10, ptr %place.08.i, align 4, !tbaa !15
  tail call void @free(ptr noundef %7)
  br label %if.end.i

if.end.i:                                         ; preds = %if.then.i, %while.body.i28
  %place.1.i = phi ptr [ %place.08.i, %if.then.i ], [ %7, %while.body.i28 ]
  %11 = load ptr, ptr %place.1.i, align 4, !tbaa !15
  %tobool.not.i30 = icmp eq ptr %11, null
  br i1 %tobool.not.i30, label %without_even.exit, label %while.body.i28, !llvm.loop !16

without_even.exit.critedge:                       ; preds = %turn.exit
  call void @llvm.lifetime.start.p0(i64 4, ptr nonnull %list.addr.i)
  store ptr %turned.0.lcssa.i, ptr %list.addr.i, align 4, !tbaa !15
  br label %without_even.exit

without_even.exit:                                ; preds = %if.end.i, %without_even.exit.critedge, %show.exit27
  %list.addr.i.0.list.addr.i.0.list.addr.i.0.list.addr.0.list.addr.0.list.addr.0..i = load ptr, ptr %list.addr.i, align 4, !tbaa !15
  call void @llvm.lifetime.end.p0(i64 4, ptr nonnull %list.addr.i)
  %tobool.not11.i31 = icmp eq ptr %list.addr.i.0.list.addr.i.0.list.addr.i.0.list.addr.0.list.addr.0.list.addr.0..i, null
  br i1 %tobool.not11.i31, label %show.exit44, label %for.body.i32

for.body.i32:                                     ; preds = %without_even.exit, %for.body.i32
  %sum.013.i33 = phi i32 [ %add4.i41, %for.body.i32 ], [ 0, %without_even.exit ]
  %list.addr.012.i34 = phi ptr [ %15, %for.body.i32 ], [ %list.addr.i.0.list.addr.i.0.list.addr.i.0.list.addr.0.list.addr.0.list.addr.0..i, %without_even.exit ]
  %value.i35 = getelementptr inbounds i8, ptr %list.addr.012.i34, i32 4
  %12 = load i32, ptr %value.i35, align 4, !tbaa !4
  %add.i36 = add nsw i32 %12, 48
  %call.i37 = tail call i32 @putchar(i32 noundef signext %add.i36)
  %13 = load ptr, ptr %list.addr.012.i34, align 4, !tbaa !10
  %tobool1.not.i38 = icmp eq ptr %13, null
  %cond.i39 = select i1 %tobool1.not.i38, i32 10, i32 32
  %call2.i40 = tail call i32 @putchar(i32 noundef signext %cond.i39)
  %14 = load i32, ptr %value.i35, align 4, !tbaa !4
  %add4.i41 = add nsw i32 %14, %sum.013.i33
  %15 = load ptr, ptr %list.addr.012.i34, align 4, !tbaa !10
  %tobool.not.i42 = icmp eq ptr %15, null
  br i1 %tobool.not.i42, label %show.exit44, label %for.body.i32, !llvm.loop !11

show.exit44:                                      ; preds = %for.body.i32, %without_even.exit
  %sum.0.lcssa.i43 = phi i32 [ 0, %without_even.exit ], [ %add4.i41, %for.body.i32 ]
  ret i32 %sum.0.lcssa.i43

for.body:                                         ; preds = %entry, %insert.exit
  %i.054 = phi i32 [ 0, %entry ], [ %inc, %insert.exit ]
  %list.053 = phi ptr [ null, %entry ], [ %list.addr.i45.0.list.addr.i45.0.list.addr.i45.0.list.addr.0.list.addr.0.list.addr.0..i50, %insert.exit ]
  %arrayidx = getelementptr inbounds [9 x i8], ptr @main.values, i32 0, i32 %i.054
  %16 = load i8, ptr %arrayidx, align 1, !tbaa !17
  %conv = sext i8 %16 to i32
  call void @llvm.lifetime.start.p0(i64 4, ptr nonnull %list.addr.i45)
  store ptr %list.053, ptr %list.addr.i45, align 4, !tbaa !15
  %call.i46 = tail call dereferenceable_or_null(8) ptr @malloc(i32 noundef signext 8) #6
  %tobool.not.i47 = icmp eq ptr %call.i46, null
  br i1 %tobool.not.i47, label %if.then.i51, label %while.cond.i

if.then.i51:                                      ; preds = %for.body
  tail call void @exit(i32 noundef signext 99) #7
  unreachable

while.cond.i:                                     ; preds = %for.body, %land.rhs.i
  %place.0.i = phi ptr [ %17, %land.rhs.i ], [ %list.addr.i45, %for.body ]
  %17 = load ptr, ptr %place.0.i, align 4, !tbaa !15
  %tobool1.not.i48 = icmp eq ptr %17, null
  br i1 %tobool1.not.i48, label %insert.exit, label %land.rhs.i

land.rhs.i:                                       ; preds = %while.cond.i
  %value2.i = getelementptr inbounds i8, ptr %17, i32 4
  %18 = load i32, ptr %value2.i, align 4, !tbaa !4
  %cmp.i49 = icmp slt i32 %18, %conv
  br i1 %cmp.i49, label %while.cond.i, label %insert.exit, !llvm.loop !18

insert.exit:                                      ; preds = %while.cond.i, %land.rhs.i
  %value3.i = getelementptr inbounds i8, ptr %call.i46, i32 4
  store i32 %conv, ptr %value3.i, align 4, !tbaa !4
  store ptr %17, ptr %call.i46, align 4, !tbaa !10
  store ptr %call.i46, ptr %place.0.i, align 4, !tbaa !15
  %list.addr.i45.0.list.addr.i45.0.list.addr.i45.0.list.addr.0.list.addr.0.list.addr.0..i50 = load ptr, ptr %list.addr.i45, align 4, !tbaa !15
  call void @llvm.lifetime.end.p0(i64 4, ptr nonnull %list.addr.i45)
  %inc = add nuw nsw i32 %i.054, 1
  %exitcond.not = icmp eq i32 %inc, 9
  br i1 %exitcond.not, label %for.cond.cleanup, label %for.body, !llvm.loop !19
}

; Function Attrs: mustprogress nofree nounwind willreturn allockind("alloc,uninitialized") allocsize(0) memory(inaccessiblemem: readwrite)
declare noalias noundef ptr @malloc(i32 noundef signext) local_unnamed_addr #1

; Function Attrs: noreturn
declare void @exit(i32 noundef signext) local_unnamed_addr #2

; Function Attrs: nofree nounwind
declare noundef i32 @putchar(i32 noundef signext) local_unnamed_addr #3

; Function Attrs: mustprogress nounwind willreturn allockind("free") memory(argmem: readwrite, inaccessiblemem: readwrite)
declare void @free(ptr allocptr nocapture noundef) local_unnamed_addr #4

; Function Attrs: nocallback nofree nosync nounwind willreturn memory(argmem: readwrite)
declare void @llvm.lifetime.start.p0(i64 immarg, ptr nocapture) #5

; Function Attrs: nocallback nofree nosync nounwind willreturn memory(argmem: readwrite)
declare void @llvm.lifetime.end.p0(i64 immarg, ptr nocapture) #5

attributes #0 = { nounwind "no-trapping-math"="true" "stack-protector-buffer-size"="8" "target-cpu"="mips32r2" "target-features"="+fpxx,+mips32r2,+nooddspreg,-noabicalls" }
attributes #1 = { mustprogress nofree nounwind willreturn allockind("alloc,uninitialized") allocsize(0) memory(inaccessiblemem: readwrite) "alloc-family"="malloc" "no-trapping-math"="true" "stack-protector-buffer-size"="8" "target-cpu"="mips32r2" "target-features"="+fpxx,+mips32r2,+nooddspreg,-noabicalls" }
attributes #2 = { noreturn "no-trapping-math"="true" "stack-protector-buffer-size"="8" "target-cpu"="mips32r2" "target-features"="+fpxx,+mips32r2,+nooddspreg,-noabicalls" }
attributes #3 = { nofree nounwind "no-trapping-math"="true" "stack-protector-buffer-size"="8" "target-cpu"="mips32r2" "target-features"="+fpxx,+mips32r2,+nooddspreg,-noabicalls" }
attributes #4 = { mustprogress nounwind willreturn allockind("free") memory(argmem: readwrite, inaccessiblemem: readwrite) "alloc-family"="malloc" "no-trapping-math"="true" "stack-protector-buffer-size"="8" "target-cpu"="mips32r2" "target-features"="+fpxx,+mips32r2,+nooddspreg,-noabicalls" }
attributes #5 = { nocallback nofree nosync nounwind willreturn memory(argmem: readwrite) }
attributes #6 = { allocsize(0) }
attributes #7 = { noreturn nounwind }

!llvm.module.flags = !{!0, !1, !2}
!llvm.ident = !{!3}

!0 = !{i32 1, !"wchar_size", i32 4}
!1 = !{i32 8, !"PIC Level", i32 1}
!2 = !{i32 7, !"PIE Level", i32 1}
!3 = !{!"Debian clang version 19.1.7 (3~deb12u1)"}
!4 = !{!5, !9, i64 4}
!5 = !{!"node", !6, i64 0, !9, i64 4}
!6 = !{!"any pointer", !7, i64 0}
!7 = !{!"omnipotent char", !8, i64 0}
!8 = !{!"Simple C/C++ TBAA"}
!9 = !{!"int", !7, i64 0}
!10 = !{!5, !6, i64 0}
!11 = distinct !{!11, !12, !13}
!12 = !{!"llvm.loop.mustprogress"}
!13 = !{!"llvm.loop.unroll.disable"}
!14 = distinct !{!14, !12, !13}
!15 = !{!6, !6, i64 0}
!16 = distinct !{!16, !12, !13}
!17 = !{!7, !7, i64 0}
!18 = distinct !{!18, !12, !13}
!19 = distinct !{!19, !12, !13}
