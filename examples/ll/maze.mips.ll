; ModuleID = 'maze.c'
source_filename = "maze.c"
target datalayout = "E-m:m-p:32:32-i8:8:32-i16:16:32-i64:64-n32-S64"
target triple = "mips-unknown-linux-gnu"

%struct.place = type { i8, i8 }

@maze = internal global [7 x [10 x i8]] [[10 x i8] c"#########\00", [10 x i8] c"# #   # #\00", [10 x i8] c"# # # # #\00", [10 x i8] c"#   #   #\00", [10 x i8] c"### ### #\00", [10 x i8] c"#       #\00", [10 x i8] c"#########\00"], align 1
@distance = internal unnamed_addr global [7 x [9 x i8]] zeroinitializer, align 1
@ring = internal unnamed_addr global [16 x %struct.place] zeroinitializer, align 4
@moves = internal unnamed_addr constant [4 x %struct.place] [%struct.place { i8 0, i8 1 }, %struct.place { i8 1, i8 0 }, %struct.place { i8 0, i8 -1 }, %struct.place { i8 -1, i8 0 }], align 1

; Function Attrs: nofree nounwind
define dso_local range(i32 -1, 255) i32 @main() local_unnamed_addr #0 {
entry:
  %end = alloca %struct.place, align 4
  call void @llvm.lifetime.start.p0(i64 2, ptr nonnull %end) #3
  store i16 1287, ptr %end, align 4
  store i16 257, ptr @ring, align 4
  store i8 1, ptr getelementptr inbounds (i8, ptr @distance, i32 10), align 1, !tbaa !4
  br label %while.body.i

while.cond.loopexit.i:                            ; preds = %cleanup.i
  %inc4.i = add i32 %head.075.i, 1
  %cmp.not.i = icmp eq i32 %inc4.i, %tail.2.i
  br i1 %cmp.not.i, label %flood.exit, label %while.body.i, !llvm.loop !7

while.body.i:                                     ; preds = %while.cond.loopexit.i, %entry
  %head.075.i = phi i32 [ 0, %entry ], [ %inc4.i, %while.cond.loopexit.i ]
  %tail.074.i = phi i32 [ 1, %entry ], [ %tail.2.i, %while.cond.loopexit.i ]
  %rem5.i = and i32 %head.075.i, 15
  %arrayidx6.i = getelementptr inbounds [16 x %struct.place], ptr @ring, i32 0, i32 %rem5.i
  %here.sroa.0.0.copyload.i = load i8, ptr %arrayidx6.i, align 2, !tbaa !4
  %here.sroa.5.0.arrayidx6.sroa_idx.i = getelementptr inbounds i8, ptr %arrayidx6.i, i32 1
  %here.sroa.5.0.copyload.i = load i8, ptr %here.sroa.5.0.arrayidx6.sroa_idx.i, align 1, !tbaa !4
  %conv.i = sext i8 %here.sroa.0.0.copyload.i to i32
  %conv16.i = sext i8 %here.sroa.5.0.copyload.i to i32
  %arrayidx43.i = getelementptr inbounds [7 x [9 x i8]], ptr @distance, i32 0, i32 %conv.i, i32 %conv16.i
  br label %for.body.i

for.body.i:                                       ; preds = %cleanup.i, %while.body.i
  %tail.173.i = phi i32 [ %tail.074.i, %while.body.i ], [ %tail.2.i, %cleanup.i ]
  %k.072.i = phi i32 [ 0, %while.body.i ], [ %inc56.i, %cleanup.i ]
  %arrayidx10.i = getelementptr inbounds [4 x %struct.place], ptr @moves, i32 0, i32 %k.072.i
  %0 = load i8, ptr %arrayidx10.i, align 1, !tbaa !10
  %add.i = add i8 %0, %here.sroa.0.0.copyload.i
  %column18.i = getelementptr inbounds i8, ptr %arrayidx10.i, i32 1
  %1 = load i8, ptr %column18.i, align 1, !tbaa !12
  %add20.i = add i8 %1, %here.sroa.5.0.copyload.i
  %idxprom23.i = sext i8 %add.i to i32
  %idxprom26.i = sext i8 %add20.i to i32
  %arrayidx27.i = getelementptr inbounds [7 x [10 x i8]], ptr @maze, i32 0, i32 %idxprom23.i, i32 %idxprom26.i
  %2 = load i8, ptr %arrayidx27.i, align 1, !tbaa !4
  %cmp29.i = icmp eq i8 %2, 35
  br i1 %cmp29.i, label %cleanup.i, label %lor.lhs.false.i

lor.lhs.false.i:                                  ; preds = %for.body.i
  %arrayidx36.i = getelementptr inbounds [7 x [9 x i8]], ptr @distance, i32 0, i32 %idxprom23.i, i32 %idxprom26.i
  %3 = load i8, ptr %arrayidx36.i, align 1, !tbaa !4
  %tobool.not.i = icmp eq i8 %3, 0
  br i1 %tobool.not.i, label %if.end.i, label %cleanup.i

if.end.i:                                         ; preds = %lor.lhs.false.i
  %4 = load i8, ptr %arrayidx43.i, align 1, !tbaa !4
  %add45.i = add i8 %4, 1
  store i8 %add45.i, ptr %arrayidx36.i, align 1, !tbaa !4
  %inc53.i = add i32 %tail.173.i, 1
  %rem54.i = and i32 %tail.173.i, 15
  %arrayidx55.i = getelementptr inbounds [16 x %struct.place], ptr @ring, i32 0, i32 %rem54.i
  store i8 %add.i, ptr %arrayidx55.i, align 2, !tbaa !4
  %next.sroa.7.0.arrayidx55.sroa_idx.i = getelementptr inbounds i8, ptr %arrayidx55.i, i32 1
  store i8 %add20.i, ptr %next.sroa.7.0.arrayidx55.sroa_idx.i, align 1, !tbaa !4
  br label %cleanup.i

cleanup.i:                                        ; preds = %if.end.i, %lor.lhs.false.i, %for.body.i
  %tail.2.i = phi i32 [ %inc53.i, %if.end.i ], [ %tail.173.i, %lor.lhs.false.i ], [ %tail.173.i, %for.body.i ]
  %inc56.i = add nuw nsw i32 %k.072.i, 1
  %exitcond.not.i = icmp eq i32 %inc56.i, 4
  br i1 %exitcond.not.i, label %while.cond.loopexit.i, label %for.body.i, !llvm.loop !13

flood.exit:                                       ; preds = %while.cond.loopexit.i
  call fastcc void @draw(ptr noundef nonnull %end)
  br label %for.body

for.cond.cleanup:                                 ; preds = %for.body
  %5 = load i8, ptr %end, align 4, !tbaa !10
  %idxprom = sext i8 %5 to i32
  %column = getelementptr inbounds i8, ptr %end, i32 1
  %6 = load i8, ptr %column, align 1, !tbaa !12
  %idxprom2 = sext i8 %6 to i32
  %arrayidx3 = getelementptr inbounds [7 x [9 x i8]], ptr @distance, i32 0, i32 %idxprom, i32 %idxprom2
  %7 = load i8, ptr %arrayidx3, align 1, !tbaa !4
  %conv = zext i8 %7 to i32
  %sub = add nsw i32 %conv, -1
  %cmp4 = icmp ugt i8 %7, 10
  br i1 %cmp4, label %if.then, label %if.end

for.body:                                         ; preds = %flood.exit, %for.body
  %i.016 = phi i32 [ 0, %flood.exit ], [ %inc, %for.body ]
  %arrayidx = getelementptr inbounds [7 x [10 x i8]], ptr @maze, i32 0, i32 %i.016
  %call = tail call i32 @puts(ptr noundef nonnull dereferenceable(1) %arrayidx)
  %inc = add nuw nsw i32 %i.016, 1
  %exitcond.not = icmp eq i32 %inc, 7
  br i1 %exitcond.not, label %for.cond.cleanup, label %for.body, !llvm.loop !14

if.then:                                          ; preds = %for.cond.cleanup
  %div = udiv i32 %sub, 10
  %add = add nuw nsw i32 %div, 48
  %call6 = tail call i32 @putchar(i32 noundef signext %add)
  br label %if.end

if.end:                                           ; preds = %if.then, %for.cond.cleanup
  %rem = srem i32 %sub, 10
  %add7 = add nsw i32 %rem, 48
  %call8 = tail call i32 @putchar(i32 noundef signext %add7)
  %call9 = tail call i32 @putchar(i32 noundef signext 10)
  call void @llvm.lifetime.end.p0(i64 2, ptr nonnull %end) #3
  ret i32 %sub
}

; Function Attrs: mustprogress nocallback nofree nosync nounwind willreturn memory(argmem: readwrite)
declare void @llvm.lifetime.start.p0(i64 immarg, ptr nocapture) #1

; Function Attrs: nofree nosync nounwind memory(readwrite, argmem: read, inaccessiblemem: none)
define internal fastcc void @draw(ptr nocapture noundef readonly %p) unnamed_addr #2 {
entry:
  %next = alloca %struct.place, align 4
  %0 = load i8, ptr %p, align 1, !tbaa !10
  %idxprom = sext i8 %0 to i32
  %column = getelementptr inbounds i8, ptr %p, i32 1
  %1 = load i8, ptr %column, align 1, !tbaa !12
  %idxprom1 = sext i8 %1 to i32
  %arrayidx2 = getelementptr inbounds [7 x [10 x i8]], ptr @maze, i32 0, i32 %idxprom, i32 %idxprom1
  store i8 42, ptr %arrayidx2, align 1, !tbaa !4
  %2 = load i8, ptr %p, align 1, !tbaa !10
  %column9 = getelementptr inbounds i8, ptr %next, i32 1
  %3 = load i8, ptr %column, align 1, !tbaa !12
  %idxprom26 = sext i8 %2 to i32
  %idxprom29 = sext i8 %3 to i32
  %arrayidx30 = getelementptr inbounds [7 x [9 x i8]], ptr @distance, i32 0, i32 %idxprom26, i32 %idxprom29
  %4 = load i8, ptr %arrayidx30, align 1, !tbaa !4
  %conv31 = zext i8 %4 to i32
  br label %for.body

for.body:                                         ; preds = %entry, %for.inc.critedge
  %k.057 = phi i32 [ 0, %entry ], [ %inc, %for.inc.critedge ]
  call void @llvm.lifetime.start.p0(i64 2, ptr nonnull %next) #3
  %arrayidx5 = getelementptr inbounds [4 x %struct.place], ptr @moves, i32 0, i32 %k.057
  %5 = load i8, ptr %arrayidx5, align 1, !tbaa !10
  %add = add i8 %5, %2
  store i8 %add, ptr %next, align 4, !tbaa !10
  %column13 = getelementptr inbounds i8, ptr %arrayidx5, i32 1
  %6 = load i8, ptr %column13, align 1, !tbaa !12
  %add15 = add i8 %6, %3
  store i8 %add15, ptr %column9, align 1, !tbaa !12
  %idxprom18 = sext i8 %add to i32
  %idxprom21 = sext i8 %add15 to i32
  %arrayidx22 = getelementptr inbounds [7 x [9 x i8]], ptr @distance, i32 0, i32 %idxprom18, i32 %idxprom21
  %7 = load i8, ptr %arrayidx22, align 1, !tbaa !4
  %conv23 = zext i8 %7 to i32
  %add24 = add nuw nsw i32 %conv23, 1
  %cmp32.not = icmp eq i32 %add24, %conv31
  br i1 %cmp32.not, label %if.then, label %for.inc.critedge

if.then:                                          ; preds = %for.body
  %cmp41 = icmp ugt i8 %4, 1
  br i1 %cmp41, label %if.then43, label %cleanup

if.then43:                                        ; preds = %if.then
  call fastcc void @draw(ptr noundef nonnull %next)
  br label %cleanup

cleanup:                                          ; preds = %if.then, %if.then43
  call void @llvm.lifetime.end.p0(i64 2, ptr nonnull %next) #3
  br label %cleanup45

for.inc.critedge:                                 ; preds = %for.body
  call void @llvm.lifetime.end.p0(i64 2, ptr nonnull %next) #3
  %inc = add nuw nsw i32 %k.057, 1
  %exitcond.not = icmp eq i32 %inc, 4
  br i1 %exitcond.not, label %cleanup45, label %for.body, !llvm.loop !15

cleanup45:                                        ; preds = %for.inc.critedge, %cleanup
  ret void
}

; Function Attrs: nofree nounwind
declare noundef i32 @puts(ptr nocapture noundef readonly) local_unnamed_addr #0

; Function Attrs: mustprogress nocallback nofree nosync nounwind willreturn memory(argmem: readwrite)
declare void @llvm.lifetime.end.p0(i64 immarg, ptr nocapture) #1

; Function Attrs: nofree nounwind
declare noundef i32 @putchar(i32 noundef signext) local_unnamed_addr #0

attributes #0 = { nofree nounwind "no-trapping-math"="true" "stack-protector-buffer-size"="8" "target-cpu"="mips32r2" "target-features"="+fpxx,+mips32r2,+nooddspreg,-noabicalls" }
attributes #1 = { mustprogress nocallback nofree nosync nounwind willreturn memory(argmem: readwrite) }
attributes #2 = { nofree nosync nounwind memory(readwrite, argmem: read, inaccessiblemem: none) "no-trapping-math"="true" "stack-protector-buffer-size"="8" "target-cpu"="mips32r2" "target-features"="+fpxx,+mips32r2,+nooddspreg,-noabicalls" }
attributes #3 = { nounwind }

!llvm.module.flags = !{!0, !1, !2}
!llvm.ident = !{!3}

!0 = !{i32 1, !"wchar_size", i32 4}
!1 = !{i32 8, !"PIC Level", i32 1}
!2 = !{i32 7, !"PIE Level", i32 1}
!3 = !{!"Debian clang version 19.1.7 (3~deb12u1)"}
!4 = !{!5, !5, i64 0}
!5 = !{!"omnipotent char", !6, i64 0}
!6 = !{!"Simple C/C++ TBAA"}
!7 = distinct !{!7, !8, !9}
!8 = !{!"llvm.loop.mustprogress"}
!9 = !{!"llvm.loop.unroll.disable"}
!10 = !{!11, !5, i64 0}
!11 = !{!"place", !5, i64 0, !5, i64 1}
!12 = !{!11, !5, i64 1}
!13 = distinct !{!13, !8, !9}
!14 = distinct !{!14, !8, !9}
!15 = distinct !{!15, !8, !9}
