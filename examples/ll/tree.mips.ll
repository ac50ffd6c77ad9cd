; ModuleID = 'tree.c'
source_filename = "tree.c"
target datalayout = "E-m:m-p:32:32-i8:8:32-i16:16:32-i64:64-n32-S64"
target triple = "mips-unknown-linux-gnu"

@main.keys = internal unnamed_addr constant [10 x i8] c"2\1EF\14(<P\0A\19\1E", align 1
@count = internal unnamed_addr global i32 0, align 4

; Function Attrs: noreturn nounwind
define dso_local noundef i32 @main() local_unnamed_addr #0 {
entry:
  %tree = alloca ptr, align 4
  call void @llvm.lifetime.start.p0(i64 4, ptr nonnull %tree) #9
  store ptr null, ptr %tree, align 4, !tbaa !4
  br label %for.body

for.cond.cleanup:                                 ; preds = %enter.exit
  %0 = load ptr, ptr %tree, align 4, !tbaa !4
  tail call fastcc void @walk(ptr noundef %0)
  %call = tail call i32 @putchar(i32 noundef signext 10)
  %call1 = tail call fastcc i32 @depth(ptr noundef %0)
  %add = add nsw i32 %call1, 48
  %call2 = tail call i32 @putchar(i32 noundef signext %add)
  %call3 = tail call i32 @putchar(i32 noundef signext 10)
  call fastcc void @leave(ptr noundef nonnull %tree, i64 noundef signext 30)
  call fastcc void @leave(ptr noundef nonnull %tree, i64 noundef signext 99)
  store i32 0, ptr @count, align 4, !tbaa !8
  %1 = load ptr, ptr %tree, align 4, !tbaa !4
  tail call fastcc void @walk(ptr noundef %1)
  %call4 = tail call i32 @putchar(i32 noundef signext 10)
  %2 = load i32, ptr @count, align 4, !tbaa !8
  tail call void @exit(i32 noundef signext %2) #10
  unreachable

for.body:                                         ; preds = %entry, %enter.exit
  %i.07 = phi i32 [ 0, %entry ], [ %inc, %enter.exit ]
  %arrayidx = getelementptr inbounds [10 x i8], ptr @main.keys, i32 0, i32 %i.07
  %3 = load i8, ptr %arrayidx, align 1, !tbaa !10
  %conv = sext i8 %3 to i64
  %4 = load ptr, ptr %tree, align 4, !tbaa !4
  %tobool.not10.i.i = icmp eq ptr %4, null
  br i1 %tobool.not10.i.i, label %place_of.exit.i, label %land.rhs.i.preheader.i

land.rhs.i.preheader.i:                           ; preds = %for.body
  %5 = load i64, ptr %4, align 8, !tbaa !11
  %cmp.not.i10.i = icmp eq i64 %5, %conv
  br i1 %cmp.not.i10.i, label %place_of.exit.i, label %while.body.i.i

land.rhs.i.i:                                     ; preds = %while.body.i.i
  %6 = load i64, ptr %9, align 8, !tbaa !11
  %cmp.not.i.i = icmp eq i64 %6, %conv
  br i1 %cmp.not.i.i, label %place_of.exit.i, label %while.body.i.i, !llvm.loop !14

while.body.i.i:                                   ; preds = %land.rhs.i.preheader.i, %land.rhs.i.i
  %7 = phi i64 [ %6, %land.rhs.i.i ], [ %5, %land.rhs.i.preheader.i ]
  %8 = phi ptr [ %9, %land.rhs.i.i ], [ %4, %land.rhs.i.preheader.i ]
  %child.i.i = getelementptr inbounds i8, ptr %8, i32 8
  %cmp3.i.i = icmp slt i64 %7, %conv
  %conv.i.i = zext i1 %cmp3.i.i to i32
  %arrayidx.i.i = getelementptr inbounds [2 x ptr], ptr %child.i.i, i32 0, i32 %conv.i.i
  %9 = load ptr, ptr %arrayidx.i.i, align 4, !tbaa !4
  %tobool.not.i.i = icmp eq ptr %9, null
  br i1 %tobool.not.i.i, label %place_of.exit.i, label %land.rhs.i.i, !llvm.loop !14

place_of.exit.i:                                  ; preds = %while.body.i.i, %land.rhs.i.i, %land.rhs.i.preheader.i, %for.body
  %tree.addr.0.lcssa.i.i = phi ptr [ %tree, %for.body ], [ %tree, %land.rhs.i.preheader.i ], [ %arrayidx.i.i, %land.rhs.i.i ], [ %arrayidx.i.i, %while.body.i.i ]
  %10 = load ptr, ptr %tree.addr.0.lcssa.i.i, align 4, !tbaa !4
  %tobool.not.i = icmp eq ptr %10, null
  br i1 %tobool.not.i, label %if.end.i, label %enter.exit

if.end.i:                                         ; preds = %place_of.exit.i
  %call1.i = tail call dereferenceable_or_null(16) ptr @calloc(i32 noundef signext 1, i32 noundef signext 16) #11
  store ptr %call1.i, ptr %tree.addr.0.lcssa.i.i, align 4, !tbaa !4
  %tobool2.not.i = icmp eq ptr %call1.i, null
  br i1 %tobool2.not.i, label %if.then3.i, label %if.end4.i

if.then3.i:                                       ; preds = %if.end.i
  tail call void @abort() #10
  unreachable

if.end4.i:                                        ; preds = %if.end.i
  store i64 %conv, ptr %call1.i, align 8, !tbaa !11
  br label %enter.exit

enter.exit:                                       ; preds = %place_of.exit.i, %if.end4.i
  %inc = add nuw nsw i32 %i.07, 1
  %exitcond.not = icmp eq i32 %inc, 10
  br i1 %exitcond.not, label %for.cond.cleanup, label %for.body, !llvm.loop !17
}

; Function Attrs: mustprogress nocallback nofree nosync nounwind willreturn memory(argmem: readwrite)
declare void @llvm.lifetime.start.p0(i64 immarg, ptr nocapture) #1

; Function Attrs: nofree nounwind
define internal fastcc void @walk(ptr noundef readonly %tree) unnamed_addr #2 {
entry:
  br label %tailrecurse

tailrecurse:                                      ; preds = %if.end3, %entry
  %tree.tr = phi ptr [ %tree, %entry ], [ %4, %if.end3 ]
  %tobool.not = icmp eq ptr %tree.tr, null
  br i1 %tobool.not, label %return, label %if.end

if.end:                                           ; preds = %tailrecurse
  %child = getelementptr inbounds i8, ptr %tree.tr, i32 8
  %0 = load ptr, ptr %child, align 8, !tbaa !4
  tail call fastcc void @walk(ptr noundef %0)
  %1 = load i32, ptr @count, align 4, !tbaa !8
  %inc = add nsw i32 %1, 1
  store i32 %inc, ptr @count, align 4, !tbaa !8
  %tobool1.not = icmp eq i32 %1, 0
  br i1 %tobool1.not, label %if.end3, label %if.then2

if.then2:                                         ; preds = %if.end
  %call = tail call i32 @putchar(i32 noundef signext 32)
  br label %if.end3

if.end3:                                          ; preds = %if.then2, %if.end
  %2 = load i64, ptr %tree.tr, align 8, !tbaa !11
  %div = sdiv i64 %2, 10
  %conv = trunc i64 %div to i32
  %add = add nsw i32 %conv, 48
  %call4 = tail call i32 @putchar(i32 noundef signext %add)
  %3 = load i64, ptr %tree.tr, align 8, !tbaa !11
  %rem = srem i64 %3, 10
  %conv6 = trunc nsw i64 %rem to i32
  %add7 = add nsw i32 %conv6, 48
  %call8 = tail call i32 @putchar(i32 noundef signext %add7)
  %arrayidx10 = getelementptr inbounds i8, ptr %tree.tr, i32 12
  %4 = load ptr, ptr %arrayidx10, align 4, !tbaa !4
  br label %tailrecurse

return:                                           ; preds = %tailrecurse
  ret void
}

; Function Attrs: nofree nounwind
declare noundef i32 @putchar(i32 noundef signext) local_unnamed_addr #2

; Function Attrs: nofree nosync nounwind memory(read, inaccessiblemem: none)
define internal fastcc i32 @depth(ptr noundef readonly %tree) unnamed_addr #3 {
entry:
  %tobool.not = icmp eq ptr %tree, null
  br i1 %tobool.not, label %common.ret, label %if.end

common.ret:                                       ; preds = %entry, %if.end
  %common.ret.op = phi i32 [ %add, %if.end ], [ -1, %entry ]
  ret i32 %common.ret.op

if.end:                                           ; preds = %entry
  %child = getelementptr inbounds i8, ptr %tree, i32 8
  %0 = load ptr, ptr %child, align 8, !tbaa !4
  %call = tail call fastcc i32 @depth(ptr noundef %0)
  %arrayidx2 = getelementptr inbounds i8, ptr %tree, i32 12
  %1 = load ptr, ptr %arrayidx2, align 4, !tbaa !4
  %call3 = tail call fastcc i32 @depth(ptr noundef %1)
  %cond = tail call i32 @llvm.smax.i32(i32 %call, i32 %call3)
  %add = add nsw i32 %cond, 1
  br label %common.ret
}

; Function Attrs: nounwind
define internal fastcc void @leave(ptr nocapture noundef %tree, i64 noundef signext %key) unnamed_addr #4 {
entry:
  %0 = load ptr, ptr %tree, align 4, !tbaa !4
  %tobool.not10.i = icmp eq ptr %0, null
  br i1 %tobool.not10.i, label %place_of.exit, label %land.rhs.i.preheader

land.rhs.i.preheader:                             ; preds = %entry
  %1 = load i64, ptr %0, align 8, !tbaa !11
  %cmp.not.i45 = icmp eq i64 %1, %key
  br i1 %cmp.not.i45, label %place_of.exit, label %while.body.i

land.rhs.i:                                       ; preds = %while.body.i
  %2 = load i64, ptr %5, align 8, !tbaa !11
  %cmp.not.i = icmp eq i64 %2, %key
  br i1 %cmp.not.i, label %place_of.exit, label %while.body.i, !llvm.loop !14

while.body.i:                                     ; preds = %land.rhs.i.preheader, %land.rhs.i
  %3 = phi i64 [ %2, %land.rhs.i ], [ %1, %land.rhs.i.preheader ]
  %4 = phi ptr [ %5, %land.rhs.i ], [ %0, %land.rhs.i.preheader ]
  %child.i = getelementptr inbounds i8, ptr %4, i32 8
  %cmp3.i = icmp slt i64 %3, %key
  %conv.i = zext i1 %cmp3.i to i32
  %arrayidx.i = getelementptr inbounds [2 x ptr], ptr %child.i, i32 0, i32 %conv.i
  %5 = load ptr, ptr %arrayidx.i, align 4, !tbaa !4
  %tobool.not.i = icmp eq ptr %5, null
  br i1 %tobool.not.i, label %place_of.exit, label %land.rhs.i, !llvm.loop !14

place_of.exit:                                    ; preds = %while.body.i, %land.rhs.i, %land.rhs.i.preheader, %entry
  %tree.addr.0.lcssa.i = phi ptr [ %tree, %entry ], [ %tree, %land.rhs.i.preheader ], [ %arrayidx.i, %land.rhs.i ], [ %arrayidx.i, %while.body.i ]
  %6 = load ptr, ptr %tree.addr.0.lcssa.i, align 4, !tbaa !4
  %tobool.not = icmp eq ptr %6, null
  br i1 %tobool.not, label %cleanup, label %if.end

if.end:                                           ; preds = %place_of.exit
  %child = getelementptr inbounds i8, ptr %6, i32 8
  %7 = load ptr, ptr %child, align 8, !tbaa !4
  %tobool1.not = icmp eq ptr %7, null
  br i1 %tobool1.not, label %if.else, label %land.lhs.true

land.lhs.true:                                    ; preds = %if.end
  %arrayidx3 = getelementptr inbounds i8, ptr %6, i32 12
  %8 = load ptr, ptr %arrayidx3, align 4, !tbaa !4
  %tobool4.not = icmp eq ptr %8, null
  br i1 %tobool4.not, label %if.else, label %while.cond

while.cond:                                       ; preds = %land.lhs.true, %while.cond
  %least.0 = phi ptr [ %child8, %while.cond ], [ %arrayidx3, %land.lhs.true ]
  %9 = load ptr, ptr %least.0, align 4, !tbaa !4
  %child8 = getelementptr inbounds i8, ptr %9, i32 8
  %10 = load ptr, ptr %child8, align 8, !tbaa !4
  %tobool10.not = icmp eq ptr %10, null
  br i1 %tobool10.not, label %while.end, label %while.cond, !llvm.loop !18

while.end:                                        ; preds = %while.cond
  %arrayidx14 = getelementptr inbounds i8, ptr %9, i32 12
  %11 = load ptr, ptr %arrayidx14, align 4, !tbaa !4
  store ptr %11, ptr %least.0, align 4, !tbaa !4
  %12 = load ptr, ptr %child, align 8, !tbaa !4
  store ptr %12, ptr %child8, align 8, !tbaa !4
  %13 = load ptr, ptr %arrayidx3, align 4, !tbaa !4
  store ptr %13, ptr %arrayidx14, align 4, !tbaa !4
  br label %if.end27

if.else:                                          ; preds = %land.lhs.true, %if.end
  %arrayidx25 = getelementptr inbounds i8, ptr %6, i32 12
  %14 = load ptr, ptr %arrayidx25, align 4, !tbaa !4
  %cmp = icmp ne ptr %14, null
  %conv = zext i1 %cmp to i32
  %arrayidx26 = getelementptr inbounds [2 x ptr], ptr %child, i32 0, i32 %conv
  %15 = load ptr, ptr %arrayidx26, align 4, !tbaa !4
  br label %if.end27

if.end27:                                         ; preds = %if.else, %while.end
  %storemerge = phi ptr [ %15, %if.else ], [ %9, %while.end ]
  store ptr %storemerge, ptr %tree.addr.0.lcssa.i, align 4, !tbaa !4
  tail call void @free(ptr noundef %6)
  br label %cleanup

cleanup:                                          ; preds = %place_of.exit, %if.end27
  ret void
}

; Function Attrs: noreturn
declare void @exit(i32 noundef signext) local_unnamed_addr #5

; Function Attrs: mustprogress nofree nounwind willreturn allockind("alloc,zeroed") allocsize(0,1) memory(inaccessiblemem: readwrite)
declare noalias noundef ptr @calloc(i32 noundef signext, i32 noundef signext) local_unnamed_addr #6

; Function Attrs: noreturn nounwind
declare void @abort() local_unnamed_addr #0

; Function Attrs: mustprogress nounwind willreturn allockind("free") memory(argmem: readwrite, inaccessiblemem: readwrite)
declare void @free(ptr allocptr nocapture noundef) local_unnamed_addr #7

; Function Attrs: nocallback nofree nosync nounwind speculatable willreturn memory(none)
declare i32 @llvm.smax.i32(i32, i32) #8

attributes #0 = { noreturn nounwind "no-trapping-math"="true" "stack-protector-buffer-size"="8" "target-cpu"="mips32r2" "target-features"="+fpxx,+mips32r2,+nooddspreg,-noabicalls" }
attributes #1 = { mustprogress nocallback nofree nosync nounwind willreturn memory(argmem: readwrite) }
attributes #2 = { nofree nounwind "no-trapping-math"="true" "stack-protector-buffer-size"="8" "target-cpu"="mips32r2" "target-features"="+fpxx,+mips32r2,+nooddspreg,-noabicalls" }
attributes #3 = { nofree nosync nounwind memory(read, inaccessiblemem: none) "no-trapping-math"="true" "stack-protector-buffer-size"="8" "target-cpu"="mips32r2" "target-features"="+fpxx,+mips32r2,+nooddspreg,-noabicalls" }
attributes #4 = { nounwind "no-trapping-math"="true" "stack-protector-buffer-size"="8" "target-cpu"="mips32r2" "target-features"="+fpxx,+mips32r2,+nooddspreg,-noabicalls" }
attributes #5 = { noreturn "no-trapping-math"="true" "stack-protector-buffer-size"="8" "target-cpu"="mips32r2" "target-features"="+fpxx,+mips32r2,+nooddspreg,-noabicalls" }
attributes #6 = { mustprogress nofree nounwind willreturn allockind("alloc,zeroed") allocsize(0,1) memory(inaccessiblemem: readwrite) "alloc-family"="malloc" "no-trapping-math"="true" "stack-protector-buffer-size"="8" "target-cpu"="mips32r2" "target-features"="+fpxx,+mips32r2,+nooddspreg,-noabicalls" }
attributes #7 = { mustprogress nounwind willreturn allockind("free") memory(argmem: readwrite, inaccessiblemem: readwrite) "alloc-family"="malloc" "no-trapping-math"="true" "stack-protector-buffer-size"="8" "target-cpu"="mips32r2" "target-features"="+fpxx,+mips32r2,+nooddspreg,-noabicalls" }
attributes #8 = { nocallback nofree nosync nounwind speculatable willreturn memory(none) }
attributes #9 = { nounwind }
attributes #10 = { noreturn nounwind }
attributes #11 = { allocsize(0,1) }

!llvm.module.flags = !{!0, !1, !2}
!llvm.ident = !{!3}

!0 = !{i32 1, !"wchar_size", i32 4}
!1 = !{i32 8, !"PIC Level", i32 1}
!2 = !{i32 7, !"PIE Level", i32 1}
!3 = !{!"Debian clang version 19.1.7 (3~deb12u1)"}
!4 = !{!5, !5, i64 0}
!5 = !{!"any pointer", !6, i64 0}
!6 = !{!"omnipotent char", !7, i64 0}
!7 = !{!"Simple C/C++ TBAA"}
!8 = !{!9, !9, i64 0}
!9 = !{!"int", !6, i64 0}
!10 = !{!6, !6, i64 0}
!11 = !{!12, !13, i64 0}
!12 = !{!"node", !13, i64 0, !6, i64 8}
!13 = !{!"long long", !6, i64 0}
!14 = distinct !{!14, !15, !16}
!15 = !{!"llvm.loop.mustprogress"}
!16 = !{!"llvm.loop.unroll.disable"}
!17 = distinct !{!17, !15, !16}
!18 = distinct !{!18, !15, !16}
