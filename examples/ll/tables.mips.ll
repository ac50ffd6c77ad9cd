; ModuleID = 'tables.c'
source_filename = "tables.c"
target datalayout = "E-m:m-p:32:32-i8:8:32-i16:16:32-i64:64-n32-S64"
target triple = "mips-unknown-linux-gnu"

%struct.tree = type { ptr, ptr, ptr }

@leaf = internal constant %struct.tree { ptr @.str, ptr null, ptr null }, align 4
@root = internal constant %struct.tree { ptr @.str.1, ptr @leaf, ptr @leaf }, align 4
@forest = dso_local local_unnamed_addr constant [2 x [2 x ptr]] [[2 x ptr] [ptr @leaf, ptr null], [2 x ptr] [ptr null, ptr @root]], align 4
@days = internal unnamed_addr constant [3 x ptr] [ptr @.str.2, ptr @.str.3, ptr @.str.4], align 4
@.str = private unnamed_addr constant [5 x i8] c"leaf\00", align 1
@.str.1 = private unnamed_addr constant [5 x i8] c"root\00", align 1
@.str.2 = private unnamed_addr constant [4 x i8] c"mon\00", align 1
@.str.3 = private unnamed_addr constant [4 x i8] c"tue\00", align 1
@.str.4 = private unnamed_addr constant [4 x i8] c"wed\00", align 1

; Function Attrs: nofree nounwind
define dso_local noundef i32 @main() local_unnamed_addr #0 {
entry:
  %line = alloca [4 x i32], align 4
  %fields = alloca [4 x i32], align 4
  br label %for.body

for.cond.cleanup:                                 ; preds = %word.exit
  call void @llvm.lifetime.start.p0(i64 16, ptr nonnull %line) #2
  store i32 3, ptr %line, align 4, !tbaa !4
  %arrayinit.element = getelementptr inbounds i8, ptr %line, i32 4
  store i32 28, ptr %arrayinit.element, align 4, !tbaa !4
  %arrayinit.element2 = getelementptr inbounds i8, ptr %line, i32 8
  store i32 0, ptr %arrayinit.element2, align 4, !tbaa !4
  %arrayinit.element4 = getelementptr inbounds i8, ptr %line, i32 12
  store i32 31, ptr %arrayinit.element4, align 4, !tbaa !4
  br label %for.body11

for.body:                                         ; preds = %entry, %word.exit
  %i.060 = phi i32 [ 0, %entry ], [ %inc, %word.exit ]
  %arrayidx = getelementptr inbounds [3 x ptr], ptr @days, i32 0, i32 %i.060
  %0 = load ptr, ptr %arrayidx, align 4, !tbaa !8
  %1 = load i8, ptr %0, align 1, !tbaa !10
  %tobool.not2.i = icmp eq i8 %1, 0
  br i1 %tobool.not2.i, label %word.exit, label %while.body.i

while.body.i:                                     ; preds = %for.body, %while.body.i
  %2 = phi i8 [ %3, %while.body.i ], [ %1, %for.body ]
  %s.addr.03.i = phi ptr [ %incdec.ptr.i, %while.body.i ], [ %0, %for.body ]
  %incdec.ptr.i = getelementptr inbounds i8, ptr %s.addr.03.i, i32 1
  %conv.i = sext i8 %2 to i32
  %call.i = tail call i32 @putchar(i32 noundef signext %conv.i)
  %3 = load i8, ptr %incdec.ptr.i, align 1, !tbaa !10
  %tobool.not.i = icmp eq i8 %3, 0
  br i1 %tobool.not.i, label %word.exit, label %while.body.i, !llvm.loop !11

word.exit:                                        ; preds = %while.body.i, %for.body
  %cmp1.not = icmp eq i32 %i.060, 2
  %cond = select i1 %cmp1.not, i32 10, i32 32
  %call = tail call i32 @putchar(i32 noundef signext %cond)
  %inc = add nuw nsw i32 %i.060, 1
  %exitcond.not = icmp eq i32 %inc, 3
  br i1 %exitcond.not, label %for.cond.cleanup, label %for.body, !llvm.loop !14

for.cond.cleanup10:                               ; preds = %for.body11
  tail call fastcc void @walk(ptr noundef nonnull @root)
  %call21 = tail call i32 @putchar(i32 noundef signext 99)
  %call23 = tail call i32 @putchar(i32 noundef signext 100)
  %call24 = tail call i32 @putchar(i32 noundef signext 32)
  %call.i59 = tail call i32 @putchar(i32 noundef signext 54)
  %call25 = tail call i32 @putchar(i32 noundef signext 10)
  call void @llvm.lifetime.start.p0(i64 16, ptr nonnull %fields) #2
  store i32 7, ptr %fields, align 4, !tbaa !4
  %arrayinit.element27 = getelementptr inbounds i8, ptr %fields, i32 4
  store i32 0, ptr %arrayinit.element27, align 4, !tbaa !4
  %arrayinit.element29 = getelementptr inbounds i8, ptr %fields, i32 8
  store i32 9, ptr %arrayinit.element29, align 4, !tbaa !4
  %arrayinit.element31 = getelementptr inbounds i8, ptr %fields, i32 12
  store i32 258, ptr %arrayinit.element31, align 4, !tbaa !4
  br label %for.body38

for.body11:                                       ; preds = %for.cond.cleanup, %for.body11
  %i6.061 = phi i32 [ 0, %for.cond.cleanup ], [ %inc18, %for.body11 ]
  %arrayidx12 = getelementptr inbounds [4 x i32], ptr %line, i32 0, i32 %i6.061
  %4 = load i32, ptr %arrayidx12, align 4, !tbaa !4
  tail call fastcc void @number(i32 noundef signext %4)
  %cmp13.not = icmp eq i32 %i6.061, 3
  %cond15 = select i1 %cmp13.not, i32 10, i32 32
  %call16 = tail call i32 @putchar(i32 noundef signext %cond15)
  %inc18 = add nuw nsw i32 %i6.061, 1
  %exitcond63.not = icmp eq i32 %inc18, 4
  br i1 %exitcond63.not, label %for.cond.cleanup10, label %for.body11, !llvm.loop !15

for.cond.cleanup37:                               ; preds = %for.body38
  call void @llvm.lifetime.end.p0(i64 16, ptr nonnull %fields) #2
  call void @llvm.lifetime.end.p0(i64 16, ptr nonnull %line) #2
  ret i32 62

for.body38:                                       ; preds = %for.cond.cleanup10, %for.body38
  %i33.062 = phi i32 [ 0, %for.cond.cleanup10 ], [ %inc45, %for.body38 ]
  %arrayidx39 = getelementptr inbounds [4 x i32], ptr %fields, i32 0, i32 %i33.062
  %5 = load i32, ptr %arrayidx39, align 4, !tbaa !4
  tail call fastcc void @number(i32 noundef signext %5)
  %cmp40.not = icmp eq i32 %i33.062, 3
  %cond42 = select i1 %cmp40.not, i32 10, i32 32
  %call43 = tail call i32 @putchar(i32 noundef signext %cond42)
  %inc45 = add nuw nsw i32 %i33.062, 1
  %exitcond64.not = icmp eq i32 %inc45, 4
  br i1 %exitcond64.not, label %for.cond.cleanup37, label %for.body38, !llvm.loop !16
}

; Function Attrs: mustprogress nocallback nofree nosync nounwind willreturn memory(argmem: readwrite)
declare void @llvm.lifetime.start.p0(i64 immarg, ptr nocapture) #1

; Function Attrs: nofree nounwind
declare noundef i32 @putchar(i32 noundef signext) local_unnamed_addr #0

; Function Attrs: mustprogress nocallback nofree nosync nounwind willreturn memory(argmem: readwrite)
declare void @llvm.lifetime.end.p0(i64 immarg, ptr nocapture) #1

; Function Attrs: nofree nounwind
define internal fastcc void @number(i32 noundef signext %n) unnamed_addr #0 {
entry:
  %cmp = icmp sgt i32 %n, 9
  br i1 %cmp, label %if.then, label %if.end

if.then:                                          ; preds = %entry
  %div = udiv i32 %n, 10
  tail call fastcc void @number(i32 noundef signext %div)
  br label %if.end

if.end:                                           ; preds = %if.then, %entry
  %rem = srem i32 %n, 10
  %add = add nsw i32 %rem, 48
  %call = tail call i32 @putchar(i32 noundef signext %add)
  ret void
}

; Function Attrs: nofree nounwind
define internal fastcc void @walk(ptr noundef readonly %t) unnamed_addr #0 {
entry:
  %tobool.not = icmp eq ptr %t, null
  br i1 %tobool.not, label %return, label %if.end

if.end:                                           ; preds = %entry
  %left = getelementptr inbounds i8, ptr %t, i32 4
  %0 = load ptr, ptr %left, align 4, !tbaa !17
  tail call fastcc void @walk(ptr noundef %0)
  %right = getelementptr inbounds i8, ptr %t, i32 8
  %1 = load ptr, ptr %right, align 4, !tbaa !19
  tail call fastcc void @walk(ptr noundef %1)
  %2 = load ptr, ptr %t, align 4, !tbaa !20
  %3 = load i8, ptr %2, align 1, !tbaa !10
  %tobool.not2.i = icmp eq i8 %3, 0
  br i1 %tobool.not2.i, label %word.exit, label %while.body.i

while.body.i:                                     ; preds = %if.end, %while.body.i
  %4 = phi i8 [ %5, %while.body.i ], [ %3, %if.end ]
  %s.addr.03.i = phi ptr [ %incdec.ptr.i, %while.body.i ], [ %2, %if.end ]
  %incdec.ptr.i = getelementptr inbounds i8, ptr %s.addr.03.i, i32 1
  %conv.i = sext i8 %4 to i32
  %call.i = tail call i32 @putchar(i32 noundef signext %conv.i)
  %5 = load i8, ptr %incdec.ptr.i, align 1, !tbaa !10
  %tobool.not.i = icmp eq i8 %5, 0
  br i1 %tobool.not.i, label %word.exit, label %while.body.i, !llvm.loop !11

word.exit:                                        ; preds = %while.body.i, %if.end
  %cmp = icmp eq ptr %t, @root
  %cond = select i1 %cmp, i32 10, i32 32
  %call = tail call i32 @putchar(i32 noundef signext %cond)
  br label %return

return:                                           ; preds = %entry, %word.exit
  ret void
}

attributes #0 = { nofree nounwind "no-trapping-math"="true" "stack-protector-buffer-size"="8" "target-cpu"="mips32r2" "target-features"="+fpxx,+mips32r2,+nooddspreg,-noabicalls" }
attributes #1 = { mustprogress nocallback nofree nosync nounwind willreturn memory(argmem: readwrite) }
attributes #2 = { nounwind }

!llvm.module.flags = !{!0, !1, !2}
!llvm.ident = !{!3}

!0 = !{i32 1, !"wchar_size", i32 4}
!1 = !{i32 8, !"PIC Level", i32 1}
!2 = !{i32 7, !"PIE Level", i32 1}
!3 = !{!"Debian clang version 19.1.7 (3~deb12u1)"}
!4 = !{!5, !5, i64 0}
!5 = !{!"int", !6, i64 0}
!6 = !{!"omnipotent char", !7, i64 0}
!7 = !{!"Simple C/C++ TBAA"}
!8 = !{!9, !9, i64 0}
!9 = !{!"any pointer", !6, i64 0}
!10 = !{!6, !6, i64 0}
!11 = distinct !{!11, !12, !13}
!12 = !{!"llvm.loop.mustprogress"}
!13 = !{!"llvm.loop.unroll.disable"}
!14 = distinct !{!14, !12, !13}
!15 = distinct !{!15, !12, !13}
!16 = distinct !{!16, !12, !13}
!17 = !{!18, !9, i64 4}
!18 = !{!"tree", !9, i64 0, !9, i64 4, !9, i64 8}
!19 = !{!18, !9, i64 8}
!20 = !{!18, !9, i64 0}
