; ModuleID = 'tables.c'
source_filename = "tables.c"
target datalayout = "e-m:e-p:32:32-p270:32:32-p271:32:32-p272:64:64-i128:128-f64:32:64-f80:32-n8:16:32-S128"
target triple = "i386-unknown-linux-gnu"

%struct.tree = type { ptr, ptr, ptr }

@leaf = internal constant %struct.tree { ptr @.str, ptr null, ptr null }, align 4
@root = internal constant %struct.tree { ptr @.str.1, ptr @leaf, ptr @leaf }, align 4
@forest = dso_local local_unnamed_addr constant [2 x [2 x ptr]] [[2 x ptr] [ptr @leaf, ptr null], [2 x ptr] [ptr null, ptr @root]], align 4
@days = internal unnamed_addr constant [3 x ptr] [ptr @.str.2, ptr @.str.3, ptr @.str.4], align 4
@.str = private unnamed_addr constant [5 x i8] c"leaf\00", align 1
@.str.1 = private unnamed_addr constant [5 x i8] c"root\00", align 1
@.str.2 = private unnamed_addr constant [4 x i8] c"mon\00", align 1
@.str.3 = private unnamed_addr constant [4 x i8] c"tue\00", align 1
@.str.4 = private unnamed_addr constant [4 x i8] c"wed\00", align 1

; Function Attrs: nofree nounwind uwtable
define dso_local noundef i32 @main() local_unnamed_addr #0 {
entry:
  %line = alloca [4 x i32], align 4
  %fields = alloca [4 x i32], align 4
  br label %for.body

for.cond.cleanup:                                 ; preds = %word.exit
  call void @llvm.lifetime.start.p0(i64 16, ptr nonnull %line) #3
  store i32 3, ptr %line, align 4, !tbaa !6
  %arrayinit.element = getelementptr inbounds i8, ptr %line, i32 4
  store i32 28, ptr %arrayinit.element, align 4, !tbaa !6
  %arrayinit.element2 = getelementptr inbounds i8, ptr %line, i32 8
  store i32 0, ptr %arrayinit.element2, align 4, !tbaa !6
  %arrayinit.element4 = getelementptr inbounds i8, ptr %line, i32 12
  store i32 31, ptr %arrayinit.element4, align 4, !tbaa !6
  br label %for.body11

for.body:                                         ; preds = %entry, %word.exit
  %i.060 = phi i32 [ 0, %entry ], [ %inc, %word.exit ]
  %arrayidx = getelementptr inbounds [3 x ptr], ptr @days, i32 0, i32 %i.060
  %0 = load ptr, ptr %arrayidx, align 4, !tbaa !10
  %1 = load i8, ptr %0, align 1, !tbaa !12
  %tobool.not2.i = icmp eq i8 %1, 0
  br i1 %tobool.not2.i, label %word.exit, label %while.body.i

while.body.i:                                     ; preds = %for.body, %while.body.i
  %2 = phi i8 [ %3, %while.body.i ], [ %1, %for.body ]
  %s.addr.03.i = phi ptr [ %incdec.ptr.i, %while.body.i ], [ %0, %for.body ]
  %incdec.ptr.i = getelementptr inbounds i8, ptr %s.addr.03.i, i32 1
  %conv.i = sext i8 %2 to i32
  %call.i = tail call i32 @putchar(i32 noundef %conv.i)
  %3 = load i8, ptr %incdec.ptr.i, align 1, !tbaa !12
  %tobool.not.i = icmp eq i8 %3, 0
  br i1 %tobool.not.i, label %word.exit, label %while.body.i, !llvm.loop !13

word.exit:                                        ; preds = %while.body.i, %for.body
  %cmp1.not = icmp eq i32 %i.060, 2
  %cond = select i1 %cmp1.not, i32 10, i32 32
  %call = tail call i32 @putchar(i32 noundef %cond)
  %inc = add nuw nsw i32 %i.060, 1
  %exitcond.not = icmp eq i32 %inc, 3
  br i1 %exitcond.not, label %for.cond.cleanup, label %for.body, !llvm.loop !16

for.cond.cleanup10:                               ; preds = %for.body11
  tail call fastcc void @walk(ptr noundef nonnull @root)
  %call21 = tail call i32 @putchar(i32 noundef 99)
  %call23 = tail call i32 @putchar(i32 noundef 100)
  %call24 = tail call i32 @putchar(i32 noundef 32)
  %call.i59 = tail call i32 @putchar(i32 noundef 54)
  %call25 = tail call i32 @putchar(i32 noundef 10)
  call void @llvm.lifetime.start.p0(i64 16, ptr nonnull %fields) #3
  store i32 7, ptr %fields, align 4, !tbaa !6
  %arrayinit.element27 = getelementptr inbounds i8, ptr %fields, i32 4
  store i32 0, ptr %arrayinit.element27, align 4, !tbaa !6
  %arrayinit.element29 = getelementptr inbounds i8, ptr %fields, i32 8
  store i32 9, ptr %arrayinit.element29, align 4, !tbaa !6
  %arrayinit.element31 = getelementptr inbounds i8, ptr %fields, i32 12
  store i32 258, ptr %arrayinit.element31, align 4, !tbaa !6
  br label %for.body38

for.body11:                                       ; preds = %for.cond.cleanup, %for.body11
  %i6.061 = phi i32 [ 0, %for.cond.cleanup ], [ %inc18, %for.body11 ]
  %arrayidx12 = getelementptr inbounds [4 x i32], ptr %line, i32 0, i32 %i6.061
  %4 = load i32, ptr %arrayidx12, align 4, !tbaa !6
  tail call fastcc void @number(i32 noundef %4)
  %cmp13.not = icmp eq i32 %i6.061, 3
  %cond15 = select i1 %cmp13.not, i32 10, i32 32
  %call16 = tail call i32 @putchar(i32 noundef %cond15)
  %inc18 = add nuw nsw i32 %i6.061, 1
  %exitcond63.not = icmp eq i32 %inc18, 4
  br i1 %exitcond63.not, label %for.cond.cleanup10, label %for.body11, !llvm.loop !17

for.cond.cleanup37:                               ; preds = %for.body38
  call void @llvm.lifetime.end.p0(i64 16, ptr nonnull %fields) #3
  call void @llvm.lifetime.end.p0(i64 16, ptr nonnull %line) #3
  ret i32 62

for.body38:                                       ; preds = %for.cond.cleanup10, %for.body38
  %i33.062 = phi i32 [ 0, %for.cond.cleanup10 ], [ %inc45, %for.body38 ]
  %arrayidx39 = getelementptr inbounds [4 x i32], ptr %fields, i32 0, i32 %i33.062
  %5 = load i32, ptr %arrayidx39, align 4, !tbaa !6
  tail call fastcc void @number(i32 noundef %5)
  %cmp40.not = icmp eq i32 %i33.062, 3
  %cond42 = select i1 %cmp40.not, i32 10, i32 32
  %call43 = tail call i32 @putchar(i32 noundef %cond42)
  %inc45 = add nuw nsw i32 %i33.062, 1
  %exitcond64.not = icmp eq i32 %inc45, 4
  br i1 %exitcond64.not, label %for.cond.cleanup37, label %for.body38, !llvm.loop !18
}

; Function Attrs: mustprogress nocallback nofree nosync nounwind willreturn memory(argmem: readwrite)
declare void @llvm.lifetime.start.p0(i64 immarg, ptr nocapture) #1

; Function Attrs: nofree nounwind
declare noundef i32 @putchar(i32 noundef) local_unnamed_addr #2

; Function Attrs: mustprogress nocallback nofree nosync nounwind willreturn memory(argmem: readwrite)
declare void @llvm.lifetime.end.p0(i64 immarg, ptr nocapture) #1

; Function Attrs: nofree nounwind uwtable
define internal fastcc void @number(i32 noundef %n) unnamed_addr #0 {
entry:
  %cmp = icmp sgt i32 %n, 9
  br i1 %cmp, label %if.then, label %if.end

if.then:                                          ; preds = %entry
  %div = udiv i32 %n, 10
  tail call fastcc void @number(i32 noundef %div)
  br label %if.end

if.end:                                           ; preds = %if.then, %entry
  %rem = srem i32 %n, 10
  %add = add nsw i32 %rem, 48
  %call = tail call i32 @putchar(i32 noundef %add)
  ret void
}

; Function Attrs: nofree nounwind uwtable
define internal fastcc void @walk(ptr noundef readonly %t) unnamed_addr #0 {
entry:
  %tobool.not = icmp eq ptr %t, null
  br i1 %tobool.not, label %return, label %if.end

if.end:                                           ; preds = %entry
  %left = getelementptr inbounds i8, ptr %t, i32 4
  %0 = load ptr, ptr %left, align 4, !tbaa !19
  tail call fastcc void @walk(ptr noundef %0)
  %right = getelementptr inbounds i8, ptr %t, i32 8
  %1 = load ptr, ptr %right, align 4, !tbaa !21
  tail call fastcc void @walk(ptr noundef %1)
  %2 = load ptr, ptr %t, align 4, !tbaa !22
  %3 = load i8, ptr %2, align 1, !tbaa !12
  %tobool.not2.i = icmp eq i8 %3, 0
  br i1 %tobool.not2.i, label %word.exit, label %while.body.i

while.body.i:                                     ; preds = %if.end, %while.body.i
  %4 = phi i8 [ %5, %while.body.i ], [ %3, %if.end ]
  %s.addr.03.i = phi ptr [ %incdec.ptr.i, %while.body.i ], [ %2, %if.end ]
  %incdec.ptr.i = getelementptr inbounds i8, ptr %s.addr.03.i, i32 1
  %conv.i = sext i8 %4 to i32
  %call.i = tail call i32 @putchar(i32 noundef %conv.i)
  %5 = load i8, ptr %incdec.ptr.i, align 1, !tbaa !12
  %tobool.not.i = icmp eq i8 %5, 0
  br i1 %tobool.not.i, label %word.exit, label %while.body.i, !llvm.loop !13

word.exit:                                        ; preds = %while.body.i, %if.end
  %cmp = icmp eq ptr %t, @root
  %cond = select i1 %cmp, i32 10, i32 32
  %call = tail call i32 @putchar(i32 noundef %cond)
  br label %return

return:                                           ; preds = %entry, %word.exit
  ret void
}

attributes #0 = { nofree nounwind uwtable "min-legal-vector-width"="0" "no-trapping-math"="true" "stack-protector-buffer-size"="8" "target-cpu"="i686" "target-features"="+cmov,+cx8,+x87" "tune-cpu"="generic" }
attributes #1 = { mustprogress nocallback nofree nosync nounwind willreturn memory(argmem: readwrite) }
attributes #2 = { nofree nounwind "no-trapping-math"="true" "stack-protector-buffer-size"="8" "target-cpu"="i686" "target-features"="+cmov,+cx8,+x87" "tune-cpu"="generic" }
attributes #3 = { nounwind }

!llvm.module.flags = !{!0, !1, !2, !3, !4}
!llvm.ident = !{!5}

!0 = !{i32 1, !"NumRegisterParameters", i32 0}
!1 = !{i32 1, !"wchar_size", i32 4}
!2 = !{i32 8, !"PIC Level", i32 2}
!3 = !{i32 7, !"PIE Level", i32 2}
!4 = !{i32 7, !"uwtable", i32 2}
!5 = !{!"Debian clang version 19.1.7 (3~deb12u1)"}
!6 = !{!7, !7, i64 0}
!7 = !{!"int", !8, i64 0}
!8 = !{!"omnipotent char", !9, i64 0}
!9 = !{!"Simple C/C++ TBAA"}
!10 = !{!11, !11, i64 0}
!11 = !{!"any pointer", !8, i64 0}
!12 = !{!8, !8, i64 0}
!13 = distinct !{!13, !14, !15}
!14 = !{!"llvm.loop.mustprogress"}
!15 = !{!"llvm.loop.unroll.disable"}
!16 = distinct !{!16, !14, !15}
!17 = distinct !{!17, !14, !15}
!18 = distinct !{!18, !14, !15}
!19 = !{!20, !11, i64 4}
!20 = !{!"tree", !11, i64 0, !11, i64 4, !11, i64 8}
!21 = !{!20, !11, i64 8}
!22 = !{!20, !11, i64 0}
