; ModuleID = 'bits.c'
source_filename = "bits.c"
target datalayout = "E-m:m-p:32:32-i8:8:32-i16:16:32-i64:64-n32-S64"
target triple = "mips-unknown-linux-gnu"

@.str = private unnamed_addr constant [17 x i8] c"0123456789ABCDEF\00", align 1

; Function Attrs: nofree nounwind
define dso_local noundef i32 @main() local_unnamed_addr #0 {
entry:
  %values = alloca [9 x i32], align 4
  call void @llvm.lifetime.start.p0(i64 36, ptr nonnull %values) #2
  store i32 13, ptr %values, align 4, !tbaa !4
  %arrayinit.element = getelementptr inbounds i8, ptr %values, i32 4
  store i32 1, ptr %arrayinit.element, align 4, !tbaa !4
  %arrayinit.element2 = getelementptr inbounds i8, ptr %values, i32 8
  store i32 11336, ptr %arrayinit.element2, align 4, !tbaa !4
  %arrayinit.element4 = getelementptr inbounds i8, ptr %values, i32 12
  store i32 24, ptr %arrayinit.element4, align 4, !tbaa !4
  %arrayinit.element6 = getelementptr inbounds i8, ptr %values, i32 16
  store i32 9, ptr %arrayinit.element6, align 4, !tbaa !4
  %arrayinit.element8 = getelementptr inbounds i8, ptr %values, i32 20
  store i32 28, ptr %arrayinit.element8, align 4, !tbaa !4
  %arrayinit.element10 = getelementptr inbounds i8, ptr %values, i32 24
  store i32 3, ptr %arrayinit.element10, align 4, !tbaa !4
  %arrayinit.element12 = getelementptr inbounds i8, ptr %values, i32 28
  store i32 591751041, ptr %arrayinit.element12, align 4, !tbaa !4
  %arrayinit.element14 = getelementptr inbounds i8, ptr %values, i32 32
  store i32 46368, ptr %arrayinit.element14, align 4, !tbaa !4
  br label %for.body

for.cond.cleanup:                                 ; preds = %for.body
  call void @llvm.lifetime.end.p0(i64 36, ptr nonnull %values) #2
  ret i32 13

for.body:                                         ; preds = %entry, %for.body
  %i.032 = phi i32 [ 0, %entry ], [ %inc, %for.body ]
  %arrayidx = getelementptr inbounds [9 x i32], ptr %values, i32 0, i32 %i.032
  %0 = load i32, ptr %arrayidx, align 4, !tbaa !4
  %cmp16 = icmp eq i32 %i.032, 2
  %cmp17 = icmp eq i32 %i.032, 7
  %1 = or i1 %cmp16, %cmp17
  %cond = select i1 %1, i32 16, i32 10
  tail call fastcc void @number(i32 noundef signext %0, i32 noundef signext %cond)
  %cmp18.not = icmp eq i32 %i.032, 8
  %cond19 = select i1 %cmp18.not, i32 10, i32 32
  %call20 = tail call i32 @putchar(i32 noundef signext %cond19)
  %inc = add nuw nsw i32 %i.032, 1
  %exitcond.not = icmp eq i32 %inc, 9
  br i1 %exitcond.not, label %for.cond.cleanup, label %for.body, !llvm.loop !8
}

; Function Attrs: mustprogress nocallback nofree nosync nounwind willreturn memory(argmem: readwrite)
declare void @llvm.lifetime.start.p0(i64 immarg, ptr nocapture) #1

; Function Attrs: nofree nounwind
define internal fastcc void @number(i32 noundef signext %n, i32 noundef signext %base) unnamed_addr #0 {
entry:
  %cmp.not = icmp ult i32 %n, %base
  br i1 %cmp.not, label %if.end, label %if.then

if.then:                                          ; preds = %entry
  %div = udiv i32 %n, %base
  tail call fastcc void @number(i32 noundef signext %div, i32 noundef signext %base)
  br label %if.end

if.end:                                           ; preds = %if.then, %entry
  %rem = urem i32 %n, %base
  %arrayidx = getelementptr inbounds [17 x i8], ptr @.str, i32 0, i32 %rem
  %0 = load i8, ptr %arrayidx, align 1, !tbaa !11
  %conv = sext i8 %0 to i32
  %call = tail call i32 @putchar(i32 noundef signext %conv)
  ret void
}

; Function Attrs: nofree nounwind
declare noundef i32 @putchar(i32 noundef signext) local_unnamed_addr #0

; Function Attrs: mustprogress nocallback nofree nosync nounwind willreturn memory(argmem: readwrite)
declare void @llvm.lifetime.end.p0(i64 immarg, ptr nocapture) #1

attributes #0 = { nofree nounwind "no-trapping-math"="true" "stack-protector-buffer-size"="8" "target-cpu"="mips32r2" "target-features"="+fpxx,+mips32r2,+nooddspreg,-noabicalls" }
attributes #1 = { mustprogress nocallback nofree nosync nounwind willreturn memory(argmem: readwrite) }
attributes #2 = { nounwind }

!llvm.module.flags = !{!0, !1, !2}
!llvm.ident = !{!3}

!0 = !{i32 1, !"wchar_size", i32 4}
!1 = !{i32 8, !"PIC Level", i32 1}
!2 = !{i32 7, !"PIE Level", i32 1}
!3 = !{!"Debian clang version 19.1.7 (3~deb12u1)"}
!4 = !{!5, !5, i64 0}
!5 = !{!"int", !6, i64 0}
!6 = !{!"omnipotent char", !7, i64 0}
!7 = !{!"Simple C/C++ TBAA"}
!8 = distinct !{!8, !9, !10}
!9 = !{!"llvm.loop.mustprogress"}
!10 = !{!"llvm.loop.unroll.disable"}
!11 = !{!6, !6, i64 0}
