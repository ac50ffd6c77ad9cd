; ModuleID = 'interpreter.c'
source_filename = "interpreter.c"
target datalayout = "E-m:m-p:32:32-i8:8:32-i16:16:32-i64:64-n32-S64"
target triple = "mips-unknown-linux-gnu"

%struct.machine = type { [16 x i32], i32, i32, i32 }

@program = internal unnamed_addr constant [35 x i16] [i16 0, i16 1, i16 1, i16 8, i16 0, i16 32, i16 9, i16 0, i16 3, i16 4, i16 1, i16 0, i16 1000, i16 5, i16 6, i16 2, i16 2, i16 0, i16 10, i16 9, i16 0, i16 0, i16 1, i16 10, i16 9, i16 0, i16 1, i16 3, i16 1, i16 0, i16 5, i16 5, i16 6, i16 22, i16 11], align 2
@letters = internal unnamed_addr constant [6 x i8] c"halt\0A\00", align 1

; Function Attrs: nounwind
define dso_local range(i32 -2147483648, 2147483598) i32 @main() local_unnamed_addr #0 {
entry:
  %m = alloca %struct.machine, align 4
  call void @llvm.lifetime.start.p0(i64 76, ptr nonnull %m) #5
  call void @llvm.memset.p0.i32(ptr noundef nonnull align 4 dereferenceable(76) %m, i8 0, i32 76, i1 false)
  %done.i = getelementptr inbounds i8, ptr %m, i32 72
  %at.i = getelementptr inbounds i8, ptr %m, i32 68
  %top.i165.i = getelementptr inbounds i8, ptr %m, i32 64
  %top.i159.i = getelementptr inbounds i8, ptr %m, i32 64
  %top.i153.i = getelementptr inbounds i8, ptr %m, i32 64
  %top.i147.i = getelementptr inbounds i8, ptr %m, i32 64
  %top.i129.i = getelementptr inbounds i8, ptr %m, i32 64
  %top.i111.i = getelementptr inbounds i8, ptr %m, i32 64
  %top.i93.i = getelementptr inbounds i8, ptr %m, i32 64
  %top.i87.i = getelementptr inbounds i8, ptr %m, i32 64
  %top.i71.i = getelementptr inbounds i8, ptr %m, i32 64
  %top.i.i = getelementptr inbounds i8, ptr %m, i32 64
  br label %while.cond

while.cond:                                       ; preds = %while.cond.backedge, %entry
  %0 = load i32, ptr %done.i, align 4, !tbaa !4
  %inc.i = add nsw i32 %0, 1
  store i32 %inc.i, ptr %done.i, align 4, !tbaa !4
  %1 = load i32, ptr %at.i, align 4, !tbaa !9
  %inc1.i = add nsw i32 %1, 1
  store i32 %inc1.i, ptr %at.i, align 4, !tbaa !9
  %arrayidx.i = getelementptr inbounds [35 x i16], ptr @program, i32 0, i32 %1
  %2 = load i16, ptr %arrayidx.i, align 2, !tbaa !10
  switch i16 %2, label %while.cond.backedge [
    i16 0, label %sw.bb.i
    i16 1, label %sw.bb6.i
    i16 2, label %sw.bb7.i
    i16 3, label %sw.bb9.i
    i16 4, label %sw.bb12.i
    i16 5, label %sw.bb15.i
    i16 6, label %sw.bb19.i
    i16 7, label %sw.bb26.i
    i16 8, label %sw.bb31.i
    i16 9, label %sw.bb33.i
    i16 10, label %sw.bb36.i
    i16 11, label %while.end
  ]

sw.bb.i:                                          ; preds = %while.cond
  %inc3.i = add nsw i32 %1, 2
  store i32 %inc3.i, ptr %at.i, align 4, !tbaa !9
  %3 = load i32, ptr %top.i.i, align 4, !tbaa !12
  %cmp.i.i = icmp eq i32 %3, 16
  br i1 %cmp.i.i, label %if.then.i.i, label %push.exit.i

if.then.i.i:                                      ; preds = %sw.bb.i
  tail call void @abort() #6
  unreachable

push.exit.i:                                      ; preds = %sw.bb.i
  %arrayidx4.i = getelementptr inbounds [35 x i16], ptr @program, i32 0, i32 %inc1.i
  %4 = load i16, ptr %arrayidx4.i, align 2, !tbaa !10
  %conv5.i = sext i16 %4 to i32
  %inc.i.i = add nsw i32 %3, 1
  store i32 %inc.i.i, ptr %top.i.i, align 4, !tbaa !12
  %arrayidx.i.i = getelementptr inbounds [16 x i32], ptr %m, i32 0, i32 %3
  store i32 %conv5.i, ptr %arrayidx.i.i, align 4, !tbaa !13
  br label %while.cond.backedge

sw.bb6.i:                                         ; preds = %while.cond
  %5 = load i32, ptr %top.i71.i, align 4, !tbaa !12
  %cmp.i72.i = icmp eq i32 %5, 0
  br i1 %cmp.i72.i, label %if.then.i74.i, label %pop.exit.i

if.then.i74.i:                                    ; preds = %sw.bb6.i
  tail call void @abort() #6
  unreachable

pop.exit.i:                                       ; preds = %sw.bb6.i
  %dec.i.i = add nsw i32 %5, -1
  store i32 %dec.i.i, ptr %top.i71.i, align 4, !tbaa !12
  %arrayidx.i73.i = getelementptr inbounds [16 x i32], ptr %m, i32 0, i32 %dec.i.i
  %6 = load i32, ptr %arrayidx.i73.i, align 4, !tbaa !13
  %cmp.i76.i = icmp eq i32 %dec.i.i, 16
  br i1 %cmp.i76.i, label %if.then.i79.i, label %push.exit80.i

if.then.i79.i:                                    ; preds = %pop.exit.i
  tail call void @abort() #6
  unreachable

push.exit80.i:                                    ; preds = %pop.exit.i
  store i32 %5, ptr %top.i71.i, align 4, !tbaa !12
  store i32 %6, ptr %arrayidx.i73.i, align 4, !tbaa !13
  %7 = load i32, ptr %top.i71.i, align 4, !tbaa !12
  %cmp.i82.i = icmp eq i32 %7, 16
  br i1 %cmp.i82.i, label %if.then.i85.i, label %push.exit86.i

if.then.i85.i:                                    ; preds = %push.exit80.i
  tail call void @abort() #6
  unreachable

push.exit86.i:                                    ; preds = %push.exit80.i
  %inc.i83.i = add nsw i32 %7, 1
  store i32 %inc.i83.i, ptr %top.i71.i, align 4, !tbaa !12
  %arrayidx.i84.i = getelementptr inbounds [16 x i32], ptr %m, i32 0, i32 %7
  store i32 %6, ptr %arrayidx.i84.i, align 4, !tbaa !13
  br label %while.cond.backedge

sw.bb7.i:                                         ; preds = %while.cond
  %8 = load i32, ptr %top.i87.i, align 4, !tbaa !12
  %cmp.i88.i = icmp eq i32 %8, 0
  br i1 %cmp.i88.i, label %if.then.i91.i, label %pop.exit92.i

if.then.i91.i:                                    ; preds = %sw.bb7.i
  tail call void @abort() #6
  unreachable

pop.exit92.i:                                     ; preds = %sw.bb7.i
  %dec.i89.i = add nsw i32 %8, -1
  store i32 %dec.i89.i, ptr %top.i87.i, align 4, !tbaa !12
  br label %while.cond.backedge

sw.bb9.i:                                         ; preds = %while.cond
  %9 = load i32, ptr %top.i93.i, align 4, !tbaa !12
  %cmp.i94.i = icmp eq i32 %9, 0
  br i1 %cmp.i94.i, label %if.then.i97.i, label %pop.exit98.i

if.then.i97.i:                                    ; preds = %sw.bb9.i
  tail call void @abort() #6
  unreachable

pop.exit98.i:                                     ; preds = %sw.bb9.i
  %dec.i95.i = add nsw i32 %9, -1
  store i32 %dec.i95.i, ptr %top.i93.i, align 4, !tbaa !12
  %cmp.i100.i = icmp eq i32 %dec.i95.i, 0
  br i1 %cmp.i100.i, label %if.then.i103.i, label %pop.exit104.i

if.then.i103.i:                                   ; preds = %pop.exit98.i
  tail call void @abort() #6
  unreachable

pop.exit104.i:                                    ; preds = %pop.exit98.i
  %arrayidx.i96.i = getelementptr inbounds [16 x i32], ptr %m, i32 0, i32 %dec.i95.i
  %10 = load i32, ptr %arrayidx.i96.i, align 4, !tbaa !13
  %dec.i101.i = add nsw i32 %9, -2
  store i32 %dec.i101.i, ptr %top.i93.i, align 4, !tbaa !12
  %cmp.i106.i = icmp eq i32 %dec.i101.i, 16
  br i1 %cmp.i106.i, label %if.then.i109.i, label %push.exit110.i

if.then.i109.i:                                   ; preds = %pop.exit104.i
  tail call void @abort() #6
  unreachable

push.exit110.i:                                   ; preds = %pop.exit104.i
  %arrayidx.i102.i = getelementptr inbounds [16 x i32], ptr %m, i32 0, i32 %dec.i101.i
  %11 = load i32, ptr %arrayidx.i102.i, align 4, !tbaa !13
  %add.i = add nsw i32 %11, %10
  store i32 %dec.i95.i, ptr %top.i93.i, align 4, !tbaa !12
  store i32 %add.i, ptr %arrayidx.i102.i, align 4, !tbaa !13
  br label %while.cond.backedge

sw.bb12.i:                                        ; preds = %while.cond
  %12 = load i32, ptr %top.i111.i, align 4, !tbaa !12
  %cmp.i112.i = icmp eq i32 %12, 0
  br i1 %cmp.i112.i, label %if.then.i115.i, label %pop.exit116.i

if.then.i115.i:                                   ; preds = %sw.bb12.i
  tail call void @abort() #6
  unreachable

pop.exit116.i:                                    ; preds = %sw.bb12.i
  %dec.i113.i = add nsw i32 %12, -1
  store i32 %dec.i113.i, ptr %top.i111.i, align 4, !tbaa !12
  %cmp.i118.i = icmp eq i32 %dec.i113.i, 0
  br i1 %cmp.i118.i, label %if.then.i121.i, label %pop.exit122.i

if.then.i121.i:                                   ; preds = %pop.exit116.i
  tail call void @abort() #6
  unreachable

pop.exit122.i:                                    ; preds = %pop.exit116.i
  %arrayidx.i114.i = getelementptr inbounds [16 x i32], ptr %m, i32 0, i32 %dec.i113.i
  %13 = load i32, ptr %arrayidx.i114.i, align 4, !tbaa !13
  %dec.i119.i = add nsw i32 %12, -2
  store i32 %dec.i119.i, ptr %top.i111.i, align 4, !tbaa !12
  %cmp.i124.i = icmp eq i32 %dec.i119.i, 16
  br i1 %cmp.i124.i, label %if.then.i127.i, label %push.exit128.i

if.then.i127.i:                                   ; preds = %pop.exit122.i
  tail call void @abort() #6
  unreachable

push.exit128.i:                                   ; preds = %pop.exit122.i
  %arrayidx.i120.i = getelementptr inbounds [16 x i32], ptr %m, i32 0, i32 %dec.i119.i
  %14 = load i32, ptr %arrayidx.i120.i, align 4, !tbaa !13
  %mul.i = mul nsw i32 %14, %13
  store i32 %dec.i113.i, ptr %top.i111.i, align 4, !tbaa !12
  store i32 %mul.i, ptr %arrayidx.i120.i, align 4, !tbaa !13
  br label %while.cond.backedge

sw.bb15.i:                                        ; preds = %while.cond
  %15 = load i32, ptr %top.i129.i, align 4, !tbaa !12
  %cmp.i130.i = icmp eq i32 %15, 0
  br i1 %cmp.i130.i, label %if.then.i133.i, label %pop.exit134.i

if.then.i133.i:                                   ; preds = %sw.bb15.i
  tail call void @abort() #6
  unreachable

pop.exit134.i:                                    ; preds = %sw.bb15.i
  %dec.i131.i = add nsw i32 %15, -1
  store i32 %dec.i131.i, ptr %top.i129.i, align 4, !tbaa !12
  %cmp.i136.i = icmp eq i32 %dec.i131.i, 0
  br i1 %cmp.i136.i, label %if.then.i139.i, label %pop.exit140.i

if.then.i139.i:                                   ; preds = %pop.exit134.i
  tail call void @abort() #6
  unreachable

pop.exit140.i:                                    ; preds = %pop.exit134.i
  %arrayidx.i132.i = getelementptr inbounds [16 x i32], ptr %m, i32 0, i32 %dec.i131.i
  %16 = load i32, ptr %arrayidx.i132.i, align 4, !tbaa !13
  %dec.i137.i = add nsw i32 %15, -2
  store i32 %dec.i137.i, ptr %top.i129.i, align 4, !tbaa !12
  %cmp.i142.i = icmp eq i32 %dec.i137.i, 16
  br i1 %cmp.i142.i, label %if.then.i145.i, label %push.exit146.i

if.then.i145.i:                                   ; preds = %pop.exit140.i
  tail call void @abort() #6
  unreachable

push.exit146.i:                                   ; preds = %pop.exit140.i
  %arrayidx.i138.i = getelementptr inbounds [16 x i32], ptr %m, i32 0, i32 %dec.i137.i
  %17 = load i32, ptr %arrayidx.i138.i, align 4, !tbaa !13
  %cmp.i = icmp slt i32 %17, %16
  %conv18.i = zext i1 %cmp.i to i32
  store i32 %dec.i131.i, ptr %top.i129.i, align 4, !tbaa !12
  store i32 %conv18.i, ptr %arrayidx.i138.i, align 4, !tbaa !13
  br label %while.cond.backedge

sw.bb19.i:                                        ; preds = %while.cond
  %inc21.i = add nsw i32 %1, 2
  store i32 %inc21.i, ptr %at.i, align 4, !tbaa !9
  %arrayidx22.i = getelementptr inbounds [35 x i16], ptr @program, i32 0, i32 %inc1.i
  %18 = load i16, ptr %arrayidx22.i, align 2, !tbaa !10
  %19 = load i32, ptr %top.i147.i, align 4, !tbaa !12
  %cmp.i148.i = icmp eq i32 %19, 0
  br i1 %cmp.i148.i, label %if.then.i151.i, label %pop.exit152.i

if.then.i151.i:                                   ; preds = %sw.bb19.i
  tail call void @abort() #6
  unreachable

pop.exit152.i:                                    ; preds = %sw.bb19.i
  %dec.i149.i = add nsw i32 %19, -1
  store i32 %dec.i149.i, ptr %top.i147.i, align 4, !tbaa !12
  %arrayidx.i150.i = getelementptr inbounds [16 x i32], ptr %m, i32 0, i32 %dec.i149.i
  %20 = load i32, ptr %arrayidx.i150.i, align 4, !tbaa !13
  %tobool.not.i = icmp eq i32 %20, 0
  br i1 %tobool.not.i, label %while.cond.backedge, label %if.then.i

if.then.i:                                        ; preds = %pop.exit152.i
  %conv23.i = sext i16 %18 to i32
  store i32 %conv23.i, ptr %at.i, align 4, !tbaa !9
  br label %while.cond.backedge

sw.bb26.i:                                        ; preds = %while.cond
  %arrayidx28.i = getelementptr inbounds [35 x i16], ptr @program, i32 0, i32 %inc1.i
  %21 = load i16, ptr %arrayidx28.i, align 2, !tbaa !10
  %conv29.i = sext i16 %21 to i32
  store i32 %conv29.i, ptr %at.i, align 4, !tbaa !9
  br label %while.cond.backedge

sw.bb31.i:                                        ; preds = %while.cond
  %22 = load i32, ptr %top.i153.i, align 4, !tbaa !12
  %cmp.i154.i = icmp eq i32 %22, 0
  br i1 %cmp.i154.i, label %if.then.i157.i, label %pop.exit158.i

if.then.i157.i:                                   ; preds = %sw.bb31.i
  tail call void @abort() #6
  unreachable

pop.exit158.i:                                    ; preds = %sw.bb31.i
  %dec.i155.i = add nsw i32 %22, -1
  store i32 %dec.i155.i, ptr %top.i153.i, align 4, !tbaa !12
  %arrayidx.i156.i = getelementptr inbounds [16 x i32], ptr %m, i32 0, i32 %dec.i155.i
  %23 = load i32, ptr %arrayidx.i156.i, align 4, !tbaa !13
  tail call fastcc void @number(i32 noundef signext %23)
  br label %while.cond.backedge

sw.bb33.i:                                        ; preds = %while.cond
  %24 = load i32, ptr %top.i159.i, align 4, !tbaa !12
  %cmp.i160.i = icmp eq i32 %24, 0
  br i1 %cmp.i160.i, label %if.then.i163.i, label %pop.exit164.i

if.then.i163.i:                                   ; preds = %sw.bb33.i
  tail call void @abort() #6
  unreachable

pop.exit164.i:                                    ; preds = %sw.bb33.i
  %dec.i161.i = add nsw i32 %24, -1
  store i32 %dec.i161.i, ptr %top.i159.i, align 4, !tbaa !12
  %arrayidx.i162.i = getelementptr inbounds [16 x i32], ptr %m, i32 0, i32 %dec.i161.i
  %25 = load i32, ptr %arrayidx.i162.i, align 4, !tbaa !13
  %call35.i = tail call i32 @putchar(i32 noundef signext %25)
  br label %while.cond.backedge

sw.bb36.i:                                        ; preds = %while.cond
  %26 = load i32, ptr %top.i165.i, align 4, !tbaa !12
  %cmp.i166.i = icmp eq i32 %26, 0
  br i1 %cmp.i166.i, label %if.then.i169.i, label %pop.exit170.i

if.then.i169.i:                                   ; preds = %sw.bb36.i
  tail call void @abort() #6
  unreachable

pop.exit170.i:                                    ; preds = %sw.bb36.i
  %dec.i167.i = add nsw i32 %26, -1
  store i32 %dec.i167.i, ptr %top.i165.i, align 4, !tbaa !12
  %cmp.i172.i = icmp eq i32 %dec.i167.i, 16
  br i1 %cmp.i172.i, label %if.then.i175.i, label %push.exit176.i

if.then.i175.i:                                   ; preds = %pop.exit170.i
  tail call void @abort() #6
  unreachable

push.exit176.i:                                   ; preds = %pop.exit170.i
  %arrayidx.i168.i = getelementptr inbounds [16 x i32], ptr %m, i32 0, i32 %dec.i167.i
  %27 = load i32, ptr %arrayidx.i168.i, align 4, !tbaa !13
  %arrayidx38.i = getelementptr inbounds [6 x i8], ptr @letters, i32 0, i32 %27
  %28 = load i8, ptr %arrayidx38.i, align 1, !tbaa !14
  %conv39.i = sext i8 %28 to i32
  store i32 %26, ptr %top.i165.i, align 4, !tbaa !12
  store i32 %conv39.i, ptr %arrayidx.i168.i, align 4, !tbaa !13
  br label %while.cond.backedge

while.cond.backedge:                              ; preds = %push.exit176.i, %pop.exit164.i, %pop.exit158.i, %sw.bb26.i, %if.then.i, %pop.exit152.i, %push.exit146.i, %push.exit128.i, %push.exit110.i, %pop.exit92.i, %push.exit86.i, %push.exit.i, %while.cond
  br label %while.cond

while.end:                                        ; preds = %while.cond
  %done.i.le = getelementptr inbounds i8, ptr %m, i32 72
  %29 = load i32, ptr %done.i.le, align 4, !tbaa !4
  %sub = add nsw i32 %29, -50
  call void @llvm.lifetime.end.p0(i64 76, ptr nonnull %m) #5
  ret i32 %sub
}

; Function Attrs: mustprogress nocallback nofree nosync nounwind willreturn memory(argmem: readwrite)
declare void @llvm.lifetime.start.p0(i64 immarg, ptr nocapture) #1

; Function Attrs: mustprogress nocallback nofree nounwind willreturn memory(argmem: write)
declare void @llvm.memset.p0.i32(ptr nocapture writeonly, i8, i32, i1 immarg) #2

; Function Attrs: mustprogress nocallback nofree nosync nounwind willreturn memory(argmem: readwrite)
declare void @llvm.lifetime.end.p0(i64 immarg, ptr nocapture) #1

; Function Attrs: nofree nounwind
define internal fastcc void @number(i32 noundef signext %n) unnamed_addr #3 {
entry:
  %cmp = icmp sgt i32 %n, 9
  br i1 %cmp, label %if.then, label %if.end

if.then:                                          ; preds = %entry
  %div = udiv i32 %n, 10
  tail call fastcc void @number(i32 noundef signext %div)
  br label %if.end

if.end:                                           ; preds = %if.then, %entry
  %rem = srem i32 %n, 10
  %add = add nsw i32 %rem, 48
  %call = tail call i32 @putchar(i32 noundef signext %add)
  ret void
}

; Function Attrs: nofree nounwind
declare noundef i32 @putchar(i32 noundef signext) local_unnamed_addr #3

; Function Attrs: noreturn nounwind
declare void @abort() local_unnamed_addr #4

attributes #0 = { nounwind "no-trapping-math"="true" "stack-protector-buffer-size"="8" "target-cpu"="mips32r2" "target-features"="+fpxx,+mips32r2,+nooddspreg,-noabicalls" }
attributes #1 = { mustprogress nocallback nofree nosync nounwind willreturn memory(argmem: readwrite) }
attributes #2 = { mustprogress nocallback nofree nounwind willreturn memory(argmem: write) }
attributes #3 = { nofree nounwind "no-trapping-math"="true" "stack-protector-buffer-size"="8" "target-cpu"="mips32r2" "target-features"="+fpxx,+mips32r2,+nooddspreg,-noabicalls" }
attributes #4 = { noreturn nounwind "no-trapping-math"="true" "stack-protector-buffer-size"="8" "target-cpu"="mips32r2" "target-features"="+fpxx,+mips32r2,+nooddspreg,-noabicalls" }
attributes #5 = { nounwind }
attributes #6 = { noreturn nounwind }

!llvm.module.flags = !{!0, !1, !2}
!llvm.ident = !{!3}

!0 = !{i32 1, !"wchar_size", i32 4}
!1 = !{i32 8, !"PIC Level", i32 1}
!2 = !{i32 7, !"PIE Level", i32 1}
!3 = !{!"Debian clang version 19.1.7 (3~deb12u1)"}
!4 = !{!5, !8, i64 72}
!5 = !{!"machine", !6, i64 0, !8, i64 64, !8, i64 68, !8, i64 72}
!6 = !{!"omnipotent char", !7, i64 0}
!7 = !{!"Simple C/C++ TBAA"}
!8 = !{!"int", !6, i64 0}
!9 = !{!5, !8, i64 68}
!10 = !{!11, !11, i64 0}
!11 = !{!"short", !6, i64 0}
!12 = !{!5, !8, i64 64}
!13 = !{!8, !8, i64 0}
!14 = !{!6, !6, i64 0}
