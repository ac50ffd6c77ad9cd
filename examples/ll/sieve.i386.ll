; ModuleID = 'sieve.c'
source_filename = "sieve.c"
target datalayout = "e-m:e-p:32:32-p270:32:32-p271:32:32-p272:64:64-i128:128-f64:32:64-f80:32-n8:16:32-S128"
target triple = "i386-unknown-linux-gnu"

@struck = internal global [100 x i8] zeroinitializer, align 1

; Function Attrs: noinline nounwind optnone uwtable
define dso_local i32 @main() #0 {
entry:
  %retval = alloca i32, align 4
  %count = alloca i32, align 4
  %i = alloca i32, align 4
  %i1 = alloca i32, align 4
  %i8 = alloca i32, align 4
  store i32 0, ptr %retval, align 4
  store i32 0, ptr %count, align 4
  store i32 0, ptr %i, align 4
  br label %for.cond

for.cond:                                         ; preds = %for.inc, %entry
  %0 = load i32, ptr %i, align 4
  %cmp = icmp slt i32 %0, 100
  br i1 %cmp, label %for.body, label %for.end

for.body:                                         ; preds = %for.cond
  %1 = load i32, ptr %i, align 4
  %arrayidx = getelementptr inbounds [100 x i8], ptr @struck, i32 0, i32 %1
  store i8 1, ptr %arrayidx, align 1
  br label %for.inc

for.inc:                                          ; preds = %for.body
  %2 = load i32, ptr %i, align 4
  %add = add nsw i32 %2, 2
  store i32 %add, ptr %i, align 4
  br label %for.cond, !llvm.loop !7

for.end:                                          ; preds = %for.cond
  store i32 3, ptr %i1, align 4
  br label %for.cond2

for.cond2:                                        ; preds = %for.inc6, %for.end
  %3 = load i32, ptr %i1, align 4
  %cmp3 = icmp slt i32 %3, 100
  br i1 %cmp3, label %for.body4, label %for.end7

for.body4:                                        ; preds = %for.cond2
  %4 = load i32, ptr %i1, align 4
  %arrayidx5 = getelementptr inbounds [100 x i8], ptr @struck, i32 0, i32 %4
  %5 = load i8, ptr %arrayidx5, align 1
  %tobool = icmp ne i8 %5, 0
  br i1 %tobool, label %if.end, label %if.then

if.then:                                          ; preds = %for.body4
  %6 = load i32, ptr %i1, align 4
  call void @strike_each(i32 noundef %6)
  br label %if.end

if.end:                                           ; preds = %if.then, %for.body4
  br label %for.inc6

for.inc6:                                         ; preds = %if.end
  %7 = load i32, ptr %i1, align 4
  %inc = add nsw i32 %7, 1
  store i32 %inc, ptr %i1, align 4
  br label %for.cond2, !llvm.loop !9

for.end7:                                         ; preds = %for.cond2
  store i32 1, ptr %i8, align 4
  br label %for.cond9

for.cond9:                                        ; preds = %for.inc20, %for.end7
  %8 = load i32, ptr %i8, align 4
  %cmp10 = icmp slt i32 %8, 100
  br i1 %cmp10, label %for.body11, label %for.end22

for.body11:                                       ; preds = %for.cond9
  %9 = load i32, ptr %i8, align 4
  %arrayidx12 = getelementptr inbounds [100 x i8], ptr @struck, i32 0, i32 %9
  %10 = load i8, ptr %arrayidx12, align 1
  %tobool13 = icmp ne i8 %10, 0
  br i1 %tobool13, label %if.end19, label %if.then14

if.then14:                                        ; preds = %for.body11
  %11 = load i32, ptr %count, align 4
  %inc15 = add nsw i32 %11, 1
  store i32 %inc15, ptr %count, align 4
  %tobool16 = icmp ne i32 %11, 0
  br i1 %tobool16, label %if.then17, label %if.end18

if.then17:                                        ; preds = %if.then14
  %call = call i32 @putchar(i32 noundef 32)
  br label %if.end18

if.end18:                                         ; preds = %if.then17, %if.then14
  %12 = load i32, ptr %i8, align 4
  call void @number(i32 noundef %12)
  br label %if.end19

if.end19:                                         ; preds = %if.end18, %for.body11
  br label %for.inc20

for.inc20:                                        ; preds = %if.end19
  %13 = load i32, ptr %i8, align 4
  %inc21 = add nsw i32 %13, 1
  store i32 %inc21, ptr %i8, align 4
  br label %for.cond9, !llvm.loop !10

for.end22:                                        ; preds = %for.cond9
  %call23 = call i32 @putchar(i32 noundef 10)
  %14 = load i32, ptr %count, align 4
  ret i32 %14
}

; Function Attrs: noinline nounwind optnone uwtable
define internal void @strike_each(i32 noundef %step) #0 {
entry:
  %step.addr = alloca i32, align 4
  %seen = alloca i32, align 4
  %i = alloca i32, align 4
  store i32 %step, ptr %step.addr, align 4
  store i32 0, ptr %seen, align 4
  store i32 1, ptr %i, align 4
  br label %for.cond

for.cond:                                         ; preds = %for.inc, %entry
  %0 = load i32, ptr %i, align 4
  %cmp = icmp slt i32 %0, 100
  br i1 %cmp, label %for.body, label %for.end

for.body:                                         ; preds = %for.cond
  %1 = load i32, ptr %i, align 4
  %arrayidx = getelementptr inbounds [100 x i8], ptr @struck, i32 0, i32 %1
  %2 = load i8, ptr %arrayidx, align 1
  %tobool = icmp ne i8 %2, 0
  br i1 %tobool, label %if.then, label %if.end

if.then:                                          ; preds = %for.body
  br label %for.inc

if.end:                                           ; preds = %for.body
  %3 = load i32, ptr %seen, align 4
  %inc = add nsw i32 %3, 1
  store i32 %inc, ptr %seen, align 4
  %4 = load i32, ptr %step.addr, align 4
  %cmp1 = icmp eq i32 %inc, %4
  br i1 %cmp1, label %if.then2, label %if.end4

if.then2:                                         ; preds = %if.end
  %5 = load i32, ptr %i, align 4
  %arrayidx3 = getelementptr inbounds [100 x i8], ptr @struck, i32 0, i32 %5
  store i8 1, ptr %arrayidx3, align 1
  store i32 0, ptr %seen, align 4
  br label %if.end4

if.end4:                                          ; preds = %if.then2, %if.end
  br label %for.inc

for.inc:                                          ; preds = %if.end4, %if.then
  %6 = load i32, ptr %i, align 4
  %inc5 = add nsw i32 %6, 1
  store i32 %inc5, ptr %i, align 4
  br label %for.cond, !llvm.loop !11

for.end:                                          ; preds = %for.cond
  ret void
}

declare i32 @putchar(i32 noundef) #1

; Function Attrs: noinline nounwind optnone uwtable
define internal void @number(i32 noundef %n) #0 {
entry:
  %n.addr = alloca i32, align 4
  store i32 %n, ptr %n.addr, align 4
  %0 = load i32, ptr %n.addr, align 4
  %cmp = icmp uge i32 %0, 10
  br i1 %cmp, label %if.then, label %if.end

if.then:                                          ; preds = %entry
  %1 = load i32, ptr %n.addr, align 4
  %div = udiv i32 %1, 10
  call void @number(i32 noundef %div)
  br label %if.end

if.end:                                           ; preds = %if.then, %entry
  %2 = load i32, ptr %n.addr, align 4
  %rem = urem i32 %2, 10
  %add = add i32 48, %rem
  %call = call i32 @putchar(i32 noundef %add)
  ret void
}

attributes #0 = { noinline nounwind optnone uwtable "frame-pointer"="all" "min-legal-vector-width"="0" "no-trapping-math"="true" "stack-protector-buffer-size"="8" "target-cpu"="i686" "target-features"="+cmov,+cx8,+x87" "tune-cpu"="generic" }
attributes #1 = { "frame-pointer"="all" "no-trapping-math"="true" "stack-protector-buffer-size"="8" "target-cpu"="i686" "target-features"="+cmov,+cx8,+x87" "tune-cpu"="generic" }

!llvm.module.flags = !{!0, !1, !2, !3, !4, !5}
!llvm.ident = !{!6}

!0 = !{i32 1, !"NumRegisterParameters", i32 0}
!1 = !{i32 1, !"wchar_size", i32 4}
!2 = !{i32 8, !"PIC Level", i32 2}
!3 = !{i32 7, !"PIE Level", i32 2}
!4 = !{i32 7, !"uwtable", i32 2}
!5 = !{i32 7, !"frame-pointer", i32 2}
!6 = !{!"Debian clang version 19.1.7 (3~deb12u1)"}
!7 = distinct !{!7, !8}
!8 = !{!"llvm.loop.mustprogress"}
!9 = distinct !{!9, !8}
!10 = distinct !{!10, !8}
!11 = distinct !{!11, !8}
