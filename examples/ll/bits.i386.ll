; ModuleID = 'bits.c'
source_filename = "bits.c"
target datalayout = "e-m:e-p:32:32-p270:32:32-p271:32:32-p272:64:64-i128:128-f64:32:64-f80:32-n8:16:32-S128"
target triple = "i386-unknown-linux-gnu"

@.str = private unnamed_addr constant [17 x i8] c"0123456789ABCDEF\00", align 1

; Function Attrs: noinline nounwind optnone uwtable
define dso_local i32 @main() #0 {
entry:
  %retval = alloca i32, align 4
  %n = alloca i32, align 4
  %c = alloca i32, align 4
  %values = alloca [9 x i32], align 4
  %i = alloca i32, align 4
  store i32 0, ptr %retval, align 4
  store i32 305419896, ptr %n, align 4
  %0 = load i32, ptr %n, align 4
  %call = call i32 @count(i32 noundef %0)
  store i32 %call, ptr %c, align 4
  %1 = load i32, ptr %c, align 4
  store i32 %1, ptr %values, align 4
  %arrayinit.element = getelementptr inbounds i32, ptr %values, i32 1
  %2 = load i32, ptr %n, align 4
  %call1 = call i32 @parity(i32 noundef %2)
  store i32 %call1, ptr %arrayinit.element, align 4
  %arrayinit.element2 = getelementptr inbounds i32, ptr %values, i32 2
  %3 = load i32, ptr %n, align 4
  %shr = lshr i32 %3, 16
  %call3 = call i32 @turned(i32 noundef %shr, i32 noundef 16)
  store i32 %call3, ptr %arrayinit.element2, align 4
  %arrayinit.element4 = getelementptr inbounds i32, ptr %values, i32 3
  %call5 = call i32 @gray(i32 noundef 16)
  store i32 %call5, ptr %arrayinit.element4, align 4
  %arrayinit.element6 = getelementptr inbounds i32, ptr %values, i32 4
  %call7 = call i32 @from_gray(i32 noundef 13)
  store i32 %call7, ptr %arrayinit.element6, align 4
  %arrayinit.element8 = getelementptr inbounds i32, ptr %values, i32 5
  %4 = load i32, ptr %n, align 4
  %call9 = call i32 @highest(i32 noundef %4)
  store i32 %call9, ptr %arrayinit.element8, align 4
  %arrayinit.element10 = getelementptr inbounds i32, ptr %values, i32 6
  %5 = load i32, ptr %n, align 4
  %call11 = call i32 @lowest(i32 noundef %5)
  store i32 %call11, ptr %arrayinit.element10, align 4
  %arrayinit.element12 = getelementptr inbounds i32, ptr %values, i32 7
  %6 = load i32, ptr %n, align 4
  %call13 = call i32 @left(i32 noundef %6, i32 noundef 36)
  store i32 %call13, ptr %arrayinit.element12, align 4
  %arrayinit.element14 = getelementptr inbounds i32, ptr %values, i32 8
  %call15 = call i32 @root(i32 noundef -2144975872)
  store i32 %call15, ptr %arrayinit.element14, align 4
  store i32 0, ptr %i, align 4
  br label %for.cond

for.cond:                                         ; preds = %for.inc, %entry
  %7 = load i32, ptr %i, align 4
  %cmp = icmp slt i32 %7, 9
  br i1 %cmp, label %for.body, label %for.end

for.body:                                         ; preds = %for.cond
  %8 = load i32, ptr %i, align 4
  %arrayidx = getelementptr inbounds [9 x i32], ptr %values, i32 0, i32 %8
  %9 = load i32, ptr %arrayidx, align 4
  %10 = load i32, ptr %i, align 4
  %cmp16 = icmp eq i32 %10, 2
  br i1 %cmp16, label %lor.end, label %lor.rhs

lor.rhs:                                          ; preds = %for.body
  %11 = load i32, ptr %i, align 4
  %cmp17 = icmp eq i32 %11, 7
  br label %lor.end

lor.end:                                          ; preds = %lor.rhs, %for.body
  %12 = phi i1 [ true, %for.body ], [ %cmp17, %lor.rhs ]
  %13 = zext i1 %12 to i64
  %cond = select i1 %12, i32 16, i32 10
  call void @number(i32 noundef %9, i32 noundef %cond)
  %14 = load i32, ptr %i, align 4
  %cmp18 = icmp slt i32 %14, 8
  %15 = zext i1 %cmp18 to i64
  %cond19 = select i1 %cmp18, i32 32, i32 10
  %call20 = call i32 @putchar(i32 noundef %cond19)
  br label %for.inc

for.inc:                                          ; preds = %lor.end
  %16 = load i32, ptr %i, align 4
  %inc = add nsw i32 %16, 1
  store i32 %inc, ptr %i, align 4
  br label %for.cond, !llvm.loop !7

for.end:                                          ; preds = %for.cond
  %17 = load i32, ptr %c, align 4
  ret i32 %17
}

; Function Attrs: noinline nounwind optnone uwtable
define internal i32 @count(i32 noundef %n) #0 {
entry:
  %n.addr = alloca i32, align 4
  %c = alloca i32, align 4
  store i32 %n, ptr %n.addr, align 4
  store i32 0, ptr %c, align 4
  br label %for.cond

for.cond:                                         ; preds = %for.inc, %entry
  %0 = load i32, ptr %n.addr, align 4
  %tobool = icmp ne i32 %0, 0
  br i1 %tobool, label %for.body, label %for.end

for.body:                                         ; preds = %for.cond
  %1 = load i32, ptr %c, align 4
  %inc = add i32 %1, 1
  store i32 %inc, ptr %c, align 4
  br label %for.inc

for.inc:                                          ; preds = %for.body
  %2 = load i32, ptr %n.addr, align 4
  %sub = sub i32 %2, 1
  %3 = load i32, ptr %n.addr, align 4
  %and = and i32 %3, %sub
  store i32 %and, ptr %n.addr, align 4
  br label %for.cond, !llvm.loop !9

for.end:                                          ; preds = %for.cond
  %4 = load i32, ptr %c, align 4
  ret i32 %4
}

; Function Attrs: noinline nounwind optnone uwtable
define internal i32 @parity(i32 noundef %n) #0 {
entry:
  %n.addr = alloca i32, align 4
  %shift = alloca i32, align 4
  store i32 %n, ptr %n.addr, align 4
  store i32 16, ptr %shift, align 4
  br label %for.cond

for.cond:                                         ; preds = %for.inc, %entry
  %0 = load i32, ptr %shift, align 4
  %tobool = icmp ne i32 %0, 0
  br i1 %tobool, label %for.body, label %for.end

for.body:                                         ; preds = %for.cond
  %1 = load i32, ptr %n.addr, align 4
  %2 = load i32, ptr %shift, align 4
  %shr = lshr i32 %1, %2
  %3 = load i32, ptr %n.addr, align 4
  %xor = xor i32 %3, %shr
  store i32 %xor, ptr %n.addr, align 4
  br label %for.inc

for.inc:                                          ; preds = %for.body
  %4 = load i32, ptr %shift, align 4
  %div = sdiv i32 %4, 2
  store i32 %div, ptr %shift, align 4
  br label %for.cond, !llvm.loop !10

for.end:                                          ; preds = %for.cond
  %5 = load i32, ptr %n.addr, align 4
  %and = and i32 %5, 1
  ret i32 %and
}

; Function Attrs: noinline nounwind optnone uwtable
define internal i32 @turned(i32 noundef %n, i32 noundef %width) #0 {
entry:
  %n.addr = alloca i32, align 4
  %width.addr = alloca i32, align 4
  %r = alloca i32, align 4
  %i = alloca i32, align 4
  store i32 %n, ptr %n.addr, align 4
  store i32 %width, ptr %width.addr, align 4
  store i32 0, ptr %r, align 4
  store i32 0, ptr %i, align 4
  br label %for.cond

for.cond:                                         ; preds = %for.inc, %entry
  %0 = load i32, ptr %i, align 4
  %1 = load i32, ptr %width.addr, align 4
  %cmp = icmp slt i32 %0, %1
  br i1 %cmp, label %for.body, label %for.end

for.body:                                         ; preds = %for.cond
  %2 = load i32, ptr %n.addr, align 4
  %3 = load i32, ptr %i, align 4
  %shr = lshr i32 %2, %3
  %and = and i32 %shr, 1
  %tobool = icmp ne i32 %and, 0
  br i1 %tobool, label %if.then, label %if.end

if.then:                                          ; preds = %for.body
  %4 = load i32, ptr %width.addr, align 4
  %sub = sub nsw i32 %4, 1
  %5 = load i32, ptr %i, align 4
  %sub1 = sub nsw i32 %sub, %5
  %shl = shl i32 1, %sub1
  %6 = load i32, ptr %r, align 4
  %or = or i32 %6, %shl
  store i32 %or, ptr %r, align 4
  br label %if.end

if.end:                                           ; preds = %if.then, %for.body
  br label %for.inc

for.inc:                                          ; preds = %if.end
  %7 = load i32, ptr %i, align 4
  %inc = add nsw i32 %7, 1
  store i32 %inc, ptr %i, align 4
  br label %for.cond, !llvm.loop !11

for.end:                                          ; preds = %for.cond
  %8 = load i32, ptr %r, align 4
  ret i32 %8
}

; Function Attrs: noinline nounwind optnone uwtable
define internal i32 @gray(i32 noundef %n) #0 {
entry:
  %n.addr = alloca i32, align 4
  store i32 %n, ptr %n.addr, align 4
  %0 = load i32, ptr %n.addr, align 4
  %1 = load i32, ptr %n.addr, align 4
  %shr = lshr i32 %1, 1
  %xor = xor i32 %0, %shr
  ret i32 %xor
}

; Function Attrs: noinline nounwind optnone uwtable
define internal i32 @from_gray(i32 noundef %g) #0 {
entry:
  %g.addr = alloca i32, align 4
  %n = alloca i32, align 4
  store i32 %g, ptr %g.addr, align 4
  store i32 0, ptr %n, align 4
  br label %for.cond

for.cond:                                         ; preds = %for.inc, %entry
  %0 = load i32, ptr %g.addr, align 4
  %tobool = icmp ne i32 %0, 0
  br i1 %tobool, label %for.body, label %for.end

for.body:                                         ; preds = %for.cond
  %1 = load i32, ptr %g.addr, align 4
  %2 = load i32, ptr %n, align 4
  %xor = xor i32 %2, %1
  store i32 %xor, ptr %n, align 4
  br label %for.inc

for.inc:                                          ; preds = %for.body
  %3 = load i32, ptr %g.addr, align 4
  %shr = lshr i32 %3, 1
  store i32 %shr, ptr %g.addr, align 4
  br label %for.cond, !llvm.loop !12

for.end:                                          ; preds = %for.cond
  %4 = load i32, ptr %n, align 4
  ret i32 %4
}

; Function Attrs: noinline nounwind optnone uwtable
define internal i32 @highest(i32 noundef %n) #0 {
entry:
  %n.addr = alloca i32, align 4
  %at = alloca i32, align 4
  store i32 %n, ptr %n.addr, align 4
  store i32 -1, ptr %at, align 4
  br label %for.cond

for.cond:                                         ; preds = %for.inc, %entry
  %0 = load i32, ptr %n.addr, align 4
  %tobool = icmp ne i32 %0, 0
  br i1 %tobool, label %for.body, label %for.end

for.body:                                         ; preds = %for.cond
  %1 = load i32, ptr %at, align 4
  %inc = add nsw i32 %1, 1
  store i32 %inc, ptr %at, align 4
  br label %for.inc

for.inc:                                          ; preds = %for.body
  %2 = load i32, ptr %n.addr, align 4
  %shr = lshr i32 %2, 1
  store i32 %shr, ptr %n.addr, align 4
  br label %for.cond, !llvm.loop !13

for.end:                                          ; preds = %for.cond
  %3 = load i32, ptr %at, align 4
  ret i32 %3
}

; Function Attrs: noinline nounwind optnone uwtable
define internal i32 @lowest(i32 noundef %n) #0 {
entry:
  %n.addr = alloca i32, align 4
  %at = alloca i32, align 4
  store i32 %n, ptr %n.addr, align 4
  store i32 0, ptr %at, align 4
  br label %for.cond

for.cond:                                         ; preds = %for.inc, %entry
  %0 = load i32, ptr %n.addr, align 4
  %and = and i32 %0, 1
  %tobool = icmp ne i32 %and, 0
  %lnot = xor i1 %tobool, true
  br i1 %lnot, label %for.body, label %for.end

for.body:                                         ; preds = %for.cond
  %1 = load i32, ptr %at, align 4
  %inc = add nsw i32 %1, 1
  store i32 %inc, ptr %at, align 4
  br label %for.inc

for.inc:                                          ; preds = %for.body
  %2 = load i32, ptr %n.addr, align 4
  %shr = lshr i32 %2, 1
  store i32 %shr, ptr %n.addr, align 4
  br label %for.cond, !llvm.loop !14

for.end:                                          ; preds = %for.cond
  %3 = load i32, ptr %at, align 4
  ret i32 %3
}

; Function Attrs: noinline nounwind optnone uwtable
define internal i32 @left(i32 noundef %n, i32 noundef %by) #0 {
entry:
  %n.addr = alloca i32, align 4
  %by.addr = alloca i32, align 4
  %high = alloca i32, align 4
  store i32 %n, ptr %n.addr, align 4
  store i32 %by, ptr %by.addr, align 4
  %0 = load i32, ptr %n.addr, align 4
  %1 = load i32, ptr %by.addr, align 4
  %and = and i32 %1, 31
  %shl = shl i32 %0, %and
  store i32 %shl, ptr %high, align 4
  %2 = load i32, ptr %by.addr, align 4
  %and1 = and i32 %2, 31
  %tobool = icmp ne i32 %and1, 0
  br i1 %tobool, label %cond.true, label %cond.false

cond.true:                                        ; preds = %entry
  %3 = load i32, ptr %high, align 4
  %4 = load i32, ptr %n.addr, align 4
  %5 = load i32, ptr %by.addr, align 4
  %and2 = and i32 %5, 31
  %sub = sub i32 32, %and2
  %shr = lshr i32 %4, %sub
  %or = or i32 %3, %shr
  br label %cond.end

cond.false:                                       ; preds = %entry
  %6 = load i32, ptr %high, align 4
  br label %cond.end

cond.end:                                         ; preds = %cond.false, %cond.true
  %cond = phi i32 [ %or, %cond.true ], [ %6, %cond.false ]
  ret i32 %cond
}

; Function Attrs: noinline nounwind optnone uwtable
define internal i32 @root(i32 noundef %n) #0 {
entry:
  %n.addr = alloca i32, align 4
  %r = alloca i32, align 4
  %bit = alloca i32, align 4
  store i32 %n, ptr %n.addr, align 4
  store i32 0, ptr %r, align 4
  store i32 32768, ptr %bit, align 4
  br label %for.cond

for.cond:                                         ; preds = %for.inc, %entry
  %0 = load i32, ptr %bit, align 4
  %tobool = icmp ne i32 %0, 0
  br i1 %tobool, label %for.body, label %for.end

for.body:                                         ; preds = %for.cond
  %1 = load i32, ptr %r, align 4
  %2 = load i32, ptr %bit, align 4
  %or = or i32 %1, %2
  %3 = load i32, ptr %r, align 4
  %4 = load i32, ptr %bit, align 4
  %or1 = or i32 %3, %4
  %mul = mul i32 %or, %or1
  %5 = load i32, ptr %n.addr, align 4
  %cmp = icmp ule i32 %mul, %5
  br i1 %cmp, label %if.then, label %if.end

if.then:                                          ; preds = %for.body
  %6 = load i32, ptr %bit, align 4
  %7 = load i32, ptr %r, align 4
  %or2 = or i32 %7, %6
  store i32 %or2, ptr %r, align 4
  br label %if.end

if.end:                                           ; preds = %if.then, %for.body
  br label %for.inc

for.inc:                                          ; preds = %if.end
  %8 = load i32, ptr %bit, align 4
  %shr = lshr i32 %8, 1
  store i32 %shr, ptr %bit, align 4
  br label %for.cond, !llvm.loop !15

for.end:                                          ; preds = %for.cond
  %9 = load i32, ptr %r, align 4
  ret i32 %9
}

; Function Attrs: noinline nounwind optnone uwtable
define internal void @number(i32 noundef %n, i32 noundef %base) #0 {
entry:
  %n.addr = alloca i32, align 4
  %base.addr = alloca i32, align 4
  store i32 %n, ptr %n.addr, align 4
  store i32 %base, ptr %base.addr, align 4
  %0 = load i32, ptr %n.addr, align 4
  %1 = load i32, ptr %base.addr, align 4
  %cmp = icmp uge i32 %0, %1
  br i1 %cmp, label %if.then, label %if.end

if.then:                                          ; preds = %entry
  %2 = load i32, ptr %n.addr, align 4
  %3 = load i32, ptr %base.addr, align 4
  %div = udiv i32 %2, %3
  %4 = load i32, ptr %base.addr, align 4
  call void @number(i32 noundef %div, i32 noundef %4)
  br label %if.end

if.end:                                           ; preds = %if.then, %entry
  %5 = load i32, ptr %n.addr, align 4
  %6 = load i32, ptr %base.addr, align 4
  %rem = urem i32 %5, %6
  %arrayidx = getelementptr inbounds [17 x i8], ptr @.str, i32 0, i32 %rem
  %7 = load i8, ptr %arrayidx, align 1
  %conv = sext i8 %7 to i32
  %call = call i32 @putchar(i32 noundef %conv)
  ret void
}

declare i32 @putchar(i32 noundef) #1

attributes #0 = { noinline nounwind optnone uwtable "frame-pointer"="all" "min-legal-vector-width"="0" "no-trapping-math"="true" "stack-protector-buffer-size"="8" "target-cpu"="i686" "target-features"="+cmov,+cx8,+x87" "tune-cpu"="generic" }
attributes #1 = { "frame-pointer"="all" "no-trapping-math"="true" "stack-protector-buffer-size"="8" "target-cpu"="i686" "target-features"="+cmov,+cx8,+x87" "tune-cpu"="generic" }

!llvm.module.flags = !{!0, !1, !2, !3, !4, !5}
!llvm.ident = !{!6}

!0 = !{i32 1, !"NumRegisterParameters", i32 0}
!1 = !{i32 1, !"wchar_size", i32 4}
!2 = !{i32 8, !"PIC Level", i32 2}
!3 = !{i32 7, !"PIE Level", i32 2}
!4 = !{i32 7, !"uwtable", i32 2}
!5 = !{i32 7, !"frame-pointer", i32 2}
!6 = !{!"Debian clang version 19.1.7 (3~deb12u1)"}
!7 = distinct !{!7, !8}
!8 = !{!"llvm.loop.mustprogress"}
!9 = distinct !{!9, !8}
!10 = distinct !{!10, !8}
!11 = distinct !{!11, !8}
!12 = distinct !{!12, !8}
!13 = distinct !{!13, !8}
!14 = distinct !{!14, !8}
!15 = distinct !{!15, !8}
