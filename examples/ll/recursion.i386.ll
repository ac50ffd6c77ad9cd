; ModuleID = 'recursion.c'
source_filename = "recursion.c"
target datalayout = "e-m:e-p:32:32-p270:32:32-p271:32:32-p272:64:64-i128:128-f64:32:64-f80:32-n8:16:32-S128"
target triple = "i386-unknown-linux-gnu"

@moves = internal global i32 0, align 4

; Function Attrs: noinline nounwind optnone uwtable
define dso_local i32 @main() #0 {
entry:
  %retval = alloca i32, align 4
  %a = alloca i32, align 4
  %values = alloca [4 x i32], align 4
  %i = alloca i32, align 4
  store i32 0, ptr %retval, align 4
  call void @hanoi(i32 noundef 3, i8 noundef signext 97, i8 noundef signext 98, i8 noundef signext 99)
  %call = call i32 @putchar(i32 noundef 10)
  %call1 = call i32 @ackermann(i32 noundef 3, i32 noundef 3)
  store i32 %call1, ptr %a, align 4
  %0 = load i32, ptr %a, align 4
  store i32 %0, ptr %values, align 4
  %arrayinit.element = getelementptr inbounds i32, ptr %values, i32 1
  %call2 = call i32 @even(i32 noundef 10)
  store i32 %call2, ptr %arrayinit.element, align 4
  %arrayinit.element3 = getelementptr inbounds i32, ptr %values, i32 2
  %call4 = call i32 @even(i32 noundef 7)
  store i32 %call4, ptr %arrayinit.element3, align 4
  %arrayinit.element5 = getelementptr inbounds i32, ptr %values, i32 3
  %call6 = call i32 @divisor(i32 noundef 1071, i32 noundef 462)
  store i32 %call6, ptr %arrayinit.element5, align 4
  store i32 0, ptr %i, align 4
  br label %for.cond

for.cond:                                         ; preds = %for.inc, %entry
  %1 = load i32, ptr %i, align 4
  %cmp = icmp slt i32 %1, 4
  br i1 %cmp, label %for.body, label %for.end

for.body:                                         ; preds = %for.cond
  %2 = load i32, ptr %i, align 4
  %arrayidx = getelementptr inbounds [4 x i32], ptr %values, i32 0, i32 %2
  %3 = load i32, ptr %arrayidx, align 4
  call void @number(i32 noundef %3)
  %4 = load i32, ptr %i, align 4
  %cmp7 = icmp slt i32 %4, 3
  %5 = zext i1 %cmp7 to i64
  %cond = select i1 %cmp7, i32 32, i32 10
  %call8 = call i32 @putchar(i32 noundef %cond)
  br label %for.inc

for.inc:                                          ; preds = %for.body
  %6 = load i32, ptr %i, align 4
  %inc = add nsw i32 %6, 1
  store i32 %inc, ptr %i, align 4
  br label %for.cond, !llvm.loop !7

for.end:                                          ; preds = %for.cond
  %7 = load i32, ptr %a, align 4
  ret i32 %7
}

; Function Attrs: noinline nounwind optnone uwtable
define internal void @hanoi(i32 noundef %n, i8 noundef signext %from, i8 noundef signext %to, i8 noundef signext %by) #0 {
entry:
  %n.addr = alloca i32, align 4
  %from.addr = alloca i8, align 1
  %to.addr = alloca i8, align 1
  %by.addr = alloca i8, align 1
  store i32 %n, ptr %n.addr, align 4
  store i8 %from, ptr %from.addr, align 1
  store i8 %to, ptr %to.addr, align 1
  store i8 %by, ptr %by.addr, align 1
  %0 = load i32, ptr %n.addr, align 4
  %cmp = icmp eq i32 %0, 0
  br i1 %cmp, label %if.then, label %if.end

if.then:                                          ; preds = %entry
  br label %return

if.end:                                           ; preds = %entry
  %1 = load i32, ptr %n.addr, align 4
  %sub = sub nsw i32 %1, 1
  %2 = load i8, ptr %from.addr, align 1
  %3 = load i8, ptr %by.addr, align 1
  %4 = load i8, ptr %to.addr, align 1
  call void @hanoi(i32 noundef %sub, i8 noundef signext %2, i8 noundef signext %3, i8 noundef signext %4)
  %5 = load i32, ptr @moves, align 4
  %inc = add nsw i32 %5, 1
  store i32 %inc, ptr @moves, align 4
  %tobool = icmp ne i32 %5, 0
  br i1 %tobool, label %if.then1, label %if.end2

if.then1:                                         ; preds = %if.end
  %call = call i32 @putchar(i32 noundef 32)
  br label %if.end2

if.end2:                                          ; preds = %if.then1, %if.end
  %6 = load i8, ptr %from.addr, align 1
  %conv = sext i8 %6 to i32
  %call3 = call i32 @putchar(i32 noundef %conv)
  %7 = load i8, ptr %to.addr, align 1
  %conv4 = sext i8 %7 to i32
  %call5 = call i32 @putchar(i32 noundef %conv4)
  %8 = load i32, ptr %n.addr, align 4
  %sub6 = sub nsw i32 %8, 1
  %9 = load i8, ptr %by.addr, align 1
  %10 = load i8, ptr %to.addr, align 1
  %11 = load i8, ptr %from.addr, align 1
  call void @hanoi(i32 noundef %sub6, i8 noundef signext %9, i8 noundef signext %10, i8 noundef signext %11)
  br label %return

return:                                           ; preds = %if.end2, %if.then
  ret void
}

declare i32 @putchar(i32 noundef) #1

; Function Attrs: noinline nounwind optnone uwtable
define internal i32 @ackermann(i32 noundef %m, i32 noundef %n) #0 {
entry:
  %retval = alloca i32, align 4
  %m.addr = alloca i32, align 4
  %n.addr = alloca i32, align 4
  store i32 %m, ptr %m.addr, align 4
  store i32 %n, ptr %n.addr, align 4
  %0 = load i32, ptr %m.addr, align 4
  %cmp = icmp eq i32 %0, 0
  br i1 %cmp, label %if.then, label %if.end

if.then:                                          ; preds = %entry
  %1 = load i32, ptr %n.addr, align 4
  %add = add i32 %1, 1
  store i32 %add, ptr %retval, align 4
  br label %return

if.end:                                           ; preds = %entry
  %2 = load i32, ptr %m.addr, align 4
  %sub = sub i32 %2, 1
  %3 = load i32, ptr %n.addr, align 4
  %cmp1 = icmp eq i32 %3, 0
  br i1 %cmp1, label %cond.true, label %cond.false

cond.true:                                        ; preds = %if.end
  br label %cond.end

cond.false:                                       ; preds = %if.end
  %4 = load i32, ptr %m.addr, align 4
  %5 = load i32, ptr %n.addr, align 4
  %sub2 = sub i32 %5, 1
  %call = call i32 @ackermann(i32 noundef %4, i32 noundef %sub2)
  br label %cond.end

cond.end:                                         ; preds = %cond.false, %cond.true
  %cond = phi i32 [ 1, %cond.true ], [ %call, %cond.false ]
  %call3 = call i32 @ackermann(i32 noundef %sub, i32 noundef %cond)
  store i32 %call3, ptr %retval, align 4
  br label %return

return:                                           ; preds = %cond.end, %if.then
  %6 = load i32, ptr %retval, align 4
  ret i32 %6
}

; Function Attrs: noinline nounwind optnone uwtable
define internal i32 @even(i32 noundef %n) #0 {
entry:
  %n.addr = alloca i32, align 4
  store i32 %n, ptr %n.addr, align 4
  %0 = load i32, ptr %n.addr, align 4
  %cmp = icmp eq i32 %0, 0
  br i1 %cmp, label %lor.end, label %lor.rhs

lor.rhs:                                          ; preds = %entry
  %1 = load i32, ptr %n.addr, align 4
  %sub = sub i32 %1, 1
  %call = call i32 @odd(i32 noundef %sub)
  %tobool = icmp ne i32 %call, 0
  br label %lor.end

lor.end:                                          ; preds = %lor.rhs, %entry
  %2 = phi i1 [ true, %entry ], [ %tobool, %lor.rhs ]
  %lor.ext = zext i1 %2 to i32
  ret i32 %lor.ext
}

; Function Attrs: noinline nounwind optnone uwtable
define internal i32 @divisor(i32 noundef %a, i32 noundef %b) #0 {
entry:
  %a.addr = alloca i32, align 4
  %b.addr = alloca i32, align 4
  store i32 %a, ptr %a.addr, align 4
  store i32 %b, ptr %b.addr, align 4
  %0 = load i32, ptr %b.addr, align 4
  %cmp = icmp eq i32 %0, 0
  br i1 %cmp, label %cond.true, label %cond.false

cond.true:                                        ; preds = %entry
  %1 = load i32, ptr %a.addr, align 4
  br label %cond.end

cond.false:                                       ; preds = %entry
  %2 = load i32, ptr %b.addr, align 4
  %3 = load i32, ptr %a.addr, align 4
  %4 = load i32, ptr %b.addr, align 4
  %rem = urem i32 %3, %4
  %call = call i32 @divisor(i32 noundef %2, i32 noundef %rem)
  br label %cond.end

cond.end:                                         ; preds = %cond.false, %cond.true
  %cond = phi i32 [ %1, %cond.true ], [ %call, %cond.false ]
  ret i32 %cond
}

; Function Attrs: noinline nounwind optnone uwtable
define internal void @number(i32 noundef %n) #0 {
entry:
  %n.addr = alloca i32, align 4
  store i32 %n, ptr %n.addr, align 4
  %0 = load i32, ptr %n.addr, align 4
  %cmp = icmp uge i32 %0, 10
  br i1 %cmp, label %if.then, label %if.end

if.then:                                          ; preds = %entry
  %1 = load i32, ptr %n.addr, align 4
  %div = udiv i32 %1, 10
  call void @number(i32 noundef %div)
  br label %if.end

if.end:                                           ; preds = %if.then, %entry
  %2 = load i32, ptr %n.addr, align 4
  %rem = urem i32 %2, 10
  %add = add i32 48, %rem
  %call = call i32 @putchar(i32 noundef %add)
  ret void
}

; Function Attrs: noinline nounwind optnone uwtable
define internal i32 @odd(i32 noundef %n) #0 {
entry:
  %n.addr = alloca i32, align 4
  store i32 %n, ptr %n.addr, align 4
  %0 = load i32, ptr %n.addr, align 4
  %cmp = icmp ne i32 %0, 0
  br i1 %cmp, label %land.rhs, label %land.end

land.rhs:                                         ; preds = %entry
  %1 = load i32, ptr %n.addr, align 4
  %sub = sub i32 %1, 1
  %call = call i32 @even(i32 noundef %sub)
  %tobool = icmp ne i32 %call, 0
  br label %land.end

land.end:                                         ; preds = %land.rhs, %entry
  %2 = phi i1 [ false, %entry ], [ %tobool, %land.rhs ]
  %land.ext = zext i1 %2 to i32
  ret i32 %land.ext
}

attributes #0 = { noinline nounwind optnone uwtable "frame-pointer"="all" "min-legal-vector-width"="0" "no-trapping-math"="true" "stack-protector-buffer-size"="8" "target-cpu"="i686" "target-features"="+cmov,+cx8,+x87" "tune-cpu"="generic" }
attributes #1 = { "frame-pointer"="all" "no-trapping-math"="true" "stack-protector-buffer-size"="8" "target-cpu"="i686" "target-features"="+cmov,+cx8,+x87" "tune-cpu"="generic" }

!llvm.module.flags = !{!0, !1, !2, !3, !4, !5}
!llvm.ident = !{!6}

!0 = !{i32 1, !"NumRegisterParameters", i32 0}
!1 = !{i32 1, !"wchar_size", i32 4}
!2 = !{i32 8, !"PIC Level", i32 2}
!3 = !{i32 7, !"PIE Level", i32 2}
!4 = !{i32 7, !"uwtable", i32 2}
!5 = !{i32 7, !"frame-pointer", i32 2}
!6 = !{!"Debian clang version 19.1.7 (3~deb12u1)"}
!7 = distinct !{!7, !8}
!8 = !{!"llvm.loop.mustprogress"}
