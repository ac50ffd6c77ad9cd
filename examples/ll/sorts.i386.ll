; ModuleID = 'sorts.c'
source_filename = "sorts.c"
target datalayout = "e-m:e-p:32:32-p270:32:32-p271:32:32-p272:64:64-i128:128-f64:32:64-f80:32-n8:16:32-S128"
target triple = "i386-unknown-linux-gnu"

@given = internal constant [12 x i32] [i32 34, i32 -4, i32 8, i32 0, i32 55, i32 1, i32 13, i32 -9, i32 3, i32 21, i32 2, i32 5], align 4

; Function Attrs: noinline nounwind optnone uwtable
define dso_local i32 @main() #0 {
entry:
  %retval = alloca i32, align 4
  %a = alloca [3 x [12 x i32]], align 4
  %k = alloca i32, align 4
  %i = alloca i32, align 4
  %k16 = alloca i32, align 4
  store i32 0, ptr %retval, align 4
  store i32 0, ptr %k, align 4
  br label %for.cond

for.cond:                                         ; preds = %for.inc6, %entry
  %0 = load i32, ptr %k, align 4
  %cmp = icmp slt i32 %0, 3
  br i1 %cmp, label %for.body, label %for.end8

for.body:                                         ; preds = %for.cond
  store i32 0, ptr %i, align 4
  br label %for.cond1

for.cond1:                                        ; preds = %for.inc, %for.body
  %1 = load i32, ptr %i, align 4
  %cmp2 = icmp slt i32 %1, 12
  br i1 %cmp2, label %for.body3, label %for.end

for.body3:                                        ; preds = %for.cond1
  %2 = load i32, ptr %i, align 4
  %arrayidx = getelementptr inbounds [12 x i32], ptr @given, i32 0, i32 %2
  %3 = load i32, ptr %arrayidx, align 4
  %4 = load i32, ptr %k, align 4
  %arrayidx4 = getelementptr inbounds [3 x [12 x i32]], ptr %a, i32 0, i32 %4
  %5 = load i32, ptr %i, align 4
  %arrayidx5 = getelementptr inbounds [12 x i32], ptr %arrayidx4, i32 0, i32 %5
  store i32 %3, ptr %arrayidx5, align 4
  br label %for.inc

for.inc:                                          ; preds = %for.body3
  %6 = load i32, ptr %i, align 4
  %inc = add nsw i32 %6, 1
  store i32 %inc, ptr %i, align 4
  br label %for.cond1, !llvm.loop !7

for.end:                                          ; preds = %for.cond1
  br label %for.inc6

for.inc6:                                         ; preds = %for.end
  %7 = load i32, ptr %k, align 4
  %inc7 = add nsw i32 %7, 1
  store i32 %inc7, ptr %k, align 4
  br label %for.cond, !llvm.loop !9

for.end8:                                         ; preds = %for.cond
  %arrayidx9 = getelementptr inbounds [3 x [12 x i32]], ptr %a, i32 0, i32 0
  %arraydecay = getelementptr inbounds [12 x i32], ptr %arrayidx9, i32 0, i32 0
  call void @insertion(ptr noundef %arraydecay, i32 noundef 12)
  %arrayidx10 = getelementptr inbounds [3 x [12 x i32]], ptr %a, i32 0, i32 1
  %arraydecay11 = getelementptr inbounds [12 x i32], ptr %arrayidx10, i32 0, i32 0
  call void @shell(ptr noundef %arraydecay11, i32 noundef 12)
  %arrayidx12 = getelementptr inbounds [3 x [12 x i32]], ptr %a, i32 0, i32 2
  %arraydecay13 = getelementptr inbounds [12 x i32], ptr %arrayidx12, i32 0, i32 0
  %arrayidx14 = getelementptr inbounds [3 x [12 x i32]], ptr %a, i32 0, i32 2
  %arraydecay15 = getelementptr inbounds [12 x i32], ptr %arrayidx14, i32 0, i32 0
  %add.ptr = getelementptr inbounds i32, ptr %arraydecay15, i32 12
  call void @quick(ptr noundef %arraydecay13, ptr noundef %add.ptr)
  store i32 0, ptr %k16, align 4
  br label %for.cond17

for.cond17:                                       ; preds = %for.inc22, %for.end8
  %8 = load i32, ptr %k16, align 4
  %cmp18 = icmp slt i32 %8, 3
  br i1 %cmp18, label %for.body19, label %for.end24

for.body19:                                       ; preds = %for.cond17
  %9 = load i32, ptr %k16, align 4
  %arrayidx20 = getelementptr inbounds [3 x [12 x i32]], ptr %a, i32 0, i32 %9
  %arraydecay21 = getelementptr inbounds [12 x i32], ptr %arrayidx20, i32 0, i32 0
  call void @show(ptr noundef %arraydecay21, i32 noundef 12)
  br label %for.inc22

for.inc22:                                        ; preds = %for.body19
  %10 = load i32, ptr %k16, align 4
  %inc23 = add nsw i32 %10, 1
  store i32 %inc23, ptr %k16, align 4
  br label %for.cond17, !llvm.loop !10

for.end24:                                        ; preds = %for.cond17
  ret i32 12
}

; Function Attrs: noinline nounwind optnone uwtable
define internal void @insertion(ptr noundef %a, i32 noundef %n) #0 {
entry:
  %a.addr = alloca ptr, align 4
  %n.addr = alloca i32, align 4
  %i = alloca i32, align 4
  %x = alloca i32, align 4
  %j = alloca i32, align 4
  store ptr %a, ptr %a.addr, align 4
  store i32 %n, ptr %n.addr, align 4
  store i32 1, ptr %i, align 4
  br label %for.cond

for.cond:                                         ; preds = %for.inc10, %entry
  %0 = load i32, ptr %i, align 4
  %1 = load i32, ptr %n.addr, align 4
  %cmp = icmp slt i32 %0, %1
  br i1 %cmp, label %for.body, label %for.end11

for.body:                                         ; preds = %for.cond
  %2 = load ptr, ptr %a.addr, align 4
  %3 = load i32, ptr %i, align 4
  %arrayidx = getelementptr inbounds i32, ptr %2, i32 %3
  %4 = load i32, ptr %arrayidx, align 4
  store i32 %4, ptr %x, align 4
  %5 = load i32, ptr %i, align 4
  store i32 %5, ptr %j, align 4
  br label %for.cond1

for.cond1:                                        ; preds = %for.inc, %for.body
  %6 = load i32, ptr %j, align 4
  %cmp2 = icmp sgt i32 %6, 0
  br i1 %cmp2, label %land.rhs, label %land.end

land.rhs:                                         ; preds = %for.cond1
  %7 = load ptr, ptr %a.addr, align 4
  %8 = load i32, ptr %j, align 4
  %sub = sub nsw i32 %8, 1
  %arrayidx3 = getelementptr inbounds i32, ptr %7, i32 %sub
  %9 = load i32, ptr %arrayidx3, align 4
  %10 = load i32, ptr %x, align 4
  %cmp4 = icmp sgt i32 %9, %10
  br label %land.end

land.end:                                         ; preds = %land.rhs, %for.cond1
  %11 = phi i1 [ false, %for.cond1 ], [ %cmp4, %land.rhs ]
  br i1 %11, label %for.body5, label %for.end

for.body5:                                        ; preds = %land.end
  %12 = load ptr, ptr %a.addr, align 4
  %13 = load i32, ptr %j, align 4
  %sub6 = sub nsw i32 %13, 1
  %arrayidx7 = getelementptr inbounds i32, ptr %12, i32 %sub6
  %14 = load i32, ptr %arrayidx7, align 4
  %15 = load ptr, ptr %a.addr, align 4
  %16 = load i32, ptr %j, align 4
  %arrayidx8 = getelementptr inbounds i32, ptr %15, i32 %16
  store i32 %14, ptr %arrayidx8, align 4
  br label %for.inc

for.inc:                                          ; preds = %for.body5
  %17 = load i32, ptr %j, align 4
  %dec = add nsw i32 %17, -1
  store i32 %dec, ptr %j, align 4
  br label %for.cond1, !llvm.loop !11

for.end:                                          ; preds = %land.end
  %18 = load i32, ptr %x, align 4
  %19 = load ptr, ptr %a.addr, align 4
  %20 = load i32, ptr %j, align 4
  %arrayidx9 = getelementptr inbounds i32, ptr %19, i32 %20
  store i32 %18, ptr %arrayidx9, align 4
  br label %for.inc10

for.inc10:                                        ; preds = %for.end
  %21 = load i32, ptr %i, align 4
  %inc = add nsw i32 %21, 1
  store i32 %inc, ptr %i, align 4
  br label %for.cond, !llvm.loop !12

for.end11:                                        ; preds = %for.cond
  ret void
}

; Function Attrs: noinline nounwind optnone uwtable
define internal void @shell(ptr noundef %a, i32 noundef %n) #0 {
entry:
  %a.addr = alloca ptr, align 4
  %n.addr = alloca i32, align 4
  %gap = alloca i32, align 4
  %i = alloca i32, align 4
  %j = alloca i32, align 4
  %t = alloca i32, align 4
  store ptr %a, ptr %a.addr, align 4
  store i32 %n, ptr %n.addr, align 4
  %0 = load i32, ptr %n.addr, align 4
  %div = sdiv i32 %0, 2
  store i32 %div, ptr %gap, align 4
  br label %for.cond

for.cond:                                         ; preds = %for.inc18, %entry
  %1 = load i32, ptr %gap, align 4
  %cmp = icmp sgt i32 %1, 0
  br i1 %cmp, label %for.body, label %for.end20

for.body:                                         ; preds = %for.cond
  %2 = load i32, ptr %gap, align 4
  store i32 %2, ptr %i, align 4
  br label %for.cond1

for.cond1:                                        ; preds = %for.inc16, %for.body
  %3 = load i32, ptr %i, align 4
  %4 = load i32, ptr %n.addr, align 4
  %cmp2 = icmp slt i32 %3, %4
  br i1 %cmp2, label %for.body3, label %for.end17

for.body3:                                        ; preds = %for.cond1
  %5 = load i32, ptr %i, align 4
  store i32 %5, ptr %j, align 4
  br label %for.cond4

for.cond4:                                        ; preds = %for.inc, %for.body3
  %6 = load i32, ptr %j, align 4
  %7 = load i32, ptr %gap, align 4
  %cmp5 = icmp sge i32 %6, %7
  br i1 %cmp5, label %land.rhs, label %land.end

land.rhs:                                         ; preds = %for.cond4
  %8 = load ptr, ptr %a.addr, align 4
  %9 = load i32, ptr %j, align 4
  %10 = load i32, ptr %gap, align 4
  %sub = sub nsw i32 %9, %10
  %arrayidx = getelementptr inbounds i32, ptr %8, i32 %sub
  %11 = load i32, ptr %arrayidx, align 4
  %12 = load ptr, ptr %a.addr, align 4
  %13 = load i32, ptr %j, align 4
  %arrayidx6 = getelementptr inbounds i32, ptr %12, i32 %13
  %14 = load i32, ptr %arrayidx6, align 4
  %cmp7 = icmp sgt i32 %11, %14
  br label %land.end

land.end:                                         ; preds = %land.rhs, %for.cond4
  %15 = phi i1 [ false, %for.cond4 ], [ %cmp7, %land.rhs ]
  br i1 %15, label %for.body8, label %for.end

for.body8:                                        ; preds = %land.end
  %16 = load ptr, ptr %a.addr, align 4
  %17 = load i32, ptr %j, align 4
  %arrayidx9 = getelementptr inbounds i32, ptr %16, i32 %17
  %18 = load i32, ptr %arrayidx9, align 4
  store i32 %18, ptr %t, align 4
  %19 = load ptr, ptr %a.addr, align 4
  %20 = load i32, ptr %j, align 4
  %21 = load i32, ptr %gap, align 4
  %sub10 = sub nsw i32 %20, %21
  %arrayidx11 = getelementptr inbounds i32, ptr %19, i32 %sub10
  %22 = load i32, ptr %arrayidx11, align 4
  %23 = load ptr, ptr %a.addr, align 4
  %24 = load i32, ptr %j, align 4
  %arrayidx12 = getelementptr inbounds i32, ptr %23, i32 %24
  store i32 %22, ptr %arrayidx12, align 4
  %25 = load i32, ptr %t, align 4
  %26 = load ptr, ptr %a.addr, align 4
  %27 = load i32, ptr %j, align 4
  %28 = load i32, ptr %gap, align 4
  %sub13 = sub nsw i32 %27, %28
  %arrayidx14 = getelementptr inbounds i32, ptr %26, i32 %sub13
  store i32 %25, ptr %arrayidx14, align 4
  br label %for.inc

for.inc:                                          ; preds = %for.body8
  %29 = load i32, ptr %gap, align 4
  %30 = load i32, ptr %j, align 4
  %sub15 = sub nsw i32 %30, %29
  store i32 %sub15, ptr %j, align 4
  br label %for.cond4, !llvm.loop !13

for.end:                                          ; preds = %land.end
  br label %for.inc16

for.inc16:                                        ; preds = %for.end
  %31 = load i32, ptr %i, align 4
  %inc = add nsw i32 %31, 1
  store i32 %inc, ptr %i, align 4
  br label %for.cond1, !llvm.loop !14

for.end17:                                        ; preds = %for.cond1
  br label %for.inc18

for.inc18:                                        ; preds = %for.end17
  %32 = load i32, ptr %gap, align 4
  %div19 = sdiv i32 %32, 2
  store i32 %div19, ptr %gap, align 4
  br label %for.cond, !llvm.loop !15

for.end20:                                        ; preds = %for.cond
  ret void
}

; Function Attrs: noinline nounwind optnone uwtable
define internal void @quick(ptr noundef %low, ptr noundef %high) #0 {
entry:
  %low.addr = alloca ptr, align 4
  %high.addr = alloca ptr, align 4
  %pivot = alloca i32, align 4
  %i = alloca ptr, align 4
  %j = alloca ptr, align 4
  %t = alloca i32, align 4
  store ptr %low, ptr %low.addr, align 4
  store ptr %high, ptr %high.addr, align 4
  %0 = load ptr, ptr %high.addr, align 4
  %1 = load ptr, ptr %low.addr, align 4
  %sub.ptr.lhs.cast = ptrtoint ptr %0 to i32
  %sub.ptr.rhs.cast = ptrtoint ptr %1 to i32
  %sub.ptr.sub = sub i32 %sub.ptr.lhs.cast, %sub.ptr.rhs.cast
  %sub.ptr.div = sdiv exact i32 %sub.ptr.sub, 4
  %cmp = icmp slt i32 %sub.ptr.div, 2
  br i1 %cmp, label %if.then, label %if.end

if.then:                                          ; preds = %entry
  br label %return

if.end:                                           ; preds = %entry
  %2 = load ptr, ptr %low.addr, align 4
  %3 = load ptr, ptr %high.addr, align 4
  %4 = load ptr, ptr %low.addr, align 4
  %sub.ptr.lhs.cast1 = ptrtoint ptr %3 to i32
  %sub.ptr.rhs.cast2 = ptrtoint ptr %4 to i32
  %sub.ptr.sub3 = sub i32 %sub.ptr.lhs.cast1, %sub.ptr.rhs.cast2
  %sub.ptr.div4 = sdiv exact i32 %sub.ptr.sub3, 4
  %div = sdiv i32 %sub.ptr.div4, 2
  %arrayidx = getelementptr inbounds i32, ptr %2, i32 %div
  %5 = load i32, ptr %arrayidx, align 4
  store i32 %5, ptr %pivot, align 4
  %6 = load ptr, ptr %low.addr, align 4
  store ptr %6, ptr %i, align 4
  %7 = load ptr, ptr %high.addr, align 4
  %add.ptr = getelementptr inbounds i32, ptr %7, i32 -1
  store ptr %add.ptr, ptr %j, align 4
  br label %while.cond

while.cond:                                       ; preds = %if.end18, %if.end
  %8 = load ptr, ptr %i, align 4
  %9 = load ptr, ptr %j, align 4
  %cmp5 = icmp ule ptr %8, %9
  br i1 %cmp5, label %while.body, label %while.end19

while.body:                                       ; preds = %while.cond
  br label %while.cond6

while.cond6:                                      ; preds = %while.body8, %while.body
  %10 = load ptr, ptr %i, align 4
  %11 = load i32, ptr %10, align 4
  %12 = load i32, ptr %pivot, align 4
  %cmp7 = icmp slt i32 %11, %12
  br i1 %cmp7, label %while.body8, label %while.end

while.body8:                                      ; preds = %while.cond6
  %13 = load ptr, ptr %i, align 4
  %incdec.ptr = getelementptr inbounds i32, ptr %13, i32 1
  store ptr %incdec.ptr, ptr %i, align 4
  br label %while.cond6, !llvm.loop !16

while.end:                                        ; preds = %while.cond6
  br label %while.cond9

while.cond9:                                      ; preds = %while.body11, %while.end
  %14 = load ptr, ptr %j, align 4
  %15 = load i32, ptr %14, align 4
  %16 = load i32, ptr %pivot, align 4
  %cmp10 = icmp sgt i32 %15, %16
  br i1 %cmp10, label %while.body11, label %while.end13

while.body11:                                     ; preds = %while.cond9
  %17 = load ptr, ptr %j, align 4
  %incdec.ptr12 = getelementptr inbounds i32, ptr %17, i32 -1
  store ptr %incdec.ptr12, ptr %j, align 4
  br label %while.cond9, !llvm.loop !17

while.end13:                                      ; preds = %while.cond9
  %18 = load ptr, ptr %i, align 4
  %19 = load ptr, ptr %j, align 4
  %cmp14 = icmp ule ptr %18, %19
  br i1 %cmp14, label %if.then15, label %if.end18

if.then15:                                        ; preds = %while.end13
  %20 = load ptr, ptr %i, align 4
  %21 = load i32, ptr %20, align 4
  store i32 %21, ptr %t, align 4
  %22 = load ptr, ptr %j, align 4
  %23 = load i32, ptr %22, align 4
  %24 = load ptr, ptr %i, align 4
  %incdec.ptr16 = getelementptr inbounds i32, ptr %24, i32 1
  store ptr %incdec.ptr16, ptr %i, align 4
  store i32 %23, ptr %24, align 4
  %25 = load i32, ptr %t, align 4
  %26 = load ptr, ptr %j, align 4
  %incdec.ptr17 = getelementptr inbounds i32, ptr %26, i32 -1
  store ptr %incdec.ptr17, ptr %j, align 4
  store i32 %25, ptr %26, align 4
  br label %if.end18

if.end18:                                         ; preds = %if.then15, %while.end13
  br label %while.cond, !llvm.loop !18

while.end19:                                      ; preds = %while.cond
  %27 = load ptr, ptr %low.addr, align 4
  %28 = load ptr, ptr %j, align 4
  %add.ptr20 = getelementptr inbounds i32, ptr %28, i32 1
  call void @quick(ptr noundef %27, ptr noundef %add.ptr20)
  %29 = load ptr, ptr %i, align 4
  %30 = load ptr, ptr %high.addr, align 4
  call void @quick(ptr noundef %29, ptr noundef %30)
  br label %return

return:                                           ; preds = %while.end19, %if.then
  ret void
}

; Function Attrs: noinline nounwind optnone uwtable
define internal void @show(ptr noundef %a, i32 noundef %n) #0 {
entry:
  %a.addr = alloca ptr, align 4
  %n.addr = alloca i32, align 4
  %i = alloca i32, align 4
  store ptr %a, ptr %a.addr, align 4
  store i32 %n, ptr %n.addr, align 4
  store i32 0, ptr %i, align 4
  br label %for.cond

for.cond:                                         ; preds = %for.inc, %entry
  %0 = load i32, ptr %i, align 4
  %1 = load i32, ptr %n.addr, align 4
  %cmp = icmp slt i32 %0, %1
  br i1 %cmp, label %for.body, label %for.end

for.body:                                         ; preds = %for.cond
  %2 = load i32, ptr %i, align 4
  %cmp1 = icmp sgt i32 %2, 0
  br i1 %cmp1, label %if.then, label %if.end

if.then:                                          ; preds = %for.body
  %call = call i32 @putchar(i32 noundef 32)
  br label %if.end

if.end:                                           ; preds = %if.then, %for.body
  %3 = load ptr, ptr %a.addr, align 4
  %4 = load i32, ptr %i, align 4
  %arrayidx = getelementptr inbounds i32, ptr %3, i32 %4
  %5 = load i32, ptr %arrayidx, align 4
  call void @number(i32 noundef %5)
  br label %for.inc

for.inc:                                          ; preds = %if.end
  %6 = load i32, ptr %i, align 4
  %inc = add nsw i32 %6, 1
  store i32 %inc, ptr %i, align 4
  br label %for.cond, !llvm.loop !19

for.end:                                          ; preds = %for.cond
  %call2 = call i32 @putchar(i32 noundef 10)
  ret void
}

declare i32 @putchar(i32 noundef) #1

; Function Attrs: noinline nounwind optnone uwtable
define internal void @number(i32 noundef %n) #0 {
entry:
  %n.addr = alloca i32, align 4
  %u = alloca i32, align 4
  store i32 %n, ptr %n.addr, align 4
  %0 = load i32, ptr %n.addr, align 4
  store i32 %0, ptr %u, align 4
  %1 = load i32, ptr %n.addr, align 4
  %cmp = icmp slt i32 %1, 0
  br i1 %cmp, label %if.then, label %if.end

if.then:                                          ; preds = %entry
  %call = call i32 @putchar(i32 noundef 45)
  %2 = load i32, ptr %u, align 4
  %sub = sub i32 0, %2
  store i32 %sub, ptr %u, align 4
  br label %if.end

if.end:                                           ; preds = %if.then, %entry
  %3 = load i32, ptr %u, align 4
  %cmp1 = icmp uge i32 %3, 10
  br i1 %cmp1, label %if.then2, label %if.end3

if.then2:                                         ; preds = %if.end
  %4 = load i32, ptr %u, align 4
  %div = udiv i32 %4, 10
  call void @number(i32 noundef %div)
  br label %if.end3

if.end3:                                          ; preds = %if.then2, %if.end
  %5 = load i32, ptr %u, align 4
  %rem = urem i32 %5, 10
  %add = add i32 48, %rem
  %call4 = call i32 @putchar(i32 noundef %add)
  ret void
}

attributes #0 = { noinline nounwind optnone uwtable "frame-pointer"="all" "min-legal-vector-width"="0" "no-trapping-math"="true" "stack-protector-buffer-size"="8" "target-cpu"="i686" "target-features"="+cmov,+cx8,+x87" "tune-cpu"="generic" }
attributes #1 = { "frame-pointer"="all" "no-trapping-math"="true" "stack-protector-buffer-size"="8" "target-cpu"="i686" "target-features"="+cmov,+cx8,+x87" "tune-cpu"="generic" }

!llvm.module.flags = !{!0, !1, !2, !3, !4, !5}
!llvm.ident = !{!6}

!0 = !{i32 1, !"NumRegisterParameters", i32 0}
!1 = !{i32 1, !"wchar_size", i32 4}
!2 = !{i32 8, !"PIC Level", i32 2}
!3 = !{i32 7, !"PIE Level", i32 2}
!4 = !{i32 7, !"uwtable", i32 2}
!5 = !{i32 7, !"frame-pointer", i32 2}
!6 = !{!"Debian clang version 19.1.7 (3~deb12u1)"}
!7 = distinct !{!7, !8}
!8 = !{!"llvm.loop.mustprogress"}
!9 = distinct !{!9, !8}
!10 = distinct !{!10, !8}
!11 = distinct !{!11, !8}
!12 = distinct !{!12, !8}
!13 = distinct !{!13, !8}
!14 = distinct !{!14, !8}
!15 = distinct !{!15, !8}
!16 = distinct !{!16, !8}
!17 = distinct !{!17, !8}
!18 = distinct !{!18, !8}
!19 = distinct !{!19, !8}
