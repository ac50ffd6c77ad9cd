; ModuleID = 'wide.c'
source_filename = "wide.c"
target datalayout = "e-m:e-p:32:32-p270:32:32-p271:32:32-p272:64:64-i128:128-f64:32:64-f80:32-n8:16:32-S128"
target triple = "i386-unknown-linux-gnu"

@minus = internal global i64 -38, align 8
@five = internal global i64 5, align 8
@most = internal global i64 -1, align 8

; Function Attrs: noinline nounwind optnone uwtable
define dso_local i32 @main() #0 {
entry:
  %retval = alloca i32, align 4
  %a = alloca i64, align 8
  store i32 0, ptr %retval, align 4
  %call = call i64 @factorial(i32 noundef 20)
  call void @number(i64 noundef %call)
  call void @gap(i32 noundef 1)
  %0 = load volatile i64, ptr @minus, align 8
  %1 = load volatile i64, ptr @five, align 8
  %div = sdiv i64 %0, %1
  call void @signed_number(i64 noundef %div)
  call void @gap(i32 noundef 0)
  %2 = load volatile i64, ptr @minus, align 8
  %3 = load volatile i64, ptr @five, align 8
  %rem = srem i64 %2, %3
  call void @signed_number(i64 noundef %rem)
  call void @gap(i32 noundef 0)
  %4 = load volatile i64, ptr @most, align 8
  %rem1 = urem i64 %4, 10
  %add = add nsw i64 %rem1, 4
  call void @signed_number(i64 noundef %add)
  call void @gap(i32 noundef 0)
  %5 = load volatile i64, ptr @most, align 8
  %div2 = udiv i64 %5, 3
  call void @number(i64 noundef %div2)
  call void @gap(i32 noundef 1)
  %6 = load volatile i64, ptr @minus, align 8
  %shr = ashr i64 %6, 40
  call void @signed_number(i64 noundef %shr)
  call void @gap(i32 noundef 0)
  %7 = load volatile i64, ptr @most, align 8
  %shr3 = lshr i64 %7, 63
  call void @number(i64 noundef %shr3)
  call void @gap(i32 noundef 0)
  %8 = load volatile i64, ptr @most, align 8
  %shr4 = lshr i64 %8, 32
  %add5 = add i64 %shr4, 1
  %shr6 = lshr i64 %add5, 16
  call void @number(i64 noundef %shr6)
  call void @gap(i32 noundef 1)
  store i64 1000000000000000, ptr %a, align 8
  %9 = load i64, ptr %a, align 8
  %10 = load i64, ptr %a, align 8
  %call7 = call i64 @high(i64 noundef %9, i64 noundef %10)
  call void @number(i64 noundef %call7)
  call void @gap(i32 noundef 0)
  %11 = load i64, ptr %a, align 8
  %12 = load i64, ptr %a, align 8
  %mul = mul i64 %11, %12
  call void @number(i64 noundef %mul)
  call void @gap(i32 noundef 1)
  %call8 = call i64 @factorial(i32 noundef 20)
  %call9 = call i64 @factorial(i32 noundef 19)
  %div10 = udiv i64 %call8, %call9
  %conv = trunc i64 %div10 to i32
  %mul11 = mul nsw i32 %conv, 2
  %add12 = add nsw i32 %mul11, 2
  ret i32 %add12
}

; Function Attrs: noinline nounwind optnone uwtable
define internal void @number(i64 noundef %n) #0 {
entry:
  %n.addr = alloca i64, align 8
  store i64 %n, ptr %n.addr, align 8
  %0 = load i64, ptr %n.addr, align 8
  %cmp = icmp uge i64 %0, 10
  br i1 %cmp, label %if.then, label %if.end

if.then:                                          ; preds = %entry
  %1 = load i64, ptr %n.addr, align 8
  %div = udiv i64 %1, 10
  call void @number(i64 noundef %div)
  br label %if.end

if.end:                                           ; preds = %if.then, %entry
  %2 = load i64, ptr %n.addr, align 8
  %rem = urem i64 %2, 10
  %conv = trunc i64 %rem to i32
  %add = add nsw i32 48, %conv
  %call = call i32 @putchar(i32 noundef %add)
  ret void
}

; Function Attrs: noinline nounwind optnone uwtable
define internal i64 @factorial(i32 noundef %n) #0 {
entry:
  %n.addr = alloca i32, align 4
  %product = alloca i64, align 8
  %i = alloca i32, align 4
  store i32 %n, ptr %n.addr, align 4
  store i64 1, ptr %product, align 8
  store i32 2, ptr %i, align 4
  br label %for.cond

for.cond:                                         ; preds = %for.inc, %entry
  %0 = load i32, ptr %i, align 4
  %1 = load i32, ptr %n.addr, align 4
  %cmp = icmp ule i32 %0, %1
  br i1 %cmp, label %for.body, label %for.end

for.body:                                         ; preds = %for.cond
  %2 = load i32, ptr %i, align 4
  %conv = zext i32 %2 to i64
  %3 = load i64, ptr %product, align 8
  %mul = mul i64 %3, %conv
  store i64 %mul, ptr %product, align 8
  br label %for.inc

for.inc:                                          ; preds = %for.body
  %4 = load i32, ptr %i, align 4
  %inc = add i32 %4, 1
  store i32 %inc, ptr %i, align 4
  br label %for.cond, !llvm.loop !7

for.end:                                          ; preds = %for.cond
  %5 = load i64, ptr %product, align 8
  ret i64 %5
}

; Function Attrs: noinline nounwind optnone uwtable
define internal void @gap(i32 noundef %last) #0 {
entry:
  %last.addr = alloca i32, align 4
  store i32 %last, ptr %last.addr, align 4
  %0 = load i32, ptr %last.addr, align 4
  %tobool = icmp ne i32 %0, 0
  %1 = zext i1 %tobool to i64
  %cond = select i1 %tobool, i32 10, i32 32
  %call = call i32 @putchar(i32 noundef %cond)
  ret void
}

; Function Attrs: noinline nounwind optnone uwtable
define internal void @signed_number(i64 noundef %n) #0 {
entry:
  %n.addr = alloca i64, align 8
  store i64 %n, ptr %n.addr, align 8
  %0 = load i64, ptr %n.addr, align 8
  %cmp = icmp slt i64 %0, 0
  br i1 %cmp, label %if.then, label %if.else

if.then:                                          ; preds = %entry
  %call = call i32 @putchar(i32 noundef 45)
  %1 = load i64, ptr %n.addr, align 8
  %sub = sub i64 0, %1
  call void @number(i64 noundef %sub)
  br label %if.end

if.else:                                          ; preds = %entry
  %2 = load i64, ptr %n.addr, align 8
  call void @number(i64 noundef %2)
  br label %if.end

if.end:                                           ; preds = %if.else, %if.then
  ret void
}

; Function Attrs: noinline nounwind optnone uwtable
define internal i64 @high(i64 noundef %a, i64 noundef %b) #0 {
entry:
  %a.addr = alloca i64, align 8
  %b.addr = alloca i64, align 8
  %a0 = alloca i64, align 8
  %a1 = alloca i64, align 8
  %b0 = alloca i64, align 8
  %b1 = alloca i64, align 8
  %middle = alloca i64, align 8
  %other = alloca i64, align 8
  store i64 %a, ptr %a.addr, align 8
  store i64 %b, ptr %b.addr, align 8
  %0 = load i64, ptr %a.addr, align 8
  %conv = trunc i64 %0 to i32
  %conv1 = zext i32 %conv to i64
  store i64 %conv1, ptr %a0, align 8
  %1 = load i64, ptr %a.addr, align 8
  %shr = lshr i64 %1, 32
  store i64 %shr, ptr %a1, align 8
  %2 = load i64, ptr %b.addr, align 8
  %conv2 = trunc i64 %2 to i32
  %conv3 = zext i32 %conv2 to i64
  store i64 %conv3, ptr %b0, align 8
  %3 = load i64, ptr %b.addr, align 8
  %shr4 = lshr i64 %3, 32
  store i64 %shr4, ptr %b1, align 8
  %4 = load i64, ptr %a1, align 8
  %5 = load i64, ptr %b0, align 8
  %mul = mul i64 %4, %5
  %6 = load i64, ptr %a0, align 8
  %7 = load i64, ptr %b0, align 8
  %mul5 = mul i64 %6, %7
  %shr6 = lshr i64 %mul5, 32
  %add = add i64 %mul, %shr6
  store i64 %add, ptr %middle, align 8
  %8 = load i64, ptr %a0, align 8
  %9 = load i64, ptr %b1, align 8
  %mul7 = mul i64 %8, %9
  %10 = load i64, ptr %middle, align 8
  %conv8 = trunc i64 %10 to i32
  %conv9 = zext i32 %conv8 to i64
  %add10 = add i64 %mul7, %conv9
  store i64 %add10, ptr %other, align 8
  %11 = load i64, ptr %a1, align 8
  %12 = load i64, ptr %b1, align 8
  %mul11 = mul i64 %11, %12
  %13 = load i64, ptr %middle, align 8
  %shr12 = lshr i64 %13, 32
  %add13 = add i64 %mul11, %shr12
  %14 = load i64, ptr %other, align 8
  %shr14 = lshr i64 %14, 32
  %add15 = add i64 %add13, %shr14
  ret i64 %add15
}

declare i32 @putchar(i32 noundef) #1

attributes #0 = { noinline nounwind optnone uwtable "frame-pointer"="all" "min-legal-vector-width"="0" "no-trapping-math"="true" "stack-protector-buffer-size"="8" "target-cpu"="i686" "target-features"="+cmov,+cx8,+x87" "tune-cpu"="generic" }
attributes #1 = { "frame-pointer"="all" "no-trapping-math"="true" "stack-protector-buffer-size"="8" "target-cpu"="i686" "target-features"="+cmov,+cx8,+x87" "tune-cpu"="generic" }

!llvm.module.flags = !{!0, !1, !2, !3, !4, !5}
!llvm.ident = !{!6}

!0 = !{i32 1, !"NumRegisterParameters", i32 0}
!1 = !{i32 1, !"wchar_size", i32 4}
!2 = !{i32 8, !"PIC Level", i32 2}
!3 = !{i32 7, !"PIE Level", i32 2}
!4 = !{i32 7, !"uwtable", i32 2}
!5 = !{i32 7, !"frame-pointer", i32 2}
!6 = !{!"Debian clang version 19.1.7 (3~deb12u1)"}
!7 = distinct !{!7, !8}
!8 = !{!"llvm.loop.mustprogress"}
