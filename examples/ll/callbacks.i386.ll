; ModuleID = 'callbacks.c'
source_filename = "callbacks.c"
target datalayout = "e-m:e-p:32:32-p270:32:32-p271:32:32-p272:64:64-i128:128-f64:32:64-f80:32-n8:16:32-S128"
target triple = "i386-unknown-linux-gnu"

@__const.main.numbers = private unnamed_addr constant [6 x i32] [i32 1, i32 2, i32 3, i32 4, i32 5, i32 6], align 4
@table = internal constant [5 x ptr] [ptr @add, ptr @sub, ptr @mul, ptr @quotient, ptr @rest], align 4

; Function Attrs: noinline nounwind optnone uwtable
define dso_local i32 @main() #0 {
entry:
  %retval = alloca i32, align 4
  %results = alloca [5 x i32], align 4
  %numbers = alloca [6 x i32], align 4
  %squares = alloca [6 x i32], align 4
  %i = alloca i32, align 4
  %all = alloca i32, align 4
  store i32 0, ptr %retval, align 4
  call void @llvm.memcpy.p0.p0.i32(ptr align 4 %numbers, ptr align 4 @__const.main.numbers, i32 24, i1 false)
  store i32 0, ptr %i, align 4
  br label %for.cond

for.cond:                                         ; preds = %for.inc, %entry
  %0 = load i32, ptr %i, align 4
  %cmp = icmp slt i32 %0, 5
  br i1 %cmp, label %for.body, label %for.end

for.body:                                         ; preds = %for.cond
  %1 = load i32, ptr %i, align 4
  %arrayidx = getelementptr inbounds [5 x ptr], ptr @table, i32 0, i32 %1
  %2 = load ptr, ptr %arrayidx, align 4
  %call = call i32 %2(i32 noundef 8, i32 noundef 4)
  %3 = load i32, ptr %i, align 4
  %arrayidx1 = getelementptr inbounds [5 x i32], ptr %results, i32 0, i32 %3
  store i32 %call, ptr %arrayidx1, align 4
  br label %for.inc

for.inc:                                          ; preds = %for.body
  %4 = load i32, ptr %i, align 4
  %inc = add nsw i32 %4, 1
  store i32 %inc, ptr %i, align 4
  br label %for.cond, !llvm.loop !7

for.end:                                          ; preds = %for.cond
  %arraydecay = getelementptr inbounds [5 x i32], ptr %results, i32 0, i32 0
  call void @show(ptr noundef %arraydecay, i32 noundef 5)
  %arraydecay2 = getelementptr inbounds [6 x i32], ptr %squares, i32 0, i32 0
  %arraydecay3 = getelementptr inbounds [6 x i32], ptr %numbers, i32 0, i32 0
  call void @map(ptr noundef %arraydecay2, ptr noundef %arraydecay3, i32 noundef 6, ptr noundef @square)
  %arraydecay4 = getelementptr inbounds [6 x i32], ptr %squares, i32 0, i32 0
  call void @show(ptr noundef %arraydecay4, i32 noundef 6)
  %arraydecay5 = getelementptr inbounds [6 x i32], ptr %squares, i32 0, i32 0
  %call6 = call i32 @fold(ptr noundef %arraydecay5, i32 noundef 6, i32 noundef 0, ptr noundef @add)
  store i32 %call6, ptr %all, align 4
  call void @show(ptr noundef %all, i32 noundef 1)
  %arraydecay7 = getelementptr inbounds [6 x i32], ptr %numbers, i32 0, i32 0
  call void @sort(ptr noundef %arraydecay7, i32 noundef 6, ptr noundef @later)
  %arraydecay8 = getelementptr inbounds [6 x i32], ptr %numbers, i32 0, i32 0
  call void @show(ptr noundef %arraydecay8, i32 noundef 6)
  %5 = load i32, ptr %all, align 4
  ret i32 %5
}

; Function Attrs: nocallback nofree nounwind willreturn memory(argmem: readwrite)
declare void @llvm.memcpy.p0.p0.i32(ptr noalias nocapture writeonly, ptr noalias nocapture readonly, i32, i1 immarg) #1

; Function Attrs: noinline nounwind optnone uwtable
define internal void @show(ptr noundef %a, i32 noundef %n) #0 {
entry:
  %a.addr = alloca ptr, align 4
  %n.addr = alloca i32, align 4
  %i = alloca i32, align 4
  store ptr %a, ptr %a.addr, align 4
  store i32 %n, ptr %n.addr, align 4
  store i32 0, ptr %i, align 4
  br label %for.cond

for.cond:                                         ; preds = %for.inc, %entry
  %0 = load i32, ptr %i, align 4
  %1 = load i32, ptr %n.addr, align 4
  %cmp = icmp slt i32 %0, %1
  br i1 %cmp, label %for.body, label %for.end

for.body:                                         ; preds = %for.cond
  %2 = load ptr, ptr %a.addr, align 4
  %3 = load i32, ptr %i, align 4
  %arrayidx = getelementptr inbounds i32, ptr %2, i32 %3
  %4 = load i32, ptr %arrayidx, align 4
  call void @number(i32 noundef %4)
  %5 = load i32, ptr %i, align 4
  %add = add nsw i32 %5, 1
  %6 = load i32, ptr %n.addr, align 4
  %cmp1 = icmp slt i32 %add, %6
  %7 = zext i1 %cmp1 to i64
  %cond = select i1 %cmp1, i32 32, i32 10
  %call = call i32 @putchar(i32 noundef %cond)
  br label %for.inc

for.inc:                                          ; preds = %for.body
  %8 = load i32, ptr %i, align 4
  %inc = add nsw i32 %8, 1
  store i32 %inc, ptr %i, align 4
  br label %for.cond, !llvm.loop !9

for.end:                                          ; preds = %for.cond
  ret void
}

; Function Attrs: noinline nounwind optnone uwtable
define internal void @map(ptr noundef %to, ptr noundef %from, i32 noundef %n, ptr noundef %f) #0 {
entry:
  %to.addr = alloca ptr, align 4
  %from.addr = alloca ptr, align 4
  %n.addr = alloca i32, align 4
  %f.addr = alloca ptr, align 4
  %i = alloca i32, align 4
  store ptr %to, ptr %to.addr, align 4
  store ptr %from, ptr %from.addr, align 4
  store i32 %n, ptr %n.addr, align 4
  store ptr %f, ptr %f.addr, align 4
  store i32 0, ptr %i, align 4
  br label %for.cond

for.cond:                                         ; preds = %for.inc, %entry
  %0 = load i32, ptr %i, align 4
  %1 = load i32, ptr %n.addr, align 4
  %cmp = icmp slt i32 %0, %1
  br i1 %cmp, label %for.body, label %for.end

for.body:                                         ; preds = %for.cond
  %2 = load ptr, ptr %f.addr, align 4
  %3 = load ptr, ptr %from.addr, align 4
  %4 = load i32, ptr %i, align 4
  %arrayidx = getelementptr inbounds i32, ptr %3, i32 %4
  %5 = load i32, ptr %arrayidx, align 4
  %call = call i32 %2(i32 noundef %5)
  %6 = load ptr, ptr %to.addr, align 4
  %7 = load i32, ptr %i, align 4
  %arrayidx1 = getelementptr inbounds i32, ptr %6, i32 %7
  store i32 %call, ptr %arrayidx1, align 4
  br label %for.inc

for.inc:                                          ; preds = %for.body
  %8 = load i32, ptr %i, align 4
  %inc = add nsw i32 %8, 1
  store i32 %inc, ptr %i, align 4
  br label %for.cond, !llvm.loop !10

for.end:                                          ; preds = %for.cond
  ret void
}

; Function Attrs: noinline nounwind optnone uwtable
define internal i32 @square(i32 noundef %a) #0 {
entry:
  %a.addr = alloca i32, align 4
  store i32 %a, ptr %a.addr, align 4
  %0 = load i32, ptr %a.addr, align 4
  %1 = load i32, ptr %a.addr, align 4
  %mul = mul nsw i32 %0, %1
  ret i32 %mul
}

; Function Attrs: noinline nounwind optnone uwtable
define internal i32 @fold(ptr noundef %a, i32 noundef %n, i32 noundef %start, ptr noundef %f) #0 {
entry:
  %a.addr = alloca ptr, align 4
  %n.addr = alloca i32, align 4
  %start.addr = alloca i32, align 4
  %f.addr = alloca ptr, align 4
  store ptr %a, ptr %a.addr, align 4
  store i32 %n, ptr %n.addr, align 4
  store i32 %start, ptr %start.addr, align 4
  store ptr %f, ptr %f.addr, align 4
  br label %while.cond

while.cond:                                       ; preds = %while.body, %entry
  %0 = load i32, ptr %n.addr, align 4
  %dec = add nsw i32 %0, -1
  store i32 %dec, ptr %n.addr, align 4
  %tobool = icmp ne i32 %0, 0
  br i1 %tobool, label %while.body, label %while.end

while.body:                                       ; preds = %while.cond
  %1 = load ptr, ptr %f.addr, align 4
  %2 = load i32, ptr %start.addr, align 4
  %3 = load ptr, ptr %a.addr, align 4
  %incdec.ptr = getelementptr inbounds i32, ptr %3, i32 1
  store ptr %incdec.ptr, ptr %a.addr, align 4
  %4 = load i32, ptr %3, align 4
  %call = call i32 %1(i32 noundef %2, i32 noundef %4)
  store i32 %call, ptr %start.addr, align 4
  br label %while.cond, !llvm.loop !11

while.end:                                        ; preds = %while.cond
  %5 = load i32, ptr %start.addr, align 4
  ret i32 %5
}

; Function Attrs: noinline nounwind optnone uwtable
define internal i32 @add(i32 noundef %a, i32 noundef %b) #0 {
entry:
  %a.addr = alloca i32, align 4
  %b.addr = alloca i32, align 4
  store i32 %a, ptr %a.addr, align 4
  store i32 %b, ptr %b.addr, align 4
  %0 = load i32, ptr %a.addr, align 4
  %1 = load i32, ptr %b.addr, align 4
  %add = add nsw i32 %0, %1
  ret i32 %add
}

; Function Attrs: noinline nounwind optnone uwtable
define internal void @sort(ptr noundef %a, i32 noundef %n, ptr noundef %wrong) #0 {
entry:
  %a.addr = alloca ptr, align 4
  %n.addr = alloca i32, align 4
  %wrong.addr = alloca ptr, align 4
  %i = alloca i32, align 4
  %j = alloca i32, align 4
  %t = alloca i32, align 4
  store ptr %a, ptr %a.addr, align 4
  store i32 %n, ptr %n.addr, align 4
  store ptr %wrong, ptr %wrong.addr, align 4
  store i32 0, ptr %i, align 4
  br label %for.cond

for.cond:                                         ; preds = %for.inc12, %entry
  %0 = load i32, ptr %i, align 4
  %1 = load i32, ptr %n.addr, align 4
  %cmp = icmp slt i32 %0, %1
  br i1 %cmp, label %for.body, label %for.end14

for.body:                                         ; preds = %for.cond
  store i32 0, ptr %j, align 4
  br label %for.cond1

for.cond1:                                        ; preds = %for.inc, %for.body
  %2 = load i32, ptr %j, align 4
  %add = add nsw i32 %2, 1
  %3 = load i32, ptr %n.addr, align 4
  %cmp2 = icmp slt i32 %add, %3
  br i1 %cmp2, label %for.body3, label %for.end

for.body3:                                        ; preds = %for.cond1
  %4 = load ptr, ptr %wrong.addr, align 4
  %5 = load ptr, ptr %a.addr, align 4
  %6 = load i32, ptr %j, align 4
  %arrayidx = getelementptr inbounds i32, ptr %5, i32 %6
  %7 = load i32, ptr %arrayidx, align 4
  %8 = load ptr, ptr %a.addr, align 4
  %9 = load i32, ptr %j, align 4
  %add4 = add nsw i32 %9, 1
  %arrayidx5 = getelementptr inbounds i32, ptr %8, i32 %add4
  %10 = load i32, ptr %arrayidx5, align 4
  %call = call i32 %4(i32 noundef %7, i32 noundef %10)
  %tobool = icmp ne i32 %call, 0
  br i1 %tobool, label %if.then, label %if.end

if.then:                                          ; preds = %for.body3
  %11 = load ptr, ptr %a.addr, align 4
  %12 = load i32, ptr %j, align 4
  %arrayidx6 = getelementptr inbounds i32, ptr %11, i32 %12
  %13 = load i32, ptr %arrayidx6, align 4
  store i32 %13, ptr %t, align 4
  %14 = load ptr, ptr %a.addr, align 4
  %15 = load i32, ptr %j, align 4
  %add7 = add nsw i32 %15, 1
  %arrayidx8 = getelementptr inbounds i32, ptr %14, i32 %add7
  %16 = load i32, ptr %arrayidx8, align 4
  %17 = load ptr, ptr %a.addr, align 4
  %18 = load i32, ptr %j, align 4
  %arrayidx9 = getelementptr inbounds i32, ptr %17, i32 %18
  store i32 %16, ptr %arrayidx9, align 4
  %19 = load i32, ptr %t, align 4
  %20 = load ptr, ptr %a.addr, align 4
  %21 = load i32, ptr %j, align 4
  %add10 = add nsw i32 %21, 1
  %arrayidx11 = getelementptr inbounds i32, ptr %20, i32 %add10
  store i32 %19, ptr %arrayidx11, align 4
  br label %if.end

if.end:                                           ; preds = %if.then, %for.body3
  br label %for.inc

for.inc:                                          ; preds = %if.end
  %22 = load i32, ptr %j, align 4
  %inc = add nsw i32 %22, 1
  store i32 %inc, ptr %j, align 4
  br label %for.cond1, !llvm.loop !12

for.end:                                          ; preds = %for.cond1
  br label %for.inc12

for.inc12:                                        ; preds = %for.end
  %23 = load i32, ptr %i, align 4
  %inc13 = add nsw i32 %23, 1
  store i32 %inc13, ptr %i, align 4
  br label %for.cond, !llvm.loop !13

for.end14:                                        ; preds = %for.cond
  ret void
}

; Function Attrs: noinline nounwind optnone uwtable
define internal i32 @later(i32 noundef %a, i32 noundef %b) #0 {
entry:
  %a.addr = alloca i32, align 4
  %b.addr = alloca i32, align 4
  store i32 %a, ptr %a.addr, align 4
  store i32 %b, ptr %b.addr, align 4
  %0 = load i32, ptr %b.addr, align 4
  %1 = load i32, ptr %a.addr, align 4
  %cmp = icmp sgt i32 %0, %1
  %conv = zext i1 %cmp to i32
  ret i32 %conv
}

; Function Attrs: noinline nounwind optnone uwtable
define internal i32 @sub(i32 noundef %a, i32 noundef %b) #0 {
entry:
  %a.addr = alloca i32, align 4
  %b.addr = alloca i32, align 4
  store i32 %a, ptr %a.addr, align 4
  store i32 %b, ptr %b.addr, align 4
  %0 = load i32, ptr %a.addr, align 4
  %1 = load i32, ptr %b.addr, align 4
  %sub = sub nsw i32 %0, %1
  ret i32 %sub
}

; Function Attrs: noinline nounwind optnone uwtable
define internal i32 @mul(i32 noundef %a, i32 noundef %b) #0 {
entry:
  %a.addr = alloca i32, align 4
  %b.addr = alloca i32, align 4
  store i32 %a, ptr %a.addr, align 4
  store i32 %b, ptr %b.addr, align 4
  %0 = load i32, ptr %a.addr, align 4
  %1 = load i32, ptr %b.addr, align 4
  %mul = mul nsw i32 %0, %1
  ret i32 %mul
}

; Function Attrs: noinline nounwind optnone uwtable
define internal i32 @quotient(i32 noundef %a, i32 noundef %b) #0 {
entry:
  %a.addr = alloca i32, align 4
  %b.addr = alloca i32, align 4
  store i32 %a, ptr %a.addr, align 4
  store i32 %b, ptr %b.addr, align 4
  %0 = load i32, ptr %a.addr, align 4
  %1 = load i32, ptr %b.addr, align 4
  %div = sdiv i32 %0, %1
  ret i32 %div
}

; Function Attrs: noinline nounwind optnone uwtable
define internal i32 @rest(i32 noundef %a, i32 noundef %b) #0 {
entry:
  %a.addr = alloca i32, align 4
  %b.addr = alloca i32, align 4
  store i32 %a, ptr %a.addr, align 4
  store i32 %b, ptr %b.addr, align 4
  %0 = load i32, ptr %a.addr, align 4
  %1 = load i32, ptr %b.addr, align 4
  %rem = srem i32 %0, %1
  ret i32 %rem
}

; Function Attrs: noinline nounwind optnone uwtable
define internal void @number(i32 noundef %n) #0 {
entry:
  %n.addr = alloca i32, align 4
  store i32 %n, ptr %n.addr, align 4
  %0 = load i32, ptr %n.addr, align 4
  %cmp = icmp sge i32 %0, 10
  br i1 %cmp, label %if.then, label %if.end

if.then:                                          ; preds = %entry
  %1 = load i32, ptr %n.addr, align 4
  %div = sdiv i32 %1, 10
  call void @number(i32 noundef %div)
  br label %if.end

if.end:                                           ; preds = %if.then, %entry
  %2 = load i32, ptr %n.addr, align 4
  %rem = srem i32 %2, 10
  %add = add nsw i32 48, %rem
  %call = call i32 @putchar(i32 noundef %add)
  ret void
}

declare i32 @putchar(i32 noundef) #2

attributes #0 = { noinline nounwind optnone uwtable "frame-pointer"="all" "min-legal-vector-width"="0" "no-trapping-math"="true" "stack-protector-buffer-size"="8" "target-cpu"="i686" "target-features"="+cmov,+cx8,+x87" "tune-cpu"="generic" }
attributes #1 = { nocallback nofree nounwind willreturn memory(argmem: readwrite) }
attributes #2 = { "frame-pointer"="all" "no-trapping-math"="true" "stack-protector-buffer-size"="8" "target-cpu"="i686" "target-features"="+cmov,+cx8,+x87" "tune-cpu"="generic" }

!llvm.module.flags = !{!0, !1, !2, !3, !4, !5}
!llvm.ident = !{!6}

!0 = !{i32 1, !"NumRegisterParameters", i32 0}
!1 = !{i32 1, !"wchar_size", i32 4}
!2 = !{i32 8, !"PIC Level", i32 2}
!3 = !{i32 7, !"PIE Level", i32 2}
!4 = !{i32 7, !"uwtable", i32 2}
!5 = !{i32 7, !"frame-pointer", i32 2}
!6 = !{!"Debian clang version 19.1.7 (3~deb12u1)"}
!7 = distinct !{!7, !8}
!8 = !{!"llvm.loop.mustprogress"}
!9 = distinct !{!9, !8}
!10 = distinct !{!10, !8}
!11 = distinct !{!11, !8}
!12 = distinct !{!12, !8}
!13 = distinct !{!13, !8}
