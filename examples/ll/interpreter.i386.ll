; ModuleID = 'interpreter.c'
source_filename = "interpreter.c"
target datalayout = "e-m:e-p:32:32-p270:32:32-p271:32:32-p272:64:64-i128:128-f64:32:64-f80:32-n8:16:32-S128"
target triple = "i386-unknown-linux-gnu"

%struct.machine = type { [16 x i32], i32, i32, i32 }

@program = internal constant [35 x i16] [i16 0, i16 1, i16 1, i16 8, i16 0, i16 32, i16 9, i16 0, i16 3, i16 4, i16 1, i16 0, i16 1000, i16 5, i16 6, i16 2, i16 2, i16 0, i16 10, i16 9, i16 0, i16 0, i16 1, i16 10, i16 9, i16 0, i16 1, i16 3, i16 1, i16 0, i16 5, i16 5, i16 6, i16 22, i16 11], align 2
@letters = internal constant [6 x i8] c"halt\0A\00", align 1

; Function Attrs: noinline nounwind optnone uwtable
define dso_local i32 @main() #0 {
entry:
  %retval = alloca i32, align 4
  %m = alloca %struct.machine, align 4
  store i32 0, ptr %retval, align 4
  call void @llvm.memset.p0.i32(ptr align 4 %m, i8 0, i32 76, i1 false)
  br label %while.cond

while.cond:                                       ; preds = %while.body, %entry
  %call = call i32 @step(ptr noundef %m)
  %tobool = icmp ne i32 %call, 0
  br i1 %tobool, label %while.body, label %while.end

while.body:                                       ; preds = %while.cond
  br label %while.cond, !llvm.loop !7

while.end:                                        ; preds = %while.cond
  %done = getelementptr inbounds %struct.machine, ptr %m, i32 0, i32 3
  %0 = load i32, ptr %done, align 4
  %sub = sub nsw i32 %0, 50
  ret i32 %sub
}

; Function Attrs: nocallback nofree nounwind willreturn memory(argmem: write)
declare void @llvm.memset.p0.i32(ptr nocapture writeonly, i8, i32, i1 immarg) #1

; Function Attrs: noinline nounwind optnone uwtable
define internal i32 @step(ptr noundef %m) #0 {
entry:
  %retval = alloca i32, align 4
  %m.addr = alloca ptr, align 4
  %a = alloca i32, align 4
  store ptr %m, ptr %m.addr, align 4
  %0 = load ptr, ptr %m.addr, align 4
  %done = getelementptr inbounds %struct.machine, ptr %0, i32 0, i32 3
  %1 = load i32, ptr %done, align 4
  %inc = add nsw i32 %1, 1
  store i32 %inc, ptr %done, align 4
  %2 = load ptr, ptr %m.addr, align 4
  %at = getelementptr inbounds %struct.machine, ptr %2, i32 0, i32 2
  %3 = load i32, ptr %at, align 4
  %inc1 = add nsw i32 %3, 1
  store i32 %inc1, ptr %at, align 4
  %arrayidx = getelementptr inbounds [35 x i16], ptr @program, i32 0, i32 %3
  %4 = load i16, ptr %arrayidx, align 2
  %conv = sext i16 %4 to i32
  switch i32 %conv, label %sw.epilog [
    i32 0, label %sw.bb
    i32 1, label %sw.bb6
    i32 2, label %sw.bb7
    i32 3, label %sw.bb9
    i32 4, label %sw.bb12
    i32 5, label %sw.bb15
    i32 6, label %sw.bb19
    i32 7, label %sw.bb26
    i32 8, label %sw.bb31
    i32 9, label %sw.bb33
    i32 10, label %sw.bb36
    i32 11, label %sw.bb40
  ]

sw.bb:                                            ; preds = %entry
  %5 = load ptr, ptr %m.addr, align 4
  %6 = load ptr, ptr %m.addr, align 4
  %at2 = getelementptr inbounds %struct.machine, ptr %6, i32 0, i32 2
  %7 = load i32, ptr %at2, align 4
  %inc3 = add nsw i32 %7, 1
  store i32 %inc3, ptr %at2, align 4
  %arrayidx4 = getelementptr inbounds [35 x i16], ptr @program, i32 0, i32 %7
  %8 = load i16, ptr %arrayidx4, align 2
  %conv5 = sext i16 %8 to i32
  call void @push(ptr noundef %5, i32 noundef %conv5)
  br label %sw.epilog

sw.bb6:                                           ; preds = %entry
  %9 = load ptr, ptr %m.addr, align 4
  %call = call i32 @pop(ptr noundef %9)
  store i32 %call, ptr %a, align 4
  %10 = load ptr, ptr %m.addr, align 4
  %11 = load i32, ptr %a, align 4
  call void @push(ptr noundef %10, i32 noundef %11)
  %12 = load ptr, ptr %m.addr, align 4
  %13 = load i32, ptr %a, align 4
  call void @push(ptr noundef %12, i32 noundef %13)
  br label %sw.epilog

sw.bb7:                                           ; preds = %entry
  %14 = load ptr, ptr %m.addr, align 4
  %call8 = call i32 @pop(ptr noundef %14)
  br label %sw.epilog

sw.bb9:                                           ; preds = %entry
  %15 = load ptr, ptr %m.addr, align 4
  %call10 = call i32 @pop(ptr noundef %15)
  store i32 %call10, ptr %a, align 4
  %16 = load ptr, ptr %m.addr, align 4
  %17 = load ptr, ptr %m.addr, align 4
  %call11 = call i32 @pop(ptr noundef %17)
  %18 = load i32, ptr %a, align 4
  %add = add nsw i32 %call11, %18
  call void @push(ptr noundef %16, i32 noundef %add)
  br label %sw.epilog

sw.bb12:                                          ; preds = %entry
  %19 = load ptr, ptr %m.addr, align 4
  %call13 = call i32 @pop(ptr noundef %19)
  store i32 %call13, ptr %a, align 4
  %20 = load ptr, ptr %m.addr, align 4
  %21 = load ptr, ptr %m.addr, align 4
  %call14 = call i32 @pop(ptr noundef %21)
  %22 = load i32, ptr %a, align 4
  %mul = mul nsw i32 %call14, %22
  call void @push(ptr noundef %20, i32 noundef %mul)
  br label %sw.epilog

sw.bb15:                                          ; preds = %entry
  %23 = load ptr, ptr %m.addr, align 4
  %call16 = call i32 @pop(ptr noundef %23)
  store i32 %call16, ptr %a, align 4
  %24 = load ptr, ptr %m.addr, align 4
  %25 = load ptr, ptr %m.addr, align 4
  %call17 = call i32 @pop(ptr noundef %25)
  %26 = load i32, ptr %a, align 4
  %cmp = icmp slt i32 %call17, %26
  %conv18 = zext i1 %cmp to i32
  call void @push(ptr noundef %24, i32 noundef %conv18)
  br label %sw.epilog

sw.bb19:                                          ; preds = %entry
  %27 = load ptr, ptr %m.addr, align 4
  %at20 = getelementptr inbounds %struct.machine, ptr %27, i32 0, i32 2
  %28 = load i32, ptr %at20, align 4
  %inc21 = add nsw i32 %28, 1
  store i32 %inc21, ptr %at20, align 4
  %arrayidx22 = getelementptr inbounds [35 x i16], ptr @program, i32 0, i32 %28
  %29 = load i16, ptr %arrayidx22, align 2
  %conv23 = sext i16 %29 to i32
  store i32 %conv23, ptr %a, align 4
  %30 = load ptr, ptr %m.addr, align 4
  %call24 = call i32 @pop(ptr noundef %30)
  %tobool = icmp ne i32 %call24, 0
  br i1 %tobool, label %if.then, label %if.end

if.then:                                          ; preds = %sw.bb19
  %31 = load i32, ptr %a, align 4
  %32 = load ptr, ptr %m.addr, align 4
  %at25 = getelementptr inbounds %struct.machine, ptr %32, i32 0, i32 2
  store i32 %31, ptr %at25, align 4
  br label %if.end

if.end:                                           ; preds = %if.then, %sw.bb19
  br label %sw.epilog

sw.bb26:                                          ; preds = %entry
  %33 = load ptr, ptr %m.addr, align 4
  %at27 = getelementptr inbounds %struct.machine, ptr %33, i32 0, i32 2
  %34 = load i32, ptr %at27, align 4
  %arrayidx28 = getelementptr inbounds [35 x i16], ptr @program, i32 0, i32 %34
  %35 = load i16, ptr %arrayidx28, align 2
  %conv29 = sext i16 %35 to i32
  %36 = load ptr, ptr %m.addr, align 4
  %at30 = getelementptr inbounds %struct.machine, ptr %36, i32 0, i32 2
  store i32 %conv29, ptr %at30, align 4
  br label %sw.epilog

sw.bb31:                                          ; preds = %entry
  %37 = load ptr, ptr %m.addr, align 4
  %call32 = call i32 @pop(ptr noundef %37)
  call void @number(i32 noundef %call32)
  br label %sw.epilog

sw.bb33:                                          ; preds = %entry
  %38 = load ptr, ptr %m.addr, align 4
  %call34 = call i32 @pop(ptr noundef %38)
  %call35 = call i32 @putchar(i32 noundef %call34)
  br label %sw.epilog

sw.bb36:                                          ; preds = %entry
  %39 = load ptr, ptr %m.addr, align 4
  %40 = load ptr, ptr %m.addr, align 4
  %call37 = call i32 @pop(ptr noundef %40)
  %arrayidx38 = getelementptr inbounds [6 x i8], ptr @letters, i32 0, i32 %call37
  %41 = load i8, ptr %arrayidx38, align 1
  %conv39 = sext i8 %41 to i32
  call void @push(ptr noundef %39, i32 noundef %conv39)
  br label %sw.epilog

sw.bb40:                                          ; preds = %entry
  store i32 0, ptr %retval, align 4
  br label %return

sw.epilog:                                        ; preds = %entry, %sw.bb36, %sw.bb33, %sw.bb31, %sw.bb26, %if.end, %sw.bb15, %sw.bb12, %sw.bb9, %sw.bb7, %sw.bb6, %sw.bb
  store i32 1, ptr %retval, align 4
  br label %return

return:                                           ; preds = %sw.epilog, %sw.bb40
  %42 = load i32, ptr %retval, align 4
  ret i32 %42
}

; Function Attrs: noinline nounwind optnone uwtable
define internal void @push(ptr noundef %m, i32 noundef %n) #0 {
entry:
  %m.addr = alloca ptr, align 4
  %n.addr = alloca i32, align 4
  store ptr %m, ptr %m.addr, align 4
  store i32 %n, ptr %n.addr, align 4
  %0 = load ptr, ptr %m.addr, align 4
  %top = getelementptr inbounds %struct.machine, ptr %0, i32 0, i32 1
  %1 = load i32, ptr %top, align 4
  %cmp = icmp eq i32 %1, 16
  br i1 %cmp, label %if.then, label %if.end

if.then:                                          ; preds = %entry
  call void @abort() #4
  unreachable

if.end:                                           ; preds = %entry
  %2 = load i32, ptr %n.addr, align 4
  %3 = load ptr, ptr %m.addr, align 4
  %stack = getelementptr inbounds %struct.machine, ptr %3, i32 0, i32 0
  %4 = load ptr, ptr %m.addr, align 4
  %top1 = getelementptr inbounds %struct.machine, ptr %4, i32 0, i32 1
  %5 = load i32, ptr %top1, align 4
  %inc = add nsw i32 %5, 1
  store i32 %inc, ptr %top1, align 4
  %arrayidx = getelementptr inbounds [16 x i32], ptr %stack, i32 0, i32 %5
  store i32 %2, ptr %arrayidx, align 4
  ret void
}

; Function Attrs: noinline nounwind optnone uwtable
define internal i32 @pop(ptr noundef %m) #0 {
entry:
  %m.addr = alloca ptr, align 4
  store ptr %m, ptr %m.addr, align 4
  %0 = load ptr, ptr %m.addr, align 4
  %top = getelementptr inbounds %struct.machine, ptr %0, i32 0, i32 1
  %1 = load i32, ptr %top, align 4
  %cmp = icmp eq i32 %1, 0
  br i1 %cmp, label %if.then, label %if.end

if.then:                                          ; preds = %entry
  call void @abort() #4
  unreachable

if.end:                                           ; preds = %entry
  %2 = load ptr, ptr %m.addr, align 4
  %stack = getelementptr inbounds %struct.machine, ptr %2, i32 0, i32 0
  %3 = load ptr, ptr %m.addr, align 4
  %top1 = getelementptr inbounds %struct.machine, ptr %3, i32 0, i32 1
  %4 = load i32, ptr %top1, align 4
  %dec = add nsw i32 %4, -1
  store i32 %dec, ptr %top1, align 4
  %arrayidx = getelementptr inbounds [16 x i32], ptr %stack, i32 0, i32 %dec
  %5 = load i32, ptr %arrayidx, align 4
  ret i32 %5
}

; Function Attrs: noinline nounwind optnone uwtable
define internal void @number(i32 noundef %n) #0 {
entry:
  %n.addr = alloca i32, align 4
  store i32 %n, ptr %n.addr, align 4
  %0 = load i32, ptr %n.addr, align 4
  %cmp = icmp sge i32 %0, 10
  br i1 %cmp, label %if.then, label %if.end

if.then:                                          ; preds = %entry
  %1 = load i32, ptr %n.addr, align 4
  %div = sdiv i32 %1, 10
  call void @number(i32 noundef %div)
  br label %if.end

if.end:                                           ; preds = %if.then, %entry
  %2 = load i32, ptr %n.addr, align 4
  %rem = srem i32 %2, 10
  %add = add nsw i32 48, %rem
  %call = call i32 @putchar(i32 noundef %add)
  ret void
}

declare i32 @putchar(i32 noundef) #2

; Function Attrs: noreturn nounwind
declare void @abort() #3

attributes #0 = { noinline nounwind optnone uwtable "frame-pointer"="all" "min-legal-vector-width"="0" "no-trapping-math"="true" "stack-protector-buffer-size"="8" "target-cpu"="i686" "target-features"="+cmov,+cx8,+x87" "tune-cpu"="generic" }
attributes #1 = { nocallback nofree nounwind willreturn memory(argmem: write) }
attributes #2 = { "frame-pointer"="all" "no-trapping-math"="true" "stack-protector-buffer-size"="8" "target-cpu"="i686" "target-features"="+cmov,+cx8,+x87" "tune-cpu"="generic" }
attributes #3 = { noreturn nounwind "frame-pointer"="all" "no-trapping-math"="true" "stack-protector-buffer-size"="8" "target-cpu"="i686" "target-features"="+cmov,+cx8,+x87" "tune-cpu"="generic" }
attributes #4 = { noreturn nounwind }

!llvm.module.flags = !{!0, !1, !2, !3, !4, !5}
!llvm.ident = !{!6}

!0 = !{i32 1, !"NumRegisterParameters", i32 0}
!1 = !{i32 1, !"wchar_size", i32 4}
!2 = !{i32 8, !"PIC Level", i32 2}
!3 = !{i32 7, !"PIE Level", i32 2}
!4 = !{i32 7, !"uwtable", i32 2}
!5 = !{i32 7, !"frame-pointer", i32 2}
!6 = !{!"Debian clang version 19.1.7 (3~deb12u1)"}
!7 = distinct !{!7, !8}
!8 = !{!"llvm.loop.mustprogress"}
