; ModuleID = 'calculator.c'
source_filename = "calculator.c"
target datalayout = "e-m:e-p:32:32-p270:32:32-p271:32:32-p272:64:64-i128:128-f64:32:64-f80:32-n8:16:32-S128"
target triple = "i386-unknown-linux-gnu"

%struct.reader = type { i32, i8 }

@.str = private unnamed_addr constant [6 x i8] c"error\00", align 1

; Function Attrs: noinline nounwind optnone uwtable
define dso_local i32 @main() #0 {
entry:
  %retval = alloca i32, align 4
  %r = alloca %struct.reader, align 4
  %lines = alloca i32, align 4
  %n = alloca i32, align 4
  store i32 0, ptr %retval, align 4
  store i32 0, ptr %lines, align 4
  %call = call i32 @getchar()
  %next = getelementptr inbounds %struct.reader, ptr %r, i32 0, i32 0
  store i32 %call, ptr %next, align 4
  br label %for.cond

for.cond:                                         ; preds = %for.inc, %entry
  %next1 = getelementptr inbounds %struct.reader, ptr %r, i32 0, i32 0
  %0 = load i32, ptr %next1, align 4
  %cmp = icmp sge i32 %0, 0
  br i1 %cmp, label %for.body, label %for.end

for.body:                                         ; preds = %for.cond
  %wrong = getelementptr inbounds %struct.reader, ptr %r, i32 0, i32 1
  store i8 0, ptr %wrong, align 4
  %call2 = call i32 @sum(ptr noundef %r)
  store i32 %call2, ptr %n, align 4
  %wrong3 = getelementptr inbounds %struct.reader, ptr %r, i32 0, i32 1
  %1 = load i8, ptr %wrong3, align 4
  %loadedv = trunc i8 %1 to i1
  br i1 %loadedv, label %if.then, label %lor.lhs.false

lor.lhs.false:                                    ; preds = %for.body
  %next4 = getelementptr inbounds %struct.reader, ptr %r, i32 0, i32 0
  %2 = load i32, ptr %next4, align 4
  %cmp5 = icmp ne i32 %2, 10
  br i1 %cmp5, label %if.then, label %if.else

if.then:                                          ; preds = %lor.lhs.false, %for.body
  %call6 = call i32 @puts(ptr noundef @.str)
  br label %if.end

if.else:                                          ; preds = %lor.lhs.false
  %3 = load i32, ptr %n, align 4
  call void @number(i32 noundef %3)
  %call7 = call i32 @putchar(i32 noundef 10)
  br label %if.end

if.end:                                           ; preds = %if.else, %if.then
  br label %for.inc

for.inc:                                          ; preds = %if.end
  %call8 = call i32 @getchar()
  %next9 = getelementptr inbounds %struct.reader, ptr %r, i32 0, i32 0
  store i32 %call8, ptr %next9, align 4
  %4 = load i32, ptr %lines, align 4
  %inc = add nsw i32 %4, 1
  store i32 %inc, ptr %lines, align 4
  br label %for.cond, !llvm.loop !7

for.end:                                          ; preds = %for.cond
  %5 = load i32, ptr %lines, align 4
  ret i32 %5
}

declare i32 @getchar() #1

; Function Attrs: noinline nounwind optnone uwtable
define internal i32 @sum(ptr noundef %r) #0 {
entry:
  %r.addr = alloca ptr, align 4
  %n = alloca i32, align 4
  %sign = alloca i32, align 4
  store ptr %r, ptr %r.addr, align 4
  %0 = load ptr, ptr %r.addr, align 4
  %call = call i32 @product(ptr noundef %0)
  store i32 %call, ptr %n, align 4
  br label %while.cond

while.cond:                                       ; preds = %cond.end, %entry
  %1 = load ptr, ptr %r.addr, align 4
  %next = getelementptr inbounds %struct.reader, ptr %1, i32 0, i32 0
  %2 = load i32, ptr %next, align 4
  %cmp = icmp eq i32 %2, 43
  br i1 %cmp, label %lor.end, label %lor.rhs

lor.rhs:                                          ; preds = %while.cond
  %3 = load ptr, ptr %r.addr, align 4
  %next1 = getelementptr inbounds %struct.reader, ptr %3, i32 0, i32 0
  %4 = load i32, ptr %next1, align 4
  %cmp2 = icmp eq i32 %4, 45
  br label %lor.end

lor.end:                                          ; preds = %lor.rhs, %while.cond
  %5 = phi i1 [ true, %while.cond ], [ %cmp2, %lor.rhs ]
  br i1 %5, label %while.body, label %while.end

while.body:                                       ; preds = %lor.end
  %6 = load ptr, ptr %r.addr, align 4
  %next3 = getelementptr inbounds %struct.reader, ptr %6, i32 0, i32 0
  %7 = load i32, ptr %next3, align 4
  store i32 %7, ptr %sign, align 4
  %call4 = call i32 @getchar()
  %8 = load ptr, ptr %r.addr, align 4
  %next5 = getelementptr inbounds %struct.reader, ptr %8, i32 0, i32 0
  store i32 %call4, ptr %next5, align 4
  %9 = load i32, ptr %sign, align 4
  %cmp6 = icmp eq i32 %9, 43
  br i1 %cmp6, label %cond.true, label %cond.false

cond.true:                                        ; preds = %while.body
  %10 = load ptr, ptr %r.addr, align 4
  %call7 = call i32 @product(ptr noundef %10)
  br label %cond.end

cond.false:                                       ; preds = %while.body
  %11 = load ptr, ptr %r.addr, align 4
  %call8 = call i32 @product(ptr noundef %11)
  %sub = sub nsw i32 0, %call8
  br label %cond.end

cond.end:                                         ; preds = %cond.false, %cond.true
  %cond = phi i32 [ %call7, %cond.true ], [ %sub, %cond.false ]
  %12 = load i32, ptr %n, align 4
  %add = add nsw i32 %12, %cond
  store i32 %add, ptr %n, align 4
  br label %while.cond, !llvm.loop !9

while.end:                                        ; preds = %lor.end
  %13 = load i32, ptr %n, align 4
  ret i32 %13
}

declare i32 @puts(ptr noundef) #1

; Function Attrs: noinline nounwind optnone uwtable
define internal void @number(i32 noundef %n) #0 {
entry:
  %n.addr = alloca i32, align 4
  store i32 %n, ptr %n.addr, align 4
  %0 = load i32, ptr %n.addr, align 4
  %cmp = icmp slt i32 %0, 0
  br i1 %cmp, label %if.then, label %if.end

if.then:                                          ; preds = %entry
  %call = call i32 @putchar(i32 noundef 45)
  br label %if.end

if.end:                                           ; preds = %if.then, %entry
  %1 = load i32, ptr %n.addr, align 4
  %cmp1 = icmp sge i32 %1, 10
  br i1 %cmp1, label %if.then3, label %lor.lhs.false

lor.lhs.false:                                    ; preds = %if.end
  %2 = load i32, ptr %n.addr, align 4
  %cmp2 = icmp sle i32 %2, -10
  br i1 %cmp2, label %if.then3, label %if.end6

if.then3:                                         ; preds = %lor.lhs.false, %if.end
  %3 = load i32, ptr %n.addr, align 4
  %cmp4 = icmp slt i32 %3, 0
  br i1 %cmp4, label %cond.true, label %cond.false

cond.true:                                        ; preds = %if.then3
  %4 = load i32, ptr %n.addr, align 4
  %div = sdiv i32 %4, 10
  %sub = sub nsw i32 0, %div
  br label %cond.end

cond.false:                                       ; preds = %if.then3
  %5 = load i32, ptr %n.addr, align 4
  %div5 = sdiv i32 %5, 10
  br label %cond.end

cond.end:                                         ; preds = %cond.false, %cond.true
  %cond = phi i32 [ %sub, %cond.true ], [ %div5, %cond.false ]
  call void @number(i32 noundef %cond)
  br label %if.end6

if.end6:                                          ; preds = %cond.end, %lor.lhs.false
  %6 = load i32, ptr %n.addr, align 4
  %cmp7 = icmp slt i32 %6, 0
  br i1 %cmp7, label %cond.true8, label %cond.false10

cond.true8:                                       ; preds = %if.end6
  %7 = load i32, ptr %n.addr, align 4
  %rem = srem i32 %7, 10
  %sub9 = sub nsw i32 0, %rem
  br label %cond.end12

cond.false10:                                     ; preds = %if.end6
  %8 = load i32, ptr %n.addr, align 4
  %rem11 = srem i32 %8, 10
  br label %cond.end12

cond.end12:                                       ; preds = %cond.false10, %cond.true8
  %cond13 = phi i32 [ %sub9, %cond.true8 ], [ %rem11, %cond.false10 ]
  %add = add nsw i32 48, %cond13
  %call14 = call i32 @putchar(i32 noundef %add)
  ret void
}

declare i32 @putchar(i32 noundef) #1

; Function Attrs: noinline nounwind optnone uwtable
define internal i32 @product(ptr noundef %r) #0 {
entry:
  %r.addr = alloca ptr, align 4
  %n = alloca i32, align 4
  %sign = alloca i32, align 4
  %m = alloca i32, align 4
  store ptr %r, ptr %r.addr, align 4
  %0 = load ptr, ptr %r.addr, align 4
  %call = call i32 @factor(ptr noundef %0)
  store i32 %call, ptr %n, align 4
  br label %while.cond

while.cond:                                       ; preds = %if.end14, %entry
  %1 = load ptr, ptr %r.addr, align 4
  %next = getelementptr inbounds %struct.reader, ptr %1, i32 0, i32 0
  %2 = load i32, ptr %next, align 4
  %cmp = icmp eq i32 %2, 42
  br i1 %cmp, label %lor.end, label %lor.lhs.false

lor.lhs.false:                                    ; preds = %while.cond
  %3 = load ptr, ptr %r.addr, align 4
  %next1 = getelementptr inbounds %struct.reader, ptr %3, i32 0, i32 0
  %4 = load i32, ptr %next1, align 4
  %cmp2 = icmp eq i32 %4, 47
  br i1 %cmp2, label %lor.end, label %lor.rhs

lor.rhs:                                          ; preds = %lor.lhs.false
  %5 = load ptr, ptr %r.addr, align 4
  %next3 = getelementptr inbounds %struct.reader, ptr %5, i32 0, i32 0
  %6 = load i32, ptr %next3, align 4
  %cmp4 = icmp eq i32 %6, 37
  br label %lor.end

lor.end:                                          ; preds = %lor.rhs, %lor.lhs.false, %while.cond
  %7 = phi i1 [ true, %lor.lhs.false ], [ true, %while.cond ], [ %cmp4, %lor.rhs ]
  br i1 %7, label %while.body, label %while.end

while.body:                                       ; preds = %lor.end
  %8 = load ptr, ptr %r.addr, align 4
  %next5 = getelementptr inbounds %struct.reader, ptr %8, i32 0, i32 0
  %9 = load i32, ptr %next5, align 4
  store i32 %9, ptr %sign, align 4
  %call6 = call i32 @getchar()
  %10 = load ptr, ptr %r.addr, align 4
  %next7 = getelementptr inbounds %struct.reader, ptr %10, i32 0, i32 0
  store i32 %call6, ptr %next7, align 4
  %11 = load ptr, ptr %r.addr, align 4
  %call8 = call i32 @factor(ptr noundef %11)
  store i32 %call8, ptr %m, align 4
  %12 = load i32, ptr %sign, align 4
  %cmp9 = icmp eq i32 %12, 42
  br i1 %cmp9, label %if.then, label %if.else

if.then:                                          ; preds = %while.body
  %13 = load i32, ptr %m, align 4
  %14 = load i32, ptr %n, align 4
  %mul = mul nsw i32 %14, %13
  store i32 %mul, ptr %n, align 4
  br label %if.end14

if.else:                                          ; preds = %while.body
  %15 = load i32, ptr %m, align 4
  %cmp10 = icmp eq i32 %15, 0
  br i1 %cmp10, label %if.then11, label %if.else12

if.then11:                                        ; preds = %if.else
  %16 = load ptr, ptr %r.addr, align 4
  %wrong = getelementptr inbounds %struct.reader, ptr %16, i32 0, i32 1
  store i8 1, ptr %wrong, align 4
  br label %if.end

if.else12:                                        ; preds = %if.else
  %17 = load i32, ptr %sign, align 4
  %cmp13 = icmp eq i32 %17, 47
  br i1 %cmp13, label %cond.true, label %cond.false

cond.true:                                        ; preds = %if.else12
  %18 = load i32, ptr %n, align 4
  %19 = load i32, ptr %m, align 4
  %div = sdiv i32 %18, %19
  br label %cond.end

cond.false:                                       ; preds = %if.else12
  %20 = load i32, ptr %n, align 4
  %21 = load i32, ptr %m, align 4
  %rem = srem i32 %20, %21
  br label %cond.end

cond.end:                                         ; preds = %cond.false, %cond.true
  %cond = phi i32 [ %div, %cond.true ], [ %rem, %cond.false ]
  store i32 %cond, ptr %n, align 4
  br label %if.end

if.end:                                           ; preds = %cond.end, %if.then11
  br label %if.end14

if.end14:                                         ; preds = %if.end, %if.then
  br label %while.cond, !llvm.loop !10

while.end:                                        ; preds = %lor.end
  %22 = load i32, ptr %n, align 4
  ret i32 %22
}

; Function Attrs: noinline nounwind optnone uwtable
define internal i32 @factor(ptr noundef %r) #0 {
entry:
  %retval = alloca i32, align 4
  %r.addr = alloca ptr, align 4
  %n = alloca i32, align 4
  store ptr %r, ptr %r.addr, align 4
  store i32 0, ptr %n, align 4
  %0 = load ptr, ptr %r.addr, align 4
  %next = getelementptr inbounds %struct.reader, ptr %0, i32 0, i32 0
  %1 = load i32, ptr %next, align 4
  %cmp = icmp eq i32 %1, 45
  br i1 %cmp, label %if.then, label %if.end

if.then:                                          ; preds = %entry
  %call = call i32 @getchar()
  %2 = load ptr, ptr %r.addr, align 4
  %next1 = getelementptr inbounds %struct.reader, ptr %2, i32 0, i32 0
  store i32 %call, ptr %next1, align 4
  %3 = load ptr, ptr %r.addr, align 4
  %call2 = call i32 @factor(ptr noundef %3)
  %sub = sub nsw i32 0, %call2
  store i32 %sub, ptr %retval, align 4
  br label %return

if.end:                                           ; preds = %entry
  %4 = load ptr, ptr %r.addr, align 4
  %next3 = getelementptr inbounds %struct.reader, ptr %4, i32 0, i32 0
  %5 = load i32, ptr %next3, align 4
  %cmp4 = icmp eq i32 %5, 40
  br i1 %cmp4, label %if.then5, label %if.end14

if.then5:                                         ; preds = %if.end
  %call6 = call i32 @getchar()
  %6 = load ptr, ptr %r.addr, align 4
  %next7 = getelementptr inbounds %struct.reader, ptr %6, i32 0, i32 0
  store i32 %call6, ptr %next7, align 4
  %7 = load ptr, ptr %r.addr, align 4
  %call8 = call i32 @sum(ptr noundef %7)
  store i32 %call8, ptr %n, align 4
  %8 = load ptr, ptr %r.addr, align 4
  %next9 = getelementptr inbounds %struct.reader, ptr %8, i32 0, i32 0
  %9 = load i32, ptr %next9, align 4
  %cmp10 = icmp ne i32 %9, 41
  %conv = zext i1 %cmp10 to i32
  %10 = load ptr, ptr %r.addr, align 4
  %wrong = getelementptr inbounds %struct.reader, ptr %10, i32 0, i32 1
  %11 = load i8, ptr %wrong, align 4
  %loadedv = trunc i8 %11 to i1
  %conv11 = zext i1 %loadedv to i32
  %or = or i32 %conv11, %conv
  %tobool = icmp ne i32 %or, 0
  %storedv = zext i1 %tobool to i8
  store i8 %storedv, ptr %wrong, align 4
  %call12 = call i32 @getchar()
  %12 = load ptr, ptr %r.addr, align 4
  %next13 = getelementptr inbounds %struct.reader, ptr %12, i32 0, i32 0
  store i32 %call12, ptr %next13, align 4
  %13 = load i32, ptr %n, align 4
  store i32 %13, ptr %retval, align 4
  br label %return

if.end14:                                         ; preds = %if.end
  %14 = load ptr, ptr %r.addr, align 4
  %next15 = getelementptr inbounds %struct.reader, ptr %14, i32 0, i32 0
  %15 = load i32, ptr %next15, align 4
  %cmp16 = icmp slt i32 %15, 48
  br i1 %cmp16, label %lor.end, label %lor.rhs

lor.rhs:                                          ; preds = %if.end14
  %16 = load ptr, ptr %r.addr, align 4
  %next18 = getelementptr inbounds %struct.reader, ptr %16, i32 0, i32 0
  %17 = load i32, ptr %next18, align 4
  %cmp19 = icmp sgt i32 %17, 57
  br label %lor.end

lor.end:                                          ; preds = %lor.rhs, %if.end14
  %18 = phi i1 [ true, %if.end14 ], [ %cmp19, %lor.rhs ]
  %lor.ext = zext i1 %18 to i32
  %19 = load ptr, ptr %r.addr, align 4
  %wrong21 = getelementptr inbounds %struct.reader, ptr %19, i32 0, i32 1
  %20 = load i8, ptr %wrong21, align 4
  %loadedv22 = trunc i8 %20 to i1
  %conv23 = zext i1 %loadedv22 to i32
  %or24 = or i32 %conv23, %lor.ext
  %tobool25 = icmp ne i32 %or24, 0
  %storedv26 = zext i1 %tobool25 to i8
  store i8 %storedv26, ptr %wrong21, align 4
  br label %for.cond

for.cond:                                         ; preds = %for.inc, %lor.end
  %21 = load ptr, ptr %r.addr, align 4
  %next27 = getelementptr inbounds %struct.reader, ptr %21, i32 0, i32 0
  %22 = load i32, ptr %next27, align 4
  %cmp28 = icmp sge i32 %22, 48
  br i1 %cmp28, label %land.rhs, label %land.end

land.rhs:                                         ; preds = %for.cond
  %23 = load ptr, ptr %r.addr, align 4
  %next30 = getelementptr inbounds %struct.reader, ptr %23, i32 0, i32 0
  %24 = load i32, ptr %next30, align 4
  %cmp31 = icmp sle i32 %24, 57
  br label %land.end

land.end:                                         ; preds = %land.rhs, %for.cond
  %25 = phi i1 [ false, %for.cond ], [ %cmp31, %land.rhs ]
  br i1 %25, label %for.body, label %for.end

for.body:                                         ; preds = %land.end
  %26 = load i32, ptr %n, align 4
  %mul = mul nsw i32 10, %26
  %27 = load ptr, ptr %r.addr, align 4
  %next33 = getelementptr inbounds %struct.reader, ptr %27, i32 0, i32 0
  %28 = load i32, ptr %next33, align 4
  %add = add nsw i32 %mul, %28
  %sub34 = sub nsw i32 %add, 48
  store i32 %sub34, ptr %n, align 4
  br label %for.inc

for.inc:                                          ; preds = %for.body
  %call35 = call i32 @getchar()
  %29 = load ptr, ptr %r.addr, align 4
  %next36 = getelementptr inbounds %struct.reader, ptr %29, i32 0, i32 0
  store i32 %call35, ptr %next36, align 4
  br label %for.cond, !llvm.loop !11

for.end:                                          ; preds = %land.end
  %30 = load i32, ptr %n, align 4
  store i32 %30, ptr %retval, align 4
  br label %return

return:                                           ; preds = %for.end, %if.then5, %if.then
  %31 = load i32, ptr %retval, align 4
  ret i32 %31
}

attributes #0 = { noinline nounwind optnone uwtable "frame-pointer"="all" "min-legal-vector-width"="0" "no-trapping-math"="true" "stack-protector-buffer-size"="8" "target-cpu"="i686" "target-features"="+cmov,+cx8,+x87" "tune-cpu"="generic" }
attributes #1 = { "frame-pointer"="all" "no-trapping-math"="true" "stack-protector-buffer-size"="8" "target-cpu"="i686" "target-features"="+cmov,+cx8,+x87" "tune-cpu"="generic" }

!llvm.module.flags = !{!0, !1, !2, !3, !4, !5}
!llvm.ident = !{!6}

!0 = !{i32 1, !"NumRegisterParameters", i32 0}
!1 = !{i32 1, !"wchar_size", i32 4}
!2 = !{i32 8, !"PIC Level", i32 2}
!3 = !{i32 7, !"PIE Level", i32 2}
!4 = !{i32 7, !"uwtable", i32 2}
!5 = !{i32 7, !"frame-pointer", i32 2}
!6 = !{!"Debian clang version 19.1.7 (3~deb12u1)"}
!7 = distinct !{!7, !8}
!8 = !{!"llvm.loop.mustprogress"}
!9 = distinct !{!9, !8}
!10 = distinct !{!10, !8}
!11 = distinct !{!11, !8}
