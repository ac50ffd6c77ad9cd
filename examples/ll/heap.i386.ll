; ModuleID = 'heap.c'
source_filename = "heap.c"
target datalayout = "e-m:e-p:32:32-p270:32:32-p271:32:32-p272:64:64-i128:128-f64:32:64-f80:32-n8:16:32-S128"
target triple = "i386-unknown-linux-gnu"

%struct.stack = type { ptr, i32, i32 }

@.str = private unnamed_addr constant [7 x i8] c"zeros \00", align 1
@.str.1 = private unnamed_addr constant [6 x i8] c"dirt \00", align 1
@.str.2 = private unnamed_addr constant [6 x i8] c"same \00", align 1
@.str.3 = private unnamed_addr constant [7 x i8] c"other \00", align 1
@.str.4 = private unnamed_addr constant [5 x i8] c"room\00", align 1
@.str.5 = private unnamed_addr constant [5 x i8] c"none\00", align 1

; Function Attrs: noinline nounwind optnone uwtable
define dso_local i32 @main() #0 {
entry:
  %retval = alloca i32, align 4
  %s = alloca %struct.stack, align 4
  %i = alloca i32, align 4
  %i1 = alloca i32, align 4
  %zeros = alloca ptr, align 4
  %sum = alloca i32, align 4
  %i11 = alloca i32, align 4
  %first = alloca ptr, align 4
  %kept = alloca ptr, align 4
  %old = alloca ptr, align 4
  %again = alloca ptr, align 4
  %large = alloca ptr, align 4
  store i32 0, ptr %retval, align 4
  call void @llvm.memset.p0.i32(ptr align 4 %s, i8 0, i32 12, i1 false)
  store i32 0, ptr %i, align 4
  br label %for.cond

for.cond:                                         ; preds = %for.inc, %entry
  %0 = load i32, ptr %i, align 4
  %cmp = icmp slt i32 %0, 10
  br i1 %cmp, label %for.body, label %for.end

for.body:                                         ; preds = %for.cond
  %1 = load i32, ptr %i, align 4
  %2 = load i32, ptr %i, align 4
  %mul = mul nsw i32 %1, %2
  call void @push(ptr noundef %s, i32 noundef %mul)
  br label %for.inc

for.inc:                                          ; preds = %for.body
  %3 = load i32, ptr %i, align 4
  %inc = add nsw i32 %3, 1
  store i32 %inc, ptr %i, align 4
  br label %for.cond, !llvm.loop !7

for.end:                                          ; preds = %for.cond
  store i32 0, ptr %i1, align 4
  br label %for.cond2

for.cond2:                                        ; preds = %for.inc7, %for.end
  %4 = load i32, ptr %i1, align 4
  %count = getelementptr inbounds %struct.stack, ptr %s, i32 0, i32 1
  %5 = load i32, ptr %count, align 4
  %cmp3 = icmp ult i32 %4, %5
  br i1 %cmp3, label %for.body4, label %for.end9

for.body4:                                        ; preds = %for.cond2
  %items = getelementptr inbounds %struct.stack, ptr %s, i32 0, i32 0
  %6 = load ptr, ptr %items, align 4
  %7 = load i32, ptr %i1, align 4
  %arrayidx = getelementptr inbounds i32, ptr %6, i32 %7
  %8 = load i32, ptr %arrayidx, align 4
  call void @number(i32 noundef %8)
  %9 = load i32, ptr %i1, align 4
  %add = add i32 %9, 1
  %count5 = getelementptr inbounds %struct.stack, ptr %s, i32 0, i32 1
  %10 = load i32, ptr %count5, align 4
  %cmp6 = icmp ult i32 %add, %10
  %11 = zext i1 %cmp6 to i64
  %cond = select i1 %cmp6, i32 32, i32 10
  %call = call i32 @putchar(i32 noundef %cond)
  br label %for.inc7

for.inc7:                                         ; preds = %for.body4
  %12 = load i32, ptr %i1, align 4
  %inc8 = add i32 %12, 1
  store i32 %inc8, ptr %i1, align 4
  br label %for.cond2, !llvm.loop !9

for.end9:                                         ; preds = %for.cond2
  %call10 = call ptr @calloc(i32 noundef 25, i32 noundef 40) #7
  store ptr %call10, ptr %zeros, align 4
  %13 = load ptr, ptr %zeros, align 4
  %tobool = icmp ne ptr %13, null
  br i1 %tobool, label %if.end, label %if.then

if.then:                                          ; preds = %for.end9
  call void @abort() #8
  unreachable

if.end:                                           ; preds = %for.end9
  store i32 0, ptr %sum, align 4
  store i32 0, ptr %i11, align 4
  br label %for.cond12

for.cond12:                                       ; preds = %for.inc17, %if.end
  %14 = load i32, ptr %i11, align 4
  %cmp13 = icmp slt i32 %14, 1000
  br i1 %cmp13, label %for.body14, label %for.end19

for.body14:                                       ; preds = %for.cond12
  %15 = load ptr, ptr %zeros, align 4
  %16 = load i32, ptr %i11, align 4
  %arrayidx15 = getelementptr inbounds i8, ptr %15, i32 %16
  %17 = load i8, ptr %arrayidx15, align 1
  %conv = zext i8 %17 to i32
  %18 = load i32, ptr %sum, align 4
  %add16 = add i32 %18, %conv
  store i32 %add16, ptr %sum, align 4
  br label %for.inc17

for.inc17:                                        ; preds = %for.body14
  %19 = load i32, ptr %i11, align 4
  %inc18 = add nsw i32 %19, 1
  store i32 %inc18, ptr %i11, align 4
  br label %for.cond12, !llvm.loop !10

for.end19:                                        ; preds = %for.cond12
  %20 = load i32, ptr %sum, align 4
  %cmp20 = icmp eq i32 %20, 0
  %21 = zext i1 %cmp20 to i64
  %cond22 = select i1 %cmp20, ptr @.str, ptr @.str.1
  call void @word(ptr noundef %cond22)
  %22 = load ptr, ptr %zeros, align 4
  call void @free(ptr noundef %22)
  %call23 = call ptr @malloc(i32 noundef 100) #9
  store volatile ptr %call23, ptr %first, align 4
  %call24 = call ptr @malloc(i32 noundef 8) #9
  store volatile ptr %call24, ptr %kept, align 4
  %23 = load volatile ptr, ptr %first, align 4
  store ptr %23, ptr %old, align 4
  %24 = load volatile ptr, ptr %first, align 4
  call void @free(ptr noundef %24)
  %call25 = call ptr @malloc(i32 noundef 90) #9
  store volatile ptr %call25, ptr %again, align 4
  %25 = load volatile ptr, ptr %again, align 4
  %26 = load ptr, ptr %old, align 4
  %cmp26 = icmp eq ptr %25, %26
  %27 = zext i1 %cmp26 to i64
  %cond28 = select i1 %cmp26, ptr @.str.2, ptr @.str.3
  call void @word(ptr noundef %cond28)
  %28 = load volatile ptr, ptr %again, align 4
  call void @free(ptr noundef %28)
  %29 = load volatile ptr, ptr %kept, align 4
  call void @free(ptr noundef %29)
  %call29 = call ptr @malloc(i32 noundef 1879048192) #9
  store volatile ptr %call29, ptr %large, align 4
  %30 = load volatile ptr, ptr %large, align 4
  %tobool30 = icmp ne ptr %30, null
  %31 = zext i1 %tobool30 to i64
  %cond31 = select i1 %tobool30, ptr @.str.4, ptr @.str.5
  %call32 = call i32 @puts(ptr noundef %cond31)
  %items33 = getelementptr inbounds %struct.stack, ptr %s, i32 0, i32 0
  %32 = load ptr, ptr %items33, align 4
  call void @free(ptr noundef %32)
  %count34 = getelementptr inbounds %struct.stack, ptr %s, i32 0, i32 1
  %33 = load i32, ptr %count34, align 4
  ret i32 %33
}

; Function Attrs: nocallback nofree nounwind willreturn memory(argmem: write)
declare void @llvm.memset.p0.i32(ptr nocapture writeonly, i8, i32, i1 immarg) #1

; Function Attrs: noinline nounwind optnone uwtable
define internal void @push(ptr noundef %s, i32 noundef %item) #0 {
entry:
  %s.addr = alloca ptr, align 4
  %item.addr = alloca i32, align 4
  %room1 = alloca i32, align 4
  %items = alloca ptr, align 4
  %i = alloca i32, align 4
  store ptr %s, ptr %s.addr, align 4
  store i32 %item, ptr %item.addr, align 4
  %0 = load ptr, ptr %s.addr, align 4
  %count = getelementptr inbounds %struct.stack, ptr %0, i32 0, i32 1
  %1 = load i32, ptr %count, align 4
  %2 = load ptr, ptr %s.addr, align 4
  %room = getelementptr inbounds %struct.stack, ptr %2, i32 0, i32 2
  %3 = load i32, ptr %room, align 4
  %cmp = icmp eq i32 %1, %3
  br i1 %cmp, label %if.then, label %if.end14

if.then:                                          ; preds = %entry
  %4 = load ptr, ptr %s.addr, align 4
  %room2 = getelementptr inbounds %struct.stack, ptr %4, i32 0, i32 2
  %5 = load i32, ptr %room2, align 4
  %tobool = icmp ne i32 %5, 0
  br i1 %tobool, label %cond.true, label %cond.false

cond.true:                                        ; preds = %if.then
  %6 = load ptr, ptr %s.addr, align 4
  %room3 = getelementptr inbounds %struct.stack, ptr %6, i32 0, i32 2
  %7 = load i32, ptr %room3, align 4
  %mul = mul i32 2, %7
  br label %cond.end

cond.false:                                       ; preds = %if.then
  br label %cond.end

cond.end:                                         ; preds = %cond.false, %cond.true
  %cond = phi i32 [ %mul, %cond.true ], [ 2, %cond.false ]
  store i32 %cond, ptr %room1, align 4
  %8 = load i32, ptr %room1, align 4
  %mul4 = mul i32 %8, 4
  %call = call ptr @malloc(i32 noundef %mul4) #9
  store ptr %call, ptr %items, align 4
  %9 = load ptr, ptr %items, align 4
  %tobool5 = icmp ne ptr %9, null
  br i1 %tobool5, label %if.end, label %if.then6

if.then6:                                         ; preds = %cond.end
  call void @exit(i32 noundef 99) #10
  unreachable

if.end:                                           ; preds = %cond.end
  store i32 0, ptr %i, align 4
  br label %for.cond

for.cond:                                         ; preds = %for.inc, %if.end
  %10 = load i32, ptr %i, align 4
  %11 = load ptr, ptr %s.addr, align 4
  %count7 = getelementptr inbounds %struct.stack, ptr %11, i32 0, i32 1
  %12 = load i32, ptr %count7, align 4
  %cmp8 = icmp ult i32 %10, %12
  br i1 %cmp8, label %for.body, label %for.end

for.body:                                         ; preds = %for.cond
  %13 = load ptr, ptr %s.addr, align 4
  %items9 = getelementptr inbounds %struct.stack, ptr %13, i32 0, i32 0
  %14 = load ptr, ptr %items9, align 4
  %15 = load i32, ptr %i, align 4
  %arrayidx = getelementptr inbounds i32, ptr %14, i32 %15
  %16 = load i32, ptr %arrayidx, align 4
  %17 = load ptr, ptr %items, align 4
  %18 = load i32, ptr %i, align 4
  %arrayidx10 = getelementptr inbounds i32, ptr %17, i32 %18
  store i32 %16, ptr %arrayidx10, align 4
  br label %for.inc

for.inc:                                          ; preds = %for.body
  %19 = load i32, ptr %i, align 4
  %inc = add i32 %19, 1
  store i32 %inc, ptr %i, align 4
  br label %for.cond, !llvm.loop !11

for.end:                                          ; preds = %for.cond
  %20 = load ptr, ptr %s.addr, align 4
  %items11 = getelementptr inbounds %struct.stack, ptr %20, i32 0, i32 0
  %21 = load ptr, ptr %items11, align 4
  call void @free(ptr noundef %21)
  %22 = load ptr, ptr %items, align 4
  %23 = load ptr, ptr %s.addr, align 4
  %items12 = getelementptr inbounds %struct.stack, ptr %23, i32 0, i32 0
  store ptr %22, ptr %items12, align 4
  %24 = load i32, ptr %room1, align 4
  %25 = load ptr, ptr %s.addr, align 4
  %room13 = getelementptr inbounds %struct.stack, ptr %25, i32 0, i32 2
  store i32 %24, ptr %room13, align 4
  br label %if.end14

if.end14:                                         ; preds = %for.end, %entry
  %26 = load i32, ptr %item.addr, align 4
  %27 = load ptr, ptr %s.addr, align 4
  %items15 = getelementptr inbounds %struct.stack, ptr %27, i32 0, i32 0
  %28 = load ptr, ptr %items15, align 4
  %29 = load ptr, ptr %s.addr, align 4
  %count16 = getelementptr inbounds %struct.stack, ptr %29, i32 0, i32 1
  %30 = load i32, ptr %count16, align 4
  %inc17 = add i32 %30, 1
  store i32 %inc17, ptr %count16, align 4
  %arrayidx18 = getelementptr inbounds i32, ptr %28, i32 %30
  store i32 %26, ptr %arrayidx18, align 4
  ret void
}

; Function Attrs: noinline nounwind optnone uwtable
define internal void @number(i32 noundef %n) #0 {
entry:
  %n.addr = alloca i32, align 4
  store i32 %n, ptr %n.addr, align 4
  %0 = load i32, ptr %n.addr, align 4
  %cmp = icmp sge i32 %0, 10
  br i1 %cmp, label %if.then, label %if.end

if.then:                                          ; preds = %entry
  %1 = load i32, ptr %n.addr, align 4
  %div = sdiv i32 %1, 10
  call void @number(i32 noundef %div)
  br label %if.end

if.end:                                           ; preds = %if.then, %entry
  %2 = load i32, ptr %n.addr, align 4
  %rem = srem i32 %2, 10
  %add = add nsw i32 48, %rem
  %call = call i32 @putchar(i32 noundef %add)
  ret void
}

declare i32 @putchar(i32 noundef) #2

; Function Attrs: allocsize(0,1)
declare ptr @calloc(i32 noundef, i32 noundef) #3

; Function Attrs: noreturn nounwind
declare void @abort() #4

; Function Attrs: noinline nounwind optnone uwtable
define internal void @word(ptr noundef %s) #0 {
entry:
  %s.addr = alloca ptr, align 4
  store ptr %s, ptr %s.addr, align 4
  br label %while.cond

while.cond:                                       ; preds = %while.body, %entry
  %0 = load ptr, ptr %s.addr, align 4
  %1 = load i8, ptr %0, align 1
  %tobool = icmp ne i8 %1, 0
  br i1 %tobool, label %while.body, label %while.end

while.body:                                       ; preds = %while.cond
  %2 = load ptr, ptr %s.addr, align 4
  %incdec.ptr = getelementptr inbounds i8, ptr %2, i32 1
  store ptr %incdec.ptr, ptr %s.addr, align 4
  %3 = load i8, ptr %2, align 1
  %conv = sext i8 %3 to i32
  %call = call i32 @putchar(i32 noundef %conv)
  br label %while.cond, !llvm.loop !12

while.end:                                        ; preds = %while.cond
  ret void
}

declare void @free(ptr noundef) #2

; Function Attrs: allocsize(0)
declare ptr @malloc(i32 noundef) #5

declare i32 @puts(ptr noundef) #2

; Function Attrs: noreturn
declare void @exit(i32 noundef) #6

attributes #0 = { noinline nounwind optnone uwtable "frame-pointer"="all" "min-legal-vector-width"="0" "no-trapping-math"="true" "stack-protector-buffer-size"="8" "target-cpu"="i686" "target-features"="+cmov,+cx8,+x87" "tune-cpu"="generic" }
attributes #1 = { nocallback nofree nounwind willreturn memory(argmem: write) }
attributes #2 = { "frame-pointer"="all" "no-trapping-math"="true" "stack-protector-buffer-size"="8" "target-cpu"="i686" "target-features"="+cmov,+cx8,+x87" "tune-cpu"="generic" }
attributes #3 = { allocsize(0,1) "frame-pointer"="all" "no-trapping-math"="true" "stack-protector-buffer-size"="8" "target-cpu"="i686" "target-features"="+cmov,+cx8,+x87" "tune-cpu"="generic" }
attributes #4 = { noreturn nounwind "frame-pointer"="all" "no-trapping-math"="true" "stack-protector-buffer-size"="8" "target-cpu"="i686" "target-features"="+cmov,+cx8,+x87" "tune-cpu"="generic" }
attributes #5 = { allocsize(0) "frame-pointer"="all" "no-trapping-math"="true" "stack-protector-buffer-size"="8" "target-cpu"="i686" "target-features"="+cmov,+cx8,+x87" "tune-cpu"="generic" }
attributes #6 = { noreturn "frame-pointer"="all" "no-trapping-math"="true" "stack-protector-buffer-size"="8" "target-cpu"="i686" "target-features"="+cmov,+cx8,+x87" "tune-cpu"="generic" }
attributes #7 = { allocsize(0,1) }
attributes #8 = { noreturn nounwind }
attributes #9 = { allocsize(0) }
attributes #10 = { noreturn }

!llvm.module.flags = !{!0, !1, !2, !3, !4, !5}
!llvm.ident = !{!6}

!0 = !{i32 1, !"NumRegisterParameters", i32 0}
!1 = !{i32 1, !"wchar_size", i32 4}
!2 = !{i32 8, !"PIC Level", i32 2}
!3 = !{i32 7, !"PIE Level", i32 2}
!4 = !{i32 7, !"uwtable", i32 2}
!5 = !{i32 7, !"frame-pointer", i32 2}
!6 = !{!"Debian clang version 19.1.7 (3~deb12u1)"}
!7 = distinct !{!7, !8}
!8 = !{!"llvm.loop.mustprogress"}
!9 = distinct !{!9, !8}
!10 = distinct !{!10, !8}
!11 = distinct !{!11, !8}
!12 = distinct !{!12, !8}
