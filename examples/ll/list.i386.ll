; ModuleID = 'list.c'
source_filename = "list.c"
target datalayout = "e-m:e-p:32:32-p270:32:32-p271:32:32-p272:64:64-i128:128-f64:32:64-f80:32-n8:16:32-S128"
target triple = "i386-unknown-linux-gnu"

%struct.node = type { ptr, i32 }

@main.values = internal constant [9 x i8] c"\05\03\09\01\07\02\08\06\04", align 1

; Function Attrs: noinline nounwind optnone uwtable
define dso_local i32 @main() #0 {
entry:
  %retval = alloca i32, align 4
  %list = alloca ptr, align 4
  %i = alloca i32, align 4
  store i32 0, ptr %retval, align 4
  store ptr null, ptr %list, align 4
  store i32 0, ptr %i, align 4
  br label %for.cond

for.cond:                                         ; preds = %for.inc, %entry
  %0 = load i32, ptr %i, align 4
  %cmp = icmp ult i32 %0, 9
  br i1 %cmp, label %for.body, label %for.end

for.body:                                         ; preds = %for.cond
  %1 = load ptr, ptr %list, align 4
  %2 = load i32, ptr %i, align 4
  %arrayidx = getelementptr inbounds [9 x i8], ptr @main.values, i32 0, i32 %2
  %3 = load i8, ptr %arrayidx, align 1
  %conv = sext i8 %3 to i32
  %call = call ptr @insert(ptr noundef %1, i32 noundef %conv)
  store ptr %call, ptr %list, align 4
  br label %for.inc

for.inc:                                          ; preds = %for.body
  %4 = load i32, ptr %i, align 4
  %inc = add i32 %4, 1
  store i32 %inc, ptr %i, align 4
  br label %for.cond, !llvm.loop !7

for.end:                                          ; preds = %for.cond
  %5 = load ptr, ptr %list, align 4
  %call1 = call i32 @show(ptr noundef %5)
  %6 = load ptr, ptr %list, align 4
  %call2 = call ptr @turn(ptr noundef %6)
  store ptr %call2, ptr %list, align 4
  %7 = load ptr, ptr %list, align 4
  %call3 = call i32 @show(ptr noundef %7)
  %8 = load ptr, ptr %list, align 4
  %call4 = call ptr @without_even(ptr noundef %8)
  store ptr %call4, ptr %list, align 4
  %9 = load ptr, ptr %list, align 4
  %call5 = call i32 @show(ptr noundef %9)
  ret i32 %call5
}

; Function Attrs: noinline nounwind optnone uwtable
define internal ptr @insert(ptr noundef %list, i32 noundef %value) #0 {
entry:
  %list.addr = alloca ptr, align 4
  %value.addr = alloca i32, align 4
  %fresh = alloca ptr, align 4
  %place = alloca ptr, align 4
  store ptr %list, ptr %list.addr, align 4
  store i32 %value, ptr %value.addr, align 4
  %call = call ptr @malloc(i32 noundef 8) #4
  store ptr %call, ptr %fresh, align 4
  store ptr %list.addr, ptr %place, align 4
  %0 = load ptr, ptr %fresh, align 4
  %tobool = icmp ne ptr %0, null
  br i1 %tobool, label %if.end, label %if.then

if.then:                                          ; preds = %entry
  call void @exit(i32 noundef 99) #5
  unreachable

if.end:                                           ; preds = %entry
  br label %while.cond

while.cond:                                       ; preds = %while.body, %if.end
  %1 = load ptr, ptr %place, align 4
  %2 = load ptr, ptr %1, align 4
  %tobool1 = icmp ne ptr %2, null
  br i1 %tobool1, label %land.rhs, label %land.end

land.rhs:                                         ; preds = %while.cond
  %3 = load ptr, ptr %place, align 4
  %4 = load ptr, ptr %3, align 4
  %value2 = getelementptr inbounds %struct.node, ptr %4, i32 0, i32 1
  %5 = load i32, ptr %value2, align 4
  %6 = load i32, ptr %value.addr, align 4
  %cmp = icmp slt i32 %5, %6
  br label %land.end

land.end:                                         ; preds = %land.rhs, %while.cond
  %7 = phi i1 [ false, %while.cond ], [ %cmp, %land.rhs ]
  br i1 %7, label %while.body, label %while.end

while.body:                                       ; preds = %land.end
  %8 = load ptr, ptr %place, align 4
  %9 = load ptr, ptr %8, align 4
  %next = getelementptr inbounds %struct.node, ptr %9, i32 0, i32 0
  store ptr %next, ptr %place, align 4
  br label %while.cond, !llvm.loop !9

while.end:                                        ; preds = %land.end
  %10 = load i32, ptr %value.addr, align 4
  %11 = load ptr, ptr %fresh, align 4
  %value3 = getelementptr inbounds %struct.node, ptr %11, i32 0, i32 1
  store i32 %10, ptr %value3, align 4
  %12 = load ptr, ptr %place, align 4
  %13 = load ptr, ptr %12, align 4
  %14 = load ptr, ptr %fresh, align 4
  %next4 = getelementptr inbounds %struct.node, ptr %14, i32 0, i32 0
  store ptr %13, ptr %next4, align 4
  %15 = load ptr, ptr %fresh, align 4
  %16 = load ptr, ptr %place, align 4
  store ptr %15, ptr %16, align 4
  %17 = load ptr, ptr %list.addr, align 4
  ret ptr %17
}

; Function Attrs: noinline nounwind optnone uwtable
define internal i32 @show(ptr noundef %list) #0 {
entry:
  %list.addr = alloca ptr, align 4
  %sum = alloca i32, align 4
  store ptr %list, ptr %list.addr, align 4
  store i32 0, ptr %sum, align 4
  br label %for.cond

for.cond:                                         ; preds = %for.inc, %entry
  %0 = load ptr, ptr %list.addr, align 4
  %tobool = icmp ne ptr %0, null
  br i1 %tobool, label %for.body, label %for.end

for.body:                                         ; preds = %for.cond
  %1 = load ptr, ptr %list.addr, align 4
  %value = getelementptr inbounds %struct.node, ptr %1, i32 0, i32 1
  %2 = load i32, ptr %value, align 4
  %add = add nsw i32 48, %2
  %call = call i32 @putchar(i32 noundef %add)
  %3 = load ptr, ptr %list.addr, align 4
  %next = getelementptr inbounds %struct.node, ptr %3, i32 0, i32 0
  %4 = load ptr, ptr %next, align 4
  %tobool1 = icmp ne ptr %4, null
  %5 = zext i1 %tobool1 to i64
  %cond = select i1 %tobool1, i32 32, i32 10
  %call2 = call i32 @putchar(i32 noundef %cond)
  %6 = load ptr, ptr %list.addr, align 4
  %value3 = getelementptr inbounds %struct.node, ptr %6, i32 0, i32 1
  %7 = load i32, ptr %value3, align 4
  %8 = load i32, ptr %sum, align 4
  %add4 = add nsw i32 %8, %7
  store i32 %add4, ptr %sum, align 4
  br label %for.inc

for.inc:                                          ; preds = %for.body
  %9 = load ptr, ptr %list.addr, align 4
  %next5 = getelementptr inbounds %struct.node, ptr %9, i32 0, i32 0
  %10 = load ptr, ptr %next5, align 4
  store ptr %10, ptr %list.addr, align 4
  br label %for.cond, !llvm.loop !10

for.end:                                          ; preds = %for.cond
  %11 = load i32, ptr %sum, align 4
  ret i32 %11
}

; Function Attrs: noinline nounwind optnone uwtable
define internal ptr @turn(ptr noundef %list) #0 {
entry:
  %list.addr = alloca ptr, align 4
  %turned = alloca ptr, align 4
  %rest = alloca ptr, align 4
  store ptr %list, ptr %list.addr, align 4
  store ptr null, ptr %turned, align 4
  br label %while.cond

while.cond:                                       ; preds = %while.body, %entry
  %0 = load ptr, ptr %list.addr, align 4
  %tobool = icmp ne ptr %0, null
  br i1 %tobool, label %while.body, label %while.end

while.body:                                       ; preds = %while.cond
  %1 = load ptr, ptr %list.addr, align 4
  %next = getelementptr inbounds %struct.node, ptr %1, i32 0, i32 0
  %2 = load ptr, ptr %next, align 4
  store ptr %2, ptr %rest, align 4
  %3 = load ptr, ptr %turned, align 4
  %4 = load ptr, ptr %list.addr, align 4
  %next1 = getelementptr inbounds %struct.node, ptr %4, i32 0, i32 0
  store ptr %3, ptr %next1, align 4
  %5 = load ptr, ptr %list.addr, align 4
  store ptr %5, ptr %turned, align 4
  %6 = load ptr, ptr %rest, align 4
  store ptr %6, ptr %list.addr, align 4
  br label %while.cond, !llvm.loop !11

while.end:                                        ; preds = %while.cond
  %7 = load ptr, ptr %turned, align 4
  ret ptr %7
}

; Function Attrs: noinline nounwind optnone uwtable
define internal ptr @without_even(ptr noundef %list) #0 {
entry:
  %list.addr = alloca ptr, align 4
  %place = alloca ptr, align 4
  %here = alloca ptr, align 4
  store ptr %list, ptr %list.addr, align 4
  store ptr %list.addr, ptr %place, align 4
  br label %while.cond

while.cond:                                       ; preds = %if.end, %entry
  %0 = load ptr, ptr %place, align 4
  %1 = load ptr, ptr %0, align 4
  %tobool = icmp ne ptr %1, null
  br i1 %tobool, label %while.body, label %while.end

while.body:                                       ; preds = %while.cond
  %2 = load ptr, ptr %place, align 4
  %3 = load ptr, ptr %2, align 4
  store ptr %3, ptr %here, align 4
  %4 = load ptr, ptr %here, align 4
  %value = getelementptr inbounds %struct.node, ptr %4, i32 0, i32 1
  %5 = load i32, ptr %value, align 4
  %rem = srem i32 %5, 2
  %cmp = icmp eq i32 %rem, 0
  br i1 %cmp, label %if.then, label %if.else

if.then:                                          ; preds = %while.body
  %6 = load ptr, ptr %here, align 4
  %next = getelementptr inbounds %struct.node, ptr %6, i32 0, i32 0
  %7 = load ptr, ptr %next, align 4
  %8 = load ptr, ptr %place, align 4
  store ptr %7, ptr %8, align 4
  %9 = load ptr, ptr %here, align 4
  call void @free(ptr noundef %9)
  br label %if.end

if.else:                                          ; preds = %while.body
  %10 = load ptr, ptr %here, align 4
  %next1 = getelementptr inbounds %struct.node, ptr %10, i32 0, i32 0
  store ptr %next1, ptr %place, align 4
  br label %if.end

if.end:                                           ; preds = %if.else, %if.then
  br label %while.cond, !llvm.loop !12

while.end:                                        ; preds = %while.cond
  %11 = load ptr, ptr %list.addr, align 4
  ret ptr %11
}

; Function Attrs: allocsize(0)
declare ptr @malloc(i32 noundef) #1

; Function Attrs: noreturn
declare void @exit(i32 noundef) #2

declare i32 @putchar(i32 noundef) #3

declare void @free(ptr noundef) #3

attributes #0 = { noinline nounwind optnone uwtable "frame-pointer"="all" "min-legal-vector-width"="0" "no-trapping-math"="true" "stack-protector-buffer-size"="8" "target-cpu"="i686" "target-features"="+cmov,+cx8,+x87" "tune-cpu"="generic" }
attributes #1 = { allocsize(0) "frame-pointer"="all" "no-trapping-math"="true" "stack-protector-buffer-size"="8" "target-cpu"="i686" "target-features"="+cmov,+cx8,+x87" "tune-cpu"="generic" }
attributes #2 = { noreturn "frame-pointer"="all" "no-trapping-math"="true" "stack-protector-buffer-size"="8" "target-cpu"="i686" "target-features"="+cmov,+cx8,+x87" "tune-cpu"="generic" }
attributes #3 = { "frame-pointer"="all" "no-trapping-math"="true" "stack-protector-buffer-size"="8" "target-cpu"="i686" "target-features"="+cmov,+cx8,+x87" "tune-cpu"="generic" }
attributes #4 = { allocsize(0) }
attributes #5 = { noreturn }

!llvm.module.flags = !{!0, !1, !2, !3, !4, !5}
!llvm.ident = !{!6}

!0 = !{i32 1, !"NumRegisterParameters", i32 0}
!1 = !{i32 1, !"wchar_size", i32 4}
!2 = !{i32 8, !"PIC Level", i32 2}
!3 = !{i32 7, !"PIE Level", i32 2}
!4 = !{i32 7, !"uwtable", i32 2}
!5 = !{i32 7, !"frame-pointer", i32 2}
!6 = !{!"Debian clang version 19.1.7 (3~deb12u1)"}
!7 = distinct !{!7, !8}
!8 = !{!"llvm.loop.mustprogress"}
!9 = distinct !{!9, !8}
!10 = distinct !{!10, !8}
!11 = distinct !{!11, !8}
!12 = distinct !{!12, !8}
