; ModuleID = 'tree.c'
source_filename = "tree.c"
target datalayout = "e-m:e-p:32:32-p270:32:32-p271:32:32-p272:64:64-i128:128-f64:32:64-f80:32-n8:16:32-S128"
target triple = "i386-unknown-linux-gnu"

%struct.node = type { i64, [2 x ptr] }

@main.keys = internal constant [10 x i8] c"2\1EF\14(<P\0A\19\1E", align 1
@count = internal global i32 0, align 4

; Function Attrs: noinline nounwind optnone uwtable
define dso_local i32 @main() #0 {
entry:
  %retval = alloca i32, align 4
  %tree = alloca ptr, align 4
  %i = alloca i32, align 4
  store i32 0, ptr %retval, align 4
  store ptr null, ptr %tree, align 4
  store i32 0, ptr %i, align 4
  br label %for.cond

for.cond:                                         ; preds = %for.inc, %entry
  %0 = load i32, ptr %i, align 4
  %cmp = icmp ult i32 %0, 10
  br i1 %cmp, label %for.body, label %for.end

for.body:                                         ; preds = %for.cond
  %1 = load i32, ptr %i, align 4
  %arrayidx = getelementptr inbounds [10 x i8], ptr @main.keys, i32 0, i32 %1
  %2 = load i8, ptr %arrayidx, align 1
  %conv = sext i8 %2 to i64
  call void @enter(ptr noundef %tree, i64 noundef %conv)
  br label %for.inc

for.inc:                                          ; preds = %for.body
  %3 = load i32, ptr %i, align 4
  %inc = add i32 %3, 1
  store i32 %inc, ptr %i, align 4
  br label %for.cond, !llvm.loop !7

for.end:                                          ; preds = %for.cond
  %4 = load ptr, ptr %tree, align 4
  call void @walk(ptr noundef %4)
  %call = call i32 @putchar(i32 noundef 10)
  %5 = load ptr, ptr %tree, align 4
  %call1 = call i32 @depth(ptr noundef %5)
  %add = add nsw i32 48, %call1
  %call2 = call i32 @putchar(i32 noundef %add)
  %call3 = call i32 @putchar(i32 noundef 10)
  call void @leave(ptr noundef %tree, i64 noundef 30)
  call void @leave(ptr noundef %tree, i64 noundef 99)
  store i32 0, ptr @count, align 4
  %6 = load ptr, ptr %tree, align 4
  call void @walk(ptr noundef %6)
  %call4 = call i32 @putchar(i32 noundef 10)
  %7 = load i32, ptr @count, align 4
  call void @exit(i32 noundef %7) #5
  unreachable
}

; Function Attrs: noinline nounwind optnone uwtable
define internal void @enter(ptr noundef %tree, i64 noundef %key) #0 {
entry:
  %tree.addr = alloca ptr, align 4
  %key.addr = alloca i64, align 8
  %place = alloca ptr, align 4
  store ptr %tree, ptr %tree.addr, align 4
  store i64 %key, ptr %key.addr, align 8
  %0 = load ptr, ptr %tree.addr, align 4
  %1 = load i64, ptr %key.addr, align 8
  %call = call ptr @place_of(ptr noundef %0, i64 noundef %1)
  store ptr %call, ptr %place, align 4
  %2 = load ptr, ptr %place, align 4
  %3 = load ptr, ptr %2, align 4
  %tobool = icmp ne ptr %3, null
  br i1 %tobool, label %if.then, label %if.end

if.then:                                          ; preds = %entry
  br label %return

if.end:                                           ; preds = %entry
  %call1 = call ptr @calloc(i32 noundef 1, i32 noundef 16) #6
  %4 = load ptr, ptr %place, align 4
  store ptr %call1, ptr %4, align 4
  %5 = load ptr, ptr %place, align 4
  %6 = load ptr, ptr %5, align 4
  %tobool2 = icmp ne ptr %6, null
  br i1 %tobool2, label %if.end4, label %if.then3

if.then3:                                         ; preds = %if.end
  call void @abort() #7
  unreachable

if.end4:                                          ; preds = %if.end
  %7 = load i64, ptr %key.addr, align 8
  %8 = load ptr, ptr %place, align 4
  %9 = load ptr, ptr %8, align 4
  %key5 = getelementptr inbounds %struct.node, ptr %9, i32 0, i32 0
  store i64 %7, ptr %key5, align 4
  br label %return

return:                                           ; preds = %if.end4, %if.then
  ret void
}

; Function Attrs: noinline nounwind optnone uwtable
define internal void @walk(ptr noundef %tree) #0 {
entry:
  %tree.addr = alloca ptr, align 4
  store ptr %tree, ptr %tree.addr, align 4
  %0 = load ptr, ptr %tree.addr, align 4
  %tobool = icmp ne ptr %0, null
  br i1 %tobool, label %if.end, label %if.then

if.then:                                          ; preds = %entry
  br label %return

if.end:                                           ; preds = %entry
  %1 = load ptr, ptr %tree.addr, align 4
  %child = getelementptr inbounds %struct.node, ptr %1, i32 0, i32 1
  %arrayidx = getelementptr inbounds [2 x ptr], ptr %child, i32 0, i32 0
  %2 = load ptr, ptr %arrayidx, align 4
  call void @walk(ptr noundef %2)
  %3 = load i32, ptr @count, align 4
  %inc = add nsw i32 %3, 1
  store i32 %inc, ptr @count, align 4
  %tobool1 = icmp ne i32 %3, 0
  br i1 %tobool1, label %if.then2, label %if.end3

if.then2:                                         ; preds = %if.end
  %call = call i32 @putchar(i32 noundef 32)
  br label %if.end3

if.end3:                                          ; preds = %if.then2, %if.end
  %4 = load ptr, ptr %tree.addr, align 4
  %key = getelementptr inbounds %struct.node, ptr %4, i32 0, i32 0
  %5 = load i64, ptr %key, align 4
  %div = sdiv i64 %5, 10
  %conv = trunc i64 %div to i32
  %add = add nsw i32 48, %conv
  %call4 = call i32 @putchar(i32 noundef %add)
  %6 = load ptr, ptr %tree.addr, align 4
  %key5 = getelementptr inbounds %struct.node, ptr %6, i32 0, i32 0
  %7 = load i64, ptr %key5, align 4
  %rem = srem i64 %7, 10
  %conv6 = trunc i64 %rem to i32
  %add7 = add nsw i32 48, %conv6
  %call8 = call i32 @putchar(i32 noundef %add7)
  %8 = load ptr, ptr %tree.addr, align 4
  %child9 = getelementptr inbounds %struct.node, ptr %8, i32 0, i32 1
  %arrayidx10 = getelementptr inbounds [2 x ptr], ptr %child9, i32 0, i32 1
  %9 = load ptr, ptr %arrayidx10, align 4
  call void @walk(ptr noundef %9)
  br label %return

return:                                           ; preds = %if.end3, %if.then
  ret void
}

declare i32 @putchar(i32 noundef) #1

; Function Attrs: noinline nounwind optnone uwtable
define internal i32 @depth(ptr noundef %tree) #0 {
entry:
  %retval = alloca i32, align 4
  %tree.addr = alloca ptr, align 4
  %left = alloca i32, align 4
  %right = alloca i32, align 4
  store ptr %tree, ptr %tree.addr, align 4
  %0 = load ptr, ptr %tree.addr, align 4
  %tobool = icmp ne ptr %0, null
  br i1 %tobool, label %if.end, label %if.then

if.then:                                          ; preds = %entry
  store i32 -1, ptr %retval, align 4
  br label %return

if.end:                                           ; preds = %entry
  %1 = load ptr, ptr %tree.addr, align 4
  %child = getelementptr inbounds %struct.node, ptr %1, i32 0, i32 1
  %arrayidx = getelementptr inbounds [2 x ptr], ptr %child, i32 0, i32 0
  %2 = load ptr, ptr %arrayidx, align 4
  %call = call i32 @depth(ptr noundef %2)
  store i32 %call, ptr %left, align 4
  %3 = load ptr, ptr %tree.addr, align 4
  %child1 = getelementptr inbounds %struct.node, ptr %3, i32 0, i32 1
  %arrayidx2 = getelementptr inbounds [2 x ptr], ptr %child1, i32 0, i32 1
  %4 = load ptr, ptr %arrayidx2, align 4
  %call3 = call i32 @depth(ptr noundef %4)
  store i32 %call3, ptr %right, align 4
  %5 = load i32, ptr %left, align 4
  %6 = load i32, ptr %right, align 4
  %cmp = icmp sgt i32 %5, %6
  br i1 %cmp, label %cond.true, label %cond.false

cond.true:                                        ; preds = %if.end
  %7 = load i32, ptr %left, align 4
  br label %cond.end

cond.false:                                       ; preds = %if.end
  %8 = load i32, ptr %right, align 4
  br label %cond.end

cond.end:                                         ; preds = %cond.false, %cond.true
  %cond = phi i32 [ %7, %cond.true ], [ %8, %cond.false ]
  %add = add nsw i32 1, %cond
  store i32 %add, ptr %retval, align 4
  br label %return

return:                                           ; preds = %cond.end, %if.then
  %9 = load i32, ptr %retval, align 4
  ret i32 %9
}

; Function Attrs: noinline nounwind optnone uwtable
define internal void @leave(ptr noundef %tree, i64 noundef %key) #0 {
entry:
  %tree.addr = alloca ptr, align 4
  %key.addr = alloca i64, align 8
  %place = alloca ptr, align 4
  %gone = alloca ptr, align 4
  %least = alloca ptr, align 4
  %heir = alloca ptr, align 4
  store ptr %tree, ptr %tree.addr, align 4
  store i64 %key, ptr %key.addr, align 8
  %0 = load ptr, ptr %tree.addr, align 4
  %1 = load i64, ptr %key.addr, align 8
  %call = call ptr @place_of(ptr noundef %0, i64 noundef %1)
  store ptr %call, ptr %place, align 4
  %2 = load ptr, ptr %place, align 4
  %3 = load ptr, ptr %2, align 4
  store ptr %3, ptr %gone, align 4
  %4 = load ptr, ptr %gone, align 4
  %tobool = icmp ne ptr %4, null
  br i1 %tobool, label %if.end, label %if.then

if.then:                                          ; preds = %entry
  br label %return

if.end:                                           ; preds = %entry
  %5 = load ptr, ptr %gone, align 4
  %child = getelementptr inbounds %struct.node, ptr %5, i32 0, i32 1
  %arrayidx = getelementptr inbounds [2 x ptr], ptr %child, i32 0, i32 0
  %6 = load ptr, ptr %arrayidx, align 4
  %tobool1 = icmp ne ptr %6, null
  br i1 %tobool1, label %land.lhs.true, label %if.else

land.lhs.true:                                    ; preds = %if.end
  %7 = load ptr, ptr %gone, align 4
  %child2 = getelementptr inbounds %struct.node, ptr %7, i32 0, i32 1
  %arrayidx3 = getelementptr inbounds [2 x ptr], ptr %child2, i32 0, i32 1
  %8 = load ptr, ptr %arrayidx3, align 4
  %tobool4 = icmp ne ptr %8, null
  br i1 %tobool4, label %if.then5, label %if.else

if.then5:                                         ; preds = %land.lhs.true
  %9 = load ptr, ptr %gone, align 4
  %child6 = getelementptr inbounds %struct.node, ptr %9, i32 0, i32 1
  %arrayidx7 = getelementptr inbounds [2 x ptr], ptr %child6, i32 0, i32 1
  store ptr %arrayidx7, ptr %least, align 4
  br label %while.cond

while.cond:                                       ; preds = %while.body, %if.then5
  %10 = load ptr, ptr %least, align 4
  %11 = load ptr, ptr %10, align 4
  %child8 = getelementptr inbounds %struct.node, ptr %11, i32 0, i32 1
  %arrayidx9 = getelementptr inbounds [2 x ptr], ptr %child8, i32 0, i32 0
  %12 = load ptr, ptr %arrayidx9, align 4
  %tobool10 = icmp ne ptr %12, null
  br i1 %tobool10, label %while.body, label %while.end

while.body:                                       ; preds = %while.cond
  %13 = load ptr, ptr %least, align 4
  %14 = load ptr, ptr %13, align 4
  %child11 = getelementptr inbounds %struct.node, ptr %14, i32 0, i32 1
  %arrayidx12 = getelementptr inbounds [2 x ptr], ptr %child11, i32 0, i32 0
  store ptr %arrayidx12, ptr %least, align 4
  br label %while.cond, !llvm.loop !9

while.end:                                        ; preds = %while.cond
  %15 = load ptr, ptr %least, align 4
  %16 = load ptr, ptr %15, align 4
  store ptr %16, ptr %heir, align 4
  %17 = load ptr, ptr %heir, align 4
  %child13 = getelementptr inbounds %struct.node, ptr %17, i32 0, i32 1
  %arrayidx14 = getelementptr inbounds [2 x ptr], ptr %child13, i32 0, i32 1
  %18 = load ptr, ptr %arrayidx14, align 4
  %19 = load ptr, ptr %least, align 4
  store ptr %18, ptr %19, align 4
  %20 = load ptr, ptr %gone, align 4
  %child15 = getelementptr inbounds %struct.node, ptr %20, i32 0, i32 1
  %arrayidx16 = getelementptr inbounds [2 x ptr], ptr %child15, i32 0, i32 0
  %21 = load ptr, ptr %arrayidx16, align 4
  %22 = load ptr, ptr %heir, align 4
  %child17 = getelementptr inbounds %struct.node, ptr %22, i32 0, i32 1
  %arrayidx18 = getelementptr inbounds [2 x ptr], ptr %child17, i32 0, i32 0
  store ptr %21, ptr %arrayidx18, align 4
  %23 = load ptr, ptr %gone, align 4
  %child19 = getelementptr inbounds %struct.node, ptr %23, i32 0, i32 1
  %arrayidx20 = getelementptr inbounds [2 x ptr], ptr %child19, i32 0, i32 1
  %24 = load ptr, ptr %arrayidx20, align 4
  %25 = load ptr, ptr %heir, align 4
  %child21 = getelementptr inbounds %struct.node, ptr %25, i32 0, i32 1
  %arrayidx22 = getelementptr inbounds [2 x ptr], ptr %child21, i32 0, i32 1
  store ptr %24, ptr %arrayidx22, align 4
  %26 = load ptr, ptr %heir, align 4
  %27 = load ptr, ptr %place, align 4
  store ptr %26, ptr %27, align 4
  br label %if.end27

if.else:                                          ; preds = %land.lhs.true, %if.end
  %28 = load ptr, ptr %gone, align 4
  %child23 = getelementptr inbounds %struct.node, ptr %28, i32 0, i32 1
  %29 = load ptr, ptr %gone, align 4
  %child24 = getelementptr inbounds %struct.node, ptr %29, i32 0, i32 1
  %arrayidx25 = getelementptr inbounds [2 x ptr], ptr %child24, i32 0, i32 1
  %30 = load ptr, ptr %arrayidx25, align 4
  %cmp = icmp ne ptr %30, null
  %conv = zext i1 %cmp to i32
  %arrayidx26 = getelementptr inbounds [2 x ptr], ptr %child23, i32 0, i32 %conv
  %31 = load ptr, ptr %arrayidx26, align 4
  %32 = load ptr, ptr %place, align 4
  store ptr %31, ptr %32, align 4
  br label %if.end27

if.end27:                                         ; preds = %if.else, %while.end
  %33 = load ptr, ptr %gone, align 4
  call void @free(ptr noundef %33)
  br label %return

return:                                           ; preds = %if.end27, %if.then
  ret void
}

; Function Attrs: noreturn
declare void @exit(i32 noundef) #2

; Function Attrs: noinline nounwind optnone uwtable
define internal ptr @place_of(ptr noundef %tree, i64 noundef %key) #0 {
entry:
  %tree.addr = alloca ptr, align 4
  %key.addr = alloca i64, align 8
  store ptr %tree, ptr %tree.addr, align 4
  store i64 %key, ptr %key.addr, align 8
  br label %while.cond

while.cond:                                       ; preds = %while.body, %entry
  %0 = load ptr, ptr %tree.addr, align 4
  %1 = load ptr, ptr %0, align 4
  %tobool = icmp ne ptr %1, null
  br i1 %tobool, label %land.rhs, label %land.end

land.rhs:                                         ; preds = %while.cond
  %2 = load ptr, ptr %tree.addr, align 4
  %3 = load ptr, ptr %2, align 4
  %key1 = getelementptr inbounds %struct.node, ptr %3, i32 0, i32 0
  %4 = load i64, ptr %key1, align 4
  %5 = load i64, ptr %key.addr, align 8
  %cmp = icmp ne i64 %4, %5
  br label %land.end

land.end:                                         ; preds = %land.rhs, %while.cond
  %6 = phi i1 [ false, %while.cond ], [ %cmp, %land.rhs ]
  br i1 %6, label %while.body, label %while.end

while.body:                                       ; preds = %land.end
  %7 = load ptr, ptr %tree.addr, align 4
  %8 = load ptr, ptr %7, align 4
  %child = getelementptr inbounds %struct.node, ptr %8, i32 0, i32 1
  %9 = load i64, ptr %key.addr, align 8
  %10 = load ptr, ptr %tree.addr, align 4
  %11 = load ptr, ptr %10, align 4
  %key2 = getelementptr inbounds %struct.node, ptr %11, i32 0, i32 0
  %12 = load i64, ptr %key2, align 4
  %cmp3 = icmp sgt i64 %9, %12
  %conv = zext i1 %cmp3 to i32
  %arrayidx = getelementptr inbounds [2 x ptr], ptr %child, i32 0, i32 %conv
  store ptr %arrayidx, ptr %tree.addr, align 4
  br label %while.cond, !llvm.loop !10

while.end:                                        ; preds = %land.end
  %13 = load ptr, ptr %tree.addr, align 4
  ret ptr %13
}

; Function Attrs: allocsize(0,1)
declare ptr @calloc(i32 noundef, i32 noundef) #3

; Function Attrs: noreturn nounwind
declare void @abort() #4

declare void @free(ptr noundef) #1

attributes #0 = { noinline nounwind optnone uwtable "frame-pointer"="all" "min-legal-vector-width"="0" "no-trapping-math"="true" "stack-protector-buffer-size"="8" "target-cpu"="i686" "target-features"="+cmov,+cx8,+x87" "tune-cpu"="generic" }
attributes #1 = { "frame-pointer"="all" "no-trapping-math"="true" "stack-protector-buffer-size"="8" "target-cpu"="i686" "target-features"="+cmov,+cx8,+x87" "tune-cpu"="generic" }
attributes #2 = { noreturn "frame-pointer"="all" "no-trapping-math"="true" "stack-protector-buffer-size"="8" "target-cpu"="i686" "target-features"="+cmov,+cx8,+x87" "tune-cpu"="generic" }
attributes #3 = { allocsize(0,1) "frame-pointer"="all" "no-trapping-math"="true" "stack-protector-buffer-size"="8" "target-cpu"="i686" "target-features"="+cmov,+cx8,+x87" "tune-cpu"="generic" }
attributes #4 = { noreturn nounwind "frame-pointer"="all" "no-trapping-math"="true" "stack-protector-buffer-size"="8" "target-cpu"="i686" "target-features"="+cmov,+cx8,+x87" "tune-cpu"="generic" }
attributes #5 = { noreturn }
attributes #6 = { allocsize(0,1) }
attributes #7 = { noreturn nounwind }

!llvm.module.flags = !{!0, !1, !2, !3, !4, !5}
!llvm.ident = !{!6}

!0 = !{i32 1, !"NumRegisterParameters", i32 0}
!1 = !{i32 1, !"wchar_size", i32 4}
!2 = !{i32 8, !"PIC Level", i32 2}
!3 = !{i32 7, !"PIE Level", i32 2}
!4 = !{i32 7, !"uwtable", i32 2}
!5 = !{i32 7, !"frame-pointer", i32 2}
!6 = !{!"Debian clang version 19.1.7 (3~deb12u1)"}
!7 = distinct !{!7, !8}
!8 = !{!"llvm.loop.mustprogress"}
!9 = distinct !{!9, !8}
!10 = distinct !{!10, !8}
