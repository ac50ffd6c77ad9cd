; ModuleID = 'hash.c'
source_filename = "hash.c"
target datalayout = "e-m:e-p:32:32-p270:32:32-p271:32:32-p272:64:64-i128:128-f64:32:64-f80:32-n8:16:32-S128"
target triple = "i386-unknown-linux-gnu"

%struct.slot = type { ptr, i32, i32 }

@text = internal constant [61 x i8] c"the server asks the device for the page and the server waits\00", align 1
@kept = internal global [80 x i8] zeroinitializer, align 1
@main.asked = internal constant [5 x ptr] [ptr @.str, ptr @.str.1, ptr @.str.2, ptr @.str.3, ptr @.str.4], align 4
@.str = private unnamed_addr constant [4 x i8] c"the\00", align 1
@.str.1 = private unnamed_addr constant [7 x i8] c"server\00", align 1
@.str.2 = private unnamed_addr constant [7 x i8] c"device\00", align 1
@.str.3 = private unnamed_addr constant [5 x i8] c"page\00", align 1
@.str.4 = private unnamed_addr constant [5 x i8] c"link\00", align 1
@table = internal global [16 x %struct.slot] zeroinitializer, align 4

; Function Attrs: noinline nounwind optnone uwtable
define dso_local i32 @main() #0 {
entry:
  %retval = alloca i32, align 4
  %start = alloca i32, align 4
  %i = alloca i32, align 4
  %all = alloca i32, align 4
  %i12 = alloca i32, align 4
  store i32 0, ptr %retval, align 4
  store i32 0, ptr %start, align 4
  store i32 0, ptr %i, align 4
  br label %for.cond

for.cond:                                         ; preds = %for.inc, %entry
  %0 = load i32, ptr %i, align 4
  %cmp = icmp ult i32 %0, 61
  br i1 %cmp, label %for.body, label %for.end

for.body:                                         ; preds = %for.cond
  %1 = load i32, ptr %i, align 4
  %arrayidx = getelementptr inbounds [61 x i8], ptr @text, i32 0, i32 %1
  %2 = load i8, ptr %arrayidx, align 1
  %conv = sext i8 %2 to i32
  %cmp1 = icmp eq i32 %conv, 32
  br i1 %cmp1, label %cond.true, label %cond.false

cond.true:                                        ; preds = %for.body
  br label %cond.end

cond.false:                                       ; preds = %for.body
  %3 = load i32, ptr %i, align 4
  %arrayidx3 = getelementptr inbounds [61 x i8], ptr @text, i32 0, i32 %3
  %4 = load i8, ptr %arrayidx3, align 1
  %conv4 = sext i8 %4 to i32
  br label %cond.end

cond.end:                                         ; preds = %cond.false, %cond.true
  %cond = phi i32 [ 0, %cond.true ], [ %conv4, %cond.false ]
  %conv5 = trunc i32 %cond to i8
  %5 = load i32, ptr %i, align 4
  %arrayidx6 = getelementptr inbounds [80 x i8], ptr @kept, i32 0, i32 %5
  store i8 %conv5, ptr %arrayidx6, align 1
  %6 = load i32, ptr %i, align 4
  %arrayidx7 = getelementptr inbounds [80 x i8], ptr @kept, i32 0, i32 %6
  %7 = load i8, ptr %arrayidx7, align 1
  %conv8 = sext i8 %7 to i32
  %cmp9 = icmp eq i32 %conv8, 0
  br i1 %cmp9, label %if.then, label %if.end

if.then:                                          ; preds = %cond.end
  %8 = load i32, ptr %start, align 4
  %arrayidx11 = getelementptr inbounds [80 x i8], ptr @kept, i32 0, i32 %8
  call void @count(ptr noundef %arrayidx11)
  %9 = load i32, ptr %i, align 4
  %add = add nsw i32 %9, 1
  store i32 %add, ptr %start, align 4
  br label %if.end

if.end:                                           ; preds = %if.then, %cond.end
  br label %for.inc

for.inc:                                          ; preds = %if.end
  %10 = load i32, ptr %i, align 4
  %inc = add i32 %10, 1
  store i32 %inc, ptr %i, align 4
  br label %for.cond, !llvm.loop !7

for.end:                                          ; preds = %for.cond
  store i32 0, ptr %all, align 4
  store i32 0, ptr %i12, align 4
  br label %for.cond13

for.cond13:                                       ; preds = %for.inc19, %for.end
  %11 = load i32, ptr %i12, align 4
  %cmp14 = icmp slt i32 %11, 5
  br i1 %cmp14, label %for.body16, label %for.end21

for.body16:                                       ; preds = %for.cond13
  %12 = load i32, ptr %i12, align 4
  %arrayidx17 = getelementptr inbounds [5 x ptr], ptr @main.asked, i32 0, i32 %12
  %13 = load ptr, ptr %arrayidx17, align 4
  %call = call i32 @show(ptr noundef %13)
  %14 = load i32, ptr %all, align 4
  %add18 = add nsw i32 %14, %call
  store i32 %add18, ptr %all, align 4
  br label %for.inc19

for.inc19:                                        ; preds = %for.body16
  %15 = load i32, ptr %i12, align 4
  %inc20 = add nsw i32 %15, 1
  store i32 %inc20, ptr %i12, align 4
  br label %for.cond13, !llvm.loop !9

for.end21:                                        ; preds = %for.cond13
  %16 = load i32, ptr %all, align 4
  ret i32 %16
}

; Function Attrs: noinline nounwind optnone uwtable
define internal void @count(ptr noundef %word) #0 {
entry:
  %word.addr = alloca ptr, align 4
  %s = alloca ptr, align 4
  store ptr %word, ptr %word.addr, align 4
  %0 = load ptr, ptr %word.addr, align 4
  %call = call ptr @slot_of(ptr noundef %0)
  store ptr %call, ptr %s, align 4
  %1 = load ptr, ptr %word.addr, align 4
  %2 = load ptr, ptr %s, align 4
  %word1 = getelementptr inbounds %struct.slot, ptr %2, i32 0, i32 0
  store ptr %1, ptr %word1, align 4
  %3 = load ptr, ptr %word.addr, align 4
  %call2 = call i32 @hash(ptr noundef %3)
  %4 = load ptr, ptr %s, align 4
  %hash = getelementptr inbounds %struct.slot, ptr %4, i32 0, i32 1
  store i32 %call2, ptr %hash, align 4
  %5 = load ptr, ptr %s, align 4
  %count = getelementptr inbounds %struct.slot, ptr %5, i32 0, i32 2
  %6 = load i32, ptr %count, align 4
  %inc = add nsw i32 %6, 1
  store i32 %inc, ptr %count, align 4
  ret void
}

; Function Attrs: noinline nounwind optnone uwtable
define internal i32 @show(ptr noundef %word) #0 {
entry:
  %word.addr = alloca ptr, align 4
  %s = alloca ptr, align 4
  %p = alloca ptr, align 4
  store ptr %word, ptr %word.addr, align 4
  %0 = load ptr, ptr %word.addr, align 4
  %call = call ptr @slot_of(ptr noundef %0)
  store ptr %call, ptr %s, align 4
  %1 = load ptr, ptr %word.addr, align 4
  store ptr %1, ptr %p, align 4
  br label %for.cond

for.cond:                                         ; preds = %for.inc, %entry
  %2 = load ptr, ptr %p, align 4
  %3 = load i8, ptr %2, align 1
  %tobool = icmp ne i8 %3, 0
  br i1 %tobool, label %for.body, label %for.end

for.body:                                         ; preds = %for.cond
  %4 = load ptr, ptr %p, align 4
  %5 = load i8, ptr %4, align 1
  %conv = sext i8 %5 to i32
  %call1 = call i32 @putchar(i32 noundef %conv)
  br label %for.inc

for.inc:                                          ; preds = %for.body
  %6 = load ptr, ptr %p, align 4
  %incdec.ptr = getelementptr inbounds i8, ptr %6, i32 1
  store ptr %incdec.ptr, ptr %p, align 4
  br label %for.cond, !llvm.loop !10

for.end:                                          ; preds = %for.cond
  %call2 = call i32 @putchar(i32 noundef 32)
  %7 = load ptr, ptr %s, align 4
  %word3 = getelementptr inbounds %struct.slot, ptr %7, i32 0, i32 0
  %8 = load ptr, ptr %word3, align 4
  %tobool4 = icmp ne ptr %8, null
  br i1 %tobool4, label %cond.true, label %cond.false

cond.true:                                        ; preds = %for.end
  %9 = load ptr, ptr %s, align 4
  %count = getelementptr inbounds %struct.slot, ptr %9, i32 0, i32 2
  %10 = load i32, ptr %count, align 4
  %add = add nsw i32 48, %10
  br label %cond.end

cond.false:                                       ; preds = %for.end
  br label %cond.end

cond.end:                                         ; preds = %cond.false, %cond.true
  %cond = phi i32 [ %add, %cond.true ], [ 45, %cond.false ]
  %call5 = call i32 @putchar(i32 noundef %cond)
  %call6 = call i32 @putchar(i32 noundef 10)
  %11 = load ptr, ptr %s, align 4
  %count7 = getelementptr inbounds %struct.slot, ptr %11, i32 0, i32 2
  %12 = load i32, ptr %count7, align 4
  ret i32 %12
}

; Function Attrs: noinline nounwind optnone uwtable
define internal ptr @slot_of(ptr noundef %word) #0 {
entry:
  %word.addr = alloca ptr, align 4
  %h = alloca i32, align 4
  %i = alloca i32, align 4
  %s = alloca ptr, align 4
  store ptr %word, ptr %word.addr, align 4
  %0 = load ptr, ptr %word.addr, align 4
  %call = call i32 @hash(ptr noundef %0)
  store i32 %call, ptr %h, align 4
  %1 = load i32, ptr %h, align 4
  %rem = urem i32 %1, 16
  store i32 %rem, ptr %i, align 4
  br label %for.cond

for.cond:                                         ; preds = %for.inc, %entry
  %2 = load i32, ptr %i, align 4
  %arrayidx = getelementptr inbounds [16 x %struct.slot], ptr @table, i32 0, i32 %2
  store ptr %arrayidx, ptr %s, align 4
  %3 = load ptr, ptr %s, align 4
  %word1 = getelementptr inbounds %struct.slot, ptr %3, i32 0, i32 0
  %4 = load ptr, ptr %word1, align 4
  %tobool = icmp ne ptr %4, null
  br i1 %tobool, label %lor.lhs.false, label %if.then

lor.lhs.false:                                    ; preds = %for.cond
  %5 = load ptr, ptr %s, align 4
  %hash = getelementptr inbounds %struct.slot, ptr %5, i32 0, i32 1
  %6 = load i32, ptr %hash, align 4
  %7 = load i32, ptr %h, align 4
  %cmp = icmp eq i32 %6, %7
  br i1 %cmp, label %land.lhs.true, label %if.end

land.lhs.true:                                    ; preds = %lor.lhs.false
  %8 = load ptr, ptr %s, align 4
  %word2 = getelementptr inbounds %struct.slot, ptr %8, i32 0, i32 0
  %9 = load ptr, ptr %word2, align 4
  %10 = load ptr, ptr %word.addr, align 4
  %call3 = call i32 @same(ptr noundef %9, ptr noundef %10)
  %tobool4 = icmp ne i32 %call3, 0
  br i1 %tobool4, label %if.then, label %if.end

if.then:                                          ; preds = %land.lhs.true, %for.cond
  %11 = load ptr, ptr %s, align 4
  ret ptr %11

if.end:                                           ; preds = %land.lhs.true, %lor.lhs.false
  br label %for.inc

for.inc:                                          ; preds = %if.end
  %12 = load i32, ptr %i, align 4
  %add = add i32 %12, 1
  %rem5 = urem i32 %add, 16
  store i32 %rem5, ptr %i, align 4
  br label %for.cond
}

; Function Attrs: noinline nounwind optnone uwtable
define internal i32 @hash(ptr noundef %s) #0 {
entry:
  %s.addr = alloca ptr, align 4
  %h = alloca i32, align 4
  store ptr %s, ptr %s.addr, align 4
  store i32 -2128831035, ptr %h, align 4
  br label %while.cond

while.cond:                                       ; preds = %while.body, %entry
  %0 = load ptr, ptr %s.addr, align 4
  %1 = load i8, ptr %0, align 1
  %tobool = icmp ne i8 %1, 0
  br i1 %tobool, label %while.body, label %while.end

while.body:                                       ; preds = %while.cond
  %2 = load i32, ptr %h, align 4
  %3 = load ptr, ptr %s.addr, align 4
  %incdec.ptr = getelementptr inbounds i8, ptr %3, i32 1
  store ptr %incdec.ptr, ptr %s.addr, align 4
  %4 = load i8, ptr %3, align 1
  %conv = zext i8 %4 to i32
  %xor = xor i32 %2, %conv
  %mul = mul i32 %xor, 16777619
  store i32 %mul, ptr %h, align 4
  br label %while.cond, !llvm.loop !11

while.end:                                        ; preds = %while.cond
  %5 = load i32, ptr %h, align 4
  ret i32 %5
}

; Function Attrs: noinline nounwind optnone uwtable
define internal i32 @same(ptr noundef %a, ptr noundef %b) #0 {
entry:
  %a.addr = alloca ptr, align 4
  %b.addr = alloca ptr, align 4
  store ptr %a, ptr %a.addr, align 4
  store ptr %b, ptr %b.addr, align 4
  br label %for.cond

for.cond:                                         ; preds = %for.inc, %entry
  %0 = load ptr, ptr %a.addr, align 4
  %1 = load i8, ptr %0, align 1
  %conv = sext i8 %1 to i32
  %tobool = icmp ne i32 %conv, 0
  br i1 %tobool, label %land.rhs, label %land.end

land.rhs:                                         ; preds = %for.cond
  %2 = load ptr, ptr %a.addr, align 4
  %3 = load i8, ptr %2, align 1
  %conv1 = sext i8 %3 to i32
  %4 = load ptr, ptr %b.addr, align 4
  %5 = load i8, ptr %4, align 1
  %conv2 = sext i8 %5 to i32
  %cmp = icmp eq i32 %conv1, %conv2
  br label %land.end

land.end:                                         ; preds = %land.rhs, %for.cond
  %6 = phi i1 [ false, %for.cond ], [ %cmp, %land.rhs ]
  br i1 %6, label %for.body, label %for.end

for.body:                                         ; preds = %land.end
  %7 = load ptr, ptr %b.addr, align 4
  %incdec.ptr = getelementptr inbounds i8, ptr %7, i32 1
  store ptr %incdec.ptr, ptr %b.addr, align 4
  br label %for.inc

for.inc:                                          ; preds = %for.body
  %8 = load ptr, ptr %a.addr, align 4
  %incdec.ptr4 = getelementptr inbounds i8, ptr %8, i32 1
  store ptr %incdec.ptr4, ptr %a.addr, align 4
  br label %for.cond, !llvm.loop !12

for.end:                                          ; preds = %land.end
  %9 = load ptr, ptr %a.addr, align 4
  %10 = load i8, ptr %9, align 1
  %conv5 = sext i8 %10 to i32
  %11 = load ptr, ptr %b.addr, align 4
  %12 = load i8, ptr %11, align 1
  %conv6 = sext i8 %12 to i32
  %cmp7 = icmp eq i32 %conv5, %conv6
  %conv8 = zext i1 %cmp7 to i32
  ret i32 %conv8
}

declare i32 @putchar(i32 noundef) #1

attributes #0 = { noinline nounwind optnone uwtable "frame-pointer"="all" "min-legal-vector-width"="0" "no-trapping-math"="true" "stack-protector-buffer-size"="8" "target-cpu"="i686" "target-features"="+cmov,+cx8,+x87" "tune-cpu"="generic" }
attributes #1 = { "frame-pointer"="all" "no-trapping-math"="true" "stack-protector-buffer-size"="8" "target-cpu"="i686" "target-features"="+cmov,+cx8,+x87" "tune-cpu"="generic" }

!llvm.module.flags = !{!0, !1, !2, !3, !4, !5}
!llvm.ident = !{!6}

!0 = !{i32 1, !"NumRegisterParameters", i32 0}
!1 = !{i32 1, !"wchar_size", i32 4}
!2 = !{i32 8, !"PIC Level", i32 2}
!3 = !{i32 7, !"PIE Level", i32 2}
!4 = !{i32 7, !"uwtable", i32 2}
!5 = !{i32 7, !"frame-pointer", i32 2}
!6 = !{!"Debian clang version 19.1.7 (3~deb12u1)"}
!7 = distinct !{!7, !8}
!8 = !{!"llvm.loop.mustprogress"}
!9 = distinct !{!9, !8}
!10 = distinct !{!10, !8}
!11 = distinct !{!11, !8}
!12 = distinct !{!12, !8}
