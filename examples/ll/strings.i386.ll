; ModuleID = 'strings.c'
source_filename = "strings.c"
target datalayout = "e-m:e-p:32:32-p270:32:32-p271:32:32-p272:64:64-i128:128-f64:32:64-f80:32-n8:16:32-S128"
target triple = "i386-unknown-linux-gnu"

@__const.main.text = private unnamed_addr constant [32 x i8] c"offload\00\00\00\00\00\00\00\00\00\00\00\00\00\00\00\00\00\00\00\00\00\00\00\00\00", align 1
@__const.main.upper = private unnamed_addr constant [32 x i8] c"native offload\00\00\00\00\00\00\00\00\00\00\00\00\00\00\00\00\00\00", align 1
@.str = private unnamed_addr constant [2 x i8] c" \00", align 1
@.str.1 = private unnamed_addr constant [7 x i8] c"native\00", align 1
@.str.2 = private unnamed_addr constant [7 x i8] c"server\00", align 1
@main.pairs = internal constant [3 x [2 x ptr]] [[2 x ptr] [ptr @.str.3, ptr @.str.4], [2 x ptr] [ptr @.str.5, ptr @.str.5], [2 x ptr] [ptr @.str.6, ptr @.str.7]], align 4
@.str.3 = private unnamed_addr constant [4 x i8] c"abc\00", align 1
@.str.4 = private unnamed_addr constant [4 x i8] c"abd\00", align 1
@.str.5 = private unnamed_addr constant [5 x i8] c"same\00", align 1
@.str.6 = private unnamed_addr constant [2 x i8] c"b\00", align 1
@.str.7 = private unnamed_addr constant [2 x i8] c"a\00", align 1

; Function Attrs: noinline nounwind optnone uwtable
define dso_local i32 @main() #0 {
entry:
  %retval = alloca i32, align 4
  %text = alloca [32 x i8], align 1
  %upper = alloca [32 x i8], align 1
  %n = alloca i32, align 4
  %at = alloca i32, align 4
  %none = alloca i32, align 4
  %p = alloca ptr, align 4
  %k = alloca i32, align 4
  store i32 0, ptr %retval, align 4
  call void @llvm.memcpy.p0.p0.i32(ptr align 1 %text, ptr align 1 @__const.main.text, i32 32, i1 false)
  call void @llvm.memcpy.p0.p0.i32(ptr align 1 %upper, ptr align 1 @__const.main.upper, i32 32, i1 false)
  %arraydecay = getelementptr inbounds [32 x i8], ptr %text, i32 0, i32 0
  %call = call ptr @join(ptr noundef %arraydecay, ptr noundef @.str)
  %call1 = call ptr @join(ptr noundef %call, ptr noundef @.str.1)
  %arraydecay2 = getelementptr inbounds [32 x i8], ptr %text, i32 0, i32 0
  %call3 = call i32 @puts(ptr noundef %arraydecay2)
  %arraydecay4 = getelementptr inbounds [32 x i8], ptr %text, i32 0, i32 0
  %call5 = call i32 @length(ptr noundef %arraydecay4)
  store i32 %call5, ptr %n, align 4
  %arraydecay6 = getelementptr inbounds [32 x i8], ptr %text, i32 0, i32 0
  %call7 = call i32 @find(ptr noundef %arraydecay6, ptr noundef @.str.1)
  store i32 %call7, ptr %at, align 4
  %arraydecay8 = getelementptr inbounds [32 x i8], ptr %text, i32 0, i32 0
  %call9 = call i32 @find(ptr noundef %arraydecay8, ptr noundef @.str.2)
  store i32 %call9, ptr %none, align 4
  %arraydecay10 = getelementptr inbounds [32 x i8], ptr %text, i32 0, i32 0
  call void @turn(ptr noundef %arraydecay10)
  %arraydecay11 = getelementptr inbounds [32 x i8], ptr %text, i32 0, i32 0
  %call12 = call i32 @puts(ptr noundef %arraydecay11)
  %arraydecay13 = getelementptr inbounds [32 x i8], ptr %upper, i32 0, i32 0
  store ptr %arraydecay13, ptr %p, align 4
  br label %for.cond

for.cond:                                         ; preds = %for.inc, %entry
  %0 = load ptr, ptr %p, align 4
  %1 = load i8, ptr %0, align 1
  %tobool = icmp ne i8 %1, 0
  br i1 %tobool, label %for.body, label %for.end

for.body:                                         ; preds = %for.cond
  %2 = load ptr, ptr %p, align 4
  %3 = load i8, ptr %2, align 1
  %conv = sext i8 %3 to i32
  %cmp = icmp sge i32 %conv, 97
  br i1 %cmp, label %land.lhs.true, label %if.end

land.lhs.true:                                    ; preds = %for.body
  %4 = load ptr, ptr %p, align 4
  %5 = load i8, ptr %4, align 1
  %conv15 = sext i8 %5 to i32
  %cmp16 = icmp sle i32 %conv15, 122
  br i1 %cmp16, label %if.then, label %if.end

if.then:                                          ; preds = %land.lhs.true
  %6 = load ptr, ptr %p, align 4
  %7 = load i8, ptr %6, align 1
  %conv18 = sext i8 %7 to i32
  %sub = sub nsw i32 %conv18, 32
  %conv19 = trunc i32 %sub to i8
  store i8 %conv19, ptr %6, align 1
  br label %if.end

if.end:                                           ; preds = %if.then, %land.lhs.true, %for.body
  br label %for.inc

for.inc:                                          ; preds = %if.end
  %8 = load ptr, ptr %p, align 4
  %incdec.ptr = getelementptr inbounds i8, ptr %8, i32 1
  store ptr %incdec.ptr, ptr %p, align 4
  br label %for.cond, !llvm.loop !7

for.end:                                          ; preds = %for.cond
  %arraydecay20 = getelementptr inbounds [32 x i8], ptr %upper, i32 0, i32 0
  %call21 = call i32 @puts(ptr noundef %arraydecay20)
  %9 = load i32, ptr %n, align 4
  call void @number(i32 noundef %9)
  store i32 0, ptr %k, align 4
  br label %for.cond22

for.cond22:                                       ; preds = %for.inc31, %for.end
  %10 = load i32, ptr %k, align 4
  %cmp23 = icmp slt i32 %10, 3
  br i1 %cmp23, label %for.body25, label %for.end32

for.body25:                                       ; preds = %for.cond22
  %call26 = call i32 @putchar(i32 noundef 32)
  %11 = load i32, ptr %k, align 4
  %arrayidx = getelementptr inbounds [3 x [2 x ptr]], ptr @main.pairs, i32 0, i32 %11
  %arrayidx27 = getelementptr inbounds [2 x ptr], ptr %arrayidx, i32 0, i32 0
  %12 = load ptr, ptr %arrayidx27, align 4
  %13 = load i32, ptr %k, align 4
  %arrayidx28 = getelementptr inbounds [3 x [2 x ptr]], ptr @main.pairs, i32 0, i32 %13
  %arrayidx29 = getelementptr inbounds [2 x ptr], ptr %arrayidx28, i32 0, i32 1
  %14 = load ptr, ptr %arrayidx29, align 4
  %call30 = call i32 @compare(ptr noundef %12, ptr noundef %14)
  call void @number(i32 noundef %call30)
  br label %for.inc31

for.inc31:                                        ; preds = %for.body25
  %15 = load i32, ptr %k, align 4
  %inc = add nsw i32 %15, 1
  store i32 %inc, ptr %k, align 4
  br label %for.cond22, !llvm.loop !9

for.end32:                                        ; preds = %for.cond22
  %call33 = call i32 @putchar(i32 noundef 10)
  %16 = load i32, ptr %at, align 4
  call void @number(i32 noundef %16)
  %call34 = call i32 @putchar(i32 noundef 32)
  %17 = load i32, ptr %none, align 4
  call void @number(i32 noundef %17)
  %call35 = call i32 @putchar(i32 noundef 10)
  %18 = load i32, ptr %n, align 4
  ret i32 %18
}

; Function Attrs: nocallback nofree nounwind willreturn memory(argmem: readwrite)
declare void @llvm.memcpy.p0.p0.i32(ptr noalias nocapture writeonly, ptr noalias nocapture readonly, i32, i1 immarg) #1

; Function Attrs: noinline nounwind optnone uwtable
define internal ptr @join(ptr noundef %to, ptr noundef %from) #0 {
entry:
  %to.addr = alloca ptr, align 4
  %from.addr = alloca ptr, align 4
  store ptr %to, ptr %to.addr, align 4
  store ptr %from, ptr %from.addr, align 4
  br label %while.cond

while.cond:                                       ; preds = %while.body, %entry
  %0 = load ptr, ptr %to.addr, align 4
  %1 = load i8, ptr %0, align 1
  %tobool = icmp ne i8 %1, 0
  br i1 %tobool, label %while.body, label %while.end

while.body:                                       ; preds = %while.cond
  %2 = load ptr, ptr %to.addr, align 4
  %incdec.ptr = getelementptr inbounds i8, ptr %2, i32 1
  store ptr %incdec.ptr, ptr %to.addr, align 4
  br label %while.cond, !llvm.loop !10

while.end:                                        ; preds = %while.cond
  br label %while.cond1

while.cond1:                                      ; preds = %while.body5, %while.end
  %3 = load ptr, ptr %from.addr, align 4
  %incdec.ptr2 = getelementptr inbounds i8, ptr %3, i32 1
  store ptr %incdec.ptr2, ptr %from.addr, align 4
  %4 = load i8, ptr %3, align 1
  %5 = load ptr, ptr %to.addr, align 4
  %incdec.ptr3 = getelementptr inbounds i8, ptr %5, i32 1
  store ptr %incdec.ptr3, ptr %to.addr, align 4
  store i8 %4, ptr %5, align 1
  %tobool4 = icmp ne i8 %4, 0
  br i1 %tobool4, label %while.body5, label %while.end6

while.body5:                                      ; preds = %while.cond1
  br label %while.cond1, !llvm.loop !11

while.end6:                                       ; preds = %while.cond1
  %6 = load ptr, ptr %to.addr, align 4
  %add.ptr = getelementptr inbounds i8, ptr %6, i32 -1
  ret ptr %add.ptr
}

declare i32 @puts(ptr noundef) #2

; Function Attrs: noinline nounwind optnone uwtable
define internal i32 @length(ptr noundef %s) #0 {
entry:
  %s.addr = alloca ptr, align 4
  %n = alloca i32, align 4
  store ptr %s, ptr %s.addr, align 4
  store i32 0, ptr %n, align 4
  br label %while.cond

while.cond:                                       ; preds = %while.body, %entry
  %0 = load ptr, ptr %s.addr, align 4
  %1 = load i32, ptr %n, align 4
  %arrayidx = getelementptr inbounds i8, ptr %0, i32 %1
  %2 = load i8, ptr %arrayidx, align 1
  %tobool = icmp ne i8 %2, 0
  br i1 %tobool, label %while.body, label %while.end

while.body:                                       ; preds = %while.cond
  %3 = load i32, ptr %n, align 4
  %inc = add nsw i32 %3, 1
  store i32 %inc, ptr %n, align 4
  br label %while.cond, !llvm.loop !12

while.end:                                        ; preds = %while.cond
  %4 = load i32, ptr %n, align 4
  ret i32 %4
}

; Function Attrs: noinline nounwind optnone uwtable
define internal i32 @find(ptr noundef %s, ptr noundef %part) #0 {
entry:
  %retval = alloca i32, align 4
  %s.addr = alloca ptr, align 4
  %part.addr = alloca ptr, align 4
  %i = alloca i32, align 4
  %j = alloca i32, align 4
  store ptr %s, ptr %s.addr, align 4
  store ptr %part, ptr %part.addr, align 4
  store i32 0, ptr %i, align 4
  br label %for.cond

for.cond:                                         ; preds = %for.inc, %entry
  %0 = load ptr, ptr %s.addr, align 4
  %1 = load i32, ptr %i, align 4
  %arrayidx = getelementptr inbounds i8, ptr %0, i32 %1
  %2 = load i8, ptr %arrayidx, align 1
  %tobool = icmp ne i8 %2, 0
  br i1 %tobool, label %for.body, label %for.end

for.body:                                         ; preds = %for.cond
  store i32 0, ptr %j, align 4
  br label %while.cond

while.cond:                                       ; preds = %while.body, %for.body
  %3 = load ptr, ptr %part.addr, align 4
  %4 = load i32, ptr %j, align 4
  %arrayidx1 = getelementptr inbounds i8, ptr %3, i32 %4
  %5 = load i8, ptr %arrayidx1, align 1
  %conv = sext i8 %5 to i32
  %tobool2 = icmp ne i32 %conv, 0
  br i1 %tobool2, label %land.rhs, label %land.end

land.rhs:                                         ; preds = %while.cond
  %6 = load ptr, ptr %s.addr, align 4
  %7 = load i32, ptr %i, align 4
  %8 = load i32, ptr %j, align 4
  %add = add nsw i32 %7, %8
  %arrayidx3 = getelementptr inbounds i8, ptr %6, i32 %add
  %9 = load i8, ptr %arrayidx3, align 1
  %conv4 = sext i8 %9 to i32
  %10 = load ptr, ptr %part.addr, align 4
  %11 = load i32, ptr %j, align 4
  %arrayidx5 = getelementptr inbounds i8, ptr %10, i32 %11
  %12 = load i8, ptr %arrayidx5, align 1
  %conv6 = sext i8 %12 to i32
  %cmp = icmp eq i32 %conv4, %conv6
  br label %land.end

land.end:                                         ; preds = %land.rhs, %while.cond
  %13 = phi i1 [ false, %while.cond ], [ %cmp, %land.rhs ]
  br i1 %13, label %while.body, label %while.end

while.body:                                       ; preds = %land.end
  %14 = load i32, ptr %j, align 4
  %inc = add nsw i32 %14, 1
  store i32 %inc, ptr %j, align 4
  br label %while.cond, !llvm.loop !13

while.end:                                        ; preds = %land.end
  %15 = load ptr, ptr %part.addr, align 4
  %16 = load i32, ptr %j, align 4
  %arrayidx8 = getelementptr inbounds i8, ptr %15, i32 %16
  %17 = load i8, ptr %arrayidx8, align 1
  %tobool9 = icmp ne i8 %17, 0
  br i1 %tobool9, label %if.end, label %if.then

if.then:                                          ; preds = %while.end
  %18 = load i32, ptr %i, align 4
  store i32 %18, ptr %retval, align 4
  br label %return

if.end:                                           ; preds = %while.end
  br label %for.inc

for.inc:                                          ; preds = %if.end
  %19 = load i32, ptr %i, align 4
  %inc10 = add nsw i32 %19, 1
  store i32 %inc10, ptr %i, align 4
  br label %for.cond, !llvm.loop !14

for.end:                                          ; preds = %for.cond
  store i32 -1, ptr %retval, align 4
  br label %return

return:                                           ; preds = %for.end, %if.then
  %20 = load i32, ptr %retval, align 4
  ret i32 %20
}

; Function Attrs: noinline nounwind optnone uwtable
define internal void @turn(ptr noundef %s) #0 {
entry:
  %s.addr = alloca ptr, align 4
  %i = alloca i32, align 4
  %j = alloca i32, align 4
  %c = alloca i8, align 1
  store ptr %s, ptr %s.addr, align 4
  store i32 0, ptr %i, align 4
  %0 = load ptr, ptr %s.addr, align 4
  %call = call i32 @length(ptr noundef %0)
  %sub = sub nsw i32 %call, 1
  store i32 %sub, ptr %j, align 4
  br label %for.cond

for.cond:                                         ; preds = %for.inc, %entry
  %1 = load i32, ptr %i, align 4
  %2 = load i32, ptr %j, align 4
  %cmp = icmp slt i32 %1, %2
  br i1 %cmp, label %for.body, label %for.end

for.body:                                         ; preds = %for.cond
  %3 = load ptr, ptr %s.addr, align 4
  %4 = load i32, ptr %i, align 4
  %arrayidx = getelementptr inbounds i8, ptr %3, i32 %4
  %5 = load i8, ptr %arrayidx, align 1
  store i8 %5, ptr %c, align 1
  %6 = load ptr, ptr %s.addr, align 4
  %7 = load i32, ptr %j, align 4
  %arrayidx1 = getelementptr inbounds i8, ptr %6, i32 %7
  %8 = load i8, ptr %arrayidx1, align 1
  %9 = load ptr, ptr %s.addr, align 4
  %10 = load i32, ptr %i, align 4
  %arrayidx2 = getelementptr inbounds i8, ptr %9, i32 %10
  store i8 %8, ptr %arrayidx2, align 1
  %11 = load i8, ptr %c, align 1
  %12 = load ptr, ptr %s.addr, align 4
  %13 = load i32, ptr %j, align 4
  %arrayidx3 = getelementptr inbounds i8, ptr %12, i32 %13
  store i8 %11, ptr %arrayidx3, align 1
  br label %for.inc

for.inc:                                          ; preds = %for.body
  %14 = load i32, ptr %i, align 4
  %inc = add nsw i32 %14, 1
  store i32 %inc, ptr %i, align 4
  %15 = load i32, ptr %j, align 4
  %dec = add nsw i32 %15, -1
  store i32 %dec, ptr %j, align 4
  br label %for.cond, !llvm.loop !15

for.end:                                          ; preds = %for.cond
  ret void
}

; Function Attrs: noinline nounwind optnone uwtable
define internal void @number(i32 noundef %n) #0 {
entry:
  %n.addr = alloca i32, align 4
  store i32 %n, ptr %n.addr, align 4
  %0 = load i32, ptr %n.addr, align 4
  %cmp = icmp slt i32 %0, 0
  br i1 %cmp, label %if.then, label %if.end

if.then:                                          ; preds = %entry
  %call = call i32 @putchar(i32 noundef 45)
  %1 = load i32, ptr %n.addr, align 4
  %sub = sub nsw i32 0, %1
  store i32 %sub, ptr %n.addr, align 4
  br label %if.end

if.end:                                           ; preds = %if.then, %entry
  %2 = load i32, ptr %n.addr, align 4
  %cmp1 = icmp sge i32 %2, 10
  br i1 %cmp1, label %if.then2, label %if.end3

if.then2:                                         ; preds = %if.end
  %3 = load i32, ptr %n.addr, align 4
  %div = sdiv i32 %3, 10
  call void @number(i32 noundef %div)
  br label %if.end3

if.end3:                                          ; preds = %if.then2, %if.end
  %4 = load i32, ptr %n.addr, align 4
  %rem = srem i32 %4, 10
  %add = add nsw i32 48, %rem
  %call4 = call i32 @putchar(i32 noundef %add)
  ret void
}

declare i32 @putchar(i32 noundef) #2

; Function Attrs: noinline nounwind optnone uwtable
define internal i32 @compare(ptr noundef %a, ptr noundef %b) #0 {
entry:
  %a.addr = alloca ptr, align 4
  %b.addr = alloca ptr, align 4
  store ptr %a, ptr %a.addr, align 4
  store ptr %b, ptr %b.addr, align 4
  br label %for.cond

for.cond:                                         ; preds = %for.inc, %entry
  %0 = load ptr, ptr %a.addr, align 4
  %1 = load i8, ptr %0, align 1
  %conv = sext i8 %1 to i32
  %tobool = icmp ne i32 %conv, 0
  br i1 %tobool, label %land.rhs, label %land.end

land.rhs:                                         ; preds = %for.cond
  %2 = load ptr, ptr %a.addr, align 4
  %3 = load i8, ptr %2, align 1
  %conv1 = sext i8 %3 to i32
  %4 = load ptr, ptr %b.addr, align 4
  %5 = load i8, ptr %4, align 1
  %conv2 = sext i8 %5 to i32
  %cmp = icmp eq i32 %conv1, %conv2
  br label %land.end

land.end:                                         ; preds = %land.rhs, %for.cond
  %6 = phi i1 [ false, %for.cond ], [ %cmp, %land.rhs ]
  br i1 %6, label %for.body, label %for.end

for.body:                                         ; preds = %land.end
  %7 = load ptr, ptr %b.addr, align 4
  %incdec.ptr = getelementptr inbounds i8, ptr %7, i32 1
  store ptr %incdec.ptr, ptr %b.addr, align 4
  br label %for.inc

for.inc:                                          ; preds = %for.body
  %8 = load ptr, ptr %a.addr, align 4
  %incdec.ptr4 = getelementptr inbounds i8, ptr %8, i32 1
  store ptr %incdec.ptr4, ptr %a.addr, align 4
  br label %for.cond, !llvm.loop !16

for.end:                                          ; preds = %land.end
  %9 = load ptr, ptr %a.addr, align 4
  %10 = load i8, ptr %9, align 1
  %conv5 = sext i8 %10 to i32
  %11 = load ptr, ptr %b.addr, align 4
  %12 = load i8, ptr %11, align 1
  %conv6 = sext i8 %12 to i32
  %cmp7 = icmp slt i32 %conv5, %conv6
  br i1 %cmp7, label %cond.true, label %cond.false

cond.true:                                        ; preds = %for.end
  br label %cond.end

cond.false:                                       ; preds = %for.end
  %13 = load ptr, ptr %a.addr, align 4
  %14 = load i8, ptr %13, align 1
  %conv9 = sext i8 %14 to i32
  %15 = load ptr, ptr %b.addr, align 4
  %16 = load i8, ptr %15, align 1
  %conv10 = sext i8 %16 to i32
  %cmp11 = icmp sgt i32 %conv9, %conv10
  %conv12 = zext i1 %cmp11 to i32
  br label %cond.end

cond.end:                                         ; preds = %cond.false, %cond.true
  %cond = phi i32 [ -1, %cond.true ], [ %conv12, %cond.false ]
  ret i32 %cond
}

attributes #0 = { noinline nounwind optnone uwtable "frame-pointer"="all" "min-legal-vector-width"="0" "no-trapping-math"="true" "stack-protector-buffer-size"="8" "target-cpu"="i686" "target-features"="+cmov,+cx8,+x87" "tune-cpu"="generic" }
attributes #1 = { nocallback nofree nounwind willreturn memory(argmem: readwrite) }
attributes #2 = { "frame-pointer"="all" "no-trapping-math"="true" "stack-protector-buffer-size"="8" "target-cpu"="i686" "target-features"="+cmov,+cx8,+x87" "tune-cpu"="generic" }

!llvm.module.flags = !{!0, !1, !2, !3, !4, !5}
!llvm.ident = !{!6}

!0 = !{i32 1, !"NumRegisterParameters", i32 0}
!1 = !{i32 1, !"wchar_size", i32 4}
!2 = !{i32 8, !"PIC Level", i32 2}
!3 = !{i32 7, !"PIE Level", i32 2}
!4 = !{i32 7, !"uwtable", i32 2}
!5 = !{i32 7, !"frame-pointer", i32 2}
!6 = !{!"Debian clang version 19.1.7 (3~deb12u1)"}
!7 = distinct !{!7, !8}
!8 = !{!"llvm.loop.mustprogress"}
!9 = distinct !{!9, !8}
!10 = distinct !{!10, !8}
!11 = distinct !{!11, !8}
!12 = distinct !{!12, !8}
!13 = distinct !{!13, !8}
!14 = distinct !{!14, !8}
!15 = distinct !{!15, !8}
!16 = distinct !{!16, !8}
