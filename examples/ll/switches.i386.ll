; ModuleID = 'switches.c'
source_filename = "switches.c"
target datalayout = "e-m:e-p:32:32-p270:32:32-p271:32:32-p272:64:64-i128:128-f64:32:64-f80:32-n8:16:32-S128"
target triple = "i386-unknown-linux-gnu"

@calls = internal global i32 0, align 4
@.str = private unnamed_addr constant [9 x i8] c"eixak4.#\00", align 1
@.str.1 = private unnamed_addr constant [5 x i8] c"zero\00", align 1
@.str.2 = private unnamed_addr constant [4 x i8] c"one\00", align 1
@.str.3 = private unnamed_addr constant [4 x i8] c"two\00", align 1
@.str.4 = private unnamed_addr constant [5 x i8] c"many\00", align 1
@.str.5 = private unnamed_addr constant [4 x i8] c"low\00", align 1
@.str.6 = private unnamed_addr constant [5 x i8] c"high\00", align 1
@.str.7 = private unnamed_addr constant [6 x i8] c"other\00", align 1
@.str.8 = private unnamed_addr constant [5 x i8] c"huge\00", align 1
@.str.9 = private unnamed_addr constant [6 x i8] c"small\00", align 1

; Function Attrs: noinline nounwind optnone uwtable
define dso_local i32 @main() #0 {
entry:
  %retval = alloca i32, align 4
  %i = alloca i32, align 4
  %i5 = alloca i32, align 4
  %s = alloca ptr, align 4
  store i32 0, ptr %retval, align 4
  store i32 0, ptr %i, align 4
  br label %for.cond

for.cond:                                         ; preds = %for.inc, %entry
  %0 = load i32, ptr %i, align 4
  %cmp = icmp slt i32 %0, 4
  br i1 %cmp, label %for.body, label %for.end

for.body:                                         ; preds = %for.cond
  %1 = load i32, ptr %i, align 4
  %call = call ptr @dense(i32 noundef %1)
  %2 = load i32, ptr %i, align 4
  %cmp1 = icmp eq i32 %2, 3
  %conv = zext i1 %cmp1 to i32
  call void @word(ptr noundef %call, i32 noundef %conv)
  br label %for.inc

for.inc:                                          ; preds = %for.body
  %3 = load i32, ptr %i, align 4
  %inc = add nsw i32 %3, 1
  store i32 %inc, ptr %i, align 4
  br label %for.cond, !llvm.loop !7

for.end:                                          ; preds = %for.cond
  %call2 = call ptr @sparse(i32 noundef -1000000)
  call void @word(ptr noundef %call2, i32 noundef 0)
  %call3 = call ptr @sparse(i32 noundef 2000000000)
  call void @word(ptr noundef %call3, i32 noundef 0)
  %call4 = call ptr @sparse(i32 noundef 7)
  call void @word(ptr noundef %call4, i32 noundef 1)
  store i32 1, ptr %i5, align 4
  br label %for.cond6

for.cond6:                                        ; preds = %for.inc15, %for.end
  %4 = load i32, ptr %i5, align 4
  %cmp7 = icmp sle i32 %4, 3
  br i1 %cmp7, label %for.body9, label %for.end18

for.body9:                                        ; preds = %for.cond6
  %5 = load i32, ptr %i5, align 4
  %call10 = call i32 @falling(i32 noundef %5)
  %add = add nsw i32 48, %call10
  %call11 = call i32 @putchar(i32 noundef %add)
  %6 = load i32, ptr %i5, align 4
  %cmp12 = icmp eq i32 %6, 3
  %7 = zext i1 %cmp12 to i64
  %cond = select i1 %cmp12, i32 10, i32 32
  %call14 = call i32 @putchar(i32 noundef %cond)
  br label %for.inc15

for.inc15:                                        ; preds = %for.body9
  %8 = load i32, ptr %i5, align 4
  %inc16 = add nsw i32 %8, 1
  store i32 %inc16, ptr %i5, align 4
  %9 = load i32, ptr @calls, align 4
  %inc17 = add nsw i32 %9, 1
  store i32 %inc17, ptr @calls, align 4
  br label %for.cond6, !llvm.loop !9

for.end18:                                        ; preds = %for.cond6
  %call19 = call ptr @wide(i64 noundef 1250999896491)
  call void @word(ptr noundef %call19, i32 noundef 0)
  %call20 = call ptr @wide(i64 noundef 3)
  call void @word(ptr noundef %call20, i32 noundef 1)
  store ptr @.str, ptr %s, align 4
  br label %for.cond21

for.cond21:                                       ; preds = %for.inc26, %for.end18
  %10 = load ptr, ptr %s, align 4
  %11 = load i8, ptr %10, align 1
  %tobool = icmp ne i8 %11, 0
  br i1 %tobool, label %for.body22, label %for.end27

for.body22:                                       ; preds = %for.cond21
  %12 = load ptr, ptr %s, align 4
  %13 = load i8, ptr %12, align 1
  %call23 = call signext i8 @sort_of(i8 noundef signext %13)
  %conv24 = sext i8 %call23 to i32
  %call25 = call i32 @putchar(i32 noundef %conv24)
  br label %for.inc26

for.inc26:                                        ; preds = %for.body22
  %14 = load ptr, ptr %s, align 4
  %incdec.ptr = getelementptr inbounds i8, ptr %14, i32 1
  store ptr %incdec.ptr, ptr %s, align 4
  br label %for.cond21, !llvm.loop !10

for.end27:                                        ; preds = %for.cond21
  %call28 = call i32 @putchar(i32 noundef 10)
  %15 = load i32, ptr @calls, align 4
  %add29 = add nsw i32 %15, 5
  ret i32 %add29
}

; Function Attrs: noinline nounwind optnone uwtable
define internal void @word(ptr noundef %s, i32 noundef %last) #0 {
entry:
  %s.addr = alloca ptr, align 4
  %last.addr = alloca i32, align 4
  store ptr %s, ptr %s.addr, align 4
  store i32 %last, ptr %last.addr, align 4
  %0 = load i32, ptr @calls, align 4
  %inc = add nsw i32 %0, 1
  store i32 %inc, ptr @calls, align 4
  br label %while.cond

while.cond:                                       ; preds = %while.body, %entry
  %1 = load ptr, ptr %s.addr, align 4
  %2 = load i8, ptr %1, align 1
  %tobool = icmp ne i8 %2, 0
  br i1 %tobool, label %while.body, label %while.end

while.body:                                       ; preds = %while.cond
  %3 = load ptr, ptr %s.addr, align 4
  %incdec.ptr = getelementptr inbounds i8, ptr %3, i32 1
  store ptr %incdec.ptr, ptr %s.addr, align 4
  %4 = load i8, ptr %3, align 1
  %conv = sext i8 %4 to i32
  %call = call i32 @putchar(i32 noundef %conv)
  br label %while.cond, !llvm.loop !11

while.end:                                        ; preds = %while.cond
  %5 = load i32, ptr %last.addr, align 4
  %tobool1 = icmp ne i32 %5, 0
  %6 = zext i1 %tobool1 to i64
  %cond = select i1 %tobool1, i32 10, i32 32
  %call2 = call i32 @putchar(i32 noundef %cond)
  ret void
}

; Function Attrs: noinline nounwind optnone uwtable
define internal ptr @dense(i32 noundef %n) #0 {
entry:
  %retval = alloca ptr, align 4
  %n.addr = alloca i32, align 4
  store i32 %n, ptr %n.addr, align 4
  %0 = load i32, ptr %n.addr, align 4
  switch i32 %0, label %sw.default [
    i32 0, label %sw.bb
    i32 1, label %sw.bb1
    i32 2, label %sw.bb2
  ]

sw.bb:                                            ; preds = %entry
  store ptr @.str.1, ptr %retval, align 4
  br label %return

sw.bb1:                                           ; preds = %entry
  store ptr @.str.2, ptr %retval, align 4
  br label %return

sw.bb2:                                           ; preds = %entry
  store ptr @.str.3, ptr %retval, align 4
  br label %return

sw.default:                                       ; preds = %entry
  store ptr @.str.4, ptr %retval, align 4
  br label %return

return:                                           ; preds = %sw.default, %sw.bb2, %sw.bb1, %sw.bb
  %1 = load ptr, ptr %retval, align 4
  ret ptr %1
}

; Function Attrs: noinline nounwind optnone uwtable
define internal ptr @sparse(i32 noundef %n) #0 {
entry:
  %retval = alloca ptr, align 4
  %n.addr = alloca i32, align 4
  store i32 %n, ptr %n.addr, align 4
  %0 = load i32, ptr %n.addr, align 4
  switch i32 %0, label %sw.default [
    i32 -1000000, label %sw.bb
    i32 2000000000, label %sw.bb1
  ]

sw.bb:                                            ; preds = %entry
  store ptr @.str.5, ptr %retval, align 4
  br label %return

sw.bb1:                                           ; preds = %entry
  store ptr @.str.6, ptr %retval, align 4
  br label %return

sw.default:                                       ; preds = %entry
  store ptr @.str.7, ptr %retval, align 4
  br label %return

return:                                           ; preds = %sw.default, %sw.bb1, %sw.bb
  %1 = load ptr, ptr %retval, align 4
  ret ptr %1
}

declare i32 @putchar(i32 noundef) #1

; Function Attrs: noinline nounwind optnone uwtable
define internal i32 @falling(i32 noundef %n) #0 {
entry:
  %n.addr = alloca i32, align 4
  %sum = alloca i32, align 4
  store i32 %n, ptr %n.addr, align 4
  store i32 0, ptr %sum, align 4
  %0 = load i32, ptr %n.addr, align 4
  switch i32 %0, label %sw.epilog [
    i32 1, label %sw.bb
    i32 2, label %sw.bb1
    i32 3, label %sw.bb3
  ]

sw.bb:                                            ; preds = %entry
  %1 = load i32, ptr %sum, align 4
  %add = add nsw i32 %1, 1
  store i32 %add, ptr %sum, align 4
  br label %sw.bb1

sw.bb1:                                           ; preds = %entry, %sw.bb
  %2 = load i32, ptr %sum, align 4
  %add2 = add nsw i32 %2, 2
  store i32 %add2, ptr %sum, align 4
  br label %sw.bb3

sw.bb3:                                           ; preds = %entry, %sw.bb1
  %3 = load i32, ptr %sum, align 4
  %add4 = add nsw i32 %3, 4
  store i32 %add4, ptr %sum, align 4
  br label %sw.epilog

sw.epilog:                                        ; preds = %sw.bb3, %entry
  %4 = load i32, ptr %sum, align 4
  ret i32 %4
}

; Function Attrs: noinline nounwind optnone uwtable
define internal ptr @wide(i64 noundef %n) #0 {
entry:
  %retval = alloca ptr, align 4
  %n.addr = alloca i64, align 8
  store i64 %n, ptr %n.addr, align 8
  %0 = load i64, ptr %n.addr, align 8
  switch i64 %0, label %sw.default [
    i64 1250999896491, label %sw.bb
  ]

sw.bb:                                            ; preds = %entry
  store ptr @.str.8, ptr %retval, align 4
  br label %return

sw.default:                                       ; preds = %entry
  store ptr @.str.9, ptr %retval, align 4
  br label %return

return:                                           ; preds = %sw.default, %sw.bb
  %1 = load ptr, ptr %retval, align 4
  ret ptr %1
}

; Function Attrs: noinline nounwind optnone uwtable
define internal signext i8 @sort_of(i8 noundef signext %c) #0 {
entry:
  %retval = alloca i8, align 1
  %c.addr = alloca i8, align 1
  store i8 %c, ptr %c.addr, align 1
  %0 = load i8, ptr %c.addr, align 1
  %conv = sext i8 %0 to i32
  switch i32 %conv, label %sw.default [
    i32 97, label %sw.bb
    i32 101, label %sw.bb
    i32 105, label %sw.bb
    i32 111, label %sw.bb
    i32 117, label %sw.bb
    i32 48, label %sw.bb1
    i32 49, label %sw.bb1
    i32 50, label %sw.bb1
    i32 51, label %sw.bb1
    i32 52, label %sw.bb1
    i32 53, label %sw.bb1
    i32 54, label %sw.bb1
    i32 55, label %sw.bb1
    i32 56, label %sw.bb1
    i32 57, label %sw.bb1
    i32 46, label %sw.bb2
    i32 44, label %sw.bb2
    i32 33, label %sw.bb2
  ]

sw.bb:                                            ; preds = %entry, %entry, %entry, %entry, %entry
  store i8 118, ptr %retval, align 1
  br label %return

sw.bb1:                                           ; preds = %entry, %entry, %entry, %entry, %entry, %entry, %entry, %entry, %entry, %entry
  store i8 100, ptr %retval, align 1
  br label %return

sw.bb2:                                           ; preds = %entry, %entry, %entry
  store i8 112, ptr %retval, align 1
  br label %return

sw.default:                                       ; preds = %entry
  %1 = load i8, ptr %c.addr, align 1
  %conv3 = sext i8 %1 to i32
  %cmp = icmp sge i32 %conv3, 97
  br i1 %cmp, label %land.rhs, label %land.end

land.rhs:                                         ; preds = %sw.default
  %2 = load i8, ptr %c.addr, align 1
  %conv5 = sext i8 %2 to i32
  %cmp6 = icmp sle i32 %conv5, 122
  br label %land.end

land.end:                                         ; preds = %land.rhs, %sw.default
  %3 = phi i1 [ false, %sw.default ], [ %cmp6, %land.rhs ]
  %4 = zext i1 %3 to i64
  %cond = select i1 %3, i32 99, i32 63
  %conv8 = trunc i32 %cond to i8
  store i8 %conv8, ptr %retval, align 1
  br label %return

return:                                           ; preds = %land.end, %sw.bb2, %sw.bb1, %sw.bb
  %5 = load i8, ptr %retval, align 1
  ret i8 %5
}

attributes #0 = { noinline nounwind optnone uwtable "frame-pointer"="all" "min-legal-vector-width"="0" "no-trapping-math"="true" "stack-protector-buffer-size"="8" "target-cpu"="i686" "target-features"="+cmov,+cx8,+x87" "tune-cpu"="generic" }
attributes #1 = { "frame-pointer"="all" "no-trapping-math"="true" "stack-protector-buffer-size"="8" "target-cpu"="i686" "target-features"="+cmov,+cx8,+x87" "tune-cpu"="generic" }

!llvm.module.flags = !{!0, !1, !2, !3, !4, !5}
!llvm.ident = !{!6}

!0 = !{i32 1, !"NumRegisterParameters", i32 0}
!1 = !{i32 1, !"wchar_size", i32 4}
!2 = !{i32 8, !"PIC Level", i32 2}
!3 = !{i32 7, !"PIE Level", i32 2}
!4 = !{i32 7, !"uwtable", i32 2}
!5 = !{i32 7, !"frame-pointer", i32 2}
!6 = !{!"Debian clang version 19.1.7 (3~deb12u1)"}
!7 = distinct !{!7, !8}
!8 = !{!"llvm.loop.mustprogress"}
!9 = distinct !{!9, !8}
!10 = distinct !{!10, !8}
!11 = distinct !{!11, !8}
