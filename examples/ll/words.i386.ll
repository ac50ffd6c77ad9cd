; ModuleID = 'words.c'
source_filename = "words.c"
target datalayout = "e-m:e-p:32:32-p270:32:32-p271:32:32-p272:64:64-i128:128-f64:32:64-f80:32-n8:16:32-S128"
target triple = "i386-unknown-linux-gnu"

@now = internal global [32 x i8] zeroinitializer, align 1
@longest = internal global [32 x i8] zeroinitializer, align 1

; Function Attrs: noinline nounwind optnone uwtable
define dso_local i32 @main() #0 {
entry:
  %retval = alloca i32, align 4
  %lines = alloca i32, align 4
  %words = alloca i32, align 4
  %bytes = alloca i32, align 4
  %length = alloca i32, align 4
  %best = alloca i32, align 4
  %c = alloca i32, align 4
  store i32 0, ptr %retval, align 4
  store i32 0, ptr %lines, align 4
  store i32 0, ptr %words, align 4
  store i32 0, ptr %bytes, align 4
  store i32 0, ptr %length, align 4
  store i32 0, ptr %best, align 4
  br label %while.cond

while.cond:                                       ; preds = %if.end16, %entry
  %call = call i32 @getchar()
  store i32 %call, ptr %c, align 4
  %cmp = icmp sge i32 %call, 0
  br i1 %cmp, label %while.body, label %while.end

while.body:                                       ; preds = %while.cond
  %0 = load i32, ptr %bytes, align 4
  %inc = add i32 %0, 1
  store i32 %inc, ptr %bytes, align 4
  %1 = load i32, ptr %c, align 4
  %cmp1 = icmp eq i32 %1, 10
  br i1 %cmp1, label %if.then, label %if.end

if.then:                                          ; preds = %while.body
  %2 = load i32, ptr %lines, align 4
  %inc2 = add i32 %2, 1
  store i32 %inc2, ptr %lines, align 4
  br label %if.end

if.end:                                           ; preds = %if.then, %while.body
  %3 = load i32, ptr %c, align 4
  %cmp3 = icmp eq i32 %3, 32
  br i1 %cmp3, label %if.then7, label %lor.lhs.false

lor.lhs.false:                                    ; preds = %if.end
  %4 = load i32, ptr %c, align 4
  %cmp4 = icmp eq i32 %4, 10
  br i1 %cmp4, label %if.then7, label %lor.lhs.false5

lor.lhs.false5:                                   ; preds = %lor.lhs.false
  %5 = load i32, ptr %c, align 4
  %cmp6 = icmp eq i32 %5, 9
  br i1 %cmp6, label %if.then7, label %if.else

if.then7:                                         ; preds = %lor.lhs.false5, %lor.lhs.false, %if.end
  %6 = load i32, ptr %length, align 4
  %cmp8 = icmp sgt i32 %6, 0
  %conv = zext i1 %cmp8 to i32
  %7 = load i32, ptr %words, align 4
  %add = add i32 %7, %conv
  store i32 %add, ptr %words, align 4
  %8 = load i32, ptr %length, align 4
  %9 = load i32, ptr %best, align 4
  %call9 = call i32 @keep(i32 noundef %8, i32 noundef %9)
  store i32 %call9, ptr %best, align 4
  store i32 0, ptr %length, align 4
  br label %if.end16

if.else:                                          ; preds = %lor.lhs.false5
  %10 = load i32, ptr %length, align 4
  %cmp10 = icmp slt i32 %10, 31
  br i1 %cmp10, label %if.then12, label %if.end15

if.then12:                                        ; preds = %if.else
  %11 = load i32, ptr %c, align 4
  %conv13 = trunc i32 %11 to i8
  %12 = load i32, ptr %length, align 4
  %inc14 = add nsw i32 %12, 1
  store i32 %inc14, ptr %length, align 4
  %arrayidx = getelementptr inbounds [32 x i8], ptr @now, i32 0, i32 %12
  store i8 %conv13, ptr %arrayidx, align 1
  br label %if.end15

if.end15:                                         ; preds = %if.then12, %if.else
  br label %if.end16

if.end16:                                         ; preds = %if.end15, %if.then7
  br label %while.cond, !llvm.loop !7

while.end:                                        ; preds = %while.cond
  %13 = load i32, ptr %length, align 4
  %cmp17 = icmp sgt i32 %13, 0
  %conv18 = zext i1 %cmp17 to i32
  %14 = load i32, ptr %words, align 4
  %add19 = add i32 %14, %conv18
  store i32 %add19, ptr %words, align 4
  %15 = load i32, ptr %length, align 4
  %16 = load i32, ptr %best, align 4
  %call20 = call i32 @keep(i32 noundef %15, i32 noundef %16)
  store i32 %call20, ptr %best, align 4
  %17 = load i32, ptr %lines, align 4
  call void @number(i32 noundef %17)
  %call21 = call i32 @putchar(i32 noundef 32)
  %18 = load i32, ptr %words, align 4
  call void @number(i32 noundef %18)
  %call22 = call i32 @putchar(i32 noundef 32)
  %19 = load i32, ptr %bytes, align 4
  call void @number(i32 noundef %19)
  %call23 = call i32 @putchar(i32 noundef 10)
  %call24 = call i32 @puts(ptr noundef @longest)
  %20 = load i32, ptr %best, align 4
  ret i32 %20
}

declare i32 @getchar() #1

; Function Attrs: noinline nounwind optnone uwtable
define internal i32 @keep(i32 noundef %length, i32 noundef %best) #0 {
entry:
  %retval = alloca i32, align 4
  %length.addr = alloca i32, align 4
  %best.addr = alloca i32, align 4
  %i = alloca i32, align 4
  store i32 %length, ptr %length.addr, align 4
  store i32 %best, ptr %best.addr, align 4
  %0 = load i32, ptr %length.addr, align 4
  %1 = load i32, ptr %best.addr, align 4
  %cmp = icmp sle i32 %0, %1
  br i1 %cmp, label %if.then, label %if.end

if.then:                                          ; preds = %entry
  %2 = load i32, ptr %best.addr, align 4
  store i32 %2, ptr %retval, align 4
  br label %return

if.end:                                           ; preds = %entry
  store i32 0, ptr %i, align 4
  br label %for.cond

for.cond:                                         ; preds = %for.inc, %if.end
  %3 = load i32, ptr %i, align 4
  %4 = load i32, ptr %length.addr, align 4
  %cmp1 = icmp slt i32 %3, %4
  br i1 %cmp1, label %for.body, label %for.end

for.body:                                         ; preds = %for.cond
  %5 = load i32, ptr %i, align 4
  %arrayidx = getelementptr inbounds [32 x i8], ptr @now, i32 0, i32 %5
  %6 = load i8, ptr %arrayidx, align 1
  %conv = sext i8 %6 to i32
  %cmp2 = icmp sge i32 %conv, 97
  br i1 %cmp2, label %land.lhs.true, label %cond.false

land.lhs.true:                                    ; preds = %for.body
  %7 = load i32, ptr %i, align 4
  %arrayidx4 = getelementptr inbounds [32 x i8], ptr @now, i32 0, i32 %7
  %8 = load i8, ptr %arrayidx4, align 1
  %conv5 = sext i8 %8 to i32
  %cmp6 = icmp sle i32 %conv5, 122
  br i1 %cmp6, label %cond.true, label %cond.false

cond.true:                                        ; preds = %land.lhs.true
  %9 = load i32, ptr %i, align 4
  %arrayidx8 = getelementptr inbounds [32 x i8], ptr @now, i32 0, i32 %9
  %10 = load i8, ptr %arrayidx8, align 1
  %conv9 = sext i8 %10 to i32
  %sub = sub nsw i32 %conv9, 32
  br label %cond.end

cond.false:                                       ; preds = %land.lhs.true, %for.body
  %11 = load i32, ptr %i, align 4
  %arrayidx10 = getelementptr inbounds [32 x i8], ptr @now, i32 0, i32 %11
  %12 = load i8, ptr %arrayidx10, align 1
  %conv11 = sext i8 %12 to i32
  br label %cond.end

cond.end:                                         ; preds = %cond.false, %cond.true
  %cond = phi i32 [ %sub, %cond.true ], [ %conv11, %cond.false ]
  %conv12 = trunc i32 %cond to i8
  %13 = load i32, ptr %i, align 4
  %arrayidx13 = getelementptr inbounds [32 x i8], ptr @longest, i32 0, i32 %13
  store i8 %conv12, ptr %arrayidx13, align 1
  br label %for.inc

for.inc:                                          ; preds = %cond.end
  %14 = load i32, ptr %i, align 4
  %inc = add nsw i32 %14, 1
  store i32 %inc, ptr %i, align 4
  br label %for.cond, !llvm.loop !9

for.end:                                          ; preds = %for.cond
  %15 = load i32, ptr %length.addr, align 4
  %arrayidx14 = getelementptr inbounds [32 x i8], ptr @longest, i32 0, i32 %15
  store i8 0, ptr %arrayidx14, align 1
  %16 = load i32, ptr %length.addr, align 4
  store i32 %16, ptr %retval, align 4
  br label %return

return:                                           ; preds = %for.end, %if.then
  %17 = load i32, ptr %retval, align 4
  ret i32 %17
}

; Function Attrs: noinline nounwind optnone uwtable
define internal void @number(i32 noundef %n) #0 {
entry:
  %n.addr = alloca i32, align 4
  store i32 %n, ptr %n.addr, align 4
  %0 = load i32, ptr %n.addr, align 4
  %cmp = icmp uge i32 %0, 10
  br i1 %cmp, label %if.then, label %if.end

if.then:                                          ; preds = %entry
  %1 = load i32, ptr %n.addr, align 4
  %div = udiv i32 %1, 10
  call void @number(i32 noundef %div)
  br label %if.end

if.end:                                           ; preds = %if.then, %entry
  %2 = load i32, ptr %n.addr, align 4
  %rem = urem i32 %2, 10
  %add = add i32 48, %rem
  %call = call i32 @putchar(i32 noundef %add)
  ret void
}

declare i32 @putchar(i32 noundef) #1

declare i32 @puts(ptr noundef) #1

attributes #0 = { noinline nounwind optnone uwtable "frame-pointer"="all" "min-legal-vector-width"="0" "no-trapping-math"="true" "stack-protector-buffer-size"="8" "target-cpu"="i686" "target-features"="+cmov,+cx8,+x87" "tune-cpu"="generic" }
attributes #1 = { "frame-pointer"="all" "no-trapping-math"="true" "stack-protector-buffer-size"="8" "target-cpu"="i686" "target-features"="+cmov,+cx8,+x87" "tune-cpu"="generic" }

!llvm.module.flags = !{!0, !1, !2, !3, !4, !5}
!llvm.ident = !{!6}

!0 = !{i32 1, !"NumRegisterParameters", i32 0}
!1 = !{i32 1, !"wchar_size", i32 4}
!2 = !{i32 8, !"PIC Level", i32 2}
!3 = !{i32 7, !"PIE Level", i32 2}
!4 = !{i32 7, !"uwtable", i32 2}
!5 = !{i32 7, !"frame-pointer", i32 2}
!6 = !{!"Debian clang version 19.1.7 (3~deb12u1)"}
!7 = distinct !{!7, !8}
!8 = !{!"llvm.loop.mustprogress"}
!9 = distinct !{!9, !8}
