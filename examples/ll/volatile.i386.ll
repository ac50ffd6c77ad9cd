; ModuleID = 'volatile.c'
source_filename = "volatile.c"
target datalayout = "e-m:e-p:32:32-p270:32:32-p271:32:32-p272:64:64-i128:128-f64:32:64-f80:32-n8:16:32-S128"
target triple = "i386-unknown-linux-gnu"

@narrow = internal global i8 0, align 1
@middle = internal global i16 0, align 2
@word = internal global i32 0, align 4
@wide = internal global i64 0, align 8
@ticks = internal global [2 x i32] zeroinitializer, align 4
@ready = internal global i8 0, align 1
@.str = private unnamed_addr constant [6 x i8] c"idle \00", align 1
@.str.1 = private unnamed_addr constant [6 x i8] c"busy \00", align 1
@.str.2 = private unnamed_addr constant [6 x i8] c"done\0A\00", align 1
@.str.3 = private unnamed_addr constant [7 x i8] c"stuck\0A\00", align 1

; Function Attrs: noinline nounwind optnone uwtable
define dso_local i32 @main() #0 {
entry:
  %retval = alloca i32, align 4
  store i32 0, ptr %retval, align 4
  store volatile i8 -1, ptr @narrow, align 1
  store volatile i16 -2, ptr @middle, align 2
  store volatile i32 -3, ptr @word, align 4
  %0 = load volatile i8, ptr @narrow, align 1
  %conv = sext i8 %0 to i64
  %1 = load volatile i8, ptr @narrow, align 1
  %conv1 = zext i8 %1 to i64
  call void @pair(i64 noundef %conv, i64 noundef %conv1, i8 noundef signext 32)
  %2 = load volatile i16, ptr @middle, align 2
  %conv2 = sext i16 %2 to i64
  %3 = load volatile i16, ptr @middle, align 2
  %conv3 = zext i16 %3 to i64
  call void @pair(i64 noundef %conv2, i64 noundef %conv3, i8 noundef signext 32)
  %4 = load volatile i32, ptr @word, align 4
  %conv4 = sext i32 %4 to i64
  %5 = load volatile i32, ptr @word, align 4
  %conv5 = zext i32 %5 to i64
  call void @pair(i64 noundef %conv4, i64 noundef %conv5, i8 noundef signext 10)
  store volatile i64 0, ptr @wide, align 8
  br label %while.cond

while.cond:                                       ; preds = %while.body, %entry
  %6 = load volatile i32, ptr @ticks, align 4
  %cmp = icmp ult i32 %6, 10
  br i1 %cmp, label %while.body, label %while.end

while.body:                                       ; preds = %while.cond
  %7 = load volatile i32, ptr @ticks, align 4
  %conv7 = zext i32 %7 to i64
  %8 = load volatile i64, ptr @wide, align 8
  %add = add nsw i64 %8, %conv7
  store volatile i64 %add, ptr @wide, align 8
  %9 = load volatile i32, ptr @ticks, align 4
  %inc = add i32 %9, 1
  store volatile i32 %inc, ptr @ticks, align 4
  %10 = load volatile i32, ptr @ticks, align 4
  %11 = load volatile i32, ptr @ticks, align 4
  %mul = mul i32 %10, %11
  store volatile i32 %mul, ptr getelementptr inbounds ([2 x i32], ptr @ticks, i32 0, i32 1), align 4
  br label %while.cond, !llvm.loop !7

while.end:                                        ; preds = %while.cond
  %12 = load volatile i32, ptr @ticks, align 4
  %conv8 = zext i32 %12 to i64
  %13 = load volatile i64, ptr @wide, align 8
  call void @pair(i64 noundef %conv8, i64 noundef %13, i8 noundef signext 10)
  %14 = load volatile i8, ptr @ready, align 1
  %loadedv = trunc i8 %14 to i1
  %15 = zext i1 %loadedv to i64
  %cond = select i1 %loadedv, ptr @.str, ptr @.str.1
  call void @say(ptr noundef %cond)
  %16 = load volatile i32, ptr getelementptr inbounds ([2 x i32], ptr @ticks, i32 0, i32 1), align 4
  %tobool = icmp ne i32 %16, 0
  %storedv = zext i1 %tobool to i8
  store volatile i8 %storedv, ptr @ready, align 1
  %17 = load volatile i8, ptr @ready, align 1
  %loadedv10 = trunc i8 %17 to i1
  %18 = zext i1 %loadedv10 to i64
  %cond12 = select i1 %loadedv10, ptr @.str.2, ptr @.str.3
  call void @say(ptr noundef %cond12)
  %19 = load volatile i64, ptr @wide, align 8
  %20 = load volatile i32, ptr @ticks, align 4
  %conv13 = zext i32 %20 to i64
  %add14 = add nsw i64 %19, %conv13
  %conv15 = trunc i64 %add14 to i32
  ret i32 %conv15
}

; Function Attrs: noinline nounwind optnone uwtable
define internal void @pair(i64 noundef %a, i64 noundef %b, i8 noundef signext %end) #0 {
entry:
  %a.addr = alloca i64, align 8
  %b.addr = alloca i64, align 8
  %end.addr = alloca i8, align 1
  store i64 %a, ptr %a.addr, align 8
  store i64 %b, ptr %b.addr, align 8
  store i8 %end, ptr %end.addr, align 1
  %0 = load i64, ptr %a.addr, align 8
  call void @number(i64 noundef %0)
  %call = call i32 @putchar(i32 noundef 32)
  %1 = load i64, ptr %b.addr, align 8
  call void @number(i64 noundef %1)
  %2 = load i8, ptr %end.addr, align 1
  %conv = sext i8 %2 to i32
  %call1 = call i32 @putchar(i32 noundef %conv)
  ret void
}

; Function Attrs: noinline nounwind optnone uwtable
define internal void @say(ptr noundef %s) #0 {
entry:
  %s.addr = alloca ptr, align 4
  store ptr %s, ptr %s.addr, align 4
  br label %while.cond

while.cond:                                       ; preds = %while.body, %entry
  %0 = load ptr, ptr %s.addr, align 4
  %1 = load i8, ptr %0, align 1
  %tobool = icmp ne i8 %1, 0
  br i1 %tobool, label %while.body, label %while.end

while.body:                                       ; preds = %while.cond
  %2 = load ptr, ptr %s.addr, align 4
  %incdec.ptr = getelementptr inbounds i8, ptr %2, i32 1
  store ptr %incdec.ptr, ptr %s.addr, align 4
  %3 = load i8, ptr %2, align 1
  %conv = sext i8 %3 to i32
  %call = call i32 @putchar(i32 noundef %conv)
  br label %while.cond, !llvm.loop !9

while.end:                                        ; preds = %while.cond
  ret void
}

; Function Attrs: noinline nounwind optnone uwtable
define internal void @number(i64 noundef %n) #0 {
entry:
  %n.addr = alloca i64, align 8
  store i64 %n, ptr %n.addr, align 8
  %0 = load i64, ptr %n.addr, align 8
  %cmp = icmp slt i64 %0, 0
  br i1 %cmp, label %if.then, label %if.end

if.then:                                          ; preds = %entry
  %call = call i32 @putchar(i32 noundef 45)
  %1 = load i64, ptr %n.addr, align 8
  %sub = sub nsw i64 0, %1
  store i64 %sub, ptr %n.addr, align 8
  br label %if.end

if.end:                                           ; preds = %if.then, %entry
  %2 = load i64, ptr %n.addr, align 8
  %cmp1 = icmp sge i64 %2, 10
  br i1 %cmp1, label %if.then2, label %if.end3

if.then2:                                         ; preds = %if.end
  %3 = load i64, ptr %n.addr, align 8
  %div = sdiv i64 %3, 10
  call void @number(i64 noundef %div)
  br label %if.end3

if.end3:                                          ; preds = %if.then2, %if.end
  %4 = load i64, ptr %n.addr, align 8
  %rem = srem i64 %4, 10
  %conv = trunc i64 %rem to i32
  %add = add nsw i32 48, %conv
  %call4 = call i32 @putchar(i32 noundef %add)
  ret void
}

declare i32 @putchar(i32 noundef) #1

attributes #0 = { noinline nounwind optnone uwtable "frame-pointer"="all" "min-legal-vector-width"="0" "no-trapping-math"="true" "stack-protector-buffer-size"="8" "target-cpu"="i686" "target-features"="+cmov,+cx8,+x87" "tune-cpu"="generic" }
attributes #1 = { "frame-pointer"="all" "no-trapping-math"="true" "stack-protector-buffer-size"="8" "target-cpu"="i686" "target-features"="+cmov,+cx8,+x87" "tune-cpu"="generic" }

!llvm.module.flags = !{!0, !1, !2, !3, !4, !5}
!llvm.ident = !{!6}

!0 = !{i32 1, !"NumRegisterParameters", i32 0}
!1 = !{i32 1, !"wchar_size", i32 4}
!2 = !{i32 8, !"PIC Level", i32 2}
!3 = !{i32 7, !"PIE Level", i32 2}
!4 = !{i32 7, !"uwtable", i32 2}
!5 = !{i32 7, !"frame-pointer", i32 2}
!6 = !{!"Debian clang version 19.1.7 (3~deb12u1)"}
!7 = distinct !{!7, !8}
!8 = !{!"llvm.loop.mustprogress"}
!9 = distinct !{!9, !8}
