; ModuleID = 'crc.c'
source_filename = "crc.c"
target datalayout = "e-m:e-p:32:32-p270:32:32-p271:32:32-p272:64:64-i128:128-f64:32:64-f80:32-n8:16:32-S128"
target triple = "i386-unknown-linux-gnu"

@text = internal constant [10 x i8] c"123456789\00", align 1
@.str = private unnamed_addr constant [17 x i8] c"0123456789ABCDEF\00", align 1
@table = internal global [256 x i32] zeroinitializer, align 4

; Function Attrs: noinline nounwind optnone uwtable
define dso_local i32 @main() #0 {
entry:
  %retval = alloca i32, align 4
  %crc = alloca i32, align 4
  store i32 0, ptr %retval, align 4
  %call = call i32 @by_bits(ptr noundef @text)
  store i32 %call, ptr %crc, align 4
  %0 = load i32, ptr %crc, align 4
  call void @show(i32 noundef %0)
  %call1 = call i32 @by_table(ptr noundef @text)
  call void @show(i32 noundef %call1)
  %call2 = call zeroext i16 @short_crc(ptr noundef @text)
  %conv = zext i16 %call2 to i32
  call void @show(i32 noundef %conv)
  %call3 = call i32 @sums(ptr noundef @text, i32 noundef 1, i32 noundef 65521, i32 noundef 16)
  call void @show(i32 noundef %call3)
  %call4 = call i32 @sums(ptr noundef @text, i32 noundef 0, i32 noundef 255, i32 noundef 8)
  call void @show(i32 noundef %call4)
  %1 = load i32, ptr %crc, align 4
  %and = and i32 %1, 255
  ret i32 %and
}

; Function Attrs: noinline nounwind optnone uwtable
define internal i32 @by_bits(ptr noundef %s) #0 {
entry:
  %s.addr = alloca ptr, align 4
  %crc = alloca i32, align 4
  %k = alloca i32, align 4
  store ptr %s, ptr %s.addr, align 4
  store i32 -1, ptr %crc, align 4
  br label %for.cond

for.cond:                                         ; preds = %for.inc7, %entry
  %0 = load ptr, ptr %s.addr, align 4
  %1 = load i8, ptr %0, align 1
  %tobool = icmp ne i8 %1, 0
  br i1 %tobool, label %for.body, label %for.end8

for.body:                                         ; preds = %for.cond
  %2 = load ptr, ptr %s.addr, align 4
  %3 = load i8, ptr %2, align 1
  %conv = zext i8 %3 to i32
  %4 = load i32, ptr %crc, align 4
  %xor = xor i32 %4, %conv
  store i32 %xor, ptr %crc, align 4
  store i32 0, ptr %k, align 4
  br label %for.cond1

for.cond1:                                        ; preds = %for.inc, %for.body
  %5 = load i32, ptr %k, align 4
  %cmp = icmp slt i32 %5, 8
  br i1 %cmp, label %for.body3, label %for.end

for.body3:                                        ; preds = %for.cond1
  %6 = load i32, ptr %crc, align 4
  %and = and i32 %6, 1
  %tobool4 = icmp ne i32 %and, 0
  br i1 %tobool4, label %cond.true, label %cond.false

cond.true:                                        ; preds = %for.body3
  %7 = load i32, ptr %crc, align 4
  %shr = lshr i32 %7, 1
  %xor5 = xor i32 %shr, -306674912
  br label %cond.end

cond.false:                                       ; preds = %for.body3
  %8 = load i32, ptr %crc, align 4
  %shr6 = lshr i32 %8, 1
  br label %cond.end

cond.end:                                         ; preds = %cond.false, %cond.true
  %cond = phi i32 [ %xor5, %cond.true ], [ %shr6, %cond.false ]
  store i32 %cond, ptr %crc, align 4
  br label %for.inc

for.inc:                                          ; preds = %cond.end
  %9 = load i32, ptr %k, align 4
  %inc = add nsw i32 %9, 1
  store i32 %inc, ptr %k, align 4
  br label %for.cond1, !llvm.loop !7

for.end:                                          ; preds = %for.cond1
  br label %for.inc7

for.inc7:                                         ; preds = %for.end
  %10 = load ptr, ptr %s.addr, align 4
  %incdec.ptr = getelementptr inbounds i8, ptr %10, i32 1
  store ptr %incdec.ptr, ptr %s.addr, align 4
  br label %for.cond, !llvm.loop !9

for.end8:                                         ; preds = %for.cond
  %11 = load i32, ptr %crc, align 4
  %not = xor i32 %11, -1
  ret i32 %not
}

; Function Attrs: noinline nounwind optnone uwtable
define internal void @show(i32 noundef %n) #0 {
entry:
  %n.addr = alloca i32, align 4
  store i32 %n, ptr %n.addr, align 4
  %0 = load i32, ptr %n.addr, align 4
  call void @hexadecimal(i32 noundef %0)
  %call = call i32 @putchar(i32 noundef 10)
  ret void
}

; Function Attrs: noinline nounwind optnone uwtable
define internal i32 @by_table(ptr noundef %s) #0 {
entry:
  %s.addr = alloca ptr, align 4
  %i = alloca i32, align 4
  %c = alloca i32, align 4
  %k = alloca i32, align 4
  %crc = alloca i32, align 4
  store ptr %s, ptr %s.addr, align 4
  store i32 0, ptr %i, align 4
  br label %for.cond

for.cond:                                         ; preds = %for.inc5, %entry
  %0 = load i32, ptr %i, align 4
  %cmp = icmp ult i32 %0, 256
  br i1 %cmp, label %for.body, label %for.end7

for.body:                                         ; preds = %for.cond
  %1 = load i32, ptr %i, align 4
  store i32 %1, ptr %c, align 4
  store i32 0, ptr %k, align 4
  br label %for.cond1

for.cond1:                                        ; preds = %for.inc, %for.body
  %2 = load i32, ptr %k, align 4
  %cmp2 = icmp slt i32 %2, 8
  br i1 %cmp2, label %for.body3, label %for.end

for.body3:                                        ; preds = %for.cond1
  %3 = load i32, ptr %c, align 4
  %shr = lshr i32 %3, 1
  %4 = load i32, ptr %c, align 4
  %and = and i32 %4, 1
  %sub = sub i32 0, %and
  %and4 = and i32 -306674912, %sub
  %xor = xor i32 %shr, %and4
  store i32 %xor, ptr %c, align 4
  br label %for.inc

for.inc:                                          ; preds = %for.body3
  %5 = load i32, ptr %k, align 4
  %inc = add nsw i32 %5, 1
  store i32 %inc, ptr %k, align 4
  br label %for.cond1, !llvm.loop !10

for.end:                                          ; preds = %for.cond1
  %6 = load i32, ptr %c, align 4
  %7 = load i32, ptr %i, align 4
  %arrayidx = getelementptr inbounds [256 x i32], ptr @table, i32 0, i32 %7
  store i32 %6, ptr %arrayidx, align 4
  br label %for.inc5

for.inc5:                                         ; preds = %for.end
  %8 = load i32, ptr %i, align 4
  %inc6 = add i32 %8, 1
  store i32 %inc6, ptr %i, align 4
  br label %for.cond, !llvm.loop !11

for.end7:                                         ; preds = %for.cond
  store i32 -1, ptr %crc, align 4
  br label %while.cond

while.cond:                                       ; preds = %while.body, %for.end7
  %9 = load ptr, ptr %s.addr, align 4
  %10 = load i8, ptr %9, align 1
  %tobool = icmp ne i8 %10, 0
  br i1 %tobool, label %while.body, label %while.end

while.body:                                       ; preds = %while.cond
  %11 = load i32, ptr %crc, align 4
  %shr8 = lshr i32 %11, 8
  %12 = load i32, ptr %crc, align 4
  %13 = load ptr, ptr %s.addr, align 4
  %incdec.ptr = getelementptr inbounds i8, ptr %13, i32 1
  store ptr %incdec.ptr, ptr %s.addr, align 4
  %14 = load i8, ptr %13, align 1
  %conv = zext i8 %14 to i32
  %xor9 = xor i32 %12, %conv
  %and10 = and i32 %xor9, 255
  %arrayidx11 = getelementptr inbounds [256 x i32], ptr @table, i32 0, i32 %and10
  %15 = load i32, ptr %arrayidx11, align 4
  %xor12 = xor i32 %shr8, %15
  store i32 %xor12, ptr %crc, align 4
  br label %while.cond, !llvm.loop !12

while.end:                                        ; preds = %while.cond
  %16 = load i32, ptr %crc, align 4
  %not = xor i32 %16, -1
  ret i32 %not
}

; Function Attrs: noinline nounwind optnone uwtable
define internal zeroext i16 @short_crc(ptr noundef %s) #0 {
entry:
  %s.addr = alloca ptr, align 4
  %crc = alloca i16, align 2
  %k = alloca i32, align 4
  store ptr %s, ptr %s.addr, align 4
  store i16 -1, ptr %crc, align 2
  br label %for.cond

for.cond:                                         ; preds = %for.inc16, %entry
  %0 = load ptr, ptr %s.addr, align 4
  %1 = load i8, ptr %0, align 1
  %tobool = icmp ne i8 %1, 0
  br i1 %tobool, label %for.body, label %for.end17

for.body:                                         ; preds = %for.cond
  %2 = load ptr, ptr %s.addr, align 4
  %3 = load i8, ptr %2, align 1
  %conv = zext i8 %3 to i32
  %shl = shl i32 %conv, 8
  %conv1 = trunc i32 %shl to i16
  %conv2 = zext i16 %conv1 to i32
  %4 = load i16, ptr %crc, align 2
  %conv3 = zext i16 %4 to i32
  %xor = xor i32 %conv3, %conv2
  %conv4 = trunc i32 %xor to i16
  store i16 %conv4, ptr %crc, align 2
  store i32 0, ptr %k, align 4
  br label %for.cond5

for.cond5:                                        ; preds = %for.inc, %for.body
  %5 = load i32, ptr %k, align 4
  %cmp = icmp slt i32 %5, 8
  br i1 %cmp, label %for.body7, label %for.end

for.body7:                                        ; preds = %for.cond5
  %6 = load i16, ptr %crc, align 2
  %conv8 = zext i16 %6 to i32
  %and = and i32 %conv8, 32768
  %tobool9 = icmp ne i32 %and, 0
  br i1 %tobool9, label %cond.true, label %cond.false

cond.true:                                        ; preds = %for.body7
  %7 = load i16, ptr %crc, align 2
  %conv10 = zext i16 %7 to i32
  %shl11 = shl i32 %conv10, 1
  %xor12 = xor i32 %shl11, 4129
  br label %cond.end

cond.false:                                       ; preds = %for.body7
  %8 = load i16, ptr %crc, align 2
  %conv13 = zext i16 %8 to i32
  %shl14 = shl i32 %conv13, 1
  br label %cond.end

cond.end:                                         ; preds = %cond.false, %cond.true
  %cond = phi i32 [ %xor12, %cond.true ], [ %shl14, %cond.false ]
  %conv15 = trunc i32 %cond to i16
  store i16 %conv15, ptr %crc, align 2
  br label %for.inc

for.inc:                                          ; preds = %cond.end
  %9 = load i32, ptr %k, align 4
  %inc = add nsw i32 %9, 1
  store i32 %inc, ptr %k, align 4
  br label %for.cond5, !llvm.loop !13

for.end:                                          ; preds = %for.cond5
  br label %for.inc16

for.inc16:                                        ; preds = %for.end
  %10 = load ptr, ptr %s.addr, align 4
  %incdec.ptr = getelementptr inbounds i8, ptr %10, i32 1
  store ptr %incdec.ptr, ptr %s.addr, align 4
  br label %for.cond, !llvm.loop !14

for.end17:                                        ; preds = %for.cond
  %11 = load i16, ptr %crc, align 2
  ret i16 %11
}

; Function Attrs: noinline nounwind optnone uwtable
define internal i32 @sums(ptr noundef %s, i32 noundef %start, i32 noundef %modulus, i32 noundef %shift) #0 {
entry:
  %s.addr = alloca ptr, align 4
  %start.addr = alloca i32, align 4
  %modulus.addr = alloca i32, align 4
  %shift.addr = alloca i32, align 4
  %a = alloca i32, align 4
  %b = alloca i32, align 4
  store ptr %s, ptr %s.addr, align 4
  store i32 %start, ptr %start.addr, align 4
  store i32 %modulus, ptr %modulus.addr, align 4
  store i32 %shift, ptr %shift.addr, align 4
  %0 = load i32, ptr %start.addr, align 4
  store i32 %0, ptr %a, align 4
  store i32 0, ptr %b, align 4
  br label %for.cond

for.cond:                                         ; preds = %for.inc, %entry
  %1 = load ptr, ptr %s.addr, align 4
  %2 = load i8, ptr %1, align 1
  %tobool = icmp ne i8 %2, 0
  br i1 %tobool, label %for.body, label %for.end

for.body:                                         ; preds = %for.cond
  %3 = load i32, ptr %a, align 4
  %4 = load ptr, ptr %s.addr, align 4
  %5 = load i8, ptr %4, align 1
  %conv = zext i8 %5 to i32
  %add = add i32 %3, %conv
  %6 = load i32, ptr %modulus.addr, align 4
  %rem = urem i32 %add, %6
  store i32 %rem, ptr %a, align 4
  %7 = load i32, ptr %b, align 4
  %8 = load i32, ptr %a, align 4
  %add1 = add i32 %7, %8
  %9 = load i32, ptr %modulus.addr, align 4
  %rem2 = urem i32 %add1, %9
  store i32 %rem2, ptr %b, align 4
  br label %for.inc

for.inc:                                          ; preds = %for.body
  %10 = load ptr, ptr %s.addr, align 4
  %incdec.ptr = getelementptr inbounds i8, ptr %10, i32 1
  store ptr %incdec.ptr, ptr %s.addr, align 4
  br label %for.cond, !llvm.loop !15

for.end:                                          ; preds = %for.cond
  %11 = load i32, ptr %b, align 4
  %12 = load i32, ptr %shift.addr, align 4
  %shl = shl i32 %11, %12
  %13 = load i32, ptr %a, align 4
  %or = or i32 %shl, %13
  ret i32 %or
}

; Function Attrs: noinline nounwind optnone uwtable
define internal void @hexadecimal(i32 noundef %n) #0 {
entry:
  %n.addr = alloca i32, align 4
  store i32 %n, ptr %n.addr, align 4
  %0 = load i32, ptr %n.addr, align 4
  %cmp = icmp uge i32 %0, 16
  br i1 %cmp, label %if.then, label %if.end

if.then:                                          ; preds = %entry
  %1 = load i32, ptr %n.addr, align 4
  %div = udiv i32 %1, 16
  call void @hexadecimal(i32 noundef %div)
  br label %if.end

if.end:                                           ; preds = %if.then, %entry
  %2 = load i32, ptr %n.addr, align 4
  %rem = urem i32 %2, 16
  %arrayidx = getelementptr inbounds [17 x i8], ptr @.str, i32 0, i32 %rem
  %3 = load i8, ptr %arrayidx, align 1
  %conv = sext i8 %3 to i32
  %call = call i32 @putchar(i32 noundef %conv)
  ret void
}

declare i32 @putchar(i32 noundef) #1

attributes #0 = { noinline nounwind optnone uwtable "frame-pointer"="all" "min-legal-vector-width"="0" "no-trapping-math"="true" "stack-protector-buffer-size"="8" "target-cpu"="i686" "target-features"="+cmov,+cx8,+x87" "tune-cpu"="generic" }
attributes #1 = { "frame-pointer"="all" "no-trapping-math"="true" "stack-protector-buffer-size"="8" "target-cpu"="i686" "target-features"="+cmov,+cx8,+x87" "tune-cpu"="generic" }

!llvm.module.flags = !{!0, !1, !2, !3, !4, !5}
!llvm.ident = !{!6}

!0 = !{i32 1, !"NumRegisterParameters", i32 0}
!1 = !{i32 1, !"wchar_size", i32 4}
!2 = !{i32 8, !"PIC Level", i32 2}
!3 = !{i32 7, !"PIE Level", i32 2}
!4 = !{i32 7, !"uwtable", i32 2}
!5 = !{i32 7, !"frame-pointer", i32 2}
!6 = !{!"Debian clang version 19.1.7 (3~deb12u1)"}
!7 = distinct !{!7, !8}
!8 = !{!"llvm.loop.mustprogress"}
!9 = distinct !{!9, !8}
!10 = distinct !{!10, !8}
!11 = distinct !{!11, !8}
!12 = distinct !{!12, !8}
!13 = distinct !{!13, !8}
!14 = distinct !{!14, !8}
!15 = distinct !{!15, !8}
