; ModuleID = 'unions.c'
source_filename = "unions.c"
target datalayout = "e-m:e-p:32:32-p270:32:32-p271:32:32-p272:64:64-i128:128-f64:32:64-f80:32-n8:16:32-S128"
target triple = "i386-unknown-linux-gnu"

%union.word = type { i64 }
%struct.value = type { i32, %union.anon }
%union.anon = type { i32 }

@word = internal global %union.word { i64 72623859790382856 }, align 4
@values = internal global <{ { i32, { i8, [3 x i8] } }, %struct.value, { i32, { i8, [3 x i8] } } }> <{ { i32, { i8, [3 x i8] } } { i32 0, { i8, [3 x i8] } { i8 7, [3 x i8] undef } }, %struct.value { i32 1, %union.anon { i32 -3 } }, { i32, { i8, [3 x i8] } } { i32 2, { i8, [3 x i8] } { i8 120, [3 x i8] undef } } }>, align 4

; Function Attrs: noinline nounwind optnone uwtable
define dso_local i32 @main() #0 {
entry:
  %retval = alloca i32, align 4
  %sum = alloca i32, align 4
  %i = alloca i32, align 4
  %swapped = alloca %union.word, align 4
  %i11 = alloca i32, align 4
  store i32 0, ptr %retval, align 4
  store i32 0, ptr %sum, align 4
  store i32 0, ptr %i, align 4
  br label %for.cond

for.cond:                                         ; preds = %for.inc, %entry
  %0 = load i32, ptr %i, align 4
  %cmp = icmp slt i32 %0, 8
  br i1 %cmp, label %for.body, label %for.end

for.body:                                         ; preds = %for.cond
  %1 = load i32, ptr %i, align 4
  %arrayidx = getelementptr inbounds [8 x i8], ptr @word, i32 0, i32 %1
  %2 = load i8, ptr %arrayidx, align 1
  %conv = zext i8 %2 to i32
  %3 = load i32, ptr %sum, align 4
  %add = add nsw i32 %3, %conv
  store i32 %add, ptr %sum, align 4
  %4 = load i32, ptr %i, align 4
  %arrayidx1 = getelementptr inbounds [8 x i8], ptr @word, i32 0, i32 %4
  %5 = load i8, ptr %arrayidx1, align 1
  %conv2 = zext i8 %5 to i32
  %add3 = add nsw i32 48, %conv2
  %call = call i32 @putchar(i32 noundef %add3)
  %6 = load i32, ptr %i, align 4
  %cmp4 = icmp slt i32 %6, 7
  %7 = zext i1 %cmp4 to i64
  %cond = select i1 %cmp4, i32 32, i32 10
  %call6 = call i32 @putchar(i32 noundef %cond)
  br label %for.inc

for.inc:                                          ; preds = %for.body
  %8 = load i32, ptr %i, align 4
  %inc = add nsw i32 %8, 1
  store i32 %inc, ptr %i, align 4
  br label %for.cond, !llvm.loop !7

for.end:                                          ; preds = %for.cond
  %9 = load i32, ptr getelementptr inbounds ([2 x i32], ptr @word, i32 0, i32 1), align 4
  %arrayidx7 = getelementptr inbounds [2 x i32], ptr %swapped, i32 0, i32 0
  store i32 %9, ptr %arrayidx7, align 4
  %10 = load i32, ptr @word, align 4
  %arrayidx8 = getelementptr inbounds [2 x i32], ptr %swapped, i32 0, i32 1
  store i32 %10, ptr %arrayidx8, align 4
  %11 = load i64, ptr %swapped, align 4
  %cmp9 = icmp ne i64 %11, 361984551007945476
  br i1 %cmp9, label %if.then, label %if.end

if.then:                                          ; preds = %for.end
  store i32 1, ptr %retval, align 4
  br label %return

if.end:                                           ; preds = %for.end
  store i32 0, ptr %i11, align 4
  br label %for.cond12

for.cond12:                                       ; preds = %for.inc21, %if.end
  %12 = load i32, ptr %i11, align 4
  %cmp13 = icmp slt i32 %12, 3
  br i1 %cmp13, label %for.body15, label %for.end23

for.body15:                                       ; preds = %for.cond12
  %13 = load i32, ptr %i11, align 4
  %arrayidx16 = getelementptr inbounds [3 x %struct.value], ptr @values, i32 0, i32 %13
  call void @show(ptr noundef %arrayidx16)
  %14 = load i32, ptr %i11, align 4
  %cmp17 = icmp slt i32 %14, 2
  %15 = zext i1 %cmp17 to i64
  %cond19 = select i1 %cmp17, i32 32, i32 10
  %call20 = call i32 @putchar(i32 noundef %cond19)
  br label %for.inc21

for.inc21:                                        ; preds = %for.body15
  %16 = load i32, ptr %i11, align 4
  %inc22 = add nsw i32 %16, 1
  store i32 %inc22, ptr %i11, align 4
  br label %for.cond12, !llvm.loop !9

for.end23:                                        ; preds = %for.cond12
  %17 = load i32, ptr %sum, align 4
  store i32 %17, ptr %retval, align 4
  br label %return

return:                                           ; preds = %for.end23, %if.then
  %18 = load i32, ptr %retval, align 4
  ret i32 %18
}

declare i32 @putchar(i32 noundef) #1

; Function Attrs: noinline nounwind optnone uwtable
define internal void @show(ptr noundef %v) #0 {
entry:
  %v.addr = alloca ptr, align 4
  store ptr %v, ptr %v.addr, align 4
  %0 = load ptr, ptr %v.addr, align 4
  %kind = getelementptr inbounds %struct.value, ptr %0, i32 0, i32 0
  %1 = load i32, ptr %kind, align 4
  switch i32 %1, label %sw.epilog [
    i32 0, label %sw.bb
    i32 1, label %sw.bb1
    i32 2, label %sw.bb12
  ]

sw.bb:                                            ; preds = %entry
  %2 = load ptr, ptr %v.addr, align 4
  %as = getelementptr inbounds %struct.value, ptr %2, i32 0, i32 1
  %3 = load i8, ptr %as, align 4
  %conv = zext i8 %3 to i32
  %add = add nsw i32 48, %conv
  %call = call i32 @putchar(i32 noundef %add)
  br label %sw.epilog

sw.bb1:                                           ; preds = %entry
  %4 = load ptr, ptr %v.addr, align 4
  %as2 = getelementptr inbounds %struct.value, ptr %4, i32 0, i32 1
  %5 = load i32, ptr %as2, align 4
  %cmp = icmp slt i32 %5, 0
  br i1 %cmp, label %if.then, label %if.end

if.then:                                          ; preds = %sw.bb1
  %call4 = call i32 @putchar(i32 noundef 45)
  br label %if.end

if.end:                                           ; preds = %if.then, %sw.bb1
  %6 = load ptr, ptr %v.addr, align 4
  %as5 = getelementptr inbounds %struct.value, ptr %6, i32 0, i32 1
  %7 = load i32, ptr %as5, align 4
  %cmp6 = icmp slt i32 %7, 0
  br i1 %cmp6, label %cond.true, label %cond.false

cond.true:                                        ; preds = %if.end
  %8 = load ptr, ptr %v.addr, align 4
  %as8 = getelementptr inbounds %struct.value, ptr %8, i32 0, i32 1
  %9 = load i32, ptr %as8, align 4
  %sub = sub nsw i32 0, %9
  br label %cond.end

cond.false:                                       ; preds = %if.end
  %10 = load ptr, ptr %v.addr, align 4
  %as9 = getelementptr inbounds %struct.value, ptr %10, i32 0, i32 1
  %11 = load i32, ptr %as9, align 4
  br label %cond.end

cond.end:                                         ; preds = %cond.false, %cond.true
  %cond = phi i32 [ %sub, %cond.true ], [ %11, %cond.false ]
  %add10 = add nsw i32 48, %cond
  %call11 = call i32 @putchar(i32 noundef %add10)
  br label %sw.epilog

sw.bb12:                                          ; preds = %entry
  %12 = load ptr, ptr %v.addr, align 4
  %as13 = getelementptr inbounds %struct.value, ptr %12, i32 0, i32 1
  %13 = load i8, ptr %as13, align 4
  %conv14 = sext i8 %13 to i32
  %call15 = call i32 @putchar(i32 noundef %conv14)
  br label %sw.epilog

sw.epilog:                                        ; preds = %sw.bb12, %entry, %cond.end, %sw.bb
  ret void
}

attributes #0 = { noinline nounwind optnone uwtable "frame-pointer"="all" "min-legal-vector-width"="0" "no-trapping-math"="true" "stack-protector-buffer-size"="8" "target-cpu"="i686" "target-features"="+cmov,+cx8,+x87" "tune-cpu"="generic" }
attributes #1 = { "frame-pointer"="all" "no-trapping-math"="true" "stack-protector-buffer-size"="8" "target-cpu"="i686" "target-features"="+cmov,+cx8,+x87" "tune-cpu"="generic" }

!llvm.module.flags = !{!0, !1, !2, !3, !4, !5}
!llvm.ident = !{!6}

!0 = !{i32 1, !"NumRegisterParameters", i32 0}
!1 = !{i32 1, !"wchar_size", i32 4}
!2 = !{i32 8, !"PIC Level", i32 2}
!3 = !{i32 7, !"PIE Level", i32 2}
!4 = !{i32 7, !"uwtable", i32 2}
!5 = !{i32 7, !"frame-pointer", i32 2}
!6 = !{!"Debian clang version 19.1.7 (3~deb12u1)"}
!7 = distinct !{!7, !8}
!8 = !{!"llvm.loop.mustprogress"}
!9 = distinct !{!9, !8}
