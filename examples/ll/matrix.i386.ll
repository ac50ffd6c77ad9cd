; ModuleID = 'matrix.c'
source_filename = "matrix.c"
target datalayout = "e-m:e-p:32:32-p270:32:32-p271:32:32-p272:64:64-i128:128-f64:32:64-f80:32-n8:16:32-S128"
target triple = "i386-unknown-linux-gnu"

%struct.matrix = type { i32, i32, [3 x [3 x i32]] }

@a = internal constant %struct.matrix { i32 2, i32 3, [3 x [3 x i32]] [[3 x i32] [i32 1, i32 2, i32 3], [3 x i32] [i32 4, i32 5, i32 6], [3 x i32] zeroinitializer] }, align 4
@b = internal constant %struct.matrix { i32 3, i32 2, [3 x [3 x i32]] [[3 x i32] [i32 7, i32 8, i32 0], [3 x i32] [i32 9, i32 10, i32 0], [3 x i32] [i32 11, i32 12, i32 0]] }, align 4

; Function Attrs: noinline nounwind optnone uwtable
define dso_local i32 @main() #0 {
entry:
  %retval = alloca i32, align 4
  %c = alloca %struct.matrix, align 4
  %d = alloca %struct.matrix, align 4
  %power = alloca %struct.matrix, align 4
  %base = alloca %struct.matrix, align 4
  %n = alloca i32, align 4
  store i32 0, ptr %retval, align 4
  call void @llvm.memset.p0.i32(ptr align 4 %power, i8 0, i32 44, i1 false)
  %0 = getelementptr inbounds %struct.matrix, ptr %power, i32 0, i32 0
  store i32 2, ptr %0, align 4
  %1 = getelementptr inbounds %struct.matrix, ptr %power, i32 0, i32 1
  store i32 2, ptr %1, align 4
  %2 = getelementptr inbounds %struct.matrix, ptr %power, i32 0, i32 2
  %3 = getelementptr inbounds [3 x [3 x i32]], ptr %2, i32 0, i32 0
  %4 = getelementptr inbounds [3 x i32], ptr %3, i32 0, i32 0
  store i32 1, ptr %4, align 4
  %5 = getelementptr inbounds [3 x [3 x i32]], ptr %2, i32 0, i32 1
  %6 = getelementptr inbounds [3 x i32], ptr %5, i32 0, i32 1
  store i32 1, ptr %6, align 4
  call void @llvm.memset.p0.i32(ptr align 4 %base, i8 0, i32 44, i1 false)
  %7 = getelementptr inbounds %struct.matrix, ptr %base, i32 0, i32 0
  store i32 2, ptr %7, align 4
  %8 = getelementptr inbounds %struct.matrix, ptr %base, i32 0, i32 1
  store i32 2, ptr %8, align 4
  %9 = getelementptr inbounds %struct.matrix, ptr %base, i32 0, i32 2
  %10 = getelementptr inbounds [3 x [3 x i32]], ptr %9, i32 0, i32 0
  %11 = getelementptr inbounds [3 x i32], ptr %10, i32 0, i32 0
  store i32 1, ptr %11, align 4
  %12 = getelementptr inbounds [3 x i32], ptr %10, i32 0, i32 1
  store i32 1, ptr %12, align 4
  %13 = getelementptr inbounds [3 x [3 x i32]], ptr %9, i32 0, i32 1
  %14 = getelementptr inbounds [3 x i32], ptr %13, i32 0, i32 0
  store i32 1, ptr %14, align 4
  call void @product(ptr noundef %c, ptr noundef @a, ptr noundef @b)
  call void @show(ptr noundef %c)
  call void @transpose(ptr noundef %d, ptr noundef %c)
  call void @show(ptr noundef %d)
  store i32 10, ptr %n, align 4
  br label %for.cond

for.cond:                                         ; preds = %for.inc, %entry
  %15 = load i32, ptr %n, align 4
  %tobool = icmp ne i32 %15, 0
  br i1 %tobool, label %for.body, label %for.end

for.body:                                         ; preds = %for.cond
  %16 = load i32, ptr %n, align 4
  %and = and i32 %16, 1
  %tobool1 = icmp ne i32 %and, 0
  br i1 %tobool1, label %if.then, label %if.end

if.then:                                          ; preds = %for.body
  call void @product(ptr noundef %power, ptr noundef %power, ptr noundef %base)
  br label %if.end

if.end:                                           ; preds = %if.then, %for.body
  call void @product(ptr noundef %base, ptr noundef %base, ptr noundef %base)
  br label %for.inc

for.inc:                                          ; preds = %if.end
  %17 = load i32, ptr %n, align 4
  %div = udiv i32 %17, 2
  store i32 %div, ptr %n, align 4
  br label %for.cond, !llvm.loop !7

for.end:                                          ; preds = %for.cond
  call void @show(ptr noundef %power)
  %at = getelementptr inbounds %struct.matrix, ptr %power, i32 0, i32 2
  %arrayidx = getelementptr inbounds [3 x [3 x i32]], ptr %at, i32 0, i32 0
  %arrayidx2 = getelementptr inbounds [3 x i32], ptr %arrayidx, i32 0, i32 0
  %18 = load i32, ptr %arrayidx2, align 4
  %at3 = getelementptr inbounds %struct.matrix, ptr %power, i32 0, i32 2
  %arrayidx4 = getelementptr inbounds [3 x [3 x i32]], ptr %at3, i32 0, i32 1
  %arrayidx5 = getelementptr inbounds [3 x i32], ptr %arrayidx4, i32 0, i32 1
  %19 = load i32, ptr %arrayidx5, align 4
  %add = add nsw i32 %18, %19
  ret i32 %add
}

; Function Attrs: nocallback nofree nounwind willreturn memory(argmem: write)
declare void @llvm.memset.p0.i32(ptr nocapture writeonly, i8, i32, i1 immarg) #1

; Function Attrs: noinline nounwind optnone uwtable
define internal void @product(ptr noundef %to, ptr noundef %x, ptr noundef %y) #0 {
entry:
  %to.addr = alloca ptr, align 4
  %x.addr = alloca ptr, align 4
  %y.addr = alloca ptr, align 4
  %made = alloca %struct.matrix, align 4
  %i = alloca i32, align 4
  %j = alloca i32, align 4
  %k = alloca i32, align 4
  store ptr %to, ptr %to.addr, align 4
  store ptr %x, ptr %x.addr, align 4
  store ptr %y, ptr %y.addr, align 4
  call void @llvm.memset.p0.i64(ptr align 4 %made, i8 0, i64 44, i1 false)
  %rows = getelementptr inbounds %struct.matrix, ptr %made, i32 0, i32 0
  %0 = load ptr, ptr %x.addr, align 4
  %rows1 = getelementptr inbounds %struct.matrix, ptr %0, i32 0, i32 0
  %1 = load i32, ptr %rows1, align 4
  store i32 %1, ptr %rows, align 4
  %columns = getelementptr inbounds %struct.matrix, ptr %made, i32 0, i32 1
  %2 = load ptr, ptr %y.addr, align 4
  %columns2 = getelementptr inbounds %struct.matrix, ptr %2, i32 0, i32 1
  %3 = load i32, ptr %columns2, align 4
  store i32 %3, ptr %columns, align 4
  %at = getelementptr inbounds %struct.matrix, ptr %made, i32 0, i32 2
  store i32 0, ptr %i, align 4
  br label %for.cond

for.cond:                                         ; preds = %for.inc23, %entry
  %4 = load i32, ptr %i, align 4
  %5 = load ptr, ptr %x.addr, align 4
  %rows3 = getelementptr inbounds %struct.matrix, ptr %5, i32 0, i32 0
  %6 = load i32, ptr %rows3, align 4
  %cmp = icmp slt i32 %4, %6
  br i1 %cmp, label %for.body, label %for.end25

for.body:                                         ; preds = %for.cond
  store i32 0, ptr %j, align 4
  br label %for.cond4

for.cond4:                                        ; preds = %for.inc20, %for.body
  %7 = load i32, ptr %j, align 4
  %8 = load ptr, ptr %y.addr, align 4
  %columns5 = getelementptr inbounds %struct.matrix, ptr %8, i32 0, i32 1
  %9 = load i32, ptr %columns5, align 4
  %cmp6 = icmp slt i32 %7, %9
  br i1 %cmp6, label %for.body7, label %for.end22

for.body7:                                        ; preds = %for.cond4
  store i32 0, ptr %k, align 4
  br label %for.cond8

for.cond8:                                        ; preds = %for.inc, %for.body7
  %10 = load i32, ptr %k, align 4
  %11 = load ptr, ptr %x.addr, align 4
  %columns9 = getelementptr inbounds %struct.matrix, ptr %11, i32 0, i32 1
  %12 = load i32, ptr %columns9, align 4
  %cmp10 = icmp slt i32 %10, %12
  br i1 %cmp10, label %for.body11, label %for.end

for.body11:                                       ; preds = %for.cond8
  %13 = load ptr, ptr %x.addr, align 4
  %at12 = getelementptr inbounds %struct.matrix, ptr %13, i32 0, i32 2
  %14 = load i32, ptr %i, align 4
  %arrayidx = getelementptr inbounds [3 x [3 x i32]], ptr %at12, i32 0, i32 %14
  %15 = load i32, ptr %k, align 4
  %arrayidx13 = getelementptr inbounds [3 x i32], ptr %arrayidx, i32 0, i32 %15
  %16 = load i32, ptr %arrayidx13, align 4
  %17 = load ptr, ptr %y.addr, align 4
  %at14 = getelementptr inbounds %struct.matrix, ptr %17, i32 0, i32 2
  %18 = load i32, ptr %k, align 4
  %arrayidx15 = getelementptr inbounds [3 x [3 x i32]], ptr %at14, i32 0, i32 %18
  %19 = load i32, ptr %j, align 4
  %arrayidx16 = getelementptr inbounds [3 x i32], ptr %arrayidx15, i32 0, i32 %19
  %20 = load i32, ptr %arrayidx16, align 4
  %mul = mul nsw i32 %16, %20
  %at17 = getelementptr inbounds %struct.matrix, ptr %made, i32 0, i32 2
  %21 = load i32, ptr %i, align 4
  %arrayidx18 = getelementptr inbounds [3 x [3 x i32]], ptr %at17, i32 0, i32 %21
  %22 = load i32, ptr %j, align 4
  %arrayidx19 = getelementptr inbounds [3 x i32], ptr %arrayidx18, i32 0, i32 %22
  %23 = load i32, ptr %arrayidx19, align 4
  %add = add nsw i32 %23, %mul
  store i32 %add, ptr %arrayidx19, align 4
  br label %for.inc

for.inc:                                          ; preds = %for.body11
  %24 = load i32, ptr %k, align 4
  %inc = add nsw i32 %24, 1
  store i32 %inc, ptr %k, align 4
  br label %for.cond8, !llvm.loop !9

for.end:                                          ; preds = %for.cond8
  br label %for.inc20

for.inc20:                                        ; preds = %for.end
  %25 = load i32, ptr %j, align 4
  %inc21 = add nsw i32 %25, 1
  store i32 %inc21, ptr %j, align 4
  br label %for.cond4, !llvm.loop !10

for.end22:                                        ; preds = %for.cond4
  br label %for.inc23

for.inc23:                                        ; preds = %for.end22
  %26 = load i32, ptr %i, align 4
  %inc24 = add nsw i32 %26, 1
  store i32 %inc24, ptr %i, align 4
  br label %for.cond, !llvm.loop !11

for.end25:                                        ; preds = %for.cond
  %27 = load ptr, ptr %to.addr, align 4
  call void @llvm.memcpy.p0.p0.i32(ptr align 4 %27, ptr align 4 %made, i32 44, i1 false)
  ret void
}

; Function Attrs: noinline nounwind optnone uwtable
define internal void @show(ptr noundef %m) #0 {
entry:
  %m.addr = alloca ptr, align 4
  %i = alloca i32, align 4
  %j = alloca i32, align 4
  store ptr %m, ptr %m.addr, align 4
  store i32 0, ptr %i, align 4
  br label %for.cond

for.cond:                                         ; preds = %for.inc7, %entry
  %0 = load i32, ptr %i, align 4
  %1 = load ptr, ptr %m.addr, align 4
  %rows = getelementptr inbounds %struct.matrix, ptr %1, i32 0, i32 0
  %2 = load i32, ptr %rows, align 4
  %cmp = icmp slt i32 %0, %2
  br i1 %cmp, label %for.body, label %for.end9

for.body:                                         ; preds = %for.cond
  store i32 0, ptr %j, align 4
  br label %for.cond1

for.cond1:                                        ; preds = %for.inc, %for.body
  %3 = load i32, ptr %j, align 4
  %4 = load ptr, ptr %m.addr, align 4
  %columns = getelementptr inbounds %struct.matrix, ptr %4, i32 0, i32 1
  %5 = load i32, ptr %columns, align 4
  %cmp2 = icmp slt i32 %3, %5
  br i1 %cmp2, label %for.body3, label %for.end

for.body3:                                        ; preds = %for.cond1
  %6 = load ptr, ptr %m.addr, align 4
  %at = getelementptr inbounds %struct.matrix, ptr %6, i32 0, i32 2
  %7 = load i32, ptr %i, align 4
  %arrayidx = getelementptr inbounds [3 x [3 x i32]], ptr %at, i32 0, i32 %7
  %8 = load i32, ptr %j, align 4
  %arrayidx4 = getelementptr inbounds [3 x i32], ptr %arrayidx, i32 0, i32 %8
  %9 = load i32, ptr %arrayidx4, align 4
  call void @number(i32 noundef %9)
  %10 = load i32, ptr %j, align 4
  %add = add nsw i32 %10, 1
  %11 = load ptr, ptr %m.addr, align 4
  %columns5 = getelementptr inbounds %struct.matrix, ptr %11, i32 0, i32 1
  %12 = load i32, ptr %columns5, align 4
  %cmp6 = icmp slt i32 %add, %12
  %13 = zext i1 %cmp6 to i64
  %cond = select i1 %cmp6, i32 32, i32 10
  %call = call i32 @putchar(i32 noundef %cond)
  br label %for.inc

for.inc:                                          ; preds = %for.body3
  %14 = load i32, ptr %j, align 4
  %inc = add nsw i32 %14, 1
  store i32 %inc, ptr %j, align 4
  br label %for.cond1, !llvm.loop !12

for.end:                                          ; preds = %for.cond1
  br label %for.inc7

for.inc7:                                         ; preds = %for.end
  %15 = load i32, ptr %i, align 4
  %inc8 = add nsw i32 %15, 1
  store i32 %inc8, ptr %i, align 4
  br label %for.cond, !llvm.loop !13

for.end9:                                         ; preds = %for.cond
  %call10 = call i32 @putchar(i32 noundef 10)
  ret void
}

; Function Attrs: noinline nounwind optnone uwtable
define internal void @transpose(ptr noundef %to, ptr noundef %from) #0 {
entry:
  %to.addr = alloca ptr, align 4
  %from.addr = alloca ptr, align 4
  %i = alloca i32, align 4
  %j = alloca i32, align 4
  store ptr %to, ptr %to.addr, align 4
  store ptr %from, ptr %from.addr, align 4
  %0 = load ptr, ptr %from.addr, align 4
  %columns = getelementptr inbounds %struct.matrix, ptr %0, i32 0, i32 1
  %1 = load i32, ptr %columns, align 4
  %2 = load ptr, ptr %to.addr, align 4
  %rows = getelementptr inbounds %struct.matrix, ptr %2, i32 0, i32 0
  store i32 %1, ptr %rows, align 4
  %3 = load ptr, ptr %from.addr, align 4
  %rows1 = getelementptr inbounds %struct.matrix, ptr %3, i32 0, i32 0
  %4 = load i32, ptr %rows1, align 4
  %5 = load ptr, ptr %to.addr, align 4
  %columns2 = getelementptr inbounds %struct.matrix, ptr %5, i32 0, i32 1
  store i32 %4, ptr %columns2, align 4
  store i32 0, ptr %i, align 4
  br label %for.cond

for.cond:                                         ; preds = %for.inc12, %entry
  %6 = load i32, ptr %i, align 4
  %7 = load ptr, ptr %from.addr, align 4
  %rows3 = getelementptr inbounds %struct.matrix, ptr %7, i32 0, i32 0
  %8 = load i32, ptr %rows3, align 4
  %cmp = icmp slt i32 %6, %8
  br i1 %cmp, label %for.body, label %for.end14

for.body:                                         ; preds = %for.cond
  store i32 0, ptr %j, align 4
  br label %for.cond4

for.cond4:                                        ; preds = %for.inc, %for.body
  %9 = load i32, ptr %j, align 4
  %10 = load ptr, ptr %from.addr, align 4
  %columns5 = getelementptr inbounds %struct.matrix, ptr %10, i32 0, i32 1
  %11 = load i32, ptr %columns5, align 4
  %cmp6 = icmp slt i32 %9, %11
  br i1 %cmp6, label %for.body7, label %for.end

for.body7:                                        ; preds = %for.cond4
  %12 = load ptr, ptr %from.addr, align 4
  %at = getelementptr inbounds %struct.matrix, ptr %12, i32 0, i32 2
  %13 = load i32, ptr %i, align 4
  %arrayidx = getelementptr inbounds [3 x [3 x i32]], ptr %at, i32 0, i32 %13
  %14 = load i32, ptr %j, align 4
  %arrayidx8 = getelementptr inbounds [3 x i32], ptr %arrayidx, i32 0, i32 %14
  %15 = load i32, ptr %arrayidx8, align 4
  %16 = load ptr, ptr %to.addr, align 4
  %at9 = getelementptr inbounds %struct.matrix, ptr %16, i32 0, i32 2
  %17 = load i32, ptr %j, align 4
  %arrayidx10 = getelementptr inbounds [3 x [3 x i32]], ptr %at9, i32 0, i32 %17
  %18 = load i32, ptr %i, align 4
  %arrayidx11 = getelementptr inbounds [3 x i32], ptr %arrayidx10, i32 0, i32 %18
  store i32 %15, ptr %arrayidx11, align 4
  br label %for.inc

for.inc:                                          ; preds = %for.body7
  %19 = load i32, ptr %j, align 4
  %inc = add nsw i32 %19, 1
  store i32 %inc, ptr %j, align 4
  br label %for.cond4, !llvm.loop !14

for.end:                                          ; preds = %for.cond4
  br label %for.inc12

for.inc12:                                        ; preds = %for.end
  %20 = load i32, ptr %i, align 4
  %inc13 = add nsw i32 %20, 1
  store i32 %inc13, ptr %i, align 4
  br label %for.cond, !llvm.loop !15

for.end14:                                        ; preds = %for.cond
  ret void
}

; Function Attrs: nocallback nofree nounwind willreturn memory(argmem: write)
declare void @llvm.memset.p0.i64(ptr nocapture writeonly, i8, i64, i1 immarg) #1

; Function Attrs: nocallback nofree nounwind willreturn memory(argmem: readwrite)
declare void @llvm.memcpy.p0.p0.i32(ptr noalias nocapture writeonly, ptr noalias nocapture readonly, i32, i1 immarg) #2

; Function Attrs: noinline nounwind optnone uwtable
define internal void @number(i32 noundef %n) #0 {
entry:
  %n.addr = alloca i32, align 4
  store i32 %n, ptr %n.addr, align 4
  %0 = load i32, ptr %n.addr, align 4
  %cmp = icmp sge i32 %0, 10
  br i1 %cmp, label %if.then, label %if.end

if.then:                                          ; preds = %entry
  %1 = load i32, ptr %n.addr, align 4
  %div = sdiv i32 %1, 10
  call void @number(i32 noundef %div)
  br label %if.end

if.end:                                           ; preds = %if.then, %entry
  %2 = load i32, ptr %n.addr, align 4
  %rem = srem i32 %2, 10
  %add = add nsw i32 48, %rem
  %call = call i32 @putchar(i32 noundef %add)
  ret void
}

declare i32 @putchar(i32 noundef) #3

attributes #0 = { noinline nounwind optnone uwtable "frame-pointer"="all" "min-legal-vector-width"="0" "no-trapping-math"="true" "stack-protector-buffer-size"="8" "target-cpu"="i686" "target-features"="+cmov,+cx8,+x87" "tune-cpu"="generic" }
attributes #1 = { nocallback nofree nounwind willreturn memory(argmem: write) }
attributes #2 = { nocallback nofree nounwind willreturn memory(argmem: readwrite) }
attributes #3 = { "frame-pointer"="all" "no-trapping-math"="true" "stack-protector-buffer-size"="8" "target-cpu"="i686" "target-features"="+cmov,+cx8,+x87" "tune-cpu"="generic" }

!llvm.module.flags = !{!0, !1, !2, !3, !4, !5}
!llvm.ident = !{!6}

!0 = !{i32 1, !"NumRegisterParameters", i32 0}
!1 = !{i32 1, !"wchar_size", i32 4}
!2 = !{i32 8, !"PIC Level", i32 2}
!3 = !{i32 7, !"PIE Level", i32 2}
!4 = !{i32 7, !"uwtable", i32 2}
!5 = !{i32 7, !"frame-pointer", i32 2}
!6 = !{!"Debian clang version 19.1.7 (3~deb12u1)"}
!7 = distinct !{!7, !8}
!8 = !{!"llvm.loop.mustprogress"}
!9 = distinct !{!9, !8}
!10 = distinct !{!10, !8}
!11 = distinct !{!11, !8}
!12 = distinct !{!12, !8}
!13 = distinct !{!13, !8}
!14 = distinct !{!14, !8}
!15 = distinct !{!15, !8}
