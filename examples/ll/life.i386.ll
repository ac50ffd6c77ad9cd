; ModuleID = 'life.c'
source_filename = "life.c"
target datalayout = "e-m:e-p:32:32-p270:32:32-p271:32:32-p272:64:64-i128:128-f64:32:64-f80:32-n8:16:32-S128"
target triple = "i386-unknown-linux-gnu"

@grid = internal global [8 x i8] c"@ \E0\00\00\00\00\00", align 1

; Function Attrs: noinline nounwind optnone uwtable
define dso_local i32 @main() #0 {
entry:
  %retval = alloca i32, align 4
  %count = alloca i32, align 4
  %i = alloca i32, align 4
  %row = alloca i32, align 4
  %column = alloca i32, align 4
  store i32 0, ptr %retval, align 4
  store i32 0, ptr %count, align 4
  store i32 0, ptr %i, align 4
  br label %for.cond

for.cond:                                         ; preds = %for.inc, %entry
  %0 = load i32, ptr %i, align 4
  %cmp = icmp slt i32 %0, 4
  br i1 %cmp, label %for.body, label %for.end

for.body:                                         ; preds = %for.cond
  call void @round()
  br label %for.inc

for.inc:                                          ; preds = %for.body
  %1 = load i32, ptr %i, align 4
  %inc = add nsw i32 %1, 1
  store i32 %inc, ptr %i, align 4
  br label %for.cond, !llvm.loop !7

for.end:                                          ; preds = %for.cond
  store i32 0, ptr %row, align 4
  br label %for.cond1

for.cond1:                                        ; preds = %for.inc13, %for.end
  %2 = load i32, ptr %row, align 4
  %cmp2 = icmp slt i32 %2, 8
  br i1 %cmp2, label %for.body3, label %for.end15

for.body3:                                        ; preds = %for.cond1
  store i32 0, ptr %column, align 4
  br label %for.cond4

for.cond4:                                        ; preds = %for.inc9, %for.body3
  %3 = load i32, ptr %column, align 4
  %cmp5 = icmp slt i32 %3, 8
  br i1 %cmp5, label %for.body6, label %for.end11

for.body6:                                        ; preds = %for.cond4
  %4 = load i32, ptr %row, align 4
  %5 = load i32, ptr %column, align 4
  %call = call i32 @alive(ptr noundef @grid, i32 noundef %4, i32 noundef %5)
  %6 = load i32, ptr %count, align 4
  %add = add nsw i32 %6, %call
  store i32 %add, ptr %count, align 4
  %7 = load i32, ptr %row, align 4
  %8 = load i32, ptr %column, align 4
  %call7 = call i32 @alive(ptr noundef @grid, i32 noundef %7, i32 noundef %8)
  %tobool = icmp ne i32 %call7, 0
  %9 = zext i1 %tobool to i64
  %cond = select i1 %tobool, i32 111, i32 46
  %call8 = call i32 @putchar(i32 noundef %cond)
  br label %for.inc9

for.inc9:                                         ; preds = %for.body6
  %10 = load i32, ptr %column, align 4
  %inc10 = add nsw i32 %10, 1
  store i32 %inc10, ptr %column, align 4
  br label %for.cond4, !llvm.loop !9

for.end11:                                        ; preds = %for.cond4
  %call12 = call i32 @putchar(i32 noundef 10)
  br label %for.inc13

for.inc13:                                        ; preds = %for.end11
  %11 = load i32, ptr %row, align 4
  %inc14 = add nsw i32 %11, 1
  store i32 %inc14, ptr %row, align 4
  br label %for.cond1, !llvm.loop !10

for.end15:                                        ; preds = %for.cond1
  %12 = load i32, ptr %count, align 4
  ret i32 %12
}

; Function Attrs: noinline nounwind optnone uwtable
define internal void @round() #0 {
entry:
  %next = alloca [8 x i8], align 1
  %row = alloca i32, align 4
  %column = alloca i32, align 4
  %around = alloca i32, align 4
  %i = alloca i32, align 4
  %j = alloca i32, align 4
  %row28 = alloca i32, align 4
  call void @llvm.memset.p0.i32(ptr align 1 %next, i8 0, i32 8, i1 false)
  store i32 0, ptr %row, align 4
  br label %for.cond

for.cond:                                         ; preds = %for.inc25, %entry
  %0 = load i32, ptr %row, align 4
  %cmp = icmp slt i32 %0, 8
  br i1 %cmp, label %for.body, label %for.end27

for.body:                                         ; preds = %for.cond
  store i32 0, ptr %column, align 4
  br label %for.cond1

for.cond1:                                        ; preds = %for.inc22, %for.body
  %1 = load i32, ptr %column, align 4
  %cmp2 = icmp slt i32 %1, 8
  br i1 %cmp2, label %for.body3, label %for.end24

for.body3:                                        ; preds = %for.cond1
  %2 = load i32, ptr %row, align 4
  %3 = load i32, ptr %column, align 4
  %call = call i32 @alive(ptr noundef @grid, i32 noundef %2, i32 noundef %3)
  %sub = sub nsw i32 0, %call
  store i32 %sub, ptr %around, align 4
  store i32 -1, ptr %i, align 4
  br label %for.cond4

for.cond4:                                        ; preds = %for.inc13, %for.body3
  %4 = load i32, ptr %i, align 4
  %cmp5 = icmp sle i32 %4, 1
  br i1 %cmp5, label %for.body6, label %for.end15

for.body6:                                        ; preds = %for.cond4
  store i32 -1, ptr %j, align 4
  br label %for.cond7

for.cond7:                                        ; preds = %for.inc, %for.body6
  %5 = load i32, ptr %j, align 4
  %cmp8 = icmp sle i32 %5, 1
  br i1 %cmp8, label %for.body9, label %for.end

for.body9:                                        ; preds = %for.cond7
  %6 = load i32, ptr %row, align 4
  %7 = load i32, ptr %i, align 4
  %add = add nsw i32 %6, %7
  %8 = load i32, ptr %column, align 4
  %9 = load i32, ptr %j, align 4
  %add10 = add nsw i32 %8, %9
  %call11 = call i32 @alive(ptr noundef @grid, i32 noundef %add, i32 noundef %add10)
  %10 = load i32, ptr %around, align 4
  %add12 = add nsw i32 %10, %call11
  store i32 %add12, ptr %around, align 4
  br label %for.inc

for.inc:                                          ; preds = %for.body9
  %11 = load i32, ptr %j, align 4
  %inc = add nsw i32 %11, 1
  store i32 %inc, ptr %j, align 4
  br label %for.cond7, !llvm.loop !11

for.end:                                          ; preds = %for.cond7
  br label %for.inc13

for.inc13:                                        ; preds = %for.end
  %12 = load i32, ptr %i, align 4
  %inc14 = add nsw i32 %12, 1
  store i32 %inc14, ptr %i, align 4
  br label %for.cond4, !llvm.loop !12

for.end15:                                        ; preds = %for.cond4
  %13 = load i32, ptr %around, align 4
  %cmp16 = icmp eq i32 %13, 3
  br i1 %cmp16, label %if.then, label %lor.lhs.false

lor.lhs.false:                                    ; preds = %for.end15
  %14 = load i32, ptr %around, align 4
  %cmp17 = icmp eq i32 %14, 2
  br i1 %cmp17, label %land.lhs.true, label %if.end

land.lhs.true:                                    ; preds = %lor.lhs.false
  %15 = load i32, ptr %row, align 4
  %16 = load i32, ptr %column, align 4
  %call18 = call i32 @alive(ptr noundef @grid, i32 noundef %15, i32 noundef %16)
  %tobool = icmp ne i32 %call18, 0
  br i1 %tobool, label %if.then, label %if.end

if.then:                                          ; preds = %land.lhs.true, %for.end15
  %17 = load i32, ptr %column, align 4
  %shr = ashr i32 128, %17
  %conv = trunc i32 %shr to i8
  %conv19 = zext i8 %conv to i32
  %18 = load i32, ptr %row, align 4
  %arrayidx = getelementptr inbounds [8 x i8], ptr %next, i32 0, i32 %18
  %19 = load i8, ptr %arrayidx, align 1
  %conv20 = zext i8 %19 to i32
  %or = or i32 %conv20, %conv19
  %conv21 = trunc i32 %or to i8
  store i8 %conv21, ptr %arrayidx, align 1
  br label %if.end

if.end:                                           ; preds = %if.then, %land.lhs.true, %lor.lhs.false
  br label %for.inc22

for.inc22:                                        ; preds = %if.end
  %20 = load i32, ptr %column, align 4
  %inc23 = add nsw i32 %20, 1
  store i32 %inc23, ptr %column, align 4
  br label %for.cond1, !llvm.loop !13

for.end24:                                        ; preds = %for.cond1
  br label %for.inc25

for.inc25:                                        ; preds = %for.end24
  %21 = load i32, ptr %row, align 4
  %inc26 = add nsw i32 %21, 1
  store i32 %inc26, ptr %row, align 4
  br label %for.cond, !llvm.loop !14

for.end27:                                        ; preds = %for.cond
  store i32 0, ptr %row28, align 4
  br label %for.cond29

for.cond29:                                       ; preds = %for.inc35, %for.end27
  %22 = load i32, ptr %row28, align 4
  %cmp30 = icmp slt i32 %22, 8
  br i1 %cmp30, label %for.body32, label %for.end37

for.body32:                                       ; preds = %for.cond29
  %23 = load i32, ptr %row28, align 4
  %arrayidx33 = getelementptr inbounds [8 x i8], ptr %next, i32 0, i32 %23
  %24 = load i8, ptr %arrayidx33, align 1
  %25 = load i32, ptr %row28, align 4
  %arrayidx34 = getelementptr inbounds [8 x i8], ptr @grid, i32 0, i32 %25
  store i8 %24, ptr %arrayidx34, align 1
  br label %for.inc35

for.inc35:                                        ; preds = %for.body32
  %26 = load i32, ptr %row28, align 4
  %inc36 = add nsw i32 %26, 1
  store i32 %inc36, ptr %row28, align 4
  br label %for.cond29, !llvm.loop !15

for.end37:                                        ; preds = %for.cond29
  ret void
}

; Function Attrs: noinline nounwind optnone uwtable
define internal i32 @alive(ptr noundef %g, i32 noundef %row, i32 noundef %column) #0 {
entry:
  %g.addr = alloca ptr, align 4
  %row.addr = alloca i32, align 4
  %column.addr = alloca i32, align 4
  store ptr %g, ptr %g.addr, align 4
  store i32 %row, ptr %row.addr, align 4
  store i32 %column, ptr %column.addr, align 4
  %0 = load ptr, ptr %g.addr, align 4
  %1 = load i32, ptr %row.addr, align 4
  %and = and i32 %1, 7
  %arrayidx = getelementptr inbounds i8, ptr %0, i32 %and
  %2 = load i8, ptr %arrayidx, align 1
  %conv = zext i8 %2 to i32
  %3 = load i32, ptr %column.addr, align 4
  %and1 = and i32 %3, 7
  %sub = sub nsw i32 7, %and1
  %shr = ashr i32 %conv, %sub
  %and2 = and i32 %shr, 1
  ret i32 %and2
}

declare i32 @putchar(i32 noundef) #1

; Function Attrs: nocallback nofree nounwind willreturn memory(argmem: write)
declare void @llvm.memset.p0.i32(ptr nocapture writeonly, i8, i32, i1 immarg) #2

attributes #0 = { noinline nounwind optnone uwtable "frame-pointer"="all" "min-legal-vector-width"="0" "no-trapping-math"="true" "stack-protector-buffer-size"="8" "target-cpu"="i686" "target-features"="+cmov,+cx8,+x87" "tune-cpu"="generic" }
attributes #1 = { "frame-pointer"="all" "no-trapping-math"="true" "stack-protector-buffer-size"="8" "target-cpu"="i686" "target-features"="+cmov,+cx8,+x87" "tune-cpu"="generic" }
attributes #2 = { nocallback nofree nounwind willreturn memory(argmem: write) }

!llvm.module.flags = !{!0, !1, !2, !3, !4, !5}
!llvm.ident = !{!6}

!0 = !{i32 1, !"NumRegisterParameters", i32 0}
!1 = !{i32 1, !"wchar_size", i32 4}
!2 = !{i32 8, !"PIC Level", i32 2}
!3 = !{i32 7, !"PIE Level", i32 2}
!4 = !{i32 7, !"uwtable", i32 2}
!5 = !{i32 7, !"frame-pointer", i32 2}
!6 = !{!"Debian clang version 19.1.7 (3~deb12u1)"}
!7 = distinct !{!7, !8}
!8 = !{!"llvm.loop.mustprogress"}
!9 = distinct !{!9, !8}
!10 = distinct !{!10, !8}
!11 = distinct !{!11, !8}
!12 = distinct !{!12, !8}
!13 = distinct !{!13, !8}
!14 = distinct !{!14, !8}
!15 = distinct !{!15, !8}
