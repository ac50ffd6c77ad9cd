; ModuleID = 'maze.c'
source_filename = "maze.c"
target datalayout = "e-m:e-p:32:32-p270:32:32-p271:32:32-p272:64:64-i128:128-f64:32:64-f80:32-n8:16:32-S128"
target triple = "i386-unknown-linux-gnu"

%struct.place = type { i8, i8 }

@__const.main.start = private unnamed_addr constant %struct.place { i8 1, i8 1 }, align 1
@__const.main.end = private unnamed_addr constant %struct.place { i8 5, i8 7 }, align 1
@maze = internal global [7 x [10 x i8]] [[10 x i8] c"#########\00", [10 x i8] c"# #   # #\00", [10 x i8] c"# # # # #\00", [10 x i8] c"#   #   #\00", [10 x i8] c"### ### #\00", [10 x i8] c"#       #\00", [10 x i8] c"#########\00"], align 1
@distance = internal global [7 x [9 x i8]] zeroinitializer, align 1
@ring = internal global [16 x %struct.place] zeroinitializer, align 1
@moves = internal constant [4 x %struct.place] [%struct.place { i8 0, i8 1 }, %struct.place { i8 1, i8 0 }, %struct.place { i8 0, i8 -1 }, %struct.place { i8 -1, i8 0 }], align 1

; Function Attrs: noinline nounwind optnone uwtable
define dso_local i32 @main() #0 {
entry:
  %retval = alloca i32, align 4
  %start = alloca %struct.place, align 1
  %end = alloca %struct.place, align 1
  %i = alloca i32, align 4
  %steps = alloca i32, align 4
  store i32 0, ptr %retval, align 4
  call void @llvm.memcpy.p0.p0.i32(ptr align 1 %start, ptr align 1 @__const.main.start, i32 2, i1 false)
  call void @llvm.memcpy.p0.p0.i32(ptr align 1 %end, ptr align 1 @__const.main.end, i32 2, i1 false)
  call void @flood(ptr noundef %start)
  call void @draw(ptr noundef %end)
  store i32 0, ptr %i, align 4
  br label %for.cond

for.cond:                                         ; preds = %for.inc, %entry
  %0 = load i32, ptr %i, align 4
  %cmp = icmp slt i32 %0, 7
  br i1 %cmp, label %for.body, label %for.end

for.body:                                         ; preds = %for.cond
  %1 = load i32, ptr %i, align 4
  %arrayidx = getelementptr inbounds [7 x [10 x i8]], ptr @maze, i32 0, i32 %1
  %arraydecay = getelementptr inbounds [10 x i8], ptr %arrayidx, i32 0, i32 0
  %call = call i32 @puts(ptr noundef %arraydecay)
  br label %for.inc

for.inc:                                          ; preds = %for.body
  %2 = load i32, ptr %i, align 4
  %inc = add nsw i32 %2, 1
  store i32 %inc, ptr %i, align 4
  br label %for.cond, !llvm.loop !7

for.end:                                          ; preds = %for.cond
  %row = getelementptr inbounds %struct.place, ptr %end, i32 0, i32 0
  %3 = load i8, ptr %row, align 1
  %idxprom = sext i8 %3 to i32
  %arrayidx1 = getelementptr inbounds [7 x [9 x i8]], ptr @distance, i32 0, i32 %idxprom
  %column = getelementptr inbounds %struct.place, ptr %end, i32 0, i32 1
  %4 = load i8, ptr %column, align 1
  %idxprom2 = sext i8 %4 to i32
  %arrayidx3 = getelementptr inbounds [9 x i8], ptr %arrayidx1, i32 0, i32 %idxprom2
  %5 = load i8, ptr %arrayidx3, align 1
  %conv = zext i8 %5 to i32
  %sub = sub nsw i32 %conv, 1
  store i32 %sub, ptr %steps, align 4
  %6 = load i32, ptr %steps, align 4
  %cmp4 = icmp sge i32 %6, 10
  br i1 %cmp4, label %if.then, label %if.end

if.then:                                          ; preds = %for.end
  %7 = load i32, ptr %steps, align 4
  %div = sdiv i32 %7, 10
  %add = add nsw i32 48, %div
  %call6 = call i32 @putchar(i32 noundef %add)
  br label %if.end

if.end:                                           ; preds = %if.then, %for.end
  %8 = load i32, ptr %steps, align 4
  %rem = srem i32 %8, 10
  %add7 = add nsw i32 48, %rem
  %call8 = call i32 @putchar(i32 noundef %add7)
  %call9 = call i32 @putchar(i32 noundef 10)
  %9 = load i32, ptr %steps, align 4
  ret i32 %9
}

; Function Attrs: nocallback nofree nounwind willreturn memory(argmem: readwrite)
declare void @llvm.memcpy.p0.p0.i32(ptr noalias nocapture writeonly, ptr noalias nocapture readonly, i32, i1 immarg) #1

; Function Attrs: noinline nounwind optnone uwtable
define internal void @flood(ptr noundef %from) #0 {
entry:
  %from.addr = alloca ptr, align 4
  %head = alloca i32, align 4
  %tail = alloca i32, align 4
  %here = alloca %struct.place, align 1
  %k = alloca i32, align 4
  %next = alloca %struct.place, align 1
  store ptr %from, ptr %from.addr, align 4
  store i32 0, ptr %head, align 4
  store i32 0, ptr %tail, align 4
  %0 = load i32, ptr %tail, align 4
  %inc = add i32 %0, 1
  store i32 %inc, ptr %tail, align 4
  %rem = urem i32 %0, 16
  %arrayidx = getelementptr inbounds [16 x %struct.place], ptr @ring, i32 0, i32 %rem
  %1 = load ptr, ptr %from.addr, align 4
  call void @llvm.memcpy.p0.p0.i32(ptr align 1 %arrayidx, ptr align 1 %1, i32 2, i1 false)
  %2 = load ptr, ptr %from.addr, align 4
  %row = getelementptr inbounds %struct.place, ptr %2, i32 0, i32 0
  %3 = load i8, ptr %row, align 1
  %idxprom = sext i8 %3 to i32
  %arrayidx1 = getelementptr inbounds [7 x [9 x i8]], ptr @distance, i32 0, i32 %idxprom
  %4 = load ptr, ptr %from.addr, align 4
  %column = getelementptr inbounds %struct.place, ptr %4, i32 0, i32 1
  %5 = load i8, ptr %column, align 1
  %idxprom2 = sext i8 %5 to i32
  %arrayidx3 = getelementptr inbounds [9 x i8], ptr %arrayidx1, i32 0, i32 %idxprom2
  store i8 1, ptr %arrayidx3, align 1
  br label %while.cond

while.cond:                                       ; preds = %for.end, %entry
  %6 = load i32, ptr %head, align 4
  %7 = load i32, ptr %tail, align 4
  %cmp = icmp ne i32 %6, %7
  br i1 %cmp, label %while.body, label %while.end

while.body:                                       ; preds = %while.cond
  %8 = load i32, ptr %head, align 4
  %inc4 = add i32 %8, 1
  store i32 %inc4, ptr %head, align 4
  %rem5 = urem i32 %8, 16
  %arrayidx6 = getelementptr inbounds [16 x %struct.place], ptr @ring, i32 0, i32 %rem5
  call void @llvm.memcpy.p0.p0.i32(ptr align 1 %here, ptr align 1 %arrayidx6, i32 2, i1 false)
  store i32 0, ptr %k, align 4
  br label %for.cond

for.cond:                                         ; preds = %for.inc, %while.body
  %9 = load i32, ptr %k, align 4
  %cmp7 = icmp slt i32 %9, 4
  br i1 %cmp7, label %for.body, label %for.end

for.body:                                         ; preds = %for.cond
  %row8 = getelementptr inbounds %struct.place, ptr %next, i32 0, i32 0
  %row9 = getelementptr inbounds %struct.place, ptr %here, i32 0, i32 0
  %10 = load i8, ptr %row9, align 1
  %conv = sext i8 %10 to i32
  %11 = load i32, ptr %k, align 4
  %arrayidx10 = getelementptr inbounds [4 x %struct.place], ptr @moves, i32 0, i32 %11
  %row11 = getelementptr inbounds %struct.place, ptr %arrayidx10, i32 0, i32 0
  %12 = load i8, ptr %row11, align 1
  %conv12 = sext i8 %12 to i32
  %add = add nsw i32 %conv, %conv12
  %conv13 = trunc i32 %add to i8
  store i8 %conv13, ptr %row8, align 1
  %column14 = getelementptr inbounds %struct.place, ptr %next, i32 0, i32 1
  %column15 = getelementptr inbounds %struct.place, ptr %here, i32 0, i32 1
  %13 = load i8, ptr %column15, align 1
  %conv16 = sext i8 %13 to i32
  %14 = load i32, ptr %k, align 4
  %arrayidx17 = getelementptr inbounds [4 x %struct.place], ptr @moves, i32 0, i32 %14
  %column18 = getelementptr inbounds %struct.place, ptr %arrayidx17, i32 0, i32 1
  %15 = load i8, ptr %column18, align 1
  %conv19 = sext i8 %15 to i32
  %add20 = add nsw i32 %conv16, %conv19
  %conv21 = trunc i32 %add20 to i8
  store i8 %conv21, ptr %column14, align 1
  %row22 = getelementptr inbounds %struct.place, ptr %next, i32 0, i32 0
  %16 = load i8, ptr %row22, align 1
  %idxprom23 = sext i8 %16 to i32
  %arrayidx24 = getelementptr inbounds [7 x [10 x i8]], ptr @maze, i32 0, i32 %idxprom23
  %column25 = getelementptr inbounds %struct.place, ptr %next, i32 0, i32 1
  %17 = load i8, ptr %column25, align 1
  %idxprom26 = sext i8 %17 to i32
  %arrayidx27 = getelementptr inbounds [10 x i8], ptr %arrayidx24, i32 0, i32 %idxprom26
  %18 = load i8, ptr %arrayidx27, align 1
  %conv28 = sext i8 %18 to i32
  %cmp29 = icmp eq i32 %conv28, 35
  br i1 %cmp29, label %if.then, label %lor.lhs.false

lor.lhs.false:                                    ; preds = %for.body
  %row31 = getelementptr inbounds %struct.place, ptr %next, i32 0, i32 0
  %19 = load i8, ptr %row31, align 1
  %idxprom32 = sext i8 %19 to i32
  %arrayidx33 = getelementptr inbounds [7 x [9 x i8]], ptr @distance, i32 0, i32 %idxprom32
  %column34 = getelementptr inbounds %struct.place, ptr %next, i32 0, i32 1
  %20 = load i8, ptr %column34, align 1
  %idxprom35 = sext i8 %20 to i32
  %arrayidx36 = getelementptr inbounds [9 x i8], ptr %arrayidx33, i32 0, i32 %idxprom35
  %21 = load i8, ptr %arrayidx36, align 1
  %conv37 = zext i8 %21 to i32
  %tobool = icmp ne i32 %conv37, 0
  br i1 %tobool, label %if.then, label %if.end

if.then:                                          ; preds = %lor.lhs.false, %for.body
  br label %for.inc

if.end:                                           ; preds = %lor.lhs.false
  %row38 = getelementptr inbounds %struct.place, ptr %here, i32 0, i32 0
  %22 = load i8, ptr %row38, align 1
  %idxprom39 = sext i8 %22 to i32
  %arrayidx40 = getelementptr inbounds [7 x [9 x i8]], ptr @distance, i32 0, i32 %idxprom39
  %column41 = getelementptr inbounds %struct.place, ptr %here, i32 0, i32 1
  %23 = load i8, ptr %column41, align 1
  %idxprom42 = sext i8 %23 to i32
  %arrayidx43 = getelementptr inbounds [9 x i8], ptr %arrayidx40, i32 0, i32 %idxprom42
  %24 = load i8, ptr %arrayidx43, align 1
  %conv44 = zext i8 %24 to i32
  %add45 = add nsw i32 %conv44, 1
  %conv46 = trunc i32 %add45 to i8
  %row47 = getelementptr inbounds %struct.place, ptr %next, i32 0, i32 0
  %25 = load i8, ptr %row47, align 1
  %idxprom48 = sext i8 %25 to i32
  %arrayidx49 = getelementptr inbounds [7 x [9 x i8]], ptr @distance, i32 0, i32 %idxprom48
  %column50 = getelementptr inbounds %struct.place, ptr %next, i32 0, i32 1
  %26 = load i8, ptr %column50, align 1
  %idxprom51 = sext i8 %26 to i32
  %arrayidx52 = getelementptr inbounds [9 x i8], ptr %arrayidx49, i32 0, i32 %idxprom51
  store i8 %conv46, ptr %arrayidx52, align 1
  %27 = load i32, ptr %tail, align 4
  %inc53 = add i32 %27, 1
  store i32 %inc53, ptr %tail, align 4
  %rem54 = urem i32 %27, 16
  %arrayidx55 = getelementptr inbounds [16 x %struct.place], ptr @ring, i32 0, i32 %rem54
  call void @llvm.memcpy.p0.p0.i32(ptr align 1 %arrayidx55, ptr align 1 %next, i32 2, i1 false)
  br label %for.inc

for.inc:                                          ; preds = %if.end, %if.then
  %28 = load i32, ptr %k, align 4
  %inc56 = add nsw i32 %28, 1
  store i32 %inc56, ptr %k, align 4
  br label %for.cond, !llvm.loop !9

for.end:                                          ; preds = %for.cond
  br label %while.cond, !llvm.loop !10

while.end:                                        ; preds = %while.cond
  ret void
}

; Function Attrs: noinline nounwind optnone uwtable
define internal void @draw(ptr noundef %p) #0 {
entry:
  %p.addr = alloca ptr, align 4
  %k = alloca i32, align 4
  %next = alloca %struct.place, align 1
  store ptr %p, ptr %p.addr, align 4
  %0 = load ptr, ptr %p.addr, align 4
  %row = getelementptr inbounds %struct.place, ptr %0, i32 0, i32 0
  %1 = load i8, ptr %row, align 1
  %idxprom = sext i8 %1 to i32
  %arrayidx = getelementptr inbounds [7 x [10 x i8]], ptr @maze, i32 0, i32 %idxprom
  %2 = load ptr, ptr %p.addr, align 4
  %column = getelementptr inbounds %struct.place, ptr %2, i32 0, i32 1
  %3 = load i8, ptr %column, align 1
  %idxprom1 = sext i8 %3 to i32
  %arrayidx2 = getelementptr inbounds [10 x i8], ptr %arrayidx, i32 0, i32 %idxprom1
  store i8 42, ptr %arrayidx2, align 1
  store i32 0, ptr %k, align 4
  br label %for.cond

for.cond:                                         ; preds = %for.inc, %entry
  %4 = load i32, ptr %k, align 4
  %cmp = icmp slt i32 %4, 4
  br i1 %cmp, label %for.body, label %for.end

for.body:                                         ; preds = %for.cond
  %row3 = getelementptr inbounds %struct.place, ptr %next, i32 0, i32 0
  %5 = load ptr, ptr %p.addr, align 4
  %row4 = getelementptr inbounds %struct.place, ptr %5, i32 0, i32 0
  %6 = load i8, ptr %row4, align 1
  %conv = sext i8 %6 to i32
  %7 = load i32, ptr %k, align 4
  %arrayidx5 = getelementptr inbounds [4 x %struct.place], ptr @moves, i32 0, i32 %7
  %row6 = getelementptr inbounds %struct.place, ptr %arrayidx5, i32 0, i32 0
  %8 = load i8, ptr %row6, align 1
  %conv7 = sext i8 %8 to i32
  %add = add nsw i32 %conv, %conv7
  %conv8 = trunc i32 %add to i8
  store i8 %conv8, ptr %row3, align 1
  %column9 = getelementptr inbounds %struct.place, ptr %next, i32 0, i32 1
  %9 = load ptr, ptr %p.addr, align 4
  %column10 = getelementptr inbounds %struct.place, ptr %9, i32 0, i32 1
  %10 = load i8, ptr %column10, align 1
  %conv11 = sext i8 %10 to i32
  %11 = load i32, ptr %k, align 4
  %arrayidx12 = getelementptr inbounds [4 x %struct.place], ptr @moves, i32 0, i32 %11
  %column13 = getelementptr inbounds %struct.place, ptr %arrayidx12, i32 0, i32 1
  %12 = load i8, ptr %column13, align 1
  %conv14 = sext i8 %12 to i32
  %add15 = add nsw i32 %conv11, %conv14
  %conv16 = trunc i32 %add15 to i8
  store i8 %conv16, ptr %column9, align 1
  %row17 = getelementptr inbounds %struct.place, ptr %next, i32 0, i32 0
  %13 = load i8, ptr %row17, align 1
  %idxprom18 = sext i8 %13 to i32
  %arrayidx19 = getelementptr inbounds [7 x [9 x i8]], ptr @distance, i32 0, i32 %idxprom18
  %column20 = getelementptr inbounds %struct.place, ptr %next, i32 0, i32 1
  %14 = load i8, ptr %column20, align 1
  %idxprom21 = sext i8 %14 to i32
  %arrayidx22 = getelementptr inbounds [9 x i8], ptr %arrayidx19, i32 0, i32 %idxprom21
  %15 = load i8, ptr %arrayidx22, align 1
  %conv23 = zext i8 %15 to i32
  %add24 = add nsw i32 %conv23, 1
  %16 = load ptr, ptr %p.addr, align 4
  %row25 = getelementptr inbounds %struct.place, ptr %16, i32 0, i32 0
  %17 = load i8, ptr %row25, align 1
  %idxprom26 = sext i8 %17 to i32
  %arrayidx27 = getelementptr inbounds [7 x [9 x i8]], ptr @distance, i32 0, i32 %idxprom26
  %18 = load ptr, ptr %p.addr, align 4
  %column28 = getelementptr inbounds %struct.place, ptr %18, i32 0, i32 1
  %19 = load i8, ptr %column28, align 1
  %idxprom29 = sext i8 %19 to i32
  %arrayidx30 = getelementptr inbounds [9 x i8], ptr %arrayidx27, i32 0, i32 %idxprom29
  %20 = load i8, ptr %arrayidx30, align 1
  %conv31 = zext i8 %20 to i32
  %cmp32 = icmp eq i32 %add24, %conv31
  br i1 %cmp32, label %if.then, label %if.end44

if.then:                                          ; preds = %for.body
  %21 = load ptr, ptr %p.addr, align 4
  %row34 = getelementptr inbounds %struct.place, ptr %21, i32 0, i32 0
  %22 = load i8, ptr %row34, align 1
  %idxprom35 = sext i8 %22 to i32
  %arrayidx36 = getelementptr inbounds [7 x [9 x i8]], ptr @distance, i32 0, i32 %idxprom35
  %23 = load ptr, ptr %p.addr, align 4
  %column37 = getelementptr inbounds %struct.place, ptr %23, i32 0, i32 1
  %24 = load i8, ptr %column37, align 1
  %idxprom38 = sext i8 %24 to i32
  %arrayidx39 = getelementptr inbounds [9 x i8], ptr %arrayidx36, i32 0, i32 %idxprom38
  %25 = load i8, ptr %arrayidx39, align 1
  %conv40 = zext i8 %25 to i32
  %cmp41 = icmp sgt i32 %conv40, 1
  br i1 %cmp41, label %if.then43, label %if.end

if.then43:                                        ; preds = %if.then
  call void @draw(ptr noundef %next)
  br label %if.end

if.end:                                           ; preds = %if.then43, %if.then
  br label %for.end

if.end44:                                         ; preds = %for.body
  br label %for.inc

for.inc:                                          ; preds = %if.end44
  %26 = load i32, ptr %k, align 4
  %inc = add nsw i32 %26, 1
  store i32 %inc, ptr %k, align 4
  br label %for.cond, !llvm.loop !11

for.end:                                          ; preds = %if.end, %for.cond
  ret void
}

declare i32 @puts(ptr noundef) #2

declare i32 @putchar(i32 noundef) #2

attributes #0 = { noinline nounwind optnone uwtable "frame-pointer"="all" "min-legal-vector-width"="0" "no-trapping-math"="true" "stack-protector-buffer-size"="8" "target-cpu"="i686" "target-features"="+cmov,+cx8,+x87" "tune-cpu"="generic" }
attributes #1 = { nocallback nofree nounwind willreturn memory(argmem: readwrite) }
attributes #2 = { "frame-pointer"="all" "no-trapping-math"="true" "stack-protector-buffer-size"="8" "target-cpu"="i686" "target-features"="+cmov,+cx8,+x87" "tune-cpu"="generic" }

!llvm.module.flags = !{!0, !1, !2, !3, !4, !5}
!llvm.ident = !{!6}

!0 = !{i32 1, !"NumRegisterParameters", i32 0}
!1 = !{i32 1, !"wchar_size", i32 4}
!2 = !{i32 8, !"PIC Level", i32 2}
!3 = !{i32 7, !"PIE Level", i32 2}
!4 = !{i32 7, !"uwtable", i32 2}
!5 = !{i32 7, !"frame-pointer", i32 2}
!6 = !{!"Debian clang version 19.1.7 (3~deb12u1)"}
!7 = distinct !{!7, !8}
!8 = !{!"llvm.loop.mustprogress"}
!9 = distinct !{!9, !8}
!10 = distinct !{!10, !8}
!11 = distinct !{!11, !8}
