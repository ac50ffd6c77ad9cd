; ModuleID = 'records.c'
source_filename = "records.c"
target datalayout = "e-m:e-p:32:32-p270:32:32-p271:32:32-p272:64:64-i128:128-f64:32:64-f80:32-n8:16:32-S128"
target triple = "i386-unknown-linux-gnu"

%struct.shop = type { [3 x %struct.item], ptr, i8 }
%struct.item = type { [5 x i8], %struct.price, i64, ptr }
%struct.price = type { i16, i8 }

@shop = internal global %struct.shop zeroinitializer, align 4
@.str = private unnamed_addr constant [4 x i8] c"tea\00", align 1
@.str.1 = private unnamed_addr constant [5 x i8] c"rice\00", align 1
@.str.2 = private unnamed_addr constant [5 x i8] c"salt\00", align 1
@.str.3 = private unnamed_addr constant [5 x i8] c"all \00", align 1

; Function Attrs: noinline nounwind optnone uwtable
define dso_local i32 @main() #0 {
entry:
  %retval = alloca i32, align 4
  %i = alloca i32, align 4
  %i3 = alloca ptr, align 4
  %copy = alloca %struct.item, align 4
  store i32 0, ptr %retval, align 4
  call void @fill(ptr noundef @shop, ptr noundef @.str, i16 noundef signext 150, i8 noundef zeroext 3)
  call void @fill(ptr noundef getelementptr inbounds ([3 x %struct.item], ptr @shop, i32 0, i32 1), ptr noundef @.str.1, i16 noundef signext 129, i8 noundef zeroext 10)
  call void @fill(ptr noundef getelementptr inbounds ([3 x %struct.item], ptr @shop, i32 0, i32 2), ptr noundef @.str.2, i16 noundef signext 100, i8 noundef zeroext 1)
  store i32 0, ptr %i, align 4
  br label %for.cond

for.cond:                                         ; preds = %for.inc, %entry
  %0 = load i32, ptr %i, align 4
  %cmp = icmp slt i32 %0, 2
  br i1 %cmp, label %for.body, label %for.end

for.body:                                         ; preds = %for.cond
  %1 = load i32, ptr %i, align 4
  %add = add nsw i32 %1, 1
  %arrayidx = getelementptr inbounds [3 x %struct.item], ptr @shop, i32 0, i32 %add
  %2 = load i32, ptr %i, align 4
  %arrayidx1 = getelementptr inbounds [3 x %struct.item], ptr @shop, i32 0, i32 %2
  %next = getelementptr inbounds %struct.item, ptr %arrayidx1, i32 0, i32 3
  store ptr %arrayidx, ptr %next, align 4
  br label %for.inc

for.inc:                                          ; preds = %for.body
  %3 = load i32, ptr %i, align 4
  %inc = add nsw i32 %3, 1
  store i32 %inc, ptr %i, align 4
  br label %for.cond, !llvm.loop !7

for.end:                                          ; preds = %for.cond
  store ptr @shop, ptr getelementptr inbounds (%struct.shop, ptr @shop, i32 0, i32 1), align 4
  %4 = load ptr, ptr getelementptr inbounds (%struct.shop, ptr @shop, i32 0, i32 1), align 4
  %cmp2 = icmp ne ptr %4, null
  %storedv = zext i1 %cmp2 to i8
  store i8 %storedv, ptr getelementptr inbounds (%struct.shop, ptr @shop, i32 0, i32 2), align 4
  %5 = load ptr, ptr getelementptr inbounds (%struct.shop, ptr @shop, i32 0, i32 1), align 4
  store ptr %5, ptr %i3, align 4
  br label %for.cond4

for.cond4:                                        ; preds = %for.inc7, %for.end
  %6 = load i8, ptr getelementptr inbounds (%struct.shop, ptr @shop, i32 0, i32 2), align 4
  %loadedv = trunc i8 %6 to i1
  br i1 %loadedv, label %land.rhs, label %land.end

land.rhs:                                         ; preds = %for.cond4
  %7 = load ptr, ptr %i3, align 4
  %tobool = icmp ne ptr %7, null
  br label %land.end

land.end:                                         ; preds = %land.rhs, %for.cond4
  %8 = phi i1 [ false, %for.cond4 ], [ %tobool, %land.rhs ]
  br i1 %8, label %for.body5, label %for.end9

for.body5:                                        ; preds = %land.end
  %9 = load ptr, ptr %i3, align 4
  %name = getelementptr inbounds %struct.item, ptr %9, i32 0, i32 0
  %arraydecay = getelementptr inbounds [5 x i8], ptr %name, i32 0, i32 0
  call void @text(ptr noundef %arraydecay)
  %call = call i32 @putchar(i32 noundef 32)
  %10 = load ptr, ptr %i3, align 4
  %total = getelementptr inbounds %struct.item, ptr %10, i32 0, i32 2
  %11 = load i64, ptr %total, align 4
  call void @number(i64 noundef %11)
  %call6 = call i32 @putchar(i32 noundef 10)
  br label %for.inc7

for.inc7:                                         ; preds = %for.body5
  %12 = load ptr, ptr %i3, align 4
  %next8 = getelementptr inbounds %struct.item, ptr %12, i32 0, i32 3
  %13 = load ptr, ptr %next8, align 4
  store ptr %13, ptr %i3, align 4
  br label %for.cond4, !llvm.loop !9

for.end9:                                         ; preds = %land.end
  call void @llvm.memcpy.p0.p0.i32(ptr align 4 %copy, ptr align 4 getelementptr inbounds ([3 x %struct.item], ptr @shop, i32 0, i32 1), i32 24, i1 false)
  %call10 = call i64 @sum(ptr noundef @shop)
  %total11 = getelementptr inbounds %struct.item, ptr %copy, i32 0, i32 2
  store i64 %call10, ptr %total11, align 4
  call void @text(ptr noundef @.str.3)
  %total12 = getelementptr inbounds %struct.item, ptr %copy, i32 0, i32 2
  %14 = load i64, ptr %total12, align 4
  call void @number(i64 noundef %14)
  %call13 = call i32 @putchar(i32 noundef 10)
  %total14 = getelementptr inbounds %struct.item, ptr %copy, i32 0, i32 2
  %15 = load i64, ptr %total14, align 4
  %sub = sub nsw i64 %15, 1782
  %conv = trunc i64 %sub to i32
  ret i32 %conv
}

; Function Attrs: noinline nounwind optnone uwtable
define internal void @fill(ptr noundef %item, ptr noundef %name, i16 noundef signext %each, i8 noundef zeroext %count) #0 {
entry:
  %item.addr = alloca ptr, align 4
  %name.addr = alloca ptr, align 4
  %each.addr = alloca i16, align 2
  %count.addr = alloca i8, align 1
  %i = alloca i32, align 4
  store ptr %item, ptr %item.addr, align 4
  store ptr %name, ptr %name.addr, align 4
  store i16 %each, ptr %each.addr, align 2
  store i8 %count, ptr %count.addr, align 1
  store i32 0, ptr %i, align 4
  br label %for.cond

for.cond:                                         ; preds = %for.inc, %entry
  %0 = load ptr, ptr %name.addr, align 4
  %1 = load i32, ptr %i, align 4
  %arrayidx = getelementptr inbounds i8, ptr %0, i32 %1
  %2 = load i8, ptr %arrayidx, align 1
  %conv = sext i8 %2 to i32
  %tobool = icmp ne i32 %conv, 0
  br i1 %tobool, label %land.rhs, label %land.end

land.rhs:                                         ; preds = %for.cond
  %3 = load i32, ptr %i, align 4
  %cmp = icmp slt i32 %3, 4
  br label %land.end

land.end:                                         ; preds = %land.rhs, %for.cond
  %4 = phi i1 [ false, %for.cond ], [ %cmp, %land.rhs ]
  br i1 %4, label %for.body, label %for.end

for.body:                                         ; preds = %land.end
  %5 = load ptr, ptr %name.addr, align 4
  %6 = load i32, ptr %i, align 4
  %arrayidx2 = getelementptr inbounds i8, ptr %5, i32 %6
  %7 = load i8, ptr %arrayidx2, align 1
  %8 = load ptr, ptr %item.addr, align 4
  %name3 = getelementptr inbounds %struct.item, ptr %8, i32 0, i32 0
  %9 = load i32, ptr %i, align 4
  %arrayidx4 = getelementptr inbounds [5 x i8], ptr %name3, i32 0, i32 %9
  store i8 %7, ptr %arrayidx4, align 1
  br label %for.inc

for.inc:                                          ; preds = %for.body
  %10 = load i32, ptr %i, align 4
  %inc = add nsw i32 %10, 1
  store i32 %inc, ptr %i, align 4
  br label %for.cond, !llvm.loop !10

for.end:                                          ; preds = %land.end
  %11 = load ptr, ptr %item.addr, align 4
  %name5 = getelementptr inbounds %struct.item, ptr %11, i32 0, i32 0
  %12 = load i32, ptr %i, align 4
  %arrayidx6 = getelementptr inbounds [5 x i8], ptr %name5, i32 0, i32 %12
  store i8 0, ptr %arrayidx6, align 1
  %13 = load i16, ptr %each.addr, align 2
  %14 = load ptr, ptr %item.addr, align 4
  %price = getelementptr inbounds %struct.item, ptr %14, i32 0, i32 1
  %each7 = getelementptr inbounds %struct.price, ptr %price, i32 0, i32 0
  store i16 %13, ptr %each7, align 2
  %15 = load i8, ptr %count.addr, align 1
  %16 = load ptr, ptr %item.addr, align 4
  %price8 = getelementptr inbounds %struct.item, ptr %16, i32 0, i32 1
  %count9 = getelementptr inbounds %struct.price, ptr %price8, i32 0, i32 1
  store i8 %15, ptr %count9, align 2
  %17 = load i16, ptr %each.addr, align 2
  %conv10 = sext i16 %17 to i64
  %18 = load i8, ptr %count.addr, align 1
  %conv11 = zext i8 %18 to i64
  %mul = mul nsw i64 %conv10, %conv11
  %19 = load ptr, ptr %item.addr, align 4
  %total = getelementptr inbounds %struct.item, ptr %19, i32 0, i32 2
  store i64 %mul, ptr %total, align 4
  ret void
}

; Function Attrs: noinline nounwind optnone uwtable
define internal void @text(ptr noundef %s) #0 {
entry:
  %s.addr = alloca ptr, align 4
  store ptr %s, ptr %s.addr, align 4
  br label %while.cond

while.cond:                                       ; preds = %while.body, %entry
  %0 = load ptr, ptr %s.addr, align 4
  %1 = load i8, ptr %0, align 1
  %tobool = icmp ne i8 %1, 0
  br i1 %tobool, label %while.body, label %while.end

while.body:                                       ; preds = %while.cond
  %2 = load ptr, ptr %s.addr, align 4
  %incdec.ptr = getelementptr inbounds i8, ptr %2, i32 1
  store ptr %incdec.ptr, ptr %s.addr, align 4
  %3 = load i8, ptr %2, align 1
  %conv = sext i8 %3 to i32
  %call = call i32 @putchar(i32 noundef %conv)
  br label %while.cond, !llvm.loop !11

while.end:                                        ; preds = %while.cond
  ret void
}

declare i32 @putchar(i32 noundef) #1

; Function Attrs: noinline nounwind optnone uwtable
define internal void @number(i64 noundef %n) #0 {
entry:
  %n.addr = alloca i64, align 8
  store i64 %n, ptr %n.addr, align 8
  %0 = load i64, ptr %n.addr, align 8
  %cmp = icmp sge i64 %0, 10
  br i1 %cmp, label %if.then, label %if.end

if.then:                                          ; preds = %entry
  %1 = load i64, ptr %n.addr, align 8
  %div = sdiv i64 %1, 10
  call void @number(i64 noundef %div)
  br label %if.end

if.end:                                           ; preds = %if.then, %entry
  %2 = load i64, ptr %n.addr, align 8
  %rem = srem i64 %2, 10
  %conv = trunc i64 %rem to i32
  %add = add nsw i32 48, %conv
  %call = call i32 @putchar(i32 noundef %add)
  ret void
}

; Function Attrs: nocallback nofree nounwind willreturn memory(argmem: readwrite)
declare void @llvm.memcpy.p0.p0.i32(ptr noalias nocapture writeonly, ptr noalias nocapture readonly, i32, i1 immarg) #2

; Function Attrs: noinline nounwind optnone uwtable
define internal i64 @sum(ptr noundef %s) #0 {
entry:
  %s.addr = alloca ptr, align 4
  %all = alloca i64, align 8
  %i = alloca ptr, align 4
  store ptr %s, ptr %s.addr, align 4
  store i64 0, ptr %all, align 8
  %0 = load ptr, ptr %s.addr, align 4
  %first = getelementptr inbounds %struct.shop, ptr %0, i32 0, i32 1
  %1 = load ptr, ptr %first, align 4
  store ptr %1, ptr %i, align 4
  br label %for.cond

for.cond:                                         ; preds = %for.inc, %entry
  %2 = load ptr, ptr %i, align 4
  %tobool = icmp ne ptr %2, null
  br i1 %tobool, label %for.body, label %for.end

for.body:                                         ; preds = %for.cond
  %3 = load ptr, ptr %i, align 4
  %total = getelementptr inbounds %struct.item, ptr %3, i32 0, i32 2
  %4 = load i64, ptr %total, align 4
  %5 = load i64, ptr %all, align 8
  %add = add nsw i64 %5, %4
  store i64 %add, ptr %all, align 8
  br label %for.inc

for.inc:                                          ; preds = %for.body
  %6 = load ptr, ptr %i, align 4
  %next = getelementptr inbounds %struct.item, ptr %6, i32 0, i32 3
  %7 = load ptr, ptr %next, align 4
  store ptr %7, ptr %i, align 4
  br label %for.cond, !llvm.loop !12

for.end:                                          ; preds = %for.cond
  %8 = load i64, ptr %all, align 8
  ret i64 %8
}

attributes #0 = { noinline nounwind optnone uwtable "frame-pointer"="all" "min-legal-vector-width"="0" "no-trapping-math"="true" "stack-protector-buffer-size"="8" "target-cpu"="i686" "target-features"="+cmov,+cx8,+x87" "tune-cpu"="generic" }
attributes #1 = { "frame-pointer"="all" "no-trapping-math"="true" "stack-protector-buffer-size"="8" "target-cpu"="i686" "target-features"="+cmov,+cx8,+x87" "tune-cpu"="generic" }
attributes #2 = { nocallback nofree nounwind willreturn memory(argmem: readwrite) }

!llvm.module.flags = !{!0, !1, !2, !3, !4, !5}
!llvm.ident = !{!6}

!0 = !{i32 1, !"NumRegisterParameters", i32 0}
!1 = !{i32 1, !"wchar_size", i32 4}
!2 = !{i32 8, !"PIC Level", i32 2}
!3 = !{i32 7, !"PIE Level", i32 2}
!4 = !{i32 7, !"uwtable", i32 2}
!5 = !{i32 7, !"frame-pointer", i32 2}
!6 = !{!"Debian clang version 19.1.7 (3~deb12u1)"}
!7 = distinct !{!7, !8}
!8 = !{!"llvm.loop.mustprogress"}
!9 = distinct !{!9, !8}
!10 = distinct !{!10, !8}
!11 = distinct !{!11, !8}
!12 = distinct !{!12, !8}
