; struct pair { int a, b, c; }; struct pair make(int n) { struct pair p = {n, n, n}; return p; } int main(void) { return make(7).b; }
; ModuleID = 'struct-result.c'
source_filename = "struct-result.c"
target datalayout = "e-m:e-p270:32:32-p271:32:32-p272:64:64-i64:64-i128:128-f80:128-n8:16:32:64-S128"
target triple = "x86_64-unknown-linux-gnu"

%struct.pair = type { i32, i32, i32 }

; Function Attrs: noinline nounwind optnone uwtable
define dso_local { i64, i32 } @make(i32 noundef %n) #0 {
entry:
  %retval = alloca %struct.pair, align 4
  %n.addr = alloca i32, align 4
  %retval.coerce = alloca { i64, i32 }, align 8
  store i32 %n, ptr %n.addr, align 4
  %a = getelementptr inbounds %struct.pair, ptr %retval, i32 0, i32 0
  %0 = load i32, ptr %n.addr, align 4
  store i32 %0, ptr %a, align 4
  %b = getelementptr inbounds %struct.pair, ptr %retval, i32 0, i32 1
  %1 = load i32, ptr %n.addr, align 4
  store i32 %1, ptr %b, align 4
  %c = getelementptr inbounds %struct.pair, ptr %retval, i32 0, i32 2
  %2 = load i32, ptr %n.addr, align 4
  store i32 %2, ptr %c, align 4
  call void @llvm.memcpy.p0.p0.i64(ptr align 8 %retval.coerce, ptr align 4 %retval, i64 12, i1 false)
  %3 = load { i64, i32 }, ptr %retval.coerce, align 8
  ret { i64, i32 } %3
}

; Function Attrs: nocallback nofree nounwind willreturn memory(argmem: readwrite)
declare void @llvm.memcpy.p0.p0.i64(ptr noalias nocapture writeonly, ptr noalias nocapture readonly, i64, i1 immarg) #1

; Function Attrs: noinline nounwind optnone uwtable
define dso_local i32 @main() #0 {
entry:
  %retval = alloca i32, align 4
  %coerce = alloca %struct.pair, align 4
  %tmp.coerce = alloca { i64, i32 }, align 8
  store i32 0, ptr %retval, align 4
  %call = call { i64, i32 } @make(i32 noundef 7)
  store { i64, i32 } %call, ptr %tmp.coerce, align 8
  call void @llvm.memcpy.p0.p0.i64(ptr align 4 %coerce, ptr align 8 %tmp.coerce, i64 12, i1 false)
  %b = getelementptr inbounds %struct.pair, ptr %coerce, i32 0, i32 1
  %0 = load i32, ptr %b, align 4
  ret i32 %0
}

attributes #0 = { noinline nounwind optnone uwtable "frame-pointer"="all" "min-legal-vector-width"="0" "no-trapping-math"="true" "stack-protector-buffer-size"="8" "target-cpu"="x86-64" "target-features"="+cmov,+cx8,+fxsr,+mmx,+sse,+sse2,+x87" "tune-cpu"="generic" }
attributes #1 = { nocallback nofree nounwind willreturn memory(argmem: readwrite) }

!llvm.module.flags = !{!0, !1, !2, !3, !4}
!llvm.ident = !{!5}

!0 = !{i32 1, !"wchar_size", i32 4}
!1 = !{i32 8, !"PIC Level", i32 2}
!2 = !{i32 7, !"PIE Level", i32 2}
!3 = !{i32 7, !"uwtable", i32 2}
!4 = !{i32 7, !"frame-pointer", i32 2}
!5 = !{!"Debian clang version 19.1.7 (3~deb12u1)"}
