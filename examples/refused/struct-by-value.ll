; struct pair { int a[4]; }; int first(struct pair p) { return p.a[0]; } int main(void) { struct pair p = {{7}}; return first(p); }
; ModuleID = 'struct-by-value.c'
source_filename = "struct-by-value.c"
target datalayout = "e-m:e-p:32:32-p270:32:32-p271:32:32-p272:64:64-i128:128-f64:32:64-f80:32-n8:16:32-S128"
target triple = "i386-unknown-linux-gnu"

%struct.pair = type { [4 x i32] }

@__const.main.p = private unnamed_addr constant %struct.pair { [4 x i32] [i32 7, i32 0, i32 0, i32 0] }, align 4

; Function Attrs: noinline nounwind optnone uwtable
define dso_local i32 @first(ptr noundef byval(%struct.pair) align 4 %p) #0 {
entry:
  %a = getelementptr inbounds %struct.pair, ptr %p, i32 0, i32 0
  %arrayidx = getelementptr inbounds [4 x i32], ptr %a, i32 0, i32 0
  %0 = load i32, ptr %arrayidx, align 4
  ret i32 %0
}

; Function Attrs: noinline nounwind optnone uwtable
define dso_local i32 @main() #0 {
entry:
  %retval = alloca i32, align 4
  %p = alloca %struct.pair, align 4
  store i32 0, ptr %retval, align 4
  call void @llvm.memcpy.p0.p0.i32(ptr align 4 %p, ptr align 4 @__const.main.p, i32 16, i1 false)
  %call = call i32 @first(ptr noundef byval(%struct.pair) align 4 %p)
  ret i32 %call
}

; Function Attrs: nocallback nofree nounwind willreturn memory(argmem: readwrite)
declare void @llvm.memcpy.p0.p0.i32(ptr noalias nocapture writeonly, ptr noalias nocapture readonly, i32, i1 immarg) #1

attributes #0 = { noinline nounwind optnone uwtable "frame-pointer"="all" "min-legal-vector-width"="0" "no-trapping-math"="true" "stack-protector-buffer-size"="8" "target-cpu"="i686" "target-features"="+cmov,+cx8,+x87" "tune-cpu"="generic" }
attributes #1 = { nocallback nofree nounwind willreturn memory(argmem: readwrite) }

!llvm.module.flags = !{!0, !1, !2, !3, !4, !5}
!llvm.ident = !{!6}

!0 = !{i32 1, !"NumRegisterParameters", i32 0}
!1 = !{i32 1, !"wchar_size", i32 4}
!2 = !{i32 8, !"PIC Level", i32 2}
!3 = !{i32 7, !"PIE Level", i32 2}
!4 = !{i32 7, !"uwtable", i32 2}
!5 = !{i32 7, !"frame-pointer", i32 2}
!6 = !{!"Debian clang version 19.1.7 (3~deb12u1)"}
