; int main(void) { static void *const where[] = {&&a, &&b}; goto *where[1]; a: return 1; b: return 2; }
; ModuleID = 'computed-goto.c'
source_filename = "computed-goto.c"
target datalayout = "E-m:m-p:32:32-i8:8:32-i16:16:32-i64:64-n32-S64"
target triple = "mips-unknown-linux-gnu"

@main.where = internal constant [2 x ptr] [ptr blockaddress(@main, %a), ptr blockaddress(@main, %b)], align 4

; Function Attrs: noinline nounwind optnone
define dso_local i32 @main() #0 {
entry:
  %retval = alloca i32, align 4
  store i32 0, ptr %retval, align 4
  %0 = load ptr, ptr getelementptr inbounds ([2 x ptr], ptr @main.where, i32 0, i32 1), align 4
  br label %indirectgoto

a:                                                ; preds = %indirectgoto
  store i32 1, ptr %retval, align 4
  br label %return

b:                                                ; preds = %indirectgoto
  store i32 2, ptr %retval, align 4
  br label %return

return:                                           ; preds = %b, %a
  %1 = load i32, ptr %retval, align 4
  ret i32 %1

indirectgoto:                                     ; preds = %entry
  %indirect.goto.dest = phi ptr [ %0, %entry ]
  indirectbr ptr %indirect.goto.dest, [label %a, label %b]
}

attributes #0 = { noinline nounwind optnone "frame-pointer"="all" "no-trapping-math"="true" "stack-protector-buffer-size"="8" "target-cpu"="mips32r2" "target-features"="+fpxx,+mips32r2,+nooddspreg,-noabicalls" }

!llvm.module.flags = !{!0, !1, !2, !3}
!llvm.ident = !{!4}

!0 = !{i32 1, !"wchar_size", i32 4}
!1 = !{i32 8, !"PIC Level", i32 1}
!2 = !{i32 7, !"PIE Level", i32 1}
!3 = !{i32 7, !"frame-pointer", i32 2}
!4 = !{!"Debian clang version 19.1.7 (3~deb12u1)"}
