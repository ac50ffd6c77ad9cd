; ModuleID = 'unions.c'
source_filename = "unions.c"
target datalayout = "E-m:m-p:32:32-i8:8:32-i16:16:32-i64:64-n32-S64"
target triple = "mips-unknown-linux-gnu"

; Function Attrs: nofree nounwind
define dso_local noundef i32 @main() local_unnamed_addr #0 {
entry:
  %call = tail call i32 @putchar(i32 noundef signext 49)
  %call6 = tail call i32 @putchar(i32 noundef signext 32)
  %call.1 = tail call i32 @putchar(i32 noundef signext 50)
  %call6.1 = tail call i32 @putchar(i32 noundef signext 32)
  %call.2 = tail call i32 @putchar(i32 noundef signext 51)
  %call6.2 = tail call i32 @putchar(i32 noundef signext 32)
  %call.3 = tail call i32 @putchar(i32 noundef signext 52)
  %call6.3 = tail call i32 @putchar(i32 noundef signext 32)
  %call.4 = tail call i32 @putchar(i32 noundef signext 53)
  %call6.4 = tail call i32 @putchar(i32 noundef signext 32)
  %call.5 = tail call i32 @putchar(i32 noundef signext 54)
  %call6.5 = tail call i32 @putchar(i32 noundef signext 32)
  %call.6 = tail call i32 @putchar(i32 noundef signext 55)
  %call6.6 = tail call i32 @putchar(i32 noundef signext 32)
  %call.7 = tail call i32 @putchar(i32 noundef signext 56)
  %call6.7 = tail call i32 @putchar(i32 noundef signext 10)
  %call15.i = tail call i32 @putchar(i32 noundef signext 55)
  %call21 = tail call i32 @putchar(i32 noundef signext 32)
  %call4.i.1 = tail call i32 @putchar(i32 noundef signext 45)
  %call15.i.1 = tail call i32 @putchar(i32 noundef signext 51)
  %call21.1 = tail call i32 @putchar(i32 noundef signext 32)
  %call15.i.2 = tail call i32 @putchar(i32 noundef signext 120)
  %call21.2 = tail call i32 @putchar(i32 noundef signext 10)
  ret i32 36
}

; Function Attrs: nofree nounwind
declare noundef i32 @putchar(i32 noundef signext) local_unnamed_addr #0

attributes #0 = { nofree nounwind "no-trapping-math"="true" "stack-protector-buffer-size"="8" "target-cpu"="mips32r2" "target-features"="+fpxx,+mips32r2,+nooddspreg,-noabicalls" }

!llvm.module.flags = !{!0, !1, !2}
!llvm.ident = !{!3}

!0 = !{i32 1, !"wchar_size", i32 4}
!1 = !{i32 8, !"PIC Level", i32 1}
!2 = !{i32 7, !"PIE Level", i32 1}
!3 = !{!"Debian clang version 19.1.7 (3~deb12u1)"}
