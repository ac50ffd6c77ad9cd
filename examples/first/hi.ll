target datalayout = "E-p:32:32-i64:64"
declare i32 @putchar(i32)
define i32 @main() {
  %call = call i32 @putchar(i32 72)
  %add = add i32 %call, 33
  %call1 = call i32 @putchar(i32 %add)
  %sub = add i32 %call1, -72
  %call2 = call i32 @putchar(i32 %sub)
  %call3 = call i32 @putchar(i32 10)
  ret i32 %call3
}
