target datalayout = "E-p:32:32-i64:64"
declare i32 @putchar(i32)
define i32 @main() {
  %a = add i32 60, 5
  %b = call i32 @putchar(i32 %a)
  ret i32 0
}
