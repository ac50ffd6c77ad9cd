target datalayout = "e-m:m-p:32:32-i8:8:32-i16:16:32-i64:64-n32-S64"
@word = global i32 1214609674
declare i32 @putchar(i32)
define i32 @main() {
  %retval = alloca i32
  %p = alloca ptr
  store i32 0, ptr %retval
  store ptr @word, ptr %p
  %t0 = load ptr, ptr %p
  %arrayidx = getelementptr i8, ptr %t0, i32 0
  %t1 = load i8, ptr %arrayidx
  %conv = zext i8 %t1 to i32
  %call = call i32 @putchar(i32 %conv)
  %t2 = load ptr, ptr %p
  %arrayidx1 = getelementptr i8, ptr %t2, i32 1
  %t3 = load i8, ptr %arrayidx1
  %conv2 = zext i8 %t3 to i32
  %call3 = call i32 @putchar(i32 %conv2)
  %t4 = load ptr, ptr %p
  %arrayidx4 = getelementptr i8, ptr %t4, i32 2
  %t5 = load i8, ptr %arrayidx4
  %conv5 = zext i8 %t5 to i32
  %call6 = call i32 @putchar(i32 %conv5)
  %t6 = load ptr, ptr %p
  %arrayidx7 = getelementptr i8, ptr %t6, i32 3
  %t7 = load i8, ptr %arrayidx7
  %conv8 = zext i8 %t7 to i32
  %call9 = call i32 @putchar(i32 %conv8)
  %t8 = load ptr, ptr %p
  %arrayidx10 = getelementptr i8, ptr %t8, i32 3
  %t9 = load i8, ptr %arrayidx10
  %conv11 = zext i8 %t9 to i32
  ret i32 %conv11
}
