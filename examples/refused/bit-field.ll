; struct f { unsigned a : 20, b : 4; unsigned char c; } f; int main(void) { f.b = 7; return f.b; }
; ModuleID = 'bit-field.c'
source_filename = "bit-field.c"
target datalayout = "e-m:e-p270:32:32-p271:32:32-p272:64:64-i64:64-i128:128-f80:128-n8:16:32:64-S128"
target triple = "x86_64-unknown-linux-gnu"

%struct.f = type { [3 x i8], i8 }

@f = dso_local global %struct.f zeroinitializer, align 4

; Function Attrs: noinline nounwind optnone uwtable
define dso_local i32 @main() #0 {
entry:
  %retval = alloca i32, align 4
  store i32 0, ptr %retval, align 4
  %bf.load = load i24, ptr @f, align 4
  %bf.clear = and i24 %bf.load, 1048575
  %bf.set = or i24 %bf.clear, 7340032
  store i24 %bf.set, ptr @f, align 4
  %bf.load1 = load i24, ptr @f, align 4
  %bf.lshr = lshr i24 %bf.load1, 20
  %bf.cast = zext i24 %bf.lshr to i32
  ret i32 %bf.cast
}

attributes #0 = { noinline nounwind optnone uwtable "frame-pointer"="all" "min-legal-vector-width"="0" "no-trapping-math"="true" "stack-protector-buffer-size"="8" "target-cpu"="x86-64" "target-features"="+cmov,+cx8,+fxsr,+mmx,+sse,+sse2,+x87" "tune-cpu"="generic" }

!llvm.module.flags = !{!0, !1, !2, !3, !4}
!llvm.ident = !{!5}

!0 = !{i32 1, !"wchar_size", i32 4}
!1 = !{i32 8, !"PIC Level", i32 2}
!2 = !{i32 7, !"PIE Level", i32 2}
!3 = !{i32 7, !"uwtable", i32 2}
!4 = !{i32 7, !"frame-pointer", i32 2}
!5 = !{!"Debian clang version 19.1.7 (3~deb12u1)"}
