; ModuleID = 'hello.c'
source_filename = "hello.c"
target datalayout = "E-m:m-p:32:32-i8:8:32-i16:16:32-i64:64-n32-S64"
target triple = "mips-unknown-linux-gnu"

@.str = private unnamed_addr constant [6 x i8] c"hello\00", align 1
@count = dso_local local_unnamed_addr global i32 0, align 4

; Function Attrs: nounwind
define dso_local i32 @greet(i32 noundef signext %0) local_unnamed_addr #0 {
  %2 = tail call i32 @puts(ptr noundef nonnull dereferenceable(1) @.str)
  %3 = load i32, ptr @count, align 4, !tbaa !2
  %4 = add nsw i32 %3, %0
  store i32 %4, ptr @count, align 4, !tbaa !2
  ret i32 %4
}

declare noundef i32 @puts(ptr nocapture noundef readonly) local_unnamed_addr #0

define dso_local i32 @main() local_unnamed_addr #0 {
  %1 = tail call i32 @greet(i32 noundef signext 41)
  ret i32 %1
}

attributes #0 = { nounwind "frame-pointer"="all" }

!llvm.module.flags = !{!0}
!llvm.ident = !{!1}
!0 = !{i32 1, !"wchar_size", i32 4}
!1 = !{!"clang"}
!2 = !{!3, !3, i64 0}
!3 = !{!"int", !1, i64 0}
