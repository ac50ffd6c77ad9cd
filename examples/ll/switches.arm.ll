; ModuleID = 'switches.c'
source_filename = "switches.c"
target datalayout = "e-m:e-p:32:32-Fi8-i64:64-v128:64:128-a:0:32-n32-S64"
target triple = "armv7-unknown-linux-gnueabi"

@calls = internal unnamed_addr global i32 0, align 4
@.str = private unnamed_addr constant [9 x i8] c"eixak4.#\00", align 1

; Function Attrs: nofree nounwind
define dso_local range(i32 -2147483642, -2147483648) i32 @main() local_unnamed_addr #0 {
  %1 = load i32, ptr @calls, align 4, !tbaa !5
  %2 = add nsw i32 %1, 1
  store i32 %2, ptr @calls, align 4, !tbaa !5
  %3 = tail call i32 @putchar(i32 noundef 122)
  %4 = tail call i32 @putchar(i32 noundef 101)
  %5 = tail call i32 @putchar(i32 noundef 114)
  %6 = tail call i32 @putchar(i32 noundef 111)
  %7 = tail call i32 @putchar(i32 noundef 32)
  %8 = load i32, ptr @calls, align 4, !tbaa !5
  %9 = add nsw i32 %8, 1
  store i32 %9, ptr @calls, align 4, !tbaa !5
  %10 = tail call i32 @putchar(i32 noundef 111)
  %11 = tail call i32 @putchar(i32 noundef 110)
  %12 = tail call i32 @putchar(i32 noundef 101)
  %13 = tail call i32 @putchar(i32 noundef 32)
  %14 = load i32, ptr @calls, align 4, !tbaa !5
  %15 = add nsw i32 %14, 1
  store i32 %15, ptr @calls, align 4, !tbaa !5
  %16 = tail call i32 @putchar(i32 noundef 116)
  %17 = tail call i32 @putchar(i32 noundef 119)
  %18 = tail call i32 @putchar(i32 noundef 111)
  %19 = tail call i32 @putchar(i32 noundef 32)
  %20 = load i32, ptr @calls, align 4, !tbaa !5
  %21 = add nsw i32 %20, 1
  store i32 %21, ptr @calls, align 4, !tbaa !5
  %22 = tail call i32 @putchar(i32 noundef 109)
  %23 = tail call i32 @putchar(i32 noundef 97)
  %24 = tail call i32 @putchar(i32 noundef 110)
  %25 = tail call i32 @putchar(i32 noundef 121)
  %26 = tail call i32 @putchar(i32 noundef 10)
  %27 = load i32, ptr @calls, align 4, !tbaa !5
  %28 = add nsw i32 %27, 1
  store i32 %28, ptr @calls, align 4, !tbaa !5
  %29 = tail call i32 @putchar(i32 noundef 108)
  %30 = tail call i32 @putchar(i32 noundef 111)
  %31 = tail call i32 @putchar(i32 noundef 119)
  %32 = tail call i32 @putchar(i32 noundef 32)
  %33 = load i32, ptr @calls, align 4, !tbaa !5
  %34 = add nsw i32 %33, 1
  store i32 %34, ptr @calls, align 4, !tbaa !5
  %35 = tail call i32 @putchar(i32 noundef 104)
  %36 = tail call i32 @putchar(i32 noundef 105)
  %37 = tail call i32 @putchar(i32 noundef 103)
  %38 = tail call i32 @putchar(i32 noundef 104)
  %39 = tail call i32 @putchar(i32 noundef 32)
  %40 = load i32, ptr @calls, align 4, !tbaa !5
  %41 = add nsw i32 %40, 1
  store i32 %41, ptr @calls, align 4, !tbaa !5
  %42 = tail call i32 @putchar(i32 noundef 111)
  %43 = tail call i32 @putchar(i32 noundef 116)
  %44 = tail call i32 @putchar(i32 noundef 104)
  %45 = tail call i32 @putchar(i32 noundef 101)
  %46 = tail call i32 @putchar(i32 noundef 114)
  %47 = tail call i32 @putchar(i32 noundef 10)
  %48 = tail call i32 @putchar(i32 noundef 55)
  %49 = tail call i32 @putchar(i32 noundef 32)
  %50 = load i32, ptr @calls, align 4, !tbaa !5
  %51 = add nsw i32 %50, 1
  store i32 %51, ptr @calls, align 4, !tbaa !5
  %52 = tail call i32 @putchar(i32 noundef 54)
  %53 = tail call i32 @putchar(i32 noundef 32)
  %54 = load i32, ptr @calls, align 4, !tbaa !5
  %55 = add nsw i32 %54, 1
  store i32 %55, ptr @calls, align 4, !tbaa !5
  %56 = tail call i32 @putchar(i32 noundef 52)
  %57 = tail call i32 @putchar(i32 noundef 10)
  %58 = load i32, ptr @calls, align 4, !tbaa !5
  %59 = add nsw i32 %58, 2
  store i32 %59, ptr @calls, align 4, !tbaa !5
  %60 = tail call i32 @putchar(i32 noundef 104)
  %61 = tail call i32 @putchar(i32 noundef 117)
  %62 = tail call i32 @putchar(i32 noundef 103)
  %63 = tail call i32 @putchar(i32 noundef 101)
  %64 = tail call i32 @putchar(i32 noundef 32)
  %65 = load i32, ptr @calls, align 4, !tbaa !5
  %66 = add nsw i32 %65, 1
  store i32 %66, ptr @calls, align 4, !tbaa !5
  %67 = tail call i32 @putchar(i32 noundef 115)
  %68 = tail call i32 @putchar(i32 noundef 109)
  %69 = tail call i32 @putchar(i32 noundef 97)
  %70 = tail call i32 @putchar(i32 noundef 108)
  %71 = tail call i32 @putchar(i32 noundef 108)
  %72 = tail call i32 @putchar(i32 noundef 10)
  br label %73

73:                                               ; preds = %86, %0
  %74 = phi ptr [ @.str, %0 ], [ %89, %86 ]
  %75 = load i8, ptr %74, align 1, !tbaa !9
  switch i8 %75, label %82 [
    i8 0, label %76
    i8 97, label %86
    i8 101, label %86
    i8 105, label %86
    i8 111, label %86
    i8 117, label %86
    i8 48, label %80
    i8 49, label %80
    i8 50, label %80
    i8 51, label %80
    i8 52, label %80
    i8 53, label %80
    i8 54, label %80
    i8 55, label %80
    i8 56, label %80
    i8 57, label %80
    i8 46, label %81
    i8 44, label %81
    i8 33, label %81
  ]

76:                                               ; preds = %73
  %77 = tail call i32 @putchar(i32 noundef 10)
  %78 = load i32, ptr @calls, align 4, !tbaa !5
  %79 = add nsw i32 %78, 5
  ret i32 %79

80:                                               ; preds = %73, %73, %73, %73, %73, %73, %73, %73, %73, %73
  br label %86

81:                                               ; preds = %73, %73, %73
  br label %86

82:                                               ; preds = %73
  %83 = add i8 %75, -97
  %84 = icmp ult i8 %83, 26
  %85 = select i1 %84, i32 99, i32 63
  br label %86

86:                                               ; preds = %73, %73, %73, %73, %73, %80, %81, %82
  %87 = phi i32 [ %85, %82 ], [ 112, %81 ], [ 100, %80 ], [ 118, %73 ], [ 118, %73 ], [ 118, %73 ], [ 118, %73 ], [ 118, %73 ]
  %88 = tail call i32 @putchar(i32 noundef %87)
  %89 = getelementptr inbounds i8, ptr %74, i32 1
  br label %73, !llvm.loop !10
}

; Function Attrs: nofree nounwind
declare noundef i32 @putchar(i32 noundef) local_unnamed_addr #0

attributes #0 = { nofree nounwind "no-trapping-math"="true" "stack-protector-buffer-size"="8" "target-cpu"="generic" "target-features"="+armv7-a,+dsp,+soft-float,-aes,-bf16,-d32,-dotprod,-fp-armv8,-fp-armv8d16,-fp-armv8d16sp,-fp-armv8sp,-fp16,-fp16fml,-fp64,-fpregs,-fullfp16,-mve,-mve.fp,-neon,-sha2,-thumb-mode,-vfp2,-vfp2sp,-vfp3,-vfp3d16,-vfp3d16sp,-vfp3sp,-vfp4,-vfp4d16,-vfp4d16sp,-vfp4sp" "use-soft-float"="true" }

!llvm.module.flags = !{!0, !1, !2, !3}
!llvm.ident = !{!4}

!0 = !{i32 1, !"wchar_size", i32 4}
!1 = !{i32 1, !"min_enum_size", i32 4}
!2 = !{i32 8, !"PIC Level", i32 2}
!3 = !{i32 7, !"PIE Level", i32 2}
!4 = !{!"Debian clang version 19.1.7 (3~deb12u1)"}
!5 = !{!6, !6, i64 0}
!6 = !{!"int", !7, i64 0}
!7 = !{!"omnipotent char", !8, i64 0}
!8 = !{!"Simple C/C++ TBAA"}
!9 = !{!7, !7, i64 0}
!10 = distinct !{!10, !11}
!11 = !{!"llvm.loop.mustprogress"}
