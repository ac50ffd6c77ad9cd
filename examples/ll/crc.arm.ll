; ModuleID = 'crc.c'
source_filename = "crc.c"
target datalayout = "e-m:e-p:32:32-Fi8-i64:64-v128:64:128-a:0:32-n32-S64"
target triple = "armv7-unknown-linux-gnueabi"

@.str = private unnamed_addr constant [17 x i8] c"0123456789ABCDEF\00", align 1
@table = internal unnamed_addr global [256 x i32] zeroinitializer, align 4

; Function Attrs: nofree nounwind
define dso_local noundef range(i32 0, 256) i32 @main() local_unnamed_addr #0 {
  tail call fastcc void @hexadecimal(i32 noundef -873187034)
  %1 = tail call i32 @putchar(i32 noundef 10)
  br label %2

2:                                                ; preds = %2, %0
  %3 = phi i32 [ 0, %0 ], [ %40, %2 ]
  %4 = lshr i32 %3, 1
  %5 = and i32 %3, 1
  %6 = icmp eq i32 %5, 0
  %7 = select i1 %6, i32 0, i32 -306674912
  %8 = xor i32 %7, %4
  %9 = lshr i32 %8, 1
  %10 = and i32 %3, 2
  %11 = icmp eq i32 %10, 0
  %12 = select i1 %11, i32 0, i32 -306674912
  %13 = xor i32 %9, %12
  %14 = lshr i32 %13, 6
  %15 = and i32 %3, 4
  %16 = icmp eq i32 %15, 0
  %17 = select i1 %16, i32 0, i32 124634137
  %18 = and i32 %3, 8
  %19 = icmp eq i32 %18, 0
  %20 = select i1 %19, i32 0, i32 249268274
  %21 = and i32 %3, 16
  %22 = icmp eq i32 %21, 0
  %23 = select i1 %22, i32 0, i32 498536548
  %24 = and i32 %3, 32
  %25 = icmp eq i32 %24, 0
  %26 = select i1 %25, i32 0, i32 997073096
  %27 = and i32 %8, 32
  %28 = icmp eq i32 %27, 0
  %29 = select i1 %28, i32 0, i32 1994146192
  %30 = and i32 %13, 32
  %31 = icmp eq i32 %30, 0
  %32 = select i1 %31, i32 0, i32 -306674912
  %33 = xor i32 %20, %17
  %34 = xor i32 %33, %23
  %35 = xor i32 %34, %26
  %36 = xor i32 %35, %14
  %37 = xor i32 %36, %29
  %38 = xor i32 %37, %32
  %39 = getelementptr inbounds [256 x i32], ptr @table, i32 0, i32 %3
  store i32 %38, ptr %39, align 4, !tbaa !5
  %40 = add nuw nsw i32 %3, 1
  %41 = icmp eq i32 %40, 256
  br i1 %41, label %42, label %2, !llvm.loop !9

42:                                               ; preds = %2
  %43 = load i32, ptr getelementptr inbounds (i8, ptr @table, i32 824), align 4, !tbaa !5
  %44 = lshr i32 %43, 8
  %45 = and i32 %43, 255
  %46 = xor i32 %45, 205
  %47 = getelementptr inbounds [256 x i32], ptr @table, i32 0, i32 %46
  %48 = load i32, ptr %47, align 4, !tbaa !5
  %49 = xor i32 %44, %48
  %50 = lshr i32 %49, 8
  %51 = and i32 %49, 255
  %52 = xor i32 %51, 204
  %53 = getelementptr inbounds [256 x i32], ptr @table, i32 0, i32 %52
  %54 = load i32, ptr %53, align 4, !tbaa !5
  %55 = xor i32 %50, %54
  %56 = lshr i32 %55, 8
  %57 = and i32 %55, 255
  %58 = xor i32 %57, 203
  %59 = getelementptr inbounds [256 x i32], ptr @table, i32 0, i32 %58
  %60 = load i32, ptr %59, align 4, !tbaa !5
  %61 = xor i32 %56, %60
  %62 = lshr i32 %61, 8
  %63 = and i32 %61, 255
  %64 = xor i32 %63, 53
  %65 = getelementptr inbounds [256 x i32], ptr @table, i32 0, i32 %64
  %66 = load i32, ptr %65, align 4, !tbaa !5
  %67 = xor i32 %62, %66
  %68 = lshr i32 %67, 8
  %69 = and i32 %67, 255
  %70 = xor i32 %69, 54
  %71 = getelementptr inbounds [256 x i32], ptr @table, i32 0, i32 %70
  %72 = load i32, ptr %71, align 4, !tbaa !5
  %73 = xor i32 %68, %72
  %74 = lshr i32 %73, 8
  %75 = and i32 %73, 255
  %76 = xor i32 %75, 55
  %77 = getelementptr inbounds [256 x i32], ptr @table, i32 0, i32 %76
  %78 = load i32, ptr %77, align 4, !tbaa !5
  %79 = xor i32 %74, %78
  %80 = lshr i32 %79, 8
  %81 = and i32 %79, 255
  %82 = xor i32 %81, 56
  %83 = getelementptr inbounds [256 x i32], ptr @table, i32 0, i32 %82
  %84 = load i32, ptr %83, align 4, !tbaa !5
  %85 = xor i32 %80, %84
  %86 = lshr i32 %85, 8
  %87 = and i32 %85, 255
  %88 = xor i32 %87, 57
  %89 = getelementptr inbounds [256 x i32], ptr @table, i32 0, i32 %88
  %90 = load i32, ptr %89, align 4, !tbaa !5
  %91 = xor i32 %90, %86
  %92 = xor i32 %91, -1
  tail call fastcc void @hexadecimal(i32 noundef %92)
  %93 = tail call i32 @putchar(i32 noundef 10)
  tail call fastcc void @hexadecimal(i32 noundef 10673)
  %94 = tail call i32 @putchar(i32 noundef 10)
  tail call fastcc void @hexadecimal(i32 noundef 152961502)
  %95 = tail call i32 @putchar(i32 noundef 10)
  tail call fastcc void @hexadecimal(i32 noundef 7902)
  %96 = tail call i32 @putchar(i32 noundef 10)
  ret i32 38
}

; Function Attrs: nofree nounwind
define internal fastcc void @hexadecimal(i32 noundef %0) unnamed_addr #0 {
  %2 = icmp ugt i32 %0, 15
  br i1 %2, label %3, label %5

3:                                                ; preds = %1
  %4 = lshr i32 %0, 4
  tail call fastcc void @hexadecimal(i32 noundef %4)
  br label %5

5:                                                ; preds = %3, %1
  %6 = and i32 %0, 15
  %7 = getelementptr inbounds [17 x i8], ptr @.str, i32 0, i32 %6
  %8 = load i8, ptr %7, align 1, !tbaa !11
  %9 = zext i8 %8 to i32
  %10 = tail call i32 @putchar(i32 noundef %9)
  ret void
}

; Function Attrs: nofree nounwind
declare noundef i32 @putchar(i32 noundef) local_unnamed_addr #0

attributes #0 = { nofree nounwind "no-trapping-math"="true" "stack-protector-buffer-size"="8" "target-cpu"="generic" "target-features"="+armv7-a,+dsp,+soft-float,-aes,-bf16,-d32,-dotprod,-fp-armv8,-fp-armv8d16,-fp-armv8d16sp,-fp-armv8sp,-fp16,-fp16fml,-fp64,-fpregs,-fullfp16,-mve,-mve.fp,-neon,-sha2,-thumb-mode,-vfp2,-vfp2sp,-vfp3,-vfp3d16,-vfp3d16sp,-vfp3sp,-vfp4,-vfp4d16,-vfp4d16sp,-vfp4sp" "use-soft-float"="true" }

!llvm.module.flags = !{!0, !1, !2, !3}
!llvm.ident = !{!4}

!0 = !{i32 1, !"wchar_size", i32 4}
!1 = !{i32 1, !"min_enum_size", i32 4}
!2 = !{i32 8, !"PIC Level", i32 2}
!3 = !{i32 7, !"PIE Level", i32 2}
!4 = !{!"Debian clang version 19.1.7 (3~deb12u1)"}
!5 = !{!6, !6, i64 0}
!6 = !{!"int", !7, i64 0}
!7 = !{!"omnipotent char", !8, i64 0}
!8 = !{!"Simple C/C++ TBAA"}
!9 = distinct !{!9, !10}
!10 = !{!"llvm.loop.mustprogress"}
!11 = !{!7, !7, i64 0}
