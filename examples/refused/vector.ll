; void twice(int *restrict a, const int *restrict b) { for (int i = 0; i < 64; i++) a[i] = 2 * b[i]; } int main(void) { int a[64], b[64] = {0}; twice(a, b); return a[5]; }
; ModuleID = 'vector.c'
source_filename = "vector.c"
target datalayout = "e-m:e-p270:32:32-p271:32:32-p272:64:64-i64:64-i128:128-f80:128-n8:16:32:64-S128"
target triple = "x86_64-unknown-linux-gnu"

; Function Attrs: nofree norecurse nosync nounwind memory(argmem: readwrite) uwtable
define dso_local void @twice(ptr noalias nocapture noundef writeonly %a, ptr noalias nocapture noundef readonly %b) local_unnamed_addr #0 {
entry:
  %0 = getelementptr inbounds i8, ptr %b, i64 16
  %wide.load = load <4 x i32>, ptr %b, align 4, !tbaa !5
  %wide.load8 = load <4 x i32>, ptr %0, align 4, !tbaa !5
  %1 = shl nsw <4 x i32> %wide.load, <i32 1, i32 1, i32 1, i32 1>
  %2 = shl nsw <4 x i32> %wide.load8, <i32 1, i32 1, i32 1, i32 1>
  %3 = getelementptr inbounds i8, ptr %a, i64 16
  store <4 x i32> %1, ptr %a, align 4, !tbaa !5
  store <4 x i32> %2, ptr %3, align 4, !tbaa !5
  %4 = getelementptr inbounds i8, ptr %b, i64 32
  %5 = getelementptr inbounds i8, ptr %b, i64 48
  %wide.load.1 = load <4 x i32>, ptr %4, align 4, !tbaa !5
  %wide.load8.1 = load <4 x i32>, ptr %5, align 4, !tbaa !5
  %6 = shl nsw <4 x i32> %wide.load.1, <i32 1, i32 1, i32 1, i32 1>
  %7 = shl nsw <4 x i32> %wide.load8.1, <i32 1, i32 1, i32 1, i32 1>
  %8 = getelementptr inbounds i8, ptr %a, i64 32
  %9 = getelementptr inbounds i8, ptr %a, i64 48
  store <4 x i32> %6, ptr %8, align 4, !tbaa !5
  store <4 x i32> %7, ptr %9, align 4, !tbaa !5
  %10 = getelementptr inbounds i8, ptr %b, i64 64
  %11 = getelementptr inbounds i8, ptr %b, i64 80
  %wide.load.2 = load <4 x i32>, ptr %10, align 4, !tbaa !5
  %wide.load8.2 = load <4 x i32>, ptr %11, align 4, !tbaa !5
  %12 = shl nsw <4 x i32> %wide.load.2, <i32 1, i32 1, i32 1, i32 1>
  %13 = shl nsw <4 x i32> %wide.load8.2, <i32 1, i32 1, i32 1, i32 1>
  %14 = getelementptr inbounds i8, ptr %a, i64 64
  %15 = getelementptr inbounds i8, ptr %a, i64 80
  store <4 x i32> %12, ptr %14, align 4, !tbaa !5
  store <4 x i32> %13, ptr %15, align 4, !tbaa !5
  %16 = getelementptr inbounds i8, ptr %b, i64 96
  %17 = getelementptr inbounds i8, ptr %b, i64 112
  %wide.load.3 = load <4 x i32>, ptr %16, align 4, !tbaa !5
  %wide.load8.3 = load <4 x i32>, ptr %17, align 4, !tbaa !5
  %18 = shl nsw <4 x i32> %wide.load.3, <i32 1, i32 1, i32 1, i32 1>
  %19 = shl nsw <4 x i32> %wide.load8.3, <i32 1, i32 1, i32 1, i32 1>
  %20 = getelementptr inbounds i8, ptr %a, i64 96
  %21 = getelementptr inbounds i8, ptr %a, i64 112
  store <4 x i32> %18, ptr %20, align 4, !tbaa !5
  store <4 x i32> %19, ptr %21, align 4, !tbaa !5
  %22 = getelementptr inbounds i8, ptr %b, i64 128
  %23 = getelementptr inbounds i8, ptr %b, i64 144
  %wide.load.4 = load <4 x i32>, ptr %22, align 4, !tbaa !5
  %wide.load8.4 = load <4 x i32>, ptr %23, align 4, !tbaa !5
  %24 = shl nsw <4 x i32> %wide.load.4, <i32 1, i32 1, i32 1, i32 1>
  %25 = shl nsw <4 x i32> %wide.load8.4, <i32 1, i32 1, i32 1, i32 1>
  %26 = getelementptr inbounds i8, ptr %a, i64 128
  %27 = getelementptr inbounds i8, ptr %a, i64 144
  store <4 x i32> %24, ptr %26, align 4, !tbaa !5
  store <4 x i32> %25, ptr %27, align 4, !tbaa !5
  %28 = getelementptr inbounds i8, ptr %b, i64 160
  %29 = getelementptr inbounds i8, ptr %b, i64 176
  %wide.load.5 = load <4 x i32>, ptr %28, align 4, !tbaa !5
  %wide.load8.5 = load <4 x i32>, ptr %29, align 4, !tbaa !5
  %30 = shl nsw <4 x i32> %wide.load.5, <i32 1, i32 1, i32 1, i32 1>
  %31 = shl nsw <4 x i32> %wide.load8.5, <i32 1, i32 1, i32 1, i32 1>
  %32 = getelementptr inbounds i8, ptr %a, i64 160
  %33 = getelementptr inbounds i8, ptr %a, i64 176
  store <4 x i32> %30, ptr %32, align 4, !tbaa !5
  store <4 x i32> %31, ptr %33, align 4, !tbaa !5
  %34 = getelementptr inbounds i8, ptr %b, i64 192
  %35 = getelementptr inbounds i8, ptr %b, i64 208
  %wide.load.6 = load <4 x i32>, ptr %34, align 4, !tbaa !5
  %wide.load8.6 = load <4 x i32>, ptr %35, align 4, !tbaa !5
  %36 = shl nsw <4 x i32> %wide.load.6, <i32 1, i32 1, i32 1, i32 1>
  %37 = shl nsw <4 x i32> %wide.load8.6, <i32 1, i32 1, i32 1, i32 1>
  %38 = getelementptr inbounds i8, ptr %a, i64 192
  %39 = getelementptr inbounds i8, ptr %a, i64 208
  store <4 x i32> %36, ptr %38, align 4, !tbaa !5
  store <4 x i32> %37, ptr %39, align 4, !tbaa !5
  %40 = getelementptr inbounds i8, ptr %b, i64 224
  %41 = getelementptr inbounds i8, ptr %b, i64 240
  %wide.load.7 = load <4 x i32>, ptr %40, align 4, !tbaa !5
  %wide.load8.7 = load <4 x i32>, ptr %41, align 4, !tbaa !5
  %42 = shl nsw <4 x i32> %wide.load.7, <i32 1, i32 1, i32 1, i32 1>
  %43 = shl nsw <4 x i32> %wide.load8.7, <i32 1, i32 1, i32 1, i32 1>
  %44 = getelementptr inbounds i8, ptr %a, i64 224
  %45 = getelementptr inbounds i8, ptr %a, i64 240
  store <4 x i32> %42, ptr %44, align 4, !tbaa !5
  store <4 x i32> %43, ptr %45, align 4, !tbaa !5
  ret void
}

; Function Attrs: nofree norecurse nosync nounwind memory(inaccessiblemem: readwrite) uwtable
define dso_local i32 @main() local_unnamed_addr #1 {
entry:
  ret i32 0
}

attributes #0 = { nofree norecurse nosync nounwind memory(argmem: readwrite) uwtable "min-legal-vector-width"="0" "no-trapping-math"="true" "stack-protector-buffer-size"="8" "target-cpu"="x86-64" "target-features"="+cmov,+cx8,+fxsr,+mmx,+sse,+sse2,+x87" "tune-cpu"="generic" }
attributes #1 = { nofree norecurse nosync nounwind memory(inaccessiblemem: readwrite) uwtable "min-legal-vector-width"="0" "no-trapping-math"="true" "stack-protector-buffer-size"="8" "target-cpu"="x86-64" "target-features"="+cmov,+cx8,+fxsr,+mmx,+sse,+sse2,+x87" "tune-cpu"="generic" }

!llvm.module.flags = !{!0, !1, !2, !3}
!llvm.ident = !{!4}

!0 = !{i32 1, !"wchar_size", i32 4}
!1 = !{i32 8, !"PIC Level", i32 2}
!2 = !{i32 7, !"PIE Level", i32 2}
!3 = !{i32 7, !"uwtable", i32 2}
!4 = !{!"Debian clang version 19.1.7 (3~deb12u1)"}
!5 = !{!6, !6, i64 0}
!6 = !{!"int", !7, i64 0}
!7 = !{!"omnipotent char", !8, i64 0}
!8 = !{!"Simple C/C++ TBAA"}
