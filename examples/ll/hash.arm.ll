; ModuleID = 'hash.c'
source_filename = "hash.c"
target datalayout = "e-m:e-p:32:32-Fi8-i64:64-v128:64:128-a:0:32-n32-S64"
target triple = "armv7-unknown-linux-gnueabi"

%struct.slot = type { ptr, i32, i32 }

@text = internal unnamed_addr constant [61 x i8] c"the server asks the device for the page and the server waits\00", align 1
@kept = internal global [80 x i8] zeroinitializer, align 1
@main.asked = internal unnamed_addr constant [5 x ptr] [ptr @.str, ptr @.str.1, ptr @.str.2, ptr @.str.3, ptr @.str.4], align 4
@.str = private unnamed_addr constant [4 x i8] c"the\00", align 1
@.str.1 = private unnamed_addr constant [7 x i8] c"server\00", align 1
@.str.2 = private unnamed_addr constant [7 x i8] c"device\00", align 1
@.str.3 = private unnamed_addr constant [5 x i8] c"page\00", align 1
@.str.4 = private unnamed_addr constant [5 x i8] c"link\00", align 1
@table = internal unnamed_addr global [16 x %struct.slot] zeroinitializer, align 4

; Function Attrs: nofree nounwind
define dso_local i32 @main() local_unnamed_addr #0 {
  br label %1

1:                                                ; preds = %0, %85
  %2 = phi i32 [ 0, %0 ], [ %86, %85 ]
  %3 = phi i32 [ 0, %0 ], [ %87, %85 ]
  %4 = getelementptr inbounds [61 x i8], ptr @text, i32 0, i32 %2
  %5 = load i8, ptr %4, align 1, !tbaa !5
  %6 = icmp eq i8 %5, 32
  %7 = select i1 %6, i8 0, i8 %5
  %8 = getelementptr inbounds [80 x i8], ptr @kept, i32 0, i32 %2
  store i8 %7, ptr %8, align 1, !tbaa !5
  %9 = icmp eq i8 %7, 0
  br i1 %9, label %12, label %10

10:                                               ; preds = %1
  %11 = add nuw nsw i32 %2, 1
  br label %85

12:                                               ; preds = %1
  %13 = getelementptr inbounds [80 x i8], ptr @kept, i32 0, i32 %3
  %14 = load i8, ptr %13, align 1, !tbaa !5
  %15 = icmp eq i8 %14, 0
  br i1 %15, label %26, label %16

16:                                               ; preds = %12, %16
  %17 = phi i8 [ %24, %16 ], [ %14, %12 ]
  %18 = phi i32 [ %23, %16 ], [ -2128831035, %12 ]
  %19 = phi ptr [ %20, %16 ], [ %13, %12 ]
  %20 = getelementptr inbounds i8, ptr %19, i32 1
  %21 = zext i8 %17 to i32
  %22 = xor i32 %18, %21
  %23 = mul i32 %22, 16777619
  %24 = load i8, ptr %20, align 1, !tbaa !5
  %25 = icmp eq i8 %24, 0
  br i1 %25, label %26, label %16, !llvm.loop !8

26:                                               ; preds = %16, %12
  %27 = phi i32 [ -2128831035, %12 ], [ %23, %16 ]
  %28 = and i32 %27, 15
  %29 = getelementptr inbounds [16 x %struct.slot], ptr @table, i32 0, i32 %28
  %30 = load ptr, ptr %29, align 4, !tbaa !10
  %31 = icmp eq ptr %30, null
  br i1 %31, label %64, label %32

32:                                               ; preds = %26, %58
  %33 = phi ptr [ %62, %58 ], [ %30, %26 ]
  %34 = phi ptr [ %61, %58 ], [ %29, %26 ]
  %35 = phi i32 [ %60, %58 ], [ %28, %26 ]
  %36 = getelementptr inbounds i8, ptr %34, i32 4
  %37 = load i32, ptr %36, align 4, !tbaa !14
  %38 = icmp eq i32 %37, %27
  br i1 %38, label %39, label %58

39:                                               ; preds = %32
  %40 = load i8, ptr %33, align 1, !tbaa !5
  %41 = icmp eq i8 %40, 0
  br i1 %41, label %53, label %42

42:                                               ; preds = %39, %48
  %43 = phi i8 [ %51, %48 ], [ %40, %39 ]
  %44 = phi ptr [ %49, %48 ], [ %13, %39 ]
  %45 = phi ptr [ %50, %48 ], [ %33, %39 ]
  %46 = load i8, ptr %44, align 1, !tbaa !5
  %47 = icmp eq i8 %43, %46
  br i1 %47, label %48, label %53

48:                                               ; preds = %42
  %49 = getelementptr inbounds i8, ptr %44, i32 1
  %50 = getelementptr inbounds i8, ptr %45, i32 1
  %51 = load i8, ptr %50, align 1, !tbaa !5
  %52 = icmp eq i8 %51, 0
  br i1 %52, label %53, label %42, !llvm.loop !15

53:                                               ; preds = %48, %42, %39
  %54 = phi ptr [ %13, %39 ], [ %44, %42 ], [ %49, %48 ]
  %55 = phi i8 [ 0, %39 ], [ %43, %42 ], [ 0, %48 ]
  %56 = load i8, ptr %54, align 1, !tbaa !5
  %57 = icmp eq i8 %55, %56
  br i1 %57, label %64, label %58

58:                                               ; preds = %53, %32
  %59 = add nuw nsw i32 %35, 1
  %60 = and i32 %59, 15
  %61 = getelementptr inbounds [16 x %struct.slot], ptr @table, i32 0, i32 %60
  %62 = load ptr, ptr %61, align 4, !tbaa !10
  %63 = icmp eq ptr %62, null
  br i1 %63, label %64, label %32

64:                                               ; preds = %58, %53, %26
  %65 = phi ptr [ %29, %26 ], [ %34, %53 ], [ %61, %58 ]
  store ptr %13, ptr %65, align 4, !tbaa !10
  %66 = load i8, ptr %13, align 1, !tbaa !5
  %67 = icmp eq i8 %66, 0
  br i1 %67, label %78, label %68

68:                                               ; preds = %64, %68
  %69 = phi i8 [ %76, %68 ], [ %66, %64 ]
  %70 = phi i32 [ %75, %68 ], [ -2128831035, %64 ]
  %71 = phi ptr [ %72, %68 ], [ %13, %64 ]
  %72 = getelementptr inbounds i8, ptr %71, i32 1
  %73 = zext i8 %69 to i32
  %74 = xor i32 %70, %73
  %75 = mul i32 %74, 16777619
  %76 = load i8, ptr %72, align 1, !tbaa !5
  %77 = icmp eq i8 %76, 0
  br i1 %77, label %78, label %68, !llvm.loop !8

78:                                               ; preds = %68, %64
  %79 = phi i32 [ -2128831035, %64 ], [ %75, %68 ]
  %80 = getelementptr inbounds i8, ptr %65, i32 4
  store i32 %79, ptr %80, align 4, !tbaa !14
  %81 = getelementptr inbounds i8, ptr %65, i32 8
  %82 = load i32, ptr %81, align 4, !tbaa !16
  %83 = add nsw i32 %82, 1
  store i32 %83, ptr %81, align 4, !tbaa !16
  %84 = add nuw nsw i32 %2, 1
  br label %85

85:                                               ; preds = %10, %78
  %86 = phi i32 [ %11, %10 ], [ %84, %78 ]
  %87 = phi i32 [ %3, %10 ], [ %84, %78 ]
  %88 = icmp eq i32 %86, 61
  br i1 %88, label %90, label %1, !llvm.loop !17

89:                                               ; preds = %163
  ret i32 %169

90:                                               ; preds = %85, %163
  %91 = phi i32 [ %170, %163 ], [ 0, %85 ]
  %92 = phi i32 [ %169, %163 ], [ 0, %85 ]
  %93 = getelementptr inbounds [5 x ptr], ptr @main.asked, i32 0, i32 %91
  %94 = load ptr, ptr %93, align 4, !tbaa !18
  %95 = load i8, ptr %94, align 1, !tbaa !5
  %96 = icmp eq i8 %95, 0
  br i1 %96, label %107, label %97

97:                                               ; preds = %90, %97
  %98 = phi i8 [ %105, %97 ], [ %95, %90 ]
  %99 = phi i32 [ %104, %97 ], [ -2128831035, %90 ]
  %100 = phi ptr [ %101, %97 ], [ %94, %90 ]
  %101 = getelementptr inbounds i8, ptr %100, i32 1
  %102 = zext i8 %98 to i32
  %103 = xor i32 %99, %102
  %104 = mul i32 %103, 16777619
  %105 = load i8, ptr %101, align 1, !tbaa !5
  %106 = icmp eq i8 %105, 0
  br i1 %106, label %107, label %97, !llvm.loop !8

107:                                              ; preds = %97, %90
  %108 = phi i32 [ -2128831035, %90 ], [ %104, %97 ]
  %109 = and i32 %108, 15
  %110 = getelementptr inbounds [16 x %struct.slot], ptr @table, i32 0, i32 %109
  %111 = load ptr, ptr %110, align 4, !tbaa !10
  %112 = icmp eq ptr %111, null
  br i1 %112, label %145, label %113

113:                                              ; preds = %107, %139
  %114 = phi ptr [ %143, %139 ], [ %111, %107 ]
  %115 = phi ptr [ %142, %139 ], [ %110, %107 ]
  %116 = phi i32 [ %141, %139 ], [ %109, %107 ]
  %117 = getelementptr inbounds i8, ptr %115, i32 4
  %118 = load i32, ptr %117, align 4, !tbaa !14
  %119 = icmp eq i32 %118, %108
  br i1 %119, label %120, label %139

120:                                              ; preds = %113
  %121 = load i8, ptr %114, align 1, !tbaa !5
  %122 = icmp eq i8 %121, 0
  br i1 %122, label %134, label %123

123:                                              ; preds = %120, %129
  %124 = phi i8 [ %132, %129 ], [ %121, %120 ]
  %125 = phi ptr [ %130, %129 ], [ %94, %120 ]
  %126 = phi ptr [ %131, %129 ], [ %114, %120 ]
  %127 = load i8, ptr %125, align 1, !tbaa !5
  %128 = icmp eq i8 %124, %127
  br i1 %128, label %129, label %134

129:                                              ; preds = %123
  %130 = getelementptr inbounds i8, ptr %125, i32 1
  %131 = getelementptr inbounds i8, ptr %126, i32 1
  %132 = load i8, ptr %131, align 1, !tbaa !5
  %133 = icmp eq i8 %132, 0
  br i1 %133, label %134, label %123, !llvm.loop !15

134:                                              ; preds = %129, %123, %120
  %135 = phi ptr [ %94, %120 ], [ %125, %123 ], [ %130, %129 ]
  %136 = phi i8 [ 0, %120 ], [ %124, %123 ], [ 0, %129 ]
  %137 = load i8, ptr %135, align 1, !tbaa !5
  %138 = icmp eq i8 %136, %137
  br i1 %138, label %145, label %139

139:                                              ; preds = %134, %113
  %140 = add nuw nsw i32 %116, 1
  %141 = and i32 %140, 15
  %142 = getelementptr inbounds [16 x %struct.slot], ptr @table, i32 0, i32 %141
  %143 = load ptr, ptr %142, align 4, !tbaa !10
  %144 = icmp eq ptr %143, null
  br i1 %144, label %145, label %113

145:                                              ; preds = %134, %139, %107
  %146 = phi ptr [ %110, %107 ], [ %142, %139 ], [ %115, %134 ]
  br i1 %96, label %147, label %151

147:                                              ; preds = %151, %145
  %148 = tail call i32 @putchar(i32 noundef 32)
  %149 = load ptr, ptr %146, align 4, !tbaa !10
  %150 = icmp eq ptr %149, null
  br i1 %150, label %163, label %159

151:                                              ; preds = %145, %151
  %152 = phi i8 [ %157, %151 ], [ %95, %145 ]
  %153 = phi ptr [ %156, %151 ], [ %94, %145 ]
  %154 = zext i8 %152 to i32
  %155 = tail call i32 @putchar(i32 noundef %154)
  %156 = getelementptr inbounds i8, ptr %153, i32 1
  %157 = load i8, ptr %156, align 1, !tbaa !5
  %158 = icmp eq i8 %157, 0
  br i1 %158, label %147, label %151, !llvm.loop !19

159:                                              ; preds = %147
  %160 = getelementptr inbounds i8, ptr %146, i32 8
  %161 = load i32, ptr %160, align 4, !tbaa !16
  %162 = add nsw i32 %161, 48
  br label %163

163:                                              ; preds = %147, %159
  %164 = phi i32 [ %162, %159 ], [ 45, %147 ]
  %165 = tail call i32 @putchar(i32 noundef %164)
  %166 = tail call i32 @putchar(i32 noundef 10)
  %167 = getelementptr inbounds i8, ptr %146, i32 8
  %168 = load i32, ptr %167, align 4, !tbaa !16
  %169 = add nsw i32 %168, %92
  %170 = add nuw nsw i32 %91, 1
  %171 = icmp eq i32 %170, 5
  br i1 %171, label %89, label %90, !llvm.loop !20
}

; Function Attrs: nofree nounwind
declare noundef i32 @putchar(i32 noundef) local_unnamed_addr #0

attributes #0 = { nofree nounwind "no-trapping-math"="true" "stack-protector-buffer-size"="8" "target-cpu"="generic" "target-features"="+armv7-a,+dsp,+soft-float,-aes,-bf16,-d32,-dotprod,-fp-armv8,-fp-armv8d16,-fp-armv8d16sp,-fp-armv8sp,-fp16,-fp16fml,-fp64,-fpregs,-fullfp16,-mve,-mve.fp,-neon,-sha2,-thumb-mode,-vfp2,-vfp2sp,-vfp3,-vfp3d16,-vfp3d16sp,-vfp3sp,-vfp4,-vfp4d16,-vfp4d16sp,-vfp4sp" "use-soft-float"="true" }

!llvm.module.flags = !{!0, !1, !2, !3}
!llvm.ident = !{!4}

!0 = !{i32 1, !"wchar_size", i32 4}
!1 = !{i32 1, !"min_enum_size", i32 4}
!2 = !{i32 8, !"PIC Level", i32 2}
!3 = !{i32 7, !"PIE Level", i32 2}
!4 = !{!"Debian clang version 19.1.7 (3~deb12u1)"}
!5 = !{!6, !6, i64 0}
!6 = !{!"omnipotent char", !7, i64 0}
!7 = !{!"Simple C/C++ TBAA"}
!8 = distinct !{!8, !9}
!9 = !{!"llvm.loop.mustprogress"}
!10 = !{!11, !12, i64 0}
!11 = !{!"slot", !12, i64 0, !13, i64 4, !13, i64 8}
!12 = !{!"any pointer", !6, i64 0}
!13 = !{!"int", !6, i64 0}
!14 = !{!11, !13, i64 4}
!15 = distinct !{!15, !9}
!16 = !{!11, !13, i64 8}
!17 = distinct !{!17, !9}
!18 = !{!12, !12, i64 0}
!19 = distinct !{!19, !9}
!20 = distinct !{!20, !9}
