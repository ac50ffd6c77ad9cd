; ModuleID = 'matrix.c'
source_filename = "matrix.c"
target datalayout = "E-m:m-p:32:32-i8:8:32-i16:16:32-i64:64-n32-S64"
target triple = "mips-unknown-linux-gnu"

%struct.matrix = type { i32, i32, [3 x [3 x i32]] }

@a = internal unnamed_addr constant %struct.matrix { i32 2, i32 3, [3 x [3 x i32]] [[3 x i32] [i32 1, i32 2, i32 3], [3 x i32] [i32 4, i32 5, i32 6], [3 x i32] zeroinitializer] }, align 4
@b = internal unnamed_addr constant %struct.matrix { i32 3, i32 2, [3 x [3 x i32]] [[3 x i32] [i32 7, i32 8, i32 0], [3 x i32] [i32 9, i32 10, i32 0], [3 x i32] [i32 11, i32 12, i32 0]] }, align 4

; Function Attrs: nofree nounwind
define dso_local i32 @main() local_unnamed_addr #0 {
entry:
  %made.i83 = alloca %struct.matrix, align 4
  %made.i57 = alloca %struct.matrix, align 4
  %made.i = alloca %struct.matrix, align 4
  %c = alloca %struct.matrix, align 4
  %d = alloca %struct.matrix, align 4
  %power = alloca %struct.matrix, align 4
  %base = alloca %struct.matrix, align 4
  call void @llvm.lifetime.start.p0(i64 44, ptr nonnull %c) #4
  call void @llvm.lifetime.start.p0(i64 44, ptr nonnull %d) #4
  call void @llvm.lifetime.start.p0(i64 44, ptr nonnull %power) #4
  call void @llvm.memset.p0.i32(ptr noundef nonnull align 4 dereferenceable(44) %power, i8 0, i32 44, i1 false)
  store i32 2, ptr %power, align 4
  %0 = getelementptr inbounds i8, ptr %power, i32 4
  store i32 2, ptr %0, align 4
  %1 = getelementptr inbounds i8, ptr %power, i32 8
  store i32 1, ptr %1, align 4
  %2 = getelementptr inbounds i8, ptr %power, i32 24
  store i32 1, ptr %2, align 4
  call void @llvm.lifetime.start.p0(i64 44, ptr nonnull %base) #4
  call void @llvm.memset.p0.i32(ptr noundef nonnull align 4 dereferenceable(44) %base, i8 0, i32 44, i1 false)
  store i32 2, ptr %base, align 4
  %3 = getelementptr inbounds i8, ptr %base, i32 4
  store i32 2, ptr %3, align 4
  %4 = getelementptr inbounds i8, ptr %base, i32 8
  store i32 1, ptr %4, align 4
  %5 = getelementptr inbounds i8, ptr %base, i32 12
  store i32 1, ptr %5, align 4
  %6 = getelementptr inbounds i8, ptr %base, i32 20
  store i32 1, ptr %6, align 4
  call void @llvm.lifetime.start.p0(i64 44, ptr nonnull %made.i) #4
  call void @llvm.memset.p0.i64(ptr noundef nonnull align 4 dereferenceable(44) %made.i, i8 0, i64 44, i1 false)
  store i32 2, ptr %made.i, align 4, !tbaa !4
  %columns.i = getelementptr inbounds i8, ptr %made.i, i32 4
  store i32 2, ptr %columns.i, align 4, !tbaa !9
  %at19.i = getelementptr inbounds i8, ptr %made.i, i32 8
  br label %for.cond4.preheader.i

for.cond4.preheader.i:                            ; preds = %for.cond.cleanup7.i, %entry
  %i.047.i = phi i32 [ 0, %entry ], [ %inc26.i, %for.cond.cleanup7.i ]
  br label %for.cond9.preheader.i

for.cond9.preheader.i:                            ; preds = %for.cond9.for.cond.cleanup12_crit_edge.i, %for.cond4.preheader.i
  %j.045.i = phi i32 [ 0, %for.cond4.preheader.i ], [ %inc23.i, %for.cond9.for.cond.cleanup12_crit_edge.i ]
  %arrayidx21.i = getelementptr inbounds [3 x [3 x i32]], ptr %at19.i, i32 0, i32 %i.047.i, i32 %j.045.i
  %arrayidx21.promoted.i = load i32, ptr %arrayidx21.i, align 4, !tbaa !10
  br label %for.body13.i

for.cond.cleanup7.i:                              ; preds = %for.cond9.for.cond.cleanup12_crit_edge.i
  %inc26.i = add nuw nsw i32 %i.047.i, 1
  %exitcond49.not.i = icmp eq i32 %inc26.i, 2
  br i1 %exitcond49.not.i, label %product.exit, label %for.cond4.preheader.i, !llvm.loop !11

for.cond9.for.cond.cleanup12_crit_edge.i:         ; preds = %for.body13.i
  store i32 %add.i, ptr %arrayidx21.i, align 4, !tbaa !10
  %inc23.i = add nuw nsw i32 %j.045.i, 1
  %exitcond48.not.i = icmp eq i32 %inc23.i, 2
  br i1 %exitcond48.not.i, label %for.cond.cleanup7.i, label %for.cond9.preheader.i, !llvm.loop !14

for.body13.i:                                     ; preds = %for.body13.i, %for.cond9.preheader.i
  %7 = phi i32 [ %arrayidx21.promoted.i, %for.cond9.preheader.i ], [ %add.i, %for.body13.i ]
  %k.043.i = phi i32 [ 0, %for.cond9.preheader.i ], [ %inc.i, %for.body13.i ]
  %arrayidx15.i = getelementptr inbounds [3 x [3 x i32]], ptr getelementptr inbounds (i8, ptr @a, i32 8), i32 0, i32 %i.047.i, i32 %k.043.i
  %8 = load i32, ptr %arrayidx15.i, align 4, !tbaa !10
  %arrayidx18.i = getelementptr inbounds [3 x [3 x i32]], ptr getelementptr inbounds (i8, ptr @b, i32 8), i32 0, i32 %k.043.i, i32 %j.045.i
  %9 = load i32, ptr %arrayidx18.i, align 4, !tbaa !10
  %mul.i = mul nsw i32 %9, %8
  %add.i = add nsw i32 %mul.i, %7
  %inc.i = add nuw nsw i32 %k.043.i, 1
  %exitcond.not.i = icmp eq i32 %inc.i, 3
  br i1 %exitcond.not.i, label %for.cond9.for.cond.cleanup12_crit_edge.i, label %for.body13.i, !llvm.loop !15

product.exit:                                     ; preds = %for.cond.cleanup7.i
  call void @llvm.memcpy.p0.p0.i32(ptr noundef nonnull align 4 dereferenceable(44) %c, ptr noundef nonnull align 4 dereferenceable(44) %made.i, i32 44, i1 false), !tbaa.struct !16
  call void @llvm.lifetime.end.p0(i64 44, ptr nonnull %made.i) #4
  %10 = load i32, ptr %c, align 4, !tbaa !4
  %cmp22.i = icmp sgt i32 %10, 0
  br i1 %cmp22.i, label %for.cond1.preheader.lr.ph.i, label %show.exit

for.cond1.preheader.lr.ph.i:                      ; preds = %product.exit
  %columns.i9 = getelementptr inbounds i8, ptr %c, i32 4
  %at.i = getelementptr inbounds i8, ptr %c, i32 8
  %11 = load i32, ptr %columns.i9, align 4, !tbaa !9
  %cmp220.i = icmp sgt i32 %11, 0
  br label %for.cond1.preheader.i

for.cond1.preheader.i:                            ; preds = %for.cond.cleanup3.i, %for.cond1.preheader.lr.ph.i
  %i.023.i = phi i32 [ 0, %for.cond1.preheader.lr.ph.i ], [ %inc9.i, %for.cond.cleanup3.i ]
  br i1 %cmp220.i, label %for.body4.i, label %for.cond.cleanup3.i

for.cond.cleanup3.i:                              ; preds = %for.body4.i, %for.cond1.preheader.i
  %inc9.i = add nuw nsw i32 %i.023.i, 1
  %exitcond119.not = icmp eq i32 %inc9.i, %10
  br i1 %exitcond119.not, label %show.exit, label %for.cond1.preheader.i, !llvm.loop !18

for.body4.i:                                      ; preds = %for.cond1.preheader.i, %for.body4.i
  %j.021.i = phi i32 [ %add.i10, %for.body4.i ], [ 0, %for.cond1.preheader.i ]
  %arrayidx5.i = getelementptr inbounds [3 x [3 x i32]], ptr %at.i, i32 0, i32 %i.023.i, i32 %j.021.i
  %12 = load i32, ptr %arrayidx5.i, align 4, !tbaa !10
  tail call fastcc void @number(i32 noundef signext %12)
  %add.i10 = add nuw nsw i32 %j.021.i, 1
  %cmp7.i = icmp slt i32 %add.i10, %11
  %cond.i = select i1 %cmp7.i, i32 32, i32 10
  %call.i = tail call i32 @putchar(i32 noundef signext %cond.i)
  %exitcond.not = icmp eq i32 %add.i10, %11
  br i1 %exitcond.not, label %for.cond.cleanup3.i, label %for.body4.i, !llvm.loop !19

show.exit:                                        ; preds = %for.cond.cleanup3.i, %product.exit
  %call11.i = tail call i32 @putchar(i32 noundef signext 10)
  %columns.i11 = getelementptr inbounds i8, ptr %c, i32 4
  %13 = load i32, ptr %columns.i11, align 4, !tbaa !9
  store i32 %13, ptr %d, align 4, !tbaa !4
  %columns2.i = getelementptr inbounds i8, ptr %d, i32 4
  store i32 %10, ptr %columns2.i, align 4, !tbaa !9
  br i1 %cmp22.i, label %for.cond4.preheader.lr.ph.i, label %transpose.exit

for.cond4.preheader.lr.ph.i:                      ; preds = %show.exit
  %at.i12 = getelementptr inbounds i8, ptr %c, i32 8
  %at10.i = getelementptr inbounds i8, ptr %d, i32 8
  %cmp628.i = icmp sgt i32 %13, 0
  br label %for.cond4.preheader.i13

for.cond4.preheader.i13:                          ; preds = %for.cond.cleanup7.i14, %for.cond4.preheader.lr.ph.i
  %i.031.i = phi i32 [ 0, %for.cond4.preheader.lr.ph.i ], [ %inc14.i, %for.cond.cleanup7.i14 ]
  br i1 %cmp628.i, label %for.body8.i, label %for.cond.cleanup7.i14

for.cond.cleanup7.i14:                            ; preds = %for.body8.i, %for.cond4.preheader.i13
  %inc14.i = add nuw nsw i32 %i.031.i, 1
  %exitcond121.not = icmp eq i32 %inc14.i, %10
  br i1 %exitcond121.not, label %transpose.exit, label %for.cond4.preheader.i13, !llvm.loop !20

for.body8.i:                                      ; preds = %for.cond4.preheader.i13, %for.body8.i
  %j.029.i = phi i32 [ %inc.i16, %for.body8.i ], [ 0, %for.cond4.preheader.i13 ]
  %arrayidx9.i = getelementptr inbounds [3 x [3 x i32]], ptr %at.i12, i32 0, i32 %i.031.i, i32 %j.029.i
  %14 = load i32, ptr %arrayidx9.i, align 4, !tbaa !10
  %arrayidx12.i = getelementptr inbounds [3 x [3 x i32]], ptr %at10.i, i32 0, i32 %j.029.i, i32 %i.031.i
  store i32 %14, ptr %arrayidx12.i, align 4, !tbaa !10
  %inc.i16 = add nuw nsw i32 %j.029.i, 1
  %exitcond120.not = icmp eq i32 %inc.i16, %13
  br i1 %exitcond120.not, label %for.cond.cleanup7.i14, label %for.body8.i, !llvm.loop !21

transpose.exit:                                   ; preds = %for.cond.cleanup7.i14, %show.exit
  %15 = load i32, ptr %d, align 4, !tbaa !4
  %cmp22.i17 = icmp sgt i32 %15, 0
  br i1 %cmp22.i17, label %for.cond1.preheader.lr.ph.i19, label %show.exit36

for.cond1.preheader.lr.ph.i19:                    ; preds = %transpose.exit
  %at.i21 = getelementptr inbounds i8, ptr %d, i32 8
  %16 = load i32, ptr %columns2.i, align 4, !tbaa !9
  %cmp220.i24 = icmp sgt i32 %16, 0
  br label %for.cond1.preheader.i22

for.cond1.preheader.i22:                          ; preds = %for.cond.cleanup3.i25, %for.cond1.preheader.lr.ph.i19
  %i.023.i23 = phi i32 [ 0, %for.cond1.preheader.lr.ph.i19 ], [ %inc9.i26, %for.cond.cleanup3.i25 ]
  br i1 %cmp220.i24, label %for.body4.i28, label %for.cond.cleanup3.i25

for.cond.cleanup3.i25:                            ; preds = %for.body4.i28, %for.cond1.preheader.i22
  %inc9.i26 = add nuw nsw i32 %i.023.i23, 1
  %exitcond123.not = icmp eq i32 %inc9.i26, %15
  br i1 %exitcond123.not, label %show.exit36, label %for.cond1.preheader.i22, !llvm.loop !18

for.body4.i28:                                    ; preds = %for.cond1.preheader.i22, %for.body4.i28
  %j.021.i29 = phi i32 [ %add.i31, %for.body4.i28 ], [ 0, %for.cond1.preheader.i22 ]
  %arrayidx5.i30 = getelementptr inbounds [3 x [3 x i32]], ptr %at.i21, i32 0, i32 %i.023.i23, i32 %j.021.i29
  %17 = load i32, ptr %arrayidx5.i30, align 4, !tbaa !10
  tail call fastcc void @number(i32 noundef signext %17)
  %add.i31 = add nuw nsw i32 %j.021.i29, 1
  %cmp7.i32 = icmp slt i32 %add.i31, %16
  %cond.i33 = select i1 %cmp7.i32, i32 32, i32 10
  %call.i34 = tail call i32 @putchar(i32 noundef signext %cond.i33)
  %exitcond122.not = icmp eq i32 %add.i31, %16
  br i1 %exitcond122.not, label %for.cond.cleanup3.i25, label %for.body4.i28, !llvm.loop !19

show.exit36:                                      ; preds = %for.cond.cleanup3.i25, %transpose.exit
  %call11.i18 = tail call i32 @putchar(i32 noundef signext 10)
  %columns.i84 = getelementptr inbounds i8, ptr %made.i83, i32 4
  %columns.i58 = getelementptr inbounds i8, ptr %made.i57, i32 4
  %at19.i61 = getelementptr inbounds i8, ptr %made.i57, i32 8
  %at19.i92 = getelementptr inbounds i8, ptr %made.i83, i32 8
  br label %for.body

for.cond.cleanup:                                 ; preds = %product.exit117
  %18 = load i32, ptr %power, align 4, !tbaa !4
  %cmp22.i37 = icmp sgt i32 %18, 0
  br i1 %cmp22.i37, label %for.cond1.preheader.i42.preheader, label %show.exit56

for.cond1.preheader.i42.preheader:                ; preds = %for.cond.cleanup
  %19 = load i32, ptr %0, align 4, !tbaa !9
  %cmp220.i44 = icmp sgt i32 %19, 0
  br label %for.cond1.preheader.i42

for.cond1.preheader.i42:                          ; preds = %for.cond1.preheader.i42.preheader, %for.cond.cleanup3.i45
  %i.023.i43 = phi i32 [ %inc9.i46, %for.cond.cleanup3.i45 ], [ 0, %for.cond1.preheader.i42.preheader ]
  br i1 %cmp220.i44, label %for.body4.i48, label %for.cond.cleanup3.i45

for.cond.cleanup3.i45:                            ; preds = %for.body4.i48, %for.cond1.preheader.i42
  %inc9.i46 = add nuw nsw i32 %i.023.i43, 1
  %exitcond125.not = icmp eq i32 %inc9.i46, %18
  br i1 %exitcond125.not, label %show.exit56, label %for.cond1.preheader.i42, !llvm.loop !18

for.body4.i48:                                    ; preds = %for.cond1.preheader.i42, %for.body4.i48
  %j.021.i49 = phi i32 [ %add.i51, %for.body4.i48 ], [ 0, %for.cond1.preheader.i42 ]
  %arrayidx5.i50 = getelementptr inbounds [3 x [3 x i32]], ptr %1, i32 0, i32 %i.023.i43, i32 %j.021.i49
  %20 = load i32, ptr %arrayidx5.i50, align 4, !tbaa !10
  tail call fastcc void @number(i32 noundef signext %20)
  %add.i51 = add nuw nsw i32 %j.021.i49, 1
  %cmp7.i52 = icmp slt i32 %add.i51, %19
  %cond.i53 = select i1 %cmp7.i52, i32 32, i32 10
  %call.i54 = tail call i32 @putchar(i32 noundef signext %cond.i53)
  %exitcond124.not = icmp eq i32 %add.i51, %19
  br i1 %exitcond124.not, label %for.cond.cleanup3.i45, label %for.body4.i48, !llvm.loop !19

show.exit56:                                      ; preds = %for.cond.cleanup3.i45, %for.cond.cleanup
  %call11.i38 = tail call i32 @putchar(i32 noundef signext 10)
  %21 = load i32, ptr %1, align 4, !tbaa !10
  %22 = load i32, ptr %2, align 4, !tbaa !10
  %add = add nsw i32 %22, %21
  call void @llvm.lifetime.end.p0(i64 44, ptr nonnull %base) #4
  call void @llvm.lifetime.end.p0(i64 44, ptr nonnull %power) #4
  call void @llvm.lifetime.end.p0(i64 44, ptr nonnull %d) #4
  call void @llvm.lifetime.end.p0(i64 44, ptr nonnull %c) #4
  ret i32 %add

for.body:                                         ; preds = %show.exit36, %product.exit117
  %n.0118 = phi i32 [ 10, %show.exit36 ], [ %div8, %product.exit117 ]
  %and = and i32 %n.0118, 1
  %tobool1.not = icmp eq i32 %and, 0
  br i1 %tobool1.not, label %if.end, label %if.then

if.then:                                          ; preds = %for.body
  call void @llvm.lifetime.start.p0(i64 44, ptr nonnull %made.i57) #4
  call void @llvm.memset.p0.i64(ptr noundef nonnull align 4 dereferenceable(44) %made.i57, i8 0, i64 44, i1 false)
  %23 = load i32, ptr %power, align 4, !tbaa !4
  store i32 %23, ptr %made.i57, align 4, !tbaa !4
  %24 = load i32, ptr %3, align 4, !tbaa !9
  store i32 %24, ptr %columns.i58, align 4, !tbaa !9
  %cmp46.i = icmp sgt i32 %23, 0
  br i1 %cmp46.i, label %for.cond4.preheader.lr.ph.i60, label %product.exit82

for.cond4.preheader.lr.ph.i60:                    ; preds = %if.then
  %cmp644.i = icmp sgt i32 %24, 0
  %25 = load i32, ptr %0, align 4
  %cmp1142.i = icmp sgt i32 %25, 0
  br label %for.cond4.preheader.i62

for.cond4.preheader.i62:                          ; preds = %for.cond.cleanup7.i64, %for.cond4.preheader.lr.ph.i60
  %i.047.i63 = phi i32 [ 0, %for.cond4.preheader.lr.ph.i60 ], [ %inc26.i65, %for.cond.cleanup7.i64 ]
  br i1 %cmp644.i, label %for.cond9.preheader.i67, label %for.cond.cleanup7.i64

for.cond9.preheader.i67:                          ; preds = %for.cond4.preheader.i62, %for.cond.cleanup12.i
  %j.045.i68 = phi i32 [ %inc23.i69, %for.cond.cleanup12.i ], [ 0, %for.cond4.preheader.i62 ]
  br i1 %cmp1142.i, label %for.body13.lr.ph.i, label %for.cond.cleanup12.i

for.body13.lr.ph.i:                               ; preds = %for.cond9.preheader.i67
  %arrayidx21.i71 = getelementptr inbounds [3 x [3 x i32]], ptr %at19.i61, i32 0, i32 %i.047.i63, i32 %j.045.i68
  %arrayidx21.promoted.i72 = load i32, ptr %arrayidx21.i71, align 4, !tbaa !10
  br label %for.body13.i73

for.cond.cleanup7.i64:                            ; preds = %for.cond.cleanup12.i, %for.cond4.preheader.i62
  %inc26.i65 = add nuw nsw i32 %i.047.i63, 1
  %exitcond49.not.i66 = icmp eq i32 %inc26.i65, %23
  br i1 %exitcond49.not.i66, label %product.exit82, label %for.cond4.preheader.i62, !llvm.loop !11

for.cond9.for.cond.cleanup12_crit_edge.i81:       ; preds = %for.body13.i73
  store i32 %add.i78, ptr %arrayidx21.i71, align 4, !tbaa !10
  br label %for.cond.cleanup12.i

for.cond.cleanup12.i:                             ; preds = %for.cond9.for.cond.cleanup12_crit_edge.i81, %for.cond9.preheader.i67
  %inc23.i69 = add nuw nsw i32 %j.045.i68, 1
  %exitcond48.not.i70 = icmp eq i32 %inc23.i69, %24
  br i1 %exitcond48.not.i70, label %for.cond.cleanup7.i64, label %for.cond9.preheader.i67, !llvm.loop !14

for.body13.i73:                                   ; preds = %for.body13.i73, %for.body13.lr.ph.i
  %26 = phi i32 [ %arrayidx21.promoted.i72, %for.body13.lr.ph.i ], [ %add.i78, %for.body13.i73 ]
  %k.043.i74 = phi i32 [ 0, %for.body13.lr.ph.i ], [ %inc.i79, %for.body13.i73 ]
  %arrayidx15.i75 = getelementptr inbounds [3 x [3 x i32]], ptr %1, i32 0, i32 %i.047.i63, i32 %k.043.i74
  %27 = load i32, ptr %arrayidx15.i75, align 4, !tbaa !10
  %arrayidx18.i76 = getelementptr inbounds [3 x [3 x i32]], ptr %4, i32 0, i32 %k.043.i74, i32 %j.045.i68
  %28 = load i32, ptr %arrayidx18.i76, align 4, !tbaa !10
  %mul.i77 = mul nsw i32 %28, %27
  %add.i78 = add nsw i32 %mul.i77, %26
  %inc.i79 = add nuw nsw i32 %k.043.i74, 1
  %exitcond.not.i80 = icmp eq i32 %inc.i79, %25
  br i1 %exitcond.not.i80, label %for.cond9.for.cond.cleanup12_crit_edge.i81, label %for.body13.i73, !llvm.loop !15

product.exit82:                                   ; preds = %for.cond.cleanup7.i64, %if.then
  call void @llvm.memcpy.p0.p0.i32(ptr noundef nonnull align 4 dereferenceable(44) %power, ptr noundef nonnull align 4 dereferenceable(44) %made.i57, i32 44, i1 false), !tbaa.struct !16
  call void @llvm.lifetime.end.p0(i64 44, ptr nonnull %made.i57) #4
  br label %if.end

if.end:                                           ; preds = %product.exit82, %for.body
  call void @llvm.lifetime.start.p0(i64 44, ptr nonnull %made.i83) #4
  call void @llvm.memset.p0.i64(ptr noundef nonnull align 4 dereferenceable(44) %made.i83, i8 0, i64 44, i1 false)
  %29 = load i32, ptr %base, align 4, !tbaa !4
  store i32 %29, ptr %made.i83, align 4, !tbaa !4
  %30 = load i32, ptr %3, align 4, !tbaa !9
  store i32 %30, ptr %columns.i84, align 4, !tbaa !9
  %cmp46.i86 = icmp sgt i32 %29, 0
  br i1 %cmp46.i86, label %for.cond4.preheader.lr.ph.i87, label %product.exit117

for.cond4.preheader.lr.ph.i87:                    ; preds = %if.end
  %cmp644.i88 = icmp sgt i32 %30, 0
  br label %for.cond4.preheader.i93

for.cond4.preheader.i93:                          ; preds = %for.cond.cleanup7.i95, %for.cond4.preheader.lr.ph.i87
  %i.047.i94 = phi i32 [ 0, %for.cond4.preheader.lr.ph.i87 ], [ %inc26.i96, %for.cond.cleanup7.i95 ]
  br i1 %cmp644.i88, label %for.cond9.preheader.i100, label %for.cond.cleanup7.i95

for.cond9.preheader.i100:                         ; preds = %for.cond4.preheader.i93, %for.cond9.for.cond.cleanup12_crit_edge.i116
  %j.045.i101 = phi i32 [ %inc23.i103, %for.cond9.for.cond.cleanup12_crit_edge.i116 ], [ 0, %for.cond4.preheader.i93 ]
  %arrayidx21.i106 = getelementptr inbounds [3 x [3 x i32]], ptr %at19.i92, i32 0, i32 %i.047.i94, i32 %j.045.i101
  %arrayidx21.promoted.i107 = load i32, ptr %arrayidx21.i106, align 4, !tbaa !10
  br label %for.body13.i108

for.cond.cleanup7.i95:                            ; preds = %for.cond9.for.cond.cleanup12_crit_edge.i116, %for.cond4.preheader.i93
  %inc26.i96 = add nuw nsw i32 %i.047.i94, 1
  %exitcond49.not.i97 = icmp eq i32 %inc26.i96, %29
  br i1 %exitcond49.not.i97, label %product.exit117, label %for.cond4.preheader.i93, !llvm.loop !11

for.cond9.for.cond.cleanup12_crit_edge.i116:      ; preds = %for.body13.i108
  store i32 %add.i113, ptr %arrayidx21.i106, align 4, !tbaa !10
  %inc23.i103 = add nuw nsw i32 %j.045.i101, 1
  %exitcond48.not.i104 = icmp eq i32 %inc23.i103, %30
  br i1 %exitcond48.not.i104, label %for.cond.cleanup7.i95, label %for.cond9.preheader.i100, !llvm.loop !14

for.body13.i108:                                  ; preds = %for.body13.i108, %for.cond9.preheader.i100
  %31 = phi i32 [ %arrayidx21.promoted.i107, %for.cond9.preheader.i100 ], [ %add.i113, %for.body13.i108 ]
  %k.043.i109 = phi i32 [ 0, %for.cond9.preheader.i100 ], [ %inc.i114, %for.body13.i108 ]
  %arrayidx15.i110 = getelementptr inbounds [3 x [3 x i32]], ptr %4, i32 0, i32 %i.047.i94, i32 %k.043.i109
  %32 = load i32, ptr %arrayidx15.i110, align 4, !tbaa !10
  %arrayidx18.i111 = getelementptr inbounds [3 x [3 x i32]], ptr %4, i32 0, i32 %k.043.i109, i32 %j.045.i101
  %33 = load i32, ptr %arrayidx18.i111, align 4, !tbaa !10
  %mul.i112 = mul nsw i32 %33, %32
  %add.i113 = add nsw i32 %mul.i112, %31
  %inc.i114 = add nuw nsw i32 %k.043.i109, 1
  %exitcond.not.i115 = icmp eq i32 %inc.i114, %30
  br i1 %exitcond.not.i115, label %for.cond9.for.cond.cleanup12_crit_edge.i116, label %for.body13.i108, !llvm.loop !15

product.exit117:                                  ; preds = %for.cond.cleanup7.i95, %if.end
  call void @llvm.memcpy.p0.p0.i32(ptr noundef nonnull align 4 dereferenceable(44) %base, ptr noundef nonnull align 4 dereferenceable(44) %made.i83, i32 44, i1 false), !tbaa.struct !16
  call void @llvm.lifetime.end.p0(i64 44, ptr nonnull %made.i83) #4
  %div8 = lshr i32 %n.0118, 1
  %tobool.not = icmp ult i32 %n.0118, 2
  br i1 %tobool.not, label %for.cond.cleanup, label %for.body, !llvm.loop !22
}

; Function Attrs: mustprogress nocallback nofree nosync nounwind willreturn memory(argmem: readwrite)
declare void @llvm.lifetime.start.p0(i64 immarg, ptr nocapture) #1

; Function Attrs: mustprogress nocallback nofree nounwind willreturn memory(argmem: write)
declare void @llvm.memset.p0.i32(ptr nocapture writeonly, i8, i32, i1 immarg) #2

; Function Attrs: mustprogress nocallback nofree nosync nounwind willreturn memory(argmem: readwrite)
declare void @llvm.lifetime.end.p0(i64 immarg, ptr nocapture) #1

; Function Attrs: mustprogress nocallback nofree nounwind willreturn memory(argmem: write)
declare void @llvm.memset.p0.i64(ptr nocapture writeonly, i8, i64, i1 immarg) #2

; Function Attrs: mustprogress nocallback nofree nounwind willreturn memory(argmem: readwrite)
declare void @llvm.memcpy.p0.p0.i32(ptr noalias nocapture writeonly, ptr noalias nocapture readonly, i32, i1 immarg) #3

; Function Attrs: nofree nounwind
define internal fastcc void @number(i32 noundef signext %n) unnamed_addr #0 {
entry:
  %cmp = icmp sgt i32 %n, 9
  br i1 %cmp, label %if.then, label %if.end

if.then:                                          ; preds = %entry
  %div = udiv i32 %n, 10
  tail call fastcc void @number(i32 noundef signext %div)
  br label %if.end

if.end:                                           ; preds = %if.then, %entry
  %rem = srem i32 %n, 10
  %add = add nsw i32 %rem, 48
  %call = tail call i32 @putchar(i32 noundef signext %add)
  ret void
}

; Function Attrs: nofree nounwind
declare noundef i32 @putchar(i32 noundef signext) local_unnamed_addr #0

attributes #0 = { nofree nounwind "no-trapping-math"="true" "stack-protector-buffer-size"="8" "target-cpu"="mips32r2" "target-features"="+fpxx,+mips32r2,+nooddspreg,-noabicalls" }
attributes #1 = { mustprogress nocallback nofree nosync nounwind willreturn memory(argmem: readwrite) }
attributes #2 = { mustprogress nocallback nofree nounwind willreturn memory(argmem: write) }
attributes #3 = { mustprogress nocallback nofree nounwind willreturn memory(argmem: readwrite) }
attributes #4 = { nounwind }

!llvm.module.flags = !{!0, !1, !2}
!llvm.ident = !{!3}

!0 = !{i32 1, !"wchar_size", i32 4}
!1 = !{i32 8, !"PIC Level", i32 1}
!2 = !{i32 7, !"PIE Level", i32 1}
!3 = !{!"Debian clang version 19.1.7 (3~deb12u1)"}
!4 = !{!5, !6, i64 0}
!5 = !{!"matrix", !6, i64 0, !6, i64 4, !7, i64 8}
!6 = !{!"int", !7, i64 0}
!7 = !{!"omnipotent char", !8, i64 0}
!8 = !{!"Simple C/C++ TBAA"}
!9 = !{!5, !6, i64 4}
!10 = !{!6, !6, i64 0}
!11 = distinct !{!11, !12, !13}
!12 = !{!"llvm.loop.mustprogress"}
!13 = !{!"llvm.loop.unroll.disable"}
!14 = distinct !{!14, !12, !13}
!15 = distinct !{!15, !12, !13}
!16 = !{i64 0, i64 4, !10, i64 4, i64 4, !10, i64 8, i64 36, !17}
!17 = !{!7, !7, i64 0}
!18 = distinct !{!18, !12, !13}
!19 = distinct !{!19, !12, !13}
!20 = distinct !{!20, !12, !13}
!21 = distinct !{!21, !12, !13}
!22 = distinct !{!22, !12, !13}
