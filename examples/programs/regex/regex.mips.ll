source_filename = "compile.c"
target datalayout = "E-m:m-p:32:32-i8:8:32-i16:16:32-i64:64-n32-S64"
target triple = "mips-unknown-linux-gnu"

%struct.regex = type { [400 x %struct.step], i32, i32, [24 x [32 x i8]], i32, ptr, i32 }
%struct.step = type { i32, i32, i32, i32 }
%struct.states = type { [400 x i32], [400 x i8], i32, i32 }
%struct.__stream = type { i8, i8, i8, i8, ptr, i32 }
%struct.reader = type { ptr, ptr, ptr }
%struct.part = type { i32, i32 }

@.str = private unnamed_addr constant [28 x i8] c"a group that was not opened\00", align 1
@.str.1 = private unnamed_addr constant [4 x i8] c"*+?\00", align 1
@.str.2 = private unnamed_addr constant [27 x i8] c"a group that is not closed\00", align 1
@.str.3 = private unnamed_addr constant [18 x i8] c"nothing to repeat\00", align 1
@.str.4 = private unnamed_addr constant [23 x i8] c"a backslash at the end\00", align 1
@.str.5 = private unnamed_addr constant [14 x i8] c"too many sets\00", align 1
@.str.6 = private unnamed_addr constant [28 x i8] c"a range that runs backwards\00", align 1
@.str.7 = private unnamed_addr constant [25 x i8] c"a set that is not closed\00", align 1
@.str.8 = private unnamed_addr constant [9 x i8] c"too long\00", align 1
@.str.9 = private unnamed_addr constant [2 x i8] c"\0A\00", align 1
@.str.1.10 = private unnamed_addr constant [33 x i8] c"%d matches, %d patterns refused\0A\00", align 1
@.str.2.16 = private unnamed_addr constant [5 x i8] c"/%s/\00", align 1
@regex = internal global %struct.regex zeroinitializer, align 4
@.str.3.17 = private unnamed_addr constant [21 x i8] c"  %d steps, %d sets\0A\00", align 1
@.str.4.18 = private unnamed_addr constant [13 x i8] c"  %s at %zu\0A\00", align 1
@.str.7.15 = private unnamed_addr constant [8 x i8] c"  %s%s\0A\00", align 1
@.str.8.13 = private unnamed_addr constant [1 x i8] zeroinitializer, align 1
@.str.9.14 = private unnamed_addr constant [3 x i8] c"- \00", align 1
@match_at.states = internal global [2 x %struct.states] zeroinitializer, align 4
@.str.10 = private unnamed_addr constant [1 x i8] zeroinitializer, align 1
@.str.1.11 = private unnamed_addr constant [7 x i8] c"(null)\00", align 1
@.str.2.18 = private unnamed_addr constant [2 x i8] c"-\00", align 1
@.str.3.19 = private unnamed_addr constant [2 x i8] c"+\00", align 1
@.str.4.17 = private unnamed_addr constant [2 x i8] c" \00", align 1
@.str.5.24 = private unnamed_addr constant [3 x i8] c"0X\00", align 1
@.str.6.23 = private unnamed_addr constant [3 x i8] c"0x\00", align 1
@__streams = internal global [3 x %struct.__stream] [%struct.__stream zeroinitializer, %struct.__stream { i8 1, i8 0, i8 0, i8 0, ptr null, i32 0 }, %struct.__stream { i8 2, i8 0, i8 0, i8 0, ptr null, i32 0 }], align 4
@.str.8.22 = private unnamed_addr constant [17 x i8] c"0123456789ABCDEF\00", align 1
@.str.9.16 = private unnamed_addr constant [17 x i8] c"0123456789abcdef\00", align 1

; Function Attrs: nounwind
define dso_local i32 @main() local_unnamed_addr #0 {
entry:
  %all.i = alloca [300 x i8], align 4
  %it.i.i = alloca %struct.reader, align 4
  %whole.i.i = alloca %struct.part, align 4
  %line = alloca [200 x i8], align 4
  call void @llvm.lifetime.start.p0(i64 200, ptr nonnull %line) #10
  %call14 = call ptr @fgets(ptr noundef nonnull %line, i32 noundef signext 200, ptr noundef nonnull @__streams)
  %tobool.not15 = icmp eq ptr %call14, null
  br i1 %tobool.not15, label %while.end, label %while.body.lr.ph

while.body.lr.ph:                                 ; preds = %entry
  %add.ptr = getelementptr inbounds i8, ptr %line, i32 1
  %pattern2.i.i = getelementptr inbounds i8, ptr %it.i.i, i32 4
  %at.i.i = getelementptr inbounds i8, ptr %it.i.i, i32 8
  %last.i.i = getelementptr inbounds i8, ptr %whole.i.i, i32 4
  br label %while.body

while.body:                                       ; preds = %if.end13, %while.body.lr.ph
  %refused.018 = phi i32 [ 0, %while.body.lr.ph ], [ %refused.1, %if.end13 ]
  %matches.017 = phi i32 [ 0, %while.body.lr.ph ], [ %matches.1, %if.end13 ]
  %ready.016 = phi i32 [ 0, %while.body.lr.ph ], [ %ready.1, %if.end13 ]
  %call2 = call i32 @strcspn(ptr noundef nonnull %line, ptr noundef nonnull @.str.9)
  %arrayidx = getelementptr inbounds [200 x i8], ptr %line, i32 0, i32 %call2
  store i8 0, ptr %arrayidx, align 1, !tbaa !4
  %v0 = load i8, ptr %line, align 4, !tbaa !4
  %cmp = icmp eq i8 %v0, 47
  br i1 %cmp, label %if.then, label %if.else

if.then:                                          ; preds = %while.body
  %print.1180.0.i = call i32 @__print_text(ptr nonnull getelementptr inbounds (i8, ptr @__streams, i32 12), ptr nonnull @.str.2.16, i32 1) #10
  %print.1180.1.i = call i32 @__print_string(ptr nonnull getelementptr inbounds (i8, ptr @__streams, i32 12), ptr nonnull %add.ptr, i32 0, i32 0, i32 -1) #10
  %print.1180.2.i = call i32 @__print_text(ptr nonnull getelementptr inbounds (i8, ptr @__streams, i32 12), ptr nonnull getelementptr inbounds (i8, ptr @.str.2.16, i32 3), i32 1) #10
  call void @llvm.lifetime.start.p0(i64 12, ptr nonnull %it.i.i) #10
  store ptr @regex, ptr %it.i.i, align 4, !tbaa !7
  store ptr %add.ptr, ptr %pattern2.i.i, align 4, !tbaa !10
  store ptr %add.ptr, ptr %at.i.i, align 4, !tbaa !11
  call void @llvm.lifetime.start.p0(i64 8, ptr nonnull %whole.i.i) #10
  call void @llvm.memset.p0.i32(ptr noundef nonnull align 4 dereferenceable(7188) @regex, i8 0, i32 7188, i1 false)
  call fastcc void @alternatives(ptr noundef nonnull %it.i.i, ptr noundef nonnull %whole.i.i)
  %v1 = load ptr, ptr getelementptr inbounds (i8, ptr @regex, i32 7180), align 4, !tbaa !12
  %tobool.not.i.i = icmp eq ptr %v1, null
  br i1 %tobool.not.i.i, label %land.lhs.true.i.i, label %if.end.i.i

land.lhs.true.i.i:                                ; preds = %if.then
  %v2 = load ptr, ptr %at.i.i, align 4, !tbaa !11
  %v3 = load i8, ptr %v2, align 1, !tbaa !4
  %cmp.i.i = icmp eq i8 %v3, 41
  br i1 %cmp.i.i, label %if.then.i.i, label %if.end.i.i

if.then.i.i:                                      ; preds = %land.lhs.true.i.i
  %v4 = load ptr, ptr %it.i.i, align 4, !tbaa !7
  %fault.i.i.i = getelementptr inbounds i8, ptr %v4, i32 7180
  %v5 = load ptr, ptr %fault.i.i.i, align 4, !tbaa !12
  %tobool.not.i.i.i = icmp eq ptr %v5, null
  br i1 %tobool.not.i.i.i, label %if.then.i.i.i, label %if.end.i.i

if.then.i.i.i:                                    ; preds = %if.then.i.i
  store ptr @.str, ptr %fault.i.i.i, align 4, !tbaa !12
  %v6 = load ptr, ptr %pattern2.i.i, align 4, !tbaa !10
  %sub.ptr.lhs.cast.i.i.i = ptrtoint ptr %v2 to i32
  %sub.ptr.rhs.cast.i.i.i = ptrtoint ptr %v6 to i32
  %sub.ptr.sub.i.i.i = sub i32 %sub.ptr.lhs.cast.i.i.i, %sub.ptr.rhs.cast.i.i.i
  %place.i.i.i = getelementptr inbounds i8, ptr %v4, i32 7184
  store i32 %sub.ptr.sub.i.i.i, ptr %place.i.i.i, align 4, !tbaa !15
  br label %if.end.i.i

if.end.i.i:                                       ; preds = %if.then.i.i.i, %if.then.i.i, %land.lhs.true.i.i, %if.then
  %v7 = load ptr, ptr getelementptr inbounds (i8, ptr @regex, i32 7180), align 4, !tbaa !12
  %tobool6.not.i.i = icmp eq ptr %v7, null
  br i1 %tobool6.not.i.i, label %if.end8.i.i, label %if.end.critedge.i

if.end8.i.i:                                      ; preds = %if.end.i.i
  %v8 = load i32, ptr %whole.i.i, align 4, !tbaa !16
  store i32 %v8, ptr getelementptr inbounds (i8, ptr @regex, i32 6404), align 4, !tbaa !18
  %v9 = load ptr, ptr %it.i.i, align 4, !tbaa !7
  %count.i.i.i = getelementptr inbounds i8, ptr %v9, i32 6400
  %v10 = load i32, ptr %count.i.i.i, align 4, !tbaa !19
  %cmp.i.i.i = icmp eq i32 %v10, 400
  br i1 %cmp.i.i.i, label %if.then.i8.i.i, label %if.end.i.i.i

if.then.i8.i.i:                                   ; preds = %if.end8.i.i
  %fault.i.i.i.i = getelementptr inbounds i8, ptr %v9, i32 7180
  %v11 = load ptr, ptr %fault.i.i.i.i, align 4, !tbaa !12
  %tobool.not.i.i.i.i = icmp eq ptr %v11, null
  br i1 %tobool.not.i.i.i.i, label %if.then.i.i.i.i, label %add.exit.i.i

if.then.i.i.i.i:                                  ; preds = %if.then.i8.i.i
  store ptr @.str.8, ptr %fault.i.i.i.i, align 4, !tbaa !12
  %v12 = load ptr, ptr %at.i.i, align 4, !tbaa !11
  %v13 = load ptr, ptr %pattern2.i.i, align 4, !tbaa !10
  %sub.ptr.lhs.cast.i.i.i.i = ptrtoint ptr %v12 to i32
  %sub.ptr.rhs.cast.i.i.i.i = ptrtoint ptr %v13 to i32
  %sub.ptr.sub.i.i.i.i = sub i32 %sub.ptr.lhs.cast.i.i.i.i, %sub.ptr.rhs.cast.i.i.i.i
  %place.i.i.i.i = getelementptr inbounds i8, ptr %v9, i32 7184
  store i32 %sub.ptr.sub.i.i.i.i, ptr %place.i.i.i.i, align 4, !tbaa !15
  br label %add.exit.i.i

if.end.i.i.i:                                     ; preds = %if.end8.i.i
  %arrayidx.i.i.i = getelementptr inbounds [400 x %struct.step], ptr %v9, i32 0, i32 %v10
  store i32 7, ptr %arrayidx.i.i.i, align 4, !tbaa !20
  %value5.i.i.i = getelementptr inbounds i8, ptr %arrayidx.i.i.i, i32 4
  store i32 0, ptr %value5.i.i.i, align 4, !tbaa !22
  %other.i.i.i = getelementptr inbounds i8, ptr %arrayidx.i.i.i, i32 12
  store i32 -1, ptr %other.i.i.i, align 4, !tbaa !23
  %next.i.i.i = getelementptr inbounds i8, ptr %arrayidx.i.i.i, i32 8
  store i32 -1, ptr %next.i.i.i, align 4, !tbaa !24
  %inc.i.i.i = add nsw i32 %v10, 1
  store i32 %inc.i.i.i, ptr %count.i.i.i, align 4, !tbaa !19
  br label %add.exit.i.i

add.exit.i.i:                                     ; preds = %if.end.i.i.i, %if.then.i.i.i.i, %if.then.i8.i.i
  %retval.0.i.i.i = phi i32 [ %v10, %if.end.i.i.i ], [ 0, %if.then.i8.i.i ], [ 0, %if.then.i.i.i.i ]
  %v14 = load i32, ptr %last.i.i, align 4, !tbaa !25
  %next.i.i = getelementptr inbounds [400 x %struct.step], ptr @regex, i32 0, i32 %v14, i32 2
  store i32 %retval.0.i.i.i, ptr %next.i.i, align 4, !tbaa !24
  %v15 = load ptr, ptr getelementptr inbounds (i8, ptr @regex, i32 7180), align 4, !tbaa !12
  %cmp10.i.not.i = icmp eq ptr %v15, null
  call void @llvm.lifetime.end.p0(i64 8, ptr nonnull %whole.i.i) #10
  call void @llvm.lifetime.end.p0(i64 12, ptr nonnull %it.i.i) #10
  br i1 %cmp10.i.not.i, label %if.then.i, label %if.end.i

if.then.i:                                        ; preds = %add.exit.i.i
  %v16 = load i32, ptr getelementptr inbounds (i8, ptr @regex, i32 6400), align 4, !tbaa !19
  %v17 = load i32, ptr getelementptr inbounds (i8, ptr @regex, i32 7176), align 4, !tbaa !26
  %print.1189.0.i = call i32 @__print_text(ptr nonnull getelementptr inbounds (i8, ptr @__streams, i32 12), ptr nonnull @.str.3.17, i32 2) #10
  %print.1189.1.i = sext i32 %v16 to i64
  %print.1189.2.i = call i32 @__print_signed(ptr nonnull getelementptr inbounds (i8, ptr @__streams, i32 12), i64 %print.1189.1.i, i32 0, i32 0, i32 -1) #10
  %print.1189.3.i = call i32 @__print_text(ptr nonnull getelementptr inbounds (i8, ptr @__streams, i32 12), ptr nonnull getelementptr inbounds (i8, ptr @.str.3.17, i32 4), i32 8) #10
  %print.1189.4.i = sext i32 %v17 to i64
  %print.1189.5.i = call i32 @__print_signed(ptr nonnull getelementptr inbounds (i8, ptr @__streams, i32 12), i64 %print.1189.4.i, i32 0, i32 0, i32 -1) #10
  %print.1189.6.i = call i32 @__print_text(ptr nonnull getelementptr inbounds (i8, ptr @__streams, i32 12), ptr nonnull getelementptr inbounds (i8, ptr @.str.3.17, i32 14), i32 6) #10
  br label %set.exit

if.end.critedge.i:                                ; preds = %if.end.i.i
  call void @llvm.lifetime.end.p0(i64 8, ptr nonnull %whole.i.i) #10
  call void @llvm.lifetime.end.p0(i64 12, ptr nonnull %it.i.i) #10
  br label %if.end.i

if.end.i:                                         ; preds = %if.end.critedge.i, %add.exit.i.i
  %v18 = load ptr, ptr getelementptr inbounds (i8, ptr @regex, i32 7180), align 4, !tbaa !12
  %v19 = load i32, ptr getelementptr inbounds (i8, ptr @regex, i32 7184), align 4, !tbaa !15
  %print.1196.0.i = call i32 @__print_text(ptr nonnull getelementptr inbounds (i8, ptr @__streams, i32 12), ptr nonnull @.str.4.18, i32 2) #10
  %print.1196.1.i = call i32 @__print_string(ptr nonnull getelementptr inbounds (i8, ptr @__streams, i32 12), ptr %v18, i32 0, i32 0, i32 -1) #10
  %print.1196.2.i = call i32 @__print_text(ptr nonnull getelementptr inbounds (i8, ptr @__streams, i32 12), ptr nonnull getelementptr inbounds (i8, ptr @.str.4.18, i32 4), i32 4) #10
  %print.1196.3.i = zext i32 %v19 to i64
  %print.1196.4.i = call i32 @__print_unsigned(ptr nonnull getelementptr inbounds (i8, ptr @__streams, i32 12), i64 %print.1196.3.i, i32 10, i32 0, i32 0, i32 -1) #10
  %print.1196.5.i = call i32 @__print_text(ptr nonnull getelementptr inbounds (i8, ptr @__streams, i32 12), ptr nonnull getelementptr inbounds (i8, ptr @.str.4.18, i32 11), i32 1) #10
  br label %set.exit

set.exit:                                         ; preds = %if.end.i, %if.then.i
  %retval.0.i = phi i32 [ 1, %if.then.i ], [ 0, %if.end.i ]
  %lnot.ext = xor i32 %retval.0.i, 1
  %add = add nsw i32 %lnot.ext, %refused.018
  br label %if.end13

if.else:                                          ; preds = %while.body
  %tobool8.not = icmp eq i32 %ready.016, 0
  br i1 %tobool8.not, label %if.end13, label %if.then9

if.then9:                                         ; preds = %if.else
  call void @llvm.lifetime.start.p0(i64 300, ptr nonnull %all.i) #10
  store i8 0, ptr %all.i, align 4, !tbaa !4
  br label %for.cond.i

for.cond.i:                                       ; preds = %cleanup.i, %if.then9
  %place.0.i = phi i32 [ undef, %if.then9 ], [ %place.2.i, %cleanup.i ]
  %rest.0.i = phi ptr [ %line, %if.then9 ], [ %rest.1.i, %cleanup.i ]
  %matches.0.i = phi i32 [ 0, %if.then9 ], [ %matches.1.i, %cleanup.i ]
  br label %for.cond.i.i

for.cond.i.i:                                     ; preds = %cleanup.i.i, %for.cond.i
  %place.1.i = phi i32 [ %place.0.i, %for.cond.i ], [ %place.2.i, %cleanup.i.i ]
  %k.0.i.i = phi i32 [ 0, %for.cond.i ], [ %inc.i.i, %cleanup.i.i ]
  %retval.0.i.i = phi i32 [ undef, %for.cond.i ], [ %retval.1.i.i, %cleanup.i.i ]
  call void @llvm.memset.p0.i64(ptr noundef nonnull align 4 dereferenceable(408) getelementptr inbounds (i8, ptr @match_at.states, i32 1600), i8 0, i64 408, i1 false)
  %v20 = load i32, ptr getelementptr inbounds (i8, ptr @regex, i32 6404), align 4, !tbaa !18
  %cmp.i.i.i5 = icmp eq i32 %k.0.i.i, 0
  %conv.i.i.i = zext i1 %cmp.i.i.i5 to i32
  %arrayidx.i.i.i6 = getelementptr inbounds i8, ptr %rest.0.i, i32 %k.0.i.i
  %v21 = load i8, ptr %arrayidx.i.i.i6, align 1, !tbaa !4
  %cmp2.i.i.i = icmp eq i8 %v21, 0
  %conv3.i.i.i = zext i1 %cmp2.i.i.i to i32
  call fastcc void @enter(ptr noundef nonnull @match_at.states, i32 noundef signext %v20, i32 noundef signext %conv.i.i.i, i32 noundef signext %conv3.i.i.i)
  br label %for.cond.i.i.i

for.cond.i.i.i:                                   ; preds = %cleanup.i.i.i, %for.cond.i.i
  %longest.0.i.i.i = phi i32 [ -1, %for.cond.i.i ], [ %spec.select.i.i.i, %cleanup.i.i.i ]
  %n.0.i.i.i = phi i32 [ 0, %for.cond.i.i ], [ %inc29.i.i.i, %cleanup.i.i.i ]
  %next.0.i.i.i = phi ptr [ getelementptr inbounds (i8, ptr @match_at.states, i32 2008), %for.cond.i.i ], [ %next.1.i.i.i, %cleanup.i.i.i ]
  %now.0.i.i.i = phi ptr [ @match_at.states, %for.cond.i.i ], [ %now.1.i.i.i, %cleanup.i.i.i ]
  %retval.0.i.i.i7 = phi i32 [ undef, %for.cond.i.i ], [ %retval.1.i.i.i, %cleanup.i.i.i ]
  %accepts.i.i.i = getelementptr inbounds i8, ptr %now.0.i.i.i, i32 2004
  %v22 = load i32, ptr %accepts.i.i.i, align 4, !tbaa !27
  %tobool.not.i.i.i8 = icmp eq i32 %v22, 0
  %spec.select.i.i.i = select i1 %tobool.not.i.i.i8, i32 %longest.0.i.i.i, i32 %n.0.i.i.i
  %gep.i.i.i = getelementptr i8, ptr %arrayidx.i.i.i6, i32 %n.0.i.i.i
  %v23 = load i8, ptr %gep.i.i.i, align 1, !tbaa !4
  %count.i.i.i9 = getelementptr inbounds i8, ptr %now.0.i.i.i, i32 2000
  %v24 = load i32, ptr %count.i.i.i9, align 4, !tbaa !29
  %cmp5.i.i.i = icmp ne i32 %v24, 0
  %cmp8.i.i.i = icmp ne i8 %v23, 0
  %or.cond.not.i.i.i = select i1 %cmp5.i.i.i, i1 %cmp8.i.i.i, i1 false
  br i1 %or.cond.not.i.i.i, label %if.end11.i.i.i, label %cleanup.i.i.i

if.end11.i.i.i:                                   ; preds = %for.cond.i.i.i
  %has.i.i.i.i = getelementptr inbounds i8, ptr %next.0.i.i.i, i32 1600
  call void @llvm.memset.p0.i64(ptr noundef nonnull align 4 dereferenceable(408) %has.i.i.i.i, i8 0, i64 408, i1 false)
  %v25 = load i32, ptr %count.i.i.i9, align 4, !tbaa !29
  %cmp1425.i.i.i = icmp sgt i32 %v25, 0
  br i1 %cmp1425.i.i.i, label %for.body.lr.ph.i.i.i, label %cleanup.i.i.i

for.body.lr.ph.i.i.i:                             ; preds = %if.end11.i.i.i
  %conv10.i.i.i.i = zext i8 %v23 to i32
  %div6.i.i.i.i = lshr i32 %conv10.i.i.i.i, 3
  %rem.i.i.i.i = and i32 %conv10.i.i.i.i, 7
  %cmp6.i.i.i.i = icmp ne i8 %v23, 10
  %conv7.i.i.i.i = zext i1 %cmp6.i.i.i.i to i32
  %arrayidx23.i.i.i = getelementptr i8, ptr %gep.i.i.i, i32 1
  br label %for.body.i.i.i

for.body.i.i.i:                                   ; preds = %if.end27.i.i.i, %for.body.lr.ph.i.i.i
  %k.026.i.i.i = phi i32 [ 0, %for.body.lr.ph.i.i.i ], [ %inc.i.i.i13, %if.end27.i.i.i ]
  %arrayidx16.i.i.i = getelementptr inbounds [400 x i32], ptr %now.0.i.i.i, i32 0, i32 %k.026.i.i.i
  %v26 = load i32, ptr %arrayidx16.i.i.i, align 4, !tbaa !30
  %arrayidx17.i.i.i = getelementptr inbounds [400 x %struct.step], ptr @regex, i32 0, i32 %v26
  %v27 = load i32, ptr %arrayidx17.i.i.i, align 4, !tbaa !20
  switch i32 %v27, label %takes.exit.i.i.i [
    i32 0, label %sw.bb.i.i.i.i
    i32 1, label %sw.bb4.i.i.i.i
    i32 2, label %sw.bb8.i.i.i.i
  ]

sw.bb.i.i.i.i:                                    ; preds = %for.body.i.i.i
  %value.i.i.i.i = getelementptr inbounds i8, ptr %arrayidx17.i.i.i, i32 4
  %v28 = load i32, ptr %value.i.i.i.i, align 4, !tbaa !22
  %v29 = trunc i32 %v28 to i8
  %cmp.i.i.i.i = icmp eq i8 %v23, %v29
  %conv3.i.i.i.i = zext i1 %cmp.i.i.i.i to i32
  br label %takes.exit.i.i.i

sw.bb4.i.i.i.i:                                   ; preds = %for.body.i.i.i
  br label %takes.exit.i.i.i

sw.bb8.i.i.i.i:                                   ; preds = %for.body.i.i.i
  %value9.i.i.i.i = getelementptr inbounds i8, ptr %arrayidx17.i.i.i, i32 4
  %v30 = load i32, ptr %value9.i.i.i.i, align 4, !tbaa !22
  %arrayidx11.i.i.i.i = getelementptr inbounds [24 x [32 x i8]], ptr getelementptr inbounds (i8, ptr @regex, i32 6408), i32 0, i32 %v30, i32 %div6.i.i.i.i
  %v31 = load i8, ptr %arrayidx11.i.i.i.i, align 1, !tbaa !4
  %conv12.i.i.i.i = zext i8 %v31 to i32
  %shr.i.i.i.i = lshr i32 %conv12.i.i.i.i, %rem.i.i.i.i
  %and.i.i.i.i = and i32 %shr.i.i.i.i, 1
  br label %takes.exit.i.i.i

takes.exit.i.i.i:                                 ; preds = %sw.bb8.i.i.i.i, %sw.bb4.i.i.i.i, %sw.bb.i.i.i.i, %for.body.i.i.i
  %retval.0.i.i.i.i = phi i32 [ %and.i.i.i.i, %sw.bb8.i.i.i.i ], [ %conv7.i.i.i.i, %sw.bb4.i.i.i.i ], [ %conv3.i.i.i.i, %sw.bb.i.i.i.i ], [ 0, %for.body.i.i.i ]
  %tobool18.not.i.i.i = icmp eq i32 %retval.0.i.i.i.i, 0
  br i1 %tobool18.not.i.i.i, label %if.end27.i.i.i, label %if.then19.i.i.i

if.then19.i.i.i:                                  ; preds = %takes.exit.i.i.i
  %next20.i.i.i = getelementptr inbounds i8, ptr %arrayidx17.i.i.i, i32 8
  %v32 = load i32, ptr %next20.i.i.i, align 4, !tbaa !24
  %v33 = load i8, ptr %arrayidx23.i.i.i, align 1, !tbaa !4
  %cmp25.i.i.i = icmp eq i8 %v33, 0
  %conv26.i.i.i = zext i1 %cmp25.i.i.i to i32
  call fastcc void @enter(ptr noundef %next.0.i.i.i, i32 noundef signext %v32, i32 noundef signext 0, i32 noundef signext %conv26.i.i.i)
  br label %if.end27.i.i.i

if.end27.i.i.i:                                   ; preds = %if.then19.i.i.i, %takes.exit.i.i.i
  %inc.i.i.i13 = add nuw nsw i32 %k.026.i.i.i, 1
  %v34 = load i32, ptr %count.i.i.i9, align 4, !tbaa !29
  %cmp14.i.i.i = icmp slt i32 %inc.i.i.i13, %v34
  br i1 %cmp14.i.i.i, label %for.body.i.i.i, label %cleanup.i.i.i, !llvm.loop !31

cleanup.i.i.i:                                    ; preds = %if.end27.i.i.i, %if.end11.i.i.i, %for.cond.i.i.i
  %next.1.i.i.i = phi ptr [ %next.0.i.i.i, %for.cond.i.i.i ], [ %now.0.i.i.i, %if.end11.i.i.i ], [ %now.0.i.i.i, %if.end27.i.i.i ]
  %now.1.i.i.i = phi ptr [ %now.0.i.i.i, %for.cond.i.i.i ], [ %next.0.i.i.i, %if.end11.i.i.i ], [ %next.0.i.i.i, %if.end27.i.i.i ]
  %retval.1.i.i.i = phi i32 [ %spec.select.i.i.i, %for.cond.i.i.i ], [ %retval.0.i.i.i7, %if.end11.i.i.i ], [ %retval.0.i.i.i7, %if.end27.i.i.i ]
  %inc29.i.i.i = add i32 %n.0.i.i.i, 1
  br i1 %or.cond.not.i.i.i, label %for.cond.i.i.i, label %match_at.exit.i.i, !llvm.loop !34

match_at.exit.i.i:                                ; preds = %cleanup.i.i.i
  %cmp.i.i10 = icmp sgt i32 %retval.1.i.i.i, -1
  br i1 %cmp.i.i10, label %cleanup.i.i, label %if.end.i.i11

if.end.i.i11:                                     ; preds = %match_at.exit.i.i
  %v35 = load i8, ptr %arrayidx.i.i.i6, align 1, !tbaa !4
  %cmp1.i.i = icmp ne i8 %v35, 0
  %.retval.0.i.i = select i1 %cmp1.i.i, i32 %retval.0.i.i, i32 -1
  br label %cleanup.i.i

cleanup.i.i:                                      ; preds = %if.end.i.i11, %match_at.exit.i.i
  %place.2.i = phi i32 [ %place.1.i, %if.end.i.i11 ], [ %k.0.i.i, %match_at.exit.i.i ]
  %retval.1.i.i = phi i32 [ %.retval.0.i.i, %if.end.i.i11 ], [ %retval.1.i.i.i, %match_at.exit.i.i ]
  %cond.i.i = phi i1 [ %cmp1.i.i, %if.end.i.i11 ], [ false, %match_at.exit.i.i ]
  %inc.i.i = add i32 %k.0.i.i, 1
  br i1 %cond.i.i, label %for.cond.i.i, label %regex_search.exit.i, !llvm.loop !35

regex_search.exit.i:                              ; preds = %cleanup.i.i
  %cmp.i = icmp slt i32 %retval.1.i.i, 0
  br i1 %cmp.i, label %cleanup.i, label %lor.lhs.false.i

lor.lhs.false.i:                                  ; preds = %regex_search.exit.i
  %call1.i = call i32 @strlen(ptr noundef nonnull dereferenceable(1) %all.i) #10
  %call2.i = call i32 @strlen(ptr noundef nonnull dereferenceable(1) %rest.0.i) #10
  %add.i = add i32 %call1.i, -297
  %v36 = add i32 %add.i, %call2.i
  %cmp4.i = icmp ult i32 %v36, -301
  br i1 %cmp4.i, label %cleanup.i, label %if.end.i12

if.end.i12:                                       ; preds = %lor.lhs.false.i
  %call6.i = call ptr @strncat(ptr noundef nonnull dereferenceable(1) %all.i, ptr noundef %rest.0.i, i32 noundef signext %place.2.i) #10
  %strlen.i = call i32 @strlen(ptr nonnull dereferenceable(1) %all.i)
  %endptr.i = getelementptr inbounds i8, ptr %all.i, i32 %strlen.i
  store i16 23296, ptr %endptr.i, align 1
  %add.ptr.i = getelementptr inbounds i8, ptr %rest.0.i, i32 %place.2.i
  %call10.i = call ptr @strncat(ptr noundef nonnull dereferenceable(1) %all.i, ptr noundef %add.ptr.i, i32 noundef signext %retval.1.i.i) #10
  %strlen13.i = call i32 @strlen(ptr nonnull dereferenceable(1) %all.i)
  %endptr14.i = getelementptr inbounds i8, ptr %all.i, i32 %strlen13.i
  store i16 23808, ptr %endptr14.i, align 1
  %inc.i = add nsw i32 %matches.0.i, 1
  %add13.i = add i32 %retval.1.i.i, %place.2.i
  %add.ptr14.i = getelementptr inbounds i8, ptr %rest.0.i, i32 %add13.i
  %cmp15.i = icmp eq i32 %retval.1.i.i, 0
  br i1 %cmp15.i, label %cleanup.i, label %lor.lhs.false16.i

lor.lhs.false16.i:                                ; preds = %if.end.i12
  %v37 = load i8, ptr %add.ptr14.i, align 1, !tbaa !4
  %cmp17.i = icmp eq i8 %v37, 0
  %v38 = load i8, ptr %line, align 4
  %cmp21.i = icmp eq i8 %v38, 0
  %or.cond = select i1 %cmp17.i, i1 true, i1 %cmp21.i
  br i1 %or.cond, label %cleanup.i, label %if.end24.i

if.end24.i:                                       ; preds = %lor.lhs.false16.i
  %v39 = load i32, ptr getelementptr inbounds (i8, ptr @regex, i32 6404), align 4, !tbaa !18
  %arrayidx25.i = getelementptr inbounds [400 x %struct.step], ptr @regex, i32 0, i32 %v39
  %v40 = load i32, ptr %arrayidx25.i, align 4, !tbaa !20
  %cmp26.i = icmp eq i32 %v40, 3
  %..i = select i1 %cmp26.i, i32 2, i32 0
  br label %cleanup.i

cleanup.i:                                        ; preds = %if.end24.i, %lor.lhs.false16.i, %if.end.i12, %lor.lhs.false.i, %regex_search.exit.i
  %rest.1.i = phi ptr [ %rest.0.i, %lor.lhs.false.i ], [ %rest.0.i, %regex_search.exit.i ], [ %add.ptr14.i, %lor.lhs.false16.i ], [ %add.ptr14.i, %if.end.i12 ], [ %add.ptr14.i, %if.end24.i ]
  %matches.1.i = phi i32 [ %matches.0.i, %lor.lhs.false.i ], [ %matches.0.i, %regex_search.exit.i ], [ %inc.i, %lor.lhs.false16.i ], [ %inc.i, %if.end.i12 ], [ %inc.i, %if.end24.i ]
  %cleanup.dest.slot.0.i = phi i32 [ 2, %lor.lhs.false.i ], [ 2, %regex_search.exit.i ], [ 2, %lor.lhs.false16.i ], [ 2, %if.end.i12 ], [ %..i, %if.end24.i ]
  %switch.i = icmp eq i32 %cleanup.dest.slot.0.i, 0
  br i1 %switch.i, label %for.cond.i, label %show.exit

show.exit:                                        ; preds = %cleanup.i
  %call31.i = call ptr @strcat(ptr noundef nonnull dereferenceable(1) %all.i, ptr noundef nonnull dereferenceable(1) %rest.1.i) #10
  %tobool.not.i = icmp eq i32 %matches.1.i, 0
  %cond.i = select i1 %tobool.not.i, ptr @.str.9.14, ptr @.str.8.13
  %print.1332.0.i = call i32 @__print_text(ptr nonnull getelementptr inbounds (i8, ptr @__streams, i32 12), ptr nonnull @.str.7.15, i32 2) #10
  %print.1332.1.i = call i32 @__print_string(ptr nonnull getelementptr inbounds (i8, ptr @__streams, i32 12), ptr nonnull %cond.i, i32 0, i32 0, i32 -1) #10
  %print.1332.2.i = call i32 @__print_string(ptr nonnull getelementptr inbounds (i8, ptr @__streams, i32 12), ptr nonnull %all.i, i32 0, i32 0, i32 -1) #10
  %print.1332.3.i = call i32 @__print_text(ptr nonnull getelementptr inbounds (i8, ptr @__streams, i32 12), ptr nonnull getelementptr inbounds (i8, ptr @.str.7.15, i32 6), i32 1) #10
  call void @llvm.lifetime.end.p0(i64 300, ptr nonnull %all.i) #10
  %add12 = add nsw i32 %matches.1.i, %matches.017
  br label %if.end13

if.end13:                                         ; preds = %show.exit, %if.else, %set.exit
  %ready.1 = phi i32 [ %retval.0.i, %set.exit ], [ 1, %show.exit ], [ 0, %if.else ]
  %matches.1 = phi i32 [ %matches.017, %set.exit ], [ %add12, %show.exit ], [ %matches.017, %if.else ]
  %refused.1 = phi i32 [ %add, %set.exit ], [ %refused.018, %show.exit ], [ %refused.018, %if.else ]
  %call = call ptr @fgets(ptr noundef nonnull %line, i32 noundef signext 200, ptr noundef nonnull @__streams)
  %tobool.not = icmp eq ptr %call, null
  br i1 %tobool.not, label %while.end, label %while.body, !llvm.loop !36

while.end:                                        ; preds = %if.end13, %entry
  %matches.0.lcssa = phi i32 [ 0, %entry ], [ %matches.1, %if.end13 ]
  %refused.0.lcssa = phi i32 [ 0, %entry ], [ %refused.1, %if.end13 ]
  %print.1160.0 = sext i32 %matches.0.lcssa to i64
  %print.1160.1 = call i32 @__print_signed(ptr nonnull getelementptr inbounds (i8, ptr @__streams, i32 12), i64 %print.1160.0, i32 0, i32 0, i32 -1) #10
  %print.1160.2 = call i32 @__print_text(ptr nonnull getelementptr inbounds (i8, ptr @__streams, i32 12), ptr nonnull getelementptr inbounds (i8, ptr @.str.1.10, i32 2), i32 10) #10
  %print.1160.3 = sext i32 %refused.0.lcssa to i64
  %print.1160.4 = call i32 @__print_signed(ptr nonnull getelementptr inbounds (i8, ptr @__streams, i32 12), i64 %print.1160.3, i32 0, i32 0, i32 -1) #10
  %print.1160.5 = call i32 @__print_text(ptr nonnull getelementptr inbounds (i8, ptr @__streams, i32 12), ptr nonnull getelementptr inbounds (i8, ptr @.str.1.10, i32 14), i32 18) #10
  call void @llvm.lifetime.end.p0(i64 200, ptr nonnull %line) #10
  ret i32 %matches.0.lcssa
}

; Function Attrs: nocallback nofree nosync nounwind willreturn memory(argmem: readwrite)
declare void @llvm.lifetime.start.p0(i64 immarg, ptr nocapture) #1

; Function Attrs: nounwind optsize
define internal noundef ptr @fgets(ptr noalias noundef writeonly %to, i32 noundef signext %n, ptr noalias nocapture noundef %stream) local_unnamed_addr #2 {
entry:
  %cmp = icmp slt i32 %n, 1
  br i1 %cmp, label %cleanup, label %while.cond.preheader

while.cond.preheader:                             ; preds = %entry
  %cmp123.not = icmp eq i32 %n, 1
  br i1 %cmp123.not, label %if.end10, label %land.rhs

land.rhs:                                         ; preds = %while.body, %while.cond.preheader
  %dec25.in = phi i32 [ %dec25, %while.body ], [ %n, %while.cond.preheader ]
  %at.024 = phi ptr [ %incdec.ptr, %while.body ], [ %to, %while.cond.preheader ]
  %call = tail call i32 @fgetc(ptr noundef %stream) #11
  %cmp3.not = icmp eq i32 %call, -1
  br i1 %cmp3.not, label %while.end, label %while.body

while.body:                                       ; preds = %land.rhs
  %dec25 = add nsw i32 %dec25.in, -1
  %conv = trunc i32 %call to i8
  %incdec.ptr = getelementptr inbounds i8, ptr %at.024, i32 1
  store i8 %conv, ptr %at.024, align 1, !tbaa !4
  %cmp1 = icmp sgt i32 %dec25.in, 2
  %cmp2 = icmp ne i32 %call, 10
  %or.cond = and i1 %cmp1, %cmp2
  br i1 %or.cond, label %land.rhs, label %if.end10, !llvm.loop !37

while.end:                                        ; preds = %land.rhs
  %cmp7 = icmp eq ptr %at.024, %to
  br i1 %cmp7, label %cleanup, label %if.end10

if.end10:                                         ; preds = %while.end, %while.body, %while.cond.preheader
  %at.021 = phi ptr [ %at.024, %while.end ], [ %to, %while.cond.preheader ], [ %incdec.ptr, %while.body ]
  store i8 0, ptr %at.021, align 1, !tbaa !4
  br label %cleanup

cleanup:                                          ; preds = %if.end10, %while.end, %entry
  %retval.0 = phi ptr [ %to, %if.end10 ], [ null, %entry ], [ null, %while.end ]
  ret ptr %retval.0
}

; Function Attrs: nofree norecurse nosync nounwind optsize memory(read, inaccessiblemem: none)
define internal i32 @strcspn(ptr nocapture noundef readonly %at, ptr nocapture noundef readonly %stops) local_unnamed_addr #3 {
entry:
  %call = tail call fastcc i32 @span(ptr noundef %at, ptr noundef %stops, i32 noundef signext 0) #11
  ret i32 %call
}

; Function Attrs: nounwind optsize
define internal noundef i32 @__print_text(ptr nocapture noundef %stream, ptr nocapture noundef readonly %text, i32 noundef returned signext %n) local_unnamed_addr #2 {
entry:
  %v0 = load i8, ptr %stream, align 4, !tbaa !38, !alias.scope !40, !noalias !43
  %cmp.i = icmp eq i8 %v0, 0
  %cmp210.not.i = icmp eq i32 %n, 0
  %or.cond = or i1 %cmp210.not.i, %cmp.i
  br i1 %or.cond, label %fwrite.exit, label %for.body.i

for.body.i:                                       ; preds = %for.body.i, %entry
  %k.011.i = phi i32 [ %inc.i, %for.body.i ], [ 0, %entry ]
  %arrayidx.i = getelementptr inbounds i8, ptr %text, i32 %k.011.i
  %v1 = load i8, ptr %arrayidx.i, align 1, !tbaa !4, !alias.scope !43, !noalias !40
  %conv4.i = zext i8 %v1 to i32
  %call.i = tail call i32 @fputc(i32 noundef signext %conv4.i, ptr noundef nonnull %stream) #11, !noalias !43
  %inc.i = add nuw i32 %k.011.i, 1
  %exitcond.not.i = icmp eq i32 %inc.i, %n
  br i1 %exitcond.not.i, label %fwrite.exit, label %for.body.i, !llvm.loop !45

fwrite.exit:                                      ; preds = %for.body.i, %entry
  ret i32 %n
}

; Function Attrs: nounwind optsize
define internal i32 @__print_string(ptr nocapture noundef %stream, ptr noundef %text, i32 noundef signext %flags, i32 noundef signext %width, i32 noundef signext %precision) local_unnamed_addr #2 {
entry:
  %tobool.not = icmp eq ptr %text, null
  %v0 = icmp ult i32 %precision, 6
  %cond = select i1 %v0, ptr @.str.10, ptr @.str.1.11
  %text.addr.0 = select i1 %tobool.not, ptr %cond, ptr %text
  %cmp2 = icmp slt i32 %precision, 0
  br i1 %cmp2, label %while.cond.i, label %cond.false

while.cond.i:                                     ; preds = %while.cond.i, %entry
  %s.0.i = phi ptr [ %incdec.ptr.i, %while.cond.i ], [ %text.addr.0, %entry ]
  %v1 = load i8, ptr %s.0.i, align 1, !tbaa !4
  %tobool.not.i = icmp eq i8 %v1, 0
  %incdec.ptr.i = getelementptr inbounds i8, ptr %s.0.i, i32 1
  br i1 %tobool.not.i, label %strlen.exit, label %while.cond.i, !llvm.loop !46

strlen.exit:                                      ; preds = %while.cond.i
  %sub.ptr.lhs.cast.i = ptrtoint ptr %s.0.i to i32
  %sub.ptr.rhs.cast.i = ptrtoint ptr %text.addr.0 to i32
  %sub.ptr.sub.i = sub i32 %sub.ptr.lhs.cast.i, %sub.ptr.rhs.cast.i
  br label %cond.end

cond.false:                                       ; preds = %entry
  %cmp4.not.i = icmp eq i32 %precision, 0
  br i1 %cmp4.not.i, label %cond.end, label %land.rhs.i

land.rhs.i:                                       ; preds = %while.body.i, %cond.false
  %k.05.i = phi i32 [ %inc.i, %while.body.i ], [ 0, %cond.false ]
  %arrayidx.i = getelementptr inbounds i8, ptr %text.addr.0, i32 %k.05.i
  %v2 = load i8, ptr %arrayidx.i, align 1, !tbaa !4
  %tobool.not.i12 = icmp eq i8 %v2, 0
  br i1 %tobool.not.i12, label %cond.end, label %while.body.i

while.body.i:                                     ; preds = %land.rhs.i
  %inc.i = add nuw nsw i32 %k.05.i, 1
  %exitcond.not.i = icmp eq i32 %inc.i, %precision
  br i1 %exitcond.not.i, label %cond.end, label %land.rhs.i, !llvm.loop !47

cond.end:                                         ; preds = %while.body.i, %land.rhs.i, %cond.false, %strlen.exit
  %cond4 = phi i32 [ %sub.ptr.sub.i, %strlen.exit ], [ 0, %cond.false ], [ %k.05.i, %land.rhs.i ], [ %precision, %while.body.i ]
  %call5 = tail call fastcc i32 @padded(ptr noundef %stream, ptr noundef nonnull %text.addr.0, i32 noundef signext %cond4, i32 noundef signext %flags, i32 noundef signext %width) #11
  ret i32 %call5
}

; Function Attrs: nocallback nofree nounwind willreturn memory(argmem: write)
declare void @llvm.memset.p0.i32(ptr nocapture writeonly, i8, i32, i1 immarg) #4

; Function Attrs: nofree nounwind memory(readwrite, inaccessiblemem: none)
define internal fastcc void @alternatives(ptr nocapture noundef %it, ptr nocapture noundef %out) unnamed_addr #5 {
entry:
  %next.i18 = alloca %struct.part, align 8
  %next.i = alloca %struct.part, align 8
  %v0 = load ptr, ptr %it, align 4, !tbaa !7
  %count.i51 = getelementptr inbounds i8, ptr %v0, i32 6400
  %v1 = load i32, ptr %count.i51, align 4, !tbaa !19
  %cmp.i52 = icmp eq i32 %v1, 400
  br i1 %cmp.i52, label %if.then.i60, label %if.end.i53

if.then.i60:                                      ; preds = %entry
  %fault.i.i61 = getelementptr inbounds i8, ptr %v0, i32 7180
  %v2 = load ptr, ptr %fault.i.i61, align 4, !tbaa !12
  %tobool.not.i.i62 = icmp eq ptr %v2, null
  br i1 %tobool.not.i.i62, label %if.then.i.i63, label %add.exit70

if.then.i.i63:                                    ; preds = %if.then.i60
  store ptr @.str.8, ptr %fault.i.i61, align 4, !tbaa !12
  %at.i.i64 = getelementptr inbounds i8, ptr %it, i32 8
  %v3 = load ptr, ptr %at.i.i64, align 4, !tbaa !11
  %pattern.i.i65 = getelementptr inbounds i8, ptr %it, i32 4
  %v4 = load ptr, ptr %pattern.i.i65, align 4, !tbaa !10
  %sub.ptr.lhs.cast.i.i66 = ptrtoint ptr %v3 to i32
  %sub.ptr.rhs.cast.i.i67 = ptrtoint ptr %v4 to i32
  %sub.ptr.sub.i.i68 = sub i32 %sub.ptr.lhs.cast.i.i66, %sub.ptr.rhs.cast.i.i67
  %place.i.i69 = getelementptr inbounds i8, ptr %v0, i32 7184
  store i32 %sub.ptr.sub.i.i68, ptr %place.i.i69, align 4, !tbaa !15
  br label %add.exit70

if.end.i53:                                       ; preds = %entry
  %arrayidx.i54 = getelementptr inbounds [400 x %struct.step], ptr %v0, i32 0, i32 %v1
  store i32 6, ptr %arrayidx.i54, align 4, !tbaa !20
  %value5.i55 = getelementptr inbounds i8, ptr %arrayidx.i54, i32 4
  store i32 0, ptr %value5.i55, align 4, !tbaa !22
  %other.i56 = getelementptr inbounds i8, ptr %arrayidx.i54, i32 12
  store i32 -1, ptr %other.i56, align 4, !tbaa !23
  %next.i57 = getelementptr inbounds i8, ptr %arrayidx.i54, i32 8
  store i32 -1, ptr %next.i57, align 4, !tbaa !24
  %inc.i58 = add nsw i32 %v1, 1
  store i32 %inc.i58, ptr %count.i51, align 4, !tbaa !19
  br label %add.exit70

add.exit70:                                       ; preds = %if.end.i53, %if.then.i.i63, %if.then.i60
  %retval.0.i59 = phi i32 [ %v1, %if.end.i53 ], [ 0, %if.then.i60 ], [ 0, %if.then.i.i63 ]
  %last.i = getelementptr inbounds i8, ptr %out, i32 4
  store i32 %retval.0.i59, ptr %last.i, align 4, !tbaa !25
  store i32 %retval.0.i59, ptr %out, align 4, !tbaa !16
  %v5 = load ptr, ptr %it, align 4, !tbaa !7
  %fault.i92 = getelementptr inbounds i8, ptr %v5, i32 7180
  %v6 = load ptr, ptr %fault.i92, align 4, !tbaa !12
  %tobool.not.i93 = icmp eq ptr %v6, null
  br i1 %tobool.not.i93, label %land.lhs.true.i.lr.ph, label %sequence.exit

land.lhs.true.i.lr.ph:                            ; preds = %add.exit70
  %at.i = getelementptr inbounds i8, ptr %it, i32 8
  %last14.i = getelementptr inbounds i8, ptr %next.i, i32 4
  br label %land.lhs.true.i

land.lhs.true.i:                                  ; preds = %while.body.i, %land.lhs.true.i.lr.ph
  %v7 = load ptr, ptr %at.i, align 4, !tbaa !11
  %v8 = load i8, ptr %v7, align 1, !tbaa !4
  switch i8 %v8, label %while.body.i [
    i8 0, label %sequence.exit
    i8 124, label %sequence.exit
    i8 41, label %sequence.exit
  ]

while.body.i:                                     ; preds = %land.lhs.true.i
  call void @llvm.lifetime.start.p0(i64 8, ptr nonnull %next.i) #10
  store i64 0, ptr %next.i, align 8
  call fastcc void @repeated(ptr noundef nonnull %it, ptr noundef nonnull %next.i)
  %v9 = load i32, ptr %next.i, align 8, !tbaa !16
  %v10 = load ptr, ptr %it, align 4, !tbaa !7
  %v11 = load i32, ptr %last.i, align 4, !tbaa !25
  %next13.i = getelementptr inbounds [400 x %struct.step], ptr %v10, i32 0, i32 %v11, i32 2
  store i32 %v9, ptr %next13.i, align 4, !tbaa !24
  %v12 = load i32, ptr %last14.i, align 4, !tbaa !25
  store i32 %v12, ptr %last.i, align 4, !tbaa !25
  call void @llvm.lifetime.end.p0(i64 8, ptr nonnull %next.i) #10
  %v13 = load ptr, ptr %it, align 4, !tbaa !7
  %fault.i = getelementptr inbounds i8, ptr %v13, i32 7180
  %v14 = load ptr, ptr %fault.i, align 4, !tbaa !12
  %tobool.not.i = icmp eq ptr %v14, null
  br i1 %tobool.not.i, label %land.lhs.true.i, label %sequence.exit, !llvm.loop !48

sequence.exit:                                    ; preds = %while.body.i, %land.lhs.true.i, %land.lhs.true.i, %land.lhs.true.i, %add.exit70
  %at = getelementptr inbounds i8, ptr %it, i32 8
  %v15 = load ptr, ptr %it, align 4, !tbaa !7
  %fault118 = getelementptr inbounds i8, ptr %v15, i32 7180
  %v16 = load ptr, ptr %fault118, align 4, !tbaa !12
  %tobool.not119 = icmp eq ptr %v16, null
  br i1 %tobool.not119, label %land.rhs.lr.ph, label %while.end

land.rhs.lr.ph:                                   ; preds = %sequence.exit
  %pattern.i.i85 = getelementptr inbounds i8, ptr %it, i32 4
  %last14.i28 = getelementptr inbounds i8, ptr %next.i18, i32 4
  br label %land.rhs

land.rhs:                                         ; preds = %add.exit50, %land.rhs.lr.ph
  %fault120 = phi ptr [ %fault118, %land.rhs.lr.ph ], [ %fault, %add.exit50 ]
  %v17 = phi ptr [ %v15, %land.rhs.lr.ph ], [ %v40, %add.exit50 ]
  %v18 = load ptr, ptr %at, align 4, !tbaa !11
  %v19 = load i8, ptr %v18, align 1, !tbaa !4
  %cmp = icmp eq i8 %v19, 124
  br i1 %cmp, label %while.body, label %while.end

while.body:                                       ; preds = %land.rhs
  %incdec.ptr = getelementptr inbounds i8, ptr %v18, i32 1
  store ptr %incdec.ptr, ptr %at, align 4, !tbaa !11
  %count.i71 = getelementptr inbounds i8, ptr %v17, i32 6400
  %v20 = load i32, ptr %count.i71, align 4, !tbaa !19
  %cmp.i72 = icmp eq i32 %v20, 400
  br i1 %cmp.i72, label %if.then.i.i83, label %if.end.i73

if.then.i.i83:                                    ; preds = %while.body
  store ptr @.str.8, ptr %fault120, align 4, !tbaa !12
  %v21 = load ptr, ptr %pattern.i.i85, align 4, !tbaa !10
  %sub.ptr.lhs.cast.i.i86 = ptrtoint ptr %incdec.ptr to i32
  %sub.ptr.rhs.cast.i.i87 = ptrtoint ptr %v21 to i32
  %sub.ptr.sub.i.i88 = sub i32 %sub.ptr.lhs.cast.i.i86, %sub.ptr.rhs.cast.i.i87
  %place.i.i89 = getelementptr inbounds i8, ptr %v17, i32 7184
  store i32 %sub.ptr.sub.i.i88, ptr %place.i.i89, align 4, !tbaa !15
  br label %add.exit90

if.end.i73:                                       ; preds = %while.body
  %arrayidx.i74 = getelementptr inbounds [400 x %struct.step], ptr %v17, i32 0, i32 %v20
  store i32 6, ptr %arrayidx.i74, align 4, !tbaa !20
  %value5.i75 = getelementptr inbounds i8, ptr %arrayidx.i74, i32 4
  store i32 0, ptr %value5.i75, align 4, !tbaa !22
  %other.i76 = getelementptr inbounds i8, ptr %arrayidx.i74, i32 12
  store i32 -1, ptr %other.i76, align 4, !tbaa !23
  %next.i77 = getelementptr inbounds i8, ptr %arrayidx.i74, i32 8
  store i32 -1, ptr %next.i77, align 4, !tbaa !24
  %inc.i78 = add nsw i32 %v20, 1
  store i32 %inc.i78, ptr %count.i71, align 4, !tbaa !19
  br label %add.exit90

add.exit90:                                       ; preds = %if.end.i73, %if.then.i.i83
  %retval.0.i79 = phi i32 [ %v20, %if.end.i73 ], [ 0, %if.then.i.i83 ]
  %v22 = load ptr, ptr %it, align 4, !tbaa !7
  %fault.i2297 = getelementptr inbounds i8, ptr %v22, i32 7180
  %v23 = load ptr, ptr %fault.i2297, align 4, !tbaa !12
  %tobool.not.i2398 = icmp eq ptr %v23, null
  br i1 %tobool.not.i2398, label %land.lhs.true.i24, label %sequence.exit29

land.lhs.true.i24:                                ; preds = %while.body.i26, %add.exit90
  %tobool.not.i23100 = phi i1 [ %tobool.not.i23, %while.body.i26 ], [ %tobool.not.i2398, %add.exit90 ]
  %v24 = phi ptr [ %v28, %while.body.i26 ], [ %v22, %add.exit90 ]
  %other.sroa.4.099 = phi i32 [ %v29, %while.body.i26 ], [ %retval.0.i79, %add.exit90 ]
  %v25 = load ptr, ptr %at, align 4, !tbaa !11
  %v26 = load i8, ptr %v25, align 1, !tbaa !4
  switch i8 %v26, label %while.body.i26 [
    i8 0, label %sequence.exit29
    i8 124, label %sequence.exit29
    i8 41, label %sequence.exit29
  ]

while.body.i26:                                   ; preds = %land.lhs.true.i24
  call void @llvm.lifetime.start.p0(i64 8, ptr nonnull %next.i18) #10
  store i64 0, ptr %next.i18, align 8
  call fastcc void @repeated(ptr noundef nonnull %it, ptr noundef nonnull %next.i18)
  %v27 = load i32, ptr %next.i18, align 8, !tbaa !16
  %v28 = load ptr, ptr %it, align 4, !tbaa !7
  %next13.i27 = getelementptr inbounds [400 x %struct.step], ptr %v28, i32 0, i32 %other.sroa.4.099, i32 2
  store i32 %v27, ptr %next13.i27, align 4, !tbaa !24
  %v29 = load i32, ptr %last14.i28, align 4, !tbaa !25
  call void @llvm.lifetime.end.p0(i64 8, ptr nonnull %next.i18) #10
  %fault.i22 = getelementptr inbounds i8, ptr %v28, i32 7180
  %v30 = load ptr, ptr %fault.i22, align 4, !tbaa !12
  %tobool.not.i23 = icmp eq ptr %v30, null
  br i1 %tobool.not.i23, label %land.lhs.true.i24, label %sequence.exit29, !llvm.loop !49

sequence.exit29:                                  ; preds = %while.body.i26, %land.lhs.true.i24, %land.lhs.true.i24, %land.lhs.true.i24, %add.exit90
  %.lcssa96 = phi ptr [ %v22, %add.exit90 ], [ %v24, %land.lhs.true.i24 ], [ %v24, %land.lhs.true.i24 ], [ %v24, %land.lhs.true.i24 ], [ %v28, %while.body.i26 ]
  %other.sroa.4.0.lcssa = phi i32 [ %retval.0.i79, %add.exit90 ], [ %other.sroa.4.099, %land.lhs.true.i24 ], [ %other.sroa.4.099, %land.lhs.true.i24 ], [ %other.sroa.4.099, %land.lhs.true.i24 ], [ %v29, %while.body.i26 ]
  %tobool.not.i23.lcssa = phi i1 [ %tobool.not.i2398, %add.exit90 ], [ %tobool.not.i23100, %land.lhs.true.i24 ], [ %tobool.not.i23100, %land.lhs.true.i24 ], [ %tobool.not.i23100, %land.lhs.true.i24 ], [ %tobool.not.i23, %while.body.i26 ]
  %fault.i22.le = getelementptr inbounds i8, ptr %.lcssa96, i32 7180
  %count.i = getelementptr inbounds i8, ptr %.lcssa96, i32 6400
  %v31 = load i32, ptr %count.i, align 4, !tbaa !19
  %cmp.i = icmp eq i32 %v31, 400
  br i1 %cmp.i, label %if.then.i, label %if.end.i

if.then.i:                                        ; preds = %sequence.exit29
  br i1 %tobool.not.i23.lcssa, label %if.then.i.i, label %add.exit

if.then.i.i:                                      ; preds = %if.then.i
  store ptr @.str.8, ptr %fault.i22.le, align 4, !tbaa !12
  %v32 = load ptr, ptr %at, align 4, !tbaa !11
  %v33 = load ptr, ptr %pattern.i.i85, align 4, !tbaa !10
  %sub.ptr.lhs.cast.i.i = ptrtoint ptr %v32 to i32
  %sub.ptr.rhs.cast.i.i = ptrtoint ptr %v33 to i32
  %sub.ptr.sub.i.i = sub i32 %sub.ptr.lhs.cast.i.i, %sub.ptr.rhs.cast.i.i
  %place.i.i = getelementptr inbounds i8, ptr %.lcssa96, i32 7184
  store i32 %sub.ptr.sub.i.i, ptr %place.i.i, align 4, !tbaa !15
  br label %add.exit

if.end.i:                                         ; preds = %sequence.exit29
  %arrayidx.i = getelementptr inbounds [400 x %struct.step], ptr %.lcssa96, i32 0, i32 %v31
  store i32 5, ptr %arrayidx.i, align 4, !tbaa !20
  %value5.i = getelementptr inbounds i8, ptr %arrayidx.i, i32 4
  store i32 0, ptr %value5.i, align 4, !tbaa !22
  %other.i = getelementptr inbounds i8, ptr %arrayidx.i, i32 12
  store i32 -1, ptr %other.i, align 4, !tbaa !23
  %next.i30 = getelementptr inbounds i8, ptr %arrayidx.i, i32 8
  store i32 -1, ptr %next.i30, align 4, !tbaa !24
  %inc.i = add nsw i32 %v31, 1
  store i32 %inc.i, ptr %count.i, align 4, !tbaa !19
  br label %add.exit

add.exit:                                         ; preds = %if.end.i, %if.then.i.i, %if.then.i
  %retval.0.i = phi i32 [ %v31, %if.end.i ], [ 0, %if.then.i ], [ 0, %if.then.i.i ]
  %v34 = load i32, ptr %count.i, align 4, !tbaa !19
  %cmp.i32 = icmp eq i32 %v34, 400
  br i1 %cmp.i32, label %if.then.i40, label %if.end.i33

if.then.i40:                                      ; preds = %add.exit
  %v35 = load ptr, ptr %fault.i22.le, align 4, !tbaa !12
  %tobool.not.i.i42 = icmp eq ptr %v35, null
  br i1 %tobool.not.i.i42, label %if.then.i.i43, label %add.exit50

if.then.i.i43:                                    ; preds = %if.then.i40
  store ptr @.str.8, ptr %fault.i22.le, align 4, !tbaa !12
  %v36 = load ptr, ptr %at, align 4, !tbaa !11
  %v37 = load ptr, ptr %pattern.i.i85, align 4, !tbaa !10
  %sub.ptr.lhs.cast.i.i46 = ptrtoint ptr %v36 to i32
  %sub.ptr.rhs.cast.i.i47 = ptrtoint ptr %v37 to i32
  %sub.ptr.sub.i.i48 = sub i32 %sub.ptr.lhs.cast.i.i46, %sub.ptr.rhs.cast.i.i47
  %place.i.i49 = getelementptr inbounds i8, ptr %.lcssa96, i32 7184
  store i32 %sub.ptr.sub.i.i48, ptr %place.i.i49, align 4, !tbaa !15
  br label %add.exit50

if.end.i33:                                       ; preds = %add.exit
  %arrayidx.i34 = getelementptr inbounds [400 x %struct.step], ptr %.lcssa96, i32 0, i32 %v34
  store i32 6, ptr %arrayidx.i34, align 4, !tbaa !20
  %value5.i35 = getelementptr inbounds i8, ptr %arrayidx.i34, i32 4
  store i32 0, ptr %value5.i35, align 4, !tbaa !22
  %other.i36 = getelementptr inbounds i8, ptr %arrayidx.i34, i32 12
  store i32 -1, ptr %other.i36, align 4, !tbaa !23
  %next.i37 = getelementptr inbounds i8, ptr %arrayidx.i34, i32 8
  store i32 -1, ptr %next.i37, align 4, !tbaa !24
  %inc.i38 = add nsw i32 %v34, 1
  store i32 %inc.i38, ptr %count.i, align 4, !tbaa !19
  br label %add.exit50

add.exit50:                                       ; preds = %if.end.i33, %if.then.i.i43, %if.then.i40
  %retval.0.i39 = phi i32 [ %v34, %if.end.i33 ], [ 0, %if.then.i40 ], [ 0, %if.then.i.i43 ]
  %v38 = load i32, ptr %out, align 4, !tbaa !16
  %arrayidx = getelementptr inbounds %struct.step, ptr %.lcssa96, i32 %retval.0.i
  %next = getelementptr inbounds i8, ptr %arrayidx, i32 8
  store i32 %v38, ptr %next, align 4, !tbaa !24
  %other8 = getelementptr inbounds i8, ptr %arrayidx, i32 12
  store i32 %retval.0.i79, ptr %other8, align 4, !tbaa !23
  %next11 = getelementptr inbounds %struct.step, ptr %.lcssa96, i32 %other.sroa.4.0.lcssa, i32 2
  store i32 %retval.0.i39, ptr %next11, align 4, !tbaa !24
  %v39 = load i32, ptr %last.i, align 4, !tbaa !25
  %next14 = getelementptr inbounds %struct.step, ptr %.lcssa96, i32 %v39, i32 2
  store i32 %retval.0.i39, ptr %next14, align 4, !tbaa !24
  store i32 %retval.0.i, ptr %out, align 4, !tbaa !16
  store i32 %retval.0.i39, ptr %last.i, align 4, !tbaa !25
  %v40 = load ptr, ptr %it, align 4, !tbaa !7
  %fault = getelementptr inbounds i8, ptr %v40, i32 7180
  %v41 = load ptr, ptr %fault, align 4, !tbaa !12
  %tobool.not = icmp eq ptr %v41, null
  br i1 %tobool.not, label %land.rhs, label %while.end, !llvm.loop !50

while.end:                                        ; preds = %add.exit50, %land.rhs, %sequence.exit
  ret void
}

; Function Attrs: nocallback nofree nosync nounwind willreturn memory(argmem: readwrite)
declare void @llvm.lifetime.end.p0(i64 immarg, ptr nocapture) #1

; Function Attrs: nounwind optsize
define internal i32 @__print_signed(ptr nocapture noundef %stream, i64 noundef signext %n, i32 noundef signext %flags, i32 noundef signext %width, i32 noundef signext %precision) local_unnamed_addr #2 {
entry:
  %room = alloca [24 x i8], align 1
  call void @llvm.lifetime.start.p0(i64 24, ptr nonnull %room) #10
  %add.ptr = getelementptr inbounds i8, ptr %room, i32 24
  %cmp = icmp slt i64 %n, 0
  %shr.i = lshr i64 %n, 63
  %tobool.i = icmp ne i64 %shr.i, 0
  %sub.i = sub i64 0, %n
  %cond.i = select i1 %tobool.i, i64 %sub.i, i64 %n
  %cmp.i = icmp ult i64 %cond.i, 4294967296
  br i1 %cmp.i, label %if.then.i, label %for.body6.i

if.then.i:                                        ; preds = %entry
  %conv.i = trunc nuw i64 %cond.i to i32
  %cmp1.not31.i = icmp eq i32 %conv.i, 0
  br i1 %cmp1.not31.i, label %spelled.exit, label %for.body.i

for.body.i:                                       ; preds = %for.body.i, %if.then.i
  %k.033.i = phi i32 [ %div.i, %for.body.i ], [ %conv.i, %if.then.i ]
  %end.addr.032.i = phi ptr [ %incdec.ptr.i, %for.body.i ], [ %add.ptr, %if.then.i ]
  %rem.i = urem i32 %k.033.i, 10
  %arrayidx.i = getelementptr inbounds i8, ptr @.str.9.16, i32 %rem.i
  %v0 = load i8, ptr %arrayidx.i, align 1, !tbaa !4
  %incdec.ptr.i = getelementptr inbounds i8, ptr %end.addr.032.i, i32 -1
  store i8 %v0, ptr %incdec.ptr.i, align 1, !tbaa !4
  %div.i = udiv i32 %k.033.i, 10
  %cmp1.not.i = icmp ult i32 %k.033.i, 10
  br i1 %cmp1.not.i, label %spelled.exit, label %for.body.i, !llvm.loop !51

for.body6.i:                                      ; preds = %for.body6.i, %entry
  %end.addr.130.i = phi ptr [ %incdec.ptr10.i, %for.body6.i ], [ %add.ptr, %entry ]
  %n.addr.029.i = phi i64 [ %div13.i, %for.body6.i ], [ %cond.i, %entry ]
  %div13.i = udiv i64 %n.addr.029.i, 10
  %v1 = mul i64 %div13.i, 10
  %rem8.i.decomposed = sub i64 %n.addr.029.i, %v1
  %idxprom.i = trunc nuw nsw i64 %rem8.i.decomposed to i32
  %arrayidx9.i = getelementptr inbounds i8, ptr @.str.9.16, i32 %idxprom.i
  %v2 = load i8, ptr %arrayidx9.i, align 1, !tbaa !4
  %incdec.ptr10.i = getelementptr inbounds i8, ptr %end.addr.130.i, i32 -1
  store i8 %v2, ptr %incdec.ptr10.i, align 1, !tbaa !4
  %cmp4.not.i = icmp ult i64 %n.addr.029.i, 10
  br i1 %cmp4.not.i, label %spelled.exit, label %for.body6.i, !llvm.loop !52

spelled.exit:                                     ; preds = %for.body6.i, %for.body.i, %if.then.i
  %retval.0.i = phi ptr [ %add.ptr, %if.then.i ], [ %incdec.ptr.i, %for.body.i ], [ %incdec.ptr10.i, %for.body6.i ]
  %cmp1 = icmp eq i64 %n, 0
  %cmp2 = icmp ne i32 %precision, 0
  %or.cond = and i1 %cmp1, %cmp2
  br i1 %or.cond, label %if.end.thread, label %if.end

if.end.thread:                                    ; preds = %spelled.exit
  %incdec.ptr = getelementptr inbounds i8, ptr %retval.0.i, i32 -1
  store i8 48, ptr %incdec.ptr, align 1, !tbaa !4
  br label %cond.false5

if.end:                                           ; preds = %spelled.exit
  br i1 %cmp, label %cond.end13, label %cond.false5

cond.false5:                                      ; preds = %if.end, %if.end.thread
  %at.027 = phi ptr [ %incdec.ptr, %if.end.thread ], [ %retval.0.i, %if.end ]
  %and = and i32 %flags, 2
  %tobool.not = icmp eq i32 %and, 0
  br i1 %tobool.not, label %cond.false7, label %cond.end13

cond.false7:                                      ; preds = %cond.false5
  %and8 = and i32 %flags, 4
  %tobool9.not = icmp eq i32 %and8, 0
  %cond10 = select i1 %tobool9.not, ptr @.str.10, ptr @.str.4.17
  br label %cond.end13

cond.end13:                                       ; preds = %cond.false7, %cond.false5, %if.end
  %at.028 = phi ptr [ %retval.0.i, %if.end ], [ %at.027, %cond.false7 ], [ %at.027, %cond.false5 ]
  %cond14 = phi ptr [ @.str.2.18, %if.end ], [ %cond10, %cond.false7 ], [ @.str.3.19, %cond.false5 ]
  %sub.ptr.lhs.cast = ptrtoint ptr %add.ptr to i32
  %sub.ptr.rhs.cast = ptrtoint ptr %at.028 to i32
  %sub.ptr.sub = sub i32 %sub.ptr.lhs.cast, %sub.ptr.rhs.cast
  %call15 = call fastcc i32 @number(ptr noundef %stream, ptr noundef nonnull %cond14, ptr noundef nonnull %at.028, i32 noundef signext %sub.ptr.sub, i32 noundef signext %flags, i32 noundef signext %width, i32 noundef signext %precision) #11
  call void @llvm.lifetime.end.p0(i64 24, ptr nonnull %room) #10
  ret i32 %call15
}

; Function Attrs: nounwind optsize
define internal i32 @__print_unsigned(ptr nocapture noundef %stream, i64 noundef zeroext %n, i32 noundef signext %base, i32 noundef signext %flags, i32 noundef signext %width, i32 noundef signext %precision) local_unnamed_addr #2 {
entry:
  %room = alloca [24 x i8], align 1
  call void @llvm.lifetime.start.p0(i64 24, ptr nonnull %room) #10
  %and.i = and i32 %flags, 32
  %tobool.not.i = icmp eq i32 %and.i, 0
  %cond.i = select i1 %tobool.not.i, ptr @.str.9.16, ptr @.str.8.22
  %cmp.i = icmp ult i64 %n, 4294967296
  br i1 %cmp.i, label %if.then.i, label %for.cond3.preheader.i

for.cond3.preheader.i:                            ; preds = %entry
  %conv7.i = zext i32 %base to i64
  br label %for.body6.i

if.then.i:                                        ; preds = %entry
  %conv.i = trunc nuw i64 %n to i32
  %cmp1.not31.i = icmp eq i32 %conv.i, 0
  br i1 %cmp1.not31.i, label %spelled.exit, label %for.body.i

for.body.i:                                       ; preds = %for.body.i, %if.then.i
  %k.033.i = phi i32 [ %div.i, %for.body.i ], [ %conv.i, %if.then.i ]
  %end.addr.032.i.idx = phi i32 [ %end.addr.032.i.add, %for.body.i ], [ 24, %if.then.i ]
  %rem.i = urem i32 %k.033.i, %base
  %arrayidx.i = getelementptr inbounds i8, ptr %cond.i, i32 %rem.i
  %v0 = load i8, ptr %arrayidx.i, align 1, !tbaa !4
  %end.addr.032.i.add = add nsw i32 %end.addr.032.i.idx, -1
  %incdec.ptr.i.ptr = getelementptr inbounds i8, ptr %room, i32 %end.addr.032.i.add
  store i8 %v0, ptr %incdec.ptr.i.ptr, align 1, !tbaa !4
  %div.i = udiv i32 %k.033.i, %base
  %cmp1.not.i = icmp ult i32 %k.033.i, %base
  br i1 %cmp1.not.i, label %spelled.exit, label %for.body.i, !llvm.loop !51

for.body6.i:                                      ; preds = %for.body6.i, %for.cond3.preheader.i
  %end.addr.130.i.idx = phi i32 [ 24, %for.cond3.preheader.i ], [ %end.addr.130.i.add, %for.body6.i ]
  %n.addr.029.i = phi i64 [ %n, %for.cond3.preheader.i ], [ %div13.i, %for.body6.i ]
  %div13.i = udiv i64 %n.addr.029.i, %conv7.i
  %v1 = mul i64 %div13.i, %conv7.i
  %rem8.i.decomposed = sub i64 %n.addr.029.i, %v1
  %idxprom.i = trunc nuw i64 %rem8.i.decomposed to i32
  %arrayidx9.i = getelementptr inbounds i8, ptr %cond.i, i32 %idxprom.i
  %v2 = load i8, ptr %arrayidx9.i, align 1, !tbaa !4
  %end.addr.130.i.add = add nsw i32 %end.addr.130.i.idx, -1
  %incdec.ptr10.i.ptr = getelementptr inbounds i8, ptr %room, i32 %end.addr.130.i.add
  store i8 %v2, ptr %incdec.ptr10.i.ptr, align 1, !tbaa !4
  %cmp4.not.i = icmp ult i64 %n.addr.029.i, %conv7.i
  br i1 %cmp4.not.i, label %spelled.exit, label %for.body6.i, !llvm.loop !52

spelled.exit:                                     ; preds = %for.body6.i, %for.body.i, %if.then.i
  %retval.0.i.idx = phi i32 [ 24, %if.then.i ], [ %end.addr.032.i.add, %for.body.i ], [ %end.addr.130.i.add, %for.body6.i ]
  %cmp = icmp eq i64 %n, 0
  %cmp1 = icmp ne i32 %precision, 0
  %or.cond = and i1 %cmp, %cmp1
  br i1 %or.cond, label %if.then, label %if.end

if.then:                                          ; preds = %spelled.exit
  %retval.0.i.add = add nsw i32 %retval.0.i.idx, -1
  %incdec.ptr.ptr = getelementptr inbounds i8, ptr %room, i32 %retval.0.i.add
  store i8 48, ptr %incdec.ptr.ptr, align 1, !tbaa !4
  br label %if.end

if.end:                                           ; preds = %if.then, %spelled.exit
  %at.0.idx = phi i32 [ %retval.0.i.add, %if.then ], [ %retval.0.i.idx, %spelled.exit ]
  %at.0.ptr = getelementptr inbounds i8, ptr %room, i32 %at.0.idx
  %and = and i32 %flags, 8
  %tobool = icmp ne i32 %and, 0
  %cmp13 = icmp eq i32 %base, 8
  %or.cond29 = and i1 %cmp13, %tobool
  %gepdiff = sub nsw i32 24, %at.0.idx
  %cmp15.not = icmp sge i32 %gepdiff, %precision
  %or.cond49.not = select i1 %or.cond29, i1 %cmp15.not, i1 false
  br i1 %or.cond49.not, label %land.lhs.true16, label %if.end22

land.lhs.true16:                                  ; preds = %if.end
  %cmp17 = icmp eq i32 %at.0.idx, 24
  br i1 %cmp17, label %if.then20, label %lor.lhs.false

lor.lhs.false:                                    ; preds = %land.lhs.true16
  %v3 = load i8, ptr %at.0.ptr, align 1, !tbaa !4
  %cmp18.not = icmp eq i8 %v3, 48
  br i1 %cmp18.not, label %if.end22, label %if.then20

if.then20:                                        ; preds = %lor.lhs.false, %land.lhs.true16
  %incdec.ptr21 = getelementptr inbounds i8, ptr %at.0.ptr, i32 -1
  store i8 48, ptr %incdec.ptr21, align 1, !tbaa !4
  br label %if.end22

if.end22:                                         ; preds = %if.then20, %lor.lhs.false, %if.end
  %at.1 = phi ptr [ %incdec.ptr21, %if.then20 ], [ %at.0.ptr, %lor.lhs.false ], [ %at.0.ptr, %if.end ]
  %add.ptr.ptr = getelementptr inbounds i8, ptr %room, i32 24
  %sub.ptr.lhs.cast = ptrtoint ptr %add.ptr.ptr to i32
  %cmp3 = icmp eq i32 %base, 16
  %cmp5 = icmp ne i64 %n, 0
  %v4 = and i1 %cmp5, %cmp3
  %or.cond28 = and i1 %v4, %tobool
  %cond = select i1 %tobool.not.i, ptr @.str.6.23, ptr @.str.5.24
  %front.0 = select i1 %or.cond28, ptr %cond, ptr @.str.10
  %sub.ptr.rhs.cast24 = ptrtoint ptr %at.1 to i32
  %sub.ptr.sub25 = sub i32 %sub.ptr.lhs.cast, %sub.ptr.rhs.cast24
  %call26 = call fastcc i32 @number(ptr noundef %stream, ptr noundef nonnull %front.0, ptr noundef nonnull %at.1, i32 noundef signext %sub.ptr.sub25, i32 noundef signext %flags, i32 noundef signext %width, i32 noundef signext %precision) #11
  call void @llvm.lifetime.end.p0(i64 24, ptr nonnull %room) #10
  ret i32 %call26
}

; Function Attrs: nocallback nofree nounwind willreturn memory(argmem: write)
declare void @llvm.memset.p0.i64(ptr nocapture writeonly, i8, i64, i1 immarg) #4

; Function Attrs: nofree nosync nounwind memory(readwrite, inaccessiblemem: none)
define internal fastcc void @enter(ptr nocapture noundef %it, i32 noundef signext %step, i32 noundef signext %front, i32 noundef signext %back) unnamed_addr #6 {
entry:
  %has = getelementptr inbounds i8, ptr %it, i32 1600
  %accepts = getelementptr inbounds i8, ptr %it, i32 2004
  %tobool10.not = icmp eq i32 %back, 0
  %tobool7.not = icmp eq i32 %front, 0
  %count = getelementptr inbounds i8, ptr %it, i32 2000
  br label %while.cond

while.cond:                                       ; preds = %cleanup, %entry
  %step.addr.0 = phi i32 [ %step, %entry ], [ %step.addr.1, %cleanup ]
  %cmp = icmp sgt i32 %step.addr.0, -1
  br i1 %cmp, label %land.rhs, label %while.end

land.rhs:                                         ; preds = %while.cond
  %arrayidx = getelementptr inbounds [400 x i8], ptr %has, i32 0, i32 %step.addr.0
  %v0 = load i8, ptr %arrayidx, align 1, !tbaa !4
  %tobool.not = icmp eq i8 %v0, 0
  br i1 %tobool.not, label %while.body, label %while.end

while.body:                                       ; preds = %land.rhs
  %arrayidx1 = getelementptr inbounds [400 x %struct.step], ptr @regex, i32 0, i32 %step.addr.0
  store i8 1, ptr %arrayidx, align 1, !tbaa !4
  %v1 = load i32, ptr %arrayidx1, align 4, !tbaa !20
  switch i32 %v1, label %sw.default [
    i32 5, label %sw.bb
    i32 6, label %sw.bb4
    i32 3, label %sw.bb6
    i32 4, label %sw.bb9
    i32 7, label %sw.bb14
  ]

sw.bb:                                            ; preds = %while.body
  %next = getelementptr inbounds i8, ptr %arrayidx1, i32 8
  %v2 = load i32, ptr %next, align 4, !tbaa !24
  tail call fastcc void @enter(ptr noundef %it, i32 noundef signext %v2, i32 noundef signext %front, i32 noundef signext %back)
  %other = getelementptr inbounds i8, ptr %arrayidx1, i32 12
  %v3 = load i32, ptr %other, align 4, !tbaa !23
  br label %cleanup, !llvm.loop !53

sw.bb4:                                           ; preds = %while.body
  %next5 = getelementptr inbounds i8, ptr %arrayidx1, i32 8
  %v4 = load i32, ptr %next5, align 4, !tbaa !24
  br label %cleanup, !llvm.loop !53

sw.bb6:                                           ; preds = %while.body
  br i1 %tobool7.not, label %cleanup, label %if.end

if.end:                                           ; preds = %sw.bb6
  %next8 = getelementptr inbounds i8, ptr %arrayidx1, i32 8
  %v5 = load i32, ptr %next8, align 4, !tbaa !24
  br label %cleanup, !llvm.loop !53

sw.bb9:                                           ; preds = %while.body
  br i1 %tobool10.not, label %cleanup, label %if.end12

if.end12:                                         ; preds = %sw.bb9
  %next13 = getelementptr inbounds i8, ptr %arrayidx1, i32 8
  %v6 = load i32, ptr %next13, align 4, !tbaa !24
  br label %cleanup, !llvm.loop !53

sw.bb14:                                          ; preds = %while.body
  store i32 1, ptr %accepts, align 4, !tbaa !27
  br label %cleanup

sw.default:                                       ; preds = %while.body
  %v7 = load i32, ptr %count, align 4, !tbaa !29
  %inc = add nsw i32 %v7, 1
  store i32 %inc, ptr %count, align 4, !tbaa !29
  %arrayidx15 = getelementptr inbounds [400 x i32], ptr %it, i32 0, i32 %v7
  store i32 %step.addr.0, ptr %arrayidx15, align 4, !tbaa !30
  br label %cleanup

cleanup:                                          ; preds = %sw.default, %sw.bb14, %if.end12, %sw.bb9, %if.end, %sw.bb6, %sw.bb4, %sw.bb
  %step.addr.1 = phi i32 [ %step.addr.0, %sw.default ], [ %step.addr.0, %sw.bb14 ], [ %v6, %if.end12 ], [ %v5, %if.end ], [ %v4, %sw.bb4 ], [ %v3, %sw.bb ], [ %step.addr.0, %sw.bb6 ], [ %step.addr.0, %sw.bb9 ]
  %switch = phi i1 [ false, %sw.default ], [ false, %sw.bb14 ], [ true, %if.end12 ], [ true, %if.end ], [ true, %sw.bb4 ], [ true, %sw.bb ], [ false, %sw.bb6 ], [ false, %sw.bb9 ]
  br i1 %switch, label %while.cond, label %while.end

while.end:                                        ; preds = %cleanup, %land.rhs, %while.cond
  ret void
}

; Function Attrs: nofree norecurse nosync nounwind optsize memory(read, inaccessiblemem: none)
define internal noundef i32 @strlen(ptr noundef %at) local_unnamed_addr #3 {
entry:
  br label %while.cond

while.cond:                                       ; preds = %while.cond, %entry
  %s.0 = phi ptr [ %at, %entry ], [ %incdec.ptr, %while.cond ]
  %v0 = load i8, ptr %s.0, align 1, !tbaa !4
  %tobool.not = icmp eq i8 %v0, 0
  %incdec.ptr = getelementptr inbounds i8, ptr %s.0, i32 1
  br i1 %tobool.not, label %while.end, label %while.cond, !llvm.loop !46

while.end:                                        ; preds = %while.cond
  %sub.ptr.lhs.cast = ptrtoint ptr %s.0 to i32
  %sub.ptr.rhs.cast = ptrtoint ptr %at to i32
  %sub.ptr.sub = sub i32 %sub.ptr.lhs.cast, %sub.ptr.rhs.cast
  ret i32 %sub.ptr.sub
}

; Function Attrs: nofree norecurse nosync nounwind optsize
define internal noundef ptr @strncat(ptr noalias noundef returned %to, ptr noalias nocapture noundef readonly %from, i32 noundef signext %n) local_unnamed_addr #7 {
entry:
  br label %while.cond.i

while.cond.i:                                     ; preds = %while.cond.i, %entry
  %s.0.i = phi ptr [ %to, %entry ], [ %incdec.ptr.i, %while.cond.i ]
  %v0 = load i8, ptr %s.0.i, align 1, !tbaa !4
  %tobool.not.i = icmp eq i8 %v0, 0
  %incdec.ptr.i = getelementptr inbounds i8, ptr %s.0.i, i32 1
  br i1 %tobool.not.i, label %strlen.exit, label %while.cond.i, !llvm.loop !46

strlen.exit:                                      ; preds = %while.cond.i
  %sub.ptr.lhs.cast.i = ptrtoint ptr %s.0.i to i32
  %sub.ptr.rhs.cast.i = ptrtoint ptr %to to i32
  %sub.ptr.sub.i = sub i32 %sub.ptr.lhs.cast.i, %sub.ptr.rhs.cast.i
  %add.ptr = getelementptr inbounds i8, ptr %to, i32 %sub.ptr.sub.i
  %cmp4.not.i = icmp eq i32 %n, 0
  br i1 %cmp4.not.i, label %memcpy.exit, label %land.rhs.i

land.rhs.i:                                       ; preds = %while.body.i, %strlen.exit
  %k.05.i = phi i32 [ %inc.i, %while.body.i ], [ 0, %strlen.exit ]
  %arrayidx.i = getelementptr inbounds i8, ptr %from, i32 %k.05.i
  %v1 = load i8, ptr %arrayidx.i, align 1, !tbaa !4
  %tobool.not.i8 = icmp eq i8 %v1, 0
  br i1 %tobool.not.i8, label %strnlen.exit, label %while.body.i

while.body.i:                                     ; preds = %land.rhs.i
  %inc.i = add nuw i32 %k.05.i, 1
  %exitcond.not.i = icmp eq i32 %inc.i, %n
  br i1 %exitcond.not.i, label %while.body.i9.preheader, label %land.rhs.i, !llvm.loop !47

strnlen.exit:                                     ; preds = %land.rhs.i
  %cmp.not3.i = icmp eq i32 %k.05.i, 0
  br i1 %cmp.not3.i, label %memcpy.exit, label %while.body.i9.preheader

while.body.i9.preheader:                          ; preds = %strnlen.exit, %while.body.i
  %k.0.lcssa.i16 = phi i32 [ %k.05.i, %strnlen.exit ], [ %n, %while.body.i ]
  br label %while.body.i9

while.body.i9:                                    ; preds = %while.body.i9, %while.body.i9.preheader
  %s.06.i = phi ptr [ %incdec.ptr.i10, %while.body.i9 ], [ %from, %while.body.i9.preheader ]
  %d.05.i = phi ptr [ %incdec.ptr1.i, %while.body.i9 ], [ %add.ptr, %while.body.i9.preheader ]
  %n.addr.04.i = phi i32 [ %dec.i, %while.body.i9 ], [ %k.0.lcssa.i16, %while.body.i9.preheader ]
  %dec.i = add i32 %n.addr.04.i, -1
  %incdec.ptr.i10 = getelementptr inbounds i8, ptr %s.06.i, i32 1
  %v2 = load i8, ptr %s.06.i, align 1, !tbaa !4, !alias.scope !54, !noalias !57
  %incdec.ptr1.i = getelementptr inbounds i8, ptr %d.05.i, i32 1
  store i8 %v2, ptr %d.05.i, align 1, !tbaa !4, !alias.scope !57, !noalias !54
  %cmp.not.i = icmp eq i32 %dec.i, 0
  br i1 %cmp.not.i, label %memcpy.exit, label %while.body.i9, !llvm.loop !59

memcpy.exit:                                      ; preds = %while.body.i9, %strnlen.exit, %strlen.exit
  %k.0.lcssa.i13 = phi i32 [ 0, %strnlen.exit ], [ 0, %strlen.exit ], [ %k.0.lcssa.i16, %while.body.i9 ]
  %arrayidx = getelementptr inbounds i8, ptr %add.ptr, i32 %k.0.lcssa.i13
  store i8 0, ptr %arrayidx, align 1, !tbaa !4
  ret ptr %to
}

; Function Attrs: nofree norecurse nosync nounwind optsize
define internal noundef ptr @strcat(ptr noalias noundef returned %to, ptr noalias nocapture noundef readonly %from) local_unnamed_addr #7 {
entry:
  br label %while.cond.i

while.cond.i:                                     ; preds = %while.cond.i, %entry
  %s.0.i = phi ptr [ %to, %entry ], [ %incdec.ptr.i, %while.cond.i ]
  %v0 = load i8, ptr %s.0.i, align 1, !tbaa !4
  %tobool.not.i = icmp eq i8 %v0, 0
  %incdec.ptr.i = getelementptr inbounds i8, ptr %s.0.i, i32 1
  br i1 %tobool.not.i, label %strlen.exit, label %while.cond.i, !llvm.loop !46

strlen.exit:                                      ; preds = %while.cond.i
  %sub.ptr.lhs.cast.i = ptrtoint ptr %s.0.i to i32
  %sub.ptr.rhs.cast.i = ptrtoint ptr %to to i32
  %sub.ptr.sub.i = sub i32 %sub.ptr.lhs.cast.i, %sub.ptr.rhs.cast.i
  %add.ptr = getelementptr inbounds i8, ptr %to, i32 %sub.ptr.sub.i
  %v1 = load i8, ptr %from, align 1, !tbaa !4, !alias.scope !60, !noalias !63
  store i8 %v1, ptr %add.ptr, align 1, !tbaa !4, !alias.scope !63, !noalias !60
  %tobool.not4.i = icmp eq i8 %v1, 0
  br i1 %tobool.not4.i, label %stpcpy.exit, label %while.body.i

while.body.i:                                     ; preds = %while.body.i, %strlen.exit
  %from.addr.06.i = phi ptr [ %incdec.ptr.i4, %while.body.i ], [ %from, %strlen.exit ]
  %to.addr.05.i = phi ptr [ %incdec.ptr1.i, %while.body.i ], [ %add.ptr, %strlen.exit ]
  %incdec.ptr.i4 = getelementptr inbounds i8, ptr %from.addr.06.i, i32 1
  %incdec.ptr1.i = getelementptr inbounds i8, ptr %to.addr.05.i, i32 1
  %v2 = load i8, ptr %incdec.ptr.i4, align 1, !tbaa !4, !alias.scope !60, !noalias !63
  store i8 %v2, ptr %incdec.ptr1.i, align 1, !tbaa !4, !alias.scope !63, !noalias !60
  %tobool.not.i5 = icmp eq i8 %v2, 0
  br i1 %tobool.not.i5, label %stpcpy.exit, label %while.body.i, !llvm.loop !65

stpcpy.exit:                                      ; preds = %while.body.i, %strlen.exit
  ret ptr %to
}

; Function Attrs: nounwind optsize
define internal fastcc i32 @number(ptr nocapture noundef %stream, ptr noundef %front, ptr nocapture noundef readonly %digits, i32 noundef signext %n, i32 noundef signext %flags, i32 noundef signext %width, i32 noundef signext %precision) unnamed_addr #2 {
entry:
  br label %while.cond.i

while.cond.i:                                     ; preds = %while.cond.i, %entry
  %s.0.i = phi ptr [ %front, %entry ], [ %incdec.ptr.i, %while.cond.i ]
  %v0 = load i8, ptr %s.0.i, align 1, !tbaa !4
  %tobool.not.i = icmp eq i8 %v0, 0
  %incdec.ptr.i = getelementptr inbounds i8, ptr %s.0.i, i32 1
  br i1 %tobool.not.i, label %strlen.exit, label %while.cond.i, !llvm.loop !46

strlen.exit:                                      ; preds = %while.cond.i
  %sub.ptr.lhs.cast.i = ptrtoint ptr %s.0.i to i32
  %sub.ptr.rhs.cast.i = ptrtoint ptr %front to i32
  %sub.ptr.sub.i = sub i32 %sub.ptr.lhs.cast.i, %sub.ptr.rhs.cast.i
  %sub = sub nsw i32 %precision, %n
  %shr.i = lshr i32 %width, 31
  %tobool.i = icmp ne i32 %shr.i, 0
  %sub.i = sub i32 0, %width
  %cond.i1 = select i1 %tobool.i, i32 %sub.i, i32 %width
  %spec.store.select = tail call i32 @llvm.smax.i32(i32 %sub, i32 0)
  %cmp5 = icmp slt i32 %precision, 0
  %and = and i32 %flags, 16
  %tobool.not = icmp ne i32 %and, 0
  %or.cond.not94 = and i1 %tobool.not, %cmp5
  %flags.masked = and i32 %flags, 1
  %and7 = or i32 %shr.i, %flags.masked
  %tobool8.not = icmp eq i32 %and7, 0
  %or.cond65 = and i1 %or.cond.not94, %tobool8.not
  %add = add i32 %sub.ptr.sub.i, %n
  %cmp10 = icmp sgt i32 %cond.i1, %add
  %or.cond66 = select i1 %or.cond65, i1 %cmp10, i1 false
  %sub13 = sub i32 %cond.i1, %add
  %zeros.0 = select i1 %or.cond66, i32 %sub13, i32 %spec.store.select
  %v2 = add i32 %add, %zeros.0
  %sub17 = sub i32 %cond.i1, %v2
  br i1 %tobool8.not, label %if.then20, label %if.end23

if.then20:                                        ; preds = %strlen.exit
  %cmp5.i = icmp sgt i32 %sub17, 0
  br i1 %cmp5.i, label %for.body.i, label %repeated.exit

for.body.i:                                       ; preds = %for.body.i, %if.then20
  %k.06.i = phi i32 [ %inc.i, %for.body.i ], [ 0, %if.then20 ]
  %call.i = tail call i32 @fputc(i32 noundef signext 32, ptr noundef %stream) #11
  %inc.i = add nuw nsw i32 %k.06.i, 1
  %exitcond.not.i = icmp eq i32 %inc.i, %sub17
  br i1 %exitcond.not.i, label %repeated.exit, label %for.body.i, !llvm.loop !66

repeated.exit:                                    ; preds = %for.body.i, %if.then20
  %cond.i = tail call noundef i32 @llvm.smax.i32(i32 %sub17, i32 0)
  br label %if.end23

if.end23:                                         ; preds = %repeated.exit, %strlen.exit
  %count.0 = phi i32 [ 0, %strlen.exit ], [ %cond.i, %repeated.exit ]
  %v3 = load i8, ptr %stream, align 4, !tbaa !38, !alias.scope !67, !noalias !70
  %cmp.i.i = icmp eq i8 %v3, 0
  %cmp210.not.i.i = icmp eq ptr %s.0.i, %front
  %or.cond.i = or i1 %cmp210.not.i.i, %cmp.i.i
  br i1 %or.cond.i, label %__print_text.exit, label %for.body.i.i

for.body.i.i:                                     ; preds = %for.body.i.i, %if.end23
  %k.011.i.i = phi i32 [ %inc.i.i, %for.body.i.i ], [ 0, %if.end23 ]
  %arrayidx.i.i = getelementptr inbounds i8, ptr %front, i32 %k.011.i.i
  %v4 = load i8, ptr %arrayidx.i.i, align 1, !tbaa !4, !alias.scope !70, !noalias !67
  %conv4.i.i = zext i8 %v4 to i32
  %call.i.i = tail call i32 @fputc(i32 noundef signext %conv4.i.i, ptr noundef nonnull %stream) #11, !noalias !70
  %inc.i.i = add nuw i32 %k.011.i.i, 1
  %exitcond.not.i.i = icmp eq i32 %inc.i.i, %sub.ptr.sub.i
  br i1 %exitcond.not.i.i, label %__print_text.exit, label %for.body.i.i, !llvm.loop !45

__print_text.exit:                                ; preds = %for.body.i.i, %if.end23
  %cmp5.i67 = icmp sgt i32 %zeros.0, 0
  br i1 %cmp5.i67, label %for.body.i69, label %repeated.exit74

for.body.i69:                                     ; preds = %for.body.i69, %__print_text.exit
  %k.06.i70 = phi i32 [ %inc.i72, %for.body.i69 ], [ 0, %__print_text.exit ]
  %call.i71 = tail call i32 @fputc(i32 noundef signext 48, ptr noundef nonnull %stream) #11
  %inc.i72 = add nuw nsw i32 %k.06.i70, 1
  %exitcond.not.i73 = icmp eq i32 %inc.i72, %zeros.0
  br i1 %exitcond.not.i73, label %repeated.exit74, label %for.body.i69, !llvm.loop !66

repeated.exit74:                                  ; preds = %for.body.i69, %__print_text.exit
  %cond.i68 = tail call noundef i32 @llvm.smax.i32(i32 %zeros.0, i32 0)
  %v5 = load i8, ptr %stream, align 4, !tbaa !38, !alias.scope !72, !noalias !75
  %cmp.i.i75 = icmp eq i8 %v5, 0
  %cmp210.not.i.i76 = icmp eq i32 %n, 0
  %or.cond.i77 = or i1 %cmp210.not.i.i76, %cmp.i.i75
  br i1 %or.cond.i77, label %__print_text.exit85, label %for.body.i.i78

for.body.i.i78:                                   ; preds = %for.body.i.i78, %repeated.exit74
  %k.011.i.i79 = phi i32 [ %inc.i.i83, %for.body.i.i78 ], [ 0, %repeated.exit74 ]
  %arrayidx.i.i80 = getelementptr inbounds i8, ptr %digits, i32 %k.011.i.i79
  %v6 = load i8, ptr %arrayidx.i.i80, align 1, !tbaa !4, !alias.scope !75, !noalias !72
  %conv4.i.i81 = zext i8 %v6 to i32
  %call.i.i82 = tail call i32 @fputc(i32 noundef signext %conv4.i.i81, ptr noundef nonnull %stream) #11, !noalias !75
  %inc.i.i83 = add nuw i32 %k.011.i.i79, 1
  %exitcond.not.i.i84 = icmp eq i32 %inc.i.i83, %n
  br i1 %exitcond.not.i.i84, label %__print_text.exit85, label %for.body.i.i78, !llvm.loop !45

__print_text.exit85:                              ; preds = %for.body.i.i78, %repeated.exit74
  %add27 = add i32 %add, %cond.i68
  %add29 = add i32 %add27, %count.0
  br i1 %tobool8.not, label %if.end35, label %if.then32

if.then32:                                        ; preds = %__print_text.exit85
  %cmp5.i86 = icmp sgt i32 %sub17, 0
  br i1 %cmp5.i86, label %for.body.i88, label %repeated.exit93

for.body.i88:                                     ; preds = %for.body.i88, %if.then32
  %k.06.i89 = phi i32 [ %inc.i91, %for.body.i88 ], [ 0, %if.then32 ]
  %call.i90 = tail call i32 @fputc(i32 noundef signext 32, ptr noundef nonnull %stream) #11
  %inc.i91 = add nuw nsw i32 %k.06.i89, 1
  %exitcond.not.i92 = icmp eq i32 %inc.i91, %sub17
  br i1 %exitcond.not.i92, label %repeated.exit93, label %for.body.i88, !llvm.loop !66

repeated.exit93:                                  ; preds = %for.body.i88, %if.then32
  %cond.i87 = tail call noundef i32 @llvm.smax.i32(i32 %sub17, i32 0)
  %add34 = add nsw i32 %add29, %cond.i87
  br label %if.end35

if.end35:                                         ; preds = %repeated.exit93, %__print_text.exit85
  %count.1 = phi i32 [ %add34, %repeated.exit93 ], [ %add29, %__print_text.exit85 ]
  ret i32 %count.1
}

; Function Attrs: nocallback nofree nosync nounwind speculatable willreturn memory(none)
declare i32 @llvm.smax.i32(i32, i32) #8

; Function Attrs: nounwind optsize
define internal range(i32 -1, 256) i32 @fputc(i32 noundef signext %c, ptr nocapture noundef %stream) local_unnamed_addr #2 {
entry:
  %v0 = load i8, ptr %stream, align 4, !tbaa !38
  switch i8 %v0, label %if.end18 [
    i8 1, label %if.then
    i8 3, label %land.lhs.true
    i8 0, label %return
  ]

if.then:                                          ; preds = %entry
  %call = tail call i32 @putchar(i32 noundef signext %c) #12
  br label %if.end18

land.lhs.true:                                    ; preds = %entry
  %left = getelementptr inbounds i8, ptr %stream, i32 8
  %v1 = load i32, ptr %left, align 4, !tbaa !77
  %cmp6.not = icmp eq i32 %v1, 0
  br i1 %cmp6.not, label %if.end18, label %if.then8

if.then8:                                         ; preds = %land.lhs.true
  %conv9 = trunc i32 %c to i8
  %at = getelementptr inbounds i8, ptr %stream, i32 4
  %v2 = load ptr, ptr %at, align 4, !tbaa !78
  %incdec.ptr = getelementptr inbounds i8, ptr %v2, i32 1
  store ptr %incdec.ptr, ptr %at, align 4, !tbaa !78
  store i8 %conv9, ptr %v2, align 1, !tbaa !4
  %v3 = load i32, ptr %left, align 4, !tbaa !77
  %dec = add i32 %v3, -1
  store i32 %dec, ptr %left, align 4, !tbaa !77
  br label %if.end18

if.end18:                                         ; preds = %if.then8, %land.lhs.true, %if.then, %entry
  %conv20 = and i32 %c, 255
  br label %return

return:                                           ; preds = %if.end18, %entry
  %retval.0 = phi i32 [ %conv20, %if.end18 ], [ -1, %entry ]
  ret i32 %retval.0
}

; Function Attrs: optsize
declare dso_local i32 @putchar(i32 noundef signext) local_unnamed_addr #9

; Function Attrs: nofree nounwind memory(readwrite, inaccessiblemem: none)
define internal fastcc void @repeated(ptr nocapture noundef %it, ptr nocapture noundef %out) unnamed_addr #5 {
entry:
  %at.i = getelementptr inbounds i8, ptr %it, i32 8
  %v0 = load ptr, ptr %at.i, align 4, !tbaa !11
  %incdec.ptr.i = getelementptr inbounds i8, ptr %v0, i32 1
  store ptr %incdec.ptr.i, ptr %at.i, align 4, !tbaa !11
  %v1 = load i8, ptr %v0, align 1, !tbaa !4
  switch i8 %v1, label %sw.default.i [
    i8 40, label %sw.bb.i
    i8 91, label %sw.bb6.i
    i8 46, label %sw.bb7.i
    i8 94, label %sw.bb8.i
    i8 36, label %sw.bb9.i
    i8 42, label %sw.bb10.i
    i8 43, label %sw.bb10.i
    i8 63, label %sw.bb10.i
    i8 92, label %sw.bb13.i
  ]

sw.bb.i:                                          ; preds = %entry
  tail call fastcc void @alternatives(ptr noundef %it, ptr noundef %out)
  %v2 = load ptr, ptr %at.i, align 4, !tbaa !11
  %v3 = load i8, ptr %v2, align 1, !tbaa !4
  %cmp.not.i = icmp eq i8 %v3, 41
  br i1 %cmp.not.i, label %if.else.i, label %if.then.i

if.then.i:                                        ; preds = %sw.bb.i
  %v4 = load ptr, ptr %it, align 4, !tbaa !7
  %fault.i243 = getelementptr inbounds i8, ptr %v4, i32 7180
  %v5 = load ptr, ptr %fault.i243, align 4, !tbaa !12
  %tobool.not.i244 = icmp eq ptr %v5, null
  br i1 %tobool.not.i244, label %if.then.i246, label %atom.exit

if.then.i246:                                     ; preds = %if.then.i
  store ptr @.str.2, ptr %fault.i243, align 4, !tbaa !12
  %pattern.i248 = getelementptr inbounds i8, ptr %it, i32 4
  %v6 = load ptr, ptr %pattern.i248, align 4, !tbaa !10
  %sub.ptr.lhs.cast.i249 = ptrtoint ptr %v2 to i32
  %sub.ptr.rhs.cast.i250 = ptrtoint ptr %v6 to i32
  %sub.ptr.sub.i251 = sub i32 %sub.ptr.lhs.cast.i249, %sub.ptr.rhs.cast.i250
  %place.i252 = getelementptr inbounds i8, ptr %v4, i32 7184
  store i32 %sub.ptr.sub.i251, ptr %place.i252, align 4, !tbaa !15
  br label %atom.exit

if.else.i:                                        ; preds = %sw.bb.i
  %incdec.ptr5.i = getelementptr inbounds i8, ptr %v2, i32 1
  store ptr %incdec.ptr5.i, ptr %at.i, align 4, !tbaa !11
  br label %atom.exit

sw.bb6.i:                                         ; preds = %entry
  %v7 = load ptr, ptr %it, align 4, !tbaa !7
  %used.i = getelementptr inbounds i8, ptr %v7, i32 7176
  %v8 = load i32, ptr %used.i, align 4, !tbaa !26
  %cmp.i223 = icmp eq i32 %v8, 24
  br i1 %cmp.i223, label %if.then.i233, label %if.end.i224

if.then.i233:                                     ; preds = %sw.bb6.i
  %fault.i.i234 = getelementptr inbounds i8, ptr %v7, i32 7180
  %v9 = load ptr, ptr %fault.i.i234, align 4, !tbaa !12
  %tobool.not.i.i235 = icmp eq ptr %v9, null
  br i1 %tobool.not.i.i235, label %if.then.i.i236, label %atom.exit

if.then.i.i236:                                   ; preds = %if.then.i233
  store ptr @.str.5, ptr %fault.i.i234, align 4, !tbaa !12
  %pattern.i.i238 = getelementptr inbounds i8, ptr %it, i32 4
  %v10 = load ptr, ptr %pattern.i.i238, align 4, !tbaa !10
  %sub.ptr.lhs.cast.i.i239 = ptrtoint ptr %incdec.ptr.i to i32
  %sub.ptr.rhs.cast.i.i240 = ptrtoint ptr %v10 to i32
  %sub.ptr.sub.i.i241 = sub i32 %sub.ptr.lhs.cast.i.i239, %sub.ptr.rhs.cast.i.i240
  %place.i.i242 = getelementptr inbounds i8, ptr %v7, i32 7184
  store i32 %sub.ptr.sub.i.i241, ptr %place.i.i242, align 4, !tbaa !15
  br label %atom.exit

if.end.i224:                                      ; preds = %sw.bb6.i
  %sets.i = getelementptr inbounds i8, ptr %v7, i32 6408
  %inc.i225 = add nsw i32 %v8, 1
  store i32 %inc.i225, ptr %used.i, align 4, !tbaa !26
  %arrayidx.i226 = getelementptr inbounds [24 x [32 x i8]], ptr %sets.i, i32 0, i32 %v8
  tail call void @llvm.memset.p0.i32(ptr noundef nonnull align 1 dereferenceable(32) %arrayidx.i226, i8 0, i32 32, i1 false)
  %v11 = load ptr, ptr %at.i, align 4, !tbaa !11
  %v12 = load i8, ptr %v11, align 1, !tbaa !4
  %cmp4.not.i = icmp eq i8 %v12, 94
  br i1 %cmp4.not.i, label %if.then6.i, label %if.end8.i

if.then6.i:                                       ; preds = %if.end.i224
  %incdec.ptr.i232 = getelementptr inbounds i8, ptr %v11, i32 1
  store ptr %incdec.ptr.i232, ptr %at.i, align 4, !tbaa !11
  br label %if.end8.i

if.end8.i:                                        ; preds = %if.then6.i, %if.end.i224
  %pattern.i35.i = getelementptr inbounds i8, ptr %it, i32 4
  br label %while.cond.i

while.cond.i:                                     ; preds = %cleanup.i, %if.end8.i
  %tobool15.i = phi i1 [ true, %if.end8.i ], [ false, %cleanup.i ]
  %v13 = load ptr, ptr %at.i, align 4, !tbaa !11
  %v14 = load i8, ptr %v13, align 1, !tbaa !4
  %tobool.not.i228 = icmp ne i8 %v14, 0
  %cmp13.i = icmp ne i8 %v14, 93
  %v15 = or i1 %tobool15.i, %cmp13.i
  %or.cond.i = and i1 %tobool.not.i228, %v15
  %incdec.ptr17.i = getelementptr inbounds i8, ptr %v13, i32 1
  store ptr %incdec.ptr17.i, ptr %at.i, align 4, !tbaa !11
  %v16 = load i8, ptr %v13, align 1, !tbaa !4
  br i1 %or.cond.i, label %while.body.i, label %while.end.i

while.body.i:                                     ; preds = %while.cond.i
  %v17 = load i8, ptr %incdec.ptr17.i, align 1, !tbaa !4
  %cmp21.i = icmp eq i8 %v17, 45
  br i1 %cmp21.i, label %land.lhs.true.i, label %if.end37.i

land.lhs.true.i:                                  ; preds = %while.body.i
  %arrayidx24.i = getelementptr inbounds i8, ptr %v13, i32 2
  %v18 = load i8, ptr %arrayidx24.i, align 1, !tbaa !4
  switch i8 %v18, label %if.then33.i [
    i8 0, label %if.end37.i
    i8 93, label %if.end37.i
  ]

if.then33.i:                                      ; preds = %land.lhs.true.i
  %add.ptr.i = getelementptr inbounds i8, ptr %v13, i32 3
  store ptr %add.ptr.i, ptr %at.i, align 4, !tbaa !11
  br label %if.end37.i

if.end37.i:                                       ; preds = %if.then33.i, %land.lhs.true.i, %land.lhs.true.i, %while.body.i
  %high.0.i = phi i8 [ %v18, %if.then33.i ], [ %v16, %land.lhs.true.i ], [ %v16, %while.body.i ], [ %v16, %land.lhs.true.i ]
  %cmp40.not.i = icmp ult i8 %high.0.i, %v16
  br i1 %cmp40.not.i, label %if.then42.i, label %if.end43.i

if.then42.i:                                      ; preds = %if.end37.i
  %v19 = load ptr, ptr %it, align 4, !tbaa !7
  %fault.i31.i = getelementptr inbounds i8, ptr %v19, i32 7180
  %v20 = load ptr, ptr %fault.i31.i, align 4, !tbaa !12
  %tobool.not.i32.i = icmp eq ptr %v20, null
  br i1 %tobool.not.i32.i, label %if.then.i33.i, label %cleanup.i

if.then.i33.i:                                    ; preds = %if.then42.i
  store ptr @.str.6, ptr %fault.i31.i, align 4, !tbaa !12
  %v21 = load ptr, ptr %at.i, align 4, !tbaa !11
  %v22 = load ptr, ptr %pattern.i35.i, align 4, !tbaa !10
  %sub.ptr.lhs.cast.i36.i = ptrtoint ptr %v21 to i32
  %sub.ptr.rhs.cast.i37.i = ptrtoint ptr %v22 to i32
  %sub.ptr.sub.i38.i = sub i32 %sub.ptr.lhs.cast.i36.i, %sub.ptr.rhs.cast.i37.i
  %place.i39.i = getelementptr inbounds i8, ptr %v19, i32 7184
  store i32 %sub.ptr.sub.i38.i, ptr %place.i39.i, align 4, !tbaa !15
  br label %cleanup.i

if.end43.i:                                       ; preds = %if.end37.i
  %conv38.i = zext i8 %high.0.i to i32
  %conv39.i = zext i8 %v16 to i32
  br label %for.body.i

for.body.i:                                       ; preds = %for.body.i, %if.end43.i
  %c.052.i = phi i32 [ %conv39.i, %if.end43.i ], [ %inc48.i, %for.body.i ]
  %rem.i.i = and i32 %c.052.i, 7
  %shl.i.i = shl nuw nsw i32 1, %rem.i.i
  %and.i.i = lshr i32 %c.052.i, 3
  %div2.i.i = and i32 %and.i.i, 31
  %arrayidx.i.i231 = getelementptr inbounds i8, ptr %arrayidx.i226, i32 %div2.i.i
  %v23 = load i8, ptr %arrayidx.i.i231, align 1, !tbaa !4
  %v24 = trunc nuw i32 %shl.i.i to i8
  %conv1.i.i = or i8 %v23, %v24
  store i8 %conv1.i.i, ptr %arrayidx.i.i231, align 1, !tbaa !4
  %inc48.i = add nuw nsw i32 %c.052.i, 1
  %exitcond.not.i = icmp eq i32 %c.052.i, %conv38.i
  br i1 %exitcond.not.i, label %cleanup.i, label %for.body.i, !llvm.loop !79

cleanup.i:                                        ; preds = %for.body.i, %if.then.i33.i, %if.then42.i
  br i1 %cmp40.not.i, label %atom.exit, label %while.cond.i, !llvm.loop !80

while.end.i:                                      ; preds = %while.cond.i
  %cmp53.not.i = icmp eq i8 %v16, 93
  br i1 %cmp53.not.i, label %if.end58.i, label %if.then55.i

if.then55.i:                                      ; preds = %while.end.i
  store ptr %v13, ptr %at.i, align 4, !tbaa !11
  %v25 = load ptr, ptr %it, align 4, !tbaa !7
  %fault.i41.i = getelementptr inbounds i8, ptr %v25, i32 7180
  %v26 = load ptr, ptr %fault.i41.i, align 4, !tbaa !12
  %tobool.not.i42.i = icmp eq ptr %v26, null
  br i1 %tobool.not.i42.i, label %if.then.i43.i, label %atom.exit

if.then.i43.i:                                    ; preds = %if.then55.i
  store ptr @.str.7, ptr %fault.i41.i, align 4, !tbaa !12
  %v27 = load ptr, ptr %pattern.i35.i, align 4, !tbaa !10
  %sub.ptr.lhs.cast.i46.i = ptrtoint ptr %v13 to i32
  %sub.ptr.rhs.cast.i47.i = ptrtoint ptr %v27 to i32
  %sub.ptr.sub.i48.i = sub i32 %sub.ptr.lhs.cast.i46.i, %sub.ptr.rhs.cast.i47.i
  %place.i49.i = getelementptr inbounds i8, ptr %v25, i32 7184
  store i32 %sub.ptr.sub.i48.i, ptr %place.i49.i, align 4, !tbaa !15
  br label %atom.exit

if.end58.i:                                       ; preds = %while.end.i
  br i1 %cmp4.not.i, label %for.body65.i, label %if.end74.i

for.body65.i:                                     ; preds = %for.body65.i, %if.end58.i
  %k.053.i = phi i32 [ %inc71.i, %for.body65.i ], [ 0, %if.end58.i ]
  %arrayidx66.i = getelementptr inbounds i8, ptr %arrayidx.i226, i32 %k.053.i
  %v28 = load i8, ptr %arrayidx66.i, align 1, !tbaa !4
  %not.i = xor i8 %v28, -1
  store i8 %not.i, ptr %arrayidx66.i, align 1, !tbaa !4
  %inc71.i = add nuw nsw i32 %k.053.i, 1
  %exitcond55.not.i = icmp eq i32 %inc71.i, 32
  br i1 %exitcond55.not.i, label %if.end74.i, label %for.body65.i, !llvm.loop !81

if.end74.i:                                       ; preds = %for.body65.i, %if.end58.i
  %v29 = load ptr, ptr %it, align 4, !tbaa !7
  %count.i.i.i = getelementptr inbounds i8, ptr %v29, i32 6400
  %v30 = load i32, ptr %count.i.i.i, align 4, !tbaa !19
  %cmp.i.i.i = icmp eq i32 %v30, 400
  br i1 %cmp.i.i.i, label %if.then.i.i.i230, label %if.end.i.i.i

if.then.i.i.i230:                                 ; preds = %if.end74.i
  %fault.i.i.i.i = getelementptr inbounds i8, ptr %v29, i32 7180
  %v31 = load ptr, ptr %fault.i.i.i.i, align 4, !tbaa !12
  %tobool.not.i.i.i.i = icmp eq ptr %v31, null
  br i1 %tobool.not.i.i.i.i, label %if.then.i.i.i.i, label %add.exit.i.i

if.then.i.i.i.i:                                  ; preds = %if.then.i.i.i230
  store ptr @.str.8, ptr %fault.i.i.i.i, align 4, !tbaa !12
  %v32 = load ptr, ptr %at.i, align 4, !tbaa !11
  %v33 = load ptr, ptr %pattern.i35.i, align 4, !tbaa !10
  %sub.ptr.lhs.cast.i.i.i.i = ptrtoint ptr %v32 to i32
  %sub.ptr.rhs.cast.i.i.i.i = ptrtoint ptr %v33 to i32
  %sub.ptr.sub.i.i.i.i = sub i32 %sub.ptr.lhs.cast.i.i.i.i, %sub.ptr.rhs.cast.i.i.i.i
  %place.i.i.i.i = getelementptr inbounds i8, ptr %v29, i32 7184
  store i32 %sub.ptr.sub.i.i.i.i, ptr %place.i.i.i.i, align 4, !tbaa !15
  br label %add.exit.i.i

if.end.i.i.i:                                     ; preds = %if.end74.i
  %arrayidx.i.i.i = getelementptr inbounds [400 x %struct.step], ptr %v29, i32 0, i32 %v30
  store i32 2, ptr %arrayidx.i.i.i, align 4, !tbaa !20
  %value5.i.i.i = getelementptr inbounds i8, ptr %arrayidx.i.i.i, i32 4
  store i32 %v8, ptr %value5.i.i.i, align 4, !tbaa !22
  %other.i.i.i = getelementptr inbounds i8, ptr %arrayidx.i.i.i, i32 12
  store i32 -1, ptr %other.i.i.i, align 4, !tbaa !23
  %next.i.i.i = getelementptr inbounds i8, ptr %arrayidx.i.i.i, i32 8
  store i32 -1, ptr %next.i.i.i, align 4, !tbaa !24
  %inc.i.i.i = add nsw i32 %v30, 1
  store i32 %inc.i.i.i, ptr %count.i.i.i, align 4, !tbaa !19
  br label %add.exit.i.i

add.exit.i.i:                                     ; preds = %if.end.i.i.i, %if.then.i.i.i.i, %if.then.i.i.i230
  %retval.0.i.i.i = phi i32 [ %v30, %if.end.i.i.i ], [ 0, %if.then.i.i.i230 ], [ 0, %if.then.i.i.i.i ]
  store i32 %retval.0.i.i.i, ptr %out, align 4, !tbaa !16
  %v34 = load i32, ptr %count.i.i.i, align 4, !tbaa !19
  %cmp.i7.i.i = icmp eq i32 %v34, 400
  br i1 %cmp.i7.i.i, label %if.then.i15.i.i, label %if.end.i8.i.i

if.then.i15.i.i:                                  ; preds = %add.exit.i.i
  %fault.i.i16.i.i = getelementptr inbounds i8, ptr %v29, i32 7180
  %v35 = load ptr, ptr %fault.i.i16.i.i, align 4, !tbaa !12
  %tobool.not.i.i17.i.i = icmp eq ptr %v35, null
  br i1 %tobool.not.i.i17.i.i, label %if.then.i.i18.i.i, label %single.exit.i

if.then.i.i18.i.i:                                ; preds = %if.then.i15.i.i
  store ptr @.str.8, ptr %fault.i.i16.i.i, align 4, !tbaa !12
  %v36 = load ptr, ptr %at.i, align 4, !tbaa !11
  %v37 = load ptr, ptr %pattern.i35.i, align 4, !tbaa !10
  %sub.ptr.lhs.cast.i.i21.i.i = ptrtoint ptr %v36 to i32
  %sub.ptr.rhs.cast.i.i22.i.i = ptrtoint ptr %v37 to i32
  %sub.ptr.sub.i.i23.i.i = sub i32 %sub.ptr.lhs.cast.i.i21.i.i, %sub.ptr.rhs.cast.i.i22.i.i
  %place.i.i24.i.i = getelementptr inbounds i8, ptr %v29, i32 7184
  store i32 %sub.ptr.sub.i.i23.i.i, ptr %place.i.i24.i.i, align 4, !tbaa !15
  br label %single.exit.i

if.end.i8.i.i:                                    ; preds = %add.exit.i.i
  %arrayidx.i9.i.i = getelementptr inbounds [400 x %struct.step], ptr %v29, i32 0, i32 %v34
  store i32 6, ptr %arrayidx.i9.i.i, align 4, !tbaa !20
  %value5.i10.i.i = getelementptr inbounds i8, ptr %arrayidx.i9.i.i, i32 4
  store i32 0, ptr %value5.i10.i.i, align 4, !tbaa !22
  %other.i11.i.i = getelementptr inbounds i8, ptr %arrayidx.i9.i.i, i32 12
  store i32 -1, ptr %other.i11.i.i, align 4, !tbaa !23
  %next.i12.i.i = getelementptr inbounds i8, ptr %arrayidx.i9.i.i, i32 8
  store i32 -1, ptr %next.i12.i.i, align 4, !tbaa !24
  %inc.i13.i.i = add nsw i32 %v34, 1
  store i32 %inc.i13.i.i, ptr %count.i.i.i, align 4, !tbaa !19
  br label %single.exit.i

single.exit.i:                                    ; preds = %if.end.i8.i.i, %if.then.i.i18.i.i, %if.then.i15.i.i
  %retval.0.i14.i.i = phi i32 [ %v34, %if.end.i8.i.i ], [ 0, %if.then.i15.i.i ], [ 0, %if.then.i.i18.i.i ]
  %last.i.i = getelementptr inbounds i8, ptr %out, i32 4
  store i32 %retval.0.i14.i.i, ptr %last.i.i, align 4, !tbaa !25
  %next.i.i229 = getelementptr inbounds [400 x %struct.step], ptr %v29, i32 0, i32 %retval.0.i.i.i, i32 2
  store i32 %retval.0.i14.i.i, ptr %next.i.i229, align 4, !tbaa !24
  br label %atom.exit

sw.bb7.i:                                         ; preds = %entry
  %v38 = load ptr, ptr %it, align 4, !tbaa !7
  %count.i.i182 = getelementptr inbounds i8, ptr %v38, i32 6400
  %v39 = load i32, ptr %count.i.i182, align 4, !tbaa !19
  %cmp.i.i183 = icmp eq i32 %v39, 400
  br i1 %cmp.i.i183, label %if.then.i.i212, label %if.end.i.i184

if.then.i.i212:                                   ; preds = %sw.bb7.i
  %fault.i.i.i213 = getelementptr inbounds i8, ptr %v38, i32 7180
  %v40 = load ptr, ptr %fault.i.i.i213, align 4, !tbaa !12
  %tobool.not.i.i.i214 = icmp eq ptr %v40, null
  br i1 %tobool.not.i.i.i214, label %if.then.i.i.i215, label %add.exit.i190

if.then.i.i.i215:                                 ; preds = %if.then.i.i212
  store ptr @.str.8, ptr %fault.i.i.i213, align 4, !tbaa !12
  %pattern.i.i.i217 = getelementptr inbounds i8, ptr %it, i32 4
  %v41 = load ptr, ptr %pattern.i.i.i217, align 4, !tbaa !10
  %sub.ptr.lhs.cast.i.i.i218 = ptrtoint ptr %incdec.ptr.i to i32
  %sub.ptr.rhs.cast.i.i.i219 = ptrtoint ptr %v41 to i32
  %sub.ptr.sub.i.i.i220 = sub i32 %sub.ptr.lhs.cast.i.i.i218, %sub.ptr.rhs.cast.i.i.i219
  %place.i.i.i221 = getelementptr inbounds i8, ptr %v38, i32 7184
  store i32 %sub.ptr.sub.i.i.i220, ptr %place.i.i.i221, align 4, !tbaa !15
  br label %add.exit.i190

if.end.i.i184:                                    ; preds = %sw.bb7.i
  %arrayidx.i.i185 = getelementptr inbounds [400 x %struct.step], ptr %v38, i32 0, i32 %v39
  store i32 1, ptr %arrayidx.i.i185, align 4, !tbaa !20
  %value5.i.i186 = getelementptr inbounds i8, ptr %arrayidx.i.i185, i32 4
  store i32 0, ptr %value5.i.i186, align 4, !tbaa !22
  %other.i.i187 = getelementptr inbounds i8, ptr %arrayidx.i.i185, i32 12
  store i32 -1, ptr %other.i.i187, align 4, !tbaa !23
  %next.i.i188 = getelementptr inbounds i8, ptr %arrayidx.i.i185, i32 8
  store i32 -1, ptr %next.i.i188, align 4, !tbaa !24
  %inc.i.i189 = add nsw i32 %v39, 1
  store i32 %inc.i.i189, ptr %count.i.i182, align 4, !tbaa !19
  br label %add.exit.i190

add.exit.i190:                                    ; preds = %if.end.i.i184, %if.then.i.i.i215, %if.then.i.i212
  %retval.0.i.i191 = phi i32 [ %v39, %if.end.i.i184 ], [ 0, %if.then.i.i212 ], [ 0, %if.then.i.i.i215 ]
  store i32 %retval.0.i.i191, ptr %out, align 4, !tbaa !16
  %v42 = load i32, ptr %count.i.i182, align 4, !tbaa !19
  %cmp.i7.i192 = icmp eq i32 %v42, 400
  br i1 %cmp.i7.i192, label %if.then.i15.i202, label %if.end.i8.i193

if.then.i15.i202:                                 ; preds = %add.exit.i190
  %fault.i.i16.i203 = getelementptr inbounds i8, ptr %v38, i32 7180
  %v43 = load ptr, ptr %fault.i.i16.i203, align 4, !tbaa !12
  %tobool.not.i.i17.i204 = icmp eq ptr %v43, null
  br i1 %tobool.not.i.i17.i204, label %if.then.i.i18.i205, label %single.exit222

if.then.i.i18.i205:                               ; preds = %if.then.i15.i202
  store ptr @.str.8, ptr %fault.i.i16.i203, align 4, !tbaa !12
  %pattern.i.i20.i207 = getelementptr inbounds i8, ptr %it, i32 4
  %v44 = load ptr, ptr %pattern.i.i20.i207, align 4, !tbaa !10
  %sub.ptr.lhs.cast.i.i21.i208 = ptrtoint ptr %incdec.ptr.i to i32
  %sub.ptr.rhs.cast.i.i22.i209 = ptrtoint ptr %v44 to i32
  %sub.ptr.sub.i.i23.i210 = sub i32 %sub.ptr.lhs.cast.i.i21.i208, %sub.ptr.rhs.cast.i.i22.i209
  %place.i.i24.i211 = getelementptr inbounds i8, ptr %v38, i32 7184
  store i32 %sub.ptr.sub.i.i23.i210, ptr %place.i.i24.i211, align 4, !tbaa !15
  br label %single.exit222

if.end.i8.i193:                                   ; preds = %add.exit.i190
  %arrayidx.i9.i194 = getelementptr inbounds [400 x %struct.step], ptr %v38, i32 0, i32 %v42
  store i32 6, ptr %arrayidx.i9.i194, align 4, !tbaa !20
  %value5.i10.i195 = getelementptr inbounds i8, ptr %arrayidx.i9.i194, i32 4
  store i32 0, ptr %value5.i10.i195, align 4, !tbaa !22
  %other.i11.i196 = getelementptr inbounds i8, ptr %arrayidx.i9.i194, i32 12
  store i32 -1, ptr %other.i11.i196, align 4, !tbaa !23
  %next.i12.i197 = getelementptr inbounds i8, ptr %arrayidx.i9.i194, i32 8
  store i32 -1, ptr %next.i12.i197, align 4, !tbaa !24
  %inc.i13.i198 = add nsw i32 %v42, 1
  store i32 %inc.i13.i198, ptr %count.i.i182, align 4, !tbaa !19
  br label %single.exit222

single.exit222:                                   ; preds = %if.end.i8.i193, %if.then.i.i18.i205, %if.then.i15.i202
  %retval.0.i14.i199 = phi i32 [ %v42, %if.end.i8.i193 ], [ 0, %if.then.i15.i202 ], [ 0, %if.then.i.i18.i205 ]
  %last.i200 = getelementptr inbounds i8, ptr %out, i32 4
  store i32 %retval.0.i14.i199, ptr %last.i200, align 4, !tbaa !25
  %next.i201 = getelementptr inbounds [400 x %struct.step], ptr %v38, i32 0, i32 %retval.0.i.i191, i32 2
  store i32 %retval.0.i14.i199, ptr %next.i201, align 4, !tbaa !24
  br label %atom.exit

sw.bb8.i:                                         ; preds = %entry
  %v45 = load ptr, ptr %it, align 4, !tbaa !7
  %count.i.i141 = getelementptr inbounds i8, ptr %v45, i32 6400
  %v46 = load i32, ptr %count.i.i141, align 4, !tbaa !19
  %cmp.i.i142 = icmp eq i32 %v46, 400
  br i1 %cmp.i.i142, label %if.then.i.i171, label %if.end.i.i143

if.then.i.i171:                                   ; preds = %sw.bb8.i
  %fault.i.i.i172 = getelementptr inbounds i8, ptr %v45, i32 7180
  %v47 = load ptr, ptr %fault.i.i.i172, align 4, !tbaa !12
  %tobool.not.i.i.i173 = icmp eq ptr %v47, null
  br i1 %tobool.not.i.i.i173, label %if.then.i.i.i174, label %add.exit.i149

if.then.i.i.i174:                                 ; preds = %if.then.i.i171
  store ptr @.str.8, ptr %fault.i.i.i172, align 4, !tbaa !12
  %pattern.i.i.i176 = getelementptr inbounds i8, ptr %it, i32 4
  %v48 = load ptr, ptr %pattern.i.i.i176, align 4, !tbaa !10
  %sub.ptr.lhs.cast.i.i.i177 = ptrtoint ptr %incdec.ptr.i to i32
  %sub.ptr.rhs.cast.i.i.i178 = ptrtoint ptr %v48 to i32
  %sub.ptr.sub.i.i.i179 = sub i32 %sub.ptr.lhs.cast.i.i.i177, %sub.ptr.rhs.cast.i.i.i178
  %place.i.i.i180 = getelementptr inbounds i8, ptr %v45, i32 7184
  store i32 %sub.ptr.sub.i.i.i179, ptr %place.i.i.i180, align 4, !tbaa !15
  br label %add.exit.i149

if.end.i.i143:                                    ; preds = %sw.bb8.i
  %arrayidx.i.i144 = getelementptr inbounds [400 x %struct.step], ptr %v45, i32 0, i32 %v46
  store i32 3, ptr %arrayidx.i.i144, align 4, !tbaa !20
  %value5.i.i145 = getelementptr inbounds i8, ptr %arrayidx.i.i144, i32 4
  store i32 0, ptr %value5.i.i145, align 4, !tbaa !22
  %other.i.i146 = getelementptr inbounds i8, ptr %arrayidx.i.i144, i32 12
  store i32 -1, ptr %other.i.i146, align 4, !tbaa !23
  %next.i.i147 = getelementptr inbounds i8, ptr %arrayidx.i.i144, i32 8
  store i32 -1, ptr %next.i.i147, align 4, !tbaa !24
  %inc.i.i148 = add nsw i32 %v46, 1
  store i32 %inc.i.i148, ptr %count.i.i141, align 4, !tbaa !19
  br label %add.exit.i149

add.exit.i149:                                    ; preds = %if.end.i.i143, %if.then.i.i.i174, %if.then.i.i171
  %retval.0.i.i150 = phi i32 [ %v46, %if.end.i.i143 ], [ 0, %if.then.i.i171 ], [ 0, %if.then.i.i.i174 ]
  store i32 %retval.0.i.i150, ptr %out, align 4, !tbaa !16
  %v49 = load i32, ptr %count.i.i141, align 4, !tbaa !19
  %cmp.i7.i151 = icmp eq i32 %v49, 400
  br i1 %cmp.i7.i151, label %if.then.i15.i161, label %if.end.i8.i152

if.then.i15.i161:                                 ; preds = %add.exit.i149
  %fault.i.i16.i162 = getelementptr inbounds i8, ptr %v45, i32 7180
  %v50 = load ptr, ptr %fault.i.i16.i162, align 4, !tbaa !12
  %tobool.not.i.i17.i163 = icmp eq ptr %v50, null
  br i1 %tobool.not.i.i17.i163, label %if.then.i.i18.i164, label %single.exit181

if.then.i.i18.i164:                               ; preds = %if.then.i15.i161
  store ptr @.str.8, ptr %fault.i.i16.i162, align 4, !tbaa !12
  %pattern.i.i20.i166 = getelementptr inbounds i8, ptr %it, i32 4
  %v51 = load ptr, ptr %pattern.i.i20.i166, align 4, !tbaa !10
  %sub.ptr.lhs.cast.i.i21.i167 = ptrtoint ptr %incdec.ptr.i to i32
  %sub.ptr.rhs.cast.i.i22.i168 = ptrtoint ptr %v51 to i32
  %sub.ptr.sub.i.i23.i169 = sub i32 %sub.ptr.lhs.cast.i.i21.i167, %sub.ptr.rhs.cast.i.i22.i168
  %place.i.i24.i170 = getelementptr inbounds i8, ptr %v45, i32 7184
  store i32 %sub.ptr.sub.i.i23.i169, ptr %place.i.i24.i170, align 4, !tbaa !15
  br label %single.exit181

if.end.i8.i152:                                   ; preds = %add.exit.i149
  %arrayidx.i9.i153 = getelementptr inbounds [400 x %struct.step], ptr %v45, i32 0, i32 %v49
  store i32 6, ptr %arrayidx.i9.i153, align 4, !tbaa !20
  %value5.i10.i154 = getelementptr inbounds i8, ptr %arrayidx.i9.i153, i32 4
  store i32 0, ptr %value5.i10.i154, align 4, !tbaa !22
  %other.i11.i155 = getelementptr inbounds i8, ptr %arrayidx.i9.i153, i32 12
  store i32 -1, ptr %other.i11.i155, align 4, !tbaa !23
  %next.i12.i156 = getelementptr inbounds i8, ptr %arrayidx.i9.i153, i32 8
  store i32 -1, ptr %next.i12.i156, align 4, !tbaa !24
  %inc.i13.i157 = add nsw i32 %v49, 1
  store i32 %inc.i13.i157, ptr %count.i.i141, align 4, !tbaa !19
  br label %single.exit181

single.exit181:                                   ; preds = %if.end.i8.i152, %if.then.i.i18.i164, %if.then.i15.i161
  %retval.0.i14.i158 = phi i32 [ %v49, %if.end.i8.i152 ], [ 0, %if.then.i15.i161 ], [ 0, %if.then.i.i18.i164 ]
  %last.i159 = getelementptr inbounds i8, ptr %out, i32 4
  store i32 %retval.0.i14.i158, ptr %last.i159, align 4, !tbaa !25
  %next.i160 = getelementptr inbounds [400 x %struct.step], ptr %v45, i32 0, i32 %retval.0.i.i150, i32 2
  store i32 %retval.0.i14.i158, ptr %next.i160, align 4, !tbaa !24
  br label %atom.exit

sw.bb9.i:                                         ; preds = %entry
  %v52 = load ptr, ptr %it, align 4, !tbaa !7
  %count.i.i100 = getelementptr inbounds i8, ptr %v52, i32 6400
  %v53 = load i32, ptr %count.i.i100, align 4, !tbaa !19
  %cmp.i.i101 = icmp eq i32 %v53, 400
  br i1 %cmp.i.i101, label %if.then.i.i130, label %if.end.i.i102

if.then.i.i130:                                   ; preds = %sw.bb9.i
  %fault.i.i.i131 = getelementptr inbounds i8, ptr %v52, i32 7180
  %v54 = load ptr, ptr %fault.i.i.i131, align 4, !tbaa !12
  %tobool.not.i.i.i132 = icmp eq ptr %v54, null
  br i1 %tobool.not.i.i.i132, label %if.then.i.i.i133, label %add.exit.i108

if.then.i.i.i133:                                 ; preds = %if.then.i.i130
  store ptr @.str.8, ptr %fault.i.i.i131, align 4, !tbaa !12
  %pattern.i.i.i135 = getelementptr inbounds i8, ptr %it, i32 4
  %v55 = load ptr, ptr %pattern.i.i.i135, align 4, !tbaa !10
  %sub.ptr.lhs.cast.i.i.i136 = ptrtoint ptr %incdec.ptr.i to i32
  %sub.ptr.rhs.cast.i.i.i137 = ptrtoint ptr %v55 to i32
  %sub.ptr.sub.i.i.i138 = sub i32 %sub.ptr.lhs.cast.i.i.i136, %sub.ptr.rhs.cast.i.i.i137
  %place.i.i.i139 = getelementptr inbounds i8, ptr %v52, i32 7184
  store i32 %sub.ptr.sub.i.i.i138, ptr %place.i.i.i139, align 4, !tbaa !15
  br label %add.exit.i108

if.end.i.i102:                                    ; preds = %sw.bb9.i
  %arrayidx.i.i103 = getelementptr inbounds [400 x %struct.step], ptr %v52, i32 0, i32 %v53
  store i32 4, ptr %arrayidx.i.i103, align 4, !tbaa !20
  %value5.i.i104 = getelementptr inbounds i8, ptr %arrayidx.i.i103, i32 4
  store i32 0, ptr %value5.i.i104, align 4, !tbaa !22
  %other.i.i105 = getelementptr inbounds i8, ptr %arrayidx.i.i103, i32 12
  store i32 -1, ptr %other.i.i105, align 4, !tbaa !23
  %next.i.i106 = getelementptr inbounds i8, ptr %arrayidx.i.i103, i32 8
  store i32 -1, ptr %next.i.i106, align 4, !tbaa !24
  %inc.i.i107 = add nsw i32 %v53, 1
  store i32 %inc.i.i107, ptr %count.i.i100, align 4, !tbaa !19
  br label %add.exit.i108

add.exit.i108:                                    ; preds = %if.end.i.i102, %if.then.i.i.i133, %if.then.i.i130
  %retval.0.i.i109 = phi i32 [ %v53, %if.end.i.i102 ], [ 0, %if.then.i.i130 ], [ 0, %if.then.i.i.i133 ]
  store i32 %retval.0.i.i109, ptr %out, align 4, !tbaa !16
  %v56 = load i32, ptr %count.i.i100, align 4, !tbaa !19
  %cmp.i7.i110 = icmp eq i32 %v56, 400
  br i1 %cmp.i7.i110, label %if.then.i15.i120, label %if.end.i8.i111

if.then.i15.i120:                                 ; preds = %add.exit.i108
  %fault.i.i16.i121 = getelementptr inbounds i8, ptr %v52, i32 7180
  %v57 = load ptr, ptr %fault.i.i16.i121, align 4, !tbaa !12
  %tobool.not.i.i17.i122 = icmp eq ptr %v57, null
  br i1 %tobool.not.i.i17.i122, label %if.then.i.i18.i123, label %single.exit140

if.then.i.i18.i123:                               ; preds = %if.then.i15.i120
  store ptr @.str.8, ptr %fault.i.i16.i121, align 4, !tbaa !12
  %pattern.i.i20.i125 = getelementptr inbounds i8, ptr %it, i32 4
  %v58 = load ptr, ptr %pattern.i.i20.i125, align 4, !tbaa !10
  %sub.ptr.lhs.cast.i.i21.i126 = ptrtoint ptr %incdec.ptr.i to i32
  %sub.ptr.rhs.cast.i.i22.i127 = ptrtoint ptr %v58 to i32
  %sub.ptr.sub.i.i23.i128 = sub i32 %sub.ptr.lhs.cast.i.i21.i126, %sub.ptr.rhs.cast.i.i22.i127
  %place.i.i24.i129 = getelementptr inbounds i8, ptr %v52, i32 7184
  store i32 %sub.ptr.sub.i.i23.i128, ptr %place.i.i24.i129, align 4, !tbaa !15
  br label %single.exit140

if.end.i8.i111:                                   ; preds = %add.exit.i108
  %arrayidx.i9.i112 = getelementptr inbounds [400 x %struct.step], ptr %v52, i32 0, i32 %v56
  store i32 6, ptr %arrayidx.i9.i112, align 4, !tbaa !20
  %value5.i10.i113 = getelementptr inbounds i8, ptr %arrayidx.i9.i112, i32 4
  store i32 0, ptr %value5.i10.i113, align 4, !tbaa !22
  %other.i11.i114 = getelementptr inbounds i8, ptr %arrayidx.i9.i112, i32 12
  store i32 -1, ptr %other.i11.i114, align 4, !tbaa !23
  %next.i12.i115 = getelementptr inbounds i8, ptr %arrayidx.i9.i112, i32 8
  store i32 -1, ptr %next.i12.i115, align 4, !tbaa !24
  %inc.i13.i116 = add nsw i32 %v56, 1
  store i32 %inc.i13.i116, ptr %count.i.i100, align 4, !tbaa !19
  br label %single.exit140

single.exit140:                                   ; preds = %if.end.i8.i111, %if.then.i.i18.i123, %if.then.i15.i120
  %retval.0.i14.i117 = phi i32 [ %v56, %if.end.i8.i111 ], [ 0, %if.then.i15.i120 ], [ 0, %if.then.i.i18.i123 ]
  %last.i118 = getelementptr inbounds i8, ptr %out, i32 4
  store i32 %retval.0.i14.i117, ptr %last.i118, align 4, !tbaa !25
  %next.i119 = getelementptr inbounds [400 x %struct.step], ptr %v52, i32 0, i32 %retval.0.i.i109, i32 2
  store i32 %retval.0.i14.i117, ptr %next.i119, align 4, !tbaa !24
  br label %atom.exit

sw.bb10.i:                                        ; preds = %entry, %entry, %entry
  store ptr %v0, ptr %at.i, align 4, !tbaa !11
  %v59 = load ptr, ptr %it, align 4, !tbaa !7
  %fault.i89 = getelementptr inbounds i8, ptr %v59, i32 7180
  %v60 = load ptr, ptr %fault.i89, align 4, !tbaa !12
  %tobool.not.i90 = icmp eq ptr %v60, null
  br i1 %tobool.not.i90, label %if.then.i92, label %atom.exit

if.then.i92:                                      ; preds = %sw.bb10.i
  store ptr @.str.3, ptr %fault.i89, align 4, !tbaa !12
  %pattern.i94 = getelementptr inbounds i8, ptr %it, i32 4
  %v61 = load ptr, ptr %pattern.i94, align 4, !tbaa !10
  %sub.ptr.lhs.cast.i95 = ptrtoint ptr %v0 to i32
  %sub.ptr.rhs.cast.i96 = ptrtoint ptr %v61 to i32
  %sub.ptr.sub.i97 = sub i32 %sub.ptr.lhs.cast.i95, %sub.ptr.rhs.cast.i96
  %place.i98 = getelementptr inbounds i8, ptr %v59, i32 7184
  store i32 %sub.ptr.sub.i97, ptr %place.i98, align 4, !tbaa !15
  br label %atom.exit

sw.bb13.i:                                        ; preds = %entry
  %v62 = load i8, ptr %incdec.ptr.i, align 1, !tbaa !4
  %tobool.not.i = icmp eq i8 %v62, 0
  br i1 %tobool.not.i, label %if.then15.i, label %if.end16.i

if.then15.i:                                      ; preds = %sw.bb13.i
  %v63 = load ptr, ptr %it, align 4, !tbaa !7
  %fault.i = getelementptr inbounds i8, ptr %v63, i32 7180
  %v64 = load ptr, ptr %fault.i, align 4, !tbaa !12
  %tobool.not.i85 = icmp eq ptr %v64, null
  br i1 %tobool.not.i85, label %if.then.i87, label %atom.exit

if.then.i87:                                      ; preds = %if.then15.i
  store ptr @.str.4, ptr %fault.i, align 4, !tbaa !12
  %pattern.i = getelementptr inbounds i8, ptr %it, i32 4
  %v65 = load ptr, ptr %pattern.i, align 4, !tbaa !10
  %sub.ptr.lhs.cast.i = ptrtoint ptr %incdec.ptr.i to i32
  %sub.ptr.rhs.cast.i = ptrtoint ptr %v65 to i32
  %sub.ptr.sub.i = sub i32 %sub.ptr.lhs.cast.i, %sub.ptr.rhs.cast.i
  %place.i = getelementptr inbounds i8, ptr %v63, i32 7184
  store i32 %sub.ptr.sub.i, ptr %place.i, align 4, !tbaa !15
  br label %atom.exit

if.end16.i:                                       ; preds = %sw.bb13.i
  %incdec.ptr18.i = getelementptr inbounds i8, ptr %v0, i32 2
  store ptr %incdec.ptr18.i, ptr %at.i, align 4, !tbaa !11
  %v66 = load ptr, ptr %it, align 4, !tbaa !7
  %count.i.i44 = getelementptr inbounds i8, ptr %v66, i32 6400
  %v67 = load i32, ptr %count.i.i44, align 4, !tbaa !19
  %cmp.i.i45 = icmp eq i32 %v67, 400
  br i1 %cmp.i.i45, label %if.then.i.i74, label %if.end.i.i46

if.then.i.i74:                                    ; preds = %if.end16.i
  %fault.i.i.i75 = getelementptr inbounds i8, ptr %v66, i32 7180
  %v68 = load ptr, ptr %fault.i.i.i75, align 4, !tbaa !12
  %tobool.not.i.i.i76 = icmp eq ptr %v68, null
  br i1 %tobool.not.i.i.i76, label %if.then.i.i.i77, label %add.exit.i52

if.then.i.i.i77:                                  ; preds = %if.then.i.i74
  store ptr @.str.8, ptr %fault.i.i.i75, align 4, !tbaa !12
  %pattern.i.i.i79 = getelementptr inbounds i8, ptr %it, i32 4
  %v69 = load ptr, ptr %pattern.i.i.i79, align 4, !tbaa !10
  %sub.ptr.lhs.cast.i.i.i80 = ptrtoint ptr %incdec.ptr18.i to i32
  %sub.ptr.rhs.cast.i.i.i81 = ptrtoint ptr %v69 to i32
  %sub.ptr.sub.i.i.i82 = sub i32 %sub.ptr.lhs.cast.i.i.i80, %sub.ptr.rhs.cast.i.i.i81
  %place.i.i.i83 = getelementptr inbounds i8, ptr %v66, i32 7184
  store i32 %sub.ptr.sub.i.i.i82, ptr %place.i.i.i83, align 4, !tbaa !15
  br label %add.exit.i52

if.end.i.i46:                                     ; preds = %if.end16.i
  %v70 = load i8, ptr %incdec.ptr.i, align 1, !tbaa !4
  %conv19.i = sext i8 %v70 to i32
  %arrayidx.i.i47 = getelementptr inbounds [400 x %struct.step], ptr %v66, i32 0, i32 %v67
  store i32 0, ptr %arrayidx.i.i47, align 4, !tbaa !20
  %value5.i.i48 = getelementptr inbounds i8, ptr %arrayidx.i.i47, i32 4
  store i32 %conv19.i, ptr %value5.i.i48, align 4, !tbaa !22
  %other.i.i49 = getelementptr inbounds i8, ptr %arrayidx.i.i47, i32 12
  store i32 -1, ptr %other.i.i49, align 4, !tbaa !23
  %next.i.i50 = getelementptr inbounds i8, ptr %arrayidx.i.i47, i32 8
  store i32 -1, ptr %next.i.i50, align 4, !tbaa !24
  %inc.i.i51 = add nsw i32 %v67, 1
  store i32 %inc.i.i51, ptr %count.i.i44, align 4, !tbaa !19
  br label %add.exit.i52

add.exit.i52:                                     ; preds = %if.end.i.i46, %if.then.i.i.i77, %if.then.i.i74
  %retval.0.i.i53 = phi i32 [ %v67, %if.end.i.i46 ], [ 0, %if.then.i.i74 ], [ 0, %if.then.i.i.i77 ]
  store i32 %retval.0.i.i53, ptr %out, align 4, !tbaa !16
  %v71 = load i32, ptr %count.i.i44, align 4, !tbaa !19
  %cmp.i7.i54 = icmp eq i32 %v71, 400
  br i1 %cmp.i7.i54, label %if.then.i15.i64, label %if.end.i8.i55

if.then.i15.i64:                                  ; preds = %add.exit.i52
  %fault.i.i16.i65 = getelementptr inbounds i8, ptr %v66, i32 7180
  %v72 = load ptr, ptr %fault.i.i16.i65, align 4, !tbaa !12
  %tobool.not.i.i17.i66 = icmp eq ptr %v72, null
  br i1 %tobool.not.i.i17.i66, label %if.then.i.i18.i67, label %single.exit84

if.then.i.i18.i67:                                ; preds = %if.then.i15.i64
  store ptr @.str.8, ptr %fault.i.i16.i65, align 4, !tbaa !12
  %pattern.i.i20.i69 = getelementptr inbounds i8, ptr %it, i32 4
  %v73 = load ptr, ptr %pattern.i.i20.i69, align 4, !tbaa !10
  %sub.ptr.lhs.cast.i.i21.i70 = ptrtoint ptr %incdec.ptr18.i to i32
  %sub.ptr.rhs.cast.i.i22.i71 = ptrtoint ptr %v73 to i32
  %sub.ptr.sub.i.i23.i72 = sub i32 %sub.ptr.lhs.cast.i.i21.i70, %sub.ptr.rhs.cast.i.i22.i71
  %place.i.i24.i73 = getelementptr inbounds i8, ptr %v66, i32 7184
  store i32 %sub.ptr.sub.i.i23.i72, ptr %place.i.i24.i73, align 4, !tbaa !15
  br label %single.exit84

if.end.i8.i55:                                    ; preds = %add.exit.i52
  %arrayidx.i9.i56 = getelementptr inbounds [400 x %struct.step], ptr %v66, i32 0, i32 %v71
  store i32 6, ptr %arrayidx.i9.i56, align 4, !tbaa !20
  %value5.i10.i57 = getelementptr inbounds i8, ptr %arrayidx.i9.i56, i32 4
  store i32 0, ptr %value5.i10.i57, align 4, !tbaa !22
  %other.i11.i58 = getelementptr inbounds i8, ptr %arrayidx.i9.i56, i32 12
  store i32 -1, ptr %other.i11.i58, align 4, !tbaa !23
  %next.i12.i59 = getelementptr inbounds i8, ptr %arrayidx.i9.i56, i32 8
  store i32 -1, ptr %next.i12.i59, align 4, !tbaa !24
  %inc.i13.i60 = add nsw i32 %v71, 1
  store i32 %inc.i13.i60, ptr %count.i.i44, align 4, !tbaa !19
  br label %single.exit84

single.exit84:                                    ; preds = %if.end.i8.i55, %if.then.i.i18.i67, %if.then.i15.i64
  %retval.0.i14.i61 = phi i32 [ %v71, %if.end.i8.i55 ], [ 0, %if.then.i15.i64 ], [ 0, %if.then.i.i18.i67 ]
  %last.i62 = getelementptr inbounds i8, ptr %out, i32 4
  store i32 %retval.0.i14.i61, ptr %last.i62, align 4, !tbaa !25
  %next.i63 = getelementptr inbounds [400 x %struct.step], ptr %v66, i32 0, i32 %retval.0.i.i53, i32 2
  store i32 %retval.0.i14.i61, ptr %next.i63, align 4, !tbaa !24
  br label %atom.exit

sw.default.i:                                     ; preds = %entry
  %v74 = load ptr, ptr %it, align 4, !tbaa !7
  %count.i.i = getelementptr inbounds i8, ptr %v74, i32 6400
  %v75 = load i32, ptr %count.i.i, align 4, !tbaa !19
  %cmp.i.i = icmp eq i32 %v75, 400
  br i1 %cmp.i.i, label %if.then.i.i43, label %if.end.i.i

if.then.i.i43:                                    ; preds = %sw.default.i
  %fault.i.i.i = getelementptr inbounds i8, ptr %v74, i32 7180
  %v76 = load ptr, ptr %fault.i.i.i, align 4, !tbaa !12
  %tobool.not.i.i.i = icmp eq ptr %v76, null
  br i1 %tobool.not.i.i.i, label %if.then.i.i.i, label %add.exit.i

if.then.i.i.i:                                    ; preds = %if.then.i.i43
  store ptr @.str.8, ptr %fault.i.i.i, align 4, !tbaa !12
  %pattern.i.i.i = getelementptr inbounds i8, ptr %it, i32 4
  %v77 = load ptr, ptr %pattern.i.i.i, align 4, !tbaa !10
  %sub.ptr.lhs.cast.i.i.i = ptrtoint ptr %incdec.ptr.i to i32
  %sub.ptr.rhs.cast.i.i.i = ptrtoint ptr %v77 to i32
  %sub.ptr.sub.i.i.i = sub i32 %sub.ptr.lhs.cast.i.i.i, %sub.ptr.rhs.cast.i.i.i
  %place.i.i.i = getelementptr inbounds i8, ptr %v74, i32 7184
  store i32 %sub.ptr.sub.i.i.i, ptr %place.i.i.i, align 4, !tbaa !15
  br label %add.exit.i

if.end.i.i:                                       ; preds = %sw.default.i
  %conv.i = sext i8 %v1 to i32
  %arrayidx.i.i = getelementptr inbounds [400 x %struct.step], ptr %v74, i32 0, i32 %v75
  store i32 0, ptr %arrayidx.i.i, align 4, !tbaa !20
  %value5.i.i = getelementptr inbounds i8, ptr %arrayidx.i.i, i32 4
  store i32 %conv.i, ptr %value5.i.i, align 4, !tbaa !22
  %other.i.i = getelementptr inbounds i8, ptr %arrayidx.i.i, i32 12
  store i32 -1, ptr %other.i.i, align 4, !tbaa !23
  %next.i.i = getelementptr inbounds i8, ptr %arrayidx.i.i, i32 8
  store i32 -1, ptr %next.i.i, align 4, !tbaa !24
  %inc.i.i = add nsw i32 %v75, 1
  store i32 %inc.i.i, ptr %count.i.i, align 4, !tbaa !19
  br label %add.exit.i

add.exit.i:                                       ; preds = %if.end.i.i, %if.then.i.i.i, %if.then.i.i43
  %retval.0.i.i = phi i32 [ %v75, %if.end.i.i ], [ 0, %if.then.i.i43 ], [ 0, %if.then.i.i.i ]
  store i32 %retval.0.i.i, ptr %out, align 4, !tbaa !16
  %v78 = load i32, ptr %count.i.i, align 4, !tbaa !19
  %cmp.i7.i = icmp eq i32 %v78, 400
  br i1 %cmp.i7.i, label %if.then.i15.i, label %if.end.i8.i

if.then.i15.i:                                    ; preds = %add.exit.i
  %fault.i.i16.i = getelementptr inbounds i8, ptr %v74, i32 7180
  %v79 = load ptr, ptr %fault.i.i16.i, align 4, !tbaa !12
  %tobool.not.i.i17.i = icmp eq ptr %v79, null
  br i1 %tobool.not.i.i17.i, label %if.then.i.i18.i, label %single.exit

if.then.i.i18.i:                                  ; preds = %if.then.i15.i
  store ptr @.str.8, ptr %fault.i.i16.i, align 4, !tbaa !12
  %pattern.i.i20.i = getelementptr inbounds i8, ptr %it, i32 4
  %v80 = load ptr, ptr %pattern.i.i20.i, align 4, !tbaa !10
  %sub.ptr.lhs.cast.i.i21.i = ptrtoint ptr %incdec.ptr.i to i32
  %sub.ptr.rhs.cast.i.i22.i = ptrtoint ptr %v80 to i32
  %sub.ptr.sub.i.i23.i = sub i32 %sub.ptr.lhs.cast.i.i21.i, %sub.ptr.rhs.cast.i.i22.i
  %place.i.i24.i = getelementptr inbounds i8, ptr %v74, i32 7184
  store i32 %sub.ptr.sub.i.i23.i, ptr %place.i.i24.i, align 4, !tbaa !15
  br label %single.exit

if.end.i8.i:                                      ; preds = %add.exit.i
  %arrayidx.i9.i = getelementptr inbounds [400 x %struct.step], ptr %v74, i32 0, i32 %v78
  store i32 6, ptr %arrayidx.i9.i, align 4, !tbaa !20
  %value5.i10.i = getelementptr inbounds i8, ptr %arrayidx.i9.i, i32 4
  store i32 0, ptr %value5.i10.i, align 4, !tbaa !22
  %other.i11.i = getelementptr inbounds i8, ptr %arrayidx.i9.i, i32 12
  store i32 -1, ptr %other.i11.i, align 4, !tbaa !23
  %next.i12.i = getelementptr inbounds i8, ptr %arrayidx.i9.i, i32 8
  store i32 -1, ptr %next.i12.i, align 4, !tbaa !24
  %inc.i13.i = add nsw i32 %v78, 1
  store i32 %inc.i13.i, ptr %count.i.i, align 4, !tbaa !19
  br label %single.exit

single.exit:                                      ; preds = %if.end.i8.i, %if.then.i.i18.i, %if.then.i15.i
  %retval.0.i14.i = phi i32 [ %v78, %if.end.i8.i ], [ 0, %if.then.i15.i ], [ 0, %if.then.i.i18.i ]
  %last.i = getelementptr inbounds i8, ptr %out, i32 4
  store i32 %retval.0.i14.i, ptr %last.i, align 4, !tbaa !25
  %next.i42 = getelementptr inbounds [400 x %struct.step], ptr %v74, i32 0, i32 %retval.0.i.i, i32 2
  store i32 %retval.0.i14.i, ptr %next.i42, align 4, !tbaa !24
  br label %atom.exit

atom.exit:                                        ; preds = %single.exit, %single.exit84, %if.then.i87, %if.then15.i, %if.then.i92, %sw.bb10.i, %single.exit140, %single.exit181, %single.exit222, %single.exit.i, %if.then.i43.i, %if.then55.i, %cleanup.i, %if.then.i.i236, %if.then.i233, %if.else.i, %if.then.i246, %if.then.i
  %v81 = load ptr, ptr %it, align 4, !tbaa !7
  %fault = getelementptr inbounds i8, ptr %v81, i32 7180
  %fault.promoted = load ptr, ptr %fault, align 4, !tbaa !12
  %tobool.not255 = icmp eq ptr %fault.promoted, null
  br i1 %tobool.not255, label %land.lhs.true.lr.ph, label %while.end

land.lhs.true.lr.ph:                              ; preds = %atom.exit
  %count.i = getelementptr inbounds i8, ptr %v81, i32 6400
  %pattern.i.i = getelementptr inbounds i8, ptr %it, i32 4
  %place.i.i = getelementptr inbounds i8, ptr %v81, i32 7184
  %last13 = getelementptr inbounds i8, ptr %out, i32 4
  %at.i.promoted = load ptr, ptr %at.i, align 4, !tbaa !11
  br label %land.lhs.true

land.lhs.true:                                    ; preds = %add.exit41, %land.lhs.true.lr.ph
  %incdec.ptr256 = phi ptr [ %at.i.promoted, %land.lhs.true.lr.ph ], [ %incdec.ptr, %add.exit41 ]
  %v82 = phi ptr [ %fault.promoted, %land.lhs.true.lr.ph ], [ %v90, %add.exit41 ]
  %v83 = load i8, ptr %incdec.ptr256, align 1, !tbaa !4
  %tobool1.not = icmp eq i8 %v83, 0
  br i1 %tobool1.not, label %while.end, label %land.rhs

land.rhs:                                         ; preds = %land.lhs.true
  %conv = sext i8 %v83 to i32
  %memchr = tail call ptr @memchr(ptr noundef nonnull dereferenceable(1) @.str.1, i32 %conv, i32 4)
  %tobool4.not = icmp eq ptr %memchr, null
  br i1 %tobool4.not, label %while.end, label %while.body

while.body:                                       ; preds = %land.rhs
  %incdec.ptr = getelementptr inbounds i8, ptr %incdec.ptr256, i32 1
  store ptr %incdec.ptr, ptr %at.i, align 4, !tbaa !11
  %v84 = load i8, ptr %incdec.ptr256, align 1, !tbaa !4
  %v85 = load i32, ptr %count.i, align 4, !tbaa !19
  %cmp.i = icmp eq i32 %v85, 400
  br i1 %cmp.i, label %if.then.i.i, label %if.end.i

if.then.i.i:                                      ; preds = %while.body
  store ptr @.str.8, ptr %fault, align 4, !tbaa !12
  %v86 = load ptr, ptr %pattern.i.i, align 4, !tbaa !10
  %sub.ptr.lhs.cast.i.i = ptrtoint ptr %incdec.ptr to i32
  %sub.ptr.rhs.cast.i.i = ptrtoint ptr %v86 to i32
  %sub.ptr.sub.i.i = sub i32 %sub.ptr.lhs.cast.i.i, %sub.ptr.rhs.cast.i.i
  store i32 %sub.ptr.sub.i.i, ptr %place.i.i, align 4, !tbaa !15
  br label %add.exit

if.end.i:                                         ; preds = %while.body
  %arrayidx.i = getelementptr inbounds [400 x %struct.step], ptr %v81, i32 0, i32 %v85
  store i32 5, ptr %arrayidx.i, align 4, !tbaa !20
  %value5.i = getelementptr inbounds i8, ptr %arrayidx.i, i32 4
  store i32 0, ptr %value5.i, align 4, !tbaa !22
  %other.i = getelementptr inbounds i8, ptr %arrayidx.i, i32 12
  store i32 -1, ptr %other.i, align 4, !tbaa !23
  %next.i = getelementptr inbounds i8, ptr %arrayidx.i, i32 8
  store i32 -1, ptr %next.i, align 4, !tbaa !24
  %inc.i = add nsw i32 %v85, 1
  store i32 %inc.i, ptr %count.i, align 4, !tbaa !19
  br label %add.exit

add.exit:                                         ; preds = %if.end.i, %if.then.i.i
  %v87 = phi ptr [ %v82, %if.end.i ], [ @.str.8, %if.then.i.i ]
  %retval.0.i = phi i32 [ %v85, %if.end.i ], [ 0, %if.then.i.i ]
  %v88 = load i32, ptr %count.i, align 4, !tbaa !19
  %cmp.i23 = icmp eq i32 %v88, 400
  br i1 %cmp.i23, label %if.then.i31, label %if.end.i24

if.then.i31:                                      ; preds = %add.exit
  %tobool.not.i.i33 = icmp eq ptr %v87, null
  br i1 %tobool.not.i.i33, label %if.then.i.i34, label %add.exit41

if.then.i.i34:                                    ; preds = %if.then.i31
  store ptr @.str.8, ptr %fault, align 4, !tbaa !12
  %v89 = load ptr, ptr %pattern.i.i, align 4, !tbaa !10
  %sub.ptr.lhs.cast.i.i37 = ptrtoint ptr %incdec.ptr to i32
  %sub.ptr.rhs.cast.i.i38 = ptrtoint ptr %v89 to i32
  %sub.ptr.sub.i.i39 = sub i32 %sub.ptr.lhs.cast.i.i37, %sub.ptr.rhs.cast.i.i38
  store i32 %sub.ptr.sub.i.i39, ptr %place.i.i, align 4, !tbaa !15
  br label %add.exit41

if.end.i24:                                       ; preds = %add.exit
  %arrayidx.i25 = getelementptr inbounds [400 x %struct.step], ptr %v81, i32 0, i32 %v88
  store i32 6, ptr %arrayidx.i25, align 4, !tbaa !20
  %value5.i26 = getelementptr inbounds i8, ptr %arrayidx.i25, i32 4
  store i32 0, ptr %value5.i26, align 4, !tbaa !22
  %other.i27 = getelementptr inbounds i8, ptr %arrayidx.i25, i32 12
  store i32 -1, ptr %other.i27, align 4, !tbaa !23
  %next.i28 = getelementptr inbounds i8, ptr %arrayidx.i25, i32 8
  store i32 -1, ptr %next.i28, align 4, !tbaa !24
  %inc.i29 = add nsw i32 %v88, 1
  store i32 %inc.i29, ptr %count.i, align 4, !tbaa !19
  br label %add.exit41

add.exit41:                                       ; preds = %if.end.i24, %if.then.i.i34, %if.then.i31
  %v90 = phi ptr [ %v87, %if.end.i24 ], [ %v87, %if.then.i31 ], [ @.str.8, %if.then.i.i34 ]
  %retval.0.i30 = phi i32 [ %v88, %if.end.i24 ], [ 0, %if.then.i31 ], [ 0, %if.then.i.i34 ]
  %v91 = load i32, ptr %out, align 4, !tbaa !16
  %arrayidx = getelementptr inbounds %struct.step, ptr %v81, i32 %retval.0.i
  %next = getelementptr inbounds i8, ptr %arrayidx, i32 8
  store i32 %v91, ptr %next, align 4, !tbaa !24
  %other = getelementptr inbounds i8, ptr %arrayidx, i32 12
  store i32 %retval.0.i30, ptr %other, align 4, !tbaa !23
  %cmp = icmp eq i8 %v84, 63
  %cond = select i1 %cmp, i32 %retval.0.i30, i32 %retval.0.i
  %v92 = load i32, ptr %last13, align 4, !tbaa !25
  %next15 = getelementptr inbounds %struct.step, ptr %v81, i32 %v92, i32 2
  store i32 %cond, ptr %next15, align 4, !tbaa !24
  %cmp17 = icmp eq i8 %v84, 43
  %spec.select = select i1 %cmp17, i32 %v91, i32 %retval.0.i
  store i32 %spec.select, ptr %out, align 4, !tbaa !16
  store i32 %retval.0.i30, ptr %last13, align 4, !tbaa !25
  %tobool.not = icmp eq ptr %v90, null
  br i1 %tobool.not, label %land.lhs.true, label %while.end, !llvm.loop !82

while.end:                                        ; preds = %add.exit41, %land.rhs, %land.lhs.true, %atom.exit
  ret void
}

; Function Attrs: nofree norecurse nosync nounwind optsize memory(read, inaccessiblemem: none)
define internal noundef ptr @memchr(ptr noundef readonly %at, i32 noundef signext %c, i32 noundef signext %n) local_unnamed_addr #3 {
entry:
  %cmp.not8 = icmp eq i32 %n, 0
  br i1 %cmp.not8, label %cleanup, label %for.body.lr.ph

for.body.lr.ph:                                   ; preds = %entry
  %v0 = trunc i32 %c to i8
  br label %for.body

for.body:                                         ; preds = %for.inc, %for.body.lr.ph
  %s.010 = phi ptr [ %at, %for.body.lr.ph ], [ %incdec.ptr, %for.inc ]
  %n.addr.09 = phi i32 [ %n, %for.body.lr.ph ], [ %dec, %for.inc ]
  %v1 = load i8, ptr %s.010, align 1, !tbaa !4
  %cmp3 = icmp eq i8 %v1, %v0
  br i1 %cmp3, label %cleanup, label %for.inc

for.inc:                                          ; preds = %for.body
  %dec = add i32 %n.addr.09, -1
  %incdec.ptr = getelementptr inbounds i8, ptr %s.010, i32 1
  %cmp.not = icmp eq i32 %dec, 0
  br i1 %cmp.not, label %cleanup, label %for.body, !llvm.loop !83

cleanup:                                          ; preds = %for.inc, %for.body, %entry
  %retval.0 = phi ptr [ null, %entry ], [ null, %for.inc ], [ %s.010, %for.body ]
  ret ptr %retval.0
}

; Function Attrs: nounwind optsize
define internal fastcc i32 @padded(ptr nocapture noundef %stream, ptr nocapture noundef readonly %text, i32 noundef signext %n, i32 noundef signext %flags, i32 noundef signext %width) unnamed_addr #2 {
entry:
  %cmp = icmp slt i32 %width, 0
  %shr.i = lshr i32 %width, 31
  %tobool.i = icmp ne i32 %shr.i, 0
  %sub.i = sub i32 0, %width
  %cond.i1 = select i1 %tobool.i, i32 %sub.i, i32 %width
  %sub1 = sub nsw i32 %cond.i1, %n
  %and = and i32 %flags, 1
  %tobool = icmp ne i32 %and, 0
  %v0 = or i1 %cmp, %tobool
  br i1 %v0, label %cond.end6, label %cond.false5

cond.false5:                                      ; preds = %entry
  %cmp5.i = icmp sgt i32 %sub1, 0
  br i1 %cmp5.i, label %for.body.i, label %repeated.exit

for.body.i:                                       ; preds = %for.body.i, %cond.false5
  %k.06.i = phi i32 [ %inc.i, %for.body.i ], [ 0, %cond.false5 ]
  %call.i = tail call i32 @fputc(i32 noundef signext 32, ptr noundef %stream) #11
  %inc.i = add nuw nsw i32 %k.06.i, 1
  %exitcond.not.i = icmp eq i32 %inc.i, %sub1
  br i1 %exitcond.not.i, label %repeated.exit, label %for.body.i, !llvm.loop !66

repeated.exit:                                    ; preds = %for.body.i, %cond.false5
  %cond.i = tail call noundef i32 @llvm.smax.i32(i32 %sub1, i32 0)
  br label %cond.end6

cond.end6:                                        ; preds = %repeated.exit, %entry
  %cond7 = phi i32 [ %cond.i, %repeated.exit ], [ 0, %entry ]
  %v1 = load i8, ptr %stream, align 4, !tbaa !38, !alias.scope !84, !noalias !87
  %cmp.i.i = icmp eq i8 %v1, 0
  %cmp210.not.i.i = icmp eq i32 %n, 0
  %or.cond.i = or i1 %cmp210.not.i.i, %cmp.i.i
  br i1 %or.cond.i, label %__print_text.exit, label %for.body.i.i

for.body.i.i:                                     ; preds = %for.body.i.i, %cond.end6
  %k.011.i.i = phi i32 [ %inc.i.i, %for.body.i.i ], [ 0, %cond.end6 ]
  %arrayidx.i.i = getelementptr inbounds i8, ptr %text, i32 %k.011.i.i
  %v2 = load i8, ptr %arrayidx.i.i, align 1, !tbaa !4, !alias.scope !87, !noalias !84
  %conv4.i.i = zext i8 %v2 to i32
  %call.i.i = tail call i32 @fputc(i32 noundef signext %conv4.i.i, ptr noundef nonnull %stream) #11, !noalias !87
  %inc.i.i = add nuw i32 %k.011.i.i, 1
  %exitcond.not.i.i = icmp eq i32 %inc.i.i, %n
  br i1 %exitcond.not.i.i, label %__print_text.exit, label %for.body.i.i, !llvm.loop !45

__print_text.exit:                                ; preds = %for.body.i.i, %cond.end6
  br i1 %v0, label %cond.true10, label %cond.end13

cond.true10:                                      ; preds = %__print_text.exit
  %cmp5.i25 = icmp sgt i32 %sub1, 0
  br i1 %cmp5.i25, label %for.body.i27, label %repeated.exit32

for.body.i27:                                     ; preds = %for.body.i27, %cond.true10
  %k.06.i28 = phi i32 [ %inc.i30, %for.body.i27 ], [ 0, %cond.true10 ]
  %call.i29 = tail call i32 @fputc(i32 noundef signext 32, ptr noundef nonnull %stream) #11
  %inc.i30 = add nuw nsw i32 %k.06.i28, 1
  %exitcond.not.i31 = icmp eq i32 %inc.i30, %sub1
  br i1 %exitcond.not.i31, label %repeated.exit32, label %for.body.i27, !llvm.loop !66

repeated.exit32:                                  ; preds = %for.body.i27, %cond.true10
  %cond.i26 = tail call noundef i32 @llvm.smax.i32(i32 %sub1, i32 0)
  br label %cond.end13

cond.end13:                                       ; preds = %repeated.exit32, %__print_text.exit
  %cond14 = phi i32 [ %cond.i26, %repeated.exit32 ], [ 0, %__print_text.exit ]
  %add = add nsw i32 %cond7, %n
  %add15 = add nsw i32 %add, %cond14
  ret i32 %add15
}

; Function Attrs: nofree norecurse nosync nounwind optsize memory(read, inaccessiblemem: none)
define internal fastcc i32 @span(ptr nocapture noundef readonly %at, ptr nocapture noundef readonly %set, i32 noundef signext %within) unnamed_addr #3 {
entry:
  %has = alloca [256 x i8], align 1
  call void @llvm.lifetime.start.p0(i64 256, ptr nonnull %has) #10
  br label %while.body.i

while.body.i:                                     ; preds = %while.body.i, %entry
  %d.04.i = phi ptr [ %has, %entry ], [ %incdec.ptr.i, %while.body.i ]
  %n.addr.03.i = phi i32 [ 256, %entry ], [ %dec.i, %while.body.i ]
  %dec.i = add nsw i32 %n.addr.03.i, -1
  %incdec.ptr.i = getelementptr inbounds i8, ptr %d.04.i, i32 1
  store i8 0, ptr %d.04.i, align 1, !tbaa !4
  %cmp.not.i = icmp eq i32 %dec.i, 0
  br i1 %cmp.not.i, label %while.cond.preheader, label %while.body.i, !llvm.loop !89

while.cond.preheader:                             ; preds = %while.body.i
  %v0 = load i8, ptr %set, align 1, !tbaa !4
  %tobool.not16 = icmp eq i8 %v0, 0
  br i1 %tobool.not16, label %while.cond1.preheader, label %while.body

while.cond1.preheader:                            ; preds = %while.body, %while.cond.preheader
  %v1 = load i8, ptr %at, align 1, !tbaa !4
  %tobool3.not18 = icmp eq i8 %v1, 0
  br i1 %tobool3.not18, label %while.end10, label %land.rhs

while.body:                                       ; preds = %while.body, %while.cond.preheader
  %v2 = phi i8 [ %v3, %while.body ], [ %v0, %while.cond.preheader ]
  %set.addr.017 = phi ptr [ %incdec.ptr, %while.body ], [ %set, %while.cond.preheader ]
  %incdec.ptr = getelementptr inbounds i8, ptr %set.addr.017, i32 1
  %idxprom = zext i8 %v2 to i32
  %arrayidx = getelementptr inbounds [256 x i8], ptr %has, i32 0, i32 %idxprom
  store i8 1, ptr %arrayidx, align 1, !tbaa !4
  %v3 = load i8, ptr %incdec.ptr, align 1, !tbaa !4
  %tobool.not = icmp eq i8 %v3, 0
  br i1 %tobool.not, label %while.cond1.preheader, label %while.body, !llvm.loop !90

land.rhs:                                         ; preds = %while.body9, %while.cond1.preheader
  %v4 = phi i8 [ %v6, %while.body9 ], [ %v1, %while.cond1.preheader ]
  %k.019 = phi i32 [ %inc, %while.body9 ], [ 0, %while.cond1.preheader ]
  %idxprom5 = zext i8 %v4 to i32
  %arrayidx6 = getelementptr inbounds [256 x i8], ptr %has, i32 0, i32 %idxprom5
  %v5 = load i8, ptr %arrayidx6, align 1, !tbaa !4
  %conv7 = zext i8 %v5 to i32
  %cmp = icmp eq i32 %conv7, %within
  br i1 %cmp, label %while.body9, label %while.end10

while.body9:                                      ; preds = %land.rhs
  %inc = add i32 %k.019, 1
  %arrayidx2 = getelementptr inbounds i8, ptr %at, i32 %inc
  %v6 = load i8, ptr %arrayidx2, align 1, !tbaa !4
  %tobool3.not = icmp eq i8 %v6, 0
  br i1 %tobool3.not, label %while.end10, label %land.rhs, !llvm.loop !91

while.end10:                                      ; preds = %while.body9, %land.rhs, %while.cond1.preheader
  %k.0.lcssa = phi i32 [ 0, %while.cond1.preheader ], [ %inc, %while.body9 ], [ %k.019, %land.rhs ]
  call void @llvm.lifetime.end.p0(i64 256, ptr nonnull %has) #10
  ret i32 %k.0.lcssa
}

; Function Attrs: nounwind optsize
define internal i32 @fgetc(ptr nocapture noundef %stream) local_unnamed_addr #2 {
entry:
  %v0 = load i8, ptr %stream, align 4, !tbaa !38
  %cmp.not = icmp eq i8 %v0, 0
  br i1 %cmp.not, label %if.end, label %return

if.end:                                           ; preds = %entry
  %waiting = getelementptr inbounds i8, ptr %stream, i32 2
  %v1 = load i8, ptr %waiting, align 2, !tbaa !92
  %tobool.not = icmp eq i8 %v1, 0
  br i1 %tobool.not, label %if.end5, label %if.then2

if.then2:                                         ; preds = %if.end
  store i8 0, ptr %waiting, align 2, !tbaa !92
  %pushed = getelementptr inbounds i8, ptr %stream, i32 3
  %v2 = load i8, ptr %pushed, align 1, !tbaa !93
  %conv4 = zext i8 %v2 to i32
  br label %return

if.end5:                                          ; preds = %if.end
  %ended = getelementptr inbounds i8, ptr %stream, i32 1
  %v3 = load i8, ptr %ended, align 1, !tbaa !94
  %tobool6.not = icmp eq i8 %v3, 0
  br i1 %tobool6.not, label %if.end8, label %return

if.end8:                                          ; preds = %if.end5
  %call = tail call i32 @getchar() #12
  %cmp9 = icmp eq i32 %call, -1
  br i1 %cmp9, label %if.then11, label %return

if.then11:                                        ; preds = %if.end8
  store i8 1, ptr %ended, align 1, !tbaa !94
  br label %return

return:                                           ; preds = %if.then11, %if.end8, %if.end5, %if.then2, %entry
  %retval.0 = phi i32 [ %conv4, %if.then2 ], [ -1, %entry ], [ -1, %if.end5 ], [ -1, %if.then11 ], [ %call, %if.end8 ]
  ret i32 %retval.0
}

; Function Attrs: optsize
declare dso_local i32 @getchar() local_unnamed_addr #9

attributes #0 = { nounwind "no-trapping-math"="true" "stack-protector-buffer-size"="8" "target-cpu"="mips32r2" "target-features"="+fpxx,+mips32r2,+nooddspreg,-noabicalls" }
attributes #1 = { nocallback nofree nosync nounwind willreturn memory(argmem: readwrite) }
attributes #2 = { nounwind optsize "no-builtins" "no-jump-tables"="true" "no-trapping-math"="true" "stack-protector-buffer-size"="8" "target-cpu"="mips32r2" "target-features"="+fpxx,+mips32r2,+nooddspreg,-noabicalls" }
attributes #3 = { nofree norecurse nosync nounwind optsize memory(read, inaccessiblemem: none) "no-builtins" "no-jump-tables"="true" "no-trapping-math"="true" "stack-protector-buffer-size"="8" "target-cpu"="mips32r2" "target-features"="+fpxx,+mips32r2,+nooddspreg,-noabicalls" }
attributes #4 = { nocallback nofree nounwind willreturn memory(argmem: write) }
attributes #5 = { nofree nounwind memory(readwrite, inaccessiblemem: none) "no-trapping-math"="true" "stack-protector-buffer-size"="8" "target-cpu"="mips32r2" "target-features"="+fpxx,+mips32r2,+nooddspreg,-noabicalls" }
attributes #6 = { nofree nosync nounwind memory(readwrite, inaccessiblemem: none) "no-trapping-math"="true" "stack-protector-buffer-size"="8" "target-cpu"="mips32r2" "target-features"="+fpxx,+mips32r2,+nooddspreg,-noabicalls" }
attributes #7 = { nofree norecurse nosync nounwind optsize "no-builtins" "no-jump-tables"="true" "no-trapping-math"="true" "stack-protector-buffer-size"="8" "target-cpu"="mips32r2" "target-features"="+fpxx,+mips32r2,+nooddspreg,-noabicalls" }
attributes #8 = { nocallback nofree nosync nounwind speculatable willreturn memory(none) }
attributes #9 = { optsize "no-builtins" "no-trapping-math"="true" "stack-protector-buffer-size"="8" "target-cpu"="mips32r2" "target-features"="+fpxx,+mips32r2,+nooddspreg,-noabicalls" }
attributes #10 = { nounwind }
attributes #11 = { nobuiltin optsize "no-builtins" }
attributes #12 = { nobuiltin nounwind optsize "no-builtins" }

!llvm.ident = !{!0, !0, !0, !0, !0}
!llvm.module.flags = !{!1, !2, !3}

!0 = !{!"Debian clang version 19.1.7 (3~deb12u1)"}
!1 = !{i32 7, !"Dwarf Version", i32 5}
!2 = !{i32 2, !"Debug Info Version", i32 3}
!3 = !{i32 1, !"wchar_size", i32 4}
!4 = !{!5, !5, i64 0}
!5 = !{!"omnipotent char", !6, i64 0}
!6 = !{!"Simple C/C++ TBAA"}
!7 = !{!8, !9, i64 0}
!8 = !{!"reader", !9, i64 0, !9, i64 4, !9, i64 8}
!9 = !{!"any pointer", !5, i64 0}
!10 = !{!8, !9, i64 4}
!11 = !{!8, !9, i64 8}
!12 = !{!13, !9, i64 7180}
!13 = !{!"regex", !5, i64 0, !14, i64 6400, !14, i64 6404, !5, i64 6408, !14, i64 7176, !9, i64 7180, !14, i64 7184}
!14 = !{!"int", !5, i64 0}
!15 = !{!13, !14, i64 7184}
!16 = !{!17, !14, i64 0}
!17 = !{!"part", !14, i64 0, !14, i64 4}
!18 = !{!13, !14, i64 6404}
!19 = !{!13, !14, i64 6400}
!20 = !{!21, !14, i64 0}
!21 = !{!"step", !14, i64 0, !14, i64 4, !14, i64 8, !14, i64 12}
!22 = !{!21, !14, i64 4}
!23 = !{!21, !14, i64 12}
!24 = !{!21, !14, i64 8}
!25 = !{!17, !14, i64 4}
!26 = !{!13, !14, i64 7176}
!27 = !{!28, !14, i64 2004}
!28 = !{!"states", !5, i64 0, !5, i64 1600, !14, i64 2000, !14, i64 2004}
!29 = !{!28, !14, i64 2000}
!30 = !{!14, !14, i64 0}
!31 = distinct !{!31, !32, !33}
!32 = !{!"llvm.loop.mustprogress"}
!33 = !{!"llvm.loop.unroll.disable"}
!34 = distinct !{!34, !33}
!35 = distinct !{!35, !33}
!36 = distinct !{!36, !32, !33}
!37 = distinct !{!37, !32}
!38 = !{!39, !5, i64 0}
!39 = !{!"__stream", !5, i64 0, !5, i64 1, !5, i64 2, !5, i64 3, !9, i64 4, !14, i64 8}
!40 = !{!41}
!41 = distinct !{!41, !42, !"fwrite: %stream"}
!42 = distinct !{!42, !"fwrite"}
!43 = !{!44}
!44 = distinct !{!44, !42, !"fwrite: %from"}
!45 = distinct !{!45, !32}
!46 = distinct !{!46, !32}
!47 = distinct !{!47, !32}
!48 = distinct !{!48, !32, !33}
!49 = distinct !{!49, !32, !33}
!50 = distinct !{!50, !32, !33}
!51 = distinct !{!51, !32}
!52 = distinct !{!52, !32}
!53 = distinct !{!53, !32, !33}
!54 = !{!55}
!55 = distinct !{!55, !56, !"memcpy: %from"}
!56 = distinct !{!56, !"memcpy"}
!57 = !{!58}
!58 = distinct !{!58, !56, !"memcpy: %to"}
!59 = distinct !{!59, !32}
!60 = !{!61}
!61 = distinct !{!61, !62, !"stpcpy: %from"}
!62 = distinct !{!62, !"stpcpy"}
!63 = !{!64}
!64 = distinct !{!64, !62, !"stpcpy: %to"}
!65 = distinct !{!65, !32}
!66 = distinct !{!66, !32}
!67 = !{!68}
!68 = distinct !{!68, !69, !"fwrite: %stream"}
!69 = distinct !{!69, !"fwrite"}
!70 = !{!71}
!71 = distinct !{!71, !69, !"fwrite: %from"}
!72 = !{!73}
!73 = distinct !{!73, !74, !"fwrite: %stream"}
!74 = distinct !{!74, !"fwrite"}
!75 = !{!76}
!76 = distinct !{!76, !74, !"fwrite: %from"}
!77 = !{!39, !14, i64 8}
!78 = !{!39, !9, i64 4}
!79 = distinct !{!79, !32, !33}
!80 = distinct !{!80, !32, !33}
!81 = distinct !{!81, !32, !33}
!82 = distinct !{!82, !32, !33}
!83 = distinct !{!83, !32}
!84 = !{!85}
!85 = distinct !{!85, !86, !"fwrite: %stream"}
!86 = distinct !{!86, !"fwrite"}
!87 = !{!88}
!88 = distinct !{!88, !86, !"fwrite: %from"}
!89 = distinct !{!89, !32}
!90 = distinct !{!90, !32}
!91 = distinct !{!91, !32}
!92 = !{!39, !5, i64 2}
!93 = !{!39, !5, i64 3}
!94 = !{!39, !5, i64 1}
