source_filename = "compile.c"
target datalayout = "E-m:m-p:32:32-i8:8:32-i16:16:32-i64:64-n32-S64"
target triple = "mips-unknown-linux-gnu"

%struct.anon = type { ptr, i32 }
%struct.program = type { [2000 x i8], i32, [40 x [16 x i8]], i32, ptr, i32 }
%struct.__stream = type { i8, i8, i8, i8, ptr, i32 }
%struct.compiler = type { %struct.lexer, ptr, i32 }
%struct.lexer = type { ptr, i32, i32, i32, [16 x i8], i32 }
%struct.number = type { i64, i32, i32 }

@.str.1 = private unnamed_addr constant [23 x i8] c"a semicolon is missing\00", align 1
@.str.2 = private unnamed_addr constant [38 x i8] c"neither a statement nor an assignment\00", align 1
@.str.3 = private unnamed_addr constant [23 x i8] c"a statement is missing\00", align 1
@.str.4 = private unnamed_addr constant [19 x i8] c"a block is missing\00", align 1
@.str.5 = private unnamed_addr constant [22 x i8] c"a block is not closed\00", align 1
@.str.6 = private unnamed_addr constant [9 x i8] c"too deep\00", align 1
@.str.7 = private unnamed_addr constant [24 x i8] c"a bracket is not closed\00", align 1
@.str.8 = private unnamed_addr constant [25 x i8] c"an expression is missing\00", align 1
@.str.9 = private unnamed_addr constant [15 x i8] c"too many names\00", align 1
@.str.10 = private unnamed_addr constant [14 x i8] c"too much code\00", align 1
@words = internal unnamed_addr constant [4 x %struct.anon] [%struct.anon { ptr @.str.1.12, i32 4 }, %struct.anon { ptr @.str.2.13, i32 5 }, %struct.anon { ptr @.str.3.14, i32 6 }, %struct.anon { ptr @.str.21, i32 7 }], align 4
@.str.11 = private unnamed_addr constant [5 x i8] c"=<>!\00", align 1
@.str.1.12 = private unnamed_addr constant [6 x i8] c"while\00", align 1
@.str.2.13 = private unnamed_addr constant [3 x i8] c"if\00", align 1
@.str.3.14 = private unnamed_addr constant [5 x i8] c"else\00", align 1
@main.text = internal global [4000 x i8] zeroinitializer, align 4
@main.line = internal global [200 x i8] zeroinitializer, align 1
@.str.16 = private unnamed_addr constant [4 x i8] c"---\00", align 1
@.str.1.17 = private unnamed_addr constant [25 x i8] c"%d of %d programs ended\0A\00", align 1
@execute.program = internal global %struct.program zeroinitializer, align 4
@execute.variables = internal unnamed_addr global [40 x i32] zeroinitializer, align 4
@.str.2.18 = private unnamed_addr constant [13 x i8] c"line %d: %s\0A\00", align 1
@execute.said = internal unnamed_addr constant [4 x ptr] [ptr @.str.3.21, ptr @.str.4.22, ptr @.str.5.23, ptr @.str.6.24], align 4
@.str.3.21 = private unnamed_addr constant [6 x i8] c"ended\00", align 1
@.str.4.22 = private unnamed_addr constant [21 x i8] c"no room on the stack\00", align 1
@.str.5.23 = private unnamed_addr constant [16 x i8] c"divided by zero\00", align 1
@.str.6.24 = private unnamed_addr constant [9 x i8] c"too long\00", align 1
@.str.7.19 = private unnamed_addr constant [20 x i8] c"%s after %lu steps;\00", align 1
@.str.8.20 = private unnamed_addr constant [7 x i8] c" %s=%d\00", align 1
@.str.27 = private unnamed_addr constant [11 x i8] c"%4zu %-12s\00", align 1
@names = internal unnamed_addr constant [17 x ptr] [ptr @.str.6.30, ptr @.str.7.31, ptr @.str.8.32, ptr @.str.9.33, ptr @.str.10.34, ptr @.str.11.35, ptr @.str.12, ptr @.str.13, ptr @.str.14, ptr @.str.15, ptr @.str.16.36, ptr @.str.17, ptr @.str.18, ptr @.str.19, ptr @.str.20, ptr @.str.21, ptr @.str.22], align 4
@.str.1.28 = private unnamed_addr constant [4 x i8] c" %s\00", align 1
@.str.2.29 = private unnamed_addr constant [4 x i8] c" %d\00", align 1
@.str.3.39 = private unnamed_addr constant [1 x i8] zeroinitializer, align 1
@.str.5.41 = private unnamed_addr constant [2 x i8] c" \00", align 1
@.str.6.30 = private unnamed_addr constant [4 x i8] c"end\00", align 1
@.str.7.31 = private unnamed_addr constant [5 x i8] c"push\00", align 1
@.str.8.32 = private unnamed_addr constant [5 x i8] c"load\00", align 1
@.str.9.33 = private unnamed_addr constant [6 x i8] c"store\00", align 1
@.str.10.34 = private unnamed_addr constant [4 x i8] c"add\00", align 1
@.str.11.35 = private unnamed_addr constant [4 x i8] c"sub\00", align 1
@.str.12 = private unnamed_addr constant [4 x i8] c"mul\00", align 1
@.str.13 = private unnamed_addr constant [4 x i8] c"div\00", align 1
@.str.14 = private unnamed_addr constant [4 x i8] c"mod\00", align 1
@.str.15 = private unnamed_addr constant [5 x i8] c"less\00", align 1
@.str.16.36 = private unnamed_addr constant [6 x i8] c"equal\00", align 1
@.str.17 = private unnamed_addr constant [4 x i8] c"not\00", align 1
@.str.18 = private unnamed_addr constant [7 x i8] c"negate\00", align 1
@.str.19 = private unnamed_addr constant [5 x i8] c"jump\00", align 1
@.str.20 = private unnamed_addr constant [12 x i8] c"jump-if-not\00", align 1
@.str.21 = private unnamed_addr constant [6 x i8] c"print\00", align 1
@.str.22 = private unnamed_addr constant [5 x i8] c"line\00", align 1
@.str = private unnamed_addr constant [1 x i8] zeroinitializer, align 1
@.str.1.13 = private unnamed_addr constant [7 x i8] c"(null)\00", align 1
@.str.2.20 = private unnamed_addr constant [2 x i8] c"-\00", align 1
@.str.3.22 = private unnamed_addr constant [2 x i8] c"+\00", align 1
@.str.4.19 = private unnamed_addr constant [2 x i8] c" \00", align 1
@.str.5.27 = private unnamed_addr constant [3 x i8] c"0X\00", align 1
@.str.6.26 = private unnamed_addr constant [3 x i8] c"0x\00", align 1
@__streams = internal global [3 x %struct.__stream] [%struct.__stream zeroinitializer, %struct.__stream { i8 1, i8 0, i8 0, i8 0, ptr null, i32 0 }, %struct.__stream { i8 2, i8 0, i8 0, i8 0, ptr null, i32 0 }], align 4
@errno = internal local_unnamed_addr global i32 0, align 4
@.str.8.25 = private unnamed_addr constant [17 x i8] c"0123456789ABCDEF\00", align 1
@.str.9.18 = private unnamed_addr constant [17 x i8] c"0123456789abcdef\00", align 1

; Function Attrs: nounwind
define dso_local i32 @main() local_unnamed_addr #0 {
entry:
  %stack.i.i = alloca [64 x i32], align 4
  %it.i.i = alloca %struct.compiler, align 4
  %call814 = tail call ptr @fgets(ptr noundef nonnull @main.line, i32 noundef signext 200, ptr noundef nonnull @__streams)
  %tobool.not915 = icmp eq ptr %call814, null
  br i1 %tobool.not915, label %while.end, label %while.body.lr.ph.lr.ph

while.body.lr.ph.lr.ph:                           ; preds = %entry
  %line.i.i = getelementptr inbounds i8, ptr %it.i.i, i32 4
  %kind.i.i = getelementptr inbounds i8, ptr %it.i.i, i32 8
  %to1.i.i = getelementptr inbounds i8, ptr %it.i.i, i32 36
  %depth.i.i = getelementptr inbounds i8, ptr %it.i.i, i32 40
  br label %while.body.lr.ph

while.body.lr.ph:                                 ; preds = %execute.exit, %while.body.lr.ph.lr.ph
  %programs.0.ph17 = phi i32 [ 0, %while.body.lr.ph.lr.ph ], [ %inc, %execute.exit ]
  %ended.0.ph16 = phi i32 [ 0, %while.body.lr.ph.lr.ph ], [ %add, %execute.exit ]
  br label %while.body

while.body:                                       ; preds = %if.end8, %while.body.lr.ph
  %n.010 = phi i32 [ 0, %while.body.lr.ph ], [ %add11, %if.end8 ]
  %bcmp = call i32 @bcmp(ptr noundef nonnull dereferenceable(3) @main.line, ptr noundef nonnull dereferenceable(3) @.str.16, i32 3)
  %cmp = icmp eq i32 %bcmp, 0
  br i1 %cmp, label %if.then, label %if.end

if.then:                                          ; preds = %while.body
  %inc = add nuw nsw i32 %programs.0.ph17, 1
  %cmp2 = icmp eq i32 %programs.0.ph17, 0
  call void @llvm.lifetime.start.p0(i64 44, ptr nonnull %it.i.i) #11
  store ptr @main.text, ptr %it.i.i, align 4, !tbaa !4
  store i32 1, ptr %line.i.i, align 4, !tbaa !10
  call void @llvm.memset.p0.i64(ptr noundef nonnull align 4 dereferenceable(28) %kind.i.i, i8 0, i64 28, i1 false)
  store ptr @execute.program, ptr %to1.i.i, align 4, !tbaa !11
  store i32 0, ptr %depth.i.i, align 4, !tbaa !13
  call void @llvm.memset.p0.i32(ptr noundef nonnull align 4 dereferenceable(2656) @execute.program, i8 0, i32 2656, i1 false)
  call fastcc void @lexer_next(ptr noundef nonnull %it.i.i)
  %v0 = load i32, ptr %kind.i.i, align 4, !tbaa !14
  %cmp.not3.i.i = icmp eq i32 %v0, 0
  br i1 %cmp.not3.i.i, label %while.end.i.i, label %while.body.i.i

while.body.i.i:                                   ; preds = %while.body.i.i, %if.then
  call fastcc void @statement(ptr noundef nonnull %it.i.i)
  %v1 = load i32, ptr %kind.i.i, align 4, !tbaa !14
  %cmp.not.i.i = icmp eq i32 %v1, 0
  br i1 %cmp.not.i.i, label %while.end.i.i, label %while.body.i.i, !llvm.loop !15

while.end.i.i:                                    ; preds = %while.body.i.i, %if.then
  %v2 = load ptr, ptr %to1.i.i, align 4, !tbaa !11
  %length.i.i.i = getelementptr inbounds i8, ptr %v2, i32 2000
  %v3 = load i32, ptr %length.i.i.i, align 4, !tbaa !18
  %cmp.i.i.i = icmp eq i32 %v3, 2000
  br i1 %cmp.i.i.i, label %if.then.i.i.i, label %if.end.i.i.i

if.then.i.i.i:                                    ; preds = %while.end.i.i
  %fault.i.i.i.i = getelementptr inbounds i8, ptr %v2, i32 2648
  %v4 = load ptr, ptr %fault.i.i.i.i, align 4, !tbaa !20
  %tobool.not.i.i.i.i = icmp eq ptr %v4, null
  br i1 %tobool.not.i.i.i.i, label %if.then.i.i.i.i, label %fail.exit.i.i.i

if.then.i.i.i.i:                                  ; preds = %if.then.i.i.i
  store ptr @.str.10, ptr %fault.i.i.i.i, align 4, !tbaa !20
  %v5 = load i32, ptr %line.i.i, align 4, !tbaa !21
  %line4.i.i.i.i = getelementptr inbounds i8, ptr %v2, i32 2652
  store i32 %v5, ptr %line4.i.i.i.i, align 4, !tbaa !22
  br label %fail.exit.i.i.i

fail.exit.i.i.i:                                  ; preds = %if.then.i.i.i.i, %if.then.i.i.i
  store i32 0, ptr %kind.i.i, align 4, !tbaa !14
  br label %compile.exit.i

if.end.i.i.i:                                     ; preds = %while.end.i.i
  %inc.i.i.i = add i32 %v3, 1
  store i32 %inc.i.i.i, ptr %length.i.i.i, align 4, !tbaa !18
  %arrayidx.i.i.i = getelementptr inbounds [2000 x i8], ptr %v2, i32 0, i32 %v3
  store i8 0, ptr %arrayidx.i.i.i, align 1, !tbaa !23
  br label %compile.exit.i

compile.exit.i:                                   ; preds = %if.end.i.i.i, %fail.exit.i.i.i
  %v6 = load ptr, ptr getelementptr inbounds (i8, ptr @execute.program, i32 2648), align 4, !tbaa !20
  %cmp5.i.i = icmp eq ptr %v6, null
  call void @llvm.lifetime.end.p0(i64 44, ptr nonnull %it.i.i) #11
  br i1 %cmp5.i.i, label %if.end.i, label %if.then.i

if.then.i:                                        ; preds = %compile.exit.i
  %v7 = load i32, ptr getelementptr inbounds (i8, ptr @execute.program, i32 2652), align 4, !tbaa !22
  %print.1569.0.i = call i32 @__print_text(ptr nonnull getelementptr inbounds (i8, ptr @__streams, i32 12), ptr nonnull @.str.2.18, i32 5) #11
  %print.1569.1.i = sext i32 %v7 to i64
  %print.1569.2.i = call i32 @__print_signed(ptr nonnull getelementptr inbounds (i8, ptr @__streams, i32 12), i64 %print.1569.1.i, i32 0, i32 0, i32 -1) #11
  %print.1569.3.i = call i32 @__print_text(ptr nonnull getelementptr inbounds (i8, ptr @__streams, i32 12), ptr nonnull getelementptr inbounds (i8, ptr @.str.2.18, i32 7), i32 2) #11
  %print.1569.4.i = call i32 @__print_string(ptr nonnull getelementptr inbounds (i8, ptr @__streams, i32 12), ptr nonnull %v6, i32 0, i32 0, i32 -1) #11
  %print.1569.5.i = call i32 @__print_text(ptr nonnull getelementptr inbounds (i8, ptr @__streams, i32 12), ptr nonnull getelementptr inbounds (i8, ptr @.str.2.18, i32 11), i32 1) #11
  br label %execute.exit

if.end.i:                                         ; preds = %compile.exit.i
  %v8 = load i32, ptr getelementptr inbounds (i8, ptr @execute.program, i32 2000), align 4
  %cmp14.not.i.i = icmp ne i32 %v8, 0
  %or.cond.not.i = select i1 %cmp2, i1 %cmp14.not.i.i, i1 false
  br i1 %or.cond.not.i, label %for.body.i.i, label %if.end3.i

for.body.i.i:                                     ; preds = %if.end16.i.i, %if.end.i
  %at.015.i.i = phi i32 [ %add18.i.i, %if.end16.i.i ], [ 0, %if.end.i ]
  %arrayidx.i.i = getelementptr inbounds [2000 x i8], ptr @execute.program, i32 0, i32 %at.015.i.i
  %v9 = load i8, ptr %arrayidx.i.i, align 1, !tbaa !23
  switch i8 %v9, label %sw.default.i.i.i [
    i8 1, label %operand_size.exit.i.i
    i8 2, label %sw.bb1.i.i.i
    i8 3, label %sw.bb1.i.i.i
    i8 13, label %sw.bb2.i.i.i
    i8 14, label %sw.bb2.i.i.i
  ]

sw.bb1.i.i.i:                                     ; preds = %for.body.i.i, %for.body.i.i
  br label %operand_size.exit.i.i

sw.bb2.i.i.i:                                     ; preds = %for.body.i.i, %for.body.i.i
  br label %operand_size.exit.i.i

sw.default.i.i.i:                                 ; preds = %for.body.i.i
  br label %operand_size.exit.i.i

operand_size.exit.i.i:                            ; preds = %sw.default.i.i.i, %sw.bb2.i.i.i, %sw.bb1.i.i.i, %for.body.i.i
  %cmp.not3.i.i.i = phi i1 [ true, %sw.default.i.i.i ], [ false, %sw.bb2.i.i.i ], [ false, %sw.bb1.i.i.i ], [ false, %for.body.i.i ]
  %retval.0.i.i.i = phi i32 [ 0, %sw.default.i.i.i ], [ 2, %sw.bb2.i.i.i ], [ 1, %sw.bb1.i.i.i ], [ 4, %for.body.i.i ]
  %add.ptr.i.i = getelementptr inbounds i8, ptr @execute.program, i32 %at.015.i.i
  br i1 %cmp.not3.i.i.i, label %operand.exit.i.i, label %for.body.i.i.i

for.body.i.i.i:                                   ; preds = %for.body.i.i.i, %operand_size.exit.i.i
  %k.05.i.i.i = phi i32 [ %dec.i.i.i, %for.body.i.i.i ], [ %retval.0.i.i.i, %operand_size.exit.i.i ]
  %n.04.i.i.i = phi i32 [ %or.i.i.i, %for.body.i.i.i ], [ 0, %operand_size.exit.i.i ]
  %dec.i.i.i = add i32 %k.05.i.i.i, -1
  %shl.i.i.i = shl i32 %n.04.i.i.i, 8
  %arrayidx.i.i5.i = getelementptr i8, ptr %add.ptr.i.i, i32 %k.05.i.i.i
  %v10 = load i8, ptr %arrayidx.i.i5.i, align 1, !tbaa !23
  %conv.i.i.i = zext i8 %v10 to i32
  %or.i.i.i = or disjoint i32 %shl.i.i.i, %conv.i.i.i
  %cmp.not.i.i.i = icmp eq i32 %dec.i.i.i, 0
  br i1 %cmp.not.i.i.i, label %operand.exit.i.i, label %for.body.i.i.i, !llvm.loop !24

operand.exit.i.i:                                 ; preds = %for.body.i.i.i, %operand_size.exit.i.i
  %n.0.lcssa.i.i.i = phi i32 [ 0, %operand_size.exit.i.i ], [ %or.i.i.i, %for.body.i.i.i ]
  %idxprom.i.i = zext i8 %v9 to i32
  %arrayidx4.i.i = getelementptr inbounds [17 x ptr], ptr @names, i32 0, i32 %idxprom.i.i
  %v11 = load ptr, ptr %arrayidx4.i.i, align 4, !tbaa !25
  %print.1736.0.i.i = zext i32 %at.015.i.i to i64
  %print.1736.1.i.i = call i32 @__print_unsigned(ptr nonnull getelementptr inbounds (i8, ptr @__streams, i32 12), i64 %print.1736.0.i.i, i32 10, i32 0, i32 4, i32 -1) #11
  %print.1736.2.i.i = call i32 @__print_text(ptr nonnull getelementptr inbounds (i8, ptr @__streams, i32 12), ptr nonnull getelementptr inbounds (i8, ptr @.str.27, i32 4), i32 1) #11
  %print.1736.3.i.i = call i32 @__print_string(ptr nonnull getelementptr inbounds (i8, ptr @__streams, i32 12), ptr %v11, i32 1, i32 12, i32 -1) #11
  %v12 = and i8 %v9, -2
  %or.cond.i.i = icmp eq i8 %v12, 2
  br i1 %or.cond.i.i, label %if.then.i.i, label %if.else.i.i

if.then.i.i:                                      ; preds = %operand.exit.i.i
  %arrayidx11.i.i = getelementptr inbounds [40 x [16 x i8]], ptr getelementptr inbounds (i8, ptr @execute.program, i32 2004), i32 0, i32 %n.0.lcssa.i.i.i
  %print.1754.0.i.i = call i32 @__print_text(ptr nonnull getelementptr inbounds (i8, ptr @__streams, i32 12), ptr nonnull @.str.1.28, i32 1) #11
  %print.1754.1.i.i = call i32 @__print_string(ptr nonnull getelementptr inbounds (i8, ptr @__streams, i32 12), ptr nonnull %arrayidx11.i.i, i32 0, i32 0, i32 -1) #11
  br label %if.end16.i.i

if.else.i.i:                                      ; preds = %operand.exit.i.i
  br i1 %cmp.not3.i.i.i, label %if.end16.i.i, label %if.then14.i.i

if.then14.i.i:                                    ; preds = %if.else.i.i
  %print.1764.0.i.i = call i32 @__print_text(ptr nonnull getelementptr inbounds (i8, ptr @__streams, i32 12), ptr nonnull @.str.2.29, i32 1) #11
  %print.1764.1.i.i = sext i32 %n.0.lcssa.i.i.i to i64
  %print.1764.2.i.i = call i32 @__print_signed(ptr nonnull getelementptr inbounds (i8, ptr @__streams, i32 12), i64 %print.1764.1.i.i, i32 0, i32 0, i32 -1) #11
  br label %if.end16.i.i

if.end16.i.i:                                     ; preds = %if.then14.i.i, %if.else.i.i, %if.then.i.i
  %call17.i.i = call i32 @putchar(i32 noundef signext 10)
  %add.i.i = add i32 %at.015.i.i, 1
  %add18.i.i = add i32 %add.i.i, %retval.0.i.i.i
  %v13 = load i32, ptr getelementptr inbounds (i8, ptr @execute.program, i32 2000), align 4, !tbaa !18
  %cmp.i.i = icmp ult i32 %add18.i.i, %v13
  br i1 %cmp.i.i, label %for.body.i.i, label %if.end3.i, !llvm.loop !26

if.end3.i:                                        ; preds = %if.end16.i.i, %if.end.i
  call void @llvm.memset.p0.i32(ptr noundef nonnull align 4 dereferenceable(160) @execute.variables, i8 0, i32 160, i1 false)
  call void @llvm.lifetime.start.p0(i64 256, ptr nonnull %stack.i.i) #11
  br label %for.cond.i.i

for.cond.i.i:                                     ; preds = %cleanup.i.i, %if.end3.i
  %steps.0.i = phi i32 [ 0, %if.end3.i ], [ %inc107.i.i, %cleanup.i.i ]
  %at.0.i.i = phi i32 [ 0, %if.end3.i ], [ %at.2.i.i, %cleanup.i.i ]
  %between.0.i.i = phi ptr [ @.str.3.39, %if.end3.i ], [ %between.2.i.i, %cleanup.i.i ]
  %top.0.i.i = phi i32 [ 0, %if.end3.i ], [ %top.2.i.i, %cleanup.i.i ]
  %retval.0.i.i = phi i32 [ undef, %if.end3.i ], [ %retval.1.i.i, %cleanup.i.i ]
  %arrayidx.i6.i = getelementptr inbounds [2000 x i8], ptr @execute.program, i32 0, i32 %at.0.i.i
  %v14 = load i8, ptr %arrayidx.i6.i, align 1, !tbaa !23
  switch i8 %v14, label %sw.default.i.i26.i [
    i8 1, label %operand_size.exit.i8.i
    i8 2, label %sw.bb1.i.i25.i
    i8 3, label %sw.bb1.i.i25.i
    i8 13, label %sw.bb2.i.i7.i
    i8 14, label %sw.bb2.i.i7.i
  ]

sw.bb1.i.i25.i:                                   ; preds = %for.cond.i.i, %for.cond.i.i
  br label %operand_size.exit.i8.i

sw.bb2.i.i7.i:                                    ; preds = %for.cond.i.i, %for.cond.i.i
  br label %operand_size.exit.i8.i

sw.default.i.i26.i:                               ; preds = %for.cond.i.i
  br label %operand_size.exit.i8.i

operand_size.exit.i8.i:                           ; preds = %sw.default.i.i26.i, %sw.bb2.i.i7.i, %sw.bb1.i.i25.i, %for.cond.i.i
  %cmp.not3.i.i9.i = phi i1 [ true, %sw.default.i.i26.i ], [ false, %sw.bb2.i.i7.i ], [ false, %sw.bb1.i.i25.i ], [ false, %for.cond.i.i ]
  %retval.0.i.i10.i = phi i32 [ 0, %sw.default.i.i26.i ], [ 2, %sw.bb2.i.i7.i ], [ 1, %sw.bb1.i.i25.i ], [ 4, %for.cond.i.i ]
  %add.ptr.i11.i = getelementptr inbounds i8, ptr @execute.program, i32 %at.0.i.i
  br i1 %cmp.not3.i.i9.i, label %operand.exit.i21.i, label %for.body.i.i12.i

for.body.i.i12.i:                                 ; preds = %for.body.i.i12.i, %operand_size.exit.i8.i
  %k.05.i.i13.i = phi i32 [ %dec.i.i15.i, %for.body.i.i12.i ], [ %retval.0.i.i10.i, %operand_size.exit.i8.i ]
  %n.04.i.i14.i = phi i32 [ %or.i.i19.i, %for.body.i.i12.i ], [ 0, %operand_size.exit.i8.i ]
  %dec.i.i15.i = add i32 %k.05.i.i13.i, -1
  %shl.i.i16.i = shl i32 %n.04.i.i14.i, 8
  %arrayidx.i.i17.i = getelementptr i8, ptr %add.ptr.i11.i, i32 %k.05.i.i13.i
  %v15 = load i8, ptr %arrayidx.i.i17.i, align 1, !tbaa !23
  %conv.i.i18.i = zext i8 %v15 to i32
  %or.i.i19.i = or disjoint i32 %shl.i.i16.i, %conv.i.i18.i
  %cmp.not.i.i20.i = icmp eq i32 %dec.i.i15.i, 0
  br i1 %cmp.not.i.i20.i, label %operand.exit.i21.i, label %for.body.i.i12.i, !llvm.loop !27

operand.exit.i21.i:                               ; preds = %for.body.i.i12.i, %operand_size.exit.i8.i
  %n.0.lcssa.i.i22.i = phi i32 [ 0, %operand_size.exit.i8.i ], [ %or.i.i19.i, %for.body.i.i12.i ]
  %add.i23.i = add i32 %at.0.i.i, 1
  %add4.i.i = add i32 %add.i23.i, %retval.0.i.i10.i
  %cmp.i24.i = icmp eq i32 %steps.0.i, 60000
  br i1 %cmp.i24.i, label %cleanup.i.i, label %if.end.i.i

if.end.i.i:                                       ; preds = %operand.exit.i21.i
  %add5.i.i = add nsw i32 %top.0.i.i, 1
  %cmp6.i.i = icmp sgt i32 %top.0.i.i, 62
  br i1 %cmp6.i.i, label %cleanup.i.i, label %if.end8.i.i

if.end8.i.i:                                      ; preds = %if.end.i.i
  switch i8 %v14, label %sw.epilog.i.i [
    i8 0, label %cleanup.i.i
    i8 17, label %cleanup.i.i
    i8 1, label %sw.bb9.i.i
    i8 2, label %sw.bb11.i.i
    i8 3, label %sw.bb15.i.i
    i8 4, label %sw.bb18.i.i
    i8 5, label %sw.bb25.i.i
    i8 6, label %sw.bb33.i.i
    i8 7, label %sw.bb40.i.i
    i8 8, label %sw.bb40.i.i
    i8 9, label %sw.bb63.i.i
    i8 10, label %sw.bb72.i.i
    i8 11, label %sw.bb81.i.i
    i8 12, label %sw.bb86.i.i
    i8 13, label %sw.bb92.i.i
    i8 14, label %sw.bb93.i.i
    i8 15, label %sw.bb99.i.i
    i8 16, label %sw.bb103.i.i
  ]

sw.bb9.i.i:                                       ; preds = %if.end8.i.i
  %arrayidx10.i.i = getelementptr inbounds [64 x i32], ptr %stack.i.i, i32 0, i32 %top.0.i.i
  store i32 %n.0.lcssa.i.i22.i, ptr %arrayidx10.i.i, align 4, !tbaa !28
  br label %cleanup.i.i

sw.bb11.i.i:                                      ; preds = %if.end8.i.i
  %arrayidx12.i.i = getelementptr inbounds i32, ptr @execute.variables, i32 %n.0.lcssa.i.i22.i
  %v16 = load i32, ptr %arrayidx12.i.i, align 4, !tbaa !28
  %arrayidx14.i.i = getelementptr inbounds [64 x i32], ptr %stack.i.i, i32 0, i32 %top.0.i.i
  store i32 %v16, ptr %arrayidx14.i.i, align 4, !tbaa !28
  br label %cleanup.i.i

sw.bb15.i.i:                                      ; preds = %if.end8.i.i
  %dec.i.i = add nsw i32 %top.0.i.i, -1
  %arrayidx16.i.i = getelementptr inbounds [64 x i32], ptr %stack.i.i, i32 0, i32 %dec.i.i
  %v17 = load i32, ptr %arrayidx16.i.i, align 4, !tbaa !28
  %arrayidx17.i.i = getelementptr inbounds i32, ptr @execute.variables, i32 %n.0.lcssa.i.i22.i
  store i32 %v17, ptr %arrayidx17.i.i, align 4, !tbaa !28
  br label %cleanup.i.i

sw.bb18.i.i:                                      ; preds = %if.end8.i.i
  %dec19.i.i = add nsw i32 %top.0.i.i, -1
  %sub.i.i = add nsw i32 %top.0.i.i, -2
  %arrayidx20.i.i = getelementptr inbounds [64 x i32], ptr %stack.i.i, i32 0, i32 %sub.i.i
  %v18 = load i32, ptr %arrayidx20.i.i, align 4, !tbaa !28
  %arrayidx21.i.i = getelementptr inbounds [64 x i32], ptr %stack.i.i, i32 0, i32 %dec19.i.i
  %v19 = load i32, ptr %arrayidx21.i.i, align 4, !tbaa !28
  %add22.i.i = add i32 %v19, %v18
  store i32 %add22.i.i, ptr %arrayidx20.i.i, align 4, !tbaa !28
  br label %cleanup.i.i

sw.bb25.i.i:                                      ; preds = %if.end8.i.i
  %dec26.i.i = add nsw i32 %top.0.i.i, -1
  %sub27.i.i = add nsw i32 %top.0.i.i, -2
  %arrayidx28.i.i = getelementptr inbounds [64 x i32], ptr %stack.i.i, i32 0, i32 %sub27.i.i
  %v20 = load i32, ptr %arrayidx28.i.i, align 4, !tbaa !28
  %arrayidx29.i.i = getelementptr inbounds [64 x i32], ptr %stack.i.i, i32 0, i32 %dec26.i.i
  %v21 = load i32, ptr %arrayidx29.i.i, align 4, !tbaa !28
  %sub30.i.i = sub i32 %v20, %v21
  store i32 %sub30.i.i, ptr %arrayidx28.i.i, align 4, !tbaa !28
  br label %cleanup.i.i

sw.bb33.i.i:                                      ; preds = %if.end8.i.i
  %dec34.i.i = add nsw i32 %top.0.i.i, -1
  %sub35.i.i = add nsw i32 %top.0.i.i, -2
  %arrayidx36.i.i = getelementptr inbounds [64 x i32], ptr %stack.i.i, i32 0, i32 %sub35.i.i
  %v22 = load i32, ptr %arrayidx36.i.i, align 4, !tbaa !28
  %arrayidx37.i.i = getelementptr inbounds [64 x i32], ptr %stack.i.i, i32 0, i32 %dec34.i.i
  %v23 = load i32, ptr %arrayidx37.i.i, align 4, !tbaa !28
  %mul.i.i = mul i32 %v23, %v22
  store i32 %mul.i.i, ptr %arrayidx36.i.i, align 4, !tbaa !28
  br label %cleanup.i.i

sw.bb40.i.i:                                      ; preds = %if.end8.i.i, %if.end8.i.i
  %dec41.i.i = add nsw i32 %top.0.i.i, -1
  %arrayidx42.i.i = getelementptr inbounds [64 x i32], ptr %stack.i.i, i32 0, i32 %dec41.i.i
  %v24 = load i32, ptr %arrayidx42.i.i, align 4, !tbaa !28
  %cmp43.i.i = icmp eq i32 %v24, 0
  br i1 %cmp43.i.i, label %cleanup.i.i, label %if.end46.i.i

if.end46.i.i:                                     ; preds = %sw.bb40.i.i
  %cmp48.i.i = icmp eq i8 %v14, 7
  %sub50.i.i = add nsw i32 %top.0.i.i, -2
  %arrayidx51.i.i = getelementptr inbounds [64 x i32], ptr %stack.i.i, i32 0, i32 %sub50.i.i
  %v25 = load i32, ptr %arrayidx51.i.i, align 4, !tbaa !28
  %conv52.i.i = sext i32 %v25 to i64
  %conv54.i.i = sext i32 %v24 to i64
  br i1 %cmp48.i.i, label %cond.true.i.i, label %cond.false.i.i

cond.true.i.i:                                    ; preds = %if.end46.i.i
  %div.i.i = sdiv i64 %conv52.i.i, %conv54.i.i
  %extract.t30 = trunc i64 %div.i.i to i32
  br label %cond.end.i.i

cond.false.i.i:                                   ; preds = %if.end46.i.i
  %rem.i.i = srem i64 %conv52.i.i, %conv54.i.i
  %extract.t = trunc nsw i64 %rem.i.i to i32
  br label %cond.end.i.i

cond.end.i.i:                                     ; preds = %cond.false.i.i, %cond.true.i.i
  %rem.i.i.sink.off0 = phi i32 [ %extract.t, %cond.false.i.i ], [ %extract.t30, %cond.true.i.i ]
  store i32 %rem.i.i.sink.off0, ptr %arrayidx51.i.i, align 4, !tbaa !28
  br label %cleanup.i.i

sw.bb63.i.i:                                      ; preds = %if.end8.i.i
  %dec64.i.i = add nsw i32 %top.0.i.i, -1
  %sub65.i.i = add nsw i32 %top.0.i.i, -2
  %arrayidx66.i.i = getelementptr inbounds [64 x i32], ptr %stack.i.i, i32 0, i32 %sub65.i.i
  %v26 = load i32, ptr %arrayidx66.i.i, align 4, !tbaa !28
  %arrayidx67.i.i = getelementptr inbounds [64 x i32], ptr %stack.i.i, i32 0, i32 %dec64.i.i
  %v27 = load i32, ptr %arrayidx67.i.i, align 4, !tbaa !28
  %cmp68.i.i = icmp slt i32 %v26, %v27
  %conv69.i.i = zext i1 %cmp68.i.i to i32
  store i32 %conv69.i.i, ptr %arrayidx66.i.i, align 4, !tbaa !28
  br label %cleanup.i.i

sw.bb72.i.i:                                      ; preds = %if.end8.i.i
  %dec73.i.i = add nsw i32 %top.0.i.i, -1
  %sub74.i.i = add nsw i32 %top.0.i.i, -2
  %arrayidx75.i.i = getelementptr inbounds [64 x i32], ptr %stack.i.i, i32 0, i32 %sub74.i.i
  %v28 = load i32, ptr %arrayidx75.i.i, align 4, !tbaa !28
  %arrayidx76.i.i = getelementptr inbounds [64 x i32], ptr %stack.i.i, i32 0, i32 %dec73.i.i
  %v29 = load i32, ptr %arrayidx76.i.i, align 4, !tbaa !28
  %cmp77.i.i = icmp eq i32 %v28, %v29
  %conv78.i.i = zext i1 %cmp77.i.i to i32
  store i32 %conv78.i.i, ptr %arrayidx75.i.i, align 4, !tbaa !28
  br label %cleanup.i.i

sw.bb81.i.i:                                      ; preds = %if.end8.i.i
  %sub82.i.i = add nsw i32 %top.0.i.i, -1
  %arrayidx83.i.i = getelementptr inbounds [64 x i32], ptr %stack.i.i, i32 0, i32 %sub82.i.i
  %v30 = load i32, ptr %arrayidx83.i.i, align 4, !tbaa !28
  %tobool.not.i.i = icmp eq i32 %v30, 0
  %lnot.ext.i.i = zext i1 %tobool.not.i.i to i32
  store i32 %lnot.ext.i.i, ptr %arrayidx83.i.i, align 4, !tbaa !28
  br label %cleanup.i.i

sw.bb86.i.i:                                      ; preds = %if.end8.i.i
  %sub87.i.i = add nsw i32 %top.0.i.i, -1
  %arrayidx88.i.i = getelementptr inbounds [64 x i32], ptr %stack.i.i, i32 0, i32 %sub87.i.i
  %v31 = load i32, ptr %arrayidx88.i.i, align 4, !tbaa !28
  %sub89.i.i = sub i32 0, %v31
  store i32 %sub89.i.i, ptr %arrayidx88.i.i, align 4, !tbaa !28
  br label %cleanup.i.i

sw.bb92.i.i:                                      ; preds = %if.end8.i.i
  br label %cleanup.i.i

sw.bb93.i.i:                                      ; preds = %if.end8.i.i
  %dec94.i.i = add nsw i32 %top.0.i.i, -1
  %arrayidx95.i.i = getelementptr inbounds [64 x i32], ptr %stack.i.i, i32 0, i32 %dec94.i.i
  %v32 = load i32, ptr %arrayidx95.i.i, align 4, !tbaa !28
  %tobool96.not.i.i = icmp eq i32 %v32, 0
  %spec.select.i.i = select i1 %tobool96.not.i.i, i32 %n.0.lcssa.i.i22.i, i32 %add4.i.i
  br label %cleanup.i.i

sw.bb99.i.i:                                      ; preds = %if.end8.i.i
  %dec100.i.i = add nsw i32 %top.0.i.i, -1
  %arrayidx101.i.i = getelementptr inbounds [64 x i32], ptr %stack.i.i, i32 0, i32 %dec100.i.i
  %v33 = load i32, ptr %arrayidx101.i.i, align 4, !tbaa !28
  %print.2174.0.i.i = call i32 @__print_string(ptr nonnull getelementptr inbounds (i8, ptr @__streams, i32 12), ptr %between.0.i.i, i32 0, i32 0, i32 -1) #11
  %print.2174.1.i.i = sext i32 %v33 to i64
  %print.2174.2.i.i = call i32 @__print_signed(ptr nonnull getelementptr inbounds (i8, ptr @__streams, i32 12), i64 %print.2174.1.i.i, i32 0, i32 0, i32 -1) #11
  br label %cleanup.i.i

sw.bb103.i.i:                                     ; preds = %if.end8.i.i
  %call104.i.i = call i32 @putchar(i32 noundef signext 10)
  br label %cleanup.i.i

sw.epilog.i.i:                                    ; preds = %if.end8.i.i
  br label %cleanup.i.i

cleanup.i.i:                                      ; preds = %sw.epilog.i.i, %sw.bb103.i.i, %sw.bb99.i.i, %sw.bb93.i.i, %sw.bb92.i.i, %sw.bb86.i.i, %sw.bb81.i.i, %sw.bb72.i.i, %sw.bb63.i.i, %cond.end.i.i, %sw.bb40.i.i, %sw.bb33.i.i, %sw.bb25.i.i, %sw.bb18.i.i, %sw.bb15.i.i, %sw.bb11.i.i, %sw.bb9.i.i, %if.end8.i.i, %if.end8.i.i, %if.end.i.i, %operand.exit.i21.i
  %at.2.i.i = phi i32 [ %add4.i.i, %operand.exit.i21.i ], [ %add4.i.i, %if.end.i.i ], [ %add4.i.i, %if.end8.i.i ], [ %add4.i.i, %if.end8.i.i ], [ %add4.i.i, %sw.bb40.i.i ], [ %add4.i.i, %sw.bb103.i.i ], [ %add4.i.i, %sw.bb99.i.i ], [ %n.0.lcssa.i.i22.i, %sw.bb92.i.i ], [ %add4.i.i, %sw.bb86.i.i ], [ %add4.i.i, %sw.bb81.i.i ], [ %add4.i.i, %sw.bb72.i.i ], [ %add4.i.i, %sw.bb63.i.i ], [ %add4.i.i, %cond.end.i.i ], [ %add4.i.i, %sw.bb33.i.i ], [ %add4.i.i, %sw.bb25.i.i ], [ %add4.i.i, %sw.bb18.i.i ], [ %add4.i.i, %sw.bb15.i.i ], [ %add4.i.i, %sw.bb11.i.i ], [ %add4.i.i, %sw.bb9.i.i ], [ %spec.select.i.i, %sw.bb93.i.i ], [ %add4.i.i, %sw.epilog.i.i ]
  %between.2.i.i = phi ptr [ %between.0.i.i, %operand.exit.i21.i ], [ %between.0.i.i, %if.end.i.i ], [ %between.0.i.i, %if.end8.i.i ], [ %between.0.i.i, %if.end8.i.i ], [ %between.0.i.i, %sw.bb40.i.i ], [ @.str.3.39, %sw.bb103.i.i ], [ @.str.5.41, %sw.bb99.i.i ], [ %between.0.i.i, %sw.bb92.i.i ], [ %between.0.i.i, %sw.bb86.i.i ], [ %between.0.i.i, %sw.bb81.i.i ], [ %between.0.i.i, %sw.bb72.i.i ], [ %between.0.i.i, %sw.bb63.i.i ], [ %between.0.i.i, %cond.end.i.i ], [ %between.0.i.i, %sw.bb33.i.i ], [ %between.0.i.i, %sw.bb25.i.i ], [ %between.0.i.i, %sw.bb18.i.i ], [ %between.0.i.i, %sw.bb15.i.i ], [ %between.0.i.i, %sw.bb11.i.i ], [ %between.0.i.i, %sw.bb9.i.i ], [ %between.0.i.i, %sw.bb93.i.i ], [ %between.0.i.i, %sw.epilog.i.i ]
  %top.2.i.i = phi i32 [ %top.0.i.i, %operand.exit.i21.i ], [ %top.0.i.i, %if.end.i.i ], [ %top.0.i.i, %if.end8.i.i ], [ %top.0.i.i, %if.end8.i.i ], [ %dec41.i.i, %sw.bb40.i.i ], [ %top.0.i.i, %sw.bb103.i.i ], [ %dec100.i.i, %sw.bb99.i.i ], [ %top.0.i.i, %sw.bb92.i.i ], [ %top.0.i.i, %sw.bb86.i.i ], [ %top.0.i.i, %sw.bb81.i.i ], [ %dec73.i.i, %sw.bb72.i.i ], [ %dec64.i.i, %sw.bb63.i.i ], [ %dec41.i.i, %cond.end.i.i ], [ %dec34.i.i, %sw.bb33.i.i ], [ %dec26.i.i, %sw.bb25.i.i ], [ %dec19.i.i, %sw.bb18.i.i ], [ %dec.i.i, %sw.bb15.i.i ], [ %add5.i.i, %sw.bb11.i.i ], [ %add5.i.i, %sw.bb9.i.i ], [ %dec94.i.i, %sw.bb93.i.i ], [ %top.0.i.i, %sw.epilog.i.i ]
  %retval.1.i.i = phi i32 [ 3, %operand.exit.i21.i ], [ 1, %if.end.i.i ], [ 0, %if.end8.i.i ], [ 0, %if.end8.i.i ], [ 2, %sw.bb40.i.i ], [ %retval.0.i.i, %sw.bb103.i.i ], [ %retval.0.i.i, %sw.bb99.i.i ], [ %retval.0.i.i, %sw.bb92.i.i ], [ %retval.0.i.i, %sw.bb86.i.i ], [ %retval.0.i.i, %sw.bb81.i.i ], [ %retval.0.i.i, %sw.bb72.i.i ], [ %retval.0.i.i, %sw.bb63.i.i ], [ %retval.0.i.i, %cond.end.i.i ], [ %retval.0.i.i, %sw.bb33.i.i ], [ %retval.0.i.i, %sw.bb25.i.i ], [ %retval.0.i.i, %sw.bb18.i.i ], [ %retval.0.i.i, %sw.bb15.i.i ], [ %retval.0.i.i, %sw.bb11.i.i ], [ %retval.0.i.i, %sw.bb9.i.i ], [ %retval.0.i.i, %sw.bb93.i.i ], [ %retval.0.i.i, %sw.epilog.i.i ]
  %cond1.i.i = phi i1 [ false, %operand.exit.i21.i ], [ false, %if.end.i.i ], [ false, %if.end8.i.i ], [ false, %if.end8.i.i ], [ false, %sw.bb40.i.i ], [ true, %sw.bb103.i.i ], [ true, %sw.bb99.i.i ], [ true, %sw.bb92.i.i ], [ true, %sw.bb86.i.i ], [ true, %sw.bb81.i.i ], [ true, %sw.bb72.i.i ], [ true, %sw.bb63.i.i ], [ true, %cond.end.i.i ], [ true, %sw.bb33.i.i ], [ true, %sw.bb25.i.i ], [ true, %sw.bb18.i.i ], [ true, %sw.bb15.i.i ], [ true, %sw.bb11.i.i ], [ true, %sw.bb9.i.i ], [ true, %sw.bb93.i.i ], [ true, %sw.epilog.i.i ]
  %inc107.i.i = add i32 %steps.0.i, 1
  br i1 %cond1.i.i, label %for.cond.i.i, label %run.exit.i, !llvm.loop !29

run.exit.i:                                       ; preds = %cleanup.i.i
  call void @llvm.lifetime.end.p0(i64 256, ptr nonnull %stack.i.i) #11
  %arrayidx.i = getelementptr inbounds [4 x ptr], ptr @execute.said, i32 0, i32 %retval.1.i.i
  %v34 = load ptr, ptr %arrayidx.i, align 4, !tbaa !25
  %print.1592.0.i = call i32 @__print_string(ptr nonnull getelementptr inbounds (i8, ptr @__streams, i32 12), ptr %v34, i32 0, i32 0, i32 -1) #11
  %print.1592.1.i = call i32 @__print_text(ptr nonnull getelementptr inbounds (i8, ptr @__streams, i32 12), ptr nonnull getelementptr inbounds (i8, ptr @.str.7.19, i32 2), i32 7) #11
  %print.1592.2.i = zext i32 %steps.0.i to i64
  %print.1592.3.i = call i32 @__print_unsigned(ptr nonnull getelementptr inbounds (i8, ptr @__streams, i32 12), i64 %print.1592.2.i, i32 10, i32 0, i32 0, i32 -1) #11
  %print.1592.4.i = call i32 @__print_text(ptr nonnull getelementptr inbounds (i8, ptr @__streams, i32 12), ptr nonnull getelementptr inbounds (i8, ptr @.str.7.19, i32 12), i32 7) #11
  %v35 = load i32, ptr getelementptr inbounds (i8, ptr @execute.program, i32 2644), align 4, !tbaa !30
  %cmp29.i = icmp sgt i32 %v35, 0
  br i1 %cmp29.i, label %for.body.i, label %for.cond.cleanup.i

for.cond.cleanup.i:                               ; preds = %for.body.i, %run.exit.i
  %call9.i = call i32 @putchar(i32 noundef signext 10)
  %cmp10.i = icmp eq i32 %retval.1.i.i, 0
  %conv.i = zext i1 %cmp10.i to i32
  br label %execute.exit

for.body.i:                                       ; preds = %for.body.i, %run.exit.i
  %k.030.i = phi i32 [ %inc.i, %for.body.i ], [ 0, %run.exit.i ]
  %arrayidx6.i = getelementptr inbounds [40 x [16 x i8]], ptr getelementptr inbounds (i8, ptr @execute.program, i32 2004), i32 0, i32 %k.030.i
  %arrayidx7.i = getelementptr inbounds [40 x i32], ptr @execute.variables, i32 0, i32 %k.030.i
  %v36 = load i32, ptr %arrayidx7.i, align 4, !tbaa !28
  %print.1615.0.i = call i32 @__print_text(ptr nonnull getelementptr inbounds (i8, ptr @__streams, i32 12), ptr nonnull @.str.8.20, i32 1) #11
  %print.1615.1.i = call i32 @__print_string(ptr nonnull getelementptr inbounds (i8, ptr @__streams, i32 12), ptr nonnull %arrayidx6.i, i32 0, i32 0, i32 -1) #11
  %print.1615.2.i = call i32 @__print_text(ptr nonnull getelementptr inbounds (i8, ptr @__streams, i32 12), ptr nonnull getelementptr inbounds (i8, ptr @.str.8.20, i32 3), i32 1) #11
  %print.1615.3.i = sext i32 %v36 to i64
  %print.1615.4.i = call i32 @__print_signed(ptr nonnull getelementptr inbounds (i8, ptr @__streams, i32 12), i64 %print.1615.3.i, i32 0, i32 0, i32 -1) #11
  %inc.i = add nuw nsw i32 %k.030.i, 1
  %v37 = load i32, ptr getelementptr inbounds (i8, ptr @execute.program, i32 2644), align 4, !tbaa !30
  %cmp.i = icmp slt i32 %inc.i, %v37
  br i1 %cmp.i, label %for.body.i, label %for.cond.cleanup.i, !llvm.loop !31

execute.exit:                                     ; preds = %for.cond.cleanup.i, %if.then.i
  %retval.0.i = phi i32 [ %conv.i, %for.cond.cleanup.i ], [ 0, %if.then.i ]
  %add = add nuw nsw i32 %retval.0.i, %ended.0.ph16
  store i8 0, ptr @main.text, align 4, !tbaa !23
  %call8 = call ptr @fgets(ptr noundef nonnull @main.line, i32 noundef signext 200, ptr noundef nonnull @__streams)
  %tobool.not9 = icmp eq ptr %call8, null
  br i1 %tobool.not9, label %while.end, label %while.body.lr.ph, !llvm.loop !32

if.end:                                           ; preds = %while.body
  %call4 = call i32 @strlen(ptr noundef nonnull dereferenceable(1) @main.line) #11
  %add5 = add i32 %call4, %n.010
  %cmp6 = icmp ugt i32 %add5, 3999
  br i1 %cmp6, label %cleanup, label %if.end8

if.end8:                                          ; preds = %if.end
  %add.ptr = getelementptr inbounds i8, ptr @main.text, i32 %n.010
  %call9 = call ptr @strcpy(ptr noundef nonnull dereferenceable(1) %add.ptr, ptr noundef nonnull dereferenceable(1) @main.line) #11
  %call10 = call i32 @strlen(ptr noundef nonnull dereferenceable(1) @main.line) #11
  %add11 = add i32 %call10, %n.010
  %call = call ptr @fgets(ptr noundef nonnull @main.line, i32 noundef signext 200, ptr noundef nonnull @__streams)
  %tobool.not = icmp eq ptr %call, null
  br i1 %tobool.not, label %while.end, label %while.body, !llvm.loop !32

while.end:                                        ; preds = %if.end8, %execute.exit, %entry
  %ended.0.ph.lcssa7 = phi i32 [ 0, %entry ], [ %ended.0.ph16, %if.end8 ], [ %add, %execute.exit ]
  %programs.0.ph.lcssa6 = phi i32 [ 0, %entry ], [ %programs.0.ph17, %if.end8 ], [ %inc, %execute.exit ]
  %print.1528.0 = sext i32 %ended.0.ph.lcssa7 to i64
  %print.1528.1 = call i32 @__print_signed(ptr nonnull getelementptr inbounds (i8, ptr @__streams, i32 12), i64 %print.1528.0, i32 0, i32 0, i32 -1) #11
  %print.1528.2 = call i32 @__print_text(ptr nonnull getelementptr inbounds (i8, ptr @__streams, i32 12), ptr nonnull getelementptr inbounds (i8, ptr @.str.1.17, i32 2), i32 4) #11
  %print.1528.3 = sext i32 %programs.0.ph.lcssa6 to i64
  %print.1528.4 = call i32 @__print_signed(ptr nonnull getelementptr inbounds (i8, ptr @__streams, i32 12), i64 %print.1528.3, i32 0, i32 0, i32 -1) #11
  %print.1528.5 = call i32 @__print_text(ptr nonnull getelementptr inbounds (i8, ptr @__streams, i32 12), ptr nonnull getelementptr inbounds (i8, ptr @.str.1.17, i32 8), i32 16) #11
  br label %cleanup

cleanup:                                          ; preds = %while.end, %if.end
  %retval.0 = phi i32 [ %ended.0.ph.lcssa7, %while.end ], [ 1, %if.end ]
  ret i32 %retval.0
}

; Function Attrs: nounwind optsize
define internal noundef ptr @fgets(ptr noalias noundef writeonly %to, i32 noundef signext %n, ptr noalias nocapture noundef %stream) local_unnamed_addr #1 {
entry:
  %cmp = icmp slt i32 %n, 1
  br i1 %cmp, label %cleanup, label %while.cond.preheader

while.cond.preheader:                             ; preds = %entry
  %cmp123.not = icmp eq i32 %n, 1
  br i1 %cmp123.not, label %if.end10, label %land.rhs

land.rhs:                                         ; preds = %while.body, %while.cond.preheader
  %dec25.in = phi i32 [ %dec25, %while.body ], [ %n, %while.cond.preheader ]
  %at.024 = phi ptr [ %incdec.ptr, %while.body ], [ %to, %while.cond.preheader ]
  %call = tail call i32 @fgetc(ptr noundef %stream) #12
  %cmp3.not = icmp eq i32 %call, -1
  br i1 %cmp3.not, label %while.end, label %while.body

while.body:                                       ; preds = %land.rhs
  %dec25 = add nsw i32 %dec25.in, -1
  %conv = trunc i32 %call to i8
  %incdec.ptr = getelementptr inbounds i8, ptr %at.024, i32 1
  store i8 %conv, ptr %at.024, align 1, !tbaa !23
  %cmp1 = icmp sgt i32 %dec25.in, 2
  %cmp2 = icmp ne i32 %call, 10
  %or.cond = and i1 %cmp1, %cmp2
  br i1 %or.cond, label %land.rhs, label %if.end10, !llvm.loop !33

while.end:                                        ; preds = %land.rhs
  %cmp7 = icmp eq ptr %at.024, %to
  br i1 %cmp7, label %cleanup, label %if.end10

if.end10:                                         ; preds = %while.end, %while.body, %while.cond.preheader
  %at.021 = phi ptr [ %at.024, %while.end ], [ %to, %while.cond.preheader ], [ %incdec.ptr, %while.body ]
  store i8 0, ptr %at.021, align 1, !tbaa !23
  br label %cleanup

cleanup:                                          ; preds = %if.end10, %while.end, %entry
  %retval.0 = phi ptr [ %to, %if.end10 ], [ null, %entry ], [ null, %while.end ]
  ret ptr %retval.0
}

; Function Attrs: nofree norecurse nosync nounwind optsize memory(read, inaccessiblemem: none)
define internal range(i32 -1, 2) i32 @bcmp(ptr nocapture noundef readonly %a, ptr nocapture noundef readonly %b, i32 noundef signext %n) local_unnamed_addr #2 {
entry:
  %cmp.not16.i = icmp eq i32 %n, 0
  br i1 %cmp.not16.i, label %memcmp.exit, label %for.body.i

for.body.i:                                       ; preds = %for.inc.i, %entry
  %t.019.i = phi ptr [ %incdec.ptr8.i, %for.inc.i ], [ %b, %entry ]
  %s.018.i = phi ptr [ %incdec.ptr.i, %for.inc.i ], [ %a, %entry ]
  %n.addr.017.i = phi i32 [ %dec.i, %for.inc.i ], [ %n, %entry ]
  %v0 = load i8, ptr %s.018.i, align 1, !tbaa !23
  %v1 = load i8, ptr %t.019.i, align 1, !tbaa !23
  %cmp2.not.i = icmp eq i8 %v0, %v1
  br i1 %cmp2.not.i, label %for.inc.i, label %if.then.i

if.then.i:                                        ; preds = %for.body.i
  %cmp6.i = icmp ult i8 %v0, %v1
  %cond.i = select i1 %cmp6.i, i32 -1, i32 1
  br label %memcmp.exit

for.inc.i:                                        ; preds = %for.body.i
  %dec.i = add i32 %n.addr.017.i, -1
  %incdec.ptr.i = getelementptr inbounds i8, ptr %s.018.i, i32 1
  %incdec.ptr8.i = getelementptr inbounds i8, ptr %t.019.i, i32 1
  %cmp.not.i = icmp eq i32 %dec.i, 0
  br i1 %cmp.not.i, label %memcmp.exit, label %for.body.i, !llvm.loop !34

memcmp.exit:                                      ; preds = %for.inc.i, %if.then.i, %entry
  %retval.0.i = phi i32 [ %cond.i, %if.then.i ], [ 0, %entry ], [ 0, %for.inc.i ]
  ret i32 %retval.0.i
}

; Function Attrs: nocallback nofree nosync nounwind willreturn memory(argmem: readwrite)
declare void @llvm.lifetime.start.p0(i64 immarg, ptr nocapture) #3

; Function Attrs: nocallback nofree nounwind willreturn memory(argmem: write)
declare void @llvm.memset.p0.i64(ptr nocapture writeonly, i8, i64, i1 immarg) #4

; Function Attrs: nocallback nofree nounwind willreturn memory(argmem: write)
declare void @llvm.memset.p0.i32(ptr nocapture writeonly, i8, i32, i1 immarg) #4

; Function Attrs: nofree nounwind
define internal fastcc void @lexer_next(ptr nocapture noundef %it) unnamed_addr #5 {
entry:
  %end = alloca ptr, align 4
  %it.promoted14.i = load ptr, ptr %it, align 4, !tbaa !4
  %line.i = getelementptr inbounds i8, ptr %it, i32 4
  br label %for.cond.i

for.cond.i.loopexit:                              ; preds = %while.cond8.i, %while.cond8.i
  br label %for.cond.i

for.cond.i:                                       ; preds = %for.cond.i.loopexit, %entry
  %it.promoted1217.i = phi ptr [ %it.promoted14.i, %entry ], [ %it.promoted1215.i, %for.cond.i.loopexit ]
  %v0 = load i8, ptr %it.promoted1217.i, align 1, !tbaa !23
  %conv8.i = zext i8 %v0 to i32
  %call9.i = tail call i32 @isspace(i32 noundef signext %conv8.i) #13
  %tobool.not10.i = icmp eq i32 %call9.i, 0
  br i1 %tobool.not10.i, label %while.end.i, label %while.body.lr.ph.i

while.body.lr.ph.i:                               ; preds = %for.cond.i
  %line.promoted.i = load i32, ptr %line.i, align 4, !tbaa !10
  br label %while.body.i

while.body.i:                                     ; preds = %while.body.i, %while.body.lr.ph.i
  %v1 = phi i32 [ %line.promoted.i, %while.body.lr.ph.i ], [ %add.i, %while.body.i ]
  %incdec.ptr711.i = phi ptr [ %it.promoted1217.i, %while.body.lr.ph.i ], [ %incdec.ptr.i, %while.body.i ]
  %incdec.ptr.i = getelementptr inbounds i8, ptr %incdec.ptr711.i, i32 1
  store ptr %incdec.ptr.i, ptr %it, align 4, !tbaa !4
  %v2 = load i8, ptr %incdec.ptr711.i, align 1, !tbaa !23
  %cmp.i = icmp eq i8 %v2, 10
  %conv3.i = zext i1 %cmp.i to i32
  %add.i = add nsw i32 %v1, %conv3.i
  store i32 %add.i, ptr %line.i, align 4, !tbaa !10
  %v3 = load i8, ptr %incdec.ptr.i, align 1, !tbaa !23
  %conv.i = zext i8 %v3 to i32
  %call.i = tail call i32 @isspace(i32 noundef signext %conv.i) #13
  %tobool.not.i = icmp eq i32 %call.i, 0
  br i1 %tobool.not.i, label %while.end.i, label %while.body.i, !llvm.loop !35

while.end.i:                                      ; preds = %while.body.i, %for.cond.i
  %it.promoted1216.i = phi ptr [ %it.promoted1217.i, %for.cond.i ], [ %incdec.ptr.i, %while.body.i ]
  %.lcssa.i = phi i8 [ %v0, %for.cond.i ], [ %v3, %while.body.i ]
  %cmp6.not.i = icmp eq i8 %.lcssa.i, 35
  br i1 %cmp6.not.i, label %while.cond8.i, label %skip.exit

while.cond8.i:                                    ; preds = %while.body16.i, %while.end.i
  %it.promoted1215.i = phi ptr [ %incdec.ptr18.i, %while.body16.i ], [ %it.promoted1216.i, %while.end.i ]
  %v4 = load i8, ptr %it.promoted1215.i, align 1, !tbaa !23
  switch i8 %v4, label %while.body16.i [
    i8 0, label %for.cond.i.loopexit
    i8 10, label %for.cond.i.loopexit
  ], !llvm.loop !36

while.body16.i:                                   ; preds = %while.cond8.i
  %incdec.ptr18.i = getelementptr inbounds i8, ptr %it.promoted1215.i, i32 1
  store ptr %incdec.ptr18.i, ptr %it, align 4, !tbaa !4
  br label %while.cond8.i, !llvm.loop !37

skip.exit:                                        ; preds = %while.end.i
  %v5 = load ptr, ptr %it, align 4, !tbaa !4
  %v6 = load i8, ptr %v5, align 1, !tbaa !23
  %cmp = icmp eq i8 %v6, 0
  br i1 %cmp, label %if.then, label %if.else

if.then:                                          ; preds = %skip.exit
  %kind = getelementptr inbounds i8, ptr %it, i32 8
  store i32 0, ptr %kind, align 4, !tbaa !38
  br label %if.end64

if.else:                                          ; preds = %skip.exit
  %conv3 = zext i8 %v6 to i32
  %isdigittmp = add nsw i32 %conv3, -48
  %isdigit = icmp ult i32 %isdigittmp, 10
  br i1 %isdigit, label %if.then4, label %if.else9

if.then4:                                         ; preds = %if.else
  call void @llvm.lifetime.start.p0(i64 4, ptr nonnull %end) #11
  %kind5 = getelementptr inbounds i8, ptr %it, i32 8
  store i32 1, ptr %kind5, align 4, !tbaa !38
  %call7 = call i32 @strtoul(ptr noundef nonnull %v5, ptr noundef nonnull %end, i32 noundef signext 10)
  %number = getelementptr inbounds i8, ptr %it, i32 12
  store i32 %call7, ptr %number, align 4, !tbaa !39
  %v7 = load ptr, ptr %end, align 4, !tbaa !25
  store ptr %v7, ptr %it, align 4, !tbaa !4
  call void @llvm.lifetime.end.p0(i64 4, ptr nonnull %end) #11
  br label %if.end64

if.else9:                                         ; preds = %if.else
  %call12 = tail call i32 @isalpha(i32 noundef signext %conv3) #13
  %tobool13.not = icmp eq i32 %call12, 0
  %kind45 = getelementptr inbounds i8, ptr %it, i32 8
  br i1 %tobool13.not, label %if.else44, label %if.then14

if.then14:                                        ; preds = %if.else9
  store i32 2, ptr %kind45, align 4, !tbaa !38
  %v8 = load ptr, ptr %it, align 4, !tbaa !4
  %v9 = load i8, ptr %v8, align 1, !tbaa !23
  %conv1729 = zext i8 %v9 to i32
  %call1830 = tail call i32 @isalnum(i32 noundef signext %conv1729) #13
  %tobool19.not31 = icmp eq i32 %call1830, 0
  br i1 %tobool19.not31, label %for.end, label %for.body.lr.ph

for.body.lr.ph:                                   ; preds = %if.then14
  %name = getelementptr inbounds i8, ptr %it, i32 16
  br label %for.body

for.body:                                         ; preds = %for.inc, %for.body.lr.ph
  %v10 = phi i8 [ %v9, %for.body.lr.ph ], [ %v12, %for.inc ]
  %n.032 = phi i32 [ 0, %for.body.lr.ph ], [ %n.1, %for.inc ]
  %add = add i32 %n.032, 1
  %cmp20 = icmp ult i32 %add, 16
  br i1 %cmp20, label %if.then22, label %for.inc

if.then22:                                        ; preds = %for.body
  %arrayidx = getelementptr inbounds [16 x i8], ptr %name, i32 0, i32 %n.032
  store i8 %v10, ptr %arrayidx, align 1, !tbaa !23
  br label %for.inc

for.inc:                                          ; preds = %if.then22, %for.body
  %n.1 = phi i32 [ %add, %if.then22 ], [ %n.032, %for.body ]
  %v11 = load ptr, ptr %it, align 4, !tbaa !4
  %incdec.ptr = getelementptr inbounds i8, ptr %v11, i32 1
  store ptr %incdec.ptr, ptr %it, align 4, !tbaa !4
  %v12 = load i8, ptr %incdec.ptr, align 1, !tbaa !23
  %conv17 = zext i8 %v12 to i32
  %call18 = tail call i32 @isalnum(i32 noundef signext %conv17) #13
  %tobool19.not = icmp eq i32 %call18, 0
  br i1 %tobool19.not, label %for.end, label %for.body, !llvm.loop !40

for.end:                                          ; preds = %for.inc, %if.then14
  %n.0.lcssa = phi i32 [ 0, %if.then14 ], [ %n.1, %for.inc ]
  %name25 = getelementptr inbounds i8, ptr %it, i32 16
  %arrayidx26 = getelementptr inbounds [16 x i8], ptr %name25, i32 0, i32 %n.0.lcssa
  store i8 0, ptr %arrayidx26, align 1, !tbaa !23
  br label %for.body30

for.body30:                                       ; preds = %for.inc41, %for.end
  %k.033 = phi i32 [ 0, %for.end ], [ %inc42, %for.inc41 ]
  %arrayidx32 = getelementptr inbounds [4 x %struct.anon], ptr @words, i32 0, i32 %k.033
  %v13 = load ptr, ptr %arrayidx32, align 4, !tbaa !41
  %call33 = tail call i32 @strcmp(ptr noundef nonnull dereferenceable(1) %name25, ptr noundef nonnull dereferenceable(1) %v13) #11
  %cmp34 = icmp eq i32 %call33, 0
  br i1 %cmp34, label %if.then36, label %for.inc41

if.then36:                                        ; preds = %for.body30
  %kind38 = getelementptr inbounds i8, ptr %arrayidx32, i32 4
  %v14 = load i32, ptr %kind38, align 4, !tbaa !43
  store i32 %v14, ptr %kind45, align 4, !tbaa !38
  br label %for.inc41

for.inc41:                                        ; preds = %if.then36, %for.body30
  %inc42 = add nuw nsw i32 %k.033, 1
  %exitcond.not = icmp eq i32 %inc42, 4
  br i1 %exitcond.not, label %if.end64, label %for.body30, !llvm.loop !44

if.else44:                                        ; preds = %if.else9
  store i32 3, ptr %kind45, align 4, !tbaa !38
  %incdec.ptr47 = getelementptr inbounds i8, ptr %v5, i32 1
  store ptr %incdec.ptr47, ptr %it, align 4, !tbaa !4
  %v15 = load i8, ptr %v5, align 1, !tbaa !23
  %conv48 = zext i8 %v15 to i32
  %sign = getelementptr inbounds i8, ptr %it, i32 32
  store i32 %conv48, ptr %sign, align 4, !tbaa !45
  %v16 = load i8, ptr %incdec.ptr47, align 1, !tbaa !23
  %cmp51 = icmp eq i8 %v16, 61
  br i1 %cmp51, label %land.lhs.true, label %if.end64

land.lhs.true:                                    ; preds = %if.else44
  %memchr = tail call ptr @memchr(ptr noundef nonnull dereferenceable(1) @.str.11, i32 %conv48, i32 5)
  %tobool55.not = icmp eq ptr %memchr, null
  br i1 %tobool55.not, label %if.end64, label %if.then56

if.then56:                                        ; preds = %land.lhs.true
  %add58 = or disjoint i32 %conv48, 256
  store i32 %add58, ptr %sign, align 4, !tbaa !45
  %incdec.ptr60 = getelementptr inbounds i8, ptr %v5, i32 2
  store ptr %incdec.ptr60, ptr %it, align 4, !tbaa !4
  br label %if.end64

if.end64:                                         ; preds = %if.then56, %land.lhs.true, %if.else44, %for.inc41, %if.then4, %if.then
  ret void
}

; Function Attrs: nofree nounwind
define internal fastcc void @statement(ptr noundef %it) unnamed_addr #5 {
entry:
  %kind = getelementptr inbounds i8, ptr %it, i32 8
  %v0 = load i32, ptr %kind, align 4, !tbaa !14
  switch i32 %v0, label %sw.default [
    i32 4, label %sw.bb
    i32 5, label %sw.bb2
    i32 7, label %do.body.preheader
    i32 2, label %sw.bb6
  ]

do.body.preheader:                                ; preds = %entry
  %sign2.i = getelementptr inbounds i8, ptr %it, i32 32
  %to.i23 = getelementptr inbounds i8, ptr %it, i32 36
  %line.i.i = getelementptr inbounds i8, ptr %it, i32 4
  br label %do.body

sw.bb:                                            ; preds = %entry
  tail call fastcc void @lexer_next(ptr noundef %it)
  %to.i = getelementptr inbounds i8, ptr %it, i32 36
  %v1 = load ptr, ptr %to.i, align 4, !tbaa !11
  %length.i = getelementptr inbounds i8, ptr %v1, i32 2000
  %v2 = load i32, ptr %length.i, align 4, !tbaa !18
  tail call fastcc void @expression(ptr noundef %it)
  %v3 = load ptr, ptr %to.i, align 4, !tbaa !11
  %length.i.i153 = getelementptr inbounds i8, ptr %v3, i32 2000
  %v4 = load i32, ptr %length.i.i153, align 4, !tbaa !18
  %cmp.i.i154 = icmp eq i32 %v4, 2000
  br i1 %cmp.i.i154, label %if.then.i.i187, label %if.end.i.i155

if.then.i.i187:                                   ; preds = %sw.bb
  %fault.i.i.i188 = getelementptr inbounds i8, ptr %v3, i32 2648
  %v5 = load ptr, ptr %fault.i.i.i188, align 4, !tbaa !20
  %tobool.not.i.i.i189 = icmp eq ptr %v5, null
  br i1 %tobool.not.i.i.i189, label %if.then.i.i.i192, label %fail.exit.i.i190

if.then.i.i.i192:                                 ; preds = %if.then.i.i187
  store ptr @.str.10, ptr %fault.i.i.i188, align 4, !tbaa !20
  %line.i.i.i193 = getelementptr inbounds i8, ptr %it, i32 4
  %v6 = load i32, ptr %line.i.i.i193, align 4, !tbaa !21
  %line4.i.i.i194 = getelementptr inbounds i8, ptr %v3, i32 2652
  store i32 %v6, ptr %line4.i.i.i194, align 4, !tbaa !22
  br label %fail.exit.i.i190

fail.exit.i.i190:                                 ; preds = %if.then.i.i.i192, %if.then.i.i187
  store i32 0, ptr %kind, align 4, !tbaa !14
  br label %emit.exit.i158

if.end.i.i155:                                    ; preds = %sw.bb
  %inc.i.i156 = add i32 %v4, 1
  store i32 %inc.i.i156, ptr %length.i.i153, align 4, !tbaa !18
  %arrayidx.i.i157 = getelementptr inbounds [2000 x i8], ptr %v3, i32 0, i32 %v4
  store i8 14, ptr %arrayidx.i.i157, align 1, !tbaa !23
  br label %emit.exit.i158

emit.exit.i158:                                   ; preds = %if.end.i.i155, %fail.exit.i.i190
  %v7 = load ptr, ptr %to.i, align 4, !tbaa !11
  %length.i5.i159 = getelementptr inbounds i8, ptr %v7, i32 2000
  %v8 = load i32, ptr %length.i5.i159, align 4, !tbaa !18
  %cmp.i6.i160 = icmp eq i32 %v8, 2000
  br i1 %cmp.i6.i160, label %if.then.i10.i179, label %if.end.i7.i161

if.then.i10.i179:                                 ; preds = %emit.exit.i158
  %fault.i.i11.i180 = getelementptr inbounds i8, ptr %v7, i32 2648
  %v9 = load ptr, ptr %fault.i.i11.i180, align 4, !tbaa !20
  %tobool.not.i.i12.i181 = icmp eq ptr %v9, null
  br i1 %tobool.not.i.i12.i181, label %if.then.i.i15.i184, label %fail.exit.i13.i182

if.then.i.i15.i184:                               ; preds = %if.then.i10.i179
  store ptr @.str.10, ptr %fault.i.i11.i180, align 4, !tbaa !20
  %line.i.i16.i185 = getelementptr inbounds i8, ptr %it, i32 4
  %v10 = load i32, ptr %line.i.i16.i185, align 4, !tbaa !21
  %line4.i.i17.i186 = getelementptr inbounds i8, ptr %v7, i32 2652
  store i32 %v10, ptr %line4.i.i17.i186, align 4, !tbaa !22
  br label %fail.exit.i13.i182

fail.exit.i13.i182:                               ; preds = %if.then.i.i15.i184, %if.then.i10.i179
  store i32 0, ptr %kind, align 4, !tbaa !14
  br label %emit.exit18.i164

if.end.i7.i161:                                   ; preds = %emit.exit.i158
  %inc.i8.i162 = add i32 %v8, 1
  store i32 %inc.i8.i162, ptr %length.i5.i159, align 4, !tbaa !18
  %arrayidx.i9.i163 = getelementptr inbounds [2000 x i8], ptr %v7, i32 0, i32 %v8
  store i8 0, ptr %arrayidx.i9.i163, align 1, !tbaa !23
  br label %emit.exit18.i164

emit.exit18.i164:                                 ; preds = %if.end.i7.i161, %fail.exit.i13.i182
  %v11 = load ptr, ptr %to.i, align 4, !tbaa !11
  %length.i20.i165 = getelementptr inbounds i8, ptr %v11, i32 2000
  %v12 = load i32, ptr %length.i20.i165, align 4, !tbaa !18
  %cmp.i21.i166 = icmp eq i32 %v12, 2000
  br i1 %cmp.i21.i166, label %if.then.i25.i171, label %if.end.i22.i167

if.then.i25.i171:                                 ; preds = %emit.exit18.i164
  %fault.i.i26.i172 = getelementptr inbounds i8, ptr %v11, i32 2648
  %v13 = load ptr, ptr %fault.i.i26.i172, align 4, !tbaa !20
  %tobool.not.i.i27.i173 = icmp eq ptr %v13, null
  br i1 %tobool.not.i.i27.i173, label %if.then.i.i30.i176, label %fail.exit.i28.i174

if.then.i.i30.i176:                               ; preds = %if.then.i25.i171
  store ptr @.str.10, ptr %fault.i.i26.i172, align 4, !tbaa !20
  %line.i.i31.i177 = getelementptr inbounds i8, ptr %it, i32 4
  %v14 = load i32, ptr %line.i.i31.i177, align 4, !tbaa !21
  %line4.i.i32.i178 = getelementptr inbounds i8, ptr %v11, i32 2652
  store i32 %v14, ptr %line4.i.i32.i178, align 4, !tbaa !22
  br label %fail.exit.i28.i174

fail.exit.i28.i174:                               ; preds = %if.then.i.i30.i176, %if.then.i25.i171
  store i32 0, ptr %kind, align 4, !tbaa !14
  br label %emit_jump.exit195

if.end.i22.i167:                                  ; preds = %emit.exit18.i164
  %inc.i23.i168 = add i32 %v12, 1
  store i32 %inc.i23.i168, ptr %length.i20.i165, align 4, !tbaa !18
  %arrayidx.i24.i169 = getelementptr inbounds [2000 x i8], ptr %v11, i32 0, i32 %v12
  store i8 0, ptr %arrayidx.i24.i169, align 1, !tbaa !23
  br label %emit_jump.exit195

emit_jump.exit195:                                ; preds = %if.end.i22.i167, %fail.exit.i28.i174
  %v15 = load ptr, ptr %to.i, align 4, !tbaa !11
  %length.i170 = getelementptr inbounds i8, ptr %v15, i32 2000
  %v16 = load i32, ptr %length.i170, align 4, !tbaa !18
  tail call fastcc void @block(ptr noundef %it)
  %v17 = load ptr, ptr %to.i, align 4, !tbaa !11
  %length.i.i = getelementptr inbounds i8, ptr %v17, i32 2000
  %v18 = load i32, ptr %length.i.i, align 4, !tbaa !18
  %cmp.i.i = icmp eq i32 %v18, 2000
  br i1 %cmp.i.i, label %if.then.i.i150, label %if.end.i.i148

if.then.i.i150:                                   ; preds = %emit_jump.exit195
  %fault.i.i.i = getelementptr inbounds i8, ptr %v17, i32 2648
  %v19 = load ptr, ptr %fault.i.i.i, align 4, !tbaa !20
  %tobool.not.i.i.i = icmp eq ptr %v19, null
  br i1 %tobool.not.i.i.i, label %if.then.i.i.i, label %fail.exit.i.i

if.then.i.i.i:                                    ; preds = %if.then.i.i150
  store ptr @.str.10, ptr %fault.i.i.i, align 4, !tbaa !20
  %line.i.i.i = getelementptr inbounds i8, ptr %it, i32 4
  %v20 = load i32, ptr %line.i.i.i, align 4, !tbaa !21
  %line4.i.i.i = getelementptr inbounds i8, ptr %v17, i32 2652
  store i32 %v20, ptr %line4.i.i.i, align 4, !tbaa !22
  br label %fail.exit.i.i

fail.exit.i.i:                                    ; preds = %if.then.i.i.i, %if.then.i.i150
  store i32 0, ptr %kind, align 4, !tbaa !14
  br label %emit.exit.i

if.end.i.i148:                                    ; preds = %emit_jump.exit195
  %inc.i.i = add i32 %v18, 1
  store i32 %inc.i.i, ptr %length.i.i, align 4, !tbaa !18
  %arrayidx.i.i = getelementptr inbounds [2000 x i8], ptr %v17, i32 0, i32 %v18
  store i8 13, ptr %arrayidx.i.i, align 1, !tbaa !23
  br label %emit.exit.i

emit.exit.i:                                      ; preds = %if.end.i.i148, %fail.exit.i.i
  %v21 = load ptr, ptr %to.i, align 4, !tbaa !11
  %length.i5.i = getelementptr inbounds i8, ptr %v21, i32 2000
  %v22 = load i32, ptr %length.i5.i, align 4, !tbaa !18
  %cmp.i6.i = icmp eq i32 %v22, 2000
  br i1 %cmp.i6.i, label %if.then.i10.i, label %if.end.i7.i

if.then.i10.i:                                    ; preds = %emit.exit.i
  %fault.i.i11.i = getelementptr inbounds i8, ptr %v21, i32 2648
  %v23 = load ptr, ptr %fault.i.i11.i, align 4, !tbaa !20
  %tobool.not.i.i12.i = icmp eq ptr %v23, null
  br i1 %tobool.not.i.i12.i, label %if.then.i.i15.i, label %fail.exit.i13.i

if.then.i.i15.i:                                  ; preds = %if.then.i10.i
  store ptr @.str.10, ptr %fault.i.i11.i, align 4, !tbaa !20
  %line.i.i16.i = getelementptr inbounds i8, ptr %it, i32 4
  %v24 = load i32, ptr %line.i.i16.i, align 4, !tbaa !21
  %line4.i.i17.i = getelementptr inbounds i8, ptr %v21, i32 2652
  store i32 %v24, ptr %line4.i.i17.i, align 4, !tbaa !22
  br label %fail.exit.i13.i

fail.exit.i13.i:                                  ; preds = %if.then.i.i15.i, %if.then.i10.i
  store i32 0, ptr %kind, align 4, !tbaa !14
  br label %emit.exit18.i

if.end.i7.i:                                      ; preds = %emit.exit.i
  %inc.i8.i = add i32 %v22, 1
  store i32 %inc.i8.i, ptr %length.i5.i, align 4, !tbaa !18
  %arrayidx.i9.i = getelementptr inbounds [2000 x i8], ptr %v21, i32 0, i32 %v22
  store i8 0, ptr %arrayidx.i9.i, align 1, !tbaa !23
  br label %emit.exit18.i

emit.exit18.i:                                    ; preds = %if.end.i7.i, %fail.exit.i13.i
  %v25 = load ptr, ptr %to.i, align 4, !tbaa !11
  %length.i20.i = getelementptr inbounds i8, ptr %v25, i32 2000
  %v26 = load i32, ptr %length.i20.i, align 4, !tbaa !18
  %cmp.i21.i = icmp eq i32 %v26, 2000
  br i1 %cmp.i21.i, label %if.then.i25.i, label %if.end.i22.i

if.then.i25.i:                                    ; preds = %emit.exit18.i
  %fault.i.i26.i = getelementptr inbounds i8, ptr %v25, i32 2648
  %v27 = load ptr, ptr %fault.i.i26.i, align 4, !tbaa !20
  %tobool.not.i.i27.i = icmp eq ptr %v27, null
  br i1 %tobool.not.i.i27.i, label %if.then.i.i30.i, label %fail.exit.i28.i

if.then.i.i30.i:                                  ; preds = %if.then.i25.i
  store ptr @.str.10, ptr %fault.i.i26.i, align 4, !tbaa !20
  %line.i.i31.i = getelementptr inbounds i8, ptr %it, i32 4
  %v28 = load i32, ptr %line.i.i31.i, align 4, !tbaa !21
  %line4.i.i32.i = getelementptr inbounds i8, ptr %v25, i32 2652
  store i32 %v28, ptr %line4.i.i32.i, align 4, !tbaa !22
  br label %fail.exit.i28.i

fail.exit.i28.i:                                  ; preds = %if.then.i.i30.i, %if.then.i25.i
  store i32 0, ptr %kind, align 4, !tbaa !14
  br label %emit_jump.exit

if.end.i22.i:                                     ; preds = %emit.exit18.i
  %inc.i23.i = add i32 %v26, 1
  store i32 %inc.i23.i, ptr %length.i20.i, align 4, !tbaa !18
  %arrayidx.i24.i = getelementptr inbounds [2000 x i8], ptr %v25, i32 0, i32 %v26
  store i8 0, ptr %arrayidx.i24.i, align 1, !tbaa !23
  br label %emit_jump.exit

emit_jump.exit:                                   ; preds = %if.end.i22.i, %fail.exit.i28.i
  %v29 = load ptr, ptr %to.i, align 4, !tbaa !11
  %fault.i136 = getelementptr inbounds i8, ptr %v29, i32 2648
  %v30 = load ptr, ptr %fault.i136, align 4, !tbaa !20
  %tobool.not.i137 = icmp eq ptr %v30, null
  br i1 %tobool.not.i137, label %if.end.i138, label %aim.exit146

if.end.i138:                                      ; preds = %emit_jump.exit
  %length.i149 = getelementptr inbounds i8, ptr %v29, i32 2000
  %v31 = load i32, ptr %length.i149, align 4, !tbaa !18
  %conv.i139 = trunc i32 %v2 to i8
  %sub.i140 = add i32 %v31, -2
  %arrayidx.i141 = getelementptr inbounds [2000 x i8], ptr %v29, i32 0, i32 %sub.i140
  store i8 %conv.i139, ptr %arrayidx.i141, align 1, !tbaa !23
  %shr.i142 = lshr i32 %v2, 8
  %conv2.i143 = trunc i32 %shr.i142 to i8
  %v32 = load ptr, ptr %to.i, align 4, !tbaa !11
  %sub5.i144 = add i32 %v31, -1
  %arrayidx6.i145 = getelementptr inbounds [2000 x i8], ptr %v32, i32 0, i32 %sub5.i144
  store i8 %conv2.i143, ptr %arrayidx6.i145, align 1, !tbaa !23
  br label %aim.exit146

aim.exit146:                                      ; preds = %if.end.i138, %emit_jump.exit
  %v33 = load ptr, ptr %to.i, align 4, !tbaa !11
  %fault.i130 = getelementptr inbounds i8, ptr %v33, i32 2648
  %v34 = load ptr, ptr %fault.i130, align 4, !tbaa !20
  %tobool.not.i131 = icmp eq ptr %v34, null
  br i1 %tobool.not.i131, label %if.end.i132, label %sw.epilog

if.end.i132:                                      ; preds = %aim.exit146
  %length3.i = getelementptr inbounds i8, ptr %v33, i32 2000
  %v35 = load i32, ptr %length3.i, align 4, !tbaa !18
  %conv.i133 = trunc i32 %v35 to i8
  %sub.i = add i32 %v16, -2
  %arrayidx.i134 = getelementptr inbounds [2000 x i8], ptr %v33, i32 0, i32 %sub.i
  store i8 %conv.i133, ptr %arrayidx.i134, align 1, !tbaa !23
  %shr.i = lshr i32 %v35, 8
  %conv2.i = trunc i32 %shr.i to i8
  %v36 = load ptr, ptr %to.i, align 4, !tbaa !11
  %sub5.i = add i32 %v16, -1
  %arrayidx6.i = getelementptr inbounds [2000 x i8], ptr %v36, i32 0, i32 %sub5.i
  store i8 %conv2.i, ptr %arrayidx6.i, align 1, !tbaa !23
  br label %sw.epilog

sw.bb2:                                           ; preds = %entry
  tail call fastcc void @lexer_next(ptr noundef %it)
  tail call fastcc void @expression(ptr noundef %it)
  %to.i.i264 = getelementptr inbounds i8, ptr %it, i32 36
  %v37 = load ptr, ptr %to.i.i264, align 4, !tbaa !11
  %length.i.i265 = getelementptr inbounds i8, ptr %v37, i32 2000
  %v38 = load i32, ptr %length.i.i265, align 4, !tbaa !18
  %cmp.i.i266 = icmp eq i32 %v38, 2000
  br i1 %cmp.i.i266, label %if.then.i.i299, label %if.end.i.i267

if.then.i.i299:                                   ; preds = %sw.bb2
  %fault.i.i.i300 = getelementptr inbounds i8, ptr %v37, i32 2648
  %v39 = load ptr, ptr %fault.i.i.i300, align 4, !tbaa !20
  %tobool.not.i.i.i301 = icmp eq ptr %v39, null
  br i1 %tobool.not.i.i.i301, label %if.then.i.i.i304, label %fail.exit.i.i302

if.then.i.i.i304:                                 ; preds = %if.then.i.i299
  store ptr @.str.10, ptr %fault.i.i.i300, align 4, !tbaa !20
  %line.i.i.i305 = getelementptr inbounds i8, ptr %it, i32 4
  %v40 = load i32, ptr %line.i.i.i305, align 4, !tbaa !21
  %line4.i.i.i306 = getelementptr inbounds i8, ptr %v37, i32 2652
  store i32 %v40, ptr %line4.i.i.i306, align 4, !tbaa !22
  br label %fail.exit.i.i302

fail.exit.i.i302:                                 ; preds = %if.then.i.i.i304, %if.then.i.i299
  store i32 0, ptr %kind, align 4, !tbaa !14
  br label %emit.exit.i270

if.end.i.i267:                                    ; preds = %sw.bb2
  %inc.i.i268 = add i32 %v38, 1
  store i32 %inc.i.i268, ptr %length.i.i265, align 4, !tbaa !18
  %arrayidx.i.i269 = getelementptr inbounds [2000 x i8], ptr %v37, i32 0, i32 %v38
  store i8 14, ptr %arrayidx.i.i269, align 1, !tbaa !23
  br label %emit.exit.i270

emit.exit.i270:                                   ; preds = %if.end.i.i267, %fail.exit.i.i302
  %v41 = load ptr, ptr %to.i.i264, align 4, !tbaa !11
  %length.i5.i271 = getelementptr inbounds i8, ptr %v41, i32 2000
  %v42 = load i32, ptr %length.i5.i271, align 4, !tbaa !18
  %cmp.i6.i272 = icmp eq i32 %v42, 2000
  br i1 %cmp.i6.i272, label %if.then.i10.i291, label %if.end.i7.i273

if.then.i10.i291:                                 ; preds = %emit.exit.i270
  %fault.i.i11.i292 = getelementptr inbounds i8, ptr %v41, i32 2648
  %v43 = load ptr, ptr %fault.i.i11.i292, align 4, !tbaa !20
  %tobool.not.i.i12.i293 = icmp eq ptr %v43, null
  br i1 %tobool.not.i.i12.i293, label %if.then.i.i15.i296, label %fail.exit.i13.i294

if.then.i.i15.i296:                               ; preds = %if.then.i10.i291
  store ptr @.str.10, ptr %fault.i.i11.i292, align 4, !tbaa !20
  %line.i.i16.i297 = getelementptr inbounds i8, ptr %it, i32 4
  %v44 = load i32, ptr %line.i.i16.i297, align 4, !tbaa !21
  %line4.i.i17.i298 = getelementptr inbounds i8, ptr %v41, i32 2652
  store i32 %v44, ptr %line4.i.i17.i298, align 4, !tbaa !22
  br label %fail.exit.i13.i294

fail.exit.i13.i294:                               ; preds = %if.then.i.i15.i296, %if.then.i10.i291
  store i32 0, ptr %kind, align 4, !tbaa !14
  br label %emit.exit18.i276

if.end.i7.i273:                                   ; preds = %emit.exit.i270
  %inc.i8.i274 = add i32 %v42, 1
  store i32 %inc.i8.i274, ptr %length.i5.i271, align 4, !tbaa !18
  %arrayidx.i9.i275 = getelementptr inbounds [2000 x i8], ptr %v41, i32 0, i32 %v42
  store i8 0, ptr %arrayidx.i9.i275, align 1, !tbaa !23
  br label %emit.exit18.i276

emit.exit18.i276:                                 ; preds = %if.end.i7.i273, %fail.exit.i13.i294
  %v45 = load ptr, ptr %to.i.i264, align 4, !tbaa !11
  %length.i20.i277 = getelementptr inbounds i8, ptr %v45, i32 2000
  %v46 = load i32, ptr %length.i20.i277, align 4, !tbaa !18
  %cmp.i21.i278 = icmp eq i32 %v46, 2000
  br i1 %cmp.i21.i278, label %if.then.i25.i283, label %if.end.i22.i279

if.then.i25.i283:                                 ; preds = %emit.exit18.i276
  %fault.i.i26.i284 = getelementptr inbounds i8, ptr %v45, i32 2648
  %v47 = load ptr, ptr %fault.i.i26.i284, align 4, !tbaa !20
  %tobool.not.i.i27.i285 = icmp eq ptr %v47, null
  br i1 %tobool.not.i.i27.i285, label %if.then.i.i30.i288, label %fail.exit.i28.i286

if.then.i.i30.i288:                               ; preds = %if.then.i25.i283
  store ptr @.str.10, ptr %fault.i.i26.i284, align 4, !tbaa !20
  %line.i.i31.i289 = getelementptr inbounds i8, ptr %it, i32 4
  %v48 = load i32, ptr %line.i.i31.i289, align 4, !tbaa !21
  %line4.i.i32.i290 = getelementptr inbounds i8, ptr %v45, i32 2652
  store i32 %v48, ptr %line4.i.i32.i290, align 4, !tbaa !22
  br label %fail.exit.i28.i286

fail.exit.i28.i286:                               ; preds = %if.then.i.i30.i288, %if.then.i25.i283
  store i32 0, ptr %kind, align 4, !tbaa !14
  br label %emit_jump.exit307

if.end.i22.i279:                                  ; preds = %emit.exit18.i276
  %inc.i23.i280 = add i32 %v46, 1
  store i32 %inc.i23.i280, ptr %length.i20.i277, align 4, !tbaa !18
  %arrayidx.i24.i281 = getelementptr inbounds [2000 x i8], ptr %v45, i32 0, i32 %v46
  store i8 0, ptr %arrayidx.i24.i281, align 1, !tbaa !23
  br label %emit_jump.exit307

emit_jump.exit307:                                ; preds = %if.end.i22.i279, %fail.exit.i28.i286
  %v49 = load ptr, ptr %to.i.i264, align 4, !tbaa !11
  %length.i282 = getelementptr inbounds i8, ptr %v49, i32 2000
  %v50 = load i32, ptr %length.i282, align 4, !tbaa !18
  tail call fastcc void @block(ptr noundef %it)
  %v51 = load i32, ptr %kind, align 4, !tbaa !14
  %cmp.i = icmp eq i32 %v51, 6
  br i1 %cmp.i, label %if.then.i, label %choice.exit

if.then.i:                                        ; preds = %emit_jump.exit307
  tail call fastcc void @lexer_next(ptr noundef %it)
  %v52 = load ptr, ptr %to.i.i264, align 4, !tbaa !11
  %length.i.i221 = getelementptr inbounds i8, ptr %v52, i32 2000
  %v53 = load i32, ptr %length.i.i221, align 4, !tbaa !18
  %cmp.i.i222 = icmp eq i32 %v53, 2000
  br i1 %cmp.i.i222, label %if.then.i.i255, label %if.end.i.i223

if.then.i.i255:                                   ; preds = %if.then.i
  %fault.i.i.i256 = getelementptr inbounds i8, ptr %v52, i32 2648
  %v54 = load ptr, ptr %fault.i.i.i256, align 4, !tbaa !20
  %tobool.not.i.i.i257 = icmp eq ptr %v54, null
  br i1 %tobool.not.i.i.i257, label %if.then.i.i.i260, label %fail.exit.i.i258

if.then.i.i.i260:                                 ; preds = %if.then.i.i255
  store ptr @.str.10, ptr %fault.i.i.i256, align 4, !tbaa !20
  %line.i.i.i261 = getelementptr inbounds i8, ptr %it, i32 4
  %v55 = load i32, ptr %line.i.i.i261, align 4, !tbaa !21
  %line4.i.i.i262 = getelementptr inbounds i8, ptr %v52, i32 2652
  store i32 %v55, ptr %line4.i.i.i262, align 4, !tbaa !22
  br label %fail.exit.i.i258

fail.exit.i.i258:                                 ; preds = %if.then.i.i.i260, %if.then.i.i255
  store i32 0, ptr %kind, align 4, !tbaa !14
  br label %emit.exit.i226

if.end.i.i223:                                    ; preds = %if.then.i
  %inc.i.i224 = add i32 %v53, 1
  store i32 %inc.i.i224, ptr %length.i.i221, align 4, !tbaa !18
  %arrayidx.i.i225 = getelementptr inbounds [2000 x i8], ptr %v52, i32 0, i32 %v53
  store i8 13, ptr %arrayidx.i.i225, align 1, !tbaa !23
  br label %emit.exit.i226

emit.exit.i226:                                   ; preds = %if.end.i.i223, %fail.exit.i.i258
  %v56 = load ptr, ptr %to.i.i264, align 4, !tbaa !11
  %length.i5.i227 = getelementptr inbounds i8, ptr %v56, i32 2000
  %v57 = load i32, ptr %length.i5.i227, align 4, !tbaa !18
  %cmp.i6.i228 = icmp eq i32 %v57, 2000
  br i1 %cmp.i6.i228, label %if.then.i10.i247, label %if.end.i7.i229

if.then.i10.i247:                                 ; preds = %emit.exit.i226
  %fault.i.i11.i248 = getelementptr inbounds i8, ptr %v56, i32 2648
  %v58 = load ptr, ptr %fault.i.i11.i248, align 4, !tbaa !20
  %tobool.not.i.i12.i249 = icmp eq ptr %v58, null
  br i1 %tobool.not.i.i12.i249, label %if.then.i.i15.i252, label %fail.exit.i13.i250

if.then.i.i15.i252:                               ; preds = %if.then.i10.i247
  store ptr @.str.10, ptr %fault.i.i11.i248, align 4, !tbaa !20
  %line.i.i16.i253 = getelementptr inbounds i8, ptr %it, i32 4
  %v59 = load i32, ptr %line.i.i16.i253, align 4, !tbaa !21
  %line4.i.i17.i254 = getelementptr inbounds i8, ptr %v56, i32 2652
  store i32 %v59, ptr %line4.i.i17.i254, align 4, !tbaa !22
  br label %fail.exit.i13.i250

fail.exit.i13.i250:                               ; preds = %if.then.i.i15.i252, %if.then.i10.i247
  store i32 0, ptr %kind, align 4, !tbaa !14
  br label %emit.exit18.i232

if.end.i7.i229:                                   ; preds = %emit.exit.i226
  %inc.i8.i230 = add i32 %v57, 1
  store i32 %inc.i8.i230, ptr %length.i5.i227, align 4, !tbaa !18
  %arrayidx.i9.i231 = getelementptr inbounds [2000 x i8], ptr %v56, i32 0, i32 %v57
  store i8 0, ptr %arrayidx.i9.i231, align 1, !tbaa !23
  br label %emit.exit18.i232

emit.exit18.i232:                                 ; preds = %if.end.i7.i229, %fail.exit.i13.i250
  %v60 = load ptr, ptr %to.i.i264, align 4, !tbaa !11
  %length.i20.i233 = getelementptr inbounds i8, ptr %v60, i32 2000
  %v61 = load i32, ptr %length.i20.i233, align 4, !tbaa !18
  %cmp.i21.i234 = icmp eq i32 %v61, 2000
  br i1 %cmp.i21.i234, label %if.then.i25.i239, label %if.end.i22.i235

if.then.i25.i239:                                 ; preds = %emit.exit18.i232
  %fault.i.i26.i240 = getelementptr inbounds i8, ptr %v60, i32 2648
  %v62 = load ptr, ptr %fault.i.i26.i240, align 4, !tbaa !20
  %tobool.not.i.i27.i241 = icmp eq ptr %v62, null
  br i1 %tobool.not.i.i27.i241, label %if.then.i.i30.i244, label %fail.exit.i28.i242

if.then.i.i30.i244:                               ; preds = %if.then.i25.i239
  store ptr @.str.10, ptr %fault.i.i26.i240, align 4, !tbaa !20
  %line.i.i31.i245 = getelementptr inbounds i8, ptr %it, i32 4
  %v63 = load i32, ptr %line.i.i31.i245, align 4, !tbaa !21
  %line4.i.i32.i246 = getelementptr inbounds i8, ptr %v60, i32 2652
  store i32 %v63, ptr %line4.i.i32.i246, align 4, !tbaa !22
  br label %fail.exit.i28.i242

fail.exit.i28.i242:                               ; preds = %if.then.i.i30.i244, %if.then.i25.i239
  store i32 0, ptr %kind, align 4, !tbaa !14
  br label %emit_jump.exit263

if.end.i22.i235:                                  ; preds = %emit.exit18.i232
  %inc.i23.i236 = add i32 %v61, 1
  store i32 %inc.i23.i236, ptr %length.i20.i233, align 4, !tbaa !18
  %arrayidx.i24.i237 = getelementptr inbounds [2000 x i8], ptr %v60, i32 0, i32 %v61
  store i8 0, ptr %arrayidx.i24.i237, align 1, !tbaa !23
  br label %emit_jump.exit263

emit_jump.exit263:                                ; preds = %if.end.i22.i235, %fail.exit.i28.i242
  %v64 = load ptr, ptr %to.i.i264, align 4, !tbaa !11
  %length.i238 = getelementptr inbounds i8, ptr %v64, i32 2000
  %v65 = load i32, ptr %length.i238, align 4, !tbaa !18
  %fault.i209 = getelementptr inbounds i8, ptr %v64, i32 2648
  %v66 = load ptr, ptr %fault.i209, align 4, !tbaa !20
  %tobool.not.i210 = icmp eq ptr %v66, null
  br i1 %tobool.not.i210, label %if.end.i211, label %aim.exit219

if.end.i211:                                      ; preds = %emit_jump.exit263
  %conv.i212 = trunc i32 %v65 to i8
  %sub.i213 = add i32 %v50, -2
  %arrayidx.i214 = getelementptr inbounds [2000 x i8], ptr %v64, i32 0, i32 %sub.i213
  store i8 %conv.i212, ptr %arrayidx.i214, align 1, !tbaa !23
  %shr.i215 = lshr i32 %v65, 8
  %conv2.i216 = trunc i32 %shr.i215 to i8
  %v67 = load ptr, ptr %to.i.i264, align 4, !tbaa !11
  %sub5.i217 = add i32 %v50, -1
  %arrayidx6.i218 = getelementptr inbounds [2000 x i8], ptr %v67, i32 0, i32 %sub5.i217
  store i8 %conv2.i216, ptr %arrayidx6.i218, align 1, !tbaa !23
  br label %aim.exit219

aim.exit219:                                      ; preds = %if.end.i211, %emit_jump.exit263
  tail call fastcc void @block(ptr noundef %it)
  br label %choice.exit

choice.exit:                                      ; preds = %aim.exit219, %emit_jump.exit307
  %out.0.i = phi i32 [ %v65, %aim.exit219 ], [ %v50, %emit_jump.exit307 ]
  %v68 = load ptr, ptr %to.i.i264, align 4, !tbaa !11
  %fault.i197 = getelementptr inbounds i8, ptr %v68, i32 2648
  %v69 = load ptr, ptr %fault.i197, align 4, !tbaa !20
  %tobool.not.i198 = icmp eq ptr %v69, null
  br i1 %tobool.not.i198, label %if.end.i199, label %sw.epilog

if.end.i199:                                      ; preds = %choice.exit
  %length4.i = getelementptr inbounds i8, ptr %v68, i32 2000
  %v70 = load i32, ptr %length4.i, align 4, !tbaa !18
  %conv.i200 = trunc i32 %v70 to i8
  %sub.i201 = add i32 %out.0.i, -2
  %arrayidx.i202 = getelementptr inbounds [2000 x i8], ptr %v68, i32 0, i32 %sub.i201
  store i8 %conv.i200, ptr %arrayidx.i202, align 1, !tbaa !23
  %shr.i203 = lshr i32 %v70, 8
  %conv2.i204 = trunc i32 %shr.i203 to i8
  %v71 = load ptr, ptr %to.i.i264, align 4, !tbaa !11
  %sub5.i205 = add i32 %out.0.i, -1
  %arrayidx6.i206 = getelementptr inbounds [2000 x i8], ptr %v71, i32 0, i32 %sub5.i205
  store i8 %conv2.i204, ptr %arrayidx6.i206, align 1, !tbaa !23
  br label %sw.epilog

do.body:                                          ; preds = %land.rhs.i, %do.body.preheader
  tail call fastcc void @lexer_next(ptr noundef %it)
  tail call fastcc void @expression(ptr noundef %it)
  %v72 = load ptr, ptr %to.i23, align 4, !tbaa !11
  %length.i24 = getelementptr inbounds i8, ptr %v72, i32 2000
  %v73 = load i32, ptr %length.i24, align 4, !tbaa !18
  %cmp.i25 = icmp eq i32 %v73, 2000
  br i1 %cmp.i25, label %if.then.i26, label %if.end.i

if.then.i26:                                      ; preds = %do.body
  %fault.i.i = getelementptr inbounds i8, ptr %v72, i32 2648
  %v74 = load ptr, ptr %fault.i.i, align 4, !tbaa !20
  %tobool.not.i.i = icmp eq ptr %v74, null
  br i1 %tobool.not.i.i, label %if.then.i.i, label %fail.exit.i

if.then.i.i:                                      ; preds = %if.then.i26
  store ptr @.str.10, ptr %fault.i.i, align 4, !tbaa !20
  %v75 = load i32, ptr %line.i.i, align 4, !tbaa !21
  %line4.i.i = getelementptr inbounds i8, ptr %v72, i32 2652
  store i32 %v75, ptr %line4.i.i, align 4, !tbaa !22
  br label %fail.exit.i

fail.exit.i:                                      ; preds = %if.then.i.i, %if.then.i26
  store i32 0, ptr %kind, align 4, !tbaa !14
  br label %emit.exit

if.end.i:                                         ; preds = %do.body
  %inc.i = add i32 %v73, 1
  store i32 %inc.i, ptr %length.i24, align 4, !tbaa !18
  %arrayidx.i = getelementptr inbounds [2000 x i8], ptr %v72, i32 0, i32 %v73
  store i8 15, ptr %arrayidx.i, align 1, !tbaa !23
  br label %emit.exit

emit.exit:                                        ; preds = %if.end.i, %fail.exit.i
  %v76 = load i32, ptr %kind, align 4, !tbaa !14
  %cmp.i28 = icmp eq i32 %v76, 3
  br i1 %cmp.i28, label %land.rhs.i, label %do.end

land.rhs.i:                                       ; preds = %emit.exit
  %v77 = load i32, ptr %sign2.i, align 4, !tbaa !46
  %cmp3.i = icmp eq i32 %v77, 44
  br i1 %cmp3.i, label %do.body, label %do.end, !llvm.loop !47

do.end:                                           ; preds = %land.rhs.i, %emit.exit
  %v78 = load ptr, ptr %to.i23, align 4, !tbaa !11
  %length.i30 = getelementptr inbounds i8, ptr %v78, i32 2000
  %v79 = load i32, ptr %length.i30, align 4, !tbaa !18
  %cmp.i31 = icmp eq i32 %v79, 2000
  br i1 %cmp.i31, label %if.then.i35, label %if.end.i32

if.then.i35:                                      ; preds = %do.end
  %fault.i.i36 = getelementptr inbounds i8, ptr %v78, i32 2648
  %v80 = load ptr, ptr %fault.i.i36, align 4, !tbaa !20
  %tobool.not.i.i37 = icmp eq ptr %v80, null
  br i1 %tobool.not.i.i37, label %if.then.i.i40, label %fail.exit.i38

if.then.i.i40:                                    ; preds = %if.then.i35
  store ptr @.str.10, ptr %fault.i.i36, align 4, !tbaa !20
  %v81 = load i32, ptr %line.i.i, align 4, !tbaa !21
  %line4.i.i42 = getelementptr inbounds i8, ptr %v78, i32 2652
  store i32 %v81, ptr %line4.i.i42, align 4, !tbaa !22
  br label %fail.exit.i38

fail.exit.i38:                                    ; preds = %if.then.i.i40, %if.then.i35
  store i32 0, ptr %kind, align 4, !tbaa !14
  br label %emit.exit43

if.end.i32:                                       ; preds = %do.end
  %inc.i33 = add i32 %v79, 1
  store i32 %inc.i33, ptr %length.i30, align 4, !tbaa !18
  %arrayidx.i34 = getelementptr inbounds [2000 x i8], ptr %v78, i32 0, i32 %v79
  store i8 16, ptr %arrayidx.i34, align 1, !tbaa !23
  br label %emit.exit43

emit.exit43:                                      ; preds = %if.end.i32, %fail.exit.i38
  %v82 = load i32, ptr %kind, align 4, !tbaa !14
  %cmp.i.i.i = icmp eq i32 %v82, 3
  br i1 %cmp.i.i.i, label %land.rhs.i.i.i, label %if.then.i44

land.rhs.i.i.i:                                   ; preds = %emit.exit43
  %v83 = load i32, ptr %sign2.i, align 4, !tbaa !46
  %cmp3.i.i.i = icmp eq i32 %v83, 59
  br i1 %cmp3.i.i.i, label %if.end.i.i, label %if.then.i44

if.end.i.i:                                       ; preds = %land.rhs.i.i.i
  tail call fastcc void @lexer_next(ptr noundef %it)
  br label %sw.epilog

if.then.i44:                                      ; preds = %land.rhs.i.i.i, %emit.exit43
  %v84 = load ptr, ptr %to.i23, align 4, !tbaa !11
  %fault.i.i45 = getelementptr inbounds i8, ptr %v84, i32 2648
  %v85 = load ptr, ptr %fault.i.i45, align 4, !tbaa !20
  %tobool.not.i.i46 = icmp eq ptr %v85, null
  br i1 %tobool.not.i.i46, label %if.then.i.i49, label %fail.exit.i47

if.then.i.i49:                                    ; preds = %if.then.i44
  store ptr @.str.1, ptr %fault.i.i45, align 4, !tbaa !20
  %v86 = load i32, ptr %line.i.i, align 4, !tbaa !21
  %line4.i.i51 = getelementptr inbounds i8, ptr %v84, i32 2652
  store i32 %v86, ptr %line4.i.i51, align 4, !tbaa !22
  br label %fail.exit.i47

fail.exit.i47:                                    ; preds = %if.then.i.i49, %if.then.i44
  store i32 0, ptr %kind, align 4, !tbaa !14
  br label %sw.epilog

sw.bb6:                                           ; preds = %entry
  %name = getelementptr inbounds i8, ptr %it, i32 16
  %to.i52 = getelementptr inbounds i8, ptr %it, i32 36
  %v87 = load ptr, ptr %to.i52, align 4, !tbaa !11
  %variables.i = getelementptr inbounds i8, ptr %v87, i32 2644
  %v88 = load i32, ptr %variables.i, align 4, !tbaa !30
  %cmp.not19.i = icmp sgt i32 %v88, 0
  br i1 %cmp.not19.i, label %for.body.lr.ph.i, label %for.end.i

for.body.lr.ph.i:                                 ; preds = %sw.bb6
  %names.i = getelementptr inbounds i8, ptr %v87, i32 2004
  %call.i61310 = tail call i32 @strcmp(ptr noundef nonnull dereferenceable(1) %names.i, ptr noundef nonnull readonly dereferenceable(1) %name) #11
  %cmp2.i311 = icmp eq i32 %call.i61310, 0
  br i1 %cmp2.i311, label %cleanup.i, label %for.inc.i

for.body.i:                                       ; preds = %for.inc.i
  %arrayidx.i60 = getelementptr inbounds [40 x [16 x i8]], ptr %names.i, i32 0, i32 %inc.i62
  %call.i61 = tail call i32 @strcmp(ptr noundef nonnull dereferenceable(1) %arrayidx.i60, ptr noundef nonnull readonly dereferenceable(1) %name) #11
  %cmp2.i = icmp eq i32 %call.i61, 0
  br i1 %cmp2.i, label %cleanup.i.loopexit, label %for.inc.i, !llvm.loop !48

for.inc.i:                                        ; preds = %for.body.i, %for.body.lr.ph.i
  %k.020.i312 = phi i32 [ %inc.i62, %for.body.i ], [ 0, %for.body.lr.ph.i ]
  %inc.i62 = add nuw nsw i32 %k.020.i312, 1
  %exitcond.not.i = icmp eq i32 %inc.i62, %v88
  br i1 %exitcond.not.i, label %for.end.i, label %for.body.i, !llvm.loop !48

cleanup.i.loopexit:                               ; preds = %for.body.i
  %cmp.not.i = icmp slt i32 %inc.i62, %v88
  br label %cleanup.i

cleanup.i:                                        ; preds = %cleanup.i.loopexit, %for.body.lr.ph.i
  %cmp.not21.i.lcssa = phi i1 [ true, %for.body.lr.ph.i ], [ %cmp.not.i, %cleanup.i.loopexit ]
  %k.020.i.lcssa = phi i32 [ 0, %for.body.lr.ph.i ], [ %inc.i62, %cleanup.i.loopexit ]
  br i1 %cmp.not21.i.lcssa, label %variable.exit, label %for.end.i

for.end.i:                                        ; preds = %cleanup.i, %for.inc.i, %sw.bb6
  %cmp5.i = icmp eq i32 %v88, 40
  br i1 %cmp5.i, label %if.then6.i, label %if.end7.i

if.then6.i:                                       ; preds = %for.end.i
  %fault.i.i53 = getelementptr inbounds i8, ptr %v87, i32 2648
  %v89 = load ptr, ptr %fault.i.i53, align 4, !tbaa !20
  %tobool.not.i.i54 = icmp eq ptr %v89, null
  br i1 %tobool.not.i.i54, label %if.then.i.i57, label %fail.exit.i55

if.then.i.i57:                                    ; preds = %if.then6.i
  store ptr @.str.9, ptr %fault.i.i53, align 4, !tbaa !20
  %line.i.i58 = getelementptr inbounds i8, ptr %it, i32 4
  %v90 = load i32, ptr %line.i.i58, align 4, !tbaa !21
  %line4.i.i59 = getelementptr inbounds i8, ptr %v87, i32 2652
  store i32 %v90, ptr %line4.i.i59, align 4, !tbaa !22
  br label %fail.exit.i55

fail.exit.i55:                                    ; preds = %if.then.i.i57, %if.then6.i
  store i32 0, ptr %kind, align 4, !tbaa !14
  br label %variable.exit

if.end7.i:                                        ; preds = %for.end.i
  %names9.i = getelementptr inbounds i8, ptr %v87, i32 2004
  %arrayidx12.i = getelementptr inbounds [40 x [16 x i8]], ptr %names9.i, i32 0, i32 %v88
  %call14.i = tail call ptr @strcpy(ptr noundef nonnull dereferenceable(1) %arrayidx12.i, ptr noundef nonnull readonly dereferenceable(1) %name) #11
  %v91 = load ptr, ptr %to.i52, align 4, !tbaa !11
  %variables16.i = getelementptr inbounds i8, ptr %v91, i32 2644
  %v92 = load i32, ptr %variables16.i, align 4, !tbaa !30
  %inc17.i = add nsw i32 %v92, 1
  store i32 %inc17.i, ptr %variables16.i, align 4, !tbaa !30
  br label %variable.exit

variable.exit:                                    ; preds = %if.end7.i, %fail.exit.i55, %cleanup.i
  %retval.1.i = phi i32 [ %k.020.i.lcssa, %cleanup.i ], [ 0, %fail.exit.i55 ], [ %v92, %if.end7.i ]
  tail call fastcc void @lexer_next(ptr noundef %it)
  %v93 = load i32, ptr %kind, align 4, !tbaa !14
  %cmp.i.i.i64 = icmp eq i32 %v93, 3
  br i1 %cmp.i.i.i64, label %land.rhs.i.i.i74, label %if.then.i65

land.rhs.i.i.i74:                                 ; preds = %variable.exit
  %sign2.i.i.i75 = getelementptr inbounds i8, ptr %it, i32 32
  %v94 = load i32, ptr %sign2.i.i.i75, align 4, !tbaa !46
  %cmp3.i.i.i76 = icmp eq i32 %v94, 61
  br i1 %cmp3.i.i.i76, label %if.end.i.i77, label %if.then.i65

if.end.i.i77:                                     ; preds = %land.rhs.i.i.i74
  tail call fastcc void @lexer_next(ptr noundef %it)
  br label %expect.exit78

if.then.i65:                                      ; preds = %land.rhs.i.i.i74, %variable.exit
  %v95 = load ptr, ptr %to.i52, align 4, !tbaa !11
  %fault.i.i67 = getelementptr inbounds i8, ptr %v95, i32 2648
  %v96 = load ptr, ptr %fault.i.i67, align 4, !tbaa !20
  %tobool.not.i.i68 = icmp eq ptr %v96, null
  br i1 %tobool.not.i.i68, label %if.then.i.i71, label %fail.exit.i69

if.then.i.i71:                                    ; preds = %if.then.i65
  store ptr @.str.2, ptr %fault.i.i67, align 4, !tbaa !20
  %line.i.i72 = getelementptr inbounds i8, ptr %it, i32 4
  %v97 = load i32, ptr %line.i.i72, align 4, !tbaa !21
  %line4.i.i73 = getelementptr inbounds i8, ptr %v95, i32 2652
  store i32 %v97, ptr %line4.i.i73, align 4, !tbaa !22
  br label %fail.exit.i69

fail.exit.i69:                                    ; preds = %if.then.i.i71, %if.then.i65
  store i32 0, ptr %kind, align 4, !tbaa !14
  br label %expect.exit78

expect.exit78:                                    ; preds = %fail.exit.i69, %if.end.i.i77
  tail call fastcc void @expression(ptr noundef %it)
  %v98 = load ptr, ptr %to.i52, align 4, !tbaa !11
  %length.i80 = getelementptr inbounds i8, ptr %v98, i32 2000
  %v99 = load i32, ptr %length.i80, align 4, !tbaa !18
  %cmp.i81 = icmp eq i32 %v99, 2000
  br i1 %cmp.i81, label %if.then.i85, label %if.end.i82

if.then.i85:                                      ; preds = %expect.exit78
  %fault.i.i86 = getelementptr inbounds i8, ptr %v98, i32 2648
  %v100 = load ptr, ptr %fault.i.i86, align 4, !tbaa !20
  %tobool.not.i.i87 = icmp eq ptr %v100, null
  br i1 %tobool.not.i.i87, label %if.then.i.i90, label %fail.exit.i88

if.then.i.i90:                                    ; preds = %if.then.i85
  store ptr @.str.10, ptr %fault.i.i86, align 4, !tbaa !20
  %line.i.i91 = getelementptr inbounds i8, ptr %it, i32 4
  %v101 = load i32, ptr %line.i.i91, align 4, !tbaa !21
  %line4.i.i92 = getelementptr inbounds i8, ptr %v98, i32 2652
  store i32 %v101, ptr %line4.i.i92, align 4, !tbaa !22
  br label %fail.exit.i88

fail.exit.i88:                                    ; preds = %if.then.i.i90, %if.then.i85
  store i32 0, ptr %kind, align 4, !tbaa !14
  br label %emit.exit93

if.end.i82:                                       ; preds = %expect.exit78
  %inc.i83 = add i32 %v99, 1
  store i32 %inc.i83, ptr %length.i80, align 4, !tbaa !18
  %arrayidx.i84 = getelementptr inbounds [2000 x i8], ptr %v98, i32 0, i32 %v99
  store i8 3, ptr %arrayidx.i84, align 1, !tbaa !23
  br label %emit.exit93

emit.exit93:                                      ; preds = %if.end.i82, %fail.exit.i88
  %v102 = load ptr, ptr %to.i52, align 4, !tbaa !11
  %length.i95 = getelementptr inbounds i8, ptr %v102, i32 2000
  %v103 = load i32, ptr %length.i95, align 4, !tbaa !18
  %cmp.i96 = icmp eq i32 %v103, 2000
  br i1 %cmp.i96, label %if.then.i100, label %if.end.i97

if.then.i100:                                     ; preds = %emit.exit93
  %fault.i.i101 = getelementptr inbounds i8, ptr %v102, i32 2648
  %v104 = load ptr, ptr %fault.i.i101, align 4, !tbaa !20
  %tobool.not.i.i102 = icmp eq ptr %v104, null
  br i1 %tobool.not.i.i102, label %if.then.i.i105, label %fail.exit.i103

if.then.i.i105:                                   ; preds = %if.then.i100
  store ptr @.str.10, ptr %fault.i.i101, align 4, !tbaa !20
  %line.i.i106 = getelementptr inbounds i8, ptr %it, i32 4
  %v105 = load i32, ptr %line.i.i106, align 4, !tbaa !21
  %line4.i.i107 = getelementptr inbounds i8, ptr %v102, i32 2652
  store i32 %v105, ptr %line4.i.i107, align 4, !tbaa !22
  br label %fail.exit.i103

fail.exit.i103:                                   ; preds = %if.then.i.i105, %if.then.i100
  store i32 0, ptr %kind, align 4, !tbaa !14
  br label %emit.exit108

if.end.i97:                                       ; preds = %emit.exit93
  %conv.i = trunc i32 %retval.1.i to i8
  %inc.i98 = add i32 %v103, 1
  store i32 %inc.i98, ptr %length.i95, align 4, !tbaa !18
  %arrayidx.i99 = getelementptr inbounds [2000 x i8], ptr %v102, i32 0, i32 %v103
  store i8 %conv.i, ptr %arrayidx.i99, align 1, !tbaa !23
  br label %emit.exit108

emit.exit108:                                     ; preds = %if.end.i97, %fail.exit.i103
  %v106 = load i32, ptr %kind, align 4, !tbaa !14
  %cmp.i.i.i110 = icmp eq i32 %v106, 3
  br i1 %cmp.i.i.i110, label %land.rhs.i.i.i120, label %if.then.i111

land.rhs.i.i.i120:                                ; preds = %emit.exit108
  %sign2.i.i.i121 = getelementptr inbounds i8, ptr %it, i32 32
  %v107 = load i32, ptr %sign2.i.i.i121, align 4, !tbaa !46
  %cmp3.i.i.i122 = icmp eq i32 %v107, 59
  br i1 %cmp3.i.i.i122, label %if.end.i.i123, label %if.then.i111

if.end.i.i123:                                    ; preds = %land.rhs.i.i.i120
  tail call fastcc void @lexer_next(ptr noundef %it)
  br label %sw.epilog

if.then.i111:                                     ; preds = %land.rhs.i.i.i120, %emit.exit108
  %v108 = load ptr, ptr %to.i52, align 4, !tbaa !11
  %fault.i.i113 = getelementptr inbounds i8, ptr %v108, i32 2648
  %v109 = load ptr, ptr %fault.i.i113, align 4, !tbaa !20
  %tobool.not.i.i114 = icmp eq ptr %v109, null
  br i1 %tobool.not.i.i114, label %if.then.i.i117, label %fail.exit.i115

if.then.i.i117:                                   ; preds = %if.then.i111
  store ptr @.str.1, ptr %fault.i.i113, align 4, !tbaa !20
  %line.i.i118 = getelementptr inbounds i8, ptr %it, i32 4
  %v110 = load i32, ptr %line.i.i118, align 4, !tbaa !21
  %line4.i.i119 = getelementptr inbounds i8, ptr %v108, i32 2652
  store i32 %v110, ptr %line4.i.i119, align 4, !tbaa !22
  br label %fail.exit.i115

fail.exit.i115:                                   ; preds = %if.then.i.i117, %if.then.i111
  store i32 0, ptr %kind, align 4, !tbaa !14
  br label %sw.epilog

sw.default:                                       ; preds = %entry
  %to.i125 = getelementptr inbounds i8, ptr %it, i32 36
  %v111 = load ptr, ptr %to.i125, align 4, !tbaa !11
  %fault.i = getelementptr inbounds i8, ptr %v111, i32 2648
  %v112 = load ptr, ptr %fault.i, align 4, !tbaa !20
  %tobool.not.i = icmp eq ptr %v112, null
  br i1 %tobool.not.i, label %if.then.i128, label %fail.exit

if.then.i128:                                     ; preds = %sw.default
  store ptr @.str.3, ptr %fault.i, align 4, !tbaa !20
  %line.i = getelementptr inbounds i8, ptr %it, i32 4
  %v113 = load i32, ptr %line.i, align 4, !tbaa !21
  %line4.i = getelementptr inbounds i8, ptr %v111, i32 2652
  store i32 %v113, ptr %line4.i, align 4, !tbaa !22
  br label %fail.exit

fail.exit:                                        ; preds = %if.then.i128, %sw.default
  store i32 0, ptr %kind, align 4, !tbaa !14
  br label %sw.epilog

sw.epilog:                                        ; preds = %fail.exit, %fail.exit.i115, %if.end.i.i123, %fail.exit.i47, %if.end.i.i, %if.end.i199, %choice.exit, %if.end.i132, %aim.exit146
  ret void
}

; Function Attrs: nocallback nofree nosync nounwind willreturn memory(argmem: readwrite)
declare void @llvm.lifetime.end.p0(i64 immarg, ptr nocapture) #3

; Function Attrs: nounwind optsize
define internal noundef i32 @__print_text(ptr nocapture noundef %stream, ptr nocapture noundef readonly %text, i32 noundef returned signext %n) local_unnamed_addr #1 {
entry:
  %v0 = load i8, ptr %stream, align 4, !tbaa !49, !alias.scope !51, !noalias !54
  %cmp.i = icmp eq i8 %v0, 0
  %cmp210.not.i = icmp eq i32 %n, 0
  %or.cond = or i1 %cmp210.not.i, %cmp.i
  br i1 %or.cond, label %fwrite.exit, label %for.body.i

for.body.i:                                       ; preds = %for.body.i, %entry
  %k.011.i = phi i32 [ %inc.i, %for.body.i ], [ 0, %entry ]
  %arrayidx.i = getelementptr inbounds i8, ptr %text, i32 %k.011.i
  %v1 = load i8, ptr %arrayidx.i, align 1, !tbaa !23, !alias.scope !54, !noalias !51
  %conv4.i = zext i8 %v1 to i32
  %call.i = tail call i32 @fputc(i32 noundef signext %conv4.i, ptr noundef nonnull %stream) #12, !noalias !54
  %inc.i = add nuw i32 %k.011.i, 1
  %exitcond.not.i = icmp eq i32 %inc.i, %n
  br i1 %exitcond.not.i, label %fwrite.exit, label %for.body.i, !llvm.loop !56

fwrite.exit:                                      ; preds = %for.body.i, %entry
  ret i32 %n
}

; Function Attrs: nounwind optsize
define internal i32 @__print_signed(ptr nocapture noundef %stream, i64 noundef signext %n, i32 noundef signext %flags, i32 noundef signext %width, i32 noundef signext %precision) local_unnamed_addr #1 {
entry:
  %room = alloca [24 x i8], align 1
  call void @llvm.lifetime.start.p0(i64 24, ptr nonnull %room) #11
  %add.ptr = getelementptr inbounds i8, ptr %room, i32 24
  %cmp = icmp slt i64 %n, 0
  %shr.i = lshr i64 %n, 63
  %tobool.i = icmp ne i64 %shr.i, 0
  %sub.i = sub i64 0, %n
  %cond.i = select i1 %tobool.i, i64 %sub.i, i64 %n
  %cmp.i = icmp ult i64 %cond.i, 4294967296
  br i1 %cmp.i, label %if.then.i, label %for.body6.i

if.then.i:                                        ; preds = %entry
  %conv.i = trunc nuw i64 %cond.i to i32
  %cmp1.not31.i = icmp eq i32 %conv.i, 0
  br i1 %cmp1.not31.i, label %spelled.exit, label %for.body.i

for.body.i:                                       ; preds = %for.body.i, %if.then.i
  %k.033.i = phi i32 [ %div.i, %for.body.i ], [ %conv.i, %if.then.i ]
  %end.addr.032.i = phi ptr [ %incdec.ptr.i, %for.body.i ], [ %add.ptr, %if.then.i ]
  %rem.i = urem i32 %k.033.i, 10
  %arrayidx.i = getelementptr inbounds i8, ptr @.str.9.18, i32 %rem.i
  %v0 = load i8, ptr %arrayidx.i, align 1, !tbaa !23
  %incdec.ptr.i = getelementptr inbounds i8, ptr %end.addr.032.i, i32 -1
  store i8 %v0, ptr %incdec.ptr.i, align 1, !tbaa !23
  %div.i = udiv i32 %k.033.i, 10
  %cmp1.not.i = icmp ult i32 %k.033.i, 10
  br i1 %cmp1.not.i, label %spelled.exit, label %for.body.i, !llvm.loop !57

for.body6.i:                                      ; preds = %for.body6.i, %entry
  %end.addr.130.i = phi ptr [ %incdec.ptr10.i, %for.body6.i ], [ %add.ptr, %entry ]
  %n.addr.029.i = phi i64 [ %div13.i, %for.body6.i ], [ %cond.i, %entry ]
  %div13.i = udiv i64 %n.addr.029.i, 10
  %v1 = mul i64 %div13.i, 10
  %rem8.i.decomposed = sub i64 %n.addr.029.i, %v1
  %idxprom.i = trunc nuw nsw i64 %rem8.i.decomposed to i32
  %arrayidx9.i = getelementptr inbounds i8, ptr @.str.9.18, i32 %idxprom.i
  %v2 = load i8, ptr %arrayidx9.i, align 1, !tbaa !23
  %incdec.ptr10.i = getelementptr inbounds i8, ptr %end.addr.130.i, i32 -1
  store i8 %v2, ptr %incdec.ptr10.i, align 1, !tbaa !23
  %cmp4.not.i = icmp ult i64 %n.addr.029.i, 10
  br i1 %cmp4.not.i, label %spelled.exit, label %for.body6.i, !llvm.loop !58

spelled.exit:                                     ; preds = %for.body6.i, %for.body.i, %if.then.i
  %retval.0.i = phi ptr [ %add.ptr, %if.then.i ], [ %incdec.ptr.i, %for.body.i ], [ %incdec.ptr10.i, %for.body6.i ]
  %cmp1 = icmp eq i64 %n, 0
  %cmp2 = icmp ne i32 %precision, 0
  %or.cond = and i1 %cmp1, %cmp2
  br i1 %or.cond, label %if.end.thread, label %if.end

if.end.thread:                                    ; preds = %spelled.exit
  %incdec.ptr = getelementptr inbounds i8, ptr %retval.0.i, i32 -1
  store i8 48, ptr %incdec.ptr, align 1, !tbaa !23
  br label %cond.false5

if.end:                                           ; preds = %spelled.exit
  br i1 %cmp, label %cond.end13, label %cond.false5

cond.false5:                                      ; preds = %if.end, %if.end.thread
  %at.027 = phi ptr [ %incdec.ptr, %if.end.thread ], [ %retval.0.i, %if.end ]
  %and = and i32 %flags, 2
  %tobool.not = icmp eq i32 %and, 0
  br i1 %tobool.not, label %cond.false7, label %cond.end13

cond.false7:                                      ; preds = %cond.false5
  %and8 = and i32 %flags, 4
  %tobool9.not = icmp eq i32 %and8, 0
  %cond10 = select i1 %tobool9.not, ptr @.str, ptr @.str.4.19
  br label %cond.end13

cond.end13:                                       ; preds = %cond.false7, %cond.false5, %if.end
  %at.028 = phi ptr [ %retval.0.i, %if.end ], [ %at.027, %cond.false7 ], [ %at.027, %cond.false5 ]
  %cond14 = phi ptr [ @.str.2.20, %if.end ], [ %cond10, %cond.false7 ], [ @.str.3.22, %cond.false5 ]
  %sub.ptr.lhs.cast = ptrtoint ptr %add.ptr to i32
  %sub.ptr.rhs.cast = ptrtoint ptr %at.028 to i32
  %sub.ptr.sub = sub i32 %sub.ptr.lhs.cast, %sub.ptr.rhs.cast
  %call15 = call fastcc i32 @number(ptr noundef %stream, ptr noundef nonnull %cond14, ptr noundef nonnull %at.028, i32 noundef signext %sub.ptr.sub, i32 noundef signext %flags, i32 noundef signext %width, i32 noundef signext %precision) #12
  call void @llvm.lifetime.end.p0(i64 24, ptr nonnull %room) #11
  ret i32 %call15
}

; Function Attrs: nounwind optsize
define internal i32 @__print_string(ptr nocapture noundef %stream, ptr noundef %text, i32 noundef signext %flags, i32 noundef signext %width, i32 noundef signext %precision) local_unnamed_addr #1 {
entry:
  %tobool.not = icmp eq ptr %text, null
  %v0 = icmp ult i32 %precision, 6
  %cond = select i1 %v0, ptr @.str, ptr @.str.1.13
  %text.addr.0 = select i1 %tobool.not, ptr %cond, ptr %text
  %cmp2 = icmp slt i32 %precision, 0
  br i1 %cmp2, label %while.cond.i, label %cond.false

while.cond.i:                                     ; preds = %while.cond.i, %entry
  %s.0.i = phi ptr [ %incdec.ptr.i, %while.cond.i ], [ %text.addr.0, %entry ]
  %v1 = load i8, ptr %s.0.i, align 1, !tbaa !23
  %tobool.not.i = icmp eq i8 %v1, 0
  %incdec.ptr.i = getelementptr inbounds i8, ptr %s.0.i, i32 1
  br i1 %tobool.not.i, label %strlen.exit, label %while.cond.i, !llvm.loop !59

strlen.exit:                                      ; preds = %while.cond.i
  %sub.ptr.lhs.cast.i = ptrtoint ptr %s.0.i to i32
  %sub.ptr.rhs.cast.i = ptrtoint ptr %text.addr.0 to i32
  %sub.ptr.sub.i = sub i32 %sub.ptr.lhs.cast.i, %sub.ptr.rhs.cast.i
  br label %cond.end

cond.false:                                       ; preds = %entry
  %cmp4.not.i = icmp eq i32 %precision, 0
  br i1 %cmp4.not.i, label %cond.end, label %land.rhs.i

land.rhs.i:                                       ; preds = %while.body.i, %cond.false
  %k.05.i = phi i32 [ %inc.i, %while.body.i ], [ 0, %cond.false ]
  %arrayidx.i = getelementptr inbounds i8, ptr %text.addr.0, i32 %k.05.i
  %v2 = load i8, ptr %arrayidx.i, align 1, !tbaa !23
  %tobool.not.i12 = icmp eq i8 %v2, 0
  br i1 %tobool.not.i12, label %cond.end, label %while.body.i

while.body.i:                                     ; preds = %land.rhs.i
  %inc.i = add nuw nsw i32 %k.05.i, 1
  %exitcond.not.i = icmp eq i32 %inc.i, %precision
  br i1 %exitcond.not.i, label %cond.end, label %land.rhs.i, !llvm.loop !60

cond.end:                                         ; preds = %while.body.i, %land.rhs.i, %cond.false, %strlen.exit
  %cond4 = phi i32 [ %sub.ptr.sub.i, %strlen.exit ], [ 0, %cond.false ], [ %k.05.i, %land.rhs.i ], [ %precision, %while.body.i ]
  %call5 = tail call fastcc i32 @padded(ptr noundef %stream, ptr noundef nonnull %text.addr.0, i32 noundef signext %cond4, i32 noundef signext %flags, i32 noundef signext %width) #12
  ret i32 %call5
}

; Function Attrs: nounwind optsize
define internal i32 @__print_unsigned(ptr nocapture noundef %stream, i64 noundef zeroext %n, i32 noundef signext %base, i32 noundef signext %flags, i32 noundef signext %width, i32 noundef signext %precision) local_unnamed_addr #1 {
entry:
  %room = alloca [24 x i8], align 1
  call void @llvm.lifetime.start.p0(i64 24, ptr nonnull %room) #11
  %and.i = and i32 %flags, 32
  %tobool.not.i = icmp eq i32 %and.i, 0
  %cond.i = select i1 %tobool.not.i, ptr @.str.9.18, ptr @.str.8.25
  %cmp.i = icmp ult i64 %n, 4294967296
  br i1 %cmp.i, label %if.then.i, label %for.cond3.preheader.i

for.cond3.preheader.i:                            ; preds = %entry
  %conv7.i = zext i32 %base to i64
  br label %for.body6.i

if.then.i:                                        ; preds = %entry
  %conv.i = trunc nuw i64 %n to i32
  %cmp1.not31.i = icmp eq i32 %conv.i, 0
  br i1 %cmp1.not31.i, label %spelled.exit, label %for.body.i

for.body.i:                                       ; preds = %for.body.i, %if.then.i
  %k.033.i = phi i32 [ %div.i, %for.body.i ], [ %conv.i, %if.then.i ]
  %end.addr.032.i.idx = phi i32 [ %end.addr.032.i.add, %for.body.i ], [ 24, %if.then.i ]
  %rem.i = urem i32 %k.033.i, %base
  %arrayidx.i = getelementptr inbounds i8, ptr %cond.i, i32 %rem.i
  %v0 = load i8, ptr %arrayidx.i, align 1, !tbaa !23
  %end.addr.032.i.add = add nsw i32 %end.addr.032.i.idx, -1
  %incdec.ptr.i.ptr = getelementptr inbounds i8, ptr %room, i32 %end.addr.032.i.add
  store i8 %v0, ptr %incdec.ptr.i.ptr, align 1, !tbaa !23
  %div.i = udiv i32 %k.033.i, %base
  %cmp1.not.i = icmp ult i32 %k.033.i, %base
  br i1 %cmp1.not.i, label %spelled.exit, label %for.body.i, !llvm.loop !57

for.body6.i:                                      ; preds = %for.body6.i, %for.cond3.preheader.i
  %end.addr.130.i.idx = phi i32 [ 24, %for.cond3.preheader.i ], [ %end.addr.130.i.add, %for.body6.i ]
  %n.addr.029.i = phi i64 [ %n, %for.cond3.preheader.i ], [ %div13.i, %for.body6.i ]
  %div13.i = udiv i64 %n.addr.029.i, %conv7.i
  %v1 = mul i64 %div13.i, %conv7.i
  %rem8.i.decomposed = sub i64 %n.addr.029.i, %v1
  %idxprom.i = trunc nuw i64 %rem8.i.decomposed to i32
  %arrayidx9.i = getelementptr inbounds i8, ptr %cond.i, i32 %idxprom.i
  %v2 = load i8, ptr %arrayidx9.i, align 1, !tbaa !23
  %end.addr.130.i.add = add nsw i32 %end.addr.130.i.idx, -1
  %incdec.ptr10.i.ptr = getelementptr inbounds i8, ptr %room, i32 %end.addr.130.i.add
  store i8 %v2, ptr %incdec.ptr10.i.ptr, align 1, !tbaa !23
  %cmp4.not.i = icmp ult i64 %n.addr.029.i, %conv7.i
  br i1 %cmp4.not.i, label %spelled.exit, label %for.body6.i, !llvm.loop !58

spelled.exit:                                     ; preds = %for.body6.i, %for.body.i, %if.then.i
  %retval.0.i.idx = phi i32 [ 24, %if.then.i ], [ %end.addr.032.i.add, %for.body.i ], [ %end.addr.130.i.add, %for.body6.i ]
  %cmp = icmp eq i64 %n, 0
  %cmp1 = icmp ne i32 %precision, 0
  %or.cond = and i1 %cmp, %cmp1
  br i1 %or.cond, label %if.then, label %if.end

if.then:                                          ; preds = %spelled.exit
  %retval.0.i.add = add nsw i32 %retval.0.i.idx, -1
  %incdec.ptr.ptr = getelementptr inbounds i8, ptr %room, i32 %retval.0.i.add
  store i8 48, ptr %incdec.ptr.ptr, align 1, !tbaa !23
  br label %if.end

if.end:                                           ; preds = %if.then, %spelled.exit
  %at.0.idx = phi i32 [ %retval.0.i.add, %if.then ], [ %retval.0.i.idx, %spelled.exit ]
  %at.0.ptr = getelementptr inbounds i8, ptr %room, i32 %at.0.idx
  %and = and i32 %flags, 8
  %tobool = icmp ne i32 %and, 0
  %cmp13 = icmp eq i32 %base, 8
  %or.cond29 = and i1 %cmp13, %tobool
  %gepdiff = sub nsw i32 24, %at.0.idx
  %cmp15.not = icmp sge i32 %gepdiff, %precision
  %or.cond49.not = select i1 %or.cond29, i1 %cmp15.not, i1 false
  br i1 %or.cond49.not, label %land.lhs.true16, label %if.end22

land.lhs.true16:                                  ; preds = %if.end
  %cmp17 = icmp eq i32 %at.0.idx, 24
  br i1 %cmp17, label %if.then20, label %lor.lhs.false

lor.lhs.false:                                    ; preds = %land.lhs.true16
  %v3 = load i8, ptr %at.0.ptr, align 1, !tbaa !23
  %cmp18.not = icmp eq i8 %v3, 48
  br i1 %cmp18.not, label %if.end22, label %if.then20

if.then20:                                        ; preds = %lor.lhs.false, %land.lhs.true16
  %incdec.ptr21 = getelementptr inbounds i8, ptr %at.0.ptr, i32 -1
  store i8 48, ptr %incdec.ptr21, align 1, !tbaa !23
  br label %if.end22

if.end22:                                         ; preds = %if.then20, %lor.lhs.false, %if.end
  %at.1 = phi ptr [ %incdec.ptr21, %if.then20 ], [ %at.0.ptr, %lor.lhs.false ], [ %at.0.ptr, %if.end ]
  %add.ptr.ptr = getelementptr inbounds i8, ptr %room, i32 24
  %sub.ptr.lhs.cast = ptrtoint ptr %add.ptr.ptr to i32
  %cmp3 = icmp eq i32 %base, 16
  %cmp5 = icmp ne i64 %n, 0
  %v4 = and i1 %cmp5, %cmp3
  %or.cond28 = and i1 %v4, %tobool
  %cond = select i1 %tobool.not.i, ptr @.str.6.26, ptr @.str.5.27
  %front.0 = select i1 %or.cond28, ptr %cond, ptr @.str
  %sub.ptr.rhs.cast24 = ptrtoint ptr %at.1 to i32
  %sub.ptr.sub25 = sub i32 %sub.ptr.lhs.cast, %sub.ptr.rhs.cast24
  %call26 = call fastcc i32 @number(ptr noundef %stream, ptr noundef nonnull %front.0, ptr noundef nonnull %at.1, i32 noundef signext %sub.ptr.sub25, i32 noundef signext %flags, i32 noundef signext %width, i32 noundef signext %precision) #12
  call void @llvm.lifetime.end.p0(i64 24, ptr nonnull %room) #11
  ret i32 %call26
}

; Function Attrs: nofree nounwind
declare dso_local noundef i32 @putchar(i32 noundef signext) local_unnamed_addr #5

; Function Attrs: nofree norecurse nosync nounwind optsize memory(read, inaccessiblemem: none)
define internal noundef i32 @strlen(ptr noundef %at) local_unnamed_addr #2 {
entry:
  br label %while.cond

while.cond:                                       ; preds = %while.cond, %entry
  %s.0 = phi ptr [ %at, %entry ], [ %incdec.ptr, %while.cond ]
  %v0 = load i8, ptr %s.0, align 1, !tbaa !23
  %tobool.not = icmp eq i8 %v0, 0
  %incdec.ptr = getelementptr inbounds i8, ptr %s.0, i32 1
  br i1 %tobool.not, label %while.end, label %while.cond, !llvm.loop !59

while.end:                                        ; preds = %while.cond
  %sub.ptr.lhs.cast = ptrtoint ptr %s.0 to i32
  %sub.ptr.rhs.cast = ptrtoint ptr %at to i32
  %sub.ptr.sub = sub i32 %sub.ptr.lhs.cast, %sub.ptr.rhs.cast
  ret i32 %sub.ptr.sub
}

; Function Attrs: nofree norecurse nosync nounwind optsize
define internal noundef ptr @strcpy(ptr noalias noundef returned writeonly %to, ptr noalias nocapture noundef readonly %from) local_unnamed_addr #6 {
entry:
  %v0 = load i8, ptr %from, align 1, !tbaa !23, !alias.scope !61, !noalias !64
  store i8 %v0, ptr %to, align 1, !tbaa !23, !alias.scope !64, !noalias !61
  %tobool.not4.i = icmp eq i8 %v0, 0
  br i1 %tobool.not4.i, label %stpcpy.exit, label %while.body.i

while.body.i:                                     ; preds = %while.body.i, %entry
  %from.addr.06.i = phi ptr [ %incdec.ptr.i, %while.body.i ], [ %from, %entry ]
  %to.addr.05.i = phi ptr [ %incdec.ptr1.i, %while.body.i ], [ %to, %entry ]
  %incdec.ptr.i = getelementptr inbounds i8, ptr %from.addr.06.i, i32 1
  %incdec.ptr1.i = getelementptr inbounds i8, ptr %to.addr.05.i, i32 1
  %v1 = load i8, ptr %incdec.ptr.i, align 1, !tbaa !23, !alias.scope !61, !noalias !64
  store i8 %v1, ptr %incdec.ptr1.i, align 1, !tbaa !23, !alias.scope !64, !noalias !61
  %tobool.not.i = icmp eq i8 %v1, 0
  br i1 %tobool.not.i, label %stpcpy.exit, label %while.body.i, !llvm.loop !66

stpcpy.exit:                                      ; preds = %while.body.i, %entry
  ret ptr %to
}

; Function Attrs: nounwind optsize
define internal fastcc i32 @number(ptr nocapture noundef %stream, ptr noundef %front, ptr nocapture noundef readonly %digits, i32 noundef signext %n, i32 noundef signext %flags, i32 noundef signext %width, i32 noundef signext %precision) unnamed_addr #1 {
entry:
  br label %while.cond.i

while.cond.i:                                     ; preds = %while.cond.i, %entry
  %s.0.i = phi ptr [ %front, %entry ], [ %incdec.ptr.i, %while.cond.i ]
  %v0 = load i8, ptr %s.0.i, align 1, !tbaa !23
  %tobool.not.i = icmp eq i8 %v0, 0
  %incdec.ptr.i = getelementptr inbounds i8, ptr %s.0.i, i32 1
  br i1 %tobool.not.i, label %strlen.exit, label %while.cond.i, !llvm.loop !59

strlen.exit:                                      ; preds = %while.cond.i
  %sub.ptr.lhs.cast.i = ptrtoint ptr %s.0.i to i32
  %sub.ptr.rhs.cast.i = ptrtoint ptr %front to i32
  %sub.ptr.sub.i = sub i32 %sub.ptr.lhs.cast.i, %sub.ptr.rhs.cast.i
  %sub = sub nsw i32 %precision, %n
  %shr.i = lshr i32 %width, 31
  %tobool.i = icmp ne i32 %shr.i, 0
  %sub.i = sub i32 0, %width
  %cond.i1 = select i1 %tobool.i, i32 %sub.i, i32 %width
  %spec.store.select = tail call i32 @llvm.smax.i32(i32 %sub, i32 0)
  %cmp5 = icmp slt i32 %precision, 0
  %and = and i32 %flags, 16
  %tobool.not = icmp ne i32 %and, 0
  %or.cond.not94 = and i1 %tobool.not, %cmp5
  %flags.masked = and i32 %flags, 1
  %and7 = or i32 %shr.i, %flags.masked
  %tobool8.not = icmp eq i32 %and7, 0
  %or.cond65 = and i1 %or.cond.not94, %tobool8.not
  %add = add i32 %sub.ptr.sub.i, %n
  %cmp10 = icmp sgt i32 %cond.i1, %add
  %or.cond66 = select i1 %or.cond65, i1 %cmp10, i1 false
  %sub13 = sub i32 %cond.i1, %add
  %zeros.0 = select i1 %or.cond66, i32 %sub13, i32 %spec.store.select
  %v2 = add i32 %add, %zeros.0
  %sub17 = sub i32 %cond.i1, %v2
  br i1 %tobool8.not, label %if.then20, label %if.end23

if.then20:                                        ; preds = %strlen.exit
  %cmp5.i = icmp sgt i32 %sub17, 0
  br i1 %cmp5.i, label %for.body.i, label %repeated.exit

for.body.i:                                       ; preds = %for.body.i, %if.then20
  %k.06.i = phi i32 [ %inc.i, %for.body.i ], [ 0, %if.then20 ]
  %call.i = tail call i32 @fputc(i32 noundef signext 32, ptr noundef %stream) #12
  %inc.i = add nuw nsw i32 %k.06.i, 1
  %exitcond.not.i = icmp eq i32 %inc.i, %sub17
  br i1 %exitcond.not.i, label %repeated.exit, label %for.body.i, !llvm.loop !67

repeated.exit:                                    ; preds = %for.body.i, %if.then20
  %cond.i = tail call noundef i32 @llvm.smax.i32(i32 %sub17, i32 0)
  br label %if.end23

if.end23:                                         ; preds = %repeated.exit, %strlen.exit
  %count.0 = phi i32 [ 0, %strlen.exit ], [ %cond.i, %repeated.exit ]
  %v3 = load i8, ptr %stream, align 4, !tbaa !49, !alias.scope !68, !noalias !71
  %cmp.i.i = icmp eq i8 %v3, 0
  %cmp210.not.i.i = icmp eq ptr %s.0.i, %front
  %or.cond.i = or i1 %cmp210.not.i.i, %cmp.i.i
  br i1 %or.cond.i, label %__print_text.exit, label %for.body.i.i

for.body.i.i:                                     ; preds = %for.body.i.i, %if.end23
  %k.011.i.i = phi i32 [ %inc.i.i, %for.body.i.i ], [ 0, %if.end23 ]
  %arrayidx.i.i = getelementptr inbounds i8, ptr %front, i32 %k.011.i.i
  %v4 = load i8, ptr %arrayidx.i.i, align 1, !tbaa !23, !alias.scope !71, !noalias !68
  %conv4.i.i = zext i8 %v4 to i32
  %call.i.i = tail call i32 @fputc(i32 noundef signext %conv4.i.i, ptr noundef nonnull %stream) #12, !noalias !71
  %inc.i.i = add nuw i32 %k.011.i.i, 1
  %exitcond.not.i.i = icmp eq i32 %inc.i.i, %sub.ptr.sub.i
  br i1 %exitcond.not.i.i, label %__print_text.exit, label %for.body.i.i, !llvm.loop !56

__print_text.exit:                                ; preds = %for.body.i.i, %if.end23
  %cmp5.i67 = icmp sgt i32 %zeros.0, 0
  br i1 %cmp5.i67, label %for.body.i69, label %repeated.exit74

for.body.i69:                                     ; preds = %for.body.i69, %__print_text.exit
  %k.06.i70 = phi i32 [ %inc.i72, %for.body.i69 ], [ 0, %__print_text.exit ]
  %call.i71 = tail call i32 @fputc(i32 noundef signext 48, ptr noundef nonnull %stream) #12
  %inc.i72 = add nuw nsw i32 %k.06.i70, 1
  %exitcond.not.i73 = icmp eq i32 %inc.i72, %zeros.0
  br i1 %exitcond.not.i73, label %repeated.exit74, label %for.body.i69, !llvm.loop !67

repeated.exit74:                                  ; preds = %for.body.i69, %__print_text.exit
  %cond.i68 = tail call noundef i32 @llvm.smax.i32(i32 %zeros.0, i32 0)
  %v5 = load i8, ptr %stream, align 4, !tbaa !49, !alias.scope !73, !noalias !76
  %cmp.i.i75 = icmp eq i8 %v5, 0
  %cmp210.not.i.i76 = icmp eq i32 %n, 0
  %or.cond.i77 = or i1 %cmp210.not.i.i76, %cmp.i.i75
  br i1 %or.cond.i77, label %__print_text.exit85, label %for.body.i.i78

for.body.i.i78:                                   ; preds = %for.body.i.i78, %repeated.exit74
  %k.011.i.i79 = phi i32 [ %inc.i.i83, %for.body.i.i78 ], [ 0, %repeated.exit74 ]
  %arrayidx.i.i80 = getelementptr inbounds i8, ptr %digits, i32 %k.011.i.i79
  %v6 = load i8, ptr %arrayidx.i.i80, align 1, !tbaa !23, !alias.scope !76, !noalias !73
  %conv4.i.i81 = zext i8 %v6 to i32
  %call.i.i82 = tail call i32 @fputc(i32 noundef signext %conv4.i.i81, ptr noundef nonnull %stream) #12, !noalias !76
  %inc.i.i83 = add nuw i32 %k.011.i.i79, 1
  %exitcond.not.i.i84 = icmp eq i32 %inc.i.i83, %n
  br i1 %exitcond.not.i.i84, label %__print_text.exit85, label %for.body.i.i78, !llvm.loop !56

__print_text.exit85:                              ; preds = %for.body.i.i78, %repeated.exit74
  %add27 = add i32 %add, %cond.i68
  %add29 = add i32 %add27, %count.0
  br i1 %tobool8.not, label %if.end35, label %if.then32

if.then32:                                        ; preds = %__print_text.exit85
  %cmp5.i86 = icmp sgt i32 %sub17, 0
  br i1 %cmp5.i86, label %for.body.i88, label %repeated.exit93

for.body.i88:                                     ; preds = %for.body.i88, %if.then32
  %k.06.i89 = phi i32 [ %inc.i91, %for.body.i88 ], [ 0, %if.then32 ]
  %call.i90 = tail call i32 @fputc(i32 noundef signext 32, ptr noundef nonnull %stream) #12
  %inc.i91 = add nuw nsw i32 %k.06.i89, 1
  %exitcond.not.i92 = icmp eq i32 %inc.i91, %sub17
  br i1 %exitcond.not.i92, label %repeated.exit93, label %for.body.i88, !llvm.loop !67

repeated.exit93:                                  ; preds = %for.body.i88, %if.then32
  %cond.i87 = tail call noundef i32 @llvm.smax.i32(i32 %sub17, i32 0)
  %add34 = add nsw i32 %add29, %cond.i87
  br label %if.end35

if.end35:                                         ; preds = %repeated.exit93, %__print_text.exit85
  %count.1 = phi i32 [ %add34, %repeated.exit93 ], [ %add29, %__print_text.exit85 ]
  ret i32 %count.1
}

; Function Attrs: nocallback nofree nosync nounwind speculatable willreturn memory(none)
declare i32 @llvm.smax.i32(i32, i32) #7

; Function Attrs: nounwind optsize
define internal range(i32 -1, 256) i32 @fputc(i32 noundef signext %c, ptr nocapture noundef %stream) local_unnamed_addr #1 {
entry:
  %v0 = load i8, ptr %stream, align 4, !tbaa !49
  switch i8 %v0, label %if.end18 [
    i8 1, label %if.then
    i8 3, label %land.lhs.true
    i8 0, label %return
  ]

if.then:                                          ; preds = %entry
  %call = tail call i32 @putchar(i32 noundef signext %c) #14
  br label %if.end18

land.lhs.true:                                    ; preds = %entry
  %left = getelementptr inbounds i8, ptr %stream, i32 8
  %v1 = load i32, ptr %left, align 4, !tbaa !78
  %cmp6.not = icmp eq i32 %v1, 0
  br i1 %cmp6.not, label %if.end18, label %if.then8

if.then8:                                         ; preds = %land.lhs.true
  %conv9 = trunc i32 %c to i8
  %at = getelementptr inbounds i8, ptr %stream, i32 4
  %v2 = load ptr, ptr %at, align 4, !tbaa !79
  %incdec.ptr = getelementptr inbounds i8, ptr %v2, i32 1
  store ptr %incdec.ptr, ptr %at, align 4, !tbaa !79
  store i8 %conv9, ptr %v2, align 1, !tbaa !23
  %v3 = load i32, ptr %left, align 4, !tbaa !78
  %dec = add i32 %v3, -1
  store i32 %dec, ptr %left, align 4, !tbaa !78
  br label %if.end18

if.end18:                                         ; preds = %if.then8, %land.lhs.true, %if.then, %entry
  %conv20 = and i32 %c, 255
  br label %return

return:                                           ; preds = %if.end18, %entry
  %retval.0 = phi i32 [ %conv20, %if.end18 ], [ -1, %entry ]
  ret i32 %retval.0
}

; Function Attrs: nounwind optsize
define internal fastcc i32 @padded(ptr nocapture noundef %stream, ptr nocapture noundef readonly %text, i32 noundef signext %n, i32 noundef signext %flags, i32 noundef signext %width) unnamed_addr #1 {
entry:
  %cmp = icmp slt i32 %width, 0
  %shr.i = lshr i32 %width, 31
  %tobool.i = icmp ne i32 %shr.i, 0
  %sub.i = sub i32 0, %width
  %cond.i1 = select i1 %tobool.i, i32 %sub.i, i32 %width
  %sub1 = sub nsw i32 %cond.i1, %n
  %and = and i32 %flags, 1
  %tobool = icmp ne i32 %and, 0
  %v0 = or i1 %cmp, %tobool
  br i1 %v0, label %cond.end6, label %cond.false5

cond.false5:                                      ; preds = %entry
  %cmp5.i = icmp sgt i32 %sub1, 0
  br i1 %cmp5.i, label %for.body.i, label %repeated.exit

for.body.i:                                       ; preds = %for.body.i, %cond.false5
  %k.06.i = phi i32 [ %inc.i, %for.body.i ], [ 0, %cond.false5 ]
  %call.i = tail call i32 @fputc(i32 noundef signext 32, ptr noundef %stream) #12
  %inc.i = add nuw nsw i32 %k.06.i, 1
  %exitcond.not.i = icmp eq i32 %inc.i, %sub1
  br i1 %exitcond.not.i, label %repeated.exit, label %for.body.i, !llvm.loop !67

repeated.exit:                                    ; preds = %for.body.i, %cond.false5
  %cond.i = tail call noundef i32 @llvm.smax.i32(i32 %sub1, i32 0)
  br label %cond.end6

cond.end6:                                        ; preds = %repeated.exit, %entry
  %cond7 = phi i32 [ %cond.i, %repeated.exit ], [ 0, %entry ]
  %v1 = load i8, ptr %stream, align 4, !tbaa !49, !alias.scope !80, !noalias !83
  %cmp.i.i = icmp eq i8 %v1, 0
  %cmp210.not.i.i = icmp eq i32 %n, 0
  %or.cond.i = or i1 %cmp210.not.i.i, %cmp.i.i
  br i1 %or.cond.i, label %__print_text.exit, label %for.body.i.i

for.body.i.i:                                     ; preds = %for.body.i.i, %cond.end6
  %k.011.i.i = phi i32 [ %inc.i.i, %for.body.i.i ], [ 0, %cond.end6 ]
  %arrayidx.i.i = getelementptr inbounds i8, ptr %text, i32 %k.011.i.i
  %v2 = load i8, ptr %arrayidx.i.i, align 1, !tbaa !23, !alias.scope !83, !noalias !80
  %conv4.i.i = zext i8 %v2 to i32
  %call.i.i = tail call i32 @fputc(i32 noundef signext %conv4.i.i, ptr noundef nonnull %stream) #12, !noalias !83
  %inc.i.i = add nuw i32 %k.011.i.i, 1
  %exitcond.not.i.i = icmp eq i32 %inc.i.i, %n
  br i1 %exitcond.not.i.i, label %__print_text.exit, label %for.body.i.i, !llvm.loop !56

__print_text.exit:                                ; preds = %for.body.i.i, %cond.end6
  br i1 %v0, label %cond.true10, label %cond.end13

cond.true10:                                      ; preds = %__print_text.exit
  %cmp5.i25 = icmp sgt i32 %sub1, 0
  br i1 %cmp5.i25, label %for.body.i27, label %repeated.exit32

for.body.i27:                                     ; preds = %for.body.i27, %cond.true10
  %k.06.i28 = phi i32 [ %inc.i30, %for.body.i27 ], [ 0, %cond.true10 ]
  %call.i29 = tail call i32 @fputc(i32 noundef signext 32, ptr noundef nonnull %stream) #12
  %inc.i30 = add nuw nsw i32 %k.06.i28, 1
  %exitcond.not.i31 = icmp eq i32 %inc.i30, %sub1
  br i1 %exitcond.not.i31, label %repeated.exit32, label %for.body.i27, !llvm.loop !67

repeated.exit32:                                  ; preds = %for.body.i27, %cond.true10
  %cond.i26 = tail call noundef i32 @llvm.smax.i32(i32 %sub1, i32 0)
  br label %cond.end13

cond.end13:                                       ; preds = %repeated.exit32, %__print_text.exit
  %cond14 = phi i32 [ %cond.i26, %repeated.exit32 ], [ 0, %__print_text.exit ]
  %add = add nsw i32 %cond7, %n
  %add15 = add nsw i32 %add, %cond14
  ret i32 %add15
}

; Function Attrs: nofree nounwind
define internal fastcc void @expression(ptr nocapture noundef %it) unnamed_addr #5 {
entry:
  tail call fastcc void @product(ptr noundef %it)
  %kind.i63 = getelementptr inbounds i8, ptr %it, i32 8
  %sign2.i66 = getelementptr inbounds i8, ptr %it, i32 32
  %to.i46 = getelementptr inbounds i8, ptr %it, i32 36
  %line.i.i59 = getelementptr inbounds i8, ptr %it, i32 4
  br label %for.cond.i

for.cond.i:                                       ; preds = %cleanup.i, %entry
  %v0 = load i32, ptr %kind.i63, align 4, !tbaa !14
  %cmp.i64 = icmp eq i32 %v0, 3
  br i1 %cmp.i64, label %land.rhs.i65, label %is_sign.exit

land.rhs.i65:                                     ; preds = %for.cond.i
  %v1 = load i32, ptr %sign2.i66, align 4, !tbaa !46
  %cmp3.i67 = icmp eq i32 %v1, 43
  br i1 %cmp3.i67, label %cond.end.i, label %land.rhs.i

land.rhs.i:                                       ; preds = %land.rhs.i65
  %cmp3.i = icmp eq i32 %v1, 45
  br label %is_sign.exit

is_sign.exit:                                     ; preds = %land.rhs.i, %for.cond.i
  %v3 = phi i1 [ %cmp3.i, %land.rhs.i ], [ false, %for.cond.i ]
  %cond.i = select i1 %v3, i32 5, i32 0
  br label %cond.end.i

cond.end.i:                                       ; preds = %is_sign.exit, %land.rhs.i65
  %cond2.i = phi i32 [ %cond.i, %is_sign.exit ], [ 4, %land.rhs.i65 ]
  %cmp.i.not = icmp eq i32 %cond2.i, 0
  br i1 %cmp.i.not, label %sum.exit, label %if.end.i

if.end.i:                                         ; preds = %cond.end.i
  tail call fastcc void @lexer_next(ptr noundef %it)
  tail call fastcc void @product(ptr noundef %it)
  %v4 = load ptr, ptr %to.i46, align 4, !tbaa !11
  %length.i47 = getelementptr inbounds i8, ptr %v4, i32 2000
  %v5 = load i32, ptr %length.i47, align 4, !tbaa !18
  %cmp.i48 = icmp eq i32 %v5, 2000
  br i1 %cmp.i48, label %if.then.i53, label %if.end.i49

if.then.i53:                                      ; preds = %if.end.i
  %fault.i.i54 = getelementptr inbounds i8, ptr %v4, i32 2648
  %v6 = load ptr, ptr %fault.i.i54, align 4, !tbaa !20
  %tobool.not.i.i55 = icmp eq ptr %v6, null
  br i1 %tobool.not.i.i55, label %if.then.i.i58, label %fail.exit.i56

if.then.i.i58:                                    ; preds = %if.then.i53
  store ptr @.str.10, ptr %fault.i.i54, align 4, !tbaa !20
  %v7 = load i32, ptr %line.i.i59, align 4, !tbaa !21
  %line4.i.i60 = getelementptr inbounds i8, ptr %v4, i32 2652
  store i32 %v7, ptr %line4.i.i60, align 4, !tbaa !22
  br label %fail.exit.i56

fail.exit.i56:                                    ; preds = %if.then.i.i58, %if.then.i53
  store i32 0, ptr %kind.i63, align 4, !tbaa !14
  br label %cleanup.i

if.end.i49:                                       ; preds = %if.end.i
  %conv.i50 = trunc nuw nsw i32 %cond2.i to i8
  %inc.i51 = add i32 %v5, 1
  store i32 %inc.i51, ptr %length.i47, align 4, !tbaa !18
  %arrayidx.i52 = getelementptr inbounds [2000 x i8], ptr %v4, i32 0, i32 %v5
  store i8 %conv.i50, ptr %arrayidx.i52, align 1, !tbaa !23
  br label %cleanup.i

cleanup.i:                                        ; preds = %if.end.i49, %fail.exit.i56
  br label %for.cond.i

sum.exit:                                         ; preds = %cond.end.i
  %v8 = load i32, ptr %kind.i63, align 4, !tbaa !14
  %cmp = icmp eq i32 %v8, 3
  br i1 %cmp, label %cond.true, label %cond.end

cond.true:                                        ; preds = %sum.exit
  %v9 = load i32, ptr %sign2.i66, align 4, !tbaa !46
  br label %cond.end

cond.end:                                         ; preds = %cond.true, %sum.exit
  %cond = phi i32 [ %v9, %cond.true ], [ 0, %sum.exit ]
  switch i32 %cond, label %cleanup [
    i32 318, label %if.end
    i32 317, label %if.end
    i32 289, label %if.end
    i32 60, label %if.end
  ]

if.end:                                           ; preds = %cond.end, %cond.end, %cond.end, %cond.end
  tail call fastcc void @lexer_next(ptr noundef %it)
  tail call fastcc void @product(ptr noundef %it)
  br label %for.cond.i17

for.cond.i17:                                     ; preds = %cleanup.i26, %if.end
  %v10 = load i32, ptr %kind.i63, align 4, !tbaa !14
  %cmp.i92 = icmp eq i32 %v10, 3
  br i1 %cmp.i92, label %land.rhs.i93, label %is_sign.exit90

land.rhs.i93:                                     ; preds = %for.cond.i17
  %v11 = load i32, ptr %sign2.i66, align 4, !tbaa !46
  %cmp3.i95 = icmp eq i32 %v11, 43
  br i1 %cmp3.i95, label %cond.end.i22, label %land.rhs.i87

land.rhs.i87:                                     ; preds = %land.rhs.i93
  %cmp3.i89 = icmp eq i32 %v11, 45
  br label %is_sign.exit90

is_sign.exit90:                                   ; preds = %land.rhs.i87, %for.cond.i17
  %v13 = phi i1 [ %cmp3.i89, %land.rhs.i87 ], [ false, %for.cond.i17 ]
  %cond.i21 = select i1 %v13, i32 5, i32 0
  br label %cond.end.i22

cond.end.i22:                                     ; preds = %is_sign.exit90, %land.rhs.i93
  %cond2.i23 = phi i32 [ %cond.i21, %is_sign.exit90 ], [ 4, %land.rhs.i93 ]
  %cmp.i24.not = icmp eq i32 %cond2.i23, 0
  br i1 %cmp.i24.not, label %sum.exit28, label %if.end.i25

if.end.i25:                                       ; preds = %cond.end.i22
  tail call fastcc void @lexer_next(ptr noundef %it)
  tail call fastcc void @product(ptr noundef %it)
  %v14 = load ptr, ptr %to.i46, align 4, !tbaa !11
  %length.i70 = getelementptr inbounds i8, ptr %v14, i32 2000
  %v15 = load i32, ptr %length.i70, align 4, !tbaa !18
  %cmp.i71 = icmp eq i32 %v15, 2000
  br i1 %cmp.i71, label %if.then.i76, label %if.end.i72

if.then.i76:                                      ; preds = %if.end.i25
  %fault.i.i77 = getelementptr inbounds i8, ptr %v14, i32 2648
  %v16 = load ptr, ptr %fault.i.i77, align 4, !tbaa !20
  %tobool.not.i.i78 = icmp eq ptr %v16, null
  br i1 %tobool.not.i.i78, label %if.then.i.i81, label %fail.exit.i79

if.then.i.i81:                                    ; preds = %if.then.i76
  store ptr @.str.10, ptr %fault.i.i77, align 4, !tbaa !20
  %v17 = load i32, ptr %line.i.i59, align 4, !tbaa !21
  %line4.i.i83 = getelementptr inbounds i8, ptr %v14, i32 2652
  store i32 %v17, ptr %line4.i.i83, align 4, !tbaa !22
  br label %fail.exit.i79

fail.exit.i79:                                    ; preds = %if.then.i.i81, %if.then.i76
  store i32 0, ptr %kind.i63, align 4, !tbaa !14
  br label %cleanup.i26

if.end.i72:                                       ; preds = %if.end.i25
  %conv.i73 = trunc nuw nsw i32 %cond2.i23 to i8
  %inc.i74 = add i32 %v15, 1
  store i32 %inc.i74, ptr %length.i70, align 4, !tbaa !18
  %arrayidx.i75 = getelementptr inbounds [2000 x i8], ptr %v14, i32 0, i32 %v15
  store i8 %conv.i73, ptr %arrayidx.i75, align 1, !tbaa !23
  br label %cleanup.i26

cleanup.i26:                                      ; preds = %if.end.i72, %fail.exit.i79
  br label %for.cond.i17

sum.exit28:                                       ; preds = %cond.end.i22
  %v18 = load ptr, ptr %to.i46, align 4, !tbaa !11
  %length.i = getelementptr inbounds i8, ptr %v18, i32 2000
  %v19 = load i32, ptr %length.i, align 4, !tbaa !18
  %cmp.i29 = icmp eq i32 %v19, 2000
  br i1 %cmp.i29, label %if.then.i, label %if.end.i30

if.then.i:                                        ; preds = %sum.exit28
  %fault.i.i = getelementptr inbounds i8, ptr %v18, i32 2648
  %v20 = load ptr, ptr %fault.i.i, align 4, !tbaa !20
  %tobool.not.i.i = icmp eq ptr %v20, null
  br i1 %tobool.not.i.i, label %if.then.i.i, label %fail.exit.i

if.then.i.i:                                      ; preds = %if.then.i
  store ptr @.str.10, ptr %fault.i.i, align 4, !tbaa !20
  %v21 = load i32, ptr %line.i.i59, align 4, !tbaa !21
  %line4.i.i = getelementptr inbounds i8, ptr %v18, i32 2652
  store i32 %v21, ptr %line4.i.i, align 4, !tbaa !22
  br label %fail.exit.i

fail.exit.i:                                      ; preds = %if.then.i.i, %if.then.i
  store i32 0, ptr %kind.i63, align 4, !tbaa !14
  br label %emit.exit

if.end.i30:                                       ; preds = %sum.exit28
  %cmp10 = icmp eq i32 %cond, 60
  %cmp11 = icmp eq i32 %cond, 318
  %v22 = or i1 %cmp10, %cmp11
  %conv.i = select i1 %v22, i8 9, i8 10
  %inc.i = add i32 %v19, 1
  store i32 %inc.i, ptr %length.i, align 4, !tbaa !18
  %arrayidx.i = getelementptr inbounds [2000 x i8], ptr %v18, i32 0, i32 %v19
  store i8 %conv.i, ptr %arrayidx.i, align 1, !tbaa !23
  br label %emit.exit

emit.exit:                                        ; preds = %if.end.i30, %fail.exit.i
  switch i32 %cond, label %cleanup [
    i32 318, label %if.then15
    i32 289, label %if.then15
  ]

if.then15:                                        ; preds = %emit.exit, %emit.exit
  %v23 = load ptr, ptr %to.i46, align 4, !tbaa !11
  %length.i32 = getelementptr inbounds i8, ptr %v23, i32 2000
  %v24 = load i32, ptr %length.i32, align 4, !tbaa !18
  %cmp.i33 = icmp eq i32 %v24, 2000
  br i1 %cmp.i33, label %if.then.i37, label %if.end.i34

if.then.i37:                                      ; preds = %if.then15
  %fault.i.i38 = getelementptr inbounds i8, ptr %v23, i32 2648
  %v25 = load ptr, ptr %fault.i.i38, align 4, !tbaa !20
  %tobool.not.i.i39 = icmp eq ptr %v25, null
  br i1 %tobool.not.i.i39, label %if.then.i.i42, label %fail.exit.i40

if.then.i.i42:                                    ; preds = %if.then.i37
  store ptr @.str.10, ptr %fault.i.i38, align 4, !tbaa !20
  %v26 = load i32, ptr %line.i.i59, align 4, !tbaa !21
  %line4.i.i44 = getelementptr inbounds i8, ptr %v23, i32 2652
  store i32 %v26, ptr %line4.i.i44, align 4, !tbaa !22
  br label %fail.exit.i40

fail.exit.i40:                                    ; preds = %if.then.i.i42, %if.then.i37
  store i32 0, ptr %kind.i63, align 4, !tbaa !14
  br label %cleanup

if.end.i34:                                       ; preds = %if.then15
  %inc.i35 = add i32 %v24, 1
  store i32 %inc.i35, ptr %length.i32, align 4, !tbaa !18
  %arrayidx.i36 = getelementptr inbounds [2000 x i8], ptr %v23, i32 0, i32 %v24
  store i8 11, ptr %arrayidx.i36, align 1, !tbaa !23
  br label %cleanup

cleanup:                                          ; preds = %if.end.i34, %fail.exit.i40, %emit.exit, %cond.end
  ret void
}

; Function Attrs: nofree nounwind
define internal fastcc void @block(ptr noundef %it) unnamed_addr #5 {
entry:
  %kind.i.i.i = getelementptr inbounds i8, ptr %it, i32 8
  %v0 = load i32, ptr %kind.i.i.i, align 4, !tbaa !14
  %cmp.i.i.i = icmp eq i32 %v0, 3
  br i1 %cmp.i.i.i, label %land.rhs.i.i.i, label %if.then.i

land.rhs.i.i.i:                                   ; preds = %entry
  %sign2.i.i.i = getelementptr inbounds i8, ptr %it, i32 32
  %v1 = load i32, ptr %sign2.i.i.i, align 4, !tbaa !46
  %cmp3.i.i.i = icmp eq i32 %v1, 123
  br i1 %cmp3.i.i.i, label %if.end.i.i, label %if.then.i

if.end.i.i:                                       ; preds = %land.rhs.i.i.i
  tail call fastcc void @lexer_next(ptr noundef %it)
  br label %expect.exit

if.then.i:                                        ; preds = %land.rhs.i.i.i, %entry
  %to.i.i = getelementptr inbounds i8, ptr %it, i32 36
  %v2 = load ptr, ptr %to.i.i, align 4, !tbaa !11
  %fault.i.i = getelementptr inbounds i8, ptr %v2, i32 2648
  %v3 = load ptr, ptr %fault.i.i, align 4, !tbaa !20
  %tobool.not.i.i = icmp eq ptr %v3, null
  br i1 %tobool.not.i.i, label %if.then.i.i, label %fail.exit.i

if.then.i.i:                                      ; preds = %if.then.i
  store ptr @.str.4, ptr %fault.i.i, align 4, !tbaa !20
  %line.i.i = getelementptr inbounds i8, ptr %it, i32 4
  %v4 = load i32, ptr %line.i.i, align 4, !tbaa !21
  %line4.i.i = getelementptr inbounds i8, ptr %v2, i32 2652
  store i32 %v4, ptr %line4.i.i, align 4, !tbaa !22
  br label %fail.exit.i

fail.exit.i:                                      ; preds = %if.then.i.i, %if.then.i
  store i32 0, ptr %kind.i.i.i, align 4, !tbaa !14
  br label %expect.exit

expect.exit:                                      ; preds = %fail.exit.i, %if.end.i.i
  %sign2.i = getelementptr inbounds i8, ptr %it, i32 32
  br label %while.cond

while.cond:                                       ; preds = %while.body, %expect.exit
  %v5 = load i32, ptr %kind.i.i.i, align 4, !tbaa !14
  switch i32 %v5, label %while.body [
    i32 3, label %land.rhs.i
    i32 0, label %if.then.i7
  ]

land.rhs.i:                                       ; preds = %while.cond
  %v6 = load i32, ptr %sign2.i, align 4, !tbaa !46
  %cmp3.i = icmp eq i32 %v6, 125
  br i1 %cmp3.i, label %while.end, label %while.body

while.body:                                       ; preds = %land.rhs.i, %while.cond
  tail call fastcc void @statement(ptr noundef %it)
  br label %while.cond, !llvm.loop !85

while.end:                                        ; preds = %land.rhs.i
  %cmp.i.i.i6 = icmp eq i32 %v5, 3
  br i1 %cmp.i.i.i6, label %if.end.i.i18, label %if.then.i7

if.end.i.i18:                                     ; preds = %while.end
  tail call fastcc void @lexer_next(ptr noundef %it)
  br label %expect.exit19

if.then.i7:                                       ; preds = %while.end, %while.cond
  %to.i.i8 = getelementptr inbounds i8, ptr %it, i32 36
  %v8 = load ptr, ptr %to.i.i8, align 4, !tbaa !11
  %fault.i.i9 = getelementptr inbounds i8, ptr %v8, i32 2648
  %v9 = load ptr, ptr %fault.i.i9, align 4, !tbaa !20
  %tobool.not.i.i10 = icmp eq ptr %v9, null
  br i1 %tobool.not.i.i10, label %if.then.i.i12, label %fail.exit.i11

if.then.i.i12:                                    ; preds = %if.then.i7
  store ptr @.str.5, ptr %fault.i.i9, align 4, !tbaa !20
  %line.i.i13 = getelementptr inbounds i8, ptr %it, i32 4
  %v10 = load i32, ptr %line.i.i13, align 4, !tbaa !21
  %line4.i.i14 = getelementptr inbounds i8, ptr %v8, i32 2652
  store i32 %v10, ptr %line4.i.i14, align 4, !tbaa !22
  br label %fail.exit.i11

fail.exit.i11:                                    ; preds = %if.then.i.i12, %if.then.i7
  store i32 0, ptr %kind.i.i.i, align 4, !tbaa !14
  br label %expect.exit19

expect.exit19:                                    ; preds = %fail.exit.i11, %if.end.i.i18
  ret void
}

; Function Attrs: nofree norecurse nosync nounwind optsize memory(read, inaccessiblemem: none)
define internal range(i32 -1, 2) i32 @strcmp(ptr nocapture noundef readonly %a, ptr nocapture noundef readonly %b) local_unnamed_addr #2 {
entry:
  %v0 = load i8, ptr %a, align 1, !tbaa !23
  %tobool.not20 = icmp eq i8 %v0, 0
  br i1 %tobool.not20, label %while.end, label %land.rhs

land.rhs:                                         ; preds = %while.body, %entry
  %v1 = phi i8 [ %v3, %while.body ], [ %v0, %entry ]
  %t.022 = phi ptr [ %incdec.ptr4, %while.body ], [ %b, %entry ]
  %s.021 = phi ptr [ %incdec.ptr, %while.body ], [ %a, %entry ]
  %v2 = load i8, ptr %t.022, align 1, !tbaa !23
  %cmp = icmp eq i8 %v1, %v2
  br i1 %cmp, label %while.body, label %while.end

while.body:                                       ; preds = %land.rhs
  %incdec.ptr = getelementptr inbounds i8, ptr %s.021, i32 1
  %incdec.ptr4 = getelementptr inbounds i8, ptr %t.022, i32 1
  %v3 = load i8, ptr %incdec.ptr, align 1, !tbaa !23
  %tobool.not = icmp eq i8 %v3, 0
  br i1 %tobool.not, label %while.end, label %land.rhs, !llvm.loop !86

while.end:                                        ; preds = %while.body, %land.rhs, %entry
  %t.0.lcssa = phi ptr [ %b, %entry ], [ %incdec.ptr4, %while.body ], [ %t.022, %land.rhs ]
  %.lcssa = phi i8 [ 0, %entry ], [ 0, %while.body ], [ %v1, %land.rhs ]
  %v4 = load i8, ptr %t.0.lcssa, align 1, !tbaa !23
  %cmp7 = icmp ult i8 %.lcssa, %v4
  %cmp11 = icmp ugt i8 %.lcssa, %v4
  %conv12 = zext i1 %cmp11 to i32
  %cond = select i1 %cmp7, i32 -1, i32 %conv12
  ret i32 %cond
}

; Function Attrs: nofree nounwind
define internal fastcc void @product(ptr nocapture noundef %it) unnamed_addr #5 {
entry:
  tail call fastcc void @primary(ptr noundef %it)
  %kind.i = getelementptr inbounds i8, ptr %it, i32 8
  %sign2.i = getelementptr inbounds i8, ptr %it, i32 32
  %to.i = getelementptr inbounds i8, ptr %it, i32 36
  %line.i.i = getelementptr inbounds i8, ptr %it, i32 4
  br label %for.cond

for.cond:                                         ; preds = %cleanup, %entry
  %v0 = load i32, ptr %kind.i, align 4, !tbaa !14
  %cmp.i = icmp eq i32 %v0, 3
  br i1 %cmp.i, label %land.rhs.i, label %is_sign.exit19

land.rhs.i:                                       ; preds = %for.cond
  %v1 = load i32, ptr %sign2.i, align 4, !tbaa !46
  switch i32 %v1, label %land.rhs.i16 [
    i32 42, label %cond.end6
    i32 47, label %cond.end6.fold.split
    i32 37, label %is_sign.exit19
  ]

land.rhs.i16:                                     ; preds = %land.rhs.i
  br label %is_sign.exit19

is_sign.exit19:                                   ; preds = %land.rhs.i16, %land.rhs.i, %for.cond
  %v4 = phi i1 [ false, %land.rhs.i16 ], [ false, %for.cond ], [ true, %land.rhs.i ]
  %cond = select i1 %v4, i32 8, i32 0
  br label %cond.end6

cond.end6.fold.split:                             ; preds = %land.rhs.i
  br label %cond.end6

cond.end6:                                        ; preds = %cond.end6.fold.split, %is_sign.exit19, %land.rhs.i
  %cond7 = phi i32 [ 6, %land.rhs.i ], [ %cond, %is_sign.exit19 ], [ 7, %cond.end6.fold.split ]
  %cmp.not = icmp eq i32 %cond7, 0
  br i1 %cmp.not, label %return, label %if.end

if.end:                                           ; preds = %cond.end6
  tail call fastcc void @lexer_next(ptr noundef %it)
  tail call fastcc void @primary(ptr noundef %it)
  %v5 = load ptr, ptr %to.i, align 4, !tbaa !11
  %length.i = getelementptr inbounds i8, ptr %v5, i32 2000
  %v6 = load i32, ptr %length.i, align 4, !tbaa !18
  %cmp.i20 = icmp eq i32 %v6, 2000
  br i1 %cmp.i20, label %if.then.i, label %if.end.i

if.then.i:                                        ; preds = %if.end
  %fault.i.i = getelementptr inbounds i8, ptr %v5, i32 2648
  %v7 = load ptr, ptr %fault.i.i, align 4, !tbaa !20
  %tobool.not.i.i = icmp eq ptr %v7, null
  br i1 %tobool.not.i.i, label %if.then.i.i, label %fail.exit.i

if.then.i.i:                                      ; preds = %if.then.i
  store ptr @.str.10, ptr %fault.i.i, align 4, !tbaa !20
  %v8 = load i32, ptr %line.i.i, align 4, !tbaa !21
  %line4.i.i = getelementptr inbounds i8, ptr %v5, i32 2652
  store i32 %v8, ptr %line4.i.i, align 4, !tbaa !22
  br label %fail.exit.i

fail.exit.i:                                      ; preds = %if.then.i.i, %if.then.i
  store i32 0, ptr %kind.i, align 4, !tbaa !14
  br label %cleanup

if.end.i:                                         ; preds = %if.end
  %conv.i = trunc nuw nsw i32 %cond7 to i8
  %inc.i = add i32 %v6, 1
  store i32 %inc.i, ptr %length.i, align 4, !tbaa !18
  %arrayidx.i = getelementptr inbounds [2000 x i8], ptr %v5, i32 0, i32 %v6
  store i8 %conv.i, ptr %arrayidx.i, align 1, !tbaa !23
  br label %cleanup

cleanup:                                          ; preds = %if.end.i, %fail.exit.i
  br label %for.cond

return:                                           ; preds = %cond.end6
  ret void
}

; Function Attrs: nofree nounwind
define internal fastcc void @primary(ptr nocapture noundef %it) unnamed_addr #5 {
entry:
  %depth = getelementptr inbounds i8, ptr %it, i32 40
  %v0 = load i32, ptr %depth, align 4, !tbaa !13
  %inc = add nsw i32 %v0, 1
  store i32 %inc, ptr %depth, align 4, !tbaa !13
  %cmp = icmp sgt i32 %v0, 29
  br i1 %cmp, label %if.then, label %if.end

if.then:                                          ; preds = %entry
  %to.i = getelementptr inbounds i8, ptr %it, i32 36
  %v1 = load ptr, ptr %to.i, align 4, !tbaa !11
  %fault.i = getelementptr inbounds i8, ptr %v1, i32 2648
  %v2 = load ptr, ptr %fault.i, align 4, !tbaa !20
  %tobool.not.i = icmp eq ptr %v2, null
  br i1 %tobool.not.i, label %if.then.i, label %fail.exit

if.then.i:                                        ; preds = %if.then
  store ptr @.str.6, ptr %fault.i, align 4, !tbaa !20
  %line.i = getelementptr inbounds i8, ptr %it, i32 4
  %v3 = load i32, ptr %line.i, align 4, !tbaa !21
  %line4.i = getelementptr inbounds i8, ptr %v1, i32 2652
  store i32 %v3, ptr %line4.i, align 4, !tbaa !22
  br label %fail.exit

fail.exit:                                        ; preds = %if.then.i, %if.then
  %kind.i = getelementptr inbounds i8, ptr %it, i32 8
  store i32 0, ptr %kind.i, align 4, !tbaa !14
  br label %if.end

if.end:                                           ; preds = %fail.exit, %entry
  %kind = getelementptr inbounds i8, ptr %it, i32 8
  %v4 = load i32, ptr %kind, align 4, !tbaa !14
  switch i32 %v4, label %if.else14 [
    i32 1, label %if.then2
    i32 2, label %if.then8
    i32 3, label %land.rhs.i.i
  ]

if.then2:                                         ; preds = %if.end
  %number = getelementptr inbounds i8, ptr %it, i32 12
  %v5 = load i32, ptr %number, align 4, !tbaa !87
  %to.i.i = getelementptr inbounds i8, ptr %it, i32 36
  %v6 = load ptr, ptr %to.i.i, align 4, !tbaa !11
  %length.i.i = getelementptr inbounds i8, ptr %v6, i32 2000
  %v7 = load i32, ptr %length.i.i, align 4, !tbaa !18
  %cmp.i.i = icmp eq i32 %v7, 2000
  br i1 %cmp.i.i, label %if.then.i.i, label %if.end.i.i

if.then.i.i:                                      ; preds = %if.then2
  %fault.i.i.i = getelementptr inbounds i8, ptr %v6, i32 2648
  %v8 = load ptr, ptr %fault.i.i.i, align 4, !tbaa !20
  %tobool.not.i.i.i = icmp eq ptr %v8, null
  br i1 %tobool.not.i.i.i, label %if.then.i.i.i, label %fail.exit.i.i

if.then.i.i.i:                                    ; preds = %if.then.i.i
  store ptr @.str.10, ptr %fault.i.i.i, align 4, !tbaa !20
  %line.i.i.i = getelementptr inbounds i8, ptr %it, i32 4
  %v9 = load i32, ptr %line.i.i.i, align 4, !tbaa !21
  %line4.i.i.i = getelementptr inbounds i8, ptr %v6, i32 2652
  store i32 %v9, ptr %line4.i.i.i, align 4, !tbaa !22
  br label %fail.exit.i.i

fail.exit.i.i:                                    ; preds = %if.then.i.i.i, %if.then.i.i
  store i32 0, ptr %kind, align 4, !tbaa !14
  br label %emit.exit.i

if.end.i.i:                                       ; preds = %if.then2
  %inc.i.i = add i32 %v7, 1
  store i32 %inc.i.i, ptr %length.i.i, align 4, !tbaa !18
  %arrayidx.i.i = getelementptr inbounds [2000 x i8], ptr %v6, i32 0, i32 %v7
  store i8 1, ptr %arrayidx.i.i, align 1, !tbaa !23
  br label %emit.exit.i

emit.exit.i:                                      ; preds = %if.end.i.i, %fail.exit.i.i
  %line.i.i16.i = getelementptr inbounds i8, ptr %it, i32 4
  br label %for.body.i

for.body.i:                                       ; preds = %emit.exit18.i, %emit.exit.i
  %k.019.i = phi i32 [ 0, %emit.exit.i ], [ %inc.i, %emit.exit18.i ]
  %v10 = load ptr, ptr %to.i.i, align 4, !tbaa !11
  %length.i5.i = getelementptr inbounds i8, ptr %v10, i32 2000
  %v11 = load i32, ptr %length.i5.i, align 4, !tbaa !18
  %cmp.i6.i = icmp eq i32 %v11, 2000
  br i1 %cmp.i6.i, label %if.then.i10.i, label %if.end.i7.i

if.then.i10.i:                                    ; preds = %for.body.i
  %fault.i.i11.i = getelementptr inbounds i8, ptr %v10, i32 2648
  %v12 = load ptr, ptr %fault.i.i11.i, align 4, !tbaa !20
  %tobool.not.i.i12.i = icmp eq ptr %v12, null
  br i1 %tobool.not.i.i12.i, label %if.then.i.i15.i, label %fail.exit.i13.i

if.then.i.i15.i:                                  ; preds = %if.then.i10.i
  store ptr @.str.10, ptr %fault.i.i11.i, align 4, !tbaa !20
  %v13 = load i32, ptr %line.i.i16.i, align 4, !tbaa !21
  %line4.i.i17.i = getelementptr inbounds i8, ptr %v10, i32 2652
  store i32 %v13, ptr %line4.i.i17.i, align 4, !tbaa !22
  br label %fail.exit.i13.i

fail.exit.i13.i:                                  ; preds = %if.then.i.i15.i, %if.then.i10.i
  store i32 0, ptr %kind, align 4, !tbaa !14
  br label %emit.exit18.i

if.end.i7.i:                                      ; preds = %for.body.i
  %mul.i = shl nuw nsw i32 %k.019.i, 3
  %shr.i = lshr i32 %v5, %mul.i
  %conv.i.i = trunc i32 %shr.i to i8
  %inc.i8.i = add i32 %v11, 1
  store i32 %inc.i8.i, ptr %length.i5.i, align 4, !tbaa !18
  %arrayidx.i9.i = getelementptr inbounds [2000 x i8], ptr %v10, i32 0, i32 %v11
  store i8 %conv.i.i, ptr %arrayidx.i9.i, align 1, !tbaa !23
  br label %emit.exit18.i

emit.exit18.i:                                    ; preds = %if.end.i7.i, %fail.exit.i13.i
  %inc.i = add nuw nsw i32 %k.019.i, 1
  %exitcond.not.i = icmp eq i32 %inc.i, 4
  br i1 %exitcond.not.i, label %emit_number.exit, label %for.body.i, !llvm.loop !88

emit_number.exit:                                 ; preds = %emit.exit18.i
  tail call fastcc void @lexer_next(ptr noundef %it)
  br label %if.end25

if.then8:                                         ; preds = %if.end
  %to.i23 = getelementptr inbounds i8, ptr %it, i32 36
  %v14 = load ptr, ptr %to.i23, align 4, !tbaa !11
  %length.i = getelementptr inbounds i8, ptr %v14, i32 2000
  %v15 = load i32, ptr %length.i, align 4, !tbaa !18
  %cmp.i = icmp eq i32 %v15, 2000
  br i1 %cmp.i, label %if.then.i25, label %if.end.i

if.then.i25:                                      ; preds = %if.then8
  %fault.i.i = getelementptr inbounds i8, ptr %v14, i32 2648
  %v16 = load ptr, ptr %fault.i.i, align 4, !tbaa !20
  %tobool.not.i.i = icmp eq ptr %v16, null
  br i1 %tobool.not.i.i, label %if.then.i.i26, label %fail.exit.i

if.then.i.i26:                                    ; preds = %if.then.i25
  store ptr @.str.10, ptr %fault.i.i, align 4, !tbaa !20
  %line.i.i = getelementptr inbounds i8, ptr %it, i32 4
  %v17 = load i32, ptr %line.i.i, align 4, !tbaa !21
  %line4.i.i = getelementptr inbounds i8, ptr %v14, i32 2652
  store i32 %v17, ptr %line4.i.i, align 4, !tbaa !22
  br label %fail.exit.i

fail.exit.i:                                      ; preds = %if.then.i.i26, %if.then.i25
  store i32 0, ptr %kind, align 4, !tbaa !14
  br label %emit.exit

if.end.i:                                         ; preds = %if.then8
  %inc.i24 = add i32 %v15, 1
  store i32 %inc.i24, ptr %length.i, align 4, !tbaa !18
  %arrayidx.i = getelementptr inbounds [2000 x i8], ptr %v14, i32 0, i32 %v15
  store i8 2, ptr %arrayidx.i, align 1, !tbaa !23
  br label %emit.exit

emit.exit:                                        ; preds = %if.end.i, %fail.exit.i
  %name = getelementptr inbounds i8, ptr %it, i32 16
  %v18 = load ptr, ptr %to.i23, align 4, !tbaa !11
  %variables.i = getelementptr inbounds i8, ptr %v18, i32 2644
  %v19 = load i32, ptr %variables.i, align 4, !tbaa !30
  %cmp.not19.i = icmp sgt i32 %v19, 0
  br i1 %cmp.not19.i, label %for.body.lr.ph.i, label %for.end.i

for.body.lr.ph.i:                                 ; preds = %emit.exit
  %names.i = getelementptr inbounds i8, ptr %v18, i32 2004
  %call.i125 = tail call i32 @strcmp(ptr noundef nonnull dereferenceable(1) %names.i, ptr noundef nonnull readonly dereferenceable(1) %name) #11
  %cmp2.i126 = icmp eq i32 %call.i125, 0
  br i1 %cmp2.i126, label %cleanup.i, label %for.inc.i

for.body.i35:                                     ; preds = %for.inc.i
  %arrayidx.i36 = getelementptr inbounds [40 x [16 x i8]], ptr %names.i, i32 0, i32 %inc.i37
  %call.i = tail call i32 @strcmp(ptr noundef nonnull dereferenceable(1) %arrayidx.i36, ptr noundef nonnull readonly dereferenceable(1) %name) #11
  %cmp2.i = icmp eq i32 %call.i, 0
  br i1 %cmp2.i, label %cleanup.i.loopexit, label %for.inc.i, !llvm.loop !89

for.inc.i:                                        ; preds = %for.body.i35, %for.body.lr.ph.i
  %k.020.i127 = phi i32 [ %inc.i37, %for.body.i35 ], [ 0, %for.body.lr.ph.i ]
  %inc.i37 = add nuw nsw i32 %k.020.i127, 1
  %exitcond.not.i38 = icmp eq i32 %inc.i37, %v19
  br i1 %exitcond.not.i38, label %for.end.i, label %for.body.i35, !llvm.loop !89

cleanup.i.loopexit:                               ; preds = %for.body.i35
  %cmp.not.i = icmp slt i32 %inc.i37, %v19
  br label %cleanup.i

cleanup.i:                                        ; preds = %cleanup.i.loopexit, %for.body.lr.ph.i
  %cmp.not21.i.lcssa = phi i1 [ true, %for.body.lr.ph.i ], [ %cmp.not.i, %cleanup.i.loopexit ]
  %k.020.i.lcssa = phi i32 [ 0, %for.body.lr.ph.i ], [ %inc.i37, %cleanup.i.loopexit ]
  br i1 %cmp.not21.i.lcssa, label %variable.exit, label %for.end.i

for.end.i:                                        ; preds = %cleanup.i, %for.inc.i, %emit.exit
  %cmp5.i = icmp eq i32 %v19, 40
  br i1 %cmp5.i, label %if.then6.i, label %if.end7.i

if.then6.i:                                       ; preds = %for.end.i
  %fault.i.i28 = getelementptr inbounds i8, ptr %v18, i32 2648
  %v20 = load ptr, ptr %fault.i.i28, align 4, !tbaa !20
  %tobool.not.i.i29 = icmp eq ptr %v20, null
  br i1 %tobool.not.i.i29, label %if.then.i.i32, label %fail.exit.i30

if.then.i.i32:                                    ; preds = %if.then6.i
  store ptr @.str.9, ptr %fault.i.i28, align 4, !tbaa !20
  %line.i.i33 = getelementptr inbounds i8, ptr %it, i32 4
  %v21 = load i32, ptr %line.i.i33, align 4, !tbaa !21
  %line4.i.i34 = getelementptr inbounds i8, ptr %v18, i32 2652
  store i32 %v21, ptr %line4.i.i34, align 4, !tbaa !22
  br label %fail.exit.i30

fail.exit.i30:                                    ; preds = %if.then.i.i32, %if.then6.i
  store i32 0, ptr %kind, align 4, !tbaa !14
  br label %variable.exit

if.end7.i:                                        ; preds = %for.end.i
  %names9.i = getelementptr inbounds i8, ptr %v18, i32 2004
  %arrayidx12.i = getelementptr inbounds [40 x [16 x i8]], ptr %names9.i, i32 0, i32 %v19
  %call14.i = tail call ptr @strcpy(ptr noundef nonnull dereferenceable(1) %arrayidx12.i, ptr noundef nonnull readonly dereferenceable(1) %name) #11
  %v22 = load ptr, ptr %to.i23, align 4, !tbaa !11
  %variables16.i = getelementptr inbounds i8, ptr %v22, i32 2644
  %v23 = load i32, ptr %variables16.i, align 4, !tbaa !30
  %inc17.i = add nsw i32 %v23, 1
  store i32 %inc17.i, ptr %variables16.i, align 4, !tbaa !30
  br label %variable.exit

variable.exit:                                    ; preds = %if.end7.i, %fail.exit.i30, %cleanup.i
  %retval.1.i = phi i32 [ %k.020.i.lcssa, %cleanup.i ], [ 0, %fail.exit.i30 ], [ %v23, %if.end7.i ]
  %v24 = load ptr, ptr %to.i23, align 4, !tbaa !11
  %length.i40 = getelementptr inbounds i8, ptr %v24, i32 2000
  %v25 = load i32, ptr %length.i40, align 4, !tbaa !18
  %cmp.i41 = icmp eq i32 %v25, 2000
  br i1 %cmp.i41, label %if.then.i45, label %if.end.i42

if.then.i45:                                      ; preds = %variable.exit
  %fault.i.i46 = getelementptr inbounds i8, ptr %v24, i32 2648
  %v26 = load ptr, ptr %fault.i.i46, align 4, !tbaa !20
  %tobool.not.i.i47 = icmp eq ptr %v26, null
  br i1 %tobool.not.i.i47, label %if.then.i.i50, label %fail.exit.i48

if.then.i.i50:                                    ; preds = %if.then.i45
  store ptr @.str.10, ptr %fault.i.i46, align 4, !tbaa !20
  %line.i.i51 = getelementptr inbounds i8, ptr %it, i32 4
  %v27 = load i32, ptr %line.i.i51, align 4, !tbaa !21
  %line4.i.i52 = getelementptr inbounds i8, ptr %v24, i32 2652
  store i32 %v27, ptr %line4.i.i52, align 4, !tbaa !22
  br label %fail.exit.i48

fail.exit.i48:                                    ; preds = %if.then.i.i50, %if.then.i45
  store i32 0, ptr %kind, align 4, !tbaa !14
  br label %emit.exit53

if.end.i42:                                       ; preds = %variable.exit
  %conv.i = trunc i32 %retval.1.i to i8
  %inc.i43 = add i32 %v25, 1
  store i32 %inc.i43, ptr %length.i40, align 4, !tbaa !18
  %arrayidx.i44 = getelementptr inbounds [2000 x i8], ptr %v24, i32 0, i32 %v25
  store i8 %conv.i, ptr %arrayidx.i44, align 1, !tbaa !23
  br label %emit.exit53

emit.exit53:                                      ; preds = %if.end.i42, %fail.exit.i48
  tail call fastcc void @lexer_next(ptr noundef %it)
  br label %if.end25

land.rhs.i.i:                                     ; preds = %if.end
  %sign2.i.i = getelementptr inbounds i8, ptr %it, i32 32
  %v28 = load i32, ptr %sign2.i.i, align 4, !tbaa !46
  %cmp3.i.i = icmp eq i32 %v28, 40
  br i1 %cmp3.i.i, label %if.end.i56, label %if.else14

if.end.i56:                                       ; preds = %land.rhs.i.i
  tail call fastcc void @lexer_next(ptr noundef %it)
  tail call fastcc void @expression(ptr noundef %it)
  %v29 = load i32, ptr %kind, align 4, !tbaa !14
  %cmp.i.i.i = icmp eq i32 %v29, 3
  br i1 %cmp.i.i.i, label %land.rhs.i.i.i, label %if.then.i58

land.rhs.i.i.i:                                   ; preds = %if.end.i56
  %v30 = load i32, ptr %sign2.i.i, align 4, !tbaa !46
  %cmp3.i.i.i = icmp eq i32 %v30, 41
  br i1 %cmp3.i.i.i, label %if.end.i.i67, label %if.then.i58

if.end.i.i67:                                     ; preds = %land.rhs.i.i.i
  tail call fastcc void @lexer_next(ptr noundef %it)
  br label %if.end25

if.then.i58:                                      ; preds = %land.rhs.i.i.i, %if.end.i56
  %to.i.i59 = getelementptr inbounds i8, ptr %it, i32 36
  %v31 = load ptr, ptr %to.i.i59, align 4, !tbaa !11
  %fault.i.i60 = getelementptr inbounds i8, ptr %v31, i32 2648
  %v32 = load ptr, ptr %fault.i.i60, align 4, !tbaa !20
  %tobool.not.i.i61 = icmp eq ptr %v32, null
  br i1 %tobool.not.i.i61, label %if.then.i.i64, label %fail.exit.i62

if.then.i.i64:                                    ; preds = %if.then.i58
  store ptr @.str.7, ptr %fault.i.i60, align 4, !tbaa !20
  %line.i.i65 = getelementptr inbounds i8, ptr %it, i32 4
  %v33 = load i32, ptr %line.i.i65, align 4, !tbaa !21
  %line4.i.i66 = getelementptr inbounds i8, ptr %v31, i32 2652
  store i32 %v33, ptr %line4.i.i66, align 4, !tbaa !22
  br label %fail.exit.i62

fail.exit.i62:                                    ; preds = %if.then.i.i64, %if.then.i58
  store i32 0, ptr %kind, align 4, !tbaa !14
  br label %if.end25

if.else14:                                        ; preds = %land.rhs.i.i, %if.end
  %v34 = load i32, ptr %kind, align 4, !tbaa !14
  %cmp.i.i69 = icmp eq i32 %v34, 3
  br i1 %cmp.i.i69, label %land.rhs.i.i72, label %if.else17

land.rhs.i.i72:                                   ; preds = %if.else14
  %sign2.i.i73 = getelementptr inbounds i8, ptr %it, i32 32
  %v35 = load i32, ptr %sign2.i.i73, align 4, !tbaa !46
  %cmp3.i.i74 = icmp eq i32 %v35, 45
  br i1 %cmp3.i.i74, label %if.end.i71, label %if.else17

if.end.i71:                                       ; preds = %land.rhs.i.i72
  tail call fastcc void @lexer_next(ptr noundef %it)
  tail call fastcc void @primary(ptr noundef %it)
  %to.i76 = getelementptr inbounds i8, ptr %it, i32 36
  %v36 = load ptr, ptr %to.i76, align 4, !tbaa !11
  %length.i77 = getelementptr inbounds i8, ptr %v36, i32 2000
  %v37 = load i32, ptr %length.i77, align 4, !tbaa !18
  %cmp.i78 = icmp eq i32 %v37, 2000
  br i1 %cmp.i78, label %if.then.i82, label %if.end.i79

if.then.i82:                                      ; preds = %if.end.i71
  %fault.i.i83 = getelementptr inbounds i8, ptr %v36, i32 2648
  %v38 = load ptr, ptr %fault.i.i83, align 4, !tbaa !20
  %tobool.not.i.i84 = icmp eq ptr %v38, null
  br i1 %tobool.not.i.i84, label %if.then.i.i87, label %fail.exit.i85

if.then.i.i87:                                    ; preds = %if.then.i82
  store ptr @.str.10, ptr %fault.i.i83, align 4, !tbaa !20
  %line.i.i88 = getelementptr inbounds i8, ptr %it, i32 4
  %v39 = load i32, ptr %line.i.i88, align 4, !tbaa !21
  %line4.i.i89 = getelementptr inbounds i8, ptr %v36, i32 2652
  store i32 %v39, ptr %line4.i.i89, align 4, !tbaa !22
  br label %fail.exit.i85

fail.exit.i85:                                    ; preds = %if.then.i.i87, %if.then.i82
  store i32 0, ptr %kind, align 4, !tbaa !14
  br label %if.end25

if.end.i79:                                       ; preds = %if.end.i71
  %inc.i80 = add i32 %v37, 1
  store i32 %inc.i80, ptr %length.i77, align 4, !tbaa !18
  %arrayidx.i81 = getelementptr inbounds [2000 x i8], ptr %v36, i32 0, i32 %v37
  store i8 12, ptr %arrayidx.i81, align 1, !tbaa !23
  br label %if.end25

if.else17:                                        ; preds = %land.rhs.i.i72, %if.else14
  %v40 = load i32, ptr %kind, align 4, !tbaa !14
  %cmp.i.i92 = icmp eq i32 %v40, 3
  br i1 %cmp.i.i92, label %land.rhs.i.i95, label %if.else20

land.rhs.i.i95:                                   ; preds = %if.else17
  %sign2.i.i96 = getelementptr inbounds i8, ptr %it, i32 32
  %v41 = load i32, ptr %sign2.i.i96, align 4, !tbaa !46
  %cmp3.i.i97 = icmp eq i32 %v41, 33
  br i1 %cmp3.i.i97, label %if.end.i94, label %if.else20

if.end.i94:                                       ; preds = %land.rhs.i.i95
  tail call fastcc void @lexer_next(ptr noundef %it)
  tail call fastcc void @primary(ptr noundef %it)
  %to.i99 = getelementptr inbounds i8, ptr %it, i32 36
  %v42 = load ptr, ptr %to.i99, align 4, !tbaa !11
  %length.i100 = getelementptr inbounds i8, ptr %v42, i32 2000
  %v43 = load i32, ptr %length.i100, align 4, !tbaa !18
  %cmp.i101 = icmp eq i32 %v43, 2000
  br i1 %cmp.i101, label %if.then.i105, label %if.end.i102

if.then.i105:                                     ; preds = %if.end.i94
  %fault.i.i106 = getelementptr inbounds i8, ptr %v42, i32 2648
  %v44 = load ptr, ptr %fault.i.i106, align 4, !tbaa !20
  %tobool.not.i.i107 = icmp eq ptr %v44, null
  br i1 %tobool.not.i.i107, label %if.then.i.i110, label %fail.exit.i108

if.then.i.i110:                                   ; preds = %if.then.i105
  store ptr @.str.10, ptr %fault.i.i106, align 4, !tbaa !20
  %line.i.i111 = getelementptr inbounds i8, ptr %it, i32 4
  %v45 = load i32, ptr %line.i.i111, align 4, !tbaa !21
  %line4.i.i112 = getelementptr inbounds i8, ptr %v42, i32 2652
  store i32 %v45, ptr %line4.i.i112, align 4, !tbaa !22
  br label %fail.exit.i108

fail.exit.i108:                                   ; preds = %if.then.i.i110, %if.then.i105
  store i32 0, ptr %kind, align 4, !tbaa !14
  br label %if.end25

if.end.i102:                                      ; preds = %if.end.i94
  %inc.i103 = add i32 %v43, 1
  store i32 %inc.i103, ptr %length.i100, align 4, !tbaa !18
  %arrayidx.i104 = getelementptr inbounds [2000 x i8], ptr %v42, i32 0, i32 %v43
  store i8 11, ptr %arrayidx.i104, align 1, !tbaa !23
  br label %if.end25

if.else20:                                        ; preds = %land.rhs.i.i95, %if.else17
  %to.i114 = getelementptr inbounds i8, ptr %it, i32 36
  %v46 = load ptr, ptr %to.i114, align 4, !tbaa !11
  %fault.i115 = getelementptr inbounds i8, ptr %v46, i32 2648
  %v47 = load ptr, ptr %fault.i115, align 4, !tbaa !20
  %tobool.not.i116 = icmp eq ptr %v47, null
  br i1 %tobool.not.i116, label %if.then.i119, label %fail.exit122

if.then.i119:                                     ; preds = %if.else20
  store ptr @.str.8, ptr %fault.i115, align 4, !tbaa !20
  %line.i120 = getelementptr inbounds i8, ptr %it, i32 4
  %v48 = load i32, ptr %line.i120, align 4, !tbaa !21
  %line4.i121 = getelementptr inbounds i8, ptr %v46, i32 2652
  store i32 %v48, ptr %line4.i121, align 4, !tbaa !22
  br label %fail.exit122

fail.exit122:                                     ; preds = %if.then.i119, %if.else20
  store i32 0, ptr %kind, align 4, !tbaa !14
  br label %if.end25

if.end25:                                         ; preds = %fail.exit122, %if.end.i102, %fail.exit.i108, %if.end.i79, %fail.exit.i85, %fail.exit.i62, %if.end.i.i67, %emit.exit53, %emit_number.exit
  %v49 = load i32, ptr %depth, align 4, !tbaa !13
  %dec = add nsw i32 %v49, -1
  store i32 %dec, ptr %depth, align 4, !tbaa !13
  ret void
}

; Function Attrs: mustprogress nofree norecurse nosync nounwind optsize willreturn memory(none)
define internal range(i32 0, 2) i32 @isspace(i32 noundef signext %c) local_unnamed_addr #8 {
entry:
  %cmp = icmp eq i32 %c, 32
  %v0 = add i32 %c, -9
  %v1 = icmp ult i32 %v0, 5
  %narrow = or i1 %cmp, %v1
  %lor.ext = zext i1 %narrow to i32
  ret i32 %lor.ext
}

; Function Attrs: nofree norecurse nosync nounwind optsize memory(readwrite, inaccessiblemem: none)
define internal i32 @strtoul(ptr noalias noundef %text, ptr noalias noundef %end, i32 noundef signext %base) local_unnamed_addr #9 {
entry:
  %it = alloca %struct.number, align 8
  call void @llvm.lifetime.start.p0(i64 16, ptr nonnull %it) #11
  %call = call fastcc ptr @scan(ptr noundef nonnull %it, ptr noundef %text, ptr noundef %end, i32 noundef signext %base, i64 noundef zeroext 4294967295, i64 noundef zeroext 4294967295) #12
  %below = getelementptr inbounds i8, ptr %it, i32 8
  %v0 = load i32, ptr %below, align 8, !tbaa !90
  %tobool = icmp eq i32 %v0, 0
  %over = getelementptr inbounds i8, ptr %it, i32 12
  %v1 = load i32, ptr %over, align 4
  %tobool1 = icmp ne i32 %v1, 0
  %or.cond = select i1 %tobool, i1 true, i1 %tobool1
  %v2 = load i64, ptr %it, align 8, !tbaa !93
  %extract.t3 = trunc i64 %v2 to i32
  %extract.t = sub i32 0, %extract.t3
  %cond.off0 = select i1 %or.cond, i32 %extract.t3, i32 %extract.t
  call void @llvm.lifetime.end.p0(i64 16, ptr nonnull %it) #11
  ret i32 %cond.off0
}

; Function Attrs: mustprogress nofree norecurse nosync nounwind optsize willreturn memory(none)
define internal range(i32 0, 2) i32 @isalpha(i32 noundef signext %c) local_unnamed_addr #8 {
entry:
  %v0 = and i32 %c, -33
  %v1 = add i32 %v0, -65
  %narrow = icmp ult i32 %v1, 26
  %lor.ext = zext i1 %narrow to i32
  ret i32 %lor.ext
}

; Function Attrs: mustprogress nofree norecurse nosync nounwind optsize willreturn memory(none)
define internal range(i32 0, 2) i32 @isalnum(i32 noundef signext %c) local_unnamed_addr #8 {
entry:
  %v0 = and i32 %c, -33
  %v1 = add i32 %v0, -65
  %narrow.i = icmp ult i32 %v1, 26
  %v2 = add i32 %c, -48
  %v3 = icmp ult i32 %v2, 10
  %narrow = or i1 %v3, %narrow.i
  %lor.ext = zext i1 %narrow to i32
  ret i32 %lor.ext
}

; Function Attrs: nofree norecurse nosync nounwind optsize memory(read, inaccessiblemem: none)
define internal noundef ptr @memchr(ptr noundef readonly %at, i32 noundef signext %c, i32 noundef signext %n) local_unnamed_addr #2 {
entry:
  %cmp.not8 = icmp eq i32 %n, 0
  br i1 %cmp.not8, label %cleanup, label %for.body.lr.ph

for.body.lr.ph:                                   ; preds = %entry
  %v0 = trunc i32 %c to i8
  br label %for.body

for.body:                                         ; preds = %for.inc, %for.body.lr.ph
  %s.010 = phi ptr [ %at, %for.body.lr.ph ], [ %incdec.ptr, %for.inc ]
  %n.addr.09 = phi i32 [ %n, %for.body.lr.ph ], [ %dec, %for.inc ]
  %v1 = load i8, ptr %s.010, align 1, !tbaa !23
  %cmp3 = icmp eq i8 %v1, %v0
  br i1 %cmp3, label %cleanup, label %for.inc

for.inc:                                          ; preds = %for.body
  %dec = add i32 %n.addr.09, -1
  %incdec.ptr = getelementptr inbounds i8, ptr %s.010, i32 1
  %cmp.not = icmp eq i32 %dec, 0
  br i1 %cmp.not, label %cleanup, label %for.body, !llvm.loop !94

cleanup:                                          ; preds = %for.inc, %for.body, %entry
  %retval.0 = phi ptr [ null, %entry ], [ null, %for.inc ], [ %s.010, %for.body ]
  ret ptr %retval.0
}

; Function Attrs: nofree norecurse nosync nounwind optsize memory(readwrite, inaccessiblemem: none)
define internal fastcc noundef ptr @scan(ptr noundef returned writeonly %it, ptr noundef %text, ptr noundef writeonly %end, i32 noundef signext %base, i64 noundef zeroext %most, i64 noundef zeroext %least) unnamed_addr #9 {
entry:
  store i64 0, ptr %it, align 8, !tbaa !93
  %below = getelementptr inbounds i8, ptr %it, i32 8
  store i32 0, ptr %below, align 8, !tbaa !90
  %over = getelementptr inbounds i8, ptr %it, i32 12
  store i32 0, ptr %over, align 4, !tbaa !95
  %cmp1 = icmp eq i32 %base, 1
  %v0 = icmp ugt i32 %base, 36
  %or.cond93 = or i1 %v0, %cmp1
  br i1 %or.cond93, label %if.then, label %if.end

if.then:                                          ; preds = %entry
  store i32 22, ptr @errno, align 4, !tbaa !28
  br label %cleanup92

if.end:                                           ; preds = %entry
  %tobool.not = icmp eq ptr %end, null
  br i1 %tobool.not, label %while.cond.preheader, label %if.then4

if.then4:                                         ; preds = %if.end
  store ptr %text, ptr %end, align 4, !tbaa !25
  br label %while.cond.preheader

while.cond.preheader:                             ; preds = %if.then4, %if.end
  br label %while.cond

while.cond:                                       ; preds = %while.cond, %while.cond.preheader
  %s.0 = phi ptr [ %incdec.ptr, %while.cond ], [ %text, %while.cond.preheader ]
  %v1 = load i8, ptr %s.0, align 1, !tbaa !23
  %conv = zext i8 %v1 to i32
  %cmp.i = icmp ne i8 %v1, 32
  %v2 = add nsw i32 %conv, -14
  %v3 = icmp ult i32 %v2, -5
  %narrow.i.not = and i1 %cmp.i, %v3
  %incdec.ptr = getelementptr inbounds i8, ptr %s.0, i32 1
  br i1 %narrow.i.not, label %while.end, label %while.cond, !llvm.loop !96

while.end:                                        ; preds = %while.cond
  switch i8 %v1, label %if.end20 [
    i8 45, label %if.then14
    i8 43, label %if.then14
  ]

if.then14:                                        ; preds = %while.end, %while.end
  %cmp17 = icmp eq i8 %v1, 45
  %conv18 = zext i1 %cmp17 to i32
  store i32 %conv18, ptr %below, align 8, !tbaa !90
  %v4 = select i1 %cmp17, i64 %least, i64 %most
  br label %if.end20

if.end20:                                         ; preds = %if.then14, %while.end
  %tobool53.not = phi i64 [ %v4, %if.then14 ], [ %most, %while.end ]
  %s.1 = phi ptr [ %incdec.ptr, %if.then14 ], [ %s.0, %while.end ]
  %cmp21 = icmp ne i32 %base, 0
  switch i32 %base, label %if.end51 [
    i32 16, label %land.lhs.true
    i32 0, label %land.lhs.true
  ]

land.lhs.true:                                    ; preds = %if.end20, %if.end20
  %v5 = load i8, ptr %s.1, align 1, !tbaa !23
  %cmp27 = icmp eq i8 %v5, 48
  br i1 %cmp27, label %land.lhs.true29, label %if.else

land.lhs.true29:                                  ; preds = %land.lhs.true
  %arrayidx = getelementptr inbounds i8, ptr %s.1, i32 1
  %v6 = load i8, ptr %arrayidx, align 1, !tbaa !23
  switch i8 %v6, label %if.else [
    i8 120, label %land.lhs.true38
    i8 88, label %land.lhs.true38
  ]

land.lhs.true38:                                  ; preds = %land.lhs.true29, %land.lhs.true29
  %arrayidx39 = getelementptr inbounds i8, ptr %s.1, i32 2
  %v7 = load i8, ptr %arrayidx39, align 1, !tbaa !23
  %conv.i = zext i8 %v7 to i32
  %v8 = add nsw i32 %conv.i, -58
  %v9 = icmp ult i32 %v8, -10
  br i1 %v9, label %cond.false.i, label %if.end51

cond.false.i:                                     ; preds = %land.lhs.true38
  %v10 = and i32 %conv.i, 223
  %v11 = add nsw i32 %v10, -91
  %narrow.i.i = icmp ult i32 %v11, -26
  br i1 %narrow.i.i, label %.thread, label %digit.exit

.thread:                                          ; preds = %cond.false.i
  br i1 %cmp21, label %if.end51, label %if.then46

digit.exit:                                       ; preds = %cond.false.i
  %v12 = add nsw i32 %conv.i, -91
  %v13 = icmp ult i32 %v12, -26
  %sub.i.i = add nuw nsw i32 %conv.i, 32
  %cond.i.i = select i1 %v13, i32 %conv.i, i32 %sub.i.i
  %cond.i.i.fr = freeze i32 %cond.i.i
  %add.i = add i32 %cond.i.i.fr, -87
  %v14 = icmp ult i32 %add.i, 16
  %brmerge = or i1 %cmp21, %v14
  %arrayidx39.mux = select i1 %v14, ptr %arrayidx39, ptr %s.1
  %.mux = select i1 %v14, i32 16, i32 %base
  br i1 %brmerge, label %if.end51, label %if.then46

if.else:                                          ; preds = %land.lhs.true29, %land.lhs.true
  br i1 %cmp21, label %if.end51, label %if.then46

if.then46:                                        ; preds = %if.else, %digit.exit, %.thread
  %cond = select i1 %cmp27, i32 8, i32 10
  br label %if.end51

if.end51:                                         ; preds = %if.then46, %if.else, %digit.exit, %.thread, %land.lhs.true38, %if.end20
  %s.2 = phi ptr [ %s.1, %if.then46 ], [ %s.1, %if.else ], [ %s.1, %if.end20 ], [ %arrayidx39, %land.lhs.true38 ], [ %s.1, %.thread ], [ %arrayidx39.mux, %digit.exit ]
  %base.addr.0 = phi i32 [ %cond, %if.then46 ], [ %base, %if.else ], [ %base, %if.end20 ], [ 16, %land.lhs.true38 ], [ %base, %.thread ], [ %.mux, %digit.exit ]
  %v15 = load i8, ptr %s.2, align 1, !tbaa !23
  %conv.i140 = zext i8 %v15 to i32
  %v16 = add nsw i32 %conv.i140, -48
  %v17 = icmp ugt i32 %v16, 9
  br i1 %v17, label %cond.false.i142, label %digit.exit148

cond.false.i142:                                  ; preds = %if.end51
  %v18 = and i32 %conv.i140, 223
  %v19 = add nsw i32 %v18, -91
  %narrow.i.i143 = icmp ult i32 %v19, -26
  br i1 %narrow.i.i143, label %digit.exit148, label %cond.true5.i144

cond.true5.i144:                                  ; preds = %cond.false.i142
  %v20 = add nsw i32 %conv.i140, -91
  %v21 = icmp ult i32 %v20, -26
  %sub.i.i145 = add nuw nsw i32 %conv.i140, 32
  %cond.i.i146 = select i1 %v21, i32 %conv.i140, i32 %sub.i.i145
  %add.i147 = add nsw i32 %cond.i.i146, -87
  br label %digit.exit148

digit.exit148:                                    ; preds = %cond.true5.i144, %cond.false.i142, %if.end51
  %cond11.i141 = phi i32 [ %add.i147, %cond.true5.i144 ], [ 255, %cond.false.i142 ], [ %v16, %if.end51 ]
  %cmp56.not = icmp ult i32 %cond11.i141, %base.addr.0
  br i1 %cmp56.not, label %for.cond.preheader, label %cleanup92

for.cond.preheader:                               ; preds = %digit.exit148
  %conv68 = zext nneg i32 %base.addr.0 to i64
  br label %for.cond

for.cond:                                         ; preds = %for.inc, %for.cond.preheader
  %v22 = phi i64 [ %v31, %for.inc ], [ 0, %for.cond.preheader ]
  %v23 = phi i32 [ %v32, %for.inc ], [ 0, %for.cond.preheader ]
  %v24 = phi i8 [ %.pre, %for.inc ], [ %v15, %for.cond.preheader ]
  %s.3 = phi ptr [ %incdec.ptr83, %for.inc ], [ %s.2, %for.cond.preheader ]
  %conv.i149 = zext i8 %v24 to i32
  %v25 = add nsw i32 %conv.i149, -48
  %v26 = icmp ugt i32 %v25, 9
  br i1 %v26, label %cond.false.i151, label %digit.exit157

cond.false.i151:                                  ; preds = %for.cond
  %v27 = and i32 %conv.i149, 223
  %v28 = add nsw i32 %v27, -91
  %narrow.i.i152 = icmp ult i32 %v28, -26
  br i1 %narrow.i.i152, label %digit.exit157, label %cond.true5.i153

cond.true5.i153:                                  ; preds = %cond.false.i151
  %v29 = add nsw i32 %conv.i149, -91
  %v30 = icmp ult i32 %v29, -26
  %sub.i.i154 = add nuw nsw i32 %conv.i149, 32
  %cond.i.i155 = select i1 %v30, i32 %conv.i149, i32 %sub.i.i154
  %add.i156 = add nsw i32 %cond.i.i155, -87
  br label %digit.exit157

digit.exit157:                                    ; preds = %cond.true5.i153, %cond.false.i151, %for.cond
  %cond11.i150 = phi i32 [ %add.i156, %cond.true5.i153 ], [ 255, %cond.false.i151 ], [ %v25, %for.cond ]
  %cmp61 = icmp ult i32 %cond11.i150, %base.addr.0
  br i1 %cmp61, label %for.body, label %for.cond.cleanup

for.cond.cleanup:                                 ; preds = %digit.exit157
  br i1 %tobool.not, label %if.end86, label %if.then85

for.body:                                         ; preds = %digit.exit157
  %tobool64.not = icmp eq i32 %v23, 0
  br i1 %tobool64.not, label %lor.lhs.false65, label %if.then75

lor.lhs.false65:                                  ; preds = %for.body
  %conv67 = zext nneg i32 %cond11.i150 to i64
  %sub = sub i64 %tobool53.not, %conv67
  %div = udiv i64 %sub, %conv68
  %cmp69 = icmp ugt i64 %v22, %div
  %cmp73 = icmp ult i64 %tobool53.not, %conv67
  %or.cond = or i1 %cmp69, %cmp73
  br i1 %or.cond, label %if.then75, label %if.else77

if.then75:                                        ; preds = %lor.lhs.false65, %for.body
  store i32 1, ptr %over, align 4, !tbaa !95
  br label %for.inc

if.else77:                                        ; preds = %lor.lhs.false65
  %mul = mul i64 %v22, %conv68
  %add = add i64 %mul, %conv67
  store i64 %add, ptr %it, align 8, !tbaa !93
  br label %for.inc

for.inc:                                          ; preds = %if.else77, %if.then75
  %v31 = phi i64 [ %v22, %if.then75 ], [ %add, %if.else77 ]
  %v32 = phi i32 [ 1, %if.then75 ], [ 0, %if.else77 ]
  %incdec.ptr83 = getelementptr inbounds i8, ptr %s.3, i32 1
  %.pre = load i8, ptr %incdec.ptr83, align 1, !tbaa !23
  br label %for.cond, !llvm.loop !97

if.then85:                                        ; preds = %for.cond.cleanup
  store ptr %s.3, ptr %end, align 4, !tbaa !25
  br label %if.end86

if.end86:                                         ; preds = %if.then85, %for.cond.cleanup
  %tobool88.not = icmp eq i32 %v23, 0
  br i1 %tobool88.not, label %cleanup92, label %if.then89

if.then89:                                        ; preds = %if.end86
  store i32 34, ptr @errno, align 4, !tbaa !28
  store i64 %tobool53.not, ptr %it, align 8, !tbaa !93
  br label %cleanup92

cleanup92:                                        ; preds = %if.then89, %if.end86, %digit.exit148, %if.then
  ret ptr %it
}

; Function Attrs: nounwind optsize
define internal i32 @fgetc(ptr nocapture noundef %stream) local_unnamed_addr #1 {
entry:
  %v0 = load i8, ptr %stream, align 4, !tbaa !49
  %cmp.not = icmp eq i8 %v0, 0
  br i1 %cmp.not, label %if.end, label %return

if.end:                                           ; preds = %entry
  %waiting = getelementptr inbounds i8, ptr %stream, i32 2
  %v1 = load i8, ptr %waiting, align 2, !tbaa !98
  %tobool.not = icmp eq i8 %v1, 0
  br i1 %tobool.not, label %if.end5, label %if.then2

if.then2:                                         ; preds = %if.end
  store i8 0, ptr %waiting, align 2, !tbaa !98
  %pushed = getelementptr inbounds i8, ptr %stream, i32 3
  %v2 = load i8, ptr %pushed, align 1, !tbaa !99
  %conv4 = zext i8 %v2 to i32
  br label %return

if.end5:                                          ; preds = %if.end
  %ended = getelementptr inbounds i8, ptr %stream, i32 1
  %v3 = load i8, ptr %ended, align 1, !tbaa !100
  %tobool6.not = icmp eq i8 %v3, 0
  br i1 %tobool6.not, label %if.end8, label %return

if.end8:                                          ; preds = %if.end5
  %call = tail call i32 @getchar() #14
  %cmp9 = icmp eq i32 %call, -1
  br i1 %cmp9, label %if.then11, label %return

if.then11:                                        ; preds = %if.end8
  store i8 1, ptr %ended, align 1, !tbaa !100
  br label %return

return:                                           ; preds = %if.then11, %if.end8, %if.end5, %if.then2, %entry
  %retval.0 = phi i32 [ %conv4, %if.then2 ], [ -1, %entry ], [ -1, %if.end5 ], [ -1, %if.then11 ], [ %call, %if.end8 ]
  ret i32 %retval.0
}

; Function Attrs: optsize
declare dso_local i32 @getchar() local_unnamed_addr #10

attributes #0 = { nounwind "no-trapping-math"="true" "stack-protector-buffer-size"="8" "target-cpu"="mips32r2" "target-features"="+fpxx,+mips32r2,+nooddspreg,-noabicalls" }
attributes #1 = { nounwind optsize "no-builtins" "no-jump-tables"="true" "no-trapping-math"="true" "stack-protector-buffer-size"="8" "target-cpu"="mips32r2" "target-features"="+fpxx,+mips32r2,+nooddspreg,-noabicalls" }
attributes #2 = { nofree norecurse nosync nounwind optsize memory(read, inaccessiblemem: none) "no-builtins" "no-jump-tables"="true" "no-trapping-math"="true" "stack-protector-buffer-size"="8" "target-cpu"="mips32r2" "target-features"="+fpxx,+mips32r2,+nooddspreg,-noabicalls" }
attributes #3 = { nocallback nofree nosync nounwind willreturn memory(argmem: readwrite) }
attributes #4 = { nocallback nofree nounwind willreturn memory(argmem: write) }
attributes #5 = { nofree nounwind "no-trapping-math"="true" "stack-protector-buffer-size"="8" "target-cpu"="mips32r2" "target-features"="+fpxx,+mips32r2,+nooddspreg,-noabicalls" }
attributes #6 = { nofree norecurse nosync nounwind optsize "no-builtins" "no-jump-tables"="true" "no-trapping-math"="true" "stack-protector-buffer-size"="8" "target-cpu"="mips32r2" "target-features"="+fpxx,+mips32r2,+nooddspreg,-noabicalls" }
attributes #7 = { nocallback nofree nosync nounwind speculatable willreturn memory(none) }
attributes #8 = { mustprogress nofree norecurse nosync nounwind optsize willreturn memory(none) "no-builtins" "no-jump-tables"="true" "no-trapping-math"="true" "stack-protector-buffer-size"="8" "target-cpu"="mips32r2" "target-features"="+fpxx,+mips32r2,+nooddspreg,-noabicalls" }
attributes #9 = { nofree norecurse nosync nounwind optsize memory(readwrite, inaccessiblemem: none) "no-builtins" "no-jump-tables"="true" "no-trapping-math"="true" "stack-protector-buffer-size"="8" "target-cpu"="mips32r2" "target-features"="+fpxx,+mips32r2,+nooddspreg,-noabicalls" }
attributes #10 = { optsize "no-builtins" "no-trapping-math"="true" "stack-protector-buffer-size"="8" "target-cpu"="mips32r2" "target-features"="+fpxx,+mips32r2,+nooddspreg,-noabicalls" }
attributes #11 = { nounwind }
attributes #12 = { nobuiltin optsize "no-builtins" }
attributes #13 = { nounwind willreturn memory(read) }
attributes #14 = { nobuiltin nounwind optsize "no-builtins" }

!llvm.ident = !{!0, !0, !0, !0, !0, !0}
!llvm.module.flags = !{!1, !2, !3}

!0 = !{!"Debian clang version 19.1.7 (3~deb12u1)"}
!1 = !{i32 7, !"Dwarf Version", i32 5}
!2 = !{i32 2, !"Debug Info Version", i32 3}
!3 = !{i32 1, !"wchar_size", i32 4}
!4 = !{!5, !6, i64 0}
!5 = !{!"lexer", !6, i64 0, !9, i64 4, !9, i64 8, !9, i64 12, !7, i64 16, !9, i64 32}
!6 = !{!"any pointer", !7, i64 0}
!7 = !{!"omnipotent char", !8, i64 0}
!8 = !{!"Simple C/C++ TBAA"}
!9 = !{!"int", !7, i64 0}
!10 = !{!5, !9, i64 4}
!11 = !{!12, !6, i64 36}
!12 = !{!"compiler", !5, i64 0, !6, i64 36, !9, i64 40}
!13 = !{!12, !9, i64 40}
!14 = !{!12, !9, i64 8}
!15 = distinct !{!15, !16, !17}
!16 = !{!"llvm.loop.mustprogress"}
!17 = !{!"llvm.loop.unroll.disable"}
!18 = !{!19, !9, i64 2000}
!19 = !{!"program", !7, i64 0, !9, i64 2000, !7, i64 2004, !9, i64 2644, !6, i64 2648, !9, i64 2652}
!20 = !{!19, !6, i64 2648}
!21 = !{!12, !9, i64 4}
!22 = !{!19, !9, i64 2652}
!23 = !{!7, !7, i64 0}
!24 = distinct !{!24, !16, !17}
!25 = !{!6, !6, i64 0}
!26 = distinct !{!26, !16, !17}
!27 = distinct !{!27, !16, !17}
!28 = !{!9, !9, i64 0}
!29 = distinct !{!29, !17}
!30 = !{!19, !9, i64 2644}
!31 = distinct !{!31, !16, !17}
!32 = distinct !{!32, !16, !17}
!33 = distinct !{!33, !16}
!34 = distinct !{!34, !16}
!35 = distinct !{!35, !16, !17}
!36 = distinct !{!36, !17}
!37 = distinct !{!37, !16, !17}
!38 = !{!5, !9, i64 8}
!39 = !{!5, !9, i64 12}
!40 = distinct !{!40, !16, !17}
!41 = !{!42, !6, i64 0}
!42 = !{!"", !6, i64 0, !9, i64 4}
!43 = !{!42, !9, i64 4}
!44 = distinct !{!44, !16, !17}
!45 = !{!5, !9, i64 32}
!46 = !{!12, !9, i64 32}
!47 = distinct !{!47, !16, !17}
!48 = distinct !{!48, !16, !17}
!49 = !{!50, !7, i64 0}
!50 = !{!"__stream", !7, i64 0, !7, i64 1, !7, i64 2, !7, i64 3, !6, i64 4, !9, i64 8}
!51 = !{!52}
!52 = distinct !{!52, !53, !"fwrite: %stream"}
!53 = distinct !{!53, !"fwrite"}
!54 = !{!55}
!55 = distinct !{!55, !53, !"fwrite: %from"}
!56 = distinct !{!56, !16}
!57 = distinct !{!57, !16}
!58 = distinct !{!58, !16}
!59 = distinct !{!59, !16}
!60 = distinct !{!60, !16}
!61 = !{!62}
!62 = distinct !{!62, !63, !"stpcpy: %from"}
!63 = distinct !{!63, !"stpcpy"}
!64 = !{!65}
!65 = distinct !{!65, !63, !"stpcpy: %to"}
!66 = distinct !{!66, !16}
!67 = distinct !{!67, !16}
!68 = !{!69}
!69 = distinct !{!69, !70, !"fwrite: %stream"}
!70 = distinct !{!70, !"fwrite"}
!71 = !{!72}
!72 = distinct !{!72, !70, !"fwrite: %from"}
!73 = !{!74}
!74 = distinct !{!74, !75, !"fwrite: %stream"}
!75 = distinct !{!75, !"fwrite"}
!76 = !{!77}
!77 = distinct !{!77, !75, !"fwrite: %from"}
!78 = !{!50, !9, i64 8}
!79 = !{!50, !6, i64 4}
!80 = !{!81}
!81 = distinct !{!81, !82, !"fwrite: %stream"}
!82 = distinct !{!82, !"fwrite"}
!83 = !{!84}
!84 = distinct !{!84, !82, !"fwrite: %from"}
!85 = distinct !{!85, !16, !17}
!86 = distinct !{!86, !16}
!87 = !{!12, !9, i64 12}
!88 = distinct !{!88, !16, !17}
!89 = distinct !{!89, !16, !17}
!90 = !{!91, !9, i64 8}
!91 = !{!"number", !92, i64 0, !9, i64 8, !9, i64 12}
!92 = !{!"long long", !7, i64 0}
!93 = !{!91, !92, i64 0}
!94 = distinct !{!94, !16}
!95 = !{!91, !9, i64 12}
!96 = distinct !{!96, !16}
!97 = distinct !{!97, !16}
!98 = !{!50, !7, i64 2}
!99 = !{!50, !7, i64 3}
!100 = !{!50, !7, i64 1}
