define zeroext i8 @ctpop_i8(i8 zeroext %a) noinline {
  %r = call i8 @llvm.ctpop.i8(i8 %a)
  ret i8 %r
}

define zeroext i8 @bitreverse_i8(i8 zeroext %a) noinline {
  %r = call i8 @llvm.bitreverse.i8(i8 %a)
  ret i8 %r
}

define zeroext i8 @ctlz_i8(i8 zeroext %a) noinline {
  %r = call i8 @llvm.ctlz.i8(i8 %a, i1 false)
  ret i8 %r
}

define zeroext i8 @cttz_i8(i8 zeroext %a) noinline {
  %r = call i8 @llvm.cttz.i8(i8 %a, i1 false)
  ret i8 %r
}

define zeroext i8 @abs_i8(i8 zeroext %a) noinline {
  %r = call i8 @llvm.abs.i8(i8 %a, i1 false)
  ret i8 %r
}

define zeroext i8 @sadd_sat_i8(i8 zeroext %a, i8 zeroext %b) noinline {
  %r = call i8 @llvm.sadd.sat.i8(i8 %a, i8 %b)
  ret i8 %r
}

define zeroext i8 @uadd_sat_i8(i8 zeroext %a, i8 zeroext %b) noinline {
  %r = call i8 @llvm.uadd.sat.i8(i8 %a, i8 %b)
  ret i8 %r
}

define zeroext i8 @ssub_sat_i8(i8 zeroext %a, i8 zeroext %b) noinline {
  %r = call i8 @llvm.ssub.sat.i8(i8 %a, i8 %b)
  ret i8 %r
}

define zeroext i8 @usub_sat_i8(i8 zeroext %a, i8 zeroext %b) noinline {
  %r = call i8 @llvm.usub.sat.i8(i8 %a, i8 %b)
  ret i8 %r
}

define zeroext i8 @sshl_sat_i8(i8 zeroext %a, i8 zeroext %b) noinline {
  %r = call i8 @llvm.sshl.sat.i8(i8 %a, i8 %b)
  ret i8 %r
}

define zeroext i8 @ushl_sat_i8(i8 zeroext %a, i8 zeroext %b) noinline {
  %r = call i8 @llvm.ushl.sat.i8(i8 %a, i8 %b)
  ret i8 %r
}

define zeroext i8 @fshl_i8(i8 zeroext %a, i8 zeroext %b, i8 zeroext %c) noinline {
  %r = call i8 @llvm.fshl.i8(i8 %a, i8 %b, i8 %c)
  ret i8 %r
}

define zeroext i8 @fshr_i8(i8 zeroext %a, i8 zeroext %b, i8 zeroext %c) noinline {
  %r = call i8 @llvm.fshr.i8(i8 %a, i8 %b, i8 %c)
  ret i8 %r
}

define zeroext i8 @sadd_value_i8(i8 zeroext %a, i8 zeroext %b) noinline {
  %p = call { i8, i1 } @llvm.sadd.with.overflow.i8(i8 %a, i8 %b)
  %r = extractvalue { i8, i1 } %p, 0
  ret i8 %r
}

define zeroext i8 @sadd_over_i8(i8 zeroext %a, i8 zeroext %b) noinline {
  %p = call { i8, i1 } @llvm.sadd.with.overflow.i8(i8 %a, i8 %b)
  %o = extractvalue { i8, i1 } %p, 1
  %r = zext i1 %o to i8
  ret i8 %r
}

define zeroext i8 @uadd_value_i8(i8 zeroext %a, i8 zeroext %b) noinline {
  %p = call { i8, i1 } @llvm.uadd.with.overflow.i8(i8 %a, i8 %b)
  %r = extractvalue { i8, i1 } %p, 0
  ret i8 %r
}

define zeroext i8 @uadd_over_i8(i8 zeroext %a, i8 zeroext %b) noinline {
  %p = call { i8, i1 } @llvm.uadd.with.overflow.i8(i8 %a, i8 %b)
  %o = extractvalue { i8, i1 } %p, 1
  %r = zext i1 %o to i8
  ret i8 %r
}

define zeroext i8 @ssub_value_i8(i8 zeroext %a, i8 zeroext %b) noinline {
  %p = call { i8, i1 } @llvm.ssub.with.overflow.i8(i8 %a, i8 %b)
  %r = extractvalue { i8, i1 } %p, 0
  ret i8 %r
}

define zeroext i8 @ssub_over_i8(i8 zeroext %a, i8 zeroext %b) noinline {
  %p = call { i8, i1 } @llvm.ssub.with.overflow.i8(i8 %a, i8 %b)
  %o = extractvalue { i8, i1 } %p, 1
  %r = zext i1 %o to i8
  ret i8 %r
}

define zeroext i8 @usub_value_i8(i8 zeroext %a, i8 zeroext %b) noinline {
  %p = call { i8, i1 } @llvm.usub.with.overflow.i8(i8 %a, i8 %b)
  %r = extractvalue { i8, i1 } %p, 0
  ret i8 %r
}

define zeroext i8 @usub_over_i8(i8 zeroext %a, i8 zeroext %b) noinline {
  %p = call { i8, i1 } @llvm.usub.with.overflow.i8(i8 %a, i8 %b)
  %o = extractvalue { i8, i1 } %p, 1
  %r = zext i1 %o to i8
  ret i8 %r
}

define zeroext i8 @smul_value_i8(i8 zeroext %a, i8 zeroext %b) noinline {
  %p = call { i8, i1 } @llvm.smul.with.overflow.i8(i8 %a, i8 %b)
  %r = extractvalue { i8, i1 } %p, 0
  ret i8 %r
}

define zeroext i8 @smul_over_i8(i8 zeroext %a, i8 zeroext %b) noinline {
  %p = call { i8, i1 } @llvm.smul.with.overflow.i8(i8 %a, i8 %b)
  %o = extractvalue { i8, i1 } %p, 1
  %r = zext i1 %o to i8
  ret i8 %r
}

define zeroext i8 @umul_value_i8(i8 zeroext %a, i8 zeroext %b) noinline {
  %p = call { i8, i1 } @llvm.umul.with.overflow.i8(i8 %a, i8 %b)
  %r = extractvalue { i8, i1 } %p, 0
  ret i8 %r
}

define zeroext i8 @umul_over_i8(i8 zeroext %a, i8 zeroext %b) noinline {
  %p = call { i8, i1 } @llvm.umul.with.overflow.i8(i8 %a, i8 %b)
  %o = extractvalue { i8, i1 } %p, 1
  %r = zext i1 %o to i8
  ret i8 %r
}

define zeroext i16 @ctpop_i16(i16 zeroext %a) noinline {
  %r = call i16 @llvm.ctpop.i16(i16 %a)
  ret i16 %r
}

define zeroext i16 @bitreverse_i16(i16 zeroext %a) noinline {
  %r = call i16 @llvm.bitreverse.i16(i16 %a)
  ret i16 %r
}

define zeroext i16 @ctlz_i16(i16 zeroext %a) noinline {
  %r = call i16 @llvm.ctlz.i16(i16 %a, i1 false)
  ret i16 %r
}

define zeroext i16 @cttz_i16(i16 zeroext %a) noinline {
  %r = call i16 @llvm.cttz.i16(i16 %a, i1 false)
  ret i16 %r
}

define zeroext i16 @abs_i16(i16 zeroext %a) noinline {
  %r = call i16 @llvm.abs.i16(i16 %a, i1 false)
  ret i16 %r
}

define zeroext i16 @sadd_sat_i16(i16 zeroext %a, i16 zeroext %b) noinline {
  %r = call i16 @llvm.sadd.sat.i16(i16 %a, i16 %b)
  ret i16 %r
}

define zeroext i16 @uadd_sat_i16(i16 zeroext %a, i16 zeroext %b) noinline {
  %r = call i16 @llvm.uadd.sat.i16(i16 %a, i16 %b)
  ret i16 %r
}

define zeroext i16 @ssub_sat_i16(i16 zeroext %a, i16 zeroext %b) noinline {
  %r = call i16 @llvm.ssub.sat.i16(i16 %a, i16 %b)
  ret i16 %r
}

define zeroext i16 @usub_sat_i16(i16 zeroext %a, i16 zeroext %b) noinline {
  %r = call i16 @llvm.usub.sat.i16(i16 %a, i16 %b)
  ret i16 %r
}

define zeroext i16 @sshl_sat_i16(i16 zeroext %a, i16 zeroext %b) noinline {
  %r = call i16 @llvm.sshl.sat.i16(i16 %a, i16 %b)
  ret i16 %r
}

define zeroext i16 @ushl_sat_i16(i16 zeroext %a, i16 zeroext %b) noinline {
  %r = call i16 @llvm.ushl.sat.i16(i16 %a, i16 %b)
  ret i16 %r
}

define zeroext i16 @fshl_i16(i16 zeroext %a, i16 zeroext %b, i16 zeroext %c) noinline {
  %r = call i16 @llvm.fshl.i16(i16 %a, i16 %b, i16 %c)
  ret i16 %r
}

define zeroext i16 @fshr_i16(i16 zeroext %a, i16 zeroext %b, i16 zeroext %c) noinline {
  %r = call i16 @llvm.fshr.i16(i16 %a, i16 %b, i16 %c)
  ret i16 %r
}

define zeroext i16 @sadd_value_i16(i16 zeroext %a, i16 zeroext %b) noinline {
  %p = call { i16, i1 } @llvm.sadd.with.overflow.i16(i16 %a, i16 %b)
  %r = extractvalue { i16, i1 } %p, 0
  ret i16 %r
}

define zeroext i16 @sadd_over_i16(i16 zeroext %a, i16 zeroext %b) noinline {
  %p = call { i16, i1 } @llvm.sadd.with.overflow.i16(i16 %a, i16 %b)
  %o = extractvalue { i16, i1 } %p, 1
  %r = zext i1 %o to i16
  ret i16 %r
}

define zeroext i16 @uadd_value_i16(i16 zeroext %a, i16 zeroext %b) noinline {
  %p = call { i16, i1 } @llvm.uadd.with.overflow.i16(i16 %a, i16 %b)
  %r = extractvalue { i16, i1 } %p, 0
  ret i16 %r
}

define zeroext i16 @uadd_over_i16(i16 zeroext %a, i16 zeroext %b) noinline {
  %p = call { i16, i1 } @llvm.uadd.with.overflow.i16(i16 %a, i16 %b)
  %o = extractvalue { i16, i1 } %p, 1
  %r = zext i1 %o to i16
  ret i16 %r
}

define zeroext i16 @ssub_value_i16(i16 zeroext %a, i16 zeroext %b) noinline {
  %p = call { i16, i1 } @llvm.ssub.with.overflow.i16(i16 %a, i16 %b)
  %r = extractvalue { i16, i1 } %p, 0
  ret i16 %r
}

define zeroext i16 @ssub_over_i16(i16 zeroext %a, i16 zeroext %b) noinline {
  %p = call { i16, i1 } @llvm.ssub.with.overflow.i16(i16 %a, i16 %b)
  %o = extractvalue { i16, i1 } %p, 1
  %r = zext i1 %o to i16
  ret i16 %r
}

define zeroext i16 @usub_value_i16(i16 zeroext %a, i16 zeroext %b) noinline {
  %p = call { i16, i1 } @llvm.usub.with.overflow.i16(i16 %a, i16 %b)
  %r = extractvalue { i16, i1 } %p, 0
  ret i16 %r
}

define zeroext i16 @usub_over_i16(i16 zeroext %a, i16 zeroext %b) noinline {
  %p = call { i16, i1 } @llvm.usub.with.overflow.i16(i16 %a, i16 %b)
  %o = extractvalue { i16, i1 } %p, 1
  %r = zext i1 %o to i16
  ret i16 %r
}

define zeroext i16 @smul_value_i16(i16 zeroext %a, i16 zeroext %b) noinline {
  %p = call { i16, i1 } @llvm.smul.with.overflow.i16(i16 %a, i16 %b)
  %r = extractvalue { i16, i1 } %p, 0
  ret i16 %r
}

define zeroext i16 @smul_over_i16(i16 zeroext %a, i16 zeroext %b) noinline {
  %p = call { i16, i1 } @llvm.smul.with.overflow.i16(i16 %a, i16 %b)
  %o = extractvalue { i16, i1 } %p, 1
  %r = zext i1 %o to i16
  ret i16 %r
}

define zeroext i16 @umul_value_i16(i16 zeroext %a, i16 zeroext %b) noinline {
  %p = call { i16, i1 } @llvm.umul.with.overflow.i16(i16 %a, i16 %b)
  %r = extractvalue { i16, i1 } %p, 0
  ret i16 %r
}

define zeroext i16 @umul_over_i16(i16 zeroext %a, i16 zeroext %b) noinline {
  %p = call { i16, i1 } @llvm.umul.with.overflow.i16(i16 %a, i16 %b)
  %o = extractvalue { i16, i1 } %p, 1
  %r = zext i1 %o to i16
  ret i16 %r
}

define zeroext i32 @ctpop_i32(i32 zeroext %a) noinline {
  %r = call i32 @llvm.ctpop.i32(i32 %a)
  ret i32 %r
}

define zeroext i32 @bitreverse_i32(i32 zeroext %a) noinline {
  %r = call i32 @llvm.bitreverse.i32(i32 %a)
  ret i32 %r
}

define zeroext i32 @ctlz_i32(i32 zeroext %a) noinline {
  %r = call i32 @llvm.ctlz.i32(i32 %a, i1 false)
  ret i32 %r
}

define zeroext i32 @cttz_i32(i32 zeroext %a) noinline {
  %r = call i32 @llvm.cttz.i32(i32 %a, i1 false)
  ret i32 %r
}

define zeroext i32 @abs_i32(i32 zeroext %a) noinline {
  %r = call i32 @llvm.abs.i32(i32 %a, i1 false)
  ret i32 %r
}

define zeroext i32 @sadd_sat_i32(i32 zeroext %a, i32 zeroext %b) noinline {
  %r = call i32 @llvm.sadd.sat.i32(i32 %a, i32 %b)
  ret i32 %r
}

define zeroext i32 @uadd_sat_i32(i32 zeroext %a, i32 zeroext %b) noinline {
  %r = call i32 @llvm.uadd.sat.i32(i32 %a, i32 %b)
  ret i32 %r
}

define zeroext i32 @ssub_sat_i32(i32 zeroext %a, i32 zeroext %b) noinline {
  %r = call i32 @llvm.ssub.sat.i32(i32 %a, i32 %b)
  ret i32 %r
}

define zeroext i32 @usub_sat_i32(i32 zeroext %a, i32 zeroext %b) noinline {
  %r = call i32 @llvm.usub.sat.i32(i32 %a, i32 %b)
  ret i32 %r
}

define zeroext i32 @sshl_sat_i32(i32 zeroext %a, i32 zeroext %b) noinline {
  %r = call i32 @llvm.sshl.sat.i32(i32 %a, i32 %b)
  ret i32 %r
}

define zeroext i32 @ushl_sat_i32(i32 zeroext %a, i32 zeroext %b) noinline {
  %r = call i32 @llvm.ushl.sat.i32(i32 %a, i32 %b)
  ret i32 %r
}

define zeroext i32 @fshl_i32(i32 zeroext %a, i32 zeroext %b, i32 zeroext %c) noinline {
  %r = call i32 @llvm.fshl.i32(i32 %a, i32 %b, i32 %c)
  ret i32 %r
}

define zeroext i32 @fshr_i32(i32 zeroext %a, i32 zeroext %b, i32 zeroext %c) noinline {
  %r = call i32 @llvm.fshr.i32(i32 %a, i32 %b, i32 %c)
  ret i32 %r
}

define zeroext i32 @sadd_value_i32(i32 zeroext %a, i32 zeroext %b) noinline {
  %p = call { i32, i1 } @llvm.sadd.with.overflow.i32(i32 %a, i32 %b)
  %r = extractvalue { i32, i1 } %p, 0
  ret i32 %r
}

define zeroext i32 @sadd_over_i32(i32 zeroext %a, i32 zeroext %b) noinline {
  %p = call { i32, i1 } @llvm.sadd.with.overflow.i32(i32 %a, i32 %b)
  %o = extractvalue { i32, i1 } %p, 1
  %r = zext i1 %o to i32
  ret i32 %r
}

define zeroext i32 @uadd_value_i32(i32 zeroext %a, i32 zeroext %b) noinline {
  %p = call { i32, i1 } @llvm.uadd.with.overflow.i32(i32 %a, i32 %b)
  %r = extractvalue { i32, i1 } %p, 0
  ret i32 %r
}

define zeroext i32 @uadd_over_i32(i32 zeroext %a, i32 zeroext %b) noinline {
  %p = call { i32, i1 } @llvm.uadd.with.overflow.i32(i32 %a, i32 %b)
  %o = extractvalue { i32, i1 } %p, 1
  %r = zext i1 %o to i32
  ret i32 %r
}

define zeroext i32 @ssub_value_i32(i32 zeroext %a, i32 zeroext %b) noinline {
  %p = call { i32, i1 } @llvm.ssub.with.overflow.i32(i32 %a, i32 %b)
  %r = extractvalue { i32, i1 } %p, 0
  ret i32 %r
}

define zeroext i32 @ssub_over_i32(i32 zeroext %a, i32 zeroext %b) noinline {
  %p = call { i32, i1 } @llvm.ssub.with.overflow.i32(i32 %a, i32 %b)
  %o = extractvalue { i32, i1 } %p, 1
  %r = zext i1 %o to i32
  ret i32 %r
}

define zeroext i32 @usub_value_i32(i32 zeroext %a, i32 zeroext %b) noinline {
  %p = call { i32, i1 } @llvm.usub.with.overflow.i32(i32 %a, i32 %b)
  %r = extractvalue { i32, i1 } %p, 0
  ret i32 %r
}

define zeroext i32 @usub_over_i32(i32 zeroext %a, i32 zeroext %b) noinline {
  %p = call { i32, i1 } @llvm.usub.with.overflow.i32(i32 %a, i32 %b)
  %o = extractvalue { i32, i1 } %p, 1
  %r = zext i1 %o to i32
  ret i32 %r
}

define zeroext i32 @smul_value_i32(i32 zeroext %a, i32 zeroext %b) noinline {
  %p = call { i32, i1 } @llvm.smul.with.overflow.i32(i32 %a, i32 %b)
  %r = extractvalue { i32, i1 } %p, 0
  ret i32 %r
}

define zeroext i32 @smul_over_i32(i32 zeroext %a, i32 zeroext %b) noinline {
  %p = call { i32, i1 } @llvm.smul.with.overflow.i32(i32 %a, i32 %b)
  %o = extractvalue { i32, i1 } %p, 1
  %r = zext i1 %o to i32
  ret i32 %r
}

define zeroext i32 @umul_value_i32(i32 zeroext %a, i32 zeroext %b) noinline {
  %p = call { i32, i1 } @llvm.umul.with.overflow.i32(i32 %a, i32 %b)
  %r = extractvalue { i32, i1 } %p, 0
  ret i32 %r
}

define zeroext i32 @umul_over_i32(i32 zeroext %a, i32 zeroext %b) noinline {
  %p = call { i32, i1 } @llvm.umul.with.overflow.i32(i32 %a, i32 %b)
  %o = extractvalue { i32, i1 } %p, 1
  %r = zext i1 %o to i32
  ret i32 %r
}

define zeroext i64 @ctpop_i64(i64 zeroext %a) noinline {
  %r = call i64 @llvm.ctpop.i64(i64 %a)
  ret i64 %r
}

define zeroext i64 @bitreverse_i64(i64 zeroext %a) noinline {
  %r = call i64 @llvm.bitreverse.i64(i64 %a)
  ret i64 %r
}

define zeroext i64 @ctlz_i64(i64 zeroext %a) noinline {
  %r = call i64 @llvm.ctlz.i64(i64 %a, i1 false)
  ret i64 %r
}

define zeroext i64 @cttz_i64(i64 zeroext %a) noinline {
  %r = call i64 @llvm.cttz.i64(i64 %a, i1 false)
  ret i64 %r
}

define zeroext i64 @abs_i64(i64 zeroext %a) noinline {
  %r = call i64 @llvm.abs.i64(i64 %a, i1 false)
  ret i64 %r
}

define zeroext i64 @sadd_sat_i64(i64 zeroext %a, i64 zeroext %b) noinline {
  %r = call i64 @llvm.sadd.sat.i64(i64 %a, i64 %b)
  ret i64 %r
}

define zeroext i64 @uadd_sat_i64(i64 zeroext %a, i64 zeroext %b) noinline {
  %r = call i64 @llvm.uadd.sat.i64(i64 %a, i64 %b)
  ret i64 %r
}

define zeroext i64 @ssub_sat_i64(i64 zeroext %a, i64 zeroext %b) noinline {
  %r = call i64 @llvm.ssub.sat.i64(i64 %a, i64 %b)
  ret i64 %r
}

define zeroext i64 @usub_sat_i64(i64 zeroext %a, i64 zeroext %b) noinline {
  %r = call i64 @llvm.usub.sat.i64(i64 %a, i64 %b)
  ret i64 %r
}

define zeroext i64 @sshl_sat_i64(i64 zeroext %a, i64 zeroext %b) noinline {
  %r = call i64 @llvm.sshl.sat.i64(i64 %a, i64 %b)
  ret i64 %r
}

define zeroext i64 @ushl_sat_i64(i64 zeroext %a, i64 zeroext %b) noinline {
  %r = call i64 @llvm.ushl.sat.i64(i64 %a, i64 %b)
  ret i64 %r
}

define zeroext i64 @fshl_i64(i64 zeroext %a, i64 zeroext %b, i64 zeroext %c) noinline {
  %r = call i64 @llvm.fshl.i64(i64 %a, i64 %b, i64 %c)
  ret i64 %r
}

define zeroext i64 @fshr_i64(i64 zeroext %a, i64 zeroext %b, i64 zeroext %c) noinline {
  %r = call i64 @llvm.fshr.i64(i64 %a, i64 %b, i64 %c)
  ret i64 %r
}

define zeroext i64 @sadd_value_i64(i64 zeroext %a, i64 zeroext %b) noinline {
  %p = call { i64, i1 } @llvm.sadd.with.overflow.i64(i64 %a, i64 %b)
  %r = extractvalue { i64, i1 } %p, 0
  ret i64 %r
}

define zeroext i64 @sadd_over_i64(i64 zeroext %a, i64 zeroext %b) noinline {
  %p = call { i64, i1 } @llvm.sadd.with.overflow.i64(i64 %a, i64 %b)
  %o = extractvalue { i64, i1 } %p, 1
  %r = zext i1 %o to i64
  ret i64 %r
}

define zeroext i64 @uadd_value_i64(i64 zeroext %a, i64 zeroext %b) noinline {
  %p = call { i64, i1 } @llvm.uadd.with.overflow.i64(i64 %a, i64 %b)
  %r = extractvalue { i64, i1 } %p, 0
  ret i64 %r
}

define zeroext i64 @uadd_over_i64(i64 zeroext %a, i64 zeroext %b) noinline {
  %p = call { i64, i1 } @llvm.uadd.with.overflow.i64(i64 %a, i64 %b)
  %o = extractvalue { i64, i1 } %p, 1
  %r = zext i1 %o to i64
  ret i64 %r
}

define zeroext i64 @ssub_value_i64(i64 zeroext %a, i64 zeroext %b) noinline {
  %p = call { i64, i1 } @llvm.ssub.with.overflow.i64(i64 %a, i64 %b)
  %r = extractvalue { i64, i1 } %p, 0
  ret i64 %r
}

define zeroext i64 @ssub_over_i64(i64 zeroext %a, i64 zeroext %b) noinline {
  %p = call { i64, i1 } @llvm.ssub.with.overflow.i64(i64 %a, i64 %b)
  %o = extractvalue { i64, i1 } %p, 1
  %r = zext i1 %o to i64
  ret i64 %r
}

define zeroext i64 @usub_value_i64(i64 zeroext %a, i64 zeroext %b) noinline {
  %p = call { i64, i1 } @llvm.usub.with.overflow.i64(i64 %a, i64 %b)
  %r = extractvalue { i64, i1 } %p, 0
  ret i64 %r
}

define zeroext i64 @usub_over_i64(i64 zeroext %a, i64 zeroext %b) noinline {
  %p = call { i64, i1 } @llvm.usub.with.overflow.i64(i64 %a, i64 %b)
  %o = extractvalue { i64, i1 } %p, 1
  %r = zext i1 %o to i64
  ret i64 %r
}

define zeroext i64 @smul_value_i64(i64 zeroext %a, i64 zeroext %b) noinline {
  %p = call { i64, i1 } @llvm.smul.with.overflow.i64(i64 %a, i64 %b)
  %r = extractvalue { i64, i1 } %p, 0
  ret i64 %r
}

define zeroext i64 @smul_over_i64(i64 zeroext %a, i64 zeroext %b) noinline {
  %p = call { i64, i1 } @llvm.smul.with.overflow.i64(i64 %a, i64 %b)
  %o = extractvalue { i64, i1 } %p, 1
  %r = zext i1 %o to i64
  ret i64 %r
}

define zeroext i64 @umul_value_i64(i64 zeroext %a, i64 zeroext %b) noinline {
  %p = call { i64, i1 } @llvm.umul.with.overflow.i64(i64 %a, i64 %b)
  %r = extractvalue { i64, i1 } %p, 0
  ret i64 %r
}

define zeroext i64 @umul_over_i64(i64 zeroext %a, i64 zeroext %b) noinline {
  %p = call { i64, i1 } @llvm.umul.with.overflow.i64(i64 %a, i64 %b)
  %o = extractvalue { i64, i1 } %p, 1
  %r = zext i1 %o to i64
  ret i64 %r
}

declare i16 @llvm.abs.i16(i16, i1)
declare i16 @llvm.bitreverse.i16(i16)
declare i16 @llvm.ctlz.i16(i16, i1)
declare i16 @llvm.ctpop.i16(i16)
declare i16 @llvm.cttz.i16(i16, i1)
declare i16 @llvm.fshl.i16(i16, i16, i16)
declare i16 @llvm.fshr.i16(i16, i16, i16)
declare i16 @llvm.sadd.sat.i16(i16, i16)
declare i16 @llvm.sshl.sat.i16(i16, i16)
declare i16 @llvm.ssub.sat.i16(i16, i16)
declare i16 @llvm.uadd.sat.i16(i16, i16)
declare i16 @llvm.ushl.sat.i16(i16, i16)
declare i16 @llvm.usub.sat.i16(i16, i16)
declare i32 @llvm.abs.i32(i32, i1)
declare i32 @llvm.bitreverse.i32(i32)
declare i32 @llvm.ctlz.i32(i32, i1)
declare i32 @llvm.ctpop.i32(i32)
declare i32 @llvm.cttz.i32(i32, i1)
declare i32 @llvm.fshl.i32(i32, i32, i32)
declare i32 @llvm.fshr.i32(i32, i32, i32)
declare i32 @llvm.sadd.sat.i32(i32, i32)
declare i32 @llvm.sshl.sat.i32(i32, i32)
declare i32 @llvm.ssub.sat.i32(i32, i32)
declare i32 @llvm.uadd.sat.i32(i32, i32)
declare i32 @llvm.ushl.sat.i32(i32, i32)
declare i32 @llvm.usub.sat.i32(i32, i32)
declare i64 @llvm.abs.i64(i64, i1)
declare i64 @llvm.bitreverse.i64(i64)
declare i64 @llvm.ctlz.i64(i64, i1)
declare i64 @llvm.ctpop.i64(i64)
declare i64 @llvm.cttz.i64(i64, i1)
declare i64 @llvm.fshl.i64(i64, i64, i64)
declare i64 @llvm.fshr.i64(i64, i64, i64)
declare i64 @llvm.sadd.sat.i64(i64, i64)
declare i64 @llvm.sshl.sat.i64(i64, i64)
declare i64 @llvm.ssub.sat.i64(i64, i64)
declare i64 @llvm.uadd.sat.i64(i64, i64)
declare i64 @llvm.ushl.sat.i64(i64, i64)
declare i64 @llvm.usub.sat.i64(i64, i64)
declare i8 @llvm.abs.i8(i8, i1)
declare i8 @llvm.bitreverse.i8(i8)
declare i8 @llvm.ctlz.i8(i8, i1)
declare i8 @llvm.ctpop.i8(i8)
declare i8 @llvm.cttz.i8(i8, i1)
declare i8 @llvm.fshl.i8(i8, i8, i8)
declare i8 @llvm.fshr.i8(i8, i8, i8)
declare i8 @llvm.sadd.sat.i8(i8, i8)
declare i8 @llvm.sshl.sat.i8(i8, i8)
declare i8 @llvm.ssub.sat.i8(i8, i8)
declare i8 @llvm.uadd.sat.i8(i8, i8)
declare i8 @llvm.ushl.sat.i8(i8, i8)
declare i8 @llvm.usub.sat.i8(i8, i8)
declare { i16, i1 } @llvm.sadd.with.overflow.i16(i16, i16)
declare { i16, i1 } @llvm.smul.with.overflow.i16(i16, i16)
declare { i16, i1 } @llvm.ssub.with.overflow.i16(i16, i16)
declare { i16, i1 } @llvm.uadd.with.overflow.i16(i16, i16)
declare { i16, i1 } @llvm.umul.with.overflow.i16(i16, i16)
declare { i16, i1 } @llvm.usub.with.overflow.i16(i16, i16)
declare { i32, i1 } @llvm.sadd.with.overflow.i32(i32, i32)
declare { i32, i1 } @llvm.smul.with.overflow.i32(i32, i32)
declare { i32, i1 } @llvm.ssub.with.overflow.i32(i32, i32)
declare { i32, i1 } @llvm.uadd.with.overflow.i32(i32, i32)
declare { i32, i1 } @llvm.umul.with.overflow.i32(i32, i32)
declare { i32, i1 } @llvm.usub.with.overflow.i32(i32, i32)
declare { i64, i1 } @llvm.sadd.with.overflow.i64(i64, i64)
declare { i64, i1 } @llvm.smul.with.overflow.i64(i64, i64)
declare { i64, i1 } @llvm.ssub.with.overflow.i64(i64, i64)
declare { i64, i1 } @llvm.uadd.with.overflow.i64(i64, i64)
declare { i64, i1 } @llvm.umul.with.overflow.i64(i64, i64)
declare { i64, i1 } @llvm.usub.with.overflow.i64(i64, i64)
declare { i8, i1 } @llvm.sadd.with.overflow.i8(i8, i8)
declare { i8, i1 } @llvm.smul.with.overflow.i8(i8, i8)
declare { i8, i1 } @llvm.ssub.with.overflow.i8(i8, i8)
declare { i8, i1 } @llvm.uadd.with.overflow.i8(i8, i8)
declare { i8, i1 } @llvm.umul.with.overflow.i8(i8, i8)
declare { i8, i1 } @llvm.usub.with.overflow.i8(i8, i8)
