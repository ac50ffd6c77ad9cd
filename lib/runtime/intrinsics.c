/* What from-c calls in place of LLVM's integer intrinsics that the text profile leaves out. Each function but those of the room is
   plain operators alone and is inlined. It is compiled without optimisation, so that no compiler finds the intrinsics in it again. */

#define INLINE __attribute__((always_inline))

/* Signed operators are done on unsigned numbers, which wrap. `TOP` is the sign's bit. */
#define WIDTH(N, U, S)                                                                                                       \
    enum { SHIFT##N = N - 1 };                                                                                               \
    static const U TOP##N = (U)1 << (N - 1);                                                                                 \
    INLINE U __lower_fshl_i##N(U a, U b, U c) { return (U)(a << (c & (N - 1)) | b >> 1 >> (~c & (N - 1))); }                 \
    INLINE U __lower_fshr_i##N(U a, U b, U c) { return (U)(a << 1 << (~c & (N - 1)) | b >> (c & (N - 1))); }                 \
    INLINE U __lower_abs_i##N(U a) { return a >> SHIFT##N ? (U)-a : a; }                                                     \
    INLINE _Bool __lower_uadd_overflow_i##N(U a, U b) { return (U)(a + b) < a; }                                             \
    INLINE _Bool __lower_usub_overflow_i##N(U a, U b) { return a < b; }                                                      \
    INLINE _Bool __lower_sadd_overflow_i##N(U a, U b) {                                                                      \
        U sum = (U)(a + b);                                                                                                  \
        return (U)((a ^ sum) & (b ^ sum)) >> SHIFT##N;                                                                       \
    }                                                                                                                        \
    INLINE _Bool __lower_ssub_overflow_i##N(U a, U b) { return (U)((a ^ b) & (a ^ (U)(a - b))) >> SHIFT##N; }                \
    INLINE _Bool __lower_umul_overflow_i##N(U a, U b) { return a != 0 && (U)(a * b) / a != b; }                              \
    INLINE _Bool __lower_smul_overflow_i##N(U a, U b) {                                                                      \
        U x = __lower_abs_i##N(a), y = __lower_abs_i##N(b), most = (U)(a ^ b) >> SHIFT##N ? TOP##N : (U)(TOP##N - 1);        \
        return x != 0 && y > most / x;                                                                                       \
    }                                                                                                                        \
    INLINE U __lower_uadd_sat_i##N(U a, U b) { return (U)(a + b) < a ? (U)-1 : (U)(a + b); }                                 \
    INLINE U __lower_usub_sat_i##N(U a, U b) { return a < b ? 0 : (U)(a - b); }                                              \
    INLINE U __lower_sadd_sat_i##N(U a, U b) {                                                                               \
        return __lower_sadd_overflow_i##N(a, b) ? (U)((U)(a >> SHIFT##N) + (U)(TOP##N - 1)) : (U)(a + b);                    \
    }                                                                                                                        \
    INLINE U __lower_ssub_sat_i##N(U a, U b) {                                                                               \
        return __lower_ssub_overflow_i##N(a, b) ? (U)((U)(a >> SHIFT##N) + (U)(TOP##N - 1)) : (U)(a - b);                    \
    }                                                                                                                        \
    INLINE U __lower_ushl_sat_i##N(U a, U b) { return (U)((U)(a << b) >> b) == a ? (U)(a << b) : (U)-1; }                    \
    INLINE U __lower_sshl_sat_i##N(U a, U b) {                                                                               \
        return (U)((S)(U)(a << b) >> b) == a ? (U)(a << b) : (U)((U)(a >> SHIFT##N) + (U)(TOP##N - 1));                      \
    }                                                                                                                        \
    INLINE int __lower_ucmp_i##N(U a, U b) { return (a > b) - (a < b); }                                                     \
    INLINE int __lower_scmp_i##N(U a, U b) { return ((S)a > (S)b) - ((S)a < (S)b); }

WIDTH(8, unsigned char, signed char)
WIDTH(16, unsigned short, short)
WIDTH(32, unsigned, int)
WIDTH(64, unsigned long long, long long)

INLINE unsigned __lower_ctpop_i32(unsigned x) {
    x -= x >> 1 & 0x55555555;
    x = (x & 0x33333333) + (x >> 2 & 0x33333333);
    return ((x + (x >> 4)) & 0x0F0F0F0F) * 0x01010101 >> 24;
}
INLINE unsigned char __lower_ctpop_i8(unsigned char x) { return (unsigned char)__lower_ctpop_i32(x); }
INLINE unsigned short __lower_ctpop_i16(unsigned short x) { return (unsigned short)__lower_ctpop_i32(x); }
INLINE unsigned long long __lower_ctpop_i64(unsigned long long x) {
    return __lower_ctpop_i32((unsigned)x) + __lower_ctpop_i32((unsigned)(x >> 32));
}

/* The zeros in front are the bits that are not set once each bit below the highest is. */
INLINE unsigned __lower_ctlz_i32(unsigned x) {
    x |= x >> 1;
    x |= x >> 2;
    x |= x >> 4;
    x |= x >> 8;
    x |= x >> 16;
    return __lower_ctpop_i32(~x);
}
INLINE unsigned char __lower_ctlz_i8(unsigned char x) { return (unsigned char)(__lower_ctlz_i32(x) - 24); }
INLINE unsigned short __lower_ctlz_i16(unsigned short x) { return (unsigned short)(__lower_ctlz_i32(x) - 16); }
INLINE unsigned long long __lower_ctlz_i64(unsigned long long x) {
    return x >> 32 ? __lower_ctlz_i32((unsigned)(x >> 32)) : 32 + __lower_ctlz_i32((unsigned)x);
}

/* The zeros behind are the bits below the lowest that is set. */
INLINE unsigned __lower_cttz_i32(unsigned x) { return __lower_ctpop_i32(~x & (x - 1)); }
INLINE unsigned char __lower_cttz_i8(unsigned char x) { return (unsigned char)__lower_cttz_i32(x | 0x100u); }
INLINE unsigned short __lower_cttz_i16(unsigned short x) { return (unsigned short)__lower_cttz_i32(x | 0x10000u); }
INLINE unsigned long long __lower_cttz_i64(unsigned long long x) { return __lower_ctpop_i64(~x & (x - 1)); }

INLINE unsigned __lower_bitreverse_i32(unsigned x) {
    x = (x >> 1 & 0x55555555) | (x & 0x55555555) << 1;
    x = (x >> 2 & 0x33333333) | (x & 0x33333333) << 2;
    x = (x >> 4 & 0x0F0F0F0F) | (x & 0x0F0F0F0F) << 4;
    return x >> 24 | (x >> 8 & 0xFF00) | (x << 8 & 0xFF0000) | x << 24;
}
INLINE unsigned char __lower_bitreverse_i8(unsigned char x) { return (unsigned char)(__lower_bitreverse_i32(x) >> 24); }
INLINE unsigned short __lower_bitreverse_i16(unsigned short x) { return (unsigned short)(__lower_bitreverse_i32(x) >> 16); }
INLINE unsigned long long __lower_bitreverse_i64(unsigned long long x) {
    return (unsigned long long)__lower_bitreverse_i32((unsigned)x) << 32 | __lower_bitreverse_i32((unsigned)(x >> 32));
}

/* Room of variable size that is taken again and again in a function: blocks, the last one on top, down to one that was marked. */
struct room {
    struct room *below;
} __attribute__((aligned(16)));
static struct room *top;
void *malloc(__SIZE_TYPE__ n);
void free(void *block);
_Noreturn void abort(void);

void *__lower_room_mark(void) { return top; }

void *__lower_room_take(__SIZE_TYPE__ n) {
    struct room *it = malloc(sizeof *it + n);
    if (!it)
        abort();
    it->below = top;
    top = it;
    return it + 1;
}

void __lower_room_back(void *mark) {
    while (top != mark) {
        struct room *it = top;
        top = it->below;
        free(it);
    }
}
