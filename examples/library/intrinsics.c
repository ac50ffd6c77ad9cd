/* Each integer intrinsic that from-c lowers, at all widths, on all pairs (or triples) of edge values. The functions are those
   of intrinsics.ll, which intrinsics.py writes. */
#include "check.h"

#define EDGES(n) 0, 1, 2, 3, 5, 7, 8, 0x0F, 0x10, 0x33, 0x55, 0x5A, 0x80, 0xA5, 0xAA, 0xCC, 0xF0, 0xFE, 0xFF, (1ull << (n - 1)), (1ull << (n - 1)) - 1, \
    (1ull << (n - 1)) + 1, -1ull, -2ull, -3ull, (1ull << (n / 2)), (1ull << (n / 2)) - 1, 0x0123456789ABCDEFull, 0xFEDCBA9876543210ull, 0x8000800080008000ull

#define ONE(name, n, u)                                       \
    u name##_i##n(u);                                         \
    static void try_##name##_##n(void) {                      \
        static const u edges[] = {EDGES(n)};                  \
        for (unsigned k = 0; k < sizeof edges / sizeof *edges; k++) \
            called((int64_t)name##_i##n(edges[k]));           \
        for (int k = 0; k < 1000; k++)                        \
            called((int64_t)name##_i##n((u)(chance + draw(9)))); \
        report(#name "." #n);                                 \
    }
/* With a limit for the second argument, where a greater one means nothing. */
#define TWO(name, n, u, most)                                 \
    u name##_i##n(u, u);                                      \
    static void try_##name##_##n(void) {                      \
        static const u edges[] = {EDGES(n)};                  \
        for (unsigned k = 0; k < sizeof edges / sizeof *edges; k++) \
            for (unsigned i = 0; i < sizeof edges / sizeof *edges; i++) \
                called((int64_t)name##_i##n(edges[k], (u)(edges[i] & most))); \
        for (int k = 0; k < 300; k++) {                       \
            u a = (u)chance, b = (u)(chance * draw(1000));    \
            called((int64_t)name##_i##n(a, (u)(b & most)));   \
        }                                                     \
        report(#name "." #n);                                 \
    }
#define THREE(name, n, u)                                     \
    u name##_i##n(u, u, u);                                   \
    static void try_##name##_##n(void) {                      \
        static const u edges[] = {EDGES(n)};                  \
        for (unsigned k = 0; k < sizeof edges / sizeof *edges; k++) \
            for (unsigned i = 0; i < sizeof edges / sizeof *edges; i++) \
                called((int64_t)name##_i##n(edges[k], edges[(k + i) % 30], edges[i])); \
        report(#name "." #n);                                 \
    }

#define ALL(n, u)                                             \
    ONE(ctpop, n, u)                                          \
    ONE(bitreverse, n, u)                                     \
    ONE(ctlz, n, u)                                           \
    ONE(cttz, n, u)                                           \
    ONE(abs, n, u)                                            \
    TWO(sadd_sat, n, u, -1ull)                                \
    TWO(uadd_sat, n, u, -1ull)                                \
    TWO(ssub_sat, n, u, -1ull)                                \
    TWO(usub_sat, n, u, -1ull)                                \
    TWO(sshl_sat, n, u, (n - 1))                              \
    TWO(ushl_sat, n, u, (n - 1))                              \
    TWO(sadd_value, n, u, -1ull)                              \
    TWO(sadd_over, n, u, -1ull)                               \
    TWO(uadd_value, n, u, -1ull)                              \
    TWO(uadd_over, n, u, -1ull)                               \
    TWO(ssub_value, n, u, -1ull)                              \
    TWO(ssub_over, n, u, -1ull)                               \
    TWO(usub_value, n, u, -1ull)                              \
    TWO(usub_over, n, u, -1ull)                               \
    TWO(smul_value, n, u, -1ull)                              \
    TWO(smul_over, n, u, -1ull)                               \
    TWO(umul_value, n, u, -1ull)                              \
    TWO(umul_over, n, u, -1ull)                               \
    THREE(fshl, n, u)                                         \
    THREE(fshr, n, u)                                         \
    static void try_##n(void) {                               \
        try_ctpop_##n(), try_bitreverse_##n(), try_ctlz_##n(), try_cttz_##n(), try_abs_##n(); \
        try_sadd_sat_##n(), try_uadd_sat_##n(), try_ssub_sat_##n(), try_usub_sat_##n(); \
        try_sshl_sat_##n(), try_ushl_sat_##n();               \
        try_sadd_value_##n(), try_sadd_over_##n(), try_uadd_value_##n(), try_uadd_over_##n(); \
        try_ssub_value_##n(), try_ssub_over_##n(), try_usub_value_##n(), try_usub_over_##n(); \
        try_smul_value_##n(), try_smul_over_##n(), try_umul_value_##n(), try_umul_over_##n(); \
        try_fshl_##n(), try_fshr_##n();                       \
    }

ALL(8, uint8_t)
ALL(16, uint16_t)
ALL(32, uint32_t)
ALL(64, uint64_t)

int main(void) {
    try_8();
    try_16();
    try_32();
    try_64();
    return 0;
}
