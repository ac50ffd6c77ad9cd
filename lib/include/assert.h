/* assert ends the run with a trap where a condition fails; NDEBUG leaves it out. Included again, it is defined anew. */
#undef assert
#ifdef NDEBUG
#define assert(condition) ((void)0)
#else
#define assert(condition) ((condition) ? (void)0 : __assert_fail(#condition, __FILE__, __LINE__, __func__))
#endif
#ifndef LIB_ASSERT_H
#define LIB_ASSERT_H
#define static_assert _Static_assert
_Noreturn void __assert_fail(const char *condition, const char *file, unsigned line, const char *function);
#endif
