/* Sizes, differences of pointers, and the place of a field. */
#ifndef LIB_STDDEF_H
#define LIB_STDDEF_H

typedef __SIZE_TYPE__ size_t;
typedef __PTRDIFF_TYPE__ ptrdiff_t;
typedef __WCHAR_TYPE__ wchar_t;
typedef struct {
    long long number __attribute__((aligned(__alignof__(long long))));
    void *pointer;
} max_align_t;

#ifndef NULL
#define NULL ((void *)0)
#endif
#define offsetof(type, member) __builtin_offsetof(type, member)

#endif
