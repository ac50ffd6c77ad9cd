/* Room on the stack until the function returns. */
#ifndef LIB_ALLOCA_H
#define LIB_ALLOCA_H
#define alloca(n) __builtin_alloca(n)
#endif
