/* A variable number of arguments, as the compiler has it for the target. */
#ifndef LIB_STDARG_H
#define LIB_STDARG_H

typedef __builtin_va_list va_list;
typedef __builtin_va_list __gnuc_va_list;

#define va_start(list, last) __builtin_va_start(list, last)
#define va_arg(list, type) __builtin_va_arg(list, type)
#define va_copy(to, list) __builtin_va_copy(to, list)
#define __va_copy(to, list) __builtin_va_copy(to, list)
#define va_end(list) __builtin_va_end(list)

#endif
