/* What is done when a program ends. Where atexit is used, from-c has main call __run_exits before it returns, and __exit called in the
   place of exit. The objects are seen from outside, since the functions are linked at two times. */
#include <stdlib.h>

void (*__at_exit[32])(void);
int __exits;

int atexit(void (*function)(void)) {
    if (__exits == sizeof __at_exit / sizeof *__at_exit)
        return -1;
    __at_exit[__exits++] = function;
    return 0;
}

/* The last one first; a function may register others. */
void __run_exits(void) {
    while (__exits > 0)
        __at_exit[--__exits]();
}

_Noreturn void __exit(int status) {
    __run_exits();
    exit(status);
}
