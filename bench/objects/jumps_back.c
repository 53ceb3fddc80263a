// setjmp and longjmp, __builtin_setjmp, signal handlers with and without a stack of their own, and varargs.
#include <setjmp.h>
#include <signal.h>
#include <stdarg.h>
#include <stdio.h>
#include <string.h>

typedef unsigned long u64;
static jmp_buf back;
static sigjmp_buf signalled;
static void *quick[5];
static volatile sig_atomic_t seen;

__attribute__((noinline)) static u64 leave(u64 n, u64 depth) {
    if (depth == 0) longjmp(back, (int)(n % 7) + 1);
    return leave(n + depth, depth - 1) * 3 + n;
}

__attribute__((noinline)) static u64 jumped(u64 n) {
    volatile u64 count = 0;
    u64 kept = n * 33 + 5;
    int how = setjmp(back);
    if (how == 0) return leave(n, 4) + 1;
    count += how;
    if (count < 12) {
        n = n * 5 + how;
        leave(count, 2);
    }
    return kept * 31 + count;
}

__attribute__((noinline)) static void quickly(void) { __builtin_longjmp(quick, 1); }

__attribute__((noinline)) static u64 jumped_quickly(u64 n) {
    volatile u64 sum = n * 3 + 1 + 2;
    if (__builtin_setjmp(quick) == 0) {
        sum = sum * 7 + 4;
        quickly();
    }
    return sum * 5 + 9;
}

static void count(int number) { seen = seen * 3 + number; }
static void jump(int number) { siglongjmp(signalled, number); }

static u64 sum(const char *kinds, ...) {
    va_list given;
    u64 all = 0;
    va_start(given, kinds);
    for (; *kinds; kinds++) {
        if (*kinds == 'i') all = all * 31 + va_arg(given, int);
        else if (*kinds == 'l') all = all * 33 + va_arg(given, long);
        else if (*kinds == 'd') all = all * 37 + (long)(va_arg(given, double) * 8);
        else all = all * 41 + strlen(va_arg(given, const char *));
    }
    va_end(given);
    return all;
}

int main(void) {
    for (u64 n = 0; n < 5; n++) printf("%lx %lx\n", jumped(n), jumped_quickly(n));
    signal(SIGUSR1, count);
    signal(SIGUSR2, jump);
    for (int i = 0; i < 4; i++) {
        raise(SIGUSR1);
        int how = sigsetjmp(signalled, 1);
        if (how == 0) raise(SIGUSR2);
        printf("%d %d\n", how, (int)seen);
    }
    printf("%lx\n", sum("ildsildsil", 1, 2l, 3.5, "four", 5, 6l, 7.25, "eight", -9, -10l));
    printf("%lx\n", sum("ddddddddii", 1.0, 2.0, 3.0, 4.0, 5.0, 6.0, 7.0, 8.0, 9, 10));
    return 0;
}
