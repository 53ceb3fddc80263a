// A call of a nested function (GNU C) hands on the static chain in $1.
#include <stdio.h>

int main(int argc, char **argv) {
    unsigned long x = argc, seen = 0;
    __attribute__((noinline)) unsigned long inner(unsigned long h) {
        x += h;
        return h ^ x;
    }
    for (unsigned long c = 0; c < 5; c++) {
        seen += c;
        // sums that can be one, in the block of the call
        __asm__("addq %0,1,%0\n\taddq %0,2,%0\n\taddq %0,3,%0" : "+r"(seen));
        seen = inner(seen);
    }
    printf("%lx %lx\n", seen, x);
    return 0;
}
