// Functions that are reached by a pointer alone. Stripped, nothing but .eh_frame says where they begin behind the padding
// that follows the return before them.
#include <stdio.h>

typedef unsigned long u64;
typedef u64 (*one)(u64);

// Sums that can be one.
static u64 three(u64 a) {
    __asm__("addq %0,1,%0\n\taddq %0,2,%0\n\taddq %0,3,%0" : "+r"(a));
    return a;
}

static u64 four(u64 a) {
    __asm__("addq %0,1,%0\n\taddq %0,2,%0\n\taddq %0,3,%0\n\taddq %0,4,%0" : "+r"(a));
    return a;
}

static u64 five(u64 a) {
    __asm__("addq %0,5,%0\n\taddq %0,1,%0\n\taddq %0,2,%0\n\taddq %0,3,%0\n\taddq %0,4,%0" : "+r"(a));
    return a;
}

one volatile table[] = {three, four, five};

int main(void) {
    for (int i = 0; i < 3; i++) printf("%lx\n", table[i](1));
    return 0;
}
