// Computed gotos, by addresses and by distances, and switches: dense, over bytes, in a loop.
#include <stdio.h>

typedef unsigned long u64;

static u64 by_address(const unsigned char *code) {
    static const void *const steps[] = {&&stop, &&add, &&times, &&turn, &&skip};
    u64 a = 1, b = 7;
    goto *steps[*code++];
add:
    a = a + b + 1 + 2;
    b ^= a;
    goto *steps[*code++];
times:
    a = a * 33 + b;
    goto *steps[*code++];
turn:
    a = a << 13 | a >> 51;
    b += a * 3 + 5;
    goto *steps[*code++];
skip:
    code++;
    goto *steps[*code++];
stop:
    return a ^ b;
}

static u64 by_distance(const unsigned char *code) {
    static const int steps[] = {&&stop - &&stop, &&add - &&stop, &&times - &&stop, &&turn - &&stop, &&skip - &&stop};
    u64 a = 1, b = 7;
#define NEXT goto *(&&stop + steps[*code++])
    NEXT;
add:
    a = a + b + 1 + 2;
    b ^= a;
    NEXT;
times:
    a = a * 33 + b;
    NEXT;
turn:
    a = a << 13 | a >> 51;
    b += a * 3 + 5;
    NEXT;
skip:
    code++;
    NEXT;
stop:
    return a ^ b;
}

static u64 by_switch(const unsigned char *code) {
    u64 a = 1, b = 7;
    for (;;)
        switch (*code++) {
        case 0: return a ^ b;
        case 1: a = a + b + 1 + 2, b ^= a; break;
        case 2: a = a * 33 + b; break;
        case 3: a = a << 13 | a >> 51, b += a * 3 + 5; break;
        case 4: code++; break;
        case 5: a = b * 5 + a + 9; break;
        case 6: b = (a & 0xff) * 257 + b; break;
        default: a++;
        }
}

__attribute__((noinline)) static long one_of(int n, long x, long y) {
    switch (n) {
    case -3: return x + y + 1 + 2;
    case -2: return x * 33 + y;
    case -1: return x - y * 5;
    case 0: return x ^ y << 3;
    case 1: return (x & y) + 7;
    case 2: return by_switch((const unsigned char *)"\1\2\3") + x;
    case 4: return x * 9 + y * 3 + 4;
    default: return n;
    }
}

int main(void) {
    unsigned char code[65];
    unsigned seed = 12345;
    for (int round = 0; round < 6; round++) {
        for (int i = 0; i < 64; i++) seed = seed * 1103515245 + 12345, code[i] = 1 + (seed >> 16) % 4;
        code[62] = 1, code[63] = 0, code[64] = 0;
        printf("%lx %lx %lx\n", by_address(code), by_distance(code), by_switch(code));
    }
    for (int n = -5; n < 7; n++) printf("%lx\n", one_of(n, n * 77, seed));
    return 0;
}
