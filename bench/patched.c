// A program for bench/patched: sorting, hashing, strings and printf. It prints checksums of what it computes.
#include <stdio.h>
#include <stdlib.h>
#include <string.h>

typedef unsigned char u8;
typedef unsigned u32;
typedef unsigned long u64;

static u64 seed = 88172645463325252ul;

u64 next_word(void) {
    seed ^= seed << 13;
    seed ^= seed >> 7;
    seed ^= seed << 17;
    return seed;
}

u64 djb2(const u8 *s, u64 n) {
    u64 h = 5381;
    for (u64 i = 0; i < n; i++) h = h * 33 + s[i];
    return h;
}

u32 fnv(const u8 *s, u64 n) {
    u32 h = 2166136261u;
    for (u64 i = 0; i < n; i++) h = (h ^ s[i]) * 16777619u;
    return h;
}

u32 crc(const u8 *s, u64 n) {
    u32 c = ~0u;
    for (u64 i = 0; i < n; i++) {
        c ^= s[i];
        for (int k = 0; k < 8; k++) c = c & 1 ? c >> 1 ^ 0xEDB88320u : c >> 1;
    }
    return ~c;
}

void shell_sort(int *a, int n) {
    for (int gap = n / 2; gap > 0; gap /= 2)
        for (int i = gap; i < n; i++) {
            int t = a[i], j;
            for (j = i; j >= gap && a[j - gap] > t; j -= gap) a[j] = a[j - gap];
            a[j] = t;
        }
}

int compare(const void *a, const void *b) {
    int x = *(const int *)a, y = *(const int *)b;
    return (x > y) - (x < y);
}

int words(const char *s) {
    int n = 0, inside = 0;
    for (; *s; s++) {
        if (*s == ' ') inside = 0;
        else if (!inside) inside = 1, n++;
    }
    return n;
}

void reverse(char *s) {
    char *e = s + strlen(s) - 1;
    while (s < e) {
        char t = *s;
        *s++ = *e;
        *e-- = t;
    }
}

u64 product(const int *a, const int *b) {
    u64 sum = 0;
    for (int i = 0; i < 8; i++)
        for (int j = 0; j < 8; j++) {
            long t = 0;
            for (int k = 0; k < 8; k++) t += (long)a[i * 8 + k] * b[k * 8 + j];
            sum = sum * 31 + t;
        }
    return sum;
}

u64 mixed(u64 a, u64 b, u64 c, u64 d) {
    a += b, d ^= a, d = d << 32 | d >> 32;
    c += d, b ^= c, b = b << 24 | b >> 40;
    a += b, d ^= a, d = d << 16 | d >> 48;
    c += d, b ^= c, b = b << 63 | b >> 1;
    return a ^ b ^ c ^ d;
}

int main(void) {
    static int a[1000], b[1000];
    static u8 s[4096];
    char text[64] = "the quick brown fox  jumps over";
    for (int i = 0; i < 1000; i++) a[i] = b[i] = next_word();
    for (int i = 0; i < 4096; i++) s[i] = next_word();
    shell_sort(a, 1000);
    qsort(b, 1000, sizeof *b, compare);
    printf("%d %lx\n", memcmp(a, b, sizeof a), djb2((u8 *)a, sizeof a));
    printf("%lx %x %x\n", djb2(s, 4096), fnv(s, 4096), crc(s, 4096));
    reverse(text);
    printf("%d %s\n", words(text), text);
    printf("%lx %lx\n", product(a, b), mixed(next_word(), next_word(), next_word(), next_word()));
    for (int i = 0; i < 5; i++) printf("%5d|%-8x|%.3f\n", b[i * 100], a[i], i / 3.0);
    return 0;
}
