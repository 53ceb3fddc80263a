// Nested functions of GNU C: called directly, by a pointer through a trampoline, and left by a jump to an outer label.
#include <stdio.h>
#include <stdlib.h>

static unsigned long apply(unsigned long (*f)(unsigned long), unsigned long n) { return f(n) * 3 + f(n + 1); }

static unsigned long sums(unsigned long n) {
    unsigned long x = n, calls = 0;
    unsigned long add(unsigned long y) {
        unsigned long twice(unsigned long z) { return calls++ * 5 + z + z + x; }
        x += twice(y) ^ n;
        return x + y * 7;
    }
    unsigned long direct = add(n) + add(n * 3 + 1);
    return direct * 31 + apply(add, n) + calls;
}

static unsigned long find(const unsigned *all, unsigned count, unsigned wanted) {
    __label__ found;
    unsigned long at = 0;
    void look(unsigned i) {
        at = at * 3 + i;
        if (all[i] == wanted) goto found;
    }
    for (unsigned i = 0; i < count; i++) look(i);
    return 0;
found:
    return at * 5 + wanted;
}

int main(void) {
    unsigned all[16], order = 0;
    int compare(const void *a, const void *b) {
        order++;
        return *(const unsigned *)a < *(const unsigned *)b ? -1 : *(const unsigned *)a > *(const unsigned *)b;
    }
    for (unsigned i = 0; i < 16; i++) all[i] = (i * 2654435761u) >> 20;
    qsort(all, 16, sizeof *all, compare);
    for (unsigned long n = 0; n < 6; n++) printf("%lx %lx\n", sums(n), find(all, 16, all[n * 2]));
    printf("%u %lx\n", order, find(all, 16, 1));
    return 0;
}
