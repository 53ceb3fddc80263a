// Calls `tried`, a function of an assembler file beside this one, and prints what it returns.
#include <stdio.h>

unsigned long tried(unsigned long, unsigned long, unsigned long, unsigned long, unsigned long, unsigned long);
unsigned long seven(unsigned long n) { return 7 * n; }

int main(void) {
    for (unsigned long n = 0; n < 4; n++) printf("%lx\n", tried(n, 20, 300, 4000, 50000, 600000));
    return 0;
}
