// What pads.s calls: it throws for odd numbers.
#include <cstdio>

extern "C" unsigned long throws(unsigned long n) {
    if (n & 1) throw n;
    return n;
}

extern "C" unsigned long tried(unsigned long, unsigned long, unsigned long, unsigned long, unsigned long, unsigned long);

int main() {
    for (unsigned long n = 0; n < 4; n++) std::printf("%lu: %lx\n", n, tried(n, 20, 300, 4000, 50000, 600000));
}
