// Exceptions: thrown through frames with objects to destroy, caught by class, thrown again, and out of constructors.
#include <cstdio>
#include <map>
#include <memory>
#include <stdexcept>
#include <string>
#include <vector>

static int alive;

struct Counted {
    unsigned long value;
    explicit Counted(unsigned long v) : value(v * 33 + 7) {
        if (v % 13 == 12) throw std::out_of_range("thirteenth");
        alive++;
    }
    ~Counted() { alive--; }
};

struct Own : std::runtime_error {
    unsigned long place;
    Own(const char *what, unsigned long p) : std::runtime_error(what), place(p) {}
};

__attribute__((noinline)) unsigned long deep(unsigned long n, unsigned long level) {
    Counted here(n + level);
    if (level == 0) {
        if (n % 3 == 0) throw Own("own", n);
        if (n % 3 == 1) throw n;
        return here.value;
    }
    unsigned long below = deep(n, level - 1);
    return below * 31 + here.value;
}

__attribute__((noinline)) unsigned long again(unsigned long n) {
    unsigned long sum = n * 5 + 3;
    try {
        sum += deep(n, 3);
    } catch (const Own &own) {
        sum = sum * 7 + own.place;
        if (n % 2) throw;
    }
    return sum;
}

int main() {
    std::map<std::string, unsigned long> seen;
    for (unsigned long n = 0; n < 40; n++) {
        std::vector<std::unique_ptr<Counted>> all;
        try {
            for (unsigned long i = 0; i < 4; i++) all.push_back(std::unique_ptr<Counted>(new Counted(n + i)));
            seen["none"] += again(n) ^ n;
        } catch (unsigned long thrown) {
            seen["number"] += thrown * 3 + all.size();
        } catch (const Own &own) {
            seen[own.what()] += own.place + all.size();
        } catch (const std::exception &other) {
            seen[other.what()] += n * 17 + all.size();
        }
    }
    for (const auto &it : seen) std::printf("%s %lx\n", it.first.c_str(), it.second);
    std::printf("%d\n", alive);
    return alive;
}
