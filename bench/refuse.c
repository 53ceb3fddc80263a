// Refuses one allocation of a program: the one whose number, from 1, stands in REFUSE. When it comes to that one, it
// says so by a byte to the pipe whose number stands in TOLD. `bench/memory` preloads it; it stands on the names by
// which glibc gives its own allocator.
#include <stdlib.h>
#include <unistd.h>

void *__libc_malloc(size_t size);
void *__libc_realloc(void *block, size_t size);

static int refuses(void) {
    static unsigned long calls;
    const char *number = getenv("REFUSE");
    if (number == NULL || ++calls != strtoul(number, NULL, 10))
        return 0;
    const char *told = getenv("TOLD");
    if (told == NULL || write(atoi(told), "r", 1) != 1)
        abort();
    return 1;
}

void *malloc(size_t size) {
    return refuses() ? NULL : __libc_malloc(size);
}

void *realloc(void *block, size_t size) {
    return refuses() ? NULL : __libc_realloc(block, size);
}
