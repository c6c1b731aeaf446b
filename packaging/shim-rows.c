// Rows that shim.c has to meet, each from a contract of the kit; packaging/static runs them for arm64, as `shim-rows abc "" $'\377z'`.
#include <stddef.h>
#include <stdint.h>
#include <stdio.h>
#include <string.h>

struct tried {
    uint64_t ok;
    unsigned char *p;
};
struct tried rattle_alloc(size_t n, size_t align);
struct tried rattle_realloc(unsigned char *p, size_t kept, size_t n, size_t align);
void rattle_dealloc(unsigned char *p);
int rattle_errno(void);
void rattle_set_errno(int error);
ptrdiff_t rattle_arg(size_t i, unsigned char *buf, size_t room);

static int failed;

static void holds(int row, const char *what) {
    if (!row) {
        failed = 1;
        printf("shim: not so: %s\n", what);
    }
}

// more than any machine has, and fewer than 2^63
static volatile size_t too_much = (size_t)1 << 62;

static void blocks(void) {
    static const size_t sizes[] = {0, 1, 15, 16, 17, 4096, 1000000};
    for (size_t align = 1; align <= 16; align *= 2)
        for (size_t at = 0; at < sizeof sizes / sizeof *sizes; at++) {
            struct tried one = rattle_alloc(sizes[at], align), other = rattle_alloc(sizes[at], align);
            holds(one.ok == 1 && one.p != NULL, "there is memory, for no bytes too");
            holds((uintptr_t)one.p % align == 0, "a block is aligned");
            holds(one.p != other.p, "two blocks are two");
            memset(one.p, 1, sizes[at]);
            memset(other.p, 2, sizes[at]);
            holds(sizes[at] == 0 || one.p[sizes[at] - 1] == 1, "a block is its owner's");
            rattle_dealloc(one.p);
            rattle_dealloc(other.p);
        }
    struct tried none = rattle_alloc(too_much, 16);
    holds(none.ok == 0 && none.p != NULL, "where there is no memory the pointer is not null");
}

static void resizing(void) {
    struct tried it = rattle_alloc(3, 1);
    memcpy(it.p, "abc", 3);
    struct tried none = rattle_realloc(it.p, 3, too_much, 1);
    holds(none.ok == 0 && none.p != NULL, "a failed resizing says so");
    holds(memcmp(it.p, "abc", 3) == 0, "a failed resizing leaves the block as it was");
    it = rattle_realloc(it.p, 3, 100000, 1);
    holds(it.ok == 1 && memcmp(it.p, "abc", 3) == 0, "what is kept stays in a larger block");
    it = rattle_realloc(it.p, 2, 2, 1);
    holds(it.ok == 1 && memcmp(it.p, "ab", 2) == 0, "and in a smaller one");
    it = rattle_realloc(it.p, 0, 0, 8);
    holds(it.ok == 1 && it.p != NULL && (uintptr_t)it.p % 8 == 0, "a block may be made one of no bytes");
    it = rattle_realloc(it.p, 0, 8, 8);
    holds(it.ok == 1, "and that one larger again");
    rattle_dealloc(it.p);
}

static void words(void) {
    unsigned char buf[5] = "----";
    holds(rattle_arg(1, buf, 3) == 3 && memcmp(buf, "abc-", 4) == 0, "a word may fill its room");
    memset(buf, '-', 4);
    holds(rattle_arg(1, buf, 2) == -2 && memcmp(buf, "ab--", 4) == 0, "a longer one fills its room and no more");
    holds(rattle_arg(1, buf, 0) == -2 && rattle_arg(2, buf, 0) == 0, "no room is room for no bytes");
    holds(rattle_arg(3, buf, 4) == 2 && memcmp(buf, "\377z--", 4) == 0, "a byte of a word is any byte");
    holds(rattle_arg(4, buf, 4) == -1 && rattle_arg(SIZE_MAX, buf, 4) == -1, "there are no words behind the last");
}

int main(void) {
    blocks();
    resizing();
    rattle_set_errno(7);
    holds(rattle_errno() == 7, "errno is what was set");
    words();
    return failed;
}
