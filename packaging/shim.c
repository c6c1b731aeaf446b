// The functions that the program calls and no C library has. On x86-64 they are the kit's own; the kit has them for no other processor,
// so these stand in for them on arm64. What each must do is said by the contracts in the kit's rattle/libc/src/heap.rt and
// rattle/os/src/c.rt. Nothing proves this file: it is held to the examples, and to the reasons below.
#include <errno.h>
#include <stddef.h>
#include <stdint.h>
#include <stdlib.h>

// ---- The heap
//
// Alignment: each call's alignment divides 16 (`align_divides_16`, and `Dv a 16` of `Passes`), so it is 1, 2, 4, 8 or 16, and malloc's and
// realloc's blocks, which are aligned for every type of C, will do.
// Sizes: none is 2^63 bytes or more (`size_fits`), so no sum or cast can wrap. A block of no bytes is asked for as one of as many bytes
// as its alignment: malloc(0) may answer NULL, which would be told as memory that ran out, and realloc(p, 0) frees the block,
// where a failure has to leave it as it was.
// Errors: NULL is a failure, and errno isn't read. A failed realloc leaves its block as it was, as the contract says.
_Static_assert(_Alignof(max_align_t) >= 16, "malloc aligns to 16 bytes");
_Static_assert(sizeof(size_t) == 8 && sizeof(ptrdiff_t) == 8, "a usize has 64 bits");
_Static_assert(sizeof(void *) == 8, "a pointer has 64 bits");

// `Tried` of the kit's types.rt, a bool and a pointer, which comes back in two registers. The flag fills all of the first one, so that
// nothing hangs on how many of its bits the caller reads.
struct tried {
    uint64_t ok;
    unsigned char *p;
};
_Static_assert(sizeof(struct tried) == 16, "two registers");

// where p points if there is no memory: it is not null, and owns nothing
static unsigned char nothing;

static struct tried tried(void *p) {
    return (struct tried){p != NULL, p != NULL ? p : &nothing};
}

struct tried rattle_alloc(size_t n, size_t align) {
    return tried(malloc(n != 0 ? n : align));
}

// The first `kept` bytes are for the proof: realloc keeps as many as both blocks have.
struct tried rattle_realloc(unsigned char *p, size_t kept, size_t n, size_t align) {
    (void)kept;
    return tried(realloc(p, n != 0 ? n : align));
}

void rattle_dealloc(unsigned char *p) {
    free(p);
}

// ---- errno, which is a macro in C
int rattle_errno(void) {
    return errno;
}

void rattle_set_errno(int error) {
    errno = error;
}

// ---- The words that the program was started with: glibc hands them to each constructor, in a static program too (musl doesn't).
static int count;
static char **words;

__attribute__((constructor)) static void keep(int argc, char **argv) {
    count = argc;
    words = argv;
}

// Puts word i at the start of buf and answers its length; -1 where there is no such word; -2 where it doesn't fit, and then buf is full.
// A word that fits to the last byte fits: no 0 is put behind it. The kernel passes no word of 2^63 bytes.
ptrdiff_t rattle_arg(size_t i, unsigned char *buf, size_t room) {
    if (i >= (size_t)count || words[i] == NULL) return -1;
    size_t n = 0;
    for (; words[i][n] != 0; n++) {
        if (n == room) return -2;
        buf[n] = (unsigned char)words[i][n];
    }
    return (ptrdiff_t)n;
}
