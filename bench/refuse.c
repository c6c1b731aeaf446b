/* For bench/allocations, which loads this library before libc (LD_PRELOAD): it refuses allocations of a program.

   Counted are the calls of malloc, calloc and realloc that return into the program's own code: all that it allocates, since the allocator
   of Rattle's library is linked into it and calls no other function of libc for memory (nm -D lists what it calls). What the loader and
   libc allocate for themselves isn't counted. Before `main` no code of the program runs but `_start`, which allocates nothing.

   The call of the number REFUSED, from 1, answers NULL, and where REFUSED_ON is set each behind it, too. How many calls were
   counted, and how many of them refused, stands in the file COUNTED: it is mapped, so it tells that however a run ends. */
#define _GNU_SOURCE
#include <errno.h>
#include <fcntl.h>
#include <link.h>
#include <stdint.h>
#include <stdlib.h>
#include <sys/mman.h>
#include <unistd.h>

/* libc's own. */
extern void *__libc_malloc(size_t size);
extern void *__libc_calloc(size_t count, size_t size);
extern void *__libc_realloc(void *old, size_t size);

struct counts {
    uint64_t counted;
    uint64_t refused;
};

static struct counts *counts;
static uint64_t number;
static int goes_on;
static uintptr_t code_begin, code_end;

/* Finds where the program's code lies. The program is told of first, and no more is asked for. */
static int find_code(struct dl_phdr_info *info, size_t size, void *unused) {
    (void)size;
    (void)unused;
    for (int nth = 0; nth < info->dlpi_phnum; nth++) {
        const ElfW(Phdr) *part = &info->dlpi_phdr[nth];
        if (part->p_type != PT_LOAD || !(part->p_flags & PF_X))
            continue;
        uintptr_t begin = info->dlpi_addr + part->p_vaddr;
        if (code_begin == 0 || begin < code_begin)
            code_begin = begin;
        if (begin + part->p_memsz > code_end)
            code_end = begin + part->p_memsz;
    }
    return 1;
}

__attribute__((constructor)) static void begin(void) {
    const char *which = getenv("REFUSED"), *file = getenv("COUNTED");
    if (which == NULL || file == NULL)
        _exit(125);
    int told = open(file, O_RDWR);
    void *page = mmap(NULL, sizeof(struct counts), PROT_READ | PROT_WRITE, MAP_SHARED, told, 0);
    if (told < 0 || page == MAP_FAILED)
        _exit(125);
    close(told);
    number = strtoull(which, NULL, 10);
    goes_on = getenv("REFUSED_ON") != NULL;
    dl_iterate_phdr(find_code, NULL);
    counts = page;
}

/* Counts a call that returns to this place, and says whether it is refused. */
static int is_refused(void *place) {
    uintptr_t at = (uintptr_t)place;
    if (counts == NULL || at < code_begin || at >= code_end)
        return 0;
    counts->counted++;
    if (number == 0 || counts->counted < number || (counts->counted > number && !goes_on))
        return 0;
    counts->refused++;
    errno = ENOMEM;
    return 1;
}

void *malloc(size_t size) {
    return is_refused(__builtin_return_address(0)) ? NULL : __libc_malloc(size);
}

void *calloc(size_t count, size_t size) {
    return is_refused(__builtin_return_address(0)) ? NULL : __libc_calloc(count, size);
}

void *realloc(void *old, size_t size) {
    return is_refused(__builtin_return_address(0)) ? NULL : __libc_realloc(old, size);
}
