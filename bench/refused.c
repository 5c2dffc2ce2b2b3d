/*
 * Stands between a program and the allocator of the C library: counts the requests for memory, and refuses one.
 *
 * It is loaded before the C library (LD_PRELOAD) and takes the place of each function there that gives memory. A
 * request is a call of one of them, by the program or by the C library on its behalf, save that `realloc` to no bytes
 * gives back and is no request. Who asks is told by the address to which the call returns: inside the program's own
 * file, or elsewhere. The pages that the C library takes from the system for a request belong to that request. Calls by
 * which a program takes pages itself aren't counted here: `bench/refused` looks that the program has none.
 *
 * REFUSED_AT     the request to be refused, counted from 1; 0 or nothing: none
 * REFUSED_ALL    set: each later request is refused too
 * REFUSED_COUNTS a file of four numbers of eight bytes, which it keeps up to date, so that they hold even if the
 *                program is killed: requests of the program, requests of the C library, refusals, and blocks given
 *                back by `realloc` to no bytes
 */
#define _GNU_SOURCE
#include <errno.h>
#include <fcntl.h>
#include <link.h>
#include <stddef.h>
#include <stdint.h>
#include <stdlib.h>
#include <sys/mman.h>
#include <unistd.h>

extern void *__libc_malloc(size_t);
extern void *__libc_calloc(size_t, size_t);
extern void *__libc_realloc(void *, size_t);
extern void *__libc_memalign(size_t, size_t);

enum { BY_PROGRAM, BY_LIBRARY, REFUSALS, GIVEN_BACK, COUNTS };

static uint64_t own[COUNTS];
static uint64_t *counts = own;
static uint64_t refused_at;
static int refused_all;
static uintptr_t program_begin, program_end;
static int ready;

/* The first object that the loader lists is the program. */
static int take_program(struct dl_phdr_info *object, size_t size, void *none)
{
    (void)size;
    (void)none;
    program_begin = UINTPTR_MAX;
    for (int i = 0; i < object->dlpi_phnum; i++) {
        const ElfW(Phdr) *part = &object->dlpi_phdr[i];
        if (part->p_type != PT_LOAD)
            continue;
        uintptr_t begin = object->dlpi_addr + part->p_vaddr;
        if (begin < program_begin)
            program_begin = begin;
        if (begin + part->p_memsz > program_end)
            program_end = begin + part->p_memsz;
    }
    return 1;
}

static void prepare(void)
{
    if (ready)
        return;
    ready = 1;
    dl_iterate_phdr(take_program, NULL);
    const char *at = getenv("REFUSED_AT");
    refused_at = at ? strtoull(at, NULL, 10) : 0;
    refused_all = getenv("REFUSED_ALL") != NULL;
    const char *path = getenv("REFUSED_COUNTS");
    int file = path ? open(path, O_RDWR) : -1;
    if (file < 0)
        return;
    void *kept = mmap(NULL, sizeof own, PROT_READ | PROT_WRITE, MAP_SHARED, file, 0);
    close(file);
    if (kept == MAP_FAILED)
        return;
    counts = kept;
    for (int i = 0; i < COUNTS; i++)
        counts[i] = own[i];
}

__attribute__((constructor)) static void prepare_early(void)
{
    prepare();
}

static int is_program(const void *caller)
{
    return program_begin <= (uintptr_t)caller && (uintptr_t)caller < program_end;
}

/* Counts a request, and says whether it is refused. */
static int refuses(const void *caller)
{
    prepare();
    counts[is_program(caller) ? BY_PROGRAM : BY_LIBRARY]++;
    uint64_t number = counts[BY_PROGRAM] + counts[BY_LIBRARY];
    if (refused_at == 0 || number < refused_at || (number > refused_at && !refused_all))
        return 0;
    counts[REFUSALS]++;
    errno = ENOMEM;
    return 1;
}

#define REFUSES() refuses(__builtin_return_address(0))

void *malloc(size_t size)
{
    return REFUSES() ? NULL : __libc_malloc(size);
}

void *calloc(size_t count, size_t size)
{
    return REFUSES() ? NULL : __libc_calloc(count, size);
}

void *realloc(void *block, size_t size)
{
    if (block != NULL && size == 0) {
        prepare();
        counts[GIVEN_BACK]++;
        return __libc_realloc(block, size);
    }
    return REFUSES() ? NULL : __libc_realloc(block, size);
}

void *reallocarray(void *block, size_t count, size_t size)
{
    size_t bytes;
    if (REFUSES() || __builtin_mul_overflow(count, size, &bytes)) {
        errno = ENOMEM;
        return NULL;
    }
    return __libc_realloc(block, bytes);
}

void *memalign(size_t alignment, size_t size)
{
    return REFUSES() ? NULL : __libc_memalign(alignment, size);
}

void *aligned_alloc(size_t alignment, size_t size)
{
    return REFUSES() ? NULL : __libc_memalign(alignment, size);
}

int posix_memalign(void **block, size_t alignment, size_t size)
{
    if (alignment % sizeof(void *) != 0 || (alignment & (alignment - 1)) != 0 || alignment == 0)
        return EINVAL;
    void *given = REFUSES() ? NULL : __libc_memalign(alignment, size);
    if (given == NULL)
        return ENOMEM;
    *block = given;
    return 0;
}

void *valloc(size_t size)
{
    return REFUSES() ? NULL : __libc_memalign((size_t)sysconf(_SC_PAGESIZE), size);
}

void *pvalloc(size_t size)
{
    size_t page = (size_t)sysconf(_SC_PAGESIZE);
    return REFUSES() ? NULL : __libc_memalign(page, (size + page - 1) / page * page);
}
