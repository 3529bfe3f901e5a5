/* Refuses memory: a library that is loaded before a program (LD_PRELOAD), which counts the calls that ask the C library for memory.
 *
 * REFUSED_FROM and REFUSED_TO are the numbers of the first and the last call that get none, counted from 1; 0 for none. REFUSED_COUNTS
 * is a file of sixteen bytes: how many calls came, and how many of them were refused. What the program starts is left alone.
 */
#define _GNU_SOURCE
#include <errno.h>
#include <fcntl.h>
#include <stdatomic.h>
#include <stdbool.h>
#include <stdint.h>
#include <stdlib.h>
#include <string.h>
#include <sys/mman.h>
#include <unistd.h>

extern void *__libc_malloc(size_t size);
extern void *__libc_calloc(size_t count, size_t size);
extern void *__libc_realloc(void *block, size_t size);
extern void *__libc_memalign(size_t alignment, size_t size);

struct counts {
    _Atomic uint64_t came;
    _Atomic uint64_t refused;
};

static struct counts *counts;
static uint64_t from, to;

static uint64_t number(const char *name) {
    const char *word = getenv(name);
    return word ? strtoull(word, NULL, 10) : 0;
}

__attribute__((constructor)) static void begin(void) {
    const char *path = getenv("REFUSED_COUNTS");
    int file = path ? open(path, O_RDWR | O_CLOEXEC) : -1;
    if (file < 0)
        return;
    from = number("REFUSED_FROM");
    to = number("REFUSED_TO");
    unsetenv("LD_PRELOAD");
    unsetenv("REFUSED_COUNTS");
    unsetenv("REFUSED_FROM");
    unsetenv("REFUSED_TO");
    void *mapped = mmap(NULL, sizeof(struct counts), PROT_READ | PROT_WRITE, MAP_SHARED, file, 0);
    close(file);
    if (mapped == MAP_FAILED)
        abort();
    counts = mapped;
}

static bool is_refused(void) {
    if (!counts)
        return false;
    uint64_t now = atomic_fetch_add(&counts->came, 1) + 1;
    if (from == 0 || now < from || now > to)
        return false;
    atomic_fetch_add(&counts->refused, 1);
    errno = ENOMEM;
    return true;
}

void *malloc(size_t size) {
    return is_refused() ? NULL : __libc_malloc(size);
}

void *calloc(size_t count, size_t size) {
    return is_refused() ? NULL : __libc_calloc(count, size);
}

void *realloc(void *block, size_t size) {
    return is_refused() ? NULL : __libc_realloc(block, size);
}

void *reallocarray(void *block, size_t count, size_t size) {
    size_t bytes;
    if (__builtin_mul_overflow(count, size, &bytes)) {
        errno = ENOMEM;
        return NULL;
    }
    return realloc(block, bytes);
}

void *memalign(size_t alignment, size_t size) {
    return is_refused() ? NULL : __libc_memalign(alignment, size);
}

void *aligned_alloc(size_t alignment, size_t size) {
    return memalign(alignment, size);
}

int posix_memalign(void **block, size_t alignment, size_t size) {
    int before = errno;
    void *made = memalign(alignment, size);
    errno = before;
    if (!made)
        return ENOMEM;
    *block = made;
    return 0;
}
