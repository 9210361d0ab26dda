/* Refuses one allocation of a program: the one with the number in REFUSE, counted from 1. It is
   loaded before the C library (LD_PRELOAD). A line on standard error says so when the program makes
   that allocation. Nothing of it is proved. */

#include <errno.h>
#include <stddef.h>
#include <stdlib.h>
#include <unistd.h>

extern void *__libc_malloc(size_t);
extern void *__libc_calloc(size_t, size_t);
extern void *__libc_realloc(void *, size_t);
extern void *__libc_memalign(size_t, size_t);

static unsigned long asked;
static unsigned long refused;

__attribute__((constructor)) static void begin(void) {
    const char *number = getenv("REFUSE");
    refused = number ? strtoul(number, NULL, 10) : 0;
    asked = 0;
}

static int is_refused(void) {
    static const char line[] = "refused\n";
    if (!refused || ++asked != refused) return 0;
    if (write(2, line, sizeof line - 1) < 0) _exit(9);
    return 1;
}

static void *none(void) {
    errno = ENOMEM;
    return NULL;
}

void *malloc(size_t size) {
    return is_refused() ? none() : __libc_malloc(size);
}

void *calloc(size_t count, size_t size) {
    return is_refused() ? none() : __libc_calloc(count, size);
}

void *realloc(void *old, size_t size) {
    return is_refused() ? none() : __libc_realloc(old, size);
}

void *memalign(size_t alignment, size_t size) {
    return is_refused() ? none() : __libc_memalign(alignment, size);
}

void *aligned_alloc(size_t alignment, size_t size) {
    return is_refused() ? none() : __libc_memalign(alignment, size);
}

int posix_memalign(void **made, size_t alignment, size_t size) {
    if (is_refused() || !(*made = __libc_memalign(alignment, size))) return ENOMEM;
    return 0;
}
