/* Refuses one request for memory. Preloaded before a program, it counts its requests from 1, answers
 * none to that whose number the variable REFUSE holds, and says so by a byte to the file descriptor
 * that REFUSE_TOLD holds. All others go to the C library. */

#include <errno.h>
#include <stdlib.h>
#include <unistd.h>

void *__libc_malloc(size_t size);
void *__libc_calloc(size_t count, size_t size);
void *__libc_realloc(void *block, size_t size);
void *__libc_memalign(size_t alignment, size_t size);

static long asked;

/* The number in a variable of the environment, or 0. */
static long number_of(const char *name) {
    const char *text = getenv(name);
    return text ? atol(text) : 0;
}

/* Whether this request is the one that is refused. */
static int is_refused(void) {
    static long refused = -1;
    if (refused < 0)
        refused = number_of("REFUSE");
    if (++asked != refused)
        return 0;
    ssize_t written = write((int)number_of("REFUSE_TOLD"), "r", 1);
    (void)written;
    errno = ENOMEM;
    return 1;
}

void *malloc(size_t size) { return is_refused() ? NULL : __libc_malloc(size); }

void *calloc(size_t count, size_t size) { return is_refused() ? NULL : __libc_calloc(count, size); }

void *realloc(void *block, size_t size) { return is_refused() ? NULL : __libc_realloc(block, size); }

void *memalign(size_t alignment, size_t size) {
    return is_refused() ? NULL : __libc_memalign(alignment, size);
}

void *aligned_alloc(size_t alignment, size_t size) { return memalign(alignment, size); }

int posix_memalign(void **block, size_t alignment, size_t size) {
    *block = memalign(alignment, size);
    return *block ? 0 : ENOMEM;
}
