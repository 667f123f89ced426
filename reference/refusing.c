/* An allocator for LD_PRELOAD that refuses one call: the one whose number stands in REFUSED, counted
   from 1. It then makes the file whose path stands in TOLD. Counted are growths; or, where KIND is
   `return`, the calls that give memory back in place, which are no growths. */
#define _GNU_SOURCE
#include <errno.h>
#include <fcntl.h>
#include <malloc.h>
#include <stdatomic.h>
#include <stdlib.h>
#include <string.h>
#include <unistd.h>

static atomic_ulong calls;

static int is_counted(int grows) {
    static atomic_int counts_returns = -1;
    if (counts_returns < 0) {
        const char *kind = getenv("KIND");
        counts_returns = kind != NULL && strcmp(kind, "return") == 0;
    }
    return counts_returns != grows;
}

static int is_refused(int grows) {
    if (!is_counted(grows)) {
        return 0;
    }
    static atomic_ulong refused;
    if (refused == 0) {
        const char *number = getenv("REFUSED");
        refused = number ? strtoul(number, NULL, 10) : -1UL;
    }
    if (atomic_fetch_add(&calls, 1) + 1 != refused) {
        return 0;
    }
    const char *path = getenv("TOLD");
    if (path != NULL) {
        close(open(path, O_CREAT | O_WRONLY, 0600));
    }
    errno = ENOMEM;
    return 1;
}

extern void *__libc_malloc(size_t), *__libc_realloc(void *, size_t), *__libc_calloc(size_t, size_t);
extern void *__libc_memalign(size_t, size_t);

void *malloc(size_t size) { return is_refused(1) ? NULL : __libc_malloc(size); }

void *realloc(void *old, size_t size) {
    int grows = old == NULL || size > malloc_usable_size(old);
    return is_refused(grows) ? NULL : __libc_realloc(old, size);
}

void *calloc(size_t count, size_t size) { return is_refused(1) ? NULL : __libc_calloc(count, size); }
void *aligned_alloc(size_t alignment, size_t size) { return is_refused(1) ? NULL : __libc_memalign(alignment, size); }

int posix_memalign(void **result, size_t alignment, size_t size) {
    void *found = is_refused(1) ? NULL : __libc_memalign(alignment, size);
    if (found == NULL) {
        return ENOMEM;
    }
    *result = found;
    return 0;
}
