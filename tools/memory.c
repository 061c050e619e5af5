// Refuses one request for memory of the program that this library is loaded before: the one of the number in REFUSED, from 1.
// Then it writes a byte to the file of the number in REFUSED_TO, if there is one.
#define _GNU_SOURCE
#include <errno.h>
#include <stdatomic.h>
#include <stdlib.h>
#include <unistd.h>

extern void *__libc_malloc(size_t);
extern void *__libc_calloc(size_t, size_t);
extern void *__libc_realloc(void *, size_t);
extern void *__libc_memalign(size_t, size_t);

static atomic_long requests;
static long refused;
static int told = -1;

__attribute__((constructor)) static void begin(void) {
    const char *number = getenv("REFUSED");
    refused = number ? atol(number) : 0;
    const char *file = getenv("REFUSED_TO");
    told = file ? atoi(file) : -1;
}

static int is_refused(void) {
    if (refused <= 0 || atomic_fetch_add(&requests, 1) + 1 != refused) return 0;
    // (where the byte can't be written, the caller takes the request for one that didn't come)
    if (told >= 0 && write(told, "", 1) != 1) told = -1;
    return 1;
}

static void *none(void) {
    errno = ENOMEM;
    return NULL;
}

void *malloc(size_t size) { return is_refused() ? none() : __libc_malloc(size); }
void *calloc(size_t count, size_t size) { return is_refused() ? none() : __libc_calloc(count, size); }
void *realloc(void *from, size_t size) { return is_refused() ? none() : __libc_realloc(from, size); }
void *aligned_alloc(size_t alignment, size_t size) { return is_refused() ? none() : __libc_memalign(alignment, size); }
void *memalign(size_t alignment, size_t size) { return aligned_alloc(alignment, size); }

int posix_memalign(void **to, size_t alignment, size_t size) {
    void *found = aligned_alloc(alignment, size);
    if (!found) return ENOMEM;
    *to = found;
    return 0;
}
