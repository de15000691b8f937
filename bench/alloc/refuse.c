/* Refuses one allocation of a program: loaded in front of the C library, it counts the calls of malloc, calloc and realloc, and answers the
   one whose number REFUSE_AT gives, counted from 1, with none. It then makes the file that REFUSE_SAID names. */
#define _GNU_SOURCE
#include <dlfcn.h>
#include <errno.h>
#include <fcntl.h>
#include <stdatomic.h>
#include <stddef.h>
#include <stdlib.h>
#include <unistd.h>

static void *(*real_malloc)(size_t);
static void *(*real_calloc)(size_t, size_t);
static void *(*real_realloc)(void *, size_t);
static long refuse_at;
static atomic_long calls;

__attribute__((constructor)) static void begin(void) {
    real_malloc = dlsym(RTLD_NEXT, "malloc");
    real_calloc = dlsym(RTLD_NEXT, "calloc");
    real_realloc = dlsym(RTLD_NEXT, "realloc");
    const char *said = getenv("REFUSE_AT");
    refuse_at = said ? atol(said) : 0;
}

/* Whether this call is the one that is refused. */
static int refused(void) {
    if (refuse_at == 0 || atomic_fetch_add(&calls, 1) + 1 != refuse_at) return 0;
    const char *mark = getenv("REFUSE_SAID");
    if (mark) close(open(mark, O_CREAT | O_WRONLY, 0600));
    errno = ENOMEM;
    return 1;
}

void *malloc(size_t size) {
    if (!real_malloc) begin();
    return refused() ? NULL : real_malloc(size);
}

void *calloc(size_t count, size_t size) {
    static char early[4096]; /* what dlsym itself asks for, before the real one is known */
    static size_t used;
    if (!real_calloc) {
        size_t bytes = (count * size + 15) / 16 * 16;
        if (bytes > sizeof early - used) return NULL;
        used += bytes;
        return early + used - bytes;
    }
    return refused() ? NULL : real_calloc(count, size);
}

void *realloc(void *block, size_t size) {
    if (!real_realloc) begin();
    return refused() ? NULL : real_realloc(block, size);
}
