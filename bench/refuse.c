/* Preloaded, it refuses allocations: the one with the number REFUSE, from 1, or with REFUSE_ON also each later one. Those before
   `main` are not counted. Where neither REFUSE nor REFUSE_ON is given it tells standard error how many there were. */
#include <errno.h>
#include <stdatomic.h>
#include <stdbool.h>
#include <stdio.h>
#include <stdlib.h>
#include <sys/syscall.h>
#include <unistd.h>

extern void *__libc_malloc(size_t size);
extern void *__libc_calloc(size_t count, size_t size);
extern void *__libc_realloc(void *block, size_t size);
extern void *__libc_memalign(size_t alignment, size_t size);

static atomic_bool counts;
static atomic_long calls;
static long first, last;

static bool refuses(void) {
    if (!atomic_load(&counts)) return false;
    long call = atomic_fetch_add(&calls, 1) + 1;
    if (call < first || last < call) return false;
    errno = ENOMEM;
    return true;
}

void *malloc(size_t size) { return refuses() ? NULL : __libc_malloc(size); }

void *calloc(size_t count, size_t size) { return refuses() ? NULL : __libc_calloc(count, size); }

void *realloc(void *block, size_t size) { return refuses() ? NULL : __libc_realloc(block, size); }

void *memalign(size_t alignment, size_t size) { return refuses() ? NULL : __libc_memalign(alignment, size); }

void *aligned_alloc(size_t alignment, size_t size) { return memalign(alignment, size); }

int posix_memalign(void **block, size_t alignment, size_t size) {
    void *made = memalign(alignment, size);
    if (made == NULL) return ENOMEM;
    *block = made;
    return 0;
}

__attribute__((constructor)) static void begin(void) {
    const char *one = getenv("REFUSE"), *on = getenv("REFUSE_ON");
    first = last = 0;
    if (one) first = last = atol(one);
    if (on) first = atol(on), last = __LONG_MAX__;
    if (!one && !on) first = __LONG_MAX__;
    atomic_store(&counts, true);
}

/* The program under test ends by this call, so that no destructor runs. */
void _exit(int status) {
    char line[40];
    if (first == __LONG_MAX__) {
        int length = snprintf(line, sizeof line, "allocations %ld\n", atomic_load(&calls));
        if (write(2, line, length) != length) status = 1;
    }
    syscall(SYS_exit_group, status);
    __builtin_unreachable();
}
