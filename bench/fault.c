/* Preloaded, it makes reads of standard input, writes of standard output and starts of threads fail or fall short, numbered from 1:
   FAULT_READ=N, FAULT_WRITE=N     the read, the write with this number fails with the error FAULT_ERROR (EIO)
   FAULT_NOTHING=N                 the write with this number takes no byte
   FAULT_PIECE=N                   no read and no write moves more than N bytes
   FAULT_THREAD=N, FAULT_THREADS=N the thread with this number is refused, or each from this one on
   FAULT_TELL=1                    at the end it tells standard error how many reads, writes and threads there were */
#include <dlfcn.h>
#include <errno.h>
#include <pthread.h>
#include <stdatomic.h>
#include <stdbool.h>
#include <stdio.h>
#include <stdlib.h>
#include <sys/syscall.h>
#include <unistd.h>

static atomic_long reads, writes, threads;
static long bad_read, bad_write, no_write, piece, bad_thread, bad_threads, error, tells;

static long given(const char *name, long otherwise) {
    const char *value = getenv(name);
    return value ? atol(value) : otherwise;
}

__attribute__((constructor)) static void begin(void) {
    bad_read = given("FAULT_READ", 0), bad_write = given("FAULT_WRITE", 0), no_write = given("FAULT_NOTHING", 0);
    bad_thread = given("FAULT_THREAD", 0), bad_threads = given("FAULT_THREADS", __LONG_MAX__);
    piece = given("FAULT_PIECE", __LONG_MAX__), error = given("FAULT_ERROR", EIO), tells = given("FAULT_TELL", 0);
}

static size_t cut(size_t count) { return count < (size_t)piece ? count : (size_t)piece; }

static ssize_t fails(void) {
    errno = (int)error;
    return -1;
}

ssize_t read(int file, void *room, size_t count) {
    if (file != 0) return syscall(SYS_read, file, room, count);
    if (atomic_fetch_add(&reads, 1) + 1 == bad_read) return fails();
    return syscall(SYS_read, file, room, cut(count));
}

ssize_t write(int file, const void *bytes, size_t count) {
    if (file != 1) return syscall(SYS_write, file, bytes, count);
    long call = atomic_fetch_add(&writes, 1) + 1;
    if (call == bad_write) return fails();
    return call == no_write ? 0 : syscall(SYS_write, file, bytes, cut(count));
}

ssize_t __read(int file, void *room, size_t count) { return read(file, room, count); }

ssize_t __write(int file, const void *bytes, size_t count) { return write(file, bytes, count); }

int pthread_create(pthread_t *made, const pthread_attr_t *asked, void *(*body)(void *), void *with) {
    int (*create)(pthread_t *, const pthread_attr_t *, void *(*)(void *), void *) = dlsym(RTLD_NEXT, "pthread_create");
    long call = atomic_fetch_add(&threads, 1) + 1;
    return call == bad_thread || call >= bad_threads ? EAGAIN : create(made, asked, body, with);
}

/* The program under test ends by this call, so that no destructor runs. */
void _exit(int status) {
    char line[80];
    if (tells) {
        int length = snprintf(line, sizeof line, "%ld %ld %ld\n", atomic_load(&reads), atomic_load(&writes), atomic_load(&threads));
        if (write(2, line, length) != length) status = 1;
    }
    syscall(SYS_exit_group, status);
    __builtin_unreachable();
}
