/* Preloaded, it tells standard error at each free of a block of more than a million bytes how many bytes of smaller blocks are in use. */
#include <malloc.h>
#include <stdio.h>
#include <unistd.h>

extern void __libc_free(void *block);

static void tell(void) {
    char line[40];
    int length = snprintf(line, sizeof line, "in use %zu\n", mallinfo2().uordblks);
    if (write(2, line, length) != length) _exit(1);
}

void free(void *block) {
    size_t size = block ? malloc_usable_size(block) : 0;
    __libc_free(block);
    if (size > 1000000) tell();
}
