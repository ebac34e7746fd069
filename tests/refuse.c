/* Refuses one allocation of a process: the one whose number is in REFUSED. Writes to the file named in COUNTED how many
 * there were. Loaded before the C library by tests/memory. */
#define _GNU_SOURCE
#include <errno.h>
#include <fcntl.h>
#include <stdatomic.h>
#include <stdio.h>
#include <stdlib.h>
#include <sys/syscall.h>
#include <unistd.h>

static atomic_long count;
static long refused;

__attribute__((constructor)) static void begin(void) {
    const char *word = getenv("REFUSED");
    refused = word ? atol(word) : 0;
    count = 0;
}

static void tell(void) {
    const char *name = getenv("COUNTED");
    int file = name ? open(name, O_WRONLY | O_CREAT | O_TRUNC, 0600) : -1;
    if (file >= 0) {
        dprintf(file, "%ld\n", count);
        close(file);
    }
}

/* The program ends by _exit, which runs no destructor. */
void _exit(int status) {
    tell();
    for (;;) syscall(SYS_exit_group, status);
}

static int is_refused(void) {
    if (++count != refused) return 0;
    errno = ENOMEM;
    return 1;
}

extern void *__libc_malloc(size_t);
extern void *__libc_calloc(size_t, size_t);
extern void *__libc_realloc(void *, size_t);
extern void *__libc_memalign(size_t, size_t);

void *malloc(size_t size) { return is_refused() ? NULL : __libc_malloc(size); }

void *calloc(size_t items, size_t size) { return is_refused() ? NULL : __libc_calloc(items, size); }

void *realloc(void *old, size_t size) { return is_refused() ? NULL : __libc_realloc(old, size); }

void *aligned_alloc(size_t align, size_t size) { return is_refused() ? NULL : __libc_memalign(align, size); }

int posix_memalign(void **at, size_t align, size_t size) {
    void *found = is_refused() ? NULL : __libc_memalign(align, size);
    if (found == NULL) return ENOMEM;
    *at = found;
    return 0;
}
