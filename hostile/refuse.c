/* Refuses one request for memory of a program: the one whose number REFUSE names, counted from 1.
   How many requests there were stands in the file that COUNT names, where it is set, however the
   program ends: eight bytes, low byte first. */
#include <errno.h>
#include <fcntl.h>
#include <stdatomic.h>
#include <stddef.h>
#include <stdlib.h>
#include <sys/mman.h>
#include <unistd.h>

extern void *__libc_malloc(size_t);
extern void *__libc_realloc(void *, size_t);

static atomic_ulong uncounted;
static atomic_ulong *requests = &uncounted;
static unsigned long refused;

__attribute__((constructor)) static void begin(void) {
    const char *number = getenv("REFUSE"), *name = getenv("COUNT");
    refused = number ? strtoul(number, NULL, 10) : 0;
    if (name) {
        int file = open(name, O_RDWR | O_CREAT | O_TRUNC, 0644);
        void *shared = MAP_FAILED;
        if (file >= 0 && ftruncate(file, sizeof *requests) == 0) {
            shared = mmap(NULL, sizeof *requests, PROT_READ | PROT_WRITE, MAP_SHARED, file, 0);
        }
        if (shared == MAP_FAILED) {
            _exit(3);
        }
        requests = shared;
        close(file);
    }
    atomic_store(requests, 0);
}

static int is_refused(void) {
    return atomic_fetch_add(requests, 1) + 1 == refused;
}

void *malloc(size_t size) {
    if (is_refused()) {
        errno = ENOMEM;
        return NULL;
    }
    return __libc_malloc(size);
}

void *realloc(void *old, size_t size) {
    if (is_refused()) {
        errno = ENOMEM;
        return NULL;
    }
    return __libc_realloc(old, size);
}
