// Refuses one request for memory of a program that it is loaded before (LD_PRELOAD): the one whose number, from 1 on, stands in
// REFUSE_AT. Into the file that REFUSE_TOLD names it writes two 64-bit numbers: how many requests there were, and 1 where the
// refused one was made by a thread other than the first. glibc alone.
#define _GNU_SOURCE
#include <errno.h>
#include <fcntl.h>
#include <stdatomic.h>
#include <stddef.h>
#include <stdlib.h>
#include <sys/mman.h>
#include <sys/syscall.h>
#include <unistd.h>

extern void *__libc_malloc(size_t);
extern void *__libc_realloc(void *, size_t);
extern void *__libc_calloc(size_t, size_t);
extern void *__libc_memalign(size_t, size_t);

static atomic_long own[2];
static atomic_long *told = own;
static long at = -1;
static int counts;

__attribute__((constructor)) static void begin(void) {
    const char *number = getenv("REFUSE_AT");
    const char *name = getenv("REFUSE_TOLD");
    if (number != NULL) {
        at = atol(number);
    }
    if (name != NULL) {
        int file = open(name, O_RDWR | O_CREAT, 0644);
        if (file >= 0 && ftruncate(file, sizeof own) == 0) {
            void *there = mmap(NULL, sizeof own, PROT_READ | PROT_WRITE, MAP_SHARED, file, 0);
            if (there != MAP_FAILED) {
                told = there;
            }
            close(file);
        }
    }
    counts = 1;
}

static int refuses(void) {
    if (!counts || atomic_fetch_add(&told[0], 1) + 1 != at) {
        return 0;
    }
    told[1] = getpid() != syscall(SYS_gettid);
    errno = ENOMEM;
    return 1;
}

void *malloc(size_t size) {
    return refuses() ? NULL : __libc_malloc(size);
}

void *realloc(void *old, size_t size) {
    return refuses() ? NULL : __libc_realloc(old, size);
}

void *calloc(size_t count, size_t size) {
    return refuses() ? NULL : __libc_calloc(count, size);
}

int posix_memalign(void **made, size_t align, size_t size) {
    *made = refuses() ? NULL : __libc_memalign(align, size);
    return *made == NULL ? ENOMEM : 0;
}

void *aligned_alloc(size_t align, size_t size) {
    return refuses() ? NULL : __libc_memalign(align, size);
}
