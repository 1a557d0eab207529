/* Stands before malloc and realloc of a program that is started with LD_PRELOAD. Refuses the allocation whose
   number, from 1, is in the variable REFUSED, and makes the file that REFUSED_FILE names when it does. For
   bench/allocations.sh. */
#define _GNU_SOURCE
#include <dlfcn.h>
#include <fcntl.h>
#include <stdatomic.h>
#include <stdlib.h>
#include <unistd.h>

static atomic_long asked;
static long number;
static void *(*next_malloc)(size_t);
static void *(*next_realloc)(void *, size_t);

__attribute__((constructor)) static void begin(void) {
    const char *text = getenv("REFUSED");
    next_malloc = dlsym(RTLD_NEXT, "malloc");
    next_realloc = dlsym(RTLD_NEXT, "realloc");
    number = text ? atol(text) : 0;
    atomic_store(&asked, 0);
}

static int is_refused(void) {
    if (atomic_fetch_add(&asked, 1) + 1 != number) {
        return 0;
    }
    const char *name = getenv("REFUSED_FILE");
    int file = name ? open(name, O_CREAT | O_WRONLY, 0600) : -1;
    if (file >= 0) {
        close(file);
    }
    return 1;
}

void *malloc(size_t size) {
    if (!next_malloc) {
        next_malloc = dlsym(RTLD_NEXT, "malloc");
    }
    return is_refused() ? NULL : next_malloc(size);
}

void *realloc(void *old, size_t size) {
    if (!next_realloc) {
        next_realloc = dlsym(RTLD_NEXT, "realloc");
    }
    return is_refused() ? NULL : next_realloc(old, size);
}
