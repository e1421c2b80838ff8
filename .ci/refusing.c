/* Loaded before a program, it refuses one allocation of a run: that whose number, from 1 on, REFUSED_ALLOCATION says; 0 refuses
   none. How many there were so far stands in the file that COUNTED_ALLOCATIONS names, as eight bytes of the machine. What the C
   library allocates for itself by calloc isn't counted. */
#include <errno.h>
#include <fcntl.h>
#include <stdatomic.h>
#include <stddef.h>
#include <stdlib.h>
#include <sys/mman.h>
#include <unistd.h>

#ifndef REFUSED_ALLOCATION
#define REFUSED_ALLOCATION "REFUSED_ALLOCATION"
#endif

extern void *__libc_malloc(size_t size);
extern void *__libc_realloc(void *block, size_t size);

static atomic_ulong in_no_file;
static atomic_ulong *allocations;
static unsigned long refused;

/* The place in the file; a file that can't be had is told by the exit. */
static atomic_ulong *place_in(const char *path) {
    int file = open(path, O_RDWR | O_CREAT | O_TRUNC, 0600);
    void *place = file < 0 || ftruncate(file, sizeof in_no_file) != 0
        ? MAP_FAILED
        : mmap(NULL, sizeof in_no_file, PROT_READ | PROT_WRITE, MAP_SHARED, file, 0);
    if (place == MAP_FAILED) {
        _exit(99);
    }
    close(file);
    return place;
}

__attribute__((constructor)) static void begin(void) {
    const char *number = getenv(REFUSED_ALLOCATION);
    const char *path = getenv("COUNTED_ALLOCATIONS");
    refused = number ? strtoul(number, NULL, 10) : 0;
    allocations = path ? place_in(path) : &in_no_file;
}

static int is_refused(void) {
    if (allocations != NULL && atomic_fetch_add(allocations, 1) + 1 == refused) {
        errno = ENOMEM;
        return 1;
    }
    return 0;
}

void *malloc(size_t size) {
    return is_refused() ? NULL : __libc_malloc(size);
}

void *realloc(void *block, size_t size) {
    return is_refused() ? NULL : __libc_realloc(block, size);
}
