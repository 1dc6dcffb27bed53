/* Refuses the allocation whose number is in the variable REFUSE, counted from the first. At the end writes the number of allocations to
 * the file COUNT. */
#define _GNU_SOURCE
#include <stdio.h>
#include <stdlib.h>

static long made, refused = -1;

static int is_refused(void) {
    if (refused < 0) {
        const char *number = getenv("REFUSE");
        refused = number ? atol(number) : 0;
    }
    return ++made == refused;
}

extern void *__libc_malloc(size_t);
extern void *__libc_calloc(size_t, size_t);
extern void *__libc_realloc(void *, size_t);

void *malloc(size_t size) { return is_refused() ? NULL : __libc_malloc(size); }
void *calloc(size_t count, size_t size) { return is_refused() ? NULL : __libc_calloc(count, size); }
void *realloc(void *at, size_t size) { return is_refused() ? NULL : __libc_realloc(at, size); }

__attribute__((destructor)) static void write_count(void) {
    const char *name = getenv("COUNT");
    long count = made;
    FILE *file = name ? fopen(name, "w") : NULL;
    if (file) {
        fprintf(file, "%ld\n", count);
        fclose(file);
    }
}
