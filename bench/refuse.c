/*
 * Refuses one of the pieces of memory that a program asks the C library for, and counts them. bench/allocations.py loads it before the
 * C library.
 *
 * REFUSED is the number, from 1, of the one that is refused; at 0 none is. COUNTED is a file, to which the number of all that were asked
 * for is written when the program ends. Programs that it starts get neither, nor this library.
 */
#include <errno.h>
#include <stdio.h>
#include <stdlib.h>

void *__libc_malloc(size_t size);
void *__libc_calloc(size_t count, size_t size);
void *__libc_realloc(void *old, size_t size);

static unsigned long asked, refused;
static const char *counted;

static int is_refused(void) {
    asked++;
    if (asked != refused)
        return 0;
    errno = ENOMEM;
    return 1;
}

void *malloc(size_t size) {
    return is_refused() ? NULL : __libc_malloc(size);
}

void *calloc(size_t count, size_t size) {
    return is_refused() ? NULL : __libc_calloc(count, size);
}

void *realloc(void *old, size_t size) {
    return is_refused() ? NULL : __libc_realloc(old, size);
}

__attribute__((constructor)) static void begin(void) {
    const char *number = getenv("REFUSED");
    unsigned long wanted = number == NULL ? 0 : strtoul(number, NULL, 10);
    counted = getenv("COUNTED");
    unsetenv("LD_PRELOAD");
    unsetenv("REFUSED");
    unsetenv("COUNTED");
    asked = 0;
    refused = wanted;
}

__attribute__((destructor)) static void end(void) {
    unsigned long all = asked;
    FILE *file;
    refused = 0;
    file = counted == NULL ? NULL : fopen(counted, "w");
    if (file != NULL) {
        fprintf(file, "%lu", all);
        fclose(file);
    }
}
