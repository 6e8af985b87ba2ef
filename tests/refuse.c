/* Loaded before a program, this refuses one of its requests for memory: that of the number in the
   variable REFUSED, counted from 1, and none where it is 0. At the end the number of requests, the
   octets that the largest asked for, and how many asked for 1024 octets or more, go to the file that
   the variable REQUESTS names. */

#include <errno.h>
#include <fcntl.h>
#include <stddef.h>
#include <stdio.h>
#include <stdlib.h>
#include <unistd.h>

/* What these names mean in the C library itself. */
extern void *__libc_malloc(size_t size);
extern void *__libc_calloc(size_t count, size_t size);
extern void *__libc_realloc(void *old, size_t size);
extern void *__libc_memalign(size_t alignment, size_t size);

static unsigned long refused, requests;

static size_t largest, large;

__attribute__((constructor)) static void begin(void) {
    const char *number = getenv("REFUSED");
    refused = number ? strtoul(number, NULL, 10) : 0;
    requests = 0;
    largest = 0;
}

__attribute__((destructor)) static void end(void) {
    char text[96];
    int length = snprintf(text, sizeof text, "%lu %zu %zu\n", requests, largest, large);
    const char *name = getenv("REQUESTS");
    int file = name ? open(name, O_WRONLY | O_CREAT | O_TRUNC, 0600) : -1;
    if (file < 0 || write(file, text, (size_t)length) != length)
        _exit(99);
    close(file);
}

static int refuses(size_t size) {
    if (size > largest)
        largest = size;
    large += size >= 1024;
    if (++requests != refused)
        return 0;
    errno = ENOMEM;
    return 1;
}

void *malloc(size_t size) {
    return refuses(size) ? NULL : __libc_malloc(size);
}

void *calloc(size_t count, size_t size) {
    return refuses(count * size) ? NULL : __libc_calloc(count, size);
}

void *realloc(void *old, size_t size) {
    return refuses(size) ? NULL : __libc_realloc(old, size);
}

void *aligned_alloc(size_t alignment, size_t size) {
    return refuses(size) ? NULL : __libc_memalign(alignment, size);
}

int posix_memalign(void **given, size_t alignment, size_t size) {
    if (refuses(size))
        return ENOMEM;
    *given = __libc_memalign(alignment, size);
    return *given ? 0 : ENOMEM;
}
