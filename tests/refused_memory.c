/* To be preloaded: refuses the program's request for memory of the number that REFUSED says, counted from 1 on, and at
   the end writes into the file that REQUESTS names how many requests there were. */
#include <errno.h>
#include <stdio.h>
#include <stdlib.h>

extern void *__libc_malloc(size_t size);
extern void *__libc_realloc(void *block, size_t size);

static unsigned long requests, refused;

__attribute__((constructor)) static void begin(void) {
    const char *number = getenv("REFUSED");
    refused = number ? strtoul(number, NULL, 10) : 0;
    requests = 0;
}

static int is_refused(void) {
    requests += 1;
    return requests == refused;
}

void *malloc(size_t size) {
    if (is_refused()) {
        errno = ENOMEM;
        return NULL;
    }
    return __libc_malloc(size);
}

void *realloc(void *block, size_t size) {
    if (is_refused()) {
        errno = ENOMEM;
        return NULL;
    }
    return __libc_realloc(block, size);
}

__attribute__((destructor)) static void end(void) {
    const char *name = getenv("REQUESTS");
    unsigned long count = requests;
    FILE *file;
    refused = 0;
    file = name ? fopen(name, "w") : NULL;
    if (file) {
        fprintf(file, "%lu\n", count);
        fclose(file);
    }
}
