// Refuses requests for memory of a program that it is loaded into, and counts them: REFUSE_AT is the first that is refused (0: none),
// REFUSE_ALL whether all after it are refused too, REFUSE_COUNT the file that the count goes into.
#define _GNU_SOURCE
#include <dlfcn.h>
#include <stdio.h>
#include <stdlib.h>

static long asked, refused_at;
static int is_for_good;

__attribute__((constructor)) static void begin(void) {
    const char *at = getenv("REFUSE_AT");
    refused_at = at ? atol(at) : 0;
    is_for_good = getenv("REFUSE_ALL") != NULL;
    asked = 0;
}

__attribute__((destructor)) static void end(void) {
    const char *path = getenv("REFUSE_COUNT");
    long count = asked;
    refused_at = 0;
    FILE *file = path ? fopen(path, "w") : NULL;
    if (file) {
        fprintf(file, "%ld\n", count);
        fclose(file);
    }
}

static int is_refused(void) {
    asked++;
    return refused_at && (asked == refused_at || (is_for_good && asked > refused_at));
}

void *malloc(size_t size) {
    static void *(*real)(size_t);
    if (!real) real = (void *(*)(size_t))dlsym(RTLD_NEXT, "malloc");
    return is_refused() ? NULL : real(size);
}

void *realloc(void *old, size_t size) {
    static void *(*real)(void *, size_t);
    if (!real) real = (void *(*)(void *, size_t))dlsym(RTLD_NEXT, "realloc");
    return is_refused() ? NULL : real(old, size);
}
