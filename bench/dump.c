// Loads a text, and dumps its documents N times with this library: dump FILE N [--spread] [--multiline]
// Prints the bytes of a dump.
#include <stdbool.h>
#include <stdint.h>
#include <stdio.h>
#include <stdlib.h>
#include <string.h>

#include "read.h"

int64_t yamlbench_dump(const unsigned char *text, size_t length, bool compact, bool multiline, uint32_t rounds);

int main(int argc, char **argv) {
    if (argc < 3) {
        fprintf(stderr, "usage: dump FILE N [--spread] [--multiline]\n");
        return 2;
    }
    bool compact = true, multiline = false;
    for (int i = 3; i < argc; i++) {
        compact &= strcmp(argv[i], "--spread") != 0;
        multiline |= strcmp(argv[i], "--multiline") == 0;
    }
    size_t length;
    unsigned char *text = read_all(argv[1], &length);
    int64_t bytes = yamlbench_dump(text, length, compact, multiline, (uint32_t)strtoul(argv[2], NULL, 10));
    if (bytes < 0) {
        fprintf(stderr, "refused\n");
        return 1;
    }
    printf("%lld\n", (long long)bytes);
    return 0;
}
