// Does something N times with a text and this library, and prints what it gave last: beside load|in_turn|marked|dump|json FILE N
#include <stdbool.h>
#include <stdint.h>
#include <stdio.h>
#include <stdlib.h>
#include <string.h>

#include "read.h"

int64_t yamlbench_load(const unsigned char *text, size_t length);
int64_t yamlbench_load_in_turn(const unsigned char *text, size_t length);
int64_t yamlbench_load_marked(const unsigned char *text, size_t length);
int64_t yamlbench_dump(const unsigned char *text, size_t length, bool compact, bool multiline, uint32_t rounds);
int64_t yamlbench_write_json(const unsigned char *text, size_t length, uint32_t rounds);

static int64_t loaded(const char *deed, const unsigned char *text, size_t length) {
    if (strcmp(deed, "in_turn") == 0)
        return yamlbench_load_in_turn(text, length);
    if (strcmp(deed, "marked") == 0)
        return yamlbench_load_marked(text, length);
    return yamlbench_load(text, length);
}

int main(int argc, char **argv) {
    if (argc != 4) {
        fprintf(stderr, "usage: beside load|in_turn|marked|dump|json FILE N\n");
        return 2;
    }
    size_t length;
    unsigned char *text = read_all(argv[2], &length);
    uint32_t rounds = (uint32_t)strtoul(argv[3], NULL, 10);
    int64_t result = -1;
    if (strcmp(argv[1], "dump") == 0)
        result = yamlbench_dump(text, length, true, false, rounds);
    else if (strcmp(argv[1], "json") == 0)
        result = yamlbench_write_json(text, length, rounds);
    else
        for (uint32_t i = 0; i < rounds; i++)
            result = loaded(argv[1], text, length);
    printf("%lld\n", (long long)result);
    return 0;
}
