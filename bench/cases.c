// Does one thing N times with this library, for its instructions to be counted: cases load|iter|json|dump FILE N, cases decode FILE 0|1 N,
// cases fill COUNT STEP DEED N
#include <stdbool.h>
#include <stdint.h>
#include <stdio.h>
#include <stdlib.h>
#include <string.h>

#include "read.h"

int64_t yamlbench_load(const unsigned char *text, size_t length);
int64_t yamlbench_load_from_iter(const unsigned char *text, size_t length);
int64_t yamlbench_write_json(const unsigned char *text, size_t length, uint32_t rounds);
int64_t yamlbench_dump(const unsigned char *text, size_t length, bool compact, bool multiline, uint32_t rounds);
int64_t yamlbench_decode(const unsigned char *bytes, size_t length, bool replace, uint32_t rounds);
int64_t yamlbench_fill(uint32_t count, uint32_t step, uint32_t deed, uint32_t rounds);

static uint32_t number(const char *word) { return (uint32_t)strtoul(word, NULL, 10); }

int main(int argc, char **argv) {
    if (argc == 6 && !strcmp(argv[1], "fill")) {
        return yamlbench_fill(number(argv[2]), number(argv[3]), number(argv[4]), number(argv[5])) < 0;
    }
    if (argc < 4) {
        fprintf(stderr, "usage: cases load|iter|json|dump FILE N, decode FILE 0|1 N, fill COUNT STEP DEED N\n");
        return 2;
    }
    size_t length;
    unsigned char *text = read_all(argv[2], &length);
    if (argc == 5 && !strcmp(argv[1], "decode")) {
        return yamlbench_decode(text, length, number(argv[3]) == 1, number(argv[4])) < 0;
    }
    uint32_t rounds = number(argv[3]);
    if (!strcmp(argv[1], "json")) {
        return yamlbench_write_json(text, length, rounds) < 0;
    }
    if (!strcmp(argv[1], "dump")) {
        return yamlbench_dump(text, length, true, false, rounds) < 0;
    }
    // A text that is refused is read up to its fault.
    int64_t (*load)(const unsigned char *, size_t) = strcmp(argv[1], "iter") ? yamlbench_load : yamlbench_load_from_iter;
    for (uint32_t i = 0; i < rounds; i++) {
        load(text, length);
    }
    return 0;
}
