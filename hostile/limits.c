// Loads a text within the limits for its length: limits FILE load|use. `use` also calls what recurses on its documents. Or loads it
// within so many levels and this size: limits FILE N.
// It prints 1 where that went well, -1 where the text or memory is refused, -2 where the text exceeds the limits.
#include <stdint.h>
#include <stdio.h>
#include <stdlib.h>
#include <string.h>

int64_t yamlbench_load_with_limits(const unsigned char *text, size_t length);
int64_t yamlbench_load_within(const unsigned char *text, size_t length, size_t limit);
int64_t yamlbench_use_within_limits(const unsigned char *text, size_t length);

static int64_t answer_of(const char *deed, const unsigned char *text, size_t length) {
    if (!strcmp(deed, "use"))
        return yamlbench_use_within_limits(text, length);
    if (!strcmp(deed, "load"))
        return yamlbench_load_with_limits(text, length);
    return yamlbench_load_within(text, length, strtoull(deed, NULL, 10));
}

int main(int argc, char **argv) {
    if (argc != 3) {
        fprintf(stderr, "usage: limits FILE load|use|N\n");
        return 2;
    }
    FILE *file = fopen(argv[1], "rb");
    if (!file) {
        perror(argv[1]);
        return 2;
    }
    fseek(file, 0, SEEK_END);
    long length = ftell(file);
    rewind(file);
    unsigned char *text = malloc((size_t)length + 1);
    if (!text || fread(text, 1, (size_t)length, file) != (size_t)length) {
        fprintf(stderr, "cannot read %s\n", argv[1]);
        return 2;
    }
    int64_t answer = answer_of(argv[2], text, (size_t)length);
    printf("%lld\n", (long long)(answer < 0 ? answer : 1));
    return 0;
}
