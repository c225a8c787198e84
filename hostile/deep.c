// Does one deed with a text, and ends with status 1 where the text is refused: deep FILE load|hash|dump|json|debug|look|overlay|merge
// Of json the text is no YAML: it says of which levels the tree is (`yamlbench_json_of_levels`).
#include <stdint.h>
#include <stdio.h>
#include <stdlib.h>
#include <string.h>

int64_t yamlbench_load(const unsigned char *text, size_t length);
int64_t yamlbench_hash(const unsigned char *text, size_t length);
int64_t yamlbench_dump_length(const unsigned char *text, size_t length);
int64_t yamlbench_json_of_levels(const unsigned char *text, size_t length);
int64_t yamlbench_debug_length(const unsigned char *text, size_t length);
int64_t yamlbench_laid_out(const unsigned char *text, size_t length);
int64_t yamlbench_overlay_itself(const unsigned char *text, size_t length);
int64_t yamlbench_merge(const unsigned char *text, size_t length);

static const struct {
    const char *name;
    int64_t (*done)(const unsigned char *text, size_t length);
} DEEDS[] = {
    {"load", yamlbench_load},           {"hash", yamlbench_hash},
    {"dump", yamlbench_dump_length},    {"json", yamlbench_json_of_levels},
    {"debug", yamlbench_debug_length},  {"look", yamlbench_laid_out},
    {"overlay", yamlbench_overlay_itself}, {"merge", yamlbench_merge},
};

int main(int argc, char **argv) {
    if (argc != 3) {
        fprintf(stderr, "usage: deep FILE load|hash|dump|json|debug|look|overlay|merge\n");
        return 2;
    }
    FILE *file = fopen(argv[1], "rb");
    if (!file) {
        perror(argv[1]);
        return 2;
    }
    fseek(file, 0, SEEK_END);
    long length = ftell(file);
    rewind(file);
    unsigned char *text = malloc((size_t)length + 1);
    if (!text || fread(text, 1, (size_t)length, file) != (size_t)length) {
        fprintf(stderr, "cannot read %s\n", argv[1]);
        return 2;
    }
    for (size_t i = 0; i < sizeof DEEDS / sizeof *DEEDS; i++) {
        if (!strcmp(argv[2], DEEDS[i].name)) {
            return DEEDS[i].done(text, (size_t)length) < 0;
        }
    }
    fprintf(stderr, "no such deed: %s\n", argv[2]);
    return 2;
}
