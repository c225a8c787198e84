// Loads a text N times with libyaml's document loader, where that is installed: libyaml FILE N
// Prints the mean seconds of a load.
#include <yaml.h>

#include <stdbool.h>
#include <stdio.h>
#include <stdlib.h>
#include <time.h>

#include "read.h"

static double now(void) {
    struct timespec t;
    clock_gettime(CLOCK_MONOTONIC, &t);
    return (double)t.tv_sec + (double)t.tv_nsec * 1e-9;
}

// The trees of all documents are made and taken apart; false where the text is refused.
static bool load(const unsigned char *text, size_t length) {
    yaml_parser_t parser;
    if (!yaml_parser_initialize(&parser)) {
        return false;
    }
    yaml_parser_set_input_string(&parser, text, length);
    bool loaded = true, ended = false;
    while (loaded && !ended) {
        yaml_document_t document;
        loaded = yaml_parser_load(&parser, &document);
        if (loaded) {
            ended = !yaml_document_get_root_node(&document);
            yaml_document_delete(&document);
        }
    }
    yaml_parser_delete(&parser);
    return loaded;
}

int main(int argc, char **argv) {
    if (argc != 3) {
        fprintf(stderr, "usage: libyaml FILE N\n");
        return 2;
    }
    size_t length;
    unsigned char *text = read_all(argv[1], &length);
    long rounds = strtol(argv[2], NULL, 10);
    double begin = now();
    for (long i = 0; i < rounds; i++) {
        if (!load(text, length)) {
            fprintf(stderr, "refused\n");
            return 1;
        }
    }
    printf("%.9f\n", (now() - begin) / (double)rounds);
    return 0;
}
