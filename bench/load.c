// Loads a text N times with this library, and prints the mean seconds of a load: load FILE N
#include <stdint.h>
#include <stdio.h>
#include <stdlib.h>
#include <time.h>

int64_t yamlbench_load(const unsigned char *text, size_t length);

static double now(void) {
    struct timespec t;
    clock_gettime(CLOCK_MONOTONIC, &t);
    return (double)t.tv_sec + (double)t.tv_nsec * 1e-9;
}

int main(int argc, char **argv) {
    if (argc != 3) {
        fprintf(stderr, "usage: load FILE N\n");
        return 2;
    }
    FILE *file = fopen(argv[1], "rb");
    if (!file) {
        perror(argv[1]);
        return 1;
    }
    fseek(file, 0, SEEK_END);
    long length = ftell(file);
    rewind(file);
    unsigned char *text = malloc((size_t)length + 1);
    if (!text || fread(text, 1, (size_t)length, file) != (size_t)length) {
        fprintf(stderr, "cannot read %s\n", argv[1]);
        return 1;
    }
    long rounds = strtol(argv[2], NULL, 10);
    double total = 0;
    for (long i = 0; i < rounds; i++) {
        double begin = now();
        int64_t documents = yamlbench_load(text, (size_t)length);
        total += now() - begin;
        if (documents < 0) {
            fprintf(stderr, "refused\n");
            return 1;
        }
    }
    printf("%.9f\n", total / (double)rounds);
    return 0;
}
