// Loads each text of standard input, which stands after its length in four bytes, and prints how many load, and the most time a byte.
#include <stdint.h>
#include <stdio.h>
#include <stdlib.h>
#include <time.h>

int64_t yamlbench_load(const unsigned char *text, size_t length);

enum { LONG = 5000 };

static double now(void) {
    struct timespec t;
    clock_gettime(CLOCK_PROCESS_CPUTIME_ID, &t);
    return (double)t.tv_sec + (double)t.tv_nsec * 1e-9;
}

int main(void) {
    uint32_t length;
    long loaded = 0, refused = 0, bytes = 0;
    double most = 0;
    while (fread(&length, 4, 1, stdin) == 1) {
        unsigned char *text = malloc((size_t)length + 1);
        if (!text || fread(text, 1, length, stdin) != length) return 2;
        double begin = now();
        int64_t documents = yamlbench_load(text, length);
        double a_byte = (now() - begin) / (length ? length : 1);
        if (length >= LONG && a_byte > most) most = a_byte;
        ++*(documents < 0 ? &refused : &loaded);
        bytes += length;
        free(text);
    }
    printf("%ld texts load, %ld are refused, %ld bytes; at most %.2f us a byte of texts of %d bytes and more\n", loaded, refused, bytes, most * 1e6, LONG);
    return 0;
}
