// Refuses each request for memory in turn: refuse [--every N] FILE.. -- OTHER.., each FILE a text that loads; or
// refuse --places FILE..
//
// For each file it loads it with the first request refused, then with the second, and so on, up to a run that asks less often; and
// again with all requests from that one on refused. So it does with a load within limits; with the text laid over the file before it; and
// with every other call that takes memory: loads by an iterator, a parser and from bytes, the typing of the text, a fault of it, copies of
// tokens, events, the fault and trees, dumps, and trees put into a hash. Each OTHER is a text that loads where declared handles are kept, or
// has a fault, and is loaded so. It prints a line for each run that answers all the same, answers wrongly or leaves memory behind; then its
// status is 1.
//
// With --every N it refuses each request of the loads, but of overlays and all other calls only each Nth, from another one on in each
// text.
//
// With --places it prints for each FILE three lines: where the fault of each refused request stands, as EVENTS:INDEX, and how many
// requests in turn have it there. The first line is of the events of its characters, which come one by one, the second of those of the text
// in memory, the third of a load, without events.
#include <stdint.h>
#include <stdio.h>
#include <stdlib.h>
#include <string.h>

int64_t yamlbench_load(const unsigned char *text, size_t length);
int64_t yamlbench_load_with_limits(const unsigned char *text, size_t length);
int64_t yamlbench_overlay(const unsigned char *below, size_t below_length, const unsigned char *above, size_t above_length);
int64_t yamlbench_calls(const unsigned char *text, size_t length);
int64_t yamlbench_load_with_kept_handles(const unsigned char *text, size_t length);
int64_t yamlbench_fault_of_characters(const unsigned char *text, size_t length);
int64_t yamlbench_fault(const unsigned char *text, size_t length);
int64_t yamlbench_fault_of_load(const unsigned char *text, size_t length);

void *__real_malloc(size_t size);
void *__real_realloc(void *old, size_t size);
void __real_free(void *old);

static long asked, refused_at, is_for_good, held;

static int is_refused(void) {
    asked++;
    return refused_at && (asked == refused_at || (is_for_good && asked > refused_at));
}

void *__wrap_malloc(size_t size) {
    if (is_refused()) return NULL;
    void *got = __real_malloc(size);
    if (got) held++;
    return got;
}

void *__wrap_realloc(void *old, size_t size) {
    if (is_refused()) return NULL;
    void *got = __real_realloc(old, size);
    if (got && !old) held++;
    return got;
}

void __wrap_free(void *old) {
    if (old) held--;
    __real_free(old);
}

static unsigned char *read_file(const char *path, size_t *length) {
    FILE *file = fopen(path, "rb");
    if (!file) {
        perror(path);
        exit(2);
    }
    fseek(file, 0, SEEK_END);
    *length = (size_t)ftell(file);
    rewind(file);
    unsigned char *text = __real_malloc(*length + 1);
    if (!text || fread(text, 1, *length, file) != *length) {
        fprintf(stderr, "cannot read %s\n", path);
        exit(2);
    }
    fclose(file);
    return text;
}

struct text {
    const char *path;
    unsigned char *bytes;
    size_t length;
};

// What is done with a text, and the one before it: below 0 where memory is refused, below -1 where an answer is wrong.
typedef int64_t deed(const struct text *below, const struct text *text);

static int64_t load(const struct text *below, const struct text *text) {
    (void)below;
    return yamlbench_load(text->bytes, text->length);
}

static int64_t load_within_limits(const struct text *below, const struct text *text) {
    (void)below;
    return yamlbench_load_with_limits(text->bytes, text->length);
}

static int64_t overlay(const struct text *below, const struct text *text) {
    return yamlbench_overlay(below->bytes, below->length, text->bytes, text->length);
}

static int64_t call(const struct text *below, const struct text *text) {
    (void)below;
    return yamlbench_calls(text->bytes, text->length);
}

static int64_t load_with_kept_handles(const struct text *below, const struct text *text) {
    (void)below;
    return yamlbench_load_with_kept_handles(text->bytes, text->length);
}

static int bad;

static void tell(const char *path, const char *what) {
    printf("%s, request %ld%s: %s\n", path, refused_at, is_for_good ? " and all after it" : "", what);
    bad = 1;
}

// How many requests were refused, from this one on by such steps. Each of them must be answered by a refusal, and nothing may be left behind.
static long run(deed *deed, const struct text *below, const struct text *text, long first, long step) {
    long refused = 0;
    for (refused_at = first;; refused_at += step, refused++) {
        asked = held = 0;
        int64_t answer = deed(below, text);
        if (held != 0) tell(text->path, "memory is left behind");
        if (asked < refused_at) {
            if (answer < 0) tell(text->path, "it doesn't load");
            return refused;
        }
        if (answer >= 0) tell(text->path, "it answers all the same");
        if (answer < -1) tell(text->path, "it answers wrongly");
    }
}

static long run_both_ways(deed *deed, const struct text *below, const struct text *text, long first, long step) {
    long all = 0;
    for (is_for_good = 0; is_for_good < 2; is_for_good++) all += run(deed, below, text, first, step);
    return all;
}

// Prints where the faults of a text stand.
static void print_places(int64_t (*fault)(const unsigned char *, size_t), const unsigned char *text, size_t length) {
    int64_t last = -1;
    long times = 0;
    for (refused_at = 1;; refused_at++) {
        asked = 0;
        int64_t place = fault(text, length);
        if (place != last && times) printf(times > 1 ? " %ld:%ldx%ld" : " %ld:%ld", (long)(last >> 32), (long)(last & 0xffffffff), times);
        if (asked < refused_at) break;
        times = place == last ? times + 1 : 1;
        last = place;
    }
    printf("\n");
}

static int print_all_places(int count, char **paths) {
    for (int i = 0; i < count; i++) {
        size_t length;
        unsigned char *text = read_file(paths[i], &length);
        print_places(yamlbench_fault_of_characters, text, length);
        print_places(yamlbench_fault, text, length);
        print_places(yamlbench_fault_of_load, text, length);
        __real_free(text);
    }
    return 0;
}

int main(int argc, char **argv) {
    if (argc > 1 && strcmp(argv[1], "--places") == 0) return print_all_places(argc - 2, argv + 2);
    struct text texts[2];
    long loads = 0, limited = 0, overlays = 0, calls = 0, others = 0, step = 1;
    int i = 1;
    if (argc > 2 && strcmp(argv[1], "--every") == 0) {
        step = atol(argv[2]);
        i = 3;
    }
    if (step < 1) {
        fprintf(stderr, "refuse: --every wants a number above 0\n");
        return 2;
    }
    for (int begin = i; i < argc && strcmp(argv[i], "--") != 0; i++) {
        long first = 1 + i % step;
        struct text *text = &texts[i % 2];
        text->path = argv[i];
        text->bytes = read_file(argv[i], &text->length);
        loads += run_both_ways(load, NULL, text, 1, 1);
        limited += run_both_ways(load_within_limits, NULL, text, 1, 1);
        calls += run_both_ways(call, NULL, text, first, step);
        if (i > begin) {
            overlays += run_both_ways(overlay, &texts[(i + 1) % 2], text, first, step);
            __real_free(texts[(i + 1) % 2].bytes);
        }
    }
    for (i++; i < argc; i++) {
        struct text other = {.path = argv[i]};
        other.bytes = read_file(argv[i], &other.length);
        others += run_both_ways(load_with_kept_handles, NULL, &other, 1, 1);
        __real_free(other.bytes);
    }
    printf("%ld requests of loads, %ld of loads within limits, %ld of overlays, %ld of other calls and %ld of loads of other texts refused: %s\n", loads, limited, overlays, calls, others, bad ? "NOT all is well" : "each is answered, and nothing is left behind");
    return bad;
}
