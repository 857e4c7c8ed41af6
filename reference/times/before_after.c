/* Times two builds of the library in one run: `before_after BEFORE.so AFTER.so SHEET...` gives, for each sheet, the fastest of CALLS
 * verdicts of each build, called in turn, and their ratio. Each build takes the sheet in by itself, since images may differ. */
#define _POSIX_C_SOURCE 200809L
#include "furlazon.h"

#include <dlfcn.h>
#include <stdio.h>
#include <stdlib.h>
#include <string.h>
#include <time.h>

enum { CALLS = 3000, IMAGE = 16384 };

typedef uint64_t take_in(const uint8_t *, size_t, uint8_t *, size_t);
typedef uint64_t verdict(const uint8_t *, size_t, uint8_t *, size_t, uint8_t *, size_t, uint8_t *, size_t, uint64_t *, size_t,
                         uint64_t *, size_t);

struct build {
    take_in *take_in;
    verdict *verdict;
    uint8_t table[IMAGE];
    double fastest;
};

static uint8_t message[FURLAZON_VERDICT_ENTRIES], first[FURLAZON_VERDICT_ENTRIES], second[FURLAZON_VERDICT_ENTRIES];
static uint64_t work[FURLAZON_VERDICT_WORK], answer[FURLAZON_ANSWER_ENTRIES];
static struct build builds[2];

static void fail(const char *what, const char *why) {
    fprintf(stderr, "before_after: %s: %s\n", what, why);
    exit(1);
}

static void load(struct build *build, const char *path) {
    void *library = dlopen(path, RTLD_NOW | RTLD_LOCAL);
    if (library == NULL) {
        fail(path, dlerror());
    }
    *(void **)&build->take_in = dlsym(library, "furlazon_take_in");
    *(void **)&build->verdict = dlsym(library, "furlazon_verdict");
    if (build->take_in == NULL || build->verdict == NULL) {
        fail(path, "a function is missing");
    }
}

static double now(void) {
    struct timespec time;
    clock_gettime(CLOCK_MONOTONIC, &time);
    return (double)time.tv_sec * 1e6 + (double)time.tv_nsec / 1e3;
}

/* One verdict; the buffers are cleared before it, outside the time. */
static void call(struct build *build, const char *sheet) {
    memset(message, 0, sizeof message);
    memset(first, 0, sizeof first);
    memset(second, 0, sizeof second);
    memset(work, 0, sizeof work);
    double start = now();
    uint64_t refused = build->verdict(build->table, sizeof build->table, message, sizeof message, first, sizeof first, second,
                                      sizeof second, work, FURLAZON_VERDICT_WORK, answer, FURLAZON_ANSWER_ENTRIES);
    double took = now() - start;
    if (refused != 0) {
        fail(sheet, "the table is refused");
    }
    if (took < build->fastest) {
        build->fastest = took;
    }
}

static void time_sheet(const char *path) {
    static uint8_t sheet[FURLAZON_SHEET_BYTES + 1];
    FILE *file = fopen(path, "rb");
    if (file == NULL) {
        fail(path, "cannot be opened");
    }
    size_t length = fread(sheet, 1, sizeof sheet, file);
    fclose(file);
    for (int k = 0; k < 2; k++) {
        builds[k].fastest = 1e12;
        if (builds[k].take_in(sheet, length, builds[k].table, sizeof builds[k].table) != 0) {
            fail(path, "the sheet is refused");
        }
    }
    for (int i = 0; i < CALLS; i++) {
        call(&builds[0], path);
        call(&builds[1], path);
    }
    const char *name = strrchr(path, '/') == NULL ? path : strrchr(path, '/') + 1;
    printf("| `%.*s` | %.2f | %.2f | %.2f |\n", (int)strcspn(name, "."), name, builds[0].fastest, builds[1].fastest,
           builds[1].fastest / builds[0].fastest);
}

int main(int count, char **arguments) {
    if (count < 4) {
        fail("usage", "before_after BEFORE.so AFTER.so SHEET...");
    }
    load(&builds[0], arguments[1]);
    load(&builds[1], arguments[2]);
    printf("| Sheet | Before, µs | After, µs | After / before |\n|---|---|---|---|\n");
    for (int i = 3; i < count; i++) {
        time_sheet(arguments[i]);
    }
    return 0;
}
