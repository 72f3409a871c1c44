/* How long some C functions take, in ns of processor time a call, on whatever archive it is linked with: so two commits are compared,
 * each by its own archive, which docs/SPEED.md and docs/LOOK-BACK.md do. In the repository's root, after ./library:
 *
 *     cc -O2 -Iinclude tools/times.c target/staticlib/libstation.a -o target/times && taskset -c 2 target/times
 *
 * writes for each job the median, the least and the most of seven runs, each of a quarter to half a second. `target/times JOB CALLS`, or
 * `all` for the job, makes so many calls and writes nothing, for `valgrind --tool=cachegrind --cache-sim=no`: by the difference to twice as
 * many CALLS the instructions of one. Of each call the refusal and the slot or length are tested, and once for each job all that is read;
 * a wrong answer ends it with status 1, a job or number that it does not know with 2. */
#define _POSIX_C_SOURCE 199309L
#include "pyltarka.h"
#include <stdio.h>
#include <stdlib.h>
#include <string.h>
#include <time.h>

enum { RECORDS = 16, RUNS = 7 };

static uint8_t table[(1 + RECORDS) * 32760], content[32760], output[32760], key[PYLTARKA_KEY_BYTES];
static pyltarka_settings s;
static size_t content_len, table_len, fill;

static void must(bool so) {
    if (!so) {
        fputs("times: a wrong answer\n", stderr);
        exit(1);
    }
}

/* Into a table for 16 records: a fresh one each time that it is full, as its first 16 bytes are zero. */
static void insert(void) {
    if (fill == RECORDS) memset(table, 0, 16), fill = 0;
    must(pyltarka_insert(table, table_len, s, key, sizeof key, content, content_len, false).slot == ++fill);
}
static void replace(void) { must(pyltarka_replace(table, table_len, s, 1, key, sizeof key, content, content_len, false) == 0); }
static void read_copy(void) {
    pyltarka_record r = pyltarka_read(table, table_len, s, 1, true, key, sizeof key, output, sizeof output);
    must(r.number == 0 && r.length == content_len);
}
static void read_part(void) {
    pyltarka_part p = pyltarka_read_fixed(table, table_len, s, 1, true, key, sizeof key);
    must(p.number == 0 && p.length == content_len);
}
static void read_refused(void) { must(pyltarka_read_fixed(table, table_len, s, 1, true, key, sizeof key).number == PYLTARKA_SETTINGS); }

static const struct {
    const char *name;
    void (*call)(void);
    size_t entry_size, content_len;
    bool multipart;
} jobs[] = {
    {"fixed_read_32", read_part, 64, 32, false},         {"fixed_read_refused", read_refused, 4096, 5000, true},
    {"read_32", read_copy, 64, 32, false},               {"read_24544", read_copy, 24576, 24544, false},
    {"read_30000_in_parts", read_copy, 4096, 30000, true}, {"insert_32", insert, 64, 32, false},
    {"insert_16352", insert, 16384, 16352, false},       {"insert_24544", insert, 24576, 24544, false},
    {"insert_32000", insert, 32760, 32000, false},       {"replace_32", replace, 64, 32, false},
};
enum { JOBS = sizeof jobs / sizeof jobs[0] };

static void prepare(size_t j) {
    pyltarka_record r;
    s.entry_size = jobs[j].entry_size, s.multipart = jobs[j].multipart, s.counted = true, s.keyed = true;
    content_len = jobs[j].content_len, table_len = (1 + RECORDS) * s.entry_size, fill = 0;
    memset(table, 0, sizeof table);
    memset(output, 0, sizeof output);
    insert();
    r = pyltarka_read(table, table_len, s, 1, true, key, sizeof key, output, sizeof output);
    must(r.number == 0 && r.length == content_len && r.count == 1 && !r.mark && memcmp(output, content, content_len) == 0);
    if (!s.multipart) {
        pyltarka_part p = pyltarka_read_fixed(table, table_len, s, 1, true, key, sizeof key);
        must(p.number == 0 && p.length == content_len && memcmp(table + p.offset, content, content_len) == 0);
    }
}

static double run(size_t j, long calls) {
    struct timespec from, to;
    clock_gettime(CLOCK_PROCESS_CPUTIME_ID, &from);
    for (long i = 0; i < calls; i++) jobs[j].call();
    clock_gettime(CLOCK_PROCESS_CPUTIME_ID, &to);
    return ((to.tv_sec - from.tv_sec) * 1e9 + (to.tv_nsec - from.tv_nsec)) / calls;
}

static int rising(const void *a, const void *b) {
    double x = *(const double *)a, y = *(const double *)b;
    return (x > y) - (x < y);
}

int main(int argc, char **argv) {
    size_t known = 0;
    for (size_t i = 0; i < sizeof content; i++) content[i] = (uint8_t)(i % 251 + 1);
    for (size_t j = 0; j < JOBS; j++) {
        double ns[RUNS];
        long calls = 64;
        if (argc > 1 && strcmp(argv[1], "all") != 0 && strcmp(argv[1], jobs[j].name) != 0) continue;
        known++;
        prepare(j);
        if (argc > 2) {
            if (atol(argv[2]) <= 0) return 2;
            run(j, atol(argv[2]));
            continue;
        }
        while (run(j, calls) * calls < 2e7) calls *= 2;
        calls *= 12;
        for (int i = 0; i < RUNS; i++) ns[i] = run(j, calls);
        qsort(ns, RUNS, sizeof ns[0], rising);
        printf("%-20s %9.1f  [%.1f..%.1f]\n", jobs[j].name, ns[RUNS / 2], ns[0], ns[RUNS - 1]);
    }
    return known > 0 ? 0 : 2;
}
