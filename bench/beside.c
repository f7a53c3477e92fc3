/* Measures searches and the check with two builds of the library in one run, interleaved; the best of each counts.
 *
 *     beside [--other-1.4] LIBRARY OTHER FOLDER    shared libraries; FOLDER has the leaves of one index, newest first, as make_index.py
 *                                                  makes them; --other-1.4: OTHER is of version 1.4
 */
#include "builds.h"
#include "fts4box.h"

#include <stdio.h>
#include <stdlib.h>
#include <string.h>
#include <time.h>

enum { ROUNDS = 1000, LIBRARIES = 2, COLUMNS = 3, PATH = 4096 };

static const uint8_t NAMES[] = "nodesentoutcome";
static const uint32_t NAME_ENDS[COLUMNS] = { 4, 8, 15 };

static const char *const QUERIES[] = {
    "reply", "outcome:reply NOT outcome:timeout", "n1 OR n2 OR n3 OR n4 OR n5 OR n6 OR n7 OR n8", "n12 reply", "timeout", "\"no reply\"",
    "no NEAR/1 timeout", "n* timeout", "t1* reply",
};

enum { QUERY_COUNT = sizeof QUERIES / sizeof *QUERIES };

typedef uint32_t check_call(const uint8_t *, size_t, uint32_t, uint64_t *);

static uint8_t leaves[FTS4_MAX_BYTES];
static uint32_t ends[FTS4_MAX_LEAVES], levels[FTS4_MAX_LEAVES], indexes[FTS4_MAX_LEAVES];
static size_t count;
static int64_t room[FTS4_SEARCH_ROOM];

static void fail(const char *what)
{
    fprintf(stderr, "beside: %s\n", what);
    exit(2);
}

static void load(const char *folder)
{
    char path[PATH];
    for (; count < FTS4_MAX_LEAVES; count++) {
        size_t from = count ? ends[count - 1] : 0;
        snprintf(path, sizeof path, "%s/leaf%zu.bin", folder, count);
        FILE *f = fopen(path, "rb");
        if (!f)
            break;
        ends[count] = (uint32_t)(from + fread(leaves + from, 1, sizeof leaves - from, f));
        if (fgetc(f) != EOF)
            fail("the leaves are too large");
        fclose(f);
    }
    if (count == 0)
        fail("the folder has no leaf");
    /* all on level 0, as SQLite left them */
    for (size_t i = 0; i < count; i++)
        indexes[i] = (uint32_t)(count - 1 - i);
}

static double now(void)
{
    struct timespec t;
    clock_gettime(CLOCK_MONOTONIC, &t);
    return t.tv_sec * 1e6 + t.tv_nsec * 1e-3;
}

static uint64_t search(search_call *call, const char *query)
{
    uint64_t found;
    if (call(NAMES, sizeof NAMES - 1, NAME_ENDS, COLUMNS, leaves, ends[count - 1], ends, count, levels, count, indexes, count,
             (const uint8_t *)query, strlen(query), room, FTS4_SEARCH_ROOM, &found) != FTS4_ACCEPTED)
        fail("a query is refused");
    return found;
}

static void check(check_call *call)
{
    uint64_t second;
    size_t from = 0;
    for (size_t i = 0; i < count; from = ends[i++])
        if (call(leaves + from, ends[i] - from, COLUMNS, &second) != FTS4_ACCEPTED)
            fail("a leaf is refused");
}

static void row(const char *what, const double best[LIBRARIES])
{
    printf("| %s | %.1f | %.1f | %.2f |\n", what, best[0], best[1], best[0] / best[1]);
}

int main(int argc, char **argv)
{
    int is_1_4 = argc > 1 && !strcmp(argv[1], OF_1_4);
    char **words = argv + 1 + is_1_4;
    if (argc != 2 + LIBRARIES + is_1_4)
        fail("usage: beside [" OF_1_4 "] LIBRARY OTHER FOLDER");
    search_call *searches[LIBRARIES];
    check_call *checks[LIBRARIES];
    for (int k = 0; k < LIBRARIES; k++) {
        void *library = dlopen(words[k], RTLD_NOW | RTLD_LOCAL);
        if (!library)
            fail(dlerror());
        void *check_symbol = dlsym(library, "fts4_check");
        searches[k] = search_of(library, k > 0 && is_1_4);
        if (!searches[k] || !check_symbol)
            fail("a library has not the calls");
        memcpy(&checks[k], &check_symbol, sizeof check_symbol);
    }
    load(words[LIBRARIES]);

    printf("| best of %d | this µs | the other µs | this / the other |\n|---|---|---|---|\n", ROUNDS);
    double best[LIBRARIES] = { 1e18, 1e18 };
    for (int round = 0; round < ROUNDS; round++)
        for (int k = 0; k < LIBRARIES; k++) {
            double start = now();
            check(checks[k]);
            double took = now() - start;
            if (took < best[k])
                best[k] = took;
        }
    row("check of all leaves", best);
    for (int q = 0; q < QUERY_COUNT; q++) {
        char what[64];
        snprintf(what, sizeof what, "`%s`", QUERIES[q]);
        best[0] = best[1] = 1e18;
        if (search(searches[0], QUERIES[q]) != search(searches[1], QUERIES[q]))
            fail("the libraries count differently");
        for (int round = 0; round < ROUNDS; round++)
            for (int k = 0; k < LIBRARIES; k++) {
                double start = now();
                search(searches[k], QUERIES[q]);
                double took = now() - start;
                if (took < best[k])
                    best[k] = took;
            }
        row(what, best);
    }
    return 0;
}
