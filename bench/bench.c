/* Measures the box beside SQLite and beside a plain C checker, a verdict sheet beside its three searches, and a merge beside SQLite's
 * `optimize` and beside the check of its leaves, on the same data in one run: repetitions are interleaved, and the best of each counts.
 *
 *     bench FOLDER
 *
 * FOLDER is what make_index.py and make_worst.py made. The tables are written as Markdown; the last line says how many bounds
 * were met. Exit status: 0 if all were, 1 if some were not, 2 if something could not be measured. WITH_GCC and WITH_CLANG say
 * which compilers made a plain checker. */
#include "fts4box.h"
#include "checker.h"

#include <sqlite3.h>
#include <stdio.h>
#include <stdlib.h>
#include <string.h>
#include <time.h>

enum { MAX_LEAVES = 8, MAX_BYTES = 65536, COLUMNS = 3, ROOM = 65536, ROUNDS = 300, SIZES = 4, PATH = 4096 };
/* The check and the sheet have the narrowest bounds, so that each side needs a quiet moment. */
enum { CHECK_ROUNDS = 3000, SHEET_ROUNDS = 1000, MERGE_ROUNDS = 1000 };

static const char NAMES[] = "nodesentoutcome";
static const uint32_t NAME_ENDS[COLUMNS] = { 4, 8, 15 };
static const int ROWS[SIZES] = { 400, 800, 1600, 3200 };

/* A query, and the largest ratio to SQLite's time that it is to reach, less the check or whole. */
struct query {
    const char *text;
    double less_check;
    double whole;
};

static const struct query QUERIES[] = {
    { "reply", 0.7, 0 },
    { "outcome:reply NOT outcome:timeout", 0.7, 1.2 },
    { "n1 OR n2 OR n3 OR n4 OR n5 OR n6 OR n7 OR n8", 0.7, 0 },
    { "n12 reply", 1.0, 0 },
    { "timeout", 1.0, 0 },
    { "\"no reply\"", 1.0, 0 },
    { "no NEAR/1 timeout", 1.0, 0 },
    { "n* timeout", 3.0, 0 },
    { "t1* reply", 3.0, 0 },
};

static const struct {
    const char *compiler;
    plain_check *check;
} CHECKERS[] = {
#ifdef WITH_GCC
    { "gcc", plain_check_gcc },
#endif
#ifdef WITH_CLANG
    { "clang", plain_check_clang },
#endif
};

enum { QUERY_COUNT = sizeof QUERIES / sizeof *QUERIES, CHECKER_COUNT = sizeof CHECKERS / sizeof *CHECKERS };
enum { ALL_MET, SOME_NOT_MET, NOT_MEASURED };

/* More than any time measured. */
#define NONE_YET 1e18

static const double CHECK_LIMIT = 1.2, GROWTH_LIMIT = 2.4, SHEET_LIMIT = 1.05, WORST_LIMIT = 2e6;
/* A merge beside SQLite's, beside the check of its leaves, and of any leaves. */
static const double MERGE_LIMIT = 2.0, MERGE_CHECK_LIMIT = 6.0, MERGE_WORST_LIMIT = 1e6;

/* The lists of a verdict sheet: passes, failures, silence. */
enum { PASSES, FAILURES, SILENCE, LISTS };
static const char *const SHEET[LISTS] = { "outcome:reply NOT outcome:timeout NOT outcome:late", "outcome:late", "outcome:timeout" };

struct index {
    uint8_t leaves[MAX_BYTES];
    uint32_t ends[MAX_LEAVES], levels[MAX_LEAVES], indexes[MAX_LEAVES];
    size_t count;
    sqlite3 *db;
};

/* What one query takes over one index, and the check of its leaves beside it, in microseconds. */
struct times {
    double box, check, sqlite;
    uint64_t found;
};

static int64_t room[ROOM], sheet_rooms[LISTS][FTS4_SEARCH_ROOM];
static uint8_t merged[FTS4_MERGE_ROOM];
static int bounds, bounds_met;

static double now(void)
{
    struct timespec t;
    clock_gettime(CLOCK_MONOTONIC, &t);
    return t.tv_sec * 1e6 + t.tv_nsec * 1e-3;
}

static void keep_least(double *best, double value)
{
    if (value < *best)
        *best = value;
}

static void fail(const char *what)
{
    fprintf(stderr, "bench: %s\n", what);
    exit(NOT_MEASURED);
}

static size_t size_of(const struct index *x)
{
    return x->count ? x->ends[x->count - 1] : 0;
}

static int read_leaf(struct index *x, const char *path)
{
    FILE *f = fopen(path, "rb");
    if (!f)
        return 0;
    size_t from = size_of(x);
    x->ends[x->count++] = (uint32_t)(from + fread(x->leaves + from, 1, MAX_BYTES - from, f));
    if (fgetc(f) != EOF)
        fail("a leaf is larger than what the leaves before it leave of 65,536 bytes");
    fclose(f);
    return 1;
}

static void load(struct index *x, const char *folder)
{
    char path[PATH];
    x->count = 0;
    do
        snprintf(path, sizeof path, "%s/leaf%zu.bin", folder, x->count);
    while (x->count < MAX_LEAVES && read_leaf(x, path));
    /* the files come newest first; all are on level 0, as SQLite left them */
    for (size_t i = 0; i < x->count; i++) {
        x->levels[i] = 0;
        x->indexes[i] = (uint32_t)(x->count - 1 - i);
    }
    snprintf(path, sizeof path, "%s/index.db", folder);
    x->db = NULL;
    if (sqlite3_open_v2(path, &x->db, SQLITE_OPEN_READONLY, NULL) != SQLITE_OK)
        x->db = NULL;
}

/* ---- one repetition of each */

static double box_check(const struct index *x)
{
    uint64_t second;
    size_t from = 0;
    double start = now();
    for (size_t i = 0; i < x->count; from = x->ends[i++])
        if (fts4_check(x->leaves + from, x->ends[i] - from, COLUMNS, &second) != FTS4_ACCEPTED)
            fail("a leaf is refused");
    return now() - start;
}

static double plain_checks(const struct index *x, plain_check *check)
{
    size_t from = 0;
    double start = now();
    for (size_t i = 0; i < x->count; from = x->ends[i++])
        if (!check(x->leaves + from, x->ends[i] - from, COLUMNS))
            fail("the plain checker refuses a leaf");
    return now() - start;
}

static double search_into(const struct index *x, const char *query, int64_t *into, size_t size, uint64_t *found)
{
    double start = now();
    uint32_t answer = fts4_search((const uint8_t *)NAMES, strlen(NAMES), NAME_ENDS, COLUMNS, x->leaves, size_of(x), x->ends, x->count,
                                  x->levels, x->count, x->indexes, x->count, (const uint8_t *)query, strlen(query), into, size, found);
    double spent = now() - start;
    if (answer != FTS4_ACCEPTED)
        fail("a search is refused");
    return spent;
}

static double box_search(const struct index *x, const char *query, uint64_t *found)
{
    return search_into(x, query, room, ROOM, found);
}

/* The three searches of a sheet one after the other, each with a room of its own. */
static double sheet_searches(const struct index *x, uint64_t found[LISTS])
{
    double spent = 0;
    for (int k = 0; k < LISTS; k++)
        spent += search_into(x, SHEET[k], sheet_rooms[k], FTS4_SEARCH_ROOM, &found[k]);
    return spent;
}

/* The sheet of a run from docid 1 on. */
static double box_sheet(const struct index *x, int64_t rows, uint64_t found[LISTS])
{
    int64_t second;
    uint64_t none;
    double start = now();
    uint32_t answer = fts4_verdict(1, rows, (const uint8_t *)NAMES, strlen(NAMES), NAME_ENDS, COLUMNS, x->leaves, size_of(x), x->ends, x->count,
                                   x->levels, x->count, x->indexes, x->count, (const uint8_t *)SHEET[PASSES], strlen(SHEET[PASSES]),
                                   (const uint8_t *)SHEET[FAILURES], strlen(SHEET[FAILURES]), (const uint8_t *)SHEET[SILENCE], strlen(SHEET[SILENCE]),
                                   sheet_rooms[PASSES], FTS4_SEARCH_ROOM, sheet_rooms[FAILURES], FTS4_SEARCH_ROOM, sheet_rooms[SILENCE], FTS4_SEARCH_ROOM,
                                   &second, &found[PASSES], &found[FAILURES], &found[SILENCE], &none);
    double spent = now() - start;
    if (answer != FTS4_ACCEPTED || none != 0)
        fail("a sheet is refused, or has not all rows");
    return spent;
}

/* The merge of all leaves, and its bytes. */
static double box_merge(const struct index *x, uint64_t *size)
{
    uint32_t level, index;
    double start = now();
    uint32_t answer = fts4_merge(COLUMNS, x->leaves, size_of(x), x->ends, x->count, x->levels, x->count, x->indexes, x->count, merged, sizeof merged, size,
                                 &level, &index);
    double spent = now() - start;
    if (answer != FTS4_ACCEPTED)
        fail("a merge is refused");
    return spent;
}

/* An index in memory, with what is asked of it. */
struct copy {
    sqlite3 *db;
    sqlite3_stmt *optimize, *root;
};

static void execute(sqlite3 *db, const char *words)
{
    if (sqlite3_exec(db, words, NULL, NULL, NULL) != SQLITE_OK)
        fail(sqlite3_errmsg(db));
}

static struct copy in_memory(sqlite3 *db)
{
    struct copy copy;
    if (sqlite3_open(":memory:", &copy.db) != SQLITE_OK)
        fail("there is no database in memory");
    execute(copy.db, "pragma page_size=65536");
    sqlite3_backup *backup = sqlite3_backup_init(copy.db, "main", db, "main");
    if (!backup || sqlite3_backup_step(backup, -1) != SQLITE_DONE || sqlite3_backup_finish(backup) != SQLITE_OK)
        fail("the index can't be copied to memory");
    if (sqlite3_prepare_v2(copy.db, "insert into t(t) values ('optimize')", -1, &copy.optimize, NULL) != SQLITE_OK ||
        sqlite3_prepare_v2(copy.db, "select root from t_segdir", -1, &copy.root, NULL) != SQLITE_OK)
        fail("SQLite can't read the copy");
    return copy;
}

static void closed(struct copy *copy)
{
    sqlite3_finalize(copy->optimize);
    sqlite3_finalize(copy->root);
    sqlite3_close(copy->db);
}

/* SQLite's `optimize` in a transaction that is then taken back, so that it has the same segments each time. Its one leaf must be the box's. */
static double sqlite_merge(const struct copy *copy, uint64_t size)
{
    execute(copy->db, "begin");
    double start = now();
    int done = sqlite3_step(copy->optimize);
    double spent = now() - start;
    sqlite3_reset(copy->optimize);
    if (done != SQLITE_DONE || sqlite3_step(copy->root) != SQLITE_ROW)
        fail("SQLite does not merge");
    const void *root = sqlite3_column_blob(copy->root, 0);
    if ((uint64_t)sqlite3_column_bytes(copy->root, 0) != size || memcmp(root, merged, size) || sqlite3_step(copy->root) != SQLITE_DONE)
        fail("SQLite merges otherwise");
    sqlite3_reset(copy->root);
    execute(copy->db, "rollback");
    return spent;
}

static double sqlite_search(sqlite3_stmt *statement, uint64_t *found)
{
    *found = 0;
    double start = now();
    while (sqlite3_step(statement) == SQLITE_ROW) {
        if (room[*found] != sqlite3_column_int64(statement, 0))
            fail("SQLite lists another docid");
        ++*found;
    }
    double spent = now() - start;
    sqlite3_reset(statement);
    return spent;
}

/* ---- the best of many */

static struct times measure(const struct index *x, const char *query)
{
    struct times best = { NONE_YET, NONE_YET, NONE_YET, 0 };
    uint64_t theirs;
    sqlite3_stmt *statement;
    if (sqlite3_prepare_v2(x->db, "select docid from t where t match ?", -1, &statement, NULL) != SQLITE_OK)
        fail("SQLite can't read the index");
    sqlite3_bind_text(statement, 1, query, -1, SQLITE_STATIC);
    for (int i = 0; i < ROUNDS; i++) {
        keep_least(&best.check, box_check(x));
        keep_least(&best.box, box_search(x, query, &best.found));
        keep_least(&best.sqlite, sqlite_search(statement, &theirs));
        if (theirs != best.found)
            fail("SQLite counts otherwise");
    }
    sqlite3_finalize(statement);
    return best;
}

/* Counts the bound, and says whether it is met. */
static const char *judged(double value, double limit)
{
    int met = value <= limit;
    bounds++;
    bounds_met += met;
    return met ? "met" : "**not met**";
}

static void table_of_checks(const struct index *x)
{
    double box = NONE_YET, plain[CHECKER_COUNT], least = NONE_YET;
    for (int c = 0; c < CHECKER_COUNT; c++)
        plain[c] = NONE_YET;
    for (int i = 0; i < CHECK_ROUNDS; i++) {
        keep_least(&box, box_check(x));
        for (int c = 0; c < CHECKER_COUNT; c++)
            keep_least(&plain[c], plain_checks(x, CHECKERS[c].check));
    }
    printf("| check of all leaves (%zu bytes) | box µs | plain C -O3 µs | box / faster plain C | at most | |\n|---|---|---|---|---|---|\n", size_of(x));
    printf("| | %.0f |", box);
    for (int c = 0; c < CHECKER_COUNT; c++) {
        printf("%s %s %.0f", c ? "," : "", CHECKERS[c].compiler, plain[c]);
        keep_least(&least, plain[c]);
    }
    printf(" | %.2f | %.1f | %s |\n\n", box / least, CHECK_LIMIT, judged(box / least, CHECK_LIMIT));
}

static void table_of_queries(const struct index *x)
{
    printf("| query, 3,200 rows | rows found | box µs | less check µs | SQLite µs | less check / SQLite | at most | | whole / SQLite | at most | |\n");
    printf("|---|---|---|---|---|---|---|---|---|---|---|\n");
    for (int q = 0; q < QUERY_COUNT; q++) {
        const struct query *query = &QUERIES[q];
        struct times t = measure(x, query->text);
        double less = (t.box - t.check) / t.sqlite, whole = t.box / t.sqlite;
        printf("| `%s` | %lu | %.0f | %.0f | %.0f | %.2f | %.1f | %s | %.2f |", query->text, (unsigned long)t.found, t.box, t.box - t.check, t.sqlite,
               less, query->less_check, judged(less, query->less_check), whole);
        if (query->whole > 0)
            printf(" %.1f | %s |\n", query->whole, judged(whole, query->whole));
        else
            printf(" | |\n");
    }
}

static void table_of_growth(const struct index *all)
{
    printf("\n| box µs at so many rows | 400 | 800 | 1,600 | 3,200 | 1,600 to 3,200 | at most | |\n|---|---|---|---|---|---|---|---|\n");
    for (int q = 0; q < QUERY_COUNT; q++) {
        double best[SIZES] = { NONE_YET, NONE_YET, NONE_YET, NONE_YET };
        uint64_t found;
        for (int i = 0; i < ROUNDS; i++)
            for (int k = 0; k < SIZES; k++)
                keep_least(&best[k], box_search(&all[k], QUERIES[q].text, &found));
        double growth = best[SIZES - 1] / best[SIZES - 2];
        printf("| `%s` | %.0f | %.0f | %.0f | %.0f | %.2f | %.1f | %s |\n", QUERIES[q].text, best[0], best[1], best[2], best[3], growth, GROWTH_LIMIT,
               judged(growth, GROWTH_LIMIT));
    }
}

/* A sheet beside its three searches. Both fill the same rooms, so that what the sheet adds is left. */
static void table_of_sheet(const struct index *x, int64_t rows)
{
    double sheet = NONE_YET, searches = NONE_YET;
    uint64_t counted[LISTS], found[LISTS];
    for (int i = 0; i < SHEET_ROUNDS; i++) {
        keep_least(&searches, sheet_searches(x, found));
        keep_least(&sheet, box_sheet(x, rows, counted));
        if (memcmp(counted, found, sizeof found))
            fail("the sheet counts otherwise than its searches");
    }
    printf("\n| verdict sheet, 3,200 rows | pass | fail | silent | sheet µs | three searches µs | sheet / searches | at most | |\n|---|---|---|---|---|---|---|---|---|\n");
    printf("| | %lu | %lu | %lu | %.0f | %.0f | %.2f | %.2f | %s |\n", (unsigned long)found[PASSES], (unsigned long)found[FAILURES],
           (unsigned long)found[SILENCE], sheet, searches, sheet / searches, SHEET_LIMIT, judged(sheet / searches, SHEET_LIMIT));
}

/* A merge beside SQLite's of the same segments, and beside the check of the leaves that it begins with; then by size. */
static void table_of_merge(const struct index *all)
{
    const struct index *x = &all[SIZES - 1];
    double best[SIZES] = { NONE_YET, NONE_YET, NONE_YET, NONE_YET }, check = NONE_YET, sqlite = NONE_YET;
    uint64_t size = 0;
    struct copy copy = in_memory(x->db);
    for (int i = 0; i < MERGE_ROUNDS; i++) {
        for (int k = 0; k < SIZES; k++)
            keep_least(&best[k], box_merge(&all[k], &size));
        keep_least(&check, box_check(x));
        keep_least(&sqlite, sqlite_merge(&copy, size));
    }
    closed(&copy);
    double merge = best[SIZES - 1], growth = merge / best[SIZES - 2];
    printf("\n| merge of 8 leaves (%zu bytes) | bytes after | merge µs | SQLite's optimize µs | merge / SQLite | at most | | check µs | merge / check | at most | |\n",
           size_of(x));
    printf("|---|---|---|---|---|---|---|---|---|---|---|\n");
    printf("| | %lu | %.0f | %.0f | %.2f | %.1f | %s | %.0f | %.1f | %.1f | %s |\n", (unsigned long)size, merge, sqlite, merge / sqlite, MERGE_LIMIT,
           judged(merge / sqlite, MERGE_LIMIT), check, merge / check, MERGE_CHECK_LIMIT, judged(merge / check, MERGE_CHECK_LIMIT));
    printf("\n| merge µs at so many rows | 400 | 800 | 1,600 | 3,200 | 1,600 to 3,200 | at most | |\n|---|---|---|---|---|---|---|---|\n");
    printf("| | %.0f | %.0f | %.0f | %.0f | %.2f | %.1f | %s |\n", best[0], best[1], best[2], best[3], growth, GROWTH_LIMIT, judged(growth, GROWTH_LIMIT));
}

/* Each line of worst.txt: a folder, and the query that is dear on its leaves. The leaves are merged too. */
static void table_of_worst(const char *folder)
{
    static struct index x;
    char path[PATH], line[PATH];
    int inputs = 0;
    snprintf(path, sizeof path, "%s/worst.txt", folder);
    FILE *f = fopen(path, "r");
    if (!f)
        fail("there is no worst.txt");
    printf("\n| worst inputs | query | rows found | box ms | at most | | merge ms | at most | |\n|---|---|---|---|---|---|---|---|---|\n");
    for (; fgets(line, sizeof line, f); inputs++) {
        uint64_t found, size;
        line[strcspn(line, "\n")] = 0;
        char *query = strchr(line, ' ');
        if (!query)
            fail("a line of worst.txt has no space between folder and query");
        *query++ = 0;
        snprintf(path, sizeof path, "%.1000s/%.1000s", folder, line);
        load(&x, path);
        if (x.count == 0)
            fail("a folder of worst.txt has no leaf");
        double spent = box_search(&x, query, &found), merging = box_merge(&x, &size);
        printf("| %s | `%.40s%s` | %lu | %.1f | %.0f | %s | %.1f | %.0f | %s |\n", line, query, strlen(query) > 40 ? " .." : "", (unsigned long)found,
               spent / 1e3, WORST_LIMIT / 1e3, judged(spent, WORST_LIMIT), merging / 1e3, MERGE_WORST_LIMIT / 1e3, judged(merging, MERGE_WORST_LIMIT));
        fflush(stdout);
    }
    fclose(f);
    if (inputs == 0)
        fail("worst.txt names no input");
}

int main(int argc, char **argv)
{
    static struct index all[SIZES];
    char path[PATH];
    if (argc != 2)
        fail("usage: bench FOLDER");
    for (int k = 0; k < SIZES; k++) {
        snprintf(path, sizeof path, "%s/%d", argv[1], ROWS[k]);
        load(&all[k], path);
        if (!all[k].db || all[k].count != MAX_LEAVES)
            fail("an index is missing");
    }
    table_of_checks(&all[SIZES - 1]);
    table_of_queries(&all[SIZES - 1]);
    table_of_growth(all);
    table_of_sheet(&all[SIZES - 1], ROWS[SIZES - 1]);
    table_of_merge(all);
    table_of_worst(argv[1]);
    printf("\n%d of %d bounds met\n", bounds_met, bounds);
    return bounds_met == bounds ? ALL_MET : SOME_NOT_MET;
}
