/* Measures the reading of all numbers of a leaf, and its check, the short way and the long way alone. Both in one run, interleaved;
 * the best of each counts.
 *
 *     numbers SHORT TIMED LONG TIMED LEAF PLACES
 *
 * SHORT and LONG: the product's library each way, for the check; behind each crate timing as a library, for the reading of numbers;
 * a leaf; where its numbers stand.
 */
#include <dlfcn.h>
#include <stdint.h>
#include <stdio.h>
#include <stdlib.h>
#include <string.h>
#include <time.h>

enum { ROUNDS = 3000, WAYS = 2, MAX_BYTES = 65536, COLUMNS = 3, ACCEPTED = 0, TOP_BIT = 0x80 };

typedef uint64_t numbers_call(const uint8_t *, size_t, const uint32_t *, size_t);
typedef uint32_t check_call(const uint8_t *, size_t, uint32_t, uint64_t *);

static uint8_t leaf[MAX_BYTES];
static uint32_t places[MAX_BYTES];
static size_t size, count;

static void fail(const char *what)
{
    fprintf(stderr, "numbers: %s\n", what);
    exit(2);
}

static void load(const char *path, const char *name, void *call)
{
    void *library = dlopen(path, RTLD_NOW | RTLD_LOCAL);
    void *found = library ? dlsym(library, name) : NULL;
    if (!found)
        fail(dlerror());
    memcpy(call, &found, sizeof found);
}

static size_t contents(const char *path, void *room, size_t item, size_t most)
{
    FILE *f = fopen(path, "rb");
    if (!f)
        fail("a file can't be opened");
    size_t n = fread(room, item, most, f);
    if (n == 0 || fgetc(f) != EOF)
        fail("a file is empty or too long");
    fclose(f);
    return n;
}

static double now(void)
{
    struct timespec t;
    clock_gettime(CLOCK_MONOTONIC, &t);
    return t.tv_sec * 1e6 + t.tv_nsec * 1e-3;
}

static void row(const char *what, const double best[WAYS])
{
    printf("| %s | %.1f | %.1f | %.2f |\n", what, best[0], best[1], best[0] / best[1]);
}

int main(int argc, char **argv)
{
    if (argc != 7)
        fail("usage: numbers SHORT TIMED LONG TIMED LEAF PLACES");
    numbers_call *numbers[WAYS];
    check_call *check[WAYS];
    for (int k = 0; k < WAYS; k++) {
        load(argv[1 + 2 * k], "fts4_check", &check[k]);
        load(argv[2 + 2 * k], "timed_numbers", &numbers[k]);
    }
    size = contents(argv[5], leaf, 1, sizeof leaf);
    count = contents(argv[6], places, sizeof *places, MAX_BYTES);

    size_t one_byte = 0;
    for (size_t i = 0; i < count; i++)
        one_byte += leaf[places[i]] < TOP_BIT;
    uint64_t sum = numbers[0](leaf, size, places, count);
    if (numbers[1](leaf, size, places, count) != sum)
        fail("the two ways read different numbers");

    double reading[WAYS] = {1e18, 1e18}, checking[WAYS] = {1e18, 1e18};
    for (int round = 0; round < ROUNDS; round++)
        for (int k = 0; k < WAYS; k++) {
            double start = now();
            if (numbers[k](leaf, size, places, count) != sum)
                fail("the numbers are read otherwise the second time");
            double between = now();
            uint64_t second;
            if (check[k](leaf, size, COLUMNS, &second) != ACCEPTED)
                fail("the leaf is refused");
            double end = now();
            if (between - start < reading[k])
                reading[k] = between - start;
            if (end - between < checking[k])
                checking[k] = end - between;
        }

    printf("A leaf of %zu bytes with %zu stored numbers, %.1f %% of them of one byte.\n\n", size, count, 100.0 * one_byte / count);
    printf("| best of %d | short way µs | long way alone µs | short / long |\n|---|---|---|---|\n", ROUNDS);
    row("reading all its numbers", reading);
    row("the whole check", checking);
    return 0;
}
