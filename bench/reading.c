/* Measures how long a query takes to be read: each has a closing parenthesis too much at its end, so that it is read whole and
 * then refused, and no search is done. Libraries are measured in one run, interleaved; the best of each counts.
 *
 *     reading [--other-1.4] LIBRARY [OTHER]    shared libraries with fts4_search; --other-1.4: OTHER is of version 1.4
 */
#include "builds.h"
#include "fts4box.h"

#include <stdio.h>
#include <stdlib.h>
#include <string.h>
#include <time.h>

enum { ROUNDS = 2000, CALLS = 20, LIBRARIES = 2, QUERIES = 8, ROOM = 1 };

static const uint8_t NAMES[] = "nodesentoutcome";
static const uint32_t NAME_ENDS[] = {4, 8, 15};
static const uint32_t NO_NUMBERS[1];

struct query {
    const char *what;
    char text[FTS4_MAX_QUERY + 1];
};

static void fail(const char *what)
{
    fprintf(stderr, "reading: %s\n", what);
    exit(2);
}

static search_call *load(const char *path, int is_1_4)
{
    void *library = dlopen(path, RTLD_NOW | RTLD_LOCAL);
    if (!library)
        fail(dlerror());
    search_call *call = search_of(library, is_1_4);
    if (!call)
        fail("the library has no fts4_search");
    return call;
}

static double now(void)
{
    struct timespec t;
    clock_gettime(CLOCK_MONOTONIC, &t);
    return t.tv_sec * 1e6 + t.tv_nsec * 1e-3;
}

static uint32_t read_query(search_call *call, const char *text)
{
    int64_t room[ROOM];
    uint64_t second;
    return call(NAMES, sizeof NAMES - 1, NAME_ENDS, 3, NAMES, 0, NO_NUMBERS, 0, NO_NUMBERS, 0, NO_NUMBERS, 0, (const uint8_t *)text,
                strlen(text), room, ROOM, &second);
}

/* Appends a part, so often. */
static void add(struct query *q, const char *part, int times)
{
    for (int i = 0; i < times; i++) {
        if (strlen(q->text) + strlen(part) > FTS4_MAX_QUERY)
            fail("a query is too long");
        strcat(q->text, part);
    }
}

int main(int argc, char **argv)
{
    int is_1_4 = argc > 1 && !strcmp(argv[1], OF_1_4), libraries = argc - 1 - is_1_4;
    if (libraries < 1 + is_1_4 || libraries > LIBRARIES)
        fail("usage: reading [" OF_1_4 "] LIBRARY [OTHER]");
    search_call *calls[LIBRARIES];
    for (int k = 0; k < libraries; k++)
        calls[k] = load(argv[1 + is_1_4 + k], k > 0 && is_1_4);

    struct query queries[QUERIES] = {
        {"one word", ""},
        {"the verdict query", ""},
        {"16 words with a column, 512 bytes", ""},
        {"16 words side by side", ""},
        {"a NEAR chain of 16", ""},
        {"8 deep, 16 words", ""},
        {"16 words, each 8 deep", ""},
        {"a phrase of 16 words", ""},
    };
    add(&queries[0], "reply", 1);
    add(&queries[1], "outcome:reply NOT outcome:timeout", 1);
    add(&queries[2], "outcome:aaaaaaaaaaaaaaaaaaaaaaa ", 15);
    add(&queries[2], "outcome:aaaaaaaaaaaaaaaaaaaaaaa", 1);
    add(&queries[3], "a ", 16);
    add(&queries[4], "a NEAR/5 ", 15);
    add(&queries[4], "a", 1);
    add(&queries[5], "(a OR ", 8);
    add(&queries[5], "b AND ", 7);
    add(&queries[5], "c", 1);
    add(&queries[5], "))))))))", 1);
    add(&queries[6], "((((((((a)))))))) ", 16);
    add(&queries[7], "\"", 1);
    add(&queries[7], "reply ", 16);
    add(&queries[7], "\"", 1);

    printf("| query | bytes |");
    for (int k = 0; k < libraries; k++)
        printf(" %s µs |", k ? "the other" : "this");
    printf("%s\n|---|---|%s\n", libraries == 2 ? " this / the other |" : "", libraries == 2 ? "---|---|---|" : "---|");
    for (int i = 0; i < QUERIES; i++) {
        char *text = queries[i].text;
        for (int k = 0; k < libraries; k++)
            if (read_query(calls[k], text) != FTS4_ACCEPTED)
                fail("a query is refused");
        add(&queries[i], ")", 1);
        double best[LIBRARIES] = {1e18, 1e18};
        for (int k = 0; k < libraries; k++)
            if (read_query(calls[k], text) != FTS4_QUERY)
                fail("a query with a parenthesis too much is accepted");
        for (int round = 0; round < ROUNDS; round++)
            for (int k = 0; k < libraries; k++) {
                double start = now();
                for (int call = 0; call < CALLS; call++)
                    read_query(calls[k], text);
                double took = (now() - start) / CALLS;
                if (took < best[k])
                    best[k] = took;
            }
        printf("| %s | %zu |", queries[i].what, strlen(text));
        for (int k = 0; k < libraries; k++)
            printf(" %.2f |", best[k]);
        if (libraries == 2)
            printf(" %.2f |", best[0] / best[1]);
        printf("\n");
    }
    return 0;
}
