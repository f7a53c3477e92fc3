/* Measures the stack that each call takes: the call runs on a thread whose stack was filled with a pattern, and the deepest
 * byte that no longer has it tells. Each call gets several inputs, the worst ones too; its largest depth is printed. It fails if the
 * verdict sheet takes more than the search and 1 KiB.
 *
 *     stack [CALL BOUND]..    fails too if CALL takes more than BOUND bytes
 */
#include "fts4box.h"

#include <pthread.h>
#include <stdio.h>
#include <stdlib.h>
#include <string.h>
#include <sys/mman.h>

enum { STACK = 4 << 20, PATTERN = 0xA5, MAX_BYTES = 65536, MAX_LEAVES = 8, MAX_QUERY = 512, MAX_TEXTS = 4096, ROOM = 65536 };
/* The lists of a sheet, and what it may take beside a search. */
enum { LISTS = 3, SHEET_MORE = 1024 };

static uint8_t *stack;
static uint8_t leaves[MAX_BYTES], texts[MAX_TEXTS], bytes_room[ROOM];
static int64_t docid_room[ROOM], sheet_rooms[LISTS][ROOM];
static uint32_t leaf_ends[MAX_LEAVES], levels[MAX_LEAVES], indexes[MAX_LEAVES], text_ends[16];
static size_t leaves_len, leaf_count, texts_len, text_count;
static const char *query, *sheet[LISTS];
static const uint8_t names[] = "nodesentoutcome";
static const uint32_t name_ends[] = {4, 8, 15};
static uint64_t second, start, numbers_read, passed, failed, silenced, none;
static int64_t signed_second;
static uint32_t which, merged_level, merged_index;

static void nothing(void)
{
}

static void check(void)
{
    fts4_check(leaves, leaf_ends[0], 3, &second);
}

static void lookup(void)
{
    fts4_lookup(leaves, leaf_ends[0], 3, (const uint8_t *)"a", 1, &second, &start, &numbers_read);
}

static void deciding(void)
{
    size_t newer = leaf_ends[0], older = leaf_count > 1 ? leaf_ends[1] - newer : 0;
    fts4_deciding(leaves, newer, leaves + newer, older, 3, (const uint8_t *)"a", 1, 9, &second, &which, &start);
}

static void write_leaf(void)
{
    fts4_write(7, texts, texts_len, text_ends, text_count, bytes_room, sizeof bytes_room, &second);
}

static void merge(void)
{
    fts4_merge(3, leaves, leaves_len, leaf_ends, leaf_count, levels, leaf_count, indexes, leaf_count, bytes_room, sizeof bytes_room, &second, &merged_level,
               &merged_index);
}

static void merge_keeping(void)
{
    fts4_merge_keeping(3, leaves, leaves_len, leaf_ends, leaf_count, levels, leaf_count, indexes, leaf_count, bytes_room, sizeof bytes_room, &second,
                       &merged_level, &merged_index);
}

static void search(void)
{
    fts4_search(names, sizeof names - 1, name_ends, 3, leaves, leaves_len, leaf_ends, leaf_count, levels, leaf_count, indexes, leaf_count,
                (const uint8_t *)query, strlen(query), docid_room, ROOM, &second);
}

static void verdict(void)
{
    fts4_verdict(1, FTS4_MAX_RUN, names, sizeof names - 1, name_ends, 3, leaves, leaves_len, leaf_ends, leaf_count, levels, leaf_count, indexes, leaf_count,
                 (const uint8_t *)sheet[0], strlen(sheet[0]), (const uint8_t *)sheet[1], strlen(sheet[1]), (const uint8_t *)sheet[2], strlen(sheet[2]),
                 sheet_rooms[0], ROOM, sheet_rooms[1], ROOM, sheet_rooms[2], ROOM, &signed_second, &passed, &failed, &silenced, &none);
}

struct run {
    void (*call)(void);
    uint8_t *frame;
};

static void *on_thread(void *argument)
{
    struct run *run = argument;
    run->frame = __builtin_frame_address(0);
    run->call();
    return NULL;
}

/* How many bytes below its caller's frame a call touches. */
static size_t depth_of(void (*call)(void))
{
    struct run run = {call, NULL};
    pthread_attr_t attributes;
    pthread_t thread;
    memset(stack, PATTERN, STACK);
    if (pthread_attr_init(&attributes) || pthread_attr_setstack(&attributes, stack, STACK) ||
        pthread_create(&thread, &attributes, on_thread, &run) || pthread_join(thread, NULL)) {
        fprintf(stderr, "no thread\n");
        exit(2);
    }
    size_t at = 0;
    while (stack[at] == PATTERN)
        at++;
    return (size_t)(run.frame - (stack + at));
}

/* Adds a leaf with the word a and a list of so many bytes: one row with as many positions as fit, or rows with one each. */
static void add_leaf(size_t list, int rows)
{
    uint8_t *at = leaves + leaves_len;
    memcpy(at, "\x00\x01" "a", 3);
    at += 3;
    for (size_t rest = list; ; rest /= 128) {
        *at++ = (uint8_t)(rest % 128 + (rest >= 128 ? 128 : 0));
        if (rest < 128)
            break;
    }
    for (size_t i = 0; i < list; i++)
        at[i] = rows ? "\x01\x02"[i % 3] : i > 1 ? 3 : (uint8_t)(i + 1);
    at[list - 1] = 0;
    leaves_len = (size_t)(at + list - leaves);
    indexes[leaf_count] = (uint32_t)leaf_count; /* oldest first */
    leaf_ends[leaf_count++] = (uint32_t)leaves_len;
}

/* Leaves with so many bytes together, or a little less. */
static void use_leaves(size_t count, size_t total, int rows)
{
    leaves_len = leaf_count = 0;
    for (size_t i = 0; i < count; i++)
        add_leaf((total / count - 6) / 3 * 3, rows);
}

/* One column of the same text again and again. */
static void use_text(const char *text)
{
    size_t n = strlen(text);
    for (texts_len = 0; texts_len + n <= sizeof texts; texts_len += n)
        memcpy(texts + texts_len, text, n);
    text_ends[0] = (uint32_t)texts_len;
    text_count = 1;
}

/* 4,096 bytes of distinct words. */
static void use_words(void)
{
    for (texts_len = 0; texts_len + 3 <= sizeof texts; texts_len += 3) {
        unsigned n = (unsigned)(texts_len / 3);
        texts[texts_len] = (uint8_t)(255 - n / 64);
        texts[texts_len + 1] = (uint8_t)(255 - n % 64);
        texts[texts_len + 2] = ' ';
    }
    text_ends[0] = (uint32_t)texts_len;
    text_count = 1;
}

static const char *const QUERIES[] = {
    "",
    "a",
    "a*",
    "a a a a a a a a a a a a a a a a",
    "\"a a a a a a a a a a a a a a a a\"",
    "a* NEAR a* NEAR a* NEAR a* NEAR a* NEAR a* NEAR a* NEAR a* NEAR a* NEAR a* NEAR a* NEAR a* NEAR a* NEAR a* NEAR a* NEAR a*",
    "((((((((a))))))))",
    "(((((((((a)))))))))",
    "((((((((",
    "(a OR (a AND (a NOT (a NEAR a (a (a OR (a AND (a NOT b NOT c))))))))",
    "a OR b AND c NOT (a OR b AND c NOT (a OR b AND c NOT (a OR b AND c NOT (a NOT (a NOT (a NOT (a NOT (a))))))))",
};

static size_t larger(size_t most, void (*call)(void))
{
    size_t depth = depth_of(call);
    return depth > most ? depth : most;
}

static size_t search_depth(size_t most)
{
    for (size_t i = 0; i < sizeof QUERIES / sizeof *QUERIES; i++) {
        query = QUERIES[i];
        most = larger(most, search);
    }
    return most;
}

/* Each query as that of passes, of failures and of silence, the other two finding nothing; then rows in two lists. */
static size_t sheet_depth(size_t most)
{
    for (size_t i = 0; i < sizeof QUERIES / sizeof *QUERIES; i++)
        for (size_t place = 0; place < LISTS; place++) {
            for (size_t k = 0; k < LISTS; k++)
                sheet[k] = k == place ? QUERIES[i] : "absent";
            most = larger(most, verdict);
        }
    sheet[0] = sheet[2] = "a";
    return larger(most, verdict);
}

static size_t depth_over_queries(size_t most, void (*call)(void))
{
    return call == search ? search_depth(most) : call == verdict ? sheet_depth(most) : larger(most, call);
}

static size_t depth_over_leaves(void (*call)(void))
{
    size_t most = 0;
    for (size_t count = 1; count <= MAX_LEAVES; count *= 2)
        for (int rows = 0; rows < 2; rows++) {
            use_leaves(count, MAX_BYTES, rows);
            if (fts4_check(leaves, leaf_ends[0], 3, &second) != FTS4_ACCEPTED)
                exit(2);
            most = depth_over_queries(most, call);
        }
    leaves[leaf_ends[0] - 1] = 1; /* a broken leaf */
    return depth_over_queries(most, call);
}

static size_t write_depth(void)
{
    size_t most = 0;
    use_text("a ");
    most = larger(most, write_leaf);
    use_text("w");
    most = larger(most, write_leaf);
    use_text("b a ");
    most = larger(most, write_leaf);
    use_words();
    return larger(most, write_leaf);
}

int main(int argc, char **argv)
{
    stack = mmap(NULL, STACK, PROT_READ | PROT_WRITE, MAP_PRIVATE | MAP_ANONYMOUS, -1, 0);
    if (stack == MAP_FAILED)
        return 2;
    const struct {
        const char *name;
        size_t depth;
    } measured[] = {
        {"nothing", depth_of(nothing)},
        {"fts4_check", depth_over_leaves(check)},
        {"fts4_lookup", depth_over_leaves(lookup)},
        {"fts4_deciding", depth_over_leaves(deciding)},
        {"fts4_write", write_depth()},
        {"fts4_merge", depth_over_leaves(merge)},
        {"fts4_merge_keeping", depth_over_leaves(merge_keeping)},
        {"fts4_search", depth_over_leaves(search)},
        {"fts4_verdict", depth_over_leaves(verdict)},
    };
    enum { COUNT = sizeof measured / sizeof *measured };
    int over = 0;
    for (size_t i = 0; i < COUNT; i++) {
        printf("%-18s %7zu bytes\n", measured[i].name, measured[i].depth);
        for (int k = 1; k + 1 < argc; k += 2)
            if (!strcmp(argv[k], measured[i].name) && measured[i].depth > strtoul(argv[k + 1], NULL, 10)) {
                printf("%s takes more than %s bytes\n", argv[k], argv[k + 1]);
                over = 1;
            }
    }
    /* the last two are the search and the sheet */
    if (measured[COUNT - 1].depth > measured[COUNT - 2].depth + SHEET_MORE) {
        printf("a sheet takes more than a search and %d bytes\n", SHEET_MORE);
        over = 1;
    }
    return over;
}
