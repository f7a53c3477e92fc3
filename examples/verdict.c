/* Makes the verdict sheet of a run of four rows: how many passed, failed and were silent, with their docids, and how many are none of these.
 *
 *     cc -I include -o verdict examples/verdict.c target/staticlib/libfts4box.a
 */
#include "fts4box.h"

#include <inttypes.h>
#include <stdio.h>

enum { FIRST = 7, LAST = 10, ROOM = 16 };

/* A room holds its list whole, also rows outside the run; after the list come zeros. */
static void print_rows(const char *what, uint64_t count, const int64_t *room)
{
    printf("%s %" PRIu64 "\n", what, count);
    for (size_t i = 0; count > 0; i++)
        if (room[i] >= FIRST && room[i] <= LAST) {
            printf("%" PRId64 "\n", room[i]);
            count--;
        }
}

int main(void)
{
    /* the leaf of four rows: docid 6 with outcome "reply", 7 "reply", 8 "reply late", 9 "no reply, timeout"; no leaf has docid 10 */
    static const uint8_t leaf[] = {
        0, 4, 'l', 'a', 't', 'e', 5, 8, 1, 2, 3, 0,
        0, 2, 'n', 'o', 5, 9, 1, 2, 2, 0,
        0, 5, 'r', 'e', 'p', 'l', 'y', 20, 6, 1, 2, 2, 0, 1, 1, 2, 2, 0, 1, 1, 2, 2, 0, 1, 1, 2, 3, 0,
        0, 7, 't', 'i', 'm', 'e', 'o', 'u', 't', 5, 9, 1, 2, 4, 0,
    };
    static const uint32_t leaf_ends[] = {sizeof leaf};
    /* a leaf's age; with one leaf it says nothing */
    static const uint32_t levels[] = {0}, indexes[] = {0};
    /* three names in one slice, and where each ends */
    static const uint8_t names[] = "nodesentoutcome";
    static const uint32_t name_ends[] = {4, 8, 15};
    /* no row may satisfy two of these */
    static const uint8_t pass[] = "outcome:reply NOT outcome:late NOT outcome:timeout", fail[] = "outcome:late", silent[] = "outcome:timeout";
    int64_t pass_room[ROOM], fail_room[ROOM], silent_room[ROOM], second;
    uint64_t passed, failed, silenced, none;

    uint32_t answer = fts4_verdict(FIRST, LAST, names, sizeof names - 1, name_ends, 3, leaf, sizeof leaf, leaf_ends, 1, levels, 1, indexes, 1,
                                   pass, sizeof pass - 1, fail, sizeof fail - 1, silent, sizeof silent - 1,
                                   pass_room, ROOM, fail_room, ROOM, silent_room, ROOM, &second, &passed, &failed, &silenced, &none);
    if (answer != FTS4_ACCEPTED) {
        printf("refused %" PRIu32 " %" PRId64 "\n", answer, second);
        return 1;
    }
    printf("rows %" PRId64 "\n", second);
    print_rows("passed", passed, pass_room);
    print_rows("failed", failed, fail_room);
    print_rows("silent", silenced, silent_room);
    printf("none %" PRIu64 "\n", none);
    return 0;
}
