/* Searches one leaf for the rows that have the word reply, and prints their docids.
 *
 *     cc -I include -o search examples/search.c target/staticlib/libfts4box.a
 */
#include "fts4box.h"

#include <inttypes.h>
#include <stdio.h>

enum { ROOM = 16 };

int main(void)
{
    /* the leaf of one row: docid 7, node "n12", sent "probe", outcome "reply reply" */
    static const uint8_t leaf[] = {
        0, 3, 'n', '1', '2', 3, 7, 2, 0,
        0, 5, 'p', 'r', 'o', 'b', 'e', 5, 7, 1, 1, 2, 0,
        0, 5, 'r', 'e', 'p', 'l', 'y', 6, 7, 1, 2, 2, 3, 0,
    };
    static const uint32_t leaf_ends[] = {sizeof leaf};
    /* a leaf's age; with one leaf it says nothing */
    static const uint32_t levels[] = {0}, indexes[] = {0};
    /* three names in one slice, and where each ends */
    static const uint8_t names[] = "nodesentoutcome";
    static const uint32_t name_ends[] = {4, 8, 15};
    static const uint8_t query[] = "reply";
    int64_t room[ROOM];
    uint64_t second;

    uint32_t answer = fts4_search(names, sizeof names - 1, name_ends, 3, leaf, sizeof leaf, leaf_ends, 1, levels, 1, indexes, 1,
                                  query, sizeof query - 1, room, ROOM, &second);
    if (answer != FTS4_ACCEPTED) {
        printf("refused %" PRIu32 " %" PRIu64 "\n", answer, second);
        return 1;
    }
    printf("docs %" PRIu64 "\n", second);
    for (uint64_t i = 0; i < second; i++)
        printf("%" PRId64 "\n", room[i]);
    return 0;
}
