/* Merges two leaves of an index into one, and prints its level, its index and its bytes.
 *
 *     cc -I include -o merge examples/merge.c target/staticlib/libfts4box.a
 */
#include "fts4box.h"

#include <inttypes.h>
#include <stdio.h>

int main(void)
{
    /* docid 7 had the outcome "reply reply"; now it has "late", and the newer leaf deletes its "reply" */
    static const uint8_t leaves[] = {
        0, 3, 'n', '1', '2', 3, 7, 2, 0,
        0, 5, 'p', 'r', 'o', 'b', 'e', 5, 7, 1, 1, 2, 0,
        0, 5, 'r', 'e', 'p', 'l', 'y', 6, 7, 1, 2, 2, 3, 0,

        0, 4, 'l', 'a', 't', 'e', 5, 7, 1, 2, 2, 0,
        0, 3, 'n', '1', '2', 3, 7, 2, 0,
        0, 5, 'p', 'r', 'o', 'b', 'e', 5, 7, 1, 1, 2, 0,
        0, 5, 'r', 'e', 'p', 'l', 'y', 2, 7, 0,
    };
    static const uint32_t leaf_ends[] = {36, sizeof leaves};
    /* on one level the higher index is the newer leaf */
    static const uint32_t levels[] = {0, 0}, indexes[] = {0, 1};
    static uint8_t room[FTS4_MERGE_ROOM];
    uint64_t second;
    uint32_t level, index;

    uint32_t answer = fts4_merge(3, leaves, sizeof leaves, leaf_ends, 2, levels, 2, indexes, 2, room, sizeof room, &second, &level, &index);
    if (answer != FTS4_ACCEPTED) {
        printf("refused %" PRIu32 " %" PRIu64 "\n", answer, second);
        return 1;
    }
    /* with 0 bytes nothing is left: the index then has no leaf */
    printf("bytes %" PRIu64 " level %" PRIu32 " index %" PRIu32 "\n", second, level, index);
    for (uint64_t i = 0; i < second; i++)
        printf("%02X%c", room[i], i + 1 < second ? ' ' : '\n');
    return 0;
}
