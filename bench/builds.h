/* Two builds of the library in one run: this one, and another that may be of version 1.4, whose search takes no levels and indexes
 * but the leaves newest first. */
#ifndef BUILDS_H
#define BUILDS_H

#include <dlfcn.h>
#include <stddef.h>
#include <stdint.h>
#include <string.h>

#define OF_1_4 "--other-1.4"

typedef uint32_t search_call(const uint8_t *, size_t, const uint32_t *, size_t, const uint8_t *, size_t, const uint32_t *, size_t,
                             const uint32_t *, size_t, const uint32_t *, size_t, const uint8_t *, size_t, int64_t *, size_t, uint64_t *);
typedef uint32_t search_call_1_4(const uint8_t *, size_t, const uint32_t *, size_t, const uint8_t *, size_t, const uint32_t *, size_t,
                                 const uint8_t *, size_t, int64_t *, size_t, uint64_t *);

static search_call_1_4 *other_1_4;

/* The other build's search with the arguments of this one's. The leaves must come newest first. */
static uint32_t search_1_4(const uint8_t *names, size_t names_len, const uint32_t *name_ends, size_t name_ends_len, const uint8_t *leaves,
                           size_t leaves_len, const uint32_t *leaf_ends, size_t leaf_ends_len, const uint32_t *levels, size_t levels_len,
                           const uint32_t *indexes, size_t indexes_len, const uint8_t *query, size_t query_len, int64_t *room, size_t room_len,
                           uint64_t *second)
{
    (void)levels, (void)levels_len, (void)indexes, (void)indexes_len;
    return other_1_4(names, names_len, name_ends, name_ends_len, leaves, leaves_len, leaf_ends, leaf_ends_len, query, query_len, room, room_len, second);
}

/* The search of a build; none where it has no such call. */
static search_call *search_of(void *library, int is_1_4)
{
    void *symbol = dlsym(library, "fts4_search");
    search_call *call = NULL;
    if (symbol && is_1_4) {
        memcpy(&other_1_4, &symbol, sizeof symbol);
        call = search_1_4;
    } else if (symbol) {
        memcpy(&call, &symbol, sizeof symbol);
    }
    return call;
}

#endif
