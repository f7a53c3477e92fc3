/* A plain C checker of the rules of a leaf, for comparison: the same rules, one pass, no proof. Each compiler makes one, so
 * the build gives its name: -DPLAIN_CHECK=plain_check_gcc. */
#include "checker.h"

#include <string.h>

enum { MAX_WORD = 64, MAX_NUMBER_BYTES = 10 };

static const uint64_t POSITION_LIMIT = UINT64_C(1) << 31;
/* docids are ordered by their keys: the docid plus 2^63, modulo 2^64 */
static const uint64_t KEY_OF_0 = UINT64_C(1) << 63;

/* Reads the number at *at; 0 where there is none in its shortest form. Ten bytes, the last 1, are for docids alone: each other
 * number has a limit of its own, far below 2^63. */
static int number(const uint8_t *s, size_t n, size_t *at, uint64_t *value)
{
    uint64_t v = 0;
    size_t i = *at;
    /* most numbers have one byte; the box reads these at once too */
    if (i < n && s[i] < 128) {
        *value = s[i];
        *at = i + 1;
        return 1;
    }
    for (int k = 0; k < MAX_NUMBER_BYTES; k++, i++) {
        if (i >= n)
            return 0;
        v |= (uint64_t)(s[i] & 127) << (7 * k);
        if (s[i] < 128) {
            if (s[i] == 0 || (k == MAX_NUMBER_BYTES - 1 && s[i] > 1))
                return 0;
            *value = v;
            *at = i + 1;
            return 1;
        }
    }
    return 0;
}

static int columns_of_entry(const uint8_t *s, size_t n, size_t *at, uint64_t columns)
{
    uint64_t column = 0, position = 0, v;
    int some = 0;
    for (;;) {
        if (!number(s, n, at, &v))
            return 0;
        if (v >= 2) {
            if ((some && v < 3) || v - 2 >= POSITION_LIMIT - position)
                return 0;
            position += v - 2;
            some = 1;
            continue;
        }
        if (!some && column > 0)
            return 0;
        if (v == 0)
            return 1;
        if (!number(s, n, at, &v) || v <= column || v >= columns)
            return 0;
        column = v;
        position = 0;
        some = 0;
    }
}

static int doclist(const uint8_t *s, size_t n, uint64_t columns)
{
    size_t at = 0;
    uint64_t key, v;
    if (!number(s, n, &at, &v))
        return 0;
    key = KEY_OF_0 + v;
    for (;;) {
        if (!columns_of_entry(s, n, &at, columns))
            return 0;
        if (at == n)
            return 1;
        if (!number(s, n, &at, &v) || v == 0 || v > UINT64_MAX - key)
            return 0;
        key += v;
    }
}

int PLAIN_CHECK(const uint8_t *s, size_t n, uint32_t columns)
{
    uint8_t word[MAX_WORD];
    size_t at = 0, len = 0;
    uint64_t prefix, size, bytes, height;
    int words = 0;
    if (!number(s, n, &at, &height) || height != 0)
        return 0;
    while (at < n) {
        prefix = 0;
        if (words > 0 && !number(s, n, &at, &prefix))
            return 0;
        if (!number(s, n, &at, &size) || size == 0 || size > MAX_WORD || prefix > MAX_WORD - size || size > n - at)
            return 0;
        if (prefix < len ? word[prefix] >= s[at] : prefix != len)
            return 0;
        memcpy(word + prefix, s + at, size);
        len = prefix + size;
        at += size;
        if (!number(s, n, &at, &bytes) || bytes > n - at || !doclist(s + at, bytes, columns))
            return 0;
        at += bytes;
        words++;
    }
    return words > 0;
}
