#ifndef CHECKER_H
#define CHECKER_H

#include <stddef.h>
#include <stdint.h>

/* Whether the bytes are a leaf of a table with so many columns. */
typedef int plain_check(const uint8_t *s, size_t n, uint32_t columns);

/* checker.c, as each compiler at hand makes it. */
plain_check plain_check_gcc, plain_check_clang;

#endif
