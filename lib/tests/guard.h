/* Memory of just so many bytes, after or before which is a page that cannot be read or written. */
#ifndef LABELS_GUARD_H
#define LABELS_GUARD_H

#include <stdlib.h>
#include <string.h>
#include <sys/mman.h>

enum { GUARD_PAGE = 65536, GUARD_MOST = 1 << 20 }; /* a multiple of each size that a page has */

/* Returns the first of GUARD_MOST bytes that are between two such pages. */
static inline char *guarded(void) {
    char *first = mmap(NULL, GUARD_MOST + 2 * GUARD_PAGE, PROT_NONE, MAP_PRIVATE | MAP_ANONYMOUS, -1, 0);
    if (first == MAP_FAILED || mprotect(first + GUARD_PAGE, GUARD_MOST, PROT_READ | PROT_WRITE) != 0)
        abort();
    return first + GUARD_PAGE;
}

/* Returns as many of these bytes as there are wanted, the last or the first, each of one value. */
static inline void *guard_at(char *first, size_t size, int is_last, int value) {
    if (size > GUARD_MOST)
        abort();
    return memset(is_last ? first + GUARD_MOST - size : first, value, size);
}

#endif
