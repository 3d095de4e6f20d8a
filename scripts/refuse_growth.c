/* The call of malloc or realloc whose number is GROWTH finds no memory, and leaves the file MARK. */
#include <errno.h>
#include <fcntl.h>
#include <stdlib.h>

void *__libc_malloc(size_t size);
void *__libc_realloc(void *old, size_t size);

static int is_refused(void) {
    static long calls;
    if (++calls != atol(getenv("GROWTH")))
        return 0;
    creat(getenv("MARK"), 0600);
    errno = ENOMEM;
    return 1;
}

void *malloc(size_t size) { return is_refused() ? NULL : __libc_malloc(size); }
void *realloc(void *old, size_t size) { return is_refused() ? NULL : __libc_realloc(old, size); }
