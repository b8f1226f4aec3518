/* The allocator of a library whose calls of malloc and realloc are renamed to these. It refuses an
 * allocation, then the second after that, then the third, and from MOST on the first again. So a
 * call that is made again and again is answered in the end. */
#include <stdbool.h>
#include <stdlib.h>

enum { MOST = 1000 };

static unsigned given, between;

static bool is_refused(void) {
    if (given < between) {
        given++;
        return false;
    }
    given = 0;
    between = (between + 1) % MOST;
    return true;
}

void *refusing_malloc(size_t size) {
    return is_refused() ? NULL : malloc(size);
}

void *refusing_realloc(void *block, size_t size) {
    return is_refused() ? NULL : realloc(block, size);
}
