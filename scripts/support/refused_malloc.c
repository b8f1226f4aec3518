// Is linked with the library by --wrap=malloc and --wrap=realloc: on request it refuses allocations
// of the library, and no others of the process.
#include <stdatomic.h>
#include <stddef.h>

extern void *__real_malloc(size_t);
extern void *__real_realloc(void *, size_t);

static atomic_long next, refused;

// The allocations with the numbers `first` to `first + count - 1` are refused, counted from 1 after
// this call. A count of 0 refuses none.
void refuse_allocations(long first, long count) {
    atomic_store(&next, 1 - first);
    atomic_store(&refused, count);
}

static int is_refused(void) {
    long number = atomic_fetch_add(&next, 1);
    return number >= 0 && number < atomic_load(&refused);
}

void *__wrap_malloc(size_t size) {
    return is_refused() ? NULL : __real_malloc(size);
}

void *__wrap_realloc(void *block, size_t size) {
    return is_refused() ? NULL : __real_realloc(block, size);
}
