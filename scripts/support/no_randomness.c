// Put in front of the C library: the system gives no random bytes, so the tables of the tool hash
// without a secret.
#include <errno.h>
#include <stddef.h>

int getentropy(void *bytes, size_t count) {
    (void)bytes, (void)count;
    errno = ENOSYS;
    return -1;
}
