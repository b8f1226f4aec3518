/* Versions of a manager, for readers on other threads: where each block was after a number of
 * accepted calls.
 *
 *     puljemrod_reader readers[4];
 *     puljemrod_view view;
 *     puljemrod_view_open(&view, readers, 4);
 *
 *     uint64_t calls;                                    on the thread that changes the manager
 *     puljemrod_view_publish(&view, &manager, &calls);
 *
 *     uint32_t storages[16];                             on a thread of its own for each reader
 *     size_t count = puljemrod_view_locate(&readers[0], 7, storages, 16, &calls);
 *
 *     puljemrod_view_close(&view);                       once no reader is in a call
 *
 * Who may call what. A view is in one call at a time, and the manager that it publishes too: so
 * one thread publishes, or several with a lock. A view serves one manager. A reader is in one call
 * at a time. Readers of one view may be in calls at the same time, also while the view publishes.
 * Both may pass from thread to thread: a lock, a thread's start or its join orders their calls.
 * They are never copied or moved, and the readers outlive the view.
 *
 * What waits. Nothing: no call has a lock or a loop until another thread is done. A reader takes
 * and frees no memory.
 *
 * What is answered. Each answer is of one published version: the newest one when the call began, or
 * a later one. So no answer of a reader is older than one before. The `calls` that a publish writes
 * are its receipt. Let a reader's call begin after the publish has returned, ordered behind it as
 * above: it answers with that number of calls or more.
 *
 * What memory is taken. A version has 16 bytes for each replica, of any tag. A reader keeps at most
 * two: the one that it answers from, and the newest, if it has not asked since. A publish frees
 * versions that no reader keeps. While it runs, the manager has the list of replicas too, until its
 * next call that is answered.
 *
 * The answers from one version are proved (puljemrod_locate). The functions below, which pass
 * versions to threads, are tested. They need the atomic functions of gcc and clang. */
#ifndef PULJEMROD_VIEW_H
#define PULJEMROD_VIEW_H

#include "puljemrod.h"

#include <stdlib.h>

/* A version. The view makes and frees it. */
typedef struct puljemrod_published {
    struct puljemrod_published *before; /* the version published before it */
    size_t keepers;                     /* the readers that keep it; changed in atomic steps */
    uint64_t calls;
    size_t row_count;
    puljemrod_replica *rows;
} puljemrod_published;

typedef struct puljemrod_reader {
    puljemrod_published *next;    /* the newest, if it is not taken; changed in atomic steps */
    puljemrod_published *current; /* the one that was taken last, if any */
} puljemrod_reader;

typedef struct puljemrod_view {
    puljemrod_reader *readers;
    size_t reader_count;
    puljemrod_published *newest;
} puljemrod_view;

/* Opens a view with these readers, which have no version: until the first publish they answer that
 * no block is known, after 0 calls. */
static inline void puljemrod_view_open(puljemrod_view *view, puljemrod_reader *readers,
                                       size_t reader_count) {
    for (size_t at = 0; at < reader_count; at++) {
        readers[at].next = NULL;
        readers[at].current = NULL;
    }
    view->readers = readers;
    view->reader_count = reader_count;
    view->newest = NULL;
}

/* One reader less keeps the version. The last step of a reader on it. */
static inline void puljemrod_view_leave(puljemrod_published *version) {
    if (version) __atomic_fetch_sub(&version->keepers, 1, __ATOMIC_SEQ_CST);
}

/* Frees the versions that no reader keeps. */
static inline void puljemrod_view_sweep(puljemrod_view *view) {
    for (puljemrod_published **at = &view->newest; *at;) {
        puljemrod_published *version = *at;
        if (__atomic_load_n(&version->keepers, __ATOMIC_SEQ_CST)) {
            at = &version->before;
        } else {
            *at = version->before;
            free(version);
        }
    }
}

/* Publishes where all blocks are now, and writes the number of accepted calls. It asks the manager,
 * whose last answer is then the list of all replicas. PULJEMROD_MEMORY and PULJEMROD_CLOSED publish
 * nothing; `*calls` is as it was. */
static inline uint32_t puljemrod_view_publish(puljemrod_view *view, puljemrod *manager,
                                              uint64_t *calls) {
    uint64_t now, count;
    puljemrod_view_sweep(view);
    uint32_t code = puljemrod_calls(manager, &now);
    if (code == PULJEMROD_OK) code = puljemrod_replicas(manager, &count);
    if (code != PULJEMROD_OK) return code;
    size_t size = sizeof(puljemrod_published) + (size_t)count * sizeof(puljemrod_replica);
    puljemrod_published *version = (puljemrod_published *)malloc(size);
    if (!version) return PULJEMROD_MEMORY;
    version->before = view->newest;
    version->keepers = view->reader_count;
    version->calls = now;
    version->rows = (puljemrod_replica *)(version + 1);
    version->row_count = puljemrod_replica_rows(manager, 0, version->rows, (size_t)count);
    view->newest = version;
    for (size_t at = 0; at < view->reader_count; at++)
        puljemrod_view_leave(
            __atomic_exchange_n(&view->readers[at].next, version, __ATOMIC_SEQ_CST));
    *calls = now;
    return PULJEMROD_OK;
}

/* Copies the storages of a block's good replicas, as puljemrod_locate does, and writes after how
 * many accepted calls they were these. */
static inline size_t puljemrod_view_locate(puljemrod_reader *reader, uint64_t id, uint32_t *out,
                                           size_t out_len, uint64_t *calls) {
    if (__atomic_load_n(&reader->next, __ATOMIC_SEQ_CST)) {
        puljemrod_view_leave(reader->current);
        reader->current = __atomic_exchange_n(&reader->next, NULL, __ATOMIC_SEQ_CST);
    }
    *calls = 0;
    if (!reader->current) return 0;
    *calls = reader->current->calls;
    return puljemrod_locate(reader->current->rows, reader->current->row_count, id, out, out_len);
}

/* Closes a view: returns its memory. Its readers answer as before the first publish. */
static inline void puljemrod_view_close(puljemrod_view *view) {
    for (size_t at = 0; at < view->reader_count; at++) {
        puljemrod_view_leave(view->readers[at].next);
        puljemrod_view_leave(view->readers[at].current);
        view->readers[at].next = NULL;
        view->readers[at].current = NULL;
    }
    puljemrod_view_sweep(view);
}

#endif
