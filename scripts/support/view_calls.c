/* Readers on threads of their own, while another thread changes the manager and publishes by
 * puljemrod_view.h. The storages of each block after each call were worked out by hand:
 * `is_there`. Writes what failed, and then how many checks passed. */
#include "puljemrod_view.h"

#include <pthread.h>
#include <sched.h>
#include <stdio.h>

enum { NODES = 4, BLOCKS = 50, READERS = 3, MOST = 8, BEFORE = NODES + BLOCKS };
enum { LAST = BEFORE + NODES * BLOCKS };

static unsigned passed, failed;

static void check(bool is_so, const char *what) {
    if (is_so) {
        passed++;
    } else {
        failed++;
        printf("failed: %s\n", what);
    }
}

/* Whether replica `at` of a block has come by this call: block after block, on storages 11, 21, 31
 * and 41, once all nodes and blocks are known. */
static bool is_there(uint64_t calls, uint64_t id, unsigned at) {
    return calls > BEFORE + NODES * id + at;
}

static uint32_t change(puljemrod *manager, unsigned call) {
    uint32_t storage = 10 * call + 1;
    unsigned replica = call - BEFORE - 1;
    if (call <= NODES) return puljemrod_register(manager, call, 1, &storage, 1);
    if (call <= BEFORE) return puljemrod_add_block(manager, call - NODES - 1, 1, 64, NODES);
    return puljemrod_received(manager, 10 * (replica % NODES + 1) + 1, replica / NODES, 1, 64);
}

static bool is_version(uint64_t calls, uint64_t id, const uint32_t *storages, size_t count) {
    size_t found = 0;
    for (unsigned at = 0; at < NODES; at++)
        if (is_there(calls, id, at) && (found == count || storages[found++] != 10 * (at + 1) + 1)) return false;
    return found == count;
}

/* A reader, the newest receipt that it has, how many answers were wrong or old, and how often a
 * later version came. */
typedef struct {
    puljemrod_reader *reader;
    _Atomic uint64_t receipt;
    unsigned wrong, old, early, later;
} watch;

static void *asks(void *given) {
    watch *it = given;
    uint64_t seen = 0, calls = 0;
    uint32_t storages[MOST];
    for (uint64_t at = 0; calls < LAST; at++) {
        uint64_t receipt = it->receipt;
        size_t count = puljemrod_view_locate(it->reader, at % BLOCKS, storages, MOST, &calls);
        it->wrong += !is_version(calls, at % BLOCKS, storages, count);
        it->old += calls < seen;
        it->early += calls < receipt;
        it->later += calls > seen;
        seen = calls;
        sched_yield();
    }
    return NULL;
}

static size_t versions_of(const puljemrod_view *view) {
    size_t count = 0;
    for (puljemrod_published *at = view->newest; at; at = at->before) count++;
    return count;
}

static void readers_on_threads(void) {
    puljemrod manager = PULJEMROD_CLOSED_HANDLE;
    puljemrod_options options = PULJEMROD_STANDARD;
    puljemrod_reader readers[READERS];
    puljemrod_view view;
    watch watches[READERS] = {{.reader = NULL}};
    pthread_t threads[READERS];
    size_t most = 0;
    bool are_published = true;
    puljemrod_open(&manager, &options);
    puljemrod_view_open(&view, readers, READERS);
    for (unsigned at = 0; at < READERS; at++) {
        watches[at].reader = &readers[at];
        pthread_create(&threads[at], NULL, asks, &watches[at]);
    }
    for (unsigned call = 1; call <= LAST; call++) {
        uint64_t calls = 0;
        are_published = change(&manager, call) == PULJEMROD_OK && are_published;
        are_published = puljemrod_view_publish(&view, &manager, &calls) == PULJEMROD_OK && calls == call && are_published;
        most = versions_of(&view) > most ? versions_of(&view) : most;
        for (unsigned at = 0; at < READERS; at++) watches[at].receipt = calls;
    }
    check(are_published, "each version is published after its call");
    /* When a publish begins it leaves one of each reader, and the newest. It makes one more. */
    check(most <= READERS + 2, "versions that no reader keeps are freed");
    for (unsigned at = 0; at < READERS; at++) {
        pthread_join(threads[at], NULL);
        check(!watches[at].wrong, "each answer is of one version");
        check(!watches[at].old, "no answer is older than one before");
        check(!watches[at].early, "no answer is older than a receipt");
        check(watches[at].later > 1, "a reader sees later versions");
    }
    puljemrod_view_close(&view);
    check(versions_of(&view) == 0, "a closed view has no version");
    puljemrod_close(&manager);
}

/* A reader that asks for nothing keeps one version, and one that asked keeps two. */
static void idle_readers(void) {
    puljemrod manager = PULJEMROD_CLOSED_HANDLE;
    puljemrod_options options = PULJEMROD_STANDARD;
    puljemrod_reader readers[2];
    puljemrod_view view;
    uint64_t calls = 99;
    uint32_t storage = 99;
    puljemrod_view_open(&view, readers, 2);
    check(puljemrod_view_publish(&view, &manager, &calls) == PULJEMROD_CLOSED && calls == 99, "a closed manager");
    check(puljemrod_view_locate(&readers[0], 0, &storage, 1, &calls) == 0 && calls == 0, "no version yet");
    puljemrod_open(&manager, &options);
    for (unsigned call = 1; call <= BEFORE + 2; call++) {
        change(&manager, call);
        puljemrod_view_publish(&view, &manager, &calls);
        if (call == BEFORE + 1)
            check(puljemrod_view_locate(&readers[0], 0, &storage, 1, &calls) == 1 && storage == 11, "one storage");
    }
    check(versions_of(&view) == 2, "the newest version, and the one of a reader");
    check(puljemrod_view_locate(&readers[1], 0, &storage, 0, &calls) == 0 && calls == BEFORE + 2, "no space");
    puljemrod_view_close(&view);
    check(puljemrod_view_locate(&readers[1], 0, &storage, 1, &calls) == 0 && calls == 0, "a closed view");
    puljemrod_close(&manager);
}

int main(void) {
    idle_readers();
    readers_on_threads();
    printf("%u passed, %u failed\n", passed, failed);
    return failed != 0;
}
