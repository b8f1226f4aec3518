/* Three threads ask where a block is, while the main thread changes the manager. Each ends once it
 * has an answer after the last call. */
#include "puljemrod_view.h"

#include <pthread.h>
#include <sched.h>
#include <stdio.h>

enum { READERS = 3, NODES = 3, CALLS = 1 + 2 * NODES, MOST = 16 };

typedef struct {
    puljemrod_reader *reader;
    uint32_t storages[MOST];
    size_t count;
    uint64_t calls;
} asked;

/* Nothing waits for the reader, and its calls wait for nothing. */
static void *ask(void *given) {
    asked *it = given;
    do {
        sched_yield();
        it->count = puljemrod_view_locate(it->reader, 7, it->storages, MOST, &it->calls);
    } while (it->calls < CALLS);
    return NULL;
}

/* The calls of the manager: block 7 is added, and comes to a storage of one node after another. */
static uint32_t change(puljemrod *manager, uint32_t call) {
    uint32_t node = call / 2, storage = 10 * node + 1;
    if (call == 1) return puljemrod_add_block(manager, 7, 1, 64, 3);
    return call % 2 ? puljemrod_received(manager, storage, 7, 1, 64)
                    : puljemrod_register(manager, node, 1, &storage, 1);
}

int main(void) {
    puljemrod manager = PULJEMROD_CLOSED_HANDLE;
    puljemrod_options options = PULJEMROD_STANDARD;
    puljemrod_reader readers[READERS];
    puljemrod_view view;
    pthread_t threads[READERS];
    asked answers[READERS];
    uint64_t calls;
    if (puljemrod_open(&manager, &options)) return 1;
    puljemrod_view_open(&view, readers, READERS);
    for (int at = 0; at < READERS; at++) {
        answers[at].reader = &readers[at];
        if (pthread_create(&threads[at], NULL, ask, &answers[at])) return 1;
    }
    for (uint32_t call = 1; call <= CALLS; call++)
        if (change(&manager, call) || puljemrod_view_publish(&view, &manager, &calls)) return 1;
    for (int at = 0; at < READERS; at++) {
        pthread_join(threads[at], NULL);
        printf("block 7 is on");
        for (size_t of = 0; of < answers[at].count; of++)
            printf(" %u", (unsigned)answers[at].storages[of]);
        printf(" after %llu calls\n", (unsigned long long)answers[at].calls);
    }
    puljemrod_view_close(&view);
    return (int)puljemrod_close(&manager);
}
