/* The loop of a NameNode: events come in, a round is made at each tick of a clock, and its commands
 * go out. The cluster is simulated in this process: examples/stories/README.md, "A whole loop". The
 * argument is the time between two ticks in milliseconds, 20 if it is left out. */
#include "puljemrod.h"

#include <inttypes.h>
#include <stdio.h>
#include <stdlib.h>
#include <sys/random.h>
#include <time.h>

enum { NODES = 4, BLOCKS = 5, TICKS = 12, SILENT_TICKS = 2, TICKS_OF_REPORTS = 3 };
enum { CAPACITY = 100, GENERATION = 1, LENGTH = 10, WANTED = 3, MOST = 64 };

/* A simulated DataNode with one disk, and at which tick the NameNode heard of it. */
typedef struct {
    uint32_t node, rack, disk;
    bool holds[BLOCKS + 1], is_known;
    int seen;
} data_node;

static data_node nodes[NODES] = {
    {1, 1, 11, {[1] = true, [2] = true, [3] = true}, false, 0},
    {2, 1, 21, {[1] = true, [2] = true, [4] = true}, false, 0},
    {3, 2, 31, {[1] = true, [3] = true, [4] = true}, false, 0},
    {4, 2, 41, {[2] = true, [3] = true, [4] = true}, false, 0},
};

typedef enum { REGISTER, HEARTBEAT, REPORT, RECEIVED, DELETED } kind;

typedef struct {
    kind kind;
    data_node *from;
    uint64_t block;
} event;

/* What the DataNodes have sent and the NameNode has not yet taken. */
static event sent[MOST];
static size_t sent_count;

static void send(kind kind, data_node *from, uint64_t block) {
    if (sent_count == MOST) abort();
    sent[sent_count++] = (event){kind, from, block};
}

static void send_registration(data_node *it) {
    send(REGISTER, it, 0);
    send(HEARTBEAT, it, 0);
    send(REPORT, it, 0);
}

/* Node 4 is away from tick 2 to tick 6, and node 2 restarts at tick 8. */
static void tick_of_nodes(int tick) {
    if (tick == 8) send_registration(&nodes[1]);
    for (data_node *it = nodes; it < nodes + NODES; it++) {
        if (it->node == 4 && tick >= 2 && tick <= 6) continue;
        send(HEARTBEAT, it, 0);
        if (tick % TICKS_OF_REPORTS == 1) send(REPORT, it, 0);
    }
}

static uint32_t apply(puljemrod *manager, const event *it) {
    const data_node *from = it->from;
    puljemrod_entry entries[BLOCKS];
    size_t count = 0;
    for (uint64_t block = 1; block <= BLOCKS; block++)
        if (from->holds[block])
            entries[count++] = (puljemrod_entry){block, block, GENERATION, LENGTH};
    puljemrod_remaining free_bytes = {from->disk, CAPACITY - LENGTH * count};
    switch (it->kind) {
    case REGISTER: return puljemrod_register(manager, from->node, from->rack, &from->disk, 1);
    case HEARTBEAT: return puljemrod_heartbeat(manager, from->node, &free_bytes, 1);
    case RECEIVED: return puljemrod_received(manager, from->disk, it->block, GENERATION, LENGTH);
    case DELETED: return puljemrod_deleted(manager, from->disk, it->block);
    default: return puljemrod_full_report(manager, from->disk, entries, count);
    }
}

/* Nothing else may be refused. */
static void must(uint32_t code) {
    if (code == PULJEMROD_OK) return;
    fprintf(stderr, "name_node: a call ended with code %u\n", (unsigned)code);
    exit(1);
}

/* Takes an event. One of an unknown node is refused, and it has to register. */
static void take(puljemrod *manager, int tick, const event *it) {
    data_node *from = it->from;
    uint32_t code = apply(manager, it);
    if (code == PULJEMROD_UNKNOWN_NODE && it->kind == HEARTBEAT) {
        send_registration(from);
    } else if (code == PULJEMROD_NODE_KNOWN && it->kind == REGISTER) {
        printf("node %" PRIu32 " restarts\n", from->node);
    } else if (code != PULJEMROD_UNKNOWN_STORAGE) {
        must(code);
        if (!from->is_known) printf("node %" PRIu32 " registers\n", from->node);
        from->is_known = true;
        from->seen = tick;
    }
}

/* Nodes that have been silent for too long are dead. */
static void bury(puljemrod *manager, int tick) {
    for (data_node *it = nodes; it < nodes + NODES; it++)
        if (it->is_known && tick - it->seen >= SILENT_TICKS) {
            must(puljemrod_dead(manager, it->node));
            it->is_known = false;
            printf("node %" PRIu32 " is dead\n", it->node);
        }
}

/* A node makes the copy, and the one with the target sends the notice. */
static void copy(const puljemrod_copy *it) {
    data_node *to = &nodes[it->target / 10 - 1];
    printf("  node %" PRIu32 " copies block %" PRIu64, it->node, it->block);
    printf(" from storage %" PRIu32 " to storage %" PRIu32 "\n", it->source, it->target);
    to->holds[it->block] = true;
    send(RECEIVED, to, it->block);
}

/* One command gets lost. */
static void erase(int tick, const puljemrod_delete *it) {
    data_node *from = &nodes[it->node - 1];
    bool is_lost = tick == 7 && it->block == 3;
    printf("  node %" PRIu32 " deletes block %" PRIu64, it->node, it->block);
    printf(" from storage %" PRIu32 "%s\n", it->storage, is_lost ? ": lost" : "");
    if (is_lost) return;
    from->holds[it->block] = false;
    send(DELETED, from, it->block);
}

/* Makes a round, once the first reports have shown every block, and hands out its commands. */
static void make_round(puljemrod *manager, int tick) {
    static bool in_safe_mode = true;
    static puljemrod_copy copies[MOST];
    static puljemrod_delete deletes[MOST];
    uint64_t missing, excess, round, copy_count, delete_count;
    must(puljemrod_missing_blocks(manager, &missing));
    in_safe_mode = in_safe_mode && missing > 0;
    if (in_safe_mode) return;
    must(puljemrod_round(manager, &round, &copy_count, &delete_count));
    if (copy_count > MOST || delete_count > MOST) abort();
    puljemrod_copies(manager, 0, copies, MOST);
    puljemrod_deletes(manager, 0, deletes, MOST);
    must(puljemrod_excess_replicas(manager, &excess));
    printf("round %" PRIu64 ": %" PRIu64 " missing, ", round, missing);
    printf("%" PRIu64 " in excess\n", excess);
    for (uint64_t at = 0; at < copy_count; at++) copy(&copies[at]);
    for (uint64_t at = 0; at < delete_count; at++) erase(tick, &deletes[at]);
}

static void print_places(puljemrod *manager, uint64_t block) {
    uint64_t places[NODES], count;
    must(puljemrod_places(manager, block, &count));
    count = puljemrod_number_rows(manager, 0, places, NODES);
    printf("block %" PRIu64 ": storages", block);
    for (uint64_t at = 0; at < count; at++) printf(" %" PRIu64, places[at]);
    printf("\n");
}

int main(int count, char **words) {
    const long interval = (count > 1 ? atol(words[1]) : 20) * 1000000;
    puljemrod manager = PULJEMROD_CLOSED_HANDLE;
    puljemrod_options options = PULJEMROD_STANDARD;
    struct timespec next;
    if (getrandom(&options.secret, sizeof options.secret, 0) != sizeof options.secret) return 1;
    must(puljemrod_open(&manager, &options));
    /* All blocks are added before anything is reported. Block 5 is written at tick 5. */
    for (uint64_t block = 1; block < BLOCKS; block++)
        must(puljemrod_add_block(&manager, block, GENERATION, LENGTH, WANTED));
    clock_gettime(CLOCK_MONOTONIC, &next);
    for (int tick = 1; tick <= TICKS; tick++) {
        next.tv_nsec += interval;
        next.tv_sec += next.tv_nsec / 1000000000;
        next.tv_nsec %= 1000000000;
        clock_nanosleep(CLOCK_MONOTONIC, TIMER_ABSTIME, &next, NULL);
        if (tick == 5) {
            must(puljemrod_add_block(&manager, BLOCKS, GENERATION, LENGTH, WANTED));
            nodes[0].holds[BLOCKS] = true;
            send(RECEIVED, &nodes[0], BLOCKS);
        }
        tick_of_nodes(tick);
        for (size_t at = 0; at < sent_count; at++) take(&manager, tick, &sent[at]);
        sent_count = 0;
        bury(&manager, tick);
        make_round(&manager, tick);
    }
    for (uint64_t block = 1; block <= BLOCKS; block++) print_places(&manager, block);
    return puljemrod_close(&manager) == PULJEMROD_OK ? 0 : 1;
}
