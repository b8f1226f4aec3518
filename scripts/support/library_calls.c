/* Calls each function of the library, with allocations refused too: it is linked with --wrap for
 * malloc, realloc and free. Writes what failed, and then how many checks passed. With a word it
 * repeats calls less often, for a run that watches the memory. */
#include "puljemrod_view.h"

#include <pthread.h>
#include <stdio.h>
#include <stdlib.h>
#include <string.h>

enum { LONGEST = 4194304, HEARTBEATS = 1000, DEEPEST = 126, STACK = 1 << 20 };

/* The second is what a run of the line tool reads at most; the library has no such limit. */
static unsigned opens = 1000, lines = 1048576;

/* The nodes of the largest cluster that is tried. */
static uint32_t most_nodes = 65536;

static unsigned passed, failed;

static void check(bool is_so, const char *what) {
    if (is_so) {
        passed++;
    } else {
        failed++;
        printf("failed: %s\n", what);
    }
}

/* ---- the allocator */

void *__real_malloc(size_t size);
void *__real_realloc(void *block, size_t size);
void __real_free(void *block);

/* Blocks that are not freed yet; how many more allocations are given, -1 for all; whether one was
 * refused. */
static _Atomic long blocks, left = -1;
static _Atomic bool was_refused;

static bool is_refused(void) {
    if (left == 0) was_refused = true;
    if (left <= 0) return left == 0;
    left--;
    return false;
}

void *__wrap_malloc(size_t size) {
    void *block = is_refused() ? NULL : __real_malloc(size);
    if (block) blocks++;
    return block;
}

void *__wrap_realloc(void *block, size_t size) {
    if (is_refused()) return NULL;
    void *moved = __real_realloc(block, size);
    if (moved && !block) blocks++;
    return moved;
}

void __wrap_free(void *block) {
    if (block) blocks--;
    __real_free(block);
}

/* ---- calls */

/* Each line with the code and the text of its answer. */
static const struct row {
    const char *line, *text;
    uint32_t code;
} rows[] = {
    {"{\"op\":\"register\",\"node\":1,\"rack\":1,\"storages\":[11,12]}", "ok 0 0", 0},
    {"{\"op\":\"register\",\"node\":2,\"rack\":2,\"storages\":[21]}", "ok 0 0", 0},
    {"{\"op\":\"register\",\"node\":2,\"rack\":2,\"storages\":[21]}", "refused 2 NodeKnown", 2},
    {"{\"op\":\"heartbeat\",\"node\":2,\"remaining\":[[21,1000]]}", "ok 0 0", 0},
    {"{\"op\":\"add\",\"id\":7,\"gen\":1,\"len\":64,\"repl\":2}", "ok 0 0", 0},
    {"{\"op\":\"received\",\"storage\":11,\"id\":7,\"gen\":1,\"len\":64}", "ok 1 0", 0},
    {"{\"op\":\"level\",\"id\":7}", "level 7; 0", 0},
    {"{\"op\":\"level\",\"id\":8}", "refused 5 UnknownBlock", 5},
    {"{\"op\":\"list_places\",\"id\":7}", "places 7; 11", 0},
    {"{\"op\":\"round\"}", "round 1; copy 1 7 1 64 11 21", 0},
    {"{\"op\":\"fly\"}", "refused 20 BadLine", 20},
    {"", "refused 20 BadLine", 20},
    {"{\"op\":\"report\",\"storage\":21,\"blocks\":[[7,1,64],[9,1,1]]}", "ok 2 0", 0},
    {"{\"op\":\"list_replicas\"}", "replicas; 7 11 good; 7 21 good; 9 21 stray", 0},
    {"{\"op\":\"round\"}", "round 2; delete 2 21 9", 0},
    {"{\"op\":\"dead\",\"node\":1}", "ok 0 1", 0},
    {"{\"op\":\"list_missing\"}", "missing", 0},
    {"{\"op\":\"retired\",\"node\":2}", "retired 2; no", 0},
};

enum { ROWS = sizeof rows / sizeof *rows };

static const puljemrod_options standard = PULJEMROD_STANDARD;

static bool has_text(puljemrod *handle, const char *text) {
    char out[200];
    size_t len = strlen(text);
    return puljemrod_answer(handle, 0, out, sizeof out) == len && memcmp(out, text, len) == 0;
}

static uint32_t take(puljemrod *handle, const struct row *row, size_t *len) {
    return puljemrod_line(handle, row->line, strlen(row->line), len);
}

/* Whether the line is answered as its row says. */
static bool is_answered(puljemrod *handle, const struct row *row) {
    size_t len = 99;
    return take(handle, row, &len) == row->code && len == strlen(row->text) && has_text(handle, row->text);
}

static bool are_answered(puljemrod *handle) {
    bool are = true;
    for (unsigned at = 0; at < ROWS; at++)
        are = is_answered(handle, &rows[at]) && are;
    return are;
}

/* ---- checks */

static void closed_and_open(void) {
    puljemrod h = PULJEMROD_CLOSED_HANDLE;
    size_t len = 99;
    char out[4];
    check(take(&h, rows, &len) == PULJEMROD_CLOSED && len == 99, "a line on a closed handle");
    check(puljemrod_text(&h, &len) == PULJEMROD_CLOSED && len == 99, "the text of a closed handle");
    check(puljemrod_answer(&h, 0, out, sizeof out) == 0, "the answer of a closed handle");
    check(puljemrod_close(&h) == PULJEMROD_CLOSED && !h.at, "close of a closed handle");
    puljemrod_options bad = standard;
    bad.shards = 65;
    check(puljemrod_open(&h, &bad) == PULJEMROD_BAD_CONFIG && !h.is_open, "an option outside its range");
    check(puljemrod_open(&h, &standard) == PULJEMROD_OK && h.is_open, "open");
    check(puljemrod_text(&h, &len) == PULJEMROD_OK && len == 0, "the answer before the first line");
    check(is_answered(&h, rows), "a line");
    check(puljemrod_open(&h, &bad) == PULJEMROD_OPEN && has_text(&h, rows->text), "a second open");
    check(puljemrod_text(&h, &len) == PULJEMROD_OK && len == strlen(rows->text), "a text that is made already");
    check(puljemrod_close(&h) == PULJEMROD_OK && !h.is_open && !h.at, "close");
    check(puljemrod_close(&h) == PULJEMROD_CLOSED, "a second close");
    check(puljemrod_open(&h, &standard) == PULJEMROD_OK && are_answered(&h), "opened again");
    puljemrod_close(&h);
}

static void options_are_taken(void) {
    puljemrod h = PULJEMROD_CLOSED_HANDLE;
    puljemrod_options options = {64, 1, 1, 1, 40, UINT64_MAX - 1, 7, 1, 1};
    struct row round = {"{\"op\":\"round\"}", "round 41", 0};
    struct row spent = {"{\"op\":\"round\"}", "refused 13 CallsSpent", 13};
    puljemrod_open(&h, &options);
    check(is_answered(&h, &round), "the first round and the first call");
    check(is_answered(&h, &spent), "calls are spent");
    puljemrod_close(&h);
}

static puljemrod_options with_limits(uint32_t nodes, uint32_t storages) {
    puljemrod_options options = standard;
    options.nodes = nodes;
    options.storages = storages;
    return options;
}

/* The code of a node that joins with this number of storages, numbered from `first`. */
static uint32_t joins(puljemrod *handle, uint32_t node, uint32_t first, uint32_t count) {
    uint32_t *storages = malloc((count + 1) * sizeof *storages);
    for (uint32_t at = 0; at < count; at++)
        storages[at] = first + at;
    uint32_t code = puljemrod_register(handle, node, node % 3, storages, count);
    free(storages);
    return code;
}

/* Opens a manager with a limit on nodes, and registers this number of them and one more. */
static bool takes_nodes(uint32_t limit, uint32_t most) {
    puljemrod h = PULJEMROD_CLOSED_HANDLE;
    puljemrod_options options = with_limits(limit, 0);
    bool are = puljemrod_open(&h, &options) == PULJEMROD_OK;
    for (uint32_t node = 0; node < most; node++)
        are = joins(&h, node, 0, 0) == PULJEMROD_OK && are;
    are = joins(&h, most, 0, 0) == PULJEMROD_TOO_MANY && are;
    return puljemrod_close(&h) == PULJEMROD_OK && are;
}

static void limits_of_nodes(void) {
    check(takes_nodes(256, 256) && takes_nodes(0, 256), "256 nodes, and one more");
    check(takes_nodes(1, 1) && takes_nodes(300, 300), "other limits of nodes");
}

/* The same for storages: one node has all but one. */
static bool takes_storages(uint32_t limit, uint32_t most) {
    puljemrod h = PULJEMROD_CLOSED_HANDLE;
    puljemrod_options options = with_limits(0, limit);
    bool are = puljemrod_open(&h, &options) == PULJEMROD_OK && joins(&h, 1, 0, most + 1) == PULJEMROD_TOO_MANY;
    are = joins(&h, 1, 0, most - 1) == PULJEMROD_OK && joins(&h, 2, most, 2) == PULJEMROD_TOO_MANY && are;
    are = joins(&h, 2, most, 1) == PULJEMROD_OK && joins(&h, 3, most + 1, 1) == PULJEMROD_TOO_MANY && are;
    return puljemrod_close(&h) == PULJEMROD_OK && are;
}

static void limits_of_storages(void) {
    check(takes_storages(4096, 4096) && takes_storages(0, 4096), "4,096 storages, and one more");
    check(takes_storages(1, 1) && takes_storages(5000, 5000), "other limits of storages");
}

static void limits_outside_their_ranges(void) {
    puljemrod h = PULJEMROD_CLOSED_HANDLE;
    const uint32_t wrong[][2] = {{65537, 1}, {1, 1048577}, {UINT32_MAX, 0}, {0, UINT32_MAX}};
    bool are = true;
    for (unsigned at = 0; at < 4; at++) {
        puljemrod_options options = with_limits(wrong[at][0], wrong[at][1]);
        are = puljemrod_open(&h, &options) == PULJEMROD_BAD_CONFIG && !h.is_open && !h.at && are;
    }
    puljemrod_options options = with_limits(65536, 1048576);
    check(are && puljemrod_open(&h, &options) == PULJEMROD_OK, "limits outside their ranges");
    puljemrod_close(&h);
}

/* The first node and the last one have a storage each. The replica of block 7 is on the last
 * storage, and the free bytes are on the first one. */
static void largest_cluster(void) {
    puljemrod h = PULJEMROD_CLOSED_HANDLE;
    puljemrod_options options = with_limits(most_nodes, 2);
    const uint32_t last = most_nodes - 1;
    const puljemrod_remaining remaining = {0, 64};
    puljemrod_copy copy = {0};
    uint64_t round, copies, deletes, is_retired, count, places[2] = {0};
    bool are = puljemrod_open(&h, &options) == PULJEMROD_OK;
    for (uint32_t node = 0; node < most_nodes; node++)
        are = joins(&h, node, node, node == 0 || node == last) == PULJEMROD_OK && are;
    check(are && joins(&h, most_nodes, 0, 0) == PULJEMROD_TOO_MANY, "the largest cluster");
    are = puljemrod_heartbeat(&h, 0, &remaining, 1) == 0 && puljemrod_add_block(&h, 7, 1, 64, 2) == 0;
    are = puljemrod_received(&h, last, 7, 1, 64) == 0 && puljemrod_round(&h, &round, &copies, &deletes) == 0 && are;
    are = copies == 1 && deletes == 0 && puljemrod_copies(&h, 0, &copy, 1) == 1 && are;
    check(are && copy.node == last && copy.source == last && copy.target == 0, "a round of it");
    are = puljemrod_received(&h, 0, 7, 1, 64) == 0 && puljemrod_places(&h, 7, &count) == 0 && count == 2;
    are = puljemrod_number_rows(&h, 0, places, 2) == 2 && places[0] == 0 && places[1] == last && are;
    check(are && puljemrod_retired(&h, last, &is_retired) == 0 && !is_retired, "questions to it");
    are = puljemrod_dead(&h, 0) == 0 && joins(&h, most_nodes, most_nodes, 1) == PULJEMROD_OK;
    check(are && joins(&h, 0, 0, 0) == PULJEMROD_TOO_MANY, "a node in place of another");
    puljemrod_close(&h);
}

static void pieces_of_an_answer(void) {
    puljemrod h = PULJEMROD_CLOSED_HANDLE;
    char out[8] = "########";
    puljemrod_open(&h, &standard);
    is_answered(&h, &rows[7]);
    check(puljemrod_answer(&h, 8, out, 3) == 3 && memcmp(out, "5 U#####", 8) == 0, "a piece of an answer");
    check(puljemrod_answer(&h, 20, out, 8) == 2 && memcmp(out, "ckU#####", 8) == 0, "the end of an answer");
    check(puljemrod_answer(&h, 22, out, 8) == 0, "from the end of an answer");
    check(puljemrod_answer(&h, SIZE_MAX, out, 8) == 0, "from past the end of an answer");
    check(puljemrod_answer(&h, 0, out, 0) == 0, "an answer of no bytes");
    puljemrod_close(&h);
}

static void longest_line(void) {
    puljemrod h = PULJEMROD_CLOSED_HANDLE;
    size_t len;
    char *line = malloc(LONGEST + 1);
    memset(line, ' ', LONGEST + 1);
    memcpy(line, rows[16].line, strlen(rows[16].line));
    puljemrod_open(&h, &standard);
    check(puljemrod_line(&h, line, LONGEST, &len) == 0 && has_text(&h, "missing"), "the longest line");
    check(puljemrod_line(&h, line, LONGEST + 1, &len) == PULJEMROD_LONG_LINE && has_text(&h, "refused 21 LongLine"),
          "a line that is too long");
    puljemrod_close(&h);
    free(line);
}

static void more_lines_than_the_tool(void) {
    puljemrod h = PULJEMROD_CLOSED_HANDLE;
    size_t len;
    bool are = puljemrod_open(&h, &standard) == PULJEMROD_OK;
    for (unsigned n = 0; n <= lines; n++)
        are = take(&h, &rows[7], &len) == rows[7].code && are;
    check(are && is_answered(&h, &rows[0]), "more lines than the tool reads");
    puljemrod_close(&h);
}

/* ---- events by functions of their own */

/* The code and the text of an event: what a line of it would answer. */
static bool is_event(puljemrod *handle, uint32_t code, uint32_t wanted, const char *text) {
    size_t len = 99;
    char out[1];
    bool is_unmade = puljemrod_answer(handle, 0, out, 1) == 0;
    return is_unmade && code == wanted && puljemrod_text(handle, &len) == code && len == strlen(text)
        && has_text(handle, text);
}

/* Events that take no memory, and one that something else refuses. Storage 12 is there, and no
 * block. */
static void check_events_without_memory(puljemrod *handle) {
    puljemrod_add_block(handle, 5, 1, 64, 1);
    left = 0;
    bool are = puljemrod_set_replication(handle, 5, 2) == 0 && puljemrod_restamp(handle, 5, 2, 64) == 0;
    are = puljemrod_deleted(handle, 12, 5) == 0 && puljemrod_corrupt(handle, 12, 5) == 0 && are;
    are = puljemrod_delete_block(handle, 5) == 0 && puljemrod_received(handle, 99, 5, 1, 64) == 3 && are;
    left = -1;
    check(are, "events without memory");
}

/* A heartbeat is refused only where the memory of earlier ones is too small for its list. Two of
 * them leave that of two lists: one in the answer, and one for the next. */
static void heartbeats_without_memory(void) {
    puljemrod h = PULJEMROD_CLOSED_HANDLE;
    const uint32_t storages[] = {11, 12};
    static const puljemrod_remaining remaining[1000] = {{11, 500}, {12, 1000}, {11, 600}, {12, 700}, {11, 1}};
    puljemrod_open(&h, &standard);
    puljemrod_register(&h, 1, 1, storages, 2);
    left = 0;
    check(puljemrod_heartbeat(&h, 1, remaining, 2) == PULJEMROD_MEMORY, "the first heartbeat refused for memory");
    left = -1;
    bool are = puljemrod_heartbeat(&h, 1, remaining, 4) == 0 && puljemrod_heartbeat(&h, 1, remaining, 4) == 0;
    left = 0;
    for (unsigned at = 0; at < HEARTBEATS; at++) {
        are = puljemrod_heartbeat(&h, 1, remaining + at % 2, 4) == 0 && are;
        are = puljemrod_deleted(&h, 11, 5) == 0 && puljemrod_heartbeat(&h, 1, remaining, at % 4) == 0 && are;
    }
    are = puljemrod_heartbeat(&h, 2, remaining, 4) == 1 && puljemrod_heartbeat(&h, 1, remaining, 0) == 0 && are;
    check(are, "heartbeats without memory");
    check(puljemrod_heartbeat(&h, 1, remaining, 1000) == PULJEMROD_MEMORY, "a longer heartbeat refused for memory");
    left = -1;
    puljemrod_close(&h);
}

static void events(void) {
    puljemrod h = PULJEMROD_CLOSED_HANDLE;
    const uint32_t storages[] = {11, 12}, other[] = {21};
    const puljemrod_remaining remaining[] = {{21, 500}, {21, 1000}};
    const puljemrod_entry entries[] = {{7, 8, 1, 64}, {9, 9, 1, 1}};
    struct row round = {"{\"op\":\"round\"}", "round 1; copy 1 7 1 64 11 21", 0};
    struct row replicas = {"{\"op\":\"list_replicas\"}", "replicas; 7 11 good; 7 21 good; 8 21 stray; 9 21 stray", 0};
    struct row after = {"{\"op\":\"list_replicas\"}", "replicas; 7 21 stale; 8 21 stray", 0};
    check(puljemrod_dead(&h, 1) == PULJEMROD_CLOSED && puljemrod_full_report(&h, 1, entries, 2) == PULJEMROD_CLOSED,
          "an event on a closed handle");
    puljemrod_open(&h, &standard);
    check(is_event(&h, puljemrod_register(&h, 1, 1, storages, 2), 0, "ok 0 0"), "register");
    check(is_event(&h, puljemrod_register(&h, 2, 2, other, 1), 0, "ok 0 0"), "register another");
    check(is_event(&h, puljemrod_register(&h, 2, 2, other, 1), 2, "refused 2 NodeKnown"), "register again");
    check(is_event(&h, puljemrod_heartbeat(&h, 2, remaining, 2), 0, "ok 0 0"), "heartbeat");
    check(is_event(&h, puljemrod_add_block(&h, 7, 1, 64, 3), 0, "ok 0 0"), "add_block");
    check(is_event(&h, puljemrod_set_replication(&h, 7, 2), 0, "ok 0 0"), "set_replication");
    check(is_event(&h, puljemrod_received(&h, 11, 7, 1, 64), 0, "ok 1 0"), "received");
    check(is_answered(&h, &round), "a round after events");
    check(is_event(&h, puljemrod_full_report(&h, 21, entries, 2), 0, "ok 3 0"), "full_report");
    check(is_answered(&h, &replicas), "what was reported");
    check(is_event(&h, puljemrod_deleted(&h, 21, 9), 0, "ok 0 1"), "deleted");
    check(is_event(&h, puljemrod_corrupt(&h, 11, 7), 0, "ok 0 0"), "corrupt");
    check(is_event(&h, puljemrod_storage_failed(&h, 11), 0, "ok 0 1"), "storage_failed");
    check(is_event(&h, puljemrod_restamp(&h, 7, 2, 64), 0, "ok 0 0"), "restamp");
    check(is_event(&h, puljemrod_restamp(&h, 7, 2, 64), 9, "refused 9 OldGeneration"), "restamp again");
    check(is_answered(&h, &after), "what is left");
    check(is_event(&h, puljemrod_drain(&h, 2), 0, "ok 0 0"), "drain");
    check(is_event(&h, puljemrod_undrain(&h, 2), 0, "ok 0 0"), "undrain");
    check(is_event(&h, puljemrod_delete_block(&h, 7), 0, "ok 0 0"), "delete_block");
    check(is_event(&h, puljemrod_dead(&h, 2), 0, "ok 0 2"), "dead");
    check(is_event(&h, puljemrod_dead(&h, 2), 1, "refused 1 UnknownNode"), "dead again");
    left = 0;
    uint32_t code = puljemrod_full_report(&h, 12, entries, 2);
    left = -1;
    check(code == PULJEMROD_MEMORY && has_text(&h, "refused 1 UnknownNode"), "an event refused for memory");
    check_events_without_memory(&h);
    check(is_event(&h, puljemrod_full_report(&h, 12, entries, 0), 0, "ok 0 0"), "an empty report");
    puljemrod_close(&h);
}

/* ---- questions and rounds by functions of their own */

/* Two nodes, of which node 1 has block 7, which has too few replicas, and node 2 a stray replica of
 * block 9. */
static void make_small_cluster(puljemrod *handle) {
    const uint32_t storages[] = {11, 12}, other[] = {21};
    const puljemrod_remaining remaining[] = {{21, 1000}};
    const puljemrod_entry stray[] = {{9, 9, 1, 1}};
    puljemrod_register(handle, 1, 1, storages, 2);
    puljemrod_register(handle, 2, 2, other, 1);
    puljemrod_heartbeat(handle, 2, remaining, 1);
    puljemrod_add_block(handle, 7, 1, 64, 2);
    puljemrod_received(handle, 11, 7, 1, 64);
    puljemrod_full_report(handle, 21, stray, 1);
}

static bool has_counts(puljemrod *handle, uint64_t added, uint64_t removed) {
    puljemrod_counts counts = {99, 99, 99, 99};
    return puljemrod_done(handle, &counts) == 0 && counts.added == added && counts.added_high == 0
        && counts.removed == removed && counts.removed_high == 0;
}

static void counts_of_events(void) {
    puljemrod h = PULJEMROD_CLOSED_HANDLE;
    puljemrod_counts counts = {99, 98, 97, 96};
    check(puljemrod_done(&h, &counts) == PULJEMROD_CLOSED && counts.added == 99 && counts.removed_high == 96,
          "counts of a closed handle");
    puljemrod_open(&h, &standard);
    check(has_counts(&h, 0, 0), "counts of no event");
    make_small_cluster(&h);
    check(has_counts(&h, 1, 0), "counts of a report");
    puljemrod_storage_failed(&h, 21);
    check(has_counts(&h, 0, 1), "counts of a failed storage");
    const puljemrod_entry entries[] = {{8, 8, 1, 64}};
    left = 0;
    uint32_t code = puljemrod_full_report(&h, 12, entries, 1);
    left = -1;
    check(code == PULJEMROD_MEMORY && has_counts(&h, 0, 1), "counts after an event refused for memory");
    puljemrod_storage_failed(&h, 22);
    check(has_counts(&h, 0, 0), "counts of a refused event");
    puljemrod_close(&h);
}

static void version(void) {
    check(puljemrod_version() == PULJEMROD_VERSION_NUMBER, "the version");
}

static void questions(void) {
    puljemrod h = PULJEMROD_CLOSED_HANDLE;
    uint64_t value = 99;
    check(puljemrod_level(&h, 7, &value) == PULJEMROD_CLOSED && value == 99, "level of a closed handle");
    check(puljemrod_calls(&h, &value) == PULJEMROD_CLOSED && value == 99, "calls of a closed handle");
    puljemrod_open(&h, &standard);
    make_small_cluster(&h);
    check(puljemrod_level(&h, 7, &value) == 0 && value == 0, "level");
    check(is_event(&h, puljemrod_level(&h, 7, &value), 0, "level 7; 0"), "the text of a level");
    value = 99;
    check(is_event(&h, puljemrod_level(&h, 8, &value), 5, "refused 5 UnknownBlock") && value == 99, "level of no block");
    check(puljemrod_calls(&h, &value) == 0 && value == 6, "calls");
    check(puljemrod_rounds(&h, &value) == 0 && value == 0, "rounds");
    value = 99;
    check(puljemrod_retired(&h, 2, &value) == 0 && value == 0, "a node that is in use");
    check(puljemrod_retired(&h, 3, &value) == 1 && value == 0, "a node that is not known");
    puljemrod_received(&h, 21, 7, 1, 64);
    check(puljemrod_level(&h, 7, &value) == 0 && value == PULJEMROD_NO_LEVEL, "level of a block with enough replicas");
    puljemrod_drain(&h, 1);
    puljemrod_set_replication(&h, 7, 1);
    check(puljemrod_retired(&h, 1, &value) == 0 && value == 1, "a node that can be taken away");
    left = 0;
    check(puljemrod_level(&h, 7, &value) == 0 && value == PULJEMROD_NO_LEVEL, "level without memory");
    left = -1;
    puljemrod_close(&h);
}

static bool are_located(const puljemrod_replica *replicas, size_t count, uint64_t id, const char *storages) {
    uint32_t out[3] = {98, 98, 98};
    char text[64] = "";
    for (size_t most = 0; most <= 2; most++) {
        size_t found = puljemrod_locate(replicas, count, id, out, most), len = strlen(text);
        snprintf(text + len, sizeof text - len, "%zu %u %u; ", found, (unsigned)out[0], (unsigned)out[1]);
    }
    return strcmp(text, storages) == 0 && out[2] == 98;
}

static void places_of_rows(void) {
    const puljemrod_replica replicas[] = {{3, 11, PULJEMROD_GOOD},  {5, 11, PULJEMROD_BAD},   {5, 12, PULJEMROD_GOOD},
                                          {5, 13, PULJEMROD_STALE}, {5, 14, PULJEMROD_GOOD},  {5, 15, PULJEMROD_GOOD},
                                          {8, 11, PULJEMROD_STRAY}, {UINT64_MAX, 11, PULJEMROD_GOOD}};
    left = 0;
    check(are_located(replicas, 8, 5, "0 98 98; 1 12 98; 2 12 14; "), "the good replicas of a block, and no more");
    check(are_located(replicas, 8, 3, "0 98 98; 1 11 98; 1 11 98; "), "the first block");
    check(are_located(replicas, 8, UINT64_MAX, "0 98 98; 1 11 98; 1 11 98; "), "the last block");
    check(are_located(replicas, 8, 8, "0 98 98; 0 98 98; 0 98 98; "), "a stray replica");
    check(are_located(replicas, 8, 4, "0 98 98; 0 98 98; 0 98 98; "), "no such block");
    check(are_located(replicas, 0, 5, "0 98 98; 0 98 98; 0 98 98; "), "no replica");
    left = -1;
}

/* Each allocation of a publish is refused. The reader then answers from the version before. */
static void publish_without_memory(void) {
    puljemrod h = PULJEMROD_CLOSED_HANDLE;
    puljemrod_reader reader;
    puljemrod_view view;
    uint64_t calls = 99, before = 0;
    uint32_t storage = 98, code = PULJEMROD_MEMORY;
    unsigned refused = 0;
    long at_start = blocks;
    puljemrod_view_open(&view, &reader, 1);
    puljemrod_open(&h, &standard);
    make_small_cluster(&h);
    check(puljemrod_view_publish(&view, &h, &before) == PULJEMROD_OK, "a publish");
    check(puljemrod_storage_failed(&h, 11) == PULJEMROD_OK, "an event after it");
    for (long n = 0; code == PULJEMROD_MEMORY; n++) {
        left = n;
        code = puljemrod_view_publish(&view, &h, &calls);
        left = 0;
        if (code == PULJEMROD_MEMORY) {
            refused++;
            check(calls == 99, "a refused publish has no receipt");
            check(puljemrod_view_locate(&reader, 7, &storage, 1, &calls) == 1 && storage == 11 && calls == before,
                  "a refused publish");
            calls = 99;
        }
        left = -1;
    }
    check(refused > 1 && code == PULJEMROD_OK && calls == before + 1, "a publish with memory");
    check(puljemrod_view_locate(&reader, 7, &storage, 1, &calls) == 0 && calls == before + 1, "its version");
    puljemrod_view_close(&view);
    puljemrod_close(&h);
    check(blocks == at_start, "all memory of versions is returned");
}

static void rounds(void) {
    puljemrod h = PULJEMROD_CLOSED_HANDLE;
    uint64_t round = 99, copies = 98, deletes = 97;
    puljemrod_copy copy[2] = {{0, 0, 0, 0, 0, 0}};
    puljemrod_delete gone[2] = {{0, 0, 0}};
    check(puljemrod_round(&h, &round, &copies, &deletes) == PULJEMROD_CLOSED && round == 99 && copies == 98
              && deletes == 97, "a round of a closed handle");
    check(puljemrod_copies(&h, 0, copy, 2) == 0 && puljemrod_deletes(&h, 0, gone, 2) == 0, "commands of a closed handle");
    puljemrod_open(&h, &standard);
    make_small_cluster(&h);
    check(puljemrod_copies(&h, 0, copy, 2) == 0, "commands of no round");
    unsigned refused = 0;
    uint32_t code = PULJEMROD_MEMORY;
    for (long n = 0; code == PULJEMROD_MEMORY; n++) {
        left = n;
        code = puljemrod_round(&h, &round, &copies, &deletes);
        left = -1;
        if (code == PULJEMROD_MEMORY) refused += round == 99 && copies == 98 && deletes == 97;
    }
    check(refused > 0 && code == 0 && round == 1 && copies == 1 && deletes == 1, "a round with each allocation refused");
    left = 0;
    check(puljemrod_copies(&h, 0, copy, 2) == 1 && puljemrod_deletes(&h, 0, gone, 2) == 1, "commands without memory");
    left = -1;
    check(copy->node == 1 && copy->source == 11 && copy->target == 21 && copy->block == 7 && copy->generation == 1
              && copy->len == 64 && copy[1].block == 0, "the copy");
    check(gone->node == 2 && gone->storage == 21 && gone->block == 9 && gone[1].block == 0, "the delete");
    check(puljemrod_copies(&h, 1, copy, 2) == 0 && puljemrod_deletes(&h, SIZE_MAX, gone, 2) == 0, "past the commands");
    check(puljemrod_copies(&h, 0, copy, 0) == 0, "no space for commands");
    size_t len;
    check(puljemrod_text(&h, &len) == 0 && has_text(&h, "round 1; copy 1 7 1 64 11 21; delete 2 21 9"), "the round's text");
    check(puljemrod_copies(&h, 0, copy, 2) == 0, "commands after their text");
    puljemrod_close(&h);
}

/* Two nodes have a block each; only the third has free bytes. */
static void commands_of_several_nodes(void) {
    puljemrod h = PULJEMROD_CLOSED_HANDLE;
    const uint32_t storage[] = {11, 21, 31};
    const puljemrod_remaining remaining[] = {{31, 1000}};
    uint64_t round, copies, deletes;
    puljemrod_copy copy[3] = {{0, 0, 0, 0, 0, 0}};
    puljemrod_open(&h, &standard);
    for (uint32_t at = 0; at < 3; at++)
        puljemrod_register(&h, at + 1, at + 1, &storage[at], 1);
    puljemrod_heartbeat(&h, 3, remaining, 1);
    for (uint32_t at = 0; at < 2; at++) {
        puljemrod_add_block(&h, 7 + at, 1, 64, 2);
        puljemrod_received(&h, storage[at], 7 + at, 1, 64);
    }
    check(puljemrod_round(&h, &round, &copies, &deletes) == 0 && copies == 2 && deletes == 0, "commands of two nodes");
    check(puljemrod_copies(&h, 0, copy, 3) == 2 && copy->node == 1 && copy->source == 11 && copy->target == 31
              && copy->block == 7, "the first node's copy");
    check(copy[1].node == 2 && copy[1].source == 21 && copy[1].target == 31 && copy[1].block == 8, "the second node's");
    check(puljemrod_copies(&h, 1, copy, 3) == 1 && copy->block == 8 && copy[1].block == 8, "copies from the second on");
    check(puljemrod_copies(&h, 0, copy, 1) == 1 && copy->block == 7 && copy[1].block == 8, "space for one copy");
    puljemrod_close(&h);
}

static void lists(void) {
    puljemrod h = PULJEMROD_CLOSED_HANDLE;
    uint64_t count = 99, round, copies, deletes, number[3] = {0};
    puljemrod_replica replica[3] = {{0, 0, 0}};
    puljemrod_pair pair[3] = {{0, 0}};
    check(puljemrod_replicas(&h, &count) == PULJEMROD_CLOSED && count == 99, "a list of a closed handle");
    check(puljemrod_replica_rows(&h, 0, replica, 3) == 0 && puljemrod_pair_rows(&h, 0, pair, 3) == 0
              && puljemrod_number_rows(&h, 0, number, 3) == 0, "rows of a closed handle");
    puljemrod_open(&h, &standard);
    make_small_cluster(&h);
    left = 0;
    check(puljemrod_replicas(&h, &count) == PULJEMROD_MEMORY && count == 99, "a list refused for memory");
    left = -1;
    check(puljemrod_replicas(&h, &count) == 0 && count == 2, "replicas");
    left = 0;
    check(puljemrod_replica_rows(&h, 0, replica, 3) == 2, "rows without memory");
    left = -1;
    check(replica->block == 7 && replica->storage == 11 && replica->tag == PULJEMROD_GOOD, "a good replica");
    check(replica[1].block == 9 && replica[1].storage == 21 && replica[1].tag == PULJEMROD_STRAY && replica[2].block == 0,
          "a stray replica");
    check(puljemrod_replica_rows(&h, 1, replica, 3) == 1 && replica->block == 9, "rows from the second on");
    check(puljemrod_replica_rows(&h, 2, replica, 3) == 0 && puljemrod_pair_rows(&h, 0, pair, 3) == 0, "no rows");
    check(puljemrod_blocks_on(&h, 21, &count) == 0 && count == 1 && puljemrod_number_rows(&h, 0, number, 3) == 1
              && *number == 9, "blocks_on");
    check(puljemrod_blocks_on(&h, 22, &count) == 3 && count == 1, "blocks on no storage");
    check(puljemrod_places(&h, 7, &count) == 0 && count == 1 && puljemrod_number_rows(&h, 0, number, 3) == 1
              && *number == 11, "places");
    puljemrod_received(&h, 21, 7, 1, 64);
    puljemrod_set_replication(&h, 7, 1);
    check(puljemrod_excess_replicas(&h, &count) == 0 && count == 0, "no excess before a round");
    puljemrod_round(&h, &round, &copies, &deletes);
    check(puljemrod_excess_replicas(&h, &count) == 0 && count == 1 && puljemrod_pair_rows(&h, 0, pair, 3) == 1
              && pair->block == 7 && pair->storage == 11, "excess");
    puljemrod_corrupt(&h, 11, 7);
    check(puljemrod_corrupt_replicas(&h, &count) == 0 && count == 1 && puljemrod_pair_rows(&h, 0, pair, 3) == 1
              && pair->block == 7 && pair->storage == 11, "corrupt");
    check(puljemrod_places(&h, 7, &count) == 0 && count == 1 && puljemrod_number_rows(&h, 0, number, 3) == 1
              && *number == 21, "places without the corrupt replica");
    check(puljemrod_blocks_on(&h, 11, &count) == 0 && count == 1 && puljemrod_number_rows(&h, 0, number, 3) == 1
              && *number == 7, "the block of a corrupt replica");
    puljemrod_storage_failed(&h, 11);
    puljemrod_storage_failed(&h, 21);
    check(puljemrod_missing_blocks(&h, &count) == 0 && count == 1 && puljemrod_number_rows(&h, 0, number, 3) == 1
              && *number == 7, "missing");
    puljemrod_close(&h);
}

/* The line is answered with its Nth allocation refused, for N from 1 on; each time nothing is
 * changed, or the text is owed. */
static bool is_answered_in_the_end(puljemrod *handle, const struct row *row, unsigned *memory, unsigned *owed) {
    for (long n = 0;; n++) {
        size_t len = 99;
        was_refused = false;
        left = n;
        uint32_t code = take(handle, row, &len);
        left = -1;
        if (code == PULJEMROD_MEMORY && was_refused && len == 0) {
            (*memory)++;
        } else if (code == PULJEMROD_NO_TEXT && was_refused && len == 0) {
            char out[1];
            (*owed)++;
            left = 0;
            bool is_owed = puljemrod_text(handle, &len) == PULJEMROD_NO_TEXT;
            is_owed = puljemrod_answer(handle, 0, out, 1) == 0 && is_owed;
            left = -1;
            return is_owed && puljemrod_text(handle, &len) == row->code && len == strlen(row->text)
                && has_text(handle, row->text);
        } else {
            return code == row->code && len == strlen(row->text) && has_text(handle, row->text);
        }
    }
}

static void allocations_refused(void) {
    puljemrod h = PULJEMROD_CLOSED_HANDLE;
    unsigned refused = 0, memory = 0, owed = 0;
    long before = blocks;
    for (long n = 0; !h.is_open; n++) {
        left = n;
        uint32_t code = puljemrod_open(&h, &standard);
        left = -1;
        if (code != PULJEMROD_OK && code != PULJEMROD_MEMORY) break;
        if (code == PULJEMROD_MEMORY && (h.is_open || blocks != before)) break;
        refused += code == PULJEMROD_MEMORY;
    }
    check(h.is_open && refused > 0, "open with each allocation refused");
    for (unsigned at = 0; at < ROWS; at++)
        check(is_answered_in_the_end(&h, &rows[at], &memory, &owed), rows[at].line);
    check(memory > 20, "calls are refused for memory");
    check(owed > 10, "texts are owed");
    puljemrod_close(&h);
    check(blocks == before, "memory is returned after allocations were refused");
}

static void memory_is_returned(void) {
    long before = blocks;
    bool are = true;
    for (unsigned n = 0; n < opens; n++) {
        puljemrod h = PULJEMROD_CLOSED_HANDLE;
        puljemrod_options options = standard;
        options.shards = 1 + n % 64;
        puljemrod_open(&h, &options);
        are = are_answered(&h) && are;
        puljemrod_close(&h);
        are = blocks == before && are;
    }
    check(are, "opens and closes");
}

static void *answers_in_a_thread(void *handle) {
    return are_answered(handle) ? handle : NULL;
}

static void *opens_in_a_thread(void *handle) {
    for (unsigned n = 0; n < 100; n++)
        if (puljemrod_open(handle, &standard) != 0 || !are_answered(handle) || puljemrod_close(handle) != 0) return NULL;
    return handle;
}

/* With the most nested values that a line may have, of lists and of objects. */
static void *answers_deep_lines(void *handle) {
    const char *begins[] = {"[", "{\"a\":"}, *ends[] = {"]", "}"};
    bool are = are_answered(handle);
    for (unsigned kind = 0; kind < 2; kind++) {
        char line[2000] = "{\"x\":";
        size_t len;
        for (unsigned n = 0; n < DEEPEST; n++)
            strcat(line, begins[kind]);
        strcat(line, "1");
        for (unsigned n = 0; n < DEEPEST; n++)
            strcat(line, ends[kind]);
        strcat(line, ",\"op\":\"list_missing\"}");
        are = puljemrod_line(handle, line, strlen(line), &len) == 0 && has_text(handle, "missing") && are;
    }
    return are ? handle : NULL;
}

/* The thread has no more stack than the header asks for. */
static void small_stack(void) {
    puljemrod h = PULJEMROD_CLOSED_HANDLE;
    pthread_t thread;
    pthread_attr_t attributes;
    void *answered = NULL;
    pthread_attr_init(&attributes);
    pthread_attr_setstacksize(&attributes, STACK);
    puljemrod_open(&h, &standard);
    pthread_create(&thread, &attributes, answers_deep_lines, &h);
    pthread_join(thread, &answered);
    check(answered == &h, "deep lines in a small stack");
    puljemrod_close(&h);
    pthread_attr_destroy(&attributes);
}

static void threads(void) {
    puljemrod h[4] = {PULJEMROD_CLOSED_HANDLE};
    pthread_t thread[4];
    void *answered = NULL;
    puljemrod_open(h, &standard);
    pthread_create(thread, NULL, answers_in_a_thread, h);
    pthread_join(*thread, &answered);
    check(answered == h, "a handle that moves to another thread");
    check(puljemrod_close(h) == PULJEMROD_OK, "and back");
    bool are = true;
    for (unsigned at = 0; at < 4; at++)
        pthread_create(&thread[at], NULL, opens_in_a_thread, &h[at]);
    for (unsigned at = 0; at < 4; at++) {
        pthread_join(thread[at], &answered);
        are = answered == &h[at] && are;
    }
    check(are, "four handles at the same time");
}

int main(int count, char **words) {
    (void)words;
    if (count > 1) opens = 64, lines = 1000, most_nodes = 1000;
    check(sizeof(puljemrod) == 16 && offsetof(puljemrod, is_open) == 8, "the handle's layout");
    check(sizeof(puljemrod_entry) == 32 && sizeof(puljemrod_remaining) == 16, "the layout of rows");
    check(sizeof(puljemrod_copy) == 40 && offsetof(puljemrod_copy, block) == 16, "the layout of copies");
    check(sizeof(puljemrod_delete) == 16 && offsetof(puljemrod_delete, block) == 8, "the layout of deletes");
    check(sizeof(puljemrod_replica) == 16 && sizeof(puljemrod_pair) == 16, "the layout of replicas");
    check(sizeof(puljemrod_counts) == 32 && offsetof(puljemrod_counts, removed) == 16, "the layout of counts");
    check(sizeof(puljemrod_options) == 48 && offsetof(puljemrod_options, secret) == 32, "the options' layout");
    check(offsetof(puljemrod_options, nodes) == 40 && offsetof(puljemrod_options, storages) == 44, "the limits' layout");
    closed_and_open();
    options_are_taken();
    limits_of_nodes();
    limits_of_storages();
    limits_outside_their_ranges();
    largest_cluster();
    pieces_of_an_answer();
    longest_line();
    more_lines_than_the_tool();
    events();
    heartbeats_without_memory();
    counts_of_events();
    version();
    questions();
    places_of_rows();
    publish_without_memory();
    rounds();
    commands_of_several_nodes();
    lists();
    allocations_refused();
    memory_is_returned();
    threads();
    small_stack();
    printf("%u passed, %u failed\n", passed, failed);
    return failed != 0;
}
