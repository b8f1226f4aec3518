/* A library in place of libpuljemrod.a, for tests of the code that calls it. It shows what it was
 * given: the text of a typed call is its name and its arguments. Rows and counts are fixed numbers,
 * each another one. A line says what its text is, and how often memory is refused for it:
 *
 *     3     the line itself, once the text was refused three times; any number of digits
 *     *     always refused
 *     +100  100 times the letter x
 *     #     how many lines were taken before
 *     ?     the options of the open manager
 */
#include "puljemrod.h"

#include <stdarg.h>
#include <stdio.h>
#include <stdlib.h>
#include <string.h>

enum { FOR_EVER = -1, MOST = 4096 };

static puljemrod_options taken;
static char text[MOST];
static size_t text_len, repeated;
static long lines, owed;

static void add(const char *format, ...) {
    va_list words;
    va_start(words, format);
    text_len += (size_t)vsnprintf(text + text_len, MOST - text_len, format, words);
    va_end(words);
}

static uint32_t begin(const char *name) {
    text_len = repeated = 0;
    owed = 0;
    add("%s", name);
    return PULJEMROD_OK;
}

/* A call whose arguments are numbers. */
static uint32_t say(const char *name, unsigned count, ...) {
    va_list numbers;
    va_start(numbers, count);
    begin(name);
    while (count-- > 0)
        add(" %llu", va_arg(numbers, unsigned long long));
    va_end(numbers);
    return PULJEMROD_OK;
}

#define N(number) ((unsigned long long)(number))

uint32_t puljemrod_version(void) {
    return 71002003;
}

uint32_t puljemrod_open(puljemrod *handle, const puljemrod_options *options) {
    if (options->shards == 0 || options->shards > 64) return PULJEMROD_BAD_CONFIG;
    if (handle->is_open) return PULJEMROD_OPEN;
    taken = *options;
    handle->is_open = true;
    return PULJEMROD_OK;
}

uint32_t puljemrod_text(puljemrod *handle, size_t *answer_len) {
    if (!handle->is_open) return PULJEMROD_CLOSED;
    *answer_len = 0;
    if (owed == FOR_EVER) return PULJEMROD_NO_TEXT;
    if (owed > 0) return owed--, PULJEMROD_NO_TEXT;
    *answer_len = repeated + text_len;
    return PULJEMROD_OK;
}

uint32_t puljemrod_line(puljemrod *handle, const void *line, size_t line_len, size_t *answer_len) {
    char copy[64] = "";
    if (!handle->is_open) return PULJEMROD_CLOSED;
    if (line_len >= sizeof copy) return *answer_len = 0, PULJEMROD_MEMORY;
    memcpy(copy, line, line_len);
    begin(copy);
    if (*copy == '+') text_len = 0, repeated = strtoul(copy + 1, NULL, 10);
    if (*copy == '#') text_len = 0, add("%ld", lines);
    if (*copy == '?')
        say("options", 9, N(taken.shards), N(taken.work), N(taken.invalidate), N(taken.pend), N(taken.first_round),
            N(taken.first_call), N(taken.secret), N(taken.nodes), N(taken.storages));
    owed = *copy == '*' ? FOR_EVER : strtol(copy, NULL, 10) * (*copy != '+');
    lines++;
    return puljemrod_text(handle, answer_len);
}

size_t puljemrod_answer(puljemrod *handle, size_t from, void *out, size_t out_len) {
    size_t len = repeated + text_len;
    if (!handle->is_open || owed != 0 || from >= len) return 0;
    size_t count = len - from < out_len ? len - from : out_len;
    if (repeated)
        memset(out, 'x', count);
    else
        memcpy(out, text + from, count);
    return count;
}

uint32_t puljemrod_close(puljemrod *handle) {
    if (!handle->is_open) return PULJEMROD_CLOSED;
    handle->is_open = false;
    return PULJEMROD_OK;
}

/* ---- events */

uint32_t puljemrod_register(puljemrod *handle, uint32_t node, uint32_t rack, const uint32_t *storages, size_t count) {
    (void)handle;
    say("register", 2, N(node), N(rack));
    for (size_t at = 0; at < count; at++)
        add(" %u", storages[at]);
    return PULJEMROD_OK;
}

uint32_t puljemrod_heartbeat(puljemrod *handle, uint32_t node, const puljemrod_remaining *items, size_t count) {
    (void)handle;
    say("heartbeat", 1, N(node));
    for (size_t at = 0; at < count; at++)
        add(" %u %llu", items[at].storage, N(items[at].remaining));
    return PULJEMROD_OK;
}

uint32_t puljemrod_full_report(puljemrod *handle, uint32_t storage, const puljemrod_entry *entries, size_t count) {
    (void)handle;
    say("report", 1, N(storage));
    for (size_t at = 0; at < count; at++)
        add(" %llu %llu %llu %llu", N(entries[at].from), N(entries[at].to), N(entries[at].generation), N(entries[at].len));
    return PULJEMROD_OK;
}

#define EVENT_OF_ONE(function, name, type)                       \
    uint32_t function(puljemrod *handle, type number) {          \
        (void)handle;                                            \
        return say(name, 1, N(number));                          \
    }

EVENT_OF_ONE(puljemrod_dead, "dead", uint32_t)
EVENT_OF_ONE(puljemrod_storage_failed, "storage_failed", uint32_t)
EVENT_OF_ONE(puljemrod_drain, "drain", uint32_t)
EVENT_OF_ONE(puljemrod_undrain, "undrain", uint32_t)
EVENT_OF_ONE(puljemrod_delete_block, "delete", uint64_t)

uint32_t puljemrod_add_block(puljemrod *handle, uint64_t id, uint64_t generation, uint64_t len, uint32_t repl) {
    (void)handle;
    return say("add", 4, N(id), N(generation), N(len), N(repl));
}

uint32_t puljemrod_set_replication(puljemrod *handle, uint64_t id, uint32_t repl) {
    (void)handle;
    return say("set_replication", 2, N(id), N(repl));
}

uint32_t puljemrod_restamp(puljemrod *handle, uint64_t id, uint64_t generation, uint64_t len) {
    (void)handle;
    return say("restamp", 3, N(id), N(generation), N(len));
}

uint32_t puljemrod_received(puljemrod *handle, uint32_t storage, uint64_t id, uint64_t generation, uint64_t len) {
    (void)handle;
    return say("received", 4, N(storage), N(id), N(generation), N(len));
}

uint32_t puljemrod_deleted(puljemrod *handle, uint32_t storage, uint64_t id) {
    (void)handle;
    return say("deleted", 2, N(storage), N(id));
}

uint32_t puljemrod_corrupt(puljemrod *handle, uint32_t storage, uint64_t id) {
    (void)handle;
    return say("corrupt", 2, N(storage), N(id));
}

/* Numbers of 128 bits: 3 + 4 * 2^64 and 5 + 6 * 2^64. */
uint32_t puljemrod_done(puljemrod *handle, puljemrod_counts *counts) {
    (void)handle;
    *counts = (puljemrod_counts){3, 4, 5, 6};
    return PULJEMROD_OK;
}

/* ---- questions and rounds */

static const puljemrod_replica replicas[] = {{1, 2, 0}, {3, 4, 1}, {5, 6, 2}, {7, 8, 3}};
static const puljemrod_pair pairs[] = {{11, 12}, {13, 14}};
static const uint64_t numbers[] = {21, 22, 23};
static const puljemrod_copy copies[] = {{31, 32, 33, 34, 35, 36}, {51, 52, 53, 54, 55, 56}};
static const puljemrod_delete deletes[] = {{31, 38, 39}, {41, 42, 43}};

#define ROWS_OF(function, type, rows)                                                 \
    size_t function(puljemrod *handle, size_t from, type *out, size_t out_len) {      \
        size_t count = 0;                                                             \
        (void)handle;                                                                 \
        while (count < out_len && from + count < sizeof rows / sizeof *rows) {        \
            out[count] = rows[from + count];                                          \
            count++;                                                                  \
        }                                                                             \
        return count;                                                                 \
    }

ROWS_OF(puljemrod_replica_rows, puljemrod_replica, replicas)
ROWS_OF(puljemrod_pair_rows, puljemrod_pair, pairs)
ROWS_OF(puljemrod_number_rows, uint64_t, numbers)
ROWS_OF(puljemrod_copies, puljemrod_copy, copies)
ROWS_OF(puljemrod_deletes, puljemrod_delete, deletes)

#define QUESTION(function, name, value)                          \
    uint32_t function(puljemrod *handle, uint64_t *answer) {     \
        (void)handle;                                            \
        *answer = value;                                         \
        return begin(name);                                      \
    }

#define QUESTION_OF_ONE(function, name, type, value)                         \
    uint32_t function(puljemrod *handle, type number, uint64_t *answer) {    \
        (void)handle;                                                        \
        *answer = value;                                                     \
        return say(name, 1, N(number));                                      \
    }

QUESTION(puljemrod_calls, "calls", 61)
QUESTION(puljemrod_rounds, "rounds", 62)
QUESTION(puljemrod_replicas, "list_replicas", 4)
QUESTION(puljemrod_corrupt_replicas, "list_corrupt", 2)
QUESTION(puljemrod_excess_replicas, "list_excess", 1)
QUESTION(puljemrod_missing_blocks, "list_missing", 3)
QUESTION_OF_ONE(puljemrod_blocks_on, "list_storage", uint32_t, 2)
QUESTION_OF_ONE(puljemrod_places, "list_places", uint64_t, 1)
QUESTION_OF_ONE(puljemrod_level, "level", uint64_t, number)
QUESTION_OF_ONE(puljemrod_retired, "retired", uint32_t, number % 2)

uint32_t puljemrod_round(puljemrod *handle, uint64_t *round, uint64_t *copy_count, uint64_t *delete_count) {
    (void)handle;
    *round = 9, *copy_count = 2, *delete_count = 2;
    return begin("round");
}
