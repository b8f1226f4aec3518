/* puljemrod: the block management of an HDFS NameNode, as a library for C and C++.
 *
 * A handle holds one manager. A call is a line of JSON, and its answer is a line of text:
 * docs/FORMATS.md lists both. The answers, and the state after each line, are the proved
 * definition's; they do not depend on the number of shards. No call starts a thread, waits, or ends
 * the process. No call reads a file or the clock.
 *
 * The handle keeps its last answer. A line, event, question or round that returns PULJEMROD_MEMORY
 * is not answered: nothing is changed, and the answer before it stays the last one.
 *
 *     puljemrod manager = PULJEMROD_CLOSED_HANDLE;
 *     puljemrod_options options = PULJEMROD_STANDARD;
 *     if (getrandom(&options.secret, 8, 0) != 8) return 1;
 *     size_t len;
 *     char text[4096];
 *     if (puljemrod_open(&manager, &options) != PULJEMROD_OK) return 1;
 *     const char *line = "{\"op\":\"level\",\"id\":7}";
 *     uint32_t code = puljemrod_line(&manager, line, strlen(line), &len);
 *     size_t copied = puljemrod_answer(&manager, 0, text, sizeof text);
 *     puljemrod_close(&manager);
 *
 * What the caller has to guarantee. No call can check these:
 *   - A handle begins as zeros. Only these functions write it. It is never copied or moved.
 *   - A handle is in one call at a time. Calls on different handles may run at the same time. A
 *     handle may pass from thread to thread: its calls are then ordered by a lock, by a thread's
 *     start or by its join.
 *   - No pointer is NULL. One with a length or a count leads to that many bytes or items; where it
 *     is 0, any other pointer will do, aligned as its type asks. What a call writes overlaps
 *     nothing else that it is given.
 *   - No call is made from a signal handler, or in a forked child of a process with threads.
 *   - The calling thread has one MiB of stack left.
 *   - The processor has the instructions of x86-64-v2 (from about 2009 on).
 *
 * What the functions do is proved. Next to that one trusts the compiler that built the library,
 * malloc, realloc and free of the process, and that this header says the same as crates/puljemrod.
 */
#ifndef PULJEMROD_H
#define PULJEMROD_H

#include <stdbool.h>
#include <stddef.h>
#include <stdint.h>

#ifdef __cplusplus
extern "C" {
#endif

/* The version of this header: MAJOR.MINOR.PATCH, and as the number
 * MAJOR * 1,000,000 + MINOR * 1,000 + PATCH. The name that the shared library is loaded by has
 * MAJOR: libpuljemrod.so.2. CHANGELOG.md lists what each version has.
 *
 * Within one MAJOR a program that was compiled with a header runs with each library that is not
 * older.
 *   - These stay: names, parameters, results and codes of functions; names, fields, sizes and
 *     layout of structs; names and numbers of codes. So do the lines of docs/FORMATS.md, their
 *     answers, and the meaning of all that.
 *   - A new MINOR may add functions, structs and lines, with codes and answers that only these
 *     have. A new PATCH adds nothing.
 *   - Not promised: what `at` of a handle leads to, how much memory a call takes, and which
 *     allocation is refused first. */
#define PULJEMROD_VERSION "2.0.0"
#define PULJEMROD_VERSION_NUMBER 2000000

/* The number of the library's version. It needs no handle. A program that loads the library can
 * compare: puljemrod_version() / 1000000 == PULJEMROD_VERSION_NUMBER / 1000000, and
 * puljemrod_version() >= PULJEMROD_VERSION_NUMBER. */
uint32_t puljemrod_version(void);

/* Closed where it is all zeros. */
typedef struct puljemrod {
    void *at;
    bool is_open;
} puljemrod;

#define PULJEMROD_CLOSED_HANDLE {0, false}

/* The ranges are those of docs/FORMATS.md. No answer depends on `shards` or `secret`. */
typedef struct puljemrod_options {
    uint32_t shards;      /* parts into which blocks are cut, 1 to 64 */
    uint32_t work;        /* copies a round commands for each alive node, 1 to 1,000 */
    uint32_t invalidate;  /* deletes a round commands one node, 1 to 1,000,000 */
    uint32_t pend;        /* rounds after which a copy is given up, 1 to 1,000,000 */
    uint64_t first_round; /* the round number at the start */
    uint64_t first_call;  /* the number of accepted calls at the start */
    uint64_t secret;      /* random bits, unknown to whoever chooses the block numbers: only time
                             depends on them. 0 IS NO SECRET */
    uint32_t nodes;       /* the most nodes alive at a time, 1 to 65,536; 0 means 256 */
    uint32_t storages;    /* the most storages at a time, 1 to 1,048,576; 0 means 4,096 */
} puljemrod_options;

/* WITHOUT A SECRET, WHOEVER CHOOSES BLOCK NUMBERS CAN CHOOSE ONES THAT COLLIDE IN THE TABLES: each
 * call with them is slow. The library has no random bits of its own, so draw a secret where others
 * choose numbers; on Linux by getrandom of <sys/random.h>, as above. */
#define PULJEMROD_STANDARD {1, 2, 1000, 100, 0, 0, 0, 256, 4096}

/* A code of a call. Codes from 1 to 31 are refusals, with the numbers and names of
 * docs/FORMATS.md. */
enum {
    PULJEMROD_OK = 0,
    PULJEMROD_UNKNOWN_NODE = 1,    /* the node is not alive */
    PULJEMROD_NODE_KNOWN = 2,      /* the node is alive already */
    PULJEMROD_UNKNOWN_STORAGE = 3, /* the storage is not known */
    PULJEMROD_STORAGE_KNOWN = 4,   /* a storage is known already, or occurs twice */
    PULJEMROD_UNKNOWN_BLOCK = 5,   /* the block is not known */
    PULJEMROD_BLOCK_KNOWN = 6,     /* the block is known already */
    PULJEMROD_STILL_STORED = 7,    /* a stray replica of the block's number is still stored */
    PULJEMROD_BAD_REPLICATION = 8, /* not between 1 and 16 */
    PULJEMROD_OLD_GENERATION = 9,  /* the generation is not greater than the block's */
    PULJEMROD_TOO_MANY = 10,       /* past the option `nodes` or `storages`, or in a report 65,536
                                      entries or 1,048,576 block numbers, repeats counted */
    PULJEMROD_NOT_ITS_STORAGE = 11, /* a storage is on another node */
    PULJEMROD_ROUNDS_SPENT = 12,   /* the round number has its last value */
    PULJEMROD_CALLS_SPENT = 13,    /* the number of accepted calls has its last value */
    PULJEMROD_MEMORY = 14,         /* memory was refused; nothing is changed, and the call may be
                                      made again */
    PULJEMROD_BAD_CONFIG = 15,     /* an option is outside its range */
    PULJEMROD_BAD_LINE = 20,       /* the line asks for no call */
    PULJEMROD_LONG_LINE = 21,      /* the line has more than 4,194,304 bytes */
    PULJEMROD_CLOSED = 32,         /* the handle is closed */
    PULJEMROD_OPEN = 33,           /* the handle is open already */
    PULJEMROD_NO_TEXT = 34         /* memory was refused for the text alone: puljemrod_text makes it
                                      later */
};

/* Opens a closed handle: a manager with no node and no block, and an empty answer.
 * PULJEMROD_OPEN where the handle is open, which leaves it as it is. PULJEMROD_BAD_CONFIG and
 * PULJEMROD_MEMORY leave it closed; the second comes only where all options are in their ranges. */
uint32_t puljemrod_open(puljemrod *handle, const puljemrod_options *options);

/* Answers a line of `line_len` bytes without a line end. The handle keeps the answer, and the one
 * before is gone. There is no limit on the number of lines.
 *
 * PULJEMROD_OK, or the number of a refusal: the state and the answer are the definition's, and the
 * answer is a text of `*answer_len` bytes, also where it is a refusal. A refused line changes no
 * state.
 * PULJEMROD_NO_TEXT: the line is answered too, but its text is not made; `*answer_len` is 0. The
 * code of the answer is what puljemrod_text returns.
 * PULJEMROD_MEMORY: nothing is changed; `*answer_len` is 0. Reading a line may take memory, so this
 * may come where the call would be refused. A line that is too long is never refused for memory.
 * PULJEMROD_CLOSED: the handle is closed; `*answer_len` is as it was. */
uint32_t puljemrod_line(puljemrod *handle, const void *line, size_t line_len, size_t *answer_len);

/* Makes the text of the last answer, where it is not made: memory was refused for it, or the call
 * was made by a function of its own. A text that is made already is kept, and takes no memory. No
 * state changes.
 *
 * Returns the code of the last answer, 0 or the number of a refusal, and the text has `*answer_len`
 * bytes. The rows and counts of an answer are gone where this made its text.
 * PULJEMROD_NO_TEXT where memory is refused: nothing is changed, and `*answer_len` is 0.
 * PULJEMROD_CLOSED where the handle is closed; `*answer_len` is as it was. */
uint32_t puljemrod_text(puljemrod *handle, size_t *answer_len);

/* Copies the text of the last answer, without a line end, from byte `from` on: all bytes that there
 * are, at most `out_len`. Returns their number. It takes no memory. An answer may be copied in
 * pieces, and again. 0 where the handle is closed, or where there is no text. */
size_t puljemrod_answer(puljemrod *handle, size_t from, void *out, size_t out_len);

/* Closes a handle and returns its memory. PULJEMROD_CLOSED where it is closed. It may be opened
 * again. */
uint32_t puljemrod_close(puljemrod *handle);

/* ---- Events by functions of their own
 *
 * Each is a line's event without the text: faster, and with the same codes. PULJEMROD_OK, or the
 * number of a refusal, says what the line would; puljemrod_text makes the text of the answer. Lists
 * are read while the call runs, and not kept.
 *
 * There is no safe mode: a replica that is reported before its block is added is stray, and the
 * next round orders its delete. So add all blocks before the first report, and start rounds after
 * it.
 *
 * PULJEMROD_MEMORY comes only where nothing else refuses the event. Exceptions are
 * puljemrod_register, puljemrod_heartbeat and puljemrod_full_report, whose lists are copied first:
 * that of a heartbeat into memory kept from earlier ones, if it is large enough. PULJEMROD_MEMORY
 * never comes from puljemrod_delete_block, puljemrod_set_replication, puljemrod_restamp,
 * puljemrod_deleted and puljemrod_corrupt, which take no memory. */

/* The blocks from `from` to `to`, all with one generation and length. A run that ends before it
 * begins names none. */
typedef struct puljemrod_entry {
    uint64_t from;
    uint64_t to;
    uint64_t generation;
    uint64_t len;
} puljemrod_entry;

/* The free bytes of a storage: 0 until a heartbeat has reported more. */
typedef struct puljemrod_remaining {
    uint32_t storage;
    uint64_t remaining;
} puljemrod_remaining;

/* A DataNode comes with its storages. */
uint32_t puljemrod_register(puljemrod *handle, uint32_t node, uint32_t rack,
                            const uint32_t *storages, size_t storage_count);
uint32_t puljemrod_dead(puljemrod *handle, uint32_t node);
uint32_t puljemrod_storage_failed(puljemrod *handle, uint32_t storage);
/* A DataNode is to be decommissioned, and is not to be decommissioned after all. */
uint32_t puljemrod_drain(puljemrod *handle, uint32_t node);
uint32_t puljemrod_undrain(puljemrod *handle, uint32_t node);
/* The last item of a storage counts. */
uint32_t puljemrod_heartbeat(puljemrod *handle, uint32_t node, const puljemrod_remaining *remaining,
                             size_t remaining_count);
/* A new block, of which `repl` replicas are wanted. */
uint32_t puljemrod_add_block(puljemrod *handle, uint64_t id, uint64_t generation, uint64_t len,
                             uint32_t repl);
uint32_t puljemrod_delete_block(puljemrod *handle, uint64_t id);
uint32_t puljemrod_set_replication(puljemrod *handle, uint64_t id, uint32_t repl);
uint32_t puljemrod_restamp(puljemrod *handle, uint64_t id, uint64_t generation, uint64_t len);
uint32_t puljemrod_received(puljemrod *handle, uint32_t storage, uint64_t id, uint64_t generation,
                            uint64_t len);
uint32_t puljemrod_deleted(puljemrod *handle, uint32_t storage, uint64_t id);
uint32_t puljemrod_corrupt(puljemrod *handle, uint32_t storage, uint64_t id);
/* All replicas on a storage. The last entry of a block counts. */
uint32_t puljemrod_full_report(puljemrod *handle, uint32_t storage, const puljemrod_entry *entries,
                               size_t entry_count);

/* How many replicas, of any tag, are there after an event and were not before, and the reverse.
 * Each number has 128 bits, of which `_high` are the upper 64. */
typedef struct puljemrod_counts {
    uint64_t added;
    uint64_t added_high;
    uint64_t removed;
    uint64_t removed_high;
} puljemrod_counts;

/* Writes what the event did whose answer is the last one. Zeros where the last answer is not to an
 * accepted event, or was made text. After PULJEMROD_MEMORY the counts may be of an earlier event.
 * It takes no memory. PULJEMROD_CLOSED where the handle is closed; `*counts` is as it was. */
uint32_t puljemrod_done(puljemrod *handle, puljemrod_counts *counts);

/* ---- Questions by functions of their own
 *
 * Each is a line's question without the text, with the same codes: PULJEMROD_OK, or the number of
 * a refusal. With PULJEMROD_OK it writes its last argument; otherwise that stays as it was. It
 * changes no state. The handle keeps the answer, whose text puljemrod_text makes. PULJEMROD_MEMORY
 * comes only from functions that make a list, where nothing else refuses the question. */

/* The level that puljemrod_level gives for a block in no queue. */
enum { PULJEMROD_NO_LEVEL = 5 };

/* How urgently a block wants replicas: its queue, 0 to 4, or PULJEMROD_NO_LEVEL. */
uint32_t puljemrod_level(puljemrod *handle, uint64_t id, uint64_t *level);
/* Whether a DataNode is decommissioned and can be taken away: 1 or 0. */
uint32_t puljemrod_retired(puljemrod *handle, uint32_t node, uint64_t *is_retired);
/* The number of accepted events and rounds, and the number of the last round. No line asks for
 * these: their text is empty. */
uint32_t puljemrod_calls(puljemrod *handle, uint64_t *calls);
uint32_t puljemrod_rounds(puljemrod *handle, uint64_t *rounds);

/* A list, which the handle keeps until the next call on it that is answered, or until
 * puljemrod_text makes its text. `*count` is its length. The order is that of the line's answer. */
uint32_t puljemrod_replicas(puljemrod *handle, uint64_t *count);
/* The stale and the bad replicas. */
uint32_t puljemrod_corrupt_replicas(puljemrod *handle, uint64_t *count);
uint32_t puljemrod_excess_replicas(puljemrod *handle, uint64_t *count);
/* The known blocks without a live and without a drained replica. */
uint32_t puljemrod_missing_blocks(puljemrod *handle, uint64_t *count);
/* The blocks of all replicas on a storage, of any tag. */
uint32_t puljemrod_blocks_on(puljemrod *handle, uint32_t storage, uint64_t *count);
/* The storages of a block's good replicas, those in excess too. */
uint32_t puljemrod_places(puljemrod *handle, uint64_t id, uint64_t *count);

/* What a replica is worth, as docs/FORMATS.md has it. */
enum { PULJEMROD_GOOD = 0, PULJEMROD_STALE = 1, PULJEMROD_BAD = 2, PULJEMROD_STRAY = 3 };

typedef struct puljemrod_replica {
    uint64_t block;
    uint32_t storage;
    uint32_t tag;
} puljemrod_replica;

/* A replica of puljemrod_corrupt_replicas or of puljemrod_excess_replicas. */
typedef struct puljemrod_pair {
    uint64_t block;
    uint32_t storage;
} puljemrod_pair;

/* Copies the kept list, from the item with index `from` on: all items that there are, at most
 * `out_len`. Returns their number. The numbers are blocks, or the storages of puljemrod_places. It
 * takes no memory. 0 where the handle is closed, or where its last answer has no such items or was
 * made text. */
size_t puljemrod_replica_rows(puljemrod *handle, size_t from, puljemrod_replica *out,
                              size_t out_len);
size_t puljemrod_pair_rows(puljemrod *handle, size_t from, puljemrod_pair *out, size_t out_len);
size_t puljemrod_number_rows(puljemrod *handle, size_t from, uint64_t *out, size_t out_len);

/* ---- Where blocks are, for any number of threads */

/* Copies the storages of a block's good replicas, ascending: all that there are, at most `out_len`.
 * Returns their number, never more than the option `storages`; 0 for a block that is not known.
 *
 * `rows` are all rows of one answer of puljemrod_replicas, in its order. The storages are those of
 * that state, as puljemrod_places gives them then. The function reads the rows and writes `out`
 * alone: it takes no handle, no memory and no lock. So any number of threads may call it on the
 * same rows at the same time, also while another one changes the manager. puljemrod_view.h gives
 * threads the newest rows. */
size_t puljemrod_locate(const puljemrod_replica *rows, size_t row_count, uint64_t id,
                        uint32_t *out, size_t out_len);

/* ---- Rounds by functions of their own */

/* A command to copy a block from a storage of a node to another storage. */
typedef struct puljemrod_copy {
    uint32_t node;
    uint32_t source;
    uint32_t target;
    uint64_t block;
    uint64_t generation;
    uint64_t len;
} puljemrod_copy;

/* A command to delete a block from a storage of a node. */
typedef struct puljemrod_delete {
    uint32_t node;
    uint32_t storage;
    uint64_t block;
} puljemrod_delete;

/* Makes a round, whose commands the handle keeps until the next call on it that is answered, or
 * until puljemrod_text makes its text. With PULJEMROD_OK it writes the number of the round and how
 * many commands there are of each kind; otherwise these stay as they were. The codes are those of
 * the line. PULJEMROD_MEMORY comes only where nothing else refuses the round.
 *
 * A delete is commanded once: a full report of its storage makes up for one that got lost. The
 * report leaves out blocks whose delete is still on its way, or another replica may be deleted too.
 */
uint32_t puljemrod_round(puljemrod *handle, uint64_t *round, uint64_t *copies, uint64_t *deletes);

/* Copies the kept commands of a kind, from the one with index `from` on: all that there are, at
 * most `out_len`. Returns their number. They are in the order of the line's answer. It takes no
 * memory. 0 where the handle is closed, or where its last answer is not that of a round or was made
 * text. */
size_t puljemrod_copies(puljemrod *handle, size_t from, puljemrod_copy *out, size_t out_len);
size_t puljemrod_deletes(puljemrod *handle, size_t from, puljemrod_delete *out, size_t out_len);

#ifdef __cplusplus
}
#endif
#endif
