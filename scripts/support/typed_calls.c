/* Makes the typed call of each line of standard input: the name of an operation and its numbers. It
 * prints two lines for each: the answer that the numbers and rows give, and the text of the answer.
 * Its arguments are shards, work, invalidate, pend, nodes and storages. */
#include "puljemrod.h"

#include <stdio.h>
#include <stdlib.h>
#include <string.h>
#include <sys/types.h>

static puljemrod manager = PULJEMROD_CLOSED_HANDLE;

/* The numbers of the line. */
static uint64_t *numbers;
static size_t count, capacity;

static uint32_t small(size_t at) {
    return (uint32_t)numbers[at];
}

/* The name of the line's operation; its numbers are kept. */
static const char *read_words(char *line) {
    char *name = strtok(line, " \n"), *word;
    count = 0;
    while ((word = strtok(NULL, " \n")) != NULL) {
        if (count == capacity) {
            capacity = 2 * capacity + 64;
            numbers = realloc(numbers, capacity * sizeof *numbers);
            if (numbers == NULL) abort();
        }
        numbers[count++] = strtoull(word, NULL, 10);
    }
    return name;
}

static bool is_event(const char *name, uint32_t *code) {
    void *list = calloc(count + 1, sizeof(puljemrod_entry));
    uint32_t *storages = list;
    puljemrod_remaining *remaining = list;
    puljemrod_entry *entries = list;
    bool is = true;
    if (list == NULL) abort();
    if (strcmp(name, "register") == 0) {
        for (size_t at = 2; at < count; at++)
            storages[at - 2] = small(at);
        *code = puljemrod_register(&manager, small(0), small(1), storages, count - 2);
    } else if (strcmp(name, "heartbeat") == 0) {
        for (size_t at = 1; at < count; at += 2)
            remaining[at / 2] = (puljemrod_remaining){small(at), numbers[at + 1]};
        *code = puljemrod_heartbeat(&manager, small(0), remaining, count / 2);
    } else if (strcmp(name, "report") == 0) {
        for (size_t at = 1; at < count; at += 4)
            entries[at / 4] = (puljemrod_entry){numbers[at], numbers[at + 1], numbers[at + 2], numbers[at + 3]};
        *code = puljemrod_full_report(&manager, small(0), entries, count / 4);
    } else if (strcmp(name, "drain") == 0) {
        *code = puljemrod_drain(&manager, small(0));
    } else if (strcmp(name, "undrain") == 0) {
        *code = puljemrod_undrain(&manager, small(0));
    } else if (strcmp(name, "dead") == 0) {
        *code = puljemrod_dead(&manager, small(0));
    } else if (strcmp(name, "storage_failed") == 0) {
        *code = puljemrod_storage_failed(&manager, small(0));
    } else if (strcmp(name, "add") == 0) {
        *code = puljemrod_add_block(&manager, numbers[0], numbers[1], numbers[2], small(3));
    } else if (strcmp(name, "delete") == 0) {
        *code = puljemrod_delete_block(&manager, numbers[0]);
    } else if (strcmp(name, "set_replication") == 0) {
        *code = puljemrod_set_replication(&manager, numbers[0], small(1));
    } else if (strcmp(name, "restamp") == 0) {
        *code = puljemrod_restamp(&manager, numbers[0], numbers[1], numbers[2]);
    } else if (strcmp(name, "received") == 0) {
        *code = puljemrod_received(&manager, small(0), numbers[1], numbers[2], numbers[3]);
    } else if (strcmp(name, "deleted") == 0) {
        *code = puljemrod_deleted(&manager, small(0), numbers[1]);
    } else if (strcmp(name, "corrupt") == 0) {
        *code = puljemrod_corrupt(&manager, small(0), numbers[1]);
    } else {
        is = false;
    }
    free(list);
    return is;
}

static uint32_t print_round(void) {
    uint64_t round, copies, deletes, copy_at = 0, delete_at = 0;
    uint32_t code = puljemrod_round(&manager, &round, &copies, &deletes);
    if (code != PULJEMROD_OK) return code;
    printf("round %llu", (unsigned long long)round);
    puljemrod_copy copy;
    puljemrod_delete gone;
    while (copy_at < copies || delete_at < deletes) {
        bool is_copy = puljemrod_copies(&manager, copy_at, &copy, 1) == 1;
        bool is_delete = puljemrod_deletes(&manager, delete_at, &gone, 1) == 1;
        if (is_copy && (!is_delete || copy.node <= gone.node)) {
            copy_at++;
            printf("; copy %u %llu %llu %llu %u %u", copy.node, (unsigned long long)copy.block,
                   (unsigned long long)copy.generation, (unsigned long long)copy.len, copy.source, copy.target);
        } else {
            delete_at++;
            printf("; delete %u %u %llu", gone.node, gone.storage, (unsigned long long)gone.block);
        }
    }
    return code;
}

static uint32_t print_replicas(void) {
    static const char *const tags[] = {"good", "stale", "bad", "stray"};
    puljemrod_replica row;
    uint64_t rows;
    uint32_t code = puljemrod_replicas(&manager, &rows);
    if (code != PULJEMROD_OK) return code;
    printf("replicas");
    for (size_t at = 0; at < rows && puljemrod_replica_rows(&manager, at, &row, 1) == 1; at++)
        printf("; %llu %u %s", (unsigned long long)row.block, row.storage, tags[row.tag % 4]);
    return code;
}

static void print_pairs(const char *name, uint64_t rows) {
    puljemrod_pair row;
    printf("%s", name);
    for (size_t at = 0; at < rows && puljemrod_pair_rows(&manager, at, &row, 1) == 1; at++)
        printf("; %llu %u", (unsigned long long)row.block, row.storage);
}

static void print_numbers(const char *name, uint64_t rows) {
    uint64_t row;
    printf(count ? "%s %llu" : "%s", name, count ? (unsigned long long)numbers[0] : 0);
    for (size_t at = 0; at < rows && puljemrod_number_rows(&manager, at, &row, 1) == 1; at++)
        printf("; %llu", (unsigned long long)row);
}

static uint32_t print_question(const char *name) {
    uint64_t it = 0;
    uint32_t code = PULJEMROD_BAD_LINE;
    if (strcmp(name, "list_corrupt") == 0) {
        code = puljemrod_corrupt_replicas(&manager, &it);
        if (code == PULJEMROD_OK) print_pairs("corrupt", it);
    } else if (strcmp(name, "list_excess") == 0) {
        code = puljemrod_excess_replicas(&manager, &it);
        if (code == PULJEMROD_OK) print_pairs("excess", it);
    } else if (strcmp(name, "list_missing") == 0) {
        code = puljemrod_missing_blocks(&manager, &it);
        if (code == PULJEMROD_OK) print_numbers("missing", it);
    } else if (strcmp(name, "list_storage") == 0) {
        code = puljemrod_blocks_on(&manager, small(0), &it);
        if (code == PULJEMROD_OK) print_numbers("storage", it);
    } else if (strcmp(name, "list_places") == 0) {
        code = puljemrod_places(&manager, numbers[0], &it);
        if (code == PULJEMROD_OK) print_numbers("places", it);
    } else if (strcmp(name, "level") == 0) {
        code = puljemrod_level(&manager, numbers[0], &it);
        if (code == PULJEMROD_OK) printf("level %llu; ", (unsigned long long)numbers[0]);
        if (code == PULJEMROD_OK) printf(it == PULJEMROD_NO_LEVEL ? "none" : "%u", (unsigned)it);
    } else if (strcmp(name, "retired") == 0) {
        code = puljemrod_retired(&manager, small(0), &it);
        if (code == PULJEMROD_OK) printf("retired %u; %s", small(0), it ? "yes" : "no");
    }
    return code;
}

static uint32_t print_typed(const char *name) {
    uint32_t code;
    puljemrod_counts done;
    if (strcmp(name, "round") == 0) return print_round();
    if (strcmp(name, "list_replicas") == 0) return print_replicas();
    if (!is_event(name, &code)) return print_question(name);
    if (code != PULJEMROD_OK || puljemrod_done(&manager, &done) != PULJEMROD_OK) return code;
    if (done.added_high || done.removed_high) printf("counts of more than 64 bits: ");
    printf("ok %llu %llu", (unsigned long long)done.added, (unsigned long long)done.removed);
    return code;
}

int main(int words, char **word) {
    puljemrod_options options = PULJEMROD_STANDARD;
    uint32_t *fields[] = {&options.shards, &options.work, &options.invalidate, &options.pend, &options.nodes, &options.storages};
    for (int at = 1; at < words && at <= 6; at++)
        *fields[at - 1] = (uint32_t)strtoul(word[at], NULL, 10);
    if (puljemrod_open(&manager, &options) != PULJEMROD_OK) return 2;
    char *line = NULL, piece[4096];
    size_t size = 0, len, copied;
    while (getline(&line, &size, stdin) > 0) {
        uint32_t code = print_typed(read_words(line));
        if (code != PULJEMROD_OK) printf("refused %u", (unsigned)code);
        putchar('\n');
        if (puljemrod_text(&manager, &len) != code) printf("another code: ");
        for (size_t from = 0; (copied = puljemrod_answer(&manager, from, piece, sizeof piece)) > 0; from += copied)
            fwrite(piece, 1, copied, stdout);
        putchar('\n');
    }
    free(line);
    free(numbers);
    return puljemrod_close(&manager) != PULJEMROD_OK || fclose(stdout) != 0;
}
