/* A library in place of libpuljemrod.a: its answers are those of the model. Each call is a line,
 * which a child process answers: MODEL is the path of model_within. So programs that call the
 * library can be tried before it is built. It has the functions that the loops of a NameNode
 * call. */
#include "puljemrod.h"

#include <inttypes.h>
#include <stdarg.h>
#include <stdio.h>
#include <stdlib.h>
#include <string.h>
#include <unistd.h>

/* An open manager: its child, the last answer, and how often an event or a round was accepted. */
typedef struct {
    FILE *to, *from;
    char *answer;
    size_t capacity, len;
    uint64_t calls;
} model;

#define NUMBER "%" PRIu64

static model *of(puljemrod *handle) {
    return handle->at;
}

uint32_t puljemrod_version(void) {
    return PULJEMROD_VERSION_NUMBER;
}

uint32_t puljemrod_open(puljemrod *handle, const puljemrod_options *options) {
    if (options->nodes > 65536 || options->storages > 1048576) return PULJEMROD_BAD_CONFIG;
    int to[2], from[2];
    model *made = calloc(1, sizeof *made);
    char words[5][24];
    if (!made || pipe(to) || pipe(from)) abort();
    sprintf(words[0], "%" PRIu32, options->nodes ? options->nodes : 256);
    sprintf(words[1], "%" PRIu32, options->storages ? options->storages : 4096);
    sprintf(words[2], "--work=%" PRIu32, options->work);
    sprintf(words[3], "--invalidate=%" PRIu32, options->invalidate);
    sprintf(words[4], "--pend=%" PRIu32, options->pend);
    if (fork() == 0) {
        dup2(to[0], 0);
        dup2(from[1], 1);
        for (int end = 0; end < 2; end++) {
            close(to[end]);
            close(from[end]);
        }
        execl(MODEL, MODEL, words[0], words[1], words[2], words[3], words[4], (char *)NULL);
        abort();
    }
    close(to[0]);
    close(from[1]);
    made->to = fdopen(to[1], "w");
    made->from = fdopen(from[0], "r");
    handle->at = made;
    handle->is_open = true;
    return PULJEMROD_OK;
}

uint32_t puljemrod_text(puljemrod *handle, size_t *answer_len) {
    unsigned code = 0;
    *answer_len = of(handle)->len;
    if (of(handle)->answer) sscanf(of(handle)->answer, "refused %u", &code);
    return code;
}

uint32_t puljemrod_line(puljemrod *handle, const void *line, size_t line_len, size_t *answer_len) {
    model *it = of(handle);
    fwrite(line, 1, line_len, it->to);
    putc('\n', it->to);
    fflush(it->to);
    ssize_t len = getline(&it->answer, &it->capacity, it->from);
    if (len < 1) abort();
    it->len = (size_t)len - 1;
    it->answer[it->len] = '\0';
    it->calls += !strncmp(it->answer, "ok ", 3) || !strncmp(it->answer, "round ", 6);
    return puljemrod_text(handle, answer_len);
}

size_t puljemrod_answer(puljemrod *handle, size_t from, void *out, size_t out_len) {
    if (!handle->is_open || from >= of(handle)->len) return 0;
    size_t rest = of(handle)->len - from, len = rest < out_len ? rest : out_len;
    memcpy(out, of(handle)->answer + from, len);
    return len;
}

uint32_t puljemrod_close(puljemrod *handle) {
    if (!handle->is_open) return PULJEMROD_CLOSED;
    fclose(of(handle)->to);
    fclose(of(handle)->from);
    free(of(handle)->answer);
    free(handle->at);
    handle->is_open = false;
    return PULJEMROD_OK;
}

/* A call, as the JSON of its line without the braces. */
static uint32_t ask(puljemrod *handle, const char *format, ...) {
    char *line;
    size_t len, answer_len;
    FILE *text = open_memstream(&line, &len);
    va_list words;
    va_start(words, format);
    fprintf(text, "{\"op\":");
    vfprintf(text, format, words);
    fprintf(text, "}");
    fclose(text);
    va_end(words);
    uint32_t code = puljemrod_line(handle, line, len, &answer_len);
    free(line);
    return code;
}

/* A list of JSON; the items are numbers, each with `size` of them. */
static char *list(const uint64_t *numbers, size_t size, size_t count) {
    char *list;
    size_t len;
    FILE *text = open_memstream(&list, &len);
    for (size_t at = 0; at < size * count; at++)
        fprintf(text, "%s%s" NUMBER "%s", at ? "," : "", size > 1 && at % size == 0 ? "[" : "",
                numbers[at], size > 1 && at % size == size - 1 ? "]" : "");
    fclose(text);
    return list;
}

/* A call with a list. */
static uint32_t ask_with(puljemrod *handle, const char *format, char *list, uint64_t first,
                         uint64_t second) {
    char *words;
    size_t len;
    FILE *text = open_memstream(&words, &len);
    fprintf(text, format, first, second);
    fclose(text);
    uint32_t code = ask(handle, "%s:[%s]", words, list);
    free(words);
    free(list);
    return code;
}

uint32_t puljemrod_register(puljemrod *handle, uint32_t node, uint32_t rack,
                            const uint32_t *storages, size_t count) {
    uint64_t numbers[count + 1];
    for (size_t at = 0; at < count; at++) numbers[at] = storages[at];
    const char *words = "\"register\",\"node\":" NUMBER ",\"rack\":" NUMBER ",\"storages\"";
    return ask_with(handle, words, list(numbers, 1, count), node, rack);
}

uint32_t puljemrod_heartbeat(puljemrod *handle, uint32_t node, const puljemrod_remaining *remaining,
                             size_t count) {
    uint64_t numbers[2 * count + 1];
    for (size_t at = 0; at < count; at++) {
        numbers[2 * at] = remaining[at].storage;
        numbers[2 * at + 1] = remaining[at].remaining;
    }
    return ask_with(handle, "\"heartbeat\",\"node\":" NUMBER ",\"remaining\"",
                    list(numbers, 2, count), node, 0);
}

uint32_t puljemrod_full_report(puljemrod *handle, uint32_t storage, const puljemrod_entry *entries,
                               size_t count) {
    uint64_t numbers[4 * count + 1];
    for (size_t at = 0; at < count; at++)
        memcpy(numbers + 4 * at, entries + at, 4 * sizeof *numbers);
    return ask_with(handle, "\"report\",\"storage\":" NUMBER ",\"blocks\"", list(numbers, 4, count),
                    storage, 0);
}

/* Events of up to four numbers. */
#define FIELD(name) ",\"" #name "\":" NUMBER
#define EVENT(name, op, fields, parameters, ...)                                                   \
    uint32_t puljemrod_##name parameters {                                                         \
        return ask(handle, "\"" op "\"" fields, __VA_ARGS__);                                      \
    }
#define N(number) (uint64_t)(number)
EVENT(dead, "dead", FIELD(node), (puljemrod * handle, uint32_t node), N(node))
EVENT(drain, "drain", FIELD(node), (puljemrod * handle, uint32_t node), N(node))
EVENT(undrain, "undrain", FIELD(node), (puljemrod * handle, uint32_t node), N(node))
EVENT(storage_failed, "storage_failed", FIELD(storage), (puljemrod * handle, uint32_t storage),
      N(storage))
EVENT(delete_block, "delete", FIELD(id), (puljemrod * handle, uint64_t id), id)
EVENT(set_replication, "set_replication", FIELD(id) FIELD(repl),
      (puljemrod * handle, uint64_t id, uint32_t repl), id, N(repl))
EVENT(restamp, "restamp", FIELD(id) FIELD(gen) FIELD(len),
      (puljemrod * handle, uint64_t id, uint64_t gen, uint64_t len), id, gen, len)
EVENT(add_block, "add", FIELD(id) FIELD(gen) FIELD(len) FIELD(repl),
      (puljemrod * handle, uint64_t id, uint64_t gen, uint64_t len, uint32_t repl), id, gen, len,
      N(repl))
EVENT(received, "received", FIELD(storage) FIELD(id) FIELD(gen) FIELD(len),
      (puljemrod * handle, uint32_t storage, uint64_t id, uint64_t gen, uint64_t len), N(storage),
      id, gen, len)
EVENT(deleted, "deleted", FIELD(storage) FIELD(id),
      (puljemrod * handle, uint32_t storage, uint64_t id), N(storage), id)
EVENT(corrupt, "corrupt", FIELD(storage) FIELD(id),
      (puljemrod * handle, uint32_t storage, uint64_t id), N(storage), id)

uint32_t puljemrod_done(puljemrod *handle, puljemrod_counts *counts) {
    *counts = (puljemrod_counts){0, 0, 0, 0};
    sscanf(of(handle)->answer, "ok " NUMBER " " NUMBER, &counts->added, &counts->removed);
    return PULJEMROD_OK;
}

uint32_t puljemrod_calls(puljemrod *handle, uint64_t *calls) {
    if (!handle->is_open) return PULJEMROD_CLOSED;
    *calls = of(handle)->calls;
    return PULJEMROD_OK;
}

/* The items of the last answer that begin with a word, from the one with index `from` on: writes
 * `size` numbers of each. Returns how many there are, at most `most`. */
static size_t items(puljemrod *handle, const char *word, size_t from, uint64_t *out, size_t size,
                    size_t most) {
    size_t found = 0, written = 0;
    for (char *at = strchr(of(handle)->answer, ';'); at && written < most;
         at = strchr(at + 1, ';')) {
        char *number = at + 2 + strlen(word);
        if (strncmp(at + 2, word, strlen(word)) || found++ < from) continue;
        for (size_t field = 0; field < size; field++)
            out[size * written + field] = strtoull(number, &number, 10);
        written++;
    }
    return written;
}

static uint32_t count_items(puljemrod *handle, uint32_t code, const char *word, uint64_t *count) {
    if (code == PULJEMROD_OK) *count = items(handle, word, 0, NULL, 0, SIZE_MAX);
    return code;
}

uint32_t puljemrod_excess_replicas(puljemrod *handle, uint64_t *count) {
    return count_items(handle, ask(handle, "\"list_excess\""), "", count);
}

uint32_t puljemrod_missing_blocks(puljemrod *handle, uint64_t *count) {
    return count_items(handle, ask(handle, "\"list_missing\""), "", count);
}

uint32_t puljemrod_places(puljemrod *handle, uint64_t id, uint64_t *count) {
    return count_items(handle, ask(handle, "\"list_places\"" FIELD(id), id), "", count);
}

size_t puljemrod_number_rows(puljemrod *handle, size_t from, uint64_t *out, size_t out_len) {
    return items(handle, "", from, out, 1, out_len);
}

uint32_t puljemrod_replicas(puljemrod *handle, uint64_t *count) {
    return count_items(handle, ask(handle, "\"list_replicas\""), "", count);
}

/* Of the tags, good alone matters to those who call it. */
size_t puljemrod_replica_rows(puljemrod *handle, size_t from, puljemrod_replica *out,
                              size_t out_len) {
    char *at = strchr(of(handle)->answer, ';');
    size_t written = 0;
    for (size_t found = 0; at && written < out_len; at = strchr(at + 1, ';')) {
        char tag[8];
        if (found++ < from) continue;
        sscanf(at, "; " NUMBER " %" SCNu32 " %7[a-z]", &out[written].block, &out[written].storage,
               tag);
        out[written++].tag = strcmp(tag, "good") ? PULJEMROD_BAD : PULJEMROD_GOOD;
    }
    return written;
}

size_t puljemrod_locate(const puljemrod_replica *rows, size_t row_count, uint64_t id,
                        uint32_t *out, size_t out_len) {
    size_t found = 0;
    for (size_t at = 0; at < row_count; at++)
        if (rows[at].block == id && rows[at].tag == PULJEMROD_GOOD && found < out_len)
            out[found++] = rows[at].storage;
    return found;
}

size_t puljemrod_pair_rows(puljemrod *handle, size_t from, puljemrod_pair *out, size_t out_len) {
    uint64_t row[2];
    size_t at = 0;
    for (; at < out_len && items(handle, "", from + at, row, 2, 1); at++)
        out[at] = (puljemrod_pair){row[0], (uint32_t)row[1]};
    return at;
}

uint32_t puljemrod_round(puljemrod *handle, uint64_t *round, uint64_t *copies, uint64_t *deletes) {
    uint32_t code = ask(handle, "\"round\"");
    if (code == PULJEMROD_OK) sscanf(of(handle)->answer, "round " NUMBER, round);
    count_items(handle, code, "copy", copies);
    return count_items(handle, code, "delete", deletes);
}

size_t puljemrod_copies(puljemrod *handle, size_t from, puljemrod_copy *out, size_t out_len) {
    uint64_t row[6];
    size_t at = 0;
    for (; at < out_len && items(handle, "copy", from + at, row, 6, 1); at++)
        out[at] = (puljemrod_copy){(uint32_t)row[0], (uint32_t)row[4], (uint32_t)row[5],
                                   row[1],           row[2],           row[3]};
    return at;
}

size_t puljemrod_deletes(puljemrod *handle, size_t from, puljemrod_delete *out, size_t out_len) {
    uint64_t row[3];
    size_t at = 0;
    for (; at < out_len && items(handle, "delete", from + at, row, 3, 1); at++)
        out[at] = (puljemrod_delete){(uint32_t)row[0], (uint32_t)row[1], row[2]};
    return at;
}
