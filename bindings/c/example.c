/* The line tool in C: answers each line of standard input by a line of standard output, and then
 * prints on standard error how many lines it answered. Its arguments are shards, work, invalidate,
 * pend, nodes and storages, in this order; the last ones may be left out.
 *
 * Status 1 where a read or a write fails or memory is refused, and 2 for a wrong argument; standard
 * error says what it was. */
#include "puljemrod.h"

#include <errno.h>
#include <stdio.h>
#include <stdlib.h>
#include <string.h>
#include <sys/random.h>
#include <sys/types.h>

static int fault(int status, const char *what, const char *why) {
    fprintf(stderr, "example: %s: %s\n", what, why);
    return status;
}

/* Reads a number below 2^32, of digits alone. */
static bool read_number(const char *word, uint32_t *number) {
    uint64_t value = 0;
    const char *at = word;
    for (; *at >= '0' && *at <= '9' && value <= UINT32_MAX; at++)
        value = 10 * value + (uint64_t)(*at - '0');
    *number = (uint32_t)value;
    return at > word && *at == '\0' && value <= UINT32_MAX;
}

/* Writes the answer in pieces, and a line end. */
static bool write_answer(puljemrod *manager) {
    char piece[4096];
    size_t from = 0, count;
    while ((count = puljemrod_answer(manager, from, piece, sizeof piece)) > 0) {
        if (fwrite(piece, 1, count, stdout) != count) return false;
        from += count;
    }
    return putchar('\n') != EOF;
}

static int answer_lines(puljemrod *manager) {
    char *line = NULL;
    size_t capacity = 0, answered = 0, answer_len;
    ssize_t len;
    int status = 0;
    /* Where a read fails, what was read of a line is not one. */
    while (status == 0 && (len = getline(&line, &capacity, stdin)) > 0 && !ferror(stdin)) {
        if (line[len - 1] == '\n') len--;
        uint32_t code = puljemrod_line(manager, line, (size_t)len, &answer_len);
        if (code == PULJEMROD_MEMORY)
            status = fault(1, "memory was refused", "the last line is not answered");
        else if (code == PULJEMROD_NO_TEXT)
            status = fault(1, "memory was refused", "the last line is answered, and its text is owed");
        else if (!write_answer(manager))
            status = fault(1, "standard output", strerror(errno));
        answered += status == 0;
    }
    if (status == 0 && !feof(stdin)) status = fault(1, "standard input", strerror(errno));
    free(line);
    if (fclose(stdout) != 0 && status == 0) status = fault(1, "standard output", strerror(errno));
    fprintf(stderr, "%zu lines answered\n", answered);
    return status;
}

int main(int count, char **words) {
    puljemrod manager = PULJEMROD_CLOSED_HANDLE;
    puljemrod_options options = PULJEMROD_STANDARD;
    uint32_t *fields[] = {&options.shards, &options.work,  &options.invalidate,
                          &options.pend,   &options.nodes, &options.storages};
    if (count > 7) return fault(2, words[7], "at most six numbers are arguments");
    for (int at = 1; at < count; at++)
        if (!read_number(words[at], fields[at - 1])) return fault(2, words[at], "no number below 2^32");
    /* Without a secret, whoever chooses block numbers can make each call slow. */
    if (getrandom(&options.secret, sizeof options.secret, 0) != sizeof options.secret)
        return fault(1, "no random secret", strerror(errno));
    uint32_t code = puljemrod_open(&manager, &options);
    if (code != PULJEMROD_OK) {
        fprintf(stderr, "example: the manager cannot be opened: code %u\n", (unsigned)code);
        return 2;
    }
    int status = answer_lines(&manager);
    return puljemrod_close(&manager) == PULJEMROD_OK ? status : 1;
}
