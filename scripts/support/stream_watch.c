// Intercepts a program's reads of standard input and its writes of standard output and standard
// error (LD_PRELOAD), and lets them fail as the variables say. At the end, which is `exit` or
// `_exit`, the file that STREAM_LOG names gets a line `reads N writes M`. These are the numbers of
// reads of standard input and of writes of standard output, failed ones included.
//
// With READ_BYTES=n a read gives n bytes at most, and with WRITE_BYTES=n a write takes n bytes at
// most.
// With READ_FAILS=k the k-th read fails, and that one alone; with WRITE_FAILS=k the k-th write and
// all later ones.
//
// With NOTE_BYTES=n a write to standard error takes n bytes at most. With NOTE_FAILS=k the k-th
// such write fails, and that one alone, so that the program can still report the fault there.
#define _GNU_SOURCE
#include <errno.h>
#include <fcntl.h>
#include <stdatomic.h>
#include <stdio.h>
#include <stdlib.h>
#include <string.h>
#include <sys/syscall.h>
#include <sys/uio.h>
#include <unistd.h>

static long read_bytes;
static long read_fails;
static long write_bytes;
static long write_fails;
static long note_bytes;
static long note_fails;
static atomic_long reads;
static atomic_long writes;
static atomic_long notes;
static int log_file = -1;

static long number_in(const char *name) {
    const char *text = getenv(name);
    return text ? atol(text) : 0;
}

__attribute__((constructor)) static void start(void) {
    const char *path = getenv("STREAM_LOG");
    if (path) log_file = open(path, O_WRONLY | O_CREAT | O_APPEND | O_CLOEXEC, 0600);
    read_bytes = number_in("READ_BYTES");
    read_fails = number_in("READ_FAILS");
    write_bytes = number_in("WRITE_BYTES");
    write_fails = number_in("WRITE_FAILS");
    note_bytes = number_in("NOTE_BYTES");
    note_fails = number_in("NOTE_FAILS");
}

static ssize_t failed(int error) {
    errno = error;
    return -1;
}

static size_t at_most(size_t count, long most) {
    return most > 0 && count > (size_t)most ? (size_t)most : count;
}

ssize_t read(int file, void *bytes, size_t count) {
    if (file == 0) {
        if (atomic_fetch_add(&reads, 1) + 1 == read_fails) return failed(EIO);
        count = at_most(count, read_bytes);
    }
    return syscall(SYS_read, file, bytes, count);
}

// The first part that is not empty, or the last one.
static const struct iovec *first_part(const struct iovec *parts, int count) {
    while (count > 1 && parts->iov_len == 0) {
        parts++;
        count--;
    }
    return parts;
}

ssize_t readv(int file, const struct iovec *parts, int count) {
    if (file != 0 || count < 1) return syscall(SYS_readv, file, parts, count);
    const struct iovec *part = first_part(parts, count);
    return read(file, part->iov_base, part->iov_len);
}

ssize_t write(int file, const void *bytes, size_t count) {
    if (file == 1) {
        long number = atomic_fetch_add(&writes, 1) + 1;
        if (write_fails && number >= write_fails) return failed(ENOSPC);
        count = at_most(count, write_bytes);
    }
    if (file == 2) {
        if (atomic_fetch_add(&notes, 1) + 1 == note_fails) return failed(ENOSPC);
        count = at_most(count, note_bytes);
    }
    return syscall(SYS_write, file, bytes, count);
}

ssize_t writev(int file, const struct iovec *parts, int count) {
    if ((file != 1 && file != 2) || count < 1) return syscall(SYS_writev, file, parts, count);
    const struct iovec *part = first_part(parts, count);
    return write(file, part->iov_base, part->iov_len);
}

__attribute__((destructor)) static void end(void) {
    static atomic_int has_ended;
    if (atomic_exchange(&has_ended, 1) || log_file < 0) return;
    char text[96];
    int length = snprintf(text, sizeof text, "reads %ld writes %ld\n", atomic_load(&reads), atomic_load(&writes));
    if (length > 0) syscall(SYS_write, log_file, text, (size_t)length);
}

void _exit(int status) {
    end();
    for (;;) syscall(SYS_exit_group, status);
}

void _Exit(int status) {
    _exit(status);
}
