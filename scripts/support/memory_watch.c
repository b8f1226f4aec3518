// Comes before a program's allocator (LD_PRELOAD): refuses allocations on request, and counts the
// bytes that are held. It writes lines to the file that MEMORY_LOG names.
//
// The program reports where it is by lines on standard error:
//     begun NAME     from here on every allocation is refused
//     refuse K NAME  from here on the K-th allocation is refused, and that one alone
//     ended NAME     no longer; the log gets `window NAME` or, after `refuse`, `turn NAME`, and how
//                    many allocations were tried since; with threads the K-th may be that of any
//                    of them
//     mark NAME      the log gets `mark NAME` and how many bytes are held
// With REFUSE_AT=k the k-th allocation is refused, and that one alone; the log gets `refused k`.
// With PEAK=1 the log gets `peak` at the end, and how many bytes were held at most; the end is
// `exit` or, in a program that may start threads, `_exit`.
// With COUNT=1 it gets `made` there, and how many allocations were made.
//
// With LAST_TURN=k the log gets `sizes NAME T M B1 B2 ..` when `refuse k NAME` ends. T threads
// were started since then, M threads met (see below), and B1, B2 and so on are the bytes of each
// allocation.
// With MEET=NAME the started threads and their starter meet after each `refuse K NAME`: each waits
// at its first allocation until the others are at theirs, or have ended. This shows whether one
// thread does all the work.
#define _GNU_SOURCE
#include <errno.h>
#include <dlfcn.h>
#include <fcntl.h>
#include <malloc.h>
#include <pthread.h>
#include <stdatomic.h>
#include <stdint.h>
#include <stdio.h>
#include <stdlib.h>
#include <string.h>
#include <sys/syscall.h>
#include <sys/uio.h>
#include <time.h>
#include <unistd.h>

extern void *__libc_malloc(size_t);
extern void *__libc_calloc(size_t, size_t);
extern void *__libc_realloc(void *, size_t);
extern void *__libc_memalign(size_t, size_t);
extern void __libc_free(void *);

enum window { NONE, REFUSES_ALL, REFUSES_ONE };

enum { MOST_SIZES = 4096, MOST_SECONDS_TO_MEET = 10 };

static atomic_int is_watching;
static atomic_int window;
static atomic_long tried_in_window;
static atomic_long refused_in_window;
static atomic_long held;
static atomic_long peak;
static atomic_long made;
typedef int maker(pthread_t *, const pthread_attr_t *, void *(*)(void *), void *);

static maker *make;
static long refuse_at;
static long last_turn;
static const char *meet;
static int log_file = -1;

static atomic_ulong size_of_each[MOST_SIZES];
static atomic_long started;
static atomic_long ended;
static atomic_long met;
static atomic_int is_meeting;
// Whether this thread has still to meet others. It was started in a meeting, or starts threads
// there.
static __thread int has_to_meet __attribute__((tls_model("initial-exec")));

static void tell(const char *what, const char *name, long number) {
    char text[256];
    int length = snprintf(text, sizeof text, "%s %s%s%ld\n", what, name, *name ? " " : "", number);
    if (log_file >= 0 && length > 0) syscall(SYS_write, log_file, text, (size_t)length);
}

__attribute__((constructor)) static void start(void) {
    const char *path = getenv("MEMORY_LOG");
    const char *at = getenv("REFUSE_AT");
    if (path) log_file = open(path, O_WRONLY | O_CREAT | O_APPEND | O_CLOEXEC, 0600);
    const char *last = getenv("LAST_TURN");
    if (at) refuse_at = atol(at);
    if (last) last_turn = atol(last);
    meet = getenv("MEET");
    make = (maker *)dlsym(RTLD_NEXT, "pthread_create");
    atomic_store(&held, 0);
    atomic_store(&is_watching, 1);
}

__attribute__((destructor)) static void end(void) {
    static atomic_int has_ended;
    if (atomic_exchange(&has_ended, 1)) return;
    if (getenv("PEAK")) tell("peak", "", atomic_load(&peak));
    if (getenv("COUNT")) tell("made", "", atomic_load(&made));
}

void _exit(int status) {
    end();
    for (;;) syscall(SYS_exit_group, status);
}

void _Exit(int status) {
    _exit(status);
}

// Waits until all started threads and this one are here, or have ended.
static void meet_others(void) {
    has_to_meet = 0;
    atomic_fetch_add(&met, 1);
    struct timespec pause = {0, 100000};
    for (long n = 0; n < MOST_SECONDS_TO_MEET * 10000L; n++) {
        if (atomic_load(&met) + atomic_load(&ended) > atomic_load(&started) || !atomic_load(&is_meeting)) return;
        nanosleep(&pause, NULL);
    }
}

static int is_refused(size_t size) {
    if (!atomic_load(&is_watching)) return 0;
    if (has_to_meet && atomic_load(&is_meeting)) meet_others();
    int kind = atomic_load(&window);
    if (kind != NONE) {
        long tried = atomic_fetch_add(&tried_in_window, 1) + 1;
        if (tried <= MOST_SIZES) atomic_store(&size_of_each[tried - 1], size);
        return kind == REFUSES_ALL || tried == atomic_load(&refused_in_window);
    }
    long number = atomic_fetch_add(&made, 1) + 1;
    if (number != refuse_at) return 0;
    tell("refused", "", number);
    return 1;
}

static void *counted(void *block) {
    if (!block) return NULL;
    long size = (long)malloc_usable_size(block);
    long now = atomic_fetch_add(&held, size) + size;
    long most = atomic_load(&peak);
    while (now > most && !atomic_compare_exchange_weak(&peak, &most, now)) {
    }
    return block;
}

static void *none(void) {
    errno = ENOMEM;
    return NULL;
}

void *malloc(size_t size) {
    return is_refused(size) ? none() : counted(__libc_malloc(size));
}

void *calloc(size_t count, size_t size) {
    return is_refused(count * size) ? none() : counted(__libc_calloc(count, size));
}

// A block that only shrinks is an allocation too: the allocator may refuse it.
void *realloc(void *block, size_t size) {
    if (is_refused(size)) return none();
    long before = block ? (long)malloc_usable_size(block) : 0;
    void *result = __libc_realloc(block, size);
    if (result || size == 0) atomic_fetch_sub(&held, before);
    return counted(result);
}

void *memalign(size_t align, size_t size) {
    return is_refused(size) ? none() : counted(__libc_memalign(align, size));
}

void *aligned_alloc(size_t align, size_t size) {
    return memalign(align, size);
}

int posix_memalign(void **block, size_t align, size_t size) {
    void *result = memalign(align, size);
    if (!result) return ENOMEM;
    *block = result;
    return 0;
}

void free(void *block) {
    if (block) atomic_fetch_sub(&held, (long)malloc_usable_size(block));
    __libc_free(block);
}

struct thread_start {
    void *(*body)(void *);
    void *argument;
};

// The body of a thread that is started in a meeting.
static void *run_in_meeting(void *given) {
    struct thread_start start = *(struct thread_start *)given;
    __libc_free(given);
    has_to_meet = 1;
    void *result = start.body(start.argument);
    if (has_to_meet) atomic_fetch_add(&ended, 1);
    has_to_meet = 0;
    return result;
}

int pthread_create(pthread_t *thread, const pthread_attr_t *attributes, void *(*body)(void *), void *argument) {
    atomic_fetch_add(&started, 1);
    int error;
    if (atomic_load(&is_meeting)) {
        struct thread_start *start = __libc_malloc(sizeof *start);
        *start = (struct thread_start){body, argument};
        error = make(thread, attributes, run_in_meeting, start);
        has_to_meet = !error;
    } else {
        error = make(thread, attributes, body, argument);
    }
    if (error) atomic_fetch_sub(&started, 1);
    return error;
}

static void tell_sizes(const char *name) {
    static char text[32 * MOST_SIZES];
    long count = atomic_load(&tried_in_window);
    int length = snprintf(text, sizeof text, "sizes %s %ld %ld", name, atomic_load(&started), atomic_load(&met));
    for (long n = 0; n < count && n < MOST_SIZES; n++)
        length += snprintf(text + length, sizeof text - length, " %lu", atomic_load(&size_of_each[n]));
    text[length++] = '\n';
    if (log_file >= 0) syscall(SYS_write, log_file, text, (size_t)length);
}

static void begin_turn(const char *words) {
    char *name;
    atomic_store(&tried_in_window, 0);
    atomic_store(&started, 0);
    atomic_store(&ended, 0);
    atomic_store(&met, 0);
    atomic_store(&refused_in_window, strtol(words, &name, 10));
    atomic_store(&is_meeting, meet && *name == ' ' && !strcmp(name + 1, meet));
    atomic_store(&window, REFUSES_ONE);
}

static void end_turn(const char *name) {
    tell("turn", name, atomic_load(&tried_in_window));
    if (last_turn && atomic_load(&refused_in_window) == last_turn) tell_sizes(name);
    atomic_store(&is_meeting, 0);
    has_to_meet = 0;
}

static void take_line(const char *line) {
    if (!strncmp(line, "begun ", 6)) {
        atomic_store(&tried_in_window, 0);
        atomic_store(&window, REFUSES_ALL);
    } else if (!strncmp(line, "refuse ", 7)) {
        begin_turn(line + 7);
    } else if (!strncmp(line, "ended ", 6)) {
        if (atomic_exchange(&window, NONE) == REFUSES_ONE) end_turn(line + 6);
        else tell("window", line + 6, atomic_load(&tried_in_window));
    } else if (!strncmp(line, "mark ", 5)) {
        tell("mark", line + 5, atomic_load(&held));
    }
}

static void take_text(const char *bytes, size_t count) {
    static char line[128];
    static size_t length;
    for (size_t i = 0; i < count; i++) {
        if (bytes[i] == '\n') {
            line[length] = 0;
            take_line(line);
            length = 0;
        } else if (length + 1 < sizeof line) {
            line[length++] = bytes[i];
        }
    }
}

ssize_t write(int file, const void *bytes, size_t count) {
    ssize_t written = syscall(SYS_write, file, bytes, count);
    if (file == 2 && written > 0) take_text(bytes, (size_t)written);
    return written;
}

ssize_t writev(int file, const struct iovec *parts, int count) {
    ssize_t written = syscall(SYS_writev, file, parts, count);
    ssize_t left = written;
    for (int i = 0; file == 2 && i < count && left > 0; i++) {
        size_t part = parts[i].iov_len < (size_t)left ? parts[i].iov_len : (size_t)left;
        take_text(parts[i].iov_base, part);
        left -= (ssize_t)part;
    }
    return written;
}
