// Comes before a program's `pthread_create` (LD_PRELOAD): counts the threads that are asked for,
// and refuses some on request.
//
// With THREADS_FROM=k the k-th thread and all later ones are refused, as where the system has none
// left; THREADS_FROM=1 refuses all. At the end the file that THREAD_LOG names gets a line `started
// N refused M`; the end is `exit` or `_exit`.
#define _GNU_SOURCE
#include <dlfcn.h>
#include <errno.h>
#include <fcntl.h>
#include <pthread.h>
#include <stdatomic.h>
#include <stdio.h>
#include <stdlib.h>
#include <sys/syscall.h>
#include <unistd.h>

typedef int maker(pthread_t *, const pthread_attr_t *, void *(*)(void *), void *);

static maker *make;
static long refused_from;
static atomic_long asked;
static atomic_long started;
static atomic_long refused;
static int log_file = -1;

__attribute__((constructor)) static void start(void) {
    const char *path = getenv("THREAD_LOG");
    const char *from = getenv("THREADS_FROM");
    if (path) log_file = open(path, O_WRONLY | O_CREAT | O_APPEND | O_CLOEXEC, 0600);
    if (from) refused_from = atol(from);
    make = (maker *)dlsym(RTLD_NEXT, "pthread_create");
}

int pthread_create(pthread_t *thread, const pthread_attr_t *attributes, void *(*body)(void *), void *argument) {
    long number = atomic_fetch_add(&asked, 1) + 1;
    if (refused_from && number >= refused_from) {
        atomic_fetch_add(&refused, 1);
        return EAGAIN;
    }
    int error = make(thread, attributes, body, argument);
    atomic_fetch_add(error ? &refused : &started, 1);
    return error;
}

__attribute__((destructor)) static void end(void) {
    static atomic_int has_ended;
    if (atomic_exchange(&has_ended, 1) || log_file < 0) return;
    char text[96];
    int length = snprintf(text, sizeof text, "started %ld refused %ld\n", atomic_load(&started), atomic_load(&refused));
    if (length > 0) syscall(SYS_write, log_file, text, (size_t)length);
}

void _exit(int status) {
    end();
    for (;;) syscall(SYS_exit_group, status);
}

void _Exit(int status) {
    _exit(status);
}
