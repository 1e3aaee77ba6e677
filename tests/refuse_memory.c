/* Refuses requests for memory, or threads, of a program into which LD_PRELOAD loads it; tests/memory.py builds it.
 *
 * REFUSE_REQUEST=N refuses the Nth request for memory that the program makes, counted from 1, and no other one.
 * REFUSE_REQUESTS_FROM=N refuses that one and all behind it. REFUSE_THREAD=N has the Nth thread not start. Where the
 * program ends by itself, the file REFUSE_REPORT gets a line: how many requests and threads it asked for, and how many
 * of both were refused. It stands on the names under which glibc offers its own allocator.
 */
#define _GNU_SOURCE
#include <dlfcn.h>
#include <errno.h>
#include <fcntl.h>
#include <pthread.h>
#include <stdatomic.h>
#include <stddef.h>
#include <stdio.h>
#include <stdlib.h>
#include <string.h>
#include <sys/syscall.h>
#include <unistd.h>

extern void *__libc_malloc(size_t size);
extern void *__libc_calloc(size_t count, size_t size);
extern void *__libc_realloc(void *old, size_t size);
extern void *__libc_memalign(size_t alignment, size_t size);

typedef int start_thread(pthread_t *, const pthread_attr_t *, void *(*)(void *), void *);

static atomic_ulong requests, threads, refused;
static unsigned long refused_request, first_refused, refused_thread;
static char report[4096];
static start_thread *really_start;
static atomic_flag is_reported = ATOMIC_FLAG_INIT;

static unsigned long number_of(const char *name) {
    const char *value = getenv(name);
    return value ? strtoul(value, NULL, 10) : 0;
}

/* Requests before this one aren't the program's, and aren't counted. */
__attribute__((constructor)) static void begin(void) {
    const char *path = getenv("REFUSE_REPORT");
    if (!path || strlen(path) >= sizeof report)
        return;
    refused_request = number_of("REFUSE_REQUEST");
    first_refused = number_of("REFUSE_REQUESTS_FROM");
    refused_thread = number_of("REFUSE_THREAD");
    really_start = (start_thread *)dlsym(RTLD_NEXT, "pthread_create");
    strcpy(report, path);
}

__attribute__((destructor)) static void end(void) {
    if (!report[0] || atomic_flag_test_and_set(&is_reported))
        return;
    char line[64];
    int length = snprintf(line, sizeof line, "%lu %lu %lu\n", atomic_load(&requests), atomic_load(&threads),
                          atomic_load(&refused));
    int file = open(report, O_WRONLY | O_CREAT | O_TRUNC, 0600);
    if (file < 0 || write(file, line, length) != length)
        abort();
}

/* A program that ends so runs no destructor. */
void _exit(int status) {
    end();
    for (;;)
        syscall(SYS_exit_group, status);
}

static int is_refused(void) {
    if (!report[0])
        return 0;
    unsigned long number = atomic_fetch_add(&requests, 1) + 1;
    if (number != refused_request && (!first_refused || number < first_refused))
        return 0;
    atomic_fetch_add(&refused, 1);
    errno = ENOMEM;
    return 1;
}

void *malloc(size_t size) { return is_refused() ? NULL : __libc_malloc(size); }

void *calloc(size_t count, size_t size) { return is_refused() ? NULL : __libc_calloc(count, size); }

void *realloc(void *old, size_t size) { return is_refused() ? NULL : __libc_realloc(old, size); }

void *memalign(size_t alignment, size_t size) { return is_refused() ? NULL : __libc_memalign(alignment, size); }

void *aligned_alloc(size_t alignment, size_t size) { return memalign(alignment, size); }

int posix_memalign(void **to, size_t alignment, size_t size) {
    void *found = memalign(alignment, size);
    if (!found)
        return ENOMEM;
    *to = found;
    return 0;
}

int pthread_create(pthread_t *thread, const pthread_attr_t *how, void *(*run)(void *), void *with) {
    unsigned long number = atomic_fetch_add(&threads, 1) + 1;
    if (!really_start || number == refused_thread) {
        atomic_fetch_add(&refused, 1);
        return EAGAIN;
    }
    return really_start(thread, how, run, with);
}
