/* Times the lines that a program answers, and may give each of its threads a processor of its own. For measuring only:
 *
 *     cc -O2 -shared -fPIC -o own_cores.so own_cores.c
 *     LD_PRELOAD=./own_cores.so LINE_TIMES=FILE [OWN_CORES=1] PROGRAM serve ..
 *
 * FILE gets a line for each answer that is written: the milliseconds from what was read last, or from the answer before it, the
 * milliseconds of processor time that the process took in between, and how many threads it made. With OWN_CORES the threads
 * that the main thread makes stay on processor 0, and each other thread, which helps with a half, has one of processors 1 to
 * 3 to itself, as long as one is free.
 */
#define _GNU_SOURCE
#include <dlfcn.h>
#include <pthread.h>
#include <sched.h>
#include <stdatomic.h>
#include <stdio.h>
#include <stdlib.h>
#include <sys/socket.h>
#include <sys/syscall.h>
#include <time.h>
#include <unistd.h>

typedef void *(*work)(void *);
typedef struct { work run; void *with; int processor; } job;

static atomic_int unused = 0xe;
static atomic_int made;
static _Thread_local double begun, begun_busy;
static _Thread_local int begun_made;

static double milliseconds(clockid_t clock)
{
    struct timespec time;
    clock_gettime(clock, &time);
    return time.tv_sec * 1e3 + time.tv_nsec * 1e-6;
}

static FILE *times(void)
{
    static FILE *file;
    if (!file && getenv("LINE_TIMES"))
        file = fopen(getenv("LINE_TIMES"), "w");
    return file;
}

static void line_begins(void)
{
    begun_made = made;
    begun_busy = milliseconds(CLOCK_PROCESS_CPUTIME_ID);
    begun = milliseconds(CLOCK_MONOTONIC);
}

static void line_ends(void)
{
    if (!begun || !times())
        return;
    double took = milliseconds(CLOCK_MONOTONIC) - begun;
    double busy = milliseconds(CLOCK_PROCESS_CPUTIME_ID) - begun_busy;
    fprintf(times(), "%.4f %.4f %d\n", took, busy, made - begun_made);
    fflush(times());
}

ssize_t recv(int socket, void *bytes, size_t size, int flags)
{
    ssize_t got = recvfrom(socket, bytes, size, flags, NULL, NULL);
    if (got > 0)
        line_begins();
    return got;
}

ssize_t read(int file, void *bytes, size_t size)
{
    ssize_t got = syscall(SYS_read, file, bytes, size);
    if (got > 0 && file > 2)
        line_begins();
    return got;
}

ssize_t send(int socket, const void *bytes, size_t size, int flags)
{
    line_ends();
    ssize_t put = sendto(socket, bytes, size, flags, NULL, 0);
    line_begins();
    return put;
}

ssize_t write(int file, const void *bytes, size_t size)
{
    if (file > 2)
        line_ends();
    ssize_t put = syscall(SYS_write, file, bytes, size);
    if (file > 2)
        line_begins();
    return put;
}

static int taken_processor(void)
{
    int found = unused;
    while (found) {
        int lowest = found & -found;
        if (atomic_compare_exchange_weak(&unused, &found, found & ~lowest))
            return __builtin_ctz(lowest);
    }
    return -1;
}

static void *run_job(void *given)
{
    job it = *(job *)given;
    free(given);
    void *result = it.run(it.with);
    if (it.processor > 0)
        atomic_fetch_or(&unused, 1 << it.processor);
    return result;
}

int pthread_create(pthread_t *thread, const pthread_attr_t *attributes, work run, void *with)
{
    static int (*create)(pthread_t *, const pthread_attr_t *, work, void *);
    if (!create)
        create = (int (*)(pthread_t *, const pthread_attr_t *, work, void *))dlsym(RTLD_NEXT, "pthread_create");
    atomic_fetch_add(&made, 1);
    job *it = malloc(sizeof *it);
    if (!getenv("OWN_CORES") || !it) {
        free(it);
        return create(thread, attributes, run, with);
    }
    *it = (job){run, with, syscall(SYS_gettid) == getpid() ? 0 : taken_processor()};
    pthread_attr_t own;
    if (attributes)
        own = *attributes;
    else
        pthread_attr_init(&own);
    if (it->processor >= 0) {
        cpu_set_t set;
        CPU_ZERO(&set);
        CPU_SET(it->processor, &set);
        pthread_attr_setaffinity_np(&own, sizeof set, &set);
    }
    return create(thread, &own, run_job, it);
}
