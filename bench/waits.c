// Counts how a program waits, by thread: what it is preloaded into writes that into the file that WAITS names.
// Each thread has a row of six numbers: the thread, how often it yielded, how often it waited on a futex, how long it was
// away in all and at once at most, in nanoseconds, and how often it was away for more than half a millisecond.
#define _GNU_SOURCE
#include <dlfcn.h>
#include <fcntl.h>
#include <linux/futex.h>
#include <sched.h>
#include <stdarg.h>
#include <stdatomic.h>
#include <stdlib.h>
#include <sys/mman.h>
#include <sys/syscall.h>
#include <time.h>

#define ROWS 128
#define LONG 500000

struct row {
    long thread, yields, waits, away, longest, slow;
};

static struct row *rows;
static atomic_int count;
static _Thread_local struct row *own;
static long (*next_syscall)(long, ...);

__attribute__((constructor)) static void begin(void) {
    int file = open(getenv("WAITS"), O_RDWR);
    void *page = mmap(NULL, ROWS * sizeof *rows, PROT_READ | PROT_WRITE, MAP_SHARED, file, 0);
    next_syscall = (long (*)(long, ...))dlsym(RTLD_NEXT, "syscall");
    if (page != MAP_FAILED) rows = page;
}

static struct row *mine(void) {
    int at;
    if (!own && rows && (at = atomic_fetch_add(&count, 1)) < ROWS) {
        own = &rows[at];
        own->thread = next_syscall(SYS_gettid);
    }
    return own;
}

static long now(void) {
    struct timespec time;
    clock_gettime(CLOCK_MONOTONIC, &time);
    return time.tv_sec * 1000000000 + time.tv_nsec;
}

static void note(struct row *row, long since) {
    long away = now() - since;
    row->away += away;
    row->slow += away > LONG;
    if (away > row->longest) row->longest = away;
}

int sched_yield(void) {
    struct row *row = mine();
    long since = now(), answer = next_syscall(SYS_sched_yield);
    if (row) {
        row->yields++;
        note(row, since);
    }
    return (int)answer;
}

long syscall(long number, ...) {
    long a[6];
    va_list rest;
    va_start(rest, number);
    for (int i = 0; i < 6; i++) a[i] = va_arg(rest, long);
    va_end(rest);
    int kind = (int)a[1] & FUTEX_CMD_MASK;
    struct row *row = number == SYS_futex && (kind == FUTEX_WAIT || kind == FUTEX_WAIT_BITSET) ? mine() : NULL;
    long since = row ? now() : 0, answer = next_syscall(number, a[0], a[1], a[2], a[3], a[4], a[5]);
    if (row) {
        row->waits++;
        note(row, since);
    }
    return answer;
}
