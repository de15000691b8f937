/* A disk of which each sync takes 5 milliseconds, and how long a source waits that only appends: loaded in front of the C library, it
   sleeps in place of a sync, and notes of each thread how long it slept on a word, and whether it woke others, as a source does that
   flushes. What a thread slept is one wait until it has done 20 microseconds of other work. At the end it writes into the file that
   SLOW_SAID names, in microseconds and each on a line of its own, the waits of the threads that woke nobody. */
#define _GNU_SOURCE
#include <dlfcn.h>
#include <fcntl.h>
#include <linux/futex.h>
#include <stdarg.h>
#include <stdatomic.h>
#include <stdio.h>
#include <stdlib.h>
#include <sys/syscall.h>
#include <time.h>
#include <unistd.h>

enum { THREADS = 64, WAITS = 4096, SYNC_NS = 5000000, WORK_NS = 20000 };

struct thread {
    int wakes, waits;
    long from[WAITS], to[WAITS];
};

static long (*real_syscall)(long, ...);
static struct thread threads[THREADS];
static atomic_int count;
static _Thread_local struct thread *own;

__attribute__((constructor)) static void begin(void) { real_syscall = (long (*)(long, ...))dlsym(RTLD_NEXT, "syscall"); }

static struct thread *mine(void) {
    if (!own) {
        int place = atomic_fetch_add(&count, 1);
        own = &threads[place < THREADS ? place : THREADS - 1];
    }
    return own;
}

static long now(void) {
    struct timespec time;
    clock_gettime(CLOCK_MONOTONIC, &time);
    return time.tv_sec * 1000000000L + time.tv_nsec;
}

static void slept(struct thread *thread, long from, long to) {
    int last = thread->waits - 1;
    if (last >= 0 && from - thread->to[last] < WORK_NS) {
        thread->to[last] = to;
    } else if (thread->waits < WAITS) {
        thread->from[thread->waits] = from;
        thread->to[thread->waits++] = to;
    }
}

long syscall(long number, ...) {
    long word[6];
    va_list words;
    va_start(words, number);
    for (int i = 0; i < 6; i++) word[i] = va_arg(words, long);
    va_end(words);
    int kind = number == SYS_futex ? (int)word[1] & FUTEX_CMD_MASK : -1;
    if (kind == FUTEX_WAKE || kind == FUTEX_WAKE_BITSET) mine()->wakes++;
    long from = now();
    long answer = real_syscall(number, word[0], word[1], word[2], word[3], word[4], word[5]);
    if (kind == FUTEX_WAIT || kind == FUTEX_WAIT_BITSET) slept(mine(), from, now());
    return answer;
}

static int slow_sync(void) {
    struct timespec time = {0, SYNC_NS};
    nanosleep(&time, NULL);
    return 0;
}

int fsync(int file) { return (void)file, slow_sync(); }
int fdatasync(int file) { return (void)file, slow_sync(); }

__attribute__((destructor)) static void end(void) {
    const char *name = getenv("SLOW_SAID");
    int out = name ? open(name, O_CREAT | O_WRONLY | O_TRUNC, 0600) : -1;
    if (out < 0) return;
    for (int i = 0; i < THREADS && i < atomic_load(&count); i++) {
        struct thread *thread = &threads[i];
        for (int k = 0; thread->wakes == 0 && k < thread->waits; k++) dprintf(out, "%ld\n", (thread->to[k] - thread->from[k]) / 1000);
    }
    close(out);
}

void _exit(int status) {
    end();
    real_syscall(SYS_exit_group, status);
    __builtin_unreachable();
}
