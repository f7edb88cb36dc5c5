// What threads can have of one journal under one lock, whatever stands round it: each turn does some work of its own, takes the lock,
// notes whose turn it is, adds 1 to a count in a line of memory of its own, and gives the lock back. It is noted in one byte behind
// others, or by a number that is counted up and a place of it in a list of the thread's own.
//
// cc -O2 -pthread bench/one_lock.c -o build/one_lock && build/one_lock [TURNS]
//
// It prints the nanoseconds of a turn, all turns over the clock, with one thread and with four, by four locks: the system's mutex, one
// that is taken in turn, one for which all look, and one for which those that look wait twice as long after each try.

#include <pthread.h>
#include <stdatomic.h>
#include <stdio.h>
#include <stdlib.h>
#include <time.h>

enum { LINE = 64, WORK = 60 };

static pthread_mutex_t mutex = PTHREAD_MUTEX_INITIALIZER;
static struct { _Alignas(LINE) atomic_uint next; _Alignas(LINE) atomic_uint now; } ticket;
static struct { _Alignas(LINE) atomic_uint held; } word;
static struct { _Alignas(LINE) unsigned char *bytes; size_t length; } journal;
static struct { _Alignas(LINE) unsigned long count; unsigned char *places; } own[4];

static void pause_for(unsigned tries) {
    for (unsigned i = 0; i < tries; i++) __asm__ volatile("pause");
}

static void take(int lock) {
    unsigned wait = 1;
    switch (lock) {
    case 0: pthread_mutex_lock(&mutex); break;
    case 1: {
        unsigned mine = atomic_fetch_add(&ticket.next, 1);
        while (atomic_load(&ticket.now) != mine) pause_for(1);
        break;
    }
    case 2:
        while (atomic_load(&word.held) || atomic_exchange(&word.held, 1)) pause_for(1);
        break;
    default:
        while (atomic_load(&word.held) || atomic_exchange(&word.held, 1)) {
            pause_for(wait);
            if (wait < 1024) wait *= 2;
        }
    }
}

static void give(int lock) {
    switch (lock) {
    case 0: pthread_mutex_unlock(&mutex); break;
    case 1: atomic_store(&ticket.now, atomic_load(&ticket.now) + 1); break;
    default: atomic_store(&word.held, 0);
    }
}

static struct { int lock, apart; long turns; } job;

static void *run(void *of) {
    long number = (long)of;
    volatile unsigned work = 0;
    for (long i = 0; i < job.turns; i++) {
        for (int k = 0; k < WORK; k++) work += k;
        take(job.lock);
        size_t place = journal.length++;
        if (!job.apart) journal.bytes[place] = (unsigned char)number;
        own[number].count++;
        give(job.lock);
        if (job.apart) own[number].places[i] = (unsigned char)place;
    }
    return NULL;
}

static double nanoseconds(int lock, int apart, int threads, long turns) {
    pthread_t made[4];
    struct timespec begin, end;
    job.lock = lock;
    job.apart = apart;
    job.turns = turns / threads;
    journal.length = 0;
    clock_gettime(CLOCK_MONOTONIC, &begin);
    for (long i = 0; i < threads; i++) pthread_create(&made[i], NULL, run, (void *)i);
    for (int i = 0; i < threads; i++) pthread_join(made[i], NULL);
    clock_gettime(CLOCK_MONOTONIC, &end);
    return ((end.tv_sec - begin.tv_sec) * 1e9 + (end.tv_nsec - begin.tv_nsec)) / (double)(job.turns * threads);
}

int main(int argc, char **argv) {
    long turns = argc > 1 ? atol(argv[1]) : 4000000;
    const char *names[] = {"the system's mutex", "taken in turn", "all look", "waits double"};
    journal.bytes = malloc(turns);
    if (turns < 4 || !journal.bytes) return 1;
    for (int i = 0; i < 4; i++)
        if (!(own[i].places = malloc(turns))) return 1;
    for (int apart = 0; apart < 2; apart++) {
        printf("%s\n", apart ? "places in lists of their own" : "one list");
        for (int lock = 0; lock < 4; lock++) {
            double one = 1e9, four = 1e9;
            for (int round = 0; round < 5; round++) {
                double found = nanoseconds(lock, apart, 1, turns);
                if (found < one) one = found;
                found = nanoseconds(lock, apart, 4, turns);
                if (found < four) four = found;
            }
            printf("%-20s %5.0f %5.0f  %.2f times one thread\n", names[lock], one, four, one / four);
        }
    }
    return 0;
}
