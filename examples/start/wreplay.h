/*
 * What a C program needs that runs as threads of `wreplay`: a stack for each thread, a lock, waiting, and blocks of memory.
 * One C file includes it, once. It takes no library, no bulk memory instructions, and no thread-local variables.
 *
 * A module's thread has globals of its own, and the stack pointer of C is one of them; it begins with the same value in
 * each thread. So a function that runs as a thread is written by WREPLAY_THREAD, which gives it a stack of its own.
 */

#ifndef WREPLAY_H
#define WREPLAY_H

#include <stdatomic.h>
#include <stddef.h>
#include <stdint.h>

/* Accesses are logged by blocks of so many bytes: what threads share stands best in a block of its own. */
#define WREPLAY_BLOCK 64
#define WREPLAY_ALONE _Alignas(WREPLAY_BLOCK)

/* ---- threads */

#ifndef WREPLAY_STACK
#define WREPLAY_STACK 4096
#endif
#define WREPLAY_THREADS 16

static WREPLAY_ALONE char wreplay_stacks[WREPLAY_THREADS][WREPLAY_STACK];

__asm__(".globaltype __stack_pointer, i32\n");

static inline __attribute__((always_inline)) void wreplay_use_stack(int thread)
{
    char *top = wreplay_stacks[thread & (WREPLAY_THREADS - 1)] + WREPLAY_STACK;
    __asm__ volatile("local.get %0\n\tglobal.set __stack_pointer" : : "r"(top));
}

/*
 * WREPLAY_THREAD(work) { ..; return 0; }
 *
 * makes an exported function `work`, which a line `thread work 3` of a plan runs as a thread. Inside, `thread` is the number
 * in that line: give each thread of a plan another, from 0 to 15, since it chooses the stack.
 */
#define WREPLAY_THREAD(name)                                                                      \
    static __attribute__((noinline)) int name##_of(int thread);                                   \
    __attribute__((export_name(#name))) int name##_begins(int thread)                             \
    {                                                                                             \
        wreplay_use_stack(thread);                                                                \
        return name##_of(thread);                                                                 \
    }                                                                                             \
    static __attribute__((noinline)) int name##_of(__attribute__((unused)) int thread)

/* ---- waiting */

/* Sleeps while `word` has this value, until it is notified. */
static inline void wreplay_wait(atomic_int *word, int value)
{
    __builtin_wasm_memory_atomic_wait32((int *)word, value, -1);
}

/* Wakes so many of those who sleep there. */
static inline void wreplay_notify(atomic_int *word, int count)
{
    __builtin_wasm_memory_atomic_notify((int *)word, (unsigned)count);
}

/* ---- a lock: free, taken, or taken with others who wait (Drepper, "Futexes are tricky", 2011, the second mutex) */

struct wreplay_lock {
    WREPLAY_ALONE atomic_int state;
};

static inline void wreplay_take(struct wreplay_lock *lock)
{
    int free = 0;
    if (atomic_compare_exchange_strong(&lock->state, &free, 1)) {
        return;
    }
    while (atomic_exchange(&lock->state, 2) != 0) {
        wreplay_wait(&lock->state, 2);
    }
}

static inline void wreplay_give_back(struct wreplay_lock *lock)
{
    if (atomic_exchange(&lock->state, 0) == 2) {
        wreplay_notify(&lock->state, 1);
    }
}

/* ---- blocks of one size, from a pool that the program declares: WREPLAY_POOL(nodes, sizeof(struct node), 100); */

struct wreplay_pool {
    struct wreplay_lock lock;
    size_t size, count, used;
    char *blocks;
    void *given_back;
};

#define WREPLAY_ROUNDED(size) (((size) + WREPLAY_BLOCK - 1) / WREPLAY_BLOCK * WREPLAY_BLOCK)
#define WREPLAY_POOL(name, block_size, block_count)                                               \
    static WREPLAY_ALONE char name##_blocks[block_count][WREPLAY_ROUNDED(block_size)];            \
    static struct wreplay_pool name = {{0}, WREPLAY_ROUNDED(block_size), block_count, 0, name##_blocks[0], NULL}

/* A block, or NULL where none is left. */
static inline void *wreplay_allocate(struct wreplay_pool *pool)
{
    wreplay_take(&pool->lock);
    void *block = pool->given_back;
    if (block != NULL) {
        pool->given_back = *(void **)block;
    } else if (pool->used < pool->count) {
        block = pool->blocks + pool->size * pool->used++;
    }
    wreplay_give_back(&pool->lock);
    return block;
}

static inline void wreplay_free(struct wreplay_pool *pool, void *block)
{
    wreplay_take(&pool->lock);
    *(void **)block = pool->given_back;
    pool->given_back = block;
    wreplay_give_back(&pool->lock);
}

/* ---- what clang calls where a program copies a struct or sets one to zero */

__attribute__((no_builtin("memcpy"))) void *memcpy(void *restrict to, const void *restrict from, size_t count)
{
    for (size_t at = 0; at < count; at++) {
        ((char *)to)[at] = ((const char *)from)[at];
    }
    return to;
}

__attribute__((no_builtin("memset"))) void *memset(void *to, int byte, size_t count)
{
    for (size_t at = 0; at < count; at++) {
        ((char *)to)[at] = (char)byte;
    }
    return to;
}

#endif
