/*
 * Counts primes by two threads, which put what they find into one queue, and adds up what stands in the queue by a third
 * thread. The lock of the queue is wrong: once in many runs an item is lost, and the sum is too low.
 *
 * Each thread has globals of its own, and the stack pointer of C is one of them; it begins with the same value in each. So
 * each thread first gives itself a stack of its own, by its number.
 */

#include <stdatomic.h>

/* The threads are 0 and 1, the workers, and 2, which adds up. */
enum { THREADS = 3, WORKERS = 2, STACK_SIZE = 256 };

/* The numbers are counted range by range, each worker its share of the ranges. */
enum { RANGES = 20, SHARE = RANGES / WORKERS, WIDTH = 100 };

/* Accesses are logged by blocks of so many bytes. Each thing that threads share stands in a block of its own. */
enum { BLOCK = 64 };

/* How many primes a range has, and the first number of it. */
struct item {
    int from;
    int primes;
};

struct place {
    _Alignas(BLOCK) struct item item;
};

_Alignas(BLOCK) atomic_int queue_lock;
_Alignas(BLOCK) atomic_int queue_length;
_Alignas(BLOCK) atomic_int workers_done;
_Alignas(BLOCK) struct place queue[RANGES];
_Alignas(BLOCK) char stacks[THREADS][STACK_SIZE];

__asm__(".globaltype __stack_pointer, i32\n");

/* Lets the thread of this number use its stack. */
static inline __attribute__((always_inline)) void use_stack(int thread)
{
    char *top = stacks[thread] + STACK_SIZE;
    __asm__ volatile("local.get %0\n\tglobal.set __stack_pointer" : : "r"(top));
}

/* Waits until the lock is free, then takes it. Between the two another thread may see that it is free: this is the fault. */
static void take_lock(void)
{
    while (atomic_load(&queue_lock) != 0) {
    }
    atomic_store(&queue_lock, 1);
}

static void give_lock_back(void)
{
    atomic_store(&queue_lock, 0);
}

static __attribute__((noinline)) void put(const struct item *item)
{
    take_lock();
    int length = atomic_load(&queue_length);
    queue[length].item = *item;
    atomic_store(&queue_length, length + 1);
    give_lock_back();
}

static int is_prime(int number)
{
    for (int divisor = 2; divisor * divisor <= number; divisor++) {
        if (number % divisor == 0) {
            return 0;
        }
    }
    return number > 1;
}

static int primes_from(int from)
{
    int primes = 0;
    for (int number = from; number < from + WIDTH; number++) {
        primes += is_prime(number);
    }
    return primes;
}

/* Counts the primes of the worker's ranges, and puts the count of each into the queue. */
static __attribute__((noinline)) int count_ranges(int worker)
{
    int puts = 0;
    for (int from = worker * SHARE * WIDTH; puts < SHARE; from += WIDTH) {
        struct item item = {from, primes_from(from)};
        put(&item);
        puts++;
    }
    atomic_fetch_add(&workers_done, 1);
    __builtin_wasm_memory_atomic_notify((int *)&workers_done, 1);
    return puts;
}

/* Sleeps until both workers are done, then adds up what stands in the queue. */
static __attribute__((noinline)) int add_items(void)
{
    int done;
    while ((done = atomic_load(&workers_done)) < WORKERS) {
        __builtin_wasm_memory_atomic_wait32((int *)&workers_done, done, -1);
    }
    int length = atomic_load(&queue_length);
    int primes = 0;
    for (int place = 0; place < length; place++) {
        primes += queue[place].item.primes;
    }
    return primes;
}

/* Thread 0 or 1: answers how many items it put into the queue. */
__attribute__((export_name("count"))) int count(int thread)
{
    use_stack(thread);
    return count_ranges(thread);
}

/* Thread 2: answers how many primes there are below RANGES times WIDTH. */
__attribute__((export_name("add"))) int add(int thread)
{
    use_stack(thread);
    return add_items();
}
