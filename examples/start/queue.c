/*
 * A bounded queue for many producers and many consumers (Vyukov, "Bounded MPMC queue", 1024cores.net, 2010). Two threads
 * put the numbers 1 to 12 into it, two take them out and add them up, and one waits for these and answers the whole sum.
 */

#include "wreplay.h"

enum { CELLS = 4, EACH = 6, NUMBERS = 2 * EACH, CONSUMERS = 2 };

struct cell {
    WREPLAY_ALONE atomic_uint sequence;
    unsigned number;
};

static struct cell cells[CELLS] = {{.sequence = 0}, {.sequence = 1}, {.sequence = 2}, {.sequence = 3}};
static WREPLAY_ALONE atomic_uint put_at;
static WREPLAY_ALONE atomic_uint take_at;
static WREPLAY_ALONE atomic_uint taken;
static WREPLAY_ALONE atomic_uint sum;
static WREPLAY_ALONE atomic_int done;

/* Whether there was room for the number. */
static int put(unsigned number)
{
    unsigned at = atomic_load(&put_at);
    for (;;) {
        struct cell *cell = &cells[at % CELLS];
        int turn = (int)(atomic_load(&cell->sequence) - at);
        if (turn < 0) {
            return 0;
        }
        if (turn > 0) {
            at = atomic_load(&put_at);
        } else if (atomic_compare_exchange_strong(&put_at, &at, at + 1)) {
            cell->number = number;
            atomic_store(&cell->sequence, at + 1);
            return 1;
        }
    }
}

/* Whether a number was there. */
static int take(unsigned *number)
{
    unsigned at = atomic_load(&take_at);
    for (;;) {
        struct cell *cell = &cells[at % CELLS];
        int turn = (int)(atomic_load(&cell->sequence) - (at + 1));
        if (turn < 0) {
            return 0;
        }
        if (turn > 0) {
            at = atomic_load(&take_at);
        } else if (atomic_compare_exchange_strong(&take_at, &at, at + 1)) {
            *number = cell->number;
            atomic_store(&cell->sequence, at + CELLS);
            return 1;
        }
    }
}

WREPLAY_THREAD(produce)
{
    for (int number = 1; number <= EACH; number++) {
        while (!put((unsigned)(thread * EACH + number))) {
        }
    }
    return EACH;
}

WREPLAY_THREAD(consume)
{
    unsigned number;
    int own = 0;
    while (atomic_load(&taken) < NUMBERS) {
        if (take(&number)) {
            atomic_fetch_add(&sum, number);
            atomic_fetch_add(&taken, 1);
            own++;
        }
    }
    atomic_fetch_add(&done, 1);
    wreplay_notify(&done, 1);
    return own;
}

WREPLAY_THREAD(check)
{
    int seen;
    while ((seen = atomic_load(&done)) < CONSUMERS) {
        wreplay_wait(&done, seen);
    }
    return (int)atomic_load(&sum);
}
