/*
 * A stack of nodes without a lock (Treiber, "Systems programming: coping with parallelism", IBM RJ 5118, 1986). Its nodes
 * are put back at once, so it has the fault that is called ABA: a thread has read which node is on top and which is below;
 * before it takes the one, others take both and put the first back; then what it leaves on top is a node that is taken.
 * Two threads take two nodes each, and put them back; a third waits for these and counts the nodes, of which there are 4.
 */

#include "wreplay.h"

enum { NODES = 4, WORKERS = 2, MOST = 2 * NODES };

struct node {
    WREPLAY_ALONE _Atomic(struct node *) below;
};

static struct node nodes[NODES] = {{NULL}, {&nodes[0]}, {&nodes[1]}, {&nodes[2]}};
static WREPLAY_ALONE _Atomic(struct node *) top = &nodes[NODES - 1];
static WREPLAY_ALONE atomic_int done;

static void push(struct node *node)
{
    struct node *old = atomic_load(&top);
    do {
        atomic_store(&node->below, old);
    } while (!atomic_compare_exchange_strong(&top, &old, node));
}

static struct node *pop(void)
{
    struct node *old = atomic_load(&top);
    while (old != NULL && !atomic_compare_exchange_strong(&top, &old, atomic_load(&old->below))) {
    }
    return old;
}

WREPLAY_THREAD(work)
{
    struct node *first = pop();
    struct node *second = pop();
    if (first != NULL) {
        push(first);
    }
    if (second != NULL) {
        push(second);
    }
    atomic_fetch_add(&done, 1);
    wreplay_notify(&done, 1);
    return 0;
}

WREPLAY_THREAD(count)
{
    int seen;
    while ((seen = atomic_load(&done)) < WORKERS) {
        wreplay_wait(&done, seen);
    }
    int count = 0;
    for (struct node *node = atomic_load(&top); node != NULL && count < MOST; node = atomic_load(&node->below)) {
        count++;
    }
    return count;
}
