/*
 * Puts KEYS keys into a hash table, looks these and as many others up, removes every fourth and looks all up again.
 * The table has open addresses: a key stands at the first free slot at or behind its hash. Answers the sum of the
 * values found.
 *
 * Debian clang version 14.0.6 and its wasm-ld made table.wasm:
 *
 *   clang --target=wasm32 -O2 -nostdlib -ffreestanding -matomics -mno-bulk-memory -Wall -Wextra \
 *       -Wl,--no-entry,--strip-all,--initial-memory=1114112,--max-memory=1114112,-z,stack-size=1024 \
 *       -o table.wasm table.c
 */

#ifndef KEYS
#define KEYS 100000
#endif

#ifndef SLOT_BITS
#define SLOT_BITS 17
#endif

enum { SLOTS = 1 << SLOT_BITS };

/* A slot is free where its key is 0. */
struct slot {
    unsigned key;
    unsigned value;
};

static struct slot slots[SLOTS];

/* Another key for each number, and never 0. */
static unsigned key_of(unsigned number)
{
    return (2 * number + 1) * 1664525;
}

static unsigned hash_of(unsigned key)
{
    return (key ^ key >> 15) * 2654435769u >> (32 - SLOT_BITS);
}

/* The slot of a key, or the free one where it would stand. */
static struct slot *slot_of(unsigned key)
{
    unsigned at = hash_of(key);
    while (slots[at].key != 0 && slots[at].key != key) {
        at = (at + 1) % SLOTS;
    }
    return &slots[at];
}

static void put(unsigned key, unsigned value)
{
    struct slot *slot = slot_of(key);
    slot->key = key;
    slot->value = value;
}

/* The value of a key, 0 where it isn't there. */
static unsigned value_of(unsigned key)
{
    return slot_of(key)->value;
}

/* Frees the slot of a key, and moves each key behind it that would no longer be found into the free slot. */
static void remove_key(unsigned key)
{
    unsigned hole = slot_of(key) - slots;
    for (unsigned at = (hole + 1) % SLOTS; slots[at].key != 0; at = (at + 1) % SLOTS) {
        unsigned distance = (at - hash_of(slots[at].key)) % SLOTS;
        if (distance >= (at - hole) % SLOTS) {
            slots[hole] = slots[at];
            hole = at;
        }
    }
    slots[hole] = (struct slot){0, 0};
}

static unsigned sum_of_values(void)
{
    unsigned sum = 0;
    for (unsigned number = 0; number < 2 * KEYS; number++) {
        sum += value_of(key_of(number));
    }
    return sum;
}

__attribute__((export_name("run"))) unsigned run(void)
{
    for (unsigned number = 0; number < KEYS; number++) {
        put(key_of(number), number);
    }
    unsigned sum = sum_of_values();
    for (unsigned number = 0; number < KEYS; number += 4) {
        remove_key(key_of(number));
    }
    return sum + sum_of_values();
}
