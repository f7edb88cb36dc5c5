/*
 * Sorts NUMBERS numbers that a linear congruence draws, by a quicksort that leaves short parts to an insertion sort.
 * Answers the sum of the sorted numbers, each times its place, or 0 where two stand in the wrong order.
 *
 * Debian clang version 14.0.6 and its wasm-ld made sort.wasm:
 *
 *   clang --target=wasm32 -O2 -nostdlib -ffreestanding -matomics -mno-bulk-memory -Wall -Wextra \
 *       -Wl,--no-entry,--strip-all,--initial-memory=458752,--max-memory=458752,-z,stack-size=1024 \
 *       -o sort.wasm sort.c
 */

#ifndef NUMBERS
#define NUMBERS 100000
#endif

/* Parts of at most so many numbers are left to the insertion sort. */
enum { SHORT = 12 };

static unsigned numbers[NUMBERS];

static void draw_numbers(void)
{
    unsigned drawn = 1;
    for (int place = 0; place < NUMBERS; place++) {
        drawn = drawn * 1664525 + 1013904223;
        numbers[place] = drawn;
    }
}

static void insertion_sort(unsigned *from, int count)
{
    for (int place = 1; place < count; place++) {
        unsigned moved = from[place];
        int hole = place;
        while (hole > 0 && from[hole - 1] > moved) {
            from[hole] = from[hole - 1];
            hole--;
        }
        from[hole] = moved;
    }
}

static unsigned middle_of_three(unsigned first, unsigned second, unsigned third)
{
    unsigned low = first < second ? first : second;
    unsigned high = first < second ? second : first;
    return third < low ? low : third > high ? high : third;
}

/* Puts the numbers below a pivot before those above it, and answers how many numbers come first. */
static int partition(unsigned *from, int count)
{
    unsigned pivot = middle_of_three(from[0], from[count / 2], from[count - 1]);
    int left = 0;
    int right = count - 1;
    for (;;) {
        while (from[left] < pivot) {
            left++;
        }
        while (from[right] > pivot) {
            right--;
        }
        if (left >= right) {
            return left;
        }
        unsigned exchanged = from[left];
        from[left++] = from[right];
        from[right--] = exchanged;
    }
}

/* Sorts the shorter part by a call and goes on with the longer one, so few calls stand within one another. */
static void quicksort(unsigned *from, int count)
{
    while (count > SHORT) {
        int first = partition(from, count);
        if (first < count - first) {
            quicksort(from, first);
            from += first;
            count -= first;
        } else {
            quicksort(from + first, count - first);
            count = first;
        }
    }
    insertion_sort(from, count);
}

static unsigned sum_of_sorted(void)
{
    unsigned sum = 0;
    for (int place = 0; place < NUMBERS; place++) {
        if (place > 0 && numbers[place - 1] > numbers[place]) {
            return 0;
        }
        sum += numbers[place] * (place + 1);
    }
    return sum;
}

__attribute__((export_name("run"))) unsigned run(void)
{
    draw_numbers();
    quicksort(numbers, NUMBERS);
    return sum_of_sorted();
}
