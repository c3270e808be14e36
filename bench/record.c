/* The atomic steps of a record, in WRITERS threads, while the main thread turns the tables every millisecond. A table has
   four stripes of six cells; writer w counts in stripe w mod 4. The words stand apart as ours do: the one that is only read, those
   that each writer adds to, and each stripe.
   Usage: record SAMPLES WRITERS. It prints how many samples were counted. */
#include <pthread.h>
#include <stdatomic.h>
#include <stdint.h>
#include <stdio.h>
#include <stdlib.h>
#include <time.h>

#define HALF (UINT64_C(1) << 63)
#define STRIPES 4
#define STRIPE 16

enum { ACTIVE = 0, START = 16, EVEN_END = 17, ODD_END = 18, CELLS = 48 };

static _Atomic uint64_t words[CELLS + 2 * STRIPES * STRIPE];
static _Atomic int ended;
static uint64_t samples;
static int writers;

/* C11 has no fetch_min and fetch_max: each is a compare-and-exchange that writes the lesser, or the greater, of the two. */
static void keep_least(_Atomic uint64_t *cell, uint64_t x)
{
    uint64_t old = atomic_load_explicit(cell, memory_order_relaxed);
    while (!atomic_compare_exchange_weak(cell, &old, old < x ? old : x)) {
    }
}

static void keep_greatest(_Atomic uint64_t *cell, uint64_t x)
{
    uint64_t old = atomic_load_explicit(cell, memory_order_relaxed);
    while (!atomic_compare_exchange_weak(cell, &old, old > x ? old : x)) {
    }
}

static void record(uint64_t stripe, uint64_t failed, uint64_t elapsed, uint64_t bytes)
{
    uint64_t token = atomic_fetch_add(&words[START], 1);
    uint64_t interval = atomic_load(&words[ACTIVE]);
    _Atomic uint64_t *cells = &words[CELLS + ((interval % 2) * STRIPES + stripe) * STRIPE];
    atomic_fetch_add(&cells[0], 1);
    if (failed)
        atomic_fetch_add(&cells[1], 1);
    atomic_fetch_add(&cells[2], elapsed);
    atomic_fetch_add(&cells[3], bytes);
    keep_least(&cells[4], elapsed);
    keep_greatest(&cells[5], elapsed);
    atomic_fetch_add(&words[token >= HALF ? ODD_END : EVEN_END], 1);
}

static void *work(void *number)
{
    uint64_t stripe = (uintptr_t)number % STRIPES;
    for (uint64_t n = 0; n < samples; n++)
        record(stripe, n % 3 == 0, n % 7 + 1, 1);
    atomic_fetch_add(&ended, 1);
    return NULL;
}

static uint64_t close_interval(uint64_t k)
{
    uint64_t next = (k + 1) % 2 ? HALF : 0;
    atomic_exchange(&words[ACTIVE], k + 1);
    atomic_exchange(&words[(k + 1) % 2 ? ODD_END : EVEN_END], next);
    uint64_t want = atomic_exchange(&words[START], next);
    while (atomic_load(&words[k % 2 ? ODD_END : EVEN_END]) != want) {
    }
    uint64_t count = 0;
    for (int stripe = 0; stripe < STRIPES; stripe++) {
        _Atomic uint64_t *cells = &words[CELLS + ((k % 2) * STRIPES + stripe) * STRIPE];
        for (int c = 0; c < 6; c++) {
            uint64_t found = atomic_exchange(&cells[c], c == 4 ? UINT64_MAX : 0);
            if (c == 0)
                count += found;
        }
    }
    return count;
}

int main(int argc, char **argv)
{
    samples = argc > 1 ? strtoull(argv[1], NULL, 10) : 1000;
    writers = argc > 2 ? atoi(argv[2]) : 1;
    words[ODD_END] = HALF;
    for (int stripe = 0; stripe < 2 * STRIPES; stripe++)
        words[CELLS + stripe * STRIPE + 4] = UINT64_MAX;
    pthread_t threads[64];
    for (int i = 0; i < writers && i < 64; i++)
        pthread_create(&threads[i], NULL, work, (void *)(uintptr_t)i);
    uint64_t count = 0, k = 0;
    for (int over = 0; !over;) {
        over = atomic_load(&ended) == writers;
        count += close_interval(k++);
        struct timespec pause = {0, 1000000};
        if (!over)
            nanosleep(&pause, NULL);
    }
    for (int i = 0; i < writers && i < 64; i++)
        pthread_join(threads[i], NULL);
    printf("%d writers: %llu samples\n", writers, (unsigned long long)count);
    return 0;
}
