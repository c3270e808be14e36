/* The atomic steps of an uncontended enter and leave: a load, an exchange of an even word for the next, an addition. */
#include <stdatomic.h>
#include <stdint.h>
#include <stdio.h>
#include <stdlib.h>

static _Atomic uint64_t word;

int main(int argc, char **argv)
{
    uint64_t count = argc > 1 ? strtoull(argv[1], NULL, 10) : 1000;
    for (uint64_t i = 0; i < count; i++) {
        uint64_t seen = atomic_load(&word);
        if (seen % 2 == 1 || !atomic_compare_exchange_strong(&word, &seen, seen + 1))
            return 1;
        atomic_fetch_add(&word, 1);
    }
    printf("%llu sections\n", (unsigned long long)(atomic_load(&word) / 2));
    return 0;
}
