// The sieve of Eratosthenes, in two self-scheduled loops: the first crosses out multiples, the second counts what is left.
//
// A processor may take a composite factor that another has not crossed out yet. Its multiples are composite too, so that costs
// time and changes no result.
#include "parallel.h"

#ifndef LIMIT
#define LIMIT 1000
#endif
#define WORDS ((LIMIT + 31) / 32)

static SHARED(unsigned[WORDS]) composite; // number N is bit N % 32 of word N / 32
static SHARED_DATA(int) next_factor = 2;
static SHARED(int) next_word;
static SHARED(int) primes;
static SHARED(int) largest;
static SHARED(struct barrier) barrier;

static int is_crossed_out(int n) { return composite[n / 32] >> n % 32 & 1; }

int main(int number, int processors) {
    self_scheduled(factor, &next_factor, LIMIT) {
        if (factor * factor >= LIMIT) {
            break; // its smaller multiples have smaller factors
        }
        if (!is_crossed_out(factor)) {
            for (int n = factor * factor; n < LIMIT; n += factor) {
                // Others may set bits of the same word at the same time: no bit is lost, as it would be by a load and a store.
                fetch_and_or(&composite[n / 32], 1U << n % 32);
            }
        }
    }
    barrier_wait(&barrier, processors);

    self_scheduled(word, &next_word, WORDS) {
        unsigned crossed_out = composite[word];
        for (int n = 32 * word; n < 32 * word + 32 && n < LIMIT; n++, crossed_out >>= 1) {
            if (n >= 2 && (crossed_out & 1) == 0) {
                fetch_and_add(&primes, 1);
                fetch_and_max(&largest, n);
            }
        }
    }
    barrier_wait(&barrier, processors);

    if (number == 0) {
        put_int(primes);
        put_text(" primes, the largest ");
        put_int(largest);
        put('\n');
    }
    return 0;
}
