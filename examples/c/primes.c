// The processors divide the numbers below 1,000 among themselves. Each finds the primes among its own by `%` and `*`, writes their count to its
// console, in decimal digits by `/` and `%`, and adds their number and their sum to two words that all share.

#include "ultra.h"

#define LIMIT 1000

// How many primes, and their sum: one pair for all processors.
static SHARED(int[2]) totals;

static int is_prime(unsigned number) {
    for (unsigned divisor = 2; divisor * divisor <= number; divisor++) {
        if (number % divisor == 0) {
            return 0;
        }
    }
    return number > 1;
}

int main(int number, int processors) {
    int primes = 0, sum = 0;
    for (unsigned candidate = number; candidate < LIMIT; candidate += processors) {
        if (is_prime(candidate)) {
            primes++;
            sum += candidate;
        }
    }
    put_int(primes);
    fetch_and_add(&totals[0], primes);
    fetch_and_add(&totals[1], sum);
    return 0;
}
