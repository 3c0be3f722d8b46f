// A histogram: how many of the numbers below NUMBERS have each sum of digits? All processors add to the same bins by
// fetch-and-add, without a lock. If two additions to a bin meet in a switch, it combines them.
#include "parallel.h"

#ifndef NUMBERS
#define NUMBERS 1000
#endif
#ifndef CHUNK
#define CHUNK 8 // how many numbers a processor takes at a time
#endif
#define BINS 28 // the sums of up to three digits

static SHARED(int[BINS]) bins;
static SHARED(int) next;
static SHARED(struct barrier) barrier;

static int sum_of_digits(int n) {
    int sum = 0;
    for (; n > 0; n /= 10) {
        sum += n % 10;
    }
    return sum;
}

int main(int number, int processors) {
    // Chunks take fewer references to the loop's counter than single numbers would.
    self_scheduled(chunk, &next, (NUMBERS + CHUNK - 1) / CHUNK) {
        for (int n = chunk * CHUNK; n < (chunk + 1) * CHUNK && n < NUMBERS; n++) {
            fetch_and_add(&bins[sum_of_digits(n)], 1);
        }
    }
    barrier_wait(&barrier, processors);

    if (number == 0) {
        for (int sum = 0; sum < BINS; sum++) {
            put_int(bins[sum]);
            put('\n');
        }
    }
    return 0;
}
