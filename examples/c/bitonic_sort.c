// Batcher's bitonic sort. A pass compares KEYS / 2 pairs of keys and exchanges those in the wrong order. No two pairs of a pass
// have a key in common, so the processors need no lock, only a barrier after each pass.
#include "parallel.h"

#ifndef KEYS
#define KEYS 64 // a power of two
#endif

static SHARED(int[KEYS]) keys;
static SHARED(struct barrier) barrier;

// Key I at the start. The keys are in no order, and some are equal.
static int start_key(int i) { return (i * i * 7 + i + 5) % 97; }

// Puts the smaller key of two into the first place if `ascending`, else into the second.
static void compare_and_exchange(int first, int second, int ascending) {
    int a = keys[first], b = keys[second];
    if ((a > b) == ascending) {
        keys[first] = b;
        keys[second] = a;
    }
}

int main(int number, int processors) {
    for (int i = number; i < KEYS; i += processors) {
        keys[i] = start_key(i);
    }
    barrier_wait(&barrier, processors);

    // Before the passes of a length, each piece of half that length is sorted, by turns up and down. Afterwards each piece of
    // that length is.
    for (int length = 2; length <= KEYS; length *= 2) {
        for (int distance = length / 2; distance > 0; distance /= 2) {
            for (int pair = number; pair < KEYS / 2; pair += processors) {
                int first = pair / distance * distance * 2 + pair % distance;
                compare_and_exchange(first, first + distance, (first & length) == 0);
            }
            barrier_wait(&barrier, processors);
        }
    }

    if (number == 0) {
        for (int i = 0; i < KEYS; i++) {
            put_int(keys[i]);
            put('\n');
        }
    }
    return 0;
}
