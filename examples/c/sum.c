// Each processor adds its number, counted from 1, to a sum that all share, three times. It halts with what it found there the last
// time.
#include "ultra.h"

// One for all processors.
static SHARED(int) sum;

int main(int number, int processors) {
    (void)processors;
    int found = 0;
    for (int turns = 3; turns > 0; turns--) {
        found = fetch_and_add(&sum, number + 1);
    }
    return found;
}
