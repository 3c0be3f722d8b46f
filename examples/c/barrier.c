// A barrier that is used again and again: no processor goes on before all have arrived. Ten times each adds 1 to a sum between
// two barriers, and sees the additions of all.
#include "parallel.h"

#define ROUNDS 10

// How many processors are counted at the barrier, how often all have arrived, and the sum: shared words 0 to 2.
static SHARED(struct {
    struct barrier barrier;
    int sum;
}) all;

int main(int number, int processors) {
    (void)number;
    for (int round = 1; round <= ROUNDS; round++) {
        fetch_and_add(&all.sum, 1);
        barrier_wait(&all.barrier, processors);
        if (all.sum != round * processors) {
            fail();
        }
        barrier_wait(&all.barrier, processors);
    }
    return 0;
}
