// Heat spreads along a rod. At each step a cell takes half of its own temperature and a quarter of each neighbour's. The rod
// is kept twice: a step reads one copy and writes the other. So no processor overwrites what another still reads, and one
// barrier a step is enough.
//
// Temperatures are in fixed point: 1 is 4^STEPS. At the start one cell has temperature 1 and the others 0. Each step divides by
// 4, so STEPS steps lose nothing, and by the binomial theorem the cell at distance d then has C(2 * STEPS, STEPS + d).
#include "parallel.h"

#ifndef STEPS
#define STEPS 12 // at most 15, for 4^STEPS to be an int
#endif
#define MIDDLE (STEPS + 1)
#define CELLS (2 * MIDDLE + 1) // the heat does not reach the two ends, which stay cold

static SHARED(int[2][CELLS]) rods;
static SHARED(struct barrier) barrier;

int main(int number, int processors) {
    if (number == 0) {
        rods[0][MIDDLE] = 1 << 2 * STEPS;
    }
    barrier_wait(&barrier, processors);

    for (int step = 0; step < STEPS; step++) {
        volatile int *now = rods[step % 2], *then = rods[1 - step % 2];
        // Each processor has a piece of the rod, the same at each step.
        int first = 1 + (CELLS - 2) * number / processors;
        int end = 1 + (CELLS - 2) * (number + 1) / processors;
        for (int cell = first; cell < end; cell++) {
            then[cell] = (now[cell - 1] + 2 * now[cell] + now[cell + 1]) / 4;
        }
        barrier_wait(&barrier, processors);
    }

    if (number == 0) {
        for (int cell = 1; cell < CELLS - 1; cell++) {
            put_int(rods[STEPS % 2][cell]);
            put('\n');
        }
    }
    return 0;
}
