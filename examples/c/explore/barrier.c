// No processor leaves a barrier before all have arrived, and it can be used again.
#include "parallel.h"

static SHARED(struct barrier) barrier;
static SHARED(int) come;

int main(int number, int processors) {
    (void)number;
    fetch_and_add(&come, 1);
    barrier_wait(&barrier, processors);
    if (come < processors) {
        fail();
    }
    barrier_wait(&barrier, processors);
    return 0;
}
