// Each processor adds twice, by a load and a store: with the lock no addition is lost.
#include "parallel.h"

static SHARED(struct ticket_lock) lock;
static SHARED(int) sum;

int main(int number, int processors) {
    (void)number;
    (void)processors;
    for (int turn = 0; turn < 2; turn++) {
        ticket_lock(&lock);
        sum = sum + 1;
        ticket_unlock(&lock);
    }
    return 0;
}
