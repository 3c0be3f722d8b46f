// The indexes 0, 1 and 2 are each handed out once: their sum is 3.
#include "parallel.h"

static SHARED(int) next;
static SHARED(int) sum;

int main(int number, int processors) {
    (void)number;
    (void)processors;
    self_scheduled(index, &next, 3) {
        fetch_and_add(&sum, index);
    }
    return 0;
}
