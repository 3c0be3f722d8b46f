// There is one unit, and each processor tries to take it: exactly one gets it.
#include "parallel.h"

static SHARED_DATA(int) units = 1;

int main(int number, int processors) {
    (void)number;
    (void)processors;
    return test_decrement_retest(&units, 1);
}
