// A queue by fetch-and-add: many insert and delete at once, nothing is lost, and nothing comes out twice. Each processor inserts
// ITEMS items and deletes as many. It sets the bit of each item that it gets, and fails if the bit was set before.
#include "parallel.h"

#define CELLS 8
#define ITEMS 16
#define MOST_PROCESSORS 64

static SHARED(struct {
    struct queue queue;
    struct queue_cell cells[CELLS];
    unsigned seen[ITEMS * MOST_PROCESSORS / 32]; // a bit for each item that came out
}) all;

int main(int number, int processors) {
    (void)processors;
    for (int i = 0; i < ITEMS; i++) {
        while (!queue_insert(&all.queue, all.cells, CELLS, ITEMS * number + i)) {
        }
        int item;
        while (!queue_delete(&all.queue, all.cells, CELLS, &item)) {
        }
        unsigned bit = 1U << item % 32;
        if ((fetch_and_or(&all.seen[item / 32], bit) & bit) != 0) {
            fail();
        }
    }
    return 0;
}
