// Each processor inserts its number, counted from 1, and deletes one item: nothing is lost, and nothing comes out twice.
#include "parallel.h"

#define SIZE 2

static SHARED(struct queue) queue;
static SHARED(struct queue_cell[SIZE]) cells;

int main(int number, int processors) {
    (void)processors;
    int item;
    if (!queue_insert(&queue, cells, SIZE, number + 1) || !queue_delete(&queue, cells, SIZE, &item)) {
        fail();
    }
    return item;
}
