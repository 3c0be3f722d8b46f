// A work queue of tasks that create tasks: in how many ways can QUEENS queens stand on a board so that none attacks another?
// A task is a board whose first rows have their queens. Whoever takes it creates a task for each square of the next row that
// no queen attacks.
#include "parallel.h"

#ifndef QUEENS
#define QUEENS 6 // at most 8, since a task has 8 bits for each of its three sets
#endif
#ifndef CELLS
#define CELLS 16 // how many tasks the queue has room for
#endif
#define COLUMNS ((1U << QUEENS) - 1)

// How many tasks have been created and are not done. The first task, the empty board, counts from the start.
// Invariant: a task counts its children before it is done itself. So once the word is 0, there is no task, and none will come.
static SHARED_DATA(int) unfinished = 1;

static SHARED(int) boards;    // how many tasks are done
static SHARED(int) solutions; // how many of them had a queen in every row
static SHARED(struct queue) queue;
static SHARED(struct queue_cell[CELLS]) cells;

// The sets of columns of the next row that earlier queens attack: straight, along one diagonal, along the other.
static int task_of(unsigned straight, unsigned left, unsigned right) { return straight << 16 | left << 8 | right; }

static void do_task(int task) {
    unsigned straight = task >> 16, left = task >> 8 & 255, right = task & 255;
    for (unsigned safe = COLUMNS & ~(straight | left | right); safe != 0; safe &= safe - 1) {
        unsigned queen = safe & -safe; // the lowest column that is left
        int child = task_of(straight | queen, ((left | queen) << 1) & COLUMNS, (right | queen) >> 1);
        fetch_and_add(&unfinished, 1);
        // If the queue is full, nobody waits for room: this processor does the child at once, on its own stack.
        if (!queue_insert(&queue, cells, CELLS, child)) {
            do_task(child);
        }
    }
    fetch_and_add(&boards, 1);
    if (straight == COLUMNS) {
        fetch_and_add(&solutions, 1);
    }
    fetch_and_add(&unfinished, -1);
}

int main(int number, int processors) {
    (void)processors;
    if (number == 0) {
        do_task(task_of(0, 0, 0));
    }
    while (unfinished > 0) {
        int task;
        if (queue_delete(&queue, cells, CELLS, &task)) {
            do_task(task);
        }
    }
    // Each task added to the counts before it was done, so they are complete.
    if (number == 0) {
        put_int(solutions);
        put_text(" solutions, ");
        put_int(boards);
        put_text(" boards\n");
    }
    return 0;
}
