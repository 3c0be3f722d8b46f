// Building blocks of parallel programs. Each function is short, waits only where it says so, and has an invariant that holds whatever
// the other processors do. `examples/c/explore` has a small program for each, and `ultra explore` goes through all its schedules.
#ifndef PARALLEL_H
#define PARALLEL_H

#include "ultra.h"

// ---- test, decrement, retest (Gottlieb, Lubachevsky and Rudolph, 1983)
//
// Takes `amount` from the word if the word has that much, and returns whether it did. It never waits.
// Invariant: the word plus what was taken, minus what was put back, is what it started with. So no more is ever taken than was there.
static inline int test_decrement_retest(volatile int *word, int amount) {
    if (*word < amount) {
        return 0;
    }
    if (fetch_and_add(word, -amount) >= amount) {
        return 1;
    }
    fetch_and_add(word, amount);
    return 0;
}

// Adds `amount` if the word stays within `bound`, and returns whether it did. It never waits.
static inline int test_increment_retest(volatile int *word, int amount, int bound) {
    if (*word > bound - amount) {
        return 0;
    }
    if (fetch_and_add(word, amount) <= bound - amount) {
        return 1;
    }
    fetch_and_add(word, -amount);
    return 0;
}

// ---- a barrier that can be used again and again
//
// Invariant: `count` is how many wait at the barrier, fewer than there are processors; `passed` is how often all have arrived.
// No processor leaves before all have arrived: the last one resets the count before it increments `passed`.
struct barrier {
    int count;
    int passed;
};

static inline void barrier_wait(volatile struct barrier *barrier, int processors) {
    // Read before this processor is counted, since all may be let go as soon as it is.
    int passed = barrier->passed;
    if (fetch_and_add(&barrier->count, 1) + 1 < processors) {
        while (barrier->passed == passed) {
        }
        return;
    }
    barrier->count = 0;
    fetch_and_add(&barrier->passed, 1);
}

// ---- a ticket lock: first come, first served
//
// Invariant: `serving <= next`; the processors between have distinct tickets, and only the one whose ticket is `serving` is inside.
struct ticket_lock {
    unsigned next;
    unsigned serving;
};

static inline void ticket_lock(volatile struct ticket_lock *lock) {
    unsigned ticket = fetch_and_add(&lock->next, 1);
    while (lock->serving != ticket) {
    }
}

// Only the processor that has the lock may call this.
static inline void ticket_unlock(volatile struct ticket_lock *lock) { lock->serving = lock->serving + 1; }

// ---- many readers, or one writer
//
// The low half of the word counts readers that are inside or try to enter, the high half writers.
// Invariant: a reader that is inside is counted, and entered when no writer was; a writer that is inside found no other writer, and
// then waited until no reader was counted.
#define ULTRA_WRITER 0x10000

static inline void read_lock(volatile int *word) {
    for (;;) {
        if (fetch_and_add(word, 1) < ULTRA_WRITER) {
            return;
        }
        fetch_and_add(word, -1);
        while (*word >= ULTRA_WRITER) {
        }
    }
}

static inline void read_unlock(volatile int *word) { fetch_and_add(word, -1); }

static inline void write_lock(volatile int *word) {
    while (fetch_and_add(word, ULTRA_WRITER) >= ULTRA_WRITER) {
        fetch_and_add(word, -ULTRA_WRITER);
        while (*word >= ULTRA_WRITER) {
        }
    }
    while (*word % ULTRA_WRITER != 0) {
    }
}

static inline void write_unlock(volatile int *word) { fetch_and_add(word, -ULTRA_WRITER); }

// ---- a bounded queue without a lock: items come out in the order of the insertions
//
// static SHARED(struct queue) queue; static SHARED(struct queue_cell[8]) cells;
//
// Invariant: `lower <= items <= upper <= size`; insertion and deletion number i use cell i % size, whose `turn` counts how often it
// was filled and emptied, so each waits for the one before it in its cell. Nothing is lost, and nothing comes out twice.
struct queue {
    int upper;
    int lower;
    int inserted;
    int deleted;
};

struct queue_cell {
    int turn;
    int item;
};

// Returns whether there was room.
static inline int queue_insert(volatile struct queue *queue, volatile struct queue_cell *cells, int size, int item) {
    if (!test_increment_retest(&queue->upper, 1, size)) {
        return 0;
    }
    int number = fetch_and_add(&queue->inserted, 1);
    volatile struct queue_cell *cell = &cells[number % size];
    while (cell->turn != 2 * (number / size)) {
    }
    cell->item = item;
    cell->turn = cell->turn + 1;
    fetch_and_add(&queue->lower, 1);
    return 1;
}

// Returns whether there was an item, and stores it in `item`.
static inline int queue_delete(volatile struct queue *queue, volatile struct queue_cell *cells, int size, int *item) {
    if (!test_decrement_retest(&queue->lower, 1)) {
        return 0;
    }
    int number = fetch_and_add(&queue->deleted, 1);
    volatile struct queue_cell *cell = &cells[number % size];
    while (cell->turn != 2 * (number / size) + 1) {
    }
    *item = cell->item;
    cell->item = 0;
    cell->turn = cell->turn + 1;
    fetch_and_add(&queue->upper, -1);
    return 1;
}

// ---- a self-scheduled loop: each index is handed out once, to whoever comes first
//
//     static SHARED(int) next;
//     self_scheduled(i, &next, 100) { work(i); }
//
// Invariant: the indexes below the counter have been handed out, each to one processor.
#define self_scheduled(INDEX, COUNTER, LIMIT) for (int INDEX; (INDEX = fetch_and_add((COUNTER), 1)) < (LIMIT);)

#endif
