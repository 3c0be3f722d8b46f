// An allocator of blocks without a lock. Fetch-and-add hands out blocks that are new. A block that is freed goes to a list by
// fetch-and-store, and a processor in need takes the whole list by fetch-and-store, for itself.
//
// Its limits: all blocks have one size. A processor keeps what it took, so it may have free blocks while another is refused one.
// A processor that takes a block waits until whoever freed it has linked it.
#include "parallel.h"

#ifndef BLOCKS
#define BLOCKS 200
#endif
#ifndef ROUNDS
#define ROUNDS 4
#endif
#ifndef HELD
#define HELD 3 // how many blocks a processor asks for in a round
#endif

struct block {
    volatile struct block *next;
    int owner; // 0, or the number of the processor that has it, counted from 1
};

// What `next` is from when a block enters the list until its successor is known.
#define UNLINKED ((volatile struct block *)1)

static SHARED(struct block[BLOCKS]) blocks;
static SHARED(int) used;                      // if it is BLOCKS or more, there is no new block left
static SHARED(volatile struct block *) freed; // the list that all share
static volatile struct block *own;            // the list that this processor took
static SHARED(int[2]) requests;               // how many requests were refused, and how many granted
static SHARED(struct barrier) barrier;

static volatile struct block *allocate(void) {
    if (!own) {
        own = fetch_and_store(&freed, 0);
    }
    if (own) {
        volatile struct block *block = own;
        while (block->next == UNLINKED) {
        }
        own = block->next;
        return block;
    }
    // A look first, so that requests in vain do not make the word wrap around.
    int fresh = used < BLOCKS ? fetch_and_add(&used, 1) : BLOCKS;
    return fresh < BLOCKS ? &blocks[fresh] : 0;
}

static void release(volatile struct block *block) {
    block->next = UNLINKED;
    volatile struct block *successor = fetch_and_store(&freed, block);
    block->next = successor;
}

int main(int number, int processors) {
    for (int round = 0; round < ROUNDS; round++) {
        volatile struct block *held[HELD];
        for (int i = 0; i < HELD; i++) {
            held[i] = allocate();
            fetch_and_add(&requests[held[i] != 0], 1);
            if (held[i] && fetch_and_store(&held[i]->owner, number + 1) != 0) {
                fail(); // two have the same block
            }
        }
        for (int i = 0; i < HELD; i++) {
            if (held[i]) {
                held[i]->owner = 0;
                release(held[i]);
            }
        }
    }

    // At the end all give back their own lists. Then each block that was ever handed out is in the shared list.
    while (own) {
        release(allocate());
    }
    barrier_wait(&barrier, processors);
    if (number == 0) {
        int lost = used < BLOCKS ? used : BLOCKS;
        for (volatile struct block *block = freed; block; block = block->next) {
            lost--;
        }
        put_int(requests[0] + requests[1]);
        put_text(" requests, ");
        put_int(lost);
        put_text(" blocks lost\n");
    }
    return 0;
}
