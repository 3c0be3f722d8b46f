// BODIES bodies attract one another in a plane, where gravity falls off as 1 / distance. At each step processors share the pairs:
// each pair adds an impulse to one body and subtracts it from the other, by fetch-and-add. After a barrier they share the
// bodies, and move them.
//
// Numbers are in fixed point, 1 is 256. So sums do not depend on the order of additions, as they would in floating point:
// each schedule gives the same result to the last bit, and the momenta add up to exactly what they were.
#include "parallel.h"

#ifndef BODIES
#define BODIES 8
#endif
#ifndef STEPS
#define STEPS 10
#endif
#define ONE 256
#define GRAVITY (ONE * ONE / 4) // the constant of gravity is 1/4; the numerator of an impulse stays below 2^31
#define SOFTENING (ONE * ONE)   // added to a squared distance, so that a close pair does not leap

struct body {
    int mass; // a whole number
    int x, y;
    int momentum_x, momentum_y;
};

static SHARED(struct body[BODIES]) bodies;
static SHARED(struct barrier) barrier;

// A body starts at rest, on a grid whose unit is 2.
static void place(volatile struct body *body, int i) {
    body->mass = 1 + i % 3;
    body->x = (i * 5 % 7 - 3) * 2 * ONE;
    body->y = (i * 3 % 8 - 4) * 2 * ONE;
}

static void attract(volatile struct body *a, volatile struct body *b) {
    int dx = b->x - a->x, dy = b->y - a->y, strength = GRAVITY * a->mass * b->mass;
    int squared_distance = dx * dx + dy * dy + SOFTENING;
    int impulse_x = strength * dx / squared_distance, impulse_y = strength * dy / squared_distance;
    fetch_and_add(&a->momentum_x, impulse_x);
    fetch_and_add(&a->momentum_y, impulse_y);
    fetch_and_add(&b->momentum_x, -impulse_x);
    fetch_and_add(&b->momentum_y, -impulse_y);
}

int main(int number, int processors) {
    for (int i = number; i < BODIES; i += processors) {
        place(&bodies[i], i);
    }
    barrier_wait(&barrier, processors);

    for (int step = 0; step < STEPS; step++) {
        int pair = 0;
        for (int i = 0; i < BODIES; i++) {
            for (int j = i + 1; j < BODIES; j++) {
                if (pair++ % processors == number) {
                    attract(&bodies[i], &bodies[j]);
                }
            }
        }
        barrier_wait(&barrier, processors);
        for (int i = number; i < BODIES; i += processors) {
            bodies[i].x = bodies[i].x + bodies[i].momentum_x / bodies[i].mass;
            bodies[i].y = bodies[i].y + bodies[i].momentum_y / bodies[i].mass;
        }
        barrier_wait(&barrier, processors);
    }

    if (number == 0) {
        for (int i = 0; i < BODIES; i++) {
            put_int(bodies[i].x);
            put(' ');
            put_int(bodies[i].y);
            put('\n');
        }
    }
    return 0;
}
