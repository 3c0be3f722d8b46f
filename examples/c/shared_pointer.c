// Processor 0 publishes a node through a pointer that all share; the others wait for the pointer, and read the node.
#include "ultra.h"

struct node {
    int value;
};

static SHARED(struct node) node;
static SHARED(volatile struct node *) head; // the pointer itself is volatile, and so is what it points to
static SHARED(unsigned) sum;

int main(int number, int processors) {
    (void)processors;
    if (number == 0) {
        node.value = 7;
        head = &node;
        return 0;
    }
    while (!head) {
    }
    fetch_and_add(&sum, head->value);
    return 0;
}
