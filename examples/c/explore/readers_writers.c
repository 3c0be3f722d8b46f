// Processor 0 writes two words, and the others read both: they see both of its writes, or neither.
#include "parallel.h"

static SHARED(int) lock;
static SHARED(int[2]) words;

int main(int number, int processors) {
    (void)processors;
    if (number == 0) {
        write_lock(&lock);
        words[0] = 1;
        words[1] = 1;
        write_unlock(&lock);
        return 0;
    }
    read_lock(&lock);
    int same = words[0] == words[1];
    read_unlock(&lock);
    if (!same) {
        fail();
    }
    return 0;
}
