// `printf` of picolibc prints to the console.
#include <stdio.h>
#include "ultra.h"

static int put_char(char byte, FILE *file) {
    (void)file;
    put((unsigned char)byte);
    return 0;
}

static FILE console = FDEV_SETUP_STREAM(put_char, NULL, NULL, _FDEV_SETUP_WRITE);
FILE *const stdout = &console;

int main(int number, int processors) {
    printf("%d of %d", number, processors);
    return 0;
}
