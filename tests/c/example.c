/* The C form in a few lines: a message written as a word, the word damaged, and read back. */
#include <stdio.h>

#include "rm.h"

int main(void) {
    uint8_t message[5] = {1, 1, 3, 0, 2}, word[16], read[5];
    if (rm_write(4, 4, message, 5, word, 16) != RM_DONE)
        return 1;
    word[2] = 1; /* damage on the way */
    uint32_t answer = rm_read(4, 4, read, 5, word, 16);
    if (answer < RM_DONE)
        return printf("refused with %u\n", (unsigned)answer), 1;
    printf("read %u;%u%u%u%u, wrong %u\n", read[0], read[1], read[2], read[3], read[4], (unsigned)(answer - RM_DONE));
    return 0;
}
