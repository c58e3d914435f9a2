/* Reads a set and prints the first six bytes of its state after each of the slots 0 to 11, as docs/FORMAT.md has them. */
#include <stdio.h>

#include "rembasuk.h"

int main(void)
{
    static uint8_t text[REMBASUK_INPUT_LENGTH], lines[REMBASUK_LINES_LENGTH];
    uint8_t state[REMBASUK_STATE_LENGTH] = {0};
    size_t length = fread(text, 1, sizeof text, stdin);
    int slot, i;
    for (slot = 0; slot < 12; slot++) {
        if (rembasuk_slot(text, length, state, sizeof state, lines, sizeof lines).refusal != 0) {
            return 1;
        }
        printf("after slot %d:", slot);
        for (i = 0; i < 6; i++) {
            printf(" %02x", state[i]);
        }
        printf("\n");
    }
    return 0;
}
