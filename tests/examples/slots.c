/* Reads a set and prints slot, flow and radio channel of what its first slots send, made one after the other from the fresh state.
 * Usage: slots COUNT < SET */
#include <stdio.h>
#include <stdlib.h>
#include <string.h>

#include "rembasuk.h"

int main(int words, char **word)
{
    static char text[REMBASUK_INPUT_LENGTH], lines[REMBASUK_LINES_LENGTH + 1];
    uint8_t state[REMBASUK_STATE_LENGTH] = {0};
    size_t length = fread(text, 1, sizeof text, stdin);
    long slots = words > 1 ? atol(word[1]) : 0;
    while (slots-- > 0) {
        rembasuk_slot_answer s = rembasuk_slot((const uint8_t *)text, length, state, sizeof state, (uint8_t *)lines, REMBASUK_LINES_LENGTH);
        const char *line;
        if (s.refusal != 0) {
            return 1;
        }
        lines[s.length] = 0;
        for (line = lines; *line != 0; line = strchr(line, '\n') + 1) {
            unsigned long slot, flow, channel;
            sscanf(line, "send\t%lu\t%lu\t%*u\t%*u\t%*u\t%lu", &slot, &flow, &channel);
            printf("%lu\t%lu\t%lu\n", slot, flow, channel);
        }
    }
    return 0;
}
