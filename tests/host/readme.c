/* README's host, as it stands there; with a set in its words it runs that set for a slot, with a slot and a number of slots the busy set from
 * that slot. The script tests/host/run takes the host out of README.md into readme_host.c. */
#define main readme_main
#include "readme_host.c"
#undef main

#include <stdlib.h>

#include "busy.h"

int main(int count, char **words)
{
    static char set[4096];
    uint8_t state[REMBASUK_STATE_LENGTH] = {0};
    uint32_t slot;
    int i, failed;
    if (count == 2) {
        return run(words[1], state, 1);
    }
    if (count != 3) {
        return readme_main();
    }
    busy_set(set);
    slot = (uint32_t)strtoul(words[1], NULL, 10);
    for (i = 0; i < 4; i++) {
        state[i] = (uint8_t)(slot >> (8 * i));
    }
    failed = run(set, state, atoi(words[2]));
    slot = state[0] | (uint32_t)state[1] << 8 | (uint32_t)state[2] << 16 | (uint32_t)state[3] << 24;
    printf("then slot %lu\n", (unsigned long)slot);
    return failed;
}
