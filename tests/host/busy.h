/* A set whose slots have the longest lines there are: ten flows that are sent once in 65,535 slots, so that the numbers of the others
 * have two digits, and 16 that are sent in each even slot, over nodes of five digits. Both tests admit it. */
#include <stdio.h>

static size_t busy_set(char *text)
{
    int k;
    char *at = text + sprintf(text, "set\t65535\n");
    for (k = 0; k < 10; k++) {
        at += sprintf(at, "flow\t65535\t65535\t0\t1\t%d\t%d\n", 2 * k, 2 * k + 1);
    }
    for (k = 0; k < 16; k++) {
        at += sprintf(at, "flow\t2\t2\t0\t1\t%d\t%d\n", 10000 + 2 * k, 10001 + 2 * k);
    }
    return (size_t)(at - text);
}
