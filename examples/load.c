/* Loads the superframe of a set, then goes by the table alone, as a device does that was loaded with it: prints of each transmission in the
 * first slots its slot, flow, number in its packet and radio channel. No state is kept but the slot.
 *
 * Usage: load FILE [SLOTS]; 40 slots without. tests/examples/run builds it:
 *     cc -O2 load.c $(pkg-config --cflags --libs rembasuk) -o load && ./load superframe.set
 */
#include <stdio.h>
#include <stdlib.h>

#include <rembasuk.h>

static int fail(const char *what, const char *why)
{
    fprintf(stderr, "load: %s: %s\n", what, why);
    return 1;
}

/* Goes through the slots from 0 on. The table rises by slot, so the next row is the first of a slot, or none is; after the last slot of the
 * hyper-period the table begins again. The channel is that of the true slot, not of the table's. */
static void repeat(uint32_t map, const uint16_t *table, rembasuk_superframe_answer frame, uint32_t slots)
{
    uint32_t t;
    size_t next = 0;
    for (t = 0; t < slots; t++) {
        if (t % frame.hyper == 0) {
            next = 0;
        }
        for (; next < frame.numbers && table[next] == t % frame.hyper; next += REMBASUK_ROW_LENGTH) {
            unsigned long channel = rembasuk_channel(map, t, table[next + 3]);
            printf("%lu\t%u\t%u\t%lu\n", (unsigned long)t, (unsigned)table[next + 1], (unsigned)table[next + 2], channel);
        }
    }
}

int main(int words, char **word)
{
    static char text[REMBASUK_INPUT_LENGTH + 1];
    uint32_t slots = words > 2 ? (uint32_t)strtoul(word[2], NULL, 10) : 40;
    uint16_t *table;
    size_t length;
    rembasuk_superframe_answer frame;
    FILE *file = words > 1 ? fopen(word[1], "rb") : NULL;
    if (file == NULL) {
        return fail(words > 1 ? word[1] : "usage", words > 1 ? "cannot be opened" : "load FILE [SLOTS]");
    }
    length = fread(text, 1, sizeof text - 1, file);
    if (ferror(file) || !feof(file)) {
        return fail(word[1], "cannot be read, or is too long");
    }
    fclose(file);
    /* first how much to lend, then the table; the reader has tested the text's form, so its first line has the map */
    frame = rembasuk_superframe_size((const uint8_t *)text, length);
    if (frame.line != 0) {
        fprintf(stderr, "load: line %zu, field %zu: %s\n", frame.line, frame.field, rembasuk_refusal_text(frame.refusal));
        return 1;
    }
    if (frame.refusal != 0) {
        return fail(word[1], rembasuk_refusal_text(frame.refusal));
    }
    table = malloc(frame.numbers * sizeof *table + 1);
    if (table == NULL) {
        return fail("the table", "no memory for it");
    }
    frame = rembasuk_superframe((const uint8_t *)text, length, table, frame.numbers);
    repeat((uint32_t)strtoul(text + 4, NULL, 10), table, frame, slots);
    free(table);
    return 0;
}
