/* The program `superframe` once more, over what C calls: a set on standard input, its table's lines on standard output, or the refusal. With a
 * number in its words the table lent is so many numbers shorter. Each answer is checked on the way: the size's beside the table's, and the
 * lines read again. */
#include <stdio.h>
#include <stdlib.h>
#include <string.h>

#include "rembasuk.h"

static int wrong(const char *what)
{
    printf("calls: %s\n", what);
    return 1;
}

int main(int words, char **word)
{
    static uint8_t text[REMBASUK_INPUT_LENGTH + 1];
    size_t length = fread(text, 1, sizeof text, stdin), less = words > 1 ? strtoul(word[1], NULL, 10) : 0, room;
    rembasuk_superframe_answer size = rembasuk_superframe_size(text, length), a;
    rembasuk_lines_answer w;
    rembasuk_rows_answer r;
    uint16_t *table, *again;
    uint8_t *lines;
    room = size.numbers > less ? size.numbers - less : 0;
    table = malloc(2 * size.numbers + 2);
    again = malloc(2 * size.numbers + 2);
    lines = malloc(6 * size.numbers + 1);
    if (table == NULL || again == NULL || lines == NULL) {
        return wrong("no memory");
    }
    a = rembasuk_superframe(text, length, table, room);
    if (a.refusal != 0) {
        printf("refused\t%lu\t%lu\t%lu\n", (unsigned long)a.refusal, (unsigned long)a.line, (unsigned long)a.field);
        return a.hyper != 0 || a.numbers != 0 ? wrong("a refused answer is not blank") : 0;
    }
    if (size.refusal != 0 || size.hyper != a.hyper || size.numbers != a.numbers) {
        return wrong("the size is another");
    }
    w = rembasuk_table_write(table, a.numbers, lines, 6 * a.numbers);
    r = rembasuk_table_read(lines, w.length, again, a.numbers);
    if (w.refusal != 0 || r.refusal != 0 || r.numbers != a.numbers || memcmp(table, again, 2 * a.numbers) != 0) {
        return wrong("the lines are read as another table");
    }
    fwrite(lines, 1, w.length, stdout);
    fprintf(stderr, "%lu %lu\n", (unsigned long)a.hyper, (unsigned long)a.numbers);
    free(table);
    free(again);
    free(lines);
    return 0;
}
