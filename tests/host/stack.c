/* How much of its caller's stack each function uses: it is called in a thread whose stack was filled with one byte, and what no longer
 * holds that byte was used. The header says no more than that. */
#include <pthread.h>
#include <stdint.h>
#include <stdio.h>
#include <stdlib.h>
#include <string.h>

#include "rembasuk.h"

#define STACK (4u << 20)
#define FILL 0xA5

static uint8_t text[16384], state[REMBASUK_STATE_LENGTH], lines[4096];
static uint32_t table[256];
static uint16_t rows[REMBASUK_SUPERFRAME_LENGTH];
static uint8_t row_lines[6 * REMBASUK_SUPERFRAME_LENGTH];
static size_t length, numbers, bytes;

static void *verdict(void *unused) {
    (void)unused;
    (void)rembasuk_verdict(text, length);
    return NULL;
}

static void *bounds(void *unused) {
    (void)unused;
    (void)rembasuk_bounds(text, length, 0);
    return NULL;
}

static void *all_bounds(void *unused) {
    (void)unused;
    (void)rembasuk_all_bounds(text, length, table, 256);
    return NULL;
}

static void *slot(void *unused) {
    (void)unused;
    (void)rembasuk_slot(text, length, state, sizeof state, lines, sizeof lines);
    return NULL;
}

static void *fixed_verdict(void *unused) {
    (void)unused;
    (void)rembasuk_fixed_verdict(text, length);
    return NULL;
}

static void *fixed_bounds(void *unused) {
    (void)unused;
    (void)rembasuk_fixed_bounds(text, length, 63);
    return NULL;
}

static void *fixed_slot(void *unused) {
    (void)unused;
    memset(state, 0, sizeof state);
    (void)rembasuk_fixed_slot(text, length, state, sizeof state, lines, sizeof lines);
    return NULL;
}

static void *superframe_size(void *unused) {
    (void)unused;
    numbers = rembasuk_superframe_size(text, length).numbers;
    return NULL;
}

static void *superframe(void *unused) {
    (void)unused;
    (void)rembasuk_superframe(text, length, rows, REMBASUK_SUPERFRAME_LENGTH);
    return NULL;
}

static void *table_write(void *unused) {
    (void)unused;
    bytes = rembasuk_table_write(rows, numbers, row_lines, sizeof row_lines).length;
    return NULL;
}

static void *table_read(void *unused) {
    (void)unused;
    (void)rembasuk_table_read(row_lines, bytes, rows, REMBASUK_SUPERFRAME_LENGTH);
    return NULL;
}

static void *channel(void *unused) {
    (void)unused;
    (void)rembasuk_channel(65535, 3999999999u, 15);
    return NULL;
}

/* 64 flows that share nodes, so that every part of a call is reached. */
static void make_text(void) {
    length = (size_t)sprintf((char *)text, "set\t65535\n");
    for (int k = 0; k < 64; k++) {
        length += (size_t)sprintf((char *)text + length, "flow\t%d\t%d\t0\t2\t%d\t%d\t%d\n", 600 + k, 500 + k, k, k + 1, k + 2);
    }
}

/* The same flows with periods of one hyper-period, 65,520 slots, and room for both tests to admit them. */
static void make_repeating(void) {
    length = (size_t)sprintf((char *)text, "set\t65535\n");
    for (int k = 0; k < 64; k++) {
        int period = k % 4 == 0 ? 720 : k % 4 == 1 ? 1008 : k % 4 == 2 ? 1040 : 1365;
        length += (size_t)sprintf((char *)text + length, "flow\t%d\t%d\t0\t2\t%d\t%d\t%d\n", period, period, k, k + 1, k + 2);
    }
}

static int check(const char *name, void *(*call)(void *), size_t most) {
    uint8_t *stack = aligned_alloc(4096, STACK);
    pthread_attr_t attributes;
    pthread_t thread;
    size_t untouched = 0;
    if (stack == NULL || pthread_attr_init(&attributes) != 0) {
        return 1;
    }
    memset(stack, FILL, STACK);
    if (pthread_attr_setstack(&attributes, stack, STACK) != 0 || pthread_create(&thread, &attributes, call, NULL) != 0) {
        return 1;
    }
    pthread_join(thread, NULL);
    while (untouched < STACK && stack[untouched] == FILL) {
        untouched++;
    }
    printf("%s: %zu bytes of stack, thread included; the header says %zu\n", name, STACK - untouched, most);
    free(stack);
    return STACK - untouched > most;
}

int main(void) {
    int bad;
    make_text();
    bad = check("rembasuk_verdict", verdict, REMBASUK_VERDICT_STACK) + check("rembasuk_bounds", bounds, REMBASUK_VERDICT_STACK)
        + check("rembasuk_all_bounds", all_bounds, REMBASUK_VERDICT_STACK) + check("rembasuk_slot", slot, REMBASUK_SLOT_STACK);
    bad += check("rembasuk_fixed_verdict", fixed_verdict, REMBASUK_VERDICT_STACK) + check("rembasuk_fixed_bounds", fixed_bounds, REMBASUK_VERDICT_STACK)
        + check("rembasuk_fixed_slot", fixed_slot, REMBASUK_SLOT_STACK);
    make_repeating();
    bad += check("rembasuk_superframe_size", superframe_size, REMBASUK_SUPERFRAME_STACK) + check("rembasuk_superframe", superframe, REMBASUK_SUPERFRAME_STACK);
    bad += check("rembasuk_table_write", table_write, REMBASUK_TABLE_STACK) + check("rembasuk_table_read", table_read, REMBASUK_TABLE_STACK);
    bad += check("rembasuk_channel", channel, REMBASUK_TABLE_STACK);
    /* the last node is no number: the last line is gone through again for the bad field */
    make_text();
    text[length - 2] = 'x';
    bad += check("rembasuk_verdict, refused", verdict, REMBASUK_VERDICT_STACK) + check("rembasuk_slot, refused", slot, REMBASUK_SLOT_STACK);
    bad += check("rembasuk_fixed_verdict, refused", fixed_verdict, REMBASUK_VERDICT_STACK) + check("rembasuk_fixed_slot, refused", fixed_slot, REMBASUK_SLOT_STACK);
    if (numbers == 0 || bytes == 0) {
        puts("stack: no table was made");
        bad++;
    }
    return bad;
}
