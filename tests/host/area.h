/* What the hosts of tests/host share: checks that are counted, and buffers that stand right before, and again right after, a page that may not be
 * touched, since a sanitizer does not see into the archive. */
#define _DEFAULT_SOURCE
#include <stdio.h>
#include <stdlib.h>
#include <string.h>
#include <sys/mman.h>
#include <unistd.h>

#include "rembasuk.h"

static int failures;
static int checks;

#define CHECK(test)                                                                                                                  \
    do {                                                                                                                             \
        checks++;                                                                                                                    \
        if (!(test)) {                                                                                                               \
            failures++;                                                                                                              \
            printf("%s:%d: %s\n", __FILE__, __LINE__, #test);                                                                        \
        }                                                                                                                            \
    } while (0)

/* ---- memory at the edge of a forbidden page */

#define FILL 0xA5

/* `size` writable bytes between two pages that may not be touched. */
typedef struct {
    uint8_t *base;
    size_t size;
} area;

static size_t page(void) { return (size_t)sysconf(_SC_PAGESIZE); }

static area area_new(size_t pages)
{
    area a;
    uint8_t *all = mmap(NULL, (pages + 2) * page(), PROT_NONE, MAP_PRIVATE | MAP_ANONYMOUS, -1, 0);
    if (all == MAP_FAILED || mprotect(all + page(), pages * page(), PROT_READ | PROT_WRITE) != 0) {
        perror("mmap");
        exit(2);
    }
    a.base = all + page();
    a.size = pages * page();
    memset(a.base, FILL, a.size);
    return a;
}

/* The bytes of a length at the area's start (right after a forbidden page) or at its end (right before one), the rest filled. */
static uint8_t *lend(area a, size_t length, int at_end)
{
    memset(a.base, FILL, a.size);
    return at_end ? a.base + (a.size - length) : a.base;
}

/* Whether everything in the area outside the lent bytes is as it was. */
static int untouched(area a, const uint8_t *lent, size_t length)
{
    size_t i;
    for (i = 0; i < a.size; i++) {
        if (a.base + i >= lent && a.base + i < lent + length) {
            continue;
        }
        if (a.base[i] != FILL) {
            return 0;
        }
    }
    return 1;
}

/* How many checks there were; the answer of `main`. */
static int said(const char *name)
{
    printf("%s: %d checks, %d failed\n", name, checks, failures);
    return failures != 0;
}
