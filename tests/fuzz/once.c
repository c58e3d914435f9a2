/* Gives the fuzz target every prefix of its standard input, for a machine without a fuzzer: so the target stays compiled and true. */
#include <stdint.h>
#include <stdio.h>
#include <stdlib.h>
#include <string.h>

int LLVMFuzzerTestOneInput(const uint8_t *data, size_t size);

int main(void)
{
    static uint8_t all[16384];
    size_t size = fread(all, 1, sizeof all, stdin), n;
    for (n = 0; n <= size; n++) {
        /* a copy of just this length, so that the sanitizer sees a read beyond it */
        uint8_t *data = malloc(n + 1);
        if (data == NULL) {
            return 2;
        }
        memcpy(data, all, n);
        LLVMFuzzerTestOneInput(data, n);
        free(data);
    }
    printf("fuzz: %lu inputs\n", (unsigned long)n);
    return 0;
}
