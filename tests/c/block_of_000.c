/* That CHOKES_THRESHOLDS_OF_000 is the block that the library's own function writes, byte by byte; it is reached through the
 * probe library, which is no part of the product. */
#include "chokes.h"

#include <stdio.h>
#include <string.h>

uint64_t probe_thresholds(uint8_t *block, size_t block_length);

int main(void)
{
    static const uint8_t of_000[CHOKES_THRESHOLDS_BYTES] = CHOKES_THRESHOLDS_OF_000;
    uint8_t block[CHOKES_THRESHOLDS_BYTES + 8], untouched[sizeof block];
    size_t length;
    memset(untouched, 0xA5, sizeof untouched);
    for (length = 0; length <= sizeof block; length++) {
        const size_t written = length < sizeof of_000 ? 0 : sizeof of_000;
        memcpy(block, untouched, sizeof block);
        if (probe_thresholds(block, length) != written || memcmp(block, of_000, written) != 0 ||
            memcmp(block + written, untouched, sizeof block - written) != 0) {
            printf("block_of_000: in a slice of %lu bytes the library writes another block than chokes.h has\n",
                   (unsigned long)length);
            return 1;
        }
    }
    printf("chokes.h has the library's own block of 000, %lu bytes\n", (unsigned long)sizeof of_000);
    return 0;
}
