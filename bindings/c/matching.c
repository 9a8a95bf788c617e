/* The assignment as a C program links it, on sheet N of document 01 with two yards. */
#include "matching.h"

#include <assert.h>
#include <string.h>

int main(void) {
    uint8_t buffer[3] = {7, 7, 7};

    /* Limit 4: one part, with yard 0 alone within the limit. */
    const uint8_t one[] = {1, 0};
    assert(matching_assign(1, 2, one, sizeof one, buffer, sizeof buffer) == MATCHING_ASSIGNED);
    assert(memcmp(buffer, (uint8_t[]){0, 7, 7}, 3) == 0);

    /* Limit 3: "too low, parts 2 (lines 0; 1), yards 1". */
    const uint8_t two[] = {1, 0, 1, 0};
    assert(matching_assign(2, 2, two, sizeof two, buffer, sizeof buffer) == MATCHING_DEFICIENT);
    assert(memcmp(buffer, (uint8_t[]){1, 1, 7}, 3) == 0);

    /* "24: .. or a buffer below p bytes". */
    assert(matching_assign(2, 2, two, sizeof two, buffer, 1) == MATCHING_REFUSED);
    assert(memcmp(buffer, (uint8_t[]){1, 1, 7}, 3) == 0);
    return 0;
}
