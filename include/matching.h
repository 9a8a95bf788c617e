/* The assignment of parts to yards: link libmatching_c.a, which `tools/build matching_c` makes. */
#ifndef MATCHING_H
#define MATCHING_H

#include <stddef.h>
#include <stdint.h>

#ifdef __cplusplus
extern "C" {
#endif

/* What matching_assign answers. */
#define MATCHING_ASSIGNED 0u
#define MATCHING_DEFICIENT 1u
#define MATCHING_REFUSED 24u

/*
 * Gives each of p parts (0 to 255) a yard of its own among y (1 to 32). `allowed` holds p * y bytes, part by part: 1
 * where the yard is allowed to the part, 0 where not. Any input is answered:
 *
 * MATCHING_ASSIGNED   buffer[i] is the yard of part i, allowed to it, and no yard stands twice.
 * MATCHING_DEFICIENT  no assignment exists: buffer[i] is 1 for each part of a set that has fewer allowed yards than
 *                     parts, and 0 for the others.
 * MATCHING_REFUSED    p is above 255, y is outside 1 to 32, allowed_len is not p * y, a byte is above 1, or buffer_len
 *                     is below p. No byte is written.
 *
 * Only the first p bytes of the buffer are written. Each pointer is to as many bytes as its length says, is not null
 * even where that is 0, and the two do not overlap: nothing tests this.
 *
 * Stack: up to 4 KiB. Measured, with some room to spare, and not proved. No memory is allocated.
 */
uint32_t matching_assign(size_t p, size_t y, const uint8_t *allowed, size_t allowed_len, uint8_t *buffer,
                         size_t buffer_len);

#ifdef __cplusplus
}
#endif

#endif
