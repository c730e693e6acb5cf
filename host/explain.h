/* explain.h: why noodlefen_load refused an input, in words. */
#ifndef EXPLAIN_H
#define EXPLAIN_H

#include <stddef.h>
#include <stdint.h>

#ifdef __cplusplus
extern "C" {
#endif

/* Why the input was refused for this cause, at this offset if the cause is 4, 5 or 6: cause and value of the answer of noodlefen_load.
 * A constant text without a line feed. Bytes behind len are never read. */
const char *explain_refusal(const uint8_t *xml, size_t len, unsigned cause, uint64_t offset);

#ifdef __cplusplus
}
#endif

#endif
