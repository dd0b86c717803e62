/* Another way to turn a key into its number, or 0: BMZ of the library cmph, which gives each key of the list a place of its own, and the key
 * there compared. */
#ifndef BMZ_H
#define BMZ_H

#include <stdbool.h>
#include <stddef.h>
#include <stdint.h>

/* False where cmph is not there; compile with WITH_CMPH where it is. */
bool bmz_build(uint64_t *vectors, size_t k);
uint64_t bmz_lookup(uint64_t x);

#endif
