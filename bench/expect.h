/* What docs/SCOPE.md says outright of an answer, without choosing or placing anything: the absolute half of the cross-check. */
#ifndef EXPECT_H
#define EXPECT_H

#include "cases.h"

static inline uint64_t inputs(size_t n)
{
    return n >= 64 ? UINT64_MAX : ((uint64_t)1 << n) - 1;
}

/* The inputs of a variable's word as a mask; positions out of bounds have no place in it. */
uint64_t variable_mask(uint64_t word);

/* Adds a mask to a basis of XORs (all 0 at the start); false when it is an XOR of those added before. */
bool span_add(uint64_t basis[64], uint64_t mask);

bool sides_in_bounds(size_t p, size_t n1);

/* The inputs that the rule keeps beside these variables. */
uint64_t kept_inputs(const uint64_t *variables, size_t p, size_t n);

/* Refusal + 256 * place by the checks 1 to 7, and 8 to 10 and 12 in the given build; 0 when all of them pass. */
uint64_t expected_refusal(const struct call *c);

/* Of a given build: whether each vector of the row has its column below L, so that the displacement 0 is tried. */
bool row_is_tried(const struct call *c, uint64_t row);

/* The answers for an accepted unit, from the list alone. */
uint64_t expected_lookup(const struct call *c, uint64_t x);
uint64_t expected_recovery(const struct call *c, size_t i, uint64_t *vector);

/* The answer of a write, from the record and the lengths alone. */
uint64_t expected_write(const uint64_t *record, const struct lengths *length, size_t file_len);

/* The four bytes that a block of a file ends with. */
#define BLOCK 512
#define CHECKED 508
void block_check(const uint8_t *block, uint8_t check[BLOCK - CHECKED]);

#endif
