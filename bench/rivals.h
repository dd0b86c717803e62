/* Other ways to turn a key into its number, or 0: a scan of the list, a binary search of a sorted copy, a hash table. */
#ifndef RIVALS_H
#define RIVALS_H

#include <stddef.h>
#include <stdint.h>

#define RIVAL_KEYS 1023
#define RIVAL_SLOTS 2048 /* a power of two, at least twice the keys */

struct numbered {
    uint64_t key;
    uint64_t number;
};

/* Sorted by key. */
struct sorted {
    size_t k;
    struct numbered keys[RIVAL_KEYS];
};

/* Open addressing with linear probing; number 0 is a free slot. */
struct hash {
    struct numbered slots[RIVAL_SLOTS];
};

uint64_t scan_lookup(const uint64_t *vectors, size_t k, uint64_t x);

void sorted_build(struct sorted *s, const uint64_t *vectors, size_t k);
uint64_t sorted_lookup(const struct sorted *s, uint64_t x);

void hash_build(struct hash *h, const uint64_t *vectors, size_t k);
uint64_t hash_lookup(const struct hash *h, uint64_t x);

#endif
