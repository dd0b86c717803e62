#include "rivals.h"

#include <stdlib.h>
#include <string.h>

uint64_t scan_lookup(const uint64_t *vectors, size_t k, uint64_t x)
{
    for (size_t i = 0; i < k; i++)
        if (vectors[i] == x)
            return i + 1;
    return 0;
}

static int by_key(const void *a, const void *b)
{
    uint64_t left = ((const struct numbered *)a)->key, right = ((const struct numbered *)b)->key;
    return (left > right) - (left < right);
}

void sorted_build(struct sorted *s, const uint64_t *vectors, size_t k)
{
    s->k = k;
    for (size_t i = 0; i < k; i++)
        s->keys[i] = (struct numbered){vectors[i], i + 1};
    qsort(s->keys, k, sizeof s->keys[0], by_key);
}

/* The last key not above x is among the count keys from base; the comparison chooses an address, not a branch. */
uint64_t sorted_lookup(const struct sorted *s, uint64_t x)
{
    const struct numbered *base = s->keys;
    for (size_t count = s->k; count > 1;) {
        size_t half = count / 2;
        base = base[half].key <= x ? base + half : base;
        count -= half;
    }
    return base->key == x ? base->number : 0;
}

/* The top bits of the product depend on every bit of the key. */
static size_t slot_of(uint64_t key)
{
    return (key * 0x9E3779B97F4A7C15u) >> 53 & (RIVAL_SLOTS - 1);
}

static const struct numbered *hash_find(const struct hash *h, uint64_t key)
{
    size_t slot = slot_of(key);
    while (h->slots[slot].number != 0 && h->slots[slot].key != key)
        slot = (slot + 1) & (RIVAL_SLOTS - 1);
    return &h->slots[slot];
}

void hash_build(struct hash *h, const uint64_t *vectors, size_t k)
{
    memset(h, 0, sizeof *h);
    for (size_t i = 0; i < k; i++)
        h->slots[hash_find(h, vectors[i]) - h->slots] = (struct numbered){vectors[i], i + 1};
}

uint64_t hash_lookup(const struct hash *h, uint64_t x)
{
    return hash_find(h, x)->number;
}
