/* The profile keys of the separation engine, over the twin. */
#include "twin_unit.h"

#include <string.h>

enum { FIELDS = 5, KEY_BITS = 56, MOST_KEYS = 1024 };

static const unsigned widths[FIELDS] = {8, 12, 12, 8, 16};

static int over_width(const uint32_t *key)
{
    for (int f = 0; f < FIELDS; f++)
        if (key[f] >> widths[f] != 0)
            return 1;
    return 0;
}

static uint64_t word_of(const uint32_t *key)
{
    uint64_t word = 0;
    unsigned at = 0;
    for (int f = 0; f < FIELDS; f++) {
        word |= (uint64_t)key[f] << at;
        at += widths[f];
    }
    return word;
}

/* A list that is too long is refused by its length, so its first words are enough. */
uint64_t twin_profiles_build(size_t degree, size_t L, uint64_t allowance, const uint32_t (*keys)[FIELDS], size_t count, uint16_t *h,
                             size_t h_len, uint16_t *g, size_t g_len, uint64_t *aux, size_t aux_len, uint64_t record[TWIN_RECORD_WORDS])
{
    uint64_t words[MOST_KEYS];
    for (size_t i = 0; i < count; i++) {
        if (over_width(keys[i])) {
            memset(record, 0, TWIN_RECORD_WORDS * sizeof record[0]);
            return 30;
        }
        if (i < MOST_KEYS)
            words[i] = word_of(keys[i]);
    }
    return twin_build(KEY_BITS, degree, L, allowance, words, count < MOST_KEYS ? count : MOST_KEYS, h, h_len, g, g_len, aux, aux_len, record);
}

static int too_short(const uint64_t *record, size_t slab_len, size_t size)
{
    return size == 0 || slab_len / size < record[AT_K];
}

uint64_t twin_profile(const uint64_t brand[TWIN_RECORD_WORDS], const uint16_t *brand_h, size_t brand_h_len, const uint16_t *brand_g,
                      size_t brand_g_len, const uint64_t *brand_aux, size_t brand_aux_len, const uint8_t *brand_slab, size_t brand_slab_len,
                      size_t brand_size, const uint64_t house[TWIN_RECORD_WORDS], const uint16_t *house_h, size_t house_h_len,
                      const uint16_t *house_g, size_t house_g_len, const uint64_t *house_aux, size_t house_aux_len,
                      const uint8_t *house_slab, size_t house_slab_len, size_t house_size, const uint32_t key[FIELDS])
{
    (void)brand_slab;
    (void)house_slab;
    if (over_width(key))
        return 30;
    if (too_short(brand, brand_slab_len, brand_size) || too_short(house, house_slab_len, house_size))
        return 31;
    uint64_t word = word_of(key);
    uint64_t found = twin_lookup(brand, brand_h, brand_h_len, brand_g, brand_g_len, brand_aux, brand_aux_len, word);
    if (found % 256 != 0)
        return found;
    if (found != 0)
        return found + ((uint64_t)1 << 32);
    return twin_lookup(house, house_h, house_h_len, house_g, house_g_len, house_aux, house_aux_len, word);
}
