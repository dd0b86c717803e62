/* The index generation unit written a second time, from the scope document alone, for comparing and timing. Parameters, memory, results
 * and the record are those of igu.h; only the prefix differs. */
#ifndef TWIN_H
#define TWIN_H

#include <stddef.h>
#include <stdint.h>

#define TWIN_RECORD_WORDS 40
#define TWIN_VARIABLES 24

uint64_t twin_build(size_t n, size_t degree, size_t L, uint64_t allowance, const uint64_t *vectors, size_t k, uint16_t *h, size_t h_len,
                    uint16_t *g, size_t g_len, uint64_t *aux, size_t aux_len, uint64_t record[TWIN_RECORD_WORDS]);

uint64_t twin_build_given(size_t n, size_t p, size_t n1, size_t L, uint64_t allowance, const uint64_t variables[TWIN_VARIABLES],
                          const uint64_t *vectors, size_t k, uint16_t *h, size_t h_len, uint16_t *g, size_t g_len, uint64_t *aux,
                          size_t aux_len, uint64_t record[TWIN_RECORD_WORDS]);

uint64_t twin_lookup(const uint64_t record[TWIN_RECORD_WORDS], const uint16_t *h, size_t h_len, const uint16_t *g, size_t g_len,
                     const uint64_t *aux, size_t aux_len, uint64_t x);

uint64_t twin_lookup_many(const uint64_t record[TWIN_RECORD_WORDS], const uint16_t *h, size_t h_len, const uint16_t *g, size_t g_len,
                          const uint64_t *aux, size_t aux_len, const uint64_t *keys, size_t count, uint16_t *indices,
                          size_t indices_len);

uint64_t twin_recover(const uint64_t record[TWIN_RECORD_WORDS], const uint16_t *h, size_t h_len, const uint16_t *g, size_t g_len,
                      const uint64_t *aux, size_t aux_len, size_t i, uint64_t vector[1]);

uint64_t twin_add(uint64_t record[TWIN_RECORD_WORDS], uint16_t *h, size_t h_len, uint16_t *g, size_t g_len, uint64_t *aux, size_t aux_len,
                  uint64_t x);

uint64_t twin_write(const uint64_t record[TWIN_RECORD_WORDS], const uint16_t *h, size_t h_len, const uint16_t *g, size_t g_len,
                    const uint64_t *aux, size_t aux_len, uint8_t *file, size_t file_len);

uint64_t twin_read(const uint8_t *file, size_t file_len, uint16_t *h, size_t h_len, uint16_t *g, size_t g_len, uint64_t *aux,
                   size_t aux_len, uint64_t record[TWIN_RECORD_WORDS]);

uint64_t twin_profiles_build(size_t degree, size_t L, uint64_t allowance, const uint32_t (*keys)[5], size_t count, uint16_t *h,
                             size_t h_len, uint16_t *g, size_t g_len, uint64_t *aux, size_t aux_len, uint64_t record[TWIN_RECORD_WORDS]);

uint64_t twin_profile(const uint64_t brand[TWIN_RECORD_WORDS], const uint16_t *brand_h, size_t brand_h_len, const uint16_t *brand_g,
                      size_t brand_g_len, const uint64_t *brand_aux, size_t brand_aux_len, const uint8_t *brand_slab,
                      size_t brand_slab_len, size_t brand_size, const uint64_t house[TWIN_RECORD_WORDS], const uint16_t *house_h,
                      size_t house_h_len, const uint16_t *house_g, size_t house_g_len, const uint64_t *house_aux, size_t house_aux_len,
                      const uint8_t *house_slab, size_t house_slab_len, size_t house_size, const uint32_t key[5]);

#endif
