#include "twin.h"

uint64_t twin_lookup_many(const uint64_t record[TWIN_RECORD_WORDS], const uint16_t *h, size_t h_len, const uint16_t *g, size_t g_len,
                          const uint64_t *aux, size_t aux_len, const uint64_t *keys, size_t count, uint16_t *indices,
                          size_t indices_len)
{
    uint64_t answer = 0;
    if (indices_len < count)
        return 20;
    for (size_t j = 0; j < count; j++) {
        uint64_t one = twin_lookup(record, h, h_len, g, g_len, aux, aux_len, keys[j]), refusal = one % 256;
        indices[j] = refusal == 0 ? (uint16_t)(one / 256) : 0;
        if (answer == 0 && refusal != 0)
            answer = refusal + 256 * (j + 1);
    }
    return answer;
}
