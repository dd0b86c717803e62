/* A list of seven keys of six bits becomes a unit; then keys give their numbers, and a number its key. */
#include "igu.h"

#include <inttypes.h>
#include <stdio.h>

/* Says the refusal of a lookup or a recovery; README.md has what each number means. */
static int refused(const char *call, uint64_t refusal)
{
    fprintf(stderr, "%s: refusal %" PRIu64 "\n", call, refusal);
    return 1;
}

int main(void)
{
    static const uint64_t list[] = {16, 18, 20, 28, 32, 55, 58};
    enum { N = 6, DEGREE = 2, CELLS = 7, COUNT = sizeof list / sizeof list[0] };

    /* The caller owns the tables: 4,096 words of H always suffice, G has the cells, AUX one word more than the list. */
    static uint16_t h[4096], g[CELLS];
    static uint64_t aux[COUNT + 1], record[IGU_RECORD_WORDS];

    uint64_t built = igu_build(N, DEGREE, CELLS, UINT32_MAX, list, COUNT, h, 4096, g, CELLS, aux, COUNT + 1, record);
    if (built != 0) {
        fprintf(stderr, "igu_build: refusal %" PRIu64 ", place %" PRIu64 "\n", built % 256, built / 256);
        return 1;
    }

    static const uint64_t keys[] = {20, 6};
    for (size_t i = 0; i < sizeof keys / sizeof keys[0]; i++) {
        /* An answer has two parts. A refusal says nothing of the key: it must not be read as "not in the list". */
        uint64_t found = igu_lookup(record, h, 4096, g, CELLS, aux, COUNT + 1, keys[i]);
        uint64_t refusal = found % 256, index = found / 256;
        if (refusal != 0)
            return refused("igu_lookup", refusal);
        if (index != 0)
            printf("key %" PRIu64 " has number %" PRIu64 "\n", keys[i], index);
        else
            printf("key %" PRIu64 " is not in the list\n", keys[i]);
    }

    uint64_t key, refusal = igu_recover(record, h, 4096, g, CELLS, aux, COUNT + 1, 7, &key);
    if (refusal != 0)
        return refused("igu_recover", refusal);
    printf("number 7 is key %" PRIu64 "\n", key);
    return 0;
}
