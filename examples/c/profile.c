/* Two recalibrations of one red: yesterday's profile and today's lie in the brand owner's slab, the one before them in the house's. Each
 * key gives its own, and the key without its day gives none. */
#include "igu.h"

#include <inttypes.h>
#include <stdio.h>

enum { SIZE = 24, COUNT = 2, CELLS = 4, ROWS = 4096 };

struct unit {
    uint64_t record[IGU_RECORD_WORDS];
    uint16_t h[ROWS], g[CELLS];
    uint64_t aux[COUNT + 1];
};

static struct unit brand, house;

/* press 3, ink 1200, substrate 77, screen 150, and the day */
#define RED(day) {3, 1200, 77, 150, day}

static const uint32_t brand_keys[COUNT][IGU_KEY_WORDS] = {RED(9814), RED(9815)};
static const uint32_t house_keys[COUNT][IGU_KEY_WORDS] = {RED(9790), RED(9814)};

/* Equal records, one for each key, in the order of the keys. */
static const char brand_slab[COUNT][SIZE] = {"red, brand, day 9814", "red, brand, day 9815"};
static const char house_slab[COUNT][SIZE] = {"red, house, day 9790", "red, house, day 9814"};

static int build(struct unit *u, const uint32_t keys[COUNT][IGU_KEY_WORDS])
{
    uint64_t built = igu_profiles_build(2, CELLS, UINT32_MAX, keys, COUNT, u->h, ROWS, u->g, CELLS, u->aux, COUNT + 1, u->record);
    if (built != 0)
        fprintf(stderr, "igu_profiles_build: refusal %" PRIu64 ", place %" PRIu64 "\n", built % 256, built / 256 % 65536);
    return built == 0;
}

static uint64_t find(const uint32_t *key)
{
    return igu_profile(brand.record, brand.h, ROWS, brand.g, CELLS, brand.aux, COUNT + 1, (const uint8_t *)brand_slab, sizeof brand_slab,
                       SIZE, house.record, house.h, ROWS, house.g, CELLS, house.aux, COUNT + 1, (const uint8_t *)house_slab,
                       sizeof house_slab, SIZE, key);
}

int main(void)
{
    static const uint32_t keys[][IGU_KEY_WORDS] = {RED(9814), RED(9815), RED(9790), RED(0)};

    if (!build(&brand, brand_keys) || !build(&house, house_keys))
        return 1;
    for (size_t i = 0; i < sizeof keys / sizeof keys[0]; i++) {
        /* An answer has three parts. A refusal says nothing of the key. */
        uint64_t found = find(keys[i]), refusal = found % 256, number = found / 256 % 65536;
        const char(*slab)[SIZE] = found >> 32 != 0 ? brand_slab : house_slab;
        if (refusal != 0) {
            fprintf(stderr, "igu_profile: refusal %" PRIu64 "\n", refusal);
            return 1;
        }
        if (number != 0)
            printf("day %" PRIu32 ": %s\n", keys[i][4], slab[number - 1]);
        else
            printf("day %" PRIu32 ": no profile\n", keys[i][4]);
    }
    return 0;
}
