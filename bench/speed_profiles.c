#include "speed_profiles.h"
#include "igu.h"
#include "random.h"
#include "timing.h"
#include "twin.h"

#include <stdio.h>

#define ROUNDS 401
#define PROFILE_WANTED 2.2
#define TWIN_WANTED 1.3

/* The largest lists of keys; a key of one is not in the other. */
enum { K = 1023, L = 2048, ROWS = 4096, FIELDS = 5, SIZE = 100 };

struct shelf {
    uint32_t keys[K][FIELDS];
    uint64_t record[IGU_RECORD_WORDS], aux[K + 1];
    uint16_t h[ROWS], g[L];
};

static struct shelf brand, house;
static uint64_t words[K]; /* of the house's keys */
static const uint8_t slab[K * SIZE];

/* The press tells the two lists apart; the rest is random, the day counted up so that no key comes twice. */
static void draw(struct shelf *s, uint32_t press, uint64_t seed)
{
    static const uint32_t masks[FIELDS] = {0xFF, 0xFFF, 0xFFF, 0xFF, 0xFFFF};
    struct random r = {seed};
    for (uint32_t i = 0; i < K; i++) {
        for (int f = 0; f < FIELDS; f++)
            s->keys[i][f] = (uint32_t)random_word(&r) & masks[f];
        s->keys[i][0] = press;
        s->keys[i][FIELDS - 1] = 8000 + i;
    }
    if (igu_profiles_build(2, L, UINT32_MAX, (const uint32_t(*)[FIELDS])s->keys, K, s->h, ROWS, s->g, L, s->aux, K + 1, s->record) != 0)
        stop("a list of keys is refused");
}

static uint64_t word_of(const uint32_t *k)
{
    return k[0] | (uint64_t)k[1] << 8 | (uint64_t)k[2] << 20 | (uint64_t)k[3] << 32 | (uint64_t)k[4] << 40;
}

#define SUM(answer)                                                                                                                        \
    uint64_t sum = 0;                                                                                                                      \
    for (size_t i = 0; i < K; i++)                                                                                                         \
        sum = 31 * sum + (answer);                                                                                                         \
    return sum

static uint64_t sum_profiles(void)
{
    SUM(igu_profile(brand.record, brand.h, ROWS, brand.g, L, brand.aux, K + 1, slab, sizeof slab, SIZE, house.record, house.h, ROWS,
                    house.g, L, house.aux, K + 1, slab, sizeof slab, SIZE, house.keys[i]));
}

static uint64_t sum_twin(void)
{
    SUM(twin_profile(brand.record, brand.h, ROWS, brand.g, L, brand.aux, K + 1, slab, sizeof slab, SIZE, house.record, house.h, ROWS,
                     house.g, L, house.aux, K + 1, slab, sizeof slab, SIZE, house.keys[i]));
}

static uint64_t sum_missed(void)
{
    SUM(igu_lookup(brand.record, brand.h, ROWS, brand.g, L, brand.aux, K + 1, words[i]));
}

static uint64_t sum_found(void)
{
    SUM(igu_lookup(house.record, house.h, ROWS, house.g, L, house.aux, K + 1, words[i]));
}

enum way { PROFILE, TWIN, MISSED, FOUND, WAYS };

void time_profiles(void)
{
    static double times[WAYS][ROUNDS];
    static uint64_t (*const ways[WAYS])(void) = {sum_profiles, sum_twin, sum_missed, sum_found};
    double one[WAYS];
    draw(&brand, 1, 1);
    draw(&house, 2, 2);
    for (size_t i = 0; i < K; i++)
        words[i] = word_of(house.keys[i]);
    uint64_t wanted = sum_found();
    for (size_t round = 0; round < ROUNDS; round++)
        for (int way = 0; way < WAYS; way++)
            times[way][round] = timed(ways[way], way == MISSED ? 0 : wanted);
    for (int way = 0; way < WAYS; way++)
        one[way] = median(times[way], ROUNDS) / K;
    double lookup = (one[MISSED] + one[FOUND]) / 2;
    printf("\n| Profile of a key that the house alone has | twin | lookup, brand's | lookup, house's | igu / one lookup | wanted <= %.1f |"
           " igu / twin | wanted <= %.1f |\n|---|---|---|---|---|---|---|---|\n",
           PROFILE_WANTED, TWIN_WANTED);
    printf("| %.1f ns | %.1f ns | %.1f ns | %.1f ns | %.2f | %s | %.2f | %s |\n", one[PROFILE], one[TWIN], one[MISSED], one[FOUND],
           one[PROFILE] / lookup, verdict(one[PROFILE] / lookup, PROFILE_WANTED), one[PROFILE] / one[TWIN],
           verdict(one[PROFILE] / one[TWIN], TWIN_WANTED));
}
