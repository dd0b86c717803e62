#include "many.h"
#include "expect.h"
#include "twin.h"

#include <string.h>

#define KEYS_AT_MOST 40
#define WORDS (GUARD + 2 * KEYS_AT_MOST + GUARD)

static uint64_t many_with(int side, struct trial *t, const uint64_t *keys, size_t count, uint16_t *indices, size_t length)
{
    struct tables u = tables_of(&t->after[side]);
    return (side == 0 ? igu_lookup_many : twin_lookup_many)(u.record, u.h, t->told.h, u.g, t->told.g, u.aux, t->told.aux, keys, count,
                                                            indices, length);
}

/* What single lookups of the proved unit say. */
static uint64_t one_by_one(struct trial *t, const uint64_t *keys, size_t count, uint16_t *indices, size_t length)
{
    struct tables u = tables_of(&t->after[0]);
    uint64_t answer = 0;
    if (length < count)
        return 20;
    for (size_t j = count; j-- > 0;) {
        uint64_t one = igu_lookup(u.record, u.h, t->told.h, u.g, t->told.g, u.aux, t->told.aux, keys[j]);
        indices[j] = one % 256 == 0 ? (uint16_t)(one / 256) : 0;
        if (one % 256 != 0)
            answer = one % 256 + 256 * (j + 1);
    }
    return answer;
}

/* Vectors of the list, the same but for one bit, and other words; in most calls none has a bit beyond n. */
static void draw_keys(const struct call *c, struct random *r, uint64_t *keys, size_t count)
{
    uint64_t within = one_in(r, 4) ? UINT64_MAX : inputs(c->n);
    for (size_t j = 0; j < count; j++) {
        uint64_t key = c->k == 0 || one_in(r, 3) ? random_word(r) : c->vectors[random_below(r, c->k)];
        keys[j] = (one_in(r, 3) ? key ^ (uint64_t)1 << random_below(r, 64) : key) & within;
    }
}

void many_both(struct trial *t, struct counts *counts, struct random r)
{
    uint64_t keys[KEYS_AT_MOST], answers[2], expected;
    uint16_t indices[3][WORDS];
    size_t count = one_in(&r, 20) ? 0 : random_between(&r, 1, KEYS_AT_MOST);
    size_t length = one_in(&r, 3) ? count : one_in(&r, 2) ? random_below(&r, count + 1) : random_between(&r, count, 2 * KEYS_AT_MOST);
    draw_keys(&t->call, &r, keys, count);
    for (size_t i = 0; i < WORDS; i++)
        indices[0][i] = indices[1][i] = indices[2][i] = (uint16_t)random_word(&r);
    for (int side = 0; side < 2; side++)
        answers[side] = many_with(side, t, keys, count, indices[side] + GUARD, length);
    expected = one_by_one(t, keys, count, indices[2] + GUARD, length);
    if (answers[0] != answers[1])
        report_difference(t, "the answers differ", MANY, count, answers);
    if (answers[0] != expected || !refusal_possible(MANY, expected % 256))
        report_difference(t, "both answers are wrong by single lookups, or such as no unit gives", MANY, count, answers);
    if (memcmp(indices[0], indices[2], sizeof indices[0]) != 0)
        report_difference(t, "a word of igu is not what single lookups say, or may not be written", MANY, count, answers);
    if (memcmp(indices[1], indices[2], sizeof indices[1]) != 0)
        report_difference(t, "a word of twin is not what single lookups say, or may not be written", MANY, count, answers);
    counts->refusals[MANY][answers[0] % 256]++;
}
