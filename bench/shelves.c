#include "shelves.h"

#include <string.h>

static const unsigned widths[FIELDS] = {8, 12, 12, 8, 16};

bool over_width(const uint32_t *key)
{
    for (int f = 0; f < FIELDS; f++)
        if (key[f] >= (uint32_t)1 << widths[f])
            return true;
    return false;
}

/* Few values in a field, so that keys often differ in one field only. */
void draw_key(struct random *r, uint32_t *key)
{
    for (int f = 0; f < FIELDS; f++) {
        uint32_t most = ((uint32_t)1 << widths[f]) - 1;
        key[f] = one_in(r, 3) ? (uint32_t)random_word(r) & most : one_in(r, 2) ? most : (uint32_t)random_below(r, f == DAY ? 64 : 3);
    }
}

void widen(struct random *r, uint32_t *key)
{
    int f = (int)random_below(r, FIELDS);
    key[f] = one_in(r, 2) ? (uint32_t)1 << widths[f] : (uint32_t)random_word(r) | (uint32_t)1 << widths[f];
}

static bool same_key(const uint32_t *a, const uint32_t *b)
{
    return memcmp(a, b, FIELDS * sizeof a[0]) == 0;
}

size_t number_in(const struct shelf *s, const uint32_t *key)
{
    for (size_t i = 0; i < s->count; i++)
        if (same_key(s->keys[i], key))
            return i + 1;
    return 0;
}

/* 56 keys with one 1 each: no 24 variables tell them apart. */
static void single_bits(struct shelf *s)
{
    s->count = 0;
    for (int f = 0; f < FIELDS; f++)
        for (unsigned bit = 0; bit < widths[f]; bit++) {
            memset(s->keys[s->count], 0, sizeof s->keys[0]);
            s->keys[s->count++][f] = (uint32_t)1 << bit;
        }
}

static void draw_list(struct random *r, struct shelf *s)
{
    size_t wanted = one_in(r, 50) ? random_between(r, 1000, KEYS_ROOM) : one_in(r, 40) ? 0 : random_between(r, 1, one_in(r, 10) ? 200 : 24);
    if (one_in(r, 40)) {
        single_bits(s);
        return;
    }
    s->count = wanted;
    for (size_t i = 0; i < wanted; i++)
        draw_key(r, s->keys[i]);
    if (one_in(r, 12) && wanted > 0)
        widen(r, s->keys[random_below(r, wanted)]);
}

/* Different keys, but for one list in some. */
static void part_list(struct random *r, struct shelf *s)
{
    if (one_in(r, 12))
        return;
    for (size_t i = 0; i < s->count; i++) {
        size_t first = 0;
        while (!same_key(s->keys[first], s->keys[i]))
            first++;
        if (first < i)
            memcpy(s->keys[i--], s->keys[--s->count], sizeof s->keys[0]);
    }
}

void draw_shelf(struct random *r, struct shelf *s)
{
    draw_list(r, s);
    part_list(r, s);
    s->degree = one_in(r, 30) ? 3 * random_below(r, 2) : random_between(r, 1, 2);
    size_t enough = 1;
    while (enough < 2 * s->count)
        enough *= 2;
    s->L = one_in(r, 30) ? G_ROOM + 1 : one_in(r, 8) ? random_between(r, 0, s->count) : enough;
    s->allowance = one_in(r, 20) ? random_below(r, s->count + 1) : UINT32_MAX;
    s->h_len = one_in(r, 20) ? random_below(r, 8) : H_ROOM;
    s->g_len = one_in(r, 30) ? random_below(r, G_ROOM) : G_ROOM;
    s->aux_len = one_in(r, 20) ? random_below(r, s->count + 1) : s->count + 1;
    s->size = one_in(r, 30) ? 0 : random_between(r, 1, 300);
    size_t bytes = s->count * s->size;
    s->slab_len = one_in(r, 2) ? bytes : bytes + random_below(r, 400);
    if (one_in(r, 8) && bytes > 0)
        s->slab_len = one_in(r, 2) ? bytes - 1 : random_below(r, bytes);
    s->damaged = false;
    for (size_t i = 0; i < sizeof s->unit[0]; i++)
        ((uint8_t *)&s->unit[0])[i] = (uint8_t)random_word(r);
    s->unit[1] = s->unit[0];
}
