#include "cases.h"
#include "draw.h"
#include "expect.h"

static uint64_t one_bit(struct random *r)
{
    return (uint64_t)1 << random_below(r, 64);
}

static void damage_record_word(struct random *r, uint64_t *record)
{
    uint64_t *word = &record[one_in(r, 2) ? random_below(r, AT_VARIABLES) : random_below(r, RECORD_WORDS)];
    switch (random_below(r, 5)) {
    case 0: *word += 1; break;
    case 1: *word -= 1; break;
    case 2: *word ^= one_bit(r); break;
    case 3: *word = random_below(r, 70); break;
    default: *word = random_word(r);
    }
}

/* Any of the 24 places: a variable within n, perhaps dependent or with another part mark; or a word that no variable has. */
static void damage_variable(struct random *r, const struct call *c, uint64_t *record)
{
    uint64_t *word = &record[AT_VARIABLES + random_below(r, VARIABLES)];
    switch (random_below(r, 4)) {
    case 0: *word ^= 65536; break;
    case 1: *word = random_below(r, (size_t)1 << 18); break;
    default: *word = random_variable(r, c->n);
    }
}

static uint64_t low_bit(uint64_t mask)
{
    return mask & (0 - mask);
}

/* As many kept inputs as before, but others, within n or not. */
static void exchange_kept(struct random *r, const struct call *c, uint64_t *record)
{
    uint64_t kept = record[AT_KEPT], others = ~kept & (one_in(r, 4) ? UINT64_MAX : inputs(c->n));
    uint64_t out = low_bit(kept & random_word(r)), from = random_below(r, 64), in = low_bit(others & random_word(r) << from);
    if (out != 0 && in != 0)
        record[AT_KEPT] = (kept ^ out) | in;
}

/* One more input, kept: the unit stays well formed, and sound. */
static void widen(const struct call *c, uint64_t *record)
{
    if (c->n < 64 && record[AT_N] == c->n) {
        record[AT_N]++;
        record[AT_KEPT] |= (uint64_t)1 << c->n;
    }
}

/* One variable more and one kept input fewer, or the other way round: well formed, and now and then sound. */
static void trade(struct random *r, const struct call *c, uint64_t *record)
{
    uint64_t kept = record[AT_KEPT];
    if (one_in(r, 2)) {
        if (kept != 0 && record[AT_P] < VARIABLES) {
            record[AT_VARIABLES + record[AT_P]++] = random_variable(r, c->n);
            record[AT_KEPT] = kept ^ low_bit(kept);
        }
    } else if (record[AT_P] > 0 && record[AT_P] <= VARIABLES) {
        record[AT_P]--;
        record[AT_KEPT] = kept | low_bit(inputs(c->n) & ~kept);
    }
}

/* Half of the time where it matters, else anywhere in the slice. */
static size_t place_in(struct random *r, size_t range, size_t length)
{
    return random_below(r, one_in(r, 2) ? range : length);
}

static void damage_h(struct random *r, const struct call *c, struct tables t)
{
    uint16_t *word = &t.h[random_below(r, c->length.h)];
    switch (random_below(r, 3)) {
    case 0: *word += 1; break;
    case 1: *word = (uint16_t)random_below(r, c->L + 1); break;
    default: *word = (uint16_t)random_word(r);
    }
}

static void damage_g(struct random *r, const struct call *c, struct tables t)
{
    uint16_t *word = &t.g[place_in(r, c->L, c->length.g)];
    *word = (uint16_t)(one_in(r, 4) ? random_word(r) : random_below(r, c->k + 3));
}

static void damage_aux(struct random *r, const struct call *c, struct tables t)
{
    uint64_t *word = &t.aux[place_in(r, c->k + 1, c->length.aux)];
    switch (random_below(r, 4)) {
    case 0: *word ^= one_bit(r); break;
    case 1: *word ^= (uint64_t)1 << random_below(r, c->n); break;
    case 2: *word = t.aux[random_below(r, c->k + 1)]; break;
    default: *word = random_word(r);
    }
}

static void shorten_slice(struct random *r, struct lengths *length)
{
    switch (random_below(r, 3)) {
    case 0: length->h = random_below(r, length->h + 1); break;
    case 1: length->g = random_below(r, length->g + 1); break;
    default: length->aux = random_below(r, length->aux + 1);
    }
}

void damage(struct random *r, const struct call *c, struct tables t, struct lengths *length)
{
    switch (random_below(r, 12)) {
    case 0:
    case 1: damage_record_word(r, t.record); break;
    case 2: damage_variable(r, c, t.record); break;
    case 3: exchange_kept(r, c, t.record); break;
    case 4: widen(c, t.record); break;
    case 5: trade(r, c, t.record); break;
    case 6:
    case 7: damage_h(r, c, t); break;
    case 8: damage_g(r, c, t); break;
    case 9:
    case 10: damage_aux(r, c, t); break;
    default: shorten_slice(r, length);
    }
}
