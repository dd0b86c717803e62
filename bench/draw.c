#include "draw.h"
#include "expect.h"

#define CENTRES 4

/* A vector of a list is one of the centres, with the free inputs at random and then some single inputs turned. */
struct style {
    uint64_t centres[CENTRES];
    uint64_t free;
    size_t turns;
};

/* At most count of the n inputs. */
static uint64_t few_inputs(struct random *r, size_t n, size_t count)
{
    uint64_t mask = 0;
    for (size_t i = 0; i < count; i++)
        mask |= (uint64_t)1 << random_below(r, n);
    return mask;
}

static struct style style_with(struct random *r, uint64_t free, size_t turns)
{
    struct style s = {.free = free, .turns = turns};
    for (size_t i = 0; i < CENTRES; i++)
        s.centres[i] = random_word(r);
    return s;
}

static uint64_t draw(struct random *r, const struct style *s, size_t n)
{
    uint64_t vector = s->centres[random_below(r, CENTRES)];
    vector ^= random_word(r) & s->free;
    for (size_t t = random_below(r, s->turns + 1); t > 0; t--)
        vector ^= (uint64_t)1 << random_below(r, n);
    return vector & inputs(n);
}

static bool listed(const struct call *c, uint64_t vector)
{
    for (size_t i = 0; i < c->k; i++)
        if (c->vectors[i] == vector)
            return true;
    return false;
}

/* A list of different vectors; shorter than wanted where the style has too few. */
static void draw_list(struct random *r, struct call *c, size_t wanted, const struct style *s)
{
    c->k = 0;
    for (size_t attempts = 12 * wanted; attempts > 0 && c->k < wanted; attempts--) {
        uint64_t vector = draw(r, s, c->n);
        if (!listed(c, vector))
            c->vectors[c->k++] = vector;
    }
}

void any_list(struct random *r, struct call *c, size_t wanted)
{
    struct style s = style_with(r, UINT64_MAX, 0);
    draw_list(r, c, wanted, &s);
}

void near_list(struct random *r, struct call *c, size_t wanted)
{
    bool clusters = one_in(r, 2);
    uint64_t free = clusters ? 0 : few_inputs(r, c->n, random_between(r, 1, 9));
    struct style s = style_with(r, free, clusters ? random_between(r, 1, 4) : 0);
    draw_list(r, c, wanted, &s);
}

uint64_t random_variable(struct random *r, size_t n)
{
    size_t i = random_between(r, 1, n);
    size_t j = i < n && one_in(r, 2) ? random_between(r, i + 1, n) : 0;
    return i + 256 * j + 65536 * random_below(r, 2);
}

void choose_sides(struct random *r, struct call *c)
{
    size_t fewest = c->p > SIDE_AT_MOST ? c->p - SIDE_AT_MOST : 0;
    c->n1 = random_between(r, fewest, least(c->p, SIDE_AT_MOST));
}

void give_variables(struct random *r, struct call *c, size_t p)
{
    uint64_t basis[64] = {0};
    c->p = p;
    for (size_t v = 0; v < p;) {
        c->variables[v] = random_variable(r, c->n);
        v += span_add(basis, variable_mask(c->variables[v]));
    }
    choose_sides(r, c);
}

void choose(struct random *r, struct call *c)
{
    c->given = false;
    c->degree = random_between(r, 1, 2);
}

void give(struct random *r, struct call *c)
{
    c->given = true;
    size_t enough = 2 * (64 - (size_t)__builtin_clzll(c->k)) + random_below(r, 5);
    size_t nearly = c->n - (one_in(r, 3) ? random_below(r, least(c->n, 3)) : 0);
    give_variables(r, c, least(least(enough, nearly), VARIABLES));
}

void either(struct random *r, struct call *c)
{
    if (one_in(r, 2))
        choose(r, c);
    else
        give(r, c);
}

void draw_record(struct random *r, const struct call *c, uint64_t *record)
{
    const uint64_t numbers[] = {c->n, c->p, c->n1, c->k, c->L, kept_inputs(c->variables, c->p, c->n)};
    for (size_t i = 0; i < RECORD_WORDS; i++)
        record[i] = i < sizeof numbers / sizeof numbers[0] ? numbers[i] : random_word(r);
    for (size_t v = 0; v < VARIABLES; v++)
        record[AT_VARIABLES + v] = v < c->p ? c->variables[v] : random_below(r, (size_t)1 << 17);
}

static size_t variables_at_most(const struct call *c)
{
    return least(least(c->n, c->k - 1), VARIABLES);
}

static size_t slack(struct random *r)
{
    return one_in(r, 2) ? 0 : random_below(r, SLACK);
}

void give_lengths(struct random *r, struct call *c)
{
    size_t rows = (size_t)1 << (c->given ? c->n1 : (variables_at_most(c) + 1) / 2);
    c->length.h = rows + slack(r);
    c->length.g = c->L + slack(r);
    c->length.aux = c->k + 1 + slack(r);
}

void give_room(struct random *r, struct call *c)
{
    size_t columns = (size_t)1 << (c->given ? c->p - c->n1 : variables_at_most(c) / 2);
    size_t more = one_in(r, 4) ? random_below(r, columns + 8) : columns + random_below(r, 8);
    c->L = least(c->k + more, CELLS_AT_MOST);
    give_lengths(r, c);
}
