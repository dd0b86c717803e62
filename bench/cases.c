#include "cases.h"
#include "draw.h"
#include "expect.h"

/* Small n more often than large, since every key is looked up. */
static void small_list(struct random *r, struct call *c)
{
    size_t one = random_between(r, 1, 12), other = random_between(r, 1, 12);
    c->n = least(one, other);
    any_list(r, c, random_between(r, 1, least((size_t)1 << c->n, 24)));
}

static void wide_list(struct random *r, struct call *c)
{
    c->n = random_between(r, 13, 64);
    any_list(r, c, random_between(r, 1, 12));
}

/* What the faults are put into. */
static void good_call(struct random *r, struct call *c, bool given)
{
    if (one_in(r, 16))
        wide_list(r, c);
    else
        small_list(r, c);
    if (given)
        give(r, c);
    else
        choose(r, c);
    give_room(r, c);
}

static void make_small_chosen(struct random *r, struct call *c)
{
    small_list(r, c);
    choose(r, c);
    give_room(r, c);
}

static void make_small_given(struct random *r, struct call *c)
{
    small_list(r, c);
    give(r, c);
    give_room(r, c);
}

static void make_few_cells(struct random *r, struct call *c)
{
    small_list(r, c);
    either(r, c);
    c->L = c->k + random_below(r, 3);
    give_lengths(r, c);
}

/* Few tries allowed, so that some row makes more; few cells often too. */
static void make_few_tries(struct random *r, struct call *c)
{
    if (one_in(r, 2)) {
        make_few_cells(r, c);
    } else {
        good_call(r, c, one_in(r, 2));
    }
    c->allowance = random_below(r, 3 * c->k);
}

static void make_near(struct random *r, struct call *c)
{
    c->n = one_in(r, 16) ? random_between(r, 21, 64) : random_between(r, 2, 20);
    near_list(r, c, random_between(r, 2, 24));
    either(r, c);
    give_room(r, c);
}

static void make_middle(struct random *r, struct call *c)
{
    c->n = random_between(r, 8, 64);
    size_t wanted = random_between(r, 16, least(inputs(c->n), 300));
    if (one_in(r, 3))
        near_list(r, c, wanted);
    else
        any_list(r, c, wanted);
    either(r, c);
    give_room(r, c);
}

/* Nearly as many vectors as there may be, in few cells or many. */
static void make_large(struct random *r, struct call *c)
{
    c->n = random_between(r, 10, 64);
    any_list(r, c, one_in(r, 3) ? VECTORS_AT_MOST : random_between(r, 960, VECTORS_AT_MOST));
    either(r, c);
    c->L = one_in(r, 3) ? CELLS_AT_MOST : random_between(r, c->k, CELLS_AT_MOST);
    give_lengths(r, c);
}

/* The vectors with a single 1, in any order, perhaps with zero, all turned by one constant: each variable tells few of them apart. */
static void unit_vectors(struct random *r, struct call *c)
{
    uint64_t constant = random_word(r) & inputs(c->n);
    c->k = c->n + random_below(r, 2);
    for (size_t i = 0; i < c->k; i++) {
        size_t j = random_below(r, i + 1);
        c->vectors[i] = c->vectors[j];
        c->vectors[j] = constant ^ (i < c->n ? (uint64_t)1 << i : 0);
    }
}

static void make_many_variables(struct random *r, struct call *c)
{
    c->given = false;
    c->degree = one_in(r, 8) ? 2 : 1;
    c->n = c->degree == 2 ? random_between(r, 34, 48) : random_between(r, 23, 30);
    unit_vectors(r, c);
    give_room(r, c);
}

static void make_faulty_list(struct random *r, struct call *c)
{
    good_call(r, c, one_in(r, 2));
    fault_list(r, c);
}

static void make_faulty_variable(struct random *r, struct call *c)
{
    good_call(r, c, true);
    fault_variable(r, c);
}

/* Variables without regard to the earlier ones, from few inputs, so that many are XORs of earlier ones. */
static void make_dependent(struct random *r, struct call *c)
{
    good_call(r, c, true);
    size_t within = random_between(r, 1, c->n);
    size_t dependent = random_below(r, c->p + 1);
    c->p = least(c->p + 1, VARIABLES);
    for (size_t v = dependent; v < c->p; v++)
        c->variables[v] = random_variable(r, within);
    choose_sides(r, c);
    give_room(r, c);
}

static void make_too_few(struct random *r, struct call *c)
{
    good_call(r, c, true);
    give_variables(r, c, random_below(r, least(c->n, VARIABLES)));
    give_room(r, c);
}

static void make_bad_number(struct random *r, struct call *c)
{
    good_call(r, c, one_in(r, 2));
    fault_number(r, c);
}

static void make_short_slice(struct random *r, struct call *c)
{
    good_call(r, c, one_in(r, 2));
    fault_slice(r, c);
}

/* Two or three faults at once: the order of checking decides. */
static void make_several(struct random *r, struct call *c)
{
    good_call(r, c, one_in(r, 2));
    for (size_t faults = random_between(r, 2, 3); faults > 0; faults--)
        fault_any(r, c);
}

static void make_damaged(struct random *r, struct call *c)
{
    good_call(r, c, one_in(r, 2));
}

static void make_damaged_wide(struct random *r, struct call *c)
{
    c->n = random_between(r, 13, 64);
    any_list(r, c, random_between(r, 2, 60));
    either(r, c);
    give_room(r, c);
}

/* How many words a table has, from fewest to most: such that its last word ends a block of the file, or one off, or another number. */
static size_t words_in_blocks(struct random *r, size_t in_a_block, size_t fewest, size_t most)
{
    switch (random_below(r, 5)) {
    case 0: return fewest;
    case 1: return most;
    case 2: return random_between(r, fewest, most);
    }
    size_t ends = in_a_block * random_between(r, 1, most / in_a_block);
    return least(ends - 1 + random_below(r, 3), most);
}

static void not_built(struct random *r, struct call *c, size_t variables, size_t cells, size_t vectors)
{
    c->given = true;
    c->n = one_in(r, 4) ? 64 : random_between(r, 1, 64);
    size_t most = least(c->n, variables);
    give_variables(r, c, one_in(r, 3) ? most : random_below(r, most + 1));
    c->L = words_in_blocks(r, 252, 1, cells);
    c->k = words_in_blocks(r, 63, 2, vectors + 1) - 1;
    for (size_t i = 0; i < c->k; i++)
        c->vectors[i] = random_word(r) & inputs(c->n);
    give_lengths(r, c);
}

static void make_not_built(struct random *r, struct call *c)
{
    not_built(r, c, 12, 600, 200);
}

static void make_any_size(struct random *r, struct call *c)
{
    not_built(r, c, VARIABLES, CELLS_AT_MOST, VECTORS_AT_MOST);
}

const struct kind kinds[] = {
    {"small lists, chosen", 22000, make_small_chosen, EVERY_KEY, 0},
    {"small lists, given", 22000, make_small_given, EVERY_KEY, 0},
    {"few cells", 6000, make_few_cells, EVERY_KEY, 0},
    {"few tries", 6000, make_few_tries, SOME_KEYS, 0},
    {"near vectors", 6000, make_near, SOME_KEYS, 0},
    {"mid-size lists", 500, make_middle, SOME_KEYS, 1},
    {"large lists", 60, make_large, SOME_KEYS, 2},
    {"many variables", 200, make_many_variables, SOME_KEYS, 1},
    {"faulty lists", 6000, make_faulty_list, SOME_KEYS, 0},
    {"faulty variables", 6000, make_faulty_variable, SOME_KEYS, 0},
    {"dependent variables", 6000, make_dependent, SOME_KEYS, 0},
    {"too few variables", 5000, make_too_few, SOME_KEYS, 0},
    {"numbers out of bounds", 4000, make_bad_number, SOME_KEYS, 0},
    {"short slices", 5000, make_short_slice, SOME_KEYS, 0},
    {"several faults", 5000, make_several, SOME_KEYS, 0},
    {"damaged units", 6000, make_damaged, SOME_KEYS, 6},
    {"damaged units, wide", 265, make_damaged_wide, SOME_KEYS, 6},
    {"units not built", 3000, make_not_built, NOT_BUILT, 2},
    {"units not built, any size", 200, make_any_size, NOT_BUILT, 2},
};
const size_t kind_count = sizeof kinds / sizeof kinds[0];

static size_t all_weights(void)
{
    size_t sum = 0;
    for (size_t i = 0; i < kind_count; i++)
        sum += kinds[i].weight;
    return sum;
}

const struct kind *random_kind(struct random *r)
{
    size_t at = random_below(r, all_weights());
    const struct kind *kind = kinds;
    while (at >= kind->weight)
        at -= kind++->weight;
    return kind;
}
