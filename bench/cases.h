/* The random cases of the cross-check: one call of a build each, and what is done with the unit when it is accepted. */
#ifndef CASES_H
#define CASES_H

#include "random.h"

#define VARIABLES 24
#define VECTORS_AT_MOST 1023
#define CELLS_AT_MOST 8192
#define SIDE_AT_MOST 12

/* Room for lists that are too long, and for slices that are longer than needed. */
#define VECTOR_ROOM 1100
#define SLACK 40

struct lengths {
    size_t h, g, aux;
};

struct call {
    bool given;
    size_t n, degree, p, n1, L, k;
    uint64_t allowance;
    struct lengths length;
    uint64_t variables[VARIABLES];
    uint64_t vectors[VECTOR_ROOM];
};

/* The words of the record that go by name. */
enum { AT_N, AT_P, AT_N1, AT_K, AT_L, AT_KEPT, AT_TRIES, AT_EXCESS, AT_VARIABLES, AT_MARK = 32, RECORD_WORDS = 40 };

/* What the builds leave and the other entries read, in a form that can be damaged. */
struct tables {
    uint64_t *record;
    uint16_t *h, *g;
    uint64_t *aux;
};

/* Tries that are enough for any list of k vectors. */
static inline uint64_t enough_tries(size_t k)
{
    return (uint64_t)k * (k + 1) / 2;
}

/* What is done with the unit of a call: some keys are looked up, or every key of n bits; or no unit is built, and a sound record stands
 * over junk in the tables. */
enum use { SOME_KEYS, EVERY_KEY, NOT_BUILT };

struct kind {
    const char *name;
    size_t weight;
    void (*make)(struct random *r, struct call *c);
    enum use use;
    size_t damage_rounds;
};

extern const struct kind kinds[];
extern const size_t kind_count;

const struct kind *random_kind(struct random *r);

/* Each spoils a call that was good; which refusal follows depends on what else is wrong with it. */
void fault_number(struct random *r, struct call *c);
void fault_slice(struct random *r, struct call *c);
void fault_list(struct random *r, struct call *c);
void fault_variable(struct random *r, struct call *c);
void fault_any(struct random *r, struct call *c);

/* Changes something in the record or the tables of the unit that was built by the call, or shortens a slice. */
void damage(struct random *r, const struct call *c, struct tables t, struct lengths *length);

#endif
