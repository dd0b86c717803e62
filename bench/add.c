#include "add.h"
#include "carry.h"
#include "compare.h"
#include "expect.h"
#include "files.h"
#include "twin.h"

#define VECTORS_ADDED 6

static uint64_t add_with(int side, struct trial *t, uint64_t x)
{
    struct tables u = tables_of(&t->after[side]);
    return (side == 0 ? igu_add : twin_add)(u.record, u.h, t->told.h, u.g, t->told.g, u.aux, t->told.aux, x);
}

/* How many words of a part are not what they were; the last of them. */
static size_t changed_words(const struct trial *t, enum part part, size_t *last)
{
    size_t changed = 0;
    for (size_t i = 0; i < t->after[0].length[part]; i++)
        if (part_word(&t->after[0], part, i) != part_word(&t->before[0], part, i)) {
            changed++;
            *last = i;
        }
    return changed;
}

/* What an accepted addition may change: k, the excess, the mark, and the words behind it to 0; a word of H; cells below L; the word of the
 * new vector. */
static bool changed_right(const struct trial *t)
{
    const uint64_t *before = t->before[0].record + GUARD, *after = t->after[0].record + GUARD;
    size_t last = 0;
    for (size_t i = 0; i < RECORD_WORDS; i++)
        if (i > AT_MARK ? after[i] != 0 : i != AT_K && i != AT_EXCESS && i != AT_MARK && after[i] != before[i])
            return false;
    if (after[AT_K] != before[AT_K] + 1 || after[AT_MARK] != 1)
        return false;
    size_t rows = changed_words(t, H, &last);
    if (rows > 1 || (changed_words(t, AUX, &last) != 0 && last != after[AT_K]))
        return false;
    size_t cells = changed_words(t, G, &last);
    return cells >= 1 && last < after[AT_L] && (rows != 0 || cells == 1);
}

/* A refusal writes nothing, and an addition nothing outside the tables. */
static bool kept_right(const struct trial *t, int side, bool accepted)
{
    size_t written[PARTS] = {0};
    if (accepted) {
        written[RECORD] = RECORD_WORDS;
        written[H] = t->told.h;
        written[G] = t->told.g;
        written[AUX] = t->told.aux;
    }
    return memory_kept(&t->after[side], &t->before[side], written);
}

/* Of a unit that holds the list. */
static bool answer_allowed(const struct call *c, size_t aux, uint64_t x, uint64_t answer)
{
    uint64_t found = expected_lookup(c, x);
    if (found % 256 == 6)
        return answer == 6 + 256 * (c->k + 1);
    if (found != 0)
        return answer == 40 + found;
    if (c->k == VECTORS_AT_MOST)
        return answer == 3;
    if (aux < c->k + 2)
        return answer == 5;
    return answer == 0 || answer == 10 + 256 * (c->k + 1) || answer % 256 == 13;
}

static bool add_one(struct trial *t, struct counts *counts, uint64_t x)
{
    static const enum part results[] = {RECORD, H, G, AUX};
    uint64_t answers[2];
    remember(t);
    for (int side = 0; side < 2; side++)
        answers[side] = add_with(side, t, x);
    if (answers[0] != answers[1])
        report_difference(t, "the answers differ", ADD, x, answers);
    for (size_t i = 0; i < sizeof results / sizeof results[0]; i++)
        if (!part_equal(&t->after[0], &t->after[1], results[i]))
            report_difference(t, "the words written differ", ADD, x, answers);
    if (!refusal_possible(ADD, answers[0] % 256) || (!t->damaged && !answer_allowed(&t->call, t->told.aux, x, answers[0])))
        report_difference(t, "both answers are wrong by the list, or such as no unit gives", ADD, x, answers);
    for (int side = 0; side < 2; side++)
        if (!kept_right(t, side, answers[0] == 0))
            report_difference(t, side == 0 ? "igu wrote a word it may not" : "twin wrote a word it may not", ADD, x, answers);
    if (answers[0] == 0 && !changed_right(t))
        report_difference(t, "both changed what an addition does not change", ADD, x, answers);
    counts->refusals[ADD][answers[0] % 256]++;
    return answers[0] == 0;
}

/* A vector of the list, the same but for a bit, or any other. */
static uint64_t draw_vector(const struct call *c, struct random *r)
{
    if (c->k == 0 || one_in(r, 3))
        return random_word(r) & inputs(c->n);
    uint64_t vector = c->vectors[random_below(r, c->k)];
    return one_in(r, 6) ? vector : vector ^ (uint64_t)1 << random_below(r, one_in(r, 8) ? 64 : c->n == 0 || c->n > 64 ? 64 : c->n);
}

/* Lookups and recoveries by the longer list. */
static void use_amended(struct trial *t, struct counts *counts, struct random *r)
{
    remember(t);
    for (size_t times = t->call.k < 4 ? t->call.k : 4; times > 0; times--) {
        uint64_t vector = t->call.vectors[random_below(r, t->call.k)];
        lookup_both(t, counts, vector);
        lookup_both(t, counts, vector ^ (uint64_t)1 << random_below(r, 64));
        recover_both(t, counts, random_between(r, 1, t->call.k));
    }
    lookup_both(t, counts, t->call.vectors[t->call.k - 1]);
    recover_both(t, counts, t->call.k);
}

void add_both(struct trial *t, struct counts *counts, struct random r)
{
    static struct memory saved[2];
    static struct call call;
    call = t->call;
    for (int side = 0; side < 2; side++)
        memory_copy(&saved[side], &t->after[side]);
    for (size_t times = 0; times < VECTORS_ADDED; times++) {
        uint64_t x = draw_vector(&t->call, &r);
        if (add_one(t, counts, x) && !t->damaged) {
            t->call.vectors[t->call.k++] = x;
            use_amended(t, counts, &r);
        }
    }
    remember(t);
    if (write_both(t, counts, &r) && one_in(&r, 8))
        carry_both(t, counts, &r);
    for (int side = 0; side < 2; side++)
        memory_copy(&t->after[side], &saved[side]);
    t->call = call;
}
