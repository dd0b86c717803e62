#include "compare.h"
#include "expect.h"
#include "twin.h"

static uint64_t build_with(int side, const struct call *c, struct memory *m)
{
    struct tables t = tables_of(m);
    const uint64_t *vectors = m->vectors + GUARD, *variables = m->given + GUARD;
    const struct lengths *len = &c->length;
    if (c->given)
        return (side == 0 ? igu_build_given : twin_build_given)(c->n, c->p, c->n1, c->L, c->allowance, variables, vectors, c->k, t.h, len->h, t.g, len->g,
                                                                t.aux, len->aux, t.record);
    return (side == 0 ? igu_build : twin_build)(c->n, c->degree, c->L, c->allowance, vectors, c->k, t.h, len->h, t.g, len->g, t.aux, len->aux,
                                                t.record);
}

static uint64_t lookup_with(int side, struct trial *t, uint64_t x)
{
    struct tables u = tables_of(&t->after[side]);
    return (side == 0 ? igu_lookup : twin_lookup)(u.record, u.h, t->told.h, u.g, t->told.g, u.aux, t->told.aux, x);
}

static uint64_t recover_with(int side, struct trial *t, size_t i, uint64_t *vector)
{
    struct tables u = tables_of(&t->after[side]);
    return (side == 0 ? igu_recover : twin_recover)(u.record, u.h, t->told.h, u.g, t->told.g, u.aux, t->told.aux, i, vector);
}

/* The row beside refusal 13 or 41; above it stand the cells needed. */
static uint64_t row_of(uint64_t answer)
{
    return answer / 256 % (1 << 24);
}

/* By the checks that need no choosing and no placing the answer is settled; past them few answers are left. */
static bool build_answer_allowed(const struct call *c, uint64_t answer)
{
    uint64_t expected = expected_refusal(c);
    if (expected != 0)
        return answer == expected;
    if (answer % 256 == 13)
        return row_of(answer) < (uint64_t)1 << SIDE_AT_MOST && answer >> 32 > c->L;
    if (answer % 256 == 41)
        return row_of(answer) < (uint64_t)1 << SIDE_AT_MOST && answer >> 32 == 0 && c->allowance < enough_tries(c->k);
    return answer == 0 || (!c->given && (answer == 11 || answer == 12));
}

static bool all_zero(const struct memory *m, enum part part, size_t from, size_t to)
{
    for (size_t i = from; i < to; i++)
        if (part_word(m, part, i) != 0)
            return false;
    return true;
}

/* One past the last word of H that changed. */
static size_t rows_changed(const struct trial *t)
{
    size_t rows = t->call.length.h;
    while (rows > 0 && part_word(&t->after[0], H, rows - 1) == part_word(&t->before[0], H, rows - 1))
        rows--;
    return rows;
}

/* The rows of a build that got as far as placing. A refusal 13 or 41 of a chosen build does not tell n1, so the words of H do. */
static size_t rows_of(const struct trial *t, bool accepted)
{
    size_t n1 = accepted ? t->after[0].record[GUARD + AT_N1] : t->call.n1;
    if (accepted || t->call.given)
        return n1 <= SIDE_AT_MOST ? (size_t)1 << n1 : SIZE_MAX;
    size_t rows = 1;
    for (size_t changed = rows_changed(t); rows < changed;)
        rows *= 2;
    return rows;
}

static bool record_allowed(const struct trial *t, bool accepted)
{
    const uint64_t *record = t->after[0].record + GUARD;
    const struct call *c = &t->call;
    if (!accepted)
        return all_zero(&t->after[0], RECORD, 0, IGU_RECORD_WORDS);
    bool spare = all_zero(&t->after[0], RECORD, 8 + IGU_VARIABLES, IGU_RECORD_WORDS);
    return spare && record[AT_N] == c->n && record[AT_K] == c->k && record[AT_L] == c->L;
}

static void check_written(const struct trial *t, enum entry entry, const uint64_t answers[2])
{
    bool accepted = answers[0] == 0, placing = accepted || answers[0] % 256 == 13 || answers[0] % 256 == 41;
    size_t written[PARTS] = {[RECORD] = IGU_RECORD_WORDS};
    if (!record_allowed(t, accepted))
        report_difference(t, "the record is not that of the answer", entry, 0, answers);
    if (placing) {
        written[H] = rows_of(t, accepted);
        written[G] = t->call.L;
        written[AUX] = t->call.k + 1;
        if (written[H] > t->call.length.h)
            report_difference(t, "more rows than H has words", entry, 0, answers);
    }
    for (int side = 0; side < 2; side++)
        if (!memory_kept(&t->after[side], &t->before[side], written))
            report_difference(t, side == 0 ? "igu wrote a word it may not" : "twin wrote a word it may not", entry, 0, answers);
    if (placing && !accepted)
        for (int part = 0; part < PARTS; part++)
            if (part != RECORD && !all_zero(&t->after[0], part, 0, written[part]))
                report_difference(t, "a table is not zero after refusal 13 or 41", entry, 0, answers);
}

/* The same call with other cells and every try allowed, in memory that is not looked at. */
static uint64_t build_again(const struct trial *t, uint64_t cells)
{
    static struct memory scratch;
    struct call c = t->call;
    c.L = cells;
    c.allowance = UINT64_MAX;
    if (c.length.g < cells)
        c.length.g = cells;
    memory_copy(&scratch, &t->before[0]);
    return build_with(0, &c, &scratch);
}

/* The same call with so many tries allowed, made with both. */
static uint64_t build_within(const struct trial *t, enum entry entry, uint64_t allowance, struct memory after[2])
{
    struct call c = t->call;
    uint64_t answers[2];
    c.allowance = allowance;
    for (int side = 0; side < 2; side++) {
        memory_copy(&after[side], &t->before[side]);
        answers[side] = build_with(side, &c, &after[side]);
    }
    if (answers[0] != answers[1])
        report_difference(t, "the answers with another allowance differ", entry, allowance, answers);
    return answers[0];
}

/* The tries that a build makes, which are the least that have to be allowed for its answer. */
static uint64_t tries_of(const struct trial *t, enum entry entry, uint64_t answer, struct memory after[2])
{
    uint64_t low = 0, high = enough_tries(t->call.k);
    if (answer == 0)
        return part_word(&t->after[0], RECORD, AT_TRIES);
    while (low < high) {
        uint64_t middle = low + (high - low) / 2;
        if (build_within(t, entry, middle, after) == answer)
            high = middle;
        else
            low = middle + 1;
    }
    return high;
}

/* With just as many tries allowed as a build makes, its answer and its words are the same; with one fewer it is refused by 41, where the
 * row that made it was in hand, and the tables are zero. */
static void check_tries(const struct trial *t, enum entry entry, const uint64_t answers[2])
{
    static const enum part results[] = {RECORD, H, G, AUX};
    static struct memory after[2];
    uint64_t tries = tries_of(t, entry, answers[0], after);
    bool same = build_within(t, entry, tries, after) == answers[0];
    for (size_t i = 0; i < sizeof results / sizeof results[0]; i++)
        same = same && part_equal(&after[0], &t->after[0], results[i]);
    if (!same)
        report_difference(t, "just as many tries allowed as are made alter the answer or a word", entry, tries, answers);
    if (tries == 0)
        return;
    uint64_t over = build_within(t, entry, tries - 1, after);
    if (over % 256 != 41 || over >> 32 != 0 || !all_zero(&after[0], RECORD, 0, IGU_RECORD_WORDS) || !all_zero(&after[0], G, 0, t->call.L))
        report_difference(t, "one try too few is not refused by 41", entry, tries - 1, answers);
    if (answers[0] != 0 && t->call.given && row_is_tried(&t->call, row_of(answers[0])) && row_of(over) != row_of(answers[0]))
        report_difference(t, "one try too few for the row that has no place, and another row is in hand", entry, tries - 1, answers);
}

/* With as many cells as are needed the row has its place; with one fewer the answer is the same. */
static void check_needed(const struct trial *t, enum entry entry, const uint64_t answers[2])
{
    uint64_t needed = answers[0] >> 32;
    if (needed > CELLS_AT_MOST + 1)
        return;
    if (build_again(t, needed - 1) != answers[0])
        report_difference(t, "a build with one cell less than needed answers otherwise", entry, 0, answers);
    if (needed > CELLS_AT_MOST)
        return;
    uint64_t enough = build_again(t, needed);
    if (enough != 0 && (enough % 256 != 13 || row_of(enough) == row_of(answers[0])))
        report_difference(t, "a build with the cells needed does not place the row", entry, 0, answers);
}

bool build_both(struct trial *t, struct counts *counts)
{
    static const enum part results[] = {RECORD, H, G, AUX};
    enum entry entry = t->call.given ? BUILD_GIVEN : BUILD;
    uint64_t answers[2];
    for (int side = 0; side < 2; side++)
        answers[side] = build_with(side, &t->call, &t->after[side]);
    if (answers[0] != answers[1])
        report_difference(t, "the answers differ", entry, 0, answers);
    for (size_t i = 0; i < sizeof results / sizeof results[0]; i++)
        if (!part_equal(&t->after[0], &t->after[1], results[i]))
            report_difference(t, "the words written differ", entry, 0, answers);
    if (!build_answer_allowed(&t->call, answers[0]))
        report_difference(t, "both answers are wrong by the order of checking", entry, 0, answers);
    check_written(t, entry, answers);
    if (answers[0] % 256 == 13)
        check_needed(t, entry, answers);
    if (answers[0] == 0 || answers[0] % 256 == 13)
        check_tries(t, entry, answers);
    counts->refusals[entry][answers[0] % 256]++;
    return answers[0] == 0;
}

/* An index stands beside no refusal. */
static bool lookup_allowed(uint64_t answer)
{
    return refusal_possible(LOOKUP, answer % 256) && (answer % 256 == 0 || answer / 256 == 0);
}

void lookup_both(struct trial *t, struct counts *counts, uint64_t x)
{
    uint64_t answers[2];
    for (int side = 0; side < 2; side++)
        answers[side] = lookup_with(side, t, x);
    if (answers[0] != answers[1])
        report_difference(t, "the answers differ", LOOKUP, x, answers);
    if (t->damaged ? !lookup_allowed(answers[0]) : answers[0] != expected_lookup(&t->call, x))
        report_difference(t, "both answers are wrong by the list, or such as no unit gives", LOOKUP, x, answers);
    counts->refusals[LOOKUP][answers[0] % 256]++;
}

void recover_both(struct trial *t, struct counts *counts, size_t i)
{
    uint64_t answers[2], *vectors[2], expected;
    for (int side = 0; side < 2; side++) {
        vectors[side] = t->after[side].vector + GUARD;
        *vectors[side] = ~(uint64_t)i;
        answers[side] = recover_with(side, t, i, vectors[side]);
    }
    if (answers[0] != answers[1] || *vectors[0] != *vectors[1])
        report_difference(t, "the answers or the vectors differ", RECOVER, i, answers);
    bool right = t->damaged ? refusal_possible(RECOVER, answers[0]) && (answers[0] == 0 || *vectors[0] == 0)
                            : answers[0] == expected_recovery(&t->call, i, &expected) && *vectors[0] == expected;
    if (!right)
        report_difference(t, "both answers are wrong by the list, or such as no unit gives", RECOVER, i, answers);
    counts->refusals[RECOVER][answers[0]]++;
}

void remember(struct trial *t)
{
    for (int side = 0; side < 2; side++)
        memory_copy(&t->before[side], &t->after[side]);
}

void check_unwritten(const struct trial *t)
{
    static const size_t written[PARTS] = {[VECTOR] = 1};
    static const uint64_t none[2];
    for (int side = 0; side < 2; side++)
        if (!memory_kept(&t->after[side], &t->before[side], written))
            report_difference(t, side == 0 ? "a lookup or recovery of igu wrote" : "a lookup or recovery of twin wrote", RECOVER, 0, none);
}
