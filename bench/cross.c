/* Compares the proved unit with its twin, and both with the list, on random cases.
 *   cross [CASES [SEED]]         a million cases by default
 *   cross --one NUMBER [SEED]    one of them again
 * A difference ends the program with status 1 and the case in full. */
#include "add.h"
#include "carry.h"
#include "compare.h"
#include "draw.h"
#include "expect.h"
#include "files.h"
#include "many.h"

#include <inttypes.h>
#include <stdio.h>
#include <stdlib.h>
#include <string.h>

#define DEFAULT_CASES 1000000
#define DEFAULT_SEED 1
#define FULL_RUN 100000 /* from here on every refusal has to arise */

static struct counts counts;

static void lookup_every(struct trial *t)
{
    for (uint64_t x = 0; x <= inputs(t->call.n); x++)
        lookup_both(t, &counts, x);
}

/* Registered vectors, their neighbours (beyond n too), and words that are most likely not registered. */
static void lookup_some(struct trial *t, struct random *r)
{
    for (size_t times = t->call.k < 16 ? t->call.k : 16; times > 0; times--) {
        uint64_t vector = t->call.vectors[random_below(r, t->call.k)];
        lookup_both(t, &counts, vector);
        lookup_both(t, &counts, vector ^ (uint64_t)1 << random_below(r, 64));
        lookup_both(t, &counts, random_word(r) & inputs(t->call.n));
    }
    lookup_both(t, &counts, random_word(r));
}

static void recover_out_of_bounds(struct trial *t, struct random *r)
{
    const size_t outside[] = {0, t->call.k + 1, 1024, SIZE_MAX, ((size_t)1 << 32) + 1, ((size_t)1 << 16) + 1, random_word(r)};
    for (size_t i = 0; i < sizeof outside / sizeof outside[0]; i++)
        recover_both(t, &counts, outside[i]);
}

static void recover_list(struct trial *t, struct random *r)
{
    bool every = t->call.k <= 64;
    for (size_t i = 1; i <= (every ? t->call.k : 32); i++)
        recover_both(t, &counts, every ? i : random_between(r, 1, t->call.k));
    recover_out_of_bounds(t, r);
}

static void use_unit(struct trial *t, struct random *r)
{
    remember(t);
    if (t->kind->use == EVERY_KEY && !t->damaged)
        lookup_every(t);
    lookup_some(t, r);
    many_both(t, &counts, *r);
    recover_list(t, r);
    check_unwritten(t);
    if (write_both(t, &counts, r))
        carry_both(t, &counts, r);
    add_both(t, &counts, *r);
}

static void copy_unit(struct memory *to, const struct memory *from)
{
    static const enum part unit[] = {RECORD, H, G, AUX};
    for (size_t i = 0; i < sizeof unit / sizeof unit[0]; i++)
        part_copy(to, from, unit[i]);
}

static void use_damaged_unit(struct trial *t, struct random *r, const struct memory *built)
{
    copy_unit(&t->after[0], built);
    t->told = t->call.length;
    t->damaged = true;
    for (size_t times = random_between(r, 1, 3); times > 0; times--)
        damage(r, &t->call, tables_of(&t->after[0]), &t->told);
    copy_unit(&t->after[1], &t->after[0]);
    use_unit(t, r);
}

static void use_damaged_units(struct trial *t, struct random *r)
{
    static struct memory built;
    memory_copy(&built, &t->after[0]);
    for (size_t rounds = t->kind->damage_rounds; rounds > 0; rounds--)
        use_damaged_unit(t, r, &built);
}

/* Every case has its own start, so that one can be run again by itself. */
static struct random case_start(uint64_t seed, uint64_t number)
{
    struct random r = {seed};
    uint64_t start = random_word(&r) ^ number * 0xD1342543DE82EF95u;
    return (struct random){random_word(&(struct random){start})};
}

static void make_case(struct trial *t, struct random *r)
{
    t->kind = random_kind(r);
    for (size_t v = 0; v < VARIABLES; v++)
        t->call.variables[v] = random_word(r);
    t->call.p = t->call.n1 = t->call.degree = 0;
    t->call.allowance = UINT64_MAX;
    t->kind->make(r, &t->call);
    if (t->call.allowance == UINT64_MAX && one_in(r, 2))
        t->call.allowance = one_in(r, 2) ? UINT32_MAX : enough_tries(t->call.k);
    memory_fill(&t->before[0], &t->call, r);
    memory_twin(&t->before[1], &t->before[0], &t->call, r);
    for (int side = 0; side < 2; side++)
        memory_copy(&t->after[side], &t->before[side]);
}

/* True when there is a unit to use: of an accepted build, or a sound one that no build made. */
static bool have_unit(struct trial *t, struct random *r)
{
    t->told = t->call.length;
    t->damaged = t->kind->use == NOT_BUILT;
    if (!t->damaged)
        return build_both(t, &counts);
    draw_record(r, &t->call, tables_of(&t->after[0]).record);
    copy_unit(&t->after[1], &t->after[0]);
    return true;
}

static void run_case(uint64_t seed, uint64_t number)
{
    static struct trial t;
    struct random r = case_start(seed, number);
    t.seed = seed;
    t.number = number;
    make_case(&t, &r);
    counts.kinds[t.kind - kinds]++;
    if (have_unit(&t, &r)) {
        use_unit(&t, &r);
        if (t.kind->damage_rounds > 0)
            use_damaged_units(&t, &r);
    }
}

static int run_cases(uint64_t cases, uint64_t seed)
{
    for (uint64_t number = 1; number <= cases; number++)
        run_case(seed, number);
    report_counts(&counts);
    if (cases >= FULL_RUN && !report_coverage(&counts))
        return 1;
    printf("%" PRIu64 " cases of seed %" PRIu64 "\n0 differences\n", cases, seed);
    return 0;
}

static _Noreturn void usage(void)
{
    fputs("usage: cross [CASES [SEED]] or cross --one NUMBER [SEED]; CASES and NUMBER from 1\n", stderr);
    exit(2);
}

static uint64_t number_from(const char *text)
{
    char *end;
    uint64_t number = strtoull(text, &end, 10);
    if (*text < '0' || *text > '9' || *end != '\0')
        usage();
    return number;
}

int main(int argc, char **argv)
{
    bool one = argc > 1 && strcmp(argv[1], "--one") == 0;
    argc -= one;
    argv += one;
    if (argc > 3 || (one && argc < 2))
        usage();
    uint64_t number = argc > 1 ? number_from(argv[1]) : DEFAULT_CASES;
    uint64_t seed = argc > 2 ? number_from(argv[2]) : DEFAULT_SEED;
    if (number == 0)
        usage();
    if (!one)
        return run_cases(number, seed);
    run_case(seed, number);
    printf("case %" PRIu64 " of seed %" PRIu64 ": 0 differences\n", number, seed);
    return 0;
}
