#include "report.h"

#include <inttypes.h>
#include <stdio.h>
#include <stdlib.h>

static const char *const side_names[2] = {"igu", "twin"};
static const char *const entry_names[ENTRIES] = {"build", "build_given", "lookup", "lookup_many", "recover", "add", "write", "read"};

/* The refusals that docs/SCOPE.md lets each entry give, as bits. */
static const uint64_t possible[ENTRIES] = {
    [BUILD] = 0x200000038FF,       /* 0 to 7, 11, 12, 13, 41 */
    [BUILD_GIVEN] = 0x200000037FF, /* 0 to 10, 12, 13, 41 */
    [LOOKUP] = 0x4041,             /* 0, 6, 14 */
    [MANY] = 0x104041,             /* 0, 6, 14, 20 */
    [RECOVER] = 0xC001,            /* 0, 14, 15 */
    [ADD] = 0x10000006469,         /* 0, 3, 5, 6, 10, 13, 14, 40 */
    [WRITE] = 0x104001,            /* 0, 14, 20 */
    [READ] = 0x1E00001,            /* 0, 21 to 24 */
};

bool refusal_possible(enum entry entry, uint64_t refusal)
{
    return refusal < REFUSALS && (possible[entry] >> refusal & 1) != 0;
}

static void print_part(const struct memory *m, enum part part, size_t length)
{
    printf("%s:", part_name(part));
    for (size_t i = 0; i < length; i++)
        printf(" %" PRIu64, part_word(m, part, i));
    putchar('\n');
}

static void print_call(const struct call *c)
{
    printf("n %zu, ", c->n);
    if (c->given)
        printf("p %zu, n1 %zu, ", c->p, c->n1);
    else
        printf("degree %zu, ", c->degree);
    printf("L %zu, allowance %" PRIu64 ", k %zu, h_len %zu, g_len %zu, aux_len %zu\n", c->L, c->allowance, c->k, c->length.h, c->length.g,
           c->length.aux);
}

/* The file as it was handed to a read; the unit as it was handed to any other entry but the builds, damaged or not. */
static void print_handed(const struct trial *t, enum entry entry)
{
    const struct memory *m = &t->before[0];
    if (entry == READ) {
        print_part(m, FILE_BYTES, m->length[FILE_BYTES]);
        return;
    }
    printf("unit handed over, with h_len %zu, g_len %zu, aux_len %zu\n", t->told.h, t->told.g, t->told.aux);
    print_part(m, RECORD, m->length[RECORD]);
    print_part(m, H, t->told.h);
    print_part(m, G, t->told.g);
    print_part(m, AUX, t->told.aux);
}

static void print_differing(const struct trial *t, enum part part)
{
    for (size_t i = 0; i < t->after[0].length[part]; i++) {
        uint64_t ours = part_word(&t->after[0], part, i), theirs = part_word(&t->after[1], part, i);
        if (ours != theirs)
            printf("%s[%zu]: igu %" PRIu64 ", twin %" PRIu64 "\n", part_name(part), i, ours, theirs);
    }
}

/* The given variables past the first p differ on purpose. */
static void print_all_differing(const struct trial *t)
{
    puts("words that differ after the call:");
    for (int part = 0; part < PARTS; part++)
        if (part != GIVEN)
            print_differing(t, part);
}

_Noreturn void report_difference(const struct trial *t, const char *what, enum entry entry, uint64_t argument, const uint64_t answers[2])
{
    printf("DIFFERENCE: %s\ncase %" PRIu64 " of seed %" PRIu64 " (%s), again by: cross --one %" PRIu64 " %" PRIu64 "\n", what, t->number,
           t->seed, t->kind->name, t->number, t->seed);
    print_call(&t->call);
    if (t->call.given)
        print_part(&t->before[0], GIVEN, IGU_VARIABLES);
    print_part(&t->before[0], VECTORS, t->call.k);
    bool builds = entry == BUILD || entry == BUILD_GIVEN;
    if (!builds)
        print_handed(t, entry);
    printf("entry %s", entry_names[entry]);
    if (!builds)
        printf(", argument %" PRIu64, argument);
    putchar('\n');
    for (int side = 0; side < 2; side++)
        printf("%s answers %" PRIu64 ": refusal %" PRIu64 ", place, index or bytes %" PRIu64 "\n", side_names[side], answers[side],
               answers[side] % 256, answers[side] / 256);
    print_all_differing(t);
    exit(1);
}

static uint64_t calls(const struct counts *counts, enum entry entry)
{
    uint64_t sum = 0;
    for (int number = 0; number < REFUSALS; number++)
        sum += counts->refusals[entry][number];
    return sum;
}

static bool any_entry(int number)
{
    for (int entry = 0; entry < ENTRIES; entry++)
        if (refusal_possible(entry, number))
            return true;
    return false;
}

static void print_row(const struct counts *counts, int number)
{
    printf("| %d |", number);
    for (int entry = 0; entry < ENTRIES; entry++) {
        if (refusal_possible(entry, number))
            printf(" %" PRIu64 " |", counts->refusals[entry][number]);
        else
            printf(" |");
    }
    putchar('\n');
}

static void print_spoils(const struct counts *counts)
{
    puts("\n| Change to a file | Files | Refusal |\n|---|---|---|");
    for (size_t i = 0; i < SPOILS; i++) {
        const struct spoil *spoil = spoil_at(i);
        printf("| %s | %" PRIu64 " |", spoil->name, counts->spoils[i]);
        if (spoil->refusal == DEPENDS)
            puts(" 23 or none |");
        else
            printf(spoil->refusal == 0 ? " none |\n" : " %" PRIu64 " |\n", spoil->refusal);
    }
}

void report_counts(const struct counts *counts)
{
    puts("| Kind of case | Cases |\n|---|---|");
    for (size_t i = 0; i < kind_count; i++)
        printf("| %s | %" PRIu64 " |\n", kinds[i].name, counts->kinds[i]);
    print_spoils(counts);
    puts("\n| Refusal | build | build_given | lookup | lookup_many | recover | add | write | read |\n|---|---|---|---|---|---|---|---|---|");
    for (int number = 0; number < REFUSALS; number++)
        if (any_entry(number))
            print_row(counts, number);
    printf("| calls |");
    for (int entry = 0; entry < ENTRIES; entry++)
        printf(" %" PRIu64 " |", calls(counts, entry));
    puts("\n");
}

bool report_coverage(const struct counts *counts)
{
    bool all = true;
    for (int at = 0; at < ENTRIES * REFUSALS; at++) {
        int entry = at / REFUSALS, number = at % REFUSALS;
        if (refusal_possible(entry, number) && counts->refusals[entry][number] == 0) {
            printf("never hit: refusal %d of %s\n", number, entry_names[entry]);
            all = false;
        }
    }
    for (size_t i = 0; i < SPOILS; i++)
        if (counts->spoils[i] == 0) {
            printf("never tried on a file: %s\n", spoil_at(i)->name);
            all = false;
        }
    return all;
}
