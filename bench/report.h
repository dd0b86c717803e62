/* What the cross-check prints: a difference in full, and the table at the end. */
#ifndef REPORT_H
#define REPORT_H

#include "memory.h"
#include "spoil.h"

enum entry { BUILD, BUILD_GIVEN, LOOKUP, MANY, RECOVER, ADD, WRITE, READ, ENTRIES };

#define REFUSALS 42
#define KINDS_AT_MOST 32

/* One case: the call, and for each of the two the memory before and after it. */
struct trial {
    uint64_t seed, number;
    const struct kind *kind;
    struct call call;
    bool damaged;        /* the unit handed over is not the one that was built, or none was */
    struct lengths told; /* the lengths of its slices, as handed over */
    struct memory before[2], after[2];
};

struct counts {
    uint64_t kinds[KINDS_AT_MOST];
    uint64_t refusals[ENTRIES][REFUSALS];
    uint64_t spoils[SPOILS];
};

/* Prints the case and both answers, and ends the program with status 1; argument is lookup's key or the vector
 * added, how many keys there are, recovery's index, the length of the file or the tries allowed. */
_Noreturn void report_difference(const struct trial *t, const char *what, enum entry entry, uint64_t argument, const uint64_t answers[2]);

void report_counts(const struct counts *counts);

/* Names each refusal that an entry can give and never gave, and each change to a file that was never tried; true when there is none. */
bool report_coverage(const struct counts *counts);

bool refusal_possible(enum entry entry, uint64_t refusal);

#endif
