/* Vectors added to a unit one after another, compared. */
#ifndef ADD_H
#define ADD_H

#include "report.h"

/* The proved unit and its twin get the same vectors: registered ones, some close to them, and others. Every word lent is compared after each;
 * of a unit that is not damaged lookups and recoveries go by the list with the vector at its end, and its file carries it. The unit and the
 * source of random words are afterwards as they were. */
void add_both(struct trial *t, struct counts *counts, struct random r);

#endif
