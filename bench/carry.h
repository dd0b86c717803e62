/* Files read with the proved function and its twin, each into memory of its own. */
#ifndef CARRY_H
#define CARRY_H

#include "report.h"

/* Reads the file that the last write of the trial left: the record and the tables are those of the unit written, lookups are the same,
 * and written again it is the same file. Then reads it into tables too short, and changed; the first small one of a run also with every
 * bit changed in turn. */
void carry_both(struct trial *t, struct counts *counts, struct random *r);

#endif
