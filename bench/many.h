/* Many keys looked up in one call, compared. */
#ifndef MANY_H
#define MANY_H

#include "report.h"

/* The proved unit and its twin get the same keys, and words between guard words; both are compared with single lookups. The source of random
 * words is the caller's at this place, which does not move on. */
void many_both(struct trial *t, struct counts *counts, struct random r);

#endif
