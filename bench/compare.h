/* One call made with the proved unit and with its twin, and both answers compared with each other and with the list. */
#ifndef COMPARE_H
#define COMPARE_H

#include "report.h"

/* True when the unit was accepted. Every word lent is compared, the guard words and the inputs too. */
bool build_both(struct trial *t, struct counts *counts);

/* With a unit that is not damaged the list decides the answer. */
void lookup_both(struct trial *t, struct counts *counts, uint64_t x);
void recover_both(struct trial *t, struct counts *counts, size_t i);

/* The memory as it is becomes that before the calls to come. */
void remember(struct trial *t);

/* Since then lookup wrote nothing and recovery its vector only. */
void check_unwritten(const struct trial *t);

#endif
