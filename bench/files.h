/* The unit as a file, with the proved functions and their twins. */
#ifndef FILES_H
#define FILES_H

#include "report.h"

/* Writes the unit handed over to targets that suffice, just and amply, and to one that does not. Both answers are compared with each
 * other and with what the record says, and every byte and word lent, the guards too. True when the unit is sound; its file stands in the
 * memory then. */
bool write_both(struct trial *t, struct counts *counts, struct random *r);

/* The same to one target of this length; true when it was written. */
bool write_to(struct trial *t, struct counts *counts, struct random *r, size_t length);

#endif
