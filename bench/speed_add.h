/* Times one vector added to a large unit, and prints the table. */
#ifndef SPEED_ADD_H
#define SPEED_ADD_H

void time_add(void);

#endif
