/* Times many keys looked up in one call beside other ways to look them up, and prints the table. */
#ifndef SPEED_MANY_H
#define SPEED_MANY_H

void time_many(void);

#endif
