/* Times the profile of a key beside lookups, and prints the table. */
#ifndef SPEED_PROFILES_H
#define SPEED_PROFILES_H

void time_profiles(void);

#endif
