/* Times the unit as a file, and prints the table. */
#ifndef SPEED_FILE_H
#define SPEED_FILE_H

void time_files(void);

#endif
