/* What the files of the twin share: the places of the record, and what it is to be sound. */
#ifndef TWIN_UNIT_H
#define TWIN_UNIT_H

#include "twin.h"

enum { AT_N, AT_P, AT_N1, AT_K, AT_L, AT_KEPT, AT_TRIES, AT_EXCESS, AT_VARIABLES, AT_MARK = 32 };

/* Also false where any of the 24 variable words is above 2^17 - 1. */
int twin_sound(const uint64_t *record, size_t h_len, size_t g_len, size_t aux_len);

/* Works out the kept inputs, the excess and the part marks of a record that has its other numbers and its variables. 0 where no sound
 * unit has these. */
int twin_settle(uint64_t *record);

/* A bit for each cell, 1 where it is taken or past L; and the smallest displacement at which all columns have free cells. */
enum { TWIN_NO_FIT = 8192, TWIN_TAKEN_WORDS = (8192 + 4096) / 64 + 1 };
void twin_take_cells(uint64_t taken[TWIN_TAKEN_WORDS], const uint16_t *g, uint64_t L);
unsigned twin_first_fit(const uint64_t *taken, uint64_t L, const uint16_t *column, unsigned weight);

#endif
