/* The ingredients of a good call: lists, variables, lengths. */
#ifndef DRAW_H
#define DRAW_H

#include "cases.h"

static inline size_t least(size_t a, size_t b)
{
    return a < b ? a : b;
}

/* A list of different vectors within n, at most as many as wanted: of any kind, or sharing most bits (few positions that differ, or
 * clusters that lie close together). */
void any_list(struct random *r, struct call *c, size_t wanted);
void near_list(struct random *r, struct call *c, size_t wanted);

/* A variable's word with positions within n, and any part. */
uint64_t random_variable(struct random *r, size_t n);

/* p independent variables; the words past them stay as they are. */
void give_variables(struct random *r, struct call *c, size_t p);

/* An n1 within bounds for the p variables. */
void choose_sides(struct random *r, struct call *c);

/* A chosen build; a given one, with variables that tell most lists apart: nearly n of them, or twice as many as k has bits. */
void choose(struct random *r, struct call *c);
void give(struct random *r, struct call *c);
void either(struct random *r, struct call *c);

/* A sound record of the call's numbers and variables; where the rules say nothing of it, junk. */
void draw_record(struct random *r, const struct call *c, uint64_t *record);

/* Slices at least as long as the call needs; and first as many cells as let most lists fit. */
void give_lengths(struct random *r, struct call *c);
void give_room(struct random *r, struct call *c);

#endif
