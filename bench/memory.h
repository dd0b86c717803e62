/* The memory lent to one implementation: typed slices between guard words. */
#ifndef MEMORY_H
#define MEMORY_H

#include "cases.h"
#include "igu.h"

#define GUARD 8
#define H_ROOM (4096 + SLACK)
#define G_ROOM (CELLS_AT_MOST + SLACK)
#define AUX_ROOM (VECTOR_ROOM + SLACK)
#define FILE_ROOM (70 * 512) /* the longest file has 68 blocks */

enum part { VECTORS, GIVEN, AUX, RECORD, VECTOR, H, G, FILE_BYTES, PARTS };

struct memory {
    size_t length[PARTS];
    uint64_t vectors[GUARD + VECTOR_ROOM + GUARD];
    uint64_t given[GUARD + IGU_VARIABLES + GUARD];
    uint64_t aux[GUARD + AUX_ROOM + GUARD];
    uint64_t record[GUARD + IGU_RECORD_WORDS + GUARD];
    uint64_t vector[GUARD + 1 + GUARD];
    uint16_t h[GUARD + H_ROOM + GUARD];
    uint16_t g[GUARD + G_ROOM + GUARD];
    uint8_t file[GUARD + FILE_ROOM + GUARD];
};

struct tables tables_of(struct memory *m);

/* Junk everywhere, then the call's vectors and variables; no file. */
void memory_fill(struct memory *m, const struct call *c, struct random *r);

/* The same slices, with other guard words and, past the first p variables, other junk: a call that reads those gives itself away. */
void memory_twin(struct memory *to, const struct memory *from, const struct call *c, struct random *r);

/* A file of this length, junk with other guard bytes than before. */
void memory_lend_file(struct memory *m, struct random *r, size_t length);

/* These bytes as the file. */
void memory_put_file(struct memory *m, struct random *r, const uint8_t *bytes, size_t length);

void memory_copy(struct memory *to, const struct memory *from);

/* The slices of one part, without the guard words. */
void part_copy(struct memory *to, const struct memory *from, enum part part);
bool part_equal(const struct memory *a, const struct memory *b, enum part part);

/* All is as before, the guard words too, but for the first written words of each part. */
bool memory_kept(const struct memory *after, const struct memory *before, const size_t written[PARTS]);

const char *part_name(enum part part);
uint64_t part_word(const struct memory *m, enum part part, size_t i);

#endif
