/* Lists of keys with their slabs, drawn at random. */
#ifndef SHELVES_H
#define SHELVES_H

#include "igu.h"
#include "random.h"

#define KEYS_ROOM 1100
#define H_ROOM 4096
#define G_ROOM 8192

enum { PRESS, INK, SUBSTRATE, SCREEN, DAY, FIELDS };
enum { AT_N, AT_P, AT_N1, AT_K, AT_VARIABLES = 8 };

struct unit {
    uint64_t record[IGU_RECORD_WORDS], aux[KEYS_ROOM + 1];
    uint16_t h[H_ROOM], g[G_ROOM];
};

/* One list of keys with its slab, and the unit on each side. */
struct shelf {
    size_t degree, L, count, h_len, g_len, aux_len, size, slab_len;
    uint64_t allowance;
    uint32_t keys[KEYS_ROOM][FIELDS];
    struct unit unit[2];
    bool damaged;
};

bool over_width(const uint32_t *key);

/* A key within its widths; and one field of it put over its width. */
void draw_key(struct random *r, uint32_t *key);
void widen(struct random *r, uint32_t *key);

/* The number of the key in the list, from 1; 0 where it is not there. */
size_t number_in(const struct shelf *s, const uint32_t *key);

/* A list of keys, mostly one that is accepted, with tables and a slab of mostly the right lengths; the same junk in both units. */
void draw_shelf(struct random *r, struct shelf *s);

#endif
