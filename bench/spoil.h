/* Changes to a good file. Each tries one cause of a refusal alone, or leaves a file that is good too. */
#ifndef SPOIL_H
#define SPOIL_H

#include "expect.h"
#include "memory.h"

/* The bytes have room for FILE_ROOM. */
struct filed {
    uint8_t *bytes;
    size_t length;
};

#define DEPENDS 255 /* 23 where words that come to be unused are not all 0; else none */

struct spoil {
    const char *name;
    uint64_t refusal;                                /* that follows; 0 where the file stays good */
    bool (*make)(struct random *r, struct filed *f); /* false, with nothing changed, where the file has no place for it */
};

/* In the head; in the tables, and in the head to match; in any block, and in the number and order of blocks. */
#define HEAD_SPOILS 20
#define TABLE_SPOILS 8
#define BLOCK_SPOILS 18
#define SPOILS (HEAD_SPOILS + TABLE_SPOILS + BLOCK_SPOILS)
extern const struct spoil head_spoils[HEAD_SPOILS], table_spoils[TABLE_SPOILS], block_spoils[BLOCK_SPOILS];

static inline const struct spoil *spoil_at(size_t i)
{
    if (i < HEAD_SPOILS)
        return &head_spoils[i];
    i -= HEAD_SPOILS;
    return i < TABLE_SPOILS ? &table_spoils[i] : &block_spoils[i - TABLE_SPOILS];
}

/* Where the head has what. */
enum { HEAD_N = 8, HEAD_P = 9, HEAD_N1 = 10, HEAD_K = 11, HEAD_L = 13, HEAD_TRIES = 15, HEAD_VARIABLES = 19, HEAD_MARK = 67, HEAD_END };

static inline size_t two_bytes(const uint8_t *at)
{
    return at[0] + 256 * (size_t)at[1];
}

static inline void put_two_bytes(uint8_t *at, size_t number)
{
    at[0] = (uint8_t)number;
    at[1] = (uint8_t)(number / 256);
}

/* Makes the check of a block right. */
static inline void mend(uint8_t *block)
{
    block_check(block, block + CHECKED);
}

/* Numbers the blocks from 0, and makes their checks right. */
void renumber(struct filed *f);

#endif
