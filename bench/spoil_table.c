#include "draw.h"
#include "spoil.h"

#include <string.h>

enum table { ROWS, CELLS, WORDS, TABLES };

#define PAYLOAD_AT 4
#define PAYLOAD 504

static size_t table_bytes(const struct filed *f, enum table table)
{
    switch (table) {
    case ROWS: return (size_t)2 << f->bytes[HEAD_N1];
    case CELLS: return 2 * two_bytes(f->bytes + HEAD_L);
    default: return 8 * (two_bytes(f->bytes + HEAD_K) + 1);
    }
}

static size_t blocks_for(size_t bytes)
{
    return (bytes + PAYLOAD - 1) / PAYLOAD;
}

static uint8_t *table_start(const struct filed *f, enum table table)
{
    size_t blocks = 1;
    for (int before = ROWS; before < (int)table; before++)
        blocks += blocks_for(table_bytes(f, before));
    return f->bytes + BLOCK * blocks;
}

/* Changes a byte of the payloads from this block on. */
static void change_payload(struct random *r, uint8_t *block, size_t at)
{
    block += BLOCK * (at / PAYLOAD);
    block[PAYLOAD_AT + at % PAYLOAD] += (uint8_t)random_between(r, 1, 255);
    mend(block);
}

static bool change_word(struct random *r, struct filed *f)
{
    enum table table = random_below(r, TABLES);
    change_payload(r, table_start(f, table), random_below(r, table_bytes(f, table)));
    return true;
}

static bool fill_unused(struct random *r, struct filed *f)
{
    enum table table = random_below(r, TABLES);
    size_t used = table_bytes(f, table), end = PAYLOAD * blocks_for(used);
    size_t at = one_in(r, 3) ? used : one_in(r, 2) ? end - 1 : random_between(r, used, end);
    if (at >= end || at < used)
        return false;
    change_payload(r, table_start(f, table), at);
    return true;
}

/* An empty block of a table. */
static void open_block(uint8_t *block, uint8_t kind)
{
    memset(block, 0, BLOCK);
    block[0] = kind;
    block[1] = 1;
}

/* Gives a table so many bytes, and the blocks for them: words that are left out go, others that come are 0. The head is left to the
 * caller, and so are numbers and checks of blocks. */
static bool refit(struct filed *f, enum table table, size_t bytes)
{
    static const uint8_t kinds[TABLES] = {72, 71, 65};
    size_t old = blocks_for(table_bytes(f, table)), now = blocks_for(bytes), rest = bytes % PAYLOAD;
    uint8_t *start = table_start(f, table), *end = start + BLOCK * old;
    if (f->length - BLOCK * old + BLOCK * now > FILE_ROOM)
        return false;
    memmove(start + BLOCK * now, end, f->length - (size_t)(end - f->bytes));
    for (size_t i = old; i < now; i++)
        open_block(start + BLOCK * i, kinds[table]);
    if (rest != 0)
        memset(start + BLOCK * (now - 1) + PAYLOAD_AT + rest, 0, PAYLOAD - rest);
    f->length = f->length - BLOCK * old + BLOCK * now;
    return true;
}

static bool refit_rows(struct filed *f, size_t n1)
{
    if (!refit(f, ROWS, (size_t)2 << n1))
        return false;
    f->bytes[HEAD_N1] = (uint8_t)n1;
    renumber(f);
    return true;
}

static bool refit_cells(struct filed *f, size_t L)
{
    if (!refit(f, CELLS, 2 * L))
        return false;
    put_two_bytes(f->bytes + HEAD_L, L);
    renumber(f);
    return true;
}

static bool refit_words(struct filed *f, size_t k)
{
    if (!refit(f, WORDS, 8 * (k + 1)))
        return false;
    put_two_bytes(f->bytes + HEAD_K, k);
    renumber(f);
    return true;
}

static bool refit_n1(struct random *r, struct filed *f)
{
    size_t p = f->bytes[HEAD_P], n1 = random_below(r, least(p, SIDE_AT_MOST) + 1);
    return sides_in_bounds(p, n1) && refit_rows(f, n1);
}

static bool refit_n1_out(struct random *r, struct filed *f)
{
    size_t p = f->bytes[HEAD_P], n1 = random_below(r, SIDE_AT_MOST + 2);
    return !sides_in_bounds(p, n1) && refit_rows(f, n1);
}

static bool refit_L(struct random *r, struct filed *f)
{
    return refit_cells(f, random_between(r, 1, CELLS_AT_MOST));
}

static bool refit_L_out(struct random *r, struct filed *f)
{
    return refit_cells(f, one_in(r, 2) ? 0 : CELLS_AT_MOST + random_between(r, 1, 252));
}

static bool refit_k(struct random *r, struct filed *f)
{
    return refit_words(f, random_between(r, 1, VECTORS_AT_MOST));
}

static bool refit_k_out(struct random *r, struct filed *f)
{
    return refit_words(f, one_in(r, 2) ? 0 : VECTORS_AT_MOST + random_between(r, 1, 63));
}

const struct spoil table_spoils[TABLE_SPOILS] = {
    {"a byte of a table", 0, change_word},
    {"an unused byte of a table filled", 23, fill_unused},
    {"another n1, H to match", 0, refit_n1},
    {"n1 out of bounds, H to match", 23, refit_n1_out},
    {"another L, G to match", 0, refit_L},
    {"L out of bounds, G to match", 23, refit_L_out},
    {"another k, AUX to match", 0, refit_k},
    {"k out of bounds, AUX to match", 23, refit_k_out},
};
