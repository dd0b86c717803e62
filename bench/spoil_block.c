#include "draw.h"
#include "spoil.h"

#include <string.h>

static size_t blocks(const struct filed *f)
{
    return f->length / BLOCK;
}

static uint8_t *any_block(struct random *r, const struct filed *f)
{
    return f->bytes + BLOCK * random_below(r, blocks(f));
}

static void exchange(uint8_t *a, uint8_t *b, size_t size)
{
    uint8_t kept[BLOCK];
    memcpy(kept, a, size);
    memmove(a, b, size);
    memcpy(b, kept, size);
}

/* ---- Against the check. ---- */

static bool change_byte(struct random *r, struct filed *f)
{
    uint8_t *block = any_block(r, f), *byte = block + random_below(r, CHECKED);
    *byte += (uint8_t)random_between(r, 1, 255);
    return true;
}

static bool change_check(struct random *r, struct filed *f)
{
    uint8_t *block = any_block(r, f), *byte = block + random_between(r, CHECKED, BLOCK - 1);
    *byte += (uint8_t)random_between(r, 1, 255);
    return true;
}

static bool exchange_bytes(struct random *r, struct filed *f)
{
    uint8_t *block = any_block(r, f), *one = block + random_below(r, CHECKED), *other = block + random_below(r, CHECKED);
    if (*one == *other)
        return false;
    exchange(one, other, 1);
    return true;
}

/* The second check, 65,521 more than it should be: tries are such that it has room for that. */
static bool raise_check(struct random *r, struct filed *f)
{
    uint8_t *tries = f->bytes + HEAD_TRIES, *check = f->bytes + CHECKED + 2;
    size_t others, all;
    memset(tries, 0, 4);
    mend(f->bytes);
    others = two_bytes(check);
    do {
        put_two_bytes(tries, random_below(r, 65536));
        put_two_bytes(tries + 2, random_below(r, 65536));
        all = others + 493 * tries[0] + 492 * tries[1] + 491 * tries[2] + 490 * tries[3];
    } while (all % 65521 + 65521 >= 65536);
    mend(f->bytes);
    put_two_bytes(check, two_bytes(check) + 65521);
    return true;
}

/* ---- With a right check. ---- */

static bool change_kind(struct random *r, struct filed *f)
{
    static const uint8_t kinds[] = {85, 72, 71, 65};
    uint8_t *block = any_block(r, f), kind = one_in(r, 4) ? (uint8_t)random_word(r) : kinds[random_below(r, sizeof kinds)];
    if (block[0] == kind)
        return false;
    block[0] = kind;
    mend(block);
    return true;
}

static bool change_version(struct random *r, struct filed *f)
{
    uint8_t *block = any_block(r, f);
    block[1] += (uint8_t)(one_in(r, 2) ? random_between(r, 1, 2) : random_between(r, 1, 255));
    mend(block);
    return true;
}

static bool change_block_number(struct random *r, struct filed *f)
{
    uint8_t *block = any_block(r, f);
    put_two_bytes(block + 2, two_bytes(block + 2) + (one_in(r, 2) ? 1 : random_between(r, 1, 65535)));
    mend(block);
    return true;
}

/* ---- Blocks. ---- */

static void drop(struct filed *f, size_t block)
{
    f->length -= BLOCK;
    memmove(f->bytes + BLOCK * block, f->bytes + BLOCK * (block + 1), f->length - BLOCK * block);
}

static bool drop_block(struct random *r, struct filed *f)
{
    drop(f, random_below(r, blocks(f)));
    return true;
}

void renumber(struct filed *f)
{
    for (size_t i = 0; i < blocks(f); i++) {
        put_two_bytes(f->bytes + BLOCK * i + 2, i);
        mend(f->bytes + BLOCK * i);
    }
}

static bool drop_and_renumber(struct random *r, struct filed *f)
{
    drop_block(r, f);
    renumber(f);
    return true;
}

static bool cut_blocks(struct random *r, struct filed *f)
{
    f->length = BLOCK * random_between(r, 1, blocks(f) - 1);
    return true;
}

static bool double_block(struct random *r, struct filed *f)
{
    uint8_t *block = any_block(r, f);
    memmove(block + BLOCK, block, f->length - (size_t)(block - f->bytes));
    f->length += BLOCK;
    return true;
}

static bool double_and_renumber(struct random *r, struct filed *f)
{
    double_block(r, f);
    renumber(f);
    return true;
}

static bool exchange_blocks(struct random *r, struct filed *f)
{
    uint8_t *one = any_block(r, f), *other = any_block(r, f);
    if (one == other)
        return false;
    exchange(one, other, BLOCK);
    return true;
}

static bool add_empty_block(struct random *r, struct filed *f)
{
    uint8_t *block = f->bytes + f->length;
    memset(block, 0, BLOCK);
    block[0] = one_in(r, 2) ? 65 : block[-BLOCK];
    block[1] = 1;
    put_two_bytes(block + 2, blocks(f));
    mend(block);
    f->length += BLOCK;
    return true;
}

/* ---- The length, and two causes at once. ---- */

static bool make_empty(struct random *r, struct filed *f)
{
    (void)r;
    f->length = 0;
    return true;
}

static bool break_length(struct random *r, struct filed *f)
{
    f->length = one_in(r, 2) ? f->length - random_between(r, 1, BLOCK - 1) : f->length + random_between(r, 1, BLOCK - 1);
    return true;
}

/* A fault in the head, and then one against the check. */
static bool spoil_head_and_byte(struct random *r, struct filed *f)
{
    head_spoils[random_below(r, HEAD_SPOILS)].make(r, f);
    return change_byte(r, f);
}

static bool spoil_all(struct random *r, struct filed *f)
{
    spoil_head_and_byte(r, f);
    return break_length(r, f);
}

const struct spoil block_spoils[BLOCK_SPOILS] = {
    {"no bytes", 21, make_empty},
    {"part of a block", 21, break_length},
    {"part of a block, beside faults of the check and the head", 21, spoil_all},
    {"a byte", 22, change_byte},
    {"a byte of the check", 22, change_check},
    {"two bytes exchanged", 22, exchange_bytes},
    {"a check above its modulus", 22, raise_check},
    {"a byte, beside a fault of the head", 22, spoil_head_and_byte},
    {"kind", 23, change_kind},
    {"version", 23, change_version},
    {"block number", 23, change_block_number},
    {"a block dropped", 23, drop_block},
    {"a block dropped, the others renumbered", 23, drop_and_renumber},
    {"the last blocks cut", 23, cut_blocks},
    {"a block doubled", 23, double_block},
    {"a block doubled, all renumbered", 23, double_and_renumber},
    {"two blocks exchanged", 23, exchange_blocks},
    {"a block added", 23, add_empty_block},
};
