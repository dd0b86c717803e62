#include "files.h"
#include "compare.h"
#include "expect.h"
#include "twin.h"

#include <string.h>

static uint64_t write_with(int side, struct trial *t)
{
    struct memory *m = &t->after[side];
    struct tables u = tables_of(m);
    return (side == 0 ? igu_write : twin_write)(u.record, u.h, t->told.h, u.g, t->told.g, u.aux, t->told.aux, m->file + GUARD,
                                                m->length[FILE_BYTES]);
}

/* The same bytes for both. */
static void lend_target(struct trial *t, struct random *r, size_t length)
{
    for (int side = 0; side < 2; side++)
        memory_lend_file(&t->after[side], r, length);
    part_copy(&t->after[1], &t->after[0], FILE_BYTES);
    remember(t);
}

static bool checks_right(const struct memory *m, size_t length)
{
    uint8_t check[BLOCK - CHECKED];
    for (const uint8_t *block = m->file + GUARD; length > 0; length -= BLOCK, block += BLOCK) {
        block_check(block, check);
        if (memcmp(check, block + CHECKED, sizeof check) != 0)
            return false;
    }
    return true;
}

bool write_to(struct trial *t, struct counts *counts, struct random *r, size_t length)
{
    uint64_t answers[2];
    lend_target(t, r, length);
    for (int side = 0; side < 2; side++)
        answers[side] = write_with(side, t);
    if (answers[0] != answers[1] || !part_equal(&t->after[0], &t->after[1], FILE_BYTES))
        report_difference(t, "the answers or the files differ", WRITE, length, answers);
    if (answers[0] != expected_write(t->before[0].record + GUARD, &t->told, length))
        report_difference(t, "both answers are wrong by the record", WRITE, length, answers);
    const size_t written[PARTS] = {[FILE_BYTES] = answers[0] / 256};
    for (int side = 0; side < 2; side++)
        if (!memory_kept(&t->after[side], &t->before[side], written))
            report_difference(t, side == 0 ? "igu wrote what it may not" : "twin wrote what it may not", WRITE, length, answers);
    if (!checks_right(&t->after[0], answers[0] / 256))
        report_difference(t, "a block's check is wrong in both", WRITE, length, answers);
    counts->refusals[WRITE][answers[0] % 256]++;
    return answers[0] % 256 == 0;
}

static size_t too_short(struct random *r, size_t length)
{
    switch (random_below(r, 4)) {
    case 0: return 0;
    case 1: return length - 1;
    case 2: return length - BLOCK;
    default: return random_below(r, length);
    }
}

bool write_both(struct trial *t, struct counts *counts, struct random *r)
{
    uint64_t answer = expected_write(t->after[0].record + GUARD, &t->told, FILE_ROOM);
    size_t length = answer % 256 == 0 ? answer / 256 : random_between(r, BLOCK, 8 * BLOCK);
    write_to(t, counts, r, too_short(r, length));
    write_to(t, counts, r, length + random_between(r, 1, 2 * BLOCK));
    return write_to(t, counts, r, length);
}
