#include "carry.h"
#include "compare.h"
#include "draw.h"
#include "files.h"
#include "twin.h"

#include <string.h>

#define SPOILT_FILES 2
#define KEYS 6
#define SMALL_FILE (4 * BLOCK)

/* What is read, with the case that it comes from. */
static struct trial carried;

static uint64_t read_with(int side)
{
    struct memory *m = &carried.after[side];
    struct tables u = tables_of(m);
    return (side == 0 ? igu_read : twin_read)(m->file + GUARD, m->length[FILE_BYTES], u.h, m->length[H], u.g, m->length[G], u.aux,
                                              m->length[AUX], u.record);
}

/* The file for both, beside tables of these lengths with junk in them. */
static void lend(const struct filed *f, struct lengths length, struct random *r)
{
    carried.call.length = carried.told = length;
    memory_fill(&carried.before[0], &carried.call, r);
    memory_put_file(&carried.before[0], r, f->bytes, f->length);
    memory_twin(&carried.before[1], &carried.before[0], &carried.call, r);
    for (int side = 0; side < 2; side++)
        memory_copy(&carried.after[side], &carried.before[side]);
}

static _Noreturn void wrong(const char *what, uint64_t answer)
{
    const uint64_t answers[2] = {answer, answer};
    report_difference(&carried, what, READ, carried.before[0].length[FILE_BYTES], answers);
}

static void check_written(uint64_t answer)
{
    const uint64_t *record = carried.after[0].record + GUARD;
    size_t written[PARTS] = {[RECORD] = RECORD_WORDS};
    if (answer == 0) {
        written[H] = (size_t)1 << record[AT_N1];
        written[G] = record[AT_L];
        written[AUX] = record[AT_K] + 1;
    }
    for (int side = 0; side < 2; side++)
        if (!memory_kept(&carried.after[side], &carried.before[side], written))
            wrong(side == 0 ? "igu wrote what it may not" : "twin wrote what it may not", answer);
    for (size_t i = 0; answer != 0 && i < RECORD_WORDS; i++)
        if (record[i] != 0)
            wrong("the record is not 0 beside a refusal", answer);
}

static bool answer_allowed(uint64_t answer, uint64_t wanted)
{
    return wanted == DEPENDS ? answer == 0 || answer == 23 : answer == wanted;
}

/* Reads the file on both sides and compares. */
static uint64_t read_both(struct counts *counts, uint64_t wanted)
{
    static const enum part results[] = {RECORD, H, G, AUX};
    uint64_t answers[2];
    for (int side = 0; side < 2; side++)
        answers[side] = read_with(side);
    if (answers[0] != answers[1])
        report_difference(&carried, "the answers differ", READ, carried.before[0].length[FILE_BYTES], answers);
    for (size_t i = 0; i < sizeof results / sizeof results[0]; i++)
        if (!part_equal(&carried.after[0], &carried.after[1], results[i]))
            wrong("the words written differ", answers[0]);
    if (!answer_allowed(answers[0], wanted))
        wrong("both answers are wrong by what was changed in the file", answers[0]);
    check_written(answers[0]);
    counts->refusals[READ][answers[0]]++;
    return answers[0];
}

/* ---- The unit that was carried beside the one that was written. ---- */

/* What the record has to be after it was carried. Of the excess only a build tells. */
static uint64_t carried_word(const struct trial *t, const uint64_t *record, size_t i)
{
    if (i == AT_TRIES)
        return record[i] % ((uint64_t)1 << 32);
    if (i == AT_EXCESS && t->damaged)
        return carried.after[0].record[GUARD + AT_EXCESS];
    if (i == AT_MARK)
        return record[i] != 0;
    if (i < AT_VARIABLES)
        return record[i];
    size_t v = i - AT_VARIABLES;
    return v < record[AT_P] ? record[i] % 65536 + 65536 * (v >= record[AT_N1]) : 0;
}

static void check_unit(const struct trial *t, struct tables written, struct tables read)
{
    const uint64_t *record = written.record;
    for (size_t i = 0; i < RECORD_WORDS; i++)
        if (read.record[i] != carried_word(t, record, i))
            wrong("the record read is not that of the unit written", 0);
    bool h_same = memcmp(read.h, written.h, sizeof *read.h << record[AT_N1]) == 0;
    bool g_same = memcmp(read.g, written.g, sizeof *read.g * record[AT_L]) == 0;
    if (!h_same || !g_same || memcmp(read.aux, written.aux, sizeof *read.aux * (record[AT_K] + 1)) != 0)
        wrong("the tables read are not those of the unit written", 0);
}

static uint64_t lookup(struct tables u, const struct lengths *length, uint64_t x)
{
    return igu_lookup(u.record, u.h, length->h, u.g, length->g, u.aux, length->aux, x);
}

static void lookup_carried(const struct trial *t, struct counts *counts, struct tables written, uint64_t x)
{
    const uint64_t answers[2] = {lookup(written, &t->told, x), lookup(tables_of(&carried.after[0]), &carried.told, x)};
    if (answers[0] != answers[1])
        report_difference(&carried, "igu answers otherwise before (first) and after (second) the unit was carried", LOOKUP, x, answers);
    lookup_both(&carried, counts, x);
}

static void use_carried(const struct trial *t, struct counts *counts, struct random *r, struct tables written)
{
    carried.damaged = t->damaged;
    remember(&carried);
    for (size_t times = least(carried.call.k, KEYS); times > 0; times--) {
        uint64_t vector = carried.call.vectors[random_below(r, carried.call.k)];
        lookup_carried(t, counts, written, vector);
        lookup_carried(t, counts, written, vector ^ (uint64_t)1 << random_below(r, 64));
        lookup_carried(t, counts, written, random_word(r) & inputs(carried.call.n));
        recover_both(&carried, counts, random_between(r, 1, carried.call.k));
    }
    check_unwritten(&carried);
}

/* What was accepted is a file that the writer gives. */
static void write_again(const struct filed *f, struct counts *counts, struct random *r)
{
    if (!write_to(&carried, counts, r, f->length) || memcmp(carried.after[0].file + GUARD, f->bytes, f->length) != 0)
        wrong("written again it is another file", 0);
}

/* ---- Files. ---- */

/* As long as the head asks for, or longer. */
static struct lengths room_for(const struct filed *f, struct random *r)
{
    size_t n1 = least(f->bytes[HEAD_N1], SIDE_AT_MOST), L = least(two_bytes(f->bytes + HEAD_L), CELLS_AT_MOST);
    size_t k = least(two_bytes(f->bytes + HEAD_K), VECTORS_AT_MOST), more = one_in(r, 2) ? 0 : random_below(r, SLACK);
    return (struct lengths){((size_t)1 << n1) + more, L + more, k + 1 + (one_in(r, 2) ? 0 : more)};
}

static size_t shorter(struct random *r, size_t needed)
{
    return one_in(r, 2) ? needed - 1 : random_below(r, needed);
}

static const struct lengths nothing = {0, 0, 0};

/* At least one table too short for a good file with this head. */
static struct lengths too_little(const struct filed *f, struct random *r)
{
    struct lengths length = room_for(f, r);
    switch (random_below(r, 4)) {
    case 0: length.h = shorter(r, (size_t)1 << f->bytes[HEAD_N1]); break;
    case 1: length.g = shorter(r, two_bytes(f->bytes + HEAD_L)); break;
    case 2: length.aux = shorter(r, two_bytes(f->bytes + HEAD_K) + 1); break;
    default: return nothing;
    }
    return length;
}

static void read_good(struct trial *t, struct counts *counts, struct random *r, const struct filed *f)
{
    struct tables written = tables_of(&t->after[0]);
    lend(f, room_for(f, r), r);
    read_both(counts, 0);
    check_unit(t, written, tables_of(&carried.after[0]));
    use_carried(t, counts, r, written);
    write_again(f, counts, r);
    lend(f, too_little(f, r), r);
    read_both(counts, 24);
}

/* A change for which the file has a place; its number. */
static size_t spoil(struct random *r, struct filed *f)
{
    size_t i;
    do
        i = random_below(r, SPOILS);
    while (!spoil_at(i)->make(r, f));
    return i;
}

static void read_spoilt(struct counts *counts, struct random *r, struct filed f)
{
    size_t i = spoil(r, &f);
    uint64_t wanted = spoil_at(i)->refusal;
    bool little = wanted != DEPENDS && one_in(r, 8);
    lend(&f, little ? nothing : room_for(&f, r), r);
    uint64_t answer = read_both(counts, little && wanted == 0 ? 24 : wanted);
    counts->spoils[i]++;
    carried.damaged = true;
    if (answer == 0)
        write_again(&f, counts, r);
}

/* Draws from a copy, so that a case is the same whether it comes first or not. */
static void read_every_bit(struct counts *counts, struct random r, const struct filed *f)
{
    for (size_t bit = 0; bit < 8 * f->length; bit++) {
        f->bytes[bit / 8] ^= (uint8_t)(1 << bit % 8);
        lend(f, room_for(f, &r), &r);
        read_both(counts, 22);
        f->bytes[bit / 8] ^= (uint8_t)(1 << bit % 8);
    }
}

static void take_case(const struct trial *t)
{
    carried.seed = t->seed;
    carried.number = t->number;
    carried.kind = t->kind;
    carried.call = t->call;
}

void carry_both(struct trial *t, struct counts *counts, struct random *r)
{
    static bool every_bit_done;
    static uint8_t good[FILE_ROOM], spoilt[FILE_ROOM];
    struct filed f = {good, t->after[0].length[FILE_BYTES]};
    memcpy(good, t->after[0].file + GUARD, f.length);
    take_case(t);
    read_good(t, counts, r, &f);
    if (!every_bit_done && f.length <= SMALL_FILE) {
        read_every_bit(counts, *r, &f);
        every_bit_done = true;
    }
    for (int times = 0; times < SPOILT_FILES; times++) {
        memcpy(spoilt, good, f.length);
        read_spoilt(counts, r, (struct filed){spoilt, f.length});
    }
}
