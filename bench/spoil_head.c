#include "draw.h"
#include "spoil.h"

static void put_variable(struct filed *f, size_t place, uint64_t word)
{
    put_two_bytes(f->bytes + HEAD_VARIABLES + 2 * place, word % 65536);
    mend(f->bytes);
}

static bool put_byte(struct filed *f, size_t at, size_t byte)
{
    if (f->bytes[at] == byte)
        return false;
    f->bytes[at] = (uint8_t)byte;
    mend(f->bytes);
    return true;
}

static bool put_number(struct filed *f, size_t at, size_t number)
{
    if (two_bytes(f->bytes + at) == number)
        return false;
    put_two_bytes(f->bytes + at, number);
    mend(f->bytes);
    return true;
}

static bool change_letters(struct random *r, struct filed *f)
{
    size_t at = random_between(r, 4, 7);
    return put_byte(f, at, random_below(r, 256));
}

static bool put_n_out(struct random *r, struct filed *f)
{
    return put_byte(f, HEAD_N, one_in(r, 3) ? 0 : one_in(r, 2) ? 65 : random_between(r, 65, 255));
}

/* No n below this has as many variables, or all their positions. */
static size_t least_n(const struct filed *f)
{
    size_t most = f->bytes[HEAD_P] > 0 ? f->bytes[HEAD_P] : 1;
    for (size_t at = HEAD_VARIABLES; at < HEAD_MARK; at++)
        if (f->bytes[at] > most)
            most = f->bytes[at];
    return most;
}

static bool put_n_low(struct random *r, struct filed *f)
{
    return least_n(f) > 1 && put_byte(f, HEAD_N, random_between(r, 1, least_n(f) - 1));
}

static bool change_n(struct random *r, struct filed *f)
{
    return put_byte(f, HEAD_N, random_between(r, least_n(f), 64));
}

/* A place of 0 is used then, or another one is not. */
static bool change_p(struct random *r, struct filed *f)
{
    size_t p = f->bytes[HEAD_P];
    return put_byte(f, HEAD_P, one_in(r, 3) ? random_below(r, 256) : one_in(r, 2) ? p + 1 : p > 0 ? p - 1 : 1);
}

static bool put_n1_out(struct random *r, struct filed *f)
{
    size_t p = f->bytes[HEAD_P], n1 = one_in(r, 2) ? random_below(r, VARIABLES + 1) : random_below(r, 256);
    return !sides_in_bounds(p, n1) && put_byte(f, HEAD_N1, n1);
}

/* With as many blocks: 128 rows take one. */
static bool lower_n1(struct random *r, struct filed *f)
{
    size_t p = f->bytes[HEAD_P], n1 = f->bytes[HEAD_N1];
    size_t lower = n1 > 0 ? random_below(r, n1) : 0;
    return n1 > 0 && n1 < 8 && sides_in_bounds(p, lower) && put_byte(f, HEAD_N1, lower);
}

/* 0, one above most, or anything above. */
static size_t number_out(struct random *r, size_t most)
{
    return one_in(r, 3) ? 0 : one_in(r, 2) ? most + 1 : random_between(r, most + 1, 65535);
}

static bool put_k_out(struct random *r, struct filed *f)
{
    return put_number(f, HEAD_K, number_out(r, VECTORS_AT_MOST));
}

static bool put_cells_out(struct random *r, struct filed *f)
{
    return put_number(f, HEAD_L, number_out(r, CELLS_AT_MOST));
}

/* With as many blocks. */
static bool lower_k(struct random *r, struct filed *f)
{
    size_t k = two_bytes(f->bytes + HEAD_K), fewest = k < 63 ? 1 : k / 63 * 63;
    return k > fewest && put_number(f, HEAD_K, random_between(r, fewest, k - 1));
}

static bool lower_cells(struct random *r, struct filed *f)
{
    size_t L = two_bytes(f->bytes + HEAD_L), fewest = (L - 1) / 252 * 252 + 1;
    return L > fewest && put_number(f, HEAD_L, random_between(r, fewest, L - 1));
}

/* So that k or L asks for another number of blocks than there are. */
static bool change_block_count(struct random *r, struct filed *f)
{
    size_t k = random_between(r, 1, VECTORS_AT_MOST), L = random_between(r, 1, CELLS_AT_MOST);
    if (one_in(r, 2))
        return k / 63 != two_bytes(f->bytes + HEAD_K) / 63 && put_number(f, HEAD_K, k);
    return (L - 1) / 252 != (two_bytes(f->bytes + HEAD_L) - 1) / 252 && put_number(f, HEAD_L, L);
}

static bool change_tries(struct random *r, struct filed *f)
{
    size_t at = random_between(r, HEAD_TRIES, HEAD_VARIABLES - 1);
    return put_byte(f, at, random_below(r, 256));
}

/* Position 0, beyond n, or not rising. */
static uint64_t faulty_word(struct random *r, size_t n)
{
    size_t i = random_between(r, 1, n);
    switch (random_below(r, 5)) {
    case 0: return 0;
    case 1: return 256 * i;
    case 2: return random_between(r, n + 1, 255);
    case 3: return i + 256 * random_between(r, n + 1, 255);
    default: return i + 256 * random_between(r, 1, i);
    }
}

static bool put_faulty(struct random *r, struct filed *f)
{
    size_t p = f->bytes[HEAD_P], place = random_below(r, p + 1);
    if (place == p)
        return false;
    put_variable(f, place, faulty_word(r, f->bytes[HEAD_N]));
    return true;
}

/* Puts a random variable in place of another one, if that leaves them independent, or if it does not. */
static bool put_other(struct random *r, struct filed *f, bool independent)
{
    uint64_t basis[64] = {0};
    size_t p = f->bytes[HEAD_P], place = random_below(r, p + 1);
    uint64_t word = one_in(r, 3) ? two_bytes(f->bytes + HEAD_VARIABLES + 2 * random_below(r, p + 1)) : random_variable(r, f->bytes[HEAD_N]);
    for (size_t v = 0; v < p; v++)
        if (v != place)
            span_add(basis, variable_mask(two_bytes(f->bytes + HEAD_VARIABLES + 2 * v)));
    if (place == p || word == 0 || span_add(basis, variable_mask(word)) != independent)
        return false;
    put_variable(f, place, word);
    return true;
}

static bool put_dependent(struct random *r, struct filed *f)
{
    return put_other(r, f, false);
}

static bool put_independent(struct random *r, struct filed *f)
{
    return put_other(r, f, true);
}

static bool fill_unused_place(struct random *r, struct filed *f)
{
    size_t place = random_between(r, f->bytes[HEAD_P], VARIABLES);
    if (place == VARIABLES)
        return false;
    put_variable(f, place, one_in(r, 2) ? random_variable(r, f->bytes[HEAD_N]) : random_between(r, 1, 65535));
    return true;
}

static bool change_mark(struct random *r, struct filed *f)
{
    return put_byte(f, HEAD_MARK, random_below(r, 2));
}

static bool put_mark_out(struct random *r, struct filed *f)
{
    return put_byte(f, HEAD_MARK, one_in(r, 2) ? 2 : random_between(r, 2, 255));
}

static bool fill_unused_head(struct random *r, struct filed *f)
{
    size_t at = one_in(r, 4) ? HEAD_END : random_between(r, HEAD_END, CHECKED - 1);
    return put_byte(f, at, random_between(r, 1, 255));
}

const struct spoil head_spoils[HEAD_SPOILS] = {
    {"letters", 23, change_letters},
    {"n out of bounds", 23, put_n_out},
    {"n below p or a position", 23, put_n_low},
    {"another n", 0, change_n},
    {"another p", 23, change_p},
    {"n1 out of bounds", 23, put_n1_out},
    {"n1 lowered, as many blocks", DEPENDS, lower_n1},
    {"k out of bounds", 23, put_k_out},
    {"k lowered, as many blocks", DEPENDS, lower_k},
    {"L out of bounds", 23, put_cells_out},
    {"L lowered, as many blocks", DEPENDS, lower_cells},
    {"k or L of other blocks", 23, change_block_count},
    {"tries", 0, change_tries},
    {"a faulty variable", 23, put_faulty},
    {"a dependent variable", 23, put_dependent},
    {"another independent variable", 0, put_independent},
    {"an unused place filled", 23, fill_unused_place},
    {"the mark", 0, change_mark},
    {"a mark above 1", 23, put_mark_out},
    {"an unused byte of the head filled", 23, fill_unused_head},
};
