#include "expect.h"

#include <string.h>

static uint64_t refused(unsigned number, size_t place)
{
    return number + 256 * (uint64_t)place;
}

static uint64_t place_of(uint64_t position)
{
    return position >= 1 && position <= 64 ? (uint64_t)1 << (position - 1) : 0;
}

uint64_t variable_mask(uint64_t word)
{
    return place_of(word & 255) ^ place_of(word >> 8 & 255);
}

bool span_add(uint64_t basis[64], uint64_t mask)
{
    while (mask != 0) {
        int top = 63 - __builtin_clzll(mask);
        if (basis[top] == 0) {
            basis[top] = mask;
            return true;
        }
        mask ^= basis[top];
    }
    return false;
}

bool sides_in_bounds(size_t p, size_t n1)
{
    return p <= VARIABLES && n1 <= p && n1 <= SIDE_AT_MOST && p - n1 <= SIDE_AT_MOST;
}

static unsigned number_refusal(const struct call *c)
{
    if (c->n < 1 || c->n > 64)
        return 1;
    if (c->given ? !sides_in_bounds(c->p, c->n1) : c->degree != 1 && c->degree != 2)
        return 2;
    if (c->k < 1 || c->k > VECTORS_AT_MOST)
        return 3;
    if (c->L < 1 || c->L > CELLS_AT_MOST)
        return 4;
    if (c->length.g < c->L || c->length.aux < c->k + 1)
        return 5;
    return 0;
}

static bool among(const uint64_t *words, size_t count, uint64_t word)
{
    for (size_t i = 0; i < count; i++)
        if (words[i] == word)
            return true;
    return false;
}

/* The number from 1 of the first word that equals an earlier one, or 0. */
static size_t first_repeat(const uint64_t *words, size_t count)
{
    for (size_t i = 1; i < count; i++)
        if (among(words, i, words[i]))
            return i + 1;
    return 0;
}

static size_t first_beyond(const struct call *c)
{
    for (size_t i = 0; i < c->k; i++)
        if (c->vectors[i] & ~inputs(c->n))
            return i + 1;
    return 0;
}

static uint64_t list_refusal(const struct call *c)
{
    size_t beyond = first_beyond(c);
    if (beyond != 0)
        return refused(6, beyond);
    size_t repeat = first_repeat(c->vectors, c->k);
    return repeat != 0 ? refused(7, repeat) : 0;
}

static bool faulty(uint64_t word, size_t n)
{
    uint64_t i = word & 255, j = word >> 8 & 255;
    return word >= (uint64_t)1 << 17 || i < 1 || i > n || (j != 0 && (j > n || i >= j));
}

static size_t first_faulty(const struct call *c)
{
    for (size_t v = 0; v < c->p; v++)
        if (faulty(c->variables[v], c->n))
            return v + 1;
    return 0;
}

static size_t first_dependent(const struct call *c)
{
    uint64_t basis[64] = {0};
    for (size_t v = 0; v < c->p; v++)
        if (!span_add(basis, variable_mask(c->variables[v])))
            return v + 1;
    return 0;
}

static uint64_t number_of(const struct call *c, uint64_t vector)
{
    uint64_t number = 0;
    for (size_t v = 0; v < c->p; v++)
        number |= (uint64_t)__builtin_parityll(vector & variable_mask(c->variables[v])) << v;
    return number;
}

static size_t first_agreeing(const struct call *c)
{
    uint64_t numbers[VECTORS_AT_MOST];
    for (size_t i = 0; i < c->k; i++)
        numbers[i] = number_of(c, c->vectors[i]);
    return first_repeat(numbers, c->k);
}

static uint64_t variables_refusal(const struct call *c)
{
    size_t place = first_faulty(c);
    if (place != 0)
        return refused(8, place);
    place = first_dependent(c);
    if (place != 0)
        return refused(9, place);
    place = first_agreeing(c);
    if (place != 0)
        return refused(10, place);
    return c->length.h < (size_t)1 << c->n1 ? refused(12, 0) : 0;
}

uint64_t expected_refusal(const struct call *c)
{
    unsigned number = number_refusal(c);
    if (number != 0)
        return refused(number, 0);
    uint64_t list = list_refusal(c);
    if (list != 0)
        return list;
    return c->given ? variables_refusal(c) : 0;
}

bool row_is_tried(const struct call *c, uint64_t row)
{
    for (size_t i = 0; i < c->k; i++) {
        uint64_t number = number_of(c, c->vectors[i]);
        if (number % ((uint64_t)1 << c->n1) == row && number >> c->n1 >= c->L)
            return false;
    }
    return true;
}

uint64_t expected_lookup(const struct call *c, uint64_t x)
{
    if (x & ~inputs(c->n))
        return refused(6, 0);
    for (size_t i = 0; i < c->k; i++)
        if (c->vectors[i] == x)
            return 256 * (uint64_t)(i + 1);
    return 0;
}

uint64_t expected_recovery(const struct call *c, size_t i, uint64_t *vector)
{
    bool numbered = i >= 1 && i <= c->k;
    *vector = numbered ? c->vectors[i - 1] : 0;
    return numbered ? 0 : 15;
}

uint64_t kept_inputs(const uint64_t *variables, size_t p, size_t n)
{
    uint64_t basis[64] = {0}, kept = 0;
    for (size_t v = 0; v < p; v++)
        span_add(basis, variable_mask(variables[v]));
    for (size_t i = 0; i < n; i++)
        if (span_add(basis, (uint64_t)1 << i))
            kept |= (uint64_t)1 << i;
    return kept;
}

/* The call of a given build that the record's numbers and variables would be, with no list. */
static struct call call_of(const uint64_t *record, const struct lengths *length)
{
    struct call c = {.given = true, .n = record[AT_N], .p = record[AT_P], .n1 = record[AT_N1], .length = *length};
    c.k = record[AT_K];
    c.L = record[AT_L];
    for (size_t v = 0; v < VARIABLES; v++)
        c.variables[v] = record[AT_VARIABLES + v];
    return c;
}

static bool words_in_range(const uint64_t *variables)
{
    for (size_t v = 0; v < VARIABLES; v++)
        if (variables[v] >= (uint64_t)1 << 17)
            return false;
    return true;
}

static bool sound(const uint64_t *record, const struct lengths *length)
{
    struct call c = call_of(record, length);
    if (number_refusal(&c) != 0 || c.p > c.n || c.length.h < (size_t)1 << c.n1 || !words_in_range(c.variables))
        return false;
    return first_faulty(&c) == 0 && first_dependent(&c) == 0 && record[AT_KEPT] == kept_inputs(c.variables, c.p, c.n);
}

static size_t blocks_for(size_t words, size_t in_a_block)
{
    return (words + in_a_block - 1) / in_a_block;
}

uint64_t expected_write(const uint64_t *record, const struct lengths *length, size_t file_len)
{
    if (!sound(record, length))
        return refused(14, 0);
    size_t rows = blocks_for((size_t)1 << record[AT_N1], 252), cells = blocks_for(record[AT_L], 252);
    size_t bytes = BLOCK * (1 + rows + cells + blocks_for(record[AT_K] + 1, 63));
    return file_len < bytes ? refused(20, 0) : 256 * (uint64_t)bytes;
}

void block_check(const uint8_t *block, uint8_t check[BLOCK - CHECKED])
{
    uint64_t sum = 0, weighted = 0;
    for (size_t i = 0; i < CHECKED; i++) {
        sum += block[i];
        weighted += (CHECKED - i) * block[i];
    }
    sum %= 65521;
    weighted %= 65521;
    const uint8_t bytes[] = {sum % 256, sum / 256, weighted % 256, weighted / 256};
    memcpy(check, bytes, sizeof bytes);
}
