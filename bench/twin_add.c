#include "twin_unit.h"

#include <string.h>

enum { MAX_VECTORS = 1023, MAX_COLUMNS = 1 << 12 };

static uint64_t low(uint64_t count) { return count < 64 ? ((uint64_t)1 << count) - 1 : ~(uint64_t)0; }

/* The values of the variables on x, the first as lowest bit. */
static uint64_t values_of(const uint64_t *record, uint64_t x)
{
    uint64_t values = 0;
    for (uint64_t t = record[AT_P]; t-- > 0;) {
        uint64_t i = record[AT_VARIABLES + t] & 255, j = record[AT_VARIABLES + t] >> 8 & 255;
        values = 2 * values + ((x >> (i - 1) ^ (j == 0 ? 0 : x >> (j - 1))) & 1);
    }
    return values;
}

/* The kept inputs of x, pushed together. */
static uint64_t kept_of(uint64_t kept, uint64_t x)
{
    uint64_t packed = 0;
    for (unsigned to = 0; kept != 0; kept &= kept - 1, to++)
        packed |= (x >> __builtin_ctzll(kept) & 1) << to;
    return packed;
}

/* The first cell of each index, counted from 1; false where some number is not recovered. */
static int find_cells(const uint64_t *record, const uint16_t *h, const uint16_t *g, const uint64_t *aux, uint16_t *first)
{
    uint64_t n1 = record[AT_N1], k = record[AT_K], bits = n1 + record[AT_N] - record[AT_P], columns = (uint64_t)1 << (record[AT_P] - n1);
    memset(first, 0, sizeof *first * (k + 1));
    for (uint64_t cell = record[AT_L]; cell-- > 0;)
        if (g[cell] <= k)
            first[g[cell]] = (uint16_t)(cell + 1);
    for (uint64_t i = 1; i <= k; i++) {
        uint64_t d = h[aux[i] & low(n1)];
        if (first[i] == 0 || first[i] <= d || first[i] - 1 - d >= columns || (aux[i] & ~low(bits)) != 0)
            return 0;
    }
    return 1;
}

/* The row of x without its cells, and with x in it at the smallest displacement; G as it was where there is none. */
static int move_row(uint64_t *record, uint16_t *h, uint16_t *g, const uint64_t *aux, const uint16_t *first, uint64_t row, uint64_t column)
{
    uint16_t members[MAX_VECTORS], columns[MAX_VECTORS];
    uint64_t k = record[AT_K], cells = record[AT_L], taken[TWIN_TAKEN_WORDS];
    unsigned weight = 0;
    for (uint64_t i = 1; i <= k; i++)
        if ((aux[i] & low(record[AT_N1])) == row) {
            members[weight] = (uint16_t)i;
            columns[weight++] = (uint16_t)(first[i] - 1 - h[row]);
            g[first[i] - 1] = 0;
        }
    members[weight] = (uint16_t)(k + 1);
    columns[weight] = (uint16_t)column;
    twin_take_cells(taken, g, cells);
    unsigned d = twin_first_fit(taken, cells, columns, weight + 1);
    if (d == TWIN_NO_FIT) {
        for (unsigned t = 0; t < weight; t++)
            g[first[members[t]] - 1] = members[t];
        return 0;
    }
    h[row] = (uint16_t)d;
    for (unsigned t = 0; t <= weight; t++)
        g[columns[t] + d] = members[t];
    return 1;
}

uint64_t twin_add(uint64_t record[TWIN_RECORD_WORDS], uint16_t *h, size_t h_len, uint16_t *g, size_t g_len, uint64_t *aux, size_t aux_len,
                  uint64_t x)
{
    uint16_t first[MAX_VECTORS + 1];
    uint64_t k = record[AT_K], n1 = record[AT_N1];
    if (!twin_sound(record, h_len, g_len, aux_len) || !find_cells(record, h, g, aux, first))
        return 14;
    if ((x & ~low(record[AT_N])) != 0)
        return 6 + 256 * (k + 1);
    uint64_t values = values_of(record, x), row = values & low(n1), column = values >> n1, cell = h[row] + column;
    uint64_t word = row | (record[AT_KEPT] == 0 ? 0 : kept_of(record[AT_KEPT], x) << n1);
    uint64_t holds = cell < record[AT_L] ? g[cell] : 0;
    int member = holds != 0 && holds <= k && first[holds] == cell + 1 && (aux[holds] & low(n1)) == row;
    if (member && aux[holds] == word)
        return 40 + 256 * holds;
    if (k == MAX_VECTORS)
        return 3;
    if (aux_len < k + 2)
        return 5;
    if (member)
        return 10 + 256 * (k + 1);
    if (cell < record[AT_L] && g[cell] == 0)
        g[cell] = (uint16_t)(k + 1);
    else if (!move_row(record, h, g, aux, first, row, column))
        return 13 + 256 * row;
    aux[k + 1] = word;
    record[AT_K] = k + 1;
    record[AT_EXCESS] = record[AT_P] - (63 - (uint64_t)__builtin_clzll(2 * k + 1));
    record[AT_MARK] = 1;
    memset(record + AT_MARK + 1, 0, (TWIN_RECORD_WORDS - AT_MARK - 1) * sizeof *record);
    return 0;
}
