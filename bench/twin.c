/* The index generation unit, written from the scope document alone and independent of the proved code, for comparing and timing.
 *
 * A variable's word is i + 256 * j, as in the record. Read as two inputs i and j, with an input 0 that is always 0, a single input needs
 * no case of its own. Nothing is allocated; every array has the size of the worst case. */
#include "twin_unit.h"

#include <string.h>

enum { MAX_INPUTS = 64, MAX_SIDE = 12, MAX_ROWS = 1 << MAX_SIDE, MAX_VECTORS = 1023, MAX_CELLS = 8192 };

typedef struct {
    uint64_t n, p, n1, L, allowance, k, kept, variable[TWIN_VARIABLES];
    const uint64_t *vectors;
    uint16_t *h, *g;
    uint64_t *aux, h_len, g_len, aux_len;
} unit;

static inline uint64_t low_bits(uint64_t count) { return count < 64 ? ((uint64_t)1 << count) - 1 : ~(uint64_t)0; }
static inline uint64_t first_input(uint64_t variable) { return variable & 255; }
static inline uint64_t second_input(uint64_t variable) { return variable >> 8 & 255; }

static inline uint64_t count_ones(uint64_t x) {
    x -= x >> 1 & 0x5555555555555555;
    x = (x & 0x3333333333333333) + (x >> 2 & 0x3333333333333333);
    return ((x + (x >> 4)) & 0x0f0f0f0f0f0f0f0f) * 0x0101010101010101 >> 56;
}

/* The ones of three words: added to bits of weight one and two first. */
static inline uint64_t count_three(uint64_t a, uint64_t b, uint64_t c) {
    uint64_t one = a ^ b ^ c, two = (a & b) | ((a ^ b) & c);
    one -= one >> 1 & 0x5555555555555555;
    two -= two >> 1 & 0x5555555555555555;
    one = (one & 0x3333333333333333) + (one >> 2 & 0x3333333333333333);
    two = (two & 0x3333333333333333) + (two >> 2 & 0x3333333333333333);
    one += 2 * two;
    return ((one & 0x0f0f0f0f0f0f0f0f) + (one >> 4 & 0x0f0f0f0f0f0f0f0f)) * 0x0101010101010101 >> 56;
}

/* ---- Inputs joined by variables: a forest in which each tree hangs from its smallest input. ---- */

typedef struct {
    uint8_t above[MAX_INPUTS + 1], odd[MAX_INPUTS + 1]; /* 1 + the input it hangs from, 0 for a root; its XOR with that input */
} forest;

static unsigned root_of(const forest *f, uint64_t input, uint64_t *odd) {
    unsigned i = (unsigned)input;
    for (; f->above[i] != 0; i = f->above[i] - 1u) *odd ^= f->odd[i];
    return i;
}

/* Joins the inputs of each variable, whose values are given. A variable with both inputs in one tree is an XOR of earlier ones: its
 * number from 1 is returned, or else 0. */
static uint64_t join_inputs(forest *f, const uint64_t *variable, uint64_t p, uint64_t values) {
    for (uint64_t t = 0; t < p; t++, values >>= 1) {
        uint64_t odd = values & 1;
        unsigned a = root_of(f, first_input(variable[t]), &odd), b = root_of(f, second_input(variable[t]), &odd);
        if (a == b) return t + 1;
        f->above[a < b ? b : a] = (uint8_t)((a < b ? a : b) + 1);
        f->odd[a < b ? b : a] = (uint8_t)odd;
    }
    return 0;
}

/* Going upward, the first input of a tree without input 0, which is its root, is kept, and with it the others are fixed. */
static uint64_t kept_inputs(const forest *f, uint64_t n) {
    uint64_t kept = 0;
    for (unsigned i = 1; i <= n; i++) kept |= (uint64_t)(f->above[i] == 0) << (i - 1);
    return kept;
}

/* ---- Choosing. Vectors that still agree form a group; a candidate with a ones and b zeros in a group splits a * b of its pairs. ---- */

enum { MAX_GROUPS = MAX_VECTORS / 2 + 1, PAIRED = 11, MAX_WORDS = MAX_VECTORS / (PAIRED + 1) + 2 };

typedef struct { uint16_t start, size; } group;

typedef struct {
    uint64_t member[MAX_VECTORS];
    group list[MAX_GROUPS];
    unsigned count;
} groups;

/* The groups turned on their side: column[i] has the values of x_i, column[0] zeros. A group above PAIRED begins a word of its own; of
 * a smaller one each two members have a bit, 1 where they differ. A member takes at most 1/12 of a word. */
typedef struct {
    uint64_t column[MAX_INPUTS + 1][MAX_WORDS], block[64];
    uint64_t size[MAX_WORDS]; /* of the group that ends with this word, or 0 */
    uint64_t rest[MAX_WORDS]; /* at most so many pairs are split by later groups */
    uint64_t most;
    unsigned inputs, whole, words; /* the groups above PAIRED take the words below whole */
} sheet;

static void transpose(uint64_t a[64]) {
    uint64_t mask = 0x00000000ffffffff;
    for (unsigned j = 32; j != 0; j >>= 1, mask ^= mask << j) {
        for (uint64_t *low = a; low < a + 64; low += j) {
            for (uint64_t *end = low + j; low < end; low++) {
                uint64_t swap = (low[0] >> j ^ low[j]) & mask;
                low[0] ^= swap << j;
                low[j] ^= swap;
            }
        }
    }
}

static void end_word(sheet *s, unsigned filled) {
    memset(s->block + filled, 0, (64 - filled) * sizeof *s->block);
    transpose(s->block);
    for (unsigned i = 0; i < s->inputs; i++) s->column[i + 1][s->words] = s->block[i];
    s->words++;
}

static void draw_whole(sheet *s, const uint64_t *member, unsigned size) {
    for (unsigned done = 0; done < size; done += 64) {
        unsigned left = size - done;
        memcpy(s->block, member + done, (left < 64 ? left : 64) * sizeof *member);
        s->size[s->words] = left <= 64 ? size : 0;
        s->rest[s->words] = left <= 64 ? size * size / 4 : 0;
        end_word(s, left < 64 ? left : 64);
    }
}

static unsigned draw_pairs(sheet *s, const uint64_t *member, unsigned size, unsigned filled) {
    for (unsigned a = 1; a < size; a++) {
        for (unsigned b = 0; b < a; b++) {
            s->block[filled++] = member[a] ^ member[b];
            if (filled == 64) end_word(s, 64), filled = 0;
        }
    }
    s->rest[s->words] += size * size / 4; /* a word late after a full word, which only delays giving up */
    return filled;
}

static void draw(sheet *s, const groups *all) {
    unsigned filled = 0;
    s->words = 0;
    s->most = 0;
    memset(s->rest, 0, sizeof s->rest);
    for (const group *one = all->list; one < all->list + all->count; one++) {
        if (one->size > PAIRED) draw_whole(s, all->member + one->start, one->size);
    }
    s->whole = s->words;
    for (const group *one = all->list; one < all->list + all->count; one++) {
        if (one->size <= PAIRED) filled = draw_pairs(s, all->member + one->start, one->size, filled);
    }
    if (filled != 0) end_word(s, filled);
    s->most += s->rest[s->words];
    for (unsigned w = s->words; w-- > 0;) {
        uint64_t most = s->most;
        s->most += s->rest[w];
        s->rest[w] = most;
    }
}

/* The pairs split by the XOR of columns a and b; 0 as soon as it cannot be above best. */
static uint64_t gain_of(const sheet *s, const uint64_t *a, const uint64_t *b, uint64_t best) {
    uint64_t gain = 0, ones = 0;
    unsigned w = 0;
    for (; w < s->whole; w++) {
        ones += count_ones(a[w] ^ b[w]);
        if (s->size[w] == 0) continue;
        gain += ones * (s->size[w] - ones);
        ones = 0;
        if (gain + s->rest[w] <= best) return 0;
    }
    for (; w + 3 <= s->words; w += 3) {
        gain += count_three(a[w] ^ b[w], a[w + 1] ^ b[w + 1], a[w + 2] ^ b[w + 2]);
        if (gain + s->rest[w + 2] <= best) return 0;
    }
    for (; w < s->words; w++) gain += count_ones(a[w] ^ b[w]);
    return gain;
}

/* The first of the best candidates. With input 0 in front, (0, j) being x_j, their order is that of all pairs i < j. */
static uint64_t best_candidate(const sheet *s, uint64_t degree) {
    uint64_t best = 0, choice = 0;
    for (unsigned i = 0; i < (degree == 1 ? 1 : s->inputs); i++) {
        for (unsigned j = i + 1; j <= s->inputs && best < s->most; j++) {
            uint64_t gain = gain_of(s, s->column[i], s->column[j], best);
            if (gain <= best) continue;
            best = gain;
            choice = i == 0 ? j : i + 256 * j;
        }
    }
    return choice;
}

/* Moves the members on which the variable is 0 to the front; tells how many they are. */
static unsigned part_members(uint64_t *member, unsigned size, uint64_t mask) {
    unsigned zeros = 0;
    for (unsigned t = 0; t < size; t++) {
        uint64_t moved = member[t];
        member[t] = member[zeros];
        member[zeros] = moved;
        zeros += !__builtin_parityll(moved & mask);
    }
    return zeros;
}

static void add_group(groups *all, unsigned start, unsigned size) {
    all->list[all->count] = (group){(uint16_t)start, (uint16_t)size};
    all->count += size > 1; /* a single vector agrees with no other */
}

static void split_groups(groups *all, uint64_t mask) {
    group old[MAX_GROUPS];
    unsigned count = all->count;
    memcpy(old, all->list, count * sizeof *old);
    all->count = 0;
    for (unsigned t = 0; t < count; t++) {
        unsigned zeros = part_members(all->member + old[t].start, old[t].size, mask);
        add_group(all, old[t].start, zeros);
        add_group(all, old[t].start + zeros, old[t].size - zeros);
    }
}

/* Chooses the variables; 0 when two vectors agree on 24 of them. */
static int choose(unit *u, uint64_t degree) {
    groups all;
    sheet s;
    memcpy(all.member, u->vectors, u->k * sizeof *u->vectors);
    all.count = 0;
    add_group(&all, 0, (unsigned)u->k);
    s.inputs = (unsigned)u->n;
    memset(s.column[0], 0, sizeof s.column[0]);
    for (; all.count != 0; u->p++) {
        if (u->p == TWIN_VARIABLES) return 0;
        draw(&s, &all);
        uint64_t choice = u->variable[u->p] = best_candidate(&s, degree), i = first_input(choice), j = second_input(choice);
        split_groups(&all, (uint64_t)1 << (i - 1) | (j == 0 ? 0 : (uint64_t)1 << (j - 1)));
    }
    return 1;
}

/* ---- Images. The image of a vector is its row, above that its kept inputs, above them its column; these are n bits. ---- */

enum { SLICE = 6, SLICES = (MAX_INPUTS + SLICE - 1) / SLICE };

/* The image of each input alone. Input 0 takes what single inputs have no use for. */
static void map_inputs(const unit *u, uint64_t *image) {
    uint64_t place = (uint64_t)1 << u->n1;
    for (uint64_t t = 0; t < u->p; t++) {
        uint64_t bit = (uint64_t)1 << (t < u->n1 ? t : u->n - u->p + t);
        image[first_input(u->variable[t])] |= bit;
        image[second_input(u->variable[t])] |= bit;
    }
    for (uint64_t rest = u->kept; rest != 0; rest &= rest - 1, place <<= 1) image[__builtin_ctzll(rest) + 1] |= place;
}

/* The image of an XOR is the XOR of the images, so that of a vector is made from those of its slices. */
static void map_vectors(const unit *u, uint64_t *images) {
    uint64_t input[MAX_INPUTS + 1] = {0}, table[SLICES][1 << SLICE];
    map_inputs(u, input);
    for (unsigned b = 0; b < u->n; b++) {
        uint64_t *slice = table[b / SLICE], size = (uint64_t)1 << b % SLICE;
        if (size == 1) slice[0] = 0;
        for (unsigned t = 0; t < size; t++) slice[size + t] = slice[t] ^ input[b + 1];
    }
    for (uint64_t v = 0; v < u->k; v++) {
        uint64_t image = 0, x = u->vectors[v];
        for (unsigned t = 0; x != 0; t++, x >>= SLICE) image ^= table[t][x % (1 << SLICE)];
        images[v] = image;
    }
}

/* ---- Row shift. ---- */

enum { NO_FIT = TWIN_NO_FIT, TAKEN_WORDS = TWIN_TAKEN_WORDS };

typedef struct {
    uint64_t taken[TAKEN_WORDS]; /* a bit for each cell; those from L up count as taken */
    uint16_t weight[MAX_ROWS], last[MAX_ROWS], before[MAX_VECTORS + 1]; /* the vectors of a row, chained from the last */
    uint16_t order[MAX_VECTORS];
    unsigned rows;
} shelf;

static void chain_vectors(shelf *s, const unit *u, const uint64_t *images) {
    memset(s->weight, 0, sizeof *s->weight << u->n1);
    memset(s->last, 0, sizeof *s->last << u->n1);
    for (uint64_t v = 1; v <= u->k; v++) {
        uint64_t row = images[v - 1] & low_bits(u->n1);
        s->before[v] = s->last[row];
        s->last[row] = (uint16_t)v;
        s->weight[row]++;
    }
}

/* Orders the occupied rows by falling weight, equal weights by rising number. */
static void order_rows(shelf *s, const unit *u) {
    unsigned place[MAX_VECTORS + 1] = {0};
    for (unsigned row = 0; row >> u->n1 == 0; row++) place[s->weight[row]]++;
    s->rows = 0;
    for (uint64_t weight = u->k; weight > 0; weight--) {
        unsigned many = place[weight];
        place[weight] = s->rows;
        s->rows += many;
    }
    for (unsigned row = 0; row >> u->n1 == 0; row++) {
        if (s->weight[row] != 0) s->order[place[s->weight[row]]++] = (uint16_t)row;
    }
}

/* The smallest displacement. 64 of them are tried together: d is closed when the cell c + d of some column c is taken. */
unsigned twin_first_fit(const uint64_t *taken, uint64_t L, const uint16_t *column, unsigned weight) {
    for (unsigned word = 0; word <= (L - 1) / 64; word++) {
        uint64_t closed = 0;
        for (unsigned t = 0; t < weight && ~closed != 0; t++) {
            const uint64_t *cells = taken + word + column[t] / 64;
            closed |= cells[0] >> column[t] % 64 | cells[1] << 1 << (63 - column[t] % 64);
        }
        if (~closed != 0) return word * 64 + (unsigned)__builtin_ctzll(~closed);
    }
    return NO_FIT;
}

/* From L up every bit is 1. */
static void take_none(uint64_t *taken, uint64_t L) {
    for (unsigned w = 0; w < TAKEN_WORDS; w++) taken[w] = w < L / 64 ? 0 : ~(uint64_t)0;
    taken[L / 64] = ~low_bits(L % 64);
}

void twin_take_cells(uint64_t taken[TWIN_TAKEN_WORDS], const uint16_t *g, uint64_t L) {
    take_none(taken, L);
    for (uint64_t cell = 0; cell < L; cell++) taken[cell / 64] |= (uint64_t)(g[cell] != 0) << cell % 64;
}

/* The least L with which the row would fit: past L every cell is free. */
static uint64_t needed_cells(const shelf *s, const unit *u, const uint64_t *images, unsigned row) {
    unsigned from = (unsigned)(u->n1 + u->n - u->p);
    for (uint64_t d = 0;; d++) {
        uint64_t most = 0;
        int open = 1;
        for (unsigned v = s->last[row]; v != 0 && open; v = s->before[v]) {
            uint64_t cell = d + (from == 64 ? 0 : (uint16_t)(images[v - 1] >> from));
            open = cell >= u->L || u->g[cell] == 0;
            if (cell > most) most = cell;
        }
        if (open) return most + 1;
    }
}

/* How many displacements keep every column of the row below L. */
static uint64_t tried_in_vain(const shelf *s, const unit *u, const uint64_t *images, unsigned row) {
    unsigned from = (unsigned)(u->n1 + u->n - u->p);
    uint64_t last = 0;
    for (unsigned v = s->last[row]; v != 0; v = s->before[v]) {
        uint64_t column = from == 64 ? 0 : (uint16_t)(images[v - 1] >> from);
        if (column > last) last = column;
    }
    return u->L > last ? u->L - last : 0;
}

static unsigned place_row(shelf *s, const unit *u, const uint64_t *images, unsigned row) {
    uint16_t column[MAX_VECTORS];
    unsigned weight = 0, from = (unsigned)(u->n1 + u->n - u->p);
    for (unsigned v = s->last[row]; v != 0; v = s->before[v]) column[weight++] = from == 64 ? 0 : (uint16_t)(images[v - 1] >> from);
    unsigned displacement = twin_first_fit(s->taken, u->L, column, weight);
    if (displacement == NO_FIT) return NO_FIT;
    u->h[row] = (uint16_t)displacement;
    for (unsigned v = s->last[row], t = 0; v != 0; v = s->before[v], t++) {
        unsigned cell = column[t] + displacement;
        s->taken[cell / 64] |= (uint64_t)1 << cell % 64;
        u->g[cell] = (uint16_t)v;
    }
    return displacement;
}

static void clear_tables(const unit *u) {
    memset(u->h, 0, sizeof *u->h << u->n1);
    memset(u->g, 0, sizeof *u->g * u->L);
    memset(u->aux, 0, sizeof *u->aux * (u->k + 1));
}

/* The smallest m with 2^m at least k, which the excess is counted from. */
static uint64_t floor_for(uint64_t k) { return 63 - (uint64_t)__builtin_clzll(2 * k - 1); }

/* Checks 12, 41 and 13; the tables and the record. */
static uint64_t place_rows(const unit *u, const uint64_t *images, uint64_t *record) {
    shelf s;
    uint64_t tries = 0;
    if (u->h_len >> u->n1 == 0) return 12;
    clear_tables(u);
    chain_vectors(&s, u, images);
    order_rows(&s, u);
    take_none(s.taken, u->L);
    for (unsigned t = 0; t < s.rows; t++) {
        unsigned displacement = place_row(&s, u, images, s.order[t]);
        tries += displacement == NO_FIT ? tried_in_vain(&s, u, images, s.order[t]) : displacement + 1;
        if (tries > u->allowance) return clear_tables(u), 41 + 256 * (uint64_t)s.order[t];
        if (displacement == NO_FIT) {
            uint64_t needed = needed_cells(&s, u, images, s.order[t]);
            return clear_tables(u), 13 + 256 * (uint64_t)s.order[t] + (needed << 32);
        }
    }
    for (uint64_t v = 1; v <= u->k; v++) u->aux[v] = images[v - 1] & low_bits(u->n1 + u->n - u->p);
    uint64_t numbers[] = {u->n, u->p, u->n1, u->k, u->L, u->kept, tries, u->p - floor_for(u->k)};
    memcpy(record, numbers, sizeof numbers);
    for (uint64_t t = 0; t < u->p; t++) record[AT_VARIABLES + t] = u->variable[t] | (uint64_t)(t >= u->n1) << 16;
    return 0;
}

/* ---- The builds. ---- */

/* The index of the first word that equals an earlier one under the mask, or 0. */
static uint64_t first_repeat(const uint64_t *words, uint64_t k, uint64_t mask) {
    uint16_t slot[2048] = {0};
    for (uint64_t v = 1; v <= k; v++) {
        uint64_t key = words[v - 1] & mask, at = key * 0x9e3779b97f4a7c15 >> 53;
        for (; slot[at] != 0; at = (at + 1) % 2048) {
            if ((words[slot[at] - 1] & mask) == key) return v;
        }
        slot[at] = (uint16_t)v;
    }
    return 0;
}

/* Checks 3 to 7, the same for both builds. */
static uint64_t check_list(const unit *u) {
    if (u->k - 1 >= MAX_VECTORS) return 3;
    if (u->L - 1 >= MAX_CELLS) return 4;
    if (u->g_len < u->L || u->aux_len <= u->k) return 5;
    for (uint64_t v = 1; v <= u->k; v++) {
        if ((u->vectors[v - 1] & ~low_bits(u->n)) != 0) return 6 + 256 * v;
    }
    uint64_t repeat = first_repeat(u->vectors, u->k, ~(uint64_t)0);
    return repeat == 0 ? 0 : 7 + 256 * repeat;
}

/* What follows the variables in both builds; those chosen never give 9 or 10. */
static uint64_t finish(unit *u, int given, uint64_t *record) {
    uint64_t images[MAX_VECTORS], number;
    forest f = {{0}, {0}};
    if ((number = join_inputs(&f, u->variable, u->p, 0)) != 0) return 9 + 256 * number;
    u->kept = kept_inputs(&f, u->n);
    map_vectors(u, images);
    if (given && (number = first_repeat(images, u->k, ~(low_bits(u->n - u->p) << u->n1))) != 0) return 10 + 256 * number;
    return place_rows(u, images, record);
}

uint64_t twin_build(size_t n, size_t degree, size_t L, uint64_t allowance, const uint64_t *vectors, size_t k, uint16_t *h, size_t h_len,
                    uint16_t *g, size_t g_len, uint64_t *aux, size_t aux_len, uint64_t record[TWIN_RECORD_WORDS]) {
    unit u = {.n = n, .L = L, .allowance = allowance, .k = k, .vectors = vectors, .h = h, .h_len = h_len, .g = g, .g_len = g_len, .aux = aux,
              .aux_len = aux_len};
    memset(record, 0, TWIN_RECORD_WORDS * sizeof *record);
    if (n - 1 >= MAX_INPUTS) return 1;
    if (degree - 1 >= 2) return 2;
    uint64_t refusal = check_list(&u);
    if (refusal != 0) return refusal;
    if (!choose(&u, degree)) return 11;
    u.n1 = u.p - u.p / 2;
    return finish(&u, 0, record);
}

uint64_t twin_build_given(size_t n, size_t p, size_t n1, size_t L, uint64_t allowance, const uint64_t variables[TWIN_VARIABLES],
                          const uint64_t *vectors, size_t k, uint16_t *h, size_t h_len, uint16_t *g, size_t g_len, uint64_t *aux,
                          size_t aux_len, uint64_t record[TWIN_RECORD_WORDS]) {
    unit u = {.n = n, .p = p, .n1 = n1, .L = L, .allowance = allowance, .k = k, .vectors = vectors, .h = h, .h_len = h_len, .g = g,
              .g_len = g_len, .aux = aux, .aux_len = aux_len};
    memset(record, 0, TWIN_RECORD_WORDS * sizeof *record);
    if (n - 1 >= MAX_INPUTS) return 1;
    if (p > TWIN_VARIABLES || n1 > p || n1 > MAX_SIDE || p - n1 > MAX_SIDE) return 2;
    uint64_t refusal = check_list(&u);
    if (refusal != 0) return refusal;
    for (uint64_t t = 0; t < p; t++) {
        uint64_t i = first_input(variables[t]), j = second_input(variables[t]);
        if (variables[t] >> 17 != 0 || i == 0 || (j == 0 ? i > n : j <= i || j > n)) return 8 + 256 * (t + 1);
        u.variable[t] = variables[t] & 0xffff;
    }
    return finish(&u, 1, record);
}

/* ---- Lookup and recovery. ---- */

/* Whether the unit is well formed. The values of its variables on x, the first lowest, are found on the way. */
static inline __attribute__((always_inline)) int read_unit(const uint64_t *record, size_t h_len, size_t g_len, size_t aux_len, uint64_t x,
                                                           uint64_t *values) {
    uint64_t n = record[AT_N], p = record[AT_P], n1 = record[AT_N1], kept = record[AT_KEPT], all = 0, found = 0;
    if (n - 1 >= MAX_INPUTS || record[AT_K] - 1 >= MAX_VECTORS || record[AT_L] - 1 >= MAX_CELLS) return 0;
    if (p > n || p > TWIN_VARIABLES || n1 > p || n1 > MAX_SIDE || p - n1 > MAX_SIDE) return 0;
    if (h_len >> n1 == 0 || g_len < record[AT_L] || aux_len <= record[AT_K]) return 0;
    if ((kept & ~low_bits(n)) != 0 || count_ones(kept) != n - p) return 0;
    const uint64_t *at = record + AT_VARIABLES + TWIN_VARIABLES, *used = record + AT_VARIABLES + p;
    while (at != used) all |= *--at;
    while (at != record + AT_VARIABLES) {
        uint64_t variable = *--at, i = first_input(variable) - 1, j = second_input(variable), limit = n, value = x >> i % 64;
        all |= variable;
        if (j != 0) {
            limit = --j;
            if (j >= n) return 0;
            value ^= x >> j;
        }
        if (i >= limit) return 0;
        found = found * 2 + (value & 1);
    }
    *values = found;
    return all >> 17 == 0;
}

/* The bits of x under the mask, moved together run by run: few variables leave few gaps. */
static inline uint64_t pack(uint64_t x, uint64_t mask) {
    uint64_t word = 0, above;
    for (unsigned filled = 0; mask != 0; mask &= above) {
        unsigned gap = (unsigned)__builtin_ctzll(mask) - filled;
        above = mask + (mask & -mask);
        word |= (x & mask & ~above) >> gap;
        if (above == 0) break;
        filled = (unsigned)__builtin_ctzll(above) - gap;
    }
    return word;
}

uint64_t twin_lookup(const uint64_t record[TWIN_RECORD_WORDS], const uint16_t *h, size_t h_len, const uint16_t *g, size_t g_len,
                     const uint64_t *aux, size_t aux_len, uint64_t x) {
    uint64_t values;
    if (!read_unit(record, h_len, g_len, aux_len, x, &values)) return 14;
    if ((x & ~low_bits(record[AT_N])) != 0) return 6;
    uint64_t n1 = record[AT_N1], row = values & low_bits(n1), cell = h[row] + (values >> n1);
    uint64_t index = cell < record[AT_L] ? g[cell] : 0;
    if (index == 0) return 0;
    if (index > record[AT_K]) return 14;
    if ((aux[index] & low_bits(n1)) != row) return 0;
    return aux[index] >> n1 == pack(x, record[AT_KEPT]) ? 256 * index : 0;
}

/* The first cell that holds the index, or L; four cells together until one of four does. */
static uint64_t first_cell(const uint16_t *g, uint64_t L, uint64_t index) {
    uint64_t cell = 0, four;
    for (; cell + 4 <= L; cell += 4) {
        memcpy(&four, g + cell, sizeof four);
        four ^= index * 0x0001000100010001;
        if (((four - 0x0001000100010001) & ~four & 0x8000800080008000) != 0) break;
    }
    while (cell < L && g[cell] != index) cell++;
    return cell;
}

/* The vector with these kept inputs. Going upward, another input follows from the one that it hangs from. */
static uint64_t solve(const forest *f, uint64_t n, uint64_t kept) {
    uint8_t value[MAX_INPUTS + 1] = {0};
    uint64_t vector = 0;
    for (unsigned i = 1; i <= n; i++) {
        int root = f->above[i] == 0;
        value[i] = root ? kept & 1 : value[f->above[i] - 1] ^ f->odd[i];
        kept >>= root;
        vector |= (uint64_t)value[i] << (i - 1);
    }
    return vector;
}

int twin_sound(const uint64_t *record, size_t h_len, size_t g_len, size_t aux_len) {
    uint64_t values;
    forest f = {{0}, {0}};
    if (!read_unit(record, h_len, g_len, aux_len, 0, &values)) return 0;
    return join_inputs(&f, record + AT_VARIABLES, record[AT_P], 0) == 0 && kept_inputs(&f, record[AT_N]) == record[AT_KEPT];
}

/* With any n - p inputs as the kept ones, all else that is asked of the record can be tested. */
int twin_settle(uint64_t *record) {
    uint64_t n = record[AT_N], p = record[AT_P], values;
    forest f = {{0}, {0}};
    record[AT_KEPT] = low_bits(n - p);
    if (!read_unit(record, SIZE_MAX, SIZE_MAX, SIZE_MAX, 0, &values)) return 0;
    if (join_inputs(&f, record + AT_VARIABLES, p, 0) != 0) return 0;
    record[AT_KEPT] = kept_inputs(&f, n);
    record[AT_EXCESS] = p - floor_for(record[AT_K]);
    for (uint64_t t = record[AT_N1]; t < p; t++) record[AT_VARIABLES + t] |= 1 << 16;
    return 1;
}

uint64_t twin_recover(const uint64_t record[TWIN_RECORD_WORDS], const uint16_t *h, size_t h_len, const uint16_t *g, size_t g_len,
                      const uint64_t *aux, size_t aux_len, size_t i, uint64_t vector[1]) {
    uint64_t n = record[AT_N], p = record[AT_P], n1 = record[AT_N1], values;
    forest f = {{0}, {0}};
    vector[0] = 0;
    if (!read_unit(record, h_len, g_len, aux_len, 0, &values)) return 14;
    if (i - 1 >= record[AT_K]) return 15;
    uint64_t row = aux[i] & low_bits(n1), cell = first_cell(g, record[AT_L], i);
    if (cell == record[AT_L] || cell < h[row] || (cell - h[row]) >> (p - n1) != 0) return 14;
    if ((aux[i] & ~low_bits(n1 + n - p)) != 0) return 14;
    if (join_inputs(&f, record + AT_VARIABLES, p, row | (cell - h[row]) << n1) != 0) return 14;
    if (kept_inputs(&f, n) != record[AT_KEPT]) return 14;
    vector[0] = solve(&f, n, aux[i] >> n1);
    return 0;
}
