#include "speed_many.h"
#include "bmz.h"
#include "igu.h"
#include "random.h"
#include "rivals.h"
#include "timing.h"

#include <stdio.h>
#include <string.h>

#define SEED 1
#define KEYS_AT_MOST 100000
#define ROUNDS_AT_MOST 1001
#define KEYS_IN_ALL 2000000 /* of all rounds together, about */

/* Wanted: for few keys against single lookups, for 2 k keys and more against the hash table. */
#define FEW 64
#define SINGLE_WANTED 0.5
#define HASH_WANTED_IN_TURN 1.0
#define HASH_WANTED_AT_RANDOM 0.4

enum { N = 56, K = RIVAL_KEYS, L = 2048, ROWS = 4096 };

/* A registered key and another in turn, or one of them by chance. */
enum order { IN_TURN, AT_RANDOM, ORDERS };
static const char *const order_names[ORDERS] = {"in turn", "at random"};
static const size_t sizes[] = {FEW, 2 * K, KEYS_AT_MOST};

static uint64_t vectors[K], record[IGU_RECORD_WORDS], aux[K + 1], keys[KEYS_AT_MOST];
static uint16_t h[ROWS], g[L], indices[KEYS_AT_MOST], wanted[KEYS_AT_MOST];
static size_t count;
static struct sorted sorted;
static struct hash hash;

static uint64_t random_key(struct random *r)
{
    return random_word(r) >> (64 - N);
}

/* The first list that is accepted. */
static void build_list(void)
{
    struct random r = {SEED};
    do
        for (size_t i = 0; i < K;) {
            vectors[i] = random_key(&r);
            i += scan_lookup(vectors, i, vectors[i]) == 0;
        }
    while (igu_build(N, 2, L, UINT32_MAX, vectors, K, h, ROWS, g, L, aux, K + 1, record) != 0);
    sorted_build(&sorted, vectors, K);
    hash_build(&hash, vectors, K);
}

/* Other keys than the list's, but for an accident, which the scan sees. */
static void draw_keys(struct random *r, enum order order)
{
    for (size_t i = 0; i < count; i++) {
        bool registered = order == IN_TURN ? i % 2 == 0 : one_in(r, 2);
        keys[i] = !registered ? random_key(r) : vectors[order == IN_TURN ? i / 2 % K : random_below(r, K)];
        wanted[i] = (uint16_t)scan_lookup(vectors, K, keys[i]);
    }
}

/* The whole call is counted, with what it sets up. */
static void by_many(void)
{
    if (igu_lookup_many(record, h, ROWS, g, L, aux, K + 1, keys, count, indices, count) != 0)
        stop("keys are refused");
}

#define EACH(index)                    \
    for (size_t i = 0; i < count; i++) \
    indices[i] = (uint16_t)(index)

static void by_single(void)
{
    EACH(igu_lookup(record, h, ROWS, g, L, aux, K + 1, keys[i]) / 256);
}

static void by_hash(void)
{
    EACH(hash_lookup(&hash, keys[i]));
}

static void by_binary(void)
{
    EACH(sorted_lookup(&sorted, keys[i]));
}

static void by_bmz(void)
{
    EACH(bmz_lookup(keys[i]));
}

enum way { MANY, SINGLE, HASH, BINARY, BMZ, WAYS };

static double time_of(void (*way)(void))
{
    memset(indices, 0xFF, count * sizeof indices[0]);
    double start = now();
    way();
    double end = now();
    if (memcmp(indices, wanted, count * sizeof indices[0]) != 0)
        stop("an index differs");
    return end - start;
}

/* Each round has new keys: with the same ones a processor learns which branches a few thousand keys take. */
static void time_keys(enum order order, double *one, int ways_there)
{
    struct random r = {SEED};
    static void (*const ways[WAYS])(void) = {by_many, by_single, by_hash, by_binary, by_bmz};
    static double times[WAYS][ROUNDS_AT_MOST];
    size_t rounds = KEYS_IN_ALL / count;
    rounds = rounds < ROUNDS_AT_MOST ? rounds : ROUNDS_AT_MOST;
    for (size_t round = 0; round < rounds; round++) {
        draw_keys(&r, order);
        for (int way = 0; way < ways_there; way++)
            times[way][round] = time_of(ways[way]);
    }
    for (int way = 0; way < ways_there; way++)
        one[way] = median(times[way], rounds) / (double)count;
}

static void print_row(enum order order, const double *one, int ways_there)
{
    double single = one[MANY] / one[SINGLE], table = one[MANY] / one[HASH];
    double most = order == IN_TURN ? HASH_WANTED_IN_TURN : HASH_WANTED_AT_RANDOM;
    printf("| %zu | %s |", count, order_names[order]);
    for (int way = 0; way < WAYS; way++)
        if (way < ways_there)
            printf(" %.1f |", one[way]);
        else
            printf(" not there |");
    if (count == FEW)
        printf(" %.2f | <= %.1f: %s | %.2f | |\n", single, SINGLE_WANTED, verdict(single, SINGLE_WANTED), table);
    else
        printf(" %.3f | | %.2f | <= %.1f: %s |\n", single, table, most, verdict(table, most));
}

void time_many(void)
{
    build_list();
    int ways_there = bmz_build(vectors, K) ? WAYS : BMZ;
    printf("\n| Keys, of n = %d and k = %d | registered and others | igu_lookup_many, ns a key | igu_lookup | hash table | binary search | BMZ of cmph |"
           " many / igu_lookup | wanted | many / hash table | wanted |\n|---|---|---|---|---|---|---|---|---|---|---|\n",
           N, K);
    for (size_t at = 0; at < sizeof sizes / sizeof sizes[0]; at++)
        for (int order = 0; order < ORDERS; order++) {
            double one[WAYS];
            count = sizes[at];
            time_keys(order, one, ways_there);
            print_row(order, one, ways_there);
        }
}
