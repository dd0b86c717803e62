/* Times the proved unit beside its twin, and lookup beside three other ways to find a key, all in one process, in turn.
 * Prints Markdown tables: medians of the rounds in nanoseconds, and their ratios, which are what counts under an emulator. */
#include "igu.h"
#include "random.h"
#include "rivals.h"
#include "speed_add.h"
#include "speed_file.h"
#include "speed_many.h"
#include "speed_profiles.h"
#include "timing.h"
#include "twin.h"

#include <stdio.h>

#define SEED 1
#define SEEDS_TRIED 50
#define KEYS (2 * RIVAL_KEYS)
#define LOOKUP_ROUNDS 201
#define BUILD_ROUNDS 41
#define BUILD_SECONDS 10.0 /* after so long three rounds are enough */
#define FEWEST_ROUNDS 3

#define BUILD_WANTED 1.3
#define LOOKUP_WANTED 1.3
#define SCAN_WANTED 0.5

struct size {
    size_t n, k, degree, L;
};

static const struct size sizes[] = {{24, 1023, 2, 2048}, {56, 1023, 2, 2048}, {56, 1023, 1, 2048}, {64, 1023, 2, 8192}, {56, 255, 2, 512}};
#define SIZES (sizeof sizes / sizeof sizes[0])

struct unit {
    uint64_t record[IGU_RECORD_WORDS];
    uint16_t h[4096], g[8192];
    uint64_t aux[RIVAL_KEYS + 1];
};

struct setup {
    struct size size;
    uint64_t vectors[RIVAL_KEYS];
    uint64_t keys[KEYS];
    struct unit igu, twin;
    struct sorted sorted;
    struct hash hash;
};

enum way { IGU, TWIN, SCAN, BINARY, HASH, WAYS };

static struct setup setup;
static double build_times[2][SIZES], lookup_times[WAYS][SIZES];

static uint64_t random_vector(struct random *r, size_t n)
{
    return n < 64 ? random_word(r) >> (64 - n) : random_word(r);
}

static uint64_t build_igu(void)
{
    struct unit *u = &setup.igu;
    const struct size *s = &setup.size;
    return igu_build(s->n, s->degree, s->L, UINT32_MAX, setup.vectors, s->k, u->h, 4096, u->g, 8192, u->aux, RIVAL_KEYS + 1, u->record);
}

static uint64_t build_twin(void)
{
    struct unit *u = &setup.twin;
    const struct size *s = &setup.size;
    return twin_build(s->n, s->degree, s->L, UINT32_MAX, setup.vectors, s->k, u->h, 4096, u->g, 8192, u->aux, RIVAL_KEYS + 1, u->record);
}

static void draw_list(struct random *r)
{
    for (size_t i = 0; i < setup.size.k;) {
        setup.vectors[i] = random_vector(r, setup.size.n);
        i += scan_lookup(setup.vectors, i, setup.vectors[i]) == 0;
    }
}

/* The first list that both accept; a refused build is never timed. */
static void accepted_list(void)
{
    for (uint64_t seed = SEED; seed < SEED + SEEDS_TRIED; seed++) {
        struct random r = {seed};
        draw_list(&r);
        uint64_t igu = build_igu(), twin = build_twin();
        if (igu != twin)
            stop("the two builds give different answers");
        if (igu == 0)
            return;
    }
    stop("no accepted list within the seeds tried");
}

static uint64_t unregistered(struct random *r)
{
    uint64_t key;
    do
        key = random_vector(r, setup.size.n);
    while (scan_lookup(setup.vectors, setup.size.k, key) != 0);
    return key;
}

/* Each registered key once and as many that are not registered, shuffled. */
static void mix_keys(void)
{
    struct random r = {SEED};
    for (size_t i = 0; i < 2 * setup.size.k; i++) {
        size_t j = random_below(&r, i + 1);
        setup.keys[i] = setup.keys[j];
        setup.keys[j] = i < setup.size.k ? setup.vectors[i] : unregistered(&r);
    }
}

static void prepare(struct size size)
{
    setup.size = size;
    accepted_list();
    mix_keys();
    sorted_build(&setup.sorted, setup.vectors, size.k);
    hash_build(&setup.hash, setup.vectors, size.k);
}

/* Every answer, a refusal too, changes the sum, and so does its place in the mix. */
#define SUM_OVER_KEYS(answer)                       \
    uint64_t sum = 0;                               \
    for (size_t i = 0; i < 2 * setup.size.k; i++) { \
        uint64_t x = setup.keys[i];                 \
        sum = 31 * sum + (answer);                  \
    }                                               \
    return sum

static uint64_t sum_igu(void)
{
    const struct unit *u = &setup.igu;
    SUM_OVER_KEYS(igu_lookup(u->record, u->h, 4096, u->g, 8192, u->aux, RIVAL_KEYS + 1, x));
}

static uint64_t sum_twin(void)
{
    const struct unit *u = &setup.twin;
    SUM_OVER_KEYS(twin_lookup(u->record, u->h, 4096, u->g, 8192, u->aux, RIVAL_KEYS + 1, x));
}

static uint64_t sum_scan(void)
{
    SUM_OVER_KEYS(256 * scan_lookup(setup.vectors, setup.size.k, x));
}

static uint64_t sum_binary(void)
{
    SUM_OVER_KEYS(256 * sorted_lookup(&setup.sorted, x));
}

static uint64_t sum_hash(void)
{
    SUM_OVER_KEYS(256 * hash_lookup(&setup.hash, x));
}

static void time_builds(size_t at)
{
    double times[2][BUILD_ROUNDS], start = now();
    size_t rounds = 0;
    while (rounds < BUILD_ROUNDS && (rounds < FEWEST_ROUNDS || now() - start < BUILD_SECONDS * 1e9)) {
        times[IGU][rounds] = timed(build_igu, 0);
        times[TWIN][rounds++] = timed(build_twin, 0);
    }
    for (int way = IGU; way <= TWIN; way++)
        build_times[way][at] = median(times[way], rounds);
}

static void time_lookups(size_t at)
{
    static double times[WAYS][LOOKUP_ROUNDS];
    static uint64_t (*const ways[WAYS])(void) = {sum_igu, sum_twin, sum_scan, sum_binary, sum_hash};
    uint64_t wanted = sum_scan();
    for (size_t round = 0; round < LOOKUP_ROUNDS; round++)
        for (int way = 0; way < WAYS; way++)
            times[way][round] = timed(ways[way], wanted);
    for (int way = 0; way < WAYS; way++)
        lookup_times[way][at] = median(times[way], LOOKUP_ROUNDS) / (double)(2 * setup.size.k);
}

static void print_size(const struct size *s)
{
    printf("| %zu | %zu | %zu | %zu |", s->n, s->k, s->degree, s->L);
}

static void print_builds(void)
{
    printf("| n | k | degree | L | igu build, ns | twin build, ns | igu / twin | wanted <= %.1f |\n", BUILD_WANTED);
    puts("|---|---|---|---|---|---|---|---|");
    for (size_t at = 0; at < SIZES; at++) {
        double ratio = build_times[IGU][at] / build_times[TWIN][at];
        print_size(&sizes[at]);
        printf(" %.0f | %.0f | %.2f | %s |\n", build_times[IGU][at], build_times[TWIN][at], ratio, verdict(ratio, BUILD_WANTED));
    }
}

static void print_lookup_times(void)
{
    puts("\n| n | k | degree | L | igu lookup, ns | twin, ns | scan, ns | binary search, ns | hash table, ns |");
    puts("|---|---|---|---|---|---|---|---|---|");
    for (size_t at = 0; at < SIZES; at++) {
        print_size(&sizes[at]);
        for (int way = 0; way < WAYS; way++)
            printf(" %.1f |", lookup_times[way][at]);
        putchar('\n');
    }
}

static double lookup_ratio(enum way way, size_t at)
{
    return lookup_times[IGU][at] / lookup_times[way][at];
}

/* The figure against the scan is wanted for full lists only. */
static const char *scan_verdict(size_t at)
{
    return sizes[at].k == RIVAL_KEYS ? verdict(lookup_ratio(SCAN, at), SCAN_WANTED) : "";
}

static void print_lookup_ratios(void)
{
    printf("\n| n | k | degree | L | igu / twin | wanted <= %.1f | igu / scan | wanted <= %.1f |", LOOKUP_WANTED, SCAN_WANTED);
    puts(" igu / binary search | igu / hash table |");
    puts("|---|---|---|---|---|---|---|---|---|---|");
    for (size_t at = 0; at < SIZES; at++) {
        print_size(&sizes[at]);
        printf(" %.2f | %s |", lookup_ratio(TWIN, at), verdict(lookup_ratio(TWIN, at), LOOKUP_WANTED));
        printf(" %.3f | %s | %.2f | %.2f |\n", lookup_ratio(SCAN, at), scan_verdict(at), lookup_ratio(BINARY, at), lookup_ratio(HASH, at));
    }
}

int main(void)
{
    for (size_t at = 0; at < SIZES; at++) {
        prepare(sizes[at]);
        time_builds(at);
        time_lookups(at);
    }
    print_builds();
    print_lookup_times();
    print_lookup_ratios();
    time_many();
    time_files();
    time_add();
    time_profiles();
    print_verdicts();
    return 0;
}
