#include "speed_add.h"
#include "igu.h"
#include "random.h"
#include "timing.h"
#include "twin.h"

#include <stdio.h>
#include <string.h>

#define ROUNDS 1001
#define TWIN_WANTED 1.3
#define BUILD_WANTED 0.05

/* A list of 1,022 random keys, and keys besides: some find their cell free, others move their row. */
enum { N = 56, DEGREE = 2, K = 1022, L = 2048, ROWS = 4096, OTHERS = 2000 };

static uint64_t vectors[K], others[OTHERS];

static struct unit {
    uint64_t record[IGU_RECORD_WORDS], aux[K + 2];
    uint16_t h[ROWS], g[L];
} built, unit;

static uint64_t added;

static uint64_t build(void)
{
    return igu_build(N, DEGREE, L, UINT32_MAX, vectors, K, unit.h, ROWS, unit.g, L, unit.aux, K + 2, unit.record);
}

static uint64_t add_igu(void)
{
    return igu_add(unit.record, unit.h, ROWS, unit.g, L, unit.aux, K + 2, added);
}

static uint64_t add_twin(void)
{
    return twin_add(unit.record, unit.h, ROWS, unit.g, L, unit.aux, K + 2, added);
}

static void draw(uint64_t *words, size_t count, struct random *r)
{
    for (size_t i = 0; i < count; i++)
        words[i] = random_word(r) >> (64 - N);
}

/* The next of the other keys that is accepted, and moves its row or does not. */
static void next_key(size_t *at, int moves)
{
    for (; *at < OTHERS; ++*at) {
        unit = built;
        added = others[*at];
        if (add_igu() == 0 && (memcmp(unit.h, built.h, sizeof unit.h) != 0) == moves) {
            ++*at;
            return;
        }
    }
    stop("too few keys are accepted");
}

static double time_one(uint64_t (*call)(void))
{
    unit = built;
    return timed(call, 0);
}

static void time_both(const char *what, int moves, double whole)
{
    static double times[2][ROUNDS];
    size_t at = 0;
    for (size_t round = 0; round < ROUNDS; round++) {
        if (at >= OTHERS - 200)
            at = 0;
        next_key(&at, moves);
        times[0][round] = time_one(add_igu);
        times[1][round] = time_one(add_twin);
    }
    double igu = median(times[0], ROUNDS), twin = median(times[1], ROUNDS);
    printf("| %s | %.0f | %.0f | %.2f | %s | %.3f | %s |\n", what, igu, twin, igu / twin, verdict(igu / twin, TWIN_WANTED), igu / whole,
           verdict(igu / whole, BUILD_WANTED));
}

static double time_builds(void)
{
    static double times[21];
    for (size_t round = 0; round < 21; round++)
        times[round] = timed(build, 0);
    return median(times, 21);
}

void time_add(void)
{
    struct random r = {7};
    draw(vectors, K, &r);
    draw(others, OTHERS, &r);
    if (build() != 0)
        stop("the list is refused");
    built = unit;
    double whole = time_builds();
    printf("\n| One vector added to %d | igu, ns | twin, ns | igu / twin | wanted <= %.1f | igu / whole build | wanted <= %.2f |\n"
           "|---|---|---|---|---|---|---|\n",
           K, TWIN_WANTED, BUILD_WANTED);
    time_both("its cell is free", 0, whole);
    time_both("its row moves", 1, whole);
}
