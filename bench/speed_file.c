#include "speed_file.h"
#include "igu.h"
#include "random.h"
#include "timing.h"
#include "twin.h"

#include <stdio.h>
#include <string.h>

#define ROUNDS 2001
#define FILE_WANTED 1.3

/* The largest unit there is, with random words in its tables, which are all the same to a file. */
enum { N = 64, SIDE = 12, P = 2 * SIDE, K = 1023, L = 8192, ROWS = 1 << SIDE };

static uint64_t record[IGU_RECORD_WORDS], aux[K + 1];
static uint16_t h[ROWS], g[L];
static uint8_t files[2][IGU_FILE_BYTES];

/* What is read. */
static struct unit {
    uint64_t record[IGU_RECORD_WORDS], aux[K + 1];
    uint16_t h[ROWS], g[L];
} units[2];

/* The variables are x_1 to x_24, so the other inputs are kept. */
static void make_largest(void)
{
    const uint64_t numbers[] = {N, P, SIDE, K, L, UINT64_MAX << P};
    struct random r = {1};
    memcpy(record, numbers, sizeof numbers);
    for (uint64_t v = 0; v < P; v++)
        record[8 + v] = v + 1;
    for (size_t i = 0; i < ROWS; i++)
        h[i] = (uint16_t)random_word(&r);
    for (size_t i = 0; i < L; i++)
        g[i] = (uint16_t)random_word(&r);
    for (size_t i = 0; i <= K; i++)
        aux[i] = random_word(&r);
}

static uint64_t write_igu(void)
{
    return igu_write(record, h, ROWS, g, L, aux, K + 1, files[0], IGU_FILE_BYTES);
}

static uint64_t write_twin(void)
{
    return twin_write(record, h, ROWS, g, L, aux, K + 1, files[1], IGU_FILE_BYTES);
}

static uint64_t read_igu(void)
{
    struct unit *u = &units[0];
    return igu_read(files[0], IGU_FILE_BYTES, u->h, ROWS, u->g, L, u->aux, K + 1, u->record);
}

static uint64_t read_twin(void)
{
    struct unit *u = &units[1];
    return twin_read(files[1], IGU_FILE_BYTES, u->h, ROWS, u->g, L, u->aux, K + 1, u->record);
}

static void time_both(const char *what, uint64_t (*const ways[2])(void), uint64_t answer)
{
    static double times[2][ROUNDS];
    for (size_t round = 0; round < ROUNDS; round++)
        for (int way = 0; way < 2; way++)
            times[way][round] = timed(ways[way], answer);
    double igu = median(times[0], ROUNDS), twin = median(times[1], ROUNDS);
    printf("| %s | %.0f | %.0f | %.2f | %s |\n", what, igu, twin, igu / twin, verdict(igu / twin, FILE_WANTED));
}

void time_files(void)
{
    static uint64_t (*const writes[2])(void) = {write_igu, write_twin}, (*const reads[2])(void) = {read_igu, read_twin};
    make_largest();
    printf("\n| The largest unit as a file | igu, ns | twin, ns | igu / twin | wanted <= %.1f |\n|---|---|---|---|---|\n", FILE_WANTED);
    time_both("write", writes, 256 * IGU_FILE_BYTES);
    if (memcmp(files[0], files[1], IGU_FILE_BYTES) != 0)
        stop("the files differ");
    time_both("read", reads, 0);
    if (memcmp(&units[0], &units[1], sizeof units[0]) != 0)
        stop("the units read differ");
}
