/* The list of examples/s.txt becomes a unit, the unit a file, and the file's bytes are shown with what they mean. */
#include "igu.h"

#include <inttypes.h>
#include <stdio.h>

enum { BLOCK = 512, CHECK_AT = 508 };

static uint8_t file[64 * BLOCK];

/* The place in the block, the bytes, and what they are. */
static void show(size_t block, size_t at, size_t size, const char *meaning)
{
    char text[3 * 24 + 1];
    for (size_t i = 0; i < size; i++)
        sprintf(text + 3 * i, "%02x ", file[BLOCK * block + at + i]);
    printf("%5zu  %-26s%s\n", at, text, meaning);
}

static void show_opening(size_t block, const char *name)
{
    printf("block %zu, %s\n", block, name);
    show(block, 0, 1, "kind");
    show(block, 1, 1, "version");
    show(block, 2, 2, "block number");
}

static void show_check(size_t block)
{
    show(block, CHECK_AT, 2, "sum");
    show(block, CHECK_AT + 2, 2, "weighted sum");
}

static void show_head(void)
{
    show_opening(0, "head");
    show(0, 4, 4, "letters");
    show(0, 8, 1, "n");
    show(0, 9, 1, "p");
    show(0, 10, 1, "n1");
    show(0, 11, 2, "k");
    show(0, 13, 2, "L");
    show(0, 15, 4, "tries");
    show(0, 19, 2, "x2");
    show(0, 21, 2, "x3");
    show(0, 23, 2, "x4 XOR x5");
    show_check(0);
}

/* The words of a table, from the first byte of the payload on. */
static void show_table(size_t block, const char *name, size_t words, size_t size)
{
    char meaning[32];
    show_opening(block, name);
    for (size_t i = 0; i < words; i++) {
        sprintf(meaning, "%s[%zu]", name, i);
        show(block, 4 + size * i, size, meaning);
    }
    show_check(block);
}

int main(void)
{
    static const uint64_t list[] = {16, 18, 20, 28, 32, 55, 58};
    enum { N = 6, DEGREE = 2, ROWS = 4, CELLS = 7, COUNT = sizeof list / sizeof list[0] };
    static uint16_t h[4096], g[CELLS];
    static uint64_t aux[COUNT + 1], record[IGU_RECORD_WORDS];

    uint64_t built = igu_build(N, DEGREE, CELLS, UINT32_MAX, list, COUNT, h, 4096, g, CELLS, aux, COUNT + 1, record);
    if (built != 0) {
        fprintf(stderr, "igu_build: refusal %" PRIu64 ", place %" PRIu64 "\n", built % 256, built / 256);
        return 1;
    }
    uint64_t written = igu_write(record, h, 4096, g, CELLS, aux, COUNT + 1, file, sizeof file);
    if (written % 256 != 0) {
        fprintf(stderr, "igu_write: refusal %" PRIu64 "\n", written % 256);
        return 1;
    }
    printf("%" PRIu64 " bytes; those not shown are 00\n", written / 256);
    show_head();
    show_table(1, "H", ROWS, 2);
    show_table(2, "G", CELLS, 2);
    show_table(3, "AUX", COUNT + 1, 8);
    return 0;
}
