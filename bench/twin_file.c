/* The unit as a file, from the customers' request alone and independent of the proved code, for comparing and timing.
 *
 * A block has 504 bytes of payload: 252 words of H or G, or 63 of AUX. Words lie in the file as they do in the memory of x86-64, the
 * lowest byte first, so tables are copied. */
#include "twin_unit.h"

#include <string.h>

enum { BLOCK = 512, PAYLOAD_AT = 4, PAYLOAD = 504, CHECK_AT = 508, MODULUS = 65521 };
enum { HEAD = 85, ROWS = 72, CELLS = 71, WORDS = 65, VERSION = 1 };

/* ---- The check of a block. ---- */

/* The weights of its bytes: 508, 507 and so on. */
#define WEIGHTS_4(w) (w), (w) - 1, (w) - 2, (w) - 3
#define WEIGHTS_16(w) WEIGHTS_4(w), WEIGHTS_4((w) - 4), WEIGHTS_4((w) - 8), WEIGHTS_4((w) - 12)
#define WEIGHTS_64(w) WEIGHTS_16(w), WEIGHTS_16((w) - 16), WEIGHTS_16((w) - 32), WEIGHTS_16((w) - 48)
#define WEIGHTS_256(w) WEIGHTS_64(w), WEIGHTS_64((w) - 64), WEIGHTS_64((w) - 128), WEIGHTS_64((w) - 192)
static const int16_t weights[BLOCK] = {WEIGHTS_256(508), WEIGHTS_256(252)};

/* The four bytes of the check as one number. The loops are such as the compiler takes sixteen bytes at a time through, so they go over
 * the check's own bytes too, which are taken off afterwards. No 256 bytes have a sum of 2^16. */
static uint32_t check_of(const uint8_t *block) {
    uint16_t first = 0, second = 0;
    int32_t weighted = 0;
    for (int i = 0; i < BLOCK; i++) weighted += weights[i] * block[i];
    for (int i = 0; i < BLOCK / 2; i++) first += block[i];
    for (int i = BLOCK / 2; i < BLOCK; i++) second += block[i];
    const uint8_t *own = block + CHECK_AT;
    uint32_t sum = (uint32_t)first + second - own[0] - own[1] - own[2] - own[3];
    uint32_t rest = (uint32_t)weighted + own[1] + 2u * own[2] + 3u * own[3];
    return sum % MODULUS | rest % MODULUS << 16;
}

/* ---- The layout. ---- */

enum { TABLES = 3, VARIABLES_AT = 15, MARK_AT = VARIABLES_AT + 2 * TWIN_VARIABLES, HEAD_SIZE = MARK_AT + 1 };
static const uint32_t kinds[TABLES] = {ROWS, CELLS, WORDS};
static const uint8_t letters[4] = {0x49, 0x47, 0x55, 0x31};

/* Finds the bytes of each table; tells those of the file. */
static size_t measure(const uint64_t *record, size_t size[TABLES]) {
    size_t blocks = 1;
    size[0] = sizeof(uint16_t) << record[AT_N1];
    size[1] = sizeof(uint16_t) * record[AT_L];
    size[2] = sizeof(uint64_t) * (record[AT_K] + 1);
    for (int t = 0; t < TABLES; t++) blocks += (size[t] + PAYLOAD - 1) / PAYLOAD;
    return BLOCK * blocks;
}

static uint32_t opening(uint32_t kind, uint32_t number) { return kind | VERSION << 8 | number << 16; }

/* ---- Writing. ---- */

static void put(uint8_t *to, uint64_t number, unsigned bytes) {
    for (; bytes > 0; bytes--, number >>= 8) *to++ = (uint8_t)number;
}

/* A block around its payload, which is filled up with 0. The check comes later: to sum what was just written takes longer. A memcpy of
 * this size would be compiled into a slow loop of its own. */
static void put_block(uint8_t *block, uint32_t kind, uint32_t number, const void *payload, size_t size) {
    put(block, opening(kind, number), 4);
    memmove(block + PAYLOAD_AT, payload, size);
    memset(block + PAYLOAD_AT + size, 0, PAYLOAD - size);
}

/* The blocks of a table, from the one with this number on; tells the number that comes next. */
static uint32_t put_table(uint8_t *file, uint32_t number, uint32_t kind, const uint8_t *words, size_t size) {
    for (size_t done = 0; done < size; done += PAYLOAD, number++) {
        size_t left = size - done;
        put_block(file + BLOCK * number, kind, number, words + done, left < PAYLOAD ? left : PAYLOAD);
    }
    return number;
}

static void put_head(uint8_t *file, const uint64_t *record) {
    uint8_t head[HEAD_SIZE] = {0};
    memcpy(head, letters, sizeof letters);
    put(head + 4, record[AT_N], 1);
    put(head + 5, record[AT_P], 1);
    put(head + 6, record[AT_N1], 1);
    put(head + 7, record[AT_K], 2);
    put(head + 9, record[AT_L], 2);
    put(head + 11, record[AT_TRIES], 4);
    for (uint64_t t = 0; t < record[AT_P]; t++) put(head + VARIABLES_AT + 2 * t, record[AT_VARIABLES + t], 2);
    head[MARK_AT] = record[AT_MARK] != 0;
    put_block(file, HEAD, 0, head, sizeof head);
}

uint64_t twin_write(const uint64_t record[TWIN_RECORD_WORDS], const uint16_t *h, size_t h_len, const uint16_t *g, size_t g_len,
                    const uint64_t *aux, size_t aux_len, uint8_t *file, size_t file_len) {
    const void *const words[TABLES] = {h, g, aux};
    size_t size[TABLES];
    if (!twin_sound(record, h_len, g_len, aux_len)) return 14;
    size_t length = measure(record, size);
    if (file_len < length) return 20;
    put_head(file, record);
    for (uint32_t t = 0, number = 1; t < TABLES; t++) number = put_table(file, number, kinds[t], words[t], size[t]);
    for (uint8_t *block = file; block < file + length; block += BLOCK) put(block + CHECK_AT, check_of(block), 4);
    return 256 * (uint64_t)length;
}

/* ---- Reading. ---- */

static const uint8_t zeros[PAYLOAD];

static uint64_t take(const uint8_t *from, unsigned bytes) {
    uint64_t number = 0;
    while (bytes > 0) number = number << 8 | from[--bytes];
    return number;
}

/* The record, from a head that some sound unit has; 0 for any other. */
static int take_head(const uint8_t *file, uint64_t *record) {
    const uint8_t *head = file + PAYLOAD_AT;
    uint64_t p = head[5];
    size_t used = VARIABLES_AT + 2 * p;
    if (take(file, 4) != opening(HEAD, 0) || memcmp(head, letters, sizeof letters) != 0) return 0;
    if (p > TWIN_VARIABLES || memcmp(head + used, zeros, MARK_AT - used) != 0) return 0;
    if (head[MARK_AT] > 1 || memcmp(head + HEAD_SIZE, zeros, PAYLOAD - HEAD_SIZE) != 0) return 0;
    record[AT_N] = head[4];
    record[AT_P] = p;
    record[AT_N1] = head[6];
    record[AT_K] = take(head + 7, 2);
    record[AT_L] = take(head + 9, 2);
    record[AT_TRIES] = take(head + 11, 4);
    for (uint64_t t = 0; t < p; t++) record[AT_VARIABLES + t] = take(head + VARIABLES_AT + 2 * t, 2);
    record[AT_MARK] = head[MARK_AT];
    return twin_settle(record);
}

/* The number after the blocks of a table from this one on, or 0 where one of them opens wrongly or has more than the words. */
static uint32_t past_table(const uint8_t *file, uint32_t number, uint32_t kind, size_t size) {
    for (; size > 0; number++) {
        const uint8_t *block = file + BLOCK * number;
        size_t used = size < PAYLOAD ? size : PAYLOAD;
        if (take(block, 4) != opening(kind, number) || memcmp(block + PAYLOAD_AT + used, zeros, PAYLOAD - used) != 0) return 0;
        size -= used;
    }
    return number;
}

static uint32_t take_table(const uint8_t *file, uint32_t number, uint8_t *words, size_t size) {
    for (size_t done = 0; done < size; done += PAYLOAD, number++) {
        size_t left = size - done;
        memmove(words + done, file + BLOCK * number + PAYLOAD_AT, left < PAYLOAD ? left : PAYLOAD);
    }
    return number;
}

uint64_t twin_read(const uint8_t *file, size_t file_len, uint16_t *h, size_t h_len, uint16_t *g, size_t g_len, uint64_t *aux,
                   size_t aux_len, uint64_t record[TWIN_RECORD_WORDS]) {
    void *const words[TABLES] = {h, g, aux};
    uint64_t found[TWIN_RECORD_WORDS] = {0};
    size_t size[TABLES];
    memset(record, 0, sizeof found);
    if (file_len == 0 || file_len % BLOCK != 0) return 21;
    for (const uint8_t *block = file; block < file + file_len; block += BLOCK) {
        if (take(block + CHECK_AT, 4) != check_of(block)) return 22;
    }
    if (!take_head(file, found) || measure(found, size) != file_len) return 23;
    for (uint32_t t = 0, number = 1; t < TABLES; t++) {
        if ((number = past_table(file, number, kinds[t], size[t])) == 0) return 23;
    }
    if (h_len >> found[AT_N1] == 0 || g_len < found[AT_L] || aux_len <= found[AT_K]) return 24;
    for (uint32_t t = 0, number = 1; t < TABLES; t++) number = take_table(file, number, words[t], size[t]);
    memcpy(record, found, sizeof found);
    return 0;
}
