/* Compares the proved profile keys with their twin, and both with the lists of keys, on random cases.
 *   profiles [CASES [SEED]]
 * A case is two lists of keys, each built by both and, if accepted, also written and read back; slabs of random lengths; and keys that are
 * in a list or not, or over a width. A difference ends the program with status 1 and its case. */
#include "shelves.h"
#include "twin.h"

#include <inttypes.h>
#include <stdio.h>
#include <stdlib.h>
#include <string.h>

#define FULL_RUN 1000 /* from here on every outcome has to arise */

static struct shelf brand, house;
static struct shelf *const shelves[2] = {&brand, &house};
static uint8_t slab[1]; /* no byte of a slab is read */
static uint64_t seed, number;

/* How often each refusal arose; and of the accepted lookups, how often each slab gave a profile, or none did. */
static uint64_t built[64], found[64], from_brand, from_house, from_none;

static _Noreturn void differ(const char *what, uint64_t ours, uint64_t theirs)
{
    printf("DIFFERENCE: %s, case %" PRIu64 " of seed %" PRIu64 ": igu %" PRIu64 ", twin or list %" PRIu64 "\n", what, number, seed, ours,
           theirs);
    exit(1);
}

static uint64_t build_with(int side, struct shelf *s)
{
    struct unit *u = &s->unit[side];
    const uint32_t(*keys)[FIELDS] = (const uint32_t(*)[FIELDS])s->keys;
    return (side == 0 ? igu_profiles_build : twin_profiles_build)(s->degree, s->L, s->allowance, keys, s->count, u->h, s->h_len, u->g, s->g_len,
                                                                  u->aux, s->aux_len, u->record);
}

static void compare_units(const struct shelf *s, const char *what)
{
    if (memcmp(&s->unit[0], &s->unit[1], sizeof s->unit[0]) != 0)
        differ(what, 0, 0);
}

static bool build_both(struct shelf *s)
{
    uint64_t ours = build_with(0, s), theirs = build_with(1, s);
    if (ours != theirs)
        differ("the builds", ours, theirs);
    compare_units(s, "the words that the builds left");
    bool wide = false;
    for (size_t i = 0; i < s->count; i++)
        wide = wide || over_width(s->keys[i]);
    if ((ours == 30) != wide)
        differ("refusal 30 by the list", ours, 30);
    built[ours % 256]++;
    return ours == 0;
}

/* The unit written and read again, into tables with junk: lookups go on with it. */
static void carry(struct random *r, struct shelf *s)
{
    static uint8_t file[IGU_FILE_BYTES];
    struct unit *u = &s->unit[0];
    uint64_t written = igu_write(u->record, u->h, s->h_len, u->g, s->g_len, u->aux, s->aux_len, file, sizeof file);
    if (written % 256 != 0)
        differ("a unit of keys is not written", written, 0);
    for (size_t i = 0; i < H_ROOM; i++)
        u->h[i] = (uint16_t)random_word(r);
    for (size_t i = 0; i < G_ROOM; i++)
        u->g[i] = (uint16_t)random_word(r);
    uint64_t read = igu_read(file, written / 256, u->h, s->h_len, u->g, s->g_len, u->aux, s->aux_len, u->record);
    if (read != 0)
        differ("a unit of keys is not read", read, 0);
    s->unit[1] = s->unit[0];
}

/* A number or a variable of the record, or a table, changed on both sides. */
static void damage(struct random *r, struct shelf *s)
{
    struct unit *u = &s->unit[0];
    switch (random_below(r, 5)) {
    case 0: u->record[AT_VARIABLES + random_below(r, IGU_VARIABLES)] = random_word(r); break;
    case 1: u->record[AT_K] = random_below(r, 2 * s->count + 2); break;
    case 2: u->record[random_below(r, 6)] ^= (uint64_t)1 << random_below(r, 7); break;
    case 3: u->record[AT_K] = random_word(r); break;
    default:
        for (size_t i = 0; i < s->L; i++)
            u->g[i] = (uint16_t)random_below(r, s->count + 3);
    }
    s->unit[1] = s->unit[0];
    s->damaged = true;
}

/* A unit of fewer inputs, so that keys have bits beyond its n. */
static void narrow(struct random *r, struct shelf *s)
{
    static const uint64_t list[] = {1, 2, 3};
    struct unit *u = &s->unit[0];
    if (igu_build(random_between(r, 2, 20), 1, 8, 6, list, 3, u->h, H_ROOM, u->g, G_ROOM, u->aux, KEYS_ROOM + 1, u->record) != 0)
        differ("a small list is refused", 1, 0);
    s->h_len = H_ROOM;
    s->g_len = G_ROOM;
    s->aux_len = KEYS_ROOM + 1;
    s->unit[1] = s->unit[0];
    s->damaged = true;
}

static uint64_t profile_with(int side, const uint32_t *key)
{
    const struct unit *b = &brand.unit[side], *h = &house.unit[side];
    return (side == 0 ? igu_profile : twin_profile)(b->record, b->h, brand.h_len, b->g, brand.g_len, b->aux, brand.aux_len, slab,
                                                    brand.slab_len, brand.size, h->record, h->h, house.h_len, h->g, house.g_len, h->aux,
                                                    house.aux_len, slab, house.slab_len, house.size, key);
}

static bool too_short(const struct shelf *s)
{
    return s->size == 0 || s->slab_len < s->count * s->size;
}

/* By the lists alone. */
static uint64_t expected(const uint32_t *key)
{
    if (over_width(key))
        return 30;
    if (too_short(&brand) || too_short(&house))
        return 31;
    size_t first = number_in(&brand, key);
    return first != 0 ? 256 * first + ((uint64_t)1 << 32) : 256 * number_in(&house, key);
}

static void find_both(const uint32_t *key)
{
    uint64_t ours = profile_with(0, key), theirs = profile_with(1, key);
    if (ours != theirs)
        differ("the profiles", ours, theirs);
    if (!brand.damaged && !house.damaged && ours != expected(key))
        differ("both profiles, by the lists", ours, expected(key));
    if (ours % 256 != 0 && ours >= 256)
        differ("a number beside a refusal", ours, theirs);
    found[ours % 256]++;
    if (ours % 256 == 0)
        *(ours == 0 ? &from_none : ours >> 32 != 0 ? &from_brand : &from_house) += 1;
}

static void find_some(struct random *r)
{
    uint32_t key[FIELDS];
    for (int times = 0; times < 12; times++) {
        const struct shelf *s = shelves[random_below(r, 2)];
        if (s->count > 0)
            memcpy(key, s->keys[random_below(r, s->count)], sizeof key);
        else
            draw_key(r, key);
        find_both(key);
        key[DAY] = (uint32_t)random_below(r, 70000); /* the same but for the day */
        find_both(key);
        key[DAY] = 0;
        find_both(key);
        draw_key(r, key);
        find_both(key);
        if (one_in(r, 6)) {
            widen(r, key);
            find_both(key);
        }
    }
    for (int i = 0; i < 2; i++)
        compare_units(shelves[i], "a unit after lookups");
}

static void run_case(void)
{
    struct random r = {seed ^ number * 0xD1342543DE82EF95u};
    random_word(&r);
    bool good = true;
    for (int i = 0; i < 2; i++) {
        draw_shelf(&r, shelves[i]);
        good = build_both(shelves[i]) && good;
    }
    if (!good)
        return;
    find_some(&r);
    for (int i = 0; i < 2; i++)
        if (one_in(&r, 2))
            carry(&r, shelves[i]);
    find_some(&r);
    if (one_in(&r, 2))
        damage(&r, shelves[random_below(&r, 2)]);
    else
        narrow(&r, shelves[random_below(&r, 2)]);
    find_some(&r);
}

static bool all_arose(void)
{
    static const int builds[] = {0, 2, 3, 4, 5, 7, 11, 12, 13, 30, 41}, profiles[] = {0, 6, 14, 30, 31};
    bool all = from_brand > 0 && from_house > 0 && from_none > 0;
    for (size_t i = 0; i < sizeof builds / sizeof builds[0]; i++)
        if (built[builds[i]] == 0) {
            printf("never hit: refusal %d of profiles_build\n", builds[i]);
            all = false;
        }
    for (size_t i = 0; i < sizeof profiles / sizeof profiles[0]; i++)
        if (found[profiles[i]] == 0) {
            printf("never hit: refusal %d of profile\n", profiles[i]);
            all = false;
        }
    return all;
}

static void print_counts(void)
{
    puts("| Refusal | profiles_build | profile |\n|---|---|---|");
    for (int i = 0; i < 64; i++)
        if (built[i] + found[i] > 0)
            printf("| %d | %" PRIu64 " | %" PRIu64 " |\n", i, built[i], found[i]);
    printf("\nprofiles of the brand %" PRIu64 ", of the house %" PRIu64 ", none %" PRIu64 "\n", from_brand, from_house, from_none);
}

int main(int argc, char **argv)
{
    uint64_t cases = argc > 1 ? strtoull(argv[1], NULL, 10) : 10000;
    seed = argc > 2 ? strtoull(argv[2], NULL, 10) : 1;
    if (argc > 3 || cases == 0) {
        fputs("usage: profiles [CASES [SEED]]\n", stderr);
        return 2;
    }
    for (number = 1; number <= cases; number++)
        run_case();
    print_counts();
    if (cases >= FULL_RUN && !all_arose())
        return 1;
    printf("%" PRIu64 " cases of seed %" PRIu64 "\n0 differences\n", cases, seed);
    return 0;
}
