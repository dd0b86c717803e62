/* The index generation unit for C: a list of k different vectors of n bits, numbered 1 to k, turned into three small tables
 * H, G and AUX, so that a key gives its number, or 0, with one addition.
 *
 * The functions are proved, in crate bridge, igu_add in crate adding and those for profile keys in crate engine, each with its archive;
 * docs/PROMISES.md names the definition that each one equals. The refusals are those of README.md. None has a condition on numbers: every
 * call ends, with an answer or a refusal, if the caller keeps to this:
 *
 * Memory. Every pointer is aligned and not null, also with length 0, and is good for as many elements as its length says (or 40, 24, 5
 * or 1, as the declaration says). Memory that a call writes overlaps no other memory of that call.
 *
 * Stack. A call needs at most this much of it: igu_profiles_build 90 KB, igu_build 80 KB, igu_build_given 20 KB, igu_lookup_many 18 KB,
 * igu_add 16 KB, igu_write 3 KB, igu_read, igu_recover, igu_lookup and igu_profile 2 KB; while rows are placed, a build has at most 4 KB in
 * use, and igu_profiles_build 8 KB more for its keys. With less it can end the process, as igu_build does on a stack of 64 KB.
 * docs/FIGURES.md has what was measured.
 *
 * Threads. The functions keep nothing between calls. Calls may run in several threads at once, as long as no call writes memory that
 * another one is using: each build has a record and tables of its own; the other calls may share those of a build that has ended, each
 * recovery with its own place for the vector, each lookup of many keys with its own indices, each write with a file of its own. A read
 * has a record and tables of its own, as a build has, and an addition has those that it amends to itself. */
#ifndef IGU_H
#define IGU_H

#include <stddef.h>
#include <stdint.h>

#ifdef __cplusplus
extern "C" {
#endif

/* The record of a unit, which the builds write, igu_add amends and the others read:
 *   [0] n          inputs, 1 to 64
 *   [1] p          variables
 *   [2] n1         row variables, the first n1 of the p
 *   [3] k          vectors, 1 to 1,023
 *   [4] L          cells of G, 1 to 8,192
 *   [5] kept       the kept inputs as a mask, bit i - 1 for x_i
 *   [6] tries      displacements tried
 *   [7] excess     p minus the smallest m with 2^m >= k, in two's complement; 0 or more as a build leaves it
 *   [8] to [31]    the variables, i + 256 * j + 65536 * part; j is 0 for the single input x_i, part is 0 for row and 1 for column;
 *                  0 where unused
 *   [32] mark      0 as a build leaves it, 1 where vectors were added since; read as 1 where it is any other number but 0
 *   [33] to [39]   written as 0, never read */
#define IGU_RECORD_WORDS 40
#define IGU_VARIABLES 24

/* Chooses variables of degree 1 (x_i) or 2 (also x_i XOR x_j) that tell the k vectors apart, and builds the unit with G of L cells.
 * Needs h_len >= 2^n1 (4,096 always suffices), g_len >= L and aux_len >= k + 1. While rows are placed it tries no more displacements
 * than allowance says; k * (k + 1) / 2 are enough for every list, and UINT64_MAX is no limit.
 * Returns refusal + 256 * place + 2^32 * needed: on 13 the place is the row that has none, and needed the least L with which it would
 * have one after the same earlier rows; on 41 the place is the row in hand when more would be tried than are allowed. needed is 0 in
 * every result but 13, and below 2^14. The result 0 is acceptance: record holds the unit, H[0..2^n1), G[0..L) and AUX[0..k] hold its
 * tables. On any refusal record is all 0. Refusals 1 to 12 leave the tables as they were, 13 and 41 leave those ranges 0. No other word
 * is written. */
uint64_t igu_build(size_t n, size_t degree, size_t L, uint64_t allowance, const uint64_t *vectors, size_t k, uint16_t *h, size_t h_len,
                   uint16_t *g, size_t g_len, uint64_t *aux, size_t aux_len, uint64_t record[IGU_RECORD_WORDS]);

/* The same with the caller's variables, p of them, the first n1 for the rows. A variable's word is as in the record; its part is not
 * read. A word above 2^17 - 1 is a faulty variable, refusal 8. Words past the first p do not matter. */
uint64_t igu_build_given(size_t n, size_t p, size_t n1, size_t L, uint64_t allowance, const uint64_t variables[IGU_VARIABLES],
                         const uint64_t *vectors, size_t k, uint16_t *h, size_t h_len, uint16_t *g, size_t g_len, uint64_t *aux,
                         size_t aux_len, uint64_t record[IGU_RECORD_WORDS]);

/* Returns refusal + 256 * index; beside a refusal the index is 0, so take the two apart. With record and tables as a build left them:
 * the index i, 1 to k, exactly when x is vector i in every bit; 0 where x is no vector of the list; refusal 6 where x has a bit beyond
 * n. With any other record and tables: refusal 14, or the answer that the rules give (docs/SCOPE.md, 9), which can be wrong for the
 * list. README.md says which damage 14 sees; beside that, 14 is given where any of the 24 variable words is above 2^17 - 1. Writes
 * nothing. */
uint64_t igu_lookup(const uint64_t record[IGU_RECORD_WORDS], const uint16_t *h, size_t h_len, const uint16_t *g, size_t g_len,
                    const uint64_t *aux, size_t aux_len, uint64_t x);

/* Looks up count keys in one call, each as igu_lookup does, and writes indices[j], the index of keys[j] or 0 beside a refusal, for each j
 * below count, and nothing else. Returns refusal + 256 * place of the first key that is refused, its place counted from 1; 0 where none is.
 * Where indices_len is less than count: refusal 20, place 0, and nothing is written. The record and the tables are tested once, so that
 * many keys take far less time than as many calls of igu_lookup. */
uint64_t igu_lookup_many(const uint64_t record[IGU_RECORD_WORDS], const uint16_t *h, size_t h_len, const uint16_t *g, size_t g_len,
                         const uint64_t *aux, size_t aux_len, const uint64_t *keys, size_t count, uint16_t *indices,
                         size_t indices_len);

/* Returns the refusal, and writes the vector with number i, or 0 beside a refusal. With record and tables as a build left them: vector
 * i of the list for i of 1 to k, refusal 15 for any other i. With any other record and tables as for igu_lookup, by docs/SCOPE.md, 10.
 * Writes nothing else. */
uint64_t igu_recover(const uint64_t record[IGU_RECORD_WORDS], const uint16_t *h, size_t h_len, const uint16_t *g, size_t g_len,
                     const uint64_t *aux, size_t aux_len, size_t i, uint64_t vector[1]);

/* Adds x to the list of a unit, with the number k + 1. Needs aux_len >= k + 2. Returns refusal + 256 * place. The result 0 is acceptance:
 * with record and tables as a build or igu_read left them, or an addition to such, they hold the list with x at its end. If the cell that
 * x leads to is free, that cell of G and AUX[k + 1] are written; otherwise the row of x is lifted and put where it fits with x in it, so
 * that a word of H and the cells of that row are written too. In the record k is one more, the excess is the one for so many, the mark is
 * 1, words [33] to [39] are 0, and all else stays, the tries too. On a refusal no word is written, of the record neither. Refusals: 14
 * the unit is not well formed, some vector cannot be recovered, or any of the 24 variable words is above 2^17 - 1; 6 x has a bit beyond n,
 * place k + 1; 40 x is a vector of the list already, place its number; 3 k is 1,023; 5 aux_len is too small; 10 x agrees with a vector on
 * every variable, place k + 1; 13 the row of x has no displacement, place that row. */
uint64_t igu_add(uint64_t record[IGU_RECORD_WORDS], uint16_t *h, size_t h_len, uint16_t *g, size_t g_len, uint64_t *aux, size_t aux_len,
                 uint64_t x);

/* A file is made of blocks: the head, with the numbers, the variables and the mark of the record, then H[0..2^n1), G[0..L) and AUX[0..k],
 * each from a block of its own, 252 words of H or G or 63 of AUX in a block. Every block ends with two checks on its other bytes. No file
 * has more than 68 blocks. */
#define IGU_BLOCK_BYTES 512
#define IGU_FILE_BYTES (68 * IGU_BLOCK_BYTES)

/* Writes a sound unit (docs/SCOPE.md, 13.2) as a file and returns refusal + 256 * bytes, the file having so many bytes; beside a refusal
 * they are 0 and nothing is written. Refusal 14: the unit is not sound, or any of the 24 variable words is above 2^17 - 1; refusal 20:
 * file_len is less than the file needs (IGU_FILE_BYTES always suffices). The excess, the part marks, what stands in unused variable words
 * and tries beyond 32 bits do not come into the file. Bytes of the target past the file keep their value. */
uint64_t igu_write(const uint64_t record[IGU_RECORD_WORDS], const uint16_t *h, size_t h_len, const uint16_t *g, size_t g_len,
                   const uint64_t *aux, size_t aux_len, uint8_t *file, size_t file_len);

/* Reads a file into a record and tables, and returns the refusal. It accepts the files that igu_write gives and no other. On acceptance
 * record has n, p, n1, k, L, tries, the variables and the mark of the file, part marks by n1, kept inputs and excess as a build works them
 * out, and H[0..2^n1), G[0..L) and AUX[0..k] have the words of the file; so lookups and recoveries answer as they did on the unit written.
 * No other word is written. On a refusal record is all 0 and the tables are as they were. Refusal 21: file_len is 0 or no multiple of 512;
 * 22: a block's check is wrong; 23: anything else in the file is wrong; 24: h_len, g_len or aux_len is less than the unit needs (4,096,
 * 8,192 and 1,024 always suffice). */
uint64_t igu_read(const uint8_t *file, size_t file_len, uint16_t *h, size_t h_len, uint16_t *g, size_t g_len, uint64_t *aux,
                  size_t aux_len, uint64_t record[IGU_RECORD_WORDS]);

/* The key of a profile, for the separation engine, is five words: press (8 bits), ink (12), substrate (12), screen (8) and the calibration
 * day, counted from 1 January 2000 (16). A field may be over its width, which is refused. */
#define IGU_KEY_WORDS 5

/* Builds the unit of a list of keys, as igu_build does for their words: n is 56, and the fields stand side by side in the order above,
 * press from bit 0. Needs, returns and leaves what igu_build does; before any other refusal it gives 30, place 0, where a key has a field
 * over its width. The refusals 1 and 6 do not arise. */
uint64_t igu_profiles_build(size_t degree, size_t L, uint64_t allowance, const uint32_t (*keys)[IGU_KEY_WORDS], size_t count,
                            uint16_t *h, size_t h_len, uint16_t *g, size_t g_len, uint64_t *aux, size_t aux_len,
                            uint64_t record[IGU_RECORD_WORDS]);

/* Says where the profile of a key is. The brand owner's slab and the house's each have profiles of equal length, size bytes, one for each
 * key of their unit, in the order of its list. Returns refusal + 256 * number + 2^32 * slab: the profile with this number, from 1, begins
 * (number - 1) * size bytes into the brand's slab where slab is 1 and the house's where it is 0. With units as igu_profiles_build left
 * them, or as igu_read gave them back: the number of the key in the brand's list; in the house's list where the brand's has not got it; 0,
 * and slab 0, where neither has. Refusals, beside which number and slab are 0: 30 a field over its width; 31 a size of 0, or a slab with
 * fewer profiles than its record says keys, either slab; then those of igu_lookup, the brand's before the house's. Reads no byte of a slab,
 * and writes nothing. */
uint64_t igu_profile(const uint64_t brand[IGU_RECORD_WORDS], const uint16_t *brand_h, size_t brand_h_len, const uint16_t *brand_g,
                     size_t brand_g_len, const uint64_t *brand_aux, size_t brand_aux_len, const uint8_t *brand_slab,
                     size_t brand_slab_len, size_t brand_size, const uint64_t house[IGU_RECORD_WORDS], const uint16_t *house_h,
                     size_t house_h_len, const uint16_t *house_g, size_t house_g_len, const uint64_t *house_aux, size_t house_aux_len,
                     const uint8_t *house_slab, size_t house_slab_len, size_t house_size, const uint32_t key[IGU_KEY_WORDS]);

#ifdef __cplusplus
}
#endif

#endif
