/* Constant products as SAT clauses: the archive's entry points (target/staticlib/libladlebean.a, by `tools/staticlib`; x86-64).

   Each call answers 0, or the number of its refusal (docs/REFUSALS.md), and leaves each field of its answer where a pointer says: one
   number each, written in success and in every refusal. A refusal leaves every room as it came and every count 0. `*line` is 0 but in a
   refusal of a recipe's line, 4 to 7: there it is the first bad line's number, from 1. `*value` is 0 but in a 7: there it is what this line
   really gives, which may be negative.

   Every c, w, x, first, recipe, list of words and room is taken. What C has to see to: no pointer to a field is null; a room's or list's
   pointer is good for its length (with length 0 it is not read); and nothing that a call writes overlaps anything else handed to it. */
#ifndef LADLEBEAN_H
#define LADLEBEAN_H

#include <stddef.h>
#include <stdint.h>

#ifdef __cplusplus
extern "C" {
#endif

/* The largest constant, the largest width, and the most that a next free number may be. */
#define LADLEBEAN_MOST_CONSTANT 65535
#define LADLEBEAN_MOST_WIDTH 16
#define LADLEBEAN_MOST_NEXT 2147483648

/* The bytes of a recipe's line, and the most lines of a recipe. */
#define LADLEBEAN_LINE_BYTES 5
#define LADLEBEAN_MOST_LINES 32

/* The largest coefficient that a line can claim. */
#define LADLEBEAN_MOST_COEFFICIENT 1048575

/* The values of a variable in a value room. */
#define LADLEBEAN_FALSE 0
#define LADLEBEAN_TRUE 1
#define LADLEBEAN_UNKNOWN 2

/* Rooms that are never too short. */
#define LADLEBEAN_WORK 32768
#define LADLEBEAN_RECIPE 40
#define LADLEBEAN_BITS 32
#define LADLEBEAN_WORDS 73728

/* Plans the recipe for c. Refusals 1, 11, 12. After success the front of `work` holds the split of each odd number of at most as many
   bits as c's odd part has, the front of `recipe` five bytes for each line, and `*lines` is the number of lines. */
uint64_t ladlebean_plan(uint64_t c, uint8_t *work, size_t work_length, uint8_t *recipe, size_t recipe_length, uint64_t *lines);

/* Whether a recipe is right for c. Refusals 1, 3, 4 to 7, 8. */
uint64_t ladlebean_check(uint64_t c, const uint8_t *recipe, size_t recipe_length, uint64_t *line, int64_t *value);

/* Writes the clauses of an accepted recipe for y = c * x, x of w bits: w literals of distinct variables below the first free number,
   lowest bit first; a negated bit is a negative literal. New variables are numbered from `first` on. Refusals 1, 2, 14, 3, 4 to 7, 8, 15,
   9, 10. After success the front of `bits` holds y, lowest bit first, each as its literal or 0 if it is always 0; the front of `clauses`
   holds the clauses, each closed by a 0; and the fields are the words used, the clauses, the next free number and the bits of y. The next
   product of the same model takes that next free number as its first; after a refusal keep the one from before, since the field is 0. */
uint64_t ladlebean_write(uint64_t c, uint32_t w, const int32_t *x, size_t x_length, uint32_t first, const uint8_t *recipe,
                         size_t recipe_length, int32_t *bits, size_t bits_length, int32_t *clauses, size_t clauses_length,
                         uint64_t *words_used, uint64_t *clauses_written, uint64_t *next_free, uint64_t *y_bits, uint64_t *line,
                         int64_t *value);

/* The same where x is the variables 1 to w and the first free number is w + 1. Refusals 1, 2, 3, 4 to 7, 8, 9, 10. */
uint64_t ladlebean_write_plain(uint64_t c, uint32_t w, const uint8_t *recipe, size_t recipe_length, int32_t *bits, size_t bits_length,
                               int32_t *clauses, size_t clauses_length, uint64_t *words_used, uint64_t *clauses_written,
                               uint64_t *next_free, uint64_t *y_bits, uint64_t *line, int64_t *value);

/* One pass over words that believes only the clauses. Takes the given literals as true and reads the clauses of `words` once, in order, each for
   one of the allowance; a clause whose literals are false but for one unknown literal, perhaps repeated, sets it. `values` has one byte for
   each variable, that of v at v - 1, and comes in all LADLEBEAN_UNKNOWN. Refusals: 26; then at each clause 20, 21, 22. After success `values` holds
   what was given and what the clauses set, and `*clauses_read` is their number; in a refusal it is 0. Hand over only the words that were used: a 0 behind
   them is an empty clause, which is a conflict. */
uint64_t ladlebean_propagate(const int32_t *words, size_t words_length, const int32_t *given, size_t given_length, uint64_t allowance,
                             uint8_t *values, size_t values_length, uint64_t *clauses_read);

#ifdef __cplusplus
}
#endif

#endif
