/* Plans 53 and writes it twice at width 8: for a meter whose bits are the panel model's variables 21 to 28, of which 100 are taken, and
   over the variables 1 to 8. Prints the counts of both, what the first one's clauses alone say of a count of 200 pulses, and which line of
   a recipe with a slip is bad. */
#include <inttypes.h>
#include <stdio.h>

#include "ladlebean.h"

static uint8_t work[LADLEBEAN_WORK], recipe[LADLEBEAN_RECIPE];
static int32_t bits[LADLEBEAN_BITS], words[LADLEBEAN_WORDS];

static const int32_t meter[8] = {21, 22, 23, 24, 25, 26, 27, 28};

/* What a call told. */
struct told {
    uint64_t words, clauses, next, bits, line;
    int64_t value;
};

/* Prints why a call refused its recipe; nothing if it did not. */
static int refuses(uint64_t refused, const uint8_t *lines, const struct told *t) {
    if (!refused) return 0;
    printf("refused %" PRIu64, refused);
    if (t->line) printf(": line %" PRIu64, t->line);
    if (refused == 7) {
        const uint8_t *five = lines + LADLEBEAN_LINE_BYTES * (t->line - 1);
        printf(" gives %" PRId64 ", claims %d", t->value, (five[2] & 15) << 16 | five[3] << 8 | five[4]);
    }
    printf("\n");
    return 1;
}

static int show(uint64_t refused, const char *over, const struct told *t) {
    if (refuses(refused, recipe, t)) return 1;
    printf("over %s: %" PRIu64 " words, %" PRIu64 " clauses, next free number %" PRIu64 ", y is", over, t->words, t->clauses, t->next);
    for (uint64_t i = 0; i < t->bits; i++) printf(" %" PRId32, bits[i]);
    printf("\n");
    return 0;
}

/* One pass over the words, with the meter's bits given as those of the count: y's bits are then read off the values. */
static int read_off(uint32_t count, const struct told *t) {
    static uint8_t values[1000];
    int32_t given[8];
    uint64_t clauses_read, y = 0;
    for (int i = 0; i < 8; i++) given[i] = count >> i & 1 ? meter[i] : -meter[i];
    for (size_t v = 0; v < t->next - 1; v++) values[v] = LADLEBEAN_UNKNOWN;
    uint64_t refused = ladlebean_propagate(words, t->words, given, 8, t->clauses, values, t->next - 1, &clauses_read);
    if (refused) {
        printf("refused %" PRIu64 "\n", refused);
        return 1;
    }
    for (uint64_t i = 0; i < t->bits; i++) {
        int32_t bit = bits[i];
        if (bit > 0) y |= (uint64_t)(values[bit - 1] == LADLEBEAN_TRUE) << i;
        if (bit < 0) y |= (uint64_t)(values[-bit - 1] == LADLEBEAN_FALSE) << i;
    }
    printf("a pass over %" PRIu64 " clauses with the count %" PRIu32 ": y is %" PRIu64 "\n", clauses_read, count, y);
    return 0;
}

/* 49 with a slip: line 2 adds 15 to 64. */
static const uint8_t slip[10] = {0x40, 0x10, 0x00, 0x00, 0x0F, 0x20, 0x18, 0x10, 0x00, 0x31};

int main(void) {
    uint64_t lines;
    struct told t;
    uint64_t refused = ladlebean_plan(53, work, sizeof work, recipe, sizeof recipe, &lines);
    if (refused) {
        printf("refused %" PRIu64 "\n", refused);
        return 1;
    }
    size_t length = LADLEBEAN_LINE_BYTES * lines;
    if (refuses(ladlebean_check(53, recipe, length, &t.line, &t.value), recipe, &t)) return 1;
    refused = ladlebean_write(53, 8, meter, 8, 101, recipe, length, bits, LADLEBEAN_BITS, words, LADLEBEAN_WORDS,
                              &t.words, &t.clauses, &t.next, &t.bits, &t.line, &t.value);
    if (show(refused, "21 to 28", &t) || read_off(200, &t)) return 1;
    refused = ladlebean_write_plain(53, 8, recipe, length, bits, LADLEBEAN_BITS, words, LADLEBEAN_WORDS,
                                    &t.words, &t.clauses, &t.next, &t.bits, &t.line, &t.value);
    if (show(refused, "1 to 8", &t)) return 1;
    return !refuses(ladlebean_check(49, slip, sizeof slip, &t.line, &t.value), slip, &t);
}
