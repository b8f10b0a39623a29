/* Reads records (c 4 bytes, recipe length 1, recipe), checks each REPEATS times by CHECK, and prints a sum over what was told. */
#include <inttypes.h>

static int check_stream(uint32_t repeats) {
    static uint8_t in[1 << 16];
    size_t n = fread(in, 1, sizeof in, stdin);
    uint64_t total = 0;
    for (uint32_t k = 0; k < repeats; k++)
        for (size_t at = 0; at + 5 <= n; at += 5 + in[at + 4]) {
            uint32_t c = (uint32_t)in[at] << 24 | in[at + 1] << 16 | in[at + 2] << 8 | in[at + 3];
            uint64_t line;
            int64_t value;
            uint64_t number = CHECK(c, in + at + 5, in[at + 4], &line, &value);
            total = total * 31 + number + 32 * line + 4096 * (uint64_t)value;
        }
    printf("%" PRIu64 "\n", total);
    return 0;
}
