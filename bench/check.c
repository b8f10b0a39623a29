/* check REPEATS: what check.h says, by the archive's check. */
#include <stdint.h>
#include <stdio.h>
#include <stdlib.h>

#include "ladlebean.h"

#define CHECK(c, recipe, length, line, value) ladlebean_check(c, recipe, length, line, value)
#include "check.h"

int main(int argc, char **argv) {
    return argc == 2 ? check_stream(strtoul(argv[1], 0, 10)) : 2;
}
