/* Reads a case file from standard input and prints its common divisor, as the program `candidate` does:
 * number, list, place, d, bad, unlucky, kept; then, if accepted, a line for each term: coefficient, then the exponents of x, y, z, w. */
#include "balungkiro.h"

#include <stdio.h>

/* What is lent: static, so that it is not on the stack. */
static uint8_t file[BALUNGKIRO_FILE];
static uint32_t first[BALUNGKIRO_TERMS], second[BALUNGKIRO_TERMS], out[BALUNGKIRO_KEYS];
static uint16_t skeleton[BALUNGKIRO_KEYS], points[BALUNGKIRO_POINT_NUMBERS], work[BALUNGKIRO_WORK];

static void print_term(uint32_t term)
{
    unsigned key = term >> 16, coefficient = term & 0xffff;
    printf("%u %u %u %u %u\n", coefficient, key >> 9, key >> 6 & 7, key >> 3 & 7, key & 7);
}

int main(void)
{
    size_t read[8], found[9], i;
    balungkiro_read(file, fread(file, 1, sizeof file, stdin), first, second, skeleton, points, read);
    if (read[0] != 0) {
        printf("%zu %zu %zu 0 0 0 0\n", read[0], read[1], read[2]);
        return 0;
    }
    balungkiro_candidate((uint16_t)read[3], first, read[4], second, read[5], skeleton, read[6], points, read[7],
                         BALUNGKIRO_MOST_STEPS, out, BALUNGKIRO_KEYS, work, BALUNGKIRO_WORK, found);
    printf("%zu %zu %zu %zu %zu %zu %zu\n", found[0], found[1], found[2], found[3], found[4], found[5], found[6]);
    for (i = 0; i < found[7]; i++)
        print_term(out[i]);
    return 0;
}
