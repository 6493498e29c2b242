/* The Cancel key. Reads a case file, its first list the numerator and its second the denominator, from standard input and prints the reduced
 * transfer function: number, list, place, d, bad, unlucky, kept, count of terms of the numerator, count of terms of the denominator, steps of trial
 * division. Then, if accepted, the numerator over the denominator: a line for each term (coefficient, then the exponents of x, y, z, w), with the
 * line '-----' between the two. A reader's refusal is number, list, place and seven zeros. No division is cut short. */
#include "balungkiro.h"

#include <stdio.h>

/* What is lent: static, so that it is not on the stack. */
static uint8_t file[BALUNGKIRO_FILE];
static uint32_t numerator[BALUNGKIRO_TERMS], denominator[BALUNGKIRO_TERMS];
static uint32_t numerator_out[BALUNGKIRO_QUOTIENT], denominator_out[BALUNGKIRO_QUOTIENT];
static uint16_t skeleton[BALUNGKIRO_KEYS], points[BALUNGKIRO_POINT_NUMBERS], work[BALUNGKIRO_WORK];

static void print_terms(const uint32_t *terms, size_t count)
{
    size_t i;
    for (i = 0; i < count; i++) {
        unsigned key = terms[i] >> 16, coefficient = terms[i] & 0xffff;
        printf("%u %u %u %u %u\n", coefficient, key >> 9, key >> 6 & 7, key >> 3 & 7, key & 7);
    }
}

int main(void)
{
    size_t read[8], found[10], i;
    balungkiro_read(file, fread(file, 1, sizeof file, stdin), numerator, denominator, skeleton, points, read);
    if (read[0] != 0) {
        printf("%zu %zu %zu 0 0 0 0 0 0 0\n", read[0], read[1], read[2]);
        return 0;
    }
    balungkiro_cancel((uint16_t)read[3], numerator, read[4], denominator, read[5], skeleton, read[6], points, read[7],
                      BALUNGKIRO_MOST_STEPS, numerator_out, BALUNGKIRO_QUOTIENT, denominator_out, BALUNGKIRO_QUOTIENT, work, BALUNGKIRO_WORK, found);
    for (i = 0; i < 10; i++)
        printf(i == 0 ? "%zu" : " %zu", found[i]);
    printf("\n");
    if (found[0] != 0)
        return 0;
    print_terms(numerator_out, found[7]);
    printf("-----\n");
    print_terms(denominator_out, found[8]);
    return 0;
}
