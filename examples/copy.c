/* Reads a case file from standard input, writes what was read, and compares the two files: prints 'same' and the number of bytes.
 * A refusal is printed as number and place. The exit status is 1 if the files differ, which the library rules out. */
#include "balungkiro.h"

#include <stdio.h>
#include <string.h>

/* What is lent: static, so that it is not on the stack. */
static uint8_t file[BALUNGKIRO_FILE], copy[BALUNGKIRO_MOST_BYTES];
static uint32_t first[BALUNGKIRO_TERMS], second[BALUNGKIRO_TERMS];
static uint16_t skeleton[BALUNGKIRO_KEYS], points[BALUNGKIRO_POINT_NUMBERS];

int main(void)
{
    size_t count = fread(file, 1, sizeof file, stdin), read[8], written[4];
    balungkiro_read(file, count, first, second, skeleton, points, read);
    if (read[0] != 0) {
        printf("%zu %zu\n", read[0], read[2]);
        return 0;
    }
    balungkiro_write((uint16_t)read[3], first, read[4], second, read[5], skeleton, read[6], points, read[7], copy, sizeof copy, written);
    if (written[0] != 0 || written[3] != count || memcmp(copy, file, count) != 0) {
        printf("different\n");
        return 1;
    }
    printf("same %zu\n", count);
    return 0;
}
