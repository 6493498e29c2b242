/* Asks each service of the library where it answers and where it refuses, and prints the records with what is left in the buffers. Each of
 * the six lists is refused, and the place 1 is that of a term of the first, a term of the second, a key and a coordinate.
 * A = x^2 y - y and B = x + 1 modulo 17: A over B is xy - y. At y = 0 A is 0, and the x-leading coefficient of C = x^2 y + 5x + 5 is.
 * D = 3x^2 + 6x + 3 is 3B^2: with B struck out, A over D is 6xy - 6y over x + 1.
 * Trial division of A by B takes two steps, that of B by B one, that of D by B two. A over x^2 + 2x + 1 is refused after one step. */
#include "balungkiro.h"

#include <stdio.h>
#include <string.h>

enum { X = 512, Y = 64, P = 17 };

#define TERM(key, coefficient) ((uint32_t)(key) * 65536 + (coefficient))
#define COUNT(list) (sizeof(list) / sizeof *(list))

static const uint32_t A[] = { TERM(2 * X + Y, 1), TERM(Y, 16) };
static const uint32_t B[] = { TERM(X, 1), TERM(0, 1) };
static const uint32_t C[] = { TERM(2 * X + Y, 1), TERM(X, 5), TERM(0, 5) };
static const uint32_t D[] = { TERM(2 * X, 3), TERM(X, 6), TERM(0, 3) };

static void print_record(const char *call, const size_t *record, size_t count)
{
    size_t i;
    printf("%s:", call);
    for (i = 0; i < count; i++)
        printf(" %zu", record[i]);
    printf("\n");
}

/* The image at a point; the eight numbers are 9 before the call. */
static void image(const char *call, const uint32_t *first, size_t m, const uint32_t *second, size_t n, const uint16_t *point, size_t count)
{
    uint16_t u[BALUNGKIRO_COEFFICIENTS] = { 9, 9, 9, 9, 9, 9, 9, 9 };
    size_t record[4], i;
    balungkiro_image(P, first, m, second, n, point, count, u, record);
    print_record(call, record, COUNT(record));
    for (i = 0; i < COUNT(u); i++)
        printf("%s%u", i == 0 ? "  coefficients " : " ", u[i]);
    printf("\n");
}

/* First over second, in an output and a work room whose numbers are 9 before the call, with one number more than is used. */
static void quotient(const char *call, const uint32_t *first, size_t m, const uint32_t *second, size_t n, size_t room)
{
    static uint32_t out[BALUNGKIRO_QUOTIENT + 1];
    static uint16_t work[BALUNGKIRO_WORK + 1];
    size_t record[4], i, left = 0, nonzero = 0;
    for (i = 0; i < COUNT(out); i++)
        out[i] = 9;
    for (i = 0; i < COUNT(work); i++)
        work[i] = 9;
    balungkiro_quotient(P, first, m, second, n, out, COUNT(out), work, room, record);
    print_record(call, record, COUNT(record));
    for (i = 0; i < record[3]; i++)
        printf("  term %lu\n", (unsigned long)out[i]);
    for (i = record[3]; i < COUNT(out); i++)
        left += out[i] == 9;
    for (i = 0; i < COUNT(work); i++)
        nonzero += work[i] != 0;
    printf("  %zu left in the output, %zu not 0 in the work room\n", left, nonzero);
}

/* The common divisor of A and B in two monomials, in an output whose two numbers are 9 before the call. */
static void candidate(const char *call, const uint16_t skeleton[2], size_t ceiling, size_t room)
{
    static const uint16_t points[] = { 0, 0, 0, 1, 0, 0 };
    static uint16_t work[BALUNGKIRO_WORK];
    uint32_t out[2] = { 9, 9 };
    size_t record[9];
    balungkiro_candidate(P, A, COUNT(A), B, COUNT(B), skeleton, 2, points, COUNT(points), ceiling,
                         out, room, work, COUNT(work), record);
    print_record(call, record, COUNT(record));
    printf("  output %lu %lu\n", (unsigned long)out[0], (unsigned long)out[1]);
}

/* The terms of an output of the Cancel key, and how many of its numbers behind them are 9. */
static void print_output(const char *name, const uint32_t *out, size_t terms, size_t count)
{
    size_t i, left = 0;
    printf("  %s", name);
    for (i = 0; i < terms; i++)
        printf(" %lu", (unsigned long)out[i]);
    for (i = terms; i < count; i++)
        left += out[i] == 9;
    printf(" | %zu left\n", left);
}

/* The Cancel key on A over D, with the powers of x from a degree down to 1 as skeleton and the points y = 0, 1, or the first of them. The numbers of
 * the outputs and of the work room are 9 before the call, and each has one number more than is used. */
static void cancel(const char *call, size_t degree, size_t point_count, size_t ceiling, size_t numerator_room, size_t denominator_room)
{
    static const uint16_t powers[] = { 2 * X, X, 0 }, points[] = { 0, 0, 0, 1, 0, 0 };
    static uint32_t numerator[BALUNGKIRO_QUOTIENT + 1], denominator[BALUNGKIRO_QUOTIENT + 1];
    static uint16_t work[BALUNGKIRO_WORK + 1];
    size_t record[10], i, nonzero = 0;
    for (i = 0; i < COUNT(numerator); i++)
        numerator[i] = denominator[i] = 9;
    for (i = 0; i < COUNT(work); i++)
        work[i] = 9;
    balungkiro_cancel(P, A, COUNT(A), D, COUNT(D), powers + 2 - degree, degree + 1, points, 3 * point_count, ceiling,
                      numerator, numerator_room, denominator, denominator_room, work, COUNT(work), record);
    print_record(call, record, COUNT(record));
    print_output("numerator", numerator, record[7], COUNT(numerator));
    print_output("denominator", denominator, record[8], COUNT(denominator));
    for (i = 0; i < COUNT(work); i++)
        nonzero += work[i] != 0;
    printf("  %zu not 0 in the work room\n", nonzero);
}

static void list(const char *call, const uint32_t *terms, size_t count)
{
    size_t record[3];
    balungkiro_check_list(terms, count, record);
    print_record(call, record, COUNT(record));
    printf("  leading part %zu\n", balungkiro_leading_part(terms, count));
}

static void lists(const char *call, const uint32_t *first, size_t m, const uint32_t *second, size_t n)
{
    size_t record[3], part[2];
    balungkiro_check_lists(first, m, second, n, record);
    print_record(call, record, COUNT(record));
    balungkiro_shorter_part(first, m, second, n, part);
    print_record("  shorter leading part", part, COUNT(part));
}

static void arithmetic(uint16_t modulus, uint16_t value, uint16_t other_modulus, uint16_t other_value)
{
    size_t record[5];
    printf("%u and %u modulo %u and %u\n", value, other_value, modulus, other_modulus);
    balungkiro_sum(modulus, value, other_modulus, other_value, record);
    print_record("  sum", record, COUNT(record));
    balungkiro_difference(modulus, value, other_modulus, other_value, record);
    print_record("  difference", record, COUNT(record));
    balungkiro_product(modulus, value, other_modulus, other_value, record);
    print_record("  product", record, COUNT(record));
    balungkiro_inverse(modulus, value, record);
    print_record("  inverse", record, COUNT(record));
}

/* Reads a part of a case file with modulus 17 and the one term x^2, and a byte after the end, into arrays whose numbers are not 0 before the call. */
static void file(const char *call, size_t count)
{
    static const uint8_t bytes[] = { 1, 17, 0, 2, 1, 0, 0, 4, 6, 0 };
    uint32_t first[BALUNGKIRO_TERMS], second[BALUNGKIRO_TERMS];
    uint16_t skeleton[BALUNGKIRO_KEYS], points[BALUNGKIRO_POINT_NUMBERS];
    size_t record[8], i, nonzero = 0;
    memset(first, 9, sizeof first);
    memset(second, 9, sizeof second);
    memset(skeleton, 9, sizeof skeleton);
    memset(points, 9, sizeof points);
    balungkiro_read(bytes, count, first, second, skeleton, points, record);
    print_record(call, record, COUNT(record));
    for (i = 0; i < COUNT(first); i++)
        nonzero += (first[i] != 0) + (second[i] != 0);
    for (i = 0; i < COUNT(skeleton); i++)
        nonzero += skeleton[i] != 0;
    for (i = 0; i < COUNT(points); i++)
        nonzero += points[i] != 0;
    printf("  first term %lu, %zu not 0 in the arrays\n", (unsigned long)first[0], nonzero);
}

/* Writes the file that `file` reads, with some point numbers, into the first bytes of a buffer whose bytes are 9 before the call. */
static void writing(const char *call, size_t point_numbers, size_t room)
{
    static const uint32_t first[] = { TERM(2 * X, 1) }, second[] = { 0 };
    static const uint16_t skeleton[] = { 0 }, points[] = { 1, 2, 65535 };
    uint8_t buffer[17];
    size_t record[4], i;
    memset(buffer, 9, sizeof buffer);
    balungkiro_write(P, first, COUNT(first), second, 0, skeleton, 0, points, point_numbers, buffer, room, record);
    print_record(call, record, COUNT(record));
    for (i = 0; i < COUNT(buffer); i++)
        printf("%s%u", i == 0 ? "  bytes " : " ", buffer[i]);
    printf("\n");
}

static void images(void)
{
    static const uint16_t one[] = { 1, 0, 0 }, zero[] = { 0, 0, 0 }, large[] = { 1, P, 0 };
    image("image of A and B at y=1", A, COUNT(A), B, COUNT(B), one, COUNT(one));
    image("image of A and B at y=0, where A is 0", A, COUNT(A), B, COUNT(B), zero, COUNT(zero));
    image("image of B and A at y=0", B, COUNT(B), A, COUNT(A), zero, COUNT(zero));
    image("image of C and B at y=0, where C loses its degree", C, COUNT(C), B, COUNT(B), zero, COUNT(zero));
    image("image of A and C at y=0, a bad point", A, COUNT(A), C, COUNT(C), zero, COUNT(zero));
    image("image at two numbers", A, COUNT(A), B, COUNT(B), one, 2);
    image("image at z=17", A, COUNT(A), B, COUNT(B), large, COUNT(large));
}

static void candidates(void)
{
    static const uint16_t falling[] = { X, 0 }, rising[] = { 0, X };
    candidate("candidate of A and B", falling, BALUNGKIRO_MOST_STEPS, 2);
    candidate("candidate with a ceiling of its three steps", falling, 3, 2);
    candidate("candidate with a ceiling of two steps, those of A", falling, 2, 2);
    candidate("candidate with a ceiling of no step", falling, 0, 2);
    candidate("candidate with rising keys", rising, BALUNGKIRO_MOST_STEPS, 2);
    candidate("candidate in a short output", falling, BALUNGKIRO_MOST_STEPS, 1);
}

static void cancels(void)
{
    enum { STEPS = BALUNGKIRO_MOST_STEPS, ROOM = BALUNGKIRO_QUOTIENT };
    cancel("cancel of A over D", 1, 2, STEPS, ROOM + 1, ROOM);
    cancel("cancel with a ceiling of its four steps", 1, 2, 4, ROOM, ROOM);
    cancel("cancel with a ceiling of three steps", 1, 2, 3, ROOM, ROOM);
    cancel("cancel at y=0 alone, where x^2 + 2x + 1 divides D but not A", 2, 1, STEPS, ROOM, ROOM + 1);
    cancel("cancel at y=0 alone with a ceiling of one step", 2, 1, 1, ROOM, ROOM);
    cancel("cancel at y=0 alone with a ceiling of no step", 2, 1, 0, ROOM, ROOM);
    cancel("cancel in a short output for the numerator", 1, 2, STEPS, ROOM - 1, ROOM);
    cancel("cancel in a short output for the denominator", 1, 2, STEPS, ROOM, ROOM - 1);
}

static void leading_parts(void)
{
    static const uint32_t rising[] = { TERM(0, 1), TERM(X, 1) };
    static const uint32_t three[] = { TERM(2 * X + Y, 1), TERM(2 * X, 65535), TERM(X, 1) };
    list("list of three terms", three, COUNT(three));
    list("list with rising keys", rising, COUNT(rising));
    list("list without terms", rising, 0);
    lists("A and B, a tie", A, COUNT(A), B, COUNT(B));
    lists("A and three terms", A, COUNT(A), three, COUNT(three));
    lists("three terms and A", three, COUNT(three), A, COUNT(A));
    lists("no terms and A", rising, 0, A, COUNT(A));
    lists("rising keys and no terms", rising, COUNT(rising), A, 0);
    lists("A and no terms", A, COUNT(A), rising, 0);
    lists("A and rising keys", A, COUNT(A), rising, COUNT(rising));
}

int main(void)
{
    images();
    quotient("A over B", A, COUNT(A), B, COUNT(B), BALUNGKIRO_WORK + 1);
    quotient("B over A", B, COUNT(B), A, COUNT(A), BALUNGKIRO_WORK);
    quotient("A over B in a short work room", A, COUNT(A), B, COUNT(B), BALUNGKIRO_WORK - 1);
    quotient("A over no list", A, COUNT(A), B, 0, BALUNGKIRO_WORK);
    candidates();
    cancels();
    leading_parts();
    arithmetic(17, 5, 17, 9);
    arithmetic(65521, 65520, 65521, 65520);
    arithmetic(7, 0, 13, 3);
    arithmetic(7, 7, 7, 3);
    arithmetic(15, 2, 15, 3);
    file("case file", 9);
    file("case file with a byte after the end", 10);
    file("case file without its end", 8);
    file("case file cut in the term", 7);
    writing("written case file", 0, 9);
    writing("written with a point", 3, 17);
    writing("written into a short buffer", 3, 15);
    writing("written with two point numbers", 2, 17);
    writing("two point numbers and no buffer", 2, 0);
    return 0;
}
