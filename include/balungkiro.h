/* Balungkiro: common divisors of polynomials in x, y, z, w modulo a small prime, and what the rule is built of.
 *
 * Link libhandheld.a, which `rt lib` in crates/handheld proves and writes to its folder out/ (x86-64).
 * The library keeps no state, allocates nothing, prints nothing, and returns from every call.
 *
 * Modulus      one of 7, 13, 17, 101, 32003, 65521; below it is p.
 * Key          of the monomial x^a y^b z^c w^d, each exponent 0 to 7: 512a + 64b + 8c + d.
 * Term         key times 65536, plus the coefficient, 1 to p-1.
 * List         a polynomial: 1 to 256 terms, keys strictly falling.
 * Skeleton     1 to 32 keys, strictly falling.
 * Points       1 to 32 triples y, z, w, flat, each number below p.
 * Step         one term of a quotient, when the divisor that was found is tried: the first list by it, then the second. A look that ends in
 *              "does not divide" is no step.
 * Ceiling      on the steps of both divisions together; it may be any number. 18 comes exactly when a further term is due and the ceiling is
 *              reached. With a higher ceiling any answer other than 18 is unchanged; with BALUNGKIRO_MOST_STEPS or more 18 never comes.
 *
 * A list is passed as a pointer and a count of numbers. Every input is answered: what is wrong is refused by number.
 *
 * The caller's duties, which no contract checks: every pointer, also one beside a count of 0, is not null and aligned for its type; that many
 * numbers stand behind it; and what a call may change (no `const`) overlaps nothing else that is passed to the call.
 *
 * Every record begins with number, list and place; the list is the one at fault, by the numbers BALUNGKIRO_LIST_.. below. Acceptance is 0, 0, 0.
 * A refusal has the first number of this table that applies:
 *
 *    1       modulus not in the list                                             list 0     place 0
 *    2, 4    first, second list has 0 or more than 256 terms                     list 1, 2  place 0
 *    3, 5    a term of first, second has key above 4095, coefficient 0 or
 *            at least p, or a key not below the one before                       list 1, 2  first such term
 *    6       skeleton has 0 or more than 32 keys                                 list 3     place 0
 *    7       skeleton key above 4095 or not below the one before                 list 3     first such key
 *    8       point numbers: none, more than 96, or not a multiple of 3           list 4     place 0
 *    9       a point number is at least p                                        list 4     first such number
 *    10      output too short                                                    list 5     place 0
 *    11      work room shorter than 8192 numbers                                 list 6     place 0
 *    12      no good point: both x-leading coefficients are 0 at each            list 0     place 0
 *    13, 14  equations have no solution, more than one                           list 0     place 0
 *    15, 18  does not divide, a step is due at the ceiling: which comes first    list 0     place 0
 *    17      arithmetic operand at least p, or another modulus (before 16)       list 0     0 first operand, 1 second
 *    16      inverse of 0                                                        list 0     place 0
 *    20..25  the case file; see balungkiro_read                                  list 0
 *    26      to be written: a list over 256, 256, 32 or 96 numbers, or point
 *            numbers not a multiple of 3                                         list 0     place 0
 *    27      to be written: the buffer is shorter than the file                  list 0     place 0
 */
#ifndef BALUNGKIRO_H
#define BALUNGKIRO_H

#include <stddef.h>
#include <stdint.h>

#ifdef __cplusplus
extern "C" {
#endif

enum {
    BALUNGKIRO_TERMS = 256,          /* the most terms of a list */
    BALUNGKIRO_KEYS = 32,            /* the most keys of a skeleton */
    BALUNGKIRO_POINT_NUMBERS = 96,   /* the most numbers of points */
    BALUNGKIRO_COEFFICIENTS = 8,     /* of an image, x^0 to x^7 */
    BALUNGKIRO_QUOTIENT = 4096,      /* the terms that a quotient's output, and each output of the Cancel key, has room for */
    BALUNGKIRO_WORK = 8192,          /* the numbers of the work room */
    BALUNGKIRO_FILE = 4096,          /* no byte of a case file after these changes what is read */
    BALUNGKIRO_MOST_BYTES = 2884,    /* the bytes of the fullest case file: no file that is written is longer */
    BALUNGKIRO_MOST_STEPS = 8192     /* two divisions never take more steps: with this ceiling, or a higher one, 18 never comes */
};

/* The list at fault. */
enum {
    BALUNGKIRO_LIST_NONE = 0,        /* acceptance, and a refusal that names no list */
    BALUNGKIRO_LIST_FIRST = 1,       /* of the Cancel key the numerator, of balungkiro_check_list its one list */
    BALUNGKIRO_LIST_SECOND = 2,      /* of the Cancel key the denominator */
    BALUNGKIRO_LIST_SKELETON = 3,
    BALUNGKIRO_LIST_POINTS = 4,      /* of the image the one point */
    BALUNGKIRO_LIST_OUTPUT = 5,      /* of the Cancel key either of its two outputs */
    BALUNGKIRO_LIST_WORK = 6         /* the work room */
};

/* The common divisor of first and second that the images at the points fix, in the monomials of the skeleton.
 * Record: number, list, place, d (the least degree of an image), bad, unlucky, kept (numbers of points), count of terms, steps taken.
 * Numbers 1 to 15 and 18. With 1 to 11 the last six are 0; with 12 bad is the number of points and the rest 0; with 13 to 15 and 18 the count of
 * terms is 0. No division is begun with 1 to 14: the steps are 0. With 15 they are those of both divisions, also where the second list alone is not
 * divided; with 18 the ceiling; on acceptance the terms of both quotients together.
 * Where both lists pass 1 to 5, swapping them changes nothing in record, out and work, but for the steps of a 15 or 18 and which of the two comes.
 * out, at least as long as the skeleton (10): acceptance writes the terms first in it and leaves the rest; a refusal leaves it unchanged.
 * work, at least 8192 (11): unchanged with 1 to 11, otherwise its first 8192 numbers are 0 and the rest unchanged. */
void balungkiro_candidate(uint16_t modulus,
                          const uint32_t *first, size_t first_count,
                          const uint32_t *second, size_t second_count,
                          const uint16_t *skeleton, size_t skeleton_count,
                          const uint16_t *points, size_t points_count,
                          size_t ceiling,
                          uint32_t *out, size_t out_count,
                          uint16_t *work, size_t work_count,
                          size_t record[9]);

/* First over second, exact.
 * Record: number, list, place, count of terms (0 on refusal). Numbers 1 to 5, 10, 11, 15. It has no ceiling.
 * out, at least 4096 (10), and work, at least 8192 (11): as in balungkiro_candidate. */
void balungkiro_quotient(uint16_t modulus,
                         const uint32_t *first, size_t first_count,
                         const uint32_t *second, size_t second_count,
                         uint32_t *out, size_t out_count,
                         uint16_t *work, size_t work_count,
                         size_t record[4]);

/* The Cancel key: numerator N and denominator D without their common divisor G that balungkiro_candidate finds. It gives N' and D' with N = G N' c
 * and D = G D' c for one number c, and D' has the leading coefficient 1; G has too, so c is the leading coefficient of D.
 * On acceptance no common divisor of N and D has a higher degree in x than G, which is struck out; N D' = D N'; and N' and D' have no common
 * divisor that contains x.
 * Record: number, list, place, d, bad, unlucky, kept, as balungkiro_candidate gives them to N as its first list and D as its second; then the
 * count of terms of N', then that of D', then the steps that balungkiro_candidate takes under the same ceiling; the key's own two quotients are not
 * counted.
 * Numbers 1 to 15 and 18. With 1 to 11 the last seven are 0; with 12 bad is the number of points and the rest 0; with 13 to 15 and 18 both counts
 * of terms are 0.
 * numerator_out and denominator_out, each at least 4096 (10, where either is shorter): acceptance writes N' first in the one and D' first in the
 * other and leaves the rest of both; a refusal leaves both unchanged.
 * work, at least 8192 (11): as in balungkiro_candidate. */
void balungkiro_cancel(uint16_t modulus,
                       const uint32_t *numerator, size_t numerator_count,
                       const uint32_t *denominator, size_t denominator_count,
                       const uint16_t *skeleton, size_t skeleton_count,
                       const uint16_t *points, size_t points_count,
                       size_t ceiling,
                       uint32_t *numerator_out, size_t numerator_out_count,
                       uint32_t *denominator_out, size_t denominator_out_count,
                       uint16_t *work, size_t work_count,
                       size_t record[10]);

/* The image at one point: the monic greatest common divisor of first and second there, as polynomials in x; where one of them is 0, the other
 * made monic.
 * Record: number, list, place, degree (0 on refusal). Numbers 1 to 5, 8 (the point is not three numbers), 9, 12 (the point is bad: the x-leading
 * coefficients of both are 0 there).
 * coefficients: written in every case, x^0 first; all 0 on refusal. */
void balungkiro_image(uint16_t modulus,
                      const uint32_t *first, size_t first_count,
                      const uint32_t *second, size_t second_count,
                      const uint16_t *point, size_t point_count,
                      uint16_t coefficients[BALUNGKIRO_COEFFICIENTS],
                      size_t record[4]);

/* The leading part, all terms with the highest power of x: the head of the caller's own list; the result is how many terms it has.
 * 0 where balungkiro_check_list refuses the list, and only there. */
size_t balungkiro_leading_part(const uint32_t *terms, size_t count);

/* The check of a list without a modulus.
 * Record: number, list, place. Numbers 2, 3 (of a coefficient only that it is not 0). */
void balungkiro_check_list(const uint32_t *terms, size_t count, size_t record[3]);

/* The shorter of the leading parts of first and second, first's where both have as many terms: the head of the caller's own list.
 * part: how many terms it has, then which list it is the head of, 1 or 2.
 * 0 and 1 where balungkiro_check_lists refuses the lists; 0 only there. */
void balungkiro_shorter_part(const uint32_t *first, size_t first_count,
                             const uint32_t *second, size_t second_count,
                             size_t part[2]);

/* The check of two lists without a modulus.
 * Record: number, list, place. Numbers 2 to 5 (of a coefficient only that it is not 0). */
void balungkiro_check_lists(const uint32_t *first, size_t first_count,
                            const uint32_t *second, size_t second_count,
                            size_t record[3]);

/* Arithmetic. An operand is a modulus and a value.
 * Record: number, list, place, modulus, value; on refusal the first operand's modulus as it came, and 0.
 * Numbers 1 (the first operand's modulus), 17; the inverse 1, 17, 16. */
void balungkiro_sum(uint16_t modulus, uint16_t value, uint16_t other_modulus, uint16_t other_value, size_t record[5]);
void balungkiro_difference(uint16_t modulus, uint16_t value, uint16_t other_modulus, uint16_t other_value, size_t record[5]);
void balungkiro_product(uint16_t modulus, uint16_t value, uint16_t other_modulus, uint16_t other_value, size_t record[5]);
void balungkiro_inverse(uint16_t modulus, uint16_t value, size_t record[5]);

/* Reads a case file: its modulus and its four lists. It checks no values: the candidate does.
 * Record: number, list, place, modulus, how many numbers first, second, skeleton and points have (three for each point).
 * Numbers: 20 kind unknown, 22 order, 21 body cut, 25 too many records of a kind, each with the offset of the record's kind byte as its place;
 * 23 bytes after the end, place the first such byte; 24 no end record, place the length of the file.
 * The four arrays are written whole in every case, zeros beyond each count; on refusal modulus, counts and arrays are all 0. */
void balungkiro_read(const uint8_t *bytes, size_t count,
                     uint32_t first[BALUNGKIRO_TERMS],
                     uint32_t second[BALUNGKIRO_TERMS],
                     uint16_t skeleton[BALUNGKIRO_KEYS],
                     uint16_t points[BALUNGKIRO_POINT_NUMBERS],
                     size_t record[8]);

/* Writes the case file of a modulus and four lists, for balungkiro_read to hand back. It checks counts only: any modulus and any numbers are
 * written as they are, and a list may be empty.
 * Record: number, list, place, how many bytes the file has (0 on refusal). Numbers 26, 27.
 * buffer, at least as long as the file (27), for which BALUNGKIRO_MOST_BYTES are always enough: acceptance writes the file first in it and
 * leaves the rest; a refusal leaves it unchanged. */
void balungkiro_write(uint16_t modulus,
                      const uint32_t *first, size_t first_count,
                      const uint32_t *second, size_t second_count,
                      const uint16_t *skeleton, size_t skeleton_count,
                      const uint16_t *points, size_t points_count,
                      uint8_t *buffer, size_t buffer_count,
                      size_t record[4]);

#ifdef __cplusplus
}
#endif

#endif
