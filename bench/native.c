/* Library, C twin and FLINT on the same workloads: first that all agree, then what each costs. Processor time of this process, in microseconds a call:
   medians over rounds in each of which all are timed one after the other. */
#include <flint/nmod_mpoly.h>
#include <stdbool.h>
#include <stdio.h>
#include <stdlib.h>
#include <string.h>
#include <time.h>

#include "twin.h"
#include "workloads.h"

enum { KEYS = 4096, WORK_ROOM = 8192, MOST_BYTES = 2884, BUFFER = MOST_BYTES + 16, PAINT = 0x5a, ROUNDS = 101 };

/* What a round of calls uses. */
static uint32_t out[KEYS], denominator_out[KEYS];
static uint16_t work[WORK_ROOM];
static uint16_t coefficients[8];
static uint8_t buffer[BUFFER];
static length record[10];
static const workload *now;
static nmod_mpoly_ctx_t ring;
static nmod_mpoly_t first, second, divisor, found, first_over, second_over;

static void fail(const char *what) {
    fprintf(stderr, "bench: %s: %s\n", now->name, what);
    exit(1);
}

/* The calls that are measured, on the workload `now`. */

#define CANDIDATE(f) f(now->modulus, now->first, now->first_terms, now->second, now->second_terms, now->skeleton, now->keys, \
                       now->points, now->numbers, MOST_STEPS, out, KEYS, work, WORK_ROOM, record)
#define QUOTIENT(f, a, n) f(now->modulus, a, n, now->divisor, now->divisor_terms, out, KEYS, work, WORK_ROOM, record)
#define IMAGE(f) f(now->modulus, now->first, now->first_terms, now->second, now->second_terms, now->at, now->at_numbers, coefficients, record)
#define WRITE(f) f(now->modulus, now->first, now->first_terms, now->second, now->second_terms, now->skeleton, now->keys, now->points, now->numbers, buffer, BUFFER, record)
/* A part is two numbers without a fault; they stand behind the number, which stays 0. */
#define SHORTER(f) f(now->first, now->first_terms, now->second, now->second_terms, record + 1)
#define CANCEL(f) f(now->modulus, now->first, now->first_terms, now->second, now->second_terms, now->skeleton, now->keys, \
                    now->points, now->numbers, MOST_STEPS, out, KEYS, denominator_out, KEYS, work, WORK_ROOM, record)

static void library_candidate(void) { CANDIDATE(balungkiro_candidate); }
static void twin_of_candidate(void) { CANDIDATE(twin_candidate); }
static void flint_gcd(void) {
    if (!nmod_mpoly_gcd(found, first, second, ring))
        fail("FLINT gives no gcd");
}

static void library_divisions(void) {
    QUOTIENT(balungkiro_quotient, now->first, now->first_terms);
    QUOTIENT(balungkiro_quotient, now->second, now->second_terms);
}
static void twin_divisions(void) {
    QUOTIENT(twin_quotient, now->first, now->first_terms);
    QUOTIENT(twin_quotient, now->second, now->second_terms);
}
static void flint_divisions(void) {
    if (!nmod_mpoly_divides(found, first, divisor, ring) || !nmod_mpoly_divides(found, second, divisor, ring))
        fail("FLINT does not divide");
}

static void library_image(void) { IMAGE(balungkiro_image); }
static void twin_of_image(void) { IMAGE(twin_image); }

static void library_write(void) { WRITE(balungkiro_write); }
static void twin_of_write(void) { WRITE(twin_write); }

static void library_shorter(void) { SHORTER(balungkiro_shorter_part); }
static void twin_of_shorter(void) { SHORTER(twin_shorter_part); }

static void library_cancel(void) { CANCEL(balungkiro_cancel); }
static void twin_of_cancel(void) { CANCEL(twin_cancel); }
static void flint_cofactors(void) {
    if (!nmod_mpoly_gcd_cofactors(found, first_over, second_over, first, second, ring))
        fail("FLINT gives no cofactors");
}

/* Agreement. */

static void to_flint(nmod_mpoly_t f, const uint32_t *terms, length n) {
    nmod_mpoly_zero(f, ring);
    for (length i = 0; i < n; i++) {
        ulong key = terms[i] >> 16, exponents[4] = {key >> 9, key >> 6 & 7, key >> 3 & 7, key & 7};
        nmod_mpoly_push_term_ui_ui(f, terms[i] & 65535, exponents, ring);
    }
}

static void same_terms(const uint32_t *a, length n, nmod_mpoly_t f) {
    nmod_mpoly_t g;
    nmod_mpoly_init(g, ring);
    to_flint(g, a, n);
    if (!nmod_mpoly_equal(f, g, ring))
        fail("the library's terms are not FLINT's");
    nmod_mpoly_clear(g, ring);
}

static void forget(void) {
    memset(out, 0, sizeof out);
    memset(denominator_out, 0, sizeof denominator_out);
    memset(buffer, PAINT, sizeof buffer);
    memset(record, 0, sizeof record);
}

/* Calls the library, then the twin: the same record, the same numbers in both outputs, the same bytes in the whole buffer. */
static void same(void (*library)(void), void (*twin)(void), const char *what) {
    static uint32_t library_out[KEYS], library_denominator[KEYS];
    static uint8_t library_buffer[BUFFER];
    uint16_t library_coefficients[8];
    length library_record[10];
    forget();
    library();
    if (record[0] != 0)
        fail("refused");
    memcpy(library_out, out, sizeof out);
    memcpy(library_denominator, denominator_out, sizeof denominator_out);
    memcpy(library_coefficients, coefficients, sizeof coefficients);
    memcpy(library_buffer, buffer, sizeof buffer);
    memcpy(library_record, record, sizeof record);
    forget();
    twin();
    if (memcmp(library_out, out, sizeof out) || memcmp(library_denominator, denominator_out, sizeof denominator_out) ||
        memcmp(library_coefficients, coefficients, sizeof coefficients) || memcmp(library_buffer, buffer, sizeof buffer) ||
        memcmp(library_record, record, sizeof record))
        fail(what);
}

static void agree_on_algebra(void) {
    same(library_candidate, twin_of_candidate, "candidate: the twin's answer is not the library's");
    if (record[7] != now->divisor_terms || memcmp(out, now->divisor, record[7] * sizeof *out))
        fail("candidate: not the planted divisor");
    flint_gcd();
    same_terms(out, record[7], found);
    same(library_divisions, twin_divisions, "quotient: the twin's answer is not the library's");
    flint_divisions();
    same_terms(out, record[3], found);
    same(library_image, twin_of_image, "image: the twin's answer is not the library's");
}

/* FLINT's cofactors have to be the key's, by one constant such that the second is monic. */
static void agree_on_key(void) {
    same(library_cancel, twin_of_cancel, "cancel: the twin's answer is not the library's");
    flint_cofactors();
    ulong inverse = n_invmod(nmod_mpoly_get_term_coeff_ui(second_over, 0, ring), now->modulus);
    nmod_mpoly_scalar_mul_ui(first_over, first_over, inverse, ring);
    nmod_mpoly_scalar_mul_ui(second_over, second_over, inverse, ring);
    same_terms(out, record[7], first_over);
    same_terms(denominator_out, record[8], second_over);
}

static void agree_on_lists(void) {
    same(library_write, twin_of_write, "write: the twin's answer is not the library's");
    same(library_shorter, twin_of_shorter, "shorter part: the twin's answer is not the library's");
}

/* Cost. */

typedef struct { const char *name; void (*calls[3])(void); } service;

static const service algebra[] = {
    {"candidate", {library_candidate, twin_of_candidate, flint_gcd}},
    {"two divisions", {library_divisions, twin_divisions, flint_divisions}},
    {"image", {library_image, twin_of_image, NULL}},
    {"cancel", {library_cancel, twin_of_cancel, flint_cofactors}},
};

static const service lists[] = {
    {"write", {library_write, twin_of_write, NULL}},
    {"shorter part", {library_shorter, twin_of_shorter, NULL}},
};

static double processor_time(void) {
    struct timespec t;
    clock_gettime(CLOCK_PROCESS_CPUTIME_ID, &t);
    return (double)t.tv_sec * 1e6 + (double)t.tv_nsec * 1e-3;
}

static double timed(void (*call)(void), long repeats) {
    double start = processor_time();
    for (long i = 0; i < repeats; i++)
        call();
    return (processor_time() - start) / (double)repeats;
}

/* So many that a round takes about half a millisecond. */
static long repeats_of(void (*call)(void)) {
    long repeats = 1;
    timed(call, 1);
    while (timed(call, repeats) * (double)repeats < 500)
        repeats *= 2;
    return repeats;
}

static int in_order(const void *a, const void *b) {
    double d = *(const double *)a - *(const double *)b;
    return d < 0 ? -1 : d > 0;
}

static double median(double *numbers) {
    qsort(numbers, ROUNDS, sizeof *numbers, in_order);
    return numbers[ROUNDS / 2];
}

/* A ratio is the median of the rounds' ratios, so that what slows the machine for a while slows both sides. */
static void measure(const service *s) {
    static double times[3][ROUNDS], to_twin[ROUNDS], to_flint[ROUNDS];
    long repeats[3];
    for (int c = 0; c < 3; c++)
        repeats[c] = s->calls[c] ? repeats_of(s->calls[c]) : 0;
    for (int round = 0; round < ROUNDS; round++) {
        for (int c = 0; c < 3; c++)
            if (s->calls[c])
                times[c][round] = timed(s->calls[c], repeats[c]);
        to_twin[round] = times[0][round] / times[1][round];
        to_flint[round] = times[0][round] / times[2][round];
    }
    printf("| %-9s | %-13s | %9.2f | %9.2f |", now->name, s->name, median(times[0]), median(times[1]));
    if (s->calls[2])
        printf(" %9.2f | %8.2f | %9.2f |\n", median(times[2]), median(to_twin), median(to_flint));
    else
        printf("           | %8.2f |           |\n", median(to_twin));
}

static void into_ring(void) {
    nmod_mpoly_ctx_init(ring, 4, ORD_LEX, now->modulus);
    nmod_mpoly_init(first, ring);
    nmod_mpoly_init(second, ring);
    nmod_mpoly_init(divisor, ring);
    nmod_mpoly_init(found, ring);
    nmod_mpoly_init(first_over, ring);
    nmod_mpoly_init(second_over, ring);
    to_flint(first, now->first, now->first_terms);
    to_flint(second, now->second, now->second_terms);
    to_flint(divisor, now->divisor, now->divisor_terms);
}

/* The candidate, the divisions, the image and the key only where the divisor is known; the file and the shorter part always. */
int main(void) {
    printf("| Workload  | Call          |   Library |    C twin |     FLINT | To twin  |  To FLINT |\n");
    printf("|-----------|---------------|-----------|-----------|-----------|----------|-----------|\n");
    for (int i = 0; i < WORKLOADS; i++) {
        now = &workloads[i];
        bool known = now->number == 0;
        if (known) {
            into_ring();
            agree_on_algebra();
            agree_on_key();
        }
        agree_on_lists();
        for (size_t s = 0; known && s < sizeof algebra / sizeof algebra[0]; s++)
            measure(&algebra[s]);
        for (size_t s = 0; s < sizeof lists / sizeof lists[0]; s++)
            measure(&lists[s]);
        fflush(stdout);
    }
    return 0;
}
