/* So many calls of the proved library, or of the C twin, on one workload: bench/instructions counts what one more takes. */
#include "twin.h"
#include "workloads.h"

enum { KEYS = 4096, WORK_ROOM = 8192 };

static uint32_t out[KEYS], denominator_out[KEYS];
static uint16_t work[WORK_ROOM];
static length record[10];
static const workload *now;

#define CANDIDATE(f) f(now->modulus, now->first, now->first_terms, now->second, now->second_terms, now->skeleton, now->keys, \
                       now->points, now->numbers, MOST_STEPS, out, KEYS, work, WORK_ROOM, record)
#define QUOTIENT(f) f(now->modulus, now->dividend, now->dividend_terms, now->divisor, now->divisor_terms, out, KEYS, work, WORK_ROOM, record)
#define CANCEL(f) f(now->modulus, now->first, now->first_terms, now->second, now->second_terms, now->skeleton, now->keys, \
                    now->points, now->numbers, MOST_STEPS, out, KEYS, denominator_out, KEYS, work, WORK_ROOM, record)

static void library_candidate(void) { CANDIDATE(balungkiro_candidate); }
static void twin_of_candidate(void) { CANDIDATE(twin_candidate); }
static void library_quotient(void) { QUOTIENT(balungkiro_quotient); }
static void twin_of_quotient(void) { QUOTIENT(twin_quotient); }
static void library_cancel(void) { CANCEL(balungkiro_cancel); }
static void twin_of_cancel(void) { CANCEL(twin_cancel); }

/* WORKLOAD CALL TIMES, each a digit: workloads and calls from 0 on. */
int main(int words, char **word) {
    static void (*const calls[])(void) = {library_candidate, twin_of_candidate, library_quotient, twin_of_quotient, library_cancel, twin_of_cancel};
    if (words != 4)
        return 2;
    now = &workloads[word[1][0] - '0'];
    for (int times = word[3][0] - '0'; times > 0; times--)
        calls[word[2][0] - '0']();
    return 0;
}
