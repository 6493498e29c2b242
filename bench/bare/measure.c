/* The calls of the proved module, and of the C twin, on the bare core: that they agree, their instructions and their peak stack. */
#include <stdbool.h>
#include <stddef.h>

#include "../twin.h"
#include "../workloads.h"
#include "start.h"

enum { KEYS = 4096, WORK_ROOM = 8192, MOST_KEYS = 32, MOST_BYTES = 2884, BUFFER = MOST_BYTES + 16, PAINT = 0x5a, TICK = 40 };

/* SysTick: its clock has 25 MHz, so with an instruction for each nanosecond a tick is 40 instructions. */
#define SYSTICK ((volatile uint32_t *)0xe000e010)

extern uint8_t stack_low[], library_start[], library_end[];

static uint32_t out[KEYS], denominator_out[KEYS];
static uint16_t work[WORK_ROOM];
static uint16_t coefficients[8];
static uint8_t buffer[BUFFER], library_buffer[BUFFER];
static uint32_t found[MOST_KEYS];
static length found_terms;
static length record[10];
static length ceiling = MOST_STEPS;
static const workload *now;

#define CANDIDATE(f) f(now->modulus, now->first, now->first_terms, now->second, now->second_terms, now->skeleton, now->keys, \
                       now->points, now->numbers, ceiling, out, now->keys, work, WORK_ROOM, record)
#define QUOTIENT(f) f(now->modulus, now->dividend, now->dividend_terms, now->divisor, now->divisor_terms, out, KEYS, work, WORK_ROOM, record)
#define IMAGE(f) f(now->modulus, now->first, now->first_terms, now->second, now->second_terms, now->at, now->at_numbers, coefficients, record)
#define WRITE(f) f(now->modulus, now->first, now->first_terms, now->second, now->second_terms, now->skeleton, now->keys, now->points, now->numbers, buffer, BUFFER, record)
/* A part is two numbers without a fault; they stand behind the number, which stays 0. */
#define SHORTER(f) f(now->first, now->first_terms, now->second, now->second_terms, record + 1)
#define CANCEL(f) f(now->modulus, now->first, now->first_terms, now->second, now->second_terms, now->skeleton, now->keys, \
                    now->points, now->numbers, ceiling, out, KEYS, denominator_out, KEYS, work, WORK_ROOM, record)

static void library_candidate(void) { CANDIDATE(balungkiro_candidate); }
static void twin_of_candidate(void) { CANDIDATE(twin_candidate); }
static void library_quotient(void) { QUOTIENT(balungkiro_quotient); }
static void twin_of_quotient(void) { QUOTIENT(twin_quotient); }
static void library_image(void) { IMAGE(balungkiro_image); }
static void twin_of_image(void) { IMAGE(twin_image); }
static void library_write(void) { WRITE(balungkiro_write); }
static void twin_of_write(void) { WRITE(twin_write); }
static void library_shorter(void) { SHORTER(balungkiro_shorter_part); }
static void twin_of_shorter(void) { SHORTER(twin_shorter_part); }
static void library_cancel(void) { CANCEL(balungkiro_cancel); }
static void twin_of_cancel(void) { CANCEL(twin_cancel); }

/* Both inputs over the divisor that the candidate found. */
#define OVER_FOUND(terms, n) balungkiro_quotient(now->modulus, terms, n, found, found_terms, out, KEYS, work, WORK_ROOM, record)

static void first_over_found(void) { OVER_FOUND(now->first, now->first_terms); }
static void second_over_found(void) { OVER_FOUND(now->second, now->second_terms); }

static void fail(const char *what) {
    print(now->name);
    print(what);
    semihost(0x18, (const void *)0x20023);
}

/* Numbers, right-aligned. */
static void print_number(uint32_t n, int width) {
    char text[12];
    int i = sizeof text - 1;
    text[i] = 0;
    do
        text[--i] = (char)('0' + n % 10);
    while ((n /= 10) > 0);
    for (int blanks = width - ((int)sizeof text - 1 - i); blanks > 0; blanks--)
        print(" ");
    print(text + i);
}

static void print_padded(const char *text, int width) {
    print(text);
    for (; *text; text++)
        width--;
    for (; width > 0; width--)
        print(" ");
}

typedef struct { uint32_t instructions, stack; } cost;

/* The stack below this frame is painted, then looked at from below. */
__attribute__((noinline)) static cost measured(void (*call)(void)) {
    uint8_t *here = __builtin_frame_address(0), *low = stack_low;
    for (uint8_t *byte = stack_low; byte < here - 128; byte++)
        *(volatile uint8_t *)byte = PAINT;
    uint32_t before = SYSTICK[2];
    call();
    uint32_t after = SYSTICK[2];
    while (low < here && *low == PAINT)
        low++;
    return (cost){((before - after) & 0xffffff) * TICK, (uint32_t)(here - low)};
}

/* The bytes that a call is lent beside the stack: both lists, skeleton, points, outputs, work room and record. Of the buffer only
   the file's bytes: how many they are is in the record of the call just made. */
static uint32_t candidate_room(void) {
    return (uint32_t)(4 * (now->first_terms + now->second_terms + now->keys) + 2 * (now->keys + now->numbers) + sizeof work + 9 * sizeof record[0]);
}
static uint32_t quotient_room(void) { return (uint32_t)(4 * (now->dividend_terms + now->divisor_terms) + sizeof out + sizeof work + 4 * sizeof record[0]); }
static uint32_t image_room(void) { return (uint32_t)(4 * (now->first_terms + now->second_terms) + 6 + sizeof coefficients + 4 * sizeof record[0]); }
static uint32_t write_room(void) {
    return (uint32_t)(4 * (now->first_terms + now->second_terms) + 2 * (now->keys + now->numbers) + record[3] + 4 * sizeof record[0]);
}
static uint32_t shorter_room(void) { return (uint32_t)(4 * (now->first_terms + now->second_terms) + 2 * sizeof record[0]); }
static uint32_t cancel_room(void) {
    return (uint32_t)(4 * (now->first_terms + now->second_terms) + 2 * (now->keys + now->numbers) + sizeof out + sizeof denominator_out + sizeof work + sizeof record);
}

/* Where the record has the steps, 0 where it has none. */
typedef struct { const char *name; void (*library)(void), (*twin)(void); uint32_t (*room)(void); size_t steps; } service;

static const service services[] = {
    {"candidate", library_candidate, twin_of_candidate, candidate_room, 8},
    {"quotient", library_quotient, twin_of_quotient, quotient_room, 0},
    {"image", library_image, twin_of_image, image_room, 0},
    {"write", library_write, twin_of_write, write_room, 0},
    {"shorter", library_shorter, twin_of_shorter, shorter_room, 0},
    {"cancel", library_cancel, twin_of_cancel, cancel_room, 9},
};

/* The number that a call has to give: the workload's where there are steps, of the candidate and the key; no other refuses. */
static length number_of(const service *s) { return s->steps ? now->number : 0; }

/* What a call leaves behind, as one number: the record, both outputs, the coefficients and the work room. */
static uint32_t left_behind(void) {
    uint32_t sum = 0;
    for (size_t i = 0; i < sizeof record / sizeof record[0]; i++)
        sum = sum * 31 + (uint32_t)record[i];
    for (size_t i = 0; i < KEYS; i++)
        sum = (sum * 31 + out[i]) * 31 + denominator_out[i];
    for (size_t i = 0; i < 8; i++)
        sum = sum * 31 + coefficients[i];
    for (size_t i = 0; i < WORK_ROOM; i++)
        sum = sum * 31 + work[i];
    return sum;
}

static void forget(void) {
    for (size_t i = 0; i < sizeof record / sizeof record[0]; i++)
        record[i] = 0;
    for (size_t i = 0; i < KEYS; i++)
        out[i] = denominator_out[i] = 0;
    for (size_t i = 0; i < 8; i++)
        coefficients[i] = 0;
    for (size_t i = 0; i < BUFFER; i++)
        buffer[i] = PAINT;
}

/* The buffer that the library leaves is kept, and every byte of the twin's held against it. */
static void keep_buffer(void) {
    for (size_t i = 0; i < BUFFER; i++)
        library_buffer[i] = buffer[i];
}

static bool same_buffer(void) {
    for (size_t i = 0; i < BUFFER; i++)
        if (buffer[i] != library_buffer[i])
            return false;
    return true;
}

typedef struct { cost library, twin; } costs;

/* Both are measured, and have to leave the same behind. */
static costs compared(const service *s) {
    forget();
    cost library = measured(s->library);
    uint32_t left = left_behind();
    keep_buffer();
    forget();
    cost twin = measured(s->twin);
    if (left != left_behind() || !same_buffer())
        fail(": the twin's answer is not the module's\n");
    return (costs){library, twin};
}

/* At 96 MHz, with a cycle for an instruction. */
static void print_seconds(uint32_t instructions) {
    uint32_t microseconds = (uint32_t)((uint64_t)instructions * 10 / 960);
    print("0.");
    for (uint32_t unit = 100000; unit > 0; unit /= 10)
        print_number(microseconds / unit % 10, 1);
}

static void print_ratio(uint32_t part, uint32_t whole) {
    uint32_t ratio = (part * 100 + whole / 2) / whole;
    print_number(ratio / 100, 0);
    print(".");
    print_number(ratio / 10 % 10, 0);
    print_number(ratio % 10, 0);
}

static void print_call(const service *s) {
    print("| ");
    print_padded(now->name, 9);
    print(" | ");
    print_padded(s->name, 9);
    print(" | ");
}

static void report(const service *s) {
    costs both = compared(s);
    cost library = both.library, twin = both.twin;
    if (record[0] != number_of(s))
        fail(": another number\n");
    print_call(s);
    print_number(library.instructions, 12);
    print(" | ");
    print_seconds(library.instructions);
    print(" | ");
    print_number(library.stack, 10);
    print(" | ");
    print_number(library.stack + s->room(), 10);
    print(" | ");
    print_number(twin.instructions, 12);
    print(" | ");
    print_number(twin.stack, 10);
    print(" |\n");
}

/* What a quotient takes that has as many terms as the key's. */
static uint32_t quotient_cost(void (*call)(void), length terms) {
    cost c = measured(call);
    if (record[0] != 0 || record[3] != terms)
        fail(": a quotient is not the key's\n");
    return c.instructions;
}

/* What the candidate takes, and the quotients of both inputs by what it finds. */
static uint32_t parts_cost(length numerator_terms, length denominator_terms) {
    cost candidate = measured(library_candidate);
    found_terms = record[7];
    for (size_t i = 0; i < found_terms; i++)
        found[i] = out[i];
    return candidate.instructions + quotient_cost(first_over_found, numerator_terms) + quotient_cost(second_over_found, denominator_terms);
}

static void report_key(void) {
    forget();
    cost key = measured(library_cancel);
    uint32_t parts = parts_cost(record[7], record[8]);
    print("| ");
    print_padded(now->name, 9);
    print(" | ");
    print_number(key.instructions, 12);
    print(" | ");
    print_number(parts, 27);
    print(" | ");
    print_ratio(key.instructions, parts);
    print("  |\n");
}

/* The ceilings that are tried, the first of which is never reached. */
static const length ceilings[] = {MOST_STEPS, 64, 16, 0};

/* Whether the call takes more steps than each ceiling but the first. */
static bool divides_long(const service *s) {
    s->library();
    return record[s->steps] > ceilings[1];
}

/* A call under each ceiling: its number, its steps, and what it takes of the instructions of the one that is not cut short. */
static void report_ceilings(const service *s) {
    uint32_t whole = 0;
    for (size_t c = 0; c < sizeof ceilings / sizeof ceilings[0]; c++) {
        ceiling = ceilings[c];
        uint32_t instructions = compared(s).library.instructions;
        if (c == 0)
            whole = instructions;
        if (record[0] != (c == 0 ? now->number : 18) || (c > 0 && record[s->steps] != ceiling))
            fail(": another answer under a ceiling\n");
        print_call(s);
        print_number((uint32_t)ceiling, 7);
        print(" | ");
        print_number((uint32_t)record[0], 6);
        print(" | ");
        print_number((uint32_t)record[s->steps], 5);
        print(" | ");
        print_number(instructions, 12);
        print(" | ");
        print_seconds(instructions);
        print(" | ");
        print_ratio(instructions, whole);
        print("  |\n");
    }
    ceiling = MOST_STEPS;
}

int main(void) {
    SYSTICK[1] = 0xffffff;
    SYSTICK[2] = 0;
    SYSTICK[0] = 5;
    print("| Workload  | Call      | Instructions | Seconds  | Stack      | Memory     | Twin's       | Its stack  |\n");
    print("|-----------|-----------|--------------|----------|------------|------------|--------------|------------|\n");
    for (now = workloads; now < workloads + WORKLOADS; now++)
        for (size_t s = 0; s < sizeof services / sizeof services[0]; s++)
            report(&services[s]);
    print("\n| Workload  | Cancel key   | Candidate and two quotients | Ratio |\n");
    print("|-----------|--------------|-----------------------------|-------|\n");
    for (now = workloads; now < workloads + WORKLOADS; now++)
        if (now->number == 0)
            report_key();
    print("\n| Workload  | Call      | Ceiling | Number | Steps | Instructions | Seconds  | Ratio |\n");
    print("|-----------|-----------|---------|--------|-------|--------------|----------|-------|\n");
    for (now = workloads; now < workloads + WORKLOADS; now++)
        for (size_t s = 0; s < sizeof services / sizeof services[0]; s++)
            if (services[s].steps && divides_long(&services[s]))
                report_ceilings(&services[s]);
    print("\nThe library's code: ");
    print_number((uint32_t)(library_end - library_start), 0);
    print(" bytes.\n");
    return 0;
}
