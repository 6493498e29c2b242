/* Asks the library what the lines of standard input say, a call on each line, and answers each by a line of its own.
 * A line is a service and its arguments, decimal; a list is its length and its numbers; a room that is lent is its length alone.
 *
 *   candidate MODULUS FIRST SECOND SKELETON POINTS CEILING OUTPUT WORK      quotient MODULUS FIRST SECOND OUTPUT WORK
 *   cancel MODULUS NUMERATOR DENOMINATOR SKELETON POINTS CEILING NUMERATOR_OUTPUT DENOMINATOR_OUTPUT WORK
 *   image MODULUS FIRST SECOND POINT                                        list TERMS, lists FIRST SECOND
 *   sum MODULUS VALUE MODULUS VALUE (difference, product)                   inverse MODULUS VALUE
 *   write MODULUS FIRST SECOND SKELETON POINTS BUFFER                       copy BYTES BUFFER
 *
 * The answer is the record; behind '|' the terms, of the key those of the numerator and behind a second '|' those of the denominator, and how many
 * numbers of each output behind its terms, of the work room's first 8192 and of the rest of the work room are as before the call, and how many of
 * the work room are 0; or the eight coefficients; or the length of the leading part, of two lists the shorter one's and which list it is the head
 * of; or all bytes of the buffer. A copy is a case file read, and what was handed back written: its answer is both records, then the buffer.
 * Each number of a room is MARK before the call. A line that is not such a call is answered by 'not a call'. */
#include "balungkiro.h"

#include <limits.h>
#include <stdio.h>
#include <stdlib.h>
#include <string.h>

/* More than any list that is accepted, and any room that is used. */
enum { MOST_TERMS = 300, MOST_KEYS = 40, MOST_NUMBERS = 120, MOST_OUTPUT = 4200, MOST_WORK = 8300, MOST_BUFFER = 4200, MARK = 9, LONGEST = 20480 };

static const char *rest;
static int wrong;
static uint32_t first[MOST_TERMS], second[MOST_TERMS], out[MOST_OUTPUT], denominator_out[MOST_OUTPUT];
static uint16_t skeleton[MOST_KEYS], points[MOST_NUMBERS], work[MOST_WORK];
static uint8_t file[BALUNGKIRO_FILE], buffer[MOST_BUFFER];

/* The next number of the line, which is at most `most`. */
static unsigned long number(unsigned long most)
{
    char *end;
    unsigned long n = strtoul(rest, &end, 10);
    if (end == rest || n > most) {
        wrong = 1;
        return 0;
    }
    rest = end;
    return n;
}

static uint16_t small(void) { return (uint16_t)number(UINT16_MAX); }

static size_t terms(uint32_t *list)
{
    size_t n = number(MOST_TERMS), i;
    for (i = 0; i < n; i++)
        list[i] = (uint32_t)number(UINT32_MAX);
    return n;
}

static size_t numbers(uint16_t *list, unsigned long most)
{
    size_t n = number(most), i;
    for (i = 0; i < n; i++)
        list[i] = small();
    return n;
}

static size_t bytes(void)
{
    size_t n = number(BALUNGKIRO_FILE), i;
    for (i = 0; i < n; i++)
        file[i] = (uint8_t)number(UINT8_MAX);
    return n;
}

/* The length of the buffer, and MARK in every byte of it. */
static size_t lend_buffer(void)
{
    memset(buffer, MARK, sizeof buffer);
    return number(MOST_BUFFER);
}

/* The length of an output, and MARK in every number of it. */
static size_t lend_output(uint32_t *output)
{
    size_t i;
    for (i = 0; i < MOST_OUTPUT; i++)
        output[i] = MARK;
    return number(MOST_OUTPUT);
}

/* The length of the work room, and MARK in every number of it. */
static size_t lend_work(void)
{
    size_t i;
    for (i = 0; i < MOST_WORK; i++)
        work[i] = MARK;
    return number(MOST_WORK);
}

/* Nothing is asked of the library where the line is not a call. */
static int is_call(void)
{
    while (*rest == ' ' || *rest == '\n')
        rest++;
    if (*rest != '\0')
        wrong = 1;
    if (wrong)
        printf("not a call\n");
    return !wrong;
}

static void print_record(const size_t *record, size_t count)
{
    size_t i;
    for (i = 0; i < count; i++)
        printf(i == 0 ? "%zu" : " %zu", record[i]);
}

static void print_terms(const uint32_t *output, size_t count)
{
    size_t i;
    printf(" |");
    for (i = 0; i < count; i++)
        printf(" %lu", (unsigned long)output[i]);
}

/* How many numbers of an output behind its terms are as before the call. */
static size_t output_left(const uint32_t *output, size_t count, size_t output_count)
{
    size_t i, left = 0;
    for (i = count; i < output_count; i++)
        left += output[i] == MARK;
    return left;
}

static void print_work(size_t work_count)
{
    size_t i, used_left = 0, work_left = 0, zeros = 0;
    for (i = 0; i < work_count; i++) {
        *(i < BALUNGKIRO_WORK ? &used_left : &work_left) += work[i] == MARK;
        zeros += work[i] == 0;
    }
    printf(" %zu %zu %zu\n", used_left, work_left, zeros);
}

static void print_rooms(size_t count, size_t output_count, size_t work_count)
{
    print_terms(out, count);
    printf(" | %zu", output_left(out, count, output_count));
    print_work(work_count);
}

static void print_buffer(size_t count)
{
    size_t i;
    printf(" |");
    for (i = 0; i < count; i++)
        printf(" %u", buffer[i]);
    printf("\n");
}

static void ask_candidate(void)
{
    uint16_t p = small();
    size_t a = terms(first), b = terms(second), keys = numbers(skeleton, MOST_KEYS), n = numbers(points, MOST_NUMBERS);
    size_t ceiling = number(ULONG_MAX), output_count = lend_output(out), work_count = lend_work(), record[9];
    if (!is_call())
        return;
    balungkiro_candidate(p, first, a, second, b, skeleton, keys, points, n, ceiling, out, output_count, work, work_count, record);
    print_record(record, 9);
    print_rooms(record[7], output_count, work_count);
}

static void ask_cancel(void)
{
    uint16_t p = small();
    size_t a = terms(first), b = terms(second), keys = numbers(skeleton, MOST_KEYS), n = numbers(points, MOST_NUMBERS);
    size_t ceiling = number(ULONG_MAX), numerator_count = lend_output(out), denominator_count = lend_output(denominator_out);
    size_t work_count = lend_work(), record[10];
    if (!is_call())
        return;
    balungkiro_cancel(p, first, a, second, b, skeleton, keys, points, n, ceiling, out, numerator_count, denominator_out, denominator_count,
                      work, work_count, record);
    print_record(record, 10);
    print_terms(out, record[7]);
    print_terms(denominator_out, record[8]);
    printf(" | %zu %zu", output_left(out, record[7], numerator_count), output_left(denominator_out, record[8], denominator_count));
    print_work(work_count);
}

static void ask_quotient(void)
{
    uint16_t p = small();
    size_t a = terms(first), b = terms(second), output_count = lend_output(out), work_count = lend_work(), record[4];
    if (!is_call())
        return;
    balungkiro_quotient(p, first, a, second, b, out, output_count, work, work_count, record);
    print_record(record, 4);
    print_rooms(record[3], output_count, work_count);
}

static void ask_image(void)
{
    uint16_t p = small(), u[BALUNGKIRO_COEFFICIENTS] = { MARK, MARK, MARK, MARK, MARK, MARK, MARK, MARK };
    size_t a = terms(first), b = terms(second), n = numbers(points, MOST_NUMBERS), record[4], i;
    if (!is_call())
        return;
    balungkiro_image(p, first, a, second, b, points, n, u, record);
    print_record(record, 4);
    printf(" |");
    for (i = 0; i < BALUNGKIRO_COEFFICIENTS; i++)
        printf(" %u", u[i]);
    printf("\n");
}

static void ask_list(void)
{
    size_t n = terms(first), record[3];
    if (!is_call())
        return;
    balungkiro_check_list(first, n, record);
    print_record(record, 3);
    printf(" | %zu\n", balungkiro_leading_part(first, n));
}

static void ask_lists(void)
{
    size_t a = terms(first), b = terms(second), record[3], part[2];
    if (!is_call())
        return;
    balungkiro_check_lists(first, a, second, b, record);
    balungkiro_shorter_part(first, a, second, b, part);
    print_record(record, 3);
    printf(" | ");
    print_record(part, 2);
    printf("\n");
}

/* One of the three operations on two operands. */
static void ask_arithmetic(void (*operation)(uint16_t, uint16_t, uint16_t, uint16_t, size_t *))
{
    uint16_t modulus = small(), value = small(), other_modulus = small(), other_value = small();
    size_t record[5];
    if (!is_call())
        return;
    operation(modulus, value, other_modulus, other_value, record);
    print_record(record, 5);
    printf("\n");
}

static void ask_inverse(void)
{
    uint16_t modulus = small(), value = small();
    size_t record[5];
    if (!is_call())
        return;
    balungkiro_inverse(modulus, value, record);
    print_record(record, 5);
    printf("\n");
}

static void ask_write(void)
{
    uint16_t p = small();
    size_t a = terms(first), b = terms(second), keys = numbers(skeleton, MOST_KEYS), n = numbers(points, MOST_NUMBERS);
    size_t count = lend_buffer(), record[4];
    if (!is_call())
        return;
    balungkiro_write(p, first, a, second, b, skeleton, keys, points, n, buffer, count, record);
    print_record(record, 4);
    print_buffer(count);
}

static void ask_copy(void)
{
    size_t length = bytes(), count = lend_buffer(), read[8], record[4];
    if (!is_call())
        return;
    balungkiro_read(file, length, first, second, skeleton, points, read);
    balungkiro_write((uint16_t)read[3], first, read[4], second, read[5], skeleton, read[6], points, read[7], buffer, count, record);
    print_record(read, 8);
    printf(" | ");
    print_record(record, 4);
    print_buffer(count);
}

/* Whether the line begins with this service; then the rest of it is its arguments. */
static int asks(const char *line, const char *service)
{
    size_t n = strlen(service);
    if (strncmp(line, service, n) != 0 || line[n] != ' ')
        return 0;
    rest = line + n;
    return 1;
}

static void answer(const char *line)
{
    wrong = 0;
    if (asks(line, "candidate"))
        ask_candidate();
    else if (asks(line, "cancel"))
        ask_cancel();
    else if (asks(line, "quotient"))
        ask_quotient();
    else if (asks(line, "image"))
        ask_image();
    else if (asks(line, "list"))
        ask_list();
    else if (asks(line, "lists"))
        ask_lists();
    else if (asks(line, "sum"))
        ask_arithmetic(balungkiro_sum);
    else if (asks(line, "difference"))
        ask_arithmetic(balungkiro_difference);
    else if (asks(line, "product"))
        ask_arithmetic(balungkiro_product);
    else if (asks(line, "inverse"))
        ask_inverse();
    else if (asks(line, "write"))
        ask_write();
    else if (asks(line, "copy"))
        ask_copy();
    else
        printf("not a call\n");
}

int main(void)
{
    static char line[LONGEST];
    while (fgets(line, sizeof line, stdin))
        answer(line);
    return 0;
}
