/* The rule of the candidate, the quotient, the image, the writer, the shorter leading part and the Cancel key in plain C: the library's algorithms on
   the library's data (the work room, the table of 64 rows, eight numbers for an image), with what C would have where the proved text has values: the
   table and its rows stand in one place and are changed there. It is what the library's cost is held against; nothing else uses it. */
#include <stdbool.h>
#include <stddef.h>

#include "twin.h"

/* Declared here, since the bare core has no string.h. */
void *memcpy(void *, const void *, size_t);
void *memset(void *, int, size_t);

enum { KEYS = 4096, COEFFICIENTS = 65536, WORK_ROOM = 2 * KEYS, COLUMNS = 64, MOST_TERMS = 256, MOST_KEYS = 32, MOST_POINTS = 32 };

typedef struct { uint16_t cells[COLUMNS]; } row;
typedef struct { row rows[COLUMNS]; size_t columns; } table;
typedef struct { size_t number, list, place; } fault;
typedef struct { size_t number; length steps; } trial;

/* The list at fault, or 0. */
enum { LIST_FIRST = 1, LIST_SECOND, LIST_SKELETON, LIST_POINTS, LIST_OUTPUT, LIST_WORK };

/* Arithmetic. */

static bool is_modulus(uint16_t p) {
    return p == 7 || p == 13 || p == 17 || p == 101 || p == 32003 || p == 65521;
}

static uint16_t plus_times(uint16_t p, uint16_t r, uint16_t a, uint16_t b) {
    return (uint16_t)((r + (uint32_t)a * b) % p);
}

static uint16_t times(uint16_t p, uint16_t a, uint16_t b) {
    return plus_times(p, 0, a, b);
}

static uint16_t inverse(uint16_t p, uint16_t a) {
    uint32_t r = a, t = 1;
    while (r != 1) {
        uint32_t m = p / r * t % p;
        r = p % r;
        t = (p - m) % p;
    }
    return (uint16_t)t;
}

/* Keys and lists. */

static uint16_t key_of(uint32_t term) { return (uint16_t)(term >> 16); }
static uint16_t coefficient_of(uint32_t term) { return (uint16_t)term; }
static uint16_t x_of(uint16_t key) { return key >> 9; }
static uint16_t y_of(uint16_t key) { return key >> 6 & 7; }
static uint16_t z_of(uint16_t key) { return key >> 3 & 7; }
static uint16_t w_of(uint16_t key) { return key & 7; }

static fault list_fault(size_t count, size_t term, size_t list, uint32_t bound, const uint32_t *terms, size_t n) {
    uint16_t before = KEYS;
    if (n == 0 || n > MOST_TERMS)
        return (fault){count, list, 0};
    for (size_t i = 0; i < n; i++) {
        uint16_t key = key_of(terms[i]), coefficient = coefficient_of(terms[i]);
        if (key >= before || coefficient == 0 || coefficient >= bound)
            return (fault){term, list, i};
        before = key;
    }
    return (fault){0, 0, 0};
}

static fault lists_fault(uint16_t p, const uint32_t *first, size_t n, const uint32_t *second, size_t m) {
    if (!is_modulus(p))
        return (fault){1, 0, 0};
    fault found = list_fault(2, 3, LIST_FIRST, p, first, n);
    return found.number ? found : list_fault(4, 5, LIST_SECOND, p, second, m);
}

static fault numbers_fault(uint16_t p, const uint16_t *numbers, size_t n) {
    for (size_t i = 0; i < n; i++)
        if (numbers[i] >= p)
            return (fault){9, LIST_POINTS, i};
    return (fault){0, 0, 0};
}

/* The value and the image at a point. */

/* a y^n by the three bits of n, and by n products. */
static uint16_t times_power(uint16_t p, uint16_t a, uint16_t y, uint16_t n) {
    uint16_t y2 = times(p, y, y), y4 = times(p, y2, y2);
    if (n & 1)
        a = times(p, a, y);
    if (n & 2)
        a = times(p, a, y2);
    if (n & 4)
        a = times(p, a, y4);
    return a;
}

static uint16_t raised(uint16_t p, uint16_t a, uint16_t y, uint16_t n) {
    while (n-- > 0)
        a = times(p, a, y);
    return a;
}

static uint16_t monomial_at(uint16_t p, const uint16_t point[3], uint16_t key) {
    uint16_t y = times_power(p, 1, point[0], y_of(key));
    return times_power(p, times_power(p, y, point[1], z_of(key)), point[2], w_of(key));
}

/* y^b z^c of a key, from that of the key before, which is smaller. */
static uint16_t risen(uint16_t p, uint16_t yz, const uint16_t point[3], uint16_t before, uint16_t key) {
    if (key >> 6 != before >> 6)
        return raised(p, raised(p, 1, point[0], y_of(key)), point[1], z_of(key));
    return raised(p, yz, point[1], ((key >> 3) - (before >> 3)) & 7);
}

/* The value, from the last term to the first; what it has at the highest power of x. */
static uint16_t value(uint16_t p, const uint16_t point[3], const uint32_t *terms, size_t n, uint16_t r[8]) {
    uint16_t yz = 1, before = 0;
    memset(r, 0, 8 * sizeof *r);
    for (size_t i = n; i-- > 0;) {
        uint16_t key = key_of(terms[i]);
        uint16_t v = times_power(p, coefficient_of(terms[i]), point[2], w_of(key));
        yz = risen(p, yz, point, before, key);
        r[x_of(key)] = plus_times(p, r[x_of(key)], v, yz);
        before = key;
    }
    return r[x_of(key_of(terms[0]))];
}

static size_t size(const uint16_t f[8]) {
    size_t n = 8;
    while (n > 0 && f[n - 1] == 0)
        n--;
    return n;
}

static void make_monic(uint16_t p, uint16_t f[8], size_t n) {
    uint16_t c = inverse(p, f[n - 1]);
    for (size_t i = 0; i < 8; i++)
        f[i] = times(p, c, f[i]);
}

/* f becomes its remainder by g, which is monic of size n. */
static void reduce(uint16_t p, uint16_t f[8], const uint16_t g[8], size_t n) {
    for (size_t k = 9 - n; k-- > 0;) {
        uint16_t opposite = (uint16_t)(p - f[k + n - 1]);
        for (size_t i = k; i < 8; i++)
            f[i] = plus_times(p, f[i], opposite, g[i - k]);
    }
}

/* A turn of Euclid's algorithm: g, of size n, is made monic, f becomes its remainder; the remainder's size. */
static size_t turn(uint16_t p, size_t n, uint16_t f[8], uint16_t g[8]) {
    make_monic(p, g, n);
    reduce(p, f, g, n);
    return size(f);
}

/* g, which is not 0, becomes the monic greatest common divisor; its size. */
static size_t gcd(uint16_t p, uint16_t f[8], uint16_t g[8]) {
    for (size_t n = size(g); n > 0;) {
        size_t m = turn(p, n, f, g);
        if (m == 0)
            return n;
        n = turn(p, m, g, f);
    }
    memcpy(g, f, 8 * sizeof *g);
    return size(g);
}

/* The image's coefficients; its size, or 0 where the point is bad. */
static size_t image(uint16_t p, const uint32_t *first, size_t n, const uint32_t *second, size_t m, const uint16_t point[3], uint16_t u[8]) {
    uint16_t v[8];
    uint16_t a = value(p, point, first, n, u), b = value(p, point, second, m, v);
    if (a != 0)
        return gcd(p, v, u);
    if (b != 0) {
        size_t s = gcd(p, u, v);
        memcpy(u, v, sizeof v);
        return s;
    }
    memset(u, 0, sizeof v);
    return 0;
}

/* The table of equations. */

/* The equation e, which is changed, into the table: kept in the first column where no row is and its cell is not 0. */
static void add_equation(table *t, row *e, uint16_t p) {
    for (size_t j = 0; j < t->columns; j++) {
        row *pivot = &t->rows[j];
        if (e->cells[j] == 0)
            continue;
        if (pivot->cells[j] == 0) {
            uint16_t factor = inverse(p, e->cells[j]);
            memcpy(pivot, e, sizeof *e);
            for (size_t i = j; i < t->columns; i++)
                pivot->cells[i] = times(p, factor, e->cells[i]);
            return;
        }
        uint16_t opposite = (uint16_t)(p - e->cells[j]);
        for (size_t i = j; i < t->columns; i++)
            e->cells[i] = plus_times(p, e->cells[i], opposite, pivot->cells[i]);
    }
}

static void point_equations(table *t, uint16_t p, const uint16_t *skeleton, size_t keys, const uint16_t point[3], const uint16_t u[8], size_t column) {
    for (uint16_t i = 0; i < 8; i++) {
        row e = {{0}};
        for (size_t j = 0; j < keys; j++)
            if (x_of(skeleton[j]) == i)
                e.cells[j] = monomial_at(p, point, skeleton[j]);
        e.cells[column] = (uint16_t)((p - u[i]) % p);
        add_equation(t, &e, p);
    }
}

/* 13 and 14 for none and several; 0 for one, whose values are given. */
static size_t solve(const table *t, uint16_t p, uint16_t values[COLUMNS]) {
    size_t last = t->columns - 1;
    if (t->rows[last].cells[last] != 0)
        return 13;
    for (size_t j = 0; j < last; j++)
        if (t->rows[j].cells[j] == 0)
            return 14;
    for (size_t j = last; j-- > 0;) {
        uint16_t sum = t->rows[j].cells[last];
        for (size_t k = j + 1; k < last; k++)
            sum = plus_times(p, sum, t->rows[j].cells[k], values[k]);
        values[j] = (uint16_t)((p - sum) % p);
    }
    return 0;
}

/* Division by leading terms. */

static uint16_t larger(uint16_t a, uint16_t b) { return a < b ? b : a; }

static uint16_t most(const uint32_t *terms, size_t n) {
    uint16_t x = 0, y = 0, z = 0, w = 0;
    for (size_t i = 0; i < n; i++) {
        uint16_t key = key_of(terms[i]);
        x = larger(x, x_of(key));
        y = larger(y, y_of(key));
        z = larger(z, z_of(key));
        w = larger(w, w_of(key));
    }
    return (uint16_t)(x << 9 | y << 6 | z << 3 | w);
}

static bool at_most(uint16_t a, uint16_t b) {
    return x_of(a) <= x_of(b) && y_of(a) <= y_of(b) && z_of(a) <= z_of(b) && w_of(a) <= w_of(b);
}

/* 0 if the divisor divides, else 15, or 18 where a further term is due and the ceiling is reached; and the steps. It is worked in a work room whose
   first 4,096 numbers are 0; the quotient's coefficients go behind them. */
static trial divide(uint16_t p, const uint32_t *dividend, size_t n, const uint32_t *divisor, size_t m, length ceiling, uint16_t *work) {
    length steps = 0;
    uint16_t above = most(dividend, n), below = most(divisor, m);
    if (!at_most(below, above))
        return (trial){15, 0};
    uint16_t bound = above - below, lead = key_of(divisor[0]), inv = inverse(p, coefficient_of(divisor[0]));
    for (size_t i = 0; i < n; i++)
        work[key_of(dividend[i])] = coefficient_of(dividend[i]);
    for (size_t k = key_of(dividend[0]) + 1u; k-- > 0;) {
        if (work[k] == 0)
            continue;
        if (!at_most(lead, (uint16_t)k) || !at_most((uint16_t)(k - lead), bound))
            return (trial){15, steps};
        if (steps == ceiling)
            return (trial){18, steps};
        steps++;
        size_t shift = k - lead;
        uint16_t q = times(p, work[k], inv), opposite = (uint16_t)(p - q);
        work[KEYS + shift] = q;
        for (size_t i = 0; i < m; i++) {
            size_t at = key_of(divisor[i]) + shift;
            work[at] = plus_times(p, work[at], opposite, coefficient_of(divisor[i]));
        }
    }
    return (trial){0, steps};
}

static trial divides(uint16_t p, const uint32_t *dividend, size_t n, const uint32_t *divisor, size_t m, length ceiling, uint16_t *work) {
    memset(work, 0, KEYS * sizeof *work);
    trial found = divide(p, dividend, n, divisor, m, ceiling, work);
    memset(work, 0, WORK_ROOM * sizeof *work);
    return found;
}

/* Both lists in turn, under one ceiling. */
static trial divides_both(uint16_t p, const uint32_t *first, size_t n, const uint32_t *second, size_t m, const uint32_t *divisor, size_t k,
                          length ceiling, uint16_t *work) {
    trial one = divides(p, first, n, divisor, k, ceiling, work);
    if (one.number)
        return one;
    trial other = divides(p, second, m, divisor, k, ceiling - one.steps, work);
    return (trial){other.number, one.steps + other.steps};
}

/* A case file: of each record its kind byte and its numbers, the low byte first. Each function gives what is behind the bytes that it puts. */

enum { MODULUS = 1, FIRST, SECOND, SKELETON, POINT, END };

static fault write_fault(size_t n, size_t m, size_t keys, size_t numbers, size_t bytes) {
    if (n > MOST_TERMS || m > MOST_TERMS || keys > MOST_KEYS || numbers > 3 * MOST_POINTS || numbers % 3 != 0)
        return (fault){26, 0, 0};
    return bytes < 4 + 5 * (n + m) + 3 * keys + 7 * (numbers / 3) ? (fault){27, 0, 0} : (fault){0, 0, 0};
}

static uint8_t *put(uint8_t *at, uint16_t number) {
    *at++ = (uint8_t)number;
    *at++ = (uint8_t)(number >> 8);
    return at;
}

static uint8_t *put_key(uint8_t *at, uint8_t kind, uint16_t key) {
    *at++ = kind;
    return put(at, key);
}

static uint8_t *put_term(uint8_t *at, uint8_t kind, uint32_t term) {
    *at++ = kind;
    return put(put(at, coefficient_of(term)), key_of(term));
}

static uint8_t *put_point(uint8_t *at, uint16_t y, uint16_t z, uint16_t w) {
    *at++ = POINT;
    return put(put(put(at, y), z), w);
}

static uint8_t *put_terms(uint8_t *at, uint8_t kind, const uint32_t *terms, size_t n) {
    for (size_t i = 0; i < n; i++)
        at = put_term(at, kind, terms[i]);
    return at;
}

static uint8_t *put_keys(uint8_t *at, const uint16_t *skeleton, size_t n) {
    for (size_t i = 0; i < n; i++)
        at = put_key(at, SKELETON, skeleton[i]);
    return at;
}

static uint8_t *put_points(uint8_t *at, const uint16_t *points, size_t numbers) {
    for (size_t i = 0; i < numbers; i += 3)
        at = put_point(at, points[i], points[i + 1], points[i + 2]);
    return at;
}

/* The calls. */

/* What every record begins with. */
static void begin(length *record, fault found) {
    record[0] = found.number;
    record[1] = found.list;
    record[2] = found.place;
}

void twin_write(uint16_t p, const uint32_t *first, length n, const uint32_t *second, length m, const uint16_t *skeleton, length keys,
                const uint16_t *points, length numbers, uint8_t *buffer, length buffer_bytes, length record[4]) {
    fault found = write_fault(n, m, keys, numbers, buffer_bytes);
    begin(record, found);
    record[3] = 0;
    if (found.number)
        return;
    uint8_t *at = put_key(buffer, MODULUS, p);
    at = put_terms(at, FIRST, first, n);
    at = put_terms(at, SECOND, second, m);
    at = put_keys(at, skeleton, keys);
    at = put_points(at, points, numbers);
    *at++ = END;
    record[3] = (length)(at - buffer);
}

void twin_image(uint16_t p, const uint32_t *first, length n, const uint32_t *second, length m, const uint16_t *point, length numbers,
                uint16_t u[8], length record[4]) {
    fault found = lists_fault(p, first, n, second, m);
    if (!found.number)
        found = numbers != 3 ? (fault){8, LIST_POINTS, 0} : numbers_fault(p, point, numbers);
    memset(u, 0, 8 * sizeof *u);
    begin(record, found);
    record[3] = 0;
    if (found.number)
        return;
    size_t s = image(p, first, n, second, m, point, u);
    if (s == 0)
        record[0] = 12;
    else
        record[3] = s - 1;
}

void twin_quotient(uint16_t p, const uint32_t *first, length n, const uint32_t *second, length m, uint32_t *out, length out_terms,
                   uint16_t *work, length work_numbers, length record[4]) {
    fault found = lists_fault(p, first, n, second, m);
    if (!found.number && out_terms < KEYS)
        found = (fault){10, LIST_OUTPUT, 0};
    if (!found.number && work_numbers < WORK_ROOM)
        found = (fault){11, LIST_WORK, 0};
    begin(record, found);
    record[3] = 0;
    if (found.number)
        return;
    memset(work, 0, WORK_ROOM * sizeof *work);
    if (divide(p, first, n, second, m, KEYS, work).number == 0) {
        for (size_t k = KEYS; k-- > 0;)
            if (work[KEYS + k] != 0)
                out[record[3]++] = (uint32_t)k << 16 | work[KEYS + k];
    } else
        record[0] = 15;
    memset(work, 0, WORK_ROOM * sizeof *work);
}

static fault candidate_fault(uint16_t p, const uint32_t *first, size_t n, const uint32_t *second, size_t m, const uint16_t *skeleton, size_t keys,
                             const uint16_t *points, size_t numbers, size_t out_terms, size_t work_numbers) {
    fault found = lists_fault(p, first, n, second, m);
    if (found.number)
        return found;
    if (keys == 0 || keys > MOST_KEYS)
        return (fault){6, LIST_SKELETON, 0};
    for (size_t i = 0; i < keys; i++)
        if (skeleton[i] >= (i ? skeleton[i - 1] : KEYS))
            return (fault){7, LIST_SKELETON, i};
    if (numbers == 0 || numbers > 3 * MOST_POINTS || numbers % 3 != 0)
        return (fault){8, LIST_POINTS, 0};
    found = numbers_fault(p, points, numbers);
    if (found.number)
        return found;
    return out_terms < keys ? (fault){10, LIST_OUTPUT, 0} : work_numbers < WORK_ROOM ? (fault){11, LIST_WORK, 0} : found;
}

/* The verdict on the equations: a number, the divisor's terms, and the steps of division. */
static size_t verdict(const table *t, uint16_t p, const uint32_t *first, size_t n, const uint32_t *second, size_t m, const uint16_t *skeleton, size_t keys,
                      length ceiling, uint32_t *out, uint16_t *work, length *count, length *steps) {
    uint16_t values[COLUMNS];
    uint32_t terms[MOST_KEYS];
    size_t number = solve(t, p, values), lead = 0;
    if (number) {
        memset(work, 0, WORK_ROOM * sizeof *work);
        return number;
    }
    while (values[lead] == 0)
        lead++;
    uint16_t factor = inverse(p, values[lead]);
    size_t k = 0;
    for (size_t i = 0; i < keys; i++)
        if (values[i] != 0)
            terms[k++] = (uint32_t)skeleton[i] << 16 | times(p, values[i], factor);
    trial found = divides_both(p, first, n, second, m, terms, k, ceiling, work);
    *steps = found.steps;
    if (found.number)
        return found.number;
    memcpy(out, terms, k * sizeof *terms);
    *count = k;
    return 0;
}

void twin_candidate(uint16_t p, const uint32_t *first, length n, const uint32_t *second, length m, const uint16_t *skeleton, length keys,
                    const uint16_t *points, length numbers, length ceiling, uint32_t *out, length out_terms, uint16_t *work, length work_numbers,
                    length record[9]) {
    size_t sizes[MOST_POINTS], least = 0, bad = 0, kept = 0, count = numbers / 3, next = 0;
    fault found = candidate_fault(p, first, n, second, m, skeleton, keys, points, numbers, out_terms, work_numbers);
    memset(record, 0, 9 * sizeof *record);
    begin(record, found);
    if (found.number)
        return;
    for (size_t i = 0; i < count; i++) {
        sizes[i] = image(p, first, n, second, m, points + 3 * i, work + 8 * i);
        if (sizes[i] != 0 && (least == 0 || sizes[i] < least))
            least = sizes[i];
    }
    for (size_t i = 0; i < count; i++) {
        bad += sizes[i] == 0;
        kept += sizes[i] == least;
    }
    record[4] = bad;
    if (least == 0) {
        memset(work, 0, WORK_ROOM * sizeof *work);
        record[0] = 12;
        return;
    }
    record[3] = least - 1;
    record[5] = count - bad - kept;
    record[6] = kept;
    table t;
    memset(&t, 0, sizeof t);
    t.columns = keys + kept;
    for (size_t i = 0; i < count; i++)
        if (sizes[i] == least) {
            point_equations(&t, p, skeleton, keys, points + 3 * i, work + 8 * i, next == 0 ? t.columns - 1 : keys + next - 1);
            next++;
        }
    record[0] = verdict(&t, p, first, n, second, m, skeleton, keys, ceiling, out, work, &record[7], &record[8]);
}

/* Each coefficient times the factor. */
static void scale(uint16_t p, uint16_t factor, uint32_t *terms, size_t n) {
    for (size_t i = 0; i < n; i++)
        terms[i] = (uint32_t)key_of(terms[i]) << 16 | times(p, coefficient_of(terms[i]), factor);
}

/* Without room for its divisor the candidate refuses with 10, which is where a short output of the key stands. */
void twin_cancel(uint16_t p, const uint32_t *numerator, length n, const uint32_t *denominator, length m, const uint16_t *skeleton, length keys,
                 const uint16_t *points, length numbers, length ceiling, uint32_t *numerator_out, length numerator_room, uint32_t *denominator_out,
                 length denominator_room, uint16_t *work, length work_numbers, length record[10]) {
    uint32_t divisor[MOST_KEYS];
    length quotient[4], room = numerator_room < KEYS || denominator_room < KEYS ? 0 : MOST_KEYS;
    twin_candidate(p, numerator, n, denominator, m, skeleton, keys, points, numbers, ceiling, divisor, room, work, work_numbers, record);
    size_t terms = record[7];
    record[9] = record[8];
    record[8] = 0;
    if (record[0])
        return;
    scale(p, coefficient_of(denominator[0]), divisor, terms);
    twin_quotient(p, numerator, n, divisor, terms, numerator_out, numerator_room, work, work_numbers, quotient);
    record[7] = quotient[3];
    twin_quotient(p, denominator, m, divisor, terms, denominator_out, denominator_room, work, work_numbers, quotient);
    record[8] = quotient[3];
}

/* How many terms have the highest power of x. */
static size_t leading_length(const uint32_t *terms, size_t n) {
    size_t i = 1;
    while (i < n && x_of(key_of(terms[i])) == x_of(key_of(terms[0])))
        i++;
    return i;
}

void twin_shorter_part(const uint32_t *first, length n, const uint32_t *second, length m, length part[2]) {
    part[0] = 0;
    part[1] = 1;
    if (list_fault(2, 3, LIST_FIRST, COEFFICIENTS, first, n).number || list_fault(4, 5, LIST_SECOND, COEFFICIENTS, second, m).number)
        return;
    size_t a = leading_length(first, n), b = leading_length(second, m);
    part[0] = b < a ? b : a;
    part[1] = b < a ? 2 : 1;
}
