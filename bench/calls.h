/* The library's six calls that are measured, by the types that their plain C twins have too. A length, and so a ceiling and a number of steps, is 64
   bits wide in the proved module, also where the module is compiled for a core whose own size_t has 32. */
#ifndef CALLS_H
#define CALLS_H

#include <stdint.h>

typedef uint64_t length;

typedef void candidate_call(uint16_t modulus, const uint32_t *first, length first_terms, const uint32_t *second, length second_terms,
                            const uint16_t *skeleton, length keys, const uint16_t *points, length numbers, length ceiling,
                            uint32_t *out, length out_terms, uint16_t *work, length work_numbers, length record[9]);

typedef void quotient_call(uint16_t modulus, const uint32_t *first, length first_terms, const uint32_t *second, length second_terms,
                           uint32_t *out, length out_terms, uint16_t *work, length work_numbers, length record[4]);

typedef void image_call(uint16_t modulus, const uint32_t *first, length first_terms, const uint32_t *second, length second_terms,
                        const uint16_t *point, length numbers, uint16_t coefficients[8], length record[4]);

typedef void write_call(uint16_t modulus, const uint32_t *first, length first_terms, const uint32_t *second, length second_terms,
                        const uint16_t *skeleton, length keys, const uint16_t *points, length numbers,
                        uint8_t *buffer, length buffer_bytes, length record[4]);

typedef void shorter_call(const uint32_t *first, length first_terms, const uint32_t *second, length second_terms, length part[2]);

typedef void cancel_call(uint16_t modulus, const uint32_t *numerator, length numerator_terms, const uint32_t *denominator, length denominator_terms,
                         const uint16_t *skeleton, length keys, const uint16_t *points, length numbers, length ceiling,
                         uint32_t *numerator_out, length numerator_room, uint32_t *denominator_out, length denominator_room,
                         uint16_t *work, length work_numbers, length record[10]);

/* Two divisions never take more steps. */
enum { MOST_STEPS = 8192 };

candidate_call balungkiro_candidate;
quotient_call balungkiro_quotient;
image_call balungkiro_image;
write_call balungkiro_write;
shorter_call balungkiro_shorter_part;
cancel_call balungkiro_cancel;

#endif
