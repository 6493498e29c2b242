/* A workload: the inputs of a candidate call, which are the Cancel key's too, with its number; what is divided by what; and the point where the image is taken. */
#ifndef WORKLOADS_H
#define WORKLOADS_H

#include "calls.h"

typedef struct {
    const char *name;
    uint16_t modulus;
    length number;
    const uint32_t *first;
    length first_terms;
    const uint32_t *second;
    length second_terms;
    const uint16_t *skeleton;
    length keys;
    const uint16_t *points;
    length numbers;
    const uint32_t *dividend;
    length dividend_terms;
    const uint32_t *divisor;
    length divisor_terms;
    const uint16_t *at;
    length at_numbers;
} workload;

#include "workloads.inc"

enum { WORKLOADS = sizeof workloads / sizeof workloads[0] };

#endif
