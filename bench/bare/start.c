/* Start-up of the bare core, the emulator's console, and the few functions of C's library that compiled code calls. */
#include <stddef.h>

#include "start.h"

extern uint32_t stack_high[];

void start(void) {
    main();
    semihost(0x18, (const void *)0x20026); /* the program ends, as it should */
}

static void fault(void) {
    print("fault\n");
    semihost(0x18, (const void *)0x20023); /* the program ends by an error */
}

__attribute__((section(".vectors"), used)) static const void *const vectors[16] = {
    stack_high, (void *)start, (void *)fault, (void *)fault, (void *)fault, (void *)fault, (void *)fault,
};

int semihost(int operation, const void *argument) {
    register int r0 __asm__("r0") = operation;
    register const void *r1 __asm__("r1") = argument;
    __asm__ volatile("bkpt 0xab" : "+r"(r0) : "r"(r1) : "memory");
    return r0;
}

void print(const char *text) { semihost(4, text); }

/* Four words at a time where both are aligned, as a C library for this core does. */
void *memcpy(void *to, const void *from, size_t n) {
    unsigned char *t = to;
    const unsigned char *f = from;
    if ((((uintptr_t)t | (uintptr_t)f) & 3) == 0) {
        uint32_t *tw = to;
        const uint32_t *fw = from;
        for (; n >= 16; n -= 16, tw += 4, fw += 4) {
            uint32_t a = fw[0], b = fw[1], c = fw[2], d = fw[3];
            tw[0] = a;
            tw[1] = b;
            tw[2] = c;
            tw[3] = d;
        }
        t = (unsigned char *)tw;
        f = (const unsigned char *)fw;
    }
    while (n-- > 0)
        *t++ = *f++;
    return to;
}

void *memset(void *to, int value, size_t n) {
    unsigned char *t = to;
    uint32_t word = (unsigned char)value * 0x01010101u;
    while (n > 0 && ((uintptr_t)t & 3) != 0) {
        *t++ = (unsigned char)value;
        n--;
    }
    for (; n >= 16; n -= 16, t += 16) {
        uint32_t *w = (uint32_t *)t;
        w[0] = word;
        w[1] = word;
        w[2] = word;
        w[3] = word;
    }
    while (n-- > 0)
        *t++ = (unsigned char)value;
    return to;
}

/* The names by which compiled code calls them. */
void __aeabi_memcpy(void *to, const void *from, size_t n) { memcpy(to, from, n); }
void __aeabi_memcpy4(void *to, const void *from, size_t n) { memcpy(to, from, n); }
void __aeabi_memcpy8(void *to, const void *from, size_t n) { memcpy(to, from, n); }
void __aeabi_memclr(void *to, size_t n) { memset(to, 0, n); }
void __aeabi_memclr4(void *to, size_t n) { memset(to, 0, n); }
void __aeabi_memclr8(void *to, size_t n) { memset(to, 0, n); }
