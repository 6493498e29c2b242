/* What the start-up code lends the measuring code. */
#ifndef START_H
#define START_H

#include <stdint.h>

int main(void);

/* Where the core begins. */
void start(void);

/* A call of the emulator. */
int semihost(int operation, const void *argument);

void print(const char *text);

#endif
