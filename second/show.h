#ifndef SHOW_H
#define SHOW_H

#include <stddef.h>
#include <stdint.h>

/* Prints the state of 8,192 words, well-formed or not, for a person to read. */
void show_state(const uint8_t *m, size_t lent);

#endif
