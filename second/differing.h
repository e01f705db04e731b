/* What differs between two memories of 8,192 words: the words, and what is said of each name. */
#ifndef DIFFERING_H
#define DIFFERING_H

#include "machine.h"

/* The first address from this one on at which they differ, or WORDS. */
unsigned next_difference(const uint8_t *first, const uint8_t *second, unsigned from);

enum { IN_FIRST = 1, IN_SECOND = 2, IN_BOTH = IN_FIRST | IN_SECOND };
enum aspect { IN_STATE, IN_PRIORITY, IN_Q1, IN_Q2, ASPECTS };

struct comparison {
    unsigned where;          /* 0 if neither has the name */
    bool differs[ASPECTS];   /* false all, if it is not in both */
};

/* Both memories are well-formed. */
struct comparison compare_name(const uint8_t *first, const uint8_t *second, unsigned name);

#endif
