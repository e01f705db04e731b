/* What the parts of the generator of pairs share.  The memory that they change is `world`. */
#ifndef PAIRS_H
#define PAIRS_H

#include "alike.h"

/* A file of the pair: its bytes, or that there is none; and by which word it is called. */
enum { LONGEST_DUMP = 20000, LONGEST_WORD = 32 };
struct side {
    uint8_t bytes[LONGEST_DUMP];
    size_t length;
    char word[LONGEST_WORD];
    bool missing;
};
extern struct side sides[2];

/* sorts.c: how pairs are made, in groups of which each seed has so many */
enum { GROUPS = 8, MOST_SORTS = 64 };
struct sort {
    const char *name;
    bool (*make)(unsigned which);  /* both sides; false if it did not come about */
    unsigned which;
    bool silent;                   /* no processor line may come of it */
};
struct group {
    struct sort *sorts;
    unsigned count, in_a_seed;
};
extern struct group groups[GROUPS];
void list_changes(void);  /* to be called first */

/* twin.c: scenes played on the world and on a second memory, which gets one order otherwise */
enum twist { LEFT_OUT, CHANGED, ADDED };
extern uint8_t twin[BUFFER];
bool play_twins(enum twist twist);  /* false if the scenes ended before that order */

/* renamed.c: the same memory, with other control pages for the same things */
enum renaming { OF_ALL, OF_TWO, OF_MAIL };
bool rename_pages(enum renaming which);  /* false if there are none */

/* A change of the world in one thing; false if it has no such thing.  The world may be broken by it. */
struct change {
    const char *name;
    breaker *go;
    bool silent;  /* no processor line may come of it */
};

/* letters.c: of mail; places.c: of who waits where, who runs and who is there; of what is in the word lines only */
extern const struct change letter_changes[], place_changes[], word_changes[];
extern const unsigned letter_change_count, place_change_count, word_change_count;

/* places.c: whom a change is about: the one of this name, if there is one; else any */
extern unsigned chosen;
const struct one *subject(const struct look *l);

/* outcomes.c: what `differ` has to say of the pairs */
void count_outcome(const uint8_t *first, size_t first_length, const uint8_t *second, size_t second_length);
void write_outcomes(void);

#endif
