/* What those share that play scenes without writing: two judges, and pairs.  The memory that they make is `world`. */
#ifndef ALIKE_H
#define ALIKE_H

#include "breakers.h"

/* quiet.c: the generator's orders, done and not written; what `break` and `put` store can be undone */
extern bool late;           /* what the generator's scenes take for the end of a script */
void keep_stores(void);     /* from here on */
unsigned stores_made(void);
void undo_stores(void);     /* back to there, and no more kept */
struct order {
    enum { FRESH, STEP, INTERRUPT, BURST, SETTINGS, WRITE, SET, STORE } what;
    unsigned number[7];           /* those of the order; of a store its address */
    unsigned count;               /* of the bytes of a burst or a store */
    uint8_t value[LONGEST_LIST];
};
struct answer carry_out(uint8_t *m, const struct order *order);
extern void (*beside)(const struct order *order);  /* if it is not NULL, it gets every order that was done */

/* lives.c: a well-formed memory that the scenes have reached; each time they go on from where they were */
void live_on(void);

/* built.c: a well-formed memory made at random, word by word; a crowded one has 16-20 processors */
void build_memory(bool crowded);

/* bends.c: ways to break a memory beside those of the scenes, which ask nothing of it; wrecks.c: to break much of it */
extern const struct way bends[], wrecks[];
extern const unsigned bend_count, wreck_count;

/* trifles.c: changes after which a well-formed memory is well-formed still */
extern const struct way trifles[];
extern const unsigned trifle_count;
breaker trifle_registers, trifle_free_page, trifle_granted_page, trifle_link, trifle_not_judged, trifle_w, trifle_turn;
breaker trifle_name, trifle_code, trifle_page_9, trifle_clock;

#endif
