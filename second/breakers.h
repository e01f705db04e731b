/*
 * Ways to break a memory.  Each aims at one rule of the judge by one or more orders `break`, and
 * gives false if the state has nothing to aim at.  The look is of the memory before the first
 * break; the memory itself may be broken already.
 */
#ifndef BREAKERS_H
#define BREAKERS_H

#include "generate.h"

typedef bool breaker(const struct look *l);

struct way {
    unsigned number;   /* the refusal that it aims at */
    const char *name;
    breaker *go;
    unsigned needs;    /* somebody that waits so, if it needs one (an enum wait), or one of these */
};
enum { NEEDS_IDLE = WAIT_MESSAGE + 1, NEEDS_FREE };  /* that nobody runs; a long free list */
enum { LONG_LIST = 11 };

/* tear.c: the lists of uses; tangle.c: wait queues; spoil.c: records, tables, counters */
extern const struct way tears[], tangles[], spoils[];
extern const unsigned tear_count, tangle_count, spoil_count;

/* broken.c */
void poke(unsigned address, unsigned value);
unsigned some_page(void);
const struct one *some_one(const struct look *l);
const struct one *some_waiter(const struct look *l, enum wait wait);  /* of any kind with WAIT_NONE; NULL if none */
const struct one *some_granted(const struct look *l);  /* NULL if there is none, and none can be made */
unsigned some_message(const struct look *l);
unsigned make_message(unsigned header);
unsigned put_message(unsigned header, unsigned from, unsigned length);
unsigned take_message(const struct look *l);  /* out of its queue; 0 if nobody has one */
unsigned some_value(unsigned old);
unsigned some_false_number(void);

/* harmless.c */
unsigned good_length(void);

/* tear.c: these break any list or queue */
bool cut(const struct queue *q);
bool end_falsely(const struct queue *q);
bool lead_on(const struct queue *q);
bool come_back(const struct queue *q);
bool run_into(const struct queue *q, const struct queue *other);

#endif
