/*
 * The judge of well-formed memory, in two parts: a survey of the lists and queues, which can be
 * made of any 8,192 words, and the rules, each of which gives the addresses that offend it.
 */
#ifndef JUDGE_H
#define JUDGE_H

#include "machine.h"

/* A walk meets the control pages along the links from a header, at most 21: then one came twice. */
enum { LONGEST_WALK = PAGES + 1 };

struct walk {
    unsigned count;
    uint8_t page[LONGEST_WALK];
    unsigned false_end;  /* the address of the word that ended it, if that is neither 0 nor a control page; else 0 */
};

struct survey {
    const uint8_t *m;
    struct walk processors, free_list, page_queue;
    struct walk interrupt[INTERRUPTS + 1];    /* of interrupt k at k */
    struct walk q1[LONGEST_WALK], q2[LONGEST_WALK], own_wait[LONGEST_WALK];  /* of each processor met, in order */
    unsigned uses[PAGES], waits[PAGES];       /* how often the walks meet each control page */
    bool listed[PAGES];                       /* on the processor list */
};

/* The addresses that offend are told one by one, in any order; the lowest is kept. */
enum { NOWHERE = WORDS };
struct told {
    unsigned lowest;  /* or NOWHERE */
};

struct rule {
    unsigned number;       /* of the refusal */
    const char *sentence;  /* what document 01 says, or how it is read */
    void (*offends)(const struct survey *s, struct told *told);
};

/* survey.c */
struct walk walk_from(const uint8_t *m, unsigned header, unsigned link);
void survey(struct survey *s, const uint8_t *m);
static inline unsigned index_of(unsigned page)
{
    return page - FIRST_PAGE;
}

/* judge.c */
enum { RULES = 24 };
extern const struct rule rules[RULES];
unsigned lowest_of(unsigned number, const struct survey *s);

#endif
