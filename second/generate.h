/*
 * The generator of scripts.  It runs its own copy of the machine while it writes, so that it can
 * look at the state and choose what is worth trying next.
 */
#ifndef GENERATE_H
#define GENERATE_H

#include <stdbool.h>
#include <stddef.h>
#include <stdint.h>

#include "kernel.h"
#include "machine.h"

enum { BUFFER = 8200, LONGEST_PUT = 32, FORMS = 2, DIRECT = 0, BY_EXI = 1, OUTCOMES = FAULTS + 1 };

enum kind { KIND_CALLS, KIND_BROKEN, KIND_JUDGE, KIND_PARSER, KIND_CLOCK, KINDS };
extern enum kind kind;

/* play.c: numbers that depend on the seed only, and some scene by the state and the kind */
void start_draws(unsigned long seed);
uint32_t below(uint32_t end);
unsigned from_to(unsigned low, unsigned high);
bool chance(unsigned percent);
bool may_break(void);  /* the kind of script allows `break` */
void keep_going(void);

/* The numbers of a burst as they stand in its line; a line of 255 characters holds no more. */
enum { LONGEST_LINE = 255, LONGEST_LIST = (LONGEST_LINE - 5) / 2 };
struct list {
    unsigned count;
    uint16_t number[LONGEST_LIST];
};

/* orders.c: each writes one line and does the same to the copy; past the last order nothing happens */
extern uint8_t world[BUFFER];
extern size_t lent;
extern struct answer last;
bool full(void);
bool near_end(void);
void start_orders(unsigned long limit);
void order_fresh(unsigned line, unsigned divider);
void order_step(void);
void order_interrupt(unsigned number, unsigned class_number);
unsigned burst_text(const struct list *list, char text[LONGEST_LINE + 1]);
void order_burst(const struct list *list);
void order_burst_as(const char *line, const struct list *list);
void order_settings(unsigned address, unsigned length);
struct writing {
    unsigned file, room, used, block, length;
};
void order_write(const struct writing *w);
void order_registers(void);
void order_set(const struct registers *registers);
void order_judge(void);
void order_put(unsigned address, const uint8_t *values, unsigned count);
void order_break(unsigned address, const uint8_t *values, unsigned count);
void order_length(unsigned length);
void order_words(unsigned address, unsigned count);
void order_changes(void);
void order_raw(const char *line);
void put_allowed(unsigned address, const uint8_t *values, unsigned count);
void maybe_changes(unsigned percent);

/* look.c: the state, read for choosing; the memory is well-formed */
enum wait { WAIT_NONE, WAIT_INTERRUPT, WAIT_PAGE, WAIT_MESSAGE };
struct one {
    unsigned page, name, priority;
    bool stopped;
    enum wait wait;
    unsigned interrupt;  /* waited for */
    unsigned reason;
    unsigned q1, q2;     /* how many messages */
    unsigned mail;       /* of them, whose sender exists and is another */
    unsigned notices;    /* of them, notices */
    unsigned odd;        /* notices whose sender's name exists */
    unsigned marked;     /* of them, marked */
    unsigned alive;      /* marked ones whose sender's name exists again and is another's */
    unsigned grant;
};
struct look {
    struct one one[PAGES];
    unsigned count, ready, free, page_waiters;
    unsigned running;    /* index into one, or count if idle */
    unsigned lr;
};
struct look look_at(const uint8_t *m);
struct letter {
    unsigned page, holder;  /* pages of the message and of who has it */
    unsigned queue;         /* Q1 or Q2 */
    unsigned name, flag;    /* of the sender */
    unsigned length;        /* word 2 as it stands */
};
unsigned all_letters(const uint8_t *m, struct letter letters[PAGES]);
bool is_idle(void);
bool others_ready(void);  /* who runs is not the only one that could */
const struct one *runner_of(const struct look *l);
unsigned absent_name(const struct look *l);
unsigned existing_name(const struct look *l);
const struct one *find_one(const struct look *l, unsigned name);
unsigned pick_code(unsigned wanted_kind, unsigned lowest);
unsigned highest_priority(const struct look *l);   /* of all, ready or not */
unsigned allowed_priority(const struct look *l);   /* the runner's own or less */
unsigned priority_above(const struct look *l);     /* the runner's own; 0 if there is none */
unsigned some_priority(const struct look *l);      /* allowed, seldom above */
struct wish {
    unsigned name, priority;        /* asked for */
    unsigned name_at, priority_at;  /* in which words */
    bool exi, fits;                 /* by EXI; no argument word goes beyond its field */
};
bool wishes_to_create(const uint8_t *m, unsigned page, struct wish *w);  /* CRP at its LR, if all words can be read */

/* reach.c: what was reached */
enum mark {
    MARK_GRANT_GIVEN, MARK_GRANT_USED, MARK_GRANT_OTHER, MARK_GRANT_KEPT, MARK_DELETE, MARK_DELETE_MAIL,
    MARK_DELETE_NOTICE, MARK_DELETE_ODD, MARK_DELETE_GRANT, MARK_DELETE_INTERRUPT, MARK_DELETE_PAGE,
    MARK_DELETE_MESSAGE, MARK_DELETE_FEEDS, MARK_WAKE_MESSAGE, MARK_WAKE_NOTICE, MARK_NOTICE_SENT, MARK_TME_Q2,
    MARK_TME_TAIL, MARK_RME_MIDDLE, MARK_HANDED_DIRECT, MARK_HANDED_EXI, MARK_EXI_INDEXED, MARK_PAGE_9_FULL,
    MARK_FAULT_FULL, MARK_SWITCH, MARK_TO_IDLE, MARK_PREEMPTED, MARK_EQUAL_STAYS, MARK_STOPPED_WOKEN,
    MARK_BROKEN_JUDGED, MARK_BROKEN_FINE, MARK_TOLD_AMONG, MARK_TOLD_FIRST, MARK_TOLD_LOWER, MARK_LOOP,
    MARK_LEADS_ON, MARK_WAIT_LOOP, MARK_WAIT_LEADS_ON, MARK_WRONG_LENGTH, MARK_NOT_UNDERSTOOD, MARK_NOT_ALLOWED,
    MARK_MARKED, MARK_MARKED_Q1, MARK_MARKED_Q2, MARK_MARKS, MARK_MARKS_HOLDERS, MARK_MARKS_QUEUE, MARK_MARKS_FLAGS,
    MARK_MARKS_OWN, MARK_MARKS_OWN_Q2, MARK_NOT_AGAIN, MARK_NOTICE_LEFT, MARK_DELETE_MARKED, MARK_GIVEN_ALIVE,
    MARK_GIVEN_GONE, MARK_DELETE_MIXED, MARK_DELETE_NOBODYS, MARK_NAMESAKE, MARK_NOBODYS_MADE, MARK_TWO_LIVES,
    MARK_THREE_LIVES, MARK_READ, MARK_READ_0, MARK_READ_1, MARK_READ_29, MARK_READ_TIGHT, MARK_READ_FAULT,
    MARK_MOVED_WNM, MARK_MOVED_TME, MARK_ABOVE_BY_ONE, MARK_ABOVE_BY_MORE, MARK_AS_HIGH, MARK_BELOW, MARK_ABOVE_TAKEN,
    MARK_AS_HIGH_TAKEN, MARK_ABOVE_NAME_0, MARK_ABOVE_BAD_WORD, MARK_ABOVE_NO_PAGE, MARK_ABOVE_OTHERS,
    MARK_ABOVE_NOT_NAME, MARK_ABOVE_FULL, MARK_UNDER_OTHERS, MARK_ABOVE_GRANT, MARK_LEFT_TO_SME, MARK_LEFT_TO_CRP,
    MARK_ANEW, MARK_ANEW_WORDS, MARK_ANEW_RANK, MARK_ANEW_TAKEN, MARK_13_GOOD, MARK_14_TOLD, MARK_15_TOLD,
    MARKS
};
void mark(enum mark what);
unsigned long marked(enum mark what);
unsigned long reached(unsigned code, unsigned form, unsigned outcome);
void reach_step(const uint8_t *before, const struct answer *answer);
void reach_interrupt(const uint8_t *before, unsigned number, const struct answer *answer);
void reach_answer(const struct answer *answer);
void write_reached(void);

/* told.c: what the judge told */
void reach_told(const uint8_t *m, const struct answer *answer);
void write_told(void);

/* gone.c: what marks on mail reached */
void reach_gone(const uint8_t *before, unsigned code, unsigned form, const struct answer *answer);

/* ranked.c: what CRP asked for, against the priority of who ran it; faults of page 9 that the judge saw */
void reach_rank(const uint8_t *before, unsigned code, const struct answer *answer);
void reach_page_9(const struct answer *answer);

/* struck.c: what bursts reached */
unsigned long bursts_done(unsigned pairs);
unsigned long bursts_refused_at(unsigned place);
void reach_burst(const uint8_t *before, const uint8_t *list, unsigned count, const struct answer *answer);
void write_bursts(void);

/* filed.c: what settings reached; a part of the words that goes past 8,200 is not allowed */
void reach_parts(unsigned end, bool allowed);
void reach_settings(const uint8_t *before, unsigned address, const uint8_t *file, unsigned length,
                    const struct answer *answer);
void reach_write(const uint8_t *file, const struct writing *w, const uint8_t *block, const struct answer *answer);
void write_settings_reached(void);

/* plan.c: one instruction, direct or by EXI, put at LR and run */
struct plan {
    unsigned code;
    bool exi;
    struct arguments g;
    int bad_word;           /* by EXI: the argument word that goes beyond its field, or -1 */
    bool protected_words;   /* by EXI: some argument words are protected */
    bool index;             /* by EXI: with indexing */
};
unsigned place(unsigned count);
unsigned place_protected(unsigned count);
unsigned before_index(unsigned address, unsigned xn);
unsigned direct_words(const struct plan *p, uint8_t *words);
unsigned exi_words(const struct plan *p, uint8_t *words);
unsigned pick_bad_word(unsigned code);
void issue(const struct plan *p);
void issue_batch(const struct plan *plans, unsigned count);

/* build.c: plans for a wanted outcome */
bool build(struct plan *p, unsigned code, bool exi, unsigned outcome);
bool try_to(unsigned code, unsigned outcome);
bool do_plan(struct plan *p);  /* direct or by EXI */
bool do_name(unsigned code, unsigned name);
bool do_create(unsigned name, unsigned priority);
bool do_send(unsigned name, unsigned flag, unsigned length);
bool do_message(unsigned code, unsigned name, unsigned flag);
bool do_wait(unsigned interrupt, unsigned count);

/* interrupts.c: for somebody that waits, if anybody does */
unsigned waited_for(void);
void deliver_to_waiter(void);

/* bursts.c: lists for bursts, good and bad; the memory may be broken only for the first */
void any_burst(void);
bool burst_for_waiters(void);
void burst_on(unsigned number);

/* turns.c: who runs and who would, and that another one runs or is deleted */
unsigned runner_name(void);                 /* 0 if nobody does */
unsigned next_name(const struct look *l);   /* 0 if nobody else is ready */
bool has_equals(const struct look *l);      /* others are ready with the runner's priority */
bool built_in(unsigned code);
struct plan plan_for(unsigned code, unsigned name);  /* direct */
bool call_higher(void);                     /* true if a higher one was started and runs now */
bool let_run(unsigned name);
bool clear_the_way(unsigned name);
void bury(unsigned name);

/* crowd.c: with a page granted or mail to read, or by a deletion */
void give_something_back(void);

/* ranks.c: who may create what */
void promote(unsigned page, unsigned priority);  /* by hand, if the memory stays well-formed */
bool create_anew(void);   /* true if the runner's CRP was run again where it had waited for a page */
void raise_first(void);
bool is_flat(const struct look *l);
void lift(void);

/* swap.c: settings, good and bad; the memory may have any length and be broken */
void any_settings(void);
void start_from_settings(void);
void start_with_crew(unsigned divider);

/* scenes.c, interrupts.c, crowd.c, namesakes.c, ranks.c, broken.c, harmless.c, lines.c, bursts.c, swap.c: plays of some orders each */
void scene_single(void);
void scene_calls(void);
void scene_interrupts(void);
void scene_codes(void);
void scene_edges(void);
void scene_context(void);
void scene_idle(void);
void scene_revive(void);
void scene_faults(void);
void scene_clock(void);
void scene_grow(void);
void scene_hunger(void);
void scene_relieve(void);
void scene_reap(void);
void scene_notice(void);
void scene_messages(void);
void scene_gather(void);
void scene_address(void);
void scene_mailbox(void);
void scene_halt(void);
void scene_lives(void);
void scene_heirs(void);
void scene_estate(void);
void scene_keepsakes(void);
void scene_ranks(void);
void scene_second_thoughts(void);
void scene_pledges(void);
void scene_promotions(void);
void scene_ruin(void);
void scene_break(void);
void scene_harmless_break(void);
void scene_litter(void);
void scene_forge(void);
void scene_nobody(void);
void scene_length(void);
void scene_lines(void);
void scene_bursts(void);
void scene_bad_bursts(void);
void scene_muster(void);
void scene_starts(void);
void scene_damages(void);
void scene_writes(void);
void scene_parts(void);
void write_ways(void);  /* how memories were broken */
void unstick(void);
void opening(void);

#endif
