/*
 * What the parts of the kernel share: the memory map and the calls between the parts.
 *
 * A page number (236-255) and a processor's name (1-15) are both small numbers.  Variables that
 * hold the one are called `page` or after what the page holds, those that hold the other `name`.
 */
#ifndef MACHINE_H
#define MACHINE_H

#include <stdbool.h>
#include <stddef.h>
#include <stdint.h>

#include "kernel.h"

enum {
    WORDS = 8192,
    PAGE_WORDS = 32,
    FIRST_PAGE = 236,
    LAST_PAGE = 255,
    PAGES = 20,
    HIGHEST_NAME = 15,
    CODES = 16,
    FIRST_LR = 2752,
    INSTRUCTION = 224  /* "Word n is 224" */
};

/* Pages 4-7, 8, 9 and 10, as addresses. */
enum {
    TABLES = 128,
    LINE = 239,
    C0 = 240, C1 = 241, C2 = 242, C3 = 243,
    FREE_LIST = 244,
    FREE_SEMAPHORE = 245,
    PAGE_QUEUE = 246,
    PROCESSOR_LIST = 247,
    RUNNING_PAGE = 248,
    RUNNING_WHO = 249,
    ALWAYS_ZERO = 250,
    DIVIDER = 251,
    CODE_TABLE = 256,
    FAULT_TABLE = 288,
    GRANTS = 320,
    TABLES_END = 352
};

/* Words of a processor page. */
enum {
    LINK = 0, LIST_LINK = 1, REASON = 2, OWN_SEMAPHORE = 3, OWN_WAIT = 4, Q1 = 5, Q2 = 6,
    WHO = 7, REGISTER_A = 8, REGISTER_S = 9, LR_HIGH = 10, LR_LOW = 11, STATE = 12, SAVED = 13
};
enum { STOPPED = 128, WAITING = 64, STATE_ZEROS = 48, STATE_W = 15 };

/*
 * Words of a message page, after LINK.  LENGTH is the length of the text, 0-29; or that and MARKED, where
 * the sender was deleted after it sent this; or NOTICE.
 */
enum { FROM = 1, LENGTH = 2, TEXT = 3, LONGEST_TEXT = 29, MARKED = 64, NOTICE = 128 };

enum { KIND_ABSENT = 0, KIND_BUILT_IN = 1, KIND_OWN = 2 };

enum { INTERRUPTS = 54, MOST_PAIRS = 32 };  /* a burst has "up to 32 interrupts, as pairs" */

enum { FAULTS = 13, FAULT_TABLE_FULL = 32 };

enum {
    FAULT_ABSENT_CODE = 1, FAULT_EXI_OF_EXI, FAULT_CODE_EXISTS, FAULT_LASTING_CODE, FAULT_WIN,
    FAULT_NO_MATCH, FAULT_NO_PROCESSOR, FAULT_ST2, FAULT_NAME_EXISTS, FAULT_NOT_STOPPED,
    FAULT_PROTECTED, FAULT_ARGUMENT, FAULT_ABOVE_ITSELF
};

enum {
    REFUSE_LENGTH = 20, REFUSE_IDLE = 22, REFUSE_NOT_224, REFUSE_INTERRUPT, REFUSE_CLASS, REFUSE_VALUE,
    REFUSE_LIST,  /* a burst that is odd or too long */
    REFUSE_LAYOUT, REFUSE_VERSION,  /* of settings: a break of layout, a version above the reader's own */
    REFUSE_USES = 30, REFUSE_WAITS, REFUSE_RECORDS, REFUSE_TABLES, REFUSE_RUNNING,  /* memory not well-formed */
    REFUSE_ROOM  /* a buffer too short for the settings to be written */
};

/* The address of a word of a page. */
static inline unsigned at(unsigned page, unsigned word)
{
    return page * PAGE_WORDS + word;
}

/* "interrupt k (1-54) has its semaphore at 2k+1 and queue header at 2k+2" */
static inline unsigned interrupt_header(unsigned k)
{
    return TABLES + 2 * k + 2;
}

static inline bool is_control_page(unsigned value)
{
    return value >= FIRST_PAGE && value <= LAST_PAGE;
}

static inline void store(uint8_t *m, unsigned address, unsigned value)
{
    m[address] = (uint8_t)(value & 255u);
}

/* memory.c */
bool is_protected(unsigned address);
bool any_protected(unsigned address, unsigned count);
unsigned wrap(unsigned address);
unsigned read_address(const uint8_t *m, unsigned address);
unsigned code_kind(const uint8_t *m, unsigned code);
unsigned code_program(const uint8_t *m, unsigned code);
void set_code(uint8_t *m, unsigned code, unsigned kind, unsigned program);

/* queue.c: a queue is read into an array, changed there and written back. */
struct queue {
    unsigned header;  /* address of the header */
    unsigned link;    /* which word of a page is the link */
    unsigned count;
    bool broken;      /* a link leads outside the control pages, or the list never ends */
    uint8_t page[PAGES];
};
struct queue queue_read(const uint8_t *m, unsigned header, unsigned link);
void queue_join(uint8_t *m, unsigned header, unsigned link, unsigned page);
void queue_leave(uint8_t *m, unsigned header, unsigned link, unsigned page);

/* processor.c */
unsigned name_of(const uint8_t *m, unsigned page);
unsigned priority_of(const uint8_t *m, unsigned page);
bool is_ready(const uint8_t *m, unsigned page);
unsigned find_processor(const uint8_t *m, unsigned name);
unsigned get_lr(const uint8_t *m, unsigned page);
void set_lr(uint8_t *m, unsigned page, unsigned lr);
void set_up_processor(uint8_t *m, unsigned page, unsigned name, unsigned priority, unsigned w, unsigned lr);
void who_runs(uint8_t *m);

/* wait.c */
void wait_join(uint8_t *m, unsigned header, unsigned page, unsigned reason);
void wait_leave(uint8_t *m, unsigned header, unsigned page);
void wake(uint8_t *m, unsigned header, unsigned page);
unsigned wait_header_of(const uint8_t *m, unsigned page);
void serve(uint8_t *m, unsigned k, unsigned class_number);
void serve_from_outside(uint8_t *m, unsigned k, unsigned class_number);

/* deliver.c */
bool is_marked(unsigned length);
unsigned text_length(const uint8_t *m, unsigned message);
bool matches(unsigned wanted, unsigned from);
unsigned first_match(const uint8_t *m, unsigned header, unsigned wanted);
void deliver(uint8_t *m, unsigned message, unsigned receiver);
unsigned take_page(uint8_t *m, unsigned name);
void give_back(uint8_t *m, unsigned page);
void delete_processor(uint8_t *m, unsigned page);

/* judge.c: what is broken, the number of the refusal and the address told; number 0 if nothing is */
struct finding {
    unsigned number, address;
};
struct finding judge(const uint8_t *m);
bool well_formed(const uint8_t *m);

/* operation.c */
struct runner {
    uint8_t *m;
    unsigned page;
    unsigned name;
    unsigned after;  /* the address after the instruction */
};
struct arguments {
    unsigned field;    /* NI, a code, or I X XN of code 13 */
    unsigned flag;     /* F, CODE1 of code 13, or X XN of EXI */
    unsigned address;
    unsigned interrupt, count;
    unsigned priority, w;
};
/* What an operation gives: 0, a fault 1-13, or one of these two. */
enum { OUTCOME_DONE = 0, OUTCOME_LR_SET = 100, OUTCOME_WAITS = 101 };
typedef unsigned operation(struct runner *r, const struct arguments *g);
extern operation *const operations[CODES];
unsigned indexed(const uint8_t *m, unsigned address, unsigned xn);

/* instruction.c */
struct answer run_instruction(uint8_t *m);

#endif
