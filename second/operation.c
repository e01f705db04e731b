/*
 * The fourteen instructions that work on arguments.  Each first tests what its own rules ask, in
 * the order of the documents, and changes memory only after the last test.  Each gives 0 (done:
 * LR becomes the address after), a fault, OUTCOME_LR_SET or OUTCOME_WAITS.
 */
#include "machine.h"

/* CVI: "field becomes an own code at the address"; the address may be protected. */
static unsigned create_code(struct runner *r, const struct arguments *g)
{
    if (code_kind(r->m, g->field) != KIND_ABSENT)
        return FAULT_CODE_EXISTS;
    set_code(r->m, g->field, KIND_OWN, g->address);
    return OUTCOME_DONE;
}

/* DVI: "DVI 4 before 1" */
static unsigned delete_code(struct runner *r, const struct arguments *g)
{
    if (g->field <= 1)
        return FAULT_LASTING_CODE;
    if (code_kind(r->m, g->field) == KIND_ABSENT)
        return FAULT_ABSENT_CODE;
    set_code(r->m, g->field, KIND_ABSENT, 0);
    return OUTCOME_DONE;
}

/* GIN: "interrupt numbered as its own name", which is never on the clock line. */
static unsigned generate_interrupt(struct runner *r, const struct arguments *g)
{
    (void)g;
    serve(r->m, r->name, 0);
    return OUTCOME_DONE;
}

/* WIN: "advance, wait in IK's queue"; the count is the reason. */
static unsigned wait_interrupt(struct runner *r, const struct arguments *g)
{
    if (g->interrupt < 1 || g->interrupt > INTERRUPTS || g->count == 0)
        return FAULT_WIN;
    set_lr(r->m, r->page, r->after);
    wait_join(r->m, interrupt_header(g->interrupt), r->page, g->count);
    return OUTCOME_WAITS;
}

/* "with none, they wait in the page queue, LR staying" */
static unsigned wait_for_page(struct runner *r)
{
    wait_join(r->m, PAGE_QUEUE, r->page, 0);
    return OUTCOME_WAITS;
}

/* "SME 11 at A, 12, 11 at text"; NI 0 and flag 0 are the early 12. */
static unsigned test_send(const struct runner *r, const struct arguments *g)
{
    if (g->field == 0 || g->flag == 0)
        return FAULT_ARGUMENT;
    if (is_protected(g->address))
        return FAULT_PROTECTED;
    if (r->m[g->address] > LONGEST_TEXT)
        return FAULT_ARGUMENT;
    if (any_protected(g->address + 1, r->m[g->address]))
        return FAULT_PROTECTED;
    return 0;
}

/* SME: "If NI doesn't exist, a notice with NI as sender and the same flag .. joins the sender's own Q1." */
static unsigned send_message(struct runner *r, const struct arguments *g)
{
    uint8_t *m = r->m;
    unsigned fault = test_send(r, g);
    unsigned message, receiver;

    if (fault != 0)
        return fault;
    message = take_page(m, r->name);
    if (message == 0)
        return wait_for_page(r);
    receiver = find_processor(m, g->field);
    if (receiver == 0) {
        store(m, at(message, FROM), g->field * 16 + g->flag);
        store(m, at(message, LENGTH), NOTICE);
        deliver(m, message, r->page);
        return OUTCOME_DONE;
    }
    store(m, at(message, FROM), r->name * 16 + g->flag);
    for (unsigned i = 0; i <= m[g->address]; i++)
        store(m, at(message, LENGTH + i), m[g->address + i]);
    deliver(m, message, receiver);
    return OUTCOME_DONE;
}

static void move_to_q2(struct runner *r, unsigned message)
{
    queue_leave(r->m, at(r->page, Q1), LINK, message);
    queue_join(r->m, at(r->page, Q2), LINK, message);
}

/* WNM: "first match in Q1 to the end of Q2, else wait"; it "leaves LR on itself .. and is run anew". */
static unsigned wait_message(struct runner *r, const struct arguments *g)
{
    unsigned wanted = g->field * 16 + g->flag;
    unsigned message = first_match(r->m, at(r->page, Q1), wanted);

    if (message == 0) {
        wait_join(r->m, at(r->page, OWN_WAIT), r->page, wanted);
        return OUTCOME_WAITS;
    }
    move_to_q2(r, message);
    return OUTCOME_DONE;
}

/* RME: "RME 6, then 11 on its target": all 3 + length words are tested before the first store. */
static unsigned read_message(struct runner *r, const struct arguments *g)
{
    uint8_t *m = r->m;
    unsigned message = first_match(m, at(r->page, Q2), g->field * 16 + g->flag);
    unsigned length;

    if (message == 0)
        return FAULT_NO_MATCH;
    length = text_length(m, message);
    if (any_protected(g->address, 3 + length))
        return FAULT_PROTECTED;
    store(m, g->address, m[at(message, FROM)] / 16u);
    store(m, g->address + 1, m[at(message, FROM)] % 16u);
    store(m, g->address + 2, length);
    for (unsigned i = 0; i < length; i++)
        store(m, g->address + 3 + i, m[at(message, TEXT + i)]);
    queue_leave(m, at(r->page, Q2), LINK, message);
    give_back(m, message);
    return OUTCOME_DONE;
}

/*
 * TME: "match in Q2, else in Q1: LR becomes A, else advance; Q1 messages tested, the found one
 * too, go to Q2 in order".  The untested tail of Q1 stays.
 */
static unsigned test_message(struct runner *r, const struct arguments *g)
{
    unsigned wanted = g->field * 16 + g->flag;
    unsigned found = first_match(r->m, at(r->page, Q2), wanted);
    struct queue tested = queue_read(r->m, at(r->page, Q1), LINK);

    for (unsigned i = 0; found == 0 && i < tested.count; i++) {
        if (matches(wanted, r->m[at(tested.page[i], FROM)]))
            found = tested.page[i];
        move_to_q2(r, tested.page[i]);
    }
    if (found == 0)
        return OUTCOME_DONE;
    set_lr(r->m, r->page, g->address);
    return OUTCOME_LR_SET;
}

/* The start of ST1, STP, ST2 and DEP: NI 0 is 12, before 7. */
static unsigned test_name(const struct runner *r, const struct arguments *g, unsigned *page)
{
    *page = find_processor(r->m, g->field);
    if (g->field == 0)
        return FAULT_ARGUMENT;
    return *page == 0 ? FAULT_NO_PROCESSOR : 0;
}

static void set_stopped(uint8_t *m, unsigned page, bool stopped)
{
    unsigned others = m[at(page, STATE)] & ~(unsigned)STOPPED;

    store(m, at(page, STATE), stopped ? others + STOPPED : others);
}

/* ST1, STP: "clear, set the stopped bit of NI, which may be so already" */
static unsigned start(struct runner *r, const struct arguments *g)
{
    unsigned page, fault = test_name(r, g, &page);

    if (fault == 0)
        set_stopped(r->m, page, false);
    return fault;
}

static unsigned stop(struct runner *r, const struct arguments *g)
{
    unsigned page, fault = test_name(r, g, &page);

    if (fault == 0)
        set_stopped(r->m, page, true);
    return fault;
}

/* ST2: "8 ST2 and NI isn't stopped, or also waits" */
static unsigned start_at(struct runner *r, const struct arguments *g)
{
    unsigned page, fault = test_name(r, g, &page);

    if (fault != 0)
        return fault;
    if ((r->m[at(page, STATE)] & (STOPPED | WAITING)) != STOPPED)
        return FAULT_ST2;
    set_lr(r->m, page, g->address);
    set_stopped(r->m, page, false);
    return OUTCOME_DONE;
}

/* CRP: "a priority higher than that of the processor running it is now fault 13. It stands after 12 and before 9." */
static unsigned test_create(const struct runner *r, const struct arguments *g)
{
    if (g->field == 0 || g->priority == 0)
        return FAULT_ARGUMENT;
    if (g->priority > priority_of(r->m, r->page))
        return FAULT_ABOVE_ITSELF;
    if (find_processor(r->m, g->field) != 0)
        return FAULT_NAME_EXISTS;
    return 0;
}

/* A CRP that waited for a page is tested again when it runs anew; if it faults, its grant stays. */
static unsigned create_processor(struct runner *r, const struct arguments *g)
{
    uint8_t *m = r->m;
    unsigned fault = test_create(r, g);
    unsigned page;

    if (fault != 0)
        return fault;
    page = take_page(m, r->name);
    if (page == 0)
        return wait_for_page(r);
    set_up_processor(m, page, g->field, g->priority, g->w, g->address);
    return OUTCOME_DONE;
}

/* DEP: the running one is never stopped, so "DEP of itself: 10". */
static unsigned delete_named(struct runner *r, const struct arguments *g)
{
    unsigned page, fault = test_name(r, g, &page);

    if (fault != 0)
        return fault;
    if ((r->m[at(page, STATE)] & STOPPED) == 0)
        return FAULT_NOT_STOPPED;
    delete_processor(r->m, page);
    return OUTCOME_DONE;
}

/* "Indexing adds X register XN (words 24+2XN, 25+2XN, low five bits of the first) modulo 8,192" */
unsigned indexed(const uint8_t *m, unsigned address, unsigned xn)
{
    return wrap(address + read_address(m, 24 + 2 * xn));
}

/* The effect of CODE1 0-3 on A and the operand M. */
static void work_on_operand(struct runner *r, unsigned code1, unsigned operand)
{
    uint8_t *m = r->m;
    unsigned a = m[at(r->page, REGISTER_A)], value = m[operand];
    unsigned bits = m[at(r->page, LR_HIGH)];

    if (code1 == 0) {  /* "A becomes A+M modulo 256, P the carry" */
        store(m, at(r->page, REGISTER_A), a + value);
        store(m, at(r->page, LR_HIGH), (bits & 127u) + (a + value > 255 ? 128u : 0u));
    } else if (code1 == 1) {  /* "store A, then A is 0" */
        store(m, operand, a);
        store(m, at(r->page, REGISTER_A), 0);
    } else if (code1 == 2) {  /* "A becomes A and M" */
        store(m, at(r->page, REGISTER_A), a & value);
    } else {  /* "M becomes M+1 modulo 256" */
        store(m, operand, value + 1);
    }
}

/* Code 13: "indirection comes after it"; a pointer's two words are tested even for a jump. */
static unsigned address_instruction(struct runner *r, const struct arguments *g)
{
    bool indirect = (g->field & 8) != 0, index = (g->field & 4) != 0;
    unsigned address = g->address;

    if (g->flag > 5)
        return FAULT_ARGUMENT;
    if (index)
        address = indexed(r->m, address, g->field & 3);
    if (indirect) {
        if (any_protected(address, 2))
            return FAULT_PROTECTED;
        address = read_address(r->m, address);
    }
    if (g->flag <= 3) {
        if (is_protected(address))
            return FAULT_PROTECTED;
        work_on_operand(r, g->flag, address);
        return OUTCOME_DONE;
    }
    if (g->flag == 5) {  /* "the address after the instruction to page 0 words 5-6, then jump" */
        store(r->m, 5, r->after / 256);
        store(r->m, 6, r->after);
    }
    set_lr(r->m, r->page, address);
    return OUTCOME_LR_SET;
}

/* Code 14 runs another of these and has no entry; code 15 is never built in. */
operation *const operations[CODES] = {
    create_code, delete_code, generate_interrupt, wait_interrupt, send_message, wait_message,
    read_message, test_message, start, stop, start_at, create_processor, delete_named,
    address_instruction, NULL, NULL
};
