/* Plans that should come to a wanted outcome: 0 (done or put to wait) or the number of a fault. */
#include <string.h>

#include "generate.h"

typedef bool builder(struct plan *p, const struct look *l, unsigned outcome);

/* Where a program could go on: mostly a place with room behind it. */
static unsigned some_lr(void)
{
    unsigned choice = below(100);

    if (choice < 85)
        return from_to(TABLES_END, 7400);
    if (choice < 95)
        return from_to(PAGE_WORDS, 110);
    return below(WORDS);
}

static bool usable(unsigned code)
{
    return code_kind(world, code) == KIND_BUILT_IN;
}

static bool build_cvi(struct plan *p, const struct look *l, unsigned outcome)
{
    (void)l;
    p->g.address = below(WORDS);
    p->g.field = outcome == 0 ? pick_code(KIND_ABSENT, 2) : pick_code(chance(70) ? KIND_BUILT_IN : KIND_OWN, 0);
    return p->g.field < CODES;
}

/* Built-in codes do not come back, so they are deleted only where it does no more harm. */
static bool build_dvi(struct plan *p, const struct look *l, unsigned outcome)
{
    (void)l;
    if (outcome == FAULT_LASTING_CODE)
        p->g.field = below(2);
    else if (outcome == FAULT_ABSENT_CODE)
        p->g.field = pick_code(KIND_ABSENT, 2);
    else
        p->g.field = pick_code(near_end() && chance(20) ? KIND_BUILT_IN : KIND_OWN, 2);
    return p->g.field < CODES;
}

static bool build_gin(struct plan *p, const struct look *l, unsigned outcome)
{
    (void)p;
    (void)l;
    return outcome == 0;
}

static unsigned some_interrupt(const struct look *l)
{
    switch (below(6)) {
    case 0: return from_to(51, 54);
    case 1: return from_to(48, 50);
    case 2: return world[LINE];
    case 3: return existing_name(l);
    case 4: return from_to(16, 20);
    default: return from_to(1, INTERRUPTS);
    }
}

static bool build_win(struct plan *p, const struct look *l, unsigned outcome)
{
    static const uint8_t bad[] = { 0, 55, 56, 58, 59, 127, 128, 255 };

    p->g.interrupt = some_interrupt(l);
    p->g.count = chance(55) ? 1 : chance(90) ? from_to(2, 4) : 255;
    if (outcome == FAULT_WIN && chance(60))
        p->g.interrupt = bad[below(sizeof bad)];
    else if (outcome == FAULT_WIN)
        p->g.count = 0;
    return true;
}

/* A length word and its text. */
static void put_text(unsigned address, unsigned length)
{
    uint8_t text[31];

    text[0] = (uint8_t)length;
    for (unsigned i = 1; i < sizeof text; i++)
        text[i] = (uint8_t)below(256);
    put_allowed(address, text, length <= LONGEST_TEXT ? length + 1 : 1 + below(30));
}

static unsigned some_length(void)
{
    return chance(20) ? 0 : chance(20) ? LONGEST_TEXT : chance(50) ? from_to(1, 4) : from_to(1, 28);
}

/* To whom: one that waits for a message, the sender itself, nobody or anybody. */
static void some_receiver(struct plan *p, const struct look *l)
{
    unsigned choice = below(100), wanted = 0;

    p->g.flag = chance(70) ? from_to(1, 3) : from_to(1, 7);
    p->g.field = existing_name(l);
    if (choice < 30) {
        for (unsigned i = 0; i < l->count; i++)
            if (l->one[i].wait == WAIT_MESSAGE && chance(60)) {
                p->g.field = l->one[i].name;
                wanted = l->one[i].reason % 16;
            }
        if (wanted != 0 && chance(70))
            p->g.flag = wanted;
    } else if (choice < 45) {
        p->g.field = runner_of(l)->name;
    } else if (choice < 60 && absent_name(l) != 0) {
        p->g.field = absent_name(l);
    }
}

static bool build_sme(struct plan *p, const struct look *l, unsigned outcome)
{
    unsigned length = some_length(), wrong = below(3);

    some_receiver(p, l);
    p->g.address = place(length + 1);
    if (outcome == FAULT_ARGUMENT && wrong == 0) {
        length = chance(50) ? 30 : from_to(30, 255);
        p->g.address = chance(40) ? 7551 : place(1);  /* the text would be protected too */
    } else if (outcome == FAULT_ARGUMENT) {
        if (wrong == 1)
            p->g.field = 0;
        else
            p->g.flag = 0;
        if (chance(75))
            p->g.address = place_protected(1);
    } else if (outcome == FAULT_PROTECTED && length > 0 && chance(60)) {
        p->g.address = chance(70) ? at(FIRST_PAGE, 0) : TABLES;
        p->g.address -= from_to(1, length);
    } else if (outcome == FAULT_PROTECTED) {
        p->g.address = place_protected(1);
    }
    put_text(p->g.address, length);
    return true;
}

/* What to ask for: what a message in the queue has, or anything, or nothing that is there. */
static void some_wish(struct plan *p, const struct queue *q)
{
    unsigned from = q->count > 0 ? world[at(q->page[below(q->count)], FROM)] : below(128) + 1;

    if (chance(15)) {
        p->g.field = below(16);
        p->g.flag = below(8);
        return;
    }
    p->g.field = chance(40) ? 0 : from / 16;
    p->g.flag = chance(40) ? 0 : from % 8;
}

static struct queue own_queue(const struct look *l, unsigned word)
{
    return queue_read(world, at(runner_of(l)->page, word), LINK);
}

static bool build_wnm(struct plan *p, const struct look *l, unsigned outcome)
{
    struct queue q1 = own_queue(l, Q1);

    some_wish(p, &q1);
    return outcome == 0;
}

static bool build_rme(struct plan *p, const struct look *l, unsigned outcome)
{
    struct queue q2 = own_queue(l, Q2);
    unsigned message, length;

    some_wish(p, &q2);
    message = first_match(world, q2.header, p->g.field * 16 + p->g.flag);
    if (outcome == FAULT_NO_MATCH) {
        p->g.address = chance(50) ? place(3) : place_protected(3);
        return message == 0;
    }
    if (message == 0)
        return false;
    length = text_length(world, message);
    p->g.address = outcome == FAULT_PROTECTED ? place_protected(3 + length) : place(3 + length);
    return true;
}

static bool build_tme(struct plan *p, const struct look *l, unsigned outcome)
{
    struct queue q = own_queue(l, chance(70) ? Q1 : Q2);

    some_wish(p, &q);
    p->g.address = some_lr();
    return outcome == 0;
}

/* The one asked for fits the outcome: exists or not, stopped or not. */
static bool fits(const struct one *one, unsigned code, unsigned outcome)
{
    bool plainly_stopped = one->stopped && one->wait == WAIT_NONE;

    if (outcome == FAULT_ST2)
        return !plainly_stopped;
    if (outcome == FAULT_NOT_STOPPED)
        return !one->stopped;
    if (code == 10)
        return plainly_stopped;
    if (code == 12)
        return one->stopped;
    return true;
}

static bool build_by_name(struct plan *p, const struct look *l, unsigned outcome)
{
    p->g.address = some_lr();
    if (outcome == FAULT_ARGUMENT)
        return true;  /* NI 0 */
    if (outcome == FAULT_NO_PROCESSOR) {
        p->g.field = absent_name(l);
        return p->g.field != 0;
    }
    for (unsigned tries = 0; tries < 16; tries++) {
        const struct one *one = &l->one[below(l->count)];

        p->g.field = one->name;
        if (outcome == FAULT_ST2 && tries < 8 && !one->stopped)
            continue;  /* first look for one that is stopped and also waits */
        if (one == runner_of(l) && outcome == 0 && chance(80))
            continue;  /* stopping itself is for now and then */
        if (fits(one, p->code, outcome))
            return true;
    }
    return false;
}

static bool build_crp(struct plan *p, const struct look *l, unsigned outcome)
{
    p->g.address = some_lr();
    p->g.w = below(16);
    p->g.priority = outcome == FAULT_ABOVE_ITSELF ? priority_above(l) : allowed_priority(l);
    p->g.field = outcome == FAULT_NAME_EXISTS ? existing_name(l) : absent_name(l);
    if (outcome == FAULT_ARGUMENT) {
        p->g.field = chance(50) ? 0 : existing_name(l);
        p->g.priority = p->g.field != 0 || chance(30) ? 0 : chance(60) ? priority_above(l) : p->g.priority;
        return true;
    }
    if (outcome == FAULT_ABOVE_ITSELF && (p->g.field == 0 || chance(40)))
        p->g.field = existing_name(l);
    return p->g.field != 0 && p->g.priority != 0;
}

/* A pointer to `target`, in words that may be protected. */
static unsigned put_pointer(unsigned target, bool protected_words)
{
    unsigned address = protected_words ? place_protected(2) : place(2);
    uint8_t words[2] = { (uint8_t)(below(8) * 32 + target / 256), (uint8_t)(target % 256) };

    put_allowed(address, words, 2);
    return address;
}

/* A, P and the rest of the registers get values that code 13 can work on. */
static void fill_registers(void)
{
    struct registers r = { 0 };

    (void)kernel_read_registers(world, lent, &r);
    r.a = from_to(1, 255);
    r.p = below(2);
    r.z = below(2);
    r.ci = below(2);
    order_set(&r);
}

/* An operand: often one that just gives a carry, or just does not. */
static void put_operand(unsigned address, unsigned a)
{
    uint8_t value = (uint8_t)(chance(25) ? 256 - a : chance(25) ? 255 - a : chance(25) ? 255 : below(256));

    put_allowed(address, &value, 1);
}

static bool build_13(struct plan *p, const struct look *l, unsigned outcome)
{
    bool indirect = chance(outcome == FAULT_PROTECTED ? 75 : 50), index = chance(50);
    bool bad_pointer = false, bad = outcome != 0 && chance(70);
    unsigned xn = below(4);

    if (world[at(runner_of(l)->page, REGISTER_A)] == 0 && chance(50))
        fill_registers();
    p->g.flag = outcome == FAULT_ARGUMENT ? from_to(6, 7) : below(6);
    if (outcome == FAULT_PROTECTED) {
        bad_pointer = indirect && chance(70);
        p->g.flag = bad_pointer && chance(50) ? from_to(4, 5) : below(4);
        bad = !bad_pointer;
    }
    p->g.address = p->g.flag >= 4 ? some_lr() : bad ? place_protected(1) : place(1);
    if (p->g.flag < 4 && !bad && chance(50))
        put_operand(p->g.address, world[at(runner_of(l)->page, REGISTER_A)]);
    if (indirect)
        p->g.address = put_pointer(p->g.address, bad_pointer || (outcome == FAULT_ARGUMENT && chance(50)));
    if (index)
        p->g.address = before_index(p->g.address, xn);
    p->g.field = (indirect ? 8u : 0u) + (index ? 4u : 0u) + xn;
    return true;
}

/* EXI of EXI, and codes that are absent or own: only the code matters, and the rest is anything. */
static bool build_any(struct plan *p, const struct look *l, unsigned outcome)
{
    (void)l;
    (void)outcome;
    p->g.field = below(16);
    p->g.flag = below(8);
    p->g.address = below(WORDS);
    p->protected_words = chance(40);
    return true;
}

static builder *const builders[CODES] = {
    build_cvi, build_dvi, build_gin, build_win, build_sme, build_wnm, build_rme, build_tme, build_by_name,
    build_by_name, build_by_name, build_crp, build_by_name, build_13, build_any, build_any
};

/* By EXI every instruction with arguments can meet 11 and, if a word has a field, 12; CRP before its 13 and 9. */
bool build(struct plan *p, unsigned code, bool exi, unsigned outcome)
{
    struct look l = look_at(world);

    *p = (struct plan){ .code = code, .exi = exi, .bad_word = -1, .index = chance(50) };
    if (is_idle() || (exi && !usable(14)))
        return false;
    if (!usable(code) || code >= 14)
        return build_any(p, &l, outcome);
    if (exi && outcome == FAULT_ARGUMENT && chance(60)) {
        p->bad_word = (int)pick_bad_word(code);
        return p->bad_word < 6 && builders[code](p, &l, code == 11 && chance(80) ? FAULT_ABOVE_ITSELF : 0);
    }
    if (exi && outcome == FAULT_PROTECTED && code != 2 && chance(60)) {
        p->protected_words = true;
        p->bad_word = chance(50) ? (int)pick_bad_word(code) : -1;
        return builders[code](p, &l, 0);
    }
    return builders[code](p, &l, outcome);
}

bool try_to(unsigned code, unsigned outcome)
{
    struct plan p;
    bool exi = reached(code, BY_EXI, outcome) < reached(code, DIRECT, outcome) ? chance(70) : chance(30);

    for (unsigned tries = 0; tries < 5; tries++)
        if (build(&p, code, exi, outcome)) {
            issue(&p);
            return true;
        }
    return false;
}

bool do_plan(struct plan *p)
{
    p->bad_word = -1;
    p->exi = usable(14) && chance(40);
    p->index = chance(50);
    if (is_idle() || !usable(p->code))
        return false;
    issue(p);
    return true;
}

bool do_name(unsigned code, unsigned name)
{
    struct plan p = { .code = code, .g = { .field = name, .address = some_lr() } };

    return do_plan(&p);
}

bool do_create(unsigned name, unsigned priority)
{
    struct plan p = { .code = 11, .g = { .field = name, .priority = priority, .w = below(16) } };

    p.g.address = some_lr();
    return do_plan(&p);
}

bool do_send(unsigned name, unsigned flag, unsigned length)
{
    struct plan p = { .code = 4, .g = { .field = name, .flag = flag, .address = place(length + 1) } };

    if (is_idle())
        return false;
    put_text(p.g.address, length);
    return do_plan(&p);
}

/* WNM, RME or TME. */
bool do_message(unsigned code, unsigned name, unsigned flag)
{
    struct plan p = { .code = code,
                      .g = { .field = name, .flag = flag, .address = code == 7 ? some_lr() : place(32) } };

    return do_plan(&p);
}

bool do_wait(unsigned interrupt, unsigned count)
{
    struct plan p = { .code = 3, .g = { .interrupt = interrupt, .count = count } };

    return do_plan(&p);
}
