/*
 * From the word at LR to the answer: fetching, the two layouts of arguments (direct and by EXI)
 * and the order of the faults that come before an instruction's own rules.
 */
#include "machine.h"

enum { EXI = 14 };

/* The arguments of an instruction, in the order in which EXI finds them. */
enum parameter { NONE, FIELD, FLAG, ADDRESS, INTERRUPT, COUNT, PRIORITY, W_BITS };

static const struct {
    unsigned length;              /* of the direct form, in words */
    unsigned address_word;        /* direct form: where the address stands, after n */
    enum parameter parameter[5];  /* ended by NONE */
} layouts[CODES] = {
    { 4, 2, { FIELD, ADDRESS } },                     /* CVI */
    { 2, 0, { FIELD } },                              /* DVI */
    { 2, 0, { NONE } },                               /* GIN */
    { 4, 0, { INTERRUPT, COUNT } },                   /* WIN */
    { 4, 2, { FIELD, FLAG, ADDRESS } },               /* SME */
    { 3, 0, { FIELD, FLAG } },                        /* WNM */
    { 4, 2, { FIELD, FLAG, ADDRESS } },               /* RME */
    { 4, 2, { FIELD, FLAG, ADDRESS } },               /* TME */
    { 2, 0, { FIELD } },                              /* ST1 */
    { 2, 0, { FIELD } },                              /* STP */
    { 4, 2, { FIELD, ADDRESS } },                     /* ST2 */
    { 5, 3, { FIELD, PRIORITY, W_BITS, ADDRESS } },   /* CRP */
    { 2, 0, { FIELD } },                              /* DEP */
    { 4, 2, { FIELD, FLAG, ADDRESS } },               /* CODE1 */
    { 4, 2, { FIELD, FLAG, ADDRESS } },               /* EXI: field CODE1; flag X XN */
    { 2, 0, { NONE } }
};

/* The largest value of an argument word by EXI; of an address, of its first word. */
static const unsigned largest[] = {
    [FIELD] = 15, [FLAG] = 7, [ADDRESS] = 31, [INTERRUPT] = 255, [COUNT] = 255, [PRIORITY] = 15,
    [W_BITS] = 15
};

static void put_argument(struct arguments *g, enum parameter parameter, unsigned value)
{
    switch (parameter) {
    case FIELD: g->field = value; break;
    case FLAG: g->flag = value; break;
    case ADDRESS: g->address = value; break;
    case INTERRUPT: g->interrupt = value; break;
    case COUNT: g->count = value; break;
    case PRIORITY: g->priority = value; break;
    case W_BITS: g->w = value; break;
    case NONE: break;
    }
}

/* "unused bits of direct forms are ignored", so every part may be cut out of its word here. */
static unsigned direct_value(const uint8_t *m, unsigned n, unsigned code, enum parameter parameter)
{
    switch (parameter) {
    case FIELD: return m[n + 1] % 16u;
    case FLAG: return m[n + 2] / 32u;  /* "the top three bits of n+2" */
    case ADDRESS: return read_address(m, n + layouts[code].address_word);
    case INTERRUPT: return m[n + 2];
    case COUNT: return m[n + 3];
    case PRIORITY: return m[n + 2] / 16u;
    case W_BITS: return m[n + 2] % 16u;
    case NONE: break;
    }
    return 0;
}

static struct arguments direct_arguments(const uint8_t *m, unsigned n, unsigned code)
{
    struct arguments g = { 0 };
    const enum parameter *parameter = layouts[code].parameter;

    for (; *parameter != NONE; parameter++)
        put_argument(&g, *parameter, direct_value(m, n, code, *parameter));
    return g;
}

/* "EXI arguments, one a word, an address two" */
static unsigned words_by_exi(unsigned code)
{
    unsigned words = 0;

    for (const enum parameter *p = layouts[code].parameter; *p != NONE; p++)
        words += *p == ADDRESS ? 2 : 1;
    return words;
}

/* "an EXI argument word beyond its field" is 12; all words were tested for 11 before. */
static unsigned exi_arguments(const uint8_t *m, unsigned from, unsigned code, struct arguments *g)
{
    *g = (struct arguments){ 0 };
    for (const enum parameter *p = layouts[code].parameter; *p != NONE; p++) {
        if (m[from] > largest[*p])
            return FAULT_ARGUMENT;
        put_argument(g, *p, *p == ADDRESS ? read_address(m, from) : m[from]);
        from += *p == ADDRESS ? 2 : 1;
    }
    return 0;
}

/*
 * "A fault sets the stopped bit, enters page 9, leaves LR; then who runs."  "When it is 32, faults
 * are no longer entered."
 */
static struct answer fault(struct runner *r, unsigned number)
{
    uint8_t *m = r->m;
    unsigned unused = m[FAULT_TABLE];

    store(m, at(r->page, STATE), m[at(r->page, STATE)] | STOPPED);
    if (unused < FAULT_TABLE_FULL) {
        store(m, FAULT_TABLE + unused, r->name * 16 + number);
        store(m, FAULT_TABLE, unused + 1);
    }
    who_runs(m);
    return (struct answer){ .kind = ANSWER_FAULT, .number = number, .name = r->name };
}

/* Own code: "memory unchanged", so nobody else comes to run. */
static struct answer hand_out(const struct runner *r, unsigned code, unsigned arguments)
{
    return (struct answer){
        .kind = ANSWER_HANDED_OUT, .program = code_program(r->m, code), .arguments = arguments
    };
}

/* "Each instruction done advances unless it sets its own LR." */
static struct answer carry_out(struct runner *r, unsigned code, const struct arguments *g)
{
    unsigned outcome = operations[code](r, g);

    if (outcome >= 1 && outcome <= FAULTS)
        return fault(r, outcome);
    if (outcome == OUTCOME_DONE)
        set_lr(r->m, r->page, r->after);
    who_runs(r->m);
    return (struct answer){ .kind = outcome == OUTCOME_WAITS ? ANSWER_WAITS : ANSWER_DONE };
}

/* "EXI: 2, pointed code 1 or handed out, then 11; 12 or 5 .." */
static struct answer run_pointed(struct runner *r, const struct arguments *exi)
{
    unsigned code = exi->field;
    bool index = (exi->flag & 4) != 0;
    unsigned from = index ? indexed(r->m, exi->address, exi->flag & 3) : exi->address;
    struct arguments g;
    unsigned bad;

    if (code == EXI)
        return fault(r, FAULT_EXI_OF_EXI);
    if (code_kind(r->m, code) == KIND_ABSENT)
        return fault(r, FAULT_ABSENT_CODE);
    if (code_kind(r->m, code) == KIND_OWN)
        return hand_out(r, code, from);
    if (any_protected(from, words_by_exi(code)))
        return fault(r, FAULT_PROTECTED);
    bad = exi_arguments(r->m, from, code, &g);
    if (bad != 0)
        return fault(r, bad);
    return carry_out(r, code, &g);
}

/* "11 at LR; 23; 11 at n+1; 1 or handed out; 11 at other instruction words" */
struct answer run_instruction(uint8_t *m)
{
    struct runner r = { .m = m, .page = m[RUNNING_PAGE] };
    unsigned n = get_lr(m, r.page);
    struct arguments g;
    unsigned code;

    r.name = name_of(m, r.page);
    if (is_protected(n))
        return fault(&r, FAULT_PROTECTED);
    if (m[n] != INSTRUCTION)
        return (struct answer){ .kind = ANSWER_REFUSED, .number = REFUSE_NOT_224 };
    if (is_protected(n + 1))
        return fault(&r, FAULT_PROTECTED);
    code = m[n + 1] / 16u;
    if (code_kind(m, code) == KIND_ABSENT)
        return fault(&r, FAULT_ABSENT_CODE);
    if (code_kind(m, code) == KIND_OWN)
        return hand_out(&r, code, n + 1);
    if (any_protected(n + 2, layouts[code].length - 2))
        return fault(&r, FAULT_PROTECTED);
    g = direct_arguments(m, n, code);
    r.after = wrap(n + layouts[code].length);
    return code == EXI ? run_pointed(&r, &g) : carry_out(&r, code, &g);
}
