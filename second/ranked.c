/* Counting what CRP asked for, against the priority of who ran it, and which faults of page 9 the judge saw. */
#include "generate.h"

/* Where a CRP began to wait for a page, and what it asked for then. */
static struct {
    unsigned lr, asked, own;
} waited[HIGHEST_NAME + 1];
static unsigned left_with[HIGHEST_NAME + 1];  /* the page granted that fault 13 left with that name */

static bool is_fault(const struct answer *answer, unsigned number)
{
    return answer->kind == ANSWER_FAULT && answer->number == number;
}

static bool no_page(const uint8_t *m, unsigned name)
{
    return m[FREE_LIST] == 0 && m[GRANTS + name] == 0;
}

/* Fault 13. */
static void reach_above(const uint8_t *before, const struct look *l, const struct wish *w)
{
    const struct one *me = runner_of(l);

    mark(w->priority == me->priority + 1 ? MARK_ABOVE_BY_ONE : MARK_ABOVE_BY_MORE);
    if (find_one(l, w->name) != NULL)
        mark(MARK_ABOVE_TAKEN);
    if (no_page(before, me->name))
        mark(MARK_ABOVE_NO_PAGE);
    if (w->priority <= highest_priority(l))
        mark(MARK_ABOVE_OTHERS);
    if (w->priority <= me->name)
        mark(MARK_ABOVE_NOT_NAME);
    if (before[FAULT_TABLE] == FAULT_TABLE_FULL)
        mark(MARK_ABOVE_FULL);
    if (me->grant != 0) {
        mark(MARK_ABOVE_GRANT);
        left_with[me->name] = me->grant;
    }
}

/* Done or put to wait. */
static void reach_allowed(const struct look *l, const struct wish *w)
{
    mark(w->priority == runner_of(l)->priority ? MARK_AS_HIGH : MARK_BELOW);
    if (highest_priority(l) > runner_of(l)->priority)
        mark(MARK_UNDER_OTHERS);
}

/* 12 or 9 of a CRP; a priority beyond its field is above nothing. */
static void reach_other_fault(const struct look *l, const struct wish *w, const struct answer *answer)
{
    unsigned own = runner_of(l)->priority;
    bool above = w->priority > own && w->priority <= 15;

    if (is_fault(answer, FAULT_NAME_EXISTS) && w->priority == own)
        mark(MARK_AS_HIGH_TAKEN);
    if (is_fault(answer, FAULT_ARGUMENT) && above)
        mark(w->fits ? MARK_ABOVE_NAME_0 : MARK_ABOVE_BAD_WORD);
}

/* It has the page for which it waited with a CRP at the same place. */
static void reach_anew(const struct look *l, const struct wish *w, const struct answer *answer)
{
    const struct one *me = runner_of(l);

    if (me->grant == 0 || waited[me->name].asked == 0 || waited[me->name].lr != l->lr)
        return;
    mark(MARK_ANEW);
    if (is_fault(answer, FAULT_ABOVE_ITSELF) && w->priority != waited[me->name].asked)
        mark(MARK_ANEW_WORDS);
    if (is_fault(answer, FAULT_ABOVE_ITSELF) && me->priority < waited[me->name].own)
        mark(MARK_ANEW_RANK);
    if (is_fault(answer, FAULT_NAME_EXISTS))
        mark(MARK_ANEW_TAKEN);
}

static void reach_left(const struct one *me, unsigned code)
{
    if (me->grant == 0 || left_with[me->name] != me->grant || world[GRANTS + me->name] != 0)
        return;
    mark(code == 4 ? MARK_LEFT_TO_SME : MARK_LEFT_TO_CRP);
    left_with[me->name] = 0;
}

void reach_rank(const uint8_t *before, unsigned code, const struct answer *answer)
{
    struct look l = look_at(before);
    const struct one *me = runner_of(&l);
    struct wish w;

    if (answer->kind == ANSWER_DONE && (code == 4 || code == 11))
        reach_left(me, code);
    if (code != 11 || !wishes_to_create(before, me->page, &w))
        return;
    reach_anew(&l, &w, answer);
    waited[me->name].asked = 0;
    if (answer->kind == ANSWER_WAITS) {
        waited[me->name].lr = l.lr;
        waited[me->name].asked = w.priority;
        waited[me->name].own = me->priority;
    }
    if (is_fault(answer, FAULT_ABOVE_ITSELF))
        reach_above(before, &l, &w);
    else if (answer->kind == ANSWER_FAULT)
        reach_other_fault(&l, &w, answer);
    else
        reach_allowed(&l, &w);
}

static bool in_page_9(unsigned fault)
{
    for (unsigned word = 1; word < world[FAULT_TABLE]; word++)
        if (world[FAULT_TABLE + word] % 16u == fault)
            return true;
    return false;
}

/* What the judge said of a memory with these faults; a bad one counts if it is the one told. */
void reach_page_9(const struct answer *answer)
{
    unsigned entry = answer->address > FAULT_TABLE && answer->address < GRANTS ? world[answer->address] : 0u;
    bool told = answer->kind == ANSWER_REFUSED && answer->number == REFUSE_TABLES && entry / 16 != 0;

    if (answer->kind == ANSWER_DONE && in_page_9(FAULT_ABOVE_ITSELF))
        mark(MARK_13_GOOD);
    if (told && entry % 16 == 14)
        mark(MARK_14_TOLD);
    if (told && entry % 16 == 15)
        mark(MARK_15_TOLD);
}
