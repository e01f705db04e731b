/* Counting what the script has reached, from the copy before and after each call. */
#include <stdio.h>
#include <string.h>

#include "generate.h"

enum { WAIT_KINDS = 7, FAULT_NUMBERS = FAULTS + 1, REFUSALS = 36 };

static const char *const mark_names[MARKS] = {
    "grants given", "grants used", "grants used by another instruction than the one that waited",
    "other instructions done while holding a grant", "deletions", "deletions with mail to return",
    "deletions with a notice", "deletions with a notice whose sender exists", "deletions with a grant",
    "deletions waiting for an interrupt", "deletions waiting for a page", "deletions waiting for a message",
    "deletions that feed page waiters", "wakes by a message", "wakes by a notice", "notices for a send to nobody",
    "TME found in Q2", "TME found in Q1 with a tail left", "RME of a page before the end of Q2",
    "handed out direct", "handed out by EXI", "EXI with indexing", "page 9 filled", "faults with page 9 full",
    "changes of the runner", "going idle", "runner put aside while ready",
    "runner stays before an equal one earlier on the list", "stopped ones woken", "broken memories refused",
    "broken words that do no harm", "told with other rules of the same number broken elsewhere",
    "told before a later number", "told before a later number with a lower address",
    "30 with a list that comes back on itself", "30 with a false number that leads to a control page",
    "31 with a wait queue that comes back on itself", "31 with a false number that leads to a control page",
    "calls with a wrong length", "lines not understood", "orders not allowed",
    "messages marked", "messages marked in a Q1", "messages marked in a Q2", "deletions that mark",
    "deletions that mark mail of several holders", "deletions that mark several messages of one queue",
    "deletions that mark mail of several flags", "deletions that mark mail to itself",
    "deletions that mark mail to itself in its Q2", "marked messages of the deleted one's name not marked again",
    "notices under the deleted one's name left unmarked", "deletions with marked mail",
    "marked messages given back with a namesake alive", "marked messages given back with nobody of the name",
    "deletions with marked and unmarked mail of one that exists",
    "deletions with unmarked mail of a name that nobody has", "processors made under a name whose marked mail waits",
    "processors made under a name whose unmarked mail waits", "mail of two lives of one name waits",
    "mail of three or more lives of one name waits", "marked mail read", "marked mail of length 0 read",
    "marked mail of length 1 read", "marked mail of length 29 read",
    "marked mail read to a place too short for word 2 as its length", "marked mail not read, its target protected",
    "marked messages moved by WNM", "marked messages moved by TME",
    "CRP above its runner by one", "CRP above its runner by more", "CRP as high as its runner, done or put to wait",
    "CRP below its runner, done or put to wait", "CRP above its runner with a name that exists",
    "CRP as high as its runner with a name that exists", "12 of CRP with name 0 above its runner",
    "12 of CRP with a word beyond its field above its runner", "CRP above its runner with no page to be had",
    "CRP above its runner and not above another one", "CRP above its runner and not above the runner's name",
    "CRP above its runner with page 9 full", "CRP done while another one is higher than its runner",
    "CRP above its runner with a grant in hand", "grants left by fault 13 and used by SME",
    "grants left by fault 13 and used by CRP", "CRP run anew where it waited for a page",
    "CRP run anew and above its runner, with other words", "CRP run anew and above its runner, which is lower now",
    "CRP run anew with a name that exists by now", "13 in page 9 judged good", "14 in page 9 told", "15 in page 9 told"
};
static const char *const wait_names[WAIT_KINDS] = {
    "interrupt 1-15", "interrupt 16-47", "interrupt 48-50", "interrupt 51-54", "page by SME", "page by CRP", "message"
};
static const char *const code_names[CODES] = {
    "CVI", "DVI", "GIN", "WIN", "SME", "WNM", "RME", "TME",
    "ST1", "STP", "ST2", "CRP", "DEP", "code 13", "EXI", "code 15"
};

static unsigned long marks[MARKS], outcomes[CODES][FORMS][OUTCOMES], waits[WAIT_KINDS];
static unsigned long faults[FAULT_NUMBERS], refusals[REFUSALS], clock_served[4], class_woken[3];
static unsigned most_processors, most_page_waiters, waited_with[HIGHEST_NAME + 1];

void mark(enum mark what)
{
    marks[what]++;
}

unsigned long marked(enum mark what)
{
    return marks[what];
}

unsigned long reached(unsigned code, unsigned form, unsigned outcome)
{
    return outcomes[code][form][outcome];
}

void reach_answer(const struct answer *answer)
{
    if (answer->kind == ANSWER_FAULT && answer->number < FAULT_NUMBERS)
        faults[answer->number]++;
    if (answer->kind == ANSWER_REFUSED && answer->number < REFUSALS)
        refusals[answer->number]++;
    if (answer->kind == ANSWER_REFUSED && answer->number == REFUSE_LENGTH)
        mark(MARK_WRONG_LENGTH);
}

/* Who came or went, and who was woken. */
static void reach_runner(const struct look *before, const struct look *now)
{
    const struct one *old = before->running < before->count ? runner_of(before) : NULL;
    const struct one *new = now->running < now->count ? runner_of(now) : NULL;
    const struct one *still = old != NULL ? find_one(now, old->name) : NULL;

    if (now->count > most_processors)
        most_processors = now->count;
    if (now->page_waiters > most_page_waiters)
        most_page_waiters = now->page_waiters;
    if (old != NULL && new == NULL)
        mark(MARK_TO_IDLE);
    if (new != NULL && (old == NULL || old->page != new->page))
        mark(MARK_SWITCH);
    if (still != NULL && still != new && !still->stopped && still->wait == WAIT_NONE)
        mark(MARK_PREEMPTED);
    for (unsigned i = 0; new != NULL && old != NULL && old->page == new->page && i < now->running; i++)
        if (!now->one[i].stopped && now->one[i].wait == WAIT_NONE && now->one[i].priority == new->priority) {
            mark(MARK_EQUAL_STAYS);
            break;
        }
}

static bool last_is_notice(const uint8_t *m, unsigned page)
{
    struct queue q = queue_read(m, at(page, Q1), LINK);

    return q.count > 0 && m[at(q.page[q.count - 1], LENGTH)] == NOTICE;
}

static void reach_woken(const struct look *before, const struct look *now)
{
    for (unsigned i = 0; i < before->count; i++) {
        const struct one *old = &before->one[i], *new = find_one(now, old->name);

        if (new == NULL || old->page != new->page)
            continue;
        if (old->grant == 0 && new->grant != 0)
            mark(MARK_GRANT_GIVEN);
        if (old->wait == WAIT_NONE || new->wait != WAIT_NONE)
            continue;
        if (new->stopped)
            mark(MARK_STOPPED_WOKEN);
        if (old->wait == WAIT_MESSAGE)
            mark(last_is_notice(world, new->page) ? MARK_WAKE_NOTICE : MARK_WAKE_MESSAGE);
        if (old->interrupt >= 48 && old->interrupt <= 50)
            class_woken[old->interrupt - 48]++;
    }
}

static void reach_deletion(const struct look *before, const struct look *now)
{
    for (unsigned i = 0; i < before->count; i++) {
        const struct one *old = &before->one[i];

        if (find_one(now, old->name) != NULL)
            continue;
        mark(MARK_DELETE);
        if (old->mail > 0)
            mark(MARK_DELETE_MAIL);
        if (old->notices > 0)
            mark(MARK_DELETE_NOTICE);
        if (old->odd > 0)
            mark(MARK_DELETE_ODD);
        if (old->grant != 0)
            mark(MARK_DELETE_GRANT);
        if (old->wait == WAIT_INTERRUPT)
            mark(MARK_DELETE_INTERRUPT);
        if (old->wait == WAIT_PAGE)
            mark(MARK_DELETE_PAGE);
        if (old->wait == WAIT_MESSAGE)
            mark(MARK_DELETE_MESSAGE);
        if (before->page_waiters > (old->wait == WAIT_PAGE))
            mark(MARK_DELETE_FEEDS);
    }
}

static void reach_wait(unsigned code, const struct one *waiter)
{
    unsigned k = waiter->interrupt;

    if (waiter->wait == WAIT_INTERRUPT)
        waits[k < 16 ? 0 : k < 48 ? 1 : k < 51 ? 2 : 3]++;
    else if (waiter->wait == WAIT_PAGE)
        waits[code == 4 ? 4 : 5]++;
    else
        waits[6]++;
    if (waiter->wait == WAIT_PAGE)
        waited_with[waiter->name] = code;
}

static void reach_grant(unsigned code, const struct one *old, const struct one *new)
{
    if (old->grant == 0)
        return;
    if (new->grant != 0) {
        mark(MARK_GRANT_KEPT);
        return;
    }
    mark(MARK_GRANT_USED);
    if (waited_with[old->name] != code)
        mark(MARK_GRANT_OTHER);
}

/* RME of a page that has others behind it in Q2. */
static bool left_middle(const uint8_t *before, unsigned page)
{
    struct queue was = queue_read(before, at(page, Q2), LINK), is = queue_read(world, at(page, Q2), LINK);

    return is.count > 0 && was.page[was.count - 1] == is.page[is.count - 1];
}

static void reach_messages(const uint8_t *before, unsigned code, const struct one *old, const struct one *new)
{
    bool jumped = get_lr(world, new->page) != wrap(get_lr(before, old->page) + 4);

    if (code == 4 && new->notices > old->notices)
        mark(MARK_NOTICE_SENT);
    if (code == 6 && left_middle(before, old->page))
        mark(MARK_RME_MIDDLE);
    if (code == 7 && jumped && new->q1 == old->q1 && old->q1 > 0)
        mark(MARK_TME_Q2);
    if (code == 7 && new->q1 < old->q1 && new->q1 > 0)
        mark(MARK_TME_TAIL);
}

/* The instruction that the runner had at LR: its code and form; false if there was none to be read. */
static bool instruction_of(const uint8_t *m, unsigned lr, unsigned *code, unsigned *form)
{
    if (is_protected(lr) || is_protected(lr + 1))
        return false;
    *code = m[lr + 1] / 16u;
    *form = DIRECT;
    if (*code == 14 && code_kind(m, 14) == KIND_BUILT_IN && !any_protected(lr + 2, 2)) {
        *code = m[lr + 1] % 16u;
        *form = BY_EXI;
    }
    return true;
}

static void reach_fault(const uint8_t *before)
{
    if (before[FAULT_TABLE] == FAULT_TABLE_FULL)
        mark(MARK_FAULT_FULL);
    if (before[FAULT_TABLE] == FAULT_TABLE_FULL - 1)
        mark(MARK_PAGE_9_FULL);
}

void reach_step(const uint8_t *before, const struct answer *answer)
{
    struct look was, is;
    unsigned code = 0, form = 0;
    const struct one *old, *new;

    if (answer->kind == ANSWER_REFUSED)
        return;
    was = look_at(before);
    is = look_at(world);
    old = runner_of(&was);
    new = find_one(&is, old->name);
    reach_runner(&was, &is);
    if (answer->kind == ANSWER_FAULT)
        reach_fault(before);
    if (!instruction_of(before, was.lr, &code, &form) || new == NULL)
        return;
    if (answer->kind == ANSWER_HANDED_OUT) {
        mark(form == BY_EXI ? MARK_HANDED_EXI : MARK_HANDED_DIRECT);
        return;
    }
    outcomes[code][form][answer->kind == ANSWER_FAULT ? answer->number : 0]++;
    reach_gone(before, code, form, answer);
    reach_rank(before, code, answer);
    if (answer->kind == ANSWER_WAITS)
        reach_wait(code, new);
    if (answer->kind != ANSWER_DONE)
        return;
    if (form == BY_EXI && before[was.lr + 2] >= 128)
        mark(MARK_EXI_INDEXED);
    reach_woken(&was, &is);
    reach_deletion(&was, &is);
    reach_grant(code, old, new);
    reach_messages(before, code, old, new);
}

void reach_interrupt(const uint8_t *before, unsigned number, const struct answer *answer)
{
    struct look was, is;

    if (answer->kind == ANSWER_REFUSED)
        return;
    was = look_at(before);
    is = look_at(world);
    reach_runner(&was, &is);
    reach_woken(&was, &is);
    for (unsigned i = 0; number == before[LINE] && i < 4 && world[C0 + i] == 0; i++)
        clock_served[i]++;
}

static void write_codes(void)
{
    for (unsigned code = 0; code < CODES - 2; code++)
        for (unsigned form = 0; form < FORMS; form++)
            printf("# reached %s %s: %lu\n", code_names[code], form == DIRECT ? "direct" : "by EXI",
                   outcomes[code][form][0]);
}

/* Which instruction met which fault; those that never came are left out. */
static void write_faults_by_code(void)
{
    for (unsigned code = 0; code < CODES; code++)
        for (unsigned form = 0; form < FORMS; form++)
            for (unsigned n = 1; n < OUTCOMES; n++)
                if (outcomes[code][form][n] > 0)
                    printf("# reached %s %s, fault %u: %lu\n", code_names[code],
                           form == DIRECT ? "direct" : "by EXI", n, outcomes[code][form][n]);
}

void write_reached(void)
{
    write_codes();
    for (unsigned n = 1; n < FAULT_NUMBERS; n++)
        printf("# reached fault %u: %lu\n", n, faults[n]);
    for (unsigned n = REFUSE_LENGTH; n <= REFUSE_ROOM; n++)
        if (n == REFUSE_LENGTH || n >= REFUSE_IDLE)
            printf("# reached refusal %u: %lu\n", n, refusals[n]);
    for (unsigned n = 0; n < WAIT_KINDS; n++)
        printf("# reached waits, %s: %lu\n", wait_names[n], waits[n]);
    for (unsigned n = 0; n < 3; n++)
        printf("# reached woken by interrupt %u: %lu\n", 48 + n, class_woken[n]);
    for (unsigned n = 0; n < 4; n++)
        printf("# reached interrupt %u served: %lu\n", 51 + n, clock_served[n]);
    for (unsigned n = 0; n < MARKS; n++)
        printf("# reached %s: %lu\n", mark_names[n], marks[n]);
    printf("# reached most processors: %u\n", most_processors);
    printf("# reached most page waiters: %u\n", most_page_waiters);
    write_bursts();
    write_settings_reached();
    write_told();
    write_ways();
    write_faults_by_code();
}
