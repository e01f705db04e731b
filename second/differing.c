/* The comparison of two memories: by words, and by what each name has in both.  No page number counts. */
#include "differing.h"

#include <string.h>

unsigned next_difference(const uint8_t *first, const uint8_t *second, unsigned from)
{
    while (from < WORDS && first[from] == second[from])
        from++;
    return from;
}

/* A processor of one of the memories. */
struct bearer {
    const uint8_t *m;
    unsigned page;
};

/* "the queue it waits in (interrupt 1-54, for a page, for a message, none)" */
enum { NO_QUEUE = 0, FOR_A_PAGE = INTERRUPTS + 1, FOR_A_MESSAGE };

static unsigned queue_waited_in(const struct bearer *b)
{
    unsigned header = wait_header_of(b->m, b->page);

    if (header == 0)
        return NO_QUEUE;
    if (header == PAGE_QUEUE)
        return FOR_A_PAGE;
    if (header == at(b->page, OWN_WAIT))
        return FOR_A_MESSAGE;
    return (header - TABLES - 2) / 2;
}

/* "the stopped and the waiting bit" */
static unsigned bits(const struct bearer *b)
{
    return b->m[at(b->page, STATE)] & (STOPPED | WAITING);
}

static bool runs(const struct bearer *b)
{
    return b->m[RUNNING_PAGE] == b->page;
}

static unsigned reason(const struct bearer *b)
{
    return b->m[at(b->page, REASON)];
}

/* "Not the place in that queue, and no registers, W, LR or saved words" */
static bool same_state(const struct bearer *one, const struct bearer *other)
{
    return bits(one) == bits(other) && runs(one) == runs(other) && reason(one) == reason(other)
        && queue_waited_in(one) == queue_waited_in(other);
}

static bool same_priority(const struct bearer *one, const struct bearer *other)
{
    return priority_of(one->m, one->page) == priority_of(other->m, other->page);
}

/* "its word 1 (sender, flag), its word 2 whole .., and its text, as many words as its length (none of a notice)" */
static bool same_message(const uint8_t *first, unsigned one, const uint8_t *second, unsigned other)
{
    unsigned words = text_length(first, one);

    return first[at(one, FROM)] == second[at(other, FROM)]
        && first[at(one, LENGTH)] == second[at(other, LENGTH)]
        && memcmp(first + at(one, TEXT), second + at(other, TEXT), words) == 0;
}

/* "the lists of messages, each by itself, in order" */
static bool same_mail(const struct bearer *one, const struct bearer *other, unsigned header)
{
    struct queue a = queue_read(one->m, at(one->page, header), LINK);
    struct queue b = queue_read(other->m, at(other->page, header), LINK);

    if (a.count != b.count)
        return false;
    for (unsigned i = 0; i < a.count; i++)
        if (!same_message(one->m, a.page[i], other->m, b.page[i]))
            return false;
    return true;
}

struct comparison compare_name(const uint8_t *first, const uint8_t *second, unsigned name)
{
    struct bearer one = { first, find_processor(first, name) }, other = { second, find_processor(second, name) };
    struct comparison c = { .where = (one.page != 0 ? IN_FIRST : 0u) | (other.page != 0 ? IN_SECOND : 0u) };

    if (c.where == IN_BOTH) {
        c.differs[IN_STATE] = !same_state(&one, &other);
        c.differs[IN_PRIORITY] = !same_priority(&one, &other);
        c.differs[IN_Q1] = !same_mail(&one, &other, Q1);
        c.differs[IN_Q2] = !same_mail(&one, &other, Q2);
    }
    return c;
}
