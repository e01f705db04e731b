/* The survey that the judge's rules look at: every list and queue of a memory, well-formed or not. */
#include <string.h>

#include "judge.h"

/* Ends at the first word that is no number of a control page, or after 21 pages. */
struct walk walk_from(const uint8_t *m, unsigned header, unsigned link)
{
    struct walk w = { 0 };
    unsigned word = header;

    while (w.count < LONGEST_WALK && is_control_page(m[word])) {
        w.page[w.count++] = m[word];
        word = at(m[word], link);
    }
    if (w.count < LONGEST_WALK && m[word] != 0)
        w.false_end = word;
    return w;
}

static void count_pages(const struct walk *w, unsigned *counts)
{
    for (unsigned i = 0; i < w->count; i++)
        counts[index_of(w->page[i])]++;
}

/* "uses are the processor list, the free list, each Q1 and Q2, and the grants" */
static void survey_uses(struct survey *s)
{
    s->processors = walk_from(s->m, PROCESSOR_LIST, LIST_LINK);
    s->free_list = walk_from(s->m, FREE_LIST, LINK);
    count_pages(&s->processors, s->uses);
    count_pages(&s->free_list, s->uses);
    for (unsigned i = 0; i < s->processors.count; i++) {
        unsigned page = s->processors.page[i];

        s->listed[index_of(page)] = true;
        s->q1[i] = walk_from(s->m, at(page, Q1), LINK);
        s->q2[i] = walk_from(s->m, at(page, Q2), LINK);
        count_pages(&s->q1[i], s->uses);
        count_pages(&s->q2[i], s->uses);
    }
    for (unsigned name = 1; name <= HIGHEST_NAME; name++)
        if (is_control_page(s->m[GRANTS + name]))
            s->uses[index_of(s->m[GRANTS + name])]++;
}

/* The wait queues are those of the interrupts, the page queue and each processor's message wait. */
static void survey_waits(struct survey *s)
{
    for (unsigned k = 1; k <= INTERRUPTS; k++) {
        s->interrupt[k] = walk_from(s->m, interrupt_header(k), LINK);
        count_pages(&s->interrupt[k], s->waits);
    }
    s->page_queue = walk_from(s->m, PAGE_QUEUE, LINK);
    count_pages(&s->page_queue, s->waits);
    for (unsigned i = 0; i < s->processors.count; i++) {
        s->own_wait[i] = walk_from(s->m, at(s->processors.page[i], OWN_WAIT), LINK);
        count_pages(&s->own_wait[i], s->waits);
    }
}

void survey(struct survey *s, const uint8_t *m)
{
    memset(s, 0, sizeof *s);
    s->m = m;
    survey_uses(s);
    survey_waits(s);
}
