/* Counting what the judge has told: each rule by the kind of address, and how much was broken with it. */
#include <stdio.h>

#include "generate.h"
#include "judge.h"

enum place {
    WORD_0, WORD_3, INTERRUPT_HEADER, INTERRUPT_SEMAPHORE, FREE_HEADER, FREE_COUNT, PAGE_QUEUE_HEADER, LIST_HEADER,
    WORD_8, PAGE_9_FIRST, PAGE_9_ENTRY, PAGE_10_FIRST, PAGE_10_GRANT, PAGE_10_REST, CLOCK_LINE, COUNTER_0, COUNTER_1,
    COUNTER_2, COUNTER_3, WORD_24, WORD_25, WORD_26, PLACES
};

static const struct {
    const char *name;
    unsigned first, last, step;
} places[PLACES] = {
    { "word 0 of a page", 7552, 8160, 32 },     { "word 3 of a page", 7555, 8163, 32 },
    { "an interrupt's header", 132, 238, 2 },   { "an interrupt's semaphore", 131, 237, 2 },
    { "244", 244, 244, 1 },                     { "245", 245, 245, 1 },
    { "246", 246, 246, 1 },                     { "247", 247, 247, 1 },
    { "a code of page 8", 256, 286, 2 },        { "288", 288, 288, 1 },
    { "an entry of page 9", 289, 319, 1 },      { "320", 320, 320, 1 },
    { "words 1-15 of page 10", 321, 335, 1 },   { "words 16-31 of page 10", 336, 351, 1 },
    { "239", 239, 239, 1 },                     { "240", 240, 240, 1 },
    { "241", 241, 241, 1 },                     { "242", 242, 242, 1 },
    { "243", 243, 243, 1 },                     { "248", 248, 248, 1 },
    { "249", 249, 249, 1 },                     { "250", 250, 250, 1 }
};

/* Where each rule can be told, in the order of the rules; "divider 1-255" never is, for 240 is lower. */
static const uint32_t may_tell[RULES] = {
    1u << WORD_0, 1u << WORD_0 | 1u << FREE_HEADER | 1u << LIST_HEADER, 1u << PAGE_10_GRANT,
    1u << WORD_0 | 1u << INTERRUPT_HEADER | 1u << PAGE_QUEUE_HEADER, 1u << WORD_0, 1u << WORD_0, 1u << WORD_0,
    1u << WORD_3 | 1u << INTERRUPT_SEMAPHORE | 1u << FREE_COUNT, 1u << FREE_HEADER,
    1u << PAGE_10_FIRST | 1u << PAGE_10_GRANT,
    1u << WORD_0, 1u << WORD_0, 1u << PAGE_10_GRANT, 1u << PAGE_10_FIRST | 1u << PAGE_10_REST, 1u << WORD_0,
    1u << WORD_8, 1u << PAGE_9_FIRST, 1u << PAGE_9_ENTRY,
    1u << CLOCK_LINE, 1u << COUNTER_0 | 1u << COUNTER_1 | 1u << COUNTER_2 | 1u << COUNTER_3, 1u << WORD_24,
    1u << WORD_25, 1u << WORD_26, 0
};

static unsigned long told_at[RULES][PLACES], elsewhere;

static enum place place_of(unsigned address)
{
    unsigned i = 0;

    while (i < PLACES && (address < places[i].first || address > places[i].last
                          || (address - places[i].first) % places[i].step != 0))
        i++;
    return (enum place)i;
}

static unsigned lowest_of_rule(const struct rule *rule, const struct survey *s)
{
    struct told told = { NOWHERE };

    rule->offends(s, &told);
    return told.lowest;
}

/* Which rules have the address told as their lowest; a rule counts only if no other has it. */
static void count_rules(const struct survey *s, const struct answer *answer)
{
    unsigned alone = RULES, having = 0, broken = 0;
    enum place place = place_of(answer->address);

    for (unsigned i = 0; i < RULES; i++) {
        unsigned lowest = rules[i].number == answer->number ? lowest_of_rule(&rules[i], s) : NOWHERE;

        broken += lowest != NOWHERE;
        if (lowest == answer->address) {
            having++;
            alone = i;
        }
    }
    if (broken > having)
        mark(MARK_TOLD_AMONG);
    if (having != 1)
        return;
    if (place < PLACES && (may_tell[alone] & 1u << place) != 0)
        told_at[alone][place]++;
    else
        elsewhere++;
}

static void count_classes(const struct survey *s, const struct answer *answer)
{
    bool later = false, lower = false;

    for (unsigned number = answer->number + 1; number <= REFUSE_RUNNING; number++) {
        unsigned lowest = lowest_of(number, s);

        later = later || lowest != NOWHERE;
        lower = lower || lowest < answer->address;
    }
    if (later)
        mark(MARK_TOLD_FIRST);
    if (lower)
        mark(MARK_TOLD_LOWER);
}

/* True if a walk that took a false number for a page would come to a control page behind it. */
static bool leads_on(const uint8_t *m, const struct walk *w, unsigned link)
{
    return w->false_end != 0 && is_control_page(m[at(m[w->false_end], link)]);
}

static void count_walks(const struct survey *s, const struct answer *answer)
{
    bool on = leads_on(s->m, &s->processors, LIST_LINK) || leads_on(s->m, &s->free_list, LINK);
    bool loop = s->processors.count == LONGEST_WALK || s->free_list.count == LONGEST_WALK, wait_on, wait_loop;

    wait_on = leads_on(s->m, &s->page_queue, LINK);
    wait_loop = s->page_queue.count == LONGEST_WALK;
    for (unsigned i = 0; i < s->processors.count; i++) {
        on = on || leads_on(s->m, &s->q1[i], LINK) || leads_on(s->m, &s->q2[i], LINK);
        loop = loop || s->q1[i].count == LONGEST_WALK || s->q2[i].count == LONGEST_WALK;
    }
    for (unsigned k = 1; k <= INTERRUPTS; k++) {
        wait_on = wait_on || leads_on(s->m, &s->interrupt[k], LINK);
        wait_loop = wait_loop || s->interrupt[k].count == LONGEST_WALK;
    }
    if (answer->number == REFUSE_USES && loop)
        mark(MARK_LOOP);
    if (answer->number == REFUSE_USES && on)
        mark(MARK_LEADS_ON);
    if (answer->number == REFUSE_WAITS && wait_loop)
        mark(MARK_WAIT_LOOP);
    if (answer->number == REFUSE_WAITS && wait_on)
        mark(MARK_WAIT_LEADS_ON);
}

void reach_told(const uint8_t *m, const struct answer *answer)
{
    struct survey s;

    if (answer->kind != ANSWER_REFUSED || answer->number < REFUSE_USES || answer->number > REFUSE_RUNNING)
        return;
    survey(&s, m);
    count_rules(&s, answer);
    count_classes(&s, answer);
    count_walks(&s, answer);
}

void write_told(void)
{
    for (unsigned i = 0; i < RULES; i++)
        for (unsigned place = 0; place < PLACES; place++)
            if ((may_tell[i] & 1u << place) != 0)
                printf("# reached %u at %s, %s: %lu\n", rules[i].number, places[place].name, rules[i].sentence,
                       told_at[i][place]);
    printf("# reached told at no place of the table: %lu\n", elsewhere);
}
