/*
 * Broken memories: broken by the order `break` in one way or several, judged, called by every
 * call, looked at, and mended again, at once or word by word.
 */
#include <stdio.h>
#include <string.h>

#include "breakers.h"

enum { MOST_WAYS = 96 };

static uint8_t whole[BUFFER];  /* the memory before it was broken */

void poke(unsigned address, unsigned value)
{
    uint8_t byte = (uint8_t)(value & 255u);

    order_break(address, &byte, 1);
}

unsigned some_page(void)
{
    return from_to(FIRST_PAGE, LAST_PAGE);
}

const struct one *some_one(const struct look *l)
{
    return &l->one[below(l->count)];
}

const struct one *some_waiter(const struct look *l, enum wait wait)
{
    for (unsigned i = 0, from = below(l->count); i < l->count; i++) {
        const struct one *one = &l->one[(from + i) % l->count];

        if (one->wait != WAIT_NONE && (wait == WAIT_NONE || one->wait == wait))
            return one;
    }
    return NULL;
}

/* One with a grant; if there is none, the first free page is granted by hand, which breaks nothing. */
const struct one *some_granted(const struct look *l)
{
    const struct one *one;
    unsigned page = world[FREE_LIST];

    for (unsigned i = 0, from = below(l->count); i < l->count; i++) {
        one = &l->one[(from + i) % l->count];
        if (world[GRANTS + one->name] != 0)
            return one;
    }
    if (!is_control_page(page))
        return NULL;
    one = some_one(l);
    poke(FREE_LIST, world[at(page, LINK)]);
    poke(FREE_SEMAPHORE, world[FREE_SEMAPHORE] - 1u);
    poke(GRANTS + one->name, page);
    return one;
}

/* The first free page made a message at the front of a queue; 0 if no page is free. */
unsigned put_message(unsigned header, unsigned from, unsigned length)
{
    unsigned page = world[FREE_LIST];
    uint8_t words[3] = { world[header], (uint8_t)from, (uint8_t)length };

    if (!is_control_page(page))
        return 0;
    poke(FREE_LIST, world[at(page, LINK)]);
    poke(FREE_SEMAPHORE, world[FREE_SEMAPHORE] - 1u);
    order_break(at(page, LINK), words, 3);
    poke(header, page);
    return page;
}

/* The same with any good words; in a Q2 it breaks nothing. */
unsigned make_message(unsigned header)
{
    unsigned sender = from_to(1, HIGHEST_NAME), flag = from_to(1, 7);

    return put_message(header, sender * 16 + flag, good_length());
}

/* Some page of a Q1 or Q2; if none is found, one is made or not; 0 if there is none. */
unsigned some_message(const struct look *l)
{
    for (unsigned tries = 0; tries < 20; tries++) {
        unsigned page = some_one(l)->page;
        struct queue q = queue_read(world, at(page, chance(50) ? Q1 : Q2), LINK);

        if (q.count > 0)
            return q.page[below(q.count)];
    }
    return chance(50) ? make_message(at(some_one(l)->page, Q2)) : 0;
}

/* A first message taken out of its queue; 0 if nobody has one. */
unsigned take_message(const struct look *l)
{
    for (unsigned i = 0, from = below(l->count); i < l->count; i++) {
        const struct one *one = &l->one[(from + i) % l->count];
        unsigned header = at(one->page, is_control_page(world[at(one->page, Q1)]) ? Q1 : Q2), page = world[header];

        if (!is_control_page(page))
            continue;
        poke(header, world[at(page, LINK)]);
        return page;
    }
    return 0;
}

unsigned some_value(unsigned old)
{
    switch (below(7)) {
    case 0: return 0;
    case 1: return old + 1;
    case 2: return old - 1;
    case 3: return old ^ (1u << below(8));
    case 4: return some_page();
    case 5: return chance(50) ? 235 : 128;
    default: return below(256);
    }
}

/* A number that is neither 0 nor a control page: often a name, or the last before the control pages. */
unsigned some_false_number(void)
{
    return chance(30) ? from_to(1, 15) : chance(30) ? FIRST_PAGE - 1 : from_to(1, FIRST_PAGE - 1);
}

/* Any word of pages 4-10 or of a control page. */
static bool break_anything(const struct look *l)
{
    unsigned page = some_page(), address = chance(40) ? from_to(TABLES, TABLES_END - 1) : at(page, below(13));

    (void)l;
    poke(address, some_value(world[address]));
    return true;
}

/* Any words at all in some of the pages that are judged. */
static void scatter_page(unsigned address)
{
    uint8_t bytes[LONGEST_PUT];
    unsigned pages = below(101);

    for (unsigned i = 0; i < LONGEST_PUT; i++)
        bytes[i] = (uint8_t)(chance(pages) ? some_page() : chance(20) ? 0 : below(256));
    order_break(address, bytes, LONGEST_PUT);
}

static bool break_much(const struct look *l)
{
    (void)l;
    for (unsigned left = from_to(1, 4); left > 0; left--)
        scatter_page(chance(30) ? TABLES + below(193) : at(some_page(), 0));
    return true;
}

static bool break_control_pages(const struct look *l)
{
    (void)l;
    for (unsigned page = FIRST_PAGE; page <= LAST_PAGE; page++)
        scatter_page(at(page, 0));
    return true;
}

static const struct way others[] = {
    { 0, "any word of pages 4-10 or of a control page", break_anything, WAIT_NONE },
    { 0, "any words in some pages", break_much, WAIT_NONE },
    { 0, "any words in all control pages", break_control_pages, WAIT_NONE }
};
enum { OTHERS = sizeof others / sizeof others[0], ANYTHING = 0, MUCH = 1, CONTROL_PAGES = 2 };

static unsigned long alone[MOST_WAYS];  /* how often a way was enough to be told with its number */

static unsigned way_count(void)
{
    return tear_count + tangle_count + spoil_count + OTHERS;
}

static const struct way *way_at(unsigned i)
{
    if (i < tear_count)
        return &tears[i];
    i -= tear_count;
    if (i < tangle_count)
        return &tangles[i];
    i -= tangle_count;
    return i < spoil_count ? &spoils[i] : &others[i - spoil_count];
}

/* What seldom did its work comes more often, and so does what needs a waiter or the like when there is one. */
static unsigned long weight_of(const struct look *l, unsigned i, unsigned number)
{
    const struct way *way = way_at(i);
    unsigned long weight = 1 + 6 / (1 + alone[i]);

    if (way->number != number)
        return 0;
    if (way->needs == WAIT_NONE)
        return weight;
    if (way->needs == NEEDS_IDLE)
        return l->running == l->count ? 8 * weight : 0;
    if (way->needs == NEEDS_FREE)
        return l->free >= LONG_LIST ? 4 * weight : 0;
    return some_waiter(l, (enum wait)way->needs) != NULL ? 4 * weight : 0;
}

static unsigned pick_way(const struct look *l, unsigned number)
{
    unsigned long weights[MOST_WAYS], sum = 0, pick;
    unsigned i = 0;

    for (unsigned n = 0; n < way_count(); n++) {
        weights[n] = weight_of(l, n, number);
        sum += weights[n];
    }
    pick = below((uint32_t)sum);
    while (pick >= weights[i])
        pick -= weights[i++];
    return i;
}

/* A number from `lowest` on, those with more ways more often. */
static unsigned pick_number(unsigned lowest)
{
    for (;;) {
        unsigned choice = below(100);
        unsigned number = choice < 22 ? REFUSE_USES : choice < 54 ? REFUSE_WAITS : choice < 76 ? REFUSE_RECORDS
                        : choice < 86 ? REFUSE_TABLES : REFUSE_RUNNING;

        if (number >= lowest)
            return number;
    }
}

static unsigned pick_first(const struct look *l, unsigned lowest)
{
    unsigned first_other = way_count() - OTHERS, choice = below(1000);

    if (choice < 4)
        return first_other + CONTROL_PAGES;
    if (choice < 14)
        return first_other + MUCH;
    if (choice < 90)
        return first_other + ANYTHING;
    if (l->page_waiters > 0 && chance(25))
        return pick_way(l, REFUSE_WAITS);  /* what only a hungry machine can break */
    if (l->running == l->count && chance(20))
        return pick_way(l, REFUSE_RUNNING);  /* and an idle one */
    return pick_way(l, pick_number(lowest));
}

/* Breaks in one way, or in several of one number or of any; false if nothing was broken. */
static bool break_somehow(const struct look *l)
{
    unsigned more = chance(45) ? from_to(1, 3) : 0;
    unsigned lowest = more > 0 && chance(50) ? from_to(REFUSE_USES, REFUSE_RUNNING) : REFUSE_USES;
    unsigned first = pick_first(l, lowest), number = way_at(first)->number;
    struct finding found;

    if (!way_at(first)->go(l))
        return false;
    found = judge(world);
    if (found.number != 0 && (number == 0 || found.number == number) && !full())
        alone[first]++;
    if (number == 0 || chance(50))
        number = pick_number(lowest);
    for (; more > 0; more--) {
        way_at(pick_way(l, number))->go(l);
        if (chance(50))
            number = pick_number(lowest);
    }
    return true;
}

static void call_interrupt(void)
{
    unsigned number = chance(70) ? from_to(16, 50) : 77;

    order_interrupt(number, chance(70) ? 0 : below(40));
}

/* Calls on a broken memory: all of them are refused alike. */
static void call_in_turn(unsigned which)
{
    struct registers r = { 1, 2, 1, 0, 1, 3000, 4 };

    switch (which) {
    case 0: order_step(); break;
    case 1: call_interrupt(); break;
    case 2: order_registers(); break;
    case 3:
        r.a = chance(70) ? 1 : 256;
        order_set(&r);
        break;
    case 4: any_burst(); break;
    default: order_judge(); break;
    }
}

static void call_broken(void)
{
    unsigned first = below(6);

    if (chance(20)) {
        for (unsigned i = 0; i < 6; i++)
            call_in_turn((first + i) % 6);
        order_changes();
        return;
    }
    if (chance(85))
        order_judge();
    for (unsigned left = chance(40) ? from_to(1, 2) : 0; left > 0; left--)
        call_in_turn(below(5));
    maybe_changes(25);
}

/* Breaks back whatever differs from the whole memory; sometimes the judge is asked in between. */
static void mend(void)
{
    bool slowly = chance(35);

    for (unsigned i = 0; i < BUFFER && !full(); i++) {
        unsigned count = 1;

        if (world[i] == whole[i])
            continue;
        while (i + count < BUFFER && count < LONGEST_PUT && world[i + count] != whole[i + count])
            count++;
        order_break(i, whole + i, count);
        i += count - 1;
        if (slowly && chance(70))
            order_judge();
    }
}

/* The same from the highest address down, so that other words are left broken meanwhile. */
static void mend_backwards(void)
{
    for (unsigned i = BUFFER; i > 0 && !full(); i--) {
        if (world[i - 1] == whole[i - 1])
            continue;
        poke(i - 1, whole[i - 1]);
        if (chance(60))
            order_judge();
    }
}

static void fresh_start(unsigned divider)
{
    order_fresh(from_to(16, 47), divider);
}

static unsigned differing(void)
{
    unsigned count = 0;

    for (unsigned i = 0; i < BUFFER; i++)
        count += world[i] != whole[i];
    return count;
}

void scene_break(void)
{
    struct look l = look_at(world);

    memcpy(whole, world, sizeof whole);
    if (l.count == 0 || !break_somehow(&l))
        return;
    if (!well_formed(world)) {
        mark(MARK_BROKEN_JUDGED);
        call_broken();
        if (chance(1))
            fresh_start(from_to(1, 3));  /* it asks nothing of the memory */
        else if (differing() < 8 && chance(20))
            mend_backwards();
        else
            mend();
        return;
    }
    mark(MARK_BROKEN_FINE);
    order_judge();
    if (chance(40))
        mend();
}

void write_ways(void)
{
    for (unsigned i = 0; i < way_count(); i++) {
        const struct way *way = way_at(i);

        if (way->number != 0)
            printf("# reached broken to %u, %s: %lu\n", way->number, way->name, alone[i]);
        else
            printf("# reached broken, %s: %lu\n", way->name, alone[i]);
    }
}
