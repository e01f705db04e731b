/*
 * Changes of a well-formed memory that leave it well-formed: of words that are not judged, or of
 * judged ones to other good values.  One may follow another, so they look at the memory itself
 * where another changes it; who waits, and for what, and whose mail is where none of them changes.
 */
#include "alike.h"

static void scatter(unsigned address, unsigned end)
{
    for (unsigned left = from_to(1, 6); left > 0; left--) {
        unsigned word = address + below(end - address);

        poke(word, below(256));
    }
}

bool trifle_registers(const struct look *l)
{
    unsigned page = some_one(l)->page;

    if (chance(30))
        scatter(at(page, REGISTER_A), at(page, STATE));
    else
        scatter(at(page, SAVED), at(page, PAGE_WORDS));
    return true;
}

bool trifle_free_page(const struct look *l)
{
    unsigned page = world[FREE_LIST];

    (void)l;
    for (unsigned steps = below(PAGES); steps > 0 && is_control_page(page); steps--)
        page = world[at(page, LINK)];
    if (!is_control_page(page))
        return false;
    scatter(at(page, LIST_LINK), at(page, chance(50) ? SAVED : PAGE_WORDS));
    return true;
}

bool trifle_granted_page(const struct look *l)
{
    unsigned page = world[GRANTS + from_to(1, HIGHEST_NAME)];

    (void)l;
    if (!is_control_page(page))
        return false;
    scatter(at(page, LINK), at(page, chance(50) ? SAVED : PAGE_WORDS));
    return true;
}

bool trifle_link(const struct look *l)
{
    const struct one *one = some_one(l);

    if (one->wait != WAIT_NONE)
        return false;
    poke(at(one->page, LINK), chance(50) ? some_page() : below(256));
    return true;
}

bool trifle_not_judged(const struct look *l)
{
    (void)l;
    switch (below(3)) {
    case 0: scatter(TABLES, TABLES + 3); break;
    case 1: scatter(DIVIDER + 1, CODE_TABLE); break;
    default: scatter(TABLES_END, at(FIRST_PAGE, 0)); break;
    }
    return true;
}

bool trifle_w(const struct look *l)
{
    unsigned word = at(some_one(l)->page, STATE);

    poke(word, world[word] / 16u * 16u + below(16));
    return true;
}

static bool trifle_count_of_waiter(const struct look *l)
{
    const struct one *one = some_waiter(l, WAIT_INTERRUPT);

    if (one == NULL)
        return false;
    poke(at(one->page, REASON), chance(30) ? 1 : chance(30) ? 255 : from_to(1, 255));
    return true;
}

static bool trifle_stopped_waiter(const struct look *l)
{
    const struct one *one = some_waiter(l, WAIT_NONE);

    if (one == NULL)
        return false;
    poke(at(one->page, STATE), world[at(one->page, STATE)] ^ STOPPED);
    poke(at(one->page, WHO), from_to(1, 15) * 16 + name_of(world, one->page));
    return true;
}

/* Some message of one that does not wait for one, or any of a Q2, has other good words. */
static bool trifle_letter(const struct look *l)
{
    const struct one *one = some_one(l);
    struct queue q = queue_read(world, at(one->page, one->wait == WAIT_MESSAGE || chance(50) ? Q2 : Q1), LINK);
    unsigned page = q.count > 0 ? q.page[below(q.count)] : 0, sender = from_to(1, HIGHEST_NAME);

    if (page == 0)
        return false;
    poke(at(page, FROM), sender * 16 + from_to(1, 7));
    poke(at(page, LENGTH), good_length());
    if (chance(30))
        scatter(at(page, TEXT), at(page, PAGE_WORDS));
    return true;
}

/* The first on the processor list goes to its end. */
bool trifle_turn(const struct look *l)
{
    struct queue q = queue_read(world, PROCESSOR_LIST, LIST_LINK);

    (void)l;
    if (q.count < 2)
        return false;
    poke(PROCESSOR_LIST, q.page[1]);
    poke(at(q.page[0], LIST_LINK), 0);
    poke(at(q.page[q.count - 1], LIST_LINK), q.page[0]);
    return true;
}

/* Another name, with the grant. */
bool trifle_name(const struct look *l)
{
    unsigned page = some_one(l)->page, name = name_of(world, page), other = from_to(1, HIGHEST_NAME);

    if (find_processor(world, other) != 0)
        return false;
    poke(at(page, WHO), priority_of(world, page) * 16 + other);
    poke(GRANTS + other, world[GRANTS + name]);
    poke(GRANTS + name, 0);
    if (world[RUNNING_PAGE] == page)
        poke(RUNNING_WHO, world[at(page, WHO)]);
    return true;
}

bool trifle_code(const struct look *l)
{
    unsigned code = below(CODES), code_is = code < 2 ? KIND_BUILT_IN : code == 15 ? 2 * below(2) : below(3);

    (void)l;
    poke(CODE_TABLE + 2 * code, code_is * 32 + below(32));
    poke(CODE_TABLE + 2 * code + 1, below(256));
    return true;
}

/* Entries come or go at the end of page 9, up to none and to all. */
bool trifle_page_9(const struct look *l)
{
    unsigned unused = world[FAULT_TABLE], wanted = chance(30) ? FAULT_TABLE_FULL : from_to(1, FAULT_TABLE_FULL);

    (void)l;
    poke(FAULT_TABLE, wanted);
    for (; unused < wanted; unused++) {
        unsigned name = from_to(1, HIGHEST_NAME);

        poke(FAULT_TABLE + unused, name * 16 + from_to(1, FAULTS));
    }
    for (; unused > wanted; unused--)
        poke(FAULT_TABLE + unused - 1, 0);
    return true;
}

bool trifle_clock(const struct look *l)
{
    unsigned divider = chance(30) ? 1 : from_to(1, 255);

    (void)l;
    poke(LINE, chance(20) ? 16 : chance(20) ? 47 : from_to(16, 47));
    poke(DIVIDER, divider);
    poke(C0, chance(50) ? divider - 1 : below(divider));
    poke(C1, chance(50) ? 9 : below(10));
    poke(C2, chance(50) ? 59 : below(60));
    poke(C3, chance(50) ? 59 : below(60));
    return true;
}

const struct way trifles[] = {
    { 0, "registers and kept words", trifle_registers, WAIT_NONE },
    { 0, "words of a free page", trifle_free_page, WAIT_NONE },
    { 0, "words of a granted page", trifle_granted_page, WAIT_NONE },
    { 0, "word 0 of one that does not wait", trifle_link, WAIT_NONE },
    { 0, "words that are not judged", trifle_not_judged, WAIT_NONE },
    { 0, "W", trifle_w, WAIT_NONE },
    { 0, "the count of a waiter", trifle_count_of_waiter, WAIT_INTERRUPT },
    { 0, "a waiter stopped or started, with any priority", trifle_stopped_waiter, WAIT_NONE },
    { 0, "a message's words", trifle_letter, WAIT_NONE },
    { 0, "the order of the processor list", trifle_turn, WAIT_NONE },
    { 0, "another name", trifle_name, WAIT_NONE },
    { 0, "a code", trifle_code, WAIT_NONE },
    { 0, "page 9", trifle_page_9, WAIT_NONE },
    { 0, "the clock", trifle_clock, WAIT_NONE }
};
const unsigned trifle_count = sizeof trifles / sizeof trifles[0];
