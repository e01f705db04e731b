/*
 * Ways to break any memory, also one that is broken already or has no processor.  Most take any
 * header or link.
 */
#include "alike.h"
#include "judge.h"

/* A word of those that the judge may look at. */
static unsigned judged_word(void)
{
    unsigned page = some_page();

    return chance(35) ? from_to(TABLES, TABLES_END - 1) : at(page, below(SAVED));
}

static unsigned some_header(void)
{
    static const uint8_t words[] = { OWN_WAIT, Q1, Q2 };
    unsigned page = some_page(), choice = below(8);

    switch (choice) {
    case 0: return PROCESSOR_LIST;
    case 1: return FREE_LIST;
    case 2: return PAGE_QUEUE;
    case 3: case 4: return interrupt_header(from_to(1, INTERRUPTS));
    default: return at(page, words[choice - 5]);
    }
}

/* A header, a link or a grant. */
static unsigned some_number_word(void)
{
    unsigned page = some_page(), choice = below(10);

    if (choice < 4)
        return at(page, choice < 3 ? LINK : LIST_LINK);
    return choice < 9 ? some_header() : GRANTS + from_to(1, HIGHEST_NAME);
}

/* One that holds a control page, if one is found soon. */
static unsigned some_full_word(void)
{
    unsigned word = some_number_word();

    for (unsigned tries = 0; tries < 12 && !is_control_page(world[word]); tries++)
        word = some_number_word();
    return word;
}

static unsigned link_of(unsigned header)
{
    return header == PROCESSOR_LIST ? LIST_LINK : LINK;
}

static bool has_semaphore(unsigned header)
{
    bool is_own = header >= at(FIRST_PAGE, 0) && header % PAGE_WORDS == OWN_WAIT;

    return header < FREE_LIST || header == PAGE_QUEUE || is_own;
}

/* The semaphores that belong to a header and to the free list, as they should be. */
static void agree(unsigned header)
{
    unsigned free = walk_from(world, FREE_LIST, LINK).count;

    if (has_semaphore(header) && header != PAGE_QUEUE)
        poke(header - 1, 0u - walk_from(world, header, LINK).count);
    poke(FREE_SEMAPHORE, free - walk_from(world, PAGE_QUEUE, LINK).count);
}

/* A processor, if the list has one. */
static unsigned some_listed(void)
{
    struct walk list = walk_from(world, PROCESSOR_LIST, LIST_LINK);

    return list.count > 0 ? list.page[below(list.count)] : some_page();
}

static bool bend_any_word(const struct look *l)
{
    unsigned page = some_page(), word = chance(25) ? from_to(TABLES, TABLES_END - 1) : at(page, below(PAGE_WORDS));

    (void)l;
    poke(word, below(256));
    return true;
}

static bool bend_judged_word(const struct look *l)
{
    unsigned word = judged_word();

    (void)l;
    poke(word, some_value(world[word]));
    return true;
}

static bool bend_bit(const struct look *l)
{
    unsigned word = judged_word();

    (void)l;
    poke(word, world[word] ^ 1u << below(8));
    return true;
}

static bool bend_link(const struct look *l)
{
    unsigned word = some_number_word();

    (void)l;
    poke(word, some_page());
    return true;
}

static bool bend_to_itself(const struct look *l)
{
    unsigned page = some_page(), word = chance(60) ? LINK : from_to(LIST_LINK, Q2);

    (void)l;
    poke(at(page, word), page);
    return true;
}

static bool bend_to_255(const struct look *l)
{
    unsigned word = some_number_word();

    (void)l;
    poke(word, LAST_PAGE);
    return true;
}

/* A number just below the control pages, or any other that is none. */
static bool bend_below(const struct look *l)
{
    unsigned word = chance(50) ? some_number_word() : some_full_word();

    (void)l;
    poke(word, chance(40) ? FIRST_PAGE - 1 : some_false_number());
    return true;
}

/* The end of a list, or the header of an empty one, is a page of another. */
static bool bend_end(const struct look *l)
{
    unsigned header = some_header(), link = link_of(header);
    struct walk w = walk_from(world, header, link);
    unsigned word = w.count == 0 ? header : at(w.page[w.count - 1], link);

    (void)l;
    poke(word, chance(70) ? some_page() : some_false_number());
    return true;
}

static bool bend_state(const struct look *l)
{
    unsigned word = at(some_listed(), STATE);

    (void)l;
    poke(word, chance(70) ? world[word] ^ 16u << below(4) : below(256));
    return true;
}

static bool bend_names(const struct look *l)
{
    unsigned page = some_listed(), other = some_listed(), who = world[at(page, WHO)];

    (void)l;
    poke(at(page, WHO), who / 16 * 16 + name_of(world, other));
    if (world[RUNNING_PAGE] == page && chance(80))
        poke(RUNNING_WHO, world[at(page, WHO)]);
    return true;
}

/* By one, or by what a byte and a signed number have apart. */
static bool bend_semaphore(const struct look *l)
{
    unsigned header = interrupt_header(from_to(1, INTERRUPTS)), page = chance(80) ? some_listed() : some_page();
    unsigned word = chance(30) ? header - 1 : chance(40) ? FREE_SEMAPHORE : at(page, OWN_SEMAPHORE);

    (void)l;
    switch (below(5)) {
    case 0: poke(word, world[word] + 1u); break;
    case 1: poke(word, world[word] - 1u); break;
    case 2: poke(word, world[word] ^ 128u); break;
    case 3: poke(word, 0u - world[word]); break;
    default: poke(word, below(256)); break;
    }
    return true;
}

static bool bend_tables(const struct look *l)
{
    unsigned word = from_to(LINE, TABLES_END - 1);

    (void)l;
    poke(word, chance(50) ? some_value(world[word]) : below(256));
    return true;
}

/* The last free page is in no list any more, and holds anything. */
static bool bend_lost(const struct look *l)
{
    struct queue q = queue_read(world, FREE_LIST, LINK);
    unsigned page;

    (void)l;
    if (q.count == 0)
        return false;
    page = q.page[q.count - 1];
    poke(q.count > 1 ? at(q.page[q.count - 2], LINK) : FREE_LIST, 0);
    for (unsigned word = LINK; word < SAVED; word++)
        poke(at(page, word), chance(40) ? some_page() : below(256));
    if (chance(50))
        agree(FREE_LIST);
    return true;
}

/* The lists behind two words change places. */
static bool bend_exchange(const struct look *l)
{
    unsigned word = some_full_word(), other = some_full_word(), number = world[word];

    (void)l;
    poke(word, world[other]);
    poke(other, number);
    if (chance(50))
        agree(some_header());
    return true;
}

/* The first page of one list becomes the first of another, or a grant, with the semaphores mostly right. */
static bool bend_move(const struct look *l)
{
    unsigned header = some_full_word(), page = world[header], other = some_header();

    (void)l;
    if (!is_control_page(page))
        return false;
    poke(header, world[at(page, link_of(header))]);
    if (chance(15)) {
        poke(GRANTS + from_to(1, HIGHEST_NAME), page);
    } else {
        poke(at(page, link_of(other)), world[other]);
        poke(other, page);
    }
    if (chance(70)) {
        agree(header);
        agree(other);
    }
    return true;
}

/* One that waits, waits in another queue; its reason and bit stay. */
static bool bend_other_queue(const struct look *l)
{
    unsigned header = interrupt_header(from_to(1, INTERRUPTS)), other = interrupt_header(from_to(1, INTERRUPTS));
    unsigned page;

    (void)l;
    for (unsigned tries = 0; tries < INTERRUPTS && world[header] == 0; tries++)
        header = header == interrupt_header(INTERRUPTS) ? interrupt_header(1) : header + 2;
    if (chance(30))
        header = PAGE_QUEUE;
    page = world[header];
    if (!is_control_page(page))
        return false;
    if (chance(40))
        other = chance(50) ? PAGE_QUEUE : at(page, OWN_WAIT);
    poke(header, world[at(page, LINK)]);
    poke(at(page, LINK), world[other]);
    poke(other, page);
    if (chance(70)) {
        agree(header);
        agree(other);
    }
    return true;
}

/* All twenty pages in any order, of which a list takes so many. */
static void any_order(uint8_t order[PAGES])
{
    for (unsigned i = 0; i < PAGES; i++)
        order[i] = (uint8_t)(FIRST_PAGE + i);
    for (unsigned i = PAGES; i > 1; i--) {
        unsigned other = below(i);
        uint8_t page = order[i - 1];

        order[i - 1] = order[other];
        order[other] = page;
    }
}

/* A list of any length, often of all pages or all but one, that ends, ends falsely, or comes back. */
static bool bend_chain(const struct look *l)
{
    unsigned header = some_header(), link = link_of(header), length = chance(60) ? from_to(19, 20) : from_to(1, 20);
    unsigned choice = below(10);
    uint8_t order[PAGES];

    (void)l;
    any_order(order);
    poke(header, order[0]);
    for (unsigned i = 0; i + 1 < length; i++)
        poke(at(order[i], link), order[i + 1]);
    poke(at(order[length - 1], link), choice < 3 ? 0 : choice < 4 ? some_false_number() : order[below(length)]);
    if (chance(60))
        agree(header);
    return true;
}

static bool bend_copy(const struct look *l)
{
    unsigned page = some_page(), other = some_page();

    (void)l;
    order_break(at(page, 0), world + at(other, 0), PAGE_WORDS);
    return true;
}

/* Two pages change contents, or all but the links. */
static bool bend_contents(const struct look *l)
{
    unsigned page = some_page(), other = some_page(), first = chance(50) ? LINK : REASON;

    (void)l;
    for (unsigned word = first; word < SAVED; word++) {
        unsigned value = world[at(page, word)];

        poke(at(page, word), world[at(other, word)]);
        poke(at(other, word), value);
    }
    return true;
}

const struct way bends[] = {
    { 0, "any word of pages 4-10 and 236-255", bend_any_word, WAIT_NONE },
    { 0, "a judged word by a little", bend_judged_word, WAIT_NONE },
    { 0, "a bit of a judged word", bend_bit, WAIT_NONE },
    { REFUSE_USES, "a header, link or grant to any page", bend_link, WAIT_NONE },
    { REFUSE_USES, "a link to its own page", bend_to_itself, WAIT_NONE },
    { REFUSE_USES, "a header, link or grant to page 255", bend_to_255, WAIT_NONE },
    { REFUSE_USES, "a header, link or grant below 236", bend_below, WAIT_NONE },
    { REFUSE_USES, "the end of a list leads on", bend_end, WAIT_NONE },
    { REFUSE_USES, "a lost page with any words", bend_lost, WAIT_NONE },
    { REFUSE_USES, "what follows two words exchanged", bend_exchange, WAIT_NONE },
    { REFUSE_USES, "a list of up to all pages, which may come back", bend_chain, WAIT_NONE },
    { REFUSE_USES, "a page copied over another", bend_copy, WAIT_NONE },
    { REFUSE_WAITS, "a page moved to another list", bend_move, WAIT_NONE },
    { REFUSE_WAITS, "a waiter moved to another queue", bend_other_queue, WAIT_NONE },
    { REFUSE_WAITS, "bits of word 12", bend_state, WAIT_NONE },
    { REFUSE_WAITS, "any semaphore", bend_semaphore, WAIT_NONE },
    { REFUSE_RECORDS, "two names alike", bend_names, WAIT_NONE },
    { REFUSE_RECORDS, "two pages change contents", bend_contents, WAIT_NONE },
    { REFUSE_TABLES, "any word of pages 7-10", bend_tables, WAIT_NONE }
};
const unsigned bend_count = sizeof bends / sizeof bends[0];
