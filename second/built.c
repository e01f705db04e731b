/*
 * Well-formed memories made at random from nothing.  The pages are shared out among processors,
 * free list, mail and grants, then some processors are put to wait, then comes who runs.  What is
 * not judged is any word at all.  A crowded one has more processors than there are names, and all
 * else as it should be.
 */
#include <string.h>

#include "alike.h"

static uint8_t pages[PAGES];              /* in any order, the processors' first */
static unsigned count;                    /* of processors */
static uint8_t names[PAGES];              /* in any order; behind the fifteenth they come again */
static bool hungry;                       /* no page is free, and some wait for one */

static void shuffle(uint8_t *items, unsigned length)
{
    for (unsigned i = length; i > 1; i--) {
        unsigned other = below(i);
        uint8_t item = items[i - 1];

        items[i - 1] = items[other];
        items[other] = item;
    }
}

static void scatter(unsigned address, unsigned end)
{
    for (; address < end; address++)
        world[address] = (uint8_t)below(256);
}

static void share_names_and_pages(bool crowded)
{
    for (unsigned i = 0; i < PAGES; i++)
        pages[i] = (uint8_t)(FIRST_PAGE + i);
    if (chance(70))
        shuffle(pages, PAGES);
    for (unsigned i = 0; i < HIGHEST_NAME; i++)
        names[i] = (uint8_t)(i + 1);
    shuffle(names, HIGHEST_NAME);
    for (unsigned i = HIGHEST_NAME; i < PAGES; i++)
        names[i] = names[below(i)];
    count = chance(30) ? HIGHEST_NAME : chance(5) ? 0 : from_to(1, HIGHEST_NAME);
    if (crowded)
        count = from_to(HIGHEST_NAME + 1, PAGES);
    hungry = count > 0 && chance(35);
}

/* Nobody waits, nobody has mail; some are stopped. */
static void make_processor(unsigned page, unsigned name, unsigned highest)
{
    unsigned stopped = chance(25) ? STOPPED : 0;

    for (unsigned word = REASON; word <= Q2; word++)
        store(world, at(page, word), 0);
    store(world, at(page, WHO), from_to(1, highest) * 16 + name);
    store(world, at(page, STATE), stopped + below(16));
}

static void make_processors(void)
{
    unsigned highest = chance(30) ? from_to(1, 2) : 15;

    store(world, PROCESSOR_LIST, 0);
    for (unsigned i = 0; i < count; i++) {
        make_processor(pages[i], names[i], highest);
        store(world, at(pages[i], LIST_LINK), world[PROCESSOR_LIST]);
        store(world, PROCESSOR_LIST, pages[i]);
    }
}

static void push(unsigned header, unsigned page)
{
    store(world, at(page, LINK), world[header]);
    store(world, header, page);
}

static void send(unsigned page, unsigned receiver, unsigned queue)
{
    unsigned sender = from_to(1, HIGHEST_NAME), flag = from_to(1, 7);

    store(world, at(page, FROM), sender * 16 + flag);
    store(world, at(page, LENGTH), good_length());
    push(at(receiver, queue), page);
}

/* Free, granted or mail, as the shares in percent say; with nobody there all are free. */
static void share_page(unsigned page, unsigned free_share, unsigned grant_share, unsigned receiver)
{
    unsigned choice = below(100), name = names[below(count)];

    if (count == 0 || (choice < free_share && !hungry)) {
        push(FREE_LIST, page);
        store(world, FREE_SEMAPHORE, world[FREE_SEMAPHORE] + 1u);
    } else if (choice < free_share + grant_share && world[GRANTS + name] == 0) {
        store(world, GRANTS + name, page);
    } else {
        send(page, receiver, chance(60) ? Q1 : Q2);
    }
}

static void share_pages(void)
{
    unsigned free_share = chance(30) ? 0 : chance(30) ? 100 : below(100);
    unsigned grant_share = chance(50) ? below(30) : below(101);
    bool one_holder = chance(20);
    unsigned favourite = pages[below(count)];

    store(world, FREE_LIST, 0);
    store(world, FREE_SEMAPHORE, 0);
    memset(world + GRANTS, 0, PAGE_WORDS);
    for (unsigned i = count; i < PAGES; i++)
        share_page(pages[i], free_share, grant_share, one_holder ? favourite : pages[below(count)]);
}

static void put_to_wait(unsigned header, unsigned page, unsigned reason)
{
    push(header, page);
    store(world, header - 1, world[header - 1] - 1u);
    store(world, at(page, REASON), reason);
    store(world, at(page, STATE), world[at(page, STATE)] | WAITING);
}

/* A reason that matches nothing in Q1, if one is found soon. */
static void wait_for_message(unsigned page)
{
    for (unsigned tries = 0; tries < 6; tries++) {
        unsigned sender = below(16), reason = sender * 16 + below(8);

        if (first_match(world, at(page, Q1), reason) == 0) {
            put_to_wait(at(page, OWN_WAIT), page, reason);
            return;
        }
    }
}

static void put_some_to_wait(void)
{
    unsigned share = chance(20) ? 100 : below(101), favourite = from_to(1, INTERRUPTS);
    unsigned alone = below(101);

    memset(world + TABLES + 3, 0, LINE - TABLES - 3);
    store(world, PAGE_QUEUE, 0);
    for (unsigned i = 0; i < count; i++) {
        unsigned page = pages[i], choice = below(3), number = chance(alone) ? from_to(1, INTERRUPTS) : favourite;

        if (!chance(share))
            continue;
        if (choice == 0 && hungry && world[GRANTS + name_of(world, page)] == 0)
            put_to_wait(PAGE_QUEUE, page, 0);
        else if (choice == 1)
            wait_for_message(page);
        else
            put_to_wait(interrupt_header(number), page, chance(30) ? 1 : chance(30) ? 255 : from_to(1, 255));
    }
}

/* Any one of those that are ready and highest. */
static void choose_runner(void)
{
    unsigned highest = 0, found[PAGES], equal = 0, page = 0;

    for (unsigned i = 0; i < count; i++) {
        unsigned priority = is_ready(world, pages[i]) ? priority_of(world, pages[i]) : 0;

        if (priority > highest)
            equal = 0;
        if (priority != 0 && priority >= highest) {
            highest = priority;
            found[equal++] = pages[i];
        }
    }
    if (equal > 0)
        page = found[below(equal)];
    store(world, RUNNING_PAGE, page);
    store(world, RUNNING_WHO, page != 0 ? world[at(page, WHO)] : 0u);
    store(world, ALWAYS_ZERO, 0);
}

static void make_tables(void)
{
    unsigned unused = chance(20) ? FAULT_TABLE_FULL : chance(30) ? 1 : from_to(1, FAULT_TABLE_FULL);

    for (unsigned code = 0; code < CODES; code++) {
        unsigned code_is = code < 2 ? KIND_BUILT_IN : code == 15 ? 2 * below(2) : below(3);

        set_code(world, code, code_is, below(WORDS));
    }
    memset(world + FAULT_TABLE, 0, PAGE_WORDS);
    store(world, FAULT_TABLE, unused);
    for (unsigned word = 1; word < unused; word++) {
        unsigned name = from_to(1, HIGHEST_NAME);

        store(world, FAULT_TABLE + word, name * 16 + from_to(1, FAULTS));
    }
}

static void make_clock(void)
{
    unsigned divider = chance(30) ? 1 : from_to(1, 255);

    store(world, LINE, chance(20) ? 16 : chance(20) ? 47 : from_to(16, 47));
    store(world, DIVIDER, divider);
    store(world, C0, chance(30) ? divider - 1 : below(divider));
    store(world, C1, chance(30) ? 9 : below(10));
    store(world, C2, chance(30) ? 59 : below(60));
    store(world, C3, chance(30) ? 59 : below(60));
}

void build_memory(bool crowded)
{
    scatter(TABLES, TABLES + 3);
    scatter(DIVIDER + 1, CODE_TABLE);
    scatter(at(FIRST_PAGE, 0), WORDS);
    share_names_and_pages(crowded);
    make_processors();
    share_pages();
    put_some_to_wait();
    choose_runner();
    make_tables();
    make_clock();
}
