/* Ways that leave little of a memory, or of one part of it: any bytes, any pages, any zeros. */
#include "alike.h"

/* Any words from an address on; so many percent of them are control pages, and so many of the others 0. */
static void wreck(unsigned address, unsigned end, unsigned share_of_pages, unsigned share_of_zeros)
{
    for (; address < end; address++)
        poke(address, chance(share_of_pages) ? some_page() : chance(share_of_zeros) ? 0 : below(256));
}

static bool wreck_bytes(const struct look *l)
{
    (void)l;
    wreck(TABLES, TABLES_END, 0, 0);
    wreck(at(FIRST_PAGE, 0), WORDS, 0, 0);
    return true;
}

static bool wreck_pages_and_zeros(const struct look *l)
{
    unsigned pages = below(101), zeros = below(101);

    (void)l;
    wreck(TABLES, LINE, pages, zeros);
    wreck(FREE_LIST, RUNNING_PAGE, pages, zeros);
    if (chance(30))
        wreck(GRANTS, GRANTS + HIGHEST_NAME + 1, pages / 4, zeros);
    for (unsigned page = FIRST_PAGE; page <= LAST_PAGE; page++)
        wreck(at(page, LINK), at(page, SAVED), pages, zeros);
    return true;
}

/* Only the words of lists and queues, each a page or 0. */
static bool wreck_links(const struct look *l)
{
    unsigned pages = from_to(30, 100);

    (void)l;
    for (unsigned page = FIRST_PAGE; page <= LAST_PAGE; page++) {
        wreck(at(page, LINK), at(page, REASON), pages, 100);
        if (chance(30))
            wreck(at(page, OWN_WAIT), at(page, WHO), pages / 4, 100);
    }
    wreck(FREE_LIST, FREE_LIST + 1, 80, 100);
    wreck(PROCESSOR_LIST, PROCESSOR_LIST + 1, 90, 100);
    return true;
}

static bool wreck_tables(const struct look *l)
{
    unsigned zeros = below(101);

    (void)l;
    wreck(chance(50) ? CODE_TABLE : FAULT_TABLE, GRANTS, 0, zeros);
    return true;
}

static bool wreck_counters(const struct look *l)
{
    (void)l;
    wreck(LINE, FREE_LIST, 0, below(60));
    if (chance(50))
        wreck(RUNNING_PAGE, DIVIDER + 1, 30, 40);
    return true;
}

static bool wreck_interrupts(const struct look *l)
{
    unsigned zeros = from_to(60, 99);

    (void)l;
    wreck(TABLES, LINE, 10, zeros);
    return true;
}

/* Records of processors and messages, and no link or header. */
static bool wreck_records(const struct look *l)
{
    unsigned share = from_to(1, 100);

    (void)l;
    for (unsigned page = FIRST_PAGE; page <= LAST_PAGE; page++) {
        if (!chance(share))
            continue;
        wreck(at(page, WHO), at(page, SAVED), 0, 10);
        if (chance(30))
            wreck(at(page, REASON), at(page, OWN_WAIT), 0, 50);
    }
    return true;
}

const struct way wrecks[] = {
    { 0, "any bytes in all the kernel's words", wreck_bytes, WAIT_NONE },
    { 0, "any pages, zeros and bytes in lists and records", wreck_pages_and_zeros, WAIT_NONE },
    { 0, "any pages and zeros in links", wreck_links, WAIT_NONE },
    { 0, "any bytes in the tables", wreck_tables, WAIT_NONE },
    { 0, "any bytes in the counters", wreck_counters, WAIT_NONE },
    { 0, "any bytes in the interrupts' words", wreck_interrupts, WAIT_NONE },
    { 0, "any bytes in records", wreck_records, WAIT_NONE }
};
const unsigned wreck_count = sizeof wrecks / sizeof wrecks[0];
