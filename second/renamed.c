/* A renaming of control pages: their words move, and every header, link, grant and the running page says so. */
#include <string.h>

#include "pairs.h"

static uint8_t to[LAST_PAGE + 1];  /* the new number of each; of what is no control page, the old one */
static uint8_t old[BUFFER];

/* The pages in any order among themselves. */
static void shuffle(const uint8_t *pages, unsigned count)
{
    for (unsigned i = count; i > 1; i--) {
        unsigned one = pages[i - 1], other = pages[below(i)];
        uint8_t number = to[one];

        to[one] = to[other];
        to[other] = number;
    }
}

/* A queue from its new header on; `header` is where it was. */
static void rename_queue(unsigned header, unsigned new_header, unsigned link)
{
    struct queue q = queue_read(old, header, link);

    store(world, new_header, to[old[header]]);
    for (unsigned i = 0; i < q.count; i++)
        store(world, at(to[q.page[i]], link), to[old[at(q.page[i], link)]]);
}

static void rename_queues_of(unsigned page)
{
    static const uint8_t headers[] = { OWN_WAIT, Q1, Q2 };

    for (unsigned i = 0; i < sizeof headers; i++)
        rename_queue(at(page, headers[i]), at(to[page], headers[i]), LINK);
}

/* Word 0 of granted pages and of those that don't wait is no link and goes along as it is. */
static void move_pages(void)
{
    struct queue list = queue_read(world, PROCESSOR_LIST, LIST_LINK);

    memcpy(old, world, sizeof old);
    for (unsigned page = FIRST_PAGE; page <= LAST_PAGE; page++)
        memcpy(world + at(to[page], 0), old + at(page, 0), PAGE_WORDS);
    for (unsigned k = 1; k <= INTERRUPTS; k++)
        rename_queue(interrupt_header(k), interrupt_header(k), LINK);
    rename_queue(PAGE_QUEUE, PAGE_QUEUE, LINK);
    rename_queue(FREE_LIST, FREE_LIST, LINK);
    rename_queue(PROCESSOR_LIST, PROCESSOR_LIST, LIST_LINK);
    for (unsigned i = 0; i < list.count; i++)
        rename_queues_of(list.page[i]);
    for (unsigned name = 1; name <= HIGHEST_NAME; name++)
        store(world, GRANTS + name, to[old[GRANTS + name]]);
    store(world, RUNNING_PAGE, to[old[RUNNING_PAGE]]);
}

bool rename_pages(enum renaming which)
{
    struct letter letters[PAGES];
    uint8_t pages[PAGES];
    unsigned count = PAGES;

    for (unsigned i = 0; i <= LAST_PAGE; i++)
        to[i] = (uint8_t)i;
    for (unsigned i = 0; i < PAGES; i++)
        pages[i] = (uint8_t)(FIRST_PAGE + i);
    if (which == OF_TWO) {
        pages[0] = (uint8_t)(FIRST_PAGE + below(PAGES));
        pages[1] = (uint8_t)(FIRST_PAGE + below(PAGES));
        count = 2;
    } else if (which == OF_MAIL) {
        count = all_letters(world, letters);
        for (unsigned i = 0; i < count; i++)
            pages[i] = (uint8_t)letters[i].page;
    }
    if (count < 2)
        return false;
    shuffle(pages, count);
    move_pages();
    return true;
}
