/* Changes of processors: who is there, runs and waits where; and of words that are told by their address only. */
#include "pairs.h"

unsigned chosen;

const struct one *subject(const struct look *l)
{
    const struct one *one = find_one(l, chosen);

    return one != NULL ? one : some_one(l);
}

static void wait_elsewhere(const struct one *one, unsigned header)
{
    wait_leave(world, wait_header_of(world, one->page), one->page);
    wait_join(world, header, one->page, one->reason);
}

/* The same reason, for another interrupt or for a message. */
static bool change_queue(const struct look *l)
{
    const struct one *one = subject(l);

    if (one->wait == WAIT_NONE || one->reason == 0)
        return false;
    wait_elsewhere(one, chance(25) ? at(one->page, OWN_WAIT) : interrupt_header(from_to(1, INTERRUPTS)));
    return true;
}

/* One that waits for a page waits for any message. */
static bool change_page_wait(const struct look *l)
{
    const struct one *one = some_waiter(l, WAIT_PAGE);

    if (one == NULL)
        return false;
    wait_elsewhere(one, at(one->page, OWN_WAIT));
    return true;
}

/* Another one that is as high. */
static bool change_runner(const struct look *l)
{
    unsigned page = subject(l)->page;

    if (!is_ready(world, page))
        return false;
    poke(RUNNING_PAGE, page);
    poke(RUNNING_WHO, world[at(page, WHO)]);
    return true;
}

static bool change_stopped_bit(const struct look *l)
{
    unsigned page = subject(l)->page;

    poke(at(page, STATE), world[at(page, STATE)] ^ STOPPED);
    who_runs(world);
    return true;
}

/* Of one that waits for an interrupt or for a message. */
static bool change_reason(const struct look *l)
{
    const struct one *one = subject(l);
    unsigned address = at(one->page, REASON);

    if (one->wait == WAIT_NONE || one->wait == WAIT_PAGE)
        return false;
    poke(address, chance(50) ? world[address] + 1u : below(256));
    return true;
}

static bool change_priority(const struct look *l)
{
    unsigned page = subject(l)->page, priority = from_to(1, 15);

    if (chance(40))
        priority = priority_of(world, page) ^ 1u << below(4);
    poke(at(page, WHO), priority * 16 + name_of(world, page));
    if (world[RUNNING_PAGE] == page)
        poke(RUNNING_WHO, world[at(page, WHO)]);
    return true;
}

static bool delete_one(const struct look *l)
{
    unsigned page = subject(l)->page;

    if (page == world[RUNNING_PAGE])
        return false;
    delete_processor(world, page);
    who_runs(world);
    return true;
}

static bool create_one(const struct look *l)
{
    unsigned name = absent_name(l), priority = from_to(1, 15), page;

    if (name == 0 || world[FREE_LIST] == 0)
        return false;
    page = take_page(world, name);
    set_up_processor(world, page, name, priority, 0, FIRST_LR);
    return true;
}

/* One that waits goes to the end of its queue. */
static bool change_place(const struct look *l)
{
    const struct one *one = chance(40) ? some_waiter(l, WAIT_PAGE) : subject(l);
    unsigned header;

    if (one == NULL || one->wait == WAIT_NONE)
        return false;
    header = wait_header_of(world, one->page);
    queue_leave(world, header, LINK, one->page);
    queue_join(world, header, LINK, one->page);
    return true;
}

static bool change_free_list(const struct look *l)
{
    unsigned page = world[FREE_LIST];

    (void)l;
    if (page == 0)
        return false;
    queue_leave(world, FREE_LIST, LINK, page);
    queue_join(world, FREE_LIST, LINK, page);
    return true;
}

/* The page goes to another one; if nobody has one, the first free page is granted. */
static bool change_grant(const struct look *l)
{
    const struct one *one = some_granted(l);
    unsigned page, name = existing_name(l);

    if (one == NULL || name == one->name || world[GRANTS + name] != 0)
        return one != NULL;
    page = world[GRANTS + one->name];
    poke(GRANTS + one->name, 0);
    poke(GRANTS + name, page);
    return true;
}

static bool change_page_0(const struct look *l)
{
    (void)l;
    for (unsigned left = from_to(1, 4); left > 0; left--) {
        unsigned address = below(PAGE_WORDS);

        poke(address, below(256));
    }
    return true;
}

static bool change_first_address(const struct look *l)
{
    (void)l;
    poke(0, world[0] + from_to(1, 255));
    return true;
}

/* It may be the last word of a text. */
static bool change_last_address(const struct look *l)
{
    (void)l;
    poke(WORDS - 1, world[WORDS - 1] + from_to(1, 255));
    return true;
}

const struct change place_changes[] = {
    { "the queue waited in", change_queue, false },
    { "a wait for a message, not for a page", change_page_wait, false },
    { "who runs", change_runner, false },
    { "the stopped bit", change_stopped_bit, false },
    { "the reason", change_reason, false },
    { "the priority", change_priority, false },
    { "another name", trifle_name, false },
    { "a processor deleted", delete_one, false },
    { "a processor created", create_one, false },
    { "the place in a wait queue", change_place, true }
};
const unsigned place_change_count = sizeof place_changes / sizeof place_changes[0];

const struct change word_changes[] = {
    { "registers, LR and kept words", trifle_registers, true },
    { "W", trifle_w, true },
    { "words of a free page", trifle_free_page, true },
    { "words of a granted page", trifle_granted_page, true },
    { "word 0 of one that does not wait", trifle_link, true },
    { "the order of the processor list", trifle_turn, true },
    { "the order of the free list", change_free_list, true },
    { "a grant", change_grant, true },
    { "a code", trifle_code, true },
    { "page 9", trifle_page_9, true },
    { "the clock", trifle_clock, true },
    { "words that are not judged", trifle_not_judged, true },
    { "page 0", change_page_0, true },
    { "the first address", change_first_address, true },
    { "the last address", change_last_address, false }
};
const unsigned word_change_count = sizeof word_changes / sizeof word_changes[0];
