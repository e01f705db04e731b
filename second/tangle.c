/* Ways to break wait queues, what belongs to waiting, and semaphores. */
#include "breakers.h"
#include "judge.h"

/* The wait queue of somebody that waits now, with count 0 if nobody is found. */
static struct queue some_queue(const struct look *l)
{
    const struct one *one = some_waiter(l, chance(40) ? WAIT_INTERRUPT : WAIT_NONE);
    struct queue none = { 0 };

    if (one == NULL)
        return none;
    if (one->wait == WAIT_PAGE)
        return queue_read(world, PAGE_QUEUE, LINK);
    if (one->wait == WAIT_MESSAGE)
        return queue_read(world, at(one->page, OWN_WAIT), LINK);
    return queue_read(world, interrupt_header(one->interrupt), LINK);
}

static unsigned some_wait_header(const struct look *l)
{
    switch (below(4)) {
    case 0: return PAGE_QUEUE;
    case 1: return at(some_one(l)->page, OWN_WAIT);
    default: return interrupt_header(from_to(1, INTERRUPTS));
    }
}

/* The semaphore before the header, as it should be for the pages that a walk meets. */
static void agree(unsigned header)
{
    unsigned waiters = walk_from(world, header, LINK).count;
    unsigned free = header == PAGE_QUEUE ? walk_from(world, FREE_LIST, LINK).count : 0;

    if ((uint8_t)(free - waiters) != world[header - 1])
        poke(header - 1, free - waiters);
}

static void maybe_agree(unsigned header)
{
    if (chance(60))
        agree(header);
}

static bool tangle_false_header(const struct look *l)
{
    struct queue q = { .header = some_wait_header(l), .link = LINK };

    if (chance(50))
        q.header = chance(50) ? PAGE_QUEUE : at(some_one(l)->page, OWN_WAIT);
    if (chance(30))
        lead_on(&q);
    else
        end_falsely(&q);
    maybe_agree(q.header);
    return true;
}

static bool tangle_false_link(const struct look *l)
{
    struct queue q = some_queue(l);
    unsigned page;

    if (q.count == 0)
        return false;
    page = q.page[below(q.count)];
    poke(at(page, LINK), some_false_number());
    maybe_agree(q.header);
    return true;
}

static bool tangle_lead_on(const struct look *l)
{
    struct queue q = some_queue(l);

    if (q.count == 0)
        return false;
    lead_on(&q);
    maybe_agree(q.header);
    return true;
}

static bool tangle_cut(const struct look *l)
{
    struct queue q = some_queue(l);

    if (!cut(&q))
        return false;
    maybe_agree(q.header);
    return true;
}

static bool tangle_loop(const struct look *l)
{
    struct queue q = some_queue(l);

    if (!come_back(&q))
        return false;
    maybe_agree(q.header);
    return true;
}

static bool tangle_run_into(const struct look *l)
{
    struct queue q = some_queue(l), other = some_queue(l);

    if (q.count == 0 || !run_into(&q, &other))
        return false;
    maybe_agree(q.header);
    return true;
}

/* A processor in an empty queue: with its bit and a reason it is well-formed, if it wasn't ready to run. */
static bool tangle_put_to_wait(const struct look *l)
{
    unsigned header = some_wait_header(l), page = some_one(l)->page;
    uint8_t nothing = 0;

    if (world[header] != 0)
        return false;
    poke(header, page);
    if (chance(70) && world[at(page, LINK)] != 0)
        order_break(at(page, LINK), &nothing, 1);
    maybe_agree(header);
    if (chance(50))
        poke(at(page, STATE), world[at(page, STATE)] | WAITING);
    if (chance(50))
        poke(at(page, REASON), chance(70) ? 1 : below(256));
    return true;
}

/* A page that is no processor's waits: alone, or behind one that does. */
static bool tangle_no_processor(const struct look *l)
{
    struct queue q = some_queue(l), free_list = queue_read(world, FREE_LIST, LINK);
    unsigned header = some_wait_header(l), page = 0;

    if (free_list.count > 0 && chance(60))
        page = free_list.page[chance(30) ? 0 : free_list.count - 1];  /* the last has nobody behind it */
    else
        page = some_message(l);
    if (page == 0)
        return false;
    if (q.count > 0 && chance(50)) {
        header = q.header;
        poke(at(q.page[q.count - 1], LINK), page);
    } else {
        poke(header, page);
    }
    if (chance(85))
        agree(header);
    if (chance(70) && header != PAGE_QUEUE && world[at(page, REASON)] == 0)
        poke(at(page, REASON), 1);
    return true;
}

static bool tangle_bit(const struct look *l)
{
    const struct one *one = chance(50) ? some_waiter(l, WAIT_NONE) : NULL;
    unsigned page = one != NULL ? one->page : some_one(l)->page;

    poke(at(page, STATE), world[at(page, STATE)] ^ WAITING);
    return true;
}

static bool tangle_reason_0(const struct look *l)
{
    const struct one *one = some_waiter(l, WAIT_INTERRUPT);

    if (one == NULL)
        return false;
    poke(at(one->page, REASON), 0);
    return true;
}

static bool tangle_reason_of_page_waiter(const struct look *l)
{
    const struct one *one = some_waiter(l, WAIT_PAGE);

    if (one == NULL)
        return false;
    poke(at(one->page, REASON), chance(50) ? 1 : from_to(1, 255));
    return true;
}

static bool tangle_reason_of_ready(const struct look *l)
{
    const struct one *one = some_one(l);

    for (unsigned tries = 0; tries < 10 && one->wait != WAIT_NONE; tries++)
        one = some_one(l);
    poke(at(one->page, REASON), chance(50) ? 1 : from_to(1, 255));
    return true;
}

/* What a message wait may have for its reason: any sender or none, any flag or none. */
static unsigned some_reason(void)
{
    unsigned sender = below(16);

    return sender * 16 + below(8);
}

/* One that waits for a message; if there is none, one is put to wait by hand, which breaks nothing. */
static const struct one *message_waiter(const struct look *l)
{
    const struct one *one = some_waiter(l, WAIT_MESSAGE);
    uint8_t words[3] = { 7, 255, 0 };

    for (unsigned tries = 0; tries < 12 && one == NULL; tries++) {
        const struct one *candidate = some_one(l);

        if (candidate->wait != WAIT_NONE || candidate->page == world[RUNNING_PAGE])
            continue;
        one = candidate;
        words[0] = (uint8_t)(one->q1 > 0 ? 7 : some_reason());
        words[2] = (uint8_t)one->page;
        order_break(at(one->page, REASON), words, 3);
        poke(at(one->page, LINK), 0);
        poke(at(one->page, STATE), world[at(one->page, STATE)] | WAITING);
    }
    return one;
}

/* Flags 8-15 match nothing; 7 is the last that is allowed. */
static bool tangle_wait_flag(const struct look *l)
{
    const struct one *one = message_waiter(l);
    unsigned sender = below(16);

    if (one == NULL)
        return false;
    poke(at(one->page, REASON), sender * 16 + (chance(20) ? 7 : chance(65) ? 8 : from_to(9, 15)));
    return true;
}

/* What is waited for is in Q1: at its front, or behind others. */
static bool tangle_wait_match(const struct look *l)
{
    const struct one *one = message_waiter(l);
    struct queue q;
    unsigned from;

    for (unsigned tries = 0; tries < 6 && one != NULL && world[at(one->page, Q1)] == 0; tries++)
        one = message_waiter(l);
    if (one == NULL)
        return false;
    q = queue_read(world, at(one->page, Q1), LINK);
    if (q.count == 0)
        return false;
    from = world[at(q.page[below(q.count)], FROM)];
    poke(at(one->page, REASON), chance(30) ? 0 : chance(30) ? from % 16u : chance(50) ? from / 16u * 16u : from);
    return true;
}

/* The first free page made a message for one that may wait for just that. */
static bool tangle_wait_mail(const struct look *l)
{
    const struct one *one = message_waiter(l);
    unsigned page = world[FREE_LIST], wanted;
    uint8_t words[3];

    if (one == NULL || !is_control_page(page))
        return false;
    wanted = chance(60) ? world[at(one->page, REASON)] : 0;
    poke(FREE_LIST, world[at(page, LINK)]);
    poke(FREE_SEMAPHORE, world[FREE_SEMAPHORE] - 1u);
    words[0] = world[at(one->page, Q1)];
    words[1] = (uint8_t)(wanted / 16 != 0 ? wanted / 16 * 16 : from_to(1, 15) * 16);
    words[1] = (uint8_t)(words[1] + (wanted % 16 != 0 ? wanted % 16 : from_to(1, chance(80) ? 7 : 8)));
    words[2] = (uint8_t)(chance(15) ? LONGEST_TEXT + 1 : good_length());
    order_break(at(page, LINK), words, 3);
    poke(at(one->page, Q1), page);
    return true;
}

/* "holds its owner only": another waits in it, instead of the owner or behind it. */
static bool tangle_foreign_wait(const struct look *l)
{
    const struct one *one = message_waiter(l), *other = some_one(l);
    static const uint8_t nobody[2] = { 0, 0 };
    uint8_t both[2] = { 255, 0 };

    for (unsigned tries = 0; tries < 20 && (other->wait == WAIT_MESSAGE || other->q1 > 0); tries++)
        other = some_one(l);
    if (one == NULL || other == one || other->wait == WAIT_MESSAGE)
        return false;
    both[1] = (uint8_t)one->page;
    order_break(at(other->page, OWN_SEMAPHORE), both, 2);
    order_break(at(one->page, OWN_SEMAPHORE), nobody, 2);
    if (chance(30)) {  /* the owner waits there too, before it */
        poke(at(other->page, OWN_WAIT), other->page);
        poke(at(other->page, LINK), one->page);
        poke(at(other->page, STATE), world[at(other->page, STATE)] | WAITING);
        agree(at(other->page, OWN_WAIT));
    }
    return true;
}

static bool tangle_interrupt_semaphore(const struct look *l)
{
    struct queue q = some_queue(l);
    unsigned header = interrupt_header(from_to(1, INTERRUPTS));

    if (q.count > 0 && q.header < PAGE_QUEUE && chance(50))
        header = q.header;
    poke(header - 1, some_value(world[header - 1]));
    return true;
}

static bool tangle_free_semaphore(const struct look *l)
{
    (void)l;
    poke(FREE_SEMAPHORE, some_value(world[FREE_SEMAPHORE]));
    return true;
}

static bool tangle_own_semaphore(const struct look *l)
{
    const struct one *one = chance(50) ? some_waiter(l, WAIT_MESSAGE) : NULL;
    unsigned address = at(one != NULL ? one->page : some_one(l)->page, OWN_SEMAPHORE);

    poke(address, some_value(world[address]));
    return true;
}

/* A page that was a message is free, or granted, beside page waiters. */
static bool tangle_hunger(const struct look *l)
{
    unsigned page = take_message(l);

    if (page == 0)
        return false;
    poke(at(page, LINK), world[FREE_LIST]);
    poke(FREE_LIST, page);
    if (chance(80))
        poke(FREE_SEMAPHORE, world[FREE_SEMAPHORE] + 1u);
    return true;
}

static bool tangle_granted_waiter(const struct look *l)
{
    const struct one *waiter = some_waiter(l, WAIT_PAGE);
    unsigned page = take_message(l);

    if (page == 0 || waiter == NULL)
        return false;
    poke(GRANTS + (chance(75) ? waiter->name : existing_name(l)), page);
    return true;
}

/* One that waits for a page loses its name, and word 0 of page 10 is what would be its grant. */
static bool tangle_nameless(const struct look *l)
{
    const struct one *one = some_waiter(l, WAIT_PAGE);

    if (one == NULL)
        return false;
    poke(at(one->page, WHO), one->priority * 16);
    poke(GRANTS, chance(50) ? some_page() : from_to(1, 255));
    return true;
}

/* A processor that is stopped waits for a page while pages are free. */
static bool tangle_page_queue(const struct look *l)
{
    const struct one *one = some_one(l);
    uint8_t nothing = 0;

    for (unsigned tries = 0; tries < 10 && (one->wait != WAIT_NONE || !one->stopped); tries++)
        one = some_one(l);
    if (one->wait != WAIT_NONE || world[PAGE_QUEUE] != 0)
        return false;
    poke(PAGE_QUEUE, one->page);
    order_break(at(one->page, LINK), &nothing, 1);
    poke(at(one->page, STATE), world[at(one->page, STATE)] | WAITING);
    maybe_agree(PAGE_QUEUE);
    return true;
}

const struct way tangles[] = {
    { REFUSE_WAITS, "a wait queue's header with a false number", tangle_false_header, WAIT_NONE },
    { REFUSE_WAITS, "a waiter's link with a false number", tangle_false_link, WAIT_INTERRUPT },
    { REFUSE_WAITS, "a false number in a wait queue that leads on", tangle_lead_on, WAIT_INTERRUPT },
    { REFUSE_WAITS, "a wait queue cut short", tangle_cut, WAIT_INTERRUPT },
    { REFUSE_WAITS, "a wait queue that comes back on itself", tangle_loop, WAIT_INTERRUPT },
    { REFUSE_WAITS, "a wait queue that runs into another", tangle_run_into, WAIT_INTERRUPT },
    { REFUSE_WAITS, "a processor put to wait by hand", tangle_put_to_wait, WAIT_NONE },
    { REFUSE_WAITS, "a page that is no processor's waits", tangle_no_processor, WAIT_NONE },
    { REFUSE_WAITS, "a waiting bit", tangle_bit, WAIT_NONE },
    { REFUSE_WAITS, "reason 0 in an interrupt queue", tangle_reason_0, WAIT_INTERRUPT },
    { REFUSE_WAITS, "a reason in the page queue", tangle_reason_of_page_waiter, WAIT_PAGE },
    { REFUSE_WAITS, "a reason of one that doesn't wait", tangle_reason_of_ready, WAIT_NONE },
    { REFUSE_WAITS, "the flag of a message wait", tangle_wait_flag, WAIT_NONE },
    { REFUSE_WAITS, "a message wait that matches", tangle_wait_match, WAIT_NONE },
    { REFUSE_WAITS, "mail for a message wait", tangle_wait_mail, WAIT_NONE },
    { REFUSE_WAITS, "another in a message wait", tangle_foreign_wait, WAIT_NONE },
    { REFUSE_WAITS, "an interrupt's semaphore", tangle_interrupt_semaphore, WAIT_NONE },
    { REFUSE_WAITS, "the free semaphore", tangle_free_semaphore, WAIT_NONE },
    { REFUSE_WAITS, "a processor's semaphore", tangle_own_semaphore, WAIT_NONE },
    { REFUSE_WAITS, "a page free beside page waiters", tangle_hunger, WAIT_PAGE },
    { REFUSE_WAITS, "a page granted to a page waiter", tangle_granted_waiter, WAIT_PAGE },
    { REFUSE_WAITS, "a page waiter without a name", tangle_nameless, WAIT_PAGE },
    { REFUSE_WAITS, "a page waiter beside free pages", tangle_page_queue, WAIT_NONE }
};
const unsigned tangle_count = sizeof tangles / sizeof tangles[0];
