/* Ways to break the lists of uses: pages lost, used twice, false numbers, lists without end. */
#include "breakers.h"

/* The processor list, the free list, a Q1 or a Q2, with at least so many pages; else one with none. */
static struct queue some_list(const struct look *l, unsigned fewest)
{
    struct queue q = { 0 };

    for (unsigned tries = 0; tries < 12; tries++) {
        unsigned choice = below(10), page = some_one(l)->page, header = at(page, chance(50) ? Q1 : Q2);

        if (choice < 5)
            header = choice < 2 ? PROCESSOR_LIST : FREE_LIST;
        q = queue_read(world, header, header == PROCESSOR_LIST ? LIST_LINK : LINK);
        if (q.count >= fewest)
            return q;
    }
    q.count = 0;
    return q;
}

/* The address of the header (place 0) or of the link of a page (place 1 and on). */
static unsigned word_at(const struct queue *q, unsigned place)
{
    return place == 0 ? q->header : at(q->page[place - 1], q->link);
}

/* Pages at the end, or all of them, are lost. */
bool cut(const struct queue *q)
{
    if (q->count == 0)
        return false;
    poke(word_at(q, below(q->count)), 0);
    return true;
}

/* A false number in the header, in the middle or at the end. */
bool end_falsely(const struct queue *q)
{
    unsigned word = word_at(q, below(q->count + 1));

    poke(word, some_false_number());
    return true;
}

/* A false number where the words of that page, as if it were one, lead to a control page. */
bool lead_on(const struct queue *q)
{
    unsigned word = word_at(q, below(q->count + 1));
    unsigned number = chance(20) ? from_to(1, 3) : from_to(11, FIRST_PAGE - 1);
    uint8_t next = world[word] != 0 && chance(70) ? world[word] : (uint8_t)some_page();

    order_put(at(number, q->link), &next, 1);
    poke(word, number);
    return true;
}

/* A link back to a page before it or to its own. */
bool come_back(const struct queue *q)
{
    unsigned place;

    if (q->count == 0)
        return false;
    place = chance(60) ? q->count : from_to(1, q->count);
    poke(word_at(q, place), q->page[chance(40) ? 0 : below(place)]);
    return true;
}

bool run_into(const struct queue *q, const struct queue *other)
{
    unsigned place = chance(50) ? q->count : below(q->count + 1);

    if (other->count == 0 || q->header == other->header)
        return false;
    poke(word_at(q, place), other->page[below(other->count)]);
    return true;
}

static bool tear_cut(const struct look *l)
{
    struct queue q = some_list(l, 1);

    return cut(&q);
}

/* The first page, or more, is skipped and lost. */
static bool tear_skip(const struct look *l)
{
    struct queue q = some_list(l, 2);
    unsigned place;

    if (q.count < 2)
        return false;
    place = below(q.count - 1);
    poke(word_at(&q, place), q.page[from_to(place + 1, q.count - 1)]);
    return true;
}

static bool tear_false_header(const struct look *l)
{
    struct queue q = some_list(l, 0);

    q.count = 0;
    return chance(30) ? lead_on(&q) : end_falsely(&q);
}

static bool tear_false_link(const struct look *l)
{
    struct queue q = some_list(l, 1);
    unsigned word;

    if (q.count == 0)
        return false;
    word = word_at(&q, from_to(1, q.count));
    poke(word, some_false_number());
    return true;
}

static bool tear_lead_on(const struct look *l)
{
    struct queue q = some_list(l, 1);

    return q.count > 0 && lead_on(&q);
}

static bool tear_loop(const struct look *l)
{
    struct queue q = some_list(l, chance(50) ? 1 : 4);

    return come_back(&q);
}

/*
 * A long free list in another order, which then ends as it should or comes back on itself so
 * that the last page of a walk of 21 is met for the second time.
 */
static bool tear_long_loop(const struct look *l)
{
    struct queue q = queue_read(world, FREE_LIST, LINK);

    (void)l;
    if (q.count < LONG_LIST)
        return false;
    for (unsigned i = q.count - 1; i > 0; i--) {
        unsigned other = below(i + 1);
        uint8_t page = q.page[i];

        q.page[i] = q.page[other];
        q.page[other] = page;
    }
    poke(FREE_LIST, q.page[0]);
    for (unsigned i = 0; i + 1 < q.count; i++)
        poke(at(q.page[i], LINK), q.page[i + 1]);
    poke(at(q.page[q.count - 1], LINK), chance(20) ? 0u : q.page[below(2 * q.count - 20)]);
    return true;
}

static unsigned lowest_mail(const struct one *one)
{
    struct queue q1 = queue_read(world, at(one->page, Q1), LINK), q2 = queue_read(world, at(one->page, Q2), LINK);
    unsigned lowest = LAST_PAGE + 1;

    for (unsigned i = 0; i < q1.count; i++)
        lowest = q1.page[i] < lowest ? q1.page[i] : lowest;
    for (unsigned i = 0; i < q2.count; i++)
        lowest = q2.page[i] < lowest ? q2.page[i] : lowest;
    return lowest;
}

/* If this one comes back to itself, the lowest page of its mail is lower than all that is met again or lost. */
static bool mail_is_lowest(const struct look *l, unsigned place)
{
    unsigned lowest = lowest_mail(&l->one[place]);

    for (unsigned i = place; i < l->count; i++)
        if (l->one[i].page < lowest || (i > place && lowest_mail(&l->one[i]) < lowest))
            return false;
    return true;
}

/*
 * One with mail comes back to itself on the processor list, so its mail is met again and again.
 * Often it is one whose mail is then what is told.
 */
static bool tear_mail_loop(const struct look *l)
{
    unsigned found = l->count, page = l->one[l->count - 1].page;
    bool lowest = chance(80);

    for (unsigned i = 0, from = below(l->count); i < l->count; i++) {
        unsigned place = (from + i) % l->count;

        if (l->one[place].q1 + l->one[place].q2 > 0 && (found == l->count || (lowest && mail_is_lowest(l, place))))
            found = place;
    }
    if (lowest && (found == l->count || !mail_is_lowest(l, found)) && world[FREE_LIST] < page)
        found = make_message(at(page, Q2)) != 0 ? l->count - 1 : found;  /* the last one gets some */
    if (found == l->count)
        return false;
    page = l->one[found].page;
    poke(at(page, LIST_LINK), page);
    return true;
}

static bool tear_run_into(const struct look *l)
{
    struct queue q = some_list(l, 0), other = some_list(l, 1);

    return run_into(&q, &other);
}

/* A processor's page in the free list or among messages, with all that hangs on it. */
static bool tear_processor_used(const struct look *l)
{
    struct queue q = some_list(l, 0);

    if (q.header == PROCESSOR_LIST)
        return false;
    poke(word_at(&q, q.count), some_one(l)->page);
    return true;
}

/* A page that is no processor's on the processor list. */
static bool tear_other_listed(const struct look *l)
{
    struct queue q = queue_read(world, PROCESSOR_LIST, LIST_LINK);
    unsigned page = chance(50) ? world[FREE_LIST] : some_message(l);

    if (page == 0)
        return false;
    poke(word_at(&q, chance(50) ? q.count : below(q.count + 1)), page);
    return true;
}

static bool tear_granted_too(const struct look *l)
{
    unsigned name = chance(50) ? existing_name(l) : from_to(1, HIGHEST_NAME);

    poke(GRANTS + name, some_page());
    return true;
}

static bool tear_false_grant(const struct look *l)
{
    unsigned name = chance(40) ? existing_name(l) : from_to(1, HIGHEST_NAME);

    poke(GRANTS + name, some_false_number());
    return true;
}

/* A grant that is there: lost, false, granted twice, or free too. */
static bool tear_grant(const struct look *l)
{
    const struct one *one = some_granted(l);
    unsigned page;

    if (one == NULL)
        return false;
    page = world[GRANTS + one->name];
    switch (below(4)) {
    case 0: poke(GRANTS + one->name, 0); break;
    case 1: poke(GRANTS + one->name, some_false_number()); break;
    case 2: poke(GRANTS + from_to(1, HIGHEST_NAME), page); break;
    default: poke(FREE_LIST, page); break;
    }
    return true;
}

/* Links of many pages, all of them control pages or 0. */
static bool tear_many_links(const struct look *l)
{
    (void)l;
    for (unsigned left = from_to(3, 8); left > 0; left--) {
        unsigned page = some_page(), word = chance(70) ? LINK : below(Q2 + 1);

        poke(at(page, word), chance(25) ? 0 : some_page());
    }
    return true;
}

const struct way tears[] = {
    { REFUSE_USES, "a list cut short", tear_cut, WAIT_NONE },
    { REFUSE_USES, "pages of a list skipped", tear_skip, WAIT_NONE },
    { REFUSE_USES, "a header with a false number", tear_false_header, WAIT_NONE },
    { REFUSE_USES, "a link with a false number", tear_false_link, WAIT_NONE },
    { REFUSE_USES, "a false number that leads on", tear_lead_on, WAIT_NONE },
    { REFUSE_USES, "a list that comes back on itself", tear_loop, WAIT_NONE },
    { REFUSE_USES, "a long list in any order that comes back on itself", tear_long_loop, NEEDS_FREE },
    { REFUSE_USES, "a processor with mail that comes back to itself", tear_mail_loop, WAIT_NONE },
    { REFUSE_USES, "a list that runs into another", tear_run_into, WAIT_NONE },
    { REFUSE_USES, "a processor's page in another list", tear_processor_used, WAIT_NONE },
    { REFUSE_USES, "another page on the processor list", tear_other_listed, WAIT_NONE },
    { REFUSE_USES, "a used page granted", tear_granted_too, WAIT_NONE },
    { REFUSE_USES, "a grant with a false number", tear_false_grant, WAIT_NONE },
    { REFUSE_USES, "a grant lost, false, twice or free", tear_grant, WAIT_NONE },
    { REFUSE_USES, "many links", tear_many_links, WAIT_NONE }
};
const unsigned tear_count = sizeof tears / sizeof tears[0];
