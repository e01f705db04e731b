/* Looking at the state to choose what comes next. */
#include "generate.h"

static enum wait wait_of(const uint8_t *m, unsigned page, unsigned *interrupt)
{
    unsigned header = wait_header_of(m, page);

    *interrupt = 0;
    if (header == 0)
        return WAIT_NONE;
    if (header == PAGE_QUEUE)
        return WAIT_PAGE;
    if (header == at(page, OWN_WAIT))
        return WAIT_MESSAGE;
    *interrupt = (header - TABLES - 2) / 2;
    return WAIT_INTERRUPT;
}

static void count_mail(const uint8_t *m, struct one *one, const struct queue *q)
{
    for (unsigned i = 0; i < q->count; i++) {
        unsigned sender = m[at(q->page[i], FROM)] / 16u, length = m[at(q->page[i], LENGTH)];
        bool exists = sender != one->name && find_processor(m, sender) != 0;

        if (length == NOTICE) {
            one->notices++;
            one->odd += exists;
        } else if (is_marked(length)) {
            one->marked++;
            one->alive += exists;
        } else {
            one->mail += exists;
        }
    }
}

static struct one look_at_one(const uint8_t *m, unsigned page)
{
    struct one one = { .page = page, .name = name_of(m, page), .priority = priority_of(m, page) };
    struct queue q1 = queue_read(m, at(page, Q1), LINK), q2 = queue_read(m, at(page, Q2), LINK);

    one.stopped = (m[at(page, STATE)] & STOPPED) != 0;
    one.wait = wait_of(m, page, &one.interrupt);
    one.reason = m[at(page, REASON)];
    one.q1 = q1.count;
    one.q2 = q2.count;
    count_mail(m, &one, &q1);
    count_mail(m, &one, &q2);
    one.grant = m[GRANTS + one.name];
    return one;
}

struct look look_at(const uint8_t *m)
{
    struct look l = { .free = queue_read(m, FREE_LIST, LINK).count };
    struct queue list = queue_read(m, PROCESSOR_LIST, LIST_LINK);

    l.count = list.count;
    l.running = list.count;
    l.page_waiters = queue_read(m, PAGE_QUEUE, LINK).count;
    for (unsigned i = 0; i < list.count; i++) {
        l.one[i] = look_at_one(m, list.page[i]);
        l.ready += is_ready(m, list.page[i]);
        if (list.page[i] == m[RUNNING_PAGE]) {
            l.running = i;
            l.lr = get_lr(m, list.page[i]);
        }
    }
    return l;
}

/* All messages that wait, by holder in the order of the processor list, those in Q1 first. */
unsigned all_letters(const uint8_t *m, struct letter letters[PAGES])
{
    struct queue list = queue_read(m, PROCESSOR_LIST, LIST_LINK);
    unsigned count = 0;

    for (unsigned i = 0; i < 2 * list.count; i++) {
        unsigned holder = list.page[i / 2], word = i % 2 == 0 ? Q1 : Q2;
        struct queue q = queue_read(m, at(holder, word), LINK);

        for (unsigned n = 0; n < q.count && count < PAGES; n++) {
            unsigned page = q.page[n], from = m[at(page, FROM)];

            letters[count++] = (struct letter){ page, holder, word, from / 16, from % 16, m[at(page, LENGTH)] };
        }
    }
    return count;
}

bool is_idle(void)
{
    return world[RUNNING_PAGE] == 0;
}

bool others_ready(void)
{
    return look_at(world).ready >= 2;
}

/* Only to be asked while somebody runs. */
const struct one *runner_of(const struct look *l)
{
    return &l->one[l->running];
}

const struct one *find_one(const struct look *l, unsigned name)
{
    for (unsigned i = 0; i < l->count; i++)
        if (l->one[i].name == name)
            return &l->one[i];
    return NULL;
}

/* Some name that nobody has, or 0. */
unsigned absent_name(const struct look *l)
{
    unsigned name = from_to(1, HIGHEST_NAME);

    for (unsigned i = 0; i < HIGHEST_NAME; i++, name = name % HIGHEST_NAME + 1)
        if (find_one(l, name) == NULL)
            return name;
    return 0;
}

unsigned existing_name(const struct look *l)
{
    return l->count > 0 ? l->one[below(l->count)].name : 0;
}

/* Some code of the kind wanted, or 16 if there is none. */
unsigned pick_code(unsigned wanted_kind, unsigned lowest)
{
    unsigned found[CODES], count = 0;

    for (unsigned code = lowest; code < CODES; code++)
        if (code_kind(world, code) == wanted_kind)
            found[count++] = code;
    return count > 0 ? found[below(count)] : CODES;
}

unsigned highest_priority(const struct look *l)
{
    unsigned highest = 0;

    for (unsigned i = 0; i < l->count; i++)
        if (l->one[i].priority > highest)
            highest = l->one[i].priority;
    return highest;
}

unsigned allowed_priority(const struct look *l)
{
    unsigned own = runner_of(l)->priority;

    return chance(35) ? own : from_to(1, own);
}

unsigned priority_above(const struct look *l)
{
    unsigned own = runner_of(l)->priority, highest = highest_priority(l);

    if (own == 15)
        return 0;
    if (highest > own && chance(40))
        return from_to(own + 1, highest);  /* somebody has as much, or more */
    return chance(50) ? own + 1 : from_to(own + 1, 15);
}

/* Who asks for too much is stopped, so somebody else must be ready. */
unsigned some_priority(const struct look *l)
{
    unsigned above = l->ready > 1 && chance(5) ? priority_above(l) : 0;

    return above != 0 ? above : allowed_priority(l);
}

/* By EXI: where the arguments stand.  The X registers are page 0's of who runs, else kept in the page. */
static unsigned pointed_at(const uint8_t *m, unsigned page, unsigned lr)
{
    unsigned x = m[lr + 2] / 32u, kept = page == m[RUNNING_PAGE] ? 0 : at(page, 0), address = read_address(m, lr + 2);

    return (x & 4) != 0 ? wrap(address + read_address(m, kept + 24 + 2 * (x & 3))) : address;
}

bool wishes_to_create(const uint8_t *m, unsigned page, struct wish *w)
{
    unsigned lr = get_lr(m, page), code, from;

    if (any_protected(lr, 5) || m[lr] != INSTRUCTION || code_kind(m, 11) != KIND_BUILT_IN)
        return false;
    code = m[lr + 1] / 16u;
    *w = (struct wish){ .name = m[lr + 1] % 16u, .priority = m[lr + 2] / 16u, .name_at = lr + 1, .priority_at = lr + 2,
                        .fits = true };
    if (code != 14 || m[lr + 1] % 16u != 11 || code_kind(m, 14) != KIND_BUILT_IN)
        return code == 11;
    from = pointed_at(m, page, lr);
    if (any_protected(from, 5))
        return false;
    *w = (struct wish){ .name = m[from], .priority = m[from + 1], .name_at = from, .priority_at = from + 1 };
    w->exi = true;
    w->fits = w->name <= 15 && w->priority <= 15 && m[from + 2] <= 15 && m[from + 3] <= 31;
    return true;
}
