/*
 * Plays of ranks: CRP above its runner, as high as it and below it, with a page, without one and with a grant; and CRPs
 * that wait for a page while what they ask for changes.
 */
#include <string.h>

#include "breakers.h"

/* Word 7 by hand, and word 25 with it for who runs, if the memory stays well-formed. */
void promote(unsigned page, unsigned priority)
{
    uint8_t copy[WORDS], who = (uint8_t)(priority * 16 + name_of(world, page));
    bool runs = page == world[RUNNING_PAGE];

    memcpy(copy, world, sizeof copy);
    copy[at(page, WHO)] = who;
    if (runs)
        copy[RUNNING_WHO] = who;
    if (!well_formed(copy) || who == world[at(page, WHO)])
        return;
    poke(at(page, WHO), who);
    if (runs)
        poke(RUNNING_WHO, who);
}

/* After fresh: processor 1 gets a priority from which it can make others of many. */
void raise_first(void)
{
    promote(FIRST_PAGE, chance(30) ? 15 : from_to(2, 14));
}

/* One or two low priorities are all that there is. */
bool is_flat(const struct look *l)
{
    unsigned different = 0, bearers[16] = { 0 };

    for (unsigned i = 0; i < l->count; i++)
        different += bearers[l->one[i].priority]++ == 0;
    return different < 3 && highest_priority(l) < 4;
}

/* Higher ones come only by hand or from settings. */
void lift(void)
{
    if (may_break() || kind == KIND_CLOCK)
        promote(world[RUNNING_PAGE], from_to(5, 15));
    else
        start_with_crew(world[DIVIDER]);
    maybe_changes(50);
}

/* Some get other priorities by hand; then it is often tried what they may create. */
void scene_promotions(void)
{
    struct look l = look_at(world);

    for (unsigned left = from_to(1, 3); left > 0 && l.count > 0; left--) {
        unsigned page = some_one(&l)->page;

        promote(page, chance(20) ? 15 : chance(20) ? 1 : from_to(1, 15));
    }
    if (chance(30))
        order_judge();
    if (chance(60))
        scene_ranks();
}

/* With a priority above, equal or below, and a name that nobody has, that somebody has, or none. */
static struct plan some_creation(const struct look *l)
{
    unsigned own = runner_of(l)->priority, choice = below(100);
    struct plan p = { .code = 11, .g = { .field = absent_name(l) } };

    p.g.w = below(16);
    p.g.priority = choice < 55 ? priority_above(l) : choice < 80 ? own : from_to(1, own);
    if (p.g.field == 0 || chance(35))
        p.g.field = existing_name(l);
    if (chance(8))
        p.g.field = 0;
    p.g.address = from_to(TABLES_END, 7400);
    return p;
}

/* One that can ask for nothing above its own steps aside for a lower one. */
static void step_aside(unsigned name)
{
    if (chance(50))
        do_name(9, name);
    else
        do_wait(from_to(16, 50), 1);
}

/* One after the other asks; who is stopped for it is often started again. */
void scene_ranks(void)
{
    for (unsigned left = from_to(2, 5); left > 0 && others_ready() && !full(); left--) {
        struct look l = look_at(world);
        const struct one *me = runner_of(&l);
        struct plan p = some_creation(&l);

        if (me->priority == 15 && chance(70)) {
            step_aside(me->name);
            continue;
        }
        do_plan(&p);
        if (last.kind == ANSWER_FAULT && !is_idle() && chance(50))
            do_name(8, me->name);
    }
}

/* What the CRP of one that waits asks for is changed: too high a priority, another one, another name. */
static void change_wish(unsigned page, const struct wish *w)
{
    unsigned own = priority_of(world, page), choice = below(10);
    unsigned asked = choice < 6 ? from_to(own + 1, 15) : choice < 7 ? own : from_to(1, own);
    uint8_t name = (uint8_t)name_of(world, chance(50) ? world[PROCESSOR_LIST] : page);
    uint8_t priority = (uint8_t)(w->exi ? asked : asked * 16 + below(16));
    uint8_t code = (uint8_t)(w->exi ? name : 11 * 16 + name);

    if (choice == 9)
        order_put(w->name_at, &code, 1);
    else if (asked <= 15)
        order_put(w->priority_at, &priority, 1);
}

/* One that waits is made lower by hand than what it asks for. */
static void demote(unsigned page, const struct wish *w)
{
    if (w->priority > 1)
        promote(page, from_to(1, w->priority - 1));
}

/* The runner reads mail or deletes somebody else. */
static void free_a_page(unsigned waiter)
{
    struct look l = look_at(world);
    const struct one *me = runner_of(&l), *other;

    if (me->grant != 0 && me->name != waiter) {
        give_something_back();
    } else if (me->q2 > 0 && chance(80)) {
        try_to(6, 0);
    } else if (me->q1 > 0 && chance(80)) {
        do_message(5, 0, 0);
    } else {
        other = some_one(&l);
        if (other->name != waiter && other->wait != WAIT_PAGE)
            bury(other->name);
    }
}

static bool has_grant(unsigned name)
{
    return world[GRANTS + name] != 0;
}

/* Pages come back until one is granted to it, and it runs. */
static bool wait_for_grant(unsigned name)
{
    for (unsigned tries = 0; tries < 6 && !is_idle() && runner_name() != name && !has_grant(name) && !full(); tries++)
        free_a_page(name);
    return has_grant(name) && !is_idle() && let_run(name);
}

/* A grant that a fault has left serves the next SME or CRP. */
static void use_grant(unsigned name)
{
    unsigned page = find_processor(world, name), flag = from_to(1, 7), other;
    struct look l;

    if (is_idle() || page == 0 || !has_grant(name))
        return;
    if (!is_ready(world, page))
        do_name(8, name);
    if (is_idle() || !let_run(name))
        return;
    l = look_at(world);
    other = chance(50) ? absent_name(&l) : 0;
    if (other != 0) {
        do_create(other, allowed_priority(&l));
        return;
    }
    other = existing_name(&l);
    do_send(other, flag, below(5));
}

/* The CRP is run anew from its words as they are now. */
bool create_anew(void)
{
    unsigned name = runner_name();
    struct wish w;

    if (name == 0 || !has_grant(name) || !wishes_to_create(world, world[RUNNING_PAGE], &w))
        return false;
    order_step();
    maybe_changes(85);
    if (last.kind == ANSWER_FAULT)
        use_grant(name);
    return true;
}

/* Some CRPs that wait for a page are changed; then the first of them is run anew. */
void scene_second_thoughts(void)
{
    struct queue waiters = queue_read(world, PAGE_QUEUE, LINK);
    unsigned first = 0;
    struct wish w;

    for (unsigned i = 0; i < waiters.count && !full(); i++) {
        unsigned page = waiters.page[i];

        if (!wishes_to_create(world, page, &w))
            continue;
        if (first == 0)
            first = name_of(world, page);
        if (may_break() && chance(65))
            demote(page, &w);
        else if (chance(80))
            change_wish(page, &w);
    }
    if (first != 0 && wait_for_grant(first))
        create_anew();
}

static const struct one *pick_granted(const struct look *l)
{
    for (unsigned i = 0, from = below(l->count); i < l->count; i++) {
        const struct one *one = &l->one[(from + i) % l->count];

        if (one->grant != 0 && one->wait == WAIT_NONE)
            return one;
    }
    return NULL;
}

/* One with a grant asks for too much, once or twice, and then uses the grant. */
void scene_pledges(void)
{
    struct look l = look_at(world);
    const struct one *one = pick_granted(&l);
    unsigned name;

    if (one == NULL && may_break() && l.count > 0 && chance(50))
        one = some_granted(&l);
    if (one == NULL || is_idle() || one->wait != WAIT_NONE)
        return;
    name = one->name;
    if (one->stopped)
        do_name(8, name);
    for (unsigned left = from_to(1, 2); left > 0 && others_ready() && let_run(name); left--) {
        try_to(11, chance(60) ? 13 : chance(70) ? 9 : 12);
        if (!is_idle() && runner_name() != name)
            do_name(8, name);
    }
    use_grant(name);
}
