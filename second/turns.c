/* Whose turn it is: who runs and who would, how another one comes to run, and how one is deleted. */
#include "generate.h"

unsigned runner_name(void)
{
    return is_idle() ? 0 : name_of(world, world[RUNNING_PAGE]);
}

bool built_in(unsigned code)
{
    return code_kind(world, code) == KIND_BUILT_IN;
}

/* Who would run if the runner did not: the first of the highest others that are ready; 0 if there is none. */
unsigned next_name(const struct look *l)
{
    const struct one *next = NULL;

    for (unsigned i = 0; i < l->count; i++) {
        const struct one *one = &l->one[i];

        if (i == l->running || one->stopped || one->wait != WAIT_NONE)
            continue;
        if (next == NULL || one->priority > next->priority)
            next = one;
    }
    return next != NULL ? next->name : 0;
}

struct plan plan_for(unsigned code, unsigned name)
{
    return (struct plan){ .code = code, .bad_word = -1, .g = { .field = name } };
}

/* Others are ready with the runner's priority, and would run before one that is made now. */
bool has_equals(const struct look *l)
{
    const struct one *next = find_one(l, next_name(l));

    return next != NULL && next->priority == runner_of(l)->priority;
}

/* The highest of those that are only stopped, if it is above the runner. */
bool call_higher(void)
{
    struct look l = look_at(world);
    const struct one *best = NULL;

    for (unsigned i = 0; i < l.count && !is_idle(); i++) {
        const struct one *one = &l.one[i];
        unsigned bar = best != NULL ? best->priority : runner_of(&l)->priority;

        if (one->stopped && one->wait == WAIT_NONE && one->priority > bar)
            best = one;
    }
    return best != NULL && do_name(8, best->name) && runner_name() == best->name;
}

/* Those before it step aside until the one of that name runs. */
bool let_run(unsigned name)
{
    for (unsigned tries = 0; tries < 3 && !is_idle() && runner_name() != name; tries++) {
        unsigned page = find_processor(world, name);

        if (page == 0 || !is_ready(world, page))
            return false;
        if (chance(50))
            do_name(9, runner_name());
        else
            do_wait(chance(40) ? from_to(48, 50) : from_to(16, 47), 1);
    }
    return runner_name() == name;
}

/*
 * All others that are ready, and no lower than the one of that name, are stopped in one put, the runner last; it is
 * started again by who runs now.
 */
bool clear_the_way(unsigned name)
{
    struct look l = look_at(world);
    const struct one *one = find_one(&l, name);
    struct plan batch[PAGES];
    unsigned count = 0, runner = runner_name();

    for (unsigned i = 0; i < l.count && one != NULL; i++) {
        const struct one *other = &l.one[i];

        if (other != one && i != l.running && is_ready(world, other->page) && other->priority >= one->priority)
            batch[count++] = plan_for(9, other->name);
    }
    batch[count++] = plan_for(9, runner);
    if (one == NULL || !is_ready(world, one->page) || !built_in(9))
        return false;
    issue_batch(batch, count);
    if (runner_name() == name)
        do_name(8, runner);
    return runner_name() == name;
}

/* STP where it is needed, and DEP. */
void bury(unsigned name)
{
    struct plan batch[2] = { plan_for(9, name), plan_for(12, name) };
    unsigned page = find_processor(world, name);

    if (page == 0 || page == world[RUNNING_PAGE] || !built_in(9) || !built_in(12))
        return;
    if ((world[at(page, STATE)] & STOPPED) != 0)
        do_name(12, name);
    else if (chance(50))
        issue_batch(batch, 2);
    else if (do_name(9, name) && !is_idle())
        do_name(12, name);
}
