/* Bursts: lists of every length for whoever waits, for the clock and for nobody, and bad ones of every kind. */
#include "generate.h"

static void add_pair(struct list *list, unsigned number, unsigned class_number)
{
    if (list->count + 2 > LONGEST_LIST)
        return;
    list->number[list->count++] = (uint16_t)number;
    list->number[list->count++] = (uint16_t)class_number;
}

/* A good pair. */
static void add_number(struct list *list, unsigned number)
{
    add_pair(list, number, number >= 48 ? below(32) : 0);
}

static unsigned pairs_of(const struct list *list)
{
    return list->count / 2;
}

/* The lengths that were seldom done come more often; two lists of five are short. */
static unsigned some_pairs(void)
{
    unsigned one = below(MOST_PAIRS + 1), other = below(MOST_PAIRS + 1);

    if (chance(40))
        return from_to(1, 5);
    return bursts_done(one) < bursts_done(other) ? one : other;
}

/* What from outside strikes this waiter: its interrupt, or the clock line for 51-54; 0 if nothing does. */
static unsigned bell_of(const struct one *one)
{
    if (one->wait != WAIT_INTERRUPT || one->interrupt < 16)
        return 0;
    return one->interrupt > 50 ? world[LINE] : one->interrupt;
}

/* What somebody waits for, or any interrupt. */
static unsigned some_bell(const struct look *l)
{
    for (unsigned tries = 0; tries < 4 && l->count > 0; tries++) {
        unsigned bell = bell_of(&l->one[below(l->count)]);

        if (bell != 0)
            return bell;
    }
    return from_to(16, 50);
}

static void mixed_list(struct list *list, const struct look *l, unsigned pairs)
{
    for (; pairs > 0; pairs--) {
        unsigned choice = below(100);

        add_number(list, choice < 40 ? some_bell(l) : choice < 55 ? world[LINE]
                       : choice < 70 ? from_to(48, 50) : from_to(16, 50));
    }
}

/* One number again and again, seldom another one between. */
static void same_list(struct list *list, unsigned number, unsigned pairs)
{
    unsigned others = chance(50) ? 0 : 20;

    for (; pairs > 0; pairs--)
        add_number(list, chance(others) ? from_to(16, 50) : number);
}

static void class_list(struct list *list, unsigned pairs)
{
    unsigned number = from_to(48, 50);

    for (; pairs > 0; pairs--)
        add_number(list, chance(50) ? number : from_to(48, 50));
}

static void swap_pairs(struct list *list, unsigned one, unsigned other)
{
    for (unsigned i = 0; i < 2; i++) {
        uint16_t kept = list->number[2 * one + i];

        list->number[2 * one + i] = list->number[2 * other + i];
        list->number[2 * other + i] = kept;
    }
}

/* The number that strikes this waiter as often as it waits for, as far as 32 pairs go. */
static void add_waiter(struct list *list, const struct one *one)
{
    unsigned bell = bell_of(one), times = bell != 0 ? one->reason : 0;

    if (one->interrupt > 50)
        times = times * world[DIVIDER] * (one->interrupt == 51 ? 1u : 10u);
    for (; times > 0 && pairs_of(list) < MOST_PAIRS; times--)
        add_number(list, bell);
}

/* A priority that two have who wait for different numbers, if there is one. */
static unsigned shared_priority(const struct look *l)
{
    for (unsigned tries = 0; tries < 20 && l->count > 0; tries++) {
        const struct one *one = &l->one[below(l->count)], *other = &l->one[below(l->count)];

        if (one->priority == other->priority && bell_of(one) != bell_of(other) && bell_of(one) != 0
            && bell_of(other) != 0 && !one->stopped && !other->stopped)
            return one->priority;
    }
    return 15;
}

/*
 * Wakes most waiters: in any order, with some more numbers; or the last on the processor list
 * first and none above some priority, so that from idle one runs that would not be chosen at the end.
 */
static void waking_list(struct list *list, const struct look *l)
{
    unsigned skipped = chance(50) ? 0 : 30, more = chance(50) ? 0 : below(5);
    bool backwards = chance(is_idle() ? 80 : 40);
    unsigned highest = backwards ? shared_priority(l) : 15;

    for (unsigned i = l->count; i > 0; i--)
        if (l->one[i - 1].priority <= highest && !chance(skipped))
            add_waiter(list, &l->one[i - 1]);
    if (backwards)
        return;
    for (; more > 0 && pairs_of(list) < MOST_PAIRS; more--)
        add_number(list, from_to(16, 50));
    for (unsigned i = pairs_of(list); i > 1; i--)
        swap_pairs(list, i - 1, below(i));
}

/* A list that is done on a well-formed memory. */
static struct list good_list(void)
{
    struct look l = look_at(world);
    struct list list = { 0 };
    unsigned choice = below(8), pairs = some_pairs();

    switch (choice) {
    case 0: mixed_list(&list, &l, pairs); break;
    case 1: mixed_list(&list, &l, from_to(1, 6)); break;
    case 2: same_list(&list, world[LINE], pairs); break;
    case 3: same_list(&list, some_bell(&l), pairs); break;
    case 4: class_list(&list, pairs); break;
    case 5: case 6: waking_list(&list, &l); break;
    default:
        for (; pairs > 0; pairs--)
            add_number(&list, from_to(16, 50));
        break;
    }
    return list;
}

/* After a burst most often all changed words are looked at, at times the clock and the runner only. */
static void look_after(void)
{
    if (chance(85))
        order_changes();
    else
        order_words(LINE, 13);
    if (chance(15))
        order_registers();
}

void scene_bursts(void)
{
    for (unsigned left = from_to(1, 3); left > 0 && !full(); left--) {
        struct list list = good_list();

        order_burst(&list);
        look_after();
    }
}

/* No interrupt from outside, often just beside them; over 255 the low byte looks like a good one. */
static unsigned bad_number(void)
{
    static const uint16_t edges[] = { 15, 51, 0, 14, 54, 55, 255, 128 };
    unsigned high = from_to(1, 3);

    if (chance(20))
        return 256 * high + from_to(16, 50);
    if (chance(50))
        return edges[below(sizeof edges / sizeof edges[0])];
    return chance(50) ? below(16) : from_to(51, 400);
}

/* Breaks one pair: 24, 25 in its three ways, or both; a good class number of a bad number stays or not. */
static void spoil_pair(struct list *list, unsigned place)
{
    uint16_t *pair = &list->number[2 * place];

    switch (below(7)) {
    case 0: pair[0] = (uint16_t)bad_number(); pair[1] = 0; break;
    case 1: pair[0] = (uint16_t)bad_number(); break;
    case 2: pair[0] = (uint16_t)from_to(48, 50); pair[1] = (uint16_t)(chance(50) ? 32 : from_to(32, 255)); break;
    case 3: pair[0] = (uint16_t)(chance(40) ? 47 : from_to(16, 47)); pair[1] = (uint16_t)from_to(1, 31); break;
    case 4: pair[0] = (uint16_t)from_to(16, 47); pair[1] = (uint16_t)from_to(32, 70); break;
    case 5: pair[0] = (uint16_t)from_to(16, 50); pair[1] = (uint16_t)(chance(80) ? 256 * from_to(1, 3) : 65535); break;
    default: pair[0] = (uint16_t)bad_number(); pair[1] = (uint16_t)from_to(32, 60); break;
    }
}

/* More good pairs, up to a number of them. */
static void lengthen(struct list *list, unsigned pairs)
{
    struct look l = look_at(world);

    while (pairs_of(list) < pairs)
        add_number(list, chance(30) ? some_bell(&l) : from_to(16, 50));
}

static void spoil_somewhere(struct list *list)
{
    if (pairs_of(list) > 0)
        spoil_pair(list, below(pairs_of(list)));
}

/* A bad pair at a place where seldom one was, before it good ones that wake; at times a second one, seldom more. */
static void bad_pair(struct list *list)
{
    unsigned one = from_to(1, MOST_PAIRS), other = from_to(1, MOST_PAIRS);
    unsigned place = bursts_refused_at(one) < bursts_refused_at(other) ? one : other;

    if (chance(15))
        place = chance(50) ? 1 : MOST_PAIRS;
    if (pairs_of(list) > place && chance(50))
        list->count = 2 * place;
    lengthen(list, chance(40) ? place : from_to(place, MOST_PAIRS));
    spoil_pair(list, place - 1);
    if (chance(40))
        spoil_somewhere(list);
    for (unsigned i = place; chance(10) && i < pairs_of(list); i++)
        spoil_pair(list, i);
}

static void odd_list(struct list *list)
{
    static const uint8_t lengths[] = { 1, 1, 3, 3, 33, 63, 63, 65 };
    unsigned length = chance(60) ? lengths[below(sizeof lengths)] : 2 * below(45) + 1;

    lengthen(list, length / 2 + 1);
    if (chance(40))
        spoil_somewhere(list);
    list->count = length;
}

/* Most often one pair too many; at times as many numbers as a line holds, of one digit each. */
static void long_list(struct list *list)
{
    if (chance(15)) {
        unsigned count = chance(50) ? LONGEST_LIST : from_to(2 * MOST_PAIRS + 1, LONGEST_LIST);

        for (list->count = 0; list->count < count; list->count++)
            list->number[list->count] = (uint16_t)below(10);
        return;
    }
    lengthen(list, chance(55) ? MOST_PAIRS + 1 : from_to(MOST_PAIRS + 2, 48));
    if (chance(40))
        spoil_somewhere(list);
}

/* None of them changes anything. */
void scene_bad_bursts(void)
{
    for (unsigned left = from_to(3, 7); left > 0 && !full(); left--) {
        struct list list = good_list();
        unsigned choice = below(100);

        if (choice < 65)
            bad_pair(&list);
        else if (choice < 82)
            odd_list(&list);
        else
            long_list(&list);
        order_burst(&list);
        maybe_changes(40);
    }
    maybe_changes(85);
}

/* A good, empty, odd, bad or too long list, on any memory at all. */
void any_burst(void)
{
    struct list list = { 0 };
    unsigned form = below(5);

    for (unsigned left = form == 1 ? 0 : from_to(1, 4); left > 0; left--)
        add_number(&list, from_to(16, 50));
    if (form == 2)
        list.count -= 1;
    while (form == 3 && pairs_of(&list) <= MOST_PAIRS)
        add_number(&list, from_to(16, 50));
    if (form == 4 || (form > 1 && chance(30)))
        spoil_somewhere(&list);
    order_burst(&list);
}

/* Somebody is woken from idle by a burst; true if so. */
bool burst_for_waiters(void)
{
    struct look l = look_at(world);
    struct list list = { 0 };

    waking_list(&list, &l);
    order_burst(&list);
    look_after();
    return !is_idle();
}

/* One number, by itself, several times or among others; 51-54 come by the clock line. */
void burst_on(unsigned number)
{
    struct look l = look_at(world);
    struct list list = { 0 };

    if (number < 16 || chance(30))
        mixed_list(&list, &l, from_to(1, 8));
    else
        same_list(&list, number > 50 ? world[LINE] : number, chance(50) ? from_to(1, 6) : some_pairs());
    order_burst(&list);
}

enum { MOST_LINES = 5 };

/* An interrupt for somebody to wait for. */
static unsigned some_line(void)
{
    switch (below(6)) {
    case 0: case 1: return from_to(48, 50);
    case 2: return world[LINE];
    case 3: return world[DIVIDER] < 6 ? 51 : 16;
    default: return from_to(16, 47);
    }
}

/* Some of those that wait are rung for singly, or the memory is broken and mended while they wait. */
static void meanwhile(const unsigned *lines)
{
    for (unsigned left = chance(40) ? from_to(1, 3) : 0; left > 0; left--) {
        unsigned number = lines[below(MOST_LINES)];

        if (number > 50)
            number = world[LINE];
        order_interrupt(number, number >= 48 ? below(32) : 0);
        maybe_changes(80);
    }
    for (unsigned left = may_break() ? from_to(0, 2) : 0; left > 0; left--)
        scene_break();
    if (chance(25))
        scene_bad_bursts();
}

/* One that waits for an interrupt is stopped; a burst wakes it all the same. */
static void stop_waiter(void)
{
    struct look l = look_at(world);
    const struct one *one = &l.one[below(l.count)];

    if (one->wait == WAIT_INTERRUPT && !one->stopped)
        do_name(9, one->name);
}

/*
 * Several go to wait for a few interrupts, often until nobody is left to run, and a burst
 * comes for them: from idle the first one woken runs, and who comes later takes over only if higher.
 */
void scene_muster(void)
{
    unsigned lines[MOST_LINES];
    bool all = chance(75);

    for (unsigned i = 0; i < MOST_LINES; i++)
        lines[i] = i > 0 && chance(30) ? lines[i - 1] : some_line();
    if (look_at(world).ready < 5)
        scene_revive();
    for (unsigned left = all ? 12 : from_to(2, 8); left > 0 && !is_idle() && !full(); left--) {
        unsigned line = lines[below(MOST_LINES)];

        if (!all && !others_ready())
            break;
        if (!do_wait(line, chance(60) ? 1 : from_to(2, 4)))
            break;
        if (!is_idle() && chance(12))
            stop_waiter();
    }
    meanwhile(lines);
    burst_for_waiters();
    if (chance(50))
        scene_bursts();
}
