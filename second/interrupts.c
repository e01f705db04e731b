/* Plays of single interrupts: for those that wait, bad ones, for an idle machine, and the clock. */
#include "generate.h"

/* Somebody waits for an interrupt that can be delivered from outside. */
unsigned waited_for(void)
{
    struct look l = look_at(world);
    unsigned found[PAGES], count = 0;

    for (unsigned i = 0; i < l.count; i++)
        if (l.one[i].wait == WAIT_INTERRUPT && l.one[i].interrupt >= 16)
            found[count++] = l.one[i].interrupt;
    if (count == 0)
        return from_to(16, 50);
    count = found[below(count)];
    return count > 50 ? world[LINE] : count;
}

void deliver_to_waiter(void)
{
    unsigned number = waited_for();

    order_interrupt(number, number >= 48 ? below(32) : 0);
}

static void bad_interrupt(void)
{
    unsigned choice = below(6), low = from_to(0, 2), high = from_to(1, 40);
    bool far = chance(50);

    switch (choice) {
    case 0: order_interrupt(15, 0); break;
    case 1: order_interrupt(from_to(51, 55), far ? low : 29 + high); break;
    case 2: order_interrupt(from_to(48, 50), far ? 65535 : 32); break;
    case 3: order_interrupt(47, 1); break;
    case 4: order_interrupt(chance(50) ? 0 : 65535, far ? 65535 : 0); break;
    default: order_interrupt(from_to(16, 47), high); break;
    }
}

void scene_interrupts(void)
{
    for (unsigned left = from_to(1, 6); left > 0; left--) {
        unsigned choice = below(100);

        if (choice < 70)
            deliver_to_waiter();
        else if (choice < 85)
            order_interrupt(from_to(16, 50), 0);
        else
            bad_interrupt();
        maybe_changes(80);
    }
}

/* Delivers what could wake somebody; true if it did. */
static bool wake_somebody(void)
{
    struct look l = look_at(world);

    for (unsigned i = 0; i < l.count; i++) {
        const struct one *one = &l.one[i];
        unsigned number = one->interrupt > 50 ? world[LINE] : one->interrupt, times = one->reason;

        if (one->stopped || one->wait != WAIT_INTERRUPT || number < 16)
            continue;
        if (one->interrupt > 50)
            times *= world[DIVIDER] * (one->interrupt == 51 ? 1u : 10u);
        if (times > 40 || one->interrupt > 52)
            continue;
        for (; times > 0 && is_idle() && !full(); times--) {
            order_interrupt(number, number >= 48 ? below(32) : 0);
            maybe_changes(40);
        }
        if (!is_idle())
            return true;
    }
    return false;
}

void scene_idle(void)
{
    struct registers r = { 1, 2, 0, 1, 0, 3000, 5 };

    for (unsigned left = may_break() ? from_to(0, 4) : 0; left > 0; left--)
        scene_break();
    if (chance(40))
        order_step();
    if (chance(20))
        order_registers();
    if (chance(35)) {
        r.a = chance(60) ? 256 : 7;
        order_set(&r);
    }
    if (chance(30))
        bad_interrupt();
    if (chance(25)) {
        any_burst();
        maybe_changes(80);
    }
    if (is_idle() && chance(35) && burst_for_waiters())
        return;
    if (is_idle() && !wake_somebody())
        unstick();
}

/* C1, C2 and C3 at their last values before an end, or one before. */
static void near_ends(void)
{
    uint8_t counters[3] = { 9, 59, 59 };

    for (unsigned i = 0; i < 3; i++)
        if (chance(20))
            counters[i]--;
    order_break(C1, counters, 3);
}

/* Waiters for 51-54, and the clock line again and again. */
void scene_clock(void)
{
    unsigned ticks = kind == KIND_CLOCK && chance(30) ? from_to(60, 700) : from_to(5, 40), bursts = 8;

    for (unsigned left = from_to(1, 4); left > 0 && others_ready() && !is_idle(); left--) {
        unsigned number = chance(80) ? from_to(51, 54) : world[LINE];

        do_wait(number, from_to(1, 3));
    }
    if ((may_break() || kind == KIND_CLOCK) && chance(70)) {
        near_ends();
        bursts = 50;
    }
    for (; ticks > 0 && !full(); ticks--, bursts = 8) {
        if (chance(bursts))
            burst_on(world[LINE]);
        else
            order_interrupt(world[LINE], 0);
        maybe_changes(kind == KIND_CLOCK ? 15 : 40);
    }
}
