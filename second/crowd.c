/* Plays of a crowd: many processors, mail and waits among them, no page left, grants, and deletions of all kinds. */
#include "generate.h"

/* Creates processors up to a number and starts most of them; a higher one can create more different ones. */
void scene_grow(void)
{
    unsigned wanted = chance(40) ? HIGHEST_NAME : from_to(3, HIGHEST_NAME);

    if (chance(70))
        call_higher();
    for (unsigned left = 40; left > 0 && !is_idle() && !full(); left--) {
        struct look l = look_at(world);
        unsigned name = absent_name(&l);

        if (l.count >= wanted || name == 0 || (l.free == 0 && runner_of(&l)->grant == 0))
            break;
        if (!do_create(name, some_priority(&l)))
            break;
        if (last.kind == ANSWER_DONE && chance(50))
            do_name(chance(50) ? 8 : 10, name);
    }
    scene_revive();
}

/* A message with some flag and a text shorter than so many words. */
static void send_some(unsigned to, unsigned end)
{
    unsigned flag = from_to(1, 7);

    do_send(to, flag, below(end));
}

/* Sends until no page is free, to a few receivers so that long queues grow. */
static void flood(void)
{
    struct look first = look_at(world);
    unsigned favourite = existing_name(&first);

    for (unsigned left = 24; left > 0 && !is_idle() && world[FREE_LIST] != 0 && !full(); left--) {
        struct look l = look_at(world);
        unsigned to = chance(40) ? favourite : chance(80) ? existing_name(&l) : absent_name(&l);
        unsigned flag = from_to(1, chance(70) ? 3 : 7);

        if (to != 0 && !do_send(to, flag, below(chance(50) ? 4 : 30)))
            break;
    }
}

/* "wait for a page last": with no page left, all faults of SME and CRP still come first. */
static void fault_before_wait(void)
{
    if (chance(50))
        try_to(4, chance(35) ? 12 : 11);
    else
        try_to(11, chance(35) ? 9 : chance(50) ? 13 : chance(50) ? 12 : 11);
}

/* With no page left, one after the other asks for one and waits. */
static void starve(void)
{
    for (unsigned left = from_to(2, 14); left > 0 && others_ready() && world[FREE_LIST] == 0 && !full(); left--) {
        struct look l = look_at(world);
        unsigned name = absent_name(&l);

        if (runner_of(&l)->grant != 0 && chance(50))
            do_name(9, runner_of(&l)->name);
        else if (chance(30))
            fault_before_wait();
        else if (name != 0 && chance(60))
            do_create(name, some_priority(&l));
        else
            send_some(name != 0 && chance(25) ? name : existing_name(&l), 6);
    }
}

void scene_hunger(void)
{
    if (chance(60))
        scene_grow();
    flood();
    starve();
    if (chance(85))
        scene_second_thoughts();
    for (unsigned left = may_break() ? from_to(1, 5) : 0; left > 0; left--)
        scene_break();
    if (may_break() && chance(50))
        scene_litter();
    if (chance(40))
        scene_halt();
    if (chance(70))
        scene_relieve();
}

/* The runner reads or moves its mail, or deletes somebody, so that pages come back. */
void give_something_back(void)
{
    struct look l = look_at(world);
    const struct one *me = runner_of(&l);

    if (me->grant != 0 && chance(60) && create_anew())
        return;
    if (me->grant != 0 && chance(50)) {
        if (others_ready() && chance(20))
            try_to(4, chance(50) ? 12 : 11);
        else if (others_ready() && chance(20))
            try_to(11, chance(70) ? 13 : 9);
        else if (chance(60))
            try_to(chance(50) ? 4 : 11, 0);
        else
            scene_single();
        return;
    }
    if (me->q2 > 0 && chance(80)) {
        try_to(6, 0);
    } else if (me->q1 > 0 && chance(80)) {
        if (chance(50))
            try_to(7, 0);
        else
            do_message(5, 0, 0);
    } else if (others_ready() && chance(50)) {
        do_wait(from_to(16, 50), 1);
    } else {
        scene_reap();
    }
}

void scene_relieve(void)
{
    for (unsigned left = from_to(3, 10); left > 0 && !is_idle() && !full(); left--)
        give_something_back();
}

/* How much a processor is worth deleting: more for what was seldom deleted. */
static unsigned long worth(const struct one *one)
{
    unsigned long sum = 1;

    if (one->mail > 0)
        sum += 400 / (1 + marked(MARK_DELETE_MAIL));
    if (one->notices > 0)
        sum += 400 / (1 + marked(MARK_DELETE_NOTICE));
    if (one->odd > 0)
        sum += 900 / (1 + marked(MARK_DELETE_ODD));
    if (one->marked > 0)
        sum += 400 / (1 + marked(MARK_DELETE_MARKED));
    if (one->alive > 0)
        sum += 400 / (1 + marked(MARK_GIVEN_ALIVE));
    if (one->grant != 0)
        sum += 900 / (1 + marked(MARK_DELETE_GRANT));
    if (one->wait == WAIT_INTERRUPT)
        sum += 400 / (1 + marked(MARK_DELETE_INTERRUPT));
    if (one->wait == WAIT_PAGE)
        sum += 900 / (1 + marked(MARK_DELETE_PAGE));
    if (one->wait == WAIT_MESSAGE)
        sum += 400 / (1 + marked(MARK_DELETE_MESSAGE));
    return sum;
}

static const struct one *pick_victim(const struct look *l)
{
    unsigned long sum = 0, pick;
    unsigned i = 0;

    for (unsigned n = 0; n < l->count; n++)
        sum += n == l->running ? 0 : worth(&l->one[n]);
    if (sum == 0)
        return NULL;
    pick = below((uint32_t)sum);
    for (; i == l->running || pick >= worth(&l->one[i]); i++)
        if (i != l->running)
            pick -= worth(&l->one[i]);
    return &l->one[i];
}

/* Stops and deletes somebody. */
void scene_reap(void)
{
    struct look l;
    const struct one *victim;

    if (is_idle())
        return;
    l = look_at(world);
    victim = pick_victim(&l);
    if (victim == NULL)
        return;
    if (!victim->stopped)
        do_name(9, victim->name);
    do_name(12, victim->name);
}

/*
 * A notice whose sender comes to exist: the runner sends to nobody, creates that name, and lets
 * another one delete it while it holds the notice.
 */
void scene_notice(void)
{
    struct look l = look_at(world);
    unsigned name = absent_name(&l), holder;

    if (is_idle() || name == 0 || l.ready < 2 || l.free < 2)
        return;
    holder = runner_of(&l)->name;
    send_some(name, 5);
    if (chance(30))
        do_message(5, chance(50) ? name : 0, 0);
    do_create(name, allowed_priority(&l));
    if (chance(40))
        do_name(8, name);
    do_name(9, holder);
    if (!is_idle() && chance(30))
        send_some(holder, 5);
    do_name(12, holder);
}

/* One that waits for a message, if there is one. */
static const struct one *pick_waiter(const struct look *l)
{
    for (unsigned tries = 0; tries < 20; tries++) {
        const struct one *one = &l->one[below(l->count)];

        if (one->wait == WAIT_MESSAGE)
            return one;
    }
    return NULL;
}

static void send_to_waiter(void)
{
    struct look l = look_at(world);
    const struct one *waiter = pick_waiter(&l);
    unsigned flag = from_to(1, 7);

    if (waiter == NULL) {
        try_to(4, 0);
        return;
    }
    if (waiter->reason % 16 != 0 && chance(65))
        flag = waiter->reason % 16;
    do_send(waiter->name, flag, below(30));
}

/* One waits for a notice from one that will be deleted with the waiter's mail in its queue. */
static void wait_for_a_death(void)
{
    struct look l = look_at(world);
    const struct one *victim = pick_victim(&l);
    unsigned flag = from_to(1, 7), wanted = chance(60) ? flag : 0;

    if (victim == NULL || l.ready < 2)
        return;
    do_send(victim->name, flag, below(10));
    if (is_idle() || !others_ready())
        return;
    do_message(5, chance(60) ? victim->name : 0, wanted);
    if (is_idle() || name_of(world, world[RUNNING_PAGE]) == victim->name)
        return;
    do_name(9, victim->name);
    do_name(12, victim->name);
}

/* Waits for messages, sends that match and that do not, tests and reads. */
void scene_messages(void)
{
    for (unsigned left = from_to(3, 10); left > 0 && !is_idle() && !full(); left--) {
        struct look l = look_at(world);
        const struct one *me = runner_of(&l);
        unsigned choice = below(100), flag = below(8);

        if (choice < 20 && l.ready >= 2)
            do_message(5, chance(50) ? 0 : existing_name(&l), flag);
        else if (choice < 50)
            send_to_waiter();
        else if (choice < 60)
            send_some(me->name, 30);
        else if (choice < 75 && me->q1 > 0)
            try_to(7, 0);
        else if (choice < 90 && me->q2 > 0)
            try_to(6, 0);
        else if (choice < 97)
            wait_for_a_death();
        else
            do_name(9, existing_name(&l));
    }
}

/* The ready one that comes last, so that it runs when all others have gone to wait. */
static unsigned last_ready(const struct look *l)
{
    const struct one *lowest = NULL;

    for (unsigned i = 0; i < l->count; i++) {
        const struct one *one = &l->one[i];

        if (!one->stopped && one->wait == WAIT_NONE && (lowest == NULL || one->priority <= lowest->priority))
            lowest = one;
    }
    return lowest != NULL ? lowest->name : 1;
}

static void ring(unsigned k)
{
    struct plan gin = { .code = 2, .bad_word = -1, .exi = chance(50) };

    if (k >= 51)
        order_interrupt(world[LINE], 0);
    else if (k >= 16)
        order_interrupt(k, k >= 48 ? below(32) : 0);
    else if (!is_idle() && name_of(world, world[RUNNING_PAGE]) == k && build(&gin, 2, gin.exi, 0))
        issue(&gin);
}

/* Several wait for one interrupt with different counts, some are stopped or deleted, and it comes. */
void scene_gather(void)
{
    static const uint8_t edges[] = { 1, 1, 15, 16, 47, 54 };
    struct look l = look_at(world);
    unsigned choice = below(6);
    unsigned k = choice == 0 ? last_ready(&l) : choice == 1 ? from_to(48, 50) : choice == 2 ? from_to(51, 52)
               : choice == 3 ? world[LINE] : choice == 4 ? edges[below(sizeof edges)] : from_to(16, 47);

    for (unsigned left = from_to(2, 8); left > 0 && others_ready() && !full(); left--)
        do_wait(k, from_to(1, 3));
    l = look_at(world);
    for (unsigned i = 0; i < l.count && !is_idle() && others_ready(); i++)
        if (l.one[i].interrupt == k && chance(30)) {
            do_name(9, l.one[i].name);
            if (chance(30))
                do_name(12, l.one[i].name);
        }
    for (unsigned left = from_to(1, k < 51 ? 4 : 12); left > 0 && !full(); left--) {
        if (chance(20))
            burst_on(k);
        else
            ring(k);
        maybe_changes(k < 51 ? 80 : 40);
    }
}

/* Code 13 in all its forms, one after the other. */
void scene_address(void)
{
    struct plan p;

    for (unsigned left = from_to(3, 8); left > 0 && !is_idle() && !full(); left--) {
        bool exi = chance(50);

        if (build(&p, 13, exi, others_ready() && chance(25) ? from_to(11, 12) : 0))
            issue(&p);
    }
}

/* The runner's mail is moved and read, with short and long queues. */
void scene_mailbox(void)
{
    for (unsigned left = from_to(4, 9); left > 0 && !is_idle() && !full(); left--) {
        struct look l = look_at(world);
        const struct one *me = runner_of(&l);
        unsigned choice = below(100), flag = from_to(1, 4);

        if (me->q1 + me->q2 < 3 && l.free > 0 && choice < 60)
            do_send(me->name, flag, below(4));
        else if (me->q2 > 0 && choice < 50)
            try_to(6, others_ready() && chance(40) ? (chance(70) ? 11 : 6) : 0);
        else if (me->q1 > 0 && choice < 75)
            try_to(7, 0);
        else if (me->q1 > 0)
            try_to(5, 0);
        else if (me->q2 > 0 && others_ready() && chance(40))
            do_message(5, 0, 0);  /* what is in Q2 already doesn't keep it from waiting */
        else if (me->q2 > 0)
            try_to(7, 0);
        else
            break;
    }
}

/* Sends, rings or makes room, so that the one that waits is woken if all goes well. */
static void rouse(const struct one *one)
{
    if (one->wait == WAIT_INTERRUPT)
        ring(one->interrupt);
    else if (one->wait == WAIT_MESSAGE && one->reason % 16 != 0)
        do_send(one->name, one->reason % 16, below(5));
    else if (one->wait == WAIT_MESSAGE)
        send_some(one->name, 5);
    else
        try_to(6, 0);
}

/* Those that wait are stopped, tried with ST2, woken while stopped and started. */
void scene_halt(void)
{
    struct look l = look_at(world);

    for (unsigned i = 0; i < l.count && !is_idle() && !full(); i++) {
        const struct one *one = &l.one[i];

        if (one->wait == WAIT_NONE || chance(50))
            continue;
        if (!one->stopped)
            do_name(9, one->name);
        if (others_ready() && chance(25))
            do_name(10, one->name);
        if (chance(70))
            rouse(one);
        if (!is_idle() && chance(30))
            do_name(chance(50) ? 8 : 10, one->name);
    }
}
